%% Asks another process for a connection, and gives up after five seconds. The answer may come a moment later all the same:
%% `tolerant' lets it pass, `strict' doesn't expect it, and ends by it.
-module(connection).
-behaviour(gen_statem).

-export([start_link/2, state/1]).
-export([init/1, callback_mode/0, handle_event/4]).

-define(PATIENCE, 5000).

start_link(How, Peer) ->
    gen_statem:start_link(?MODULE, {How, Peer}, []).

state(Connection) ->
    gen_statem:call(Connection, state).

init({How, Peer}) ->
    Peer ! {connect, self()},
    {ok, connecting, How, {state_timeout, ?PATIENCE, give_up}}.

callback_mode() -> handle_event_function.

handle_event(info, connected, connecting, How) ->
    {next_state, connected, How};
handle_event(state_timeout, give_up, connecting, How) ->
    {next_state, given_up, How};
handle_event(info, connected, given_up, tolerant) ->
    keep_state_and_data;
handle_event({call, From}, state, State, _) ->
    {keep_state_and_data, {reply, From, State}}.
