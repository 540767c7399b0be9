%% A door that closes by itself ten minutes after it was opened, by a state timeout of gen_statem.
-module(door).
-behaviour(gen_statem).

-export([start_link/0, open/1, state/1]).
-export([init/1, callback_mode/0, handle_event/4]).

start_link() -> gen_statem:start_link(?MODULE, [], []).
open(Door) -> gen_statem:call(Door, open).
state(Door) -> gen_statem:call(Door, state).

init([]) -> {ok, closed, none}.
callback_mode() -> handle_event_function.

handle_event({call, From}, open, _, _) ->
    {next_state, opened, none, [{reply, From, ok}, {state_timeout, 600000, close}]};
handle_event({call, From}, state, State, _) ->
    {keep_state_and_data, [{reply, From, State}]};
handle_event(state_timeout, close, opened, _) ->
    {next_state, closed, none}.
