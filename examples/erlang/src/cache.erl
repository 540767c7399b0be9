%% Keeps values for so many milliseconds. With the clock `monotonic' it is right. With `system' it has a fault: after a leap of the
%% system clock it has lost what is new, or gives out what is old.
-module(cache).
-behaviour(gen_server).

-export([start_link/2, put/3, get/2]).
-export([init/1, handle_call/3, handle_cast/2]).

start_link(Clock, Length) ->
    gen_server:start_link(?MODULE, {Clock, Length}, []).

put(Cache, Key, Value) ->
    gen_server:call(Cache, {put, Key, Value}).

get(Cache, Key) ->
    gen_server:call(Cache, {get, Key}).

init({Clock, Length}) ->
    {ok, {Clock, Length, #{}}}.

handle_call({put, Key, Value}, _, {Clock, Length, Kept}) ->
    {reply, ok, {Clock, Length, Kept#{Key => {Value, now_of(Clock) + Length}}}};
handle_call({get, Key}, _, State = {Clock, _, Kept}) ->
    Now = now_of(Clock),
    case Kept of
        #{Key := {Value, Ends}} when Now < Ends -> {reply, {ok, Value}, State};
        _ -> {reply, none, State}
    end.

handle_cast(_, State) ->
    {noreply, State}.

now_of(monotonic) -> erlang:monotonic_time(millisecond);
now_of(system) -> erlang:system_time(millisecond).
