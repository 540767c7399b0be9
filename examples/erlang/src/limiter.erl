%% Lets so many calls pass in each period. With the clock `monotonic' it is right. With `os' it has a fault: after a leap of the
%% system clock it lets twice as many pass, or none until the clock has caught up.
-module(limiter).
-behaviour(gen_server).

-export([start_link/3, passes/1]).
-export([init/1, handle_call/3, handle_cast/2]).

start_link(Clock, Most, Period) ->
    gen_server:start_link(?MODULE, {Clock, Most, Period}, []).

passes(Limiter) ->
    gen_server:call(Limiter, passes).

init({Clock, Most, Period}) ->
    {ok, {Clock, Most, Period, now_of(Clock), 0}}.

handle_call(passes, _, {Clock, Most, Period, Began, Count}) ->
    Now = now_of(Clock),
    case Now - Began >= Period of
        true -> {reply, true, {Clock, Most, Period, Now, 1}};
        false when Count < Most -> {reply, true, {Clock, Most, Period, Began, Count + 1}};
        false -> {reply, false, {Clock, Most, Period, Began, Count}}
    end.

handle_cast(_, State) ->
    {noreply, State}.

now_of(monotonic) -> erlang:monotonic_time(millisecond);
now_of(os) -> os:system_time(millisecond).
