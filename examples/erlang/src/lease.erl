%% A lease for so many milliseconds. With the clock `monotonic' it is right. With `system' it has a fault: it takes the system
%% time for an interval, and is lost, or kept for ever, when the system clock leaps.
-module(lease).
-behaviour(gen_server).

-export([start_link/2, is_held/1, renew/1]).
-export([init/1, handle_call/3, handle_cast/2]).

start_link(Clock, Length) ->
    gen_server:start_link(?MODULE, {Clock, Length}, []).

is_held(Lease) ->
    gen_server:call(Lease, is_held).

renew(Lease) ->
    gen_server:call(Lease, renew).

init({Clock, Length}) ->
    {ok, {Clock, Length, now_of(Clock) + Length}}.

handle_call(is_held, _, State = {Clock, _, Ends}) ->
    {reply, now_of(Clock) < Ends, State};
handle_call(renew, _, {Clock, Length, _}) ->
    {reply, ok, {Clock, Length, now_of(Clock) + Length}}.

handle_cast(_, State) ->
    {noreply, State}.

now_of(monotonic) -> erlang:monotonic_time(millisecond);
now_of(system) -> erlang:system_time(millisecond).
