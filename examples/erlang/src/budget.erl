%% Calls a function until it answers {ok, Value}, with a second between, for so many milliseconds. `looks' is right: it looks at the
%% clock before each call. `sums' has a fault: it adds up what it meant to wait, and calls too late where a wait took longer.
-module(budget).

-export([run/3]).

-define(WAIT, 1000).

run(looks, Fun, Milliseconds) ->
    looks(Fun, erlang:monotonic_time(millisecond) + Milliseconds);
run(sums, Fun, Milliseconds) ->
    sums(Fun, Milliseconds).

looks(Fun, Ends) ->
    case erlang:monotonic_time(millisecond) < Ends andalso Fun() of
        false ->
            timeout;
        {ok, Value} ->
            {ok, Value};
        error ->
            timer:sleep(?WAIT),
            looks(Fun, Ends)
    end.

sums(_, Left) when Left =< 0 ->
    timeout;
sums(Fun, Left) ->
    case Fun() of
        {ok, Value} ->
            {ok, Value};
        error ->
            timer:sleep(?WAIT),
            sums(Fun, Left - ?WAIT)
    end.
