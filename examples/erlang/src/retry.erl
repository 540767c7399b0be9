%% Calls a function until it answers {ok, Value}, and waits between: a second at first, each time twice as long, an hour at most.
-module(retry).

-export([run/1]).

-define(FIRST, 1000).
-define(LONGEST, 3600000).

run(Fun) ->
    run(Fun, ?FIRST).

run(Fun, Wait) ->
    case Fun() of
        {ok, Value} ->
            Value;
        error ->
            timer:sleep(Wait),
            run(Fun, min(2 * Wait, ?LONGEST))
    end.
