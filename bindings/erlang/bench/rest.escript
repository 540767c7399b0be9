#!/usr/bin/env escript
%%! -pa _build/default/lib/ertime/ebin
%% How long a step of `advance' takes, in milliseconds of real time: processes that all start a timer of a second of the clock again,
%% beside others that keep schedulers busy, and see another clock or none. The median of 100 steps, and the longest. Each step is
%% measured beside what no step can do without: that each of the processes gets a message, runs, and answers. In the folder of the package:
%%
%%     rebar3 compile && bench/rest.escript [STEPS]
%%
%% Where the machine does other work, `chrt -r 1 bench/rest.escript' gives its processors to the node.
-mode(compile).

-define(SECOND, 1000).

main(Arguments) ->
    Steps = case Arguments of [Count] -> list_to_integer(Count); [] -> 100 end,
    _ = application:set_env(ertime, rest_limit, 60000),
    io:format("~6s ~6s  ~-14s ~12s ~12s ~12s~n", ["procs", "busy", "they see", "answers", "a step", "longest"]),
    [measure(Number, Busy, Sees, Steps) || {Busy, Sees} <- [{0, none}, {1, none}, {4, other}, {4, none}, {8, none}], Number <- [1, 10, 100]].

measure(Number, Busy, Sees, Steps) ->
    Other = ertime:open(#{}),
    Burners = [spawn(fun() -> ertime:use(case Sees of other -> Other; none -> real end), burn() end) || _ <- lists:seq(1, Busy)],
    timer:sleep(100),
    {Answers, Times} = lists:unzip(ertime:test(#{start => 0, seen => false}, fun(Clock) -> steps(Clock, Number, Steps) end)),
    [exit(Pid, kill) || Pid <- Burners],
    true = ertime:close(Other),
    Named = case Sees of other -> "another clock"; none -> "none" end,
    io:format("~6w ~6w  ~-14s ~12.3f ~12.3f ~12.3f~n", [Number, Busy, Named, median(Answers), median(Times), lists:max(Times)]).

steps(Clock, Number, Steps) ->
    Pids = [spawn_link(fun() -> beat() end) || _ <- lists:seq(1, Number)],
    0 = ertime:advance(Clock, 1),
    [{took(fun() -> answers(Pids) end), took(fun() -> Number = ertime:advance(Clock, ?SECOND) end)} || _ <- lists:seq(1, Steps)].

answers(Pids) ->
    lists:foreach(fun(Pid) -> Pid ! {ask, self()} end, Pids),
    lists:foreach(fun(Pid) -> receive {Pid, answer} -> ok end end, Pids).

beat() ->
    wait(ertime:start_timer(?SECOND, self(), beat)).

wait(Timer) ->
    receive
        {timeout, Timer, beat} -> beat();
        {ask, From} -> From ! {self(), answer}, wait(Timer)
    end.

burn() ->
    lists:seq(1, 1000),
    burn().

took(Fun) ->
    Start = os:perf_counter(nanosecond),
    _ = Fun(),
    (os:perf_counter(nanosecond) - Start) / 1000000.

median(Numbers) -> lists:nth((length(Numbers) + 1) div 2, lists:sort(Numbers)).
