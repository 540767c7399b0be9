#!/usr/bin/env escript
%%! -pa _build/default/lib/ertime/ebin
%% What a call of the time costs a process that sees no clock, by the depth of its supervision tree, where a clock was opened on
%% the node: the least of 200 calls, in microseconds. In the folder of the package:
%%
%%     rebar3 compile && bench/lookup.escript
-mode(compile).

main(_) ->
    _ = ertime:open(#{}),
    [io:format("depth ~2w: first ~.2f us, then ~.3f us~n", [Depth | at_depth(Depth)]) || Depth <- [0, 3, 5, 8, 12, 50]].

at_depth(Depth) ->
    Self = self(),
    Root = spawn(fun() -> nest(Depth, Self) end),
    receive {took, First, Least} -> exit(Root, kill), [First, Least] end.

nest(0, To) ->
    First = once(),
    To ! {took, First / 1000, lists:min([many(100) || _ <- lists:seq(1, 50)]) / 1000 / 100},
    receive stop -> ok end;
nest(Depth, To) ->
    proc_lib:spawn_link(fun() -> nest(Depth - 1, To) end),
    receive stop -> ok end.

once() -> many(1).

many(Count) ->
    Start = erlang:monotonic_time(nanosecond),
    loop(Count),
    erlang:monotonic_time(nanosecond) - Start.

loop(0) -> ok;
loop(Count) -> ertime:monotonic_time(), loop(Count - 1).
