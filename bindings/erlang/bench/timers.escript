#!/usr/bin/env escript
%%! -pa _build/default/lib/ertime/ebin
%% What the calls take, of the module erlang and of ertime under a clock, in one run: the least of 25, in nanoseconds for one.
%% And what a timer takes of memory, and an hour of a gen_server with a beat a second. In the folder of the package:
%%
%%     rebar3 compile && bench/timers.escript
-mode(compile).

main(_) ->
    Rows = [
        {"monotonic_time/0", 5000, fun(M, _) -> M:monotonic_time() end},
        {"system_time/0", 5000, fun(M, _) -> M:system_time() end},
        {"start_timer + cancel_timer, an atom", 1000, fun(M, _) -> M:cancel_timer(M:start_timer(60000, self(), x)) end},
        {"start_timer + cancel_timer, a tuple", 1000, fun(M, T) -> M:cancel_timer(M:start_timer(60000, self(), T)) end},
        {"send_after + read_timer + cancel_timer", 1000, fun(M, _) -> R = M:send_after(60000, self(), x), M:read_timer(R), M:cancel_timer(R) end}
    ],
    Before = [{Name, least(fun() -> loop(N, fun() -> Do(ertime, {tick, self(), 1}) end) end) / N} || {Name, N, Do} <- [hd(Rows)]],
    Plain = [{Name, least(fun() -> loop(N, fun() -> Do(erlang, {tick, self(), 1}) end) end) / N} || {Name, N, Do} <- [hd(Rows)]],
    io:format("without a clock: monotonic_time of ertime ~.1f, of erlang ~.1f~n", [element(2, hd(Before)), element(2, hd(Plain))]),
    Clock = ertime:open(#{slots => 65536}),
    ertime:use(Clock),
    lists:foreach(
        fun({Name, N, Do}) ->
            {Real, Ours} = both(N, Do, 25, {infinity, infinity}),
            io:format("~s: erlang ~.1f, ertime ~.1f, ratio ~.2f~n", [Name, Real / N, Ours / N, Ours / Real])
        end,
        Rows
    ),
    [io:format("bytes for each of 50,000 timers with ~s: erlang ~w, ertime ~w~n", [What, bytes(erlang, Message), bytes(ertime, Message)])
     || {What, Message} <- [{"an atom", x}, {"a tuple", {tick, self(), 1}}]],
    {Took, _} = timer:tc(fun() ->
        C = ertime:open(#{}),
        ertime:with(C, fun() -> ertime:send_after(3600000, self(), x), ertime:advance(C, 3600000) end),
        ertime:close(C)
    end),
    Hours = [element(1, timer:tc(fun() ->
        C = ertime:open(#{}),
        ertime:with(C, fun() -> ertime:send_after(3600000, self(), x), ertime:advance(C, 3600000) end),
        ertime:close(C)
    end)) || _ <- lists:seq(1, 25)],
    io:format("a timer of an hour, with open and close: first ~w us, least ~w us~n", [Took, lists:min(Hours)]),
    Beats = [element(1, timer:tc(fun() ->
        ertime:with(Clock, fun() ->
            {Pid, Monitor} = spawn_monitor(fun() -> beat(3600) end),
            ertime:advance(Clock, 3600000),
            receive {'DOWN', Monitor, process, Pid, normal} -> ok end
        end)
    end)) || _ <- lists:seq(1, 9)],
    io:format("an hour with 3,600 beats: ~w us~n", [lists:min(Beats)]).

beat(0) -> ok;
beat(N) ->
    ertime:send_after(1000, self(), beat),
    receive beat -> beat(N - 1) end.

%% In turn, so that both have the same load beside them.
both(_, _, 0, Least) -> Least;
both(N, Do, Left, {Real, Ours}) ->
    A = took(fun() -> loop(N, fun() -> Do(erlang, {tick, self(), 1}) end) end),
    B = took(fun() -> loop(N, fun() -> Do(ertime, {tick, self(), 1}) end) end),
    both(N, Do, Left - 1, {min(Real, A), min(Ours, B)}).

least(Do) -> lists:min([took(Do) || _ <- lists:seq(1, 25)]).

took(Do) ->
    Start = erlang:monotonic_time(nanosecond),
    Do(),
    erlang:monotonic_time(nanosecond) - Start.

loop(0, _) -> ok;
loop(N, Do) -> Do(), loop(N - 1, Do).

bytes(Module, Message) ->
    Self = self(),
    {Pid, Monitor} = spawn_monitor(fun() ->
        erlang:garbage_collect(),
        Before = erlang:memory(total),
        Timers = [Module:start_timer(600000, Self, Message) || _ <- lists:seq(1, 50000)],
        erlang:garbage_collect(),
        After = erlang:memory(total),
        [Module:cancel_timer(Timer) || Timer <- Timers],
        exit({bytes, (After - Before) div 50000})
    end),
    receive {'DOWN', Monitor, process, Pid, {bytes, Bytes}} -> Bytes end.
