%% Seeds of every kind of fault, for so many seconds: under the sanitizers, see .ci/check_erlang. What holds under all of them is
%% asserted, so a run that fails ends it with its report.
%%
%%     erl -noshell -pa .. -run ertime_faults_soak main 3600
-module(ertime_faults_soak).

-include_lib("stdlib/include/assert.hrl").
-compile({parse_transform, ertime_transform}).

-export([main/1]).

-define(SEEDS, 20).

main([Seconds]) ->
    logger:set_primary_config(level, none),
    Until = erlang:monotonic_time(second) + list_to_integer(Seconds),
    Done = go_on(0, Until),
    io:format("~w calls of a test, each under a seed~n", [Done]),
    halt(0, [{flush, true}]).

go_on(From, Until) ->
    case erlang:monotonic_time(second) < Until of
        true ->
            Options = #{limit => infinity, faults => [silent, loud], deterministic => From rem 3 =:= 0, slots => element(1 + From div ?SEEDS rem 3, {256, 1024, 160})},
            lists:foreach(fun(Test) -> ok = ertime:seeds({From, From + ?SEEDS - 1}, Options, Test) end, tests()),
            go_on(From + ?SEEDS, Until);
        false ->
            From * length(tests())
    end.

tests() ->
    [fun waits/1, fun timers/1, fun servers/1, fun offsets/1, fun exits/1].

now_ms() -> erlang:monotonic_time(millisecond).

%% Nobody wakes early.
waits(_) ->
    Test = self(),
    Pids = [spawn_link(fun() -> waits(Test, N, 20) end) || N <- lists:seq(1, 12)],
    _ = [receive {Pid, done} -> ok end || Pid <- Pids],
    ok.

waits(Test, _, 0) ->
    Test ! {self(), done};
waits(Test, N, Left) ->
    Before = now_ms(),
    timer:sleep(17 * N),
    ?assert(now_ms() - Before >= 17 * N),
    waits(Test, N, Left - 1).

%% Each timer comes once or is cancelled once; what is left of it never grows.
timers(Clock) ->
    Timers = [{N, erlang:start_timer(37 * N, self(), {N, lists:duplicate(N rem 7, x)})} || N <- lists:seq(1, 30)],
    Cancelled = [N || {N, Timer} <- Timers, N rem 3 =:= 0, is_integer(erlang:cancel_timer(Timer))],
    Left = [erlang:read_timer(Timer) || {_, Timer} <- Timers],
    timer:sleep(5000),
    _ = [?assert(erlang:read_timer(Timer) =:= false orelse erlang:read_timer(Timer) =< Before) || {{_, Timer}, Before} <- lists:zip(Timers, Left)],
    _ = ertime:info(Clock),
    timer:sleep(60000),
    Came = lists:sort(timeouts()),
    ?assertEqual([N || {N, _} <- Timers] -- Cancelled, Came).

timeouts() ->
    receive {timeout, _, {N, _}} -> [N | timeouts()] after 0 -> [] end.

%% Calls with a time limit are answered, or told that they took too long.
servers(_) ->
    Server = spawn_link(fun Serve() -> receive {From, Reference, ask} -> timer:sleep(50), From ! {Reference, answer}, Serve() end end),
    Ask = fun() ->
        Reference = make_ref(),
        Server ! {self(), Reference, ask},
        receive {Reference, answer} -> ok after 200 -> late end
    end,
    ?assertEqual([], [Answer || _ <- lists:seq(1, 30), Answer <- [Ask()], Answer =/= ok, Answer =/= late]).

%% Whoever monitors the offset hears the last one.
offsets(_) ->
    Monitor = erlang:monitor(time_offset, clock_service),
    timer:sleep(120000),
    Last = changes(Monitor, none),
    ?assert(Last =:= none orelse is_integer(Last)),
    true = erlang:demonitor(Monitor, [flush]).

changes(Monitor, Last) ->
    receive {'CHANGE', Monitor, time_offset, clock_service, Offset} -> changes(Monitor, Offset) after 0 -> Last end.

%% Processes end with timers that are armed, and each had a slot for all that it started.
exits(_) ->
    Test = self(),
    Ended = [spawn_monitor(fun() -> _ = [erlang:send_after(N * 10, Test, {late, N}) || N <- lists:seq(1, 5)], _ = erlang:send_after(100 * N0, self(), x), timer:sleep(13 * N0) end) || N0 <- lists:seq(1, 20)],
    timer:sleep(600000),
    ?assertEqual([normal || _ <- Ended], [receive {'DOWN', Monitor, process, Pid, Reason} -> Reason end || {Pid, Monitor} <- Ended]),
    ?assertEqual(100, length(late())).

late() ->
    receive {late, N} -> [N | late()] after 0 -> [] end.
