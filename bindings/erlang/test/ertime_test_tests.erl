%% Tests of tests: nothing of one is left, what would hang is told, and time that goes on by itself. This module is transformed.
-module(ertime_test_tests).

-compile({parse_transform, ertime_transform}).

-include_lib("eunit/include/eunit.hrl").

-define(HOUR, 3600000).

%% What it answers and raises.
result_test_() ->
    {timeout, 120, fun result/0}.

result() ->
    ?assertEqual(5, ertime:test(fun(Clock) -> ertime:advance(Clock, 5), erlang:monotonic_time(millisecond) - erlang:system_info(start_time) div 1000000 end)),
    ?assertEqual(multi_time_warp, ertime:test([{mode, multi_time_warp}], fun(_) -> erlang:system_info(time_warp_mode) end)),
    ?assertError(oops, ertime:test(fun(_) -> error(oops) end)),
    ?assertThrow(oops, ertime:test(fun(_) -> throw(oops) end)),
    ?assertExit(oops, ertime:test(fun(_) -> exit(oops) end)),
    ?assertExit(killed, ertime:test(fun(_) -> exit(self(), kill), timer:sleep(1) end)),
    ?assertError(badarg, ertime:test(#{slots => 0}, fun(_) -> ok end)),
    ?assertError(badarg, ertime:test(#{advance => never}, fun(_) -> ok end)),
    ?assertError(badarg, ertime:test(#{}, ok)),
    try ertime:test(fun(_) -> ?assertEqual(1, maps:get(slots, ertime:info())) end)
    catch error:{assertEqual, _}:Stack -> ?assertMatch([{?MODULE, _, _, _} | _], Stack)
    end.

%% The clock is closed, the mailbox is as it was, and linked processes are gone.
nothing_is_left_test_() ->
    {timeout, 120, fun nothing_is_left/0}.

nothing_is_left() ->
    Self = self(),
    Ends = [fun() -> ok end, fun() -> error(oops) end, fun() -> exit(oops) end, fun() -> exit(self(), kill), receive after infinity -> ok end end],
    lists:foreach(
        fun(End) ->
            catch ertime:test(fun(Clock) ->
                erlang:send_after(1, self(), mine),
                Linked = spawn_link(fun() -> timer:sleep(?HOUR) end),
                Self ! {opened, Clock, Linked},
                ertime:advance(Clock, 1),
                End()
            end),
            {Clock, Linked} = receive {opened, C, L} -> {C, L} end,
            ?assertEqual(false, ertime:close(Clock)),
            ?assertEqual(none, ertime:clock()),
            ?assertEqual({messages, []}, process_info(self(), messages)),
            ?assertEqual(gone, ended(Linked))
        end,
        Ends
    ).

%% Whoever is killed amid a test leaves neither its process nor its clock.
caller_is_killed_test_() ->
    {timeout, 120, fun caller_is_killed/0}.

caller_is_killed() ->
    Self = self(),
    Caller = spawn(fun() -> ertime:test(fun(Clock) -> Self ! {inside, self(), Clock}, receive after infinity -> ok end end) end),
    {Inside, Clock} = receive {inside, Pid, C} -> {Pid, C} end,
    exit(Caller, kill),
    ?assertEqual(gone, ended(Inside)),
    wait_until(fun() -> ertime:close(Clock) =:= false end).

ended(Pid) ->
    Monitor = erlang:monitor(process, Pid),
    receive {'DOWN', Monitor, process, Pid, _} -> gone after 30000 -> there end.

wait_until(Is) ->
    Is() orelse begin erlang:yield(), wait_until(Is) end.

%% A process that waits with a timeout goes on by the runtime's clock where its own is closed.
closed_test_() ->
    {timeout, 120, fun closed/0}.

closed() ->
    Self = self(),
    ertime:test(fun(_) ->
        unlink(spawn_link(fun() -> timer:sleep(30), Self ! slept end)),
        spawn(fun() -> receive never -> ok after 40 -> Self ! late end end),
        wait_until(fun() -> length(maps:get(timers, ertime:info())) =:= 2 end)
    end),
    ?assertEqual([slept, late], [receive M -> M after 30000 -> nothing end || _ <- [1, 2]]).

%% The outermost call is the test's own, as what reports a failure takes it.
line_test() ->
    try
        ertime:test(fun(_) -> error(failed) end)
    catch
        error:failed:Stack -> ?assertMatch({?MODULE, _, 1, [_ | _]}, lists:last(Stack))
    end.

%% --- who waits for itself -----------------------------------------------------------------------------------------

nobody_advances_test_() ->
    [
        {Name, {timeout, 120, fun() -> ?assertError({nobody_advances, [{_, [_ | _]} | _]}, ertime:test(Do)) end}}
     || {Name, Do} <- [
            {"a sleep", fun(_) -> timer:sleep(1000) end},
            {"a receive", fun(_) -> receive never -> ok after 1000 -> ok end end},
            {"a receive alone", fun(_) -> receive after 1000 -> ok end end},
            {"a call", fun(_) ->
                Slow = spawn_link(fun() -> receive {ask, From} -> timer:sleep(1000), From ! answer end end),
                Monitor = monitor(process, Slow),
                Slow ! {ask, self()},
                receive answer -> ok; {'DOWN', Monitor, _, _, _} -> ok end
            end}
        ]
    ].

%% By hand, without test/2.
own_sleep_test_() ->
    {timeout, 120, fun own_sleep/0}.

own_sleep() ->
    Clock = ertime:open(),
    ertime:with(Clock, fun() -> ?assertError({nobody_advances, _}, timer:sleep(1000)) end),
    ?assertEqual([], maps:get(timers, ertime:info(Clock))),
    ertime:close(Clock),
    ?assertEqual(ok, timer:sleep(1)).

%% Where another process moves the clock, all is well; and who waits for something real isn't disturbed.
somebody_advances_test_() ->
    {timeout, 120, fun somebody_advances/0}.

somebody_advances() ->
    ertime:test(fun(Clock) ->
        Mover = spawn_link(fun Move() -> ertime:advance(Clock, 10), ertime:with(Clock, fun() -> ok end), Move() end),
        timer:sleep(50),
        unlink(Mover),
        exit(Mover, kill)
    end),
    ertime:test(fun(_) ->
        Self = self(),
        spawn_link(fun() -> ertime:use(real), timer:sleep(300), Self ! real end),
        ?assertEqual(real, receive real -> real after 600000 -> late end)
    end).

%% --- time goes on by itself ---------------------------------------------------------------------------------------

auto_test_() ->
    {timeout, 120, fun() ->
        Beats = ertime:test(#{advance => auto, start => 0}, fun(_) ->
            Self = self(),
            spawn_link(fun() -> beat(Self, 24) end),
            timer:sleep(25 * ?HOUR),
            [receive {beat, At} -> At after 0 -> none end || _ <- lists:seq(1, 24)]
        end),
        ?assertEqual([N * 3600 || N <- lists:seq(1, 24)], Beats)
    end}.

beat(_, 0) -> ok;
beat(To, Left) -> timer:sleep(?HOUR), To ! {beat, erlang:monotonic_time(second)}, beat(To, Left - 1).

%% Turned on and off, beside steps by hand.
auto_on_and_off_test_() ->
    {timeout, 120, fun auto_on_and_off/0}.

auto_on_and_off() ->
    ertime:test(#{start => 0}, fun(Clock) ->
        ok = ertime:advance(Clock, auto),
        timer:sleep(1000),
        ok = ertime:advance(Clock, by_hand),
        ?assertEqual(1000, erlang:monotonic_time(millisecond)),
        Timer = erlang:start_timer(1000, self(), x),
        receive after 0 -> ok end,
        ?assertEqual(1000, erlang:read_timer(Timer)),
        1 = ertime:advance(Clock, 1000),
        ok = ertime:advance(Clock, auto),
        0 = ertime:advance(Clock, 500),
        timer:sleep(1),
        ?assertEqual(2501, erlang:monotonic_time(millisecond))
    end).

mode_of_open_test_() ->
    {timeout, 120, fun mode_of_open/0}.

mode_of_open() ->
    Clock = ertime:open(#{advance => auto}),
    ?assertEqual(ok, ertime:with(Clock, fun() -> timer:sleep(?HOUR) end)),
    ertime:close(Clock),
    ?assertError(closed, ertime:advance(Clock, auto)).

%% Two that wait for each other; the error says where.
deadlock_test_() ->
    {timeout, 120, fun() ->
        try
            ertime:test(#{advance => auto}, fun(_) ->
                Self = self(),
                spawn_link(fun() -> register(ertime_waits, self()), timer:sleep(10), receive {Self, never} -> ok end end),
                timer:sleep(20),
                receive for_ever -> ok end
            end),
            error(no_deadlock)
        catch
            error:{deadlock, Who} ->
                ?assertMatch([{_, _}, {_, _}], Who),
                ?assert(lists:any(fun({_, Info}) -> proplists:get_value(registered_name, Info) =:= ertime_waits end, Who)),
                ?assert(lists:all(fun({_, Info}) -> lists:any(fun({M, _, _, _}) -> M =:= ?MODULE end, proplists:get_value(current_stacktrace, Info)) end, Who))
        end
    end}.

%% Who waits for a program of the system is in no deadlock.
port_test_() ->
    {timeout, 120, fun() ->
        ?assertEqual("done\n", ertime:test(#{advance => auto}, fun(_) -> timer:sleep(10), os:cmd("sleep 1; echo done") end))
    end}.

%% An interval without end.
limit_test_() ->
    {timeout, 120, fun() ->
        ?assertError({real_time_limit, 300, [_ | _]}, ertime:test(#{advance => auto, limit => 300}, fun(_) ->
            spawn_link(fun Beat() -> timer:sleep(10), Beat() end),
            receive never -> ok end
        end))
    end}.

no_progress_test_() ->
    {timeout, 120, fun() ->
        ?assertError({no_progress, _}, ertime:test(#{advance => auto}, fun(_) ->
            spawn_link(fun Beat() -> erlang:send_after(0, self(), x), receive x -> Beat() end end),
            receive never -> ok end
        end))
    end}.
