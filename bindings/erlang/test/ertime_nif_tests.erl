%% What the NIF does where there is much: many timers, many processes, a full clock, a process that exits with all of them.
-module(ertime_nif_tests).

-include_lib("eunit/include/eunit.hrl").

-define(MANY, 5000). % more than a scheduler does at once

%% In a process of its own, whose mailbox is empty.
with_clock(Options, Test) ->
    {timeout, 120, fun() ->
        {Pid, Monitor} = spawn_monitor(fun() ->
            Clock = ertime:open(Options),
            ertime:with(Clock, fun() -> Test(Clock) end),
            ertime:close(Clock)
        end),
        ?assertEqual(normal, receive {'DOWN', Monitor, process, Pid, Reason} -> Reason end)
    end}.

many_due_test_() ->
    with_clock(#{slots => ?MANY}, fun(Clock) ->
        Timers = [ertime:start_timer(10, self(), N) || N <- lists:seq(1, ?MANY)],
        ?MANY = ertime:advance(Clock, 10),
        Told = [receive {timeout, T, N} -> {T, N} after 0 -> none end || _ <- Timers],
        ?assertEqual(lists:zip(Timers, lists:seq(1, ?MANY)), Told)
    end).

%% A process exits with as many timers as the clock has slots: none is armed from then on, and there is room for others.
exit_with_many_test_() ->
    with_clock(#{slots => ?MANY}, fun(Clock) ->
        Self = self(),
        {Pid, Monitor} = spawn_monitor(fun() ->
            ertime:use(Clock),
            Self ! {timers, [ertime:start_timer(1000, self(), {N, Clock}) || N <- lists:seq(1, ?MANY)]},
            receive stop -> ok end
        end),
        Timers = receive {timers, Started} -> Started end,
        ?assertError(system_limit, ertime:start_timer(1000, self(), x)),
        Pid ! stop,
        receive {'DOWN', Monitor, process, Pid, normal} -> ok end,
        gone(hd(Timers)),
        ?assertEqual([false], lists:usort([ertime:cancel_timer(Timer) || Timer <- Timers])),
        ?assertEqual([], ertime_nif:timers(Clock)),
        _ = [ertime:start_timer(1000, self(), N) || N <- lists:seq(1, ?MANY)],
        ?assertEqual(?MANY, ertime:advance(Clock, 1000))
    end).

%% The clock learns a little later than others that a process has exited.
gone(Timer) ->
    case ertime:read_timer(Timer) of
        false -> ok;
        _ -> erlang:yield(), gone(Timer)
    end.

members_test_() ->
    with_clock(#{}, fun(Clock) ->
        Self = self(),
        Join = fun() -> ok = ertime_nif:join(Clock), Self ! joined, receive stop -> ok end end,
        Pids = [spawn(Join) || _ <- lists:seq(1, ?MANY)],
        _ = [receive joined -> ok end || _ <- Pids],
        ?assertEqual(lists:sort([Self | Pids]), lists:sort(ertime_nif:members(Clock))),
        {Half, Others} = lists:split(?MANY div 2, Pids),
        Monitors = [erlang:monitor(process, Pid) || Pid <- Half],
        _ = [Pid ! stop || Pid <- Half],
        _ = [receive {'DOWN', Monitor, _, _, _} -> ok end || Monitor <- Monitors],
        are_members(Clock, lists:sort([Self | Others])),
        _ = [Pid ! stop || Pid <- Others]
    end).

%% The clock learns a little later than others that processes have exited.
are_members(Clock, Pids) ->
    lists:sort(ertime_nif:members(Clock)) =:= Pids orelse begin erlang:yield(), are_members(Clock, Pids) end.

%% More slots than a wheel of the service has.
full_test_() ->
    with_clock(#{slots => 70000}, fun(Clock) ->
        _ = [ertime:start_timer(1000, self(), x) || _ <- lists:seq(1, 70000)],
        ?assertError(system_limit, ertime:start_timer(1000, self(), x)),
        ?assertEqual(70000, length(ertime_nif:timers(Clock)))
    end).

%% Processes that start timers side by side find the last slot of each wheel, whichever wheels are full for others meanwhile.
full_side_by_side_test_() ->
    {timeout, 120, fun() -> ?assertEqual([], [Refused || _ <- lists:seq(1, 300), Refused <- refused(), Refused =/= normal]) end}.

refused() ->
    ertime:test(#{schedule => [{0, {late, 1, 1}}], slots => 160, seen => false}, fun(_) ->
        Test = self(),
        Starts = [spawn_monitor(fun() -> receive start -> _ = [ertime:send_after(1000, Test, x) || _ <- lists:seq(1, 8)] end end) || _ <- lists:seq(1, 20)],
        _ = [Pid ! start || {Pid, _} <- Starts],
        [receive {'DOWN', Monitor, process, Pid, {Reason, _}} -> Reason; {'DOWN', Monitor, process, Pid, Reason} -> Reason end || {Pid, Monitor} <- Starts]
    end).

%% Each of many monitors is told of each change once, and of a finalization also where the offset stays.
many_monitors_test_() ->
    with_clock(#{mode => multi_time_warp}, fun(Clock) ->
        Monitors = [ertime:monitor(time_offset, clock_service) || _ <- lists:seq(1, 200)],
        ok = ertime:warp(Clock, 60000),
        ok = ertime:warp(Clock, -60000),
        Offset = ertime:time_offset(),
        ?assertEqual(
            [{M, O} || M <- lists:sort(Monitors), O <- [Offset + 60000000000, Offset]],
            lists:keysort(1, [changed() || _ <- lists:seq(1, 400)])
        ),
        ?assertEqual(none, receive Other -> Other after 0 -> none end)
    end).

changed() ->
    receive
        {'CHANGE', Monitor, time_offset, clock_service, Offset} -> {Monitor, Offset}
    after 0 -> none
    end.

finalize_test_() ->
    with_clock(#{mode => single_time_warp}, fun(_) ->
        Monitor = ertime:monitor(time_offset, clock_service),
        Offset = ertime:time_offset(),
        preliminary = ertime:system_flag(time_offset, finalize),
        final = ertime:system_flag(time_offset, finalize),
        ?assertEqual({'CHANGE', Monitor, time_offset, clock_service, Offset}, receive Told -> Told after 0 -> none end),
        ?assertEqual(none, receive Other -> Other after 0 -> none end)
    end).

drift_test_() ->
    {timeout, 120, fun drift/0}.

drift() ->
    Most = 1000000000,
    _ = [?assertError(badarg, ertime:open(#{drift => By})) || By <- [Most, -Most, 1 bsl 80]],
    Clock = ertime:open(#{}),
    _ = [?assertError(badarg, ertime:drift(Clock, By)) || By <- [Most, -Most, 1 bsl 80]],
    ertime:close(Clock).

%% A clock that is closed leaves nothing at the processes that used it.
monitored_test_() ->
    {timeout, 120, fun monitored/0}.

monitored() ->
    Clock = ertime:open(#{}),
    ok = ertime_nif:join(Clock),
    monitored_by(1),
    ertime:close(Clock),
    monitored_by(0).

%% The runtime tells a process of a monitor by a signal.
monitored_by(Count) ->
    case process_info(self(), monitored_by) of
        {monitored_by, Monitors} when length(Monitors) =:= Count -> ok;
        _ -> erlang:yield(), monitored_by(Count)
    end.
