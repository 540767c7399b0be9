%% Each row is done by the module erlang in real time and by the module ertime under a clock, with the same arguments: the
%% results are equal, and so are the classes and reasons of the errors.
-module(ertime_same_tests).

-include_lib("eunit/include/eunit.hrl").

-define(SOON, 15).
-define(LATE, 60000).

same_test_() ->
    [{Name, {timeout, 120, fun() -> same(Do) end}} || {Name, Do} <- times() ++ units() ++ starts() ++ cancels() ++ reads() ++ monitors() ++ settings()].

%% In real time a message may be late, so where the results differ the row is done again, and has more time.
same(Do) ->
    same(Do, 30).

same(Do, Late) ->
    Real = result(Do, erlang, fun(Milliseconds) -> timer:sleep(Milliseconds + Late) end),
    Clock = ertime:open(#{os_time => erlang:system_time(), mode => erlang:system_info(time_warp_mode), correction => erlang:system_info(time_correction)}),
    Ours = ertime:with(Clock, fun() -> result(Do, ertime, fun(Milliseconds) -> ertime:advance(Clock, Milliseconds) end) end),
    ertime:close(Clock),
    case Real of
        Ours -> ok;
        _ when Late < 3000 -> same(Do, 10 * Late);
        _ -> ?assertEqual(Real, Ours)
    end.

%% In a process of its own, so that no message of one goes to the other.
result(Do, Module, Pass) ->
    Clock = ertime:clock(),
    {Pid, Monitor} = spawn_monitor(fun() ->
        Clock =/= none andalso ertime:use(Clock),
        exit({result, try Do(Module, Pass) catch Class:Reason -> {Class, Reason} end})
    end),
    receive
        {'DOWN', Monitor, process, Pid, {result, Result}} -> Result
    end.

next() ->
    receive
        Message -> Message
    after 0 -> nothing
    end.

%% The milliseconds that are left differ by what has passed meanwhile.
about(Left, Whole) when is_integer(Left), Left =< Whole, Left > Whole - 30000 -> {about, Whole};
about(Other, _) -> Other.

dead() ->
    {Pid, Monitor} = spawn_monitor(fun() -> ok end),
    receive
        {'DOWN', Monitor, _, _, _} -> Pid
    end.

times() ->
    [
        {"monotonic_time/0", fun(M, _) -> is_integer(M:monotonic_time()) end},
        {"monotonic_time/0 doesn't fall", fun(M, Pass) -> A = M:monotonic_time(), Pass(1), M:monotonic_time() > A end},
        {"monotonic_time/1", fun(M, Pass) -> A = M:monotonic_time(millisecond), Pass(5), M:monotonic_time(millisecond) - A >= 5 end},
        {"monotonic_time/1, parts", fun(M, _) -> is_integer(M:monotonic_time(1000)) end},
        {"monotonic_time/1, bad unit", fun(M, _) -> M:monotonic_time(hour) end},
        {"monotonic_time/1, no parts", fun(M, _) -> M:monotonic_time(0) end},
        {"monotonic_time/1, a float", fun(M, _) -> M:monotonic_time(1.0) end},
        {"system_time/0", fun(M, _) -> abs(M:system_time() - erlang:system_time()) < 30000000000 end},
        {"system_time/1", fun(M, _) -> abs(M:system_time(second) - erlang:system_time(second)) < 30 end},
        {"system_time/1, bad unit", fun(M, _) -> M:system_time(weeks) end},
        {"system_time/1, negative parts", fun(M, _) -> M:system_time(-1) end},
        {"time_offset/0", fun(M, _) -> abs(M:monotonic_time() + M:time_offset() - M:system_time()) < 30000000000 end},
        {"time_offset/1", fun(M, _) -> abs(M:monotonic_time(second) + M:time_offset(second) - M:system_time(second)) < 30 end},
        {"time_offset/1, bad unit", fun(M, _) -> M:time_offset([]) end},
        {"timestamp/0", fun(M, _) -> {A, B, C} = M:timestamp(), {A, B < 1000000, C < 1000000} end},
        {"universaltime/0", fun(M, _) -> element(1, M:universaltime()) end},
        {"localtime/0", fun(M, _) -> element(1, M:localtime()) end},
        {"unique_integer/0", fun(M, _) -> M:unique_integer() =/= M:unique_integer() end},
        {"unique_integer/1", fun(M, _) -> M:unique_integer([monotonic]) < M:unique_integer([monotonic]) end},
        {"unique_integer/1, positive", fun(M, _) -> M:unique_integer([positive]) > 0 end},
        {"unique_integer/1, bad modifier", fun(M, _) -> M:unique_integer([negative]) end}
    ].

units() ->
    Rows = [
        {1, second, millisecond}, {1999, millisecond, second}, {-1, millisecond, second}, {7, 3, 5}, {1 bsl 80, second, nanosecond},
        {5, native, nanosecond}, {5, nanosecond, native}, {1, second, perf_counter}, {1, seconds, milli_seconds}, {a, second, second},
        {1.5, second, millisecond}, {1, hour, second}, {1, second, 0}, {1, -5, second}
    ],
    [{lists:flatten(io_lib:format("convert_time_unit~p", [Row])), fun(M, _) -> M:convert_time_unit(T, F, U) end} || Row = {T, F, U} <- Rows].

starts() ->
    [
        {"start_timer/3", fun(M, Pass) -> R = M:start_timer(?SOON, self(), {a, "term"}), Pass(?SOON), {timeout, R, T} = next(), T end},
        {"start_timer/3, an atom", fun(M, Pass) -> R = M:start_timer(?SOON, self(), atom), Pass(?SOON), {timeout, R, T} = next(), T end},
        {"start_timer/3, at once", fun(M, Pass) -> R = M:start_timer(0, self(), []), Pass(0), {timeout, R, T} = next(), T end},
        {"start_timer/3, not yet", fun(M, Pass) -> M:start_timer(?LATE, self(), x), Pass(?SOON), next() end},
        {"start_timer/3, is a reference", fun(M, _) -> is_reference(M:start_timer(?LATE, self(), x)) end},
        {"start_timer/3, a name", fun(M, Pass) -> register(ertime_n, self()), M:send_after(?SOON, ertime_n, 1.5), Pass(?SOON), next() end},
        {"start_timer/3, a name of nobody", fun(M, Pass) -> R = M:start_timer(?SOON, ertime_nobody, x), Pass(?SOON), M:read_timer(R) end},
        {"start_timer/3, a dead process", fun(M, Pass) -> R = M:start_timer(?LATE, dead(), x), Pass(1), M:read_timer(R) end},
        {"start_timer/3, negative", fun(M, _) -> M:start_timer(-1, self(), x) end},
        {"start_timer/3, infinity", fun(M, _) -> M:start_timer(infinity, self(), x) end},
        {"start_timer/3, a float", fun(M, _) -> M:start_timer(1.0, self(), x) end},
        {"start_timer/3, too far", fun(M, _) -> M:start_timer(1 bsl 62, self(), x) end},
        {"start_timer/3, a big number", fun(M, _) -> M:start_timer(1 bsl 70, self(), x) end},
        {"start_timer/3, to a number", fun(M, _) -> M:start_timer(1, 5, x) end},
        {"start_timer/3, to a tuple", fun(M, _) -> M:start_timer(1, {name, node()}, x) end},
        {"start_timer/4, no option", fun(M, Pass) -> R = M:start_timer(?SOON, self(), x, []), Pass(?SOON), {timeout, R, T} = next(), T end},
        {"start_timer/4, abs", fun(M, Pass) ->
            R = M:start_timer(M:monotonic_time(millisecond) + ?SOON, self(), x, [{abs, true}]), Pass(?SOON), {timeout, R, T} = next(), T
        end},
        {"start_timer/4, abs now", fun(M, Pass) ->
            R = M:start_timer(M:monotonic_time(millisecond), self(), x, [{abs, true}]), Pass(1), {timeout, R, T} = next(), T
        end},
        {"start_timer/4, not abs", fun(M, Pass) -> R = M:start_timer(?SOON, self(), 7, [{abs, false}]), Pass(?SOON), {timeout, R, T} = next(), T end},
        {"start_timer/4, the last option counts", fun(M, _) ->
            about(M:read_timer(M:start_timer(?LATE, self(), 7, [{abs, true}, {abs, false}])), ?LATE)
        end},
        {"start_timer/4, bad option", fun(M, _) -> M:start_timer(1, self(), x, [abs]) end},
        {"start_timer/4, bad value", fun(M, _) -> M:start_timer(1, self(), x, [{abs, 1}]) end},
        {"start_timer/4, bad list", fun(M, _) -> M:start_timer(1, self(), x, options) end},
        {"send_after/3", fun(M, Pass) -> M:send_after(?SOON, self(), {hello, <<"world">>}), Pass(?SOON), next() end},
        {"send_after/3, a pid", fun(M, Pass) -> M:send_after(?SOON, self(), self()), Pass(?SOON), next() =:= self() end},
        {"send_after/3, a fun", fun(M, Pass) -> M:send_after(?SOON, self(), fun lists:sum/1), Pass(?SOON), next() end},
        {"send_after/3, a big number", fun(M, Pass) -> M:send_after(?SOON, self(), 1 bsl 90), Pass(?SOON), next() end},
        {"send_after/3, the least small one", fun(M, Pass) -> M:send_after(?SOON, self(), -(1 bsl 63)), Pass(?SOON), next() end},
        {"send_after/3, in order", fun(M, Pass) ->
            [M:send_after(T, self(), T) || T <- [40, 20, 30, 0, 10]], Pass(60), [next() || _ <- lists:seq(1, 6)]
        end},
        {"send_after/3, negative", fun(M, _) -> M:send_after(-1, self(), x) end},
        {"send_after/4, abs", fun(M, Pass) ->
            M:send_after(M:monotonic_time(millisecond) + ?SOON, self(), x, [{abs, true}]), Pass(?SOON), next()
        end},
        {"send_after/4, bad option", fun(M, _) -> M:send_after(1, self(), x, [{rel, true}]) end}
    ].

cancels() ->
    [
        {"cancel_timer/1", fun(M, _) -> about(M:cancel_timer(M:start_timer(?LATE, self(), x)), ?LATE) end},
        {"cancel_timer/1, twice", fun(M, _) -> R = M:start_timer(?LATE, self(), x), M:cancel_timer(R), M:cancel_timer(R) end},
        {"cancel_timer/1, expired", fun(M, Pass) -> R = M:start_timer(?SOON, self(), x), Pass(?SOON), {M:cancel_timer(R), element(3, next())} end},
        {"cancel_timer/1, no message comes", fun(M, Pass) -> M:cancel_timer(M:send_after(?SOON, self(), x)), Pass(?SOON), next() end},
        {"cancel_timer/1, another reference", fun(M, _) -> M:cancel_timer(make_ref()) end},
        {"cancel_timer/1, no reference", fun(M, _) -> M:cancel_timer(5) end},
        {"cancel_timer/1, of a process that died", fun(M, Pass) ->
            Pid = spawn(fun() -> receive stop -> ok end end), R = M:start_timer(?LATE, Pid, x), Monitor = erlang:monitor(process, Pid),
            Pid ! stop, receive {'DOWN', Monitor, _, _, _} -> ok end, Pass(5), M:cancel_timer(R)
        end},
        {"cancel_timer/2, no option", fun(M, _) -> about(M:cancel_timer(M:start_timer(?LATE, self(), x), []), ?LATE) end},
        {"cancel_timer/2, no info", fun(M, _) -> M:cancel_timer(M:start_timer(?LATE, self(), x), [{info, false}]) end},
        {"cancel_timer/2, async", fun(M, Pass) ->
            R = M:start_timer(?LATE, self(), x), ok = M:cancel_timer(R, [{async, true}]), Pass(1), {cancel_timer, R, L} = next(), about(L, ?LATE)
        end},
        {"cancel_timer/2, async, twice", fun(M, Pass) ->
            R = M:start_timer(?LATE, self(), x), M:cancel_timer(R), ok = M:cancel_timer(R, [{async, true}]), Pass(1), {cancel_timer, R, L} = next(), L
        end},
        {"cancel_timer/2, async, no info", fun(M, Pass) ->
            R = M:start_timer(?LATE, self(), x), ok = M:cancel_timer(R, [{async, true}, {info, false}]), Pass(1), {next(), M:read_timer(R)}
        end},
        {"cancel_timer/2, bad option", fun(M, _) -> M:cancel_timer(M:start_timer(?LATE, self(), x), [{async, maybe_so}]) end},
        {"cancel_timer/2, bad list", fun(M, _) -> M:cancel_timer(M:start_timer(?LATE, self(), x), [async | true]) end},
        {"cancel_timer/2, no reference", fun(M, _) -> M:cancel_timer(timer, []) end}
    ].

reads() ->
    [
        {"read_timer/1", fun(M, _) -> about(M:read_timer(M:start_timer(?LATE, self(), x)), ?LATE) end},
        {"read_timer/1, cancelled", fun(M, _) -> R = M:start_timer(?LATE, self(), x), M:cancel_timer(R), M:read_timer(R) end},
        {"read_timer/1, expired", fun(M, Pass) -> R = M:start_timer(?SOON, self(), x), Pass(?SOON), M:read_timer(R) end},
        {"read_timer/1, no reference", fun(M, _) -> M:read_timer(self()) end},
        {"read_timer/2", fun(M, _) -> about(M:read_timer(M:start_timer(?LATE, self(), x), [{async, false}]), ?LATE) end},
        {"read_timer/2, async", fun(M, Pass) ->
            R = M:start_timer(?LATE, self(), x), ok = M:read_timer(R, [{async, true}]), Pass(1), {read_timer, R, L} = next(), about(L, ?LATE)
        end},
        {"read_timer/2, no info", fun(M, _) -> M:read_timer(M:start_timer(?LATE, self(), x), [{info, false}]) end}
    ].

monitors() ->
    [
        {"monitor/2 of the time offset", fun(M, _) -> is_reference(M:monitor(time_offset, clock_service)) end},
        {"monitor/2, another service", fun(M, _) -> M:monitor(time_offset, other) end},
        {"monitor/2 of a process", fun(M, _) -> R = M:monitor(process, dead()), receive {'DOWN', R, process, _, Why} -> Why end end},
        {"demonitor/1", fun(M, _) -> M:demonitor(M:monitor(time_offset, clock_service)) end},
        {"demonitor/1, twice", fun(M, _) -> R = M:monitor(time_offset, clock_service), M:demonitor(R), M:demonitor(R) end},
        {"demonitor/1, no reference", fun(M, _) -> M:demonitor(x) end},
        {"demonitor/2, info", fun(M, _) -> M:demonitor(M:monitor(time_offset, clock_service), [info]) end},
        {"demonitor/2, info, twice", fun(M, _) -> R = M:monitor(time_offset, clock_service), M:demonitor(R), M:demonitor(R, [info, flush]) end},
        {"demonitor/2, bad option", fun(M, _) -> M:demonitor(M:monitor(time_offset, clock_service), [flash]) end},
        {"demonitor/2 of a process", fun(M, _) -> M:demonitor(M:monitor(process, self()), [flush]) end}
    ].

settings() ->
    [
        {"system_info(time_offset)", fun(M, _) -> M:system_info(time_offset) end},
        {"system_info(time_warp_mode)", fun(M, _) -> M:system_info(time_warp_mode) end},
        {"system_info(time_correction)", fun(M, _) -> M:system_info(time_correction) end},
        {"system_info(start_time)", fun(M, _) -> M:system_info(start_time) =< M:monotonic_time() end},
        {"system_info(end_time)", fun(M, _) -> M:system_info(end_time) > M:monotonic_time() end},
        {"system_info(os_system_time_source)", fun(M, _) -> is_integer(proplists:get_value(time, M:system_info(os_system_time_source))) end},
        {"system_info(process_limit)", fun(M, _) -> M:system_info(process_limit) end},
        {"system_info, unknown", fun(M, _) -> M:system_info(clock) end},
        {"system_flag(time_offset, finalize)", fun(M, _) -> M:system_flag(time_offset, finalize) end},
        {"system_flag, bad value", fun(M, _) -> M:system_flag(time_offset, x) end}
    ].
