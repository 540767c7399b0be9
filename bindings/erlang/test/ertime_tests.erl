-module(ertime_tests).

-include_lib("eunit/include/eunit.hrl").

-export([first_clocks/0]).

-define(HOUR, 3600000).

%% The examples of the documentation, each in a process of its own.
examples_test_() ->
    [{"example " ++ Name, {timeout, 120, fun() -> run(Text) end}} || File <- ["ertime", "ertime_times", "ertime_timers", "ertime_monitors", "ertime_clock", "ertime_nodes"], {Name, Text} <- examples(File ++ ".erl")].

examples(File) ->
    case file:read_file(filename:join([code:lib_dir(ertime), "src", File])) of
        {ok, Text} -> found(string:split(Text, "\n", all), [], none, []);
        {error, enoent} -> []
    end.

found([], Done, _, Waiting) ->
    lists:reverse(Done) ++ Waiting;
found([<<"%% ```">> | Lines], Done, _, Waiting) ->
    {Code, [_ | Rest]} = lists:splitwith(fun(Line) -> Line =/= <<"%% '''">> end, Lines),
    found(Rest, Done, none, [{"", lists:join("\n", [string:slice(Line, 3) || Line <- Code])} | Waiting]);
found([<<"-spec ", Spec/binary>> | Lines], Done, _, Waiting) ->
    Name = binary_to_list(hd(string:split(Spec, "("))),
    found(Lines, [{Name, Text} || {_, Text} <- Waiting] ++ Done, none, []);
found([_ | Lines], Done, Name, Waiting) ->
    found(Lines, Done, Name, Waiting).

run(Text) ->
    {ok, Tokens, _} = erl_scan:string(lists:flatten([unicode:characters_to_list(Text)])),
    {ok, Expressions} = erl_parse:parse_exprs(Tokens),
    in_process(fun() -> erl_eval:exprs(Expressions, []) end).

%% So that each test has a mailbox and a dictionary of its own.
in_process(Do) ->
    {Pid, Monitor} = spawn_monitor(fun() ->
        try
            Do()
        catch
            Class:Reason:Stack -> exit({Class, Reason, Stack})
        end
    end),
    receive
        {'DOWN', Monitor, process, Pid, normal} -> ok;
        {'DOWN', Monitor, process, Pid, {Class, Reason, Stack}} -> erlang:raise(Class, Reason, Stack)
    end.

%% --- a clock ------------------------------------------------------------------------------------------------------

with_clock(Options, Do) ->
    in_process(fun() ->
        Clock = ertime:open(maps:merge(#{mode => no_time_warp, start => 0}, Options)),
        try
            ertime:with(Clock, fun() -> Do(Clock) end)
        after
            ertime:close(Clock)
        end
    end).

next() ->
    receive
        Message -> Message
    after 0 -> nothing
    end.

an_hour_test_() ->
    {timeout, 120, fun an_hour/0}.

an_hour() ->
    with_clock(#{}, fun(Clock) ->
        Timer = ertime:start_timer(?HOUR, self(), wake),
        ?assertEqual(0, ertime:advance(Clock, ?HOUR - 1)),
        ?assertEqual(1, ertime:read_timer(Timer)),
        ?assertEqual(1, ertime:advance(Clock, 1)),
        ?assertEqual({timeout, Timer, wake}, next()),
        ?assertEqual(?HOUR, ertime:monotonic_time(millisecond))
    end).

%% A timer that a message starts is reckoned from the time of that message.
chain_test_() ->
    {timeout, 120, fun chain/0}.

chain() ->
    with_clock(#{}, fun(Clock) ->
        Self = self(),
        spawn_link(fun() -> chain(Self, 10) end),
        ?assertEqual(10, ertime:advance(Clock, 100)),
        ?assertEqual([10 * N || N <- lists:seq(1, 10)], [next() || _ <- lists:seq(1, 10)])
    end).

chain(_, 0) ->
    ok;
chain(To, Left) ->
    ertime:sleep(10),
    To ! ertime:monotonic_time(millisecond),
    chain(To, Left - 1).

until_idle_test_() ->
    {timeout, 120, fun until_idle/0}.

until_idle() ->
    with_clock(#{}, fun(Clock) ->
        ertime:send_after(10, self(), a),
        ertime:send_after(30 * 24 * ?HOUR, self(), b),
        ?assertEqual(2, ertime:advance(Clock, until_idle)),
        ?assertEqual([a, b, nothing], [next(), next(), next()]),
        ?assertEqual(30 * 24 * ?HOUR, ertime:monotonic_time(millisecond))
    end).

fractions_test_() ->
    {timeout, 120, fun fractions/0}.

fractions() ->
    with_clock(#{}, fun(Clock) ->
        ertime:advance(Clock, {1500, microsecond}),
        Timer = ertime:start_timer(1, self(), x),
        ?assertEqual(0, ertime:advance(Clock, {1499999, nanosecond})),
        ?assertEqual(1, ertime:advance(Clock, {1, nanosecond})),
        ?assertEqual({timeout, Timer, x}, next())
    end).

%% Slots that are used up, and those of several wheels.
slots_test_() ->
    {timeout, 120, fun slots/0}.

slots() ->
    with_clock(#{slots => 3}, fun(_) ->
        Timers = [ertime:start_timer(5, self(), N) || N <- [1, 2, 3]],
        ?assertError(system_limit, ertime:start_timer(5, self(), 4)),
        ertime:cancel_timer(hd(Timers)),
        ?assert(is_reference(ertime:start_timer(5, self(), 4)))
    end).

several_wheels_test_() ->
    {timeout, 120, fun() ->
        with_clock(#{slots => 140000}, fun(Clock) ->
            [ertime:send_after(5, self(), N) || N <- lists:seq(1, 140000)],
            ?assertEqual(140000, ertime:advance(Clock, 5)),
            ?assertEqual(lists:seq(1, 140000), lists:sort([next() || _ <- lists:seq(1, 140000)]))
        end)
    end}.

%% Without options a clock is the same on each release.
defaults_test_() ->
    {timeout, 120, fun defaults/0}.

defaults() ->
    #{mode := Mode, correction := Correction, start := Start} = ertime:info(ertime:open()),
    ?assertEqual([multi_time_warp, true], [Mode, Correction]),
    ?assert(Start < -1000000000000000 andalso erlang:system_info(start_time) < 0).

bad_options_test_() ->
    {timeout, 120, fun bad_options/0}.

bad_options() ->
    Bad = [
        #{mode => no}, #{correction => 1}, #{start => 5}, #{start => a}, #{slots => 0}, #{slots => 262145}, #{os_time => x}, #{drift => x},
        #{clock => 1}, [{mode, 1}]
    ],
    [?assertError(badarg, ertime:open(Options)) || Options <- Bad],
    [?assertError(badarg, ertime:test(Options, fun(_) -> ok end)) || Options <- Bad].

%% What the shell, and Elixir, tell of a bad argument names it.
texts_test_() ->
    Rows = [
        {"os_tme", 1, fun(_) -> ertime:open(#{os_tme => 5}) end},
        {"faults, most, over", 1, fun(_) -> ertime:seeds(1, #{fault => silent}, fun(_) -> ok end) end},
        {"slots is a number from 1 to 262144, and not 0", 1, fun(_) -> ertime:test([{slots, 0}], fun(_) -> ok end) end},
        {"one argument", 2, fun(_) -> ertime:test(#{}, fun() -> ok end) end},
        {"unit", 2, fun(Clock) -> ertime:advance(Clock, {1, fortnight}) end},
        {"whole number", 2, fun(Clock) -> ertime:warp(Clock, soon) end},
        {"no clock", 1, fun(_) -> ertime:advance(make_ref(), 1) end},
        {"no clock", 1, fun(_) -> ertime:info(make_ref()) end},
        {"no clock", 1, fun(_) -> ertime:close(make_ref()) end},
        {"go back", 2, fun(Clock) -> ertime:advance(Clock, -1) end},
        {"no_such", 1, fun(_) -> ertime:transform(no_such_application) end},
        {"module", 1, fun(_) -> ertime:transform([lists, "a"]) end},
        {"clock", 1, fun(_) -> ertime:use(5) end},
        {"name", 2, fun(Clock) -> ertime:allow(Clock, no_such_name) end}
    ],
    [
        {Part, fun() ->
            Clock = ertime:open(),
            Told = try Do(Clock) catch error:badarg:Stack -> ertime_options:format_error(badarg, Stack) end,
            true = ertime:close(Clock),
            ?assertMatch(#{Position := [_ | _]}, Told),
            ?assertNotEqual({Told, nomatch}, {Told, string:find(maps:get(Position, Told), Part)})
        end}
     || {Part, Position, Do} <- Rows
    ].

%% Beside those of the runtime.
units_test() ->
    with_clock(#{start => 0}, fun(Clock) ->
        0 = ertime:advance(Clock, {2, hour}),
        0 = ertime:advance(Clock, {3, minute}),
        0 = ertime:advance(Clock, {1, day}),
        ?assertEqual(86400 + 7200 + 180, ertime:monotonic_time(second))
    end).

bad_times_test_() ->
    {timeout, 120, fun bad_times/0}.

bad_times() ->
    with_clock(#{}, fun(Clock) ->
        [?assertError(badarg, ertime:advance(Clock, Time)) || Time <- [-1, 1.0, x, {1, fortnight}, {a, second}]],
        ?assertError(badarg, ertime:warp(Clock, x)),
        ?assertError(badarg, ertime:warp(Clock, 1, [{check, 1}])),
        ?assertError(badarg, ertime:warp(Clock, 1 bsl 62)),
        ?assertEqual(0, ertime:monotonic_time())
    end).

info_test_() ->
    {timeout, 120, fun info/0}.

info() ->
    with_clock(#{mode => multi_time_warp, start => -1000000000}, fun(Clock) ->
        Late = ertime:start_timer(200, self(), {late, self()}),
        Soon = ertime:send_after(100, ertime_info, soon),
        #{monotonic_time := Now, offset_state := State, timers := Timers, processes := Pids} = ertime:info(Clock),
        ?assertEqual({-1000000000, volatile}, {Now, State}),
        ?assertEqual([self()], Pids),
        ?assertEqual(
            [
                #{left => 100, to => ertime_info, timer => Soon, message => soon, kind => send_after},
                #{left => 200, to => self(), timer => Late, message => {late, self()}, kind => start_timer}
            ],
            Timers
        )
    end).

%% --- which clock --------------------------------------------------------------------------------------------------

time_of(Spawn) ->
    Self = self(),
    Spawn(fun() -> Self ! {time, ertime:monotonic_time()} end),
    receive
        {time, Time} -> Time
    end.

which_clock_test_() ->
    {timeout, 120, fun which_clock/0}.

which_clock() ->
    with_clock(#{start => 7000000}, fun(Clock) ->
        ?assertEqual(Clock, ertime:clock()),
        ?assertEqual(7000000, time_of(fun spawn/1)),
        ?assertEqual(7000000, time_of(fun proc_lib:spawn/1)),
        ?assertEqual(7000000, time_of(fun(Do) -> spawn(fun() -> {_, M} = spawn_monitor(Do), receive {'DOWN', M, _, _, _} -> ok end end) end)),
        ?assertEqual(7000000, time_of(fun(Do) -> proc_lib:spawn(fun() -> proc_lib:spawn(Do) end) end)),
        ?assertEqual(7000000, time_of(fun(Do) ->
            Self = self(),
            outside(fun() -> put('$callers', [Self]), Do() end)
        end)),
        ?assertNotEqual(7000000, time_of(fun outside/1)),
        ?assertNotEqual(7000000, time_of(fun(Do) -> spawn(fun() -> ertime:use(real), Do() end) end)),
        ok = ertime:use_everywhere(Clock),
        ?assertEqual(7000000, time_of(fun outside/1)),
        ertime:close(Clock),
        ?assertNotEqual(7000000, time_of(fun outside/1)),
        ?assertEqual(none, ertime:clock())
    end).

%% In a process that has nothing to do with this one.
outside(Do) ->
    {ok, _} = timer:apply_after(1, erlang, apply, [Do, []]).

a_closed_clock_test_() ->
    {timeout, 120, fun a_closed_clock/0}.

a_closed_clock() ->
    in_process(fun uses_a_closed_clock/0).

uses_a_closed_clock() ->
    Clock = ertime:open(),
    ertime:use(Clock),
    Timer = ertime:start_timer(10, self(), x),
    Monitor = ertime:monitor(time_offset, clock_service),
    true = ertime:close(Clock),
    %% It stands still.
    ?assertEqual([10, 10, false, false], [F(Timer) || F <- [fun ertime:read_timer/1, fun ertime:cancel_timer/1, fun ertime:read_timer/1, fun ertime:cancel_timer/1]]),
    ?assertEqual(true, ertime:demonitor(Monitor)),
    ?assert(abs(ertime:monotonic_time() - erlang:monotonic_time()) < 60000000000),
    ?assertError(closed, ertime:use(Clock)),
    ?assertError(closed, ertime:advance(Clock, 1)),
    ?assertError(closed, ertime:info(Clock)),
    ?assertError({no_clock, advance}, ertime:advance(1)).

%% Timers of the runtime and of the clock side by side.
both_test_() ->
    {timeout, 120, fun both/0}.

both() ->
    Real = erlang:start_timer(?HOUR, self(), x),
    with_clock(#{}, fun(_) ->
        ?assert(is_integer(ertime:read_timer(Real))),
        ?assert(is_integer(ertime:cancel_timer(Real))),
        ?assertEqual(false, ertime:cancel_timer(Real, []))
    end).

%% --- warps --------------------------------------------------------------------------------------------------------

%% A leap forward of ten seconds, and one back, by mode: {mode, correction} and how far monotonic and system time are moved
%% by the leap itself, in seconds.
warps_test_() ->
    Rows = [
        {no_time_warp, true, 0, 0, 0, 0},
        {no_time_warp, false, 10, 10, 0, 0},
        {single_time_warp, true, 0, 0, 0, 0},
        {single_time_warp, false, 10, 10, 0, 0},
        {multi_time_warp, true, 0, 10, 0, -10},
        {multi_time_warp, false, 10, 10, 0, -10}
    ],
    [
        {lists:flatten(io_lib:format("~p ~p ~p", [Mode, Correction, By])), {timeout, 120, fun() -> warp_row(Mode, Correction, By, Mono, System) end}}
     || {Mode, Correction, MonoOn, SystemOn, MonoBack, SystemBack} <- Rows,
        {By, Mono, System} <- [{10, MonoOn, SystemOn}, {-10, MonoBack, SystemBack}]
    ].

warp_row(Mode, Correction, By, Mono, System) ->
    with_clock(#{mode => Mode, correction => Correction}, fun(Clock) ->
        ertime:advance(Clock, 60000),
        {Mono0, System0} = {ertime:monotonic_time(second), ertime:system_time(second)},
        ok = ertime:warp(Clock, {By, second}),
        ?assertEqual({Mono, System}, {ertime:monotonic_time(second) - Mono0, ertime:system_time(second) - System0})
    end).

%% In multi time warp mode without correction the runtime follows a leap back whenever it reads the clock (ERTS User's Guide, "Time
%% Warp Modes"); a leap forward waits for the check.
followed_test_() ->
    {timeout, 120, fun() ->
        with_clock(#{mode => multi_time_warp, correction => false}, fun(Clock) ->
            ertime:advance(Clock, 1000),
            {Mono, System} = {ertime:monotonic_time(), ertime:system_time()},
            ok = ertime:warp(Clock, {-10, second}, [{check, false}]),
            ?assertEqual({Mono, System - 10000000000}, {ertime:monotonic_time(), ertime:system_time()}),
            ertime:advance(Clock, 1000),
            ?assertEqual(Mono + 1000000000, ertime:monotonic_time())
        end)
    end}.

%% What the guide says of a backward leap: without correction monotonic time stands still, with it it is slower by a percent.
frozen_test_() ->
    {timeout, 120, fun frozen/0}.

frozen() ->
    with_clock(#{correction => false}, fun(Clock) ->
        ertime:warp(Clock, {-10, second}),
        ertime:advance(Clock, {10, second}),
        ?assertEqual(0, ertime:monotonic_time(millisecond)),
        ertime:advance(Clock, {1, second}),
        ?assertEqual(1000, ertime:monotonic_time(millisecond))
    end).

slower_test_() ->
    {timeout, 120, fun slower/0}.

slower() ->
    with_clock(#{}, fun(Clock) ->
        ertime:advance(Clock, {60, second}),
        ertime:warp(Clock, {-10, second}),
        ertime:advance(Clock, {100, second}),
        ?assertEqual(60 * 1000 + 99 * 1000, ertime:monotonic_time(millisecond))
    end).

%% A timer comes at its deadline and not later, though the clock is slow.
timer_under_correction_test_() ->
    {timeout, 120, fun timer_under_correction/0}.

timer_under_correction() ->
    with_clock(#{}, fun(Clock) ->
        ertime:advance(Clock, {60, second}),
        ertime:warp(Clock, {-10, second}),
        Self = self(),
        spawn_link(fun() -> ertime:sleep(50000), Self ! {at, ertime:monotonic_time()} end),
        ertime:advance(Clock, {100, second}),
        ?assertEqual({at, 110000000000}, next())
    end).

drift_test_() ->
    {timeout, 120, fun drift/0}.

drift() ->
    with_clock(#{mode => multi_time_warp, drift => 1000}, fun(Clock) ->
        ertime:advance(Clock, {1000, second}),
        #{os_system_time := System} = ertime:info(Clock),
        ?assertEqual(1767225600000000000 + 1001000000000, System)
    end).

finalize_test_() ->
    {timeout, 120, fun finalize/0}.

finalize() ->
    with_clock(#{mode => single_time_warp}, fun(Clock) ->
        ?assertEqual(preliminary, ertime:system_info(time_offset)),
        Monitor = ertime:monitor(time_offset, clock_service),
        ertime:warp(Clock, {100, second}),
        ?assertEqual(nothing, next()),
        ?assertEqual(preliminary, ertime:system_flag(time_offset, finalize)),
        Offset = ertime:time_offset(),
        ?assertEqual({'CHANGE', Monitor, time_offset, clock_service, Offset}, next()),
        ?assertEqual(1767225700, ertime:system_time(second)),
        ?assertEqual(final, ertime:system_flag(time_offset, finalize))
    end).

change_test_() ->
    {timeout, 120, fun change/0}.

change() ->
    with_clock(#{mode => multi_time_warp}, fun(Clock) ->
        Monitors = [ertime:monitor(time_offset, clock_service) || _ <- lists:seq(1, 100)],
        ertime:demonitor(hd(Monitors)),
        ertime:warp(Clock, {5, second}),
        Offset = ertime:time_offset(),
        Told = [next() || _ <- tl(Monitors)],
        ?assertEqual(lists:sort([{'CHANGE', M, time_offset, clock_service, Offset} || M <- tl(Monitors)]), lists:sort(Told)),
        ?assertEqual(nothing, next()),
        ertime:warp(Clock, {5, second}),
        ?assertEqual(false, ertime:demonitor(lists:last(Monitors), [flush, info])),
        ?assertEqual(98, length(drain()))
    end).

drain() ->
    case next() of
        nothing -> [];
        Message -> [Message | drain()]
    end.

%% --- rest ---------------------------------------------------------------------------------------------------------

not_at_rest_test_() ->
    {timeout, 120, fun not_at_rest/0}.

not_at_rest() ->
    application:load(ertime),
    application:set_env(ertime, rest_limit, 50),
    with_clock(#{}, fun(Clock) ->
        Self = self(),
        Pid = spawn(fun() -> register(ertime_busy, self()), ertime:monotonic_time(), Self ! spins, spin() end),
        receive spins -> ok end,
        try ertime:advance(Clock, 10) of
            _ -> ?assert(false)
        catch
            error:{not_at_rest, [{Busy, Info}]} ->
                ?assertEqual(Pid, Busy),
                ?assertEqual(ertime_busy, proplists:get_value(registered_name, Info))
        after
            exit(Pid, kill),
            application:set_env(ertime, rest_limit, 5000)
        end
    end).

spin() ->
    spin().

%% Whoever is busy, and has another clock or none, isn't waited for.
others_are_busy_test_() ->
    {timeout, 120, fun others_are_busy/0}.

others_are_busy() ->
    Busy = outside_busy(),
    with_clock(#{}, fun(Clock) ->
        ertime:send_after(10, self(), x),
        ?assertEqual(1, ertime:advance(Clock, 10))
    end),
    exit(Busy, kill).

outside_busy() ->
    Self = self(),
    outside(fun() -> Self ! {busy, spawn(fun spin/0)} end),
    receive
        {busy, Pid} -> Pid
    end.

%% A process that calls a server with no clock is waited for until it has its answer.
server_without_clock_test_() ->
    {timeout, 120, fun server_without_clock/0}.

server_without_clock() ->
    in_process(fun calls_a_server_without_clock/0).

calls_a_server_without_clock() ->
    Self = self(),
    outside(fun() -> Self ! {server, spawn(fun slow_server/0)}, timer:sleep(1000) end),
    Server = receive {server, Pid} -> Pid end,
    with_clock(#{}, fun(Clock) ->
        Test = self(),
        spawn_link(fun() ->
            ertime:sleep(10),
            {ok, answer} = gen:call(Server, '$call', ask, infinity),
            ertime:sleep(10),
            Test ! done
        end),
        ertime:advance(Clock, 20),
        ?assertEqual(done, next())
    end).

slow_server() ->
    receive
        {'$call', From, ask} ->
            lists:foreach(fun(_) -> erlang:yield() end, lists:seq(1, 20000)),
            gen:reply(From, answer)
    end.

no_progress_is_told_test_() ->
    {timeout, 120, fun() ->
        with_clock(#{}, fun(Clock) ->
            Pid = spawn_link(fun() -> endless() end),
            ?assertError(no_progress, ertime:advance(Clock, 10)),
            unlink(Pid),
            exit(Pid, kill)
        end)
    end}.

endless() ->
    ertime:send_after(0, self(), again),
    receive
        again -> endless()
    end.

%% --- processes and memory -----------------------------------------------------------------------------------------

a_process_dies_test_() ->
    {timeout, 120, fun a_process_dies/0}.

a_process_dies() ->
    with_clock(#{}, fun(Clock) ->
        {Pid, Monitor} = spawn_monitor(fun() -> receive stop -> ok end end),
        Timers = [ertime:start_timer(10, Pid, N) || N <- lists:seq(1, 100)],
        Mine = ertime:start_timer(10, self(), mine),
        Pid ! stop,
        receive
            {'DOWN', Monitor, _, _, _} -> ok
        end,
        ?assertEqual(1, ertime:advance(Clock, 10)),
        ?assertEqual({timeout, Mine, mine}, next()),
        ?assertEqual([false || _ <- Timers], [ertime:read_timer(Timer) || Timer <- Timers])
    end).

many_processes_test_() ->
    {timeout, 120, fun() ->
        with_clock(#{slots => 6000}, fun(Clock) ->
            Self = self(),
            Pids = [spawn_link(fun() -> ertime:sleep(N), Self ! {woken, N} end) || N <- lists:seq(1, 3000)],
            3000 = length(Pids),
            ?assertEqual(3000, ertime:advance(Clock, 3000)),
            ?assertEqual([{woken, N} || N <- lists:seq(1, 3000)], drain())
        end)
    end}.

%% A clock that nothing refers to is collected, with its timers. Without allocators of its own (`+Mea min') the runtime doesn't
%% tell its memory.
collected_test_() ->
    [{timeout, 120, fun collected/0} || {error, notsup} =/= try erlang:memory(system) catch error:Reason -> {error, Reason} end].

collected() ->
    Before = erlang:memory(system),
    [in_process(fun() ->
        Clock = ertime:open(#{slots => 65536}),
        ertime:use(Clock),
        [ertime:start_timer(?HOUR, self(), {N, self()}) || N <- lists:seq(1, 100)]
    end) || _ <- lists:seq(1, 50)],
    erlang:garbage_collect(),
    is_given_back(Before + 20000000).

%% A clock that had many slots is given back by a thread.
is_given_back(Most) ->
    erlang:memory(system) < Most orelse begin timer:sleep(10), is_given_back(Most) end.

%% A message that holds its own clock and timers.
circular_test_() ->
    {timeout, 120, fun circular/0}.

circular() ->
    in_process(fun() ->
        Clock = ertime:open(#{}),
        ertime:use(Clock),
        First = ertime:start_timer(10, self(), {Clock, self()}),
        Second = ertime:start_timer(20, self(), {Clock, First}),
        2 = ertime:advance(Clock, 20),
        {timeout, First, {Clock, _}} = next(),
        {timeout, Second, {Clock, First}} = next()
    end).

%% --- many at once -------------------------------------------------------------------------------------------------

many_tests_at_once_test_() ->
    {timeout, 300, fun() ->
        Pids = [spawn_monitor(fun() -> one_of_many(N) end) || N <- lists:seq(1, 50)],
        [receive {'DOWN', Monitor, _, Pid, Reason} -> ?assertEqual(normal, Reason) end || {Pid, Monitor} <- Pids]
    end}.

one_of_many(N) ->
    with_clock(#{start => N * 1000000000}, fun(Clock) ->
        Self = self(),
        spawn_link(fun() -> beat(Self, 100) end),
        ertime:advance(Clock, 100 * 1000),
        ?assertEqual([N * 1000 + 1000 * K || K <- lists:seq(1, 100)], drain())
    end).

beat(_, 0) ->
    ok;
beat(To, Left) ->
    ertime:send_after(1000, self(), beat),
    receive
        beat -> To ! ertime:monotonic_time(millisecond)
    end,
    beat(To, Left - 1).

%% Many that open the first clock of a node at once, in a fresh node: none is killed.
first_clocks_at_once_test_() ->
    {timeout, 300, fun() ->
        Paths = lists:append([["-pa", filename:dirname(code:which(Module))] || Module <- [ertime, ?MODULE]]),
        Arguments = ["-noshell", "-run", atom_to_list(?MODULE), "first_clocks" | Paths],
        Port = open_port({spawn_executable, os:find_executable("erl")}, [{args, Arguments}, exit_status]),
        ?assertEqual(0, receive {Port, {exit_status, Status}} -> Status end)
    end}.

first_clocks() ->
    Opened = [spawn_monitor(fun() -> ertime:use(ertime:open(#{start => 0})), 0 = ertime:monotonic_time() end) || _ <- lists:seq(1, 100)],
    Reasons = lists:usort([receive {'DOWN', Monitor, _, Pid, Reason} -> Reason end || {Pid, Monitor} <- Opened]),
    halt(case Reasons of [normal] -> 0; _ -> 1 end).

%% Four processes start and cancel while a fifth moves the clock: each timer is delivered or cancelled, and just once.
stress_test_() ->
    {timeout, 300, fun() ->
        Clock = ertime:open(#{slots => 65536}),
        Workers = [spawn_monitor(fun() -> exit({counts, worker(Clock, 5000, N)}) end) || N <- lists:seq(1, 4)],
        Mover = spawn_link(fun() -> move(Clock) end),
        Counts = [receive {'DOWN', Monitor, _, Pid, {counts, Count}} -> Count end || {Pid, Monitor} <- Workers],
        unlink(Mover),
        exit(Mover, kill),
        ?assertEqual([{5000, 0}, {5000, 0}, {5000, 0}, {5000, 0}], Counts),
        ?assertMatch(#{timers := []}, ertime:info(Clock)),
        ertime:close(Clock)
    end}.

move(Clock) ->
    case ertime_nif:step(Clock, 1000000) of
        {_, _, _} ->
            erlang:yield(),
            move(Clock)
    end.

%% How many were settled once, and how many more than once.
worker(Clock, Count, Seed) ->
    rand:seed(exsss, Seed),
    ertime:use(Clock),
    Timers = [
        begin
            Timer = ertime:start_timer(rand:uniform(20), self(), {N, Seed}),
            case rand:uniform(3) of
                1 -> {Timer, ertime:cancel_timer(Timer) =/= false};
                2 -> erlang:yield(), {Timer, ertime:cancel_timer(Timer) =/= false};
                3 -> {Timer, false}
            end
        end
     || N <- lists:seq(1, Count)
    ],
    Expected = [Timer || {Timer, false} <- Timers],
    [receive {timeout, Timer, _} -> ok after 60000 -> error(lost) end || Timer <- Expected],
    timer:sleep(50),
    {length(Timers), length(drain())}.
