%% Faults of time: what each does to a clock, what is refused, and how a seed that fails is found and made small.
-module(ertime_faults_tests).

-include_lib("eunit/include/eunit.hrl").
-compile({parse_transform, ertime_transform}).

%% In a node of its own.
-export([process_limit/0]).

-define(SECOND, 1000).

under(Schedule, Fun) ->
    ertime:test(#{advance => auto, mode => multi_time_warp, start => 0, schedule => Schedule}, fun(_) -> Fun() end).

now_ms() -> erlang:monotonic_time(millisecond).

taken() ->
    receive It -> [It | taken()] after 0 -> [] end.

%% --- each fault ---------------------------------------------------------------------------------------------------

%% The clocks of the operating system: monotonic time doesn't notice.
clocks_test() ->
    Begin = 1767225600000,
    Seen = fun() -> timer:sleep(10 * ?SECOND), {now_ms(), erlang:system_time(millisecond) - Begin} end,
    ?assertEqual({10000, 10000}, under([], Seen)),
    ?assertEqual({10000, 70000}, under([{5000, {leap, 60000}}], Seen)),
    ?assertEqual({10000, -50000}, under([{5000, {leap, -60000}}], Seen)),
    ?assertEqual({10000, 7000}, under([{5000, {freeze, 3000}}, {9999, {leap, 0}}], Seen)),
    %% Noticed at a check: within a minute or so.
    ?assertEqual({10000, 10000}, under([{5000, {late_check, 60000}}], Seen)),
    ?assertEqual({120000, 180000}, under([{5000, {late_check, 60000}}], fun() -> timer:sleep(110000), Seen() end)).

drift_test() ->
    OsTime = fun() -> timer:sleep(1000 * ?SECOND), os:system_time(millisecond) end,
    ?assertEqual(1000, under([{0, {drift, 1000}}], OsTime) - under([], OsTime)).

finalize_test() ->
    Offset = fun(Schedule) ->
        ertime:test(#{advance => auto, mode => single_time_warp, schedule => Schedule}, fun(_) ->
            timer:sleep(1000),
            ertime:system_info(time_offset)
        end)
    end,
    ?assertEqual(preliminary, Offset([])),
    ?assertEqual(final, Offset([{500, finalize}])).

%% A stall: all that was due comes at its end, in order.
stall_test() ->
    Seen = under([{100, {stall, 5000}}], fun() ->
        _ = [erlang:send_after(Time, self(), {Time, N}) || {N, Time} <- [{1, 3000}, {2, 200}, {3, 9000}]],
        timer:sleep(6000),
        {now_ms(), taken()}
    end),
    ?assertEqual({6000, [{200, 2}, {3000, 1}]}, Seen).

%% One process stands still, and its timers wait in its mailbox; others go on.
pause_test() ->
    Seen = under([{1500, {pause, beating, 3000}}], fun() ->
        Test = self(),
        Beat = fun Beat(Name) -> timer:sleep(?SECOND), Test ! {Name, now_ms()}, Beat(Name) end,
        Pid = spawn_link(fun() -> register(beating, self()), Beat(paused) end),
        _ = spawn_link(fun() -> Beat(other) end),
        timer:sleep(5 * ?SECOND + 1),
        unlink(Pid),
        exit(Pid, kill),
        taken()
    end),
    ?assertEqual([1000, 4500], [At || {paused, At} <- Seen]),
    ?assertEqual([1000, 2000, 3000, 4000, 5000], [At || {other, At} <- Seen]).

%% Whoever waits for a process that stands still wakes with it: that is no deadlock.
paused_server_test_() ->
    {timeout, 60, fun paused_server/0}.

paused_server() ->
    ok = ertime:transform([gen]),
    ?assertEqual(2500, under([{500, {pause, answering, 2000}}], fun() ->
        Pid = spawn_link(fun() -> register(answering, self()), receive {From, ask} -> From ! answer end end),
        timer:sleep(1000),
        Pid ! {self(), ask},
        receive answer -> now_ms() end
    end)).

%% A scheduler that is late holds back the timers of some processes, and not those of others.
late_test() ->
    Came = fun(Schedule) ->
        under(Schedule, fun() ->
            Test = self(),
            Pids = [spawn_link(fun() -> timer:sleep(1000), Test ! {N, now_ms()} end) || N <- lists:seq(1, 8)],
            timer:sleep(5000),
            8 = length(Pids),
            lists:sort([At || {_, At} <- taken()])
        end)
    end,
    ?assertEqual(lists:duplicate(8, 1000), Came([])),
    Late = Came([{900, {late, 3, 700}}]),
    ?assertEqual([1000, 1600], lists:usort(Late)).

%% Timers that are due at once: each seed has its order, the same one each time. Other deadlines keep theirs.
order_test_() ->
    {timeout, 120, fun order/0}.

order() ->
    Came = fun(Schedule) ->
        under(Schedule, fun() ->
            _ = [erlang:send_after(100, self(), N) || N <- lists:seq(1, 8)],
            _ = [erlang:send_after(50 + N, self(), {early, N}) || N <- lists:seq(1, 4)],
            timer:sleep(200),
            taken()
        end)
    end,
    Early = [{early, N} || N <- lists:seq(1, 4)],
    ?assertEqual(Early ++ lists:seq(1, 8), Came([])),
    Orders = [Came([{0, {order, Seed}}]) || Seed <- lists:seq(1, 10)],
    ?assertEqual(Orders, [Came([{0, {order, Seed}}]) || Seed <- lists:seq(1, 10)]),
    ?assertEqual([Early], lists:usort([lists:sublist(Order, 4) || Order <- Orders])),
    ?assertEqual([lists:seq(1, 8)], lists:usort([lists:sort(lists:nthtail(4, Order)) || Order <- Orders])),
    ?assert(length(lists:usort(Orders)) > 5).

%% One by one: what the first message makes a process start is armed before the second one comes.
serial_test() ->
    Came = fun(Schedule) ->
        under(Schedule, fun() ->
            Test = self(),
            Echo = spawn_link(fun() -> receive ping -> Test ! echo end end),
            _ = erlang:send_after(100, Echo, ping),
            _ = erlang:send_after(100, Test, second),
            timer:sleep(200),
            taken()
        end)
    end,
    ?assertEqual([echo, second], lists:sort(Came([]))),
    ?assertEqual([echo, second], Came([{0, serial}])).

%% Code that reads the time takes time: also what looks twice sees a later one.
cost_test() ->
    Read = fun() -> timer:sleep(1000), [erlang:monotonic_time(microsecond), erlang:monotonic_time(microsecond)] end,
    ?assertEqual([1000000, 1000000], under([], Read)),
    ?assertEqual([1000250, 1000500], under([{500, {cost, 250}}], Read)).

%% By hand too: an advance meets the faults that lie in it, and answers as many messages as without them.
by_hand_test() ->
    Moved = fun(Schedule) ->
        ertime:test(#{mode => multi_time_warp, schedule => Schedule}, fun(Clock) ->
            _ = [erlang:send_after(Time, self(), Time) || Time <- [100, 200, 300]],
            [ertime:advance(Clock, 150), ertime:advance(Clock, 150), erlang:system_time(second) - 1767225600]
        end)
    end,
    ?assertEqual([1, 2, 0], Moved([])),
    ?assertEqual([1, 2, 60], Moved([{120, {leap, 60000}}, {130, serial}])).

%% --- what is refused ----------------------------------------------------------------------------------------------

%% The text that the shell would show.
refused(Fun) ->
    try Fun() of
        Value -> {no_error, Value}
    catch
        error:badarg:Stack ->
            #{1 := Text} = ertime_options:format_error(badarg, Stack),
            list_to_binary(Text)
    end.

refused_test_() ->
    Test = fun(Options) -> refused(fun() -> ertime:test(Options, fun(_) -> ok end) end) end,
    Seeds = fun(Options) -> refused(fun() -> ertime:seeds(1, Options, fun(_) -> ok end) end) end,
    [
        ?_assertEqual(<<"schedule: {leap,60} is not {Milliseconds, Fault}, with milliseconds from 0 on">>, Test(#{schedule => [{leap, 60}]})),
        ?_assertEqual(<<"schedule: {jump,60} is no fault">>, Test(#{schedule => [{5, {jump, 60}}]})),
        ?_assertEqual(<<"schedule: soon is no list of {Milliseconds, Fault}">>, Test(#{schedule => soon})),
        ?_assertEqual(<<"faults: there is no finalize in the mode multi_time_warp">>, Test(#{mode => multi_time_warp, schedule => [{5, finalize}]})),
        ?_assertEqual(<<"faults: there is no finalize in the mode multi_time_warp">>, Seeds(#{faults => [finalize]})),
        ?_assertEqual(<<"faults: jumps is no kind of fault">>, Seeds(#{faults => [silent, jumps]})),
        ?_assertEqual(<<"faults: order is no kind of fault that has a number">>, Seeds(#{faults => [{order, 5}]})),
        ?_assertEqual(<<"most: none is no count">>, Seeds(#{most => none})),
        ?_assertEqual(<<"deterministic: 1 is neither true nor false">>, Seeds(#{deterministic => 1})),
        ?_assertEqual(<<"over: a duration above 0">>, Seeds(#{over => 0})),
        ?_assertEqual(<<"seeds: none is no count, no {From, To} and no list of seeds">>, refused(fun() -> ertime:seeds(none, #{}, fun(_) -> ok end) end)),
        ?_assertError(badarg, ertime:seeds(1, #{fault => silent}, fun(_) -> ok end)),
        ?_assertEqual(<<"always: wants a function of the clock">>, Test(#{always => true}))
    ].

%% --- seeds --------------------------------------------------------------------------------------------------------

%% What holds under every seed passes; `always' is asked at each rest.
passes_test_() ->
    {timeout, 120, fun passes/0}.

passes() ->
    ?assertEqual({passed, 50}, ertime_seeds:check(50, #{faults => [silent, loud], always => fun(_) -> now_ms() >= 0 end, start => 0}, fun(_) ->
        Begin = now_ms(),
        timer:sleep(60000),
        ?assert(now_ms() - Begin >= 60000)
    end)).

always_test_() ->
    {timeout, 120, fun always/0}.

always() ->
    {failed, Report} = ertime_seeds:check(50, #{faults => [leap], always => fun(_) -> erlang:system_time(second) >= 1767225600 end}, fun(_) ->
        timer:sleep(600000)
    end),
    #{raised := {error, {always, false}, _}, schedule := [{_, {leap, By}}]} = Report,
    ?assert(By < 0).

%% To the one fault that matters, and to numbers as a person would say them.
shrinks_test_() ->
    {timeout, 120, fun shrinks/0}.

shrinks() ->
    {failed, Report} = ertime_seeds:check(100, #{faults => [leap, drift, {stall, 20000}, order], over => 60000}, fun(_) ->
        Begin = now_ms(),
        timer:sleep(30000),
        ?assert(now_ms() - Begin < 33700)
    end),
    #{schedule := [{At, {stall, Long}}], again := {3, 3}} = Report,
    ?assert(At + Long >= 33700),
    ?assert(At + Long < 33700 + 1000),
    Text = unicode:characters_to_list(ertime_seeds:told(Report)),
    ?assertNotEqual(nomatch, string:find(Text, "fails if the whole node stands still for ")),
    ?assertNotEqual(nomatch, string:find(Text, io_lib:format("schedule => [{~w,{stall,~w}}]", [At, Long]))).

told_test() ->
    Report = #{
        seed => 17, passed => 16, drawn => lists:seq(1, 9), tries => 35, again => {3, 3}, raised => {error, x, []},
        options => #{advance => auto, limit => 5},
        schedule => [{56465, {pause, store, 3822}}, {1234567, {pause, 'Elixir.Store', 60000}}]
    },
    ?assertEqual(
        "\nertime: seed 17 fails, 16 before it passed; 2 of 9 faults matter (35 runs)\n"
        "  fails if store stands still for 3.822 s from 56.465 s on, and 'Elixir.Store' stands still for 1 min from 1234.567 s on\n"
        "  again in Erlang: ertime:test(#{advance => auto,schedule => [{56465,{pause,store,3822}},{1234567,{pause,'Elixir.Store',60000}}]}, Fun)\n"
        "  again in Elixir: @tag schedule: [{56_465, {:pause, :store, 3822}}, {1_234_567, {:pause, Store, 60_000}}]\n",
        unicode:characters_to_list(ertime_seeds:told(Report))
    ).

without_a_fault_test() ->
    ?assertMatch({failed, #{seed := none, schedule := []}}, ertime_seeds:check(5, #{}, fun(_) -> error(always) end)).

%% Twenty processes race for one: on one scheduler, one message a step, the outcome is that of the seed.
deterministic_test_() ->
    {timeout, 120, fun deterministic/0}.

deterministic() ->
    Race = fun(Clock) ->
        Self = self(),
        Pids = [spawn_link(fun() -> raced(Self, N, 10) end) || N <- lists:seq(1, 20)],
        20 = length(Pids),
        timer:sleep(3000),
        Self ! {Clock, end_of_it},
        put(outcome, erlang:phash2([It || It = {_, _} <- lists:droplast(taken())]))
    end,
    Test = self(),
    Outcomes = fun() ->
        {passed, 10} = ertime_seeds:check(10, #{faults => [order, {late, 300}], deterministic => true}, fun(Clock) ->
            _ = Race(Clock),
            Test ! {outcome, get(outcome)}
        end),
        [receive {outcome, Hash} -> Hash end || _ <- lists:seq(0, 10)]
    end,
    Online = erlang:system_info(schedulers_online),
    First = Outcomes(),
    ?assertEqual(First, Outcomes()),
    ?assert(length(lists:usort(First)) > 3),
    ?assertEqual(Online, erlang:system_info(schedulers_online)).

raced(_, _, 0) -> ok;
raced(To, N, Left) -> timer:sleep(100), To ! {N, now_ms()}, raced(To, N, Left - 1).

%% --- what is left -------------------------------------------------------------------------------------------------

%% A test that loops, that spawns without end, or that ends the process which drives its clock: a reason, and nothing is left.
leaves_nothing_test_() ->
    {timeout, 60, fun() ->
        ok = application:set_env(ertime, rest_limit, 500),
        %% What stays for good is there.
        {passed, 1} = ertime_seeds:check(1, #{}, fun(_) -> ok end),
        Before = processes(),
        Online = erlang:system_info(schedulers_online),
        Failed = fun(Fun) ->
            {failed, #{raised := {Class, Reason, _}}} = ertime_seeds:check(3, #{limit => 1000, shrink => false, deterministic => true}, Fun),
            {Class, case Reason of _ when is_tuple(Reason) -> element(1, Reason); _ -> Reason end}
        end,
        Loop = fun Loop() -> Loop() end,
        Spawn = fun Spawn() -> spawn(Spawn) end,
        Slowly = fun Slowly() -> timer:sleep(1000), spawn(fun() -> timer:sleep(infinity) end), Slowly() end,
        ?assertEqual({error, real_time_limit}, Failed(fun(_) -> Loop() end)),
        %% None of these lives long enough to be found at work, as a rule.
        ?assert(lists:member(Failed(fun(_) -> spawn(Spawn), timer:sleep(infinity) end), [{error, deadlock}, {error, real_time_limit}])),
        ?assertEqual({error, real_time_limit}, Failed(fun(_) -> spawn(Slowly), timer:sleep(infinity) end)),
        ?assertEqual({error, deadlock}, Failed(fun(_) -> receive never -> ok end end)),
        ?assertEqual({exit, killed}, Failed(fun(_) -> exit(self(), kill), timer:sleep(1) end)),
        ok = application:unset_env(ertime, rest_limit),
        timer:sleep(300),
        ?assertEqual([], processes() -- Before),
        ?assertEqual(Online, erlang:system_info(schedulers_online)),
        ?assertEqual([], [Filter || Filter = {Id, _} <- maps:get(filters, logger:get_primary_config()), lists:prefix("ertime_quiet", atom_to_list(Id))])
    end}.

%% Tests that spawn sleeping processes as fast as they can, up to the limit of their node: a fresh one, with a low limit.
process_limit_test_() ->
    {timeout, 120, fun() ->
        Paths = lists:append([["-pa", filename:dirname(code:which(Module))] || Module <- [ertime, ?MODULE]]),
        Arguments = ["+P", "32768", "-noshell", "-run", atom_to_list(?MODULE), "process_limit" | Paths],
        %% In a process that keeps what the node writes.
        {Pid, Monitor} = spawn_monitor(fun() ->
            Port = open_port({spawn_executable, os:find_executable("erl")}, [{args, Arguments}, exit_status]),
            receive {Port, {exit_status, Status}} -> exit({status, Status}) end
        end),
        ?assertEqual({status, 0}, receive {'DOWN', Monitor, process, Pid, Reason} -> Reason end)
    end}.

process_limit() ->
    Fast = fun Fast() -> spawn(fun() -> timer:sleep(infinity) end), Fast() end,
    Again = fun Again() -> try Fast() catch error:system_limit -> timer:sleep(1000), Again() end end,
    {passed, 1} = ertime_seeds:check(1, #{}, fun(_) -> ok end),
    Before = processes(),
    Failed = fun(Fun) ->
        {failed, #{raised := {error, Reason, _}}} = ertime_seeds:check(3, #{limit => 1000, shrink => false}, Fun),
        case Reason of _ when is_tuple(Reason) -> element(1, Reason); _ -> Reason end
    end,
    system_limit = Failed(fun(_) -> Fast() end),
    true = lists:member(Failed(fun(_) -> spawn(Fast), timer:sleep(infinity) end), [deadlock, real_time_limit]),
    real_time_limit = Failed(fun(_) -> spawn(Again), timer:sleep(infinity) end),
    all_gone(Before),
    halt(0).

%% What logs is gone when the runtime has written that there are too many processes.
all_gone(Before) ->
    processes() -- Before =:= [] orelse begin timer:sleep(100), all_gone(Before) end.

%% --- a suite as it is ---------------------------------------------------------------------------------------------

with_environment(Variables, Do) ->
    _ = [os:putenv(Name, Value) || {Name, Value} <- Variables],
    try
        Do()
    after
        [os:unsetenv(Name) || {Name, _} <- Variables]
    end.

%% A test that knows nothing of seeds runs without a fault, and once for each; it returns what it does, and raises what it raises.
suite_test_() ->
    {timeout, 120, fun suite/0}.

suite() ->
    Test = self(),
    Run = fun(_) -> Test ! ran, timer:sleep(1000), erlang:system_time(second) - 1767225600 end,
    Suite = fun(Variables) -> with_environment(Variables, fun() -> ertime:test(#{advance => auto, mode => multi_time_warp}, Run) end) end,
    ?assertEqual(1, Suite([])),
    ?assertEqual([ran], taken()),
    _ = Suite([{"ERTIME_SEEDS", "1..20"}]),
    ?assertEqual(21, length(taken())),
    _ = Suite([{"ERTIME_SEED", "17"}, {"ERTIME_FAULTS", "leap,drift"}]),
    ?assertEqual(2, length(taken())),
    ?assertEqual(<<"faults: jumps is no kind of fault">>, refused(fun() -> Suite([{"ERTIME_SEED", "17"}, {"ERTIME_FAULTS", "jumps"}]) end)),
    ?assertEqual(<<"ERTIME_SEEDS: some is no number">>, refused(fun() -> Suite([{"ERTIME_SEEDS", "some"}]) end)).
