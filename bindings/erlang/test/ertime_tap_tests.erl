%% What is seen of timers of the runtime by a trace.
-module(ertime_tap_tests).
-behaviour(gen_statem).

-include_lib("eunit/include/eunit.hrl").

-export([init/1, callback_mode/0, handle_event/4]).

-define(HOUR, 3600000).

tap_test_() ->
    {foreach, fun ertime_tap:stop/0, fun(_) -> ertime_tap:stop() end, [
        {Name, {timeout, 60, Test}}
     || {Name, Test} <- [
            {"what becomes of timers", fun fates/0},
            {"an exit", fun exits/0},
            {"by whom", fun callers/0},
            {"how late", fun late/0},
            {"new processes", fun new_processes/0},
            {"by name", fun names/0},
            {"off by time", fun() -> by_itself(time, #{for => {100, millisecond}}) end},
            {"off by messages", fun() -> by_itself(messages, #{most => 100}) end},
            {"off by memory", fun() -> by_itself(memory, #{memory => 2000000}) end},
            {"off as its keeper is killed", fun killed/0},
            {"off as its collector is killed", fun collector_killed/0},
            {"somebody else traces", fun traced/0},
            {"once at a time", fun once/0},
            {"bad options", fun bad_options/0}
        ]
    ]}.

%% Does something in a process that is traced, and answers what it answers and what was seen of its timers.
seen(Do) ->
    {Worker, Monitor} = spawn_monitor(fun() ->
        receive go -> ok end,
        exit({answer, Do()})
    end),
    ok = ertime_tap:start(#{processes => [Worker]}),
    Worker ! go,
    receive
        {'DOWN', Monitor, process, Worker, {answer, Answer}} ->
            {ok, Log} = ertime_tap:stop(),
            {Answer, Log}
    end.

fates() ->
    {Left, Log} = seen(fun() ->
        A = erlang:start_timer(20, self(), a),
        receive {timeout, A, a} -> ok end,
        B = erlang:start_timer(?HOUR, self(), b),
        Left = erlang:cancel_timer(B),
        false = erlang:cancel_timer(B),
        C = erlang:send_after(0, self(), c),
        receive c -> ok end,
        false = erlang:cancel_timer(C),
        ?assertError(badarg, erlang:start_timer(-1, self(), bad)),
        D = erlang:start_timer(erlang:monotonic_time(millisecond) + 10, self(), d, [{abs, true}]),
        receive {timeout, D, d} -> ok end,
        E = erlang:start_timer(?HOUR, self(), e),
        ok = erlang:cancel_timer(E, [{async, true}]),
        _ = erlang:send_after(?HOUR, ertime_no_such_name, f),
        Left
    end),
    [A, B, C, D, E, F] = ertime_tap:timers(Log),
    #{kind := start_timer, fate := {arrived, _}, wait := 20, is_absolute := false, late := Late} = A,
    ?assert(is_integer(Late)),
    #{fate := {cancelled, Left, {_, _}}, wait := ?HOUR} = B,
    #{kind := send_after, fate := unknown, gone := Gone} = C,
    ?assert(is_integer(Gone)),
    #{fate := {arrived, _}, is_absolute := true} = D,
    #{fate := asked} = E,
    #{fate := armed, to := ertime_no_such_name} = F,
    #{timers := 6, off := stop, fates := #{arrived := 2, cancelled := 1, unknown := 1, asked := 1, armed := 1}} = ertime_tap:summary(Log).

exits() ->
    Other = spawn(fun() -> receive stop -> ok end end),
    {_, Log} = seen(fun() ->
        _ = erlang:start_timer(?HOUR, Other, x),
        Monitor = erlang:monitor(process, Other),
        Other ! stop,
        receive {'DOWN', Monitor, _, _, _} -> ok end
    end),
    [#{fate := exited, to := Other}] = ertime_tap:timers(Log).

callers() ->
    Line = ?LINE + 2,
    {_, Log} = seen(fun() ->
        [erlang:start_timer(?HOUR, self(), N) || N <- lists:seq(1, 5)]
    end),
    #{callers := [#{caller := {?MODULE, _, _, Line}, started := 5, rearmed_per_second := Again}]} = ertime_tap:summary(Log),
    ?assert(Again > 0),
    %% The timeout of a state machine.
    {ok, Machine} = gen_statem:start(?MODULE, [], []),
    ok = ertime_tap:start(#{processes => [Machine]}),
    ok = gen_statem:call(Machine, arm),
    {ok, Second} = ertime_tap:stop(),
    #{callers := [#{caller := {?MODULE, init, 1}, started := 1, left := 1}]} = ertime_tap:summary(Second),
    ?assert(string:find(ertime_tap_log:format(ertime_tap:summary(Second)), "ertime_tap_tests:init/1") =/= nomatch),
    gen_statem:stop(Machine).

init([]) -> {ok, state, []}.
callback_mode() -> handle_event_function.
handle_event({call, From}, arm, _, _) -> {keep_state_and_data, [{reply, From, ok}, {state_timeout, ?HOUR, x}]}.

%% It counts from the deadline to when the process looks into its mailbox.
late() ->
    Worker = spawn(fun() ->
        receive go -> ok end,
        Timer = erlang:start_timer(50, self(), x),
        receive {timeout, Timer, x} -> ok end,
        receive stop -> ok end
    end),
    ok = ertime_tap:start(#{processes => [Worker]}),
    Worker ! go,
    timer:sleep(20),
    true = erlang:suspend_process(Worker),
    timer:sleep(300),
    true = erlang:resume_process(Worker),
    timer:sleep(50),
    {ok, Log} = ertime_tap:stop(),
    Worker ! stop,
    #{late := [#{arrived := 1, p50 := Late, p99 := Late, most := Late}]} = ertime_tap:summary(Log),
    ?assert(Late >= 200000).

new_processes() ->
    ok = ertime_tap:start(#{processes => new}),
    _ = erlang:start_timer(?HOUR, self(), old),
    Worker = spawn(fun() -> erlang:start_timer(?HOUR, self(), new), receive stop -> ok end end),
    timer:sleep(50),
    {ok, Log} = ertime_tap:stop(),
    ?assertMatch([armed], [Fate || #{by := Pid, fate := Fate} <- ertime_tap:timers(Log), Pid =:= Worker]),
    ?assertEqual([], [It || It = #{by := Pid} <- ertime_tap:timers(Log), Pid =:= self()]),
    Worker ! stop.

names() ->
    register(ertime_tap_test, self()),
    ok = ertime_tap:start(#{processes => [ertime_tap_test]}),
    Timer = erlang:start_timer(1, ertime_tap_test, x),
    receive {timeout, Timer, x} -> ok end,
    unregister(ertime_tap_test),
    {ok, Log} = ertime_tap:stop(),
    [#{fate := {arrived, _}, to := ertime_tap_test}] = ertime_tap:timers(Log),
    {error, {no_process, ertime_tap_test}} = ertime_tap:start(#{processes => [ertime_tap_test]}).

%% Nothing is traced any more, and what was seen is there.
by_itself(Why, Options) ->
    Message = lists:seq(1, 500),
    Worker = spawn(fun() -> busy(Message) end),
    ok = ertime_tap:start(Options#{processes => [Worker]}),
    quiet(Worker, 500),
    {ok, Log = #{off := Why, messages := Count}} = ertime_tap:stop(),
    Worker ! stop,
    ?assert(length(ertime_tap:timers(Log)) > 0),
    ?assert(Count =< maps:get(most, Options, 100000)).

busy(Message) ->
    receive
        stop -> ok
    after 0 ->
        Timer = erlang:start_timer(0, self(), Message),
        receive {timeout, Timer, _} -> ok end,
        busy(Message)
    end.

quiet(Worker, Tries) ->
    case ertime_tap:is_on() orelse is_traced(Worker) of
        false -> {match_spec, true} = erlang:trace_info('receive', match_spec);
        true when Tries > 0 -> timer:sleep(20), quiet(Worker, Tries - 1)
    end.

is_traced(Worker) ->
    has_sessions() andalso apply(trace, session_info, [Worker]) =/= [] orelse
        {erlang:trace_info({erlang, start_timer, 3}, traced), erlang:trace_info(Worker, flags)} =/= {{traced, false}, {flags, []}}.

%% From Erlang/OTP 27 on.
has_sessions() ->
    code:ensure_loaded(trace) =:= {module, trace} andalso erlang:function_exported(trace, session_create, 3).

killed() ->
    Worker = spawn(fun() -> receive stop -> ok end end),
    ok = ertime_tap:start(#{processes => [Worker]}),
    exit(whereis(ertime_tap), kill),
    quiet(Worker, 500),
    {error, not_started} = ertime_tap:stop(),
    Worker ! stop.

%% As the runtime does where it takes too much memory. It can be found where there are no sessions.
collector_killed() ->
    Worker = spawn(fun() -> receive stop -> ok end end),
    ok = ertime_tap:start(#{processes => [Worker]}),
    case erlang:trace_info(Worker, tracer) of
        {tracer, Collector} when is_pid(Collector) ->
            exit(Collector, kill),
            quiet(Worker, 500),
            {ok, #{off := killed, timers := []}} = ertime_tap:stop();
        {tracer, []} ->
            ?assert(has_sessions())
    end,
    Worker ! stop.

traced() ->
    Worker = spawn(fun() -> receive stop -> ok end end),
    1 = erlang:trace(Worker, true, [procs]),
    Answer = ertime_tap:start(#{processes => [Worker]}),
    ?assertEqual(case has_sessions() of true -> ok; false -> {error, {traced, Worker}} end, Answer),
    _ = ertime_tap:stop(),
    {flags, [procs]} = erlang:trace_info(Worker, flags),
    1 = erlang:trace(Worker, false, [procs]),
    Worker ! stop.

once() ->
    {error, not_started} = ertime_tap:stop(),
    ok = ertime_tap:start(),
    {error, already_started} = ertime_tap:start(),
    {ok, #{processes := all}} = ertime_tap:stop().

bad_options() ->
    [
        try ertime_tap:start(Bad) of
            Answer -> error({Answer, Bad})
        catch
            error:badarg:Stack ->
                #{1 := Text} = ertime_tap:format_error(badarg, Stack),
                ?assert(string:find(Text, Named) =/= nomatch)
        end
     || {Bad, Named} <- [
            {#{much => 1}, "much"},
            {#{most => 0}, "most"},
            {#{memory => lots}, "memory"},
            {#{for => {1, fortnight}}, "for"},
            {#{for => 0}, "for"},
            {#{processes => []}, "processes"},
            {#{processes => ["name"]}, "processes"},
            {[{most, 1}], "map"}
        ]
    ].

%% --- the history ----------------------------------------------------------------------------------------------------

%% By docs/FORMATS.md: the first timer is due at 1 + 5 ms, and expires at 7 ms, when the second, due at 7, has arrived. The third is
%% cancelled with 8 ms left, which it has from 2 ms on, when the call to cancel it has begun.
history_test() ->
    Text = iolist_to_binary(ertime_tap:history(log([
        timer(0, 5, 100000, {arrived, 9000000}),
        timer(1, 6, 200000, {arrived, 7100000}),
        timer(2, 10, 900000, {cancelled, 8, {1999990, 2000010}})
    ]))),
    ?assertEqual(
        <<
            "settings multi true 0 1 1 3 1 0 0\n"
            "k c0 tick 100000 100000 plain 100000\nc0 - look 100000\nc0 w0 arm 0 0 1 after 5 0 0 wrapped\n"
            "k c0 tick 200000 200000 plain 200000\nc0 - look 200000\nc0 w0 arm 0 1 1 after 6 0 1 wrapped\n"
            "k c0 tick 900000 900000 plain 900000\nc0 - look 900000\nc0 w0 arm 0 2 1 after 10 0 2 wrapped\n"
            "k c0 tick 2000001 2000001 plain 2000001\nc0 - look 2000001\nc0 - cancel 0 2 1 8\n"
            "k c0 tick 7100000 7100000 plain 7100000\ns0 - look 7100000\ns0 w0 expire 0 0 1\ns0 m0 deliver 0 0 1\n"
            "s0 - look 7100000\ns0 w0 expire 0 1 1\ns0 m0 deliver 0 1 1\n"
        >>,
        Text
    ).

%% A timer that comes before its deadline, and another whose cancel tells too much, are written as they were.
wrong_history_test() ->
    ?assertEqual(
        <<
            "settings multi true 0 1 1 1 1 0 0\n"
            "k c0 tick 100000 100000 plain 100000\nc0 - look 100000\nc0 w0 arm 0 0 1 after 5 0 0 wrapped\n"
            "k c0 tick 5900000 5900000 plain 5900000\ns0 - look 5900000\ns0 w0 expire 0 0 1\ns0 m0 deliver 0 0 1\n"
        >>,
        iolist_to_binary(ertime_tap:history(log([timer(0, 5, 100000, {arrived, 5900000})])))
    ),
    ?assertEqual(
        <<
            "settings multi true 0 1 1 1 1 0 0\n"
            "k c0 tick 100000 100000 plain 100000\nc0 - look 100000\nc0 w0 arm 0 0 1 after 5 0 0 wrapped\n"
            "k c0 tick 200000 200000 plain 200000\nc0 - look 200000\nc0 - cancel 0 0 1 7\n"
        >>,
        iolist_to_binary(ertime_tap:history(log([timer(0, 5, 100000, {cancelled, 7, {200000, 210000}})])))
    ).

no_timers_test() ->
    ?assertEqual(<<"settings multi true 0 1 1 1 1 0 0\n">>, iolist_to_binary(ertime_tap:history(log([])))),
    #{timers := 0, late := [], callers := []} = ertime_tap:summary(log([])).

log(Timers) ->
    #{from => 0, to => 10000000, off => stop, messages => 0, processes => all, timers => Timers}.

timer(Number, Wait, Began, Fate) ->
    #{
        number => Number, kind => start_timer, by => self(), caller => unknown, to => self(), wait => Wait, is_absolute => false,
        scheduler => 2, started => {Began, Began + 10}, gone => none, fate => Fate, late => unknown
    }.
