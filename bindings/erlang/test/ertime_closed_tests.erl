%% Another process closes the clock amid a call, just before one of the calls of the NIF that it makes: before the first, before
%% the second, and so on as far as there are any. The call then answers what it answers without a clock, or tells the process that
%% its clock was closed, or raises `closed' with its arguments, and nothing else.
-module(ertime_closed_tests).

-export([nif/2]).

-include_lib("eunit/include/eunit.hrl").

-define(MODULES, [
    ertime, ertime_clock, ertime_times, ertime_timers, ertime_monitors, ertime_use, ertime_rest, ertime_watch, ertime_timer,
    ertime_nodes, ertime_test
]).
-define(MOST, 40). % calls of the NIF

closed_test_() ->
    {setup, fun instrument/0, fun restore/1, [
        {Name, {timeout, 300, fun() -> closed_before_each(Options, Do, MayRaise) end}}
     || {Name, Options, Do, MayRaise} <- times() ++ timers() ++ monitors() ++ clocks() ++ servers()
    ]}.

%% --- the modules, with a call of nif/2 in the place of each call of the NIF ---------------------------------------------

instrument() ->
    %% The first clock of a node loads modules.
    true = ertime:close(ertime:open()),
    %% A call of a server of the runtime waits by the clock, too.
    ok = ertime:transform([gen]),
    _ = [load(Module, instrumented(Module)) || Module <- ?MODULES],
    ?MODULES.

restore(Modules) ->
    ok = ertime:untransform([gen]),
    _ = [begin code:purge(Module), {module, Module} = code:load_file(Module) end || Module <- Modules],
    ok.

load(Module, Binary) ->
    code:purge(Module),
    {module, Module} = code:load_binary(Module, "instrumented", Binary).

instrumented(Module) ->
    {Module, Binary, _} = code:get_object_code(Module),
    {ok, {_, [{abstract_code, {raw_abstract_v1, Forms}}]}} = beam_lib:chunks(Binary, [abstract_code]),
    {ok, Module, New} = compile:forms(turned(Forms), [binary, nowarn_unused_vars]),
    New.

turned({call, Anno, {remote, At, {atom, _, ertime_nif}, F}, Arguments}) ->
    List = lists:foldr(fun(Head, Tail) -> {cons, Anno, turned(Head), Tail} end, {nil, Anno}, Arguments),
    {call, Anno, {remote, At, {atom, At, ?MODULE}, {atom, At, nif}}, [F, List]};
turned(Tuple) when is_tuple(Tuple) ->
    list_to_tuple(turned(tuple_to_list(Tuple)));
turned([Head | Tail]) ->
    [turned(Head) | turned(Tail)];
turned(Other) ->
    Other.

%% A call of the NIF by any process of the clock. Before the one that is counted out, the clock is closed.
nif(F, Arguments) ->
    case persistent_term:get(?MODULE, none) of
        {Clock, Left} -> atomics:sub_get(Left, 1, 1) =:= 0 andalso close(Clock);
        none -> ok
    end,
    apply(ertime_nif, F, Arguments).

close(Clock) ->
    {Pid, Monitor} = spawn_monitor(fun() -> true = is_boolean(ertime:close(Clock)) end),
    receive {'DOWN', Monitor, process, Pid, Reason} -> normal = Reason end.

closed_before_each(Options, Do, MayRaise) ->
    _ = lists:takewhile(fun(N) -> closed_before(N, Options, Do, MayRaise) end, lists:seq(1, ?MOST)),
    ok.

%% Answers whether there were so many calls.
closed_before(N, Options, Do, MayRaise) ->
    Clock = ertime:open(Options),
    Left = atomics:new(1, [{signed, true}]),
    {Pid, Monitor} = spawn_monitor(fun() ->
        ertime:use(Clock),
        Call = Do(Clock),
        atomics:put(Left, 1, N),
        persistent_term:put(?MODULE, {Clock, Left}),
        exit(try {answers, Call()} catch Class:Reason:Stack -> {raises, Class, Reason, hd(Stack)} end)
    end),
    Result = receive {'DOWN', Monitor, process, Pid, How} -> How after 30000 -> {hangs, process_info(Pid, current_stacktrace)} end,
    persistent_term:erase(?MODULE),
    ertime:close(Clock),
    ?assertEqual({N, good}, {N, judged(Result, MayRaise)}),
    atomics:get(Left, 1) =< 0.

judged({answers, _}, _) -> good;
judged({raises, error, {clock_closed, [_ | _]}, _}, _) -> good;
judged({raises, error, closed, {_, _, Arguments, _}}, true) when is_list(Arguments) -> good;
judged(Other, _) -> Other.

%% --- the calls ----------------------------------------------------------------------------------------------------

%% Each is made ready with the clock, and then called.
times() ->
    [
        {lists:flatten(io_lib:format("~s~p", [F, Arguments])), #{}, fun(_) -> fun() -> apply(ertime, F, Arguments) end end, false}
     || {F, Arguments} <- [
            {monotonic_time, []}, {monotonic_time, [second]}, {system_time, []}, {system_time, [second]}, {time_offset, []},
            {time_offset, [second]}, {timestamp, []}, {universaltime, []}, {localtime, []}, {date, []}, {time, []}, {now, []},
            {os_system_time, []}, {os_system_time, [second]}, {os_timestamp, []}, {convert_time_unit, [1, second, native]}, {clock, []}
        ]
    ].

timers() ->
    Late = 60000,
    [
        {"start_timer/3", #{}, fun(_) -> fun() -> ertime:start_timer(Late, self(), x) end end, false},
        {"start_timer/4", #{}, fun(_) -> fun() -> ertime:start_timer(Late, self(), x, [{abs, false}]) end end, false},
        {"send_after/3", #{}, fun(_) -> fun() -> ertime:send_after(Late, self(), x) end end, false},
        {"send_after/4", #{}, fun(_) -> fun() -> ertime:send_after(Late, self(), x, [{abs, false}]) end end, false}
    ] ++ [
        {Name, #{}, fun(_) -> T = ertime:start_timer(Late, self(), x), fun() -> Do(T) end end, false}
     || {Name, Do} <- [
            {"cancel_timer/1", fun(T) -> ertime:cancel_timer(T) end},
            {"cancel_timer/2", fun(T) -> ertime:cancel_timer(T, [{async, true}]) end},
            {"read_timer/1", fun(T) -> ertime:read_timer(T) end},
            {"read_timer/2", fun(T) -> ertime:read_timer(T, [{async, true}]) end}
        ]
    ] ++ [
        {"sleep/1", #{advance => auto}, fun(_) -> fun() -> ok = ertime:sleep(20) end end, false},
        {"receive_start/1 and receive_stop/1", #{}, fun(_) -> fun nothing_comes/0 end, false}
    ].

%% A receive that ends before its timeout leaves nothing behind.
nothing_comes() ->
    {Timer, infinity} = ertime:receive_start(300),
    ok = ertime:receive_stop(Timer),
    receive Message -> error({came, Message}) after 600 -> ok end.

monitors() ->
    [
        {"monitor/2", #{}, fun(_) -> fun() -> ertime:monitor(time_offset, clock_service) end end, false},
        {"demonitor/1", #{}, fun(_) -> M = ertime:monitor(time_offset, clock_service), fun() -> ertime:demonitor(M) end end, false},
        {"demonitor/2", #{}, fun(_) -> M = ertime:monitor(time_offset, clock_service), fun() -> ertime:demonitor(M, [flush, info]) end end, false},
        {"system_flag/2", #{mode => single_time_warp}, fun(_) -> fun() -> ertime:system_flag(time_offset, finalize) end end, false},
        {"process_info/2", #{}, fun(_) -> fun() -> ertime:process_info(self(), monitored_by) end end, false}
    ] ++ [
        {"system_info/1, " ++ atom_to_list(Item), #{}, fun(_) -> fun() -> ertime:system_info(Item) end end, false}
     || Item <- [time_offset, time_warp_mode, time_correction, start_time, end_time, os_monotonic_time_source, os_system_time_source]
    ].

clocks() ->
    [
        {Name, #{}, fun(Clock) -> _ = [ertime:send_after(N, self(), x) || N <- [1, 2, 3]], fun() -> Do(Clock) end end, true}
     || {Name, Do} <- [
            {"info/1", fun(Clock) -> ertime:info(Clock) end},
            {"advance/2", fun(Clock) -> ertime:advance(Clock, 10) end},
            {"advance/2, until_idle", fun(Clock) -> ertime:advance(Clock, until_idle) end},
            {"advance/2, auto", fun(Clock) -> ertime:advance(Clock, auto) end},
            {"advance/2, by_hand", fun(Clock) -> ertime:advance(Clock, by_hand) end},
            {"warp/2", fun(Clock) -> ertime:warp(Clock, 10) end},
            {"warp/2, back", fun(Clock) -> ertime:warp(Clock, -10) end},
            {"warp/3", fun(Clock) -> ertime:warp(Clock, -10, [{check, false}]) end},
            {"drift/2", fun(Clock) -> ertime:drift(Clock, 10) end},
            {"rest/1", fun(Clock) -> ertime:rest(Clock) end},
            {"use/1", fun(Clock) -> ertime:use(Clock) end},
            {"use/1 of another process", fun(Clock) -> elsewhere(fun() -> ertime:use(Clock) end) end},
            {"with/2", fun(Clock) -> ertime:with(Clock, fun() -> is_integer(ertime:monotonic_time()) end) end},
            {"use_everywhere/1", fun(Clock) -> ertime:use_everywhere(Clock) end}
        ]
    ] ++ [
        {"close/1", #{}, fun(Clock) -> fun() -> is_boolean(ertime:close(Clock)) end end, false},
        {"use/1, with another clock before", #{}, fun(Clock) -> fun() -> keeps_the_other(Clock) end end, false}
    ].

%% In a process that has the dictionary of none.
elsewhere(Do) ->
    {Pid, Monitor} = spawn_monitor(fun() -> exit(try {answers, Do()} catch error:Reason:Stack -> {raises, Reason, Stack} end) end),
    receive
        {'DOWN', Monitor, process, Pid, {answers, Answer}} -> Answer;
        {'DOWN', Monitor, process, Pid, {raises, Reason, Stack}} -> erlang:raise(error, Reason, Stack)
    end.

%% Whoever can't use a clock keeps the one that it used.
keeps_the_other(Clock) ->
    Other = ertime:open(),
    _ = ertime:use(Other),
    Expected = try ertime:use(Clock) of Other -> [Clock, none] catch error:closed -> [Other] end,
    ?assert(lists:member(ertime:clock(), Expected)),
    ertime:close(Other).

servers() ->
    [
        {Name, #{}, fun(_) -> Do end, false}
     || {Name, Do} <- [
            {"timer:apply_after/4", fun() -> {ok, _} = ertime_timer:apply_after(60000, erlang, self, []) end},
            {"timer:send_after/3", fun() -> {ok, _} = ertime_timer:send_after(60000, self(), x) end},
            {"timer:apply_interval/4", fun() -> {ok, _} = ertime_timer:apply_interval(60000, erlang, self, []) end},
            {"timer:send_interval/2 and cancel/1", fun() ->
                {ok, Timer} = ertime_timer:send_interval(60000, x),
                {ok, cancel} = ertime_timer:cancel(Timer)
            end},
            {"timer:tc/1", fun() -> {_, ok} = ertime_timer:tc(fun() -> ok end) end}
        ]
    ] ++ [
        {"timers that expire", #{advance => auto}, fun(_) -> fun beats/0 end, false},
        {"test/2", #{}, fun(_) -> fun() -> ok = ertime:test(#{advance => auto}, fun(_) -> ertime:sleep(5) end) end end, false}
    ].

beats() ->
    {ok, _} = ertime_timer:apply_interval(5, erlang, send, [self(), x]),
    %% From Erlang/OTP 26 on.
    _ = [{ok, _} = ertime_timer:apply_repeatedly(5, erlang, self, []) || erlang:function_exported(timer, apply_repeatedly, 4)],
    {ok, _} = ertime_timer:send_after(10, x),
    receive x -> ok after 100 -> ok end.
