%% @private
%% A test under a clock of its own: in a process of its own (`ertime:test/2'), or in one that a test framework has started.
-module(ertime_test).

-export([run/2, outcome/2, set_up/1, set_up/2, done/1, tear_down/1, before/0, clear/4, held/2, in_process/3]).

-include("ertime.hrl").

-define(OWN_MODULES, [?MODULE, ertime, ertime_clock, ertime_timers, ertime_timer, ertime_rest]).
-define(LIMIT, 60000).
-define(STILL, 10).
-define(ROUNDS, 20).
-define(LOOKS, 5).

%% Under the clock of the options, or those of the seeds that the environment asks for.
run(Options, Fun) ->
    case {ertime_seeds:asked(), is_map_key(schedule, Options)} of
        {Asked, false} when Asked =/= none -> ertime_seeds:suite(Asked, Options, Fun);
        _ -> returned(ertime_seeds:with_schedulers(maps:merge(#{deterministic => false}, Options), fun() -> outcome(Options, Fun) end))
    end.

returned({returned, Result, _}) -> Result;
returned({raised, Class, Reason, Stack, _}) -> erlang:raise(Class, Reason, Stack).

%% What the test returns or raises, which faults were done, and, with the option `record', when timers were due.
-spec outcome(map(), fun((ertime:clock()) -> term())) -> ertime_seeds:outcome().
outcome(Options, Fun) ->
    {Clock, Rest} = open(Options),
    try
        told(Clock, Rest, under(Clock, Fun, Rest))
    after
        ertime_seen:stop(Clock),
        ertime:close(Clock)
    end.

%% What its clock has seen of a test that fails.
told(Clock, #{seen := true, show := true} = Rest, {raised, _, Reason, Stack, {Done, _}} = Outcome) ->
    ertime_seen:failed(Clock, name(maps:get(name, Rest), Stack), Reason, Done),
    Outcome;
told(_, _, Outcome) ->
    Outcome.

%% A test's own, or that of the outermost function which is neither of this package nor of ExUnit.
name(none, Stack) ->
    case [{Module, Name} || {Module, Name, _, _} <- lists:reverse(Stack), not lists:member(Module, ?OWN_MODULES), not lists:prefix("Elixir.ExUnit.", atom_to_list(Module))] of
        [{Module, Name} | _] -> io_lib:format("~ts.~ts", [Module, Name]);
        [] -> "a test"
    end;
name(Name, _) ->
    Name.

%% The clock, and how it is moved.
open(Options) ->
    #{schedule := Schedule0, always := Always, deterministic := Deterministic} = Rest = maps:merge(own(), maps:with(maps:keys(own()), Options)),
    Wrong = ertime_options:wrong(maps:with([advance, limit], Options)),
    Wrong =:= none orelse ?BADARG([Options], 1, Wrong),
    is_boolean(Deterministic) orelse ertime_faults:refuse("deterministic: neither true nor false", [Options]),
    Always =:= none orelse is_function(Always, 1) orelse ertime_faults:refuse("always: wants a function of the clock", [Options]),
    Schedule =
        case Schedule0 of
            none when Always =:= none, not Deterministic -> none;
            none -> ertime_seeds:serially(Rest, []);
            _ -> ertime_seeds:serially(Rest, ertime_faults:check(Schedule0, Options, [Options]))
        end,
    Clock = ertime_clock:open_for(Schedule, maps:without(maps:keys(own()), Options)),
    maps:get(seen, Rest) =:= true andalso ertime_seen:start(Clock),
    {Clock, Rest#{schedule := Schedule}}.

%% The options of a test that are none of a clock, and how the clock is moved.
own() ->
    #{
        advance => by_hand, limit => ?LIMIT, schedule => none, always => none, deterministic => false,
        record => false,  % whether it is noted when timers are due
        output => none,   % a group leader
        seen => true,     % whether what it does with time is noted
        show => true,     % and told, if it fails
        name => none
    }.

%% For the calling process, which a test framework has started for a test: opens a clock, and closes it when the process ends.
set_up(Options) ->
    {Clock, _} = set_up(Options, self()),
    Clock.

%% The same, with the process that `done/1' asks which faults were done, and which ends with the process `Asker'.
set_up(Options, Asker) ->
    {Clock, Rest} = open(Options),
    Self = self(),
    Drive = drive(Clock, Self, Asker, Rest, fun(Reason) -> exit(Self, Reason) end),
    _ = watch(Clock, Self, Rest, fun(Reason) -> exit(Self, Reason) end),
    _ = ertime:use(Clock),
    {Clock, Drive}.

%% In any process.
tear_down(Clock) ->
    ertime_seen:stop(Clock),
    ertime:close(Clock).

drive(_, _, _, #{schedule := none}, _) ->
    none;
drive(Clock, Owner, Asker, Rest, Tell) ->
    ertime_drive:start(Clock, Owner, Asker, (maps:with([schedule, always, record], Rest))#{tell => Tell}).

watch(Clock, Owner, #{advance := Advance, limit := Limit}, Tell) ->
    ertime_watch:start(Clock, Owner, #{advance => Advance, limit => Limit, tell => Tell, gone => fun() -> ertime:close(Clock) end}).

under(Clock, Fun, Rest) ->
    Self = self(),
    Callers = [Self | case get('$callers') of undefined -> []; Others -> Others end],
    Before = case maps:get(schedule, Rest) of none -> none; _ -> before() end,
    {Pid, Monitor} = spawn_monitor(?MODULE, in_process, [Clock, Callers, Fun]),
    maps:get(output, Rest) =:= none orelse group_leader(maps:get(output, Rest), Pid),
    Tell = fun(Reason) -> Self ! {?MODULE, Monitor, Reason} end,
    Drive = drive(Clock, Pid, Self, Rest, Tell),
    Watch = watch(Clock, Pid, Rest, Tell),
    %% Whoever ends this process, as a limit of the time of tests does, ends the other one too.
    Guard = spawn(fun() -> guard(Self, Pid) end),
    Pid ! {?MODULE, go},
    try
        ended(Pid, Monitor, Drive)
    after
        exit(Guard, kill),
        kill(Watch, erlang:monitor(process, Watch)),
        forget(Monitor),
        Before =:= none orelse clear(Clock, Pid, maps:get(output, Rest), Before)
    end.

ended(Pid, Monitor, Drive) ->
    receive
        {?MODULE, Monitor, {raised, Class, Reason, Stack}} ->
            kill(Pid, Monitor),
            {raised, Class, Reason, Stack, done(Drive)};
        {?MODULE, Monitor, Reason} ->
            Stack = stack(Pid),
            kill(Pid, Monitor),
            {raised, error, Reason, Stack, done(Drive)};
        {'DOWN', Monitor, process, Pid, {shutdown, {?MODULE, returned, Result}}} ->
            {returned, Result, done(Drive)};
        {'DOWN', Monitor, process, Pid, {shutdown, {?MODULE, raised, Class, Reason, Stack}}} ->
            {raised, Class, Reason, Stack, done(Drive)};
        {'DOWN', Monitor, process, Pid, Reason} ->
            {raised, exit, Reason, [], done(Drive)}
    end.

done(none) -> {[], []};
done(Drive) -> ertime_drive:stop(Drive).

%% The processes that were there before a test. (Their numbers don't tell that: they are given again.)
-spec before() -> #{pid() => []}.
before() ->
    maps:from_keys(processes(), []).

%% Waits until the processes that a test has left end, as those that are linked to it do, and ends the rest: whoever runs it again
%% finds their names free. They are those that it, or one of them, has spawned, and others that weren't there before it and see its
%% clock or have the group leader of its run.
-spec clear(ertime:clock(), pid(), pid() | none, #{pid() => []}) -> ok.
clear(Clock, Test, Output, Before) ->
    Find = fun() -> left(Clock, Test, Output, Before) end,
    {Left, _} = Find(),
    wait_for(watched(Left), ?STILL, fun kill_all/1),
    clear_again(Find, Before, ?ROUNDS).

%% Those that are spawned meanwhile, again and again. None of them goes on while it is looked at: to be asked for something else
%% lets a process run.
clear_again(_, _, 0) ->
    ok;
clear_again(Find, Before, Rounds) ->
    case Find() of
        {[], false} ->
            ok;
        %% What ends may be a process of this package.
        {[], true} when Rounds > ?ROUNDS - ?LOOKS ->
            clear_again(Find, Before, Rounds - 1);
        _ ->
            Killed = held(Before, fun() ->
                {Left, _} = Find(),
                kill_all(Left),
                Left
            end),
            wait_for(watched(Killed), ?STILL, fun kill_all/1),
            clear_again(Find, Before, Rounds - 1)
    end.

kill_all(Pids) ->
    lists:foreach(fun(Pid) -> exit(Pid, kill) end, Pids).

%% Calls a function while all processes that weren't there before stand still. Those of other clocks don't rest meanwhile.
-spec held(#{pid() => []}, fun(() -> Result)) -> Result.
held(Before, Fun) ->
    ertime_keeper:put({holds, self()}, true),
    Priority = process_flag(priority, high),
    _ = erlang:system_flag(multi_scheduling, block_normal),
    Held = [Pid || Pid <- processes(), Pid =/= self(), not is_map_key(Pid, Before), is_held(Pid)],
    _ = erlang:system_flag(multi_scheduling, unblock_normal),
    _ = process_flag(priority, Priority),
    try
        Fun()
    after
        _ = [is_free(Pid) || Pid <- Held],
        _ = ertime_keeper:take({holds, self()})
    end.

%% Before it runs again.
is_held(Pid) ->
    try
        erlang:suspend_process(Pid, [asynchronous])
    catch
        error:_ -> false
    end.

is_free(Pid) ->
    try
        erlang:resume_process(Pid)
    catch
        error:_ -> false
    end.

watched(Pids) ->
    maps:from_list([{erlang:monitor(process, Pid), Pid} || Pid <- Pids]).

%% And whether any process ended while they were looked for, which may have left another one.
left(Clock, Test, Output, Before) ->
    Infos = [{Pid, process_info(Pid, [parent, group_leader, dictionary])} || Pid <- processes(), Pid =/= self(), not is_map_key(Pid, Before)],
    {Own, Others} = lists:partition(fun({_, Info}) -> is_of(Clock, Output, Info) end, [It || It = {_, Info} <- Infos, Info =/= undefined]),
    {family([Pid || {Pid, _} <- Own], [Test], Others), lists:keymember(undefined, 2, Infos)}.

is_of(Clock, Output, [_, {_, Leader}, {_, Dictionary}]) ->
    Leader =:= Output orelse lists:keyfind('$ertime', 1, Dictionary) =:= {'$ertime', Clock}.

%% With those that one of them, or the test, has spawned.
family(Found, Parents, Others) ->
    case lists:partition(fun({_, [{parent, Parent} | _]}) -> lists:member(Parent, Parents ++ Found) end, Others) of
        {[], _} -> Found;
        {Children, Rest} -> family([Pid || {Pid, _} <- Children] ++ Found, Parents, Rest)
    end.

%% None has ended for so many real milliseconds: then they are ended, once.
wait_for(Monitors, _, _) when map_size(Monitors) =:= 0 ->
    ok;
wait_for(Monitors, Wait, Otherwise) ->
    receive
        {'DOWN', Monitor, process, _, _} when is_map_key(Monitor, Monitors) -> wait_for(maps:remove(Monitor, Monitors), Wait, Otherwise)
    after Wait ->
        _ = Otherwise(maps:values(Monitors)),
        wait_for(Monitors, infinity, Otherwise)
    end.

%% The reason tells processes that are linked to it to end quietly. What reports a failure takes the outermost call for the test.
%% @private
-spec in_process(ertime:clock(), [pid()], fun((ertime:clock()) -> term())) -> no_return().
in_process(Clock, Callers, Fun) ->
    receive {?MODULE, go} -> ok end,
    put('$callers', Callers),
    put('$ertime_own', Clock),
    _ = ertime:use(Clock),
    exit({shutdown, try Fun(Clock) of
        Result -> {?MODULE, returned, Result}
    catch
        Class:Reason:Stack -> {?MODULE, raised, Class, Reason, [Frame || Frame <- Stack, element(1, Frame) =/= ?MODULE]}
    end}).

%% What the watch has told of the test since it ended.
forget(Monitor) ->
    receive
        {?MODULE, Monitor, _} -> forget(Monitor)
    after 0 -> ok
    end.

guard(Caller, Pid) ->
    Monitors = {erlang:monitor(process, Caller), erlang:monitor(process, Pid)},
    put('$ertime', none),
    receive
        {'DOWN', Monitor, process, _, _} when Monitor =:= element(1, Monitors) -> exit(Pid, kill);
        {'DOWN', Monitor, process, _, _} when Monitor =:= element(2, Monitors) -> ok
    end.

stack(Pid) ->
    case process_info(Pid, current_stacktrace) of
        {current_stacktrace, Stack} -> Stack;
        undefined -> []
    end.

kill(Pid, Monitor) ->
    exit(Pid, kill),
    receive
        {'DOWN', Monitor, process, Pid, _} -> ok
    end.
