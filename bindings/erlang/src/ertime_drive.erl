%% @private
%% Drives a clock through a schedule of faults, whoever lets its time pass.
%%
%% Whoever moves the clock asks step/2 in the place of the NIF. It goes on to the next fault at most, and where one is due, and
%% all timers before it have been sent, it has it done by a process of this module: that one suspends and resumes processes,
%% which are free again when it ends, with the test.
-module(ertime_drive).

-export([start/4, stop/1, stop_of/1, done/1, until_next/1, step/2, is_paused/1]).

-export_type([options/0]).

-type options() :: #{
    schedule := ertime_faults:schedule(),
    always := fun((ertime:clock()) -> term()) | none, % is called whenever all processes rest
    record := boolean(),                              % whether it is noted when timers are due
    tell := fun((term()) -> term())                   % is called once, with why `always' failed
}.

-define(NEVER, 1 bsl 62).
-define(MILLISECOND, 1000000).
-define(ALWAYS_LIMIT, 5000). % real milliseconds
-define(MOST_MOMENTS, 5000).

-record(drive, {clock, owner, monitors, events, paused = #{}, done = [], moments = [], always, record, tell}).

%% What is done at a time and isn't in a schedule: {resume, Pid}, {drift_back, PartsPerBillion}.

%% For the test that runs in the process Owner. It stays until it is stopped, or the process Asker has ended.
-spec start(ertime:clock(), pid(), pid(), options()) -> pid().
start(Clock, Owner, Asker, #{schedule := Schedule, always := Always, record := Record, tell := Tell}) ->
    Self = self(),
    {Pid, Monitor} = spawn_monitor(fun() ->
        ertime_use:stand_apart(),
        Drive = #drive{
            clock = Clock,
            owner = Owner,
            monitors = {erlang:monitor(process, Owner), erlang:monitor(process, Asker)},
            events = Schedule,
            always = Always,
            record = Record,
            tell = Tell
        },
        Begun = begin_at(0, Drive),
        publish(Begun),
        Self ! {?MODULE, self()},
        serve(Begun)
    end),
    receive
        {?MODULE, Pid} -> erlang:demonitor(Monitor, [flush]), Pid;
        {'DOWN', Monitor, process, Pid, Reason} -> error(Reason)
    end.

%% What was done to a clock: the faults with their times, each as it was found to be; and the milliseconds in which timers were
%% sent, if they were noted. Then nothing more is done.
-spec stop(pid()) -> {ertime_faults:schedule(), [non_neg_integer()]}.
stop(Pid) ->
    case call(Pid, stop) of
        {ok, Done, Moments} -> {Done, Moments};
        gone -> {[], []}
    end.

%% The same of a clock, if it has faults.
-spec stop_of(ertime:clock()) -> ok.
stop_of(Clock) ->
    case ertime_keeper:get({drive, Clock}) of
        none -> ok;
        {Pid, _, _, _, _} -> _ = stop(Pid), ok
    end.

%% How many nanoseconds of OS monotonic time it is until the next fault; a great number where there is none.
-spec until_next(ertime:clock()) -> non_neg_integer().
until_next(Clock) ->
    case {ertime_keeper:get({drive, Clock}), ertime_nif:os_time(Clock)} of
        {{_, Next, _, _, _}, {Mono, _}} -> max(0, Next - Mono);
        _ -> ?NEVER
    end.

%% The faults that were done to a clock so far.
-spec done(ertime:clock()) -> ertime_faults:schedule().
done(Clock) ->
    case ertime_keeper:get({drive, Clock}) of
        none ->
            [];
        {Pid, _, _, _, _} ->
            case call(Pid, done) of
                {ok, Done} -> Done;
                gone -> []
            end
    end.

%% Whether a process stands still because of a fault.
-spec is_paused(pid()) -> boolean().
is_paused(Pid) ->
    ertime_keeper:has({paused, Pid}).

%% --- in the process that moves the clock -------------------------------------------------------------------------

%% As `ertime_nif:step/2'. `again', with what is left, where a fault was done: then it has to be waited until all processes rest.
-spec step(ertime:clock(), non_neg_integer()) ->
    {non_neg_integer(), non_neg_integer(), non_neg_integer()} | {again, non_neg_integer()} | atom().
step(Clock, Left) ->
    case ertime_keeper:get({drive, Clock}) of
        none -> seen(Clock, ertime_nif:step(Clock, Left));
        {Pid, Next, Wakes, Always, Record} -> noted(Record, Pid, Clock, seen(Clock, driven(Clock, Left, Pid, Next, Wakes, Always)))
    end.

seen(Clock, {_, Sent, _} = Answer) when Sent > 0 ->
    ertime_use:is_seen() andalso ertime_seen:sent(Clock),
    Answer;
seen(_, Answer) ->
    Answer.

noted(true, Pid, Clock, {_, Sent, _} = Answer) when Sent > 0 ->
    _ = case ertime_nif:os_time(Clock) of
        {Mono, _} -> Pid ! {moment, Mono div ?MILLISECOND};
        _ -> closed
    end,
    Answer;
noted(_, _, _, Answer) ->
    Answer.

driven(Clock, Left, Pid, Next, Wakes, Always) ->
    case holds(Clock, Always) of
        true ->
            case ertime_nif:os_time(Clock) of
                {Mono, _} when Next =< Mono -> due(Clock, Left, Pid, Wakes);
                {Mono, _} -> until(Clock, Left, min(Left, Next - Mono), Wakes);
                Reason -> Reason
            end;
        {false, Reason} ->
            _ = call(Pid, {broken, Reason}),
            %% Whoever hears of it ends this process, or the test.
            receive after infinity -> closed end
    end.

until(Clock, Left, Part, Wakes) ->
    case ertime_nif:step(Clock, Part) of
        {Rest, Sent, Armed} -> {Left - Part + Rest, Sent, Armed + Wakes};
        Reason -> Reason
    end.

due(Clock, Left, Pid, Wakes) ->
    case ertime_nif:step(Clock, 0) of
        {_, 0, _} ->
            case call(Pid, do) of
                {ok, Took} -> {again, max(0, Left - Took)};
                gone -> driver_gone
            end;
        {_, Sent, Armed} ->
            {Left, Sent, Armed + Wakes};
        Reason ->
            Reason
    end.

%% Asks in a process of its own, which sees the clock and is none of its processes.
holds(_, none) ->
    true;
holds(Clock, Always) ->
    {Pid, Monitor} = spawn_monitor(fun() ->
        erlang:put('$ertime', Clock),
        exit({?MODULE, try Always(Clock) of
            false -> {false, {always, false}};
            _ -> true
        catch
            Class:Reason:Stack -> {false, {raised, Class, Reason, Stack}}
        end})
    end),
    receive
        {'DOWN', Monitor, process, _, {?MODULE, Answer}} -> Answer;
        {'DOWN', Monitor, process, _, Reason} -> {false, {raised, exit, Reason, []}}
    after ?ALWAYS_LIMIT ->
        Where = ertime_rest:describe(Pid),
        erlang:demonitor(Monitor, [flush]),
        exit(Pid, kill),
        {false, {always, {no_answer, Where}}}
    end.

call(Pid, Request) ->
    Monitor = erlang:monitor(process, Pid),
    Pid ! {Request, self(), Monitor},
    receive
        {Monitor, Answer} -> erlang:demonitor(Monitor, [flush]), Answer;
        {'DOWN', Monitor, process, Pid, _} -> gone
    end.

%% --- the process --------------------------------------------------------------------------------------------------

serve(Drive = #drive{monitors = {OfOwner, OfAsker}, done = Done, moments = Moments, tell = Tell}) ->
    receive
        {moment, At} when length(Moments) >= ?MOST_MOMENTS; hd(Moments) =:= At ->
            serve(Drive);
        {moment, At} ->
            serve(Drive#drive{moments = [At | Moments]});
        {do, From, Tag} ->
            {Took, Next} = do_next(Drive, From),
            Next =:= Drive orelse publish(Next),
            From ! {Tag, {ok, Took}},
            serve(Next);
        {{broken, Reason}, From, Tag} ->
            Tell(Reason),
            From ! {Tag, ok},
            serve(Drive#drive{tell = fun(_) -> ok end});
        {done, From, Tag} ->
            From ! {Tag, {ok, lists:reverse(Done)}},
            serve(Drive);
        {stop, From, Tag} ->
            leave(Drive),
            From ! {Tag, {ok, lists:reverse(Done), lists:reverse(Moments)}};
        {'DOWN', OfAsker, process, _, _} ->
            leave(Drive);
        {'DOWN', OfOwner, process, _, _} ->
            leave(Drive),
            serve(Drive#drive{events = [], paused = #{}})
    end.

leave(#drive{clock = Clock, paused = Paused}) ->
    _ = ertime_keeper:take({drive, Clock}),
    lists:foreach(fun free/1, maps:keys(Paused)).

%% When the next event is due, and how many processes it or a later one wakes.
publish(#drive{clock = Clock, events = Events, always = Always, record = Record}) ->
    Next =
        case Events of
            [{At, _} | _] -> At * ?MILLISECOND;
            [] -> ?NEVER
        end,
    ertime_keeper:put({drive, Clock}, {self(), Next, length([resume || {_, {resume, _}} <- Events]), Always, Record}).

%% What is due when the clock has just been opened, is done before the test begins.
begin_at(At, Drive = #drive{events = [{At, _} | _]}) ->
    {_, Next} = do_next(Drive, self()),
    begin_at(At, Next);
begin_at(_, Drive) ->
    Drive.

do_next(Drive = #drive{events = []}, _) ->
    {0, Drive};
do_next(Drive = #drive{events = [{At, Event} | Events]}, From) ->
    do(Event, At, Drive#drive{events = Events}, From).

%% How many nanoseconds it took, and what is left to do.
do({resume, Pid}, At, Drive = #drive{paused = Paused}, _) ->
    case Paused of
        #{Pid := Until} when Until =< At ->
            free(Pid),
            {0, Drive#drive{paused = maps:remove(Pid, Paused)}};
        _ ->
            {0, Drive}
    end;
do({drift_back, Drift}, _, Drive = #drive{clock = Clock}, _) ->
    _ = ertime_nif:drift(Clock, Drift),
    {0, Drive};
do({pause, Who, Long}, At, Drive, From) ->
    pause(named(Who, Drive, From), Who, Long, At, Drive);
do({freeze, Long}, At, Drive = #drive{clock = Clock}, _) ->
    {_, _, _, _, Before} = ertime_nif:settings(Clock),
    _ = ertime_nif:drift(Clock, -1000000000),
    {0, later(At + Long, {drift_back, Before}, done(At, {freeze, Long}, Drive))};
do({stall, Long}, At, Drive = #drive{clock = Clock}, _) ->
    Took = Long * ?MILLISECOND,
    _ = ertime_nif:run(Clock, Took),
    {Took, done(At, {stall, Long}, Drive)};
do(Fault, At, Drive = #drive{clock = Clock}, _) ->
    _ = to_clock(Clock, Fault),
    {0, done(At, Fault, Drive)}.

to_clock(Clock, {leap, By}) -> ertime_nif:leap(Clock, By * ?MILLISECOND, true);
to_clock(Clock, {late_check, By}) -> ertime_nif:leap(Clock, By * ?MILLISECOND, ertime_clock:is_followed(Clock, By));
to_clock(Clock, {drift, By}) -> ertime_nif:drift(Clock, round(By * 1000));
to_clock(Clock, finalize) -> ertime_nif:finalize(Clock);
to_clock(Clock, {order, Seed}) -> ertime_nif:order(Clock, Seed);
to_clock(Clock, serial) -> ertime_nif:serial(Clock, true);
to_clock(Clock, {late, Scheduler, Long}) -> ertime_nif:late(Clock, Scheduler - 1, Long);
to_clock(Clock, {cost, Microseconds}) -> ertime_nif:cost(Clock, Microseconds * 1000).

done(At, Fault, Drive = #drive{done = Done}) ->
    Drive#drive{done = [{At, Fault} | Done]}.

later(At, Event, Drive = #drive{events = Events}) ->
    Drive#drive{events = lists:keymerge(1, Events, [{At, Event}])}.

%% The process, and what it is called in a schedule.
named(Name, #drive{owner = Owner}, From) when is_atom(Name) ->
    case whereis(Name) of
        Pid when is_pid(Pid), Pid =/= Owner, Pid =/= From -> {Pid, Name};
        _ -> nobody
    end;
named(Number, #drive{clock = Clock, owner = Owner}, From) ->
    Others = [Pid || Pid <- lists:sort(ertime_nif:members(Clock)), not lists:member(Pid, [Owner, From, self()]), is_process_alive(Pid)],
    case Others of
        [] ->
            nobody;
        _ ->
            Which = 1 + (Number - 1) rem length(Others),
            Pid = lists:nth(Which, Others),
            case process_info(Pid, registered_name) of
                {registered_name, Name} -> {Pid, Name};
                _ -> {Pid, Which}
            end
    end.

pause(nobody, _, _, _, Drive) ->
    {0, Drive};
pause({Pid, Name}, _, Long, At, Drive = #drive{paused = Paused}) ->
    case is_map_key(Pid, Paused) orelse suspended(Pid) of
        true ->
            Until = max(At + Long, maps:get(Pid, Paused, 0)),
            {0, later(At + Long, {resume, Pid}, done(At, {pause, Name, Long}, Drive#drive{paused = Paused#{Pid => Until}}))};
        false ->
            {0, Drive}
    end.

suspended(Pid) ->
    ertime_keeper:put({paused, Pid}, self()),
    try
        erlang:suspend_process(Pid)
    catch
        error:_ ->
            _ = ertime_keeper:take({paused, Pid}),
            false
    end.

free(Pid) ->
    _ = ertime_keeper:take({paused, Pid}),
    try
        erlang:resume_process(Pid)
    catch
        error:_ -> false
    end.
