%% The ops of a scenario but for the readings of the OS clocks, done on this node.
-module(ertime_peer_ops).

-export([do/2, time/1, offset/2, processes/1, rest/0]).

-include("ertime_peer.hrl").

%% The greatest deadline of ertime, in milliseconds after the start time.
-define(GREATEST_DEADLINE, 8796093022207).
%% How many monitors a process of ertime has.
-define(MONITORS, 64).

%% Times and offsets of the scenario, of those of the node.

-spec time(#state{}) -> integer().
time(State) ->
    erlang:monotonic_time(nanosecond) - State#state.base + State#state.start.

-spec offset(integer(), #state{}) -> integer().
offset(Offset, State) ->
    Offset + State#state.base - State#state.start.

%% The line of an op, and the state after it.
-spec do(tuple(), #state{}) -> {iolist(), #state{}}.
do({time}, State) ->
    {["time ", integer_to_list(time(State))], State};
do({system}, State) ->
    {["system ", integer_to_list(erlang:system_time(nanosecond))], State};
do({offset}, State) ->
    {["offset ", offset_and_state(" ", State)], State};
do({info}, State) ->
    #state{base = Base, start = Start} = State,
    End = erlang:system_info(end_time) - Base + Start,
    Mode = case erlang:system_info(time_warp_mode) of
        no_time_warp -> "no";
        single_time_warp -> "single";
        multi_time_warp -> "multi"
    end,
    Line = [
        "info start ", integer_to_list(erlang:system_info(start_time) - Base + Start),
        " end ", integer_to_list(End),
        " mode ", Mode,
        " correction ", atom_to_list(erlang:system_info(time_correction)),
        " offset ", offset_and_state(" state ", State)
    ],
    {Line, State};
do({convert, Time, From, To}, State) ->
    Line = case erlang:convert_time_unit(Time, From, To) of
        Value when Value >= -(1 bsl 63), Value < 1 bsl 63 -> ["convert ", integer_to_list(Value)];
        _ -> "convert too_wide"
    end,
    {Line, State};
do({start, Label, _, Kind, Milliseconds, Process, Message}, State) ->
    start_timer("start", start_timer, Label, Kind, Milliseconds, Process, Message, State);
do({send_after, Label, _, Kind, Milliseconds, Process, Message}, State) ->
    start_timer("send_after", send_after, Label, Kind, Milliseconds, Process, Message, State);
do({cancel, Label}, State) ->
    {Timer, Next} = timer(Label, State),
    {["cancel ", left(erlang:cancel_timer(Timer))], Next};
do({cancel_quiet, Label}, State) ->
    {Timer, Next} = timer(Label, State),
    ok = erlang:cancel_timer(Timer, [{info, false}]),
    {"cancel_quiet ok", Next};
do({read, Label}, State) ->
    {Timer, Next} = timer(Label, State),
    {["read ", left(erlang:read_timer(Timer))], Next};
do({cancel_async, Label, Process, Info}, State) ->
    {Timer, Next} = timer(Label, State),
    case ask(Process, {cancel_async, Timer, Info}, Next) of
        ok -> ok;
        exited -> ok = erlang:cancel_timer(Timer, [{async, true}, {info, false}])
    end,
    {"cancel_async ok", Next#state{asked = Next#state.asked + 1}};
do({read_async, Label, Process, Info}, State) ->
    {Timer, Next} = timer(Label, State),
    %% The runtime system has no read that isn't told.
    _ = Info andalso ask(Process, {read_async, Timer}, Next),
    {"read_async ok", Next#state{asked = Next#state.asked + 1}};
do({turn, _}, State) ->
    rest(),
    {Expired, Next} = lists:foldl(fun count_timers/2, {0, State}, processes(State)),
    To = (time(State) - State#state.start) div 1000000,
    Line = ["turn ", integer_to_list(State#state.asked), " ", integer_to_list(To), " ", integer_to_list(Expired), " ",
        integer_to_list(Expired), " 0"],
    {Line, Next#state{asked = 0}};
do({'receive', Process}, State) ->
    case ask(Process, take, State) of
        exited -> {"receive exited", State};
        empty -> {"receive empty", State};
        {message, Message} -> taken(Message, Process, State)
    end;
do({exit, Process}, State) ->
    Pid = pid(Process, State),
    Watch = erlang:monitor(process, Pid),
    Was = is_process_alive(Pid),
    exit(Pid, kill),
    receive
        {'DOWN', Watch, process, Pid, _} -> ok
    end,
    case Was of
        true -> {"exit ok", State};
        false -> {"exit already", State}
    end;
do({alive, Process}, State) ->
    {["alive ", atom_to_list(is_process_alive(pid(Process, State)))], State};
do({monitor, Process}, State) ->
    watch(Process, ask(Process, monitor, State), State);
do({demonitor, Process, Number}, State) ->
    Stood = case State#state.monitors of
        #{{Process, Number} := Monitor} -> ask(Process, {demonitor, Monitor}, State) =:= true;
        #{} -> false
    end,
    Monitors = maps:remove({Process, Number}, State#state.monitors),
    {["demonitor ", atom_to_list(Stood)], State#state{monitors = Monitors}};
do({notify, Process}, State) ->
    case ask(Process, count, State) of
        exited ->
            {"notify 0", State};
        {Timers, Changes} ->
            {_, Seen} = seen(Process, State),
            Line = ["notify ", integer_to_list(Changes - Seen)],
            case State#state.same_change of
                #{Process := true} ->
                    %% Each tells the offset that its monitor knows: they are counted, and not left in the mailbox.
                    ok = ask(Process, drop_changes, State),
                    Same = maps:remove(Process, State#state.same_change),
                    {Line, (see(Process, {Timers, 0}, State))#state{same_change = Same}};
                #{} ->
                    {Line, see(Process, {element(1, seen(Process, State)), Changes}, State)}
            end
    end.

offset_and_state(Between, State) ->
    [integer_to_list(offset(erlang:time_offset(), State)), Between, atom_to_list(erlang:system_info(time_offset))].

%% Timers.

start_timer(Name, Call, Label, Kind, Milliseconds, Process, Message, State) ->
    #state{base = Base, start = Start} = State,
    {Time, Options, Deadline} = case Kind of
        rel ->
            Now = time(State) - Start,
            {Milliseconds, [], Milliseconds + (Now + 999999) div 1000000};
        abs ->
            After = Milliseconds - Start div 1000000,
            {After + Base div 1000000, [{abs, true}], After}
    end,
    try erlang:Call(Time, pid(Process, State), Message, Options) of
        Timer when Deadline > ?GREATEST_DEADLINE ->
            %% ertime refuses it. So that the later lines can be compared, it isn't kept.
            _ = erlang:cancel_timer(Timer),
            {[Name, " ok"], State};
        Timer ->
            {[Name, " ok"], bind(Label, Timer, State)}
    catch
        error:badarg -> {[Name, " badarg"], State}
    end.

bind(Label, Timer, State) ->
    #state{timers = Timers, labels = Labels} = State,
    State#state{timers = Timers#{Label => Timer}, labels = Labels#{Timer => Label}}.

%% A label without a timer stands for a reference that never was one's.
timer(Label, State) ->
    case State#state.timers of
        #{Label := Timer} ->
            {Timer, State};
        #{} ->
            Timer = make_ref(),
            {Timer, bind(Label, Timer, State)}
    end.

left(false) -> "false";
left(Left) -> integer_to_list(Left).

count_timers(Process, {Sum, State}) ->
    case ask(Process, count, State) of
        exited ->
            {Sum, State};
        {Timers, _} ->
            {Seen, Changes} = seen(Process, State),
            {Sum + Timers - Seen, see(Process, {Timers, Changes}, State)}
    end.

%% Processes.

taken({timeout, Timer, Message}, Process, State) ->
    #{Timer := Label} = State#state.labels,
    {["receive timeout ", integer_to_list(Label), " ", integer_to_list(Message)], timer_taken(Process, State)};
taken(Message, Process, State) when is_integer(Message) ->
    {["receive message ", integer_to_list(Message)], timer_taken(Process, State)};
taken({'CHANGE', Monitor, time_offset, clock_service, Offset}, Process, State) ->
    #{Monitor := Number} = State#state.numbers,
    {Timers, Changes} = seen(Process, State),
    Line = ["receive change ", integer_to_list(Number), " ", integer_to_list(offset(Offset, State))],
    {Line, see(Process, {Timers, Changes - 1}, State)};
taken({Answer, Timer, Left}, _, State) ->
    #{Timer := Label} = State#state.labels,
    {["receive ", atom_to_list(Answer), " ", integer_to_list(Label), " ", left(Left)], State}.

timer_taken(Process, State) ->
    {Timers, Changes} = seen(Process, State),
    see(Process, {Timers - 1, Changes}, State).

watch(_, exited, State) ->
    {"monitor exited", State};
watch(Process, Monitor, State) ->
    #state{monitors = Monitors, numbers = Numbers, next = Nexts} = State,
    Number = case Nexts of
        #{Process := Next} -> Next;
        #{} -> 0
    end,
    Line = ["monitor ", integer_to_list(Number)],
    case length([P || {P, _} <- maps:keys(Monitors), P =:= Process]) of
        Standing when Standing >= ?MONITORS ->
            %% ertime refuses it. So that the later lines can be compared, it isn't kept.
            true = ask(Process, {demonitor, Monitor}, State),
            {Line, State};
        _ ->
            {Line, State#state{
                monitors = Monitors#{{Process, Number} => Monitor},
                numbers = Numbers#{Monitor => Number},
                next = Nexts#{Process => Number + 1}
            }}
    end.

-spec processes(#state{}) -> [non_neg_integer()].
processes(State) ->
    lists:seq(0, tuple_size(State#state.processes) - 1).

pid(Process, State) ->
    element(Process + 1, State#state.processes).

ask(Process, Request, State) ->
    ertime_peer_process:ask(pid(Process, State), Request).

seen(Process, State) ->
    case State#state.seen of
        #{Process := Counts} -> Counts;
        #{} -> {0, 0}
    end.

see(Process, Counts, State) ->
    State#state{seen = (State#state.seen)#{Process => Counts}}.

%% Every timer that is due expires, and all that follows from the readings is done: each yield is an occasion for it.
-spec rest() -> ok.
rest() ->
    lists:foreach(fun(_) -> erlang:bump_reductions(4000), erlang:yield() end, lists:seq(1, 20)).
