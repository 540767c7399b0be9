%% @private
%% What `ertime_tap' traces, and the process that reads it, the collector. It keeps a row for each timer, and changes it as the
%% messages come. When it has as many as it may have it says so to the keeper, and throws the others away until tracing is off.
-module(ertime_tap_trace).

-export([on/3, off/1, read/2]).

-export_type([trace/0]).

-record(trace, {collector, monitor, session, processes}).
-opaque trace() :: #trace{}.

-record(reader, {keeper, session = none, most, memory, messages = 0, calls = #{}, timers = #{}}).

-define(LOOK, 16).
-define(KILLED, 4).
-define(FLAGS, [call, arity, 'receive', monotonic_timestamp, scheduler_id]).

%% Turns it on. The calling process, its keeper, gets `{off, Why}' when there is as much as there may be.
-spec on(all | existing | new | [pid() | atom()], pos_integer(), pos_integer()) ->
    {ok, trace()} | {error, {traced, term()} | {no_process, pid() | atom()}}.
on(Processes, Most, Memory) ->
    Kind = kind(),
    case {foreign(Kind), missing(Processes)} of
        {[What | _], _} -> {error, {traced, What}};
        {_, [It | _]} -> {error, {no_process, It}};
        {[], []} -> {ok, turned_on(Kind, pids(Processes), Most, Memory)}
    end.

%% From Erlang/OTP 27 on the module `trace' has sessions.
kind() ->
    case code:ensure_loaded(trace) of
        {module, Trace} ->
            case erlang:function_exported(Trace, session_create, 3) of
                true -> Trace;
                false -> none
            end;
        _ ->
            none
    end.

%% Who is traced already, or what, where there can be one tracer alone.
foreign(none) ->
    Traced = [Who || Who <- [new_processes | processes()], {flags, [_ | _]} <- [erlang:trace_info(Who, flags)]],
    Traced ++ ['receive' || erlang:trace_info('receive', match_spec) =/= {match_spec, true}];
foreign(_) ->
    [].

missing(Processes) when is_list(Processes) -> [It || It <- Processes, not is_there(It)];
missing(_) -> [].

is_there(Name) when is_atom(Name) -> is_pid(whereis(Name));
is_there(Pid) -> is_process_alive(Pid).

pids(Processes) when is_list(Processes) -> lists:usort([pid(It) || It <- Processes]);
pids(Processes) -> [Processes].

pid(Name) when is_atom(Name) -> whereis(Name);
pid(Pid) -> Pid.

turned_on(Kind, Processes, Most, Memory) ->
    Keeper = self(),
    %% Where it can't look in time, since it gets no processor or a message is vast, the runtime ends it, and with it the tracing.
    Limit = #{size => ?KILLED * Memory div erlang:system_info(wordsize), kill => true, error_logger => false},
    Words = [monitor, {priority, high}, {message_queue_data, on_heap}, {max_heap_size, Limit}],
    {Collector, Monitor} = spawn_opt(fun() -> collect(#reader{keeper = Keeper, most = Most, memory = Memory}) end, Words),
    Session = session(Kind, Collector),
    Collector ! {Keeper, Session},
    lists:foreach(fun({Function, Spec}) -> functions(Session, Function, Spec) end, specifications()),
    _ = messages(Session, [{['_', '_', {timeout, '_', '_'}], [], []}]),
    lists:foreach(fun(Who) -> flags(Session, Who, true) end, Processes),
    _ = flags(Session, Keeper, false),
    #trace{collector = Collector, monitor = Monitor, session = Session, processes = Processes}.

%% Turns it off, and asks the collector for what it has, behind all that was traced before.
-spec off(trace()) -> ok.
off(#trace{collector = Collector, session = Session, processes = Processes}) ->
    lists:foreach(fun(Who) -> flags(Session, Who, false) end, Processes),
    Delivered = delivered(Session),
    receive
        {trace_delivered, all, Delivered} -> ok
    end,
    forget(Session),
    Collector ! {self(), over},
    ok.

%% What a message to the keeper says: that is all, or the collector is gone.
-spec read(trace(), term()) -> {non_neg_integer(), [map()]} | gone | other.
read(#trace{collector = Collector}, {Collector, Messages, Timers}) -> {Messages, Timers};
read(#trace{monitor = Monitor}, {'DOWN', Monitor, process, _, _}) -> gone;
read(_, _) -> other.

%% --- with a session, and without -----------------------------------------------------------------------------------

session(none, Collector) -> {none, Collector};
session(Kind, Collector) -> {Kind, Kind:session_create(ertime_tap, Collector, [])}.

%% The calls: their times and destinations, or references, and who called. The message of the timer isn't copied.
specifications() ->
    [{{erlang, Name, length(Head)}, [{Head, [], [{exception_trace}, {message, Told}]}]} || {Name, Head, Told} <- told()].

told() ->
    Starts = [{['$1', '$2', '_'], {{'$1', '$2', [], {caller_line}}}}, {['$1', '$2', '_', '$3'], {{'$1', '$2', '$3', {caller_line}}}}],
    [{Name, Head, Told} || Name <- [start_timer, send_after], {Head, Told} <- Starts] ++
        [{cancel_timer, Head, '$1'} || Head <- [['$1'], ['$1', '_']]].

functions({none, _}, Function, Spec) -> erlang:trace_pattern(Function, Spec, []);
functions({Kind, Session}, Function, Spec) -> Kind:function(Session, Function, Spec, []).

%% (The specification of trace_pattern/3 has no 'receive' in all versions.)
-dialyzer({nowarn_function, messages/2}).
messages({none, _}, Spec) -> erlang:trace_pattern('receive', Spec, []);
messages({Kind, Session}, Spec) -> Kind:recv(Session, Spec, []).

%% A process that has ended meanwhile is none.
flags({none, Collector}, Who, Is) ->
    try
        erlang:trace(Who, Is, [{tracer, Collector} || Is] ++ ?FLAGS)
    catch
        error:badarg -> 0
    end;
flags({Kind, Session}, Who, Is) ->
    try
        Kind:process(Session, Who, Is, ?FLAGS)
    catch
        error:badarg -> 0
    end.

delivered({none, _}) -> erlang:trace_delivered(all);
delivered({Kind, Session}) -> Kind:delivered(Session, all).

%% A session has its patterns; without one they are the node's.
forget({none, _} = Session) ->
    lists:foreach(fun({Function, _}) -> functions(Session, Function, false) end, specifications()),
    _ = messages(Session, true),
    ok;
forget({Kind, Session}) ->
    _ = Kind:session_destroy(Session),
    ok.

%% --- the collector -------------------------------------------------------------------------------------------------

collect(Reader = #reader{keeper = Keeper}) ->
    _ = erlang:monitor(process, Keeper),
    receive
        {Keeper, Session} -> collected(Reader#reader{session = Session});
        {'DOWN', _, process, Keeper, _} -> ok
    end.

collected(Reader = #reader{messages = Count, most = Count}) ->
    full(messages, Reader);
collected(Reader = #reader{messages = Count, memory = Most}) when Count rem ?LOOK =:= ?LOOK - 1 ->
    {memory, Bytes} = process_info(self(), memory),
    case Bytes > Most of
        true -> full(memory, Reader);
        false -> next(Reader)
    end;
collected(Reader) ->
    next(Reader).

next(Reader = #reader{keeper = Keeper, session = Session, messages = Count}) ->
    receive
        Message when element(1, Message) =:= trace_ts -> collected(noted(Message, Reader#reader{messages = Count + 1}));
        {Keeper, over} -> told(Reader);
        {'DOWN', _, process, Keeper, _} -> forget(Session);
        _ -> next(Reader)
    end.

full(Why, Reader = #reader{keeper = Keeper}) ->
    Keeper ! {off, Why},
    told(Reader),
    discarded(Reader).

%% Until the tracing is off.
discarded(Reader = #reader{keeper = Keeper, session = Session}) ->
    receive
        {Keeper, over} -> ok;
        {'DOWN', _, process, Keeper, _} -> forget(Session);
        _ -> discarded(Reader)
    end.

told(#reader{keeper = Keeper, messages = Count, timers = Timers}) ->
    Rows = [Timer || {_, Timer} <- lists:sort([{Number, Timer} || Timer = #{number := Number} <- maps:values(Timers)])],
    Keeper ! {self(), Count, Rows},
    ok.

%% A call is kept until it returns; what it raises was no start.
noted({trace_ts, Pid, call, {_, Name, _}, Told, Scheduler, At}, Reader = #reader{calls = Calls}) ->
    Reader#reader{calls = Calls#{Pid => {Name, Told, Scheduler, nanoseconds(At)}}};
noted({trace_ts, Pid, return_from, {_, Name, _}, Value, _, At}, Reader = #reader{calls = Calls, timers = Timers}) ->
    case maps:take(Pid, Calls) of
        {{Name, Told, Scheduler, Began}, Left} ->
            Returned = nanoseconds(At),
            Reader#reader{calls = Left, timers = returned(Name, Told, Value, {Pid, Scheduler, Began, Returned}, Timers)};
        _ ->
            Reader
    end;
noted({trace_ts, Pid, exception_from, _, _, _, _}, Reader = #reader{calls = Calls}) ->
    Reader#reader{calls = maps:remove(Pid, Calls)};
noted({trace_ts, _, 'receive', {timeout, Ref, _}, _, At}, Reader = #reader{timers = Timers}) when is_map_key(Ref, Timers) ->
    Reader#reader{timers = maps:update_with(Ref, fun(It) -> It#{fate := {arrived, nanoseconds(At)}} end, Timers)};
noted(_, Reader) ->
    Reader.

returned(cancel_timer, Ref, Value, {_, _, Began, Returned}, Timers) when is_map_key(Ref, Timers) ->
    Change =
        case Value of
            Left when is_integer(Left) -> fun(It) -> It#{fate := {cancelled, Left, {Began, Returned}}} end;
            false -> fun(It = #{gone := Before}) -> It#{gone := min(Before, Returned)} end;
            ok -> fun(It) -> It#{fate := asked} end
        end,
    maps:update_with(Ref, Change, Timers);
returned(cancel_timer, _, _, _, Timers) ->
    Timers;
returned(Kind, {Wait, To, Options, Caller}, Ref, {Pid, Scheduler, Began, Returned}, Timers) ->
    Timers#{Ref => #{
        number => map_size(Timers),
        kind => Kind,
        by => Pid,
        caller => place(Caller),
        to => To,
        wait => Wait,
        is_absolute => proplists:get_value(abs, Options, false),
        scheduler => Scheduler,
        started => {Began, Returned},
        gone => none,       % when a cancel first found it gone: an atom is greater than any number
        fate => armed
    }}.

place({Module, Name, Arity, {_, Line}}) -> {Module, Name, Arity, Line};
place(_) -> unknown.

nanoseconds(At) -> erlang:convert_time_unit(At, native, nanosecond).
