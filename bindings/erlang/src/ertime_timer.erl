%% @doc The functions of the module `timer', by the clock that the calling process sees; where it sees none, they are those.
%%
%% What `timer' does by its server is done here by a server for each clock, which starts with the first request and ends with the
%% last timer or with the clock. What takes no time is done at once, as there.
-module(ertime_timer).

-export([
    apply_after/2, apply_after/3, apply_after/4, apply_interval/2, apply_interval/3, apply_interval/4, apply_repeatedly/2,
    apply_repeatedly/3, apply_repeatedly/4, send_after/2, send_after/3, send_interval/2, send_interval/3, exit_after/2,
    exit_after/3, kill_after/1, kill_after/2, cancel/1, tc/1, tc/2, tc/3, tc/4
]).
%% For the package itself.
-export([stop/1]).

-export_type([tref/0]).

-opaque tref() :: {once | interval, {ertime_timer, pid(), reference()}} | {send_local, reference()}.
%% In the forms that those of `timer' have.
-type result() :: {ok, tref() | timer:tref()} | {error, term()}.

-define(IS_TIME(T), (is_integer(T) andalso T >= 0)).
-define(IS_CALL(M, F, A), (is_atom(M) andalso is_atom(F) andalso is_list(A))).
-define(IS_FUN(F, A), (is_list(A) andalso is_function(F, length(A)))).
-define(IS_RECEIVER(To), (is_pid(To) orelse is_atom(To) orelse (tuple_size(To) =:= 2 andalso is_atom(element(1, To)) andalso is_atom(element(2, To))))).

%% @doc As `timer:apply_after/2'.
-spec apply_after(integer(), fun(() -> term())) -> result().
apply_after(Time, Fun) -> apply_after(Time, Fun, []).

%% @doc As `timer:apply_after/3'.
-spec apply_after(integer(), fun(), [term()]) -> result().
apply_after(Time, Fun, Arguments) when ?IS_TIME(Time), ?IS_FUN(Fun, Arguments) ->
    apply_after(Time, erlang, apply, [Fun, Arguments]);
apply_after(_, _, _) ->
    {error, badarg}.

%% @doc As `timer:apply_after/4'.
-spec apply_after(integer(), module(), atom(), [term()]) -> result().
apply_after(0, M, F, Arguments) ->
    real(apply_after, [0, M, F, Arguments]);
apply_after(Time, M, F, Arguments) when ?IS_TIME(Time), ?IS_CALL(M, F, Arguments) ->
    ask({once, Time, {M, F, Arguments}}, apply_after, [Time, M, F, Arguments]);
apply_after(_, _, _, _) ->
    {error, badarg}.

%% @doc As `timer:apply_interval/2'.
-spec apply_interval(integer(), fun(() -> term())) -> result().
apply_interval(Time, Fun) -> apply_interval(Time, Fun, []).

%% @doc As `timer:apply_interval/3'.
-spec apply_interval(integer(), fun(), [term()]) -> result().
apply_interval(Time, Fun, Arguments) when ?IS_TIME(Time), ?IS_FUN(Fun, Arguments) ->
    apply_interval(Time, erlang, apply, [Fun, Arguments]);
apply_interval(_, _, _) ->
    {error, badarg}.

%% @doc As `timer:apply_interval/4'. It ends with the calling process.
-spec apply_interval(integer(), module(), atom(), [term()]) -> result().
apply_interval(Time, M, F, Arguments) when ?IS_TIME(Time), ?IS_CALL(M, F, Arguments) ->
    ask({interval, Time, self(), {M, F, Arguments}}, apply_interval, [Time, M, F, Arguments]);
apply_interval(_, _, _, _) ->
    {error, badarg}.

%% @doc As `timer:apply_repeatedly/2'.
-spec apply_repeatedly(integer(), fun(() -> term())) -> result().
apply_repeatedly(Time, Fun) -> apply_repeatedly(Time, Fun, []).

%% @doc As `timer:apply_repeatedly/3'.
-spec apply_repeatedly(integer(), fun(), [term()]) -> result().
apply_repeatedly(Time, Fun, Arguments) when ?IS_TIME(Time), ?IS_FUN(Fun, Arguments) ->
    apply_repeatedly(Time, erlang, apply, [Fun, Arguments]);
apply_repeatedly(_, _, _) ->
    {error, badarg}.

%% @doc As `timer:apply_repeatedly/4': the next one waits until the one before has ended.
-spec apply_repeatedly(integer(), module(), atom(), [term()]) -> result().
apply_repeatedly(Time, M, F, Arguments) when ?IS_TIME(Time), ?IS_CALL(M, F, Arguments) ->
    ask({repeatedly, Time, self(), {M, F, Arguments}}, apply_repeatedly, [Time, M, F, Arguments]);
apply_repeatedly(_, _, _, _) ->
    {error, badarg}.

%% @doc As `timer:send_after/2'.
-spec send_after(integer(), term()) -> result().
send_after(Time, Message) -> send_after(Time, self(), Message).

%% @doc As `timer:send_after/3'.
-spec send_after(integer(), pid() | atom() | {atom(), node()}, term()) -> result().
send_after(0, To, Message) ->
    real(send_after, [0, To, Message]);
send_after(Time, To, Message) when ?IS_TIME(Time), is_pid(To), node(To) =:= node() ->
    {ok, {send_local, ertime:send_after(Time, To, Message)}};
send_after(Time, To, Message) when ?IS_TIME(Time), ?IS_RECEIVER(To) ->
    apply_after(Time, erlang, send, [To, Message]);
send_after(_, _, _) ->
    {error, badarg}.

%% @doc As `timer:send_interval/2'.
-spec send_interval(integer(), term()) -> result().
send_interval(Time, Message) -> send_interval(Time, self(), Message).

%% @doc As `timer:send_interval/3'. It ends with the receiver.
-spec send_interval(integer(), pid() | atom() | {atom(), node()}, term()) -> result().
send_interval(Time, To, Message) when ?IS_TIME(Time), ?IS_RECEIVER(To) ->
    ask({interval, Time, To, {erlang, send, [To, Message]}}, send_interval, [Time, To, Message]);
send_interval(_, _, _) ->
    {error, badarg}.

%% @doc As `timer:exit_after/2'.
-spec exit_after(integer(), term()) -> result().
exit_after(Time, Reason) -> exit_after(Time, self(), Reason).

%% @doc As `timer:exit_after/3'.
-spec exit_after(integer(), pid() | atom(), term()) -> result().
exit_after(Time, Pid, Reason) -> apply_after(Time, erlang, exit, [Pid, Reason]).

%% @doc As `timer:kill_after/1'.
-spec kill_after(integer()) -> result().
kill_after(Time) -> exit_after(Time, self(), kill).

%% @doc As `timer:kill_after/2'.
-spec kill_after(integer(), pid() | atom()) -> result().
kill_after(Time, Pid) -> exit_after(Time, Pid, kill).

%% @doc As `timer:cancel/1', for timers of every clock and of `timer'.
-spec cancel(tref() | timer:tref()) -> {ok, cancel} | {error, term()}.
cancel({_, {?MODULE, Server, Reference}}) when is_pid(Server), is_reference(Reference) ->
    _ = request(Server, {cancel, Reference}),
    {ok, cancel};
cancel({send_local, Timer}) when is_reference(Timer) ->
    _ = ertime:cancel_timer(Timer),
    {ok, cancel};
cancel(Other) ->
    real(cancel, [Other]).

%% @doc As `timer:tc/1'.
tc(Fun) -> timed(microsecond, fun() -> Fun() end).

%% @doc As `timer:tc/2': with a unit, or with arguments.
tc(Fun, Arguments) when is_list(Arguments) -> timed(microsecond, fun() -> apply(Fun, Arguments) end);
tc(Fun, Unit) -> timed(Unit, fun() -> Fun() end).

%% @doc As `timer:tc/3'.
tc(M, F, Arguments) when is_list(Arguments), is_atom(M) -> timed(microsecond, fun() -> ertime_calls:call(M, F, Arguments) end);
tc(Fun, Arguments, Unit) -> timed(Unit, fun() -> apply(Fun, Arguments) end).

%% @doc As `timer:tc/4'.
tc(M, F, Arguments, Unit) -> timed(Unit, fun() -> ertime_calls:call(M, F, Arguments) end).

%% By the clock that the process sees, if it is the same before and after; else by the runtime's.
timed(Unit, Do) ->
    {Clock, Start, Real} = {ertime_use:open_clock(), ertime:monotonic_time(), erlang:monotonic_time()},
    Result = Do(),
    Took =
        case ertime:clock() of
            Clock -> ertime:convert_time_unit(ertime:monotonic_time() - Start, native, Unit);
            _ -> erlang:convert_time_unit(erlang:monotonic_time() - Real, native, Unit)
        end,
    {Took, Result}.

%% --- asking -------------------------------------------------------------------------------------------------------

ask(Request, Name, Arguments) ->
    case ertime_use:open_clock() of
        none ->
            real(Name, Arguments);
        Clock ->
            case asked(Clock, Request) of
                %% The server has just ended, with its last timer or with the clock.
                gone -> ask(Request, Name, Arguments);
                Answer -> Answer
            end
    end.

%% Where the module is turned too (ertime_load), this is the name of its own function.
real(Name, Arguments) ->
    Hidden = ertime_load:hidden(Name),
    case erlang:function_exported(timer, Hidden, length(Arguments)) of
        true -> apply(timer, Hidden, Arguments);
        false -> apply(timer, Name, Arguments)
    end.

asked(Clock, Request) ->
    case server(Clock) of
        Server when is_pid(Server) ->
            Answer = request(Server, Request),
            Answer =:= gone andalso ertime_keeper:drop({timer, Clock}, Server),
            Answer;
        Answer ->
            Answer
    end.

request(Server, Request) ->
    Monitor = erlang:monitor(process, Server),
    Server ! {?MODULE, self(), Monitor, Request},
    receive
        {Monitor, Answer} ->
            erlang:demonitor(Monitor, [flush]),
            Answer;
        {'DOWN', Monitor, process, _, _} ->
            gone
    end.

%% The server of a clock, or `gone', or why there is none.
server(Clock) ->
    case ertime_keeper:get({timer, Clock}) of
        none ->
            Self = self(),
            {Pid, Monitor} = spawn_monitor(fun() -> serve(Clock, Self) end),
            receive
                {'DOWN', Monitor, process, Pid, {?MODULE, Reason}} ->
                    {error, Reason};
                {'DOWN', Monitor, process, Pid, _} ->
                    gone;
                {?MODULE, serves, Pid} ->
                    erlang:demonitor(Monitor, [flush]),
                    Pid
            end;
        Pid ->
            Pid
    end.

%% Ends what serves a clock.
%% @private
stop(Clock) ->
    case ertime_keeper:take({timer, Clock}) of
        none -> ok;
        Pid -> exit(Pid, kill)
    end,
    ok.

%% --- the server of a clock ----------------------------------------------------------------------------------------

-record(timer, {kind, time, call, reference, monitor = none}).

%% Of several that start at once, one serves.
serve(Clock, Starter) ->
    case ertime_keeper:put_new({timer, Clock}, self()) of
        true ->
            case seeing(Clock) of
                ok ->
                    %% As after any request that server is there, too.
                    _ = timer:start(),
                    Starter ! {?MODULE, serves, self()},
                    loop(Clock, request_taken(#{}));
                Reason ->
                    ertime_keeper:drop({timer, Clock}, self()),
                    Reason =:= closed orelse exit({?MODULE, Reason})
            end;
        false ->
            ok
    end.

%% The calling process uses a clock, if there is one and it is open.
seeing(none) ->
    ok;
seeing(Clock) ->
    try
        _ = ertime:use(Clock),
        ok
    catch
        error:Reason -> Reason
    end.

loop(Clock, Timers) when map_size(Timers) =:= 0 ->
    ertime_keeper:drop({timer, Clock}, self());
loop(Clock, Timers) ->
    try request_taken(Timers) of
        New -> loop(Clock, New)
    catch
        %% Whoever closed the clock ends this process, too.
        error:{clock_closed, _} -> ok
    end.

request_taken(Timers) ->
    receive
        {?MODULE, From, Tag, Request} ->
            {Answer, New} = answered(Request, Timers),
            From ! {Tag, Answer},
            New;
        {timeout, _, Name} when is_map_key(Name, Timers) ->
            expired(Name, maps:get(Name, Timers), Timers);
        {'DOWN', _, process, _, {?MODULE, ended, Name}} ->
            ended(Name, Timers);
        {'DOWN', Monitor, process, _, _} ->
            maps:filter(fun(_, Timer) -> stays(Timer, Monitor) end, Timers);
        _ ->
            Timers
    end.

answered({once, Time, Call}, Timers) ->
    started(#timer{kind = once, time = Time, call = Call}, Timers);
answered({Kind, Time, Who, Call}, Timers) ->
    started(#timer{kind = Kind, time = Time, call = Call, monitor = erlang:monitor(process, Who)}, Timers);
answered({cancel, Name}, Timers) ->
    case maps:take(Name, Timers) of
        {Timer, Others} ->
            forget(Timer),
            {ok, Others};
        error ->
            {ok, Timers}
    end.

started(Timer = #timer{time = Time, monitor = Monitor}, Timers) ->
    Name = make_ref(),
    try ertime:start_timer(Time, self(), Name) of
        Reference -> {{ok, {form(Timer), {?MODULE, self(), Name}}}, Timers#{Name => Timer#timer{reference = Reference}}}
    catch
        error:Reason ->
            unmonitored(Monitor),
            {{error, Reason}, Timers}
    end.

form(#timer{kind = once}) -> once;
form(_) -> interval.

again(Name, Timer = #timer{time = Time}, Timers) ->
    Timers#{Name := Timer#timer{reference = ertime:start_timer(Time, self(), Name)}}.

expired(Name, #timer{kind = once, call = Call}, Timers) ->
    _ = in_process(Call),
    maps:remove(Name, Timers);
expired(Name, Timer = #timer{kind = interval, call = Call}, Timers) ->
    _ = in_process(Call),
    again(Name, Timer, Timers);
expired(Name, #timer{kind = repeatedly, call = Call}, Timers) ->
    Clock = ertime:clock(),
    _ = spawn_monitor(fun() ->
        _ = try under(Clock, Call) catch _:_ -> failed end,
        exit({?MODULE, ended, Name})
    end),
    Timers.

ended(Name, Timers) ->
    case Timers of
        #{Name := Timer} -> again(Name, Timer, Timers);
        _ -> Timers
    end.

%% A message is sent at once, so that messages of one time come in the order of their timers; and so is an exit signal, where a
%% name may stand for a process, as in `timer'.
in_process({erlang, send, [To, Message]}) ->
    try To ! Message catch error:badarg -> nobody end;
in_process({erlang, exit, [To, Reason]}) ->
    case pid_of(To) of
        Pid when is_pid(Pid) -> exit(Pid, Reason);
        undefined -> nobody
    end;
in_process(Call) ->
    {Clock, Server} = {ertime:clock(), self()},
    Pid = spawn(fun() ->
        _ = seeing(Clock),
        Server ! {?MODULE, joined, self()},
        under(Clock, Call)
    end),
    %% So that who moves the clock waits for it.
    receive
        {?MODULE, joined, Pid} -> Pid
    end.

pid_of(Name) when is_atom(Name), Name =/= undefined -> whereis(Name);
pid_of(Pid) when is_pid(Pid) -> Pid;
pid_of(_) -> undefined.

%% The server may have ended when this process asks which clock it sees.
under(Clock, {M, F, Arguments}) ->
    _ = seeing(Clock),
    ertime_calls:call(M, F, Arguments).

stays(#timer{monitor = Monitor} = Timer, Monitor) ->
    forget(Timer),
    false;
stays(_, _) ->
    true.

forget(#timer{reference = Reference, monitor = Monitor}) ->
    _ = ertime:cancel_timer(Reference),
    unmonitored(Monitor).

unmonitored(none) -> true;
unmonitored(Monitor) -> erlang:demonitor(Monitor, [flush]).
