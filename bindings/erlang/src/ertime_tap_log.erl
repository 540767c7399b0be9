%% @doc What {@link ertime_tap} has seen of timers, and its summary.
%%
%% A trace can't tell everything, and what it can't isn't guessed:
%%
%% <ul>
%% <li>`receive .. after', and with it `timer:sleep' and the timeout of a call, is no timer that is traced.</li>
%% <li>A message of `send_after' looks like any other: whether such a timer expired or waits for ever isn't known (`unknown'), unless
%% a cancel tells it. The same holds for `start_timer' where messages to its destination aren't traced.</li>
%% <li>`arrived' is when the process has taken the message into its mailbox, which a process that is busy does when it is
%% next scheduled out or receives. So `late' has what the process took and the wait for a scheduler, as a user of it sees.</li>
%% <li>A deadline is known from when the call began and when it returned. It counts from the latter, so a timer was at
%% least so late.</li>
%% <li>A behaviour, as `gen_statem', starts the timers of its callback module: the caller is then the process's initial call,
%% where the process is still there when the tracing ends.</li>
%% </ul>
-module(ertime_tap_log).

-export([made/1, summary/1, format/1, up/1, down/1]).

-export_type([timer/0, fate/0, summary/0]).

-type timer() :: #{
    number := non_neg_integer(),                        % in the order of their starts
    kind := start_timer | send_after,
    by := pid(),
    caller := {module(), atom(), arity(), pos_integer()} | mfa() | unknown,  % with the line; or the process's initial call
    to := pid() | atom() | term(),
    wait := integer(),                                  % milliseconds, or a time if it is absolute
    is_absolute := boolean(),
    scheduler := pos_integer(),                         % whose wheel it is on
    started := {integer(), integer()},                  % when the call began and returned, in nanoseconds
    gone := integer() | none,                           % when a cancel first found it gone
    fate := fate(),
    late := non_neg_integer() | unknown                 % microseconds, of one that has arrived
}.

-type fate() ::
    armed                                               % it wasn't due when the tracing ended
    | {arrived, integer()}                              % when its message came into the mailbox
    | {cancelled, non_neg_integer(), {integer(), integer()}}  % the milliseconds that were left, and when
    | asked                                             % a cancel was asked for that tells nothing
    | exited                                            % its process is no more, and it hasn't arrived
    | overdue                                           % it is due, and its process hasn't got it
    | unknown.

-type summary() :: #{
    seconds := float(),
    off := atom(),
    messages := non_neg_integer(),
    timers := non_neg_integer(),
    fates := #{atom() => pos_integer()},
    late := [#{scheduler := pos_integer(), arrived := pos_integer(), p50 := integer(), p99 := integer(), most := integer()}],
    callers := [caller()]                               % first those that started the most
}.

-type caller() :: #{
    caller := term(),
    started := pos_integer(),
    rearmed_per_second := float(),  % starts by a process that had started one from there before
    cancelled := non_neg_integer(),
    left := non_neg_integer()       % still armed when the tracing ended
}.

-define(BEHAVIOURS, [gen, gen_event, gen_fsm, gen_server, gen_statem, proc_lib, supervisor, timer, 'Elixir.GenServer', 'Elixir.Process']).
-define(MILLISECOND, 1000000).
-define(PATIENCE, 1000).
-define(SHOWN, 20).

%% @private What the keeper has of the collector: the fates that only the end tells, and the processes of behaviours.
-spec made(map()) -> ertime_tap:log().
made(Log = #{to := End, processes := Whom, timers := Timers}) ->
    Initial = initial_calls(lists:usort([Pid || #{by := Pid, caller := Caller} <- Timers, is_behaviour(Caller)])),
    Log#{timers := [(of_process(Timer, Initial))#{fate := fate(Timer, End, Whom), late => late(Timer)} || Timer <- Timers]}.

is_behaviour({Module, _, _, _}) -> lists:member(Module, ?BEHAVIOURS);
is_behaviour(unknown) -> true.

of_process(Timer = #{by := Pid}, Initial) when is_map_key(Pid, Initial) -> Timer#{caller := map_get(Pid, Initial)};
of_process(Timer, _) -> Timer.

%% They are asked for by another process: one that doesn't answer signals would hold this one up.
initial_calls(Pids) ->
    Self = self(),
    {Asking, Monitor} = spawn_monitor(fun() -> [Self ! {self(), Pid, proc_lib:translate_initial_call(Pid)} || Pid <- Pids] end),
    Patience = erlang:start_timer(?PATIENCE, Self, enough),
    Known = initial_calls(Asking, Monitor, Patience, #{}),
    _ = erlang:cancel_timer(Patience),
    receive
        {timeout, Patience, enough} -> Known
    after 0 -> Known
    end.

initial_calls(Asking, Monitor, Patience, Known) ->
    receive
        {Asking, _, {proc_lib, init_p, _}} ->
            initial_calls(Asking, Monitor, Patience, Known);
        {Asking, Pid, Call} ->
            initial_calls(Asking, Monitor, Patience, Known#{Pid => Call});
        {timeout, Patience, enough} ->
            exit(Asking, kill),
            initial_calls(Asking, Monitor, Patience, Known);
        {'DOWN', Monitor, process, Asking, _} ->
            Known
    end.

fate(Timer = #{fate := armed, to := To}, End, Whom) ->
    case {deadline(Timer) =< End, is_there(To)} of
        {false, true} -> gone(Timer, armed);
        {false, false} -> exited;
        {true, There} -> due(Timer, Whom, There)
    end;
fate(#{fate := Fate}, _, _) ->
    Fate.

%% A timer of a local process goes with it; one for a name is sent to whoever has it then.
is_there(Pid) when is_pid(Pid), node(Pid) =:= node() -> is_process_alive(Pid);
is_there(_) -> true.

gone(#{gone := none}, Fate) -> Fate;
gone(_, _) -> unknown.

due(Timer = #{kind := start_timer, to := To}, all, true) when is_pid(To) -> gone(Timer, overdue);
due(#{kind := start_timer}, all, false) -> exited;
due(_, _, _) -> unknown.

%% In nanoseconds of Erlang monotonic time, if the start was made when its call returned.
deadline(#{is_absolute := true, wait := Wait}) -> Wait * ?MILLISECOND;
deadline(#{started := {_, Returned}, wait := Wait}) -> (up(Returned) + Wait) * ?MILLISECOND.

late(Timer = #{fate := {arrived, At}}) -> max(0, At - deadline(Timer)) div 1000;
late(_) -> unknown.

%% @private Milliseconds from nanoseconds, rounded up.
-spec up(integer()) -> integer().
up(Nanoseconds) -> -down(-Nanoseconds).

%% @private Milliseconds from nanoseconds, rounded down.
-spec down(integer()) -> integer().
down(Nanoseconds) -> erlang:convert_time_unit(Nanoseconds, nanosecond, millisecond).

%% @doc What there is, in numbers. `late' is in microseconds, for the timers of each scheduler; a percentile is one of the values,
%% the least with which so many are not later.
-spec summary(ertime_tap:log()) -> summary().
summary(#{from := From, to := To, off := Off, messages := Messages, timers := Timers}) ->
    Seconds = max(1, To - From) / 1.0e9,
    #{
        seconds => Seconds,
        off => Off,
        messages => Messages,
        timers => length(Timers),
        fates => counted([kind(Fate) || #{fate := Fate} <- Timers]),
        late => [lateness(Scheduler, lists:sort(Late)) || {Scheduler, Late} <- grouped([{S, L} || #{scheduler := S, late := L} <- Timers, L =/= unknown])],
        callers => lists:sort(
            fun(#{started := A}, #{started := B}) -> A >= B end,
            [caller(Caller, Of, Seconds) || {Caller, Of} <- grouped([{Caller, It} || It = #{caller := Caller} <- Timers])]
        )
    }.

kind(Fate) when is_tuple(Fate) -> element(1, Fate);
kind(Fate) -> Fate.

counted(Values) -> maps:map(fun(_, All) -> length(All) end, maps:from_list(grouped([{Value, Value} || Value <- Values]))).

%% By keys, in order, the values of each in the order in which they come.
grouped(Pairs) ->
    maps:to_list(lists:foldr(fun({Key, Value}, All) -> maps:update_with(Key, fun(Values) -> [Value | Values] end, [Value], All) end, #{}, Pairs)).

lateness(Scheduler, Late) ->
    #{scheduler => Scheduler, arrived => length(Late), p50 => percentile(50, Late), p99 => percentile(99, Late), most => lists:last(Late)}.

percentile(Percent, Sorted) -> lists:nth((Percent * length(Sorted) + 99) div 100, Sorted).

caller(Caller, Timers, Seconds) ->
    Processes = length(lists:usort([By || #{by := By} <- Timers])),
    #{
        caller => Caller,
        started => length(Timers),
        rearmed_per_second => (length(Timers) - Processes) / Seconds,
        cancelled => length([It || It = #{fate := {cancelled, _, _}} <- Timers]),
        left => length([It || It = #{fate := armed} <- Timers])
    }.

%% @private
-spec format(summary()) -> iodata().
format(#{seconds := Seconds, off := Off, messages := Messages, timers := Count, fates := Fates, late := Late, callers := Callers}) ->
    [
        io_lib:format("~w timers in ~.1f s, ~w messages, ended by: ~w~n", [Count, Seconds, Messages, Off]),
        [io_lib:format("  ~-10w ~8w~n", [Fate, Number]) || {Fate, Number} <- maps:to_list(Fates)],
        ["late, in microseconds      arrived      p50      p99     most\n" || Late =/= []],
        [
            io_lib:format("  scheduler ~-12w ~9w ~8w ~8w ~8w~n", [Scheduler, Arrived, Half, Most99, Most])
         || #{scheduler := Scheduler, arrived := Arrived, p50 := Half, p99 := Most99, most := Most} <- Late
        ],
        ["started by                                         timers  re-armed/s  cancelled    armed\n" || Callers =/= []],
        [
            io_lib:format("  ~-46ts ~8w ~11.1f ~10w ~8w~n", [named(Caller), Started, Again, Cancelled, Left])
         || #{caller := Caller, started := Started, rearmed_per_second := Again, cancelled := Cancelled, left := Left} <-
                lists:sublist(Callers, ?SHOWN)
        ],
        [io_lib:format("  and ~w more~n", [length(Callers) - ?SHOWN]) || length(Callers) > ?SHOWN]
    ].

named({Module, Name, Arity, Line}) -> io_lib:format("~ts:~ts/~w, line ~w", [Module, Name, Arity, Line]);
named({Module, Name, Arity}) -> io_lib:format("~ts:~ts/~w", [Module, Name, Arity]);
named(unknown) -> "unknown".
