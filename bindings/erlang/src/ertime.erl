%% @doc The clock and timers of the Erlang runtime, with a clock that tests move by hand.
%%
%% The functions that have the names of the module `erlang' take the same arguments and have the same results. Where the
%% calling process sees a clock that was opened by {@link open/1}, they tell its time and start its timers; where it sees none,
%% they are those of `erlang'. So code under test takes no parameter, and is the same in production.
%%
%% A process sees the clock that it was given by {@link use/1} or {@link with/2}; else that of one of its ancestors or callers
%% (`$ancestors' and `$callers' in the process dictionary) or of the process that spawned it; else that of
%% {@link use_everywhere/1}.
%%
%% ```
%% Clock = ertime:open(#{}),
%% ertime:use(Clock),
%% Timer = ertime:start_timer(3600000, self(), wake_up),
%% 1 = ertime:advance(3600000),
%% wake_up = receive {timeout, Timer, Message} -> Message after 0 -> none end,
%% true = ertime:close(Clock).
%% '''
%%
%% Times of a clock are in nanoseconds where the unit is `native'. docs/ERLANG.md of ertime is a guide.
-module(ertime).

-compile({no_auto_import, [monitor/2, monitor/3, demonitor/1, demonitor/2, date/0, time/0, now/0, process_info/2]}).

%% As in the module erlang.
-export([
    monotonic_time/0, monotonic_time/1, system_time/0, system_time/1, time_offset/0, time_offset/1, timestamp/0,
    universaltime/0, localtime/0, unique_integer/0, unique_integer/1, convert_time_unit/3, start_timer/3, start_timer/4, send_after/3, send_after/4,
    cancel_timer/1, cancel_timer/2, read_timer/1, read_timer/2, monitor/2, monitor/3, demonitor/1, demonitor/2, system_flag/2,
    system_info/1, process_info/2, date/0, time/0, now/0
]).
%% As in the modules os and timer.
-export([os_system_time/0, os_system_time/1, os_timestamp/0, sleep/1]).
%% A clock by hand.
-export([
    open/0, open/1, close/1, advance/1, advance/2, warp/1, warp/2, warp/3, drift/2, use/1, unuse/1, with/2, use_everywhere/1,
    allow/2, transform/1, untransform/1, report/0, clock/0, info/0, info/1, rest/1, test/1, test/2, seeds/3
]).
%% The programs over texts.
-export([run_scenario/1, judge/1]).
%% For transformed code.
-export([receive_start/1, receive_stop/1, elixir_send_after/3, elixir_send_after/4]).

-export_type([clock/0, duration/0, options/0]).

-type clock() :: reference().
%% A clock, as {@link open/1} gives it.
-type duration() :: integer() | {integer(), erlang:time_unit() | minute | hour | day}.
%% Milliseconds, or a number with its unit.
-type mode() :: no_time_warp | single_time_warp | multi_time_warp.
-type options() :: #{
    mode => mode(),
    correction => boolean(),
    start => integer(),
    os_time => integer() | {integer(), erlang:time_unit() | minute | hour | day},
    slots => 1..262144,
    drift => number(),
    advance => by_hand | auto,
    limit => non_neg_integer() | infinity,
    unturned => warn | error | ignore,
    schedule => ertime_faults:schedule(),
    always => fun((clock()) -> term()),
    deterministic => boolean(),
    seen => boolean()
}.

-include("ertime.hrl").

%% --- times ---------------------------------------------------------------------------------------------------------

%% @equiv ertime_times:monotonic_time()
-spec monotonic_time() -> integer().
monotonic_time() -> ertime_times:monotonic_time().

%% @equiv ertime_times:monotonic_time(Unit)
-spec monotonic_time(erlang:time_unit()) -> integer().
monotonic_time(Unit) -> ertime_times:monotonic_time(Unit).

%% @equiv ertime_times:system_time()
-spec system_time() -> integer().
system_time() -> ertime_times:system_time().

%% @equiv ertime_times:system_time(Unit)
-spec system_time(erlang:time_unit()) -> integer().
system_time(Unit) -> ertime_times:system_time(Unit).

%% @equiv ertime_times:time_offset()
-spec time_offset() -> integer().
time_offset() -> ertime_times:time_offset().

%% @equiv ertime_times:time_offset(Unit)
-spec time_offset(erlang:time_unit()) -> integer().
time_offset(Unit) -> ertime_times:time_offset(Unit).

%% @equiv ertime_times:timestamp()
-spec timestamp() -> erlang:timestamp().
timestamp() -> ertime_times:timestamp().

%% @equiv ertime_times:universaltime()
-spec universaltime() -> calendar:datetime().
universaltime() -> ertime_times:universaltime().

%% @equiv ertime_times:localtime()
-spec localtime() -> calendar:datetime().
localtime() -> ertime_times:localtime().

%% @equiv ertime_times:unique_integer()
-spec unique_integer() -> integer().
unique_integer() -> ertime_times:unique_integer().

%% @equiv ertime_times:unique_integer(Modifiers)
-spec unique_integer([positive | monotonic]) -> integer().
unique_integer(Modifiers) -> ertime_times:unique_integer(Modifiers).

%% @equiv ertime_times:convert_time_unit(Time, From, To)
-spec convert_time_unit(integer(), erlang:time_unit(), erlang:time_unit()) -> integer().
convert_time_unit(Time, From, To) -> ertime_times:convert_time_unit(Time, From, To).

%% @equiv ertime_times:date()
-spec date() -> calendar:date().
date() -> ertime_times:date().

%% @equiv ertime_times:time()
-spec time() -> calendar:time().
time() -> ertime_times:time().

%% @equiv ertime_times:now()
-spec now() -> erlang:timestamp().
now() -> ertime_times:now().

%% @equiv ertime_times:os_system_time()
-spec os_system_time() -> integer().
os_system_time() -> ertime_times:os_system_time().

%% @equiv ertime_times:os_system_time(Unit)
-spec os_system_time(erlang:time_unit()) -> integer().
os_system_time(Unit) -> ertime_times:os_system_time(Unit).

%% @equiv ertime_times:os_timestamp()
-spec os_timestamp() -> erlang:timestamp().
os_timestamp() -> ertime_times:os_timestamp().

%% --- timers --------------------------------------------------------------------------------------------------------

%% @equiv ertime_timers:start_timer(Time, To, Message)
-spec start_timer(integer(), pid() | atom(), term()) -> reference().
start_timer(Time, To, Message) -> ertime_timers:start_timer(Time, To, Message).

%% @equiv ertime_timers:start_timer(Time, To, Message, Options)
-spec start_timer(integer(), pid() | atom(), term(), [{abs, boolean()}]) -> reference().
start_timer(Time, To, Message, Options) -> ertime_timers:start_timer(Time, To, Message, Options).

%% @equiv ertime_timers:send_after(Time, To, Message)
-spec send_after(integer(), pid() | atom(), term()) -> reference().
send_after(Time, To, Message) -> ertime_timers:send_after(Time, To, Message).

%% @equiv ertime_timers:send_after(Time, To, Message, Options)
-spec send_after(integer(), pid() | atom(), term(), [{abs, boolean()}]) -> reference().
send_after(Time, To, Message, Options) -> ertime_timers:send_after(Time, To, Message, Options).

%% @equiv ertime_timers:cancel_timer(Timer)
-spec cancel_timer(reference()) -> non_neg_integer() | false.
cancel_timer(Timer) -> ertime_timers:cancel_timer(Timer).

%% @equiv ertime_timers:cancel_timer(Timer, Options)
-spec cancel_timer(reference(), [{async, boolean()} | {info, boolean()}]) -> non_neg_integer() | false | ok.
cancel_timer(Timer, Options) -> ertime_timers:cancel_timer(Timer, Options).

%% @equiv ertime_timers:read_timer(Timer)
-spec read_timer(reference()) -> non_neg_integer() | false.
read_timer(Timer) -> ertime_timers:read_timer(Timer).

%% @equiv ertime_timers:read_timer(Timer, Options)
-spec read_timer(reference(), [{async, boolean()}]) -> non_neg_integer() | false | ok.
read_timer(Timer, Options) -> ertime_timers:read_timer(Timer, Options).

%% @equiv ertime_timers:sleep(Time)
-spec sleep(timeout()) -> ok.
sleep(Time) -> ertime_timers:sleep(Time).

%% @private
receive_start(Time) -> ertime_timers:receive_start(Time).

%% @private
receive_stop(Timer) -> ertime_timers:receive_stop(Timer).

%% @private
elixir_send_after(To, Message, Time) -> ertime_timers:elixir_send_after(To, Message, Time).

%% @private
elixir_send_after(To, Message, Time, Options) -> ertime_timers:elixir_send_after(To, Message, Time, Options).

%% --- monitors and settings -----------------------------------------------------------------------------------------

%% @equiv ertime_monitors:monitor(Type, Item)
-spec monitor(process | port | time_offset, term()) -> reference().
monitor(Type, Item) -> ertime_monitors:monitor(Type, Item).

%% @equiv ertime_monitors:monitor(Type, Item, Options)
-spec monitor(process | port | time_offset, term(), [erlang:monitor_option()]) -> reference().
monitor(Type, Item, Options) -> ertime_monitors:monitor(Type, Item, Options).

%% @equiv ertime_monitors:demonitor(Monitor)
-spec demonitor(reference()) -> true.
demonitor(Monitor) -> ertime_monitors:demonitor(Monitor).

%% @equiv ertime_monitors:demonitor(Monitor, Options)
-spec demonitor(reference(), [flush | info]) -> boolean().
demonitor(Monitor, Options) -> ertime_monitors:demonitor(Monitor, Options).

%% @equiv ertime_monitors:system_flag(Flag, Value)
-spec system_flag(atom(), term()) -> term().
system_flag(Flag, Value) -> ertime_monitors:system_flag(Flag, Value).

%% @equiv ertime_monitors:system_info(Item)
-spec system_info(term()) -> term().
system_info(Item) -> ertime_monitors:system_info(Item).

%% @equiv ertime_monitors:process_info(Pid, Item)
-spec process_info(pid(), atom() | [term()]) -> term().
process_info(Pid, Item) -> ertime_monitors:process_info(Pid, Item).

%% --- a clock by hand -----------------------------------------------------------------------------------------------

%% @equiv ertime_clock:open()
-spec open() -> clock().
open() -> ertime_clock:open().

%% @equiv ertime_clock:open(Options)
-spec open(options() | [{atom(), term()}]) -> clock().
open(Options) -> ertime_clock:open(Options).

%% @equiv ertime_clock:close(Clock)
-spec close(clock()) -> boolean().
close(Clock) -> ertime_clock:close(Clock).

%% @equiv ertime_clock:advance(Duration)
-spec advance(duration() | until_idle) -> non_neg_integer().
advance(Duration) -> ertime_clock:advance(Duration).

%% @equiv ertime_clock:advance(Clock, Duration)
-spec advance(clock(), duration() | until_idle) -> non_neg_integer();
             (clock(), auto | by_hand) -> ok.
advance(Clock, Duration) -> ertime_clock:advance(Clock, Duration).

%% @equiv ertime_clock:warp(By)
-spec warp(duration()) -> ok.
warp(By) -> ertime_clock:warp(By).

%% @equiv ertime_clock:warp(Clock, By)
-spec warp(clock(), duration()) -> ok.
warp(Clock, By) -> ertime_clock:warp(Clock, By).

%% @equiv ertime_clock:warp(Clock, By, Options)
-spec warp(clock(), duration(), [{check, boolean()}]) -> ok.
warp(Clock, By, Options) -> ertime_clock:warp(Clock, By, Options).

%% @equiv ertime_clock:drift(Clock, PartsPerMillion)
-spec drift(clock(), number()) -> ok.
drift(Clock, PartsPerMillion) -> ertime_clock:drift(Clock, PartsPerMillion).

%% @equiv ertime_clock:info()
-spec info() -> map().
info() -> ertime_clock:info().

%% @equiv ertime_clock:info(Clock)
-spec info(clock()) -> map().
info(Clock) -> ertime_clock:info(Clock).

%% @equiv ertime_clock:rest(Clock)
-spec rest(clock()) -> ok.
rest(Clock) -> ertime_clock:rest(Clock).

%% --- which clock, and which modules ------------------------------------------------------------------------------

%% @doc The calling process uses a clock, and answers the one that it used before. With `real' it uses the runtime's, whatever
%% its ancestors use, and with `undefined' it has none of its own.
%%
%% With `otp', an application or a list of modules it is {@link transform/1}.
%%
%% ```
%% Clock = ertime:open(#{}),
%% undefined = ertime:use(Clock),
%% Clock = ertime:use(real),
%% real = ertime:use(undefined).
%% '''
-spec use(clock() | real | undefined) -> clock() | real | undefined;
         (otp | [module()]) -> ok | {error, [{module(), term()}]}.
use(Modules) when is_list(Modules); Modules =:= otp ->
    transform(Modules);
use(Clock) ->
    Before = erlang:get('$ertime'),
    Answer =
        case Clock of
            undefined -> ertime_use:put_clock(undefined);
            real -> ertime_use:put_clock(none);
            _ when is_reference(Clock) -> ertime_use:put_clock(Clock);
            _ -> badarg
        end,
    case Answer of
        ok -> ok;
        badarg -> ?BADARG([Clock], 1, "neither a clock, real nor undefined");
        _ -> error(Answer, [Clock])
    end,
    case Before of
        none -> real;
        _ -> Before
    end.

%% @doc Turns modules that are loaded, or can be, as {@link ertime_transform} does it, from their debug information and for the
%% whole node: a list of them or of applications, all of an application, or with `otp' those that the behaviours of Erlang/OTP, and of Elixir where
%% it is there, need for their timeouts: `gen', `gen_server', `gen_statem', `gen_event', `supervisor', `proc_lib', `timer',
%% `calendar', `logger' and more; `System', `Process', `DateTime', `NaiveDateTime', `Date', `Time', `Task' and more.
%%
%% Processes without a clock see the runtime's, as before. It can be called again; a module that is turned stays so. Answers
%% `ok', or each module that couldn't be, with the reason: `no_object_code', `no_debug_info', `old_code_is_in_use' where a process
%% runs code of before the last loading, or what the compiler says.
%%
%% ```
%% ok = ertime:transform([calendar]),
%% ok = ertime:transform([calendar]),
%% ok = ertime:untransform([calendar]).
%% '''
-spec transform(otp | atom() | [module() | atom()]) -> ok | {error, [{module(), term()}]}.
transform(What) ->
    ertime_load:load(modules(What)).

%% @doc Which modules see the clock of a test, and which call functions about time and don't, since they weren't turned: those of
%% the project, that is in its `_build', and the behaviours of Erlang/OTP that they follow. The latter are told once, by a warning,
%% when a clock is opened (the option `unturned'). What is in a `receive .. after' alone isn't looked for.
-spec report() -> #{turned := [module()], unturned := [module()]}.
report() ->
    ertime_report:report().

%% @doc Takes {@link transform/1} back: modules that are turned are loaded again as they were compiled. One whose code some
%% process can't leave, as all processes of `proc_lib' are in that module, stays turned, which nobody without a clock notices.
-spec untransform(otp | atom() | [module()]) -> ok.
untransform(What) ->
    ertime_load:unload(modules(What)).

%% @doc The same as {@link untransform/1}.
-spec unuse(otp | atom() | [module()]) -> ok.
unuse(What) ->
    untransform(What).

modules(Names) when is_list(Names) ->
    case [Other || Other <- Names, not is_atom(Other)] of
        [] -> lists:append([modules_of(Name) || Name <- Names]);
        [Other | _] -> ?BADARG([Names], 1, text("~tp is the name of no module", [Other]))
    end;
modules(otp) ->
    ertime_calls:presets(otp);
modules(Application) when is_atom(Application) ->
    case application_modules(Application) of
        none -> ?BADARG([Application], 1, text("there is no application ~tp", [Application]));
        Modules -> Modules
    end;
modules(What) ->
    ?BADARG([What], 1, "neither otp, an application nor a list").

%% In a list a name is that of a module, or of an application that has no module of its name.
modules_of(otp) ->
    ertime_calls:presets(otp);
modules_of(Name) ->
    case code:which(Name) =:= non_existing andalso application_modules(Name) of
        Modules when is_list(Modules) -> Modules;
        _ -> [Name]
    end.

application_modules(Application) ->
    _ = application:load(Application),
    case application:get_key(Application, modules) of
        {ok, Modules} -> Modules;
        undefined -> none
    end.

text(Format, Arguments) ->
    lists:flatten(io_lib:format(Format, Arguments)).

%% @doc Calls a function with the calling process using a clock.
%%
%% ```
%% Clock = ertime:open(#{start => 0}),
%% 0 = ertime:with(Clock, fun ertime:monotonic_time/0).
%% '''
-spec with(clock(), fun(() -> Result)) -> Result.
with(Clock, Fun) ->
    Before = use(Clock),
    try
        Fun()
    after
        restore(Before)
    end.

restore(Before) ->
    try
        use(Before)
    catch
        error:closed ->
            _ = use(undefined),
            %% It is told by its next call.
            erlang:put('$ertime', Before)
    end.

%% @equiv test(#{}, Fun)
-spec test(fun((clock()) -> Result)) -> Result.
test(Fun) ->
    test(#{}, Fun).

%% @doc Runs a test under a clock of its own: opens the clock, calls the function in a new process that uses it, and closes it,
%% whatever happens. Answers what the function does, and raises what it raises.
%%
%% <ul>
%% <li>The options are those of {@link open/1}, and `schedule', faults of time ({@link ertime_faults}), `always' and `deterministic'
%%     as of {@link seeds/3}, and `seen': with `false' nothing is printed of what the clock has seen of a test that fails. With
%%     `advance => auto' the time goes on by itself, and a real time of `limit' milliseconds, by default 60,000, isn't
%%     exceeded.</li>
%% <li>A test that waits for a time which nobody lets pass, in a `receive .. after' of transformed code or in a call of somebody
%%     who does, fails by `{nobody_advances, [{Pid, Info}]}' after two seconds, and by `sleep' at once.</li>
%% <li>Processes that are linked to the test end with it, its mailbox and its dictionary are its own.</li>
%% </ul>
%%
%% ```
%% ertime:test(#{}, fun(Clock) ->
%%     _ = ertime:send_after(1000, self(), ping),
%%     1 = ertime:advance(Clock, 1000),
%%     ping = receive Any -> Any after 0 -> none end
%% end),
%% hour = ertime:test(#{advance => auto}, fun(_) -> ertime:sleep(3600000), hour end).
%% '''
-spec test(options() | [{atom(), term()}], fun((clock()) -> Result)) -> Result.
test(Options, Fun) when is_list(Options) ->
    test(maps:from_list(Options), Fun);
test(Options, Fun) when is_map(Options), is_function(Fun, 1) ->
    ertime_test:run(Options, Fun);
test(Options, Fun) when is_map(Options) ->
    ?BADARG([Options, Fun], 2, "not a function of one argument, the clock");
test(Options, Fun) ->
    ?BADARG([Options, Fun], 1, "neither a map nor a list of options").

%% @doc Runs a test under the clocks of many seeds, each with faults of time that its seed draws ({@link ertime_faults}). Where one
%% fails, the faults are made fewer and smaller as long as it still fails, and printed as terms to paste; then this raises what
%% the test raised.
%%
%% First the test runs without a fault, so that one which fails anyway is reported as such; two of three faults are drawn to meet a
%% moment in which the test has timers due. Processes that are linked to a run end with it, and any other that the test, or one of
%% its processes, has spawned is killed. What all runs but the first and the last print and log is dropped.
%%
%% The seeds are a count, `{From, To}' or a list. The options are those of {@link test/2}, where the time goes on by itself in
%% multi time warp mode if they say nothing else, and
%%
%% <ul>
%% <li>`faults': kinds, of which {@link ertime_faults} has a table: names, `{Name, Most}' with the greatest number, `silent' or
%%     `loud'; by default `silent';</li>
%% <li>`over': the faults lie in so much time from the start; by default in the first hours, more of them at the beginning;</li>
%% <li>`most': how many faults a seed draws at most, by default 8;</li>
%% <li>`always': a function of the clock that is called whenever all processes rest, and fails the test if it raises or answers
%%     `false'. It runs in a process of its own;</li>
%% <li>`deterministic': with `true' the node has one scheduler meanwhile, and each step sends one message, so that a seed gives
%%     the same run also where processes race;</li>
%% <li>`shrink': with `false' the first failure is told as it is.</li>
%% </ul>
%%
%% ```
%% ok = ertime:seeds(20, #{faults => [silent, {stall, 20000}], over => {600, second}}, fun(_) ->
%%     Begin = ertime:monotonic_time(millisecond),
%%     ertime:sleep(600000),
%%     true = ertime:monotonic_time(millisecond) - Begin >= 600000
%% end).
%% '''
-spec seeds(pos_integer() | {integer(), integer()} | [integer()], map() | [{atom(), term()}], fun((clock()) -> term())) -> ok.
seeds(Seeds, Options, Fun) ->
    ertime_seeds:run(Seeds, Options, Fun).

%% @doc All processes of the node that see no other clock use this one; with `none', no longer.
-spec use_everywhere(clock() | none) -> ok.
use_everywhere(none) ->
    ertime_use:put_everywhere(none);
use_everywhere(Clock) ->
    case ertime_nif:os_time(Clock) of
        {_, _} -> ertime_use:put_everywhere(Clock);
        Reason -> error(Reason, [Clock])
    end.

%% @doc A process that neither the test nor one of its processes has started, as one of the application, sees the clock from its
%% next call on, and so do those below it that see no other one. It ends with the process, or when the clock is closed: then it sees
%% the runtime's clock again, without an error. The process may be named, as for `gen_server:call/2' on this node.
%%
%% It has to be turned; and a timer that it started before is the runtime's. A process can see one clock at a time: where it was
%% allowed another that is open, this is `badarg'.
%%
%% ```
%% Clock = ertime:open(#{start => 0}),
%% ok = ertime:allow(Clock, self()),
%% 0 = ertime:monotonic_time().
%% '''
-spec allow(clock(), pid() | atom() | {global, term()} | {via, module(), term()}) -> ok.
allow(Clock, Process) ->
    case ertime_nif:os_time(Clock) of
        {_, _} -> ok;
        badarg -> ?BADARG([Clock, Process], 1, "no clock");
        closed -> error(closed, [Clock, Process])
    end,
    case process(Process) of
        Pid when is_pid(Pid), node(Pid) =:= node() ->
            ertime_use:allow(Clock, Pid) =:= ok orelse ?BADARG([Clock, Process], 2, "the process was allowed another clock, which is open"),
            ok;
        _ ->
            ?BADARG([Clock, Process], 2, "no process of this node, nor the name of one")
    end.

process(Pid) when is_pid(Pid) -> Pid;
process(Name) when is_atom(Name) -> whereis(Name);
process({global, Name}) -> global:whereis_name(Name);
process({via, Module, Name}) -> Module:whereis_name(Name);
process(_) -> undefined.

%% @equiv ertime_text:run_scenario(Scenario)
-spec run_scenario(iodata()) -> {ok, Transcript :: binary()} | {error, ertime_text:reason()}.
run_scenario(Scenario) -> ertime_text:run_scenario(Scenario).

%% @equiv ertime_text:judge(History)
-spec judge(iodata()) ->
    {ok, {legal, Entries :: non_neg_integer()}} | {illegal, Line :: pos_integer(), Message :: binary()} | {error, ertime_text:reason()}.
judge(History) -> ertime_text:judge(History).

%% @doc The clock that the calling process sees, or `none'.
-spec clock() -> clock() | none.
clock() ->
    case ertime_on:on() of
        true -> ertime_use:clock_if_open();
        false -> none
    end.
