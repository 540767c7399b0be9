%% @doc A clock by hand: opened, moved, looked at and closed. The module {@link ertime} has all of it.
-module(ertime_clock).

-export([
    open/0, open/1, close/1, advance/1, advance/2, warp/1, warp/2, warp/3, drift/2, info/0, info/1, rest/1
]).
%% For the package itself.
-export([open_for/2, is_followed/2]).

-include("ertime.hrl").

-define(LONGEST, 1 bsl 60).
-define(MOST_AT_ONE_TIME, 20000).

%% @equiv open(#{})
-spec open() -> ertime:clock().
open() ->
    open(#{}).

%% @doc Opens a clock. It stands still until it is moved, and is freed when nothing refers to it, or by {@link close/1}.
%%
%% <ul>
%% <li>`mode': the time warp mode, `no_time_warp', `single_time_warp' or by default `multi_time_warp', on each release;</li>
%% <li>`correction': whether time correction is on, as it is by default;</li>
%% <li>`start': monotonic time at the opening in nanoseconds, a multiple of a million, by default a great negative number, as in
%%     the runtime: -288,230,376,151 seconds;</li>
%% <li>`os_time': what the OS system clock shows at the opening, in nanoseconds or with a unit, from 1896-12-06 to 2043-01-25, by
%%     default the beginning of 2026;</li>
%% <li>`slots': how many timers there can be at a time, at most 262,144, by default 1,024; memory for them is taken here, and a start for which
%%     there is no slot raises `system_limit';</li>
%% <li>`drift': by how many parts per million the OS system clock runs faster than the OS monotonic clock, by default 0;</li>
%% <li>`advance': `by_hand', or `auto' for a clock that goes on by itself, as with {@link advance/2};</li>
%% <li>`limit': how many milliseconds of real time `auto' may take, by default `infinity'. Past it the process that called ends by
%%     `{real_time_limit, Milliseconds, [{Pid, Info}]}', and by `{no_progress, _}' where timers of 0 milliseconds keep the time from
%%     moving;</li>
%% <li>`unturned': what happens where modules of the project call functions about time and weren't turned, so that they will see
%%     the runtime's clock ({@link ertime:report/0}): `warn', which the application's environment variable of this name may
%%     change, names them once on standard error; `error' raises `{unturned, Modules}'; `ignore'.</li>
%% </ul>
%%
%% ```
%% Clock = ertime:open(#{mode => multi_time_warp, os_time => {1800000000, second}}),
%% 1800000000 = ertime:with(Clock, fun() -> ertime:system_time(second) end).
%% '''
-spec open(ertime:options() | [{atom(), term()}]) -> ertime:clock().
open(Options) when is_list(Options) ->
    open(maps:from_list(Options));
open(Options) ->
    open_for(none, Options).

%% @private For a schedule of faults: then the clock has several wheels, among which the timers may be spread.
open_for(Schedule, Options) ->
    Wrong = ertime_options:wrong(Options),
    Wrong =:= none orelse ?BADARG([Options], 1, Wrong),
    #{
        mode := Mode, correction := Correction, start := Start, os_time := OsTime, slots := Slots, drift := Drift,
        advance := Advance, limit := Limit, unturned := Unturned
    } = ertime_options:with_defaults(Options),
    Settings = [
        mode_number(Mode), correction_number(Correction), Start, 0, ertime_times:nanoseconds(OsTime, nanosecond, [Options]), Slots, round(Drift * 1000)
    ],
    case apply(ertime_nif, open, Settings ++ [ertime_faults:needs_spread(Schedule) || Schedule =/= none]) of
        Clock when is_reference(Clock) ->
            ertime_use:turn_on(),
            ertime_report:look(Unturned),
            put(?OWN, Clock),
            Advance =:= auto andalso ertime_watch:start(Clock, self(), auto(Limit)),
            Clock;
        no_memory ->
            error(system_limit, [Options])
    end.

mode_number(no_time_warp) -> 0;
mode_number(single_time_warp) -> 1;
mode_number(multi_time_warp) -> 2.

correction_number(true) -> 1;
correction_number(false) -> 0.

%% @doc Closes a clock, and tells whether it was open. Its timers never expire then: they can be read and cancelled, and have what
%% was left of them.
%%
%% Whoever used it goes back to the clock that it would see else; and so does the process that calls this. Any other process for
%% which that is the runtime's has outlived its test: its next call about time raises `{clock_closed, Text}', once, unless it is
%% terminating, as a supervisor that waits for its children to end. Who saw the
%% clock by {@link ertime:use_everywhere/1} or {@link ertime:allow/2} goes back to the runtime's without an error. Whoever waits
%% in a `receive .. after' or sleeps goes on waiting by the runtime's clock, and is told by its next call.
%%
%% ```
%% Clock = ertime:open(#{}),
%% true = ertime:close(Clock),
%% false = ertime:close(Clock).
%% '''
-spec close(ertime:clock()) -> boolean().
close(Clock) ->
    ok = ertime_use:leave_everywhere(Clock),
    case ertime_nif:close(Clock) of
        badarg ->
            no_clock(badarg, [Clock]);
        false ->
            stopped(Clock),
            false;
        Asleep ->
            stopped(Clock),
            Asleep =:= [] orelse ertime_keeper:resume(Asleep),
            true
    end.

%% Nothing works for the clock any more.
stopped(Clock) ->
    ertime_on:on() andalso begin ertime_watch:stop(Clock), ertime_timer:stop(Clock), ertime_use:disallow(Clock) end,
    erlang:get('$ertime') =:= Clock andalso ertime:use(undefined),
    erlang:get(?OWN) =:= Clock andalso erase(?OWN).

%% @equiv advance(clock(), Duration)
-spec advance(ertime:duration() | until_idle) -> non_neg_integer().
advance(Duration) ->
    advance(needed(advance, [Duration]), Duration).

%% @doc Lets the time pass, and answers how many messages were sent.
%%
%% With `auto' it goes on by itself from now on, as long as the calling process lives: whenever all processes of the clock rest, to
%% the next deadline. Where all rest for half a second of real time and nothing is armed, and none of them waits for a port, the
%% process that called ends by `{deadlock, [{Pid, Info}]}', which says who waits where. `by_hand' ends that.
%%
%% The OS clocks go on from deadline to deadline. After the messages of each it waits until the processes of this clock rest,
%% so that what they start is reckoned from the right time. At the end nothing is due, and all of them rest. With `until_idle'
%% it goes on until no timer is armed.
%%
%% A process that doesn't rest within five seconds (the environment variable `rest_limit' of the application) is told by the
%% error `{not_at_rest, [{Pid, Info}]}'. Processes that arm timers of 0 milliseconds without end are told by `no_progress'.
%%
%% ```
%% Clock = ertime:open(#{}),
%% ertime:use(Clock),
%% _ = ertime:send_after(1000, self(), second),
%% _ = ertime:send_after(3600000, self(), hour),
%% 1 = ertime:advance(Clock, 1000),
%% 1 = ertime:advance(Clock, {3599, second}).
%% '''
-spec advance(ertime:clock(), ertime:duration() | until_idle) -> non_neg_integer();
             (ertime:clock(), auto | by_hand) -> ok.
advance(Clock, auto) ->
    _ = is_open(Clock, [Clock, auto]),
    ertime_watch:is_auto(Clock) orelse ertime_watch:start(Clock, self(), auto(infinity)),
    ok;
advance(Clock, by_hand) ->
    _ = is_open(Clock, [Clock, by_hand]),
    ertime_watch:stop(Clock);
advance(Clock, until_idle) ->
    led(Clock, [Clock, until_idle], fun() -> until_idle(Clock, 0, 0) end);
advance(Clock, Duration) ->
    Arguments = [Clock, Duration],
    Left = ertime_times:nanoseconds(Duration, millisecond, Arguments),
    Left >= 0 orelse ?BADARG(Arguments, 2, "the time doesn't go back: warp/2 lets the OS system clock leap"),
    led(Clock, Arguments, fun() -> steps(Clock, Left, 0, 0) end).

auto(Limit) ->
    Self = self(),
    #{advance => auto, limit => Limit, tell => fun(Reason) -> exit(Self, Reason) end, gone => fun() -> ok end}.

is_open(Clock, Arguments) ->
    case ertime_nif:os_time(Clock) of
        {_, _} -> true;
        Reason -> no_clock(Reason, Arguments)
    end.

-spec no_clock(badarg | closed, list()) -> no_return().
no_clock(badarg, Arguments) -> ?BADARG(Arguments, 1, "no clock");
no_clock(Reason, Arguments) -> error(Reason, Arguments).

%% One process moves a clock at a time. What the NIF refuses, as where another process closes the clock meanwhile, is thrown,
%% and is an error of the call that has these arguments.
led(Clock, Arguments, Work) ->
    case ertime_nif:lead(Clock) of
        true ->
            put(?OWN, Clock),
            try
                ertime_rest:wait(Clock),
                Work()
            catch
                throw:{?MODULE, Reason} -> error(Reason, Arguments)
            after
                ertime_nif:unlead(Clock)
            end;
        false ->
            receive
            after 1 -> led(Clock, Arguments, Work)
            end;
        Reason ->
            no_clock(Reason, Arguments)
    end.

-spec refused(term()) -> no_return().
refused(Reason) ->
    throw({?MODULE, Reason}).

steps(Clock, Left, Sent, Same) ->
    case step(Clock, Left) of
        {0, 0, _} ->
            Sent;
        {Rest, 0, _} ->
            steps(Clock, Rest, Sent, 0);
        {Rest, More, _} ->
            ertime_rest:wait(Clock),
            steps(Clock, Rest, Sent + More, at_one_time(Left, Rest, Same))
    end.

until_idle(Clock, Sent, Same) ->
    case step(Clock, 0) of
        {0, 0, 0} ->
            Sent;
        {0, 0, _} ->
            {_, More, _} = step(Clock, ?LONGEST),
            ertime_rest:wait(Clock),
            until_idle(Clock, Sent + More, 0);
        {0, More, _} ->
            ertime_rest:wait(Clock),
            until_idle(Clock, Sent + More, at_one_time(0, 0, Same))
    end.

at_one_time(Left, Left, Same) when Same >= ?MOST_AT_ONE_TIME -> refused(no_progress);
at_one_time(Left, Left, Same) -> Same + 1;
at_one_time(_, _, _) -> 0.

step(Clock, Left) ->
    case ertime_drive:step(Clock, Left) of
        {_, _, _} = Done -> Done;
        {again, Rest} -> ertime_rest:wait(Clock), step(Clock, Rest);
        Reason -> refused(Reason)
    end.

%% @equiv warp(clock(), By)
-spec warp(ertime:duration()) -> ok.
warp(By) ->
    warp(needed(warp, [By]), By).

%% @doc Lets the OS system clock leap, forward or back. The runtime notices it at once; timers that are due by it are sent, and
%% it waits as {@link advance/2} does.
%%
%% ```
%% Clock = ertime:open(#{mode => multi_time_warp, os_time => {1800000000, second}}),
%% ok = ertime:warp(Clock, {-3600, second}),
%% 1799996400 = ertime:with(Clock, fun() -> ertime:system_time(second) end).
%% '''
-spec warp(ertime:clock(), ertime:duration()) -> ok.
warp(Clock, By) ->
    warp(Clock, By, []).

%% @doc The same. With `{check, false}' the runtime notices the leap when it checks the clock next, as it does in production,
%% within a minute or so; but a leap back in multi time warp mode without time correction at once, as there.
-spec warp(ertime:clock(), ertime:duration(), [{check, boolean()}]) -> ok.
warp(Clock, By, Options) ->
    Arguments = [Clock, By, Options],
    Leap = ertime_times:nanoseconds(By, millisecond, Arguments),
    #{check := Check} = ertime_timers:options(Options, #{check => true}, Arguments),
    led(Clock, Arguments, fun() ->
        case ertime_nif:leap(Clock, Leap, Check orelse is_followed(Clock, Leap)) of
            ok ->
                ertime_rest:wait(Clock),
                _ = steps(Clock, 0, 0, 0),
                ok;
            Reason ->
                refused(Reason)
        end
    end).

%% @private
%% Without correction monotonic time would stand still after a leap back. In multi time warp mode the runtime moves the offset
%% then, whenever it reads the clock.
is_followed(Clock, Leap) ->
    case ertime_nif:settings(Clock) of
        {2, 0, _, _, _} -> Leap < 0;
        _ -> false
    end.

%% @doc From now on the OS system clock runs faster than the OS monotonic clock by so many parts per million.
-spec drift(ertime:clock(), number()) -> ok.
drift(Clock, PartsPerMillion) ->
    case is_number(PartsPerMillion) andalso ertime_nif:drift(Clock, round(PartsPerMillion * 1000)) of
        ok -> ok;
        closed -> error(closed, [Clock, PartsPerMillion]);
        _ -> ?BADARG([Clock, PartsPerMillion], 2, "not a number from -1000000 to 1000000, or the first is no clock")
    end.

%% @equiv info(clock())
-spec info() -> map().
info() ->
    info(needed(info, [])).

%% @doc What the clock tells and what is armed, the timers in order of their deadlines: for a failing test to print. All of it is
%% of one moment.
%%
%% ```
%% Clock = ertime:open(#{start => 0}),
%% ertime:use(Clock),
%% _ = ertime:send_after(1500, self(), ping),
%% #{monotonic_time := 0, timers := [#{left := 1500, message := ping}]} = ertime:info(Clock).
%% '''
-spec info(ertime:clock()) -> map().
info(Clock) ->
    case ertime_nif:info(Clock) of
        {{Mode, Correction, Start, Slots, Drift}, {OsMono, OsSystem}, {Mono, System}, {Offset, State}, Pids, Timers} ->
            #{
                mode => ertime_monitors:mode_of(Mode),
                correction => Correction =:= 1,
                start => Start,
                slots => Slots,
                drift => Drift / 1000,
                monotonic_time => Mono,
                system_time => System,
                time_offset => Offset,
                offset_state => State,
                os_monotonic_time => OsMono,
                os_system_time => OsSystem,
                processes => lists:sort(Pids),
                timers => [
                    #{left => Left, to => To, timer => Timer, message => Message, kind => kind(Bare)}
                 || {Left, To, Timer, Message, Bare} <- lists:sort(Timers)
                ]
            };
        Reason ->
            no_clock(Reason, [Clock])
    end.

kind(true) -> send_after;
kind(false) -> start_timer.

%% @doc Waits until the processes of a clock rest, as {@link advance/2} does, and moves nothing.
-spec rest(ertime:clock()) -> ok.
rest(Clock) ->
    _ = is_open(Clock, [Clock]),
    ertime_rest:wait(Clock).

needed(Name, Arguments) ->
    case ertime:clock() of
        none -> erlang:error({no_clock, Name}, Arguments);
        Clock -> Clock
    end.
