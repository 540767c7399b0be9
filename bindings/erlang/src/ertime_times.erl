%% @doc Times and units, by the clock that the calling process sees; where it sees none, those of the runtime. The module
%% {@link ertime} has them all.
-module(ertime_times).

-compile({no_auto_import, [date/0, time/0, now/0]}).

-export([
    monotonic_time/0, monotonic_time/1, system_time/0, system_time/1, time_offset/0, time_offset/1,
    timestamp/0, universaltime/0, localtime/0, unique_integer/0, unique_integer/1, convert_time_unit/3,
    date/0, time/0, now/0, os_system_time/0, os_system_time/1, os_timestamp/0
]).
%% For the package itself.
-export([nanoseconds/3]).

-include("ertime.hrl").

%% @doc As `erlang:monotonic_time/0'. It stands still until the clock is moved.
%%
%% ```
%% Clock = ertime:open(#{start => 5000000}),
%% 5000000 = ertime:with(Clock, fun ertime:monotonic_time/0).
%% '''
-spec monotonic_time() -> integer().
monotonic_time() ->
    case ?CLOCK of
        none -> erlang:monotonic_time();
        Clock -> monotonic_of(Clock)
    end.

monotonic_of(Clock) ->
    case ertime_nif:monotonic_time(Clock) of
        Time when is_integer(Time) -> Time;
        closed -> again(fun erlang:monotonic_time/0, fun monotonic_of/1)
    end.

%% @doc As `erlang:monotonic_time/1'.
%%
%% ```
%% Clock = ertime:open(#{start => 5000000}),
%% 5 = ertime:with(Clock, fun() -> ertime:monotonic_time(millisecond) end).
%% '''
-spec monotonic_time(erlang:time_unit()) -> integer().
monotonic_time(Unit) ->
    case ?CLOCK of
        none -> erlang:monotonic_time(Unit);
        _ -> of_nanoseconds(monotonic_time(), Unit, [Unit])
    end.

%% @doc As `erlang:system_time/0': monotonic time plus the time offset.
%%
%% ```
%% Clock = ertime:open(#{os_time => {1767225600, second}}),
%% 1767225600000000000 = ertime:with(Clock, fun ertime:system_time/0).
%% '''
-spec system_time() -> integer().
system_time() ->
    case ?CLOCK of
        none -> erlang:system_time();
        Clock -> system_of(Clock)
    end.

system_of(Clock) ->
    case ertime_nif:system_time(Clock) of
        Time when is_integer(Time) -> Time;
        closed -> again(fun erlang:system_time/0, fun system_of/1)
    end.

%% @doc As `erlang:system_time/1'.
%%
%% ```
%% Clock = ertime:open(#{os_time => {1767225600, second}}),
%% 1767225600 = ertime:with(Clock, fun() -> ertime:system_time(second) end).
%% '''
-spec system_time(erlang:time_unit()) -> integer().
system_time(Unit) ->
    case ?CLOCK of
        none -> erlang:system_time(Unit);
        _ -> of_nanoseconds(system_time(), Unit, [Unit])
    end.

%% @doc As `erlang:time_offset/0'.
%%
%% ```
%% Clock = ertime:open(#{start => 0, os_time => {1767225600, second}}),
%% 1767225600000000000 = ertime:with(Clock, fun ertime:time_offset/0).
%% '''
-spec time_offset() -> integer().
time_offset() ->
    case ?CLOCK of
        none -> erlang:time_offset();
        Clock -> offset_of(Clock)
    end.

offset_of(Clock) ->
    case ertime_nif:time_offset(Clock) of
        {Offset, _} -> Offset;
        closed -> again(fun erlang:time_offset/0, fun offset_of/1)
    end.

%% @doc As `erlang:time_offset/1'.
%%
%% ```
%% Clock = ertime:open(#{start => 0, os_time => {1767225600, second}}),
%% 1767225600 = ertime:with(Clock, fun() -> ertime:time_offset(second) end).
%% '''
-spec time_offset(erlang:time_unit()) -> integer().
time_offset(Unit) ->
    case ?CLOCK of
        none -> erlang:time_offset(Unit);
        _ -> of_nanoseconds(time_offset(), Unit, [Unit])
    end.

%% @doc As `erlang:timestamp/0'.
%%
%% ```
%% Clock = ertime:open(#{os_time => {1767225600, second}}),
%% {1767, 225600, 0} = ertime:with(Clock, fun ertime:timestamp/0).
%% '''
-spec timestamp() -> erlang:timestamp().
timestamp() ->
    case ?CLOCK of
        none -> erlang:timestamp();
        _ -> stamp(system_time(microsecond))
    end.

stamp(Microseconds) ->
    Seconds = Microseconds div 1000000,
    {Seconds div 1000000, Seconds rem 1000000, Microseconds rem 1000000}.

%% @doc As `erlang:universaltime/0'.
%%
%% ```
%% Clock = ertime:open(#{os_time => {1767225600, second}}),
%% {{2026, 1, 1}, {0, 0, 0}} = ertime:with(Clock, fun ertime:universaltime/0).
%% '''
-spec universaltime() -> calendar:datetime().
universaltime() ->
    case ?CLOCK of
        none -> erlang:universaltime();
        _ -> calendar:system_time_to_universal_time(system_time(second), second)
    end.

%% @doc As `erlang:localtime/0'.
-spec localtime() -> calendar:datetime().
localtime() ->
    case ?CLOCK of
        none -> erlang:localtime();
        _ -> erlang:universaltime_to_localtime(universaltime())
    end.

%% @doc As `erlang:date/0'.
-spec date() -> calendar:date().
date() ->
    element(1, localtime()).

%% @doc As `erlang:time/0'.
-spec time() -> calendar:time().
time() ->
    element(2, localtime()).

%% @doc As `erlang:now/0': each answer for a clock is later than the one before, by a microsecond where the time stands still.
%%
%% ```
%% Clock = ertime:open(#{os_time => {1767225600, second}}),
%% [{1767, 225600, 0}, {1767, 225600, 1}] = ertime:with(Clock, fun() -> [ertime:now(), ertime:now()] end).
%% '''
-spec now() -> erlang:timestamp().
now() ->
    case ?CLOCK of
        none ->
            %% The one that warns that it is deprecated.
            apply(erlang, now, []);
        Clock ->
            stamp(ertime_keeper:later(ref_to_list(Clock), system_time(microsecond)))
    end.

%% @doc As `erlang:unique_integer/0', which it calls.
-spec unique_integer() -> integer().
unique_integer() ->
    erlang:unique_integer().

%% @doc As `erlang:unique_integer/1', which it calls.
-spec unique_integer([positive | monotonic]) -> integer().
unique_integer(Modifiers) ->
    erlang:unique_integer(Modifiers).

%% @doc As `erlang:convert_time_unit/3'. Under a clock `native' is the nanosecond.
%%
%% ```
%% 3600000 = ertime:convert_time_unit(3600, second, millisecond).
%% '''
-spec convert_time_unit(integer(), erlang:time_unit(), erlang:time_unit()) -> integer().
convert_time_unit(Time, From, To) ->
    case ?CLOCK of
        none -> erlang:convert_time_unit(Time, From, To);
        _ -> convert(Time, unit(From), unit(To), [Time, From, To])
    end.

%% @doc As `os:system_time/0': what the OS system clock tells.
%%
%% ```
%% Clock = ertime:open(#{os_time => {1767225600, second}}),
%% ok = ertime:warp(Clock, 60000),
%% 1767225660000000000 = ertime:with(Clock, fun ertime:os_system_time/0).
%% '''
-spec os_system_time() -> integer().
os_system_time() ->
    case ?CLOCK of
        none -> os:system_time();
        Clock -> os_system_of(Clock)
    end.

os_system_of(Clock) ->
    case ertime_nif:os_time(Clock) of
        {_, System} -> System;
        closed -> again(fun os:system_time/0, fun os_system_of/1)
    end.

%% @doc As `os:system_time/1'.
-spec os_system_time(erlang:time_unit()) -> integer().
os_system_time(Unit) ->
    case ?CLOCK of
        none -> os:system_time(Unit);
        _ -> of_nanoseconds(os_system_time(), Unit, [Unit])
    end.

%% @doc As `os:timestamp/0'.
-spec os_timestamp() -> erlang:timestamp().
os_timestamp() ->
    case ?CLOCK of
        none -> os:timestamp();
        _ -> stamp(os_system_time(microsecond))
    end.

again(Real, OfClock) ->
    case ertime_use:lost() of
        none -> Real();
        Clock -> OfClock(Clock)
    end.

unit(native) -> nanosecond;
unit(Unit) -> Unit.

of_nanoseconds(Time, Unit, Arguments) ->
    convert(Time, nanosecond, unit(Unit), Arguments).

convert(Time, From, To, Arguments) ->
    try
        erlang:convert_time_unit(Time, From, To)
    catch
        error:badarg -> error(badarg, Arguments)
    end.

%% The time is the second of the arguments, or the only one.
%% @private
nanoseconds(Time, Unit, Arguments) when is_integer(Time) ->
    nanoseconds({Time, Unit}, Unit, Arguments);
nanoseconds({Time, Unit}, _, Arguments) when is_integer(Time) ->
    case seconds(Unit) of
        1 -> converted(Time, unit(Unit), Arguments);
        Seconds -> Time * Seconds * 1000000000
    end;
nanoseconds(_, _, Arguments) ->
    ?BADARG(Arguments, min(2, length(Arguments)), "not a whole number, or one with its unit").

converted(Time, Unit, Arguments) ->
    try
        erlang:convert_time_unit(Time, Unit, nanosecond)
    catch
        error:badarg -> ?BADARG(Arguments, min(2, length(Arguments)), "an unknown unit of time")
    end.

seconds(minute) -> 60;
seconds(hour) -> 3600;
seconds(day) -> 86400;
seconds(_) -> 1.
