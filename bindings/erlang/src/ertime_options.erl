%% @private
%% The options of a clock: their defaults, what is wrong with one, and the text by which an error tells it.
-module(ertime_options).

-export([with_defaults/1, wrong/1, format_error/2]).

%% 2026-01-01 00:00:00 UTC
-define(OS_TIME, 1767225600000000000).
%% The least start time of a clock is -2^58 ns; this is the one of whole milliseconds after it.
-define(START, -288230376151000000).
-define(MOST_START, 1 bsl 58).
-define(MOST_OS_TIME, 1 bsl 61).
-define(MOST_SLOTS, 262144).
-define(MOST_DRIFT, 1000000).

%% The same on each release of Erlang/OTP.
with_defaults(Options) ->
    maps:merge(
        #{
            mode => multi_time_warp, correction => true, start => ?START, os_time => {?OS_TIME, nanosecond}, slots => 1024, drift => 0,
            advance => by_hand, limit => infinity, unturned => application:get_env(ertime, unturned, warn)
        },
        Options
    ).

%% What is wrong with these options, as a text, or `none'.
wrong(Options) when is_map(Options) ->
    Known = maps:keys(with_defaults(#{})),
    case maps:keys(maps:without(Known, Options)) of
        [] -> first([{Name, Value, must_be(Name)} || {Name, Value} <- maps:to_list(Options), not is_good(Name, Value)]);
        [Unknown | _] -> told(
            "unknown option ~tp: a clock has ~ts; test/2 has always, deterministic, schedule and seen as well, and seeds/3 faults, most, over and shrink",
            [Unknown, lists:join(", ", [atom_to_list(Name) || Name <- Known])]
        )
    end;
wrong(Options) ->
    told("~tp is no map of options", [Options]).

first([]) -> none;
first([{Name, Value, Must} | _]) -> told("the option ~tp is ~ts, and not ~tP", [Name, Must, Value, 10]).

told(Format, Arguments) ->
    lists:flatten(io_lib:format(Format, Arguments)).

is_good(mode, Mode) -> lists:member(Mode, [no_time_warp, single_time_warp, multi_time_warp]);
is_good(correction, Is) -> is_boolean(Is);
is_good(start, Start) -> is_integer(Start) andalso Start rem 1000000 =:= 0 andalso abs(Start) =< ?MOST_START;
is_good(os_time, Time) -> is_os_time(Time);
is_good(slots, Slots) -> is_integer(Slots) andalso Slots >= 1 andalso Slots =< ?MOST_SLOTS;
is_good(drift, Drift) -> is_number(Drift) andalso abs(Drift) =< ?MOST_DRIFT;
is_good(advance, Advance) -> lists:member(Advance, [by_hand, auto]);
is_good(limit, Limit) -> Limit =:= infinity orelse (is_integer(Limit) andalso Limit >= 0);
is_good(unturned, Unturned) -> lists:member(Unturned, [warn, error, ignore]).

is_os_time(Time) ->
    try
        abs(ertime_times:nanoseconds(Time, nanosecond, [])) < ?MOST_OS_TIME
    catch
        error:badarg -> false
    end.

must_be(mode) -> "no_time_warp, single_time_warp or multi_time_warp";
must_be(correction) -> "true or false";
must_be(start) -> "nanoseconds, a multiple of 1000000 from -2^58 to 2^58";
must_be(os_time) -> "nanoseconds, or a number with its unit, from 1896-12-06 to 2043-01-25";
must_be(slots) -> "a number from 1 to 262144";
must_be(drift) -> "a number from -1000000 to 1000000, parts per million";
must_be(advance) -> "by_hand or auto";
must_be(limit) -> "milliseconds of real time, or infinity";
must_be(unturned) -> "warn, error or ignore".

%% As the shell, and Elixir, ask for it (error_info, see erlang:error/3).
format_error(_, [{_, _, _, Info} | _]) ->
    #{cause := {Position, Text}} = proplists:get_value(error_info, Info),
    #{Position => Text}.
