%% @doc Monitors of the time offset, and what the runtime tells of its clocks, by the clock that the calling process sees; where
%% it sees none, those of the runtime. The module {@link ertime} has them all.
-module(ertime_monitors).

-compile({no_auto_import, [monitor/2, monitor/3, demonitor/1, demonitor/2, process_info/2]}).

-export([
    monitor/2, monitor/3, demonitor/1, demonitor/2, system_flag/2, system_info/1, process_info/2
]).
%% For the package itself.
-export([mode_of/1]).

-include("ertime.hrl").

%% @doc As `erlang:monitor/2'. `monitor(time_offset, clock_service)' monitors the time offset of the clock.
%%
%% ```
%% Clock = ertime:open(#{mode => multi_time_warp}),
%% ertime:use(Clock),
%% Monitor = ertime:monitor(time_offset, clock_service),
%% Before = ertime:time_offset(),
%% ok = ertime:warp(Clock, 60000),
%% 60000000000 = receive {'CHANGE', Monitor, time_offset, clock_service, Offset} -> Offset - Before after 0 -> none end.
%% '''
-spec monitor(process | port | time_offset, term()) -> reference().
monitor(time_offset, clock_service) ->
    case ?CLOCK of
        none ->
            erlang:monitor(time_offset, clock_service);
        Clock ->
            case ertime_nif:monitor(Clock) of
                Monitor when is_reference(Monitor) ->
                    Monitor;
                closed ->
                    _ = ertime_use:lost(),
                    monitor(time_offset, clock_service);
                system_limit ->
                    error(system_limit, [time_offset, clock_service])
            end
    end;
monitor(Type, Item) ->
    erlang:monitor(Type, Item).

%% @doc As `erlang:monitor/3'. A monitor of the time offset of a clock takes no options.
-spec monitor(process | port | time_offset, term(), [erlang:monitor_option()]) -> reference().
monitor(time_offset, clock_service, Options) ->
    case ?CLOCK of
        none -> erlang:monitor(time_offset, clock_service, Options);
        _ when Options =:= [] -> monitor(time_offset, clock_service);
        _ -> error(badarg, [time_offset, clock_service, Options])
    end;
monitor(Type, Item, Options) ->
    erlang:monitor(Type, Item, Options).

%% @doc As `erlang:process_info/2'. What monitors a process doesn't tell that its clock does.
-spec process_info(pid(), atom() | [term()]) -> term().
process_info(Pid, Item) ->
    without_clocks(erlang:process_info(Pid, Item)).

without_clocks({monitored_by, Who}) ->
    {monitored_by, [It || It <- Who, not (is_reference(It) andalso ertime_nif:os_time(It) =/= badarg)]};
without_clocks(Items) when is_list(Items) ->
    [without_clocks(Item) || Item <- Items];
without_clocks(Item) ->
    Item.

%% @doc As `erlang:demonitor/1'.
%%
%% ```
%% Clock = ertime:open(#{mode => multi_time_warp}),
%% ertime:use(Clock),
%% Monitor = ertime:monitor(time_offset, clock_service),
%% true = ertime:demonitor(Monitor).
%% '''
-spec demonitor(reference()) -> true.
demonitor(Monitor) ->
    demonitor_our(Monitor, fun() -> erlang:demonitor(Monitor) end, fun(_) -> true end, [Monitor]).

%% @doc As `erlang:demonitor/2': with the options `flush' and `info'.
-spec demonitor(reference(), [flush | info]) -> boolean().
demonitor(Monitor, Options) ->
    demonitor_our(
        Monitor,
        fun() -> erlang:demonitor(Monitor, Options) end,
        fun(Stood) ->
            Had = lists:member(flush, Options) andalso flush(Monitor),
            (not lists:member(info, Options)) orelse (Stood andalso not Had)
        end,
        [Monitor, Options]
    ).

demonitor_our(Monitor, Other, Done, Arguments) ->
    case ertime_on:on() andalso ertime_nif:is_monitor(Monitor) of
        false ->
            Other();
        true ->
            lists:all(fun is_demonitor_option/1, lists:append(tl(Arguments))) orelse error(badarg, Arguments),
            case ertime_nif:demonitor(Monitor) of
                badarg -> error(badarg, Arguments);
                Stood -> Done(Stood)
            end
    end.

is_demonitor_option(Option) ->
    Option =:= flush orelse Option =:= info.

flush(Monitor) ->
    receive
        {'CHANGE', Monitor, _, _, _} -> true
    after 0 -> false
    end.

%% @doc As `erlang:system_flag/2'. `system_flag(time_offset, finalize)' finalizes the time offset of the clock.
%%
%% ```
%% Clock = ertime:open(#{mode => single_time_warp}),
%% ertime:use(Clock),
%% preliminary = ertime:system_flag(time_offset, finalize),
%% final = ertime:system_flag(time_offset, finalize).
%% '''
-spec system_flag(atom(), term()) -> term().
system_flag(time_offset, finalize) ->
    case ?CLOCK of
        none ->
            erlang:system_flag(time_offset, finalize);
        Clock ->
            case ertime_nif:finalize(Clock) of
                closed ->
                    _ = ertime_use:lost(),
                    system_flag(time_offset, finalize);
                badarg ->
                    error(badarg, [time_offset, finalize]);
                State ->
                    State
            end
    end;
system_flag(Flag, Value) ->
    erlang:system_flag(Flag, Value).

%% @doc As `erlang:system_info/1'. Of the clock are `time_offset', `time_warp_mode', `time_correction', `start_time',
%% `end_time', `os_monotonic_time_source' and `os_system_time_source'.
%%
%% ```
%% Clock = ertime:open(#{mode => multi_time_warp, correction => false}),
%% ertime:use(Clock),
%% multi_time_warp = ertime:system_info(time_warp_mode),
%% volatile = ertime:system_info(time_offset),
%% false = ertime:system_info(time_correction).
%% '''
-spec system_info(term()) -> term().
system_info(Item) when
    Item =:= time_offset; Item =:= time_warp_mode; Item =:= time_correction; Item =:= start_time; Item =:= end_time;
    Item =:= os_monotonic_time_source; Item =:= os_system_time_source
->
    case ?CLOCK of
        none ->
            erlang:system_info(Item);
        Clock ->
            case asked(Item, Clock) of
                closed ->
                    _ = ertime_use:lost(),
                    system_info(Item);
                Told ->
                    item(Item, Told)
            end
    end;
system_info(Item) ->
    erlang:system_info(Item).

%% The one call of the NIF that knows the item.
asked(time_offset, Clock) -> ertime_nif:time_offset(Clock);
asked(os_monotonic_time_source, Clock) -> ertime_nif:os_time(Clock);
asked(os_system_time_source, Clock) -> ertime_nif:os_time(Clock);
asked(_, Clock) -> ertime_nif:settings(Clock).

item(time_offset, {_, State}) -> State;
item(time_warp_mode, {Mode, _, _, _, _}) -> mode_of(Mode);
item(time_correction, {_, Correction, _, _, _}) -> Correction =:= 1;
item(start_time, {_, _, Start, _, _}) -> Start;
item(end_time, {_, _, Start, _, _}) -> Start + 8796093022207 * 1000000;
item(os_monotonic_time_source, {Mono, _}) -> source(Mono);
item(os_system_time_source, {_, System}) -> source(System).

source(Time) ->
    [{function, ertime}, {resolution, 1000000000}, {extended, no}, {parallel, yes}, {time, Time}].

%% @private
mode_of(0) -> no_time_warp;
mode_of(1) -> single_time_warp;
mode_of(2) -> multi_time_warp.
