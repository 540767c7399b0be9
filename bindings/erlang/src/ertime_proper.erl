%% @doc Generators of schedules of faults ({@link ertime_faults}) for PropEr, which makes them smaller itself.
%%
%% ```
%% prop_lease() ->
%%     ?FORALL(Schedule, ertime_proper:schedule(#{faults => [silent], over => {3600, second}}),
%%         ertime:test(#{advance => auto, mode => multi_time_warp, schedule => Schedule, seen => false}, fun lease/1)).
%% '''
%%
%% PropEr is called where it is found when a generator is asked for; without it they raise `{not_there, proper}'.
-module(ertime_proper).

-export([schedule/0, schedule/1, kinds/1]).

-define(HOUR, 3600000).

%% @equiv schedule(#{})
-spec schedule() -> term().
schedule() ->
    schedule(#{}).

%% @doc A generator of schedules, with the options `faults' and `over' of {@link ertime:seeds/3}, and `mode' and `correction' of the
%% clock. By default the faults are the silent ones, in the first hour.
-spec schedule(map()) -> term().
schedule(Options) ->
    Types = library(),
    {Kinds, Over} = kinds(Options),
    Types:list(Types:oneof([entry(Types, Kind, Over) || Kind <- Kinds])).

library() ->
    case code:ensure_loaded(proper_types) of
        {module, Types} -> Types;
        {error, _} -> error({not_there, proper})
    end.

%% @private The kinds with their greatest numbers, and the milliseconds in which they lie.
-spec kinds(map()) -> {[{atom(), pos_integer() | none}], pos_integer()}.
kinds(Options) ->
    maps:size(maps:without([faults, over, mode, correction], Options)) =:= 0 orelse
        ertime_faults:refuse("schedule: the options of a generator are faults, over, mode and correction", [Options]),
    Over = ertime_times:nanoseconds(maps:get(over, Options, ?HOUR), millisecond, [Options]) div 1000000,
    Over > 0 orelse ertime_faults:refuse("over: a duration above 0", [Options]),
    {ertime_faults:kinds(maps:get(faults, Options, [silent]), Options), Over}.

entry(Types, {order, _}, _) -> {0, {order, up_to(Types, 1, 1000)}};
entry(_, {serial, _}, _) -> {0, serial};
entry(Types, Kind, Over) -> {up_to(Types, 0, Over), fault(Types, Kind)}.

fault(_, {finalize, _}) -> finalize;
fault(Types, {Name, Most}) when Name =:= leap; Name =:= late_check; Name =:= drift -> {Name, up_to(Types, -Most, Most)};
fault(Types, {late, Most}) -> {late, up_to(Types, 1, 4), up_to(Types, 1, Most)};
fault(Types, {pause, Most}) -> {pause, up_to(Types, 1, 20), up_to(Types, 1, Most)};
fault(Types, {Name, Most}) -> {Name, up_to(Types, 1, Most)}.

%% Without the size PropEr keeps to small numbers.
up_to(Types, Least, Most) ->
    Types:resize(Most, Types:range(Least, Most)).
