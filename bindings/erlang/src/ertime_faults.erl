%% @doc Faults of time: what kinds there are, and schedules of them, drawn by a seed or written down.
%%
%% A schedule is a list of `{At, Fault}': milliseconds of OS monotonic time since the clock was opened, and what happens then,
%% after the timers that are due by then; at 0, before the test begins.
%%
%% <dl>
%% <dt>`{leap, Milliseconds}'</dt><dd>the OS system clock leaps, forward or back, and is checked at once</dd>
%% <dt>`{late_check, Milliseconds}'</dt><dd>it leaps, and the runtime notices when it checks next, within a minute</dd>
%% <dt>`{drift, PartsPerMillion}'</dt><dd>from then on it runs so much faster than the OS monotonic clock</dd>
%% <dt>`{freeze, Milliseconds}'</dt><dd>it stands still for so long</dd>
%% <dt>`finalize'</dt><dd>the time offset is finalized; in single time warp mode alone</dd>
%% <dt>`{order, Seed}'</dt><dd>timers that are due at once come in an order that is drawn</dd>
%% <dt>`serial'</dt><dd>timers that are due at once come one by one, each when all processes rest</dd>
%% <dt>`{late, Scheduler, Milliseconds}'</dt><dd>the timers of one of four schedulers don't expire for so long</dd>
%% <dt>`{stall, Milliseconds}'</dt><dd>the whole node stands still for so long</dd>
%% <dt>`{pause, Process, Milliseconds}'</dt><dd>one process does: that of a registered name, or the one of a number, as they
%%     joined the clock, the test's own process left out</dd>
%% <dt>`{cost, Microseconds}'</dt><dd>from then on each reading of the time takes a process so long</dd>
%% </dl>
%%
%% In multi time warp mode with time correction those above `late' are <em>silent</em>: a program that is right has the same
%% timers and monotonic times with them and without. The others are <em>loud</em>.
-module(ertime_faults).

-export([kinds/2, draw/3, check/3, text/1, needs_spread/1]).
%% For the package itself.
-export([refuse/2]).

-export_type([schedule/0, fault/0, kind/0]).

-include("ertime.hrl").

-type milliseconds() :: integer().
-type fault() ::
    {leap, milliseconds()} | {late_check, milliseconds()} | {drift, number()} | {freeze, milliseconds()} | finalize
    | {order, pos_integer()} | serial | {late, pos_integer(), milliseconds()} | {stall, milliseconds()}
    | {pause, atom() | pos_integer(), milliseconds()} | {cost, pos_integer()}.
-type schedule() :: [{milliseconds(), fault()}].
-type kind() :: silent | loud | atom() | {atom(), pos_integer()}.
%% A group, the name of a fault, or that with its greatest number.

-define(LOUD, [late, stall, pause, cost]).
-define(OF_ALL, [stall, cost]). % not of one of several nodes
-define(CLOCKS, [leap, late_check, drift, freeze]).
-define(MOST_TIME, 1000000000000). % milliseconds, some 31 years
-define(SCHEDULERS, 4).

%% The greatest number of a fault, where none is given.
most(leap) -> 86400000;
most(late_check) -> 86400000;
most(drift) -> 1000;
most(freeze) -> 60000;
most(skew) -> 3600000;
most(late) -> 1000;
most(stall) -> 20000;
most(pause) -> 20000;
most(cost) -> 1000;
most(_) -> none.

%% --- which faults -------------------------------------------------------------------------------------------------

%% @private The kinds that a clock of these options can have, each with its greatest number: of groups, names and numbers.
-spec kinds([kind()] | kind(), ertime:options()) -> [{atom(), pos_integer() | none}].
kinds(Kinds, Options) when is_list(Kinds) ->
    All = lists:append([kind(Kind, Options) || Kind <- Kinds]),
    All =/= [] orelse refuse("faults: the list is empty", [Kinds]),
    All;
kinds(Kind, Options) ->
    kinds([Kind], Options).

kind(silent, Options) ->
    [{Name, most(Name)} || Name <- [skew || is_map_key(nodes, Options)] ++ silent(mode(Options), maps:get(correction, Options, true))];
kind(loud, Options) ->
    [{Name, most(Name)} || Name <- ?LOUD, not is_map_key(nodes, Options) orelse not lists:member(Name, ?OF_ALL)];
kind({Name, Most}, Options) when is_integer(Most), Most > 0 ->
    case lists:member(Name, [skew | ?CLOCKS ++ ?LOUD]) of
        false -> refuse(io_lib:format("faults: ~0tp is no kind of fault that has a number", [Name]), [{Name, Most}]);
        true -> allowed(Name, Options), [{Name, Most}]
    end;
kind({Name, {Time, Unit}}, Options) when is_atom(Name) ->
    kind({Name, ertime_times:nanoseconds({Time, Unit}, millisecond, [Name]) div 1000000}, Options);
kind(Name, Options) ->
    case lists:member(Name, [skew, finalize, order, serial] ++ ?CLOCKS ++ ?LOUD) of
        true -> allowed(Name, Options), [{Name, most(Name)}];
        false -> refuse(io_lib:format("faults: ~0tp is no kind of fault", [Name]), [Name])
    end.

silent(multi_time_warp, true) -> ?CLOCKS ++ [order, serial];
silent(single_time_warp, _) -> [finalize, order, serial];
silent(_, _) -> [order, serial].

mode(Options) ->
    maps:get(mode, Options, multi_time_warp).

allowed(finalize, Options) ->
    Mode = mode(Options),
    Mode =:= single_time_warp orelse refuse(io_lib:format("faults: there is no finalize in the mode ~0tp", [Mode]), [finalize]);
allowed(skew, Options) ->
    is_map_key(nodes, Options) orelse refuse("faults: there is a skew between several nodes alone", [skew]);
allowed(Fault, Options) ->
    Name = case Fault of {Kind, _} -> Kind; _ -> Fault end,
    is_map_key(nodes, Options) andalso lists:member(Name, ?OF_ALL) andalso
        refuse(io_lib:format("faults: there is no ~w of one node, whose OS monotonic clock goes with the others'", [Name]), [Fault]).

%% @private Whether a list is a schedule for a clock of these options: the same, in order of time.
-spec check(term(), map(), term()) -> schedule().
check(Schedule, Options, Arguments) when is_list(Schedule) ->
    lists:foreach(fun(Entry) -> check_entry(Entry, Options, Arguments) end, Schedule),
    lists:keysort(1, Schedule);
check(Other, _, Arguments) ->
    refuse(io_lib:format("schedule: ~0tp is no list of {Milliseconds, Fault}", [Other]), Arguments).

check_entry({At, Fault}, Options, Arguments) when is_integer(At), At >= 0, At =< ?MOST_TIME ->
    is_fault(Fault) orelse refuse(io_lib:format("schedule: ~0tp is no fault", [Fault]), Arguments),
    allowed(Fault, Options);
check_entry(Entry, _, Arguments) ->
    refuse(io_lib:format("schedule: ~0tp is not {Milliseconds, Fault}, with milliseconds from 0 on", [Entry]), Arguments).

is_fault({Name, By}) when Name =:= leap; Name =:= late_check -> is_integer(By) andalso abs(By) =< ?MOST_TIME;
is_fault({drift, By}) -> is_number(By) andalso abs(By) =< 1000000;
is_fault({Name, Long}) when Name =:= freeze; Name =:= stall -> is_time(Long);
is_fault({order, Seed}) -> is_integer(Seed) andalso Seed > 0 andalso Seed < 1 bsl 32;
is_fault({late, Scheduler, Long}) -> is_integer(Scheduler) andalso Scheduler > 0 andalso Scheduler =< ?SCHEDULERS andalso is_time(Long);
is_fault({pause, Name, Long}) -> (is_atom(Name) orelse (is_integer(Name) andalso Name > 0)) andalso is_time(Long);
is_fault({cost, Microseconds}) -> is_integer(Microseconds) andalso Microseconds > 0 andalso Microseconds =< 1000000;
is_fault(Name) -> Name =:= serial orelse Name =:= finalize.

is_time(Long) ->
    is_integer(Long) andalso Long > 0 andalso Long =< ?MOST_TIME.

%% @private Whether each process has a scheduler for its timers, so that one of these can come late.
needs_spread(Schedule) ->
    lists:any(fun({_, {late, _, _}}) -> true; (_) -> false end, Schedule).

%% --- by a seed ----------------------------------------------------------------------------------------------------

%% @private The schedule of a seed. `Over' is how many milliseconds the faults lie in, or `any'. `Moments' are those in which the
%% test had timers due when it ran without a fault: two of three faults are drawn so that they meet one of these.
-spec draw(integer() | {integer(), integer(), integer()}, [{atom(), pos_integer() | none}], #{
    over := pos_integer() | any, most := pos_integer(), moments := [non_neg_integer()]
}) -> schedule().
draw(Seed, Kinds, #{over := Over, most := Most, moments := Moments}) ->
    Random0 = rand:seed_s(exsss, Seed),
    {Once, Random1} = once([Kind || Kind = {Name, _} <- Kinds, is_once(Name)], Random0),
    {Count, Random2} = rand:uniform_s(Most, Random1),
    When = {over(Over, Moments), list_to_tuple(Moments)},
    {Others, _} = several([Kind || Kind = {Name, _} <- Kinds, not is_once(Name)], Count, When, Random2),
    lists:keysort(1, Once ++ Others).

over(any, []) -> any;
over(any, Moments) -> lists:last(Moments) + 1;
over(Over, _) -> Over.

is_once(Name) ->
    lists:member(Name, [order, serial]).

%% Each half of the time.
once([], Random) ->
    {[], Random};
once([{Name, _} | Kinds], Random0) ->
    {Number, Random1} = rand:uniform_s(2000, Random0),
    {Others, Random2} = once(Kinds, Random1),
    Fault = case Name of order -> {order, Number}; serial -> serial end,
    {[{0, Fault} || Number rem 2 =:= 0] ++ Others, Random2}.

several([], _, _, Random) ->
    {[], Random};
several(Kinds, Count, When, Random) ->
    lists:mapfoldl(
        fun(_, Random0) ->
            {Which, Random1} = rand:uniform_s(length(Kinds), Random0),
            {Name, Most} = lists:nth(Which, Kinds),
            {Fault, Random2} = fault(Name, Most, Random1),
            {At, Random3} = moment(Fault, When, Random2),
            {case Fault of {skew, By} -> {0, {leap, By}}; _ -> {At, Fault} end, Random3}
        end,
        Random,
        lists:seq(1, Count)
    ).

moment(Fault, {Over, Moments}, Random0) ->
    {Meets, Random1} = rand:uniform_s(3, Random0),
    case {Meets, Over} of
        {Part, _} when Part > 1, Moments =/= {} ->
            {Which, Random2} = rand:uniform_s(tuple_size(Moments), Random1),
            {Before, Random3} = rand:uniform_s(before(Fault), Random2),
            {max(0, element(Which, Moments) - Before), Random3};
        {_, any} ->
            of_any_size(36000000, Random1);
        _ ->
            {At, Random2} = rand:uniform_s(Over, Random1),
            {At - 1, Random2}
    end.

%% How long before a moment a fault may begin that meets it.
before({late, _, Long}) -> Long;
before({pause, _, Long}) -> Long;
before({Name, Long}) when Name =:= stall; Name =:= freeze -> Long;
before(_) -> 1000.

fault(finalize, _, Random) ->
    {finalize, Random};
fault(Name, Most, Random0) when Name =:= leap; Name =:= late_check; Name =:= drift; Name =:= skew ->
    {By, Random1} = of_any_size(Most, Random0),
    {Sign, Random2} = rand:uniform_s(2, Random1),
    {{Name, case Sign of 1 -> By; 2 -> -By end}, Random2};
fault(late, Most, Random0) ->
    {Scheduler, Random1} = rand:uniform_s(?SCHEDULERS, Random0),
    {Long, Random2} = of_any_size(Most, Random1),
    {{late, Scheduler, Long}, Random2};
fault(pause, Most, Random0) ->
    {Process, Random1} = rand:uniform_s(1000, Random0),
    {Long, Random2} = of_any_size(Most, Random1),
    {{pause, Process, Long}, Random2};
fault(Name, Most, Random0) ->
    {Number, Random} = of_any_size(Most, Random0),
    {{Name, Number}, Random}.

%% From 1 to the greatest, with each size as likely as any other: half of them evenly, half by their logarithm.
of_any_size(Most, Random0) ->
    {Number, Random1} = rand:uniform_s(Most, Random0),
    {Even, Random2} = rand:uniform_s(2, Random1),
    case Even of
        1 ->
            {Number, Random2};
        2 ->
            {Part, Random3} = rand:uniform_real_s(Random2),
            {max(1, min(Most, round(math:exp(Part * math:log(Most))))), Random3}
    end.

%% --- in words -----------------------------------------------------------------------------------------------------

%% @private A schedule as a clause after `fails if'.
-spec text(schedule()) -> unicode:chardata().
text([]) ->
    "nothing happens to time at all";
text(Schedule) ->
    lists:join(", and ", [text_of(At, Fault) || {At, Fault} <- Schedule]).

text_of(At, {on, Node, Fault}) -> [io_lib:format("on ~ts ", [Node]), text_of(At, Fault)];
text_of(_, {order, Seed}) -> io_lib:format("timers that are due at once come in another order (drawn by ~w)", [Seed]);
text_of(_, serial) -> "timers that are due at once come one by one";
text_of(At, {leap, By}) -> ["the OS system clock leaps ", direction(By), " by ", time(abs(By)), " at ", time(At)];
text_of(At, {late_check, By}) -> ["the OS system clock leaps ", direction(By), " by ", time(abs(By)), " at ", time(At), ", noticed at the next check"];
text_of(At, {drift, By}) -> [io_lib:format("the OS system clock drifts by ~w ppm from ", [By]), time(At), " on"];
text_of(At, {freeze, Long}) -> ["the OS system clock stands still for ", time(Long), " from ", time(At), " on"];
text_of(At, finalize) -> ["the time offset is finalized at ", time(At)];
text_of(At, {late, Scheduler, Long}) -> [io_lib:format("the timers of scheduler ~w come up to ", [Scheduler]), time(Long), " late from ", time(At), " on"];
text_of(At, {stall, Long}) -> ["the whole node stands still for ", time(Long), " from ", time(At), " on"];
text_of(At, {pause, Process, Long}) -> [process(Process), " stands still for ", time(Long), " from ", time(At), " on"];
text_of(At, {cost, Microseconds}) -> [io_lib:format("each reading of the time takes ~w us from ", [Microseconds]), time(At), " on"].

direction(By) when By < 0 -> "back";
direction(_) -> "forward".

process(Number) when is_integer(Number) -> io_lib:format("process ~w of the clock", [Number]);
process(Name) -> io_lib:format("~0tp", [Name]).

%% Milliseconds as a person would say them.
time(0) -> "the start";
time(Time) ->
    Unit = lists:keyfind(true, 1, [{Time rem Size =:= 0, Size, Name} || {Size, Name} <- [{86400000, "d"}, {3600000, "h"}, {60000, "min"}]]),
    case Unit of
        {true, Size, Name} -> io_lib:format("~w ~s", [Time div Size, Name]);
        false when Time < 1000 -> io_lib:format("~w ms", [Time]);
        false -> [io_lib:format("~w", [Time div 1000]), fraction(Time rem 1000), " s"]
    end.

fraction(0) -> "";
fraction(Part) -> [".", string:trim(io_lib:format("~3..0w", [Part]), trailing, "0")].

%% --- what is refused ----------------------------------------------------------------------------------------------

%% @private A `badarg' that says what is wrong, as the shell and Elixir show it.
-spec refuse(unicode:chardata(), term()) -> no_return().
refuse(Text, Argument) ->
    ?BADARG([Argument], 1, lists:flatten(Text)).
