%% @private
%% Makes a schedule that fails smaller, as long as it still fails: to the fewest faults, and then to numbers that a person would
%% write, each the smallest of its kind that is no greater than what it was.
-module(ertime_shrink).

-export([least/3]).

-define(UNITS, [86400000, 3600000, 60000, 10000, 1000, 100, 10]).
-define(DIGITS, 3).
-define(ROUNDS, 3).

-record(tries, {fails, left, until, done = 0}).

%% A schedule, whether one fails, and how often and for how many real milliseconds this may be tried. Answers the smallest one
%% that was found, and how many were tried.
-spec least(ertime_faults:schedule(), fun((ertime_faults:schedule()) -> boolean()), {pos_integer(), pos_integer()}) ->
    {ertime_faults:schedule(), non_neg_integer()}.
least(Schedule, Fails, {Most, Milliseconds}) ->
    Tries0 = #tries{fails = Fails, left = Most, until = now_ms() + Milliseconds},
    {Fewest, Tries1} = fewest(Schedule, Tries0),
    {Least, #tries{done = Done}} = smallest(Fewest, ?ROUNDS, Tries1),
    {Least, Done}.

now_ms() ->
    erlang:monotonic_time(millisecond).

try_it(Schedule, Tries = #tries{fails = Fails, left = Left, until = Until, done = Done}) ->
    case Left > 0 andalso now_ms() < Until of
        true -> {Fails(lists:keysort(1, Schedule)), Tries#tries{left = Left - 1, done = Done + 1}};
        false -> {false, Tries}
    end.

%% The first of these that fails.
first([], Tries) ->
    {none, Tries};
first([Schedule | Schedules], Tries0) ->
    case try_it(Schedule, Tries0) of
        {true, Tries} -> {Schedule, Tries};
        {false, Tries} -> first(Schedules, Tries)
    end.

%% --- the fewest faults --------------------------------------------------------------------------------------------

%% None, one or two of them; else as many as are left when none can be left out.
fewest(Schedule, Tries0) ->
    Ones = [[A] || A <- Schedule, length(Schedule) > 1],
    Twos = [[A, B] || A <- Schedule, B <- after_it(A, Schedule), length(Schedule) > 2],
    case first([[]] ++ Ones ++ Twos, Tries0) of
        {none, Tries} -> without(Schedule, Tries);
        Found -> Found
    end.

after_it(It, Schedule) ->
    tl(lists:dropwhile(fun(Other) -> Other =/= It end, Schedule)).

without(Schedule, Tries0) ->
    case first([lists:delete(It, Schedule) || It <- Schedule, length(Schedule) > 3], Tries0) of
        {none, Tries} -> {Schedule, Tries};
        {Fewer, Tries} -> without(Fewer, Tries)
    end.

%% --- the smallest numbers -----------------------------------------------------------------------------------------

smallest(Schedule, 0, Tries) ->
    {Schedule, Tries};
smallest(Schedule0, Rounds, Tries0) ->
    case lists:foldl(fun each/2, {Schedule0, Tries0}, lists:seq(1, length(Schedule0))) of
        {Schedule0, Tries} -> {Schedule0, Tries};
        {Schedule, Tries} -> smallest(Schedule, Rounds - 1, Tries)
    end.

each(Index, {Schedule, Tries0}) ->
    {Before, [{At0, Fault0} | After]} = lists:split(Index - 1, Schedule),
    {Fault, Tries1} = smaller(Fault0, fun(It) -> Before ++ [{At0, It} | After] end, Tries0),
    {At, Tries} = rounder(At0, fun(It) -> Before ++ [{It, Fault} | After] end, Tries1),
    {Before ++ [{At, Fault} | After], Tries}.

smaller({on, Node, Fault}, In, Tries0) ->
    {Smaller, Tries} = smaller(Fault, fun(It) -> In({on, Node, It}) end, Tries0),
    {{on, Node, Smaller}, Tries};
smaller({order, Seed}, In, Tries) ->
    seed(lists:seq(1, min(9, Seed - 1)), Seed, In, Tries);
smaller({Name, Number}, In, Tries) when is_integer(Number), Number < 0 ->
    {Least, After} = number(-Number, fun(It) -> In({Name, -It}) end, Tries),
    {{Name, -Least}, After};
smaller({Name, Number}, In, Tries) when is_integer(Number) ->
    {Least, After} = number(Number, fun(It) -> In({Name, It}) end, Tries),
    {{Name, Least}, After};
smaller({Name, Who, Number}, In, Tries) ->
    {Least, After} = number(Number, fun(It) -> In({Name, Who, It}) end, Tries),
    {{Name, Who, Least}, After};
smaller(Fault, _, Tries) ->
    {Fault, Tries}.

seed([], Seed, _, Tries) ->
    {{order, Seed}, Tries};
seed([Other | Others], Seed, In, Tries0) ->
    case try_it(In({order, Other}), Tries0) of
        {true, Tries} -> {{order, Other}, Tries};
        {false, Tries} -> seed(Others, Seed, In, Tries)
    end.

%% The smallest multiple that fails, of a unit of time or of a power of ten that gives it as few digits as there can be.
number(Number, In, Tries) ->
    in_units([Unit || Unit <- [3600000, 60000], Number >= Unit] ++ powers(Number), Number, In, Tries).

in_units([], Number, _, Tries) ->
    {Number, Tries};
in_units([Unit | Units], Number, In, Tries0) ->
    Most = Number div Unit,
    case Most * Unit =:= Number orelse try_it(In(Most * Unit), Tries0) of
        true -> found(Unit, Units, Number, search(1, Most, Unit, In, Tries0), In);
        {true, Tries} -> found(Unit, Units, Number, search(1, Most, Unit, In, Tries), In);
        {false, Tries} -> in_units(Units, Number, In, Tries)
    end.

%% One unit may be more than it takes.
found(Unit, Units, _, {1, Tries}, In) when Units =/= [] -> in_units(powers(Unit - 1), Unit, In, Tries);
found(Unit, _, _, {Times, Tries}, _) -> {Times * Unit, Tries}.

powers(Number) when Number < 1 ->
    [];
powers(Number) ->
    Highest = length(integer_to_list(Number)) - 1,
    [power(Exponent) || Exponent <- lists:seq(Highest, max(0, Highest - ?DIGITS + 1), -1)].

power(0) -> 1;
power(Exponent) -> 10 * power(Exponent - 1).

%% The least number of units that fails, where `Most' do and with more of them it is no less likely.
search(Most, Most, _, _, Tries) ->
    {Most, Tries};
search(Least, Most, Unit, In, Tries0) ->
    Middle = (Least + Most) div 2,
    case try_it(In(Middle * Unit), Tries0) of
        {true, Tries} -> search(Least, Middle, Unit, In, Tries);
        {false, Tries} -> search(Middle + 1, Most, Unit, In, Tries)
    end.

%% A time: the start, or the nearest of the largest unit that fails.
rounder(0, _, Tries) ->
    {0, Tries};
rounder(At, In, Tries0) ->
    Times = [0] ++ lists:append([[At div Unit * Unit, (At div Unit + 1) * Unit] || Unit <- ?UNITS, Unit =< At]),
    rounder_of(lists:takewhile(fun(Time) -> Time =/= At end, Times), At, In, Tries0).

rounder_of([], At, _, Tries) ->
    {At, Tries};
rounder_of([Time | Times], At, In, Tries0) ->
    case try_it(In(Time), Tries0) of
        {true, Tries} -> {Time, Tries};
        {false, Tries} -> rounder_of(Times, At, In, Tries)
    end.
