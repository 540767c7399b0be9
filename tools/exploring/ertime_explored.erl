%% Runs EUnit tests of a project, as they are, in real time or by clocks that go on by themselves. `tools/explore' compiles the
%% project, and runs it:
%%
%%     erl -noshell -run ertime_explored main real MODULE..
%%     erl -noshell -run ertime_explored main clock MODULE..
%%     erl -noshell -run ertime_explored main schedule SCHEDULE MODULE..
%%     erl -noshell -run ertime_explored main FAULTS FIRST LAST MODULE..
%%
%% By a clock all processes of the node see it. Where they don't rest for as many milliseconds as the environment variable EXPLORED_PACE
%% says, it goes on by as many; without it for five seconds, so that a busy machine isn't taken for a program that never rests. SCHEDULE is a list of
%% faults, and FAULTS are kinds of `ertime:seeds/3', with a comma between; all tests are run under the clock of each seed. A
%% line for each test that failed has how often it did, and with which seed first; the last line has how many passed and failed in all
%% runs, and the seconds.
-module(ertime_explored).
-behaviour(eunit_listener).

-export([main/1]).
-export([start/1, init/1, handle_begin/3, handle_end/3, handle_cancel/3, terminate/2]).

-define(SLOTS, 65536).
-define(SHOWN, 12).

main(["real" | Names]) ->
    Began = os:perf_counter(millisecond),
    done([{none, run(modules(Names))}], Began);
main(["clock" | Names]) ->
    ready(),
    Began = os:perf_counter(millisecond),
    {Result, _} = under([], modules(Names)),
    done([{none, Result}], Began);
main(["schedule", Text | Names]) ->
    {ok, Tokens, _} = erl_scan:string(Text ++ "."),
    {ok, Schedule} = erl_parse:parse_term(Tokens),
    ready(),
    Began = os:perf_counter(millisecond),
    {Result, _} = under(Schedule, modules(Names)),
    done([{none, Result}], Began);
main([Faults, First, Last | Names]) ->
    ready(),
    Modules = modules(Names),
    %% When timers are due without a fault, so that some faults meet them; for one seed alone nothing is run before.
    {_, Moments} = case First of Last -> {none, []}; _ -> under([], Modules) end,
    Kinds = ertime_faults:kinds([list_to_atom(Kind) || Kind <- string:lexemes(Faults, ",")], #{mode => multi_time_warp}),
    Began = os:perf_counter(millisecond),
    Runs = [
        begin
            {Result, _} = under(ertime_faults:draw(Seed, Kinds, #{over => any, most => 8, moments => Moments}), Modules),
            {Seed, Result}
        end
     || Seed <- lists:seq(list_to_integer(First), list_to_integer(Last))
    ],
    done(Runs, Began).

modules(Names) -> [list_to_atom(Name) || Name <- Names].

%% Modules that were turned as beams are loaded here: a program that changes the path of the code would find the others.
ready() ->
    {ok, _} = application:ensure_all_started(compiler),
    ok = ertime:transform(otp),
    ok = ertime:transform([raw_file_io_delayed]),
    lists:foreach(
        fun(File) -> {module, _} = code:load_abs(filename:rootname(File)) end,
        filelib:wildcard(filename:join(os:getenv("EXPLORED_TURNED", "none"), "*.beam"))
    ).

done(Runs, Began) ->
    Seconds = (os:perf_counter(millisecond) - Began) / 1000,
    %% A program may have left a line without an end.
    io:nl(),
    Failed = lists:append([[{Test, Seed, Why} || {Test, Why} <- Of] || {Seed, {_, Of}} <- Runs]),
    lists:foreach(
        fun(Test) ->
            [{_, Seed, Why} | _] = All = [It || It = {Its, _, _} <- Failed, Its =:= Test],
            io:format("failed ~w ~0p seed ~w: ~0P~n", [length(All), Test, Seed, Why, ?SHOWN])
        end,
        lists:usort([Test || {Test, _, _} <- Failed])
    ),
    io:format("passed ~w failed ~w runs ~w seconds ~.1f~n", [lists:sum([Passed || {_, {Passed, _}} <- Runs]), length(Failed), length(Runs), Seconds]),
    halt(0, [{flush, true}]).

%% By a clock with a schedule: the tests' results, and when timers were due.
under(Schedule, Modules) ->
    Self = self(),
    Clock = ertime_clock:open_for(Schedule, #{slots => ?SLOTS, mode => multi_time_warp, correction => true}),
    Tests = spawn(fun() ->
        receive go -> ok end,
        Self ! {self(), run(Modules)},
        receive stop -> ok end
    end),
    Drive = ertime_drive:start(Clock, Tests, Self, #{schedule => Schedule, always => none, record => true, tell => fun(_) -> ok end}),
    ok = ertime:use_everywhere(Clock),
    Mover = spawn(fun() -> ertime:use(real), mover(Clock, Tests) end),
    Tests ! go,
    Result = receive {Tests, It} -> It end,
    {_, Moments} = ertime_drive:stop(Drive),
    exit(Mover, kill),
    Tests ! stop,
    _ = ertime:close(Clock),
    {Result, Moments}.

%% Where all rest, and wait for something that isn't of the clock, that is no deadlock here.
mover(Clock, Owner) ->
    Self = self(),
    _ = ertime_watch:start(Clock, Owner, #{
        advance => auto, limit => infinity, pace => list_to_integer(os:getenv("EXPLORED_PACE", "5000")), tell => fun(_) -> Self ! again end, gone => fun() -> ok end
    }),
    receive again -> mover(Clock, Owner) end.

run(Modules) ->
    Self = self(),
    _ = eunit:test(Modules, [no_tty, {report, {?MODULE, [{to, Self}]}}]),
    receive {?MODULE, Passed, Failed} -> {Passed, Failed} end.

%% --- a listener of EUnit ---------------------------------------------------------------------------------------------

start(Options) -> eunit_listener:start(?MODULE, Options).

init(Options) -> {proplists:get_value(to, Options), 0, []}.

handle_begin(_, _, State) -> State.

handle_end(test, Data, {To, Passed, Failed}) ->
    case proplists:get_value(status, Data) of
        ok -> {To, Passed + 1, Failed};
        {error, {_, Reason, _}} -> {To, Passed, [{name(Data), Reason} | Failed]};
        Status -> {To, Passed, [{name(Data), Status} | Failed]}
    end;
handle_end(group, _, State) ->
    State.

handle_cancel(_, Data, State = {To, Passed, Failed}) ->
    case {proplists:get_value(reason, Data), name(Data)} of
        {{blame, _}, _} -> State;
        {Reason, Name} -> {To, Passed, [{Name, {cancelled, Reason}} | Failed]}
    end.

name(Data) ->
    case {proplists:get_value(source, Data), proplists:get_value(desc, Data)} of
        {{Module, Name, _}, undefined} -> {Module, Name};
        {{Module, _, _}, Text} -> {Module, Text};
        {_, Text} -> {group, Text}
    end.

terminate(_, {To, Passed, Failed}) -> To ! {?MODULE, Passed, lists:reverse(Failed)}.
