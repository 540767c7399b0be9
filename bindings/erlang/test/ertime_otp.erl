%% Runs one of OTP's own test suites by Common Test: in real time, or by a clock that all processes of the node see and that goes
%% on by itself: to the next deadline whenever they rest, and as real time does while they don't, since some cases poll the
%% clock or keep all schedulers busy until a time is over. Each case that failed or was skipped is told in a line, and at the end how many there were and how long it took.
%% `.ci/otp_suites' compiles the suites and runs it:
%%
%%     erl -noshell -run ertime_otp main real|auto FOLDER SUITE
-module(ertime_otp).

-export([main/1]).
%% A hook of Common Test.
-export([init/2, on_tc_fail/4, on_tc_skip/4]).

-define(MOST_SLOTS, 262144).

main([Time, Folder, Name]) ->
    Suite = list_to_atom(Name),
    _ = [ok = by_itself() || Time =:= "auto"],
    Began = erlang:monotonic_time(millisecond),
    Logs = filename:join(Folder, "logs_" ++ Time),
    ok = filelib:ensure_dir(filename:join(Logs, "x")),
    Result = ct:run_test([
        {dir, Folder}, {suite, Suite}, {logdir, Logs}, {auto_compile, false}, {ct_hooks, [?MODULE]}, {verbosity, 0}, {basic_html, true}
    ]),
    Took = erlang:monotonic_time(millisecond) - Began,
    case Result of
        {Passed, Failed, {Skipped, Missed}} ->
            tell("cases ~w passed ~w failed ~w skipped ~w seconds ~.1f", [Passed + Failed + Skipped + Missed, Passed, Failed, Skipped + Missed, Took / 1000]);
        Other ->
            tell("broken ~0p", [Other])
    end,
    halt(0, [{flush, false}]).

%% Where all rest, and wait for something that isn't of the clock, that is no deadlock here.
by_itself() ->
    Clock = ertime:open(#{slots => ?MOST_SLOTS, mode => erlang:system_info(time_warp_mode), correction => erlang:system_info(time_correction)}),
    ok = ertime:transform(otp),
    ok = ertime:use_everywhere(Clock),
    _ = spawn(fun() -> ertime:use(real), mover(Clock) end),
    ok.

mover(Clock) ->
    Self = self(),
    ertime_watch:start(Clock, Self, #{
        advance => auto, limit => infinity, pace => 100, tell => fun(_) -> Self ! again end, gone => fun() -> ok end
    }),
    receive again -> mover(Clock) end.

tell(Format, Arguments) ->
    file:write_file(os:getenv("ERTIME_TOLD"), io_lib:format(Format ++ "~n", Arguments), [append]).

init(_, _) ->
    {ok, none}.

on_tc_fail(_, Case, Reason, State) ->
    tell("failed ~0p ~0P", [name(Case), Reason, 30]),
    State.

on_tc_skip(_, Case, _, State) ->
    tell("skipped ~0p", [name(Case)]),
    State.

name({Case, _}) -> Case;
name(Case) -> Case.
