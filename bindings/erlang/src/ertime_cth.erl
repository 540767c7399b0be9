%% @doc A hook of Common Test: each test case has a clock of its own, which it uses and finds in its configuration as `clock'.
%%
%% ```
%% suite() -> [{ct_hooks, [{ertime_cth, #{mode => multi_time_warp}}]}].
%%
%% lease_ends(Config) ->
%%     Clock = ?config(clock, Config),
%%     ertime:advance(Clock, 3600000).
%% '''
%%
%% The options are those of {@link ertime:test/2}; those that `{ertime, Options}' gives in the configuration, as init_per_suite
%% or init_per_group may put it there, go before. The clock is closed when the test case has ended, whatever happens. What it has
%% seen of a test case that fails is printed.
%%
%% Where the environment has `ERTIME_SEED', each test case runs with the faults of time of that seed, or of the first of
%% `ERTIME_SEEDS', of the kinds in `ERTIME_FAULTS' ({@link ertime_faults}).
-module(ertime_cth).

-export([init/2, pre_init_per_testcase/4, post_end_per_testcase/5]).

%% @private
init(_Id, Options) ->
    {ok, to_map(Options)}.

%% @private
pre_init_per_testcase(_Suite, _Case, Config, Options) ->
    Own = proplists:get_value(ertime, Config, #{}),
    {[{clock, ertime_test:set_up(ertime_seeds:first(maps:merge(Options, to_map(Own))))} | Config], Options}.

%% @private
post_end_per_testcase(Suite, Case, Config, Return, Options) ->
    Name = io_lib:format("~ts.~ts", [Suite, Case]),
    _ = [ertime_seen:failed(Clock, Name, Reason, ertime_drive:done(Clock)) || {clock, Clock} <- Config, Reason <- reason(Config, Return)],
    _ = [ertime_test:tear_down(Clock) || {clock, Clock} <- Config],
    _ = ertime:use(undefined),
    {Return, Options}.

%% The status of the test case stands in its configuration.
reason(Config, Return) ->
    case {proplists:get_value(tc_status, Config, ok), Return} of
        {{failed, Reason}, _} -> [Reason];
        {_, {Name, Reason}} when Name =:= 'EXIT'; Name =:= failed; Name =:= error -> [Reason];
        _ -> []
    end.

to_map(Options) when is_map(Options) -> Options;
to_map(Options) -> maps:from_list(Options).
