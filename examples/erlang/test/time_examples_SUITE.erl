%% A clock for each test case, by the hook of Common Test.
-module(time_examples_SUITE).

-include_lib("common_test/include/ct.hrl").
-include_lib("stdlib/include/assert.hrl").

-export([suite/0, all/0, lease_ends/1, time_of_another_case/1, by_itself/1, init_per_testcase/2, end_per_testcase/2]).

suite() -> [{ct_hooks, [{ertime_cth, #{start => 0}}]}].

all() -> [lease_ends, time_of_another_case, by_itself].

init_per_testcase(_, Config) ->
    {ok, Lease} = lease:start_link(monotonic, 3600000),
    [{lease, Lease} | Config].

end_per_testcase(_, Config) ->
    %% The clock is there until the end.
    true = is_map(ertime:info(?config(clock, Config))).

lease_ends(Config) ->
    Clock = ?config(clock, Config),
    ?assert(lease:is_held(?config(lease, Config))),
    ertime:advance(Clock, 3600000),
    ?assertNot(lease:is_held(?config(lease, Config))).

time_of_another_case(Config) ->
    ?assertEqual(0, erlang:monotonic_time()),
    ?assert(lease:is_held(?config(lease, Config))).

%% The time goes on by itself.
by_itself(Config) ->
    ok = ertime:advance(?config(clock, Config), auto),
    timer:sleep(3600000),
    ?assertNot(lease:is_held(?config(lease, Config))).
