%% Faults of time by seed: each wrong version is found, and made small; each right version passes all seeds.
-module(time_faults_tests).

-include_lib("eunit/include/eunit.hrl").

-define(HOUR, 3600000).
-define(MINUTE, 60000).

%% The environment may ask for more, and for processes that keep schedulers busy beside: EXAMPLE_SEEDS=2000 EXAMPLE_BUSY=4.
asked(Name, Default) ->
    list_to_integer(os:getenv(Name, Default)).

faults_test_() ->
    {setup, fun set_up/0, fun(Busy) -> [exit(Pid, kill) || Pid <- Busy] end, [
        {inparallel, [{Name, {timeout, 36000, fun() -> passes(Faults, Test(Right)) end}} || {Name, Faults, Right, _, Test} <- tests()]},
        [{Name, {timeout, 20, fun() -> found(Faults, Test(Wrong)) end}} || {Name, Faults, _, Wrong, Test} <- tests()]
    ]}.

set_up() ->
    ok = ertime:transform(otp),
    [spawn(fun() -> ertime:use(real), burn() end) || _ <- lists:seq(1, asked("EXAMPLE_BUSY", "0"))].

burn() ->
    lists:seq(1, 1000),
    burn().

%% Its name, the faults, the right version, the wrong one, and the test.
tests() ->
    [
        {"a lease", [silent], monotonic, system, fun lease/1},
        {"a retry for so long", [{stall, 5000}, {pause, 5000}, late], looks, sums, fun budget/1},
        {"a limit of calls", [silent], monotonic, os, fun limiter/1},
        {"a cache", [silent], monotonic, system, fun cache/1},
        {"a timeout and its event", [silent, late], tolerant, strict, fun connection/1}
    ].

%% However long that takes beside them.
passes(Faults, Test) ->
    ok = ertime:seeds(asked("EXAMPLE_SEEDS", "50"), #{faults => Faults, limit => infinity}, Test).

%% Within 200 seeds, and made to one fault or two with which it fails again.
found(Faults, Test) ->
    {failed, #{seed := Seed, schedule := Schedule}} = ertime_seeds:check(200, #{faults => Faults, deterministic => true}, Test),
    ?assert(is_integer(Seed)),
    ?assert(lists:member(length(Schedule), [1, 2])),
    Again = fun() -> ertime:test(#{advance => auto, mode => multi_time_warp, deterministic => true, schedule => Schedule}, Test) end,
    ?assertEqual(raised, try Again() of _ -> returned catch _:_ -> raised end).

%% It is held for an hour, whatever the system clock does.
lease(Clock) ->
    fun(_) ->
        {ok, Lease} = lease:start_link(Clock, ?HOUR),
        timer:sleep(?HOUR - 1),
        ?assert(lease:is_held(Lease)),
        timer:sleep(1),
        ?assertNot(lease:is_held(Lease))
    end.

%% No call after a minute.
budget(How) ->
    fun(_) ->
        Ends = erlang:monotonic_time(millisecond) + ?MINUTE,
        Test = self(),
        Try = fun() ->
            ?assert(erlang:monotonic_time(millisecond) < Ends),
            error
        end,
        spawn_link(fun() -> Test ! {done, budget:run(How, Try, ?MINUTE)} end),
        ?assertEqual(timeout, receive {done, Answer} -> Answer end)
    end.

%% A call each second for some minutes: the first ten of each minute pass.
limiter(Clock) ->
    fun(_) ->
        {ok, Limiter} = limiter:start_link(Clock, 10, ?MINUTE),
        Passed = [begin timer:sleep(1000), limiter:passes(Limiter) end || _ <- lists:seq(1, 200)],
        ?assertEqual([Second =< 10 orelse (Second >= 60 andalso Second rem 60 < 10) || Second <- lists:seq(1, 200)], Passed)
    end.

%% A value is there for a minute, and no longer.
cache(Clock) ->
    fun(_) ->
        {ok, Cache} = cache:start_link(Clock, ?MINUTE),
        ok = cache:put(Cache, key, value),
        timer:sleep(?MINUTE - 1),
        ?assertEqual({ok, value}, cache:get(Cache, key)),
        timer:sleep(1),
        ?assertEqual(none, cache:get(Cache, key))
    end.

%% The answer comes just before the connection gives up: unless it is late.
connection(How) ->
    fun(_) ->
        Peer = spawn_link(fun() ->
            receive {connect, From} -> ok end,
            timer:sleep(4990),
            From ! connected
        end),
        {ok, Connection} = connection:start_link(How, Peer),
        timer:sleep(10000),
        ?assert(lists:member(connection:state(Connection), [connected, given_up]))
    end.
