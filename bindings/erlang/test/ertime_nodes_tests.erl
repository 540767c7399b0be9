-module(ertime_nodes_tests).

-include_lib("eunit/include/eunit.hrl").

-define(BEGIN, 1767225600).

%% Without the distribution, or before OTP's peer (Erlang/OTP 25), nothing is tested.
nodes_test_() ->
    {setup, fun distribute/0, fun undo/1, fun tests/1}.

tests(none) ->
    [];
tests(_) ->
    [
        {timeout, 120, fun together/0},
        {timeout, 120, fun node_ends/0},
        {timeout, 120, {"a clock an hour ahead: both write", fun() -> ?assertEqual(2, writers(false)) end}},
        {timeout, 120, {"a fencing number: one writes", fun() -> ?assertEqual(1, writers(true)) end}},
        {timeout, 300, {"by seed", fun by_seed/0}}
    ].

%% Answers what it has started.
distribute() ->
    Epmd =
        case erl_epmd:names() of
            {error, _} -> _ = os:cmd("epmd -daemon"), await_epmd(100), [epmd];
            _ -> []
        end,
    case is_alive() of
        true -> Epmd;
        false ->
            case code:which(peer) =/= non_existing andalso net_kernel:start(['ertime_tests@127.0.0.1', longnames]) of
                {ok, _} -> [node | Epmd];
                _ -> undo(Epmd), none
            end
    end.

await_epmd(0) ->
    ok;
await_epmd(Left) ->
    case erl_epmd:names() of
        {error, _} -> timer:sleep(50), await_epmd(Left - 1);
        _ -> ok
    end.

undo(none) ->
    ok;
undo(Started) ->
    _ = [net_kernel:stop() || node <- Started],
    _ = [os:cmd("epmd -kill") || epmd <- Started],
    ok.

with_nodes(Do) ->
    Paths = lists:append([["-pa", Path] || Path <- code:get_path(), filelib:is_dir(Path)]),
    Arguments = ["-kernel", "prevent_overlapping_partitions", "false" | Paths],
    Peers = [
        begin
            Name = list_to_atom("ertime_" ++ integer_to_list(N) ++ "_" ++ os:getpid()),
            {ok, Peer, Node} = peer:start_link(#{name => Name, host => "127.0.0.1", longnames => true, args => Arguments, wait_boot => 120000}),
            {Peer, Node}
        end
     || N <- [1, 2]
    ],
    try
        Do([Node || {_, Node} <- Peers])
    after
        [peer:stop(Peer) || {Peer, _} <- Peers, is_process_alive(Peer)]
    end.

%% Messages between the nodes come at the time at which they were sent.
together() ->
    with_nodes(fun([A, B]) ->
        Nodes = ertime_nodes:open([{A, #{start => 0}}, {B, #{start => 0, os_time => {?BEGIN + 3600, second}}}]),
        Test = self(),
        Second = erpc:call(B, erlang, spawn, [ertime_nodes_tests_code, relay, [Test, 250]]),
        _ = erpc:call(A, erlang, spawn, [ertime_nodes_tests_code, relay, [Second, 1000]]),
        ?assertEqual(1, ertime_nodes:advance(Nodes, 1100)),
        ?assertEqual(1, ertime_nodes:advance(Nodes, 150)),
        ?assertEqual({relayed, [{A, 1000, ?BEGIN + 1}, {B, 1250, ?BEGIN + 3601}]}, receive Message -> Message after 0 -> none end),
        ok = ertime_nodes:warp(Nodes, A, {60, second}),
        ?assertMatch(#{os_system_time := Time} when Time > (?BEGIN + 61) * 1000000000, ertime_nodes:info(Nodes, A)),
        ok = ertime_nodes:drift(Nodes, A, 100),
        ok = ertime_nodes:close(Nodes)
    end).

%% The time of the other node goes on.
node_ends() ->
    with_nodes(fun([A, B]) ->
        Nodes = ertime_nodes:open([{A, #{start => 0}}, {B, #{start => 0}}]),
        ?assertEqual([A, B], ertime_nodes:up(Nodes)),
        ?assertError(badarg, ertime_nodes:advance(Nodes, forever)),
        Test = self(),
        _ = erpc:call(A, erlang, spawn, [ertime_nodes_tests_code, relay, [Test, 1000]]),
        _ = erpc:call(B, erlang, spawn, [ertime_nodes_tests_code, relay, [Test, 1000]]),
        true = erlang:monitor_node(B, true),
        ok = erpc:cast(B, erlang, halt, []),
        receive {nodedown, B} -> ok end,
        ?assertEqual(0, ertime_nodes:advance(Nodes, 900)),
        ?assertEqual(1, ertime_nodes:advance(Nodes, until_idle)),
        ?assertMatch({relayed, [{A, 1000, _}]}, receive Message -> Message after 0 -> none end),
        ?assertEqual([A], ertime_nodes:up(Nodes)),
        [?assertError({node_down, B}, Do()) || Do <- [
            fun() -> ertime_nodes:warp(Nodes, B, 1000) end, fun() -> ertime_nodes:drift(Nodes, B, 1) end, fun() -> ertime_nodes:info(Nodes, B) end
        ]],
        ok = ertime_nodes:close(Nodes),
        ?assertEqual([], ertime_nodes:up(Nodes)),
        Again = ertime_nodes:add(Nodes, {A, #{start => 0}}),
        ?assertEqual([A], ertime_nodes:up(Again)),
        ?assertEqual(0, ertime_nodes:advance(Again, 1000)),
        ok = ertime_nodes:close(Again)
    end).

%% How many nodes write in the hour after the clock of the one, which is an hour ahead, has come into play.
writers(Fenced) ->
    with_nodes(fun([A, B]) ->
        Store = spawn_link(fun() -> ertime_nodes_lease:store(Fenced) end),
        Mode = multi_time_warp,
        Nodes = ertime_nodes:open([{A, #{mode => Mode}}, {B, #{mode => Mode, os_time => {?BEGIN + 3600, second}}}]),
        _ = erpc:call(A, erlang, spawn, [ertime_nodes_lease, worker, [Store, 1800]]),
        ertime_nodes:advance(Nodes, {15, second}),
        _ = erpc:call(B, erlang, spawn, [ertime_nodes_lease, worker, [Store, 1800]]),
        ertime_nodes:advance(Nodes, {15, second}),
        Before = length(writes(Store)),
        ertime_nodes:advance(Nodes, {60, second}),
        Later = lists:nthtail(Before + 2, writes(Store)),
        %% The clock is set right, and leaps: now its node has to wait for the end of a lease.
        ertime_nodes:warp(Nodes, B, {-3600, second}),
        ertime_nodes:advance(Nodes, {60, second}),
        ?assertMatch(#{timers := [_]}, ertime_nodes:info(Nodes, B)),
        ertime_nodes:close(Nodes),
        length(lists:usort(Later))
    end).

writes(Store) ->
    Store ! {writes, self()},
    receive
        {writes, Writes} -> Writes
    end.

%% A lease by the system clocks of two nodes: within some seeds a node writes with an old lease, and one fault is enough for it; with
%% fencing none does. `ERTIME_NODE_SEEDS' says how many are tried with fencing.
by_seed() ->
    with_nodes(fun(Nodes) ->
        Test = fun(Fenced) ->
            fun([A, B] = Opened) ->
                Store = spawn_link(fun() -> ertime_nodes_lease:store(Fenced) end),
                _ = erpc:call(A, erlang, spawn, [ertime_nodes_lease, worker, [Store, 60]]),
                ertime_nodes:advance(Opened, {5, second}),
                _ = erpc:call(B, erlang, spawn, [ertime_nodes_lease, worker, [Store, 60]]),
                ertime_nodes:advance(Opened, {175, second}),
                Store ! {old, self()},
                ?assertEqual(0, receive {old, Count} -> Count end)
            end
        end,
        Options = #{faults => [skew, leap, drift, freeze], over => {180, second}, most => 4},
        {failed, Report} = ertime_nodes_seeds:check(Nodes, 50, Options, Test(false)),
        #{schedule := [{_, {on, Node, _}}] = Schedule} = Report,
        ?assert(lists:member(Node, Nodes)),
        ?assertError({assertEqual, _}, ertime_nodes:test(Nodes, #{schedule => Schedule}, Test(false))),
        ok = ertime_nodes:seeds(Nodes, list_to_integer(os:getenv("ERTIME_NODE_SEEDS", "10")), Options, Test(true)),
        ?assertError(badarg, ertime_nodes:seeds(Nodes, 1, #{faults => [stall]}, Test(true)))
    end).
