%% @private
%% Tests of several nodes under the clocks of many seeds. Each node has the faults of its own clock; what a test has started on the
%% nodes ends before the next one begins.
-module(ertime_nodes_seeds).

-export([run/4, check/4, test/3, open_here/2]).
%% For the package itself.
-export([clear_here/1]).

-define(LIMIT, 60000).

run(Specifications, Seeds, Options, Fun) ->
    case check(Specifications, Seeds, Options, Fun) of
        {passed, _} -> ok;
        {failed, Report} -> ertime_seeds:raise(Report)
    end.

-spec check([node() | {node(), map()}], term(), map(), fun((ertime_nodes:nodes()) -> term())) ->
    {passed, non_neg_integer()} | {failed, ertime_seeds:report()}.
check(Specifications, Seeds, Options, Fun) ->
    Nodes = [node_of(Specification) || Specification <- Specifications],
    Run = fun(Under) -> outcome(Specifications, Under, Fun) end,
    case ertime_seeds:explore(Seeds, (maps:merge(#{mode => multi_time_warp}, Options))#{nodes => Nodes}, Run, infinity) of
        {passed, Passed, _} -> {passed, Passed};
        Failed -> Failed
    end.

test(Specifications, Options, Fun) ->
    case outcome(Specifications, maps:merge(#{mode => multi_time_warp}, Options), Fun) of
        {returned, Result, _} -> Result;
        {raised, Class, Reason, Stack, _} -> erlang:raise(Class, Reason, Stack)
    end.

node_of({Node, _}) -> Node;
node_of(Node) -> Node.

options_of({_, Options}) -> Options;
options_of(_) -> #{}.

%% Those of the node go before those of all.
specified(Specification, Under = #{schedule := Schedule}) ->
    Node = node_of(Specification),
    Own = maps:merge(maps:with([mode, correction, start, os_time, slots, drift], Under), options_of(Specification)),
    {Node, Own#{schedule => [{At, Fault} || {At, {on, On, Fault}} <- Schedule, On =:= Node]}}.

outcome(Specifications, Under = #{schedule := Schedule}, Fun) ->
    is_list(Schedule) andalso lists:all(fun({_, {on, _, _}}) -> true; (_) -> false end, Schedule) orelse
        ertime_faults:refuse("schedule: of several nodes it is a list of {Milliseconds, {on, Node, Fault}}", [Schedule]),
    Nodes = ertime_nodes:open([specified(Specification, Under) || Specification <- Specifications]),
    Marks = [{Node, erpc:call(Node, erlang, processes, [])} || Node <- ertime_nodes:up(Nodes)],
    {Pid, Monitor} = spawn_monitor(fun() ->
        erlang:put('$ertime', none),
        _ = [group_leader(Output, self()) || #{output := Output} <- [Under], is_pid(Output)],
        exit({shutdown, {?MODULE, ran(Nodes, Fun)}})
    end),
    Outcome = ended(Pid, Monitor, maps:get(limit, Under, ?LIMIT)),
    _ = [erpc:call(Node, ?MODULE, clear_here, [Before]) || {Node, Before} <- Marks, lists:member(Node, [node() | nodes()])],
    case Outcome of
        {returned, Result} -> {returned, Result, {Schedule, []}};
        {raised, Class, Reason, Stack} -> {raised, Class, Reason, Stack, {Schedule, []}}
    end.

ran(Nodes, Fun) ->
    try
        {returned, Fun(Nodes)}
    catch
        Class:Reason:Stack -> {raised, Class, Reason, Stack}
    end.

ended(Pid, Monitor, Limit) ->
    receive
        {'DOWN', Monitor, process, Pid, {shutdown, {?MODULE, Outcome}}} -> Outcome;
        {'DOWN', Monitor, process, Pid, Reason} -> {raised, exit, Reason, []}
    after Limit ->
        Where = ertime_rest:describe(Pid),
        exit(Pid, kill),
        receive {'DOWN', Monitor, process, Pid, _} -> ok end,
        {raised, error, {real_time_limit, Limit, [Where]}, []}
    end.

%% --- on a node ----------------------------------------------------------------------------------------------------

%% A clock with faults, for {@link ertime_nodes:open/1}. It lasts until it is closed.
open_here(Schedule, Options) ->
    Checked = ertime_faults:check(Schedule, Options#{nodes => true}, [Schedule]),
    Clock = ertime_clock:open_for(Checked, Options),
    Keeper = whereis(ertime_keeper),
    _ = ertime_drive:start(Clock, Keeper, Keeper, #{schedule => Checked, always => none, record => false, tell => fun(_) -> ok end}),
    Clock.

%% Ends the processes that have come since the clock was opened and use the clock, or were started from another node, and closes the clock.
%% @private
clear_here(Before) ->
    Clock = ertime_use:everywhere(),
    Members = case Clock of none -> []; _ -> ertime_nif:members(Clock) end,
    Clock =:= none orelse begin ok = ertime_drive:stop_of(Clock), ertime:close(Clock), ertime:use_everywhere(none) end,
    Left = [Pid || Pid <- processes() -- Before, Pid =/= self(), lists:member(Pid, Members) orelse is_from_elsewhere(Pid)],
    Monitors = [{Pid, erlang:monitor(process, Pid)} || Pid <- Left],
    _ = [begin exit(Pid, kill), receive {'DOWN', Monitor, process, Pid, _} -> ok end end || {Pid, Monitor} <- Monitors],
    ok.

is_from_elsewhere(Pid) ->
    case process_info(Pid, group_leader) of
        {group_leader, Leader} -> node(Leader) =/= node();
        undefined -> false
    end.
