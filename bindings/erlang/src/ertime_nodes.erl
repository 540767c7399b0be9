%% @doc A clock on each of several Erlang nodes, moved together by one process.
%%
%% The nodes are connected by Erlang's distribution and have the code of ertime, as those that OTP's `peer' starts. Each gets a
%% clock of its own, with an OS clock and a drift of its own, which all its processes see ({@link ertime:use_everywhere/1}). The
%% OS monotonic clocks of all nodes run at one rate; their OS system clocks tell different times, leap and drift.
%%
%% A node may end, as by `peer:stop/1', be killed, or be cut off from this one: the time of the others goes on without it
%% ({@link up/1}), and it comes back with a clock of its own by {@link add/2}.
%%
%% ```
%% Nodes = ertime_nodes:open([{node(), #{os_time => {1767225600, second}}}]),
%% 0 = ertime_nodes:advance(Nodes, 1000),
%% ok = ertime_nodes:warp(Nodes, node(), 3600000),
%% ok = ertime_nodes:close(Nodes).
%% '''
-module(ertime_nodes).

-export([open/1, add/2, up/1, advance/2, warp/3, drift/3, info/2, close/1, seeds/4, test/3]).
%% For the package itself.
-export([open_here/1, send_here/0, run_here/1, free_run_here/0, armed_here/0, warp_here/1, drift_here/1, info_here/0, close_here/0, rest_here/0]).

-export_type([nodes/0]).

-include("ertime.hrl").

-opaque nodes() :: [node()].

-define(ROUNDS, 1000).

%% @doc Opens a clock on each node, with the options of {@link ertime:open/1}, and with a `schedule' of faults ({@link ertime_faults})
%% of its own, which may hold neither a stall nor a cost: the OS monotonic clocks go together.
-spec open([node() | {node(), ertime:options()}]) -> nodes().
open(Specifications) ->
    lists:foldl(fun(Specification, Nodes) -> add(Nodes, Specification) end, [], Specifications).

%% @doc Opens a clock on one more node, or on one that has ended and was started again.
-spec add(nodes(), node() | {node(), ertime:options()}) -> nodes().
add(Nodes, Specification) ->
    {Node, Options} =
        case Specification of
            {_, _} -> Specification;
            _ -> {Specification, #{}}
        end,
    ok = on(Node, open_here, [Options]),
    (Nodes -- [Node]) ++ [Node].

%% @doc The nodes that have their clock still: those that have neither ended nor are cut off from this one, and whose clock wasn't
%% closed.
-spec up(nodes()) -> [node()].
up(Nodes) ->
    [Node || {Node, _} <- on_all(Nodes, armed_here, [])].

%% @doc Lets the time pass on all nodes, from one deadline to the next, whichever node has it, and answers how many messages of
%% timers were sent. After each it waits until the processes on all nodes rest, and what they sent to one another has come. With
%% `until_idle' it goes on until no timer is armed on any of them.
%%
%% A node that has ended has no part in it, also where it ends meanwhile.
-spec advance(nodes(), ertime:duration() | until_idle) -> non_neg_integer().
advance(Nodes, until_idle) ->
    settle(Nodes),
    until_idle(Nodes, 0);
advance(Nodes, Duration) ->
    Left = ertime_times:nanoseconds(Duration, millisecond, [Nodes, Duration]),
    Left >= 0 orelse ?BADARG([Nodes, Duration], 2, "the time doesn't go back: warp/3 lets the OS system clock of a node leap"),
    settle(Nodes),
    steps(Nodes, Left, 0).

%% The clocks of all nodes move before the first message is sent, so that none comes to a node whose clock is behind.
steps(Nodes, 0, Sent) ->
    Sent + send(Nodes);
steps(Nodes, Left, Sent) ->
    More = send(Nodes),
    steps(Nodes, Left - step(Nodes, Left), Sent + More).

%% To the next deadline, but at most so far.
step(Nodes, Most) ->
    Step = lists:min([Most | values(on_all(Nodes, free_run_here, []))]),
    _ = on_all(Nodes, run_here, [Step]),
    Step.

until_idle(Nodes, Sent0) ->
    Sent = Sent0 + send(Nodes),
    case lists:sum(values(on_all(Nodes, armed_here, []))) of
        0 ->
            Sent;
        _ ->
            _ = step(Nodes, infinity),
            until_idle(Nodes, Sent)
    end.

%% Sends what is due, again and again, since the messages of one node may make another start a timer of 0.
send(Nodes) ->
    case lists:sum(values(on_all(Nodes, send_here, []))) of
        0 ->
            0;
        Sent ->
            settle(Nodes),
            Sent + send(Nodes)
    end.

%% Waits until all nodes rest. What a node has sent to another has come when a later call from the one to the other is answered.
settle(Nodes) ->
    settle(Nodes, on_all(Nodes, rest_here, []), ?ROUNDS).

settle(_, _, 0) ->
    error(not_at_rest);
settle(Nodes, Before, Left) ->
    Others = lists:usort([node() | [Node || {Node, _} <- Before]]),
    _ = [passed(A, B) || A <- Others, B <- Others, A =/= B],
    case on_all(Nodes, rest_here, []) of
        Before -> ok;
        After -> settle(Nodes, After, Left - 1)
    end.

%% Between two nodes of which one has ended, or that are cut off from each other, nothing comes.
passed(A, B) ->
    try
        _ = erpc:call(A, erpc, call, [B, erlang, node, []]),
        ok
    catch
        error:{erpc, noconnection} -> ok;
        error:{exception, {erpc, noconnection}, _} -> ok
    end.

%% @doc Lets the OS system clock of one node leap, as {@link ertime:warp/2} does. It raises `{node_down, Node}' where the node has
%% ended, as do {@link drift/3} and {@link info/2}.
-spec warp(nodes(), node(), ertime:duration()) -> ok.
warp(Nodes, Node, By) ->
    ok = on(Node, warp_here, [By]),
    settle(Nodes).

%% @doc From now on the OS system clock of one node drifts, as {@link ertime:drift/2} does it.
-spec drift(nodes(), node(), number()) -> ok.
drift(_, Node, PartsPerMillion) ->
    on(Node, drift_here, [PartsPerMillion]).

%% @doc What {@link ertime:info/1} tells of the clock of one node.
-spec info(nodes(), node()) -> map().
info(_, Node) ->
    on(Node, info_here, []).

%% @doc Closes the clocks of all nodes that have one still.
-spec close(nodes()) -> ok.
close(Nodes) ->
    _ = on_all(Nodes, close_here, []),
    ok.

%% @doc Runs a test of nodes under the clocks of many seeds: as {@link ertime:seeds/3}, where each fault is one of a node. The test is
%% a function of the nodes, which have their clocks, and lets their time pass by {@link advance/2}. What it has started on them ends
%% with it.
%%
%% `skew', a leap of one node's OS system clock at the beginning, is a kind of fault here; `stall' and `cost' are none, and of the
%% options of a test there are those of {@link open/1} and `limit', in real milliseconds.
-spec seeds(
    [node() | {node(), ertime:options()}], pos_integer() | {integer(), integer()} | [integer()], map(), fun((nodes()) -> term())
) -> ok.
seeds(Specifications, Seeds, Options, Fun) ->
    ertime_nodes_seeds:run(Specifications, Seeds, Options, Fun).

%% @doc Runs a test of nodes once, with the option `schedule', a list of `{Milliseconds, {on, Node, Fault}}', as seeds that fail tell it.
-spec test([node() | {node(), ertime:options()}], map(), fun((nodes()) -> Result)) -> Result.
test(Specifications, Options, Fun) ->
    ertime_nodes_seeds:test(Specifications, Options, Fun).

%% --- calls of nodes -----------------------------------------------------------------------------------------------

on(Node, Name, Arguments) ->
    try
        erpc:call(Node, ?MODULE, Name, Arguments)
    catch
        error:{erpc, noconnection} -> error({node_down, Node});
        error:{exception, no_clock, _} -> error({node_down, Node})
    end.

%% What each answers that has its clock still.
on_all(Nodes, Name, Arguments) ->
    lists:append([answer(Node, Answer) || {Node, Answer} <- lists:zip(Nodes, erpc:multicall(Nodes, ?MODULE, Name, Arguments))]).

answer(Node, {ok, Value}) -> [{Node, Value}];
answer(_, {error, {erpc, noconnection}}) -> [];
answer(_, {error, {exception, no_clock, _}}) -> [];
answer(_, {error, {exception, closed, _}}) -> [];
answer(Node, {Class, Reason}) -> error({Node, Class, Reason}).

values(Answers) ->
    [Value || {_, Value} <- Answers].

%% --- on a node ----------------------------------------------------------------------------------------------------

%% @private
open_here(Options) ->
    ertime:use_everywhere(
        case maps:take(schedule, Options) of
            error -> ertime:open(Options);
            {Schedule, Others} -> ertime_nodes_seeds:open_here(Schedule, Others)
        end
    ).

%% @private
send_here() ->
    ertime:advance(clock(), 0).

%% @private
run_here(Nanoseconds) ->
    case ertime_nif:run(clock(), Nanoseconds) of
        ok -> ok;
        Reason -> error(Reason, [Nanoseconds])
    end.

%% @private
free_run_here() ->
    Clock = clock(),
    case ertime_nif:free_run(Clock) of
        Nanoseconds when is_integer(Nanoseconds) -> min(Nanoseconds, ertime_drive:until_next(Clock));
        Reason -> error(Reason)
    end.

%% @private
armed_here() ->
    length(ertime_nif:timers(clock())).

%% @private
warp_here(By) ->
    ertime:warp(clock(), By).

%% @private
drift_here(PartsPerMillion) ->
    ertime:drift(clock(), PartsPerMillion).

%% @private
info_here() ->
    ertime:info(clock()).

%% @private
close_here() ->
    Clock = clock(),
    ok = ertime_drive:stop_of(Clock),
    ertime:close(Clock).

%% @private How much the processes that have called the clock have done, once they rest.
rest_here() ->
    Clock = clock(),
    ertime:rest(Clock),
    lists:sort([{Pid, Count} || Pid <- ertime_nif:members(Clock), Pid =/= self(), {reductions, Count} <- [process_info(Pid, reductions)]]).

clock() ->
    case ertime_use:everywhere() of
        none -> error(no_clock);
        Clock -> Clock
    end.
