%% Ra, the Raft of RabbitMQ: three servers on one node, of which the leader is stopped again and again. What was committed stays.
-module(ra_elections_tests).
-behaviour(ra_machine).

-include_lib("eunit/include/eunit.hrl").

-export([init/1, apply/3]).

-define(NAMES, [one, two, three]).
-define(ROUNDS, 30).
-define(BETWEEN, 60000).
-define(WAIT, 60000).

%% The machine counts.
init(_) -> 0.
apply(_, {add, Number}, Sum) -> {Sum + Number, Sum + Number}.

elections_test_() ->
    {setup, fun set_up/0, fun tear_down/1, fun(_) -> {timeout, 3600, fun elections/0} end}.

set_up() ->
    Folder = filename:join(os:getenv("TMPDIR", "/tmp"), "ra_elections_" ++ os:getpid() ++ "_" ++ integer_to_list(erlang:unique_integer([positive]))),
    logger:set_primary_config(level, none),
    {ok, _} = application:ensure_all_started(ra),
    {ok, _} = ra:start_in(Folder),
    Folder.

tear_down(Folder) ->
    ok = application:stop(ra),
    ok = file:del_dir_r(Folder),
    logger:set_primary_config(level, notice).

elections() ->
    Servers = [{Name, node()} || Name <- ?NAMES],
    {ok, Started, []} = ra:start_cluster(default, counter, {module, ?MODULE, #{}}, Servers),
    3 = length(Started),
    rounds(1, Servers, rounds()).

rounds() ->
    case os:getenv("ROUNDS") of
        false -> ?ROUNDS;
        Number -> list_to_integer(Number)
    end.

rounds(Round, _, Most) when Round > Most -> ok;
rounds(Round, Servers, Most) ->
    {ok, Sum, Leader} = added(Servers, ?WAIT),
    Round = Sum,
    ok = ra:stop_server(Leader),
    %% A new leader has all that was committed.
    {ok, Members, Next} = ra:members(Servers -- [Leader], ?WAIT),
    3 = length(Members),
    true = Next =/= Leader,
    ok = ra:restart_server(Leader),
    timer:sleep(between()),
    rounds(Round + 1, Servers, Most).

between() ->
    case os:getenv("BETWEEN") of
        false -> ?BETWEEN;
        Number -> list_to_integer(Number)
    end.

added(Servers, Wait) ->
    ra:process_command(Servers, {add, 1}, Wait).
