%% The clock stands still while one of its processes is at work: whatever it does, and whoever does it for it. On a quiet node, and
%% beside four processes that keep the schedulers busy. So many rounds of each: by hand ERTIME_ROUNDS=1000.
-module(ertime_rest_tests).

-behaviour(gen_server).

-include_lib("eunit/include/eunit.hrl").

-export([init/1, handle_call/3, handle_cast/2, handle_info/2]).

-define(WORK, 3).

rest_test_() ->
    [
        {timeout, 3600, {lists:flatten(io_lib:format("~s, beside ~w", [What, Busy])), fun() -> patiently(fun() -> rounds(Busy, Setup, Do) end) end}}
     || Busy <- [0, 4], {What, Setup, Do} <- kinds()
    ].

kinds() ->
    [
        {"loads a module", fun unloaded/0, fun(_) -> sofs:empty_set() end},
        {"puts a persistent term", fun() -> none end, fun(_) -> persistent_term:put(?MODULE, make_ref()) end},
        {"calls a server", fun() -> servers([work]) end, fun call/1},
        {"calls a server that calls another", fun() -> servers([work, call]) end, fun call/1},
        {"calls one that calls one that calls one", fun() -> servers([work, call, call]) end, fun call/1},
        {"calls a server that loads a module", fun() -> unloaded(), servers([load, call]) end, fun call/1},
        {"calls a server that puts a persistent term", fun() -> servers([put, call]) end, fun call/1},
        {"calls a server for which another process answers", fun() -> servers([work, hand_on, call]) end, fun call/1},
        {"calls a server that starts another", fun() -> servers([work, start, call]) end, fun call/1},
        {"calls one server after another", fun() -> servers([answer, work, answer, work, answer, work]) end, fun call_each/1},
        {"starts one process after another", fun() -> none end, fun(_) -> [start() || _ <- lists:seq(1, 5)] end}
    ].

rounds(Busy, Setup, Do) ->
    Rounds = list_to_integer(os:getenv("ERTIME_ROUNDS", case Busy of 0 -> "25"; _ -> "10" end)),
    Burners = [spawn_link(fun burn/0) || _ <- lists:seq(1, Busy)],
    Moved = [Time || _ <- lists:seq(1, Rounds), Time <- [took(Setup(), Do)], Time =/= 0],
    [begin unlink(Pid), exit(Pid, kill) end || Pid <- Burners],
    ?assertEqual([], Moved).

burn() ->
    ertime:use(real),
    (fun Again() -> lists:seq(1, 1000), Again() end)().

%% How much of the clock's time a process of it takes, while a minute passes.
took(Server, Do) ->
    Took = ertime:test(#{start => 0}, fun(Clock) ->
        Test = self(),
        _ = spawn_link(fun() ->
            Start = ertime:monotonic_time(millisecond),
            _ = Do(Server),
            Test ! {took, ertime:monotonic_time(millisecond) - Start}
        end),
        0 = ertime:advance(Clock, 60000),
        receive {took, Time} -> Time end
    end),
    _ = [exit(Pid, kill) || {_, All} <- [Server], Pid <- All],
    Took.

unloaded() ->
    _ = code:purge(sofs),
    _ = code:delete(sofs),
    _ = code:purge(sofs),
    none.

call({Server, _}) ->
    done = gen_server:call(Server, go, infinity).

call_each({_, All}) ->
    [done = gen_server:call(Server, go, infinity) || Server <- All].

%% And waits for each one's message, without a monitor.
start() ->
    Self = self(),
    _ = spawn_link(fun() -> work(), Self ! done end),
    receive done -> ok end.

%% --- servers that see no clock --------------------------------------------------------------------------------------

servers(Kinds) ->
    lists:foldl(fun started/2, {none, []}, Kinds).

started(Kind, {Next, All}) ->
    {ok, Pid} = gen_server:start(?MODULE, {Kind, Next}, []),
    {Pid, [Pid | All]}.

init({slow, _} = State) ->
    work(),
    {ok, State};
init(State) ->
    {ok, State}.

handle_call(go, _, {answer, _} = State) ->
    {reply, done, State};
handle_call(go, _, {work, _} = State) ->
    work(),
    {reply, done, State};
handle_call(go, _, {start, Next} = State) ->
    {ok, _} = gen_server:start_link(?MODULE, {slow, Next}, []),
    {reply, done, State};
handle_call(go, _, {load, _} = State) ->
    _ = sofs:empty_set(),
    {reply, done, State};
handle_call(go, _, {put, _} = State) ->
    persistent_term:put(?MODULE, make_ref()),
    {reply, done, State};
handle_call(go, _, {call, Next} = State) ->
    {reply, gen_server:call(Next, go, infinity), State};
handle_call(go, From, {hand_on, Next} = State) ->
    _ = spawn_monitor(fun() -> gen_server:reply(From, gen_server:call(Next, go, infinity)) end),
    {noreply, State}.

handle_cast(_, State) -> {noreply, State}.

handle_info(_, State) -> {noreply, State}.

work() -> work(?WORK).

work(Milliseconds) ->
    End = os:perf_counter(millisecond) + Milliseconds,
    (fun Again() -> os:perf_counter(millisecond) > End orelse Again() end)().

%% A process that was allowed the clock is one of it, and so is one that it started before.
allowed_test() ->
    Pid = spawn_link(fun() ->
        Below = spawn_link(fun() -> receive {go, Test} -> Start = ertime:monotonic_time(), work(), Test ! {took, ertime:monotonic_time() - Start} end end),
        receive {go, Test} -> Below ! {go, Test} end,
        receive stop -> ok end
    end),
    Took = ertime:test(#{}, fun(Clock) ->
        ok = ertime:allow(Clock, Pid),
        Pid ! {go, self()},
        0 = ertime:advance(Clock, 60000),
        receive {took, Time} -> Time end
    end),
    ?assertEqual(0, Took),
    Pid ! stop.

%% Each place of the runtime's table of processes has been used: from then on numbers are given in no order, and new processes are
%% found all the same.
numbers_test_() ->
    {timeout, 600, fun() ->
        use_numbers(erlang:system_info(process_limit) * 5 div 4),
        Clock = ertime:open(#{}),
        {_, _, First} = ertime_others:discover(Clock, #{}, ertime_others:new()),
        Test = self(),
        Pids = [spawn_link(fun() -> erlang:put('$ertime', Clock), Test ! {ready, self()}, receive stop -> ok end end) || _ <- lists:seq(1, 1000)],
        [receive {ready, Pid} -> ok end || Pid <- Pids],
        {Joined, _, _} = ertime_others:discover(Clock, #{}, ertime_others:rested(First)),
        ?assertEqual([], Pids -- Joined),
        [begin unlink(Pid), exit(Pid, kill) end || Pid <- Pids],
        true = ertime:close(Clock)
    end}.

use_numbers(Count) ->
    Pids = [spawn_monitor(fun() -> spawned(Count div 4) end) || _ <- lists:seq(1, 4)],
    [receive {'DOWN', Monitor, process, Pid, Reason} -> ?assertEqual(normal, Reason) end || {Pid, Monitor} <- Pids].

%% Some of them live longer than others.
spawned(0) ->
    ok;
spawned(Left) ->
    _ = spawn(fun() -> Left rem 10 =/= 0 orelse receive after Left rem 50 -> ok end end),
    Left rem 100 =/= 0 orelse receive after 1 -> ok end,
    spawned(Left - 1).

%% A test under seeds lets processes stand still, to find what is left of a run: one that does so at work doesn't rest.
held_test() ->
    Before = ertime_test:before(),
    Took = ertime:test(#{}, fun(Clock) ->
        Test = self(),
        Pid = spawn_link(fun() ->
            Start = ertime:monotonic_time(),
            receive begins -> ok end,
            work(100),
            Test ! {took, ertime:monotonic_time() - Start}
        end),
        ertime:rest(Clock),
        Pid ! begins,
        Holder = spawn_link(fun() -> ertime:use(real), ertime_test:held(maps:put(Test, [], Before), fun() -> Test ! holds, receive after 300 -> ok end end) end),
        receive holds -> ok end,
        0 = ertime:advance(Clock, 60000),
        unlink(Holder),
        receive {took, Time} -> Time end
    end),
    ?assertEqual(0, Took).

%% Who writes waits for its group leader, and under seeds for whoever passes that on to it.
writes_test() ->
    Own = group_leader(),
    Leader = spawn_link(fun() ->
        ertime:use(real),
        Echo = spawn_link(fun Answer() -> receive {From, Tag} -> From ! {Tag, answer}, Answer() end end),
        write(Echo)
    end),
    true = group_leader(Leader, self()),
    try
        ok = ertime:seeds(1, #{faults => [leap]}, fun(_) ->
            _ = spawn_link(fun Sleep() -> ertime:sleep(1), Sleep() end),
            [begin
                Start = ertime:monotonic_time(),
                io:put_chars("written"),
                ?assertEqual(Start, ertime:monotonic_time())
            end || _ <- lists:seq(1, 20)]
        end)
    after
        true = group_leader(Own, self()),
        unlink(Leader),
        exit(Leader, kill)
    end.

%% It asks another process again and again before it answers.
write(Echo) ->
    receive
        {io_request, From, As, _} ->
            [ask(Echo) || _ <- lists:seq(1, 1000)],
            From ! {io_reply, As, ok}
    end,
    write(Echo).

ask(Pid) ->
    Monitor = erlang:monitor(process, Pid),
    Pid ! {self(), Monitor},
    receive {Monitor, answer} -> true = erlang:demonitor(Monitor, [flush]) end.

%% --- whom it doesn't wait for -----------------------------------------------------------------------------------------

%% A process of another test is at work, and is monitored by a server that a process of this one monitors.
other_clock_test() ->
    Registry = spawn_link(fun() -> receive {monitor, Pid} -> erlang:monitor(process, Pid), receive stop -> ok end end end),
    Other = ertime:open(#{}),
    Busy = spawn_link(fun() -> ertime:use(Other), (fun Again() -> lists:seq(1, 1000), Again() end)() end),
    Registry ! {monitor, Busy},
    ertime:test(#{}, fun(Clock) ->
        _ = erlang:monitor(process, Registry),
        ?assertEqual(0, ertime:advance(Clock, 1000))
    end),
    [begin unlink(Pid), exit(Pid, kill) end || Pid <- [Registry, Busy]],
    true = ertime:close(Other).

%% It rests, though the machine may be slow.
patiently(Do) ->
    ok = application:set_env(ertime, rest_limit, 60000),
    try
        Do()
    after
        application:unset_env(ertime, rest_limit)
    end.

%% One that was suspended for good counts as at rest.
suspended_test() ->
    ertime:test(#{}, fun(Clock) ->
        Pid = spawn_link(fun() -> ertime:sleep(1000) end),
        ertime:rest(Clock),
        true = erlang:suspend_process(Pid),
        ?assertEqual(1, ertime:advance(Clock, 2000)),
        true = erlang:resume_process(Pid)
    end).
