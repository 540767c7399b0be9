%% Random calls of twelve processes on a few clocks, which are closed and dropped meanwhile, while processes with timers and
%% monitors exit. It looks for crashes of the runtime, above all under sanitizers, and ends with status 1 where a call raised
%% anything but a refusal, or that the clock of the process was closed. At the end no process and no timer of it is left. `.ci/check_erlang' runs it:
%%
%%     erl -noshell -run ertime_chaos main SECONDS [SEED]
-module(ertime_chaos).

-export([main/1]).

-define(CLOCKS, 3).
-define(TIMERS, 50).
-define(REFUSALS, [badarg, closed, no_memory, no_progress, system_limit]).

main([Seconds]) ->
    main([Seconds, integer_to_list(erlang:system_time(millisecond) rem 1000000)]);
main([Seconds, Seed]) ->
    process_flag(trap_exit, true),
    logger:set_primary_config(level, none),
    ok = application:set_env(ertime, rest_limit, 0),
    _ = ets:new(?MODULE, [public, named_table]),
    [ets:insert(?MODULE, {{clock, N}, opened()}) || N <- lists:seq(1, ?CLOCKS)],
    End = erlang:monotonic_time(second) + list_to_integer(Seconds),
    Workers = [spawn_link(fun() -> worker({list_to_integer(Seed), 0, N}, End) end) || N <- lists:seq(1, 12)],
    Calls = [receive {'EXIT', Worker, Reason} -> Reason end || Worker <- Workers],
    case {[Reason || Reason <- Calls, not is_integer(Reason)], left()} of
        {[], []} ->
            io:format("~w calls of twelve processes~n", [lists:sum(Calls)]),
            halt(0);
        {Reasons, Left} ->
            io:format("seed ~s, raised: ~p~narmed at the end: ~p~n", [Seed, Reasons, Left]),
            halt(1)
    end.

%% What is armed once all processes have exited, on clocks that are open still: nothing but timers for names.
left() ->
    timer:sleep(500),
    [Row || {{clock, _}, Clock} <- ets:tab2list(?MODULE), Row <- ertime_nif:timers(Clock), is_pid(element(2, Row))].

worker(Seed, End) ->
    _ = rand:seed(exsss, Seed),
    exit(loop(End, 0)).

loop(End, Calls) ->
    try
        call(rand:uniform(1000)),
        flush()
    catch
        error:{not_at_rest, _} -> ok;
        error:{clock_closed, _} -> ok;
        error:Reason:Stack -> lists:member(Reason, ?REFUSALS) orelse exit({Reason, Stack})
    end,
    case Calls rem 100 =:= 0 andalso erlang:monotonic_time(second) >= End of
        true -> Calls;
        false -> loop(End, Calls + 1)
    end.

flush() ->
    receive
        _ -> flush()
    after 0 -> ok
    end.

open(MostSlots) ->
    Modes = [no_time_warp, single_time_warp, multi_time_warp],
    ertime:open(#{mode => one_of(Modes), correction => rand:uniform(2) =:= 1, slots => rand:uniform(MostSlots)}).

opened() ->
    try
        open(1000)
    catch
        error:system_limit -> opened()
    end.

clock() ->
    ets:lookup_element(?MODULE, {clock, rand:uniform(?CLOCKS)}, 2).

one_of(List) ->
    lists:nth(rand:uniform(length(List)), List).

call(N) when N =< 5 -> replace();
call(N) when N =< 7 -> crowd();
call(N) when N =< 60 -> passer_by();
call(N) when N =< 65 -> ertime:info(clock());
call(N) when N =< 70 -> [ertime_nif:members(clock()), ertime_nif:timers(clock())];
call(N) when N =< 75 -> ertime:advance(clock(), rand:uniform(20));
call(N) when N =< 150 -> ertime_nif:step(clock(), rand:uniform(50000000));
call(N) when N =< 180 -> move(clock(), rand:uniform(5));
call(N) when N =< 250 -> monitors();
call(N) when N =< 500 -> start();
call(N) when N =< 750 -> settle();
call(N) when N =< 800 -> erlang:garbage_collect();
call(N) when N =< 830 -> lead(clock());
call(_) -> tell().

%% A clock is put in the place of another, which is closed, or dropped with all that is armed on it.
replace() ->
    New = open(one_of([10, 1000, 1000, 5000, 70000])),
    Old = clock(),
    ets:insert(?MODULE, {{clock, rand:uniform(?CLOCKS)}, New}),
    rand:uniform(2) =:= 1 andalso ertime:close(Old).

%% A process starts timers for another, which is about to exit, and itself, with monitors and messages that refer to the clock.
passer_by() ->
    Clock = clock(),
    Count = rand:uniform(50),
    spawn(fun() ->
        Other = spawn(fun() -> receive after rand:uniform(2) -> ok end end),
        catch busy(Clock, Other, Count)
    end).

busy(Clock, Other, Count) ->
    _ = ertime:use(Clock),
    Message = {Clock, binary:copy(<<"y">>, 100)},
    _ = [ertime:start_timer(rand:uniform(100), one_of([Other, self()]), Message) || _ <- lists:seq(1, Count)],
    _ = ertime:monitor(time_offset, clock_service),
    receive
        _ -> ok
    after rand:uniform(5) -> ok
    end.

%% More timers than are settled at once where a process exits, and sometimes more processes than are listed at once.
crowd() ->
    Clock = clock(),
    case rand:uniform(20) of
        1 -> [spawn(fun() -> catch ertime:use(Clock), receive after 20 -> ok end end) || _ <- lists:seq(1, 1500)];
        _ -> spawn(fun() -> catch busy(Clock, self(), 3000) end)
    end.

move(Clock, 1) -> ertime_nif:leap(Clock, rand:uniform(100000000) - 50000000, true);
move(Clock, 2) -> ertime:drift(Clock, one_of([0, rand:uniform(1000000), -rand:uniform(1000000), 1 bsl 62]));
move(Clock, 3) -> ertime_nif:run(Clock, rand:uniform(1000000));
move(Clock, 4) -> ertime_nif:free_run(Clock);
move(Clock, 5) -> ertime_nif:finalize(Clock).

monitors() ->
    _ = ertime:use(clock()),
    Monitor = ertime:monitor(time_offset, clock_service),
    rand:uniform(2) =:= 1 andalso ertime:demonitor(Monitor, [flush]).

%% Timers that any process may settle.
start() ->
    Clock = clock(),
    _ = ertime:use(Clock),
    To = one_of([self(), nobody_has_this_name, spawn(fun() -> ok end)]),
    Message = one_of([x, 17, self(), [], {self(), Clock, make_ref()}]),
    ets:insert(?MODULE, {{timer, rand:uniform(?TIMERS)}, ertime:start_timer(rand:uniform(50), To, Message)}).

settle() ->
    case ets:lookup(?MODULE, {timer, rand:uniform(?TIMERS)}) of
        [{_, Timer}] -> settle(Timer, rand:uniform(4));
        [] -> ok
    end.

settle(Timer, 1) -> ertime:cancel_timer(Timer);
settle(Timer, 2) -> ertime:read_timer(Timer);
settle(Timer, 3) -> ertime:cancel_timer(Timer, [{async, true}]);
settle(Timer, 4) -> ertime:read_timer(Timer, [{async, true}]).

lead(Clock) ->
    _ = ertime_nif:lead(Clock),
    ertime_nif:unlead(Clock).

tell() ->
    _ = ertime:use(clock()),
    _ = ertime:send_after(rand:uniform(20), self(), x),
    [ertime:monotonic_time(), ertime:system_time(), ertime:time_offset(), ertime:os_system_time()].
