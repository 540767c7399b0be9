%% Timers of the Erlang runtime system, by the operations of bench/compare.c.
%%
%% A start is erlang:start_timer/3 with the process itself as destination, and a cancel erlang:cancel_timer/1, as
%% in ertime. The runtime has one scheduler (+S 1:1), so that all is done by one thread and no process moves from
%% one scheduler to another. A start asks the operating system for the time, and makes a reference on the heap of
%% the process. The heap is collected before each pass, and collections in a pass are in its time.
%%
%%     start_cancel     a timer is started and cancelled
%%     start            after all timers of earlier passes were cancelled
%%     cancel           in the order that all programs have
%%     restart          a timer is cancelled and one started, since the runtime has no call for it
%%     packet           the same for the idle timeout and for the request's
%%     expire_at_once   all are due in one millisecond, of absolute time. The process yields until it has come,
%%                      and receives each message: the time is that from the deadline to the last receive. The
%%                      heap has room for the messages, so that no collection falls into the time.
%%
%% Deadlines are in real time: of the spread ones a few pass before their timer is cancelled, which then answers
%% false. expire_spread isn't here, since a program can't set the runtime's clock, and idle_pass isn't, since the loop is
%% the runtime's own.
%%
%% The command line, and what is printed, are those that measure.h tells.
-module(erlang_timers).
-export([main/1]).

-define(SPREAD, 60000).
-define(TIMEOUT, 5000).
-define(IDLE_TIMEOUT, 60000).
-define(REQUEST_TIMEOUT, 30000).
-define(MOST_PASSES, 15).
-define(FEW_PASSES, 3).
-define(LONG_PASS, 2000000000).
-define(BITS, 16#ffffffff).

%% What is measured: how many calls a pass makes, the waits of the timers, and the order of cancels.
-record(measurement, {calls, waits, order}).

main(["bytes", Timers | _]) ->
    io:format("~.1f~n", [bytes(list_to_integer(Timers)) / list_to_integer(Timers)]),
    halt(0);
main([Operation | Words]) ->
    [Timers, Calls, Passes] = [list_to_integer(Word) || Word <- Words],
    What = #measurement{calls = Calls, waits = spread_waits(Timers), order = random_order(Timers)},
    Room = [{min_heap_size, room(Operation, Timers)}],
    {_, Monitor} = spawn_opt(fun() -> run(Operation, What, Timers, Passes) end, [monitor | Room]),
    receive
        {'DOWN', Monitor, process, _, normal} ->
            halt(0);
        {'DOWN', Monitor, process, _, Why} ->
            io:format(standard_error, "~p~n", [Why]),
            halt(1)
    end.

%% The words that the heap has at least. A timer's reference, its place in a list and its message take less than 32.
room("expire_at_once", Timers) -> 100000 + 32 * Timers;
room(_, _) -> 1000.

run("version", _, _, _) ->
    io:format("~s~n", [erlang:system_info(otp_release)]);
run("order", #measurement{waits = Waits, order = Order}, _, _) ->
    io:format("~b ~b~n", [digest(Waits), digest(Order)]);
run(Operation, What, Timers, Passes) when Passes > 0, Passes =< ?MOST_PASSES ->
    {Pass, Each} = operation(Operation, What, Timers),
    Taken = lists:sort(passes(Pass, What, Passes, [])),
    Made = length(Taken),
    io:format("~.2f ~.2f ~b~n", [lists:nth(Made div 2 + 1, Taken) / Each, hd(Taken) / Each, Made]).

operation("start_cancel", What, _) -> {fun start_cancel/1, What#measurement.calls};
operation("start", _, Timers) -> {fun start/1, Timers};
operation("cancel", _, Timers) -> {fun cancel/1, Timers};
operation("restart", What, _) -> {fun restart/1, What#measurement.calls};
operation("packet", What, _) -> {fun packet/1, What#measurement.calls};
operation("expire_at_once", _, Timers) -> {fun expire_at_once/1, Timers}.

%% Makes passes; how long each took, in nanoseconds.
passes(_, _, Passes, Taken) when length(Taken) >= Passes ->
    Taken;
passes(Pass, What, Passes, Taken) ->
    Time = Pass(What),
    Fewer = if Time > ?LONG_PASS -> min(Passes, ?FEW_PASSES); true -> Passes end,
    passes(Pass, What, Fewer, [Time | Taken]).

start_cancel(#measurement{calls = Calls, waits = Waits}) ->
    garbage_collect(),
    Others = start_all(Waits, []),
    Begun = now_ns(),
    start_cancel_all(Calls),
    Taken = now_ns() - Begun,
    clear(Others),
    Taken.

start_cancel_all(0) ->
    ok;
start_cancel_all(Calls) ->
    Timer = erlang:start_timer(?TIMEOUT, self(), 7),
    true = is_integer(erlang:cancel_timer(Timer)),
    start_cancel_all(Calls - 1).

start(#measurement{waits = Waits}) ->
    garbage_collect(),
    Begun = now_ns(),
    Timers = start_all(Waits, []),
    Taken = now_ns() - Begun,
    clear(Timers),
    Taken.

start_all([], Timers) -> Timers;
start_all([Wait | Waits], Timers) -> start_all(Waits, [erlang:start_timer(Wait, self(), 7) | Timers]).

cancel(#measurement{waits = Waits, order = Order}) ->
    Started = list_to_tuple(lists:reverse(start_all(Waits, []))),
    Timers = [element(Number + 1, Started) || Number <- Order],
    garbage_collect(),
    Begun = now_ns(),
    Late = cancel_all(Timers, 0),
    Taken = now_ns() - Begun,
    true = Late =< length(Timers) div 10,
    flush(),
    Taken.

%% Cancels timers; how many were late.
cancel_all([], Late) ->
    Late;
cancel_all([Timer | Timers], Late) ->
    case erlang:cancel_timer(Timer) of
        false -> cancel_all(Timers, Late + 1);
        _ -> cancel_all(Timers, Late)
    end.

restart(What) ->
    in_rounds(What, fun() -> start_idle() end, fun(Timer) -> cancelled(Timer), start_idle() end, fun(Timer) -> [Timer] end).

packet(What) ->
    Connect = fun() -> {start_idle(), start_request()} end,
    Packet = fun({Idle, Request}) -> cancelled(Idle), New = start_idle(), cancelled(Request), {New, start_request()} end,
    in_rounds(What, Connect, Packet, fun({Idle, Request}) -> [Idle, Request] end).

start_idle() -> erlang:start_timer(?IDLE_TIMEOUT, self(), 7).

start_request() -> erlang:start_timer(?REQUEST_TIMEOUT, self(), 7).

cancelled(Timer) -> true = is_integer(erlang:cancel_timer(Timer)).

%% Makes a connection for each wait, and calls of all in random order, then of all in another one, and so on: the time
%% is that of the calls alone.
in_rounds(#measurement{calls = Calls, waits = Waits, order = Order}, Connect, Call, Timers) ->
    Connected = [Connect() || _ <- Waits],
    {Taken, Left} = in_rounds(Calls, Order, Call, Connected, 0),
    clear(lists:flatmap(Timers, Left)),
    Taken.

in_rounds(Calls, _, _, Connected, Taken) when Calls =< 0 ->
    {Taken, Connected};
in_rounds(Calls, Order, Call, Connected, Taken) ->
    Places = list_to_tuple(Connected),
    {Called, Others} = lists:split(min(Calls, tuple_size(Places)), [element(Number + 1, Places) || Number <- Order]),
    garbage_collect(),
    Begun = now_ns(),
    New = call_all(Called, Call, []),
    Time = now_ns() - Begun,
    in_rounds(Calls - length(Called), Order, Call, lists:reverse(New, Others), Taken + Time).

call_all([], _, New) -> New;
call_all([Connected | Others], Call, New) -> call_all(Others, Call, [Call(Connected) | New]).

expire_at_once(What = #measurement{waits = Waits}) ->
    Count = length(Waits),
    expire_at_once(What, Count, 100 + Count div 250).

%% The timers are due in so many milliseconds, and twice as many where that has passed before all are started.
expire_at_once(What, Count, Lead) ->
    garbage_collect(),
    Due = erlang:monotonic_time(millisecond) + Lead,
    Timers = start_all_at(Count, Due, []),
    case erlang:monotonic_time(millisecond) < Due of
        true ->
            Begun = erlang:convert_time_unit(Due, millisecond, nanosecond),
            sleep_until(Due - 3),
            yield_until(Begun),
            receive_all(Count),
            now_ns() - Begun;
        false ->
            clear(Timers),
            expire_at_once(What, Count, 2 * Lead)
    end.

start_all_at(0, _, Timers) ->
    Timers;
start_all_at(Count, Due, Timers) ->
    start_all_at(Count - 1, Due, [erlang:start_timer(Due, self(), 7, [{abs, true}]) | Timers]).

sleep_until(Then) ->
    receive
    after max(0, Then - erlang:monotonic_time(millisecond)) -> ok
    end.

yield_until(Then) ->
    case now_ns() < Then of
        true ->
            erlang:yield(),
            yield_until(Then);
        false ->
            ok
    end.

receive_all(0) ->
    ok;
receive_all(Count) ->
    receive
        {timeout, _, 7} -> receive_all(Count - 1)
    end.

%% The memory of timers that are outstanding, of which nobody keeps the reference.
bytes(Timers) ->
    garbage_collect(),
    Before = resident(),
    start_unkept(Timers, 1),
    garbage_collect(),
    resident() - Before.

start_unkept(0, _) ->
    ok;
start_unkept(Count, State) ->
    Next = next_random(State),
    erlang:start_timer(Next rem ?SPREAD + 1, self(), 7),
    start_unkept(Count - 1, Next).

%% The bytes of memory that the process has (Linux, proc(5), the second word of statm).
resident() ->
    {ok, Text} = file:read_file("/proc/self/statm"),
    [_, Pages | _] = string:lexemes(Text, " "),
    binary_to_integer(Pages) * 4096.

clear(Timers) ->
    [erlang:cancel_timer(Timer) || Timer <- Timers],
    flush().

flush() ->
    receive
        {timeout, _, 7} -> flush()
    after 0 -> ok
    end.

now_ns() -> erlang:monotonic_time(nanosecond).

%% Marsaglia's xorshift of 32 bits.
next_random(State) ->
    A = State bxor ((State bsl 13) band ?BITS),
    B = A bxor (A bsr 17),
    B bxor ((B bsl 5) band ?BITS).

spread_waits(Count) -> spread_waits(Count, 1, []).

spread_waits(0, _, Waits) ->
    lists:reverse(Waits);
spread_waits(Count, State, Waits) ->
    Next = next_random(State),
    spread_waits(Count - 1, Next, [Next rem ?SPREAD + 1 | Waits]).

random_order(0) ->
    [];
random_order(Count) ->
    Order = atomics:new(Count, []),
    [atomics:put(Order, Place, Place - 1) || Place <- lists:seq(1, Count)],
    shuffle(Order, Count, 2),
    [atomics:get(Order, Place) || Place <- lists:seq(1, Count)].

shuffle(_, 1, _) ->
    ok;
shuffle(Order, Count, State) ->
    Next = next_random(State),
    Place = Next rem Count + 1,
    Kept = atomics:get(Order, Count),
    atomics:put(Order, Count, atomics:get(Order, Place)),
    atomics:put(Order, Place, Kept),
    shuffle(Order, Count - 1, Next).

digest(Numbers) -> lists:foldl(fun(Number, Sum) -> (Sum * 31 + Number) band ?BITS end, 0, Numbers).
