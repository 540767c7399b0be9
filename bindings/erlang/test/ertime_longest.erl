%% Makes each call of the NIF, and its callbacks, where it has most to do: on clocks with all slots that a clock can have, full,
%% emptied again or due all at once, with many processes and many monitors. `.ci/longest_calls' measures the calls meanwhile:
%%
%%     erl -noshell -run ertime_longest main
-module(ertime_longest).

-export([main/0]).

-define(SLOTS, 262144).
-define(MANY, 20000).
-define(LONGEST, 1 bsl 51).

main() ->
    logger:set_primary_config(level, none),
    [in_process(Do) || Do <- [
        fun full/0, fun cancelled/0, fun due/0, fun few/0, fun gone/0, fun crowd/0, fun monitors/0, fun messages/0, fun dropped/0
    ]],
    timer:sleep(1000),
    halt(0).

in_process(Do) ->
    {Pid, Monitor} = spawn_monitor(Do),
    receive {'DOWN', Monitor, process, Pid, normal} -> ok end.

opened() -> opened(?SLOTS).
opened(Slots) -> ertime_nif:open(2, 1, 0, 0, 1767225600000000000, Slots, 0).

start(Clock, Time, Message) -> ertime_nif:start(Clock, Time, self(), Message, false, false).

filled(Clock, Message) ->
    [start(Clock, rand:uniform(1 bsl rand:uniform(30)), Message) || _ <- lists:seq(1, ?SLOTS)].

often(Do) -> often(1000, Do).
often(Count, Do) -> [Do() || _ <- lists:seq(1, Count)].

%% All that asks for something.
ask(Clock) ->
    often(fun() ->
        [ertime_nif:monotonic_time(Clock), ertime_nif:system_time(Clock), ertime_nif:time_offset(Clock), ertime_nif:os_time(Clock),
         ertime_nif:settings(Clock), ertime_nif:is_timer(Clock), ertime_nif:is_monitor(Clock), ertime_nif:drift(Clock, 0),
         ertime_nif:order(Clock, 7), ertime_nif:order(Clock, 0), ertime_nif:serial(Clock, false), ertime_nif:late(Clock, 0, 0),
         ertime_nif:cost(Clock, 0)]
    end).

%% All that moves it.
move(Clock) ->
    [ertime_nif:free_run(Clock), ertime_nif:run(Clock, 1000000), ertime_nif:leap(Clock, 5000000, true), ertime_nif:step(Clock, 0),
     ertime_nif:run(Clock, 60000000000), ertime_nif:leap(Clock, -5000000, true), ertime_nif:finalize(Clock),
     ertime_nif:tick(Clock, element(1, ertime_nif:os_time(Clock)) + 1000000, element(2, ertime_nif:os_time(Clock)), true)].

%% All that is armed is due then, and all that is due is sent.
past_all(Clock) ->
    ok = ertime_nif:run(Clock, ?LONGEST),
    sent(Clock, 0).

%% From deadline to deadline.
until_idle(Clock) ->
    sent(Clock, ?LONGEST).

sent(Clock, Time) ->
    case ertime_nif:step(Clock, Time) of
        {_, _, 0} -> ok;
        {_, _, _} -> sent(Clock, Time)
    end.

%% Every slot has a timer, and no further one can be started.
full() ->
    Clock = opened(),
    Timers = filled(Clock, x),
    often(fun() -> system_limit = start(Clock, 1000, x) end),
    ask(Clock),
    [ertime_nif:read(Timer) || Timer <- Timers],
    {Some, Others} = lists:split(1000, Timers),
    often(fun() -> ertime_nif:lead(Clock), ertime_nif:unlead(Clock) end),
    [begin ertime_nif:cancel(Timer), start(Clock, 1000, x) end || Timer <- Some],
    _ = ertime_nif:timers(Clock),
    _ = ertime_nif:info(Clock),
    move(Clock),
    [ertime_nif:stop(Timer) || Timer <- Others],
    ertime_nif:close(Clock).

%% Every slot had a timer, which was cancelled.
cancelled() ->
    [
        begin
            Clock = opened(),
            [ertime_nif:cancel(Timer) || Timer <- filled(Clock, x)],
            Do(Clock)
        end
     || Do <- [
            fun(Clock) -> ertime_nif:free_run(Clock), ertime_nif:step(Clock, ?LONGEST) end,
            fun(Clock) -> ertime_nif:run(Clock, 1 bsl 50), ertime_nif:step(Clock, 0) end,
            fun(Clock) -> start(Clock, 1000, x), until_idle(Clock), move(Clock) end
        ]
    ].

%% All are due at the same time, and at many.
due() ->
    Clock = opened(),
    [start(Clock, 1000, x) || _ <- lists:seq(1, ?SLOTS)],
    until_idle(Clock),
    filled(Clock, x),
    past_all(Clock).

%% As many as are settled on a scheduler, on the largest clock and on one that they fill.
few() ->
    [
        begin
            Clock = opened(Slots),
            often(10, fun() ->
                [start(Clock, Time(), x) || _ <- lists:seq(1, 1000)],
                until_idle(Clock),
                [start(Clock, Time(), x) || _ <- lists:seq(1, 1000)],
                past_all(Clock)
            end)
        end
     || Slots <- [1024, ?SLOTS], Time <- [fun() -> 1000 end, fun() -> rand:uniform(1 bsl rand:uniform(30)) end]
    ].

%% Processes with many timers exit.
gone() ->
    Clock = opened(),
    in_process(fun() -> [start(Clock, 1000, x) || _ <- lists:seq(1, ?SLOTS)], exit(normal) end),
    [start(Clock, 1000, x) || _ <- lists:seq(1, 1000)],
    until_idle(Clock),
    [in_process(fun() -> [start(Clock, 1000, {a, tuple, N}) || _ <- lists:seq(1, ?MANY)] end) || N <- lists:seq(1, 10)],
    until_idle(Clock).

%% Many processes use the clock, and exit.
crowd() ->
    Clock = opened(),
    Self = self(),
    Pids = [spawn(fun() -> ertime_nif:join(Clock), start(Clock, 1000, x), Self ! here, receive stop -> ertime_nif:leave(Clock) end end)
            || _ <- lists:seq(1, ?MANY)],
    [receive here -> ok end || _ <- Pids],
    [ertime_nif:members(Clock) || _ <- lists:seq(1, 10)],
    move(Clock),
    [Pid ! stop || Pid <- Pids],
    timer:sleep(500),
    until_idle(Clock).

monitors() ->
    Clock = opened(),
    Monitors = [ertime_nif:monitor(Clock) || _ <- lists:seq(1, ?MANY)],
    move(Clock),
    [ertime_nif:demonitor(Monitor) || Monitor <- Monitors],
    in_process(fun() -> [ertime_nif:monitor(Clock) || _ <- lists:seq(1, ?MANY)], exit(normal) end),
    move(Clock).

%% Messages of some size.
messages() ->
    Clock = opened(),
    Start = fun() -> start(Clock, 1000, {lists:seq(1, 100), <<"a binary of some length">>}) end,
    often(Start),
    past_all(Clock),
    [ertime_nif:cancel(Timer) || Timer <- often(Start)].

%% Clocks that are dropped, and closed.
dropped() ->
    [in_process(fun() -> Fill(opened(Slots)), erlang:garbage_collect() end)
     || Slots <- [1024, 16384, ?SLOTS], Fill <- [fun(_) -> ok end, fun(Clock) -> [start(Clock, 1000, {x}) || _ <- lists:seq(1, Slots)] end]],
    Clock = opened(),
    [start(Clock, 1000, {x}) || _ <- lists:seq(1, ?SLOTS)],
    ertime_nif:close(Clock).
