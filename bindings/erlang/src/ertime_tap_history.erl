%% @doc The log of {@link ertime_tap} as a written history, which `ertaudit' judges and `tools/picture --history' draws.
%%
%% It has the timers whose fate the trace tells: those that have arrived, that were cancelled with a time left, and that were armed
%% when the tracing ended. Each scheduler of the node is a scheduler with its wheel, each process a caller or a mailbox, both by
%% number; a millisecond of the history is one of the node, counted from the first start.
%%
%% What the verdict says: no timer came before its deadline, and each cancel told what was left. The trace shows when a message
%% came to its process, and not when the wheel let the timer expire. So that is put as late as it may have been: not after any
%% arrival of the same scheduler that the order of deadlines puts behind it, nor after a cancel that found it gone. Where a call
%% lay across a millisecond, the time within the call that fits what it told is taken. So an order of timers that isn't that of
%% their deadlines can't be seen here, and no timer is accused because its process was late to look.
-module(ertime_tap_history).

-export([written/1]).

-define(MILLISECOND, 1000000).
-define(CALLERS, 1025).

%% @private
-spec written(ertime_tap:log()) -> iodata().
written(#{timers := Timers}) ->
    case [Timer || Timer = #{fate := Fate} <- Timers, is_told(Fate)] of
        [] -> settings(1, 1, 1, 1);
        [#{started := {First, _}} | _] = Told -> history(Told, ertime_tap_log:down(First))
    end.

is_told(armed) -> true;
is_told({Kind, _}) -> Kind =:= arrived;
is_told({cancelled, _, _}) -> true;
is_told(_) -> false.

settings(Schedulers, Processes, Slots, Callers) ->
    io_lib:format("settings multi true 0 ~w ~w ~w ~w 0 0~n", [Schedulers, Processes, Slots, Callers]).

history(Told, From) ->
    Start = From * ?MILLISECOND,
    Rows = slots([at(Timer, Start) || Timer <- Told]),
    Schedulers = numbers([Scheduler || #{scheduler := Scheduler} <- Rows]),
    Callers = numbers([By || #{by := By} <- Rows]),
    Processes = numbers([To || #{to := To} <- Rows]),
    Slots = 1 + lists:max([Slot || #{slot := Slot} <- Rows]),
    Entries = lists:sort(expiries(Rows) ++ [Entry || Row <- Rows, Entry <- calls(Row)]),
    {Lines, _} = lists:mapfoldl(
        fun({Time, _, _, What, #{scheduler := S, by := By, to := To} = Row}, Last) ->
            Now = max(Time, Last),
            Who = {map_get(S, Schedulers), min(map_get(By, Callers), ?CALLERS - 1), map_get(To, Processes)},
            {[tick(Now) || Now > Last] ++ lines(What, Now, Who, Row), Now}
        end,
        0,
        Entries
    ),
    [settings(map_size(Schedulers), map_size(Processes), Slots, min(map_size(Callers), ?CALLERS)) | Lines].

numbers(Values) ->
    Different = lists:usort(Values),
    maps:from_list(lists:zip(Different, lists:seq(0, length(Different) - 1))).

%% Each timer has a slot of its own on the wheel of its scheduler.
slots(Rows) ->
    {Numbered, _} = lists:mapfoldl(
        fun(Row = #{scheduler := Scheduler}, Next) ->
            Slot = maps:get(Scheduler, Next, 0),
            {Row#{slot => Slot}, Next#{Scheduler => Slot + 1}}
        end,
        #{},
        Rows
    ),
    Numbered.

%% The times of a timer in nanoseconds after the start of the history: when it was started, what its deadline is, and when it
%% arrived at the latest or was cancelled.
at(Timer = #{started := {Began, Returned}, fate := Fate, gone := Gone}, Start) ->
    Bracket = {Began - Start, Returned - Start},
    Wait = wait(Timer, Start div ?MILLISECOND),
    case Fate of
        {cancelled, Left, {From, To}} ->
            {Started, Cancelled} = fitting(Bracket, {From - Start, To - Start}, Wait, Left),
            Timer#{start => Started, deadline => due(Started, Wait), ends => {cancel, Cancelled, Left}};
        {arrived, At} ->
            Timer#{start => Began - Start, deadline => due(Began - Start, Wait), ends => {expire, min(At, Gone) - Start}};
        armed ->
            Timer#{start => Began - Start, deadline => due(Began - Start, Wait), ends => none}
    end.

wait(#{is_absolute := true, wait := At}, Start) -> {at, max(0, At - Start)};
wait(#{wait := Wait}, _) -> {'after', Wait}.

due(_, {at, At}) -> At;
due(Started, {'after', Wait}) -> ertime_tap_log:up(Started) + Wait.

%% The earliest times within both calls with which so many milliseconds are left; where there are none, those when they began.
fitting(Started, Cancelled, Wait, Left) ->
    Fits = [{S, C} || S <- moments(Started), C <- moments(Cancelled), max(0, due(S, Wait) - ertime_tap_log:up(C)) =:= Left],
    hd(Fits ++ [{element(1, Started), element(1, Cancelled)}]).

%% When it began, and the first moment of each millisecond that began meanwhile.
moments({Began, Returned}) -> [Began | lists:seq(ertime_tap_log:up(Began) * ?MILLISECOND + 1, Returned, ?MILLISECOND)].

%% When each timer that arrived has expired, at the latest: before those of its wheel that are due later have arrived. One that
%% arrived before it was due is left where it is.
expiries(Rows) ->
    Schedulers = lists:usort([Scheduler || #{scheduler := Scheduler} <- Rows]),
    lists:append([expiries_of([Row || Row = #{scheduler := S, ends := {expire, _}} <- Rows, S =:= Scheduler]) || Scheduler <- Schedulers]).

expiries_of(Rows) ->
    InOrder = lists:sort([{Deadline, Start, Number, Row} || Row = #{deadline := Deadline, start := Start, number := Number} <- Rows]),
    {Entries, _} = lists:mapfoldr(
        fun
            ({Deadline, Start, Number, Row = #{ends := {expire, At}}}, Latest) when At >= Deadline * ?MILLISECOND ->
                {{min(At, Latest), 1, {Deadline, Start, Number}, expire, Row}, min(At, Latest)};
            ({Deadline, Start, Number, Row = #{ends := {expire, At}}}, Latest) ->
                {{At, 1, {Deadline, Start, Number}, expire, Row}, Latest}
        end,
        infinity,
        InOrder
    ),
    Entries.

calls(Row = #{start := Start, number := Number, ends := {cancel, At, Left}}) ->
    [{Start, 0, {Start, Number, 0}, start, Row}, {At, 2, {At, Number, 0}, {cancel, Left}, Row}];
calls(Row = #{start := Start, number := Number}) ->
    [{Start, 0, {Start, Number, 0}, start, Row}].

tick(Now) -> io_lib:format("k c0 tick ~w ~w plain ~w~n", [Now, Now, Now]).

lines(start, Now, {S, C, P}, #{slot := Slot, kind := Kind, number := Number} = Row) ->
    {What, Wait} = shown(Row),
    Form = case Kind of start_timer -> wrapped; send_after -> bare end,
    io_lib:format("c~w - look ~w~nc~w w~w arm ~w ~w 1 ~s ~w ~w ~w ~s~n", [C, Now, C, S, S, Slot, What, Wait, P, Number, Form]);
lines({cancel, Left}, Now, {S, C, _}, #{slot := Slot}) ->
    io_lib:format("c~w - look ~w~nc~w - cancel ~w ~w 1 ~w~n", [C, Now, C, S, Slot, Left]);
lines(expire, Now, {S, _, P}, #{slot := Slot}) ->
    io_lib:format("s~w - look ~w~ns~w w~w expire ~w ~w 1~ns~w m~w deliver ~w ~w 1~n", [S, Now, S, S, S, Slot, S, P, S, Slot]).

shown(#{is_absolute := true, deadline := At}) -> {"at", At};
shown(#{wait := Wait}) -> {"after", Wait}.
