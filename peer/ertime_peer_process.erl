%% A process of a scenario. It does what the driver asks of it, one request after the other; between two requests its
%% mailbox holds nothing but what the runtime system put there.
-module(ertime_peer_process).

-export([start/0, ask/2]).
-export_type([request/0, counts/0]).

-type request() ::
    count
    | take
    | drop_changes
    | monitor
    | {demonitor, reference()}
    | {cancel_async, reference(), Info :: boolean()}
    | {read_async, reference()}.
-type counts() :: {Timers :: non_neg_integer(), Changes :: non_neg_integer()}.

-spec start() -> pid().
start() ->
    spawn(fun loop/0).

%% The answer of the process, or `exited` where there is none any more.
-spec ask(pid(), request()) -> term().
ask(Process, Request) ->
    Watch = erlang:monitor(process, Process),
    Process ! {?MODULE, self(), Watch, Request},
    receive
        {?MODULE, Watch, Answer} ->
            erlang:demonitor(Watch, [flush]),
            Answer;
        {'DOWN', Watch, process, Process, _Reason} ->
            exited
    end.

loop() ->
    receive
        {?MODULE, Driver, Watch, Request} ->
            Driver ! {?MODULE, Watch, answer(Request)},
            loop()
    end.

answer(count) ->
    {messages, Messages} = process_info(self(), messages),
    count(Messages, 0, 0);
answer(take) ->
    receive
        Message -> {message, Message}
    after 0 -> empty
    end;
answer(drop_changes) ->
    receive
        {'CHANGE', _, time_offset, clock_service, _} -> answer(drop_changes)
    after 0 -> ok
    end;
answer(monitor) ->
    erlang:monitor(time_offset, clock_service);
answer({demonitor, Monitor}) ->
    erlang:demonitor(Monitor, [info]);
answer({cancel_async, Timer, Info}) ->
    erlang:cancel_timer(Timer, [{async, true}, {info, Info}]);
answer({read_async, Timer}) ->
    erlang:read_timer(Timer, [{async, true}]).

-spec count([term()], non_neg_integer(), non_neg_integer()) -> counts().
count([{timeout, _, _} | Rest], Timers, Changes) ->
    count(Rest, Timers + 1, Changes);
count([Message | Rest], Timers, Changes) when is_integer(Message) ->
    count(Rest, Timers + 1, Changes);
count([{'CHANGE', _, time_offset, clock_service, _} | Rest], Timers, Changes) ->
    count(Rest, Timers, Changes + 1);
count([{Answer, _, _} | Rest], Timers, Changes) when Answer =:= cancel_timer; Answer =:= read_timer ->
    count(Rest, Timers, Changes);
count([], Timers, Changes) ->
    {Timers, Changes}.
