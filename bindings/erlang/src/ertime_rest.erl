%% @private
%% Waits until the processes of a clock rest: each waits for a message, and nobody is at work for whom one of them waits.
%%
%% The processes of the clock, its members, are those that have called it, and those that would see it if they did. They are
%% looked at twice. Where each was found waiting both times, with the same count of reductions, all of them rested at every
%% moment in between; and so did the processes that load code, without which who loads a module would seem to rest. In between it
%% is seen that nobody works for a member: nothing else runs on the node (is_idle/0), or nobody of those who are at work is waited
%% for by a member (`ertime_others').
%%
%% Whom the runtime suspends until all schedulers have gone on is at work, with nothing to run. So a member that is suspended
%% rests only once it has been so for a while, as where `erlang:suspend_process/1' was called; and who puts a persistent term is
%% waited for in any case.
-module(ertime_rest).

-export([wait/1, rests/3, describe/1, monitored_by/1, processes_of/1]).

-define(KEY, '$ertime_rest').
-define(YIELDS, 200).
-define(SUSPENDED, 100).
-define(LOADERS, [code_server, erl_prim_loader, erts_code_purger]).
-define(OWN_MODULES, [ertime, ertime_timers, ertime_rest, ertime_others, ertime_watch, ertime_use, ertime_nif]).

-record(known, {
    clock,
    members = #{},    % pid => []
    busy = none,      % the member that was found at work last
    allowed = [],     % those of them that were allowed the clock
    suspended = #{},  % pid => {its reductions, the millisecond in which it was first seen suspended with them}
    others            % what `ertime_others' knows of the node
}).

%% Raises who doesn't rest within the limit of the application. It looks so many times at least: where the machine is slow, there are
%% few looks in that time, and who was at work at one of them may rest.
wait(Clock) ->
    wait(Clock, ?YIELDS, erlang:monotonic_time(millisecond) + application:get_env(ertime, rest_limit, 5000)).

wait(Clock, Looks, Until) ->
    case loop(known(Clock), 0, Looks, Until) of
        rest ->
            ok;
        {busy, Busy} ->
            case [describe(Pid) || Pid <- lists:usort(Busy), is_process_alive(Pid)] of
                [] ->
                    wait(Clock, 1, Until);
                Busiest ->
                    erase(?KEY),
                    error({not_at_rest, Busiest})
            end
    end.

%% Whether they rest: it looks for so many milliseconds, and so many times at least. What was seen is kept for the next call.
rests(Clock, Looks, Milliseconds) ->
    loop(known(Clock), 0, Looks, erlang:monotonic_time(millisecond) + Milliseconds) =:= rest.

known(Clock) ->
    case get(?KEY) of
        #known{clock = Clock} = Before -> Before;
        _ -> #known{clock = Clock, others = ertime_others:new()}
    end.

loop(Known, Round, Looks, Until) ->
    case look(Known) of
        {rest, New} -> put(?KEY, New), rest;
        {busy, Busy, New} -> again(New, Busy, Round, Looks, Until)
    end.

again(Known, Busy, Round, Looks, Until) ->
    case Round >= Looks andalso erlang:monotonic_time(millisecond) >= Until of
        true ->
            put(?KEY, Known),
            {busy, Busy};
        false when Round < ?YIELDS ->
            erlang:yield(),
            loop(Known, Round + 1, Looks, Until);
        false ->
            receive
            after 1 -> loop(Known, Round + 1, Looks, Until)
            end
    end.

%% --- two looks ----------------------------------------------------------------------------------------------------

%% Who was at work last most likely still is.
look(Known0 = #known{busy = Last}) ->
    case is_pid(Last) andalso state(Last, Known0) of
        {busy, Known} ->
            {busy, [Last], Known};
        _ ->
            Known = join(Known0#known{busy = none}),
            case scan(Known) of
                {Seen, New} -> between(New, Seen, is_idle());
                Busy -> Busy
            end
    end.

join(Known = #known{clock = Clock, members = Members, allowed = Before, others = Others}) ->
    Allowed = ertime_keeper:allowed(Clock),
    Known#known{
        members = lists:foldl(fun(Pid, Sum) -> Sum#{Pid => []} end, Members, Allowed ++ ertime_nif:members(Clock)),
        allowed = Allowed,
        %% Those below one that was allowed the clock are members from then on.
        others = case Allowed of Before -> Others; _ -> ertime_others:new() end
    }.

between(Known, Seen, true) ->
    confirmed(Known, Seen);
between(Known = #known{clock = Clock, members = Members, others = Others}, Seen, false) ->
    case ertime_others:discover(Clock, Members, Others) of
        {[], [], New} -> among(Known#known{others = New}, Seen);
        {Joined, Undecided, New} -> {busy, Undecided, Known#known{members = maps:merge(Members, maps:from_keys(Joined, [])), others = New}}
    end.

%% Others are asked for nothing where none of them is at work.
among(Known = #known{others = Others}, Seen) ->
    case confirmed(Known, Seen) of
        {rest, New} ->
            case ertime_others:all_wait(Others) of
                true -> {rest, New#known{others = ertime_others:rested(Others)}};
                false -> asked(New, Seen)
            end;
        Busy ->
            Busy
    end.

asked(Known = #known{members = Members, others = Others}, Seen) ->
    case ertime_others:ask([It || It = {Pid, _} <- Seen, is_map_key(Pid, Members)], Members, Others) of
        {rest, New} -> {rest, Known#known{others = ertime_others:rested(New)}};
        {busy, Busy, New} -> {busy, Busy, Known#known{others = New}}
    end.

%% They are as they were.
confirmed(Known, Seen) ->
    case scan(Known) of
        {Seen, New} -> {rest, New};
        {Others, New} -> {busy, [Pid || {Pid, _} <- Others -- Seen], New};
        Busy -> Busy
    end.

%% The count of each, or one that is at work.
scan(Known = #known{members = Members}) ->
    Loaders = [{Pid, process_info(Pid, [status, reductions])} || Pid <- loaders()],
    case [Pid || {Pid, [{_, Status}, _]} <- Loaders, Status =/= waiting] of
        [] -> scan(maps:keys(Members) -- [self()], [{Pid, Count} || {Pid, [_, {_, Count}]} <- Loaders], Known);
        Busy -> {busy, Busy, Known}
    end.

scan([Pid | Pids], Seen, Known = #known{members = Members}) ->
    case state(Pid, Known) of
        gone -> scan(Pids, Seen, Known#known{members = maps:remove(Pid, Members)});
        {busy, New} -> {busy, [Pid], New#known{busy = Pid}};
        {Count, New} -> scan(Pids, [{Pid, Count} | Seen], New)
    end;
scan([], Seen, Known) ->
    {Seen, Known}.

state(Pid, Known = #known{suspended = Suspended}) ->
    case process_info(Pid, [status, reductions]) of
        undefined -> gone;
        [{_, waiting}, {_, Count}] when map_size(Suspended) =:= 0 -> {Count, Known};
        [{_, waiting}, {_, Count}] -> {Count, Known#known{suspended = maps:remove(Pid, Suspended)}};
        [{_, suspended}, {_, Count}] ->
            %% One that stands still because of a fault of time does so until the time has passed.
            case ertime_drive:is_paused(Pid) of
                true -> {Count, Known};
                false -> suspended(Pid, Count, Known)
            end;
        _ -> {busy, Known}
    end.

suspended(Pid, Count, Known = #known{suspended = Suspended}) ->
    Now = erlang:monotonic_time(millisecond),
    case Suspended of
        #{Pid := {Count, Since}} when Now - Since < ?SUSPENDED ->
            {busy, Known};
        #{Pid := {Count, _}} ->
            puts_no_term(),
            case not ertime_keeper:is_any_held() andalso process_info(Pid, [status, reductions]) of
                [{_, suspended}, {_, Count}] -> {Count, Known};
                _ -> {busy, Known#known{suspended = Suspended#{Pid => {Count, Now}}}}
            end;
        _ ->
            {busy, Known#known{suspended = Suspended#{Pid => {Count, Now}}}}
    end.

loaders() ->
    [Pid || Name <- ?LOADERS, Pid <- [whereis(Name)], is_pid(Pid)].

%% --- nothing else runs --------------------------------------------------------------------------------------------

%% That is seen at one moment: between two counts of context switches the calling process alone was scheduled in, and the counts
%% of active tasks in between found it alone, so no other was running or runnable. It yields once, since it may have a signal to
%% answer for which another waits.
is_idle() ->
    {Switches, _} = erlang:statistics(context_switches),
    is_alone() andalso erlang:yield() andalso is_alone() andalso puts_no_term() andalso is_alone() andalso
        {Switches + 1, 0} =:= erlang:statistics(context_switches).

is_alone() ->
    erlang:statistics(total_active_tasks_all) =:= 1.

%% One process at a time may change the persistent terms, and is suspended until all schedulers have seen the change. Whoever
%% erases a key, and be it one that isn't there, is suspended until the one before has done.
puts_no_term() ->
    not persistent_term:erase(?KEY).

%% --- what is told -------------------------------------------------------------------------------------------------

%% The processes of this node that it monitors.
monitored_by(Pid) ->
    case process_info(Pid, monitors) of
        {monitors, Monitors} -> processes_of(Monitors);
        undefined -> []
    end.

processes_of(Monitors) ->
    lists:append([pid_of(Monitor) || Monitor <- Monitors]).

pid_of({process, Pid}) when is_pid(Pid), node(Pid) =:= node() -> [Pid];
pid_of({process, {Name, Node}}) when Node =:= node() -> [P || P <- [whereis(Name)], is_pid(P)];
pid_of(_) -> [].

describe(Pid) ->
    case process_info(Pid, [registered_name, status, current_function, current_stacktrace, initial_call, message_queue_len]) of
        undefined -> {Pid, []};
        Info -> {Pid, [short(Item) || Item <- without_own(Info), Item =/= {registered_name, []}]}
    end.

%% Whoever sleeps under a clock is shown as who sleeps without one: waiting in `timer:sleep/1', whatever of this package it is in.
without_own(Info) ->
    {_, Stack} = lists:keyfind(current_stacktrace, 1, Info),
    case lists:splitwith(fun({Module, _, _, _}) -> lists:member(Module, ?OWN_MODULES) end, Stack) of
        {Own, Rest} when Own =/= [] ->
            case lists:keymember(ertime_timers, 1, Own) of
                true -> lists:foldl(fun replaced/2, Info, [{status, waiting}, {current_function, {timer, sleep, 1}}, {current_stacktrace, [{timer, sleep, 1, []} | Rest]}]);
                false -> Info
            end;
        _ ->
            Info
    end.

replaced(Item, Info) ->
    lists:keyreplace(element(1, Item), 1, Info, Item).

short({current_stacktrace, Stack}) -> {current_stacktrace, lists:sublist(Stack, 6)};
short(Item) -> Item.
