%% @private
%% What is known of the clocks of this node beside what the NIF knows, in a table. The process that owns it starts with the first
%% clock that is opened, and stays.
%%
%% It also wakes those who wait with a timeout of a clock that was closed, by the runtime's clock.
-module(ertime_keeper).

-export([start/0, later/2, put/2, put_new/2, take/1, drop/2, has/1, get/1, allow/2, allowed/1, disallow/1, resume/1, stop/1, is_any_held/0]).

-compile({no_auto_import, [put/2, get/1]}).

-include("ertime.hrl").

-define(TABLE, ?MODULE).

start() ->
    Self = self(),
    {Pid, Monitor} = spawn_monitor(fun() -> own(Self) end),
    receive
        {?MODULE, Pid} -> erlang:demonitor(Monitor, [flush]);
        {'DOWN', Monitor, process, Pid, Reason} -> error(Reason)
    end,
    ok.

own(Starter) ->
    true = register(?MODULE, self()),
    ?TABLE = ets:new(?TABLE, [named_table, public, {read_concurrency, true}]),
    _ = ertime_seen:tables(),
    %% It is no process of the clock of the one that started it.
    _ = erlang:put('$ertime', none),
    Starter ! {?MODULE, self()},
    stay(#{}).

%% --- timeouts of clocks that were closed --------------------------------------------------------------------------

%% The timers of those who wait, with what is left of each.
-spec resume([{non_neg_integer(), pid(), reference()}]) -> ok.
resume(Asleep) ->
    ?MODULE ! {resume, Asleep},
    ok.

%% The calling process waits no longer, and no message of the timer will come.
-spec stop(reference()) -> ok.
stop(Timer) ->
    ?MODULE ! {stop, self(), Timer},
    receive
        {?MODULE, Timer, stopped} -> ok;
        {?MODULE, Timer, unknown} ->
            receive
                {timeout, Timer, ?AFTER} ->
                    ?MODULE ! {forget, Timer},
                    ok
            after 0 -> ok
            end
    end.

%% A timer that is unknown was woken before, or will be told of by whoever closes its clock just now; then it isn't woken.
stay(Timers) ->
    receive
        {resume, Asleep} ->
            stay(lists:foldl(fun resumed/2, Timers, Asleep));
        {timeout, _, {wake, Timer, To}} when is_map_key(Timer, Timers) ->
            To ! {timeout, Timer, ?AFTER},
            stay(maps:remove(Timer, Timers));
        {stop, From, Timer} when is_map_key(Timer, Timers) ->
            {Real, Others} = maps:take(Timer, Timers),
            _ = erlang:cancel_timer(Real),
            From ! {?MODULE, Timer, stopped},
            stay(Others);
        {stop, From, Timer} ->
            From ! {?MODULE, Timer, unknown},
            stay(Timers#{Timer => never});
        {forget, Timer} ->
            stay(maps:remove(Timer, Timers));
        _ ->
            stay(Timers)
    end.

resumed({_, _, Timer}, Timers) when map_get(Timer, Timers) =:= never ->
    maps:remove(Timer, Timers);
resumed({Left, To, Timer}, Timers) ->
    Timers#{Timer => erlang:start_timer(Left, self(), {wake, Timer, To})}.

%% --- the table ----------------------------------------------------------------------------------------------------

%% The time, or the one after what was answered last for this key.
later(Key, Time) ->
    case ets:lookup(?TABLE, {later, Key}) of
        [] ->
            case ets:insert_new(?TABLE, {{later, Key}, Time}) of
                true -> Time;
                false -> later(Key, Time)
            end;
        [{At, Last}] ->
            New = max(Time, Last + 1),
            case ets:select_replace(?TABLE, [{{At, Last}, [], [{{{const, At}, New}}]}]) of
                1 -> New;
                0 -> later(Key, Time)
            end
    end.

put(Key, Value) ->
    true = ets:insert(?TABLE, {Key, Value}),
    ok.

%% Whether nothing stood there.
put_new(Key, Value) ->
    ets:insert_new(?TABLE, {Key, Value}).

%% What stood there, which is gone now, or none.
take(Key) ->
    case ets:take(?TABLE, Key) of
        [{_, Value}] -> Value;
        [] -> none
    end.

%% It stands there no longer, if it did.
drop(Key, Value) ->
    true = ets:delete_object(?TABLE, {Key, Value}),
    ok.

get(Key) ->
    case ets:lookup(?TABLE, Key) of
        [{_, Value}] -> Value;
        [] -> none
    end.

has(Key) ->
    ets:member(?TABLE, Key).

%% Whether a process lets others stand still that belong to no test which it knows (`ertime_test:held/2').
is_any_held() ->
    lists:any(fun([Pid]) -> is_process_alive(Pid) end, ets:match(?TABLE, {{holds, '$1'}, '_'})).

%% --- processes that were allowed a clock --------------------------------------------------------------------------

allow(Clock, Pid) ->
    put({allowed, Pid}, Clock),
    put({allows, Clock}, true).

%% Of most clocks there are none.
allowed(Clock) ->
    case has({allows, Clock}) of
        true -> lists:sort([Pid || [Pid] <- ets:match(?TABLE, {{allowed, '$1'}, Clock})]);
        false -> []
    end.

disallow(Clock) ->
    true = ets:match_delete(?TABLE, {{allowed, '_'}, Clock}),
    true = ets:delete(?TABLE, {allows, Clock}),
    ok.
