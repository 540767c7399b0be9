%% A lease that a store keeps for the nodes: who holds it, and until when by system time. That is the fault: each node looks at
%% its own system clock. With each lease the store gives a number that rises, by which it can tell an old holder's writes.
-module(ertime_nodes_lease).

-compile({parse_transform, ertime_transform}).

-export([store/1, worker/2]).

%% fenced: the store refuses writes with a number below the greatest that it has given.
store(Fenced) ->
    store(Fenced, #{holder => none, ends => 0, number => 0, writes => [], old => 0}).

store(Fenced, State = #{holder := Holder, ends := Ends, number := Number, writes := Writes}) ->
    receive
        {lease, From} ->
            From ! {lease, Holder, Ends},
            store(Fenced, State);
        {take, From, Until} ->
            From ! {taken, Number + 1},
            store(Fenced, State#{holder := From, ends := Until, number := Number + 1});
        {write, From, With} when Fenced, With < Number ->
            From ! refused,
            store(Fenced, State);
        {write, From, With} ->
            From ! written,
            Old = case With < Number of true -> 1; false -> 0 end,
            store(Fenced, State#{writes := [node(From) | Writes], old := maps:get(old, State) + Old});
        {old, From} ->
            From ! {old, maps:get(old, State)},
            store(Fenced, State);
        {writes, From} ->
            From ! {writes, lists:reverse(Writes)},
            store(Fenced, State)
    end.

%% Each ten seconds: who holds the lease by its own reckoning writes; else it takes the lease where that has ended.
worker(Store, Length) ->
    worker(Store, Length, none).

worker(Store, Length, Mine) ->
    timer:sleep(10000),
    Now = erlang:system_time(second),
    Store ! {lease, self()},
    {_, Ends} = receive {lease, Holder, Until} -> {Holder, Until} end,
    case Mine of
        {Number, Mine_ends} when Now < Mine_ends ->
            Store ! {write, self(), Number},
            receive
                written -> worker(Store, Length, Mine);
                refused -> worker(Store, Length, none)
            end;
        _ when Now >= Ends ->
            Store ! {take, self(), Now + Length},
            receive
                {taken, Number} -> worker(Store, Length, {Number, Now + Length})
            end;
        _ ->
            worker(Store, Length, none)
    end.
