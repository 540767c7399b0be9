%% Which clock a process sees, whenever one comes or goes: what it was told before is never told again where it no longer holds.
-module(ertime_use_tests).

-include_lib("eunit/include/eunit.hrl").

%% Each in a process that no clock is seen from.
each_way_test_() ->
    [{Name, {timeout, 120, {spawn, {timeout, 120, fun() -> in_the_open(Do) end}}}} || {Name, Do} <- ways()].

%% In a process that has nothing to do with the one that tests.
in_the_open(Do) ->
    Self = self(),
    {ok, _} = timer:apply_after(0, erlang, apply, [fun() ->
        {Pid, Monitor} = spawn_monitor(Do),
        receive {'DOWN', Monitor, process, Pid, Reason} -> Self ! {ended, Reason} end
    end, []]),
    receive {ended, Reason} -> ?assertEqual(normal, Reason) end,
    ertime:use_everywhere(none).

ways() ->
    [
        {"a parent takes a clock, and leaves it", fun() ->
            Clock = ertime:open(),
            Child = child(),
            ?assertEqual(none, seen(Child)),
            ertime:use(Clock),
            ?assertEqual(Clock, seen(Child)),
            ertime:use(undefined),
            ?assertEqual(Clock, seen(Child)),
            true = ertime:close(Clock),
            ?assertEqual([told, not_told], [told(Child), told(Child)]),
            ?assertEqual(none, seen(Child))
        end},
        {"a clock that somebody else closes", fun() ->
            Clock = ertime:open(),
            Middle = start(fun() -> ertime:use(Clock) end),
            {Before, After} = {child_of(Middle), child_of(Middle)},
            Asked = child_of(Middle),
            ?assertEqual([Clock, Clock], [seen(Before), seen(Asked)]),
            true = ertime:close(Clock),
            ?assertEqual(none, do(Asked, fun ertime:clock/0)),
            ?assertEqual([told, told, told, told], [told(Pid) || Pid <- [Before, After, Asked, Middle]]),
            ?assertEqual([none, none, none, none, none], [seen(Pid) || Pid <- [Before, After, Asked, Middle, child_of(Middle)]])
        end},
        {"whoever closes its own clock", fun() ->
            Clock = ertime:open(),
            Pid = child(),
            do(Pid, fun() -> ertime:use(Clock) end),
            ?assertEqual(Clock, seen(Pid)),
            ?assertEqual(true, do(Pid, fun() -> ertime:close(Clock) end)),
            ?assertEqual(none, seen(Pid))
        end},
        {"with/2, and the clock from before is closed", fun() ->
            {First, Second} = {ertime:open(), ertime:open()},
            Pid = child(),
            do(Pid, fun() -> ertime:use(First), ertime:with(Second, fun() -> elsewhere(fun() -> ertime:close(First) end) end) end),
            ?assertEqual([told, not_told], [told(Pid), told(Pid)])
        end},
        {"timers of a clock that somebody else closes", fun() ->
            Clock = ertime:open(),
            Pid = child(),
            do(Pid, fun() -> ertime:use(Clock) end),
            true = ertime:close(Clock),
            ?assertEqual(told, do(Pid, fun() -> try ertime_timer:send_interval(1000, x) catch error:{clock_closed, _} -> told end end))
        end},
        {"a process that was allowed a clock, and one below it", fun() ->
            {Clock, Other} = {ertime:open(), ertime:open()},
            Pid = start(fun() -> register(ertime_use_allowed, self()) end),
            Below = child_of(Pid),
            ?assertEqual([none, none], [seen(Pid), seen(Below)]),
            ok = ertime:allow(Clock, ertime_use_allowed),
            ?assertEqual([Clock, Clock, Clock], [seen(Pid), seen(Below), seen(child_of(Pid))]),
            ?assertError(badarg, ertime:allow(Other, Pid)),
            ok = ertime:allow(Clock, Pid),
            true = ertime:close(Clock),
            ?assertEqual([none, none], [seen(Pid), seen(Below)]),
            ?assertError(closed, ertime:allow(Clock, Pid)),
            ok = ertime:allow(Other, Pid),
            ?assertEqual([Other, Other], [seen(Pid), seen(Below)]),
            ertime:close(Other)
        end},
        {"with/2 of a parent", fun() ->
            {First, Second} = {ertime:open(), ertime:open()},
            Child = child(),
            ?assertEqual(none, seen(Child)),
            ertime:with(First, fun() -> ?assertEqual(First, seen(Child)) end),
            Other = child(),
            ?assertEqual(none, seen(Other)),
            ertime:with(Second, fun() -> ?assertEqual([First, Second], [seen(Child), seen(Other)]) end),
            ?assertEqual([First, Second], [seen(Child), seen(Other)])
        end},
        {"an ancestor far up", fun() ->
            Clock = ertime:open(),
            Child = lists:foldl(fun(_, Pid) -> child_of(Pid) end, child(), lists:seq(1, 10)),
            ?assertEqual(none, seen(Child)),
            ertime:use(Clock),
            ?assertEqual(Clock, seen(Child))
        end},
        {"a supervisor by its name", fun() ->
            Clock = ertime:open(),
            Up = start(fun() -> register(ertime_use_up, self()) end),
            Child = start(fun() -> put('$ancestors', [ertime_use_up]) end),
            ?assertEqual(none, seen(Child)),
            do(Up, fun() -> ertime:use(Clock) end),
            ?assertEqual(Clock, seen(Child))
        end},
        {"a closed clock, and the next one above", fun() ->
            {Upper, Lower} = {ertime:open(), ertime:open()},
            ertime:use(Upper),
            Middle = child(),
            do(Middle, fun() -> ertime:use(Lower) end),
            Child = child_of(Middle),
            ?assertEqual(Lower, seen(Child)),
            ertime:close(Lower),
            ?assertEqual([Upper, Upper], [seen(Child), seen(Middle)])
        end},
        {"the clock of the node, another, and none", fun() ->
            {First, Second} = {ertime:open(), ertime:open()},
            Child = child(),
            ?assertEqual(none, seen(Child)),
            Seen = [begin ertime:use_everywhere(It), seen(Child) end || It <- [First, Second, none, First]],
            ?assertEqual([First, Second, none, First], Seen),
            ertime:close(First),
            ?assertEqual(none, seen(Child))
        end},
        {"the clock of the node, and that of a parent", fun() ->
            {Node, Clock} = {ertime:open(), ertime:open()},
            ertime:use_everywhere(Node),
            Child = child(),
            ?assertEqual(Node, seen(Child)),
            ertime:use(Clock),
            ?assertEqual(Clock, seen(Child)),
            ?assertEqual([], [Pid || Pid <- maps:get(processes, ertime:info(Node)), Pid =:= Child]),
            ertime:close(Clock),
            ?assertEqual(Node, seen(Child))
        end},
        {"callers, and those of an ancestor", fun() ->
            Clock = ertime:open(),
            Caller = child(),
            do(Caller, fun() -> ertime:use(Clock) end),
            Middle = child(),
            Child = child_of(Middle),
            ?assertEqual([none, none], [seen(Child), seen(Middle)]),
            do(Middle, fun() -> put('$callers', [Caller]) end),
            ?assertEqual(Clock, seen(Middle)),
            ?assertEqual(Clock, seen(Child)),
            Other = start(fun() -> ok end),
            ?assertEqual(none, seen(Other)),
            do(Other, fun() -> put('$ancestors', [Caller]) end),
            ?assertEqual(Clock, seen(Other))
        end},
        {"the runtime's clock of an ancestor", fun() ->
            Clock = ertime:open(),
            ertime:use(Clock),
            Middle = child(),
            do(Middle, fun() -> ertime:use(real) end),
            Child = child_of(Middle),
            ?assertEqual([none, none], [seen(Child), seen(Middle)]),
            do(Middle, fun() -> ertime:use(undefined) end),
            ?assertEqual([none, Clock], [seen(Child), seen(Middle)]),
            do(Child, fun() -> ertime:use(undefined) end),
            ?assertEqual(Clock, seen(Child))
        end},
        {"an ancestor exits", fun() ->
            Clock = ertime:open(),
            Middle = start(fun() -> ertime:use(Clock) end),
            {Before, After} = {child_of(Middle), child_of(Middle)},
            ?assertEqual(Clock, seen(Before)),
            exit(Middle, kill),
            wait_for(fun() -> not is_process_alive(Middle) end),
            ?assertEqual([Clock, none], [seen(Before), seen(After)])
        end}
    ].

%% A process that keeps its answers in any case: it calls a time each time it is asked.
child() -> start(fun() -> ok end).

child_of(Pid) -> do(Pid, fun child/0).

start(First) ->
    Pid = spawn_link(fun() -> First(), serve() end),
    _ = do(Pid, fun() -> ok end),
    unlink(Pid),
    Pid.

serve() ->
    receive
        {do, From, Do} ->
            From ! {done, self(), Do()},
            serve()
    end.

do(Pid, Do) ->
    Pid ! {do, self(), Do},
    receive {done, Pid, Result} -> Result end.

seen(Pid) ->
    do(Pid, fun() ->
        Times = [ertime:monotonic_time() || _ <- [1, 2]],
        Clock = ertime:clock(),
        ?assertEqual(Clock =:= none, abs(hd(Times) - erlang:monotonic_time()) < 60000000000),
        Clock
    end).

%% Whether its next call tells that its clock was closed.
told(Pid) ->
    do(Pid, fun() ->
        try ertime:monotonic_time() of
            _ -> not_told
        catch
            error:{clock_closed, Text} -> ?assert(io_lib:printable_list(Text)), told
        end
    end).

elsewhere(Do) ->
    {Pid, Monitor} = spawn_monitor(fun() -> exit({done, Do()}) end),
    receive {'DOWN', Monitor, process, Pid, {done, Result}} -> Result end.

wait_for(Is) ->
    Is() orelse begin erlang:yield(), wait_for(Is) end.
