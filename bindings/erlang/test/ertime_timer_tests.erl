%% The functions of the module `timer' by the clock of a test. This module is transformed.
-module(ertime_timer_tests).

-compile({parse_transform, ertime_transform}).

-export([tell/2]).

-include_lib("eunit/include/eunit.hrl").

timers_test_() ->
    [
        {Name, {timeout, 120, fun() -> ?assertEqual(Expected, ertime:test(#{start => 0}, fun(Clock) -> Do(Clock) end)) end}}
     || {Name, Expected, Do} <- [
            {"send_after", [{10, x}, {20, y}], fun(Clock) ->
                {ok, _} = timer:send_after(20, y),
                {ok, _} = timer:send_after(10, self(), x),
                {ok, Never} = timer:send_after(15, self(), z),
                {ok, cancel} = timer:cancel(Never),
                by_steps(Clock, 30)
            end},
            {"send_after, by name", [{5, x}], fun(Clock) ->
                register(ertime_timer_test, self()),
                {ok, _} = timer:send_after(5, ertime_timer_test, x),
                {ok, _} = timer:send_after(5, ertime_no_such_name, x),
                by_steps(Clock, 10)
            end},
            {"apply_after", [{10, {10, applied}}], fun(Clock) ->
                {ok, _} = timer:apply_after(10, ?MODULE, tell, [self(), applied]),
                {ok, Never} = timer:apply_after(10, ?MODULE, tell, [self(), cancelled]),
                {ok, cancel} = timer:cancel(Never),
                {ok, cancel} = timer:cancel(Never),
                by_steps(Clock, 20)
            end},
            {"send_interval", [{10, x}, {20, x}, {30, x}], fun(Clock) ->
                {ok, Timer} = timer:send_interval(10, x),
                First = by_steps(Clock, 35),
                {ok, cancel} = timer:cancel(Timer),
                First ++ by_steps(Clock, 100)
            end},
            {"apply_interval", [{10, {10, x}}, {20, {20, x}}], fun(Clock) ->
                {ok, _} = timer:apply_interval(10, ?MODULE, tell, [self(), x]),
                by_steps(Clock, 25)
            end},
            {"an interval ends with its process", 0, fun(Clock) ->
                Self = self(),
                {Pid, Monitor} = spawn_monitor(fun() -> {ok, _} = timer:apply_interval(10, ?MODULE, tell, [Self, x]) end),
                receive {'DOWN', Monitor, _, Pid, _} -> ok end,
                by_steps(Clock, 50),
                length(maps:get(timers, ertime:info(Clock)))
            end},
            {"exit_after and kill_after", [{by_name, 25}, {killed, 20}, {late, 10}], fun(Clock) ->
                Pids = [spawn_monitor(fun() -> receive never -> ok end end) || _ <- [1, 2, 3]],
                [{A, _}, {B, _}, {C, _}] = Pids,
                register(ertime_timer_exits, C),
                {ok, _} = timer:exit_after(10, A, late),
                {ok, _} = timer:kill_after(20, B),
                {ok, _} = timer:exit_after(25, ertime_timer_exits, by_name),
                {ok, _} = timer:exit_after(25, ertime_no_such_name, by_name),
                Ends = [{Reason, At} || {At, {'DOWN', _, _, _, Reason}} <- by_steps(Clock, 30)],
                lists:sort(Ends)
            end},
            {"tc", {1500, 1500000, ok}, fun(_) ->
                ertime:advance(ertime:clock(), auto),
                {First, ok} = timer:tc(fun() -> timer:sleep(1500) end, millisecond),
                {Second, ok} = timer:tc(timer, sleep, [1500]),
                {First, Second, ok}
            end},
            {"bad arguments", lists:duplicate(6, {error, badarg}), fun(_) ->
                [
                    timer:send_after(-1, x), timer:send_after(a, self(), x), timer:apply_after(1, m, f, x), timer:apply_interval(-1, m, f, []),
                    timer:send_interval(x, y), timer:send_interval(1, "name", y)
                ]
            end}
        ]
    ].

tell(To, What) ->
    To ! {erlang:monotonic_time(millisecond), What}.

%% What comes, and when, millisecond by millisecond.
by_steps(_, 0) ->
    [];
by_steps(Clock, Left) ->
    ertime:advance(Clock, 1),
    received(erlang:monotonic_time(millisecond)) ++ by_steps(Clock, Left - 1).

received(At) ->
    receive
        Message -> [{At, Message} | received(At)]
    after 0 -> []
    end.

%% The server of a clock ends with its last timer, or with the clock.
server_test_() ->
    {timeout, 120, fun server/0}.

server() ->
    Self = self(),
    ertime:test(fun(Clock) ->
        {ok, _} = timer:apply_after(10, erlang, send, [self(), x]),
        First = ertime_keeper:get({timer, Clock}),
        ?assert(is_process_alive(First)),
        1 = ertime:advance(Clock, 10),
        ?assertEqual(none, ertime_keeper:get({timer, Clock})),
        {ok, _} = timer:send_interval(10, x),
        Self ! ertime_keeper:get({timer, Clock})
    end),
    Second = receive Pid -> Pid end,
    ?assertNot(is_process_alive(Second)).

%% Without a clock they are those of the runtime, and a timer of each kind is cancelled by the one function.
real_test_() ->
    {timeout, 120, fun real/0}.

real() ->
    {ok, _} = timer:send_after(1, x),
    receive x -> ok end,
    {ok, Real} = timer:send_interval(100000, x),
    ertime:test(fun(_) -> ?assertEqual({ok, cancel}, timer:cancel(Real)) end),
    ?assertEqual({error, badarg}, timer:cancel(nothing)).
