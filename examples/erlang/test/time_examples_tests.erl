-module(time_examples_tests).

-include_lib("eunit/include/eunit.hrl").

-define(HOUR, 3600000).

%% A day of retries: how often it was tried, and that the last try came when the function could succeed.
retry_test() ->
    ertime:test(#{start => 0}, fun(Clock) ->
        Test = self(),
        spawn_link(fun() -> Test ! {done, retry:run(tried(Test))} end),
        ertime:advance(Clock, {90000, second}),
        Tries = tries(),
        ?assertEqual([0, 1, 3, 7, 15, 31], lists:sublist(Tries, 6)),
        ?assertEqual(36, length(Tries)),
        ?assertEqual(there, receive {done, Value} -> Value after 0 -> nothing end)
    end).

%% The same where the time goes on by itself: nobody counts the hours.
retry_by_itself_test() ->
    ertime:test(#{start => 0, advance => auto}, fun(_) ->
        ?assertEqual(there, retry:run(tried(self()))),
        ?assertEqual(36, length(tries()))
    end).

%% It succeeds after a day.
tried(Test) ->
    fun() ->
        Now = erlang:monotonic_time(second),
        Test ! {tried, Now},
        case Now < 86400 of
            true -> error;
            false -> {ok, there}
        end
    end.

tries() ->
    receive
        {tried, At} -> [At | tries()]
    after 0 -> []
    end.

%% An hour's lease, and a leap of the system clock by a day. The lease that takes system time for an interval is lost.
lease_test_() ->
    [
        {"monotonic", fun() -> ?assertEqual([true, true, true, false], lease(monotonic)) end},
        {"the fault of system time", fun() -> ?assertEqual([true, false, true, true], lease(system)) end}
    ].

lease(Time) ->
    ertime:test(#{mode => multi_time_warp}, fun(Clock) ->
        {ok, Lease} = lease:start_link(Time, ?HOUR),
        First = lease:is_held(Lease),
        ertime:warp(Clock, {86400, second}),
        Forward = lease:is_held(Lease),
        lease:renew(Lease),
        ertime:warp(Clock, {-86400, second}),
        Back = lease:is_held(Lease),
        ertime:advance(Clock, ?HOUR),
        [First, Forward, Back, lease:is_held(Lease)]
    end).

%% Whatever the clocks do: the lease by monotonic time is right after each of some steps at random, and that by system time isn't.
random_test() ->
    ?assertEqual([], [Seed || Seed <- lists:seq(1, 30), not is_right(monotonic, Seed)]),
    ?assertNotEqual([], [Seed || Seed <- lists:seq(1, 30), not is_right(system, Seed)]).

is_right(Time, Seed) ->
    ertime:test(#{mode => multi_time_warp, start => 0}, fun(Clock) ->
        rand:seed(exsss, Seed),
        {ok, Lease} = lease:start_link(Time, ?HOUR),
        steps(20, Clock, Lease, ?HOUR)
    end).

steps(0, _, _, _) ->
    true;
steps(Left, Clock, Lease, Ends0) ->
    Ends =
        case rand:uniform(3) of
            1 -> ertime:advance(Clock, rand:uniform(2 * ?HOUR)), Ends0;
            2 -> ertime:warp(Clock, rand:uniform(48 * ?HOUR) - 24 * ?HOUR), Ends0;
            3 -> lease:renew(Lease), erlang:monotonic_time(millisecond) + ?HOUR
        end,
    lease:is_held(Lease) =:= (erlang:monotonic_time(millisecond) < Ends) andalso steps(Left - 1, Clock, Lease, Ends).

%% At half past midnight of the system clock, though that leaps by a quarter of an hour, forward and back.
wall_clock_test() ->
    ertime:test(#{mode => multi_time_warp, os_time => {1767225600, second}}, fun(Clock) ->
        {ok, _} = wall_clock:start_link(1767225600 + 1800, self(), {now, half_past}),
        ertime:warp(Clock, {900, second}),
        0 = received(),
        ertime:advance(Clock, {899, second}),
        ?assertEqual(0, received()),
        ertime:warp(Clock, {-300, second}),
        ertime:advance(Clock, {300, second}),
        ?assertEqual(0, received()),
        ertime:advance(Clock, {1, second}),
        ?assertEqual(1, received()),
        ?assertEqual(1767225600 + 1800, erlang:system_time(second))
    end).

received() ->
    receive
        {now, half_past} -> 1
    after 0 -> 0
    end.

%% The timeouts of gen_statem are its own: OTP's behaviours are transformed too.
door_test_() ->
    {setup, fun() -> ok = ertime:transform(otp) end, fun(_) -> ok = ertime:untransform(otp) end, {timeout, 60, fun door/0}}.

door() ->
    ertime:test(#{}, fun(Clock) ->
        {ok, Door} = door:start_link(),
        ok = door:open(Door),
        ertime:advance(Clock, 599999),
        ?assertEqual(opened, door:state(Door)),
        ertime:advance(Clock, 1),
        ?assertEqual(closed, door:state(Door))
    end).
