%% A property by PropEr: whatever the clocks do, a lease by monotonic time is held just as long as it says. With `system' in the
%% place of `monotonic' a leap makes it fail. `main/0' tries the one, and finds a counterexample of the other. `properties/run'
%% compiles and runs it, where PropEr is (Debian: erlang-proper-dev).
-module(prop_lease).

-include_lib("proper/include/proper.hrl").

-export([main/0]).

-define(HOUR, 3600000).

main() ->
    true = proper:quickcheck(prop_lease(monotonic), [{numtests, 25}]),
    false = proper:quickcheck(prop_lease(system), [{numtests, 25}, quiet, noshrink]),
    io:format("25 tests passed; by system time it fails: ~0p~n", [proper:counterexample()]),
    halt(0).

prop_lease(Time) ->
    ?FORALL(Steps, list(oneof([{advance, up_to(0, 2 * ?HOUR)}, {warp, up_to(-24 * ?HOUR, 24 * ?HOUR)}, renew])),
        ertime:test(#{mode => multi_time_warp, start => 0}, fun(Clock) ->
            {ok, Lease} = lease:start_link(Time, ?HOUR),
            is_right(Steps, Clock, Lease, ?HOUR)
        end)).

%% Without the size PropEr keeps to small numbers, here of milliseconds.
up_to(Least, Most) ->
    resize(Most, range(Least, Most)).

is_right([], _, _, _) ->
    true;
is_right([Step | Steps], Clock, Lease, Ends0) ->
    Ends = step(Step, Clock, Lease, Ends0),
    lease:is_held(Lease) =:= (erlang:monotonic_time(millisecond) < Ends) andalso is_right(Steps, Clock, Lease, Ends).

step({advance, Time}, Clock, _, Ends) -> ertime:advance(Clock, Time), Ends;
step({warp, By}, Clock, _, Ends) -> ertime:warp(Clock, By), Ends;
step(renew, _, Lease, _) -> lease:renew(Lease), erlang:monotonic_time(millisecond) + ?HOUR.
