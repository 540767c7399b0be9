%% A property by PropEr: under whatever faults of time a lease by monotonic time is held for an hour. With `system' in the place of
%% `monotonic' PropEr finds a schedule with which it isn't, and makes it small. `properties/run' compiles and runs it.
-module(prop_faults).

-include_lib("proper/include/proper.hrl").

-export([main/0]).

-define(HOUR, 3600000).

main() ->
    true = proper:quickcheck(prop_lease(monotonic), [{numtests, 50}]),
    false = proper:quickcheck(prop_lease(system), [{numtests, 200}, quiet]),
    io:format("50 tests passed; by system time it fails: ~0p~n", [proper:counterexample()]),
    halt(0).

prop_lease(Time) ->
    ?FORALL(Schedule, ertime_proper:schedule(#{faults => [silent], over => ?HOUR}),
        ertime:test(#{advance => auto, mode => multi_time_warp, schedule => Schedule, seen => false}, fun(_) ->
            {ok, Lease} = lease:start_link(Time, ?HOUR),
            timer:sleep(?HOUR - 1),
            Before = lease:is_held(Lease),
            timer:sleep(1),
            Before andalso not lease:is_held(Lease)
        end)).
