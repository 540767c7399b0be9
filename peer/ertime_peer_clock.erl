%% The readings of the OS clocks that this node sees: the Erlang side of ertime_peer_clock.c.
-module(ertime_peer_clock).

-export([load/1, set/2]).

%% Path is that of the shared object without ".so". It has to be the object that was preloaded.
-spec load(file:filename()) -> ok | {error, {atom(), string()}}.
load(Path) ->
    erlang:load_nif(Path, none).

%% From now on the OS clocks of this node read so, in nanoseconds.
-spec set(OsMonotonic :: integer(), OsSystem :: integer()) -> ok.
set(_OsMonotonic, _OsSystem) ->
    erlang:nif_error(not_loaded).
