%% Callbacks for the tests of behaviours.
-module(ertime_transform_code).

-export([init/1, start/0, start_stubborn/0]).

init({Intensity, Period}) ->
    {ok, {#{intensity => Intensity, period => Period}, [#{id => child, start => {?MODULE, start, []}}]}};
init(stubborn) ->
    {ok, {#{}, [#{id => child, shutdown => 5000, start => {?MODULE, start_stubborn, []}}]}};
init(slow) ->
    receive
        never -> {ok, none}
    end.

start() ->
    {ok, spawn_link(fun() -> receive never -> ok end end)}.

start_stubborn() ->
    {ok, spawn_link(fun() -> process_flag(trap_exit, true), stay() end)}.

stay() ->
    receive
        _ -> stay()
    end.
