%% Thirty processes with timers of the runtime, and what `ertime_tap' saw of them as a written history, for `ertaudit':
%%
%%     erl -run ertime_tap_judged main FILE OTHER
%%
%% FILE has it as it was, and OTHER with one timer that comes a millisecond before its deadline.
-module(ertime_tap_judged).

-export([main/1]).

main([File, Other]) ->
    ok = ertime_tap:start(#{for => {30, second}}),
    Workers = [spawn_monitor(fun() -> work(Number, 10) end) || Number <- lists:seq(1, 30)],
    [receive {'DOWN', Monitor, process, Pid, normal} -> ok end || {Pid, Monitor} <- Workers],
    {ok, Log = #{timers := Timers}} = ertime_tap:stop(),
    300 = length([Timer || Timer = #{fate := {arrived, _}} <- Timers]),
    300 = length([Timer || Timer = #{fate := {cancelled, _, _}} <- Timers]),
    ok = file:write_file(File, ertime_tap:history(Log)),
    [Early | _] = lists:reverse([Timer || Timer = #{fate := {arrived, _}} <- Timers]),
    #{number := Number, started := {Began, _}, wait := Wait} = Early,
    Moved = Early#{fate := {arrived, Began + (Wait - 1) * 1000000}},
    ok = file:write_file(Other, ertime_tap:history(Log#{timers := [case It of #{number := Number} -> Moved; _ -> It end || It <- Timers]})),
    halt().

work(_, 0) ->
    ok;
work(Number, Left) ->
    Long = erlang:start_timer(5000, self(), long),
    Short = erlang:start_timer(5 + Number * 7 rem 40, self(), short),
    _ = erlang:send_after(3, self(), bare),
    receive {timeout, Short, short} -> ok end,
    true = is_integer(erlang:cancel_timer(Long)),
    work(Number, Left - 1).
