#!/usr/bin/env escript
%%! -pa _build/default/lib/ertime/ebin
%% What a process pays that ertime_tap traces: a start with its cancel, a message of another process, and a call of another function.
%% Nanoseconds, the least of 15 runs of 2,000 each, with the tap and without it in turn. After `rebar3 compile':
%%
%%     bench/tap.escript
-mode(compile).

main(_) ->
    Calls = [
        {"start_timer + cancel_timer", fun() -> erlang:cancel_timer(erlang:start_timer(60000, self(), x)) end},
        {"send_after + cancel_timer", fun() -> erlang:cancel_timer(erlang:send_after(60000, self(), x)) end},
        {"a message to itself", fun() -> self() ! x, receive x -> ok end end},
        {"monotonic_time", fun() -> erlang:monotonic_time() end}
    ],
    io:format("~-30s ~9s ~9s~n", ["", "without", "with"]),
    [
        begin
            Pairs = [{measured(Do, false), measured(Do, true)} || _ <- lists:seq(1, 15)],
            {Without, With} = lists:unzip(Pairs),
            io:format("~-30s ~9w ~9w~n", [Name, lists:min(Without), lists:min(With)])
        end
     || {Name, Do} <- Calls
    ].

measured(Do, IsTraced) ->
    Self = self(),
    Pid = spawn(fun() ->
        receive go -> ok end,
        Began = erlang:monotonic_time(nanosecond),
        times(Do, 2000),
        Self ! {self(), (erlang:monotonic_time(nanosecond) - Began) div 2000}
    end),
    ok = case IsTraced of true -> ertime_tap:start(#{processes => [Pid]}); false -> ok end,
    Pid ! go,
    Took = receive {Pid, Nanoseconds} -> Nanoseconds end,
    _ = ertime_tap:stop(),
    Took.

times(_, 0) -> ok;
times(Do, Left) -> Do(), times(Do, Left - 1).
