-module(ertime_nodes_tests_code).

-compile({parse_transform, ertime_transform}).

-export([relay/2]).

%% Sends on what it has got, after a while: the first begins by itself.
relay(To, Wait) when is_pid(To), Wait >= 1000 ->
    timer:sleep(Wait),
    To ! {relayed, [here()]};
relay(To, Wait) ->
    receive
        {relayed, So} ->
            timer:sleep(Wait),
            To ! {relayed, So ++ [here()]}
    end.

here() ->
    {node(), erlang:monotonic_time(millisecond), erlang:system_time(second)}.
