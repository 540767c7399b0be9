%% p1_shaper of p1_utils, by which ejabberd limits what a connection may send: who sends half of what is allowed never waits long.
-module(p1_shaper_rate_tests).

-include_lib("eunit/include/eunit.hrl").

-define(RATE, 1000). % bytes a second
-define(SECONDS, 600).
-define(MOST_PAUSE, 1000). % milliseconds

rate_test_() ->
    {timeout, 900, fun() -> sent(p1_shaper:new(?RATE), seconds()) end}.

sent(_, 0) ->
    ok;
sent(Shaper, Left) ->
    timer:sleep(1000),
    {Next, Pause} = p1_shaper:update(Shaper, ?RATE div 2),
    ?assertMatch({_, Less} when Less =< ?MOST_PAUSE, {Left, Pause}),
    sent(Next, Left - 1).

%% In real time fewer.
seconds() ->
    case os:getenv("SECONDS") of
        false -> ?SECONDS;
        Number -> list_to_integer(Number)
    end.
