%% ets_cache of cache_tab, which ejabberd has its caches in: an entry is there for its life time, and no longer.
-module(ets_cache_life_tests).

-include_lib("eunit/include/eunit.hrl").

-define(HOUR, 3600000).

%% An entry that has expired is removed by a timer of five minutes at most.
life_test_() ->
    {timeout, 600, fun() ->
        {ok, _} = application:ensure_all_started(cache_tab),
        ok = ets_cache:new(lives, [{life_time, ?HOUR}]),
        ?assertEqual({ok, first}, ets_cache:lookup(lives, key, fun() -> {ok, first} end)),
        timer:sleep(?HOUR div 2),
        ?assertEqual({ok, first}, ets_cache:lookup(lives, key, fun() -> {ok, too_early} end)),
        timer:sleep(?HOUR),
        ?assertEqual({ok, second}, ets_cache:lookup(lives, key, fun() -> {ok, second} end)),
        ok = ets_cache:delete(lives)
    end}.
