%% What is noted of the timers of a test, and how it is told.
-module(ertime_seen_tests).

-include_lib("eunit/include/eunit.hrl").
-compile({parse_transform, ertime_transform}).

%% Each timer with the line that armed it, and what became of it. A wait that ends at once isn't kept.
rows_test() ->
    {Rows, Lines} = ertime:test(#{start => 0, mode => multi_time_warp}, fun(Clock) ->
        register(seen_test, self()),
        Cancelled = erlang:send_after(500, self(), x), Line1 = ?LINE,
        _ = erlang:start_timer(100, self(), y), Line2 = ?LINE,
        _ = erlang:start_timer(700, self(), z, [{abs, true}]),
        ertime:advance(Clock, 200),
        500 - 200 = erlang:cancel_timer(Cancelled),
        Other = spawn(fun() -> erlang:send_after(50, seen_test, here), erlang:send_after(900, self(), z), receive stop -> ok end end),
        ertime:advance(Clock, 50),
        self() ! now,
        receive now -> ok after 1000 -> ok end,
        Other ! stop,
        ertime:rest(Clock),
        {ertime_seen:rows(Clock), [Line1, Line2]}
    end),
    Told = [{At, Due, Fate} || #{at := At, due := Due, fate := Fate} <- Rows],
    ?assertEqual(
        lists:sort([{0, 500, {cancelled, 200}}, {0, 100, {expired, 100}}, {0, 700, armed}, {200, 250, {expired, 250}}, {200, 1100, orphaned}]),
        lists:sort(Told)
    ),
    [#{who := "seen_test", to := "seen_test", where := Where1}] = [Row || #{due := 500} = Row <- Rows],
    [#{where := Where2}] = [Row || #{due := 100} = Row <- Rows],
    ?assertEqual([integer_to_list(Line) || Line <- Lines], [lists:last(string:lexemes(Where, ":")) || Where <- [Where1, Where2]]),
    [#{who := "<" ++ _, to := "seen_test"}] = [Row || #{due := 250} = Row <- Rows].

%% Nothing is noted where a test doesn't want it, and nothing is left of one that did.
not_noted_test() ->
    ?assertEqual([], ertime:test(#{seen => false}, fun(Clock) -> _ = erlang:send_after(5, self(), x), ertime_seen:rows(Clock) end)),
    ?assertEqual([], ets:tab2list(ertime_seen)),
    ?assertEqual([], ets:tab2list(ertime_seen_due)).

seen(Rows) ->
    #{
        name => "shop_tests.one_writer", reason => "{wrote,<b>}", clocks => "system time then", now => 60000, left_out => false,
        faults => [{56465, {pause, store, 3800}}], rows => Rows
    }.

row(At, Due, Fate) ->
    #{at => At, due => Due, who => "worker_a", to => "worker_a", where => "shop:write/2:88", fate => Fate}.

text_test() ->
    Rows = [row(56000, 56200, {expired, 56300}), row(57000, 58000, {cancelled, 57500}), row(59000, 70000, armed)],
    ?assertEqual(
        "\nertime: shop_tests.one_writer failed at 60.000 s; system time then\n"
        "      56.000 s  worker_a                 waits 0.200 s    shop:write/2:88                      expired 0.100 s late at 56.300 s\n"
        "      56.465 s  ** store stands still for 3.8 s from 56.465 s on\n"
        "      57.000 s  worker_a                 waits 1.000 s    shop:write/2:88                      cancelled at 57.500 s\n"
        "      59.000 s  worker_a                 waits 11.000 s   shop:write/2:88                      armed, due at 70.000 s\n",
        lists:flatten(ertime_seen:text(seen(Rows)))
    ).

%% Thirty lines at most: the last ones, and the faults with what is around them.
few_lines_test() ->
    Text = lists:flatten(ertime_seen:text(seen([row(At, At + 5, {expired, At + 5}) || At <- lists:seq(50000, 59900, 100)]))),
    Lines = string:lexemes(Text, "\n"),
    ?assert(length(Lines) =< 30),
    ?assert(length(Lines) >= 26),
    ?assertNotEqual(nomatch, string:find(Text, "** store stands still")),
    ?assertNotEqual(nomatch, string:find(Text, "56.400 s  worker_a")),
    ?assertNotEqual(nomatch, string:find(Text, "59.900 s  worker_a")),
    ?assertNotEqual(nomatch, string:find(Text, ".. 63 more")),
    ?assertNotEqual(nomatch, string:find(Text, ".. 12 more")).

%% A bar for each timer, and none of the text is taken for HTML.
page_test() ->
    Page = unicode:characters_to_list(ertime_picture:page(seen([row(56000, 56200, {expired, 56300}), row(57000, 58000, {cancelled, 57500})]))),
    ?assertEqual(2, length(string:split(Page, "class=\"expired\" x=", all))),
    ?assertEqual(2, length(string:split(Page, "class=\"late\" x=", all))),
    ?assertEqual(2, length(string:split(Page, "class=\"cancelled\" x=", all))),
    ?assertEqual(nomatch, string:find(Page, "<b>")),
    ?assertNotEqual(nomatch, string:find(Page, "{wrote,&lt;b&gt;}")).
