%% The programs over texts: each answer, by rows of examples/messages, and the examples of both programs. Where the package was
%% built without their library, that the functions say so.
-module(ertime_text_tests).

-export([refused/1]).

-include_lib("eunit/include/eunit.hrl").

-define(SETTINGS, "settings no false 0 1 1 1 1 0 0\n").
-define(MOST, 16777216).

text_test_() ->
    case has_library() of
        true -> [{timeout, 60, Test} || Test <- [fun answers/0, fun bytes/0, fun examples/0, fun deep/0, fun long/0, fun many/0, fun nothing_is_left/0]];
        false -> fun without_library/0
    end.

has_library() ->
    filelib:is_regular(ertime_nif:file("ertime_text_nif") ++ ".so").

without_library() ->
    ?assertError({no_library, ertime_text}, ertime:run_scenario(scenario("[\"time\"]"))),
    ?assertError({no_library, ertime_text}, ertime:judge(?SETTINGS)).

scenario(Ops) ->
    "{\"format\":1,\"first\":[0,0],\"ops\":[" ++ Ops ++ "]}".

rows() ->
    [
        {run_scenario, scenario(""), {ok, <<"end 0\n">>}},
        {run_scenario, scenario("[\"start\",1,0,\"rel\",9,0,10],[\"cancel_async\",1,0],[\"serve\",0],[\"receive\",0]"),
            {ok, <<"start ok\ncancel_async ok\nserve 1\nreceive cancel_timer 1 9\nend 0\n">>}},
        {run_scenario, scenario("[\"convert\",-10,3,\"second\"],[\"convert\",4611686018427387904,\"second\",\"nanosecond\"]"),
            {ok, <<"convert -4\nconvert too_wide\nend 0\n">>}},
        {run_scenario, "", {error, {refused, <<"scenario:1:1: expected a value here\n">>}}},
        {run_scenario, "[\"\\ud800\"]", {error, {refused, <<"scenario:1:2: expected whole pairs of surrogates in the string here\n">>}}},
        {run_scenario, scenario("[\"time\"],[\"tiem\"]"),
            {error, {refused, <<"scenario:1:44: op 2: there is no op \"tiem\"; did you mean \"time\"?\n">>}}},
        {run_scenario, scenario("[\"tick\",9223372036854775807,0]"),
            {error, {refused, <<"scenario:1:42: op 1: mono is 9223372036854775807; it has to be from 0 to 4611686018427387903\n">>}}},
        {judge, ?SETTINGS, {ok, {legal, 0}}},
        {judge, ?SETTINGS "k c0 tick 0 1000000 plain 1000000\n", {ok, {legal, 1}}},
        {judge, ?SETTINGS "k c0 tick -1 0 plain 0\n",
            {illegal, 2, <<"history:2: k c0 tick -1 0 plain 0: its reading isn't valid\n">>}},
        {judge, "", {error, {refused, <<"history:1:1: \"\": expected the word settings\n">>}}},
        {judge, ?SETTINGS "c0 - peek 0 0 18446744073709551616 none\n",
            {error, {refused, <<"history:2:15: \"18446744073709551616\": expected a number from 0 to 18446744073709551615\n">>}}}
    ].

answers() ->
    [?assertEqual({Text, Answer}, {Text, ertime:Name(Text)}) || {Name, Text, Answer} <- rows()].

%% Each form of the same bytes, and what are none.
bytes() ->
    Text = scenario("[\"time\"]"),
    {Front, Back} = lists:split(10, Text),
    <<_, Part/binary>> = list_to_binary([$x | Text]),
    [
        ?assertEqual({ok, <<"time 0\nend 0\n">>}, ertime:run_scenario(Form))
     || Form <- [Text, Part, [Front | list_to_binary(Back)], [[], <<>>, [[Front]], [<<>> | [[Back]]]]]
    ],
    [
        ?assertMatch({'EXIT', {badarg, [{ertime_text, _, [Bad], Info} | _]}} when is_list(Info), catch ertime:Name(Bad))
     || Name <- [run_scenario, judge], Bad <- [text, [256], [-1], <<1:3>>, [<<"x">> | y], #{}, self()]
    ].

examples() ->
    [?assertEqual({File, shown(File)}, {File, answer(File, ertime:run_scenario(read(File)))}) || File <- files("ertime/*.json")],
    [?assertEqual({File, shown(File)}, {File, answer(File, ertime:judge(read(File)))}) || File <- files("ertaudit/*.txt")].

%% Beside the package, in a clone of ertime.
files(Names) ->
    {ok, Real} = file:read_link_all(filename:join(code:lib_dir(ertime), "src")),
    filelib:wildcard(filename:join([filename:absname(Real, code:lib_dir(ertime)), "..", "..", "..", "examples", Names])).

read(File) ->
    {ok, Text} = file:read_file(File),
    Text.

shown(File) ->
    read(File ++ ".stdout").

%% What the program writes to its output. Of a refused scenario the package answers the message instead.
answer(_, {ok, {legal, Entries}}) -> iolist_to_binary(io_lib:format("legal ~w~n", [Entries]));
answer(_, {ok, Transcript}) -> Transcript;
answer(_, {illegal, Line, _}) -> iolist_to_binary(io_lib:format("illegal ~w~n", [Line]));
answer(File, {error, {refused, <<"history:", Message/binary>>}}) ->
    {Line, _} = string:to_integer(Message),
    is_refused(File, iolist_to_binary(io_lib:format("refused ~w~n", [Line])));
answer(File, {error, {refused, <<"scenario:", _/binary>>}}) ->
    is_refused(File, shown(File)).

is_refused(File, Line) ->
    ?assertMatch({File, <<"refused ", _/binary>>}, {File, shown(File)}),
    Line.

%% As much of the stack of a scheduler as a text can take, and one bracket more.
deep() ->
    [
        ?assertMatch({error, {refused, <<"scenario:1:", _/binary>>}}, ertime:run_scenario(["{\"x\":", lists:duplicate(Depth, "{\"a\":"), "1", lists:duplicate(Depth, "}"), "}"]))
     || Depth <- [126, 127]
    ].

%% More than there is room for at first, the most bytes, and more.
long() ->
    Turns = lists:join(",", lists:duplicate(10000, "[\"turn\",0]")),
    Transcript = iolist_to_binary([lists:duplicate(10000, "turn 0 0 0 0 0\n"), "end 0\n"]),
    ?assertEqual({ok, Transcript}, ertime:run_scenario(scenario(Turns))),
    Spaces = binary:copy(<<" ">>, ?MOST),
    ?assertMatch({error, {refused, <<"scenario:1:", _/binary>>}}, ertime:run_scenario(Spaces)),
    ?assertMatch({error, {refused, <<"history:1:", _/binary>>}}, ertime:judge(Spaces)),
    [?assertEqual({error, too_long}, ertime:Name([Spaces | More])) || Name <- [run_scenario, judge], More <- [" ", lists:duplicate(1000, Spaces)]].

many() ->
    Rows = rows(),
    Answers = [Answer || {_, _, Answer} <- Rows],
    Monitors = [element(2, spawn_monitor(fun() -> Answers = [ertime:Name(Text) || {Name, Text, _} <- Rows] end)) || _ <- lists:seq(1, 200)],
    ?assertEqual([normal], lists:usort([receive {'DOWN', Monitor, _, _, Reason} -> Reason end || Monitor <- Monitors])).

%% Neither of calls that were answered, nor of those whose process was killed meanwhile.
nothing_is_left() ->
    Long = list_to_binary(scenario(lists:join(",", lists:duplicate(10000, "[\"turn\",0]")))),
    Before = binaries(),
    Call = fun() -> {ok, _} = ertime:run_scenario(Long) end,
    Monitors = [element(2, spawn_monitor(Call)) || _ <- lists:seq(1, 20)],
    _ = [begin Pid = spawn(Call), timer:sleep(1), exit(Pid, kill) end || _ <- lists:seq(1, 20)],
    ?assertEqual([normal], lists:usort([receive {'DOWN', Monitor, _, _, Reason} -> Reason end || Monitor <- Monitors])),
    ?assert(has_less(Before + byte_size(Long), 500)).

binaries() ->
    try
        erlang:memory(binary)
    catch
        error:notsup -> 0 % with +Mea min
    end.

has_less(Bytes, Looks) ->
    erlang:garbage_collect(),
    binaries() < Bytes orelse (Looks > 0 andalso begin timer:sleep(10), has_less(Bytes, Looks - 1) end).

%% The same rows for so many seconds where memory is refused now and then: each answer is the right one, or that there is no memory,
%% or it has a message which leaves out what it would show. `.ci/check_erlang' runs it:
%%
%%     erl -noshell -run ertime_text_tests refused SECONDS
refused([Seconds]) ->
    {Calls, Refused} = refused(erlang:monotonic_time(second) + list_to_integer(Seconds), 0, 0),
    io:format("~w calls over texts, ~w with too little memory~n", [Calls, Refused]),
    true = Refused > 0,
    halt(0).

refused(End, Calls, Refused) ->
    More = length([refused || {Name, Text, Answer} <- rows(), not is_whole(Answer, ertime:Name(Text))]),
    case erlang:monotonic_time(second) >= End of
        true -> {Calls + length(rows()), Refused + More};
        false -> refused(End, Calls + length(rows()), Refused + More)
    end.

is_whole(Answer, Answer) -> true;
is_whole(_, {error, no_memory}) -> false;
is_whole({error, {refused, Whole}}, {error, {refused, Message}}) -> is_shorter(Whole, Message);
is_whole({illegal, Line, Whole}, {illegal, Line, Message}) -> is_shorter(Whole, Message).

is_shorter(Whole, Message) when byte_size(Message) < byte_size(Whole) ->
    [Program, _] = binary:split(Whole, <<":">>),
    [Program, _] = binary:split(Message, <<":">>),
    false.
