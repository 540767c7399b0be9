%% What `h' of the shell tells of the package, where EDoc is installed.
-module(ertime_docs_tests).

-include_lib("eunit/include/eunit.hrl").

-define(MODULES, [
    ertime, ertime_clock, ertime_cth, ertime_faults, ertime_monitors, ertime_nodes, ertime_proper, ertime_tap, ertime_tap_history,
    ertime_tap_log, ertime_text, ertime_timer, ertime_timers, ertime_times, ertime_transform
]).

shell_test_() ->
    case code:lib_dir(edoc) of
        {error, _} -> [];
        _ -> [fun modules/0, fun functions/0]
    end.

docs(Module) ->
    {ok, Docs} = code:get_doc(Module),
    Docs.

%% Each has a text of its own, and so has each of its functions, with one number of arguments at least.
modules() ->
    ?assertEqual([], [Module || Module <- ?MODULES, not is_map(element(5, docs(Module)))]),
    ?assertEqual([], [{Module, Names} || Module <- ?MODULES, Names <- [without_text(Module)], Names =/= []]).

without_text(Module) ->
    Texts = [{Name, Text} || {{function, Name, Arity}, _, _, Text, _} <- element(7, docs(Module)), erlang:function_exported(Module, Name, Arity)],
    lists:usort([Name || {Name, none} <- Texts]) -- [Name || {Name, #{}} <- Texts].

%% What is the same as a function of another module has the text of that one.
functions() ->
    [
        ?assertMatch({F, {[_ | _], _}}, {F, {string:find(text(F), Text), Text}})
     || {F, Text} <- [
            {[], "tests move by hand"},
            {[seeds], "each with faults of"},
            {[open, 1], "what the OS system clock shows"},
            {[advance, 2], "how many messages were sent"},
            {[monotonic_time, 0], "stands still until the clock is moved"}
        ]
    ].

%% That of EUnit can't be asked how it shows a text.
text(Which) ->
    Own = group_leader(),
    true = group_leader(whereis(user), self()),
    try
        lists:flatten(io_lib:format("~ts", [apply(shell_docs, render, [ertime | Which] ++ [docs(ertime), #{columns => 200}])]))
    after
        true = group_leader(Own, self())
    end.
