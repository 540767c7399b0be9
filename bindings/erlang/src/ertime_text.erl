%% @doc The programs `ertime run' and `ertaudit' over texts in memory, without a process or a file. The module {@link ertime} has
%% both functions, too.
%%
%% What a scenario and a history are docs/FORMATS.md of ertime says. The answers are those of the programs, byte for byte; a call
%% keeps nothing, and any number of processes may make them. It runs on a dirty scheduler, for as long as its text asks: some
%% 0.1 ms for a short one.
%%
%% The functions need the C library `ertime_text', which c_src/Makefile finds beside `ertime'. Where it wasn't there when the
%% package was built, they raise `{no_library, ertime_text}', and all else works.
-module(ertime_text).

-export([run_scenario/1, judge/1]).

-on_load(load/0).

-export_type([reason/0]).

-type reason() :: {refused, Message :: binary()} | no_memory | too_long.
%% The text is refused, with the message of the program, a line that tells where and why; memory ran out; or the text has more than
%% 16,777,216 bytes.

-include("ertime.hrl").

-define(MOST, 16777216).

load() ->
    File = ertime_nif:file("ertime_text_nif"),
    case filelib:is_regular(File ++ ".so") of
        true -> erlang:load_nif(File, 0);
        false -> ok
    end.

%% @doc Runs a scenario, as `ertime run' does, and answers its transcript: a line for each reply.
%%
%% ```
%% {ok, <<"time 0\ntick 5000000\nend 5000000\n">>} =
%%     ertime_text:run_scenario("{\"format\":1,\"first\":[0,0],\"ops\":[[\"time\"],[\"tick\",5000000,5000000]]}"),
%% {error, {refused, <<"scenario:1:1: expected a value here\n">>}} = ertime_text:run_scenario("").
%% '''
-spec run_scenario(iodata()) -> {ok, Transcript :: binary()} | {error, reason()}.
run_scenario(Scenario) ->
    case answer(fun ran/1, Scenario) of
        {done, Transcript, _} -> {ok, Transcript};
        {refused, _, Message} -> {error, {refused, Message}};
        Reason -> {error, Reason}
    end.

%% @doc Judges a history, as `ertaudit' does: it is legal, with so many entries, or the entry of this line is the first one that
%% isn't, with the message that tells which condition it breaks. {@link ertime_tap:history/1} has one of a live node.
%%
%% ```
%% Settings = "settings no false 0 1 1 1 1 0 0\n",
%% {ok, {legal, 1}} = ertime_text:judge([Settings, "k c0 tick 0 1000000 plain 1000000\n"]),
%% {illegal, 2, <<"history:2: k c0 tick -1 0 plain 0: its reading isn't valid\n">>} =
%%     ertime_text:judge([Settings, "k c0 tick -1 0 plain 0\n"]).
%% '''
-spec judge(iodata()) ->
    {ok, {legal, Entries :: non_neg_integer()}} | {illegal, Line :: pos_integer(), Message :: binary()} | {error, reason()}.
judge(History) ->
    case answer(fun judged/1, History) of
        {done, <<"legal ", Entries/binary>>, _} -> {ok, {legal, number(Entries)}};
        {illegal, <<"illegal ", Line/binary>>, Message} -> {illegal, number(Line), Message};
        {refused, _, Message} -> {error, {refused, Message}};
        Reason -> {error, Reason}
    end.

answer(Nif, Text) ->
    case size_of(Text) of
        badarg -> ?BADARG([Text], 1, "neither a binary nor a list of bytes and binaries");
        Size when Size > ?MOST -> too_long;
        _ -> Nif(iolist_to_binary(Text))
    end.

size_of(Text) ->
    try
        iolist_size(Text)
    catch
        error:badarg -> badarg
    end.

%% Of a line, with its end.
number(Digits) ->
    binary_to_integer(binary:part(Digits, 0, byte_size(Digits) - 1)).

%% The functions of the NIF, `c_src/text/ertime_text_nif.c', where they have their results.
ran(_Scenario) -> no_library().
judged(_History) -> no_library().

no_library() ->
    erlang:nif_error({no_library, ?MODULE}).
