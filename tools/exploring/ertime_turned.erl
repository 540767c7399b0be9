%% Writes the modules of programs that are there as beams alone, with their debug information, once more with their calls turned:
%%
%%     erl -noshell -run ertime_turned main OUT EBIN..
%%
%% A module without a call about time is left out, so OUT has to stand before the folders EBIN in the path. It prints how many
%% there are and how many were written.
-module(ertime_turned).

-export([main/1]).

main([Out | Folders]) ->
    ok = filelib:ensure_dir(filename:join(Out, "x")),
    Files = lists:append([filelib:wildcard(filename:join(Folder, "*.beam")) || Folder <- Folders]),
    Results = [written(File, Out) || File <- Files],
    _ = [io:format("~ts: ~0P~n", [File, Why, 10]) || {File, {error, Why}} <- lists:zip(Files, Results)],
    io:format("~w modules, ~w turned~n", [length(Files), length([yes || true <- Results])]),
    halt(0).

%% Whether it has such calls.
written(File, Out) ->
    case beam_lib:chunks(File, [debug_info, compile_info]) of
        {ok, {Module, [{debug_info, {debug_info_v1, Backend, Data}}, {compile_info, Information}]}} when Data =/= none ->
            {ok, Forms} = Backend:debug_info(erlang_v1, Module, Data, []),
            Turned = ertime_transform:parse_transform(Forms, []),
            has_turned(Forms, Turned) andalso compiled(Module, Turned, proplists:get_value(options, Information, []), Out);
        Other ->
            {error, Other}
    end.

%% It adds an attribute in any case.
has_turned(Forms, Turned) ->
    [Form || Form <- Turned, not is_mark(Form)] =/= Forms.

is_mark({attribute, _, ertime_transform, _}) -> true;
is_mark(_) -> false.

compiled(Module, Forms, Options, Out) ->
    Kept = [Option || Option <- Options, lists:member(Option, [export_all, inline, tuple_calls])],
    case compile:forms(Forms, [binary, debug_info, return_errors | Kept]) of
        {ok, Module, Code} -> file:write_file(filename:join(Out, atom_to_list(Module) ++ ".beam"), Code) =:= ok;
        {error, Errors, _} -> {error, Errors}
    end.
