#!/usr/bin/env escript
%% Writes what `h' of the Erlang shell and of iex tells of this package: for each module a file, from its EDoc comments, in doc/chunks
%% of the folder with the compiled package, where code:get_doc/1 looks. rebar3 and mix call it after they have compiled the package.
%%
%%     escript chunks.escript FOLDER..
%%
%% A FOLDER that isn't there, or whose files are newer than the sources, is left out. Nothing is written where EDoc isn't installed.
-mode(compile).

main(Folders) ->
    Package = filename:dirname(escript:script_name()),
    Sources = filelib:wildcard(filename:join([Package, "src", "*.erl"])),
    Newest = lists:max([filelib:last_modified(It) || It <- [escript:script_name() | Sources]]),
    Older = [It || It <- Folders, filelib:is_dir(It), filelib:last_modified(file(It, ertime)) < Newest],
    _ = [write(It, Sources) || is_list(code:lib_dir(edoc)), It <- Older],
    ok.

file(Folder, Module) ->
    filename:join([Folder, "doc", "chunks", atom_to_list(Module) ++ ".chunk"]).

%% Without them the package works as well: so nothing fails.
write(Folder, Sources) ->
    try
        Options = [{doclet, edoc_doclet_chunks}, {layout, edoc_layout_chunks}, {preprocess, true}, {dir, filename:join(Folder, "doc")}],
        ok = edoc:files(Sources, Options),
        Modules = [list_to_atom(filename:basename(It, ".erl")) || It <- Sources],
        Read = maps:from_list([{It, read(file(Folder, It))} || It <- Modules]),
        _ = [ok = file:write_file(file(Folder, It), term_to_binary(resolved(Chunk, Read), [compressed])) || {It, Chunk} <- maps:to_list(Read)],
        ok
    catch
        _:Reason -> io:format("ertime: the shell's h has no documentation of it: ~0p~n", [Reason])
    end.

read(File) ->
    {ok, Binary} = file:read_file(File),
    binary_to_term(Binary).

%% The text of a function that is the same as one of another module is that one's.
resolved(Chunk, Read) ->
    setelement(7, Chunk, [setelement(4, It, text(element(4, It), Read)) || It <- element(7, Chunk)]).

text(#{<<"en">> := [{p, [], [<<"Equivalent to ">>, {a, Link, _}, <<".">>]}]} = Text, Read) ->
    {_, Target} = lists:keyfind(href, 1, Link),
    case string:lexemes(binary_to_list(Target), "#/") of
        [Module, Name, Arity] -> of_other(list_to_atom(Module), {function, list_to_atom(Name), list_to_integer(Arity)}, Text, Read);
        _ -> Text
    end;
text(Text, _) ->
    Text.

of_other(Module, Function, Text, Read) ->
    case [Other || #{Module := Chunk} <- [Read], {Its, _, _, #{} = Other, _} <- element(7, Chunk), Its =:= Function] of
        [Other] -> text(Other, Read);
        [] -> Text
    end.
