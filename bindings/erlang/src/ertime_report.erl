%% @private
%% Which modules of the project were turned, and which call functions about time and weren't, so that they see the runtime's clock.
%%
%% Those of the project are in the folders of code that rebar3 and mix have made in `_build', or below the current folder; whether
%% one calls such a function is seen from what its beam file imports. With them are told the behaviours of Erlang/OTP that they
%% follow, where these weren't turned.
-module(ertime_report).

-export([report/0, look/1]).

-define(BEHAVIOURS, #{
    gen_server => gen_server, gen_statem => gen_statem, gen_event => gen_event, 'Elixir.GenServer' => gen_server
}).

-spec report() -> #{turned := [module()], unturned := [module()]}.
report() ->
    {ok, Here} = file:get_cwd(),
    Found = [read(File) || Folder <- code:get_path(), is_of_project(Folder, Here), File <- filelib:wildcard(filename:join(Folder, "*.beam"))],
    Own = lists:append(Found),
    Behaviours = lists:usort([maps:get(It, ?BEHAVIOURS) || {_, _, Followed, _} <- Own, It <- Followed, is_map_key(It, ?BEHAVIOURS)]),
    Modules = [{Module, IsTurned orelse ertime_load:is_turned(Module)} || {Module, true, _, IsTurned} <- Own] ++ [{Module, ertime_load:is_turned(Module)} || Module <- Behaviours],
    #{turned => [Module || {Module, true} <- Modules], unturned => [Module || {Module, false} <- Modules]}.

%% When a clock is opened: a warning once on this node, or an error.
-spec look(warn | error | ignore) -> ok.
look(ignore) ->
    ok;
look(warn) ->
    ertime_keeper:put_new(reported, true) andalso warn(maps:get(unturned, report())),
    ok;
look(error) ->
    case report() of
        #{unturned := []} -> ok;
        #{unturned := Modules} -> error({unturned, Modules})
    end.

warn([]) ->
    ok;
warn(Modules) ->
    io:format(
        standard_error,
        "ertime: these modules call functions about time, or are behaviours with timeouts, and see the runtime's clock, since they weren't turned:~n"
        "  ~ts~n"
        "ertime:transform/1 turns them, in Elixir Ertime.transform/1, and those of Erlang/OTP by `otp'. The option `unturned' of a clock makes this an error, or ends it.~n",
        [lists:join(", ", [name(Module) || Module <- Modules])]
    ).

name(Module) ->
    case atom_to_list(Module) of
        "Elixir." ++ Name -> Name;
        Name -> Name
    end.

is_of_project(Folder, Here) ->
    Path = filename:split(filename:absname(Folder, Here)),
    (lists:member("_build", Path) orelse lists:prefix(filename:split(Here), Path)) andalso not lists:member("ertime", Path).

%% Whether it calls a function about time, the behaviours that it follows, and whether it was turned when it was compiled.
read(File) ->
    case beam_lib:chunks(File, [imports, attributes]) of
        {ok, {Module, [{imports, Imports}, {attributes, Attributes}]}} ->
            Followed = lists:append([Names || {Kind, Names} <- Attributes, Kind =:= behaviour orelse Kind =:= behavior]),
            [{Module, lists:any(fun({M, F, Arity}) -> ertime_calls:is_about_time(M, F, Arity) end, Imports) orelse is_turned(Attributes), Followed, is_turned(Attributes)}];
        _ ->
            []
    end.

is_turned(Attributes) ->
    lists:keymember(ertime_transform, 1, Attributes).
