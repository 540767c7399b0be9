%% Writes the boot file of a node that runs the driver and nothing else: no kernel application, no code server, no
%% process that would do something by itself.
-module(ertime_peer_boot).

-export([main/0]).

-spec main() -> no_return().
main() ->
    [Folder] = init:get_plain_arguments(),
    Path = [code:lib_dir(kernel) ++ "/ebin", code:lib_dir(stdlib) ++ "/ebin", Folder],
    Driver = [ertime_peer_clock, ertime_peer_process, ertime_peer_ops, ertime_peer],
    Modules = [error_handler, lists, maps | Driver],
    Script = {script, {"ertime_peer", "1"}, [
        {preLoaded, erlang:pre_loaded()},
        {progress, preloaded},
        {path, Path},
        {primLoad, Modules},
        {apply, {ertime_peer, main, []}}
    ]},
    ok = file:write_file(filename:join(Folder, "ertime_peer.boot"), term_to_binary(Script)),
    halt(0).
