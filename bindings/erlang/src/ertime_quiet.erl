%% @private
%% Group leaders for the runs of a test, by which its processes are known: one that passes on what they write, and one that drops
%% it, with what is logged of them. A test is run hundreds of times while it is made smaller.
-module(ertime_quiet).

-export([with/1]).
%% For the package itself.
-export([drops/2]).

%% Calls a function with both, which end with the call or its process.
-spec with(fun((pid(), pid()) -> Result)) -> Result.
with(Fun) ->
    Passing = started(group_leader()),
    Dropping = started(none),
    ok = logger:add_primary_filter(filter_id(Dropping), {fun ?MODULE:drops/2, Dropping}),
    try
        Fun(Passing, Dropping)
    after
        Passing ! {?MODULE, leave},
        Dropping ! {?MODULE, leave}
    end.

started(To) ->
    Self = self(),
    spawn(fun() ->
        erlang:put('$ertime', none),
        serve(erlang:monitor(process, Self), To, #{})
    end).

filter_id(Pid) ->
    list_to_atom("ertime_quiet_" ++ pid_to_list(Pid)).

%% @private
drops(#{meta := #{gl := Pid}}, Pid) -> stop;
drops(_, _) -> ignore.

%% Whoever writes waits for it until it is answered, and it waits for the one to whom it has passed that on: by a monitor, so
%% that the one who writes is seen to wait for somebody who may be at work.
serve(Monitor, To, Passed) ->
    receive
        {'DOWN', Monitor, process, _, _} -> leave(To, Passed);
        {?MODULE, leave} -> leave(To, Passed);
        Message -> serve(Monitor, To, served(Message, To, Passed))
    end.

%% It stays a while, for what is logged late of processes that have ended.
leave(To, Passed) ->
    receive
        Message -> leave(To, served(Message, To, Passed))
    after 100 ->
        logger:remove_primary_filter(filter_id(self()))
    end.

served({io_request, From, As, Request}, none, Passed) ->
    From ! {io_reply, As, reply(Request)},
    Passed;
served({io_request, From, As, Request}, To, Passed) ->
    Monitor = erlang:monitor(process, To),
    To ! {io_request, self(), Monitor, Request},
    Passed#{Monitor => {From, As}};
served({io_reply, Monitor, Reply}, _, Passed) when is_map_key(Monitor, Passed) ->
    true = erlang:demonitor(Monitor, [flush]),
    answer(Monitor, Reply, Passed);
served({'DOWN', Monitor, process, _, _}, _, Passed) when is_map_key(Monitor, Passed) ->
    answer(Monitor, {error, terminated}, Passed);
served(_, _, Passed) ->
    Passed.

answer(Monitor, Reply, Passed) ->
    {{From, As}, Others} = maps:take(Monitor, Passed),
    From ! {io_reply, As, Reply},
    Others.

reply({put_chars, _, _}) -> ok;
reply({put_chars, _, _, _, _}) -> ok;
reply({put_chars, _}) -> ok;
reply({put_chars, _, _, _}) -> ok;
reply({requests, Requests}) -> lists:foldl(fun(Request, _) -> reply(Request) end, ok, Requests);
reply({get_until, _, _, _, _, _}) -> eof;
reply({get_line, _, _}) -> eof;
reply({get_chars, _, _, _}) -> eof;
reply({setopts, _}) -> ok;
reply(getopts) -> [{binary, true}, {encoding, unicode}];
reply(_) -> {error, enotsup}.
