%% @private
%% What a test did with time: each timer with who armed it and where, its deadline and what became of it; and what is told of that
%% when the test fails. It is noted where a test wants it (`ertime_test'), for at most so many timers of a clock.
-module(ertime_seen).

-export([tables/0, start/1, stop/1, is_on/0, armed/2, cancelled/1, ended/1, sent/1, rows/1, failed/4, text/1]).

-export_type([row/0, seen/0]).

-define(ROWS, ertime_seen).
-define(DUE, ertime_seen_due).
-define(MOST, 10000).
-define(LINES, 26).
-define(MILLISECOND, 1000000).

-record(row, {timer, clock, at, due, who, to, where, fate = armed}).

-type row() :: #{
    at := integer(), due := integer(),      % milliseconds since the opening
    who := string(), to := string(),        % the process that armed it, and the one it is for
    where := string(),                      % the code that armed it
    fate := armed | {expired | cancelled | ended, integer()} | orphaned
}.
-type seen() :: #{
    name := string(), reason := string(), clocks := string(), now := integer(), rows := [row()], faults := ertime_faults:schedule(),
    left_out := boolean()
}.

%% --- noting -------------------------------------------------------------------------------------------------------

%% What is noted is kept in tables of the calling process.
-spec tables() -> ok.
tables() ->
    ?ROWS = ets:new(?ROWS, [named_table, public, {keypos, #row.timer}, {write_concurrency, true}]),
    ?DUE = ets:new(?DUE, [named_table, public, ordered_set, {write_concurrency, true}]),
    ok.

%% From now on, for a clock.
-spec start(ertime:clock()) -> ok.
start(Clock) ->
    ertime_keeper:put({seen, Clock}, counters:new(1, [])),
    ertime_use:count_seen(1).

-spec stop(ertime:clock()) -> ok.
stop(Clock) ->
    case ertime_keeper:take({seen, Clock}) of
        none ->
            ok;
        _ ->
            ertime_use:count_seen(-1),
            true = ets:match_delete(?ROWS, #row{clock = Clock, _ = '_'}),
            true = ets:match_delete(?DUE, {{Clock, '_', '_'}}),
            ok
    end.

%% Whether any clock of the node wants it.
-spec is_on() -> boolean().
is_on() ->
    ertime_use:is_seen().

%% The calling process has armed a timer by a call with such arguments.
-spec armed(reference(), list()) -> ok.
armed(Timer, [Time, To | Rest]) ->
    Clock = ertime_use:clock(),
    case is_reference(Clock) andalso ertime_keeper:get({seen, Clock}) of
        false ->
            false;
        none ->
            false;
        Counter ->
            counters:add(Counter, 1, 1),
            counters:get(Counter, 1) =< ?MOST andalso note(Timer, Clock, Time, To, Rest)
    end,
    ok.

note(Timer, Clock, Time, To, Rest) ->
    {Mono, Start} = now_of(Clock),
    At = (Mono - Start) / ?MILLISECOND,
    Due =
        case Rest of
            [_, Options] when Options =/= [] -> absolute(lists:member({abs, true}, Options), Time, Start, At);
            _ -> absolute(false, Time, Start, At)
        end,
    ets:insert(?ROWS, #row{timer = Timer, clock = Clock, at = round(At), due = Due, who = name(self()), to = name(To), where = where()}),
    ets:insert(?DUE, {{Clock, Due, Timer}}).

absolute(true, Time, Start, _) -> Time - Start div ?MILLISECOND;
absolute(false, Time, _, At) -> ceil(At) + Time.

now_of(Clock) ->
    case ertime_nif:settings(Clock) of
        {_, _, Start, _, _} -> {ertime_nif:monotonic_time(Clock), Start};
        _ -> {0, 0}
    end.

elapsed(Clock) ->
    case now_of(Clock) of
        {Mono, Start} when is_integer(Mono) -> (Mono - Start) div ?MILLISECOND;
        _ -> 0
    end.

%% The timer was cancelled by the calling process.
-spec cancelled(reference()) -> ok.
cancelled(Timer) -> settled(Timer, cancelled).

%% It was the timeout of a receive, which has got a message.
-spec ended(reference()) -> ok.
ended(Timer) -> settled(Timer, ended).

settled(Timer, Fate) ->
    case ets:lookup(?ROWS, Timer) of
        [#row{clock = Clock, at = At, due = Due}] ->
            true = ets:delete(?DUE, {Clock, Due, Timer}),
            case elapsed(Clock) of
                %% A call that was answered at once says nothing.
                At when Fate =:= ended -> true = ets:delete(?ROWS, Timer);
                Now -> true = ets:update_element(?ROWS, Timer, {#row.fate, {Fate, Now}})
            end,
            ok;
        [] ->
            ok
    end.

%% Messages were sent: which timers are no longer armed.
-spec sent(ertime:clock()) -> ok.
sent(Clock) ->
    case ertime_keeper:has({seen, Clock}) of
        true -> sent(Clock, elapsed(Clock), ets:next(?DUE, {Clock, -1 bsl 62, 0}));
        false -> ok
    end.

sent(Clock, Now, {Clock, Due, Timer} = Key) when Due =< Now ->
    case ertime_nif:read(Timer) of
        false ->
            true = ets:delete(?DUE, Key),
            _ = ets:update_element(?ROWS, Timer, {#row.fate, {expired, Now}}),
            ok;
        _ ->
            ok
    end,
    sent(Clock, Now, ets:next(?DUE, Key));
sent(_, _, _) ->
    ok.

%% --- who and where ------------------------------------------------------------------------------------------------

name(Name) when is_atom(Name) ->
    io_lib:format("~tp", [Name]);
name(Pid) ->
    case process_info(Pid, registered_name) of
        {registered_name, Name} -> io_lib:format("~tp", [Name]);
        _ -> pid_to_list(Pid)
    end.

%% The code that is neither of this package nor of OTP or Elixir; or what the process was started with.
where() ->
    {current_stacktrace, Stack} = process_info(self(), current_stacktrace),
    case [Frame || {Module, _, _, _} = Frame <- Stack, not is_library(Module)] of
        [{Module, Name, Arity, Info} | _] -> io_lib:format("~ts:~w", [function(Module, Name, Arity), proplists:get_value(line, Info, 0)]);
        [] -> started_with()
    end.

started_with() ->
    case get('$initial_call') of
        {Module, Name, Arity} -> ["of ", function(Module, Name, Arity)];
        _ -> "?"
    end.

function(Module, Name, Arity) ->
    case atom_to_list(Module) of
        "Elixir." ++ Alias -> [Alias, $., atom_to_list(Name), $/, integer_to_list(Arity)];
        Text -> [Text, $:, atom_to_list(Name), $/, integer_to_list(Arity)]
    end.

is_library(Module) ->
    lists:member(Module, [?MODULE, ertime, ertime_timers, ertime_timer, ertime_calls, ertime_test, erlang]) orelse ertime_calls:is_preset(Module).

%% --- telling ------------------------------------------------------------------------------------------------------

%% The timers of a clock, as far as they were noted, in the order in which they were armed.
-spec rows(ertime:clock()) -> [row()].
rows(Clock) ->
    Now = elapsed(Clock),
    Rows = lists:keysort(#row.at, ets:match_object(?ROWS, #row{clock = Clock, _ = '_'})),
    [
        #{at => At, due => Due, who => lists:flatten(Who), to => lists:flatten(To), where => lists:flatten(Where), fate => fate(Fate, Timer, Due, Now)}
     || #row{timer = Timer, at = At, due = Due, who = Who, to = To, where = Where, fate = Fate} <- Rows
    ].

fate(armed, Timer, Due, Now) ->
    case ertime_nif:read(Timer) of
        false when Due =< Now -> {expired, Due};
        false -> orphaned;
        _ -> armed
    end;
fate(Fate, _, _, _) ->
    Fate.

%% All that is told of a test that has failed, while its clock is open: printed, and drawn in the folder `_build/ertime', if there
%% is a `_build'.
-spec failed(ertime:clock(), unicode:chardata(), term(), ertime_faults:schedule()) -> ok.
failed(Clock, Name, Reason, Faults) ->
    case ertime_nif:info(Clock) of
        {_, {_, Os}, {_, System}, _, _, _} ->
            Seen = #{
                name => lists:flatten(Name),
                reason => lists:flatten(io_lib:format("~0tP", [Reason, 20])),
                clocks => lists:flatten(["system time ", utc(System), ", OS system clock ", utc(Os)]),
                now => elapsed(Clock),
                rows => rows(Clock),
                faults => Faults,
                left_out => is_full(Clock)
            },
            File = ertime_picture:write(Seen),
            io:put_chars(user, [text(Seen), [["  drawn in ", File, "\n"] || File =/= none]]);
        _ ->
            ok
    end.

is_full(Clock) ->
    case ertime_keeper:get({seen, Clock}) of
        none -> false;
        Counter -> counters:get(Counter, 1) > ?MOST
    end.

utc(Nanoseconds) ->
    calendar:system_time_to_rfc3339(Nanoseconds div ?MILLISECOND, [{unit, millisecond}, {offset, "Z"}]).

-spec text(seen()) -> unicode:chardata().
text(#{name := Name, clocks := Clocks, now := Now, rows := Rows, faults := Faults, left_out := LeftOut}) ->
    Events = lists:keysort(1, [{At, fault, ["** ", ertime_faults:text([{At, Fault}])]} || {At, Fault} <- Faults] ++ [{At, timer, line(Row)} || #{at := At} = Row <- Rows]),
    [
        "\nertime: ", Name, " failed at ", seconds(Now), "; ", Clocks, "\n",
        ["  more timers were armed than are noted\n" || LeftOut],
        shown(lists:zip(lists:seq(1, length(Events)), Events), wanted(Events), 0)
    ].

%% The numbers of the events that are shown: the last ones, and the faults with what is around them.
wanted(Events) when length(Events) =< ?LINES ->
    lists:seq(1, length(Events));
wanted(Events) ->
    Count = length(Events),
    Faults = lists:sublist([N || {N, {_, fault, _}} <- lists:zip(lists:seq(1, Count), Events)], ?LINES div 5),
    Around = [Near || N <- Faults, Near <- lists:seq(N - 2, N + 2), Near > 0, Near =< Count],
    Left = ?LINES - length(lists:usort(Around)),
    lists:usort(Around ++ lists:seq(max(1, Count - Left + 1), Count)).

shown([], _, 0) -> "";
shown([], _, Skipped) -> skipped(Skipped);
shown([{Number, {At, _, Line}} | Events], [Number | Wanted], Skipped) ->
    [skipped(Skipped), "  ", string:pad(seconds(At), 12, leading), "  ", Line, "\n", shown(Events, Wanted, 0)];
shown([_ | Events], Wanted, Skipped) ->
    shown(Events, Wanted, Skipped + 1).

skipped(0) -> "";
skipped(Count) -> io_lib:format("                  .. ~w more~n", [Count]).

line(#{at := At, due := Due, who := Who, to := To, where := Where, fate := Fate}) ->
    [
        string:pad([Who, [[" for ", To] || To =/= Who]], 24), " waits ", string:pad(seconds(Due - At), 11), string:pad(Where, 36), " ", became(Fate, Due)
    ].

became(armed, Due) -> ["armed, due at ", seconds(Due)];
became(orphaned, _) -> "its process ended";
became({expired, At}, Due) when At > Due -> ["expired ", seconds(At - Due), " late at ", seconds(At)];
became({expired, At}, _) -> ["expired at ", seconds(At)];
became({Fate, At}, _) -> [atom_to_list(Fate), " at ", seconds(At)].

seconds(Milliseconds) ->
    io_lib:format("~.3f s", [Milliseconds / 1000]).
