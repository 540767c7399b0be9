%% @private
%% Which clock a process sees: the one that it uses; else that of an ancestor or a caller (`$ancestors' and `$callers', which
%% `proc_lib' and Elixir keep) or of the process that spawned it; else the one for everybody. Before its ancestors comes the one
%% that it was allowed by another process.
%%
%% A clock that was found by ancestors and callers becomes the process' own, until it is closed. Where then no other is found, the
%% process is told so by an error at its next call, once, and sees the runtime's clock from there on; and so is one that has none of
%% its own below a process whose clock is closed. The answers "none" and "the
%% one for everybody" are kept too, in the dictionary of the process, and hold as long as nobody on the node has taken or left
%% a clock since: each such step counts up an epoch. Beside the epoch the answer keeps the `$ancestors' and `$callers' by which
%% it was found, so a process that changes these looks again.
-module(ertime_use).

-export([clock/0, open_clock/0, clock_if_open/0, count_seen/1, is_seen/0, turn_on/0, lost/0, put_clock/1, put_everywhere/1, leave_everywhere/1, everywhere/0, allow/2, disallow/1, stand_apart/0, clock_of/2, facts/1]).

-define(KEY, '$ertime').
-define(SEEN, '$ertime_seen').
-define(APART, '$ertime_apart').
-define(EPOCH, '$ertime_epoch').
-define(OUTLIVED, "this process has outlived the clock that it saw: end it with its test, or let it call ertime:use(real)").

%% The clock of the calling process, or none. It is asked for where a clock was opened on the node (ertime_on).
clock() ->
    case get(?KEY) of
        undefined -> told(seen());
        Clock -> Clock
    end.

%% The same; where it is closed, the one that the process has now.
open_clock() ->
    case ertime_on:on() andalso clock() of
        Clock when is_reference(Clock) ->
            case open_or_none(Clock) of
                none -> lost();
                Clock -> Clock
            end;
        _ ->
            none
    end.

%% Its clock, if that is open: without an error.
clock_if_open() ->
    case get(?KEY) of
        none -> none;
        undefined -> if_any(seen());
        Own ->
            case open_or_none(Own) of
                none ->
                    erase(?KEY),
                    Answer = if_any(seen()),
                    Answer =:= none andalso put(?KEY, Own),
                    Answer;
                Own ->
                    Own
            end
    end.

if_any(closed) -> none;
if_any(Clock) -> Clock.

-spec told(closed | none | ertime:clock()) -> none | ertime:clock().
told(closed) ->
    erase(?SEEN),
    put(?KEY, none),
    is_ending() orelse error({clock_closed, ?OUTLIVED}),
    none;
told(Clock) ->
    Clock.

%% As a supervisor that the test has started, and that waits for its children to end when the test has.
is_ending() ->
    {current_stacktrace, Stack} = process_info(self(), current_stacktrace),
    lists:any(fun({_, Name, _, _}) -> string:find(atom_to_list(Name), "terminate") =/= nomatch end, Stack).

%% The epoch is read before the search, and counted up after each change. So an answer that is kept under the epoch of now was
%% found after the last change.
seen() ->
    Epoch = atomics:get(persistent_term:get(?EPOCH), 1),
    Ancestors = get('$ancestors'),
    Callers = get('$callers'),
    case get(?SEEN) of
        {Clock, Epoch, Ancestors, Callers} -> Clock;
        Before -> find(Before, Epoch, Ancestors, Callers)
    end.

find(Before, Epoch, Ancestors, Callers) ->
    Found =
        case allowed(self()) of
            none -> search(relatives(get(), self()), #{self() => []}, #{});
            Allowed -> Allowed
        end,
    case or_everywhere(Found) of
        closed ->
            closed;
        {for_now, Clock0} ->
            Clock = for_now(Clock0),
            seen_before(Before, Clock),
            put(?SEEN, {Clock, Epoch, Ancestors, Callers}),
            Clock;
        Own ->
            Clock = own_from_now(Own),
            %% Where the process had no clock at first, those below it may keep that answer.
            Before =:= undefined orelse changed(),
            Clock
    end.

%% The clock that was found, where it isn't the process' own from now on.
or_everywhere({allowed, Clock}) ->
    {for_now, Clock};
or_everywhere(Nobody) when Nobody =:= none; Nobody =:= closed ->
    case everywhere() of
        none when Nobody =:= closed -> closed;
        Clock -> {for_now, Clock}
    end;
or_everywhere(Own) ->
    Own.

for_now(none) ->
    none;
for_now(Clock) ->
    case join(Clock) of
        ok -> Clock;
        closed -> none
    end.

own_from_now(None) when None =:= real; None =:= apart ->
    put_own(none);
own_from_now(Clock) ->
    case join(Clock) of
        ok -> put_own(Clock);
        closed -> seen()
    end.

join(Clock) ->
    case ertime_nif:join(Clock) of
        system_limit -> error(system_limit);
        Answer -> Answer
    end.

put_own(Clock) ->
    seen_before(erase(?SEEN), Clock),
    put(?KEY, Clock),
    Clock.

seen_before({Before, _, _, _}, Clock) when is_reference(Before), Before =/= Clock -> ertime_nif:leave(Before);
seen_before(_, _) -> ok.

%% Somebody has taken a clock or left one.
changed() ->
    atomics:add(persistent_term:get(?EPOCH), 1, 1).

%% How many clocks there are whose timers are noted (ertime_seen) stands beside the epoch.
count_seen(More) ->
    atomics:add(persistent_term:get(?EPOCH), 2, More).

is_seen() ->
    atomics:get(persistent_term:get(?EPOCH), 2) > 0.

%% A clock was opened on this node. The module is replaced once and by one process: a second time would purge the first code,
%% and with it who happens to be in it.
turn_on() ->
    ertime_on:on() orelse global:trans({ertime_on, self()}, fun() -> ertime_on:on() orelse replace_on() end, [node()]),
    ok.

replace_on() ->
    %% Who waits for a module to be loaded would seem to rest.
    ok = code:ensure_modules_loaded([
        ertime, ertime_times, ertime_timers, ertime_monitors, ertime_clock, ertime_options, ertime_timer, ertime_calls, ertime_keeper,
        ertime_rest, ertime_others, ertime_watch, ertime_test, ertime_drive, ertime_seen, ertime_faults
    ]),
    persistent_term:put(?EPOCH, atomics:new(2, [])),
    ertime_keeper:start(),
    {ertime_on, Off, File} = code:get_object_code(ertime_on),
    {module, ertime_on} = code:load_binary(ertime_on, File, turned_on(Off)).

%% The module with the atom `true' in the place of `false', which stands in it once: for this the compiler isn't started.
turned_on(Off) ->
    {ok, _, Chunks} = beam_lib:all_chunks(Off),
    {_, Atoms} = lists:keyfind("AtU8", 1, Chunks),
    [Before, After] = binary:split(Atoms, <<"false">>),
    Size = byte_size(Before) - 1,
    <<Others:Size/binary, Length>> = Before,
    %% From Erlang/OTP 28 on the length has another form.
    Shorter = case Length of 5 -> 4; 16#50 -> 16#40 end,
    New = {"AtU8", <<Others/binary, Shorter, "true", After/binary>>},
    {ok, On} = beam_lib:build_module(lists:keyreplace("AtU8", 1, Chunks, New)),
    On.

%% The clock that the process had is closed: the one that it has now. Where that is none, and it was its own, the process is told.
lost() ->
    erase(?SEEN),
    case erase(?KEY) of
        undefined ->
            clock();
        none ->
            put_own(none);
        _ ->
            case seen() of
                none -> told(closed);
                Clock -> told(Clock)
            end
    end.

%% Answers `ok', or why the process can't use the clock; then all is as it was.
put_clock(Clock) when is_reference(Clock) ->
    case ertime_nif:join(Clock) of
        ok -> replace_clock(Clock);
        Reason -> Reason
    end;
put_clock(Clock) ->
    replace_clock(Clock).

replace_clock(Clock) ->
    Before = get(?KEY),
    is_reference(Before) andalso Before =/= Clock andalso ertime_nif:leave(Before),
    seen_before(erase(?SEEN), Clock),
    case Clock of
        undefined -> erase(?KEY);
        _ -> put(?KEY, Clock)
    end,
    %% Without a clock on the node nobody keeps an answer.
    ertime_on:on() andalso changed(),
    ok.

%% The clock for the node stands in the table, and no call of another process is made for it: such a call would wait by the clock
%% of the calling process, which may be closed meanwhile.
put_everywhere(none) ->
    ertime_on:on() andalso begin _ = ertime_keeper:take(everywhere), changed() end,
    ok;
put_everywhere(Clock) ->
    ok = ertime_keeper:put(everywhere, Clock),
    changed().

%% The node sees this clock no longer, if it did.
leave_everywhere(Clock) ->
    ertime_on:on() andalso ertime_keeper:get(everywhere) =:= Clock andalso begin ok = ertime_keeper:drop(everywhere, Clock), changed() end,
    ok.

everywhere() ->
    case ertime_on:on() andalso ertime_keeper:get(everywhere) of
        Clock when is_reference(Clock) -> open_or_none(Clock);
        _ -> none
    end.

%% --- processes that were allowed a clock --------------------------------------------------------------------------

%% Answers `taken' where the process was allowed another one, which is open.
allow(Clock, Pid) ->
    case allowed(Pid) of
        {allowed, Other} when Other =/= Clock ->
            taken;
        _ ->
            ertime_keeper:allow(Clock, Pid),
            changed()
    end.

%% The clock is closed.
disallow(Clock) ->
    ertime_keeper:disallow(Clock),
    changed().

allowed(Pid) ->
    case ertime_keeper:get({allowed, Pid}) of
        none -> none;
        Clock ->
            case open_or_none(Clock) of
                none -> none;
                Clock -> {allowed, Clock}
            end
    end.

%% The calling process works for a clock and sees none: no process of a test waits for it.
stand_apart() ->
    put(?KEY, none),
    put(?APART, true),
    ok.

%% What clock/0 would tell another process of this node, as far as can be seen; `apart' of one that stands apart. The facts of some
%% processes may be known.
clock_of(Pid, Facts) ->
    case search([Pid], #{}, Facts) of
        real -> none;
        Nobody when Nobody =:= none; Nobody =:= closed -> everywhere();
        {allowed, Clock} -> Clock;
        Clock -> Clock
    end.

%% What is asked of a process to find its clock.
facts(Pid) ->
    case process_info(Pid, dictionary) of
        {dictionary, Dictionary} -> {own_or_allowed(Dictionary, Pid), relatives(Dictionary, Pid)};
        undefined -> {none, []}
    end.

%% Depth first, each process once. It is `closed' where there was no other clock on the way than closed ones.
search(Pids, Searched, Facts) -> search(Pids, Searched, Facts, none).

search([], _, _, Nobody) ->
    Nobody;
search([Pid | Pids], Searched, Facts, Nobody) when is_map_key(Pid, Searched) ->
    search(Pids, Searched, Facts, Nobody);
search([Pid | Pids], Searched, Facts, Nobody) ->
    Known =
        case Facts of
            #{Pid := Before} -> Before;
            _ -> facts(Pid)
        end,
    case Known of
        {none, Relatives} -> search(Relatives ++ Pids, Searched#{Pid => []}, Facts, Nobody);
        {closed, Relatives} -> search(Relatives ++ Pids, Searched#{Pid => []}, Facts, closed);
        {Clock, _} -> Clock
    end.

own(Dictionary) ->
    case lists:keyfind(?KEY, 1, Dictionary) of
        {_, none} -> case lists:keymember(?APART, 1, Dictionary) of true -> apart; false -> real end;
        {_, Clock} -> open_or_closed(Clock);
        false -> none
    end.

own_or_allowed(Dictionary, Pid) ->
    case own(Dictionary) of
        Nobody when Nobody =:= none; Nobody =:= closed ->
            case allowed(Pid) of
                none -> Nobody;
                Allowed -> Allowed
            end;
        Own ->
            Own
    end.

open_or_none(Clock) ->
    case ertime_nif:os_time(Clock) of
        {_, _} -> Clock;
        _ -> none
    end.

open_or_closed(Clock) ->
    case open_or_none(Clock) of
        none -> closed;
        Clock -> Clock
    end.

relatives(Dictionary, Pid) ->
    Named = [P || Key <- ['$ancestors', '$callers'], {K, List} <- Dictionary, K =:= Key, is_list(List), P <- List],
    local(Named ++ parent(Pid)).

local(Names) ->
    lists:append([local_pid(Name) || Name <- Names]).

local_pid(Pid) when is_pid(Pid), node(Pid) =:= node() -> [Pid];
local_pid(Name) when is_atom(Name) -> [P || P <- [whereis(Name)], is_pid(P)];
local_pid(_) -> [].

%% Before Erlang/OTP 25 a process doesn't tell who spawned it.
parent(Pid) ->
    try process_info(Pid, parent) of
        {parent, Parent} when is_pid(Parent) -> [Parent];
        _ -> []
    catch
        error:badarg -> []
    end.
