%% The driver of peer/compare: it does the ops of a scenario on this node, and writes a line for each.
%%
%% The node has one scheduler, and booted with the first reading of the scenario as its OS clocks, so its monotonic
%% time is its start time when the driver begins. What the scenario calls a time is a time of the node, less the
%% node's start time, more the scenario's.
%%
%% The ops come in the form that a live node determines (peer/compare has the rules): after whatever may make a timer
%% due comes a `turn`, and after whatever may move the time offset a `notify` for each process.
%%
%% A row of the output is a mark, an op and a line: `=` the op was done as it was given, `~` it was done with another
%% reading, `+` the driver did an op that wasn't given.
-module(ertime_peer).

-export([main/0]).

-include("ertime_peer.hrl").

%% While the driver waits for the node's own check of the clock, its readings are a second apart, and the last is 61
%% seconds after the leap.
-define(SECOND, 1000000000).
-define(LAST_SECOND, 60).

-spec main() -> no_return().
main() ->
    [Input, Output, Object] = init:get_plain_arguments(),
    ok = ertime_peer_clock:load(Object),
    {ok, Bytes, _} = erl_prim_loader:get_file(Input),
    {Start, First, Processes, OsStart, WaitsForChecks, Ops} = binary_to_term(Bytes),
    Base = erlang:system_info(start_time),
    erlang:monotonic_time() =:= Base orelse
        fail("the node doesn't see the held clocks: is its C library loaded dynamically?"),
    Opened = #state{
        start = Start,
        base = Base,
        os_start = OsStart,
        waits_for_checks = WaitsForChecks,
        processes = list_to_tuple([ertime_peer_process:start() || _ <- lists:seq(1, Processes)]),
        reading = First,
        offset = erlang:time_offset()
    },
    Done = lists:foldl(fun step/2, Opened, Ops),
    End = ["= end\tend ", integer_to_list(ertime_peer_ops:time(Done)), $\n],
    ok = prim_file:write_file(Output, lists:reverse([End | Done#state.rows])),
    erlang:halt(0).

-spec fail(string()) -> no_return().
fail(Why) ->
    erlang:display(list_to_atom(Why)),
    erlang:halt(1).

step(Op, State) when element(1, Op) =:= tick; element(1, Op) =:= check; element(1, Op) =:= finalize ->
    read_clocks(Op, State);
step(Op, State) ->
    {Line, Next} = ertime_peer_ops:do(Op, State),
    row("= ", element(1, Op), Line, Next).

%% Readings of the OS clocks.

read_clocks({Name, Monotonic, System}, #state{shift = Shift} = State) ->
    Reading = {Monotonic + Shift, System + Shift},
    case Name =:= check andalso State#state.waits_for_checks andalso leaps(Reading, State) of
        true ->
            leap(Reading, State);
        false ->
            Mark = case Shift of
                0 -> "= ";
                _ -> "~ "
            end,
            told(Mark, Name, Reading, State)
    end.

%% Whether OS system time left the step of OS monotonic time.
leaps({Monotonic, System}, #state{reading = {WasMonotonic, WasSystem}}) ->
    System - WasSystem =/= Monotonic - WasMonotonic.

%% A check that finds a leap. The node checks its clock when it likes to, within a minute. So that ertime checks its
%% own not earlier by itself, it is made to do so just before the leap.
leap({Monotonic, _} = Reading, #state{reading = {WasMonotonic, WasSystem}} = State) ->
    InStep = {Monotonic, WasSystem + Monotonic - WasMonotonic},
    Checked = turn_row(told("+ ", check, InStep, State)),
    wait_for_check(Reading, 1, told("~ ", tick, Reading, Checked)).

%% Lets the OS clocks go on until the node has moved the offset. No reading is just a minute after the leap.
wait_for_check({Monotonic, System}, Second, State) when Second =< ?LAST_SECOND ->
    Turned = turn_row(State),
    Step = case Second of
        ?LAST_SECOND -> 2 * ?SECOND;
        _ -> ?SECOND
    end,
    Reading = {Monotonic + Step, System + Step},
    set(Reading, Turned),
    ertime_peer_ops:rest(),
    Shifted = Turned#state{shift = Turned#state.shift + Step},
    case erlang:time_offset() =:= Shifted#state.offset of
        true -> wait_for_check(Reading, Second + 1, told("+ ", tick, Reading, Shifted));
        false -> told("+ ", check, Reading, Shifted)
    end;
wait_for_check(_, _, State) ->
    State.

turn_row(State) ->
    {Line, Next} = ertime_peer_ops:do({turn, 0}, State),
    row("+ ", "[\"turn\",0]", Line, Next).

set({Monotonic, System}, State) ->
    ok = ertime_peer_clock:set(State#state.os_start + Monotonic, System).

%% Sets a reading, and makes its row.
told(Mark, Name, Reading, State) ->
    set(Reading, State),
    {Line, Next} = taken_in(Name, State),
    row(Mark, reading(Name, Reading), Line, Next#state{reading = Reading}).

taken_in(finalize, State) ->
    Was = erlang:system_flag(time_offset, finalize),
    Offset = erlang:time_offset(),
    Tail = case Was of
        preliminary -> [" offset ", integer_to_list(ertime_peer_ops:offset(Offset, State))];
        _ -> []
    end,
    Line = ["finalize ", atom_to_list(Was), " ", integer_to_list(ertime_peer_ops:time(State)), Tail],
    Same = case Was =:= preliminary andalso Offset =:= State#state.offset of
        true -> maps:from_keys(ertime_peer_ops:processes(State), true);
        false -> State#state.same_change
    end,
    {Line, State#state{offset = Offset, same_change = Same}};
taken_in(Name, State) ->
    Time = ertime_peer_ops:time(State),
    Offset = erlang:time_offset(),
    Tail = case Offset =:= State#state.offset of
        true -> [];
        false -> [" offset ", integer_to_list(ertime_peer_ops:offset(Offset, State))]
    end,
    Line = [atom_to_list(Name), " ", integer_to_list(Time), Tail],
    {Line, State#state{offset = Offset}}.

reading(Name, {Monotonic, System}) ->
    ["[\"", atom_to_list(Name), "\",", integer_to_list(Monotonic), ",", integer_to_list(System), "]"].

row(Mark, Name, Line, State) when is_atom(Name) ->
    row(Mark, atom_to_list(Name), Line, State);
row(Mark, Op, Line, State) ->
    State#state{rows = [[Mark, Op, $\t, Line, $\n] | State#state.rows]}.
