%% The scenarios of `examples/ertime' are played through the package: their processes are processes, their messages messages, and
%% the lines are those that `ertime run' prints. Those that have several schedulers, ops that are part of a turn, or requests and
%% monitors, which the package serves and tells at once, aren't played, nor those with an offset that is too wide, which is an
%% error here.
-module(ertime_scenario_tests).

-include_lib("eunit/include/eunit.hrl").

-record(play, {clock, processes, timers = #{}, labels = #{}, start}).

-define(OPS, [
    <<"tick">>, <<"check">>, <<"finalize">>, <<"time">>, <<"system">>, <<"offset">>, <<"info">>, <<"convert">>, <<"start">>,
    <<"send_after">>, <<"cancel">>, <<"cancel_quiet">>, <<"read">>, <<"turn">>, <<"receive">>, <<"exit">>, <<"alive">>
]).

scenarios_test_() ->
    Files = filelib:wildcard(filename:join(folder(), "*.json")),
    Played = [{filename:basename(File), {timeout, 120, fun() -> ?assertEqual(lines(File), play(Scenario)) end}} || File <- Files, Scenario <- scenario(File)],
    [{lists:flatten(io_lib:format("~w scenarios", [length(Played)])), ?_assert(Files =:= [] orelse length(Played) >= 12)} | Played].

%% Beside the package, in a clone of ertime.
folder() ->
    {ok, Real} = file:read_link_all(filename:join(code:lib_dir(ertime), "src")),
    filename:join([filename:absname(Real, code:lib_dir(ertime)), "..", "..", "..", "examples", "ertime"]).

lines(File) ->
    {ok, Text} = file:read_file(File ++ ".stdout"),
    string:lexemes(binary_to_list(Text), "\n").

scenario(File) ->
    {ok, Text} = file:read_file(File),
    case string:prefix(lines_start(File), "refused") of
        nomatch ->
            {Scenario, <<>>} = value(space(Text)),
            Ops = maps:get(<<"ops">>, Scenario),
            Playable =
                maps:get(<<"schedulers">>, Scenario, 1) =:= 1 andalso not maps:is_key(<<"race">>, Scenario) andalso
                    not lists:any(fun(Line) -> string:find(Line, "offset_wide") =/= nomatch end, lines(File)) andalso
                    lists:all(fun([Name | _]) -> lists:member(Name, ?OPS) end, Ops),
            [Scenario || Playable];
        _ ->
            []
    end.

lines_start(File) ->
    hd(lines(File) ++ [""]).

%% --- playing ------------------------------------------------------------------------------------------------------

play(Scenario) ->
    [Mono, Sys] = maps:get(<<"first">>, Scenario),
    Start = maps:get(<<"start">>, Scenario, 0),
    Mode = maps:get(maps:get(<<"mode">>, Scenario, <<"no">>), #{<<"no">> => 0, <<"single">> => 1, <<"multi">> => 2}),
    Correction = maps:get(maps:get(<<"correction">>, Scenario, true), #{true => 1, false => 0}),
    _ = ertime:open(),
    Clock = ertime_nif:open(Mode, Correction, Start, Mono, Sys, maps:get(<<"slots">>, Scenario, 1024), 0),
    ?assert(is_reference(Clock)),
    Processes = [spawn_link(fun process/0) || _ <- lists:seq(1, maps:get(<<"processes">>, Scenario, 1))],
    Play = #play{clock = Clock, processes = list_to_tuple(Processes), start = Start},
    {Lines, _} = lists:mapfoldl(fun op/2, Play, maps:get(<<"ops">>, Scenario)),
    End = line("end ~w", [ertime_nif:monotonic_time(Clock)]),
    [begin unlink(Pid), exit(Pid, kill) end || Pid <- Processes],
    ertime:close(Clock),
    Lines ++ [End].

process() ->
    receive
        {'$take', From} ->
            From ! {taken, self(), receive Message when element(1, Message) =/= '$take' -> {ok, Message} after 0 -> empty end},
            process()
    end.

pid(Number, #play{processes = Processes}) ->
    element(Number + 1, Processes).

line(Format, Arguments) ->
    lists:flatten(io_lib:format(Format, Arguments)).

with(#play{clock = Clock}, Do) ->
    ertime:with(Clock, Do).

op([<<"tick">>, Mono, Sys], Play) -> {ticked("tick", false, Mono, Sys, Play), Play};
op([<<"check">>, Mono, Sys], Play) -> {ticked("check", true, Mono, Sys, Play), Play};
op([<<"finalize">>, Mono, Sys], Play) ->
    Before = with(Play, fun() -> ertime:system_info(time_offset) end),
    case Before of
        preliminary ->
            ok = ertime_nif:tick(Play#play.clock, Mono, Sys, false),
            preliminary = with(Play, fun() -> ertime:system_flag(time_offset, finalize) end),
            {line("finalize ~s ~w offset ~w", [Before, now(Play), offset(Play)]), Play};
        _ ->
            Before = with(Play, fun() -> ertime:system_flag(time_offset, finalize) end),
            {line("finalize ~s ~w", [Before, now(Play)]), Play}
    end;
op([<<"time">>], Play) -> {line("time ~w", [with(Play, fun ertime:monotonic_time/0)]), Play};
op([<<"system">>], Play) -> {line("system ~w", [with(Play, fun ertime:system_time/0)]), Play};
op([<<"offset">>], Play) ->
    {line("offset ~w ~s", [offset(Play), with(Play, fun() -> ertime:system_info(time_offset) end)]), Play};
op([<<"info">>], Play) ->
    Items = [start_time, end_time, time_warp_mode, time_correction, time_offset],
    [Start, End, Mode, Correction, State] = with(Play, fun() -> [ertime:system_info(Item) || Item <- Items] end),
    Short = lists:sublist(atom_to_list(Mode), string:chr(atom_to_list(Mode), $_) - 1),
    {line("info start ~w end ~w mode ~s correction ~w offset ~w state ~s", [Start, End, Short, Correction, offset(Play), State]), Play};
op([<<"convert">>, Time, From, To], Play) ->
    case with(Play, fun() -> ertime:convert_time_unit(Time, unit(From), unit(To)) end) of
        Value when Value >= -(1 bsl 63), Value < 1 bsl 63 -> {line("convert ~w", [Value]), Play};
        _ -> {"convert too_wide", Play}
    end;
op([<<"start">>, Label, 0, Kind, Time, Process, Message], Play) -> start(start_timer, Label, Kind, Time, Process, Message, Play);
op([<<"send_after">>, Label, 0, Kind, Time, Process, Message], Play) -> start(send_after, Label, Kind, Time, Process, Message, Play);
op([<<"cancel">>, Label], Play) -> {line("cancel ~w", [ertime:cancel_timer(timer(Label, Play))]), Play};
op([<<"cancel_quiet">>, Label], Play) -> {line("cancel_quiet ~w", [ertime:cancel_timer(timer(Label, Play), [{info, false}])]), Play};
op([<<"read">>, Label], Play) -> {line("read ~w", [ertime:read_timer(timer(Label, Play))]), Play};
op([<<"turn">>, 0], Play) ->
    {0, Sent, _} = ertime_nif:step(Play#play.clock, 0),
    {line("turn 0 ~w ~w ~w 0", [(now(Play) - Play#play.start) div 1000000, Sent, Sent]), Play};
op([<<"receive">>, Process], Play) -> {"receive " ++ taken(pid(Process, Play), Play), Play};
op([<<"exit">>, Process], Play) ->
    Pid = pid(Process, Play),
    case is_process_alive(Pid) of
        true ->
            Monitor = erlang:monitor(process, Pid),
            unlink(Pid),
            exit(Pid, kill),
            receive {'DOWN', Monitor, _, _, _} -> ok end,
            settle(Play#play.clock, Pid),
            {"exit ok", Play};
        false ->
            {"exit already", Play}
    end;
op([<<"alive">>, Process], Play) -> {line("alive ~w", [is_process_alive(pid(Process, Play))]), Play}.

%% The clock learns a little later than others that a process has exited.
settle(Clock, Pid) ->
    case [Timer || {_, To, Timer, _, _} <- ertime_nif:timers(Clock), To =:= Pid] of
        [] -> ok;
        _ -> timer:sleep(1), settle(Clock, Pid)
    end.

ticked(Name, Check, Mono, Sys, Play) ->
    Before = offset(Play),
    ok = ertime_nif:tick(Play#play.clock, Mono, Sys, Check),
    case offset(Play) of
        Before -> line("~s ~w", [Name, now(Play)]);
        After -> line("~s ~w offset ~w", [Name, now(Play), After])
    end.

now(Play) -> with(Play, fun ertime:monotonic_time/0).
offset(Play) -> with(Play, fun ertime:time_offset/0).

unit(Unit) when is_binary(Unit) -> binary_to_atom(Unit, utf8);
unit(Parts) -> Parts.

start(Call, Label, Kind, Time, Process, Message, Play = #play{timers = Timers, labels = Labels}) ->
    Name = case Call of start_timer -> "start"; send_after -> "send_after" end,
    try with(Play, fun() -> ertime:Call(Time, pid(Process, Play), Message, [{abs, Kind =:= <<"abs">>}]) end) of
        Timer -> {Name ++ " ok", Play#play{timers = Timers#{Label => Timer}, labels = Labels#{Timer => Label}}}
    catch
        error:badarg -> {Name ++ " badarg", Play};
        error:system_limit -> {Name ++ " full", Play}
    end.

timer(Label, #play{timers = Timers}) ->
    maps:get(Label, Timers, make_ref()).

taken(Pid, Play) ->
    Monitor = erlang:monitor(process, Pid),
    Pid ! {'$take', self()},
    receive
        {taken, Pid, Taken} ->
            erlang:demonitor(Monitor, [flush]),
            case Taken of
                empty -> "empty";
                {ok, {timeout, Timer, Message}} -> line("timeout ~w ~w", [maps:get(Timer, Play#play.labels), Message]);
                {ok, Message} -> line("message ~w", [Message])
            end;
        {'DOWN', Monitor, _, _, _} ->
            "exited"
    end.

%% --- JSON, as far as scenarios have it ----------------------------------------------------------------------------

value(<<"{", Rest/binary>>) -> object(space(Rest), #{});
value(<<"[", Rest/binary>>) -> array(space(Rest), []);
value(<<"\"", Rest/binary>>) ->
    [Text, After] = binary:split(Rest, <<"\"">>),
    {Text, space(After)};
value(<<"true", Rest/binary>>) -> {true, space(Rest)};
value(<<"false", Rest/binary>>) -> {false, space(Rest)};
value(Rest) ->
    {match, [{0, Length}]} = re:run(Rest, "^-?[0-9]+"),
    <<Digits:Length/binary, After/binary>> = Rest,
    {binary_to_integer(Digits), space(After)}.

object(<<"}", Rest/binary>>, Found) -> {Found, space(Rest)};
object(<<",", Rest/binary>>, Found) -> object(space(Rest), Found);
object(Rest, Found) ->
    {Key, <<":", After/binary>>} = value(Rest),
    {Value, Left} = value(space(After)),
    object(Left, Found#{Key => Value}).

array(<<"]", Rest/binary>>, Found) -> {lists:reverse(Found), space(Rest)};
array(<<",", Rest/binary>>, Found) -> array(space(Rest), Found);
array(Rest, Found) ->
    {Value, Left} = value(Rest),
    array(Left, [Value | Found]).

space(Text) ->
    string:trim(Text, leading).
