%% @private
%% A process that watches over a clock and the process it is for, its owner: that of a test.
%%
%% With `auto' it lets the time go on by itself: whenever all processes of the clock rest, it goes to the next deadline. Where
%% all rest and nothing is armed, nobody will ever wake them: that is a deadlock, if it stays so for a while, and none of them
%% holds a port, for which it may wait. With `by_hand' it moves nothing, and tells where the owner waits for a time that nobody
%% but itself would let pass. In both cases it ends with the owner.
-module(ertime_watch).

-export([start/3, stop/1, is_auto/1, is_left/1]).

-export_type([options/0]).

-type options() :: #{
    advance := auto | by_hand,
    limit := non_neg_integer() | infinity,  % real milliseconds that `auto' may take
    pace => pos_integer(),                  % after so many real milliseconds without rest the clock goes on by as many, and ten
                                            % times as fast where other nodes are connected, of whose work nothing is seen here
    tell := fun((term()) -> term()),        % is called once with what went wrong
    gone := fun(() -> term())               % is called when the owner has ended
}.

-define(DEADLOCK, 500).
-define(ASLEEP, 2000).
-define(LOOK, 100).
-define(PACE, 10).
-define(PACE_LOOKS, 200).
-define(MOST_STEPS, 1000).
-define(AFTER, '$ertime_after').
-define(LONGEST, 1 bsl 60).
-define(MOST_AT_ONE_TIME, 20000).
-define(MOST_TOLD, 1000).

-record(watch, {clock, owner, options, monitor, started, since = none, seen = none, same = 0}).

-spec start(ertime:clock(), pid(), options()) -> pid().
start(Clock, Owner, Options = #{advance := Advance}) ->
    Self = self(),
    Pid = spawn(fun() ->
        ertime_use:stand_apart(),
        %% Else those that keep all schedulers busy could keep it from running.
        is_map_key(pace, Options) andalso process_flag(priority, high),
        Advance =:= auto andalso ertime_keeper:put({auto, Clock}, self()),
        Self ! {?MODULE, self()},
        loop(#watch{clock = Clock, owner = Owner, options = Options, monitor = erlang:monitor(process, Owner), started = now_ms()})
    end),
    receive
        {?MODULE, Pid} -> Pid
    end.

%% Stops the one that moves a clock by itself, if there is one.
-spec stop(ertime:clock()) -> ok.
stop(Clock) ->
    case ertime_keeper:take({auto, Clock}) of
        none -> ok;
        Pid -> exit(Pid, kill)
    end,
    ok.

-spec is_auto(ertime:clock()) -> boolean().
is_auto(Clock) ->
    ertime_keeper:has({auto, Clock}).

%% Whether nobody moves the clock, and nobody is about to: all others of its processes rest.
-spec is_left(ertime:clock()) -> boolean().
is_left(Clock) ->
    not is_auto(Clock) andalso nobody_leads(Clock) andalso all_rest(Clock, 1, ?LOOK).

%% Where no more processes can be spawned, it can't be seen.
all_rest(Clock, Looks, Milliseconds) ->
    try
        ertime_rest:rests(Clock, Looks, Milliseconds)
    catch
        error:system_limit -> false
    end.

now_ms() -> erlang:monotonic_time(millisecond).

loop(Watch = #watch{options = #{advance := auto}}) -> auto(Watch);
loop(Watch) -> by_hand(Watch).

%% Whether the owner lives, for so many milliseconds.
is_there(#watch{clock = Clock, monitor = Monitor, options = #{gone := Gone}}, Wait) ->
    receive
        {'DOWN', Monitor, process, _, _} ->
            stop_quietly(Clock),
            Gone(),
            false
    after Wait -> true
    end.

tell(#watch{clock = Clock, options = #{tell := Tell}} = Watch, Reason) ->
    stop_quietly(Clock),
    Tell(Reason),
    _ = is_there(Watch, infinity),
    ok.

stop_quietly(Clock) ->
    ertime_keeper:drop({auto, Clock}, self()).

%% --- time goes on by itself ---------------------------------------------------------------------------------------

auto(Watch = #watch{clock = Clock, started = Started, options = #{limit := Limit}}) ->
    case is_there(Watch, 0) of
        false ->
            ok;
        true when is_integer(Limit) ->
            case now_ms() - Started > Limit of
                true -> tell(Watch, {real_time_limit, Limit, who_waits(Clock)});
                false -> go_on(Watch)
            end;
        true ->
            go_on(Watch)
    end.

go_on(Watch = #watch{clock = Clock, options = #{pace := Pace}}) ->
    case all_rest(Clock, ?PACE_LOOKS, Pace) of
        true -> connected(Watch, nodes(connected));
        false -> paced(Watch, Pace)
    end;
go_on(Watch = #watch{clock = Clock}) ->
    case all_rest(Clock, 1, ?LOOK) of
        true -> next(Watch);
        false -> auto(Watch#watch{since = none})
    end.

connected(Watch, []) -> next(Watch);
connected(Watch, _) -> is_there(Watch, ?PACE) andalso paced(Watch, 10 * ?PACE).

%% So many real milliseconds are over.
paced(Watch = #watch{clock = Clock}, Milliseconds) ->
    pass(Clock, Milliseconds * 1000000, ?MOST_STEPS),
    auto(Watch#watch{since = none}).

pass(_, _, 0) ->
    ok;
pass(Clock, Left, Steps) ->
    case ertime_nif:lead(Clock) of
        true ->
            Stepped = ertime_nif:step(Clock, Left),
            _ = ertime_nif:unlead(Clock),
            case Stepped of
                {Rest, _, _} when Rest > 0 -> pass(Clock, Rest, Steps - 1);
                _ -> ok
            end;
        _ ->
            ok
    end.

next(Watch = #watch{clock = Clock, same = Same}) ->
    case led(Clock) of
        closed -> stop_quietly(Clock);
        no_memory -> tell(Watch, {no_memory, who_waits(Clock)});
        %% Whoever does the faults of time has been ended.
        driver_gone -> tell(Watch, {driver_gone, who_waits(Clock)});
        other -> is_there(Watch, 1) andalso auto(Watch#watch{since = none});
        {_, 0, 0} -> idle(Watch);
        {false, _, _} when Same >= ?MOST_AT_ONE_TIME -> tell(Watch, {no_progress, who_waits(Clock)});
        {false, _, _} -> auto(Watch#watch{since = none, same = Same + 1});
        {true, _, _} -> auto(Watch#watch{since = none, same = 0})
    end.

%% Sends what is due, or else goes on to the next deadline: whether the time was moved, how many messages were sent, and how many
%% timers were armed then. Or why it didn't: `other' where another process moves the clock or no more processes can be spawned,
%% `closed' or `no_memory'.
led(Clock) ->
    case ertime_nif:lead(Clock) of
        true ->
            try
                moved(Clock, ertime_drive:step(Clock, 0))
            catch
                error:system_limit -> other
            after
                ertime_nif:unlead(Clock)
            end;
        false -> other;
        Reason -> Reason
    end.

moved(Clock, {_, 0, Armed}) when Armed > 0 ->
    case ertime_drive:step(Clock, ?LONGEST) of
        {_, Sent, _} -> {true, Sent, Armed};
        Other -> moved(Clock, Other)
    end;
moved(_, {again, _}) ->
    {true, 1, 1};
moved(_, {_, Sent, Armed}) ->
    {false, Sent, Armed};
moved(_, Reason) ->
    Reason.

%% All rest, and nothing is armed.
idle(Watch = #watch{clock = Clock, owner = Owner, since = Since, seen = Before}) ->
    Seen = [process_info(Pid, [status, reductions]) || Pid <- [Owner | processes_of(Clock)]],
    case Seen =:= Before andalso is_waiting(Owner) of
        true when Since =/= none ->
            case now_ms() - Since > ?DEADLOCK andalso not waits_outside(Clock, Owner) of
                true -> tell(Watch, {deadlock, who_waits(Clock)});
                false -> is_there(Watch, 5) andalso auto(Watch)
            end;
        _ ->
            is_there(Watch, 1) andalso auto(Watch#watch{since = now_ms(), seen = Seen})
    end.

is_waiting(Pid) ->
    process_info(Pid, status) =:= {status, waiting}.

%% For what is no process: a port, or whoever sits at the shell.
waits_outside(Clock, Owner) ->
    lists:any(fun has_port/1, lists:usort([Owner | processes_of(Clock)])) orelse
        process_info(Owner, current_function) =:= {current_function, {shell, eval_loop, 3}}.

has_port(Pid) ->
    case process_info(Pid, links) of
        {links, Links} -> lists:any(fun is_port/1, Links);
        undefined -> false
    end.

%% --- time that is moved by hand -----------------------------------------------------------------------------------

by_hand(Watch = #watch{clock = Clock, owner = Owner, since = Since, seen = Before}) ->
    case is_there(Watch, ?LOOK) of
        false ->
            ok;
        true ->
            Seen = {process_info(Owner, [status, reductions]), ertime_nif:monotonic_time(Clock)},
            case Seen of
                {_, closed} -> _ = is_there(Watch, infinity);
                {[{status, waiting}, _], _} when Seen =:= Before -> still(Watch, now_ms() - Since);
                _ -> by_hand(Watch#watch{seen = Seen, since = now_ms()})
            end
    end.

still(Watch = #watch{clock = Clock, owner = Owner, seen = {_, Time}}, Long) ->
    case Long > ?ASLEEP andalso is_asleep(Clock, Owner) andalso is_left(Clock) andalso ertime_nif:monotonic_time(Clock) =:= Time of
        true -> tell(Watch, {nobody_advances, who_waits(Clock)});
        false -> by_hand(Watch)
    end.

nobody_leads(Clock) ->
    case ertime_nif:lead(Clock) of
        true -> ertime_nif:unlead(Clock) =:= ok;
        _ -> false
    end.

%% Whether it waits with a timeout of this clock, or for somebody who does.
is_asleep(Clock, Owner) ->
    Asleep = [Pid || {_, Pid, _, ?AFTER, _} <- ertime_nif:timers(Clock)],
    waits_for(Asleep, [Owner], []).

waits_for(_, [], _) ->
    false;
waits_for(Asleep, [Pid | Pids], Before) ->
    case lists:member(Pid, Asleep) of
        true -> true;
        false -> waits_for(Asleep, [P || P <- ertime_rest:monitored_by(Pid), not lists:member(P, [Pid | Before])] ++ Pids, [Pid | Before])
    end.

%% --- what is told -------------------------------------------------------------------------------------------------

processes_of(Clock) ->
    case ertime_nif:members(Clock) of
        Pids when is_list(Pids) -> lists:sort([Pid || Pid <- Pids, Pid =/= self()]);
        _ -> []
    end.

%% The processes of a clock, a thousand of them at most, and where each is.
-spec who_waits(ertime:clock()) -> [{pid(), [{atom(), term()}]}].
who_waits(Clock) ->
    [Told || Pid <- lists:sublist(processes_of(Clock), ?MOST_TOLD), {_, [_ | _]} = Told <- [ertime_rest:describe(Pid)]].
