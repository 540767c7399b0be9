%% @private
%% The process that turns the tracing of `ertime_tap' on and off, and keeps its log until it is asked for.
-module(ertime_tap_keeper).
-behaviour(gen_server).

-export([start/1, asked/1]).
-export([init/1, handle_call/3, handle_cast/2, handle_info/2]).

-define(NAME, ertime_tap).

-record(state, {trace, from, on = true, ended = #{}, log = none, waiting = none}).

%% With all options, and the time in milliseconds.
-spec start(map()) -> ok | {error, term()}.
start(Options) ->
    case gen_server:start({local, ?NAME}, ?MODULE, Options, []) of
        {ok, _} -> ok;
        {error, {already_started, _}} -> {error, already_started};
        {error, {shutdown, Reason}} -> {error, Reason}
    end.

-spec asked(is_on | stop) -> {ok, term()} | {error, not_started}.
asked(What) ->
    try
        {ok, gen_server:call(?NAME, What, infinity)}
    catch
        exit:{noproc, _} -> {error, not_started}
    end.

init(#{processes := Processes, for := For, most := Most, memory := Memory}) ->
    process_flag(priority, high),
    case ertime_tap_trace:on(Processes, Most, Memory) of
        {ok, Trace} ->
            _ = erlang:send_after(For, self(), {off, time}),
            {ok, #state{trace = Trace, from = erlang:monotonic_time(nanosecond), ended = #{processes => whom(Processes)}}};
        {error, Reason} ->
            {stop, {shutdown, Reason}}
    end.

whom(all) -> all;
whom(_) -> some.

handle_call(is_on, _, State = #state{log = Log}) -> {reply, Log =:= none, State};
handle_call(stop, _, State = #state{log = Log}) when Log =/= none -> {stop, normal, Log, State};
handle_call(stop, From, State) -> {noreply, off(stop, State#state{waiting = From})}.

handle_cast(_, State) -> {noreply, State}.

handle_info({off, Why}, State) ->
    {noreply, off(Why, State)};
handle_info(Message, State = #state{trace = Trace}) ->
    case ertime_tap_trace:read(Trace, Message) of
        {Messages, Timers} -> done(Messages, Timers, State);
        gone -> done(0, [], off(killed, State));
        other -> {noreply, State}
    end.

off(_, State = #state{on = false}) ->
    State;
off(Why, State = #state{trace = Trace, from = From, ended = Ended}) ->
    ok = ertime_tap_trace:off(Trace),
    State#state{on = false, ended = Ended#{from => From, to => erlang:monotonic_time(nanosecond), off => Why}}.

done(_, _, State = #state{log = Log}) when Log =/= none ->
    {noreply, State};
done(Messages, Timers, State = #state{ended = Ended, waiting = Waiting}) ->
    Log = ertime_tap_log:made(Ended#{messages => Messages, timers => Timers}),
    case Waiting of
        none ->
            {noreply, State#state{log = Log}};
        _ ->
            gen_server:reply(Waiting, Log),
            {stop, normal, State}
    end.
