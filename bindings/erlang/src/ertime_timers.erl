%% @doc Timers, by the clock that the calling process sees; where it sees none, those of the runtime. The module {@link ertime} has
%% them all.
-module(ertime_timers).

-export([
    start_timer/3, start_timer/4, send_after/3, send_after/4, cancel_timer/1, cancel_timer/2, read_timer/1,
    read_timer/2, sleep/1, receive_start/1, receive_stop/1, elixir_send_after/3, elixir_send_after/4
]).
%% For the package itself.
-export([options/3]).

-include("ertime.hrl").

%% Real milliseconds after which a process that sleeps under its own clock looks whether somebody moves that.
-define(PATIENCE, 100).

%% @doc As `erlang:start_timer/3'.
%%
%% ```
%% Clock = ertime:open(#{}),
%% ertime:use(Clock),
%% Timer = ertime:start_timer(100, self(), ping),
%% 1 = ertime:advance(100),
%% ok = receive {timeout, Timer, ping} -> ok after 0 -> none end.
%% '''
-spec start_timer(integer(), pid() | atom(), term()) -> reference().
start_timer(Time, To, Message) ->
    case ?CLOCK of
        none -> erlang:start_timer(Time, To, Message);
        Clock -> started(ertime_nif:start(Clock, Time, To, Message, false, false), start_timer, [Time, To, Message])
    end.

%% @doc As `erlang:start_timer/4': with the option `abs'.
%%
%% ```
%% Clock = ertime:open(#{}),
%% ertime:use(Clock),
%% Now = ertime:monotonic_time(millisecond),
%% Timer = ertime:start_timer(Now + 250, self(), ping, [{abs, true}]),
%% 250 = ertime:read_timer(Timer).
%% '''
-spec start_timer(integer(), pid() | atom(), term(), [{abs, boolean()}]) -> reference().
start_timer(Time, To, Message, Options) ->
    Arguments = [Time, To, Message, Options],
    case ?CLOCK of
        none -> erlang:start_timer(Time, To, Message, Options);
        Clock -> started(ertime_nif:start(Clock, Time, To, Message, false, absolute(Options, Arguments)), start_timer, Arguments)
    end.

%% @doc As `erlang:send_after/3'.
%%
%% ```
%% Clock = ertime:open(#{}),
%% ertime:use(Clock),
%% _ = ertime:send_after(100, self(), ping),
%% 1 = ertime:advance(100),
%% ping = receive Any -> Any after 0 -> none end.
%% '''
-spec send_after(integer(), pid() | atom(), term()) -> reference().
send_after(Time, To, Message) ->
    case ?CLOCK of
        none -> erlang:send_after(Time, To, Message);
        Clock -> started(ertime_nif:start(Clock, Time, To, Message, true, false), send_after, [Time, To, Message])
    end.

%% @doc As `erlang:send_after/4': with the option `abs'.
-spec send_after(integer(), pid() | atom(), term(), [{abs, boolean()}]) -> reference().
send_after(Time, To, Message, Options) ->
    Arguments = [Time, To, Message, Options],
    case ?CLOCK of
        none -> erlang:send_after(Time, To, Message, Options);
        Clock -> started(ertime_nif:start(Clock, Time, To, Message, true, absolute(Options, Arguments)), send_after, Arguments)
    end.

started(Timer, _, Arguments) when is_reference(Timer) ->
    ertime_use:is_seen() andalso ertime_seen:armed(Timer, Arguments),
    Timer;
started(closed, Name, Arguments) ->
    _ = ertime_use:lost(),
    apply(?MODULE, Name, Arguments);
started(Reason, _, Arguments) ->
    error(Reason, Arguments).

absolute(Options, Arguments) ->
    maps:get(abs, options(Options, #{abs => false}, Arguments)).

%% Options with their values, the last of each. Anything else is a bad argument.
%% @private
options([], Known, _) ->
    Known;
options([{Name, Value} | Options], Known, Arguments) when is_map_key(Name, Known), is_boolean(Value) ->
    options(Options, Known#{Name := Value}, Arguments);
options(_, _, Arguments) ->
    error(badarg, Arguments).

%% @doc As `erlang:cancel_timer/1', for timers of every clock and of the runtime.
%%
%% ```
%% Clock = ertime:open(#{}),
%% ertime:use(Clock),
%% Timer = ertime:start_timer(100, self(), ping),
%% 100 = ertime:cancel_timer(Timer),
%% false = ertime:cancel_timer(Timer).
%% '''
-spec cancel_timer(reference()) -> non_neg_integer() | false.
cancel_timer(Timer) ->
    case ertime_on:on() of
        false ->
            erlang:cancel_timer(Timer);
        true ->
            case cancelled(Timer) of
                badarg -> erlang:cancel_timer(Timer);
                Left -> Left
            end
    end.

%% @doc As `erlang:cancel_timer/2': with the options `async' and `info'.
%%
%% ```
%% Clock = ertime:open(#{}),
%% ertime:use(Clock),
%% Timer = ertime:start_timer(100, self(), ping),
%% ok = ertime:cancel_timer(Timer, [{async, true}]),
%% 100 = receive {cancel_timer, Timer, Left} -> Left after 0 -> none end.
%% '''
-spec cancel_timer(reference(), [{async, boolean()} | {info, boolean()}]) -> non_neg_integer() | false | ok.
cancel_timer(Timer, Options) ->
    case is_timer(Timer) of
        false ->
            erlang:cancel_timer(Timer, Options);
        true ->
            case options(Options, #{async => false, info => true}, [Timer, Options]) of
                #{async := false, info := true} ->
                    cancelled(Timer);
                #{async := false} ->
                    _ = cancelled(Timer),
                    ok;
                #{info := Info} ->
                    Left = cancelled(Timer),
                    Info andalso (self() ! {cancel_timer, Timer, Left}),
                    ok
            end
    end.

cancelled(Timer) ->
    Left = ertime_nif:cancel(Timer),
    is_integer(Left) andalso ertime_use:is_seen() andalso ertime_seen:cancelled(Timer),
    Left.

%% @doc As `erlang:read_timer/1', for timers of every clock and of the runtime.
%%
%% ```
%% Clock = ertime:open(#{}),
%% ertime:use(Clock),
%% Timer = ertime:start_timer(100, self(), ping),
%% 0 = ertime:advance(40),
%% 60 = ertime:read_timer(Timer).
%% '''
-spec read_timer(reference()) -> non_neg_integer() | false.
read_timer(Timer) ->
    case ertime_on:on() of
        false ->
            erlang:read_timer(Timer);
        true ->
            case ertime_nif:read(Timer) of
                badarg -> erlang:read_timer(Timer);
                Left -> Left
            end
    end.

%% @doc As `erlang:read_timer/2': with the option `async'.
-spec read_timer(reference(), [{async, boolean()}]) -> non_neg_integer() | false | ok.
read_timer(Timer, Options) ->
    case is_timer(Timer) of
        false ->
            erlang:read_timer(Timer, Options);
        true ->
            case options(Options, #{async => false}, [Timer, Options]) of
                #{async := false} ->
                    ertime_nif:read(Timer);
                #{async := true} ->
                    self() ! {read_timer, Timer, ertime_nif:read(Timer)},
                    ok
            end
    end.

is_timer(Term) ->
    ertime_on:on() andalso ertime_nif:is_timer(Term).

%% @doc As `timer:sleep/1'.
-spec sleep(timeout()) -> ok.
sleep(Time) ->
    case receive_start(Time) of
        {none, _} ->
            receive
            after Time -> ok
            end;
        {Timer, _} ->
            sleep_until(Timer, Time, erlang:get(?OWN))
    end.

sleep_until(Timer, _, undefined) ->
    receive
        {timeout, Timer, ?AFTER} -> ok
    end;
%% The process is one that moves a clock itself. Where nobody else does, it would sleep for ever.
sleep_until(Timer, Time, Clock) ->
    Now = ertime_nif:monotonic_time(Clock),
    receive
        {timeout, Timer, ?AFTER} -> ok
    after ?PATIENCE ->
        %% What others do while these are asked is seen by the time, which is asked last.
        case ertime:clock() =:= Clock andalso ertime_watch:is_left(Clock) andalso ertime_nif:monotonic_time(Clock) =:= Now of
            true ->
                receive_stop(Timer),
                error({nobody_advances, [ertime_rest:describe(self())]}, [Time]);
            false ->
                sleep_until(Timer, Time, Clock)
        end
    end.

%% @private A timer in the place of the timeout of a receive, and the timeout that the receive still has.
receive_start(Time) when is_integer(Time), Time > 0 ->
    case ?CLOCK of
        none -> {none, Time};
        _ -> {start_timer(Time, self(), ?AFTER), infinity}
    end;
receive_start(Time) ->
    {none, Time}.

%% @private
receive_stop(none) ->
    ok;
receive_stop(Timer) ->
    case ertime_nif:stop(Timer) of
        ok -> ertime_use:is_seen() andalso ertime_seen:ended(Timer);
        sent -> taken(Timer);
        closed -> ertime_keeper:stop(Timer);
        %% One of the runtime: the clock was closed before it was started.
        badarg -> erlang:cancel_timer(Timer) =/= false orelse taken(Timer)
    end,
    ok.

%% The message is there, or on its way.
taken(Timer) ->
    receive
        {timeout, Timer, ?AFTER} -> ok
    end.

%% @private
elixir_send_after(To, Message, Time) ->
    send_after(Time, To, Message).

%% @private
elixir_send_after(To, Message, Time, Options) ->
    send_after(Time, To, Message, Options).
