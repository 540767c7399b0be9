%% @doc What a live node does with timers: which are started, by which function, and how late they come. It reads only.
%%
%% ```
%% ok = ertime_tap:start(#{for => {10, second}}),
%% timer:sleep(10000),
%% {ok, Log} = ertime_tap:stop(),
%% ertime_tap:print(Log),
%% ok = file:write_file("history.txt", ertime_tap:history(Log)).   % for ertaudit, and tools/picture --history
%% '''
%%
%% It traces the calls of `erlang:start_timer', `send_after' and `cancel_timer', and the messages of `start_timer'. It ends by
%% itself when its time is over, or when it has as many messages or bytes as it may have, whichever comes first; the log stays
%% until {@link stop/0}. From Erlang/OTP 27 on it has a trace session of its own, and disturbs no other. Before, a node has one
%% tracer: it doesn't start while somebody else traces, and nobody else should begin while it does.
%%
%% It calls no NIF: `ertime_tap.beam' and `ertime_tap_*.beam' are all that a node needs of this package. What a trace can't tell
%% stands at {@link ertime_tap_log}.
-module(ertime_tap).

-export([start/0, start/1, is_on/0, stop/0, timers/1, summary/1, print/1, history/1]).
%% For the package itself.
-export([format_error/2]).

-export_type([options/0, log/0]).

-type options() :: #{
    processes => all | existing | new | [pid() | atom()],        % whose calls and messages are traced; by default all
    for => pos_integer() | {pos_integer(), erlang:time_unit()},  % how long: milliseconds, or with a unit; by default a minute
    most => pos_integer(),                                       % trace messages, some three a timer; by default 100,000
    memory => pos_integer()                                      % bytes of the process that reads them, with those that wait
                                                                 % to be read; by default 64 MiB
}.

-type log() :: #{
    from := integer(),                                % Erlang monotonic time in nanoseconds when the tracing began,
    to := integer(),                                  % and when it ended
    off := stop | time | messages | memory | killed,  % why it ended
    messages := non_neg_integer(),                    % how many trace messages were read
    processes := all | some,                          % whether a message to any process would be seen
    timers := [ertime_tap_log:timer()]                % in the order in which they were started
}.

-define(DEFAULTS, #{processes => all, for => 60000, most => 100000, memory => 64 bsl 20}).
-define(LONGEST, 16#FFFFFFFF).

%% @equiv start(#{})
-spec start() -> ok | {error, already_started | {traced, term()}}.
start() -> start(#{}).

%% @doc Begins to trace, with options:
%%
%% <ul>
%% <li>`processes': whose calls and messages are traced: by default `all', `existing', `new', or a list of pids and registered
%%     names;</li>
%% <li>`for': how long, in milliseconds or with a unit; by default a minute;</li>
%% <li>`most': how many trace messages, some three a timer; by default 100,000;</li>
%% <li>`memory': bytes of the process that reads them, with those that wait to be read; by default 64 MiB. Where it falls so far
%%     behind that it takes four times as many, the runtime ends it, and the log is empty: `killed'.</li>
%% </ul>
%%
%% `{traced, What}' before Erlang/OTP 27: somebody else traces the process, or new processes, or messages.
%% `{no_process, It}': a process that the options name isn't there. An option that is none is `badarg', with a text that names it.
-spec start(options()) -> ok | {error, already_started | {traced, term()} | {no_process, pid() | atom()}}.
start(Options) when is_map(Options) ->
    case [Name || {Name, Value} <- maps:to_list(Options), not is_option(Name, Value)] of
        [] ->
            #{for := Duration} = All = maps:merge(?DEFAULTS, Options),
            ertime_tap_keeper:start(All#{for := milliseconds(Duration)});
        [Bad | _] ->
            refuse(Options, io_lib:format("~0tp isn't an option, or its value isn't in its range", [Bad]))
    end;
start(Options) ->
    refuse(Options, "the options are no map").

-spec refuse(term(), iodata()) -> no_return().
refuse(Options, Why) ->
    erlang:error(badarg, [Options], [{error_info, #{module => ?MODULE, cause => unicode:characters_to_binary(Why)}}]).

%% @private
format_error(_, [{_, _, _, Information} | _]) ->
    #{cause := Why} = proplists:get_value(error_info, Information),
    #{1 => Why}.

is_option(processes, How) when How =:= all; How =:= existing; How =:= new -> true;
is_option(processes, [_ | _] = Some) -> lists:all(fun(It) -> is_atom(It) orelse is_pid(It) andalso node(It) =:= node() end, Some);
is_option(for, Duration) -> is_count(milliseconds(Duration)) andalso milliseconds(Duration) =< ?LONGEST;
is_option(Name, Count) when Name =:= most; Name =:= memory -> is_count(Count);
is_option(_, _) -> false.

is_count(Number) -> is_integer(Number) andalso Number > 0.

milliseconds({Time, Unit}) ->
    try
        erlang:convert_time_unit(Time, Unit, millisecond)
    catch
        error:badarg -> none
    end;
milliseconds(Time) ->
    Time.

%% @doc Whether it traces now: it was started, and hasn't ended by itself.
-spec is_on() -> boolean().
is_on() -> ertime_tap_keeper:asked(is_on) =:= {ok, true}.

%% @doc Ends the tracing, if it hasn't ended by itself, and returns what it has seen.
-spec stop() -> {ok, log()} | {error, not_started}.
stop() -> ertime_tap_keeper:asked(stop).

%% @doc The timers that were started meanwhile, in this order.
-spec timers(log()) -> [ertime_tap_log:timer()].
timers(#{timers := Timers}) -> Timers.

%% @doc How many timers there were, what became of them, who started them and how late they came.
-spec summary(log()) -> ertime_tap_log:summary().
summary(Log) -> ertime_tap_log:summary(Log).

%% @doc Prints the summary.
-spec print(log()) -> ok.
print(Log) -> io:put_chars(ertime_tap_log:format(summary(Log))).

%% @doc The timers as a written history, which `ertaudit' judges: see {@link ertime_tap_history}.
-spec history(log()) -> iodata().
history(Log) -> ertime_tap_history:written(Log).
