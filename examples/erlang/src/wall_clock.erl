%% Sends a message at a moment of the system time. Where the time offset changes, the timer is set anew.
-module(wall_clock).
-behaviour(gen_server).

-export([start_link/3]).
-export([init/1, handle_call/3, handle_cast/2, handle_info/2]).

%% At: seconds of the system time.
start_link(At, To, Message) ->
    gen_server:start_link(?MODULE, {At, To, Message}, []).

init({At, To, Message}) ->
    Monitor = erlang:monitor(time_offset, clock_service),
    {ok, set(#{at => At, to => To, message => Message, monitor => Monitor})}.

set(State = #{at := At}) ->
    Monotonic = erlang:convert_time_unit(At, second, native) - erlang:time_offset(),
    Timer = erlang:start_timer(erlang:convert_time_unit(Monotonic, native, millisecond), self(), now, [{abs, true}]),
    State#{timer => Timer}.

handle_info({timeout, Timer, now}, State = #{timer := Timer, to := To, message := Message}) ->
    To ! Message,
    {stop, normal, State};
handle_info({'CHANGE', Monitor, time_offset, clock_service, _}, State = #{monitor := Monitor, timer := Timer}) ->
    _ = erlang:cancel_timer(Timer),
    {noreply, set(State)};
handle_info(_, State) ->
    {noreply, State}.

handle_call(_, _, State) -> {reply, ok, State}.
handle_cast(_, State) -> {noreply, State}.
