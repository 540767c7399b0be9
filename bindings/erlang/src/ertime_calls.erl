%% @private
%% The calls that are turned: which function takes the place of which.
-module(ertime_calls).

-export([presets/1, is_preset/1, target/3, is_about_time/3, may_be/3, auto_imported/2, call/3, external_fun/3]).

-define(AS_ERLANG(F, A), {erlang, F, A} => {ertime, F}).
-define(AS_SYSTEM(F, A), {'Elixir.System', F, A} => {ertime, F}).
-define(AS_TIMER(F, A), {timer, F, A} => {ertime_timer, F}).
-define(AS_PROCESS(F, A), {'Elixir.Process', F, A} => {ertime, F}).
-define(CALLS, #{
    ?AS_ERLANG(monotonic_time, 0), ?AS_ERLANG(monotonic_time, 1), ?AS_ERLANG(system_time, 0), ?AS_ERLANG(system_time, 1),
    ?AS_ERLANG(time_offset, 0), ?AS_ERLANG(time_offset, 1), ?AS_ERLANG(timestamp, 0), ?AS_ERLANG(convert_time_unit, 3),
    ?AS_ERLANG(start_timer, 3), ?AS_ERLANG(start_timer, 4), ?AS_ERLANG(send_after, 3), ?AS_ERLANG(send_after, 4),
    ?AS_ERLANG(cancel_timer, 1), ?AS_ERLANG(cancel_timer, 2), ?AS_ERLANG(read_timer, 1), ?AS_ERLANG(read_timer, 2),
    ?AS_ERLANG(monitor, 2), ?AS_ERLANG(monitor, 3), ?AS_ERLANG(demonitor, 1), ?AS_ERLANG(demonitor, 2),
    ?AS_ERLANG(system_flag, 2), ?AS_ERLANG(system_info, 1), ?AS_ERLANG(process_info, 2), ?AS_ERLANG(universaltime, 0),
    ?AS_ERLANG(localtime, 0), ?AS_ERLANG(date, 0), ?AS_ERLANG(time, 0), ?AS_ERLANG(now, 0),
    {erlang, apply, 3} => {ertime_calls, call},
    {os, system_time, 0} => {ertime, os_system_time},
    {os, system_time, 1} => {ertime, os_system_time},
    {os, timestamp, 0} => {ertime, os_timestamp},
    {calendar, universal_time, 0} => {ertime, universaltime},
    {calendar, local_time, 0} => {ertime, localtime},
    {timer, sleep, 1} => {ertime, sleep},
    ?AS_TIMER(apply_after, 2), ?AS_TIMER(apply_after, 3), ?AS_TIMER(apply_after, 4), ?AS_TIMER(apply_interval, 2),
    ?AS_TIMER(apply_interval, 3), ?AS_TIMER(apply_interval, 4), ?AS_TIMER(apply_repeatedly, 2), ?AS_TIMER(apply_repeatedly, 3),
    ?AS_TIMER(apply_repeatedly, 4), ?AS_TIMER(send_after, 2), ?AS_TIMER(send_after, 3), ?AS_TIMER(send_interval, 2),
    ?AS_TIMER(send_interval, 3), ?AS_TIMER(exit_after, 2), ?AS_TIMER(exit_after, 3), ?AS_TIMER(kill_after, 1),
    ?AS_TIMER(kill_after, 2), ?AS_TIMER(cancel, 1), ?AS_TIMER(tc, 1), ?AS_TIMER(tc, 2), ?AS_TIMER(tc, 3), ?AS_TIMER(tc, 4),
    ?AS_SYSTEM(monotonic_time, 0), ?AS_SYSTEM(monotonic_time, 1), ?AS_SYSTEM(system_time, 0), ?AS_SYSTEM(system_time, 1),
    ?AS_SYSTEM(time_offset, 0), ?AS_SYSTEM(time_offset, 1), ?AS_SYSTEM(convert_time_unit, 3),
    {'Elixir.System', os_time, 0} => {ertime, os_system_time},
    {'Elixir.System', os_time, 1} => {ertime, os_system_time},
    ?AS_PROCESS(cancel_timer, 1), ?AS_PROCESS(cancel_timer, 2), ?AS_PROCESS(read_timer, 1), ?AS_PROCESS(sleep, 1),
    {'Elixir.Process', send_after, 3} => {ertime, elixir_send_after},
    {'Elixir.Process', send_after, 4} => {ertime, elixir_send_after}
}).

-define(OTP, [gen, gen_server, gen_statem, gen_event, gen_fsm, supervisor, proc_lib, timer, calendar, logger, raw_file_io_delayed]).
-define(ELIXIR, [
    'Elixir.System', 'Elixir.Process', 'Elixir.DateTime', 'Elixir.NaiveDateTime', 'Elixir.Date', 'Elixir.Time', 'Elixir.Task',
    'Elixir.Task.Supervised', 'Elixir.Task.Supervisor', 'Elixir.GenServer', 'Elixir.DynamicSupervisor', 'Elixir.PartitionSupervisor',
    'Elixir.Registry', 'Elixir.Stream'
]).

%% What OTP's behaviours, and those of Elixir where it is loaded, need of modules with calls about time.
-spec presets(otp) -> [module()].
presets(otp) ->
    ?OTP ++
        case code:ensure_loaded('Elixir.System') of
            {module, _} -> ?ELIXIR;
            {error, _} -> []
        end.

%% Whether a module is one of these, wherever it is.
-spec is_preset(module()) -> boolean().
is_preset(Module) ->
    lists:member(Module, ?OTP ++ ?ELIXIR).

%% The function that takes the place of this one.
-spec target(module(), atom(), arity()) -> {module(), atom()}.
target(M, F, Arity) ->
    case ?CALLS of
        #{{M, F, Arity} := Target} -> Target;
        _ -> {M, F}
    end.

%% Whether this function tells a time or starts, cancels or reads a timer.
-spec is_about_time(module(), atom(), arity()) -> boolean().
is_about_time(M, F, Arity) ->
    target(M, F, Arity) =/= {M, F} andalso
        not lists:member(F, [monitor, demonitor, process_info, system_info, system_flag, apply, convert_time_unit]).

%% Whether it may be one of those, where `any' stands for what isn't known before the call.
-spec may_be(module() | any, atom() | any, arity() | any) -> boolean().
may_be(M, F, Arity) ->
    lists:any(
        fun({M1, F1, Arity1}) -> (M =:= any orelse M =:= M1) andalso (F =:= any orelse F =:= F1) andalso (Arity =:= any orelse Arity =:= Arity1) end,
        maps:keys(?CALLS)
    ).

%% Those that need no module, or an import, to be called.
-spec auto_imported(atom(), arity()) -> boolean().
auto_imported(F, Arity) ->
    lists:member({F, Arity}, [{monitor, 2}, {monitor, 3}, {demonitor, 1}, {demonitor, 2}, {process_info, 2}, {date, 0}, {time, 0}, {now, 0}, {apply, 3}]).

%% A call whose module or function was a variable, and `apply/3'.
-spec call(term(), term(), term()) -> term().
call(M, F, Arguments) ->
    case is_atom(M) andalso ertime_on:on() andalso is_list(Arguments) of
        true ->
            {M1, F1} = target(M, F, length(Arguments)),
            apply(M1, F1, Arguments);
        false ->
            apply(M, F, Arguments)
    end.

%% `fun M:F/A' where one of them was a variable.
-spec external_fun(module(), atom(), arity()) -> fun().
external_fun(M, F, Arity) ->
    {M1, F1} = target(M, F, Arity),
    fun M1:F1/Arity.
