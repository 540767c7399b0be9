%% @private
%% The functions of the NIF, `c_src/ertime_nif.c', where each has its results.
-module(ertime_nif).

-export([
    open/7, open/8, close/1, monotonic_time/1, system_time/1, time_offset/1, os_time/1, settings/1, info/1, start/6, cancel/1, stop/1, read/1,
    is_timer/1, monitor/1, demonitor/1, is_monitor/1, step/2, run/2, leap/3, tick/4, drift/2, finalize/1, free_run/1, order/2,
    serial/2, late/3, cost/2, lead/1, unlead/1, join/1, leave/1, members/1, timers/1
]).

%% Where NIFs are.
-export([file/1]).

-compile({no_auto_import, [demonitor/1, monitor/1]}).
-on_load(load/0).

load() ->
    erlang:load_nif(file("ertime_nif"), 0).

%% The file of a NIF of the package, without its suffix.
-spec file(string()) -> string().
file(Name) ->
    filename:join(priv(), Name).

priv() ->
    case code:priv_dir(ertime) of
        {error, bad_name} -> filename:join([filename:dirname(code:which(?MODULE)), "..", "priv"]);
        Dir -> Dir
    end.

open(_Mode, _Correction, _Start, _Mono, _Sys, _Slots, _Drift) -> not_loaded().
open(_Mode, _Correction, _Start, _Mono, _Sys, _Slots, _Drift, _Spread) -> not_loaded().
close(_Clock) -> not_loaded().
monotonic_time(_Clock) -> not_loaded().
system_time(_Clock) -> not_loaded().
time_offset(_Clock) -> not_loaded().
os_time(_Clock) -> not_loaded().
settings(_Clock) -> not_loaded().
info(_Clock) -> not_loaded().
start(_Clock, _Milliseconds, _To, _Message, _Bare, _Absolute) -> not_loaded().
cancel(_Timer) -> not_loaded().
stop(_Timer) -> not_loaded().
read(_Timer) -> not_loaded().
is_timer(_Term) -> not_loaded().
monitor(_Clock) -> not_loaded().
demonitor(_Monitor) -> not_loaded().
is_monitor(_Term) -> not_loaded().
step(_Clock, _Nanoseconds) -> not_loaded().
run(_Clock, _Nanoseconds) -> not_loaded().
leap(_Clock, _Nanoseconds, _Check) -> not_loaded().
tick(_Clock, _Mono, _Sys, _Check) -> not_loaded().
drift(_Clock, _PartsPerBillion) -> not_loaded().
finalize(_Clock) -> not_loaded().
free_run(_Clock) -> not_loaded().
order(_Clock, _Seed) -> not_loaded().
serial(_Clock, _IsOn) -> not_loaded().
late(_Clock, _Wheel, _Milliseconds) -> not_loaded().
cost(_Clock, _Nanoseconds) -> not_loaded().
lead(_Clock) -> not_loaded().
unlead(_Clock) -> not_loaded().
join(_Clock) -> not_loaded().
leave(_Clock) -> not_loaded().
members(_Clock) -> not_loaded().
timers(_Clock) -> not_loaded().

not_loaded() ->
    erlang:nif_error(not_loaded).
