%% The clock of the calling process, or none. Written out, since a call costs as much as what it saves.
-define(CLOCK, case ertime_on:on() of false -> none; true -> ertime_use:clock() end).
%% The message of a timer in the place of the timeout of a receive.
-define(AFTER, '$ertime_after').
%% The clock that a process has opened or moved.
-define(OWN, '$ertime_own').
%% An argument is bad, and why: the text is what the shell shows, and the message of Elixir's ArgumentError.
-define(BADARG(Arguments, Position, Text), erlang:error(badarg, Arguments, [{error_info, #{module => ertime_options, cause => {Position, Text}}}])).
