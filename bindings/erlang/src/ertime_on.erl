%% @private
%% Whether a clock was ever opened on this node. The module is replaced when the first one is, by one in which on/0 is true
%% (`ertime_use:turn_on/0'): so where there is none, as in production, the question costs a call and no look-up.
-module(ertime_on).

-export([on/0]).

%% The compiler makes it `false', and Dialyzer, which knows nothing of the other module, takes it for a boolean.
-spec on() -> boolean().
on() ->
    1.0 > 2.0.
