%% What the driver of peer/compare keeps between two ops.
-record(state, {
    start :: integer(),                    % monotonic time at the opening, of the scenario
    base :: integer(),                     % the same, of this node
    os_start :: integer(),                 % OS monotonic time that stands for 0 of the scenario
    waits_for_checks :: boolean(),
    processes :: tuple(),
    timers = #{} :: #{integer() => reference()},
    labels = #{} :: #{reference() => integer()},
    monitors = #{} :: #{{integer(), integer()} => reference()},
    numbers = #{} :: #{reference() => integer()},
    next = #{} :: #{integer() => integer()},
    seen = #{} :: #{integer() => ertime_peer_process:counts()},
    asked = 0 :: non_neg_integer(),        % requests since the last turn
    offset :: integer(),                   % as the node last told it
    same_change = #{} :: #{integer() => true},
    reading :: {integer(), integer()},     % the last one
    shift = 0 :: integer(),                % what waiting for checks has added to all later readings
    rows = [] :: [iolist()]
}).
