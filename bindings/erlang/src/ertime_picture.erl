%% @private
%% What a test that failed did with time, as a page with a drawing: time from left to right, a lane for each process, a bar for each
%% timer, and a line for each fault.
-module(ertime_picture).

-export([write/1, page/1]).

-define(LEFT, 190).
-define(WIDTH, 1200).
-define(ROW, 16).
-define(TOP, 64).
-define(MOST_BARS, 400).

%% The name of the file, or none where there is no folder `_build' or it can't be written.
-spec write(ertime_seen:seen()) -> file:filename() | none.
write(Seen = #{name := Name}) ->
    File = filename:join(["_build", "ertime", [safe(C) || C <- Name] ++ ".html"]),
    case filelib:is_dir("_build") andalso filelib:ensure_dir(File) of
        ok ->
            case file:write_file(File, unicode:characters_to_binary(page(Seen))) of
                ok -> File;
                _ -> none
            end;
        _ ->
            none
    end.

safe(C) when C >= $a, C =< $z; C >= $A, C =< $Z; C >= $0, C =< $9; C =:= $-; C =:= $_; C =:= $. -> C;
safe(_) -> $_.

-spec page(ertime_seen:seen()) -> unicode:chardata().
page(Seen = #{name := Name, reason := Reason, clocks := Clocks, now := Now}) ->
    [
        "<!doctype html>\n<html lang=\"en\"><head><meta charset=\"utf-8\"><title>", escaped(Name), "</title>\n<style>\n", style(), "</style></head>\n",
        "<body class=\"page\">\n<h1>", escaped(Name), "</h1>\n<p>It failed after ", seconds(Now), ": <code>", escaped(Reason), "</code>. ",
        escaped(Clocks), ".</p>\n", drawing(Seen),
        "<p class=\"key\">", [["<span><i class=\"", Class, "\"></i>", Text, "</span> "] || {Class, Text} <- key()], "</p>\n</body></html>\n"
    ].

key() ->
    [
        {"expired", "expired on time"}, {"late", "later than its deadline"}, {"cancelled", "cancelled"}, {"ended", "a receive that got its message"},
        {"orphaned", "its process ended"}, {"armed", "armed at the failure"}, {"leap", "a fault"}
    ].

style() ->
    ":root { color-scheme: light dark }\n"
    "body { font: 14px system-ui, sans-serif; margin: 24px; color: #1f2328; background: #ffffff }\n"
    "h1 { font-size: 18px }\nsvg { max-width: 100% }\nsvg text { font: 11px system-ui, sans-serif; fill: #1f2328 }\n"
    ".soft { fill: #59636e }\n.grid { stroke: #d8dee4 }\n.lane { fill: #e9edf1 }\n"
    ".expired { fill: #009e73; background: #009e73 }\n.late { fill: #e69f00; background: #e69f00 }\n"
    ".cancelled { fill: #8c959f; background: #8c959f }\n.ended { fill: #c6cdd4; background: #c6cdd4 }\n"
    ".orphaned { fill: #b5538f; background: #b5538f }\n.armed { fill: #56b4e9; background: #56b4e9 }\n"
    ".leap { stroke: #c98a00; background: #c98a00 }\n.bad { stroke: #c4161c; stroke-width: 2 }\n.pause { fill: #c98a00; fill-opacity: 0.3 }\n"
    ".key i { display: inline-block; width: 12px; height: 12px; margin: 0 4px 0 12px }\n"
    "@media (prefers-color-scheme: dark) {\nbody { color: #e6edf3; background: #12171e }\nsvg text { fill: #e6edf3 }\n"
    ".soft { fill: #a5afb9 }\n.grid { stroke: #2c333b }\n.lane { fill: #1f262f }\n}\n".

drawing(#{now := Now, rows := Rows0, faults := Faults}) ->
    Rows = lists:nthtail(max(0, length(Rows0) - ?MOST_BARS), Rows0),
    Lanes = lanes(Rows),
    Heights = [length(Bars) || {_, Bars} <- Lanes],
    Height = ?TOP + lists:sum([?ROW * Bars + 10 || Bars <- Heights]) + 24,
    From = lists:min([Now | [At || #{at := At} <- Rows]] ++ [At || {At, _} <- Faults]),
    X = fun(At) -> ?LEFT + (?WIDTH - ?LEFT - 30) * max(0, min(1, (At - From) / max(1, Now - From))) end,
    [
        io_lib:format("<svg xmlns=\"http://www.w3.org/2000/svg\" role=\"img\" aria-label=\"timers by process\" width=\"~w\" height=\"~w\" viewBox=\"0 0 ~w ~w\">~n", [?WIDTH, Height, ?WIDTH, Height]),
        axis(X, From, Now, Height),
        laid(Lanes, X, Now, ?TOP),
        [fault(X, At, Fault, Height) || {At, Fault} <- Faults],
        io_lib:format("<line class=\"bad\" x1=\"~.1f\" x2=\"~.1f\" y1=\"40\" y2=\"~w\"><title>the failure, at ~s</title></line>~n", [X(Now) * 1.0, X(Now) * 1.0, Height - 20, seconds(Now)]),
        "</svg>\n"
    ].

%% The timers of each process, in the order in which the first of them was armed.
lanes(Rows) ->
    Names = lists:foldl(fun(#{to := To}, Sum) -> case lists:member(To, Sum) of true -> Sum; false -> Sum ++ [To] end end, [], Rows),
    [{Name, [Row || #{to := To} = Row <- Rows, To =:= Name]} || Name <- Names].

axis(X, From, Now, Height) ->
    Times = [From + (Now - From) * N div 6 || N <- lists:seq(0, 6)],
    [
        io_lib:format(
            "<line class=\"grid\" x1=\"~.1f\" x2=\"~.1f\" y1=\"46\" y2=\"~w\"/><text class=\"soft\" text-anchor=\"middle\" x=\"~.1f\" y=\"~w\">~s</text>~n",
            [X(At) * 1.0, X(At) * 1.0, Height - 20, X(At) * 1.0, Height - 6, seconds(At)]
        )
     || At <- lists:usort(Times)
    ].

laid([], _, _, _) ->
    [];
laid([{Name, Rows} | Lanes], X, Now, Top) ->
    Height = ?ROW * length(Rows),
    [
        io_lib:format("<rect class=\"lane\" x=\"0\" y=\"~w\" width=\"~w\" height=\"~w\" rx=\"3\"/><text x=\"8\" y=\"~w\">", [Top - 2, ?LEFT - 10, Height + 4, Top + 11]),
        escaped(Name), "</text>\n",
        [bar(Row, X, Now, Top + ?ROW * N) || {N, Row} <- lists:zip(lists:seq(0, length(Rows) - 1), Rows)],
        laid(Lanes, X, Now, Top + Height + 10)
    ].

bar(#{at := At, due := Due, who := Who, where := Where, fate := Fate}, X, Now, Y) ->
    Tip = [Who, ", ", Where, ": armed at ", seconds(At), " for ", seconds(Due)],
    case Fate of
        {expired, End} -> [piece("expired", X(At), X(min(End, Due)), Y, Tip), [piece("late", X(Due), X(End), Y, [Tip, ", came at ", seconds(End)]) || End > Due]];
        {Name, End} -> piece(atom_to_list(Name), X(At), X(End), Y, [Tip, ", ", atom_to_list(Name), " at ", seconds(End)]);
        orphaned -> piece("orphaned", X(At), X(Now), Y, [Tip, ", its process ended"]);
        armed -> piece("armed", X(At), X(Now), Y, [Tip, ", armed"])
    end.

piece(Class, From, To, Y, Tip) ->
    [
        io_lib:format("<rect class=\"~s\" x=\"~.1f\" y=\"~w\" width=\"~.1f\" height=\"~w\" rx=\"2\"><title>", [Class, From * 1.0, Y + 2, max(2, To - From) * 1.0, ?ROW - 5]),
        escaped(Tip), "</title></rect>\n"
    ].

fault(X, At, Fault, Height) ->
    Text = ertime_faults:text([{At, Fault}]),
    [
        [
            io_lib:format("<rect class=\"pause\" x=\"~.1f\" y=\"46\" width=\"~.1f\" height=\"~w\"/>", [X(At) * 1.0, max(2, X(At + Long) - X(At)) * 1.0, Height - 66])
         || Long <- long(Fault)
        ],
        io_lib:format("<line class=\"leap\" x1=\"~.1f\" x2=\"~.1f\" y1=\"34\" y2=\"~w\"/><text x=\"~.1f\" y=\"28\"~s>", [X(At) * 1.0, X(At) * 1.0, Height - 20, X(At) * 1.0, anchor(X(At))]),
        escaped(Text), "</text>\n"
    ].

anchor(X) when X > ?WIDTH / 2 -> " text-anchor=\"end\"";
anchor(_) -> "".

long({_, _, Long}) -> [Long];
long({Name, Long}) when Name =:= stall; Name =:= freeze -> [Long];
long(_) -> [].

seconds(Milliseconds) ->
    io_lib:format("~.3f s", [Milliseconds / 1000]).

escaped(Text) ->
    [
        case C of
            $< -> "&lt;";
            $> -> "&gt;";
            $& -> "&amp;";
            $" -> "&quot;";
            _ -> C
        end
     || C <- unicode:characters_to_list(Text)
    ].
