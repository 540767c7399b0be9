%% @doc Turns calls about time into calls of {@link ertime}, so that code under test sees the clock of a test.
%%
%% As a compile option, `{parse_transform, ertime_transform}', it does so for a module that is compiled; by
%% {@link ertime:transform/1} for modules that are loaded and were compiled with debug information, of Erlang and of Elixir.
%%
%% It turns the calls of `erlang', `os', `timer', `calendar' and of Elixir's `System' and `Process' for which {@link ertime} has
%% a function, also where they are imported; the same as `fun M:F/A'; `apply/3' and calls whose module or function is a
%% variable; and `receive .. after', where a timer takes the place of the timeout.
-module(ertime_transform).

-export([parse_transform/2]).
%% For the package itself.
-export([marked/1, unmarked/1]).

-define(AFTER, '$ertime_after').
-define(COUNT, '$ertime_transform').

-record(names, {
    own = #{},       % {Name, Arity} of the module's functions
    imported = #{},  % {Name, Arity} => the module that it is imported from
    receives = true  % whether `receive .. after' is turned
}).

%% @doc The transform, as the compiler calls it. With the option `ertime_calls_only' each `receive .. after' stays as it is.
-spec parse_transform([erl_parse:abstract_form()], list()) -> [erl_parse:abstract_form()].
parse_transform(Forms, Options) ->
    Names = #names{
        receives = not lists:member(ertime_calls_only, Options),
        own = maps:from_list([{{Name, Arity}, []} || {function, _, Name, Arity, _} <- Forms]),
        imported = maps:from_list([{FA, M} || {attribute, _, import, {M, FAs}} <- Forms, FA <- FAs])
    },
    erase(?COUNT),
    New = marked([form(Form, Names) || Form <- Forms]),
    erase(?COUNT),
    New.

%% With an attribute, by which a module that is turned is known.
%% @private
marked(Forms) ->
    lists:append([[Form | mark(Form)] || Form <- Forms]).

mark({attribute, Anno, module, _}) -> [{attribute, Anno, ertime_transform, true}];
mark(_) -> [].

%% @private
unmarked(Forms) ->
    [Form || Form <- Forms, not is_mark(Form)].

is_mark({attribute, _, ertime_transform, true}) -> true;
is_mark(_) -> false.

form({function, Anno, Name, Arity, Clauses}, Names) ->
    {New, _} = clauses(Clauses, #{}, Names),
    {function, Anno, Name, Arity, New};
form({attribute, Anno, record, {Name, Fields}}, Names) ->
    {attribute, Anno, record, {Name, [field(Field, Names) || Field <- Fields]}};
form(Form, _) ->
    Form.

%% The default of a record's field.
field({record_field, Anno, Name, Default}, Names) ->
    {record_field, Anno, Name, element(1, expression(Default, #{}, Names))};
field({typed_record_field, Field, Type}, Names) ->
    {typed_record_field, field(Field, Names), Type};
field(Field, _) ->
    Field.

%% --- expressions --------------------------------------------------------------------------------------------------

%% Each answers what it turned, and the variables that are bound after it. Variables matter to `receive .. after' alone.
expressions(Expressions, Bound, Names) ->
    lists:mapfoldl(fun(Expression, Before) -> expression(Expression, Before, Names) end, Bound, Expressions).

expression({var, _, _} = Variable, Bound, _) ->
    {Variable, Bound};
expression({match, Anno, Pattern, Value}, Bound0, Names) ->
    {New, Bound} = expression(Value, Bound0, Names),
    {{match, Anno, Pattern, New}, variables(Pattern, Bound)};
expression({maybe_match, Anno, Pattern, Value}, Bound0, Names) ->
    {New, Bound} = expression(Value, Bound0, Names),
    {{maybe_match, Anno, Pattern, New}, variables(Pattern, Bound)};
expression({'case', Anno, Value, Clauses}, Bound0, Names) ->
    {NewValue, Bound1} = expression(Value, Bound0, Names),
    {New, Bound} = clauses(Clauses, Bound1, Names),
    {{'case', Anno, NewValue, New}, Bound};
expression({'if', Anno, Clauses}, Bound0, Names) ->
    {New, Bound} = clauses(Clauses, Bound0, Names),
    {{'if', Anno, New}, Bound};
expression({block, Anno, Body}, Bound0, Names) ->
    {New, Bound} = expressions(Body, Bound0, Names),
    {{block, Anno, New}, Bound};
expression({op, Anno, Op, Left, Right}, Bound0, Names) ->
    {NewLeft, Bound1} = expression(Left, Bound0, Names),
    {NewRight, Bound} = expression(Right, Bound1, Names),
    {{op, Anno, Op, NewLeft, NewRight}, Bound};
expression({'receive', Anno, Clauses}, Bound0, Names) ->
    {New, Bound} = clauses(Clauses, Bound0, Names),
    {{'receive', Anno, New}, Bound};
expression({'receive', Anno, Clauses, Time, Body}, Bound, Names) ->
    receive_after(Anno, Clauses, Time, Body, Bound, Names);
%% What is bound in these isn't seen behind them.
expression({'try', Anno, Body, Clauses, Catches, After}, Bound, Names) ->
    {NewBody, InBody} = expressions(Body, Bound, Names),
    {NewClauses, _} = clauses(Clauses, InBody, Names),
    {NewCatches, _} = clauses(Catches, Bound, Names),
    {NewAfter, _} = expressions(After, Bound, Names),
    {{'try', Anno, NewBody, NewClauses, NewCatches, NewAfter}, Bound};
expression({'catch', Anno, Body}, Bound, Names) ->
    {New, _} = expression(Body, Bound, Names),
    {{'catch', Anno, New}, Bound};
expression({'maybe', Anno, Body}, Bound, Names) ->
    {New, _} = expressions(Body, Bound, Names),
    {{'maybe', Anno, New}, Bound};
expression({'maybe', Anno, Body, {'else', At, Clauses}}, Bound, Names) ->
    {New, _} = expressions(Body, Bound, Names),
    {NewClauses, _} = clauses(Clauses, Bound, Names),
    {{'maybe', Anno, New, {'else', At, NewClauses}}, Bound};
expression({'fun', Anno, {clauses, Clauses}}, Bound, Names) ->
    {New, _} = clauses(Clauses, Bound, Names),
    {{'fun', Anno, {clauses, New}}, Bound};
expression({named_fun, Anno, Name, Clauses}, Bound, Names) ->
    {New, _} = clauses(Clauses, Bound#{Name => []}, Names),
    {{named_fun, Anno, Name, New}, Bound};
expression({Comprehension, Anno, Template, Qualifiers}, Bound, Names) when Comprehension =:= lc; Comprehension =:= bc; Comprehension =:= mc ->
    {NewQualifiers, Inside} = lists:mapfoldl(fun(It, Before) -> qualifier(It, Before, Names) end, Bound, Qualifiers),
    {New, _} = expression(Template, Inside, Names),
    {{Comprehension, Anno, New, NewQualifiers}, Bound};
expression({'fun', Anno, {function, M, F, Arity}}, Bound, Names) ->
    {external_fun(Anno, M, F, Arity, Names), Bound};
expression({'fun', Anno, {function, F, Arity}}, Bound, Names) ->
    {local_fun(Anno, F, Arity, Names), Bound};
expression({call, Anno, {remote, At, M, F}, Arguments}, Bound0, Names) ->
    {[NewM, NewF | New], Bound} = side_by_side([M, F | Arguments], Bound0, Names),
    {remote_call(Anno, At, NewM, NewF, New), Bound};
expression({call, Anno, {atom, At, F}, Arguments}, Bound0, Names) ->
    {New, Bound} = side_by_side(Arguments, Bound0, Names),
    {local_call(Anno, At, F, New, Names), Bound};
%% All others: their parts are evaluated side by side.
expression(Tuple, Bound0, Names) when is_tuple(Tuple) ->
    {New, Bound} = side_by_side(tuple_to_list(Tuple), Bound0, Names),
    {list_to_tuple(New), Bound};
expression([_ | _] = List, Bound, Names) ->
    side_by_side(List, Bound, Names);
expression(Other, Bound, _) ->
    {Other, Bound}.

side_by_side([Head | Tail], Bound0, Names) ->
    {NewHead, Bound1} = expression(Head, Bound0, Names),
    {NewTail, Bound} = side_by_side(Tail, Bound0, Names),
    {[NewHead | NewTail], maps:merge(Bound1, Bound)};
side_by_side([], Bound, _) ->
    {[], Bound};
side_by_side(Tail, Bound, Names) ->
    expression(Tail, Bound, Names).

clauses(Clauses, Bound, Names) ->
    lists:mapfoldl(
        fun({clause, Anno, Patterns, Guards, Body}, Sum) ->
            {New, After} = expressions(Body, variables(Patterns, Bound), Names),
            {{clause, Anno, Patterns, Guards, New}, maps:merge(Sum, After)}
        end,
        Bound,
        Clauses
    ).

qualifier({zip, Anno, Generators}, Bound0, Names) ->
    {New, Bound} = lists:mapfoldl(fun(It, Before) -> qualifier(It, Before, Names) end, Bound0, Generators),
    {{zip, Anno, New}, Bound};
qualifier({Generator, Anno, Pattern, Source}, Bound, Names) when
    Generator =:= generate; Generator =:= b_generate; Generator =:= m_generate; Generator =:= generate_strict;
    Generator =:= b_generate_strict; Generator =:= m_generate_strict
->
    {New, _} = expression(Source, Bound, Names),
    {{Generator, Anno, Pattern, New}, variables(Pattern, Bound)};
qualifier(Filter, Bound, Names) ->
    expression(Filter, Bound, Names).

%% The variables of a pattern, added to these.
variables({var, _, '_'}, Bound) -> Bound;
variables({var, _, Name}, Bound) -> Bound#{Name => []};
variables(Tuple, Bound) when is_tuple(Tuple) -> variables(tuple_to_list(Tuple), Bound);
variables([Head | Tail], Bound) -> variables(Tail, variables(Head, Bound));
variables(_, Bound) -> Bound.

%% --- calls --------------------------------------------------------------------------------------------------------

%% A call of a monitor of something else than the time offset stays: the compiler knows that its reference is new, and lets
%% a receive begin behind what was in the mailbox before.
remote_call(Anno, At, {atom, _, erlang} = M, {atom, _, monitor} = F, [{atom, _, Type} | _] = Arguments) when Type =/= time_offset ->
    {call, Anno, {remote, At, M, F}, Arguments};
remote_call(Anno, At, {atom, _, erlang} = M, {atom, _, process_info} = F, [_, {atom, _, Item}] = Arguments) when Item =/= monitored_by ->
    {call, Anno, {remote, At, M, F}, Arguments};
remote_call(Anno, At, {atom, _, erlang}, {atom, _, apply}, [M, F, Arguments] = All) ->
    case ertime_calls:may_be(literal(M), literal(F), arity(Arguments)) of
        true -> own_call(Anno, ertime_calls, call, All);
        false -> {call, Anno, {remote, At, {atom, At, erlang}, {atom, At, apply}}, All}
    end;
remote_call(Anno, At, {atom, AtM, M}, {atom, AtF, F}, Arguments) ->
    {NewM, NewF} = ertime_calls:target(M, F, length(Arguments)),
    {call, Anno, {remote, At, {atom, AtM, NewM}, {atom, AtF, NewF}}, Arguments};
remote_call(Anno, At, M, F, Arguments) ->
    case ertime_calls:may_be(literal(M), literal(F), length(Arguments)) of
        true -> own_call(Anno, ertime_calls, call, [M, F, list(Anno, Arguments)]);
        false -> {call, Anno, {remote, At, M, F}, Arguments}
    end.

literal({atom, _, Name}) -> Name;
literal({var, _, _}) -> any;
literal({call, _, _, _}) -> any;
literal(_) -> any.

%% The length of a list that stands in the code.
arity({nil, _}) -> 0;
arity({cons, _, _, Tail}) ->
    case arity(Tail) of
        any -> any;
        Length -> Length + 1
    end;
arity(_) -> any.

list(Anno, Elements) ->
    lists:foldr(fun(Element, Tail) -> {cons, Anno, Element, Tail} end, {nil, Anno}, Elements).

local_call(Anno, At, F, Arguments, Names) ->
    case module_of(F, length(Arguments), Names) of
        none -> {call, Anno, {atom, At, F}, Arguments};
        M ->
            case remote_call(Anno, At, {atom, At, M}, {atom, At, F}, Arguments) of
                {call, _, {remote, _, {atom, _, M}, {atom, _, F}}, _} -> {call, Anno, {atom, At, F}, Arguments};
                Turned -> Turned
            end
    end.

%% Where a function comes from that is called by its name alone.
module_of(F, Arity, #names{own = Own, imported = Imported}) ->
    case {Own, Imported} of
        {#{{F, Arity} := _}, _} -> none;
        {_, #{{F, Arity} := M}} -> M;
        _ ->
            case ertime_calls:auto_imported(F, Arity) of
                true -> erlang;
                false -> none
            end
    end.

external_fun(Anno, {atom, AtM, M}, {atom, AtF, F}, {integer, _, Arity} = A, _) ->
    {NewM, NewF} = ertime_calls:target(M, F, Arity),
    {'fun', Anno, {function, {atom, AtM, NewM}, {atom, AtF, NewF}, A}};
external_fun(Anno, M, F, Arity, Names) ->
    Known = case Arity of {integer, _, Number} -> Number; _ -> any end,
    {Parts, _} = side_by_side([M, F, Arity], #{}, Names),
    case ertime_calls:may_be(literal(M), literal(F), Known) of
        true -> own_call(Anno, ertime_calls, external_fun, Parts);
        false -> {'fun', Anno, {function, M, F, Arity}}
    end.

local_fun(Anno, F, Arity, Names) ->
    Stays = {'fun', Anno, {function, F, Arity}},
    case module_of(F, Arity, Names) of
        none -> Stays;
        M ->
            case ertime_calls:target(M, F, Arity) of
                {M, F} -> Stays;
                {NewM, NewF} -> {'fun', Anno, {function, {atom, Anno, NewM}, {atom, Anno, NewF}, {integer, Anno, Arity}}}
            end
    end.

own_call(Anno, Module, Name, Arguments) ->
    {call, Anno, {remote, Anno, {atom, Anno, Module}, {atom, Anno, Name}}, Arguments}.

%% --- receive .. after ---------------------------------------------------------------------------------------------

%%     case
%%         case ertime:receive_start(Time) of
%%             {none, Left} -> receive Pattern -> {1, Variables}; .. after Left -> 0 end;
%%             {Timer, infinity} -> receive {timeout, Timer, '$ertime_after'} -> 0; Pattern -> ertime:receive_stop(Timer), {1, Variables}; .. end
%%         end
%%     of
%%         0 -> Body;
%%         {1, Variables} -> ..
%%     end
%%
%% Without a clock the receive is as it was, and the compiler can see that all its clauses match a reference that was just made.
%% The bodies stand there once, so receives in receives grow no faster than their patterns. The variables that a pattern binds
%% have other names inside, where not all clauses bind them; those that were bound before keep theirs.
receive_after(Anno, Clauses, {integer, _, 0} = Time, Body, Bound, Names) ->
    untimed(Anno, Clauses, Time, Body, Bound, Names);
receive_after(Anno, Clauses, Time, Body, Bound, Names = #names{receives = false}) ->
    untimed(Anno, Clauses, Time, Body, Bound, Names);
receive_after(Anno, Clauses, {atom, _, infinity} = Time, Body, Bound, Names) ->
    untimed(Anno, Clauses, Time, Body, Bound, Names);
receive_after(Anno, [], Time, Body, Bound0, Names) ->
    {NewTime, Bound1} = expression(Time, Bound0, Names),
    {NewBody, Bound} = expressions(Body, Bound1, Names),
    {{block, Anno, [own_call(Anno, ertime, sleep, [NewTime]) | NewBody]}, Bound};
receive_after(Anno0, Clauses, Time, Body, Bound0, Names) ->
    Anno = erl_anno:set_generated(true, Anno0),
    {NewTime, Bound1} = expression(Time, Bound0, Names),
    {NewBody, InBody} = expressions(Body, Bound1, Names),
    {Timer, Left} = {fresh(Anno, "Timer"), fresh(Anno, "Left")},
    Numbered = lists:zip(lists:seq(1, length(Clauses)), Clauses),
    Expired = {clause, Anno, [{tuple, Anno, [{atom, Anno, timeout}, Timer, {atom, Anno, ?AFTER}]}], [], [{integer, Anno, 0}]},
    Real = [chosen(Anno, Clause, Bound1, []) || Clause <- Numbered],
    Stopping = [chosen(Anno, Clause, Bound1, [own_call(Anno, ertime, receive_stop, [Timer])]) || Clause <- Numbered],
    Choice = {'case', Anno, own_call(Anno, ertime, receive_start, [NewTime]), [
        {clause, Anno, [{tuple, Anno, [{atom, Anno, none}, Left]}], [], [{'receive', Anno0, Real, Left, [{integer, Anno, 0}]}]},
        {clause, Anno, [{tuple, Anno, [Timer, {atom, Anno, infinity}]}], [], [{'receive', Anno, [Expired | Stopping]}]}
    ]},
    {Bodies, Bound} = lists:mapfoldl(
        fun({_, {clause, At, Patterns, _, Then}} = Clause, Sum) ->
            {New, After} = expressions(Then, variables(Patterns, Bound1), Names),
            {{clause, At, [tag(Anno, Clause, Bound1)], [], used(Anno, Clause, Bound1) ++ New}, maps:merge(Sum, After)}
        end,
        InBody,
        Numbered
    ),
    {{'case', Anno, Choice, [{clause, Anno, [{integer, Anno, 0}], [], NewBody} | Bodies]}, Bound}.

untimed(Anno, Clauses, Time, Body, Bound0, Names) ->
    {New, Bound1} = clauses(Clauses, Bound0, Names),
    {NewBody, Bound2} = expressions(Body, Bound0, Names),
    {{'receive', Anno, New, Time, NewBody}, maps:merge(Bound1, Bound2)}.

%% A clause of the receive inside: it tells its number, and what its pattern has bound.
chosen(Anno, {_, {clause, At, Patterns, Guards, _}} = Clause, Bound, Before) ->
    Renamed = maps:map(fun(Name, _) -> element(3, fresh(Anno, atom_to_list(Name))) end, maps:from_list(new_variables(Clause, Bound))),
    Tag = tag(Anno, Clause, Bound),
    {clause, erl_anno:set_generated(true, At), generated(rename(Patterns, Renamed)), generated(rename(Guards, Renamed)), Before ++ [rename(Tag, Renamed)]}.

tag(Anno, {Number, _} = Clause, Bound) ->
    case new_variables(Clause, Bound) of
        [] -> {integer, Anno, Number};
        New -> {tuple, Anno, [{integer, Anno, Number} | [{var, At, Name} || {Name, At} <- New]]}
    end.

%% A variable that stands twice in a pattern, or in its guard too, is used, though the body has none of it.
used(Anno, {_, {clause, _, Patterns, Guards, _}} = Clause, Bound) ->
    [{match, Anno, {var, Anno, '_'}, {var, Anno, Name}} || {Name, _} <- new_variables(Clause, Bound), count(Name, [Patterns, Guards]) > 1].

count(Name, {var, _, Name}) -> 1;
count(Name, Tuple) when is_tuple(Tuple) -> count(Name, tuple_to_list(Tuple));
count(Name, [Head | Tail]) -> count(Name, Head) + count(Name, Tail);
count(_, _) -> 0.

%% The variables that the pattern of a clause binds, each with the place where it stands first.
new_variables({_, {clause, _, Patterns, _, _}}, Bound) ->
    lists:sort(maps:to_list(maps:without(maps:keys(Bound), places(Patterns, #{})))).

places({var, _, '_'}, Found) -> Found;
places({var, At, Name}, Found) when not is_map_key(Name, Found) -> Found#{Name => At};
places(Tuple, Found) when is_tuple(Tuple) -> places(tuple_to_list(Tuple), Found);
places([Head | Tail], Found) -> places(Tail, places(Head, Found));
places(_, Found) -> Found.

rename({var, Anno, Name}, Renamed) -> {var, Anno, maps:get(Name, Renamed, Name)};
rename(Tuple, Renamed) when is_tuple(Tuple) -> list_to_tuple(rename(tuple_to_list(Tuple), Renamed));
rename([Head | Tail], Renamed) -> [rename(Head, Renamed) | rename(Tail, Renamed)];
rename(Other, _) -> Other.

%% The compiler tells no warnings of what the user didn't write.
generated([Head | Tail]) -> [generated(Head) | generated(Tail)];
generated([]) -> [];
generated(Form) -> erl_parse:map_anno(fun(Anno) -> erl_anno:set_generated(true, Anno) end, Form).

fresh(Anno, Name) ->
    Count =
        case get(?COUNT) of
            undefined -> 0;
            Before -> Before
        end,
    put(?COUNT, Count + 1),
    {var, Anno, list_to_atom("Ertime@" ++ Name ++ "@" ++ integer_to_list(Count))}.
