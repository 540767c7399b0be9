%% A whole broker of RabbitMQ: a message with a time to live goes to the dead letters when that is over and no earlier, and a queue that
%% nobody uses goes when its time is over.
-module(broker_ttl_tests).

-include_lib("eunit/include/eunit.hrl").
-include_lib("amqp_client/include/amqp_client.hrl").

-define(HOUR, 3600000).
-define(COUNT, 100).

ttl_test_() ->
    {timeout, 1800, fun() ->
        ok = rabbit:boot(),
        {ok, Connection} = amqp_connection:start(#amqp_params_direct{}),
        {ok, Channel} = amqp_connection:open_channel(Connection),
        Ttl = ttl(),
        Dead = [{<<"x-dead-letter-exchange">>, longstr, <<>>}, {<<"x-dead-letter-routing-key">>, longstr, <<"dead">>}],
        declared(Channel, <<"waiting">>, Dead),
        declared(Channel, <<"dead">>, []),
        declared(Channel, <<"unused">>, [{<<"x-expires">>, signedint, 2 * Ttl}]),
        Properties = #'P_basic'{expiration = integer_to_binary(Ttl)},
        Message = #amqp_msg{props = Properties, payload = <<"x">>},
        [ok = amqp_channel:call(Channel, #'basic.publish'{routing_key = <<"waiting">>}, Message) || _ <- lists:seq(1, ?COUNT)],
        timer:sleep(Ttl div 2),
        ?assertEqual({?COUNT, 0}, {in(Channel, <<"waiting">>), in(Channel, <<"dead">>)}),
        timer:sleep(Ttl),
        ?assertEqual({0, ?COUNT}, {in(Channel, <<"waiting">>), in(Channel, <<"dead">>)}),
        timer:sleep(2 * Ttl),
        ?assertExit(_, in(Channel, <<"unused">>)),
        catch amqp_connection:close(Connection),
        ok = rabbit:stop()
    end}.

declared(Channel, Name, Arguments) ->
    #'queue.declare_ok'{} = amqp_channel:call(Channel, #'queue.declare'{queue = Name, arguments = Arguments}).

in(Channel, Name) ->
    #'queue.declare_ok'{message_count = Count} = amqp_channel:call(Channel, #'queue.declare'{queue = Name, passive = true}),
    Count.

%% In real time a shorter one.
ttl() ->
    case os:getenv("TTL") of
        false -> ?HOUR;
        Milliseconds -> list_to_integer(Milliseconds)
    end.
