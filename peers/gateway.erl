%% A gateway on the diameter application of Erlang/OTP. It asks what the lines of a file say, so many at once as there are lanes, each lane
%% its lines in their order; writes a line for each answer; then stays idle for its peer's and its own watchdogs, and takes its leave. A request
%% whose connection is lost is asked again, as it was.
%%
%%     erl -s gateway main -extra PORT WORK ANSWERS LANES SECONDS HOST PAUSE
%%
%% A lane pauses for so many milliseconds behind each answer. The forms of the lines are said in work.py.
-module(gateway).

-export([main/0]).
-export([peer_up/3, peer_down/3, pick_peer/4, prepare_request/3, prepare_retransmit/3, handle_answer/4, handle_error/4, handle_request/3]).

-include_lib("diameter/include/diameter.hrl").

-define(SERVICE, ?MODULE).
-define(REALM, <<"access.example">>).

main() ->
    [Port, Work, Answers, Lanes, Seconds, Host, Pause] = init:get_plain_arguments(),
    {ok, Read} = file:read_file(Work),
    Lines = lists:enumerate(0, binary:split(Read, <<"\n">>, [global, trim])),
    {ok, File} = file:open(Answers, [write, raw, {delayed_write, 65536, 1000}]),
    Transport = connect(list_to_integer(Port), list_to_binary(Host)),
    Origin = #{'Origin-Host' => list_to_binary(Host), 'Origin-Realm' => ?REALM},
    Collector = self(),
    ok = persistent_term:put(?MODULE, counters:new(1, [])),
    Begun = erlang:monotonic_time(millisecond),
    Ask = fun(Lane) -> lane(Lane, Lines, Origin, list_to_integer(Pause), Collector) end,
    Running = [spawn_monitor(fun() -> Ask(Lane) end) || Lane <- lists:seq(0, list_to_integer(Lanes) - 1)],
    collect(File, length(Running)),
    Took = erlang:monotonic_time(millisecond) - Begun,
    timer:sleep(list_to_integer(Seconds) * 1000),
    ok = diameter:remove_transport(?SERVICE, Transport),
    write(File, [["base", [[" ", integer_to_list(N)] || N <- base_messages(Transport, 100)], " took ", integer_to_list(Took),
                  " again ", integer_to_list(counters:get(persistent_term:get(?MODULE), 1))]]),
    ok = file:close(File),
    halt(0).

%% The connection, once the capabilities are exchanged.
connect(Port, Host) ->
    ok = diameter:start(),
    true = diameter:subscribe(?SERVICE),
    ok = diameter:start_service(?SERVICE, [
        {'Origin-Host', Host}, {'Origin-Realm', ?REALM}, {'Host-IP-Address', [{127, 0, 0, 1}]}, {'Vendor-Id', 0},
        {'Product-Name', "OTP/diameter"}, {'Auth-Application-Id', [4]}, {decode_format, map}, {string_decode, false},
        {application, [{alias, credit}, {dictionary, credit}, {module, ?MODULE}, {answer_errors, callback}]}
    ]),
    {ok, Transport} = diameter:add_transport(?SERVICE, {connect, [
        {transport_module, diameter_tcp},
        {transport_config, [{raddr, {127, 0, 0, 1}}, {rport, Port}, {ip, {127, 0, 0, 1}}]},
        {watchdog_timer, 6000}, {connect_timer, 5000}, {capx_timeout, 60000}
    ]}),
    receive #diameter_event{info = {up, Transport, _, _, _}} -> ok after 60000 -> exit(not_connected) end,
    Transport.

%% How many capabilities exchanges, watchdogs and disconnections were asked, and how many answered, one behind the other. They are counted under
%% the transport as soon as its connection has ended.
base_messages(Transport, Tries) ->
    Counted = lists:append([Counts || {_, Counts} <- diameter_stats:read([Transport])]),
    Codes = [{{0, Code, R}, Way} || Code <- [257, 280, 282], {R, Way} <- [{1, send}, {0, recv}]],
    case [proplists:get_value(Key, Counted, 0) || Key <- Codes] of
        Base when Tries =:= 0 -> Base;
        [_, _, _, _, Leaves, _] = Base when Leaves > 0 -> Base;
        _ -> timer:sleep(100), base_messages(Transport, Tries - 1)
    end.

lane(Lane, Lines, Origin, Pause, Collector) ->
    [begin Collector ! {line, ask(Number, Words, Origin)}, timer:sleep(Pause) end
     || {Number, Line} <- Lines, [At | Words] <- [binary:split(Line, <<" ">>, [global])], binary_to_integer(At) =:= Lane].

collect(_File, 0) ->
    ok;
collect(File, Running) ->
    receive
        {line, Line} -> write(File, [Line]), collect(File, Running);
        {'DOWN', _, process, _, normal} -> collect(File, Running - 1);
        {'DOWN', _, process, _, Reason} -> write(File, [io_lib:format("failed ~0p", [Reason])]), collect(File, Running - 1)
    end.

write(File, Lines) ->
    ok = file:write(File, [[Line, $\n] || Line <- Lines]).

ask(Number, [Sub, Session, Kind, Count, Action, Proxy | Services], Origin) ->
    Base = Origin#{
        'Session-Id' => Session, 'Destination-Realm' => <<"charging.example">>, 'Auth-Application-Id' => 4,
        'Service-Context-Id' => <<"data@example">>, 'CC-Request-Type' => binary_to_integer(Kind),
        'CC-Request-Number' => binary_to_integer(Count),
        'Subscription-Id' => [#{'Subscription-Id-Type' => 0, 'Subscription-Id-Data' => Sub} || Sub =/= <<"-">>],
        'Requested-Action' => [binary_to_integer(Action) || Action =/= <<"-">>],
        'Proxy-Info' => [#{'Proxy-Host' => <<"first.exchange.example">>, 'Proxy-State' => Proxy} || Proxy =/= <<"-">>]
    },
    Request = lists:foldl(fun with_service/2, Base, Services),
    [integer_to_list(Number), " ", told(call(['CCR' | Request], 180))].

%% The answer to a request, once the server or the relay has a connection.
call(Request, Tries) ->
    case diameter:call(?SERVICE, credit, Request, [{timeout, 60000}]) of
        Told when Tries =:= 0; hd(Told) =:= 'CCA' -> Told;
        {not_decoded, _} = Told -> Told;
        ['answer-message' | #{'Result-Code' := Result}] = Told when Result =/= 3002 -> Told;
        _ -> counters:add(persistent_term:get(?MODULE), 1, 1), timer:sleep(500), call(Request, Tries - 1)
    end.

%% A service without a Rating-Group stands at the message's level.
with_service(Word, Request) ->
    [Group, Asked, Used] = binary:split(Word, <<":">>, [global]),
    Units = #{'Requested-Service-Unit' => units(Asked), 'Used-Service-Unit' => units(Used)},
    case Group of
        <<"-">> ->
            maps:merge(Request, Units);
        _ ->
            Service = Units#{'Rating-Group' => [binary_to_integer(Group)]},
            maps:update_with('Multiple-Services-Credit-Control', fun(Before) -> Before ++ [Service] end, [Service], Request)
    end.

units(<<"-">>) -> [];
units(<<"e">>) -> [#{}];
units(<<Unit, Amount/binary>>) -> [#{name(Unit) => [binary_to_integer(Amount)]}].

name($o) -> 'CC-Total-Octets';
name($t) -> 'CC-Time';
name($u) -> 'CC-Service-Specific-Units'.

told(['CCA' | Answer]) ->
    #{'Session-Id' := Session, 'Result-Code' := Result, 'CC-Request-Type' := Kind, 'CC-Request-Number' := Count} = Answer,
    Services = [told_service(Service) || Service <- maps:get('Multiple-Services-Credit-Control', Answer, [])],
    Single = [told_service(maps:without(['Result-Code'], Answer)) || maps:is_key('Granted-Service-Unit', Answer)],
    Proxies = [State || #{'Proxy-State' := State} <- maps:get('Proxy-Info', Answer, [])],
    Words = [Session, integer_to_binary(Kind), integer_to_binary(Count), integer_to_binary(Result), first(Proxies), extra(Answer)],
    lists:join(" ", Words ++ Single ++ Services);
told(Other) ->
    io_lib:format("~0p", [Other]).

told_service(Service) ->
    Final = case Service of
        #{'Final-Unit-Indication' := [#{'Final-Unit-Action' := 0}]} -> <<"f">>;
        _ -> <<"-">>
    end,
    Numbers = [first([integer_to_binary(N) || N <- maps:get(Key, Service, [])]) || Key <- ['Rating-Group', 'Result-Code', 'Validity-Time']],
    [Group, Result, Validity] = Numbers,
    lists:join(":", [Group, Result, granted(maps:get('Granted-Service-Unit', Service, [])), Final, Validity]).

granted([#{'CC-Total-Octets' := [N]}]) -> ["o", integer_to_binary(N)];
granted([#{'CC-Time' := [N]}]) -> ["t", integer_to_binary(N)];
granted([#{'CC-Service-Specific-Units' := [N]}]) -> ["u", integer_to_binary(N)];
granted([]) -> "-".

extra(#{'Check-Balance-Result' := [N]}) -> ["check", integer_to_binary(N)];
extra(#{'Cost-Information' := [#{'Unit-Value' := #{'Value-Digits' := N}}]}) -> ["cost", integer_to_binary(N)];
extra(_) -> "-".

first([Word | _]) -> Word;
first([]) -> "-".

%% What the diameter application asks of this module.
peer_up(_, _, State) -> State.

peer_down(_, _, State) -> State.

pick_peer([Peer | _], _, _, _) -> {ok, Peer};
pick_peer([], _, _, _) -> false.

prepare_request(Packet, _, _) -> {send, Packet}.

prepare_retransmit(Packet, _, _) -> {send, Packet}.

handle_answer(#diameter_packet{msg = Answer, errors = []}, _, _, _) -> Answer;
handle_answer(#diameter_packet{errors = Errors}, _, _, _) -> {not_decoded, Errors}.

handle_error(Reason, _, _, _) -> {no_answer, Reason}.

handle_request(_, _, _) -> {answer_message, 3001}.
