%% Direct debits on the diameter application of Erlang/OTP: a measure for `dcc serve`. A shard is a process with a map of funds, a map of
%% answers, and a log. It takes the requests that wait for it, appends a record of each, flushes the log once, and answers them.
%%
%%     erl -noshell -s otp main -extra FOLDER SHARDS MOST
%%
%% It prints the port that it listens at. MOST is the most requests by one flush; with 0 there is no log.
-module(otp).

-export([main/0]).
-export([peer_up/3, peer_down/3, pick_peer/4, prepare_request/3, prepare_retransmit/3, handle_answer/4, handle_error/4, handle_request/3]).

-include_lib("diameter/include/diameter.hrl").

-define(SERVICE, ?MODULE).
-define(ORIGIN, #{'Origin-Host' => <<"otp.charging.example">>, 'Origin-Realm' => <<"charging.example">>}).
-define(FUNDS, 1000000000000).

main() ->
    [Folder, Shards, Most] = init:get_plain_arguments(),
    Numbers = lists:seq(0, list_to_integer(Shards) - 1),
    ok = persistent_term:put(?MODULE, list_to_tuple([shard(Folder, Number, list_to_integer(Most)) || Number <- Numbers])),
    ok = diameter:start(),
    ok = diameter:start_service(?SERVICE, [
        {'Origin-Host', <<"otp.charging.example">>}, {'Origin-Realm', <<"charging.example">>}, {'Host-IP-Address', [{127, 0, 0, 1}]},
        {'Vendor-Id', 0}, {'Product-Name', "OTP/diameter"}, {'Auth-Application-Id', [4]}, {decode_format, map}, {string_decode, false},
        {application, [{alias, credit}, {dictionary, credit}, {module, ?MODULE}, {answer_errors, callback}]}
    ]),
    {ok, Listening} = diameter:add_transport(?SERVICE, {listen, [
        {transport_module, diameter_tcp}, {transport_config, [{ip, {127, 0, 0, 1}}, {port, 0}]}, {watchdog_timer, 60000}
    ]}),
    io:format("listening 127.0.0.1:~w~n", [port(Listening, 100)]).

port(Listening, Tries) when Tries > 0 ->
    case [Port || {_, Port, _} <- diameter_tcp:ports(Listening)] of
        [Port | _] -> Port;
        [] -> timer:sleep(50), port(Listening, Tries - 1)
    end.

%% One shard: its process.
shard(Folder, Number, Most) ->
    spawn_link(fun() -> charges(log(Folder, Number, Most), max(Most, 1), #{}, #{}) end).

log(_Folder, _Number, 0) ->
    none;
log(Folder, Number, _Most) ->
    {ok, File} = file:open(filename:join(Folder, "shard-" ++ integer_to_list(Number) ++ ".log"), [append, raw, binary]),
    File.

charges(Log, Most, Funds, Answers) ->
    receive {charge, _, _, _, _} = First -> ok end,
    {Records, Replies, FundsThen, AnswersThen} = lists:foldl(fun charge/2, {[], [], Funds, Answers}, [First | waiting(Most - 1)]),
    stored(Log, lists:reverse(Records)),
    [From ! {Key, Granted} || {From, Key, Granted} <- Replies],
    charges(Log, Most, FundsThen, AnswersThen).

waiting(0) ->
    [];
waiting(Most) ->
    receive {charge, _, _, _, _} = Next -> [Next | waiting(Most - 1)] after 0 -> [] end.

%% A block of 1,000 octets costs 2. A repeat has its first answer.
charge({charge, From, Sub, Key, Asked}, {Records, Replies, Funds, Answers}) ->
    case Answers of
        #{Key := Granted} ->
            {Records, [{From, Key, Granted} | Replies], Funds, Answers};
        #{} ->
            Price = (Asked + 999) div 1000 * 2,
            Before = maps:get(Sub, Funds, ?FUNDS),
            Granted = if Price =< Before -> Asked; true -> 0 end,
            Record = term_to_binary({Sub, Key, Asked, Granted, Price, erlang:system_time(second)}),
            {[<<(byte_size(Record)):32, (erlang:crc32(Record)):32, Record/binary>> | Records], [{From, Key, Granted} | Replies],
             Funds#{Sub => Before - Price}, Answers#{Key => Granted}}
    end.

stored(none, _) ->
    ok;
stored(_, []) ->
    ok;
stored(Log, Records) ->
    ok = file:write(Log, Records),
    ok = file:datasync(Log).

%% The callbacks of the diameter application.
handle_request(#diameter_packet{msg = ['CCR' | Request], errors = []}, _, _) ->
    #{'Session-Id' := Session, 'CC-Request-Type' := Kind, 'CC-Request-Number' := Number,
      'Subscription-Id' := [#{'Subscription-Id-Data' := Sub} | _], 'Requested-Service-Unit' := [#{'CC-Total-Octets' := [Asked]}]} = Request,
    Shards = persistent_term:get(?MODULE),
    Key = {Session, Number},
    element(1 + erlang:phash2(Sub, tuple_size(Shards)), Shards) ! {charge, self(), Sub, Key, Asked},
    receive
        {Key, Granted} ->
            Answer = ?ORIGIN#{'Session-Id' => Session, 'Result-Code' => if Granted > 0 -> 2001; true -> 4012 end, 'Auth-Application-Id' => 4,
                              'CC-Request-Type' => Kind, 'CC-Request-Number' => Number, 'Granted-Service-Unit' => [#{'CC-Total-Octets' => [Granted]}]},
            {reply, ['CCA' | Answer]}
    end;
handle_request(_, _, _) ->
    {answer_message, 5012}.

peer_up(_, _, State) -> State.

peer_down(_, _, State) -> State.

pick_peer([Peer | _], _, _, _) -> {ok, Peer};
pick_peer([], _, _, _) -> false.

prepare_request(Packet, _, _) -> {send, Packet}.

prepare_retransmit(Packet, _, _) -> {send, Packet}.

handle_answer(#diameter_packet{msg = Answer}, _, _, _) -> Answer.

handle_error(Reason, _, _, _) -> {no_answer, Reason}.
