%% A relay agent on the diameter application of Erlang/OTP, in front of servers that have a part of the subscribers each: those whose E.164 numbers
%% are of one range. It sends a request to the server of its subscriber, and a request that names nobody to the server of its session: the one that
%% the session's first request went to. If it has no connection to the server, it answers 3002.
%%
%%     erl -s relay main -extra PORT COUNTS HOST REALM [FIRST SERVER AT]..
%%
%% It listens on PORT. FIRST is the first number of a range, in rising order, all of one length. SERVER is the Origin-Host of its server, which
%% listens on the port AT. A line of COUNTS has three numbers of each server: the requests that were sent to it, its answers, and the answers 3002 in
%% its place.
-module(relay).

-export([main/0]).
-export([peer_up/3, peer_down/3, pick_peer/5, prepare_request/4, prepare_retransmit/4, handle_answer/5, handle_error/5, handle_request/3]).

-include_lib("diameter/include/diameter.hrl").

-define(SERVICE, ?MODULE).
-define(RELAYED, 16#FFFFFFFF).
-define(SECONDS, 30).
-define(MOMENT, 20).

-define(SESSION_ID, 263).
-define(SUBSCRIPTION_ID, 443).
-define(SUBSCRIPTION_ID_DATA, 444).
-define(SUBSCRIPTION_ID_TYPE, 450).

-record(part, {first, server, place}).

main() ->
    spawn(fun() -> run(init:get_plain_arguments()) end).

run([Port, Counts, Host, Realm | Words]) ->
    {Parts, Ports} = lists:unzip(parts(Words, 0)),
    Counters = counters:new(3 * length(Parts), []),
    sessions = ets:new(sessions, [named_table, public, {read_concurrency, true}]),
    ok = persistent_term:put(?MODULE, {lists:reverse(Parts), Counters}),
    ok = diameter:start(),
    true = diameter:subscribe(?SERVICE),
    ok = diameter:start_service(?SERVICE, [
        {'Origin-Host', list_to_binary(Host)}, {'Origin-Realm', list_to_binary(Realm)}, {'Host-IP-Address', [{127, 0, 0, 1}]}, {'Vendor-Id', 0},
        {'Product-Name', "OTP/diameter"}, {'Auth-Application-Id', [?RELAYED]}, {string_decode, false},
        {application, [{alias, relay}, {dictionary, diameter_gen_relay}, {module, ?MODULE}, {answer_errors, callback}]}
    ]),
    Servers = [transport(connect, [{raddr, {127, 0, 0, 1}}, {rport, At}], [{watchdog_timer, 6000}, {connect_timer, 5000}]) || At <- Ports],
    [receive #diameter_event{info = {up, Server, _, _, _}} -> ok after 60000 -> exit(not_connected) end || Server <- Servers],
    %% Gateways ask for watchdogs first.
    transport(listen, [{port, list_to_integer(Port)}], [{watchdog_timer, 30000}]),
    {ok, File} = file:open(Counts, [write, raw]),
    count(File, Counters, 3 * length(Parts), none).

parts([First, Server, At | Words], Place) ->
    [{#part{first = list_to_binary(First), server = list_to_binary(Server), place = Place}, list_to_integer(At)} | parts(Words, Place + 1)];
parts([], _) ->
    [].

transport(Way, Config, Options) ->
    {ok, Transport} = diameter:add_transport(?SERVICE, {Way, [
        {transport_module, diameter_tcp}, {transport_config, [{ip, {127, 0, 0, 1}} | Config]} | Options
    ]}),
    Transport.

%% Writes the counts down as often as they change.
count(File, Counters, Size, Last) ->
    Counts = [counters:get(Counters, Place) || Place <- lists:seq(1, Size)],
    Counts =:= Last orelse (ok = file:write(File, [lists:join(" ", [integer_to_list(Count) || Count <- Counts]), $\n])),
    timer:sleep(?MOMENT),
    count(File, Counters, Size, Counts).

add(Count, #part{place = Place}) ->
    {_, Counters} = persistent_term:get(?MODULE),
    counters:add(Counters, 3 * Place + Count, 1).

%% The part of a request: that of its subscriber; of a request that names nobody, that of its session.
part_of(Avps) ->
    [Session | _] = [Data || #diameter_avp{code = ?SESSION_ID, data = Data} <- Avps],
    case subscriber([avps_of(Data) || #diameter_avp{code = ?SUBSCRIPTION_ID, data = Data} <- Avps]) of
        nobody ->
            proplists:get_value(Session, ets:lookup(sessions, Session));
        Number ->
            {Parts, _} = persistent_term:get(?MODULE),
            Part = hd([Part || #part{first = First} = Part <- Parts, First =< Number] ++ [undefined]),
            ets:insert_new(sessions, {Session, Part}),
            Part
    end.

%% The number of the Subscription-Id by which the server knows the subscriber: the first of type 0.
subscriber(Ids) ->
    Numbers = [Data || Id <- Ids, <<0:32>> <- field(?SUBSCRIPTION_ID_TYPE, Id), Data <- field(?SUBSCRIPTION_ID_DATA, Id)],
    hd(Numbers ++ [nobody]).

%% The AVPs of a group: the codec reads a list behind a header.
avps_of(Data) ->
    diameter_codec:collect_avps(<<0:160, Data/binary>>).

field(Code, Avps) ->
    [Data || #diameter_avp{code = At, data = Data} <- Avps, At =:= Code].

%% What the diameter application asks of this module.
handle_request(#diameter_packet{avps = Avps}, _, _) ->
    case part_of(Avps) of
        undefined -> {answer_message, 3002};
        Part -> {relay, [{timeout, ?SECONDS * 1000}, {extra, [Part]}]}
    end.

pick_peer(Peers, _, _, _, #part{server = Server} = Part) ->
    case [Peer || {_, #diameter_caps{origin_host = {_, Host}}} = Peer <- Peers, iolist_to_binary(Host) =:= Server] of
        [Peer | _] -> {ok, Peer};
        [] -> add(3, Part), false
    end.

prepare_request(Packet, _, _, Part) -> add(1, Part), {send, Packet}.

prepare_retransmit(Packet, _, _, _) -> {send, Packet}.

handle_answer(Packet, _, _, _, Part) -> add(2, Part), Packet.

handle_error(Reason, _, _, _, _) -> {error, Reason}.

peer_up(_, _, State) -> State.

peer_down(_, _, State) -> State.
