#!/usr/bin/env escript
%% The scenarios of the clients, by the Erlang client. Words: the folder of its modules, the program, and an empty folder.

-mode(compile).

-define(MANY, 100000).
-define(AHEAD, 64).

main([Compiled, Program, Folder]) ->
    true = code:add_patha(Compiled),
    true = os:putenv("DLOG_PROGRAM", Program),
    [begin
         File = filename:join([Folder, Name, "log"]),
         ok = filelib:ensure_dir(File),
         {_, Monitor} = spawn_monitor(fun() -> Run(fun(Log) -> File ++ Log end) end),
         receive {'DOWN', Monitor, process, _, Why} -> normal = Why, dlog:stop(60000) end,
         io:format("erlang: ~s~n", [Name])
     end || {Name, Run} <- scenarios()].

scenarios() ->
    [{"items come back in order", fun in_order/1}, {"a full log refuses and tells", fun full/1}, {"a wrap log rolls", fun rolls/1},
     {"a block keeps the calls of others", fun block/1}, {"a held log has no more than its blocks", fun held/1},
     {"a hundred thousand items pipelined", fun many/1},
     {"what was synced stays after a kill", fun killed/1}, {"what is no request is told", fun no_request/1},
     {"many clients stop in order", fun clients/1}] ++ ends_erlang:all().

in_order(File) ->
    Words = [{name, words}, {file, File("w")}],
    {ok, words} = dlog:open(Words),
    ok = dlog:log_terms(words, [first, "second", <<>>]),
    {Next, [first, "second"]} = dlog:chunk(words, start, 2),
    {Last, [<<>>]} = dlog:chunk(words, Next),
    eof = dlog:chunk(words, Last),
    dlog:stop(),
    {ok, words} = dlog:open(Words),
    {_, [first, "second", <<>>]} = dlog:chunk(words, start).

full(File) ->
    {ok, small} = dlog:open([{name, small}, {file, File("s")}, {size, 40}, {notify, true}]),
    {error, {full, small}} = dlog:log_terms(small, [<<"123">>, <<"12345678">>]),
    [full, {error_status, {error, {full, small}}}] = [told(), told()],
    {error, {new_size_too_small, small, 25}} = dlog:change_size(small, 20),
    ok = dlog:change_size(small, infinity),
    ok = dlog:log(small, <<"9">>),
    {no_written_items, 2} = lists:keyfind(no_written_items, 1, dlog:info(small)).

rolls(File) ->
    {ok, ring} = dlog:open([{name, ring}, {file, File("r")}, {type, wrap}, {size, {60, 2}}, {notify, true}, {head, h}]),
    [ok, ok, ok] = [dlog:log(ring, Item) || Item <- [<<"one-one-">>, <<"two-two-">>, <<"three---">>]],
    [{wrap, _}, {wrap, _}] = [told(), told()],
    {ok, Place} = dlog:chunk_step(ring, start, 1),
    {_, [h | _]} = dlog:chunk(ring, Place),
    {ok, other} = dlog:open([{name, other}, {file, File("o")}, {type, wrap}, {size, {60, 2}}]),
    {error, end_of_log} = dlog:chunk_step(other, start, 1).

block(File) ->
    {ok, shared} = dlog:open([{name, shared}, {file, File("b")}]),
    ok = dlog:block(shared, true),
    Me = self(),
    Other = spawn_link(fun() -> ok = dlog:alog(shared, held), Me ! {self(), dlog:log(shared, late)} end),
    receive {Other, _} -> error(not_kept) after 200 -> ok end,
    {error, {blocked_log, shared}} = dlog:log(shared, mine),
    eof = dlog:chunk(shared, start),
    ok = dlog:unblock(shared),
    receive {Other, ok} -> ok after 5000 -> error(lost) end,
    {_, Items} = dlog:chunk(shared, start),
    [held, late] = lists:sort(Items).

held(File) ->
    Held = [{name, held}, {file, File("h")}],
    {error, {badarg, [{hold, 0}]}} = dlog:open(Held ++ [{hold, 0}]),
    {ok, held} = dlog:open([{hold, 1} | Held]),
    Items = [<<Number, 0:23992>> || Number <- [1, 2, 3]],
    [ok, ok, ok] = [dlog:log(held, Item) || Item <- Items],
    {error, {arg_mismatch, hold, 1, 2}} = dlog:open([{hold, 2} | Held]),
    {ok, held} = dlog:open(Held),
    {_, Items} = dlog:chunk(held, start),
    {hold, 1} = lists:keyfind(hold, 1, dlog:info(held)).

many(File) ->
    {ok, many} = dlog:open([{name, many}, {file, File("m")}]),
    Start = erlang:monotonic_time(microsecond),
    Each = ?MANY div ?AHEAD,
    Writers = [spawn_monitor(fun() -> [ok = dlog:log(many, <<Writer:32, Number:32, 0:688>>) || Number <- lists:seq(1, Each)] end)
               || Writer <- lists:seq(1, ?AHEAD)],
    [receive {'DOWN', Monitor, process, Writer, normal} -> ok end || {Writer, Monitor} <- Writers],
    Took = erlang:monotonic_time(microsecond) - Start,
    io:format("  ~b items of 100 bytes a second~n", [?AHEAD * Each * 1000000 div Took]),
    Items = items(many, dlog:chunk(many, start), []),
    true = lists:sort(Items) =:= [<<Writer:32, Number:32, 0:688>> || Writer <- lists:seq(1, ?AHEAD), Number <- lists:seq(1, Each)].

killed(File) ->
    Kept = [{name, kept}, {file, File("k")}],
    {ok, kept} = dlog:open(Kept),
    ok = dlog:log(kept, synced),
    ok = dlog:sync(kept),
    ok = dlog:log(kept, perhaps),
    [Program] = ends_erlang:programs(),
    "" = os:cmd("kill -KILL " ++ integer_to_list(Program)),
    ends_erlang:until(fun() -> not lists:member(kept, dlog:all()) end),
    {repaired, kept, {recovered, _}, {badbytes, _}} = dlog:open(Kept),
    {_, [synced | _]} = dlog:chunk(kept, start).

no_request(File) ->
    {ok, a} = dlog:open([{name, a}, {file, File("a")}]),
    [{no_request, Place} = dlog_port:call(a, Number, Rest) || {Number, Rest, Place} <- [{200, [], 4}, {2, [], 11}, {13, "x", 11}]],
    ok = dlog:log(a, "still there").

clients(File) ->
    Me = self(),
    Pids = [spawn_link(fun() ->
                           {ok, Number} = dlog:open([{name, Number}, {file, File(integer_to_list(Number))}]),
                           Me ! {self(), dlog:log(Number, Number)},
                           receive stop -> ok end
                       end) || Number <- lists:seq(1, 49)],
    [receive {Pid, ok} -> ok end || Pid <- Pids],
    dlog:stop(),
    [begin
         {ok, Number} = dlog:open([{name, Number}, {file, File(integer_to_list(Number))}]),
         {_, [Number]} = dlog:chunk(Number, start)
     end || Number <- lists:seq(1, 49)].

told() ->
    receive {disk_log, _, _, What} -> What after 5000 -> none end.

items(_, eof, Read) -> lists:append(lists:reverse(Read));
items(Log, {Next, Items}, Read) when is_list(Items) -> items(Log, dlog:chunk(Log, Next), [Items | Read]).
