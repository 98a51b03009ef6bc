%% The call records of a telephone switch: lines of the switch write a wrap log, which a biller reads round and round. It was written
%% for disk_log, and LOG is all that was changed: erlc -DLOG=disk_log makes the program that it was, which prints the same.
%%
%%     erl -noshell -run call_records main FOLDER -s init stop
-module(call_records).

-export([main/1]).

-ifndef(LOG).
-define(LOG, dlog).
-endif.

-define(SIZE, {1000, 4}).
-define(PATIENCE, 10000).

main([Folder]) ->
    {ok, records} = open(Folder),
    Morning = told("in the morning", in_turn(bill(records, start), fun() -> lines(3, 20) end)),
    Evening = told("in the evening", in_turn(Morning, fun() -> busy_hour(100) end)),
    _ = told("after a night with too many calls", in_turn(Evening, fun() -> busy_hour(500) end)),
    inspect(records),
    repair_shop(records),
    print("~p~n", [picked([type, size, status, current_file, no_items], ?LOG:info(records))]),
    ok = ?LOG:close(records),
    {error, no_such_log} = ?LOG:blog(records, record(1, late)),
    {ok, records} = open(Folder),
    {_, Kept} = bill(records, start),
    print("~b are there after a close and an open, the last is ~p~n", [length(Kept), lists:last(Kept)]),
    ok = ?LOG:close(records).

open(Folder) ->
    ?LOG:open([{name, records}, {file, filename:join(Folder, "records")}, {type, wrap}, {size, ?SIZE}, {notify, true}]).

record(Line, Call) ->
    term_to_binary({call, Line, Call}).

%% The lines of the switch, each a process that waits for each of its calls to be logged.
lines(Lines, Calls) ->
    Write = fun(Line) -> [ok = ?LOG:blog(records, record(Line, Call)) || Call <- lists:seq(1, Calls)] end,
    Monitors = [element(2, spawn_monitor(fun() -> Write(Line) end)) || Line <- lists:seq(1, Lines)],
    [receive {'DOWN', Monitor, process, _, normal} -> ok after ?PATIENCE -> error(waits) end || Monitor <- Monitors].

%% One line, which does not wait.
busy_hour(Calls) ->
    [ok = ?LOG:balog(records, record(9, Call)) || Call <- lists:seq(1, Calls)],
    ok = ?LOG:sync(records).

%% What the biller reads after some work, from where it was. If records gave way meanwhile, of which the owner is told, it begins with
%% the oldest that is there.
in_turn({Place, _}, Work) ->
    Work(),
    Lost = wraps(),
    print("the log went on to its next file ~b times, and ~b records gave way~n", [length(Lost), lists:sum(Lost)]),
    bill(records, case lists:sum(Lost) of 0 -> Place; _ -> start end).

wraps() ->
    receive {disk_log, _, records, {wrap, Lost}} -> [Lost | wraps()] after 0 -> [] end.

%% Reads from a place to the end: the place after it, and the records.
bill(Log, Place) -> bill(Log, Place, []).

bill(Log, Place, Read) ->
    case ?LOG:chunk(Log, Place) of
        eof -> {Place, lists:append(lists:reverse(Read))};
        {Next, Records} when is_list(Records) -> bill(Log, Next, [Records | Read])
    end.

told(When, {_, Records} = Bills) ->
    By = [{Line, length([Call || {call, Its, Call} <- Records, Its =:= Line])} || Line <- lists:usort([Line || {call, Line, _} <- Records])],
    print("~s it bills, by line: ~w~n", [When, By]),
    Bills.

%% An inspector blocks the log: nothing changes while it counts, and who logs meanwhile waits for it.
inspect(Log) ->
    ok = ?LOG:block(Log, true),
    {_, Before} = bill(Log, start),
    {Line, Monitor} = spawn_monitor(fun() -> ok = ?LOG:blog(Log, record(4, waits)) end),
    receive {'DOWN', Monitor, process, Line, _} -> error(not_kept) after 200 -> ok end,
    {_, After} = bill(Log, start),
    print("while it is inspected it stays as it is: ~p~n", [Before =:= After]),
    ok = ?LOG:unblock(Log),
    receive {'DOWN', Monitor, process, Line, How} -> print("the line that waited has ended: ~p~n", [How]) after ?PATIENCE -> error(waits) end,
    {_, Then} = bill(Log, start),
    print("its record is the last: ~p~n", [lists:last(Then)]).

%% Others are refused while it is worked on. What they send without waiting comes back to the owner.
repair_shop(Log) ->
    ok = ?LOG:block(Log, false),
    Me = self(),
    spawn_link(fun() -> Me ! {said, ?LOG:blog(Log, record(5, refused)), ?LOG:balog(Log, record(5, sent))} end),
    receive {said, Waited, Sent} -> print("others are answered ~p, and ~p~n", [Waited, Sent]) after ?PATIENCE -> error(waits) end,
    receive {disk_log, _, Log, {blocked_log, [Back]}} -> print("~p came back~n", [binary_to_term(Back)]) after ?PATIENCE -> error(not_told) end,
    ok = ?LOG:unblock(Log).

picked(Keys, Info) ->
    [{Key, proplists:get_value(Key, Info)} || Key <- Keys].

print(Form, Values) ->
    io:format(Form, Values).
