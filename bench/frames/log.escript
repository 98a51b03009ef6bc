#!/usr/bin/env escript
%% How many items of 100 bytes a second the Erlang client logs, by one process and by 64.
%% Words: the folder of its modules, the program, an empty folder, and a number of items. Prints `name: items a second`.
-mode(compile).

main([Compiled, Program, Folder, Count]) ->
    true = code:add_patha(Compiled),
    true = os:putenv("DLOG_PROGRAM", Program),
    Items = list_to_integer(Count),
    run(Folder, one, "erlang_one_at_a_time", 1, Items div 20),
    run(Folder, ahead, "erlang_64_under_way", 64, Items div 64),
    dlog:stop().

run(Folder, Log, Name, Writers, Each) ->
    Item = binary:copy(<<"z">>, 100),
    {ok, Log} = dlog:open([{name, Log}, {file, filename:join(Folder, Log)}]),
    Start = erlang:monotonic_time(microsecond),
    Pids = [spawn_monitor(fun() -> [ok = dlog:blog(Log, Item) || _ <- lists:seq(1, Each)] end) || _ <- lists:seq(1, Writers)],
    [receive {'DOWN', Monitor, process, Pid, normal} -> ok end || {Pid, Monitor} <- Pids],
    ok = dlog:close(Log),
    Took = erlang:monotonic_time(microsecond) - Start,
    io:format("~s: ~b~n", [Name, Writers * Each * 1000000 div Took]).
