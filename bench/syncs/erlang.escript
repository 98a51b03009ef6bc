#!/usr/bin/env escript
%% Erlang's disk_log, and `dlog serve` from Erlang: each of so many processes has an item logged and its log synced, again and again.
%% Words: disk_log and an empty folder, or the folder of the client's modules, the program and an empty folder; then how many processes,
%% and how many items each logs.
-mode(compile).

main(["disk_log", Folder, Writers, Each]) ->
    run(disk_log, "disk_log", Folder, list_to_integer(Writers), list_to_integer(Each));
main([Compiled, Program, Folder, Writers, Each]) ->
    true = code:add_patha(Compiled),
    true = os:putenv("DLOG_PROGRAM", Program),
    run(dlog, "dlog_serve_erlang", Folder, list_to_integer(Writers), list_to_integer(Each)),
    ok = dlog:stop().

run(Module, Name, Folder, Writers, Each) ->
    {ok, synced} = Module:open([{name, synced}, {file, filename:join(Folder, "synced")}]),
    Item = binary:copy(<<"x">>, 100),
    Start = erlang:monotonic_time(microsecond),
    Pids = [spawn_monitor(fun() -> write(Module, Item, Each) end) || _ <- lists:seq(1, Writers)],
    [receive {'DOWN', Monitor, process, Pid, normal} -> ok end || {Pid, Monitor} <- Pids],
    Took = erlang:monotonic_time(microsecond) - Start,
    ok = Module:close(synced),
    io:format("~s_~b: ~b items/s~n", [Name, Writers, Writers * Each * 1000000 div Took]).

write(_, _, 0) ->
    ok;
write(Module, Item, Left) ->
    ok = Module:blog(synced, Item),
    ok = Module:sync(synced),
    write(Module, Item, Left - 1).
