#!/usr/bin/env escript
%% Runs the programs of programs.erl on disk_log and on dlog, and tells where their answers differ.
%% Words: the folder of the compiled modules, the program dlog, and an empty folder. The status is 0 if none differs but as expected.

%% Answers that differ, by program and by their place in its list. README.md says why.
-define(EXPECTED, #{guard => [3]}).

main([Compiled, Program, Folder]) ->
    true = code:add_patha(Compiled),
    true = os:putenv("DLOG_PROGRAM", Program),
    Wrong = [Name || {Name, Run} <- programs:all(), not agree(Name, Run, Folder)],
    dlog:stop(),
    halt(case Wrong of [] -> 0; _ -> 1 end).

agree(Name, Run, Folder) ->
    [Real, Ours] = [answers(Run, Module, filename:join([Folder, Module, Name])) || Module <- [disk_log, dlog]],
    Differ = [{At, One, Other} || {At, One, Other} <- lists:zip3(lists:seq(1, length(Real)), Real, Ours), One =/= Other],
    New = [It || {At, _, _} = It <- Differ, not lists:member(At, maps:get(Name, ?EXPECTED, []))],
    [io:format("erlang: ~s: answer ~b~n  disk_log ~p~n  dlog     ~p~n", [Name, At, One, Other]) || {At, One, Other} <- New],
    io:format("erlang: ~s: ~b answers, ~b differ~n", [Name, length(Real), length(Differ)]),
    New =:= [].

answers(Run, Module, Folder) ->
    File = filename:join(Folder, "log"),
    ok = filelib:ensure_dir(File),
    {_, Monitor} = spawn_monitor(fun() -> exit({did, Run(Module, File)}) end),
    {did, Answers} = receive {'DOWN', Monitor, process, _, Ended} -> Ended end,
    [plain(It, File) || It <- Answers].

%% An answer without the folder that it speaks of.
plain(Text, File) when is_list(Text), Text =/= [] ->
    case lists:prefix(File, Text) of
        true -> {file, lists:nthtail(length(File), Text)};
        false -> [plain(It, File) || It <- Text]
    end;
plain(Tuple, File) when is_tuple(Tuple) -> list_to_tuple([plain(It, File) || It <- tuple_to_list(Tuple)]);
plain(Other, _) -> Other.
