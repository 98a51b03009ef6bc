%% Scenarios of how a server starts and ends, by the Erlang client, and of processes that share one. Each is given the path before the
%% files of its logs, in a folder that is there.
-module(ends_erlang).

-export([all/0, programs/0, until/1, be_ended/1]).

-define(MANY, 1000).
-define(PATIENCE, 60000).
-define(SHORT, 200).
-define(LIMIT, 500).

all() ->
    [{"a signal to the group spares the server", fun group/1}, {"a killed server is reported to each caller", fun killed/1},
     {"a server reports why it does not start", fun why/1}, {"a client refuses what no server reads", fun refused/1},
     {"two servers of one program end alone", fun alone/1}, {"a child keeps no server open", fun child/1},
     {"threads share a server", fun shared/1}, {"a call ends at its time limit", fun limit/1},
     {"a place outlives its server", fun place/1}, {"a server that has ended starts again", fun again/1},
     {"a server waits for its folder", fun waits/1},
     {"a server of another version is refused", fun version/1}, {"many logs are synced by one call", fun at_once/1},
     {"a full device is an error until it has room", fun full/1}, {"a loss at the stop is an error", fun loss/1}].

%% The processes of the servers.
programs() ->
    [Id || Port <- erlang:ports(), {connected, Pid} <- [erlang:port_info(Port, connected)],
           {dictionary, Known} <- [erlang:process_info(Pid, dictionary)],
           {'$initial_call', {dlog_server, init, 1}} <- Known, {os_pid, Id} <- [erlang:port_info(Port, os_pid)]].

until(Fact) -> until(Fact, ?PATIENCE div 10).

until(_, 0) -> error(never);
until(Fact, Tries) ->
    case Fact() of
        true -> ok;
        false -> timer:sleep(10), until(Fact, Tries - 1)
    end.

signal(Name, Process) -> "" = os:cmd("kill -s " ++ Name ++ " -- " ++ integer_to_list(Process)), ok.

%% Another node logs, and a signal comes to its group.
group(File) ->
    [begin
         Own = File(Name),
         ok = filelib:ensure_dir(Own ++ "/log"),
         Words = ["-noshell", "-pa", filename:dirname(code:which(?MODULE)), "-run", "ends_erlang", "be_ended", Own ++ "/log"],
         Node = open_port({spawn_executable, os:find_executable("erl")}, [{args, Words}, {line, 80}, exit_status]),
         receive {Node, {data, {eol, "logged"}}} -> ok after ?PATIENCE -> error(not_logged) end,
         {os_pid, Leader} = erlang:port_info(Node, os_pid),
         ok = signal(Name, -Leader),
         receive {Node, {exit_status, _}} -> ok after ?PATIENCE -> error(not_ended) end,
         {ok, kept} = waited(fun() -> dlog:open([{name, kept}, {file, Own ++ "/log"}]) end),
         ?MANY = length(items(kept, dlog:chunk(kept, start), [])),
         [ok = signal(Spared, Program) || Spared <- ["TERM", "INT", "HUP"], Program <- programs()],
         ok = dlog:log(kept, later),
         ok = dlog:close(kept)
     end || Name <- ["TERM", "KILL"]].

be_ended([File]) ->
    {ok, kept} = dlog:open([{name, kept}, {file, File}]),
    [ok = dlog:log(kept, Item) || Item <- lists:seq(1, ?MANY)],
    io:format("logged~n"),
    receive never -> ok end.

waited(Run) ->
    application:set_env(dlog, wait, ?PATIENCE),
    Said = Run(),
    application:unset_env(dlog, wait),
    Said.

killed(File) ->
    Busy = [{name, busy}, {file, File("b")}, {notify, true}],
    {ok, busy} = dlog:open(Busy),
    Me = self(),
    [spawn_link(fun() -> Me ! {ended, write(binary:copy(<<"x">>, 10000))} end) || _ <- lists:seq(1, 20)],
    timer:sleep(?SHORT),
    [Program] = programs(),
    ok = signal("KILL", Program),
    [receive {ended, {error, Why}} -> true = Why =:= no_such_log orelse dlog_stopped =:= element(1, Why) after ?PATIENCE -> error(waits) end
     || _ <- lists:seq(1, 20)],
    receive {disk_log, _, busy, {error, {dlog_stopped, _}}} -> ok after ?PATIENCE -> error(not_notified) end,
    {repaired, busy, _, _} = dlog:open(Busy),
    [Idle] = programs(),
    ok = signal("KILL", Idle),
    receive {disk_log, _, busy, {error, {dlog_stopped, 137}}} -> ok after ?PATIENCE -> error(not_notified) end,
    {error, no_such_log} = dlog:log(busy, late).

write(Item) ->
    case dlog:blog(busy, Item) of
        ok -> write(Item);
        Error -> Error
    end.

why(File) ->
    {ok, other} = dlog:open([{name, other}, {file, File("o")}]),
    Missing = filename:dirname(File("")) ++ "/missing/log",
    {error, {file_error, Missing, enoent}} = dlog:open([{name, a}, {file, Missing}]),
    Apart = File("apart") ++ "/log",
    ok = filelib:ensure_dir(Apart),
    application:set_env(dlog, program, "no-such-program"),
    {error, {dlog_not_started, {no_program, "no-such-program"}}} = dlog:open([{name, a}, {file, Apart}]),
    application:unset_env(dlog, program),
    application:set_env(dlog, blocks, 1 bsl 40),
    {error, {dlog_not_started, [_ | _]}} = dlog:open([{name, a}, {file, Apart}]),
    application:unset_env(dlog, blocks),
    Holder = holder(filename:dirname(Apart)),
    {error, {dlog_not_started, Words}} = dlog:open([{name, a}, {file, Apart}]),
    true = string:find(Words, "another program") =/= nomatch,
    port_close(Holder),
    ok = dlog:log(other, still_here).

%% A program that has a folder.
holder(Folder) ->
    Port = open_port({spawn_executable, os:find_executable(os:getenv("DLOG_PROGRAM"))},
                     [{args, ["serve", "--folder", Folder]}, {packet, 4}, binary]),
    port_command(Port, <<1:32, 0, 2:16>>),
    receive {Port, {data, _}} -> Port after ?PATIENCE -> error(not_started) end.

refused(File) ->
    {ok, a} = dlog:open([{name, a}, {file, File("a")}]),
    Longest = binary:copy(<<"x">>, 1048576),
    {error, {item_too_long, 1048577, 1048576}} = dlog:blog(a, [Longest, "x"]),
    {error, {item_too_long, 1048577, 1048576}} = dlog:balog(a, [Longest, "x"]),
    {error, {item_too_long, _, _}} = dlog:btruncate(a, [Longest, "x"]),
    {error, {call_too_long, _, 16777216}} = dlog:blog_terms(a, lists:duplicate(16, Longest)),
    {error, {call_too_long, _, 16777216}} = dlog:balog_terms(a, lists:duplicate(16, Longest)),
    {error, {file_name_too_long, _, 64}} = dlog:open([{name, b}, {file, File(lists:duplicate(65, $x))}]),
    {error, {file_name_too_long, _, 64}} = dlog:reopen(a, lists:duplicate(65, $x)),
    ok = dlog:blog_terms(a, lists:duplicate(15, Longest)),
    15 = length(bytes(a, dlog:bchunk(a, start), [])).

alone(File) ->
    Files = [File(Name) ++ "/log" || Name <- ["first", "second"]],
    [ok = filelib:ensure_dir(It) || It <- Files],
    [{ok, It} = dlog:open([{name, It}, {file, It}]) || It <- Files],
    [First, Second] = Files,
    [One, Other] = programs(),
    ok = signal("KILL", lists:min([One, Other])),
    until(fun() -> length(dlog:all()) =:= 1 end),
    [Left] = dlog:all(),
    true = lists:member(Left, [First, Second]),
    ok = dlog:log(Left, still_here),
    ok = dlog:stop().

child(File) ->
    {ok, a} = dlog:open([{name, a}, {file, File("a")}]),
    Started = open_port({spawn_executable, os:find_executable("cat")}, [binary]),
    ok = dlog:log(a, item),
    ok = dlog:stop(?PATIENCE),
    {ok, a} = dlog:open([{name, a}, {file, File("a")}]),
    port_close(Started).

shared(File) ->
    Writers = [spawn_monitor(fun() ->
                                 {ok, shared} = dlog:open([{name, shared}, {file, File("s")}]),
                                 [ok = dlog:log(shared, {Writer, Item}) || Item <- lists:seq(1, 200)],
                                 ok = dlog:sync(shared),
                                 Items = items(shared, dlog:chunk(shared, start), []),
                                 Expected = lists:seq(1, 200),
                                 Expected = [Item || {Its, Item} <- Items, Its =:= Writer]
                             end) || Writer <- lists:seq(1, 8)],
    [receive {'DOWN', Monitor, process, _, Why} -> normal = Why after ?PATIENCE -> error(waits) end || {_, Monitor} <- Writers].

limit(File) ->
    Limited = [{name, a}, {file, File("a")}, {timeout, ?LIMIT}],
    %% A limit holds for the open too, and the start of a server may take longer.
    {ok, a} = dlog:open(lists:keydelete(timeout, 1, Limited)),
    {ok, a} = dlog:open(Limited),
    [Program] = programs(),
    ok = signal("STOP", Program),
    {error, timeout} = dlog:log(a, late),
    {error, timeout} = dlog:blog_terms(a, lists:duplicate(10, binary:copy(<<"x">>, 1000000))),
    {error, timeout} = dlog:log(a, later),
    ok = signal("CONT", Program),
    {ok, a} = dlog:open(lists:keyreplace(timeout, 1, Limited, {timeout, ?PATIENCE})),
    ok = dlog:log(a, last),
    13 = length(bytes(a, dlog:bchunk(a, start), [])),
    ok = signal("STOP", Program),
    {error, {not_written, [_]}} = dlog:stop(?SHORT),
    ok = signal("KILL", Program).

place(File) ->
    {ok, a} = dlog:open([{name, a}, {file, File("a")}]),
    ok = dlog:log_terms(a, [one, two, three]),
    {Place, [one, two]} = dlog:chunk(a, start, 2),
    Stored = term_to_binary(Place),
    ok = dlog:stop(),
    {ok, a} = dlog:open([{name, a}, {file, File("a")}]),
    {_, [three]} = dlog:chunk(a, binary_to_term(Stored)).

%% A server is started again if the program wants that, and its logs are open as they were.
again(File) ->
    application:set_env(dlog, restart, true),
    {ok, halt} = dlog:open([{name, halt}, {file, File("h")}, {size, 1000}, {notify, true}]),
    {ok, ring} = dlog:open([{name, ring}, {file, File("r")}, {type, wrap}, {size, {100, 3}}]),
    ok = dlog:change_size(halt, 2000),
    ok = dlog:log(halt, kept),
    ok = dlog:sync(halt),
    %% A server that ends in its first second is not started again.
    timer:sleep(1100),
    [Program] = programs(),
    ok = signal("KILL", Program),
    receive {disk_log, _, halt, {error, {dlog_stopped, 137}}} -> ok after ?PATIENCE -> error(not_notified) end,
    receive {disk_log, _, halt, {dlog_restarted, {repaired, _, _}}} -> ok after ?PATIENCE -> error(not_restarted) end,
    application:unset_env(dlog, restart),
    {_, [kept]} = dlog:chunk(halt, start),
    {size, 2000} = lists:keyfind(size, 1, dlog:info(halt)),
    Me = self(),
    {owners, [{Me, false}]} = lists:keyfind(owners, 1, dlog:info(ring)),
    ok = dlog:log(ring, item),
    [ok, ok] = [dlog:close(Log) || Log <- [halt, ring]].

waits(File) ->
    Apart = File("apart") ++ "/log",
    ok = filelib:ensure_dir(Apart),
    Holder = holder(filename:dirname(Apart)),
    Me = self(),
    spawn_link(fun() -> receive stop -> ok after ?SHORT -> ok end, Me ! {close, Holder} end),
    Opens = spawn_monitor(fun() -> {ok, a} = waited(fun() -> dlog:open([{name, a}, {file, Apart}]) end), ok = dlog:log(a, first) end),
    receive {close, Holder} -> port_close(Holder) end,
    {_, Monitor} = Opens,
    receive {'DOWN', Monitor, process, _, Why} -> normal = Why after ?PATIENCE -> error(waits) end.

version(File) ->
    Hello = "\\0\\0\\0\\024\\0\\0\\0\\1\\0\\0\\011\\1\\0\\0\\0\\0\\0\\4\\0\\4dlog",
    application:set_env(dlog, program, write_program(File("other"), ["printf '", Hello, "'\nexec cat >/dev/null\n"])),
    {error, {dlog_not_started, Words}} = dlog:open([{name, a}, {file, File("a")}]),
    application:unset_env(dlog, program),
    true = string:find(Words, "version 9") =/= nomatch.

write_program(Path, Lines) ->
    ok = file:write_file(Path, ["#!/bin/sh\n", Lines]),
    ok = file:change_mode(Path, 8#700),
    Path.

%% Opens logs by a program whose files become no longer than 4,096 bytes, until its soft limit is raised.
open_limited(File, Blocks, Logs) ->
    Program = os:getenv("DLOG_PROGRAM"),
    Full = write_program(File("full"), ["ulimit -S -f 8\nexec '", Program, "' \"$@\"\n"]),
    [application:set_env(dlog, Key, Value) || {Key, Value} <- [{program, Full}, {blocks, Blocks}]],
    [{ok, Log} = dlog:open([{name, Log}, {file, File(atom_to_list(Log))}]) || Log <- Logs],
    [application:unset_env(dlog, Key) || Key <- [program, blocks]].

at_once(File) ->
    open_limited(File, 16, [a, b]),
    [ok, ok] = [dlog:blog(a, binary:copy(<<"x">>, 10000)), dlog:blog(b, <<"has room">>)],
    Full = filename:absname(File("a")) ++ ".log",
    {error, {not_synced, [{a, {file_error, Full, eio}}]}} = dlog:sync_all(),
    {file_error, Full, efbig} = dlog:reason(a),
    {{[a, b], []}, {error, no_such_log}} = {dlog:accessible_logs(), dlog:reason(missing)},
    {error, {not_synced, [{a, {file_error, Full, eio}}, {missing, no_such_log}]}} = dlog:sync_all([a, b, missing, a]),
    {error, {not_synced, [{missing, no_such_log}, {a, {file_error, Full, eio}}]}} = dlog:sync_all([missing, b, a]),
    [Program] = programs(),
    "" = os:cmd("prlimit --pid " ++ integer_to_list(Program) ++ " --fsize=unlimited"),
    ok = dlog:sync_all(),
    ok = dlog:sync_all([]).

full(File) ->
    open_limited(File, 1, [a, b]),
    Full = filename:absname(File("a")) ++ ".log",
    none = dlog:reason(a),
    {Taken, {file_error, Full, eio}} = fill(a, 0),
    {file_error, Full, efbig} = dlog:reason(a),
    {0, {file_error, Full, eio}} = fill(a, 0),
    [ok, ok] = [dlog:blog(b, <<"has room">>), dlog:sync(b)],
    [Program] = programs(),
    "" = os:cmd("prlimit --pid " ++ integer_to_list(Program) ++ " --fsize=unlimited"),
    [ok, ok] = [dlog:blog(a, <<"last">>), dlog:sync(a)],
    ok = dlog:stop(),
    {ok, a} = dlog:open([{name, a}, {file, File("a")}]),
    Items = bytes(a, dlog:bchunk(a, start), []),
    <<"last">> = lists:last(Items),
    true = Taken > 0 andalso length(Items) > Taken.

%% Logs items and syncs each until one is refused: how many were taken, and why the last was not.
fill(Log, Taken) when Taken < ?MANY ->
    case {dlog:blog(Log, binary:copy(<<"x">>, 500)), dlog:sync(Log)} of
        {ok, ok} -> fill(Log, Taken + 1);
        {{error, Why}, _} -> {Taken, Why};
        {ok, {error, Why}} -> {Taken, Why}
    end.

loss(File) ->
    open_limited(File, 256, [a]),
    ok = dlog:blog(a, binary:copy(<<"x">>, 100000)),
    {error, {not_written, [_]}} = dlog:stop().

items(_, eof, Read) -> lists:append(lists:reverse(Read));
items(Log, {Next, Items}, Read) when is_list(Items) -> items(Log, dlog:chunk(Log, Next), [Items | Read]).

bytes(_, eof, Read) -> lists:append(lists:reverse(Read));
bytes(Log, {Next, Items}, Read) when is_list(Items) -> bytes(Log, dlog:bchunk(Log, Next), [Items | Read]).
