%% Ten programs over disk_log, each of which is given the module: disk_log or dlog. A program returns what it was answered.
-module(programs).

-export([all/0]).

all() ->
    [{audit, fun audit/2}, {ring, fun ring/2}, {quota, fun quota/2}, {notices, fun notices/2}, {queue, fun queue/2},
     {guard, fun guard/2}, {header, fun header/2}, {archive, fun archive/2}, {reader, fun reader/2}, {owners, fun owners/2},
     {batches, fun batches/2}, {resize, fun resize/2}].

%% Logs terms of many kinds, and reads them back after an open.
audit(M, File) ->
    Opened = M:open([{name, audit}, {file, File}]),
    Terms = [{login, "ann", 7}, <<"bytes">>, [], #{key => [1.5, atom]}, "", {self, make_tuple(9)}],
    Logged = [M:log(audit, Term) || Term <- Terms],
    Synced = M:sync(audit),
    Closed = M:close(audit),
    Again = M:open([{name, audit}, {file, File}]),
    Read = read(M, audit),
    [Opened, Logged, Synced, Closed, Again, Read, M:close(audit), M:log(audit, late), M:close(audit), M:chunk(audit, start)].

%% Keeps the latest of a hundred terms in three files.
ring(M, File) ->
    Opened = M:open([{name, {ring, 1}}, {file, File}, {type, wrap}, {size, {400, 3}}]),
    Logged = [M:log({ring, 1}, {sample, N, N * N}) || N <- lists:seq(1, 100)],
    Info = info(M, {ring, 1}, [name, type, format, size, users, mode, status, no_current_bytes, no_current_items, no_items,
                               no_written_items, current_file, no_overflows]),
    [Opened, lists:usort(Logged), Info, read(M, {ring, 1}), M:close({ring, 1}),
     M:open([{name, {ring, 1}}, {file, File}, {type, wrap}]), read(M, {ring, 1}), M:close({ring, 1})].

%% Fills a halt log, gives it more room, and goes on.
quota(M, File) ->
    Opened = M:open([{name, quota}, {file, File}, {size, 200}, {notify, true}]),
    Logged = [M:log(quota, {entry, N}) || N <- lists:seq(1, 12)],
    Told = told(),
    Full = info(M, quota, [size, full, no_written_items]),
    Small = M:change_size(quota, 20),
    More = M:change_size(quota, 400),
    After = M:log(quota, {entry, 13}),
    Infinite = M:change_size(quota, infinity),
    [Opened, Logged, Told, Full, Small, More, After, told(), Infinite, info(M, quota, [size, full]), read(M, quota), M:close(quota)].

%% Is told as files of a wrap log go.
notices(M, File) ->
    Opened = M:open([{name, notices}, {file, File}, {type, wrap}, {size, {100, 2}}, {notify, true}]),
    Logged = [M:log(notices, lists:duplicate(N, $x)) || N <- lists:seq(20, 30)],
    Forced = M:inc_wrap_file(notices),
    Told = told(),
    Off = M:change_notify(notices, self(), false),
    Quiet = M:inc_wrap_file(notices),
    Stranger = M:change_notify(notices, whereis(init), true),
    [Opened, Logged, Forced, Told, Off, Quiet, told(), [Stranger =:= {error, {not_owner, whereis(init)}}], M:close(notices)].

%% A process blocks a log and has others wait, who then go on.
queue(M, File) ->
    Opened = M:open([{name, queue}, {file, File}]),
    Blocked = M:block(queue, true),
    Own = M:log(queue, mine),
    Me = self(),
    Writer = spawn_link(fun() -> Me ! {self(), M:log(queue, theirs)} end),
    Waited = receive {Writer, Early} -> Early after 200 -> waits end,
    Status = info(M, queue, [status]),
    Fell = M:unblock(queue),
    Answered = receive {Writer, Said} -> Said after 5000 -> lost end,
    [Opened, Blocked, Own, Waited, Status, Fell, Answered, read(M, queue), M:unblock(queue), M:close(queue)].

%% A process blocks a log and has others refused.
guard(M, File) ->
    Opened = M:open([{name, guard}, {file, File}, {notify, true}]),
    Blocked = M:block(guard, false),
    Others = in_process(fun() -> [M:log(guard, 1), M:alog(guard, 2), M:unblock(guard), M:block(guard), M:close(guard)] end),
    Told = told(),
    [Opened, Blocked, Others, Told, info(M, guard, [status]), M:unblock(guard), M:log(guard, 3), read(M, guard), M:close(guard)].

%% A wrap log with a head item in each file, which is emptied.
header(M, File) ->
    Opened = M:open([{name, header}, {file, File}, {type, wrap}, {size, {120, 3}}, {head, {version, 1}}, {notify, true}]),
    Logged = [M:log(header, {row, N}) || N <- lists:seq(1, 9)],
    Read = read(M, header),
    Told = told(),
    Head = info(M, header, [head]),
    Emptied = M:truncate(header, {version, 2}),
    [Opened, Logged, Read, Told, Head, Emptied, read(M, header), M:close(header)].

%% Puts the files of a log aside, and goes on with new ones.
archive(M, File) ->
    Opened = M:open([{name, archive}, {file, File}, {notify, true}]),
    Logged = [M:log(archive, {old, N}) || N <- lists:seq(1, 5)],
    Aside = File ++ "_old",
    Moved = M:reopen(archive, Aside),
    Told = told(),
    Same = M:reopen(archive, File),
    Next = M:log(archive, new),
    Read = read(M, archive),
    Closed = M:close(archive),
    Old = M:open([{name, old}, {file, Aside}, {mode, read_only}]),
    [Opened, Logged, Moved, Told, Same, Next, Read, Closed, Old, read(M, old), M:close(old)].

%% Reads a log that others may not write.
reader(M, File) ->
    Lacking = M:open([{name, reader}, {file, File}, {mode, read_only}]),
    Made = M:open([{name, reader}, {file, File}]),
    Logged = M:log_terms(reader, [a, b, c]),
    Closed = M:close(reader),
    Opened = M:open([{name, reader}, {file, File}, {mode, read_only}, {notify, true}]),
    Refused = [M:log(reader, d), M:alog(reader, e), M:truncate(reader), M:sync(reader), M:inc_wrap_file(reader)],
    Mode = M:open([{name, reader}, {file, File}]),
    Info = info(M, reader, [type, size, mode, status, users]),
    [Lacking, Made, Logged, Closed, Opened, Refused, told(), Mode, Info, read(M, reader), M:close(reader)].

%% Owners come and go, and a log stays open as long as there is one.
owners(M, File) ->
    Opened = M:open([{name, owners}, {file, File}]),
    Again = M:open([{name, owners}, {file, File}]),
    Anonymous = M:open([{name, owners}, {file, File}, {linkto, none}]),
    Others = in_process(fun() -> [M:open([{name, owners}, {file, File}]), M:log(owners, theirs), length(owners_of(M, owners))] end),
    After = until(1, fun() -> length(owners_of(M, owners)) end),
    Mismatch = [M:open([{name, owners}, {file, File ++ "x"}]), M:open([{name, owners}, {type, wrap}, {size, {100, 2}}]),
                M:open([{name, owners}, {file, File}, {mode, read_only}]), M:open([{name, owners}, {notify, true}]),
                M:open([{name, owners}, {size, 7777}])],
    Users = info(M, owners, [users]),
    Given = [M:close(owners), M:log(owners, still), M:close(owners), M:log(owners, gone)],
    [Opened, Again, Anonymous, Others, After, Mismatch, Users, Given, M:open([{name, bad}, {sizes, 3}]), M:open([{file, File}])].

%% Logs batches, and reads them a few at a time, and by files.
batches(M, File) ->
    Opened = M:open([{name, batches}, {file, File}, {type, wrap}, {size, {20000, 4}}]),
    Logged = [M:log_terms(batches, [{N, lists:seq(1, N)} || N <- lists:seq(From, From + 99)]) || From <- [1, 101, 201]],
    {Place, First} = M:chunk(batches, start, 7),
    {_, Second} = M:chunk(batches, Place, 7),
    Steps = [result(M:chunk_step(batches, start, By)) || By <- [0, 1, -1]],
    {ok, Step} = M:chunk_step(batches, start, 1),
    {_, [Stepped]} = M:chunk(batches, Step, 1),
    Sent = [M:alog(batches, sent), M:alog_terms(batches, [more, sent]), M:sync(batches)],
    [Opened, Logged, First, Second, Steps, Stepped, Sent, lists:last(read(M, batches)), M:chunk(batches, nowhere), M:close(batches)].

%% Gives a wrap log fewer and larger files.
resize(M, File) ->
    Opened = M:open([{name, resize}, {file, File}, {type, wrap}, {size, {100, 5}}]),
    Logged = [M:log(resize, {n, N}) || N <- lists:seq(1, 30)],
    Fewer = M:change_size(resize, {300, 2}),
    More = [M:log(resize, {n, N}) || N <- lists:seq(31, 60)],
    [Opened, lists:usort(Logged), Fewer, lists:usort(More), info(M, resize, [size]), read(M, resize), M:close(resize)].

%% All terms of a log.
read(M, Log) ->
    read(M, Log, M:chunk(Log, start)).

read(_, _, eof) -> [];
read(M, Log, {Next, Terms}) -> Terms ++ read(M, Log, M:chunk(Log, Next));
read(M, Log, {Next, Terms, Bad}) -> Terms ++ [{bad, Bad}] ++ read(M, Log, M:chunk(Log, Next));
read(_, _, Other) -> [Other].

info(M, Log, Keys) ->
    All = M:info(Log),
    [lists:keyfind(Key, 1, All) || Key <- Keys].

owners_of(M, Log) ->
    proplists:get_value(owners, M:info(Log)).

result({ok, _}) -> ok;
result(Other) -> Other.

%% The messages that came so far.
told() ->
    timer:sleep(50),
    told_so_far().

told_so_far() ->
    receive {disk_log, _, Log, What} -> [{Log, What} | told_so_far()] after 0 -> [] end.

in_process(Fun) ->
    {Pid, Monitor} = spawn_monitor(fun() -> exit({did, Fun()}) end),
    receive {'DOWN', Monitor, process, Pid, Ended} -> Ended end.

until(Wanted, Fun) -> until(Wanted, Fun, 100).

until(_, Fun, 0) -> Fun();
until(Wanted, Fun, Tries) ->
    case Fun() of
        Wanted -> Wanted;
        _ -> timer:sleep(10), until(Wanted, Fun, Tries - 1)
    end.

make_tuple(N) -> erlang:make_tuple(N, x).
