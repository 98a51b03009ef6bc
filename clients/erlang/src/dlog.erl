%% The calls of disk_log, over `dlog serve`.
-module(dlog).

-export([open/1, close/1, lclose/1, lclose/2, all/0, accessible_logs/0, pid2name/1, info/1, reason/1, sync/1, sync_all/0, sync_all/1, format_error/1, stop/0, stop/1]).
-export([log/2, log_terms/2, alog/2, alog_terms/2, blog/2, blog_terms/2, balog/2, balog_terms/2]).
-export([chunk/2, chunk/3, bchunk/2, bchunk/3, chunk_step/3, chunk_info/1]).
-export([truncate/1, truncate/2, btruncate/2, reopen/2, reopen/3, breopen/3, inc_wrap_file/1, change_size/2, change_notify/3]).
-export([block/1, block/2, unblock/1]).

-export_type([log/0, continuation/0, result/0]).

-define(NO_LIMIT, 16#ffffffffffffffff).
-define(ITEM_LIMIT, 1048576).

-type log() :: term().
-type result() :: ok | {error, Reason :: term()}.
-type chunk() :: {continuation(), [term()]} | {continuation(), [term()], Bad :: non_neg_integer()} | eof | {error, term()}.

%% A place in a log, which may be kept and given to a later server.
-opaque continuation() :: {dlog_place, binary()}.

%% Opens, and ends.

-spec open([term()]) -> {ok, log()} | {repaired, log(), {recovered, non_neg_integer()}, {badbytes, non_neg_integer()}} | {error, term()}.
open(Options) ->
    case dlog_options:read(Options) of
        {ok, #{name := Log, file := File} = Given} ->
            Folder = filename:dirname(filename:absname(File)),
            open(Log, Given#{folder => Folder}, dlog_port:find(Log));
        Error ->
            Error
    end.

open(Log, #{has_file := true, file := File}, {ok, #{file := Other}}) when File =/= Other ->
    {error, {name_already_open, Log}};
open(_, #{type := Type}, {ok, #{type := Other}}) when Type =/= Other ->
    {error, {arg_mismatch, type, Other, Type}};
open(Log, #{notify := Notify, linkto := Pid} = Given, {ok, #{owners := Owners, folder := Folder, file := File, type := Type}}) ->
    Known = Given#{folder := Folder, file := File},
    case {lists:keyfind(Pid, 1, Owners), Type} of
        {{Pid, Other}, _} when Other =/= Notify -> {error, {arg_mismatch, notify, Other, Notify}};
        {_, halt} -> opened(Log, Known#{size := none});
        {_, wrap} -> opened(Log, Known)
    end;
open(Log, Given, error) ->
    opened(Log, Given).

opened(Log, #{file := File, folder := Folder} = Given) ->
    case filelib:is_dir(Folder) of
        true -> opened(dlog_port:open(Log, Given, dlog_options:parts(Given)), Log, Given);
        false -> {error, {file_error, File, enoent}}
    end.

opened(Said, Log, #{file := File} = Given) ->
    case Said of
        opened -> {ok, Log};
        {repaired, Kept, Bad} -> {repaired, Log, {recovered, Kept}, {badbytes, Bad}};
        {refused, 4, head} -> {error, {arg_mismatch, head, info(Log, head), maps:get(head, Given)}};
        {refused, 4, hold} -> {error, {arg_mismatch, hold, info(Log, hold), maps:get(hold, Given)}};
        {refused, 4, repair} -> {error, {arg_mismatch, repair, true, maps:get(repair, Given)}};
        {refused, 5, {Old, New}} -> {error, {size_mismatch, dlog_options:from_wire(Old), dlog_options:from_wire(New)}};
        {refused, 9, none} -> {error, {file_error, File, enoent}};
        {refused, 10, _} -> {error, {not_a_log_file, File}};
        {refused, 11, none} -> {error, {invalid_index_file, File ++ ".idx"}};
        Said -> dlog_reason:answer(Log, Said)
    end.

-spec close(log()) -> result().
close(Log) -> call(Log, 14, []).

%% A log has no part on another node.
-spec lclose(log()) -> result().
lclose(Log) -> close(Log).

-spec lclose(log(), node()) -> result().
lclose(Log, Node) when Node =:= node() -> close(Log);
lclose(_, _) -> {error, no_such_log}.

-spec sync(log()) -> result().
sync(Log) -> call(Log, 10, []).

%% Has these logs, or all that are open, on the device, by one call to the server of each folder. An error has those that are not, each
%% with the reason, in the order in which they were asked for; the others are, all the same. Name the logs that matter: all() says
%% nothing of a log whose open failed, or that was not opened again, or that is closed and still waits to be written, and has one that is
%% open read-only, which is not synced. disk_log has no such call.
-spec sync_all() -> ok | {error, {not_synced, [{log(), Reason :: term()}]}}.
sync_all() -> sync_all(all()).

-spec sync_all([log()]) -> ok | {error, {not_synced, [{log(), Reason :: term()}]}}.
sync_all(Logs) ->
    Asked = lists:uniq(Logs),
    Left = maps:from_list(dlog_port:sync_all(Asked)),
    case [{Log, element(2, dlog_reason:answer(Log, map_get(Log, Left)))} || Log <- Asked, is_map_key(Log, Left)] of
        [] -> ok;
        Reasons -> {error, {not_synced, Reasons}}
    end.

%% Why the device failed, asked right after {error, {file_error, File, eio}}: {file_error, File, Cause}, with the posix error in place
%% of eio. It is the cause of that error if it has the same file. disk_log has no such call: its errors have the posix error at once.
-spec reason(log()) -> none | {file_error, file:filename(), dlog_reason:cause()} | {error, term()}.
reason(Log) -> dlog_reason:known(Log, dlog_port:reason(Log)).

%% Closes all logs and ends the servers. An error has the folders of which something could not be written.
-spec stop() -> ok | {error, {not_written, [file:filename()]}}.
stop() -> stop(infinity).

%% The same, with as many milliseconds for each server; one that takes more is left to end by itself.
-spec stop(timeout()) -> ok | {error, {not_written, [file:filename()]}}.
stop(Timeout) ->
    case dlog_port:stop(Timeout) of
        [] -> ok;
        Folders -> {error, {not_written, Folders}}
    end.

-spec all() -> [log()].
all() -> lists:sort(dlog_port:all()).

-spec accessible_logs() -> {[log()], []}.
accessible_logs() -> {lists:sort(dlog_port:open_logs()), []}.

%% A log is no process.
-spec pid2name(pid()) -> undefined.
pid2name(Pid) when is_pid(Pid) -> undefined.

%% Items.

-spec log(log(), term()) -> result().
log(Log, Term) -> write(Log, [term_to_binary(Term)]).

-spec log_terms(log(), [term()]) -> result().
log_terms(Log, Terms) -> write(Log, [term_to_binary(It) || It <- Terms]).

-spec alog(log(), term()) -> result().
alog(Log, Term) -> send(Log, [term_to_binary(Term)]).

-spec alog_terms(log(), [term()]) -> result().
alog_terms(Log, Terms) -> send(Log, [term_to_binary(It) || It <- Terms]).

-spec blog(log(), iodata()) -> result().
blog(Log, Bytes) -> write(Log, [iolist_to_binary(Bytes)]).

-spec blog_terms(log(), [iodata()]) -> result().
blog_terms(Log, Bytes) -> write(Log, [iolist_to_binary(It) || It <- Bytes]).

-spec balog(log(), iodata()) -> result().
balog(Log, Bytes) -> send(Log, [iolist_to_binary(Bytes)]).

-spec balog_terms(log(), [iodata()]) -> result().
balog_terms(Log, Bytes) -> send(Log, [iolist_to_binary(It) || It <- Bytes]).

write(_, []) -> ok;
write(Log, Items) -> fitting(Items, fun() -> call(Log, 2, dlog_frame:items(Items)) end).

send(_, []) -> ok;
send(Log, Items) -> fitting(Items, fun() -> dlog_reason:answer(Log, dlog_port:send(Log, 3, dlog_frame:items(Items))) end).

%% Makes a call whose items are no longer than any may be.
fitting(Items, Call) ->
    case [byte_size(Item) || Item <- Items, byte_size(Item) > ?ITEM_LIMIT] of
        [] -> Call();
        [Bytes | _] -> {error, {item_too_long, Bytes, ?ITEM_LIMIT}}
    end.

-spec chunk(log(), start | continuation()) -> chunk().
chunk(Log, From) -> chunk(Log, From, infinity).

-spec chunk(log(), start | continuation(), pos_integer() | infinity) -> chunk().
chunk(Log, From, Most) -> read(Log, From, Most, fun erlang:binary_to_term/1).

-spec bchunk(log(), start | continuation()) -> chunk().
bchunk(Log, From) -> bchunk(Log, From, infinity).

-spec bchunk(log(), start | continuation(), pos_integer() | infinity) -> chunk().
bchunk(Log, From, Most) -> read(Log, From, Most, fun(Item) -> Item end).

read(Log, start, Most, Decode) -> read_at(Log, start, Most, Decode);
read(Log, {dlog_place, Place}, Most, Decode) -> read_at(Log, Place, Most, Decode);
read(_, _, _, _) -> {error, {badarg, continuation}}.

read_at(Log, Place, infinity, Decode) -> read_at(Log, Place, ?NO_LIMIT, Decode);
read_at(Log, Place, Most, Decode) when is_integer(Most), Most > 0 ->
    case dlog_port:call(Log, 4, [dlog_frame:place(Place), <<Most:64>>]) of
        {items, Next, 0, Items} -> {{dlog_place, Next}, [Decode(It) || It <- Items]};
        {items, Next, Bad, Items} -> {{dlog_place, Next}, [Decode(It) || It <- Items], Bad};
        eof -> eof;
        Said -> dlog_reason:answer(Log, Said)
    end.

-spec chunk_step(log(), start | continuation(), integer()) -> {ok, continuation()} | {error, term()}.
chunk_step(Log, start, By) -> step(Log, start, By);
chunk_step(Log, {dlog_place, Place}, By) -> step(Log, Place, By);
chunk_step(_, _, _) -> {error, {badarg, continuation}}.

step(Log, Place, By) ->
    case dlog_port:call(Log, 5, [dlog_frame:place(Place), <<By:32/signed>>]) of
        {at, Next} -> {ok, {dlog_place, Next}};
        {refused, 18, none} -> {error, {not_internal_wrap, Log}};
        Said -> dlog_reason:answer(Log, Said)
    end.

-spec chunk_info(continuation()) -> [{node, node()}] | {error, term()}.
chunk_info({dlog_place, _}) -> [{node, node()}];
chunk_info(Other) -> {error, {no_continuation, Other}}.

%% Files.

-spec truncate(log()) -> result().
truncate(Log) -> truncated(Log, none).

-spec truncate(log(), term()) -> result().
truncate(Log, Head) -> truncated(Log, term_to_binary(Head)).

-spec btruncate(log(), iodata()) -> result().
btruncate(Log, Head) -> truncated(Log, iolist_to_binary(Head)).

truncated(Log, Head) ->
    fitting(heads(Head), fun() -> call(Log, 6, dlog_frame:option(fun dlog_frame:bytes/1, Head)) end).

heads(none) -> [];
heads(Head) -> [Head].

-spec reopen(log(), file:filename()) -> result().
reopen(Log, File) -> reopened(Log, File, none).

-spec reopen(log(), file:filename(), term()) -> result().
reopen(Log, File, Head) -> reopened(Log, File, term_to_binary(Head)).

-spec breopen(log(), file:filename(), iodata()) -> result().
breopen(Log, File, Head) -> reopened(Log, File, iolist_to_binary(Head)).

reopened(Log, File, Head) ->
    Parts = fun(Base) -> [dlog_frame:text(Base), dlog_frame:option(fun dlog_frame:bytes/1, Head)] end,
    case dlog_options:file(File) of
        {ok, Base} -> fitting(heads(Head), fun() -> call(Log, 7, Parts(Base)) end);
        Error -> Error
    end.

-spec inc_wrap_file(log()) -> result().
inc_wrap_file(Log) -> call(Log, 8, []).

-spec change_size(log(), pos_integer() | infinity | {pos_integer(), pos_integer()}) -> result().
change_size(Log, Size) ->
    case call(Log, 9, dlog_frame:size(dlog_options:to_wire(Size))) of
        ok -> dlog_port:resized(Log, Size);
        Error -> Error
    end.

%% A second open by the owner gives the log another notify value.
-spec change_notify(log(), pid(), boolean()) -> result().
change_notify(Log, Owner, Notify) ->
    case dlog_port:find(Log) of
        {ok, #{owners := Owners} = Known} ->
            case lists:keymember(Owner, 1, Owners) of
                true -> change(Log, Known#{linkto => Owner, notify => Notify});
                false -> {error, {not_owner, Owner}}
            end;
        error ->
            {error, no_such_log}
    end.

change(Log, Known) ->
    Parts = dlog_options:parts(Known#{size => none, head => none, repair => true, hold => none}),
    case dlog_port:open(Log, Known, Parts) of
        opened -> ok;
        Said -> dlog_reason:answer(Log, Said)
    end.

%% Blocks.

-spec block(log()) -> result().
block(Log) -> block(Log, true).

-spec block(log(), boolean()) -> result().
block(Log, Queue) when is_boolean(Queue) -> call(Log, 11, [case Queue of true -> 1; false -> 0 end]).

-spec unblock(log()) -> result().
unblock(Log) -> call(Log, 12, []).

%% What a log is.

-spec info(log()) -> [{atom(), term()}] | {error, term()}.
info(Log) ->
    case dlog_port:call(Log, 13, []) of
        {info, Info} ->
            {ok, Known} = dlog_port:find(Log),
            dlog_info:list(Log, Known, Info);
        Said ->
            dlog_reason:answer(Log, Said)
    end.

info(Log, Key) ->
    case lists:keyfind(Key, 1, info(Log)) of {Key, Value} -> Value; false -> none end.

call(Log, Number, Parts) ->
    dlog_reason:answer(Log, dlog_port:call(Log, Number, Parts)).

-spec format_error(term()) -> io_lib:chars().
format_error(Error) -> disk_log:format_error(Error).
