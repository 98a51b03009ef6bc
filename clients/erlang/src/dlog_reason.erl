%% What the server says, in the words of disk_log.
-module(dlog_reason).

-export([answer/2, known/2, told/2, restarted/2]).

-export_type([cause/0]).

%% Why the device failed: a posix error of the system, its number if it has no name here, or not_plain, shorter, earlier_sync or unknown.
-type cause() :: atom() | {errno, integer()}.

-spec answer(term(), term()) -> ok | {error, term()}.
answer(_, done) -> ok;
answer(_, ok) -> ok;
answer(Log, suspended) -> {error, {blocked_log, Log}};
answer(_, no_memory) -> {error, no_memory};
answer(_, timeout) -> {error, timeout};
answer(_, {stopped, Status}) -> {error, {dlog_stopped, Status}};
answer(_, {not_started, Why}) -> {error, {dlog_not_started, Why}};
answer(_, {too_long, Bytes, Limit}) -> {error, {call_too_long, Bytes, Limit}};
answer(_, {no_request, Place}) -> {error, {no_request, Place}};
answer(Log, {refused, Number, Of}) -> {error, reason(Log, Number, Of)}.

reason(_, 1, Argument) -> {badarg, Argument};
reason(_, 2, _) -> no_such_log;
reason(Log, 3, _) -> {name_already_open, Log};
reason(_, 4, Argument) -> {arg_mismatch, Argument};
reason(_, 5, {Old, New}) -> {size_mismatch, dlog_options:from_wire(Old), dlog_options:from_wire(New)};
reason(Log, 6, _) -> {open_read_write, Log};
reason(Log, 7, _) -> {open_read_only, Log};
reason(_, 8, Other) -> {file_in_use, Other};
reason(Log, 12, _) -> {need_repair, Log};
reason(Log, 13, _) -> {read_only_mode, Log};
reason(Log, 14, _) -> {full, Log};
reason(Log, 15, _) -> {blocked_log, Log};
reason(Log, 16, _) -> {not_blocked, Log};
reason(Log, 17, _) -> {not_blocked_by_pid, Log};
reason(Log, 18, _) -> {halt_log, Log};
reason(Log, 19, Bytes) -> {new_size_too_small, Log, dlog_options:from_wire(Bytes)};
reason(Log, 20, _) -> {same_file_name, Log};
reason(_, 21, _) -> stale_continuation;
reason(_, 22, _) -> end_of_log;
reason(Log, 23, File) -> {corrupt_log_file, file_of(Log, File)};
reason(Log, 24, File) -> fault(Log, File, eio);
reason(_, 25, _) -> exhausted.

%% Why the device failed, as the server knows it.
-spec known(term(), term()) -> none | {file_error, file:filename(), cause()} | {error, term()}.
known(_, {reason, none}) -> none;
known(Log, {reason, {File, Cause}}) -> fault(Log, File, Cause);
known(Log, Said) -> answer(Log, Said).

fault(Log, File, Cause) -> {file_error, path_of(Log, binary_to_list(File)), posix(Cause)}.

%% The name that file:format_error/1 knows of an error number of the system.
posix({errno, 1}) -> eperm;
posix({errno, 2}) -> enoent;
posix({errno, 5}) -> eio;
posix({errno, 12}) -> enomem;
posix({errno, 13}) -> eacces;
posix({errno, 20}) -> enotdir;
posix({errno, 21}) -> eisdir;
posix({errno, 23}) -> enfile;
posix({errno, 24}) -> emfile;
posix({errno, 27}) -> efbig;
posix({errno, 28}) -> enospc;
posix({errno, 30}) -> erofs;
posix({errno, 36}) -> enametoolong;
posix({errno, 122}) -> edquot;
posix(Other) -> Other.

file_of(Log, File) ->
    {ok, #{file := Name, type := Type}} = dlog_port:find(Log),
    case Type of halt -> Name; wrap -> Name ++ "." ++ integer_to_list(File) end.

path_of(Log, File) ->
    case dlog_port:find(Log) of
        {ok, #{folder := Folder}} -> filename:join(Folder, File);
        error -> File
    end.

%% What became of a log as its server was started again.
-spec restarted(term(), term()) -> ok | {repaired, {recovered, non_neg_integer()}, {badbytes, non_neg_integer()}} | {error, term()}.
restarted(_, opened) -> ok;
restarted(_, {repaired, Kept, Bad}) -> {repaired, {recovered, Kept}, {badbytes, Bad}};
restarted(Log, Said) -> answer(Log, Said).

%% A notice, as its owner is sent it.
-spec told(term(), term()) -> term().
told(_, {status, ok}) -> {error_status, ok};
told(Log, {status, {refused, Number, Of}}) -> {error_status, {error, reason(Log, Number, Of)}};
told(_, no_such_log) -> {error, no_such_log};
told(_, Notice) -> Notice.
