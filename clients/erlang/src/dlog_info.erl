%% What an info says, as disk_log lists it.
-module(dlog_info).

-export([list/3]).

-spec list(term(), dlog_port:log(), map()) -> [{atom(), term()}].
list(Log, #{file := File, owners := Owners}, #{type := Type, size := Size, mode := Mode, users := Users, status := Status, writing := Writing}) ->
    [{name, Log}, {file, File}, {type, Type}, {format, internal}, {size, dlog_options:from_wire(Size)},
     {owners, lists:reverse(Owners)}, {users, Users}]
    ++ head(Writing) ++ [{mode, Mode}, {status, Status}, {node, node()}] ++ counts(Writing) ++ hold(Writing).

head(none) -> [];
head(#{head := Head}) -> [{head, Head}].

counts(none) -> [];
counts(#{full := Full, written := Written}) -> [{full, Full}, {no_written_items, Written}];
counts(#{bytes := Bytes, items := Items, all := All, written := Written, file := File, rolls := Rolls}) ->
    [{no_current_bytes, dlog_options:from_wire(Bytes)}, {no_current_items, Items}, {no_items, All},
     {no_written_items, Written}, {current_file, File}, {no_overflows, Rolls}].

%% Of a log that is held, the most blocks that it may have; disk_log has no such thing.
hold(#{hold := Blocks}) when is_integer(Blocks) -> [{hold, Blocks}];
hold(_) -> [].
