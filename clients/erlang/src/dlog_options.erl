%% The options of an open, as disk_log has them, and `{hold, Blocks}`.
-module(dlog_options).

-export([read/1, file/1, parts/1, again/1, base_of/1, wire_name/1, to_wire/1, from_wire/1]).

%% A file of dlog begins with 24 bytes and one of disk_log with 8; an item takes as many in both.
-define(MORE_BYTES, 16).
-define(LONGEST, 64).
-define(MOST_BLOCKS, 65536).
-define(ITEM_LIMIT, 1048576).

%% The options as a map, with what is not given as disk_log takes it.
read(Options) when is_list(Options) ->
    case read(Options, #{}) of
        #{name := Name} = Given ->
            Default = #{linkto => self(), repair => true, type => halt, size => none, head => none, hold => none, timeout => infinity,
                        mode => read_write, notify => false, file => lists:flatten(io_lib:format("~tw.LOG", [Name]))},
            whole(Options, maps:merge(Default, Given), maps:is_key(file, Given));
        #{} -> {error, {badarg, name}};
        Error -> Error
    end;
read(Options) ->
    {error, {badarg, Options}}.

whole(_, #{type := halt, size := {_, _}}, _) -> {error, {badarg, size}};
whole(_, #{type := wrap, size := Size}, _) when is_integer(Size); Size =:= infinity -> {error, {badarg, size}};
whole(_, #{mode := read_only, repair := truncate}, _) -> {error, {badarg, repair_read_only}};
whole(_, #{head := Head}, _) when is_binary(Head), byte_size(Head) > ?ITEM_LIMIT -> {error, {item_too_long, byte_size(Head), ?ITEM_LIMIT}};
whole(_, #{file := File} = Given, HasFile) ->
    case file(File) of
        {ok, _} -> {ok, Given#{has_file => HasFile}};
        Error -> Error
    end.

%% The base of the files of dlog for a file of disk_log.
-spec file(file:filename()) -> {ok, binary()} | {error, term()}.
file(File) ->
    case base_of(File) of
        <<>> -> {error, {badarg, file}};
        Base when byte_size(Base) > ?LONGEST -> {error, {file_name_too_long, File, ?LONGEST}};
        Base -> {ok, Base}
    end.

read([], Given) -> Given;
read([Option | Rest] = Options, Given) ->
    case is_option(Option) of
        true -> read(Rest, with(Option, Given));
        false -> {error, {badarg, Options}}
    end.

with({head, Head}, Given) when Head =/= none -> Given#{head => term_to_binary(Head)};
with({Key, Value}, Given) -> Given#{Key => Value}.

is_option({name, _}) -> true;
is_option({file, File}) -> is_list(File) orelse is_atom(File) orelse is_binary(File);
is_option({linkto, To}) -> is_pid(To) orelse To =:= none;
is_option({repair, Repair}) -> lists:member(Repair, [true, false, truncate]);
is_option({type, Type}) -> lists:member(Type, [halt, wrap]);
is_option({format, Format}) -> Format =:= internal;
is_option({size, infinity}) -> true;
is_option({size, {Bytes, Files}}) -> is_integer(Bytes) andalso is_integer(Files) andalso Bytes > 0 andalso Files > 0;
is_option({size, Bytes}) -> is_integer(Bytes) andalso Bytes > 0;
is_option({notify, Notify}) -> is_boolean(Notify);
is_option({head, _}) -> true;
is_option({mode, Mode}) -> lists:member(Mode, [read_write, read_only]);
is_option({quiet, Quiet}) -> is_boolean(Quiet);
is_option({hold, Blocks}) -> is_integer(Blocks) andalso Blocks > 0 andalso Blocks =< ?MOST_BLOCKS;
is_option({timeout, Timeout}) -> Timeout =:= infinity orelse (is_integer(Timeout) andalso Timeout > 0);
is_option(_) -> false.

%% The options as parts of a request.
-spec parts(map()) -> iodata().
parts(#{file := File, type := Type, size := Size, mode := Mode, repair := Repair, head := Head, notify := Notify, linkto := To, hold := Hold}) ->
    [number(Type, [halt, wrap]),
     dlog_frame:option(fun dlog_frame:text/1, base_of(File)),
     dlog_frame:option(fun(It) -> dlog_frame:size(to_wire(It)) end, Size),
     number(Mode, [read_write, read_only]),
     number(Repair, [true, false, truncate]),
     dlog_frame:option(fun dlog_frame:bytes/1, Head),
     number(Notify, [false, true]),
     case To of none -> 1; _ -> 0 end,
     dlog_frame:option(fun dlog_frame:blocks/1, Hold)].

%% The place of a value among those that it may be.
number(Value, Values) ->
    length(lists:takewhile(fun(It) -> It =/= Value end, Values)).

%% The options of a log that is opened again after its server has ended: it is repaired and not emptied, and a wrap log has its size.
-spec again(map()) -> map().
again(#{type := wrap} = Given) -> Given#{repair := true, size := none};
again(Given) -> Given#{repair := true}.

to_wire(infinity) -> infinity;
to_wire({Bytes, Files}) -> {Bytes + ?MORE_BYTES, Files};
to_wire(Bytes) -> Bytes + ?MORE_BYTES.

from_wire(infinity) -> infinity;
from_wire({Bytes, Files}) -> {Bytes - ?MORE_BYTES, Files};
from_wire(Bytes) -> Bytes - ?MORE_BYTES.

%% What the files of dlog for this file of disk_log are called, without their endings.
base_of(File) ->
    in_letters(filename:rootname(filename:basename(iolist_to_binary(io_lib:format("~ts", [File]))), <<".LOG">>)).

%% The name of a log, which may be any term, as the server knows it.
wire_name(Log) ->
    Name = in_letters(unicode:characters_to_binary(io_lib:format("~tw", [Log]))),
    case byte_size(Name) =< ?LONGEST of
        true -> Name;
        false -> <<"--", << <<(hex_digit(Half))>> || <<Half:4>> <= erlang:md5(Name) >>/binary>>
    end.

%% Each byte that is no letter, digit or _ as - and two digits.
in_letters(Text) ->
    << <<(letter(Byte))/binary>> || <<Byte>> <= Text >>.

letter(Byte) when Byte >= $a, Byte =< $z; Byte >= $A, Byte =< $Z; Byte >= $0, Byte =< $9; Byte =:= $_ -> <<Byte>>;
letter(Byte) -> <<$-, (hex_digit(Byte div 16)), (hex_digit(Byte rem 16))>>.

hex_digit(Half) -> element(Half + 1, list_to_tuple("0123456789abcdef")).
