%% The texts of frames: requests as they are written, and answers as they are read (docs/PROTOCOL.md).
-module(dlog_frame).

-export([text/1, texts/1, bytes/1, items/1, option/2, size/1, blocks/1, place/1, frame/3, split/1, answer/1]).

-export_type([answer/0]).

-define(PLACE_BYTES, 17).

-type answer() :: {Tag :: non_neg_integer(), term()}
                | {notice, Client :: non_neg_integer(), Log :: binary(), term()}.

%% The parts of a request.

%% A request with its length before it.
-spec frame(non_neg_integer(), byte(), iodata()) -> iodata().
frame(Tag, Number, Parts) ->
    [<<(5 + iolist_size(Parts)):32, Tag:32, Number>>, Parts].

text(Text) ->
    <<(byte_size(Text)), Text/binary>>.

texts(Texts) ->
    [<<(length(Texts)):32>> | [text(Text) || Text <- Texts]].

bytes(Bytes) ->
    <<(byte_size(Bytes)):32, Bytes/binary>>.

items(Items) ->
    [<<(length(Items)):32>>, [[<<(byte_size(Item)):32>>, Item] || Item <- Items]].

option(_, none) -> <<0>>;
option(Part, Value) -> [<<1>>, Part(Value)].

size(infinity) -> <<0>>;
size({Bytes, Files}) -> <<2, Bytes:64, Files:32>>;
size(Bytes) -> <<1, Bytes:64>>.

blocks(Number) -> <<Number:32>>.

place(start) -> <<0>>;
place(Place) -> <<1, Place:?PLACE_BYTES/binary>>.

%% The whole texts at the front of what was read, and the rest.
-spec split(binary()) -> {[binary()], binary()}.
split(Read) -> split(Read, []).

split(<<Length:32, Text:Length/binary, Rest/binary>>, Texts) -> split(Rest, [Text | Texts]);
split(Rest, Texts) -> {lists:reverse(Texts), Rest}.

%% The parts of an answer.

-spec answer(binary()) -> answer().
answer(<<0:32, 128, Client:32, Rest/binary>>) ->
    {Log, After} = take_text(Rest),
    {notice, Client, Log, notice(After)};
answer(<<Tag:32, Kind, Parts/binary>>) ->
    {Tag, said(Kind, Parts)}.

said(0, <<Version:16, Frame:32, Suspended:32, _/binary>>) -> {hello, Version, Frame, Suspended};
said(1, <<>>) -> opened;
said(2, <<Kept:64, Bad:64>>) -> {repaired, Kept, Bad};
said(3, <<>>) -> done;
said(4, <<>>) -> suspended;
said(5, <<>>) -> held;
said(6, <<Next:?PLACE_BYTES/binary, Bad:64, Rest/binary>>) -> {items, Next, Bad, items_in(Rest)};
said(7, <<>>) -> eof;
said(8, <<Place:?PLACE_BYTES/binary>>) -> {at, Place};
said(9, Parts) -> {info, info(Parts)};
said(10, <<What, _/binary>>) -> {turn, element(What + 1, {drained, idle, fault})};
said(11, <<>>) -> no_memory;
said(12, <<Count:32, Rest/binary>>) -> {unsynced, unsynced(Count, Rest)};
said(13, <<0>>) -> {reason, none};
said(13, <<1, Parts/binary>>) -> {reason, cause(file(take_text(Parts)))};
said(14, <<Count:32, Rest/binary>>) -> {logs, texts_in(Count, Rest)};
said(63, <<Place:32>>) -> {no_request, Place};
said(Kind, Parts) when Kind > 64 ->
    {Refused, <<>>} = refusal(Kind, Parts),
    Refused.

%% The logs of a sync of many that are not on the device, with what their syncs were answered.
unsynced(0, <<>>) -> [];
unsynced(Count, Rest) ->
    {Log, <<Kind, Parts/binary>>} = take_text(Rest),
    {Said, Others} = kept_off(Kind, Parts),
    [{Log, Said} | unsynced(Count - 1, Others)].

kept_off(Kind, Rest) when Kind =:= 4; Kind =:= 11 -> {said(Kind, <<>>), Rest};
kept_off(Kind, Parts) -> refusal(Kind, Parts).

%% A refusal by its kind, and what follows it.
refusal(Kind, Parts) ->
    {Of, Rest} = speaks_of(Kind - 64, Parts),
    {{refused, Kind - 64, Of}, Rest}.

speaks_of(Number, <<Argument, Rest/binary>>) when Number =:= 1; Number =:= 4 ->
    {element(Argument + 1, {type, size, repair, head, items, item, count, continuation, blocks, hold}), Rest};
speaks_of(5, Parts) ->
    {Old, Then} = take_size(Parts),
    {New, Rest} = take_size(Then),
    {{Old, New}, Rest};
speaks_of(8, Parts) -> take_text(Parts);
speaks_of(Number, Parts) when Number =:= 10; Number =:= 24 -> file(take_text(Parts));
speaks_of(19, <<Bytes:64, Rest/binary>>) -> {Bytes, Rest};
speaks_of(23, <<File:32, Rest/binary>>) -> {File, Rest};
speaks_of(_, Rest) -> {none, Rest}.

file({Base, <<0, Rest/binary>>}) -> {<<Base/binary, ".log">>, Rest};
file({Base, <<1, Rest/binary>>}) -> {<<Base/binary, ".idx">>, Rest};
file({Base, <<2, File:32, Rest/binary>>}) -> {<<Base/binary, $., (integer_to_binary(File))/binary>>, Rest}.

%% Why the device failed: the file, and the cause.
cause({File, <<0, Number:32/signed>>}) -> {File, {errno, Number}};
cause({File, <<Cause, _:32>>}) -> {File, element(Cause, {enomem, not_plain, shorter, earlier_sync, unknown})}.

notice(<<0, Lost:64>>) -> {wrap, Lost};
notice(<<1, Lost:64>>) -> {truncated, Lost};
notice(<<2>>) -> full;
notice(<<3, 0>>) -> {status, ok};
notice(<<3, 1, Kind, Parts/binary>>) -> {status, element(1, refusal(Kind, Parts))};
notice(<<4, Items/binary>>) -> {read_only, items_in(Items)};
notice(<<5, Items/binary>>) -> {blocked_log, items_in(Items)};
notice(<<6>>) -> no_such_log.

info(Parts) ->
    {_Log, <<Rest/binary>>} = take_text(Parts),
    {_Base, <<Type, Sized/binary>>} = take_text(Rest),
    {Size, <<Mode, Count:32, Owned/binary>>} = take_size(Sized),
    <<Owners:(5 * Count)/binary, Users:32, Blocked/binary>> = Owned,
    {Status, Writing} = status(Blocked),
    #{type => element(Type + 1, {halt, wrap}), size => Size,
      mode => element(Mode + 1, {read_write, read_only}), users => Users, status => Status,
      owners => [{Client, Notify =:= 1} || <<Client:32, Notify>> <= Owners],
      writing => writing(Writing)}.

status(<<0, Rest/binary>>) -> {ok, Rest};
status(<<1, Queue, Rest/binary>>) -> {{blocked, Queue =:= 1}, Rest}.

writing(<<0>>) -> none;
writing(<<1, 0, Rest/binary>>) -> writing(none, Rest);
writing(<<1, 1, Length:32, Head:Length/binary, Rest/binary>>) -> writing(Head, Rest).

writing(Head, <<Written:64, 0, Full, Hold/binary>>) ->
    #{head => Head, written => Written, full => Full =:= 1, hold => hold(Hold)};
writing(Head, <<Written:64, 1, Bytes:64, Items:64, All:64, File:32, Open:64, Info:64, Hold/binary>>) ->
    #{head => Head, written => Written, bytes => Bytes, items => Items, all => All, file => File,
      rolls => {Open, Info}, hold => hold(Hold)}.

hold(<<0>>) -> none;
hold(<<1, Blocks:32>>) -> Blocks.

texts_in(0, <<>>) -> [];
texts_in(Count, Rest) ->
    {Text, Others} = take_text(Rest),
    [Text | texts_in(Count - 1, Others)].

take_text(<<Length, Text:Length/binary, Rest/binary>>) -> {Text, Rest}.

take_size(<<0, Rest/binary>>) -> {infinity, Rest};
take_size(<<1, Bytes:64, Rest/binary>>) -> {Bytes, Rest};
take_size(<<2, Bytes:64, Files:32, Rest/binary>>) -> {{Bytes, Files}, Rest}.

items_in(<<_Count:32, Rest/binary>>) ->
    [Item || <<Length:32, Item:Length/binary>> <= Rest].
