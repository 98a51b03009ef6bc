%% The process of a folder: its program `dlog serve`, and who waits for which answer. It ends with its program, which all learn who
%% wait for it.
-module(dlog_server).
-behaviour(gen_server).

-export([stop/2]).
-export([init/1, handle_continue/2, handle_call/3, handle_cast/2, handle_info/2, terminate/2]).

-define(FLUSH_AFTER, 2000).
-define(TRY_AGAIN, 50).
-define(VERSION, 4).
-define(HELLO, 0).
-define(OPEN, 1).
-define(CLOSE, 14).
-define(EXIT, 15).
-define(FLUSH_ALL, 17).
-define(SYNC_ALL, 18).
-define(REASON, 19).
-define(LOGS, 20).

%% What becomes of the logs' names by an answer: none, or the name of a log that is closed.
-type change() :: none | {closed, binary()}.

-record(state, {folder :: file:filename(),
                port = none :: port() | none,
                limit = 0 :: non_neg_integer(),
                unread = <<>> :: binary(),
                unsent = [] :: iodata(),
                waiting = #{} :: #{pos_integer() => {gen_server:from() | none, fun((term()) -> change())}},
                tag = 0 :: non_neg_integer(),
                names = #{} :: #{binary() => term()},
                clients = #{} :: #{pid() => {pos_integer(), reference()}},
                pids = #{} :: #{pos_integer() => pid()},
                timer = none :: none | reference()}).

%% Has all that waits written and ends the program. Reports whether it is written.
-spec stop(pid(), timeout()) -> ok | {error, term()}.
stop(Server, Timeout) ->
    try
        Said = gen_server:call(Server, leave, Timeout),
        ok = gen_server:stop(Server, {shutdown, Timeout}, infinity),
        case Said of {turn, idle} -> ok; _ -> {error, Said} end
    catch
        exit:Why -> exit(Server, kill), {error, Why}
    end.

init({Folder, Logs}) ->
    process_flag(trap_exit, true),
    [dlog_port:keep(Log, Known#{server := self()}) || {Log, Known} <- Logs],
    {ok, #state{folder = Folder}, {continue, {start, Logs}}}.

%% Nothing is taken in hand before the server has said its hello, and the logs are open that were.
handle_continue({start, Logs}, #state{folder = Folder} = State) ->
    case started(Folder, erlang:monotonic_time(millisecond) + dlog_program:setting(wait)) of
        {ok, Port, Limit, Unread} -> sent(open_again(Logs, State#state{port = Port, limit = Limit, unread = Unread}));
        {error, Why} -> {stop, {shutdown, {not_started, Why}}, State}
    end.

started(Folder, Until) ->
    case dlog_program:start(Folder) of
        {ok, Port} ->
            port_command(Port, dlog_frame:frame(1, ?HELLO, <<?VERSION:16>>)),
            case greeted(Port, <<>>) of
                {status, Status} -> not_started(Folder, Status, Until);
                Greeted -> Greeted
            end;
        Error -> Error
    end.

greeted(Port, Read) ->
    case dlog_frame:split(Read) of
        {[Hello], Rest} -> greeted(Port, dlog_frame:answer(Hello), Rest);
        {[], _} ->
            receive
                {Port, {data, More}} -> greeted(Port, <<Read/binary, More/binary>>);
                {Port, {exit_status, Status}} -> {status, Status};
                {'EXIT', Port, Why} -> {status, Why}
            end
    end.

greeted(Port, {1, {hello, ?VERSION, Limit, _}}, Rest) ->
    {ok, Port, Limit, Rest};
greeted(Port, {1, {hello, Version, _, _}}, _) ->
    port_close(Port),
    Form = "the server speaks version ~b of the frames, and this client version ~b",
    {error, lists:flatten(io_lib:format(Form, [Version, ?VERSION]))}.

%% The status is 1 if the folder is in use, or not there.
not_started(Folder, Status, Until) ->
    case {dlog_program:why_not(Folder), erlang:monotonic_time(millisecond) < Until} of
        {"", true} -> started(Folder, Until);
        {_, true} when Status =:= 1 -> timer:sleep(?TRY_AGAIN), not_started(Folder, Status, Until);
        {"", false} -> {error, {status, Status}};
        {Words, _} -> {error, Words}
    end.

%% Opens the logs that were open, for those who had a part in them.
open_again(Logs, State) ->
    lists:foldl(fun({Log, #{owners := Owners, users := Users} = Known}, Next) ->
                        Parts = [{Owner, Notify} || {Owner, Notify} <- Owners] ++ lists:duplicate(Users, none),
                        lists:foldl(fun(Part, Then) -> open_for(Part, Log, Known, Then) end, Next, Parts)
                end, State, Logs).

open_for(Part, Log, Known, State) ->
    {To, Notify} = case Part of none -> {none, false}; _ -> Part end,
    Given = dlog_options:again(Known#{linkto := To, notify := Notify}),
    Opener = case To of none -> self(); _ -> To end,
    Wire = dlog_options:wire_name(Log),
    Report = fun(Said) -> opened_again(Said, Wire, Log, Part) end,
    {Client, Next} = client_of(Opener, State),
    Text = [<<Client:32>>, dlog_frame:text(Wire), dlog_options:parts(Given)],
    #state{names = Names} = Sent = request(?OPEN, Text, {none, Report}, Next),
    Sent#state{names = Names#{Wire => Log}}.

opened_again(Said, Wire, Log, {Owner, Notify}) ->
    Notify andalso (Owner ! {disk_log, node(), Log, {dlog_restarted, dlog_reason:restarted(Log, Said)}}),
    case is_open(Said) of true -> none; false -> left_by(Owner, Wire, Log) end;
opened_again(_, _, _, none) ->
    none.

handle_call({open, Log, #{linkto := To} = Given, Parts}, {Caller, _} = From, #state{names = Names, limit = Limit} = State) ->
    {Client, Known} = client_of(case To of none -> Caller; _ -> To end, State),
    Wire = dlog_options:wire_name(Log),
    Text = [<<Client:32>>, dlog_frame:text(Wire), Parts],
    Note = fun(Said) -> opened(Said, Log, Given#{server => self(), wire => Wire, limit => Limit}) end,
    sent(request(?OPEN, Text, {From, Note}, Known#state{names = Names#{Wire => Log}}));
handle_call({call, Wire, Number, Text}, {Pid, _} = From, State) ->
    {Client, Known} = client_of(Pid, State),
    sent(request(Number, [<<Client:32>> | Text], {From, note(Number, Wire, Pid, State)}, Known));
handle_call({sync_all, Names}, {Pid, _} = From, State) ->
    {Client, Known} = client_of(Pid, State),
    sent(request(?SYNC_ALL, [<<Client:32>>, Names], {From, fun none/1}, Known));
handle_call(reason, From, State) ->
    sent(request(?REASON, [], {From, fun none/1}, State));
handle_call(logs, From, State) ->
    sent(request(?LOGS, [], {From, fun none/1}, State));
handle_call(leave, From, #state{clients = Clients} = State) ->
    Left = lists:foldl(fun({Client, _}, Next) -> write(0, ?EXIT, <<Client:32>>, Next) end, State, maps:values(Clients)),
    sent(request(?FLUSH_ALL, [], {From, fun none/1}, Left)).

handle_cast({resized, Log, Size}, State) ->
    case dlog_port:find(Log) of
        {ok, Known} -> dlog_port:keep(Log, Known#{size := Size});
        error -> closed
    end,
    sent(State);
handle_cast({send, Pid, Number, Text}, State) ->
    {Client, Known} = client_of(Pid, State),
    sent(will_flush(write(0, Number, [<<Client:32>> | Text], Known))).

handle_info(timeout, #state{port = Port, unsent = Unsent} = State) ->
    try port_command(Port, Unsent) catch error:badarg -> ended end,
    {noreply, State#state{unsent = []}};
handle_info({Port, {data, Data}}, #state{port = Port, unread = Unread} = State) ->
    {Texts, Rest} = dlog_frame:split(case Unread of <<>> -> Data; _ -> <<Unread/binary, Data/binary>> end),
    sent(lists:foldl(fun(Text, Next) -> said(dlog_frame:answer(Text), Next) end, State#state{unread = Rest}, Texts));
handle_info({Port, {exit_status, Status}}, #state{port = Port} = State) ->
    {stop, {shutdown, {stopped, Status}}, State};
handle_info({'EXIT', Port, Why}, #state{port = Port} = State) ->
    {stop, {shutdown, {stopped, Why}}, State};
handle_info(flush, State) ->
    sent(write(0, ?FLUSH_ALL, [], State#state{timer = none}));
handle_info({'DOWN', _, process, Pid, _}, State) ->
    sent(left(Pid, State));
handle_info(_, State) ->
    sent(State).

%% The end of its input has the program close its logs.
terminate({shutdown, {stopped, _}}, _) -> ok;
terminate(_, #state{port = none}) -> ok;
terminate({shutdown, Timeout}, #state{port = Port}) -> dlog_program:end_of(Port, Timeout);
terminate(_, #state{port = Port}) -> port_close(Port).

%% What is to be sent is written once no request waits, so that those of many processes are written together.
sent(#state{unsent = []} = State) -> {noreply, State};
sent(State) -> {noreply, State, 0}.

%% The number of a process as a client, which leaves as the process ends.
client_of(Pid, #state{clients = Clients, pids = Pids} = State) ->
    case Clients of
        #{Pid := {Client, _}} -> {Client, State};
        #{} ->
            Client = erlang:unique_integer([positive]) rem 16#ffffffff + 1,
            Entry = {Client, erlang:monitor(process, Pid)},
            {Client, State#state{clients = Clients#{Pid => Entry}, pids = Pids#{Client => Pid}}}
    end.

request(Number, Text, Asked, #state{tag = Last, waiting = Waiting} = State) ->
    Tag = Last rem 16#ffffffff + 1,
    will_flush(write(Tag, Number, Text, State#state{tag = Tag, waiting = Waiting#{Tag => Asked}})).

write(Tag, Number, Text, #state{unsent = Unsent} = State) ->
    State#state{unsent = [Unsent | dlog_frame:frame(Tag, Number, Text)]}.

%% What waits is written some time after a request.
will_flush(#state{timer = none} = State) -> State#state{timer = erlang:send_after(?FLUSH_AFTER, self(), flush)};
will_flush(State) -> State.

said({notice, Client, Wire, Notice}, #state{pids = Pids, names = Names} = State) ->
    case {Pids, Names} of
        {#{Client := Pid}, #{Wire := Log}} -> Pid ! {disk_log, node(), Log, dlog_reason:told(Log, Notice)};
        _ -> ignored
    end,
    State;
said({Tag, Said}, #state{waiting = Waiting} = State) ->
    case maps:take(Tag, Waiting) of
        {{From, Note}, Others} ->
            Changed = changed(Note(Said), State#state{waiting = Others}),
            From =/= none andalso gen_server:reply(From, Said),
            Changed;
        error -> State
    end.

none(_) -> none.

changed(none, State) -> State;
changed({closed, Wire}, #state{names = Names} = State) -> State#state{names = maps:remove(Wire, Names)}.

%% Who has a part in a log, kept as the server keeps it.
opened(Said, Log, #{wire := Wire} = Given) ->
    case {is_open(Said), dlog_port:find(Log)} of
        {true, {ok, Known}} -> dlog_port:keep(Log, joined(Known, Given)), none;
        {true, error} -> dlog_port:keep(Log, joined(Given#{owners => [], users => 0}, Given)), none;
        {false, {ok, _}} -> none;
        {false, error} -> {closed, Wire}
    end.

is_open(Said) ->
    Said =:= opened orelse (is_tuple(Said) andalso element(1, Said) =:= repaired).

joined(#{users := Users} = Entry, #{linkto := none, timeout := Timeout}) -> Entry#{users := Users + 1, timeout := Timeout};
joined(#{owners := Owners} = Entry, #{linkto := Pid, notify := Notify, timeout := Timeout}) ->
    Entry#{owners := lists:keystore(Pid, 1, Owners, {Pid, Notify}), timeout := Timeout}.

%% What is noted of the answer to a call.
note(?CLOSE, Wire, Pid, #state{names = Names}) ->
    fun(done) -> left_by(Pid, Wire, maps:get(Wire, Names)); (_) -> none end;
note(_, _, _, _) ->
    fun none/1.

left_by(Pid, Wire, Log) ->
    case dlog_port:find(Log) of
        {ok, Entry} ->
            dlog_port:keep(Log, without(Pid, Entry)),
            case dlog_port:find(Log) of {ok, _} -> none; error -> {closed, Wire} end;
        error -> {closed, Wire}
    end.

without(Pid, #{owners := Owners, users := Users} = Entry) ->
    case lists:keymember(Pid, 1, Owners) of
        true -> Entry#{owners := lists:keydelete(Pid, 1, Owners)};
        false -> Entry#{users := Users - 1}
    end.

left(Pid, #state{clients = Clients, pids = Pids, names = Names} = State) ->
    case maps:take(Pid, Clients) of
        {{Client, _}, Others} ->
            Changes = [left_by(Pid, Wire, Log) || {Wire, Log} <- maps:to_list(Names), owns(Pid, Log)],
            Known = lists:foldl(fun changed/2, State#state{clients = Others, pids = maps:remove(Client, Pids)}, Changes),
            write(0, ?EXIT, <<Client:32>>, Known);
        error -> State
    end.

owns(Pid, Log) ->
    case dlog_port:find(Log) of
        {ok, #{owners := Owners}} -> lists:keymember(Pid, 1, Owners);
        error -> false
    end.
