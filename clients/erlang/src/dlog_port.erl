%% The logs of a node, and the servers of their folders. It starts a server with the first log of a folder, and again after its end
%% if the program wants that (dlog_program:setting(restart)).
-module(dlog_port).
-behaviour(gen_server).

-export([find/1, all/0, open_logs/0, reason/1, open/3, call/3, send/3, sync_all/1, resized/2, keep/2, notify/2, stop/1]).
-export([init/1, handle_call/3, handle_cast/2, handle_info/2]).

-export_type([log/0]).

%% A server that ends sooner is not started again.
-define(LEAST_LIFE, 1000).
%% What a frame has beside the parts of a call and the name of its log.
-define(FRONT, 10).

%% An open log, as the table dlog_logs has it beside its name and how it is called.
-type log() :: #{folder := file:filename(), file := file:filename(), type := halt | wrap,
                 owners := [{pid(), boolean()}], users := non_neg_integer(), _ => _}.

%% What came of a call, beside what the server says.
-type failure() :: {stopped, term()} | {not_started, term()} | {too_long, non_neg_integer(), pos_integer()} | timeout.

-record(state, {folders = #{} :: #{file:filename() => {pid(), Since :: integer()}}}).

%% What is known of an open log.
-spec find(term()) -> {ok, log()} | error.
find(Log) ->
    try {ok, ets:lookup_element(dlog_logs, Log, 3)} catch error:badarg -> error end.

-spec all() -> [term()].
all() ->
    try ets:select(dlog_logs, [{{'$1', '_', '_'}, [], ['$1']}]) catch error:badarg -> [] end.

%% The logs that the servers have open.
-spec open_logs() -> [term()].
open_logs() ->
    Known = [{Server, Wire, Log} || Log <- all(), {ok, #{server := Server, wire := Wire}} <- [find(Log)]],
    Open = [{Server, Wire} || Server <- lists:usort([Its || {Its, _, _} <- Known]), {logs, Wires} <- [ask(Server, logs, infinity)], Wire <- Wires],
    [Log || {Server, Wire, Log} <- Known, lists:member({Server, Wire}, Open)].

%% Why the last call of the device that failed did, of the folder of a log.
-spec reason(term()) -> {reason, none | {binary(), term()}} | {refused, 2, none} | failure().
reason(Log) ->
    case find(Log) of
        {ok, #{server := Server, timeout := Timeout}} -> ask(Server, reason, Timeout);
        error -> {refused, 2, none}
    end.

%% Notes what is known of a log now, or, if nobody has a part in it, that it is closed.
-spec keep(term(), log()) -> true.
keep(Log, #{owners := [], users := 0}) -> ets:delete(dlog_logs, Log);
keep(Log, #{server := Server, wire := Wire, timeout := Timeout, limit := Limit} = Known) ->
    ets:insert(dlog_logs, {Log, {Server, Wire, Timeout, Limit}, Known}).

%% Opens a log of a folder: its options, and the parts that they are in a request.
-spec open(term(), map(), iodata()) -> term() | failure().
open(Log, #{folder := Folder, timeout := Timeout} = Given, Parts) ->
    Server = gen_server:call(registry(), {server, Folder}, infinity),
    ask(Server, {open, Log, Given, Parts}, Timeout).

%% Makes a call on an open log, and waits for its answer.
-spec call(term(), byte(), iodata()) -> term() | failure().
call(Log, Number, Parts) ->
    try ets:lookup_element(dlog_logs, Log, 2) of
        {Server, Wire, Timeout, Limit} ->
            case too_long(Wire, Parts, Limit) of
                false -> ask(Server, {call, Wire, Number, text(Wire, Parts)}, Timeout);
                Long -> Long
            end
    catch
        error:badarg -> {refused, 2, none}
    end.

%% Makes a call on an open log whose answer is not wanted.
-spec send(term(), byte(), iodata()) -> ok | term() | failure().
send(Log, Number, Parts) ->
    try ets:lookup_element(dlog_logs, Log, 2) of
        {Server, Wire, _, Limit} ->
            case too_long(Wire, Parts, Limit) of
                false -> gen_server:cast(Server, {send, self(), Number, text(Wire, Parts)});
                Long -> Long
            end
    catch
        error:badarg -> {refused, 2, none}
    end.

%% What a call says of its log, as one binary: many callers do at a time what would hold up the server.
text(Wire, Parts) ->
    iolist_to_binary([dlog_frame:text(Wire) | Parts]).

%% Has logs on the device, by one call to the server of each folder. Returns those that are not, with what their syncs were answered.
-spec sync_all([term()]) -> [{term(), term() | failure()}].
sync_all(Logs) ->
    Known = [{Log, find(Log)} || Log <- Logs],
    Open = [{Server, {Log, Wire, Limit}} || {Log, {ok, #{server := Server, wire := Wire, limit := Limit}}} <- Known],
    Closed = [{Log, {refused, 2, none}} || {Log, error} <- Known],
    Closed ++ lists:append([synced(Server, proplists:get_all_values(Server, Open)) || Server <- proplists:get_keys(Open)]).

synced(Server, [{_, _, Limit} | _] = Logs) ->
    Names = dlog_frame:texts([Wire || {_, Wire, _} <- Logs]),
    Said = case too_long(<<>>, Names, Limit) of
               false -> ask(Server, {sync_all, Names}, infinity);
               Long -> Long
           end,
    case Said of
        {unsynced, Left} -> [{Log, Why} || {Wire, Why} <- Left, {Log, Its, _} <- Logs, Its =:= Wire];
        Failed -> [{Log, Failed} || {Log, _, _} <- Logs]
    end.

%% Notes the size that a log was given.
-spec resized(term(), term()) -> ok.
resized(Log, Size) ->
    case find(Log) of
        {ok, #{server := Server}} -> gen_server:cast(Server, {resized, Log, Size});
        error -> ok
    end.

too_long(Wire, Parts, Limit) ->
    case ?FRONT + byte_size(Wire) + iolist_size(Parts) of
        Bytes when Bytes > Limit -> {too_long, Bytes, Limit};
        _ -> false
    end.

%% Sends the owners of a log that want notices one.
-spec notify(term(), term()) -> ok.
notify(Log, What) ->
    case find(Log) of
        {ok, #{owners := Owners}} -> [Owner ! {disk_log, node(), Log, What} || {Owner, true} <- Owners], ok;
        error -> ok
    end.

%% Closes the logs, and ends the servers. Returns the folders in which something could not be written.
-spec stop(timeout()) -> [file:filename()].
stop(Timeout) ->
    case whereis(?MODULE) of
        undefined -> [];
        _ -> gen_server:call(?MODULE, {stop, Timeout}, infinity)
    end.

%% A server that ends while it is asked is the answer to all that wait for it.
ask(Server, Request, Timeout) ->
    try
        gen_server:call(Server, Request, Timeout)
    catch
        exit:{timeout, _} -> timeout;
        exit:{{shutdown, {_, _} = Why}, _} -> Why;
        exit:{Why, _} -> {stopped, Why}
    end.

registry() ->
    case whereis(?MODULE) of
        undefined ->
            case gen_server:start({local, ?MODULE}, ?MODULE, [], []) of
                {ok, Pid} -> Pid;
                {error, {already_started, Pid}} -> Pid
            end;
        Pid -> Pid
    end.

init([]) ->
    dlog_logs = ets:new(dlog_logs, [named_table, public, {read_concurrency, true}]),
    {ok, #state{}}.

handle_call({server, Folder}, _, State) ->
    #state{folders = Folders} = Living = without_dead(Folder, State),
    case Folders of
        #{Folder := {Server, _}} -> {reply, Server, Living};
        #{} -> {Server, New} = start(Folder, Living), {reply, Server, New}
    end;
handle_call({stop, Timeout}, _, #state{folders = Folders}) ->
    Stops = [{Folder, spawn_monitor(fun() -> exit({said, dlog_server:stop(Server, Timeout)}) end)}
             || {Folder, {Server, _}} <- maps:to_list(Folders)],
    Ends = [{Folder, receive {'DOWN', Monitor, process, _, How} -> How end} || {Folder, {_, Monitor}} <- Stops],
    {stop, normal, [Folder || {Folder, How} <- Ends, How =/= {said, ok}], #state{}}.

handle_cast(_, State) ->
    {noreply, State}.

handle_info({'DOWN', _, process, Server, Why}, State) ->
    {noreply, ended(Server, Why, State)};
handle_info(_, State) ->
    {noreply, State}.

%% A server may have ended and be asked for before its end is heard of.
without_dead(Folder, #state{folders = Folders} = State) ->
    case Folders of
        #{Folder := {Server, _}} ->
            case is_process_alive(Server) of
                true -> State;
                false -> receive {'DOWN', _, process, Server, Why} -> ended(Server, Why, State) end
            end;
        #{} -> State
    end.

start(Folder, #state{folders = Folders} = State) ->
    {ok, Server} = gen_server:start(dlog_server, {Folder, logs_of(Folder)}, []),
    erlang:monitor(process, Server),
    {Server, State#state{folders = Folders#{Folder => {Server, erlang:monotonic_time(millisecond)}}}}.

%% The logs that are open in a folder, or were as its server ended.
logs_of(Folder) ->
    [{Log, Known} || {Log, _, #{folder := Its} = Known} <- ets:tab2list(dlog_logs), Its =:= Folder].

%% The logs of a server that has ended are closed, if it is not started again. Their owners are notified.
ended(Server, Why, #state{folders = Folders} = State) ->
    case [{Folder, Since} || {Folder, {Its, Since}} <- maps:to_list(Folders), Its =:= Server] of
        [{Folder, Since}] ->
            Logs = logs_of(Folder),
            [notify(Log, {error, {dlog_stopped, status(Why)}}) || {Log, _} <- Logs],
            Left = State#state{folders = maps:remove(Folder, Folders)},
            Age = erlang:monotonic_time(millisecond) - Since,
            case Age >= ?LEAST_LIFE andalso Logs =/= [] andalso dlog_program:setting(restart) of
                true -> element(2, start(Folder, Left));
                false -> [ets:delete(dlog_logs, Log) || {Log, _} <- Logs], Left
            end;
        [] -> State
    end.

status({shutdown, {_, Status}}) -> Status;
status(Why) -> Why.
