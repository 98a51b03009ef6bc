%% The program of a server: how it is set, started and ended.
-module(dlog_program).

-export([setting/1, start/1, why_not/1, end_of/2]).

-define(LOOK_AGAIN, 10).
%% The program ignores what is meant to end the node, and a limit on the size of files, which is an error then.
-define(SPARED, "trap '' TERM INT HUP XFSZ; exec \"$0\" \"$@\"").

%% A setting of the application dlog, or of the environment.
-spec setting(program | blocks | unsynced_rolls | wait | restart) -> term().
setting(program) -> setting(program, "DLOG_PROGRAM", fun(Text) -> Text end, "dlog");
setting(blocks) -> setting(blocks, "DLOG_BLOCKS", fun list_to_integer/1, 256);
setting(unsynced_rolls) -> setting(unsynced_rolls, "DLOG_UNSYNCED_ROLLS", fun is_true/1, false);
setting(wait) -> setting(wait, "DLOG_WAIT", fun list_to_integer/1, 0);
setting(restart) -> setting(restart, "DLOG_RESTART", fun is_true/1, false).

setting(Key, Variable, Read, Default) ->
    case {application:get_env(dlog, Key), os:getenv(Variable)} of
        {{ok, Value}, _} -> Value;
        {undefined, false} -> Default;
        {undefined, Text} -> Read(Text)
    end.

is_true(Text) -> Text =:= "true".

%% Starts the program over a folder. It is in a session of its own, as all programs of ports.
-spec start(file:filename()) -> {ok, port()} | {error, term()}.
start(Folder) ->
    Name = setting(program),
    case os:find_executable(Name) of
        false -> {error, {no_program, Name}};
        Path ->
            try
                {ok, open_port({spawn_executable, "/bin/sh"},
                               [{args, ["-c", ?SPARED, Path | arguments(Folder)]}, stream, binary, exit_status])}
            catch
                error:Why -> {error, {no_program, Name, Why}}
            end
    end.

arguments(Folder) ->
    Rolls = case setting(unsynced_rolls) of true -> ["--unsynced-rolls"]; false -> [] end,
    ["serve", "--folder", Folder, "--blocks", integer_to_list(setting(blocks)) | Rolls].

%% Why the program did not serve, in its own words: it is started once more, without input.
-spec why_not(file:filename()) -> string().
why_not(Folder) ->
    Words = [os:find_executable(setting(program)) | arguments(Folder)],
    string:trim(os:cmd(lists:flatten(lists:join(" ", [quoted(Word) || Word <- Words])) ++ " </dev/null")).

quoted(Word) ->
    ["'", string:replace(Word, "'", "'\\''", all), "'"].

%% Ends the input of the program, and waits for its end, so that another may use the folder.
-spec end_of(port(), timeout()) -> ok | timeout.
end_of(Port, Timeout) ->
    case erlang:port_info(Port, os_pid) of
        {os_pid, Process} ->
            port_close(Port),
            wait_for(Process, Timeout);
        undefined -> ok
    end.

wait_for(_, Left) when is_integer(Left), Left < 0 -> timeout;
wait_for(Process, Left) ->
    case os:cmd(io_lib:format("kill -0 ~b 2>&1", [Process])) of
        "" -> timer:sleep(?LOOK_AGAIN), wait_for(Process, less(Left));
        _ -> ok
    end.

less(infinity) -> infinity;
less(Left) -> Left - ?LOOK_AGAIN.
