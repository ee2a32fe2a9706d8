#!/usr/bin/env escript
%% -*- erlang -*-
%%! -noshell
%% Distributed applications with one failover time and a tuple in their lists: when their node n1 goes down, the dist_ac
%% processes of n2 and n3 can wait for each other forever. n2 has ordered the start of a2 (run_waiting) and waits in
%% collect_answers for n3's weight of a1, so it can't send dist_ac_app_started. n3 waits for that in wait_dist_start, so it
%% doesn't send its weight. README.md says more. Needs OTP 25 or later, because of peer, and no other file.
%%
%%   escript dist_ac_hang.escript            all cases, in about a minute
%%   escript dist_ac_hang.escript hang       some of hang, later, lists, apart, list, one
%%   escript dist_ac_hang.escript --pa DIR   with the dist_ac.beam of a folder in place of OTP's
%%
%% The exit status is 1 if a case hung, 0 if none did, and 2 if something else went wrong.
-mode(compile).
-define(HOST, "127.0.0.1").
-define(WATCH, 5000).   % how long after the latest failover time an application may be missing before that is a hang
-define(LOAD, 6000).    % how long the lost node may take to load its applications when it boots again

cases() ->
    Tuple = "[n1,{n2,n3}]", List = "[n1,n2,n3]",
    [{hang,  "two applications, one failover time, a tuple after the first node", [{a1, 400, Tuple}, {a2, 400, Tuple}]},
     {later, "the same, with a third one that has a later time and a plain list", [{a1, 400, Tuple}, {a2, 400, Tuple}, {a3, 2000, List}]},
     {lists, "two applications, one failover time, lists whose only common node is n1", [{a1, 400, "[n1,n2]"}, {a2, 400, "[n1,n3]"}]},
     {apart, "the first two with failover times 600 ms apart",                    [{a1, 400, Tuple}, {a2, 1000, Tuple}]},
     {list,  "two applications, one failover time, plain lists",                  [{a1, 400, List}, {a2, 400, List}]},
     {one,   "one application with a tuple",                                      [{a1, 400, Tuple}]}].

main(["--pa", Folder | Words]) -> put(pa, ["-pa", Folder]), main(Words);
main(Words) ->
    Asked = [list_to_atom(Word) || Word <- Words],
    Dir = filename:join("/tmp", "dist_ac_hang." ++ os:getpid()),
    ok = filelib:ensure_dir(filename:join(Dir, "x")),
    Port = integer_to_list(free_port()),
    os:putenv("ERL_EPMD_PORT", Port),
    os:putenv("ERL_EPMD_ADDRESS", ?HOST),
    _ = application:load(kernel),
    {ok, Kernel} = application:get_key(kernel, vsn),
    io:format("OTP ~s, erts ~s, kernel ~s~n", [erlang:system_info(otp_release), erlang:system_info(version), Kernel]),
    Status = try
        write_module(Dir),
        Results = [{Key, run(Case, Dir)} || Case = {Key, _, _} <- cases(), Asked =:= [] orelse lists:member(Key, Asked)],
        io:format("~n"),
        [io:format("~-6s ~s~n", Result) || Result <- [[Key, What] || {Key, What} <- Results]],
        case lists:keymember("hangs", 2, Results) of true -> 1; false -> 0 end
    catch Class:Error:Stack ->
        io:format("~p ~p~n~p~n", [Class, Error, Stack]),
        2
    after
        kill_all(),
        os:cmd("epmd -port " ++ Port ++ " -kill"),
        os:cmd("rm -r " ++ Dir)
    end,
    halt(Status).

free_port() ->
    {ok, Socket} = gen_tcp:listen(0, [{ip, {127, 0, 0, 1}}]),
    {ok, Port} = inet:port(Socket),
    gen_tcp:close(Socket),
    Port.

%% ---------------------------------------------------------------- one case
run({Key, What, Apps}, Dir) ->
    io:format("~n==== ~s: ~s~n", [Key, What]),
    Names = [App || {App, _, _} <- Apps],
    Config = filename:join(Dir, atom_to_list(Key)),
    Text = text_of(Apps),
    ok = file:write_file(Config ++ ".config", Text),
    io:format("~ts~n", [Text]),
    Peers = boot([n1, n2, n3], Config, Dir),
    [call(Peer, hang_app, load, [Names]) || {_, Peer} <- Peers],
    %% Each application starts on all nodes before the next one, so that starts can't meet.
    [begin [call(Peer, hang_app, start, [App]) || {_, Peer} <- Peers], wait_for(App, Peers, 100) end || App <- Names],
    [{n1, First} | Left] = Peers,
    io:format("dist_ac of n1: ~ts~n", [call(First, code, which, [dist_ac])]),
    show("all up", Names, Peers),
    [call(Peer, hang_app, trace, []) || {_, Peer} <- Left],
    Lost = erlang:system_time(microsecond),
    kill(n1),
    io:format("n1 is killed: its process ends, so the others notice at once~n"),
    timer:sleep(lists:max([Time || {_, Time, _} <- Apps]) + ?WATCH),
    show("without n1", Names, Left),
    Result = case [App || App <- Names, where(App, Left) =:= []] of
        [] -> "works";
        _ -> waits(Left), trace(Left, Lost), returns(Names, Config, Dir, Left), frees(Names, Left), "hangs"
    end,
    kill_all(),
    Result.

text_of(Apps) ->
    Entries = lists:join(",", [io_lib:format("{~s,~w,~s}", [App, Time, Nodes]) || {App, Time, Nodes} <- Apps]),
    Text = ["[{kernel,[{distributed,[", Entries, "]},{sync_nodes_optional,[n1,n2,n3]},{sync_nodes_timeout,5000},{logger_level,none}]}]."],
    re:replace(Text, "\\bn([123])\\b", "'n\\1@" ++ ?HOST ++ "'", [global, {return, list}]).

boot(Nodes, Config, Dir) ->
    Me = self(),
    Path = case get(pa) of undefined -> []; Folder -> Folder end,
    Args = Path ++ ["-config", Config, "-pa", Dir, "-setcookie", "hang", "-kernel", "inet_dist_use_interface", "{127,0,0,1}"],
    [{ok, _, _} = start(Node, Args, Me) || Node <- Nodes],
    Peers = [receive {Node, {started, _, Peer}} -> {Node, Peer} after 30000 -> exit({no_boot, Node}) end || Node <- Nodes],
    [put({pid, Node}, peer:call(Peer, os, getpid, [])) || {Node, Peer} <- Peers],
    Peers.

start(Node, Args, Me) ->
    peer:start(#{name => Node, host => ?HOST, longnames => true, connection => standard_io, wait_boot => {Me, Node},
                 shutdown => halt, args => Args}).

kill(Node) ->
    case erase({pid, Node}) of undefined -> ok; Pid -> os:cmd("kill -9 " ++ Pid) end.

kill_all() -> [kill(Node) || Node <- [n1, n2, n3]].

call(Peer, Module, Function, Args) -> peer:call(Peer, Module, Function, Args, 15000).

where(App, Peers) -> [Node || {Node, Peer} <- Peers, call(Peer, hang_app, runs, [App])].

wait_for(App, _, 0) -> exit({not_started, App});
wait_for(App, Peers, Left) ->
    case where(App, Peers) of
        [_] -> timer:sleep(300);
        _ -> timer:sleep(50), wait_for(App, Peers, Left - 1)
    end.

show(When, Names, Peers) -> [io:format("~s: ~s runs at ~w~n", [When, App, where(App, Peers)]) || App <- Names].

%% ---------------------------------------------------------------- who waits for whom
waits(Peers) ->
    io:format("~nWhere each dist_ac is, and the messages that it hasn't received:~n"),
    [begin
         [{current_stacktrace, Stack}, {messages, Messages}] = call(Peer, hang_app, look, []),
         io:format("~s~n", [Node]),
         [io:format("      ~s:~s/~w (~s:~w)~n", frame(Frame)) || Frame <- Stack],
         [io:format("    - ~0p~n", [Message]) || Message <- Messages]
     end || {Node, Peer} <- Peers].

frame({Module, Function, Arity, Place}) ->
    [Module, Function, Arity, proplists:get_value(file, Place, "?"), proplists:get_value(line, Place, 0)].

trace(Peers, Lost) ->
    io:format("~nMessages of dist_ac since the loss of n1 (microseconds, one clock):~n"),
    Traced = lists:sort([{Time - Lost, Node, What} || {Node, Peer} <- Peers, {Time, What} <- call(Peer, hang_app, traced, [])]),
    [io:format("~9w  ~s  ~s~n", [Time, Node, What]) || {Time, Node, What} <- Traced].

%% ---------------------------------------------------------------- what doesn't help, and what does
returns(Names, Config, Dir, Left) ->
    io:format("~nn1 boots again and loads its applications, as its release would do:~n"),
    [{n1, Peer}] = boot([n1], Config, Dir),
    Loaded = try peer:call(Peer, hang_app, load, [Names], ?LOAD) catch _:_ -> no_answer end,
    io:format("  n1: application:load -> ~p within ~w s~n", [Loaded, ?LOAD div 1000]),
    show("  n1 back", Names, Left),
    kill(n1),
    timer:sleep(2000),
    show("  n1 gone again", Names, Left).

frees(Names, [{n2, _}, {n3, Peer}]) ->
    io:format("~nThe loss of one of the two ends the wait of the other:~n"),
    kill(n2),
    timer:sleep(3000),
    show("  without n1 and n2", Names, [{n3, Peer}]).

%% ---------------------------------------------------------------- the application, and what looks at dist_ac
write_module(Dir) ->
    {ok, hang_app, Beam} = compile:forms(forms(source())),
    ok = file:write_file(filename:join(Dir, "hang_app.beam"), Beam).

forms(Source) ->
    {ok, Tokens, _} = erl_scan:string(Source),
    forms(Tokens, [], []).
forms([], [], Forms) -> lists:reverse(Forms);
forms([Dot = {dot, _} | Tokens], Form, Forms) ->
    {ok, Parsed} = erl_parse:parse_form(lists:reverse([Dot | Form])),
    forms(Tokens, [], [Parsed | Forms]);
forms([Token | Tokens], Form, Forms) -> forms(Tokens, [Token | Form], Forms).

source() -> "
-module(hang_app).
-export([start/2, stop/1, load/1, start/1, runs/1, look/0, trace/0, traced/0]).
start(_, _) -> {ok, spawn_link(fun() -> receive stop -> ok end end)}.
stop(_) -> ok.
load(Names) ->
    Keys = [{vsn, \"1\"}, {modules, []}, {registered, []}, {applications, [kernel, stdlib]}, {mod, {hang_app, []}}],
    [ok = application:load({application, Name, Keys}) || Name <- Names],
    ok.
start(App) -> spawn(fun() -> application:start(App) end), ok.
runs(App) -> lists:keymember(App, 1, application:which_applications()).
look() -> process_info(whereis(dist_ac), [current_stacktrace, messages]).
trace() ->
    Me = self(),
    Flags = [send, 'receive', strict_monotonic_timestamp],
    register(hang_keeper, spawn(fun() -> erlang:trace(whereis(dist_ac), true, Flags), Me ! ready, keep([]) end)),
    receive ready -> ok end.
keep(Traced) ->
    receive
        {give, To} -> To ! {traced, lists:reverse(Traced)};
        Event when element(1, Event) =:= trace_ts ->
            {Time, _} = element(tuple_size(Event), Event),
            keep([{erlang:convert_time_unit(Time + erlang:time_offset(), native, microsecond), what(Event)} | Traced]);
        _ -> keep(Traced)
    end.
what({trace_ts, _, 'receive', Message, _}) -> io_lib:format(\"got  ~0p\", [Message]);
what({trace_ts, _, send, Message, To, _}) -> io_lib:format(\"sent ~0p to ~0p\", [Message, To]);
what(Event) -> io_lib:format(\"~0p\", [Event]).
traced() ->
    hang_keeper ! {give, self()},
    receive {traced, Events} -> [{Time, lists:flatten(What)} || {Time, What} <- Events] after 5000 -> [] end.
".
