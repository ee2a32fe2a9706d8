%% What the nodes of real_erlang.py run: applications that do nothing, and a loop that takes orders from standard input.
-module(stage).
-behaviour(application).
-behaviour(supervisor).
-export([start/2, stop/1, init/1, listen/0]).

%% An application whose start takes so long, and fails at a node that was told so. While it runs its name is registered.
start(_How, [Name, Milliseconds]) ->
    timer:sleep(Milliseconds),
    case lists:member(Name, application:get_env(stage, fails, [])) of
        true -> {error, as_told};
        false -> supervisor:start_link({local, Name}, ?MODULE, [])
    end.

stop(_) ->
    ok.

init([]) ->
    {ok, {#{}, []}}.

listen() ->
    spawn(fun orders/0).

%% Orders come until standard input ends, and then the node ends.
orders() ->
    case io:get_line("") of
        eof -> halt();
        Line -> obey(string:trim(Line)), orders()
    end.

%% Names are looked up where they are registered, because controllers that hang answer no question.
obey("where " ++ Names) ->
    tell("where", [Name || Name <- string:lexemes(Names, " "), whereis(list_to_atom(Name)) =/= undefined]);
obey("start " ++ Names) ->
    obey("start-as temporary " ++ Names);
obey("start-as " ++ Words) ->
    [Type | Names] = string:lexemes(Words, " "),
    spawn(fun() ->
        [application:start(list_to_atom(Name), list_to_atom(Type)) || Name <- Names],
        tell("started", [])
    end);
obey("fails" ++ Names) ->
    application:set_env(stage, fails, [list_to_atom(Name) || Name <- string:lexemes(Names, " ")]);
obey("nodes") ->
    tell("nodes", [atom_to_list(Node) || Node <- nodes()]);
obey("eval " ++ Text) ->
    {ok, Tokens, _} = erl_scan:string(Text),
    {ok, Expressions} = erl_parse:parse_exprs(Tokens),
    erl_eval:exprs(Expressions, []),
    tell("evaluated", []).

tell(What, Words) ->
    io:format("stage ~ts~n", [lists:join(" ", [What | Words])]).
