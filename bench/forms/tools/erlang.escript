%% Erlang's own reading, by its scanner, of the lines of the file `texts`.
-mode(compile).

main(_) ->
    {ok, Bytes} = file:read_file("texts"),
    Lines = string:split(binary_to_list(Bytes), "\n", all),
    ok = file:write_file("/dev/stdout", [[answer(It), $\n] || It <- lists:droplast(Lines)]).

answer(Text) ->
    case erl_scan:string(Text, {1, 1}, [text]) of
        {ok, [{integer, Where, Value}], _} -> whole(Where, Text, [$i, integer_to_list(Value)]);
        {ok, [{float, Where, Value}], _} -> whole(Where, Text, [$f, bits(Value)]);
        _ -> "-"
    end.

%% what is read has no `#` and no `$`, and no blank is beside it
whole(Where, Text, Answer) ->
    case erl_anno:text(Where) of
        Text -> Answer;
        _ -> "-"
    end.

bits(Value) ->
    <<Bits:64>> = <<Value/float>>,
    io_lib:format("~16.16.0b", [Bits]).
