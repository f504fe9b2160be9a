<?php // PHP's own reading: one literal, by its lexer and by eval.
function answer($text) {
    $tokens = @token_get_all("<?php $text");
    if (count($tokens) != 2 || !in_array($tokens[1][0], [T_LNUMBER, T_DNUMBER])) return '-';
    try {
        $value = eval("return $text;");
    } catch (ParseError $error) {
        return '-';
    }
    return is_int($value) ? "i$value" : 'f' . bin2hex(pack('E', $value));
}

while (($line = fgets(STDIN)) !== false) echo answer(rtrim($line, "\n")), "\n";
