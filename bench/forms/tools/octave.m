% Octave's own readings: OCTAVE, of one token, by eval; STR2DOUBLE.
1;

% a sign is an operator, but after an exponent's mark; a suffix isn't of the form
function is = is_one (text)
  digits = '(?!0[xXbB])\.?[0-9](?:[\w.]|(?<=[eEdD])[+-])*';
  prefixed = '0[xXbB][0-9A-Fa-f_]*';
  is = ! isempty (regexp (text, ['^(?:', prefixed, '|', digits, '(?<![iIjJ]))$'], 'once'));
end

function said = answer (value)
  if (! isnumeric (value) || ! isscalar (value) || ! isreal (value))
    said = '-';
  elseif (isfloat (value))
    said = ['d', num2hex(value)];
  else
    said = sprintf ('i%lu', value);
  end
end

function said = literal (text)
  said = '-';
  if (is_one (text))
    try
      said = answer (eval (text));
    end
  end
end

texts = strsplit (fread (stdin, Inf, 'char=>char')', "\n")(1:end - 1);
if (strcmp (getenv ('FORM'), 'STR2DOUBLE'))
  values = str2double (texts);
  for n = 1:numel (texts)
    % what isn't a number is NaN
    is_none = isnan (values(n)) && isempty (regexpi (texts{n}, '^[-+]?nan$', 'once'));
    puts ([{answer(values(n)), '-'}{1 + is_none}, "\n"]);
  end
else
  for n = 1:numel (texts)
    puts ([literal(texts{n}), "\n"]);
  end
end
