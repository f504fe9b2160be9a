# Ruby's own readings: RUBY, one literal, by its lexer and by eval; RUBY_FLOAT, by Float.
require 'ripper'
$VERBOSE = nil

def answer(text)
  tokens = Ripper.lex("#{text}\n")
  is_one = tokens.length == 2 && tokens[0][2] == text && %i[on_int on_float].include?(tokens[0][1])
  value = eval(text) if is_one
  case value
  when Integer then "i#{value}"
  when Float then "f#{[value].pack('G').unpack1('H*')}"
  else '-'
  end
rescue SyntaxError
  '-'
end

# each number is a float
def answer_of_float(text)
  "d#{[Float(text)].pack('G').unpack1('H*')}"
rescue ArgumentError
  '-'
end

alias answer answer_of_float if ENV['FORM'] == 'RUBY_FLOAT'
STDIN.each_line(chomp: true) { |text| puts answer(text) }
