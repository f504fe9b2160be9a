# Elixir's own reading, by its parser.
defmodule Reader do
  def answer(text) do
    case text =~ ~r/^[0-9][\w.+-]*$/ and Code.string_to_quoted(text) do
      {:ok, value} when is_integer(value) -> "i#{value}"
      {:ok, value} when is_float(value) -> "f" <> Base.encode16(<<value::float>>, case: :lower)
      _ -> "-"
    end
  rescue
    _ -> "-"
  end
end

for line <- IO.stream(:stdio, :line), do: IO.puts(Reader.answer(String.trim_trailing(line, "\n")))
