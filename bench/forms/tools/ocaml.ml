(* OCaml's own reading: one token, by the compiler's lexer. An int has 63 bits. *)
let answer text =
  let buffer = Lexing.from_string text in
  match Lexer.token buffer with
  | exception _ -> "-"
  | token ->
    if Lexing.lexeme_end buffer <> String.length text then "-" else
    match token with
    | Parser.INT (digits, None) ->
      (match int_of_string_opt digits with
       | Some n when n >= 0 -> "i" ^ string_of_int n
       | _ -> "i?")
    | Parser.FLOAT (digits, None) ->
      Printf.sprintf "f%Lx" (Int64.bits_of_float (float_of_string digits))
    | _ -> "-"

let () =
  try
    while true do
      print_endline (answer (input_line stdin))
    done
  with End_of_file -> ()
