# Nim's own reading, by its parser, while this is compiled: a line of the file `texts` for each.
import std/[macros, strutils]

macro answers(): untyped =
  for text in staticRead("texts").splitLines:
    try:
      # a suffix isn't of the form, and what follows # is a comment
      let node = parseExpr(if text.contains({'i', 'u', '#'}): "" else: text)
      case node.kind
      # a hexadecimal one of 64 bits is negative
      of nnkIntLit, nnkInt64Lit: echo (if node.intVal < 0: "i?" else: "i" & $node.intVal)
      of nnkFloatLit: echo "f", toHex(cast[uint64](node.floatVal))
      else: echo "-"
    except ValueError:
      echo "-"

answers()
