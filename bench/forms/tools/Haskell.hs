-- Haskell's own reading: one token, by GHC's lexer.
import Data.Char (isDigit)
import GHC.Data.EnumSet (empty, fromList)
import GHC.Data.FastString (fsLit)
import GHC.Data.StringBuffer (stringToStringBuffer)
import GHC.Float (castDoubleToWord64)
import GHC.LanguageExtensions.Type (Extension (..))
import GHC.Parser.Lexer
import GHC.Types.Basic (FractionalLit (..), IntegralLit (..))
import GHC.Types.SrcLoc
import GHC.Unit.Types (stringToUnitId)
import Numeric (showHex)

flags :: ParserFlags
flags = mkParserFlags' empty extensions (stringToUnitId "") False False False False
  where extensions = fromList [BinaryLiterals, HexFloatLiterals, NumericUnderscores]

-- GHC computes the exponent at once: zeros for all of its digits but the last three.
shorten :: String -> String
shorten text = mantissa ++ reverse (last3 ++ map zero others)
  where
    marks = if take 2 text `elem` ["0x", "0X"] then "pP" else "eE"
    (mantissa, exponent) = break (`elem` marks) text
    (last3, others) = splitAt 3 (reverse exponent)
    zero c = if isDigit c then '0' else c

answer :: String -> String
answer text = case unP (lexer False return) state of
    POk _ (L (RealSrcSpan span _) token) | srcSpanEndCol span == length text + 1 -> value token
    _ -> "-"
  where
    short = shorten text
    state = mkPStatePure flags (stringToStringBuffer short) (mkRealSrcLoc (fsLit "") 1 1)
    value (ITinteger it) = 'i' : show (il_value it)
    value (ITrational it)
        | short /= text = "f?"
        | otherwise = 'f' : showHex (castDoubleToWord64 (fromRational (fl_value it))) ""
    value _ = "-"

main :: IO ()
main = interact (unlines . map answer . lines)
