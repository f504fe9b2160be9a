// Scala's own reading, by the parser of its compiler.
import scala.reflect.runtime.currentMirror
import scala.reflect.runtime.universe.{Constant, Literal}
import scala.tools.reflect.ToolBox

object Reader {
  val parser = currentMirror.mkToolBox()

  // a minus is a part of a literal there, and a suffix isn't one of the form
  def answer(text: String): String =
    if (text.isEmpty || !(text.head.isDigit || text.head == '.') || "lLfFdD".contains(text.last) &&
      !text.toLowerCase.startsWith("0x") || text.toLowerCase.endsWith("l")) "-"
    else try parser.parse(text) match {
      case Literal(Constant(value: Int)) => s"i$value"
      case Literal(Constant(value: Double)) => f"f${java.lang.Double.doubleToLongBits(value)}%x"
      case _ => "-"
    } catch {
      case _: Throwable => "-"
    }

  def main(arguments: Array[String]): Unit =
    for (text <- scala.io.Source.stdin.getLines) println(answer(text))
}
