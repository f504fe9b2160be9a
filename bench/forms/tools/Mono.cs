// C#'s own readings: CSHARP by the tokenizer of Mono's compiler, CSHARP_PARSE by double.Parse.
using System;
using System.Collections.Generic;
using System.Globalization;
using System.IO;
using System.Text;
using System.Text.RegularExpressions;
using Mono.CSharp;

class Reader {
    static string Bits(double value) {
        return "f" + BitConverter.DoubleToInt64Bits(value).ToString("x16");
    }

    static string Parse(string text) {
        NumberStyles styles = NumberStyles.Float | NumberStyles.AllowThousands;
        try {
            return Bits(double.Parse(text, styles, CultureInfo.InvariantCulture));
        } catch (OverflowException) {
            return "f?";
        } catch (FormatException) {
            return "-";
        }
    }

    // says nothing, and counts what is refused
    class Counter : ReportPrinter {
        public int Count;
        public override void Print(AbstractMessage message, bool showFullPath) {
            Count += message.IsWarning ? 0 : 1;
        }
    }

    // what isn't of the form
    static readonly Regex Suffix = new Regex("[uUlL]$|^(?!0[xX]).*[dDfFmM]$");

    // the number of a token: its class isn't public
    static int Token(string name) {
        Type tokens = typeof(Tokenizer).Assembly.GetType("Mono.CSharp.Token");
        return (int)tokens.GetField(name).GetValue(null);
    }

    static string Literal(string text, Counter counter, CompilerContext context) {
        counter.Count = 0;
        Report report = new Report(context, counter);
        MemoryStream bytes = new MemoryStream(Encoding.ASCII.GetBytes(text));
        SourceFile file = new SourceFile("a", "a", 1);
        Location.Initialize(new List<SourceFile> { file });
        ModuleContainer module = new ModuleContainer(context);
        ParserSession session = new ParserSession();
        CompilationSourceFile source = new CompilationSourceFile(module, file);
        SeekableStreamReader reader =
            new SeekableStreamReader(bytes, Encoding.ASCII, session.StreamReaderBuffer);
        Tokenizer tokens = new Tokenizer(reader, source, session, report);
        bool isOne = !Suffix.IsMatch(text);
        bool isFirst = true;
        object value;
        try {
            isOne = isOne && tokens.token() == Token("LITERAL");
            value = tokens.Value;
            isFirst = false;
            isOne = isOne && tokens.token() == Token("EOF") && counter.Count == 0;
        } catch (Exception error) {
            // of the first token, not of what follows it
            return isFirst && error.Message.Contains("outside the range") ? "f?" : "-";
        }
        if (!isOne)
            return "-";
        Constant constant = value as Constant;
        object held = constant == null ? null : constant.GetValue();
        if (held is double)
            return Bits((double)held);
        return held is int || held is uint || held is long || held is ulong ? "i" + held : "-";
    }

    static void Main() {
        bool isParse = Environment.GetEnvironmentVariable("FORM") == "CSHARP_PARSE";
        Counter counter = new Counter();
        CompilerContext context = new CompilerContext(new CompilerSettings(), counter);
        StringBuilder answers = new StringBuilder();
        for (string text; (text = Console.In.ReadLine()) != null;)
            answers.Append(isParse ? Parse(text) : Literal(text, counter, context)).Append('\n');
        Console.Out.Write(answers);
    }
}
