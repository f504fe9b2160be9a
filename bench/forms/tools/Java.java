import com.sun.tools.javac.parser.ScannerFactory;
import com.sun.tools.javac.parser.Tokens.Token;
import com.sun.tools.javac.parser.Tokens.TokenKind;
import com.sun.tools.javac.util.Context;
import com.sun.tools.javac.util.Log;
import java.io.BufferedReader;
import java.io.InputStreamReader;
import java.io.PrintWriter;
import java.math.BigInteger;
import java.net.URI;
import java.util.regex.Pattern;
import javax.tools.JavaFileObject;
import javax.tools.SimpleJavaFileObject;

/** Java's own readings: JAVA by javac's lexer, JAVA_PARSE_DOUBLE by Double.parseDouble. */
class Java {
    static final Pattern SUFFIX = Pattern.compile("[^xX]*[dDfF]|.*[pP].*[dDfF]");
    static Context context = new Context();
    static Log log = Log.instance(context);
    static ScannerFactory factory;

    static String ofDouble(String text) {
        try {
            return "f" + Long.toHexString(Double.doubleToRawLongBits(Double.parseDouble(text)));
        } catch (NumberFormatException error) {
            return "-";
        }
    }

    /** Without a suffix, which isn't of the form. */
    static String parsed(String text) {
        return SUFFIX.matcher(text).matches() ? "-" : ofDouble(text);
    }

    static String literal(String text) {
        var errors = new Log.DeferredDiagnosticHandler(log);
        var scanner = factory.newScanner(text, false);
        scanner.nextToken();
        Token token = scanner.token();
        log.popDiagnosticHandler(errors);
        if (!errors.getDiagnostics().isEmpty() || token.endPos != text.length()) return "-";
        if (token.kind == TokenKind.DOUBLELITERAL) {
            String digits = (token.radix() == 16 ? "0x" : "") + token.stringVal();
            return text.matches(".*[dD]") ? "-" : ofDouble(digits);
        }
        if (token.kind != TokenKind.INTLITERAL) return "-";
        try {
            return "i" + new BigInteger(token.stringVal(), token.radix());
        } catch (NumberFormatException error) {
            return "-";
        }
    }

    public static void main(String[] words) throws Exception {
        var none = URI.create("string:///none.java");
        log.useSource(new SimpleJavaFileObject(none, JavaFileObject.Kind.SOURCE) {});
        factory = ScannerFactory.instance(context);
        boolean isDouble = "JAVA_PARSE_DOUBLE".equals(System.getenv("FORM"));
        var lines = new BufferedReader(new InputStreamReader(System.in));
        var out = new PrintWriter(System.out);
        for (String line; (line = lines.readLine()) != null; ) {
            out.println(isDouble ? parsed(line) : literal(line));
        }
        out.flush();
    }
}
