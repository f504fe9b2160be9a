import java.io.BufferedReader;
import java.io.InputStreamReader;
import java.util.Set;
import org.jetbrains.kotlin.lexer.KotlinLexer;
import org.jetbrains.kotlin.lexer.KtTokens;

/** Kotlin's tokens: whether a text is one number. And the constants x0, x1, .. of classes. */
class Kotlin {
    static String isOne(String text) {
        var kinds = Set.of(KtTokens.INTEGER_LITERAL, KtTokens.FLOAT_LITERAL);
        var lexer = new KotlinLexer();
        lexer.start(text);
        boolean is = kinds.contains(lexer.getTokenType()) && lexer.getTokenEnd() == text.length();
        return is ? "+" : "-";
    }

    static String value(String name) throws Exception {
        var field = Class.forName(name.split(" ")[0]).getDeclaredField(name.split(" ")[1]);
        field.setAccessible(true);
        Object value = field.get(null);
        if (!(value instanceof Double)) return "i" + value;
        return "f" + Long.toHexString(Double.doubleToRawLongBits((Double) value));
    }

    public static void main(String[] words) throws Exception {
        var lines = new BufferedReader(new InputStreamReader(System.in));
        var out = new StringBuilder();
        for (String line; (line = lines.readLine()) != null; ) {
            out.append(words[0].equals("token") ? isOne(line) : value(line)).append('\n');
        }
        System.out.print(out);
    }
}
