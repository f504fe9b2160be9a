// The reading of EDN, by Clojure's own reader.
import clojure.lang.EdnReader;
import clojure.lang.PersistentHashMap;
import java.io.*;

class Edn {
    // a comma is a blank
    static String answer(String text) {
        if (text.contains(",")) {
            return "-";
        }
        PushbackReader reader = new PushbackReader(new StringReader(text));
        try {
            Object value = EdnReader.read(reader, PersistentHashMap.EMPTY);
            if (reader.read() >= 0) {
                return "-";
            }
            if (value instanceof Double) {
                return "f" + Long.toHexString(Double.doubleToLongBits((Double) value));
            }
            boolean isInteger = value instanceof Long || value instanceof clojure.lang.BigInt;
            return isInteger ? "i" + value : "-";
        } catch (Exception error) {
            return "-";
        }
    }

    public static void main(String[] arguments) throws IOException {
        BufferedReader lines = new BufferedReader(new InputStreamReader(System.in));
        PrintWriter out = new PrintWriter(System.out);
        lines.lines().forEach(text -> out.println(answer(text)));
        out.flush();
    }
}
