package jamuvelor.lib.raw;

/** Makes Strings by the built-in builder; this class is left as javac made it. */
public final class Strings {
    private Strings() {}

    public static String make(char[] letters, int from, int count) {
        if (from < 0 || count < 0 || from > letters.length - count) {
            throw new StringIndexOutOfBoundsException(
                    "offset " + from + ", count " + count + ", length " + letters.length);
        }
        StringBuilder builder = new StringBuilder();
        for (int i = 0; i < count; i++) {
            builder.append(letters[from + i]);
        }
        return builder.toString();
    }

    /** A String of the same text that is another object. */
    public static String copy(String text) {
        return new StringBuilder().append(text).toString();
    }
}
