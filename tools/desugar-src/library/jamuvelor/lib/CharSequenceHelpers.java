package jamuvelor.lib;

/** Calls through CharSequence, which may meet a String. */
public final class CharSequenceHelpers {
    private CharSequenceHelpers() {}

    public static int length(CharSequence text) {
        Object object = text;
        return object instanceof String ? ((String) object).length() : text.length();
    }

    public static char charAt(CharSequence text, int index) {
        Object object = text;
        return object instanceof String ? ((String) object).charAt(index) : text.charAt(index);
    }

    public static CharSequence subSequence(CharSequence text, int from, int to) {
        Object object = text;
        return object instanceof String ? StringHelpers.subSequence((String) object, from, to) : text.subSequence(from, to);
    }

    public static boolean isEmpty(CharSequence text) {
        return length(text) == 0;
    }

    public static java.util.stream.IntStream chars(CharSequence text) {
        return StringHelpers.chars(ObjectHelpers.toString(text));
    }

    public static java.util.stream.IntStream codePoints(CharSequence text) {
        return StringHelpers.codePoints(ObjectHelpers.toString(text));
    }
}
