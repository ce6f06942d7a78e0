package jamuvelor.lib;

/** How Java makes its own NumberFormatExceptions. */
public final class NumberFormatExceptionHelpers {
    private NumberFormatExceptionHelpers() {}

    public static NumberFormatException forInputString(String text, int radix) {
        return new NumberFormatException("For input string: \"" + text + "\"" + (radix == 10 ? "" : " under radix " + radix));
    }

    public static NumberFormatException forCharSequence(CharSequence text, int from, int to, int at) {
        String part = ObjectHelpers.toString(CharSequenceHelpers.subSequence(text, from, to));
        return new NumberFormatException("Error at index " + (at - from) + " in: \"" + part + "\"");
    }
}
