package desugar;

/**
 * An instruction that can't be served and became `throw new Unserved(what)`.
 *
 * @param where the method that it stands in
 * @param line the source line, 0 where the class file doesn't tell
 * @param what what isn't served, such as `java.lang.Thread.start`
 * @param remedy what to do about it, in a few words; empty where nothing is known
 */
record Cut(MethodRef where, int line, String what, String remedy) {
    /** The text of the error that is thrown there: what, and where it stands. */
    String message() {
        return what + ", at " + where.shown() + (line > 0 ? ":" + line : "");
    }
}
