package against;

import java.io.PrintWriter;

/** What a test ended in on JUnit, in the words of a report: `passed`, `failed CLASS`, `error CLASS`, `skipped`, `aborted`. */
record Verdict(String word, String thrown, String message) {
    static final Verdict PASSED = new Verdict("passed", "", "");
    static final Verdict SKIPPED = new Verdict("skipped", "", "");

    static Verdict of(Throwable thrown) {
        return new Verdict(thrown instanceof AssertionError ? "failed" : "error", thrown.getClass().getName(), message(thrown));
    }

    static Verdict aborted(Throwable thrown) {
        return new Verdict("aborted", thrown.getClass().getName(), message(thrown));
    }

    private static String message(Throwable thrown) {
        String message;
        try {
            message = String.valueOf(thrown.getMessage());
        } catch (Throwable ofMessage) {
            message = "?";
        }
        String line = message.replaceAll("[\t\r\n]", " ");
        return line.length() > 200 ? line.substring(0, 200) : line;
    }

    /** One line, parted by tabs: class, method (empty for the class itself), word, throwable, message. */
    void print(PrintWriter out, String className, String method) {
        out.println(String.join("\t", className, method, word, thrown, message));
    }
}
