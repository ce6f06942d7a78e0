package jamuvelor.lib;

import jamuvelor.lib.raw.Output;

/** What wasn't served. It prints a mark, so that a test that swallows it is known. */
public class Unserved extends Error {
    private static boolean met;

    public Unserved(String what) {
        super(what);
        met = true;
        mark(what);
    }

    private static void mark(String what) {
        Output.println("##unserved ".concat(what));
    }

    /** A class failed to initialise, in an earlier test perhaps: where a cut was met before, this test is marked too. */
    public static void caught(Throwable thrown) {
        if (thrown instanceof NoClassDefFoundError && met) {
            mark("class that failed to initialise");
        }
    }

    /** The initialiser of a class ends with this: says so, as later uses of the class tell neither which it is nor why it failed. */
    public static void failed(Throwable thrown, String name) {
        String why = thrown instanceof Unserved ? thrown.getMessage() : ThrowableHelpers.superToString(thrown);
        Output.println("##failed ".concat(name).concat(" ").concat(why));
    }
}
