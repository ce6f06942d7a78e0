package language;

/** What a test expects. */
public class Check {
    public static void that(boolean holds) {
        if (!holds) {
            throw new AssertionError("does not hold");
        }
    }

    public static void same(int wanted, int found) {
        if (wanted != found) {
            throw new AssertionError("wanted " + wanted + ", found " + found);
        }
    }

    public static void same(long wanted, long found) {
        if (wanted != found) {
            throw new AssertionError("wanted " + wanted + ", found " + found);
        }
    }

    public static void same(String wanted, String found) {
        if (wanted == null ? found != null : !wanted.equals(found)) {
            throw new AssertionError("wanted " + wanted + ", found " + found);
        }
    }
}
