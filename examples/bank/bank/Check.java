package bank;

/** What tests ask. */
class Check {
    static void equal(long expected, long found) {
        if (expected != found) {
            throw new AssertionError((Object) ("expected " + expected + ", found " + found));
        }
    }

    static void equal(String expected, String found) {
        if (!expected.equals(found)) {
            throw new AssertionError((Object) ("expected " + expected + ", found " + found));
        }
    }
}
