/** Tests that share nothing, each called by many generated tests: the class has no initialiser. */
public class Plain {
    int field;
    Plain next;

    /** About 11 instructions a round, on locals alone. */
    static void loops(int rounds) {
        int sum = 0;
        for (int i = 0; i < rounds; i++) {
            sum += i;
        }
        if (sum == 1) {
            throw new AssertionError();
        }
    }

    /** A chain of new objects. */
    static void objects(int count) {
        Plain last = null;
        for (int i = 0; i < count; i++) {
            Plain made = new Plain();
            made.field = i;
            made.next = last;
            last = made;
        }
    }
}
