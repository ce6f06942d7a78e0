package language;

import electric.Env;

/** Throwables: raised, caught, passed on, and what a test comes to. */
public class ExceptionsTest {
    static class Own extends Exception {
        final int number;

        Own(int number, String message) {
            super(message);
            this.number = number;
        }
    }

    static class Silent extends RuntimeException {
        public String getMessage() {
            return "not looked at";
        }
    }

    static int finals(int n) {
        try {
            if (n == 0) return 1;
            if (n == 1) throw new IllegalStateException("one");
            System.out.print("body ");
        } catch (IllegalStateException e) {
            System.out.print("caught " + e.getMessage() + " ");
            return 2;
        } finally {
            System.out.print("finally" + n + " ");
            if (n == 3) return 4;
        }
        return 3;
    }

    public void testFinally() {
        for (int i = 0; i < 4; i++) {
            Env.print(finals(i));
        }
    }

    static void deep(int n) throws Own {
        if (n == 0) throw new Own(7, "deep down");
        try {
            deep(n - 1);
        } finally {
            Env.print(n);
        }
    }

    public void testUnwinding() {
        try {
            deep(5);
            Check.that(false);
        } catch (Own e) {
            Check.same(7, e.number);
            Check.same("deep down", e.getMessage());
        }
    }

    public void testOrderOfHandlers() throws Own {
        try {
            try {
                throw new Own(1, null);
            } catch (RuntimeException e) {
                System.out.println("runtime");
            } finally {
                System.out.println("inner");
            }
        } catch (Own e) {
            System.out.println(e.getMessage());
            throw new Own(2, "outer");
        } catch (Exception e) {
            System.out.println("exception");
        }
    }

    public void testFails() {
        System.out.print("before");
        Check.same(1, 2);
    }

    public void testError() {
        throw new Silent();
    }

    public void testArithmetic() {
        Env.print(1 / (finals(0) - 1));
    }

    public void testMessageWithQuotes() {
        throw new UnsupportedOperationException("a \"quoted\" text\n\\ and \t \u00e9\u20ac");
    }

    static int depth;

    static int down(int n) {
        depth = n;
        return down(n + 1) + 1;
    }

    public void testOverflow() {
        boolean caught = false;
        try {
            down(0);
        } catch (StackOverflowError e) {
            caught = true;
        }
        Check.that(caught && depth > 500);
    }

    public void testAssertionOfObject() {
        throw new AssertionError((Object) "text");
    }

    public void testAssertionOfNumber() {
        throw new AssertionError(-5L);
    }
}
