/** Throwables with causes, handlers, finally and assertions. */
public class Thrown {
    static class Own extends Exception {
        Own(String message, Throwable cause) {
            super(message, cause);
        }

        Own(Throwable cause) {
            super(cause);
        }
    }

    static class Quiet extends RuntimeException {
        @Override
        public String getMessage() {
            return "quiet";
        }
    }

    static class Resource implements AutoCloseable {
        @Override
        public void close() {
            System.out.println("closed");
        }
    }

    public static void testCauses() {
        Exception inner = new IllegalStateException("inner");
        System.out.println(new RuntimeException("outer", inner).getCause() + " " + new RuntimeException(inner).getMessage() + " " + new Own("own", inner).getCause());
        System.out.println(new Own(inner) + " " + new Quiet() + " " + new Own("m", null).getCause() + " " + new Error("e", inner).getClass() + new IllegalArgumentException("x").initCause(inner).getCause());
        System.out.println(new AssertionError("text") + " " + new AssertionError(5) + new AssertionError("a", inner).getCause());
    }

    static int tried(int n) {
        try {
            if (n == 0) {
                throw new Own("zero", null);
            }
            return 10 / (n - 1);
        } catch (Own e) {
            return -1;
        } catch (ArithmeticException e) {
            return -2;
        } finally {
            System.out.print("finally ");
        }
    }

    public static void testHandlers() {
        System.out.println(tried(0) + " " + tried(1) + " " + tried(2));
        try (Resource r = new Resource()) {
            System.out.println("open");
        }
        try {
            Object[] none = null;
            System.out.println(none.length);
        } catch (NullPointerException e) {
            System.out.println("null");
        }
        try {
            "abc".substring(5);
        } catch (IndexOutOfBoundsException e) {
            System.out.println("bounds");
        }
        try {
            new java.util.ArrayList<>().get(0);
        } catch (IndexOutOfBoundsException e) {
            System.out.println(e.getMessage());
        }
        try {
            java.util.List.of(1).add(2);
        } catch (UnsupportedOperationException e) {
            System.out.println(e);
        }
    }

    public static void testFails() {
        throw new AssertionError("so");
    }

    public static void testEnds() {
        throw new IllegalStateException("so", new Quiet());
    }
}
