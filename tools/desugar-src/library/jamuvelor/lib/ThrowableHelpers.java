package jamuvelor.lib;

/** Members of Throwable that the built-in class lacks. There are no stack traces and no suppressed exceptions. */
public final class ThrowableHelpers {
    private ThrowableHelpers() {}

    public static Throwable getCause(Throwable thrown) {
        return thrown instanceof HasCause ? ((HasCause) thrown).getCause() : null;
    }

    /** `Throwable.getCause` itself. */
    public static Throwable superGetCause(Throwable thrown) {
        return thrown instanceof HasCause ? ((HasCause) thrown).$cause() : null;
    }

    public static Throwable initCause(Throwable thrown, Throwable cause) {
        if (thrown instanceof HasCause) {
            if (((HasCause) thrown).$cause() != null) {
                throw new IllegalStateException("Can't overwrite cause");
            }
            ((HasCause) thrown).$cause(cause);
        } else {
            thrown.getMessage();
        }
        return thrown;
    }

    public static String toString(Throwable thrown) {
        return ObjectHelpers.toString(thrown);
    }

    /** `Throwable.toString` itself. */
    public static String superToString(Throwable thrown) {
        String name = ClassHelpers.nameOf(ObjectHelpers.token(thrown));
        String message = thrown.getMessage();
        return message == null ? name : name.concat(": ").concat(message);
    }

    public static String getLocalizedMessage(Throwable thrown) {
        return thrown.getMessage();
    }

    public static void printStackTrace(Throwable thrown) {
        System.out.println(ObjectHelpers.toString(thrown));
    }

    public static void printStackTrace(Throwable thrown, java.io.PrintWriter writer) {
        writer.println(ObjectHelpers.toString(thrown));
    }

    public static void printStackTrace(Throwable thrown, java.io.PrintStream stream) {
        stream.println(ObjectHelpers.toString(thrown));
    }

    public static StackTraceElement[] getStackTrace(Throwable thrown) {
        return new StackTraceElement[0];
    }

    public static void setStackTrace(Throwable thrown, StackTraceElement[] trace) {}

    public static Throwable fillInStackTrace(Throwable thrown) {
        return thrown;
    }

    public static void addSuppressed(Throwable thrown, Throwable suppressed) {}

    public static Throwable[] getSuppressed(Throwable thrown) {
        return new Throwable[0];
    }

    /** The message that a throwable has of its cause. */
    public static String text(Throwable cause) {
        return cause == null ? null : ObjectHelpers.toString(cause);
    }

    /** The cause of an AssertionError that is made of this. */
    public static Throwable causeIn(Object detail) {
        return detail instanceof Throwable ? (Throwable) detail : null;
    }
}
