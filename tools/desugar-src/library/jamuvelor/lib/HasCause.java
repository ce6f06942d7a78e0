package jamuvelor.lib;

/** A throwable that holds a cause. */
public interface HasCause {
    Throwable $cause();

    void $cause(Throwable cause);

    Throwable getCause();
}
