package java.lang.ref;

/** A queue in which nothing ever is. */
public class ReferenceQueue<T> {
    public ReferenceQueue() {}

    public Reference<? extends T> poll() {
        return null;
    }
}
