package java.util.concurrent.locks;

import java.util.Date;
import java.util.concurrent.TimeUnit;

/** A condition for which nobody can wait, as no other thread would signal it. */
final class Signals implements Condition {
    private static RuntimeException nobody() {
        return new IllegalStateException("one thread would wait for itself");
    }

    @Override
    public void await() {
        throw nobody();
    }

    @Override
    public void awaitUninterruptibly() {
        throw nobody();
    }

    @Override
    public long awaitNanos(long nanos) {
        return 0;
    }

    @Override
    public boolean await(long time, TimeUnit unit) {
        return false;
    }

    @Override
    public boolean awaitUntil(Date deadline) {
        return false;
    }

    @Override
    public void signal() {}

    @Override
    public void signalAll() {}
}
