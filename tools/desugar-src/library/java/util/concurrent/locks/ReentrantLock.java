package java.util.concurrent.locks;

import java.util.concurrent.TimeUnit;

/** A lock that the one thread always gets; it counts how often. */
public class ReentrantLock implements Lock, java.io.Serializable {
    private int holds;

    public ReentrantLock() {}

    public ReentrantLock(boolean fair) {}

    @Override
    public void lock() {
        holds++;
    }

    @Override
    public void lockInterruptibly() {
        holds++;
    }

    @Override
    public boolean tryLock() {
        holds++;
        return true;
    }

    @Override
    public boolean tryLock(long time, TimeUnit unit) {
        return tryLock();
    }

    @Override
    public void unlock() {
        if (holds == 0) {
            throw new IllegalMonitorStateException();
        }
        holds--;
    }

    @Override
    public Condition newCondition() {
        return new Signals();
    }

    public boolean isLocked() {
        return holds > 0;
    }

    public boolean isHeldByCurrentThread() {
        return holds > 0;
    }

    public int getHoldCount() {
        return holds;
    }
}
