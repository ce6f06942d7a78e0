package java.util.concurrent;

import jamuvelor.lib.Unserved;

/** A latch that the one thread counts down; who waits for another thread isn't served. */
public class CountDownLatch {
    private long count;

    public CountDownLatch(int count) {
        if (count < 0) {
            throw new IllegalArgumentException("count < 0");
        }
        this.count = count;
    }

    public void await() throws InterruptedException {
        if (count > 0) {
            throw new Unserved("java.util.concurrent.CountDownLatch.await");
        }
    }

    public boolean await(long time, TimeUnit unit) throws InterruptedException {
        await();
        return true;
    }

    public void countDown() {
        count -= count > 0 ? 1 : 0;
    }

    public long getCount() {
        return count;
    }

    @Override
    public String toString() {
        return super.toString() + "[Count = " + count + "]";
    }
}
