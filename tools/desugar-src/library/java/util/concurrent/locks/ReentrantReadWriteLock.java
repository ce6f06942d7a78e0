package java.util.concurrent.locks;

/** Two locks that the one thread always gets. */
public class ReentrantReadWriteLock implements ReadWriteLock, java.io.Serializable {
    private final ReadLock reading = new ReadLock();
    private final WriteLock writing = new WriteLock();

    public ReentrantReadWriteLock() {}

    public ReentrantReadWriteLock(boolean fair) {}

    @Override
    public ReadLock readLock() {
        return reading;
    }

    @Override
    public WriteLock writeLock() {
        return writing;
    }

    public static class ReadLock extends ReentrantLock {}

    public static class WriteLock extends ReentrantLock {}
}
