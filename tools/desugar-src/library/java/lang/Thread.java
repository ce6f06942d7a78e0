package java.lang;

import jamuvelor.lib.Unserved;

/** The one thread that there is; others are made, and not started. */
public class Thread implements Runnable {
    public static final int MIN_PRIORITY = 1;
    public static final int NORM_PRIORITY = 5;
    public static final int MAX_PRIORITY = 10;

    private static final Thread MAIN = new Thread("main");

    private final Runnable work;
    private String name;
    private boolean daemon;
    private int priority = NORM_PRIORITY;
    private boolean interrupted;
    private ClassLoader loader;

    /** Who is told of what a thread ends with. */
    public interface UncaughtExceptionHandler {
        void uncaughtException(Thread thread, Throwable thrown);
    }

    private UncaughtExceptionHandler handler;

    public Thread() {
        this(null, "Thread-0");
    }

    public Thread(Runnable work) {
        this(work, "Thread-0");
    }

    public Thread(String name) {
        this(null, name);
    }

    public Thread(Runnable work, String name) {
        if (name == null) {
            throw new NullPointerException("name cannot be null");
        }
        this.work = work;
        this.name = name;
    }

    public static Thread currentThread() {
        return MAIN;
    }

    public void start() {
        throw new Unserved("java.lang.Thread.start");
    }

    @Override
    public void run() {
        if (work != null) {
            work.run();
        }
    }

    public static void sleep(long milliseconds) throws InterruptedException {
        throw new Unserved("java.lang.Thread.sleep");
    }

    public static void sleep(long milliseconds, int nanoseconds) throws InterruptedException {
        throw new Unserved("java.lang.Thread.sleep");
    }

    public static void yield() {}

    public static void onSpinWait() {}

    public final void join() throws InterruptedException {}

    public final void join(long milliseconds) throws InterruptedException {}

    public void interrupt() {
        interrupted = true;
    }

    public boolean isInterrupted() {
        return interrupted;
    }

    public static boolean interrupted() {
        boolean was = MAIN.interrupted;
        MAIN.interrupted = false;
        return was;
    }

    public final boolean isAlive() {
        return this == MAIN;
    }

    public long getId() {
        return 1;
    }

    public final String getName() {
        return name;
    }

    public final void setName(String name) {
        this.name = name;
    }

    public final boolean isDaemon() {
        return daemon;
    }

    public final void setDaemon(boolean daemon) {
        this.daemon = daemon;
    }

    public final int getPriority() {
        return priority;
    }

    public final void setPriority(int priority) {
        if (priority < MIN_PRIORITY || priority > MAX_PRIORITY) {
            throw new IllegalArgumentException();
        }
        this.priority = priority;
    }

    public ClassLoader getContextClassLoader() {
        return loader == null ? ClassLoader.getSystemClassLoader() : loader;
    }

    public void setContextClassLoader(ClassLoader loader) {
        this.loader = loader;
    }

    public UncaughtExceptionHandler getUncaughtExceptionHandler() {
        return handler;
    }

    public void setUncaughtExceptionHandler(UncaughtExceptionHandler handler) {
        this.handler = handler;
    }

    public static boolean holdsLock(Object object) {
        return true;
    }

    @Override
    public String toString() {
        return "Thread[" + name + "," + priority + ",main]";
    }
}
