/** Prints the least processor nanoseconds of five runs of each method of Work: under -Xint, those of Java's interpreter. */
public class Interpreted {
    static final java.lang.management.ThreadMXBean THREADS =
        java.lang.management.ManagementFactory.getThreadMXBean();

    static void show(String name, Runnable method) {
        long least = Long.MAX_VALUE;
        for (int round = 0; round < 5; round++) {
            long begun = THREADS.getCurrentThreadCpuTime();
            method.run();
            least = Math.min(least, THREADS.getCurrentThreadCpuTime() - begun);
        }
        System.out.println(name + " " + least);
    }

    public static void main(String[] words) {
        show("loops", Work::loops);
        show("arrays", Work::arrays);
        show("fields", Work::fields);
        show("statics", Work::statics);
        show("calls", Work::calls);
        show("objects", Work::objects);
        show("strings", Work::strings);
        show("longs", Work::longs);
        show("switches", Work::switches);
        show("interfaces", Work::interfaces);
        show("casts", Work::casts);
        show("increments", Work::increments);
        show("exceptions", Work::exceptions);
        show("matrices", Work::matrices);
    }
}
