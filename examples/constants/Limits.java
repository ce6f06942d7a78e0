/** Limits, some of which are computed from others. */
class Limits {
    static int items = 1 << 5;
    static long total = 1000L * items + 24;
    static int free = ~items & 0xff;
}
