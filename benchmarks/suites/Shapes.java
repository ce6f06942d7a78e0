/** Tests that share arrays, each called by many generated tests. */
public class Shapes {
    static int[] written = new int[1 << 20];
    static int[] read = new int[1 << 20];
    static int[] shared = new int[64];

    /** Reads and writes what every test of the shape reads and writes. */
    static void shared(int test) {
        for (int i = 0; i < shared.length; i++) {
            shared[i] += test;
        }
    }

    /** Gives every pair of tests, of 0 to count - 1, a conflict of each kind. */
    static void every(int test, int count) {
        for (int other = 0; other < test; other++) {
            int place = other * count + test;
            written[place] = written[place] + 1;
            read[place] = 1;
        }
        for (int other = test + 1; other < count; other++) {
            int place = test * count + other;
            written[place] = test;
            int sum = read[place];
        }
    }
}
