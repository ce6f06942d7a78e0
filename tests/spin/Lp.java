public class Lp {
    static int n;

    public static void set() {
        n = 1;
    }

    public static void spin() {
        do {
        } while (n == 0);
    }
}
