public class Counter {
    static int n;

    public static void set() {
        n = 5;
    }

    public static void show() {
        electric.Env.print(n);
    }
}
