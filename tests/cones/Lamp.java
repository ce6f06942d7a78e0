public class Lamp {
    static boolean lit;

    public static void light() {
        lit = true;
    }

    public static void look() {
        boolean seen = lit;
    }

    public static void await() {
        while (!lit) {
        }
    }
}
