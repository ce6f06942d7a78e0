public class T {
    public static void t() {
    }
}
