public class Broken {
    static int total;
    public static void show() { electric.Env.print(total); }
    int idle() { return 0; }
}
