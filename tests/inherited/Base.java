public class Base {
    static int total;
    public static void add() { total = total + 5; electric.Env.print(total); }
}
