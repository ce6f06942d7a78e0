public class Child extends Base {
    public static void more() { total = total + 2; electric.Env.print(total); }
    int twice(int n) { return n < 0 ? -2 * n : 2 * n; }
}
