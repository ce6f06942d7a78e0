package language;

import electric.Env;

/** Branches, switches and loops. */
public class ControlTest {
    static int dense(int n) {
        switch (n) {
            case 3: return 30;
            case 4: n += 100;
            case 5: return n;
            case 7: break;
            default: return -1;
        }
        return 70;
    }

    static String sparse(int n) {
        switch (n) {
            case -1000000: return "far below";
            case 0: return "zero";
            case 77: return "seventy-seven";
            case 2147483647: return "most";
            default: return "other";
        }
    }

    static int named(String name) {
        switch (name) {
            case "Aa": return 1;
            case "BB": return 2;
            case "": return 3;
            default: return 4;
        }
    }

    public static void testSwitches() {
        for (int i = 2; i < 9; i++) {
            Env.print(dense(i));
        }
        System.out.println(sparse(-1000000));
        System.out.println(sparse(0));
        System.out.println(sparse(77));
        System.out.println(sparse(2147483647));
        System.out.println(sparse(1));
    }

    public static void testSwitchOnStrings() {
        Check.same(1, named("Aa"));
        Check.same(2, named("B" + "B"));
        Check.same(3, named("x".substring(1)));
        Check.same(4, named("C#"));
    }

    public static void testLoops() {
        int primes = 0;
        outer:
        for (int n = 2; n < 200; n++) {
            for (int d = 2; d * d <= n; d++) {
                if (n % d == 0) continue outer;
            }
            primes++;
            if (primes == 40) break outer;
        }
        Env.print(primes);
        int n = 27;
        int steps = 0;
        do {
            n = (n & 1) == 0 ? n / 2 : 3 * n + 1;
            steps++;
        } while (n != 1);
        Env.print(steps);
    }

    static int ackermann(int m, int n) {
        if (m == 0) return n + 1;
        if (n == 0) return ackermann(m - 1, 1);
        return ackermann(m - 1, ackermann(m, n - 1));
    }

    public static void testRecursion() {
        Env.print(ackermann(2, 9));
    }

    static boolean noted(boolean value, String name) {
        System.out.print(name);
        return value;
    }

    public static void testShortCircuit() {
        boolean a = noted(false, "a") && noted(true, "b") || noted(true, "c") | noted(false, "d");
        boolean b = !(noted(true, "e") || noted(false, "f")) ^ noted(true, "g") & noted(false, "h");
        Check.that(a && !b);
        System.out.println();
    }
}
