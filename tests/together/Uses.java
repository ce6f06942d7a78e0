/** Much of what the usual compiler makes: an inner and an anonymous class, a bridge, switches, finally, arrays of arrays. */
public class Uses extends Base {
    static int[][] grid = new int[2][3];
    int last;

    Uses(int n, boolean next) {
        super(next ? 1L + n : n > 2 ? 7 : 9);
        last = n;
    }

    static int kind(String text) {
        switch (text) {
            case "one":
                return 1;
            case "two":
                return 2;
            default:
                return text.length() > 3 ? -1 : 0;
        }
    }

    static long sum(int n) {
        long total = 0;
        for (int i = 0; i < n; i++) {
            for (int j = i; j > 0; j--) {
                total += (long) i * j;
            }
        }
        return total;
    }

    static int guarded(int a, int b) {
        int result = 0;
        try {
            result = a / b;
            if (result > 5) {
                return result;
            }
        } catch (ArithmeticException e) {
            result = -1;
        } finally {
            grid[0][1] = result;
        }
        return result;
    }

    public void testAll() {
        Uses uses = new Uses(grid.length > 1 ? 3 : 4, kind("two") == 2);
        Shape shape = Shape.of(uses.part().own());
        Object same = shape;
        if (!(same instanceof Shape) || sum(4) != 11) {
            throw new AssertionError("sum" + sum(4));
        }
        System.out.println(guarded(shape.twice(), 2) + kind("x"));
    }

    Part part() {
        return new Part();
    }

    class Part {
        int own() {
            return last + twice();
        }
    }

    public Uses() {
        this(1, false);
    }
}
