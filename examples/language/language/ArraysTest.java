package language;

import electric.Env;

/** Arrays of each kind, and what is thrown at them. */
public class ArraysTest {
    interface Shape {}

    static class Square implements Shape {}

    public void testKinds() {
        boolean[] booleans = new boolean[3];
        booleans[1] = true;
        byte[] bytes = {1, -128, 127};
        bytes[0] += 127;
        char[] chars = {'a', 'b'};
        chars[1] += 1;
        short[] shorts = new short[2];
        shorts[1] = (short) 40000;
        int[] ints = {5, 4, 3};
        long[] longs = {1L << 62, -1};
        longs[1] += longs[0];
        String[] texts = {"x", null};
        Check.that(!booleans[0] && booleans[1]);
        Check.same(-128, bytes[0]);
        Check.same('c', chars[1]);
        Check.same(-25536, shorts[1]);
        Check.same(12, ints[0] + ints[1] + ints[2]);
        Check.same((1L << 62) - 1, longs[1]);
        Check.that(texts[1] == null && texts.length == 2);
    }

    public void testNests() {
        int[][] square = new int[3][4];
        int[][][] cube = new int[2][3][];
        square[2][3] = 9;
        cube[1][2] = square[2];
        Check.same(9, cube[1][2][3]);
        Check.that(cube[0][0] == null && square[0].length == 4);
        int[][] triangle = {{1}, {1, 1}, {1, 2, 1}};
        int sum = 0;
        for (int[] row : triangle) {
            for (int n : row) sum += n;
        }
        Check.same(7, sum);
    }

    public void testThrown() {
        int[] ints = new int[2];
        int caught = 0;
        try {
            ints[2] = 1;
        } catch (ArrayIndexOutOfBoundsException e) {
            caught += 1;
        }
        try {
            Env.print(ints[-1]);
        } catch (IndexOutOfBoundsException e) {
            caught += 2;
        }
        try {
            ints = new int[ints[0] - 1];
        } catch (NegativeArraySizeException e) {
            caught += 4;
        }
        Object[] objects = new String[1];
        try {
            objects[0] = new Object();
        } catch (ArrayStoreException e) {
            caught += 8;
        }
        objects[0] = "fits";
        ints = null;
        try {
            Env.print(ints.length);
        } catch (NullPointerException e) {
            caught += 16;
        }
        try {
            int[][] nest = new int[2][ints == null ? -5 : 1];
        } catch (NegativeArraySizeException e) {
            caught += 32;
        }
        Check.same(63, caught);
    }

    public void testKindsOfObjects() {
        Object ints = new int[1];
        Object squares = new Square[1];
        Object nest = new Square[1][1];
        Check.that(ints instanceof int[] && !(ints instanceof long[]) && !(ints instanceof Object[]));
        Check.that(squares instanceof Shape[] && squares instanceof Object[]);
        Check.that(nest instanceof Object[][] && nest instanceof Shape[][] && !(nest instanceof Shape[]));
        Shape[] shapes = new Shape[2];
        Object[][] rows = new Shape[1][];
        rows[0] = shapes;
        shapes[1] = new Square();
        Check.that(rows[0][1] == shapes[1]);
        int[] cast = (int[]) ints;
        boolean caught = false;
        try {
            Shape[] wrong = (Shape[]) ints;
        } catch (ClassCastException e) {
            caught = true;
        }
        Check.that(caught && cast.length == 1);
    }

    static void sort(int[] a, int from, int to) {
        if (to - from < 2) return;
        int pivot = a[(from + to) >>> 1];
        int i = from;
        int j = to - 1;
        while (i <= j) {
            while (a[i] < pivot) i++;
            while (a[j] > pivot) j--;
            if (i <= j) {
                int t = a[i];
                a[i++] = a[j];
                a[j--] = t;
            }
        }
        sort(a, from, j + 1);
        sort(a, i, to);
    }

    public void testSorting() {
        int[] a = new int[300];
        int x = 12345;
        for (int i = 0; i < a.length; i++) {
            x = x * 1103515245 + 12345;
            a[i] = x >> 16;
        }
        sort(a, 0, a.length);
        for (int i = 1; i < a.length; i++) Check.that(a[i - 1] <= a[i]);
        Env.print(a[0]);
        Env.print(a[150]);
        Env.print(a[299]);
    }
}
