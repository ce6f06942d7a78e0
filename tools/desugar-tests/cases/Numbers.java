/** Float and double, by instructions, boxes, texts and the library of mathematics. */
public class Numbers {
    static double half = 0.5;
    static final float THIRD = 1f / 3;

    static double of(double x, int n, float f) {
        return x * n + f;
    }

    static String of(float f) {
        return "float " + f;
    }

    static String of(double d) {
        return "double " + d;
    }

    static String of(int i) {
        return "int " + i;
    }

    static String of(long i) {
        return "long " + i;
    }

    public static void testArithmetic() {
        double x = 3.7;
        float f = 1.5f;
        int i = 7;
        long l = 1L << 53;
        System.out.println(x + f + i * half - l / 3.0 + x % 1.1);
        System.out.println((int) x + " " + (long) -x + " " + (float) x + " " + (double) f + " " + (byte) 300.5 + " " + (int) 1e20 + " " + (float) l);
        System.out.println((x > f) + " " + (x < Double.NaN) + " " + (f == 1.5) + " " + (0.0 == -0.0) + " " + -x + " " + THIRD);
        System.out.println(of(2.5, 3, 0.25f) + of(1f) + of(1d) + of(1) + of(1L));
        System.out.println(1 / 0.0 + " " + -1 / 0.0 + " " + 0 / 0.0 + " " + Double.MIN_VALUE + " " + Float.MAX_VALUE + " " + Double.MAX_VALUE);
    }

    public static void testArrays() {
        double[] d = {1.5, 2.5, -0.0};
        float[][] f = {{1f}, {2f, 3f}};
        d[1] += f[1][1];
        double sum = 0;
        for (double each : d) {
            sum += each;
        }
        Object object = d;
        System.out.println((object instanceof long[]) + " " + (object instanceof Object[]) + " " + (object instanceof double[]) + object.getClass() + f.getClass() + f[0].getClass().getComponentType());
        System.out.println(java.lang.reflect.Array.newInstance(float.class, 2).getClass() + " " + java.lang.reflect.Array.get(d, 1) + (new float[2][2])[1][0] + java.util.Arrays.equals(new float[] {1f}, f[0]));
        System.out.println(sum + " " + d.length + " " + f[1].length + " " + java.util.Arrays.toString(d) + d.clone()[0]);
    }

    public static void testBoxes() {
        Double d = 1.25;
        Float f = 2f;
        Number n = d;
        Object o = f;
        System.out.println(d + " " + f + " " + n.intValue() + " " + o + " " + d.equals(1.25) + " " + d.hashCode() + " " + f.hashCode());
        System.out.println(d.compareTo(2.0) + " " + Double.compare(0.0, -0.0) + " " + Double.valueOf("1e3") + " " + Float.parseFloat("0.1"));
        System.out.println(Double.isNaN(0 / 0.0) + " " + Double.toHexString(1.0) + " " + Double.doubleToLongBits(1.0) + " " + Float.intBitsToFloat(0x40490fdb));
        System.out.println((o instanceof Double) + " " + (o instanceof Float) + " " + Math.max(1.0, Double.NaN) + Math.min(0.0f, -0.0f));
    }

    public static void testMath() {
        System.out.println(Math.abs(-1.5) + " " + Math.floor(-1.5) + " " + Math.ceil(1.2) + " " + Math.round(2.5) + " " + Math.round(-2.5f) + " " + Math.rint(2.5));
        System.out.println(Math.sqrt(2) + " " + Math.sqrt(1e-310) + " " + Math.pow(2, 0.5) + " " + Math.cbrt(27) + " " + Math.hypot(3, 4) + " " + Math.signum(-3.0));
        System.out.println(StrictMath.exp(1) + " " + StrictMath.log(10) + " " + StrictMath.sin(1) + " " + StrictMath.cos(1) + " " + StrictMath.tan(1));
        System.out.println(StrictMath.asin(0.5) + " " + StrictMath.acos(0.5) + " " + StrictMath.atan(0.5) + " " + StrictMath.atan2(1, -2) + " " + StrictMath.log10(1000));
        System.out.println(StrictMath.sinh(1) + " " + StrictMath.cosh(1) + " " + StrictMath.tanh(1) + " " + StrictMath.expm1(1e-5) + " " + StrictMath.log1p(1e-5));
        System.out.println(StrictMath.IEEEremainder(5, 3) + " " + StrictMath.sin(1e22) + " " + StrictMath.cos(100) + " " + StrictMath.tan(-1e5) + " " + Math.ulp(1.0) + " " + Math.toDegrees(Math.PI));
    }

    public static void testIntegers() {
        System.out.println(Integer.parseInt("-17") + Integer.toString(255, 16) + Integer.toHexString(-1) + Integer.toBinaryString(5) + Long.toHexString(255L));
        System.out.println(Integer.MAX_VALUE + Long.parseLong("123") + " " + Integer.bitCount(255) + Integer.reverse(1) + Long.numberOfLeadingZeros(1));
        System.out.println(Integer.valueOf(5).equals(5) + " " + Integer.compare(1, 2) + Character.getNumericValue('7') + " " + Byte.parseByte("12"));
        try {
            Integer.parseInt("x1");
        } catch (NumberFormatException e) {
            System.out.println(e.getMessage());
        }
        System.out.println(new java.math.BigInteger("123456789012345678901234567890").multiply(java.math.BigInteger.TEN).mod(java.math.BigInteger.valueOf(97)));
        System.out.println(new java.math.BigDecimal("1.10").add(new java.math.BigDecimal("2.205")).setScale(2, java.math.RoundingMode.HALF_UP));
    }

    public static void testRandom() {
        java.util.Random random = new java.util.Random(42);
        System.out.println(random.nextInt(100) + " " + random.nextLong() + " " + random.nextDouble() + " " + random.nextGaussian() + " " + random.nextBoolean());
        System.out.println(random.ints(3, 0, 10).sum() + " " + new java.util.Random().nextInt(1));
    }
}
