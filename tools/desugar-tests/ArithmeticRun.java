package desugar;

import static java.lang.Double.doubleToLongBits;
import static java.lang.Double.longBitsToDouble;
import static java.lang.Float.floatToIntBits;
import static java.lang.Float.intBitsToFloat;

import java.lang.reflect.InvocationTargetException;
import java.lang.reflect.Method;
import java.util.ArrayList;
import java.util.Arrays;
import java.util.LinkedHashMap;
import java.util.List;
import java.util.Map;
import java.util.Random;
import jamuvelor.lib.SoftFloat;
import jamuvelor.lib.jdk.java_lang_StrictMath;

/**
 * Compares the library's arithmetic with this JVM's on random arguments: `ArithmeticRun COUNT`, for each operation. Status 1 where any
 * result differs.
 */
final class ArithmeticRun {
    private static final double[] SPECIAL = {
        0.0, -0.0, 1, -1, Double.NaN, Double.POSITIVE_INFINITY, Double.NEGATIVE_INFINITY, Double.MIN_VALUE, Double.MAX_VALUE,
        Double.MIN_NORMAL, Float.MIN_VALUE, Float.MAX_VALUE, Float.MIN_NORMAL, Integer.MAX_VALUE, Long.MIN_VALUE
    };

    private interface Operation {
        boolean agrees(double a, double b);
    }

    private final Random random = new Random(20260101);
    private final int count;
    private final List<String> faults = new ArrayList<>();

    private ArithmeticRun(int count) {
        this.count = count;
    }

    public static void main(String[] words) throws ReflectiveOperationException {
        ArithmeticRun run = new ArithmeticRun(Integer.parseInt(words[0]));
        operations().forEach(run::compare);
        run.compareMath();
        run.faults.forEach(System.out::println);
        System.exit(run.faults.isEmpty() ? 0 : 1);
    }

    private double number() {
        switch (random.nextInt(6)) {
            case 0:
                return longBitsToDouble(random.nextLong());
            case 1:
                return intBitsToFloat(random.nextInt());
            case 2:
                return random.nextDouble() * 2 - 1;
            case 3:
                return (random.nextInt(2001) - 1000) * (random.nextBoolean() ? 1 : Math.PI / 4);
            case 4:
                return random.nextInt(20) == 0 ? SPECIAL[random.nextInt(SPECIAL.length)] : random.nextLong();
            default:
                return random.nextGaussian() * Math.pow(10, random.nextInt(40) - 20);
        }
    }

    /** A number near this one as often as another one. */
    private double near(double a) {
        return random.nextBoolean() ? number() : longBitsToDouble(doubleToLongBits(a) + random.nextInt(9) - 4);
    }

    private void compare(String name, Operation operation) {
        for (int i = 0; i < count; i++) {
            double a = number();
            double b = near(a);
            if (!operation.agrees(a, b)) {
                faults.add(name + " of " + a + " and " + b);
                return;
            }
        }
    }

    private static boolean same(double expected, long bits) {
        return doubleToLongBits(expected) == bits;
    }

    private static boolean same(float expected, int bits) {
        return floatToIntBits(expected) == bits;
    }

    private static Map<String, Operation> operations() {
        Map<String, Operation> all = new LinkedHashMap<>();
        all.put("dadd", (a, b) -> same(a + b, SoftFloat.dadd(doubleToLongBits(a), doubleToLongBits(b))));
        all.put("dsub", (a, b) -> same(a - b, SoftFloat.dsub(doubleToLongBits(a), doubleToLongBits(b))));
        all.put("dmul", (a, b) -> same(a * b, SoftFloat.dmul(doubleToLongBits(a), doubleToLongBits(b))));
        all.put("ddiv", (a, b) -> same(a / b, SoftFloat.ddiv(doubleToLongBits(a), doubleToLongBits(b))));
        all.put("drem", (a, b) -> same(a % b, SoftFloat.drem(doubleToLongBits(a), doubleToLongBits(b))));
        all.put("dneg", (a, b) -> a != a || same(-a, SoftFloat.dneg(doubleToLongBits(a))));
        all.put("dcmpl", (a, b) -> (a < b ? -1 : a > b ? 1 : a == b ? 0 : -1) == SoftFloat.dcmpl(doubleToLongBits(a), doubleToLongBits(b)));
        all.put("dcmpg", (a, b) -> (a < b ? -1 : a > b ? 1 : a == b ? 0 : 1) == SoftFloat.dcmpg(doubleToLongBits(a), doubleToLongBits(b)));
        all.put("d2i", (a, b) -> (int) a == SoftFloat.d2i(doubleToLongBits(a)));
        all.put("d2l", (a, b) -> (long) a == SoftFloat.d2l(doubleToLongBits(a)));
        all.put("d2f", (a, b) -> same((float) a, SoftFloat.d2f(doubleToLongBits(a))));
        all.put("l2d", (a, b) -> same((double) doubleToLongBits(a), SoftFloat.l2d(doubleToLongBits(a))) && same((double) (long) b, SoftFloat.l2d((long) b)));
        all.put("l2f", (a, b) -> same((float) doubleToLongBits(a), SoftFloat.l2f(doubleToLongBits(a))) && same((float) (long) b, SoftFloat.l2f((long) b)));
        all.put("i2d", (a, b) -> same((double) (int) b, SoftFloat.i2d((int) b)));
        all.put("i2f", (a, b) -> same((float) (int) b, SoftFloat.i2f((int) b)));
        floats(all);
        return all;
    }

    private static void floats(Map<String, Operation> all) {
        all.put("fadd", (a, b) -> same((float) a + (float) b, SoftFloat.fadd(bits(a), bits(b))));
        all.put("fsub", (a, b) -> same((float) a - (float) b, SoftFloat.fsub(bits(a), bits(b))));
        all.put("fmul", (a, b) -> same((float) a * (float) b, SoftFloat.fmul(bits(a), bits(b))));
        all.put("fdiv", (a, b) -> same((float) a / (float) b, SoftFloat.fdiv(bits(a), bits(b))));
        all.put("frem", (a, b) -> same((float) a % (float) b, SoftFloat.frem(bits(a), bits(b))));
        all.put("fneg", (a, b) -> a != a || same(-(float) a, SoftFloat.fneg(bits(a))));
        all.put("fcmpl", (a, b) -> Float.isNaN((float) a + 0 * (float) b) || Float.compare((float) a + 0f, (float) b + 0f) == SoftFloat.fcmpl(bits(a), bits(b)));
        all.put("fcmpg", (a, b) -> !Float.isNaN((float) a) || SoftFloat.fcmpg(bits(a), bits(b)) == 1 && SoftFloat.fcmpl(bits(a), bits(b)) == -1);
        all.put("f2i", (a, b) -> (int) (float) a == SoftFloat.f2i(bits(a)));
        all.put("f2l", (a, b) -> (long) (float) a == SoftFloat.f2l(bits(a)));
        all.put("f2d", (a, b) -> same((double) (float) a, SoftFloat.f2d(bits(a))));
    }

    private static int bits(double number) {
        return floatToIntBits((float) number);
    }

    /** The methods of StrictMath that are native in the JDK. */
    private void compareMath() throws ReflectiveOperationException {
        for (Method method : java_lang_StrictMath.class.getDeclaredMethods()) {
            if (java.lang.reflect.Modifier.isPublic(method.getModifiers())) {
                Method other = StrictMath.class.getMethod(method.getName(), method.getParameterTypes());
                compareMath(method, other);
            }
        }
    }

    private void compareMath(Method method, Method other) throws IllegalAccessException, InvocationTargetException {
        for (int i = 0; i < count; i++) {
            Object[] arguments = new Object[method.getParameterCount()];
            Arrays.setAll(arguments, each -> number());
            double expected = (Double) other.invoke(null, arguments);
            if (!same(expected, doubleToLongBits((Double) method.invoke(null, arguments)))) {
                faults.add(method.getName() + " of " + Arrays.toString(arguments));
                return;
            }
        }
    }
}
