package jamuvelor.lib;

/**
 * Arithmetic of double, whose bits are a long, and of float, whose bits are an int (IEEE 754, round to nearest even), after the plan of
 * John Hauser's Berkeley SoftFloat. NaN is the one that Java calls canonical.
 *
 * <p>A float operation is that of doubles, rounded once more: double has more than twice the bits and two, so that it comes out the same.
 */
public final class SoftFloat {
    private static final long SIGN = 1L << 63;
    private static final long HIDDEN = 0x0010000000000000L;
    private static final long FRACTION = 0x000FFFFFFFFFFFFFL;
    private static final long INFINITY = 0x7FF0000000000000L;
    private static final long NAN = 0x7FF8000000000000L;
    private static final int SPECIAL = 0x7FF;

    private SoftFloat() {}

    private static long pack(int sign, int exponent, long significand) {
        return ((long) sign << 63) + ((long) exponent << 52) + significand;
    }

    private static int sign(long bits) {
        return (int) (bits >>> 63);
    }

    private static int exponent(long bits) {
        return (int) (bits >>> 52) & SPECIAL;
    }

    private static boolean isNan(long bits) {
        return (bits & ~SIGN) > INFINITY;
    }

    /** Shifts right; the last bit tells whether any was lost. */
    private static long jam(long value, int distance) {
        if (distance == 0) {
            return value;
        }
        if (distance < 64) {
            return value >>> distance | (value << -distance != 0 ? 1 : 0);
        }
        return value != 0 ? 1 : 0;
    }

    private static int leadingZeros(long value) {
        if (value == 0) {
            return 64;
        }
        long rest = value;
        int count = 0;
        if (rest >>> 32 == 0) {
            count += 32;
            rest <<= 32;
        }
        if (rest >>> 48 == 0) {
            count += 16;
            rest <<= 16;
        }
        if (rest >>> 56 == 0) {
            count += 8;
            rest <<= 8;
        }
        if (rest >>> 60 == 0) {
            count += 4;
            rest <<= 4;
        }
        if (rest >>> 62 == 0) {
            count += 2;
            rest <<= 2;
        }
        return rest < 0 ? count : count + 1;
    }

    /** Rounds a significand with 10 bits below the last one to a double. */
    private static long round(int sign, int exponent, long significand) {
        int below = (int) significand & 0x3FF;
        long rounded = significand;
        int scale = exponent;
        if (scale < 0) {
            rounded = jam(rounded, -scale);
            scale = 0;
            below = (int) rounded & 0x3FF;
        } else if (scale > 0x7FD || scale == 0x7FD && rounded + 0x200 < 0) {
            return pack(sign, SPECIAL, 0);
        }
        rounded = rounded + 0x200 >>> 10;
        if (below == 0x200) {
            rounded &= ~1L;
        }
        return pack(sign, rounded == 0 ? 0 : scale, rounded);
    }

    private static long normalizeAndRound(int sign, int exponent, long significand) {
        int shift = leadingZeros(significand) - 1;
        return significand == 0 ? pack(sign, 0, 0) : round(sign, exponent - shift, significand << shift);
    }

    public static long dadd(long a, long b) {
        return sign(a) == sign(b) ? addMagnitudes(a, b, sign(a)) : subtractMagnitudes(a, b, sign(a));
    }

    public static long dsub(long a, long b) {
        return dadd(a, isNan(b) ? b : b ^ SIGN);
    }

    private static long addMagnitudes(long a, long b, int sign) {
        long x = (a & FRACTION) << 9;
        long y = (b & FRACTION) << 9;
        int e = exponent(a);
        int f = exponent(b);
        int exponent;
        if (e == f) {
            if (e == SPECIAL) {
                return (x | y) != 0 ? NAN : a;
            }
            return e == 0 ? pack(sign, 0, x + y >>> 9) : round(sign, e, (1L << 62) + x + y);
        }
        if (e > f) {
            if (e == SPECIAL) {
                return x != 0 ? NAN : a;
            }
            y = f == 0 ? jam(y, e - 1) : jam(y | 1L << 61, e - f);
            exponent = e;
        } else {
            if (f == SPECIAL) {
                return y != 0 ? NAN : pack(sign, SPECIAL, 0);
            }
            x = e == 0 ? jam(x, f - 1) : jam(x | 1L << 61, f - e);
            exponent = f;
        }
        if (e > f) {
            x |= 1L << 61;
        } else {
            y |= 1L << 61;
        }
        long sum = x + y;
        return sum << 1 < 0 ? round(sign, exponent, sum) : round(sign, exponent - 1, sum << 1);
    }

    private static long subtractMagnitudes(long a, long b, int sign) {
        long x = (a & FRACTION) << 10;
        long y = (b & FRACTION) << 10;
        int e = exponent(a);
        int f = exponent(b);
        if (e == f) {
            if (e == SPECIAL) {
                return NAN;
            }
            if (x == y) {
                return 0;
            }
            int scale = e == 0 ? 0 : e - 1;
            return y < x ? normalizeAndRound(sign, scale, x - y) : normalizeAndRound(sign ^ 1, scale, y - x);
        }
        if (e > f) {
            if (e == SPECIAL) {
                return x != 0 ? NAN : a;
            }
            y = f == 0 ? jam(y, e - 1) : jam(y | 1L << 62, e - f);
            return normalizeAndRound(sign, e - 1, (x | 1L << 62) - y);
        }
        if (f == SPECIAL) {
            return y != 0 ? NAN : pack(sign ^ 1, SPECIAL, 0);
        }
        x = e == 0 ? jam(x, f - 1) : jam(x | 1L << 62, f - e);
        return normalizeAndRound(sign ^ 1, f - 1, (y | 1L << 62) - x);
    }

    /** The upper 64 bits of a product of unsigned numbers. */
    private static long highProduct(long a, long b) {
        long a0 = a & 0xFFFFFFFFL;
        long a1 = a >>> 32;
        long b0 = b & 0xFFFFFFFFL;
        long b1 = b >>> 32;
        long middle = a1 * b0 + (a0 * b0 >>> 32);
        long other = a0 * b1 + (middle & 0xFFFFFFFFL);
        return a1 * b1 + (middle >>> 32) + (other >>> 32);
    }

    public static long dmul(long a, long b) {
        int sign = sign(a) ^ sign(b);
        int e = exponent(a);
        int f = exponent(b);
        long x = a & FRACTION;
        long y = b & FRACTION;
        if (isNan(a) || isNan(b)) {
            return NAN;
        }
        if (e == SPECIAL || f == SPECIAL) {
            return (e | x) == 0 || (f | y) == 0 ? NAN : pack(sign, SPECIAL, 0);
        }
        if ((e | x) == 0 || (f | y) == 0) {
            return pack(sign, 0, 0);
        }
        if (e == 0) {
            int shift = leadingZeros(x) - 11;
            x <<= shift;
            e = 1 - shift;
        }
        if (f == 0) {
            int shift = leadingZeros(y) - 11;
            y <<= shift;
            f = 1 - shift;
        }
        x = (x | HIDDEN) << 10;
        y = (y | HIDDEN) << 11;
        long product = highProduct(x, y) | (x * y != 0 ? 1 : 0);
        int exponent = e + f - 0x3FF;
        return product << 1 >= 0 ? round(sign, exponent - 1, product << 1) : round(sign, exponent, product);
    }

    public static long ddiv(long a, long b) {
        int sign = sign(a) ^ sign(b);
        int e = exponent(a);
        int f = exponent(b);
        long x = a & FRACTION;
        long y = b & FRACTION;
        if (isNan(a) || isNan(b)) {
            return NAN;
        }
        if (e == SPECIAL) {
            return f == SPECIAL ? NAN : pack(sign, SPECIAL, 0);
        }
        if (f == SPECIAL) {
            return pack(sign, 0, 0);
        }
        if ((f | y) == 0) {
            return (e | x) == 0 ? NAN : pack(sign, SPECIAL, 0);
        }
        if ((e | x) == 0) {
            return pack(sign, 0, 0);
        }
        if (f == 0) {
            int shift = leadingZeros(y) - 11;
            y <<= shift;
            f = 1 - shift;
        }
        if (e == 0) {
            int shift = leadingZeros(x) - 11;
            x <<= shift;
            e = 1 - shift;
        }
        x |= HIDDEN;
        y |= HIDDEN;
        int exponent = e - f + 0x3FE;
        if (x < y) {
            x <<= 1;
            exponent--;
        }
        return round(sign, exponent, quotient(x, y));
    }

    /** The first 63 bits of x / y, which is from 1 to 2 exclusive; the last bit tells whether anything remains. */
    private static long quotient(long x, long y) {
        long quotient = 1;
        long rest = x - y;
        for (int bits = 1; bits < 61; bits += 10) {
            rest <<= 10;
            quotient = quotient << 10 | rest / y;
            rest %= y;
        }
        quotient = quotient << 1 | (rest << 1 >= y ? 1 : 0);
        rest = rest << 1 >= y ? (rest << 1) - y : rest << 1;
        return quotient << 1 | (rest != 0 ? 1 : 0);
    }

    public static long drem(long a, long b) {
        int e = exponent(a);
        int f = exponent(b);
        long x = a & FRACTION;
        long y = b & FRACTION;
        if (isNan(a) || isNan(b) || e == SPECIAL || (f | y) == 0) {
            return NAN;
        }
        if (f == SPECIAL) {
            return a;
        }
        if (e == 0) {
            e = 1;
        } else {
            x |= HIDDEN;
        }
        if (f == 0) {
            f = 1;
        } else {
            y |= HIDDEN;
        }
        if (e < f) {
            return a;
        }
        x %= y;
        for (int left = e - f; left > 0; left -= 10) {
            x = (x << (left < 10 ? left : 10)) % y;
        }
        if (x == 0) {
            return pack(sign(a), 0, 0);
        }
        int shift = leadingZeros(x) - 11;
        int most = f - 1;
        shift = shift < most ? shift : most;
        x <<= shift;
        return x < HIDDEN ? pack(sign(a), 0, x) : pack(sign(a), f - shift, x & FRACTION);
    }

    public static long dneg(long a) {
        return a ^ SIGN;
    }

    private static int compare(long a, long b, int unordered) {
        if (isNan(a) || isNan(b)) {
            return unordered;
        }
        if (a == b || (a | b) << 1 == 0) {
            return 0;
        }
        long x = a < 0 ? ~a ^ SIGN : a;
        long y = b < 0 ? ~b ^ SIGN : b;
        return x < y ? -1 : 1;
    }

    public static int dcmpl(long a, long b) {
        return compare(a, b, -1);
    }

    public static int dcmpg(long a, long b) {
        return compare(a, b, 1);
    }

    public static long l2d(long value) {
        if (value == Long.MIN_VALUE) {
            return 0xC3E0000000000000L;
        }
        return value == 0 ? 0 : normalizeAndRound(value < 0 ? 1 : 0, 0x43C, value < 0 ? -value : value);
    }

    public static long i2d(int value) {
        return l2d(value);
    }

    public static long d2l(long a) {
        int distance = exponent(a) - 0x433;
        if (isNan(a) || distance < -52) {
            return 0;
        }
        if (distance >= 11) {
            return a < 0 ? Long.MIN_VALUE : Long.MAX_VALUE;
        }
        long significand = a & FRACTION | HIDDEN;
        long magnitude = distance >= 0 ? significand << distance : significand >>> -distance;
        return a < 0 ? -magnitude : magnitude;
    }

    public static int d2i(long a) {
        long value = d2l(a);
        return value > Integer.MAX_VALUE ? Integer.MAX_VALUE : value < Integer.MIN_VALUE ? Integer.MIN_VALUE : (int) value;
    }

    public static long f2d(int a) {
        int sign = a >>> 31;
        int exponent = a >>> 23 & 255;
        int fraction = a & 0x7FFFFF;
        if (exponent == 255) {
            return fraction != 0 ? NAN : pack(sign, SPECIAL, 0);
        }
        if (exponent == 0) {
            if (fraction == 0) {
                return pack(sign, 0, 0);
            }
            int shift = leadingZeros(fraction) - 40;
            return pack(sign, 0x381 - shift, ((long) fraction << shift & 0x7FFFFF) << 29);
        }
        return pack(sign, exponent + 0x380, (long) fraction << 29);
    }

    public static int d2f(long a) {
        int sign = sign(a);
        int exponent = exponent(a);
        long fraction = a & FRACTION;
        if (exponent == SPECIAL) {
            return fraction != 0 ? 0x7FC00000 : sign << 31 | 0x7F800000;
        }
        if (exponent == 0) {
            return sign << 31;
        }
        long significand = jam(fraction, 22) | 0x40000000L;
        int scale = exponent - 0x381;
        if (scale < 0) {
            significand = jam(significand, -scale);
            scale = 0;
        } else if (scale > 0xFD || scale == 0xFD && significand + 0x40 >= 0x80000000L) {
            return (sign << 31) + 0x7F800000;
        }
        int rounded = (int) (significand + 0x40 >>> 7);
        if ((significand & 0x7F) == 0x40) {
            rounded &= ~1;
        }
        return (sign << 31) + ((rounded == 0 ? 0 : scale) << 23) + rounded;
    }

    public static int fadd(int a, int b) {
        return d2f(dadd(f2d(a), f2d(b)));
    }

    public static int fsub(int a, int b) {
        return d2f(dsub(f2d(a), f2d(b)));
    }

    public static int fmul(int a, int b) {
        return d2f(dmul(f2d(a), f2d(b)));
    }

    public static int fdiv(int a, int b) {
        return d2f(ddiv(f2d(a), f2d(b)));
    }

    public static int frem(int a, int b) {
        return d2f(drem(f2d(a), f2d(b)));
    }

    public static int fneg(int a) {
        return a ^ 0x80000000;
    }

    public static int fcmpl(int a, int b) {
        return compare(f2d(a), f2d(b), -1);
    }

    public static int fcmpg(int a, int b) {
        return compare(f2d(a), f2d(b), 1);
    }

    public static int i2f(int value) {
        return d2f(l2d(value));
    }

    /** Rounds once: what a double can't hold is kept in its last bit. */
    public static int l2f(long value) {
        long magnitude = value < 0 ? -value : value;
        int zeros = leadingZeros(magnitude);
        if (value == Long.MIN_VALUE || zeros >= 10) {
            return d2f(l2d(value));
        }
        int distance = 11 - zeros;
        long kept = jam(magnitude, distance) << distance;
        return d2f(l2d(value < 0 ? -kept : kept));
    }

    public static int f2i(int a) {
        return d2i(f2d(a));
    }

    public static long f2l(int a) {
        return d2l(f2d(a));
    }

    /** The square root (IEEE 754), by bits. */
    public static long sqrt(long a) {
        int exponent = exponent(a);
        long significand = a & FRACTION;
        if (isNan(a) || a << 1 == 0) {
            return isNan(a) ? NAN : a;
        }
        if (a < 0 || exponent == SPECIAL) {
            return a < 0 ? NAN : a;
        }
        if (exponent == 0) {
            int shift = leadingZeros(significand) - 11;
            significand <<= shift;
            exponent = 1 - shift;
        }
        significand |= HIDDEN;
        int power = exponent - 0x3FF;
        if ((power & 1) != 0) {
            significand <<= 1;
            power--;
        }
        long root = 0;
        long rest = 0;
        long taken = significand << 10;
        for (int bits = 0; bits < 55; bits++) {
            rest = rest << 2 | taken >>> 62;
            taken <<= 2;
            long next = root << 2 | 1;
            root <<= 1;
            if (rest >= next) {
                rest -= next;
                root |= 1;
            }
        }
        return round(0, (power >> 1) + 0x3FE, (root << 1 | (rest != 0 ? 1 : 0)) << 7);
    }
}
