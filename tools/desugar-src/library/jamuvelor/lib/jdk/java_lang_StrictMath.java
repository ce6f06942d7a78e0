package jamuvelor.lib.jdk;

import jamuvelor.lib.SoftFloat;

/** In place of the native methods of StrictMath: the algorithms of fdlibm 5.3, whose results they have to the last bit. */
public final class java_lang_StrictMath {
    private static final double TWO24 = 0x1.0p24;
    private static final double TWON24 = 0x1.0p-24;
    private static final double TWO54 = 0x1.0p54;
    private static final double PI = 3.1415926535897931160E+00;
    private static final double PI_LOW = 1.2246467991473531772E-16;
    private static final double HALF_PI = 1.57079632679489655800e+00;
    private static final double HALF_PI_LOW = 6.12323399573676603587e-17;
    private static final double QUARTER_PI = 7.85398163397448278999e-01;
    private static final double QUARTER_PI_LOW = 3.06161699786838301793e-17;
    private static final double LN2_HIGH = 6.93147180369123816490e-01;
    private static final double LN2_LOW = 1.90821492927058770002e-10;
    private static final double NAN = Double.NaN;
    private static final double INFINITY = Double.POSITIVE_INFINITY;

    /** The digits of 2/pi to the base 2^24. */
    private static final int[] TWO_OVER_PI = {
        0xA2F983, 0x6E4E44, 0x1529FC, 0x2757D1, 0xF534DD, 0xC0DB62, 0x95993C, 0x439041, 0xFE5163, 0xABDEBB,
        0xC561B7, 0x246E3A, 0x424DD2, 0xE00649, 0x2EEA09, 0xD1921C, 0xFE1DEB, 0x1CB129, 0xA73EE8, 0x8235F5,
        0x2EBB44, 0x84E99C, 0x7026B4, 0x5F7E41, 0x3991D6, 0x398353, 0x39F49C, 0x845F8B, 0xBDF928, 0x3B1FF8,
        0x97FFDE, 0x05980F, 0xEF2F11, 0x8B5A0A, 0x6D1F6D, 0x367ECF, 0x27CB09, 0xB74F46, 0x3F669E, 0x5FEA2D,
        0x7527BA, 0xC7EBE5, 0xF17B3D, 0x0739F7, 0x8A5292, 0xEA6BFB, 0x5FB11F, 0x8D5D08, 0x560330, 0x46FC7B,
        0x6BABF0, 0xCFBC20, 0x9AF436, 0x1DA9E3, 0x91615E, 0xE61B08, 0x659985, 0x5F14A0, 0x68408D, 0xFFD880,
        0x4D7327, 0x310606, 0x1556CA, 0x73A8C9, 0x60E27B, 0xC08C6B
    };

    /** The high words of multiples of pi/2. */
    private static final int[] MULTIPLES = {
        0x3FF921FB, 0x400921FB, 0x4012D97C, 0x401921FB, 0x401F6A7A, 0x4022D97C, 0x4025FDBB, 0x402921FB,
        0x402C463A, 0x402F6A7A, 0x4031475C, 0x4032D97C, 0x40346B9C, 0x4035FDBB, 0x40378FDB, 0x403921FB,
        0x403AB41B, 0x403C463A, 0x403DD85A, 0x403F6A7A, 0x40407E4C, 0x4041475C, 0x4042106C, 0x4042D97C,
        0x4043A28C, 0x40446B9C, 0x404534AC, 0x4045FDBB, 0x4046C6CB, 0x40478FDB, 0x404858EB, 0x404921FB
    };

    /** Pi/2 in pieces of 24 bits. */
    private static final double[] PI_PIECES = {
        1.57079625129699707031e+00, 7.54978941586159635335e-08, 5.39030252995776476554e-15, 3.28200341580791294123e-22,
        1.27065575308067607349e-29, 1.22933308981111328932e-36, 2.73370053816464559624e-44, 2.16741683877804819444e-51
    };

    private static final double[] TAN = {
        3.33333333333334091986e-01, 1.33333333333201242699e-01, 5.39682539762260521377e-02, 2.18694882948595424599e-02,
        8.86323982359930005737e-03, 3.59207910759131235356e-03, 1.45620945432529025516e-03, 5.88041240820264096874e-04,
        2.46463134818469906812e-04, 7.81794442939557092300e-05, 7.14072491382608190305e-05, -1.85586374855275456654e-05,
        2.59073051863633712884e-05
    };

    private static final double[] ATAN_HIGH = {
        4.63647609000806093515e-01, 7.85398163397448278999e-01, 9.82793723247329054082e-01, 1.57079632679489655800e+00
    };

    private static final double[] ATAN_LOW = {
        2.26987774529616870924e-17, 3.06161699786838301793e-17, 1.39033110312309984516e-17, 6.12323399573676603587e-17
    };

    private static final double[] ATAN = {
        3.33333333333329318027e-01, -1.99999999998764832476e-01, 1.42857142725034663711e-01, -1.11111104054623557880e-01,
        9.09088713343650656196e-02, -7.69187620504482999495e-02, 6.66107313738753120669e-02, -5.83357013379057348645e-02,
        4.97687799461593236017e-02, -3.65315727442169155270e-02, 1.62858201153657823623e-02
    };

    private java_lang_StrictMath() {}

    private static int high(double x) {
        return (int) (Double.doubleToRawLongBits(x) >> 32);
    }

    private static int low(double x) {
        return (int) Double.doubleToRawLongBits(x);
    }

    private static double withHigh(double x, int high) {
        return Double.longBitsToDouble((long) high << 32 | Double.doubleToRawLongBits(x) & 0xFFFFFFFFL);
    }

    private static double withoutLow(double x) {
        return Double.longBitsToDouble(Double.doubleToRawLongBits(x) & 0xFFFFFFFF00000000L);
    }

    private static boolean isZero(int high, int low) {
        return (high & 0x7FFFFFFF | low) == 0;
    }

    public static double sqrt(double x) {
        return Double.longBitsToDouble(SoftFloat.sqrt(Double.doubleToRawLongBits(x)));
    }

    public static double sin(double x) {
        int ix = high(x) & 0x7FFFFFFF;
        if (ix <= 0x3FE921FB) {
            return kernelSin(x, 0, false);
        }
        if (ix >= 0x7FF00000) {
            return NAN;
        }
        double[] y = new double[2];
        switch (reduce(x, y) & 3) {
            case 0:
                return kernelSin(y[0], y[1], true);
            case 1:
                return kernelCos(y[0], y[1]);
            case 2:
                return -kernelSin(y[0], y[1], true);
            default:
                return -kernelCos(y[0], y[1]);
        }
    }

    public static double cos(double x) {
        int ix = high(x) & 0x7FFFFFFF;
        if (ix <= 0x3FE921FB) {
            return kernelCos(x, 0);
        }
        if (ix >= 0x7FF00000) {
            return NAN;
        }
        double[] y = new double[2];
        switch (reduce(x, y) & 3) {
            case 0:
                return kernelCos(y[0], y[1]);
            case 1:
                return -kernelSin(y[0], y[1], true);
            case 2:
                return -kernelCos(y[0], y[1]);
            default:
                return kernelSin(y[0], y[1], true);
        }
    }

    public static double tan(double x) {
        int ix = high(x) & 0x7FFFFFFF;
        if (ix <= 0x3FE921FB) {
            return kernelTan(x, 0, 1);
        }
        if (ix >= 0x7FF00000) {
            return NAN;
        }
        double[] y = new double[2];
        int n = reduce(x, y);
        return kernelTan(y[0], y[1], 1 - ((n & 1) << 1));
    }

    private static double kernelSin(double x, double y, boolean hasTail) {
        if ((high(x) & 0x7FFFFFFF) < 0x3E400000 && (int) x == 0) {
            return x;
        }
        double z = x * x;
        double v = z * x;
        double r = 8.33333333332248946124e-03 + z * (-1.98412698298579493134e-04 + z * (2.75573137070700676789e-06
                + z * (-2.50507602534068634195e-08 + z * 1.58969099521155010221e-10)));
        double first = -1.66666666666666324348e-01;
        return hasTail ? x - ((z * (0.5 * y - v * r) - y) - v * first) : x + v * (first + z * r);
    }

    private static double kernelCos(double x, double y) {
        int ix = high(x) & 0x7FFFFFFF;
        if (ix < 0x3E400000 && (int) x == 0) {
            return 1;
        }
        double z = x * x;
        double r = z * (4.16666666666666019037e-02 + z * (-1.38888888888741095749e-03 + z * (2.48015872894767294178e-05
                + z * (-2.75573143513906633035e-07 + z * (2.08757232129817482790e-09 + z * -1.13596475577881948265e-11)))));
        if (ix < 0x3FD33333) {
            return 1 - (0.5 * z - (z * r - x * y));
        }
        double quarter = ix > 0x3FE90000 ? 0.28125 : withHigh(0, ix - 0x00200000);
        double half = 0.5 * z - quarter;
        return 1 - quarter - (half - (z * r - x * y));
    }

    private static double kernelTan(double first, double tail, int iy) {
        double x = first;
        double y = tail;
        int hx = high(x);
        int ix = hx & 0x7FFFFFFF;
        if (ix < 0x3E300000 && (int) x == 0) {
            if ((ix | low(x) | iy + 1) == 0) {
                return 1 / Math.abs(x);
            }
            return iy == 1 ? x : minusInverse(x + y, x, y);
        }
        if (ix >= 0x3FE59428) {
            if (hx < 0) {
                x = -x;
                y = -y;
            }
            x = QUARTER_PI - x + (QUARTER_PI_LOW - y);
            y = 0;
        }
        double z = x * x;
        double w = z * z;
        double r = TAN[1] + w * (TAN[3] + w * (TAN[5] + w * (TAN[7] + w * (TAN[9] + w * TAN[11]))));
        double v = z * (TAN[2] + w * (TAN[4] + w * (TAN[6] + w * (TAN[8] + w * (TAN[10] + w * TAN[12])))));
        double s = z * x;
        r = y + z * (s * (r + v) + y);
        r += TAN[0] * s;
        w = x + r;
        if (ix >= 0x3FE59428) {
            v = iy;
            return (1 - (hx >> 30 & 2)) * (v - 2.0 * (x - (w * w / (w + v) - r)));
        }
        return iy == 1 ? w : minusInverse(w, x, r);
    }

    /** -1 / (x + r) with care, where w is x + r. */
    private static double minusInverse(double w, double x, double r) {
        double z = withoutLow(w);
        double v = r - (z - x);
        double a = -1.0 / w;
        double t = withoutLow(a);
        double s = 1.0 + t * z;
        return t + a * (s + t * v);
    }

    /** The remainder of x by pi/2 as y[0] + y[1]; gives the last digits of the quotient. */
    private static int reduce(double x, double[] y) {
        int hx = high(x);
        int ix = hx & 0x7FFFFFFF;
        if (ix <= 0x413921FB) {
            return reduceMedium(x, y, ix);
        }
        int scale = (ix >> 20) - 1046;
        double z = withHigh(x, ix - (scale << 20));
        double[] pieces = new double[3];
        for (int i = 0; i < 2; i++) {
            pieces[i] = (int) z;
            z = (z - pieces[i]) * TWO24;
        }
        pieces[2] = z;
        int count = 3;
        while (pieces[count - 1] == 0) {
            count--;
        }
        int n = reduceLarge(pieces, y, scale, count);
        if (hx < 0) {
            y[0] = -y[0];
            y[1] = -y[1];
            return -n;
        }
        return n;
    }

    private static int reduceMedium(double x, double[] y, int ix) {
        double part1 = 1.57079632673412561417e+00;
        double rest1 = 6.07710050650619224932e-11;
        double part2 = 6.07710050630396597660e-11;
        double rest2 = 2.02226624879595063154e-21;
        double part3 = 2.02226624871116645580e-21;
        double rest3 = 8.47842766036889956997e-32;
        if (ix < 0x4002D97C) {
            boolean near = ix == 0x3FF921FB;
            int sign = high(x) > 0 ? 1 : -1;
            double z = x - sign * part1;
            z = near ? z - sign * part2 : z;
            double rest = sign * (near ? rest2 : rest1);
            y[0] = z - rest;
            y[1] = z - y[0] - rest;
            return sign;
        }
        double t = Math.abs(x);
        int n = (int) (t * 6.36619772367581382433e-01 + 0.5);
        double fn = n;
        double r = t - fn * part1;
        double w = fn * rest1;
        y[0] = r - w;
        if (n >= 32 || ix == MULTIPLES[n - 1]) {
            int j = ix >> 20;
            if (j - (high(y[0]) >> 20 & 0x7FF) > 16) {
                t = r;
                w = fn * part2;
                r = t - w;
                w = fn * rest2 - (t - r - w);
                y[0] = r - w;
                if (j - (high(y[0]) >> 20 & 0x7FF) > 49) {
                    t = r;
                    w = fn * part3;
                    r = t - w;
                    w = fn * rest3 - (t - r - w);
                    y[0] = r - w;
                }
            }
        }
        y[1] = r - y[0] - w;
        if (high(x) < 0) {
            y[0] = -y[0];
            y[1] = -y[1];
            return -n;
        }
        return n;
    }

    private static double scaled(double x, int power) {
        return x * Double.longBitsToDouble((long) (power + 1023) << 52);
    }

    /** fdlibm's `__kernel_rem_pio2` for a result of two doubles. */
    private static int reduceLarge(double[] x, double[] y, int e0, int nx) {
        int jk = 4;
        int jx = nx - 1;
        int jv = e0 - 3 < 0 ? 0 : (e0 - 3) / 24;
        int q0 = e0 - 24 * (jv + 1);
        double[] f = new double[20];
        double[] q = new double[20];
        int[] iq = new int[20];
        for (int i = 0; i <= jx + jk; i++) {
            f[i] = jv - jx + i < 0 ? 0 : TWO_OVER_PI[jv - jx + i];
        }
        for (int i = 0; i <= jk; i++) {
            q[i] = product(x, f, jx, i);
        }
        int jz = jk;
        int n;
        int ih;
        double z;
        while (true) {
            z = q[jz];
            for (int i = 0, j = jz; j > 0; i++, j--) {
                double fw = (int) (TWON24 * z);
                iq[i] = (int) (z - TWO24 * fw);
                z = q[j - 1] + fw;
            }
            z = scaled(z, q0);
            z -= 8.0 * Math.floor(z * 0.125);
            n = (int) z;
            z -= n;
            ih = 0;
            if (q0 > 0) {
                int i = iq[jz - 1] >> 24 - q0;
                n += i;
                iq[jz - 1] -= i << 24 - q0;
                ih = iq[jz - 1] >> 23 - q0;
            } else if (q0 == 0) {
                ih = iq[jz - 1] >> 23;
            } else if (z >= 0.5) {
                ih = 2;
            }
            if (ih > 0) {
                n++;
                boolean carry = complement(iq, jz);
                if (q0 == 1) {
                    iq[jz - 1] &= 0x7FFFFF;
                } else if (q0 == 2) {
                    iq[jz - 1] &= 0x3FFFFF;
                }
                if (ih == 2) {
                    z = 1 - z;
                    z -= carry ? scaled(1, q0) : 0;
                }
            }
            if (z != 0 || !allZero(iq, jk, jz)) {
                break;
            }
            int k = 1;
            while (iq[jk - k] == 0) {
                k++;
            }
            for (int i = jz + 1; i <= jz + k; i++) {
                f[jx + i] = TWO_OVER_PI[jv + i];
                q[i] = product(x, f, jx, i);
            }
            jz += k;
        }
        if (z == 0) {
            do {
                jz--;
                q0 -= 24;
            } while (iq[jz] == 0);
        } else {
            z = scaled(z, -q0);
            if (z >= TWO24) {
                double fw = (int) (TWON24 * z);
                iq[jz] = (int) (z - TWO24 * fw);
                jz++;
                q0 += 24;
                iq[jz] = (int) fw;
            } else {
                iq[jz] = (int) z;
            }
        }
        sum(y, iq, q, jz, q0, ih != 0);
        return n & 7;
    }

    private static double product(double[] x, double[] f, int jx, int i) {
        double sum = 0;
        for (int j = 0; j <= jx; j++) {
            sum += x[j] * f[jx + i - j];
        }
        return sum;
    }

    private static boolean complement(int[] iq, int jz) {
        boolean carry = false;
        for (int i = 0; i < jz; i++) {
            if (carry) {
                iq[i] = 0xFFFFFF - iq[i];
            } else if (iq[i] != 0) {
                carry = true;
                iq[i] = 0x1000000 - iq[i];
            }
        }
        return carry;
    }

    private static boolean allZero(int[] iq, int from, int to) {
        for (int i = from; i < to; i++) {
            if (iq[i] != 0) {
                return false;
            }
        }
        return true;
    }

    private static void sum(double[] y, int[] iq, double[] q, int jz, int q0, boolean negative) {
        double fw = scaled(1, q0);
        for (int i = jz; i >= 0; i--) {
            q[i] = fw * iq[i];
            fw *= TWON24;
        }
        double[] fq = new double[20];
        for (int i = jz; i >= 0; i--) {
            for (int k = 0; k <= 4 && k <= jz - i; k++) {
                fq[jz - i] += PI_PIECES[k] * q[i + k];
            }
        }
        double all = 0;
        for (int i = jz; i >= 0; i--) {
            all += fq[i];
        }
        y[0] = negative ? -all : all;
        double rest = fq[0] - all;
        for (int i = 1; i <= jz; i++) {
            rest += fq[i];
        }
        y[1] = negative ? -rest : rest;
    }

    private static double asinRatio(double t) {
        double p = t * (1.66666666666666657415e-01 + t * (-3.25565818622400915405e-01 + t * (2.01212532134862925881e-01
                + t * (-4.00555345006794114027e-02 + t * (7.91534994289814532176e-04 + t * 3.47933107596021167570e-05)))));
        double q = 1 + t * (-2.40339491173441421878e+00 + t * (2.02094576023350569471e+00
                + t * (-6.88283971605453293030e-01 + t * 7.70381505559019352791e-02)));
        return p / q;
    }

    public static double asin(double x) {
        int hx = high(x);
        int ix = hx & 0x7FFFFFFF;
        if (ix >= 0x3FF00000) {
            return (ix - 0x3FF00000 | low(x)) == 0 ? x * HALF_PI + x * HALF_PI_LOW : NAN;
        }
        if (ix < 0x3FE00000) {
            return ix < 0x3E400000 ? x : x + x * asinRatio(x * x);
        }
        double t = (1 - Math.abs(x)) * 0.5;
        double r = asinRatio(t);
        double s = sqrt(t);
        if (ix >= 0x3FEF3333) {
            t = HALF_PI - (2.0 * (s + s * r) - HALF_PI_LOW);
        } else {
            double w = withoutLow(s);
            double c = (t - w * w) / (s + w);
            double p = 2.0 * s * r - (HALF_PI_LOW - 2.0 * c);
            double q = QUARTER_PI - 2.0 * w;
            t = QUARTER_PI - (p - q);
        }
        return hx > 0 ? t : -t;
    }

    public static double acos(double x) {
        int hx = high(x);
        int ix = hx & 0x7FFFFFFF;
        if (ix >= 0x3FF00000) {
            return (ix - 0x3FF00000 | low(x)) != 0 ? NAN : hx > 0 ? 0.0 : PI + 2.0 * HALF_PI_LOW;
        }
        if (ix < 0x3FE00000) {
            return ix <= 0x3C600000 ? HALF_PI + HALF_PI_LOW : HALF_PI - (x - (HALF_PI_LOW - x * asinRatio(x * x)));
        }
        if (hx < 0) {
            double z = (1 + x) * 0.5;
            double s = sqrt(z);
            double w = asinRatio(z) * s - HALF_PI_LOW;
            return PI - 2.0 * (s + w);
        }
        double z = (1 - x) * 0.5;
        double s = sqrt(z);
        double df = withoutLow(s);
        double c = (z - df * df) / (s + df);
        double w = asinRatio(z) * s + c;
        return 2.0 * (df + w);
    }

    public static double atan(double argument) {
        double x = argument;
        int hx = high(x);
        int ix = hx & 0x7FFFFFFF;
        if (ix >= 0x44100000) {
            if (x != x) {
                return NAN;
            }
            return hx > 0 ? ATAN_HIGH[3] + ATAN_LOW[3] : -ATAN_HIGH[3] - ATAN_LOW[3];
        }
        int id = -1;
        if (ix < 0x3FDC0000) {
            if (ix < 0x3E200000) {
                return x;
            }
        } else {
            x = Math.abs(x);
            if (ix < 0x3FE60000) {
                id = 0;
                x = (2.0 * x - 1) / (2.0 + x);
            } else if (ix < 0x3FF30000) {
                id = 1;
                x = (x - 1) / (x + 1);
            } else if (ix < 0x40038000) {
                id = 2;
                x = (x - 1.5) / (1 + 1.5 * x);
            } else {
                id = 3;
                x = -1.0 / x;
            }
        }
        double z = x * x;
        double w = z * z;
        double s1 = z * (ATAN[0] + w * (ATAN[2] + w * (ATAN[4] + w * (ATAN[6] + w * (ATAN[8] + w * ATAN[10])))));
        double s2 = w * (ATAN[1] + w * (ATAN[3] + w * (ATAN[5] + w * (ATAN[7] + w * ATAN[9]))));
        if (id < 0) {
            return x - x * (s1 + s2);
        }
        z = ATAN_HIGH[id] - (x * (s1 + s2) - ATAN_LOW[id] - x);
        return hx < 0 ? -z : z;
    }

    public static double atan2(double y, double x) {
        if (x != x || y != y) {
            return NAN;
        }
        int hx = high(x);
        int hy = high(y);
        int ix = hx & 0x7FFFFFFF;
        int iy = hy & 0x7FFFFFFF;
        if ((hx - 0x3FF00000 | low(x)) == 0) {
            return atan(y);
        }
        boolean left = hx < 0;
        boolean below = hy < 0;
        if (isZero(hy, low(y))) {
            return left ? below ? -PI : PI : y;
        }
        if (isZero(hx, low(x))) {
            return below ? -HALF_PI : HALF_PI;
        }
        if (ix == 0x7FF00000) {
            double angle = iy == 0x7FF00000 ? left ? 3.0 * QUARTER_PI : QUARTER_PI : left ? PI : 0.0;
            return below ? -angle : angle;
        }
        if (iy == 0x7FF00000) {
            return below ? -HALF_PI : HALF_PI;
        }
        int k = iy - ix >> 20;
        double z = k > 60 ? HALF_PI + 0.5 * PI_LOW : left && k < -60 ? 0.0 : atan(Math.abs(y / x));
        if (left) {
            return below ? z - PI_LOW - PI : PI - (z - PI_LOW);
        }
        return below ? -z : z;
    }

    public static double log(double argument) {
        double x = argument;
        int hx = high(x);
        int k = 0;
        if (hx < 0x00100000) {
            if (isZero(hx, low(x))) {
                return -INFINITY;
            }
            if (hx < 0) {
                return NAN;
            }
            k -= 54;
            x *= TWO54;
            hx = high(x);
        }
        if (hx >= 0x7FF00000) {
            return x + x;
        }
        k += (hx >> 20) - 1023;
        hx &= 0x000FFFFF;
        int i = hx + 0x95F64 & 0x100000;
        x = withHigh(x, hx | i ^ 0x3FF00000);
        k += i >> 20;
        double f = x - 1.0;
        double dk = k;
        if ((0x000FFFFF & 2 + hx) < 3) {
            if (f == 0) {
                return k == 0 ? 0 : dk * LN2_HIGH + dk * LN2_LOW;
            }
            double r = f * f * (0.5 - 0.33333333333333333 * f);
            return k == 0 ? f - r : dk * LN2_HIGH - (r - dk * LN2_LOW - f);
        }
        double s = f / (2.0 + f);
        double z = s * s;
        double w = z * z;
        double t1 = w * (3.999999999940941908e-01 + w * (2.222219843214978396e-01 + w * 1.531383769920937332e-01));
        double t2 = z * (6.666666666666735130e-01 + w * (2.857142874366239149e-01 + w * (1.818357216161805012e-01
                + w * 1.479819860511658591e-01)));
        double r = t2 + t1;
        if ((hx - 0x6147A | 0x6B851 - hx) > 0) {
            double half = 0.5 * f * f;
            return k == 0 ? f - (half - s * (half + r)) : dk * LN2_HIGH - (half - (s * (half + r) + dk * LN2_LOW) - f);
        }
        return k == 0 ? f - s * (f - r) : dk * LN2_HIGH - (s * (f - r) - dk * LN2_LOW - f);
    }

    public static double log10(double argument) {
        double x = argument;
        int hx = high(x);
        int k = 0;
        if (hx < 0x00100000) {
            if (isZero(hx, low(x))) {
                return -INFINITY;
            }
            if (hx < 0) {
                return NAN;
            }
            k -= 54;
            x *= TWO54;
            hx = high(x);
        }
        if (hx >= 0x7FF00000) {
            return x + x;
        }
        k += (hx >> 20) - 1023;
        int i = k >>> 31;
        double y = k + i;
        x = withHigh(x, hx & 0x000FFFFF | 0x3FF - i << 20);
        double z = y * 3.69423907715893078616e-13 + 4.34294481903251816668e-01 * log(x);
        return z + y * 3.01029995663611771306e-01;
    }

    public static double expm1(double argument) {
        double x = argument;
        boolean negative = high(x) < 0;
        int hx = high(x) & 0x7FFFFFFF;
        if (hx >= 0x4043687A) {
            if (hx >= 0x7FF00000) {
                return x != x ? NAN : negative ? -1.0 : x;
            }
            if (x > 7.09782712893383973096e+02) {
                return INFINITY;
            }
            if (negative) {
                return -1.0;
            }
        }
        int k = 0;
        double c = 0;
        if (hx > 0x3FD62E42) {
            double high;
            double low;
            if (hx < 0x3FF0A2B2) {
                k = negative ? -1 : 1;
                high = negative ? x + LN2_HIGH : x - LN2_HIGH;
                low = negative ? -LN2_LOW : LN2_LOW;
            } else {
                k = (int) (1.44269504088896338700e+00 * x + (negative ? -0.5 : 0.5));
                double t = k;
                high = x - t * LN2_HIGH;
                low = t * LN2_LOW;
            }
            x = high - low;
            c = high - x - low;
        } else if (hx < 0x3C900000) {
            return x;
        }
        double half = 0.5 * x;
        double square = x * half;
        double r1 = 1 + square * (-3.33333333333331316428e-02 + square * (1.58730158725481460165e-03
                + square * (-7.93650757867487942473e-05 + square * (4.00821782732936239552e-06
                + square * -2.01099218183624371326e-07))));
        double t = 3.0 - r1 * half;
        double e = square * ((r1 - t) / (6.0 - x * t));
        if (k == 0) {
            return x - (x * e - square);
        }
        e = x * (e - c) - c;
        e -= square;
        if (k == -1) {
            return 0.5 * (x - e) - 0.5;
        }
        if (k == 1) {
            return x < -0.25 ? -2.0 * (e - (x + 0.5)) : 1 + 2.0 * (x - e);
        }
        if (k <= -2 || k > 56) {
            double y = 1 - (e - x);
            return withHigh(y, high(y) + (k << 20)) - 1;
        }
        double y;
        if (k < 20) {
            y = withHigh(0, 0x3FF00000 - (0x200000 >> k)) - (e - x);
        } else {
            y = x - (e + withHigh(0, 0x3FF - k << 20));
            y += 1;
        }
        return withHigh(y, high(y) + (k << 20));
    }

    public static double log1p(double x) {
        int hx = high(x);
        int ax = hx & 0x7FFFFFFF;
        int k = 1;
        double f = 0;
        int hu = 1;
        double c = 0;
        if (hx < 0x3FDA827A) {
            if (ax >= 0x3FF00000) {
                return x == -1.0 ? -INFINITY : NAN;
            }
            if (ax < 0x3E200000) {
                return ax < 0x3C900000 ? x : x - x * x * 0.5;
            }
            if (hx > 0 || hx <= 0xBFD2BEC3) {
                k = 0;
                f = x;
            }
        }
        if (hx >= 0x7FF00000) {
            return x + x;
        }
        if (k != 0) {
            double u = hx < 0x43400000 ? 1.0 + x : x;
            hu = high(u);
            k = (hu >> 20) - 1023;
            if (hx < 0x43400000) {
                c = k > 0 ? 1.0 - (u - x) : x - (u - 1.0);
                c /= u;
            }
            hu &= 0x000FFFFF;
            if (hu < 0x6A09E) {
                u = withHigh(u, hu | 0x3FF00000);
            } else {
                k++;
                u = withHigh(u, hu | 0x3FE00000);
                hu = 0x00100000 - hu >> 2;
            }
            f = u - 1.0;
        }
        double half = 0.5 * f * f;
        if (hu == 0) {
            if (f == 0) {
                return k == 0 ? 0 : k * LN2_HIGH + (c + k * LN2_LOW);
            }
            double r = half * (1.0 - 0.66666666666666666 * f);
            return k == 0 ? f - r : k * LN2_HIGH - (r - (k * LN2_LOW + c) - f);
        }
        double s = f / (2.0 + f);
        double z = s * s;
        double r = z * (6.666666666666735130e-01 + z * (3.999999999940941908e-01 + z * (2.857142874366239149e-01
                + z * (2.222219843214978396e-01 + z * (1.818357216161805012e-01 + z * (1.531383769920937332e-01
                + z * 1.479819860511658591e-01))))));
        return k == 0 ? f - (half - s * (half + r)) : k * LN2_HIGH - (half - (s * (half + r) + (k * LN2_LOW + c)) - f);
    }

    private static boolean overflows(double x) {
        int ix = high(x) & 0x7FFFFFFF;
        return ix > 0x408633CE || ix == 0x408633CE && (low(x) ^ 0x80000000) > (0x8FB9F87D ^ 0x80000000);
    }

    public static double sinh(double x) {
        int ix = high(x) & 0x7FFFFFFF;
        if (ix >= 0x7FF00000) {
            return x + x;
        }
        double h = high(x) < 0 ? -0.5 : 0.5;
        double magnitude = Math.abs(x);
        if (ix < 0x40360000) {
            if (ix < 0x3E300000) {
                return x;
            }
            double t = expm1(magnitude);
            return ix < 0x3FF00000 ? h * (2.0 * t - t * t / (t + 1)) : h * (t + t / (t + 1));
        }
        if (ix < 0x40862E42) {
            return h * StrictMath.exp(magnitude);
        }
        if (!overflows(x)) {
            double w = StrictMath.exp(0.5 * magnitude);
            double t = h * w;
            return t * w;
        }
        return x * 1.0e307;
    }

    public static double cosh(double x) {
        int ix = high(x) & 0x7FFFFFFF;
        if (ix >= 0x7FF00000) {
            return x * x;
        }
        double magnitude = Math.abs(x);
        if (ix < 0x3FD62E43) {
            double t = expm1(magnitude);
            double w = 1 + t;
            return ix < 0x3C800000 ? w : 1 + t * t / (w + w);
        }
        if (ix < 0x40360000) {
            double t = StrictMath.exp(magnitude);
            return 0.5 * t + 0.5 / t;
        }
        if (ix < 0x40862E42) {
            return 0.5 * StrictMath.exp(magnitude);
        }
        if (!overflows(x)) {
            double w = StrictMath.exp(0.5 * magnitude);
            double t = 0.5 * w;
            return t * w;
        }
        return INFINITY;
    }

    public static double tanh(double x) {
        int ix = high(x) & 0x7FFFFFFF;
        boolean negative = high(x) < 0;
        if (ix >= 0x7FF00000) {
            return negative ? 1 / x - 1 : 1 / x + 1;
        }
        double z = 1;
        if (ix < 0x40360000) {
            if (ix < 0x3C800000) {
                return x * (1 + x);
            }
            if (ix >= 0x3FF00000) {
                z = 1 - 2 / (expm1(2 * Math.abs(x)) + 2);
            } else {
                double t = expm1(-2 * Math.abs(x));
                z = -t / (t + 2);
            }
        }
        return negative ? -z : z;
    }

    public static double IEEEremainder(double dividend, double divisor) {
        double x = dividend;
        double p = Math.abs(divisor);
        boolean special = x != x || p != p || Math.abs(x) == INFINITY || p == 0;
        if (special) {
            return NAN;
        }
        boolean equal = Math.abs(x) == p;
        int hp = high(p);
        if (hp <= 0x7FDFFFFF) {
            x %= p + p;
        }
        if (equal) {
            return 0 * dividend;
        }
        boolean negative = high(dividend) < 0;
        x = Math.abs(x);
        if (hp < 0x00200000) {
            if (x + x > p) {
                x -= p;
                x = x + x >= p ? x - p : x;
            }
        } else {
            double half = 0.5 * p;
            if (x > half) {
                x -= p;
                x = x >= half ? x - p : x;
            }
        }
        return negative ? -x : x;
    }
}
