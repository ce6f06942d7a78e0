package language;

import electric.Env;

/** Arithmetic of int and long, conversions and comparisons (JVMS 6.5). */
public class NumbersTest {
    int seven = 7;
    long large = 1L << 40;

    public void testWrapping() {
        Check.same(-2147483648, 2147483647 + (seven - 6));
        Check.same(-2147483648, -(-2147483647 - (seven - 6)));
        Check.same(-9223372036854775808L, 9223372036854775807L + (seven - 6));
        Env.print(46341 * (46334 + seven));
        System.out.println(large * large + large);
    }

    public void testDivision() {
        Check.same(-2, -15 / seven);
        Check.same(-1, -15 % seven);
        Check.same(-2147483648, -2147483648 / (seven - 8));
        Check.same(0, -2147483648 % (seven - 8));
        Check.same(-9223372036854775808L, -9223372036854775808L / (seven - 8L));
        Check.same(157095515610L, large * 1000 / 6999 - 18446744L % seven - 16290);
    }

    public void testDivisionByZero() {
        int caught = 0;
        try {
            Env.print(seven / (seven - 7));
        } catch (ArithmeticException e) {
            caught++;
        }
        try {
            System.out.print(large % (seven - 7));
        } catch (ArithmeticException e) {
            caught++;
        }
        Check.same(2, caught);
        Env.print(seven % (caught - 2));
    }

    public void testShifts() {
        for (int i = -2; i < 70; i += 9) {
            System.out.print(-123456789 << i);
            System.out.print(' ');
            System.out.print(-123456789 >> i);
            System.out.print(' ');
            System.out.print(-123456789 >>> i);
            System.out.print(' ');
            System.out.print(-1234567890123456789L << i);
            System.out.print(' ');
            System.out.print(-1234567890123456789L >> i);
            System.out.print(' ');
            System.out.println(-1234567890123456789L >>> i);
        }
    }

    public void testBits() {
        Check.same(0x0f0f0f0f & 0x12345678 | 0x70000000 ^ seven, (0x0f0f0f0f & 0x12345678) | (0x70000000 ^ 7));
        System.out.println(~seven & 0xff);
        System.out.println(large ^ -1L);
        System.out.println(large | seven);
    }

    public void testConversions() {
        for (int i = -200; i < 70000; i += 12345) {
            System.out.print((byte) i);
            System.out.print(' ');
            System.out.print((short) (i * 3));
            System.out.print(' ');
            System.out.print((int) (char) i);
            System.out.print(' ');
            System.out.println((int) (large * i + i));
        }
    }

    public void testComparisons() {
        int found = 0;
        if (large > 5) found += 1;
        if (large < -large) found += 2;
        if (large == 1099511627776L) found += 4;
        if (large != large + 1) found += 8;
        if (-1L <= 0) found += 16;
        if (seven >= 7) found += 32;
        if (seven <= 6) found += 64;
        found += seven > 6 == large > 6 ? 128 : 256;
        Check.same(189, found);
    }

    public void testCompound() {
        byte b = 120;
        b += 10;
        Check.same(-126, b);
        short s = 32000;
        s *= 3;
        Check.same(30464, s);
        char c = 'z';
        c++;
        System.out.println(c);
        int i = 5;
        i += i++ + ++i;
        Check.same(17, i);
        long l = 3;
        l <<= 40;
        l -= i;
        Check.same(3298534883311L, l);
    }
}
