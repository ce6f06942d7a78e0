package language;

import electric.Env;

/** Strings and string builders. */
public class TextsTest {
    StringBuilder log;

    public void setUp() {
        log = new StringBuilder("log:");
        System.out.print("up ");
    }

    public void tearDown() {
        System.out.println(log.toString() + log.length());
    }

    public void testJoined() {
        String name = "w" + log.length();
        log.append(name).append(true).append('c').append(-7).append(9000000000L).append((String) null);
        Check.same("log:w4truec-79000000000null", log.toString());
    }

    public void testParts() {
        String text = "detector";
        Check.same("tec", text.substring(2, 5));
        Check.same("tor", text.substring(5));
        Check.same("", text.substring(8));
        Check.same('o', text.charAt(6));
        Check.that("".isEmpty() && !text.isEmpty());
        Check.same(8, text.length());
        Check.same("detectors", text.concat("s"));
        Check.that(text == text.concat(""));
        Check.that(text.toString() == text && text.equals("detec".concat("tor")) && !text.equals(null) && !text.equals(log));
        Env.print(text.hashCode());
        Env.print("\u00e9\u20ac\u4e2d".hashCode());
    }

    public void testValues() {
        Check.same("-2147483648", String.valueOf(-2147483648));
        Check.same("-9223372036854775808", String.valueOf(-9223372036854775808L));
        Check.same("false", String.valueOf(false));
        Check.same("q", String.valueOf('q'));
        log.append(String.valueOf(0));
    }

    public void testOutOfRange() {
        int caught = 0;
        try {
            log.append("abc".charAt(3));
        } catch (StringIndexOutOfBoundsException e) {
            caught++;
        }
        try {
            log.append("abc".substring(2, 1));
        } catch (StringIndexOutOfBoundsException e) {
            caught++;
        }
        try {
            log.append("abc".substring(4));
        } catch (IndexOutOfBoundsException e) {
            caught++;
        }
        try {
            log.append("abc".concat(null));
        } catch (NullPointerException e) {
            caught++;
        }
        log.append(caught);
        Check.same("log:4", log.toString());
    }

    public void testPrinted() {
        System.out.print(true);
        System.out.print('x');
        System.out.print(12);
        System.out.print(13L);
        System.out.print((String) null);
        System.out.println();
        System.out.println(false);
        System.out.println('y');
        System.out.println(14);
        System.out.println(15L);
        System.out.println("text");
    }

    public void testLong() {
        for (int i = 0; i < 2000; i++) {
            log.append(i % 10);
        }
        String text = log.toString();
        Env.print(text.hashCode());
        log = new StringBuilder(text.substring(1990));
        Check.same(14, log.length());
    }

    public void testConstants() {
        Check.that("a" + "b" == "ab");
        Check.that(log.toString() != log.toString());
        throw new IllegalArgumentException(log.append(" thrown").toString());
    }
}
