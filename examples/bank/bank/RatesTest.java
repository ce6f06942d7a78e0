package bank;

/** Tests of a cache that is kept in a static. */
public class RatesTest {
    public static void testFirst() {
        Check.equal(109, Rates.of("USD"));
        Check.equal(1, Rates.reads);
    }

    public static void testAgain() {
        Check.equal(109, Rates.of("USD"));
        System.out.println(Rates.reads + " reads");
        Check.equal(1, Rates.reads);
    }

    public static void testOther() {
        System.out.print("GBP is ");
        System.out.println(Rates.of("GBP"));
    }

    public static void testUnknown() {
        Rates.of("XXX");
    }
}
