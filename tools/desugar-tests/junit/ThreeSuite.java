package kinds;

import junit.framework.Test;
import junit.framework.TestCase;
import junit.framework.TestSuite;

/** A class whose `suite()` makes tests of an object that a method of its own answers. */
public class ThreeSuite extends TestCase {
    public ThreeSuite(String name) {
        super(name);
    }

    public static Test suite() {
        TestSuite all = new TestSuite(ThreeSuite.class);
        TestSuite inner = new TestSuite("inner");
        TestCase made = new ThreeSuite("testPlain").inner();
        made.setName("testMade");
        inner.addTest(made);
        all.addTest(inner);
        return all;
    }

    public TestCase inner() {
        return new Inner(getName());
    }

    public void testPlain() {
        assertNotNull(inner());
    }

    public static final class Inner extends TestCase {
        private final String from;

        Inner(String from) {
            this.from = from;
        }

        public void testMade() {
            assertEquals("testMade", getName());
            assertTrue(from.startsWith("test"));
        }
    }
}
