package kinds;

import junit.framework.TestCase;

public abstract class ThreeBase extends TestCase {
    static int ended;
    int begun;

    protected ThreeBase(String name) {
        super(name);
    }

    @Override
    protected void setUp() {
        begun = 1;
    }

    @Override
    protected void tearDown() {
        ended++;
    }

    public void testInherited() {
        assertEquals(1, begun);
        assertEquals("testInherited", getName());
    }

    public void testHidden() {
        fail("hidden");
    }
}
