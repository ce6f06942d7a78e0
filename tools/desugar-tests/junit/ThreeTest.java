package kinds;

public class ThreeTest extends ThreeBase {
    public ThreeTest(String name) {
        super(name);
    }

    @Override
    public void testHidden() {
        assertTrue(ended >= 0);
    }

    public void testFails() {
        assertEquals(2, begun);
    }

    public void testThrows() {
        throw new IllegalStateException("thrown");
    }

    public void notATest() {
        fail();
    }

    public void testArgument(int given) {
        fail();
    }
}
