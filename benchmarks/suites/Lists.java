/** Tests that go along one list, which the first of them makes, and write its last node. */
public class Lists {
    static Lists first;

    Lists next;
    int value;

    static void make(int count) {
        for (int i = 0; i < count; i++) {
            Lists made = new Lists();
            made.next = first;
            first = made;
        }
    }

    static void last() {
        Lists at = first;
        while (at.next != null) {
            at = at.next;
        }
        at.value++;
    }
}
