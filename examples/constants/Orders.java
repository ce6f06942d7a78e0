/** What the shop keeps: how many orders there are. */
class Orders {
    static int count = 0;

    static void add(int items) {
        if (items > Limits.items) {
            throw new IllegalArgumentException("too many");
        }
        count++;
    }
}
