/** Tests that share one large array, which the first of them makes. */
public class Wide {
    static int[] cells = new int[1 << 21];

    /** One cell beside what making the array touches. */
    static void one() {
        cells[0] = 1;
    }

    /** Each cell, and no two neighbours one after the other. */
    static void apart() {
        int[] all = cells;
        int place = 0;
        for (int i = 0; i < all.length; i++) {
            place = (place + 1048583) & (all.length - 1);
            all[place] = all[place] + 1;
        }
    }
}
