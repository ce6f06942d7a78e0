package desugar;

/**
 * What has come of a test that has an adapter.
 *
 * @param kind whether it stands in a suite text
 * @param part the number of its suite, from 1; 0 where it stands in none
 * @param outcome how it ended on the program, where it was run there; else null
 * @param why for a test that stands in no suite text, the reason; and what to do about it
 */
record Status(Kind kind, int part, Electric.Outcome outcome, String why, String remedy) {
    enum Kind {
        /** It stands in a suite text. */
        SERVED,
        /** It met what isn't served, or can't be rewritten. */
        UNSERVED,
        /** It passed its units. */
        OVER_BUDGET,
        /** It ended otherwise than on JUnit, and was taken out for that. */
        DIFFERING
    }

    static Status left(Kind kind, String why, String remedy) {
        return new Status(kind, 0, null, why, remedy);
    }
}
