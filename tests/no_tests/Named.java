interface Named {
    String TEXT = "x";
    int COUNT = 7;

    default int size() {
        return COUNT;
    }

    static long big() {
        return 1L << 40;
    }

    boolean same(Named other);
}
