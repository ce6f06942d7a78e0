interface Shape {
    int sides();

    default int twice() {
        return 2 * sides();
    }

    static Shape of(int n) {
        return new Shape() {
            public int sides() {
                return n;
            }
        };
    }
}
