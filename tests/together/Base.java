class Base implements Shape {
    final long size;

    Base(long size) {
        this.size = size;
    }

    public int sides() {
        return (int) size;
    }
}
