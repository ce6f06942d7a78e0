package desugar;

/** A method by its class (internal name), name and descriptor, as they stand in the class files that were read. */
record MethodRef(String owner, String name, String descriptor) {
    /** The method's text in a report: `a.b.C.name`. */
    String shown() {
        return owner.replace('/', '.') + "." + name;
    }

    /** What names the method inside its class. */
    String key() {
        return name + descriptor;
    }
}
