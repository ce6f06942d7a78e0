import electric.Files;

/** Tests that touch files and properties of many names. */
public class Names {
    /** As many files as properties, each written once. */
    static void all(int count) {
        for (int i = 0; i < count; i++) {
            Files.append("file" + i, "a");
            System.setProperty("property" + i, "a");
        }
    }
}
