package desugar;

import java.io.IOException;
import java.nio.file.Path;
import java.util.ArrayList;
import java.util.List;
import java.util.Set;

/**
 * A suite that was written.
 *
 * @param number its number, from 1
 * @param place the folder that it stands in
 * @param classes internal names of its classes
 * @param warm the adapter of the warm-up, before the others; empty where none is asked for
 */
record Written(Part part, int number, Path place, SuiteFolder folder, Set<String> classes, List<Part.Adapter> warm) {
    /** Writes the suite text of these tests, behind the warm-up. */
    void writeText(List<Part.Adapter> tests) throws IOException {
        List<Part.Adapter> all = new ArrayList<>(warm);
        all.addAll(tests);
        folder.writeText(classes, all);
    }
}
