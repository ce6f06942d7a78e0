package desugar;

import java.io.BufferedReader;
import java.io.IOException;
import java.io.InputStreamReader;
import java.io.UncheckedIOException;
import java.nio.charset.StandardCharsets;
import java.util.HashMap;
import java.util.HashSet;
import java.util.Map;
import java.util.Set;

/**
 * Which classes of the JDK are served by their own code: the table `served-jdk.txt`. A line `+ PREFIX` serves the classes whose names
 * begin so, `- PREFIX` doesn't; the longest line that fits holds. Throwables of Java's packages are served. A line `x CLASS.METHOD` cuts
 * a method that would bring in more than it is worth. A line `c CLASS.FIELD NEW` tells of a static field that it is a cache, which
 * changes no result: each read of it makes a new object of the class NEW, so that it ties no tests.
 */
final class ServedJdk {
    private final Map<String, Boolean> prefixes = new HashMap<>();
    private final Set<String> leftOut = new HashSet<>();
    private final Map<String, String> caches = new HashMap<>();

    ServedJdk() {
        try (BufferedReader lines = new BufferedReader(
                new InputStreamReader(ServedJdk.class.getResourceAsStream("served-jdk.txt"), StandardCharsets.UTF_8))) {
            lines.lines().filter(line -> !line.isBlank()).forEach(this::take);
        } catch (IOException failure) {
            throw new UncheckedIOException(failure);
        }
    }

    private void take(String line) {
        String name = line.substring(2);
        if (line.charAt(0) == 'x') {
            leftOut.add(name);
        } else if (line.charAt(0) == 'c') {
            String[] words = name.split(" ");
            caches.put(words[0], words[1]);
        } else {
            prefixes.put(name, line.charAt(0) == '+');
        }
    }

    /** Whether a method of a class that is served isn't. */
    boolean leavesOut(String owner, String method) {
        return leftOut.contains(owner + "." + method);
    }

    /** The class of which a read of a static field makes an object, where the field is a cache; else null. */
    String madeAnew(String owner, String field) {
        return caches.get(owner + "." + field);
    }

    boolean serves(String name) {
        boolean ofJava = name.startsWith("java/") || name.startsWith("javax/") || name.startsWith("org/xml/") || name.startsWith("org/w3c/");
        if (ofJava && (name.endsWith("Exception") || name.endsWith("Error"))) {
            return true;
        }
        for (int length = name.length(); length > 0; length--) {
            Boolean holds = prefixes.get(name.substring(0, length));
            if (holds != null) {
                return holds;
            }
        }
        return false;
    }
}
