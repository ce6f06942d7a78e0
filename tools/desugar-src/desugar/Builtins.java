package desugar;

import java.io.BufferedReader;
import java.io.IOException;
import java.io.InputStreamReader;
import java.io.UncheckedIOException;
import java.nio.charset.StandardCharsets;
import java.util.Arrays;
import java.util.LinkedHashMap;
import java.util.LinkedHashSet;
import java.util.Map;
import java.util.Set;

/** The built-in classes of the program, with their members: the table `builtins.txt`. */
final class Builtins {
    static final String OBJECT = "java/lang/Object";
    static final String STRING = "java/lang/String";
    static final String THROWABLE = "java/lang/Throwable";

    private record Builtin(String above, Set<String> members) {}

    private final Map<String, Builtin> classes = new LinkedHashMap<>();

    Builtins() {
        try (BufferedReader lines = new BufferedReader(
                new InputStreamReader(Builtins.class.getResourceAsStream("builtins.txt"), StandardCharsets.UTF_8))) {
            lines.lines().map(line -> line.split(" ")).forEach(this::take);
        } catch (IOException failure) {
            throw new UncheckedIOException(failure);
        }
    }

    private void take(String[] words) {
        String above = words[1].equals("-") ? null : words[1];
        classes.put(words[0], new Builtin(above, new LinkedHashSet<>(Arrays.asList(words).subList(2, words.length))));
    }

    /** Names of all of them, each behind the class above it. */
    Set<String> names() {
        return classes.keySet();
    }

    boolean has(String name) {
        return classes.containsKey(name);
    }

    /** The class above a built-in one; null for Object. */
    String superOf(String name) {
        return classes.get(name).above;
    }

    /** Whether the class, or one above it, has the method; a constructor is looked for in the class alone. */
    boolean hasMethod(String owner, String name, String descriptor) {
        for (String at = owner; at != null; at = superOf(at)) {
            if (classes.get(at).members.contains(name + descriptor)) {
                return true;
            }
            if (name.equals("<init>")) {
                return false;
            }
        }
        return false;
    }

    boolean hasField(String owner, String name, String descriptor) {
        return classes.get(owner).members.contains(name + ":" + descriptor);
    }

    boolean isThrowable(String name) {
        return has(name) && (name.equals(THROWABLE) || superOf(name) != null && isThrowable(superOf(name)));
    }
}
