package desugar;

import java.util.LinkedHashMap;
import java.util.Map;

/** What to do about what isn't served, by how its text begins. */
final class Remedies {
    private static final Map<String, String> BY_START = new LinkedHashMap<>();

    static {
        BY_START.put("java.lang.Thread", "test the work that the thread does, without the thread");
        BY_START.put("java.util.concurrent.", "test the task without an executor");
        BY_START.put("java.lang.Class.", "no reflection: call what is meant directly");
        BY_START.put("java.lang.reflect.", "no reflection: call what is meant directly");
        BY_START.put("java.io.", "no files: read from a String or bytes");
        BY_START.put("java.nio.", "no files: read from a String or bytes");
        BY_START.put("java.util.Calendar", "give the time as a number");
        BY_START.put("java.time.", "give the time as a number");
        BY_START.put("java.text.", "format by a method of your own");
        BY_START.put("native ", "a method of the machine itself: avoid it");
    }

    private Remedies() {}

    static String of(String what) {
        return BY_START.entrySet().stream().filter(each -> what.startsWith(each.getKey())).map(Map.Entry::getValue).findFirst().orElse("");
    }
}
