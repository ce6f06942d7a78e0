package java.util;


/** Properties over a hash table, without the forms of writing them. */
public class Properties extends Hashtable<Object, Object> {
    protected volatile Properties defaults;

    public Properties() {}

    public Properties(int capacity) {}

    public Properties(Properties defaults) {
        this.defaults = defaults;
    }

    public synchronized Object setProperty(String name, String value) {
        return put(name, value);
    }

    public String getProperty(String name) {
        Object value = super.get(name);
        if (value instanceof String) {
            return (String) value;
        }
        return defaults != null ? defaults.getProperty(name) : null;
    }

    public String getProperty(String name, String other) {
        String value = getProperty(name);
        return value == null ? other : value;
    }

    public Enumeration<?> propertyNames() {
        return Collections.enumeration(all().keySet());
    }

    public Set<String> stringPropertyNames() {
        Map<String, String> names = new HashMap<>();
        for (Map.Entry<String, Object> each : all().entrySet()) {
            if (each.getValue() instanceof String) {
                names.put(each.getKey(), (String) each.getValue());
            }
        }
        return Collections.unmodifiableSet(names.keySet());
    }

    private Map<String, Object> all() {
        Map<String, Object> found = defaults != null ? defaults.all() : new HashMap<>();
        for (Map.Entry<Object, Object> each : entrySet()) {
            found.put((String) each.getKey(), each.getValue());
        }
        return found;
    }
}
