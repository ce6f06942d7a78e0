package sun.security.action;

public class GetPropertyAction implements java.security.PrivilegedAction<String> {
    private final String name;

    public GetPropertyAction(String name) {
        this.name = name;
    }

    @Override
    public String run() {
        return System.getProperty(name);
    }

    public static String privilegedGetProperty(String name) {
        return System.getProperty(name);
    }

    public static String privilegedGetProperty(String name, String other) {
        return System.getProperty(name, other);
    }
}
