package java.lang;

import jamuvelor.lib.Unserved;
import java.io.InputStream;
import java.net.URL;
import java.util.Enumeration;

/** The one loader that all classes of the project have; it has no resources. */
public abstract class ClassLoader {
    private static final class Whole extends ClassLoader {}

    private static final ClassLoader WHOLE = new Whole();

    protected ClassLoader() {}

    protected ClassLoader(ClassLoader parent) {}

    public static ClassLoader getSystemClassLoader() {
        return WHOLE;
    }

    public final ClassLoader getParent() {
        return null;
    }

    public Class<?> loadClass(String name) throws ClassNotFoundException {
        return Class.forName(name);
    }

    public URL getResource(String name) {
        throw new Unserved("java.lang.ClassLoader.getResource");
    }

    public Enumeration<URL> getResources(String name) {
        throw new Unserved("java.lang.ClassLoader.getResources");
    }

    public InputStream getResourceAsStream(String name) {
        throw new Unserved("java.lang.ClassLoader.getResourceAsStream");
    }

    public static InputStream getSystemResourceAsStream(String name) {
        throw new Unserved("java.lang.ClassLoader.getSystemResourceAsStream");
    }
}
