package jamuvelor.lib.jdk;

/** In place of what the JDK's packages ask of one another; see `jdk_internal_access_JavaLangAccess`. */
public final class jdk_internal_access_SharedSecrets {
    private jdk_internal_access_SharedSecrets() {}

    public static Object getJavaLangAccess() {
        return null;
    }

    public static Object getJavaUtilCollectionAccess() {
        return null;
    }

    public static void setJavaUtilCollectionAccess(Object access) {}
}
