package jamuvelor.lib.jdk;

import java.security.PrivilegedAction;

/** In place of methods of AccessController: all is allowed. */
public final class java_security_AccessController {
    private java_security_AccessController() {}

    public static Object doPrivileged(PrivilegedAction<?> action) {
        return action.run();
    }
}
