package sun.security.action;

/** Properties of the JDK's own are not set. */
public class GetBooleanAction implements java.security.PrivilegedAction<Boolean> {
    public GetBooleanAction(String name) {}

    @Override
    public Boolean run() {
        return false;
    }
}
