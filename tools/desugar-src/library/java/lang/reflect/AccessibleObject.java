package java.lang.reflect;

import jamuvelor.lib.Reflection;
import jamuvelor.lib.Unserved;
import java.lang.annotation.Annotation;

/** A member of a class, and who may use it. */
public class AccessibleObject {
    private final String annotations;
    private boolean accessible;

    /** @param annotations the class tokens of the annotations that it carries at run time, joined by commas */
    AccessibleObject(String annotations) {
        this.annotations = annotations;
    }

    public boolean isAnnotationPresent(Class<? extends Annotation> type) {
        return ("," + annotations + ",").contains(",interface " + type.getName() + ",");
    }

    /** Null where there is none; what it says isn't served. */
    public <A extends Annotation> A getAnnotation(Class<A> type) {
        if (isAnnotationPresent(type)) {
            throw new Unserved("annotation " + type.getName());
        }
        return null;
    }

    public Annotation[] getAnnotations() {
        if (!annotations.isEmpty()) {
            throw new Unserved("annotations " + annotations);
        }
        return new Annotation[0];
    }

    public Annotation[] getDeclaredAnnotations() {
        return getAnnotations();
    }

    public void setAccessible(boolean accessible) {
        this.accessible = accessible;
    }

    public static void setAccessible(AccessibleObject[] members, boolean accessible) {
        for (AccessibleObject each : members) {
            each.setAccessible(accessible);
        }
    }

    public boolean trySetAccessible() {
        accessible = true;
        return true;
    }

    public boolean isAccessible() {
        return accessible;
    }

    /**
     * Refuses what the JVM refuses to a class that uses a member of another one.
     *
     * @param caller `caller NAME` of the class that asks, or `caller NAME HOST` with the host of its nest; null where it isn't known, so
     *     that only what is private is refused
     */
    void check(Class<?> owner, int modifiers, String caller) throws IllegalAccessException {
        String[] words = caller == null ? new String[0] : caller.split(" ");
        boolean open = words.length == 0 ? !Modifier.isPrivate(modifiers)
                : isOfNest(owner.getName(), words[words.length - 1], words.length > 2) || words[1].equals(owner.getName())
                        || isOpen(owner, modifiers, words[1]);
        if (!accessible && !open) {
            throw new IllegalAccessException("class " + (words.length == 0 ? "" : words[1] + " ") + "cannot access a member of " + owner
                    + " with modifiers \"" + Modifier.toString(modifiers) + "\"");
        }
    }

    private static boolean isOfNest(String name, String host, boolean hasNest) {
        return hasNest && (name.equals(host) || name.startsWith(host + "$"));
    }

    private static boolean isOpen(Class<?> owner, int modifiers, String caller) {
        String name = owner.getName();
        boolean near = name.substring(0, name.lastIndexOf('.') + 1).equals(caller.substring(0, caller.lastIndexOf('.') + 1));
        boolean told = (owner.getModifiers() & (Modifier.PUBLIC | Modifier.PROTECTED)) != 0;
        if (near || !told || Modifier.isPrivate(modifiers)) {
            return near && !Modifier.isPrivate(modifiers);
        }
        return Modifier.isPublic(modifiers) || Modifier.isProtected(modifiers) && Reflection.isBelow(caller, owner);
    }
}
