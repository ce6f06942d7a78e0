package java.lang.reflect;

import jamuvelor.lib.Reflection;

public final class Method extends Executable {
    private final Class<?> result;

    public Method(
            Class<?> owner, int index, String name, int modifiers, Class<?>[] parameters, Class<?> result, String annotations, String thrown) {
        super(owner, index, name, modifiers, parameters, annotations, thrown);
        this.result = result;
    }

    public Class<?> getReturnType() {
        return result;
    }

    public boolean isBridge() {
        return hasFlag(0x40);
    }

    public boolean isDefault() {
        return owner.isInterface() && !Modifier.isStatic(getModifiers()) && !Modifier.isAbstract(getModifiers());
    }

    public Object invoke(Object target, Object[] arguments) throws IllegalAccessException, InvocationTargetException {
        return invoke(target, arguments, null);
    }

    public Object invoke(Object target, Object[] arguments, String caller) throws IllegalAccessException, InvocationTargetException {
        check(owner, getModifiers(), caller);
        if (!Modifier.isStatic(getModifiers())) {
            if (target == null) {
                throw new NullPointerException();
            }
            if (!owner.isInstance(target)) {
                throw new IllegalArgumentException("object is not an instance of declaring class");
            }
        }
        Object[] given = checked(arguments);
        try {
            return Reflection.invoke(owner, index, target, given);
        } catch (Throwable thrown) {
            throw new InvocationTargetException(thrown);
        }
    }

    @Override
    public boolean equals(Object other) {
        return other instanceof Method && isSame((Method) other);
    }

    @Override
    public String toString() {
        String modifiers = Modifier.toString(getModifiers() & Modifier.methodModifiers());
        return (modifiers.isEmpty() ? "" : modifiers + " ") + result.getTypeName() + " " + signature();
    }
}
