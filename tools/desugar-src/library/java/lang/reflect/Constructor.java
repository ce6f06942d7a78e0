package java.lang.reflect;

import jamuvelor.lib.Reflection;

public final class Constructor<T> extends Executable {
    public Constructor(Class<?> owner, int index, int modifiers, Class<?>[] parameters, String annotations, String thrown) {
        super(owner, index, owner.getName(), modifiers, parameters, annotations, thrown);
    }

    public T newInstance(Object[] arguments) throws InstantiationException, IllegalAccessException, InvocationTargetException {
        return newInstance(arguments, null);
    }

    @SuppressWarnings("unchecked")
    public T newInstance(Object[] arguments, String caller) throws InstantiationException, IllegalAccessException, InvocationTargetException {
        check(owner, getModifiers(), caller);
        Object[] given = checked(arguments);
        if (Modifier.isAbstract(owner.getModifiers())) {
            throw new InstantiationException();
        }
        try {
            return (T) Reflection.construct(owner, index, given);
        } catch (Throwable thrown) {
            throw new InvocationTargetException(thrown);
        }
    }

    @Override
    public boolean equals(Object other) {
        return other instanceof Constructor && isSame((Constructor<?>) other);
    }

    @Override
    public String toString() {
        String modifiers = Modifier.toString(getModifiers() & Modifier.constructorModifiers());
        return withParameters(new StringBuilder(modifiers).append(modifiers.isEmpty() ? "" : " ").append(owner.getTypeName()));
    }
}
