package java.lang.reflect;

import jamuvelor.lib.Reflection;

/** A method or constructor, by its place in the table of its class. */
public abstract class Executable extends AccessibleObject implements Member {
    final Class<?> owner;
    final int index;
    private final String name;
    private final int modifiers;
    private final Class<?>[] parameters;
    private final String thrown;

    /** @param thrown the class tokens of what it declares to throw, joined by commas */
    Executable(Class<?> owner, int index, String name, int modifiers, Class<?>[] parameters, String annotations, String thrown) {
        super(annotations);
        this.owner = owner;
        this.index = index;
        this.name = name;
        this.modifiers = modifiers;
        this.parameters = parameters;
        this.thrown = thrown;
    }

    @Override
    public Class<?> getDeclaringClass() {
        return owner;
    }

    @Override
    public String getName() {
        return name;
    }

    @Override
    public int getModifiers() {
        return modifiers & 0x0D3F;
    }

    @Override
    public boolean isSynthetic() {
        return (modifiers & 0x1000) != 0;
    }

    public boolean isVarArgs() {
        return (modifiers & 0x80) != 0;
    }

    boolean hasFlag(int flag) {
        return (modifiers & flag) != 0;
    }

    public Class<?>[] getParameterTypes() {
        return parameters.clone();
    }

    public int getParameterCount() {
        return parameters.length;
    }

    public Class<?>[] getExceptionTypes() {
        return Reflection.types(thrown);
    }

    Object[] checked(Object[] arguments) {
        return Reflection.checked(arguments, parameters);
    }

    String signature() {
        StringBuilder text = new StringBuilder(owner.getTypeName()).append('.').append(name);
        return withParameters(text);
    }

    String withParameters(StringBuilder text) {
        text.append('(');
        for (int i = 0; i < parameters.length; i++) {
            text.append(i > 0 ? "," : "").append(parameters[i].getTypeName());
        }
        text.append(')');
        Class<?>[] types = getExceptionTypes();
        for (int i = 0; i < types.length; i++) {
            text.append(i > 0 ? "," : " throws ").append(types[i].getTypeName());
        }
        return text.toString();
    }

    boolean isSame(Executable other) {
        return owner == other.owner && index == other.index;
    }

    @Override
    public int hashCode() {
        return owner.getName().hashCode() ^ name.hashCode();
    }
}
