package java.lang.reflect;

import jamuvelor.lib.Reflection;

public final class Field extends AccessibleObject implements Member {
    private final Class<?> owner;
    private final int index;
    private final String name;
    private final int modifiers;
    private final Class<?> type;

    public Field(Class<?> owner, int index, String name, int modifiers, Class<?> type, String annotations) {
        super(annotations);
        this.owner = owner;
        this.index = index;
        this.name = name;
        this.modifiers = modifiers;
        this.type = type;
    }

    @Override
    public Class<?> getDeclaringClass() {
        return owner;
    }

    @Override
    public String getName() {
        return name;
    }

    @Override
    public int getModifiers() {
        return modifiers & 0x00DF;
    }

    @Override
    public boolean isSynthetic() {
        return (modifiers & 0x1000) != 0;
    }

    public boolean isEnumConstant() {
        return (modifiers & 0x4000) != 0;
    }

    public Class<?> getType() {
        return type;
    }

    private void checkTarget(Object target, String caller) throws IllegalAccessException {
        check(owner, modifiers, caller);
        if (!Modifier.isStatic(modifiers)) {
            if (target == null) {
                throw new NullPointerException();
            }
            if (!owner.isInstance(target)) {
                throw new IllegalArgumentException("Can not get " + type.getTypeName() + " field " + owner.getTypeName() + "." + name
                        + " on " + target.getClass().getTypeName());
            }
        }
    }

    public Object get(Object target) throws IllegalAccessException {
        return get(target, null);
    }

    public Object get(Object target, String caller) throws IllegalAccessException {
        checkTarget(target, caller);
        return Reflection.get(owner, index, target);
    }

    public int getInt(Object target) throws IllegalAccessException {
        return getInt(target, null);
    }

    public int getInt(Object target, String caller) throws IllegalAccessException {
        return ((Number) get(target, caller)).intValue();
    }

    public long getLong(Object target) throws IllegalAccessException {
        return getLong(target, null);
    }

    public long getLong(Object target, String caller) throws IllegalAccessException {
        return ((Number) get(target, caller)).longValue();
    }

    public double getDouble(Object target) throws IllegalAccessException {
        return getDouble(target, null);
    }

    public double getDouble(Object target, String caller) throws IllegalAccessException {
        return ((Number) get(target, caller)).doubleValue();
    }

    public boolean getBoolean(Object target) throws IllegalAccessException {
        return getBoolean(target, null);
    }

    public boolean getBoolean(Object target, String caller) throws IllegalAccessException {
        return (Boolean) get(target, caller);
    }

    public void set(Object target, Object value) throws IllegalAccessException {
        set(target, value, null);
    }

    public void set(Object target, Object value, String caller) throws IllegalAccessException {
        checkTarget(target, caller);
        boolean constant = Modifier.isFinal(modifiers) && (Modifier.isStatic(modifiers) || !isAccessible());
        if (constant) {
            throw new IllegalAccessException("Can not set final field " + owner.getTypeName() + "." + name);
        }
        Object[] checked = Reflection.checked(new Object[] {value}, new Class<?>[] {type});
        Reflection.set(owner, index, target, checked[0]);
    }

    @Override
    public int hashCode() {
        return owner.getName().hashCode() ^ name.hashCode();
    }

    @Override
    public boolean equals(Object other) {
        return other instanceof Field && owner == ((Field) other).owner && index == ((Field) other).index;
    }

    @Override
    public String toString() {
        String shown = Modifier.toString(getModifiers());
        return (shown.isEmpty() ? "" : shown + " ") + type.getTypeName() + " " + owner.getTypeName() + "." + name;
    }
}
