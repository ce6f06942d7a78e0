package java.util.concurrent;

import java.util.Collections;
import java.util.Enumeration;
import java.util.HashMap;
import java.util.HashSet;
import java.util.Map;

/** A HashMap that refuses null, as no threads run. */
public class ConcurrentHashMap<K, V> extends HashMap<K, V> implements ConcurrentMap<K, V> {
    public ConcurrentHashMap() {}

    public ConcurrentHashMap(int capacity) {
        super(capacity);
    }

    public ConcurrentHashMap(int capacity, float load) {
        super(capacity, load);
    }

    public ConcurrentHashMap(int capacity, float load, int threads) {
        super(capacity, load);
    }

    public ConcurrentHashMap(Map<? extends K, ? extends V> map) {
        putAll(map);
    }

    private static void check(Object object) {
        if (object == null) {
            throw new NullPointerException();
        }
    }

    @Override
    public V put(K key, V value) {
        check(key);
        check(value);
        return super.put(key, value);
    }

    @Override
    public void putAll(Map<? extends K, ? extends V> map) {
        for (Map.Entry<? extends K, ? extends V> each : map.entrySet()) {
            put(each.getKey(), each.getValue());
        }
    }

    @Override
    public V putIfAbsent(K key, V value) {
        check(key);
        check(value);
        return super.putIfAbsent(key, value);
    }

    @Override
    public V get(Object key) {
        check(key);
        return super.get(key);
    }

    @Override
    public V getOrDefault(Object key, V other) {
        V value = get(key);
        return value == null ? other : value;
    }

    @Override
    public boolean containsKey(Object key) {
        check(key);
        return super.containsKey(key);
    }

    @Override
    public boolean containsValue(Object value) {
        check(value);
        return super.containsValue(value);
    }

    public boolean contains(Object value) {
        return containsValue(value);
    }

    @Override
    public V remove(Object key) {
        check(key);
        return super.remove(key);
    }

    @Override
    public boolean remove(Object key, Object value) {
        check(key);
        return value != null && super.remove(key, value);
    }

    public Enumeration<K> keys() {
        return Collections.enumeration(keySet());
    }

    public Enumeration<V> elements() {
        return Collections.enumeration(values());
    }

    public long mappingCount() {
        return size();
    }

    public static <T> KeySetView<T, Boolean> newKeySet() {
        return new KeySetView<T, Boolean>();
    }

    public static <T> KeySetView<T, Boolean> newKeySet(int capacity) {
        return new KeySetView<T, Boolean>();
    }

    /** A set of keys that stands for itself. */
    public static class KeySetView<K, V> extends HashSet<K> {
        KeySetView() {}

        @Override
        public boolean add(K key) {
            check(key);
            return super.add(key);
        }
    }
}
