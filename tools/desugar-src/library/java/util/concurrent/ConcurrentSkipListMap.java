package java.util.concurrent;

import java.util.Comparator;
import java.util.Map;
import java.util.TreeMap;

/** A TreeMap that refuses null, as no threads run. */
public class ConcurrentSkipListMap<K, V> extends TreeMap<K, V> implements ConcurrentMap<K, V> {
    public ConcurrentSkipListMap() {}

    public ConcurrentSkipListMap(Comparator<? super K> comparator) {
        super(comparator);
    }

    public ConcurrentSkipListMap(Map<? extends K, ? extends V> map) {
        putAll(map);
    }

    @Override
    public V put(K key, V value) {
        if (key == null || value == null) {
            throw new NullPointerException();
        }
        return super.put(key, value);
    }

    @Override
    public V putIfAbsent(K key, V value) {
        V old = get(key);
        return old == null ? put(key, value) : old;
    }

    @Override
    public boolean remove(Object key, Object value) {
        boolean same = value != null && value.equals(get(key));
        if (same) {
            remove(key);
        }
        return same;
    }

    @Override
    public boolean replace(K key, V old, V value) {
        boolean same = old.equals(get(key));
        if (same) {
            put(key, value);
        }
        return same;
    }

    @Override
    public V replace(K key, V value) {
        return containsKey(key) ? put(key, value) : null;
    }
}
