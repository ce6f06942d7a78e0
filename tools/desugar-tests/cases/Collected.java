import java.util.ArrayList;
import java.util.Arrays;
import java.util.Collections;
import java.util.Comparator;
import java.util.EnumMap;
import java.util.EnumSet;
import java.util.HashMap;
import java.util.HashSet;
import java.util.Iterator;
import java.util.LinkedHashMap;
import java.util.LinkedList;
import java.util.List;
import java.util.Map;
import java.util.Optional;
import java.util.PriorityQueue;
import java.util.Set;
import java.util.TreeMap;

/** The JDK's collections by their own code. */
public class Collected {
    interface Shaped {}

    enum Colour implements Shaped { RED, GREEN { @Override String shade() { return "dark"; } }, BLUE; String shade() { return "light"; } }

    public static void testLists() {
        List<String> list = new ArrayList<>(Arrays.asList("pear", "apple", "fig"));
        Collections.sort(list);
        list.add(1, "kiwi");
        System.out.println(list + " " + list.indexOf("fig") + " " + list.contains("x") + list.subList(1, 3) + list.hashCode());
        LinkedList<Integer> numbers = new LinkedList<>();
        for (int i = 0; i < 5; i++) {
            numbers.addFirst(i);
        }
        Collections.reverse(numbers);
        System.out.println(numbers + " " + numbers.equals(List.of(0, 1, 2, 3, 4)) + Collections.max(numbers));
        list.sort(Comparator.comparing(String::length).thenComparing(Comparator.reverseOrder()));
        System.out.println(list + Arrays.toString(list.toArray(new String[0])) + list.toArray().length);
        for (Iterator<String> it = list.iterator(); it.hasNext();) {
            if (it.next().length() == 4) {
                it.remove();
            }
        }
        System.out.println(list);
        try {
            for (String s : list) {
                list.add(s);
            }
        } catch (java.util.ConcurrentModificationException e) {
            System.out.println("modified " + e.getMessage());
        }
    }

    public static void testMaps() {
        Map<String, Integer> map = new HashMap<>();
        for (String word : "to be or not to be that is the question".split(" ")) {
            map.merge(word, 1, Integer::sum);
        }
        System.out.println(map);
        Map<String, List<Integer>> lists = new TreeMap<>(Comparator.reverseOrder());
        lists.computeIfAbsent("a", k -> new ArrayList<>()).add(1);
        lists.computeIfAbsent("b", k -> new ArrayList<>()).add(2);
        System.out.println(lists + " " + map.getOrDefault("x", -1) + new LinkedHashMap<>(Map.of("k", 1)) + map.entrySet().iterator().next().getKey());
        Set<Integer> set = new HashSet<>(List.of(5, 3, 99, 1000));
        System.out.println(set + " " + set.contains(99) + Set.of(1).equals(Collections.singleton(1)));
        PriorityQueue<Integer> queue = new PriorityQueue<>(set);
        System.out.println(queue.poll() + " " + queue.poll());
    }

    public static void testEnums() {
        EnumMap<Colour, Integer> map = new EnumMap<>(Colour.class);
        map.put(Colour.BLUE, 1);
        map.put(Colour.RED, 2);
        System.out.println(map + " " + EnumSet.complementOf(EnumSet.of(Colour.RED)) + EnumSet.allOf(Colour.class).size() + Colour.valueOf("GREEN").shade());
        System.out.println(Arrays.toString(Colour.values()) + Colour.RED.compareTo(Colour.BLUE) + Colour.GREEN.getDeclaringClass() + Colour.GREEN.name() + Colour.BLUE.ordinal());
        switch (Colour.valueOf("BLUE")) {
            case RED:
                System.out.println("red");
                break;
            default:
                System.out.println("other");
        }
        try {
            Colour.valueOf("PINK");
        } catch (IllegalArgumentException e) {
            System.out.println(e.getMessage());
        }
    }

    public static void testOptional() {
        Optional<String> some = Optional.of("x");
        System.out.println(some.map(s -> s + "y").orElse("z") + Optional.empty().isPresent() + some + Optional.ofNullable(null));
    }

    public static void testArrays() {
        int[] numbers = {5, 2, 9, 1};
        int[] copy = numbers.clone();
        Arrays.sort(copy);
        System.out.println(Arrays.toString(numbers) + Arrays.toString(copy) + Arrays.binarySearch(copy, 5) + Arrays.equals(numbers, copy));
        String[][] grid = new String[2][3];
        grid[1][2] = "z";
        Object[] objects = Arrays.copyOf(grid[1], 4);
        System.out.println(Arrays.deepToString(grid) + objects.getClass() + objects.length + (objects instanceof String[]));
        Integer[] boxes = {3, 1, 2};
        Arrays.sort(boxes, Collections.reverseOrder());
        System.out.println(Arrays.asList(boxes) + " " + Arrays.hashCode(numbers) + Arrays.asList(1, 2).getClass().getName());
        Shaped[] shaped = new ArrayList<Shaped>(List.of(Colour.RED)).toArray(new Shaped[0]);
        System.out.println(shaped.getClass() + " " + shaped[0] + new Shaped[1][].clone().getClass());
        Object array = java.lang.reflect.Array.newInstance(String.class, 2);
        System.out.println(array.getClass().getSimpleName() + java.lang.reflect.Array.getLength(array));
        try {
            Object[] strings = new String[1];
            strings[0] = 1;
        } catch (ArrayStoreException e) {
            System.out.println("store");
        }
    }
}
