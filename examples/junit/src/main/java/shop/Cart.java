package shop;

import java.util.ArrayList;
import java.util.Comparator;
import java.util.List;

/** The goods that a customer takes. */
public final class Cart {
    private final List<String> goods = new ArrayList<>();

    public void add(String good) {
        goods.add(good);
    }

    public int cents(Discount discount) {
        int sum = 0;
        for (String good : goods) {
            sum += Catalogue.cents(good);
        }
        return discount.of(sum);
    }

    public double average() {
        return goods.isEmpty() ? 0.0 : (double) cents(Discount.NONE) / goods.size();
    }

    /** The goods, the dearest first. */
    public List<String> byPrice() {
        List<String> sorted = new ArrayList<>(goods);
        sorted.sort(Comparator.comparing(Catalogue::cents).reversed());
        return sorted;
    }
}
