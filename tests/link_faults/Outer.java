public class Outer {
    int n;
    class In {
        int twice() { return n + n; }
    }
}
