package desugar;

/** The test frameworks that tests are found of, by the rules of each. */
enum Framework {
    JUNIT_3("JUnit 3"),
    JUNIT_4("JUnit 4"),
    JUNIT_5("JUnit 5");

    private final String shown;

    Framework(String shown) {
        this.shown = shown;
    }

    @Override
    public String toString() {
        return shown;
    }
}
