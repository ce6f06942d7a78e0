package jamuvelor.lib;

/** What every class of a suite is: it tells its class token and its text. */
public interface Instance {
    String $class();

    @Override
    String toString();
}
