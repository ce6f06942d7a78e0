package jamuvelor.lib;

/** The type of a parameter that keeps a constructor apart from others; its argument is null. */
public interface Bare {}
