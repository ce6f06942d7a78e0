package jamuvelor.lib;

/** An object that makes a copy of itself, as `Object.clone` does for a Cloneable. */
public interface HasClone {
    Object $clone();
}
