package java.util.logging;

import java.util.function.Supplier;

/** A logger as one has it where nothing is configured: from INFO on messages are made; the stream of errors shows them to nobody. */
public class Logger {
    private final String name;

    private Logger(String name) {
        this.name = name;
    }

    /** A logger of its own at each call: they have no state. */
    public static Logger getLogger(String name) {
        if (name == null) {
            throw new NullPointerException();
        }
        return new Logger(name);
    }

    public String getName() {
        return name;
    }

    public boolean isLoggable(Level level) {
        return level.intValue() >= Level.INFO.intValue() && level != Level.OFF;
    }

    public void log(Level level, String message) {
        isLoggable(level);
    }

    public void log(Level level, String message, Object argument) {
        isLoggable(level);
    }

    public void log(Level level, String message, Object[] arguments) {
        isLoggable(level);
    }

    public void log(Level level, String message, Throwable thrown) {
        isLoggable(level);
    }

    public void log(Level level, Supplier<String> message) {
        if (isLoggable(level)) {
            message.get();
        }
    }

    public void log(Level level, Throwable thrown, Supplier<String> message) {
        log(level, message);
    }

    public void severe(String message) {}

    public void warning(String message) {}

    public void info(String message) {}

    public void config(String message) {}

    public void fine(String message) {}

    public void finer(String message) {}

    public void finest(String message) {}
}
