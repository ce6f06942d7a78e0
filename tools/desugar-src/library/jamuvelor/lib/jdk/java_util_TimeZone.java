package jamuvelor.lib.jdk;

import java.util.Locale;
import java.util.TimeZone;

/** In place of methods of TimeZone that ask the system for its zone and for names. */
public final class java_util_TimeZone {
    private java_util_TimeZone() {}

    public static TimeZone setDefaultZone() {
        return TimeZone.getTimeZone("UTC");
    }

    public static String getDisplayName(TimeZone zone, boolean daylight, int style, Locale locale) {
        if (style != TimeZone.SHORT && style != TimeZone.LONG) {
            throw new IllegalArgumentException("Illegal style: " + style);
        }
        String id = zone.getID();
        if (style == TimeZone.SHORT || id.startsWith("GMT+") || id.startsWith("GMT-")) {
            return id;
        }
        return id.equals("GMT") ? "Greenwich Mean Time" : "Coordinated Universal Time";
    }
}
