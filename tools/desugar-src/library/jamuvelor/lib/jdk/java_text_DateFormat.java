package jamuvelor.lib.jdk;

import java.text.DateFormat;
import java.text.SimpleDateFormat;
import java.util.Locale;

/** In place of the formats that DateFormat has for a locale: those of American English. */
public final class java_text_DateFormat {
    private static final String[] DATES = {"EEEE, MMMM d, y", "MMMM d, y", "MMM d, y", "M/d/yy"};
    private static final String[] TIMES = {"h:mm:ss a zzzz", "h:mm:ss a z", "h:mm:ss a", "h:mm a"};

    private java_text_DateFormat() {}

    /** @param flags 1 for the time, 2 for the date, 3 for both */
    public static DateFormat get(int timeStyle, int dateStyle, int flags, Locale locale) {
        String pattern = flags == 1 ? TIMES[timeStyle] : flags == 2 ? DATES[dateStyle]
                : DATES[dateStyle] + (dateStyle < 2 ? " 'at' " : ", ") + TIMES[timeStyle];
        return new SimpleDateFormat(pattern, locale);
    }
}
