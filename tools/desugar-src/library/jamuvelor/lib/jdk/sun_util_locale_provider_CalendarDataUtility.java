package jamuvelor.lib.jdk;

import java.text.DateFormatSymbols;
import java.util.Calendar;
import java.util.HashMap;
import java.util.Locale;
import java.util.Map;

/** In place of the names that a locale has for the values of calendar fields: those of DateFormatSymbols. */
public final class sun_util_locale_provider_CalendarDataUtility {
    private static final int STANDALONE = 0x8000;

    private sun_util_locale_provider_CalendarDataUtility() {}

    /** The names by their values; null where the field has none. */
    private static String[] names(int field, int style, Locale locale) {
        DateFormatSymbols symbols = DateFormatSymbols.getInstance(locale);
        boolean isLong = (style & ~STANDALONE) == Calendar.LONG;
        switch (field) {
            case Calendar.ERA:
                return symbols.getEras();
            case Calendar.MONTH:
                return isLong ? symbols.getMonths() : symbols.getShortMonths();
            case Calendar.DAY_OF_WEEK:
                return isLong ? symbols.getWeekdays() : symbols.getShortWeekdays();
            case Calendar.AM_PM:
                return symbols.getAmPmStrings();
            default:
                return null;
        }
    }

    public static String retrieveFieldValueName(String type, int field, int value, int style, Locale locale) {
        String[] names = names(field, style, locale);
        if (names == null || value < 0 || value >= names.length || names[value].isEmpty()) {
            return null;
        }
        boolean narrow = (style & ~STANDALONE) == 4;
        return narrow ? names[value].substring(0, 1) : names[value];
    }

    public static Map<String, Integer> retrieveFieldValueNames(String type, int field, int style, Locale locale) {
        Map<String, Integer> found = new HashMap<>();
        if ((style & ~STANDALONE) == 4) {
            return null;
        }
        if (style == Calendar.ALL_STYLES) {
            add(found, names(field, Calendar.SHORT, locale));
            add(found, names(field, Calendar.LONG, locale));
        } else {
            add(found, names(field, style, locale));
        }
        return found.isEmpty() ? null : found;
    }

    private static void add(Map<String, Integer> found, String[] names) {
        for (int i = 0; names != null && i < names.length; i++) {
            if (!names[i].isEmpty()) {
                found.put(names[i], i);
            }
        }
    }

    public static String retrieveJavaTimeFieldValueName(String type, int field, int value, int style, Locale locale) {
        return retrieveFieldValueName(type, field, value, style, locale);
    }

    public static Map<String, Integer> retrieveJavaTimeFieldValueNames(String type, int field, int style, Locale locale) {
        return retrieveFieldValueNames(type, field, style, locale);
    }

    public static String normalizeCalendarType(String type) {
        return type.equals("gregory") || type.equals("iso8601") ? "gregory" : type;
    }
}
