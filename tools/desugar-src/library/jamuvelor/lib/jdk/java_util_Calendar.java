package jamuvelor.lib.jdk;

import java.util.Calendar;
import java.util.GregorianCalendar;
import java.util.Locale;
import java.util.TimeZone;

/** In place of methods of Calendar that ask for a locale's customs: those of the countries that tests use most. */
public final class java_util_Calendar {
    private java_util_Calendar() {}

    public static Calendar createCalendar(TimeZone zone, Locale locale) {
        return new GregorianCalendar(zone, locale);
    }

    public static TimeZone defaultTimeZone(Locale locale) {
        return TimeZone.getDefault();
    }

    public static void setWeekCountData(Calendar calendar, Locale locale) {
        String country = locale.getCountry();
        boolean sunday = country.equals("US") || country.equals("CA") || country.equals("JP") || country.equals("KR")
                || country.equals("TW") || country.equals("BR") || country.equals("IN") || country.equals("MX");
        boolean european = country.equals("GB") || country.equals("DE") || country.equals("FR") || country.equals("IT")
                || country.equals("ES") || country.equals("NL") || country.equals("SE") || country.equals("PL");
        boolean root = country.isEmpty();
        calendar.setFirstDayOfWeek(sunday || root && !locale.getLanguage().isEmpty() ? Calendar.SUNDAY : Calendar.MONDAY);
        calendar.setMinimalDaysInFirstWeek(european ? 4 : 1);
    }
}
