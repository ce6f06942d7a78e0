package java.text;

import jamuvelor.lib.Unserved;
import java.util.Arrays;
import java.util.Locale;

/** The names of months, days and eras in English; other languages aren't served. */
public class DateFormatSymbols implements java.io.Serializable, Cloneable {
    static final String patternChars = "GyMdkHmsSEDFwWahKzZYuXL";
    static final int PATTERN_ERA = 0;
    static final int PATTERN_YEAR = 1;
    static final int PATTERN_MONTH = 2;
    static final int PATTERN_DAY_OF_MONTH = 3;
    static final int PATTERN_HOUR_OF_DAY1 = 4;
    static final int PATTERN_HOUR_OF_DAY0 = 5;
    static final int PATTERN_MINUTE = 6;
    static final int PATTERN_SECOND = 7;
    static final int PATTERN_MILLISECOND = 8;
    static final int PATTERN_DAY_OF_WEEK = 9;
    static final int PATTERN_DAY_OF_YEAR = 10;
    static final int PATTERN_DAY_OF_WEEK_IN_MONTH = 11;
    static final int PATTERN_WEEK_OF_YEAR = 12;
    static final int PATTERN_WEEK_OF_MONTH = 13;
    static final int PATTERN_AM_PM = 14;
    static final int PATTERN_HOUR1 = 15;
    static final int PATTERN_HOUR0 = 16;
    static final int PATTERN_ZONE_NAME = 17;
    static final int PATTERN_ZONE_VALUE = 18;
    static final int PATTERN_WEEK_YEAR = 19;
    static final int PATTERN_ISO_DAY_OF_WEEK = 20;
    static final int PATTERN_ISO_ZONE = 21;
    static final int PATTERN_MONTH_STANDALONE = 22;

    Locale locale;
    String[] eras = {"BC", "AD"};
    String[] months = {
        "January", "February", "March", "April", "May", "June", "July", "August", "September", "October", "November", "December", ""
    };
    String[] shortMonths = {"Jan", "Feb", "Mar", "Apr", "May", "Jun", "Jul", "Aug", "Sep", "Oct", "Nov", "Dec", ""};
    String[] weekdays = {"", "Sunday", "Monday", "Tuesday", "Wednesday", "Thursday", "Friday", "Saturday"};
    String[] shortWeekdays = {"", "Sun", "Mon", "Tue", "Wed", "Thu", "Fri", "Sat"};
    String[] ampms = {"AM", "PM"};
    String[][] zoneStrings = {
        {"UTC", "Coordinated Universal Time", "UTC", "Coordinated Universal Time", "UTC"},
        {"GMT", "Greenwich Mean Time", "GMT", "Greenwich Mean Time", "GMT"}
    };
    boolean isZoneStringsSet;
    String localPatternChars = "GyMdkHmsSEDFwWahKzZ";

    public DateFormatSymbols() {
        this(Locale.getDefault());
    }

    public DateFormatSymbols(Locale locale) {
        if (!locale.getLanguage().equals("en") && !locale.getLanguage().isEmpty()) {
            throw new Unserved("names of dates in the language " + locale.getLanguage());
        }
        this.locale = locale;
    }

    public static final DateFormatSymbols getInstance() {
        return new DateFormatSymbols();
    }

    public static final DateFormatSymbols getInstance(Locale locale) {
        return new DateFormatSymbols(locale);
    }

    static final DateFormatSymbols getInstanceRef(Locale locale) {
        return new DateFormatSymbols(locale);
    }

    public static Locale[] getAvailableLocales() {
        return new Locale[] {Locale.US, Locale.UK, Locale.ENGLISH};
    }

    public String[] getEras() {
        return eras.clone();
    }

    public void setEras(String[] eras) {
        this.eras = eras.clone();
    }

    public String[] getMonths() {
        return months.clone();
    }

    public void setMonths(String[] months) {
        this.months = months.clone();
    }

    public String[] getShortMonths() {
        return shortMonths.clone();
    }

    public void setShortMonths(String[] months) {
        shortMonths = months.clone();
    }

    public String[] getWeekdays() {
        return weekdays.clone();
    }

    public void setWeekdays(String[] weekdays) {
        this.weekdays = weekdays.clone();
    }

    public String[] getShortWeekdays() {
        return shortWeekdays.clone();
    }

    public void setShortWeekdays(String[] weekdays) {
        shortWeekdays = weekdays.clone();
    }

    public String[] getAmPmStrings() {
        return ampms.clone();
    }

    public void setAmPmStrings(String[] texts) {
        ampms = texts.clone();
    }

    public String[][] getZoneStrings() {
        throw new Unserved("names of time zones");
    }

    final String[][] getZoneStringsWrapper() {
        return zoneStrings;
    }

    final int getZoneIndex(String id) {
        for (int i = 0; i < zoneStrings.length; i++) {
            if (id.equals(zoneStrings[i][0])) {
                return i;
            }
        }
        return -1;
    }

    public void setZoneStrings(String[][] zones) {
        zoneStrings = zones.clone();
        isZoneStringsSet = true;
    }

    public String getLocalPatternChars() {
        return localPatternChars;
    }

    public void setLocalPatternChars(String letters) {
        localPatternChars = letters.toString();
    }

    @Override
    public Object clone() {
        try {
            return super.clone();
        } catch (CloneNotSupportedException never) {
            throw new AssertionError(never);
        }
    }

    @Override
    public int hashCode() {
        return Arrays.hashCode(months) + Arrays.hashCode(weekdays);
    }

    @Override
    public boolean equals(Object object) {
        if (!(object instanceof DateFormatSymbols)) {
            return false;
        }
        DateFormatSymbols other = (DateFormatSymbols) object;
        return Arrays.equals(eras, other.eras) && Arrays.equals(months, other.months) && Arrays.equals(shortMonths, other.shortMonths)
                && Arrays.equals(weekdays, other.weekdays) && Arrays.equals(shortWeekdays, other.shortWeekdays)
                && Arrays.equals(ampms, other.ampms);
    }
}
