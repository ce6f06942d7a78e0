package jamuvelor.lib.jdk;

import java.math.RoundingMode;
import java.text.DecimalFormat;
import java.text.DecimalFormatSymbols;
import java.text.NumberFormat;
import java.util.Locale;

/** In place of the formats that NumberFormat has for a locale: those of English. */
public final class java_text_NumberFormat {
    private java_text_NumberFormat() {}

    private static NumberFormat of(String pattern, Locale locale) {
        return new DecimalFormat(pattern, DecimalFormatSymbols.getInstance(locale));
    }

    public static NumberFormat getInstance() {
        return of("#,##0.###", Locale.getDefault());
    }

    public static NumberFormat getInstance(Locale locale) {
        return of("#,##0.###", locale);
    }

    public static NumberFormat getNumberInstance() {
        return getInstance();
    }

    public static NumberFormat getNumberInstance(Locale locale) {
        return getInstance(locale);
    }

    public static NumberFormat getIntegerInstance() {
        return getIntegerInstance(Locale.getDefault());
    }

    public static NumberFormat getIntegerInstance(Locale locale) {
        NumberFormat format = of("#,##0", locale);
        format.setParseIntegerOnly(true);
        format.setRoundingMode(RoundingMode.HALF_EVEN);
        return format;
    }

    public static NumberFormat getPercentInstance() {
        return of("#,##0%", Locale.getDefault());
    }

    public static NumberFormat getPercentInstance(Locale locale) {
        return of("#,##0%", locale);
    }
}
