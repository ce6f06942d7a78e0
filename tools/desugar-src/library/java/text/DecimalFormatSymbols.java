package java.text;

import jamuvelor.lib.Unserved;
import java.util.Locale;

/** The signs of numbers in English, as the root locale has them; other languages aren't served. */
public class DecimalFormatSymbols implements Cloneable, java.io.Serializable {
    private Locale locale;
    private char zeroDigit = '0';
    private char groupingSeparator = ',';
    private char decimalSeparator = '.';
    private char perMill = '\u2030';
    private char percent = '%';
    private char digit = '#';
    private char patternSeparator = ';';
    private String infinity = "\u221E";
    private String nan = "NaN";
    private char minusSign = '-';
    private char exponential = 'E';
    private String exponentialSeparator = "E";
    private char monetarySeparator = '.';

    public DecimalFormatSymbols() {
        this(Locale.getDefault());
    }

    public DecimalFormatSymbols(Locale locale) {
        if (!locale.getLanguage().equals("en") && !locale.getLanguage().isEmpty()) {
            throw new Unserved("signs of numbers in the language " + locale.getLanguage());
        }
        this.locale = locale;
    }

    public static final DecimalFormatSymbols getInstance() {
        return new DecimalFormatSymbols();
    }

    public static final DecimalFormatSymbols getInstance(Locale locale) {
        return new DecimalFormatSymbols(locale);
    }

    public static Locale[] getAvailableLocales() {
        return new Locale[] {Locale.US, Locale.UK, Locale.ENGLISH};
    }

    public Locale getLocale() {
        return locale;
    }

    public char getZeroDigit() {
        return zeroDigit;
    }

    public void setZeroDigit(char letter) {
        zeroDigit = letter;
    }

    public char getGroupingSeparator() {
        return groupingSeparator;
    }

    public void setGroupingSeparator(char letter) {
        groupingSeparator = letter;
    }

    public char getMonetaryGroupingSeparator() {
        return groupingSeparator;
    }

    public char getDecimalSeparator() {
        return decimalSeparator;
    }

    public void setDecimalSeparator(char letter) {
        decimalSeparator = letter;
    }

    public char getMonetaryDecimalSeparator() {
        return monetarySeparator;
    }

    public void setMonetaryDecimalSeparator(char letter) {
        monetarySeparator = letter;
    }

    public char getPerMill() {
        return perMill;
    }

    public void setPerMill(char letter) {
        perMill = letter;
    }

    public String getPerMillText() {
        return String.valueOf(perMill);
    }

    public char getPercent() {
        return percent;
    }

    public void setPercent(char letter) {
        percent = letter;
    }

    public String getPercentText() {
        return String.valueOf(percent);
    }

    public char getDigit() {
        return digit;
    }

    public void setDigit(char letter) {
        digit = letter;
    }

    public char getPatternSeparator() {
        return patternSeparator;
    }

    public void setPatternSeparator(char letter) {
        patternSeparator = letter;
    }

    public String getInfinity() {
        return infinity;
    }

    public void setInfinity(String text) {
        infinity = text;
    }

    public String getNaN() {
        return nan;
    }

    public void setNaN(String text) {
        nan = text;
    }

    public char getMinusSign() {
        return minusSign;
    }

    public void setMinusSign(char letter) {
        minusSign = letter;
    }

    public String getMinusSignText() {
        return String.valueOf(minusSign);
    }

    char getExponentialSymbol() {
        return exponential;
    }

    public String getExponentSeparator() {
        return exponentialSeparator;
    }

    public void setExponentSeparator(String text) {
        exponentialSeparator = text;
    }

    public String getCurrencySymbol() {
        return locale.getCountry().equals("US") ? "$" : "\u00A4";
    }

    public String getInternationalCurrencySymbol() {
        return locale.getCountry().equals("US") ? "USD" : "XXX";
    }

    @Override
    public Object clone() {
        try {
            return super.clone();
        } catch (CloneNotSupportedException never) {
            throw new AssertionError(never);
        }
    }

    @Override
    public int hashCode() {
        return (zeroDigit * 37 + groupingSeparator) * 37 + decimalSeparator;
    }

    @Override
    public boolean equals(Object object) {
        if (!(object instanceof DecimalFormatSymbols)) {
            return false;
        }
        DecimalFormatSymbols other = (DecimalFormatSymbols) object;
        return zeroDigit == other.zeroDigit && groupingSeparator == other.groupingSeparator && minusSign == other.minusSign
                && decimalSeparator == other.decimalSeparator && percent == other.percent && infinity.equals(other.infinity);
    }
}
