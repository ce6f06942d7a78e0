package java.util;

/** A locale is its language, country and variant; its texts are those of the root locale. */
public final class Locale implements Cloneable, java.io.Serializable {
    public static final Locale ENGLISH = new Locale("en");
    public static final Locale FRENCH = new Locale("fr");
    public static final Locale GERMAN = new Locale("de");
    public static final Locale ITALIAN = new Locale("it");
    public static final Locale JAPANESE = new Locale("ja");
    public static final Locale KOREAN = new Locale("ko");
    public static final Locale CHINESE = new Locale("zh");
    public static final Locale SIMPLIFIED_CHINESE = new Locale("zh", "CN");
    public static final Locale TRADITIONAL_CHINESE = new Locale("zh", "TW");
    public static final Locale FRANCE = new Locale("fr", "FR");
    public static final Locale GERMANY = new Locale("de", "DE");
    public static final Locale ITALY = new Locale("it", "IT");
    public static final Locale JAPAN = new Locale("ja", "JP");
    public static final Locale KOREA = new Locale("ko", "KR");
    public static final Locale UK = new Locale("en", "GB");
    public static final Locale US = new Locale("en", "US");
    public static final Locale CANADA = new Locale("en", "CA");
    public static final Locale CANADA_FRENCH = new Locale("fr", "CA");
    public static final Locale CHINA = SIMPLIFIED_CHINESE;
    public static final Locale PRC = SIMPLIFIED_CHINESE;
    public static final Locale TAIWAN = TRADITIONAL_CHINESE;
    public static final Locale ROOT = new Locale("");

    private static Locale standard = US;

    private final String language;
    private final String country;
    private final String variant;

    /** For what a default locale is used. */
    public enum Category { DISPLAY, FORMAT }

    public Locale(String language) {
        this(language, "", "");
    }

    public Locale(String language, String country) {
        this(language, country, "");
    }

    public Locale(String language, String country, String variant) {
        String lower = language.toLowerCase();
        this.language = lower.equals("iw") ? "he" : lower.equals("ji") ? "yi" : lower.equals("in") ? "id" : lower;
        this.country = country.toUpperCase();
        this.variant = variant.toString();
    }

    /** Those that have a constant here. */
    public static Locale[] getAvailableLocales() {
        return new Locale[] {
            ROOT, ENGLISH, FRENCH, GERMAN, ITALIAN, JAPANESE, KOREAN, CHINESE, SIMPLIFIED_CHINESE, TRADITIONAL_CHINESE, FRANCE, GERMANY, ITALY,
            JAPAN, KOREA, UK, US, CANADA, CANADA_FRENCH
        };
    }

    public static Locale getDefault() {
        return standard;
    }

    public static Locale getDefault(Category category) {
        return standard;
    }

    public static void setDefault(Locale locale) {
        if (locale == null) {
            throw new NullPointerException("Can't set default locale to NULL");
        }
        standard = locale;
    }

    public static Locale forLanguageTag(String tag) {
        String[] parts = tag.split("-");
        return new Locale(parts[0].equals("und") ? "" : parts[0], parts.length > 1 ? parts[1] : "", parts.length > 2 ? parts[2] : "");
    }

    public String toLanguageTag() {
        String tag = language.isEmpty() ? "und" : language;
        tag = country.isEmpty() ? tag : tag + "-" + country;
        return variant.isEmpty() ? tag : tag + "-" + variant;
    }

    public String getLanguage() {
        return language;
    }

    public String getCountry() {
        return country;
    }

    public String getVariant() {
        return variant;
    }

    public String getScript() {
        return "";
    }

    public boolean hasExtensions() {
        return false;
    }

    public String getUnicodeLocaleType(String key) {
        return null;
    }

    @Override
    public Object clone() {
        return this;
    }

    @Override
    public int hashCode() {
        return (language.hashCode() * 31 + country.hashCode()) * 31 + variant.hashCode();
    }

    @Override
    public boolean equals(Object other) {
        return other instanceof Locale && ((Locale) other).language.equals(language) && ((Locale) other).country.equals(country)
                && ((Locale) other).variant.equals(variant);
    }

    @Override
    public String toString() {
        if (language.isEmpty() && country.isEmpty()) {
            return "";
        }
        String text = country.isEmpty() && variant.isEmpty() ? language : language + "_" + country;
        return variant.isEmpty() ? text : text + "_" + variant;
    }
}
