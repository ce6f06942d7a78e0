package sun.util.calendar;

/** What TimeZone asks of the table of zones. */
public final class ZoneInfoFile {
    private ZoneInfoFile() {}

    public static ZoneInfo getZoneInfo(String id) {
        return (ZoneInfo) ZoneInfo.getTimeZone(id);
    }

    public static ZoneInfo getCustomTimeZone(String id, int offset) {
        return new ZoneInfo(toCustomID(offset), offset);
    }

    public static String toCustomID(int offset) {
        int minutes = Math.abs(offset) / 60000;
        int hours = minutes / 60;
        minutes %= 60;
        return "GMT" + (offset < 0 ? "-" : "+") + (char) ('0' + hours / 10) + (char) ('0' + hours % 10) + ":"
                + (char) ('0' + minutes / 10) + (char) ('0' + minutes % 10);
    }

    public static boolean useOldMapping() {
        return false;
    }
}
