package sun.util.calendar;

import jamuvelor.lib.Unserved;
import java.util.Date;
import java.util.TimeZone;

/** A time zone of one offset. Zones with rules are not served, as the machine has no table of them. */
public class ZoneInfo extends TimeZone {
    private int offset;

    public ZoneInfo() {}

    ZoneInfo(String id, int offset) {
        setID(id);
        this.offset = offset;
    }

    /** The zone of this name; null where there is none. */
    public static TimeZone getTimeZone(String id) {
        switch (id) {
            case "GMT":
            case "UTC":
            case "UCT":
            case "Zulu":
            case "Universal":
            case "Etc/GMT":
            case "Etc/UTC":
            case "Etc/UCT":
                return new ZoneInfo(id, 0);
            default:
                boolean known = id.indexOf('/') > 0 || id.length() == 3 && isUpper(id);
                if (known) {
                    throw new Unserved("time zone " + id);
                }
                return null;
        }
    }

    private static boolean isUpper(String id) {
        for (int i = 0; i < id.length(); i++) {
            if (id.charAt(i) < 'A' || id.charAt(i) > 'Z') {
                return false;
            }
        }
        return true;
    }

    public static String[] getAvailableIDs() {
        return new String[] {"GMT", "UTC"};
    }

    public static String[] getAvailableIDs(int offset) {
        return offset == 0 ? getAvailableIDs() : new String[0];
    }

    @Override
    public int getOffset(int era, int year, int month, int day, int weekday, int milliseconds) {
        return offset;
    }

    @Override
    public int getOffset(long time) {
        return offset;
    }

    public int getOffsets(long time, int[] parts) {
        if (parts != null) {
            parts[0] = offset;
            parts[1] = 0;
        }
        return offset;
    }

    public int getOffsetsByStandard(long time, int[] parts) {
        return getOffsets(time, parts);
    }

    public int getOffsetsByWall(long time, int[] parts) {
        return getOffsets(time, parts);
    }

    @Override
    public void setRawOffset(int offset) {
        this.offset = offset;
    }

    @Override
    public int getRawOffset() {
        return offset;
    }

    @Override
    public boolean useDaylightTime() {
        return false;
    }

    @Override
    public boolean observesDaylightTime() {
        return false;
    }

    @Override
    public boolean inDaylightTime(Date date) {
        return false;
    }

    @Override
    public int getDSTSavings() {
        return 0;
    }

    public boolean isDirty() {
        return false;
    }

    public int getLastRawOffset() {
        return offset;
    }

    @Override
    public boolean hasSameRules(TimeZone other) {
        return other instanceof ZoneInfo && ((ZoneInfo) other).offset == offset;
    }

    @Override
    public int hashCode() {
        return offset;
    }

    @Override
    public boolean equals(Object other) {
        return hasSameRules((TimeZone) (other instanceof ZoneInfo ? other : null)) && ((ZoneInfo) other).getID().equals(getID());
    }

    @Override
    public String toString() {
        return "sun.util.calendar.ZoneInfo[id=\"" + getID() + "\",offset=" + offset
                + ",dstSavings=0,useDaylight=false,transitions=0,lastRule=null]";
    }
}
