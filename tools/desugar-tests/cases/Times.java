import java.time.Duration;
import java.time.LocalDate;
import java.time.LocalDateTime;
import java.util.Calendar;
import java.util.Date;
import java.util.GregorianCalendar;
import java.util.TimeZone;
import java.util.UUID;
import java.util.concurrent.TimeUnit;

/** Dates and durations that need no zone but UTC. */
public class Times {
    public static void testDurations() {
        System.out.println(Duration.ofMillis(90061001) + " " + Duration.ofSeconds(5).plusMillis(3).toMillis() + " " + TimeUnit.HOURS.toSeconds(2));
    }

    public static void testDates() {
        LocalDate date = LocalDate.of(2024, 2, 28).plusDays(2);
        System.out.println(date + " " + date.getDayOfWeek() + " " + date.isLeapYear() + " " + LocalDateTime.of(2020, 1, 2, 3, 4).plusHours(30));
        System.out.println(LocalDate.parse("2021-12-31").lengthOfYear());
    }

    public static void testCalendar() {
        Calendar calendar = new GregorianCalendar(TimeZone.getTimeZone("UTC"), java.util.Locale.US);
        calendar.setTimeInMillis(1700000000000L);
        calendar.add(Calendar.MONTH, 3);
        System.out.println(calendar.get(Calendar.YEAR) + " " + calendar.get(Calendar.MONTH) + " " + calendar.get(Calendar.DAY_OF_WEEK) + " " + calendar.getTimeInMillis());
        System.out.println(new Date(0).getTime() + " " + new Date(5).before(new Date(6)));
    }

    public static void testIdentifiers() {
        System.out.println(new UUID(1, 2) + " " + UUID.fromString("00000000-0000-0001-0000-000000000002").equals(new UUID(1, 2)));
    }

    public static void testNames() {
        Calendar calendar = new GregorianCalendar(TimeZone.getTimeZone("UTC"), java.util.Locale.US);
        calendar.setTimeInMillis(0);
        System.out.println(calendar.getDisplayName(Calendar.MONTH, Calendar.LONG, java.util.Locale.US) + " " + new java.util.TreeMap<>(calendar.getDisplayNames(Calendar.DAY_OF_WEEK, Calendar.ALL_STYLES, java.util.Locale.US)));
        System.out.println(java.time.format.DateTimeFormatter.ofPattern("EEE, d MMM yyyy HH:mm", java.util.Locale.US).format(LocalDateTime.of(2020, 1, 2, 3, 4)));
    }
}
