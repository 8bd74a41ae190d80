// Days of the week, leap years, and a month as a table.
class Calendar {
    static final String[] MONTHS = {
        "January", "February", "March", "April", "May", "June",
        "July", "August", "September", "October", "November", "December"
    };

    static boolean isLeap(int year) {
        return year % 4 == 0 && year % 100 != 0 || year % 400 == 0;
    }

    static int days(int year, int month) {
        switch (month) {
            case 2: return isLeap(year) ? 29 : 28;
            case 4: case 6: case 9: case 11: return 30;
            default: return 31;
        }
    }

    static long number(int year, int month, int day) {
        long sum = 365L * (year - 1) + (year - 1) / 4 - (year - 1) / 100 + (year - 1) / 400;
        for (int m = 1; m < month; m++) {
            sum += days(year, m);
        }
        return sum + day;
    }

    static void show(int year, int month) {
        System.out.println(MONTHS[month - 1] + " " + year);
        System.out.println("Mo Tu We Th Fr Sa Su");
        int column = (int) ((number(year, month, 1) + 6) % 7);
        for (int i = 0; i < column; i++) {
            System.out.print("   ");
        }
        for (int day = 1; day <= days(year, month); day++) {
            System.out.print(day < 10 ? " " + day : "" + day);
            column = (column + 1) % 7;
            System.out.print(column == 0 || day == days(year, month) ? '\n' : ' ');
        }
    }

    public static void main(String[] args) {
        show(2000, 2);
        show(2019, 6);
        System.out.println(number(2019, 6, 22) - number(1969, 7, 20));
        int leap = 0;
        for (int year = 1600; year < 2000; year++) {
            leap += isLeap(year) ? 1 : 0;
        }
        System.out.println(leap);
    }
}
