// Synchronized methods and blocks of one thread: nested, of classes and arrays, left by a return and by a throw.
class Synchronized {
    private int count;
    static int total;

    synchronized int add(int n) {
        count += n;
        if (n > 0) {
            add(n - 1);
        }
        return count;
    }

    static synchronized void addTotal(int n) {
        synchronized (new Object()) {
            total += n;
        }
    }

    synchronized void fails() {
        count = -1;
        throw new IllegalStateException("failed");
    }

    static synchronized long both(Synchronized a, Synchronized b) {
        synchronized (a) {
            synchronized (b) {
                synchronized (a) {
                    return a.count * 1000L + b.count;
                }
            }
        }
    }

    int search(int[] array, int key) {
        synchronized (array) {
            for (int i = 0; i < array.length; i++) {
                synchronized (this) {
                    if (array[i] == key) {
                        return i;
                    }
                    if (array[i] < 0) {
                        break;
                    }
                }
            }
        }
        return -1;
    }

    public static void main(String[] args) {
        Synchronized a = new Synchronized();
        Synchronized b = new Synchronized();
        System.out.println(a.add(10));
        System.out.println(b.add(4));
        addTotal(5);
        addTotal(6);
        System.out.println(total);
        System.out.println(both(a, b) + " " + both(a, a));
        try {
            a.fails();
        } catch (IllegalStateException e) {
            System.out.println(e.getMessage() + " " + a.add(0));
        }
        int[] array = {4, 8, -1, 15};
        System.out.println(a.search(array, 8) + " " + a.search(array, 15));
        try {
            synchronized (b) {
                synchronized ("text") {
                    array[4] = 0;
                }
            }
        } catch (ArrayIndexOutOfBoundsException e) {
            synchronized (b) {
                System.out.println("left both");
            }
        }
    }
}
