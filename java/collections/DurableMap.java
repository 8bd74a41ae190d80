import autopersist.DurableRoot;
import autopersist.Region;

/**
 * A hash map from Strings to Strings that outlives its process: a table of chains. Each change stands in a failure-atomic region. When
 * the map grows, the greater table and its chains are built anew in ordinary memory, and the one store of `table` makes them durable
 * together: chains that are relinked where they stand would be more places than a region may change.
 */
public class DurableMap {
    static final class Entry {
        final String key;
        String value;
        Entry next;

        Entry(String key, String value, Entry next) {
            this.key = key;
            this.value = value;
            this.next = next;
        }
    }

    Entry[] table = new Entry[8];
    int size;
    /** How many changes `main` has made. */
    int changes;

    static int slot(String key, int slots) {
        int hash = 7;
        for (int i = 0; i < key.length(); i++) {
            hash = 31 * hash + key.charAt(i);
        }
        return (hash & 0x7fffffff) % slots;
    }

    static Entry find(Entry entry, String key) {
        while (entry != null && !entry.key.equals(key)) {
            entry = entry.next;
        }
        return entry;
    }

    /** The value of a key, or null. */
    String get(String key) {
        Entry entry = find(table[slot(key, table.length)], key);
        return entry == null ? null : entry.value;
    }

    void put(String key, String value) {
        Region.begin();
        int slot = slot(key, table.length);
        Entry entry = find(table[slot], key);
        if (entry != null) {
            entry.value = value;
        } else {
            table[slot] = new Entry(key, value, table[slot]);
            size++;
            if (size > table.length) {
                grow();
            }
        }
        Region.end();
    }

    void grow() {
        Entry[] greater = new Entry[2 * table.length];
        for (int i = 0; i < table.length; i++) {
            for (Entry entry = table[i]; entry != null; entry = entry.next) {
                int slot = slot(entry.key, greater.length);
                greater[slot] = new Entry(entry.key, entry.value, greater[slot]);
            }
        }
        table = greater;
    }

    /** Whether the key was there. */
    boolean remove(String key) {
        int slot = slot(key, table.length);
        Entry before = null;
        Entry entry = table[slot];
        while (entry != null && !entry.key.equals(key)) {
            before = entry;
            entry = entry.next;
        }
        if (entry == null) {
            return false;
        }
        Region.begin();
        if (before == null) {
            table[slot] = entry.next;
        } else {
            before.next = entry.next;
        }
        size--;
        Region.end();
        return true;
    }

    /** Whether each key stands once, in its own chain, and the size is that of the chains. */
    boolean isWhole() {
        int count = 0;
        for (int i = 0; i < table.length; i++) {
            for (Entry entry = table[i]; entry != null; entry = entry.next) {
                if (slot(entry.key, table.length) != i || find(table[i], entry.key) != entry) {
                    return false;
                }
                count++;
            }
        }
        return size == count;
    }

    void show() {
        System.out.print("holds");
        for (int i = 0; i < table.length; i++) {
            for (Entry entry = table[i]; entry != null; entry = entry.next) {
                System.out.print(' ');
                System.out.print(entry.key);
                System.out.print('=');
                System.out.print(entry.value);
            }
        }
        System.out.println();
    }

    @DurableRoot static DurableMap map;

    /** Change number n. It and its count are one region. */
    static void change(int n) {
        String what;
        Region.begin();
        if (n % 4 == 0) {
            String key = "key" + n * (n + 3) % 97;
            what = (map.remove(key) ? "removed " : "lacks ") + key;
        } else {
            String key = "key" + n * (n + 7) % 97;
            map.put(key, "value" + n);
            what = "put " + key;
        }
        map.changes = n;
        Region.end();
        System.out.println("change " + n + " " + what);
    }

    public static void main(String[] args) {
        if (map == null) {
            map = new DurableMap();
        }
        System.out.println("begins after " + map.changes + (map.isWhole() ? " whole" : " broken"));
        map.show();
        for (int i = 0; i < 60; i++) {
            change(map.changes + 1);
        }
        System.out.println("ends after " + map.changes + (map.isWhole() ? " whole" : " broken"));
        map.show();
    }
}
