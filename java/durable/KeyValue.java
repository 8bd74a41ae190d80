import autopersist.DurableRoot;

/**
 * A key-value store that outlives its process: a table of chains, which a durable root reaches. No line says what to save. Each run
 * puts ten more keys, changes one of an earlier run and takes one away; it prints a key once it is in the image.
 */
public class KeyValue {
    static final class Entry {
        final String key;
        String value;
        Entry next;

        Entry(String key, String value, Entry next) {
            this.key = key;
            this.value = value;
            this.next = next;
        }
    }

    @DurableRoot static Entry[] table;

    static int slot(String key) {
        int hash = 7;
        for (int i = 0; i < key.length(); i++) {
            hash = 31 * hash + key.charAt(i);
        }
        return (hash & 0x7fffffff) % table.length;
    }

    static Entry find(String key) {
        Entry entry = table[slot(key)];
        while (entry != null && !entry.key.equals(key)) {
            entry = entry.next;
        }
        return entry;
    }

    /** The new entry is whole in the image before the chain refers to it: the one store of the table's element makes it durable. */
    static void put(String key, String value) {
        Entry entry = find(key);
        if (entry != null) {
            entry.value = value;
            return;
        }
        int slot = slot(key);
        table[slot] = new Entry(key, value, table[slot]);
    }

    static boolean remove(String key) {
        int slot = slot(key);
        Entry before = null;
        Entry entry = table[slot];
        while (entry != null && !entry.key.equals(key)) {
            before = entry;
            entry = entry.next;
        }
        if (entry == null) {
            return false;
        }
        if (before == null) {
            table[slot] = entry.next;
        } else {
            before.next = entry.next;
        }
        return true;
    }

    static int size() {
        int size = 0;
        for (int slot = 0; slot < table.length; slot++) {
            for (Entry entry = table[slot]; entry != null; entry = entry.next) {
                size++;
            }
        }
        return size;
    }

    public static void main(String[] args) {
        if (table == null) {
            table = new Entry[64];
        }
        Entry runs = find("runs");
        int run = runs == null ? 0 : runs.value.length();
        System.out.println("run " + (run + 1) + " begins with " + size() + " keys");
        for (int i = 0; i < 10; i++) {
            String key = "key" + (10 * run + i);
            put(key, "value" + i);
            System.out.println("put " + key);
        }
        if (run > 0) {
            String old = "key" + (10 * run - 1);
            put(old, "changed by run " + (run + 1));
            System.out.println(old + " is " + find(old).value);
            System.out.println(remove("key" + (10 * run - 10)) ? "took key" + (10 * run - 10) : "took nothing");
        }
        put("runs", runs == null ? "i" : runs.value + "i");
        System.out.println("run " + (run + 1) + " ends with " + size() + " keys");
    }
}
