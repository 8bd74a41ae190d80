import autopersist.DurableRoot;

// A small key-value store in the image: chains of entries in a table that a durable root reaches. Each insert makes one entry durable by one store.
class Inserts {
    static final class Entry {
        final int key;
        int value;
        final Entry next;

        Entry(int key, int value, Entry next) {
            this.key = key;
            this.value = value;
            this.next = next;
        }
    }

    static final int COUNT = 5_000;

    static final int SLOTS = 1_024;

    @DurableRoot static Entry[] table;

    static void put(int key, int value) {
        int slot = key % SLOTS;
        table[slot] = new Entry(key, value, table[slot]);
    }

    static int get(int key) {
        Entry entry = table[key % SLOTS];
        while (entry.key != key) {
            entry = entry.next;
        }
        return entry.value;
    }

    public static void main(String[] args) {
        table = new Entry[SLOTS];
        for (int i = 0; i < COUNT; i++) {
            put(i * 7_919 % 1_000_003, i);
        }
        int sum = 0;
        for (int i = 0; i < COUNT; i += 500) {
            sum += get(i * 7_919 % 1_000_003);
        }
        System.out.println(sum);
    }
}
