// A hash table of texts with chains, which grows.
class HashTable {
    static final class Entry {
        final String key;
        int value;
        Entry next;

        Entry(String key, int value, Entry next) {
            this.key = key;
            this.value = value;
            this.next = next;
        }
    }

    private Entry[] table = new Entry[4];
    private int size;

    static int hash(String key) {
        int h = 0;
        for (int i = 0; i < key.length(); i++) {
            h = 31 * h + key.charAt(i);
        }
        return h;
    }

    private Entry find(String key) {
        Entry e = table[(hash(key) & 0x7fffffff) % table.length];
        while (e != null && !e.key.equals(key)) {
            e = e.next;
        }
        return e;
    }

    private void grow() {
        Entry[] old = table;
        table = new Entry[old.length * 2];
        for (Entry e : old) {
            while (e != null) {
                Entry next = e.next;
                int at = (hash(e.key) & 0x7fffffff) % table.length;
                e.next = table[at];
                table[at] = e;
                e = next;
            }
        }
    }

    void add(String key, int n) {
        Entry e = find(key);
        if (e != null) {
            e.value += n;
            return;
        }
        if (size == table.length) {
            grow();
        }
        int at = (hash(key) & 0x7fffffff) % table.length;
        table[at] = new Entry(key, n, table[at]);
        size++;
    }

    int get(String key) {
        Entry e = find(key);
        return e == null ? 0 : e.value;
    }

    public static void main(String[] args) {
        HashTable words = new HashTable();
        String text = "the cat and the dog and the bird saw a cat that the dog saw and then that was that";
        StringBuilder word = new StringBuilder();
        for (int i = 0; i <= text.length(); i++) {
            char c = i < text.length() ? text.charAt(i) : ' ';
            if (c == ' ') {
                words.add(word.toString(), 1);
                word = new StringBuilder();
            } else {
                word.append(c);
            }
        }
        String[] ask = {"the", "and", "that", "cat", "dog", "a", "bird", "mouse"};
        for (String key : ask) {
            System.out.println(key + " " + words.get(key));
        }
        for (int i = 0; i < 50; i++) {
            words.add("k" + i % 25, i);
        }
        System.out.println(words.size + " " + words.table.length + " " + words.get("k24") + " " + hash("polygenelubricants"));
    }
}
