/** An index of a text: each word with the lines in which it stands, in alphabetical order. */
class TextIndex {
    static final String[] LINES = {
        "The heap is where objects live while the program runs;",
        "when the program ends, the heap is gone.",
        "A durable root names an object that should outlive the program.",
        "Every object that the root reaches is kept with it,",
        "and so is every object that those objects reach.",
        "What no root reaches is gone when the program ends,",
        "as the heap always was.",
    };

    /** A word and the numbers of its lines. */
    static final class Entry {
        final String word;
        private int[] lines = new int[2];
        private int count;
        private int uses;
        Entry next;

        Entry(String word) {
            this.word = word;
        }

        void add(int line) {
            uses++;
            if (count > 0 && lines[count - 1] == line) {
                return;
            }
            if (count == lines.length) {
                int[] more = new int[2 * count];
                for (int i = 0; i < count; i++) {
                    more[i] = lines[i];
                }
                lines = more;
            }
            lines[count++] = line;
        }

        public String toString() {
            StringBuilder out = new StringBuilder(word);
            for (int i = word.length(); i < 10; i++) {
                out.append(i == word.length() ? ' ' : '.');
            }
            for (int i = 0; i < count; i++) {
                out.append(i == 0 ? " " : ", ").append(lines[i]);
            }
            if (uses > count) {
                out.append(" (").append(uses).append(" times)");
            }
            return out.toString();
        }
    }

    private final Entry[] chains = new Entry[32];
    private int size;

    private static int chainOf(String word) {
        int hash = 7;
        for (int i = 0; i < word.length(); i++) {
            hash = hash * 31 + word.charAt(i);
        }
        return hash >>> 4 & 31;
    }

    void add(String word, int line) {
        int chain = chainOf(word);
        Entry entry = chains[chain];
        while (entry != null && !entry.word.equals(word)) {
            entry = entry.next;
        }
        if (entry == null) {
            entry = new Entry(word);
            entry.next = chains[chain];
            chains[chain] = entry;
            size++;
        }
        entry.add(line);
    }

    /** The words of a line, in small letters. */
    void addLine(String text, int line) {
        StringBuilder word = new StringBuilder();
        boolean inWord = false;
        for (int i = 0; i <= text.length(); i++) {
            char c = i < text.length() ? text.charAt(i) : '.';
            if (c >= 'A' && c <= 'Z') {
                c += 'a' - 'A';
            }
            if (c >= 'a' && c <= 'z') {
                word.append(c);
                inWord = true;
            } else if (inWord) {
                add(word.toString(), line);
                word = new StringBuilder();
                inWord = false;
            }
        }
    }

    static boolean isBefore(String a, String b) {
        for (int i = 0; i < a.length() && i < b.length(); i++) {
            if (a.charAt(i) != b.charAt(i)) {
                return a.charAt(i) < b.charAt(i);
            }
        }
        return a.length() < b.length();
    }

    Entry[] sorted() {
        Entry[] all = new Entry[size];
        int count = 0;
        for (Entry chain : chains) {
            for (Entry entry = chain; entry != null; entry = entry.next) {
                int at = count++;
                while (at > 0 && isBefore(entry.word, all[at - 1].word)) {
                    all[at] = all[at - 1];
                    at--;
                }
                all[at] = entry;
            }
        }
        return all;
    }

    public static void main(String[] args) {
        TextIndex index = new TextIndex();
        for (int i = 0; i < LINES.length; i++) {
            index.addLine(LINES[i], i + 1);
        }
        for (Entry entry : index.sorted()) {
            System.out.println(entry);
        }
        System.out.println(index.size + " words in " + LINES.length + " lines");
    }
}
