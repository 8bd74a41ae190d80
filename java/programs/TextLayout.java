// A text broken into lines, justified, counted, and packed by its runs.
class TextLayout {
    static final String TEXT = "Every object that a durable root reaches is kept in the image by the runtime itself: "
        + "no code of the program's says what to save or when.";

    static String[] words(String text) {
        int count = 1;
        for (int i = 0; i < text.length(); i++) {
            if (text.charAt(i) == ' ') count++;
        }
        String[] words = new String[count];
        int at = 0;
        StringBuilder word = new StringBuilder();
        for (int i = 0; i < text.length(); i++) {
            if (text.charAt(i) == ' ') {
                words[at++] = word.toString();
                word = new StringBuilder();
            } else {
                word.append(text.charAt(i));
            }
        }
        words[at] = word.toString();
        return words;
    }

    static void justify(String[] words, int from, int to, int spare) {
        StringBuilder line = new StringBuilder();
        int gaps = to - from - 1;
        for (int i = from; i < to; i++) {
            line.append(words[i]);
            if (i < to - 1) {
                int spaces = 1 + spare / gaps + (i - from < spare % gaps ? 1 : 0);
                for (int s = 0; s < spaces; s++) line.append(' ');
            }
        }
        System.out.println("|" + line.toString() + "|");
    }

    static void layout(String[] words, int width) {
        int from = 0;
        int used = -1;
        for (int i = 0; i < words.length; i++) {
            if (used + 1 + words[i].length() > width) {
                justify(words, from, i, i - from > 1 ? width - used : 0);
                from = i;
                used = -1;
            }
            used += 1 + words[i].length();
        }
        justify(words, from, words.length, 0);
    }

    static String packed(String text) {
        StringBuilder out = new StringBuilder();
        for (int i = 0; i < text.length(); ) {
            int end = i;
            while (end < text.length() && text.charAt(end) == text.charAt(i)) end++;
            if (end - i > 1) out.append(end - i);
            out.append(text.charAt(i));
            i = end;
        }
        return out.toString();
    }

    public static void main(String[] args) {
        String[] words = words(TEXT);
        layout(words, 30);
        layout(words, 18);
        int[] counts = new int[26];
        for (int i = 0; i < TEXT.length(); i++) {
            char c = TEXT.charAt(i);
            if (c >= 'a' && c <= 'z') counts[c - 'a']++;
        }
        for (int i = 0; i < 26; i++) {
            if (counts[i] > 5) System.out.print((char) ('a' + i) + "" + counts[i] + " ");
        }
        System.out.println();
        System.out.println(packed("aaabccddddde") + " " + packed("") + " " + packed("abc"));
    }
}
