// print and println of every kind, of null, of long texts, and of characters of one to four bytes.
class PrintEveryKind {
    public String toString() {
        return "an object";
    }

    public static void main(String[] args) {
        System.out.print(-12);
        System.out.print(1234567890123L);
        System.out.print('c');
        System.out.print(true);
        System.out.print("text");
        System.out.print(new PrintEveryKind());
        System.out.println();
        System.out.println(-2147483648);
        System.out.println(-9223372036854775808L);
        System.out.println('\u00e9');
        System.out.println(false);
        System.out.println("");
        System.out.println("twenty-three characters");
        System.out.println("twenty-four characters..");
        System.out.println("A line that is longer than what the stream takes in one piece, and then longer still.");
        System.out.println(new PrintEveryKind());
        System.out.print((String) null);
        System.out.println((Object) null);
        System.out.println("\u00fcber \u20ac 5 \ud83d\ude00 \u4e16\u754c");
        System.out.println("aaaaaaaaaaaaaaaaaaaaa\u20ac\u20ac\u20ac\ud83d\ude00\ud83d\ude00\u00e9\u00e9\u00e9");
        System.out.println("a \ud83d alone, \ude00 alone");
        System.out.println("tab\there, quote \" and backslash \\, nul " + (int) "\0".charAt(0));
        Object o = "a String as an Object";
        System.out.println(o);
        java.io.PrintStream out = System.out;
        out.print("the same ");
        out.println("stream");
        byte b = -1;
        short s = -300;
        out.println(b);
        out.println(s);
    }
}
