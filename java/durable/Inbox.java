import autopersist.DurableRoot;

class Inbox {
    static final class Message { final String text; final Message next; Message(String t, Message n) { text = t; next = n; } }

    @DurableRoot static Message newest;

    public static void main(String[] args) {
        newest = new Message("hello", newest);
        for (Message m = newest; m != null; m = m.next) System.out.println(m.text);
    }
}
