// What a run takes that does nothing.
class Nothing {
    public static void main(String[] args) {}
}
