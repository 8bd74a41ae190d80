// There is no main of that form.
class NoMain {
    public static void main(String args) {
        System.out.println("not reached");
    }
}
