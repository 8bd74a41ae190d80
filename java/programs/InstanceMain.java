// main isn't static.
class InstanceMain {
    public void main(String[] args) {
        System.out.println("not reached");
    }
}
