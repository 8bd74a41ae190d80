// A monitor taken and given back in each turn, round a field that counts.
class Monitors {
    int count;

    synchronized int step(int by) {
        count += by;
        return count;
    }

    public static void main(String[] args) {
        Monitors counter = new Monitors();
        int sum = 0;
        for (int i = 0; i < 120000; i++) {
            sum ^= counter.step(i);
        }
        System.out.println(sum);
    }
}
