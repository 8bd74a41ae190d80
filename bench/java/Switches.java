// A machine of five states: a tableswitch in each turn, and a lookupswitch in each second one.
class Switches {
    public static void main(String[] args) {
        int state = 0;
        int count = 0;
        for (int i = 0; i < 3072000; i++) {
            switch (state) {
                case 0: state = 1; break;
                case 1: state = 2; count += 3; break;
                case 2: state = 3; break;
                case 3: state = 4; count ^= i; break;
                default: state = 0;
            }
            switch (i & 255) {
                case 3: count++; break;
                case 30: count += 2; break;
                case 100: count += 5; break;
                case 200: count -= 4; break;
                default: break;
            }
        }
        System.out.println(count);
    }
}
