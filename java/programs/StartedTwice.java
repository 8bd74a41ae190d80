// What a Thread may be asked: started once, run without a start, joined before it was started and behind its end.
class StartedTwice {
    static class Speaker implements Runnable {
        final StringBuilder said;

        Speaker(StringBuilder said) {
            this.said = said;
        }

        public void run() {
            said.append("said;");
        }
    }

    static class Silent extends Thread {
    }

    public static void main(String[] args) throws InterruptedException {
        StringBuilder said = new StringBuilder();
        Thread speaker = new Thread(new Speaker(said));
        // not started: nothing to wait for
        speaker.join();
        speaker.run();
        System.out.println(said.toString());
        speaker.start();
        speaker.join();
        System.out.println(said.toString());
        try {
            speaker.start();
            System.out.println("started twice");
        } catch (IllegalThreadStateException e) {
            System.out.println("once is enough");
        }
        Thread idle = new Thread();
        idle.start();
        idle.join();
        Silent silent = new Silent();
        silent.start();
        silent.join();
        try {
            silent.start();
        } catch (IllegalArgumentException e) {
            System.out.println("silent too");
        }
        Thread none = null;
        try {
            none.start();
        } catch (NullPointerException e) {
            System.out.println("no thread");
        }
        try {
            none.join();
        } catch (NullPointerException e) {
            System.out.println("nothing to join");
        }
    }
}
