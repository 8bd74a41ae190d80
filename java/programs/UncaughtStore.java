// The last of several arrays refuses a store.
class UncaughtStore {
    public static void main(String[] args) {
        Object[][] all = {new Object[1], new Runnable[1], new String[1], new int[1][]};
        for (Object[] array : all) {
            array[0] = null;
            System.out.println("null fits");
        }
        for (Object[] array : all) {
            array[0] = array == all[1] ? (Object) new Thread() : "text";
            System.out.println("stored");
        }
    }
}
