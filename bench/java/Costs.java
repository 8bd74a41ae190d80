import autopersist.DurableRoot;

// The operations of the collections of java/collections: each nested class is a program that makes one of them COUNT times. The first run on
// an image puts COUNT items into each collection and does nothing else; a later one makes its operations, and then prints numbers until
// the acts are used up: the last one tells how many the operations took.
class Costs {
    static final int COUNT = 256;

    @DurableRoot static DurableList list;
    @DurableRoot static DurableMap map;
    @DurableRoot static RingBuffer ring;
    @DurableRoot static BTree tree;

    static String[] keys = new String[2 * COUNT];
    static String one = "one";
    static String other = "other";
    static int found;

    static int key(int i) {
        return i * 167 % 1009;
    }

    static void fill() {
        list = new DurableList();
        ring = new RingBuffer(2 * COUNT);
        tree = new BTree();
        for (int i = 0; i < COUNT; i++) {
            list.add(i);
            ring.put(i);
            tree.put(key(i), i);
        }
        map = new DurableMap();
        map.put("one", one);
        map.put("other", other);
        for (int i = 2; i < COUNT; i++) {
            map.put(keys[i], one);
        }
    }

    abstract static class Operation {
        abstract void make(int i);

        void measure() {
            for (int i = 0; i < 2 * COUNT; i++) {
                keys[i] = "key" + i;
            }
            if (map == null) {
                fill();
                return;
            }
            keys[0] = "one";
            keys[1] = "other";
            one = map.get("one");
            other = map.get("other");
            for (int i = 0; i < COUNT; i++) {
                make(i);
            }
            for (int i = 1; true; i++) {
                System.out.println(i);
            }
        }
    }

    static final class Nothing extends Operation {
        void make(int i) {}

        public static void main(String[] args) {
            new Nothing().measure();
        }
    }

    static final class ListAdd extends Operation {
        void make(int i) {
            list.add(i);
        }

        public static void main(String[] args) {
            new ListAdd().measure();
        }
    }

    static final class ListInsert extends Operation {
        void make(int i) {
            list.insert(8, i);
        }

        public static void main(String[] args) {
            new ListInsert().measure();
        }
    }

    static final class ListRemove extends Operation {
        void make(int i) {
            list.remove(i < COUNT - 16 ? 8 : 0);
        }

        public static void main(String[] args) {
            new ListRemove().measure();
        }
    }

    static final class ListRead extends Operation {
        void make(int i) {
            found = list.at(8).value;
        }

        public static void main(String[] args) {
            new ListRead().measure();
        }
    }

    static final class MapPut extends Operation {
        void make(int i) {
            map.put(keys[COUNT + i], one);
        }

        public static void main(String[] args) {
            new MapPut().measure();
        }
    }

    static final class MapChange extends Operation {
        void make(int i) {
            map.put(keys[i], other);
        }

        public static void main(String[] args) {
            new MapChange().measure();
        }
    }

    static final class MapRemove extends Operation {
        void make(int i) {
            map.remove(keys[i]);
        }

        public static void main(String[] args) {
            new MapRemove().measure();
        }
    }

    static final class MapRead extends Operation {
        void make(int i) {
            one = map.get(keys[i]);
        }

        public static void main(String[] args) {
            new MapRead().measure();
        }
    }

    static final class RingPut extends Operation {
        void make(int i) {
            ring.put(i);
        }

        public static void main(String[] args) {
            new RingPut().measure();
        }
    }

    static final class RingTake extends Operation {
        void make(int i) {
            found = ring.take();
        }

        public static void main(String[] args) {
            new RingTake().measure();
        }
    }

    static final class TreePut extends Operation {
        void make(int i) {
            tree.put(key(COUNT + i), i);
        }

        public static void main(String[] args) {
            new TreePut().measure();
        }
    }

    static final class TreeChange extends Operation {
        void make(int i) {
            tree.put(key(i), -1);
        }

        public static void main(String[] args) {
            new TreeChange().measure();
        }
    }

    static final class TreeRemove extends Operation {
        void make(int i) {
            tree.remove(key(i));
        }

        public static void main(String[] args) {
            new TreeRemove().measure();
        }
    }

    static final class TreeRead extends Operation {
        void make(int i) {
            found = tree.get(key(i), -1);
        }

        public static void main(String[] args) {
            new TreeRead().measure();
        }
    }
}
