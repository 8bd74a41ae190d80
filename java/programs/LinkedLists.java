// A singly linked list: pushed, appended, reversed, sorted by merging, with a node taken out.
class LinkedLists {
    static final class Node {
        int value;
        Node next;

        Node(int value, Node next) {
            this.value = value;
            this.next = next;
        }
    }

    static Node reversed(Node list) {
        Node done = null;
        while (list != null) {
            Node next = list.next;
            list.next = done;
            done = list;
            list = next;
        }
        return done;
    }

    static Node merged(Node a, Node b) {
        Node head = new Node(0, null);
        Node last = head;
        while (a != null && b != null) {
            if (a.value <= b.value) {
                last.next = a;
                a = a.next;
            } else {
                last.next = b;
                b = b.next;
            }
            last = last.next;
        }
        last.next = a != null ? a : b;
        return head.next;
    }

    static Node sorted(Node list) {
        if (list == null || list.next == null) {
            return list;
        }
        Node slow = list;
        for (Node fast = list.next; fast != null && fast.next != null; fast = fast.next.next) {
            slow = slow.next;
        }
        Node half = slow.next;
        slow.next = null;
        return merged(sorted(list), sorted(half));
    }

    static Node without(Node list, int value) {
        if (list == null) {
            return null;
        }
        list.next = without(list.next, value);
        return list.value == value ? list.next : list;
    }

    static void show(Node list) {
        StringBuilder text = new StringBuilder();
        for (Node n = list; n != null; n = n.next) {
            text.append(n.value).append(' ');
        }
        System.out.println(text.toString());
    }

    public static void main(String[] args) {
        Node list = null;
        int seed = 17;
        for (int i = 0; i < 30; i++) {
            seed = seed * 1103515245 + 12345;
            list = new Node((seed >>> 16) % 100, list);
        }
        show(list);
        list = reversed(list);
        show(list);
        list = sorted(list);
        show(list);
        show(without(list, list.next.value));
        show(null);
    }
}
