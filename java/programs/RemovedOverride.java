// A method of an interface that the receiver's class no longer has.
class RemovedOverride {
    static void hear(Loud one) {
        System.out.println(one.speak("hello"));
    }

    public static void main(String[] args) {
        hear(new Dog());
        hear(new Cat());
    }
}

interface Loud {
    String speak(String what);
}

class Dog implements Loud {
    public String speak(String what) {
        return "dog: " + what;
    }
}

class Cat implements Loud {
    public String speak(String what) {
        return "cat: " + what;
    }
}
