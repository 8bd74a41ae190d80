// A machine of states that reads numbers, names and comments out of a text.
class StateMachine {
    static final int START = 0;
    static final int NUMBER = 1;
    static final int NAME = 2;
    static final int SLASH = 3;
    static final int COMMENT = 4;
    static final int STAR = 5;

    int state = START;
    int numbers;
    int names;
    int comments;
    long sum;
    private long number;
    private StringBuilder name;

    void end() {
        if (state == NUMBER) {
            numbers++;
            sum += number;
        } else if (state == NAME) {
            names++;
            System.out.println(name.toString());
        }
        state = START;
    }

    void take(char c) {
        switch (state) {
            case SLASH:
                state = c == '*' ? COMMENT : START;
                return;
            case COMMENT:
                state = c == '*' ? STAR : COMMENT;
                return;
            case STAR:
                if (c == '/') {
                    comments++;
                    state = START;
                } else if (c != '*') {
                    state = COMMENT;
                }
                return;
            default:
                break;
        }
        boolean digit = c >= '0' && c <= '9';
        boolean letter = c >= 'a' && c <= 'z' || c >= 'A' && c <= 'Z' || c == '_';
        if (state == NUMBER && digit) {
            number = number * 10 + c - '0';
        } else if (state == NAME && (letter || digit)) {
            name.append(c);
        } else {
            end();
            if (digit) {
                state = NUMBER;
                number = c - '0';
            } else if (letter) {
                state = NAME;
                name = new StringBuilder();
                name.append(c);
            } else if (c == '/') {
                state = SLASH;
            }
        }
    }

    public static void main(String[] args) {
        StateMachine m = new StateMachine();
        String text = "x1 = 42 + y_2*7; /* 99 ** not / a number */ total=x1/* again */ + 100000000000";
        for (int i = 0; i < text.length(); i++) {
            m.take(text.charAt(i));
        }
        m.end();
        System.out.println(m.numbers + " " + m.names + " " + m.comments + " " + m.sum + " " + m.state);
    }
}
