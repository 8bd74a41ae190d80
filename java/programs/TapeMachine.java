// A machine whose programs are texts of eight signs over a tape of bytes.
class TapeMachine {
    private final byte[] tape = new byte[64];
    private int at;
    private int steps;
    private final String program;
    private final int[] partner;

    TapeMachine(String program) {
        this.program = program;
        partner = new int[program.length()];
        int[] open = new int[program.length()];
        int depth = 0;
        for (int i = 0; i < program.length(); i++) {
            if (program.charAt(i) == '[') {
                open[depth++] = i;
            } else if (program.charAt(i) == ']') {
                partner[i] = open[--depth];
                partner[open[depth]] = i;
            }
        }
    }

    String run(String input) {
        StringBuilder out = new StringBuilder();
        int taken = 0;
        for (int i = 0; i < program.length(); i++) {
            steps++;
            switch (program.charAt(i)) {
                case '>': at++; break;
                case '<': at--; break;
                case '+': tape[at]++; break;
                case '-': tape[at]--; break;
                case '.': out.append((char) tape[at]); break;
                case ',': tape[at] = (byte) (taken < input.length() ? input.charAt(taken++) : 0); break;
                case '[':
                    if (tape[at] == 0) {
                        i = partner[i];
                    }
                    break;
                case ']':
                    if (tape[at] != 0) {
                        i = partner[i];
                    }
                    break;
                default:
                    throw new IllegalStateException("sign " + program.charAt(i));
            }
        }
        return out.toString();
    }

    static void show(String program, String input) {
        TapeMachine machine = new TapeMachine(program);
        try {
            String printed = machine.run(input);
            System.out.println(printed + " after " + machine.steps);
        } catch (ArrayIndexOutOfBoundsException e) {
            System.out.println("off the tape after " + machine.steps);
        } catch (IllegalStateException e) {
            System.out.println(e.getMessage());
        }
    }

    public static void main(String[] args) {
        show(",[.,]", "echo");
        show(",[>,]<[.<]", "backwards");
        show("++++++[>++++++++<-]>+.+.+.", "");
        show("++++[>+++++<-]>[<+++++>-]+<+[>[>+>+<<-]++>>[<<+>>-]>[-]<<[-]<.,]", "");
        show("<+", "");
        show("+?", "");
    }
}
