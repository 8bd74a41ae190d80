// Shortest paths in a graph of roads, by three ways that agree; a walk breadth first.
class ShortestPaths {
    static final int FAR = 1000000;

    static int[] nearest(int[][] roads, int from) {
        int[] distance = new int[roads.length];
        boolean[] done = new boolean[roads.length];
        for (int i = 0; i < distance.length; i++) {
            distance[i] = FAR;
        }
        distance[from] = 0;
        for (int round = 0; round < roads.length; round++) {
            int at = -1;
            for (int i = 0; i < roads.length; i++) {
                if (!done[i] && (at < 0 || distance[i] < distance[at])) {
                    at = i;
                }
            }
            done[at] = true;
            for (int to = 0; to < roads.length; to++) {
                if (roads[at][to] > 0 && distance[at] + roads[at][to] < distance[to]) {
                    distance[to] = distance[at] + roads[at][to];
                }
            }
        }
        return distance;
    }

    static int[][] allPairs(int[][] roads) {
        int n = roads.length;
        int[][] d = new int[n][];
        for (int i = 0; i < n; i++) {
            d[i] = new int[n];
            for (int j = 0; j < n; j++) {
                d[i][j] = i == j ? 0 : roads[i][j] > 0 ? roads[i][j] : FAR;
            }
        }
        for (int k = 0; k < n; k++) {
            for (int i = 0; i < n; i++) {
                for (int j = 0; j < n; j++) {
                    if (d[i][k] + d[k][j] < d[i][j]) {
                        d[i][j] = d[i][k] + d[k][j];
                    }
                }
            }
        }
        return d;
    }

    static String walk(int[][] roads, int from) {
        boolean[] seen = new boolean[roads.length];
        int[] queue = new int[roads.length];
        int head = 0;
        int tail = 0;
        queue[tail++] = from;
        seen[from] = true;
        String order = "";
        while (head < tail) {
            int at = queue[head++];
            order += " " + at;
            for (int to = 0; to < roads.length; to++) {
                if (roads[at][to] > 0 && !seen[to]) {
                    seen[to] = true;
                    queue[tail++] = to;
                }
            }
        }
        return order;
    }

    public static void main(String[] args) {
        int[][] roads = new int[9][];
        for (int i = 0; i < 9; i++) {
            roads[i] = new int[9];
        }
        int[] ends = {0, 1, 4, 0, 2, 1, 2, 1, 2, 1, 3, 5, 2, 3, 8, 2, 4, 10, 3, 4, 2, 4, 5, 3, 3, 5, 6, 6, 7, 1};
        for (int i = 0; i < ends.length; i += 3) {
            roads[ends[i]][ends[i + 1]] = ends[i + 2];
        }
        int[][] all = allPairs(roads);
        for (int from = 0; from < 9; from++) {
            int[] near = nearest(roads, from);
            String line = from + ":";
            for (int to = 0; to < 9; to++) {
                line += near[to] == FAR ? " -" : " " + near[to];
                if (near[to] != (all[from][to] > FAR ? FAR : all[from][to])) {
                    line += "!";
                }
            }
            System.out.println(line + " walk" + walk(roads, from));
        }
    }
}
