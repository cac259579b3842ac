// JGraphT's DirectedAcyclicGraph, as the harness calls it.
import org.jgrapht.graph.DefaultEdge;
import org.jgrapht.graph.DirectedAcyclicGraph;

public final class Jgrapht {
    private static DirectedAcyclicGraph<Long, DefaultEdge> graph;

    private Jgrapht() {}

    public static void startAnew() {
        graph = new DirectedAcyclicGraph<>(DefaultEdge.class);
    }

    /** Says sayings, three numbers each, as peer.h declares them; how many weren't refused. */
    public static long say(long[] sayings) {
        long done = 0;
        for (int i = 0; i < sayings.length; i += 3) {
            if (sayOne((int) sayings[i], sayings[i + 1], sayings[i + 2])) {
                done++;
            }
        }
        return done;
    }

    private static boolean sayOne(int kind, long a, long b) {
        switch (kind) {
            case 0:
                return graph.addVertex(a);
            case 1:
                return graph.removeVertex(a);
            case 2:
                return link(a, b);
            default:
                return graph.removeEdge(a, b) != null;
        }
    }

    private static boolean link(Long a, Long b) {
        try {
            return graph.addEdge(a, b) != null;
        } catch (IllegalArgumentException e) {
            return false;
        }
    }
}
