import java.io.BufferedReader;
import java.io.IOException;
import java.io.InputStreamReader;
import java.lang.management.ManagementFactory;
import java.lang.management.ThreadMXBean;
import java.nio.file.Files;
import java.nio.file.Paths;
import java.util.ArrayList;
import java.util.List;
import org.openscience.cdk.graph.GraphUtil;
import org.openscience.cdk.graph.RelevantCycles;
import org.openscience.cdk.interfaces.IAtomContainer;
import org.openscience.cdk.ringsearch.RingSearch;
import org.openscience.cdk.silent.SilentChemObjectBuilder;

/**
 * The Chemistry Development Kit's relevant cycles on the loads of the benchmark. Its argument is the file of loads; each line
 * on standard input, 'load times', is answered by 'nanoseconds rings'; the nanoseconds are processor time of this thread.
 */
public final class Rival {
    /** The ring search wants one; it is not read. */
    private static final IAtomContainer NONE = SilentChemObjectBuilder.getInstance().newAtomContainer();

    /** The number of relevant rings of all compounds of a load: ring system by ring system, as the kit's own front does, which is faster. */
    private static long rings(List<int[][]> load) {
        long sum = 0;
        for (int[][] graph : load) {
            RingSearch systems = new RingSearch(NONE, graph);
            sum += systems.isolated().length;
            for (int[] fused : systems.fused()) sum += new RelevantCycles(GraphUtil.subgraph(graph, fused)).size();
        }
        return sum;
    }

    /** A compound as the kit takes it: for each atom its neighbours. */
    private static int[][] graph(String line) {
        String[] words = line.split(" ");
        int n = Integer.parseInt(words[0]);
        List<List<Integer>> near = new ArrayList<>();
        for (int a = 0; a < n; a++) near.add(new ArrayList<>());
        for (int k = 1; k + 1 < words.length; k += 2) {
            int a = Integer.parseInt(words[k]), b = Integer.parseInt(words[k + 1]);
            near.get(a).add(b);
            near.get(b).add(a);
        }
        int[][] graph = new int[n][];
        for (int a = 0; a < n; a++) graph[a] = near.get(a).stream().mapToInt(Integer::intValue).toArray();
        return graph;
    }

    public static void main(String[] args) throws IOException {
        List<List<int[][]>> loads = new ArrayList<>();
        for (String line : Files.readAllLines(Paths.get(args[0]))) {
            if (line.equals("load")) loads.add(new ArrayList<>());
            else loads.get(loads.size() - 1).add(graph(line));
        }
        ThreadMXBean clock = ManagementFactory.getThreadMXBean();
        BufferedReader commands = new BufferedReader(new InputStreamReader(System.in));
        for (String line; (line = commands.readLine()) != null; ) {
            String[] words = line.split(" ");
            List<int[][]> load = loads.get(Integer.parseInt(words[0]));
            int times = Integer.parseInt(words[1]);
            long sum = 0, start = clock.getCurrentThreadCpuTime();
            for (int i = 0; i < times; i++) sum += rings(load);
            System.out.println((clock.getCurrentThreadCpuTime() - start) + " " + sum / times);
        }
    }
}
