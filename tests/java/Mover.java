import bitronix.tm.resource.jdbc.PoolingDataSource;
import java.io.BufferedReader;
import java.io.InputStreamReader;
import java.nio.file.Path;

/**
 * Mover POSTGRES_PORT DRDAD_PORT THREADS: a program that makes transfers under Bitronix, until it is killed. It begins with the manager's
 * recovery. Its input is a word a line, each of which it answers when it has done it: `go` begins transfers, `rest` lets them come to their
 * ends, `settle` lets the manager recover what is in doubt. Each transfer whose commit has returned is told by its number.
 */
public class Mover {
    public static void main(String[] words) throws Exception {
        PoolingDataSource here = Manager.pool(new Postgres(Integer.parseInt(words[0])));
        PoolingDataSource there = Manager.pool(Integer.parseInt(words[1]));
        Manager manager = new Manager(Path.of(System.getProperty("folder")), here, there);
        Load load = new Load(manager, here, there, Integer.parseInt(words[2]), number -> say(Long.toString(number)));
        say("ready");
        BufferedReader in = new BufferedReader(new InputStreamReader(System.in));
        for (String word = in.readLine(); word != null; word = in.readLine()) {
            switch (word) {
                case "go" -> load.begin();
                case "rest" -> load.rest();
                case "settle" -> manager.recover();
                default -> throw new IllegalArgumentException(word);
            }
            say(word);
        }
        Runtime.getRuntime().halt(0);
    }

    private static synchronized void say(String line) {
        System.out.println(line);
        System.out.flush();
    }
}
