import java.io.BufferedReader;
import java.io.File;
import java.io.IOException;
import java.io.PrintStream;
import java.nio.file.Path;
import java.util.Set;
import java.util.concurrent.BlockingQueue;
import java.util.concurrent.ConcurrentHashMap;
import java.util.concurrent.LinkedBlockingQueue;
import java.util.concurrent.TimeUnit;

/** A process of its own that runs Mover, and what it and those before it have told. */
final class MoverProcess {
    private static final long ANSWER_SECONDS = 120;

    private final ProcessBuilder command;
    private final Process process;
    private final PrintStream in;
    private final BlockingQueue<String> answers = new LinkedBlockingQueue<>();
    private final Set<Long> told;
    private final Thread reader;

    MoverProcess(Path folder, Postgres postgres, Drdad drdad, int threads) throws Exception {
        this(command(folder, postgres, drdad, threads), ConcurrentHashMap.newKeySet());
    }

    private MoverProcess(ProcessBuilder command, Set<Long> told) throws Exception {
        this.command = command;
        this.told = told;
        process = command.start();
        in = new PrintStream(process.getOutputStream(), true);
        reader = new Thread(this::read);
        reader.start();
    }

    private static ProcessBuilder command(Path folder, Postgres postgres, Drdad drdad, int threads) {
        return new ProcessBuilder(
            ProcessHandle.current().info().command().orElseThrow(), "-cp", System.getProperty("java.class.path"), "-Dfolder=" + folder,
            "-Dorg.slf4j.simpleLogger.defaultLogLevel=warn", "Mover", Integer.toString(postgres.port()), Integer.toString(drdad.port),
            Integer.toString(threads)).redirectError(ProcessBuilder.Redirect.appendTo(new File(folder.toFile(), "mover.log")));
    }

    /** The next one, behind one that was killed. It begins with its manager's recovery. */
    MoverProcess again() throws Exception {
        return new MoverProcess(command, told);
    }

    /** Returns once the manager has recovered. */
    MoverProcess ready() throws Exception {
        await("ready");
        return this;
    }

    void ask(String word) throws Exception {
        in.println(word);
        await(word);
    }

    void kill() {
        process.destroyForcibly();
        process.onExit().join();
        try {
            reader.join();
        } catch (InterruptedException stop) {
            Thread.currentThread().interrupt();
        }
    }

    /** The numbers of the transfers that were told as made, by this one and those before it. */
    Set<Long> told() {
        return told;
    }

    private void await(String word) throws Exception {
        String answer = answers.poll(ANSWER_SECONDS, TimeUnit.SECONDS);
        if (!word.equals(answer)) {
            throw new IOException("the mover answered " + answer + " to " + word);
        }
    }

    private void read() {
        try (BufferedReader out = process.inputReader()) {
            for (String line = out.readLine(); line != null; line = out.readLine()) {
                if (Character.isDigit(line.charAt(0))) {
                    told.add(Long.valueOf(line));
                } else {
                    answers.add(line);
                }
            }
        } catch (IOException killed) {
            // what it had told before is kept
        }
    }
}
