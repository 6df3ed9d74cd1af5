import java.nio.file.Files;
import java.nio.file.Path;
import java.sql.Connection;
import java.sql.Statement;
import java.util.List;

/** XaCodes TABLE: each script of a table of XA's calls and answers (`xa_codes`), against drdad. */
public class XaCodes {
    public static void main(String[] words) throws Exception {
        Findings findings = new Findings();
        List<String> scripts = Files.readAllLines(Path.of(words[0])).stream().filter(line -> !line.isBlank() && !line.startsWith("#")).toList();
        try (Drdad drdad = new Drdad(Drdad.folder())) {
            try (Connection connection = drdad.connect(); Statement statement = connection.createStatement()) {
                statement.executeUpdate("CREATE TABLE T (K INTEGER NOT NULL, V INTEGER, PRIMARY KEY (K))");
            }
            for (int number = 0; number < scripts.size(); number++) {
                String[] parts = scripts.get(number).split(": ");
                try (XaScript script = new XaScript(drdad, number)) {
                    findings.check(parts[0], parts[1], script.play(parts[1]));
                }
            }
        }
        findings.end(scripts.size() + " scripts of XA's calls");
    }
}
