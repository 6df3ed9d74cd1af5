import bitronix.tm.resource.jdbc.PoolingDataSource;
import java.sql.Connection;
import java.util.ArrayList;
import java.util.List;
import javax.sql.DataSource;
import org.springframework.jdbc.core.JdbcTemplate;
import org.springframework.jdbc.datasource.DataSourceTransactionManager;
import org.springframework.transaction.PlatformTransactionManager;
import org.springframework.transaction.jta.JtaTransactionManager;
import org.springframework.transaction.support.TransactionTemplate;

/** Spring's JdbcTemplate over a pool of drdad's, and its JTA transactions over drdad and PostgreSQL under Bitronix. */
public class SpringScenarios {
    private static final String CREATE = "CREATE TABLE %s (K INTEGER NOT NULL, V VARCHAR(60), PRIMARY KEY (K))";

    private final Findings findings = new Findings();

    public static void main(String[] words) throws Exception {
        SpringScenarios all = new SpringScenarios();
        try (Drdad drdad = new Drdad(Drdad.folder())) {
            all.template(drdad);
            all.units(Pools.hikari(drdad, true));
            all.jta(drdad);
        }
        all.findings.end("Spring's JdbcTemplate, its transactions, JTA");
    }

    private void template(Drdad drdad) throws Exception {
        JdbcTemplate template = new JdbcTemplate(Pools.hikari(drdad, true));
        template.execute(String.format(CREATE, "T"));
        findings.check("update", 1, template.update("INSERT INTO T VALUES (?, ?)", 1, "one"));
        findings.check("update with a null", 1, template.update("INSERT INTO T VALUES (?, ?)", 2, null));
        List<Object[]> many = new ArrayList<>();
        for (int key = 10; key < 60; key++) {
            many.add(new Object[] {key, "row " + key});
        }
        findings.check("batchUpdate", 50, template.batchUpdate("INSERT INTO T VALUES (?, ?)", many).length);
        findings.check("queryForObject", "one", template.queryForObject("SELECT V FROM T WHERE K = ?", String.class, 1));
        findings.check("queryForObject of a null", null, template.queryForObject("SELECT V FROM T WHERE K = ?", String.class, 2));
        findings.check("queryForList", 52, template.queryForList("SELECT K, V FROM T").size());
        findings.check("names of columns", "row 10", template.queryForMap("SELECT K, V FROM T WHERE K = 10").get("v"));
        findings.check("update of many", 50, template.update("UPDATE T SET V = ? WHERE K >= ?", "x", 10));
        findings.check("queryForObject of no row", "EmptyResultDataAccessException",
            Findings.outcome(() -> template.queryForObject("SELECT V FROM T WHERE K = ?", String.class, 9)));
        findings.check("a key twice", "DataIntegrityViolationException",
            Findings.outcome(() -> template.update("INSERT INTO T VALUES (?, ?)", 1, "again")));
        findings.check("no such table", "BadSqlGrammarException", Findings.outcome(() -> template.queryForList("SELECT K FROM NOPE")));
        claimed(drdad, template);
    }

    /** A row that another unit has: a failure that Spring takes for one to be tried again. */
    private void claimed(Drdad drdad, JdbcTemplate template) throws Exception {
        try (Connection other = drdad.connect()) {
            other.setAutoCommit(false);
            other.createStatement().executeUpdate("UPDATE T SET V = 'mine' WHERE K = 1");
            String failure = Findings.outcome(() -> template.update("UPDATE T SET V = ? WHERE K = ?", "yours", 1)).toString();
            findings.check("a row of another unit", "ConcurrencyFailureException", failure);
            other.rollback();
        }
        findings.check("tried again", 1, template.update("UPDATE T SET V = ? WHERE K = ?", "yours", 1));
    }

    private void units(DataSource pool) {
        JdbcTemplate template = new JdbcTemplate(pool);
        TransactionTemplate unit = new TransactionTemplate(new DataSourceTransactionManager(pool));
        unit.execute(status -> template.update("INSERT INTO T VALUES (?, ?)", 101, "kept"));
        Findings.outcome(() -> unit.execute(status -> {
            template.update("INSERT INTO T VALUES (?, ?)", 102, "undone");
            throw new IllegalStateException("on purpose");
        }));
        findings.check("rows of a unit that was kept and of one that failed", 1,
            unit.execute(status -> template.queryForList("SELECT K FROM T WHERE K > 100").size()));
    }

    private void jta(Drdad drdad) throws Exception {
        PoolingDataSource here = Manager.pool(Postgres.number(0));
        PoolingDataSource there = Manager.pool(drdad.port);
        try (Manager manager = new Manager(Drdad.folder(), here, there)) {
            try (Connection first = Postgres.number(0).connect(); Connection second = drdad.connect()) {
                first.createStatement().executeUpdate(String.format(CREATE, "BOTH_SIDES"));
                second.createStatement().executeUpdate(String.format(CREATE, "BOTH_SIDES"));
            }
            PlatformTransactionManager jta = new JtaTransactionManager(manager.transactions, manager.transactions);
            bothOrNeither(new TransactionTemplate(jta), new JdbcTemplate(here), new JdbcTemplate(there));
        }
    }

    private void bothOrNeither(TransactionTemplate unit, JdbcTemplate here, JdbcTemplate there) {
        String insert = "INSERT INTO BOTH_SIDES VALUES (?, ?)";
        unit.execute(status -> here.update(insert, 1, "kept") + there.update(insert, 1, "kept"));
        Findings.outcome(() -> unit.execute(status -> {
            here.update(insert, 2, "undone");
            return there.update(insert, 1, "a key twice");
        }));
        unit.execute(status -> {
            findings.check("rows in PostgreSQL", 1, here.queryForList("SELECT K FROM BOTH_SIDES").size());
            findings.check("rows in drdad", 1, there.queryForList("SELECT K FROM BOTH_SIDES").size());
            return null;
        });
    }
}
