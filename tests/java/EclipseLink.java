import java.sql.Connection;
import java.sql.Statement;
import java.util.Map;
import java.util.function.Function;
import javax.persistence.EntityManager;
import javax.persistence.EntityManagerFactory;
import javax.persistence.Persistence;

/** JPA by EclipseLink over drdad, with entities of one table each: persist, find, query, change, remove. */
public class EclipseLink {
    private final Findings findings = new Findings();
    private final EntityManagerFactory factory;

    private EclipseLink(Drdad drdad) {
        factory = Persistence.createEntityManagerFactory("shop", Map.of(
            "javax.persistence.jdbc.driver", "org.drdad.jdbc.DrdadDriver",
            "javax.persistence.jdbc.url", "jdbc:drdad://127.0.0.1:" + drdad.port + "/" + Drdad.DATABASE,
            "javax.persistence.jdbc.user", Drdad.USER,
            "javax.persistence.jdbc.password", Drdad.PASSWORD));
    }

    public static void main(String[] words) throws Exception {
        try (Drdad drdad = new Drdad(Drdad.folder())) {
            try (Connection connection = drdad.connect(); Statement statement = connection.createStatement()) {
                statement.executeUpdate(
                    "CREATE TABLE GOODS (K INTEGER NOT NULL, V VARCHAR(60), AMOUNT BIGINT, PICTURE VARBINARY(60), PRIMARY KEY (K))");
            }
            EclipseLink all = new EclipseLink(drdad);
            all.play();
            all.findings.end("EclipseLink on one table");
        }
    }

    private void play() {
        unit(entities -> {
            for (int key = 1; key <= 20; key++) {
                entities.persist(new Goods(key, "goods " + key, key * 10L, new byte[] {(byte) key, 0, -1}));
            }
            return null;
        });
        findings.check("find", "goods 7", unit(entities -> entities.find(Goods.class, 7).name));
        findings.check("bytes", (byte) 7, unit(entities -> entities.find(Goods.class, 7).picture[0]));
        findings.check("find of none", null, unit(entities -> entities.find(Goods.class, 99)));
        findings.check("a query", 5, unit(entities -> entities.createQuery("SELECT g FROM Goods g WHERE g.amount > :least", Goods.class)
            .setParameter("least", 150L).getResultList().size()));
        findings.check("all", 20, unit(entities -> entities.createQuery("SELECT g FROM Goods g", Goods.class).getResultList().size()));
        unit(entities -> entities.find(Goods.class, 3).amount = 999);
        unit(entities -> {
            entities.remove(entities.find(Goods.class, 4));
            return null;
        });
        findings.check("changed", 999L, unit(entities -> entities.find(Goods.class, 3).amount));
        findings.check("removed", null, unit(entities -> entities.find(Goods.class, 4)));
        findings.check("a key twice", "RollbackException", Findings.outcome(() -> unit(entities -> {
            entities.persist(new Goods(5, "again", 0, null));
            return null;
        })));
        findings.check("a row's own claims, and no others", "goods 9", besideAnotherUnit());
    }

    /** What finds one row claims that row alone: another unit goes on with its neighbour. */
    private String besideAnotherUnit() {
        EntityManager other = factory.createEntityManager();
        other.getTransaction().begin();
        other.find(Goods.class, 8).amount = 1;
        other.flush();
        String name = unit(entities -> entities.find(Goods.class, 9).name);
        other.getTransaction().rollback();
        other.close();
        return name;
    }

    private <T> T unit(Function<EntityManager, T> work) {
        EntityManager entities = factory.createEntityManager();
        try {
            entities.getTransaction().begin();
            T found = work.apply(entities);
            entities.getTransaction().commit();
            return found;
        } finally {
            if (entities.getTransaction().isActive()) {
                entities.getTransaction().rollback();
            }
            entities.close();
        }
    }
}
