package org.drdad.jdbc;

import java.sql.SQLDataException;
import java.sql.SQLSyntaxErrorException;

/** What is made of the text of a statement. */
final class TextRules extends Rules {
    private static final String[][] SENT = {
        {"SELECT * FROM T WHERE (K = ?)", "SELECT * FROM T WHERE  K = ? "},
        {"SELECT * FROM T WHERE(K=?)", "SELECT * FROM T WHERE K=? "},
        {"SELECT * FROM T WHERE ((K = ?))", "SELECT * FROM T WHERE   K = ?  "},
        {"DELETE FROM T WHERE ((A = ?) AND (B = ?))", "DELETE FROM T WHERE   A = ?  AND  B = ?  "},
        {"DELETE FROM T WHERE (A = ?) OR (B = ?)", "DELETE FROM T WHERE  A = ?  OR  B = ? "},
        {"DELETE FROM T WHERE (A = 1 OR B = 1) AND C = 1", null},
        {"DELETE FROM T WHERE NOT (A = 1 AND B = 1)", null},
        {"DELETE FROM T WHERE NOT ((A = 1) AND B = 1)", "DELETE FROM T WHERE NOT ( A = 1  AND B = 1)"},
        {"DELETE FROM T WHERE NOT ((A = 1 AND B = 1))", "DELETE FROM T WHERE NOT ( A = 1 AND B = 1 )"},
        {"DELETE FROM T WHERE NOT (A = 1)", "DELETE FROM T WHERE NOT  A = 1 "},
        {"DELETE FROM T WHERE V = '(x) AND (''y'')'", null},
        {"DELETE FROM T WHERE (V = 'it''s (one) OR')", "DELETE FROM T WHERE  V = 'it''s (one) OR' "},
        {"DELETE FROM T WHERE (ORDER_K = 1)", "DELETE FROM T WHERE  ORDER_K = 1 "},
        {"INSERT INTO T (K, V) VALUES (1, 'WHERE (a)')", null},
        {"UPDATE T SET V = '(' WHERE (K = 1)", "UPDATE T SET V = '('  WHERE  K = 1 ".replace("  WHERE", " WHERE")},
        {"CREATE TABLE T (K INTEGER NOT NULL, PRIMARY KEY (K))", null},
        {"SELECT * FROM T WHERE (K = 1", null},
        {"SELECT * FROM T WHERE K = 1)", null},
    };

    @Override
    void all() {
        for (String[] pair : SENT) {
            rule(pair[0], () -> same(pair[1] == null ? pair[0] : pair[1], SqlText.of(pair[0]).text()));
        }
        rule("markers stand outside of texts", () -> same(2, SqlText.of("INSERT INTO T VALUES (?, '?', ?)").markers()));
        rule("the first word tells a query", () -> {
            holds(SqlText.of(" \n\tselect * from T").isQuery(), "a query");
            holds(!SqlText.of("SELECTED").isQuery(), "no query");
            holds(SqlText.of("create table T").isCreate(), "a CREATE");
        });
        rule("the table of a query", () -> {
            same("GOODS", SqlText.of("SELECT A, FROMAGE FROM goods WHERE A = 1").table());
            same("", SqlText.of("UPDATE T SET A = 1").table());
        });
        rule("a text has at most 32,767 bytes", () -> {
            SqlText.of("S" + " ".repeat(32766));
            refused(SQLSyntaxErrorException.class, "54001", () -> SqlText.of("S" + " ".repeat(32767)));
            refused(SQLSyntaxErrorException.class, "54001", () -> SqlText.of("ä".repeat(16384)));
        });
        rule("half of a pair is no Unicode", () -> refused(SQLDataException.class, "22021", () -> SqlText.of("SELECT '\uD83D'")));
        rule("no text is none", () -> refused(SQLSyntaxErrorException.class, "42601", () -> SqlText.of(null)));
    }
}
