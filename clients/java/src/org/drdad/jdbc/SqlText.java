package org.drdad.jdbc;

import java.sql.SQLException;
import java.util.ArrayDeque;
import java.util.Locale;

/**
 * The text of a statement as it is sent, and what the driver has to know of it. Parentheses of a WHERE that do not change
 * what it means are left out: with them the server would not see that a WHERE fixes a key, and would claim all of the table.
 */
final class SqlText {
    static final int MOST_BYTES = 32767, MOST_MARKERS = 128;

    private final String text;
    private final byte[] bytes;
    private final String firstWord;
    private final int markers;
    private final String table;

    private SqlText(Scan scan) throws SQLException {
        text = scan.text.toString();
        bytes = Utf8.bytes(text);
        firstWord = scan.firstWord;
        markers = scan.markers;
        table = scan.table;
        if (bytes.length > MOST_BYTES) {
            throw Failures.syntax("the statement has " + bytes.length + " bytes, and may have " + MOST_BYTES, "54001");
        }
    }

    static SqlText of(String sql) throws SQLException {
        if (sql == null) {
            throw Failures.syntax("there is no statement", "42601");
        }
        return new SqlText(new Scan(sql));
    }

    String text() {
        return text;
    }

    byte[] bytes() {
        return bytes;
    }

    boolean isQuery() {
        return firstWord.equals("SELECT");
    }

    boolean isCreate() {
        return firstWord.equals("CREATE");
    }

    int markers() {
        return markers;
    }

    /** The table that a SELECT reads, or an empty text. */
    String table() {
        return table;
    }

    @Override
    public boolean equals(Object other) {
        return other instanceof SqlText && text.equals(((SqlText) other).text);
    }

    @Override
    public int hashCode() {
        return text.hashCode();
    }

    /** One way through a text, from token to token. */
    private static final class Scan {
        final StringBuilder text;
        String firstWord = "", table = "";
        int markers;
        private final ArrayDeque<Group> groups = new ArrayDeque<>();
        private boolean isWhere;
        private String wordBefore = "";

        Scan(String sql) {
            text = new StringBuilder(sql);
            int at = 0;
            while (at < text.length()) {
                at = token(at);
            }
        }

        private int token(int at) {
            char here = text.charAt(at);
            if (Character.isLetter(here)) {
                return word(at);
            }
            switch (here) {
                case '\'': wordBefore = ""; return behindText(at);
                case '(': opened(at); break;
                case ')': closed(at); break;
                case '?': markers++; break;
                default:
            }
            if (here != ' ' && here != '\n' && here != '\t' && here != '\r') {
                wordBefore = "";
            }
            return at + 1;
        }

        private int word(int at) {
            int end = at + 1;
            while (end < text.length() && (Character.isLetterOrDigit(text.charAt(end)) || text.charAt(end) == '_')) {
                end++;
            }
            String word = text.substring(at, end), capitals = word.toUpperCase(Locale.ROOT);
            if (firstWord.isEmpty()) {
                firstWord = capitals;
            }
            if (wordBefore.equals("FROM")) {
                table = capitals;
            }
            isWhere |= capitals.equals("WHERE");
            if (!groups.isEmpty()) {
                groups.peek().hasAnd |= capitals.equals("AND");
                groups.peek().hasOr |= capitals.equals("OR");
            }
            wordBefore = capitals;
            return end;
        }

        /** The place behind a text in quotes; two quotes in it are two such texts. */
        private int behindText(int at) {
            int end = text.indexOf("'", at + 1);
            return end < 0 ? text.length() : end + 1;
        }

        private void opened(int at) {
            if (isWhere) {
                groups.push(new Group(at, wordBefore.equals("NOT")));
            }
        }

        private void closed(int at) {
            if (groups.isEmpty()) {
                return;
            }
            Group group = groups.pop();
            if (group.hasOr || group.isNegated && group.hasAnd) {
                return;
            }
            text.setCharAt(group.at, ' ');
            text.setCharAt(at, ' ');
            if (!groups.isEmpty()) {
                groups.peek().hasAnd |= group.hasAnd;
            }
        }
    }

    /** What stands between a parenthesis of a WHERE and its partner, at the depth of the two. */
    private static final class Group {
        final int at;
        final boolean isNegated;
        boolean hasAnd, hasOr;

        Group(int at, boolean isNegated) {
            this.at = at;
            this.isNegated = isNegated;
        }
    }
}
