package org.drdad.jdbc;

import java.sql.ResultSet;
import java.sql.Types;
import java.util.Arrays;
import java.util.Collections;
import java.util.List;

/** The columns of a list of DatabaseMetaData, by their names in the order of JDBC: texts, or :i INTEGER, :s SMALLINT, :b BOOLEAN. */
final class ListForm {
    private static final int LONGEST_TEXT = 128, SMALLINT_BYTES = 2, INTEGER_BYTES = 4;

    private final Column[] columns;

    ListForm(String names) {
        columns = Arrays.stream(names.split("\\s+")).map(ListForm::column).toArray(Column[]::new);
    }

    private static Column column(String spelled) {
        int colon = spelled.indexOf(':');
        String name = colon < 0 ? spelled : spelled.substring(0, colon);
        switch (colon < 0 ? "" : spelled.substring(colon)) {
            case ":i": return new Column(name, Types.INTEGER, INTEGER_BYTES, true);
            case ":s": return new Column(name, Types.SMALLINT, SMALLINT_BYTES, true);
            case ":b": return new Column(name, Types.BOOLEAN, 1, true);
            default: return new Column(name, Types.VARCHAR, LONGEST_TEXT, true);
        }
    }

    /** A result set of these rows, each with a value for each column. */
    ResultSet of(List<Object[]> rows) {
        return new DrdadResultSet(null, new ListedRows(rows), columns, "", 0);
    }

    ResultSet empty() {
        return of(Collections.emptyList());
    }
}
