package org.drdad.jdbc;

import java.util.List;

/** Rows that the driver makes itself: of numbers, texts, truth values and nulls. */
final class ListedRows implements Rows {
    private final List<Object[]> rows;
    private int at = -1;

    ListedRows(List<Object[]> rows) { this.rows = rows; }

    @Override
    public boolean next() {
        if (at + 1 >= rows.size()) {
            return false;
        }
        at++;
        return true;
    }

    @Override public boolean isNull(int column) { return rows.get(at)[column] == null; }

    @Override
    public long number(int column) {
        Object value = rows.get(at)[column];
        return value instanceof Boolean ? ((Boolean) value ? 1 : 0) : ((Number) value).longValue();
    }

    @Override public String text(int column) { return (String) rows.get(at)[column]; }
    @Override public byte[] bytes(int column) { return (byte[]) rows.get(at)[column]; }
    @Override public void close() { at = rows.size() - 1; }
}
