package org.drdad.jdbc;

import java.sql.SQLException;

/** Rows one after the other, and the values of the one that was gone to. Columns are counted from 0. */
interface Rows {
    /** Goes to the next row; false behind the last one. */
    boolean next() throws SQLException;

    boolean isNull(int column);

    /** The number in a column of numbers. */
    long number(int column);

    /** The text in a column of texts. */
    String text(int column);

    /** The bytes in a column of bytes. */
    byte[] bytes(int column);

    /** Gives up the rows that are left. */
    void close() throws SQLException;
}
