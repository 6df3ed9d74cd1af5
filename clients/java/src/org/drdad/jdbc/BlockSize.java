package org.drdad.jdbc;

/** The sizes in bytes of the blocks that rows come in. A fetch size is a number of rows that have all room which their columns may take. */
final class BlockSize {
    private static final int FIRST = 1 << 17, FURTHER = 1 << 20, LEAST = 512, MOST = 8 << 20;
    private static final int BESIDE_VALUES = 2, LONGEST_ROW = 4000;

    private BlockSize() {
    }

    /** The block that comes with the opening of a query; 0 rows leave it to the driver, and columns may not be known yet. */
    static int first(int fetchSize, Column[] columns) {
        return fetchSize == 0 ? FIRST : Math.min(FIRST, of(fetchSize, columns));
    }

    /** Each further block. */
    static int further(int fetchSize, Column[] columns) {
        return fetchSize == 0 ? FURTHER : of(fetchSize, columns);
    }

    private static int of(int fetchSize, Column[] columns) {
        return (int) Math.max(LEAST, Math.min(MOST, (long) fetchSize * rowSize(columns)));
    }

    private static int rowSize(Column[] columns) {
        if (columns == null) {
            return LONGEST_ROW;
        }
        int size = BESIDE_VALUES;
        for (Column column : columns) {
            size += column.bytesSent();
        }
        return size;
    }
}
