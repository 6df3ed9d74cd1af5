package org.drdad.jdbc;

import java.nio.charset.StandardCharsets;
import java.sql.SQLException;
import java.util.Arrays;

/** The rows of an open query, read where they lie in the blocks that come (QRYDTA). */
final class BlockRows implements Rows {
    private static final int ROW_MARK = 0xFF, IS_THERE = 0x00, IS_NULL = 0xFF, NULL = -1;

    private final Session session;
    private final OpenQuery query;
    private final int[] sizes;
    private final boolean[] takesNull;
    /** Where the value of each column stands, behind its length; or NULL. */
    private final int[] places;
    /** The length of the value of each column of variable length. */
    private final int[] lengths;
    private byte[] data;
    private int at;
    private int end;

    BlockRows(Session session, OpenQuery query) {
        this.session = session;
        this.query = query;
        sizes = query.form.sizes;
        takesNull = query.form.takesNull;
        places = new int[sizes.length];
        lengths = new int[sizes.length];
        takeBlock();
    }

    private void takeBlock() {
        Bytes block = query.takeRows();
        data = block.source();
        at = block.start();
        end = at + block.size();
    }

    @Override
    public boolean next() throws SQLException {
        while (at == end) {
            if (!session.fetch(query)) {
                return false;
            }
            takeBlock();
        }
        try {
            readRow();
        } catch (WireFault | ArrayIndexOutOfBoundsException fault) {
            throw session.broken(new WireFault("a row is cut off, or has another form"));
        }
        return true;
    }

    private void readRow() throws WireFault {
        int place = at;
        if ((data[place] & 0xFF) != ROW_MARK || data[place + 1] != IS_THERE) {
            throw new WireFault("a row does not begin with FF and 00");
        }
        place += 2;
        for (int column = 0; column < sizes.length; column++) {
            if (takesNull[column] && (data[place++] & 0xFF) == IS_NULL) {
                places[column] = NULL;
                continue;
            }
            int size = sizes[column];
            if (size == RowForm.VARIABLE) {
                size = (data[place] & 0xFF) << 8 | data[place + 1] & 0xFF;
                place += 2;
            }
            places[column] = place;
            lengths[column] = size;
            place += size;
        }
        if (place > end) {
            throw new WireFault("a row is cut off");
        }
        at = place;
    }

    @Override
    public boolean isNull(int column) {
        return places[column] == NULL;
    }

    @Override
    public long number(int column) {
        int place = places[column];
        long number = data[place];
        for (int more = 1; more < sizes[column]; more++) {
            number = number << 8 | data[place + more] & 0xFF;
        }
        return number;
    }

    @Override
    public String text(int column) {
        return new String(data, places[column], lengths[column], StandardCharsets.UTF_8);
    }

    @Override
    public byte[] bytes(int column) {
        return Arrays.copyOfRange(data, places[column], places[column] + lengths[column]);
    }

    @Override
    public void close() throws SQLException {
        at = end;
        session.abandon(query);
    }
}
