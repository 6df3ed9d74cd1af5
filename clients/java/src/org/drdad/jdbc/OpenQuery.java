package org.drdad.jdbc;

/** A query whose rows come by blocks: the section of its cursor, and the block that came last. */
final class OpenQuery {
    private static final Bytes NO_ROWS = new Bytes(new byte[0], 0, 0);

    final Section section;
    final Column[] columns;
    final RowForm form;
    final Bytes instance;
    /** The size in bytes of each further block. */
    final int blockSize;
    /** Whether the next block is asked for while the one before is read: so it is where nobody has set a fetch size. */
    final boolean isReadAhead;
    private Bytes rows;
    private boolean hasBlock;
    /** Whether the server has more rows; it closes the cursor behind the last one. */
    boolean isOpen = true;
    /** Whether the server has closed the cursor before its end. */
    boolean isLost;

    /** The query that a reply has opened, whose further blocks have about so many rows; 0 leaves it to the driver. */
    OpenQuery(Section section, Reply opened, int fetchSize) throws WireFault {
        if (opened.instance == null || opened.rowForm == null) {
            throw new WireFault("a query was opened without its description");
        }
        this.section = section;
        columns = section.columns();
        form = RowForm.read(opened.rowForm);
        instance = opened.instance;
        if (columns == null || columns.length != form.count()) {
            throw new WireFault("QRYDSC and SQLDARD have not as many columns");
        }
        isReadAhead = fetchSize == 0;
        blockSize = BlockSize.further(fetchSize, columns);
        takeBlock(opened);
    }

    /** CNTQRY. */
    void writeContinue(CommandWriter chain) throws WireFault {
        section.writeContinue(chain, instance, blockSize);
    }

    void takeBlock(Reply answer) {
        rows = answer.rows == null ? NO_ROWS : answer.rows;
        hasBlock = true;
        isOpen &= !answer.hasEndedQuery;
    }

    /** Whether a block has come that was not taken. */
    boolean hasBlock() {
        return hasBlock;
    }

    /** The rows of the block that came last. */
    Bytes takeRows() {
        Bytes taken = rows;
        rows = NO_ROWS;
        hasBlock = false;
        return taken;
    }
}
