package org.drdad.jdbc;

import java.nio.charset.StandardCharsets;

/** What an SQLCARD says of a statement: its SQLCODE, its SQLSTATE, the rows that it changed, and words about a fault. */
final class SqlCard {
    private static final int NULL_CARD = 0xFF;
    private static final int STATE_AT = 5, STATE_SIZE = 5, INNER_AT = 18, ROWS_AT = 27, WORDS_AT = 54;

    final int code;
    final String state;
    final int rows;
    final String words;

    private SqlCard(int code, String state, int rows, String words) {
        this.code = code;
        this.state = state;
        this.rows = rows;
        this.words = words;
    }

    private static final SqlCard NOTHING = new SqlCard(0, "00000", 0, "");

    /** Reads the data of an SQLCARD. */
    static SqlCard read(Bytes data) throws WireFault {
        if (data.u1(0) == NULL_CARD) {
            return NOTHING;
        }
        int code = data.s4(1);
        String state = code == 0 ? NOTHING.state : data.text(STATE_AT, STATE_SIZE, StandardCharsets.US_ASCII);
        if (data.u1(INNER_AT) == NULL_CARD) {
            return new SqlCard(code, state, 0, "");
        }
        return new SqlCard(code, state, data.s4(ROWS_AT), code < 0 ? words(data) : "");
    }

    /** The second of the three texts behind the warnings, or the third where it is empty. */
    private static String words(Bytes data) throws WireFault {
        int second = WORDS_AT + 2 + data.u2(WORDS_AT);
        int third = second + 2 + data.u2(second);
        int at = data.u2(second) > 0 ? second : third;
        return data.text(at + 2, data.u2(at), StandardCharsets.UTF_8);
    }
}
