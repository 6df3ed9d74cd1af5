package org.drdad.jdbc;

import java.nio.charset.StandardCharsets;
import java.sql.SQLException;

/** Texts as they are sent. */
final class Utf8 {
    private Utf8() {
    }

    /** The bytes of a text in UTF-8. One half of a surrogate pair is no character, and would be sent as another one. */
    static byte[] bytes(String text) throws SQLException {
        for (int at = 0; at < text.length(); at++) {
            char here = text.charAt(at);
            if (Character.isSurrogate(here)) {
                boolean isPair = Character.isHighSurrogate(here) && at + 1 < text.length() && Character.isLowSurrogate(text.charAt(at + 1));
                if (!isPair) {
                    throw Failures.data("the text is no Unicode: it has one half of a pair at " + at, Failures.NO_UNICODE);
                }
                at++;
            }
        }
        return text.getBytes(StandardCharsets.UTF_8);
    }
}
