package org.drdad.jdbc;

import java.io.IOException;

/** What came is not DRDA, or is not what the protocol answers. */
final class WireFault extends IOException {
    private static final long serialVersionUID = 1L;

    WireFault(String text) {
        super(text);
    }
}
