package org.drdad.jdbc;

import java.io.EOFException;
import java.io.IOException;
import java.io.InputStream;
import java.util.Arrays;

/** Reads the replies to a chain of commands from a stream, through a buffer. */
final class ReplyReader {
    private static final int REPLY = 2, DATA = 3, TYPE = 0x0F, CHAINED = 0x40, SAME_CORRELATOR = 0x10, UNKNOWN_FORM = 0x80;
    private static final int HEADER = 6, CONTINUATION = 2, CONTINUED = 0x8000, MOST_OF_SEGMENT = 0x7FFF, MARK = 0xD0;
    private static final int BUFFER = 65536, MOST_OF_DSS = 16 << 20, OBJECT_HEADING = 8;

    private final InputStream in;
    private final byte[] buffer = new byte[BUFFER];
    private int start;
    private int end;

    private int form;
    private int correlator;
    private Bytes contents;
    private boolean isLasting;

    ReplyReader(InputStream in) {
        this.in = in;
    }

    /** Reads what answers each command of a chain, up to the chain's end or the failure that broke it. */
    void readChain(Reply[] replies) throws IOException {
        int at = 0;
        do {
            nextDss();
            if (correlator != at && correlator != at + 1 || correlator < 1 || correlator > replies.length) {
                throw new WireFault("a reply has the correlator " + correlator);
            }
            at = correlator;
            takeObjects(replies[at - 1]);
        } while ((form & CHAINED) != 0);
        if (at < replies.length && replies[at - 1].severity < Reply.ERROR) {
            throw new WireFault("the replies to a chain end before its commands do");
        }
        if (start != end) {
            throw new WireFault("bytes came behind the last reply");
        }
    }

    private void takeObjects(Reply reply) throws WireFault {
        DdmObjects objects = new DdmObjects(contents);
        while (objects.next()) {
            reply.take(objects.code(), objects.data(), isLasting);
        }
    }

    private void nextDss() throws IOException {
        need(HEADER);
        int length = u2(start);
        form = buffer[start + 3] & 0xFF;
        correlator = u2(start + 4);
        int type = form & TYPE;
        if ((length & MOST_OF_SEGMENT) < HEADER || (buffer[start + 2] & 0xFF) != MARK || (form & UNKNOWN_FORM) != 0
                || type != REPLY && type != DATA || (form & (CHAINED | SAME_CORRELATOR)) == SAME_CORRELATOR) {
            throw new WireFault("a reply has no header of a DSS");
        }
        start += HEADER;
        int size = (length & MOST_OF_SEGMENT) - HEADER;
        isLasting = (length & CONTINUED) != 0;
        if (isLasting) {
            joinSegments(size);
        } else {
            need(size);
            contents = new Bytes(buffer, start, size);
            start += size;
        }
    }

    /** Joins the contents of a first segment of this size and of the continuations behind it. */
    private void joinSegments(int first) throws IOException {
        byte[] joined = new byte[Math.max(first, expected(first))];
        int size = 0, more = first;
        boolean isContinued = true;
        while (true) {
            if (size + more > joined.length) {
                joined = Arrays.copyOf(joined, Math.max(2 * joined.length, size + more));
            }
            fill(joined, size, more);
            size += more;
            if (!isContinued) {
                break;
            }
            need(CONTINUATION);
            int length = u2(start);
            start += CONTINUATION;
            isContinued = (length & CONTINUED) != 0;
            more = (length & MOST_OF_SEGMENT) - CONTINUATION;
            if (more <= 0 || size + more > MOST_OF_DSS) {
                throw new WireFault("a continuation is too short, or a reply too long");
            }
        }
        contents = new Bytes(joined, 0, size);
    }

    /** How many bytes the object that comes has, by its extended length; 0 where it has none. */
    private int expected(int first) throws IOException {
        if (first < OBJECT_HEADING) {
            return 0;
        }
        need(OBJECT_HEADING);
        int size = u2(start) == (CONTINUED | OBJECT_HEADING) ? (u2(start + 4) << 16 | u2(start + 6)) + OBJECT_HEADING : 0;
        return size > MOST_OF_DSS ? 0 : size;
    }

    private int u2(int at) {
        return (buffer[at] & 0xFF) << 8 | buffer[at + 1] & 0xFF;
    }

    /** Takes so many bytes out of the buffer, and then from the stream itself. */
    private void fill(byte[] into, int at, int size) throws IOException {
        int held = Math.min(size, end - start);
        System.arraycopy(buffer, start, into, at, held);
        start += held;
        while (held < size) {
            int count = in.read(into, at + held, size - held);
            if (count < 0) {
                throw new EOFException("the server closed the connection");
            }
            held += count;
        }
    }

    /** Waits until so many bytes, at most a segment, stand in the buffer. */
    private void need(int size) throws IOException {
        if (end - start >= size) {
            return;
        }
        if (start == end) {
            start = end = 0;
        } else if (buffer.length - start < size) {
            System.arraycopy(buffer, start, buffer, 0, end - start);
            end -= start;
            start = 0;
        }
        while (end - start < size) {
            read();
        }
    }

    private void read() throws IOException {
        int count = in.read(buffer, end, buffer.length - end);
        if (count < 0) {
            throw new EOFException("the server closed the connection");
        }
        end += count;
    }

    /** Takes what has come while a long chain is still being sent, so that the server never waits for room. */
    void readAhead() throws IOException {
        if (start > 0) {
            System.arraycopy(buffer, start, buffer, 0, end - start);
            end -= start;
            start = 0;
        }
        if (end < buffer.length && in.available() > 0) {
            read();
        }
    }
}
