package org.drdad.jdbc;

import java.io.IOException;
import java.io.OutputStream;
import java.util.Arrays;

/**
 * A chain of commands as bytes: each is a request DSS and the DSSs of its data objects (DRDA V5 volume 3, "Data Stream
 * Structures"). Numbers are written with the highest byte first. One writer is used again for each chain.
 */
final class CommandWriter {
    private static final int REQUEST = 1, DATA = 3, CHAINED = 0x40, SAME_CORRELATOR = 0x10;
    private static final int HEADER = 6, CONTINUATION = 2, MOST_OF_SEGMENT = 0x7FFF, CONTINUED = 0x8000;
    private static final int OBJECT_HEADING = 4, EXTENDED_LENGTH = 4;
    private static final int NONE = -1;

    private byte[] bytes = new byte[2048];
    private int length;
    private int dss = NONE;
    private int commands;

    /** Begins a chain anew. */
    void reset() {
        length = 0;
        dss = NONE;
        commands = 0;
    }

    /** How many commands there are; that number is the correlator of the last one. */
    int commands() {
        return commands;
    }

    /** How many bytes the chain has so far. */
    int length() {
        return length;
    }

    /** Begins the request of the next command; the one before it is chained to it. Gives the place of the object. */
    int request(int code) {
        if (dss != NONE) {
            bytes[dss + 3] |= CHAINED;
        }
        commands++;
        header(REQUEST);
        return open(code);
    }

    /** Begins a data object of the command under way. Gives the place of the object. */
    int data(int code) {
        bytes[dss + 3] |= CHAINED | SAME_CORRELATOR;
        header(DATA);
        return open(code);
    }

    /** Ends the object of a request or a data object, and its DSS. */
    void end(int object) {
        close(object);
        int contents = length - dss - HEADER;
        if (HEADER + contents > MOST_OF_SEGMENT) {
            split(contents);
        } else {
            put2(dss, HEADER + contents);
        }
    }

    private void header(int type) {
        dss = length;
        u2(0);
        u1(0xD0);
        u1(type);
        u2(commands);
    }

    /** Makes full segments and a short last one of the contents: moves them from the last one on to make room for headers. */
    private void split(int contents) {
        int first = MOST_OF_SEGMENT - HEADER, step = MOST_OF_SEGMENT - CONTINUATION;
        int more = (contents - first + step - 1) / step;
        room(CONTINUATION * more);
        int end = length;
        for (int segment = more; segment >= 1; segment--) {
            int start = dss + MOST_OF_SEGMENT + (segment - 1) * step;
            int to = start + CONTINUATION * segment;
            System.arraycopy(bytes, start, bytes, to, end - start);
            put2(to - CONTINUATION, (segment < more ? CONTINUED : 0) | CONTINUATION + end - start);
            end = start;
        }
        length += CONTINUATION * more;
        put2(dss, CONTINUED | MOST_OF_SEGMENT);
    }

    /** Begins an object, which may stand in another one. */
    int open(int code) {
        int at = length;
        u2(0);
        u2(code);
        return at;
    }

    /** Ends an object: writes its length, an extended one where it is long. */
    void close(int at) {
        int size = length - at;
        if (size <= MOST_OF_SEGMENT) {
            put2(at, size);
            return;
        }
        room(EXTENDED_LENGTH);
        System.arraycopy(bytes, at + OBJECT_HEADING, bytes, at + OBJECT_HEADING + EXTENDED_LENGTH, size - OBJECT_HEADING);
        length += EXTENDED_LENGTH;
        put2(at, CONTINUED | OBJECT_HEADING + EXTENDED_LENGTH);
        put2(at + OBJECT_HEADING, size - OBJECT_HEADING >>> 16);
        put2(at + OBJECT_HEADING + 2, size - OBJECT_HEADING);
    }

    /** An object of these bytes. */
    void object(int code, byte[] value) {
        int at = open(code);
        bytes(value);
        close(at);
    }

    /** An object of one byte. */
    void object1(int code, int value) {
        u2(OBJECT_HEADING + 1);
        u2(code);
        u1(value);
    }

    /** An object of four bytes. */
    void object4(int code, int value) {
        u2(OBJECT_HEADING + 4);
        u2(code);
        u4(value);
    }

    void u1(int value) {
        room(1);
        bytes[length++] = (byte) value;
    }

    void u2(int value) {
        room(2);
        put2(length, value);
        length += 2;
    }

    void u4(int value) {
        u2(value >>> 16);
        u2(value);
    }

    void u8(long value) {
        u4((int) (value >>> 32));
        u4((int) value);
    }

    void bytes(byte[] value) {
        room(value.length);
        System.arraycopy(value, 0, bytes, length, value.length);
        length += value.length;
    }

    private void put2(int at, int value) {
        bytes[at] = (byte) (value >>> 8);
        bytes[at + 1] = (byte) value;
    }

    private void room(int size) {
        if (bytes.length - length < size) {
            bytes = Arrays.copyOf(bytes, Math.max(bytes.length * 2, length + size));
        }
    }

    byte[] toBytes() {
        return Arrays.copyOf(bytes, length);
    }

    /** Sends some of the bytes. */
    void writeTo(OutputStream out, int from, int size) throws IOException {
        out.write(bytes, from, size);
    }

    /** Overwrites what was written: it held a password. */
    void wipe() {
        Arrays.fill(bytes, (byte) 0);
        reset();
    }
}
