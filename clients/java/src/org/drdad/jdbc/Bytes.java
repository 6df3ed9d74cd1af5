package org.drdad.jdbc;

import java.nio.charset.Charset;
import java.util.Arrays;

/** A part of an array of bytes. What is read outside of it is a fault of the stream; numbers have their highest byte first. */
final class Bytes {
    private final byte[] source;
    private final int start;
    private final int size;

    Bytes(byte[] source, int start, int size) {
        this.source = source;
        this.start = start;
        this.size = size;
    }

    int size() {
        return size;
    }

    /** The array that it is a part of, and where it begins there. */
    byte[] source() {
        return source;
    }

    int start() {
        return start;
    }

    int u1(int at) throws WireFault {
        return source[place(at, 1)] & 0xFF;
    }

    int u2(int at) throws WireFault {
        int place = place(at, 2);
        return (source[place] & 0xFF) << 8 | source[place + 1] & 0xFF;
    }

    int s4(int at) throws WireFault {
        return u2(at) << 16 | u2(at + 2);
    }

    long s8(int at) throws WireFault {
        return (long) s4(at) << 32 | s4(at + 4) & 0xFFFFFFFFL;
    }

    String text(int at, int length, Charset set) throws WireFault {
        return new String(source, place(at, length), length, set);
    }

    byte[] copy(int at, int length) throws WireFault {
        int place = place(at, length);
        return Arrays.copyOfRange(source, place, place + length);
    }

    Bytes part(int at, int length) throws WireFault {
        return new Bytes(source, place(at, length), length);
    }

    private int place(int at, int length) throws WireFault {
        if (at < 0 || length < 0 || at > size - length) {
            throw new WireFault("something is cut off");
        }
        return start + at;
    }
}
