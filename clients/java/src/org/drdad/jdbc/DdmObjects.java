package org.drdad.jdbc;

/** The objects that a text is, one after the other, at one level (DRDA V5 volume 3, DDM). */
final class DdmObjects {
    private static final int HEADING = 4, EXTENDED = 0x8000;

    private final Bytes text;
    private int at;
    private int code;
    private Bytes data;

    DdmObjects(Bytes text) {
        this.text = text;
    }

    /** Goes to the next object; false behind the last one. */
    boolean next() throws WireFault {
        if (at == text.size()) {
            return false;
        }
        int length = text.u2(at), head = HEADING;
        code = text.u2(at + 2);
        if ((length & EXTENDED) != 0) {
            head = length - EXTENDED;
            length = head + extendedLength(head);
        }
        if (length < head) {
            throw new WireFault("an object is shorter than its heading");
        }
        data = text.part(at + head, length - head);
        at += length;
        return true;
    }

    private int extendedLength(int head) throws WireFault {
        long length;
        switch (head) {
            case 8: length = text.s4(at + HEADING) & 0xFFFFFFFFL; break;
            case 10: length = text.s8(at + HEADING - 2) & 0xFFFFFFFFFFFFL; break;
            case 12: length = text.s8(at + HEADING); break;
            default: throw new WireFault("an extended length has other than 4, 6 or 8 bytes");
        }
        if (length < 0 || length > text.size()) {
            throw new WireFault("an object is longer than what it stands in");
        }
        return (int) length;
    }

    int code() {
        return code;
    }

    Bytes data() {
        return data;
    }

    /** The data of the first object of a code point, which has to be there. */
    static Bytes find(Bytes text, int wanted) throws WireFault {
        Bytes found = findOrNull(text, wanted);
        if (found == null) {
            throw new WireFault(String.format("the object %04X is missing", wanted));
        }
        return found;
    }

    /** The data of the first object of a code point, or null. */
    static Bytes findOrNull(Bytes text, int wanted) throws WireFault {
        DdmObjects objects = new DdmObjects(text);
        while (objects.next()) {
            if (objects.code() == wanted) {
                return objects.data();
            }
        }
        return null;
    }
}
