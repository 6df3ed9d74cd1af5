package org.drdad.jdbc;

import java.io.ByteArrayInputStream;
import java.io.EOFException;
import java.io.IOException;
import java.io.InputStream;
import java.util.Arrays;

/** The bytes of commands and of replies, and replies that come in any pieces. */
final class WireRules extends Rules {
    private static final String NULL_CARD = "000B D0 03 0001 0005 2408 FF";

    private static byte[] bytes(String digits) {
        String plain = digits.replace(" ", "");
        byte[] bytes = new byte[plain.length() / 2];
        for (int at = 0; at < bytes.length; at++) {
            bytes[at] = (byte) Integer.parseInt(plain.substring(2 * at, 2 * at + 2), 16);
        }
        return bytes;
    }

    /** A stream that gives so many bytes at a time. */
    private static InputStream inPieces(byte[] bytes, int size) {
        return new ByteArrayInputStream(bytes) {
            @Override
            public synchronized int read(byte[] into, int at, int length) {
                return super.read(into, at, Math.min(length, size));
            }
        };
    }

    private static Reply[] read(InputStream in, int commands) throws IOException {
        Reply[] replies = new Reply[commands];
        Arrays.setAll(replies, at -> new Reply());
        new ReplyReader(in).readChain(replies);
        return replies;
    }

    private static byte[] written(CommandWriter chain) {
        return chain.toBytes();
    }

    @Override
    void all() {
        commands();
        replies();
        faults();
    }

    private void commands() {
        rule("commands are chained, and data objects share their correlator", () -> {
            CommandWriter chain = new CommandWriter();
            chain.end(chain.request(CodePoint.EXCSQLIMM));
            int at = chain.data(CodePoint.SQLSTT);
            chain.u1(7);
            chain.end(at);
            chain.end(chain.request(CodePoint.RDBCMM));
            same(bytes("000A D051 0001 0004 200A 000B D043 0001 0005 2414 07 000A D001 0002 0004 200E"), written(chain));
        });
        rule("a long object has an extended length, and its DSS continuations", () -> {
            for (int size : new int[] {32757, 32758, 32763, 32764, 65522, 65523, 98290, 200000}) {
                same(size, lengthRead(size));
            }
        });
    }

    /** The length of an SQLSTT of so many bytes that was written, and joined again by the reader of replies. */
    private static int lengthRead(int size) throws IOException {
        CommandWriter chain = new CommandWriter();
        chain.end(chain.request(CodePoint.EXCSQLIMM));
        int start = chain.length();
        int at = chain.data(CodePoint.QRYDTA);
        byte[] data = new byte[size];
        Arrays.fill(data, (byte) 9);
        chain.bytes(data);
        chain.end(at);
        byte[] all = written(chain);
        Reply reply = read(inPieces(Arrays.copyOfRange(all, start, all.length), 1000), 1)[0];
        for (int place = 0; place < reply.rows.size(); place++) {
            same(9, reply.rows.u1(place));
        }
        return reply.rows.size();
    }

    private void replies() {
        for (int size : new int[] {1, 2, 5, 7, 100}) {
            rule("replies in pieces of " + size, () -> {
                byte[] text = bytes("000B D053 0001 0005 2408 FF 0019 D042 0001 0013 2218 0006 1149 0000 0009 2110 53484F50 20"
                        + "000B D003 0002 0005 2408 FF");
                Reply[] replies = read(inPieces(text, size), 2);
                same(0, replies[0].card.code);
                same(false, replies[1].hasFailed());
            });
        }
        rule("an SQLCARD tells its code, its state and its rows", () -> {
            String card = "0043 D003 0001 003D 2408".replace("0043", "0047").replace("003D", "0041");
            byte[] text = bytes(card + "00 FFFFFCDD 3233353035 5244413031303030 00 00000000 00000000 00000007 00000000 00000000 00000000"
                    + "2020202020202020202020 0000 0000 0000 FF");
            SqlCard found = read(inPieces(text, 100), 1)[0].card;
            same(-803, found.code);
            same("23505", found.state);
            same(7, found.rows);
        });
    }

    private void faults() {
        String[][] faults = {
            {"a length below 6", "0005 D003 0001"},
            {"no D0", "000B D103 0001 0005 2408 FF"},
            {"a request", "000B D001 0001 0005 2408 FF"},
            {"a correlator of no command", "000B D003 0002 0005 2408 FF"},
            {"a correlator to follow, and no chain", "000B D013 0001 0005 2408 FF"},
            {"an object that is longer than its DSS", "000B D003 0001 0009 2408 FF"},
            {"an object of three bytes", "000B D003 0001 0003 2408 FF"},
            {"bytes behind the last reply", NULL_CARD + NULL_CARD},
            {"a message without severity", "000A D002 0001 0004 2218"},
            {"a card that is cut off", "000F D003 0001 0009 2408 00FFFFFCDD"},
            {"a continuation of no bytes", "8006 D003 0001 0002"},
        };
        for (String[] fault : faults) {
            rule(fault[0], () -> refused(WireFault.class, () -> read(inPieces(bytes(fault[1] + "00000000"), 1000), 1)));
        }
        rule("a chain that ends early", () -> refused(WireFault.class, () -> read(inPieces(bytes(NULL_CARD), 9), 2)));
        rule("an end in a reply", () -> refused(EOFException.class, () -> read(inPieces(bytes("000B D003 0001 00"), 9), 1)));
    }
}
