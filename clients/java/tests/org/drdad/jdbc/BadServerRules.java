package org.drdad.jdbc;

import java.io.ByteArrayOutputStream;
import java.io.DataInputStream;
import java.io.IOException;
import java.io.OutputStream;
import java.net.InetAddress;
import java.net.ServerSocket;
import java.net.Socket;
import java.nio.charset.StandardCharsets;
import java.sql.DriverManager;
import java.sql.SQLException;
import java.sql.SQLNonTransientConnectionException;
import java.sql.SQLTimeoutException;
import java.sql.SQLTransientConnectionException;

/** Servers that are none: each case plays one, and the driver ends the connection and says why. */
final class BadServerRules extends Rules {
    private static final String LEVELS = "1404 1C08 04B8";

    /** What a server does with a stream. */
    private interface Behaviour {
        void on(Socket stream) throws IOException;
    }

    @Override
    void all() {
        played("a server that closes at once", SQLTransientConnectionException.class, "08001", stream -> { });
        played("a server that says nothing", SQLTransientConnectionException.class, "08001", stream -> sleep(3000));
        played("a server that is none", SQLNonTransientConnectionException.class, "08006",
                stream -> stream.getOutputStream().write("HTTP/1.1 400 Bad Request\r\n\r\n".getBytes(StandardCharsets.US_ASCII)));
        played("a server without UTF-8", SQLNonTransientConnectionException.class, "08006", stream -> {
            takeChain(stream);
            stream.getOutputStream().write(greeting("1404 1C08 0000"));
        });
        played("a server that ends behind its greeting", SQLNonTransientConnectionException.class, "08006", stream -> {
            takeChain(stream);
            stream.getOutputStream().write(greeting(LEVELS));
        });
        played("another product", SQLException.class, "08004", stream -> opened(stream, "CSS10100"));
        rule("a server that falls silent in a statement", () -> {
            SQLException told = statement(stream -> {
                opened(stream, "RDA01000");
                sleep(3000);
            });
            holds(told instanceof SQLTimeoutException, told.toString());
        });
        rule("a server that answers otherwise in a statement", () -> {
            SQLException told = statement(stream -> {
                opened(stream, "RDA01000");
                takeChain(stream);
                stream.getOutputStream().write(new byte[64]);
            });
            same("08006", told.getSQLState());
        });
    }

    private void played(String name, Class<? extends SQLException> wanted, String state, Behaviour behaviour) {
        rule(name, () -> refused(wanted, state, () -> on(behaviour, port -> DriverManager.getConnection(url(port)))));
    }

    private static String url(int port) {
        return "jdbc:drdad://127.0.0.1:" + port + "/SHOP?user=ana&password=pw&socketTimeout=1&connectTimeout=1";
    }

    private SQLException statement(Behaviour behaviour) throws Exception {
        SQLException[] told = new SQLException[1];
        on(behaviour, port -> {
            try (java.sql.Connection connection = DriverManager.getConnection(url(port))) {
                told[0] = refused(SQLException.class, () -> connection.createStatement().executeUpdate("DELETE FROM T"));
                holds(connection.isClosed(), "closed");
                same("08003", refused(SQLException.class, connection::createStatement).getSQLState());
            }
        });
        return told[0];
    }

    /** Uses a server's port. */
    private interface User {
        void of(int port) throws Exception;
    }

    private static void on(Behaviour behaviour, User user) throws Exception {
        try (ServerSocket listener = new ServerSocket(0, 5, InetAddress.getLoopbackAddress())) {
            Thread server = new Thread(() -> {
                try (Socket stream = listener.accept()) {
                    behaviour.on(stream);
                } catch (IOException ended) {
                    // The driver has closed it.
                }
            });
            server.setDaemon(true);
            server.start();
            user.of(listener.getLocalPort());
        }
    }

    private static void sleep(int milliseconds) {
        try {
            Thread.sleep(milliseconds);
        } catch (InterruptedException ended) {
            Thread.currentThread().interrupt();
        }
    }

    /** Reads up to the last DSS of a chain. */
    private static void takeChain(Socket stream) throws IOException {
        DataInputStream in = new DataInputStream(stream.getInputStream());
        int format;
        do {
            int length = in.readUnsignedShort();
            in.readUnsignedByte();
            format = in.readUnsignedByte();
            in.readNBytes(length - 4);
        } while ((format & 0x40) != 0);
    }

    private static void opened(Socket stream, String product) throws IOException {
        OutputStream out = stream.getOutputStream();
        takeChain(stream);
        out.write(greeting(LEVELS));
        takeChain(stream);
        ByteArrayOutputStream reply = new ByteArrayOutputStream();
        dss(reply, 0x42, 1, bytes("000F 1219 0006 1149 0000 0005 11A4 00"));
        ByteArrayOutputStream opened = new ByteArrayOutputStream();
        opened.write(bytes("0016 2201 0006 1149 0000 000C 112E"));
        opened.write(product.getBytes(StandardCharsets.US_ASCII));
        dss(reply, 0x02, 2, opened.toByteArray());
        out.write(reply.toByteArray());
    }

    private static byte[] greeting(String levels) throws IOException {
        ByteArrayOutputStream reply = new ByteArrayOutputStream();
        dss(reply, 0x43, 1, bytes("000C 1443 0008 " + levels));
        dss(reply, 0x03, 2, bytes("000A 14AC 0006 11A2 0003"));
        return reply.toByteArray();
    }

    private static void dss(ByteArrayOutputStream out, int format, int correlator, byte[] contents) throws IOException {
        int length = 6 + contents.length;
        out.write(new byte[] {(byte) (length >> 8), (byte) length, (byte) 0xD0, (byte) format, 0, (byte) correlator});
        out.write(contents);
    }

    private static byte[] bytes(String digits) {
        String plain = digits.replace(" ", "");
        byte[] bytes = new byte[plain.length() / 2];
        for (int at = 0; at < bytes.length; at++) {
            bytes[at] = (byte) Integer.parseInt(plain.substring(2 * at, 2 * at + 2), 16);
        }
        return bytes;
    }
}
