package org.drdad.jdbc;

import java.io.IOException;
import java.io.OutputStream;
import java.net.InetSocketAddress;
import java.net.Socket;
import java.util.Arrays;

/** A socket to a server: a chain of commands goes out in one write, and its replies come in. Whatever goes wrong closes it. */
final class Link implements AutoCloseable {
    /** So many bytes of a chain are written at once; what has been answered is read in between. */
    private static final int AT_ONCE = 32768;

    private final Socket socket;
    private final OutputStream out;
    private final ReplyReader replies;
    private volatile boolean isClosed;
    private int timeout;

    /** Connects within so many milliseconds; 0 is without a limit. */
    Link(String host, int port, int connectTimeout) throws IOException {
        socket = new Socket();
        try {
            socket.setTcpNoDelay(true);
            socket.connect(new InetSocketAddress(host, port), connectTimeout);
            out = socket.getOutputStream();
            replies = new ReplyReader(socket.getInputStream());
        } catch (IOException | RuntimeException fault) {
            close();
            throw fault;
        }
    }

    boolean isClosed() {
        return isClosed;
    }

    @Override
    public void close() {
        isClosed = true;
        try {
            socket.close();
        } catch (IOException ignored) {
            // Nothing is left to be lost.
        }
    }

    /** Sends a chain and gives what answers each command. The server may be silent for so many milliseconds; 0 is for ever. */
    Reply[] exchange(CommandWriter chain, int silence) throws IOException {
        send(chain, silence);
        return receive(chain.commands());
    }

    /** Sends a chain, whose replies are received before another one is sent. */
    void send(CommandWriter chain, int silence) throws IOException {
        try {
            if (silence != timeout) {
                socket.setSoTimeout(silence);
                timeout = silence;
            }
            send(chain);
        } catch (IOException | RuntimeException | Error fault) {
            close();
            throw fault;
        }
    }

    /** What answers each of so many commands of the chain that was sent last. */
    Reply[] receive(int commands) throws IOException {
        Reply[] answers = new Reply[commands];
        Arrays.setAll(answers, at -> new Reply());
        try {
            replies.readChain(answers);
        } catch (IOException | RuntimeException | Error fault) {
            close();
            throw fault;
        }
        for (Reply answer : answers) {
            if (answer.severity >= Reply.PERMANENT_DAMAGE) {
                close();
            }
        }
        return answers;
    }

    private void send(CommandWriter chain) throws IOException {
        for (int from = 0; from < chain.length(); from += AT_ONCE) {
            if (from > 0) {
                replies.readAhead();
            }
            chain.writeTo(out, from, Math.min(AT_ONCE, chain.length() - from));
        }
    }
}
