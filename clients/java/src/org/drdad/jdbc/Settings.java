package org.drdad.jdbc;

import java.net.URLDecoder;
import java.nio.charset.StandardCharsets;
import java.sql.SQLException;
import java.util.Properties;

/** Where a database is, who asks, and how long a server may be silent. */
final class Settings {
    static final String PREFIX = "jdbc:drdad:", HOST = "127.0.0.1";
    static final int PORT = 1527, MOST_OF_NAME = 18;
    static final String USER = "user", PASSWORD = "password", CONNECT_TIMEOUT = "connectTimeout", SOCKET_TIMEOUT = "socketTimeout";
    private static final int MILLISECONDS = 1000, GREATEST_PORT = 65535;

    String host = HOST;
    int port = PORT;
    String database = "";
    String user = "";
    String password = "";
    /** Milliseconds; 0 is for ever. */
    int connectTimeout, socketTimeout;

    static boolean isUrl(String url) {
        return url != null && url.startsWith(PREFIX);
    }

    /** The settings that jdbc:drdad://host:port/RDB?name=value&amp;.. says, and behind it the properties. */
    static Settings of(String url, Properties properties) throws SQLException {
        Settings settings = new Settings();
        settings.takeUrl(url);
        for (String name : properties.stringPropertyNames()) {
            settings.take(name, properties.getProperty(name));
        }
        return settings;
    }

    void takeUrl(String url) throws SQLException {
        if (!isUrl(url)) {
            throw wrong(url);
        }
        String rest = url.substring(PREFIX.length());
        int question = rest.indexOf('?');
        if (question >= 0) {
            takeQuery(rest.substring(question + 1));
            rest = rest.substring(0, question);
        }
        int slash = rest.lastIndexOf('/');
        if (!rest.startsWith("//") || slash < 2) {
            throw wrong(url);
        }
        database = decoded(rest.substring(slash + 1));
        takeAddress(rest.substring(2, slash), url);
    }

    private void takeAddress(String address, String url) throws SQLException {
        int colon = address.lastIndexOf(':');
        if (colon > address.lastIndexOf(']')) {
            port = number("the port", address.substring(colon + 1), GREATEST_PORT);
            address = address.substring(0, colon);
        }
        if (address.startsWith("[") && address.endsWith("]")) {
            address = address.substring(1, address.length() - 1);
        }
        if (address.contains("[") || address.contains("/")) {
            throw wrong(url);
        }
        host = address.isEmpty() ? HOST : address;
    }

    private void takeQuery(String query) throws SQLException {
        for (String pair : query.split("&")) {
            int equals = pair.indexOf('=');
            if (equals > 0) {
                take(decoded(pair.substring(0, equals)), decoded(pair.substring(equals + 1)));
            }
        }
    }

    /** Takes a setting by its name; one that is not known is passed over, as drivers do. */
    private void take(String name, String value) throws SQLException {
        switch (name) {
            case USER: user = value; break;
            case PASSWORD: password = value; break;
            case CONNECT_TIMEOUT: connectTimeout = seconds(name, value); break;
            case SOCKET_TIMEOUT: socketTimeout = seconds(name, value); break;
            default:
        }
    }

    private static int seconds(String name, String value) throws SQLException {
        return MILLISECONDS * number(name, value, Integer.MAX_VALUE / MILLISECONDS);
    }

    private static int number(String name, String value, int most) throws SQLException {
        try {
            int number = Integer.parseInt(value);
            if (number >= 0 && number <= most) {
                return number;
            }
        } catch (NumberFormatException ignored) {
            // Told below.
        }
        throw new SQLException(name + " is a number from 0 to " + most + ", and not " + value, Failures.NO_CONNECTION);
    }

    private static String decoded(String text) {
        return URLDecoder.decode(text.replace("+", "%2B"), StandardCharsets.UTF_8);
    }

    private static SQLException wrong(String url) {
        return new SQLException(url + " is not jdbc:drdad://host:port/RDB?user=..&password=..", Failures.NO_CONNECTION);
    }

    /** The names have to be such that they can be sent. */
    void check() throws SQLException {
        boolean isName = !database.isEmpty() && database.length() <= MOST_OF_NAME;
        if (!isName || !database.chars().allMatch(letter -> letter > ' ' && letter < 0x7F)) {
            throw new SQLException("the name of a database has 1 to 18 printable characters: " + database, Failures.REFUSED);
        }
    }

    Settings copy() {
        Settings copy = new Settings();
        copy.host = host;
        copy.port = port;
        copy.database = database;
        copy.user = user;
        copy.password = password;
        copy.connectTimeout = connectTimeout;
        copy.socketTimeout = socketTimeout;
        return copy;
    }

    String address() {
        return host + ":" + port + "/" + database;
    }

    /** The URL, without a password. */
    String url() {
        String shown = host.contains(":") ? "[" + host + "]" : host;
        return PREFIX + "//" + shown + ":" + port + "/" + database;
    }
}
