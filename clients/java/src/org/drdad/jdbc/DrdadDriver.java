package org.drdad.jdbc;

import java.sql.Connection;
import java.sql.Driver;
import java.sql.DriverManager;
import java.sql.DriverPropertyInfo;
import java.sql.SQLException;
import java.sql.SQLFeatureNotSupportedException;
import java.util.Properties;
import java.util.logging.Logger;

/** The driver of jdbc:drdad://host:port/RDB?user=..&amp;password=.., which DriverManager finds by itself. */
public final class DrdadDriver implements Driver {
    static final int MAJOR = 1, MINOR = 0;
    private static final int MILLISECONDS = 1000;

    static {
        try {
            DriverManager.registerDriver(new DrdadDriver());
        } catch (SQLException fault) {
            throw new ExceptionInInitializerError(fault);
        }
    }

    /** For DriverManager. */
    public DrdadDriver() {
    }

    /** A connection to the database of the URL; null where the URL is of another driver. */
    @Override
    public Connection connect(String url, Properties properties) throws SQLException {
        if (!acceptsURL(url)) {
            return null;
        }
        Settings settings = Settings.of(url, properties == null ? new Properties() : properties);
        if (settings.connectTimeout == 0) {
            settings.connectTimeout = DriverManager.getLoginTimeout() * MILLISECONDS;
        }
        return connection(settings);
    }

    /** A connection that has a session of its own. */
    static Connection connection(Settings settings) throws SQLException {
        Session session = new Session(settings);
        return new DrdadConnection(session, closed -> session.close());
    }

    @Override
    public boolean acceptsURL(String url) throws SQLException {
        if (url == null) {
            throw Failures.misuse("there is no URL");
        }
        return Settings.isUrl(url);
    }

    @Override
    public DriverPropertyInfo[] getPropertyInfo(String url, Properties properties) throws SQLException {
        Settings settings = Settings.of(url, properties == null ? new Properties() : properties);
        return new DriverPropertyInfo[] {
            property(Settings.USER, settings.user, true, "the user"),
            property(Settings.PASSWORD, settings.password, true, "the user's password"),
            property(Settings.CONNECT_TIMEOUT, String.valueOf(settings.connectTimeout / MILLISECONDS), false,
                    "seconds that a connection may take; 0 is without a limit"),
            property(Settings.SOCKET_TIMEOUT, String.valueOf(settings.socketTimeout / MILLISECONDS), false,
                    "seconds that the server may be silent; 0 is without a limit"),
        };
    }

    private static DriverPropertyInfo property(String name, String value, boolean isRequired, String description) {
        DriverPropertyInfo property = new DriverPropertyInfo(name, value);
        property.required = isRequired;
        property.description = description;
        return property;
    }

    @Override public int getMajorVersion() { return MAJOR; }
    @Override public int getMinorVersion() { return MINOR; }

    /** The server takes a small part of SQL-92's entry level. */
    @Override public boolean jdbcCompliant() { return false; }

    @Override
    public Logger getParentLogger() throws SQLFeatureNotSupportedException {
        throw new SQLFeatureNotSupportedException("the driver logs nothing", Failures.NOT_SUPPORTED);
    }
}
