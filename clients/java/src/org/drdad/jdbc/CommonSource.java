package org.drdad.jdbc;

import java.io.PrintWriter;
import java.sql.SQLException;
import java.sql.SQLFeatureNotSupportedException;
import java.util.logging.Logger;
import javax.naming.Reference;
import javax.naming.Referenceable;
import javax.naming.StringRefAddr;
import javax.sql.CommonDataSource;

/** The properties that every source of connections has. They are read when a connection is made. */
public abstract class CommonSource implements CommonDataSource, Referenceable {
    private static final int MILLISECONDS = 1000;

    private final Settings settings = new Settings();
    private PrintWriter logWriter;

    CommonSource() {
    }

    /** The settings of a connection for this user. */
    final synchronized Settings settings(String user, String password) {
        Settings copy = settings.copy();
        copy.user = user;
        copy.password = password;
        return copy;
    }

    final synchronized Settings settings() { return settings.copy(); }

    /** Sets all at once: jdbc:drdad://host:port/RDB?user=..&amp;password=... */
    public final synchronized void setUrl(String url) throws SQLException { settings.takeUrl(url); }

    /** As {@link #setUrl}; some pools say it so. */
    public final void setURL(String url) throws SQLException { setUrl(url); }

    /** The URL, without user and password. */
    public final synchronized String getUrl() { return settings.url(); }

    /** As {@link #getUrl}. */
    public final String getURL() { return getUrl(); }

    /** The host's name or address; 127.0.0.1 where none is set. */
    public final synchronized void setHost(String host) { settings.host = host; }
    public final synchronized String getHost() { return settings.host; }

    /** JDBC's name of the host. */
    public final void setServerName(String host) { setHost(host); }
    public final String getServerName() { return getHost(); }

    /** The port; 1527 where none is set. */
    public final synchronized void setPort(int port) { settings.port = port; }
    public final synchronized int getPort() { return settings.port; }

    /** JDBC's name of the port. */
    public final void setPortNumber(int port) { setPort(port); }
    public final int getPortNumber() { return getPort(); }

    /** The database's name, as {@code drdad init --rdb} gave it. */
    public final synchronized void setDatabase(String database) { settings.database = database; }
    public final synchronized String getDatabase() { return settings.database; }

    /** JDBC's name of the database. */
    public final void setDatabaseName(String database) { setDatabase(database); }
    public final String getDatabaseName() { return getDatabase(); }
    public final synchronized void setUser(String user) { settings.user = user; }
    public final synchronized String getUser() { return settings.user; }
    public final synchronized void setPassword(String password) { settings.password = password; }

    /** The seconds that the server may be silent; 0 is without a limit. */
    public final synchronized void setSocketTimeout(int seconds) { settings.socketTimeout = seconds * MILLISECONDS; }
    public final synchronized int getSocketTimeout() { return settings.socketTimeout / MILLISECONDS; }

    /** The seconds that a connection may take; 0 is without a limit. */
    @Override public final synchronized void setLoginTimeout(int seconds) { settings.connectTimeout = seconds * MILLISECONDS; }
    @Override public final synchronized int getLoginTimeout() { return settings.connectTimeout / MILLISECONDS; }

    /** Nothing is written to it. */
    @Override public final synchronized void setLogWriter(PrintWriter writer) { logWriter = writer; }
    @Override public final synchronized PrintWriter getLogWriter() { return logWriter; }

    @Override
    public final Logger getParentLogger() throws SQLFeatureNotSupportedException {
        throw new SQLFeatureNotSupportedException("the driver logs nothing", Failures.NOT_SUPPORTED);
    }

    /** How a naming service keeps the source; its password is not kept. */
    @Override
    public final synchronized Reference getReference() {
        Reference reference = new Reference(getClass().getName(), SourceFactory.class.getName(), null);
        reference.add(new StringRefAddr(SourceFactory.URL, settings.url()));
        reference.add(new StringRefAddr(Settings.USER, settings.user));
        return reference;
    }
}
