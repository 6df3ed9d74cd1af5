package org.drdad.jdbc;

import java.lang.reflect.InvocationTargetException;
import java.lang.reflect.Method;
import java.lang.reflect.Modifier;
import java.sql.Connection;
import java.sql.DatabaseMetaData;
import java.sql.PreparedStatement;
import java.sql.ResultSet;
import java.sql.SQLException;
import java.sql.Statement;
import java.util.Set;
import java.util.concurrent.Executor;

/** Each method that the interfaces of JDBC have, called once on an object that is open and once on one that is closed. */
final class InterfaceRules extends Rules {
    private static final Set<String> WHILE_CLOSED = Set.of("close", "isClosed", "isValid", "abort", "unwrap", "isWrapperFor",
            "enquoteLiteral", "enquoteIdentifier", "enquoteNCharLiteral", "isSimpleIdentifier", "beginRequest", "endRequest");
    private static final Set<String> ENDS = Set.of("close", "abort");
    /** A pool takes this SQLSTATE for the end of a connection, and loses the unit that is open on it. */
    private static final String ENDS_IN_POOLS = "0A000";

    private final Server server;

    InterfaceRules(Server server) {
        this.server = server;
    }

    /** Makes an object on a connection that is open. */
    private interface Maker {
        Object of(Connection connection) throws SQLException;
    }

    @Override
    void all() throws Exception {
        server.table("ASKED", 1);
        String query = "SELECT K, V FROM ASKED WHERE K = 0";
        each(Connection.class, connection -> connection);
        each(Statement.class, Connection::createStatement);
        each(PreparedStatement.class, connection -> connection.prepareStatement(query));
        each(ResultSet.class, connection -> {
            ResultSet rows = connection.createStatement().executeQuery(query);
            rows.next();
            return rows;
        });
        open(DatabaseMetaData.class, Connection::getMetaData);
    }

    private void each(Class<?> asked, Maker maker) throws Exception {
        open(asked, maker);
        closed(asked, maker);
    }

    private void open(Class<?> asked, Maker maker) throws SQLException {
        try (Connection connection = server.connect()) {
            for (Method method : asked.getMethods()) {
                if (ENDS.contains(method.getName()) || Modifier.isStatic(method.getModifiers())) {
                    continue;
                }
                rule("open: " + method, () -> {
                    Throwable told = called(method, maker.of(connection));
                    holds(told == null || told instanceof SQLException, "it threw " + told);
                    holds(told == null || !ENDS_IN_POOLS.equals(((SQLException) told).getSQLState()), "a pool would end the connection");
                    holds(connection.isValid(5), "the connection is gone");
                    connection.setNetworkTimeout(Runnable::run, 0);
                });
            }
        }
    }

    private void closed(Class<?> asked, Maker maker) throws Exception {
        try (Connection connection = server.connect()) {
            AutoCloseable object = (AutoCloseable) maker.of(connection);
            object.close();
            for (Method method : asked.getMethods()) {
                if (!WHILE_CLOSED.contains(method.getName()) && !Modifier.isStatic(method.getModifiers())) {
                    rule("closed: " + method, () -> {
                        Throwable told = called(method, object);
                        holds(told instanceof SQLException, "it threw " + told);
                    });
                }
            }
        }
    }

    /** What a call throws that has a value of no weight for each parameter. */
    private static Throwable called(Method method, Object object) throws IllegalAccessException {
        Class<?>[] types = method.getParameterTypes();
        Object[] values = new Object[types.length];
        for (int at = 0; at < types.length; at++) {
            values[at] = value(types[at]);
        }
        try {
            method.invoke(object, values);
            return null;
        } catch (InvocationTargetException thrown) {
            return thrown.getCause();
        }
    }

    private static Object value(Class<?> type) {
        if (type == int.class || type == short.class || type == byte.class) {
            return type == int.class ? (Object) 1 : type == short.class ? (Object) (short) 1 : (Object) (byte) 1;
        }
        if (type == long.class || type == float.class || type == double.class) {
            return type == long.class ? (Object) 1L : type == float.class ? (Object) 1f : (Object) 1d;
        }
        if (type == Executor.class) {
            return (Executor) Runnable::run;
        }
        if (type == java.util.Properties.class) {
            return new java.util.Properties();
        }
        return type == boolean.class ? Boolean.FALSE : type == String.class ? "K" : type == Class.class ? String.class : null;
    }
}
