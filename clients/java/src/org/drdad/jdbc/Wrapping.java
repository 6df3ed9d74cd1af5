package org.drdad.jdbc;

import java.sql.SQLException;
import java.sql.Wrapper;

/** An object of the API that wraps nothing but itself. */
abstract class Wrapping implements Wrapper {
    @Override
    public boolean isWrapperFor(Class<?> wanted) {
        return wanted.isInstance(this);
    }

    @Override
    public <T> T unwrap(Class<T> wanted) throws SQLException {
        if (!isWrapperFor(wanted)) {
            throw Failures.misuse("this is no " + wanted.getName());
        }
        return wanted.cast(this);
    }
}
