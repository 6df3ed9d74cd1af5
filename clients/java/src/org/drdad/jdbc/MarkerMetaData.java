package org.drdad.jdbc;

import java.sql.ParameterMetaData;
import java.sql.SQLException;

/** What is known of the markers of a statement: each has the type of the column that it is given to or compared with. */
final class MarkerMetaData extends Wrapping implements ParameterMetaData {
    private final Column[] parameters;

    MarkerMetaData(Column[] parameters) { this.parameters = parameters; }

    private Column parameter(int place) throws SQLException {
        if (place < 1 || place > parameters.length) {
            throw Failures.data("there is no parameter " + place + ": there are " + parameters.length, Failures.WRONG_PARAMETER);
        }
        return parameters[place - 1];
    }

    @Override public int getParameterCount() { return parameters.length; }

    @Override
    public int isNullable(int place) throws SQLException {
        return parameter(place).takesNull ? parameterNullable : parameterNoNulls;
    }

    @Override public boolean isSigned(int place) throws SQLException { return parameter(place).isNumber(); }
    @Override public int getPrecision(int place) throws SQLException { return parameter(place).precision(); }
    @Override public int getScale(int place) throws SQLException { parameter(place); return 0; }
    @Override public int getParameterType(int place) throws SQLException { return parameter(place).type; }
    @Override public String getParameterTypeName(int place) throws SQLException { return parameter(place).typeName(); }
    @Override public String getParameterClassName(int place) throws SQLException { return parameter(place).javaClass().getName(); }
    @Override public int getParameterMode(int place) throws SQLException { parameter(place); return parameterModeIn; }
}
