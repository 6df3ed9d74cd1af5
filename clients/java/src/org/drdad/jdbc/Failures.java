package org.drdad.jdbc;

import java.io.EOFException;
import java.io.IOException;
import java.net.SocketTimeoutException;
import java.sql.SQLDataException;
import java.sql.SQLException;
import java.sql.SQLFeatureNotSupportedException;
import java.sql.SQLIntegrityConstraintViolationException;
import java.sql.SQLInvalidAuthorizationSpecException;
import java.sql.SQLNonTransientConnectionException;
import java.sql.SQLSyntaxErrorException;
import java.sql.SQLTimeoutException;
import java.sql.SQLTransactionRollbackException;
import java.sql.SQLTransientConnectionException;
import java.sql.SQLTransientException;

/** Which SQLException a failure is. The vendor's code is the SQLCODE where the server's SQLCARD told of it, and else 0. */
final class Failures {
    /** Another unit claims what the statement reads or writes. */
    static final int CLAIMED = -913;

    /** SQLSTATEs. A pool takes 0A000 as the end of a connection, and would lose the unit that is open on it. */
    static final String NOT_SUPPORTED = "0A504", ROLLED_BACK = "40001", NO_CONNECTION = "08001", IS_CLOSED = "08003";
    static final String REFUSED = "08004", BROKEN = "08006", NO_ROOM = "57011", GLOBAL_UNIT = "2D521", MISUSE = "HY010";
    static final String RANGE = "22003", CONVERSION = "22018", TOO_LONG = "22001", NO_UNICODE = "22021", WRONG_PARAMETER = "07002";
    static final String AUTHORIZATION = "28000", UNEXPECTED = "58009";

    private Failures() {
    }

    static SQLException syntax(String text, String state) {
        return new SQLSyntaxErrorException(text, state);
    }

    static SQLException data(String text, String state) {
        return new SQLDataException(text, state);
    }

    static SQLException misuse(String text) {
        return new SQLException(text, MISUSE);
    }

    static SQLException notSupported(String what) {
        return new SQLFeatureNotSupportedException(what, NOT_SUPPORTED);
    }

    static SQLException inGlobalUnit(String what) {
        return new SQLException(what + " has no place inside of a global unit: its transaction manager ends it", GLOBAL_UNIT);
    }

    static SQLException closed(String what) {
        return new SQLNonTransientConnectionException(what + " is closed", IS_CLOSED);
    }

    /** The failure of a stream while a chain was sent or its replies came. */
    static SQLException stream(IOException fault) {
        if (fault instanceof SocketTimeoutException) {
            return new SQLTimeoutException("the server was silent for too long; the connection is closed", BROKEN, fault);
        }
        String what = fault instanceof WireFault ? "the server answered otherwise than it should: " : "the connection broke: ";
        return new SQLNonTransientConnectionException(what + fault.getMessage(), BROKEN, fault);
    }

    /** The failure of a stream before anything was answered. */
    static SQLException opening(String address, IOException fault) {
        boolean isShut = fault instanceof EOFException || "Connection reset".equals(fault.getMessage())
                || "Broken pipe".equals(fault.getMessage());
        String why = isShut ? "the server closed it at once: are 64 conversations open already?" : fault.getMessage();
        return new SQLTransientConnectionException("no connection to " + address + ": " + why, NO_CONNECTION, fault);
    }

    /** The failure that a reply tells of, or null. An SQLCARD says more than the message that stands with it. */
    static SQLException of(Reply reply) {
        if (reply.card != null && reply.card.code < 0) {
            return ofCard(reply.card);
        }
        if (reply.securityCheck != 0) {
            return ofSecurityCheck(reply.securityCheck);
        }
        return reply.failure == 0 ? null : ofMessage(reply);
    }

    private static SQLException ofCard(SqlCard card) {
        String words = card.words.isEmpty() ? "" : " (" + card.words + ")";
        String text = "SQLCODE " + card.code + ", SQLSTATE " + card.state + ": " + said(card.code) + words;
        if (card.code == CLAIMED) {
            return new SQLTransactionRollbackException(text, ROLLED_BACK, card.code);
        }
        switch (card.state.substring(0, 2)) {
            case "07":
            case "42": return new SQLSyntaxErrorException(text, card.state, card.code);
            case "22": return new SQLDataException(text, card.state, card.code);
            case "23": return new SQLIntegrityConstraintViolationException(text, card.state, card.code);
            default: return new SQLException(text, card.state, card.code);
        }
    }

    private static String said(int code) {
        switch (code) {
            case -104: return "the text is no statement, or names something twice";
            case -204: return "no table has this name";
            case -206: return "the table has no column of this name";
            case -313: return "the parameters do not match the markers";
            case -401: return "a value of one class is compared with, or given to, one of another";
            case -407: return "the column takes no NULL";
            case -413: return "the number is out of the range of its column";
            case -433: return "the value is longer than its column";
            case -518: return "the statement is not prepared, or of the wrong kind";
            case -601: return "a table of this name is there already";
            case -803: return "a row of this key is there already";
            case -904: return "a limit of the server is reached";
            case CLAIMED: return "another unit claims what the statement reads or writes; begin this unit again";
            default: return "the statement is refused";
        }
    }

    private static SQLException ofSecurityCheck(int check) {
        switch (check) {
            case 0x0F: return new SQLInvalidAuthorizationSpecException("the password is wrong", AUTHORIZATION);
            case 0x10: return new SQLInvalidAuthorizationSpecException("a password is missing", AUTHORIZATION);
            case 0x12: return new SQLInvalidAuthorizationSpecException("a user is missing", AUTHORIZATION);
            case 0x13: return new SQLInvalidAuthorizationSpecException("the user is not known", AUTHORIZATION);
            default: return new SQLInvalidAuthorizationSpecException("the server takes no user and password", AUTHORIZATION);
        }
    }

    private static SQLException ofMessage(Reply reply) {
        String name = CodePoint.nameOf(reply.failure) + ": ";
        switch (reply.failure) {
            case CodePoint.AGNPRMRM:
                return new SQLNonTransientConnectionException(
                        name + "the server can't go on, and has closed the conversation", BROKEN);
            case CodePoint.RSCLMTRM:
                return new SQLTransientException(name + "the server has no memory, or no room in its store", NO_ROOM);
            case CodePoint.RDBNFNRM:
                return new SQLNonTransientConnectionException(name + "the server has no database of this name", REFUSED);
            case CodePoint.CMDVLTRM:
                return inGlobalUnit(name + "this");
            default:
                return new SQLException(name + "the server did not expect this command", UNEXPECTED);
        }
    }
}
