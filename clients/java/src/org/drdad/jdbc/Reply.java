package org.drdad.jdbc;

import java.util.ArrayList;
import java.util.List;

/** What answered one command of a chain. Nothing is set of a command behind a failure that broke the chain. */
final class Reply {
    /** The severities from which on a reply message reports a failure, and closes the conversation. */
    static final int ERROR = 8, PERMANENT_DAMAGE = 64;

    /** No SQLCARD where null. */
    SqlCard card;
    /** SQLDARD, QRYDSC, QRYDTA, QRYINSID, and the data of EXCSATRD, ACCSECRD and ACCRDBRM; null where they did not come. */
    Bytes described, rowForm, rows, instance, attributes;
    boolean isAnswered, hasEndedQuery, hasEndedUnit;
    /** The first reply message that reports a failure, and its data; 0 where none does. */
    int failure;
    Bytes failureData;
    /** The highest severity of the reply messages. */
    int severity;
    /** SECCHKCD of a SECCHKRM or of a refused ACCSECRD. */
    int securityCheck;
    /** SYNCCRD: the code of XA, and the XIDs that a recover lists. */
    boolean hasXaCode;
    int xaCode;
    List<Bytes> xids;

    /** Takes one object of the answer. Data that last beyond the call are copied unless they last by themselves. */
    void take(int code, Bytes data, boolean isLasting) throws WireFault {
        isAnswered = true;
        switch (code) {
            case CodePoint.SQLCARD: card = SqlCard.read(data); break;
            case CodePoint.QRYDTA: rows = lasting(data, isLasting); break;
            case CodePoint.SQLDARD: described = lasting(data, isLasting); break;
            case CodePoint.QRYDSC: rowForm = lasting(data, isLasting); break;
            case CodePoint.SYNCCRD: takeSync(lasting(data, isLasting)); break;
            case CodePoint.ACCSECRD: takeSecurity(lasting(data, isLasting)); break;
            case CodePoint.EXCSATRD: attributes = lasting(data, isLasting); break;
            default: takeMessage(code, data, isLasting);
        }
    }

    private static Bytes lasting(Bytes data, boolean isLasting) throws WireFault {
        return isLasting ? data : new Bytes(data.copy(0, data.size()), 0, data.size());
    }

    private void takeSecurity(Bytes data) throws WireFault {
        attributes = data;
        Bytes check = DdmObjects.findOrNull(data, CodePoint.SECCHKCD);
        securityCheck = check == null ? 0 : check.u1(0);
    }

    private void takeSync(Bytes data) throws WireFault {
        xaCode = DdmObjects.find(data, CodePoint.XARETVAL).s4(0);
        hasXaCode = true;
        Bytes listed = DdmObjects.findOrNull(data, CodePoint.PRPHRCLST);
        xids = new ArrayList<>();
        if (listed == null) {
            return;
        }
        DdmObjects objects = new DdmObjects(listed);
        while (objects.next()) {
            if (objects.code() == CodePoint.XID) {
                xids.add(objects.data());
            }
        }
    }

    private void takeMessage(int code, Bytes data, boolean isLasting) throws WireFault {
        DdmObjects parameters = new DdmObjects(data);
        if (!parameters.next() || parameters.code() != CodePoint.SVRCOD) {
            throw new WireFault(String.format("the reply message %04X has no severity", code));
        }
        int here = parameters.data().u2(0);
        severity = Math.max(severity, here);
        if (here >= ERROR && failure == 0) {
            failure = code;
            failureData = lasting(data, isLasting);
        }
        switch (code) {
            case CodePoint.ENDQRYRM: hasEndedQuery = true; break;
            case CodePoint.ENDUOWRM: hasEndedUnit = true; break;
            case CodePoint.OPNQRYRM: instance = lasting(DdmObjects.find(data, CodePoint.QRYINSID), isLasting); break;
            case CodePoint.SECCHKRM: securityCheck = DdmObjects.find(data, CodePoint.SECCHKCD).u1(0); break;
            case CodePoint.ACCRDBRM: attributes = lasting(data, isLasting); break;
            default:
        }
    }

    /** Whether the statement was refused, or the command failed. */
    boolean hasFailed() {
        return card != null && card.code < 0 || failure != 0 || securityCheck != 0;
    }
}
