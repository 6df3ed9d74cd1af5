package org.drdad.jdbc;

/** The code points of DDM that this driver sends or reads, by the names of the standard (DRDA V5 volume 3). */
final class CodePoint {
    // Commands.
    static final int EXCSAT = 0x1041, ACCSEC = 0x106D, SECCHK = 0x106E, SYNCCTL = 0x1055, ACCRDB = 0x2001;
    static final int CLSQRY = 0x2005, CNTQRY = 0x2006, DSCSQLSTT = 0x2008, EXCSQLIMM = 0x200A, EXCSQLSTT = 0x200B;
    static final int OPNQRY = 0x200C, PRPSQLSTT = 0x200D, RDBCMM = 0x200E, RDBRLLBCK = 0x200F;

    // Parameters.
    static final int TYPDEFNAM = 0x002F, PRDID = 0x112E, SVRCOD = 0x1149;
    static final int SYNCTYPE = 0x1187, USRID = 0x11A0, PASSWORD = 0x11A1, SECMEC = 0x11A2, SECCHKCD = 0x11A4;
    static final int MGRLVLLS = 0x1404, XID = 0x1801, XAFLAGS = 0x1903, XARETVAL = 0x1904, PRPHRCLST = 0x1905;
    static final int RDBNAM = 0x2110, PKGNAMCSN = 0x2113, QRYBLKSZ = 0x2114, RTNSQLDA = 0x2116, TYPSQLDA = 0x2146;
    static final int QRYINSID = 0x215B;

    // Data objects.
    static final int FDODSC = 0x0010, FDODTA = 0x147A, SQLCARD = 0x2408, SQLDARD = 0x2411, SQLDTA = 0x2412;
    static final int SQLSTT = 0x2414, QRYDSC = 0x241A, QRYDTA = 0x241B, SQLATTR = 0x2450;

    // Managers.
    static final int AGENT = 0x1403, SQLAM = 0x2407, RDB = 0x240F, SECMGR = 0x1440, XAMGR = 0x1C01, UNICODEMGR = 0x1C08;

    // Replies.
    static final int MGRDEPRM = 0x1218, SECCHKRM = 0x1219, AGNPRMRM = 0x1232, RSCLMTRM = 0x1233, PRCCNVRM = 0x1245;
    static final int SYNCCRD = 0x1248, SYNTAXRM = 0x124C, CMDNSPRM = 0x1250, VALNSPRM = 0x1252, EXCSATRD = 0x1443;
    static final int ACCSECRD = 0x14AC, ACCRDBRM = 0x2201, QRYNOPRM = 0x2202, RDBNACRM = 0x2204, OPNQRYRM = 0x2205;
    static final int RDBACCRM = 0x2207, ENDQRYRM = 0x220B, ENDUOWRM = 0x220C, QRYPOPRM = 0x220F, RDBNFNRM = 0x2211;
    static final int OPNQFLRM = 0x2212, CMDVLTRM = 0x221D;

    private CodePoint() {
    }

    /** The standard's name of a reply message, or its digits. */
    static String nameOf(int code) {
        switch (code) {
            case MGRDEPRM: return "MGRDEPRM";
            case AGNPRMRM: return "AGNPRMRM";
            case RSCLMTRM: return "RSCLMTRM";
            case PRCCNVRM: return "PRCCNVRM";
            case SYNTAXRM: return "SYNTAXRM";
            case CMDNSPRM: return "CMDNSPRM";
            case VALNSPRM: return "VALNSPRM";
            case QRYNOPRM: return "QRYNOPRM";
            case RDBNACRM: return "RDBNACRM";
            case RDBACCRM: return "RDBACCRM";
            case QRYPOPRM: return "QRYPOPRM";
            case RDBNFNRM: return "RDBNFNRM";
            case OPNQFLRM: return "OPNQFLRM";
            case CMDVLTRM: return "CMDVLTRM";
            default: return String.format("%04X", code);
        }
    }
}
