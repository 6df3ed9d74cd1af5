package org.drdad.jdbc;

import java.util.Arrays;
import java.util.List;

/** All cases over a server, or those of the kinds that are named behind the program, with one line at the end. */
final class AllRules {
    private static final int STORE = 64 << 20, SMALL_STORE = 2 << 20;

    static String program;

    private AllRules() {
    }

    public static void main(String[] words) throws Exception {
        program = words[0];
        try (Server server = new Server(program, STORE); Server small = new Server(program, SMALL_STORE)) {
            Rules[] kinds = {
                new TextRules(), new WireRules(), new ConnectionRules(server), new StatementRules(server), new ParameterRules(server),
                new RowRules(server), new BatchRules(server), new UnitRules(server), new FullStoreRules(small),
                new MetaDataRules(server), new InterfaceRules(server), new SourceRules(server), new XaRules(server),
                new BadServerRules(), new LostServerRules(program),
            };
            List<String> asked = Arrays.asList(words).subList(1, words.length);
            for (Rules kind : kinds) {
                if (asked.isEmpty() || asked.contains(kind.getClass().getSimpleName())) {
                    kind.all();
                }
            }
        }
        System.out.println(Rules.passed() + " passed, " + Rules.failed() + " failed");
        System.exit(Rules.failed() == 0 ? 0 : 1);
    }
}
