package org.drdad.jdbc;

import java.util.ArrayDeque;
import java.util.HashMap;
import java.util.Iterator;
import java.util.LinkedHashSet;
import java.util.Map;

/** The sections of a conversation. What was prepared in one stays, and is found again by its text. */
final class Sections {
    private static final int MOST_FREE = 64;

    private final String rdb;
    private final LinkedHashSet<Section> free = new LinkedHashSet<>();
    private final Map<SqlText, ArrayDeque<Section>> byText = new HashMap<>();
    private int made;

    Sections(String rdb) {
        this.rdb = rdb;
    }

    /**
     * A section without an open cursor: one that has the text; else one that was never used; else, where many are free,
     * the one that was given back first.
     */
    Section take(SqlText text) {
        ArrayDeque<Section> found = byText.get(text);
        if (found != null) {
            return taken(found.peek());
        }
        if (free.size() >= MOST_FREE) {
            return taken(free.iterator().next());
        }
        made++;
        return new Section(rdb, made);
    }

    private Section taken(Section section) {
        free.remove(section);
        if (section.text() != null) {
            ArrayDeque<Section> same = byText.get(section.text());
            same.remove(section);
            if (same.isEmpty()) {
                byText.remove(section.text());
            }
        }
        return section;
    }

    void giveBack(Section section) {
        free.add(section);
        if (section.text() != null) {
            byText.computeIfAbsent(section.text(), text -> new ArrayDeque<>(1)).add(section);
        }
    }

    /** What was described may be gone: a table that a unit created which is rolled back. */
    void forget() {
        byText.clear();
        for (Iterator<Section> each = free.iterator(); each.hasNext();) {
            each.next().forget();
        }
    }
}
