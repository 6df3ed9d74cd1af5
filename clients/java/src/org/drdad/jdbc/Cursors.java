package org.drdad.jdbc;

import java.util.ArrayList;
import java.util.HashSet;
import java.util.List;
import java.util.Set;

/** The cursors of a conversation: those that are open, and those whose rows nobody wants any more, which the next chain closes. */
final class Cursors {
    private final Sections sections;
    private final Set<OpenQuery> open = new HashSet<>();
    private final List<OpenQuery> abandoned = new ArrayList<>();

    Cursors(Sections sections) {
        this.sections = sections;
    }

    /** A query was opened, or its next block has come: its section is free once no rows are left. */
    void take(OpenQuery query) {
        if (query.isOpen) {
            open.add(query);
        } else {
            open.remove(query);
            sections.giveBack(query.section);
        }
    }

    void abandon(OpenQuery query) {
        if (query.isOpen) {
            query.isOpen = false;
            open.remove(query);
            abandoned.add(query);
        }
    }

    /** The last block has come of a query: where it was abandoned there is nothing left to close. */
    void hasEnded(OpenQuery query) {
        if (abandoned.remove(query)) {
            sections.giveBack(query.section);
        }
    }

    void abandonAll() {
        for (OpenQuery query : new ArrayList<>(open)) {
            abandon(query);
        }
    }

    /** How many cursors the next chain closes. */
    int closings() {
        return abandoned.size();
    }

    void writeClosings(CommandWriter chain) {
        for (OpenQuery query : abandoned) {
            query.section.writeClose(chain);
        }
    }

    /** The chain has closed them. */
    void haveClosed() {
        for (OpenQuery query : abandoned) {
            sections.giveBack(query.section);
        }
        abandoned.clear();
    }

    /** The server has closed all cursors. */
    void lose() {
        for (OpenQuery query : open) {
            query.isOpen = false;
            query.isLost = true;
            sections.giveBack(query.section);
        }
        open.clear();
        haveClosed();
    }
}
