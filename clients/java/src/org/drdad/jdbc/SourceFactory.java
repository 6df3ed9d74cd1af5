package org.drdad.jdbc;

import java.util.Hashtable;
import javax.naming.Context;
import javax.naming.Name;
import javax.naming.RefAddr;
import javax.naming.Reference;
import javax.naming.spi.ObjectFactory;

/** Makes a source of connections from what a naming service keeps of it: its class, and its properties by their names. */
public final class SourceFactory implements ObjectFactory {
    static final String URL = "url";

    /** For naming services. */
    public SourceFactory() {
    }

    @Override
    public Object getObjectInstance(Object kept, Name name, Context context, Hashtable<?, ?> environment) throws Exception {
        CommonSource source = kept instanceof Reference ? made(((Reference) kept).getClassName()) : null;
        if (source == null) {
            return null;
        }
        Reference reference = (Reference) kept;
        String url = content(reference, URL), user = content(reference, Settings.USER);
        String password = content(reference, Settings.PASSWORD);
        if (url != null) {
            source.setUrl(url);
        }
        if (user != null) {
            source.setUser(user);
        }
        if (password != null) {
            source.setPassword(password);
        }
        return source;
    }

    private static CommonSource made(String className) {
        for (CommonSource source : new CommonSource[] {
            new DrdadDataSource(), new DrdadConnectionPoolDataSource(), new DrdadXADataSource()}) {
            if (source.getClass().getName().equals(className)) {
                return source;
            }
        }
        return null;
    }

    private static String content(Reference reference, String name) {
        RefAddr address = reference.get(name);
        return address == null ? null : (String) address.getContent();
    }
}
