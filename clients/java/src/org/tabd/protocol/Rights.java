package org.tabd.protocol;

import java.util.List;
import java.util.Set;

/**
 * What a user may do.
 *
 * @param system the permissions on the system, of {@link Permission#SYSTEM}
 * @param table the permissions on the table that was asked about, of {@link Permission#TABLE}
 * @param authorizations the authorizations, rising
 */
public record Rights(Set<String> system, Set<String> table, List<byte[]> authorizations) {
    /** Each authorization as a shell spells it. */
    @Override
    public String toString() {
        return "Rights[system=" + system + ", table=" + table + ", authorizations=" + Words.of(authorizations) + "]";
    }
}
