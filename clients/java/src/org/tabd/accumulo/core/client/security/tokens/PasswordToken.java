package org.tabd.accumulo.core.client.security.tokens;

/** A password, which isn't kept or sent. */
public final class PasswordToken implements AuthenticationToken {
    /** No password. */
    public PasswordToken() {}

    /**
     * A password.
     *
     * @param password the password, which is ignored
     */
    public PasswordToken(CharSequence password) {}

    /**
     * A password.
     *
     * @param password the password, which is ignored
     */
    public PasswordToken(byte[] password) {}
}
