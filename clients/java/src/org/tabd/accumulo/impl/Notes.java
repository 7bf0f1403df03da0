package org.tabd.accumulo.impl;

import java.util.concurrent.atomic.AtomicBoolean;

/** What is ignored of what a program for Accumulo says: told once on standard error. */
public enum Notes {
    /** Passwords of users. */
    PASSWORDS("the passwords of users are ignored: a server asks for none"),
    /** Durability of writers. */
    DURABILITY("the durability of writers is ignored: a server's --sync says when its writes are safe, for all of them");

    private final String text;
    private final AtomicBoolean told = new AtomicBoolean();

    Notes(String text) {
        this.text = text;
    }

    /** Tells it, if it wasn't. */
    public void tell() {
        if (!told.getAndSet(true)) {
            System.err.println("tabd: " + text);
        }
    }
}
