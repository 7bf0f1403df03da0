package org.tabd.accumulo.impl;

import java.util.concurrent.ExecutorService;
import java.util.concurrent.Executors;
import java.util.concurrent.Future;
import java.util.concurrent.ScheduledExecutorService;
import java.util.concurrent.TimeUnit;

/** What is done in threads of its own, which end with the program: each may wait without others waiting for it. */
final class Background {
    private static final ExecutorService THREADS = Executors.newCachedThreadPool(Background::daemon);
    private static final ScheduledExecutorService CLOCK = Executors.newSingleThreadScheduledExecutor(Background::daemon);

    private Background() {}

    private static Thread daemon(Runnable work) {
        Thread thread = new Thread(work, "tabd-background");
        thread.setDaemon(true);
        return thread;
    }

    static void run(Runnable work) {
        THREADS.execute(work);
    }

    /** Does it so many milliseconds later, unless that is cancelled before. */
    static Future<?> later(Runnable work, long milliseconds) {
        return CLOCK.schedule(() -> run(work), milliseconds, TimeUnit.MILLISECONDS);
    }
}
