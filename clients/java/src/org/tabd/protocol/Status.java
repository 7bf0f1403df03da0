package org.tabd.protocol;

/**
 * What a table consists of.
 *
 * @param tablets how many tablets
 * @param sources how many memory runs and sorted tables they have
 * @param records how many records these hold
 */
public record Status(long tablets, long sources, long records) {}
