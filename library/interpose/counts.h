/* What the interposer says: its counts, what it leaves to pthreads, and why it gives up. */
#ifndef COUNTS_H
#define COUNTS_H

/* What is counted, each in every call. */
enum count {
    TAKEN,      /* times that a mutex was taken over the library */
    WAITED,     /* of these, those whose begin answered WAITS */
    MISSED,     /* tries that found a mutex taken */
    CONDITIONS, /* waits for condition variables with a mutex of the library */
    DOMAINS,    /* domains that were opened, of which each mutex has one while it lives */
    CROWDED,    /* times that no seat was free */
    LEFT,       /* locks and tries that went to pthreads */
    COUNTS
};

/* Why a mutex is left to pthreads, or something else is said, once. */
enum notice {
    IS_RECURSIVE,
    CHECKS_ERRORS,
    IS_ROBUST,
    IS_SHARED,
    HAS_PRIORITY,
    NO_MEMORY,
    IS_CROWDED,
    NOTICES
};

/* Begins to count, if QLOCK_COUNTS names a file. Once, before other threads count. */
void begin_counts(const char *family);

void count(enum count what);

/* Says a notice on standard error, the first time. */
void tell_once(enum notice what);

/* Says a line on standard error. */
void tell(const char *format, ...) __attribute__((format(printf, 1, 2)));

/* Says why, and ends the process: the library did not do what it says. */
_Noreturn void give_up(const char *why, unsigned long number);

#endif
