/* What the environment asks for. */
#ifndef SETUP_H
#define SETUP_H

#include <stdint.h>

enum { MOST_SEATS = 64, MOST_SOCKETS = 8 };

struct setup {
    uint32_t family;             /* a qlock_family */
    unsigned seats;              /* of a mutex: 1 to MOST_SEATS */
    unsigned sockets;            /* 1 to MOST_SOCKETS */
    uint64_t all;                /* the bits of all seats */
    uint64_t near[MOST_SOCKETS]; /* those of a socket's seats */
};
extern struct setup setup;

/* Reads QLOCK_FAMILY, QLOCK_SEATS and QLOCK_SOCKETS, and begins to count. Says what it does not know. */
void read_setup(void);

/* The socket that the thread runs on, more or less: it may have gone on when this returns. */
unsigned socket_now(void);

#endif
