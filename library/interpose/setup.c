/* What the environment asks for. */
#include "setup.h"
#include "counts.h"
#include "qlock.h"
#include <sched.h>
#include <stdlib.h>
#include <string.h>

struct setup setup;

static const char *const families[] = {
    [QLOCK_VIRT] = "virt", [QLOCK_NATIVE] = "native", [QLOCK_CNA] = "cna",
    [QLOCK_PV] = "pv"};

/* A family that is not there is no reason to end somebody else's program. */
static uint32_t family_of(const char *name)
{
    if (!name || !*name)
        return QLOCK_NATIVE;
    for (uint32_t i = 0; i < sizeof families / sizeof *families; i++)
        if (strcmp(name, families[i]) == 0)
            return i;
    tell("qlock: QLOCK_FAMILY is \"%.40s\", and there are native, virt, cna and pv: native it is\n",
         name);
    return QLOCK_NATIVE;
}

static unsigned number_of(const char *name, unsigned most, unsigned otherwise)
{
    const char *word = getenv(name);
    char *end = NULL;
    if (!word || !*word)
        return otherwise;
    unsigned long number = strtoul(word, &end, 10);
    if (*end == 0 && 1 <= number && number <= most)
        return number;
    tell("qlock: %s is \"%.40s\", and not 1 to %u: %u it is\n", name, word, most, otherwise);
    return otherwise;
}

void read_setup(void)
{
    setup.family = family_of(getenv("QLOCK_FAMILY"));
    setup.seats = number_of("QLOCK_SEATS", MOST_SEATS, 16);
    setup.sockets = number_of("QLOCK_SOCKETS", MOST_SOCKETS, 1);
    for (unsigned i = 0; i < setup.seats; i++) {
        setup.all |= (uint64_t)1 << i;
        setup.near[i % setup.sockets] |= (uint64_t)1 << i;
    }
    begin_counts(families[setup.family]);
}

unsigned socket_now(void)
{
    if (setup.sockets == 1)
        return 0;
    int cpu = sched_getcpu();
    return cpu < 0 ? 0 : (unsigned)cpu % setup.sockets;
}
