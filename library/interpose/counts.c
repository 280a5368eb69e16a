/* Counts, and lines on standard error.
 *
 * Nothing here allocates or takes a lock, since a mutex of the program's own heap may be what is counted.
 * The counts lie in memory that forked children share, so a process tells those of its children too.
 */
#include "counts.h"
#include <errno.h>
#include <fcntl.h>
#include <limits.h>
#include <stdarg.h>
#include <stdatomic.h>
#include <stdio.h>
#include <stdlib.h>
#include <string.h>
#include <sys/mman.h>
#include <unistd.h>

enum { STRIPES = 64, LINE = 64, LONGEST = 400 };

/* Threads count in lines of their own, so that a count is no contention of its own. */
struct stripe {
    _Alignas(LINE) atomic_ulong of[COUNTS];
};

static struct stripe *stripes;
static const char *family;
static char file[PATH_MAX];
static pid_t maker;
static atomic_uint threads, told;
static __thread unsigned stripe __attribute__((tls_model("initial-exec")));

void begin_counts(const char *of_family)
{
    const char *name = getenv("QLOCK_COUNTS");
    family = of_family;
    if (!name || !*name || strlen(name) >= sizeof file)
        return;
    strcpy(file, name); /* a program may write over its environment */
    void *at = mmap(NULL, sizeof(struct stripe[STRIPES]), PROT_READ | PROT_WRITE,
                    MAP_SHARED | MAP_ANONYMOUS, -1, 0);
    if (at == MAP_FAILED)
        return;
    maker = getpid();
    stripes = at;
}

void count(enum count what)
{
    if (!stripes)
        return;
    if (!stripe)
        stripe = 1 + atomic_fetch_add(&threads, 1) % STRIPES;
    atomic_fetch_add_explicit(&stripes[stripe - 1].of[what], 1, memory_order_relaxed);
}

static unsigned long sum(enum count what)
{
    unsigned long all = 0;
    for (int i = 0; i < STRIPES; i++)
        all += atomic_load_explicit(&stripes[i].of[what], memory_order_relaxed);
    return all;
}

/* What cannot be written is not told: nobody is there to hear of it. */
static void write_to(int out, const char *line, int length)
{
    if (length > LONGEST - 1)
        length = LONGEST - 1;
    if (length > 0 && write(out, line, length) < 0)
        return;
}

void tell(const char *format, ...)
{
    char line[LONGEST];
    va_list words;
    va_start(words, format);
    int length = vsnprintf(line, sizeof line, format, words);
    va_end(words);
    write_to(STDERR_FILENO, line, length);
}

static const char *const notices[NOTICES] = {
    [IS_RECURSIVE] = "recursive mutexes are left to pthreads",
    [CHECKS_ERRORS] = "mutexes that check for errors are left to pthreads",
    [IS_ROBUST] = "robust mutexes are left to pthreads",
    [IS_SHARED] = "mutexes shared by processes are left to pthreads",
    [HAS_PRIORITY] = "mutexes with a protocol of priorities are left to pthreads",
    [NO_MEMORY] = "no memory for a domain: its mutex is left to pthreads",
    [IS_CROWDED] = "more threads want one mutex than it has seats: the others wait in no order",
};

void tell_once(enum notice what)
{
    unsigned bit = 1u << what;
    if (!(atomic_fetch_or(&told, bit) & bit))
        tell("qlock: %s\n", notices[what]);
}

_Noreturn void give_up(const char *why, unsigned long number)
{
    tell("qlock: %s (%lu)\n", why, number);
    abort();
}

/* At the end of the process that began to count. */
__attribute__((destructor)) static void end_counts(void)
{
    char line[LONGEST];
    if (!stripes || getpid() != maker)
        return;
    int out = open(file, O_WRONLY | O_CREAT | O_APPEND | O_CLOEXEC, 0666);
    if (out < 0)
        return;
    int length = snprintf(line, sizeof line,
                          "qlock: program=%s family=%s taken=%lu waited=%lu missed=%lu "
                          "conditions=%lu domains=%lu crowded=%lu left=%lu\n",
                          program_invocation_short_name, family, sum(TAKEN), sum(WAITED),
                          sum(MISSED), sum(CONDITIONS), sum(DOMAINS), sum(CROWDED), sum(LEFT));
    write_to(out, line, length);
    close(out);
}
