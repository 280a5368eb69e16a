/* test: mutexes, condition variables and forks, as POSIX has them. Run without the interposer it tests
 * itself, and over it in each family it tests that. A check that is stuck ends it after a while. */
#include "test.h"
#include <signal.h>
#include <stdio.h>
#include <stdlib.h>
#include <string.h>
#include <sys/wait.h>
#include <time.h>
#include <unistd.h>

static const char *volatile now;

void must(const char *file, int line, bool is_so)
{
    if (!is_so) {
        fprintf(stderr, "%s: %s:%d: not so\n", now, file, line);
        _exit(1);
    }
}

static void is_stuck(int number)
{
    (void)number;
    char line[80] = "stuck: ";
    strncat(line, now, 60);
    strcat(line, "\n");
    if (write(STDERR_FILENO, line, strlen(line)) < 0)
        _exit(3);
    _exit(2);
}

struct timespec in_ns(clockid_t clock, long ns)
{
    struct timespec t;
    clock_gettime(clock, &t);
    t.tv_sec += (t.tv_nsec + ns) / SECOND;
    t.tv_nsec = (t.tv_nsec + ns) % SECOND;
    return t;
}

long since(clockid_t clock, const struct timespec *then)
{
    struct timespec t;
    clock_gettime(clock, &t);
    return (t.tv_sec - then->tv_sec) * SECOND + t.tv_nsec - then->tv_nsec;
}

pthread_t thread_of(void *(*body)(void *), void *data)
{
    pthread_t made;
    MUST(pthread_create(&made, NULL, body, data) == 0);
    return made;
}

void join(pthread_t thread)
{
    MUST(pthread_join(thread, NULL) == 0);
}

static void *tries_once(void *data)
{
    pthread_mutex_t *mutex = data;
    int answer = pthread_mutex_trylock(mutex);
    if (answer == 0)
        MUST(pthread_mutex_unlock(mutex) == 0);
    return (void *)(long)answer;
}

int tried_by_another(pthread_mutex_t *mutex)
{
    void *answer;
    MUST(pthread_join(thread_of(tries_once, mutex), &answer) == 0);
    return (int)(long)answer;
}

bool is_well(pid_t child)
{
    int status;
    MUST(child > 0 && waitpid(child, &status, 0) == child);
    return WIFEXITED(status) && WEXITSTATUS(status) == 0;
}

/* Those that run alone run only if they are named. */
static const struct {
    const char *name;
    void (*check)(void);
    bool alone;
} checks[] = {
    {"counters", counters, false},
    {"tries", tries, false},
    {"times_out", times_out, false},
    {"any_order", any_order, false},
    {"many_mutexes", many_mutexes, false},
    {"crowd", crowd, false},
    {"made_anew", made_anew, false},
    {"last_one_destroys", last_one_destroys, false},
    {"copied", copied, false},
    {"ended_thread", ended_thread, false},
    {"small_stacks", small_stacks, false},
    {"errno_stays", errno_stays, false},
    {"other_kinds", other_kinds, false},
    {"ping_pong", ping_pong, false},
    {"queue", queue, false},
    {"gate", gate, false},
    {"wait_times_out", wait_times_out, false},
    {"cancelled", cancelled, false},
    {"forks", forks, false},
    {"forks_in_a_storm", forks_in_a_storm, false},
    {"fork_handlers", fork_handlers, false},
    {"no_memory", no_memory, true},
};

/* test [SECONDS [CHECK]]: each check has that long. */
int main(int argc, char **argv)
{
    unsigned seconds = argc > 1 ? (unsigned)atoi(argv[1]) : 120;
    int done = 0;
    signal(SIGALRM, is_stuck);
    for (size_t i = 0; i < sizeof checks / sizeof *checks; i++) {
        if (argc > 2 ? strcmp(argv[2], checks[i].name) != 0 : checks[i].alone)
            continue;
        now = checks[i].name;
        alarm(seconds);
        checks[i].check();
        done++;
    }
    printf("%d checks of mutexes, conditions and forks\n", done);
    return done == 0;
}
