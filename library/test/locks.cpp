/* locks THREADS TURNS: the C++ header under std::unique_lock, std::scoped_lock, std::shared_lock and std::lock, in each family; and each
 * misuse that it throws. */
#include "qlock.hpp"

#include <cstdio>
#include <cstdlib>
#include <mutex>
#include <shared_mutex>

enum { FIRST = 0, SECOND = 1, RW = 2, NONE = 3 };

static void must(int line, bool well) {
    if (!well) {
        std::printf("locks.cpp:%d: not so\n", line);
        std::exit(1);
    }
}
#define MUST(what) must(__LINE__, what)

/* The code that a call throws; DONE, if it throws none. */
template <typename Call> static uint32_t thrown(Call call) {
    try {
        call();
    } catch (const qlock::error &error) {
        return error.code;
    }
    return QLOCK_DONE;
}

static void misuses(qlock::domain &domain) {
    qlock::spinlock lock(domain[0], FIRST), other(domain[1], FIRST), none(domain[0], NONE), wrong(domain[0], RW);
    qlock::rw_lock entered(domain[0], RW), beside(domain[1], RW);
    MUST(thrown([&] { lock.unlock(); }) == QLOCK_NOT_HELD);
    MUST(thrown([&] { none.lock(); }) == QLOCK_NO_LOCK);
    MUST(thrown([&] { wrong.lock(); }) == QLOCK_WRONG_KIND);
    std::unique_lock<qlock::spinlock> guard(lock);
    MUST(thrown([&] { lock.lock(); }) == QLOCK_HELD);
    std::unique_lock<qlock::spinlock> missed(other, std::try_to_lock);
    MUST(guard.owns_lock() && !missed.owns_lock());
    guard.unlock();
    MUST(missed.try_lock());
    std::shared_lock<qlock::rw_lock> reads(entered), reads_too(beside, std::try_to_lock);
    MUST(reads.owns_lock() && reads_too.owns_lock());
    MUST(thrown([&] { entered.unlock(); }) == QLOCK_WRONG_MANNER);
    reads.unlock();
    MUST(!entered.try_lock());
    reads_too.unlock();
    MUST(entered.try_lock() && !beside.try_lock_shared());
    entered.unlock();
}

static void openings() {
    MUST(thrown([] { qlock::domain none(QLOCK_PV, {QLOCK_SPIN, QLOCK_RW}, {0}); }) == QLOCK_RANGE);
    MUST(thrown([] { qlock::domain none(QLOCK_PV, {QLOCK_SPIN}, {0}, 0); }) == QLOCK_RANGE);
    MUST(thrown([] { qlock::domain none(QLOCK_VIRT, {}, {0}); }) == QLOCK_RANGE);
    MUST(thrown([] { qlock::domain none(QLOCK_VIRT, {QLOCK_SPIN}, {}); }) == QLOCK_RANGE);
}

static long counts[3];

/* Two locks in whatever order, by std::scoped_lock, which takes them by tries; then the reader-writer lock. */
static void turns_of(qlock_cpu &cpu, long turns) {
    qlock::spinlock first(cpu, FIRST), second(cpu, SECOND);
    qlock::rw_lock both(cpu, RW);
    for (long turn = 0; turn < turns; turn++) {
        {
            std::unique_lock<qlock::spinlock> guard(first);
            counts[0]++;
        }
        if (turn % 8 == 0) {
            std::scoped_lock<qlock::spinlock, qlock::spinlock> guards(second, first);
            counts[0]++;
            counts[1]++;
        }
        if (turn % 4 == 0) {
            std::unique_lock<qlock::rw_lock> guard(both);
            counts[2]++;
        } else {
            std::shared_lock<qlock::rw_lock> guard(both);
            MUST(counts[2] >= 0);
        }
    }
}

static void family_runs(qlock_family family, size_t threads, long turns) {
    std::vector<uint32_t> sockets(threads);
    for (size_t i = 0; i < threads; i++) {
        sockets[i] = i % 2;
        counts[i % 3] = 0;
    }
    qlock::domain domain(family, {QLOCK_SPIN, QLOCK_SPIN, QLOCK_RW}, sockets);
    misuses(domain);
    std::vector<std::thread> running;
    for (size_t i = 0; i < threads; i++) {
        running.emplace_back([&domain, i, turns] { turns_of(domain[i], turns); });
    }
    for (std::thread &thread : running) {
        thread.join();
    }
    long eighths = long(threads) * ((turns + 7) / 8), quarters = long(threads) * ((turns + 3) / 4);
    MUST(counts[0] == long(threads) * turns + eighths && counts[1] == eighths && counts[2] == quarters);
}

/* In a family whose waiters halt, with a spin bound of one turn: threads that sleep until they are kicked. */
static void halting_turns(qlock::domain &domain, size_t processor, long turns) {
    qlock::sleeping_spinlock first(domain, processor, FIRST), second(domain, processor, SECOND);
    for (long turn = 0; turn < turns; turn++) {
        {
            std::unique_lock<qlock::sleeping_spinlock> guard(first);
            counts[0]++;
        }
        if (turn % 8 == 0) {
            std::scoped_lock<qlock::sleeping_spinlock, qlock::sleeping_spinlock> guards(second, first);
            counts[0]++;
            counts[1]++;
        }
    }
}

static void halting_runs(size_t threads, long turns) {
    qlock::domain domain(QLOCK_PV, {QLOCK_SPIN, QLOCK_SPIN}, std::vector<uint32_t>(threads), 1);
    qlock::rw_lock none(domain[0], FIRST);
    MUST(thrown([&] { none.lock_shared(); }) == QLOCK_WRONG_KIND);
    qlock::spinlock plain(domain[0], FIRST);
    MUST(plain.try_lock() && thrown([&] { plain.lock(); }) == QLOCK_HELD);
    plain.unlock();
    counts[0] = counts[1] = 0;
    std::vector<std::thread> running;
    for (size_t i = 0; i < threads; i++) {
        running.emplace_back([&domain, i, turns] { halting_turns(domain, i, turns); });
    }
    for (std::thread &thread : running) {
        thread.join();
    }
    long eighths = long(threads) * ((turns + 7) / 8);
    MUST(counts[0] == long(threads) * turns + eighths && counts[1] == eighths);
}

int main(int argc, char **argv) {
    long threads = argc > 1 ? std::atol(argv[1]) : 4, turns = argc > 2 ? std::atol(argv[2]) : 20000;
    MUST(3 <= threads && threads <= QLOCK_MOST_CPUS && 0 < turns);
    openings();
    for (qlock_family family : {QLOCK_VIRT, QLOCK_NATIVE, QLOCK_CNA}) {
        family_runs(family, threads, turns);
    }
    halting_runs(threads, turns);
    std::printf("locks: %ld threads, %ld turns each, in four families, by the guards of std\n", threads, turns);
    return 0;
}
