/* The locks of qlock.h for C++17, in the shape that std::unique_lock, std::scoped_lock and std::shared_lock want.
 *
 *     qlock::domain domain(QLOCK_NATIVE, {QLOCK_SPIN, QLOCK_RW}, {0, 0});
 *     ..                                        // a thread, which has processor 1 to itself
 *     qlock::spinlock lock(domain[1], 0);
 *     std::unique_lock<qlock::spinlock> guard(lock);
 *
 * A lock is seen from a processor: a spinlock or an rw_lock is a pair of a processor and a number, costs nothing to make, and goes with the
 * processor from thread to thread. What qlock.h asks of a caller, it asks here too. A misuse that C answers by a code is thrown as
 * qlock::error. `unlock` throws as well, and std::unique_lock calls it from a destructor: a lock that is freed twice ends the program.
 *
 * In a domain of QLOCK_PV the threads that take a sleeping_spinlock (Linux) sleep while their processors have halted. There each thread
 * takes one, and none a spinlock, whose `unlock` wakes nobody.
 */
#ifndef QLOCK_HPP
#define QLOCK_HPP

#include "qlock.h"
#ifdef __linux__
#include "qlock_sleep.h"
#endif

#include <stdexcept>
#include <string>
#include <thread>
#include <vector>

namespace qlock {

/* A call was refused. `code` is one of qlock_answer. */
class error : public std::logic_error {
public:
    explicit error(uint32_t code) : std::logic_error("qlock: code " + std::to_string(code)), code(code) {}
    uint32_t code;
};

namespace detail {

inline void done(uint32_t answer) {
    if (answer != QLOCK_DONE) {
        throw error(answer);
    }
}

/* Whether a try has its lock. */
inline bool has(uint32_t answer) {
    if (answer != QLOCK_BUSY) {
        done(answer);
    }
    return answer == QLOCK_DONE;
}

/* One look in 64 lets another thread run, also while the processor has halted. */
inline void relax(void *data) {
    unsigned &looks = *static_cast<unsigned *>(data);
    if (++looks % 64 == 0) {
        std::this_thread::yield();
    } else {
        qlock_pause(nullptr);
    }
}

inline void wait(qlock_cpu &cpu, uint32_t answer) {
    unsigned looks = 0;
    done(qlock_wait(&cpu, answer, relax, &looks));
}

}

/* A spinlock, as one processor takes it. Lockable. */
class spinlock {
public:
    spinlock(qlock_cpu &cpu, uint32_t number) noexcept : cpu_(&cpu), number_(number) {}
    void lock() { detail::wait(*cpu_, qlock_begin(cpu_, number_)); }
    bool try_lock() { return detail::has(qlock_try_lock(cpu_, number_)); }
    void unlock() { detail::done(qlock_unlock(cpu_, number_)); }

private:
    qlock_cpu *cpu_;
    uint32_t number_;
};

/* A reader-writer lock, as one processor enters it: `lock` as its writer, `lock_shared` as a reader. SharedLockable. */
class rw_lock {
public:
    rw_lock(qlock_cpu &cpu, uint32_t number) noexcept : cpu_(&cpu), number_(number) {}
    void lock() { detail::wait(*cpu_, qlock_begin_write(cpu_, number_)); }
    bool try_lock() { return detail::has(qlock_try_write(cpu_, number_)); }
    void unlock() { detail::done(qlock_write_unlock(cpu_, number_)); }
    void lock_shared() { detail::wait(*cpu_, qlock_begin_read(cpu_, number_)); }
    bool try_lock_shared() { return detail::has(qlock_try_read(cpu_, number_)); }
    void unlock_shared() { detail::done(qlock_read_unlock(cpu_, number_)); }

private:
    qlock_cpu *cpu_;
    uint32_t number_;
};

/* The processors of a domain. Throws what qlock_open answers. All locks are free, and no thread uses a processor, when it ends: a
 * processor that holds a lock, or of which a call waits, is not given up, and its memory stays. */
class domain {
public:
    domain(qlock_family family, const std::vector<qlock_kind> &kinds, const std::vector<uint32_t> &sockets, uint32_t threshold = 16)
        : cpus_(sockets.size()) {
        const std::vector<uint8_t> numbers(kinds.begin(), kinds.end());
        if (numbers.empty() || sockets.empty()) {
            throw error(QLOCK_RANGE);
        }
        detail::done(qlock_open(family, numbers.data(), numbers.size(), sockets.data(), sockets.size(), threshold, cpus_.data(), cpus_.size()));
    }

    ~domain() {
        for (qlock_cpu &cpu : cpus_) {
            qlock_close(&cpu);
        }
    }

    domain(const domain &) = delete;
    domain &operator=(const domain &) = delete;

    /* Throws std::out_of_range. */
    qlock_cpu &operator[](size_t number) { return cpus_.at(number); }

private:
    std::vector<qlock_cpu> cpus_;
#ifdef __linux__
    std::vector<qlock_bed> beds_ = std::vector<qlock_bed>(cpus_.size());
    friend class sleeping_spinlock;
#endif
};

#ifdef __linux__
/* A spinlock, as one processor takes it: its thread sleeps while it has halted, and wakes the one that its release kicks. Lockable. Throws
 * std::out_of_range. */
class sleeping_spinlock {
public:
    sleeping_spinlock(domain &domain, size_t processor, uint32_t number)
        : cpu_(&domain[processor]), bed_(&domain.beds_[processor]), beds_(domain.beds_.data()), number_(number) {}
    void lock() { detail::done(qlock_sleep_lock(cpu_, number_, bed_)); }
    bool try_lock() { return detail::has(qlock_try_lock(cpu_, number_)); }
    void unlock() { detail::done(qlock_wake_unlock(cpu_, number_, beds_)); }

private:
    qlock_cpu *cpu_;
    qlock_bed *bed_, *beds_;
    uint32_t number_;
};
#endif

}

#endif
