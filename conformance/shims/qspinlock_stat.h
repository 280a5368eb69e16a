/* In place of kernel/locking/qspinlock_stat.h, which has latencies and debugfs. The counts are those of lock_events.h. */
#include "lock_events.h"
