/*
 * The ring of lock events lies in memory that the kernel's command line keeps free, and that the host of the emulator reads while the
 * kernel runs: so nothing is lost where a fault stops the machine. Its first page has a word that says what it is, how many slots
 * there are, and how many numbers were drawn. machine.py has the same layout.
 */
#include <linux/atomic.h>
#include <linux/hardirq.h>
#include <linux/init.h>
#include <linux/io.h>
#include <linux/module.h>
#include <linux/moduleparam.h>
#include <linux/preempt.h>
#include <linux/qlock_ring.h>
#include <linux/smp.h>

#define RING_AT 0x20000000UL
#define RING_BYTES 0x4000000UL
#define RING_PAGE 4096
#define RING_SLOTS ((RING_BYTES - RING_PAGE) / sizeof(struct slot))
#define RING_NAME 0x676e69726b636f71ULL

struct slot {
	u64 lock;
	u32 argument;
	u8 index, what, cpu, context;
};

struct head {
	u64 name;
	u32 slots;
	atomic_t drawn;
};

static struct head *head;
static struct slot *slots;
int ring_on;
EXPORT_SYMBOL(ring_on);
core_param(ring_on, ring_on, int, 0644);

/* The slot is whole with its last byte but one, `what`, which is never 0. */
void notrace ring_write(void *lock, int what, unsigned int argument, unsigned int index)
{
	unsigned int number;
	struct slot *slot;

	if (!slots)
		return;
	number = atomic_fetch_inc(&head->drawn);
	if (number >= RING_SLOTS)
		return;
	slot = &slots[number];
	slot->lock = (unsigned long)lock;
	slot->argument = argument;
	slot->index = index;
	slot->cpu = raw_smp_processor_id();
	slot->context = interrupt_context_level();
	smp_store_release(&slot->what, what);
}
EXPORT_SYMBOL(ring_write);

static int __init ring_init(void)
{
	head = memremap(RING_AT, RING_BYTES, MEMREMAP_WB);
	if (!head)
		return -ENOMEM;
	head->slots = RING_SLOTS;
	head->name = RING_NAME;
	smp_store_release(&slots, (void *)head + RING_PAGE);
	return 0;
}
late_initcall(ring_init);
