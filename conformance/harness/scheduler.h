// Virtual processors by turns: each task and each handler is a coroutine, and stands before its next operation.
#pragma once
#include "machine.h"

// The coroutine that runs gives way, before the operation at this place.
void give_way(const shim_place *at);
// A coroutine more on this processor; it goes to its first operation.
void spawn(int processor, const Program &program);

// ---- lines of a schedule ----
// One act of the processor, by as many operations of Linux as it takes.
void step(int processor);
void interrupt(int processor);
void preempt(int processor);
void go_on(int processor);
void nudge(int processor);

// One operation of Linux at most; whether it was an act.
bool turn(int processor);
// Whether the act would be idle.
bool is_step_idle(int processor);
bool is_interrupt_idle(int processor);
// Whether its acts are made, and the count of its processor's nodes has not fallen yet. It stops there only where the machine does.
bool is_before_leave(const Context &context);
