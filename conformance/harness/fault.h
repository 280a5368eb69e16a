// Ends the run with a reason, since Linux's code, the table or the harness is not as it should be.
#pragma once

// What is said with the reason: how far each processor is.
void show_state();
[[noreturn]] void fail(const char *format, ...) __attribute__((format(printf, 1, 2)));
