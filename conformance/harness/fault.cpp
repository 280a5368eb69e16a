#include "fault.h"
#include <cstdarg>
#include <cstdio>
#include <cstdlib>

void fail(const char *format, ...) {
    va_list arguments;
    va_start(arguments, format);
    vfprintf(stderr, format, arguments);
    va_end(arguments);
    fputc('\n', stderr);
    show_state();
    exit(9);
}
