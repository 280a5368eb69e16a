// Traces (docs/FORMATS.md): one is read and run on the kernel's code, or one is written.
#pragma once
#include <iosfwd>
#include <string>
#include "schedules.h"

// Runs a trace that qlock accepts; the machine's transcript is what came.
void drive(std::istream &trace);
std::string trace_text(const Setup &setup, const Schedule &schedule, const std::string &comment);
