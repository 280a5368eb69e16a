// An execution as text, as a page, and as the acts that qlock makes.
#pragma once
#include <ostream>
#include <string>
#include <vector>
#include "explore.h"

// A line for each step: who, which row, what it met and left, what it saw late, and the event.
void tell_steps(std::ostream &out, const Lock &lock, const std::vector<Step> &steps);
std::string step_text(const Lock &lock, const State &before, const Step &step);
// A page that goes through the steps, with what each processor could see of each place.
void tell_page(std::ostream &out, const Lock &lock, const std::vector<Step> &steps, const std::string &title);
// The trace whose acts an execution under sequential consistency makes, and these acts as `qlock steps` writes them.
void tell_trace(std::ostream &out, const Lock &lock, const std::vector<Step> &steps);
void tell_acts(std::ostream &out, const Lock &lock, const std::vector<Step> &steps);
// The event of a step, with lock, nodes and processors named.
std::string event_of(const Lock &lock, const State &before, const Deed &deed);
std::string row_name(const Lock &lock, const Deed &deed);
// A value of a place, as text.
std::string value_of(const Lock &lock, int place, const uint8_t *value);
