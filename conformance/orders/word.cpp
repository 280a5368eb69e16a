#include "word.h"
#include <algorithm>

// In the split form the second view of a message names, for a store of more than one field, where its other fields are.
static const View &siblings(const Message &message) { return message.released[1]; }

Way Word::way_of(const State &s, const int *index) const {
    Way way;
    for (int field = 0; field < 3; field++) {
        way.index[field] = index[field];
        int at = split ? place + field : place;
        int bounded = std::min(index[field], s.last(at));
        way.met[field] = split ? s.message(at, bounded).value[0] : s.message(at, bounded).value[field];
        if (split || field == 0) way.newer += s.last(at) - bounded;
    }
    return way;
}

// Never half of a wide store that is as old as what is read of another field, or older.
bool Word::is_whole(const State &s, const Way &way, int mask) const {
    for (int field = 0; field < 3; field++)
        for (int i = 0; mask & 1 << field && i <= way.index[field]; i++)
            for (int other = 0; other < 3; other++)
                if (mask & 1 << other && siblings(s.message(place + field, i))[place + other] > way.index[other]) return false;
    return true;
}

std::vector<Way> Word::readings(const State &s, int t, int mask, const Order &order) const {
    std::vector<Way> ways;
    if (!split) {
        for (int i = memory.oldest(s, t, place, order); i <= s.last(place); i++) {
            int index[3] = {i, i, i};
            ways.push_back(way_of(s, index));
        }
        return ways;
    }
    int from[3], index[3];
    for (int field = 0; field < 3; field++) from[field] = mask & 1 << field ? memory.oldest(s, t, place + field, order) : s.last(place + field);
    for (index[0] = from[0]; index[0] <= s.last(place); index[0]++)
        for (index[1] = from[1]; index[1] <= s.last(place + 1); index[1]++)
            for (index[2] = from[2]; index[2] <= s.last(place + 2); index[2]++) {
                Way way = way_of(s, index);
                if (is_whole(s, way, mask)) ways.push_back(way);
            }
    return ways;
}

void Word::read(State &s, int t, const Way &way, int mask, const Order &order) const {
    if (!split) return memory.read(s, t, place, way.index[0], mask, order);
    Order relaxed = order;
    relaxed.acquire = false;
    View told{};
    for (int field = 0; field < 3; field++)
        if (mask & 1 << field) {
            memory.read(s, t, place + field, way.index[field], 1, relaxed);
            told.join(s.message(place + field, way.index[field]).released[0]);
        }
    if (order.acquire) s.thread[t].sight.cur.join(told);
}

std::vector<Way> Word::changes(const State &s, int t, int mask, const Order &order) const {
    if (!split) {
        int last[3] = {s.last(place), s.last(place), s.last(place)};
        return {way_of(s, last)};
    }
    std::vector<Way> found;
    for (Way &way : readings(s, t, mask, order)) {
        bool is_open = true;
        for (int field = 0; field < 3; field++) {
            if (!(mask & 1 << field)) continue;
            is_open &= memory.is_open(s, place + field, way.index[field] + 1);
            // A wide one stands behind every wide store that is there.
            for (int i = way.index[field] + 1; mask != 1 << field && i < s.count(place + field); i++)
                is_open &= siblings(s.message(place + field, i)).is_empty();
            // What it acquires is not newer than what it reads.
            for (int other = 0; order.acquire && other < 3; other++)
                if (mask & 1 << other)
                    is_open &= s.message(place + field, way.index[field]).released[0][place + other] <= way.index[other];
        }
        if (is_open) found.push_back(way);
    }
    return found;
}

void Word::mark_wide(State &s, const Way &way, int mask) const {
    View wide{};
    for (int field = 0; field < 3; field++)
        if (mask & 1 << field) wide[place + field] = way.index[field];
    for (int field = 0; field < 3; field++)
        if (mask & 1 << field) s.message(place + field, way.index[field]).released[1] = wide;
}

void Word::change(State &s, int t, const Way &way, const uint8_t *value, int mask, const Order &order) const {
    read(s, t, way, mask, order);
    if (!split) return memory.chain(s, t, place, value, mask, true, order);
    Way placed = way;
    for (int field = 0; field < 3; field++)
        if (mask & 1 << field) {
            uint8_t single[3] = {value[field], 0, 0};
            memory.modify(s, t, place + field, way.index[field], single, order);
            placed.index[field]++;
        }
    if (mask & (mask - 1)) mark_wide(s, placed, mask);
}

// Both fields stand on the same side of each wide store.
static bool is_between(const State &s, int first, int second, int at, int also) {
    for (int i = 0; i < s.count(first); i++) {
        const View &wide = siblings(s.message(first, i));
        if (!wide.is_empty() && (i < at) != (wide[second] < also)) return false;
    }
    return true;
}

std::vector<Way> Word::placings(const State &s, int t, int mask, const Order &order) const {
    int end[3];
    for (int field = 0; field < 3; field++) end[field] = split ? s.count(place + field) : s.count(place);
    if (!split) return {way_of(s, end)};
    std::vector<Way> ways;
    bool both = mask == 6;
    int field = both ? 1 : mask == 1 ? 0 : mask == 2 ? 1 : 2;
    for (int at = memory.lowest(s, t, place + field, order); at <= s.count(place + field); at++) {
        if (!memory.is_open(s, place + field, at)) continue;
        for (int also = both ? memory.lowest(s, t, place + 2, order) : s.count(place + 2); also <= s.count(place + 2); also++) {
            if (both && (!memory.is_open(s, place + 2, also) || !is_between(s, place + 1, place + 2, at, also))) continue;
            Way way = way_of(s, end);
            way.newer = s.count(place + field) - at;
            way.index[field] = at;
            if (both) way.index[2] = also;
            ways.push_back(way);
        }
    }
    return ways;
}

void Word::store(State &s, int t, const Way &way, const uint8_t *value, int mask, const Order &order) const {
    if (!split) return memory.chain(s, t, place, value, mask, false, order);
    for (int field = 0; field < 3; field++)
        if (mask & 1 << field) {
            uint8_t single[3] = {value[field], 0, 0};
            memory.store(s, t, place + field, way.index[field], single, order);
        }
    if (mask & (mask - 1)) mark_wide(s, way, mask);
}

void Word::close(State &s, int t) const {
    View &cur = s.thread[t].sight.cur;
    for (bool changed = split; changed;) {
        changed = false;
        for (int field = 0; field < 3; field++)
            for (int i = 0; i <= cur[place + field]; i++) {
                const View &wide = siblings(s.message(place + field, i));
                for (int other = 0; other < 3; other++)
                    if (wide[place + other] > cur[place + other]) cur[place + other] = wide[place + other], changed = true;
            }
    }
}
