#include "memory.h"
#include <algorithm>

State &State::operator=(const State &other) {
    threads = other.threads, places = other.places, fence = other.fence;
    alone = other.alone, shared = other.shared, waits = other.waits, queue = other.queue;
    for (int t = 0; t < threads; t++) thread[t] = other.thread[t];
    memcpy(begin, other.begin, sizeof begin);
    std::copy(other.pool, other.pool + begin[places], pool);
    return *this;
}

void State::insert(int place, int index, const Message &message) {
    if (begin[places] == room) throw Overflow();
    int at = begin[place] + index;
    std::copy_backward(pool + at, pool + begin[places], pool + begin[places] + 1);
    pool[at] = message;
    for (int i = place + 1; i <= places; i++) begin[i]++;
}

int Memory::oldest(const State &s, int t, int place, const Order &order) const {
    if (model == Model::sc) return s.last(place);
    const Sight &sight = s.thread[t].sight;
    int oldest = std::max(sight.cur[place], sight.looked[place]);
    return order.follows_address ? std::max<int>(oldest, sight.address[place]) : oldest;
}

void Memory::read(State &s, int t, int place, int index, int fields, const Order &order) const {
    const Message &message = s.message(place, index);
    View told{};
    for (int field = 0; field < 3; field++)
        if (fields & 1 << field) told.join(message.released[field]);
    Sight &sight = s.thread[t].sight;
    sight.cur[place] = std::max<uint8_t>(sight.cur[place], index);
    if (order.acquire) sight.cur.join(told);
    sight.acq.join(told);
    if (model == Model::c11) return;
    if (order.heads_address) sight.address.join(told);
    if (order.heads_control || controls) sight.control.join(told);
}

View Memory::released(const Sight &sight, const Order &order) const {
    View view = sight.rel;
    if (!order.release) return view;
    view.join(sight.cur);
    if (model == Model::linux_model) view.join(sight.acq);
    return view;
}

int Memory::lowest(const State &s, int t, int place, const Order &order) const {
    if (model == Model::sc) return s.count(place);
    const Sight &sight = s.thread[t].sight;
    int lowest = std::max(sight.cur[place], sight.control[place]);
    if (order.follows_address) lowest = std::max<int>(lowest, sight.address[place]);
    if (order.release && model == Model::linux_model) lowest = std::max<int>(lowest, sight.acq[place]);
    return lowest + 1;
}

bool Memory::is_open(const State &s, int place, int index) const {
    return index == s.count(place) || !s.message(place, index).attached;
}

void Memory::store(State &s, int t, int place, int index, const uint8_t *value, const Order &order) const {
    s.each_view([&](View &view) {
        if (view[place] >= index) view[place]++;
    });
    Sight &sight = s.thread[t].sight;
    sight.cur[place] = std::max<uint8_t>(sight.cur[place], index);
    sight.own[place] = std::max<uint8_t>(sight.own[place], index);
    Message message{};
    std::copy(value, value + 3, message.value);
    message.released[0] = released(sight, order);
    sight.own.join(message.released[0]);
    s.insert(place, index, message);
}

void Memory::chain(State &s, int t, int place, const uint8_t *value, int fields, bool carries, const Order &order) const {
    Message message = s.newest(place);
    message.attached = true;
    Sight &sight = s.thread[t].sight;
    sight.cur[place] = sight.own[place] = s.count(place);
    View view = released(sight, order);
    for (int field = 0; field < 3; field++)
        if (fields & 1 << field) {
            message.value[field] = value[field];
            if (!carries) message.released[field] = View();
            message.released[field].join(view);
            sight.own.join(message.released[field]);
        }
    s.insert(place, s.count(place), message);
}

void Memory::modify(State &s, int t, int place, int index, const uint8_t *value, const Order &order) const {
    View carried = s.message(place, index).released[0];
    store(s, t, place, index + 1, value, order);
    Message &message = s.message(place, index + 1);
    message.attached = true;
    message.released[0].join(carried);
    s.thread[t].sight.own.join(carried);
}

void Memory::mb(State &s, int t) const {
    Sight &sight = s.thread[t].sight;
    sight.cur.join(sight.acq);
    sight.cur.join(s.fence);
    s.fence = sight.rel = sight.acq = sight.cur;
}

void Memory::wmb(State &s, int t) const {
    Sight &sight = s.thread[t].sight;
    sight.rel.join(model == Model::c11 ? sight.cur : sight.own);
}

void Memory::rmb(State &s, int t) const {
    Sight &sight = s.thread[t].sight;
    if (model == Model::c11) sight.cur.join(sight.acq);
    else sight.looked.join(sight.acq);
}

void Memory::before(State &s, int t, const Order &order) const {
    if (order.mb) mb(s, t);
    if (order.wmb) wmb(s, t);
    if (order.rmb) rmb(s, t);
}

void Memory::behind(State &s, int t, const Order &order) const {
    if (order.mb_behind) mb(s, t);
}

static void forget(View &view, const View &known) {
    for (int i = 0; i < most_places; i++)
        if (view[i] <= known[i]) view[i] = 0;
}

// Under sequential consistency only the last values count.
static void keep_newest(State &s) {
    s.each_view([](View &view) { view = View(); });
    for (int place = 0; place < s.places; place++) {
        s.pool[place] = s.newest(place);
        s.pool[place].attached = false;
    }
    for (int place = 0; place <= s.places; place++) s.begin[place] = place;
}

void Memory::shorten(State &s, int done) const {
    if (model == Model::sc) return keep_newest(s);
    View base{};
    for (int place = 0; place < s.places; place++) {
        int least = s.last(place);
        for (int t = 0; t < s.threads; t++)
            if (!(done & 1 << t)) least = std::min<int>(least, s.thread[t].sight.cur[place]);
        base[place] = least;
    }
    for (int t = 0; t < s.threads; t++) {
        Sight &sight = s.thread[t].sight;
        if (done & 1 << t) sight = Sight();
        for (View *view : {&sight.acq, &sight.address, &sight.control, &sight.looked}) forget(*view, sight.cur);
        forget(sight.own, sight.rel);
    }
    if (base.is_empty()) return;
    s.each_view([&](View &view) {
        for (int i = 0; i < most_places; i++) view[i] = view[i] > base[i] ? view[i] - base[i] : 0;
    });
    int kept = 0;
    for (int place = 0, from = 0; place < s.places; place++) {
        int until = s.begin[place + 1];
        int start = kept;
        for (int i = from + base[place]; i < until; i++) s.pool[kept++] = s.pool[i];
        s.pool[start].attached = false;
        from = until;
        s.begin[place] = start;
    }
    s.begin[s.places] = kept;
}

State bare(const State &s) {
    State bare = s;
    keep_newest(bare);
    return bare;
}

static void put(std::string &bytes, const View &view, int places) { bytes.append((const char *)view.at, places); }

static void put_message(std::string &bytes, const Message &message, int places) {
    int mask = message.attached << 7;
    for (int field = 0; field < 3; field++) mask |= !message.released[field].is_empty() << field;
    bytes.push_back(mask);
    bytes.append((const char *)message.value, 3);
    for (int field = 0; field < 3; field++)
        if (mask & 1 << field) put(bytes, message.released[field], places);
}

void pack(const State &s, std::string &bytes) {
    bytes.clear();
    for (uint8_t byte : {(uint8_t)s.threads, (uint8_t)s.places, s.alone, s.shared, s.waits}) bytes.push_back(byte);
    bytes.append((const char *)&s.queue, sizeof s.queue);
    put(bytes, s.fence, s.places);
    for (int t = 0; t < s.threads; t++) {
        const Thread &thread = s.thread[t];
        for (uint8_t byte : {thread.row, thread.step, thread.left}) bytes.push_back(byte);
        bytes.append((const char *)thread.registers.data(), thread.registers.size());
        int mask = 0, bit = 0;
        for (auto member : Sight::all) mask |= !(thread.sight.*member).is_empty() << bit++;
        bytes.push_back(mask);
        for (auto member : Sight::all)
            if (!(thread.sight.*member).is_empty()) put(bytes, thread.sight.*member, s.places);
    }
    for (int place = 0; place < s.places; place++) {
        bytes.push_back(s.count(place));
        for (int i = 0; i < s.count(place); i++) put_message(bytes, s.message(place, i), s.places);
    }
}

namespace {
struct Reader {
    const uint8_t *at;
    int places = 0;
    uint8_t byte() { return *at++; }
    void take(void *into, size_t count) { memcpy(into, at, count), at += count; }
    void take(View &view) { view = View(), take(view.at, places); }
};
}  // namespace

static void take_thread(Reader &reader, Thread &thread) {
    for (uint8_t *byte : {&thread.row, &thread.step, &thread.left}) *byte = reader.byte();
    reader.take(thread.registers.data(), thread.registers.size());
    int mask = reader.byte(), bit = 0;
    thread.sight = Sight();
    for (auto member : Sight::all)
        if (mask & 1 << bit++) reader.take(thread.sight.*member);
}

static void take_message(Reader &reader, Message &message) {
    int mask = reader.byte();
    message = Message();
    message.attached = mask >> 7;
    reader.take(message.value, 3);
    for (int field = 0; field < 3; field++)
        if (mask & 1 << field) reader.take(message.released[field]);
}

void unpack(const uint8_t *bytes, State &s) {
    Reader reader{bytes};
    s.threads = reader.byte(), s.places = reader.places = reader.byte();
    for (uint8_t *byte : {&s.alone, &s.shared, &s.waits}) *byte = reader.byte();
    reader.take(&s.queue, sizeof s.queue);
    reader.take(s.fence);
    for (int t = 0; t < s.threads; t++) take_thread(reader, s.thread[t]);
    s.begin[0] = 0;
    for (int place = 0; place < s.places; place++) {
        int count = reader.byte();
        for (int i = 0; i < count; i++) take_message(reader, s.pool[s.begin[place] + i]);
        s.begin[place + 1] = s.begin[place] + count;
    }
}

Print print_of(const std::string &bytes) {
    uint64_t a = 0x9E3779B97F4A7C15, b = 0xD6E8FEB86659FD93 ^ bytes.size();
    for (size_t i = 0; i < bytes.size(); i += 8) {
        uint64_t part = 0;
        memcpy(&part, bytes.data() + i, std::min<size_t>(8, bytes.size() - i));
        a = (a ^ part) * 0xff51afd7ed558ccd;
        a ^= a >> 32;
        b = ((b << 23 | b >> 41) ^ part) * 0xc4ceb9fe1a85ec53;
        b ^= b >> 29;
    }
    return {a, b};
}
