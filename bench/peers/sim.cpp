// A peer of `qp run` for bench/sim: a simulator that nothing proves. It runs four systems under the preemptive kernel, with one thread, and
// prints the journal that the program prints of them, byte for byte: queues, a pool with references, publications, time events and charts of
// several levels.
//
// What it isn't: it reads no files, since its systems are built in; its charts are tables of compiled functions, not texts that are read and
// interpreted; it prints each record as it comes and keeps none but the text of the source's lane; and what its four systems don't do, as
// assertions, margins and deferral, isn't there.
//
// usage: sim flat|publish|deep BUDGET, or sim timers TICKS
#include "text.h"

#include <algorithm>
#include <memory>
#include <utility>
#include <vector>

namespace {

enum Signal : uint8_t { GO = 4, N = 5, T = 6 };

/// The text of a lane: each piece is written when it is full, or kept until it is asked for.
class Lane {
  public:
    explicit Lane(bool is_kept) : kept(is_kept) { begin_piece(); }

    template <size_t K, class... Numbers> void put(const char (&word)[K], Numbers... numbers) {
        if (end - at < 512) make_room();
        at = static_cast<char *>(std::memcpy(at, word, K - 1)) + K - 1;
        ((*at++ = ' ', at = put_number(at, static_cast<uint64_t>(numbers))), ...);
        *at++ = '\n';
    }

    void write_out() {
        for (const auto &[text, length] : full) write_text(text.get(), length);
        write_text(piece.get(), static_cast<size_t>(at - piece.get()));
        at = piece.get();
    }

  private:
    static constexpr size_t SIZE = 1 << 16;

    bool kept;
    std::vector<std::pair<std::unique_ptr<char[]>, size_t>> full;
    std::unique_ptr<char[]> piece;
    char *at = nullptr, *end = nullptr;

    void begin_piece() {
        piece.reset(new char[SIZE]);
        at = piece.get(), end = at + SIZE;
    }

    void make_room() {
        if (!kept) return write_out();
        const size_t length = static_cast<size_t>(at - piece.get());
        full.emplace_back(std::move(piece), length);
        begin_piece();
    }
};

/// An event as a queue has it: a static signal, or a block with a reference to it.
struct Event {
    uint8_t pool;
    uint32_t what, reference;
};

struct Queue {
    std::array<Event, 16> ring;
    uint32_t size;
    uint64_t posted = 0, taken = 0;

    bool has_entry() const { return posted != taken; }
};

struct Block {
    Signal signal;
    uint64_t parameter, number = 0;
    uint32_t references = 0;
};

/// The free blocks are a bit each; the lowest is given out first.
struct Pool {
    std::array<Block, 32> blocks{};
    uint32_t free = UINT32_MAX;
    uint64_t number = 0;
};

struct Timer {
    uint8_t owner;
    uint64_t number = 0, left = 0, interval = 0;
};

class Sim;
struct Object;

using Guard = bool (*)(const Object &);
using Action = void (*)(Sim &, Object &);

struct Row {
    Signal on;
    Guard when;
    std::vector<Action> acts;
    uint8_t to;
};

/// States are counted from 1; 0 is the top, or no target.
struct State {
    uint8_t parent;
    std::vector<Action> entry, exit;
    std::vector<Row> rows;
};

struct Chart {
    std::vector<State> states;
    std::vector<Action> init_acts;
    uint8_t init;
};

struct Object {
    const Chart *chart;
    uint8_t priority, state = 0;
    Queue queue;
    int64_t n = 0;
};

enum class Stimulus : uint8_t { post_go, tick, settle };

class Sim {
  public:
    Lane kernel{false}, source{true};
    std::vector<Object> objects;
    std::vector<Timer> timers;
    std::vector<Stimulus> stimuli;

    explicit Sim(uint64_t budget) : budget(budget) {}

    void run() {
        kernel.put("qp 1 0", budget);
        kernel.put("lane 0");
        for (Object &object : objects) start(object);
        look_row(0);
        kernel.put("lane 1");
        kernel.write_out();
        source.put("end", stopped ? 4 : 0);
        source.write_out();
    }

    void post(Lane &lane, uint8_t by, Object &to, Event event) {
        Queue &queue = to.queue;
        if (queue.posted - queue.taken > queue.size) fail("a full queue");
        queue.ring[queue.posted++ % queue.ring.size()] = event;
        lane.put("post", by, to.priority, queue.posted, 0, queue.taken, event.pool, event.what, event.reference);
    }

    void publish(Object &by, Signal signal, uint64_t parameter) {
        uint32_t taken = give(by, signal, parameter);
        Event own = hold(by, taken);
        kernel.put("pub", by.priority, signal, subscriptions, subscribers);
        uint8_t highest = subscribers ? static_cast<uint8_t>(64 - __builtin_clzll(subscribers)) : 0, before = ceiling;
        ceiling = std::max(ceiling, highest);
        kernel.put("lock", by.priority, ceiling);
        for (uint64_t left = subscribers; left && !stopped;) {
            uint8_t priority = static_cast<uint8_t>(64 - __builtin_clzll(left));
            left &= ~(uint64_t{1} << (priority - 1));
            post(kernel, by.priority, objects[priority - 1], hold(by, taken));
            look_row(std::max(by.priority, ceiling));
        }
        if (stopped) return;
        ceiling = before;
        kernel.put("unlock", by.priority, ceiling);
        release(by, own);
    }

    void subscribe(Object &by, Signal signal) {
        kernel.put("sub", by.priority, signal, subscriptions++);
        subscribers |= uint64_t{1} << (by.priority - 1);
    }

    void arm(Object &by, uint32_t place, uint64_t left, uint64_t interval) {
        uint32_t index = (by.priority - 1u) * 8 + place;
        Timer &timer = timers[index];
        kernel.put("arm", by.priority, index + 1, timer.number++, left, interval);
        timer.left = left, timer.interval = interval;
    }

  private:
    Pool pool;
    uint64_t budget, looks = 0, subscriptions = 0, subscribers = 0;
    size_t begun = 0;
    uint8_t ceiling = 0;
    bool stopped = false;

    uint32_t give(Object &by, Signal signal, uint64_t parameter) {
        if (!pool.free) fail("an empty pool");
        const uint32_t index = static_cast<uint32_t>(__builtin_ctz(pool.free));
        pool.free &= pool.free - 1;
        Block &block = pool.blocks[index];
        block.signal = signal, block.parameter = parameter;
        kernel.put("new", by.priority, 1, pool.number++, index, block.number, signal, parameter);
        return index;
    }

    Event hold(Object &by, uint32_t index) {
        Block &block = pool.blocks[index];
        block.references += 1;
        kernel.put("inc", by.priority, 1, index, block.number);
        return {1, index, static_cast<uint32_t>(block.number++)};
    }

    void release(Object &by, Event event) {
        if (!event.pool) return;
        Block &block = pool.blocks[event.what];
        kernel.put("dec", by.priority, 1, event.what, block.number++, event.reference);
        if (--block.references) return;
        pool.free |= uint32_t{1} << event.what;
        kernel.put("back", by.priority, 1, pool.number++, event.what, block.number);
    }

    void start(Object &object) {
        kernel.put("begin", object.priority);
        for (Action act : object.chart->init_acts) act(*this, object);
        enter(object, 0, object.chart->init, false);
        kernel.put("done", object.priority);
    }

    /// Enters what is below a state down to a target.
    void enter(Object &object, uint8_t above, uint8_t to, bool looking) {
        uint8_t path[8];
        int depth = 0;
        for (uint8_t state = to; state != above; state = object.chart->states[state - 1].parent) path[depth++] = state;
        while (depth-- && !stopped) {
            object.state = path[depth];
            kernel.put("enter", object.priority, object.state);
            act(object, object.chart->states[object.state - 1].entry, looking);
        }
    }

    /// Each action of a step is followed by a scheduling point.
    void act(Object &object, const std::vector<Action> &acts, bool looking) {
        for (Action each : acts) {
            if (stopped) return;
            each(*this, object);
            if (looking && !stopped) look_row(std::max(object.priority, ceiling));
        }
    }

    bool is_within(const Chart &chart, uint8_t state, uint8_t above) const {
        for (; state; state = chart.states[state - 1].parent)
            if (state == above) return true;
        return above == 0;
    }

    void dispatch(Object &object, Signal signal) {
        const Chart &chart = *object.chart;
        for (uint8_t state = object.state; state; state = chart.states[state - 1].parent) {
            const std::vector<Row> &rows = chart.states[state - 1].rows;
            for (size_t k = 0; k < rows.size(); k++) {
                const Row &row = rows[k];
                if (row.on != signal || (row.when && !row.when(object))) continue;
                kernel.put("run", object.priority, state, k + 1);
                act(object, row.acts, true);
                if (row.to) go(object, state, row.to);
                return;
            }
        }
        kernel.put("none", object.priority);
    }

    void go(Object &object, uint8_t from, uint8_t to) {
        const Chart &chart = *object.chart;
        uint8_t top = chart.states[from - 1].parent;
        while (!is_within(chart, to, top) || top == to) top = chart.states[top - 1].parent;
        while (object.state != top && !stopped) {
            const State &left = chart.states[object.state - 1];
            kernel.put("exit", object.priority, object.state);
            act(object, left.exit, true);
            object.state = left.parent;
        }
        enter(object, top, to, true);
    }

    void step(Object &object) {
        Queue &queue = object.queue;
        if (queue.taken == budget) {
            kernel.put("spent", object.priority);
            stopped = true;
            return;
        }
        Event event = queue.ring[queue.taken++ % queue.ring.size()];
        kernel.put("took", object.priority, queue.posted, 0, queue.taken, event.pool, event.what, event.reference);
        dispatch(object, event.pool ? pool.blocks[event.what].signal : static_cast<Signal>(event.what));
        if (stopped) return;
        kernel.put("done", object.priority);
        release(object, event);
    }

    /// Looks above a floor, and takes the steps that are found, until a look finds none.
    void look_row(uint8_t floor) {
        for (bool found = true; found && !stopped;) {
            kernel.put("look", 0, ++looks, floor);
            found = stimulate(floor == 0) && floor == 0;
            for (size_t p = objects.size(); p > floor; p--) {
                const Queue &queue = objects[p - 1].queue;
                kernel.put("seen", 0, p, queue.posted, 0, queue.taken);
                if (queue.has_entry()) {
                    step(objects[p - 1]);
                    found = true;
                    break;
                }
            }
        }
    }

    /// Makes the source's next stimulus, where it may act.
    bool stimulate(bool base) {
        if (begun == stimuli.size()) return false;
        Stimulus next = stimuli[begun];
        if (next == Stimulus::settle && (!base || std::any_of(objects.begin(), objects.end(), [](const Object &it) { return it.queue.has_entry(); })))
            return false;
        source.put("stim 0", ++begun, looks);
        switch (next) {
        case Stimulus::post_go: post(source, 0, objects[0], {0, GO, 0}); break;
        case Stimulus::tick: tick(); break;
        case Stimulus::settle:
            source.put("settle 0");
            for (const Object &it : objects) source.put("seen 0", it.priority, it.queue.posted, 0, it.queue.taken);
        }
        return true;
    }

    void tick() {
        for (size_t k = 0; k < timers.size(); k++) {
            Timer &timer = timers[k];
            if (!timer.left) continue;
            if (--timer.left) {
                source.put("tick 0", k + 1, timer.number++, timer.left);
                continue;
            }
            source.put("fire 0", k + 1, timer.number++, timer.interval);
            timer.left = timer.interval;
            post(source, 0, objects[timer.owner - 1], {0, T, 0});
        }
    }
};

void post_me(Sim &sim, Object &me) { sim.post(sim.kernel, me.priority, me, {0, GO, 0}); }
void publish_n(Sim &sim, Object &me) { sim.publish(me, N, 7); }
void subscribe_n(Sim &sim, Object &me) { sim.subscribe(me, N); }
void add_one(Sim &, Object &me) { me.n += 1; }
void take_one(Sim &, Object &me) { me.n -= 1; }
template <uint32_t K> void arm_one(Sim &sim, Object &me) { sim.arm(me, K, 1, 1); }
bool above(const Object &me) { return me.n > 1000; }
bool zero(const Object &me) { return me.n == 0; }

Object object(const Chart &chart, int priority, uint32_t size) {
    Object made{};
    made.chart = &chart, made.priority = static_cast<uint8_t>(priority), made.queue.size = size;
    return made;
}

Chart deep_chart() {
    Chart chart{{}, {}, 6};
    for (uint8_t parent = 0; parent < 6; parent++) chart.states.push_back({parent, {add_one}, {take_one}, {{GO, above, {}, 1}}});
    chart.states[0].rows.push_back({GO, nullptr, {post_me}, 7});
    chart.states.push_back({0, {add_one}, {take_one}, {{GO, zero, {}, 0}, {GO, nullptr, {post_me}, 6}}});
    return chart;
}

} // namespace

int main(int count, char **words) {
    const std::string name = count == 3 ? words[1] : "";
    const uint64_t size = count == 3 ? std::strtoull(words[2], nullptr, 10) : 0;
    const Chart flat{{{0, {}, {}, {{GO, nullptr, {post_me}, 0}}}}, {}, 1};
    const Chart teller{{{0, {}, {}, {{GO, nullptr, {publish_n, post_me}, 0}}}}, {}, 1};
    const Chart hearer{{{0, {}, {}, {{N, nullptr, {}, 0}}}}, {subscribe_n}, 1};
    const Chart ticked{{{0, {}, {}, {{T, nullptr, {}, 0}}}},
                       {arm_one<0>, arm_one<1>, arm_one<2>, arm_one<3>, arm_one<4>, arm_one<5>, arm_one<6>, arm_one<7>}, 1};
    const Chart deep = deep_chart();
    Sim sim(name == "timers" ? 1'000'000 : size);
    sim.stimuli = {Stimulus::post_go};
    if (name == "flat") {
        sim.objects = {object(flat, 1, 1)};
    } else if (name == "publish") {
        sim.objects = {object(teller, 1, 1)};
        for (int p = 2; p <= 17; p++) sim.objects.push_back(object(hearer, p, 1));
    } else if (name == "deep") {
        sim.objects = {object(deep, 1, 1)};
    } else if (name == "timers") {
        for (int p = 1; p <= 8; p++) sim.objects.push_back(object(ticked, p, 15));
        for (uint8_t k = 0; k < 64; k++) sim.timers.push_back({static_cast<uint8_t>(k / 8 + 1)});
        sim.stimuli.clear();
        for (uint64_t k = 0; k < size; k++) sim.stimuli.insert(sim.stimuli.end(), {Stimulus::tick, Stimulus::settle});
    } else {
        fail("usage: sim flat|publish|deep BUDGET, or sim timers TICKS");
    }
    sim.run();
    return 0;
}
