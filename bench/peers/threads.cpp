// A peer of runs with threads for bench/sum and bench/threads: objects and sources have a thread each that stays until the run ends, and what they
// share stands under mutexes: one for each queue, one for the pool, one for each block's references. An object without an event waits on its
// queue's condition variable. Each lane keeps a record of all that it does, in words of 32 bits, and at the end the journal is printed as
// `qp run --kernel port` prints one. Nothing here is proved; the benches have `qp check` judge the journal of the last try.
//
// What it isn't: it reads no files, since its systems are built in; no chart is interpreted; and what its two systems don't do isn't there.
//
// usage: threads ring OBJECTS POSTS EVENTS     each object makes so many posts to the next one; so many events go round from each
//        threads sum SOURCES POSTS             each source makes so many posts to one object, and settles behind each fourth
#include "text.h"

#include <atomic>
#include <condition_variable>
#include <deque>
#include <mutex>
#include <thread>
#include <vector>

namespace {

enum Kind : uint32_t { BEGIN, ENTER, DONE, TOOK, RUN, NEW, INC, POST, DEC, BACK, NIL, STIM, SETTLE, SEEN };
const char *const NAMES[] = {"begin", "enter", "done", "took", "run", "new", "inc", "post", "dec", "back", "nil", "stim", "settle", "seen"};

/// The records of a lane: for each its kind, its count of numbers, and these.
struct Lane {
    std::vector<uint32_t> words;

    template <class... Numbers> void put(Kind kind, Numbers... numbers) {
        const size_t at = words.size();
        words.resize(at + 1 + sizeof...(numbers));
        uint32_t *word = &words[at];
        *word++ = kind << 8 | static_cast<uint32_t>(sizeof...(numbers));
        ((*word++ = static_cast<uint32_t>(numbers)), ...);
    }
};

struct Entry {
    uint32_t block, reference;
};

struct Counts {
    uint32_t posted = 0, taken = 0;
};

struct Queue {
    std::mutex mutex;
    std::condition_variable filled;
    std::array<Entry, 32> ring;
    Counts counts;
};

struct Block {
    std::mutex mutex;
    uint32_t number = 0, references = 0, value = 0;
};

/// The free blocks are a bit each; the lowest is given out first.
struct Pool {
    std::mutex mutex;
    uint32_t free = UINT32_MAX, number = 0;
};

class World {
  public:
    std::deque<Queue> queues;

    World(size_t objects, uint32_t sources) : queues(objects), open(sources), running(sources), shown(objects) {}

    /// Makes an event and posts it.
    void post(Lane &lane, uint32_t by, uint32_t to, uint32_t value) {
        uint32_t taken, number;
        {
            std::lock_guard hold(pool.mutex);
            if (!pool.free) fail("an empty pool");
            taken = static_cast<uint32_t>(__builtin_ctz(pool.free)), number = pool.number++;
            pool.free &= pool.free - 1;
        }
        Block &block = blocks[taken];
        uint32_t reference;
        {
            std::lock_guard hold(block.mutex);
            block.value = value, block.references = 1;
            lane.put(NEW, by, 1, number, taken, block.number, 4, value);
            reference = block.number++;
        }
        lane.put(INC, by, 1, taken, reference);
        open += 1;
        entries += 1;
        Queue &queue = queues[to - 1];
        Counts counts;
        {
            std::lock_guard hold(queue.mutex);
            if (queue.counts.posted - queue.counts.taken == queue.ring.size()) fail("a full queue");
            queue.ring[queue.counts.posted++ % queue.ring.size()] = {taken, reference};
            counts = queue.counts;
        }
        queue.filled.notify_one();
        lane.put(POST, by, to, counts.posted, 0, counts.taken, 1, taken, reference);
    }

    /// Takes the next event of an object, or waits for it. Answers false where the run is over.
    bool take(Lane &lane, uint32_t me, Counts &nil, Entry &entry) {
        Queue &queue = queues[me - 1];
        std::unique_lock hold(queue.mutex);
        while (queue.counts.posted == queue.counts.taken) {
            if (nil.posted != queue.counts.posted) {
                nil = queue.counts;
                lane.put(NIL, me, nil.posted, 0, nil.taken);
            }
            if (over) return false;
            queue.filled.wait(hold);
        }
        entry = queue.ring[queue.counts.taken++ % queue.ring.size()];
        const Counts counts = queue.counts;
        hold.unlock();
        lane.put(TOOK, me, counts.posted, 0, counts.taken, 1, entry.block, entry.reference);
        return true;
    }

    uint32_t value(Entry entry) {
        std::lock_guard hold(blocks[entry.block].mutex);
        return blocks[entry.block].value;
    }

    /// Ends a step: its event's reference goes, and its block goes back.
    void finish(Lane &lane, uint32_t me, Entry entry) {
        lane.put(DONE, me);
        Block &block = blocks[entry.block];
        uint32_t next;
        {
            std::lock_guard hold(block.mutex);
            lane.put(DEC, me, 1, entry.block, block.number++, entry.reference);
            next = block.number;
            block.references -= 1;
        }
        {
            std::lock_guard hold(pool.mutex);
            lane.put(BACK, me, 1, pool.number++, entry.block, next);
            pool.free |= uint32_t{1} << entry.block;
        }
        if (--entries == 0) {
            std::lock_guard hold(settling);
            pass();
        }
        close();
    }

    /// Waits until each source that goes on stands at a `settle` and all queues are empty.
    void settle(Lane &lane) {
        std::unique_lock hold(settling);
        const uint32_t before = passed;
        arrived += 1;
        pass();
        rested.wait(hold, [&] { return passed != before; });
        lane.put(SETTLE, 0);
        for (size_t k = 0; k < shown.size(); k++) lane.put(SEEN, 0, k + 1, shown[k].posted, 0, shown[k].taken);
    }

    void end_source() {
        {
            std::lock_guard hold(settling);
            running -= 1;
            pass();
        }
        close();
    }

  private:
    std::array<Block, 32> blocks;
    Pool pool;
    /// Sources that go on and entries whose steps aren't done; and these entries alone.
    std::atomic<uint32_t> open, entries = 0;
    std::atomic<bool> over = false;
    std::mutex settling;
    std::condition_variable rested;
    uint32_t running, arrived = 0, passed = 0;
    std::vector<Counts> shown;

    /// Lets the sources go on, where all have come and no step is left. Nothing is posted meanwhile.
    void pass() {
        if (arrived == 0 || arrived != running || entries != 0) return;
        for (size_t k = 0; k < shown.size(); k++) {
            std::lock_guard hold(queues[k].mutex);
            shown[k] = queues[k].counts;
        }
        arrived = 0, passed += 1;
        rested.notify_all();
    }

    void close() {
        if (--open != 0) return;
        over = true;
        for (Queue &queue : queues) {
            std::lock_guard hold(queue.mutex);
            queue.filled.notify_all();
        }
    }
};

/// An object of the ring, which makes so many posts, or that of the sum, which makes none and tells its total.
void object(World &world, Lane &lane, uint32_t me, uint32_t posts) {
    uint32_t made = 0;
    uint64_t total = 0;
    const uint32_t next = me == world.queues.size() ? 1 : me + 1;
    Counts nil;
    for (Entry entry; world.take(lane, me, nil, entry);) {
        const bool goes_on = made < posts;
        total += world.value(entry);
        lane.put(RUN, me, 1, posts == 0 || goes_on ? 1 : 2);
        if (goes_on) world.post(lane, me, next, ++made);
        world.finish(lane, me, entry);
    }
    if (posts == 0) std::fprintf(stderr, "total %llu\n", static_cast<unsigned long long>(total));
}

void ring_source(World &world, Lane &lane, uint32_t events) {
    uint32_t place = 0;
    for (uint32_t to = 1; to <= world.queues.size(); to++)
        for (uint32_t k = 0; k < events; k++) {
            lane.put(STIM, 0, ++place, 0);
            world.post(lane, 0, to, 0);
        }
    world.end_source();
}

void sum_source(World &world, Lane &lane, uint32_t posts) {
    uint32_t place = 0;
    for (uint32_t k = 1; k <= posts; k++) {
        lane.put(STIM, 0, ++place, 0);
        world.post(lane, 0, 1, k);
        if (k % 4) continue;
        lane.put(STIM, 0, ++place, 0);
        world.settle(lane);
    }
    world.end_source();
}

/// Gathers a text and writes it in pieces.
class Output {
  public:
    void line(const char *word, const uint32_t *numbers, size_t count) {
        if (text.size() - used < 512) write_out();
        const size_t length = std::strlen(word);
        char *at = static_cast<char *>(std::memcpy(&text[used], word, length)) + length;
        for (size_t k = 0; k < count; k++) *at++ = ' ', at = put_number(at, numbers[k]);
        *at++ = '\n';
        used = static_cast<size_t>(at - text.data());
    }

    void write_out() {
        write_text(text.data(), used);
        used = 0;
    }

  private:
    std::vector<char> text = std::vector<char>(1 << 16);
    size_t used = 0;
};

} // namespace

int main(int count, char **words) {
    const std::string name = count > 1 ? words[1] : "";
    std::vector<uint32_t> sizes;
    for (int k = 2; k < count; k++) sizes.push_back(static_cast<uint32_t>(std::strtoul(words[k], nullptr, 10)));
    const bool is_ring = name == "ring" && sizes.size() == 3;
    if (!is_ring && !(name == "sum" && sizes.size() == 2)) fail("usage: threads ring OBJECTS POSTS EVENTS, or threads sum SOURCES POSTS");
    const uint32_t objects = is_ring ? sizes[0] : 1, sources = is_ring ? 1 : sizes[0];
    World world(objects, sources);
    std::vector<Lane> lanes(objects + sources);
    for (uint32_t me = 1; me <= objects; me++) {
        lanes[me - 1].put(BEGIN, me);
        lanes[me - 1].put(ENTER, me, 1);
        lanes[me - 1].put(DONE, me);
    }
    std::vector<std::thread> threads;
    for (uint32_t me = 1; me <= objects; me++) threads.emplace_back(object, std::ref(world), std::ref(lanes[me - 1]), me, is_ring ? sizes[1] : 0);
    for (uint32_t k = 0; k < sources; k++)
        threads.emplace_back(is_ring ? ring_source : sum_source, std::ref(world), std::ref(lanes[objects + k]), is_ring ? sizes[2] : sizes[1]);
    for (std::thread &thread : threads) thread.join();

    Output output;
    const uint32_t header[] = {1, 2, 1'000'000};
    output.line("qp", header, 3);
    uint32_t number = 0;
    output.line("lane", &number, 1);
    for (const Lane &lane : lanes) {
        number += 1;
        output.line("lane", &number, 1);
        for (size_t at = 0; at < lane.words.size();) {
            const uint32_t head = lane.words[at];
            output.line(NAMES[head >> 8], &lane.words[at + 1], head & 255);
            at += 1 + (head & 255);
        }
    }
    number = 0;
    output.line("end", &number, 1);
    output.write_out();
    return 0;
}
