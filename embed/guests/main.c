/* Lines of three guests, a source, a filter and a sink: they pass on some text, as many bytes as asked for, the same
   on two threads that take turns, and the same beside a guest that calls all it can with random arguments; lines of
   which a guest traps or ends without a word; one beside a guest that writes a bad item; and one beside guests that
   trap, each of which is given up at once, and another begins under its number. */
#include <pthread.h>
#include <stdio.h>
#include <stdlib.h>
#include <string.h>
#include <time.h>

#include "program.h"

#include "broken.wasm.h"
#include "filter.wasm.h"
#include "hostile.wasm.h"
#include "letters.wasm.h"
#include "sink.wasm.h"
#include "source.wasm.h"

CANON_STREAM(u8, STRM_U8)
CANON_STREAM(char, STRM_CHAR)
CANON_FUTURE(u32, STRM_U32)

WASM2C_MODULE(source)
WASM2C_MODULE(filter)
WASM2C_MODULE(sink)
WASM2C_MODULE(broken)
WASM2C_MODULE(letters)
WASM2C_OTHER_MODULE(hostile, NULL, NULL)

enum { SOURCE, FILTER, SINK, GUESTS };

static const wasm2c_module *const modules[GUESTS] = {&source, &filter, &sink};

typedef struct {
    embedder all;
    wasm2c_guest *guests[GUESTS];
    /* The streams to the filter and to the sink. */
    uint32_t streams[GUESTS - 1];
} line;

static guest *of(const line *line, int k) { return &line->guests[k]->base; }

/* Three guests in a line, in a store of their own, about to pass on so many bytes. */
static void begin(line *line, const wasm2c_module *const modules[GUESTS], uint32_t size) {
    line->all = (embedder){.count = 0};
    must(strm_store_new(&line->all.store, 1, 100000, 100000) == STRM_DONE, "no store");
    for (int k = 0; k < GUESTS; k++) line->guests[k] = guest_of(&line->all, modules[k]);
    strm_pair first = between(of(line, SOURCE), of(line, FILTER), STRM_U8);
    strm_pair second = between(of(line, FILTER), of(line, SINK), STRM_U8);
    line->streams[0] = first.stream;
    line->streams[1] = second.stream;
    guest_run(of(line, SOURCE), 0, first.write, size);
    guest_run(of(line, FILTER), first.read, second.write, size);
    guest_run(of(line, SINK), second.read, 0, size);
}

static bool is_over(const line *line) {
    for (int k = 0; k < GUESTS; k++)
        if (of(line, k)->state == GUEST_RUNS) return false;
    return true;
}

/* So many rounds of turns at most; whether all are over. */
static bool turns(line *line, uint32_t rounds) {
    for (uint32_t round = 0; round < rounds && !is_over(line); round++) {
        bool moved = false;
        for (int k = 0; k < GUESTS; k++) moved |= guest_turn(of(line, k));
        must(moved, "each guest waits for another");
    }
    return is_over(line);
}

static void end(line *line) {
    for (int k = 0; k < GUESTS; k++) wasm2c_free(line->guests[k]);
    embedder_free(&line->all);
}

static uint64_t moved(const line *line, uint32_t stream) {
    strm_count count;
    must(strm_moved(&line->all.store, stream, &count) == STRM_DONE, "no count");
    return count.low;
}

/* What the sink has is what the source wrote, in capitals. */
static void finish(line *line, const char *name, uint32_t size) {
    static const char text[] = "A COUNT REPORTED IS A COUNT MOVED\n";
    void *sink = line->guests[SINK]->instance;
    uint32_t hash = 0;
    for (uint32_t k = 0; k < size; k++) hash = hash * 31 + (uint8_t)text[k % (sizeof text - 1)];
    for (int k = 0; k < GUESTS; k++) must(of(line, k)->state == GUEST_ENDED, "a guest trapped");
    must(WASM2C_EXPORT(sink, total)(sink) == size && WASM2C_EXPORT(sink, hash)(sink) == hash, "other bytes");
    must(moved(line, line->streams[1]) == size, "another count");
    printf("%s: %u bytes, hash %08x\n", name, size, hash);
    end(line);
}

static void run_text(void) {
    line line;
    enum { SIZE = 34 };
    begin(&line, modules, SIZE);
    must(turns(&line, 1000), "no end");
    const wasm2c_guest *sink = line.guests[SINK];
    fwrite(sink->memory->data + WASM2C_EXPORT(sink, first)(sink->instance), 1, SIZE, stdout);
    finish(&line, "text", SIZE);
}

static void run_pipe(uint32_t size) {
    line line;
    struct timespec from, to;
    clock_gettime(CLOCK_PROCESS_CPUTIME_ID, &from);
    begin(&line, modules, size);
    must(turns(&line, 0xffffffff), "no end");
    clock_gettime(CLOCK_PROCESS_CPUTIME_ID, &to);
    fprintf(stderr, "pipe: %.1f ms\n", (to.tv_sec - from.tv_sec) * 1e3 + (to.tv_nsec - from.tv_nsec) / 1e6);
    finish(&line, "pipe", size);
}

/* A store is used by one thread at a time, and so are the memories in it: who has the lock gives turns. */
typedef struct {
    line *line;
    pthread_mutex_t *lock;
    int first, step;
} worker;

static void *work(void *at) {
    worker *worker = at;
    for (bool over = false; !over;) {
        pthread_mutex_lock(worker->lock);
        for (int k = worker->first; k < GUESTS; k += worker->step) guest_turn(of(worker->line, k));
        over = is_over(worker->line);
        pthread_mutex_unlock(worker->lock);
    }
    return NULL;
}

static void run_threads(uint32_t size) {
    line line;
    pthread_mutex_t lock = PTHREAD_MUTEX_INITIALIZER;
    pthread_t threads[2];
    begin(&line, modules, size);
    worker workers[2] = {{&line, &lock, 0, 2}, {&line, &lock, 1, 2}};
    for (int k = 0; k < 2; k++) must(pthread_create(&threads[k], NULL, work, &workers[k]) == 0, "no thread");
    for (int k = 0; k < 2; k++) pthread_join(threads[k], NULL);
    finish(&line, "threads", size);
}

/* A line of which one guest traps, or ends, and keeps all it has: the others are told, and end. What had moved
   before has moved. */
static void run_broken(const char *name, int at, guest_state state, uint32_t size) {
    line line;
    const wasm2c_module *broken_line[GUESTS] = {&source, &filter, &sink};
    broken_line[at] = &broken;
    begin(&line, broken_line, size);
    must(turns(&line, 1000), "no end");
    for (int k = 0; k < GUESTS; k++) must(of(&line, k)->state == (k == at ? state : GUEST_ENDED), "another end");
    unsigned long long sent = moved(&line, line.streams[0]), came = moved(&line, line.streams[1]);
    printf("%s: %llu bytes from the source, %llu to the sink\n", name, sent, came);
    if (at == SOURCE) must(WASM2C_EXPORT(sink, total)(line.guests[SINK]->instance) == came, "another count");
    end(&line);
}

/* A guest that writes a letter that is none, to a read that waits or comes later: nothing of its write moves, it ends,
   and the reader is told that it is gone. */
static void stop_writer(line *line, bool reads_first) {
    wasm2c_guest *writer = guest_of(&line->all, &letters), *reader = guest_of(&line->all, &letters);
    strm_pair ends = between(&writer->base, &reader->base, STRM_CHAR);
    if (reads_first) guest_run(&reader->base, ends.read, 0, 0);
    guest_run(&writer->base, 0, ends.write, 0);
    if (!reads_first) guest_run(&reader->base, ends.read, 0, 0);
    must(writer->base.state == GUEST_TRAPPED && writer->base.refused == STRM_BAD_ITEM, "the writer goes on");
    wasm2c_free(writer);
    while (guest_turn(&reader->base)) continue;
    must(reader->base.state == GUEST_ENDED, "the reader waits");
    must(WASM2C_EXPORT(letters, total)(reader->instance) == 0, "a bad letter moved");
    wasm2c_free(reader);
}

/* A line in the same store goes on. */
static void run_bad_letter(uint32_t size) {
    line line;
    begin(&line, modules, size);
    stop_writer(&line, false);
    stop_writer(&line, true);
    must(turns(&line, 0xffffffff), "no end");
    finish(&line, "bad letter", size);
}

/* Two guests of which the writer traps in mid-stream: its module and its memory go before the reader is told, which
   then ends with what had moved. They have the numbers of two before them. How many bytes came. */
static uint64_t bury(line *line) {
    wasm2c_guest *writer = guest_of(&line->all, &broken), *reader = guest_of(&line->all, &sink);
    must(writer->base.number < GUESTS + 2 && reader->base.number < GUESTS + 2, "a number is not given again");
    strm_pair ends = between(&writer->base, &reader->base, STRM_U8);
    guest_run(&writer->base, 0, ends.write, 100000);
    guest_run(&reader->base, ends.read, 0, 0);
    do guest_turn(&reader->base);
    while (guest_turn(&writer->base) && writer->base.state == GUEST_RUNS);
    must(writer->base.state == GUEST_TRAPPED && reader->base.state == GUEST_RUNS, "another end");
    wasm2c_free(writer);
    while (guest_turn(&reader->base)) continue;
    must(reader->base.state == GUEST_ENDED, "the reader waits");
    uint64_t came = WASM2C_EXPORT(sink, total)(reader->instance);
    must(came == moved(line, ends.stream), "another count");
    wasm2c_free(reader);
    return came;
}

/* So many times at most, while a line in the same store goes on. */
static void run_buried(uint32_t size, uint32_t most) {
    line line;
    uint32_t lives = 0;
    uint64_t came = 0;
    begin(&line, modules, size);
    for (; lives < most && !turns(&line, 1); lives++) came += bury(&line);
    must(line.all.count <= GUESTS + 2 && strm_streams(&line.all.store) <= 3, "more numbers than there were at once");
    printf("buried: %u guests that trapped, of which %llu bytes came\n", lives, (unsigned long long)came);
    must(turns(&line, 0xffffffff), "no end");
    finish(&line, "buried", size);
}

/* One call of the hostile guest. It is entered again after a trap, which a runtime would not do. */
static void attack(void *instance, void *with) {
    (void)with;
    WASM2C_EXPORT(hostile, attack)(instance);
}

/* It makes and drops so many streams. */
static void flood(void *instance, void *rounds) { WASM2C_EXPORT(hostile, flood)(instance, *(uint32_t *)rounds); }

/* In a store of ten handles and ten places, whatever memory the process may have. */
static void run_flood(uint32_t rounds) {
    embedder all = {.count = 0};
    must(strm_store_new(&all.store, 1, 10, 10) == STRM_DONE, "no store");
    wasm2c_guest *enemy = guest_of(&all, &hostile);
    must(wasm2c_enter(enemy, flood, &rounds), "the hostile guest was refused a stream");
    printf("flood: %u streams made and dropped\n", rounds);
    wasm2c_free(enemy);
    embedder_free(&all);
}

/* A guest's memory, by its module; the store has the same, where it lies and as long as it is. */
static wasm_rt_memory_t *memory_of(line *line, const guest *guest, wasm_rt_memory_t *memory) {
    uint8_t *at = NULL;
    size_t len = 0;
    must(strm_memory_at(&line->all.store, guest->number, &at, &len) == STRM_DONE, "no memory");
    must(memory->data == at && memory->size == len && memory->pages * 65536 == len, "the store was not told of a memory");
    return memory;
}

typedef struct {
    wasm_rt_memory_t *memories[GUESTS];
    uint8_t *bytes[GUESTS];
    uint64_t moved[2];
} snapshot;

static snapshot look(line *line) {
    snapshot now = {.moved = {moved(line, line->streams[0]), moved(line, line->streams[1])}};
    now.memories[SOURCE] = WASM2C_EXPORT(source, memory)(line->guests[SOURCE]->instance);
    now.memories[FILTER] = WASM2C_EXPORT(filter, memory)(line->guests[FILTER]->instance);
    now.memories[SINK] = WASM2C_EXPORT(sink, memory)(line->guests[SINK]->instance);
    for (int k = 0; k < GUESTS; k++) {
        const wasm_rt_memory_t *memory = memory_of(line, of(line, k), now.memories[k]);
        now.bytes[k] = malloc(memory->size);
        must(now.bytes[k] != NULL, "no room");
        memcpy(now.bytes[k], memory->data, memory->size);
    }
    return now;
}

/* Whether guests and streams are as they were. */
static void hold(line *line, snapshot *before) {
    snapshot now = look(line);
    for (int k = 0; k < GUESTS; k++) {
        must(memcmp(before->bytes[k], now.bytes[k], now.memories[k]->size) == 0, "another guest's memory changed");
        free(before->bytes[k]);
        free(now.bytes[k]);
    }
    for (int k = 0; k < 2; k++) must(before->moved[k] == now.moved[k], "another guest's stream moved");
}

static void run_hostile(uint32_t size, uint32_t calls) {
    line line;
    uint32_t done = 0;
    begin(&line, modules, size);
    wasm2c_guest *enemy = guest_of(&line.all, &hostile);
    must(!turns(&line, 5), "over before the attack");
    snapshot before = look(&line);
    for (uint32_t k = 0; k < calls; k++) done += wasm2c_enter(enemy, attack, NULL);
    hold(&line, &before);
    memory_of(&line, &enemy->base, WASM2C_EXPORT(hostile, memory)(enemy->instance));
    must(WASM2C_EXPORT(hostile, wrong)(enemy->instance) == 0, "memory.grow did or answered something else");
    printf("hostile: %u calls, %u done, %u refused, its memory grew %u times\n", calls, done, calls - done,
           WASM2C_EXPORT(hostile, grown)(enemy->instance));
    wasm2c_free(enemy);
    must(turns(&line, 0xffffffff), "no end");
    finish(&line, "hostile", size);
}

/* `guests BYTES`: all. `guests pipe BYTES`: the second alone, which is timed. `guests flood STREAMS`: the hostile
   guest alone, which makes and drops so many. */
int main(int count, char **words) {
    uint32_t size = count > 1 ? (uint32_t)strtoul(words[count - 1], NULL, 10) : 67108864;
    wasm_rt_init();
    if (count > 2) {
        (strcmp(words[1], "flood") == 0 ? run_flood : run_pipe)(size);
        return 0;
    }
    run_text();
    run_pipe(size);
    run_threads(size);
    run_broken("trapped source", SOURCE, GUEST_TRAPPED, 100000);
    run_broken("trapped filter", FILTER, GUEST_TRAPPED, 100000);
    run_broken("trapped sink", SINK, GUEST_TRAPPED, 100000);
    run_broken("ended source", SOURCE, GUEST_ENDED, 0);
    run_broken("ended sink", SINK, GUEST_ENDED, 0);
    run_bad_letter(100000);
    run_buried(size, 100);
    run_hostile(size, 100000);
    return 0;
}
