// Two guests pass bytes, pairs and a value, by the calls of strm.hpp: the store moves, and goes to another thread.
#include "strm.hpp"

#include <cstdio>
#include <cstdlib>
#include <cstring>
#include <thread>

using strm::Code;
using strm::Guest;
using strm::Payload;
using strm::Scalar;
using strm::Store;

namespace {

// What an embedder who knows of nothing that may be refused here does with a status.
void must(strm::Status status) {
    if (status) return;
    std::fprintf(stderr, "%s\n", status.name());
    std::exit(1);
}

template <typename T> T must(strm::Result<T> result) {
    must(result.status);
    return std::move(*result);
}

void show(const char *what, Code code) {
    static const char *const outcomes[] = {"completed", "dropped", "cancelled", "blocked"};
    std::printf("%s: %s, %u items\n", what, outcomes[int(code.outcome())], code.count());
}

void show(const char *what, strm::Event event) {
    if (event) show(what, *event);
    else std::printf("%s: nothing\n", what);
}

// A write waits, a read meets it, and the writer is told by its event.
void pass_bytes(Store &store, Guest writer, Guest reader) {
    auto [write, read, stream] = must(store.stream_between(writer, reader, Scalar::U8));
    strm::Memory from = must(store.memory(writer)), to = must(store.memory(reader));
    std::memcpy(from.data + 100, "hello", 5);
    show("write", must(store.write(write, 100, 5)));
    show("read", must(store.read(read, 0, 8)));
    std::printf("%.5s\n", reinterpret_cast<char *>(to.data));
    show("event", must(store.take_event(write)));
    show("event", must(store.take_event(write)));
    std::printf("moved: %llu\n", static_cast<unsigned long long>(must(store.moved(stream)).low));
    must(store.drop(read));
    // The write end has nothing under way, and is told as well that the other end is gone.
    show("event of an idle end", must(store.take_event(write)));
    std::printf("write: %s\n", store.write(write, 100, 5).status.name());
    must(store.drop(write));
}

// A tuple of a u8 and a u32: its fields lie as the Canonical ABI has them, at 0 and 4.
struct PairItem {
    uint8_t kind;
    uint32_t value;
};

void pass_pairs(Store &store, Guest writer, Guest reader) {
    const PairItem items[] = {{1, 1000}, {2, 2000}};
    PairItem got[2] = {};
    auto pair = must(store.stream_between(writer, reader, Payload::tuple(Scalar::U8, Scalar::U32)));
    must(store.memory_write(writer, 200, items, sizeof items));
    show("read of pairs", must(store.read(pair.read, 400, 4)));
    show("write of pairs", must(store.write(pair.write, 200, 2)));
    must(store.memory_read(reader, 400, got, sizeof got));
    std::printf("%u %u, %u %u\n", got[0].kind, got[0].value, got[1].kind, got[1].value);
    show("cancel", must(store.cancel(pair.read)));
    must(store.drop(pair.write));
    must(store.drop(pair.read));
}

// What a reading ended by: nothing more than that, or an error of three.
void pass_a_result(Store &store, Guest writer, Guest reader) {
    auto done = must(Payload::spelled({STRM_WORD_RESULT, STRM_WORD_NOTHING, STRM_WORD_ENUM(3)}));
    const uint8_t items[2][2] = {{1, 3}, {1, 2}};
    auto [write, read, number] = must(store.future_between(writer, reader, done));
    must(store.memory_write(writer, 0, items, sizeof items));
    show("read of a result", must(store.read(read, 8)));
    std::printf("write of error 3: %s\n", store.write(write, 0).status.name());
    show("write of error 2", must(store.write(write, 2)));
    show("event", must(store.take_event(read)));
    std::printf("%u %u\n", must(store.memory(reader)).data[8], must(store.memory(reader)).data[9]);
    must(store.drop(read));
    must(store.drop(write));
    std::printf("an option of nothing that is there: %s\n", Payload::spelled({STRM_WORD_OPTION}).status.name());
}

// The read end of a future moves, loose in between, and its guest hears of the value by a set.
void pass_a_value(Store &store, Guest writer, Guest reader) {
    auto [write, read, number] = must(store.future_new(writer, Scalar::U32));
    auto there = must(store.lower(must(store.lift(read)), reader));
    strm::Set set = must(store.set_new(reader));
    must(store.join(set, there));
    show("read of a value", must(store.read(there, 0)));
    std::printf("poll: %s\n", must(store.poll(set)) ? "an event" : "nothing");
    show("write of a value", must(store.write(write, 0)));
    auto member = must(store.poll(set));
    if (member) show("poll", member->code);
    std::printf("the future is number %u; drop of the set: %s\n", number, store.drop(set).name());
    must(store.leave(there));
    must(store.drop(set));
    must(store.drop(there));
    must(store.drop(write));
}

void tell_an_error(Store &store, Guest first, Guest second) {
    must(store.memory_write(first, 0, "no more", 7));
    auto mine = must(store.error_context_new(first, 0, 7));
    auto theirs = must(store.transfer(mine, second));
    uint32_t len = must(store.message(theirs, 64));
    std::printf("message: %.*s\n", int(len), reinterpret_cast<char *>(must(store.memory(second)).data + 64));
    must(store.drop(mine));
    must(store.drop(theirs));
}

// A char that is none stops its writer alone: what is before it moves, and the reader reads on once the write is gone.
void stop_a_writer(Store &store, Guest writer, Guest reader) {
    const uint32_t items[] = {'a', 0xd800, 'b'};
    auto [write, read, stream] = must(store.stream_between(writer, reader, Scalar::Char));
    must(store.memory_write(writer, 0, items, sizeof items));
    show("write of chars", must(store.write(write, 0, 3)));
    std::printf("read of chars: %s\n", store.read(read, 0, 2).status.name());
    auto item = must(store.find_bad_item(read, 0, 2));
    std::printf("item %u of guest %u is none; it is of the write end: %s\n", item.index, item.write.guest.number,
                item.write.handle == write.handle ? "yes" : "no");
    show("read of one char", must(store.read(read, 0, 1)));
    show("cancel", must(store.cancel(item.write)));
    std::printf("a read now: %s\n", store.find_bad_item(read, 0, 2).status.name());
    must(store.drop(write));
    show("read of chars", must(store.read(read, 0, 2)));
    must(store.drop(read));
    std::printf("moved: %llu\n", static_cast<unsigned long long>(must(store.moved(stream)).low));
}

// Each guest has its share, and a handle more than that is refused.
void bound(Store &store, Guest guest) {
    must(store.set_guest_limits(guest, {0, 1, 2}));
    std::printf("limit of %u handles: %s\n", must(store.guest_limits(guest)).handles,
                store.stream_new(guest, Payload()).status.name());
    std::printf("handles: %u\n", must(store.handle_count(guest)));
}

// What a guest's handles are of is asked of the store: no table of them is kept here.
void list(const Store &store, Guest guest) {
    for (auto told = store.next_handle(guest, 0); told && told->handle != 0; told = store.next_handle(guest, told->handle)) {
        bool writes = strm::as_end<strm::StreamWriter>(guest, *told).has_value();
        bool waits = strm::as_end<strm::FutureReader>(guest, *told).has_value();
        std::printf("handle %u: the %s\n", told->handle,
                    writes ? "write end of a stream" : waits ? "read end of a future" : "one of something else");
    }
}

// Who has something to be told: a scheduler gives these guests their turns.
void show_ready(Store &store) {
    std::printf("ready:");
    auto ready = must(store.next_ready_guest(0));
    if (!ready) std::printf(" no guest");
    for (; ready; ready = must(store.next_ready_guest(ready->number + 1))) std::printf(" guest %u", ready->number);
    std::printf("\n");
}

// A guest ends with all that it has, the others are told, and another begins under its number.
void end_a_guest(Store &store, Guest guest, Guest other) {
    auto bytes = must(store.stream_between(guest, other, Scalar::U8));
    auto value = must(store.future_between(other, guest, Scalar::Char));
    must(store.write(bytes.write, 0, 9));
    must(store.read(value.read, 0));
    list(store, guest);
    std::printf("begin: %s\n", store.begin_guest(guest, 64).name());
    show_ready(store);
    must(store.end_guest(guest));
    show_ready(store);
    show("event", must(store.take_event(bytes.read)));
    show("event of the future", must(store.take_event(value.write)));
    std::printf("cancel of a handle that is gone: %s\n", store.cancel(value.read).status.name());
    must(store.drop(bytes.read));
    must(store.drop(value.write));
    must(store.begin_guest(guest, 64));
    auto again = must(store.stream_between(guest, other, Scalar::U8));
    std::printf("begun with %zu bytes, and handle %u\n", must(store.memory(guest)).size, again.write.handle);
    must(store.drop(again.write));
    must(store.drop(again.read));
}

}  // namespace

int main() {
    std::printf("version of header and archive: %s\n", strm::is_version_of_header() ? "one" : "two");
    Store store = must(Store::make(7, 100, 100));
    Guest writer = must(store.add_guest(65536)), reader = must(store.add_guest(65536));
    pass_bytes(store, writer, reader);

    // The store goes to another thread and comes back; what is left behind is none.
    Store moved;
    std::thread([&moved, store = std::move(store), writer, reader]() mutable {
        pass_pairs(store, writer, reader);
        moved = std::move(store);
    }).join();
    std::printf("left behind: %s\n", store.add_guest(1).status.name());
    pass_a_value(moved, writer, reader);
    pass_a_result(moved, writer, reader);
    tell_an_error(moved, writer, reader);
    stop_a_writer(moved, writer, reader);
    end_a_guest(moved, writer, reader);
    bound(moved, writer);
    std::printf("tag %llu\n", static_cast<unsigned long long>(moved.tag()));
}
