// The streams and futures of a WebAssembly component runtime, for C++17: the calls of strm.h, whose head says what
// the caller owes, in which order a call is refused, and what reads, writes, cancels and events answer.
//
// A Store frees itself, moves, and may go to another thread. Each call answers by value: a Status, or a Result, which
// is a status and a value. Nothing is thrown, and neither exceptions nor run-time types are needed. An end is named
// by its guest, its payload and its handle together, and the type of that name says of what it is an end, and which
// one: a read of a write end, or a count for a future, is not compiled.
#ifndef STRM_HPP
#define STRM_HPP
#if __cplusplus < 201703L
#error "strm.hpp needs C++17"
#endif
#include <cassert>
#include <initializer_list>
#include <optional>
#include <utility>

#include "strm.h"

namespace strm {

// What a call answered: STRM_DONE, or another of the statuses of strm.h.
class [[nodiscard]] Status {
  public:
    constexpr Status(strm_status number = STRM_DONE) noexcept : number_(number) {}
    constexpr explicit operator bool() const noexcept { return number_ == STRM_DONE; }
    constexpr strm_status number() const noexcept { return number_; }
    const char *name() const noexcept { return strm_status_name(number_); }
    friend constexpr bool operator==(Status a, Status b) noexcept { return a.number_ == b.number_; }
    friend constexpr bool operator!=(Status a, Status b) noexcept { return a.number_ != b.number_; }

  private:
    strm_status number_;
};

// What a call answered, and what it told where that is STRM_DONE; else the value tells nothing.
template <typename T> struct [[nodiscard]] Result {
    Status status;
    T value;

    constexpr explicit operator bool() const noexcept { return bool(status); }
    constexpr T &operator*() & noexcept { return assert(status), value; }
    constexpr const T &operator*() const & noexcept { return assert(status), value; }
    constexpr T &&operator*() && noexcept { return assert(status), std::move(value); }
    constexpr T *operator->() noexcept { return assert(status), &value; }
    constexpr const T *operator->() const noexcept { return assert(status), &value; }
};

enum class Outcome { Completed, Dropped, Cancelled, Blocked };

// What a read, a write or a cancel answers, and what an event tells: how it ended, and how many items moved.
class Code {
  public:
    constexpr Code(uint32_t word = STRM_BLOCKED) noexcept : word_(word) {}
    constexpr bool is_blocked() const noexcept { return word_ == STRM_BLOCKED; }
    constexpr Outcome outcome() const noexcept { return is_blocked() ? Outcome::Blocked : Outcome(STRM_RESULT(word_)); }
    constexpr uint32_t count() const noexcept { return is_blocked() ? 0 : STRM_COUNT(word_); }
    // The Canonical ABI's word, which a guest is answered.
    constexpr uint32_t word() const noexcept { return word_; }
    friend constexpr bool operator==(Code a, Code b) noexcept { return a.word_ == b.word_; }
    friend constexpr bool operator!=(Code a, Code b) noexcept { return a.word_ != b.word_; }

  private:
    uint32_t word_;
};

// What an end is told; none where there is nothing to tell.
using Event = std::optional<Code>;

enum class Scalar : uint32_t {
    Bool = STRM_BOOL,
    S8 = STRM_S8,
    U8 = STRM_U8,
    S16 = STRM_S16,
    U16 = STRM_U16,
    S32 = STRM_S32,
    U32 = STRM_U32,
    S64 = STRM_S64,
    U64 = STRM_U64,
    Char = STRM_CHAR,
    F32 = STRM_F32,
    F64 = STRM_F64,
};

// What one item is: nothing, a scalar, a tuple of scalars, or a type that holds others.
class Payload {
  public:
    constexpr Payload() noexcept : word_(STRM_NOTHING) {}
    constexpr Payload(Scalar scalar) noexcept : word_(strm_payload(scalar)) {}
    // Any word, as a guest's type was made into one: calls refuse what is no payload's, STRM_UNKNOWN_PAYLOAD.
    static constexpr Payload of(strm_payload word) noexcept {
        Payload payload;
        payload.word_ = word;
        return payload;
    }
    template <typename... Scalars> static constexpr Payload tuple(Scalars... scalars) noexcept {
        static_assert(1 <= sizeof...(scalars) && sizeof...(scalars) <= 8, "a tuple has one to eight scalars");
        strm_payload word = STRM_TUPLE;
        int index = 0;
        ((word |= STRM_FIELD(index++, Scalar(scalars))), ...);
        return of(word);
    }
    // A type that holds others, by the words of strm.h: {STRM_WORD_RESULT, STRM_WORD_NOTHING, STRM_WORD_ENUM(3)}.
    static Result<Payload> spelled(std::initializer_list<uint8_t> words) noexcept {
        Result<Payload> built{};
        built.status = strm_type_of(words.begin(), words.size(), &built.value.word_);
        return built;
    }
    constexpr strm_payload word() const noexcept { return word_; }
    friend constexpr bool operator==(Payload a, Payload b) noexcept { return a.word_ == b.word_; }
    friend constexpr bool operator!=(Payload a, Payload b) noexcept { return a.word_ != b.word_; }

  private:
    strm_payload word_;
};

enum class Kind { Stream, Future };
enum class Side { Writing, Reading };

// The type's word of a stream or future of these items.
constexpr strm_type type_of(Kind kind, Payload payload) noexcept {
    return payload.word() | (kind == Kind::Future ? STRM_FUTURE : 0);
}

// A guest of a store, by its number.
struct Guest {
    uint32_t number = 0;
};

// An end of a stream or future, by its handle in the table of the guest that has it.
template <Kind of, Side at> struct End {
    static constexpr Kind kind = of;
    static constexpr Side side = at;

    Guest guest;
    Payload payload;
    uint32_t handle = 0;
};
using StreamWriter = End<Kind::Stream, Side::Writing>;
using StreamReader = End<Kind::Stream, Side::Reading>;
using FutureWriter = End<Kind::Future, Side::Writing>;
using FutureReader = End<Kind::Future, Side::Reading>;

// The end that a handle of a guest is told to be of, if it is such a one, as in as_end<StreamWriter>(guest, told).
template <typename E> std::optional<E> as_end(Guest guest, const strm_handle &told) noexcept {
    bool is_kind = (told.type & STRM_FUTURE) == type_of(E::kind, Payload());
    bool is_side = told.side == (E::side == Side::Writing ? STRM_SIDE_WRITING : STRM_SIDE_READING);
    if (told.kind != STRM_KIND_END || !is_kind || !is_side) return std::nullopt;
    return E{guest, Payload::of(told.type & ~STRM_FUTURE), told.handle};
}

// The two ends of what was made, and its number.
template <Kind kind> struct Pair {
    End<kind, Side::Writing> write;
    End<kind, Side::Reading> read;
    uint32_t stream = 0;
};
using StreamPair = Pair<Kind::Stream>;
using FuturePair = Pair<Kind::Future>;

// A read end that no guest has, by the number of its stream or future.
template <Kind kind> struct Loose {
    Payload payload;
    uint32_t stream = 0;
};

// An item that is none of its type: the write end of the guest that writes it, and the item's place among all
// items of the write, from 0.
template <Kind kind> struct BadItem {
    End<kind, Side::Writing> write;
    uint32_t index = 0;
};

// A waitable set, by its handle in the table of its guest.
struct Set {
    Guest guest;
    uint32_t handle = 0;
};

// The member of a set that was told something: its handle in the table of the set's guest, and what it was told.
struct Member {
    uint32_t handle = 0;
    Code code;
};

// An error context, by a handle in the table of a guest.
struct ErrorContext {
    Guest guest;
    uint32_t handle = 0;
};

// A guest's memory, or bytes for one. It lies there until its guest ends, its store is given up, or it is told that it
// moved, and is read and written between calls only.
struct Memory {
    uint8_t *data = nullptr;
    size_t size = 0;

    uint8_t *begin() const noexcept { return data; }
    uint8_t *end() const noexcept { return data + size; }
    uint8_t &operator[](size_t at) const noexcept { return assert(at < size), data[at]; }
};

// Whether the archive is the one that this header was written for.
inline bool is_version_of_header() noexcept { return strm_version() == STRM_VERSION; }

// Guests and the streams and futures between them; or none, which answers each call by STRM_NO_STORE.
class Store {
  public:
    Store() noexcept = default;
    Store(Store &&other) noexcept : store_(std::exchange(other.store_, {nullptr})) {}
    Store &operator=(Store &&other) noexcept {
        if (this != &other) {
            strm_store_free(&store_);
            store_ = std::exchange(other.store_, {nullptr});
        }
        return *this;
    }
    Store(const Store &) = delete;
    Store &operator=(const Store &) = delete;
    ~Store() { strm_store_free(&store_); }

    // A store without guests, which keeps so many handles and places at most.
    static Result<Store> make(uint64_t tag, size_t handles, uint32_t places) noexcept {
        Result<Store> made{};
        made.status = strm_store_new(&made.value.store_, tag, handles, places);
        return made;
    }

    explicit operator bool() const noexcept { return store_.at != nullptr; }
    // For a call of strm.h.
    strm_store *get() noexcept { return &store_; }
    const strm_store *get() const noexcept { return &store_; }

    uint64_t tag() const noexcept { return strm_tag(&store_); }
    uint32_t streams() const noexcept { return strm_streams(&store_); }
    Result<strm_count> moved(uint32_t stream) const noexcept {
        return told<strm_count>([&](strm_count *out) { return strm_moved(&store_, stream, out); });
    }
    Result<strm_type> transmit_index(uint32_t stream) const noexcept {
        return told<strm_type>([&](strm_type *out) { return strm_transmit_index(&store_, stream, out); });
    }

    Result<Guest> add_guest(uint32_t size) noexcept {
        return told<Guest>([&](Guest *out) { return strm_add_guest(&store_, size, &out->number); });
    }
    // Bytes of the caller's, which stay its own: strm.h says for how long they are lent.
    Result<Guest> add_guest_at(Memory bytes) noexcept {
        return told<Guest>([&](Guest *out) { return strm_add_guest_at(&store_, bytes.data, bytes.size, &out->number); });
    }
    Status memory_grown(Guest guest, Memory more) noexcept {
        return strm_memory_grown(&store_, guest.number, more.data, more.size);
    }
    Status memory_moved(Guest guest, Memory bytes) noexcept {
        return strm_memory_moved(&store_, guest.number, bytes.data, bytes.size);
    }
    // All its ends are cancelled and dropped; its handles are none any more, and nor is its memory. Bytes that the caller
    // lent are the caller's again.
    Status end_guest(Guest guest) noexcept { return strm_end_guest(&store_, guest.number); }
    // Another guest under the number of one that has ended: a handle of that one, if it is kept, may be this one's.
    Status begin_guest(Guest guest, uint32_t size) noexcept { return strm_begin_guest(&store_, guest.number, size); }
    Status begin_guest_at(Guest guest, Memory bytes) noexcept {
        return strm_begin_guest_at(&store_, guest.number, bytes.data, bytes.size);
    }
    Result<Memory> memory(Guest guest) noexcept {
        return told<Memory>([&](Memory *out) { return strm_memory_at(&store_, guest.number, &out->data, &out->size); });
    }
    Status memory_write(Guest guest, uint32_t address, const void *bytes, size_t len) noexcept {
        return strm_memory_write(&store_, guest.number, address, static_cast<const uint8_t *>(bytes), len);
    }
    Status memory_read(Guest guest, uint32_t address, void *out, size_t len) const noexcept {
        return strm_memory_read(&store_, guest.number, address, static_cast<uint8_t *>(out), len);
    }

    Result<StreamPair> stream_new(Guest guest, Payload payload) noexcept {
        return pair<Kind::Stream>(guest, guest, payload, [&](strm_pair *out) {
            return strm_stream_new(&store_, guest.number, payload.word(), out);
        });
    }
    Result<FuturePair> future_new(Guest guest, Payload payload) noexcept {
        return pair<Kind::Future>(guest, guest, payload, [&](strm_pair *out) {
            return strm_future_new(&store_, guest.number, payload.word(), out);
        });
    }
    // From a guest that writes to one that reads.
    template <Kind kind> Result<Pair<kind>> new_between(Guest writer, Guest reader, Payload payload) noexcept {
        return pair<kind>(writer, reader, payload, [&](strm_pair *out) {
            return strm_new_between(&store_, writer.number, reader.number, type_of(kind, payload), out);
        });
    }
    Result<StreamPair> stream_between(Guest writer, Guest reader, Payload payload) noexcept {
        return new_between<Kind::Stream>(writer, reader, payload);
    }
    Result<FuturePair> future_between(Guest writer, Guest reader, Payload payload) noexcept {
        return new_between<Kind::Future>(writer, reader, payload);
    }

    Result<Code> write(StreamWriter end, uint32_t address, uint32_t count) noexcept {
        return code(strm_stream_write, end, address, count);
    }
    Result<Code> read(StreamReader end, uint32_t address, uint32_t count) noexcept {
        return code(strm_stream_read, end, address, count);
    }
    Result<Code> write(FutureWriter end, uint32_t address) noexcept { return code(strm_future_write, end, address); }
    Result<Code> read(FutureReader end, uint32_t address) noexcept { return code(strm_future_read, end, address); }
    // The item at which a read or write with these arguments stops, once it answered STRM_BAD_ITEM.
    template <Side side>
    Result<BadItem<Kind::Stream>> find_bad_item(End<Kind::Stream, side> end, uint32_t address, uint32_t count) const noexcept {
        return bad_item(end, address, count);
    }
    template <Side side>
    Result<BadItem<Kind::Future>> find_bad_item(End<Kind::Future, side> end, uint32_t address) const noexcept {
        return bad_item(end, address, 1);
    }
    Result<Code> cancel(StreamWriter end) noexcept { return code(strm_stream_cancel_write, end); }
    Result<Code> cancel(StreamReader end) noexcept { return code(strm_stream_cancel_read, end); }
    Result<Code> cancel(FutureWriter end) noexcept { return code(strm_future_cancel_write, end); }
    Result<Code> cancel(FutureReader end) noexcept { return code(strm_future_cancel_read, end); }
    Status drop(StreamWriter end) noexcept { return of_end(strm_stream_drop_writable, end); }
    Status drop(StreamReader end) noexcept { return of_end(strm_stream_drop_readable, end); }
    Status drop(FutureWriter end) noexcept { return of_end(strm_future_drop_writable, end); }
    Status drop(FutureReader end) noexcept { return of_end(strm_future_drop_readable, end); }

    template <Kind kind, Side side> Result<Event> take_event(End<kind, side> end) noexcept {
        uint32_t word = STRM_NO_EVENT;
        Status status = strm_take_event(&store_, end.guest.number, end.handle, &word);
        return {status, event(word)};
    }

    // The end as the guest `to` has it; the one that moved is gone.
    template <Kind kind, Side side> Result<End<kind, side>> transfer(End<kind, side> end, Guest to) noexcept {
        auto call = kind == Kind::Stream ? strm_stream_transfer : strm_future_transfer;
        End<kind, side> moved{to, end.payload, 0};
        Status status = call(&store_, end.guest.number, end.payload.word(), end.handle, to.number, &moved.handle);
        return {status, moved};
    }
    template <Kind kind> Result<Loose<kind>> lift(End<kind, Side::Reading> end) noexcept {
        Loose<kind> loose{end.payload, 0};
        Status status =
            strm_lift(&store_, end.guest.number, type_of(kind, end.payload), end.handle, &loose.stream);
        return {status, loose};
    }
    template <Kind kind> Result<End<kind, Side::Reading>> lower(Loose<kind> loose, Guest guest) noexcept {
        End<kind, Side::Reading> end{guest, loose.payload, 0};
        Status status =
            strm_lower(&store_, loose.stream, guest.number, type_of(kind, loose.payload), &end.handle);
        return {status, end};
    }
    template <Kind kind> Status close(Loose<kind> loose) noexcept { return strm_close(&store_, loose.stream); }

    Result<Set> set_new(Guest guest) noexcept {
        return told<Set>([&](Set *out) { return out->guest = guest, strm_set_new(&store_, guest.number, &out->handle); });
    }
    // The end is of the set's guest.
    template <Kind kind, Side side> Status join(Set set, End<kind, side> end) noexcept {
        return strm_set_join(&store_, set.guest.number, set.handle, end.handle);
    }
    template <Kind kind, Side side> Status leave(End<kind, side> end) noexcept {
        return strm_set_join(&store_, end.guest.number, 0, end.handle);
    }
    // The member that was told something, if one had something to be told.
    Result<std::optional<Member>> poll(Set set) noexcept {
        strm_member member{0, STRM_NO_EVENT};
        Status status = strm_set_poll(&store_, set.guest.number, set.handle, &member);
        if (member.code == STRM_NO_EVENT) return {status, std::nullopt};
        return {status, Member{member.handle, Code(member.code)}};
    }
    Status drop(Set set) noexcept { return strm_set_drop(&store_, set.guest.number, set.handle); }

    Result<ErrorContext> error_context_new(Guest guest, uint32_t address, uint32_t len) noexcept {
        return context(guest, [&](uint32_t *out) {
            return strm_error_context_new(&store_, guest.number, address, len, out);
        });
    }
    // How many bytes the message has, which lies at the address then.
    Result<uint32_t> message(ErrorContext it, uint32_t address) noexcept {
        return told<uint32_t>([&](uint32_t *out) {
            return strm_error_context_message(&store_, it.guest.number, it.handle, address, out);
        });
    }
    // A handle of the guest `to` beside the one that there is.
    Result<ErrorContext> transfer(ErrorContext it, Guest to) noexcept {
        return context(to, [&](uint32_t *out) {
            return strm_error_context_transfer(&store_, it.guest.number, it.handle, to.number, out);
        });
    }
    Result<uint32_t> rep(ErrorContext it) const noexcept {
        return told<uint32_t>([&](uint32_t *out) {
            return strm_error_context_rep(&store_, it.guest.number, it.handle, out);
        });
    }
    Result<ErrorContext> error_context_lower(uint32_t rep, Guest guest) noexcept {
        return context(guest, [&](uint32_t *out) { return strm_error_context_lower(&store_, rep, guest.number, out); });
    }
    Status drop(ErrorContext it) noexcept { return strm_error_context_drop(&store_, it.guest.number, it.handle); }

    Result<strm_handle> handle_info(Guest guest, uint32_t handle) const noexcept {
        return told<strm_handle>([&](strm_handle *out) {
            return strm_handle_info(&store_, guest.number, handle, out);
        });
    }
    // The least handle above `after`; its number is 0 where there is none.
    Result<strm_handle> next_handle(Guest guest, uint32_t after) const noexcept {
        return told<strm_handle>([&](strm_handle *out) {
            return strm_next_handle(&store_, guest.number, after, out);
        });
    }
    Result<uint32_t> handle_count(Guest guest) const noexcept {
        return told<uint32_t>([&](uint32_t *out) { return strm_handle_count(&store_, guest.number, out); });
    }

    // The least guest from a number on that has an end which is to be told something; none where there is none.
    Result<std::optional<Guest>> next_ready_guest(uint32_t from) noexcept {
        uint32_t number = STRM_NO_GUEST;
        Status status = strm_next_ready_guest(&store_, from, &number);
        if (number == STRM_NO_GUEST) return {status, std::nullopt};
        return {status, Guest{number}};
    }

    Status set_guest_limits(Guest guest, const strm_limits &limits) noexcept {
        return strm_set_guest_limits(&store_, guest.number, limits.handles, limits.ends, limits.bytes);
    }
    Result<strm_limits> guest_limits(Guest guest) const noexcept {
        return told<strm_limits>([&](strm_limits *out) { return strm_guest_limits(&store_, guest.number, out); });
    }

  private:
    strm_store store_{nullptr};

    template <typename T, typename Call> static Result<T> told(Call call) noexcept {
        Result<T> result{};
        result.status = call(&result.value);
        return result;
    }

    template <typename Call> static Result<ErrorContext> context(Guest guest, Call call) noexcept {
        return told<ErrorContext>([&](ErrorContext *out) { return out->guest = guest, call(&out->handle); });
    }

    template <Kind kind, typename Call>
    static Result<Pair<kind>> pair(Guest writer, Guest reader, Payload payload, Call call) noexcept {
        strm_pair made{0, 0, 0};
        Status status = call(&made);
        return {status, {{writer, payload, made.write}, {reader, payload, made.read}, made.stream}};
    }

    // A call of an end that puts a code at its `out`.
    template <typename Call, typename E, typename... Numbers>
    Result<Code> code(Call call, E end, Numbers... numbers) noexcept {
        uint32_t word = STRM_BLOCKED;
        Status status = call(&store_, end.guest.number, end.payload.word(), end.handle, numbers..., &word);
        return {status, Code(word)};
    }

    // The end and its writer's are of one stream, so they have one payload.
    template <Kind kind, Side side>
    Result<BadItem<kind>> bad_item(End<kind, side> end, uint32_t address, uint32_t count) const noexcept {
        strm_bad_item item{0, 0, 0};
        Status status = strm_find_bad_item(&store_, side == Side::Writing ? STRM_SIDE_WRITING : STRM_SIDE_READING,
                                           end.guest.number, type_of(kind, end.payload), end.handle, address, count, &item);
        return {status, {{Guest{item.guest}, end.payload, item.handle}, item.index}};
    }

    template <typename Call, typename E> Status of_end(Call call, E end) noexcept {
        return call(&store_, end.guest.number, end.payload.word(), end.handle);
    }

    static Event event(uint32_t word) noexcept {
        if (word == STRM_NO_EVENT) return std::nullopt;
        return Code(word);
    }
};

}  // namespace strm
#endif
