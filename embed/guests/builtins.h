/* The built-ins by their names, as guests import them, for an engine that looks them up, in C++17. They are those of a
   Guest: `guest`, whose memory is lent to the store and told of before each of them, or `buffered_guest`. */
#ifndef BUILTINS_H
#define BUILTINS_H
#include <cstdint>
#include <functional>
#include <map>
#include <optional>
#include <string>

#include "buffered.h"

/* Of how many words it is, how many it answers, and its call of the store. */
template <typename Guest> struct Builtin {
    size_t params, results;
    std::function<strm_status(Guest *, const uint32_t *words, uint32_t *out)> call;
};

/* THE CALLS THAT NAME A PLACE, OR END A READ OR WRITE */

template <typename Guest> struct Places;

template <> struct Places<buffered_guest> {
    static guest *base(buffered_guest *g) { return &g->base; }
    static constexpr auto read = buffered_read, write = buffered_write;
    static constexpr auto cancel_read = buffered_cancel_read, cancel_write = buffered_cancel_write;
    static constexpr auto poll = buffered_poll;
    static constexpr auto error_context_new = buffered_error_context_new;
};

template <> struct Places<guest> {
    static guest *base(guest *g) { return g; }

    static strm_status read_once(guest *g, strm_type type, uint32_t handle, uint32_t at, uint32_t count, uint32_t *code) {
        strm_store *store = &g->embedder->store;
        return type & STRM_FUTURE ? strm_future_read(store, g->number, type & ~STRM_FUTURE, handle, at, code)
                                  : strm_stream_read(store, g->number, type, handle, at, count, code);
    }

    static strm_status read(guest *g, strm_type type, uint32_t handle, uint32_t at, uint32_t count, uint32_t *code) {
        strm_status status = read_once(g, type, handle, at, count, code);
        return status == STRM_BAD_ITEM && guest_stop_writer(g, type, handle, at, count)
                   ? read_once(g, type, handle, at, count, code)
                   : status;
    }

    static strm_status write(guest *g, strm_type type, uint32_t handle, uint32_t at, uint32_t count, uint32_t *code) {
        strm_store *store = &g->embedder->store;
        return type & STRM_FUTURE ? strm_future_write(store, g->number, type & ~STRM_FUTURE, handle, at, code)
                                  : strm_stream_write(store, g->number, type, handle, at, count, code);
    }

    static strm_status cancel_read(guest *g, strm_type type, uint32_t handle, uint32_t *code) {
        auto cancel = type & STRM_FUTURE ? strm_future_cancel_read : strm_stream_cancel_read;
        return cancel(&g->embedder->store, g->number, type & ~STRM_FUTURE, handle, code);
    }

    static strm_status cancel_write(guest *g, strm_type type, uint32_t handle, uint32_t *code) {
        auto cancel = type & STRM_FUTURE ? strm_future_cancel_write : strm_stream_cancel_write;
        return cancel(&g->embedder->store, g->number, type & ~STRM_FUTURE, handle, code);
    }

    /* The place is tested before an event is taken. */
    static strm_status poll(guest *g, uint32_t set, uint32_t at, uint32_t *event) {
        uint32_t told[2];
        strm_store *store = &g->embedder->store;
        strm_status status = strm_memory_read(store, g->number, at, reinterpret_cast<uint8_t *>(told), sizeof told);
        if (status == STRM_DONE) status = guest_poll(g, set, event, told);
        if (status != STRM_DONE) return status;
        return strm_memory_write(store, g->number, at, reinterpret_cast<const uint8_t *>(told), sizeof told);
    }

    static strm_status error_context_new(guest *g, uint32_t at, uint32_t len, uint32_t *handle) {
        return strm_error_context_new(&g->embedder->store, g->number, at, len, handle);
    }
};

/* THOSE OF STREAMS AND FUTURES */

inline strm_status make_ends(guest *g, strm_type type, uint32_t *out) {
    strm_pair pair{};
    auto make = type & STRM_FUTURE ? strm_future_new : strm_stream_new;
    strm_status status = make(&g->embedder->store, g->number, type & ~STRM_FUTURE, &pair);
    out[0] = pair.read;
    out[1] = pair.write;
    return status;
}

/* Those of a type. A future's reads and writes are of one item, and have no count. */
template <typename Guest> std::map<std::string, Builtin<Guest>> builtins_of(strm_type type) {
    using At = Places<Guest>;
    bool is_future = (type & STRM_FUTURE) != 0;
    strm_payload payload = type & ~STRM_FUTURE;
    auto drop_readable = is_future ? strm_future_drop_readable : strm_stream_drop_readable;
    auto drop_writable = is_future ? strm_future_drop_writable : strm_stream_drop_writable;
    size_t operands = is_future ? 2 : 3;
    return {
        {"new", {0, 2, [=](auto *g, auto *, auto *out) { return make_ends(At::base(g), type, out); }}},
        {"read", {operands, 1, [=](auto *g, auto *w, auto *out) {
             return At::read(g, type, w[0], w[1], is_future ? 1 : w[2], out);
         }}},
        {"write", {operands, 1, [=](auto *g, auto *w, auto *out) {
             return At::write(g, type, w[0], w[1], is_future ? 1 : w[2], out);
         }}},
        {"cancel-read", {1, 1, [=](auto *g, auto *w, auto *out) { return At::cancel_read(g, type, w[0], out); }}},
        {"cancel-write", {1, 1, [=](auto *g, auto *w, auto *out) { return At::cancel_write(g, type, w[0], out); }}},
        {"drop-readable", {1, 0, [=](auto *g, auto *w, auto *) {
             guest *base = At::base(g);
             return drop_readable(&base->embedder->store, base->number, payload, w[0]);
         }}},
        {"drop-writable", {1, 0, [=](auto *g, auto *w, auto *) {
             guest *base = At::base(g);
             return drop_writable(&base->embedder->store, base->number, payload, w[0]);
         }}},
    };
}

/* THE OTHERS */

template <typename Guest> std::map<std::string, Builtin<Guest>> other_builtins() {
    using At = Places<Guest>;
    return {
        {"waitable-set.new", {0, 1, [](auto *g, auto *, auto *out) {
             guest *base = At::base(g);
             return strm_set_new(&base->embedder->store, base->number, out);
         }}},
        {"waitable-set.poll", {2, 1, [](auto *g, auto *w, auto *out) { return At::poll(g, w[0], w[1], out); }}},
        {"waitable-set.drop", {1, 0, [](auto *g, auto *w, auto *) {
             guest *base = At::base(g);
             return strm_set_drop(&base->embedder->store, base->number, w[0]);
         }}},
        {"waitable.join", {2, 0, [](auto *g, auto *w, auto *) {
             guest *base = At::base(g);
             return strm_set_join(&base->embedder->store, base->number, w[1], w[0]);
         }}},
        {"error-context.new", {2, 1, [](auto *g, auto *w, auto *out) {
             return At::error_context_new(g, w[0], w[1], out);
         }}},
        {"error-context.drop", {1, 0, [](auto *g, auto *w, auto *) {
             guest *base = At::base(g);
             return strm_error_context_drop(&base->embedder->store, base->number, w[0]);
         }}},
    };
}

/* NAMES */

/* What guests call the payloads of their streams and futures. */
inline const std::map<std::string, strm_payload> payloads = {
    {"bool", STRM_BOOL}, {"s8", STRM_S8}, {"u8", STRM_U8}, {"s16", STRM_S16}, {"u16", STRM_U16}, {"s32", STRM_S32},
    {"u32", STRM_U32}, {"s64", STRM_S64}, {"u64", STRM_U64}, {"char", STRM_CHAR},
    {"sample", STRM_TUPLE | STRM_FIELD(0, STRM_U8) | STRM_FIELD(1, STRM_U32)},
};

/* The type of a name, as stream<u8>; none where it names none. */
inline std::optional<strm_type> type_of(const std::string &name) {
    size_t open = name.find('<');
    std::string kind = name.substr(0, open);
    if (open == std::string::npos || name.back() != '>' || (kind != "stream" && kind != "future")) return {};
    auto payload = payloads.find(name.substr(open + 1, name.size() - open - 2));
    if (payload == payloads.end()) return {};
    return payload->second | (kind == "future" ? STRM_FUTURE : 0);
}

/* The built-in of a name, as stream<u8>.read; none where there is none. */
template <typename Guest> std::optional<Builtin<Guest>> builtin_of(const std::string &name) {
    size_t end = name.find(">.");
    std::optional<strm_type> type = end == std::string::npos ? std::nullopt : type_of(name.substr(0, end + 1));
    std::map<std::string, Builtin<Guest>> builtins = type ? builtins_of<Guest>(*type) : other_builtins<Guest>();
    auto found = builtins.find(type ? name.substr(end + 2) : name);
    if (found == builtins.end()) return {};
    return found->second;
}
#endif
