/* The same guests under V8, as an addon of node: each module's own memory is V8's, is lent to the store, and grows. So
   nothing is copied on the way. v8.mjs makes the modules, and calls what stands at the end.

   A memory has another ArrayBuffer each time it grows, and the one before is detached. Mostly its bytes are where they
   were; but where V8 had no addresses for all to which it may grow, they are at another place, and those before are
   given up. So a guest keeps the block that it lent: it is there until the store was told, or the guest ended. */
#include <node.h>

#include <cstring>
#include <memory>
#include <vector>

#include "builtins.h"

namespace {

using Arguments = v8::FunctionCallbackInfo<v8::Value>;

/* A guest, and what V8 has of it. */
struct Instance : guest {
    v8::Isolate *isolate = nullptr;
    /* Empty of a module that has none. */
    v8::Global<v8::WasmMemoryObject> memory;
    v8::Global<v8::Function> run, callback;
    /* The block that is lent, and of how many bytes the store was told. */
    std::shared_ptr<v8::BackingStore> lent;
    size_t len = 0;
    /* How often the memory grew, and how often to another place. */
    uint32_t grown = 0, moved = 0;
};

/* The guests of one store, by the numbers that v8.mjs has of them, which are not given again. */
struct World {
    embedder all{};
    std::vector<std::unique_ptr<Instance>> guests;
    std::vector<Builtin<guest>> builtins;

    ~World() { embedder_free(&all); }
};

v8::Local<v8::String> text(v8::Isolate *isolate, const char *of) {
    return v8::String::NewFromUtf8(isolate, of).ToLocalChecked();
}

std::string string_of(v8::Isolate *isolate, v8::Local<v8::Value> value) {
    v8::String::Utf8Value read(isolate, value);
    return *read == nullptr ? "" : *read;
}

uint32_t word_of(v8::Isolate *isolate, v8::Local<v8::Value> value) {
    return value->Uint32Value(isolate->GetCurrentContext()).FromMaybe(0);
}

/* A call of v8.mjs's: its words, its answer, and what is thrown. */
struct Call {
    const Arguments &given;
    v8::Isolate *isolate;
    World *world;

    explicit Call(const Arguments &given)
        : given(given), isolate(given.GetIsolate()),
          world(static_cast<World *>(given.Data().As<v8::External>()->Value())) {}

    uint32_t word(int k) const { return word_of(isolate, given[k]); }
    std::string name(int k) const { return string_of(isolate, given[k]); }
    void refuse(const char *why) const { isolate->ThrowError(text(isolate, why)); }
    template <typename Value> void answer(Value value) const { given.GetReturnValue().Set(value); }

    /* The guest of a number; NULL where it was given up, and then something was thrown. */
    Instance *guest(int k) const {
        Instance *found = word(k) < world->guests.size() ? world->guests[word(k)].get() : nullptr;
        if (found == nullptr) refuse("no guest");
        return found;
    }
};

/* MEMORIES */

uint8_t *data_of(const std::shared_ptr<v8::BackingStore> &block) { return static_cast<uint8_t *>(block->Data()); }

/* The bytes at the new place begin with all that the store has where the memory was: what the guest wrote since it grew
   is written there too. */
strm_status tell_moved(Instance *guest, uint8_t *bytes, size_t len) {
    std::memcpy(guest->lent->Data(), bytes, guest->len);
    guest->moved++;
    return strm_memory_moved(&guest->embedder->store, guest->number, bytes, len);
}

/* Tells the store what became of a guest's memory. A memory grows while its guest runs alone, so this comes before each
   of its built-ins, and once it came back. */
strm_status tell(Instance *guest) {
    if (guest->lent == nullptr || guest->number == GUEST_NONE) return STRM_DONE;
    v8::HandleScope scope(guest->isolate);
    v8::Local<v8::ArrayBuffer> buffer = guest->memory.Get(guest->isolate)->Buffer();
    size_t len = buffer->ByteLength();
    if (buffer->Data() == guest->lent->Data() && len == guest->len) return STRM_DONE;
    std::shared_ptr<v8::BackingStore> block = buffer->GetBackingStore();
    uint8_t *bytes = data_of(block);
    strm_status status = bytes != data_of(guest->lent)
                             ? tell_moved(guest, bytes, len)
                             : strm_memory_grown(&guest->embedder->store, guest->number, bytes + guest->len, len - guest->len);
    if (status != STRM_DONE) return status;
    guest->grown++;
    guest->lent = block;
    guest->len = len;
    return STRM_DONE;
}

/* ENTERING A GUEST */

/* Whether it came back: not where it trapped, nor where it was refused something and caught what was thrown. */
bool enter(Instance *guest, v8::Local<v8::Function> function, std::vector<uint32_t> words, uint32_t *answer) {
    v8::Isolate *isolate = guest->isolate;
    v8::HandleScope scope(isolate);
    v8::TryCatch caught(isolate);
    std::vector<v8::Local<v8::Value>> values;
    for (uint32_t word : words) values.push_back(v8::Integer::NewFromUnsigned(isolate, word));
    v8::Local<v8::Value> result;
    v8::Local<v8::Context> context = isolate->GetCurrentContext();
    bool came_back = function->Call(context, v8::Undefined(isolate), static_cast<int>(values.size()), values.data())
                         .ToLocal(&result);
    strm_status told = tell(guest);
    if (guest->refused == STRM_DONE) guest->refused = told;
    if (!came_back || guest->refused != STRM_DONE) return false;
    *answer = word_of(isolate, result);
    return true;
}

bool run(guest *guest, uint32_t in, uint32_t out, uint32_t size, uint32_t *answer) {
    auto *at = static_cast<Instance *>(guest);
    v8::HandleScope scope(at->isolate);
    return enter(at, at->run.Get(at->isolate), {in, out, size}, answer);
}

bool callback(guest *guest, uint32_t event, uint32_t handle, uint32_t code, uint32_t *answer) {
    auto *at = static_cast<Instance *>(guest);
    v8::HandleScope scope(at->isolate);
    return enter(at, at->callback.Get(at->isolate), {event, handle, code}, answer);
}

const engine v8_engine = {run, callback, nullptr};

/* WHAT MODULES CALL */

/* The number of a built-in, by its name. */
void builtin(const Arguments &given) {
    Call call(given);
    std::optional<Builtin<guest>> found = builtin_of<guest>(call.name(0));
    if (!found) return call.refuse(("no built-in " + call.name(0)).c_str());
    call.world->builtins.push_back(*found);
    call.answer(static_cast<uint32_t>(call.world->builtins.size() - 1));
}

/* A guest calls a built-in of a number, with its words. What is refused is thrown, and traps the guest; so is all that
   comes after, where the guest catches it. */
void call_builtin(const Arguments &given) {
    Call call(given);
    Instance *guest = call.guest(0);
    if (guest == nullptr) return;
    const Builtin<::guest> &of = call.world->builtins.at(call.word(1));
    uint32_t words[3] = {}, out[2] = {};
    for (size_t k = 0; k < of.params; k++) {
        v8::Local<v8::Value> given_word = given[static_cast<int>(k) + 2];
        if (!given_word->IsNumber()) return call.refuse("a module declares it otherwise");
        words[k] = word_of(call.isolate, given_word);
    }
    if (guest->refused == STRM_DONE) guest->refused = tell(guest);
    if (guest->refused == STRM_DONE) guest->refused = of.call(guest, words, out);
    if (guest->refused != STRM_DONE) return call.refuse(strm_status_name(guest->refused));
    if (of.results == 1) call.answer(out[0]);
    if (of.results == 2) call.answer(v8::BigInt::NewFromUnsigned(call.isolate, out[0] | uint64_t{out[1]} << 32));
}

/* WHAT AN EMBEDDER CALLS */

/* A guest that has not begun: its number. */
void add(const Arguments &given) {
    Call call(given);
    auto made = std::make_unique<Instance>();
    static_cast<guest &>(*made) = {&v8_engine, &call.world->all, GUEST_NONE, 0, GUEST_RUNS, STRM_DONE};
    made->isolate = call.isolate;
    call.world->guests.push_back(std::move(made));
    call.answer(static_cast<uint32_t>(call.world->guests.size() - 1));
}

template <typename Value> void keep(v8::Isolate *isolate, v8::Global<Value> &at, v8::Local<v8::Value> value) {
    at.Reset(isolate, value.As<Value>());
}

/* Begins a guest, of what its instance exports: its memory is lent, if it has one of its own, and its `run` and
   `callback` are kept. */
void begin(const Arguments &given) {
    Call call(given);
    Instance *guest = call.guest(0);
    if (guest == nullptr) return;
    if (given[1]->IsFunction()) keep(call.isolate, guest->run, given[1]);
    if (given[2]->IsFunction()) keep(call.isolate, guest->callback, given[2]);
    if (given[3]->IsWasmMemoryObject()) {
        v8::Local<v8::ArrayBuffer> buffer = given[3].As<v8::WasmMemoryObject>()->Buffer();
        if (!buffer->IsArrayBuffer()) return call.refuse("a memory that threads share");
        keep(call.isolate, guest->memory, given[3]);
        guest->lent = buffer->GetBackingStore();
        guest->len = buffer->ByteLength();
    }
    strm_status status = guest_begin(guest, guest->lent ? data_of(guest->lent) : nullptr, guest->len);
    if (status != STRM_DONE) call.refuse(strm_status_name(status));
}

/* A stream or future of a type by its name, from one guest to another: its number, and the handles of its ends. */
void between(const Arguments &given) {
    Call call(given);
    Instance *writer = call.guest(0), *reader = call.guest(1);
    if (writer == nullptr || reader == nullptr) return;
    std::optional<strm_type> type = type_of(call.name(2));
    strm_pair ends{};
    strm_status status = STRM_UNKNOWN_PAYLOAD;
    if (type) status = strm_new_between(&call.world->all.store, writer->number, reader->number, *type, &ends);
    if (status != STRM_DONE) return call.refuse(strm_status_name(status));
    uint32_t words[] = {ends.stream, ends.read, ends.write};
    v8::Local<v8::Value> values[3];
    for (int k = 0; k < 3; k++) values[k] = v8::Integer::NewFromUnsigned(call.isolate, words[k]);
    call.answer(v8::Array::New(call.isolate, values, 3));
}

void start(const Arguments &given) {
    Call call(given);
    Instance *guest = call.guest(0);
    if (guest != nullptr) guest_run(guest, call.word(1), call.word(2), call.word(3));
}

/* A turn of a guest: whether it had one. */
void turn(const Arguments &given) {
    Call call(given);
    Instance *guest = call.guest(0);
    if (guest != nullptr) call.answer(guest_turn(guest));
}

/* Calls a function of a guest that may trap, call built-ins or have the memory grow: whether it came back. */
void enter(const Arguments &given) {
    Call call(given);
    Instance *guest = call.guest(0);
    if (guest == nullptr || !given[1]->IsFunction()) return;
    uint32_t answer = 0;
    std::vector<uint32_t> words;
    for (int k = 2; k < given.Length(); k++) words.push_back(call.word(k));
    guest->refused = STRM_DONE;
    call.answer(enter(guest, given[1].As<v8::Function>(), words, &answer));
}

/* How a guest goes on, and the name of what it was refused. */
void state(const Arguments &given) {
    Call call(given);
    const char *const names[] = {"runs", "ended", "trapped"};
    if (Instance *guest = call.guest(0)) call.answer(text(call.isolate, names[guest->state]));
}

void refused(const Arguments &given) {
    Call call(given);
    if (Instance *guest = call.guest(0)) call.answer(text(call.isolate, strm_status_name(guest->refused)));
}

/* The number that the store has of a guest. */
void number(const Arguments &given) {
    Call call(given);
    if (Instance *guest = call.guest(0)) call.answer(guest->number);
}

/* How often a guest's memory grew, and how often to another place. */
void grown(const Arguments &given) {
    Call call(given);
    if (Instance *guest = call.guest(0)) call.answer(guest->grown);
}

void moved(const Arguments &given) {
    Call call(given);
    if (Instance *guest = call.guest(0)) call.answer(guest->moved);
}

/* Whether the store has a guest's memory where it lies, and as long as it is. */
void is_told(const Arguments &given) {
    Call call(given);
    Instance *guest = call.guest(0);
    if (guest == nullptr) return;
    uint8_t *at = nullptr;
    size_t len = 0;
    strm_status status = strm_memory_at(&call.world->all.store, guest->number, &at, &len);
    v8::Local<v8::ArrayBuffer> buffer = guest->memory.Get(call.isolate)->Buffer();
    call.answer(status == STRM_DONE && at == buffer->Data() && len == buffer->ByteLength());
}

/* How many items moved on a stream. */
void items(const Arguments &given) {
    Call call(given);
    strm_count count{};
    strm_status status = strm_moved(&call.world->all.store, call.word(0), &count);
    if (status != STRM_DONE) return call.refuse(strm_status_name(status));
    call.answer(static_cast<double>(count.low));
}

/* Gives up a guest, which ends before, if it runs: its memory and its instance are V8's alone. */
void give_up(const Arguments &given) {
    Call call(given);
    Instance *guest = call.guest(0);
    if (guest == nullptr) return;
    guest_end(guest, GUEST_ENDED);
    call.world->guests[call.word(0)].reset();
}

}  // namespace

NODE_MODULE_INIT() {
    v8::Isolate *isolate = context->GetIsolate();
    auto *world = new World;
    node::AddEnvironmentCleanupHook(isolate, [](void *at) { delete static_cast<World *>(at); }, world);
    strm_status status = strm_store_new(&world->all.store, 1, 100000, 100000);
    if (status != STRM_DONE) return (void)isolate->ThrowError(text(isolate, strm_status_name(status)));
    const struct {
        const char *name;
        void (*call)(const Arguments &);
    } calls[] = {{"builtin", builtin}, {"call", call_builtin}, {"add", add},         {"begin", begin},
                 {"between", between}, {"start", start},       {"turn", turn},       {"enter", enter},
                 {"state", state},     {"refused", refused},   {"number", number},   {"grown", grown},
                 {"moved", moved},     {"isTold", is_told},    {"items", items},     {"giveUp", give_up}};
    for (const auto &it : calls) {
        v8::Local<v8::Function> made =
            v8::Function::New(context, it.call, v8::External::New(isolate, world)).ToLocalChecked();
        exports.As<v8::Object>()->Set(context, text(isolate, it.name), made).Check();
    }
    (void)module;
}
