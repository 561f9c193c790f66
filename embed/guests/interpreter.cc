/* The same guests under an engine that takes no memory of another's, wabt's interpreter:

     interpreter line BYTES SOURCE.wasm FILTER.wasm SINK.wasm HOSTILE.wasm
     interpreter growing BYTES GROWING.wasm
     interpreter samples COUNT METER.wasm TALLY.wasm
     interpreter letters LETTERS.wasm

   The first passes so many bytes on through a line of three, beside guests that call all they can at random, each under
   the number of the one before; the second through three whose memories grow, and move, while their reads and writes
   wait; in the last a guest writes a letter that is none. */
#include <wabt/binary-reader.h>
#include <wabt/interp/binary-reader-interp.h>
#include <wabt/interp/interp.h>

#include <cstdio>
#include <cstdlib>
#include <fstream>
#include <iterator>
#include <map>
#include <memory>
#include <string>
#include <vector>

#include "builtins.h"

namespace interp = wabt::interp;

namespace {

void must(bool holds, const std::string &what) {
    if (holds) return;
    std::fprintf(stderr, "interpreter: %s\n", what.c_str());
    std::exit(1);
}

/* GUESTS */

/* A guest, and the module that it is of. */
struct Instance : buffered_guest {
    interp::Store *engine;
    interp::Instance::Ptr instance;
    interp::Memory::Ptr memory;
    std::map<std::string, interp::Func::Ptr> functions;

    /* Calls a function that it exports: whether it came back. */
    bool call(const std::string &name, std::initializer_list<uint32_t> words, uint32_t *answer) {
        interp::Values params, results;
        interp::Trap::Ptr trap;
        must(functions.count(name) != 0, "no function " + name);
        for (uint32_t word : words) params.push_back(interp::Value::Make(word));
        if (Failed(functions.at(name)->Call(*engine, params, results, &trap))) return false;
        if (!results.empty()) *answer = results[0].Get<uint32_t>();
        return true;
    }
};

/* It begins with its guest. */
Instance *instance_of(guest *guest) {
    return static_cast<Instance *>(reinterpret_cast<buffered_guest *>(guest));
}

bool run(guest *guest, uint32_t in, uint32_t out, uint32_t size, uint32_t *answer) {
    return instance_of(guest)->call("run", {in, out, size}, answer);
}

bool callback(guest *guest, uint32_t event, uint32_t handle, uint32_t code, uint32_t *answer) {
    return instance_of(guest)->call("callback", {event, handle, code}, answer);
}

uint8_t *memory_of(guest *guest, size_t *len) {
    interp::Memory::Ptr &memory = instance_of(guest)->memory;
    *len = memory ? memory->ByteSize() : 0;
    return memory ? memory->UnsafeData() : nullptr;
}

const engine interpreter = {run, callback, buffered_settle};

/* What the engine calls for an import. What is refused traps the guest, and nothing else. */
interp::HostFunc::Ptr import(Instance *guest, const std::string &name) {
    std::optional<Builtin<buffered_guest>> found = builtin_of<buffered_guest>(name);
    must(found.has_value(), "no built-in " + name);
    Builtin<buffered_guest> of = *found;
    interp::ValueTypes params(of.params, wabt::Type::I32), results;
    if (of.results > 0) results.push_back(of.results == 1 ? wabt::Type::I32 : wabt::Type::I64);
    auto call = [guest, of](interp::Thread &thread, const interp::Values &given, interp::Values &answer,
                            interp::Trap::Ptr *trap) {
        uint32_t words[3] = {}, out[2] = {};
        for (size_t k = 0; k < of.params; k++) words[k] = given[k].Get<uint32_t>();
        strm_status status = of.call(guest, words, out);
        if (status != STRM_DONE) {
            guest->base.refused = status;
            *trap = interp::Trap::New(thread.store(), strm_status_name(status));
            return wabt::Result::Error;
        }
        if (of.results == 1) answer[0] = interp::Value::Make(out[0]);
        if (of.results == 2) answer[0] = interp::Value::Make(out[0] | uint64_t{out[1]} << 32);
        return wabt::Result::Ok;
    };
    return interp::HostFunc::New(*guest->engine, interp::FuncType(params, results), call);
}

interp::Module::Ptr read_module(interp::Store &engine, const std::string &path) {
    std::ifstream file(path, std::ios::binary);
    std::vector<char> bytes{std::istreambuf_iterator<char>(file), {}};
    interp::ModuleDesc module;
    wabt::Errors errors;
    wabt::ReadBinaryOptions options;
    bool is_read = Succeeded(interp::ReadBinaryInterp(path, bytes.data(), bytes.size(), options, &errors, &module));
    must(is_read, "no module " + path);
    return interp::Module::New(engine, module);
}

void keep_exports(Instance *guest, const interp::Module::Ptr &module) {
    for (const interp::ExportDesc &exported : module->desc().exports) {
        interp::Ref ref = guest->instance->exports()[&exported - module->desc().exports.data()];
        if (exported.type.type->kind == interp::ExternKind::Func)
            guest->functions[exported.type.name] = guest->engine->UnsafeGet<interp::Func>(ref);
        else if (exported.type.name == "memory")
            guest->memory = guest->engine->UnsafeGet<interp::Memory>(ref);
    }
}

std::unique_ptr<Instance> make(interp::Store &engine, embedder *all, const std::string &path) {
    auto made = std::make_unique<Instance>();
    made->engine = &engine;
    must(buffered_new(made.get(), all, &interpreter, memory_of) == STRM_DONE, "no guest");
    interp::Module::Ptr module = read_module(engine, path);
    interp::RefVec imports;
    std::vector<interp::HostFunc::Ptr> kept;
    for (const interp::ImportDesc &wanted : module->desc().imports) {
        must(wanted.type.module == "canon", "another import than of canon");
        kept.push_back(import(made.get(), wanted.type.name));
        imports.push_back(kept.back()->self());
    }
    interp::Trap::Ptr trap;
    made->instance = interp::Instance::Instantiate(engine, module.ref(), imports, &trap);
    must(static_cast<bool>(made->instance), "no instance of " + path);
    keep_exports(made.get(), module);
    return made;
}

/* WHAT THEY DO */

template <typename Answer>
Answer ask(Instance *guest, const std::string &what) {
    interp::Values results;
    interp::Trap::Ptr trap;
    must(guest->functions.count(what) != 0, "no function " + what);
    must(Succeeded(guest->functions.at(what)->Call(*guest->engine, {}, results, &trap)), what + " trapped");
    return results[0].Get<Answer>();
}

/* A store, an engine, and the guests of both. */
struct World {
    embedder all{};
    interp::Store engine;
    std::vector<std::unique_ptr<Instance>> guests;

    explicit World(const std::vector<std::string> &paths) {
        must(strm_store_new(&all.store, 1, 100000, 100000) == STRM_DONE, "no store");
        for (const std::string &path : paths) guests.push_back(make(engine, &all, path));
    }
    ~World() { embedder_free(&all); }
    World(const World &) = delete;

    guest *of(size_t k) { return &guests[k]->base; }

    strm_pair between(size_t writer, size_t reader, strm_type type) {
        strm_pair ends;
        must(strm_new_between(&all.store, of(writer)->number, of(reader)->number, type, &ends) == STRM_DONE, "no stream");
        return ends;
    }

    /* A guest ends, and another of a module begins in its place, under its number. */
    void replace(size_t k, const std::string &path) {
        uint32_t number = of(k)->number;
        guest_end(of(k), GUEST_ENDED);
        guests[k] = make(engine, &all, path);
        must(of(k)->number == number, "a number is not given again");
    }

    /* A turn for each of the first so many guests; whether one had it. */
    bool turn(size_t count) {
        bool had = false;
        for (size_t k = 0; k < count; k++) had |= guest_turn(of(k));
        return had;
    }

    void must_have_ended(size_t count) {
        for (size_t k = 0; k < count; k++)
            must(of(k)->state == GUEST_ENDED, "a guest trapped, or waits for ever");
    }
};

/* What the sink has is what the source wrote, in capitals. */
void hold(Instance *sink, uint32_t size) {
    const std::string text = "A COUNT REPORTED IS A COUNT MOVED\n";
    uint32_t hash = 0;
    for (uint32_t k = 0; k < size; k++) hash = hash * 31 + static_cast<uint8_t>(text[k % text.size()]);
    must(ask<uint32_t>(sink, "total") == size && ask<uint32_t>(sink, "hash") == hash, "other bytes");
    std::printf("interpreter: %u bytes, hash %08x\n", size, hash);
}

/* Calls a hostile guest, which is entered again after a trap, as a runtime would not do. */
void attack(Instance *enemy, uint32_t calls) {
    uint32_t answer = 0;
    for (uint32_t k = 0; k < calls; k++) enemy->call("attack", {}, &answer);
}

void run_line(const std::vector<std::string> &paths, uint32_t size) {
    World world(paths);
    strm_pair first = world.between(0, 1, STRM_U8), second = world.between(1, 2, STRM_U8);
    guest_run(world.of(0), 0, first.write, size);
    guest_run(world.of(1), first.read, second.write, size);
    guest_run(world.of(2), second.read, 0, size);
    for (uint32_t turns = 1; world.turn(3); turns++) {
        attack(world.guests[3].get(), 100);
        if (turns % 8 == 0) world.replace(3, paths[3]);
    }
    world.must_have_ended(3);
    hold(world.guests[2].get(), size);
}

/* What a source of these writes, and what a filter makes of it, as a hash. */
uint32_t hash_of(uint32_t size, uint8_t with) {
    uint32_t hash = 0;
    for (uint32_t k = 0; k < size; k++) hash = hash * 31 + (static_cast<uint8_t>((k * 2654435761u) >> 24) ^ with);
    return hash;
}

void run_growing(const std::string &path, uint32_t size) {
    World world({path, path, path});
    strm_pair first = world.between(0, 1, STRM_U8), second = world.between(1, 2, STRM_U8);
    guest_run(world.of(0), 0, first.write, size);
    guest_run(world.of(1), first.read, second.write, size);
    guest_run(world.of(2), second.read, 0, size);
    while (world.turn(3)) continue;
    world.must_have_ended(3);
    uint32_t grown = 0, hash = hash_of(size, 0x5a);
    for (const auto &guest : world.guests) {
        must(ask<uint32_t>(guest.get(), "done") == size, "another count");
        grown += ask<uint32_t>(guest.get(), "grown");
    }
    must(ask<uint32_t>(world.guests[1].get(), "hash") == hash_of(size, 0), "other bytes to the filter");
    must(ask<uint32_t>(world.guests[2].get(), "hash") == hash, "other bytes to the sink");
    std::printf("%u bytes, hash %08x, through three guests whose memories grew %u times\n", size, hash, grown);
}

void run_samples(const std::vector<std::string> &paths, uint32_t count) {
    World world(paths);
    strm_pair samples = world.between(0, 1, payloads.at("sample"));
    strm_pair answer = world.between(1, 0, STRM_U64 | STRM_FUTURE);
    guest_run(world.of(0), answer.read, samples.write, count);
    guest_run(world.of(1), samples.read, answer.write, 0);
    while (world.turn(2)) continue;
    world.must_have_ended(2);
    std::printf("%u samples come to %llu\n", count,
                static_cast<unsigned long long>(ask<uint64_t>(world.guests[0].get(), "answer")));
}

/* Of the write with the bad letter nothing moves; its writer is stopped, and the reader ends. */
void run_letters(const std::string &path) {
    World world({path, path});
    strm_pair ends = world.between(0, 1, STRM_CHAR);
    guest_run(world.of(0), 0, ends.write, 0);
    guest_run(world.of(1), ends.read, 0, 0);
    while (world.turn(2)) continue;
    must(world.of(0)->state == GUEST_TRAPPED && world.of(1)->state == GUEST_ENDED, "the writer goes on, or the reader");
    must(ask<uint32_t>(world.guests[1].get(), "total") == 0, "a bad letter moved");
    std::printf("a bad letter stopped its writer\n");
}

}  // namespace

int main(int count, char **words) {
    std::vector<std::string> all(words + 1, words + count);
    std::string what = all.empty() ? "" : all[0];
    uint32_t size = all.size() > 2 ? static_cast<uint32_t>(std::strtoul(words[2], nullptr, 10)) : 0;
    if (what == "line" && all.size() == 6)
        run_line({all.begin() + 2, all.end()}, size);
    else if (what == "growing" && all.size() == 3)
        run_growing(all[2], size);
    else if (what == "samples" && all.size() == 4)
        run_samples({all.begin() + 2, all.end()}, size);
    else if (what == "letters" && all.size() == 2)
        run_letters(all[1]);
    else
        must(false, "want line BYTES and four modules, growing BYTES and one, samples COUNT and two, or letters and one");
    return 0;
}
