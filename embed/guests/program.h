/* What the programs of this folder begin with: each ends with status 1, and says why, where something is not as it
   should be. */
#ifndef PROGRAM_H
#define PROGRAM_H

#include <err.h>

#include "wasm2c.h"

static inline void must(bool holds, const char *what) {
    if (!holds) errx(1, "%s", what);
}

static inline wasm2c_guest *guest_of(embedder *all, const wasm2c_module *module) {
    wasm2c_guest *guest = wasm2c_new(all, module);
    must(guest != NULL, "no guest");
    return guest;
}

/* A stream or future of this type from the one guest to the other. */
static inline strm_pair between(const guest *writer, const guest *reader, strm_type type) {
    strm_pair ends;
    strm_store *store = &writer->embedder->store;
    must(strm_new_between(store, writer->number, reader->number, type, &ends) == STRM_DONE, "no stream");
    return ends;
}

#endif
