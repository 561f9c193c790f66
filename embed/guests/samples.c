/* Two guests with a stream of tuples between them, and a future by which the reader answers: what it takes to run
   modules of one's own. */
#include <stdio.h>

#include "program.h"

#include "meter.wasm.h"
#include "tally.wasm.h"

/* What guests call sample and u64. */
CANON_STREAM(sample, STRM_TUPLE | STRM_FIELD(0, STRM_U8) | STRM_FIELD(1, STRM_U32))
CANON_FUTURE(u64, STRM_U64)

WASM2C_MODULE(meter)
WASM2C_MODULE(tally)

int main(void) {
    embedder all = {.count = 0};
    wasm_rt_init();
    must(strm_store_new(&all.store, 1, 1000, 1000) == STRM_DONE, "no store");
    wasm2c_guest *meter_guest = guest_of(&all, &meter), *tally_guest = guest_of(&all, &tally);
    guest *writer = &meter_guest->base, *reader = &tally_guest->base;
    strm_pair samples = between(writer, reader, STRM_TUPLE | STRM_FIELD(0, STRM_U8) | STRM_FIELD(1, STRM_U32));
    strm_pair answer = between(reader, writer, STRM_U64 | STRM_FUTURE);
    guest_run(writer, answer.read, samples.write, 1000000);
    guest_run(reader, samples.read, answer.write, 0);
    while (guest_turn(writer) || guest_turn(reader)) continue;
    must(writer->state == GUEST_ENDED && reader->state == GUEST_ENDED, "a guest trapped, or waits for ever");
    printf("1000000 samples come to %llu\n", (unsigned long long)WASM2C_EXPORT(meter, answer)(meter_guest->instance));
    wasm2c_free(meter_guest);
    wasm2c_free(tally_guest);
    embedder_free(&all);
    return 0;
}
