/* The streams and futures of a WebAssembly component runtime, for C. strm.hpp has the same for C++.

   A store has guests, each with a memory, a table of handles and waitable sets, and the streams and futures between
   them. Each call below is proved to be one step of the machine that the library is proved by: its status, what it
   wrote at `out`, and the store afterwards. Only the archive behind it is proved; this header is written from its
   exports by embed/declare.

   WHERE IT RUNS. There are three archives, ELF for Linux: for x86-64 of the level x86-64-v2 (SSE4.1 among it), for every
   x86-64, and for every arm64. The first has no test of its level: an older processor stops the program by an illegal
   instruction. Calls and layouts are the same.

   WHAT THE CALLER OWES. Nothing checks it:
   - A store is {NULL} before strm_store_new, and strm_store_free leaves it so. It is not copied. Of {NULL}
     strm_store_free does nothing, and each other call answers STRM_NO_STORE, or 0 where it answers no status.
   - One call at a time is made on a store, a query too, from whichever thread, and none from a signal handler. Where
     two threads make calls on it, or read or write its memories, a lock or a join lies between them.
   - Pointers are not NULL, also where a length is 0, and what they point at is nobody else's during the call. A
     length is PTRDIFF_MAX at most.
   - A guest's memory, by strm_memory_at, is read and written between calls only, never during one. Its block is the
     store's: nobody else frees it or hands it to realloc, whatever the length.
   - An engine that makes and grows its memories itself lends their bytes (strm_add_guest_at, strm_begin_guest_at).
     They are readable and writable, and no two guests' overlap. They stay where they are until the store is told that
     they moved (strm_memory_moved), the guest ends (strm_end_guest), or the store is given up: once that is done they
     are the engine's again, to free or to lend to another guest. Also where a memory only grew (strm_memory_grown) the
     store is told of it before the next call that reads or writes there. Bytes that grew lie directly behind those that
     the store knows, and bytes that moved begin with all of those.
   - malloc, realloc and free are one allocator for all of the program.
   All else is answered: any number may be passed as a guest, a handle, an address, a count or a payload.

   WHAT A CALL ANSWERS is the first of these that holds. Unless it is STRM_DONE nothing has changed, neither of the
   store nor at `out`.
   1. STRM_NO_STORE. 2. STRM_UNKNOWN_PAYLOAD. 3. STRM_GUEST_LIMIT. 4. The refusals, in the order of the call's list,
   or STRM_UNKNOWN_STREAM, or STRM_NO_BAD_ITEM; of a guest that begins STRM_IN_USE comes between the two.
   5. STRM_NOT_LENT. 6. STRM_SHORTER. 7. STRM_BAD_ITEM. 8. STRM_OUT_OF_MEMORY, which comes only where all would else be
   done.

   READS, WRITES AND EVENTS. docs/FORMATS.md of the repository shows each rule by an example.
   - A write and a read of one stream meet where one is called and the other waits. The lesser of their counts is
     moved, and the one that is called is answered STRM_COMPLETED with it. The one that waited is told by its event,
     and until then it can meet again, if it has items left.
   - Where a count is 0 nothing moves, and one of the two completes: the write if its count is 0, else the read. The
     other one waits.
   - What does not complete is answered STRM_BLOCKED and waits, so too where nothing waits on the other side. Where
     the other end is gone it is answered STRM_DROPPED with 0 items.
   - An event (strm_take_event, strm_set_poll) tells the first of these that holds: of a stream's read or write whose
     other end is gone, STRM_DROPPED with the items moved; of a read or write that has met, STRM_COMPLETED with the
     items moved; of an end whose other end is gone, which it was not told, STRM_DROPPED with 0. So an end that has
     nothing under way is told as well that the other end is gone. What is told ends the read or write, with
     whatever it has left.
   - Once an end was told STRM_DROPPED, by a code or an event, its reads and writes are refused; but who reads a future
     whose value never comes, since the guest ended that owed it, is told so each time.
   - A cancel ends a read or write, and answers what its event would have told, but of a stream STRM_CANCELLED for
     STRM_COMPLETED, with the same items; where there is nothing to tell, STRM_CANCELLED with 0. What was moved stays
     moved, and the end can read or write again, unless it was told STRM_DROPPED.
   - A future passes one value, once, and its codes count 0. From then on its reads and writes are refused, either
     end can be dropped, and no event tells that the other one is gone. Before that, its write end can be dropped
     only once it was told so; but it goes with its guest.
   - A bad item, with a char that is no Unicode scalar value or the number of a case that there is not, stops its
     writer alone: a read or write that would move it is answered STRM_BAD_ITEM, and moves nothing.
     strm_find_bad_item tells who writes the item. The embedder ends that guest, and all others go on; until then the
     same call is answered the same.
   - Within one guest numbers and floats move as by a copy in between, and STRM_NOTHING; other items are refused, which
     is STRM_INTRA_COMPONENT. Between two guests a bool arrives as 0 or 1, a float as its bits, flags that have no name
     as 0; padding, and the bytes of cases that an item is not, stay as they were.

   GUESTS THAT END. A guest is ended alone (strm_end_guest), as one that trapped or writes a bad item; all others go on.
   - Whoever has the other end of an end of it is told STRM_DROPPED, as after a drop. So is the reader of a future that
     it owed a value, and then none comes. Loose read ends stay, since no guest has them.
   - Of its handles none is left, nor a byte of its memory: calls with them are refused.
   - Its number stays that of a guest that has nothing, and another may begin under it (strm_begin_guest,
     strm_begin_guest_at), whose handles begin with 1 again. So a handle that the caller kept of the one before may be
     of the next one's. The limits of the number stay (strm_set_guest_limits).

   WHO IS READY. A guest is ready that has an end which is to be told something.
   - A call makes ready ends of its own stream alone: the one that it names, and the one across from it. So a runtime
     that wakes tasks asks strm_handle_info after each call who has the other end, and whether that is to be told
     something; before a drop, which leaves no handle to ask of. The end of a guest makes ready those across from its
     ends.
   - A scheduler of many guests asks strm_next_ready_guest, which is level-triggered: a guest is told as long as it is
     ready, so no wakeup is lost. The counts that this takes are made by the first call, and kept from then on: each
     guest that is added and each stream that is made takes some more bytes, a call on an end lists its stream, and
     the next question counts again what is listed. A store of which nobody asks this keeps none. */
#ifndef STRM_H
#define STRM_H
#include <stdbool.h>
#include <stddef.h>
#include <stdint.h>
#ifdef __cplusplus
extern "C" {
#endif

/* The version of this header: 0.1.0, as 1,000,000 times its first number, 1,000 times its second, and its third. */
#define STRM_VERSION 1000u
#define STRM_VERSION_TEXT "0.1.0"

/* A store. {NULL} where there is none; only the library reads what is in it. */
typedef struct {
    void *at;
} strm_store;

/* What a call answers, which is not to be passed over. */
typedef uint32_t strm_status;
#if defined(__GNUC__)
#define STRM_ANSWER __attribute__((warn_unused_result)) strm_status
#else
#define STRM_ANSWER strm_status
#endif

enum {
    STRM_DONE = 0, /* It is done. */
    STRM_UNKNOWN_GUEST = 1, /* A named guest is not there. */
    STRM_UNKNOWN_READER = 4, /* No stream of that number has a loose read end. */
    STRM_STREAM_OP_TOO_BIG = 5, /* The count is 2^28 or more. */
    STRM_OUT_OF_BOUNDS = 6, /* The region passes the memory's end. */
    STRM_NOT_ALIGNED = 7, /* The address is no multiple of the payload's alignment. */
    STRM_UNKNOWN_HANDLE = 8, /* No live slot has that number. */
    STRM_WRONG_KIND = 9, /* The slot is of another kind than the call names. */
    STRM_WRONG_TYPE = 10, /* The payloads differ. */
    STRM_WRONG_END = 11, /* In a cancel, drop or lift: the handle is the other end, busy or idle. */
    STRM_CONCURRENT_FUTURE_STREAM_OP = 12, /* In a read or write: the handle is busy, or is the other end. */
    STRM_BUSY = 13, /* In a drop, transfer or lift: the end has an operation. */
    STRM_NO_PENDING = 14, /* In a cancel: the end has no operation. */
    STRM_WRITE_TO_DROPPED_STREAM = 16, /* The write end of a stream was told that the read end is gone. */
    STRM_WRITE_TO_DROPPED_FUTURE = 17, /* The write end of a future was told so, or the value passed. */
    STRM_READ_FROM_DROPPED_STREAM = 18, /* The read end of a stream was told that the write end is gone. */
    STRM_FUTURE_ALREADY_READ = 19, /* The value passed. */
    /* Both operations are of one guest, and the payload is neither none nor a number. */
    STRM_INTRA_COMPONENT = 20,
    STRM_LIFT_DROPPED = 21, /* The end that would move was told, or the value passed. */
    STRM_LIFT_IN_SET = 22, /* The end that would move is a member of a set. */
    STRM_SET_NOT_EMPTY = 23, /* The set has a member. */
    STRM_FUTURE_WITHOUT_VALUE = 24, /* The value has not passed, and the write end was not told. */
    STRM_INDEX_OVERFLOW = 25, /* A new handle would be 2^28 or more. */
    STRM_HANDLE_LIMIT = 26, /* The live handles would pass the limit. */
    STRM_FULL = 27, /* The places in use and those needed pass the limit, or a number would pass its range. */
    STRM_MEMORY_TOO_BIG = 28, /* The guests' memories would pass 268,435,456 bytes together. */
    STRM_BAD_TEXT = 29, /* The bytes are not UTF-8. */
    STRM_MESSAGE_TOO_LONG = 30, /* The message is longer than 4,096 bytes. */
    /* An item that was to move is none of its type: a char that is no Unicode scalar value, or the number of a case that
       there is not. strm_find_bad_item tells which, and who writes it. */
    STRM_BAD_ITEM = 64,
    STRM_OUT_OF_MEMORY = 66, /* An allocation was refused, and nothing has changed. */
    STRM_UNKNOWN_PAYLOAD = 67, /* No payload, or no type, has the word. */
    STRM_UNKNOWN_STREAM = 68, /* No stream has the number, or none of which an end is there. */
    STRM_NO_STORE = 69, /* The handle is of no store: it is {NULL}. */
    /* A guest that is there would get more than its limits allow. It is told before any refusal. */
    STRM_GUEST_LIMIT = 72,
    STRM_NO_BAD_ITEM = 73, /* A read or write with these arguments stops at no item. */
    STRM_NOT_LENT = 74, /* The guest's memory is the store's own, which neither grows nor moves. */
    STRM_SHORTER = 75, /* There are fewer bytes than the guest's memory has. */
    /* The guest has bytes, handles, or a memory that was lent: it did not end, or began again. */
    STRM_IN_USE = 76,
    STRM_TYPE_TOO_LONG = 77, /* The words of a type are more than seven. */
    STRM_NO_TYPE = 78 /* The words spell no type, more than one, or a tuple that STRM_FIELD makes. */
};

/* A status by its name, as "STRM_BUSY"; "?" where it is none. */
static inline const char *strm_status_name(strm_status status) {
#define STRM_NAMED(name) case STRM_##name: return "STRM_" #name;
    switch (status) {
    STRM_NAMED(DONE) STRM_NAMED(UNKNOWN_GUEST) STRM_NAMED(UNKNOWN_READER) STRM_NAMED(STREAM_OP_TOO_BIG)
    STRM_NAMED(OUT_OF_BOUNDS) STRM_NAMED(NOT_ALIGNED) STRM_NAMED(UNKNOWN_HANDLE) STRM_NAMED(WRONG_KIND)
    STRM_NAMED(WRONG_TYPE) STRM_NAMED(WRONG_END) STRM_NAMED(CONCURRENT_FUTURE_STREAM_OP) STRM_NAMED(BUSY)
    STRM_NAMED(NO_PENDING) STRM_NAMED(WRITE_TO_DROPPED_STREAM) STRM_NAMED(WRITE_TO_DROPPED_FUTURE)
    STRM_NAMED(READ_FROM_DROPPED_STREAM) STRM_NAMED(FUTURE_ALREADY_READ) STRM_NAMED(INTRA_COMPONENT)
    STRM_NAMED(LIFT_DROPPED) STRM_NAMED(LIFT_IN_SET) STRM_NAMED(SET_NOT_EMPTY) STRM_NAMED(FUTURE_WITHOUT_VALUE)
    STRM_NAMED(INDEX_OVERFLOW) STRM_NAMED(HANDLE_LIMIT) STRM_NAMED(FULL) STRM_NAMED(MEMORY_TOO_BIG)
    STRM_NAMED(BAD_TEXT) STRM_NAMED(MESSAGE_TOO_LONG) STRM_NAMED(BAD_ITEM) STRM_NAMED(OUT_OF_MEMORY)
    STRM_NAMED(UNKNOWN_PAYLOAD) STRM_NAMED(UNKNOWN_STREAM) STRM_NAMED(NO_STORE) STRM_NAMED(GUEST_LIMIT)
    STRM_NAMED(NO_BAD_ITEM) STRM_NAMED(NOT_LENT) STRM_NAMED(SHORTER) STRM_NAMED(IN_USE) STRM_NAMED(TYPE_TOO_LONG)
    STRM_NAMED(NO_TYPE)
    default: return "?";
    }
#undef STRM_NAMED
}

/* A code, of a read, a write, a cancel or an event: STRM_BLOCKED where it waits, STRM_NO_EVENT where there is
   nothing to tell, and else STRM_RESULT of it with STRM_COUNT items (of a future's codes always 0). */
enum { STRM_COMPLETED, STRM_DROPPED, STRM_CANCELLED };
#define STRM_BLOCKED 0xffffffffu
#define STRM_NO_EVENT 3u
#define STRM_RESULT(code) ((code) & 15u)
#define STRM_COUNT(code) ((code) >> 4)

/* What one item is: nothing, a scalar, a tuple of one to eight scalars, as in
   STRM_TUPLE | STRM_FIELD(0, STRM_U8) | STRM_FIELD(1, STRM_U32), whose fields begin at 0 without a gap,
   or another type of a fixed size that holds no pointer and no handle, which strm_type_of builds. */
typedef uint64_t strm_payload;
enum { STRM_NOTHING, STRM_BOOL, STRM_S8, STRM_U8, STRM_S16, STRM_U16, STRM_S32, STRM_U32, STRM_S64, STRM_U64, STRM_CHAR, STRM_F32, STRM_F64 };
#define STRM_TUPLE ((strm_payload)1 << 32)
#define STRM_FIELD(index, scalar) ((strm_payload)(scalar) << 4 * (index))

/* The words that strm_type_of takes, a byte each: a type before the types that it holds. A scalar's is its number. */
enum { STRM_WORD_NOTHING = 13, STRM_WORD_OPTION, STRM_WORD_RESULT };
#define STRM_WORD_RECORD(fields) (16 + (fields))
#define STRM_WORD_VARIANT(cases) (32 + (cases))
#define STRM_WORD_FLAGS(names) (47 + (names))
#define STRM_WORD_ENUM(cases) (127 + (cases))

/* The type of a stream is its payload's word, that of a future the payload's with STRM_FUTURE. */
typedef uint64_t strm_type;
#define STRM_FUTURE ((strm_type)1 << 33)

/* What a strm_handle tells by numbers: its `kind`, its `side`, and who has the `other` end. */
enum {
    STRM_KIND_END = 1, /* The handle is of an end of a stream or future. */
    STRM_KIND_WAITABLE_SET = 2, /* The handle is of a waitable set. */
    STRM_KIND_ERROR_CONTEXT = 3, /* The handle is of an error context. */
    STRM_KIND_OTHER = 4, /* The handle is of something that no call makes. */
    STRM_SIDE_WRITING = 1, /* The end is the write end. */
    STRM_SIDE_READING = 2, /* The end is the read end. */
    STRM_OTHER_GUEST = 1, /* A guest has the other end. */
    STRM_OTHER_LOOSE = 2, /* The other end is loose: it was lifted, and not lowered since. */
    STRM_OTHER_GONE = 3 /* The other end is gone: it was dropped or closed. */
};

/* The number of no guest: none gets it. */
#define STRM_NO_GUEST 4294967295u

/* A count of 128 bits: low + 2^64 * high. */
typedef struct {
    uint64_t low;
    uint64_t high;
} strm_count;

/* An item that is none of its type: who writes it, and which of its write's items it is. */
typedef struct {
    /* The guest that has the write end. */
    uint32_t guest;
    /* Its handle of that end. */
    uint32_t handle;
    /* The item's place among all items of the write, from 0. */
    uint32_t index;
} strm_bad_item;

/* A member of a set and what it was told: its handle, and a code, or STRM_NO_EVENT. */
typedef struct {
    uint32_t handle;
    uint32_t code;
} strm_member;

/* A handle of a guest, and what it is of. What is not told is 0, and an event STRM_NO_EVENT. */
typedef struct {
    /* Of an end, the type of its stream or future. */
    strm_type type;
    /* The handle's number; 0 where there is none. */
    uint32_t handle;
    /* What it is of, by its kind; 0 where there is no handle. */
    uint32_t kind;
    /* Of an end, which of the two it is. */
    uint32_t side;
    /* Of an end, the number of its stream or future. */
    uint32_t stream;
    /* Of an end, the code that it is to be told, and still is; else STRM_NO_EVENT. */
    uint32_t event;
    /* Of an end, who has the other one. */
    uint32_t other;
    /* The guest that has the other end, if one has. */
    uint32_t other_guest;
    /* The handle under which that guest has it. */
    uint32_t other_handle;
} strm_handle;

/* How much a guest may have at once. UINT32_MAX handles or ends and UINT64_MAX bytes are no bound, and hold of a
   guest until its limits are set. */
typedef struct {
    /* Bytes that the store keeps for it: 4,096 for each handle of an error context, the longest that a message can be. */
    uint64_t bytes;
    /* Handles, of whatever kind. */
    uint32_t handles;
    /* Ends of streams and futures among them, so it is at that many streams and futures at most. */
    uint32_t ends;
} strm_limits;

/* The handles of a new stream's or future's two ends, each in the table of the guest that has it, and the number of
   the stream or future, which no other has until both its ends are gone. */
typedef struct {
    uint32_t read;
    uint32_t write;
    uint32_t stream;
} strm_pair;

/* WHICH VERSION OF THE LIBRARY THIS IS */

/* The version of the archive, as STRM_VERSION is that of this header. Where the two differ, a program was compiled
   for another archive than it was linked with. */
uint32_t strm_version(void);

/* A STORE AS A WHOLE: MADE, GIVEN UP, AND WHAT IT TELLS */

/* Makes a store without guests, in a handle of none ({NULL}). It keeps `handles` live handles of all guests together
   at most, and `places` places: a stream takes three, a waitable set and an error context one each. `tag` is a
   number of the caller's own. STRM_OUT_OF_MEMORY. */
STRM_ANSWER strm_store_new(strm_store *store, uint64_t tag, size_t handles, uint32_t places);

/* Gives a store up, with the memories of its guests, and leaves {NULL}. Of {NULL} it does nothing. */
void strm_store_free(strm_store *store);

/* The number that the store was made with; 0 of {NULL}. */
uint64_t strm_tag(const strm_store *store);

/* The numbers that streams and futures got so far are below this; 0 of {NULL}. One is given again once both ends of
   its stream are gone, so it never passes a third of `places`: a store keeps room for no more streams than that, and
   no making is refused since streams were made and dropped before. */
uint32_t strm_streams(const strm_store *store);

/* Puts at `out` how many items were received so far on the stream that got this number last. STRM_UNKNOWN_STREAM
   where none got it. */
STRM_ANSWER strm_moved(const strm_store *store, uint32_t stream, strm_count *out);

/* Puts at `out` the type of the stream that has this number, while an end of it is there. STRM_UNKNOWN_STREAM of any
   other. */
STRM_ANSWER strm_transmit_index(const strm_store *store, uint32_t stream, strm_type *out);

/* GUESTS AND THEIR MEMORIES */

/* Adds a guest with a memory of `size` zero bytes, and puts its number at `out`; the first is 0. Refused:
   STRM_MEMORY_TOO_BIG (268,435,456 bytes of all guests together, without those that were lent), STRM_FULL (1,048,576
   guests). STRM_OUT_OF_MEMORY. */
STRM_ANSWER strm_add_guest(strm_store *store, uint32_t size, uint32_t *out);

/* Adds a guest whose memory is `len` bytes that the caller lends, from `bytes` on, and puts its number at `out`.
   They stay where they are, are touched only as the guest's memory is, and are not freed: they are the caller's
   again once the guest ended or the store is given up, or at once where nothing is added. There is no limit on those
   of all guests. Refused: STRM_MEMORY_TOO_BIG (4,294,967,296 bytes or more), STRM_FULL (1,048,576 guests).
   STRM_OUT_OF_MEMORY. */
STRM_ANSWER strm_add_guest_at(strm_store *store, uint8_t *bytes, size_t len, uint32_t *out);

/* Tells that a memory which the caller lent has `len` bytes more, from `more` on, which lie directly behind its end:
   it grew where it lies. Reads and writes that wait go on. Refused: STRM_UNKNOWN_GUEST, STRM_MEMORY_TOO_BIG
   (4,294,967,296 bytes or more in all). STRM_NOT_LENT. */
STRM_ANSWER strm_memory_grown(strm_store *store, uint32_t guest, uint8_t *more, size_t len);

/* Tells that a memory which the caller lent goes on in `len` bytes from `bytes` on, which begin with all that it
   had: it grew, and lies elsewhere. Reads and writes that wait go on there, and the bytes where it was are the
   caller's again. Refused: STRM_UNKNOWN_GUEST, STRM_MEMORY_TOO_BIG (4,294,967,296 bytes or more). STRM_NOT_LENT,
   STRM_SHORTER. */
STRM_ANSWER strm_memory_moved(strm_store *store, uint32_t guest, uint8_t *bytes, size_t len);

/* Copies `len` bytes into a guest's memory, from `address` on. Refused: STRM_UNKNOWN_GUEST, STRM_OUT_OF_BOUNDS. */
STRM_ANSWER strm_memory_write(
    strm_store *store, uint32_t guest, uint32_t address, const uint8_t *bytes, size_t len);

/* Copies `len` bytes of a guest's memory out, from `address` on. Refused: STRM_UNKNOWN_GUEST, STRM_OUT_OF_BOUNDS. */
STRM_ANSWER strm_memory_read(
    const strm_store *store, uint32_t guest, uint32_t address, uint8_t *out, size_t len);

/* Puts at `out` where a guest's memory lies, and at `len` how many bytes it has; of no bytes `out` is an address
   that may not be read. The store's own lie there until the guest ends or the store is given up, from the beginning
   of a block of malloc's on, at a multiple of 16; those that the caller lent until it tells that they moved. The
   caller may read and write them between calls, and must not during one. Refused: STRM_UNKNOWN_GUEST. */
STRM_ANSWER strm_memory_at(strm_store *store, uint32_t guest, uint8_t **out, size_t *len);

/* GUESTS THAT END, AND GUESTS THAT BEGIN UNDER THE NUMBER OF ONE THAT ENDED */

/* Ends a guest: each of its ends, by rising handle, is cancelled (what was moved stays moved) and dropped, and
   whoever has the other end is told so by its event, the reader of a future that never gets its value too. Then its
   waitable sets and error contexts go, and its memory: nobody may read or write there any more, and bytes that the
   caller lent are the caller's again. The number stays a guest's that has nothing, until one begins under it; the
   limits that were set of the number stay. Refused: STRM_UNKNOWN_GUEST. */
STRM_ANSWER strm_end_guest(strm_store *store, uint32_t guest);

/* Begins a guest under the number of one that has nothing, as one that ended, with a memory of `size` zero bytes.
   Refused: STRM_UNKNOWN_GUEST, STRM_MEMORY_TOO_BIG (268,435,456 bytes of all guests together, without those that
   were lent). STRM_IN_USE, which comes between the two. STRM_OUT_OF_MEMORY. */
STRM_ANSWER strm_begin_guest(strm_store *store, uint32_t guest, uint32_t size);

/* Begins a guest under the number of one that has nothing, as one that ended, whose memory is `len` bytes that the
   caller lends, from `bytes` on, as by strm_add_guest_at. They are the caller's again once the guest ended or the
   store is given up, or at once where nothing begins. Refused: STRM_UNKNOWN_GUEST, STRM_MEMORY_TOO_BIG
   (4,294,967,296 bytes or more). STRM_IN_USE, which comes between the two. */
STRM_ANSWER strm_begin_guest_at(strm_store *store, uint32_t guest, uint8_t *bytes, size_t len);

/* STREAMS */

/* Makes a stream whose two ends the guest gets, and puts their handles and the stream's number at `out`, which may
   be that of a stream both of whose ends are gone. `canon stream.new`. Refused: STRM_UNKNOWN_GUEST,
   STRM_INDEX_OVERFLOW, STRM_HANDLE_LIMIT, STRM_FULL. STRM_GUEST_LIMIT, STRM_OUT_OF_MEMORY, STRM_UNKNOWN_PAYLOAD. */
STRM_ANSWER strm_stream_new(strm_store *store, uint32_t guest, strm_payload payload, strm_pair *out);

/* Writes `count` items that lie from `address` of the guest's memory on, and puts the code at `out`. A write that
   waits (STRM_BLOCKED) leaves its items where they are until they move. `canon stream.write`. Refused:
   STRM_UNKNOWN_GUEST, STRM_STREAM_OP_TOO_BIG, STRM_OUT_OF_BOUNDS, STRM_NOT_ALIGNED, STRM_UNKNOWN_HANDLE,
   STRM_WRONG_KIND, STRM_WRONG_TYPE, STRM_CONCURRENT_FUTURE_STREAM_OP, STRM_WRITE_TO_DROPPED_STREAM,
   STRM_INTRA_COMPONENT. STRM_BAD_ITEM, STRM_UNKNOWN_PAYLOAD. */
STRM_ANSWER strm_stream_write(
    strm_store *store, uint32_t guest, strm_payload payload, uint32_t handle, uint32_t address, uint32_t count, uint32_t *out);

/* Reads `count` items to `address` of the guest's memory on, and puts the code at `out`. `canon stream.read`.
   Refused: STRM_UNKNOWN_GUEST, STRM_STREAM_OP_TOO_BIG, STRM_OUT_OF_BOUNDS, STRM_NOT_ALIGNED, STRM_UNKNOWN_HANDLE,
   STRM_WRONG_KIND, STRM_WRONG_TYPE, STRM_CONCURRENT_FUTURE_STREAM_OP, STRM_READ_FROM_DROPPED_STREAM,
   STRM_INTRA_COMPONENT. STRM_BAD_ITEM, STRM_UNKNOWN_PAYLOAD. */
STRM_ANSWER strm_stream_read(
    strm_store *store, uint32_t guest, strm_payload payload, uint32_t handle, uint32_t address, uint32_t count, uint32_t *out);

/* Cancels the write that waits, and puts the code at `out`. `canon stream.cancel-write`. Refused:
   STRM_UNKNOWN_GUEST, STRM_UNKNOWN_HANDLE, STRM_WRONG_KIND, STRM_WRONG_TYPE, STRM_WRONG_END, STRM_NO_PENDING.
   STRM_UNKNOWN_PAYLOAD. */
STRM_ANSWER strm_stream_cancel_write(
    strm_store *store, uint32_t guest, strm_payload payload, uint32_t handle, uint32_t *out);

/* Cancels the read that waits, and puts the code at `out`. `canon stream.cancel-read`. Refused: STRM_UNKNOWN_GUEST,
   STRM_UNKNOWN_HANDLE, STRM_WRONG_KIND, STRM_WRONG_TYPE, STRM_WRONG_END, STRM_NO_PENDING. STRM_UNKNOWN_PAYLOAD. */
STRM_ANSWER strm_stream_cancel_read(
    strm_store *store, uint32_t guest, strm_payload payload, uint32_t handle, uint32_t *out);

/* Drops the write end. `canon stream.drop-writable`. Refused: STRM_UNKNOWN_GUEST, STRM_UNKNOWN_HANDLE,
   STRM_WRONG_KIND, STRM_WRONG_TYPE, STRM_WRONG_END, STRM_BUSY. STRM_UNKNOWN_PAYLOAD. */
STRM_ANSWER strm_stream_drop_writable(
    strm_store *store, uint32_t guest, strm_payload payload, uint32_t handle);

/* Drops the read end. `canon stream.drop-readable`. Refused: STRM_UNKNOWN_GUEST, STRM_UNKNOWN_HANDLE,
   STRM_WRONG_KIND, STRM_WRONG_TYPE, STRM_WRONG_END, STRM_BUSY. STRM_UNKNOWN_PAYLOAD. */
STRM_ANSWER strm_stream_drop_readable(
    strm_store *store, uint32_t guest, strm_payload payload, uint32_t handle);

/* Puts what an end, of a stream or a future, is to be told at `out`: a code, or STRM_NO_EVENT. It ends the read or
   write that it tells of. Refused: STRM_UNKNOWN_GUEST, STRM_UNKNOWN_HANDLE, STRM_WRONG_KIND. */
STRM_ANSWER strm_take_event(strm_store *store, uint32_t guest, uint32_t handle, uint32_t *out);

/* FUTURES, AS STREAMS OF ONE VALUE */

/* Makes a future whose two ends the guest gets, and puts their handles and the future's number at `out`, as
   strm_stream_new does. `canon future.new`. Refused: STRM_UNKNOWN_GUEST, STRM_INDEX_OVERFLOW, STRM_HANDLE_LIMIT,
   STRM_FULL. STRM_GUEST_LIMIT, STRM_OUT_OF_MEMORY, STRM_UNKNOWN_PAYLOAD. */
STRM_ANSWER strm_future_new(strm_store *store, uint32_t guest, strm_payload payload, strm_pair *out);

/* Writes the value that lies at `address` of the guest's memory, and puts the code at `out`. `canon future.write`.
   Refused: STRM_UNKNOWN_GUEST, STRM_OUT_OF_BOUNDS, STRM_NOT_ALIGNED, STRM_UNKNOWN_HANDLE, STRM_WRONG_KIND,
   STRM_WRONG_TYPE, STRM_CONCURRENT_FUTURE_STREAM_OP, STRM_WRITE_TO_DROPPED_FUTURE, STRM_INTRA_COMPONENT.
   STRM_BAD_ITEM, STRM_UNKNOWN_PAYLOAD. */
STRM_ANSWER strm_future_write(
    strm_store *store, uint32_t guest, strm_payload payload, uint32_t handle, uint32_t address, uint32_t *out);

/* Reads the value to `address` of the guest's memory, and puts the code at `out`. `canon future.read`. Refused:
   STRM_UNKNOWN_GUEST, STRM_OUT_OF_BOUNDS, STRM_NOT_ALIGNED, STRM_UNKNOWN_HANDLE, STRM_WRONG_KIND, STRM_WRONG_TYPE,
   STRM_CONCURRENT_FUTURE_STREAM_OP, STRM_FUTURE_ALREADY_READ, STRM_INTRA_COMPONENT. STRM_BAD_ITEM,
   STRM_UNKNOWN_PAYLOAD. */
STRM_ANSWER strm_future_read(
    strm_store *store, uint32_t guest, strm_payload payload, uint32_t handle, uint32_t address, uint32_t *out);

/* Cancels the write that waits, and puts the code at `out`. `canon future.cancel-write`. Refused:
   STRM_UNKNOWN_GUEST, STRM_UNKNOWN_HANDLE, STRM_WRONG_KIND, STRM_WRONG_TYPE, STRM_WRONG_END, STRM_NO_PENDING.
   STRM_UNKNOWN_PAYLOAD. */
STRM_ANSWER strm_future_cancel_write(
    strm_store *store, uint32_t guest, strm_payload payload, uint32_t handle, uint32_t *out);

/* Cancels the read that waits, and puts the code at `out`. `canon future.cancel-read`. Refused: STRM_UNKNOWN_GUEST,
   STRM_UNKNOWN_HANDLE, STRM_WRONG_KIND, STRM_WRONG_TYPE, STRM_WRONG_END, STRM_NO_PENDING. STRM_UNKNOWN_PAYLOAD. */
STRM_ANSWER strm_future_cancel_read(
    strm_store *store, uint32_t guest, strm_payload payload, uint32_t handle, uint32_t *out);

/* Drops the write end. `canon future.drop-writable`. Refused: STRM_UNKNOWN_GUEST, STRM_UNKNOWN_HANDLE,
   STRM_WRONG_KIND, STRM_WRONG_TYPE, STRM_WRONG_END, STRM_BUSY, STRM_FUTURE_WITHOUT_VALUE. STRM_UNKNOWN_PAYLOAD. */
STRM_ANSWER strm_future_drop_writable(
    strm_store *store, uint32_t guest, strm_payload payload, uint32_t handle);

/* Drops the read end. `canon future.drop-readable`. Refused: STRM_UNKNOWN_GUEST, STRM_UNKNOWN_HANDLE,
   STRM_WRONG_KIND, STRM_WRONG_TYPE, STRM_WRONG_END, STRM_BUSY. STRM_UNKNOWN_PAYLOAD. */
STRM_ANSWER strm_future_drop_readable(
    strm_store *store, uint32_t guest, strm_payload payload, uint32_t handle);

/* WHOSE THE ITEM IS AT WHICH A READ OR WRITE STOPS */

/* Puts the item at `out` at which a read (`side` is STRM_SIDE_READING) or a write (any other `side`) with these
   arguments stops: the guest that writes it, its handle of the write end, and the item's place among all items of
   that write, from 0. So whoever is told of a bad item asks whose it is, with the arguments of that call; of a
   future `count` is not looked at. STRM_NO_BAD_ITEM where it would stop at none. STRM_UNKNOWN_PAYLOAD. */
STRM_ANSWER strm_find_bad_item(
    const strm_store *store, uint32_t side, uint32_t guest, strm_type type, uint32_t handle, uint32_t address, uint32_t count, strm_bad_item *out);

/* ENDS FROM GUEST TO GUEST */

/* Makes a stream or future from one guest to another, which may be the same, and puts the handles of its ends and
   its number at `out`, as strm_stream_new does. Refused: STRM_UNKNOWN_GUEST, STRM_INDEX_OVERFLOW, STRM_HANDLE_LIMIT,
   STRM_FULL. STRM_GUEST_LIMIT, STRM_OUT_OF_MEMORY, STRM_UNKNOWN_PAYLOAD. */
STRM_ANSWER strm_new_between(
    strm_store *store, uint32_t writer, uint32_t reader, strm_type type, strm_pair *out);

/* Moves an end of a stream, read or write, to the guest `to`, which may be the same, and puts its handle there at
   `out`. Refused: STRM_UNKNOWN_GUEST, STRM_UNKNOWN_HANDLE, STRM_WRONG_KIND, STRM_WRONG_TYPE, STRM_BUSY,
   STRM_LIFT_DROPPED, STRM_LIFT_IN_SET, STRM_INDEX_OVERFLOW. STRM_GUEST_LIMIT, STRM_OUT_OF_MEMORY, where the two
   guests differ; STRM_UNKNOWN_PAYLOAD. */
STRM_ANSWER strm_stream_transfer(
    strm_store *store, uint32_t guest, strm_payload payload, uint32_t handle, uint32_t to, uint32_t *out);

/* Moves an end of a future, read or write, to the guest `to`, which may be the same, and puts its handle there at
   `out`. Refused: STRM_UNKNOWN_GUEST, STRM_UNKNOWN_HANDLE, STRM_WRONG_KIND, STRM_WRONG_TYPE, STRM_BUSY,
   STRM_LIFT_DROPPED, STRM_LIFT_IN_SET, STRM_INDEX_OVERFLOW. STRM_GUEST_LIMIT, STRM_OUT_OF_MEMORY, where the two
   guests differ; STRM_UNKNOWN_PAYLOAD. */
STRM_ANSWER strm_future_transfer(
    strm_store *store, uint32_t guest, strm_payload payload, uint32_t handle, uint32_t to, uint32_t *out);

/* Takes a read end out of a guest, and puts the number of its stream at `out`, by which strm_lower and strm_close
   name it: while the end is loose no other stream gets that number. Refused: STRM_UNKNOWN_GUEST,
   STRM_UNKNOWN_HANDLE, STRM_WRONG_KIND, STRM_WRONG_TYPE, STRM_WRONG_END, STRM_BUSY, STRM_LIFT_DROPPED,
   STRM_LIFT_IN_SET. STRM_UNKNOWN_PAYLOAD. */
STRM_ANSWER strm_lift(strm_store *store, uint32_t guest, strm_type type, uint32_t handle, uint32_t *out);

/* Gives a guest the loose read end of a stream, and puts its handle at `out`. Refused: STRM_UNKNOWN_GUEST,
   STRM_UNKNOWN_READER, STRM_WRONG_KIND, STRM_WRONG_TYPE, STRM_INDEX_OVERFLOW, STRM_HANDLE_LIMIT. STRM_GUEST_LIMIT,
   STRM_OUT_OF_MEMORY, STRM_UNKNOWN_PAYLOAD. */
STRM_ANSWER strm_lower(strm_store *store, uint32_t reader, uint32_t guest, strm_type type, uint32_t *out);

/* Drops the loose read end of a stream. Refused: STRM_UNKNOWN_READER. */
STRM_ANSWER strm_close(strm_store *store, uint32_t reader);

/* WAITABLE SETS */

/* Makes a waitable set, and puts its handle at `out`. `canon waitable-set.new`. Refused: STRM_UNKNOWN_GUEST,
   STRM_INDEX_OVERFLOW, STRM_HANDLE_LIMIT, STRM_FULL. STRM_GUEST_LIMIT, STRM_OUT_OF_MEMORY. */
STRM_ANSWER strm_set_new(strm_store *store, uint32_t guest, uint32_t *out);

/* An end joins a set, and leaves the one that it was in; of set 0 it leaves that alone. `canon waitable.join`.
   Refused: STRM_UNKNOWN_GUEST, STRM_UNKNOWN_HANDLE, STRM_WRONG_KIND. STRM_OUT_OF_MEMORY. */
STRM_ANSWER strm_set_join(strm_store *store, uint32_t guest, uint32_t set, uint32_t handle);

/* Tells the member of the least handle that has something to be told, and puts its handle and code at `out`; where
   none has, the code is STRM_NO_EVENT, and the handle stays. `canon waitable-set.poll`. Refused: STRM_UNKNOWN_GUEST,
   STRM_UNKNOWN_HANDLE, STRM_WRONG_KIND. */
STRM_ANSWER strm_set_poll(strm_store *store, uint32_t guest, uint32_t set, strm_member *out);

/* Gives up a set without members. `canon waitable-set.drop`. Refused: STRM_UNKNOWN_GUEST, STRM_UNKNOWN_HANDLE,
   STRM_WRONG_KIND, STRM_SET_NOT_EMPTY. */
STRM_ANSWER strm_set_drop(strm_store *store, uint32_t guest, uint32_t set);

/* ERROR CONTEXTS */

/* Makes an error context of `len` bytes from `address` of the guest's memory on, its message, and puts its handle at
   `out`. `canon error-context.new`. Refused: STRM_UNKNOWN_GUEST, STRM_MESSAGE_TOO_LONG, STRM_OUT_OF_BOUNDS,
   STRM_BAD_TEXT, STRM_INDEX_OVERFLOW, STRM_HANDLE_LIMIT, STRM_FULL. STRM_GUEST_LIMIT, STRM_OUT_OF_MEMORY. */
STRM_ANSWER strm_error_context_new(
    strm_store *store, uint32_t guest, uint32_t address, uint32_t len, uint32_t *out);

/* Puts the message of an error context at `address` of the guest's memory, and its bytes' number at `out`. `canon
   error-context.debug-message`. Refused: STRM_UNKNOWN_GUEST, STRM_UNKNOWN_HANDLE, STRM_WRONG_KIND,
   STRM_OUT_OF_BOUNDS. */
STRM_ANSWER strm_error_context_message(
    strm_store *store, uint32_t guest, uint32_t handle, uint32_t address, uint32_t *out);

/* Gives the guest `to` a handle to an error context, and puts it at `out`; the first guest keeps its own. Refused:
   STRM_UNKNOWN_GUEST, STRM_UNKNOWN_HANDLE, STRM_WRONG_KIND, STRM_INDEX_OVERFLOW, STRM_HANDLE_LIMIT.
   STRM_GUEST_LIMIT, STRM_OUT_OF_MEMORY. */
STRM_ANSWER strm_error_context_transfer(
    strm_store *store, uint32_t guest, uint32_t handle, uint32_t to, uint32_t *out);

/* Puts the number of the error context of a handle at `out`, by which strm_error_context_lower names it. Refused:
   STRM_UNKNOWN_GUEST, STRM_UNKNOWN_HANDLE, STRM_WRONG_KIND. */
STRM_ANSWER strm_error_context_rep(const strm_store *store, uint32_t guest, uint32_t handle, uint32_t *out);

/* Gives a guest a handle to the error context of a number, and puts it at `out`. Refused: STRM_UNKNOWN_GUEST,
   STRM_UNKNOWN_HANDLE, STRM_INDEX_OVERFLOW, STRM_HANDLE_LIMIT. STRM_GUEST_LIMIT, STRM_OUT_OF_MEMORY. */
STRM_ANSWER strm_error_context_lower(strm_store *store, uint32_t rep, uint32_t guest, uint32_t *out);

/* Gives up a handle of an error context, and the context with the last. `canon error-context.drop`. Refused:
   STRM_UNKNOWN_GUEST, STRM_UNKNOWN_HANDLE, STRM_WRONG_KIND. */
STRM_ANSWER strm_error_context_drop(strm_store *store, uint32_t guest, uint32_t handle);

/* WHAT IS ASKED OF A GUEST'S HANDLES */

/* Puts at `out` what a handle of a guest is of, and of an end all that a runtime asks of it. Nothing is taken of
   what it is to be told. Refused: STRM_UNKNOWN_GUEST, STRM_UNKNOWN_HANDLE. */
STRM_ANSWER strm_handle_info(const strm_store *store, uint32_t guest, uint32_t handle, strm_handle *out);

/* Puts at `out` the least handle of a guest above `after`, and what it is of, as strm_handle_info does; where no
   handle is above it, its number and kind are 0. From 0 on, and then from each handle, it tells all of them, and
   goes over the guest's table once. Refused: STRM_UNKNOWN_GUEST. */
STRM_ANSWER strm_next_handle(const strm_store *store, uint32_t guest, uint32_t after, strm_handle *out);

/* Puts at `out` how many handles a guest has, and looks at none of them. Refused: STRM_UNKNOWN_GUEST. */
STRM_ANSWER strm_handle_count(const strm_store *store, uint32_t guest, uint32_t *out);

/* WHICH GUEST IS READY */

/* Puts at `out` the least guest, of those from a number on, that has an end which is to be told something, or
   STRM_NO_GUEST where none has. It is told as long as that is so, whoever asked before. From 0 on, and then from
   behind each guest, it tells all that are ready, and looks at no guest in vain. strm_next_handle tells which ends
   they are, or strm_set_poll of those in a set. The first call makes counts: it goes over all streams, and takes 8
   to 17 bytes for each guest and 24 for each stream; later ones go over the streams that changed since, each once.
   STRM_OUT_OF_MEMORY, of the first call alone, after which nothing is counted. */
STRM_ANSWER strm_next_ready_guest(strm_store *store, uint32_t from, uint32_t *out);

/* HOW MUCH EACH GUEST MAY HAVE AT ONCE */

/* Sets how much a guest may have at once: handles of whatever kind, ends of streams and futures among them, and
   bytes that the store keeps for it, 4,096 for each handle of an error context. What it has stays, also where that
   is more; it only gets no more of it. It takes 16 bytes for each guest up to this one. Refused: STRM_UNKNOWN_GUEST.
   STRM_OUT_OF_MEMORY. */
STRM_ANSWER strm_set_guest_limits(
    strm_store *store, uint32_t guest, uint32_t handles, uint32_t ends, uint64_t bytes);

/* Puts at `out` how much a guest may have at once. Refused: STRM_UNKNOWN_GUEST. */
STRM_ANSWER strm_guest_limits(const strm_store *store, uint32_t guest, strm_limits *out);

/* TYPES THAT HOLD OTHER TYPES */

/* Puts at `out` the payload that these words spell, each of them a byte: a type before the types that it holds, as
   STRM_WORD_RESULT, STRM_WORD_NOTHING, STRM_WORD_ENUM(3). It is built once, and then passed as any other.
   STRM_TYPE_TOO_LONG. STRM_NO_TYPE. */
STRM_ANSWER strm_type_of(const uint8_t *words, size_t len, uint64_t *out);

#ifdef __cplusplus
}
#endif
#endif
