/* The proved functions for C and C++: the check of a SAFL design table, operations' child counts, the arbiter list and sheet, the circuit.
   Link crates/exports/out/libexports.a, which `rt lib` in crates/exports writes for x86-64 Linux. docs/RULES.md has the rules and the
   numbers of the refusals, docs/FORMATS.md the bytes, examples/run.c a whole program.

   Memory is lent for the length of a call: nothing is kept, and nothing is allocated. A number beside a pointer counts elements, not bytes;
   no pointer is null, also where the number is 0. What a function writes to must not overlap anything else that the call is lent. Any bytes
   may be lent as a table or as tags, and any numbers as a state, but that a bool is 0 or 1: what breaks a rule is refused. */
#ifndef SAFL_H
#define SAFL_H

#include <stdbool.h>
#include <stddef.h>
#include <stdint.h>

#ifdef __cplusplus
extern "C" {
#endif

/* The limits. The longest table is 4 + 4 * 32 + 10 * 512 bytes; a tag list has (N + 7) / 8 bytes for N nodes; a sheet has at most 24 pages
   of 24 lines of 33 bytes. */
enum {
    SAFL_FUNCTIONS = 32,
    SAFL_NODES = 512,
    SAFL_REGISTERS = 8 * SAFL_FUNCTIONS,
    SAFL_TABLE_BYTES = 5252,
    SAFL_TAG_BYTES = 64,
    SAFL_SHEET_BYTES = 19008
};

/* An answer of 32 bits, but that of table_operation_counts, is 0, or a refusal: number * 65536 + place.
   An answer of 64 bits, but that of list_total, has its kind in the upper half, and a value or a refusal in the lower. */
enum {
    SAFL_PLAIN = 0,   /* started, taken, the whole list, at rest, none: as the function says; the lower half is 0 */
    SAFL_VALUE = 1,   /* the lower half is a value */
    SAFL_REFUSED = 2, /* the lower half is a refusal */
    SAFL_SPENT = 3    /* the budget is spent; the lower half is 0 */
};

static inline uint32_t safl_kind(uint64_t answer) {
    return (uint32_t)(answer >> 32);
}

static inline uint32_t safl_lower(uint64_t answer) {
    return (uint32_t)(answer & 0xffffffffu);
}

static inline unsigned safl_number(uint32_t refusal) {
    return refusal >> 16;
}

static inline unsigned safl_place(uint32_t refusal) {
    return refusal & 0xffffu;
}

/* Child counts are fewest * 65536 + most. */
static inline unsigned safl_fewest(uint32_t counts) {
    return counts >> 16;
}

static inline unsigned safl_most(uint32_t counts) {
    return counts & 0xffffu;
}

/* ---- The table: refusals 1 to 9, then 25 */

/* 0 for an accepted table, or a refusal. */
uint32_t table_check(const uint8_t *table, size_t table_len);

/* The fewest and the most children of a primitive with this operation: safl_fewest and safl_most read them off. Every byte is answered,
   with 0 where it is no operation; a larger number is cut to its lowest byte, as C does. */
uint32_t table_operation_counts(uint8_t operation);

/* ---- The arbiter list. The table's refusals, 1 to 9 and 25, come first, then 10. */

/* A call that needs an arbiter: the function called, the function it stands in, its node. All three count from 1. */
struct safl_record {
    uint16_t callee;
    uint16_t caller;
    uint16_t node;
};

/* Fills the tags: bit (n - 1) % 8 of byte (n - 1) / 8 becomes 1 where node n needs an arbiter, every other bit 0. 0; or a refusal, the tags
   as they were: 10 at place 0 where their number is not (N + 7) / 8. */
uint32_t list_fill_tags(const uint8_t *table, size_t table_len, uint8_t *tags, size_t tags_len);

/* 0 for tags that fit the table, or a refusal. They need not hold its list: list_missing looks at that. */
uint32_t list_check_tags(const uint8_t *table, size_t table_len, const uint8_t *tags, size_t tags_len);

/* The lowest listed call without a tag, which circuit_start refuses 26 for. SAFL_PLAIN: each listed call has a tag; SAFL_VALUE: that call's
   node; SAFL_REFUSED: the table, then 10. Nothing is written. */
uint64_t list_missing(const uint8_t *table, size_t table_len, const uint8_t *tags, size_t tags_len);

/* How many bits are set, modulo 2^64: of a table's own list, how many records it has. */
uint64_t list_total(const uint8_t *tags, size_t tags_len);

/* Record number `index`, from 0, ordered by callee, then node. SAFL_PLAIN: past the last; SAFL_VALUE: callee * 2^24 + caller * 2^16 + node;
   SAFL_REFUSED. It makes the list anew at each call: for all of it take the next one. */
uint64_t list_record(const uint8_t *table, size_t table_len, size_t index);

/* Fills records from the front, in the same order; those past the list's end stay as they were. 0; or a refusal, all of them as they were:
   10 at place 0 where fewer are lent than the list has. */
uint32_t list_fill_records(const uint8_t *table, size_t table_len, struct safl_record *records, size_t records_len);

/* ---- The arbiter sheet: the list by resource, in pages of 24 lines of 32 characters and a line feed. */

/* Prints the sheet of a table into the text, from the front; bytes past its end stay as they were, and no zero byte is put there.
   SAFL_VALUE: the number of its bytes; SAFL_REFUSED, by the table alone, the text as it was. */
uint64_t sheet_fill(const uint8_t *table, size_t table_len, uint8_t text[SAFL_SHEET_BYTES]);

/* ---- The circuit under a tag list. The refusals of table and tags, 1 to 9, 25 and 10, come first; then 11 and 26 of a start; 12, 24, 20,
   and 21, 22 or 23 of a step; 24 of a query and of a run, whose steps follow. */

/* A circuit's state: five arrays, each lent by itself. Node n is at n - 1; the registers of function f are at 8 * (f - 1) to 8 * f - 1, its
   occupant is at f - 1. A start fills all of it; before one, zeros will do. */
struct safl_state {
    uint8_t status[SAFL_NODES];
    bool second[SAFL_NODES];
    uint32_t value[SAFL_NODES];
    uint32_t registers[SAFL_REGISTERS];
    uint16_t occupant[SAFL_FUNCTIONS];
};

/* The five arrays of a struct safl_state, as the functions below take them. */
#define SAFL_LENT(state) (state)->status, (state)->second, (state)->value, (state)->registers, (state)->occupant

/* Starts main with these arguments, each reduced to main's width. SAFL_PLAIN: started, and the tags hold the table's list; SAFL_REFUSED,
   the state as it was: 26 at the lowest listed call without a tag comes last. */
uint64_t circuit_start(const uint8_t *table, size_t table_len, const uint8_t *tags, size_t tags_len, uint8_t status[SAFL_NODES],
                       bool second[SAFL_NODES], uint32_t value[SAFL_NODES], uint32_t registers[SAFL_REGISTERS],
                       uint16_t occupant[SAFL_FUNCTIONS], const uint32_t *args, size_t args_len);

/* A step at a node. SAFL_PLAIN: taken; SAFL_VALUE: taken, and main has answered with this value; SAFL_REFUSED, the state as it was. */
uint64_t circuit_step(const uint8_t *table, size_t table_len, const uint8_t *tags, size_t tags_len, uint8_t status[SAFL_NODES],
                      bool second[SAFL_NODES], uint32_t value[SAFL_NODES], uint32_t registers[SAFL_REGISTERS],
                      uint16_t occupant[SAFL_FUNCTIONS], uint16_t node);

/* Steps at these nodes, in order. SAFL_PLAIN: all taken; SAFL_REFUSED: the first that is refused, the state as the steps before it left it.
   *count gets the number of steps taken; it stays as it was, like the state, where table, tags or state (24) are refused. */
uint64_t circuit_run(const uint8_t *table, size_t table_len, const uint8_t *tags, size_t tags_len, uint8_t status[SAFL_NODES],
                     bool second[SAFL_NODES], uint32_t value[SAFL_NODES], uint32_t registers[SAFL_REGISTERS],
                     uint16_t occupant[SAFL_FUNCTIONS], const uint16_t *nodes, size_t nodes_len, size_t *count);

/* The first possible step, again and again, at most `budget` times: each at the node that circuit_query would name. SAFL_PLAIN: at rest, no
   step is possible; SAFL_VALUE: main has answered with this value; SAFL_SPENT; SAFL_REFUSED, state and *count as they were: table, tags or
   state (24). Else *count gets the number of steps taken. */
uint64_t circuit_drive(const uint8_t *table, size_t table_len, const uint8_t *tags, size_t tags_len, uint8_t status[SAFL_NODES],
                       bool second[SAFL_NODES], uint32_t value[SAFL_NODES], uint32_t registers[SAFL_REGISTERS],
                       uint16_t occupant[SAFL_FUNCTIONS], uint32_t budget, uint32_t *count);

/* The first possible step. SAFL_PLAIN: there is none; SAFL_VALUE: the lowest node at which a step is possible; SAFL_REFUSED. Nothing is
   written. */
uint64_t circuit_query(const uint8_t *table, size_t table_len, const uint8_t *tags, size_t tags_len, const uint8_t status[SAFL_NODES],
                       const bool second[SAFL_NODES], const uint32_t value[SAFL_NODES], const uint32_t registers[SAFL_REGISTERS],
                       const uint16_t occupant[SAFL_FUNCTIONS]);

#ifdef __cplusplus
}
#endif

#endif
