/* The register for C: a script is run in memory that the caller lends.
   It is for C11 and C++11, and later. docs/linking.md says how to build and link the library, and what it trusts its caller to keep. */
#ifndef TINGLACIER_H
#define TINGLACIER_H

#include <assert.h>
#include <stddef.h>
#include <stdint.h>

#ifdef __cplusplus
extern "C" {
#endif

/* The most bytes of a script. */
#define TINGLACIER_LONGEST_SCRIPT 32768

/* The most nodes that a run uses. */
#define TINGLACIER_MOST_NODES 65535

/* How a run can end. */
enum {
    TINGLACIER_RAN = 0,
    TINGLACIER_SCRIPT_TOO_LONG = 17,
    TINGLACIER_REPORT_FULL = 20
};

/* A node, to be lent. What it holds is the library's own. */
typedef struct tinglacier_node {
    uint64_t words[5];
} tinglacier_node;

/* How a run ended: the bytes of the report, and TINGLACIER_RAN or the number of the refusal. */
typedef struct tinglacier_outcome {
    size_t length;
    uint8_t refusal;
} tinglacier_outcome;

/* The library has these layouts, which its contract states. */
static_assert(sizeof(tinglacier_node) == 40, "a node has 40 bytes");
static_assert(sizeof(tinglacier_outcome) == 16, "an outcome has 16 bytes");
static_assert(offsetof(tinglacier_outcome, length) == 0, "the length lies at the front");
static_assert(offsetof(tinglacier_outcome, refusal) == 8, "the refusal lies behind the length");

/* Runs a script in a new register over the lent nodes, and writes the report.
   It reads the script_length bytes at script. It writes only the nodes, of which it uses the first TINGLACIER_MOST_NODES at most,
   and the report_room bytes at report. It keeps none of them when it returns.
   The refusal is one of
   TINGLACIER_RAN: the report is whole;
   TINGLACIER_REPORT_FULL: the report has the lines up to the first that did not fit;
   TINGLACIER_SCRIPT_TOO_LONG: nothing was run, and nothing written. */
tinglacier_outcome tinglacier_run(
    const uint8_t *script, size_t script_length,
    tinglacier_node *nodes, size_t node_count,
    uint32_t first_serial,
    uint8_t *report, size_t report_room);

/* Writes the text of the refusal that has the number, as far as it fits into the room bytes at text, with no zero byte behind it.
   Gives the bytes written, and leaves those behind them as they were. Where no refusal has the number it writes none. */
size_t tinglacier_refusal_text(uint8_t number, uint8_t *text, size_t room);

#ifdef __cplusplus
}
#endif

#endif
