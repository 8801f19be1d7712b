/* Runs the script on standard input, or in the file that is named, and prints the report. */
#include <stdio.h>

#include "tinglacier.h"

enum { NODES = 1024, FIRST_SERIAL = 1, REPORT_ROOM = 65536, TEXT_ROOM = 128 };

static tinglacier_node nodes[NODES];
/* One byte more than the longest script, so that a longer one shows. */
static uint8_t script[TINGLACIER_LONGEST_SCRIPT + 1];
static uint8_t report[REPORT_ROOM];

int main(int argc, char **argv) {
    FILE *in = argc > 1 ? fopen(argv[1], "rb") : stdin;
    if (in == NULL) {
        perror(argv[1]);
        return 1;
    }
    size_t length = fread(script, 1, sizeof script, in);
    if (ferror(in)) {
        perror("reading the script");
        return 1;
    }
    tinglacier_outcome outcome = tinglacier_run(script, length, nodes, NODES, FIRST_SERIAL, report, sizeof report);
    if (fwrite(report, 1, outcome.length, stdout) != outcome.length || fflush(stdout) != 0) {
        perror("writing the report");
        return 1;
    }
    if (outcome.refusal != TINGLACIER_RAN) {
        uint8_t text[TEXT_ROOM] = {0};
        size_t text_length = tinglacier_refusal_text(outcome.refusal, text, sizeof text);
        fprintf(stderr, "refused (%d): %.*s\n", outcome.refusal, (int)text_length, (const char *)text);
        return 1;
    }
    return 0;
}
