/* Reads a QCIR text from standard input and writes its prenex form to standard
 * output: as a QCIR text or, with the argument qdimacs, as clauses. A text that
 * is refused is named on standard error by number and position. */
#include <stdio.h>
#include <stdlib.h>
#include <string.h>
#include "wakubinryo.h"

/* The longest text, and a byte more, by which one that is too long is known. */
static uint8_t text[65536 + 1];

int main(int argc, char **argv) {
    uint32_t format = WAKUBINRYO_QCIR;
    size_t room = WAKUBINRYO_QCIR_ROOM;
    if (argc == 2 && strcmp(argv[1], "qdimacs") == 0) {
        format = WAKUBINRYO_QDIMACS;
        room = WAKUBINRYO_QDIMACS_ROOM;
    } else if (argc != 1) {
        fprintf(stderr, "usage: lift_text [qdimacs]\n");
        return 2;
    }
    size_t length = fread(text, 1, sizeof text, stdin);
    if (ferror(stdin)) {
        perror("standard input");
        return 2;
    }
    uint8_t *out = malloc(room);
    if (out == NULL) {
        perror("malloc");
        return 2;
    }
    /* The room is enough for every text, so this is never refused by 9. */
    uint64_t answer[WAKUBINRYO_LIFT_TEXT_ANSWER];
    wakubinryo_lift_text(text, length, format, out, room, answer);
    int status = 0;
    if (answer[WAKUBINRYO_NUMBER] != 0) {
        fprintf(stderr, "refused: %lu at %lu\n", (unsigned long)answer[WAKUBINRYO_NUMBER],
                (unsigned long)answer[WAKUBINRYO_POSITION]);
        status = 1;
    } else {
        size_t bytes = (size_t)answer[WAKUBINRYO_BYTES_WRITTEN];
        if (fwrite(out, 1, bytes, stdout) != bytes || fflush(stdout) != 0) {
            perror("standard output");
            status = 2;
        }
    }
    free(out);
    return status;
}
