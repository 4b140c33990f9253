/* Writes the prenex form of: variable 1 xor (exists 2: 2 and 1). Then asks for
 * that of a table which is no tree and of one with an empty block, and says why
 * they are refused; the latter it lifts without its empty block. */
#include <stdio.h>
#include <stdlib.h>
#include "wakubinryo.h"

static void print(const char *name, const uint32_t *words, size_t count, size_t width) {
    printf("%s\n", name);
    for (size_t i = 0; i < count * width; i++)
        printf("%u%c", (unsigned)words[i], (i + 1) % width ? ' ' : '\n');
}

static void print_refusal(const uint32_t *answer) {
    printf("refused: %u at %u", (unsigned)answer[WAKUBINRYO_NUMBER],
           (unsigned)answer[WAKUBINRYO_POSITION]);
    if (answer[WAKUBINRYO_FIRST_USER] != 0)
        printf(", named by %u and %u", (unsigned)answer[WAKUBINRYO_FIRST_USER],
               (unsigned)answer[WAKUBINRYO_SECOND_USER]);
    printf("\n");
}

static uint32_t *allocate(size_t words) {
    uint32_t *out = malloc(words * sizeof *out);
    if (out == NULL) {
        perror("malloc");
        exit(EXIT_FAILURE);
    }
    return out;
}

static void lift(const uint32_t *words, size_t words_len, const uint32_t *list, size_t list_len) {
    uint32_t answer[WAKUBINRYO_SIZES_ANSWER];
    wakubinryo_measure(words, words_len, list, list_len, answer);
    if (answer[WAKUBINRYO_NUMBER] != 0) {
        print_refusal(answer);
        return;
    }
    size_t nodes = answer[WAKUBINRYO_NODES], nodes_len = WAKUBINRYO_NODE_WORDS * nodes;
    size_t blocks = answer[WAKUBINRYO_BLOCKS], prefix_len = WAKUBINRYO_PREFIX_WORDS * blocks;
    size_t variables = answer[WAKUBINRYO_VARIABLES];
    uint32_t *out = allocate(nodes_len + prefix_len + variables);
    uint32_t *prefix = out + nodes_len, *names = prefix + prefix_len;
    /* The buffers are as long as was measured, so this is done. */
    wakubinryo_lift(words, words_len, list, list_len, out, nodes_len, prefix, prefix_len, names,
                    variables, answer);
    print("nodes", out, nodes, WAKUBINRYO_NODE_WORDS);
    print("prefix", prefix, blocks, WAKUBINRYO_PREFIX_WORDS);
    print("variables", names, variables, 1);
    free(out);
}

/* Lifts a table that may have empty blocks. */
static void lift_stored(const uint32_t *words, size_t words_len, const uint32_t *list,
                        size_t list_len) {
    uint32_t answer[WAKUBINRYO_LEFT_ANSWER];
    /* No more words are left than there are. */
    uint32_t *nodes = allocate(words_len);
    wakubinryo_remove_empty_blocks(words, words_len, list, list_len, nodes, words_len, answer);
    if (answer[WAKUBINRYO_NUMBER] != 0)
        print_refusal(answer);
    else
        lift(nodes, WAKUBINRYO_NODE_WORDS * (size_t)answer[WAKUBINRYO_LEFT], list, list_len);
    free(nodes);
}

int main(void) {
    const uint32_t words[] = {2, 1, 0, 0,  2, 2, 0, 0,  2, 1, 0, 0,
                              4, 8, 1, 2,  5, 0, 1, 3,  4, 6, 0, 4};
    const uint32_t list[] = {2};
    lift(words, 24, list, 1);
    /* Node 1 names node 0 twice. */
    const uint32_t shared[] = {2, 1, 0, 0,  4, 9, 0, 0};
    lift(shared, 8, list, 1);
    /* Not (exists: 1), with no variable in the block. */
    const uint32_t stored[] = {2, 1, 0, 0,  5, 0, 0, 0,  3, 1, 0, 0};
    lift(stored, 12, list, 1);
    lift_stored(stored, 12, list, 1);
    return 0;
}
