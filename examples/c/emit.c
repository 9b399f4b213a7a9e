/* Emits a list of six records as operations, in field q, and runs them as a box does.
 *
 *   cc -Iinclude examples/c/emit.c target/staticlib/libace.a -o target/emit
 *   target/emit
 */

#include <inttypes.h>
#include <stdio.h>

#include "ace.h"

enum { N = 6, K = 2, ROOTS = 1, ROOM = ACE_EMITTED_WORDS + N * ACE_EMITTED_RECORD_WORDS };

/* Enough for every node: a constant has two words, an operation three. */
enum { NODES = K + ROOM };

/* What an operation comes to in field q, where values have no second coordinate. */
static uint64_t applied(uint64_t kind, uint64_t left, uint64_t right) {
    switch (kind) {
    case ACE_KIND_SUB:
        return (left + ACE_Q - right) % ACE_Q;
    case ACE_KIND_MUL:
        return left * right % ACE_Q;
    default:
        return (left + right) % ACE_Q;
    }
}

int main(void) {
    if (ace_interface() != ACE_INTERFACE) {
        printf("the header has interface %d, the archive another\n", ACE_INTERFACE);
        return 1;
    }
    const uint64_t list[3 * N] = {
        0, 5, 0, /* input 5 */
        0, 7, 0, /* input 7 */
        1, 4, 0, /* constant 4 */
        3, 0, 2, /* sub 0 2 */
        5, 1, 0, /* neg 1 */
        4, 3, 4, /* mul 3 4 */
    };
    const uint64_t roots[ROOTS] = {5}, layout[K] = {7, 5}, inputs[K] = {2, 10};
    uint64_t result[ROOM], nodes[NODES], answer[ACE_ANSWER_WORDS];

    ace_emit(ACE_FIELD_Q, list, 3 * N, N, roots, ROOTS, layout, K, K, result, ROOM, answer);
    if (answer[0] != 0) {
        printf("refused %" PRIu64 " %" PRIu64 "\n", answer[0], answer[1]);
        return 1;
    }
    const uint64_t constants = answer[1] - K, operations = answer[2];
    printf("constants %" PRIu64 " operations %" PRIu64 "\n", constants, operations);

    /* Nodes are counted down: the layout's inputs, then the constants, then the operations. */
    uint64_t node = K + constants + operations;
    for (uint64_t place = 0; place < K; place++) nodes[--node] = inputs[place];
    for (uint64_t place = 0; place < constants; place++) nodes[--node] = result[2 * place];
    const uint64_t *next = result + 2 * constants;
    for (uint64_t place = 0; place < operations; place++, next += 3) {
        nodes[--node] = applied(next[0], nodes[next[1]], nodes[next[2]]);
        printf("node %" PRIu64 " is %" PRIu64 "\n", node, nodes[node]);
    }

    /* A root that is not the last operation is refused. */
    const uint64_t earlier[ROOTS] = {4};
    ace_emit(ACE_FIELD_Q, list, 3 * N, N, earlier, ROOTS, layout, K, K, result, ROOM, answer);
    printf("refused %" PRIu64 " %" PRIu64 "\n", answer[0], answer[1]);
    return 0;
}
