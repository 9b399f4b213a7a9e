/* Draws a list of three records as Graphviz DOT, and then in a store that is one byte too short.
 *
 *   cc -Iinclude examples/c/draw.c target/staticlib/libace.a -o target/draw
 *   target/draw
 */

#include <inttypes.h>
#include <stdio.h>

#include "ace.h"

enum { N = 3, ROOTS = 1, ROOM = ACE_DRAWING_BYTES + N * ACE_DRAWING_RECORD_BYTES };

int main(void) {
    if (ace_interface() != ACE_INTERFACE) {
        printf("the header has interface %d, the archive another\n", ACE_INTERFACE);
        return 1;
    }
    const uint64_t list[3 * N] = {
        0, 5, 0,         /* input 5 */
        1, ACE_P - 1, 0, /* constant -1 */
        4, 0, 1,         /* mul 0 1 */
    };
    const uint64_t roots[ROOTS] = {2};
    uint8_t text[ROOM];
    uint64_t answer[ACE_ANSWER_WORDS];

    ace_draw(ACE_FIELD_P, list, 3 * N, N, roots, ROOTS, text, ROOM, answer);
    if (answer[0] != 0) {
        printf("refused %" PRIu64 " %" PRIu64 "\n", answer[0], answer[1]);
        return 1;
    }
    printf("%.*s", (int)answer[1], (const char *)text);

    /* In a store that is too short nothing is written, and the answer says why: 41. */
    ace_draw(ACE_FIELD_P, list, 3 * N, N, roots, ROOTS, text, answer[1] - 1, answer);
    printf("refused %" PRIu64 " %" PRIu64 "\n", answer[0], answer[1]);
    return 0;
}
