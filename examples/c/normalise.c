/* Normalises a list of six records with two roots into a store that held something else, and lists
 * what came back.
 *
 *   cc -Iinclude examples/c/normalise.c target/staticlib/libace.a -o target/normalise
 *   target/normalise
 */

#include <inttypes.h>
#include <stdio.h>

#include "ace.h"

enum { N = 6, ROOTS = 2, ROOM = 3 * 10, WORK = 6 * N };

static const char *const KINDS[] = {"in", "const", "add", "sub", "mul", "neg"};

int main(void) {
    if (ace_interface() != ACE_INTERFACE) {
        printf("the header has interface %d, the archive another\n", ACE_INTERFACE);
        return 1;
    }
    const uint64_t list[3 * N] = {
        0, 0, 0, /* input 0 */
        0, 1, 0, /* input 1 */
        0, 2, 0, /* input 2 */
        4, 0, 1, /* mul 0 1 */
        4, 0, 2, /* mul 0 2 */
        2, 3, 4, /* add 3 4 */
    };
    const uint64_t roots[ROOTS] = {5, 0};
    uint64_t result[ROOM], work[WORK], answer[ACE_LIST_WORDS];
    for (int i = 0; i < ROOM; i++) result[i] = 99;
    for (int i = 0; i < WORK; i++) work[i] = 99;

    ace_normalize(ACE_FIELD_P, list, 3 * N, N, roots, ROOTS, result, ROOM, work, WORK, answer);
    if (answer[0] != 0) {
        printf("refused %" PRIu64 " %" PRIu64 "\n", answer[0], answer[1]);
        return 1;
    }
    uint64_t count = answer[1];
    printf("nodes %" PRIu64 " root", count);
    for (int i = 0; i < ROOTS; i++) printf(" %" PRIu64, answer[3 + i]);
    printf(" rounds %" PRIu64 "\n", answer[2]);
    for (uint64_t place = 0; place < count; place++) {
        const uint64_t *record = result + 3 * place;
        printf("%" PRIu64 " %s %" PRIu64 " %" PRIu64 "\n",
               place, KINDS[record[0]], record[1], record[2]);
    }
    uint64_t blank = 0;
    while (3 * count + blank < ROOM && result[3 * count + blank] == ACE_BLANK) blank++;
    printf("%" PRIu64 " words behind, %" PRIu64 " blank\n", ROOM - 3 * count, blank);

    /* Without a work store nothing is written, and the answer says why: 2. */
    ace_normalize(ACE_FIELD_P, list, 3 * N, N, roots, ROOTS, result, ROOM, work, 0, answer);
    printf("refused %" PRIu64 " %" PRIu64 "\n", answer[0], answer[1]);
    return 0;
}
