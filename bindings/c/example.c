/* example.c: what an mbox holds. For each message when it was sent, and then the threads, each row at its depth.
 *
 *   cc -I.. example.c ../out/libluvazhimba.a -o example && ./example < MBOX
 */
#include "luvazhimba.h"
#include <inttypes.h>
#include <stdio.h>
#include <stdlib.h>
#include <sys/random.h>

int main(void) {
    static uint8_t mbox[1 << 26];
    size_t len = fread(mbox, 1, sizeof mbox, stdin), count = 0;
    uint64_t keys[2];
    if (luv_cut(mbox, len, NULL, 0, &count) > LUV_NO_ROOM || getrandom(keys, sizeof keys, 0) != sizeof keys) return 1;

    struct luv_message *messages = calloc(count + 1, sizeof *messages);
    struct luv_row *rows = calloc(2 * count + 1, sizeof *rows);
    if (!messages || !rows || luv_cut(mbox, len, messages, count, &count) != LUV_DONE) return 1;
    for (size_t at = 0; at < count; at++) {
        int64_t sent;
        const struct luv_message *it = &messages[at];
        if (luv_sent_date(mbox + it->start, it->end - it->start, it->arrival, &sent) != LUV_DONE) return 1;
        printf("%zu sent %" PRId64 "\n", at, sent);
    }
    if (luv_threads(mbox, len, messages, count, true, keys[0], keys[1], rows, 2 * count, &count) != LUV_DONE) return 1;
    for (size_t at = 0; at < count; at++) {
        printf("%*s%s", (int)(2 * rows[at].depth), "", rows[at].is_message ? "" : "-\n");
        if (rows[at].is_message) printf("%zu\n", rows[at].place);
    }
    free(messages);
    free(rows);
    return 0;
}
