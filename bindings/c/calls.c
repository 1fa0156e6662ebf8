/* calls.c: each call of the library with what it has to answer, and with what it has to refuse. The last line is
 * 'N passed, M failed'; status 1 where one failed.
 *
 * Under tools/refuse.c with REFUSE_MARKS a growth of memory of the first of two equal calls is refused: it may then say so, and
 * the second one has to answer. All calls are made three times, and after the third time as much memory is in use as after the second.
 */
#include "luvazhimba.h"
#include <malloc.h>
#include <stdio.h>
#include <stdlib.h>
#include <string.h>
#include <unistd.h>

#define BYTES(text) (const uint8_t *)(text), sizeof(text) - 1
#define ROOM(array) (array), sizeof(array) / sizeof *(array)
#define CALL(call) (mark("begin\n"), status = (call), mark("end\n"), status == LUV_NO_MEMORY ? (call) : status)

static int passed, failed;
static uint8_t status;

static void check(bool is_right, const char *what) {
    is_right ? passed++ : failed++;
    if (!is_right) printf("FAILED %s\n", what);
}

static void mark(const char *word) {
    if (getenv("REFUSE_MARKS") && write(2, word, strlen(word)) < 0) failed++;
}

static void try_subjects(void) {
    uint8_t text[64];
    struct luv_base found = {0, false};
    check(CALL(luv_base_subject(BYTES("Re: [soc] Hello (fwd)"), ROOM(text), &found)) == LUV_DONE, "a base");
    check(found.len == 5 && found.is_reply && !memcmp(text, "hello", 5), "of a reply");
    check(CALL(luv_base_subject(BYTES("a\tB"), ROOM(text), &found)) == LUV_DONE, "another base");
    check(found.len == 3 && !found.is_reply && !memcmp(text, "a b", 3), "of no reply");
    check(CALL(luv_base_subject(BYTES("Re: Hello"), text, 4, &found)) == LUV_NO_ROOM && found.len == 5, "a base that has no room");
    check(CALL(luv_base_subject(NULL, 0, NULL, 0, &found)) == LUV_DONE && found.len == 0 && !found.is_reply, "the base of nothing");
    check(luv_base_subject(text, SIZE_MAX, ROOM(text), &found) == LUV_TOO_LONG, "a subject that is too long");
}

static void try_ids(void) {
    uint8_t texts[64];
    size_t lens[4];
    struct luv_ids found = {0, 0, 0};
    check(CALL(luv_message_ids(BYTES("Message-ID: <a@b>\nReferences: <\"c d\"@e> (x)\n <f@g>\n\n"), ROOM(texts), ROOM(lens), &found)) == LUV_DONE, "ids");
    check(found.own == 1 && found.count == 3 && found.len == 11, "how many");
    check(!memcmp(texts, "a@bc d@ef@g", 11) && lens[0] == 3 && lens[1] == 5 && lens[2] == 3, "which");
    check(CALL(luv_message_ids(BYTES("In-Reply-To: <a@b> <c@d>\n\n"), ROOM(texts), ROOM(lens), &found)) == LUV_DONE, "a reply's ids");
    check(found.own == 0 && found.count == 1 && !memcmp(texts, "a@b", 3), "the first alone");
    check(CALL(luv_message_ids(BYTES("References: <a@b> <c@d>\n"), texts, 5, ROOM(lens), &found)) == LUV_NO_ROOM && found.len == 6, "no room for texts");
    check(CALL(luv_message_ids(BYTES("References: <a@b> <c@d>\n"), ROOM(texts), lens, 1, &found)) == LUV_NO_ROOM && found.count == 2, "no room for lens");
    check(CALL(luv_message_ids(NULL, 0, NULL, 0, NULL, 0, &found)) == LUV_DONE && found.count == 0, "the ids of nothing");
    check(luv_message_ids(texts, SIZE_MAX, ROOM(texts), ROOM(lens), &found) == LUV_TOO_LONG, "a message that is too long");
}

static void try_dates(void) {
    int64_t sent = 0;
    check(luv_sent_date(BYTES("Date: Tue, 4 Mar 2003 10:00:00 +0100\n\n"), 5, &sent) == LUV_DONE && sent == 1046768400, "a date");
    check(luv_sent_date(BYTES("Date: soon\n\n"), 5, &sent) == LUV_DONE && sent == 5, "no date");
    check(luv_sent_date(NULL, 0, -2208988800, &sent) == LUV_DONE && sent == -2208988800, "the first arrival");
    check(luv_sent_date(NULL, 0, -2208988801, &sent) == LUV_NO_INSTANT, "an arrival in 1899");
    check(luv_sent_date(NULL, SIZE_MAX, 5, &sent) == LUV_TOO_LONG, "a message that is too long");
}

#define MBOX "\nFrom a@b Tue Mar  4 10:00:00 2003\nMessage-ID: <a@b>\n\nx\n\nFrom c@d Tue Mar  4 11:00:00 2003\nReferences: <a@b>\n\n"

static void try_cutting(void) {
    struct luv_message messages[4];
    size_t count = 9;
    check(luv_cut(BYTES(MBOX), ROOM(messages), &count) == LUV_DONE && count == 2, "an mbox");
    check(messages[0].start == 35 && messages[0].end == 56 && messages[0].arrival == 1046772000, "its first message");
    check(messages[1].start == 91 && messages[1].end == 109 && messages[1].arrival == 1046775600, "its second message");
    check(luv_cut(BYTES(MBOX), messages, 1, &count) == LUV_NO_ROOM && count == 2, "an mbox that has no room");
    check(luv_cut(BYTES("\n\nno\n"), ROOM(messages), &count) == LUV_NO_MBOX && count == 2, "no mbox");
    check(luv_cut(NULL, 0, NULL, 0, &count) == LUV_DONE && count == 0, "an mbox without messages");
    check(luv_cut(BYTES("From a@b Tue Mar  4 10:00:00 2003"), ROOM(messages), &count) == LUV_DONE && count == 1, "a separator line alone");
    check(messages[0].start == 33 && messages[0].end == 33, "stands before the end");
    check(luv_cut(NULL, SIZE_MAX, ROOM(messages), &count) == LUV_TOO_LONG, "an mbox that is too long");
}

#define MESSAGE "From: Anna\n <a@b>\nSubject: Re: Hello\nMessage-ID: <a@b>\nReferences: <c@d> <e@f>\nDate: Tue, 4 Mar 2003 10:00:00 +0100\n\nx\n"

static void try_fields(void) {
    uint8_t texts[64];
    size_t lens[8];
    struct luv_fields found = {0, 0, 0, 0, false};
    check(CALL(luv_fields(BYTES(MESSAGE), 5, ROOM(texts), ROOM(lens), &found)) == LUV_DONE, "fields");
    check(found.sent == 1046768400 && found.own == 1 && found.count == 5 && found.len == 30 && found.is_dated, "their numbers");
    check(!memcmp(texts, " Re: Hello Anna <a@b>a@bc@de@f", 30), "their texts");
    check(lens[0] == 10 && lens[1] == 11 && lens[2] == 3 && lens[3] == 3 && lens[4] == 3, "how long each is");
    check(CALL(luv_fields(BYTES(MESSAGE), 5, texts, 29, ROOM(lens), &found)) == LUV_NO_ROOM && found.len == 30, "fields that have no room");
    check(CALL(luv_fields(BYTES(MESSAGE), 5, ROOM(texts), lens, 4, &found)) == LUV_NO_ROOM && found.count == 5, "lengths that have no room");
    check(CALL(luv_fields(BYTES(MESSAGE), 5, texts, 30, lens, 5, &found)) == LUV_DONE, "fields that have just the room that was wanted");
    check(CALL(luv_fields(NULL, 0, 7, NULL, 0, lens, 2, &found)) == LUV_DONE && found.sent == 7 && !found.is_dated, "the fields of nothing");
    check(found.own == 0 && found.len == 0 && found.count == 2, "which are two");
    check(CALL(luv_fields(BYTES("Date: 1 Jan 1970 00:00 GMT\n\n"), 0, ROOM(texts), ROOM(lens), &found)) == LUV_DONE && found.sent == 0 && found.is_dated, "a message that was sent when it arrived");
    check(CALL(luv_fields(BYTES("Date: soon\n\n"), 0, ROOM(texts), ROOM(lens), &found)) == LUV_DONE && found.sent == 0 && !found.is_dated, "one that does not say when");
    check(luv_fields(BYTES(MESSAGE), INT64_MIN, ROOM(texts), ROOM(lens), &found) == LUV_NO_INSTANT, "fields without an instant");
    check(luv_fields(texts, SIZE_MAX, INT64_MIN, ROOM(texts), ROOM(lens), &found) == LUV_TOO_LONG, "fields of a message that is too long");
}

static bool wants(struct luv_totals found) {
    return found.messages == 2 && found.count == 6 && found.len == 6;
}

static void try_fields_of_mbox(void) {
    struct luv_message messages[4];
    struct luv_fields fields[4];
    uint8_t texts[8];
    size_t lens[8];
    struct luv_totals found = {9, 9, 9};
    check(CALL(luv_fields_of_mbox(BYTES(MBOX), ROOM(messages), ROOM(fields), ROOM(texts), ROOM(lens), &found)) == LUV_DONE && wants(found), "the fields of an mbox");
    check(messages[0].start == 35 && messages[0].end == 56 && messages[1].start == 91 && messages[1].end == 109 && messages[1].arrival == 1046775600, "its messages");
    check(fields[0].sent == 1046772000 && fields[0].own == 1 && fields[0].count == 3 && fields[0].len == 3, "of its first message");
    check(fields[1].sent == 1046775600 && fields[1].own == 0 && fields[1].count == 3 && fields[1].len == 3, "of its second message");
    check(!memcmp(texts, "a@ba@b", 6) && lens[0] + lens[1] + lens[3] + lens[4] == 0 && lens[2] == 3 && lens[5] == 3, "texts of both");
    check(CALL(luv_fields_of_mbox(BYTES(MBOX), messages, 1, ROOM(fields), ROOM(texts), ROOM(lens), &found)) == LUV_NO_ROOM && wants(found), "no room for messages");
    check(CALL(luv_fields_of_mbox(BYTES(MBOX), ROOM(messages), fields, 1, ROOM(texts), ROOM(lens), &found)) == LUV_NO_ROOM && wants(found), "no room for fields");
    check(CALL(luv_fields_of_mbox(BYTES(MBOX), ROOM(messages), ROOM(fields), texts, 5, ROOM(lens), &found)) == LUV_NO_ROOM && wants(found), "no room for texts of an mbox");
    check(CALL(luv_fields_of_mbox(BYTES(MBOX), ROOM(messages), ROOM(fields), ROOM(texts), lens, 5, &found)) == LUV_NO_ROOM && wants(found), "no room for lens of an mbox");
    check(CALL(luv_fields_of_mbox(BYTES(MBOX), messages, 2, fields, 2, texts, 6, lens, 6, &found)) == LUV_DONE && wants(found), "just the room that was wanted");
    check(luv_fields_of_mbox(BYTES("\n\nno\n"), ROOM(messages), ROOM(fields), ROOM(texts), ROOM(lens), &found) == LUV_NO_MBOX && found.messages == 2, "the fields of no mbox");
    check(CALL(luv_fields_of_mbox(NULL, 0, NULL, 0, NULL, 0, NULL, 0, NULL, 0, &found)) == LUV_DONE && found.messages == 0 && found.count == 0, "of nothing");
    check(luv_fields_of_mbox(texts, SIZE_MAX, ROOM(messages), ROOM(fields), ROOM(texts), ROOM(lens), &found) == LUV_TOO_LONG, "of an mbox that is too long");
}

static void try_threads(void) {
    static const char bytes[] = "Message-ID: <a@b>\n\nReferences: <a@b>\n\n";
    struct luv_message messages[] = {{0, 19, 5}, {19, 38, 6}};
    struct luv_row rows[4];
    size_t count = 9;
    check(CALL(luv_threads(BYTES(bytes), ROOM(messages), true, 1, 2, ROOM(rows), &count)) == LUV_DONE && count == 2, "threads");
    check(rows[0].depth == 0 && rows[0].place == 0 && rows[0].is_message, "the first row");
    check(rows[1].depth == 1 && rows[1].place == 1 && rows[1].is_message, "the second row");
    check(CALL(luv_threads(BYTES(bytes), ROOM(messages), true, 1, 2, rows, 1, &count)) == LUV_NO_ROOM && count == 2, "threads that have no room");
    check(CALL(luv_threads(NULL, 0, NULL, 0, true, 1, 2, NULL, 0, &count)) == LUV_DONE && count == 0, "the threads of nothing");
    check(CALL(luv_threads((const uint8_t *)bytes, 37, ROOM(messages), true, 1, 2, ROOM(rows), &count)) == LUV_OUTSIDE, "a message past the end");
    messages[1].start = 39;
    check(CALL(luv_threads(BYTES(bytes), ROOM(messages), true, 1, 2, ROOM(rows), &count)) == LUV_OUTSIDE, "a message that ends before it begins");
    messages[1].start = 19, messages[1].arrival = INT64_MAX;
    check(CALL(luv_threads(BYTES(bytes), ROOM(messages), true, 1, 2, ROOM(rows), &count)) == LUV_NO_INSTANT, "a message without an instant");
    check(luv_threads(BYTES(bytes), messages, SIZE_MAX, true, 1, 2, ROOM(rows), &count) == LUV_TOO_LONG, "messages that are too many");
    check(luv_threads(NULL, SIZE_MAX, messages, 0, true, 1, 2, ROOM(rows), &count) == LUV_TOO_LONG, "bytes that are too many");
    check(luv_threads_of_mbox(NULL, SIZE_MAX, true, 1, 2, ROOM(rows), &count) == LUV_TOO_LONG, "the threads of an mbox that is too long");
    check(CALL(luv_threads_of_mbox(BYTES(MBOX), true, 1, 2, ROOM(rows), &count)) == LUV_DONE && count == 2 && rows[1].depth == 1, "an mbox's threads");
    check(CALL(luv_threads_of_mbox(BYTES(MBOX), true, 1, 2, NULL, 0, &count)) == LUV_NO_ROOM && count == 2, "those that have no room");
    check(CALL(luv_threads_of_mbox(BYTES(MBOX), true, 1, 2, rows, count, &count)) == LUV_DONE && count == 2, "those that have just the room that was wanted");
    check(CALL(luv_threads_of_mbox(BYTES("\nno\n"), true, 1, 2, ROOM(rows), &count)) == LUV_NO_MBOX && count == 1, "the threads of no mbox");
    check(CALL(luv_threads_of_mbox(NULL, 0, false, 1, 2, NULL, 0, &count)) == LUV_DONE && count == 0, "of an mbox without messages");
}

static void try_all(void) {
    try_subjects();
    try_ids();
    try_dates();
    try_cutting();
    try_fields();
    try_fields_of_mbox();
    try_threads();
}

int main(void) {
    setvbuf(stdout, NULL, _IONBF, 0);
    try_all();
    /* (malloc keeps small blocks that were freed for the next call, and counts them as in use: after the second time it keeps no more) */
    try_all();
    size_t before = mallinfo2().uordblks;
    try_all();
    check(mallinfo2().uordblks == before, "memory that is not given back");
    printf("%d passed, %d failed\n", passed, failed);
    return failed != 0;
}
