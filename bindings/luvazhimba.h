/* luvazhimba.h: readers of mail that are proved, for C. README.md in this folder says how to build and link them.
 *
 * Each call returns LUV_DONE if it did what its name says, and else the number of a refusal. After a refusal the contents of the
 * arrays are unspecified; at LUV_NO_ROOM a count says what is needed. The contract of the function of that name in
 * crates/luvazhimba_c/src says exactly what a call writes, and is proved. A call keeps nothing, holds no lock, and frees what it
 * allocated before it returns. Calls may run side by side in threads.
 *
 * The caller's, and checked by nobody: that a pointer points to as many elements as its length says, or to one if it has no
 * length; that it is aligned as its type asks; that no array that is written to overlaps another one of the call; that malloc,
 * realloc and free are one allocator's. An array of no elements may be null.
 */
#ifndef LUVAZHIMBA_H
#define LUVAZHIMBA_H

#define LUV_VERSION "0.3.0"

#include <stdbool.h>
#include <stddef.h>
#include <stdint.h>
#ifdef __cplusplus
extern "C" {
#endif

enum luv_status {
    LUV_DONE = 0,
    LUV_NO_ROOM = 1,    /* an array for the answer is too short */
    LUV_NO_MEMORY = 2,  /* out of memory */
    LUV_NO_INSTANT = 3, /* an arrival lies outside the years 1900 to 9998 */
    LUV_OUTSIDE = 4,    /* a message lies outside the bytes */
    LUV_NO_MBOX = 5,    /* the first line that is not empty is no separator line */
    LUV_TOO_LONG = 6    /* an array that is read has more than 2^40 elements: a length is wrong */
};

struct luv_base {
    size_t len;    /* of the base subject */
    bool is_reply; /* the subject marks a reply or a forward */
};

struct luv_ids {
    size_t own;   /* 1 where the message has an id of its own, which comes first, else 0 */
    size_t count; /* of all ids */
    size_t len;   /* of all their texts together */
};

struct luv_message {
    size_t start, end; /* the text of the message is bytes[start] up to bytes[end - 1] */
    int64_t arrival;   /* in seconds since 1970-01-01 00:00:00 UTC */
};

struct luv_fields {
    int64_t sent;  /* as of luv_sent_date */
    size_t own;    /* as of luv_ids */
    size_t count;  /* of the texts: the subject, From, and the ids */
    size_t len;    /* of all of them together */
    bool is_dated; /* false: the Date field is no date, and sent is the arrival */
};

struct luv_totals {
    size_t messages; /* of an mbox */
    size_t count;    /* of their texts */
    size_t len;      /* of all of them together */
};

struct luv_row {
    size_t depth;    /* 0 at the top */
    size_t place;    /* which message it is, from 0, where is_message */
    bool is_message; /* false: one that others refer to, and that is not there */
};

/* The base of an unfolded subject (RFC 5256, section 2.1), in ASCII lower case: found->len bytes, at most subject_len.
 * LUV_NO_ROOM, LUV_NO_MEMORY, LUV_TOO_LONG. */
uint8_t luv_base_subject(const uint8_t *subject, size_t subject_len, uint8_t *text, size_t text_len, struct luv_base *found);

/* The ids of a message (RFC 5322, section 3.6.4): its own, and then those that it refers to: of References, else the first of
 * In-Reply-To. Each is a text "left@right", without angle brackets and quotes. The texts are in texts, one after the other, and
 * lens says how long each is. At most message_len bytes and message_len / 5 ids.
 * LUV_NO_ROOM, LUV_NO_MEMORY, LUV_TOO_LONG. */
uint8_t luv_message_ids(const uint8_t *message, size_t message_len, uint8_t *texts, size_t texts_len, size_t *lens, size_t lens_len,
                        struct luv_ids *found);

/* When a message was sent, by its Date field (RFC 5322, section 3.3), in seconds since 1970-01-01 00:00:00 UTC; the arrival if that
 * is no date. It takes no memory. LUV_NO_INSTANT, LUV_TOO_LONG. */
uint8_t luv_sent_date(const uint8_t *message, size_t message_len, int64_t arrival, int64_t *sent);

/* All that a message says of itself, in one reading. In texts are, one after the other, the bodies of its Subject and From fields,
 * unfolded and else as they are, mostly with a space in front (luv_base_subject takes such a subject; a field that is not there is
 * empty), and then its ids, as of luv_message_ids; lens says how long each of them is. At most message_len bytes and
 * 2 + message_len / 5 texts.
 * LUV_NO_ROOM, LUV_NO_MEMORY, LUV_NO_INSTANT, LUV_TOO_LONG. */
uint8_t luv_fields(const uint8_t *message, size_t message_len, int64_t arrival, uint8_t *texts, size_t texts_len, size_t *lens,
                   size_t lens_len, struct luv_fields *found);

/* The same of all messages of an mbox: messages is as of luv_cut, and for luv_threads; fields, texts and lens have of each message what
 * luv_fields says, those of one after those of the other. At most mbox_len bytes of texts, and mbox_len / 5 of them and two for each
 * message.
 * LUV_NO_ROOM, LUV_NO_MEMORY, LUV_TOO_LONG; LUV_NO_MBOX, and then found->messages is as *count of luv_cut. */
uint8_t luv_fields_of_mbox(const uint8_t *mbox, size_t mbox_len, struct luv_message *messages, size_t messages_len,
                           struct luv_fields *fields, size_t fields_len, uint8_t *texts, size_t texts_len, size_t *lens,
                           size_t lens_len, struct luv_totals *found);

/* Where the messages of an mbox (RFC 4155) are, in order, and when each arrived; *count is how many there are. The separator line
 * of a message ends where its text begins. It takes no memory. LUV_NO_ROOM, LUV_TOO_LONG; LUV_NO_MBOX, and then *count is where the
 * line begins that is no separator line. */
uint8_t luv_cut(const uint8_t *mbox, size_t mbox_len, struct luv_message *messages, size_t messages_len, size_t *count);

/* The threads of messages in some bytes (RFC 5256, section 3, REFERENCES), in preorder; *count is how many rows there are, at most
 * twice as many as messages. Those of one base subject are gathered if merge is true. Choose random keys for mail that somebody
 * else wrote: the time depends on them, and no row does.
 * LUV_NO_ROOM, LUV_NO_MEMORY, LUV_NO_INSTANT, LUV_OUTSIDE, LUV_TOO_LONG. */
uint8_t luv_threads(const uint8_t *bytes, size_t bytes_len, const struct luv_message *messages, size_t messages_len, bool merge,
                    uint64_t key0, uint64_t key1, struct luv_row *rows, size_t rows_len, size_t *count);

/* The same of the messages of an mbox: the place of a row is that of its message in the order of luv_cut.
 * LUV_NO_ROOM, LUV_NO_MEMORY, LUV_TOO_LONG; LUV_NO_MBOX, and then *count is as of luv_cut. */
uint8_t luv_threads_of_mbox(const uint8_t *mbox, size_t mbox_len, bool merge, uint64_t key0, uint64_t key1, struct luv_row *rows,
                            size_t rows_len, size_t *count);

#ifdef __cplusplus
}
#endif
#endif
