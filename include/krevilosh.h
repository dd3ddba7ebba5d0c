/*
 * Krevilosh: RabbitMQ Streams frames, read and written, and the credit and publisher ledgers of one connection.
 *
 * Link with libkrevilosh.a, which `tests/archive` writes to target/staticlib/. Nothing here allocates, keeps a
 * pointer, writes to a global variable or calls back, so every function may be called from any thread, as long as two
 * calls do not share an array that one of them changes.
 *
 * Everything gets an answer: any bytes, any limit, any id, any contents of a frame or ledger array. A call that is
 * refused changes nothing behind any pointer.
 *
 * A byte slice is a pointer and a length, which is below 2^63. Where the length is 0 the pointer may be null. Every pointer
 * is valid for the length or for the array size that is written here, during the whole call. What a function changes overlaps
 * nothing else that the call is given.
 *
 * A call uses at most 2,048 bytes of stack on x86-64. Of the C library the archive calls memcpy, memmove and memset, whose
 * stack is not counted, and nothing else.
 */
#ifndef KREVILOSH_H
#define KREVILOSH_H

#include <stddef.h>
#include <stdint.h>

#ifdef __cplusplus
extern "C" {
#endif

/*
 * Answers
 *
 * Every function but the two that clear a ledger returns one uint64_t: the refusal number in its low eight bits, 0 where
 * the call is accepted, and a number above them:
 *   refusal 1            the bytes that the frame needs (4 to 4,294,967,299)
 *   an accepted write    the frame's length
 *   an entry of a chunk  1, which tells it from the end
 *   otherwise            0
 * So the refusal number is 0 exactly if the call is accepted (theorem HostNumbers, crates/krevilosh/specs/Numbers.antt).
 */
#define KREVILOSH_REFUSAL(answer) ((unsigned)((answer) & 0xff))
#define KREVILOSH_NUMBER(answer) ((uint64_t)(answer) >> 8)

/* The refusal numbers. */
#define KREVILOSH_FRAME_CUT 1           /* fewer than 4 bytes, or fewer than Size + 4 */
#define KREVILOSH_FRAME_TOO_LARGE 2     /* Size above the frame limit, or when writing above 4,294,967,295 */
#define KREVILOSH_FRAME_TOO_SMALL 3     /* Size below 4 */
#define KREVILOSH_UNKNOWN_KEY 4
#define KREVILOSH_UNKNOWN_VERSION 5
#define KREVILOSH_FIELD_CUT 6           /* a field or an entry is cut, or a place reaches outside the source */
#define KREVILOSH_BAD_LENGTH 7          /* a length below -1, a null that is not admitted, a negative count */
#define KREVILOSH_NOT_UTF8 8
#define KREVILOSH_REFERENCE_TOO_LONG 9  /* above 256 bytes */
#define KREVILOSH_VALUE_NOT_ADMITTED 10 /* offset type, Active, chunk type, top bit, records, index, shape, width */
#define KREVILOSH_BYTES_LEFT 11         /* after the last field, element or entry, or after a chunk's data */
#define KREVILOSH_NO_ROOM 12            /* output shorter than the frame */
#define KREVILOSH_NOT_OPEN 13
#define KREVILOSH_ALREADY_OPEN 14
#define KREVILOSH_NO_CREDIT 15
#define KREVILOSH_OVER_A_MILLION 16     /* a balance, or messages out, would pass 1,000,000 */
#define KREVILOSH_MORE_THAN_OUT 17      /* more confirmed than out */

/*
 * A flat frame: uint64_t[24]
 *
 * Slot 0 is the key, slot 1 the version, then come the content's fields in wire order:
 *   a number                 one slot; a signed one as its 64 bits in two's complement
 *   text, reference, bytes   two: place, length; null is length KREVILOSH_NULL with place 0
 *   a list                   three: count, place, length of its encoded elements
 *   offset specification     two: type 0 to 5 (none, first, last, next, offset, timestamp), value
 *   a chunk                  fourteen: magic, type, entries, records, timestamp, epoch, first offset, checksum, data
 *                            length, trailer length, bloom size, reserved, then place and length of its data
 *
 * Places count from the first byte of the slice that was read, or that is handed to the writer as its source. Slots that
 * are not named are 0 after a read, and a write does not look at them. The value of an offset specification of type 0 to
 * 3 is 0 after a read and is not looked at by a write.
 *
 * A Credit for subscription 5 of 10 chunks is { 0x0009, 1, 5, 10 }. A Deliver, version 1, has its subscription id in slot
 * 2 and its chunk in slots 3 to 16; version 2 has the committed chunk id in slot 3 and its chunk in slots 4 to 17.
 */
#define KREVILOSH_FRAME_SLOTS 24
#define KREVILOSH_ELEMENT_SLOTS 8
#define KREVILOSH_NULL UINT64_MAX

/*
 * Reads the frame at the start of the bytes. A frame limit of 0 is no limit. What follows the frame is not looked
 * at; its whole length is the first four bytes as a big-endian number, and 4.
 * Refusals: 1, 2, 3, 1, 4, 5, then those of the fields in wire order, then 11.
 */
uint64_t krevilosh_read(const uint8_t *bytes, size_t len, uint32_t limit, uint64_t frame[24]);

/*
 * Writes a frame whose places are in the source to the start of out, and answers its length. Only that many bytes of out
 * are changed.
 * Refusals: 4, 5, then those of the fields in wire order (a number too wide for its field is 10; a chunk's header numbers
 * are all checked with its type), then 2, then 12.
 */
uint64_t krevilosh_write(const uint64_t frame[24], const uint8_t *source, size_t source_len, uint32_t limit,
                         uint8_t *out, size_t out_len);

/* The shapes of list elements. */
#define KREVILOSH_MESSAGE 1           /* [u64 B] of Publish: publishing id, message */
#define KREVILOSH_FILTERED_MESSAGE 2  /* [u64 T? B] of Publish, version 2: publishing id, filter value, message */
#define KREVILOSH_PUBLISHING_ID 3     /* [u64] of PublishConfirm */
#define KREVILOSH_PUBLISHING_ERROR 4  /* [u64 u16] of PublishError: publishing id, code */
#define KREVILOSH_PROPERTY 5          /* [T T]: key, value */
#define KREVILOSH_NAME 6              /* [T] */
#define KREVILOSH_COMMAND_VERSIONS 7  /* [u16 u16 u16] of ExchangeCommandVersions: key, lowest, highest version */
#define KREVILOSH_BROKER 8            /* [u16 T u32] of Metadata's response: reference, host, port */
#define KREVILOSH_STREAM_METADATA 9   /* [T u16 u16 [u16]] of it: stream, code, leader, replicas */
#define KREVILOSH_STATISTIC 10        /* [T i64] of StreamStats' response: key, value */
#define KREVILOSH_BROKER_REFERENCE 11 /* [u16]: the replicas of a stream */

/*
 * The element at an index of a list, flattened in wire order like a frame's fields; slots that are not named are 0.
 * count, place and length are the list's three slots.
 * Refusals: 10 for another shape, 6 for a place outside the source, 10 for an index at or above the count, then those of
 * the elements up to and including the one asked for, as when read.
 * In a frame that was read, asked with the shape of the list, every index below the count is found and every other is
 * refused with 10: a host that stops at the first refusal misses no element (theorem EveryElementIsFound,
 * crates/slot_questions/specs/Elements.antt).
 */
uint64_t krevilosh_element(uint8_t shape, const uint8_t *source, size_t source_len, uint64_t count, uint64_t place,
                           uint64_t length, uint64_t index, uint64_t element[8]);

/*
 * The message at an index of the chunk of a flat Deliver: message[0] is its place in the source, message[1] its length;
 * the other slots are 0.
 * Refusals: 4 for another key, 5 for another version, 6 for a place outside the source, 10 for a chunk of a type other
 * than 0, an index at or above its entries or an entry count above 65,535, then those of the entries up to and including
 * the one asked for.
 * In a Deliver that was read every index below the entries of a chunk of type 0 is found, and every other is refused with
 * 10: a host that asks for 0, 1, 2 and so on and stops at the first refusal misses no message (theorem
 * EveryMessageIsFound, crates/slot_questions/specs/Messages.antt).
 * A call goes over all entries before the one that it is asked for. To walk the messages of a chunk, use the chunk reader,
 * which goes over each entry once.
 */
uint64_t krevilosh_message(const uint64_t frame[24], const uint8_t *source, size_t source_len, uint64_t index,
                           uint64_t message[8]);

/*
 * The chunk reader: the entries of a chunk one after another. Opening goes over all entries once; after that each question
 * takes constant time. The host owns the reader, an array that krevilosh_chunk_open fills and krevilosh_chunk_next moves on:
 *   reader[0]             where the next entry begins, counted from the chunk's first byte
 *   reader[1]             how many entries are left
 *   reader[2], reader[3]  kept for later use: 0 when a chunk is opened, and then neither looked at nor changed
 */
#define KREVILOSH_READER_SLOTS 4

/*
 * Opens a chunk, which is checked as the rest of a Deliver is: reader is then { 48, entries, 0, 0 }, or { 48, 0, 0, 0 } for
 * a chunk of type 1 or 2, whose data stays unopened.
 * The chunk's bytes are its header of 48 bytes and its data, and nothing else. In a Deliver that was read they start 48
 * bytes before the place of the data: for version 1 they are the 48 + frame[16] bytes at bytes + frame[15] - 48, for
 * version 2 the 48 + frame[17] bytes at bytes + frame[16] - 48. Such a chunk is always opened (theorem ChunkOfADeliver,
 * crates/slot_chunk_reader/specs/SlotRun.antt).
 * Refusals: 6 for a header that is cut, 10 for another type, 6 for data that is cut, 11 for bytes after the data; for type
 * 0 also 10 for records that differ from the entries, for each entry 6, 10, 6 (four bytes, top bit, message), and 11 for
 * data after the last entry.
 */
uint64_t krevilosh_chunk_open(const uint8_t *chunk, size_t len, uint64_t reader[4]);

/*
 * The next entry: entry[0] is the place of its message, counted from the chunk's first byte, entry[1] its length; the
 * other slots are 0. The chunk is the one that the reader was opened with.
 *   1 above the refusal number   an entry, and the reader has moved past it
 *   0 above it                   the end: no entries are left, and reader and entry stay as they were
 * Of a chunk that was opened no entry is refused: every message is given once, in order, and then the end, however often
 * it is asked for (theorem SlotRun, crates/slot_chunk_reader/specs/SlotRun.antt). A reader that the host filled itself, or
 * bytes that were changed, get an answer too: the end where no entries are left, whatever the place, else what the entry at
 * the place gives. A message that is given always lies in the chunk.
 * Refusals: 6 for an entry of which not four bytes are there, 10 if its top bit is 1, 6 for a message that is cut.
 */
uint64_t krevilosh_chunk_next(const uint8_t *chunk, size_t len, uint64_t reader[4], uint64_t entry[8]);

/*
 * The credit ledger: 256 subscription ids, each closed or open with a balance of chunks. The host owns the array, clears
 * it once, and hands it to one call after another. Entry i is 0 for a closed id and its balance plus 1 for an open one.
 * Entry 256 is kept for later use: 0, and not touched.
 */
#define KREVILOSH_LEDGER_ENTRIES 257

void krevilosh_credit_empty(uint32_t ledger[257]);
/* On Subscribe's OK. Refusal: 14. */
uint64_t krevilosh_credit_open(uint32_t ledger[257], uint8_t id, uint16_t credit);
/* When a Credit is sent. Refusals: 13, 16. */
uint64_t krevilosh_credit_grant(uint32_t ledger[257], uint8_t id, uint16_t n);
/* On Unsubscribe's OK. Refusal: 13. */
uint64_t krevilosh_credit_close(uint32_t ledger[257], uint8_t id);
/*
 * Reads a received frame as krevilosh_read does, with its refusals. A Deliver then costs its subscription one credit (13
 * not open, 15 no credit left); any other frame leaves the ledger as it is.
 */
uint64_t krevilosh_credit_receive(uint32_t ledger[257], const uint8_t *bytes, size_t len, uint32_t limit,
                                  uint64_t frame[24]);

/*
 * The publisher ledger: 256 publisher ids, each closed or open with the messages that are out, those sent and neither
 * confirmed nor in error. Entries are as in the credit ledger.
 */
void krevilosh_publisher_empty(uint32_t ledger[257]);
/* Refusal: 14. */
uint64_t krevilosh_publisher_declare(uint32_t ledger[257], uint8_t id);
/* Refusal: 13. */
uint64_t krevilosh_publisher_delete(uint32_t ledger[257], uint8_t id);
/* Refusals: 13, 16. */
uint64_t krevilosh_publisher_send(uint32_t ledger[257], uint8_t id, uint32_t n);
/* n messages confirmed or in error. Refusals: 13, 17. */
uint64_t krevilosh_publisher_confirm(uint32_t ledger[257], uint8_t id, uint32_t n);

/*
 * Example: reads frames from a buffer as they come, and gives each message of a Deliver to `block`.
 *
 *     // The messages of a Deliver that was read from the bytes. Its chunk is always opened, and no entry of it is refused.
 *     void walk(const uint64_t frame[24], const uint8_t *bytes)
 *     {
 *         uint64_t reader[4], entry[8];
 *         const uint64_t *data = frame + (frame[1] == 1 ? 15 : 16);  // place, length
 *         const uint8_t *chunk = bytes + data[0] - 48;
 *         size_t len = 48 + data[1];
 *         if (krevilosh_chunk_open(chunk, len, reader) != 0)
 *             return;  // not the chunk of a Deliver that was read
 *         while (KREVILOSH_NUMBER(krevilosh_chunk_next(chunk, len, reader, entry)) == 1)
 *             block(chunk + entry[0], entry[1]);
 *     }
 *
 *     // Takes the whole frames at the start of bytes, and returns how many bytes they were.
 *     size_t take(uint32_t ledger[257], const uint8_t *bytes, size_t len)
 *     {
 *         uint64_t frame[24];
 *         size_t at = 0;
 *         for (;;) {
 *             uint64_t answer = krevilosh_credit_receive(ledger, bytes + at, len - at, 65532, frame);
 *             if (KREVILOSH_REFUSAL(answer) == KREVILOSH_FRAME_CUT)
 *                 return at;  // wait until KREVILOSH_NUMBER(answer) bytes are there
 *             if (KREVILOSH_REFUSAL(answer) != 0)
 *                 fail(KREVILOSH_REFUSAL(answer));
 *             if (frame[0] == 0x0008)
 *                 walk(frame, bytes + at);
 *             at += 4 + (((size_t)bytes[at] << 24) | (bytes[at + 1] << 16) | (bytes[at + 2] << 8) | bytes[at + 3]);
 *         }
 *     }
 */

#ifdef __cplusplus
}
#endif

#endif
