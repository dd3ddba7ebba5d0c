/*
 * A host in miniature: reads what a broker sent from a capture file, keeps the credit ledger of its subscription, walks
 * the messages of each chunk, and prints a summary.
 *
 *     relay CAPTURE SUBSCRIPTION CREDIT
 *
 * The subscription is opened with the credit when Subscribe's OK comes, and one more chunk is granted for each Deliver,
 * as a client does that sends a Credit for each chunk it took. The exit status is 0 if the capture is whole.
 */
#include "krevilosh.h"

#include <inttypes.h>
#include <stdio.h>
#include <stdlib.h>

enum { DELIVER = 0x0008, SUBSCRIBE_RESPONSE = 0x8007, OK = 1, LIMIT = 65532 };

struct summary {
    uint64_t frames, delivers, messages, message_bytes;
};

/* The whole file, or a null pointer. */
static uint8_t *contents(const char *path, size_t *len)
{
    FILE *file = fopen(path, "rb");
    if (file == NULL)
        return NULL;
    uint8_t *bytes = NULL;
    size_t room = 0;
    *len = 0;
    for (;;) {
        if (*len == room) {
            room = room ? 2 * room : 65536;
            uint8_t *more = realloc(bytes, room);
            if (more == NULL)
                break;
            bytes = more;
        }
        size_t got = fread(bytes + *len, 1, room - *len, file);
        if (got == 0) {
            if (ferror(file))
                break;
            fclose(file);
            return bytes;
        }
        *len += got;
    }
    fclose(file);
    free(bytes);
    return NULL;
}

/* The bytes of a frame that was read. */
static size_t frame_length(const uint8_t *frame)
{
    return 4 + (((size_t)frame[0] << 24) | ((size_t)frame[1] << 16) | ((size_t)frame[2] << 8) | frame[3]);
}

/* Every message of a Deliver that was read, in order. Its chunk starts 48 bytes before the place of its data. */
static void walk_messages(const uint64_t deliver[24], const uint8_t *bytes, struct summary *sum)
{
    uint64_t reader[KREVILOSH_READER_SLOTS], entry[KREVILOSH_ELEMENT_SLOTS];
    const uint64_t *data = deliver + (deliver[1] == 1 ? 15 : 16);
    const uint8_t *chunk = bytes + data[0] - 48;
    size_t len = 48 + (size_t)data[1];

    /* The chunk of a Deliver that was read is always opened, and no entry of it is refused. */
    if (krevilosh_chunk_open(chunk, len, reader) != 0)
        return;
    while (KREVILOSH_NUMBER(krevilosh_chunk_next(chunk, len, reader, entry)) == 1) {
        sum->messages++;
        sum->message_bytes += entry[1];
    }
}

/* Takes frames until the capture ends or one is refused, and returns the last answer: 0 where it ends behind a frame. */
static uint64_t take_frames(const uint8_t *bytes, size_t len, uint8_t subscription, uint16_t credit,
                            struct summary *sum)
{
    uint32_t ledger[KREVILOSH_LEDGER_ENTRIES];
    uint64_t frame[KREVILOSH_FRAME_SLOTS];
    size_t at = 0;

    krevilosh_credit_empty(ledger);
    while (at < len) {
        uint64_t answer = krevilosh_credit_receive(ledger, bytes + at, len - at, LIMIT, frame);
        if (KREVILOSH_REFUSAL(answer) != 0)
            return answer;
        sum->frames++;
        if (frame[0] == SUBSCRIBE_RESPONSE && frame[3] == OK)
            krevilosh_credit_open(ledger, subscription, credit);
        if (frame[0] == DELIVER) {
            sum->delivers++;
            walk_messages(frame, bytes + at, sum);
            krevilosh_credit_grant(ledger, (uint8_t)frame[2], 1);
        }
        at += frame_length(bytes + at);
    }
    return 0;
}

int main(int argc, char **argv)
{
    if (argc != 4) {
        fprintf(stderr, "usage: relay CAPTURE SUBSCRIPTION CREDIT\n");
        return 2;
    }
    size_t len;
    uint8_t *bytes = contents(argv[1], &len);
    if (bytes == NULL) {
        fprintf(stderr, "relay: %s cannot be read\n", argv[1]);
        return 2;
    }
    struct summary sum = {0, 0, 0, 0};
    uint64_t answer = take_frames(bytes, len, (uint8_t)atoi(argv[2]), (uint16_t)atoi(argv[3]), &sum);
    free(bytes);

    printf("%" PRIu64 " frames, %" PRIu64 " delivers, %" PRIu64 " messages of %" PRIu64 " bytes: ", sum.frames,
           sum.delivers, sum.messages, sum.message_bytes);
    if (KREVILOSH_REFUSAL(answer) == KREVILOSH_FRAME_CUT)
        printf("cut, the next frame needs %" PRIu64 " bytes\n", KREVILOSH_NUMBER(answer));
    else if (KREVILOSH_REFUSAL(answer) != 0)
        printf("refused %u\n", KREVILOSH_REFUSAL(answer));
    else
        printf("whole\n");
    return answer == 0 ? 0 : 1;
}
