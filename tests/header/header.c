// The C header beside the archive: every declaration once more, so that a compiler refuses one that differs, and the
// calls of a host in C.
#include "krevilosh.h"

#include <stdio.h>
#include <string.h>

uint64_t krevilosh_read(const uint8_t *bytes, size_t len, uint32_t limit, uint64_t frame[24]);
uint64_t krevilosh_write(const uint64_t frame[24], const uint8_t *source, size_t source_len, uint32_t limit,
                         uint8_t *out, size_t out_len);
uint64_t krevilosh_element(uint8_t shape, const uint8_t *source, size_t source_len, uint64_t count, uint64_t place,
                           uint64_t length, uint64_t index, uint64_t element[8]);
uint64_t krevilosh_message(const uint64_t frame[24], const uint8_t *source, size_t source_len, uint64_t index,
                           uint64_t message[8]);
uint64_t krevilosh_chunk_open(const uint8_t *chunk, size_t len, uint64_t reader[4]);
uint64_t krevilosh_chunk_next(const uint8_t *chunk, size_t len, uint64_t reader[4], uint64_t entry[8]);
void krevilosh_credit_empty(uint32_t ledger[257]);
uint64_t krevilosh_credit_open(uint32_t ledger[257], uint8_t id, uint16_t credit);
uint64_t krevilosh_credit_grant(uint32_t ledger[257], uint8_t id, uint16_t n);
uint64_t krevilosh_credit_close(uint32_t ledger[257], uint8_t id);
uint64_t krevilosh_credit_receive(uint32_t ledger[257], const uint8_t *bytes, size_t len, uint32_t limit,
                                  uint64_t frame[24]);
void krevilosh_publisher_empty(uint32_t ledger[257]);
uint64_t krevilosh_publisher_declare(uint32_t ledger[257], uint8_t id);
uint64_t krevilosh_publisher_delete(uint32_t ledger[257], uint8_t id);
uint64_t krevilosh_publisher_send(uint32_t ledger[257], uint8_t id, uint32_t n);
uint64_t krevilosh_publisher_confirm(uint32_t ledger[257], uint8_t id, uint32_t n);

static int failures;

static void expect(const char *what, int holds) {
    if (!holds) {
        printf("not so: %s\n", what);
        failures++;
    }
}

// A PublishConfirm of one id, and a Deliver with the one message 'A'.
static const uint8_t confirm[] = {0, 0, 0, 17, 0, 3, 0, 1, 7, 0, 0, 0, 1, 0, 0, 0, 0, 0, 0, 0, 9};
static const uint8_t deliver[] = {0, 0, 0, 58, 0, 8, 0, 1, 5, 0x50, 0, 0, 1, 0, 0, 0, 1, 0, 0, 0, 0,
                                  0, 0, 0, 0,  0, 0, 0, 0, 0, 0,    0, 0, 0, 0, 0, 0, 0, 0, 0, 0, 0,
                                  0, 0, 0, 0,  0, 0, 5, 0, 0, 0,    0, 0, 0, 0, 0, 0, 0, 0, 1, 'A'};

static void frames(void) {
    uint64_t frame[24], slots[8];
    uint8_t out[32];
    uint64_t answer = krevilosh_read(NULL, 0, 0, frame);
    expect("no bytes need 4", KREVILOSH_REFUSAL(answer) == 1 && KREVILOSH_NUMBER(answer) == 4);
    expect("a PublishConfirm is read", krevilosh_read(confirm, sizeof confirm, 0, frame) == 0);
    expect("its slots", frame[0] == 3 && frame[1] == 1 && frame[2] == 7 && frame[3] == 1 && frame[4] == 13);
    answer = krevilosh_write(frame, confirm, sizeof confirm, 0, out, sizeof out);
    expect("it is written", KREVILOSH_REFUSAL(answer) == 0 && KREVILOSH_NUMBER(answer) == sizeof confirm);
    expect("as it was", memcmp(out, confirm, sizeof confirm) == 0);
    answer = krevilosh_element(3, confirm, sizeof confirm, frame[3], frame[4], frame[5], 0, slots);
    expect("its element", answer == 0 && slots[0] == 9);
    expect("a Deliver is read", krevilosh_read(deliver, sizeof deliver, 0, frame) == 0);
    answer = krevilosh_message(frame, deliver, sizeof deliver, 0, slots);
    expect("its message", answer == 0 && slots[0] == sizeof deliver - 1 && slots[1] == 1);
}

// The walk of the header's example, over the Deliver's chunk and over bytes that are none.
static void chunks(void) {
    uint64_t frame[24], reader[KREVILOSH_READER_SLOTS] = {1, 2, 3, 4}, entry[8] = {5, 6, 7, 8};
    expect("no chunk in no bytes", krevilosh_chunk_open(NULL, 0, reader) == 6);
    expect("nor in half a header", krevilosh_chunk_open(deliver, 47, reader) == 6);
    expect("and the reader stays", reader[0] == 1 && reader[1] == 2 && reader[2] == 3 && reader[3] == 4);
    expect("a Deliver is read", krevilosh_read(deliver, sizeof deliver, 0, frame) == 0);
    const uint8_t *chunk = deliver + frame[15] - 48;
    size_t len = 48 + frame[16];
    expect("its chunk is opened", krevilosh_chunk_open(chunk, len, reader) == 0);
    expect("at its entry", reader[0] == 48 && reader[1] == 1 && reader[2] == 0 && reader[3] == 0);
    reader[3] = 9;
    uint64_t answer = krevilosh_chunk_next(chunk, len, reader, entry);
    expect("an entry", KREVILOSH_REFUSAL(answer) == 0 && KREVILOSH_NUMBER(answer) == 1);
    expect("its message", entry[1] == 1 && chunk[entry[0]] == 'A' && entry[2] == 0 && entry[3] == 0);
    expect("the reader after it", reader[0] == len && reader[1] == 0 && reader[3] == 9);
    expect("the end", krevilosh_chunk_next(chunk, len, reader, entry) == 0 && entry[1] == 1);
    reader[1] = 1;
    expect("no entry there", krevilosh_chunk_next(chunk, len, reader, entry) == 6 && reader[1] == 1 && entry[1] == 1);
}

static void ledgers(void) {
    uint64_t frame[24];
    uint32_t ledger[257];
    krevilosh_credit_empty(ledger);
    expect("open 5 with 1", krevilosh_credit_open(ledger, 5, 1) == 0);
    expect("a Deliver", krevilosh_credit_receive(ledger, deliver, sizeof deliver, 0, frame) == 0);
    expect("no credit", krevilosh_credit_receive(ledger, deliver, sizeof deliver, 0, frame) == 15);
    expect("grant", krevilosh_credit_grant(ledger, 5, 1) == 0 && ledger[5] == 2);
    expect("close", krevilosh_credit_close(ledger, 5) == 0 && ledger[5] == 0);
    krevilosh_publisher_empty(ledger);
    expect("declare", krevilosh_publisher_declare(ledger, 255) == 0);
    expect("send", krevilosh_publisher_send(ledger, 255, 1000000) == 0);
    expect("confirm", krevilosh_publisher_confirm(ledger, 255, 1000001) == 17);
    expect("delete", krevilosh_publisher_delete(ledger, 255) == 0 && ledger[255] == 0);
}

int main(void) {
    frames();
    chunks();
    ledgers();
    return failures != 0;
}
