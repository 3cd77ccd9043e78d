/* A first program over the proved library, in two parts.
 *
 * One packet: the project's example, numbers 1 to 5 in one packet, is written, read and written again; a receiver is given it, and the
 * program walks through the tables.
 * A recording in chunks: the file that is named is fed in pieces of 64 bytes, and its answer sheet is printed. A second word, 1.3, says that
 * it is a recording of version 1.3.
 *
 *     first examples/morning.rec
 *     first examples/morning-1.3.rec 1.3
 *
 * tools/c-example compiles it, runs it so, and compares what it prints with examples/first.out and with the sheets of examples/. */
#include <inttypes.h>
#include <stdio.h>
#include <string.h>

#include "rimeheath.h"

/* The tables are the caller's, here as large as they may be. Lengths of 64-bit tables count numbers, not bytes. */
enum {
    ORDERS = RIMEHEATH_MOST_ROWS * RIMEHEATH_ROW_SIZE,
    SYMBOLS = RIMEHEATH_MOST_ENTRIES * RIMEHEATH_ENTRY_SIZE,
    INDEX = RIMEHEATH_INDEX_SIZE
};
static uint64_t orders[ORDERS];
static uint8_t symbols[SYMBOLS];
static uint8_t shelf[RIMEHEATH_SHELF_SIZE];
/* By the index orders are found at once, however many there are; with a length of 0 they are searched row by row, and all else is the
 * same. */
static uint64_t finder[INDEX];

/* What a refusal means. */
static const char *meaning(uint8_t answer) {
    switch (answer) {
    case RIMEHEATH_REFUSED_PACKET: return "a packet of no bytes or too many";
    case RIMEHEATH_REFUSED_RECORD: return "a record runs past the packet's end";
    case RIMEHEATH_REFUSED_BODY: return "no such message, or of another length";
    case RIMEHEATH_REFUSED_FIELD: return "a field out of range";
    case RIMEHEATH_REFUSED_NUMBER: return "a sequence number out of range";
    case RIMEHEATH_REFUSED_SIZE: return "the size of a table, the index or the buffer, or the next number";
    case RIMEHEATH_REFUSED_SYMBOL: return "no such symbol";
    case RIMEHEATH_REFUSED_ROOM: return "no room in the memory";
    default: return "done";
    }
}

static bool refused(const char *call, uint8_t answer) {
    if (answer == RIMEHEATH_DONE) return false;
    printf("%s is refused with %u: %s\n", call, (unsigned)answer, meaning(answer));
    return true;
}

/* The calls that read say at which byte, too. */
static bool refused_at(const char *call, uint32_t answer) {
    uint8_t number = RIMEHEATH_NUMBER(answer);
    if (number < RIMEHEATH_REFUSED_RECORD || number > RIMEHEATH_REFUSED_NUMBER) return refused(call, number);
    printf("%s is refused with %u at byte %" PRIu32 ": %s\n", call, (unsigned)number, RIMEHEATH_OFFSET(answer), meaning(number));
    return true;
}

/* A call that writes tells a byte only of the packet so far, which it reads. */
static bool not_written(const char *call, uint32_t answer) {
    return RIMEHEATH_OFFSET(answer) > 0 ? refused_at(call, answer) : refused(call, RIMEHEATH_NUMBER(answer));
}

/* ---- one packet ---- */

static uint8_t packet[RIMEHEATH_PACKET_MOST];
static size_t used;

/* A message is eight numbers, its type first, and 28 bytes of text; one that has no text may be lent any. */
static bool append(uint64_t number, const uint64_t fields[RIMEHEATH_FIELDS_SIZE], const uint8_t text[RIMEHEATH_TEXT_SIZE]) {
    uint64_t length[1];
    if (not_written("append", rimeheath_append(RIMEHEATH_EDITION_1_3_B, packet, sizeof packet, used, number, fields, text, length)))
        return false;
    used = (size_t)length[0];
    return true;
}

static const uint8_t no_text[RIMEHEATH_TEXT_SIZE];

/* Add Order: nanoseconds, symbol, order, side, price in millionths of a dollar, size, attribution (four spaces: none). */
static bool add(uint64_t number, uint64_t order, char side, uint64_t price, uint64_t size) {
    const uint64_t fields[RIMEHEATH_FIELDS_SIZE] = {20, 0, 7, order, (uint64_t)side, price, size, 0x20202020};
    return append(number, fields, no_text);
}

static bool make_packet(void) {
    const uint64_t time[RIMEHEATH_FIELDS_SIZE] = {49, 34200};
    /* Symbol Update: symbol 7, lot 100, market, no Security Type in this edition, nanoseconds, no test symbol, byte 22. */
    const uint64_t listed[RIMEHEATH_FIELDS_SIZE] = {1, 7, 100, 'H', 0, 0, 'N', 0};
    uint8_t text[RIMEHEATH_TEXT_SIZE] = {0};
    memcpy(text + RIMEHEATH_TEXT_TICKER, "ABC        ", RIMEHEATH_TICKER_SIZE);
    memcpy(text + RIMEHEATH_TEXT_OPENING, "09:30:00", 8);
    memcpy(text + RIMEHEATH_TEXT_CLOSING, "16:00:00", 8);
    return append(1, time, no_text) && append(2, listed, text) && add(3, 500, 'B', 10000000, 100) && add(4, 501, 'S', 10020000, 200) &&
           add(5, 502, 'B', 10000000, 50);
}

/* Reads the packet record by record, and writes each behind those before: the same bytes come of it. */
static bool write_again(void) {
    uint8_t again[RIMEHEATH_PACKET_MOST], text[RIMEHEATH_TEXT_SIZE];
    uint64_t head[2], fields[RIMEHEATH_FIELDS_SIZE], length[1] = {0};
    for (size_t at = 0; at < used; at += 10 + (size_t)head[1]) {
        if (refused_at("record", rimeheath_record(RIMEHEATH_EDITION_1_3_B, packet + at, used - at, head))) return false;
        if (refused_at("body", rimeheath_body(RIMEHEATH_EDITION_1_3_B, packet + at + 10, (size_t)head[1], fields, text))) return false;
        if (not_written("append", rimeheath_append(RIMEHEATH_EDITION_1_3_B, again, sizeof again, (size_t)length[0], head[0], fields, text,
                                                   length)))
            return false;
    }
    printf("read and written again: %s\n", length[0] == used && memcmp(packet, again, used) == 0 ? "the same bytes" : "other bytes");
    return true;
}

/* The packet behind its length, as a recording. */
static bool make_recording(void) {
    uint8_t file[2 + RIMEHEATH_PACKET_MOST];
    uint64_t length[1];
    if (refused_at("append_packet", rimeheath_append_packet(RIMEHEATH_EDITION_1_3_B, file, sizeof file, 0, packet, used, length)))
        return false;
    printf("written: a packet of %lu bytes, a recording of %" PRIu64 "\n", (unsigned long)used, length[0]);
    return true;
}

/* A number of the symbol table, lowest byte first. */
static uint32_t number_at(const uint8_t *bytes, int width) {
    uint32_t value = 0;
    while (width > 0) value = value << 8 | bytes[--width];
    return value;
}

static void print_tables(void) {
    for (size_t at = 0; at < SYMBOLS; at += RIMEHEATH_ENTRY_SIZE) {
        const uint8_t *entry = symbols + at;
        if (entry[RIMEHEATH_ENTRY_TYPE] != 1) continue; /* free */
        printf("symbol %" PRIu32 " %.*s lot %" PRIu32 " market %c\n", number_at(entry + RIMEHEATH_ENTRY_SYMBOL, 4), RIMEHEATH_TICKER_SIZE,
               (const char *)entry + RIMEHEATH_ENTRY_TICKER, number_at(entry + RIMEHEATH_ENTRY_LOT, 2), entry[RIMEHEATH_ENTRY_MARKET]);
    }
    for (size_t at = 0; at < ORDERS; at += RIMEHEATH_ROW_SIZE) {
        const uint64_t *row = orders + at;
        if (row[RIMEHEATH_ROW_RANK] == 0) continue; /* free */
        printf("order %" PRIu64 " symbol %" PRIu64 " %s %" PRIu64 " at %" PRIu64 " rank %" PRIu64 "\n", row[RIMEHEATH_ROW_ORDER],
               row[RIMEHEATH_ROW_KEY] / 2, row[RIMEHEATH_ROW_KEY] % 2 == 0 ? "buy" : "sell", row[RIMEHEATH_ROW_SHARES],
               row[RIMEHEATH_ROW_PRICE], row[RIMEHEATH_ROW_RANK]);
    }
}

static bool one_packet(void) {
    const uint64_t edition = RIMEHEATH_EDITION_1_3_B; /* today's; a packet does not tell its own */
    uint64_t state[RIMEHEATH_STATE_SIZE], account[RIMEHEATH_ACCOUNT_SIZE], spread[2], updates[1];
    uint8_t other[RIMEHEATH_PACKET_MOST], none[1]; /* no exceptions, but a pointer all the same */

    if (!make_packet() || !make_recording() || !write_again()) return false;
    add(6, 503, 'B', 0, 100); /* no price: nothing is written */
    if (refused("start", rimeheath_start(edition, orders, ORDERS, symbols, SYMBOLS, shelf, sizeof shelf, finder, INDEX, state)))
        return false;
    if (refused_at("receive", rimeheath_receive(orders, ORDERS, symbols, SYMBOLS, shelf, sizeof shelf, finder, INDEX, state, packet, used,
                                                account)))
        return false;
    printf("taken %" PRIu64 ", applied %" PRIu64 ", next %" PRIu64 "\n", account[RIMEHEATH_ACCOUNT_TAKEN],
           account[RIMEHEATH_ACCOUNT_APPLIED], state[RIMEHEATH_STATE_NEXT]);
    if (state[RIMEHEATH_STATE_STOP] != RIMEHEATH_STOP_NONE) return false;

    print_tables();
    if (refused("spread", rimeheath_spread(orders, ORDERS, symbols, SYMBOLS, 7, spread))) return false;
    if (spread[0] == 1) printf("spread %" PRId64 " millionths\n", (int64_t)spread[1]);

    /* The same packet for a class that reads version 1.3, where symbol 7 gets a Security Type: byte 20 of its Symbol Update, and no other. */
    memcpy(other, packet, used);
    if (refused_at("convert", rimeheath_convert(RIMEHEATH_EDITION_1_3_B, RIMEHEATH_EDITION_1_3, 'E', none, 0, other, used, updates)))
        return false;
    printf("converted to 1.3, with %" PRIu64 " Symbol Update\n", updates[0]);

    /* Nine bytes are no packet. A refusal changes nothing, so the receiver could go on. */
    refused_at("a front of the packet",
               rimeheath_receive(orders, ORDERS, symbols, SYMBOLS, shelf, sizeof shelf, finder, INDEX, state, packet, 9, account));
    /* Nor is one whose last order has no price: its body starts behind 10 bytes, and the price 18 bytes into it. */
    memset(packet + used - 44 + 10 + 18, 0, 8);
    refused_at("a packet with a price of 0",
               rimeheath_receive(orders, ORDERS, symbols, SYMBOLS, shelf, sizeof shelf, finder, INDEX, state, packet, used, account));
    return true;
}

/* ---- a recording in chunks ---- */

static bool recording(FILE *file, uint64_t edition) {
    static uint8_t hold[RIMEHEATH_HOLD_LEAST], sheet[RIMEHEATH_SHEET_MOST];
    uint64_t state[RIMEHEATH_STATE_SIZE], stream[RIMEHEATH_STREAM_SIZE], length[1];
    uint8_t chunk[64]; /* any size will do */
    size_t n;

    if (refused("start", rimeheath_start(edition, orders, ORDERS, symbols, SYMBOLS, shelf, sizeof shelf, finder, INDEX, state)))
        return false;
    if (refused("open", rimeheath_open(state, stream))) return false;
    while ((n = fread(chunk, 1, sizeof chunk, file)) > 0)
        if (refused("feed", rimeheath_feed(orders, ORDERS, symbols, SYMBOLS, shelf, sizeof shelf, finder, INDEX, hold, sizeof hold, stream,
                                           chunk, n)))
            return false;
    if (ferror(file)) return false;
    if (stream[RIMEHEATH_STREAM_BAD] > 0)
        refused_at("the last bad packet",
                   (uint32_t)(stream[RIMEHEATH_STREAM_LAST_NUMBER] + 256 * stream[RIMEHEATH_STREAM_LAST_OFFSET]));
    printf("records taken %" PRIu64 ", repeated %" PRIu64 "\n", stream[RIMEHEATH_STREAM_TAKEN], stream[RIMEHEATH_STREAM_REPEATED]);

    /* The stream begins with the receiver's state, so it can stand for one. */
    if (refused("sheet", rimeheath_sheet(sheet, sizeof sheet, orders, ORDERS, symbols, SYMBOLS, stream, stream[RIMEHEATH_STREAM_BAD],
                                         rimeheath_cut(stream), length)))
        return false;
    return fwrite(sheet, 1, (size_t)length[0], stdout) == length[0];
}

int main(int count, char **words) {
    FILE *file;
    bool good;

    if (count < 2 || count > 3 || (count == 3 && strcmp(words[2], "1.3") != 0)) {
        fprintf(stderr, "usage: first RECORDING [1.3]\n");
        return 2;
    }
    if (!one_packet()) return 1;
    file = fopen(words[1], "rb");
    if (file == NULL) {
        perror(words[1]);
        return 1;
    }
    good = recording(file, count == 3 ? RIMEHEATH_EDITION_1_3 : RIMEHEATH_EDITION_1_3_B);
    fclose(file);
    return good ? 0 : 1;
}
