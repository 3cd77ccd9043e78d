/* Rimeheath for C: the order book of the MIAX Pearl Equities Depth of Market feed (DoM 1.3.b, and 1.3 of 2020), kept in memory that the
 * caller lends.
 *
 * The calls are proved functions of the crate `api_c`, each a call of `api`; what each does is stated there as an equation. tools/archive
 * writes the archive to link, target/staticlib/libapi.a, for x86-64 Linux, and examples/first.c is a first program:
 *
 *     cc -std=c99 -Iinclude examples/first.c target/staticlib/libapi.a -o first
 *
 * WHAT COMES IN. A message has a sequence number, 1 to 10^12, and a body, whose first byte is its type. A record is a sequence number in
 * 8 bytes, the body's length in 2, the body. A packet is 1 to 1,500 bytes of records, back to back. A recording is packets, each behind
 * its length in 2 bytes. All numbers are unsigned and little-endian, the lowest byte first. Packets may come late, twice or never, from
 * several lines: messages are applied in the order of their numbers, and those that came too early wait on the shelf.
 *
 * EDITIONS. Recordings of version 1.3 have the Security Type, 'E' or 'F', in byte 20 of a Symbol Update; from 1.3.a on that byte is
 * reserved, and nothing else differs for reading. The edition is chosen at the start, by a number, and kept in the receiver's state: every
 * call that is lent a state or a stream goes by it, and the readers are told it. The number is RIMEHEATH_EDITION_1_3 for 1.3; any other
 * number means 1.3.a and 1.3.b, as RIMEHEATH_EDITION_1_3_B does, and where a call writes a state or a stream it is written as 0 or 1. A
 * caller who changes the number in a state between calls has altered it: what comes then is worked by the edition that is found, and what
 * the other one let onto the shelf or into the symbol table stays. A shelved message that is bad now stops with 27, and a sheet of 1.3
 * shows byte 20 of every entry.
 *
 * THE WAY THROUGH. rimeheath_start; then rimeheath_receive for each packet, or rimeheath_open and rimeheath_feed for a recording in chunks
 * of any size; then views (rimeheath_ladder, rimeheath_spread, rimeheath_counts) and rimeheath_sheet, whenever they are wanted.
 * rimeheath_convert and rimeheath_convert_piece need no receiver, nor do rimeheath_append and rimeheath_append_packet, which write recordings.
 *
 * THE INDEX. Orders and symbols are found row by row, or through an index: further memory of RIMEHEATH_INDEX_SIZE numbers that is lent
 * beside the tables. Lend it to the start, which makes it, and then to every packet or chunk of that receiver. With a length of 0 there is
 * no index (the pointer must still be one); any other length is refused with 6. Both ways give the same answers and the same tables, as long
 * as nobody else writes to tables or index; with more than some hundred orders the index is by far the quicker one. A receiver that was
 * started without an index stays without one: an index that no start made, or one of other tables, finds what docs/INDEX.md says, and may
 * miss orders.
 *
 * LENGTHS COUNT ELEMENTS. orders_len, index_len and run_len count 64-bit numbers, not bytes: for
 * `uint64_t orders[4 * RIMEHEATH_ROW_SIZE]` the length is 4 * RIMEHEATH_ROW_SIZE, and not sizeof orders. All other lengths count bytes.
 *
 * ANSWERS. Every call but rimeheath_cut answers RIMEHEATH_DONE or a refusal, by its number. A refusal changes no byte of what is lent. Any
 * bytes, numbers and lengths may be given: no call asks that anything was checked before.
 *
 * WHICH BYTE. The seven calls that read a packet, a record or a body (rimeheath_receive, rimeheath_packet, rimeheath_record, rimeheath_body,
 * rimeheath_convert, rimeheath_append, rimeheath_append_packet) answer 32 bits: the number in the low 8, and above it the offset of the first
 * byte at fault in what they were given, packet, record or body. RIMEHEATH_NUMBER and RIMEHEATH_OFFSET take them apart: compare
 * RIMEHEATH_NUMBER(answer) with the refusals below, and not the answer itself. Refusals 2 to 5 have an offset; it is 0 for RIMEHEATH_DONE,
 * 1, 6 and 32, for the 4 by which rimeheath_convert refuses a type, and for the 5, 3 and 4 by which rimeheath_append refuses the number and
 * the fields that it was given.
 *
 * POINTERS. What the types of C cannot say, the caller must see to:
 *   - a pointer points to as many elements as its length says, and an array has the size that is written here;
 *   - no pointer is null, even where its length is 0;
 *   - memory of 64-bit numbers is aligned as uint64_t is, even where its length is 0;
 *   - memory that is lent for writing (no const) overlaps nothing else that is lent to the same call;
 *   - a bool holds 0 or 1.
 *
 * THREADS. No call keeps anything between calls, allocates, reads or writes files, or locks: all that is remembered is in the lent memory.
 * So calls on different memory may run side by side. While a call writes to memory, no other call may use that memory. */
#ifndef RIMEHEATH_H
#define RIMEHEATH_H

#include <stdbool.h>
#include <stddef.h>
#include <stdint.h>

#ifdef __cplusplus
extern "C" {
#endif

/* ---- sizes ---- */
enum {
    RIMEHEATH_ROW_SIZE = 5,        /* numbers in a row of the order table */
    RIMEHEATH_MOST_ROWS = 16000,   /* an order table has 1 to this many rows */
    RIMEHEATH_SHEET_ROWS = 1600,   /* rows that the program `sheet` lends; a sheet takes any table */
    RIMEHEATH_INDEX_SIZE = 49403,  /* numbers of an index, if one is lent: always this many; or 0, and none is */
    RIMEHEATH_ENTRY_SIZE = 42,     /* bytes in an entry of the symbol table */
    RIMEHEATH_MOST_ENTRIES = 1000, /* a symbol table has 1 to this many entries */
    RIMEHEATH_SHELF_SIZE = 4736,   /* bytes of a shelf: always this many */
    RIMEHEATH_HOLD_LEAST = 1502,   /* bytes of the buffer for an unfinished packet: this many or more */
    RIMEHEATH_PACKET_MOST = 1500,  /* bytes in the longest packet */
    RIMEHEATH_LEVEL_SIZE = 3,      /* numbers in a level of a ladder */
    RIMEHEATH_SHEET_MOST = 1500000, /* a buffer of this many bytes holds any sheet whole */
    RIMEHEATH_EXCEPTION_SIZE = 13, /* bytes in an exception of a conversion */
    RIMEHEATH_PIECE_LEAST = 65537, /* a piece of this many bytes of a recording has a whole packet, with its length, in front */
    RIMEHEATH_FIELDS_SIZE = 8,     /* numbers of a message, its type first */
    RIMEHEATH_TEXT_SIZE = 28       /* bytes of a message that are no numbers: ticker, times, version, a reserved byte */
};

/* ---- editions of the feed's specification; any other number means 1.3.a and 1.3.b too, and is written back as 0 ---- */
enum {
    RIMEHEATH_EDITION_1_3_B = 0, /* 1.3.a and 1.3.b: byte 20 of a Symbol Update is reserved and not judged */
    RIMEHEATH_EDITION_1_3 = 1    /* 1.3, of 2020: byte 20 of a Symbol Update is its Security Type, 'E' or 'F', else 4 */
};

/* ---- answers of the calls ---- */
enum {
    RIMEHEATH_DONE = 0,
    RIMEHEATH_REFUSED_PACKET = 1, /* a packet of 0 bytes, or of more than RIMEHEATH_PACKET_MOST, or one that would have more when written */
    RIMEHEATH_REFUSED_RECORD = 2, /* fewer than 10 bytes are left for a record's header, or its body runs past the end */
    RIMEHEATH_REFUSED_BODY = 3,   /* no such type, an empty body, or not that type's length */
    RIMEHEATH_REFUSED_FIELD = 4,  /* a field out of range: nanoseconds (999,999,999 at most), side, price, size, security type (in 1.3),
                                   * test indicator, market; when written, also a number too large for its bytes */
    RIMEHEATH_REFUSED_NUMBER = 5, /* a sequence number of 0 or above 10^12 */
    RIMEHEATH_REFUSED_SIZE = 6,   /* a table, index or buffer whose size is not as said above, or a next number outside 1 to 10^12 + 1 */
    RIMEHEATH_REFUSED_SYMBOL = 30, /* a view of a symbol that no entry in use has */
    RIMEHEATH_REFUSED_ROOM = 32    /* a packet or recording so far, or with what is to be written behind it, is longer than its memory */
};
/* Where several apply, the first of this order is told: 6; 1; then record by record from the front 2, 5, 3, 4. Of a view: 6, then 30. Of a
 * record that is written: 32 for the packet so far; what the packet so far is refused by; 5, 3, 4, 1 and 32 for the record. Of a packet that
 * is written: 32 for the recording so far; what the packet is refused by; 32 for the packet. */

/* ---- number and offset of an answer of the seven calls that read ----
 * The offset is, for 2 and 5, where the record starts (with its number); for 3, where the body starts, which is the end of what was given
 * where the body is empty and nothing follows it; for 4, the first byte of the earliest field of the body that is out of range. A bad body
 * has one offset in the body, 10 more in its record, and in its packet as many more as lie before the record. */
#define RIMEHEATH_NUMBER(answer) ((uint8_t)((answer) & 0xff))
#define RIMEHEATH_OFFSET(answer) ((uint32_t)(answer) >> 8)

/* ---- the receiver's state, four numbers; a start makes it ---- */
enum {
    RIMEHEATH_STATE_NEXT,    /* the number of the message that is applied next */
    RIMEHEATH_STATE_SECOND,  /* the second that the last System Time told; the low 32 bits count */
    RIMEHEATH_STATE_STOP,    /* why the message next, which has come, is not applied: one of the stops; the low 8 bits count */
    RIMEHEATH_STATE_EDITION, /* the edition that was chosen at the start */
    RIMEHEATH_STATE_SIZE
};

/* ---- stops: the first rule that the message next breaks; until it can be applied, no other is ---- */
enum {
    RIMEHEATH_STOP_NONE = 0,          /* it has not stopped: the message next is waited for */
    RIMEHEATH_STOP_SYMBOL = 20,       /* the message names a symbol that no entry in use has */
    RIMEHEATH_STOP_LIVE = 21,         /* an Add of an order that is live already */
    RIMEHEATH_STOP_NOT_LIVE = 22,     /* a Modify, Delete or Execution of an order that is not live */
    RIMEHEATH_STOP_OTHER_SYMBOL = 23, /* a Modify, Delete or Execution of an order that is live under another symbol */
    RIMEHEATH_STOP_SIZE = 24,         /* an Execution of more shares than the order has */
    RIMEHEATH_STOP_ROWS = 25,         /* an Add, and no row is free */
    RIMEHEATH_STOP_ENTRIES = 26,      /* a Symbol Update of a new symbol, and no entry is free */
    RIMEHEATH_STOP_SHELF = 27         /* the shelf holds another number or no good message at the place of next: the caller altered
                                       * it, or the edition */
};

/* ---- a packet's account, nine numbers ----
 * Each record of an accepted packet gets one of five answers (10 to 14 of docs/NUMBERS.md); the first five numbers count them. */
enum {
    RIMEHEATH_ACCOUNT_TAKEN,     /* 10: new, and put on the shelf */
    RIMEHEATH_ACCOUNT_OLD,       /* 11: its number is below next */
    RIMEHEATH_ACCOUNT_FAR,       /* 12: its number is next + 64 or more, too far for the shelf */
    RIMEHEATH_ACCOUNT_REPEATED,  /* 13: the shelf has the same number with the same bytes */
    RIMEHEATH_ACCOUNT_DIFFERING, /* 14: its place on the shelf is taken by other bytes, which stay */
    RIMEHEATH_ACCOUNT_NEXT,      /* next after the packet */
    RIMEHEATH_ACCOUNT_APPLIED,   /* how many messages the packet had applied: the growth of next */
    RIMEHEATH_ACCOUNT_HIGHEST,   /* the highest number that waits on the shelf, 0 if none */
    RIMEHEATH_ACCOUNT_STOP,      /* the stop after the packet */
    RIMEHEATH_ACCOUNT_SIZE
};

/* ---- a stream, fourteen numbers: a recording that is read in chunks ----
 * The first four are the receiver's state, so that a stream may be lent wherever a state is read. A count that would
 * pass 2^64 - 1 stays there. */
enum {
    RIMEHEATH_STREAM_NEXT,
    RIMEHEATH_STREAM_SECOND,
    RIMEHEATH_STREAM_STOP,
    RIMEHEATH_STREAM_EDITION,
    RIMEHEATH_STREAM_HELD,  /* bytes of an unfinished length and packet that stand in the buffer */
    RIMEHEATH_STREAM_SKIP,  /* bytes of an over-long packet (above RIMEHEATH_PACKET_MOST) that are still to be passed over */
    RIMEHEATH_STREAM_BAD,   /* packets that were refused, over-long ones included once their last byte has come */
    RIMEHEATH_STREAM_TAKEN, /* records of all accepted packets, by their answers, as in an account */
    RIMEHEATH_STREAM_OLD,
    RIMEHEATH_STREAM_FAR,
    RIMEHEATH_STREAM_REPEATED,
    RIMEHEATH_STREAM_DIFFERING,
    RIMEHEATH_STREAM_LAST_NUMBER, /* the refusal of the last packet that was refused, 0 before the first; the low 8 bits count */
    RIMEHEATH_STREAM_LAST_OFFSET, /* its offset in that packet, 0 where the number stands alone */
    RIMEHEATH_STREAM_SIZE
};

/* ---- the order table: row i begins at orders[i * RIMEHEATH_ROW_SIZE] ----
 * A row of five zeros is free. A row is live where its rank is 1 or more, its key below 2^33, its price 1 to 10^15 and its shares 1 to
 * 2^32 - 1. From a start there are no others; a row that a caller made otherwise is passed over. */
enum {
    RIMEHEATH_ROW_ORDER,  /* order ID */
    RIMEHEATH_ROW_KEY,    /* symbol ID times 2, plus 0 for a buy or 1 for a sell */
    RIMEHEATH_ROW_PRICE,  /* millionths of a dollar */
    RIMEHEATH_ROW_SHARES, /* the order's size */
    RIMEHEATH_ROW_RANK    /* the sequence number that gave the order its place: at one price the lower rank is first */
};

/* ---- the symbol table: entry i begins at symbols[i * RIMEHEATH_ENTRY_SIZE] ----
 * An entry is the body of the last Symbol Update of its symbol, 42 bytes. From a start, entries in use stand in front, in the order in
 * which their symbols came first, and free ones behind them. These are offsets in an entry; numbers have their lowest byte first. */
enum {
    RIMEHEATH_ENTRY_TYPE = 0,      /* 1 byte: 1 where the entry is in use, 0 where it is free; any other is passed over */
    RIMEHEATH_ENTRY_NANOS = 1,     /* 4 bytes: nanoseconds since the second */
    RIMEHEATH_ENTRY_SYMBOL = 5,    /* 4 bytes: symbol ID */
    RIMEHEATH_ENTRY_TICKER = 9,    /* 11 bytes: the name, with spaces behind it */
    RIMEHEATH_ENTRY_SECURITY = 20, /* 1 byte: the Security Type in 1.3, 'E' or 'F'; reserved from 1.3.a on */
    RIMEHEATH_ENTRY_TEST = 21,     /* 1 byte: 'Y' for a test security, 'N' for any other (22 is reserved) */
    RIMEHEATH_ENTRY_LOT = 23,      /* 2 bytes: round lot in shares */
    RIMEHEATH_ENTRY_OPENING = 25,  /* 8 bytes, as 09:30:00 */
    RIMEHEATH_ENTRY_CLOSING = 33,  /* 8 bytes, as 16:00:00 */
    RIMEHEATH_ENTRY_MARKET = 41,   /* 1 byte: the letter of the primary market */
    RIMEHEATH_TICKER_SIZE = 11     /* bytes of a ticker */
};

/* ---- receiving ---- */

/* Starts a receiver of an edition: zeroes the three tables and makes the index, if one is lent; state becomes 1, 0, 0 and the edition's
 * number, 0 or 1. A full table stops with 25 or 26; the program `sheet` lends RIMEHEATH_SHEET_ROWS rows and RIMEHEATH_MOST_ENTRIES
 * entries. Refused by 6. */
uint8_t rimeheath_start(uint64_t edition, uint64_t *orders, size_t orders_len, uint8_t *symbols, size_t symbols_len, uint8_t *shelf,
                        size_t shelf_len, uint64_t *index, size_t index_len, uint64_t state[4]);

/* Gives a packet to a receiver: state, tables, shelf and index become what they are after it, and account what is said above. A packet whose
 * messages stop the receiver is accepted all the same: look at the stop. Refused by 6, 1, 2, 5, 3, 4, and for the last four with the offset
 * in the packet. */
uint32_t rimeheath_receive(uint64_t *orders, size_t orders_len, uint8_t *symbols, size_t symbols_len, uint8_t *shelf, size_t shelf_len,
                           uint64_t *index, size_t index_len, uint64_t state[4], const uint8_t *packet, size_t packet_len,
                           uint64_t account[9]);

/* ---- a recording in chunks ---- */

/* Opens a stream over a receiver: stream becomes its state and ten zeros. From here on the stream has the receiver's state, and the
 * four numbers that it was opened with are not written again. Always answers RIMEHEATH_DONE: a bad next number is refused when the stream
 * is fed. */
uint8_t rimeheath_open(const uint64_t state[4], uint64_t stream[14]);

/* Gives the next chunk of a recording, of any length, cut anywhere. Every packet that ends in it is given to the receiver; one that is
 * refused is counted as bad and passed over, and the stream keeps its number and offset until the next. stream, tables, shelf and index
 * become what they are after it; in hold stand the bytes of the unfinished packet and zeros behind them: lend the same hold to the next call.
 * However a recording is cut, it comes to the same in the end. Refused by 6 alone: also where stream says that more bytes are held than
 * hold has. */
uint8_t rimeheath_feed(uint64_t *orders, size_t orders_len, uint8_t *symbols, size_t symbols_len, uint8_t *shelf, size_t shelf_len,
                       uint64_t *index, size_t index_len, uint8_t *hold, size_t hold_len, uint64_t stream[14], const uint8_t *chunk,
                       size_t chunk_len);

/* Whether a recording that ends here is cut: it ends inside a length or a packet. That last piece is dropped and is not counted as bad. */
bool rimeheath_cut(const uint64_t stream[14]);

/* ---- views ---- */

/* The price levels of a symbol's bids, or of its offers where sell is true, best first: price in millionths of a dollar, shares, number of
 * orders, into run while a whole level fits. The rest of run stays untouched, and levels[0] becomes the number of all levels, written or
 * not. Refused by 6, 30. */
uint8_t rimeheath_ladder(const uint64_t *orders, size_t orders_len, const uint8_t *symbols, size_t symbols_len, uint32_t symbol, bool sell,
                         uint64_t *run, size_t run_len, uint64_t levels[1]);

/* Best offer less best bid in millionths of a dollar: answer[0] becomes 1 and answer[1] the spread in two's complement (cast it to int64_t:
 * it is below 0 where the book is crossed), or both become 0 where a side is empty. Refused by 6, 30. */
uint8_t rimeheath_spread(const uint64_t *orders, size_t orders_len, const uint8_t *symbols, size_t symbols_len, uint32_t symbol,
                         uint64_t answer[2]);

/* counts[0] becomes the number of live orders, counts[1] that of entries in use. Refused by 6. */
uint8_t rimeheath_counts(const uint64_t *orders, size_t orders_len, const uint8_t *symbols, size_t symbols_len, uint64_t counts[2]);

/* ---- the sheet ---- */

/* Writes the answer sheet into text as far as it reaches: lines key=value, each ended by one line feed, with no zero byte behind them. The
 * number of bad packets and whether the recording was cut are the caller's: of a stream they are stream[RIMEHEATH_STREAM_BAD] and
 * rimeheath_cut(stream), and stream may be lent as state. length[0] becomes the length of the whole sheet, written or not: where it is
 * above text_len, the sheet did not fit and its first text_len bytes stand in text. RIMEHEATH_SHEET_MOST bytes always hold it whole.
 * Refused by 6. */
uint8_t rimeheath_sheet(uint8_t *text, size_t text_len, const uint64_t *orders, size_t orders_len, const uint8_t *symbols,
                        size_t symbols_len, const uint64_t state[4], uint64_t bad, bool cut, uint64_t length[1]);

/* ---- reading ---- */

/* Judges a packet of an edition: records[0] becomes the number of its records. Refused by 1, 2, 5, 3, 4, and for the last four with the
 * offset in the packet. */
uint32_t rimeheath_packet(uint64_t edition, const uint8_t *packet, size_t packet_len, uint64_t records[1]);

/* Judges the first record of what is left of a packet of an edition: head becomes its number and the length of its body, which stands
 * behind 10 bytes.
 * The next record starts behind that body. With nothing left the answer is 2, as with any part of a header, and never 1: a caller stops by
 * itself at the packet's end. Refused by 2, 5, 3, 4, with the offset in what is left: 0, or 10 and the offset in the body. */
uint32_t rimeheath_record(uint64_t edition, const uint8_t *rest, size_t rest_len, uint64_t head[2]);

/* Judges a body of an edition and reads all of its fields. fields[0] becomes the type; behind it stand the numbers of the message, as listed
 * here, then zeros. Letters are their codes; of an attributable ID, four letters, the first is the lowest byte. text becomes the bytes that
 * are no numbers (RIMEHEATH_TEXT_..), and zeros. Refused by 3, 4, with the offset in the body.
 *    49 System Time              second
 *     1 Symbol Update            symbol, lot, market, in 1.3 the security type and else 0, nanoseconds, test indicator, byte 22;
 *                                text: ticker, opening, closing, and byte 20 where it is reserved
 *    83 System State             nanoseconds, session, status; text: version
 *     4 Security Trading Status  nanoseconds, symbol, trading status, market, short sale restriction
 *     5 Symbol Clear             nanoseconds, symbol
 *    20 Add Order                nanoseconds, symbol, order, side, price, size, attributable ID
 *    21 Modify Order             nanoseconds, symbol, order, price, size, flags (the whole byte; bit 0 alone counts)
 *    23 Delete Order             nanoseconds, symbol, order
 *    24 Order Execution          nanoseconds, symbol, order, trade, price, size, flags
 *    10 Trade                    nanoseconds, symbol, trade, correction, price, size, flags
 *    11 Trade Cancel             nanoseconds, symbol, trade, correction, price, size
 */
uint32_t rimeheath_body(uint64_t edition, const uint8_t *body, size_t body_len, uint64_t fields[8], uint8_t text[28]);

/* ---- offsets in text ---- */
enum {
    RIMEHEATH_TEXT_TICKER = 0,    /* 11 bytes of a Symbol Update: the name, with spaces behind it */
    RIMEHEATH_TEXT_OPENING = 11,  /* 8 bytes, as 09:30:00 */
    RIMEHEATH_TEXT_CLOSING = 19,  /* 8 bytes, as 16:00:00 */
    RIMEHEATH_TEXT_RESERVED = 27, /* byte 20 where it is reserved; in 1.3 it is the security type among the numbers, and this is 0 */
    RIMEHEATH_TEXT_VERSION = 0    /* 8 bytes of a System State */
};

/* ---- writing (docs/WRITE.md) ---- */

/* Writes a record behind the packet so far, the first used bytes of memory, which may be none: its number, and the message that fields and
 * text are, in the places in which rimeheath_body gives them, so that what was read can be written. Numbers and bytes that the message does
 * not have may be anything. length[0] becomes the packet's new length; bytes behind it stay as they are. Refused by 32 where used is above
 * memory_len; then, where used is not 0, as rimeheath_packet refuses the packet so far: by 1, 2, 5, 3, 4, and for the last four with the
 * offset in it; then without an offset by 5 for the number, by 3 where fields[0] is no type, by 4 for a field out of range or too large for its
 * bytes, by 1 where the packet would have more than RIMEHEATH_PACKET_MOST bytes, by 32 where it would have more than memory_len. */
uint32_t rimeheath_append(uint64_t edition, uint8_t *memory, size_t memory_len, size_t used, uint64_t number, const uint64_t fields[8],
                          const uint8_t text[28], uint64_t length[1]);

/* Writes a packet, behind its length in 2 bytes, behind the recording so far, the first used bytes of memory, which are not looked at.
 * length[0] becomes the recording's new length; bytes behind it stay as they are. Refused by 32 where used is above memory_len; then as
 * rimeheath_packet refuses the packet: by 1, 2, 5, 3, 4, and for the last four with the offset in the packet; then by 32 where the recording
 * would have more than memory_len bytes. */
uint32_t rimeheath_append_packet(uint64_t edition, uint8_t *memory, size_t memory_len, size_t used, const uint8_t *packet,
                                 size_t packet_len, uint64_t length[1]);

/* ---- converting ---- */

/* Makes a packet of the edition from one of the edition to, in place (docs/CONVERT.md): byte 20 of each Symbol Update becomes its Security
 * Type where to is RIMEHEATH_EDITION_1_3, and 0 where that byte is reserved. Nothing else changes, and no length. type is the type of every
 * symbol that no exception names; others is exceptions of RIMEHEATH_EXCEPTION_SIZE bytes each: 0 for a symbol ID or 1 for a ticker, the
 * name in 11 bytes (of an ID in the first four of them; of a ticker with its trailing spaces), the type. The first that names a symbol
 * counts; none is a length of 0 (the pointer must still be one). updates[0] becomes the number of Symbol Updates. Refused by 6 where others
 * is not whole exceptions, by 4 where to is 1.3 and a type is neither 'E' nor 'F', both without an offset; then as rimeheath_packet of the
 * edition from refuses the packet: by 1, 2, 5, 3, 4, and for the last four with the offset in the packet. */
uint32_t rimeheath_convert(uint64_t from, uint64_t to, uint8_t type, const uint8_t *others, size_t others_len, uint8_t *packet,
                           size_t packet_len, uint64_t updates[1]);

/* The same of a recording, a piece at a time: the whole packets at the front of piece, each behind its length in 2 bytes, are made packets of
 * the edition to, in place; what follows them stays as it is. counts[0] becomes the bytes of those packets with their lengths: hand on as
 * many, and put the rest in front of the next piece; RIMEHEATH_PIECE_LEAST bytes always have a whole packet. counts[1] becomes the Symbol
 * Updates that were rewritten, counts[2] the packets that both editions refuse, which are passed on as they are, and counts[3] those that
 * only the edition from refuses, in which the byte behind the one at fault is made 0, so that the edition to refuses them too. A recording
 * that was converted comes to the same sheet in the edition to, but for its lines type=. Refused by 6 and 4 alone, as above. */
uint8_t rimeheath_convert_piece(uint64_t from, uint64_t to, uint8_t type, const uint8_t *others, size_t others_len, uint8_t *piece,
                                size_t piece_len, uint64_t counts[4]);

#ifdef __cplusplus
}
#endif

#endif
