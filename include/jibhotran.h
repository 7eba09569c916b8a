/*
 * Jibhotran: RTP packets with ANC payload (RFC 8331 and its drafts of 2015), fields, SDP format parameters, field files, lines of the
 * serial interface, and a shared outlet.
 *
 * Written by hand; `differential/` tests it against the archive. Nothing here allocates, and nothing is kept between calls.
 *
 * Each function but the two that ask for wanted records returns 0 where the call is accepted and a refusal's number otherwise
 * (docs/FORMATS.md, "Refusal numbers").
 * `answer` takes what a call returns beside that: on acceptance the numbers that are named at the function, on a refusal the refusal's
 * index in answer[0]; the rest of the row stays. A row of fewer than JIBHOTRAN_ANSWER numbers, or a state's of fewer than it needs, is refused by
 * JIBHOTRAN_ROW, and nothing is written at all. On a refusal the other lent memory is unchanged, but for the late count (refusal 32) and the remembered number
 * (refusal 36). Number 22 is reserved: no call gives it.
 *
 * `layout` is the packets' layout, JIBHOTRAN_RFC8331 or JIBHOTRAN_DRAFTS, which the octets do not tell. Another number is refused by
 * JIBHOTRAN_LAYOUT, after JIBHOTRAN_ROW and before all else, and nothing is written at all.
 *
 * A pointer and its length must name memory that may be read, or written where it is not const; memory that is written must not overlap
 * any other that is lent to the same call. Where the length is 0, the pointer is not followed, but it must not be null.
 *
 * Records stand in cells of sixteen bits, one behind the other: C, line, offset, S, StreamNum, DID, SDID, n, the index of the record's packet within
 * its field, then n words. The readers of packets, lines and files give index 0, and `jibhotran_arrive` the packet's, from 0; who takes cells
 * checks the index (20 where it is over 4,095) and makes no other use of it.
 */
#ifndef JIBHOTRAN_H
#define JIBHOTRAN_H

#include <stddef.h>
#include <stdint.h>

#ifdef __cplusplus
extern "C" {
#endif

/* Jibhotran's version, which the programs print by --version. The header and the archives of one version belong together. */
#define JIBHOTRAN_VERSION_MAJOR 4
#define JIBHOTRAN_VERSION_MINOR 14
#define JIBHOTRAN_VERSION_PATCH 0
#define JIBHOTRAN_VERSION "4.14.0"

/* Numbers that an answer needs, and a state. */
#define JIBHOTRAN_ANSWER 9
#define JIBHOTRAN_STATE 15

/* Numbers that an outlet's state needs, octets of the memory that it is lent, and the most octets of a packet that it takes. */
#define JIBHOTRAN_OUTLET_STATE 145
#define JIBHOTRAN_OUTLET_MEMORY 65536
#define JIBHOTRAN_OUTLET_PACKET 1024

/* What a caller lends so that a call never lacks room: cells of any packet that can be read, of a field, and of a line; octets of a packet, of a field in
 * a file, of a file's head, of the pairs and of the text of parameters. No writer takes more than JIBHOTRAN_FIELD_CELLS cells. */
#define JIBHOTRAN_PACKET_CELLS 53026
#define JIBHOTRAN_FIELD_CELLS 36864
#define JIBHOTRAN_LINE_CELLS 5266
#define JIBHOTRAN_PACKET_OCTETS 65535
#define JIBHOTRAN_FIELD_OCTETS 49159
#define JIBHOTRAN_FILE_HEAD_OCTETS 5
#define JIBHOTRAN_PAIR_OCTETS 128
#define JIBHOTRAN_TEXT_OCTETS 1357

/* Cells of a record before its words, and where n and the index of its packet stand among them. */
#define JIBHOTRAN_RECORD_HEAD 9
#define JIBHOTRAN_COUNT_CELL 7
#define JIBHOTRAN_INDEX_CELL 8

/* The channels of an outlet. */
#define JIBHOTRAN_CHANNELS 8

/* A row for the answer or the state is too short. */
#define JIBHOTRAN_ROW 255

/* No layout has the number that is given as one. */
#define JIBHOTRAN_LAYOUT 254

/* Layouts: RFC 8331, and its drafts of 2015, which have no F, S and StreamNum. */
#define JIBHOTRAN_RFC8331 0
#define JIBHOTRAN_DRAFTS 1

/* Answers of `jibhotran_arrive`. */
#define JIBHOTRAN_SKIPPED 0
#define JIBHOTRAN_HELD 1
#define JIBHOTRAN_MIXED 2
#define JIBHOTRAN_OVERFULL 3
#define JIBHOTRAN_WHOLE 4

/* Not a VPID code. */
#define JIBHOTRAN_NO_VPID 256

/* Refusals; docs/FORMATS.md says when each is given, and with which index. */
enum jibhotran_refusal {
    JIBHOTRAN_ACCEPTED = 0,
    JIBHOTRAN_TOO_LONG = 1,
    JIBHOTRAN_HEADER_CUT = 2,
    JIBHOTRAN_VERSION_NOT_2 = 3,
    JIBHOTRAN_PADDING_WRONG = 4,
    JIBHOTRAN_PAYLOAD_CUT = 5,
    JIBHOTRAN_F_INVALID = 6,
    JIBHOTRAN_LENGTH_WRONG = 7,
    JIBHOTRAN_LENGTH_WITHOUT_PACKETS = 8,
    JIBHOTRAN_ANC_CUT = 9,
    JIBHOTRAN_HEADER_WORD_MALFORMED = 10,
    JIBHOTRAN_CHECKSUM_WRONG = 11,
    JIBHOTRAN_ALIGNMENT_BIT_SET = 12,
    JIBHOTRAN_OCTETS_LEFT = 13,
    JIBHOTRAN_LIST_TOO_SHORT = 14,
    JIBHOTRAN_R_BIT_SET = 15,
    JIBHOTRAN_PROTECTED_WORD = 16,
    JIBHOTRAN_LIST_MALFORMED = 20,
    JIBHOTRAN_OVER_LIMIT = 21,
    JIBHOTRAN_ROOM_TOO_SMALL = 23,
    JIBHOTRAN_HEAD_INVALID = 24,
    JIBHOTRAN_NOT_IN_LAYOUT = 25,
    JIBHOTRAN_SOURCE_OTHER = 30,
    JIBHOTRAN_TYPE_OTHER = 31,
    JIBHOTRAN_LATE = 32,
    JIBHOTRAN_STATE_UNSOUND = 35,
    JIBHOTRAN_FAR = 36,
    JIBHOTRAN_TEXT_TOO_LONG = 40,
    JIBHOTRAN_ITEM_MALFORMED = 41,
    JIBHOTRAN_SECOND_VPID_CODE = 42,
    JIBHOTRAN_TOO_MANY_PAIRS = 43,
    JIBHOTRAN_TEXT_ROOM_TOO_SMALL = 44,
    JIBHOTRAN_NOT_ANF = 50,
    JIBHOTRAN_FILE_VERSION_WRONG = 51,
    JIBHOTRAN_FIELD_HEADER_CUT = 52,
    JIBHOTRAN_FILE_F_INVALID = 53,
    JIBHOTRAN_END_OF_FILE = 54,
    JIBHOTRAN_OFFSET_INVALID = 55,
    JIBHOTRAN_CHANNEL_INVALID = 60,
    JIBHOTRAN_OFFER_SIZE_INVALID = 61,
    JIBHOTRAN_CHANNEL_FULL = 62,
    JIBHOTRAN_NOTHING_WAITS = 63,
    JIBHOTRAN_OUTLET_UNSOUND = 64,
    JIBHOTRAN_LINE_TOO_LONG = 70,
    JIBHOTRAN_START_PAST_END = 71,
    JIBHOTRAN_LINE_FULL = 72,
    JIBHOTRAN_LINE_WORD_TOO_LARGE = 73
};

/* A refusal's text, in English; never null. */
static inline const char *jibhotran_text(uint8_t number) {
    switch (number) {
    case 0: return "accepted";
    case 1: return "packet over 65,535 octets";
    case 2: return "RTP header cut";
    case 3: return "RTP version is not 2";
    case 4: return "padding count wrong";
    case 5: return "payload header cut";
    case 6: return "F is 1";
    case 7: return "Length is not the payload's";
    case 8: return "Length without ANC packets";
    case 9: return "ANC packet cut";
    case 10: return "DID, SDID or Data_Count word malformed";
    case 11: return "checksum wrong";
    case 12: return "alignment bit set";
    case 13: return "octets after the last ANC packet";
    case 14: return "list too short for the records";
    case 15: return "R bit set";
    case 16: return "protected word in user data";
    case 20: return "list malformed";
    case 21: return "too many records or cells";
    case 23: return "room too small";
    case 24: return "payload type or F invalid";
    case 25: return "F, S or StreamNum is not in the drafts' layout";
    case 30: return "another source";
    case 31: return "another payload type";
    case 32: return "late";
    case 35: return "no depacketizer's state";
    case 36: return "far from the last number";
    case 40: return "text over 4,096 octets";
    case 41: return "item malformed";
    case 42: return "second VPID_Code";
    case 43: return "over 64 pairs";
    case 44: return "room too small for the text or the pairs";
    case 50: return "not a field file";
    case 51: return "field file of another version";
    case 52: return "field header cut";
    case 53: return "F of a field invalid";
    case 54: return "end of file";
    case 55: return "offset outside the file";
    case 60: return "channel over 7";
    case 61: return "packet empty or over 1,024 octets";
    case 62: return "channel full";
    case 63: return "nothing waits";
    case 64: return "no outlet's state or memory";
    case 70: return "line over 4,096 words";
    case 71: return "start past the line's end";
    case 72: return "no room before the line's end";
    case 73: return "word over 1,023 in the line";
    case JIBHOTRAN_LAYOUT: return "no such layout";
    case JIBHOTRAN_ROW: return "row too short";
    default: return "no such refusal";
    }
}

/*
 * Reads a packet of the layout, its records into cells, in the tolerant way: a record that fails only its checksum is left out and counted, and 11 is
 * not given. answer: source, payload type, marker, packet number, timestamp, F, records, cells, records left out. Records and cells are those that
 * come through. Of a packet of the drafts F is 0, and so are S and StreamNum of its records.
 * No octets: 2. No cells: only a packet of which no record comes through is accepted, another is refused by 14.
 */
uint8_t jibhotran_read(uint8_t layout, const uint8_t *octets, size_t octets_len, uint16_t *cells, size_t cells_len, uint64_t *answer,
                       size_t answer_len);

/* The same in the strict way: a wrong checksum is refused by 11, and the records left out are 0. No octets, no cells: as above. */
uint8_t jibhotran_read_strict(uint8_t layout, const uint8_t *octets, size_t octets_len, uint16_t *cells, size_t cells_len, uint64_t *answer,
                              size_t answer_len);

/*
 * Writes a packet of the layout with the records of the cells; a marker other than 0 marks it. answer: octets.
 * F, S or StreamNum not 0 is refused by 25 in the drafts' layout. No cells: a packet without records. No room: 23.
 */
uint8_t jibhotran_write(uint8_t layout, uint32_t source, uint8_t payload_type, uint8_t marker, uint32_t number, uint32_t timestamp,
                        uint8_t f, const uint16_t *cells, size_t cells_len, uint8_t *out, size_t out_len, uint64_t *answer,
                        size_t answer_len);

/* The state of a depacketizer just opened. answer: nothing. A payload type over 127 is refused by 24. */
uint8_t jibhotran_open(uint32_t source, uint8_t payload_type, uint64_t *state, size_t state_len, uint64_t *answer, size_t answer_len);

/*
 * One arrival, a packet of the layout. answer: one of JIBHOTRAN_SKIPPED to JIBHOTRAN_WHOLE, timestamp, F, records, cells, packets; the last five
 * are 0 unless the field is whole. A packet without records counts among the packets and leaves no cell.
 * While a field is gathered, each call is lent the same store, untouched.
 * state: source, payload type, phase (0 lost, 1 ready, 2 filling), heard (0 or 1), last, timestamp, F, records, cells, fresh, late, missing,
 * whether a number is remembered (0 or 1), that number (0 where none is), packets.
 * A state is refused with code 35 if a number is too wide for its field or the phase is over 2, or if it says over 4,095 records, over 36,864 cells,
 * more cells than the store has, over 4,096 packets, no packet while filling, records, cells or packets while not filling, or ready or filling
 * before the first arrival. Nothing else is checked: a payload type over 127 or F 1, for instance, passes.
 * An arrival over 2,999 ahead of the last fresh one, or 100 or more behind, is refused by 36, and the number after it is remembered until an
 * arrival is fresh. One as far that has the remembered number restarts the depacketizer: it is a first arrival, and the counts begin anew.
 * No octets: 2. No store: fields of packets without records are handed out, any other is overfull.
 */
uint8_t jibhotran_arrive(uint8_t layout, uint64_t *state, size_t state_len, const uint8_t *octets, size_t octets_len, uint16_t *store,
                         size_t store_len, uint64_t *answer, size_t answer_len);

/* Reads SDP format parameters, the pairs into octets, DID then SDID. answer: pairs, whether there is a VPID code, the code.
 * No text: no pair and no code. No room for pairs: a text without pairs is accepted, another refused by 44. */
uint8_t jibhotran_sdp_read(const uint8_t *text, size_t text_len, uint8_t *pairs, size_t pairs_len, uint64_t *answer, size_t answer_len);

/* Writes SDP format parameters; JIBHOTRAN_NO_VPID or more is no code. answer: octets. No pairs: the code alone, or the empty text. No room: only the
 * empty text is accepted, another refused by 44. */
uint8_t jibhotran_sdp_write(const uint8_t *pairs, size_t pairs_len, uint16_t vpid, uint8_t *out, size_t out_len, uint64_t *answer,
                            size_t answer_len);

/* Writes the first octets of a field file, of version 2. answer: octets, which is the offset of its first field. No room: 23. */
uint8_t jibhotran_file_begin(uint8_t *out, size_t out_len, uint64_t *answer, size_t answer_len);

/* Writes one field with the records of the cells, as version 2 has it: it does not belong behind a file of version 1. answer: octets.
 * No cells: a field without records. No room: 23. */
uint8_t jibhotran_file_write(uint32_t timestamp, uint8_t f, const uint16_t *cells, size_t cells_len, uint8_t *out, size_t out_len,
                             uint64_t *answer, size_t answer_len);

/* Reads the field at an offset of a file of version 1 or 2, its records into cells. answer: timestamp, F, records, cells, the offset after the field.
 * No file: 50. No cells: only a field without records is accepted, another is refused by 14. */
uint8_t jibhotran_file_read(const uint8_t *file, size_t file_len, size_t at, uint16_t *cells, size_t cells_len, uint64_t *answer,
                            size_t answer_len);

/*
 * Puts the records of the cells into a line of ten-bit words, from the word `start` on: each an ancillary data flag 0x000 0x3FF 0x3FF and then DID to
 * checksum, one behind the other. The words outside the written stretch stay. answer: the word behind the stretch.
 * No line: only no records are put into it, at 0. No cells: nothing is written, and the answer is the start.
 */
uint8_t jibhotran_line_write(uint16_t *line, size_t line_len, size_t start, const uint16_t *cells, size_t cells_len, uint64_t *answer,
                             size_t answer_len);

/*
 * Finds the packets of a line from the word `start` on, as long as a flag follows directly, their records into cells; C, line number, offset, S and
 * StreamNum are what the caller says. answer: records, cells, the word behind the last packet.
 * No line: no records, from 0. No cells: only a line without a flag at the start is accepted, another is refused by 14.
 */
uint8_t jibhotran_line_read(const uint16_t *line, size_t line_len, size_t start, uint16_t c, uint16_t line_number, uint16_t offset,
                            uint16_t s, uint16_t stream, uint16_t *cells, size_t cells_len, uint64_t *answer, size_t answer_len);

/* 1 where a record of these numbers is wanted, and 0 where not. pairs: DID then SDID; a last octet without an SDID is no entry. Of a DID of 0x80
 * or above (Type 1) the second number is a data block number and matters on neither side. No pairs: every record is wanted. */
uint8_t jibhotran_wanted(uint8_t did, uint8_t sdid, const uint8_t *pairs, size_t pairs_len);

/* A wanted pair. */
struct jibhotran_pair {
    uint8_t did;
    uint8_t sdid;
};

/* The same over a row of pairs, whose length is the number of pairs. No pairs: every record is wanted. */
uint8_t jibhotran_wanted_of(uint8_t did, uint8_t sdid, const struct jibhotran_pair *pairs, size_t pairs_len);

/*
 * The shared outlet. Channels 0 to 7 share 64 slots of JIBHOTRAN_OUTLET_PACKET octets in the memory
 * that the caller lends; state and memory are handed on unaltered from call to call.
 *
 * What a channel may count on, whatever the others offer: its packets leave in the order in which they were copied in; where it holds fewer
 * than eight, a packet of 1 to JIBHOTRAN_OUTLET_PACKET octets is copied in; and its oldest packet is among the next eight that are handed out, so
 * it has left after eight takes that are lent JIBHOTRAN_OUTLET_PACKET octets.
 *
 * state: the heads and the counts of the channels' rings of eight places, the slots and the lengths of these places, channel by channel (channel c's are
 * 8c to 8c + 7), and the channel that is next. Numbers that no outlet has, and memory of another size, are refused by 64, before all else
 * but JIBHOTRAN_ROW; a slot over 63, and a number that is too wide for its field (lengths have 16 bits, all others 8), are too, in a place that
 * holds nothing as well.
 * A refusal changes nothing.
 */

/* The state of an outlet that holds nothing; the memory may hold anything. Only JIBHOTRAN_ROW is refused. */
uint8_t jibhotran_outlet_open(uint64_t *state, size_t state_len);

/* Copies a packet into a free slot, behind its channel's last: 64, 60, 61, 62. answer: nothing. No octets of a packet: 61. No memory: 64. */
uint8_t jibhotran_outlet_offer(uint64_t *state, size_t state_len, uint8_t channel, const uint8_t *packet, size_t packet_len, uint8_t *memory,
                               size_t memory_len, uint64_t *answer, size_t answer_len);

/*
 * Hands out one packet to the first octets of `out`, the channels in a circle starting after the one served last, at first with 0, and passing over
 * empty ones: 64, 63, 23. answer: channel, octets. No memory: 64. No room: 23, or 63 where nothing waits.
 */
uint8_t jibhotran_outlet_take(uint64_t *state, size_t state_len, const uint8_t *memory, size_t memory_len, uint8_t *out, size_t out_len,
                              uint64_t *answer, size_t answer_len);

/*
 * What the rows and cells hold, as structs. Nothing below decides anything: each function copies numbers that a call gave.
 */

/* What a packet says beside its records, and how many these are. */
struct jibhotran_packet {
    uint32_t source;
    uint8_t payload_type;
    uint8_t marker;
    uint32_t number;
    uint32_t timestamp;
    uint8_t f;
    size_t records;
    size_t cells;
    size_t left_out;
};

/* From the answer of `jibhotran_read` and `jibhotran_read_strict`. */
static inline struct jibhotran_packet jibhotran_packet_of(const uint64_t answer[JIBHOTRAN_ANSWER]) {
    struct jibhotran_packet p;
    p.source = (uint32_t)answer[0];
    p.payload_type = (uint8_t)answer[1];
    p.marker = (uint8_t)answer[2];
    p.number = (uint32_t)answer[3];
    p.timestamp = (uint32_t)answer[4];
    p.f = (uint8_t)answer[5];
    p.records = (size_t)answer[6];
    p.cells = (size_t)answer[7];
    p.left_out = (size_t)answer[8];
    return p;
}

/* A field: of a depacketizer with the packets that it came in, of a file with the offset behind it; the other is 0. */
struct jibhotran_field {
    uint32_t timestamp;
    uint8_t f;
    size_t records;
    size_t cells;
    size_t packets;
    size_t after;
};

/* From the answer JIBHOTRAN_WHOLE of `jibhotran_arrive`. */
static inline struct jibhotran_field jibhotran_field_arrived(const uint64_t answer[JIBHOTRAN_ANSWER]) {
    struct jibhotran_field field;
    field.timestamp = (uint32_t)answer[1];
    field.f = (uint8_t)answer[2];
    field.records = (size_t)answer[3];
    field.cells = (size_t)answer[4];
    field.packets = (size_t)answer[5];
    field.after = 0;
    return field;
}

/* From the answer of `jibhotran_file_read`. */
static inline struct jibhotran_field jibhotran_field_filed(const uint64_t answer[JIBHOTRAN_ANSWER]) {
    struct jibhotran_field field;
    field.timestamp = (uint32_t)answer[0];
    field.f = (uint8_t)answer[1];
    field.records = (size_t)answer[2];
    field.cells = (size_t)answer[3];
    field.packets = 0;
    field.after = (size_t)answer[4];
    return field;
}

/* A record in a list of cells that the library gave; `words` points into the cells. */
struct jibhotran_record {
    uint16_t c, line, offset, s, stream, did, sdid, n, index;
    const uint16_t *words;
};

/* The record at the front of the cells; the next is JIBHOTRAN_RECORD_HEAD + n cells further. */
static inline struct jibhotran_record jibhotran_record_at(const uint16_t *cells) {
    struct jibhotran_record r;
    r.c = cells[0];
    r.line = cells[1];
    r.offset = cells[2];
    r.s = cells[3];
    r.stream = cells[4];
    r.did = cells[5];
    r.sdid = cells[6];
    r.n = cells[JIBHOTRAN_COUNT_CELL];
    r.index = cells[JIBHOTRAN_INDEX_CELL];
    r.words = cells + JIBHOTRAN_RECORD_HEAD;
    return r;
}

/* A depacketizer's state, to look at: its row is what is handed on. */
struct jibhotran_state {
    uint32_t source;
    uint8_t payload_type;
    uint8_t phase;
    uint8_t heard;
    uint32_t last;
    uint32_t timestamp;
    uint8_t f;
    size_t records;
    size_t cells;
    uint64_t fresh;
    uint64_t late;
    uint64_t missing;
    uint8_t remembers;
    uint32_t remembered;
    size_t packets;
};

static inline struct jibhotran_state jibhotran_state_of(const uint64_t row[JIBHOTRAN_STATE]) {
    struct jibhotran_state s;
    s.source = (uint32_t)row[0];
    s.payload_type = (uint8_t)row[1];
    s.phase = (uint8_t)row[2];
    s.heard = (uint8_t)row[3];
    s.last = (uint32_t)row[4];
    s.timestamp = (uint32_t)row[5];
    s.f = (uint8_t)row[6];
    s.records = (size_t)row[7];
    s.cells = (size_t)row[8];
    s.fresh = row[9];
    s.late = row[10];
    s.missing = row[11];
    s.remembers = (uint8_t)row[12];
    s.remembered = (uint32_t)row[13];
    s.packets = (size_t)row[14];
    return s;
}

/* An outlet's state, to look at: how many packets each channel holds, and which channel is next. */
struct jibhotran_outlet {
    uint8_t held[JIBHOTRAN_CHANNELS];
    uint8_t next;
};

static inline struct jibhotran_outlet jibhotran_outlet_of(const uint64_t row[JIBHOTRAN_OUTLET_STATE]) {
    struct jibhotran_outlet o;
    int c;
    for (c = 0; c < JIBHOTRAN_CHANNELS; c++) {
        o.held[c] = (uint8_t)row[JIBHOTRAN_CHANNELS + c];
    }
    o.next = (uint8_t)row[JIBHOTRAN_OUTLET_STATE - 1];
    return o;
}

#ifdef __cplusplus
}
#endif

#endif
