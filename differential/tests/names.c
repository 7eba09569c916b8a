/* What the header has for C people: texts, structs, sizes at their borders, and what no octets, cells or room mean. */
#include "jibhotran.h"

#include <inttypes.h>
#include <stdio.h>
#include <string.h>

#define ROW answer, JIBHOTRAN_ANSWER

static const uint16_t record_b[11] = {1, 0x7FF, 0xFFF, 1, 3, 0x61, 0x02, 2, 5, 0x2AA, 0x155};
static uint64_t answer[JIBHOTRAN_ANSWER];
static uint64_t state[JIBHOTRAN_STATE];
static uint64_t outlet[JIBHOTRAN_OUTLET_STATE];
static uint8_t memory[JIBHOTRAN_OUTLET_MEMORY];
static uint8_t octets[JIBHOTRAN_PACKET_OCTETS];
static uint16_t cells[JIBHOTRAN_PACKET_CELLS];
static uint16_t line[4096];

/* The number of a call and the first of its answer. */
static void told(const char *name, uint8_t number) {
    printf("%s: %d %" PRIu64 "\n", name, number, answer[0]);
    answer[0] = 77;
}

static void texts(void) {
    for (int number = 0; number < 256; number++) {
        const char *text = jibhotran_text((uint8_t)number);
        if (strcmp(text, "no such refusal") != 0) printf("%d %s\n", number, text);
    }
}

static void print_field(const char *name, struct jibhotran_field f) {
    printf("%s: %" PRIu32 " %d %zu %zu %zu %zu\n", name, f.timestamp, f.f, f.records, f.cells, f.packets, f.after);
}

static void print_state(void) {
    struct jibhotran_state s = jibhotran_state_of(state);
    printf("state: %" PRIu32 " %d %d %d %" PRIu32 " %" PRIu32 " %d %zu %zu %" PRIu64 " %" PRIu64 " %" PRIu64 " %d %" PRIu32 " %zu\n", s.source,
           s.payload_type, s.phase, s.heard, s.last, s.timestamp, s.f, s.records, s.cells, s.fresh, s.late, s.missing, s.remembers, s.remembered,
           s.packets);
}

static size_t packet(uint32_t number, uint8_t marker) {
    jibhotran_write(JIBHOTRAN_RFC8331, 4000000000u, 112, marker, number, 90000, 3, record_b, 11, octets, sizeof octets, ROW);
    return (size_t)answer[0];
}

static void structs(void) {
    size_t size = packet(4294967295u, 1);
    jibhotran_read(JIBHOTRAN_RFC8331, octets, size, cells, JIBHOTRAN_PACKET_CELLS, ROW);
    struct jibhotran_packet p = jibhotran_packet_of(answer);
    printf("packet: %" PRIu32 " %d %d %" PRIu32 " %" PRIu32 " %d %zu %zu %zu\n", p.source, p.payload_type, p.marker, p.number, p.timestamp, p.f,
           p.records, p.cells, p.left_out);
    struct jibhotran_record r = jibhotran_record_at(cells);
    printf("record: %d %d %d %d %d %d %d %d %d, %d %d\n", r.c, r.line, r.offset, r.s, r.stream, r.did, r.sdid, r.n, r.index, r.words[0], r.words[1]);
    jibhotran_open(p.source, p.payload_type, state, JIBHOTRAN_STATE, ROW);
    print_state();
    jibhotran_arrive(JIBHOTRAN_RFC8331, state, JIBHOTRAN_STATE, octets, size, cells, JIBHOTRAN_FIELD_CELLS, ROW);
    for (uint32_t number = 0; number < 3; number++) {
        size = packet(number, number == 1);
        jibhotran_arrive(JIBHOTRAN_RFC8331, state, JIBHOTRAN_STATE, octets, size, cells, JIBHOTRAN_FIELD_CELLS, ROW);
        if (answer[0] == JIBHOTRAN_WHOLE) print_field("arrived", jibhotran_field_arrived(answer));
        print_state();
    }
    r = jibhotran_record_at(cells + JIBHOTRAN_RECORD_HEAD + cells[JIBHOTRAN_COUNT_CELL]);
    printf("second record: index %d\n", r.index);
    size = packet(1000000, 0);
    told("far", jibhotran_arrive(JIBHOTRAN_RFC8331, state, JIBHOTRAN_STATE, octets, size, cells, JIBHOTRAN_FIELD_CELLS, ROW));
    print_state();
    jibhotran_file_begin(octets, JIBHOTRAN_FILE_HEAD_OCTETS, ROW);
    jibhotran_file_write(2501, 3, record_b, 11, octets + JIBHOTRAN_FILE_HEAD_OCTETS, JIBHOTRAN_FIELD_OCTETS, ROW);
    jibhotran_file_read(octets, JIBHOTRAN_FILE_HEAD_OCTETS + (size_t)answer[0], JIBHOTRAN_FILE_HEAD_OCTETS, cells, JIBHOTRAN_FIELD_CELLS, ROW);
    print_field("filed", jibhotran_field_filed(answer));
    jibhotran_outlet_open(outlet, JIBHOTRAN_OUTLET_STATE);
    for (uint8_t i = 0; i < 20; i++) {
        jibhotran_outlet_offer(outlet, JIBHOTRAN_OUTLET_STATE, i % 7, octets, 9, memory, JIBHOTRAN_OUTLET_MEMORY, ROW);
    }
    jibhotran_outlet_take(outlet, JIBHOTRAN_OUTLET_STATE, memory, JIBHOTRAN_OUTLET_MEMORY, octets, JIBHOTRAN_OUTLET_PACKET, ROW);
    struct jibhotran_outlet o = jibhotran_outlet_of(outlet);
    printf("outlet: %d %d %d %d %d %d %d %d, next %d\n", o.held[0], o.held[1], o.held[2], o.held[3], o.held[4], o.held[5], o.held[6], o.held[7],
           o.next);
}

/* Bits, most significant first, behind the ones that stand there. */
static size_t bits_put;
static void put(unsigned value, int width) {
    for (int i = width - 1; i >= 0; i--, bits_put++) {
        if ((value >> i) & 1u) octets[bits_put / 8] |= (uint8_t)(0x80u >> (bits_put % 8));
    }
}

/* A ten-bit word of eight: parity in b8, its opposite in b9. */
static unsigned word(unsigned value) {
    unsigned ones = 0;
    for (int i = 0; i < 8; i++) ones += (value >> i) & 1u;
    return value | (ones % 2 ? 0x100u : 0x200u);
}

/* The longest list that octets of a packet can hold: the drafts' layout, 255 records, 50,731 words of 0x200. */
static void longest_packet(void) {
    memset(octets, 0, sizeof octets);
    bits_put = 0;
    put(0x80, 8), put(112, 8), put(0, 16), put(0, 32), put(1, 32), put(0, 16), put(65518, 16), put(255, 8);
    unsigned left = 50731;
    for (unsigned i = 0; i < 255; i++) {
        unsigned n = i == 254 ? left : 199;
        left -= n;
        put(0, 24), put(word(0x41), 10), put(word(5), 10), put(word(n), 10), put(0, 2);
        unsigned sum = (word(0x41) + word(5) + word(n)) & 0x1FFu;
        for (unsigned k = 0; k < n; k++) put(0x200, 10);
        put(sum | (sum & 0x100u ? 0 : 0x200u), 10);
        bits_put = (bits_put + 7) / 8 * 8;
    }
    printf("longest packet: %zu octets\n", bits_put / 8);
    jibhotran_read_strict(JIBHOTRAN_DRAFTS, octets, bits_put / 8, cells, JIBHOTRAN_PACKET_CELLS, ROW);
    struct jibhotran_packet p = jibhotran_packet_of(answer);
    printf("its records and cells: %zu %zu\n", p.records, p.cells);
    told("one fewer", jibhotran_read_strict(JIBHOTRAN_DRAFTS, octets, bits_put / 8, cells, JIBHOTRAN_PACKET_CELLS - 1, ROW));
}

/* So many records of n words in the cells. */
static size_t list(size_t records, uint16_t n) {
    size_t at = 0;
    for (size_t i = 0; i < records; i++, at += JIBHOTRAN_RECORD_HEAD + n) {
        memset(cells + at, 0, JIBHOTRAN_RECORD_HEAD * sizeof cells[0]);
        cells[at + JIBHOTRAN_COUNT_CELL] = n;
        for (size_t k = 0; k < n; k++) cells[at + JIBHOTRAN_RECORD_HEAD + k] = 0x200;
    }
    return at;
}

static void borders(void) {
    static const uint8_t pairs[JIBHOTRAN_PAIR_OCTETS + 2];
    longest_packet();
    /* 3,072 records of three words, 12 cells and 16 octets each: none has more octets for its cells */
    size_t used = list(JIBHOTRAN_FIELD_CELLS / 12, 3);
    told("longest field", jibhotran_file_write(1, 0, cells, used, octets, JIBHOTRAN_FIELD_OCTETS, ROW));
    told("one octet fewer", jibhotran_file_write(1, 0, cells, used, octets, JIBHOTRAN_FIELD_OCTETS - 1, ROW));
    told("longest text", jibhotran_sdp_write(pairs, JIBHOTRAN_PAIR_OCTETS, 255, octets, JIBHOTRAN_TEXT_OCTETS, ROW));
    told("its pairs", jibhotran_sdp_read(octets, JIBHOTRAN_TEXT_OCTETS, memory, JIBHOTRAN_PAIR_OCTETS, ROW));
    told("two octets fewer", jibhotran_sdp_read(octets, JIBHOTRAN_TEXT_OCTETS, memory, JIBHOTRAN_PAIR_OCTETS - 2, ROW));
    told("one octet fewer", jibhotran_sdp_write(pairs, JIBHOTRAN_PAIR_OCTETS, 255, octets, JIBHOTRAN_TEXT_OCTETS - 1, ROW));
    told("one pair more", jibhotran_sdp_write(pairs, JIBHOTRAN_PAIR_OCTETS + 2, 255, octets, sizeof octets, ROW));
    told("file's head", jibhotran_file_begin(octets, JIBHOTRAN_FILE_HEAD_OCTETS, ROW));
    told("one octet fewer", jibhotran_file_begin(octets, JIBHOTRAN_FILE_HEAD_OCTETS - 1, ROW));
    used = list(584, 0);
    memcpy(cells + used, record_b, 11 * sizeof cells[0]);
    cells[used + JIBHOTRAN_COUNT_CELL] = 1;
    told("fullest line", jibhotran_line_write(line, 4096, 0, cells, used + 10, ROW));
    told("its records", jibhotran_line_read(line, 4096, 0, 0, 0, 0, 0, 0, cells, JIBHOTRAN_LINE_CELLS, ROW));
    told("one cell fewer", jibhotran_line_read(line, 4096, 0, 0, 0, 0, 0, 0, cells, JIBHOTRAN_LINE_CELLS - 1, ROW));
}

static void nothing_lent(void) {
    const uint8_t rfc = JIBHOTRAN_RFC8331;
    told("read no octets", jibhotran_read(rfc, octets, 0, cells, 9, ROW));
    told("write no cells", jibhotran_write(rfc, 1, 112, 1, 7, 1000, 2, cells, 0, octets, 64, ROW));
    told("write no room", jibhotran_write(rfc, 1, 112, 1, 7, 1000, 2, cells, 0, octets, 0, ROW));
    told("read no cells", jibhotran_read(rfc, octets, 20, cells, 0, ROW));
    told("strictly", jibhotran_read_strict(rfc, octets, 20, cells, 0, ROW));
    told("open 128", jibhotran_open(1, 128, state, JIBHOTRAN_STATE, ROW));
    jibhotran_open(1, 112, state, JIBHOTRAN_STATE, ROW);
    jibhotran_arrive(rfc, state, JIBHOTRAN_STATE, octets, 20, cells, 0, ROW);
    told("arrive no octets", jibhotran_arrive(rfc, state, JIBHOTRAN_STATE, octets, 0, cells, 9, ROW));
    jibhotran_write(rfc, 1, 112, 1, 8, 1000, 2, cells, 0, octets, 64, ROW);
    told("arrive no store", jibhotran_arrive(rfc, state, JIBHOTRAN_STATE, octets, 20, cells, 0, ROW));
    jibhotran_write(rfc, 1, 112, 1, 9, 1000, 2, record_b, 11, octets, 64, ROW);
    told("and a record", jibhotran_arrive(rfc, state, JIBHOTRAN_STATE, octets, 32, cells, 0, ROW));
    told("read a record, no cells", jibhotran_read(rfc, octets, 32, cells, 0, ROW));
    told("strictly", jibhotran_read_strict(rfc, octets, 32, cells, 0, ROW));
    octets[31] ^= 0x40;
    told("its checksum wrong", jibhotran_read(rfc, octets, 32, cells, 0, ROW));
    told("no text", jibhotran_sdp_read(octets, 0, octets, 0, ROW));
    told("no pairs", jibhotran_sdp_read((const uint8_t *)"VPID_Code=7", 11, octets, 0, ROW));
    told("a pair, no room", jibhotran_sdp_read((const uint8_t *)"DID_SDID={0x1,0x2}", 18, octets, 0, ROW));
    told("write no pairs", jibhotran_sdp_write(octets, 0, JIBHOTRAN_NO_VPID, octets, 0, ROW));
    told("the code alone", jibhotran_sdp_write(octets, 0, 7, octets, 64, ROW));
    told("no room", jibhotran_sdp_write(octets, 0, 7, octets, 0, ROW));
    told("file begin", jibhotran_file_begin(octets, 0, ROW));
    told("no field room", jibhotran_file_write(1, 0, cells, 0, octets, 0, ROW));
    jibhotran_file_begin(octets, 12, ROW);
    told("field without records", jibhotran_file_write(1, 0, cells, 0, octets + 5, 7, ROW));
    told("read without cells", jibhotran_file_read(octets, 12, 5, cells, 0, ROW));
    told("no file", jibhotran_file_read(octets, 0, 5, cells, 9, ROW));
    told("no file, at 0", jibhotran_file_read(octets, 0, 0, cells, 9, ROW));
    jibhotran_file_write(1, 0, record_b, 11, octets + 5, 64, ROW);
    told("a record, no cells", jibhotran_file_read(octets, 24, 5, cells, 0, ROW));
    told("no line", jibhotran_line_write(line, 0, 0, cells, 0, ROW));
    told("no line, a record", jibhotran_line_write(line, 0, 0, record_b, 11, ROW));
    told("no line, at 1", jibhotran_line_write(line, 0, 1, cells, 0, ROW));
    told("no cells", jibhotran_line_write(line, 9, 4, cells, 0, ROW));
    told("read no line", jibhotran_line_read(line, 0, 0, 0, 0, 0, 0, 0, cells, 0, ROW));
    jibhotran_line_write(line, 4096, 7, record_b, 11, ROW);
    told("no flag, no cells", jibhotran_line_read(line, 4096, 8, 0, 0, 0, 0, 0, cells, 0, ROW));
    told("a flag, no cells", jibhotran_line_read(line, 4096, 7, 0, 0, 0, 0, 0, cells, 0, ROW));
    const struct jibhotran_pair pair = {1, 2};
    printf("wanted by no pairs: %d %d\n", jibhotran_wanted(1, 2, octets, 0), jibhotran_wanted_of(1, 2, &pair, 0));
    jibhotran_outlet_open(outlet, JIBHOTRAN_OUTLET_STATE);
    told("nothing waits, no room", jibhotran_outlet_take(outlet, JIBHOTRAN_OUTLET_STATE, memory, sizeof memory, octets, 0, ROW));
    told("offer nothing", jibhotran_outlet_offer(outlet, JIBHOTRAN_OUTLET_STATE, 0, octets, 0, memory, sizeof memory, ROW));
    told("no memory", jibhotran_outlet_offer(outlet, JIBHOTRAN_OUTLET_STATE, 0, octets, 9, memory, 0, ROW));
    told("offer", jibhotran_outlet_offer(outlet, JIBHOTRAN_OUTLET_STATE, 0, octets, 9, memory, sizeof memory, ROW));
    told("take to nothing", jibhotran_outlet_take(outlet, JIBHOTRAN_OUTLET_STATE, memory, sizeof memory, octets, 0, ROW));
    told("no memory", jibhotran_outlet_take(outlet, JIBHOTRAN_OUTLET_STATE, memory, 0, octets, 9, ROW));
}

int main(void) {
    printf("%d %d %d %s\n", JIBHOTRAN_VERSION_MAJOR, JIBHOTRAN_VERSION_MINOR, JIBHOTRAN_VERSION_PATCH, JIBHOTRAN_VERSION);
    texts();
    structs();
    borders();
    nothing_lent();
    return 0;
}
