/* Every function of the header through a pointer of its type, as a C program uses them. */
#include "jibhotran.h"

#include <inttypes.h>
#include <stdio.h>
#include <string.h>

typedef uint8_t octet;
typedef uint16_t cell;
typedef uint64_t number;

static octet (*const packet_read)(octet, const octet *, size_t, cell *, size_t, number *, size_t) = jibhotran_read;
static octet (*const packet_read_strict)(octet, const octet *, size_t, cell *, size_t, number *, size_t) = jibhotran_read_strict;
static octet (*const packet_write)(octet, uint32_t, octet, octet, uint32_t, uint32_t, octet, const cell *, size_t, octet *, size_t, number *,
                                   size_t) = jibhotran_write;
static octet (*const opened)(uint32_t, octet, number *, size_t, number *, size_t) = jibhotran_open;
static octet (*const arrive)(octet, number *, size_t, const octet *, size_t, cell *, size_t, number *, size_t) = jibhotran_arrive;
static octet (*const sdp_read)(const octet *, size_t, octet *, size_t, number *, size_t) = jibhotran_sdp_read;
static octet (*const sdp_write)(const octet *, size_t, uint16_t, octet *, size_t, number *, size_t) = jibhotran_sdp_write;
static octet (*const file_begin)(octet *, size_t, number *, size_t) = jibhotran_file_begin;
static octet (*const file_write)(uint32_t, octet, const cell *, size_t, octet *, size_t, number *, size_t) = jibhotran_file_write;
static octet (*const file_read)(const octet *, size_t, size_t, cell *, size_t, number *, size_t) = jibhotran_file_read;
static octet (*const line_write)(cell *, size_t, size_t, const cell *, size_t, number *, size_t) = jibhotran_line_write;
static octet (*const line_read)(const cell *, size_t, size_t, cell, cell, cell, cell, cell, cell *, size_t, number *,
                                size_t) = jibhotran_line_read;
static octet (*const wanted)(octet, octet, const octet *, size_t) = jibhotran_wanted;
static octet (*const wanted_of)(octet, octet, const struct jibhotran_pair *, size_t) = jibhotran_wanted_of;
static octet (*const outlet_open)(number *, size_t) = jibhotran_outlet_open;
static octet (*const outlet_offer)(number *, size_t, octet, const octet *, size_t, octet *, size_t, number *, size_t) = jibhotran_outlet_offer;
static octet (*const outlet_take)(number *, size_t, const octet *, size_t, octet *, size_t, number *, size_t) = jibhotran_outlet_take;

static const cell record_a[9] = {0, 9, 0, 0, 0, 0x41, 0x05, 0, 3};
static number answer[JIBHOTRAN_ANSWER];

static void numbers(const char *name, const number *row, size_t count) {
    printf("%s:", name);
    for (size_t i = 0; i < count; i++) printf(" %" PRIu64, row[i]);
    printf("\n");
}

static void octets(const char *name, const octet *row, size_t count) {
    printf("%s:", name);
    for (size_t i = 0; i < count; i++) printf(" %02X", row[i]);
    printf("\n");
}

static void cells(const char *name, const cell *row, size_t count) {
    printf("%s:", name);
    for (size_t i = 0; i < count; i++) printf(" %X", row[i]);
    printf("\n");
}

/* A number that no call gives. */
static void forget(void) {
    for (size_t i = 0; i < JIBHOTRAN_ANSWER; i++) answer[i] = 77;
}

/* The result and the first values of the answer, which is then forgotten. */
static void result(const char *name, octet given, size_t values) {
    printf("%s %d, ", name, given);
    numbers("answer", answer, values);
    forget();
}

static void packets(octet packet[2][32]) {
    const octet rfc = JIBHOTRAN_RFC8331;
    cell back[9];
    result("write 7", packet_write(rfc, 1, 112, 1, 7, 1000, 2, record_a, 9, packet[0], 32, answer, JIBHOTRAN_ANSWER), 2);
    octets("packet", packet[0], 32);
    result("write 8", packet_write(rfc, 1, 112, 1, 8, 2501, 3, record_a, 9, packet[1], 32, answer, JIBHOTRAN_ANSWER), 2);
    result("read", packet_read(rfc, packet[0], 32, back, 9, answer, JIBHOTRAN_ANSWER), 9);
    cells("cells", back, 9);
    packet[0][28] ^= 1;
    result("checksum wrong, read", packet_read(rfc, packet[0], 32, back, 9, answer, JIBHOTRAN_ANSWER), 9);
    result("read strict", packet_read_strict(rfc, packet[0], 32, back, 9, answer, JIBHOTRAN_ANSWER), 2);
    packet[0][28] ^= 1;
    result("read strict", packet_read_strict(rfc, packet[0], 32, back, 9, answer, JIBHOTRAN_ANSWER), 9);
    result("read 11 octets", packet_read(rfc, packet[0], 11, back, 9, answer, JIBHOTRAN_ANSWER), 2);
    result("short row", packet_read(rfc, packet[0], 32, back, 9, answer, JIBHOTRAN_ANSWER - 1), 2);
    result("no layout", packet_read(2, packet[0], 32, back, 9, answer, JIBHOTRAN_ANSWER), 2);
    result("no layout", packet_write(2, 1, 112, 1, 7, 1000, 2, record_a, 9, packet[0], 32, answer, JIBHOTRAN_ANSWER), 2);
}

/* The same record in a packet of the drafts, which carries no F. */
static void old_packets(octet packet[26]) {
    const octet drafts = JIBHOTRAN_DRAFTS;
    cell back[9];
    result("old write", packet_write(drafts, 1, 112, 1, 9, 4002, 2, record_a, 9, packet, 26, answer, JIBHOTRAN_ANSWER), 2);
    result("old write", packet_write(drafts, 1, 112, 1, 9, 4002, 0, record_a, 9, packet, 26, answer, JIBHOTRAN_ANSWER), 2);
    octets("packet", packet, 26);
    result("old read", packet_read(drafts, packet, 26, back, 9, answer, JIBHOTRAN_ANSWER), 9);
    cells("cells", back, 9);
    result("read", packet_read(JIBHOTRAN_RFC8331, packet, 26, back, 9, answer, JIBHOTRAN_ANSWER), 2);
}

static void depacketizer(octet packet[2][32], octet old[26]) {
    const octet rfc = JIBHOTRAN_RFC8331;
    number state[JIBHOTRAN_STATE];
    cell store[16];
    result("short state", opened(1, 112, state, JIBHOTRAN_STATE - 1, answer, JIBHOTRAN_ANSWER), 1);
    result("open", opened(1, 112, state, JIBHOTRAN_STATE, answer, JIBHOTRAN_ANSWER), 1);
    numbers("state", state, JIBHOTRAN_STATE);
    result("arrive 7", arrive(rfc, state, JIBHOTRAN_STATE, packet[0], 32, store, 16, answer, JIBHOTRAN_ANSWER), 7);
    result("arrive 8", arrive(rfc, state, JIBHOTRAN_STATE, packet[1], 32, store, 16, answer, JIBHOTRAN_ANSWER), 7);
    cells("store", store, 9);
    result("arrive 8", arrive(rfc, state, JIBHOTRAN_STATE, packet[1], 32, store, 16, answer, JIBHOTRAN_ANSWER), 2);
    numbers("state", state, JIBHOTRAN_STATE);
    result("no layout", arrive(2, state, JIBHOTRAN_STATE, old, 26, store, 16, answer, JIBHOTRAN_ANSWER), 2);
    result("arrive 9", arrive(rfc, state, JIBHOTRAN_STATE, old, 26, store, 16, answer, JIBHOTRAN_ANSWER), 2);
    result("old arrive 9", arrive(JIBHOTRAN_DRAFTS, state, JIBHOTRAN_STATE, old, 26, store, 16, answer, JIBHOTRAN_ANSWER), 7);
    numbers("state", state, JIBHOTRAN_STATE);
}

/* A field of three packets, one of them without records, sent on in the packets that it arrived in, by the answer and the store alone: packet k has the
 * records with index k, and the last is marked. */
static void sent_on(uint32_t empty) {
    const octet rfc = JIBHOTRAN_RFC8331;
    octet packet[4][32], out[32];
    size_t sizes[4];
    number state[JIBHOTRAN_STATE];
    cell store[18];
    opened(1, 112, state, JIBHOTRAN_STATE, answer, JIBHOTRAN_ANSWER);
    for (uint32_t k = 0; k < 4; k++) {
        packet_write(rfc, 1, 112, k == 0 || k == 3, 7 + k, 1000, 2, record_a, k == empty + 1 ? 0 : 9, packet[k], 32, answer, JIBHOTRAN_ANSWER);
        sizes[k] = (size_t)answer[0];
        arrive(rfc, state, JIBHOTRAN_STATE, packet[k], sizes[k], store, 18, answer, JIBHOTRAN_ANSWER);
    }
    const number timestamp = answer[1], f = answer[2], cells_used = answer[4], packets_told = answer[5];
    for (size_t at = 0, k = 0; k < packets_told; k++) {
        size_t end = at;
        while (end < cells_used && store[end + 8] == k) end += 9 + (size_t)store[end + 7];
        packet_write(rfc, 1, 112, k + 1 == packets_told, 8 + (uint32_t)k, (uint32_t)timestamp, (octet)f, store + at, end - at, out, 32, answer,
                     JIBHOTRAN_ANSWER);
        const int same = answer[0] == sizes[k + 1] && memcmp(out, packet[k + 1], sizes[k + 1]) == 0;
        printf("packet %zu of %" PRIu64 ", %zu cells: %s\n", k, packets_told, end - at, same ? "as it arrived" : "otherwise");
        at = end;
    }
    forget();
}

static void parameters(void) {
    const char *text = "DID_SDID={0x41,0x5}; VPID_Code=132";
    octet pairs[4], out[64];
    result("sdp read", sdp_read((const octet *)text, strlen(text), pairs, 4, answer, JIBHOTRAN_ANSWER), 4);
    octets("pairs", pairs, 2);
    result("sdp write", sdp_write(pairs, 2, 132, out, 64, answer, JIBHOTRAN_ANSWER), 2);
    printf("text: %.34s\n", (const char *)out);
    result("sdp write", sdp_write(pairs, 2, JIBHOTRAN_NO_VPID, out, 64, answer, JIBHOTRAN_ANSWER), 2);
    printf("wanted: %d %d\n", wanted(0x41, 0x05, pairs, 2), wanted(0x41, 0x06, pairs, 2));
    const struct jibhotran_pair row[2] = {{.did = 0x61, .sdid = 0x02}, {.did = 0x41, .sdid = 0x05}};
    printf("wanted of: %d %d %d %d\n", wanted_of(0x41, 0x05, row, 2), wanted_of(0x05, 0x41, row, 2), wanted_of(0x41, 0x05, row, 1),
           wanted_of(0x41, 0x05, row, 0));
}

static void file(void) {
    octet out[24];
    cell back[9];
    result("file begin", file_begin(out, 24, answer, JIBHOTRAN_ANSWER), 2);
    result("file write", file_write(2501, 3, record_a, 9, out + 5, 19, answer, JIBHOTRAN_ANSWER), 2);
    octets("file", out, 24);
    result("file read", file_read(out, 24, 5, back, 9, answer, JIBHOTRAN_ANSWER), 6);
    cells("cells", back, 9);
    result("file read", file_read(out, 24, 24, back, 9, answer, JIBHOTRAN_ANSWER), 2);
}

static void lines(void) {
    cell line[10] = {1, 2, 3, 4, 5, 6, 7, 8, 9, 10}, back[9];
    result("line write", line_write(line, 10, 4, record_a, 9, answer, JIBHOTRAN_ANSWER), 2);
    result("line write", line_write(line, 10, 2, record_a, 9, answer, JIBHOTRAN_ANSWER), 2);
    cells("line", line, 10);
    result("line read", line_read(line, 10, 2, 1, 0x7FF, 0xFFF, 1, 127, back, 9, answer, JIBHOTRAN_ANSWER), 4);
    cells("cells", back, 9);
    result("line read", line_read(line, 10, 2, 2, 0, 0, 0, 0, back, 9, answer, JIBHOTRAN_ANSWER), 2);
}

/* One channel reloads, another offers one packet, and each gets its turn. */
static void outlet(void) {
    static octet memory[JIBHOTRAN_OUTLET_MEMORY];
    static number state[JIBHOTRAN_OUTLET_STATE];
    const size_t slots = JIBHOTRAN_OUTLET_MEMORY, row = JIBHOTRAN_OUTLET_STATE;
    octet out[JIBHOTRAN_OUTLET_PACKET], packet[3] = {30, 31, 32};
    printf("outlet open %d %d\n", outlet_open(state, row - 1), outlet_open(state, row));
    result("take", outlet_take(state, row, memory, slots, out, sizeof out, answer, JIBHOTRAN_ANSWER), 2);
    for (octet i = 0; i < 9; i++) {
        packet[0] = 30 + i;
        result("offer 3", outlet_offer(state, row, 3, packet, 3, memory, slots, answer, JIBHOTRAN_ANSWER), 1);
    }
    result("offer 5", outlet_offer(state, row, 5, packet, 1, memory, slots, answer, JIBHOTRAN_ANSWER), 1);
    result("offer 8", outlet_offer(state, row, 8, packet, 1, memory, slots, answer, JIBHOTRAN_ANSWER), 1);
    result("offer none", outlet_offer(state, row, 5, packet, 0, memory, slots, answer, JIBHOTRAN_ANSWER), 1);
    result("short memory", outlet_offer(state, row, 5, packet, 1, memory, slots - 1, answer, JIBHOTRAN_ANSWER), 1);
    numbers("heads and counts", state, 16);
    for (int i = 0; i < 3; i++) {
        result("take", outlet_take(state, row, memory, slots, out, sizeof out, answer, JIBHOTRAN_ANSWER), 3);
        octets("first octet", out, 1);
    }
    result("take to 2", outlet_take(state, row, memory, slots, out, 2, answer, JIBHOTRAN_ANSWER), 2);
    state[row - 1] = 8;
    result("no state", outlet_take(state, row, memory, slots, out, sizeof out, answer, JIBHOTRAN_ANSWER), 2);
    result("short row", outlet_take(state, row - 1, memory, slots, out, sizeof out, answer, JIBHOTRAN_ANSWER), 1);
}

int main(void) {
    octet packet[2][32], old[26];
    printf("%d %d %d %d\n", JIBHOTRAN_ANSWER, JIBHOTRAN_STATE, JIBHOTRAN_ROW, JIBHOTRAN_NO_VPID);
    printf("%d %d %d\n", JIBHOTRAN_LAYOUT, JIBHOTRAN_RFC8331, JIBHOTRAN_DRAFTS);
    printf("%d %d %d %d %d\n", JIBHOTRAN_SKIPPED, JIBHOTRAN_HELD, JIBHOTRAN_MIXED, JIBHOTRAN_OVERFULL, JIBHOTRAN_WHOLE);
    result("before", 0, 1);
    packets(packet);
    old_packets(old);
    depacketizer(packet, old);
    for (uint32_t empty = 0; empty < 3; empty++) sent_on(empty);
    parameters();
    file();
    lines();
    printf("%d %d %d\n", JIBHOTRAN_OUTLET_STATE, JIBHOTRAN_OUTLET_MEMORY, JIBHOTRAN_OUTLET_PACKET);
    outlet();
    return 0;
}
