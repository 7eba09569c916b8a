/* Lines of the serial interface against GStreamer's ancillary parser and encoder, over v210 lines. It prints what it compared and what GStreamer treats
 * otherwise, and fails at the first difference that is none of these. */
#include "jibhotran.h"

#include <gst/video/video.h>
#include <stdio.h>
#include <stdlib.h>
#include <string.h>

/* A record has two cells more than its packet has words. */
enum { WIDTH = 1920, CELLS = 2 * WIDTH, V210 = WIDTH / 6 * 16, HEAD = JIBHOTRAN_RECORD_HEAD, MORE_CELLS = 2 };

static uint64_t seed = 1;

static unsigned below(unsigned n) {
    seed = seed * 6364136223846793005u + 1442695040888963407u;
    return (unsigned)(seed >> 33) % n;
}

static void check(int holds, const char *what) {
    if (!holds) {
        printf("DIFFERS: %s\n", what);
        exit(1);
    }
}

/* A v210 line: luma and chroma words in turn (Cb Y Cr Y ..), three in each 32 bits, least significant first. */
static void pack(const uint16_t *luma, uint8_t *line) {
    memset(line, 0, V210);
    for (unsigned k = 0; k < 2 * WIDTH; k++) {
        uint32_t word = k % 2 ? luma[k / 2] : 0x200;
        uint32_t held = GST_READ_UINT32_LE(line + k / 3 * 4) | word << (k % 3 * 10);
        GST_WRITE_UINT32_LE(line + k / 3 * 4, held);
    }
}

static void unpack(const uint8_t *line, uint16_t *luma) {
    for (unsigned k = 1; k < 2 * WIDTH; k += 2) luma[k / 2] = GST_READ_UINT32_LE(line + k / 3 * 4) >> (k % 3 * 10) & 0x3FF;
}

static void blank(uint16_t *luma) {
    for (unsigned k = 0; k < WIDTH; k++) luma[k] = 0x040;
}

/* How many packets GStreamer finds in luma words. */
static unsigned found(const uint16_t *luma, GstVideoAncillary *ancs, unsigned most) {
    uint8_t line[V210];
    GstVideoVBIParser *parser = gst_video_vbi_parser_new(GST_VIDEO_FORMAT_v210, WIDTH);
    unsigned count = 0;
    pack(luma, line);
    gst_video_vbi_parser_add_line(parser, line);
    while (count < most && gst_video_vbi_parser_get_ancillary(parser, &ancs[count]) == GST_VIDEO_VBI_PARSER_RESULT_OK) count++;
    gst_video_vbi_parser_free(parser);
    return count;
}

/* A record of n words; any that is not protected, or one of eight bits with its parity. */
static size_t record(uint16_t *cells, unsigned n) {
    const uint16_t head[HEAD] = {below(2), below(2048), below(4096), below(2), below(128), 1 + below(255), below(256), n, 0};
    memcpy(cells, head, sizeof head);
    for (unsigned k = 0; k < n; k++) cells[HEAD + k] = 4 + below(1016);
    return HEAD + n;
}

static unsigned counts(unsigned k) {
    static const unsigned borders[6] = {0, 1, 2, 254, 255, 16};
    return k % 3 ? below(60) : borders[below(6)];
}

/* Ours in a line, found by GStreamer: the same packets, and each word's low eight bits. */
static void ours_found(void) {
    static GstVideoAncillary ancs[300];
    unsigned packets = 0, words = 0;
    for (unsigned round = 0; round < 2000; round++) {
        uint16_t cells[CELLS], luma[WIDTH];
        uint64_t answer[JIBHOTRAN_ANSWER];
        size_t used = 0, records = below(7), start = below(40);
        for (size_t k = 0; k < records; k++) used += record(cells + used, counts(below(1000)));
        if (start + used - MORE_CELLS * records > WIDTH) continue;
        blank(luma);
        check(jibhotran_line_write(luma, WIDTH, start, cells, used, answer, JIBHOTRAN_ANSWER) == 0, "written");
        check(found(luma, ancs, 300) == records, "as many packets found");
        const uint16_t *cell = cells;
        for (size_t k = 0; k < records; k++, cell += HEAD + cell[7]) {
            check(ancs[k].DID == cell[5] && ancs[k].SDID_block_number == cell[6] && ancs[k].data_count == cell[7], "DID, SDID, Data_Count");
            for (unsigned j = 0; j < cell[7]; j++) check(ancs[k].data[j] == (cell[HEAD + j] & 0xFF), "a word's low eight bits");
            words += cell[7];
        }
        packets += records;
    }
    printf("ours, found by GStreamer: %u packets, %u words\n", packets, words);
}

/* GStreamer's in a line, read by us: the same packets, words with parity. */
static void its_read(void) {
    unsigned packets = 0, words = 0;
    for (unsigned round = 0; round < 2000; round++) {
        static uint8_t data[8][256], line[V210];
        uint8_t did[8], sdid[8];
        unsigned n[8], records = 1 + below(6);
        uint16_t luma[WIDTH], cells[CELLS];
        uint64_t answer[JIBHOTRAN_ANSWER];
        GstVideoVBIEncoder *encoder = gst_video_vbi_encoder_new(GST_VIDEO_FORMAT_v210, WIDTH);
        for (unsigned k = 0; k < records; k++) {
            did[k] = 1 + below(255), sdid[k] = below(256), n[k] = counts(below(1000));
            for (unsigned j = 0; j < n[k]; j++) data[k][j] = below(256);
            check(gst_video_vbi_encoder_add_ancillary(encoder, FALSE, did[k], sdid[k], data[k], n[k]), "added");
        }
        memset(line, 0, sizeof line);
        gst_video_vbi_encoder_write_line(encoder, line);
        gst_video_vbi_encoder_free(encoder);
        unpack(line, luma);
        check(jibhotran_line_read(luma, WIDTH, 0, 0, 9, 0, 0, 0, cells, CELLS, answer, JIBHOTRAN_ANSWER) == 0, "read");
        check(answer[0] == records, "as many records read");
        const uint16_t *cell = cells;
        for (unsigned k = 0; k < records; k++, cell += HEAD + cell[7]) {
            check(cell[5] == did[k] && cell[6] == sdid[k] && cell[7] == n[k], "DID, SDID, Data_Count");
            for (unsigned j = 0; j < n[k]; j++) {
                unsigned word = data[k][j];
                word |= __builtin_parity(word) ? 0x100 : 0x200;
                check(cell[HEAD + j] == word, "a word with its parity");
            }
            words += n[k];
        }
        packets += records;
    }
    printf("GStreamer's, read by us: %u packets, %u words\n", packets, words);
}

/* A line of two packets changed in one word, or with a gap between them: what each says. */
static void otherwise(const char *what, unsigned at, uint16_t word, unsigned gap) {
    static GstVideoAncillary ancs[300];
    uint16_t cells[CELLS], luma[WIDTH];
    uint64_t answer[JIBHOTRAN_ANSWER];
    size_t one = record(cells, 2), two = record(cells + one, 2);
    blank(luma);
    jibhotran_line_write(luma, WIDTH, 0, cells, one, answer, JIBHOTRAN_ANSWER);
    jibhotran_line_write(luma, WIDTH, 9 + gap, cells + one, two, answer, JIBHOTRAN_ANSWER);
    if (at) luma[at] = word < 0x400 ? word : luma[at] ^ (word & 0x3FF);
    /* a user data word that is changed has its checksum made anew */
    if (at == 6) {
        unsigned sum = 0;
        for (unsigned k = 3; k < 8; k++) sum += luma[k] & 0x1FF;
        luma[8] = (sum & 0x1FF) | (~sum & 0x100) << 1;
    }
    uint8_t number = jibhotran_line_read(luma, WIDTH, 0, 0, 9, 0, 0, 0, cells, CELLS, answer, JIBHOTRAN_ANSWER);
    printf("%s: GStreamer finds %u packets; ours ", what, found(luma, ancs, 300));
    if (number) printf("refuses by %d, packet %d\n", number, (int)answer[0]);
    else printf("reads %d\n", (int)answer[0]);
}

int main(void) {
    gst_init(NULL, NULL);
    ours_found();
    its_read();
    otherwise("two packets that touch", 0, 0, 0);
    otherwise("a gap of one word", 0, 0, 1);
    otherwise("a checksum's b0 changed", 8, 0x401, 0);
    otherwise("a checksum's b9 changed", 8, 0x600, 0);
    otherwise("the parity of DID changed", 3, 0x500, 0);
    otherwise("a user data word 0x003", 6, 0x003, 0);
    return 0;
}
