/*
 * Gathers the whole fields of a recorded stream, and files them: gather FRAMES OUT.anf
 *
 * FRAMES are RFC 4571's, a length of two octets and a packet. The first packet that can be read tells source and payload type, as in `fieldlist`.
 */
#include "jibhotran.h"

#include <stdio.h>

static uint8_t packet[JIBHOTRAN_PACKET_OCTETS];
static uint8_t octets[JIBHOTRAN_FIELD_OCTETS];
/* Room for any packet, to read the first; the fields take less. */
static uint16_t store[JIBHOTRAN_PACKET_CELLS];
static uint64_t state[JIBHOTRAN_STATE];
static uint64_t answer[JIBHOTRAN_ANSWER];

/* One frame's packet; its size, or -1 at the end of the input or where it is cut. */
static long next_frame(FILE *frames) {
    int high = getc(frames);
    int low = getc(frames);
    if (high == EOF || low == EOF) {
        return -1;
    }
    size_t size = ((size_t)high << 8) | (size_t)low;
    return fread(packet, 1, size, frames) == size ? (long)size : -1;
}

/* The field that was handed out, written behind the file. */
static int file_field(struct jibhotran_field field, FILE *file) {
    uint8_t number = jibhotran_file_write(field.timestamp, field.f, store, field.cells, octets, sizeof octets, answer, JIBHOTRAN_ANSWER);
    if (number != JIBHOTRAN_ACCEPTED) {
        fprintf(stderr, "a field: %s\n", jibhotran_text(number));
        return 0;
    }
    return fwrite(octets, 1, (size_t)answer[0], file) == answer[0];
}

static int gather(FILE *frames, FILE *file) {
    int opened = 0;
    long size;
    while ((size = next_frame(frames)) >= 0) {
        uint8_t number;
        if (!opened) {
            number = jibhotran_read_strict(JIBHOTRAN_RFC8331, packet, (size_t)size, store, JIBHOTRAN_PACKET_CELLS, answer, JIBHOTRAN_ANSWER);
            if (number == JIBHOTRAN_ACCEPTED) {
                struct jibhotran_packet first = jibhotran_packet_of(answer);
                opened = jibhotran_open(first.source, first.payload_type, state, JIBHOTRAN_STATE, answer, JIBHOTRAN_ANSWER) == JIBHOTRAN_ACCEPTED;
            }
            if (!opened) {
                continue;
            }
        }
        number = jibhotran_arrive(JIBHOTRAN_RFC8331, state, JIBHOTRAN_STATE, packet, (size_t)size, store, JIBHOTRAN_FIELD_CELLS, answer,
                                  JIBHOTRAN_ANSWER);
        if (number != JIBHOTRAN_ACCEPTED) {
            fprintf(stderr, "a packet: %s (%llu)\n", jibhotran_text(number), (unsigned long long)answer[0]);
        } else if (answer[0] == JIBHOTRAN_WHOLE && !file_field(jibhotran_field_arrived(answer), file)) {
            return 0;
        }
    }
    if (opened) {
        struct jibhotran_state s = jibhotran_state_of(state);
        printf("fresh=%llu late=%llu missing=%llu\n", (unsigned long long)s.fresh, (unsigned long long)s.late, (unsigned long long)s.missing);
    }
    return 1;
}

int main(int argc, char **argv) {
    if (argc != 3) {
        fprintf(stderr, "gather FRAMES OUT.anf\n");
        return 2;
    }
    FILE *frames = fopen(argv[1], "rb");
    FILE *file = frames == NULL ? NULL : fopen(argv[2], "wb");
    if (file == NULL) {
        perror(frames == NULL ? argv[1] : argv[2]);
        return 1;
    }
    uint8_t number = jibhotran_file_begin(octets, sizeof octets, answer, JIBHOTRAN_ANSWER);
    int good = number == JIBHOTRAN_ACCEPTED && fwrite(octets, 1, (size_t)answer[0], file) == answer[0] && gather(frames, file);
    fclose(frames);
    return fclose(file) == 0 && good ? 0 : 1;
}
