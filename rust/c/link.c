/* The header used from C: sizes and places of the structs' fields, and each function called once as its comment says.
 * -DHAVE_READ, -DHAVE_WRITE, -DHAVE_BUFFER, -DHAVE_RECEPTION, -DHAVE_LOG: which functions the archive has. */
#include "heolstorpit.h"

#include <stdio.h>
#include <stdlib.h>
#include <string.h>

#define HOLDS(name, fact) typedef char name[(fact) ? 1 : -1]
HOLDS(settings_size, sizeof(hsp_settings) == 4);
HOLDS(reading_size, sizeof(hsp_reading) == 32 && offsetof(hsp_reading, mode_request) == 28);
HOLDS(reading_offset, offsetof(hsp_reading, offset) == 4 && offsetof(hsp_reading, rows) == 8);
HOLDS(written_size, sizeof(hsp_written) == 8);
HOLDS(buffer_size, sizeof(hsp_buffer) == 3112);
HOLDS(buffer_tags, offsetof(hsp_buffer, tags) == 768);
HOLDS(buffer_lengths, offsetof(hsp_buffer, lengths) == 1536);
HOLDS(buffer_slots, offsetof(hsp_buffer, slots) == 2304);
HOLDS(buffer_occupied, offsetof(hsp_buffer, occupied) == 3072);
HOLDS(buffer_last, offsetof(hsp_buffer, last_time) == 3096 && offsetof(hsp_buffer, last_channel) == 3100);
HOLDS(buffer_drawn, offsetof(hsp_buffer, drawn) == 3104 && offsetof(hsp_buffer, settings) == 3108);
HOLDS(fresh_size, sizeof(hsp_fresh) == 3120 && offsetof(hsp_fresh, buffer) == 8);
HOLDS(offered_size, sizeof(hsp_offered) == 3144 && offsetof(hsp_offered, buffer) == 32);
HOLDS(offered_offset, offsetof(hsp_offered, offset) == 4 && offsetof(hsp_offered, late) == 8 && offsetof(hsp_offered, inserted) == 28);
HOLDS(drawn_size, sizeof(hsp_drawn) == 3144 && offsetof(hsp_drawn, buffer) == 32);
HOLDS(drawn_primary, offsetof(hsp_drawn, length) == 20 && offsetof(hsp_drawn, primary) == 24);
HOLDS(reception_size, sizeof(hsp_reception) == 56 && offsetof(hsp_reception, jitter) == 0);
HOLDS(reception_first, offsetof(hsp_reception, probation) == 8 && offsetof(hsp_reception, started) == 12);
HOLDS(reception_sequence, offsetof(hsp_reception, base) == 16 && offsetof(hsp_reception, highest) == 20);
HOLDS(reception_bad, offsetof(hsp_reception, bad) == 24);
HOLDS(reception_counts, offsetof(hsp_reception, cycles) == 28 && offsetof(hsp_reception, received) == 32);
HOLDS(reception_priors, offsetof(hsp_reception, expected_prior) == 36 && offsetof(hsp_reception, received_prior) == 40);
HOLDS(reception_transit, offsetof(hsp_reception, transit) == 44 && offsetof(hsp_reception, transit_set) == 48);
HOLDS(received_size, sizeof(hsp_received) == 64 && offsetof(hsp_received, reception) == 8);
HOLDS(reported_size, sizeof(hsp_reported) == 80 && offsetof(hsp_reported, reception) == 24);
HOLDS(reported_lost, offsetof(hsp_reported, cumulative_lost) == 8 && offsetof(hsp_reported, highest_sequence) == 12);
HOLDS(reported_jitter, offsetof(hsp_reported, jitter) == 16);
HOLDS(cursor_size, sizeof(hsp_log_cursor) == 24 && offsetof(hsp_log_cursor, settings) == 0);
HOLDS(cursor_numbers, offsetof(hsp_log_cursor, place) == 8 && offsetof(hsp_log_cursor, count) == 16);
HOLDS(opened_size, sizeof(hsp_log_opened) == 32 && offsetof(hsp_log_opened, cursor) == 8);
HOLDS(stepped_size, sizeof(hsp_log_stepped) == 64 && offsetof(hsp_log_stepped, cursor) == 40);
HOLDS(stepped_frame, offsetof(hsp_log_stepped, end) == 4 && offsetof(hsp_log_stepped, time) == 8);
HOLDS(stepped_class, offsetof(hsp_log_stepped, channel) == 12 && offsetof(hsp_log_stepped, frame_class) == 16);
HOLDS(stepped_part, offsetof(hsp_log_stepped, start) == 24 && offsetof(hsp_log_stepped, length) == 32);
HOLDS(log_written_size, sizeof(hsp_log_written) == 16 && offsetof(hsp_log_written, length) == 8);
HOLDS(areas, HSP_ROW_AREA == HSP_MAX_ROWS * HSP_ROW_WORDS && HSP_STORE_BYTES == HSP_SLOTS * HSP_SLOT_BYTES);

#define EXPECT(fact)                                                  \
    do {                                                              \
        if (!(fact)) {                                                \
            fprintf(stderr, "%s:%d: not so: %s\n", __FILE__, __LINE__, #fact); \
            exit(1);                                                  \
        }                                                             \
    } while (0)

/* Document 001, 6.1: three mono frames, two of 80 bytes and one of 120, behind an RTP header. */
static uint8_t packet[12 + 284] = {0x80, 0x80 | 97, 0x12, 0x34, 0, 0, 0x10, 0, 0, 0, 0, 9, 0xA0, 2, 0x30, 1};

/* RFC 4867: mode request 7; AMR frames of 12 bytes damaged, of no data, and SID of 5 bytes. */
static uint8_t amr[12 + 4 + 17] = {0x80, 97, 0, 1, 0, 0, 0x10, 0, 0, 0, 0, 9, 0x70, 0x80, 0xFC, 0x44};

/* RFC 2198: GSM-HR, sound 160 ticks before (offset 160, length 15), then as primary block sound and no data. */
static uint8_t redundancy[12 + 5 + 15 + 16] = {0x80, 98, 0, 2, 0, 0, 0x10, 0, 0, 0, 0, 9, 0xE1, 2, 0x80, 15, 97, [32] = 0x80, 0x70};

/* Six channels: two frame-blocks of 80 bytes a channel. */
static uint8_t array[12 + 2 + 12 * 80] = {0x80, 97, 0, 3, 0, 0, 0x10, 0, 0, 0, 0, 9, 0x20, 2};

/* No data, 254 frame-blocks and 130. */
static uint8_t quiet[12 + 4] = {0x80, 97, 0, 4, 0, 0, 0x10, 0, 0, 0, 0, 9, 0x80, 254, 0x00, 130};

int main(void) {
    hsp_settings settings = {1, 1, 97, HSP_NO_REDUNDANCY};
    hsp_settings array_settings = {1, HSP_MAX_CHANNELS, 97, HSP_NO_REDUNDANCY};
    hsp_settings gsm_settings = {3, 1, 97, 98};
    hsp_settings amr_settings = {4, 1, 97, HSP_NO_REDUNDANCY};
    uint32_t rows[HSP_ROW_AREA];
    size_t i;
    for (i = 16; i < sizeof packet; i++) packet[i] = (uint8_t)i;
    for (i = 16; i < sizeof amr; i++) amr[i] = (uint8_t)(3 * i);
    memset(rows, 0xEE, sizeof rows);
    for (i = 18; i < 32; i++) redundancy[i] = redundancy[i + 16] = 5;
    for (i = 14; i < sizeof array; i++) array[i] = (uint8_t)(i / 80);
    (void)settings;
    (void)array_settings;
    (void)quiet;
    (void)amr_settings;
    (void)gsm_settings;

#ifdef HAVE_READ
    {
        hsp_reading r = hsp_read(settings, packet, sizeof packet, rows, HSP_ROW_AREA);
        EXPECT(r.refusal == 0 && r.rows == 3 && r.marker == 1 && r.sequence == 0x1234 && r.timestamp == 4096 && r.source == 9);
        EXPECT(r.mode_request == HSP_NO_MODE_REQUEST && r.offset == 0);
        EXPECT(rows[0] == 4096 && rows[1] == HSP_PRIMARY + 256 && rows[2] == 16 && rows[3] == 80);
        EXPECT(rows[4] == 5056 && rows[5] == HSP_PRIMARY + 256 && rows[6] == 96 && rows[7] == 80);
        EXPECT(rows[8] == 6016 && rows[9] == HSP_PRIMARY + 256 && rows[10] == 176 && rows[11] == 120 && rows[12] == 0xEEEEEEEE);
        r = hsp_read(settings, packet, sizeof packet - 1, rows, HSP_ROW_AREA);
        EXPECT(r.refusal == 10 && r.rows == 0 && r.marker == 0 && r.sequence == 0 && r.timestamp == 0 && r.source == 0);
        /* the first byte after the two entries; then the second entry cut short, and missing */
        EXPECT(r.mode_request == 0 && r.offset == 16);
        r = hsp_read(settings, packet, 15, rows, HSP_ROW_AREA);
        EXPECT(r.refusal == 6 && r.offset == 14);
        r = hsp_read(settings, packet, 14, rows, HSP_ROW_AREA);
        EXPECT(r.refusal == 6 && r.offset == 14);
        settings.channels = HSP_MAX_CHANNELS + 1;
        r = hsp_read(settings, packet, 14, rows, HSP_ROW_AREA);
        EXPECT(r.refusal == 11 && r.offset == 0);
        settings.channels = 1;
        r = hsp_read(settings, packet, 14, rows, HSP_ROW_AREA - 1);
        EXPECT(r.refusal == 12 && r.offset == 0);
        /* six channels: a row for each, in order, frame-block by frame-block */
        r = hsp_read(array_settings, array, sizeof array, rows, HSP_ROW_AREA);
        EXPECT(r.refusal == 0 && r.rows == 12 && r.mode_request == HSP_NO_MODE_REQUEST);
        for (i = 0; i < 12; i++) {
            EXPECT(rows[4 * i] == 4096 + 960 * (i / 6) && rows[4 * i + 1] == HSP_PRIMARY + 256 + i % 6);
            EXPECT(rows[4 * i + 2] == 14 + 80 * i && rows[4 * i + 3] == 80);
        }
        /* as many rows as there may be, of no data, in two entries; and one more */
        r = hsp_read(settings, quiet, sizeof quiet, rows, HSP_ROW_AREA);
        EXPECT(r.refusal == 0 && r.rows == HSP_MAX_ROWS && rows[4 * 383] == 4096 + 960 * 383 && rows[4 * 383 + 1] == HSP_PRIMARY);
        EXPECT(rows[4 * 383 + 2] == sizeof quiet && rows[4 * 383 + 3] == 0);
        quiet[15] += 1;
        r = hsp_read(settings, quiet, sizeof quiet, rows, HSP_ROW_AREA);
        EXPECT(r.refusal == 9 && r.offset == 14 && r.rows == 0);
        quiet[15] -= 1;
        r = hsp_read(amr_settings, amr, sizeof amr, rows, HSP_ROW_AREA);
        EXPECT(r.refusal == 0 && r.rows == 3 && r.mode_request == 7);
        EXPECT(rows[0] == 4096 && rows[1] == HSP_PRIMARY + 5 * 256 && rows[2] == 16 && rows[3] == 12);
        EXPECT(rows[4] == 4256 && rows[5] == HSP_PRIMARY && rows[6] == 28 && rows[7] == 0);
        EXPECT(rows[8] == 4416 && rows[9] == HSP_PRIMARY + 2 * 256 && rows[10] == 28 && rows[11] == 5);
        r = hsp_read(gsm_settings, redundancy, sizeof redundancy, rows, HSP_ROW_AREA);
        EXPECT(r.refusal == 0 && r.rows == 3 && rows[0] == 3936 && rows[1] == 256);
        EXPECT(rows[4] == 4096 && rows[5] == HSP_PRIMARY + 256 && rows[8] == 4256 && rows[9] == HSP_PRIMARY);
        puts("hsp_read works from C");
    }
#endif
#ifdef HAVE_WRITE
    {
        static const uint32_t list[12] = {4096, 256, 16, 80, 5056, 256, 96, 80, 6016, 256, 176, 120};
        static const uint32_t amr_list[12] = {4096, 5 * 256, 16, 12, 4256, 0, 28, 0, 4416, 2 * 256, 28, 5};
        static const uint32_t counts[1] = {3};
        uint8_t out[HSP_MAX_PACKET];
        hsp_written w = hsp_write_payload(settings, 3, list, 12, packet, sizeof packet, out, sizeof out);
        EXPECT(w.refusal == 0 && w.length == 284 && memcmp(out, packet + 12, 284) == 0);
        w = hsp_write_packet(settings, HSP_NO_MODE_REQUEST, 2, 0x1234, 9, counts, 1, list, 12, packet, sizeof packet, out, 296);
        EXPECT(w.refusal == 0 && w.length == 296 && memcmp(out, packet, 296) == 0);
        w = hsp_write_packet(settings, HSP_NO_MODE_REQUEST, 2, 0x1234, 9, counts, 1, list, 12, packet, sizeof packet, out, 295);
        EXPECT(w.refusal == 12 && w.length == 0);
        w = hsp_write_payload(settings, HSP_NO_MODE_REQUEST + 1, list, 12, packet, sizeof packet, out, sizeof out);
        EXPECT(w.refusal == 11 && w.length == 0);
        w = hsp_write_payload(amr_settings, 7, amr_list, 12, amr, sizeof amr, out, sizeof out);
        EXPECT(w.refusal == 0 && w.length == 21 && memcmp(out, amr + 12, 21) == 0);
        w = hsp_write_packet(amr_settings, 7, 0, 1, 9, counts, 1, amr_list, 12, amr, sizeof amr, out, sizeof out);
        EXPECT(w.refusal == 0 && w.length == 33 && memcmp(out, amr, 33) == 0);
        {
            /* the primary bit is ignored; the bits above it are of no class */
            uint32_t marked[12];
            for (i = 0; i < 12; i++) marked[i] = list[i] + (i % 8 == 1 ? HSP_PRIMARY : 0);
            w = hsp_write_payload(settings, 3, marked, 12, packet, sizeof packet, out, sizeof out);
            EXPECT(w.refusal == 0 && w.length == 284 && memcmp(out, packet + 12, 284) == 0);
            marked[5] += 2 * HSP_PRIMARY;
            EXPECT(hsp_write_payload(settings, 3, marked, 12, packet, sizeof packet, out, sizeof out).refusal == 13);
        }
        {
            /* six channels; two of them in another order; then a run over 255, and a row too many */
            static uint32_t frames[4 * 12], none[4 * (HSP_MAX_ROWS + 1)];
            for (i = 0; i < 12; i++) {
                frames[4 * i] = (uint32_t)(4096 + 960 * (i / 6));
                frames[4 * i + 1] = (uint32_t)(256 + i % 6);
                frames[4 * i + 2] = (uint32_t)(14 + 80 * i);
                frames[4 * i + 3] = 80;
            }
            w = hsp_write_payload(array_settings, 3, frames, 48, array, sizeof array, out, sizeof out);
            EXPECT(w.refusal == 0 && w.length == 962 && memcmp(out, array + 12, 962) == 0);
            frames[4 * 3 + 1] = 256 + 4;
            frames[4 * 4 + 1] = 256 + 3;
            EXPECT(hsp_write_payload(array_settings, 3, frames, 48, array, sizeof array, out, sizeof out).refusal == 13);
            for (i = 0; i <= HSP_MAX_ROWS; i++) none[4 * i] = (uint32_t)(4096 + 960 * i);
            w = hsp_write_payload(settings, 3, none, 4 * HSP_MAX_ROWS, packet, 0, out, sizeof out);
            EXPECT(w.refusal == 0 && w.length == 4 && memcmp(out, quiet + 12, 4) == 0);
            EXPECT(hsp_write_payload(settings, 3, none, 4 * HSP_MAX_ROWS + 4, packet, 0, out, sizeof out).refusal == 13);
        }
        puts("hsp_write_payload and hsp_write_packet work from C");
    }
#endif
#ifdef HAVE_BUFFER
    {
        static uint8_t store[HSP_STORE_BYTES], area[HSP_DRAW_AREA];
        hsp_fresh f = hsp_new(settings);
        hsp_offered o;
        hsp_drawn d;
        hsp_buffer first;
        EXPECT(f.refusal == 0);
        o = hsp_offer(f.buffer, packet, sizeof packet, rows, HSP_ROW_AREA, store, sizeof store);
        EXPECT(o.refusal == 0 && o.inserted == 3 && o.late == 0 && o.far == 0 && o.repeated == 0 && o.better == 0 && o.no_room == 0);
        EXPECT(o.offset == 0);
        first = o.buffer;
        o = hsp_offer(o.buffer, packet, sizeof packet, rows, HSP_ROW_AREA, store, sizeof store);
        EXPECT(o.refusal == 0 && o.repeated == 3 && o.inserted == 0 && memcmp(&first, &o.buffer, sizeof first) == 0);
        o = hsp_offer(o.buffer, packet, sizeof packet - 1, rows, HSP_ROW_AREA, store, sizeof store);
        EXPECT(o.refusal == 10 && o.offset == 16 && o.repeated == 0 && memcmp(&first, &o.buffer, sizeof first) == 0);
        d = hsp_draw(o.buffer, store, sizeof store, area, sizeof area);
        EXPECT(d.refusal == 0 && d.empty == 0 && d.time == 4096 && d.channel == 0 && d.frame_class == 1 && d.length == 80);
        EXPECT(d.primary == 1);
        EXPECT(memcmp(area, packet + 16, 80) == 0 && d.buffer.drawn == 1 && d.buffer.last_time == 4096);
        d = hsp_draw(d.buffer, store, sizeof store, area, sizeof area);
        d = hsp_draw(d.buffer, store, sizeof store, area, sizeof area);
        EXPECT(d.time == 6016 && d.length == 120 && memcmp(area, packet + 176, 120) == 0);
        d = hsp_draw(d.buffer, store, sizeof store, area, sizeof area);
        EXPECT(d.refusal == 0 && d.empty == 1 && d.time == 0 && d.length == 0 && d.primary == 0);
        /* the first frame damaged, then good: better, and drawn as such */
        f = hsp_new(amr_settings);
        o = hsp_offer(f.buffer, amr, sizeof amr, rows, HSP_ROW_AREA, store, sizeof store);
        EXPECT(o.refusal == 0 && o.inserted == 2);
        amr[13] |= 4;
        o = hsp_offer(o.buffer, amr, sizeof amr, rows, HSP_ROW_AREA, store, sizeof store);
        EXPECT(o.refusal == 0 && o.better == 1 && o.repeated == 1 && o.inserted == 0);
        d = hsp_draw(o.buffer, store, sizeof store, area, sizeof area);
        EXPECT(d.refusal == 0 && d.time == 4096 && d.frame_class == 1 && d.length == 12 && memcmp(area, amr + 16, 12) == 0);
        d.buffer.drawn = 2;
        EXPECT(hsp_draw(d.buffer, store, sizeof store, area, sizeof area).refusal == 15);
        /* one frame of a redundant block, one of the primary block; then the first one again, first-hand */
        f = hsp_new(gsm_settings);
        o = hsp_offer(f.buffer, redundancy, sizeof redundancy, rows, HSP_ROW_AREA, store, sizeof store);
        EXPECT(o.refusal == 0 && o.inserted == 2 && o.buffer.tags[0] == 256 && o.buffer.tags[1] == HSP_PRIMARY + 256);
        d = hsp_draw(o.buffer, store, sizeof store, area, sizeof area);
        EXPECT(d.refusal == 0 && d.time == 3936 && d.primary == 0);
        d = hsp_draw(d.buffer, store, sizeof store, area, sizeof area);
        EXPECT(d.refusal == 0 && d.time == 4096 && d.primary == 1);
        o.buffer.tags[0] += 2 * HSP_PRIMARY;
        EXPECT(hsp_draw(o.buffer, store, sizeof store, area, sizeof area).refusal == 15);
        o.buffer.tags[0] -= HSP_PRIMARY;
        d = hsp_draw(o.buffer, store, sizeof store, area, sizeof area);
        EXPECT(d.refusal == 0 && d.time == 3936 && d.primary == 1 && d.frame_class == 1 && d.length == 14);
        o = hsp_offer(f.buffer, redundancy, sizeof redundancy, rows, HSP_ROW_AREA, store, sizeof store);
        redundancy[6] = 0x0F;
        redundancy[7] = 0x60;
        o = hsp_offer(o.buffer, redundancy, sizeof redundancy, rows, HSP_ROW_AREA, store, sizeof store);
        EXPECT(o.refusal == 0 && o.repeated == 1 && o.inserted == 1);
        EXPECT(o.buffer.tags[0] == 256 && o.buffer.tags[1] == HSP_PRIMARY + 256 && o.buffer.tags[2] == HSP_PRIMARY + 256);
        /* six channels are drawn in order, frame-block by frame-block; a seventh is no channel of theirs */
        f = hsp_new(array_settings);
        o = hsp_offer(f.buffer, array, sizeof array, rows, HSP_ROW_AREA, store, sizeof store);
        EXPECT(o.refusal == 0 && o.inserted == 12);
        d.buffer = o.buffer;
        for (i = 0; i < 12; i++) {
            d = hsp_draw(d.buffer, store, sizeof store, area, sizeof area);
            EXPECT(d.refusal == 0 && d.time == 4096 + 960 * (i / 6) && d.channel == i % 6 && d.length == 80);
            EXPECT(memcmp(area, array + 14 + 80 * i, 80) == 0 && d.buffer.last_channel == i % 6);
        }
        d.buffer.last_channel = HSP_MAX_CHANNELS;
        EXPECT(hsp_draw(d.buffer, store, sizeof store, area, sizeof area).refusal == 15);
        EXPECT(hsp_offer(f.buffer, array, sizeof array, rows, HSP_ROW_AREA - 1, store, sizeof store).refusal == 12);
        array_settings.channels = HSP_MAX_CHANNELS + 1;
        EXPECT(hsp_new(array_settings).refusal == 11);
        array_settings.channels = HSP_MAX_CHANNELS;
        puts("hsp_new, hsp_offer and hsp_draw work from C");
    }
#endif
#ifdef HAVE_RECEPTION
    {
        /* 65535 and 0 end the probation; 3 and 4 are lost; the last comes 160 ticks late. */
        static const uint16_t sequences[6] = {65535, 0, 1, 2, 5, 6};
        hsp_received p;
        hsp_reported r = hsp_reception_report(hsp_reception_new());
        EXPECT(r.refusal == 0 && r.fraction_lost == 0 && r.cumulative_lost == 0 && r.highest_sequence == 0 && r.jitter == 0);
        p.reception = r.reception;
        EXPECT(p.reception.jitter == 0 && p.reception.probation == 0 && p.reception.started == 0 && p.reception.base == 0);
        EXPECT(p.reception.highest == 0 && p.reception.bad == 0 && p.reception.cycles == 0 && p.reception.received == 0);
        EXPECT(p.reception.expected_prior == 0 && p.reception.received_prior == 0);
        EXPECT(p.reception.transit == 0 && p.reception.transit_set == 0);
        for (i = 0; i < 6; i++) {
            p = hsp_reception_packet(p.reception, sequences[i], 0xFFFFFFF0, i < 5 ? 16 : 176);
            EXPECT(p.refusal == 0 && p.valid == (i > 0));
        }
        EXPECT(p.reception.probation == 0 && p.reception.started != 0 && p.reception.base == 0 && p.reception.highest == 6);
        EXPECT(p.reception.bad == 65537 && p.reception.cycles == 0 && p.reception.received == 5 && p.reception.jitter == 160);
        EXPECT(p.reception.transit == 192 && p.reception.transit_set != 0);
        /* 2 of 7 are lost: 2 * 256 / 7 */
        r = hsp_reception_report(p.reception);
        EXPECT(r.refusal == 0 && r.fraction_lost == 73 && r.cumulative_lost == 2 && r.highest_sequence == 6 && r.jitter == 10);
        EXPECT(r.reception.expected_prior == 7 && r.reception.received_prior == 5);
        p = hsp_reception_packet(r.reception, 30000, 0, 0);
        EXPECT(p.refusal == 0 && p.valid == 0 && p.reception.bad == 30001 && p.reception.highest == 6 && p.reception.received == 5);
        /* three repeats: one more than were expected, and cumulative_lost is below 0 */
        for (i = 0; i < 3; i++) p = hsp_reception_packet(p.reception, 6, 0, 192);
        r = hsp_reception_report(p.reception);
        EXPECT(p.valid == 1 && r.fraction_lost == 0 && r.cumulative_lost == -1 && r.highest_sequence == 6);
        r.reception.probation = 3;
        p = hsp_reception_packet(r.reception, 7, 0, 0);
        EXPECT(p.refusal == 15 && p.valid == 0 && p.reception.probation == 3 && p.reception.highest == 6);
        r.reception.probation = 2;
        r.reception.jitter = 34359738361;
        r = hsp_reception_report(r.reception);
        EXPECT(r.refusal == 15 && r.cumulative_lost == 0 && r.highest_sequence == 0 && r.jitter == 0 && r.reception.jitter == 34359738361);
        r.reception.jitter = 34359738360;
        EXPECT(hsp_reception_report(r.reception).jitter == 2147483647);
        puts("hsp_reception_new, hsp_reception_packet and hsp_reception_report work from C");
    }
#endif
#ifdef HAVE_LOG
    {
        /* settings, a field that is passed over, SID of 14 bytes at 0x01020304, sound at 9, the end */
        static const uint8_t log[7 + 5 + 2 * 23 + 7] = {1, 0, 4, 3, 1, 97, 98, 200, 0, 2, 1, 3, 2, 0, 20, 1, 2, 3, 4, 0, 2, 77, [35] = 2, 0, 20,
                                                        0, 0, 0, 9, 0, 1, [57] = 88, 3, 0, 4, 0, 0, 0, 2};
        static const uint32_t list[8] = {0x01020304, 2 * 256, 21, 14, 9, HSP_PRIMARY + 256, 44, 14};
        uint8_t out[sizeof log], damaged[sizeof log];
        hsp_log_cursor second;
        hsp_log_stepped s;
        hsp_log_written w;
        hsp_log_opened o = hsp_log_open(log, sizeof log);
        EXPECT(o.refusal == 0 && o.cursor.place == HSP_LOG_FIRST && o.cursor.count == 0);
        EXPECT(memcmp(&o.cursor.settings, &gsm_settings, sizeof gsm_settings) == 0);
        s = hsp_log_step(o.cursor, log, sizeof log);
        EXPECT(s.refusal == 0 && s.end == 0 && s.time == 0x01020304 && s.channel == 0 && s.frame_class == 2 && s.start == 21 && s.length == 14);
        EXPECT(s.cursor.place == 35 && s.cursor.count == 1 && memcmp(&s.cursor.settings, &gsm_settings, sizeof gsm_settings) == 0);
        second = s.cursor;
        s = hsp_log_step(second, log, sizeof log);
        EXPECT(s.refusal == 0 && s.time == 9 && s.frame_class == 1 && s.start == 44 && s.length == 14 && log[s.start + 13] == 88);
        EXPECT(s.cursor.place == 58 && s.cursor.count == 2);
        s = hsp_log_step(s.cursor, log, sizeof log);
        EXPECT(s.refusal == 0 && s.end == 1 && s.time == 0 && s.channel == 0 && s.frame_class == 0 && s.start == 0 && s.length == 0);
        EXPECT(s.cursor.place == 58 && s.cursor.count == 2);
        /* written again: the same without the field that was passed over */
        memset(out, 0xEE, sizeof out);
        w = hsp_log_write(gsm_settings, list, 8, log, sizeof log, out, HSP_LOG_FIRST + 2 * (HSP_LOG_FRAME + 14) + HSP_LOG_LAST);
        EXPECT(w.refusal == 0 && w.length == 60 && memcmp(out, log, 7) == 0 && memcmp(out + 7, log + 12, 53) == 0 && out[60] == 0xEE);
        w = hsp_log_write(gsm_settings, list, 0, log, 0, out, HSP_LOG_FIRST + HSP_LOG_LAST);
        EXPECT(w.refusal == 0 && w.length == 14 && out[7] == 3 && out[13] == 0);
        EXPECT(hsp_log_write(gsm_settings, list, 8, log, sizeof log, out, 59).refusal == 12);
        EXPECT(hsp_log_write(gsm_settings, list, 8, log, 57, out, 0).refusal == 14);
        EXPECT(hsp_log_write(gsm_settings, list, 7, log, sizeof log, out, 0).refusal == 19);
        EXPECT(hsp_log_write(settings, list, 8, log, sizeof log, out, sizeof out).refusal == 19);
        settings.channels = HSP_MAX_CHANNELS + 1;
        w = hsp_log_write(settings, list, 7, log, 0, out, 0);
        EXPECT(w.refusal == 11 && w.length == 0);
        /* a frame of the sixth channel; a log of seven channels, and a frame of a seventh channel */
        {
            static const uint32_t sixth[4] = {9, 256 + 5, 14, 80};
            uint8_t kept[HSP_LOG_FIRST + HSP_LOG_FRAME + 80 + HSP_LOG_LAST];
            w = hsp_log_write(array_settings, sixth, 4, array, sizeof array, kept, sizeof kept);
            EXPECT(w.refusal == 0 && w.length == sizeof kept && kept[4] == 6 && kept[14] == 5);
            o = hsp_log_open(kept, sizeof kept);
            EXPECT(o.refusal == 0 && o.cursor.settings.channels == 6);
            s = hsp_log_step(o.cursor, kept, sizeof kept);
            EXPECT(s.refusal == 0 && s.channel == 5 && s.start == 16 && s.length == 80 && memcmp(kept + 16, array + 14, 80) == 0);
            kept[14] = 6;
            EXPECT(hsp_log_step(o.cursor, kept, sizeof kept).refusal == 19);
            kept[4] = 7;
            EXPECT(hsp_log_open(kept, sizeof kept).refusal == 19);
        }
        /* openings: no tag 1, cut, not of 4 bytes */
        o = hsp_log_open(log + 1, sizeof log - 1);
        EXPECT(o.refusal == 18 && o.cursor.place == 0 && o.cursor.count == 0 && o.cursor.settings.format == 0);
        EXPECT(hsp_log_step(o.cursor, log, sizeof log).refusal == 11);
        EXPECT(hsp_log_open(log, 0).refusal == 18 && hsp_log_open(log, 6).refusal == 17);
        memcpy(damaged, log, sizeof log);
        damaged[2] = 5;
        EXPECT(hsp_log_open(damaged, sizeof log).refusal == 19);
        /* steps: cut, stopped, not a GSM-HR frame, another count, another tag 1, a byte after the end */
        s = hsp_log_step(second, log, 57);
        EXPECT(s.refusal == 17 && s.end == 0 && s.time == 0 && s.start == 0 && s.length == 0 && s.cursor.place == 35 && s.cursor.count == 1);
        EXPECT(hsp_log_step(second, log, 35).refusal == 18);
        damaged[43] = 5;
        EXPECT(hsp_log_step(second, damaged, sizeof log).refusal == 19);
        s.cursor.place = 58;
        EXPECT(hsp_log_step(s.cursor, log, sizeof log).refusal == 20);
        s.cursor.count = 2;
        damaged[58] = 1;
        EXPECT(hsp_log_step(s.cursor, damaged, sizeof log).refusal == 18);
        memcpy(damaged, log + 1, sizeof log - 1);
        damaged[sizeof log - 1] = 0;
        s.cursor.place = 57;
        s = hsp_log_step(s.cursor, damaged, sizeof log);
        EXPECT(s.refusal == 18 && s.cursor.place == 57 && s.cursor.count == 2);
        /* cursors: a place under 7, past the log, a count over it */
        s.cursor.place = 6;
        EXPECT(hsp_log_step(s.cursor, log, sizeof log).refusal == 15);
        s.cursor.place = sizeof log + 1;
        EXPECT(hsp_log_step(s.cursor, log, sizeof log).refusal == 15);
        s.cursor.place = 58;
        s.cursor.count = 59;
        s = hsp_log_step(s.cursor, log, sizeof log);
        EXPECT(s.refusal == 15 && s.cursor.place == 58 && s.cursor.count == 59);
        puts("hsp_log_open, hsp_log_step and hsp_log_write work from C");
    }
#endif
    return 0;
}
