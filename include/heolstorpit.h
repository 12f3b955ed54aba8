/*
 * heolstorpit: RTP packets of G.719, GSM-HR, AMR and AMR-WB sound, read into frame rows, gathered and handed out in
 * time order, and written; reception reports on their sources; and logs of frames, written and read. The functions are proved
 * against their definitions; link crates/heolstorpit/out/libheolstorpit.a (made by `rt lib` in that crate's folder, for x86-64 Linux).
 *
 * WHO OWNS WHAT. The library has no memory of its own: no allocation, no global state, nothing kept after a call returns.
 * Packets, rows, bytes, store, logs and areas belong to the caller and are only used during the call. A buffer is a plain
 * value: it is handed in by value and comes back changed in the answer; so are a reception record and a log cursor. Two threads
 * may call at once, with areas of their own.
 *
 * POINTERS. A pointer is followed by the number of elements it points to (bytes for uint8_t, words for uint32_t). It
 * is never NULL, not even for 0 elements, and is aligned for its type. Areas that one call is given do not overlap if
 * the call may write to one of them.
 *
 * REFUSALS. Every answer but hsp_reception_new's, a bare record, begins with `refusal`: 0, or the number of the first reason
 * that applies. A refusal changes nothing: no byte or word of any area; all other numbers of the answer are 0 but `offset`, and a buffer, a reception record or
 * a log cursor comes back as it was handed in (from hsp_new and hsp_log_open: all zero).
 *
 *    1  packet shorter than 12 or longer than 2,048 bytes
 *    2  RTP version is not 2
 *    3  the list of contributing sources or the header extension runs past the end of the packet
 *    4  padding count is 0, or greater than the number of bytes after the headers
 *    5  payload type is neither the payload type nor the redundancy type of the settings
 *    6  a table entry or a redundancy block header runs past the end (an empty payload too, and one of the mode byte alone)
 *    7  reserved frame length code (G.719) or frame type (GSM-HR, AMR, AMR-WB)
 *    8  a table entry with 0 frame-blocks
 *    9  more than 384 rows
 *   10  after the tables or block headers there are too few bytes, or bytes are left over
 *   11  settings out of range, given or held in the buffer or the log cursor; a mode request over 15
 *   12  an area is too short: see the function
 *   13  the rows cannot be written: see the function
 *   14  a row to be written has start + length over the length of the byte area
 *   15  the buffer, the reception record or the log cursor handed in is not well-formed: see hsp_buffer, hsp_reception,
 *       hsp_log_cursor
 *   17  a field of the log is cut
 *   18  a tag of the log is in the wrong place or missing
 *   19  content of the log, or a row to be written to it, that the settings do not allow
 *   20  the log says another count than that of its frames
 * No function answers 16.
 *
 * The order in which they are asked: reading 11, 12, 1, 2, 3, 4, 5, then 6 to 9 table entry by table entry, then 10.
 * (Redundancy: all block headers 6, then their lengths 10, then block by block as a payload.) Writing 11, 14, 13, 12.
 * hsp_offer and hsp_draw 11, 15, 12, then as reading. Logs: hsp_log_step 11, 15, then 17 to 20 as under LOGS; hsp_log_write
 * 11, 14, 19, 12.
 *
 * OFFSETS. With refusals 6 to 10, hsp_read and hsp_offer answer as `offset` a place in the whole packet; else it is 0.
 *    6 to 9  the first byte of the table entry or block header at fault, also of one cut short; where one is missing, the place
 *            where it would start (formats 4 and 5: after the mode byte). Of an empty payload: where it would start
 *    10      the first byte after the tables of the payload or block that has too few bytes or some left over; or after the
 *            block headers, if their lengths do not fit
 * Where something is missing there may be padding or the next block at that place, or the end of the packet.
 *
 * ROWS. A frame row is four words:
 *    0  timestamp of the frame
 *    1  65536 * primary + 256 * class + channel; class 0 is no data, 1 is sound, 2 is SID (comfort noise), 5 is damaged sound
 *       and 6 damaged SID (formats 4 and 5, where the quality bit is 0); channels count from 0; primary is 1 in rows of a plain
 *       payload and of the last block of a redundancy payload, 0 in those of redundant blocks, and ignored in rows to be written
 *    2  start: the place of the frame's first byte, in the packet (reading) or in `bytes` (writing)
 *    3  length of the frame in bytes
 * A frame-block has a row for each channel, channel 0 first. A row of no data has length 0; reading gives it as start
 * the place where its bytes would lie. A frame of formats 4 and 5 is its bytes whole, the unused bits at its end
 * included.
 *
 * LOGS. A log keeps frames: fields, one after another, each of a tag (1 byte), the length of its content (2 bytes) and the
 * content. Numbers are big-endian.
 *    tag 1  the settings, first and once; 4 bytes: format, channels, payload_type, redundancy_type
 *    tag 2  a frame: time (4 bytes), channel, class (1 byte each), then the frame's bytes
 *    tag 3  the end; 4 bytes: the number of tag 2 fields
 * Fields of other tags are passed over by their length. Times may be in any order. A row's primary is not kept. The first field
 * at fault decides, and within a field the order is 18, 17, 19, 20:
 *    18  the first tag is not 1; a second tag 1; a byte after the tag 3 field, whatever it is; a log that stops before tag 1 (an
 *        empty one) or before tag 3
 *    17  tag and length are under 3 bytes, or the content is shorter than its length says
 *    19  tag 1 or 3 not of 4 bytes, tag 2 of under 6; settings out of range; a channel that the settings do not have; class 0; a
 *        class and length that no packet of the settings gives
 *    20  the count of tag 3 is not the number of frames before it (asked before a byte after the field is)
 */
#ifndef HEOLSTORPIT_H
#define HEOLSTORPIT_H

#include <stddef.h>
#include <stdint.h>

#ifdef __cplusplus
extern "C" {
#endif

#define HSP_MAX_PACKET 2048    /* bytes of a packet, at most; at least 12 */
#define HSP_MAX_PAYLOAD 2036   /* bytes of a payload written alone, at most */
#define HSP_MAX_CHANNELS 6     /* channels of formats 1 and 2, at most; formats 3 to 5 have one */
#define HSP_MAX_ROWS 384       /* rows of a packet, at most */
#define HSP_ROW_WORDS 4        /* words of a row */
#define HSP_ROW_AREA 1536      /* words of a row area that is read into, at least */
#define HSP_SLOTS 192          /* frames that a buffer holds, at most */
#define HSP_SLOT_BYTES 320     /* bytes of a slot of the store: the longest frame */
#define HSP_STORE_BYTES 61440  /* bytes of a store, at least: 192 slots */
#define HSP_DRAW_AREA 320      /* bytes of the area that a frame is drawn to, at least */
#define HSP_PRIMARY 65536      /* bit of a row's second word and of a tag: primary */
#define HSP_MAX_REDUNDANT 4    /* redundant lists of a packet written, at most */
#define HSP_NO_REDUNDANCY 128  /* redundancy_type: none */
#define HSP_NO_MODE_REQUEST 15 /* mode_request: none; the greatest there is */
#define HSP_LOG_FIRST 7        /* bytes of a log's first field (tag 1), and so the least place of a cursor */
#define HSP_LOG_FRAME 9        /* bytes of a frame's field (tag 2) before the frame's own */
#define HSP_LOG_LAST 7         /* bytes of a log's last field (tag 3) */

/*
 * What was agreed with the sender; 4 bytes.
 *   format           1 G.719 basic, 2 G.719 interleaved, 3 GSM-HR, 4 AMR, 5 AMR-WB (4 and 5: the octet-aligned payload of
 *                    RFC 4867, without CRC or interleaving)
 *   channels         1 to 6; for formats 3 to 5 only 1
 *   payload_type     RTP payload type of the sound, 0 to 127
 *   redundancy_type  RTP payload type of redundancy payloads (RFC 2198), 0 to 127 and another; or 128: none
 * Anything else is refused with 11.
 */
typedef struct {
    uint8_t format, channels, payload_type, redundancy_type;
} hsp_settings;

/*
 * hsp_read's answer: where the fault is (see OFFSETS above), the number of rows written, and the packet's header. `marker`
 * is 0 or 1; `source` is the SSRC; `mode_request` is the CMR of RFC 4867, 0 to 15: that of the plain payload, or of the last
 * block with rows. It is 15, which says none, where no block has rows and in formats 1 to 3.
 */
typedef struct {
    uint32_t refusal, offset, rows, marker, sequence, timestamp, source, mode_request;
} hsp_reading;

/* The writers' answer: the number of bytes written at the front of `out`. */
typedef struct {
    uint32_t refusal, length;
} hsp_written;

/*
 * A reorder buffer; 3,112 bytes with no padding, so that two equal buffers are equal bytes. Get one from hsp_new and hand in
 * what the last call gave back. Whatever is handed in is tested: settings out of range are 11 (the all-zero buffer of a
 * refused hsp_new too), and a value that breaks a rule below is 15. From an accepted hsp_new on every call gives back a
 * well-formed buffer. The test cannot tell a buffer of yours from another that keeps the rules, nor look at the store.
 * The frames' bytes are in the store: the frame of slot s is at 320 * s. To look inside:
 *   times, tags, lengths, slots   the frames held, earliest first, in the first n elements, n being the number of ones in
 *                                 `occupied`; a tag is 65536 * primary + 256 * class + channel, its primary 0 or 1 as hsp_draw
 *                                 answers it; the elements after the first n are 0
 *   occupied                      slot s is in use if bit s % 64 of occupied[s / 64] is set
 *   drawn                         1 once a frame was drawn; then last_time and last_channel are those of the last one drawn.
 *                                 Before that all three are 0
 *   settings                      as given to hsp_new
 */
typedef struct {
    uint32_t times[192], tags[192], lengths[192], slots[192];
    uint64_t occupied[3];
    uint32_t last_time, last_channel, drawn;
    hsp_settings settings;
} hsp_buffer;

/* hsp_new's answer; 3,120 bytes, the buffer at 8. */
typedef struct {
    uint32_t refusal;
    hsp_buffer buffer;
} hsp_fresh;

/*
 * hsp_offer's answer: where the fault is (see OFFSETS above), and how many rows of the packet (those with no data left out)
 *   late      came too late: a frame was drawn, and this one is not after it
 *   far       fit with the frames held in no stretch of under 2^31 ticks, before any frame was drawn
 *   repeated  are held already, and this copy is no better; it may set the frame's primary
 *   better    are held already, and this better copy replaced the one held: good before damaged, then sound before SID, then
 *             the longer, then the one with the greater byte where they first differ
 *   no_room   found 192 frames held
 *   inserted  are new
 * 3,144 bytes with no padding, the buffer at 32.
 */
typedef struct {
    uint32_t refusal, offset, late, far, repeated, better, no_room, inserted;
    hsp_buffer buffer;
} hsp_offered;

/*
 * hsp_draw's answer: the frame drawn; or, with `empty` 1 and zeros, that no frame is held. `primary` is 1 if the frame was heard
 * first-hand: if any copy of it that was inserted, better or repeated came in a plain payload or as primary block; else 0.
 * 3,144 bytes, the buffer at 32, after 4 bytes of padding.
 */
typedef struct {
    uint32_t refusal, empty, time, channel, frame_class, length, primary;
    hsp_buffer buffer;
} hsp_drawn;

/*
 * What is kept of a source for reception reports (RFC 3550, appendix A); 56 bytes, the last 4 of them padding. Get one from
 * hsp_reception_new, where all is 0, and hand in what the last call gave back. 15 says that probation is over 2 or jitter
 * over 2^35 - 8; any other number may be anything. From a fresh record on every call gives back a well-formed one.
 *   jitter          the jitter sum: 16 times the jitter
 *   probation       packets in sequence that are still wanted before the source is valid
 *   started         0: no packet came yet
 *   base, highest   first and highest sequence number, 16 bits. Of a highest one handed in with more, the 16 low bits are
 *                   compared with a packet's, and a report adds all of it to cycles
 *   bad             the sequence number that makes the counts start anew when it comes, also after valid packets; 65,537: none
 *   cycles          65,536 for each time that the sequence number wrapped
 *   received        valid packets
 *   expected_prior, received_prior   what the last report noted
 *   transit         arrival less timestamp of the last valid packet
 *   transit_set     0: no valid packet came yet
 */
typedef struct {
    uint64_t jitter;
    uint32_t probation, started, base, highest, bad, cycles, received, expected_prior, received_prior, transit, transit_set;
} hsp_reception;

/* hsp_reception_packet's answer: `valid` is 1 if appendix A.1 takes the packet for one of the source's, else 0. */
typedef struct {
    uint32_t refusal, valid;
    hsp_reception reception;
} hsp_received;

/*
 * hsp_reception_report's answer:
 *   fraction_lost     packets lost of those expected since the last report, in parts of 256; at most 255
 *   cumulative_lost   packets lost of those expected so far, -8388608 to 8388607; below 0 with more repeated than lost
 *   highest_sequence  the highest sequence number and its cycles
 *   jitter            in ticks of the timestamps
 */
typedef struct {
    uint32_t refusal, fraction_lost;
    int32_t cumulative_lost;
    uint32_t highest_sequence, jitter;
    hsp_reception reception;
} hsp_reported;

/*
 * Where the reading of a log stands; 24 bytes, with 4 of padding after the settings. Get one from hsp_log_open and hand in what
 * the last step gave back, with the same log. Whatever is handed in is tested for the rules below. The test cannot tell a
 * cursor of this log from another that keeps the rules: a step believes the cursor.
 *   settings  those of the log. Out of range they are 11 (the all-zero cursor of a refused hsp_log_open too)
 *   place     where in the log the next field starts; under 7 or over the length of the log it is 15
 *   count     frames shown so far; over the place it is 15
 */
typedef struct {
    hsp_settings settings;
    uint64_t place, count;
} hsp_log_cursor;

/* hsp_log_open's answer: the cursor after the first field. 32 bytes, the cursor at 8. */
typedef struct {
    uint32_t refusal;
    hsp_log_cursor cursor;
} hsp_log_opened;

/*
 * hsp_log_step's answer: a frame, whose bytes are the `length` bytes from `start` in the log, and the cursor after its field; or,
 * with `end` 1 and zeros, that the log is at its end. At the end and on a refusal the cursor is as handed in, also where fields
 * of other tags were passed over. 64 bytes, `start` at 24 after 4 bytes of padding, the cursor at 40.
 */
typedef struct {
    uint32_t refusal, end, time, channel, frame_class;
    uint64_t start, length;
    hsp_log_cursor cursor;
} hsp_log_stepped;

/* hsp_log_write's answer: the number of bytes written at the front of `out`. 16 bytes, the length at 8. */
typedef struct {
    uint32_t refusal;
    uint64_t length;
} hsp_log_written;

/*
 * Reads a packet into frame rows: plain payloads and redundancy payloads. The rows stand at the front of `rows`, in the
 * packet's order; the words after the last row stay as they were. Blocks of other payload types in a redundancy
 * payload are passed over, and an empty block gives no rows.
 *   packet  12 to 2,048 bytes (else 1)
 *   rows    at least 1,536 words (else 12)
 */
hsp_reading hsp_read(hsp_settings settings, const uint8_t *packet, size_t packet_length, uint32_t *rows, size_t rows_length);

/*
 * Writes one payload for a list of rows, with no RTP header, at the front of `out`; the bytes of `out` after it stay.
 * Read at the first row's time, it gives the rows' times, channels, classes, lengths and frame bytes again, and in formats 4
 * and 5 the mode request. The rows' primary bit is ignored. Formats 1 and 2 have a table entry for each longest run of
 * frame-blocks of one length; a run of over 255 frame-blocks is 254 in one entry and the rest in the next.
 *   mode_request  0 to 15, or 15 for none (over 15 is refused with 11 in every format); formats 1 to 3 do not write it
 *   rows          four words a row. No row, or a part of a row at the end, is refused with 13
 *   bytes         what the rows' starts and lengths point into (a row outside it, also one of no data, is refused with 14)
 *   out           at least the bytes to be written (else 12); never more than 2,036
 * 13 also says that no payload of at most 2,036 bytes reads to these rows: a class or length that the format does not have (a
 * bit above the primary one is of such a class), channels of a frame-block that are missing, out of order or of different
 * lengths, times that the format cannot step to, more than 384 rows, or too many bytes.
 */
hsp_written hsp_write_payload(hsp_settings settings, uint8_t mode_request, const uint32_t *rows, size_t rows_length, const uint8_t *bytes,
                              size_t bytes_length, uint8_t *out, size_t out_length);

/*
 * Writes one packet, its RTP header without contributing sources, extension or padding, at the front of `out`; the bytes
 * of `out` after it stay. Its timestamp is the first time of the primary list.
 *   mode_request  as for hsp_write_payload; it is put into every block
 *   marker        the marker bit is set if this is not 0
 *   counts        the number of rows in each list: 0 to 4 redundant lists, then the primary list. One count makes a plain
 *                 packet; more make a redundancy packet
 *   rows          the rows of all lists, one list after another; the counts add up to all of them
 *   bytes         what all the rows point into (else 14)
 *   out           at least the bytes to be written (else 12); never more than 2,048
 * 13 says: no count or more than five; counts that do not add up to the rows; a list that hsp_write_payload alone would refuse
 * with 13; a redundant list whose first time is more than 16,383 ticks before the timestamp, or after it, or whose payload is
 * over 1,023 bytes; more than 384 rows or 2,048 bytes; redundant lists where the settings have no redundancy type.
 */
hsp_written hsp_write_packet(hsp_settings settings, uint8_t mode_request, uint8_t marker, uint16_t sequence, uint32_t source,
                             const uint32_t *counts, size_t counts_length, const uint32_t *rows, size_t rows_length, const uint8_t *bytes,
                             size_t bytes_length, uint8_t *out, size_t out_length);

/* A fresh buffer with no frame held and none drawn. With settings out of range: 11, and a buffer of zeros. */
hsp_fresh hsp_new(hsp_settings settings);

/*
 * Offers a packet to the buffer: reads it as hsp_read does under the buffer's settings, into `rows`, then judges its rows in
 * order (see hsp_offered), and copies each new or better frame to its slot of the store. A new frame gets the lowest
 * free slot. The bytes of a slot after the frame's end stay, and so do those of the store after the first 61,440.
 *   rows   at least 1,536 words (else 12)
 *   store  at least 61,440 bytes (else 12). Hand in the same store, as the last call left it, with the buffer; its bytes need
 *          no initial value
 */
hsp_offered hsp_offer(hsp_buffer buffer, const uint8_t *packet, size_t packet_length, uint32_t *rows, size_t rows_length, uint8_t *store,
                      size_t store_length);

/*
 * Draws the earliest frame held: copies it to the front of `area`, frees its slot and makes it the last one drawn, so that
 * frames not after it are late from now on. The store and the other bytes of the area stay.
 *   store  at least 61,440 bytes (else 12), as the last hsp_offer left it
 *   area   at least 320 bytes (else 12, also where no frame is held)
 */
hsp_drawn hsp_draw(hsp_buffer buffer, const uint8_t *store, size_t store_length, uint8_t *area, size_t area_length);

/* A record of no packet yet: all zeros. */
hsp_reception hsp_reception_new(void);

/*
 * Notes a packet of the source: whether it is valid by its sequence number (RFC 3550, appendix A.1: dropout 3,000, misorder
 * 100, two packets of probation, where 0 follows 65535), and, if it is, the jitter of its arrival (A.8). The first valid
 * packet only sets the transit; late and repeated packets are valid too. A packet that is not changes only what A.1 says.
 *   timestamp  the packet's
 *   arrival    the clock in ticks of the timestamps when it came; it may go back or wrap
 */
hsp_received hsp_reception_packet(hsp_reception reception, uint16_t sequence, uint32_t timestamp, uint32_t arrival);

/*
 * The report (A.3): what was lost since the last one and so far, the highest sequence number, the jitter. It notes what was
 * expected and received. Before the first valid packet it is all zeros and changes nothing.
 */
hsp_reported hsp_reception_report(hsp_reception reception);

/*
 * Opens a log: reads its first field, and no other (18, 17, 19). The cursor has the log's settings, place 7 and count 0; of a
 * refused opening it is all zero.
 *   log  of any length
 */
hsp_log_opened hsp_log_open(const uint8_t *log, size_t log_length);

/*
 * Shows the next frame of the log where it stands: nothing is copied. It reads the fields from the cursor's place on up to the
 * first tag 2 or 3, or the first fault, and no further; so a frame says nothing of the fields after it, and only `end` says that the log is whole. A
 * frame moves the cursor past its field and adds 1 to the count. See hsp_log_stepped.
 *   log  the one that was opened
 */
hsp_log_stepped hsp_log_step(hsp_log_cursor cursor, const uint8_t *log, size_t log_length);

/*
 * Writes a log of the rows' frames, in the order of the rows, at the front of `out`; the bytes of `out` after it stay. Opened and
 * read by steps, it gives the settings and each row's time, channel, class and frame bytes again, and then the end. The rows'
 * primary bit is ignored.
 *   rows   four words a row; no row makes a log of no frame. 19 says: a part of a row at the end, a row of no data, a channel,
 *          class or length that the settings do not allow (a bit above the primary one is of such a class), or over 2^32 - 1 rows
 *   bytes  what the rows' starts and lengths point into (a row outside it, also one of no data, is refused with 14)
 *   out    at least the bytes to be written (else 12): 14, and for each row 9 and its length
 */
hsp_log_written hsp_log_write(hsp_settings settings, const uint32_t *rows, size_t rows_length, const uint8_t *bytes, size_t bytes_length,
                              uint8_t *out, size_t out_length);

#ifdef __cplusplus
}
#endif

#endif
