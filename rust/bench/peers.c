/* libre's jbuf and speexdsp's jitter buffer, each as four calls: make, put a frame, get a frame to an area, free. A frame is copied in
 * and copied out, as by our library. */
#include "../../include/heolstorpit.h"

#include <stdint.h>
#include <stdlib.h>
#include <string.h>

#ifdef HAVE_LIBRE
/* as the package is built: they decide the size of `bool` in its structs */
#define HAVE_INTTYPES_H 1
#define HAVE_STDBOOL_H 1
#include <re.h>

struct frame {
    size_t length;
    uint8_t bytes[];
};

void *peer_libre_new(void) {
    struct jbuf *jb = NULL;
    return jbuf_alloc(&jb, 0, 256) ? NULL : jb;
}

void peer_libre_put(void *jb, uint16_t sequence, uint32_t time, const uint8_t *bytes, size_t length) {
    struct rtp_header header;
    struct frame *frame = mem_alloc(sizeof *frame + length, NULL);
    memset(&header, 0, sizeof header);
    header.ver = 2;
    header.seq = sequence;
    header.ts = time;
    frame->length = length;
    memcpy(frame->bytes, bytes, length);
    jbuf_put(jb, &header, frame);
    mem_deref(frame);
}

/* The number of bytes of the frame got, 0 if there is none. */
size_t peer_libre_get(void *jb, uint8_t *area) {
    struct rtp_header header;
    void *mem = NULL;
    size_t length = 0;
    if (jbuf_get(jb, &header, &mem) == 0 && mem) {
        struct frame *frame = mem;
        length = frame->length;
        memcpy(area, frame->bytes, length);
    }
    mem_deref(mem);
    return length;
}

void peer_libre_free(void *jb) {
    mem_deref(jb);
}
#endif

#ifdef HAVE_SPEEXDSP
#include <speex/speex_jitter.h>

void *peer_speexdsp_new(void) {
    return jitter_buffer_init(960);
}

void peer_speexdsp_put(void *jitter, uint16_t sequence, uint32_t time, const uint8_t *bytes, size_t length) {
    JitterBufferPacket packet;
    packet.data = (char *)bytes;
    packet.len = (spx_uint32_t)length;
    packet.timestamp = time;
    packet.span = 960;
    packet.sequence = sequence;
    packet.user_data = 0;
    jitter_buffer_put(jitter, &packet);
}

size_t peer_speexdsp_get(void *jitter, uint8_t *area) {
    JitterBufferPacket packet;
    spx_int32_t offset;
    int answer;
    packet.data = (char *)area;
    packet.len = HSP_DRAW_AREA;
    answer = jitter_buffer_get(jitter, &packet, 960, &offset);
    jitter_buffer_tick(jitter);
    return answer == JITTER_BUFFER_OK ? packet.len : 0;
}

void peer_speexdsp_free(void *jitter) {
    jitter_buffer_destroy(jitter);
}
#endif
