/* ffmpeg's bitstream filter h264_metadata (libavcodec): it takes each unit apart, slice headers and all, and writes it anew with its body. */
#include <libavcodec/avcodec.h>
#include <libavcodec/bsf.h>
#include <stdlib.h>
#include <string.h>

#include "peer.h"

static void *must(void *p)
{
    if (!p)
        abort();
    return p;
}

static void well(int r)
{
    if (r < 0)
        abort();
}

void *peer_open(const uint8_t *sets, size_t length)
{
    AVBSFContext *filter;
    av_log_set_level(AV_LOG_ERROR);
    well(av_bsf_alloc(must((void *)av_bsf_get_by_name("h264_metadata")), &filter));
    filter->par_in->codec_type = AVMEDIA_TYPE_VIDEO;
    filter->par_in->codec_id = AV_CODEC_ID_H264;
    filter->par_in->extradata = must(av_mallocz(length + AV_INPUT_BUFFER_PADDING_SIZE));
    memcpy(filter->par_in->extradata, sets, length);
    filter->par_in->extradata_size = (int)length;
    well(av_bsf_init(filter));
    return filter;
}

/* Packets of their own for runs of units, made before the clock starts. */
void *peer_packets(const struct span *runs, size_t count)
{
    AVPacket **packets = must(calloc(count, sizeof *packets));
    for (size_t i = 0; i < count; i++) {
        packets[i] = must(av_packet_alloc());
        well(av_new_packet(packets[i], (int)runs[i].length));
        memcpy(packets[i]->data, runs[i].bytes, runs[i].length);
    }
    return packets;
}

/* Reads and rewrites every unit; the first `room` bytes of what is written go to `out`, and all of it is counted. */
size_t peer_rewrite(void *peer, void *of_packets, size_t count, uint8_t *out, size_t room)
{
    AVBSFContext *filter = peer;
    AVPacket **packets = of_packets, *packet = must(av_packet_alloc());
    size_t written = 0;
    for (size_t i = 0; i < count; i++) {
        well(av_packet_ref(packet, packets[i]));
        well(av_bsf_send_packet(filter, packet));
        well(av_bsf_receive_packet(filter, packet));
        if (written + (size_t)packet->size <= room)
            memcpy(out + written, packet->data, (size_t)packet->size);
        written += (size_t)packet->size;
        av_packet_unref(packet);
    }
    av_packet_free(&packet);
    return written;
}
