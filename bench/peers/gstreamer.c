/* GStreamer's H.264 parser (gst-plugins-bad, codecparsers). It unescapes no bodies: a bit reader steps over escapes as it meets them. */
#include <gst/codecparsers/gsth264parser.h>
#include <stdlib.h>

#include "peer.h"

static int is_slice(const GstH264NalUnit *unit)
{
    return unit->type == GST_H264_NAL_SLICE || unit->type == GST_H264_NAL_SLICE_IDR;
}

static void take_slice(GstH264NalParser *parser, GstH264NalUnit *unit, struct found *found)
{
    GstH264SliceHdr slice;
    if (gst_h264_parser_parse_slice_hdr(parser, unit, &slice, TRUE, TRUE) != GST_H264_PARSER_OK)
        return;
    found->slices++;
    found->fields += fields_of(slice.first_mb_in_slice, slice.frame_num, slice.slice_qp_delta);
}

void *peer_open(const uint8_t *sets, size_t length)
{
    GstH264NalParser *parser = gst_h264_nal_parser_new();
    GstH264NalUnit unit;
    size_t at = 0;
    for (;;) {
        GstH264ParserResult r = gst_h264_parser_identify_nalu(parser, sets, at, length, &unit);
        if (r != GST_H264_PARSER_OK && r != GST_H264_PARSER_NO_NAL_END)
            return parser;
        if (gst_h264_parser_parse_nal(parser, &unit) != GST_H264_PARSER_OK)
            abort();
        at = unit.offset + unit.size;
    }
}

/* Split, and every slice header read. */
void peer_walk(void *peer, const uint8_t *recording, size_t length, int job, struct found *found)
{
    GstH264NalParser *parser = peer;
    GstH264NalUnit unit;
    size_t at = 0;
    (void)job;
    for (;;) {
        GstH264ParserResult r = gst_h264_parser_identify_nalu(parser, recording, at, length, &unit);
        if (r != GST_H264_PARSER_OK && r != GST_H264_PARSER_NO_NAL_END)
            return;
        found->units++;
        found->lengths += unit.size;
        if (is_slice(&unit))
            take_slice(parser, &unit, found);
        at = unit.offset + unit.size;
    }
}

/* Slice headers alone: each unit's end is known. */
void peer_heads(void *peer, const struct span *units, size_t count, struct found *found)
{
    GstH264NalParser *parser = peer;
    GstH264NalUnit unit;
    for (size_t i = 0; i < count; i++) {
        if (gst_h264_parser_identify_nalu_unchecked(parser, units[i].bytes - 3, 0, units[i].length + 3, &unit) != GST_H264_PARSER_OK)
            continue;
        found->units++;
        found->lengths += unit.size;
        take_slice(parser, &unit, found);
    }
}
