/* tuzmarghil.h: H.264 slice headers, read and written by a proved library. Written by tools/header.py; do not edit.
 *
 * Link crates/exports/out/libexports.a (`tools/archive` makes it), for x86-64 or aarch64 Linux. No function allocates, keeps anything or requires anything of what it is
 * lent, but that pointers are those of live memory of the length that is told, and that what is written to does not overlap. A slice is a pointer and a length.
 * A result of over 16 bytes goes where the first argument points, on every machine.
 */
#ifndef TUZMARGHIL_H
#define TUZMARGHIL_H

#include <stdbool.h>
#include <stddef.h>
#include <stdint.h>

#ifdef __cplusplus
extern "C" {
#endif

/* The number of this layout: what tuz_layout() answers in an archive made from the same sources. */
#define TUZ_LAYOUT 12

/* The bytes of a buffer that holds every slice header: tuz_write_header never answers 26 to it. */
#define TUZ_HEADER_BYTES 6144

/* What converting answers: how many bytes the result has, or the rules' refusal. What the answer does not speak of is zero. */
typedef struct {
  uint32_t number;
  int64_t value;
  size_t bytes;
} tuz_ConvertedOut;

/* A flag that may be absent: its mark, and its value, which is clear where it is not there. */
typedef struct {
  bool there;
  bool value;
} tuz_MarkedFlag;

/* prefix_nal_unit_svc( ) without its list, of which it has the count. */
typedef struct {
  tuz_MarkedFlag store_ref_base_pic_flag;
  tuz_MarkedFlag adaptive_ref_base_pic_marking_mode_flag;
  uint32_t base_markings;
  tuz_MarkedFlag additional_prefix_nal_unit_extension_flag;
} tuz_PrefixShort;

/* What a sequence parameter set says (7.3.2.1.1). */
typedef struct {
  uint32_t chroma_format_idc;
  bool separate_colour_plane_flag;
  uint32_t bit_depth_luma_minus8;
  uint32_t log2_max_frame_num;
  uint32_t pic_order_cnt_type;
  uint32_t log2_max_pic_order_cnt_lsb_minus4;
  bool delta_pic_order_always_zero_flag;
  bool frame_mbs_only_flag;
  uint32_t pic_size_in_map_units;
} tuz_Sequence;

/* What a picture parameter set says (7.3.2.2). A change rate of 0 is an absent one. */
typedef struct {
  uint32_t seq_parameter_set_id;
  bool entropy_coding_mode_flag;
  bool bottom_field_pic_order_in_frame_present_flag;
  uint32_t num_ref_idx_l0_default_active_minus1;
  uint32_t num_ref_idx_l1_default_active_minus1;
  bool weighted_pred_flag;
  uint32_t weighted_bipred_idc;
  int32_t pic_init_qp_minus26;
  int32_t pic_init_qs_minus26;
  bool deblocking_filter_control_present_flag;
  bool redundant_pic_cnt_present_flag;
  uint32_t slice_group_change_rate;
} tuz_Picture;

/* What reading a unit answers. What the answer does not speak of is zero. */
typedef struct {
  /* 0: a unit of another type; 1: a slice; 2: a prefix unit; 3: refused; 4: a sequence set; 5: a picture set */
  uint32_t answer;
  /* the type of another unit, the refusal's number, or the set's id */
  uint32_t number;
  /* the refusal's value */
  int64_t value;
  /* where the refused field begins in the unescaped body, of a refusal that arises there */
  bool has_bit;
  size_t bit;
  /* the slice header's length in bits */
  size_t bits;
  /* its list stands in words that the caller lends, as a slice's header does */
  tuz_PrefixShort prefix;
  /* a parameter set */
  tuz_Sequence sequence;
  tuz_Picture picture;
} tuz_ReadOut;

/* A step of the walk. What it does not speak of is zero. */
typedef struct {
  /* 0: the end; 1: a unit; 2: refused */
  uint32_t step;
  /* the refusal's number and value */
  uint32_t number;
  int64_t value;
  /* where the unit begins, after its start code or its length, how many bytes it has, and where to go on */
  size_t place;
  size_t length;
  size_t next;
  /* what reading the unit answers */
  tuz_ReadOut read;
} tuz_WalkOut;

typedef struct {
  /* the number of nal_unit_type */
  uint8_t nal_unit_type;
  uint8_t nal_ref_idc;
  /* the extension's three bytes, of types 14, 20 and 21; zeros for all others */
  uint8_t b1;
  uint8_t b2;
  uint8_t b3;
} tuz_UnitHead;

/* A unit's head. Beside a refusal its fields are zero. */
typedef struct {
  /* the refusal's value and number; 0 and 0 where there is none */
  int64_t value;
  uint8_t number;
  tuz_UnitHead head;
} tuz_HeadOut;

/* The step's part of it, where nothing is read. */
typedef struct {
  /* 0: the end; 1: a unit; 2: refused */
  uint32_t step;
  /* the refusal's number and value */
  uint32_t number;
  int64_t value;
  /* where the unit begins, after its start code or its length, how many bytes it has, and where to go on */
  size_t place;
  size_t length;
  size_t next;
} tuz_StepOut;

typedef struct {
  uint32_t sequences[224];
  uint32_t pictures[2304];
} tuz_Table;

/* A sequence set, or none: then `there` is false and every field zero. */
typedef struct {
  bool there;
  tuz_Sequence sequence;
} tuz_SequenceOut;

/* A picture set, or none: then `there` is false and every field zero. */
typedef struct {
  bool there;
  tuz_Picture picture;
} tuz_PictureOut;

/* What a change of the table answers: the rules' refusal number and its value, or 0 and 0 where it was done. */
typedef struct {
  uint32_t number;
  int64_t value;
} tuz_ChangedOut;

/* A first byte. Beside a refusal the other fields are zero. */
typedef struct {
  /* the refusal's number and value; 0 and 0 where there is none */
  uint32_t number;
  uint8_t nal_ref_idc;
  /* the number of nal_unit_type */
  uint8_t nal_unit_type;
  /* three bytes of extension follow: types 14, 20 and 21 */
  bool has_extension;
  int64_t value;
} tuz_NalHeaderOut;

/* nal_unit_header_svc_extension( ) */
typedef struct {
  bool idr_flag;
  uint8_t priority_id;
  bool no_inter_layer_pred_flag;
  uint8_t dependency_id;
  uint8_t quality_id;
  uint8_t temporal_id;
  bool use_ref_base_pic_flag;
  bool discardable_flag;
  bool output_flag;
} tuz_SvcExtensionOut;

/* nal_unit_header_mvc_extension( ) */
typedef struct {
  bool non_idr_flag;
  uint8_t priority_id;
  uint16_t view_id;
  uint8_t temporal_id;
  bool anchor_pic_flag;
  bool inter_view_flag;
} tuz_MvcExtensionOut;

/* An extension's three bytes: which of the two they are, and the fields of both. */
typedef struct {
  /* svc_extension_flag, the first of their bits */
  bool is_svc;
  tuz_SvcExtensionOut svc;
  tuz_MvcExtensionOut mvc;
} tuz_ExtensionOut;

typedef struct {
  /* of the first slice */
  size_t place;
  /* how many slices it has */
  size_t slices;
  int64_t qp_least;
  int64_t qp_greatest;
  int64_t qp_sum;
  uint32_t frame_num;
  /* frame_num is neither that of the picture before nor the one behind it */
  bool gap;
  /* refused units behind the first slice of the picture before, or the recording's start, and before its own */
  size_t refused_before;
} tuz_Exposure;

/* An exposure that is closed, or none: then `there` is false and every field zero. */
typedef struct {
  bool there;
  tuz_Exposure exposure;
} tuz_ClosedOut;

typedef struct {
  size_t slices;
  size_t redundant;
  size_t refused;
  size_t prefixes;
  size_t views;
  size_t others;
} tuz_Counts;

/* The three extension bytes; where they are not there, they are unused. Types 1 and 5 make no use of them. A mark and no Option, since C hands it over. */
typedef struct {
  bool there;
  uint8_t b1;
  uint8_t b2;
  uint8_t b3;
} tuz_ExtensionGiven;

/* What writing a header answers: its length in bits, or the rules' refusal. What the answer does not speak of is zero. */
typedef struct {
  uint32_t number;
  int64_t value;
  size_t bits;
} tuz_WroteOut;

#ifndef __cplusplus
_Static_assert(sizeof(tuz_ConvertedOut) == 24, "tuz_ConvertedOut");
_Static_assert(sizeof(tuz_MarkedFlag) == 2, "tuz_MarkedFlag");
_Static_assert(sizeof(tuz_PrefixShort) == 12, "tuz_PrefixShort");
_Static_assert(sizeof(tuz_Sequence) == 32, "tuz_Sequence");
_Static_assert(sizeof(tuz_Picture) == 40, "tuz_Picture");
_Static_assert(sizeof(tuz_ReadOut) == 128, "tuz_ReadOut");
_Static_assert(sizeof(tuz_WalkOut) == 168, "tuz_WalkOut");
_Static_assert(sizeof(tuz_UnitHead) == 5, "tuz_UnitHead");
_Static_assert(sizeof(tuz_HeadOut) == 16, "tuz_HeadOut");
_Static_assert(sizeof(tuz_StepOut) == 40, "tuz_StepOut");
_Static_assert(sizeof(tuz_Table) == 10112, "tuz_Table");
_Static_assert(sizeof(tuz_SequenceOut) == 36, "tuz_SequenceOut");
_Static_assert(sizeof(tuz_PictureOut) == 44, "tuz_PictureOut");
_Static_assert(sizeof(tuz_ChangedOut) == 16, "tuz_ChangedOut");
_Static_assert(sizeof(tuz_NalHeaderOut) == 16, "tuz_NalHeaderOut");
_Static_assert(sizeof(tuz_SvcExtensionOut) == 9, "tuz_SvcExtensionOut");
_Static_assert(sizeof(tuz_MvcExtensionOut) == 8, "tuz_MvcExtensionOut");
_Static_assert(sizeof(tuz_ExtensionOut) == 18, "tuz_ExtensionOut");
_Static_assert(sizeof(tuz_Exposure) == 56, "tuz_Exposure");
_Static_assert(sizeof(tuz_ClosedOut) == 64, "tuz_ClosedOut");
_Static_assert(sizeof(tuz_Counts) == 48, "tuz_Counts");
_Static_assert(sizeof(tuz_ExtensionGiven) == 4, "tuz_ExtensionGiven");
_Static_assert(sizeof(tuz_WroteOut) == 24, "tuz_WroteOut");
#endif

/* Where a slice header's fields stand in the lent words: a mark (THERE) and a value for what may be absent, flags as 0 and 1, of each list the count. */
enum tuz_numbers {
  TUZ_FIRST_MB_IN_SLICE = 0,
  TUZ_SLICE_TYPE = 1,
  TUZ_PIC_PARAMETER_SET_ID = 2,
  TUZ_SEQ_PARAMETER_SET_ID = 3,
  TUZ_COLOUR_PLANE_ID_THERE = 4,
  TUZ_COLOUR_PLANE_ID = 5,
  TUZ_FRAME_NUM = 6,
  TUZ_FIELD_PIC_FLAG_THERE = 7,
  TUZ_FIELD_PIC_FLAG = 8,
  TUZ_BOTTOM_FIELD_FLAG_THERE = 9,
  TUZ_BOTTOM_FIELD_FLAG = 10,
  TUZ_IDR_PIC_ID_THERE = 11,
  TUZ_IDR_PIC_ID = 12,
  TUZ_PIC_ORDER_CNT_LSB_THERE = 13,
  TUZ_PIC_ORDER_CNT_LSB = 14,
  TUZ_DELTA_PIC_ORDER_CNT_BOTTOM_THERE = 15,
  TUZ_DELTA_PIC_ORDER_CNT_THERE = 16,
  TUZ_REDUNDANT_PIC_CNT_THERE = 17,
  TUZ_REDUNDANT_PIC_CNT = 18,
  TUZ_DIRECT_SPATIAL_MV_PRED_FLAG_THERE = 19,
  TUZ_DIRECT_SPATIAL_MV_PRED_FLAG = 20,
  TUZ_NUM_REF_IDX_ACTIVE_OVERRIDE_FLAG_THERE = 21,
  TUZ_NUM_REF_IDX_ACTIVE_OVERRIDE_FLAG = 22,
  TUZ_NUM_REF_IDX_L0_ACTIVE_MINUS1_THERE = 23,
  TUZ_NUM_REF_IDX_L0_ACTIVE_MINUS1 = 24,
  TUZ_NUM_REF_IDX_L1_ACTIVE_MINUS1_THERE = 25,
  TUZ_NUM_REF_IDX_L1_ACTIVE_MINUS1 = 26,
  TUZ_REF_PIC_LIST_MODIFICATION_FLAG_L0_THERE = 27,
  TUZ_REF_PIC_LIST_MODIFICATION_FLAG_L0 = 28,
  TUZ_MODIFICATIONS_L0 = 29,
  TUZ_REF_PIC_LIST_MODIFICATION_FLAG_L1_THERE = 30,
  TUZ_REF_PIC_LIST_MODIFICATION_FLAG_L1 = 31,
  TUZ_MODIFICATIONS_L1 = 32,
  TUZ_WEIGHTS_THERE = 33,
  TUZ_LUMA_LOG2_WEIGHT_DENOM = 34,
  TUZ_CHROMA_LOG2_WEIGHT_DENOM_THERE = 35,
  TUZ_CHROMA_LOG2_WEIGHT_DENOM = 36,
  TUZ_WEIGHTS_L0 = 37,
  TUZ_WEIGHTS_L1 = 38,
  TUZ_NO_OUTPUT_OF_PRIOR_PICS_FLAG_THERE = 39,
  TUZ_NO_OUTPUT_OF_PRIOR_PICS_FLAG = 40,
  TUZ_LONG_TERM_REFERENCE_FLAG_THERE = 41,
  TUZ_LONG_TERM_REFERENCE_FLAG = 42,
  TUZ_ADAPTIVE_REF_PIC_MARKING_MODE_FLAG_THERE = 43,
  TUZ_ADAPTIVE_REF_PIC_MARKING_MODE_FLAG = 44,
  TUZ_MARKINGS = 45,
  TUZ_CABAC_INIT_IDC_THERE = 46,
  TUZ_CABAC_INIT_IDC = 47,
  TUZ_SP_FOR_SWITCH_FLAG_THERE = 48,
  TUZ_SP_FOR_SWITCH_FLAG = 49,
  TUZ_SLICE_QS_DELTA_THERE = 50,
  TUZ_DISABLE_DEBLOCKING_FILTER_IDC_THERE = 51,
  TUZ_DISABLE_DEBLOCKING_FILTER_IDC = 52,
  TUZ_SLICE_ALPHA_C0_OFFSET_DIV2_THERE = 53,
  TUZ_SLICE_BETA_OFFSET_DIV2_THERE = 54,
  TUZ_SLICE_GROUP_CHANGE_CYCLE_THERE = 55,
  TUZ_SLICE_GROUP_CHANGE_CYCLE = 56,
  TUZ_NUMBERS = 57
};
enum tuz_signed {
  TUZ_DELTA_PIC_ORDER_CNT_BOTTOM = 0,
  TUZ_DELTA_PIC_ORDER_CNT_FIRST = 1,
  TUZ_DELTA_PIC_ORDER_CNT_SECOND = 2,
  TUZ_SLICE_QP_DELTA = 3,
  TUZ_SLICE_QS_DELTA = 4,
  TUZ_SLICE_ALPHA_C0_OFFSET_DIV2 = 5,
  TUZ_SLICE_BETA_OFFSET_DIV2 = 6,
  TUZ_SIGNED = 7
};

/* How many bits the header that words hold has at most, by a table's array of picture sets and the header's numbers alone. A buffer with room for as many bits is never too short for `tuz_write_header`. */
size_t tuz_header_bound(const uint32_t pictures[2304], const uint32_t numbers[57]);

/* The units of a recording framed by length, each behind 00 00 00 01: the result is as long as the recording. A refusal leaves the output as it was. */
void tuz_to_start_codes(tuz_ConvertedOut *result, const uint8_t *recording, size_t recording_len, uint8_t *out, size_t out_len);

/* The units of a recording with start codes, each behind its length. A refusal leaves the output as it was; 26 has the bytes that are needed. */
void tuz_to_lengths(tuz_ConvertedOut *result, const uint8_t *recording, size_t recording_len, uint8_t *out, size_t out_len);

/* One step of the walk from a place on, as `tuz_walk` has it, but that units are read from the recording itself, with no scratch: no body is handed on, and 26 does not come. */
void tuz_walk_headers(tuz_WalkOut *result, uint32_t sequences[224], uint32_t pictures[2304], const uint8_t *recording, size_t recording_len, size_t from, uint32_t numbers[57], int32_t signed_numbers[7], uint32_t l0[198], uint32_t l1[198], uint32_t marking[198], int32_t w0[256], int32_t w1[256], uint32_t base[198]);

/* What a unit's first bytes say. `tuz_body` takes the answer's `head`, and reads the body. */
tuz_HeadOut tuz_head(const uint8_t *unit, size_t unit_len);

uint32_t tuz_layout(void);

/* The unit whose length stands at a place of a recording framed by length, with nothing read; what stands at any place is taken for a length. Refused is also a broken length, with 29 and its place. */
void tuz_next_framed(tuz_StepOut *result, const uint8_t *recording, size_t recording_len, size_t from);

/* One step of the walk over it, which reads headers alone, as `tuz_walk_headers` does. */
void tuz_walk_framed_headers(tuz_WalkOut *result, uint32_t sequences[224], uint32_t pictures[2304], const uint8_t *recording, size_t recording_len, size_t from, uint32_t numbers[57], int32_t signed_numbers[7], uint32_t l0[198], uint32_t l1[198], uint32_t marking[198], int32_t w0[256], int32_t w1[256], uint32_t base[198]);

/* A unit's line: its place and length in the recording, its bytes, which only a prefix unit's line looks at, `answer`, `number`, `value`, `has_bit` and `bit` of its ReadOut, and the words of a slice's fields. */
size_t tuz_unit_line(uint8_t line[128], const uint32_t pictures[2304], size_t place, size_t length, const uint8_t *unit, size_t unit_len, uint32_t answer, uint8_t number, int64_t value, bool has_bit, size_t bit, const uint32_t numbers[57], const int32_t signed_numbers[7]);

/* A unit's line in a listing of kinds: its place and length in the recording, and what `tuz_head` answers. */
size_t tuz_head_line(uint8_t line[128], size_t place, size_t length, tuz_HeadOut out);

/* The last line: how many units there were, and how many of them were refused. */
size_t tuz_end_line(uint8_t line[128], size_t units, size_t refused);

/* The line of a broken length, which stands before the last one in the listing of a recording framed by length. */
size_t tuz_broken_line(uint8_t line[128], size_t place);

/* QP, by the table's array of picture sets, the id of one and slice_qp_delta. A set that the table does not have counts as zeros. */
int64_t tuz_final_qp(const uint32_t pictures[2304], uint32_t id, int32_t delta);

/* QS, by slice_qs_delta. */
int64_t tuz_final_qs(const uint32_t pictures[2304], uint32_t id, int32_t delta);

/* The sequence set with an id, out of a lent table. */
void tuz_sequence_at(tuz_SequenceOut *result, const tuz_Table *t, uint32_t id);

/* The picture set with an id, out of a lent table. */
void tuz_picture_at(tuz_PictureOut *result, const tuz_Table *t, uint32_t id);

/* Puts a sequence set at an id of a lent table, and sets the widths of the picture sets that name it anew. */
tuz_ChangedOut tuz_put_sequence(tuz_Table *t, uint32_t id, tuz_Sequence s);

/* Puts a picture set at an id of a lent table. */
tuz_ChangedOut tuz_put_picture(tuz_Table *t, uint32_t id, tuz_Picture p);

/* A unit's first byte. */
tuz_NalHeaderOut tuz_nal_header(uint8_t first);

/* What a number says as a nal_unit_type. 0: nothing, since it is over 31; 1: a type that has a name; 2: an unspecified one; 3: a reserved one. */
uint32_t tuz_unit_type(uint8_t id);

/* The three bytes of an extension. */
void tuz_extension(tuz_ExtensionOut *result, uint8_t b1, uint8_t b2, uint8_t b3);

/* The state where no unit was taken, in words that the host lends: any words hold a state, and what these hold before is not looked at. */
void tuz_exposures_start(size_t state_sizes[11], uint32_t state_numbers[13], int64_t state_levels[7]);

/* A unit is taken, by the sets in force in a table's two arrays: its place, its head's type and nal_ref_idc, `answer` of its ReadOut, and the words of a slice's fields. The state's words are changed where they stand; the answer is the exposure that the unit closed. */
void tuz_take(tuz_ClosedOut *result, size_t state_sizes[11], uint32_t state_numbers[13], int64_t state_levels[7], const uint32_t sequences[224], const uint32_t pictures[2304], size_t place, uint8_t nal_unit_type, uint8_t nal_ref_idc, uint32_t answer, const uint32_t numbers[57], const int32_t signed_numbers[7]);

/* The last exposure: nothing more is taken. */
void tuz_finish(tuz_ClosedOut *result, const size_t state_sizes[11], const uint32_t state_numbers[13], const int64_t state_levels[7]);

/* How many units of each kind were taken. */
void tuz_counts(tuz_Counts *result, const size_t state_sizes[11]);

/* The body of a unit, for whoever has its head (`tuz_head`), by the sets in a table's two arrays; another's head is 34. Scratch needs as many bytes as the unit has. A slice's header goes to `numbers` and `signed` (fields) and to l0, l1, marking, w0 and w1 (lists), a prefix unit's list to `base`; all other words stay as they were, so words that were zeros behind their counts stay so. Beside a refusal all words are zeros. */
void tuz_body(tuz_ReadOut *result, tuz_UnitHead head, const uint32_t sequences[224], const uint32_t pictures[2304], const uint8_t *unit, size_t unit_len, uint8_t *scratch, size_t scratch_len, uint32_t numbers[57], int32_t signed_numbers[7], uint32_t l0[198], uint32_t l1[198], uint32_t marking[198], int32_t w0[256], int32_t w1[256], uint32_t base[198]);

/* One step of the walk from a place on, with nothing read: the unit's bytes are for `tuz_head`. */
void tuz_next_unit(tuz_StepOut *result, const uint8_t *recording, size_t recording_len, size_t from);

/* One step of the walk from a place on, by the sets in a table's two arrays. Scratch needs as many bytes as the longest unit has. A set that is read goes into the arrays. Words are written as by `tuz_body`; where there is no unit, none is. */
void tuz_walk(tuz_WalkOut *result, uint32_t sequences[224], uint32_t pictures[2304], const uint8_t *recording, size_t recording_len, size_t from, uint8_t *scratch, size_t scratch_len, uint32_t numbers[57], int32_t signed_numbers[7], uint32_t l0[198], uint32_t l1[198], uint32_t marking[198], int32_t w0[256], int32_t w1[256], uint32_t base[198]);

/* The header that words hold, as `tuz_body` lays them down, written by the sets in a table's two arrays, for the unit that the first byte and the extension tell of. A refusal leaves the buffer as it was. Words behind a list's count are not looked at. */
void tuz_write_header(tuz_WroteOut *result, const uint32_t sequences[224], const uint32_t pictures[2304], uint8_t first, tuz_ExtensionGiven extension, const uint32_t numbers[57], const int32_t signed_numbers[7], const uint32_t l0[198], const uint32_t l1[198], const uint32_t marking[198], const int32_t w0[256], const int32_t w1[256], uint8_t *out, size_t out_len);

#ifdef __cplusplus
}
#endif

#endif
