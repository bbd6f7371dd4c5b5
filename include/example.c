/* example CLIP: the units of a recording, as `tuz list CLIP -q` prints them.
 * example CLIP kinds: what their first bytes say, as `tuz kinds CLIP -q` prints it.
 *
 *     cc -Iinclude include/example.c crates/exports/out/libexports.a -o example
 */
#include "tuzmarghil.h"

#include <stdio.h>
#include <stdlib.h>

/* What a reading is lent; it is used again for every unit. */
static uint32_t numbers[TUZ_NUMBERS], l0[198], l1[198], marking[198], base[198];
static int32_t signed_numbers[TUZ_SIGNED], w0[256], w1[256];
/* Empty at first; each step puts the set that it has read there. tuz_put_sequence and tuz_put_picture put one by hand. */
static tuz_Table table;

/* By the table as the step left it: a slice does not change it. */
static void tell(const tuz_WalkOut *step, const uint8_t *unit) {
  uint8_t line[128];
  size_t end = tuz_unit_line(line, table.pictures, step->place, step->length, unit, step->length, step->read.answer, (uint8_t)step->read.number, step->read.value, step->read.has_bit, step->read.bit, numbers, signed_numbers);
  fwrite(line, 1, end, stdout);
}

/* The whole file; nothing where it cannot be read. */
static uint8_t *bytes_of(const char *path, size_t *length) {
  FILE *from = fopen(path, "rb");
  if (!from || fseek(from, 0, SEEK_END))
    return NULL;
  *length = (size_t)ftell(from);
  rewind(from);
  uint8_t *bytes = malloc(*length + 1);
  if (bytes && fread(bytes, 1, *length, from) != *length)
    bytes = NULL;
  fclose(from);
  return bytes;
}

/* Each unit's head; no table and no scratch are needed. */
static int kinds(const uint8_t *recording, size_t length) {
  size_t units = 0, refused = 0;
  uint8_t line[128];
  tuz_StepOut step = {0};
  for (;; units++) {
    tuz_next_unit(&step, recording, length, step.next);
    if (step.step != 1)
      break;
    tuz_HeadOut head = tuz_head(recording + step.place, step.length);
    refused += head.number != 0;
    fwrite(line, 1, tuz_head_line(line, step.place, step.length, head), stdout);
  }
  fwrite(line, 1, tuz_end_line(line, units, refused), stdout);
  return step.step == 2 ? 2 : 0;
}

int main(int count, char **words) {
  size_t length = 0, units = 0, refused = 0;
  uint8_t *recording = count == 2 || count == 3 ? bytes_of(words[1], &length) : NULL;
  uint8_t *scratch = malloc(length + 1);
  if (!recording || !scratch)
    return 2;
  if (tuz_layout() != TUZ_LAYOUT)
    return 2;
  if (count == 3)
    return kinds(recording, length);
  tuz_WalkOut step = {0};
  for (;; units++) {
    tuz_walk(&step, table.sequences, table.pictures, recording, length, step.next, scratch, length, numbers, signed_numbers, l0, l1, marking, w0, w1, base);
    if (step.step != 1)
      break;
    refused += step.read.answer == 3;
    tell(&step, recording + step.place);
  }
  uint8_t line[128];
  fwrite(line, 1, tuz_end_line(line, units, refused), stdout);
  return step.step == 2 ? 2 : 0;
}
