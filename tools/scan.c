// The same listing in plain C on one thread, to compare times with. It reads 128 KiB at a time,
// takes numbers from a table, and writes its text out by pieces of 256 KiB.
// tools/bench builds and runs it. It stops at the first page that is not valid.
//
// usage: scan BLOCKS FILE..              line pointers; BLOCKS is how many one read gives at most
//        scan --tuples BLOCKS FILE..     headers of tuples and update chains too
//        scan --checksums BLOCKS FILE..  line pointers; a page is valid only with its checksum too
//        scan --reads BLOCKS FILE..      nothing: the pages are read, and not looked at
#include <fcntl.h>
#include <stdint.h>
#include <stdlib.h>
#include <string.h>
#include <unistd.h>

#include "checksum.h"

enum { PAGE = 8192, HEADER = 24, TUPLE_HEADER = 23, MOST_ITEMS = 2042, FULL = 256 * 1024, ROOM = FULL + 1024 * 1024 };

static char text[ROOM];
static char *end = text;

// A number below 10000 in decimal with how long it is, and its four digits.
static struct { char text[7]; uint8_t length; } numbers[10000];
static char digits[10000][4];

static void make_numbers(void) {
  for (int n = 0; n < 10000; n++) {
    for (int at = 3, rest = n; at >= 0; at--, rest /= 10) digits[n][at] = '0' + rest % 10;
    numbers[n].length = n < 10 ? 1 : n < 100 ? 2 : n < 1000 ? 3 : 4;
    memcpy(numbers[n].text, digits[n] + 4 - numbers[n].length, numbers[n].length);
  }
}

static inline void put_small(uint32_t n) {
  memcpy(end, &numbers[n], 8);
  end += numbers[n].length;
}

static void put_large(uint32_t n) {
  uint32_t high = n / 10000;
  if (high < 10000) {
    put_small(high);
  } else {
    put_small(high / 10000);
    memcpy(end, digits[high % 10000], 4), end += 4;
  }
  memcpy(end, digits[n % 10000], 4), end += 4;
}

static inline void put_number(uint32_t n) {
  if (n < 10000) put_small(n);
  else put_large(n);
}

#define PUT(word) (memcpy(end, word, sizeof word - 1), end += sizeof word - 1)
#define PUT_FIELD(word, n) (PUT(word), put_number(n))

static void write_out(void) {
  for (char *at = text; at < end;) {
    ssize_t count = write(1, at, end - at);
    if (count < 0) exit(4);
    at += count;
  }
  end = text;
}

static inline uint32_t get16(const uint8_t *at) { return at[0] | at[1] << 8; }
static inline uint32_t get32(const uint8_t *at) { uint32_t n; memcpy(&n, at, 4); return n; }

static int is_zero(const uint8_t *page) {
  uint64_t all = 0, word;
  for (int at = 0; at < PAGE; at += 8) memcpy(&word, page + at, 8), all |= word;
  return !all;
}

static inline void put_item(uint32_t number, uint32_t pointer) {
  static const struct { char text[8]; int length; } kinds[] = {{"unused ", 7}, {"normal ", 7}, {"redirect", 8}, {"dead ", 5}};
  uint32_t kind = pointer >> 15 & 3;
  PUT_FIELD("item ", number);
  *end++ = ' ';
  memcpy(end, kinds[kind].text, 8), end += kinds[kind].length;
  if (kind == 2) *end++ = ' ';
  put_number(pointer & 0x7FFF);
  *end++ = ' ';
  put_number(pointer >> 17);
  *end++ = '\n';
}

// The tuple of a line pointer, or none where it has no header within the page.
static inline const uint8_t *tuple_of(const uint8_t *page, uint32_t pointer) {
  uint32_t offset = pointer & 0x7FFF, length = pointer >> 17;
  return (pointer >> 15 & 3) == 1 && length >= TUPLE_HEADER && offset + length <= PAGE ? page + offset : NULL;
}

// The item that a tuple was updated into, from 1 on, or 0.
static inline uint32_t step_of(const uint8_t *page, uint32_t count, uint32_t block, uint32_t item, const uint8_t *tuple) {
  uint32_t next = get16(tuple + 16);
  if ((get16(tuple + 12) << 16 | get16(tuple + 14)) != block || !next || next > count || next == item) return 0;
  const uint8_t *other = tuple_of(page, get32(page + HEADER + 4 * (next - 1)));
  return other && get32(other) == get32(tuple + 4) ? next : 0;
}

// The length of the chain of an item; those of the items on it are kept in `lengths`.
static uint32_t chain_of(const uint16_t *steps, uint16_t *lengths, uint32_t item) {
  static uint16_t path[MOST_ITEMS + 1];
  static const uint16_t on_path = UINT16_MAX;
  uint32_t count = 0, at = item, chain = 0;
  for (; at && !lengths[at]; at = steps[at]) lengths[at] = on_path, path[count++] = at;
  if (at && lengths[at] == on_path) {
    uint32_t start = 0;
    while (path[start] != at) start++;
    chain = count - start;
    while (count > start) lengths[path[--count]] = chain;
  } else if (at) {
    chain = lengths[at];
  }
  while (count) lengths[path[--count]] = ++chain;
  return lengths[item];
}

static void put_tuples(const uint8_t *page, uint32_t block, uint32_t count) {
  static uint16_t steps[MOST_ITEMS + 1], lengths[MOST_ITEMS + 1];
  static uint8_t is_reached[MOST_ITEMS + 1];
  uint32_t roots = 0, longest = 0;
  if (count > MOST_ITEMS) __builtin_unreachable();
  memset(lengths, 0, 2 * (count + 1));
  memset(is_reached, 0, count + 1);
  for (uint32_t item = 1; item <= count; item++) {
    uint32_t pointer = get32(page + HEADER + 4 * (item - 1));
    const uint8_t *tuple = tuple_of(page, pointer);
    put_item(item, pointer);
    steps[item] = 0;
    if ((pointer >> 15 & 3) != 1) continue;
    PUT_FIELD("tuple ", item);
    if (!tuple) {
      PUT(" outside\n");
      continue;
    }
    steps[item] = step_of(page, count, block, item, tuple);
    is_reached[steps[item]] = 1;
    PUT_FIELD(" xmin ", get32(tuple)), PUT_FIELD(" xmax ", get32(tuple + 4)), PUT_FIELD(" field3 ", get32(tuple + 8));
    PUT_FIELD(" ctid (", get16(tuple + 12) << 16 | get16(tuple + 14)), PUT_FIELD(",", get16(tuple + 16));
    PUT_FIELD(") attrs ", get16(tuple + 18) & 0x7FF), PUT_FIELD(" mask ", get16(tuple + 20)), PUT_FIELD(" hoff ", tuple[22]);
    if (steps[item]) PUT_FIELD(" step ", steps[item]);
    *end++ = '\n';
  }
  for (uint32_t item = 1; item <= count; item++) {
    if (is_reached[item] || !tuple_of(page, get32(page + HEADER + 4 * (item - 1)))) continue;
    uint32_t chain = chain_of(steps, lengths, item);
    roots++;
    if (chain > longest) longest = chain;
  }
  PUT_FIELD("chains ", roots), PUT_FIELD(" longest ", longest);
  *end++ = '\n';
}

static void put_page(uint32_t relation, uint32_t block, const uint8_t *page, int with_tuples, int with_checksums) {
  uint32_t flags = get16(page + 10), lower = get16(page + 12), upper = get16(page + 14), special = get16(page + 16);
  PUT_FIELD("page ", relation), PUT_FIELD(" ", block);
  if (!upper || flags > 7 || lower > upper || upper > special || special > PAGE || special % 8) {
    if (!is_zero(page)) exit(1);
    PUT(" new\n");
    return;
  }
  if (with_checksums && get16(page + 8) != checksum_of(page, block)) exit(1);
  uint32_t count = lower > HEADER ? (lower - HEADER) / 4 : 0;
  PUT_FIELD(" lower ", lower), PUT_FIELD(" upper ", upper), PUT_FIELD(" special ", special), PUT_FIELD(" items ", count);
  *end++ = '\n';
  if (with_tuples) {
    put_tuples(page, block, count);
  } else {
    for (uint32_t i = 0; i < count; i++) put_item(i + 1, get32(page + HEADER + 4 * i));
  }
}

int main(int count, char **words) {
  int with_tuples = count > 1 && !strcmp(words[1], "--tuples");
  int with_checksums = count > 1 && !strcmp(words[1], "--checksums");
  int only_reads = count > 1 && !strcmp(words[1], "--reads");
  int has_option = with_tuples || with_checksums || only_reads;
  words += has_option, count -= has_option;
  if (count < 2) return 2;
  size_t read_size = PAGE * strtoul(words[1], NULL, 10);
  make_numbers();
  uint8_t *bytes = aligned_alloc(4096, read_size);
  for (int relation = 0; relation + 2 < count; relation++) {
    int file = open(words[relation + 2], O_RDONLY);
    if (file < 0) return 3;
    off_t at = 0;
    for (ssize_t got; (got = pread(file, bytes, read_size, at)) >= PAGE;) {
      for (int page = 0; page < got / PAGE && !only_reads; page++) {
        put_page(relation, at / PAGE + page, bytes + page * PAGE, with_tuples, with_checksums);
        if (end - text >= FULL) write_out();
      }
      at += got / PAGE * PAGE;
    }
    close(file);
  }
  write_out();
}
