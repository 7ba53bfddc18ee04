// The faults of pages in plain C, a second implementation of the rules of `--check` to compare its
// lines with. It is slow and simple: each item is held against all items before it.
//
// usage: page_faults [--checksums] [--end-lsn X/X] [--next-xid N] FILE..
//
// Each FILE is a relation, numbered from 0, of whole blocks of 8192 bytes. Status 1: there is a
// fault.
#include <inttypes.h>
#include <stdio.h>
#include <stdlib.h>
#include <string.h>

enum { PAGE = 8192, HEADER = 24 };
enum { UNUSED, NORMAL, REDIRECT, DEAD };

static const char *words[] = {"unused", "normal", "redirect", "dead"};

static int checksums, have_lsn, have_xid;
static uint64_t end_lsn, next_xid, faults, new_pages, pages;
static uint32_t relation, block;
static uint8_t page[PAGE];

static uint64_t number(int at, int bytes) {
  uint64_t n = 0;
  for (int i = bytes - 1; i >= 0; i--) n = n * 256 + page[at + i];
  return n;
}

// `pg_checksum_page`: the hash FNV-1a in 32 columns, over the page and two rows of zeros.
static unsigned checksum(void) {
  static const uint32_t bases[32] = {
    0x5B1F36E9, 0xB8525960, 0x02AB50AA, 0x1DE66D2A, 0x79FF467A, 0x9BB9F8A3, 0x217E7CD2, 0x83E13D2C,
    0xF8D4474F, 0xE39EB970, 0x42C6AE16, 0x993216FA, 0x7B093B5D, 0x98DAFF3C, 0xF718902A, 0x0B1C9CDB,
    0xE58F764B, 0x187636BC, 0x5D7B3BB1, 0xE73DE7DE, 0x92BEC979, 0xCCA6C0B2, 0x304A0979, 0x85AA43D4,
    0x783125BB, 0x6CA8EAA2, 0xE407EAC6, 0x4B5CFC3E, 0x9FBF8C76, 0x15CA20BE, 0xF2CA9FD3, 0x959BD756};
  uint32_t all = 0;
  for (int column = 0; column < 32; column++) {
    uint32_t sum = bases[column];
    for (int row = 0; row < PAGE / 128 + 2; row++) {
      int at = 128 * row + 4 * column;
      uint32_t word = row < PAGE / 128 ? number(at, 4) : 0;
      if (at == 8) word &= 0xFFFF0000;
      uint32_t mixed = sum ^ word;
      sum = mixed * 16777619 ^ mixed >> 17;
    }
    all ^= sum;
  }
  return (all ^ block) % 65535 + 1;
}

#define FAULT(...) (printf("fault %u %u ", relation, block), printf(__VA_ARGS__), putchar('\n'), faults++)

static int is_zero(void) {
  for (int i = 0; i < PAGE; i++)
    if (page[i]) return 0;
  return 1;
}

static unsigned offset_of(int item) { return number(HEADER + 4 * (item - 1), 4) % 32768; }
static unsigned kind_of(int item) { return number(HEADER + 4 * (item - 1), 4) / 32768 % 4; }
static unsigned length_of(int item) { return number(HEADER + 4 * (item - 1), 4) / 131072; }

static void item_fault(int item) {
  FAULT("item %d %s %u %u", item, words[kind_of(item)], offset_of(item), length_of(item));
}

// Not before the next transaction, in the circle of 2^32.
static int has_not_begun(uint32_t xid) {
  return have_xid && xid >= 3 && (int32_t)(xid - (uint32_t)next_xid) >= 0;
}

static int covers(int item, int piece) {
  int from = offset_of(item), to = from + length_of(item);
  return from < 8 * piece + 8 && 8 * piece < to;
}

static void check_tuple(int item) {
  int at = offset_of(item), length = length_of(item);
  int attributes = number(at + 18, 2) & 2047, mask = number(at + 20, 2), hoff = page[at + 22];
  int wanted = 23;
  if (mask & 1) wanted += (attributes + 7) / 8;
  if (mask & 8) wanted += 4;
  while (wanted % 8) wanted++;
  if (hoff != wanted || hoff > length) FAULT("item %d hoff %d expected %d", item, hoff, wanted);
  if ((mask & 1024) && (mask & 4096)) FAULT("item %d mask %d", item, mask);
  int frozen = (mask & 256) && (mask & 512);
  uint32_t xmin = number(at, 4), xmax = number(at + 4, 4);
  if (!frozen && has_not_begun(xmin)) FAULT("item %d xmin %u", item, xmin);
  if (!(mask & 4096) && has_not_begun(xmax)) FAULT("item %d xmax %u", item, xmax);
}

static void check_items(void) {
  static char placed[PAGE];
  unsigned lower = number(12, 2), upper = number(14, 2), special = number(16, 2);
  int count = lower < HEADER ? 0 : (lower - HEADER) / 4;
  for (int item = 1; item <= count; item++) {
    unsigned offset = offset_of(item), length = length_of(item);
    placed[item] = 0;
    switch (kind_of(item)) {
    case UNUSED:
      if (offset || length) item_fault(item);
      break;
    case REDIRECT:
      if (length || offset < 1 || offset > (unsigned)count || kind_of(offset) != NORMAL) item_fault(item);
      break;
    case NORMAL:
      if (offset < upper || offset % 8 || offset + length > special || length < 24) {
        item_fault(item);
        break;
      }
      int other = 0;
      for (int piece = offset / 8; covers(item, piece) && !other; piece++)
        for (int earlier = 1; earlier < item && !other; earlier++)
          if (placed[earlier] && covers(earlier, piece)) other = earlier;
      if (other) {
        FAULT("item %d overlaps %d", item, other);
        break;
      }
      placed[item] = 1;
      check_tuple(item);
    }
  }
  int64_t named = -1;
  int agree = 1;
  for (int item = 1; item <= count; item++) {
    if (!placed[item]) continue;
    int at = offset_of(item), mask = number(at + 20, 2);
    if (number(at + 4, 4) != 0 || number(at, 4) <= 2 || (mask & 768) == 768) continue;
    int64_t its = number(at + 12, 2) * 65536 + number(at + 14, 2);
    if (named < 0) named = its;
    if (its != named || (int)number(at + 16, 2) != item) agree = 0;
  }
  int verified = checksums && number(8, 2) == checksum();
  if (named >= 0 && agree && named != block && !verified) FAULT("misplaced %" PRId64, named);
}

static void check_page(void) {
  unsigned stored = number(8, 2), flags = number(10, 2), lower = number(12, 2);
  unsigned upper = number(14, 2), special = number(16, 2), version = number(18, 2);
  uint64_t lsn = number(0, 4) << 32 | number(4, 4);
  pages++;
  if (is_zero()) {
    new_pages++;
    return;
  }
  int sane = upper != 0 && flags <= 7 && lower <= upper && upper <= special && special <= PAGE
             && special % 8 == 0;
  if (!sane) FAULT("header flags %u lower %u upper %u special %u", flags, lower, upper, special);
  if (checksums && stored != checksum()) FAULT("checksum %u expected %u", stored, checksum());
  if (!sane) return;
  if (have_lsn && lsn > end_lsn) FAULT("lsn %X/%X", (unsigned)(lsn >> 32), (unsigned)lsn);
  if (version != 8196) FAULT("version %u", version);
  if (special != PAGE) return;
  if (lower < HEADER || (lower - HEADER) % 4) FAULT("lower %u", lower);
  check_items();
}

int main(int count, char **args) {
  for (int i = 1; i < count; i++) {
    if (!strcmp(args[i], "--checksums")) {
      checksums = 1;
    } else if (!strcmp(args[i], "--end-lsn") && i + 1 < count) {
      unsigned high, low;
      if (sscanf(args[++i], "%X/%X", &high, &low) != 2) return 2;
      have_lsn = 1, end_lsn = (uint64_t)high << 32 | low;
    } else if (!strcmp(args[i], "--next-xid") && i + 1 < count) {
      have_xid = 1, next_xid = strtoull(args[++i], NULL, 10);
    } else {
      FILE *file = fopen(args[i], "rb");
      if (!file) return 3;
      for (block = 0; fread(page, PAGE, 1, file) == 1; block++) check_page();
      fclose(file);
      relation++;
    }
  }
  printf("pages %" PRIu64 " new %" PRIu64 " faults %" PRIu64 "\n", pages, new_pages, faults);
  return faults > 0;
}
