// Writes heap pages as a server's relations have them, to measure with: the same for each call.
// tools/bench builds and runs it.
//
// A page has 0 to 291 line pointers, 120 on average: wide, usual and narrow rows. Of 100 pages one
// is new and three are empty. Of 100 line pointers four are dead, three redirect to a normal one
// before them, and three are unused; of 100 tuples six were updated into the next one on their
// page. Each page that is not new has its checksum, and none has a fault.
//
// usage: mix PAGES [ITEMS] >FILE      with ITEMS no page is new, and each has so many line pointers
#include <stdint.h>
#include <stdio.h>
#include <stdlib.h>
#include <string.h>

#include "checksum.h"

enum { PAGE = 8192, HEADER = 24, TUPLE_HEADER = 23 };

static uint64_t state = 88172645463325252u;

// A number below the bound (xorshift).
static uint32_t below(uint32_t bound) {
  state ^= state << 13, state ^= state >> 7, state ^= state << 17;
  return (uint32_t)(state >> 32) % bound;
}

static void put16(uint8_t *at, uint32_t n) { at[0] = n, at[1] = n >> 8; }
static void put32(uint8_t *at, uint32_t n) { put16(at, n), put16(at + 2, n >> 16); }

static int has_items;
static uint32_t items;

static uint32_t item_count(void) {
  if (has_items) return items;
  uint32_t kind = below(100);
  if (kind < 3) return 0;
  if (kind < 13) return 1 + below(20);
  if (kind < 43) return 40 + below(41);
  if (kind < 73) return 100 + below(61);
  if (kind < 93) return 185 + below(42);
  return 227 + below(65);
}

// The tuple of an item: whether it was updated into the item behind it.
static void put_tuple(uint8_t *tuple, uint32_t length, uint32_t block, uint32_t item, uint32_t xmin, int is_updated) {
  for (uint32_t i = TUPLE_HEADER; i < length; i++) tuple[i] = item + i;
  put32(tuple, xmin);
  put32(tuple + 4, is_updated ? xmin + 1 : 0);
  put32(tuple + 8, 0);
  put16(tuple + 12, block >> 16), put16(tuple + 14, block);
  put16(tuple + 16, is_updated ? item + 1 : item);
  put16(tuple + 18, 2 + item % 30), put16(tuple + 20, is_updated ? 0x0502 : 0x0902);
  tuple[22] = 24;
}

static void put_page(uint8_t *page, uint32_t block) {
  memset(page, 0, PAGE);
  if (!has_items && below(100) == 0) return;
  uint32_t count = item_count(), offset = PAGE;
  uint32_t most = count ? (PAGE - HEADER - 4 * count) / count / 8 * 8 : 0;
  uint32_t xmin = 1000000 + 500 * (block % 5000), normal = 0;
  for (uint32_t item = 1; item <= count; item++) {
    uint32_t kind = below(100), pointer;
    if (kind < 4) pointer = 3u << 15;
    else if (kind < 7 && normal) pointer = 2u << 15 | normal;
    else if (kind < 10) pointer = 0;
    else {
      uint32_t length = most - below(most > 32 ? 8 : 1);
      if (length < TUPLE_HEADER + 1) length = TUPLE_HEADER + 1;
      int is_updated = item < count && below(100) < 6;
      offset -= most > 24 ? most : 24;
      pointer = length << 17 | 1u << 15 | offset;
      put_tuple(page + offset, length, block, item, xmin, is_updated);
      xmin += is_updated ? 1 : 0;
      normal = item;
    }
    put32(page + HEADER + 4 * (item - 1), pointer);
  }
  put16(page + 12, HEADER + 4 * count), put16(page + 14, offset);
  put16(page + 16, PAGE), put16(page + 18, PAGE | 4);
  put16(page + 8, checksum_of(page, block));
}

int main(int count, char **words) {
  if (count != 2 && count != 3) return 2;
  has_items = count == 3, items = has_items ? strtoul(words[2], NULL, 10) : 0;
  static uint8_t pages[16][PAGE];
  uint32_t total = strtoul(words[1], NULL, 10);
  for (uint32_t block = 0; block < total;) {
    uint32_t run = 0;
    for (; run < 16 && block < total; run++, block++) put_page(pages[run], block);
    if (fwrite(pages, PAGE, run, stdout) != run) return 4;
  }
  return fclose(stdout) ? 4 : 0;
}
