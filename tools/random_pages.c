// Pages at random, for a comparison of two checks: from heap pages without a fault to noise.
//
// usage: random_pages COUNT SEED [FILE]      the pages go to the output
//
// A page is made of items one below the other, and then damaged: some bits are changed, two fields
// are exchanged, a field is set to a number near a bound, or a part is filled with noise. With a
// FILE of whole blocks every other page is one of these, damaged in the same way.
#include <stdint.h>
#include <stdio.h>
#include <stdlib.h>
#include <string.h>

enum { PAGE = 8192, HEADER = 24 };

static uint64_t state;
static uint8_t page[PAGE];
static uint32_t block;

static uint32_t any(uint32_t below) {
  state ^= state << 13, state ^= state >> 7, state ^= state << 17;
  return (state >> 16) % below;
}

static void set(int at, int bytes, uint64_t n) {
  for (int i = 0; i < bytes; i++, n /= 256)
    if (at + i < PAGE) page[at + i] = n % 256;
}

static uint64_t get(int at, int bytes) {
  uint64_t n = 0;
  for (int i = bytes - 1; i >= 0; i--) n = n * 256 + page[at + i];
  return n;
}

static void set_pointer(int index, uint32_t offset, uint32_t kind, uint32_t length) {
  set(HEADER + 4 * index, 4, length % 32768 << 17 | kind % 4 << 15 | offset % 32768);
}

static void make_tuple(int offset, int length, int number, uint32_t home) {
  int mask = any(4) ? 2306 : any(65536), attributes = any(4) ? 1 + any(40) : any(2048);
  if (any(8) == 0) mask |= 768;
  if (any(4) == 0) mask |= 1;
  int hoff = 23 + (mask & 1 ? (attributes + 7) / 8 : 0) + (mask & 8 ? 4 : 0);
  hoff = (hoff + 7) / 8 * 8;
  if (hoff > length || hoff > 255) mask &= ~9, hoff = 24;
  set(offset, 4, any(8) ? 700 + any(4) : any(6));
  set(offset + 4, 4, any(4) ? 0 : 700 + any(4));
  set(offset + 12, 2, home >> 16), set(offset + 14, 2, home & 65535);
  set(offset + 16, 2, any(50) ? (uint32_t)number : 1 + any(300));
  set(offset + 18, 2, attributes | (any(4) ? 0 : 0x8000));
  set(offset + 20, 2, mask), set(offset + 22, 1, hoff);
}

static void make_page(void) {
  memset(page, 0, PAGE);
  if (any(40) == 0) return;
  int count = any(3) ? any(60) : any(300), upper = PAGE;
  uint32_t home = any(5) ? block : any(3);
  for (int index = 0; index < count; index++) {
    uint32_t kind = any(12) ? 1 : any(4);
    int length = 24 + any(any(3) ? 60 : 400), begin = (upper - length) / 8 * 8;
    if (begin < HEADER + 4 * count) kind = 0;
    if (kind == 1) {
      upper = begin;
      set_pointer(index, begin, 1, length);
      make_tuple(begin, length, index + 1, home);
    } else {
      set_pointer(index, kind == 2 ? 1 + any(count) : 0, kind, 0);
    }
  }
  set(0, 4, any(3)), set(4, 4, any(1000) + 0x16B3740);
  set(12, 2, HEADER + 4 * count), set(14, 2, upper), set(16, 2, any(30) ? PAGE : PAGE - 16);
  set(18, 2, any(50) ? 8196 : 8192 + any(8));
}

// A number at a bound of the rules, or near one.
static uint32_t bound(void) {
  static const uint32_t bounds[] = {0, 1, 2, 3, 7, 8, 23, 24, 28, 255, 700, 703, 2047, 2048, 8168, 8184,
    8192, 8196, 8200, 16384, 32767, 32768, 65535, 0x7FFFFFFF, 0x80000000, 0xFFFFFFFF};
  return bounds[any(sizeof bounds / sizeof *bounds)] + any(3) - 1;
}

static int some_place(void) {
  int count = get(12, 2) > HEADER ? (get(12, 2) - HEADER) / 4 : 0;
  if (count > 2042) count = 2042;
  switch (any(4)) {
  case 0: return any(HEADER);
  case 1: return count ? HEADER + 4 * (int)any(count) + any(4) : any(PAGE);
  case 2: return count ? (int)(get(HEADER + 4 * any(count), 4) % 32768 + any(24)) % PAGE : (int)any(PAGE);
  default: return any(PAGE);
  }
}

static void damage(void) {
  int count = get(12, 2) > HEADER && get(12, 2) <= PAGE ? (get(12, 2) - HEADER) / 4 : 0;
  switch (any(8)) {
  case 0:
    for (int bits = 1 + any(64); bits > 0; bits--) page[some_place()] ^= 1 << any(8);
    break;
  case 1:
    for (int bits = 1 + any(3); bits > 0; bits--) page[some_place()] ^= 1 << any(8);
    break;
  case 2: set(some_place(), 1 << any(3), bound()); break;
  case 3: {
    int at = any(PAGE), to = at + any(PAGE - at) + 1;
    for (; at < to; at++) page[at] = any(256);
    break;
  }
  case 4:
    if (count > 1) {
      int one = any(count), two = any(count);
      uint32_t kept = get(HEADER + 4 * one, 4);
      set(HEADER + 4 * one, 4, any(2) ? get(HEADER + 4 * two, 4) : kept + (any(2) ? 1 : -1) * 8 * (int)any(4));
    }
    break;
  case 5:
    if (count > 0) set_pointer(any(count), bound(), any(4), bound());
    break;
  case 6: set(10 + 2 * any(5), 2, bound()); break;
  case 7:
    if (count > 0) {
      int at = get(HEADER + 4 * any(count), 4) % 32768;
      static const int fields[][2] = {{0, 4}, {4, 4}, {12, 2}, {14, 2}, {16, 2}, {18, 2}, {20, 2}, {22, 1}};
      int field = any(8);
      set(at + fields[field][0], fields[field][1], any(2) ? bound() : any(65536));
    }
  }
}

int main(int count, char **args) {
  if (count < 3) return 2;
  uint32_t pages = strtoul(args[1], NULL, 10);
  state = strtoull(args[2], NULL, 10) * 0x9E3779B97F4A7C15u + 1;
  FILE *real = count > 3 ? fopen(args[3], "rb") : NULL;
  for (block = 0; block < pages; block++) {
    if (!real || any(2)) {
      make_page();
    } else if (fread(page, PAGE, 1, real) != 1) {
      rewind(real);
      make_page();
    }
    for (int times = any(4); times > 0; times--) damage();
    if (any(500) == 0)
      for (int at = 0; at < PAGE; at++) page[at] = any(256);
    fwrite(page, PAGE, 1, stdout);
  }
  return 0;
}
