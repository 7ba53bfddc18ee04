// The checksum of a page of 8192 bytes, as PostgreSQL has it. tools/scan.c verifies it, tools/mix.c
// writes it.
#ifndef CHECKSUM_H
#define CHECKSUM_H
#include <stdint.h>
#include <string.h>

enum { SUM_COLUMNS = 32, SUM_ROW = 4 * SUM_COLUMNS };

// Mixes a row of words into the sums of their columns, which do not depend on each other.
static inline void mix_row(uint32_t *sums, const uint8_t *row) {
  uint32_t words[SUM_COLUMNS];
  memcpy(words, row, sizeof words);
  for (int column = 0; column < SUM_COLUMNS; column++) {
    uint32_t mixed = sums[column] ^ words[column];
    sums[column] = mixed * 16777619 ^ mixed >> 17;
  }
}

// The checksum of a page as this block: pg_checksum_page of checksum_impl.h.
static uint32_t checksum_of(const uint8_t *page, uint32_t block) {
  static const uint8_t zeros[SUM_ROW];
  uint32_t sums[SUM_COLUMNS] = {
      0x5B1F36E9, 0xB8525960, 0x02AB50AA, 0x1DE66D2A, 0x79FF467A, 0x9BB9F8A3, 0x217E7CD2, 0x83E13D2C,
      0xF8D4474F, 0xE39EB970, 0x42C6AE16, 0x993216FA, 0x7B093B5D, 0x98DAFF3C, 0xF718902A, 0x0B1C9CDB,
      0xE58F764B, 0x187636BC, 0x5D7B3BB1, 0xE73DE7DE, 0x92BEC979, 0xCCA6C0B2, 0x304A0979, 0x85AA43D4,
      0x783125BB, 0x6CA8EAA2, 0xE407EAC6, 0x4B5CFC3E, 0x9FBF8C76, 0x15CA20BE, 0xF2CA9FD3, 0x959BD756};
  uint8_t first[SUM_ROW];
  memcpy(first, page, SUM_ROW);
  // What stands there as the checksum does not count.
  memset(first + 8, 0, 2);
  mix_row(sums, first);
  for (int at = SUM_ROW; at < 64 * SUM_ROW; at += SUM_ROW) mix_row(sums, page + at);
  mix_row(sums, zeros), mix_row(sums, zeros);
  for (int column = 0; column < SUM_COLUMNS; column++) block ^= sums[column];
  return block % 65535 + 1;
}

#endif
