/*
 * Prints keys that collide under the key with which a plain driver hashes (both of its numbers are 0): all of them lead to one group
 * of an index map of up to 73,728 entries. Words: how many, and either `names`, which are numbers of 32 bits as textures have them,
 * or `variables` and how many characters each has, from 9 to 32, or `entries`, a number and a byte: numbers that collide behind these
 * two, as a driver's handles and names stand behind a display or a group and a kind. Under the key of a trace or a log, which all its
 * bytes give, they collide no more than others. Compiled by cc.
 */
#include <stdint.h>
#include <stdio.h>
#include <stdlib.h>
#include <string.h>

static const char LETTERS[] = "abcdefghijklmnopqrstuvwxyz0123456789_";
enum { LETTER_COUNT = 37, GROUPS = 8192, SHORTEST = 9, LONGEST = 32, KEY_BYTES = 16, END_OF_TEXT = 255 };

/* SipHash-1-3 */
struct state {
  uint64_t v0, v1, v2, v3;
};

static uint64_t rotated(uint64_t x, int by) {
  return x << by | x >> (64 - by);
}

static void mix(struct state *s) {
  s->v0 += s->v1;
  s->v2 += s->v3;
  s->v1 = rotated(s->v1, 13) ^ s->v0;
  s->v3 = rotated(s->v3, 16) ^ s->v2;
  s->v0 = rotated(s->v0, 32);
  s->v2 += s->v1;
  s->v0 += s->v3;
  s->v1 = rotated(s->v1, 17) ^ s->v2;
  s->v3 = rotated(s->v3, 21) ^ s->v0;
  s->v2 = rotated(s->v2, 32);
}

static void take(struct state *s, uint64_t word) {
  s->v3 ^= word;
  mix(s);
  s->v0 ^= word;
}

/* The hash of bytes behind the key. */
static uint64_t hash_of(struct state s, const unsigned char *bytes, size_t count) {
  size_t at = 0;
  for (; at + 8 <= count; at += 8) {
    uint64_t word = 0;
    for (int k = 0; k < 8; k++)
      word |= (uint64_t)bytes[at + k] << 8 * k;
    take(&s, word);
  }
  uint64_t last = (uint64_t)((KEY_BYTES + count) & 255) << 56;
  for (int k = 0; at < count; at++, k++)
    last |= (uint64_t)bytes[at] << 8 * k;
  take(&s, last);
  s.v2 ^= 255;
  for (int k = 0; k < 3; k++)
    mix(&s);
  return s.v0 ^ s.v1 ^ s.v2 ^ s.v3;
}

static int is_in_first_group(uint64_t hash) {
  return ((uint32_t)(hash ^ hash >> 32) & (GROUPS - 1)) == 0;
}

static void print_names(struct state begun, long wanted) {
  for (uint64_t name = 1; wanted > 0 && name >> 32 == 0; name++) {
    unsigned char bytes[4] = {(unsigned char)name, (unsigned char)(name >> 8), (unsigned char)(name >> 16), (unsigned char)(name >> 24)};
    if (is_in_first_group(hash_of(begun, bytes, sizeof bytes))) {
      printf("%llu\n", (unsigned long long)name);
      wanted--;
    }
  }
}

static void put(unsigned char *bytes, uint64_t number, int count) {
  for (int k = 0; k < count; k++)
    bytes[k] = (unsigned char)(number >> 8 * k);
}

static void print_entries(struct state begun, long wanted, uint64_t first, uint64_t second) {
  /* 8 bytes, one, and a number of 16. */
  unsigned char bytes[25] = {0};
  put(bytes, first, 8);
  put(bytes + 8, second, 1);
  for (uint64_t number = 1; wanted > 0; number++) {
    put(bytes + 9, number, 8);
    if (is_in_first_group(hash_of(begun, bytes, sizeof bytes))) {
      printf("%llu\n", (unsigned long long)number);
      wanted--;
    }
  }
}

static void print_variables(struct state begun, long wanted, long length) {
  unsigned char word[LONGEST + 2];
  memset(word, 'a', sizeof word);
  word[0] = '$';
  word[length + 1] = END_OF_TEXT;
  for (uint64_t number = 0; wanted > 0; number++) {
    uint64_t rest = number;
    for (int k = 1; k <= SHORTEST; k++, rest /= LETTER_COUNT)
      word[k] = (unsigned char)LETTERS[rest % LETTER_COUNT];
    if (is_in_first_group(hash_of(begun, word, (size_t)length + 2))) {
      printf("%.*s\n", (int)length, (const char *)word + 1);
      wanted--;
    }
  }
}

int main(int count, char **words) {
  long wanted = count > 2 ? atol(words[1]) : 0, length = count > 3 ? atol(words[3]) : 0;
  struct state begun = {0x736f6d6570736575u, 0x646f72616e646f6du, 0x6c7967656e657261u, 0x7465646279746573u};
  take(&begun, 0);
  take(&begun, 0);
  if (wanted > 0 && count == 3 && strcmp(words[2], "names") == 0)
    print_names(begun, wanted);
  else if (wanted > 0 && count == 5 && strcmp(words[2], "entries") == 0)
    print_entries(begun, wanted, strtoull(words[3], NULL, 10), strtoull(words[4], NULL, 10));
  else if (wanted > 0 && count == 4 && strcmp(words[2], "variables") == 0 && length >= SHORTEST && length <= LONGEST)
    print_variables(begun, wanted, length);
  else
    return 2;
  return fflush(stdout) != 0;
}
