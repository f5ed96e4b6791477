/* Writes the compressed values of a file of OCaml 5 as plain ones:

     plain_values [clear] < FILE > OUT

   FILE has magic numbers of OCaml's compiler ("Caml1999" and four bytes more) and values, one after another. What follows
   the last of them is copied. A compressed value has the magic 8495a6bd, a header of five numbers, and zstd. In its data
   the number after a code of a reference is that of the object, from 0 on; in a plain value it is how many objects to
   count back. With the word `clear`, bits 8 and 9 of each header word are 0, as OCaml 4 writes them; OCaml 5 writes 3.

   cc plain_values.c -lzstd */
#include <stdint.h>
#include <stdio.h>
#include <stdlib.h>
#include <string.h>
#include <zstd.h>

typedef unsigned char byte;
typedef struct { byte *at; size_t size, room; } buffer;
typedef struct { uint64_t objects, words32, words64; } sums;

static void fail(const char *what) {
  fprintf(stderr, "plain_values: %s\n", what);
  exit(1);
}

static void append(buffer *to, const byte *from, size_t count) {
  if (to->size + count > to->room) {
    to->room = 2 * (to->size + count) + 64;
    to->at = realloc(to->at, to->room);
    if (!to->at) fail("no memory");
  }
  memcpy(to->at + to->size, from, count);
  to->size += count;
}

static uint64_t big_endian(const byte *from, int count) {
  uint64_t number = 0;
  while (count-- > 0) number = number << 8 | *from++;
  return number;
}

/* Appends a code, if it is not negative, and a number of so many bytes. */
static void append_number(buffer *to, int code, uint64_t number, int count) {
  byte bytes[9];
  int at = 0;
  if (code >= 0) bytes[at++] = code;
  while (count-- > 0) bytes[at++] = number >> (8 * count);
  append(to, bytes, at);
}

static void count(sums *found, uint64_t words32, uint64_t words64) {
  found->objects++;
  found->words32 += 1 + words32;
  found->words64 += 1 + words64;
}

/* A number of seven bits a byte. All but the last byte have the top bit. */
static uint64_t packed_number(const byte **from, const byte *end) {
  uint64_t number = 0;
  byte next;
  do {
    if (*from == end) fail("the header of a compressed value ends early");
    next = *(*from)++;
    number = number << 7 | (next & 127);
  } while (next & 128);
  return number;
}

static const byte *token(const byte *at, const byte *end, size_t size) {
  if ((size_t)(end - at) < size) fail("the data of a value ends early");
  return at;
}

/* Appends the data of a value, token by token. */
static sums rewrite(buffer *to, const byte *at, const byte *end, int is_compressed, int clears) {
  static const int widths[] = {1, 2, 4, 8};
  static const byte references[] = {0x04, 0x05, 0x06, 0x14};
  sums found = {0, 0, 0};
  uint64_t pending = 1;
  while (pending > 0) {
    int code = *token(at, end, 1), width = 0;
    uint64_t number = 0;
    size_t size = 1;
    pending--;
    switch (code) {
    case 0x00: case 0x04: case 0x09: case 0x0d: case 0x0e: width = 1; break;
    case 0x01: case 0x05: width = 2; break;
    case 0x02: case 0x06: case 0x07: case 0x08: case 0x0a: case 0x0f: width = 4; break;
    case 0x03: case 0x0b: case 0x0c: case 0x13: case 0x14: case 0x15: case 0x16: case 0x17: width = 8; break;
    }
    size += width;
    number = big_endian(token(at, end, size) + 1, width);
    if (code >= 0x80) {
      uint64_t fields = code >> 4 & 7;
      if (fields > 0) count(&found, fields, fields);
      pending += fields;
    } else if (code >= 0x20 && code < 0x40) {
      size += code & 31;
      count(&found, ((code & 31) + 4) / 4, ((code & 31) + 8) / 8);
    } else switch (code) {
      case 0x04: case 0x05: case 0x06: case 0x14: {
        uint64_t back = is_compressed ? found.objects - number : number;
        if (back < 1 || back > found.objects) fail("a reference is to no earlier object");
        int least = back < 1 << 8 ? 0 : back < 1 << 16 ? 1 : back < (uint64_t)1 << 32 ? 2 : 3;
        append_number(to, references[least], back, widths[least]);
        at += size;
        continue;
      }
      case 0x08: case 0x13: {
        uint64_t fields = number >> 10;
        if (fields > 0) count(&found, fields, fields);
        pending += fields;
        append_number(to, code, clears ? number & ~(uint64_t)0x300 : number, width);
        at += size;
        continue;
      }
      case 0x09: case 0x0a: case 0x15:
        size += number;
        count(&found, (number + 4) / 4, (number + 8) / 8);
        break;
      case 0x0b: case 0x0c: count(&found, 2, 1); break;
      case 0x07: case 0x0d: case 0x0e: case 0x0f: case 0x16: case 0x17:
        size += 8 * number;
        count(&found, 2 * number, number);
        break;
      case 0x19: {
        const byte *name = token(at, end, 5) + 1;
        if (!memcmp(name, "_i", 3)) { size += 3 + 4; count(&found, 2, 2); }
        else if (!memcmp(name, "_j", 3)) { size += 3 + 8; count(&found, 3, 2); }
        else if (!memcmp(name, "_n", 3)) { size += 3 + 1 + (name[3] == 1 ? 4 : 8); count(&found, 2, 2); }
        else fail("a custom block of a kind that is not known");
        break;
      }
      default:
        if (code < 0x40 && width == 0) fail("a code that is not known");
    }
    append(to, token(at, end, size), size);
    at += size;
  }
  if (at != end) fail("bytes are left in the data of a value");
  return found;
}

/* Appends the value at the beginning of some bytes, and returns its length there. */
static size_t value(buffer *to, const byte *from, size_t size, int clears) {
  buffer data = {0, 0, 0};
  size_t length, header;
  if (size >= 20 && big_endian(from, 4) == 0x8495a6be) {
    header = 20, length = big_endian(from + 4, 4);
    if (size - header < length) fail("a value ends early");
    append(to, from, header);
    if (clears) rewrite(&data, from + header, from + header + length, 0, 1);
    else append(&data, from + header, length);
    if (data.size != length) fail("a reference is longer than it has to be");
  } else {
    const byte *at = from + 5, *end = from + size;
    if (size < 5) fail("a compressed value ends early");
    length = packed_number(&at, end);
    uint64_t plain = packed_number(&at, end), objects = packed_number(&at, end);
    uint64_t words32 = packed_number(&at, end), words64 = packed_number(&at, end);
    header = from[4] & 63;
    if (header != (size_t)(at - from) || size - header < length) fail("a compressed value ends early");
    byte *tokens = malloc(plain + 1);
    if (!tokens) fail("no memory");
    if (ZSTD_decompress(tokens, plain, at, length) != plain) fail("zstd does not read a compressed value");
    sums found = rewrite(&data, tokens, tokens + plain, 1, clears);
    if (found.objects != objects || found.words32 != words32 || found.words64 != words64)
      fail("the sums of a compressed value are not those of its header");
    append_number(to, -1, 0x8495a6be, 4);
    append_number(to, -1, data.size, 4);
    append_number(to, -1, objects, 4);
    append_number(to, -1, words32, 4);
    append_number(to, -1, words64, 4);
    free(tokens);
  }
  append(to, data.at, data.size);
  free(data.at);
  return header + length;
}

int main(int words, char **word) {
  static byte chunk[65536];
  buffer in = {0, 0, 0}, out = {0, 0, 0};
  size_t at = 0, got;
  int clears = words == 2 && strcmp(word[1], "clear") == 0;
  if (words > 2 || (words == 2 && !clears)) fail("usage: plain_values [clear] < FILE > OUT");
  while ((got = fread(chunk, 1, sizeof chunk, stdin)) > 0) append(&in, chunk, got);
  while (at < in.size) {
    size_t left = in.size - at;
    uint64_t magic = left >= 4 ? big_endian(in.at + at, 4) : 0;
    if (left >= 12 && memcmp(in.at + at, "Caml1999", 8) == 0) {
      append(&out, in.at + at, 12);
      at += 12;
    } else if (magic == 0x8495a6be || magic == 0x8495a6bd) {
      at += value(&out, in.at + at, left, clears);
    } else {
      append(&out, in.at + at, left);
      at = in.size;
    }
  }
  if (fwrite(out.at, 1, out.size, stdout) != out.size || fflush(stdout) != 0) fail("the output cannot be written");
  return 0;
}
