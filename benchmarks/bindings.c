/* Times one call of the library, for benchmarks/bindings.sh. Words: what is called (a name of `kinds` below), a file of keys,
 * the length of the plaintext, the number of calls, the number of rounds. Prints the seconds of a call, by the best round. */
#include <stdio.h>
#include <stdlib.h>
#include <string.h>
#include <sys/random.h>
#include <time.h>
#include <tink.h>

static uint8_t keys[1 << 16], random_bytes[TINK_RANDOM_STREAM];
static size_t keys_len;

static double now(void) {
  struct timespec t;
  clock_gettime(CLOCK_MONOTONIC, &t);
  return (double)t.tv_sec + (double)t.tv_nsec * 1e-9;
}

static void want(int holds, const char *what) {
  if (!holds) {
    fprintf(stderr, "%s failed\n", what);
    exit(1);
  }
}

static void draw(void) { want(getrandom(random_bytes, sizeof random_bytes, 0) == sizeof random_bytes, "getrandom"); }

static const uint8_t *no_data = (const uint8_t *)"";

static tink_status encrypt(const uint8_t *in, size_t len, uint8_t *out, size_t room, size_t *written) {
  draw();
  return tink_encrypt(keys, keys_len, in, len, no_data, 0, random_bytes, TINK_RANDOM_ENCRYPT, out, room, written);
}

static tink_aead object = TINK_NONE;

static tink_status by_object(const uint8_t *in, size_t len, uint8_t *out, size_t room, size_t *written) {
  draw();
  return tink_aead_encrypt(&object, in, len, no_data, 0, random_bytes, TINK_RANDOM_ENCRYPT, out, room, written);
}

static tink_status seal(const uint8_t *in, size_t len, uint8_t *out, size_t room, size_t *written) {
  draw();
  return tink_seal_stream(keys, keys_len, in, len, no_data, 0, random_bytes, TINK_RANDOM_STREAM, out, room, written);
}

static tink_status open_stream(const uint8_t *in, size_t len, uint8_t *out, size_t room, size_t *written) {
  return tink_open_stream(keys, keys_len, in, len, no_data, 0, out, room, written);
}

/* The stream of pieces of 64 KiB. Each output overwrites the one before, as a program that writes it to a file would do. */
static tink_status write_pieces(const uint8_t *in, size_t len, uint8_t *out, size_t room, size_t *written) {
  tink_writer writer = TINK_NONE;
  draw();
  tink_status status = tink_writer_new(keys, keys_len, no_data, 0, random_bytes, TINK_RANDOM_STREAM, &writer);
  for (size_t at = 0; status == TINK_OK && at < len; at += 65536)
    status = tink_writer_write(&writer, in + at, len - at < 65536 ? len - at : 65536, out, room, written);
  if (status == TINK_OK) status = tink_writer_close(&writer, out, room, written);
  tink_writer_free(&writer);
  return status;
}

/* The text that waits, in parts of 64 KiB. Each overwrites the one before. */
static tink_status give(tink_reader *reader, uint8_t *out, size_t *written) {
  tink_status status = TINK_OK;
  do status = tink_reader_read(reader, out, 65536, written);
  while (status == TINK_OK && *written > 0);
  return status;
}

/* The text of a stream in pieces of 64 KiB. */
static tink_status read_pieces(const uint8_t *in, size_t len, uint8_t *out, size_t room, size_t *written) {
  tink_reader reader = TINK_NONE;
  size_t taken = 0;
  want(room >= 65536, "room");
  tink_status status = tink_reader_new(keys, keys_len, no_data, 0, &reader);
  for (size_t at = 0; status == TINK_OK && at < len; at += taken) {
    status = tink_reader_feed(&reader, in + at, len - at < 65536 ? len - at : 65536, &taken);
    if (status == TINK_OK) status = give(&reader, out, written);
  }
  while (status == TINK_OK && (status = tink_reader_end(&reader)) == TINK_UNREAD) status = give(&reader, out, written);
  tink_reader_free(&reader);
  return status;
}

/* A range of 4 KiB. */
static tink_status range(const uint8_t *in, size_t len, uint8_t *out, size_t room, size_t *written) {
  return tink_read_range(keys, keys_len, in, len, no_data, 0, len / 2, 4096, out, room, written);
}

static tink_range_reader ranges = TINK_NONE;

static tink_status by_ranges(const uint8_t *in, size_t len, uint8_t *out, size_t room, size_t *written) {
  return tink_range_reader_read(&ranges, in, len, len / 2, 4096, out, room, written);
}

typedef struct {
  const char *name;
  tink_status (*call)(const uint8_t *in, size_t len, uint8_t *out, size_t room, size_t *written);
  int is_of_stream;
} kind;

static const kind kinds[] = {{"encrypt", encrypt, 0}, {"object", by_object, 0}, {"seal", seal, 0}, {"write", write_pieces, 0},
                             {"open", open_stream, 1}, {"read", read_pieces, 1}, {"range", range, 1}, {"ranges", by_ranges, 1}};

static const kind *kind_of(const char *name) {
  for (size_t i = 0; i < sizeof kinds / sizeof *kinds; i++)
    if (strcmp(kinds[i].name, name) == 0) return &kinds[i];
  want(0, name);
  return NULL;
}

static size_t read_keys(const char *name) {
  FILE *file = fopen(name, "rb");
  want(file != NULL, "fopen");
  size_t len = fread(keys, 1, sizeof keys, file);
  fclose(file);
  return len;
}

int main(int argc, char **argv) {
  want(argc == 6, "five words");
  const kind *its = kind_of(argv[1]);
  keys_len = read_keys(argv[2]);
  size_t len = strtoull(argv[3], NULL, 10), room = len + len / 1000 + 65536, written = 0;
  long calls = atol(argv[4]), rounds = atol(argv[5]);
  uint8_t *in = calloc(room, 1), *out = malloc(room);
  want(in != NULL && out != NULL, "malloc");
  if (its->is_of_stream) {
    want(seal(in, len, out, room, &written) == TINK_OK, "seal");
    memcpy(in, out, len = written);
  }
  if (its->call == by_object) want(tink_aead_new(keys, keys_len, &object) == TINK_OK, "new");
  if (its->call == by_ranges) want(tink_range_reader_new(keys, keys_len, no_data, 0, &ranges) == TINK_OK, "new");
  double least = 1e9;
  for (long round = 0; round < rounds; round++) {
    double start = now();
    for (long i = 0; i < calls; i++) want(its->call(in, len, out, room, &written) == TINK_OK, argv[1]);
    double took = (now() - start) / (double)calls;
    if (took < least) least = took;
  }
  printf("%.9f\n", least);
  tink_aead_free(&object);
  tink_range_reader_free(&ranges);
  free(in);
  free(out);
  return 0;
}
