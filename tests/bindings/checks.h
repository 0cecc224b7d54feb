/* What the tests in C share: checks, vectors, buffers that errors leave, and memory that is refused. */
#include <pthread.h>
#include <stdio.h>
#include <stdlib.h>
#include <string.h>
#include <tink.h>

#define ROOM 65536

static unsigned long checks;

static void fail(const char *what, int line) {
  fprintf(stderr, "test.c: line %d: %s\n", line, what);
  exit(1);
}

#define CHECK(fact) ((void)++checks, (fact) ? (void)0 : fail(#fact, __LINE__))

/* ---- memory that is refused */

static long refuse_at = -1, asked;

void *__real_malloc(size_t size);
void *__real_realloc(void *old, size_t size);

static inline int is_refused(void) { return refuse_at >= 0 && asked++ == refuse_at; }
void *__wrap_malloc(size_t size) { return is_refused() ? NULL : __real_malloc(size); }
void *__wrap_realloc(void *old, size_t size) { return is_refused() ? NULL : __real_realloc(old, size); }

/* ---- vectors */

typedef struct {
  uint8_t *bytes;
  size_t len;
} data;

static inline data from_hex(const char *word) {
  data d = {calloc(strlen(word) / 2 + 1, 1), 0};
  if (strcmp(word, "-") != 0)
    for (; word[2 * d.len]; d.len++) {
      unsigned v;
      sscanf(word + 2 * d.len, "%2x", &v);
      d.bytes[d.len] = (uint8_t)v;
    }
  return d;
}

/* Before each call the buffer is filled with a pattern, and after each error it has to be the same. */
static uint8_t out[ROOM], before[ROOM];
static size_t written;

static inline void prepare(void) {
  for (size_t i = 0; i < ROOM; i++) out[i] = before[i] = (uint8_t)(i * 7 + 3);
  written = 12345;
}

static inline int untouched(void) { return memcmp(out, before, ROOM) == 0; }
static inline int gave(data d) { return written == d.len && memcmp(out, d.bytes, d.len) == 0 && memcmp(out + d.len, before + d.len, ROOM - d.len) == 0; }

/* A call with the room ROOM, with exactly the room that is needed (of which checkers of memory know the end), with one byte
 * too little, and with memory refused at each request in turn. */
#define GIVES(want, name, ...)                                            \
  do {                                                                    \
    prepare();                                                            \
    CHECK(name(__VA_ARGS__, out, ROOM, &written) == TINK_OK && gave(want)); \
    uint8_t *exact_ = malloc((want).len);                                 \
    CHECK(name(__VA_ARGS__, exact_, (want).len, &written) == TINK_OK && written == (want).len); \
    CHECK(memcmp(exact_, (want).bytes, written) == 0);                    \
    free(exact_);                                                         \
    if ((want).len > 0) {                                                 \
      prepare();                                                          \
      CHECK(name(__VA_ARGS__, out, (want).len - 1, &written) == TINK_TOO_LITTLE_ROOM); \
      CHECK(untouched() && written == (want).len);                        \
    }                                                                     \
    for (refuse_at = 0;; refuse_at++) {                                   \
      prepare();                                                          \
      asked = 0;                                                          \
      tink_status status_ = name(__VA_ARGS__, out, ROOM, &written);             \
      if (status_ == TINK_OK) {                                                 \
        CHECK(gave(want));                                                \
        if (asked <= refuse_at) break;                                    \
      } else {                                                            \
        CHECK(status_ == TINK_OUT_OF_MEMORY && untouched() && written == 0);    \
      }                                                                   \
    }                                                                     \
    refuse_at = -1;                                                       \
  } while (0)

#define REFUSES(status, name, ...)                                        \
  do {                                                                    \
    prepare();                                                            \
    CHECK(name(__VA_ARGS__, out, ROOM, &written) == (status));            \
    CHECK(untouched() && written == 0);                                   \
  } while (0)

#define D(d) (d).bytes, (d).len

/* An object is filled, with memory refused at each request in turn. After each refusal, and by a keyset that is cut, it holds
 * what it held. */
#define FILLS(name, k, object)                                            \
  do {                                                                    \
    for (refuse_at = 0;; refuse_at++) {                                   \
      void *was_ = (object)->at;                                          \
      bool full_ = (object)->full;                                        \
      asked = 0;                                                          \
      tink_status status_ = name(D(k), object);                           \
      if (status_ == TINK_OK && asked <= refuse_at) break;                \
      if (status_ == TINK_OK) continue;                                   \
      CHECK(status_ == TINK_OUT_OF_MEMORY && (object)->at == was_ && (object)->full == full_); \
    }                                                                     \
    refuse_at = -1;                                                       \
    CHECK((object)->full);                                                \
    void *was_ = (object)->at;                                            \
    CHECK(name((k).bytes, (k).len - 1, object) == TINK_BAD_KEYSET);       \
    CHECK((object)->full && (object)->at == was_);                        \
  } while (0)

/* A copy of the output. */
static inline data kept(void) {
  data d = {malloc(written), written};
  memcpy(d.bytes, out, written);
  return d;
}

/* Whether a status is one that the header declares. */
static inline int is_declared(tink_status status) {
  static const tink_status all[] = {0, 10, 13, 14, 15, 16, 17, 18, 19, 20, 21, 22, 23, 24, 25, 27, 28, 30, 31, 32, 33, 34, 35, 42, 43, 44, 45, 46, 47, 48, 49, 50};
  return memchr(all, status, sizeof all) != NULL;
}

/* ---- random numbers by a seed */

static uint64_t state;

static inline uint64_t next(void) {
  state ^= state << 13, state ^= state >> 7, state ^= state << 17;
  return state;
}

static inline void noise(uint8_t *bytes, size_t len) {
  while (len) bytes[--len] = (uint8_t)(next() >> 32);
}
