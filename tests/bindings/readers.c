/* The readers of libtink from C: streams in pieces, cut, changed and lengthened ones, ranges, refused memory, two threads and
 * random calls. The words are the file of vectors, a seed, and the rounds of the loops. */
#include "checks.h"

/* ---- a stream in pieces */

typedef size_t (*size_of)(void);

static size_t one(void) { return 1; }
static size_t three(void) { return 3; }
static size_t odd(void) { return 4093; }
static size_t all(void) { return ROOM; }
static size_t any(void) { return next() % 4 == 0 ? next() % 3 : next() % 6000; }

/* A piece goes to a reader from memory of its own length, so that checkers of memory know its end. The answer is its status. */
static tink_status feed(tink_reader *it, const uint8_t *piece, size_t len, size_t *taken) {
  uint8_t *exact = __real_malloc(len + 1);
  memcpy(exact + 1, piece, len);
  *taken = 12345;
  tink_status status = tink_reader_feed(it, exact + 1, len, taken);
  free(exact);
  CHECK(is_declared(status) && (status == TINK_OK ? *taken <= len : *taken == 0));
  return status;
}

/* What is at a place of text before a call, and behind the text after it. */
static uint8_t behind[ROOM + 1];

/* The text that waits goes behind the rest, as much as has room. The answer is its length. */
static size_t take(tink_reader *it, size_t room, data *got) {
  uint8_t *exact = __real_malloc(room + 1);
  size_t count = 12345;
  memcpy(exact, behind, room + 1);
  CHECK(tink_reader_read(it, exact, room, &count) == TINK_OK && count <= room && got->len + count <= ROOM);
  CHECK(memcmp(exact + count, behind + count, room + 1 - count) == 0);
  memcpy(got->bytes + got->len, exact, count);
  got->len += count;
  free(exact);
  return count;
}

/* Feeds a stream and reads its text, up to the end or an error, whose status is the answer. */
static tink_status through(tink_reader *it, data s, size_of piece, size_of room, data *got) {
  for (size_t at = 0;;) {
    size_t n = piece(), taken = 0, space = room();
    int is_end = at == s.len;
    if (n > s.len - at) n = s.len - at;
    tink_status status = is_end ? tink_reader_end(it) : feed(it, s.bytes + at, n, &taken);
    at += taken;
    if (is_end ? status == TINK_OK : status != TINK_OK && status != TINK_UNREAD) return status;
    if (is_end && status != TINK_UNREAD) return status;
    size_t count = take(it, space, got);
    /* either a byte was taken, or text waits */
    if (is_end || (n > 0 && taken == 0)) CHECK(space == 0 || count > 0);
  }
}

/* A reader that a call refused refuses each later call. */
static void is_spent(tink_reader *it) {
  size_t taken;
  REFUSES(TINK_FAILED_BEFORE, tink_reader_read, it);
  CHECK(feed(it, out, 1, &taken) == TINK_FAILED_BEFORE && feed(it, out, 0, &taken) == TINK_FAILED_BEFORE);
  CHECK(tink_reader_end(it) == TINK_FAILED_BEFORE);
}

/* A reader whose text was read whole gives no more, and takes no more. */
static void has_ended(tink_reader *it) {
  size_t taken;
  CHECK(tink_reader_end(it) == TINK_OK && tink_reader_read(it, out, ROOM, &written) == TINK_OK && written == 0);
  CHECK(tink_reader_end(it) == TINK_OK && feed(it, out, 1, &taken) == TINK_CLOSED);
  is_spent(it);
}

static void holds_nothing(tink_reader *it) {
  size_t taken;
  REFUSES(TINK_CLOSED, tink_reader_read, it);
  CHECK(feed(it, out, 1, &taken) == TINK_CLOSED && tink_reader_end(it) == TINK_CLOSED);
}

static uint8_t got_bytes[ROOM], opened[ROOM];

/* A stream goes through a new reader as it opens whole: the same status, the text, and before an error a part of the text. */
static tink_status reads(data k, data a, data s, data t, size_of piece, size_of room) {
  size_t len;
  data got = {got_bytes, 0};
  tink_reader it = TINK_NONE;
  CHECK(tink_reader_new(D(k), D(a), &it) == TINK_OK);
  tink_status want = tink_open_stream(D(k), D(s), D(a), opened, ROOM, &len), status = through(&it, s, piece, room, &got);
  CHECK(status == want && got.len <= t.len && memcmp(got.bytes, t.bytes, got.len) == 0);
  CHECK(status != TINK_OK || (got.len == t.len && len == t.len));
  if (status == TINK_OK) has_ended(&it);
  else is_spent(&it);
  tink_reader_free(&it);
  holds_nothing(&it);
  return status;
}

/* No stream that was cut, changed or lengthened goes through. */
static void damaged(data k, data a, data s, data t, size_of piece) {
  data bad = {malloc(s.len + 70), 0};
  for (bad.len = 0; bad.len < s.len; bad.len++) {
    memcpy(bad.bytes, s.bytes, bad.len);
    CHECK(reads(k, a, bad, t, piece, odd) != TINK_OK);
  }
  memcpy(bad.bytes, s.bytes, s.len);
  for (size_t i = 0; i < s.len; i++) {
    uint8_t bit = (uint8_t)(1u << (i % 8));
    bad.bytes[i] ^= bit;
    CHECK(reads(k, a, bad, t, piece, odd) != TINK_OK);
    bad.bytes[i] ^= bit;
  }
  for (; bad.len < s.len + 70; bad.len++) {
    bad.bytes[bad.len] = (uint8_t)(bad.len * 7);
    data longer = {bad.bytes, bad.len + 1};
    CHECK(reads(k, a, longer, t, piece, odd) != TINK_OK);
  }
  free(bad.bytes);
}

/* ---- refused memory */

/* The associated data of the objects that FILLS fills. */
static data beside;

static tink_status fill(const uint8_t *k, size_t n, tink_reader *it) { return tink_reader_new(k, n, D(beside), it); }
static tink_status fill_ranges(const uint8_t *k, size_t n, tink_range_reader *it) { return tink_range_reader_new(k, n, D(beside), it); }

/* A reader that is filled takes no memory. One that is filled again frees what it held, in the middle of its stream. */
static void memory(data k, data a, data s, data t) {
  size_t taken;
  data got = {got_bytes, 0};
  tink_reader it = TINK_NONE;
  holds_nothing(&it);
  beside = a;
  CHECK(tink_reader_new(k.bytes, k.len - 1, D(a), &it) == TINK_BAD_KEYSET && !it.full);
  holds_nothing(&it);
  FILLS(fill, k, &it);
  CHECK(feed(&it, s.bytes, s.len / 2, &taken) == TINK_OK);
  FILLS(fill, k, &it);
  refuse_at = asked = 0;
  CHECK(through(&it, s, odd, all, &got) == TINK_OK && asked == 0);
  refuse_at = -1;
  CHECK(got.len == t.len && memcmp(got.bytes, t.bytes, t.len) == 0);
  REFUSES(TINK_CLOSED, tink_writer_close, (tink_writer *)&it);
  REFUSES(TINK_CLOSED, tink_range_reader_read, (tink_range_reader *)&it, D(s), 0, 1);
  CHECK(tink_reader_end(&it) == TINK_OK);
  tink_reader_free(&it);
  tink_reader_free(&it);
  holds_nothing(&it);
}

/* ---- ranges */

static void ranges(data k, data a, data s, data t) {
  const uint64_t starts[] = {0, 1, t.len / 2, t.len - 1, t.len, t.len + 1, UINT64_MAX}, lengths[] = {0, 1, 7, t.len, UINT64_MAX};
  tink_range_reader it = TINK_NONE;
  REFUSES(TINK_CLOSED, tink_range_reader_read, &it, D(s), 0, 1);
  beside = a;
  CHECK(tink_range_reader_new(k.bytes, k.len - 1, D(a), &it) == TINK_BAD_KEYSET && !it.full);
  FILLS(fill_ranges, k, &it);
  for (size_t i = 0; i < sizeof starts / sizeof *starts; i++)
    for (size_t j = 0; j < sizeof lengths / sizeof *lengths; j++) {
      data want = {t.bytes, 0};
      if (starts[i] < t.len) {
        want.bytes += starts[i], want.len = t.len - (size_t)starts[i];
        if (want.len > lengths[j]) want.len = (size_t)lengths[j];
      }
      GIVES(want, tink_range_reader_read, &it, D(s), starts[i], lengths[j]);
    }
  REFUSES(TINK_CLOSED, tink_writer_close, (tink_writer *)&it);
  holds_nothing((tink_reader *)&it);
  data first = {t.bytes, 1};
  GIVES(first, tink_range_reader_read, &it, D(s), 0, 1);
  tink_range_reader_free(&it);
  REFUSES(TINK_CLOSED, tink_range_reader_read, &it, D(s), 0, 1);
  tink_range_reader_free(&it);
}

/* A range of any bytes is that of tink_read_range, in its status, its length and the whole buffer. */
static void range_of(tink_range_reader *it, data k, data a, data s, uint64_t start, uint64_t length, size_t room) {
  size_t len = 12345;
  prepare();
  memcpy(opened, out, ROOM);
  tink_status want = tink_read_range(D(k), D(s), D(a), start, length, opened, room, &len);
  CHECK(tink_range_reader_read(it, D(s), start, length, out, room, &written) == want && is_declared(want));
  CHECK(written == len && memcmp(out, opened, ROOM) == 0);
}

static void damaged_ranges(data k, data a, data s) {
  data bad = {malloc(s.len + 1), 0};
  tink_range_reader it = TINK_NONE;
  CHECK(tink_range_reader_new(D(k), D(a), &it) == TINK_OK);
  for (; bad.len <= s.len; bad.len++) {
    memcpy(bad.bytes, s.bytes, s.len);
    range_of(&it, k, a, bad, 0, ROOM, ROOM);
    if (bad.len == s.len) continue;
    bad.bytes[bad.len] ^= 64;
    data changed = {bad.bytes, s.len};
    range_of(&it, k, a, changed, bad.len, 3, ROOM);
  }
  tink_range_reader_free(&it);
  free(bad.bytes);
}

/* ---- vectors */

static void both(data k, data a, data s, data t) {
  static const size_of sizes[] = {one, three, odd, all, any};
  data none = {(uint8_t *)"", 0}, other = from_hex("6f74686572");
  for (size_t i = 0; i < 5; i++)
    for (size_t j = 0; j < 5; j++) CHECK(reads(k, a, s, t, sizes[i], sizes[j]) == TINK_OK);
  CHECK(reads(k, other, s, none, odd, all) == TINK_NO_MATCHING_KEY);
  for (size_t i = 0; i < 4; i += 2) damaged(k, a, s, t, sizes[i]);
  memory(k, a, s, t);
  ranges(k, a, s, t);
  damaged_ranges(k, a, s);
  free(other.bytes);
}

static void vectors(const char *path) {
  static char line[8192];
  int count = 0;
  FILE *f = fopen(path, "r");
  CHECK(f != NULL);
  while (fgets(line, sizeof line, f)) {
    data d[6];
    int n = 0, is_stream = strncmp(line, "stream ", 7) == 0;
    if (!is_stream && strncmp(line, "seal ", 5) != 0) continue;
    strtok(line, " \n");
    for (char *word; (word = strtok(NULL, " \n"));) d[n++] = from_hex(word);
    if (is_stream) both(d[0], d[1], d[2], d[3]);
    else both(d[0], d[2], d[4], d[1]);
    while (n) free(d[--n].bytes);
    count++;
  }
  fclose(f);
  CHECK(count >= 6);
}

/* ---- streams of several segments, and keysets of several keys */

static data keyset_of(const char *name, data before) {
  uint8_t random[TINK_RANDOM_KEY];
  const uint8_t *word = (const uint8_t *)name;
  noise(random, sizeof random);
  prepare();
  if (before.len == 0) CHECK(tink_keyset_create(word, strlen(name), false, random, sizeof random, out, ROOM, &written) == TINK_OK);
  else CHECK(tink_keyset_rotate(D(before), word, strlen(name), false, random, sizeof random, out, ROOM, &written) == TINK_OK);
  return kept();
}

static data sealed(data k, data a, data t) {
  uint8_t random[TINK_RANDOM_STREAM];
  noise(random, sizeof random);
  prepare();
  CHECK(tink_seal_stream(D(k), D(t), D(a), random, sizeof random, out, ROOM, &written) == TINK_OK);
  return kept();
}

static data text_of(size_t len) {
  data t = {malloc(len + 1), len};
  noise(t.bytes, len);
  return t;
}

/* The calls of one reader, each with the status that the header says. */
static void steps(data k, data a, data s, data t) {
  size_t taken, at = 0;
  data got = {got_bytes, 0}, none = {t.bytes, 0};
  tink_reader it = TINK_NONE;
  CHECK(tink_reader_new(D(k), D(a), &it) == TINK_OK);
  CHECK(take(&it, 100, &got) == 0 && feed(&it, s.bytes, 0, &taken) == TINK_OK);
  while (got.len == 0) {
    CHECK(feed(&it, s.bytes + at, s.len - at, &taken) == TINK_OK && at + taken < s.len);
    at += taken;
    take(&it, 1, &got);
  }
  /* text waits: no byte is taken, and the end waits too */
  CHECK(feed(&it, s.bytes + at, 10, &taken) == TINK_UNREAD && feed(&it, s.bytes, 0, &taken) == TINK_UNREAD);
  CHECK(take(&it, 0, &got) == 0 && take(&it, 5, &got) == 5 && tink_reader_end(&it) == TINK_UNREAD);
  CHECK(feed(&it, s.bytes + at, 10, &taken) == TINK_UNREAD);
  take(&it, ROOM / 2, &got);
  data rest = {s.bytes + at, s.len - at};
  CHECK(through(&it, rest, all, all, &got) == TINK_OK && got.len == t.len && memcmp(got.bytes, t.bytes, t.len) == 0);
  has_ended(&it);
  /* an end before the end, and an end of nothing */
  got.len = 0;
  data front = {s.bytes, s.len / 2};
  CHECK(tink_reader_new(D(k), D(a), &it) == TINK_OK && through(&it, front, all, all, &got) == TINK_BAD_SEGMENT);
  is_spent(&it);
  CHECK(tink_reader_new(D(k), D(a), &it) == TINK_OK && tink_reader_end(&it) == TINK_NO_MATCHING_KEY);
  is_spent(&it);
  tink_reader_free(&it);
  CHECK(reads(k, a, none, none, one, one) == TINK_NO_MATCHING_KEY);
}

/* Cuts at and around the end of each segment, and a segment that is left out, doubled or exchanged. */
static void segments(data k, data a, data s, data t, size_t size) {
  data bad = {malloc(s.len + size), 0};
  for (size_t end = size; end < s.len; end += size)
    for (bad.len = end - 2; bad.len < end + 20 && bad.len < s.len; bad.len++) {
      memcpy(bad.bytes, s.bytes, bad.len);
      CHECK(reads(k, a, bad, t, odd, all) != TINK_OK);
    }
  memcpy(bad.bytes, s.bytes, size);
  memcpy(bad.bytes + size, s.bytes + 2 * size, bad.len = s.len - 2 * size);
  bad.len += size;
  CHECK(reads(k, a, bad, t, odd, all) == TINK_BAD_SEGMENT);
  memcpy(bad.bytes, s.bytes, 2 * size);
  memcpy(bad.bytes + 2 * size, s.bytes + size, s.len - size);
  bad.len = s.len + size;
  CHECK(reads(k, a, bad, t, odd, all) == TINK_BAD_SEGMENT);
  memcpy(bad.bytes, s.bytes, bad.len = s.len);
  memcpy(bad.bytes + size, s.bytes + 2 * size, size);
  memcpy(bad.bytes + 2 * size, s.bytes + size, size);
  CHECK(reads(k, a, bad, t, odd, all) == TINK_BAD_SEGMENT);
  free(bad.bytes);
}

static void of_several(void) {
  static const char *names[] = {"AES128_GCM_HKDF_4KB", "AES128_CTR_HMAC_SHA256_4KB"};
  static const size_t lengths[] = {0, 1, 4000, 4056, 4064, 4096, 9000, 20000};
  data none = {(uint8_t *)"", 0}, a = from_hex("64617461");
  for (size_t i = 0; i < 2; i++) {
    data k = keyset_of(names[i], none), big = keyset_of("AES256_GCM_HKDF_1MB", k), foreign = keyset_of(names[i], none);
    data ours = keyset_of(names[1 - i], big);
    for (size_t j = 0; j < sizeof lengths / sizeof *lengths; j++) {
      data t = text_of(lengths[j]), s = sealed(k, a, t), l = sealed(big, a, t);
      CHECK(reads(k, a, s, t, odd, all) == TINK_OK && reads(big, a, s, t, odd, all) == TINK_OK);
      CHECK(reads(big, a, l, t, odd, odd) == TINK_OK && reads(ours, a, l, t, all, odd) == TINK_OK);
      CHECK(reads(ours, a, s, t, one, all) == TINK_OK);
      CHECK(reads(foreign, a, s, t, odd, all) == TINK_NO_MATCHING_KEY && reads(k, a, l, t, odd, all) == TINK_NO_MATCHING_KEY);
      CHECK(reads(k, none, s, t, odd, all) == TINK_NO_MATCHING_KEY);
      free(t.bytes), free(s.bytes), free(l.bytes);
    }
    data t = text_of(20000), s = sealed(k, a, t);
    steps(k, a, s, t);
    segments(k, a, s, t, 4096);
    memory(k, a, s, t);
    free(t.bytes), free(s.bytes), free(k.bytes), free(big.bytes), free(ours.bytes), free(foreign.bytes);
  }
  data macs = keyset_of("HMAC_SHA256_128BITTAG", none);
  tink_reader it = TINK_NONE;
  tink_range_reader of = TINK_NONE;
  CHECK(tink_reader_new(D(macs), D(a), &it) == TINK_WRONG_PRIMITIVE && tink_range_reader_new(D(macs), D(a), &of) == TINK_WRONG_PRIMITIVE);
  free(macs.bytes), free(a.bytes);
}

/* ---- random calls */

typedef struct {
  data stream, text;
  tink_status status;
} sample;

/* What is known of a reader: its stream, how much it took and gave, whether it ends, and whether text waits. It may end if
 * an end found text that may have been there before. */
typedef struct {
  const sample *of;
  size_t at, given;
  enum { NOTHING, OPEN, MAY_END, ENDING, SPENT } phase;
  enum { MAY_WAIT, WAITS, WAITS_NOT } waits;
} known;

static const tink_status refusals[] = {TINK_CLOSED, 0, 0, 0, TINK_FAILED_BEFORE};

static void step_feed(tink_reader *it, known *m) {
  size_t taken, n = next() % 3000;
  if (m->phase == NOTHING || m->phase == SPENT) {
    CHECK(feed(it, out, n, &taken) == refusals[m->phase]);
    return;
  }
  if (n > m->of->stream.len - m->at) n = m->of->stream.len - m->at;
  tink_status status = feed(it, m->of->stream.bytes + m->at, n, &taken);
  m->at += taken;
  if (status == TINK_UNREAD) {
    CHECK(m->waits != WAITS_NOT);
    m->waits = WAITS;
    return;
  }
  CHECK(m->waits != WAITS);
  m->waits = n > 0 && taken == 0 ? WAITS : MAY_WAIT;
  if (status == TINK_OK) {
    CHECK(m->phase != ENDING);
    m->phase = OPEN;
    return;
  }
  CHECK((m->phase != OPEN && status == TINK_CLOSED) || (m->phase != ENDING && status == m->of->status));
  m->phase = SPENT;
}

static void step_read(tink_reader *it, known *m) {
  size_t room = next() % 3 == 0 ? next() % 3 : next() % 5000;
  if (m->phase == NOTHING || m->phase == SPENT) {
    REFUSES(refusals[m->phase], tink_reader_read, it);
    return;
  }
  data got = {got_bytes, 0};
  size_t count = take(it, room, &got);
  CHECK(room == 0 || m->waits == MAY_WAIT || (m->waits == WAITS) == (count > 0));
  CHECK(m->given + count <= m->of->text.len && memcmp(got.bytes, m->of->text.bytes + m->given, count) == 0);
  m->given += count;
  if (count < room) m->waits = WAITS_NOT;
  else if (room > 0) m->waits = MAY_WAIT;
}

static void step_end(tink_reader *it, known *m) {
  tink_status status = tink_reader_end(it);
  int is_whole = m->at == m->of->stream.len;
  if (m->phase == NOTHING || m->phase == SPENT) {
    CHECK(status == refusals[m->phase]);
    return;
  }
  if (status == TINK_UNREAD) {
    if (m->waits == WAITS_NOT) m->phase = ENDING;
    if (m->waits == MAY_WAIT && m->phase == OPEN) m->phase = MAY_END;
    m->waits = WAITS;
    return;
  }
  CHECK(m->waits != WAITS);
  if (status == TINK_OK) {
    CHECK(is_whole && m->of->status == TINK_OK && m->given == m->of->text.len);
    m->phase = ENDING, m->waits = WAITS_NOT;
    return;
  }
  CHECK(is_whole ? status == m->of->status : is_declared(status) && status != TINK_CLOSED && status != TINK_FAILED_BEFORE);
  m->phase = SPENT;
}

static void step(tink_reader *it, known *m, data k, data a, const sample *samples, size_t count) {
  uint64_t what = next() % 64;
  if (what == 0) {
    tink_reader_free(it);
    m->phase = NOTHING;
  } else if (what == 1) {
    CHECK(tink_reader_new(k.bytes, k.len - 1, D(a), it) == TINK_BAD_KEYSET);
  } else if (what < 8 && (what < 4 || m->phase == NOTHING || m->phase == SPENT)) {
    CHECK(tink_reader_new(D(k), D(a), it) == TINK_OK);
    *m = (known){samples + next() % count, 0, 0, OPEN, WAITS_NOT};
  } else if (what < 36) {
    step_read(it, m);
  } else if (what < 60 || (m->phase == OPEN && m->at < m->of->stream.len && what < 63)) {
    step_feed(it, m);
  } else {
    step_end(it, m);
  }
}

/* Streams that open, and as many that do not: cut, changed and lengthened. */
static size_t make_samples(data k, data a, sample *samples) {
  static const size_t lengths[] = {0, 10, 5000, 9000, 12000};
  size_t count = 0, len;
  for (int how = 0; how < 4; how++)
    for (size_t i = 0; i < sizeof lengths / sizeof *lengths; i++) {
      data t = text_of(lengths[i]), s = sealed(k, a, t);
      if (how == 1) s.len -= s.len > 9000 ? s.len % 4096 : 1 + next() % (s.len - 1);
      if (how == 2) s.bytes[next() % s.len] ^= 1;
      if (how == 3) s.bytes = realloc(s.bytes, s.len + 9), memset(s.bytes + s.len, 7, 9), s.len += 9;
      tink_status status = tink_open_stream(D(k), D(s), D(a), opened, ROOM, &len);
      CHECK((status == TINK_OK) == (how == 0));
      samples[count++] = (sample){s, t, status};
    }
  return count;
}

/* Three readers of those streams, and a reader of ranges. */
static void random_calls(int rounds) {
  static sample samples[32];
  data none = {(uint8_t *)"", 0}, a = from_hex("64617461"), k = keyset_of("AES128_GCM_HKDF_4KB", none);
  size_t count = make_samples(k, a, samples);
  tink_reader its[3] = {TINK_NONE, TINK_NONE, TINK_NONE};
  known models[3] = {{samples, 0, 0, NOTHING, MAY_WAIT}, {samples, 0, 0, NOTHING, MAY_WAIT}, {samples, 0, 0, NOTHING, MAY_WAIT}};
  tink_range_reader of = TINK_NONE;
  CHECK(tink_range_reader_new(D(k), D(a), &of) == TINK_OK);
  for (int i = 0; i < 3 * rounds; i++) {
    size_t which = next() % 3;
    step(&its[which], &models[which], k, a, samples, count);
    if (i % 8 == 0) range_of(&of, k, a, samples[next() % count].stream, next() % 13000, next() % 6000, next() % 3000);
    if (i % 1000 == 0) CHECK(tink_range_reader_new(D(k), D(a), &of) == TINK_OK);
  }
  for (size_t i = 0; i < 3; i++) tink_reader_free(&its[i]);
  while (count) count--, free(samples[count].stream.bytes), free(samples[count].text.bytes);
  tink_range_reader_free(&of);
  free(a.bytes), free(k.bytes);
}

/* Texts of random lengths in random pieces, as they are and damaged. */
static void random_streams(int rounds) {
  data none = {(uint8_t *)"", 0}, a = from_hex("ff"), k = keyset_of("AES128_CTR_HMAC_SHA256_4KB", none);
  for (int i = 0; i < rounds; i++) {
    data t = text_of(next() % 20000), s = sealed(k, a, t);
    CHECK(reads(k, a, s, t, any, any) == TINK_OK);
    s.bytes[next() % s.len] ^= (uint8_t)(1u << (next() % 8));
    CHECK(reads(k, a, s, t, any, any) != TINK_OK);
    s.len = next() % s.len;
    CHECK(reads(k, a, s, t, any, any) != TINK_OK);
    free(t.bytes), free(s.bytes);
  }
  free(a.bytes), free(k.bytes);
}

/* ---- threads */

typedef struct {
  data k, s, t;
} work;

static void *thread(void *word) {
  const work *w = word;
  data got = {malloc(ROOM), 0};
  size_t taken, at, count;
  tink_reader it = TINK_NONE;
  tink_range_reader of = TINK_NONE;
  if (tink_range_reader_new(D(w->k), D(w->t), &of) != TINK_OK) return word;
  for (int i = 0; i < 30; i++) {
    if (tink_reader_new(D(w->k), D(w->t), &it) != TINK_OK) return word;
    for (at = got.len = 0; at < w->s.len; at += taken) {
      if (tink_reader_feed(&it, w->s.bytes + at, w->s.len - at, &taken) != TINK_OK) return word;
      if (tink_reader_read(&it, got.bytes + got.len, ROOM - got.len, &count) != TINK_OK) return word;
      got.len += count;
    }
    while (tink_reader_end(&it) == TINK_UNREAD) {
      if (tink_reader_read(&it, got.bytes + got.len, ROOM - got.len, &count) != TINK_OK) return word;
      got.len += count;
    }
    if (tink_reader_end(&it) != TINK_OK || got.len != w->t.len || memcmp(got.bytes, w->t.bytes, got.len) != 0) return word;
    if (tink_range_reader_read(&of, D(w->s), 5000, 100, got.bytes, 100, &count) != TINK_OK) return word;
    if (count != 100 || memcmp(got.bytes, w->t.bytes + 5000, 100) != 0) return word;
  }
  tink_reader_free(&it);
  tink_range_reader_free(&of);
  free(got.bytes);
  return NULL;
}

static void threads(void) {
  pthread_t a, b;
  void *x, *y;
  data none = {(uint8_t *)"", 0};
  work w = {keyset_of("AES128_GCM_HKDF_4KB", none), none, text_of(9000)};
  w.s = sealed(w.k, w.t, w.t);
  CHECK(pthread_create(&a, NULL, thread, &w) == 0 && pthread_create(&b, NULL, thread, &w) == 0);
  CHECK(pthread_join(a, &x) == 0 && pthread_join(b, &y) == 0);
  CHECK(x == NULL && y == NULL);
  free(w.k.bytes), free(w.s.bytes), free(w.t.bytes);
}

int main(int argc, char **argv) {
  if (argc < 3 || argc > 4) return 2;
  state = strtoull(argv[2], NULL, 10) * 2 + 1;
  noise(behind, sizeof behind);
  vectors(argv[1]);
  of_several();
  threads();
  random_calls(argc == 4 ? atoi(argv[3]) : 64);
  random_streams(argc == 4 ? atoi(argv[3]) / 16 + 1 : 64);
  printf("C, readers: %lu checks\n", checks);
  return 0;
}
