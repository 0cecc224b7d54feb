/* The calls of libtink from C: vectors, errors that leave the buffer, refused memory, two threads and a loop of random
 * calls. The words are the file of vectors, a seed, and the rounds of the loop. */
#include <sys/mman.h>
#include "checks.h"

static void aead(data k, data p, data a, data r, data c) {
  GIVES(c, tink_encrypt, D(k), D(p), D(a), D(r));
  GIVES(p, tink_decrypt, D(k), D(c), D(a));
  REFUSES(TINK_DECRYPT_FAILED, tink_decrypt, D(k), c.bytes, c.len - 1, D(a));
  REFUSES(TINK_RANDOM_FAULT, tink_encrypt, D(k), D(p), D(a), r.bytes, r.len - 1);
  REFUSES(TINK_BAD_KEYSET, tink_decrypt, k.bytes, k.len - 1, D(c), D(a));
  /* the same by an object, and none by one that holds nothing or another primitive */
  tink_aead it = TINK_NONE;
  REFUSES(TINK_CLOSED, tink_aead_encrypt, &it, D(p), D(a), D(r));
  REFUSES(TINK_CLOSED, tink_aead_decrypt, &it, D(c), D(a));
  CHECK(tink_aead_new(k.bytes, k.len - 1, &it) == TINK_BAD_KEYSET && !it.full);
  FILLS(tink_aead_new, k, &it);
  GIVES(c, tink_aead_encrypt, &it, D(p), D(a), D(r));
  GIVES(p, tink_aead_decrypt, &it, D(c), D(a));
  REFUSES(TINK_DECRYPT_FAILED, tink_aead_decrypt, &it, c.bytes, c.len - 1, D(a));
  REFUSES(TINK_RANDOM_FAULT, tink_aead_encrypt, &it, D(p), D(a), r.bytes, r.len - 1);
  REFUSES(TINK_CLOSED, tink_mac_compute, (tink_mac *)&it, D(p));
  FILLS(tink_aead_new, k, &it);
  GIVES(p, tink_aead_decrypt, &it, D(c), D(a));
  tink_aead_free(&it);
  REFUSES(TINK_CLOSED, tink_aead_decrypt, &it, D(c), D(a));
  tink_aead_free(&it);
}

static void daead(data k, data p, data a, data c) {
  GIVES(c, tink_encrypt_deterministically, D(k), D(p), D(a));
  GIVES(p, tink_decrypt_deterministically, D(k), D(c), D(a));
  tink_daead it = TINK_NONE;
  REFUSES(TINK_CLOSED, tink_daead_encrypt, &it, D(p), D(a));
  REFUSES(TINK_CLOSED, tink_daead_decrypt, &it, D(c), D(a));
  FILLS(tink_daead_new, k, &it);
  GIVES(c, tink_daead_encrypt, &it, D(p), D(a));
  GIVES(p, tink_daead_decrypt, &it, D(c), D(a));
  REFUSES(TINK_DECRYPT_FAILED, tink_daead_decrypt, &it, c.bytes, c.len - 1, D(a));
  REFUSES(TINK_CLOSED, tink_aead_decrypt, (tink_aead *)&it, D(c), D(a));
  tink_daead_free(&it);
  REFUSES(TINK_CLOSED, tink_daead_encrypt, &it, D(p), D(a));
  tink_daead_free(&it);
}

static void mac(data k, data m, data t) {
  GIVES(t, tink_compute_mac, D(k), D(m));
  CHECK(tink_verify_mac(D(k), D(t), D(m)) == TINK_OK);
  CHECK(tink_verify_mac(D(k), t.bytes, t.len - 1, D(m)) == TINK_MAC_MISMATCH);
  tink_mac it = TINK_NONE;
  REFUSES(TINK_CLOSED, tink_mac_compute, &it, D(m));
  CHECK(tink_mac_verify(&it, D(t), D(m)) == TINK_CLOSED);
  FILLS(tink_mac_new, k, &it);
  GIVES(t, tink_mac_compute, &it, D(m));
  CHECK(tink_mac_verify(&it, D(t), D(m)) == TINK_OK);
  CHECK(tink_mac_verify(&it, t.bytes, t.len - 1, D(m)) == TINK_MAC_MISMATCH);
  REFUSES(TINK_CLOSED, tink_prf_compute, (tink_prf *)&it, D(m), (size_t)1);
  tink_mac_free(&it);
  CHECK(tink_mac_verify(&it, D(t), D(m)) == TINK_CLOSED);
  tink_mac_free(&it);
}

static void prf(data k, data i, data o) {
  GIVES(o, tink_compute_prf, D(k), D(i), o.len);
  REFUSES(TINK_BAD_OUTPUT_LENGTH, tink_compute_prf, D(k), D(i), (size_t)1 << 20);
  tink_prf it = TINK_NONE;
  REFUSES(TINK_CLOSED, tink_prf_compute, &it, D(i), o.len);
  FILLS(tink_prf_new, k, &it);
  GIVES(o, tink_prf_compute, &it, D(i), o.len);
  REFUSES(TINK_BAD_OUTPUT_LENGTH, tink_prf_compute, &it, D(i), SIZE_MAX);
  REFUSES(TINK_CLOSED, tink_daead_encrypt, (tink_daead *)&it, D(i), D(i));
  tink_prf_free(&it);
  REFUSES(TINK_CLOSED, tink_prf_compute, &it, D(i), o.len);
  tink_prf_free(&it);
}

static void token(data k, data t, data p) {
  GIVES(t, tink_sign_token, D(k), D(p));
  GIVES(p, tink_verify_token, D(k), D(t));
  REFUSES(TINK_BAD_TOKEN, tink_verify_token, D(k), D(p));
  tink_signer it = TINK_NONE;
  REFUSES(TINK_CLOSED, tink_signer_sign, &it, D(p));
  REFUSES(TINK_CLOSED, tink_signer_verify, &it, D(t));
  FILLS(tink_signer_new, k, &it);
  GIVES(t, tink_signer_sign, &it, D(p));
  GIVES(p, tink_signer_verify, &it, D(t));
  REFUSES(TINK_BAD_TOKEN, tink_signer_verify, &it, D(p));
  tink_signer_free(&it);
  REFUSES(TINK_CLOSED, tink_signer_verify, &it, D(t));
  tink_signer_free(&it);
}

static void stream(data k, data a, data s, data t) {
  GIVES(t, tink_open_stream, D(k), D(s), D(a));
  /* Cut in its first segment a stream opens under no key, and later a segment is wrong. */
  REFUSES(TINK_NO_MATCHING_KEY, tink_open_stream, D(k), s.bytes, 1, D(a));
  prepare();
  tink_status cut = tink_open_stream(D(k), s.bytes, s.len - 1, D(a), out, ROOM, &written);
  CHECK(cut == TINK_NO_MATCHING_KEY || cut == TINK_BAD_SEGMENT || cut == TINK_TRUNCATED);
  CHECK(untouched() && written == 0);
  data first = {t.bytes, 1};
  GIVES(first, tink_read_range, D(k), D(s), D(a), 0, 1);
  data none = {t.bytes, 0};
  GIVES(none, tink_read_range, D(k), D(s), D(a), t.len, 10);
}

/* A call of a writer with exactly the room that it needs, and first with a byte less. What it gave goes behind the rest. */
#define PUTS(sum, name, ...)                                              \
  do {                                                                    \
    size_t needed_;                                                       \
    prepare();                                                            \
    tink_status status_ = name(__VA_ARGS__, out, 0, &needed_);            \
    CHECK(status_ == (needed_ ? TINK_TOO_LITTLE_ROOM : TINK_OK) && untouched()); \
    if (needed_ == 0) break;                                              \
    CHECK(name(__VA_ARGS__, out, needed_ - 1, &written) == TINK_TOO_LITTLE_ROOM && written == needed_ && untouched()); \
    CHECK(needed_ <= most);                                               \
    uint8_t *exact_ = malloc(needed_);                                    \
    CHECK(name(__VA_ARGS__, exact_, needed_, &written) == TINK_OK && written == needed_); \
    CHECK((sum).len + needed_ <= ROOM);                                   \
    memcpy((sum).bytes + (sum).len, exact_, needed_);                     \
    (sum).len += needed_;                                                 \
    free(exact_);                                                         \
  } while (0)

/* A text in pieces of a length gives the same stream. */
static void pieces(data k, data t, data a, data r, data s, size_t length) {
  static uint8_t place[ROOM];
  data sum = {place, 0};
  size_t most;
  tink_writer it = TINK_NONE;
  CHECK(tink_writer_new(D(k), D(a), D(r), &it) == TINK_OK);
  for (size_t at = 0; at < t.len; at += length) {
    size_t n = t.len - at < length ? t.len - at : length;
    CHECK(tink_writer_bound(&it, n, &most) == TINK_OK);
    PUTS(sum, tink_writer_write, &it, t.bytes + at, n);
  }
  CHECK(tink_writer_bound(&it, 0, &most) == TINK_OK);
  PUTS(sum, tink_writer_close, &it);
  CHECK(sum.len == s.len && memcmp(sum.bytes, s.bytes, s.len) == 0);
  REFUSES(TINK_CLOSED, tink_writer_write, &it, D(t));
  REFUSES(TINK_CLOSED, tink_writer_close, &it);
  CHECK(tink_writer_bound(&it, 1, &most) == TINK_CLOSED && most == 0);
  tink_writer_free(&it);
}

static void writer(data k, data t, data a, data r, data s) {
  static const size_t lengths[] = {1, 7, 4096, ROOM};
  size_t most;
  tink_writer it = TINK_NONE;
  REFUSES(TINK_CLOSED, tink_writer_write, &it, D(t));
  REFUSES(TINK_CLOSED, tink_writer_close, &it);
  CHECK(tink_writer_new(D(k), D(a), r.bytes, 3, &it) == TINK_RANDOM_FAULT && !it.full);
  CHECK(tink_writer_new(k.bytes, k.len - 1, D(a), D(r), &it) == TINK_BAD_KEYSET && !it.full);
  for (refuse_at = 0;; refuse_at++) {
    asked = 0;
    tink_status status = tink_writer_new(D(k), D(a), D(r), &it);
    if (status == TINK_OK && asked <= refuse_at) break;
    CHECK(status == TINK_OK || status == TINK_OUT_OF_MEMORY);
  }
  /* no call with a writer takes memory */
  refuse_at = asked = 0;
  CHECK(tink_writer_bound(&it, 10, &most) == TINK_OK && most >= 10);
  CHECK(tink_writer_write(&it, t.bytes, t.len < 10 ? t.len : 10, out, ROOM, &written) == TINK_OK && asked == 0);
  refuse_at = -1;
  CHECK(tink_writer_bound(&it, SIZE_MAX, &most) == TINK_TOO_MANY_SEGMENTS && most == 0);
  REFUSES(TINK_CLOSED, tink_aead_encrypt, (tink_aead *)&it, D(t), D(a), D(r));
  tink_writer_free(&it);
  REFUSES(TINK_CLOSED, tink_writer_close, &it);
  for (size_t i = 0; i < sizeof lengths / sizeof *lengths; i++) pieces(k, t, a, r, s, lengths[i]);
}

static void seal(data k, data t, data a, data r, data s) {
  writer(k, t, a, r, s);
  GIVES(s, tink_seal_stream, D(k), D(t), D(a), D(r));
  GIVES(t, tink_open_stream, D(k), D(s), D(a));
  GIVES(s, tink_rewrap_stream, D(k), D(a), D(k), D(a), D(s), D(r));
  REFUSES(TINK_RANDOM_FAULT, tink_seal_stream, D(k), D(t), D(a), r.bytes, 3);
  REFUSES(TINK_BAD_KEYSET, tink_seal_stream, k.bytes, k.len - 1, D(t), D(a), D(r));
}

/* The id of the second key of a keyset. */
static uint32_t second_id(data k) {
  prepare();
  CHECK(tink_keyset_list(D(k), out, ROOM, &written) == TINK_OK);
  return (uint32_t)strtoul(strchr((char *)out, '\n') + 1, NULL, 10);
}

static void create(data t, data r, data k) {
  GIVES(k, tink_keyset_create, D(t), false, D(r));
  REFUSES(TINK_UNKNOWN_TEMPLATE, tink_keyset_create, t.bytes, t.len - 1, false, D(r));
  REFUSES(TINK_UNKNOWN_TEMPLATE, tink_keyset_create, (const uint8_t *)"\xff", 1, false, D(r));
  REFUSES(TINK_RANDOM_FAULT, tink_keyset_create, D(t), false, r.bytes, 3);
  /* to JSON and back, listed, rotated and edited */
  prepare();
  CHECK(tink_keyset_convert(D(k), true, out, ROOM, &written) == TINK_OK && out[0] == '{');
  data json = kept();
  GIVES(k, tink_keyset_convert, D(json), false);
  prepare();
  CHECK(tink_keyset_list(D(json), out, ROOM, &written) == TINK_OK && out[written - 1] == '\n');
  uint32_t id = (uint32_t)strtoul((char *)out, NULL, 10);
  REFUSES(TINK_IS_PRIMARY, tink_keyset_disable, D(k), id);
  REFUSES(TINK_KEY_NOT_FOUND, tink_keyset_delete, D(k), id ^ 1);
  prepare();
  CHECK(tink_keyset_rotate(D(k), D(t), false, r.bytes + 200, 300, out, ROOM, &written) == TINK_OK);
  data two = kept();
  prepare();
  CHECK(tink_keyset_disable(D(two), id, out, ROOM, &written) == TINK_OK);
  data off = kept();
  REFUSES(TINK_WRONG_KEY_STATUS, tink_keyset_promote, D(off), id);
  GIVES(two, tink_keyset_enable, D(off), id);
  /* promoted, destroyed and deleted; a key is added, and rotated under another primitive */
  prepare();
  CHECK(tink_keyset_promote(D(two), id, out, ROOM, &written) == TINK_OK);
  data back = kept();
  REFUSES(TINK_IS_PRIMARY, tink_keyset_destroy, D(back), id);
  prepare();
  CHECK(tink_keyset_destroy(D(off), id, out, ROOM, &written) == TINK_OK);
  data gone = kept();
  REFUSES(TINK_WRONG_KEY_STATUS, tink_keyset_enable, D(gone), id);
  prepare();
  CHECK(tink_keyset_delete(D(gone), id, out, ROOM, &written) == TINK_OK);
  data one = kept();
  REFUSES(TINK_KEY_NOT_FOUND, tink_keyset_enable, D(one), id);
  prepare();
  CHECK(tink_keyset_add(D(k), D(t), r.bytes + 200, 300, out, ROOM, &written) == TINK_OK);
  data added = kept();
  uint32_t second = second_id(added);
  GIVES(two, tink_keyset_promote, D(added), second);
  const char *other = memcmp(t.bytes, "HMAC", 4) == 0 ? "AES128_GCM" : "HMAC_SHA256_128BITTAG";
  REFUSES(TINK_WRONG_PRIMITIVE, tink_keyset_rotate, D(k), (const uint8_t *)other, strlen(other), false, D(r));
  prepare();
  CHECK(tink_keyset_rotate(D(k), (const uint8_t *)other, strlen(other), true, D(r), out, ROOM, &written) == TINK_OK);
  prepare();
  CHECK(tink_keyset_list_json(D(two), out, ROOM, &written) == TINK_OK && out[0] == '[');
  /* under a master and back */
  prepare();
  CHECK(tink_keyset_create((const uint8_t *)"AES128_GCM", 10, true, D(r), out, ROOM, &written) == TINK_OK);
  data master = kept();
  prepare();
  CHECK(tink_keyset_wrap(D(master), D(k), D(t), true, D(r), out, ROOM, &written) == TINK_OK);
  data wrapped = kept();
  GIVES(wrapped, tink_keyset_wrap, D(master), D(k), D(t), true, D(r));
  GIVES(k, tink_keyset_unwrap, D(master), D(wrapped), D(t), false);
  REFUSES(TINK_MASTER_FAILED, tink_keyset_unwrap, D(master), D(wrapped), t.bytes, t.len - 1, false);
  REFUSES(TINK_RANDOM_FAULT, tink_keyset_wrap, D(master), D(k), D(t), true, r.bytes, 3);
  free(json.bytes), free(two.bytes), free(off.bytes), free(back.bytes), free(gone.bytes), free(one.bytes);
  free(added.bytes), free(master.bytes), free(wrapped.bytes);
}

static void vectors(const char *path) {
  static char line[8192];
  FILE *f = fopen(path, "r");
  CHECK(f != NULL);
  while (fgets(line, sizeof line, f)) {
    if (line[0] == '#' || line[0] == '\n') continue;
    data d[6];
    int n = 0;
    char *kind = strtok(line, " \n"), *word;
    while ((word = strtok(NULL, " \n"))) d[n++] = from_hex(word);
    if (!strcmp(kind, "aead")) aead(d[0], d[1], d[2], d[3], d[4]);
    else if (!strcmp(kind, "daead")) daead(d[0], d[1], d[2], d[3]);
    else if (!strcmp(kind, "mac")) mac(d[0], d[1], d[2]);
    else if (!strcmp(kind, "prf")) prf(d[0], d[1], d[2]);
    else if (!strcmp(kind, "token")) token(d[0], d[1], d[2]);
    else if (!strcmp(kind, "stream")) stream(d[0], d[1], d[2], d[3]);
    else if (!strcmp(kind, "seal")) seal(d[0], d[1], d[2], d[3], d[4]);
    else if (!strcmp(kind, "create")) create(d[0], d[1], d[2]);
    else fail(kind, __LINE__);
    while (n) free(d[--n].bytes);
  }
  fclose(f);
}

/* ---- edges of what the header allows */

/* A file of keys that is cut or changed at any place is refused, or is another keyset; nothing is read outside of it. */
static void damaged(data k, data c, data a) {
  for (size_t i = 0; i < k.len; i++) {
    data cut = {malloc(i), i};
    memcpy(cut.bytes, k.bytes, i);
    prepare();
    tink_status status = tink_decrypt(D(cut), D(c), D(a), out, ROOM, &written);
    CHECK(status != TINK_OK && is_declared(status) && untouched() && written == 0);
    free(cut.bytes);
    for (int bit = 0; bit < 8; bit++) {
      k.bytes[i] ^= (uint8_t)(1 << bit);
      prepare();
      status = tink_decrypt(D(k), D(c), D(a), out, ROOM, &written);
      CHECK(is_declared(status) && (status == TINK_OK || (untouched() && written == 0)));
      status = tink_keyset_convert(D(k), true, out, ROOM, &written);
      CHECK(is_declared(status) && (status == TINK_OK || written == 0));
      k.bytes[i] ^= (uint8_t)(1 << bit);
    }
  }
}

static void edges(void) {
  uint8_t random[TINK_RANDOM_KEY], place[512], none = 0;
  for (size_t i = 0; i < sizeof random; i++) random[i] = (uint8_t)(i * 13 + 1);
  data r = {random, TINK_RANDOM_ENCRYPT}, empty = {&none, 0};
  prepare();
  CHECK(tink_keyset_create((const uint8_t *)"AES128_GCM", 10, false, random, sizeof random, out, ROOM, &written) == TINK_OK);
  data k = kept();
  /* an empty plaintext, whose output needs no room */
  prepare();
  CHECK(tink_encrypt(D(k), D(empty), D(empty), D(r), out, ROOM, &written) == TINK_OK);
  data c = kept();
  GIVES(empty, tink_decrypt, D(k), D(c), D(empty));
  REFUSES(TINK_DECRYPT_FAILED, tink_decrypt, D(k), D(empty), D(empty));
  REFUSES(TINK_INVALID_KEYSET, tink_decrypt, D(empty), D(c), D(empty));
  REFUSES(TINK_UNKNOWN_TEMPLATE, tink_keyset_create, D(empty), true, D(r));
  damaged(k, c, empty);
  free(c.bytes);
  /* the same memory as each input, at an odd address */
  data odd = {place + 1, k.len};
  memcpy(odd.bytes, k.bytes, k.len);
  prepare();
  CHECK(tink_encrypt(D(odd), D(odd), D(odd), D(odd), out + 1, ROOM - 1, &written) == TINK_OK);
  data same = {malloc(written), written};
  memcpy(same.bytes, out + 1, written);
  GIVES(odd, tink_decrypt, D(k), D(same), D(k));
  free(same.bytes), free(k.bytes);
  /* the largest numbers, and a stream with a damaged segment between */
  prepare();
  CHECK(tink_keyset_create((const uint8_t *)"HKDF_SHA256", 11, false, random, sizeof random, out, ROOM, &written) == TINK_OK);
  data f = kept();
  REFUSES(TINK_BAD_OUTPUT_LENGTH, tink_compute_prf, D(f), D(r), SIZE_MAX);
  free(f.bytes);
  prepare();
  CHECK(tink_keyset_create((const uint8_t *)"AES128_GCM_HKDF_4KB", 19, false, random, sizeof random, out, ROOM, &written) == TINK_OK);
  data s = kept(), text = {calloc(20000, 1), 20000};
  prepare();
  CHECK(tink_seal_stream(D(s), D(text), D(empty), random, TINK_RANDOM_STREAM, out, ROOM, &written) == TINK_OK);
  data sealed = kept();
  GIVES(empty, tink_read_range, D(s), D(sealed), D(empty), UINT64_MAX, UINT64_MAX);
  GIVES(empty, tink_read_range, D(s), D(sealed), D(empty), 5, 0);
  GIVES(text, tink_read_range, D(s), D(sealed), D(empty), 0, UINT64_MAX);
  sealed.bytes[9000] ^= 1;
  data ten = {text.bytes, 10};
  GIVES(ten, tink_read_range, D(s), D(sealed), D(empty), 0, 10);
  GIVES(ten, tink_read_range, D(s), D(sealed), D(empty), 19990, UINT64_MAX);
  REFUSES(TINK_BAD_SEGMENT, tink_read_range, D(s), D(sealed), D(empty), 9000, 10);
  REFUSES(TINK_BAD_SEGMENT, tink_open_stream, D(s), D(sealed), D(empty));
  free(s.bytes), free(text.bytes), free(sealed.bytes);
}

/* ---- random calls */

/* Values go there and back under a keyset that is rotated on the way, and damaged ones are refused. */
static void loop(int rounds) {
  uint8_t random[TINK_RANDOM_KEY], keyset[4096], text[512], sealed[1024], opened[1024];
  size_t kn, sn, on;
  noise(random, sizeof random);
  CHECK(tink_keyset_create((const uint8_t *)"AES128_GCM", 10, next() & 1, random, sizeof random, keyset, sizeof keyset, &kn) == TINK_OK);
  for (int i = 0; i < rounds; i++) {
    size_t tn = next() % sizeof text;
    noise(text, tn);
    noise(random, sizeof random);
    CHECK(tink_encrypt(keyset, kn, text, tn, random, 3, random, TINK_RANDOM_ENCRYPT, sealed, sizeof sealed, &sn) == TINK_OK);
    if (i % 16 == 0 && kn < 3000) {
      noise(random + 16, sizeof random - 16);
      CHECK(tink_keyset_rotate(keyset, kn, (const uint8_t *)"AES128_GCM", 10, false, random + 16, sizeof random - 16, out, ROOM, &written) == TINK_OK);
      memcpy(keyset, out, kn = written);
    }
    CHECK(tink_decrypt(keyset, kn, sealed, sn, random, 3, opened, sizeof opened, &on) == TINK_OK && on == tn && memcmp(opened, text, tn) == 0);
    sealed[next() % sn] ^= (uint8_t)(1u << (next() % 8));
    memset(opened, 170, sizeof opened);
    CHECK(tink_decrypt(keyset, kn, sealed, sn, random, 3, opened, sizeof opened, &on) == TINK_DECRYPT_FAILED && on == 0);
    for (size_t j = 0; j < sizeof opened; j++) CHECK(opened[j] == 170);
  }
}

/* Random calls with three objects: each holds the keys that filled it last, until it is freed. */
static void objects(int rounds) {
  uint8_t random[TINK_RANDOM_KEY], keysets[2][1024], text[64], sealed[256], opened[256];
  size_t kn[2], sn, on;
  tink_aead its[3] = {TINK_NONE, TINK_NONE, TINK_NONE};
  int held[3] = {-1, -1, -1};
  for (int of = 0; of < 2; of++) {
    noise(random, sizeof random);
    CHECK(tink_keyset_create((const uint8_t *)"AES128_GCM", 10, false, random, sizeof random, keysets[of], sizeof keysets[of], &kn[of]) == TINK_OK);
  }
  for (int i = 0; i < rounds; i++) {
    int at = (int)(next() % 3), of = (int)(next() % 2), what = (int)(next() % 8);
    noise(text, sizeof text);
    noise(random, sizeof random);
    if (what == 0) {
      CHECK(tink_aead_new(keysets[of], kn[of], &its[at]) == TINK_OK);
      held[at] = of;
    } else if (what == 1) {
      tink_aead_free(&its[at]);
      held[at] = -1;
    } else if (what == 2) {
      CHECK(tink_aead_new(keysets[of], kn[of] - 1, &its[at]) == TINK_BAD_KEYSET);
    } else if (held[at] < 0) {
      CHECK(tink_aead_encrypt(&its[at], text, sizeof text, random, 3, random, TINK_RANDOM_ENCRYPT, sealed, sizeof sealed, &sn) == TINK_CLOSED && sn == 0);
    } else {
      CHECK(tink_aead_encrypt(&its[at], text, sizeof text, random, 3, random, TINK_RANDOM_ENCRYPT, sealed, sizeof sealed, &sn) == TINK_OK);
      CHECK(tink_decrypt(keysets[held[at]], kn[held[at]], sealed, sn, random, 3, opened, sizeof opened, &on) == TINK_OK);
      CHECK(on == sizeof text && memcmp(opened, text, on) == 0);
      CHECK(tink_aead_decrypt(&its[at], sealed, sn, random, 3, opened, sizeof opened, &on) == TINK_OK);
      CHECK(on == sizeof text && memcmp(opened, text, on) == 0);
      sealed[next() % sn] ^= (uint8_t)(1u << (next() % 8));
      CHECK(tink_aead_decrypt(&its[at], sealed, sn, random, 3, opened, sizeof opened, &on) == TINK_DECRYPT_FAILED && on == 0);
    }
  }
  for (int at = 0; at < 3; at++) tink_aead_free(&its[at]);
}

/* A text of more than 2^32 segments, of which no byte is read, spends a writer. A checker of memory may not give its memory. */
static void too_long(void) {
  uint8_t random[TINK_RANDOM_KEY];
  size_t most, long_one = (size_t)1 << 45;
  uint8_t *text = mmap(NULL, long_one, PROT_NONE, MAP_PRIVATE | MAP_ANONYMOUS | MAP_NORESERVE, -1, 0);
  if (text == MAP_FAILED) return;
  noise(random, sizeof random);
  prepare();
  CHECK(tink_keyset_create((const uint8_t *)"AES128_GCM_HKDF_4KB", 19, false, random, sizeof random, out, ROOM, &written) == TINK_OK);
  data k = kept();
  tink_writer it = TINK_NONE;
  CHECK(tink_writer_new(D(k), random, 1, random, TINK_RANDOM_STREAM, &it) == TINK_OK);
  CHECK(tink_writer_bound(&it, long_one, &most) == TINK_TOO_MANY_SEGMENTS && most == 0);
  CHECK(tink_writer_bound(&it, long_one / 4, &most) == TINK_OK && most > long_one / 4);
  REFUSES(TINK_TOO_MANY_SEGMENTS, tink_writer_write, &it, text, long_one);
  REFUSES(TINK_FAILED_BEFORE, tink_writer_write, &it, random, (size_t)1);
  REFUSES(TINK_FAILED_BEFORE, tink_writer_close, &it);
  CHECK(tink_writer_bound(&it, 1, &most) == TINK_FAILED_BEFORE && most == 0);
  tink_writer_free(&it);
  munmap(text, long_one);
  free(k.bytes);
}

/* Texts in random pieces, whose streams open whole, and not without the output of the close. */
static void written_in_pieces(int rounds) {
  uint8_t random[TINK_RANDOM_KEY], keyset[1024];
  static uint8_t text[20000], sum[ROOM], opened[ROOM];
  size_t kn, on;
  noise(random, sizeof random);
  CHECK(tink_keyset_create((const uint8_t *)"AES128_CTR_HMAC_SHA256_4KB", 26, false, random, sizeof random, keyset, sizeof keyset, &kn) == TINK_OK);
  for (int i = 0; i < rounds; i++) {
    size_t tn = next() % sizeof text, at = 0, len = 0;
    tink_writer it = TINK_NONE;
    noise(text, tn);
    noise(random, sizeof random);
    CHECK(tink_writer_new(keyset, kn, random, 3, random, TINK_RANDOM_STREAM, &it) == TINK_OK);
    while (at < tn) {
      size_t n = next() % 9000 % (tn - at + 1);
      CHECK(tink_writer_write(&it, text + at, n, sum + len, ROOM - len, &written) == TINK_OK);
      at += n, len += written;
    }
    CHECK(len == 0 || tink_open_stream(keyset, kn, sum, len, random, 3, opened, ROOM, &on) != TINK_OK);
    CHECK(tink_writer_close(&it, sum + len, ROOM - len, &written) == TINK_OK);
    len += written;
    CHECK(tink_open_stream(keyset, kn, sum, len, random, 3, opened, ROOM, &on) == TINK_OK && on == tn && memcmp(opened, text, tn) == 0);
    tink_writer_free(&it);
  }
}

/* ---- threads */

static const char *shared_keyset = "080512500a480a30747970652e676f6f676c65617069732e636f6d2f676f6f676c652e63727970746f2e74696e6b2e41657347636d4b657912121a10000102030405060708090a0b0c0d0e0f1801100118052001";

static void *thread(void *word) {
  data k = from_hex(shared_keyset);
  uint8_t random[16], sealed[128], opened[128];
  size_t sn, on;
  tink_aead it = TINK_NONE;
  if (tink_aead_new(D(k), &it) != TINK_OK) return word;
  for (int i = 0; i < 200; i++) {
    memset(random, i, sizeof random);
    if (tink_aead_encrypt(&it, random, 16, random, 1, random, 12, sealed, sizeof sealed, &sn) != TINK_OK) return word;
    if (tink_aead_decrypt(&it, sealed, sn, random, 1, opened, sizeof opened, &on) != TINK_OK || on != 16) return word;
    if (tink_encrypt(D(k), random, 16, random, 1, random, 12, sealed, sizeof sealed, &sn) != TINK_OK) return word;
    if (tink_decrypt(D(k), sealed, sn, random, 1, opened, sizeof opened, &on) != TINK_OK || on != 16) return word;
  }
  tink_aead_free(&it);
  free(k.bytes);
  return NULL;
}

static void threads(void) {
  pthread_t a, b;
  void *x, *y;
  CHECK(pthread_create(&a, NULL, thread, "a") == 0 && pthread_create(&b, NULL, thread, "b") == 0);
  CHECK(pthread_join(a, &x) == 0 && pthread_join(b, &y) == 0);
  CHECK(x == NULL && y == NULL);
}

int main(int argc, char **argv) {
  if (argc < 3 || argc > 4) return 2;
  state = strtoull(argv[2], NULL, 10) * 2 + 1;
  vectors(argv[1]);
  edges();
  too_long();
  threads();
  loop(argc == 4 ? atoi(argv[3]) : 64);
  objects(argc == 4 ? atoi(argv[3]) : 64);
  written_in_pieces(argc == 4 ? atoi(argv[3]) / 16 + 1 : 64);
  printf("C: %lu checks\n", checks);
  return 0;
}
