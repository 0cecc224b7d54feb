/* Keysets, AEADs, MACs, PRFs, tokens and streams of Tink, by a proved library. Link with libtink.
 *
 * Every call answers a status. Status 0 (TINK_OK) says that the call did exactly what its line here says. Any call may
 * answer TINK_OUT_OF_MEMORY, and any call with an output TINK_TOO_LITTLE_ROOM. "Statuses" of a call are the others:
 *   - "of a keyset": TINK_BAD_KEYSET, TINK_BAD_JSON, TINK_INVALID_KEYSET;
 *   - "of keys": those of a keyset, TINK_INVALID_KEY, TINK_UNSUPPORTED_KEY_TYPE, TINK_NO_PRIMARY, TINK_WRONG_PRIMITIVE.
 * docs/STATUSES.md says of each what it means, and its remedy.
 *
 * Inputs are a pointer and a length in bytes. A keyset is a file of keys in memory, in JSON or in Tink's binary format.
 * A template's name and associated data are bytes without an end mark. An id is a number, as tink_keyset_list shows it.
 *
 * Outputs: a call writes its output to the beginning of `out`, which has room for `out_room` bytes, and the length of the
 * output to `*written`. If the room is too small, the status is TINK_TOO_LITTLE_ROOM, `*written` is the room that is
 * needed, and the same call may be made again with the same random bytes. After every status other than TINK_OK the bytes
 * at `out` are as before, and after every status other than TINK_OK and TINK_TOO_LITTLE_ROOM `*written` is 0.
 *
 * Random bytes are an input. Hand in fresh bytes of the system's random source, TINK_RANDOM_.. of them, and use them for
 * one call that answers TINK_OK alone: a nonce that is used twice breaks the encryption.
 *
 * What the caller upholds, since no proof covers C:
 *   - No pointer is null, not even one whose length is 0: hand in the address of any byte, as "".
 *   - The lengths are those of memory that is there.
 *   - No memory that is written (`out`, `*written`) overlaps other memory of the same call. Inputs may be the same memory.
 *   - A `bool` is 0 or 1.
 *   - malloc aligns to 16 bytes; no call is made from a signal handler.
 *
 * The library keeps nothing between calls but what an object holds, so that threads may call it at once. Calls with the same
 * object come one after another.
 */
#ifndef TINK_H
#define TINK_H

#include <stdbool.h>
#include <stddef.h>
#include <stdint.h>

#ifdef __cplusplus
extern "C" {
#endif

typedef uint8_t tink_status;

enum {
  TINK_OK = 0,
  TINK_OUT_OF_MEMORY = 10,
  TINK_BAD_KEYSET = 13,
  TINK_INVALID_KEYSET = 14,
  TINK_UNSUPPORTED_KEY_TYPE = 15,
  TINK_INVALID_KEY = 16,
  TINK_NO_PRIMARY = 17,
  TINK_WRONG_PRIMITIVE = 18,
  TINK_UNSUPPORTED_HASH = 19,
  TINK_TOO_MANY_SEGMENTS = 20,
  TINK_NO_MATCHING_KEY = 21,
  TINK_BAD_SEGMENT = 22,
  TINK_TRUNCATED = 23,
  TINK_UNKNOWN_TEMPLATE = 24,
  TINK_NO_FRESH_ID = 25,
  TINK_BAD_TOKEN = 27,
  TINK_MAC_MISMATCH = 28,
  TINK_BAD_JSON = 30,
  TINK_KEY_NOT_FOUND = 31,
  TINK_IS_PRIMARY = 32,
  TINK_WRONG_KEY_STATUS = 33,
  TINK_MASTER_FAILED = 34,
  TINK_RANDOM_FAULT = 35, /* fewer random bytes were handed in than the call takes */
  TINK_TOO_LITTLE_ROOM = 42,
  TINK_CLOSED = 43, /* the object holds nothing or another primitive, or its stream has ended */
  TINK_DECRYPT_FAILED = 44,
  TINK_FAILED_BEFORE = 45, /* the writer or reader is spent: a call before was refused */
  TINK_TEXT_TOO_LONG = 46,
  TINK_DATA_TOO_LONG = 47,
  TINK_NOT_RAW = 48,
  TINK_BAD_OUTPUT_LENGTH = 49,
  TINK_UNREAD = 50 /* text of the reader waits: read it, and make the call again */
};

/* How many random bytes are enough. A call takes what it needs from the first one on. */
enum {
  TINK_RANDOM_KEY = 576,    /* create, rotate, add */
  TINK_RANDOM_ENCRYPT = 16, /* encrypt, wrap */
  TINK_RANDOM_STREAM = 39   /* seal, rewrap, a writer */
};

/* ---- keysets */

/* A new keyset with one key by the template of a name, as "AES256_GCM". It is in JSON if `json`, else in binary.
 * Statuses: TINK_UNKNOWN_TEMPLATE, TINK_NO_FRESH_ID, TINK_RANDOM_FAULT. */
tink_status tink_keyset_create(const uint8_t *template_name, size_t template_len, bool json,
                               const uint8_t *random, size_t random_len,
                               uint8_t *out, size_t out_room, size_t *written);

/* The keyset with a new primary key by a template, in the format that it has. The other keys stay. If `to_any` is false, a
 * keyset with an enabled key of another primitive is refused (TINK_WRONG_PRIMITIVE).
 * Statuses: TINK_UNKNOWN_TEMPLATE, those of a keyset, TINK_WRONG_PRIMITIVE, TINK_NO_FRESH_ID, TINK_RANDOM_FAULT. */
tink_status tink_keyset_rotate(const uint8_t *keyset, size_t keyset_len,
                               const uint8_t *template_name, size_t template_len, bool to_any,
                               const uint8_t *random, size_t random_len,
                               uint8_t *out, size_t out_room, size_t *written);

/* The keyset with a new key by a template, in the format that it has. The primary key stays.
 * Statuses: TINK_UNKNOWN_TEMPLATE, those of a keyset, TINK_NO_PRIMARY, TINK_NO_FRESH_ID, TINK_RANDOM_FAULT. */
tink_status tink_keyset_add(const uint8_t *keyset, size_t keyset_len,
                            const uint8_t *template_name, size_t template_len,
                            const uint8_t *random, size_t random_len,
                            uint8_t *out, size_t out_room, size_t *written);

/* The keyset with the first key of an id changed, in the format that it has. A destroyed key has lost its material, and
 * stays destroyed.
 * Statuses: those of a keyset, TINK_KEY_NOT_FOUND; TINK_IS_PRIMARY of disable, destroy and delete; TINK_WRONG_KEY_STATUS
 * of promote (the key is not enabled), enable, disable and destroy. */
tink_status tink_keyset_promote(const uint8_t *keyset, size_t keyset_len, uint32_t id,
                                uint8_t *out, size_t out_room, size_t *written);
tink_status tink_keyset_enable(const uint8_t *keyset, size_t keyset_len, uint32_t id,
                               uint8_t *out, size_t out_room, size_t *written);
tink_status tink_keyset_disable(const uint8_t *keyset, size_t keyset_len, uint32_t id,
                                uint8_t *out, size_t out_room, size_t *written);
tink_status tink_keyset_destroy(const uint8_t *keyset, size_t keyset_len, uint32_t id,
                                uint8_t *out, size_t out_room, size_t *written);
tink_status tink_keyset_delete(const uint8_t *keyset, size_t keyset_len, uint32_t id,
                               uint8_t *out, size_t out_room, size_t *written);

/* The same keyset, in JSON if `json`, else in binary.
 * Statuses: those of a keyset. */
tink_status tink_keyset_convert(const uint8_t *keyset, size_t keyset_len, bool json,
                                uint8_t *out, size_t out_room, size_t *written);

/* One line a key, without key material: id, status, prefix type, type, and "primary" for the primary one, with tabs between.
 * Statuses: those of a keyset. */
tink_status tink_keyset_list(const uint8_t *keyset, size_t keyset_len,
                             uint8_t *out, size_t out_room, size_t *written);

/* The same as an array in JSON of objects with id, status, prefix, type and primary.
 * Statuses: those of a keyset. */
tink_status tink_keyset_list_json(const uint8_t *keyset, size_t keyset_len,
                                  uint8_t *out, size_t out_room, size_t *written);

/* The keyset encrypted by the primary key of a master keyset of AEADs, in JSON if `json`, else in binary.
 * Statuses: those of keys of the master; TINK_RANDOM_FAULT; those of a keyset; TINK_MASTER_FAILED. */
tink_status tink_keyset_wrap(const uint8_t *master, size_t master_len,
                             const uint8_t *keyset, size_t keyset_len,
                             const uint8_t *associated_data, size_t associated_data_len, bool json,
                             const uint8_t *random, size_t random_len,
                             uint8_t *out, size_t out_room, size_t *written);

/* The keyset that a key of the master decrypts, if it was wrapped with this associated data. It is in JSON if `json`.
 * Statuses: those of keys of the master; those of a keyset; TINK_MASTER_FAILED. */
tink_status tink_keyset_unwrap(const uint8_t *master, size_t master_len,
                               const uint8_t *wrapped, size_t wrapped_len,
                               const uint8_t *associated_data, size_t associated_data_len, bool json,
                               uint8_t *out, size_t out_room, size_t *written);

/* ---- AEADs */

/* The ciphertext by the primary key.
 * Statuses: those of keys, TINK_TEXT_TOO_LONG, TINK_DATA_TOO_LONG, TINK_RANDOM_FAULT. */
tink_status tink_encrypt(const uint8_t *keyset, size_t keyset_len,
                         const uint8_t *plaintext, size_t plaintext_len,
                         const uint8_t *associated_data, size_t associated_data_len,
                         const uint8_t *random, size_t random_len,
                         uint8_t *out, size_t out_room, size_t *written);

/* The plaintext by any key, if it was encrypted with this associated data. It is no longer than the ciphertext.
 * Statuses: those of keys, TINK_DECRYPT_FAILED. */
tink_status tink_decrypt(const uint8_t *keyset, size_t keyset_len,
                         const uint8_t *ciphertext, size_t ciphertext_len,
                         const uint8_t *associated_data, size_t associated_data_len,
                         uint8_t *out, size_t out_room, size_t *written);

/* ---- deterministic AEADs: equal bytes for equal plaintexts and data */

/* The ciphertext by the primary key.
 * Statuses: those of keys, TINK_TEXT_TOO_LONG. */
tink_status tink_encrypt_deterministically(const uint8_t *keyset, size_t keyset_len,
                                           const uint8_t *plaintext, size_t plaintext_len,
                                           const uint8_t *associated_data, size_t associated_data_len,
                                           uint8_t *out, size_t out_room, size_t *written);

/* The plaintext by any key, as of tink_decrypt.
 * Statuses: those of keys, TINK_DECRYPT_FAILED. */
tink_status tink_decrypt_deterministically(const uint8_t *keyset, size_t keyset_len,
                                           const uint8_t *ciphertext, size_t ciphertext_len,
                                           const uint8_t *associated_data, size_t associated_data_len,
                                           uint8_t *out, size_t out_room, size_t *written);

/* ---- MACs and pseudorandom functions */

/* The MAC of a message by the primary key.
 * Statuses: those of keys. */
tink_status tink_compute_mac(const uint8_t *keyset, size_t keyset_len,
                             const uint8_t *message, size_t message_len,
                             uint8_t *out, size_t out_room, size_t *written);

/* TINK_OK if a key accepts the MAC for the message.
 * Statuses: those of keys, TINK_MAC_MISMATCH. */
tink_status tink_verify_mac(const uint8_t *keyset, size_t keyset_len,
                            const uint8_t *mac, size_t mac_len,
                            const uint8_t *message, size_t message_len);

/* The first `output_length` bytes of the primary function for an input.
 * Statuses: those of keys, TINK_NOT_RAW, TINK_BAD_OUTPUT_LENGTH. */
tink_status tink_compute_prf(const uint8_t *keyset, size_t keyset_len,
                             const uint8_t *input, size_t input_len, size_t output_length,
                             uint8_t *out, size_t out_room, size_t *written);

/* ---- tokens */

/* The token of a payload by the primary key of a keyset of MACs, in ASCII.
 * Statuses: those of keys. */
tink_status tink_sign_token(const uint8_t *keyset, size_t keyset_len,
                            const uint8_t *payload, size_t payload_len,
                            uint8_t *out, size_t out_room, size_t *written);

/* The payload of a token whose MAC a key accepts. It is no longer than the token.
 * Statuses: those of keys, TINK_BAD_TOKEN, TINK_MAC_MISMATCH. */
tink_status tink_verify_token(const uint8_t *keyset, size_t keyset_len,
                              const uint8_t *token, size_t token_len,
                              uint8_t *out, size_t out_room, size_t *written);

/* ---- objects: a keyset is loaded once, and asked often
 *
 * An object begins as TINK_NONE (`tink_aead aead = TINK_NONE;`). `_new` fills it, and it owns memory then; `_free` empties it.
 * No other call changes what it holds, but those of a writer and of a reader. A call with an object that holds nothing, or
 * another primitive, does nothing: it answers TINK_CLOSED. Of an object and its copies only one may be used. Only the library
 * writes its fields.
 */
typedef struct {
  void *at;
  bool full;
} tink_aead;

typedef struct {
  void *at;
  bool full;
} tink_daead;

typedef struct {
  void *at;
  bool full;
} tink_mac;

typedef struct {
  void *at;
  bool full;
} tink_prf;

typedef struct {
  void *at;
  bool full;
} tink_signer;

typedef struct {
  void *at;
  bool full;
} tink_writer;

typedef struct {
  void *at;
  bool full;
} tink_reader;

typedef struct {
  void *at;
  bool full;
} tink_range_reader;

/* An object that holds nothing. */
#define TINK_NONE {0, false}

/* Fills an object with the AEADs of a keyset. What it held before is freed. After another status it is as before.
 * Statuses: those of keys. */
tink_status tink_aead_new(const uint8_t *keyset, size_t keyset_len, tink_aead *object);

/* The ciphertext by the primary key.
 * Statuses: TINK_CLOSED, TINK_TEXT_TOO_LONG, TINK_DATA_TOO_LONG, TINK_RANDOM_FAULT. */
tink_status tink_aead_encrypt(tink_aead *object,
                              const uint8_t *plaintext, size_t plaintext_len,
                              const uint8_t *associated_data, size_t associated_data_len,
                              const uint8_t *random, size_t random_len,
                              uint8_t *out, size_t out_room, size_t *written);

/* The plaintext by any key, as of tink_decrypt.
 * Statuses: TINK_CLOSED, TINK_DECRYPT_FAILED. */
tink_status tink_aead_decrypt(tink_aead *object,
                              const uint8_t *ciphertext, size_t ciphertext_len,
                              const uint8_t *associated_data, size_t associated_data_len,
                              uint8_t *out, size_t out_room, size_t *written);

/* Frees what the object holds. It holds nothing then, and may be filled or freed again. */
void tink_aead_free(tink_aead *object);

/* Fills an object with the deterministic AEADs of a keyset. What it held before is freed. After another status it is as before.
 * Statuses: those of keys. */
tink_status tink_daead_new(const uint8_t *keyset, size_t keyset_len, tink_daead *object);

/* The ciphertext by the primary key.
 * Statuses: TINK_CLOSED, TINK_TEXT_TOO_LONG. */
tink_status tink_daead_encrypt(tink_daead *object,
                               const uint8_t *plaintext, size_t plaintext_len,
                               const uint8_t *associated_data, size_t associated_data_len,
                               uint8_t *out, size_t out_room, size_t *written);

/* The plaintext by any key, as of tink_decrypt.
 * Statuses: TINK_CLOSED, TINK_DECRYPT_FAILED. */
tink_status tink_daead_decrypt(tink_daead *object,
                               const uint8_t *ciphertext, size_t ciphertext_len,
                               const uint8_t *associated_data, size_t associated_data_len,
                               uint8_t *out, size_t out_room, size_t *written);

/* Frees what the object holds. It holds nothing then, and may be filled or freed again. */
void tink_daead_free(tink_daead *object);

/* Fills an object with the MACs of a keyset. What it held before is freed. After another status it is as before.
 * Statuses: those of keys. */
tink_status tink_mac_new(const uint8_t *keyset, size_t keyset_len, tink_mac *object);

/* The MAC of a message by the primary key.
 * Statuses: TINK_CLOSED. */
tink_status tink_mac_compute(tink_mac *object,
                             const uint8_t *message, size_t message_len,
                             uint8_t *out, size_t out_room, size_t *written);

/* TINK_OK if a key accepts the MAC for the message.
 * Statuses: TINK_CLOSED, TINK_MAC_MISMATCH. */
tink_status tink_mac_verify(tink_mac *object,
                            const uint8_t *mac, size_t mac_len,
                            const uint8_t *message, size_t message_len);

/* Frees what the object holds. It holds nothing then, and may be filled or freed again. */
void tink_mac_free(tink_mac *object);

/* Fills an object with the pseudorandom functions of a keyset. What it held before is freed. After another status it is as before.
 * Statuses: those of keys, TINK_NOT_RAW. */
tink_status tink_prf_new(const uint8_t *keyset, size_t keyset_len, tink_prf *object);

/* The first `output_length` bytes of the primary function for an input.
 * Statuses: TINK_CLOSED, TINK_BAD_OUTPUT_LENGTH. */
tink_status tink_prf_compute(tink_prf *object,
                             const uint8_t *input, size_t input_len, size_t output_length,
                             uint8_t *out, size_t out_room, size_t *written);

/* Frees what the object holds. It holds nothing then, and may be filled or freed again. */
void tink_prf_free(tink_prf *object);

/* Fills an object with the MACs of a keyset. What it held before is freed. After another status it is as before.
 * Statuses: those of keys. */
tink_status tink_signer_new(const uint8_t *keyset, size_t keyset_len, tink_signer *object);

/* The token of a payload by the primary key, in ASCII.
 * Statuses: TINK_CLOSED. */
tink_status tink_signer_sign(tink_signer *object,
                             const uint8_t *payload, size_t payload_len,
                             uint8_t *out, size_t out_room, size_t *written);

/* The payload of a token whose MAC a key accepts. It is no longer than the token.
 * Statuses: TINK_CLOSED, TINK_BAD_TOKEN, TINK_MAC_MISMATCH. */
tink_status tink_signer_verify(tink_signer *object,
                               const uint8_t *token, size_t token_len,
                               uint8_t *out, size_t out_room, size_t *written);

/* Frees what the object holds. It holds nothing then, and may be filled or freed again. */
void tink_signer_free(tink_signer *object);

/* ---- streams that are written in pieces: the files that the program `tink` encrypts
 *
 * What the writes and the close give, one behind the other, is the stream of all pieces joined. A writer keeps the text of one
 * segment; no call but `_new` takes memory. It has as many bytes of text as were written: nothing is lost if it is closed.
 * A stream without the output of its close is truncated, and no reader takes it for whole.
 */

/* Fills an object with a writer of a new stream under the primary key. What it held before is freed. After another status it
 * is as before. Nothing is given yet: the first write or the close gives the beginning of the stream.
 * Statuses: those of keys, TINK_RANDOM_FAULT, TINK_UNSUPPORTED_HASH. */
tink_status tink_writer_new(const uint8_t *keyset, size_t keyset_len,
                            const uint8_t *associated_data, size_t associated_data_len,
                            const uint8_t *random, size_t random_len,
                            tink_writer *object);

/* The room that is enough for a write of `length` bytes, and for the close behind it. After another status it is 0.
 * Statuses: TINK_CLOSED, TINK_TOO_MANY_SEGMENTS, TINK_FAILED_BEFORE. */
tink_status tink_writer_bound(tink_writer *object, size_t length, size_t *needed);

/* The bytes of the stream that a piece of its text gives: the segments that are full. There may be none. After
 * TINK_TOO_LITTLE_ROOM the writer is as before; after TINK_TOO_MANY_SEGMENTS it is spent.
 * Statuses: TINK_CLOSED, TINK_TOO_MANY_SEGMENTS, TINK_FAILED_BEFORE. */
tink_status tink_writer_write(tink_writer *object,
                              const uint8_t *piece, size_t piece_len,
                              uint8_t *out, size_t out_room, size_t *written);

/* The last bytes of the stream. The writer takes no piece then. After TINK_TOO_LITTLE_ROOM it is as before.
 * Statuses: TINK_CLOSED, TINK_FAILED_BEFORE. */
tink_status tink_writer_close(tink_writer *object,
                              uint8_t *out, size_t out_room, size_t *written);

/* Frees what the object holds. It holds nothing then, and may be filled or freed again. */
void tink_writer_free(tink_writer *object);

/* ---- streams that are read in pieces: the files that the program `tink` decrypts
 *
 * Feed the pieces of a stream, read the text that waits after each call, and end the reader. Text waits once its whole
 * segment is authenticated. A reader keeps a segment and its text; no call but `_new` takes memory. The text that was read
 * is whole if tink_reader_end answers TINK_OK, and not before: no other call finds a stream that is cut at the end of a
 * segment. After each status other than TINK_OK and TINK_UNREAD a reader is spent: later calls answer TINK_FAILED_BEFORE.
 */

/* Fills an object with a reader of a stream under the keys of a keyset. What it held before is freed. After another status
 * it is as before.
 * Statuses: those of keys. */
tink_status tink_reader_new(const uint8_t *keyset, size_t keyset_len,
                            const uint8_t *associated_data, size_t associated_data_len,
                            tink_reader *object);

/* Takes bytes of a piece of the stream from its beginning on, and writes how many to `*taken`. At most one segment is
 * opened, so the rest of the piece goes into the next call. If the piece is not empty, TINK_OK says that a byte was taken
 * or that text waits now. If text waits before the call, nothing is taken, and the status is TINK_UNREAD. After each status
 * other than TINK_OK `*taken` is 0. After tink_reader_end the status is TINK_CLOSED.
 * Statuses: TINK_CLOSED, TINK_UNREAD, TINK_NO_MATCHING_KEY, TINK_BAD_SEGMENT, TINK_TOO_MANY_SEGMENTS, TINK_FAILED_BEFORE. */
tink_status tink_reader_feed(tink_reader *object,
                             const uint8_t *piece, size_t piece_len, size_t *taken);

/* The text that waits, as much as has room. There may be none. It never answers TINK_TOO_LITTLE_ROOM.
 * Statuses: TINK_CLOSED, TINK_FAILED_BEFORE. */
tink_status tink_reader_read(tink_reader *object,
                             uint8_t *out, size_t out_room, size_t *written);

/* Says that nothing follows. The status is TINK_OK exactly if the pieces joined are a whole stream under a key of the
 * keyset with this associated data, and its whole text was read. After TINK_UNREAD read the text that waits, and make the
 * call again.
 * Statuses: TINK_CLOSED, TINK_UNREAD, TINK_NO_MATCHING_KEY, TINK_BAD_SEGMENT, TINK_TRUNCATED, TINK_TOO_MANY_SEGMENTS,
 * TINK_FAILED_BEFORE. */
tink_status tink_reader_end(tink_reader *object);

/* Frees what the object holds. It holds nothing then, and may be filled or freed again. */
void tink_reader_free(tink_reader *object);

/* ---- ranges of streams that are held whole, under keys that are loaded once */

/* Fills an object with a reader of ranges under the keys of a keyset. What it held before is freed. After another status it
 * is as before.
 * Statuses: those of keys. */
tink_status tink_range_reader_new(const uint8_t *keyset, size_t keyset_len,
                                  const uint8_t *associated_data, size_t associated_data_len,
                                  tink_range_reader *object);

/* The bytes of the plaintext of a stream, as of tink_read_range. The stream may be another one in each call.
 * Statuses: TINK_CLOSED, TINK_NO_MATCHING_KEY, TINK_BAD_SEGMENT, TINK_TRUNCATED, TINK_TOO_MANY_SEGMENTS. */
tink_status tink_range_reader_read(tink_range_reader *object,
                                   const uint8_t *stream, size_t stream_len,
                                   uint64_t start, uint64_t length,
                                   uint8_t *out, size_t out_room, size_t *written);

/* Frees what the object holds. It holds nothing then, and may be filled or freed again. */
void tink_range_reader_free(tink_range_reader *object);

/* ---- streams that are held whole */

/* The stream of a plaintext under the primary key.
 * Statuses: those of keys, TINK_RANDOM_FAULT, TINK_UNSUPPORTED_HASH, TINK_TOO_MANY_SEGMENTS. */
tink_status tink_seal_stream(const uint8_t *keyset, size_t keyset_len,
                             const uint8_t *plaintext, size_t plaintext_len,
                             const uint8_t *associated_data, size_t associated_data_len,
                             const uint8_t *random, size_t random_len,
                             uint8_t *out, size_t out_room, size_t *written);

/* The plaintext of a stream under any key, with the associated data of its sealing. It is no longer than the stream.
 * Statuses: those of keys, TINK_NO_MATCHING_KEY, TINK_BAD_SEGMENT, TINK_TRUNCATED, TINK_TOO_MANY_SEGMENTS. */
tink_status tink_open_stream(const uint8_t *keyset, size_t keyset_len,
                             const uint8_t *stream, size_t stream_len,
                             const uint8_t *associated_data, size_t associated_data_len,
                             uint8_t *out, size_t out_room, size_t *written);

/* The bytes of the plaintext from place `start` on, at most `length` of them; none from its end on. Only the first segment,
 * the last one and those of the range are opened.
 * Statuses: those of tink_open_stream. */
tink_status tink_read_range(const uint8_t *keyset, size_t keyset_len,
                            const uint8_t *stream, size_t stream_len,
                            const uint8_t *associated_data, size_t associated_data_len,
                            uint64_t start, uint64_t length,
                            uint8_t *out, size_t out_room, size_t *written);

/* The stream of the same plaintext under the primary key of `to_keyset`, with associated data of its own.
 * Statuses: those of tink_open_stream; those of keys of `to_keyset`; those of tink_seal_stream. */
tink_status tink_rewrap_stream(const uint8_t *keyset, size_t keyset_len,
                               const uint8_t *associated_data, size_t associated_data_len,
                               const uint8_t *to_keyset, size_t to_keyset_len,
                               const uint8_t *to_associated_data, size_t to_associated_data_len,
                               const uint8_t *stream, size_t stream_len,
                               const uint8_t *random, size_t random_len,
                               uint8_t *out, size_t out_room, size_t *written);

#ifdef __cplusplus
}
#endif
#endif
