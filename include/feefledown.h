/* Feefledown: SpongeWrap sessions and SHA3-256 for the desks' C programs.

   How it is used. A key opens a session. Each call after that seals or opens one pair, a header and a body, and advances the
   session: a tag covers its header, its body and every pair before it. The other side opens a session with the same key and takes the
   same pairs in the same order. The first pair is a fresh label with an empty body, and the other side compares the label with the
   one that it expects before it believes the rest.

   Answers. Every function answers 0, or the number of a refusal; look at each. A refused call writes to no buffer at all, the image
   included. On success only the first bytes needed are written. Take a body as released only when the answer is 0.

   Buffers. A buffer is passed as a pointer and a length in bytes. No two buffers of one call may overlap. For every parameter the
   pointer may be NULL where the length is 0 (tested, not proved).

   Reuse. There is no nonce parameter: the label is the nonce. Never seal in two sessions with the same key and the same label. While
   two sessions have taken the same pairs they are the same session; in the first pair that differs, under the same header, both
   bodies are masked by the same bytes up to and including the first piece of 135 bytes in which they differ, so whoever has both
   ciphertexts has the xor of that much of both bodies. Sealing twice from one image, as from a copy kept on disk, is the same
   mistake. The library chooses no keys and no labels, and does not see their reuse.

   An image is worth the key. A session travels as an image of FEEFLEDOWN_IMAGE bytes, which the caller keeps: 200 bytes of state, then
   the rate (2), the tag length (2), the pairs (4) and the permutation calls (8), big-endian. Whoever has it can open and forge all
   that follows; with a fresh one that is every session of its key. And Keccak-f can be run backwards: a fresh image of a key of up to
   135 bytes gives the key itself, and so does a later one to whoever knows, or can guess, the pairs between. So an image on disk wants
   a key's care. The library wipes nothing. Nothing guards an image against damage either: it is used as it stands.

   What is not hidden, and what is not noticed. Headers travel in clear, and a body's length can be seen; the tag covers both. An old
   bundle can be replayed: it opens under its key, and only its label, compared with the expected one, gives it away. A bundle of
   version 1, as any run of pairs, can be cut: nothing seals its end, and what is cut off behind a whole pair is not missed. That a
   call's time is independent of secrets is not promised.

   Threads. The functions keep no state of their own, and allocate nothing. They may run on several threads at once, with an image and
   an output each. */

#ifndef FEEFLEDOWN_H
#define FEEFLEDOWN_H

#include <stddef.h>
#include <stdint.h>

#ifdef __cplusplus
extern "C" {
#endif

/* The version of this header and its archive; the number, for #if, is 10,000 major + 100 minor + patch. */
#define FEEFLEDOWN_VERSION "1.0.0"
#define FEEFLEDOWN_VERSION_NUMBER 10000

/* An answer that nobody looks at is warned of, where the compiler knows how. */
#if defined(__GNUC__)
#define FEEFLEDOWN_CHECKED __attribute__((warn_unused_result))
#else
#define FEEFLEDOWN_CHECKED
#endif

/* Sizes, in bytes. */
#define FEEFLEDOWN_IMAGE 216
#define FEEFLEDOWN_TAG 16
#define FEEFLEDOWN_DIGEST 32
#define FEEFLEDOWN_KEY_LEAST 16
#define FEEFLEDOWN_KEY_MOST 256
#define FEEFLEDOWN_HEADER_MOST 65535
#define FEEFLEDOWN_BODY_MOST 1048576

/* Refusals, each given exactly when its line says. 1 and 3 are never given of an image that feefledown_open made. 9, 10 and 11 are of
   bundles, for which C has no calls yet. */
#define FEEFLEDOWN_ACCEPTED 0
#define FEEFLEDOWN_BAD_RATE 1       /* the rate is not 136 or 168 */
#define FEEFLEDOWN_BAD_KEY 2        /* the key is under 16 or over 256 bytes */
#define FEEFLEDOWN_BAD_TAG_LENGTH 3 /* the tag length is under 16 or over 256 */
#define FEEFLEDOWN_LONG_HEADER 4    /* the header is over 65,535 bytes */
#define FEEFLEDOWN_LONG_BODY 5      /* the body is over 1,048,576 bytes */
#define FEEFLEDOWN_NO_ROOM 6        /* a lent output is too short; an image is not 216 bytes */
#define FEEFLEDOWN_FULL 7           /* the session has 65,535 pairs or more, or a count over 540,991,427 */
#define FEEFLEDOWN_WRONG_TAG 8      /* the tag differs from the recomputed one, or has another length */

/* Opens a session with rate 136 and tags of 16 bytes, and lays it into `image`, which has 216 bytes. The key has 16 to 256.
   Refusals, in this order: 6, 2. */
FEEFLEDOWN_CHECKED
uint8_t feefledown_open(const uint8_t *key, size_t key_length, uint8_t *image, size_t image_length);

/* Seals a header and a body. The first bytes of `out` get the ciphertext, as long as the body, and then the tag: out_length is at
   least body_length + FEEFLEDOWN_TAG. The header is not copied: it travels beside them. On success the image holds the advanced
   session. Refusals, in this order: 6 for the image, 1, 3, 7, 4, 5, 6 for `out`. */
FEEFLEDOWN_CHECKED
uint8_t feefledown_wrap(uint8_t *image, size_t image_length, const uint8_t *header, size_t header_length, const uint8_t *body,
                        size_t body_length, uint8_t *out, size_t out_length);

/* Opens a pair: its header, its ciphertext, as long as the body was, and its tag of FEEFLEDOWN_TAG bytes. Once the tag has been found
   right, the first bytes of `body` get the plaintext: body_length is at least ciphertext_length. On success the image holds the
   advanced session. Refusals, in this order: 6 for the image, 1, 3, 7, 4, 5, 6 for `body`, 8. */
FEEFLEDOWN_CHECKED
uint8_t feefledown_unwrap(uint8_t *image, size_t image_length, const uint8_t *header, size_t header_length,
                          const uint8_t *ciphertext, size_t ciphertext_length, const uint8_t *tag, size_t tag_length,
                          uint8_t *body, size_t body_length);

/* The first 32 bytes of `digest` get the SHA3-256 of the message, of any length. Refusal: 6 if digest_length is under 32. */
FEEFLEDOWN_CHECKED
uint8_t feefledown_sha3_256(const uint8_t *message, size_t message_length, uint8_t *digest, size_t digest_length);

#ifdef __cplusplus
}
#endif

#endif
