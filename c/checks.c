/* What feefledown.h says, called through it: pairs come back, each refusal has its number and writes nothing, and NULL is an empty buffer;
   and the worked bundle of docs/FORMAT.md, opened entry by entry. It answers 0 only if everything went as it must. */

#include "feefledown.h"

#include <stdio.h>
#include <string.h>

#define MOST 64

static const uint8_t KEY[FEEFLEDOWN_KEY_MOST + 1] = {1, 2, 3, 4, 5, 6, 7, 8, 9, 10, 11, 12, 13, 14, 15, 16};
static const uint8_t HEADER[FEEFLEDOWN_HEADER_MOST + 1] = {0};
static const uint8_t BODY[FEEFLEDOWN_BODY_MOST + 1] = {0};
static uint8_t room[sizeof BODY + FEEFLEDOWN_TAG];
static int looked = 0, failures = 0;

/* Counts what was looked at, and says what is not as it must be. */
static void expect(int right, const char *what) {
    looked++;
    if (!right) {
        failures++;
        printf("WRONG: %s\n", what);
    }
}

static const uint8_t *bytes_of(const char *text) {
    return (const uint8_t *)text;
}

/* Whether every byte of a buffer is `value`. */
static int all(const uint8_t *buffer, size_t length, uint8_t value) {
    for (size_t i = 0; i < length; i++) {
        if (buffer[i] != value) {
            return 0;
        }
    }
    return 1;
}

/* A fresh session of 32 bytes of key. */
static void fresh(uint8_t *image) {
    expect(feefledown_open(KEY, 32, image, FEEFLEDOWN_IMAGE) == FEEFLEDOWN_ACCEPTED, "a session opens");
}

/* A wrap of these lengths, answers only. */
static uint8_t wrapped(uint8_t *image, size_t header_length, size_t body_length, size_t out_length) {
    return feefledown_wrap(image, FEEFLEDOWN_IMAGE, HEADER, header_length, BODY, body_length, room, out_length);
}

static void version_agrees(void) {
    char text[MOST];
    snprintf(text, sizeof text, "%d.%d.%d", FEEFLEDOWN_VERSION_NUMBER / 10000, FEEFLEDOWN_VERSION_NUMBER / 100 % 100,
             FEEFLEDOWN_VERSION_NUMBER % 100);
    expect(strcmp(text, FEEFLEDOWN_VERSION) == 0, "the version's text and number agree");
}

/* A label and a record; the damaged record releases nothing, and the whole one comes back. */
static void pairs_come_back(void) {
    static const char label[] = "reef hall, week 46", header[] = "member 17", text[] = "annual, two adults";
    uint8_t office[FEEFLEDOWN_IMAGE], desk[FEEFLEDOWN_IMAGE], body[MOST], first[FEEFLEDOWN_TAG], second[sizeof text + FEEFLEDOWN_TAG];
    const uint8_t *tag = second + sizeof text;
    fresh(office);
    fresh(desk);
    expect(feefledown_wrap(office, sizeof office, bytes_of(label), sizeof label, NULL, 0, first, sizeof first) == 0, "a label is sealed");
    expect(feefledown_wrap(office, sizeof office, bytes_of(header), sizeof header, bytes_of(text), sizeof text, second,
                           sizeof second) == 0, "a record is sealed, in body_length + FEEFLEDOWN_TAG bytes");
    expect(feefledown_unwrap(desk, sizeof desk, bytes_of(label), sizeof label, NULL, 0, first, sizeof first, NULL, 0) == 0,
           "the label opens");

    memset(body, 0xA5, sizeof body);
    second[3] ^= 1;
    expect(feefledown_unwrap(desk, sizeof desk, bytes_of(header), sizeof header, second, sizeof text, tag, FEEFLEDOWN_TAG, body,
                             sizeof body) == FEEFLEDOWN_WRONG_TAG, "a damaged record is refused");
    second[3] ^= 1;
    expect(feefledown_unwrap(desk, sizeof desk, bytes_of("member 18"), sizeof header, second, sizeof text, tag, FEEFLEDOWN_TAG,
                             body, sizeof body) == FEEFLEDOWN_WRONG_TAG, "it is refused under another header");
    expect(feefledown_unwrap(desk, sizeof desk, bytes_of(header), sizeof header, second, sizeof text, tag, FEEFLEDOWN_TAG - 1,
                             body, sizeof body) == FEEFLEDOWN_WRONG_TAG, "and with a tag of another length");
    expect(all(body, sizeof body, 0xA5), "nothing of it is released");

    expect(feefledown_unwrap(desk, sizeof desk, bytes_of(header), sizeof header, second, sizeof text, tag, FEEFLEDOWN_TAG, body,
                             sizeof body) == 0, "the whole record opens");
    expect(memcmp(body, text, sizeof text) == 0, "its body comes back");
    expect(all(body + sizeof text, sizeof body - sizeof text, 0xA5), "the bytes behind it stand");
    expect(memcmp(office, desk, sizeof office) == 0, "both sessions stand at the same point");
}

/* What falls outside the limits is refused by its number, and writes nothing. */
static void limits_are_refused(void) {
    uint8_t image[FEEFLEDOWN_IMAGE + 1], digest[FEEFLEDOWN_DIGEST];
    memset(image, 0x5A, sizeof image);
    memset(digest, 0x5A, sizeof digest);
    expect(feefledown_open(KEY, FEEFLEDOWN_KEY_LEAST - 1, image, FEEFLEDOWN_IMAGE) == FEEFLEDOWN_BAD_KEY, "a key of 15 bytes is refused");
    expect(feefledown_open(KEY, FEEFLEDOWN_KEY_MOST + 1, image, FEEFLEDOWN_IMAGE) == FEEFLEDOWN_BAD_KEY, "a key of 257 bytes is refused");
    expect(feefledown_open(KEY, 16, image, FEEFLEDOWN_IMAGE - 1) == FEEFLEDOWN_NO_ROOM, "an image of 215 bytes is refused");
    expect(feefledown_open(KEY, 16, image, FEEFLEDOWN_IMAGE + 1) == FEEFLEDOWN_NO_ROOM, "an image of 217 bytes is refused");
    expect(all(image, sizeof image, 0x5A), "no image is written");
    expect(feefledown_sha3_256(KEY, 16, digest, FEEFLEDOWN_DIGEST - 1) == FEEFLEDOWN_NO_ROOM, "a digest of 31 bytes is refused");
    expect(all(digest, sizeof digest, 0x5A), "no digest is written");
    expect(feefledown_open(KEY, FEEFLEDOWN_KEY_LEAST, image, FEEFLEDOWN_IMAGE) == 0, "a key of 16 bytes opens");
    expect(feefledown_open(KEY, FEEFLEDOWN_KEY_MOST, image, FEEFLEDOWN_IMAGE) == 0, "a key of 256 bytes opens");
}

static void pairs_are_refused(void) {
    uint8_t image[FEEFLEDOWN_IMAGE], before[FEEFLEDOWN_IMAGE];
    fresh(image);
    memcpy(before, image, sizeof image);
    expect(wrapped(image, FEEFLEDOWN_HEADER_MOST + 1, 0, sizeof room) == FEEFLEDOWN_LONG_HEADER, "a header of 65,536 bytes is refused");
    expect(wrapped(image, 0, FEEFLEDOWN_BODY_MOST + 1, sizeof room) == FEEFLEDOWN_LONG_BODY, "a body of 1,048,577 bytes is refused");
    expect(wrapped(image, 0, 5, 5 + FEEFLEDOWN_TAG - 1) == FEEFLEDOWN_NO_ROOM, "an output too short by one is refused");
    image[201] ^= 1;
    expect(wrapped(image, 0, 0, sizeof room) == FEEFLEDOWN_BAD_RATE, "an image of rate 137 is refused");
    image[201] ^= 1;
    image[203] = 15;
    expect(wrapped(image, 0, 0, sizeof room) == FEEFLEDOWN_BAD_TAG_LENGTH, "an image of tag length 15 is refused");
    image[203] = FEEFLEDOWN_TAG;
    image[206] = image[207] = 0xFF;
    expect(wrapped(image, 0, 0, sizeof room) == FEEFLEDOWN_FULL, "an image with 65,535 pairs is refused");
    image[206] = image[207] = 0;
    expect(memcmp(image, before, sizeof image) == 0 && all(room, sizeof room, 0), "image and output stand as they were");
    expect(wrapped(image, FEEFLEDOWN_HEADER_MOST, FEEFLEDOWN_BODY_MOST, FEEFLEDOWN_BODY_MOST + FEEFLEDOWN_TAG) == 0,
           "the largest pair is sealed");
}

/* NULL with length 0, for every parameter. */
static void null_is_empty(void) {
    uint8_t image[FEEFLEDOWN_IMAGE], other[FEEFLEDOWN_IMAGE], out[FEEFLEDOWN_TAG], again[FEEFLEDOWN_TAG];
    fresh(image);
    fresh(other);
    expect(feefledown_open(NULL, 0, image, sizeof image) == FEEFLEDOWN_BAD_KEY, "NULL as a key");
    expect(feefledown_open(KEY, 32, NULL, 0) == FEEFLEDOWN_NO_ROOM, "NULL as an image, in open");
    expect(feefledown_wrap(NULL, 0, NULL, 0, NULL, 0, NULL, 0) == FEEFLEDOWN_NO_ROOM, "NULL throughout, in wrap");
    expect(feefledown_wrap(image, sizeof image, NULL, 0, NULL, 0, NULL, 0) == FEEFLEDOWN_NO_ROOM, "NULL as out");
    expect(feefledown_wrap(image, sizeof image, NULL, 0, NULL, 0, out, sizeof out) == 0, "NULL as header and body, in wrap");
    expect(feefledown_wrap(other, sizeof other, HEADER, 0, BODY, 0, again, sizeof again) == 0, "the same with other pointers");
    expect(memcmp(out, again, sizeof out) == 0 && memcmp(image, other, sizeof image) == 0, "they are the same pair");
    fresh(image);
    expect(feefledown_unwrap(NULL, 0, NULL, 0, NULL, 0, NULL, 0, NULL, 0) == FEEFLEDOWN_NO_ROOM, "NULL throughout, in unwrap");
    expect(feefledown_unwrap(image, sizeof image, NULL, 0, NULL, 0, NULL, 0, NULL, 0) == FEEFLEDOWN_WRONG_TAG, "NULL as a tag");
    expect(feefledown_unwrap(image, sizeof image, NULL, 0, NULL, 0, out, sizeof out, NULL, 0) == 0, "NULL as header, ciphertext and body");
    expect(memcmp(image, other, sizeof image) == 0, "that was the pair");
    expect(feefledown_sha3_256(KEY, 1, NULL, 0) == FEEFLEDOWN_NO_ROOM, "NULL as a digest");
}

/* SHA3-256 of the empty message, as FIPS 202's examples have it. */
static void hash_is_right(void) {
    static const uint8_t due[FEEFLEDOWN_DIGEST] = {
        0xa7, 0xff, 0xc6, 0xf8, 0xbf, 0x1e, 0xd7, 0x66, 0x51, 0xc1, 0x47, 0x56, 0xa0, 0x61, 0xd6, 0x62,
        0xf5, 0x80, 0xff, 0x4d, 0xe4, 0x3b, 0x49, 0xfa, 0x82, 0xd8, 0x0a, 0x4b, 0x80, 0xf8, 0x43, 0x4a,
    };
    uint8_t digest[FEEFLEDOWN_DIGEST];
    expect(feefledown_sha3_256(NULL, 0, digest, sizeof digest) == 0, "the empty message, as NULL, is hashed");
    expect(memcmp(digest, due, sizeof due) == 0, "its SHA3-256 is the published one");
}

/* The entry of a bundle at a place, opened by hand: its lengths are read, its parts must lie inside the bundle, and they are unwrapped.
   The next place, or 0 if there is no whole entry or the library refuses it. */
static size_t open_entry(uint8_t *image, const uint8_t *bundle, size_t length, size_t place, uint8_t *body, size_t body_room) {
    if (place > length || length - place < 6) {
        return 0;
    }
    const uint8_t *entry = bundle + place;
    size_t header_length = (size_t)entry[0] << 8 | entry[1];
    size_t body_length = (size_t)entry[2] << 24 | (size_t)entry[3] << 16 | (size_t)entry[4] << 8 | entry[5];
    if (body_length > FEEFLEDOWN_BODY_MOST || length - place < 6 + header_length + body_length + FEEFLEDOWN_TAG) {
        return 0;
    }
    const uint8_t *header = entry + 6, *ciphertext = header + header_length, *tag = ciphertext + body_length;
    if (feefledown_unwrap(image, FEEFLEDOWN_IMAGE, header, header_length, ciphertext, body_length, tag, FEEFLEDOWN_TAG, body,
                          body_room) != 0) {
        return 0;
    }
    return place + 6 + header_length + body_length + FEEFLEDOWN_TAG;
}

/* The worked bundle of docs/FORMAT.md, which comes from outside the library. */
static void worked_bundle_opens(void) {
    static const uint8_t key[32] = {
        0xdc, 0xcf, 0x2e, 0xc5, 0xad, 0xaa, 0xce, 0xa6, 0x43, 0xf1, 0x01, 0x07, 0x83, 0x2b, 0x92, 0x8c,
        0x88, 0xcd, 0x08, 0x78, 0x74, 0x30, 0xe5, 0xeb, 0x33, 0x69, 0x91, 0x59, 0xd0, 0xcd, 0xb9, 0xe9,
    };
    static const uint8_t bundle[103] = {
        0x01, 0x00, 0x00, 0x00, 0x62, 0x00, 0x16, 0x00, 0x00, 0x00, 0x00, 0xea, 0x24, 0x45, 0xac, 0x03,
        0xd8, 0x9f, 0xa6, 0xeb, 0xb4, 0x6b, 0x9b, 0x8c, 0x5d, 0xbb, 0x94, 0x31, 0x14, 0x53, 0x30, 0x89,
        0x29, 0x80, 0x93, 0x5f, 0xb7, 0x36, 0xd2, 0xe1, 0xaf, 0x55, 0x03, 0x5f, 0xf2, 0xfe, 0x34, 0x22,
        0x51, 0x00, 0x09, 0x00, 0x00, 0x00, 0x17, 0xf8, 0x24, 0xb0, 0x87, 0x6b, 0xe3, 0x8e, 0x57, 0x89,
        0x46, 0x3e, 0x90, 0xf9, 0xc2, 0x3f, 0x6e, 0xcc, 0x0f, 0xa6, 0x71, 0x89, 0x84, 0x49, 0x6e, 0x4f,
        0xb2, 0x6d, 0x04, 0x43, 0x65, 0x19, 0x49, 0xe0, 0x72, 0xb5, 0x47, 0x70, 0x6a, 0x0a, 0x6d, 0xa3,
        0x4b, 0x2c, 0x9b, 0x02, 0xf8, 0x81, 0x85,
    };
    static const uint8_t record[23] = {
        0xd3, 0x68, 0xfd, 0xad, 0xd6, 0x05, 0x1c, 0xf9, 0x8e, 0xc9, 0xdf, 0x31, 0x76, 0x55, 0xe2, 0xe0,
        0xe0, 0xc9, 0xe4, 0x71, 0xa7, 0x36, 0x87,
    };
    static const uint8_t numbers[16] = {0x00, 0x88, 0x00, 0x10, 0, 0, 0, 2, 0, 0, 0, 0, 0, 0, 0, 5};
    uint8_t image[FEEFLEDOWN_IMAGE], body[MOST];
    expect(feefledown_open(key, sizeof key, image, sizeof image) == 0, "the worked bundle's session opens");
    expect(open_entry(image, bundle, sizeof bundle, 5, body, 0) == 49, "its entry zero opens, and the next stands at 49");
    expect(open_entry(image, bundle, sizeof bundle, 49, body, sizeof body) == 103, "its entry one opens, and is the last");
    expect(memcmp(body, record, sizeof record) == 0, "its body is the one that was sealed");
    expect(memcmp(image, bundle + 87, FEEFLEDOWN_TAG) == 0, "the image begins with the last tag");
    expect(memcmp(image + 200, numbers, sizeof numbers) == 0, "and ends with rate, tag length, pairs and calls");
}

int main(void) {
    version_agrees();
    pairs_come_back();
    limits_are_refused();
    pairs_are_refused();
    null_is_empty();
    hash_is_right();
    worked_bundle_opens();
    printf("%d things of the header looked at, %d wrong\n", looked, failures);
    return failures != 0;
}
