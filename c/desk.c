/* A desk's program over feefledown.h. The office seals a label and a record under the key that it shares with the desk; the desk opens
   both, in the same order, and has what was sealed. It ends with 0 only if every step went as it must. */

#include "feefledown.h"

#include <stdio.h>
#include <string.h>

#define HEADER_ROOM 64
#define BODY_ROOM 256

/* A pair as it travels: the header in clear, then the ciphertext, as long as the body, and the tag. */
struct pair {
    uint8_t header[HEADER_ROOM];
    size_t header_length;
    uint8_t sealed[BODY_ROOM + FEEFLEDOWN_TAG];
    size_t body_length;
};

/* Fills a buffer with random bytes: 0 if it could. */
static int randomize(uint8_t *bytes, size_t length) {
    FILE *source = fopen("/dev/urandom", "rb");
    if (source == NULL) {
        return 1;
    }
    size_t got = fread(bytes, 1, length, source);
    fclose(source);
    return got != length;
}

/* The library wipes nothing, and an image is worth the key. */
static void wipe(uint8_t *bytes, size_t length) {
    volatile uint8_t *each = bytes;
    while (length-- > 0) {
        *each++ = 0;
    }
}

/* A label that is used once: the hall's name, and eight random bytes in hexadecimal. */
static int make_label(char label[HEADER_ROOM]) {
    uint8_t fresh[8];
    if (randomize(fresh, sizeof fresh) != 0) {
        return 1;
    }
    int at = snprintf(label, HEADER_ROOM, "reef hall, ");
    for (size_t i = 0; i < sizeof fresh; i++) {
        at += snprintf(label + at, HEADER_ROOM - (size_t)at, "%02x", (unsigned)fresh[i]);
    }
    return 0;
}

/* Seals a pair: the answer of the library. */
static uint8_t seal(uint8_t *image, const char *header, const char *body, struct pair *pair) {
    pair->header_length = strlen(header);
    pair->body_length = strlen(body);
    if (pair->header_length > HEADER_ROOM) {
        return FEEFLEDOWN_LONG_HEADER;
    }
    memcpy(pair->header, header, pair->header_length);
    return feefledown_wrap(image, FEEFLEDOWN_IMAGE, pair->header, pair->header_length, (const uint8_t *)body, pair->body_length,
                           pair->sealed, sizeof pair->sealed);
}

/* Opens a pair: the answer of the library. */
static uint8_t unseal(uint8_t *image, const struct pair *pair, uint8_t *body, size_t room) {
    return feefledown_unwrap(image, FEEFLEDOWN_IMAGE, pair->header, pair->header_length, pair->sealed, pair->body_length,
                             pair->sealed + pair->body_length, FEEFLEDOWN_TAG, body, room);
}

/* Whether a pair's header is this text. */
static int is_headed(const struct pair *pair, const char *text) {
    return pair->header_length == strlen(text) && memcmp(pair->header, text, pair->header_length) == 0;
}

/* The office: a session, the label with an empty body, and then the record. */
static int office(const uint8_t *key, size_t key_length, const char *label, const char *header, const char *body, struct pair pairs[2]) {
    uint8_t image[FEEFLEDOWN_IMAGE];
    uint8_t answer = feefledown_open(key, key_length, image, sizeof image);
    if (answer == 0) {
        answer = seal(image, label, "", &pairs[0]);
    }
    if (answer == 0) {
        answer = seal(image, header, body, &pairs[1]);
    }
    wipe(image, sizeof image);
    if (answer != 0) {
        fprintf(stderr, "the office was refused: %d\n", answer);
        return 1;
    }
    printf("The office has sealed the label '%s' and a record of %d bytes.\n", label, (int)pairs[1].body_length);
    return 0;
}

/* The desk: a session with the same key, the label first, and the record once the label is the one expected. */
static int desk(const uint8_t *key, size_t key_length, const char *label, const struct pair pairs[2], uint8_t *body, size_t room) {
    uint8_t image[FEEFLEDOWN_IMAGE];
    uint8_t answer = feefledown_open(key, key_length, image, sizeof image);
    if (answer == 0) {
        answer = unseal(image, &pairs[0], NULL, 0);
    }
    if (answer == 0 && !is_headed(&pairs[0], label)) {
        fprintf(stderr, "the desk was handed another label\n");
        wipe(image, sizeof image);
        return 1;
    }
    if (answer == 0) {
        printf("The desk has opened the label, and it is the one expected.\n");
        answer = unseal(image, &pairs[1], body, room);
    }
    wipe(image, sizeof image);
    if (answer != 0) {
        fprintf(stderr, "the desk was refused: %d\n", answer);
        return 1;
    }
    printf("The desk has opened '%.*s': %.*s\n", (int)pairs[1].header_length, (const char *)pairs[1].header,
           (int)pairs[1].body_length, (const char *)body);
    return 0;
}

int main(void) {
    const char *header = "member 17";
    const char *record = "season pass, two adults";
    uint8_t key[32], body[BODY_ROOM];
    char label[HEADER_ROOM];
    struct pair pairs[2];
    if (randomize(key, sizeof key) != 0 || make_label(label) != 0) {
        fprintf(stderr, "no random bytes\n");
        return 1;
    }
    int failed = office(key, sizeof key, label, header, record, pairs) != 0 ||
                 desk(key, sizeof key, label, pairs, body, sizeof body) != 0;
    wipe(key, sizeof key);
    if (failed) {
        return 1;
    }
    if (pairs[1].body_length != strlen(record) || memcmp(body, record, strlen(record)) != 0) {
        fprintf(stderr, "the record is not the one that was sealed\n");
        return 1;
    }
    printf("It is the record that was sealed.\n");
    return 0;
}
