#include "rsa.h"

#include <openssl/crypto.h>
#include <openssl/err.h>
#include <openssl/evp.h>
#include <openssl/rsa.h>
#include <openssl/x509.h>
#include <string.h>

#include "blocks.h"
#include "checks.h"
#include "spoils.h"
#include "tries.h"
#include "vector_003.h"

#define MOST_DATA 300

const char *rsa_library(void) {
    return OpenSSL_version(OPENSSL_VERSION);
}

/* ---- The library's operations, all of one form. */

struct operation {
    int (*init)(EVP_PKEY_CTX *);
    int (*run)(EVP_PKEY_CTX *, unsigned char *, size_t *, const unsigned char *, size_t);
};

static const struct operation op_sign = {EVP_PKEY_sign_init, EVP_PKEY_sign};
static const struct operation op_recover = {EVP_PKEY_verify_recover_init, EVP_PKEY_verify_recover};
static const struct operation op_encrypt = {EVP_PKEY_encrypt_init, EVP_PKEY_encrypt};
static const struct operation op_decrypt = {EVP_PKEY_decrypt_init, EVP_PKEY_decrypt};

static EVP_PKEY_CTX *context(EVP_PKEY *key, int (*init)(EVP_PKEY_CTX *), int padding, const EVP_MD *digest) {
    EVP_PKEY_CTX *ctx = EVP_PKEY_CTX_new(key, NULL);
    if (ctx == NULL || init(ctx) <= 0 || EVP_PKEY_CTX_set_rsa_padding(ctx, padding) <= 0) {
        give_up("OpenSSL refuses a key or a padding");
    }
    if (digest != NULL && EVP_PKEY_CTX_set_signature_md(ctx, digest) <= 0) {
        give_up("OpenSSL refuses a digest");
    }
    return ctx;
}

/* Newer libraries answer bad padding with random bytes unless told not to; older ones do not know the word. */
static void show_refusals(EVP_PKEY_CTX *ctx, const struct operation *op, int padding) {
    if (op == &op_decrypt && padding == RSA_PKCS1_PADDING) {
        EVP_PKEY_CTX_ctrl_str(ctx, "rsa_pkcs1_implicit_rejection", "0");
    }
}

/* Runs the operation; *len is the length of what it wrote. False where the library refuses. */
static bool library(const struct operation *op, EVP_PKEY *key, int padding, const EVP_MD *digest, const uint8_t *in,
                    size_t n, uint8_t out[BLOCK], size_t *len) {
    EVP_PKEY_CTX *ctx = context(key, op->init, padding, digest);
    show_refusals(ctx, op, padding);
    *len = BLOCK;
    bool done = op->run(ctx, out, len, in, n) > 0;
    EVP_PKEY_CTX_free(ctx);
    ERR_clear_error();
    return done;
}

/* The RSA operation itself, 256 bytes to 256 bytes. */
static bool raw(const struct operation *op, EVP_PKEY *key, const uint8_t in[BLOCK], uint8_t out[BLOCK]) {
    size_t len;
    return library(op, key, RSA_NO_PADDING, NULL, in, BLOCK, out, &len) && len == BLOCK;
}

static bool verifies(EVP_PKEY *key, const EVP_MD *digest, const uint8_t signature[BLOCK], const uint8_t *hash, size_t n) {
    EVP_PKEY_CTX *ctx = context(key, EVP_PKEY_verify_init, RSA_PKCS1_PADDING, digest);
    bool good = EVP_PKEY_verify(ctx, signature, BLOCK, hash, n) == 1;
    EVP_PKEY_CTX_free(ctx);
    ERR_clear_error();
    return good;
}

static EVP_PKEY *new_key(void) {
    EVP_PKEY *key = NULL;
    EVP_PKEY_CTX *ctx = EVP_PKEY_CTX_new_id(EVP_PKEY_RSA, NULL);
    if (ctx == NULL || EVP_PKEY_keygen_init(ctx) <= 0 || EVP_PKEY_CTX_set_rsa_keygen_bits(ctx, 8 * BLOCK) <= 0 ||
        EVP_PKEY_keygen(ctx, &key) <= 0) {
        give_up("OpenSSL makes no RSA key");
    }
    EVP_PKEY_CTX_free(ctx);
    return key;
}

/* ---- The key host's work. */

/* Jobs 1 and 2: our padding, then the private operation. */
static bool host_sign(EVP_PKEY *key, const uint8_t *data, size_t n, uint8_t signature[BLOCK]) {
    uint8_t before[BLOCK], block[BLOCK];
    memset(before, 0x77, BLOCK);
    if (try_pad(BEFORE_A_WALL, data, n, before, BLOCK, block) != BLOCK || !raw(&op_sign, key, block, signature)) {
        return false;
    }
    spoil_byte(SIGNATURE_BYTE, &signature[200]);
    return true;
}

/* Job 3: the private operation, then our stripping; answers where the message starts in the block. */
static size_t host_decipher(EVP_PKEY *key, const uint8_t cryptogram[BLOCK], uint8_t block[BLOCK]) {
    return raw(&op_decrypt, key, cryptogram, block) ? try_strip(BEFORE_A_WALL, block, BLOCK) : 0;
}

/* ---- Signatures over the five digests of document 01. */

struct digest {
    const char *group;
    const EVP_MD *(*md)(void);
    uint8_t l, a, h;
};

static const struct digest digests[] = {
    {"sign: SHA-1, verified by the library", EVP_sha1, 0x21, 0x00, 0x14},
    {"sign: SHA-224, verified by the library", EVP_sha224, 0x2D, 0x04, 0x1C},
    {"sign: SHA-256, verified by the library", EVP_sha256, 0x31, 0x01, 0x20},
    {"sign: SHA-384, verified by the library", EVP_sha384, 0x41, 0x02, 0x30},
    {"sign: SHA-512, verified by the library", EVP_sha512, 0x51, 0x03, 0x40},
};

/* Writes the bytes before the digest, as document 01 has them, and returns how many. */
static size_t digest_header(const struct digest *d, uint8_t *to) {
    const uint8_t sha1[] = {0x30, d->l, 0x30, 0x09, 0x06, 0x05, 0x2B, 0x0E, 0x03, 0x02, 0x1A, 0x05, 0x00, 0x04, d->h};
    const uint8_t sha2[] = {0x30, d->l, 0x30, 0x0D, 0x06, 0x09, 0x60, 0x86, 0x48, 0x01,
                            0x65, 0x03, 0x04, 0x02, d->a, 0x05, 0x00, 0x04, d->h};
    size_t n = d->a == 0 ? sizeof sha1 : sizeof sha2;
    memcpy(to, d->a == 0 ? sha1 : sha2, n);
    spoil_byte(DIGEST_HEADER, &to[7]);
    return n;
}

static void check_digest(EVP_PKEY *key, const struct digest *d) {
    uint8_t text[100], info[128], ours[BLOCK] = {0}, theirs[BLOCK] = {0};
    unsigned int h = 0;
    size_t len;
    group_begin(d->group);
    fill_plain(text, sizeof text);
    size_t header = digest_header(d, info);
    uint8_t *hash = info + header;
    if (EVP_Digest(text, sizeof text, hash, &h, d->md(), NULL) != 1 || h != d->h) {
        give_up("OpenSSL computes no digest");
    }
    check(host_sign(key, info, header + h, ours), "the digest is padded and signed", header, h);
    check(verifies(key, d->md(), ours, hash, h), "the library verifies the signature", header, h);
    check(library(&op_sign, key, RSA_PKCS1_PADDING, d->md(), hash, h, theirs, &len) && memcmp(ours, theirs, BLOCK) == 0,
          "the library's own signature is the same", header, h);
    group_end();
}

/* ---- Other data, as INTERNAL AUTHENTICATE has it. */

static void check_data(EVP_PKEY *key, const uint8_t *data, size_t n) {
    uint8_t ours[BLOCK] = {0}, theirs[BLOCK] = {0}, back[BLOCK];
    size_t len;
    bool taken = host_sign(key, data, n, ours);
    check(taken == library(&op_sign, key, RSA_PKCS1_PADDING, NULL, data, n, theirs, &len),
          "pad and the library take the same lengths", n, taken);
    check(memcmp(ours, theirs, BLOCK) == 0, "the library's own signature is the same", n, taken);
    if (n <= MOST) {
        check(library(&op_recover, key, RSA_PKCS1_PADDING, NULL, ours, BLOCK, back, &len) && len == n &&
                  memcmp(back, data, n) == 0,
              "the library recovers the data", n, taken);
    }
}

static void check_authenticate(EVP_PKEY *key) {
    uint8_t data[MOST_DATA];
    group_begin("authenticate: 1 to 300 bytes, compared with the library's");
    fill_plain(data, MOST_DATA);
    for (size_t n = 1; n <= MOST_DATA; n++) {
        check_data(key, data, n);
    }
    group_end();
}

/* ---- Deciphering. */

static void check_decipher(EVP_PKEY *key) {
    uint8_t message[MOST], cryptogram[BLOCK], block[BLOCK];
    size_t len;
    group_begin("decipher: messages of 0 to 245 bytes, encrypted by the library");
    fill_plain(message, MOST);
    for (size_t n = 0; n <= MOST; n++) {
        if (!library(&op_encrypt, key, RSA_PKCS1_PADDING, NULL, message, n, cryptogram, &len)) {
            give_up("OpenSSL does not encrypt");
        }
        spoil_byte(CRYPTOGRAM_BYTE, &cryptogram[200]);
        size_t start = host_decipher(key, cryptogram, block);
        check(start == BLOCK - n, "strip answers where the message starts", start, BLOCK - n);
        check(start == BLOCK - n && memcmp(block + start, message, n) == 0, "the message is the one encrypted", n, start);
    }
    group_end();
}

/* The library's own stripping of the block, after the library's raw encryption of it, beside ours. */
static void compare_strip(EVP_PKEY *key, const uint8_t block[BLOCK], size_t which) {
    uint8_t cryptogram[BLOCK], message[BLOCK];
    size_t len;
    if (!raw(&op_encrypt, key, block, cryptogram)) {
        give_up("OpenSSL does not encrypt");
    }
    size_t start = try_strip(BEFORE_A_WALL, block, BLOCK);
    bool taken = library(&op_decrypt, key, RSA_PKCS1_PADDING, NULL, cryptogram, BLOCK, message, &len);
    check(taken == (start != 0), "strip and the library take the same blocks", which, start);
    if (taken) {
        check(start + len == BLOCK && memcmp(block + start, message, len) == 0, "both give the same message", start, len);
    }
}

static void check_same_blocks(EVP_PKEY *key) {
    static const uint8_t firsts[] = {0x01, 0x02, 0x80}, seconds[] = {0x00, 0x01, 0x03, 0xFF};
    uint8_t block[BLOCK];
    group_begin("strip: compared with the library's on each separator, wrong starts");
    for (size_t separator = 2; separator <= BLOCK; separator++) {
        fill_type_2(block, separator);
        compare_strip(key, block, separator);
    }
    for (size_t i = 0; i < sizeof firsts; i++) {
        fill_type_2(block, 20);
        block[0] = firsts[i];
        compare_strip(key, block, firsts[i]);
    }
    for (size_t i = 0; i < sizeof seconds; i++) {
        fill_type_2(block, 20);
        block[1] = seconds[i];
        compare_strip(key, block, seconds[i]);
    }
    group_end();
}

/* ---- The outside vector. */

static uint8_t digit(char c) {
    const char *digits = "0123456789ABCDEF", *found = strchr(digits, c);
    if (c == 0 || found == NULL) {
        give_up("003's vector has something that is no hexadecimal digit");
    }
    return (uint8_t)(found - digits);
}

/* The bytes that the text prints; it must print n. */
static void print_to_bytes(const char *text, uint8_t *to, size_t n) {
    size_t got = 0;
    while (*text != 0) {
        if (*text == ' ') {
            text++;
            continue;
        }
        if (got == n) {
            give_up("003's vector is too long");
        }
        to[got++] = (uint8_t)(digit(text[0]) << 4 | digit(text[1]));
        text += 2;
    }
    if (got != n) {
        give_up("003's vector is too short");
    }
}

static EVP_PKEY *vector_key(void) {
    static const uint8_t header[] = {0x30, 0x82, 0x01, 0x23, 0x30, 0x0D, 0x06, 0x09, 0x2A, 0x86, 0x48,
                                     0x86, 0xF7, 0x0D, 0x01, 0x01, 0x01, 0x05, 0x00, 0x03, 0x82, 0x01,
                                     0x10, 0x00, 0x30, 0x82, 0x01, 0x0B, 0x02, 0x82, 0x01, 0x01, 0x00};
    uint8_t der[sizeof header + BLOCK + 6];
    uint8_t *modulus = der + sizeof header, *exponent = modulus + BLOCK;
    const unsigned char *read = der;
    memcpy(der, header, sizeof header);
    print_to_bytes(vector_modulus, modulus, BLOCK);
    exponent[0] = 0x02;
    exponent[1] = 0x04;
    print_to_bytes(vector_exponent, exponent + 2, 4);
    EVP_PKEY *key = d2i_PUBKEY(NULL, &read, (long)sizeof der);
    if (key == NULL) {
        give_up("OpenSSL does not read 003's public key");
    }
    return key;
}

static void check_vector(void) {
    uint8_t challenge[24], response[BLOCK], before[BLOCK], ours[BLOCK], recovered[BLOCK], data[BLOCK];
    size_t len;
    EVP_PKEY *key = vector_key();
    group_begin("003, page 65: the block recovered from the printed response");
    print_to_bytes(vector_challenge, challenge, sizeof challenge);
    print_to_bytes(vector_response, response, BLOCK);
    spoil_byte(VECTOR_CHALLENGE, &challenge[5]);
    spoil_byte(VECTOR_RESPONSE, &response[100]);
    memset(before, 0x77, BLOCK);
    check(try_pad(BEFORE_A_WALL, challenge, sizeof challenge, before, BLOCK, ours) == BLOCK, "pad takes the challenge", 24, 0);
    check(raw(&op_encrypt, key, response, recovered) && memcmp(recovered, ours, BLOCK) == 0,
          "the recovered block is pad's of the challenge", 24, 0);
    check(library(&op_recover, key, RSA_PKCS1_PADDING, NULL, response, BLOCK, data, &len) && len == sizeof challenge &&
              memcmp(data, challenge, sizeof challenge) == 0,
          "the library recovers the challenge", 24, 0);
    group_end();
    EVP_PKEY_free(key);
}

void check_rsa(void) {
    EVP_PKEY *key = new_key();
    for (size_t i = 0; i < sizeof digests / sizeof digests[0]; i++) {
        check_digest(key, &digests[i]);
    }
    check_authenticate(key);
    check_decipher(key);
    check_same_blocks(key);
    check_vector();
    EVP_PKEY_free(key);
}
