/* AEAD_AES_SIV_CMAC_256 (RFC 5297) for NTS, by OpenSSL 3: the nonce is the last of the associated strings
 * (RFC 8915, section 5.6). OpenSSL's own cipher takes no empty plaintext, which a request of NTS has; its
 * synthetic IV is then made here of OpenSSL's CMAC. */
#ifndef EXAMPLES_AES_SIV_H
#define EXAMPLES_AES_SIV_H

#include <openssl/core_names.h>
#include <openssl/crypto.h>
#include <openssl/evp.h>
#include <string.h>

#include "lobzhinar.h"

enum { SIV_KEY_LEN = 32, SIV_IV_LEN = 16 };

/* CMAC by the first half of the key; 1 if it is made. */
static int siv_cmac(const uint8_t *key, NtpBytes data, uint8_t block[16]) {
    char cipher[] = "AES-128-CBC";
    OSSL_PARAM params[] = {OSSL_PARAM_construct_utf8_string(OSSL_MAC_PARAM_CIPHER, cipher, 0),
                           OSSL_PARAM_construct_end()};
    EVP_MAC *mac = EVP_MAC_fetch(NULL, "CMAC", NULL);
    EVP_MAC_CTX *context = EVP_MAC_CTX_new(mac);
    size_t len = 0;
    int made = EVP_MAC_init(context, key, SIV_KEY_LEN / 2, params) == 1 &&
               EVP_MAC_update(context, data.bytes, data.len) == 1 && EVP_MAC_final(context, block, &len, 16) == 1;
    EVP_MAC_CTX_free(context);
    EVP_MAC_free(mac);
    return made;
}

/* Twice a block in the field of 2^128 elements, and another block added. */
static void siv_double_and_add(uint8_t block[16], const uint8_t other[16]) {
    uint8_t over = (uint8_t)(block[0] >> 7);
    for (size_t i = 0; i < 16; i++)
        block[i] = (uint8_t)(block[i] << 1 | (i < 15 ? block[i + 1] >> 7 : 0));
    block[15] ^= (uint8_t)(over * 0x87);
    for (size_t i = 0; i < 16; i++)
        block[i] ^= other[i];
}

/* The synthetic IV of an empty plaintext. */
static int siv_of_nothing(const uint8_t *key, NtpBytes associated_data, NtpBytes nonce, uint8_t iv[SIV_IV_LEN]) {
    static const uint8_t zero[16], padded[16] = {0x80};
    uint8_t block[16], other[16];
    if (!siv_cmac(key, ntp_bytes(zero, 16), block)) return 0;
    if (!siv_cmac(key, associated_data, other)) return 0;
    siv_double_and_add(block, other);
    if (!siv_cmac(key, nonce, other)) return 0;
    siv_double_and_add(block, other);
    siv_double_and_add(block, padded);
    return siv_cmac(key, ntp_bytes(block, 16), iv);
}

/* Takes the associated strings, and opens or seals `in` to `out`, which is as long. */
static int siv_run(EVP_CIPHER_CTX *context, NtpBytes associated_data, NtpBytes nonce, NtpBytes in, uint8_t *out) {
    int len = 0;
    return EVP_CipherUpdate(context, NULL, &len, associated_data.bytes, (int)associated_data.len) == 1 &&
           EVP_CipherUpdate(context, NULL, &len, nonce.bytes, (int)nonce.len) == 1 &&
           EVP_CipherUpdate(context, out, &len, in.bytes, (int)in.len) == 1 &&
           EVP_CipherFinal_ex(context, out + in.len, &len) == 1;
}

static EVP_CIPHER_CTX *siv_context(const uint8_t *key, int seals) {
    EVP_CIPHER *cipher = EVP_CIPHER_fetch(NULL, "AES-128-SIV", NULL);
    EVP_CIPHER_CTX *context = EVP_CIPHER_CTX_new();
    if (EVP_CipherInit_ex2(context, cipher, key, NULL, seals, NULL) != 1) {
        EVP_CIPHER_CTX_free(context);
        context = NULL;
    }
    EVP_CIPHER_free(cipher);
    return context;
}

/* Writes the plaintext to `out`, which has room for all of the ciphertext; 1 only if the ciphertext is authentic. */
static int siv_open(const uint8_t *key, NtpBytes associated_data, NtpBytes nonce, NtpBytes ciphertext, uint8_t *out) {
    uint8_t iv[SIV_IV_LEN];
    if (ciphertext.len < SIV_IV_LEN) return 0;
    NtpBytes rest = ntp_bytes(ciphertext.bytes + SIV_IV_LEN, ciphertext.len - SIV_IV_LEN);
    if (rest.len == 0)
        return siv_of_nothing(key, associated_data, nonce, iv) && CRYPTO_memcmp(iv, ciphertext.bytes, SIV_IV_LEN) == 0;
    memcpy(iv, ciphertext.bytes, SIV_IV_LEN);
    EVP_CIPHER_CTX *context = siv_context(key, 0);
    int opened = context != NULL && EVP_CIPHER_CTX_ctrl(context, EVP_CTRL_AEAD_SET_TAG, SIV_IV_LEN, iv) == 1 &&
                 siv_run(context, associated_data, nonce, rest, out) == 1;
    EVP_CIPHER_CTX_free(context);
    return opened;
}

/* Writes the ciphertext to `out`, which has room for the plaintext and 16 bytes more. */
static int siv_seal(const uint8_t *key, NtpBytes associated_data, NtpBytes nonce, NtpBytes plaintext, uint8_t *out) {
    if (plaintext.len == 0) return siv_of_nothing(key, associated_data, nonce, out);
    EVP_CIPHER_CTX *context = siv_context(key, 1);
    int sealed = context != NULL && siv_run(context, associated_data, nonce, plaintext, out + SIV_IV_LEN) == 1 &&
                 EVP_CIPHER_CTX_ctrl(context, EVP_CTRL_AEAD_GET_TAG, SIV_IV_LEN, out) == 1;
    EVP_CIPHER_CTX_free(context);
    return sealed;
}

#endif
