/* Iterates X25519 from 9 and 9, by same.c or by OpenSSL, and prints the last result in hex. */
#include <openssl/evp.h>
#include <stdint.h>
#include <stdio.h>
#include <stdlib.h>
#include <string.h>

void x25519_same(uint8_t out[32], const uint8_t scalar[32], const uint8_t point[32]);

static void x25519_openssl(uint8_t out[32], const uint8_t scalar[32], const uint8_t point[32]) {
    size_t length = 32;
    EVP_PKEY *own = EVP_PKEY_new_raw_private_key(EVP_PKEY_X25519, NULL, scalar, 32);
    EVP_PKEY *other = EVP_PKEY_new_raw_public_key(EVP_PKEY_X25519, NULL, point, 32);
    EVP_PKEY_CTX *context = EVP_PKEY_CTX_new(own, NULL);
    if (EVP_PKEY_derive_init(context) <= 0 || EVP_PKEY_derive_set_peer(context, other) <= 0 ||
        EVP_PKEY_derive(context, out, &length) <= 0)
        exit(1);
    EVP_PKEY_CTX_free(context);
    EVP_PKEY_free(own);
    EVP_PKEY_free(other);
}

/* One private key and one context for all calls, so that only EVP_PKEY_derive is timed: with one argument more. */
static void derive_often(int count) {
    uint8_t nine[32] = {9}, out[32];
    size_t length = 32;
    EVP_PKEY *own = EVP_PKEY_new_raw_private_key(EVP_PKEY_X25519, NULL, nine, 32);
    EVP_PKEY *other = EVP_PKEY_new_raw_public_key(EVP_PKEY_X25519, NULL, nine, 32);
    EVP_PKEY_CTX *context = EVP_PKEY_CTX_new(own, NULL);
    if (EVP_PKEY_derive_init(context) <= 0 || EVP_PKEY_derive_set_peer(context, other) <= 0) exit(1);
    for (int i = 0; i < count; i++)
        if (EVP_PKEY_derive(context, out, &length) <= 0) exit(1);
}

int main(int argc, char **argv) {
    if (argc != 3) return 1;
    int count = atoi(argv[2]);
    uint8_t scalar[32] = {9}, point[32] = {9}, next[32];
    if (strcmp(argv[1], "derive") == 0) {
        derive_often(count);
        return 0;
    }
    for (int i = 0; i < count; i++) {
        (strcmp(argv[1], "same") == 0 ? x25519_same : x25519_openssl)(next, scalar, point);
        memcpy(point, scalar, 32);
        memcpy(scalar, next, 32);
    }
    for (int i = 0; i < 32; i++) printf("%02x", scalar[i]);
    printf("\n");
    return 0;
}
