/* OpenSSL's Ed25519, so many times over: bench-c key N, sign N, sign-whole N or verify N.
 *
 * A key is made of a secret, a signature by a key that is kept or, as sign-whole, by one that is made of the secret anew,
 * as the proved program does; a verification reads the key anew. Prints what it came to, in hex, or how many were valid. */
#include <openssl/evp.h>
#include <stdio.h>
#include <stdlib.h>
#include <string.h>

static unsigned char secret[32] = {
    0x9d, 0x61, 0xb1, 0x9d, 0xef, 0xfd, 0x5a, 0x60, 0xba, 0x84, 0x4a, 0xf4, 0x92, 0xec, 0x2c, 0xc4,
    0x44, 0x49, 0xc5, 0x69, 0x7b, 0x32, 0x69, 0x19, 0x70, 0x3b, 0xac, 0x03, 0x1c, 0xae, 0x7f, 0x60,
};

static EVP_PKEY *private_key(void) { return EVP_PKEY_new_raw_private_key(EVP_PKEY_ED25519, NULL, secret, 32); }

static void sign(EVP_PKEY *key, unsigned char *signature, const unsigned char *message, size_t length)
{
    size_t size = 64;
    EVP_MD_CTX *context = EVP_MD_CTX_new();
    if (EVP_DigestSignInit(context, NULL, NULL, NULL, key) != 1 || EVP_DigestSign(context, signature, &size, message, length) != 1)
        exit(2);
    EVP_MD_CTX_free(context);
}

static int verify(const unsigned char *public_key, const unsigned char *signature, const unsigned char *message, size_t length)
{
    EVP_PKEY *key = EVP_PKEY_new_raw_public_key(EVP_PKEY_ED25519, NULL, public_key, 32);
    EVP_MD_CTX *context = EVP_MD_CTX_new();
    int valid = EVP_DigestVerifyInit(context, NULL, NULL, NULL, key) == 1 && EVP_DigestVerify(context, signature, 64, message, length) == 1;
    EVP_MD_CTX_free(context);
    EVP_PKEY_free(key);
    return valid;
}

static void print(const unsigned char *bytes, int length)
{
    for (int i = 0; i < length; i++)
        printf("%02x", bytes[i]);
    printf("\n");
}

int main(int argc, char **argv)
{
    if (argc != 3)
        return 1;
    int count = atoi(argv[2]);
    unsigned char public_key[32], signature[64], message[64] = {0};
    size_t size = 32, length = 1;
    EVP_PKEY *kept = private_key();
    if (strcmp(argv[1], "key") == 0) {
        for (int i = 0; i < count; i++) {
            EVP_PKEY *key = private_key();
            size = 32;
            if (EVP_PKEY_get_raw_public_key(key, secret, &size) != 1)
                return 2;
            EVP_PKEY_free(key);
        }
        print(secret, 32);
    } else if (strcmp(argv[1], "sign") == 0 || strcmp(argv[1], "sign-whole") == 0) {
        for (int i = 0; i < count; i++) {
            EVP_PKEY *key = argv[1][4] ? private_key() : kept;
            sign(key, signature, message, length);
            memcpy(message, signature, 64);
            length = 64;
            if (argv[1][4])
                EVP_PKEY_free(key);
        }
        print(signature, 64);
    } else {
        int valid = 0;
        EVP_PKEY_get_raw_public_key(kept, public_key, &size);
        sign(kept, signature, message, length);
        for (int i = 0; i < count; i++)
            valid += verify(public_key, signature, message, length);
        printf("%d\n", valid);
    }
    EVP_PKEY_free(kept);
    return 0;
}
