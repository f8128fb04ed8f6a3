/* Steps by OpenSSL: by the calls of SHA256 and AES themselves, and by EVP, the only way to the processor's AES instructions. */
#include <openssl/aes.h>
#include <openssl/evp.h>
#include <openssl/sha.h>
#include "steps.h"

static void sha256(const unsigned char *bytes, unsigned char *digest)
{
    SHA256_CTX sha;
    SHA256_Init(&sha);
    SHA256_Update(&sha, bytes, 36);
    SHA256_Final(digest, &sha);
}

SHA256_STEPS(openssl_sha256_steps, sha256)

static void aes(const unsigned char *key, const unsigned char *string, unsigned char *block)
{
    AES_KEY keys;
    AES_set_encrypt_key(key, 128, &keys);
    AES_encrypt(string, block, &keys);
}

AES_STEPS(openssl_aes_steps, aes)

/* The cipher is looked up once, for all turns. */
static void evp(const unsigned char *key, const unsigned char *string, unsigned char *block)
{
    static EVP_CIPHER_CTX *context;
    int length;
    if (!context) {
        context = EVP_CIPHER_CTX_new();
        EVP_EncryptInit_ex(context, EVP_aes_128_ecb(), NULL, NULL, NULL);
    }
    EVP_EncryptInit_ex(context, NULL, NULL, key, NULL);
    EVP_EncryptUpdate(context, block, &length, string, 16);
}

AES_STEPS(openssl_evp_steps, evp)
