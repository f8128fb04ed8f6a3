/* Chains of steps of both hashes by the calls of a library in C, in place. */
#include <stdint.h>
#include <string.h>

/* One SHA-256 of 36 bytes to a turn: DIGEST(bytes, digest). */
#define SHA256_STEPS(NAME, DIGEST) \
void NAME(const unsigned char *key, unsigned char *string, uint32_t turns) \
{ \
    unsigned char bytes[36], digest[32]; \
    memcpy(bytes, "STEP", 4); \
    memcpy(bytes + 4, key, 16); \
    while (turns-- > 0) { \
        memcpy(bytes + 20, string, 16); \
        DIGEST(bytes, digest); \
        memcpy(string, digest, 16); \
    } \
}

/* One key schedule of AES-128 and one block to a turn: ENCRYPT(key, string, block). */
#define AES_STEPS(NAME, ENCRYPT) \
void NAME(const unsigned char *key, unsigned char *string, uint32_t turns) \
{ \
    while (turns-- > 0) { \
        unsigned char block[16]; \
        ENCRYPT(key, string, block); \
        for (int j = 0; j < 16; j++) \
            string[j] ^= block[j]; \
    } \
}
