/* Steps by BearSSL's portable C. */
#include <bearssl.h>
#include "steps.h"

static void sha256(const unsigned char *bytes, unsigned char *digest)
{
    br_sha256_context sha;
    br_sha256_init(&sha);
    br_sha256_update(&sha, bytes, 36);
    br_sha256_out(&sha, digest);
}

SHA256_STEPS(bearssl_sha256_steps, sha256)

/* CBC of one block from a zero vector is the bare cipher. */
#define AES(KIND) \
static void KIND(const unsigned char *key, const unsigned char *string, unsigned char *block) \
{ \
    br_aes_##KIND##_cbcenc_keys keys; \
    unsigned char vector[16] = { 0 }; \
    memcpy(block, string, 16); \
    br_aes_##KIND##_cbcenc_init(&keys, key, 16); \
    br_aes_##KIND##_cbcenc_run(&keys, vector, block, 16); \
} \
\
AES_STEPS(bearssl_aes_##KIND##_steps, KIND)

AES(big)
AES(ct)
