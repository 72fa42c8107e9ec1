/* SHA-256 by libcrypto. The low-level calls, because EVP allocates and looks the algorithm up. */
#define OPENSSL_SUPPRESS_DEPRECATED
#include <openssl/crypto.h>
#include <openssl/sha.h>
#include <stdint.h>

void openssl_sha256(const uint8_t *message, size_t bytes, uint8_t *digest)
{
    SHA256_CTX context;
    SHA256_Init(&context);
    SHA256_Update(&context, message, bytes);
    SHA256_Final(digest, &context);
}

const char *openssl_version(void)
{
    return OpenSSL_version(OPENSSL_VERSION);
}
