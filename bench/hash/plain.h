/* SHA-256 and SHA3-256 in plain portable C, to compare with. */
#include <stddef.h>
#include <stdint.h>

void plain_sha256(const uint8_t *message, size_t length, uint8_t out[32]);
void plain_sha3_256(const uint8_t *message, size_t length, uint8_t out[32]);
