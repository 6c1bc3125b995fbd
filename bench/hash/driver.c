/* Times the proved sealers beside plain C, in alternation, on messages of 65,535 bytes. Ends with 1 where two digests differ. */
#include "plain.h"
#include <stdbool.h>
#include <stdio.h>
#include <string.h>
#include <time.h>

/* the static library of the crate hash_exports: a slice is a pointer and then a length */
bool seal_sha256(const uint8_t *message, size_t length, uint8_t *out, size_t room);
bool seal_sha3_256(const uint8_t *message, size_t length, uint8_t *out, size_t room);

enum { LENGTH = 65535, MESSAGES = 100, TURNS = 40 };

typedef void plain_hash(const uint8_t *, size_t, uint8_t *);
typedef bool proved_hash(const uint8_t *, size_t, uint8_t *, size_t);

static uint8_t message[LENGTH];

static double seconds(void)
{
    struct timespec t;
    clock_gettime(CLOCK_THREAD_CPUTIME_ID, &t);
    return (double)t.tv_sec + 1e-9 * (double)t.tv_nsec;
}

/* each message takes in the digest of the one before, so that no call can be left out */
static double time_plain(plain_hash *hash, uint8_t out[32])
{
    double start = seconds();
    for (int i = 0; i < MESSAGES; i++) {
        memcpy(message, out, 32);
        hash(message, LENGTH, out);
    }
    return seconds() - start;
}

static double time_proved(proved_hash *hash, uint8_t out[32])
{
    double start = seconds();
    for (int i = 0; i < MESSAGES; i++) {
        memcpy(message, out, 32);
        if (!hash(message, LENGTH, out, 32))
            return -1;
    }
    return seconds() - start;
}

static int compare(const char *name, plain_hash *plain, proved_hash *proved)
{
    uint8_t a[32] = {0}, b[32] = {0};
    double all_plain = 0, all_proved = 0, best_plain = 1e9, best_proved = 1e9;
    for (size_t length = 0; length <= 300; length++) {
        plain(message, length, a);
        if (!proved(message, length, b, 32) || memcmp(a, b, 32) != 0)
            return printf("%s: the digests of %zu bytes differ\n", name, length), 1;
    }
    for (int t = 0; t < TURNS; t++) {
        double p = time_plain(plain, a), q = time_proved(proved, b);
        if (q < 0 || memcmp(a, b, 32) != 0)
            return printf("%s: the digests differ\n", name), 1;
        all_plain += p, all_proved += q;
        best_plain = p < best_plain ? p : best_plain;
        best_proved = q < best_proved ? q : best_proved;
    }
    double mb = (double)LENGTH * MESSAGES * 1e-6;
    printf("%-9s C %6.1f MB/s, proved %6.1f MB/s, ratio of times %.3f (best turns), %.3f (all turns)\n", name, mb / best_plain,
           mb / best_proved, best_proved / best_plain, all_proved / all_plain);
    return 0;
}

int main(void)
{
    for (size_t i = 0; i < LENGTH; i++)
        message[i] = (uint8_t)(i % 251);
    int wrong = compare("SHA-256", plain_sha256, seal_sha256);
    return wrong | compare("SHA3-256", plain_sha3_256, seal_sha3_256);
}
