/* Verifies an answer through the static library.

   usage: verify_answer KIND SEALER LOCK FIRST PICK ANSWER

   KIND is 1 (bit), 2 (word) or 3 (residue); SEALER is 1 (SHA-256) or 2 (SHA3-256); PICK is 1, 2 or 3.
   LOCK, FIRST and ANSWER are files with the bytes of the lock, the first message and the answer.

   Prints `accepted` (status 0) or `refused NUMBER BRANCH PLACE` (status 1); docs/FAULTS.md tells what the numbers mean.

   Built, after `rt lib` in crates/exports, by

       cc -std=c11 -Iinclude -o verify_answer examples/verify_answer.c \
           crates/exports/out/libexports.a
*/

#include <inttypes.h>
#include <stdint.h>
#include <stdio.h>
#include <stdlib.h>

#include "pozhuntaka.h"

struct bytes {
    uint8_t *at;
    size_t count;
};

static void fail(const char *what, const char *why)
{
    fprintf(stderr, "%s: %s\n", what, why);
    exit(2);
}

/* Memory that is there even for no bytes. */
static uint8_t *allocate(size_t count)
{
    uint8_t *at = calloc(count > 0 ? count : 1, 1);
    if (at == NULL)
        fail("memory", "there is not enough");
    return at;
}

static struct bytes read_file(const char *path)
{
    struct bytes bytes = { allocate(4096), 0 };
    size_t room = 4096;
    FILE *file = fopen(path, "rb");
    if (file == NULL)
        fail(path, "cannot be opened");
    for (;;) {
        size_t more = fread(bytes.at + bytes.count, 1, room - bytes.count, file);
        bytes.count += more;
        if (more == 0)
            break;
        if (bytes.count == room) {
            uint8_t *larger = realloc(bytes.at, 2 * room);
            if (larger == NULL)
                fail(path, "is too large");
            bytes.at = larger;
            room = 2 * room;
        }
    }
    if (ferror(file))
        fail(path, "cannot be read");
    fclose(file);
    return bytes;
}

static uint8_t read_number(const char *word)
{
    char *end;
    long value = strtol(word, &end, 10);
    if (end == word || *end != '\0' || value < 0 || value > 255)
        fail(word, "is no number from 0 to 255");
    return (uint8_t)value;
}

int main(int count, char **words)
{
    if (count != 7) {
        fprintf(stderr, "usage: verify_answer KIND SEALER LOCK FIRST PICK ANSWER\n");
        return 2;
    }
    uint8_t kind = read_number(words[1]);
    uint8_t sealer = read_number(words[2]);
    struct bytes lock = read_file(words[3]);
    struct bytes first = read_file(words[4]);
    uint8_t pick = read_number(words[5]);
    struct bytes answer = read_file(words[6]);

    /* A lock that cannot be read needs no work slices: pz_verify refuses it with the same fault. */
    struct pz_lengths lengths;
    struct pz_fault fault;
    size_t size = 0;
    if (pz_read_lock(kind, sealer, lock.at, lock.count, &lengths, &fault) == PZ_DONE)
        size = (size_t)lengths.work;
    uint8_t *work1 = allocate(size);
    uint8_t *work2 = allocate(size);

    uint8_t status = pz_verify(kind, sealer, lock.at, lock.count, first.at, first.count, pick, answer.at, answer.count,
                               work1, size, work2, size, &fault);
    free(work1);
    free(work2);
    free(lock.at);
    free(first.at);
    free(answer.at);

    switch (status) {
    case PZ_DONE:
        printf("accepted\n");
        return 0;
    case PZ_REFUSED:
        printf("refused %d %d %" PRIu64 "\n", fault.number, fault.branch, fault.place);
        return 1;
    case PZ_NO_KIND:
        fprintf(stderr, "no such kind\n");
        return 2;
    case PZ_NO_SEALER:
        fprintf(stderr, "no such sealer\n");
        return 2;
    default:
        fprintf(stderr, "status %d\n", status);
        return 2;
    }
}
