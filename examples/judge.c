/*
 * judge FILE: judges the chain in a bundle file as an OpenSSL client would, and says what is wrong with it.
 * samples/README.md has the form of the file. `tools/front_door.py` builds this program and tries it on the samples.
 * Its status: 0 accepted, 1 a rule is broken, 2 FILE can't be read, 3 the bundle is refused.
 */
#include "udrasmil.h"

#include <errno.h>
#include <inttypes.h>
#include <stdio.h>
#include <stdlib.h>
#include <string.h>

enum { ACCEPTED, BROKEN, UNREADABLE, REFUSED };

/* The word of a bundle that counts its certificates. */
enum { CERTIFICATES = 11 };

/* The most bytes that are read of a file, far more than any bundle has that is not refused. */
enum { MOST_FILE = 1 << 24 };

struct bundle {
    uint64_t *words;
    size_t nwords;
    const uint8_t *bytes;
    size_t nbytes;
};

/* By number; what OpenSSL asks ends with rule 15. */
static const char *const RULES[] = {
    [1] = "a chain must have at least two certificates",
    [2] = "the certificate must be in date",
    [3] = "the signature bytes inside the certificate and outside must be equal",
    [4] = "an issuer UID or subject UID needs version word 2 or 3",
    [5] = "a key usage must have at least one bit",
    [6] = "an RSA key must have at least 1024 bits",
    [7] = "the key ids of issuer and certificate must be there where they are due, and not critical",
    [8] = "the key's usages must allow a server's authentication",
    [9] = "a certificate above the leaf must be a CA, and its key usage must allow signing certificates",
    [10] = "a path length must not be negative, nor less than the number of certificates down to the leaf",
    [11] = "a list of alternative names must not be empty",
    [12] = "a leaf with an empty subject needs critical alternative names",
    [13] = "the issuer and its key id must be those of the next certificate",
    [14] = "the second certificate's names must keep to the first one's name constraints",
    [15] = "the leaf must name the host",
};

static const char *const REFUSALS[] = {
    [2] = "the bundle is too small or too large",
    [3] = "its edition is not 1",
    [4] = "a section begins in the header or ends past the words",
    [5] = "a number or a range points outside of its section or of the bytes",
    [6] = "a code is above its range, or extensions are denied that are there",
    [7] = "a text has a byte over 127",
    [8] = "the purpose is not 0, a server's authentication",
};

static const char *in_words(const char *const *texts, size_t count, uint64_t number)
{
    return number < count && texts[number] ? texts[number] : "see docs/RULES.md and docs/REFUSALS.md";
}

/* One line on standard error: what is wrong, and how to mend it. */
static int unreadable(const char *path, const char *wrong, const char *mend)
{
    fprintf(stderr, "judge: %s: %s. %s.\n", path, wrong, mend);
    return UNREADABLE;
}

/* The content of a file, or a null pointer with errno set. */
static uint8_t *read_file(const char *path, size_t *length)
{
    FILE *file = fopen(path, "rb");
    if (!file)
        return NULL;
    uint8_t *content = malloc(MOST_FILE + 1);
    *length = content ? fread(content, 1, MOST_FILE + 1, file) : 0;
    int why = errno;
    if (content && ferror(file)) {
        free(content);
        content = NULL;
    }
    fclose(file);
    errno = why;
    return content;
}

/* The low byte comes first. */
static uint64_t word_at(const uint8_t *from)
{
    uint64_t word = 0;
    for (int i = 7; i >= 0; i--)
        word = word << 8 | from[i];
    return word;
}

/* Finds the words and bytes in a file's content. Answers what is wrong with it, or a null pointer. */
static const char *decode(const uint8_t *file, size_t length, struct bundle *bundle)
{
    if (length > MOST_FILE)
        return "it is larger than 16 MiB, and no bundle is";
    if (length < 16)
        return "it is cut: a bundle file begins with two counts of eight bytes each";
    uint64_t nwords = word_at(file), nbytes = word_at(file + 8);
    size_t rest = length - 16;
    if (nwords > rest / 8 || nbytes > rest - 8 * nwords)
        return "it is cut: its two counts ask for more words and bytes than it has";
    if (nbytes < rest - 8 * nwords)
        return "it goes on behind the words and bytes that its two counts ask for";
    bundle->words = calloc(nwords + 1, sizeof *bundle->words);
    if (!bundle->words)
        return "there is no memory for it";
    for (size_t i = 0; i < nwords; i++)
        bundle->words[i] = word_at(file + 16 + 8 * i);
    bundle->nwords = nwords;
    bundle->bytes = file + 16 + 8 * nwords;
    bundle->nbytes = nbytes;
    return NULL;
}

static void print_position(const char *before, uint32_t position, uint64_t certificates)
{
    const char *end = position == 0 ? " (leaf)" : position + 1 == certificates ? " (root)" : "";
    if (position != UDRASMIL_NONE)
        printf("%s%" PRIu32 "%s", before, position, end);
}

static void print_entry(const uint32_t entry[3], uint64_t certificates)
{
    printf("rule %" PRIu32, entry[0]);
    print_position(", certificate ", entry[1], certificates);
    print_position(" and certificate ", entry[2], certificates);
    printf(": %s\n", in_words(RULES, sizeof RULES / sizeof *RULES, entry[0]));
}

static int judge(const struct bundle *bundle)
{
    uint32_t report[UDRASMIL_REPORT_WORDS];
    uint64_t answer[8];
    udrasmil_judge_openssl(bundle->words, bundle->nwords, bundle->bytes, bundle->nbytes, report, UDRASMIL_REPORT_WORDS, answer);
    if (answer[0] == 0) {
        printf("accepted: no rule is broken\n");
        return ACCEPTED;
    }
    if (answer[0] == 1) {
        printf("broken: %" PRIu64 " %s in the report\n", answer[6], answer[6] == 1 ? "entry" : "entries");
        for (uint64_t k = 0; k < answer[7]; k++)
            print_entry(report + 3 * k, bundle->words[CERTIFICATES]);
        return BROKEN;
    }
    printf("refused, number %" PRIu64 ", at word %" PRIu64 ": %s\n", answer[0], answer[3],
           in_words(REFUSALS, sizeof REFUSALS / sizeof *REFUSALS, answer[0]));
    return REFUSED;
}

int main(int argc, char **argv)
{
    if (argc != 2) {
        fprintf(stderr, "judge: give the path of one bundle file, for example: judge samples/broken.bundle\n");
        return UNREADABLE;
    }
    size_t length;
    uint8_t *file = read_file(argv[1], &length);
    if (!file)
        return unreadable(argv[1], strerror(errno), "Give the path of a bundle file that can be read");
    struct bundle bundle;
    const char *wrong = decode(file, length, &bundle);
    if (wrong) {
        free(file);
        return unreadable(argv[1], wrong, "Write it again as samples/README.md says");
    }
    int status = judge(&bundle);
    free(bundle.words);
    free(file);
    return status;
}
