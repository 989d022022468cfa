/* Folds a file through the library, as `yilmacrab fold` does: fold FILE TABLE MAP [bind NAME SECTION | pin SECTION | root SECTION | sweep |
 * fold].. writes the section table of what is left to TABLE and the fold map to MAP. */
#include "yilmacrab.h"

#include <inttypes.h>
#include <stddef.h>
#include <stdio.h>
#include <stdlib.h>
#include <string.h>

_Static_assert(sizeof(struct yilmacrab_call) == 6, "the layout of a call");
_Static_assert(sizeof(struct yilmacrab_reply) == 48, "the layout of a reply");
_Static_assert(offsetof(struct yilmacrab_reply, place) == 8 && offsetof(struct yilmacrab_reply, layer) == 16
                   && offsetof(struct yilmacrab_reply, present) == 20 && offsetof(struct yilmacrab_reply, table_length) == 32
                   && offsetof(struct yilmacrab_reply, map_length) == 40,
               "the layout of a reply");

enum { MOST_CALLS = 4096 };

/* A block of memory, also where it has no bytes. */
static uint8_t *block(size_t length)
{
    uint8_t *bytes = malloc(length + 1);
    if (bytes == NULL) {
        fputs("fold: no memory\n", stderr);
        exit(1);
    }
    return bytes;
}

static uint8_t *load(const char *path, size_t *length)
{
    FILE *file = fopen(path, "rb");
    long end = -1;
    if (file != NULL && fseek(file, 0, SEEK_END) == 0)
        end = ftell(file);
    if (end < 0 || fseek(file, 0, SEEK_SET) != 0) {
        perror(path);
        exit(1);
    }
    *length = (size_t)end;
    uint8_t *bytes = block(*length);
    if (fread(bytes, 1, *length, file) != *length) {
        perror(path);
        exit(1);
    }
    fclose(file);
    return bytes;
}

static void store(const char *path, const uint8_t *bytes, size_t length)
{
    FILE *file = fopen(path, "wb");
    if (file == NULL || fwrite(bytes, 1, length, file) != length || fclose(file) != 0) {
        perror(path);
        exit(1);
    }
}

static uint16_t number(const char *word)
{
    /* digits alone: strtoul would take blanks and signs before them */
    if (word != NULL && *word != '\0' && strspn(word, "0123456789") == strlen(word)) {
        unsigned long value = strtoul(word, NULL, 10);
        if (value <= 65535)
            return (uint16_t)value;
    }
    fprintf(stderr, "fold: %s is no number from 0 to 65535\n", word == NULL ? "nothing" : word);
    exit(1);
}

/* The calls that the words tell. */
static size_t read_calls(char **words, struct yilmacrab_call *calls)
{
    static const struct {
        const char *word;
        uint16_t kind, numbers;
    } kinds[] = {
        {"bind", YILMACRAB_BIND, 2},
        {"pin", YILMACRAB_PIN, 1},
        {"root", YILMACRAB_ROOT, 1},
        {"sweep", YILMACRAB_SWEEP, 0},
        {"fold", YILMACRAB_FOLD, 0},
    };
    size_t count = 0;
    while (*words != NULL && count < MOST_CALLS) {
        size_t k = 0;
        while (k < 5 && strcmp(*words, kinds[k].word) != 0)
            k++;
        if (k == 5) {
            fprintf(stderr, "fold: no call is called %s\n", *words);
            exit(1);
        }
        words++;
        struct yilmacrab_call call = {kinds[k].kind, 0, 0};
        if (kinds[k].numbers > 0)
            call.first = number(*words++);
        if (kinds[k].numbers > 1)
            call.second = number(*words++);
        calls[count++] = call;
    }
    if (*words != NULL) {
        fprintf(stderr, "fold: more than %d calls\n", MOST_CALLS);
        exit(1);
    }
    return count;
}

/* Says why nothing is written. */
static int refuse(const struct yilmacrab_reply *reply)
{
    switch (reply->status) {
    case YILMACRAB_REFUSED:
        printf("F%12" PRIu32 "%12" PRIu64 "%12" PRIu32 "\n", reply->number, reply->place, reply->layer);
        break;
    case YILMACRAB_NO_MEMORY:
        fputs("fold: no memory\n", stderr);
        break;
    default:
        fprintf(stderr, "fold: call %" PRIu64 " is none\n", reply->place);
    }
    return 1;
}

int main(int argc, char **argv)
{
    static struct yilmacrab_call calls[MOST_CALLS];
    struct yilmacrab_reply reply;
    if (argc < 4) {
        fputs("usage: fold FILE TABLE MAP [bind NAME SECTION | pin SECTION | root SECTION | sweep | fold]..\n", stderr);
        return 1;
    }
    size_t count = read_calls(argv + 4, calls);
    size_t length;
    uint8_t *file = load(argv[1], &length);

    /* no room: only the lengths are asked for */
    uint8_t none;
    yilmacrab_fold(file, length, calls, count, &none, 0, &none, 0, &reply);
    uint8_t *table = block(reply.table_length);
    uint8_t *map = block(reply.map_length);
    if (yilmacrab_fold(file, length, calls, count, table, reply.table_length, map, reply.map_length, &reply) != YILMACRAB_WRITTEN)
        return refuse(&reply);
    store(argv[2], table, reply.table_length);
    store(argv[3], map, reply.map_length);
    printf("%u present, %u dropped, %u merged, %u rounds; table %zu bytes, map %zu bytes\n", reply.present, reply.dropped, reply.merged,
           reply.rounds, reply.table_length, reply.map_length);
    return 0;
}
