/* Prints the outline of one CIF file: for each record its kind, offset, length, line and column, then `end`; or why it is refused.
 * Usage: outline [--strict] FILE. Exit status: 0 done, 1 refused, 2 usage, an unreadable file or no memory. */
#include "chuntarek.h"

#include <errno.h>
#include <inttypes.h>
#include <stdio.h>
#include <stdlib.h>
#include <string.h>

/* One byte more than is ever read, so that the library sees that a text is over the limit. */
#define TEXT_ROOM (CHUNTAREK_TEXT_LIMIT + 1)

/* The bytes of a record of the outline: the kind, and four fields of four bytes. */
#define RECORD_LENGTH 17

/* Says what went wrong with a file, and gives the exit status for it. */
static int complain(const char *name, const char *what)
{
    fprintf(stderr, "outline: %s: %s\n", name, what);
    return 2;
}

/* A field of four bytes, the lowest first. */
static uint32_t field(const uint8_t *bytes)
{
    return bytes[0] | (uint32_t)bytes[1] << 8 | (uint32_t)bytes[2] << 16 | (uint32_t)bytes[3] << 24;
}

/* Prints the records of an outline that the library has written. */
static void print_records(const uint8_t *store, size_t length)
{
    size_t at = 0;
    while (at < length) {
        const uint8_t *record = store + at;
        if (record[0] == CHUNTAREK_LOOP_END) {
            printf("%d\n", CHUNTAREK_LOOP_END);
            at += 1;
        } else {
            printf("%d %" PRIu32 " %" PRIu32 " %" PRIu32 " %" PRIu32 "\n", record[0], field(record + 1), field(record + 5),
                   field(record + 9), field(record + 13));
            at += RECORD_LENGTH;
        }
    }
    printf("end\n");
}

static int print_refusal(chuntarek_answer answer)
{
    printf("refused %" PRIu64 " %" PRIu64 " %" PRIu64 " %" PRIu64 "\n", answer.number, answer.offset, answer.line, answer.column);
    return 1;
}

/* Asks for the room, then for the outline. */
static int print_outline(uint64_t reading, const char *name, const uint8_t *text, size_t length)
{
    uint8_t nothing[1];
    chuntarek_answer answer = chuntarek_outline(reading, text, length, nothing, 0);
    if (answer.number != CHUNTAREK_STORE_FULL)
        return print_refusal(answer);
    uint8_t *store = malloc(answer.first_length);
    if (store == NULL)
        return complain(name, "out of memory");
    answer = chuntarek_outline(reading, text, length, store, answer.first_length);
    int status = 0;
    if (answer.number == CHUNTAREK_DONE)
        print_records(store, answer.first_length);
    else
        status = print_refusal(answer);
    free(store);
    return status;
}

/* Opens and reads the file once. */
static int outline_file(uint64_t reading, const char *name)
{
    FILE *file = fopen(name, "rb");
    if (file == NULL)
        return complain(name, strerror(errno));
    uint8_t *text = malloc(TEXT_ROOM);
    if (text == NULL) {
        fclose(file);
        return complain(name, "out of memory");
    }
    size_t length = fread(text, 1, TEXT_ROOM, file);
    int status = ferror(file) ? complain(name, strerror(errno)) : print_outline(reading, name, text, length);
    free(text);
    fclose(file);
    return status;
}

int main(int count, char **words)
{
    int strict = count == 3 && strcmp(words[1], "--strict") == 0;
    if (count != 2 && !strict) {
        fprintf(stderr, "usage: outline [--strict] FILE\n");
        return 2;
    }
    int status = outline_file(strict ? CHUNTAREK_STRICT : CHUNTAREK_FIRST, words[count - 1]);
    if (fflush(stdout) != 0)
        return complain("output", strerror(errno));
    return status;
}
