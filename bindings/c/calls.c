/* Calls every function of chuntarek.h in each reading, with good and bad input, and holds each answer to documents 01 and 02. Prints the
 * first line that fails; nothing where all is as it should be. Expectations are worked out by hand. */
#define _DEFAULT_SOURCE /* for mmap's anonymous pages */
#include "chuntarek.h"

#include <stdio.h>
#include <stdlib.h>
#include <string.h>
#include <sys/mman.h>
#include <unistd.h>

#define CHECK(fact)                                                          \
    do {                                                                     \
        if (!(fact)) {                                                       \
            fprintf(stderr, "calls.c:%d: not so: %s\n", __LINE__, #fact);    \
            exit(1);                                                         \
        }                                                                    \
    } while (0)

#define SAMPLE "data_t\n_a 1.50(2)\nloop_ _b _c\nx ?\n"
#define SAMPLE_RENDERED "data_t\n_a\n1.50(2)\nloop_\n_b\n_c\nx\n?\n"
#define SAMPLE_STORE 183
#define SAMPLE_OUTLINE 137 /* eight records of 17 bytes and the end of the loop */
#define SAMPLE_AREA 5
#define FILL 0xA5

typedef struct {
    uint8_t store[512], area[64], text[256];
} buffers;

/* A stand-in where nothing is lent: a pointer is never null. */
static uint8_t nothing[1];

static const uint8_t *bytes(const char *text)
{
    return (const uint8_t *)text;
}

static void fill(buffers *lent)
{
    memset(lent, FILL, sizeof *lent);
}

/* Whether every byte from here on is as it was. */
static int untouched(const uint8_t *buffer, size_t from, size_t length)
{
    for (size_t at = from; at < length; at++)
        if (buffer[at] != FILL)
            return 0;
    return 1;
}

static int is(chuntarek_answer answer, uint64_t number, uint64_t offset, uint64_t line, uint64_t column, uint64_t detail)
{
    return answer.number == number && answer.offset == offset && answer.line == line && answer.column == column &&
           answer.detail == detail;
}

static int has_lengths(chuntarek_answer answer, uint64_t first, uint64_t second)
{
    return answer.first_length == first && answer.second_length == second;
}

static chuntarek_answer read_as(uint64_t reading, const char *text, buffers *lent, size_t store_room, size_t area_room)
{
    return chuntarek_read(reading, bytes(text), strlen(text), lent->store, store_room, lent->area, area_room);
}

static chuntarek_answer read_text(const char *text, buffers *lent, size_t store_room, size_t area_room)
{
    return read_as(CHUNTAREK_FIRST, text, lent, store_room, area_room);
}

static void sample_is_read(void)
{
    buffers lent;
    fill(&lent);
    chuntarek_answer answer = read_text(SAMPLE, &lent, SAMPLE_STORE, SAMPLE_AREA);
    CHECK(is(answer, 0, 0, 0, 0, 0) && has_lengths(answer, SAMPLE_STORE, SAMPLE_AREA));
    CHECK(memcmp(lent.area, "tabcx", SAMPLE_AREA) == 0);
    CHECK(untouched(lent.store, SAMPLE_STORE, sizeof lent.store) && untouched(lent.area, SAMPLE_AREA, sizeof lent.area));
}

static void room_is_counted_to_the_byte(void)
{
    buffers lent;
    fill(&lent);
    chuntarek_answer asked = chuntarek_read(CHUNTAREK_FIRST, bytes(SAMPLE), strlen(SAMPLE), nothing, 0, nothing, 0);
    CHECK(is(asked, 10, 0, 0, 0, 0) && has_lengths(asked, SAMPLE_STORE, SAMPLE_AREA));
    chuntarek_answer store_short = read_text(SAMPLE, &lent, SAMPLE_STORE - 1, SAMPLE_AREA);
    CHECK(is(store_short, 10, 0, 0, 0, 0) && has_lengths(store_short, SAMPLE_STORE, SAMPLE_AREA));
    chuntarek_answer area_short = read_text(SAMPLE, &lent, SAMPLE_STORE, SAMPLE_AREA - 1);
    CHECK(is(area_short, 11, 0, 0, 0, 0) && has_lengths(area_short, SAMPLE_STORE, SAMPLE_AREA));
    chuntarek_answer outline_short = chuntarek_outline(CHUNTAREK_FIRST, bytes(SAMPLE), strlen(SAMPLE), lent.store, SAMPLE_OUTLINE - 1);
    CHECK(is(outline_short, 10, 0, 0, 0, 0) && has_lengths(outline_short, SAMPLE_OUTLINE, 0));
    CHECK(untouched(lent.store, 0, sizeof lent.store) && untouched(lent.area, 0, sizeof lent.area));
}

static void outline_is_written(void)
{
    static const uint8_t first[17] = {1, 0, 0, 0, 0, 6, 0, 0, 0, 1, 0, 0, 0, 1, 0, 0, 0};
    buffers lent;
    fill(&lent);
    chuntarek_answer answer = chuntarek_outline(CHUNTAREK_FIRST, bytes(SAMPLE), strlen(SAMPLE), lent.store, sizeof lent.store);
    CHECK(is(answer, 0, 0, 0, 0, 0) && has_lengths(answer, SAMPLE_OUTLINE, 0));
    CHECK(memcmp(lent.store, first, sizeof first) == 0);
    CHECK(lent.store[SAMPLE_OUTLINE - 1] == CHUNTAREK_LOOP_END && untouched(lent.store, SAMPLE_OUTLINE, sizeof lent.store));
}

/* Each text is refused by both services, and nothing is written. */
static void refused_as(uint64_t reading, const char *text, uint64_t number, uint64_t offset, uint64_t line, uint64_t column,
    uint64_t detail)
{
    buffers lent;
    fill(&lent);
    chuntarek_answer answer = read_as(reading, text, &lent, sizeof lent.store, sizeof lent.area);
    CHECK(is(answer, number, offset, line, column, detail) && has_lengths(answer, 0, 0));
    answer = chuntarek_outline(reading, bytes(text), strlen(text), lent.store, sizeof lent.store);
    CHECK(is(answer, number, offset, line, column, detail) && has_lengths(answer, 0, 0));
    CHECK(untouched(lent.store, 0, sizeof lent.store) && untouched(lent.area, 0, sizeof lent.area));
}

static void text_is_refused(const char *text, uint64_t number, uint64_t offset, uint64_t line, uint64_t column, uint64_t detail)
{
    refused_as(CHUNTAREK_FIRST, text, number, offset, line, column, detail);
}

static void strict_is_refused(const char *text, uint64_t number, uint64_t offset, uint64_t line, uint64_t column, uint64_t detail)
{
    refused_as(CHUNTAREK_STRICT, text, number, offset, line, column, detail);
}

static void texts_are_refused(void)
{
    text_is_refused("", 3, 0, 1, 1, 0);
    text_is_refused("data_x \303\251", 2, 7, 1, 8, 0);
    text_is_refused("data_x\nsave_f _a 1", 4, 7, 2, 1, 0);
    text_is_refused("data_x loop_ _a _b 1 2 3", 5, 7, 1, 8, 1);
    text_is_refused("data_x _a 'b", 6, 7, 1, 8, 4);
    text_is_refused("data_x data_y", 7, 7, 1, 8, 0);
    text_is_refused("data_x loop_", 8, 7, 1, 8, 0);
    text_is_refused("data_x _a 1234567890", 9, 10, 1, 11, 0);
}

/* What the strict reading refuses, by its own numbers and by those that both have. */
static void strict_texts_are_refused(void)
{
    char line[2058];
    strict_is_refused("", 3, 0, 1, 1, 0);
    strict_is_refused("data_x \303\251", 2, 7, 1, 8, 0);
    strict_is_refused("data_x save_f data_y", 4, 7, 1, 8, 0);
    strict_is_refused("data_x save_f loop_ _a _b 1 save_", 5, 14, 1, 15, 1);
    strict_is_refused("data_x _a 'b'c", 6, 7, 1, 8, CHUNTAREK_OPEN_QUOTE);
    strict_is_refused("data_x loop_ _a", 6, 13, 1, 14, CHUNTAREK_TEXT_ENDS);
    strict_is_refused("data_x loop__a 1", 7, 7, 1, 8, 0);
    strict_is_refused("data_x loop_ _a 1 stop_", 7, 18, 1, 19, CHUNTAREK_RESERVED_WORD);
    strict_is_refused("data_x loop_", 8, 7, 1, 8, 0);
    strict_is_refused("data_x _a 1234567890", 9, 10, 1, 11, 0);
    strict_is_refused("data_x _a\n;b\n;_c 1", CHUNTAREK_NO_SPACE, 14, 3, 2, 0);
    strict_is_refused("data_", CHUNTAREK_NAME_LENGTH, 0, 1, 1, 0);
    strict_is_refused("data_x\n_ 1", CHUNTAREK_NAME_LENGTH, 7, 2, 1, 0);
    strict_is_refused("data_x\n_a b\f", CHUNTAREK_CONTROL_BYTE, 11, 2, 5, 0);
    memset(line, '#', sizeof line);
    memcpy(line, "data_x\n", 7);
    line[sizeof line - 1] = 0; /* 2,050 bytes behind the first line */
    strict_is_refused(line, CHUNTAREK_LONG_LINE, 2055, 2, 2049, 0);
}

#define STRICT "data_x _a ;b data_y loop_ _c 'O'Neill' \"d\""
#define STRICT_RENDERED "data_x\n_a\n ;b\ndata_y\nloop_\n_c\n'O'Neill'\n\"d\"\n"
#define STRICT_STORE 169 /* eight records of 21 bytes and the end of the loop */
#define STRICT_AREA 16

/* Two blocks, a bare word with a semicolon and two quoted values, through every function. */
static void strict_text_is_read(void)
{
    static const uint64_t kinds[9] = {1, 4, 10, 1, 5, 6, 21, 21, 7};
    buffers lent;
    fill(&lent);
    text_is_refused(STRICT, 6, 7, 1, 8, CHUNTAREK_OPEN_FIELD);
    chuntarek_answer answer = read_as(CHUNTAREK_STRICT, STRICT, &lent, STRICT_STORE, STRICT_AREA - 1);
    CHECK(is(answer, 11, 0, 0, 0, 0) && has_lengths(answer, STRICT_STORE, STRICT_AREA));
    answer = read_as(CHUNTAREK_STRICT, STRICT, &lent, STRICT_STORE - 1, STRICT_AREA);
    CHECK(is(answer, 10, 0, 0, 0, 0) && has_lengths(answer, STRICT_STORE, STRICT_AREA));
    CHECK(untouched(lent.store, 0, sizeof lent.store) && untouched(lent.area, 0, sizeof lent.area));
    answer = read_as(CHUNTAREK_STRICT, STRICT, &lent, STRICT_STORE, STRICT_AREA);
    CHECK(is(answer, 0, 0, 0, 0, 0) && has_lengths(answer, STRICT_STORE, STRICT_AREA));
    CHECK(memcmp(lent.area, "xa;byc'O'Neill\"d", STRICT_AREA) == 0);
    CHECK(untouched(lent.store, STRICT_STORE, sizeof lent.store) && untouched(lent.area, STRICT_AREA, sizeof lent.area));
    uint64_t at = 0;
    for (size_t number = 0; number < 9; number++) {
        chuntarek_record first = chuntarek_record_at(CHUNTAREK_FIRST, lent.store, STRICT_STORE, lent.area, STRICT_AREA, at);
        chuntarek_record record = chuntarek_record_at(CHUNTAREK_STRICT, lent.store, STRICT_STORE, lent.area, STRICT_AREA, at);
        CHECK(record.number == 0 && record.kind == kinds[number] && memcmp(&first, &record, sizeof record) == 0);
        at = record.next;
    }
    CHECK(at == STRICT_STORE);
    answer = chuntarek_names(CHUNTAREK_STRICT, lent.store, STRICT_STORE, lent.area, STRICT_AREA);
    CHECK(is(answer, 0, 0, 0, 0, 0));
    answer = chuntarek_content(CHUNTAREK_STRICT, lent.store, STRICT_STORE, lent.area, STRICT_AREA, 6);
    chuntarek_part part = chuntarek_content_part(CHUNTAREK_STRICT, lent.store, STRICT_STORE, lent.area, STRICT_AREA, 6);
    CHECK(is(answer, 0, 0, 0, 0, 0) && part.start == 6 && part.length == 8);
    size_t length = strlen(STRICT_RENDERED);
    answer = chuntarek_render(CHUNTAREK_STRICT, lent.store, STRICT_STORE, lent.area, STRICT_AREA, lent.text, length - 1);
    CHECK(is(answer, 11, 0, 0, 0, 0) && has_lengths(answer, length, 0) && untouched(lent.text, 0, sizeof lent.text));
    answer = chuntarek_render(CHUNTAREK_STRICT, lent.store, STRICT_STORE, lent.area, STRICT_AREA, lent.text, length);
    CHECK(is(answer, 0, 0, 0, 0, 0) && has_lengths(answer, length, 0) && memcmp(lent.text, STRICT_RENDERED, length) == 0);
}

/* Quoted values are those of the reading that wrote them. */
static void store_belongs_to_its_reading(void)
{
    buffers lent;
    for (uint64_t reading = 1; reading <= 2; reading++) {
        chuntarek_answer answer = read_as(reading, "data_x _a 'b'", &lent, sizeof lent.store, sizeof lent.area);
        size_t store = answer.first_length, area = answer.second_length;
        CHECK(answer.number == 0 && lent.store[42] == (reading == 1 ? CHUNTAREK_SINGLE_QUOTED : CHUNTAREK_QUOTED));
        for (uint64_t other = 1; other <= 2; other++) {
            uint64_t number = other == reading ? 0 : 12;
            CHECK(chuntarek_names(other, lent.store, store, lent.area, area).number == number);
            CHECK(chuntarek_content(other, lent.store, store, lent.area, area, 2).number == number);
            CHECK(chuntarek_render(other, lent.store, store, lent.area, area, lent.text, sizeof lent.text).number == number);
        }
    }
}

/* Each block has its own names. */
static void names_are_checked_block_by_block(void)
{
    buffers lent;
    chuntarek_answer answer = read_as(CHUNTAREK_STRICT, "data_x _a 1 data_x _A 2", &lent, sizeof lent.store, sizeof lent.area);
    answer = chuntarek_names(CHUNTAREK_STRICT, lent.store, answer.first_length, lent.area, answer.second_length);
    CHECK(is(answer, 0, 0, 0, 0, 0));
    answer = read_as(CHUNTAREK_STRICT, "data_x _a 1 data_y _b 1 _B 2", &lent, sizeof lent.store, sizeof lent.area);
    answer = chuntarek_names(CHUNTAREK_STRICT, lent.store, answer.first_length, lent.area, answer.second_length);
    CHECK(is(answer, 13, 4, 6, 0, 0));
}

/* Numbers that name no reading: 24 from every function before all else, and nothing is written. */
static void no_reading_is_refused(void)
{
    static const uint64_t numbers[] = {0, 3, 24, UINT64_C(0x100000001), UINT64_C(0x8000000000000002), UINT64_MAX};
    static const char *const texts[] = {SAMPLE, "", "data_x \303\251", "data_x _a 'b"};
    chuntarek_record none;
    memset(&none, 0, sizeof none);
    none.number = CHUNTAREK_NO_READING;
    for (size_t i = 0; i < sizeof numbers / sizeof *numbers; i++) {
        uint64_t reading = numbers[i];
        for (size_t text = 0; text < sizeof texts / sizeof *texts; text++)
            refused_as(reading, texts[text], CHUNTAREK_NO_READING, 0, 0, 0, 0);
        buffers lent;
        fill(&lent);
        read_text(SAMPLE, &lent, sizeof lent.store, sizeof lent.area);
        for (size_t store = 0; store <= SAMPLE_STORE; store += SAMPLE_STORE) {
            chuntarek_answer answer = chuntarek_render(reading, lent.store, store, lent.area, SAMPLE_AREA, lent.text, sizeof lent.text);
            CHECK(is(answer, CHUNTAREK_NO_READING, 0, 0, 0, 0) && has_lengths(answer, 0, 0));
            CHECK(untouched(lent.text, 0, sizeof lent.text));
            answer = chuntarek_names(reading, lent.store, store, lent.area, SAMPLE_AREA);
            CHECK(is(answer, CHUNTAREK_NO_READING, 0, 0, 0, 0) && has_lengths(answer, 0, 0));
            answer = chuntarek_content(reading, lent.store, store, lent.area, SAMPLE_AREA, 0);
            CHECK(is(answer, CHUNTAREK_NO_READING, 0, 0, 0, 0) && has_lengths(answer, 0, 0));
            answer = chuntarek_compare(reading, lent.store, store, lent.area, SAMPLE_AREA, lent.store, SAMPLE_STORE, lent.area, SAMPLE_AREA,
                lent.text, sizeof lent.text);
            CHECK(is(answer, CHUNTAREK_NO_READING, 0, 0, 0, 0) && has_lengths(answer, 0, 0) && untouched(lent.text, 0, sizeof lent.text));
            chuntarek_part part = chuntarek_content_part(reading, lent.store, store, lent.area, SAMPLE_AREA, 0);
            CHECK(part.start == 0 && part.length == 0);
            chuntarek_record record = chuntarek_record_at(reading, lent.store, store, lent.area, SAMPLE_AREA, 0);
            CHECK(memcmp(&record, &none, sizeof record) == 0);
        }
    }
}

/* A tag without a value says what stands there instead. */
static void missing_values_have_reasons(void)
{
    text_is_refused("data_x _a", 6, 7, 1, 8, CHUNTAREK_TEXT_ENDS);
    text_is_refused("data_x\n_a # b\n", 6, 7, 2, 1, CHUNTAREK_TEXT_ENDS);
    text_is_refused("data_x _a stop_x", 6, 7, 1, 8, CHUNTAREK_RESERVED_WORD);
    text_is_refused("data_x _a LOOP_ _b 1", 6, 7, 1, 8, CHUNTAREK_RESERVED_WORD);
    text_is_refused("data_x _a _b 1", 6, 7, 1, 8, CHUNTAREK_STARTS_NO_VALUE);
    text_is_refused("data_x _a # b\n[", 6, 7, 1, 8, CHUNTAREK_STARTS_NO_VALUE);
    text_is_refused("data_x _a\f1", 6, 7, 1, 8, CHUNTAREK_STARTS_NO_VALUE);
    text_is_refused("data_x _a 'b\n'", 6, 7, 1, 8, CHUNTAREK_OPEN_QUOTE);
    text_is_refused("data_x _a \"b'", 6, 7, 1, 8, CHUNTAREK_OPEN_QUOTE);
    text_is_refused("data_x _a ;b", 6, 7, 1, 8, CHUNTAREK_OPEN_FIELD);
    text_is_refused("data_x _a\n;b\n ;", 6, 7, 1, 8, CHUNTAREK_OPEN_FIELD);
}

/* So does what stands directly behind the values of a loop of the block; what stands elsewhere does not. */
static void ended_loops_have_reasons(void)
{
    text_is_refused("data_x loop_ _a 1 data_y", 7, 18, 1, 19, CHUNTAREK_RESERVED_WORD);
    text_is_refused("data_x loop_ _a 1 # b\n$", 7, 22, 2, 1, CHUNTAREK_STARTS_NO_VALUE);
    text_is_refused("data_x loop_ _a 1 'b", 7, 18, 1, 19, CHUNTAREK_OPEN_QUOTE);
    text_is_refused("data_x loop_ _a 'b", 7, 16, 1, 17, CHUNTAREK_OPEN_QUOTE);
    text_is_refused("data_x loop_ _a 1 ;b", 7, 18, 1, 19, CHUNTAREK_OPEN_FIELD);
    text_is_refused("data_x 'b", 7, 7, 1, 8, 0);
    text_is_refused("data_x _a 1 2", 7, 12, 1, 13, 0);
    text_is_refused("data_x loop_ _a 1 _b 2 $", 7, 23, 1, 24, 0);
    text_is_refused("data_x loop_ _a 1 save_f save_ $", 7, 31, 1, 32, 0);
    text_is_refused("data_x save_f loop_ _a 'b", 4, 7, 1, 8, 0);
    text_is_refused("data_x loop_ _a _b _c 1 2 'b", 5, 7, 1, 8, 2);
}

/* A comment may fill a text up to the limit, and not further. */
static void long_text_is_refused(void)
{
    buffers lent;
    size_t length = CHUNTAREK_TEXT_LIMIT + 1;
    uint8_t *text = malloc(length);
    CHECK(text != NULL);
    memset(text, '#', length);
    memcpy(text, "data_ ", 6);
    fill(&lent);
    chuntarek_answer answer = chuntarek_read(CHUNTAREK_FIRST, text, length, lent.store, sizeof lent.store, lent.area, sizeof lent.area);
    CHECK(is(answer, 1, 0, 0, 0, 0) && has_lengths(answer, 0, 0) && untouched(lent.store, 0, sizeof lent.store));
    answer = chuntarek_outline(CHUNTAREK_FIRST, text, length, lent.store, sizeof lent.store);
    CHECK(is(answer, 1, 0, 0, 0, 0) && has_lengths(answer, 0, 0) && untouched(lent.store, 0, sizeof lent.store));
    answer = chuntarek_read(CHUNTAREK_FIRST, text, length - 1, lent.store, sizeof lent.store, nothing, 0);
    CHECK(is(answer, 0, 0, 0, 0, 0) && has_lengths(answer, 21, 0));
    answer = chuntarek_outline(CHUNTAREK_FIRST, text, length - 1, lent.store, sizeof lent.store);
    CHECK(is(answer, 0, 0, 0, 0, 0) && has_lengths(answer, 17, 0));
    free(text);
}

/* A text field may fill a text up to the limit; the line end behind it then makes the rendering too long. */
static void long_rendering_is_refused(void)
{
    buffers lent;
    size_t length = CHUNTAREK_TEXT_LIMIT, room = CHUNTAREK_TEXT_LIMIT;
    uint8_t *text = malloc(length), *area = malloc(room);
    CHECK(text != NULL && area != NULL);
    memset(text, 'x', length);
    memcpy(text, "data_x _a ;", 11);
    memcpy(text + length - 2, "\n;", 2);
    fill(&lent);
    chuntarek_answer answer = chuntarek_read(CHUNTAREK_FIRST, text, length, lent.store, sizeof lent.store, area, room);
    CHECK(is(answer, 0, 0, 0, 0, 0) && has_lengths(answer, 63, length - 10));
    answer = chuntarek_render(CHUNTAREK_FIRST, lent.store, 63, area, length - 10, lent.text, sizeof lent.text);
    CHECK(is(answer, 1, 0, 0, 0, 0) && has_lengths(answer, 0, 0) && untouched(lent.text, 0, sizeof lent.text));
    free(area);
    free(text);
}

static void sample_is_rendered(void)
{
    buffers lent;
    fill(&lent);
    size_t length = strlen(SAMPLE_RENDERED);
    read_text(SAMPLE, &lent, sizeof lent.store, sizeof lent.area);
    chuntarek_answer answer = chuntarek_render(CHUNTAREK_FIRST, lent.store, SAMPLE_STORE, lent.area, SAMPLE_AREA, lent.text, length - 1);
    CHECK(is(answer, 11, 0, 0, 0, 0) && has_lengths(answer, length, 0) && untouched(lent.text, 0, sizeof lent.text));
    answer = chuntarek_render(CHUNTAREK_FIRST, lent.store, SAMPLE_STORE, lent.area, SAMPLE_AREA, lent.text, length);
    CHECK(is(answer, 0, 0, 0, 0, 0) && has_lengths(answer, length, 0));
    CHECK(memcmp(lent.text, SAMPLE_RENDERED, length) == 0 && untouched(lent.text, length, sizeof lent.text));
}

static void content_is(const buffers *lent, uint64_t record, uint64_t number, uint64_t start, uint64_t length)
{
    chuntarek_answer answer = chuntarek_content(CHUNTAREK_FIRST, lent->store, SAMPLE_STORE, lent->area, SAMPLE_AREA, record);
    chuntarek_part part = chuntarek_content_part(CHUNTAREK_FIRST, lent->store, SAMPLE_STORE, lent->area, SAMPLE_AREA, record);
    CHECK(is(answer, number, 0, 0, 0, 0) && has_lengths(answer, 0, 0));
    CHECK(part.start == start && part.length == length);
}

static void contents_are_found(void)
{
    buffers lent;
    read_text(SAMPLE, &lent, sizeof lent.store, sizeof lent.area);
    content_is(&lent, 0, 0, 0, 1);
    content_is(&lent, 1, 0, 1, 1);
    content_is(&lent, 2, 14, 0, 0);
    content_is(&lent, 5, 0, 3, 1);
    content_is(&lent, 6, 0, 4, 1);
    content_is(&lent, 8, 14, 0, 0);
    content_is(&lent, 9, 14, 0, 0);
    content_is(&lent, UINT64_MAX, 14, 0, 0);
}

static void names_are_checked(void)
{
    buffers lent;
    chuntarek_answer answer = read_text(SAMPLE, &lent, sizeof lent.store, sizeof lent.area);
    answer = chuntarek_names(CHUNTAREK_FIRST, lent.store, answer.first_length, lent.area, answer.second_length);
    CHECK(is(answer, 0, 0, 0, 0, 0) && has_lengths(answer, 0, 0));
    answer = read_text("data_x _a 1 _b 2 loop_ _a 3", &lent, sizeof lent.store, sizeof lent.area);
    answer = chuntarek_names(CHUNTAREK_FIRST, lent.store, answer.first_length, lent.area, answer.second_length);
    CHECK(is(answer, 13, 1, 6, 0, 0) && has_lengths(answer, 0, 0));
    answer = read_text("data_x _Cell.length_a 1 loop_ _cell.length_A 2", &lent, sizeof lent.store, sizeof lent.area);
    answer = chuntarek_names(CHUNTAREK_FIRST, lent.store, answer.first_length, lent.area, answer.second_length);
    CHECK(is(answer, 13, 1, 4, 0, 0) && has_lengths(answer, 0, 0));
    answer = read_text("data_x _[ 1 _{ 2", &lent, sizeof lent.store, sizeof lent.area);
    answer = chuntarek_names(CHUNTAREK_FIRST, lent.store, answer.first_length, lent.area, answer.second_length);
    CHECK(is(answer, 0, 0, 0, 0, 0) && has_lengths(answer, 0, 0));
}

static void records_are_walked(void)
{
    static const uint64_t kinds[9] = {1, 4, 15, 5, 6, 6, 10, 9, 7};
    buffers lent;
    read_text(SAMPLE, &lent, sizeof lent.store, sizeof lent.area);
    chuntarek_record record;
    uint64_t at = 0;
    for (size_t number = 0; number < 9; number++) {
        record = chuntarek_record_at(CHUNTAREK_FIRST, lent.store, SAMPLE_STORE, lent.area, SAMPLE_AREA, at);
        CHECK(record.number == 0 && record.kind == kinds[number] && record.next > at);
        if (record.kind == CHUNTAREK_UNCERTAIN)
            CHECK(record.sign == 0 && record.integer == 1 && record.fraction == 50 && record.digits == 2 && record.exponent == 0 &&
                  record.uncertainty == 2);
        if (record.kind == CHUNTAREK_LOOP)
            CHECK(record.tags == 2 && record.offset == 18 && record.length == 5 && record.line == 3 && record.column == 1);
        if (record.kind == CHUNTAREK_BARE)
            CHECK(record.content == 1 && lent.area[record.start] == 'x');
        at = record.next;
    }
    CHECK(at == SAMPLE_STORE);
    record = chuntarek_record_at(CHUNTAREK_FIRST, lent.store, SAMPLE_STORE, lent.area, SAMPLE_AREA, at);
    CHECK(record.number == 14 && record.kind == 0 && record.next == 0);
    record = chuntarek_record_at(CHUNTAREK_FIRST, lent.store, SAMPLE_STORE, lent.area, SAMPLE_AREA, UINT64_MAX);
    CHECK(record.number == 14);
}

/* Every function that takes a store refuses this one, and gives nothing out. */
static void store_is_refused(const uint8_t *store, size_t store_length, const uint8_t *area, size_t area_length)
{
    uint8_t out[64];
    memset(out, FILL, sizeof out);
    chuntarek_answer answer = chuntarek_names(CHUNTAREK_FIRST, store, store_length, area, area_length);
    CHECK(is(answer, 12, 0, 0, 0, 0) && has_lengths(answer, 0, 0));
    answer = chuntarek_content(CHUNTAREK_FIRST, store, store_length, area, area_length, 0);
    CHECK(is(answer, 12, 0, 0, 0, 0) && has_lengths(answer, 0, 0));
    chuntarek_part part = chuntarek_content_part(CHUNTAREK_FIRST, store, store_length, area, area_length, 0);
    CHECK(part.start == 0 && part.length == 0);
    answer = chuntarek_render(CHUNTAREK_FIRST, store, store_length, area, area_length, out, sizeof out);
    CHECK(is(answer, 12, 0, 0, 0, 0) && has_lengths(answer, 0, 0) && untouched(out, 0, sizeof out));
}

/* An empty store, one that is cut short, one with a byte changed, an area with a byte that is not ASCII, and an outline. */
static void unsound_stores_are_refused(void)
{
    buffers lent;
    store_is_refused(nothing, 0, nothing, 0);
    CHECK(chuntarek_record_at(CHUNTAREK_FIRST, nothing, 0, nothing, 0, 0).number == 14);
    read_text(SAMPLE, &lent, sizeof lent.store, sizeof lent.area);
    store_is_refused(lent.store, SAMPLE_STORE - 1, lent.area, SAMPLE_AREA);
    store_is_refused(lent.store, SAMPLE_STORE, lent.area, SAMPLE_AREA - 1);
    store_is_refused(lent.store, SAMPLE_STORE, nothing, 0);
    lent.area[0] = 0xC3;
    store_is_refused(lent.store, SAMPLE_STORE, lent.area, SAMPLE_AREA);
    lent.area[0] = 't';
    lent.store[0] = CHUNTAREK_TAG;
    store_is_refused(lent.store, SAMPLE_STORE, lent.area, SAMPLE_AREA);
    lent.store[0] = 16;
    store_is_refused(lent.store, SAMPLE_STORE, lent.area, SAMPLE_AREA);
    CHECK(chuntarek_record_at(CHUNTAREK_FIRST, lent.store, SAMPLE_STORE, lent.area, SAMPLE_AREA, 0).number == 14);
    chuntarek_outline(CHUNTAREK_FIRST, bytes(SAMPLE), strlen(SAMPLE), lent.store, sizeof lent.store);
    store_is_refused(lent.store, SAMPLE_OUTLINE, lent.area, SAMPLE_AREA);
}

/* A store with its area. */
typedef struct {
    buffers lent;
    size_t store, area;
} stored;

static stored store_of(uint64_t reading, const char *text)
{
    stored made;
    fill(&made.lent);
    chuntarek_answer answer = read_as(reading, text, &made.lent, sizeof made.lent.store, sizeof made.lent.area);
    CHECK(answer.number == CHUNTAREK_DONE);
    made.store = answer.first_length;
    made.area = answer.second_length;
    return made;
}

/* Compares two stores, neither of which may change by a byte. */
static chuntarek_answer compare(uint64_t reading, const stored *old, const stored *new, uint8_t *list, size_t room)
{
    stored old_before = *old, new_before = *new;
    chuntarek_answer answer = chuntarek_compare(reading, old->lent.store, old->store, old->lent.area, old->area, new->lent.store,
        new->store, new->lent.area, new->area, list, room);
    CHECK(memcmp(&old_before.lent, &old->lent, sizeof old->lent) == 0 && memcmp(&new_before.lent, &new->lent, sizeof new->lent) == 0);
    return answer;
}

#define CHANGED_OLD "data_x _a 1 _b 2.5(1) loop_ _c _d 3 x 4 y"
#define CHANGED_NEW "data_y _e ? _B 2.50(1) loop_ _d _c x 3.0 z 3"
#define CHANGED_LIST 102 /* six entries */

/* Every byte of a list, with exactly the room that it needs, with more, with one byte less and with none. */
static void changes_are_listed(void)
{
    static const uint8_t expected[CHANGED_LIST] = {
        CHUNTAREK_ONLY_OLD, 2, 0, 0, 0, 0, 0, 0, 0, 0, 0, 0, 0, 0, 0, 0, 0,    /* _a 1 */
        CHUNTAREK_UNCERTAINTY, 4, 0, 0, 0, 0, 0, 0, 0, 4, 0, 0, 0, 0, 0, 0, 0, /* _b 2.5(1), _B 2.50(1) */
        CHUNTAREK_REWRITTEN, 8, 0, 0, 0, 0, 0, 0, 0, 9, 0, 0, 0, 0, 0, 0, 0,   /* _c 3, 3.0 */
        CHUNTAREK_OLD_LARGER, 10, 0, 0, 0, 0, 0, 0, 0, 11, 0, 0, 0, 0, 0, 0, 0, /* _c 4, 3 */
        CHUNTAREK_DIFFERENT, 11, 0, 0, 0, 0, 0, 0, 0, 10, 0, 0, 0, 0, 0, 0, 0, /* _d y, z */
        CHUNTAREK_ONLY_NEW, 0, 0, 0, 0, 0, 0, 0, 0, 2, 0, 0, 0, 0, 0, 0, 0,    /* _e ? */
    };
    for (uint64_t reading = 1; reading <= 2; reading++) {
        stored old = store_of(reading, CHANGED_OLD), new = store_of(reading, CHANGED_NEW);
        uint8_t list[CHANGED_LIST + 8];
        memset(list, FILL, sizeof list);
        for (size_t room = 0; room < CHANGED_LIST; room += room == 0 ? CHANGED_LIST - 1 : 1) {
            chuntarek_answer answer = compare(reading, &old, &new, list, room);
            CHECK(is(answer, 10, 0, 0, 0, 0) && has_lengths(answer, CHANGED_LIST, 0) && untouched(list, 0, sizeof list));
        }
        for (size_t room = CHANGED_LIST; room <= sizeof list; room += 4) {
            memset(list, FILL, sizeof list);
            chuntarek_answer answer = compare(reading, &old, &new, list, room);
            CHECK(is(answer, 0, 0, 0, 0, 0) && has_lengths(answer, CHANGED_LIST, 0));
            CHECK(memcmp(list, expected, CHANGED_LIST) == 0 && untouched(list, CHANGED_LIST, sizeof list));
        }
        CHECK(compare(reading, &new, &old, list, sizeof list).first_length == CHANGED_LIST);
    }
}

/* Nothing differs: an empty list takes no room. Old and new may be the same buffers. */
static void nothing_changed_is_an_empty_list(void)
{
    static const char *const texts[] = {SAMPLE, "data_x", "data_x save_f _a 1 save_", CHANGED_OLD};
    for (size_t text = 0; text < sizeof texts / sizeof *texts; text++)
        for (uint64_t reading = 1; reading <= 2; reading++) {
            stored once = store_of(reading, texts[text]), again = store_of(reading, texts[text]);
            uint8_t list[8];
            memset(list, FILL, sizeof list);
            for (size_t room = 0; room <= sizeof list; room += sizeof list) {
                chuntarek_answer answer = compare(reading, &once, &once, list, room);
                CHECK(is(answer, 0, 0, 0, 0, 0) && has_lengths(answer, 0, 0));
                answer = compare(reading, &once, &again, list, room);
                CHECK(is(answer, 0, 0, 0, 0, 0) && has_lengths(answer, 0, 0));
            }
            CHECK(untouched(list, 0, sizeof list));
        }
}

/* Compares two stores with a list of any room, which is left as it was. */
static void comparison_is_refused(uint64_t reading, const stored *old, const stored *new, uint64_t number, uint64_t first, uint64_t second)
{
    uint8_t list[64];
    memset(list, FILL, sizeof list);
    for (size_t room = 0; room <= sizeof list; room += 16) {
        chuntarek_answer answer = compare(reading, old, new, list, room);
        CHECK(is(answer, number, first, second, 0, 0) && has_lengths(answer, 0, 0) && untouched(list, 0, sizeof list));
    }
}

/* 24; 12 of the old store, then of the new; 13 of the old, then of the new. */
static void comparisons_are_refused(void)
{
    stored good = store_of(CHUNTAREK_FIRST, "data_x _a 1"), other = store_of(CHUNTAREK_FIRST, "data_x _a 2 _b 3");
    stored tags = store_of(CHUNTAREK_FIRST, "data_x _a 1 _A 2");
    stored frames = store_of(CHUNTAREK_FIRST, "data_x _a 1 save_f save_ save_F save_");
    stored damaged = other, cut = good;
    damaged.lent.store[0] = CHUNTAREK_TAG;
    cut.area -= 1;
    for (uint64_t reading = 0; reading <= 3; reading += 3) {
        comparison_is_refused(reading, &good, &other, CHUNTAREK_NO_READING, 0, 0);
        comparison_is_refused(reading, &damaged, &tags, CHUNTAREK_NO_READING, 0, 0);
    }
    const stored *unsound[] = {&damaged, &cut}, *sound[] = {&good, &other, &tags, &frames};
    for (size_t i = 0; i < 2; i++)
        for (size_t k = 0; k < 4; k++) {
            comparison_is_refused(CHUNTAREK_FIRST, unsound[i], sound[k], CHUNTAREK_UNSOUND, 0, 0);
            comparison_is_refused(CHUNTAREK_FIRST, sound[k], unsound[i], CHUNTAREK_UNSOUND, 0, 0);
        }
    comparison_is_refused(CHUNTAREK_FIRST, &tags, &good, CHUNTAREK_NAME_TWICE, 1, 3);
    comparison_is_refused(CHUNTAREK_FIRST, &good, &tags, CHUNTAREK_NAME_TWICE, 1, 3);
    comparison_is_refused(CHUNTAREK_FIRST, &frames, &tags, CHUNTAREK_NAME_TWICE, 3, 5);
    comparison_is_refused(CHUNTAREK_FIRST, &tags, &frames, CHUNTAREK_NAME_TWICE, 1, 3);
    stored one = store_of(CHUNTAREK_STRICT, "data_x _a 'b'"), two = store_of(CHUNTAREK_STRICT, "data_x _a 1 data_y _a 1");
    comparison_is_refused(CHUNTAREK_STRICT, &one, &two, CHUNTAREK_UNSOUND, 0, 0);
    comparison_is_refused(CHUNTAREK_STRICT, &two, &one, CHUNTAREK_UNSOUND, 0, 0);
    comparison_is_refused(CHUNTAREK_FIRST, &one, &good, CHUNTAREK_UNSOUND, 0, 0);
}

/* So many bytes, directly before memory that no program may touch. */
static uint8_t *at_the_edge(size_t length)
{
    size_t page = (size_t)sysconf(_SC_PAGESIZE);
    CHECK(length <= page);
    uint8_t *pages = mmap(NULL, 2 * page, PROT_READ | PROT_WRITE, MAP_PRIVATE | MAP_ANONYMOUS, -1, 0);
    CHECK(pages != MAP_FAILED && mprotect(pages + page, page, PROT_NONE) == 0);
    return pages + page - length;
}

/* Every function, with each buffer before such memory: a byte read or written behind a buffer ends the program. */
static void nothing_behind_a_buffer_is_touched(void)
{
    size_t length = strlen(SAMPLE), rendered = strlen(SAMPLE_RENDERED);
    uint8_t *text = at_the_edge(length), *store = at_the_edge(SAMPLE_STORE), *area = at_the_edge(SAMPLE_AREA);
    uint8_t *outline = at_the_edge(SAMPLE_OUTLINE), *out = at_the_edge(rendered), *none = at_the_edge(0);
    memcpy(text, SAMPLE, length);
    CHECK(chuntarek_read(CHUNTAREK_FIRST, none, 0, none, 0, none, 0).number == 3);
    CHECK(chuntarek_read(CHUNTAREK_FIRST, text, length, none, 0, none, 0).number == 10);
    CHECK(chuntarek_read(CHUNTAREK_FIRST, text, length, store, SAMPLE_STORE, none, 0).number == 11);
    CHECK(chuntarek_read(CHUNTAREK_FIRST, text, length, store, SAMPLE_STORE, area, SAMPLE_AREA).number == 0);
    CHECK(chuntarek_outline(CHUNTAREK_FIRST, none, 0, none, 0).number == 3);
    CHECK(chuntarek_outline(CHUNTAREK_FIRST, text, length, none, 0).number == 10);
    CHECK(chuntarek_outline(CHUNTAREK_FIRST, text, length, outline, SAMPLE_OUTLINE).number == 0);
    CHECK(chuntarek_render(CHUNTAREK_FIRST, none, 0, none, 0, none, 0).number == 12);
    CHECK(chuntarek_render(CHUNTAREK_FIRST, store, SAMPLE_STORE, area, SAMPLE_AREA, none, 0).number == 11);
    CHECK(chuntarek_render(CHUNTAREK_FIRST, store, SAMPLE_STORE, area, SAMPLE_AREA, out, rendered).number == 0);
    for (size_t cut = 0; cut < SAMPLE_STORE; cut++) {
        const uint8_t *rest = store + cut;
        size_t rest_length = SAMPLE_STORE - cut;
        CHECK(chuntarek_names(CHUNTAREK_FIRST, rest, rest_length, area, SAMPLE_AREA).number == (cut == 0 ? 0 : 12));
        CHECK(chuntarek_content(CHUNTAREK_FIRST, rest, rest_length, area, SAMPLE_AREA, 0).number == (cut == 0 ? 0 : 12));
        CHECK(chuntarek_content_part(CHUNTAREK_FIRST, rest, rest_length, area, SAMPLE_AREA, 6).length == (cut == 0 ? 1 : 0));
        CHECK(chuntarek_compare(CHUNTAREK_FIRST, store, SAMPLE_STORE, area, SAMPLE_AREA, rest, rest_length, area, SAMPLE_AREA, none, 0).number
              == (cut == 0 ? 0 : 12));
        chuntarek_record record = chuntarek_record_at(CHUNTAREK_FIRST, rest, rest_length, area, SAMPLE_AREA, 0);
        CHECK(record.next <= rest_length && record.start + record.content <= SAMPLE_AREA);
    }
}

/* Two stores and their list, each before such memory. */
static void nothing_behind_a_list_is_touched(void)
{
    stored old = store_of(CHUNTAREK_FIRST, CHANGED_OLD), new = store_of(CHUNTAREK_FIRST, CHANGED_NEW);
    uint8_t *old_store = at_the_edge(old.store), *old_area = at_the_edge(old.area), *list = at_the_edge(CHANGED_LIST);
    uint8_t *new_store = at_the_edge(new.store), *new_area = at_the_edge(new.area), *none = at_the_edge(0);
    memcpy(old_store, old.lent.store, old.store);
    memcpy(old_area, old.lent.area, old.area);
    memcpy(new_store, new.lent.store, new.store);
    memcpy(new_area, new.lent.area, new.area);
    CHECK(chuntarek_compare(CHUNTAREK_FIRST, none, 0, none, 0, none, 0, none, 0, none, 0).number == 12);
    CHECK(chuntarek_compare(CHUNTAREK_FIRST, old_store, old.store, old_area, old.area, new_store, new.store, new_area, new.area, none, 0).number
          == 10);
    CHECK(chuntarek_compare(CHUNTAREK_FIRST, old_store, old.store, old_area, old.area, new_store, new.store, new_area, new.area, list,
              CHANGED_LIST).number == 0);
}

/* Whether a reading may answer a short text of ASCII by this number where it gets no room. */
static int may_answer(uint64_t reading, uint64_t number)
{
    if (reading != CHUNTAREK_FIRST && reading != CHUNTAREK_STRICT)
        return number == CHUNTAREK_NO_READING;
    int strict_alone = number >= 15 && number <= 18;
    return (number >= 3 && number <= 10) || (reading == CHUNTAREK_STRICT && strict_alone);
}

/* Every start of a text that holds every kind of token: it ends within each of them once. */
static void nothing_behind_a_text_is_read(void)
{
    static const char whole[] = "data_x save_f _a 'b' save_ #c\r\nloop_ _d -1.25e-3(4) ? .5 . 1e \"e\" f\n;g\n;";
    size_t room = sizeof whole - 1;
    uint8_t *end = at_the_edge(room) + room, *none = at_the_edge(0);
    for (size_t length = 0; length <= room; length++) {
        memcpy(end - length, whole, length);
        for (uint64_t reading = 0; reading <= 3; reading++) {
            chuntarek_answer read = chuntarek_read(reading, end - length, length, none, 0, none, 0);
            chuntarek_answer outline = chuntarek_outline(reading, end - length, length, none, 0);
            CHECK(may_answer(reading, read.number));
            CHECK(outline.number == read.number && outline.offset == read.offset);
        }
    }
}

int main(void)
{
    sample_is_read();
    room_is_counted_to_the_byte();
    outline_is_written();
    texts_are_refused();
    missing_values_have_reasons();
    ended_loops_have_reasons();
    strict_texts_are_refused();
    strict_text_is_read();
    store_belongs_to_its_reading();
    names_are_checked_block_by_block();
    no_reading_is_refused();
    long_text_is_refused();
    long_rendering_is_refused();
    sample_is_rendered();
    contents_are_found();
    names_are_checked();
    records_are_walked();
    unsound_stores_are_refused();
    changes_are_listed();
    nothing_changed_is_an_empty_list();
    comparisons_are_refused();
    nothing_behind_a_buffer_is_touched();
    nothing_behind_a_list_is_touched();
    nothing_behind_a_text_is_read();
    return 0;
}
