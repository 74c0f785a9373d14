/* Every function of chuntarek.h in each reading on a thread with a small stack: stack KIB FILE...
 *
 * The texts are the files, and texts that are made to be hard: many tags, tags of one place, many frames and large ones, many blocks, a wide
 * loop, long words, fields and comments, marks in quotes, quotes and frames that stay open. The stores are those of the texts, the same with
 * damaged bytes, and random bytes. All buffers are on the heap, so that the thread's stack is the library's alone. A stack that is too small
 * ends the program by a signal.
 */
#define _POSIX_C_SOURCE 200809L
#include "chuntarek.h"
#include <pthread.h>
#include <stdio.h>
#include <stdlib.h>
#include <string.h>

static void fail(const char *what)
{
    fprintf(stderr, "stack: %s\n", what);
    exit(1);
}

/* A buffer that grows. */
typedef struct {
    uint8_t *bytes;
    size_t length, room;
} buffer;

static void reserve(buffer *b, size_t more)
{
    if (b->room - b->length >= more)
        return;
    b->room = (b->length + more) * 2;
    b->bytes = realloc(b->bytes, b->room);
    if (!b->bytes)
        fail("no memory");
}

static void add(buffer *b, const char *text)
{
    size_t length = strlen(text);
    reserve(b, length + 1);
    memcpy(b->bytes + b->length, text, length);
    b->length += length;
}

static void add_times(buffer *b, char byte, size_t times)
{
    reserve(b, times + 1);
    memset(b->bytes + b->length, byte, times);
    b->length += times;
}

static uint64_t dice(void)
{
    static uint64_t state = 88172645463325252u;
    state ^= state << 13;
    state ^= state >> 7;
    return state ^= state << 17;
}

/* One call of each function on a text and on what is read of it, then on damaged and random stores. */
typedef struct {
    uint64_t reading;
    const uint8_t *text;
    size_t text_length;
    buffer store, area, rendered, outline, old_store, old_area, list;
    uint64_t calls;
} job;

/* Compares what was read of the text with the store as it is now, and the other way round. Its time grows by the product of both stores, so
 * large ones are left out; no stack that it takes depends on how large they are. */
static void ask_changes(job *j)
{
    const buffer *old = &j->old_store, *old_area = &j->old_area, *new = &j->store, *new_area = &j->area;
    if (old->length > 65536 || new->length > 65536)
        return;
    chuntarek_compare(j->reading, old->bytes, old->length, old_area->bytes, old_area->length, new->bytes, new->length, new_area->bytes,
        new_area->length, j->list.bytes, 0);
    chuntarek_compare(j->reading, new->bytes, new->length, new_area->bytes, new_area->length, old->bytes, old->length, old_area->bytes,
        old_area->length, j->list.bytes, j->list.room);
    j->calls += 2;
}

static void ask(job *j)
{
    const uint8_t *store = j->store.bytes, *area = j->area.bytes;
    size_t n = j->store.length, m = j->area.length;
    uint64_t reading = j->reading;
    chuntarek_names(reading, store, n, area, m);
    chuntarek_render(reading, store, n, area, m, j->rendered.bytes, 0);
    chuntarek_render(reading, store, n, area, m, j->rendered.bytes, j->rendered.room);
    uint64_t records[] = {0, 1, 2, 1000, UINT64_MAX};
    for (size_t i = 0; i < sizeof records / sizeof *records; i++) {
        chuntarek_content(reading, store, n, area, m, records[i]);
        chuntarek_content_part(reading, store, n, area, m, records[i]);
        chuntarek_record_at(reading, store, n, area, m, records[i]);
    }
    j->calls += 18;
    ask_changes(j);
}

/* Keeps a copy of what was read. */
static void keep(buffer *copy, const buffer *read)
{
    memcpy(copy->bytes, read->bytes, read->length);
    copy->length = read->length;
}

static void *run(void *argument)
{
    job *j = argument;
    chuntarek_read(j->reading, j->text, j->text_length, j->store.bytes, 0, j->area.bytes, 0);
    chuntarek_outline(j->reading, j->text, j->text_length, j->outline.bytes, 0);
    chuntarek_answer answer = chuntarek_read(j->reading, j->text, j->text_length, j->store.bytes, j->store.room, j->area.bytes, j->area.room);
    chuntarek_outline(j->reading, j->text, j->text_length, j->outline.bytes, j->outline.room);
    j->calls += 4;
    j->store.length = answer.first_length;
    j->area.length = answer.second_length;
    keep(&j->old_store, &j->store);
    keep(&j->old_area, &j->area);
    ask(j);
    for (int i = 0; i < 8 && j->store.length > 0; i++) {
        size_t at = dice() % j->store.length;
        uint8_t before = j->store.bytes[at];
        j->store.bytes[at] = (uint8_t)dice();
        ask(j);
        j->store.bytes[at] = before;
    }
    for (int i = 0; i < 8; i++) {
        j->store.length = dice() % 4096;
        j->area.length = dice() % 4096;
        for (size_t at = 0; at < j->store.length; at++)
            j->store.bytes[at] = (uint8_t)(dice() % (i % 2 ? 256 : 16));
        ask(j);
    }
    return NULL;
}

static uint64_t on_thread(size_t kib, uint64_t reading, const uint8_t *text, size_t length)
{
    job j = {reading, text, length, {0}, {0}, {0}, {0}, {0}, {0}, {0}, 0};
    uint8_t none = 0;
    chuntarek_answer need = chuntarek_read(reading, text, length, &none, 0, &none, 0);
    reserve(&j.store, need.first_length + 4096);
    reserve(&j.area, need.second_length + 4096);
    reserve(&j.outline, chuntarek_outline(reading, text, length, &none, 0).first_length + 1);
    reserve(&j.rendered, 2 * length + 4096);
    reserve(&j.old_store, need.first_length + 1);
    reserve(&j.old_area, need.second_length + 1);
    reserve(&j.list, 2 * 65536); /* an entry takes no more than the record of a value */
    pthread_attr_t attributes;
    pthread_t thread;
    if (pthread_attr_init(&attributes) || pthread_attr_setstacksize(&attributes, kib * 1024))
        fail("no such stack");
    if (pthread_create(&thread, &attributes, run, &j) || pthread_join(thread, NULL))
        fail("no thread");
    pthread_attr_destroy(&attributes);
    free(j.store.bytes);
    free(j.area.bytes);
    free(j.outline.bytes);
    free(j.rendered.bytes);
    free(j.old_store.bytes);
    free(j.old_area.bytes);
    free(j.list.bytes);
    return j.calls;
}

/* The readings, and numbers before and behind them that name none. */
static uint64_t in_each_reading(size_t kib, const buffer *text)
{
    uint64_t calls = 0;
    for (uint64_t reading = 0; reading <= 3; reading++)
        calls += on_thread(kib, reading, text->bytes, text->length);
    return calls;
}

/* Whether the name check's table puts a tag of the block among its first places, so that soon none of them is free. */
static int is_crowded(const char *name)
{
    uint64_t h = 0;
    size_t length = strlen(name);
    for (size_t i = 0; i < length + 2; i++)
        h = h % 4294967296u * 698769069u + (h / 4294967296u + (i < length ? (uint8_t)name[i] : 0));
    return h % 12272 < 64;
}

static void tags(buffer *b, size_t count, int crowded)
{
    char line[64];
    add(b, "data_x\n");
    for (size_t number = 0, made = 0; made < count; number++) {
        snprintf(line, sizeof line, "t%zu", number);
        if (crowded && !is_crowded(line))
            continue;
        snprintf(line, sizeof line, "_t%zu 1.5(2)\n", number);
        add(b, line);
        made++;
    }
}

/* Blocks with a frame, a quoted value and a loop each, which the strict reading reads. */
static void blocks(buffer *b, size_t count)
{
    char line[128];
    for (size_t i = 0; i < count; i++) {
        snprintf(line, sizeof line, "data_b%zu _a 'O'Neill' save_f _a ;b save_ loop_ _c _d 1.5(2) ?\n", i);
        add(b, line);
    }
}

/* A text field of so many lines that the strict reading takes as well. */
static void field(buffer *b, size_t lines)
{
    add(b, "data_x _a\n;");
    for (size_t i = 0; i < lines; i++) {
        add_times(b, 'f', 2000);
        add(b, "\n");
    }
    add(b, ";\n");
}

static void frames(buffer *b, size_t count, size_t each)
{
    char line[64];
    add(b, "data_x\n");
    for (size_t i = 0; i < count; i++) {
        snprintf(line, sizeof line, "save_f%zu\n", i);
        add(b, line);
        for (size_t k = 0; k < each; k++) {
            snprintf(line, sizeof line, "_t%zu 'a b'\n", k);
            add(b, line);
        }
        add(b, "save_\n");
    }
}

static void loop(buffer *b, size_t columns)
{
    char line[64];
    add(b, "data_x\nloop_\n");
    for (size_t i = 0; i < columns; i++) {
        snprintf(line, sizeof line, "_c%zu\n", i);
        add(b, line);
    }
    for (size_t i = 0; i < columns; i++)
        add(b, "1 ");
}

static void long_one(buffer *b, const char *start, char byte, size_t times, const char *end)
{
    add(b, start);
    add_times(b, byte, times);
    add(b, end);
}

/* The n-th hard text; 0 where there is none. */
static int hard(int n, buffer *b)
{
    switch (n) {
    case 0: tags(b, 60000, 0); return 1;
    case 1: tags(b, 3000, 1); return 1;
    case 2: tags(b, 20000, 0); add(b, "_t0 1\n"); return 1;
    case 3: frames(b, 3000, 30); return 1;
    case 4: frames(b, 3, 20000); return 1;
    case 5: loop(b, 30000); return 1;
    case 6: long_one(b, "data_x _a ", 'w', 3000000, "\n"); return 1;
    case 7: long_one(b, "data_x _a\n;", 'f', 3000000, "\n;\n"); return 1;
    case 8: long_one(b, "data_x _a\n;", '\n', 3000000, "\n;\n"); return 1;
    case 9: long_one(b, "#", 'c', 3000000, "\ndata_x"); return 1;
    case 10: long_one(b, "data_x _", 't', 3000000, " ?"); return 1;
    case 11: long_one(b, "data_x _a 1", '0', 100000, ".5"); return 1;
    case 12: long_one(b, "data_x _a '", 'q', 100000, ""); return 1;
    case 13: long_one(b, "data_x save_f ", ' ', 100000, "_a 1"); return 1;
    case 14: long_one(b, "", ' ', 17000000, ""); return 1;
    case 15: long_one(b, "data_x _a 'x", '\'', 100000, "y'"); return 1;
    case 16: blocks(b, 20000); return 1;
    case 17: field(b, 1000); return 1;
    case 18: long_one(b, "data_x _a 'x", '\'', 2000, "y'"); return 1;
    case 19: long_one(b, "data_x _a ;", ';', 2000, ""); return 1;
    default: return 0;
    }
}

static void file(buffer *b, const char *path)
{
    FILE *f = fopen(path, "rb");
    if (!f)
        fail(path);
    size_t got;
    do {
        reserve(b, 65536);
        got = fread(b->bytes + b->length, 1, 65536, f);
        b->length += got;
    } while (got > 0);
    fclose(f);
}

int main(int count, char **arguments)
{
    if (count < 2)
        fail("usage: stack KIB FILE...");
    size_t kib = strtoul(arguments[1], NULL, 10);
    uint64_t calls = 0;
    for (int i = 2; i < count; i++) {
        buffer b = {0};
        file(&b, arguments[i]);
        calls += in_each_reading(kib, &b);
        free(b.bytes);
    }
    for (int n = 0;; n++) {
        buffer b = {0};
        if (!hard(n, &b))
            break;
        calls += in_each_reading(kib, &b);
        free(b.bytes);
    }
    printf("%llu calls on a stack of %zu KiB\n", (unsigned long long)calls, kib);
    return 0;
}
