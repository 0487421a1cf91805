/* What `plain` does with one input, in plain C: it reads a capture file, decodes the packets, puts their heaps
 * together among those of the last eight openings, with a bit for each byte that came, so that packets which overlap
 * are found, and looks at each whole heap for timestamp and antenna. The streams are held to be well-formed: the first
 * thing that is wrong ends the program. It uses no sample.
 * Usage: receive read|map CHANNELS SPECTRA ANTENNA CAPTURE. Prints how many heaps were whole, and how many of these are
 * of the antenna and have voltages. */
#include <fcntl.h>
#include <stdint.h>
#include <stdio.h>
#include <stdlib.h>
#include <string.h>
#include <sys/mman.h>
#include <sys/stat.h>
#include <unistd.h>

enum { WINDOW = 8, POINTERS = 64, AHEAD = 65536, RECORD = 65536 };
enum { COUNTER = 1, SIZE = 2, OFFSET = 3, LENGTH = 4, TIMESTAMP = 0x1600, ANTENNA = 0x4101, VOLTAGES = 0x4300 };

struct heap {
    uint64_t counter, size, have, ending;
    unsigned pointers;
    int whole;
    uint64_t pointer[POINTERS];
    uint64_t *marks;
    unsigned char *bytes;
};

/* A capture file: mapped, or read ahead so many bytes at a time. */
struct capture {
    int file, mapped;
    const unsigned char *bytes;
    size_t at, end;
};

static struct heap heaps[WINDOW];
static unsigned opened;
static uint64_t limit, wanted, antenna, whole, used, touched;

static void fail(const char *why)
{
    fprintf(stderr, "receive: %s\n", why);
    exit(1);
}

static uint64_t number(const unsigned char *bytes, unsigned count)
{
    uint64_t value = 0;
    for (unsigned i = 0; i < count; i++)
        value = value << 8 | bytes[i];
    return value;
}

static uint64_t word(const unsigned char *bytes)
{
    uint64_t value;
    memcpy(&value, bytes, 8);
    return __builtin_bswap64(value);
}

static void open_capture(struct capture *c, const char *path, int mapped)
{
    struct stat about;
    c->mapped = mapped;
    c->at = c->end = 0;
    c->file = open(path, O_RDONLY);
    if (c->file < 0 || fstat(c->file, &about) < 0)
        fail("no such capture");
    if (mapped) {
        c->end = (size_t)about.st_size;
        c->bytes = mmap(NULL, c->end, PROT_READ, MAP_PRIVATE, c->file, 0);
        if (c->bytes == MAP_FAILED)
            fail("the capture can't be mapped");
    } else {
        c->bytes = malloc(AHEAD + RECORD);
        if (!c->bytes)
            fail("no memory");
    }
}

/* The next so many bytes, or none at the end. */
static const unsigned char *take(struct capture *c, size_t count)
{
    while (c->end - c->at < count) {
        if (c->mapped)
            return NULL;
        unsigned char *bytes = (unsigned char *)c->bytes;
        memmove(bytes, bytes + c->at, c->end - c->at);
        c->end -= c->at;
        c->at = 0;
        ssize_t got = read(c->file, bytes + c->end, AHEAD);
        if (got <= 0)
            return NULL;
        c->end += (size_t)got;
    }
    c->at += count;
    return c->bytes + c->at - count;
}

/* The heap with this counter among the last openings, which it joins if it is not there. */
static struct heap *find(uint64_t counter)
{
    unsigned count = opened < WINDOW ? opened : WINDOW;
    for (unsigned i = 0; i < count; i++)
        if (heaps[i].counter == counter)
            return &heaps[i];
    struct heap *h = &heaps[opened++ % WINDOW];
    memset(h->marks, 0, 8 * ((h->ending + 63) / 64));
    h->counter = counter;
    h->size = UINT64_MAX;
    h->have = h->ending = 0;
    h->pointers = 0;
    h->whole = 0;
    return h;
}

/* Sets these bits of a word, and tells which stood there. */
static uint64_t set(uint64_t *word, uint64_t bits)
{
    uint64_t met = *word & bits;
    *word |= bits;
    return met;
}

/* Whether one of these bytes came before; all of them have come now. Whole words are set and looked at at once. */
static int overlaps(struct heap *h, uint64_t from, uint64_t to)
{
    uint64_t first = from / 64, last = to / 64, low = ~0ULL << from % 64, high = ~(~0ULL << to % 64), met;
    if (first == last)
        return set(h->marks + first, low & high) != 0;
    met = set(h->marks + first, low);
    if (from < h->ending)
        for (uint64_t place = first + 1; place < last; place++)
            met |= h->marks[place];
    memset(h->marks + first + 1, 0xff, 8 * (last - first - 1));
    return (met | set(h->marks + last, high)) != 0;
}

static void add_pointer(struct heap *h, uint64_t pointer)
{
    for (unsigned i = 0; i < h->pointers; i++)
        if (h->pointer[i] == pointer)
            return;
    if (h->pointers == POINTERS)
        fail("more than 64 pointers");
    h->pointer[h->pointers++] = pointer;
}

/* The end of the content that begins at this offset. */
static uint64_t content_end(const struct heap *h, uint64_t offset)
{
    uint64_t end = h->have;
    for (unsigned i = 0; i < h->pointers; i++) {
        uint64_t value = h->pointer[i] & 0xffffffffffff;
        if (!(h->pointer[i] >> 63) && offset < value && value < end)
            end = value;
    }
    return end;
}

/* The value of an item, where it is immediate or has at most eight bytes. */
static int item(const struct heap *h, unsigned id, uint64_t *value)
{
    for (unsigned i = 0; i < h->pointers; i++) {
        if ((h->pointer[i] >> 48 & 0x7fff) != id)
            continue;
        *value = h->pointer[i] & 0xffffffffffff;
        if (h->pointer[i] >> 63)
            return 1;
        uint64_t end = content_end(h, *value);
        if (end <= *value || 8 < end - *value)
            return 0;
        *value = number(h->bytes + *value, (unsigned)(end - *value));
        return 1;
    }
    return 0;
}

/* Whether a heap has as many voltages as are wanted. */
static int has_voltages(const struct heap *h)
{
    for (unsigned i = 0; i < h->pointers; i++) {
        uint64_t value = h->pointer[i] & 0xffffffffffff;
        if ((h->pointer[i] >> 48) == VOLTAGES) {
            touched += h->bytes[value];
            return wanted <= content_end(h, value) - value;
        }
    }
    return 0;
}

static void judge(const struct heap *h)
{
    uint64_t timestamp, number;
    whole++;
    if (item(h, TIMESTAMP, &timestamp) && item(h, ANTENNA, &number) && has_voltages(h) && number == antenna)
        used++;
}

static void packet(const unsigned char *bytes, size_t count)
{
    uint64_t said[5] = {0, 0, UINT64_MAX, 0, 0};
    size_t pointers = (size_t)number(bytes + 6, 2), front = 8 + 8 * pointers;
    for (size_t i = 0; i < pointers; i++) {
        uint64_t pointer = word(bytes + 8 + 8 * i);
        unsigned id = pointer >> 48 & 0x7fff;
        if (id <= LENGTH && pointer >> 63)
            said[id] = pointer & 0xffffffffffff;
    }
    if (memcmp(bytes, "S\4\2\6", 4) || said[LENGTH] != count - front || limit < said[OFFSET] + said[LENGTH])
        fail("a stream that is not well-formed");
    struct heap *h = find(said[COUNTER]);
    if (h->whole)
        return;
    for (size_t i = 0; i < pointers; i++) {
        uint64_t pointer = word(bytes + 8 + 8 * i);
        if (LENGTH < (pointer >> 48 & 0x7fff))
            add_pointer(h, pointer);
    }
    uint64_t end = said[OFFSET] + said[LENGTH];
    if (overlaps(h, said[OFFSET], end))
        fail("packets that overlap");
    memcpy(h->bytes + said[OFFSET], bytes + front, said[LENGTH]);
    h->have += said[LENGTH];
    if (h->ending < end)
        h->ending = end;
    if (said[SIZE] != UINT64_MAX)
        h->size = said[SIZE];
    if (h->have == h->size) {
        h->whole = 1;
        judge(h);
    }
}

int main(int count, char **words)
{
    struct capture c;
    const unsigned char *bytes;
    if (count != 6)
        fail("usage: receive read|map CHANNELS SPECTRA ANTENNA CAPTURE");
    wanted = 4 * strtoull(words[2], NULL, 10) * strtoull(words[3], NULL, 10);
    limit = wanted + 4096;
    antenna = strtoull(words[4], NULL, 10);
    for (unsigned i = 0; i < WINDOW; i++)
        if (!(heaps[i].bytes = malloc(limit)) || !(heaps[i].marks = calloc(limit / 64 + 1, 8)))
            fail("no memory");
    open_capture(&c, words[5], !strcmp(words[1], "map"));
    if (!(bytes = take(&c, 8)) || memcmp(bytes, "SPCAPT01", 8))
        fail("no capture");
    while ((bytes = take(&c, 4))) {
        size_t length = (size_t)number(bytes, 4);
        if (!(bytes = take(&c, length)) || length < 8)
            fail("a capture that is cut off");
        packet(bytes, length);
    }
    printf("%llu whole, %llu used\n", (unsigned long long)whole, (unsigned long long)used);
    return (int)(touched >> 63);
}
