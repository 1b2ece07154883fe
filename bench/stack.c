/* How much stack each entry point of the proved library uses. Each call runs on a thread whose stack was painted before; what is no longer
 * paint was used. What a thread uses that calls nothing is taken off. Every pack of the folder is given, whole and with each of its words
 * wrong in turn, so that the ways of a refusal are gone too; the greatest use counts. Two trees are printed: a chain of 256 nodes with
 * leaves beside them, and a node of 65,534 leaves.
 *   stack PACKS    PACKS is the folder of small.pack, json.pack and profile.pack */
#include <pthread.h>
#include <stdio.h>
#include <stdlib.h>
#include <string.h>

#include "../include/zhgarelli.h"

enum { MOST_WORDS = 20589, MOST_BYTES = 65535, TREE_WORDS = 4 * 1000, STACK_BYTES = 1 << 20, PAINT = 0xa5 };
enum { NODES = 256, BESIDE = 3, LEAVES = 65534 };

static _Alignas(4096) uint8_t stack[STACK_BYTES];

/* What the calls are given. */
static uint16_t image[MOST_WORDS], buffer[MOST_WORDS], tree[TREE_WORDS], chain[4 * NODES * (1 + 2 * BESIDE)], wide[4 * (LEAVES + 1)];
static uint8_t pack_text[MOST_BYTES], pack_text2[MOST_BYTES], text[MOST_BYTES], printout[10 * LEAVES];
static size_t words, pack_bytes, pack_bytes2;
static const char *query;
static char long_name[2001], long_string[2003];
static uint64_t out[6];

static _Noreturn void fail(const char *what)
{
    fprintf(stderr, "stack: %s\n", what);
    exit(1);
}

static void nothing(void)
{
}

static void shape(void)
{
    zhg_shape(image, words, out, 6);
}

static void scan(void)
{
    zhg_scan(image, words, (const uint8_t *)query, strlen(query), 0, UINT64_MAX, UINT32_MAX, out, 6);
}

static void reads(void)
{
    zhg_read(pack_text, pack_bytes, buffer, MOST_WORDS, out, 6);
}

static void writes(void)
{
    zhg_write(image, words, text, MOST_BYTES, out, 6);
}

static void writes2(void)
{
    zhg_write2(image, words, text, MOST_BYTES, out, 6);
}

static void moves2(void)
{
    zhg_form2(pack_text, pack_bytes, text, MOST_BYTES, out, 6);
}

static void moves1(void)
{
    zhg_form1(pack_text2, pack_bytes2, text, MOST_BYTES, out, 6);
}

static void check(void)
{
    zhg_check(image, words, out, 6);
}

static void parse(void)
{
    zhg_parse(image, words, (const uint8_t *)query, strlen(query), tree, TREE_WORDS, UINT32_MAX, out, 6);
}

static void leaf(void)
{
    zhg_leaf((const uint8_t *)query, strlen(query), tree, 4, out, 6);
}

static void prints(const uint16_t *records, size_t count)
{
    zhg_print((const uint8_t *)query, strlen(query), records, count, printout, sizeof printout, out, 6);
    if (out[0] != 0)
        fail("a tree is refused");
}

static void print(void)
{
    prints(chain, sizeof chain / sizeof *chain);
    prints(wide, sizeof wide / sizeof *wide);
}

static struct entry {
    const char *name;
    void (*call)(void);
    size_t most;
} entries[] = {
    {"nothing", nothing, 0}, {"zhg_shape", shape, 0}, {"zhg_scan", scan, 0},   {"zhg_read", reads, 0},
    {"zhg_write", writes, 0}, {"zhg_check", check, 0}, {"zhg_parse", parse, 0}, {"zhg_leaf", leaf, 0},
    {"zhg_print", print, 0},  {"zhg_write2", writes2, 0}, {"zhg_form2", moves2, 0}, {"zhg_form1", moves1, 0},
};
enum { ENTRIES = sizeof entries / sizeof *entries };

static void *start(void *call)
{
    (*(void (**)(void))call)();
    return NULL;
}

static size_t used(void (*call)(void))
{
    pthread_attr_t attributes;
    pthread_t thread;
    memset(stack, PAINT, STACK_BYTES);
    pthread_attr_init(&attributes);
    if (pthread_attr_setstack(&attributes, stack, STACK_BYTES) || pthread_create(&thread, &attributes, start, &call))
        fail("a thread cannot be started");
    pthread_join(thread, NULL);
    pthread_attr_destroy(&attributes);
    size_t free = 0;
    while (free < STACK_BYTES && stack[free] == PAINT)
        free++;
    if (free == 0)
        fail("the stack is too small");
    return STACK_BYTES - free;
}

static void measure(void)
{
    for (size_t i = 0; i < ENTRIES; i++) {
        size_t bytes = used(entries[i].call);
        if (bytes > entries[i].most)
            entries[i].most = bytes;
    }
}

static void measure_pack(const char *folder, const char *name, const char *good_query, size_t apart)
{
    char path[4096];
    snprintf(path, sizeof path, "%s/%s", folder, name);
    FILE *file = fopen(path, "rb");
    if (!file)
        fail("a pack is not in the folder");
    pack_bytes = fread(pack_text, 1, MOST_BYTES, file);
    fclose(file);
    zhg_read(pack_text, pack_bytes, image, MOST_WORDS, out, 6);
    if (out[0] != 0)
        fail("a pack text is refused");
    words = out[1];
    zhg_write2(image, words, pack_text2, MOST_BYTES, out, 6);
    pack_bytes2 = out[1];
    query = good_query;
    measure();
    for (size_t i = 0; i < words; i += apart) {
        uint16_t word = image[i];
        uint8_t byte = pack_text[i], byte2 = pack_text2[i];
        image[i] = (uint16_t)(word + 1);
        pack_text[i] = pack_text2[i] = 'x';
        measure();
        image[i] = word;
        pack_text[i] = byte;
        pack_text2[i] = byte2;
    }
    const char *const others[] = {"?", long_name, long_string};
    for (size_t i = 0; i < 3; i++) {
        query = others[i];
        measure();
    }
}

static uint16_t *put_leaves(uint16_t *at, size_t count)
{
    for (; count > 0; count--, at += 4)
        memcpy(at, (const uint16_t[4]){2, 0, 3, 0}, 8);
    return at;
}

static uint16_t *put_node(uint16_t *at, size_t children)
{
    memcpy(at, (const uint16_t[4]){64, 1, (uint16_t)children, 0}, 8);
    return at + 4;
}

/* Each node of the chain has leaves before the next one and behind it. */
static void make_trees(void)
{
    uint16_t *at = put_leaves(chain, NODES * BESIDE);
    for (size_t i = 0; i < NODES; i++)
        at = put_node(put_leaves(at, BESIDE), 2 * BESIDE + (i > 0));
    put_node(put_leaves(wide, LEAVES), LEAVES);
}

int main(int count, char **given)
{
    if (count != 2)
        fail("usage: stack PACKS");
    make_trees();
    memset(long_name, 'a', sizeof long_name - 1);
    snprintf(long_string, sizeof long_string, "\"%s\"", long_name);
    measure_pack(given[1], "small.pack", "tax by day", 1);
    measure_pack(given[1], "json.pack", "[1, {\"a\": null}]", 20);
    measure_pack(given[1], "profile.pack", "share of std::sort under main", 100);
    printf("| entry point | bytes of stack |\n|---|---|\n");
    for (size_t i = 1; i < ENTRIES; i++)
        printf("| `%s` | %zu |\n", entries[i].name, entries[i].most - entries[0].most);
    return 0;
}
