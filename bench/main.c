/* The benchmark: the proved library, plain C, plain Rust and fast C side by side in one process. First all of them must give the same
 * answers, on each input that is timed and on many damaged ones; then each row is timed, and the least of several measurements is
 * printed.
 *   bench PACKS             the table; PACKS is the folder of json.pack and profile.pack
 *   bench PACKS --growth    how the time of the check grows with the parse states and the productions */
#include <stdbool.h>
#include <stdio.h>
#include <stdlib.h>
#include <string.h>
#include <time.h>

#include "../include/zhgarelli.h"
#include "plain.h"

enum { MOST_WORDS = 20589, MOST_BYTES = 65535, MOST_TREE = 4 * 65535, MOST_PRINTOUT = 500000, VERSIONS = 3, NUMBERS = 6, REPEATS = 25 };
static const double BATCH_SECONDS = 0.008;

typedef size_t image_function(const uint16_t *, size_t, uint64_t *, size_t);
typedef size_t scan_function(const uint16_t *, size_t, const uint8_t *, size_t, size_t, uint64_t, uint32_t, uint64_t *, size_t);
typedef size_t read_function(const uint8_t *, size_t, uint16_t *, size_t, uint64_t *, size_t);
typedef size_t write_function(const uint16_t *, size_t, uint8_t *, size_t, uint64_t *, size_t);
typedef size_t move_function(const uint8_t *, size_t, uint8_t *, size_t, uint64_t *, size_t);
typedef size_t print_function(const uint8_t *, size_t, const uint16_t *, size_t, uint8_t *, size_t, uint64_t *, size_t);
typedef size_t parse_function(const uint16_t *, size_t, const uint8_t *, size_t, uint16_t *, size_t, uint32_t, uint64_t *, size_t);

struct version {
    const char *name;
    image_function *shape, *check;
    scan_function *scan;
    read_function *read;
    write_function *write, *write2;
    move_function *form2, *form1;
    parse_function *parse;
    print_function *print;
};

static const struct version versions[VERSIONS] = {
    {"proved", zhg_shape, zhg_check, zhg_scan, zhg_read, zhg_write, zhg_write2, zhg_form2, zhg_form1, zhg_parse, zhg_print},
    {"plain C", plain_c_shape, plain_c_check, plain_c_scan, plain_c_read, plain_c_write, plain_c_write2, plain_c_form2, plain_c_form1,
     plain_c_parse, plain_c_print},
    {"plain Rust", plain_rust_shape, plain_rust_check, plain_rust_scan, plain_rust_read, plain_rust_write, plain_rust_write2,
     plain_rust_form2, plain_rust_form1, plain_rust_parse, plain_rust_print},
};

/* Plain C that parses without its shape test, and does nothing else; and C made as fast as we can, of three functions, for form 1. */
static const struct version run_alone = {.name = "plain C's run", .parse = plain_c_run};
static const struct version fast = {.name = "fast C", .shape = fast_c_shape, .read = fast_c_read, .write = fast_c_write};

struct image {
    uint16_t words[MOST_WORDS];
    size_t count;
};

/* The records of a tree. */
struct tree {
    uint16_t words[MOST_TREE];
    size_t count;
};

/* One call of an entry point. A reader, a writer, a move, a parse and a printout get so many words or bytes of the lent buffers. */
struct call {
    enum { SHAPE, SCAN, READ, WRITE, CHECK, PARSE, PRINT, WRITE2, FORM2, FORM1 } kind;
    const struct image *image;
    const uint8_t *text;
    size_t text_bytes, start;
    uint64_t set;
    uint32_t allowance;
    size_t room;
    const struct tree *tree;
};

static uint16_t lent_words[MOST_WORDS], lent_tree[MOST_TREE];
static uint8_t lent_bytes[MOST_BYTES], lent_printout[MOST_PRINTOUT];

static size_t answer(const struct version *version, const struct call *call, uint64_t out[NUMBERS])
{
    const struct image *image = call->image;
    switch (call->kind) {
    case SHAPE:
        return version->shape(image->words, image->count, out, NUMBERS);
    case SCAN:
        return version->scan(image->words, image->count, call->text, call->text_bytes, call->start, call->set, call->allowance, out,
                             NUMBERS);
    case READ:
        return version->read(call->text, call->text_bytes, lent_words, call->room, out, NUMBERS);
    case WRITE:
        return version->write(image->words, image->count, lent_bytes, call->room, out, NUMBERS);
    case WRITE2:
        return version->write2(image->words, image->count, lent_bytes, call->room, out, NUMBERS);
    case FORM2:
        return version->form2(call->text, call->text_bytes, lent_bytes, call->room, out, NUMBERS);
    case FORM1:
        return version->form1(call->text, call->text_bytes, lent_bytes, call->room, out, NUMBERS);
    case CHECK:
        return version->check(image->words, image->count, out, NUMBERS);
    case PRINT:
        return version->print(call->text, call->text_bytes, call->tree->words, call->tree->count, lent_printout, call->room, out, NUMBERS);
    default:
        return version->parse(image->words, image->count, call->text, call->text_bytes, lent_tree, call->room, call->allowance, out,
                              NUMBERS);
    }
}

static _Noreturn void fail(const char *what)
{
    fflush(stdout);
    fprintf(stderr, "bench: %s\n", what);
    exit(1);
}

/* Numbers that look random and are the same in every run. */
static uint64_t seed = 1;

static uint64_t draw(uint64_t below)
{
    seed ^= seed << 13;
    seed ^= seed >> 7;
    seed ^= seed << 17;
    return (seed >> 11) % below;
}

static uint64_t draw_set(uint64_t among)
{
    uint64_t bits = draw(1 << 22) | draw(1 << 22) << 22 | draw(1 << 20) << 44;
    return bits & among;
}

/* ---- packs ---- */

static void put(struct image *image, size_t word)
{
    if (image->count == MOST_WORDS)
        fail("a pack is over the greatest image");
    image->words[image->count++] = (uint16_t)word;
}

static void put_set(struct image *image, uint64_t set)
{
    for (int shift = 0; shift < 64; shift += 16)
        put(image, set >> shift & 0xffff);
}

/* Document 01's small pack. */
static const char small_pack[] =
    "pack=1\n"
    "size=4,1,2,5,5,5,6,0\n"
    "layout=0000000000000008\n"
    "dom=0000000000000000\n"
    "dom=0000000000000000\n"
    "dom=0000000000000002\n"
    "dom=0000000000000000\n"
    "prod=0,1,2\n"
    "prod=0,3,2,1,2\n"
    "act=0,0,4,0\n"
    "act=3,6,0,0\n"
    "act=0,0,8,0\n"
    "act=5,0,0,0\n"
    "act=1,0,0,0\n"
    "goto=5\n"
    "goto=0\n"
    "goto=0\n"
    "goto=0\n"
    "goto=0\n"
    "class=32,32,4\n"
    "class=97,97,3\n"
    "class=98,98,1\n"
    "class=99,120,3\n"
    "class=121,121,2\n"
    "class=122,122,3\n"
    "move=0,2,4,4,5\n"
    "move=0,4,3,4,0\n"
    "move=0,4,4,4,0\n"
    "move=0,4,4,4,0\n"
    "move=0,0,0,0,5\n"
    "scan=0000000000000000,0000000000000000,000000000000000e\n"
    "scan=0000000000000004,0000000000000000,0000000000000006\n"
    "scan=0000000000000002,0000000000000004,0000000000000006\n"
    "scan=0000000000000004,0000000000000000,0000000000000004\n"
    "scan=0000000000000008,0000000000000000,0000000000000008\n";

/* The image of a pack text, and the pack text of an image; they are known to be good. */
static void read_pack(struct image *image, const uint8_t *text, size_t bytes)
{
    uint64_t out[2];
    zhg_read(text, bytes, image->words, MOST_WORDS, out, 2);
    if (out[0] != 0)
        fail("the pack text is refused");
    image->count = out[1];
}

static size_t read_file(struct image *image, const char *folder, const char *name, uint8_t text[MOST_BYTES])
{
    char path[4096];
    snprintf(path, sizeof path, "%s/%s", folder, name);
    FILE *file = fopen(path, "rb");
    if (!file)
        fail("a pack is not in the folder");
    size_t bytes = fread(text, 1, MOST_BYTES, file);
    fclose(file);
    read_pack(image, text, bytes);
    return bytes;
}

static size_t write_pack(const struct image *image, uint8_t text[MOST_BYTES])
{
    uint64_t out[2];
    zhg_write(image->words, image->count, text, MOST_BYTES, out, 2);
    if (out[0] != 0)
        fail("the pack is refused");
    return out[1];
}

static size_t write_form2(const struct image *image, uint8_t text[MOST_BYTES])
{
    uint64_t out[2];
    zhg_write2(image->words, image->count, text, MOST_BYTES, out, 2);
    if (out[0] != 0)
        fail("the pack is refused in form 2");
    return out[1];
}

struct sizes {
    size_t t, n, p, s, q, c, r, g;
};

static void put_head(struct image *image, struct sizes z)
{
    const size_t head[9] = {1, z.t, z.n, z.p, z.s, z.q, z.c, z.r, z.g};
    image->count = 0;
    for (int i = 0; i < 9; i++)
        put(image, head[i]);
}

/* Ranges over all bytes, of any classes. */
static void put_ranges(struct image *image, struct sizes z)
{
    for (size_t r = 0; r < z.r; r++) {
        put(image, r * 256 / z.r);
        put(image, (r + 1) * 256 / z.r - 1);
        put(image, draw(z.c));
    }
}

/* A pack of good shape. Of the parse states every other one reduces by one production in half of its columns, and the others shift in
 * a quarter of theirs. Where the scan goes on for ever each move leads to some scan state and each possible set is full. One scan state
 * of `accepting` accepts some of the terminals, and one of `rejecting` rejects some; 0 stands for none. */
static void draw_pack(struct image *image, struct sizes z, bool for_ever, size_t accepting, size_t rejecting)
{
    uint64_t all = (z.t < 64 ? (UINT64_C(1) << z.t) - 1 : UINT64_MAX) & ~UINT64_C(1);
    uint64_t layout = z.t > 2 ? 2 : 0;
    put_head(image, z);
    put_set(image, layout);
    for (size_t t = 0; t < z.t; t++)
        put_set(image, t == 0 ? 0 : draw_set(all) & draw_set(all) & ~(UINT64_C(1) << t));
    for (size_t p = 0; p < z.p; p++) {
        size_t len = draw(15);
        put(image, draw(z.n));
        put(image, len);
        for (size_t i = 0; i < 14; i++)
            put(image, i >= len ? 0 : z.t > 2 && draw(2) ? 2 + draw(z.t - 2) : 64 + draw(z.n));
    }
    for (size_t s = 0; s < z.s; s++) {
        size_t production = draw(z.p);
        for (size_t t = 0; t < z.t; t++)
            if (layout >> t & 1)
                put(image, 0);
            else if (s % 2)
                put(image, draw(2) ? 3 + 2 * production : 0);
            else
                put(image, t == 0 ? 1 : draw(4) ? 0 : 2 + 2 * draw(z.s));
    }
    for (size_t i = 0; i < z.s * z.n; i++)
        put(image, draw(4) ? 0 : 1 + draw(z.s));
    put_ranges(image, z);
    for (size_t i = 0; i < z.q * z.c; i++)
        put(image, for_ever ? 1 + draw(z.q) : draw(z.q + 1));
    for (size_t q = 0; q < z.q; q++) {
        uint64_t acc = q && accepting && draw(accepting) == 0 ? draw_set(all) : 0;
        uint64_t rej = q && rejecting && draw(rejecting) == 0 ? draw_set(all) & ~acc : 0;
        put_set(image, acc);
        put_set(image, rej);
        put_set(image, for_ever ? all : draw_set(all) | acc | rej);
    }
    for (size_t g = 0; g < z.g; g++) {
        size_t chosen = 1 + draw(z.t - 1), other = 1 + (chosen + g) % (z.t - 1);
        put_set(image, draw_set(all) | UINT64_C(1) << chosen | UINT64_C(1) << other | UINT64_C(1) << (1 + chosen % (z.t - 1)));
        put(image, chosen);
    }
}

/* The greatest pack that passes. From state 0 nine paths of 14 tokens lead through 126 states; each of these reduces what was read since
 * state 0, in half of its columns, and goes on by one shift; state 1 accepts. A name, terminal 63, is outranked wherever another token
 * matches. Terminal 1 is layout. */
static void passing_pack(struct image *image)
{
    enum { PATHS = 9, STEPS = 14, NAME = 63, TOKENS = 61 };
    const uint64_t tokens = ~UINT64_C(3) & ~(UINT64_C(1) << NAME), all = ~UINT64_C(1);
    const struct sizes z = {64, 32, 128, 128, 128, 32, 64, 32};
    put_head(image, z);
    put_set(image, 2);
    for (size_t t = 0; t < z.t; t++)
        put_set(image, t == NAME ? tokens : 0);
    for (size_t p = 0; p < z.p; p++) {
        size_t path = p / STEPS, len = p < PATHS * STEPS ? p % STEPS + 1 : 0;
        put(image, 0);
        put(image, len);
        for (size_t i = 0; i < 14; i++)
            put(image, i < len ? 2 + (path * STEPS + i) % TOKENS : 0);
    }
    for (size_t s = 0; s < z.s; s++) {
        size_t p = s - 2;
        for (size_t t = 0; t < z.t; t++) {
            size_t next = 0;
            for (size_t path = 0; s == 0 && path < PATHS; path++)
                if (t == 2 + path * STEPS % TOKENS)
                    next = 2 + path * STEPS;
            if (s >= 2 && p % STEPS + 1 < STEPS && t == 2 + (p + 1) % TOKENS)
                next = s + 1;
            put(image, next ? 2 + 2 * next : s == 1 && t == 0 ? 1 : s >= 2 && t % 2 == 0 ? 3 + 2 * p : 0);
        }
    }
    for (size_t i = 0; i < z.s * z.n; i++)
        put(image, i == 0 ? 2 : 0);
    put_ranges(image, z);
    for (size_t i = 0; i < z.q * z.c; i++)
        put(image, draw(z.q + 1));
    for (size_t q = 0; q < z.q; q++) {
        put_set(image, q ? UINT64_C(1) << (2 + q % TOKENS) : 0);
        put_set(image, q ? UINT64_C(1) << NAME : 0);
        put_set(image, all);
    }
    for (size_t g = 0; g < z.g; g++) {
        put_set(image, UINT64_C(3) << (2 + g));
        put(image, 2 + g);
    }
}

/* Of the packs that pass, the one that costs the check most that we could build: every row but the first has 64 reductions of 14 symbols,
 * by half of the productions. The states but 0 go round in two circles, one on nonterminal 0 and one on nonterminal 1, so that no way back
 * comes to an end. With a scanner, every parse state sees two terminals in every scan state, and their group is the last one. */
static void worst_pack(struct image *image, size_t states, size_t productions, bool scanner)
{
    const struct sizes least = {64, 32, productions, states, 1, 1, 0, 0}, most = {64, 32, productions, states, 128, 32, 64, 32};
    const struct sizes z = scanner ? most : least;
    size_t half = productions / 2, first[2] = {1, states / 2}, end[2] = {states / 2, states};
    put_head(image, z);
    put_set(image, 0);
    for (size_t t = 0; t < z.t; t++)
        put_set(image, 0);
    for (size_t p = 0; p < z.p; p++) {
        put(image, p / half);
        put(image, 14);
        for (size_t i = 0; i < 14; i++)
            put(image, 64 + p / half);
    }
    for (size_t s = 0; s < z.s; s++)
        for (size_t t = 0; t < z.t; t++)
            put(image, s == 0 ? 0 : 3 + 2 * ((s >= end[0]) * half + t % half));
    for (size_t s = 0; s < z.s; s++)
        for (size_t n = 0; n < z.n; n++)
            put(image, n > 1 || s < first[n] || s >= end[n] ? 0 : 1 + (s + 1 < end[n] ? s + 1 : first[n]));
    put_ranges(image, z);
    for (size_t i = 0; i < z.q * z.c; i++)
        put(image, 1 + draw(z.q));
    for (size_t q = 0; q < z.q; q++) {
        put_set(image, q ? UINT64_C(3) << z.g : 0);
        put_set(image, 0);
        put_set(image, ~UINT64_C(1));
    }
    for (size_t g = 0; g < z.g; g++) {
        put_set(image, UINT64_C(3) << (1 + g));
        put(image, 1 + g);
    }
}

/* ---- the same answers ---- */

/* Is there a fast version of the function? It reads form 1 alone. */
static bool is_fast(const struct call *call)
{
    bool form2 = call->kind == READ && call->text_bytes > 5 && call->text[5] == '2';
    return call->kind == SHAPE || (call->kind == READ && !form2) || call->kind == WRITE;
}

static size_t compared;

/* The buffer that a call is lent, whole, and its size in bytes. Of the tree and the printout a little more than the call may use. */
static size_t lent(const struct call *call, void **buffer)
{
    size_t tree = (call->room + 16) * sizeof *lent_tree, printout = call->room + 16;
    switch (call->kind) {
    case READ:
        *buffer = lent_words;
        return sizeof lent_words;
    case WRITE:
    case WRITE2:
    case FORM2:
    case FORM1:
        *buffer = lent_bytes;
        return sizeof lent_bytes;
    case PRINT:
        *buffer = lent_printout;
        return printout < sizeof lent_printout ? printout : sizeof lent_printout;
    case PARSE:
        *buffer = lent_tree;
        return tree < sizeof lent_tree ? tree : sizeof lent_tree;
    default:
        *buffer = lent_tree;
        return 0;
    }
}

/* What a version gives: the numbers, and the lent buffer. */
struct given {
    size_t told;
    uint64_t out[NUMBERS];
    uint8_t buffer[sizeof lent_tree];
};

static void give(const struct version *version, const struct call *call, struct given *given)
{
    void *buffer;
    size_t bytes = lent(call, &buffer);
    memset(given->out, 0x5a, sizeof given->out);
    memset(buffer, 0x5a, bytes);
    given->told = answer(version, call, given->out);
    memcpy(given->buffer, buffer, bytes);
}

static void compare_with(const struct given *first, const struct version *version, const struct call *call)
{
    static struct given other;
    void *buffer;
    size_t bytes = lent(call, &buffer);
    give(version, call, &other);
    if (first->told == other.told && !memcmp(first->out, other.out, sizeof first->out) && !memcmp(first->buffer, other.buffer, bytes))
        return;
    fprintf(stderr, "%s and %s differ after %zu equal answers, in a call of kind %d:\n", versions[0].name, version->name, compared,
            call->kind);
    for (int i = 0; i < NUMBERS; i++)
        fprintf(stderr, "  %llu  %llu\n", (unsigned long long)first->out[i], (unsigned long long)other.out[i]);
    fail("the answers differ");
}

static void compare(const struct call *call)
{
    static struct given first;
    give(&versions[0], call, &first);
    for (int v = 1; v < VERSIONS; v++)
        compare_with(&first, &versions[v], call);
    if (call->kind == PARSE && first.out[0] != 4 && first.out[0] != 6)
        compare_with(&first, &run_alone, call);
    if (is_fast(call))
        compare_with(&first, &fast, call);
    compared++;
}

/* A parse with ample room and allowance. */
static struct call parse_call(const struct image *image, const char *query, size_t bytes)
{
    return (struct call){PARSE, image, (const uint8_t *)query, bytes, 0, 0, UINT32_MAX, MOST_TREE, NULL};
}

/* Every byte of a pack text is changed in several ways, one at a time, and the text is cut short after each byte. */
static void compare_damaged_text(const struct image *image)
{
    static uint8_t text[MOST_BYTES];
    size_t bytes = write_pack(image, text);
    struct call call = {.kind = READ, .text = text, .text_bytes = bytes, .room = image->count};
    for (size_t i = 0; i < bytes; i++) {
        uint8_t byte = text[i];
        const uint8_t other[] = {'0', '1', '9', 'f', 'F', ',', '\n', '=', (uint8_t)draw(256)};
        for (size_t k = 0; k < sizeof other; k++) {
            text[i] = other[k];
            compare(&call);
        }
        text[i] = byte;
        compare(&(struct call){.kind = READ, .text = text, .text_bytes = i, .room = image->count});
    }
    const char *numbers[] = {"05", "00", "65535", "65536", "100000", "4294967297", "+1", "", "5,"};
    for (size_t k = 0; k < sizeof numbers / sizeof *numbers; k++) {
        char other[MOST_BYTES + 1];
        const char *number = strstr(small_pack, "goto=") + 5;
        int length = snprintf(other, sizeof other, "%.*s%s%s", (int)(number - small_pack), small_pack, numbers[k], number + 1);
        compare(&(struct call){.kind = READ, .text = (uint8_t *)other, .text_bytes = (size_t)length, .room = MOST_WORDS});
    }
    for (size_t room = 0; room <= image->count + 1; room++)
        compare(&(struct call){.kind = READ, .text = text, .text_bytes = bytes, .room = room});
    for (size_t room = bytes - 2; room <= bytes + 1; room++)
        compare(&(struct call){.kind = WRITE, .image = image, .room = room});
}

/* The same of form 2, with moves to form 1 beside; and moves of form 1 to form 2. */
static void compare_damaged_forms(const struct image *image)
{
    static uint8_t one[MOST_BYTES], two[MOST_BYTES];
    size_t one_bytes = write_pack(image, one), two_bytes = write_form2(image, two);
    struct call read = {.kind = READ, .text = two, .room = image->count};
    struct call form1 = {.kind = FORM1, .text = two, .room = MOST_BYTES}, form2 = {.kind = FORM2, .text = one, .room = MOST_BYTES};
    const uint8_t other[] = {'0', '1', '2', '9', ':', ',', '\n', '=', ' '};
    for (size_t i = 0; i <= two_bytes; i++) {
        uint8_t byte = two[i];
        read.text_bytes = form1.text_bytes = two_bytes;
        for (size_t k = 0; k < sizeof other && i < two_bytes; k++) {
            two[i] = other[k];
            compare(&read);
            compare(&form1);
        }
        two[i] = byte;
        read.text_bytes = form1.text_bytes = i;
        compare(&read);
        compare(&form1);
    }
    for (size_t i = 0; i < one_bytes; i++) {
        uint8_t byte = one[i];
        form2.text_bytes = one_bytes;
        for (size_t k = 0; k < sizeof other; k++) {
            one[i] = other[k];
            compare(&form2);
        }
        one[i] = byte;
    }
    for (size_t room = 0; room <= one_bytes + 1; room++) {
        compare(&(struct call){.kind = FORM1, .text = two, .text_bytes = two_bytes, .room = room});
        compare(&(struct call){.kind = FORM2, .text = one, .text_bytes = one_bytes, .room = room});
        compare(&(struct call){.kind = WRITE2, .image = image, .room = room});
    }
    compare(&(struct call){.kind = FORM2, .text = two, .text_bytes = two_bytes, .room = MOST_BYTES});
    compare(&(struct call){.kind = FORM1, .text = one, .text_bytes = one_bytes, .room = MOST_BYTES});
}

/* Every word of a pack is changed in several ways, one at a time, and the image is cut short. The query is parsed with each. */
static void compare_damaged_image(const struct image *good, const char *query, bool writes)
{
    static struct image image;
    image = *good;
    struct call call = {.kind = SHAPE, .image = &image}, write = {.kind = WRITE, .image = &image, .room = MOST_BYTES};
    struct call check = {.kind = CHECK, .image = &image}, parse = parse_call(&image, query, strlen(query));
    for (size_t i = 0; i < good->count; i++) {
        uint16_t word = good->words[i];
        const uint16_t other[] = {0, 1, 2, 3, 64, 255, 65535, (uint16_t)(word + 1), (uint16_t)(word - 1), (uint16_t)draw(260)};
        for (size_t k = 0; k < sizeof other / sizeof *other; k++) {
            image.words[i] = other[k];
            compare(&call);
            compare(&check);
            compare(&parse);
        }
        if (writes)
            compare(&write);
        image.words[i] = word;
    }
    for (image.count = 0; image.count < good->count; image.count += 1 + image.count / 8) {
        compare(&call);
        compare(&check);
        compare(&parse);
    }
}

/* A query with every room up to its records and one more, every allowance up to its moves and one more, and with bytes changed. */
static void compare_parses(const struct image *image, const char *query)
{
    size_t bytes = strlen(query);
    struct call call = parse_call(image, query, bytes);
    uint64_t out[NUMBERS];
    answer(&versions[0], &call, out);
    for (size_t room = 0; room < 4 * (out[4] + 2); room++) {
        call.room = room;
        compare(&call);
    }
    for (uint32_t allowance = 0; allowance < out[5] + 2; allowance++) {
        call.allowance = allowance;
        compare(&call);
    }
    uint8_t text[100];
    call = parse_call(image, (const char *)text, bytes);
    for (int i = 0; i < 3000; i++) {
        memcpy(text, query, bytes);
        for (size_t changes = 1 + draw(3); changes > 0; changes--)
            text[draw(bytes)] = draw(2) ? (uint8_t)query[draw(bytes)] : (uint8_t)(32 + draw(96));
        call.text_bytes = draw(4) ? bytes : draw(bytes + 1);
        compare(&call);
    }
}

/* Short texts, with any start, set and allowance. */
static void compare_scans(const struct image *image)
{
    for (int i = 0; i < 20000; i++) {
        uint8_t text[40];
        for (size_t b = 0; b < sizeof text; b++)
            text[b] = (uint8_t)(draw(8) ? 97 + draw(26) : draw(256));
        uint64_t set = draw(2) ? draw_set(UINT64_MAX) : UINT64_C(1) << draw(64);
        uint32_t allowance = draw(2) ? UINT32_MAX : (uint32_t)draw(42);
        compare(&(struct call){SCAN, image, text, draw(41), draw(2) ? 0 : draw(42), set, allowance, 0, NULL});
    }
    for (int i = 0; i < 1000; i++) {
        uint8_t text[1200];
        for (size_t b = 0; b < sizeof text; b++)
            text[b] = (uint8_t)(draw(8) ? 97 + draw(26) : draw(256));
        uint32_t allowance = draw(2) ? UINT32_MAX : (uint32_t)(400 + draw(800));
        compare(&(struct call){SCAN, image, text, 500 + draw(701), draw(20), UINT64_MAX, allowance, 0, NULL});
    }
}

/* A printout with ample room. */
static struct call print_call(const struct tree *tree, const char *text, size_t bytes)
{
    return (struct call){.kind = PRINT, .text = (const uint8_t *)text, .text_bytes = bytes, .room = MOST_PRINTOUT, .tree = tree};
}

/* The tree of a text that is accepted. */
static void parse_tree(struct tree *tree, const struct image *image, const char *text, size_t bytes)
{
    uint64_t out[NUMBERS];
    zhg_parse(image->words, image->count, (const uint8_t *)text, bytes, tree->words, MOST_TREE, UINT32_MAX, out, NUMBERS);
    if (out[0] != 0)
        fail("the text is refused");
    tree->count = 4 * out[4];
}

/* How many bytes a tree prints. */
static size_t printed(const struct tree *tree, const char *text, size_t bytes)
{
    uint64_t out[NUMBERS];
    zhg_print((const uint8_t *)text, bytes, tree->words, tree->count, lent_printout, MOST_PRINTOUT, out, NUMBERS);
    if (out[0] != 0)
        fail("the tree is refused");
    return out[1];
}

static void put_record(struct tree *tree, size_t first, size_t second, size_t third)
{
    const size_t record[4] = {first, second, third, 0};
    for (int i = 0; i < 4; i++)
        tree->words[tree->count++] = (uint16_t)record[i];
}

/* So many nodes, each the last child of the one above it, and so many leaves of one byte beside each. */
static void deep_tree(struct tree *tree, size_t nodes, size_t leaves)
{
    tree->count = 0;
    for (size_t i = 0; i < nodes * leaves; i++)
        put_record(tree, 1 + i % 63, i % 1000, 1);
    for (size_t i = 0; i < nodes; i++)
        put_record(tree, 64, i, leaves + (i > 0));
}

/* A tree with every room up to its printout and one more, with every word changed in several ways, and cut short. */
static void compare_prints(const struct tree *good, const char *text, size_t bytes)
{
    static struct tree tree;
    tree = *good;
    struct call call = print_call(&tree, text, bytes);
    uint64_t out[NUMBERS];
    answer(&versions[0], &call, out);
    size_t most = out[0] == 0 ? out[1] + 1 : 0;
    for (call.room = 0; call.room <= most; call.room++)
        compare(&call);
    call.room = most + 20;
    for (size_t i = 0; i < good->count; i++) {
        uint16_t word = good->words[i];
        const uint16_t other[] = {0, 1, 63, 64, 65535, (uint16_t)(word + 1), (uint16_t)(word - 1), (uint16_t)draw(70)};
        for (size_t k = 0; k < sizeof other / sizeof *other; k++) {
            tree.words[i] = other[k];
            compare(&call);
        }
        tree.words[i] = word;
    }
    for (tree.count = 0; tree.count < good->count; tree.count++)
        compare(&call);
}

/* ---- timing ---- */

static double now(void)
{
    struct timespec t;
    clock_gettime(CLOCK_MONOTONIC, &t);
    return (double)t.tv_sec + (double)t.tv_nsec * 1e-9;
}

static double batch(const struct version *version, const struct call *call, size_t calls)
{
    uint64_t out[NUMBERS];
    double begin = now();
    for (size_t i = 0; i < calls; i++) {
        answer(version, call, out);
        __asm__ volatile("" ::: "memory");
    }
    return now() - begin;
}

struct row {
    const char *what;
    struct call call;
    size_t size;
    const char *sized;
    /* The answer that makes the row what it says: the code, and of a scan the moves. */
    uint64_t code, moves;
    const char *unit;
    double per_second;
    /* How many calls a batch has, and the seconds of one call, by version; the last is plain C's run alone, of a parse, or fast C. */
    size_t calls[VERSIONS + 1];
    double seconds[VERSIONS + 1];
};

static const struct version *version_of(const struct row *row, int v)
{
    return v < VERSIONS ? &versions[v] : row->call.kind == PARSE ? &run_alone : is_fast(&row->call) ? &fast : NULL;
}

/* Tests that the row is what it says, and makes its batches long enough. */
static void prepare(struct row *row)
{
    uint64_t out[NUMBERS] = {0};
    answer(&versions[0], &row->call, out);
    if (out[0] != row->code || (row->call.kind == SCAN && out[4] != row->moves))
        fail("a row is not what it says");
    for (int v = 0; v <= VERSIONS && version_of(row, v); v++) {
        row->seconds[v] = 1e9;
        row->calls[v] = 1;
        while (batch(version_of(row, v), &row->call, row->calls[v]) < BATCH_SECONDS / 2)
            row->calls[v] *= 2;
    }
}

/* One more batch of each version, in turn; the least counts. */
static void measure(struct row *row)
{
    for (int v = 0; v <= VERSIONS && version_of(row, v); v++) {
        double each = batch(version_of(row, v), &row->call, row->calls[v]) / (double)row->calls[v];
        if (each < row->seconds[v])
            row->seconds[v] = each;
    }
}

static void measure_all(struct row *rows, size_t count)
{
    for (size_t i = 0; i < count; i++)
        prepare(&rows[i]);
    for (int repeat = 0; repeat < REPEATS; repeat++)
        for (size_t i = 0; i < count; i++)
            measure(&rows[i]);
}

static void show(const struct row *row)
{
    const double *seconds = row->seconds;
    printf("| %-44s | %6zu %-5s | %-11s |", row->what, row->size, row->sized, row->unit);
    for (int v = 0; v < VERSIONS; v++)
        printf(" %10.3f |", seconds[v] * row->per_second);
    if (is_fast(&row->call))
        printf(" %10.3f | %8.2f | %11.2f | %11.2f |\n", seconds[VERSIONS] * row->per_second, seconds[0] / seconds[1],
               seconds[0] / seconds[2], seconds[0] / seconds[VERSIONS]);
    else
        printf(" %10s | %8.2f | %11.2f | %11s |\n", "-", seconds[0] / seconds[1], seconds[0] / seconds[2], "-");
}

static struct row shape_row(const char *what, const struct image *image, size_t walked, uint64_t code)
{
    struct call call = {.kind = SHAPE, .image = image};
    return (struct row){.what = what, .call = call, .size = walked, .sized = "words", .code = code, .unit = "ns per word",
                        .per_second = 1e9 / (double)walked};
}

static struct row scan_row(const char *what, const struct image *image, const uint8_t *text, size_t bytes, uint64_t set)
{
    struct call call = {SCAN, image, text, bytes, 0, set, UINT32_MAX, 0, NULL};
    return (struct row){.what = what, .call = call, .size = bytes, .sized = "bytes", .moves = bytes, .unit = "ns per byte",
                        .per_second = 1e9 / (double)bytes};
}

/* A scan so short that the call itself counts, with its shape test. */
static struct row short_row(const char *what, const struct image *image, const uint8_t *text, size_t bytes, uint64_t set)
{
    struct row row = scan_row(what, image, text, bytes, set);
    row.unit = "us per call";
    row.per_second = 1e6;
    return row;
}

/* The reader where there is a text, otherwise the writer. */
static struct row text_row(const char *what, const struct image *image, const uint8_t *text, size_t bytes)
{
    struct call read = {.kind = READ, .text = text, .text_bytes = bytes, .room = MOST_WORDS};
    struct call write = {.kind = WRITE, .image = image, .room = MOST_BYTES};
    return (struct row){.what = what, .call = text ? read : write, .size = bytes, .sized = "bytes", .unit = "ns per byte",
                        .per_second = 1e9 / (double)bytes};
}

/* The writer of form 2, by the bytes that it writes, and the moves, by those that they are given. */
static struct row form_row(const char *what, int kind, const struct image *image, const uint8_t *text, size_t bytes)
{
    struct call call = {.kind = kind, .image = image, .text = text, .text_bytes = bytes, .room = MOST_BYTES};
    return (struct row){.what = what, .call = call, .size = bytes, .sized = "bytes", .unit = "ns per byte",
                        .per_second = 1e9 / (double)bytes};
}

/* A whole call, in microseconds. */
static struct row call_row(const char *what, struct call call, size_t size, const char *sized)
{
    return (struct row){.what = what, .call = call, .size = size, .sized = sized, .unit = "us per call", .per_second = 1e6};
}

static struct row check_row(const char *what, const struct image *image)
{
    return call_row(what, (struct call){.kind = CHECK, .image = image}, image->count, "words");
}

static struct row query_row(const char *what, const struct image *image, const char *query)
{
    return call_row(what, parse_call(image, query, strlen(query)), strlen(query), "bytes");
}

static struct row parse_row(const char *what, const struct image *image, const char *text, size_t bytes)
{
    return (struct row){.what = what, .call = parse_call(image, text, bytes), .size = bytes, .sized = "bytes", .unit = "ns per byte",
                        .per_second = 1e9 / (double)bytes};
}

/* A printout of so many bytes, and a short one. */
static struct row print_row(const char *what, const struct tree *tree, const char *text, size_t bytes, size_t printed)
{
    return (struct row){.what = what, .call = print_call(tree, text, bytes), .size = printed, .sized = "bytes", .unit = "ns per byte",
                        .per_second = 1e9 / (double)printed};
}

static struct row short_print_row(const char *what, const struct tree *tree, const char *text, size_t printed)
{
    return call_row(what, print_call(tree, text, strlen(text)), printed, "bytes");
}

/* A JSON text of about 60,000 bytes, with all that JSON has: objects in one list, or in lists of so many. */
static size_t draw_json(char text[MOST_BYTES], size_t in_lists_of)
{
    static const char *const names[] = {"std::sort", "malloc", "parse body", "main", "read \\\"quoted\\\""};
    static const char form[] = "%s{\"id\": %u, \"name\": \"%s\", \"share\": %u.%uE-2,\n"
                               " \"calls\": [%u, -%u, []], \"live\": %s, \"next\": null}";
    size_t bytes = 0;
    for (size_t i = 0; bytes < 60000; i++) {
        const char *between = i == 0 ? in_lists_of ? "[[" : "[" : in_lists_of && i % in_lists_of == 0 ? "],\n[" : ",\n";
        bytes += (size_t)snprintf(text + bytes, MOST_BYTES - bytes, form, between, (unsigned)draw(100000), names[draw(5)],
                                  (unsigned)draw(100), (unsigned)draw(1000), (unsigned)draw(1000), (unsigned)draw(1000),
                                  draw(2) ? "true" : "false");
    }
    text[bytes++] = ']';
    if (in_lists_of)
        text[bytes++] = ']';
    return bytes;
}

static void show_head(const char *what)
{
    printf("| %-44s | %-12s | %-11s | %10s | %10s | %10s | %10s | %8s | %11s | %11s |\n", what, "size", "unit", versions[0].name,
           versions[1].name, versions[2].name, fast.name, "proved/C", "proved/Rust", "proved/fast");
    printf("|---|---|---|---|---|---|---|---|---|---|\n");
}

/* The aim for a short query: no slower than plain C's run without its shape test and 0.15 ns for each word of the pack. */
static void show_aim(const struct row *row)
{
    double run = row->seconds[VERSIONS] * 1e6, words = (double)row->call.image->count * 0.15e-3, proved = row->seconds[0] * 1e6;
    printf("| %-44s | %10.3f | %10.3f | %10.3f | %10.3f | %8.2f |\n", row->what, proved, run, words, run + words, proved / (run + words));
}

/* The moves of a parse, which are the same on every machine. */
static void show_moves(const struct row *row)
{
    uint64_t out[NUMBERS] = {0};
    answer(&versions[0], &row->call, out);
    printf("| %-44s | %6zu | %7zu | %5.2f |\n", row->what, row->size, (size_t)out[5], (double)out[5] / (double)row->size);
}

/* The worst packs without a scanner, by parse states and productions. */
static int growth(void)
{
    static struct image images[16];
    static struct row rows[16];
    static char names[16][45];
    for (size_t i = 0; i < 16; i++) {
        size_t states = (size_t)16 << i / 4, productions = (size_t)16 << i % 4;
        worst_pack(&images[i], states, productions, false);
        snprintf(names[i], sizeof names[i], "check, S = %zu, P = %zu", states, productions);
        rows[i] = check_row(names[i], &images[i]);
        compare(&rows[i].call);
    }
    measure_all(rows, 16);
    show_head("what");
    for (size_t i = 0; i < 16; i++)
        show(&rows[i]);
    return 0;
}

int main(int words, char **word)
{
    if (words < 2 || words > 3 || (words == 3 && strcmp(word[2], "--growth")))
        fail("usage: bench PACKS [--growth]");
    if (words == 3)
        return growth();
    static struct image small, middle, greatest, late, many, rejects, json, profile, passing, worst;
    static uint8_t small_text[MOST_BYTES], json_text[MOST_BYTES], profile_text[MOST_BYTES], large_text[MOST_BYTES];
    read_pack(&small, (const uint8_t *)small_pack, strlen(small_pack));
    if (small.count != 189)
        fail("the small pack has not 189 words");
    size_t json_bytes = read_file(&json, word[1], "json.pack", json_text);
    size_t profile_bytes = read_file(&profile, word[1], "profile.pack", profile_text);
    draw_pack(&middle, (struct sizes){24, 12, 40, 60, 50, 16, 20, 6}, false, 3, 6);
    draw_pack(&greatest, (struct sizes){64, 32, 128, 128, 128, 32, 64, 32}, false, 3, 6);
    passing_pack(&passing);
    worst_pack(&worst, 128, 128, true);
    if (greatest.count != MOST_WORDS || passing.count != MOST_WORDS || worst.count != MOST_WORDS)
        fail("a greatest pack has not 20589 words");
    late = greatest;
    size_t last_action = 13 + 64 * 4 + 128 * 16 + 128 * 64 - 1;
    late.words[last_action] = 65535;
    draw_pack(&many, (struct sizes){64, 1, 1, 1, 128, 32, 64, 0}, true, 4, 0);
    draw_pack(&rejects, (struct sizes){64, 1, 1, 1, 128, 32, 64, 0}, true, 3, 3);

    static uint8_t name[MOST_BYTES], any[MOST_BYTES];
    for (size_t i = 0; i < MOST_BYTES; i++) {
        name[i] = (uint8_t)(97 + draw(26));
        any[i] = (uint8_t)draw(256);
    }
    static char document[MOST_BYTES];
    size_t document_bytes = draw_json(document, 0);
    size_t small_bytes = write_pack(&small, small_text), large_bytes = write_pack(&greatest, large_text);
    static uint8_t json_text2[MOST_BYTES], profile_text2[MOST_BYTES];
    size_t json_bytes2 = write_form2(&json, json_text2), profile_bytes2 = write_form2(&profile, profile_text2);
    /* A list is a node in a node for each of its members, so a long one would be too deep to print. */
    static char lists[MOST_BYTES];
    size_t lists_bytes = draw_json(lists, 20);
    const char *const tax = "tax by day", *const share = "share of std::sort under main", *const top = "top 10 of malloc group by core";

    static struct tree tax_tree, share_tree, lists_tree, deep, deeper;
    parse_tree(&tax_tree, &small, tax, strlen(tax));
    parse_tree(&share_tree, &profile, share, strlen(share));
    parse_tree(&lists_tree, &json, lists, lists_bytes);
    deep_tree(&deep, 256, 254);
    struct row rows[] = {
        shape_row("shape, small pack", &small, small.count, 0),
        shape_row("shape, json pack", &json, json.count, 0),
        shape_row("shape, profile pack", &profile, profile.count, 0),
        shape_row("shape, drawn middle pack", &middle, middle.count, 0),
        shape_row("shape, drawn greatest pack", &greatest, greatest.count, 0),
        shape_row("shape, refused at the last action cell", &late, last_action + 1, 4),
        scan_row("scan, small pack, one long name", &small, name, MOST_BYTES, 4),
        scan_row("scan, 128 states, accepting now and then", &many, any, MOST_BYTES, UINT64_MAX),
        scan_row("scan, 128 states, with rejects", &rejects, any, MOST_BYTES, UINT64_MAX),
        scan_row("scan, 128 states, rejects, one terminal", &rejects, any, MOST_BYTES, 1 << 5),
        short_row("scan, small pack, a name of 10 bytes", &small, name, 10, 4),
        short_row("scan, 128 states, 10 bytes", &many, any, 10, UINT64_MAX),
        text_row("read, small pack", NULL, small_text, small_bytes),
        text_row("read, json pack", NULL, json_text, json_bytes),
        text_row("read, profile pack", NULL, profile_text, profile_bytes),
        text_row("read, drawn greatest pack", NULL, large_text, large_bytes),
        text_row("write, small pack", &small, NULL, small_bytes),
        text_row("write, json pack", &json, NULL, json_bytes),
        text_row("write, profile pack", &profile, NULL, profile_bytes),
        text_row("write, drawn greatest pack", &greatest, NULL, large_bytes),
        text_row("read form 2, json pack", NULL, json_text2, json_bytes2),
        text_row("read form 2, profile pack", NULL, profile_text2, profile_bytes2),
        form_row("write form 2, json pack", WRITE2, &json, NULL, json_bytes2),
        form_row("write form 2, profile pack", WRITE2, &profile, NULL, profile_bytes2),
        form_row("move to form 2, json pack", FORM2, NULL, json_text, json_bytes),
        form_row("move to form 2, profile pack", FORM2, NULL, profile_text, profile_bytes),
        form_row("move to form 1, json pack", FORM1, NULL, json_text2, json_bytes2),
        form_row("move to form 1, profile pack", FORM1, NULL, profile_text2, profile_bytes2),
        check_row("check, small pack", &small),
        check_row("check, json pack", &json),
        check_row("check, profile pack", &profile),
        check_row("check, greatest pack that passes", &passing),
        check_row("check, worst pack that passes", &worst),
        parse_row("parse, json pack, a long text", &json, document, document_bytes),
        query_row("parse, small pack, tax by day", &small, tax),
        query_row("parse, profile pack, share of ..", &profile, share),
        query_row("parse, profile pack, top 10 of ..", &profile, top),
        print_row("print, json pack, a long text", &lists_tree, lists, lists_bytes, printed(&lists_tree, lists, lists_bytes)),
        print_row("print, 65280 records, 256 nodes deep", &deep, lists, lists_bytes, printed(&deep, lists, lists_bytes)),
        short_print_row("print, profile pack, share of ..", &share_tree, share, printed(&share_tree, share, strlen(share))),
    };
    enum { ROWS = sizeof rows / sizeof *rows, QUERIES = 3, PRINTOUTS = 3, FIRST_QUERY = ROWS - PRINTOUTS - QUERIES };

    for (size_t i = 0; i < ROWS; i++)
        compare(&rows[i].call);
    compare_damaged_image(&small, tax, true);
    compare_damaged_image(&middle, tax, false);
    compare_damaged_image(&json, "[1, {\"a\": null}]", false);
    compare_damaged_text(&small);
    compare_damaged_forms(&small);
    compare_scans(&small);
    compare_scans(&middle);
    compare_scans(&rejects);
    compare_parses(&small, tax);
    compare_parses(&profile, share);
    compare_parses(&profile, top);
    compare_parses(&json, "[1, {\"a\": null}, -2.5e3]");
    compare_prints(&tax_tree, "t[]\\by day", strlen("t[]\\by day"));
    compare_prints(&share_tree, share, strlen(share));
    for (size_t nodes = 255; nodes < 259; nodes++) {
        deep_tree(&deeper, nodes, nodes % 2);
        compare_prints(&deeper, tax, strlen(tax));
    }
    printf("The same answer from all, %zu times: on each input below, on images, pack texts, queries and trees with changes, on short "
           "scans.\n\n",
           compared);

    measure_all(rows, ROWS);
    show_head("what");
    for (size_t i = 0; i < ROWS; i++)
        show(&rows[i]);
    printf("\n| %-44s | %10s | %10s | %10s | %10s | %8s |\n|---|---|---|---|---|---|\n", "short queries, us per call", "proved",
           "C's run", "words", "aim", "ratio");
    for (size_t i = FIRST_QUERY; i < FIRST_QUERY + QUERIES; i++)
        show_aim(&rows[i]);
    printf("\n| %-44s | %6s | %7s | %5s |\n|---|---|---|---|\n", "moves", "bytes", "moves", "each");
    for (size_t i = FIRST_QUERY - 1; i < FIRST_QUERY + QUERIES; i++)
        show_moves(&rows[i]);
    return 0;
}
