/* Shape, the reader and the writer in C, made as fast as we can without intrinsics: flat passes that the compiler makes wide, words of
 * eight bytes at a time, tables, no early exit where a wide pass is quicker. Where a pass over a table says no, that table is walked to
 * the place of its first wrong word. */
#include "plain.h"

#include <stdbool.h>
#include <string.h>

#define GOOD SIZE_MAX
#define MOST_WORDS 20589
#define BYTES(byte) (UINT64_C(0x0101010101010101) * (byte))

static const uint16_t least[9] = {1, 1, 1, 1, 1, 1, 1, 0, 0};
static const uint16_t greatest[9] = {1, 64, 32, 128, 128, 128, 32, 64, 32};

struct pack {
    size_t terminals, nonterminals, productions, states, scan_states, classes, ranges, groups;
    /* The first word of each table, and the number of words of the whole image. */
    size_t dom, prod, act, go, class, move, scan, group, end;
};

static struct pack pack_of(const uint16_t *img)
{
    struct pack p = {
        .terminals = img[1],
        .nonterminals = img[2],
        .productions = img[3],
        .states = img[4],
        .scan_states = img[5],
        .classes = img[6],
        .ranges = img[7],
        .groups = img[8],
    };
    p.dom = 13;
    p.prod = p.dom + p.terminals * 4;
    p.act = p.prod + p.productions * 16;
    p.go = p.act + p.states * p.terminals;
    p.class = p.go + p.states * p.nonterminals;
    p.move = p.class + p.ranges * 3;
    p.scan = p.move + p.scan_states * p.classes;
    p.group = p.scan + p.scan_states * 12;
    p.end = p.group + p.groups * 5;
    return p;
}

static inline uint64_t set_at(const uint16_t *words)
{
    return (uint64_t)words[0] | (uint64_t)words[1] << 16 | (uint64_t)words[2] << 32 | (uint64_t)words[3] << 48;
}

static inline bool has(uint64_t set, size_t t)
{
    return t < 64 && (set >> t & 1) != 0;
}

static inline uint64_t below(size_t t)
{
    return t < 64 ? (UINT64_C(1) << t) - 1 : UINT64_MAX;
}

static size_t lowest(uint64_t set)
{
    size_t t = 0;
    while (!has(set, t))
        t++;
    return t;
}

/* ---- the shape ---- */

static size_t wrong_size(const uint16_t *img, size_t words)
{
    for (size_t i = 0; i < 9; i++)
        if (words <= i || img[i] < least[i] || img[i] > greatest[i])
            return i;
    return GOOD;
}

/* Each table has a pass that says whether all of it is right, and a walk to its first wrong word, which there is. */

static bool doms_right(const uint16_t *doms, size_t terminals, uint64_t never)
{
    uint64_t all = 0, own = 0;
    for (size_t t = 0; t < terminals; t++) {
        uint64_t set = set_at(doms + t * 4);
        all |= set;
        own |= set >> t;
    }
    return set_at(doms) == 0 && (all & never) == 0 && (own & 1) == 0;
}

static size_t wrong_dom(const uint16_t *doms, uint64_t never)
{
    for (size_t t = 0;; t++) {
        uint64_t set = set_at(doms + t * 4);
        if (t == 0 ? set != 0 : (set & never) != 0 || has(set, t))
            return t * 4;
    }
}

/* Rows of 16 words: a left side, a len, so many symbols, and zeros behind them. The rows are copied with 0 for the first two, and beside
 * them a mask of what is to be 0: a part of `ones` that begins so that its ones stand behind the symbols. Then one flat pass tests all
 * words, and one each that no symbol is a terminal of layout. */
static bool productions_right(const uint16_t *productions, size_t count, const struct pack *p, uint64_t layout)
{
    static const uint16_t ones[30] = {[16] = 65535, 65535, 65535, 65535, 65535, 65535, 65535,
                                      65535,        65535, 65535, 65535, 65535, 65535, 65535};
    uint16_t terminals = (uint16_t)(p->terminals - 1), nonterminals = (uint16_t)p->nonterminals, wrong = 0;
    uint16_t words[128 * 16], zeros[128 * 16];
    for (size_t i = 0; i < count * 16; i += 16) {
        size_t len = productions[i + 1];
        if (productions[i] >= nonterminals || len > 14)
            return false;
        memcpy(words + i, productions + i, 32);
        memcpy(zeros + i, ones + 14 - len, 32);
        memset(words + i, 0, 4);
        memset(zeros + i, 255, 4);
    }
    for (size_t i = 0; i < count * 16; i++) {
        uint16_t word = words[i], zero = zeros[i];
        bool symbol = (uint16_t)(word - 1) < terminals || (uint16_t)(word - 64) < nonterminals;
        wrong |= (uint16_t)((zero & word) | ~(zero | (symbol ? 65535 : 0)));
    }
    for (; layout; layout &= layout - 1) {
        uint16_t skipped = (uint16_t)lowest(layout), hit = 0;
        for (size_t i = 0; i < count * 16; i++)
            hit |= words[i] == skipped;
        wrong |= hit;
    }
    return wrong == 0;
}

static size_t wrong_production(const uint16_t *productions, const struct pack *p, uint64_t layout)
{
    size_t i = 0;
    while (productions_right(productions + i * 16, 1, p, layout))
        i++;
    const uint16_t *production = productions + i * 16;
    if (production[0] >= p->nonterminals)
        return i * 16;
    if (production[1] > 14)
        return i * 16 + 1;
    for (size_t k = 0;; k++) {
        size_t symbol = production[2 + k];
        bool token = symbol != 0 && symbol < p->terminals && !has(layout, symbol);
        bool right = k >= production[1] ? symbol == 0 : token || (symbol >= 64 && symbol - 64 < p->nonterminals);
        if (!right)
            return i * 16 + 2 + k;
    }
}

/* Rows of actions: one flat pass for the limits, which also counts the accepts; then column 0, which has all of them and no shift, and
 * the columns of layout. With its last bit turned to the front a shift is a number from 0 on, and a reduction or an accept is one as soon
 * as that bit is turned over; each is below 0 where the other is meant. */
static bool actions_right(const uint16_t *cells, size_t rows, const struct pack *p, uint64_t layout)
{
    size_t columns = p->terminals, count = rows * columns;
    int16_t even = 0, odd = 0;
    uint16_t accepts = 0, in_front = 0, wrong = 0;
    for (size_t i = 0; i < count; i++) {
        uint16_t turned = (uint16_t)(cells[i] >> 1 | cells[i] << 15);
        int16_t shift = (int16_t)turned, other = (int16_t)(turned ^ 0x8000);
        even = shift > even ? shift : even;
        odd = other > odd ? other : odd;
        accepts = (uint16_t)(accepts + (other == 0));
    }
    for (size_t s = 0; s < rows; s++) {
        uint16_t code = cells[s * columns];
        in_front = (uint16_t)(in_front + (code == 1));
        wrong |= (uint16_t)(code & 1 ? 0 : code);
    }
    for (; layout; layout &= layout - 1)
        for (size_t s = 0, t = lowest(layout); s < rows; s++)
            wrong |= cells[s * columns + t];
    return (size_t)even <= p->states && (size_t)odd <= p->productions && accepts == in_front && wrong == 0;
}

static size_t wrong_action(const uint16_t *cells, const struct pack *p, uint64_t layout)
{
    size_t row = 0;
    while (actions_right(cells + row * p->terminals, 1, p, layout))
        row++;
    for (size_t t = 0;; t++) {
        size_t code = cells[row * p->terminals + t];
        bool right = code == 0 || (!has(layout, t) && (code == 1       ? t == 0
                                                       : code % 2 == 0 ? t != 0 && (code - 2) / 2 < p->states
                                                                       : (code - 3) / 2 < p->productions));
        if (!right)
            return row * p->terminals + t;
    }
}

/* Gotos and moves: numbers up to a limit. */
static bool numbers_right(const uint16_t *numbers, size_t count, size_t limit)
{
    int16_t most = 0, all = 0;
    for (size_t i = 0; i < count; i++) {
        int16_t number = (int16_t)numbers[i];
        most = number > most ? number : most;
        all |= number;
    }
    return all >= 0 && (size_t)most <= limit;
}

static size_t wrong_number(const uint16_t *numbers, size_t limit)
{
    size_t i = 0;
    while (numbers[i] <= limit)
        i++;
    return i;
}

static bool ranges_right(const uint16_t *ranges, size_t count, size_t classes)
{
    unsigned wrong = 0, last = 0;
    for (size_t r = 0; r < count; r++) {
        unsigned lo = ranges[r * 3], hi = ranges[r * 3 + 1];
        wrong |= (lo < last) | (hi < lo) | (hi > 255) | (ranges[r * 3 + 2] >= classes);
        last = hi + 1;
    }
    return !wrong;
}

static size_t wrong_range(const uint16_t *ranges, size_t classes)
{
    for (size_t at = 0;; at += 3) {
        if (at != 0 && ranges[at] <= ranges[at - 2])
            return at;
        if (ranges[at + 1] < ranges[at] || ranges[at + 1] > 255)
            return at + 1;
        if (ranges[at + 2] >= classes)
            return at + 2;
    }
}

static bool scan_sets_right(const uint16_t *sets, size_t count, uint64_t never)
{
    uint64_t all = 0, both = 0;
    for (size_t q = 0; q < count; q++) {
        uint64_t acc = set_at(sets + q * 12), rej = set_at(sets + q * 12 + 4);
        all |= acc | rej | set_at(sets + q * 12 + 8);
        both |= acc & rej;
    }
    return (all & never) == 0 && both == 0 && (set_at(sets) | set_at(sets + 4)) == 0;
}

static size_t wrong_scan_set(const uint16_t *sets, uint64_t never)
{
    for (size_t q = 0;; q++) {
        uint64_t acc = set_at(sets + q * 12), rej = set_at(sets + q * 12 + 4);
        if (acc & never || (q == 0 && acc != 0))
            return q * 12;
        if (rej & never || (q == 0 && rej != 0) || acc & rej)
            return q * 12 + 4;
        if (set_at(sets + q * 12 + 8) & never)
            return q * 12 + 8;
    }
}

static size_t wrong_group(const uint16_t *groups, size_t count, uint64_t never)
{
    uint64_t sets[32];
    for (size_t g = 0; g < count; g++) {
        uint64_t set = set_at(groups + g * 5), equal = 0;
        for (size_t earlier = 0; earlier < g; earlier++)
            equal |= sets[earlier] == set;
        if (set & never || (set & (set - 1)) == 0 || equal)
            return g * 5;
        if (!has(set, groups[g * 5 + 4]))
            return g * 5 + 4;
        sets[g] = set;
    }
    return GOOD;
}

/* The place of the first wrong word, or GOOD. */
static size_t first_wrong(const uint16_t *img, size_t words)
{
    size_t wrong = wrong_size(img, words);
    if (wrong != GOOD)
        return wrong;
    struct pack p = pack_of(img);
    if (words != p.end)
        return words < p.end ? words : p.end;
    uint64_t never = ~below(p.terminals) | 1, layout = set_at(img + 9);
    if (layout & never)
        return 9;
    if (!doms_right(img + p.dom, p.terminals, never))
        return p.dom + wrong_dom(img + p.dom, never);
    if (!productions_right(img + p.prod, p.productions, &p, layout))
        return p.prod + wrong_production(img + p.prod, &p, layout);
    if (!actions_right(img + p.act, p.states, &p, layout))
        return p.act + wrong_action(img + p.act, &p, layout);
    if (!numbers_right(img + p.go, p.class - p.go, p.states))
        return p.go + wrong_number(img + p.go, p.states);
    if (!ranges_right(img + p.class, p.ranges, p.classes))
        return p.class + wrong_range(img + p.class, p.classes);
    if (!numbers_right(img + p.move, p.scan - p.move, p.scan_states))
        return p.move + wrong_number(img + p.move, p.scan_states);
    if (!scan_sets_right(img + p.scan, p.scan_states, never))
        return p.scan + wrong_scan_set(img + p.scan, never);
    wrong = wrong_group(img + p.group, p.groups, never);
    return wrong == GOOD ? GOOD : p.group + wrong;
}

static size_t tell(uint64_t *out, uint64_t code, uint64_t number)
{
    out[0] = code;
    out[1] = number;
    return 2;
}

size_t fast_c_shape(const uint16_t *img, size_t img_words, uint64_t *out, size_t out_len)
{
    if (out_len < 2)
        return 0;
    size_t wrong = first_wrong(img, img_words);
    return wrong == GOOD ? tell(out, 0, 0) : tell(out, 4, wrong);
}

/* ---- the reader ---- */

/* What is left of a text that ends in LF. No field takes an LF, so that within a line there is always a next byte. */
struct reader {
    const uint8_t *at, *end;
    uint16_t *words;
};

static inline bool number(struct reader *r, uint8_t behind)
{
    const uint8_t *at = r->at;
    unsigned first = (unsigned)at[0] - '0', n = first;
    if (first > 9)
        return false;
    at++;
    if (*at != behind) {
        if (first == 0)
            return false;
        for (unsigned digit; (digit = (unsigned)*at - '0') <= 9; at++) {
            n = n * 10 + digit;
            if (n > 65535)
                return false;
        }
        if (*at != behind)
            return false;
    }
    *r->words++ = (uint16_t)n;
    r->at = at + 1;
    return true;
}

/* So many numbers, with commas between them and an LF behind the last. Four zeros in a row are taken at once. */
static inline bool numbers(struct reader *r, size_t count)
{
    while (count > 1) {
        if (count > 4 && r->end - r->at >= 8 && !memcmp(r->at, "0,0,0,0,", 8)) {
            memset(r->words, 0, 8);
            r->words += 4;
            r->at += 8;
            count -= 4;
        } else if (number(r, ','))
            count--;
        else
            return false;
    }
    return number(r, '\n');
}

/* The number of eight hex digits; beside it, whether they are all right. */
static inline uint64_t eight_digits(const uint8_t *at, bool *right)
{
    uint64_t x = 0;
    for (int i = 0; i < 8; i++)
        x = x << 8 | at[i];
    uint64_t digits = (x + BYTES(0x80 - '0')) & ~(x + BYTES(0x80 - '9' - 1));
    uint64_t letters = (x + BYTES(0x80 - 'a')) & ~(x + BYTES(0x80 - 'f' - 1));
    *right = (x & BYTES(0x80)) == 0 && ((digits | letters) & BYTES(0x80)) == BYTES(0x80);
    x = (x & BYTES(0x0f)) + (x >> 6 & BYTES(1)) * 9;
    x = (x | x >> 4) & UINT64_C(0x00ff00ff00ff00ff);
    x = (x | x >> 8) & UINT64_C(0x0000ffff0000ffff);
    return (x | x >> 16) & 0xffffffff;
}

static inline bool set(struct reader *r, uint8_t behind)
{
    bool high_right, low_right;
    if (r->end - r->at < 17)
        return false;
    uint64_t high = eight_digits(r->at, &high_right), low = eight_digits(r->at + 8, &low_right);
    if (!high_right || !low_right || r->at[16] != behind)
        return false;
    r->words[0] = (uint16_t)low;
    r->words[1] = (uint16_t)(low >> 16);
    r->words[2] = (uint16_t)high;
    r->words[3] = (uint16_t)(high >> 16);
    r->words += 4;
    r->at += 17;
    return true;
}

static inline bool named(struct reader *r, const char *name, size_t length)
{
    if ((size_t)(r->end - r->at) < length || memcmp(r->at, name, length))
        return false;
    r->at += length;
    return true;
}

static inline bool production(struct reader *r)
{
    if (!number(r, ','))
        return false;
    const uint8_t *at = r->at;
    size_t len = (size_t)*at - '0';
    if (len > 9)
        return false;
    if (len == 1 && (size_t)at[1] - '0' <= 4) {
        len = 10 + (size_t)at[1] - '0';
        at++;
    }
    if (at[1] != (len ? ',' : '\n'))
        return false;
    r->words[0] = (uint16_t)len;
    memset(r->words + 1, 0, 14 * sizeof *r->words);
    uint16_t *next = r->words + 15;
    r->words++;
    r->at = at + 2;
    if (len && !numbers(r, len))
        return false;
    r->words = next;
    return true;
}

/* So many lines of a name, or the start of the first that is wrong. */
#define LINES(name, count, fields)                                     \
    for (size_t line = 0; line < (count); line++) {                    \
        const uint8_t *start = r->at;                                  \
        if (!named(r, name, sizeof name - 1) || !(fields))             \
            return start;                                              \
    }

/* The start of the first wrong or missing line, or of what follows the last one; null where all is right. */
static const uint8_t *read_lines(struct reader *r)
{
    const uint16_t *image = r->words;
    LINES("pack=", 1, numbers(r, 1) && image[0] == 1)
    LINES("size=", 1, numbers(r, 8) && wrong_size(image, 9) == GOOD)
    struct pack p = pack_of(image);
    LINES("layout=", 1, set(r, '\n'))
    LINES("dom=", p.terminals, set(r, '\n'))
    LINES("prod=", p.productions, production(r))
    LINES("act=", p.states, numbers(r, p.terminals))
    LINES("goto=", p.states, numbers(r, p.nonterminals))
    LINES("class=", p.ranges, numbers(r, 3))
    LINES("move=", p.scan_states, numbers(r, p.classes))
    LINES("scan=", p.scan_states, set(r, ',') && set(r, ',') && set(r, '\n'))
    LINES("group=", p.groups, set(r, ',') && number(r, '\n'))
    return r->at == r->end ? NULL : r->at;
}

size_t fast_c_read(const uint8_t *text, size_t text_bytes, uint16_t *buffer, size_t buffer_words, uint64_t *out, size_t out_len)
{
    if (out_len < 2)
        return 0;
    /* A text that does not end in LF is refused in any case, and not worth a way of its own. */
    if (text_bytes > 65535 || text_bytes == 0 || text[text_bytes - 1] != '\n')
        return plain_c_read(text, text_bytes, buffer, buffer_words, out, out_len);
    uint16_t image[MOST_WORDS];
    struct reader r = {text, text + text_bytes, image};
    const uint8_t *line = read_lines(&r);
    if (line)
        return tell(out, 1, (uint64_t)(line - text));
    size_t words = (size_t)(r.words - image), wrong = first_wrong(image, words);
    if (wrong != GOOD)
        return tell(out, 4, wrong);
    if (buffer_words < words)
        return tell(out, 3, words);
    memcpy(buffer, image, words * sizeof *buffer);
    return tell(out, 0, words);
}

/* ---- the writer ---- */

/* Every number of a pack of good shape is below 260: its digits, a comma, and how many bytes these are. */
struct printed {
    char text[7];
    uint8_t bytes;
};
#define ONE(digits) {digits ",", sizeof digits}
#define TEN(tens)                                                                                                                     \
    ONE(tens "0"), ONE(tens "1"), ONE(tens "2"), ONE(tens "3"), ONE(tens "4"), ONE(tens "5"), ONE(tens "6"), ONE(tens "7"),           \
        ONE(tens "8"), ONE(tens "9")
#define HUNDRED(h)                                                                                                                    \
    TEN(h "0"), TEN(h "1"), TEN(h "2"), TEN(h "3"), TEN(h "4"), TEN(h "5"), TEN(h "6"), TEN(h "7"), TEN(h "8"), TEN(h "9")
static const struct printed printed[260] = {
    TEN(""),  TEN("1"),     TEN("2"),  TEN("3"),  TEN("4"),  TEN("5"),  TEN("6"),  TEN("7"), TEN("8"),
    TEN("9"), HUNDRED("1"), TEN("20"), TEN("21"), TEN("22"), TEN("23"), TEN("24"), TEN("25"),
};

/* The digits of so many numbers below 1000. */
static size_t digits_of(const uint16_t *words, size_t count)
{
    uint16_t more = 0;
    for (size_t i = 0; i < count; i++) {
        int16_t number = (int16_t)words[i];
        more = (uint16_t)(more + (number > 9) + (number > 99));
    }
    return count + more;
}

/* The bytes of a pack's text: names, sets, digits, and a comma or an LF behind each field. */
static size_t bytes_of(const uint16_t *img, const struct pack *p)
{
    size_t bytes = sizeof "pack=" + sizeof "size=" + sizeof "layout=" - 3 + 17;
    bytes += digits_of(img, 9) + 9 + p->terminals * (sizeof "dom=" - 1 + 17);
    size_t symbols = 0;
    for (size_t i = 0; i < p->productions; i++)
        symbols += img[p->prod + i * 16 + 1];
    /* What stands behind len is 0, which would be a digit. */
    size_t unused = p->productions * 14 - symbols;
    bytes += p->productions * (sizeof "prod=" - 1) + digits_of(img + p->prod, p->productions * 16) - unused;
    bytes += p->productions * 2 + symbols;
    bytes += p->states * (sizeof "act=" + sizeof "goto=" - 2) + p->ranges * (sizeof "class=" - 1) + p->scan_states * (sizeof "move=" - 1);
    bytes += digits_of(img + p->act, p->scan - p->act) + p->scan - p->act;
    bytes += p->scan_states * (sizeof "scan=" - 1 + 3 * 17);
    for (size_t g = 0; g < p->groups; g++)
        bytes += sizeof "group=" - 1 + 17 + digits_of(img + p->group + g * 5 + 4, 1) + 1;
    return bytes;
}

static inline uint8_t *put_name(uint8_t *at, const char *name, size_t length)
{
    memcpy(at, name, length);
    return at + length;
}

/* So many numbers and an LF. Up to three bytes behind it are written too: more of the text follows there. */
static inline uint8_t *put_numbers(uint8_t *at, const uint16_t *words, size_t count)
{
    for (size_t i = 0; i < count; i++) {
        const struct printed *number = &printed[words[i]];
        memcpy(at, number->text, 4);
        at += number->bytes;
    }
    at[-1] = '\n';
    return at;
}

/* The lowest 32 bits as eight hex digits. */
static inline uint8_t *put_digits(uint8_t *at, uint64_t x)
{
    x = (x | x << 16) & UINT64_C(0x0000ffff0000ffff);
    x = (x | x << 8) & UINT64_C(0x00ff00ff00ff00ff);
    x = (x | x << 4) & BYTES(0x0f);
    x += BYTES('0') + ((x + BYTES(6)) >> 4 & BYTES(1)) * ('a' - '0' - 10);
    for (int i = 0; i < 8; i++)
        at[i] = (uint8_t)(x >> (56 - 8 * i));
    return at + 8;
}

static inline uint8_t *put_set(uint8_t *at, const uint16_t *words, uint8_t behind)
{
    at = put_digits(at, (uint64_t)words[3] << 16 | words[2]);
    at = put_digits(at, (uint64_t)words[1] << 16 | words[0]);
    *at = behind;
    return at + 1;
}

#define PUT_NAME(name) put_name(at, name, sizeof name - 1)

static void put_lines(uint8_t *at, const uint16_t *img, const struct pack *p)
{
    at = put_numbers(PUT_NAME("pack="), img, 1);
    at = put_numbers(PUT_NAME("size="), img + 1, 8);
    at = put_set(PUT_NAME("layout="), img + 9, '\n');
    for (size_t t = 0; t < p->terminals; t++)
        at = put_set(PUT_NAME("dom="), img + p->dom + t * 4, '\n');
    for (size_t i = 0; i < p->productions; i++)
        at = put_numbers(PUT_NAME("prod="), img + p->prod + i * 16, 2 + (size_t)img[p->prod + i * 16 + 1]);
    for (size_t s = 0; s < p->states; s++)
        at = put_numbers(PUT_NAME("act="), img + p->act + s * p->terminals, p->terminals);
    for (size_t s = 0; s < p->states; s++)
        at = put_numbers(PUT_NAME("goto="), img + p->go + s * p->nonterminals, p->nonterminals);
    for (size_t r = 0; r < p->ranges; r++)
        at = put_numbers(PUT_NAME("class="), img + p->class + r * 3, 3);
    for (size_t q = 0; q < p->scan_states; q++)
        at = put_numbers(PUT_NAME("move="), img + p->move + q * p->classes, p->classes);
    for (size_t q = 0; q < p->scan_states; q++) {
        at = put_set(PUT_NAME("scan="), img + p->scan + q * 12, ',');
        at = put_set(at, img + p->scan + q * 12 + 4, ',');
        at = put_set(at, img + p->scan + q * 12 + 8, '\n');
    }
    for (size_t g = 0; g < p->groups; g++) {
        /* Nothing may be written behind the last line. */
        const struct printed *chosen = &printed[img[p->group + g * 5 + 4]];
        at = put_set(PUT_NAME("group="), img + p->group + g * 5, ',');
        at = put_name(at, chosen->text, chosen->bytes);
        at[-1] = '\n';
    }
}

size_t fast_c_write(const uint16_t *img, size_t img_words, uint8_t *buffer, size_t buffer_bytes, uint64_t *out, size_t out_len)
{
    if (out_len < 2)
        return 0;
    size_t wrong = first_wrong(img, img_words);
    if (wrong != GOOD)
        return tell(out, 4, wrong);
    struct pack p = pack_of(img);
    size_t bytes = bytes_of(img, &p);
    if (bytes > 65535)
        return tell(out, 2, 0);
    if (bytes > buffer_bytes)
        return tell(out, 3, bytes);
    put_lines(buffer, img, &p);
    return tell(out, 0, bytes);
}
