/* Shape, the scan called by itself, the reader, the writers and the moves between the forms, the check, the parse and the printout in plain C, written from documents 01
 * and 02 the obvious way: each test leaves at the first wrong word, line or place. */
#include "plain.h"

#include <stdbool.h>
#include <string.h>

#define GOOD SIZE_MAX

/* The 1 of `pack=1`, and the limits of the sizes. */
static const uint16_t least[9] = {1, 1, 1, 1, 1, 1, 1, 0, 0};
static const uint16_t greatest[9] = {1, 64, 32, 128, 128, 128, 32, 64, 32};

struct pack {
    size_t terminals, nonterminals, productions, states, scan_states, classes, ranges, groups;
    /* The first word of each table, and the number of words of the whole image. */
    size_t dom, prod, act, go, class, move, scan, group, end;
};

static struct pack pack_of(const uint16_t *img)
{
    struct pack p = {
        .terminals = img[1],
        .nonterminals = img[2],
        .productions = img[3],
        .states = img[4],
        .scan_states = img[5],
        .classes = img[6],
        .ranges = img[7],
        .groups = img[8],
    };
    p.dom = 13;
    p.prod = p.dom + p.terminals * 4;
    p.act = p.prod + p.productions * 16;
    p.go = p.act + p.states * p.terminals;
    p.class = p.go + p.states * p.nonterminals;
    p.move = p.class + p.ranges * 3;
    p.scan = p.move + p.scan_states * p.classes;
    p.group = p.scan + p.scan_states * 12;
    p.end = p.group + p.groups * 5;
    return p;
}

static uint64_t set_at(const uint16_t *img, size_t i)
{
    return (uint64_t)img[i] | (uint64_t)img[i + 1] << 16 | (uint64_t)img[i + 2] << 32 | (uint64_t)img[i + 3] << 48;
}

static bool has(uint64_t set, size_t t)
{
    return t < 64 && (set >> t & 1) != 0;
}

static uint64_t below(size_t t)
{
    return t < 64 ? (UINT64_C(1) << t) - 1 : UINT64_MAX;
}

static bool symbol_right(const struct pack *p, uint64_t layout, uint16_t symbol)
{
    if (symbol < 64)
        return symbol != 0 && symbol < p->terminals && !has(layout, symbol);
    return symbol < 64 + p->nonterminals;
}

static bool action_right(const struct pack *p, uint64_t layout, size_t t, uint16_t code)
{
    if (code == 0)
        return true;
    if (has(layout, t))
        return false;
    if (code == 1)
        return t == 0;
    if (code % 2 == 0)
        return t != 0 && (size_t)(code - 2) / 2 < p->states;
    return (size_t)(code - 3) / 2 < p->productions;
}

/* The place of the first wrong word, or GOOD. */
static size_t first_wrong(const uint16_t *img, size_t words)
{
    for (size_t i = 0; i < 9; i++)
        if (words <= i || img[i] < least[i] || img[i] > greatest[i])
            return i;
    struct pack p = pack_of(img);
    if (words < p.end)
        return words;
    if (words > p.end)
        return p.end;

    uint64_t never = ~below(p.terminals) | 1;
    uint64_t layout = set_at(img, 9);
    if (layout & never)
        return 9;
    for (size_t t = 0; t < p.terminals; t++) {
        size_t at = p.dom + t * 4;
        uint64_t set = set_at(img, at);
        if (t == 0 ? set != 0 : (set & never) != 0 || has(set, t))
            return at;
    }
    for (size_t i = 0; i < p.productions; i++) {
        size_t at = p.prod + i * 16;
        if (img[at] >= p.nonterminals)
            return at;
        size_t len = img[at + 1];
        if (len > 14)
            return at + 1;
        for (size_t k = 0; k < 14; k++) {
            uint16_t symbol = img[at + 2 + k];
            if (k < len ? !symbol_right(&p, layout, symbol) : symbol != 0)
                return at + 2 + k;
        }
    }
    for (size_t s = 0; s < p.states; s++)
        for (size_t t = 0; t < p.terminals; t++) {
            size_t at = p.act + s * p.terminals + t;
            if (!action_right(&p, layout, t, img[at]))
                return at;
        }
    for (size_t at = p.go; at < p.class; at++)
        if (img[at] > p.states)
            return at;
    for (size_t r = 0; r < p.ranges; r++) {
        size_t at = p.class + r * 3;
        if (r != 0 && img[at] <= img[at - 2])
            return at;
        if (img[at + 1] < img[at] || img[at + 1] > 255)
            return at + 1;
        if (img[at + 2] >= p.classes)
            return at + 2;
    }
    for (size_t at = p.move; at < p.scan; at++)
        if (img[at] > p.scan_states)
            return at;
    for (size_t q = 0; q < p.scan_states; q++) {
        size_t at = p.scan + q * 12;
        uint64_t acc = set_at(img, at), rej = set_at(img, at + 4), poss = set_at(img, at + 8);
        if (acc & never || (q == 0 && acc != 0))
            return at;
        if (rej & never || (q == 0 && rej != 0) || acc & rej)
            return at + 4;
        if (poss & never)
            return at + 8;
    }
    for (size_t g = 0; g < p.groups; g++) {
        size_t at = p.group + g * 5;
        uint64_t set = set_at(img, at);
        if (set & never || (set & (set - 1)) == 0)
            return at;
        for (size_t earlier = 0; earlier < g; earlier++)
            if (set_at(img, p.group + earlier * 5) == set)
                return at;
        if (!has(set, img[at + 4]))
            return at + 4;
    }
    return GOOD;
}

size_t plain_c_shape(const uint16_t *img, size_t img_words, uint64_t *out, size_t out_len)
{
    if (out_len < 2)
        return 0;
    size_t wrong = first_wrong(img, img_words);
    out[0] = wrong == GOOD ? 0 : 4;
    out[1] = wrong == GOOD ? 0 : wrong;
    return 2;
}

/* Ranges rise: the one that holds the byte is found by halves. A byte in none has class 0. */
static size_t class_of(const uint16_t *img, const struct pack *p, uint8_t byte)
{
    size_t from = 0, to = p->ranges;
    while (from < to) {
        size_t middle = (from + to) / 2;
        const uint16_t *range = img + p->class + middle * 3;
        if (byte < range[0])
            to = middle;
        else if (byte > range[1])
            from = middle + 1;
        else
            return range[2];
    }
    return 0;
}

/* A pack, and the moves taken so far over all scans of one call. */
struct scanner {
    const uint16_t *img;
    struct pack p;
    uint32_t moves, allowance;
};

/* What one scan gives; an empty set for no match. */
struct found {
    uint64_t set;
    size_t length;
    bool used_up;
};

static struct found one_scan(struct scanner *s, const uint8_t *text, size_t bytes, uint64_t valid)
{
    const uint16_t *img = s->img;
    const struct pack *p = &s->p;
    struct found found = {0, 0, false};
    size_t state = 0;
    uint32_t left = s->allowance - s->moves;
    size_t i = 0;
    for (; i < bytes; i++) {
        if ((set_at(img, p->scan + state * 12 + 8) & valid) == 0)
            break;
        size_t to = img[p->move + state * p->classes + class_of(img, p, text[i])];
        if (to == 0)
            break;
        if (i == left) {
            s->moves = s->allowance;
            return (struct found){0, 0, true};
        }
        state = to - 1;
        uint64_t acc = set_at(img, p->scan + state * 12) & valid;
        if (acc != 0) {
            found.set = acc;
            found.length = i + 1;
        } else if ((set_at(img, p->scan + state * 12 + 4) & valid) != 0) {
            found.set = 0;
            found.length = 0;
        }
    }
    s->moves += (uint32_t)i;
    return found;
}

static size_t tell(uint64_t *out, uint64_t code, uint64_t place, uint64_t set, uint64_t length, uint64_t moves)
{
    out[0] = code;
    out[1] = place;
    out[2] = set;
    out[3] = length;
    out[4] = moves;
    return 5;
}

size_t plain_c_scan(const uint16_t *img, size_t img_words, const uint8_t *text, size_t text_bytes, size_t start, uint64_t set,
                    uint32_t allowance, uint64_t *out, size_t out_len)
{
    if (out_len < 5)
        return 0;
    if (text_bytes > 65535)
        return tell(out, 6, 0, 0, 0, 0);
    size_t wrong = first_wrong(img, img_words);
    if (wrong != GOOD)
        return tell(out, 4, wrong, 0, 0, 0);
    struct scanner s = {.img = img, .p = pack_of(img), .allowance = allowance};
    if (start > text_bytes)
        start = text_bytes;
    struct found found = one_scan(&s, text + start, text_bytes - start, set & below(s.p.terminals) & ~UINT64_C(1));
    return tell(out, found.used_up ? 13 : 0, start, found.set, found.length, s.moves);
}

/* ---- the text form ---- */

#define MOST_WORDS 20589

struct reader {
    const uint8_t *text;
    size_t bytes, at, line;
    uint16_t image[MOST_WORDS];
    size_t words;
    uint32_t form;
};

static bool taken(struct reader *r, char byte)
{
    if (r->at == r->bytes || r->text[r->at] != (uint8_t)byte)
        return false;
    r->at++;
    return true;
}

/* The line's name and its `=`. */
static bool named(struct reader *r, const char *name)
{
    r->line = r->at;
    for (; *name; name++)
        if (!taken(r, *name))
            return false;
    return true;
}

static bool decimal(struct reader *r, uint32_t *n)
{
    *n = 0;
    if (taken(r, '0'))
        return true;
    size_t first = r->at;
    for (; r->at < r->bytes && r->text[r->at] >= '0' && r->text[r->at] <= '9'; r->at++) {
        *n = *n * 10 + (r->text[r->at] - '0');
        if (*n > 65535)
            return false;
    }
    return r->at != first;
}

static bool number(struct reader *r)
{
    uint32_t n;
    bool good = decimal(r, &n);
    r->image[r->words++] = (uint16_t)n;
    return good;
}

static bool set(struct reader *r)
{
    if (r->bytes - r->at < 16)
        return false;
    uint64_t set = 0;
    for (int i = 0; i < 16; i++) {
        uint8_t byte = r->text[r->at++];
        if (byte >= '0' && byte <= '9')
            set = set << 4 | (uint64_t)(byte - '0');
        else if (byte >= 'a' && byte <= 'f')
            set = set << 4 | (uint64_t)(byte - 'a' + 10);
        else
            return false;
    }
    for (int shift = 0; shift < 64; shift += 16)
        r->image[r->words++] = (uint16_t)(set >> shift);
    return true;
}

static bool numbers_line(struct reader *r, const char *name, size_t count)
{
    if (!named(r, name))
        return false;
    for (size_t i = 0; i < count; i++)
        if ((i && !taken(r, ',')) || !number(r))
            return false;
    return taken(r, '\n');
}

/* A row of cells: all of them in form 1, and in form 2 those that are not 0, each behind its column and a colon. */
static bool cells_line(struct reader *r, const char *name, size_t count)
{
    if (r->form == 1)
        return numbers_line(r, name, count);
    if (!named(r, name))
        return false;
    uint16_t *row = r->image + r->words;
    memset(row, 0, count * sizeof *row);
    r->words += count;
    for (uint32_t least = 0; !taken(r, '\n');) {
        uint32_t column, code;
        if (least && !taken(r, ','))
            return false;
        if (!decimal(r, &column) || !taken(r, ':') || !decimal(r, &code))
            return false;
        if (column < least || column >= count || code == 0)
            return false;
        row[column] = (uint16_t)code;
        least = column + 1;
    }
    return true;
}

static bool sets_line(struct reader *r, const char *name, size_t count)
{
    if (!named(r, name))
        return false;
    for (size_t i = 0; i < count; i++)
        if ((i && !taken(r, ',')) || !set(r))
            return false;
    return taken(r, '\n');
}

static bool production_line(struct reader *r)
{
    if (!named(r, "prod=") || !number(r) || !taken(r, ',') || !number(r))
        return false;
    size_t len = r->image[r->words - 1];
    if (len > 14)
        return false;
    for (size_t i = 0; i < len; i++)
        if (!taken(r, ',') || !number(r))
            return false;
    for (size_t i = len; i < 14; i++)
        r->image[r->words++] = 0;
    return taken(r, '\n');
}

static bool group_line(struct reader *r)
{
    return named(r, "group=") && set(r) && taken(r, ',') && number(r) && taken(r, '\n');
}

static bool sizes_right(const uint16_t *img)
{
    for (size_t i = 0; i < 9; i++)
        if (img[i] < least[i] || img[i] > greatest[i])
            return false;
    return true;
}

/* The lines of a text of a form, or of either where it is 0. */
static bool lines(struct reader *r, uint32_t form)
{
    if (!numbers_line(r, "pack=", 1))
        return false;
    r->form = r->image[0];
    r->image[0] = 1;
    if (form ? r->form != form : r->form != 1 && r->form != 2)
        return false;
    if (!numbers_line(r, "size=", 8) || !sizes_right(r->image))
        return false;
    struct pack p = pack_of(r->image);
    if (!sets_line(r, "layout=", 1))
        return false;
    for (size_t t = 0; t < p.terminals; t++)
        if (!sets_line(r, "dom=", 1))
            return false;
    for (size_t i = 0; i < p.productions; i++)
        if (!production_line(r))
            return false;
    for (size_t s = 0; s < p.states; s++)
        if (!cells_line(r, "act=", p.terminals))
            return false;
    for (size_t s = 0; s < p.states; s++)
        if (!cells_line(r, "goto=", p.nonterminals))
            return false;
    for (size_t i = 0; i < p.ranges; i++)
        if (!numbers_line(r, "class=", 3))
            return false;
    for (size_t q = 0; q < p.scan_states; q++)
        if (!cells_line(r, "move=", p.classes))
            return false;
    for (size_t q = 0; q < p.scan_states; q++)
        if (!sets_line(r, "scan=", 3))
            return false;
    for (size_t g = 0; g < p.groups; g++)
        if (!group_line(r))
            return false;
    r->line = r->at;
    return r->at == r->bytes;
}

static size_t tell2(uint64_t *out, uint64_t code, uint64_t number)
{
    out[0] = code;
    out[1] = number;
    return 2;
}

size_t plain_c_read(const uint8_t *text, size_t text_bytes, uint16_t *buffer, size_t buffer_words, uint64_t *out, size_t out_len)
{
    if (out_len < 2)
        return 0;
    if (text_bytes > 65535)
        return tell2(out, 2, 0);
    struct reader r;
    r.text = text;
    r.bytes = text_bytes;
    r.at = r.line = r.words = 0;
    if (!lines(&r, 0))
        return tell2(out, 1, r.line);
    size_t wrong = first_wrong(r.image, r.words);
    if (wrong != GOOD)
        return tell2(out, 4, wrong);
    if (buffer_words < r.words)
        return tell2(out, 3, r.words);
    memcpy(buffer, r.image, r.words * sizeof *buffer);
    return tell2(out, 0, r.words);
}

struct writer {
    const uint16_t *img;
    /* Where the text goes; nowhere while its bytes are counted. */
    uint8_t *text;
    size_t bytes;
    unsigned form;
};

static void put(struct writer *w, char byte)
{
    if (w->text)
        w->text[w->bytes] = (uint8_t)byte;
    w->bytes++;
}

static void put_name(struct writer *w, const char *name)
{
    for (; *name; name++)
        put(w, *name);
}

static void put_number(struct writer *w, unsigned n)
{
    if (n >= 10000)
        put(w, (char)('0' + n / 10000));
    if (n >= 1000)
        put(w, (char)('0' + n / 1000 % 10));
    if (n >= 100)
        put(w, (char)('0' + n / 100 % 10));
    if (n >= 10)
        put(w, (char)('0' + n / 10 % 10));
    put(w, (char)('0' + n % 10));
}

static void put_set(struct writer *w, uint64_t set)
{
    for (int shift = 60; shift >= 0; shift -= 4)
        put(w, "0123456789abcdef"[set >> shift & 15]);
}

static void put_numbers(struct writer *w, const char *name, size_t at, size_t count)
{
    put_name(w, name);
    for (size_t i = 0; i < count; i++) {
        if (i)
            put(w, ',');
        put_number(w, w->img[at + i]);
    }
    put(w, '\n');
}

static void put_cells(struct writer *w, const char *name, size_t at, size_t count)
{
    if (w->form == 1) {
        put_numbers(w, name, at, count);
        return;
    }
    bool first = true;
    put_name(w, name);
    for (size_t i = 0; i < count; i++)
        if (w->img[at + i]) {
            if (!first)
                put(w, ',');
            first = false;
            put_number(w, (unsigned)i);
            put(w, ':');
            put_number(w, w->img[at + i]);
        }
    put(w, '\n');
}

static void put_sets(struct writer *w, const char *name, size_t at, size_t count)
{
    put_name(w, name);
    for (size_t i = 0; i < count; i++) {
        if (i)
            put(w, ',');
        put_set(w, set_at(w->img, at + i * 4));
    }
    put(w, '\n');
}

static void put_lines(struct writer *w)
{
    struct pack p = pack_of(w->img);
    put_name(w, "pack=");
    put_number(w, w->form);
    put(w, '\n');
    put_numbers(w, "size=", 1, 8);
    put_sets(w, "layout=", 9, 1);
    for (size_t t = 0; t < p.terminals; t++)
        put_sets(w, "dom=", p.dom + t * 4, 1);
    for (size_t i = 0; i < p.productions; i++)
        put_numbers(w, "prod=", p.prod + i * 16, 2 + (size_t)w->img[p.prod + i * 16 + 1]);
    for (size_t s = 0; s < p.states; s++)
        put_cells(w, "act=", p.act + s * p.terminals, p.terminals);
    for (size_t s = 0; s < p.states; s++)
        put_cells(w, "goto=", p.go + s * p.nonterminals, p.nonterminals);
    for (size_t r = 0; r < p.ranges; r++)
        put_numbers(w, "class=", p.class + r * 3, 3);
    for (size_t q = 0; q < p.scan_states; q++)
        put_cells(w, "move=", p.move + q * p.classes, p.classes);
    for (size_t q = 0; q < p.scan_states; q++)
        put_sets(w, "scan=", p.scan + q * 12, 3);
    for (size_t g = 0; g < p.groups; g++) {
        put_name(w, "group=");
        put_set(w, set_at(w->img, p.group + g * 5));
        put(w, ',');
        put_number(w, w->img[p.group + g * 5 + 4]);
        put(w, '\n');
    }
}

/* Writes a good image. */
static size_t write_form(const uint16_t *img, unsigned form, uint8_t *buffer, size_t buffer_bytes, uint64_t *out)
{
    struct writer w = {img, NULL, 0, form};
    put_lines(&w);
    if (w.bytes > 65535)
        return tell2(out, 2, 0);
    if (w.bytes > buffer_bytes)
        return tell2(out, 3, w.bytes);
    w.text = buffer;
    w.bytes = 0;
    put_lines(&w);
    return tell2(out, 0, w.bytes);
}

size_t plain_c_write(const uint16_t *img, size_t img_words, uint8_t *buffer, size_t buffer_bytes, uint64_t *out, size_t out_len)
{
    if (out_len < 2)
        return 0;
    size_t wrong = first_wrong(img, img_words);
    if (wrong != GOOD)
        return tell2(out, 4, wrong);
    return write_form(img, 1, buffer, buffer_bytes, out);
}

size_t plain_c_write2(const uint16_t *img, size_t img_words, uint8_t *buffer, size_t buffer_bytes, uint64_t *out, size_t out_len)
{
    if (out_len < 2)
        return 0;
    size_t wrong = first_wrong(img, img_words);
    if (wrong != GOOD)
        return tell2(out, 4, wrong);
    return write_form(img, 2, buffer, buffer_bytes, out);
}

static size_t move(const uint8_t *text, size_t text_bytes, unsigned from, unsigned to, uint8_t *buffer, size_t buffer_bytes, uint64_t *out)
{
    if (text_bytes > 65535)
        return tell2(out, 2, 0);
    struct reader r;
    r.text = text;
    r.bytes = text_bytes;
    r.at = r.line = r.words = 0;
    if (!lines(&r, from))
        return tell2(out, 1, r.line);
    size_t wrong = first_wrong(r.image, r.words);
    if (wrong != GOOD)
        return tell2(out, 4, wrong);
    return write_form(r.image, to, buffer, buffer_bytes, out);
}

size_t plain_c_form2(const uint8_t *text, size_t text_bytes, uint8_t *buffer, size_t buffer_bytes, uint64_t *out, size_t out_len)
{
    return out_len < 2 ? 0 : move(text, text_bytes, 1, 2, buffer, buffer_bytes, out);
}

size_t plain_c_form1(const uint8_t *text, size_t text_bytes, uint8_t *buffer, size_t buffer_bytes, uint64_t *out, size_t out_len)
{
    return out_len < 2 ? 0 : move(text, text_bytes, 2, 1, buffer, buffer_bytes, out);
}

/* ---- the check ---- */

static uint64_t valid_set(const uint16_t *img, const struct pack *p, size_t s)
{
    uint64_t valid = 0;
    for (size_t t = 0; t < p->terminals; t++)
        if (img[p->act + s * p->terminals + t] != 0)
            valid |= UINT64_C(1) << t;
    return valid;
}

/* The number of the group that equals the set, or GOOD where there is none. */
static size_t group_of(const uint16_t *img, const struct pack *p, uint64_t set)
{
    for (size_t g = 0; g < p->groups; g++)
        if (set_at(img, p->group + g * 5) == set)
            return g;
    return GOOD;
}

static bool k1(const uint16_t *img, const struct pack *p, size_t q)
{
    uint64_t rej = set_at(img, p->scan + q * 12 + 4), matching = set_at(img, p->scan + q * 12) | rej, outranked = 0;
    for (size_t t = 0; t < p->terminals; t++)
        if (has(matching, t) && (set_at(img, p->dom + t * 4) & matching) != 0)
            outranked |= UINT64_C(1) << t;
    return rej == outranked;
}

static bool k2(const uint16_t *img, const struct pack *p, size_t q)
{
    uint64_t poss = set_at(img, p->scan + q * 12 + 8);
    if ((set_at(img, p->scan + q * 12) | set_at(img, p->scan + q * 12 + 4)) & ~poss)
        return false;
    for (size_t c = 0; c < p->classes; c++) {
        size_t to = img[p->move + q * p->classes + c];
        if (to != 0 && set_at(img, p->scan + (to - 1) * 12 + 8) & ~poss)
            return false;
    }
    return true;
}

/* The states with an edge into each state, and the symbol of its edges in. */
struct edges {
    uint8_t from[128][128];
    size_t count[128];
    uint16_t symbol[128];
    bool several[128];
};

static void add_edge(struct edges *e, size_t from, size_t symbol, size_t to)
{
    size_t *count = &e->count[to];
    if (*count == 0)
        e->symbol[to] = (uint16_t)symbol;
    else if (e->symbol[to] != symbol)
        e->several[to] = true;
    if (*count == 0 || e->from[to][*count - 1] != from)
        e->from[to][(*count)++] = (uint8_t)from;
}

static void find_edges(const uint16_t *img, const struct pack *p, struct edges *e)
{
    memset(e->count, 0, sizeof e->count);
    memset(e->several, 0, sizeof e->several);
    for (size_t s = 0; s < p->states; s++) {
        for (size_t t = 0; t < p->terminals; t++) {
            uint16_t code = img[p->act + s * p->terminals + t];
            if (code >= 2 && code % 2 == 0)
                add_edge(e, s, t, (code - 2) / 2);
        }
        for (size_t n = 0; n < p->nonterminals; n++) {
            uint16_t code = img[p->go + s * p->nonterminals + n];
            if (code != 0)
                add_edge(e, s, 64 + n, (size_t)code - 1);
        }
    }
}

/* K5 of one reduction, after K4. */
static bool goes_back(const uint16_t *img, const struct pack *p, const struct edges *e, size_t s, size_t production)
{
    const uint16_t *words = img + p->prod + production * 16;
    bool reached[128] = {false};
    reached[s] = true;
    for (size_t i = words[1]; i > 0; i--) {
        bool before[128] = {false};
        for (size_t v = 0; v < p->states; v++) {
            if (!reached[v])
                continue;
            if (v == 0 || (e->count[v] != 0 && e->symbol[v] != words[1 + i]))
                return false;
            for (size_t k = 0; k < e->count[v]; k++)
                before[e->from[v][k]] = true;
        }
        memcpy(reached, before, sizeof reached);
    }
    for (size_t v = 0; v < p->states; v++)
        if (reached[v] && img[p->go + v * p->nonterminals + words[0]] == 0)
            return false;
    return true;
}

/* The first production of a row whose reduction fails, or GOOD. */
static size_t k5(const uint16_t *img, const struct pack *p, const struct edges *e, size_t s)
{
    bool reduces[128] = {false};
    for (size_t t = 0; t < p->terminals; t++) {
        uint16_t code = img[p->act + s * p->terminals + t];
        if (code >= 3 && code % 2 == 1)
            reduces[(code - 3) / 2] = true;
    }
    for (size_t i = 0; i < p->productions; i++)
        if (reduces[i] && !goes_back(img, p, e, s, i))
            return i;
    return GOOD;
}

static bool k6(const uint16_t *img, const struct pack *p, const struct edges *e, size_t s)
{
    if (img[p->act + s * p->terminals] != 1)
        return true;
    if (s == 0)
        return false;
    return e->count[s] == 0 || (e->count[s] == 1 && e->from[s][0] == 0 && e->symbol[s] == 64);
}

static size_t tell4(uint64_t *out, uint64_t code, uint64_t number, uint64_t first, uint64_t second)
{
    out[0] = code;
    out[1] = number;
    out[2] = first;
    out[3] = second;
    return 4;
}

size_t plain_c_check(const uint16_t *img, size_t img_words, uint64_t *out, size_t out_len)
{
    if (out_len < 4)
        return 0;
    size_t wrong = first_wrong(img, img_words);
    if (wrong != GOOD)
        return tell4(out, 4, wrong, 0, 0);
    struct pack p = pack_of(img);
    for (size_t q = 0; q < p.scan_states; q++)
        if (!k1(img, &p, q))
            return tell4(out, 5, 1, q, 0);
    for (size_t q = 0; q < p.scan_states; q++)
        if (!k2(img, &p, q))
            return tell4(out, 5, 2, q, 0);
    for (size_t s = 0; s < p.states; s++) {
        uint64_t sought = valid_set(img, &p, s) | set_at(img, 9);
        for (size_t q = 0; q < p.scan_states; q++) {
            uint64_t seen = set_at(img, p.scan + q * 12) & sought;
            if ((seen & (seen - 1)) != 0 && group_of(img, &p, seen) == GOOD)
                return tell4(out, 5, 3, s, q);
        }
    }
    struct edges e;
    find_edges(img, &p, &e);
    for (size_t v = 0; v < p.states; v++)
        if (e.several[v] || (v == 0 && e.count[v] != 0))
            return tell4(out, 5, 4, v, 0);
    for (size_t s = 0; s < p.states; s++) {
        size_t production = k5(img, &p, &e, s);
        if (production != GOOD)
            return tell4(out, 5, 5, s, production);
    }
    for (size_t s = 0; s < p.states; s++)
        if (!k6(img, &p, &e, s))
            return tell4(out, 5, 6, s, 0);
    return tell4(out, 0, 0, 0, 0);
}

/* ---- the parse ---- */

/* Beside the codes: the run goes on. */
enum { GOES_ON = 99 };

struct run {
    struct scanner scanner;
    const uint8_t *text;
    size_t bytes, place;
    uint16_t *tree;
    size_t room, records;
    uint16_t stack[512];
    size_t height;
    /* What some refusals give beside the place. */
    size_t length, terminal;
};

static struct found scan_here(struct run *r, uint64_t valid)
{
    return one_scan(&r->scanner, r->text + r->place, r->bytes - r->place, valid);
}

static size_t lowest(uint64_t set)
{
    size_t t = 0;
    while (!has(set, t))
        t++;
    return t;
}

/* Writes a record and pushes a state on the lowest `height` ones. */
static int write_and_push(struct run *r, size_t height, const uint16_t record[4], size_t state)
{
    if (r->records == r->room)
        return 11;
    if (height == 512)
        return 12;
    memcpy(r->tree + r->records * 4, record, 4 * sizeof *record);
    r->records++;
    r->stack[height] = (uint16_t)state;
    r->height = height + 1;
    return GOES_ON;
}

static int reduce(struct run *r, size_t production)
{
    const uint16_t *img = r->scanner.img;
    const struct pack *p = &r->scanner.p;
    const uint16_t *words = img + p->prod + production * 16;
    size_t lhs = words[0], len = words[1];
    if (r->height < len + 1)
        return 10;
    size_t height = r->height - len, uncovered = r->stack[height - 1];
    size_t code = img[p->go + uncovered * p->nonterminals + lhs];
    if (code == 0)
        return 10;
    const uint16_t node[4] = {(uint16_t)(64 + lhs), (uint16_t)production, (uint16_t)len, (uint16_t)uncovered};
    return write_and_push(r, height, node, code - 1);
}

/* The terminal and the length of what a scan for a set matches, a token or layout; GOES_ON, or a code. */
static int matched(struct run *r, uint64_t sought, size_t *terminal, size_t *length)
{
    const uint16_t *img = r->scanner.img;
    const struct pack *p = &r->scanner.p;
    struct found found = scan_here(r, sought);
    if (found.used_up)
        return 13;
    if (found.set == 0) {
        found = scan_here(r, below(p->terminals) & ~UINT64_C(1) & ~set_at(img, 9));
        if (found.used_up)
            return 13;
        if (found.set == 0)
            return 7;
        r->length = found.length;
        r->terminal = lowest(found.set);
        return 8;
    }
    *length = found.length;
    if ((found.set & (found.set - 1)) == 0) {
        *terminal = lowest(found.set);
        return GOES_ON;
    }
    size_t group = group_of(img, p, found.set);
    if (group == GOOD) {
        r->length = found.length;
        return 9;
    }
    *terminal = img[p->group + group * 5 + 4];
    return GOES_ON;
}

/* The terminal and the length of what the state on top sees past layout, 0 and 0 at the end of the text; GOES_ON, or a code. */
static int token(struct run *r, size_t top, uint64_t layout, size_t *terminal, size_t *length)
{
    uint64_t sought = (valid_set(r->scanner.img, &r->scanner.p, top) | layout) & ~UINT64_C(1);
    while (r->place != r->bytes) {
        int code = matched(r, sought, terminal, length);
        if (code != GOES_ON || !has(layout, *terminal))
            return code;
        r->place += *length;
    }
    *terminal = *length = 0;
    return GOES_ON;
}

static int step(struct run *r, uint64_t layout)
{
    const uint16_t *img = r->scanner.img;
    const struct pack *p = &r->scanner.p;
    size_t top = r->stack[r->height - 1], terminal, length;
    int looked = token(r, top, layout, &terminal, &length);
    if (looked != GOES_ON)
        return looked;
    size_t code = img[p->act + top * p->terminals + terminal];
    if (code == 0)
        return 8;
    if (code == 1)
        return r->height == 2 ? 0 : 10;
    if (code % 2 == 1)
        return reduce(r, (code - 3) / 2);
    const uint16_t leaf[4] = {(uint16_t)terminal, (uint16_t)r->place, (uint16_t)length, (uint16_t)top};
    int shifted = write_and_push(r, r->height, leaf, (code - 2) / 2);
    if (shifted == GOES_ON)
        r->place += length;
    return shifted;
}

static size_t tell6(uint64_t *out, uint64_t code, uint64_t place, uint64_t length, uint64_t terminal, uint64_t records, uint64_t moves)
{
    out[0] = code;
    out[1] = place;
    out[2] = length;
    out[3] = terminal;
    out[4] = records;
    out[5] = moves;
    return 6;
}

static size_t run(const uint16_t *img, const uint8_t *text, size_t text_bytes, uint16_t *tree, size_t tree_words, uint32_t allowance,
                  uint64_t *out)
{
    struct run r;
    r.scanner.img = img;
    r.scanner.p = pack_of(img);
    r.scanner.moves = 0;
    r.scanner.allowance = allowance;
    r.text = text;
    r.bytes = text_bytes;
    r.tree = tree;
    r.room = tree_words / 4 < 65535 ? tree_words / 4 : 65535;
    r.place = r.records = r.length = r.terminal = 0;
    r.stack[0] = 0;
    r.height = 1;
    uint64_t layout = set_at(img, 9);
    int code = GOES_ON;
    while (code == GOES_ON)
        code = step(&r, layout);
    return tell6(out, (uint64_t)code, r.place, r.length, r.terminal, r.records, r.scanner.moves);
}

size_t plain_c_parse(const uint16_t *img, size_t img_words, const uint8_t *text, size_t text_bytes, uint16_t *tree, size_t tree_words,
                     uint32_t allowance, uint64_t *out, size_t out_len)
{
    if (out_len < 6)
        return 0;
    if (text_bytes > 65535)
        return tell6(out, 6, 0, 0, 0, 0, 0);
    size_t wrong = first_wrong(img, img_words);
    if (wrong != GOOD)
        return tell6(out, 4, wrong, 0, 0, 0, 0);
    return run(img, text, text_bytes, tree, tree_words, allowance, out);
}

size_t plain_c_run(const uint16_t *img, size_t img_words, const uint8_t *text, size_t text_bytes, uint16_t *tree, size_t tree_words,
                   uint32_t allowance, uint64_t *out, size_t out_len)
{
    (void)img_words;
    if (out_len < 6)
        return 0;
    return run(img, text, text_bytes, tree, tree_words, allowance, out);
}

/* ---- the printout ---- */

/* A tree is gone through from its last record to its first: a node, then its children from the last to the first. */
struct printer {
    const uint8_t *text;
    size_t bytes;
    const uint16_t *tree;
    /* How many records are left. */
    size_t left;
    /* Where the printout goes on, from its end to its front. */
    uint8_t *at;
};

static bool one_whole_tree(const uint16_t *tree, size_t words)
{
    if (words == 0 || words % 4 != 0)
        return false;
    size_t due = 1;
    for (size_t i = words; i > 0; i -= 4) {
        const uint16_t *record = tree + i - 4;
        if (due == 0 || record[0] == 0)
            return false;
        due = due - 1 + (record[0] >= 64 ? record[2] : 0);
    }
    return due == 0;
}

/* Is the next tree at most so many nodes deep? */
static bool flat_enough(struct printer *p, size_t nodes)
{
    const uint16_t *record = p->tree + --p->left * 4;
    if (record[0] < 64)
        return true;
    if (nodes == 0)
        return false;
    for (size_t i = record[2]; i > 0; i--)
        if (!flat_enough(p, nodes - 1))
            return false;
    return true;
}

static size_t digits(unsigned n)
{
    return n >= 10000 ? 5 : n >= 1000 ? 4 : n >= 100 ? 3 : n >= 10 ? 2 : 1;
}

static bool escaped(uint8_t byte)
{
    return byte == '[' || byte == ']' || byte == '\\';
}

/* The length of a leaf's bytes, which is 0 where they are not within the text. */
static size_t leaf_length(const struct printer *p, const uint16_t *leaf)
{
    return (size_t)leaf[1] + leaf[2] <= p->bytes ? leaf[2] : 0;
}

static uint64_t printed_size(const struct printer *p, size_t records)
{
    uint64_t size = 0;
    for (size_t i = 0; i < records; i++) {
        const uint16_t *record = p->tree + i * 4;
        if (record[0] >= 64) {
            size += digits(record[1]) + 2 + record[2];
            continue;
        }
        size_t length = leaf_length(p, record);
        size += digits(record[0]) + 3 + length;
        for (size_t k = 0; k < length; k++)
            size += escaped(p->text[record[1] + k]);
    }
    return size;
}

static void put_before(struct printer *p, char byte)
{
    *--p->at = (uint8_t)byte;
}

static void put_number_before(struct printer *p, unsigned n)
{
    do {
        put_before(p, (char)('0' + n % 10));
        n /= 10;
    } while (n);
}

static void put_tree_before(struct printer *p)
{
    const uint16_t *record = p->tree + --p->left * 4;
    if (record[0] >= 64) {
        put_before(p, ')');
        for (size_t i = record[2]; i > 0; i--) {
            put_tree_before(p);
            put_before(p, ' ');
        }
        put_number_before(p, record[1]);
        put_before(p, '(');
        return;
    }
    put_before(p, ']');
    for (size_t k = leaf_length(p, record); k > 0; k--) {
        uint8_t byte = p->text[record[1] + k - 1];
        put_before(p, (char)byte);
        if (escaped(byte))
            put_before(p, '\\');
    }
    put_before(p, '[');
    put_before(p, ':');
    put_number_before(p, record[0]);
}

size_t plain_c_print(const uint8_t *text, size_t text_bytes, const uint16_t *tree, size_t tree_words, uint8_t *buffer, size_t buffer_bytes,
                     uint64_t *out, size_t out_len)
{
    if (out_len < 2)
        return 0;
    if (!one_whole_tree(tree, tree_words))
        return tell2(out, 14, 0);
    struct printer p = {text, text_bytes, tree, tree_words / 4, NULL};
    if (!flat_enough(&p, 256))
        return tell2(out, 15, 0);
    uint64_t size = printed_size(&p, tree_words / 4);
    if (size > buffer_bytes)
        return tell2(out, 3, size);
    p.left = tree_words / 4;
    p.at = buffer + size;
    put_tree_before(&p);
    return tell2(out, 0, size);
}
