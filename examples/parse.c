/* Reads a query by a pack, as a service in C would, and prints its leaves and nodes: parse PACK QUERY
 * The exit status is 0 for an accepted query, 1 for a refusal and 2 for wrong use. */
#include <stdio.h>
#include <string.h>
#include <zhgarelli.h>

enum { TEXT = 65536, IMAGE = 20589, RECORDS = 6000, ALLOWANCE = 1000000 };

static uint8_t text[TEXT];           /* one byte more than a pack text may have */
static uint16_t image[IMAGE];        /* room for every image */
static uint16_t tree[4 * RECORDS];   /* four words to a record */

int main(int argc, char **argv) {
    FILE *file = argc == 3 ? fopen(argv[1], "rb") : NULL;
    if (file == NULL) {
        fprintf(stderr, "parse PACK QUERY: the pack is a file that can be read\n");
        return 2;
    }
    size_t bytes = fread(text, 1, TEXT, file);
    fclose(file);

    /* The pack: once, when the service starts. */
    uint64_t read[2], check[4];
    zhg_read(text, bytes, image, IMAGE, read, 2);
    if (read[0] != 0) {
        printf("the pack is refused: code %d at %d\n", (int)read[0], (int)read[1]);
        return 1;
    }
    size_t words = read[1];
    zhg_check(image, words, check, 4);
    if (check[0] != 0) {
        printf("the pack does not pass: K%d at %d, %d\n", (int)check[1], (int)check[2], (int)check[3]);
        return 1;
    }

    /* A query: code, place, length, terminal, records and moves. */
    const uint8_t *query = (const uint8_t *)argv[2];
    size_t length = strlen(argv[2]);
    uint64_t out[6];
    zhg_parse(image, words, query, length, tree, 4 * RECORDS, ALLOWANCE, out, 6);
    if (out[0] != 0) {
        printf("refused: code %d at byte %d, length %d, terminal %d\n", (int)out[0], (int)out[1], (int)out[2], (int)out[3]);
        return 1;
    }
    for (size_t i = 0; i < out[4]; i++) {
        const uint16_t *record = tree + 4 * i;
        uint64_t part[2];
        if (record[0] < 64) {
            zhg_leaf(query, length, record, 4, part, 2);
            printf("leaf: terminal %d, `%.*s`\n", record[0], (int)part[1], argv[2] + part[0]);
        } else {
            printf("node: nonterminal %d by production %d, %d children\n", record[0] - 64, record[1], record[2]);
        }
    }
    printf("accepted: %d records, %d moves\n", (int)out[4], (int)out[5]);
    return 0;
}
