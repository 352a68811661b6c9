/*
 * Speaks a sheet by the rules in rules.hex of the working folder, for tools/speak.py --sheet, which compiles it, runs it and tells its
 * numbers in words. Standard input is the sheet, each name behind a byte that says its length. Standard output:
 *
 *     CODE PLACE                                               of the rule file, or of its tables, where they are refused, and no more
 *     CODE PLACE STEPS NAMES SINGLY                            of the sheet; SINGLY are the steps of its names one by one
 *     CODE PLACE                                               for each name that is refused
 *     255 CONTESTED COUNT PHONES.. COUNT NUMBERS..             for each name that is spoken
 */
#include "pirrozketa.h"

#include <stdio.h>

enum {
    LONGEST_FILE = 32768,                                       /* bytes of rules.hex, as `say` takes them */
    SHEET = PIRROZKETA_SHEET_NAMES * 256,                       /* bytes of the longest sheet */
    PHONES = PIRROZKETA_SHEET_NAMES * 256,                      /* that its names can give by rules alone */
    NUMBERS = PIRROZKETA_SHEET_NAMES * PIRROZKETA_NUMBERS,
    REPLIES = PIRROZKETA_SHEET_NAMES * PIRROZKETA_REPLY
};

static uint8_t file[LONGEST_FILE + 1], image[PIRROZKETA_IMAGE], sheet[SHEET + 1], phones[PHONES];
static uint32_t list[PIRROZKETA_LIST], kept[PIRROZKETA_KEPT];
static uint16_t words[PIRROZKETA_WORDS], tree[PIRROZKETA_TREE], numbers[NUMBERS];
static uint64_t sets[PIRROZKETA_SETS];
static size_t replies[REPLIES];

static int refused(uint8_t code, size_t place)
{
    printf("%u %zu\n", (unsigned)code, place);
    return 0;
}

int main(void)
{
    size_t place, steps, names, single, singly = 0, phone = 0, number = 0;
    FILE *in = fopen("rules.hex", "rb");
    size_t length = in ? fread(file, 1, sizeof file, in) : 0;
    if (length > LONGEST_FILE)
        return refused(PIRROZKETA_BAD_LINE, LONGEST_FILE);
    uint8_t code = pirrozketa_read_file(file, length, image, sizeof image, &place);
    if (PIRROZKETA_OK(code))
        code = pirrozketa_build(image, sizeof image, words, PIRROZKETA_WORDS, sets, PIRROZKETA_SETS, &place);
    if (!PIRROZKETA_OK(code) || !PIRROZKETA_OK(pirrozketa_list_clear(list, PIRROZKETA_LIST)))
        return refused(code, place);

    length = fread(sheet, 1, sizeof sheet, stdin);
    code = pirrozketa_speak_many(image, sizeof image, list, PIRROZKETA_LIST, words, PIRROZKETA_WORDS, sets, PIRROZKETA_SETS, sheet, length,
                                 phones, PHONES, numbers, NUMBERS, replies, REPLIES, &single);
    for (size_t k = 0; PIRROZKETA_OK(code) && k < single; k++)
        singly += replies[PIRROZKETA_REPLY * k + 3];
    code = pirrozketa_speak_sheet(image, sizeof image, list, PIRROZKETA_LIST, words, PIRROZKETA_WORDS, sets, PIRROZKETA_SETS, sheet, length,
                                  phones, PHONES, numbers, NUMBERS, replies, REPLIES, tree, PIRROZKETA_TREE, kept, PIRROZKETA_KEPT, &place,
                                  &steps, &names);
    printf("%u %zu %zu %zu %zu\n", (unsigned)code, place, steps, names, singly);
    for (size_t k = 0; k < names; k++) {
        const size_t *reply = replies + PIRROZKETA_REPLY * k;
        if (!PIRROZKETA_OK(reply[0])) {
            printf("%zu %zu\n", reply[0], reply[1]);
            continue;
        }
        printf("%zu %zu %zu", reply[0], reply[4], reply[1]);
        for (size_t i = 0; i < reply[1]; i++)
            printf(" %u", (unsigned)phones[phone++]);
        printf(" %zu", reply[2]);
        for (size_t i = 0; i < reply[2]; i++)
            printf(" %u", (unsigned)numbers[number++]);
        printf("\n");
    }
    return 0;
}
