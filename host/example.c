/*
 * A small host: it asks the library for its version, reads a rule file, builds the tables, sets a letter class, adds a rule that uses it, writes the file back, lists
 * exceptions and speaks names, of one word or several, one at a time, many at once and as a sheet, with their contested letters. Since the
 * addition the tables are old: the first name that needs them is refused, and they are built again. Built and run by host/build, or
 * by hand:
 *
 *     gcc -O2 -Wall -Ihost host/example.c $(host/library) -o target/example
 *     target/example examples/six.hex knee "eke knee" nab
 */
#include "pirrozketa.h"

#include <stdio.h>
#include <stdlib.h>
#include <string.h>

enum {
    LONGEST = 255,      /* bytes of a name that can stand among many: its length is one byte */
    LOT = 8             /* names that one call speaks; room is lent for the most that they can give */
};

/* All that is lent for long. A firmware would place it where it likes; the tables may be smaller. */
static uint8_t image[PIRROZKETA_IMAGE];
static uint32_t list[PIRROZKETA_LIST];
static uint16_t words[PIRROZKETA_WORDS];
static uint64_t sets[PIRROZKETA_SETS];

/* Names that one call speaks. A reply does not say whose it is: the k-th belongs to typed[k]. */
struct lot {
    const char *typed[LOT];
    size_t count;
    uint8_t names[LOT * (1 + LONGEST)];
    size_t used;
};

static void stop(const char *what)
{
    fprintf(stderr, "%s\n", what);
    exit(1);
}

/* The code is kept before the place is read: C evaluates a call's arguments in any order. */
static void judge(const char *what, uint8_t code, size_t place)
{
    if (PIRROZKETA_OK(code))
        return;
    fprintf(stderr, "%s: refusal %u at %zu\n", what, (unsigned)code, place);
    exit(1);
}

/* The typed name's bytes and their number: a is 1, b is 2, a space between words is 63; another byte becomes 0, which
   no name may have, so that the library refuses it. False for a name over LONGEST, which is said to be skipped. */
static int letters(const char *typed, uint8_t name[LONGEST], size_t *length)
{
    *length = strlen(typed);
    if (*length > LONGEST) {
        printf("\"%.8s..\": skipped, it has %zu letters\n", typed, *length);
        return 0;
    }
    for (size_t i = 0; i < *length; i++)
        name[i] = (uint8_t)(typed[i] >= 'a' && typed[i] <= 'z' ? typed[i] - 'a' + 1 : typed[i] == ' ' ? 63 : 0);
    return 1;
}

static void print(const char *typed, size_t code, size_t given, size_t applied, size_t contested, const uint8_t *phones,
                  const uint16_t *numbers)
{
    if (!PIRROZKETA_OK(code)) {
        printf("\"%s\": refusal %zu at %zu\n", typed, code, given);
        return;
    }
    printf("\"%s\": %zu phones", typed, given);
    for (size_t i = 0; i < given; i++)
        printf(" %02X", (unsigned)phones[i]);
    printf(", %zu rules", applied);
    for (size_t i = 0; i < applied; i++)
        printf(" %u", (unsigned)numbers[i]);
    printf(", %zu contested\n", contested);
}

static void read_rules(const char *path)
{
    /* one byte more than the longest file has, so that a longer one is refused and not cut */
    static uint8_t file[PIRROZKETA_FILE + 1];
    size_t length, place;
    uint8_t code;
    FILE *in = fopen(path, "rb");
    if (!in)
        stop("the rule file cannot be opened");
    length = fread(file, 1, sizeof file, in);
    if (ferror(in))
        stop("the rule file cannot be read");
    fclose(in);
    code = pirrozketa_read_file(file, length, image, sizeof image, &place);
    judge("read", code, place);
}

enum { VOWEL = 64 };    /* the symbol of a class */

static uint8_t set_vowels(size_t *place)
{
    static const uint8_t vowels[] = { 1, 5, 9, 15, 21 };
    return pirrozketa_set_class(image, sizeof image, VOWEL, vowels, sizeof vowels, place);
}

/* One rule more, at the end, for all vowels: [qu] before one of them gives 6B 77. While it is held, its class stays as it is. */
static void add_rule(void)
{
    static const uint8_t target[] = { 17, 21 }, right[] = { VOWEL }, phones[] = { 0x6B, 0x77 };
    uint8_t rule[PIRROZKETA_RULE] = { 0, sizeof target, sizeof right, sizeof phones };      /* the lengths; no left context */
    size_t place, end = pirrozketa_count(image, sizeof image);
    uint8_t code = set_vowels(&place);
    memcpy(rule + PIRROZKETA_TARGET_AT, target, sizeof target);
    memcpy(rule + PIRROZKETA_RIGHT_AT, right, sizeof right);
    memcpy(rule + PIRROZKETA_PHONES_AT, phones, sizeof phones);
    judge("class", code, place);
    code = pirrozketa_add(image, sizeof image, rule, sizeof rule, end, &place);
    judge("add", code, place);
    printf("rule %u added, the edit count is %lu\n", (unsigned)pirrozketa_last(image, sizeof image),
           (unsigned long)pirrozketa_edits(image, sizeof image));
    code = set_vowels(&place);
    if (code != PIRROZKETA_BAD_CLASS)
        stop("a class is set while a rule uses it");
    printf("class %d is in use: refusal %u\n", VOWEL, (unsigned)code);
}

static void write_rules(void)
{
    static uint8_t file[PIRROZKETA_FILE];
    size_t bytes;
    uint8_t code = pirrozketa_write_file(image, sizeof image, file, sizeof file, &bytes);
    judge("write", code, bytes);
    printf("the file has %zu bytes\n", bytes);
}

/* Due after every read of a file, which no refusal asks for. After an add, drop or move, refusal 22 does. */
static void build_tables(void)
{
    size_t place;
    /* what is needed is asked for first: no words are lent, and the pointer is a valid one all the same */
    uint8_t code = pirrozketa_build(image, sizeof image, words, 0, sets, PIRROZKETA_SETS, &place);
    if (code != PIRROZKETA_WORDS_ROOM)
        judge("build", code, place);
    printf("the tables need %zu words\n", place);
    code = pirrozketa_build(image, sizeof image, words, PIRROZKETA_WORDS, sets, PIRROZKETA_SETS, &place);
    judge("build", code, place);
}

/* Two names that follow no rule, one of them the beginning of the other; a third is listed and removed again. */
static void list_exceptions(void)
{
    static const struct { const char *typed; uint8_t phones[3]; size_t count; } exceptions[] = {
        { "queen", { 0x6B, 0x77, 0x69 }, 3 }, { "que", { 0x6B }, 1 }, { "keen", { 0x71 }, 1 }
    };
    static uint8_t out[PIRROZKETA_READ_OUT];
    uint8_t name[LONGEST];
    size_t length, place, bytes;
    uint8_t code = pirrozketa_list_clear(list, PIRROZKETA_LIST);
    judge("the empty list", code, 0);
    for (size_t k = 0; k < sizeof exceptions / sizeof *exceptions; k++) {
        if (!letters(exceptions[k].typed, name, &length))
            continue;
        code = pirrozketa_list_add(list, PIRROZKETA_LIST, name, length, exceptions[k].phones, exceptions[k].count, &place);
        judge("list", code, place);
    }
    /* the last is removed: "keen" goes by the rules */
    code = pirrozketa_list_remove(list, PIRROZKETA_LIST, name, length, &place);
    judge("remove", code, place);
    printf("%u names are listed, in %u states\n", (unsigned)pirrozketa_list_names(list, PIRROZKETA_LIST),
           (unsigned)pirrozketa_list_states(list, PIRROZKETA_LIST));
    code = pirrozketa_list_read_out(list, PIRROZKETA_LIST, out, sizeof out, &bytes);
    judge("read out", code, bytes);
    printf("read out:");
    for (size_t i = 0; i < bytes; i++)
        printf(" %02X", (unsigned)out[i]);
    printf("\n");
}

/* One name by the tables, built again where they are from before an edit, and by the rules: they agree. */
static void speak_one(const char *typed)
{
    uint8_t name[LONGEST], phones[PIRROZKETA_PHONES], read_phones[PIRROZKETA_PHONES];
    uint16_t numbers[PIRROZKETA_NUMBERS], read_numbers[PIRROZKETA_NUMBERS];
    size_t length, given, applied, steps, contested, read_given, read_applied, read_contested;
    uint8_t code, read_code;
    if (!letters(typed, name, &length))
        return;
    while ((code = pirrozketa_speak(image, sizeof image, list, PIRROZKETA_LIST, words, PIRROZKETA_WORDS, sets, PIRROZKETA_SETS,
                                    name, length, phones, PIRROZKETA_PHONES, numbers, PIRROZKETA_NUMBERS, &given, &applied,
                                    &steps, &contested)) == PIRROZKETA_STALE_TABLES) {
        printf("\"%s\": refusal %u, the tables are from before an edit\n", typed, (unsigned)code);
        build_tables();
    }
    read_code = pirrozketa_read_name(image, sizeof image, list, PIRROZKETA_LIST, name, length, read_phones,
                                     PIRROZKETA_PHONES, read_numbers, PIRROZKETA_NUMBERS, &read_given, &read_applied,
                                     &read_contested);
    if (read_code != code || read_given != given || read_applied != applied || read_contested != contested
        || (PIRROZKETA_OK(code) && (memcmp(phones, read_phones, given)
                                    || memcmp(numbers, read_numbers, applied * sizeof *numbers))))
        stop("the tables are not those of the rules");
    print(typed, code, given, applied, contested, phones, numbers);
}

/* Speaks the names of a lot in one call, prints each answer under its own name, and empties the lot. */
static void speak_lot(struct lot *lot)
{
    static uint8_t phones[LOT * PIRROZKETA_PHONES];
    static uint16_t numbers[LOT * PIRROZKETA_NUMBERS];
    static size_t replies[LOT * PIRROZKETA_REPLY];
    size_t count, phone = 0, number = 0;
    uint8_t code = pirrozketa_speak_many(image, sizeof image, list, PIRROZKETA_LIST, words, PIRROZKETA_WORDS, sets,
                                         PIRROZKETA_SETS, lot->names, lot->used, phones, LOT * PIRROZKETA_PHONES, numbers,
                                         LOT * PIRROZKETA_NUMBERS, replies, LOT * PIRROZKETA_REPLY, &count);
    judge("speak many", code, 0);
    if (count != lot->count)
        stop("speak many: names are left without a reply");
    for (size_t k = 0; k < count; k++) {
        const size_t *reply = replies + PIRROZKETA_REPLY * k;
        print(lot->typed[k], reply[0], reply[1], reply[2], reply[4], phones + phone, numbers + number);
        if (PIRROZKETA_OK(reply[0])) {
            phone += reply[1];
            number += reply[2];
        }
    }
    lot->count = lot->used = 0;
}

/* All that a whole sheet can need beside the tables; zero as static memory is, and zero again after each call. */
static uint16_t tree[PIRROZKETA_TREE];
static uint32_t kept[PIRROZKETA_KEPT];

/* Speaks the names that one sheet has room for together: what several of them begin with is looked up once. */
static void speak_sheet(const char *const *typed, size_t many)
{
    static const char *listed[PIRROZKETA_SHEET_NAMES];
    static uint8_t sheet[PIRROZKETA_SHEET_NAMES * (1 + LONGEST)];
    static uint8_t phones[LOT * PIRROZKETA_PHONES];
    static uint16_t numbers[PIRROZKETA_SHEET_NAMES * PIRROZKETA_NUMBERS];
    static size_t replies[PIRROZKETA_SHEET_NAMES * PIRROZKETA_REPLY];
    size_t count = 0, used = 0, length, place, steps, names, phone = 0, number = 0;
    uint8_t code;
    for (size_t k = 0; k < many && count < PIRROZKETA_SHEET_NAMES; k++) {
        if (!letters(typed[k], sheet + used + 1, &length))
            continue;
        sheet[used] = (uint8_t)length;
        used += 1 + length;
        listed[count++] = typed[k];
    }
    code = pirrozketa_speak_sheet(image, sizeof image, list, PIRROZKETA_LIST, words, PIRROZKETA_WORDS, sets, PIRROZKETA_SETS,
                                  sheet, used, phones, sizeof phones, numbers, sizeof numbers / sizeof *numbers, replies,
                                  sizeof replies / sizeof *replies, tree, PIRROZKETA_TREE, kept, PIRROZKETA_KEPT, &place, &steps,
                                  &names);
    judge("speak sheet", code, place);
    for (size_t k = 0; k < names; k++) {
        const size_t *reply = replies + PIRROZKETA_REPLY * k;
        print(listed[k], reply[0], reply[1], reply[2], reply[4], phones + phone, numbers + number);
        if (PIRROZKETA_OK(reply[0])) {
            phone += reply[1];
            number += reply[2];
        }
    }
    printf("%zu names, %zu steps\n", names, steps);
}

/* Puts a name into the lot, which is spoken when it is full. */
static void take(struct lot *lot, const char *typed)
{
    size_t length;
    if (!letters(typed, lot->names + lot->used + 1, &length))
        return;
    lot->names[lot->used] = (uint8_t)length;
    lot->used += 1 + length;
    lot->typed[lot->count++] = typed;
    if (lot->count == LOT)
        speak_lot(lot);
}

int main(int argc, char **argv)
{
    static struct lot lot;
    if (argc < 2)
        stop("usage: example RULES.hex NAME..");
    /* The header that was compiled and the library that is linked may be of different versions. */
    if (!PIRROZKETA_VERSION_FITS(pirrozketa_version()))
        stop("the library is not of the header's version");
    read_rules(argv[1]);
    build_tables();
    add_rule();
    write_rules();
    list_exceptions();
    printf("one at a time:\n");
    for (int i = 2; i < argc; i++)
        speak_one(argv[i]);
    printf("many at once:\n");
    for (int i = 2; i < argc; i++)
        take(&lot, argv[i]);
    speak_lot(&lot);
    printf("a sheet of them:\n");
    speak_sheet((const char *const *)argv + 2, (size_t)argc - 2);
    return 0;
}
