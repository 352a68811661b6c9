/*
 * The library beside the hand-written baseline, in one run: the same rulesets, the same names, and the
 * answers compared. Times are the best of many rounds. Built and run by bench/run.
 */
#include "baseline.h"
#include "pirrozketa.h"

#include <stdio.h>
#include <stdlib.h>
#include <string.h>
#include <time.h>

enum {
    NAMES = 2000,
    ROUNDS = 40,
    WORDS = 8,                              /* of a long name, with spaces between them */
    LETTERS = 7,                            /* of each */
    LONG = WORDS * (LETTERS + 1) - 1,       /* bytes of a long name */
    LONG_NAMES = NAMES * 12 / LONG,         /* whose rule numbers have room where those of NAMES names have */
    DRAWN = 6,                              /* letters drawn for a context, from the time when that was the limit */
    ROOM = 16                               /* bytes of a name, its length among them, and rule numbers, for which there is room on the average */
};

_Static_assert((int)BASE_CONTEXT == PIRROZKETA_CONTEXT && (int)BASE_WORDS == PIRROZKETA_WORDS && (int)BASE_SETS == PIRROZKETA_SETS
               && (int)BASE_FILE == PIRROZKETA_FILE, "the baseline has other limits than the library");

static uint8_t image[PIRROZKETA_IMAGE], back[PIRROZKETA_IMAGE], file[PIRROZKETA_FILE], other[PIRROZKETA_FILE];
static uint16_t words[PIRROZKETA_WORDS], base_words[BASE_WORDS];
static uint64_t sets[PIRROZKETA_SETS], base_sets[BASE_SETS];
static uint32_t list[PIRROZKETA_LIST];
static struct base_ruleset rs, again;
static struct base_spoken spoken[NAMES];
static uint8_t names[NAMES * ROOM], phones[NAMES * 64];
static uint16_t numbers[NAMES * ROOM];
static size_t replies[NAMES * PIRROZKETA_REPLY], starts[NAMES], bytes, place, count;

static double now(void)
{
    struct timespec t;
    clock_gettime(CLOCK_MONOTONIC, &t);
    return t.tv_sec * 1e9 + t.tv_nsec;
}

static void must(int holds, const char *what)
{
    if (!holds) {
        fprintf(stderr, "bench: %s\n", what);
        exit(1);
    }
}

static void accept(uint8_t code, const char *what) { must(PIRROZKETA_OK(code), what); }

/* The best time so far of a statement in nanoseconds, over `per` pieces of work; it is run three times, so that its own data is in the caches. */
#define TIME(best, per, work) for (int again_ = 0; again_ < 3; again_++) { double t = now(); work; t = (now() - t) / (per); if (t < best) best = t; }

/* The best times of the library's work and of the baseline's, taken by turns, so that a slow spell of the machine meets both. */
#define PAIR(mine, base, per, library, baseline) do { mine = base = 1e18; for (int round = 0; round < ROUNDS; round++) { \
    TIME(mine, per, library) TIME(base, per, baseline) } } while (0)

static unsigned draw(unsigned n) { return rand() % n; }

/* Common letters more often, so that contexts are met. */
static uint8_t letter(void) { return draw(3) ? (uint8_t)"\1\5\11\17\25\16\24\22\23\14"[draw(10)] : (uint8_t)(1 + draw(26)); }

static void draw_part(uint8_t *part, int room, int drawn)
{
    for (int i = 0; i < room || i < drawn; i++) {
        uint8_t drawn_letter = letter();
        if (i < room)
            part[i] = drawn_letter;
    }
}

/* Letters for all parts of a rule. Those drawn past the room of a context are left out: so rules whose contexts have at most 4 letters,
   and all names, are drawn as they were when contexts had up to 6. */
static void draw_parts(uint8_t r[PIRROZKETA_RULE])
{
    draw_part(r + PIRROZKETA_LEFT_AT, PIRROZKETA_CONTEXT, DRAWN);
    draw_part(r + PIRROZKETA_TARGET_AT, PIRROZKETA_TARGET, PIRROZKETA_TARGET);
    draw_part(r + PIRROZKETA_RIGHT_AT, PIRROZKETA_CONTEXT, DRAWN);
    draw_part(r + PIRROZKETA_PHONES_AT, PIRROZKETA_RULE_PHONES, PIRROZKETA_RULE_PHONES);
}

/* n rules: the last 26 fit a letter each, so that every name is spoken; or all of the greatest length. */
static void rules(int n, int longest)
{
    accept(pirrozketa_clear(image, sizeof image), "no empty ruleset");
    int plain = longest ? 0 : n < 26 ? n : 26;
    for (int k = 0; k < n; k++) {
        uint8_t r[PIRROZKETA_RULE] = { 0 };
        if (k < n - plain) {
            r[0] = longest ? PIRROZKETA_CONTEXT : draw(4);
            r[1] = longest ? PIRROZKETA_TARGET : 1 + (draw(3) == 0) + (draw(9) == 0);
            r[2] = longest ? PIRROZKETA_CONTEXT : draw(4);
            r[3] = longest ? PIRROZKETA_RULE_PHONES : draw(3);
        } else {
            r[1] = r[3] = 1;
        }
        draw_parts(r);
        if (k >= n - plain)
            r[PIRROZKETA_TARGET_AT] = 1 + k - (n - plain);
        accept(pirrozketa_add(image, sizeof image, r, sizeof r, k, &place), "a rule is refused");
    }
    accept(pirrozketa_write_file(image, sizeof image, file, sizeof file, &bytes), "no file");
    must(base_read(file, bytes, &rs) == 0, "the baseline reads no file");
    rs.edits = pirrozketa_edits(image, sizeof image);   /* which the file has not */
}

/* Names of 4 to 12 letters, of those that some rule fits alone. */
static size_t draw_names(int n)
{
    size_t at = 0;
    int plain = n < 26 ? n : 26;
    for (int k = 0; k < NAMES; k++) {
        starts[k] = at;
        names[at] = 4 + draw(9);
        for (int i = 1; i <= names[at]; i++) {
            uint8_t c = letter();
            names[at + i] = c <= plain ? c : 1 + draw(plain);
        }
        at += 1 + names[at];
    }
    return at;
}

static void build_in(size_t words_len, size_t sets_len)
{
    accept(pirrozketa_build(image, sizeof image, words, words_len, sets, sets_len, &place), "no tables");
}

static void build(void) { build_in(PIRROZKETA_WORDS, PIRROZKETA_SETS); }

/* The states of both tables that stand in `words`, and the words and set words that these need. */
static size_t states(void) { return (size_t)words[2] + words[3]; }
static size_t words_needed(void) { return BASE_ROWS + BASE_SYMBOLS * states(); }
static size_t sets_needed(void) { return BASE_SET_WORDS * states(); }

static void check_ruleset(void) { accept(pirrozketa_check(image, sizeof image), "no ruleset"); }

static void speak_by(const uint8_t *by, const uint16_t *its_words, const uint64_t *its_sets, const uint8_t *names, size_t length, size_t of)
{
    accept(pirrozketa_speak_many(by, PIRROZKETA_IMAGE, list, PIRROZKETA_LIST, its_words, PIRROZKETA_WORDS, its_sets, PIRROZKETA_SETS,
           names, length, phones, sizeof phones, numbers, sizeof numbers / 2, replies, sizeof replies / sizeof *replies, &count),
           "no ruleset");
    must(count == of, "names are not all answered");
}

static void speak(const uint8_t *names, size_t length, size_t of) { speak_by(image, words, sets, names, length, of); }

static void many(size_t length) { speak(names, length, NAMES); }

static void base_by(const struct base_ruleset *by, const uint16_t *its_words, const uint64_t *its_sets)
{
    for (int k = 0; k < NAMES; k++)
        base_walk(by, its_words, its_sets, names + starts[k] + 1, names[starts[k]], &spoken[k]);
}

static void base_many(void) { base_by(&rs, base_words, base_sets); }

/* The last speak() of so many names and the baseline gave the same. */
static void compare(int of)
{
    size_t at = 0, from = 0;
    for (int k = 0; k < of; k++) {
        const size_t *r = replies + PIRROZKETA_REPLY * k;
        must(PIRROZKETA_OK(r[0]) && r[1] == spoken[k].phone_count && r[2] == spoken[k].rule_count
             && r[3] == spoken[k].steps && r[4] == spoken[k].contested && !memcmp(phones + at, spoken[k].phones, r[1])
             && !memcmp(numbers + from, spoken[k].numbers, 2 * r[2]), "the answers differ");
        at += r[1];
        from += r[2];
    }
}

/* ---- names of one word and of eight, equally long */

static uint8_t one_word[LONG_NAMES][1 + LONG], eight_words[LONG_NAMES][1 + LONG];

static void draw_long_names(void)
{
    for (int k = 0; k < LONG_NAMES; k++) {
        one_word[k][0] = LONG;
        for (int i = 1; i <= LONG; i++)
            one_word[k][i] = letter();
        memcpy(eight_words[k], one_word[k], sizeof one_word[k]);
        for (int i = LETTERS + 1; i <= LONG; i += LETTERS + 1)
            eight_words[k][i] = BASE_SPACE;
    }
}

static void speak_long(uint8_t names[LONG_NAMES][1 + LONG]) { speak(names[0], sizeof one_word, LONG_NAMES); }

static void base_long(uint8_t names[LONG_NAMES][1 + LONG])
{
    for (int k = 0; k < LONG_NAMES; k++)
        base_walk(&rs, base_words, base_sets, names[k] + 1, LONG, &spoken[k]);
}

/* Both kinds by turns, through the library and through the baseline, with the rules and tables that stand. */
static void word_rows(void)
{
    double one, eight, base_one, base_eight;
    draw_long_names();
    speak_long(one_word);
    base_long(one_word);
    compare(LONG_NAMES);
    speak_long(eight_words);
    base_long(eight_words);
    compare(LONG_NAMES);
    PAIR(eight, one, LONG_NAMES, speak_long(eight_words), speak_long(one_word));
    PAIR(base_eight, base_one, LONG_NAMES, base_long(eight_words), base_long(one_word));
    printf("| library | %.0f ns | %.0f ns | %.2f |\n", eight, one, eight / one);
    printf("| baseline | %.0f ns | %.0f ns | %.2f |\n", base_eight, base_one, base_eight / base_one);
}

/* ---- real rulesets, with letter classes and written out */

/* A ruleset with its tables, of the library and of the baseline. */
struct loaded {
    uint8_t image[PIRROZKETA_IMAGE];
    uint16_t words[PIRROZKETA_WORDS], base_words[BASE_WORDS];
    uint64_t sets[PIRROZKETA_SETS], base_sets[BASE_SETS];
    struct base_ruleset base;
};

static struct loaded classed, written;

static size_t read_whole(const char *path, uint8_t *into, size_t room)
{
    FILE *in = fopen(path, "rb");
    must(in != NULL, path);
    size_t length = fread(into, 1, room, in);
    must(length < room && !ferror(in), path);
    fclose(in);
    return length;
}

static void load(struct loaded *loaded, const char *path)
{
    static uint8_t text[PIRROZKETA_FILE + 1];
    size_t length = read_whole(path, text, sizeof text);
    accept(pirrozketa_read_file(text, length, loaded->image, PIRROZKETA_IMAGE, &place), path);
    accept(pirrozketa_build(loaded->image, PIRROZKETA_IMAGE, loaded->words, PIRROZKETA_WORDS, loaded->sets, PIRROZKETA_SETS, &place), path);
    must(base_read(text, length, &loaded->base) == 0, "the baseline reads no file");
    base_build(&loaded->base, loaded->base_words, loaded->base_sets);
}

/* NAMES names: those that fill `names` to `end`, all different, in order, again and again. */
static size_t repeat_names(size_t end)
{
    size_t at = 0, from = 0;
    for (int k = 0; k < NAMES; k++) {
        size_t size = 1 + (size_t)names[from];
        must(at + size <= sizeof names, "no room for the names");
        memmove(names + at, names + from, size);
        starts[k] = at;
        at += size;
        from = from + size < end ? from + size : 0;
    }
    return at;
}

/* The names of examples/basque.names: a to z, the space, and the two letters of examples/basque.rules. */
static size_t basque_names(void)
{
    static uint8_t text[1 << 16];
    size_t end = read_whole("examples/basque.names", text, sizeof text), from = 0, at = 0;
    while (from < end) {
        size_t last = at;
        must(at + 1 + PIRROZKETA_NAME <= sizeof names, "no room for the names");
        for (; from < end && text[from] != ';' && text[from] != '\n'; from++) {
            if (text[from] == 0xC3)
                names[++last] = text[++from] == 0xB1 ? 0x1B : 0x1C;
            else
                names[++last] = text[from] == ' ' ? BASE_SPACE : (uint8_t)(text[from] - 'a' + 1);
        }
        while (last > at && names[last] == BASE_SPACE)
            last--;
        while (from < end && text[from] != '\n')
            from++;
        from++;
        if (last == at)
            continue;
        names[at] = (uint8_t)(last - at);
        at = last + 1;
    }
    return repeat_names(at);
}

static void many_by(const struct loaded *by, size_t length) { speak_by(by->image, by->words, by->sets, names, length, NAMES); }

static void base_many_by(const struct loaded *by) { base_by(&by->base, by->base_words, by->base_sets); }

/* n rules with one class of so many letters in each, so that there are 512 literal rules. */
static void class_rules(int n, int letters)
{
    uint8_t some[PIRROZKETA_CLASS];
    accept(pirrozketa_clear(image, sizeof image), "no empty ruleset");
    for (int k = 0; k < letters; k++)
        some[k] = (uint8_t)(1 + k);
    accept(pirrozketa_set_class(image, sizeof image, BASE_CLASS, some, letters, &place), "no class");
    for (int k = 0; k < n; k++) {
        uint8_t r[PIRROZKETA_RULE] = { (uint8_t)(1 + draw(3)), (uint8_t)(1 + (draw(3) == 0)), (uint8_t)draw(4), (uint8_t)draw(3) };
        draw_parts(r);
        r[PIRROZKETA_LEFT_AT] = BASE_CLASS;
        accept(pirrozketa_add(image, sizeof image, r, sizeof r, k, &place), "a rule is refused");
    }
}

static double check_time(void)
{
    double check, none;
    PAIR(check, none, NAMES, for (int k = 0; k < NAMES; k++) check_ruleset(), (void)0);
    return check;
}

static void row(const char *what, double mine, double base)
{
    printf("| %s | %.0f ns | %.0f ns | %.2f |\n", what, mine, base, mine / base);
}

/* Names by a real ruleset with classes and by the same written out, through library and baseline, all four by turns. */
static void real_rows(const char *language, const char *with_classes, const char *written_out, size_t length)
{
    static uint8_t said[sizeof phones];
    double by_class = 1e18, base_class = 1e18, by_rules = 1e18, base_rules = 1e18;
    char what[80];
    load(&classed, with_classes);
    load(&written, written_out);
    many_by(&classed, length);
    base_many_by(&classed);
    compare(NAMES);
    memcpy(said, phones, sizeof said);
    many_by(&written, length);
    base_many_by(&written);
    compare(NAMES);
    must(!memcmp(said, phones, sizeof said), "with classes and written out the phones differ");
    for (int round = 0; round < ROUNDS; round++) {
        TIME(by_class, NAMES, many_by(&classed, length))
        TIME(base_class, NAMES, base_many_by(&classed))
        TIME(by_rules, NAMES, many_by(&written, length))
        TIME(base_rules, NAMES, base_many_by(&written))
    }
    printf("\n| %s name, %.1f letters, many at once | library | baseline | ratio |\n|---|---|---|---|\n", language, (double)(length - NAMES) / NAMES);
    snprintf(what, sizeof what, "%u rules with classes", (unsigned)classed.base.count);
    row(what, by_class, base_class);
    snprintf(what, sizeof what, "the same written out, %u rules", (unsigned)written.base.count);
    row(what, by_rules, base_rules);
    printf("| with classes to written out | %.2f | %.2f | |\n", by_class / by_rules, base_class / base_rules);
}

/* By rules and names that bench/italian.py has made in a folder. */
static void italian_rows(const char *folder)
{
    char with_classes[1000], written_out[1000], of_names[1000];
    snprintf(with_classes, sizeof with_classes, "%s/italian_classes.hex", folder);
    snprintf(written_out, sizeof written_out, "%s/italian.hex", folder);
    snprintf(of_names, sizeof of_names, "%s/italian.names", folder);
    size_t length = repeat_names(read_whole(of_names, names, sizeof names));
    real_rows("an Italian", with_classes, written_out, length);
}

/* The check of the fullest rulesets. */
static void check_rows(void)
{
    printf("\n| 512 literal rules | the check of the ruleset |\n|---|---|\n");
    rules(512, 0);
    printf("| 512 rules without classes | %.0f ns |\n", check_time());
    class_rules(256, 2);
    printf("| 256 rules with a class of 2 letters | %.0f ns |\n", check_time());
    class_rules(16, 32);
    printf("| 16 rules with a class of 32 letters | %.0f ns |\n", check_time());
}

/* ---- the exceptions list */

static uint8_t listed[1000][9], listed_length[1000], read_out[PIRROZKETA_READ_OUT];
static uint8_t said_so[PIRROZKETA_LISTED_PHONES + 9];

static void add(const uint8_t *name, size_t length, size_t from, size_t phone_count)
{
    accept(pirrozketa_list_add(list, PIRROZKETA_LIST, name, length, said_so + from, phone_count, &place), "a name is not listed");
}

static void remove_name(const uint8_t *name, size_t length)
{
    accept(pirrozketa_list_remove(list, PIRROZKETA_LIST, name, length, &place), "a name is not removed");
}

static void check_list(void) { accept(pirrozketa_list_check(list, PIRROZKETA_LIST), "no list"); }

/* n names of 5 to 9 letters out of 26, each with so many phones; `names` then has NAMES of them, drawn anew. */
static size_t fill_list(int n, size_t phone_count)
{
    size_t at = 0;
    accept(pirrozketa_list_clear(list, PIRROZKETA_LIST), "no empty list");
    for (size_t k = 0; k < sizeof said_so; k++)
        said_so[k] = (uint8_t)(65 + k % 16);
    for (int k = 0; k < n; k++) {
        listed_length[k] = 5 + draw(5);
        for (int i = 0; i < listed_length[k]; i++)
            listed[k][i] = 1 + draw(26);
        add(listed[k], listed_length[k], k % 9, phone_count);
    }
    for (int k = 0; k < NAMES; k++) {
        int of = draw(n);
        starts[k] = at;
        names[at] = listed_length[of];
        memcpy(names + at + 1, listed[of], listed_length[of]);
        at += 1 + names[at];
    }
    return at;
}

/* The best time of a statement in microseconds, over `per` pieces of work. */
#define BEST(per, work) ({ double best_ = 1e18; for (int round = 0; round < 12; round++) TIME(best_, per, work) best_ / 1e3; })

static void list_rows(int n, size_t phone_count)
{
    static uint8_t longest[PIRROZKETA_NAME];
    size_t length = fill_list(n, phone_count);
    double checks = BEST(1, check_list(); check_ruleset());
    double judged = BEST(1, check_list());
    double looked = (BEST(1, many(length)) - checks) * 1e3;
    double changed = BEST(n, for (int k = 0; k < n; k++) add(listed[k], listed_length[k], (k + 1) % 9, phone_count));
    for (int i = 0; i < PIRROZKETA_NAME; i++)
        longest[i] = 1 + draw(62);
    double added = BEST(2, add(longest, PIRROZKETA_NAME, 0, phone_count); remove_name(longest, PIRROZKETA_NAME));
    double text = BEST(1, accept(pirrozketa_list_read_out(list, PIRROZKETA_LIST, read_out, sizeof read_out, &bytes), "no read-out"));
    printf("| %u names of 5 to 9 letters, %zu phones each: %u states | %.0f ns, %.1f a letter | %.0f µs | %.0f µs | %.0f µs | %.0f µs |\n",
           (unsigned)pirrozketa_list_names(list, PIRROZKETA_LIST), phone_count, (unsigned)pirrozketa_list_states(list, PIRROZKETA_LIST),
           looked / NAMES, looked / (double)(length - NAMES), judged, changed - judged, added - judged, text - judged);
}

static uint8_t said[PIRROZKETA_PHONES];
static uint16_t by[PIRROZKETA_NUMBERS];
static size_t given, applied, steps, contested;

/* The names one by one, ruleset and list checked for each. */
static void checked(void)
{
    for (int k = 0; k < NAMES; k++)
        accept(pirrozketa_speak(image, sizeof image, list, PIRROZKETA_LIST, words, PIRROZKETA_WORDS, sets, PIRROZKETA_SETS,
               names + starts[k] + 1, names[starts[k]], said, sizeof said, by, PIRROZKETA_NUMBERS, &given,
               &applied, &steps, &contested), "a name is refused");
}

/* One name with its checks, by the rules and names that stand. */
static void checked_rows(int n)
{
    double mine, base;
    char what[80];
    PAIR(mine, base, NAMES, checked(), base_many());
    snprintf(what, sizeof what, "(b) one name, ruleset and empty list checked, %d rules", n);
    row(what, mine, base);
    printf("| (b) of which the check of the ruleset | %.0f ns | | |\n", check_time());
}

/* ---- sheets: the names of one together, by pirrozketa_speak_many, and one by one */

enum { BEGINNINGS = 16, ENDINGS = PIRROZKETA_SHEET_NAMES / BEGINNINGS };

static uint8_t sheet[PIRROZKETA_SHEET_NAMES * (1 + PIRROZKETA_NAME)];
static uint16_t tree[PIRROZKETA_TREE];
static uint32_t kept[PIRROZKETA_KEPT];

/* A name as typed at a place of the sheet, and the place after it. */
static size_t put_name(size_t at, const char *beginning, const char *between, const char *ending)
{
    size_t length = 0;
    for (const char *const *part = (const char *const[]){ beginning, between, ending, NULL }; *part; part++)
        for (const char *typed = *part; *typed; typed++)
            sheet[at + 1 + length++] = (uint8_t)(*typed == ' ' ? 63 : *typed - 'a' + 1);
    sheet[at] = (uint8_t)length;
    return at + 1 + length;
}

/* Every beginning with every ending: one word, or two. */
static size_t names_alike(const char *between)
{
    static const char *const beginnings[BEGINNINGS] = { "etxe", "etxa", "mendi", "menda", "iturri", "iturra", "aran", "arri", "baso", "basa",
                                                        "zubi", "zuba", "haitz", "haitza", "garai", "gara" };
    static const char *const endings[ENDINGS] = { "berri", "zahar", "goiti", "behere", "alde", "ondo", "garai", "buru", "gain", "pe", "arte",
                                                  "txo", "tegi", "eta", "larre", "aga" };
    size_t at = 0;
    for (int k = 0; k < BEGINNINGS; k++)
        for (int j = 0; j < ENDINGS; j++)
            at = put_name(at, beginnings[k], between, endings[j]);
    return at;
}

static size_t random_names(int length)
{
    char name[PIRROZKETA_NAME + 1] = { 0 };
    size_t at = 0;
    for (int k = 0; k < PIRROZKETA_SHEET_NAMES; k++) {
        for (int i = 0; i < length; i++)
            name[i] = "aeioubdgzrntsk"[draw(14)];
        at = put_name(at, name, "", "");
    }
    return at;
}

static void speak_sheet(const struct loaded *loaded, size_t length)
{
    accept(pirrozketa_speak_sheet(loaded->image, PIRROZKETA_IMAGE, list, PIRROZKETA_LIST, loaded->words, PIRROZKETA_WORDS, loaded->sets,
           PIRROZKETA_SETS, sheet, length, phones, sizeof phones, numbers, sizeof numbers / 2, replies, sizeof replies / sizeof *replies, tree,
           PIRROZKETA_TREE, kept, PIRROZKETA_KEPT, &place, &steps, &count), "a sheet is refused");
    must(count == PIRROZKETA_SHEET_NAMES, "names are not all answered");
}

static void speak_lot(const struct loaded *loaded, size_t length)
{
    speak_by(loaded->image, loaded->words, loaded->sets, sheet, length, PIRROZKETA_SHEET_NAMES);
}

static void speak_singly(const struct loaded *loaded, size_t length)
{
    for (size_t at = 0; at < length; at += 1 + (size_t)sheet[at])
        accept(pirrozketa_speak(loaded->image, PIRROZKETA_IMAGE, list, PIRROZKETA_LIST, loaded->words, PIRROZKETA_WORDS, loaded->sets,
               PIRROZKETA_SETS, sheet + at + 1, sheet[at], said, sizeof said, by, PIRROZKETA_NUMBERS, &given, &applied, &steps, &contested),
               "a name is refused");
}

static void sheet_row(const char *what, const struct loaded *loaded, size_t length)
{
    static uint8_t lot_phones[sizeof phones];
    static uint16_t lot_numbers[sizeof numbers / 2];
    double together = 1e18, lot = 1e18, one_by_one = 1e18;
    size_t singly = 0;
    memset(phones, 0, sizeof phones);
    memset(numbers, 0, sizeof numbers);
    speak_lot(loaded, length);
    memcpy(lot_phones, phones, sizeof phones);
    memcpy(lot_numbers, numbers, sizeof numbers);
    for (int k = 0; k < PIRROZKETA_SHEET_NAMES; k++) {
        must(PIRROZKETA_OK(replies[PIRROZKETA_REPLY * k]), "a name is refused");
        singly += replies[PIRROZKETA_REPLY * k + 3];
    }
    memset(phones, 0, sizeof phones);
    memset(numbers, 0, sizeof numbers);
    speak_sheet(loaded, length);
    must(!memcmp(lot_phones, phones, sizeof phones) && !memcmp(lot_numbers, numbers, sizeof numbers), "the answers of a sheet differ");
    const size_t shared = steps;
    for (int round = 0; round < ROUNDS; round++) {
        TIME(together, 1e3, speak_sheet(loaded, length))
        TIME(lot, 1e3, speak_lot(loaded, length))
        TIME(one_by_one, 1e3, speak_singly(loaded, length))
    }
    printf("| %s | %.1f µs | %.1f µs | %.1f µs | %.2f | %zu | %zu |\n", what, together, lot, one_by_one, together / lot, shared, singly);
}

/* By the Basque rules, written out. No slower than many at once is the aim where names begin alike. */
static void sheet_rows(void)
{
    char what[80];
    load(&written, "examples/basque.hex");
    printf("\n| %d names, %u rules | the sheet | many at once | one by one | sheet to many | steps of the sheet | steps one by one |\n",
           PIRROZKETA_SHEET_NAMES, (unsigned)written.base.count);
    printf("|---|---|---|---|---|---|---|\n");
    for (int words = 1; words <= 2; words++) {
        size_t length = names_alike(words == 1 ? "" : " ");
        snprintf(what, sizeof what, "%d beginnings, %d endings, %.1f bytes, %s", BEGINNINGS, ENDINGS,
                 (double)(length - PIRROZKETA_SHEET_NAMES) / PIRROZKETA_SHEET_NAMES, words == 1 ? "one word" : "two words");
        sheet_row(what, &written, length);
    }
    sheet_row("random, 9 letters", &written, random_names(9));
    sheet_row("random, 64 letters", &written, random_names(PIRROZKETA_NAME));
}

/* Given a folder with what bench/italian.py makes, Italian names too. */
int main(int argc, char **argv)
{
    double mine, base, check;

    accept(pirrozketa_list_clear(list, PIRROZKETA_LIST), "no empty list");
    printf("| work | library | baseline | ratio |\n|---|---|---|---|\n");
    srand(7);
    rules(320, 0);
    size_t length = draw_names(320);
    build();
    base_build(&rs, base_words, base_sets);
    must(!memcmp(words, base_words, words_needed() * sizeof *words), "the tables differ");
    must(!memcmp(sets, base_sets, sets_needed() * sizeof *sets), "the sets differ");
    many(length);
    base_many();
    compare(NAMES);
    for (double start = now(); now() - start < 3e8;)    /* until the processor runs at its speed */
        many(length);
    PAIR(mine, base, NAMES, many(length), base_many());
    row("(a) a name, many at once, 320 rules", mine, base);
    const double many_320 = mine, base_320 = base;

    PAIR(mine, base, 1, build(), base_build(&rs, base_words, base_sets));
    row("(c) build, 320 rules", mine, base);
    size_t least_words = words_needed(), least_sets = sets_needed();
    PAIR(mine, base, 1, build_in(least_words, least_sets), base_build(&rs, base_words, base_sets));
    row("(c) the same in the least memory, so that states are counted first", mine, base);

    PAIR(mine, base, NAMES,
         for (int k = 0; k < NAMES; k++)
             accept(pirrozketa_read_name(image, sizeof image, list, PIRROZKETA_LIST, names + starts[k] + 1, names[starts[k]],
                    said, sizeof said, by, PIRROZKETA_NUMBERS, &given, &applied, &contested), "a name is refused"),
         for (int k = 0; k < NAMES; k++) base_plain(&rs, names + starts[k] + 1, names[starts[k]], &spoken[k]));
    check = check_time();
    row("(d) plain reading, 320 rules, the check of the ruleset taken off; the baseline tries all rules", mine - check, base);
    row("(d) the same with the check of the ruleset; the baseline tries all rules", mine, base);

    rules(512, 0);
    length = draw_names(512);
    build();
    base_build(&rs, base_words, base_sets);
    checked_rows(512);

    rules(512, 1);
    char what[80];
    snprintf(what, sizeof what, "(f) read a file of %zu bytes", bytes);
    PAIR(mine, base, 1, accept(pirrozketa_read_file(file, bytes, back, sizeof back, &place), "the file is refused"),
         base_read(file, bytes, &again));
    row(what, mine, base);
    PAIR(mine, base, 1, accept(pirrozketa_write_file(image, sizeof image, other, sizeof other, &place), "no file"),
         base_write(&rs, other));
    row("(f) write it", mine, base);

    static const int sizes[] = { 16, 64, 256, 512 };
    double grown[4], base_grown[4];
    for (int k = 0; k < 4; k++) {
        rules(sizes[k], 0);
        length = draw_names(sizes[k]);
        build();
        base_build(&rs, base_words, base_sets);
        many(length);
        base_many();
        compare(NAMES);
        PAIR(grown[k], base_grown[k], NAMES, many(length), base_many());
        if (k == 0)
            checked_rows(sizes[k]);
    }
    PAIR(mine, base, NAMES, for (int k = 0; k < NAMES; k++) check_list(), (void)0);
    printf("| (b) the check of the empty list | %.1f ns | | |\n", mine);

    printf("\n| rules | a name, many at once | baseline | ratio |\n|---|---|---|---|\n");
    for (int k = 0; k < 4; k++) {
        if (k == 3)
            row("320, as (a)", many_320, base_320);
        snprintf(what, sizeof what, "%d", sizes[k]);
        row(what, grown[k], base_grown[k]);
    }
    printf("| growth, 16 to 512 | %.2f | %.2f | |\n", grown[3] / grown[0], base_grown[3] / base_grown[0]);

    printf("\n| the exceptions list | a listed name, many at once | judged (17) | a name replaced | a name of 64 letters added or removed | read out |\n");
    printf("|---|---|---|---|---|---|\n");
    list_rows(10, 8);
    list_rows(100, 8);
    list_rows(950, 8);
    list_rows(950, PIRROZKETA_LISTED_PHONES);

    /* drawn last, so that what is measured above is drawn as before */
    accept(pirrozketa_list_clear(list, PIRROZKETA_LIST), "no empty list");
    rules(320, 0);
    build();
    base_build(&rs, base_words, base_sets);
    printf("\n| %d bytes a name, many at once, 320 rules | eight words | one word | ratio |\n|---|---|---|---|\n", LONG);
    word_rows();
    real_rows("a Basque", "examples/basque_classes.hex", "examples/basque.hex", basque_names());
    if (argc > 1)
        italian_rows(argv[1]);
    check_rows();
    sheet_rows();
    return 0;
}
