/*
 * The yardstick of the benchmark: the same tables, walk, plain reading and rule file as document 01,
 * written by hand in plain C, with document 02's names of several words, contested letters, letter classes and edit
 * count but without its exceptions list.
 * It trusts its caller: rulesets are valid, names are 1 to 63 in at most 64 bytes, memory is long enough
 * and tables are built, though perhaps before an edit. Only base_read judges what it is given, since a file comes from
 * outside.
 */
#ifndef BASELINE_H
#define BASELINE_H

#include <stddef.h>
#include <stdint.h>

enum {
    BASE_CONTEXT = 4,           /* symbols of a left context, and of a right one, at most */
    BASE_TARGET = 4,            /* letters of a target, at most */
    BASE_RULE_PHONES = 4,       /* phones of a rule, at most */
    BASE_PATTERN = BASE_TARGET + BASE_CONTEXT,                  /* 8: symbols of a right pattern, at most */
    BASE_RULES = 512,           /* literal rules, and so rules */
    BASE_NAME = 64,
    BASE_SYMBOLS = 64,
    BASE_LETTERS = 0x3E,        /* the highest letter */
    BASE_SPACE = 0x3F,          /* separates the words of a name */
    BASE_CLASS = 0x40,          /* the first class's symbol */
    BASE_CLASSES = 32,
    BASE_CLASS_LETTERS = 32,    /* of a class, at most */
    BASE_SET_WORDS = 8,         /* 512 bits */
    BASE_LEFT_STATES = 1 + BASE_RULES * BASE_CONTEXT,           /* 2,049: most states of the left side */
    BASE_RIGHT_STATES = 1 + BASE_RULES * BASE_PATTERN,          /* 4,097: of the right side */
    BASE_ROWS = 4,              /* words before the rows: the edit count, high word first, and the states of both sides */
    BASE_WORDS = BASE_ROWS + BASE_SYMBOLS * (BASE_LEFT_STATES + BASE_RIGHT_STATES),
    BASE_SETS = BASE_SET_WORDS * (BASE_LEFT_STATES + BASE_RIGHT_STATES),
    BASE_PHONES = BASE_RULE_PHONES * BASE_NAME,
    BASE_CLASS_FRAME = 3 + BASE_CLASS_LETTERS + 1,              /* bytes of the longest class line, its sum too */
    BASE_RULE_FRAME = 7 + BASE_CONTEXT + BASE_PATTERN + BASE_RULE_PHONES + 1,   /* of the longest rule line */
    BASE_FILE = 15 + BASE_CLASSES * (2 * BASE_CLASS_FRAME + 1) + BASE_RULES * (2 * BASE_RULE_FRAME + 1)
                                /* 27,439: longest rule file */
};

struct base_rule {
    uint16_t number;
    uint8_t left_len, target_len, right_len, phone_len;
    uint8_t left[BASE_CONTEXT], target[BASE_TARGET], right[BASE_CONTEXT], phones[BASE_RULE_PHONES];
};

/* Which rule's a literal rule is, and which of that rule's, from 0. */
struct base_literal {
    uint16_t place, which;
};

struct base_ruleset {
    uint16_t count, last, total;            /* of rules, numbers, literal rules */
    uint32_t edits;                         /* accepted additions, drops and moves */
    struct base_rule rules[BASE_RULES];
    uint64_t classes[BASE_CLASSES];         /* bit c: letter c is in the class; 0: undefined */
    struct base_literal literals[BASE_RULES];
};

/* Phones and rule numbers of a name, and its contested letters; position is 0, or that of the letter that no rule fits, in
   the whole name. */
struct base_spoken {
    uint32_t phone_count, rule_count, steps, position, contested;
    uint8_t phones[BASE_PHONES];
    uint16_t numbers[BASE_NAME];
};

/* Fills words and sets as document 01 lays them out; they have room for BASE_WORDS and BASE_SETS. */
void base_build(const struct base_ruleset *rs, uint16_t *words, uint64_t *sets);

/* The walk through built tables. Returns 0, or -1 with the position set; it is 0, with no steps, where the tables have another edit
   count than the ruleset. */
int base_walk(const struct base_ruleset *rs, const uint16_t *words, const uint64_t *sets,
              const uint8_t *name, size_t n, struct base_spoken *out);

/* The plain reading: tries all rules in order, since those that fit are counted. Returns 0, or -1 with the position set. */
int base_plain(const struct base_ruleset *rs, const uint8_t *name, size_t n, struct base_spoken *out);

/* Reads a rule file; its edit count is 0. Returns 0, or -1 for one that is none; rs is then undefined. */
int base_read(const uint8_t *text, size_t length, struct base_ruleset *rs);

/* Writes the rule file into BASE_FILE bytes. Returns its length. */
size_t base_write(const struct base_ruleset *rs, uint8_t *text);

#endif
