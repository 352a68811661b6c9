/*
 * Pirrozketa: a ruleset that turns typed names into phones, and a list of names that follow no rule, in
 * memory that the host lends.
 *
 * ANSWERS. Every call but pirrozketa_version and those that count (pirrozketa_count, pirrozketa_last, pirrozketa_edits,
 * pirrozketa_list_names, pirrozketa_list_states) answers with a code: PIRROZKETA_ACCEPTED,
 * which is 255, or the number of the refusal, which may be 0. So test it by PIRROZKETA_OK(code), never as a
 * truth value; compilers warn where it is not looked at. A refusal has a place, and leaves all lent memory
 * as it was (a refused name among many, or on a sheet, has its reply written). The numbers that a call gives through
 * pointers are written in every case. What lies past the bytes, phones, numbers or words that a call gives
 * keeps its contents.
 *
 * TABLES. A ruleset has an edit count, which every accepted add, drop and move raises by one. pirrozketa_build writes it into
 * the tables; after any accepted add, drop or move a name that needs the tables is refusal 22 until they are built again,
 * however many edits follow: within one history the count only rises, and at 4,294,967,295 edits are refused with 23, so it
 * never comes round. A refused edit and pirrozketa_set_class leave the tables good; no rule uses the class that is set, so the
 * tables of the ruleset are the same words after it. Names that are listed whole or word by word do not look at the tables, and
 * pirrozketa_read_name uses none, so that both are right at once. What remains the host's business:
 *   - Tables of another history whose count is equal. After pirrozketa_clear and pirrozketa_read_file the count starts again at
 *     0, so tables of the ruleset that stood there before, or of another ruleset, with an equal count are not noticed: a name
 *     may then be spoken by rules that they choose wrongly. Build after every clear and every read of a file, and keep each ruleset's
 *     tables with it. An example: a file with the rules [z], [a] 61 and [x] 58 is read and its tables are built; then one with
 *     [a]x 62, [a] 61 and [x] 58 is read in its place. Both counts are 0. Not built again, "ax" is spoken 61 58; by the rules it
 *     is 62 58.
 *   - Memory that the host overwrites: of the ruleset, whose edit count may be any, or of the tables.
 *
 * NAMES. A name has up to 64 bytes: letters from 1, a, to 62, and 63, the space bar, which separates words. Each
 * word has boundaries of its own, so that a rule for the end of a word fits before a space too; two spaces in a
 * row, or one at an end, make a word of no letters. The phones of the words are joined in order, and so are the
 * rule numbers; places and rooms are those of the whole name. No rule may have 63.
 *
 * CLASSES. A symbol from 64 to 95 in a context stands for a class: a set of 1 to 32 letters that pirrozketa_set_class, or the
 * rule file, gives it. A rule with classes fits where each of them has the letter that stands there; it means as many literal
 * rules as there are ways to choose a letter for each, in the order in which the leftmost symbol varies slowest, letters
 * ascending, and all of them under its one number. At most 512 literal rules are held, of however many rules. Places of the list
 * count rules; tables and sets are over literal rules. A class may be set again only while no rule uses it, so what a
 * rule means never changes while it is held; drop the rules, set the class, add them again. No call takes a class away;
 * pirrozketa_clear and pirrozketa_read_file leave none but those of the file. The boundary is in no class.
 *
 * LIST. A name on the exceptions list is said from it, by pirrozketa_speak, pirrozketa_speak_many,
 * pirrozketa_speak_sheet and pirrozketa_read_name alike; else each of its words that is listed is said from it, and only the other words go
 * by the rules. What is listed gives no rule numbers and takes no steps; where that is all of the name, the tables
 * are not looked at. A listed name may have spaces. A host without exceptions lends an empty list. A change of the
 * list needs no build. Every call that is lent a list, pirrozketa_list_clear apart, judges all of it each time, and
 * pirrozketa_speak_many and pirrozketa_speak_sheet once for their names; that takes longer the more is listed (docs/SPEED.md).
 *
 * CONTESTED. At each letter that reading reaches, the first rule that fits is applied. Where more than one fits, the
 * letter is contested. The calls that speak a name count its contested letters, for those who write rules. Of a name that
 * was spoken, a count above 0 means that it leans on the order of the rules, and a rule that is moved may change its sound;
 * 0 means that the same rules in any order give the same phones. With a refusal the count is 0 as well and means nothing:
 * in another order the name may be spoken. What is said from the list reaches no letter and counts none. pirrozketa_read_name counts the
 * rules that fit. pirrozketa_speak, pirrozketa_speak_many and pirrozketa_speak_sheet count by the tables: a letter is contested where the sets of
 * its two states share more than one place. With the tables of the ruleset as it is, that is where more than one rule
 * fits; with others it need not be, since every shared place counts, of a rule that does not fit and past the rules too.
 *
 * MEMORY. Whatever the lent memory holds, every call ends and stays inside it: memory that is no ruleset is
 * refusal 0, and memory that is no list is 17; tables that are too short, that lead to a state or literal rule that is none, or to a
 * literal rule that does not fit, are refusal 16, and tables with another edit count 22. The host sees to this:
 *   - A slice is a pointer and its length in items. The pointer is aligned for its items and NOT NULL, also
 *     where the length is 0: to lend nothing, lend any array of the type with length 0.
 *   - A slice that a call writes (not const) overlaps no other slice of the call. Slices that it only reads
 *     (const) may overlap each other.
 *   - A pointer to a number that a call gives (place, bytes, given, applied, steps, contested, count, names) is NOT NULL, and
 *     points into no slice of the call and to no other number that it gives.
 *
 * THREADS. No call allocates, keeps a pointer or has any state of its own, so calls may run at the same
 * time. Memory that they only read may be shared: many threads may speak by one ruleset and its tables.
 * Memory that a call writes, the numbers that it gives included, is that call's alone until it returns.
 */
#ifndef PIRROZKETA_H
#define PIRROZKETA_H

#include <stddef.h>
#include <stdint.h>

/*
 * The version of this interface. MAJOR rises where a host has to change: a call is withdrawn or means
 * something else. MINOR rises where something is added. pirrozketa_version tells the version of the library that is linked,
 * which may be another than this header's; a host asks at its start:
 *     if (!PIRROZKETA_VERSION_FITS(pirrozketa_version())) ..
 * A library before 8.1 has no such call, and a host that asks does not link with it.
 * 8.2 has pirrozketa_speak_sheet and its refusal 24; all else is as it was.
 * 8.1 has pirrozketa_version.
 * 8.0 has contexts of at most 4 symbols, 6 before, and so other sizes. What a host has to change:
 *   - A rule to add has 20 bytes (24 before; so many are refusal 6 now): its target starts at 8 (10 before), its right context at 12
 *     (14), its phones at 16 (20). PIRROZKETA_TARGET_AT and the like are new, and so are names for the limits. A longer context is
 *     refusal 6.
 *   - A ruleset has 13,578 bytes (15,626 before), with slots of 22 (26). Lend none that 7.0 laid: its bytes mean something else now,
 *     and it need not be refused. Write its file by 7.0, read that file by 8.0, and build.
 *   - Tables need up to 393,348 words and 49,168 set words (524,420 and 65,552 before). More may be lent, as before.
 *   - A rule file has up to 27,439 bytes (31,535 before). One with a context of 5 or 6 symbols, which 7.0 read and wrote, is refusal
 *     14 at the line of that rule: shorten the context or drop the rule. All other rule files read as they did.
 * 7.0 has the edit count: a ruleset has 15,626 bytes (15,622 before), with the slots and all after them 4 bytes further on; tables
 * have 2 words more, before L, and so up to 524,420; lend none of either that were kept from before, but read the file and build. A
 * name gives refusal 22 where the tables were built before an edit, by which it was spoken before; add, drop and move can give 23;
 * pirrozketa_edits is new. Rule files are as they were.
 * 6.0 has letter classes: a ruleset has 15,622 bytes (13,316 before), a rule file
 * up to 31,535 (29,199 before), and a file written before reads as it did; 64 to 95 in a context is refusal 20 where it was 6;
 * over 512 rules is refusal 21 where it was 9, which is none any more. 5.0 counts contested letters: pirrozketa_read_name and
 * pirrozketa_speak have a parameter more, the last, and a reply of pirrozketa_speak_many has a fifth number. 4.0 takes 63
 * for the space between the words of a name: rules and rule files with it are refused, and a name can give more phones,
 * since each of its words may be listed. 3.0 lends the exceptions list to pirrozketa_read_name, pirrozketa_speak and
 * pirrozketa_speak_many, after the ruleset. 2.0 withdrew pirrozketa_load of 1.0, which could refuse after it had replaced
 * the ruleset: call pirrozketa_read_file, look at its code, then pirrozketa_build.
 */
#define PIRROZKETA_VERSION_MAJOR 8
#define PIRROZKETA_VERSION_MINOR 2
#define PIRROZKETA_VERSION (256 * PIRROZKETA_VERSION_MAJOR + PIRROZKETA_VERSION_MINOR)

/* Whether a library of that version has all that this header tells: the same MAJOR, and no lower MINOR. */
#define PIRROZKETA_VERSION_FITS(version) \
    ((version) / 256 == PIRROZKETA_VERSION_MAJOR && (version) % 256 >= PIRROZKETA_VERSION_MINOR)

/* The library is compiled for x86-64 Linux, with the calling convention of System V, and its lengths are numbers of 8 bytes. This
   header needs C11 or C++11; host/build compiles it as C11 and as C++17. */
#if !defined(__x86_64__) || defined(_WIN32)
#error "the Pirrozketa library is for x86-64 Linux, System V, only"
#endif
#ifdef __cplusplus
static_assert(sizeof(size_t) == 8, "the Pirrozketa library has lengths of 8 bytes");
#else
_Static_assert(sizeof(size_t) == 8, "the Pirrozketa library has lengths of 8 bytes");
#endif

/* A code must be looked at: 0 is a refusal, against C's habit. */
#define PIRROZKETA_OK(code) ((code) == PIRROZKETA_ACCEPTED)
#if defined(__cplusplus) && __cplusplus >= 201703L
#define PIRROZKETA_MUST_CHECK [[nodiscard]]
#elif defined(__GNUC__)
#define PIRROZKETA_MUST_CHECK __attribute__((warn_unused_result))
#else
#define PIRROZKETA_MUST_CHECK
#endif

#ifdef __cplusplus
extern "C" {
#endif

/* The refusals, in the order of documents 01 and 02; 9 is none any more. A call gives only those named with it. */
enum {
    PIRROZKETA_NOT_RULESET = 0,   /* the memory is none: under PIRROZKETA_IMAGE bytes, over 512 literal rules, a broken rule
                                     or class, an undefined one in use, numbers that are equal or not from 1 to `last`,
                                     a literal total or table that is not theirs; place 0 */
    PIRROZKETA_NAME_BYTE = 1,     /* the name has a byte outside 01 to 3F; place: the first, counted from 0 */
    PIRROZKETA_NAME_LENGTH = 2,   /* the name has over 64 bytes; place 0 */
    PIRROZKETA_NO_FIT = 3,        /* no rule fits at a letter that reading reaches; place: its position in the whole
                                     name, from 1 */
    PIRROZKETA_PHONES_ROOM = 4,   /* too few bytes lent for the phones; place: bytes that the whole name needs */
    PIRROZKETA_NUMBERS_ROOM = 5,  /* too few numbers lent for the rules applied; place: numbers that it needs */
    PIRROZKETA_SHAPE = 6,         /* the added rule breaks the shape, as a context over PIRROZKETA_CONTEXT, 63 in it or a class
                                     in its target does, or is not PIRROZKETA_RULE bytes; place 0 */
    PIRROZKETA_PLACE = 7,         /* the place lies beyond the list; place 0 */
    PIRROZKETA_NO_NUMBER = 8,     /* no rule has the number; place 0 */
    PIRROZKETA_LAST_ISSUED = 10,  /* `last` is 65,535; place 0 */
    PIRROZKETA_WORDS_ROOM = 11,   /* too few words lent for the tables, or too few zero words for the tree of a sheet; place:
                                     words needed */
    PIRROZKETA_SETS_ROOM = 12,    /* too few set words lent, or too few zero words for the kept parts of a sheet; place: words
                                     needed */
    PIRROZKETA_BAD_LINE = 13,     /* a line of the file is missing, not ended, no sound frame; place: its start */
    PIRROZKETA_BAD_TEXT = 14,     /* a sound line that breaks the file's rules, or bytes after the last; place: its start */
    PIRROZKETA_FILE_ROOM = 15,    /* too few bytes lent for the file or the read-out, or too few numbers for the replies to a
                                     sheet; place: bytes or numbers needed */
    PIRROZKETA_BAD_TABLES = 16,   /* words and set words are no usable tables; place 0 */
    PIRROZKETA_BAD_LIST = 17,     /* the memory is no list; or the added name has no letters, or its phones are none,
                                     over 64, or one of them 00; place 0 */
    PIRROZKETA_NOT_LISTED = 18,   /* the name to remove is not listed; place 0 */
    PIRROZKETA_LIST_FULL = 19,    /* over 1,000 names or 4,096 states after the change; place 0 */
    PIRROZKETA_BAD_CLASS = 20,    /* the class has a symbol outside 64 to 95, no letters, over 32, letters outside 1 to 62 or
                                     not strictly ascending, or is in use; or the added rule uses one that is undefined;
                                     place 0 */
    PIRROZKETA_FULL = 21,         /* over 512 literal rules after the addition; place 0 */
    PIRROZKETA_STALE_TABLES = 22, /* the tables have another edit count than the ruleset; place 0 */
    PIRROZKETA_EDITS_SPENT = 23,  /* the edit count is 4,294,967,295; place 0 */
    PIRROZKETA_BAD_SHEET = 24,    /* the sheet has more than 256 names, or its last name is cut short; place 0 */
    PIRROZKETA_ACCEPTED = 255
};

/* Limits, and the sizes that follow from them; what a formula comes to stands first in its comment. */
enum {
    /* Limits of a rule's parts. A longer part is refusal 6 where the rule is added, 14 in a file, 0 in memory that is lent. */
    PIRROZKETA_CONTEXT = 4,         /* symbols of a left context, and of a right one */
    PIRROZKETA_TARGET = 4,          /* letters of a target */
    PIRROZKETA_RULE_PHONES = 4,     /* phones of a rule */

    /* Other limits. */
    PIRROZKETA_RULES = 512,         /* literal rules of a ruleset, and so rules */
    PIRROZKETA_CLASSES = 32,        /* classes of a ruleset */
    PIRROZKETA_CLASS = 32,          /* letters of a class */
    PIRROZKETA_NAME = 64,           /* bytes of a name; a longer one is refusal 2 */
    PIRROZKETA_LISTED_PHONES = 64,  /* phones of a listed name */
    PIRROZKETA_SHEET_NAMES = 256,   /* names of a sheet */

    /* A rule to add: the lengths of left context, target, right context and phones, 1 byte each, then these, from here on: */
    PIRROZKETA_LEFT_AT = 4,
    PIRROZKETA_TARGET_AT = PIRROZKETA_LEFT_AT + PIRROZKETA_CONTEXT,             /* 8 */
    PIRROZKETA_RIGHT_AT = PIRROZKETA_TARGET_AT + PIRROZKETA_TARGET,             /* 12 */
    PIRROZKETA_PHONES_AT = PIRROZKETA_RIGHT_AT + PIRROZKETA_CONTEXT,            /* 16 */

    /* Exact sizes. */
    PIRROZKETA_RULE = PIRROZKETA_PHONES_AT + PIRROZKETA_RULE_PHONES,            /* 20: bytes of a rule to add */
    PIRROZKETA_REPLY = 5,           /* numbers of a reply in pirrozketa_speak_many and pirrozketa_speak_sheet */

    /* The least to lend. More may be lent, and is not looked at. */
    PIRROZKETA_IMAGE = 8 + PIRROZKETA_RULES * (2 + PIRROZKETA_RULE) + 8 * PIRROZKETA_CLASSES + 2 + 4 * PIRROZKETA_RULES,
                                    /* 13,578: bytes of a ruleset */
    PIRROZKETA_LIST = 35886,        /* words of 32 bits of a list: 143,544 bytes, for the largest */

    /* The most that is ever needed. Less may be lent: a call for which it is too little says what it needs. */
    PIRROZKETA_LEFT_STATES = 1 + PIRROZKETA_RULES * PIRROZKETA_CONTEXT,
                                    /* 2,049: L, the states of the left table */
    PIRROZKETA_RIGHT_STATES = 1 + PIRROZKETA_RULES * (PIRROZKETA_TARGET + PIRROZKETA_CONTEXT),
                                    /* 4,097: R, the states of the right table */
    PIRROZKETA_WORDS = 4 + 64 * (PIRROZKETA_LEFT_STATES + PIRROZKETA_RIGHT_STATES),
                                    /* 393,348: words of 16 bits, 4 and 64 for each state */
    PIRROZKETA_SETS = 8 * (PIRROZKETA_LEFT_STATES + PIRROZKETA_RIGHT_STATES),
                                    /* 49,168: set words of 64 bits, 8 for each state */
    PIRROZKETA_PHONES = 2048,       /* phones that one name can give, by 32 words of one letter, each listed with 64 phones; by
                                       rules alone 256 */
    PIRROZKETA_NUMBERS = 64,        /* rules that one name can apply */
    PIRROZKETA_FILE = 15 + PIRROZKETA_CLASSES * (2 * (4 + PIRROZKETA_CLASS) + 1) + PIRROZKETA_RULES * (2 * (4 + PIRROZKETA_RULE) + 1),
                                    /* 27,439: bytes of the longest rule file: the head, then a line for each class and rule */
    PIRROZKETA_READ_OUT = 130000,   /* bytes of the longest read-out */
    PIRROZKETA_TREE = 4 * (1 + PIRROZKETA_SHEET_NAMES * (PIRROZKETA_NAME + 1)),
                                    /* 66,564: words of 16 bits in which a sheet's prefixes are kept; for a sheet of fewer bytes,
                                       n, 4 (1 + n) are enough */
    PIRROZKETA_KEPT = PIRROZKETA_SHEET_NAMES * (PIRROZKETA_NAME + 1) + PIRROZKETA_NAME + 2
                                    /* 16,706: words of 32 bits in which what was read of a sheet's names is kept; for a sheet of
                                       fewer bytes, n, n + 66 are enough */
};

/*
 * Stack: no call uses more than 32,768 bytes, to which host/build holds what host/stack.c measures with 512
 * rules, a name of several words, 64 bytes, and lists of long names. In bytes: version, clear, count, last, edits,
 * list_clear none to speak of; check 8,296; set_class 8,328; drop 8,328; move 8,392; add 8,488; read_file 8,888; write_file
 * 8,920; build 13,032; list_check 16,464; list_states 16,480; list_read_out 16,624; speak 16,736; speak_many
 * 16,752; read_name 17,216; speak_sheet 19,504; list_names 24,688; list_remove 31,192; list_add 31,248.
 */

/* ---- the version */

/* That of the library that is linked: 256 * MAJOR + MINOR, as PIRROZKETA_VERSION is this header's. */
uint16_t pirrozketa_version(void);

/* ---- the ruleset: `image` is PIRROZKETA_IMAGE bytes or more. Tables built before an add, drop or move are old. */

/*
 * Its layout, all numbers high byte first:
 *        0  the rule count (2 bytes), `last` (2), the edit count (4)
 *        8  512 slots of 22 bytes in the order of the rules: number (2), then the rule as it is added (20)
 *   11,272  the 32 classes 64 to 95, 8 bytes each: bit c of the number is set where letter c is in the class; 0 is undefined
 *   11,528  how many literal rules there are (2)
 *   11,530  512 places of 4 bytes, one for each literal rule in order: the place of its rule in the list (2), and which of
 *           that rule's literal rules it is, from 0 (2)
 * Bytes past a length mean nothing: an added rule keeps what was handed in, a rule that was read has zeros. Slots past the
 * count and places past the literal rules mean nothing and keep what they held. The same rules may have come about by other
 * edits. So compare rulesets by their files, not by these bytes. The calls keep the literal rules in step with the rest; a host
 * that writes these bytes itself has to, or every call refuses them with 0. Any edit count is one.
 */

/* Makes the memory, whatever it holds, the empty ruleset with `last` 0, edit count 0 and no classes; build the tables next.
   Refusal 0 where it is too short. */
PIRROZKETA_MUST_CHECK
uint8_t pirrozketa_clear(uint8_t *image, size_t image_len);

/* Whether the memory is a ruleset: accepted, or refusal 0. */
PIRROZKETA_MUST_CHECK
uint8_t pirrozketa_check(const uint8_t *image, size_t image_len);

/* The rule count that stands in the memory, and `last`, the last number issued. They are meant for a
   ruleset; memory too short for one gives 0. After an accepted add, `last` is the number it gave. */
uint16_t pirrozketa_count(const uint8_t *image, size_t image_len);
uint16_t pirrozketa_last(const uint8_t *image, size_t image_len);

/* The edit count that stands in the memory: how many additions, drops and moves were accepted since it was cleared or
   read from a file. Memory too short for a ruleset gives 0. */
uint32_t pirrozketa_edits(const uint8_t *image, size_t image_len);

/* Adds a rule before place p, counted from 0; p equal to the count puts it at the end. The rule is PIRROZKETA_RULE bytes: the
   lengths of left context, target, right context and phones (1 byte each), then the left context from PIRROZKETA_LEFT_AT, the
   target from PIRROZKETA_TARGET_AT, the right context from PIRROZKETA_RIGHT_AT and the phones from PIRROZKETA_PHONES_AT on.
   *place: the refusal's place, or 0. Refusals 0, 6, 20 (a class that is undefined), 7, 21, 10, 23. */
PIRROZKETA_MUST_CHECK
uint8_t pirrozketa_add(uint8_t *image, size_t image_len, const uint8_t *rule, size_t rule_len, size_t p, size_t *place);

/* Drops the rule with the number. *place as above. Refusals 0, 8, 23. */
PIRROZKETA_MUST_CHECK
uint8_t pirrozketa_drop(uint8_t *image, size_t image_len, uint16_t number, size_t *place);

/* Takes the rule with the number out and puts it before place p of the rest; where that is its own place, it counts as an edit all
   the same. Refusals 0, 8, 7, 23. */
PIRROZKETA_MUST_CHECK
uint8_t pirrozketa_move(uint8_t *image, size_t image_len, uint16_t number, size_t p, size_t *place);

/* Gives the class of a symbol, 64 to 95, these letters, 1 to 32 of them, strictly ascending, in place of those that it had. `last`
   and the edit count stay, and the tables stay good (TABLES above). *place as above. Refusals 0, 20 (a fault of the class, or a rule
   uses it). */
PIRROZKETA_MUST_CHECK
uint8_t pirrozketa_set_class(uint8_t *image, size_t image_len, uint8_t symbol, const uint8_t *letters, size_t letters_len,
                             size_t *place);

/* ---- the rule file */

/* Reads a rule file, its classes too, into the memory, whatever it holds; the edit count, which no file has, is then 0. Build the
   tables next. *place: the refusal's place, or 0. Refusals 0 (memory too short), 13, 14. */
PIRROZKETA_MUST_CHECK
uint8_t pirrozketa_read_file(const uint8_t *file, size_t file_len, uint8_t *image, size_t image_len, size_t *place);

/* Writes the rule file. *bytes: the bytes written, or the refusal's place. Refusals 0, 15. */
PIRROZKETA_MUST_CHECK
uint8_t pirrozketa_write_file(const uint8_t *image, size_t image_len, uint8_t *out, size_t out_len, size_t *bytes);

/* ---- the exceptions list: `list` is PIRROZKETA_LIST words or more. Up to 1,000 names of 1 to 64 letters and spaces, each
   with 1 to 64 phones, kept as the smallest automaton that says them, of at most 4,096 states. */

/*
 * Its layout is the library's own, and two lists that say the same may differ in their words: compare lists by
 * their read-out. States share endings, so that a change may need fewer or more of them: 19 can follow any change,
 * a removal too.
 * To keep a list, on a card say, keep its words: a read-out can only be listed again name by name. They hold no addresses:
 * copied anywhere, they are the same list. They are numbers in the machine's own byte order, here the low byte first. The first
 * list[list[4199] + 1] words are enough, 4,200 for the empty list and never over 30,296; lend PIRROZKETA_LIST words all the
 * same, of which the others may hold anything. pirrozketa_list_check refuses what is no list, but words that were damaged may by chance
 * be another list: keep a checksum of your own with them. Lists of all versions from 3.0 on are taken, and have the same
 * layout; what 3.0 listed with letter 63 has a space there since 4.0.
 */

/* Makes the memory, whatever it holds, the empty list. Refusal 17 where it is too short. */
PIRROZKETA_MUST_CHECK
uint8_t pirrozketa_list_clear(uint32_t *list, size_t list_len);

/* Whether the memory is a list: accepted, or refusal 17. Its time grows with the list (docs/SPEED.md). */
PIRROZKETA_MUST_CHECK
uint8_t pirrozketa_list_check(const uint32_t *list, size_t list_len);

/* How many names are listed, and how many states they take, the start counted: 1 for the empty list. Both 0
   where the memory is no list. */
uint16_t pirrozketa_list_names(const uint32_t *list, size_t list_len);
uint16_t pirrozketa_list_states(const uint32_t *list, size_t list_len);

/* Adds a name with its phones; a listed name gets these instead of its own. *place: the refusal's place, or 0.
   Refusals 17 (the list), 2, 1, 17 (the entry), 19. */
PIRROZKETA_MUST_CHECK
uint8_t pirrozketa_list_add(uint32_t *list, size_t list_len, const uint8_t *name, size_t name_len,
                            const uint8_t *phones, size_t phones_len, size_t *place);

/* Removes a listed name. *place as above. Refusals 17, 2, 1, 18, 19. */
PIRROZKETA_MUST_CHECK
uint8_t pirrozketa_list_remove(uint32_t *list, size_t list_len, const uint8_t *name, size_t name_len, size_t *place);

/* Writes every listed name once, in letter order, a name before its continuations: its length (1 byte), its
   letters, its phone count (1 byte), its phones. *bytes: the bytes written, or the refusal's place. Refusals 17, 15. */
PIRROZKETA_MUST_CHECK
uint8_t pirrozketa_list_read_out(const uint32_t *list, size_t list_len, uint8_t *out, size_t out_len, size_t *bytes);

/* ---- the tables */

/* Builds the tables of the ruleset as it is now: build again after every add, drop and move, every clear and every read of a file
   (TABLES above). The words are the ruleset's edit count, high word first, the state counts L and R, then L rows of 64 and R rows
   of 64. Lend no words to learn how many are needed, by refusal 11; the pointer is not null all the same. *place: the refusal's
   place, or 0. Refusals 0, 11, 12. */
PIRROZKETA_MUST_CHECK
uint8_t pirrozketa_build(const uint8_t *image, size_t image_len, uint16_t *words, size_t words_len, uint64_t *sets,
                         size_t sets_len, size_t *place);

/* ---- names: letters from 1, a, to 62, and 63, the space; phones from 1 to 255 */

/* Reads a name from the list, or else its words in turn, from the list or by trying the rules in order, without tables.
   *given: the phones given, or the refusal's place; *applied: the rule numbers given; *contested: how many of the letters
   reached had more than one rule that fits; these two are 0 with a refusal and where all is listed. Refusals 0, 17, 2, 1;
   for a listed name 4 alone; else 3, 4, 5. */
PIRROZKETA_MUST_CHECK
uint8_t pirrozketa_read_name(const uint8_t *image, size_t image_len, const uint32_t *list, size_t list_len,
                             const uint8_t *name, size_t name_len, uint8_t *phones, size_t phones_len,
                             uint16_t *numbers, size_t numbers_len, size_t *given, size_t *applied,
                             size_t *contested);

/* Speaks a name from the list, or else its words, from the list or by the tables. *given and *applied as above; *steps:
   the table entries looked up, of a word that is not listed two for each letter and two more: 2 n + 2 for a name of n
   bytes without a listed word, 0 where all is listed and with the refusals 0, 17, 1, 2, 16 and 22; *contested: at how many of
   the letters reached the sets of the two states share more than one place (CONTESTED above), 0 with a refusal and where
   all is listed. Refusals 0, 17, 2, 1; for a listed name 4 alone; else, where a word is not listed, 16 for tables too
   short, 22 for another edit count than the ruleset's, 16 for the passes of all such words, then 3 or 16 at each letter that is
   reached; 4, 5. */
PIRROZKETA_MUST_CHECK
uint8_t pirrozketa_speak(const uint8_t *image, size_t image_len, const uint32_t *list, size_t list_len,
                         const uint16_t *words, size_t words_len, const uint64_t *sets, size_t sets_len,
                         const uint8_t *name, size_t name_len, uint8_t *phones, size_t phones_len, uint16_t *numbers,
                         size_t numbers_len, size_t *given, size_t *applied, size_t *steps, size_t *contested);

/* Speaks many names, with the ruleset and the list checked once. `names` has each name after a byte that says its
   length, so of 255 bytes at most. The reply to the k-th name stands at replies[5 k]: its code, the phones
   given or the place, the numbers given, the steps, the contested letters, as pirrozketa_speak gives them with
   the room that the names before it left. Its phones and numbers follow those of the names before it; a refused name takes
   none. A reply does not say whose it is: keep the k-th name beside it. *count: how many names were
   answered, which ends at a name that is cut off or has no room for its reply. Refusal 0 or 17 once for all,
   with *count 0 and nothing written. */
PIRROZKETA_MUST_CHECK
uint8_t pirrozketa_speak_many(const uint8_t *image, size_t image_len, const uint32_t *list, size_t list_len,
                              const uint16_t *words, size_t words_len, const uint64_t *sets, size_t sets_len,
                              const uint8_t *names, size_t names_len, uint8_t *phones, size_t phones_len,
                              uint16_t *numbers, size_t numbers_len, size_t *replies, size_t replies_len,
                              size_t *count);

/* Speaks the names of a sheet together, with the ruleset, the list and the tables checked once: up to PIRROZKETA_SHEET_NAMES
   names, each after a byte that says its length, the last one whole. Their words share the left pass: a beginning that several of
   them have, wherever they stand on the sheet, is looked up once. The reply to the k-th name stands at replies[5 k] as with
   pirrozketa_speak_many, its steps 0; phones and numbers likewise follow those of the names before, and a refused name takes none.
   So each name has the answer that pirrozketa_speak gives it in the room that the names before it left. *steps: the one count of
   the sheet, of the words that are not listed: the different beginnings of # and the word, # alone among them, and for each word
   its letters and one more. *names: how many names were answered, all of the sheet or none.
   `tree` and `kept` are memory to work in, which must be ZERO in its first 4 (1 + n) and n + 66 words, where n is the sheet's
   bytes, or 16,640 if that is less; it is zero again afterwards, whatever the answer is, so a host clears it once.
   Refusals of the whole sheet, with which nothing is written, *steps and *names are 0 and *place is the place: 24 before all else; 0;
   17; 11 for the tree, 12 for the kept parts, 15 for under 5 numbers a name for the replies, each with what is needed as place; then 16 or 22,
   the first that a name alone would get; the others, 2, 1, 3, 4 and 5, stand in the name's own reply.
   Take this call for names that begin alike, for the fewest steps, or where no name may be spoken by tables that fail at another; take
   pirrozketa_speak_many for names that share little, which it speaks faster, for steps name by name, or without memory to work in
   (docs/SPEED.md). */
PIRROZKETA_MUST_CHECK
uint8_t pirrozketa_speak_sheet(const uint8_t *image, size_t image_len, const uint32_t *list, size_t list_len,
                               const uint16_t *words, size_t words_len, const uint64_t *sets, size_t sets_len,
                               const uint8_t *sheet, size_t sheet_len, uint8_t *phones, size_t phones_len,
                               uint16_t *numbers, size_t numbers_len, size_t *replies, size_t replies_len,
                               uint16_t *tree, size_t tree_len, uint32_t *kept, size_t kept_len, size_t *place,
                               size_t *steps, size_t *names);

#ifdef __cplusplus
}
#endif

#endif
