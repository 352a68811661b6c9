/*
 * How much stack each call uses: it runs in a thread whose stack is painted, and what it changed is
 * counted, less what a call that does nothing changes. Fails where a call uses over LIMIT bytes, or is
 * refused, since it is then not measured whole. Built and run by host/build.
 */
#define _XOPEN_SOURCE 700       /* for pthread_attr_setstack */
#include "pirrozketa.h"

#include <pthread.h>
#include <stdio.h>
#include <stdlib.h>
#include <string.h>

enum { LIMIT = 32768, STACK = 1 << 20, PAGE = 4096, PAINT = 0xA5, RULES = PIRROZKETA_RULES, CLASS = 64 };

static uint8_t image[PIRROZKETA_IMAGE], copy[PIRROZKETA_IMAGE], file[PIRROZKETA_FILE];
static uint32_t list[PIRROZKETA_LIST], full[PIRROZKETA_LIST];
static uint8_t out[PIRROZKETA_READ_OUT], letters[PIRROZKETA_CLASS];
static uint16_t words[PIRROZKETA_WORDS], numbers[PIRROZKETA_NUMBERS], tree[PIRROZKETA_TREE];
static uint32_t kept[PIRROZKETA_KEPT];
static uint64_t sets[PIRROZKETA_SETS];
static uint8_t names[1 + PIRROZKETA_NAME], *name = names + 1, phones[PIRROZKETA_PHONES];
static size_t place, given, applied, steps, contested, count, bytes, states, replies[PIRROZKETA_REPLY];

/* Of one letter, a, and as many phones as there may be: the last of the 512 rules, and the one that is added. */
static uint8_t rule[PIRROZKETA_RULE] = { 0, 1, 0, PIRROZKETA_RULE_PHONES };

static uint8_t nothing(void) { return PIRROZKETA_ACCEPTED; }
static uint8_t version(void) { return pirrozketa_version() == PIRROZKETA_VERSION ? PIRROZKETA_ACCEPTED : 0; }
static uint8_t clear(void) { return pirrozketa_clear(copy, sizeof copy); }
static uint8_t check(void) { return pirrozketa_check(image, sizeof image); }
static uint8_t count_rules(void) { return pirrozketa_count(image, sizeof image) == RULES ? PIRROZKETA_ACCEPTED : 0; }
static uint8_t last(void) { return pirrozketa_last(image, sizeof image) == RULES ? PIRROZKETA_ACCEPTED : 0; }
static uint8_t edits(void) { return pirrozketa_edits(image, sizeof image) == RULES ? PIRROZKETA_ACCEPTED : 0; }
static uint8_t drop(void) { return pirrozketa_drop(copy, sizeof copy, 1, &place); }
static uint8_t add(void) { return pirrozketa_add(copy, sizeof copy, rule, sizeof rule, 0, &place); }
static uint8_t move_rule(void) { return pirrozketa_move(copy, sizeof copy, RULES, 0, &place); }
static uint8_t write_file(void) { return pirrozketa_write_file(image, sizeof image, file, sizeof file, &bytes); }
static uint8_t read_file(void) { return pirrozketa_read_file(file, bytes, copy, sizeof copy, &place); }
static uint8_t build(void)
{
    return pirrozketa_build(image, sizeof image, words, PIRROZKETA_WORDS, sets, PIRROZKETA_SETS, &place);
}
static uint8_t build_least(void)
{
    states = (size_t)words[2] + words[3];
    return pirrozketa_build(image, sizeof image, words, 4 + 64 * states, sets, 8 * states, &place);
}
static uint8_t list_clear(void) { return pirrozketa_list_clear(full, PIRROZKETA_LIST); }
static uint8_t list_check(void) { return pirrozketa_list_check(list, PIRROZKETA_LIST); }
static uint8_t list_names(void) { return pirrozketa_list_names(list, PIRROZKETA_LIST) ? PIRROZKETA_ACCEPTED : 0; }
static uint8_t list_states(void) { return pirrozketa_list_states(list, PIRROZKETA_LIST) ? PIRROZKETA_ACCEPTED : 0; }
static uint8_t list_add(void)
{
    return pirrozketa_list_add(list, PIRROZKETA_LIST, name, PIRROZKETA_NAME, phones, PIRROZKETA_LISTED_PHONES, &place);
}
static uint8_t list_remove(void)
{
    return pirrozketa_list_remove(list, PIRROZKETA_LIST, name, PIRROZKETA_NAME, &place);
}
/* One name more than the states have room for: what the change wrote is taken back. */
static uint8_t list_full(void)
{
    uint8_t code = pirrozketa_list_add(full, PIRROZKETA_LIST, name, PIRROZKETA_NAME, phones, PIRROZKETA_LISTED_PHONES, &place);
    return code == PIRROZKETA_LIST_FULL ? PIRROZKETA_ACCEPTED : 0;
}
static uint8_t list_read_out(void) { return pirrozketa_list_read_out(list, PIRROZKETA_LIST, out, sizeof out, &bytes); }
static uint8_t read_name(void)
{
    return pirrozketa_read_name(image, sizeof image, list, PIRROZKETA_LIST, name, PIRROZKETA_NAME, phones, sizeof phones, numbers,
                                PIRROZKETA_NUMBERS, &given, &applied, &contested);
}
static uint8_t speak(void)
{
    return pirrozketa_speak(image, sizeof image, list, PIRROZKETA_LIST, words, PIRROZKETA_WORDS, sets, PIRROZKETA_SETS, name,
                            PIRROZKETA_NAME, phones, sizeof phones, numbers, PIRROZKETA_NUMBERS, &given, &applied, &steps,
                            &contested);
}
static uint8_t speak_many(void)
{
    return pirrozketa_speak_many(image, sizeof image, list, PIRROZKETA_LIST, words, PIRROZKETA_WORDS, sets,
                                 PIRROZKETA_SETS, names, sizeof names, phones, sizeof phones, numbers, PIRROZKETA_NUMBERS, replies,
                                 PIRROZKETA_REPLY, &count);
}

static uint8_t speak_sheet(void)
{
    return pirrozketa_speak_sheet(image, sizeof image, list, PIRROZKETA_LIST, words, PIRROZKETA_WORDS, sets,
                                  PIRROZKETA_SETS, names, sizeof names, phones, sizeof phones, numbers, PIRROZKETA_NUMBERS, replies,
                                  PIRROZKETA_REPLY, tree, PIRROZKETA_TREE, kept, PIRROZKETA_KEPT, &place, &steps, &count);
}

static uint8_t set_class(void) { return pirrozketa_set_class(copy, sizeof copy, CLASS + 1, letters, sizeof letters, &place); }

/* In this order: `add` has room after `drop`, `read_file` reads what `write_file` wrote, `build_least` needs the counts. */
static const struct { const char *name; uint8_t (*call)(void); } calls[] = {
    { "version", version }, { "clear", clear }, { "check", check }, { "count", count_rules }, { "last", last }, { "edits", edits },
    { "drop", drop }, { "add", add }, { "move", move_rule }, { "set_class", set_class }, { "write_file", write_file }, { "read_file", read_file },
    { "build", build }, { "build, least", build_least }, { "list_check", list_check }, { "list_names", list_names },
    { "list_states", list_states }, { "list_add", list_add }, { "list_read_out", list_read_out },
    { "list_remove", list_remove }, { "list_full", list_full }, { "list_clear", list_clear }, { "read_name", read_name },
    { "speak", speak }, { "speak_many", speak_many }, { "speak_sheet", speak_sheet }
};

struct task { uint8_t (*call)(void); uint8_t code; };

static void *run(void *given_task)
{
    struct task *task = (struct task *)given_task;
    task->code = task->call();
    return NULL;
}

static void must(int holds, const char *what)
{
    if (!holds) {
        fprintf(stderr, "stack: %s\n", what);
        exit(1);
    }
}

/* The bytes of a thread's stack that are used where it makes the call. */
static size_t used(uint8_t (*call)(void), uint8_t *stack)
{
    struct task task = { call, 0 };
    pthread_attr_t attributes;
    pthread_t thread;
    size_t untouched = 0;
    memset(stack, PAINT, STACK);
    must(!pthread_attr_init(&attributes) && !pthread_attr_setstack(&attributes, stack, STACK)
         && !pthread_create(&thread, &attributes, run, &task) && !pthread_join(thread, NULL)
         && !pthread_attr_destroy(&attributes), "no thread");
    must(PIRROZKETA_OK(task.code), "a call is refused");
    while (untouched < STACK && stack[untouched] == PAINT)
        untouched++;
    return STACK - untouched;
}

/* Long names, as many as the states have room for. */
static void prepare_list(uint32_t *filled, size_t most)
{
    uint8_t long_name[PIRROZKETA_NAME], said[PIRROZKETA_LISTED_PHONES];
    must(PIRROZKETA_OK(pirrozketa_list_clear(filled, PIRROZKETA_LIST)), "no empty list");
    memset(said, 9, sizeof said);
    for (size_t k = 0; k < most; k++) {
        uint8_t code;
        for (size_t i = 0; i < sizeof long_name; i++)
            long_name[i] = (uint8_t)(1 + rand() % 63);
        code = pirrozketa_list_add(filled, PIRROZKETA_LIST, long_name, sizeof long_name, said, sizeof said, &place);
        if (code == PIRROZKETA_LIST_FULL)
            return;
        must(PIRROZKETA_OK(code), "a name is not listed");
    }
}

/* Words of a and the spaces between them, one word of no letters, and one that is listed: bb. */
static void prepare_name(void)
{
    static const size_t spaces[] = { 32, 40, 41, 48, 51 };
    names[0] = PIRROZKETA_NAME;
    memset(name, 1, PIRROZKETA_NAME);
    for (size_t k = 0; k < sizeof spaces / sizeof *spaces; k++)
        name[spaces[k]] = 63;
    name[49] = name[50] = 2;
    must(PIRROZKETA_OK(pirrozketa_list_add(list, PIRROZKETA_LIST, name + 49, 2, phones, PIRROZKETA_LISTED_PHONES, &place)),
         "a word is not listed");
}

/* 512 long rules with as many literal ones, since their class has one letter; the last fits every a of the name. */
static void prepare(void)
{
    for (size_t k = 0; k < sizeof letters; k++)
        letters[k] = (uint8_t)(1 + k);
    rule[PIRROZKETA_TARGET_AT] = 1;
    memset(rule + PIRROZKETA_PHONES_AT, 9, PIRROZKETA_RULE_PHONES);
    must(PIRROZKETA_OK(pirrozketa_clear(image, sizeof image)), "no empty ruleset");
    must(PIRROZKETA_OK(pirrozketa_set_class(image, sizeof image, CLASS, letters, 1, &place)), "no class");
    srand(1);
    for (size_t k = 0; k < RULES; k++) {
        uint8_t longest[PIRROZKETA_RULE] = { PIRROZKETA_CONTEXT, PIRROZKETA_TARGET, PIRROZKETA_CONTEXT, PIRROZKETA_RULE_PHONES };
        for (size_t i = PIRROZKETA_LEFT_AT; i < sizeof longest; i++)
            longest[i] = (uint8_t)(2 + rand() % 60);
        longest[PIRROZKETA_LEFT_AT] = CLASS;
        must(PIRROZKETA_OK(pirrozketa_add(image, sizeof image, k + 1 < RULES ? longest : rule, sizeof rule, k, &place)),
             "a rule is refused");
    }
    memcpy(copy, image, sizeof copy);
    memset(phones, 9, sizeof phones);
    prepare_list(list, 60);
    prepare_list(full, 1000);
    prepare_name();
}

int main(void)
{
    void *stack;
    size_t none, most = 0;
    must(!posix_memalign(&stack, PAGE, STACK), "no memory");
    prepare();
    used(nothing, (uint8_t *)stack);        /* what only the first thread of a process does is not measured */
    none = used(nothing, (uint8_t *)stack);
    for (size_t k = 0; k < sizeof calls / sizeof *calls; k++) {
        if (calls[k].call == drop)
            memcpy(copy, image, sizeof copy);
        size_t more = used(calls[k].call, (uint8_t *)stack);
        more = more > none ? more - none : 0;
        printf("%-13s %6zu bytes of stack\n", calls[k].name, more);
        most = more > most ? more : most;
    }
    free(stack);
    must(most <= LIMIT, "a call uses more than 32,768 bytes");
    must(most > 0, "nothing is measured");
    return 0;
}
