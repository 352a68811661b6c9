#include "baseline.h"

#include <string.h>

/* ---- Classes and literal rules ---- */

static int is_class(uint8_t symbol)
{
    return symbol >= BASE_CLASS && symbol < BASE_CLASS + BASE_CLASSES;
}

/* The set bits of a word, summed in pairs, fours and bytes: plain x86-64 has no instruction for it. */
static size_t ones(uint64_t word)
{
    word -= word >> 1 & 0x5555555555555555;
    word = (word & 0x3333333333333333) + (word >> 2 & 0x3333333333333333);
    word = (word + (word >> 4)) & 0x0F0F0F0F0F0F0F0F;
    return word * 0x0101010101010101 >> 56;
}

static size_t product(const struct base_ruleset *rs, const uint8_t *context, size_t length, size_t count)
{
    for (size_t i = 0; i < length; i++)
        if (is_class(context[i]))
            count *= ones(rs->classes[context[i] - BASE_CLASS]);
    return count;
}

/* How many literal rules a rule means; 0 where it uses a class that is undefined. */
static size_t literal_count(const struct base_ruleset *rs, const struct base_rule *r)
{
    return product(rs, r->right, r->right_len, product(rs, r->left, r->left_len, 1));
}

/* The letters of one context by the digits of `which`, of which its last class takes the lowest; gives the digits left. */
static size_t choose_letters(const struct base_ruleset *rs, uint8_t *context, size_t length, size_t which)
{
    for (size_t i = length; i > 0; i--)
        if (is_class(context[i - 1])) {
            uint64_t letters = rs->classes[context[i - 1] - BASE_CLASS];
            size_t count = ones(letters);
            for (size_t skip = which % count; skip > 0; skip--)
                letters &= letters - 1;
            context[i - 1] = (uint8_t)__builtin_ctzll(letters);
            which /= count;
        }
    return which;
}

static struct base_rule literal(const struct base_ruleset *rs, size_t at)
{
    struct base_rule r = rs->rules[rs->literals[at].place];
    size_t which = choose_letters(rs, r.right, r.right_len, rs->literals[at].which);
    choose_letters(rs, r.left, r.left_len, which);
    return r;
}

/* ---- Tables: one pattern automaton a side, as a full transition table ---- */

struct side {
    uint16_t *rows;             /* BASE_SYMBOLS entries a state */
    uint64_t *sets;
    size_t states;
};

static void new_state(struct side *s)
{
    memset(s->rows + BASE_SYMBOLS * s->states, 0, BASE_SYMBOLS * sizeof *s->rows);
    memset(s->sets + BASE_SET_WORDS * s->states, 0, BASE_SET_WORDS * sizeof *s->sets);
    s->states++;
}

/* Adds a pattern to the trie. State 0 is nobody's child, so entry 0 means none. */
static void insert(struct side *s, const uint8_t *pattern, size_t length, size_t place)
{
    size_t q = 0;
    for (size_t i = 0; i < length; i++) {
        uint16_t *entry = &s->rows[BASE_SYMBOLS * q + pattern[i]];
        if (*entry == 0) {
            *entry = (uint16_t)s->states;
            new_state(s);
        }
        q = *entry;
    }
    s->sets[BASE_SET_WORDS * q + place / 64] |= (uint64_t)1 << (place % 64);
}

/*
 * Breadth first, so that the row of a failure link, which is shallower, is complete when it is used:
 * what the trie lacks is taken from there, and so are the patterns that end inside.
 */
static void link_failures(struct side *s)
{
    uint16_t queue[BASE_RIGHT_STATES], fail[BASE_RIGHT_STATES];
    size_t head = 0, tail = 0;

    for (size_t c = 0; c < BASE_SYMBOLS; c++) {
        uint16_t child = s->rows[c];
        if (child != 0) {
            fail[child] = 0;
            queue[tail++] = child;
        }
    }
    while (head < tail) {
        size_t q = queue[head++], f = fail[q];
        uint16_t *row = s->rows + BASE_SYMBOLS * q;
        const uint16_t *below = s->rows + BASE_SYMBOLS * f;
        for (size_t c = 0; c < BASE_SYMBOLS; c++) {
            if (row[c] != 0) {
                fail[row[c]] = below[c];
                queue[tail++] = row[c];
            } else {
                row[c] = below[c];
            }
        }
        for (size_t j = 0; j < BASE_SET_WORDS; j++)
            s->sets[BASE_SET_WORDS * q + j] |= s->sets[BASE_SET_WORDS * f + j];
    }
    /* The empty pattern fits everywhere: its rules are in the root's set, which every state fails to. */
}

static void begin(struct side *s, uint16_t *rows, uint64_t *sets)
{
    s->rows = rows;
    s->sets = sets;
    s->states = 0;
    new_state(s);
}

void base_build(const struct base_ruleset *rs, uint16_t *words, uint64_t *sets)
{
    struct side left, right;

    begin(&left, words + BASE_ROWS, sets);
    for (size_t p = 0; p < rs->total; p++) {
        struct base_rule r = literal(rs, p);
        insert(&left, r.left, r.left_len, p);
    }
    link_failures(&left);

    begin(&right, words + BASE_ROWS + BASE_SYMBOLS * left.states, sets + BASE_SET_WORDS * left.states);
    for (size_t p = 0; p < rs->total; p++) {
        struct base_rule r = literal(rs, p);
        uint8_t pattern[BASE_PATTERN];
        size_t length = 0;
        for (size_t i = r.right_len; i > 0; i--)
            pattern[length++] = r.right[i - 1];
        for (size_t i = r.target_len; i > 0; i--)
            pattern[length++] = r.target[i - 1];
        insert(&right, pattern, length, p);
    }
    link_failures(&right);

    words[0] = (uint16_t)(rs->edits >> 16);
    words[1] = (uint16_t)rs->edits;
    words[2] = (uint16_t)left.states;
    words[3] = (uint16_t)right.states;
}

/* ---- Reading a name ---- */

static void begin_name(struct base_spoken *out)
{
    out->phone_count = out->rule_count = out->steps = out->position = out->contested = 0;
}

/* Applies the first of so many rules that fit. */
static void apply(const struct base_rule *r, size_t fitting, struct base_spoken *out)
{
    for (size_t k = 0; k < r->phone_len; k++)
        out->phones[out->phone_count++] = r->phones[k];
    out->numbers[out->rule_count++] = r->number;
    out->contested += fitting > 1;
}

/* A space is the boundary of the words on both its sides: # stands only first in a left context and last in a right
   one, so that no rule and, in built tables, no state reaches across it. */
static uint8_t symbol(uint8_t byte)
{
    return byte == BASE_SPACE ? 0 : byte;
}

/* The lowest place that both sets hold, and how many they hold both. */
struct choice {
    size_t place, shared;
};

/* Most words share none. Of ways that clear bit after bit, that sum all eight words or that call the compiler's own count,
   none was faster than this. */
static struct choice choose(const uint64_t *a, const uint64_t *b)
{
    struct choice choice = { BASE_RULES, 0 };
    for (size_t j = 0; j < BASE_SET_WORDS; j++) {
        uint64_t both = a[j] & b[j];
        if (both == 0)
            continue;
        if (choice.shared == 0)
            choice.place = 64 * j + (size_t)__builtin_ctzll(both);
        choice.shared += ones(both);
    }
    return choice;
}

int base_walk(const struct base_ruleset *rs, const uint16_t *words, const uint64_t *sets,
              const uint8_t *name, size_t n, struct base_spoken *out)
{
    const uint16_t *left = words + BASE_ROWS, *right = left + BASE_SYMBOLS * (size_t)words[2];
    const uint64_t *right_sets = sets + BASE_SET_WORDS * (size_t)words[2];
    uint16_t after_left[BASE_NAME + 2], after_right[BASE_NAME + 2];
    size_t q;

    begin_name(out);
    if (((uint32_t)words[0] << 16 | words[1]) != rs->edits)
        return -1;
    after_left[0] = (uint16_t)(q = left[0]);            /* the boundary, from state 0 */
    for (size_t i = 1; i <= n; i++)
        after_left[i] = (uint16_t)(q = left[BASE_SYMBOLS * q + symbol(name[i - 1])]);
    after_right[n + 1] = (uint16_t)(q = right[0]);
    for (size_t i = n; i > 0; i--)
        after_right[i] = (uint16_t)(q = right[BASE_SYMBOLS * q + symbol(name[i - 1])]);
    out->steps = (uint32_t)(2 * n + 2);

    for (size_t i = 1; i <= n;) {
        if (name[i - 1] == BASE_SPACE) {
            i++;
            continue;
        }
        struct choice choice = choose(sets + BASE_SET_WORDS * (size_t)after_left[i - 1],
                                      right_sets + BASE_SET_WORDS * (size_t)after_right[i]);
        if (choice.shared == 0) {
            out->position = (uint32_t)i;
            return -1;
        }
        const struct base_rule *r = &rs->rules[rs->literals[choice.place].place];
        apply(r, choice.shared, out);
        i += r->target_len;
    }
    return 0;
}

static int same(const uint8_t *a, const uint8_t *b, size_t length)
{
    for (size_t i = 0; i < length; i++)
        if (a[i] != b[i])
            return 0;
    return 1;
}

/* A context with classes, each of which has the letter there. */
static int admits(const struct base_ruleset *rs, const uint8_t *context, const uint8_t *framed, size_t length)
{
    for (size_t i = 0; i < length; i++)
        if (is_class(context[i]) ? !(rs->classes[context[i] - BASE_CLASS] >> framed[i] & 1) : context[i] != framed[i])
            return 0;
    return 1;
}

/* The target is compared first: it tells most rules apart. */
static int fits(const struct base_ruleset *rs, const struct base_rule *r, const uint8_t *framed, size_t length, size_t i)
{
    size_t after = i + r->target_len;
    return i >= r->left_len && after + r->right_len <= length
        && same(framed + i, r->target, r->target_len)
        && admits(rs, r->right, framed + after, r->right_len)
        && admits(rs, r->left, framed + i - r->left_len, r->left_len);
}

int base_plain(const struct base_ruleset *rs, const uint8_t *name, size_t n, struct base_spoken *out)
{
    uint8_t framed[BASE_NAME + 2];

    framed[0] = framed[n + 1] = 0;
    for (size_t i = 1; i <= n; i++)
        framed[i] = symbol(name[i - 1]);
    begin_name(out);
    for (size_t i = 1; i <= n;) {
        if (framed[i] == 0) {
            i++;
            continue;
        }
        const struct base_rule *first = NULL;
        size_t fitting = 0;
        for (size_t p = 0; p < rs->count; p++)
            if (fits(rs, &rs->rules[p], framed, n + 2, i) && fitting++ == 0)
                first = &rs->rules[p];
        if (first == NULL) {
            out->position = (uint32_t)i;
            return -1;
        }
        apply(first, fitting, out);
        i += first->target_len;
    }
    return 0;
}

/* ---- The rule file ---- */

static int digit(uint8_t c)
{
    if (c >= '0' && c <= '9')
        return c - '0';
    if (c >= 'A' && c <= 'F')
        return c - 'A' + 10;
    return -1;
}

struct input {
    const uint8_t *text;
    size_t length, at;
};

enum { LONGEST_FRAME = BASE_CLASS_FRAME > BASE_RULE_FRAME ? BASE_CLASS_FRAME : BASE_RULE_FRAME };

/* Bytes of the next line without its sum, or -1 for an unsound one or one longer than any frame. */
static int next_frame(struct input *in, uint8_t frame[LONGEST_FRAME])
{
    size_t count = 0;
    uint8_t sum = 0;

    while (in->at < in->length && in->text[in->at] != '\n') {
        if (in->at + 1 >= in->length || count == LONGEST_FRAME)
            return -1;
        int high = digit(in->text[in->at]), low = digit(in->text[in->at + 1]);
        if (high < 0 || low < 0)
            return -1;
        frame[count] = (uint8_t)(high << 4 | low);
        sum = (uint8_t)(sum + frame[count++]);
        in->at += 2;
    }
    if (in->at == in->length || count < 2 || sum != 0)
        return -1;
    in->at++;
    return (int)count - 1;
}

static uint16_t field(const uint8_t *bytes)
{
    return (uint16_t)(bytes[0] << 8 | bytes[1]);
}

static int between(const uint8_t *bytes, size_t length, int low, int high)
{
    for (size_t i = 0; i < length; i++)
        if (bytes[i] < low || bytes[i] > high)
            return 0;
    return 1;
}

static int letters_and_classes(const uint8_t *context, size_t length)
{
    for (size_t i = 0; i < length; i++)
        if (!between(context + i, 1, 1, BASE_LETTERS) && !is_class(context[i]))
            return 0;
    return 1;
}

/* # may stand first in a left context and last in a right one, classes in both. */
static int well_shaped(const struct base_rule *r)
{
    size_t boundary = r->left_len > 0 && r->left[0] == 0;
    size_t letters = r->right_len - (size_t)(r->right_len > 0 && r->right[r->right_len - 1] == 0);
    return letters_and_classes(r->left + boundary, r->left_len - boundary)
        && between(r->target, r->target_len, 1, BASE_LETTERS)
        && letters_and_classes(r->right, letters)
        && between(r->phones, r->phone_len, 1, 0xFF);
}

static int read_rule(const uint8_t *frame, int count, struct base_rule *r)
{
    if (count < 7 || frame[0] != 2)
        return -1;
    r->number = field(frame + 1);
    r->left_len = frame[3];
    r->target_len = frame[4];
    r->right_len = frame[5];
    r->phone_len = frame[6];
    if (r->left_len > BASE_CONTEXT || r->target_len < 1 || r->target_len > BASE_TARGET || r->right_len > BASE_CONTEXT
        || r->phone_len > BASE_RULE_PHONES || count != 7 + r->left_len + r->target_len + r->right_len + r->phone_len)
        return -1;
    frame += 7;
    memcpy(r->left, frame, r->left_len);
    memcpy(r->target, frame + r->left_len, r->target_len);
    memcpy(r->right, frame + r->left_len + r->target_len, r->right_len);
    memcpy(r->phones, frame + r->left_len + r->target_len + r->right_len, r->phone_len);
    return well_shaped(r) ? 0 : -1;
}

/* A class line's letters, ascending, of a symbol above those before it. */
static int read_class(const uint8_t *frame, int count, uint8_t *above, struct base_ruleset *rs)
{
    uint64_t letters = 0;
    if (count < 4 || count != 3 + frame[2] || frame[2] > BASE_CLASS_LETTERS || !is_class(frame[1]) || frame[1] <= *above
        || !between(frame + 3, frame[2], 1, BASE_LETTERS))
        return -1;
    for (size_t i = 3; i < (size_t)count; i++) {
        if (i > 3 && frame[i] <= frame[i - 1])
            return -1;
        letters |= (uint64_t)1 << frame[i];
    }
    *above = frame[1];
    rs->classes[frame[1] - BASE_CLASS] = letters;
    return 0;
}

/* Each of a rule's literal rules gets the next place. */
static int place_literals(struct base_ruleset *rs, size_t p)
{
    size_t count = literal_count(rs, &rs->rules[p]);
    if (count == 0 || count > BASE_RULES - (size_t)rs->total)
        return -1;
    for (size_t which = 0; which < count; which++)
        rs->literals[rs->total++] = (struct base_literal){ (uint16_t)p, (uint16_t)which };
    return 0;
}

/* The class lines, to the first line that is none; it is read once more as what it is. */
static int read_classes(struct input *in, struct base_ruleset *rs)
{
    uint8_t frame[LONGEST_FRAME], above = 0;
    for (;;) {
        size_t start = in->at;
        int count = next_frame(in, frame);
        if (count < 1 || frame[0] != 7) {
            in->at = start;
            return 0;
        }
        if (read_class(frame, count, &above, rs) != 0)
            return -1;
    }
}

int base_read(const uint8_t *text, size_t length, struct base_ruleset *rs)
{
    struct input in = { text, length, 0 };
    uint8_t frame[LONGEST_FRAME];
    uint64_t seen[1024] = { 0 };        /* a bit for each number */

    if (next_frame(&in, frame) != 6 || frame[0] != 1 || frame[1] != 1)
        return -1;
    rs->count = field(frame + 2);
    rs->last = field(frame + 4);
    rs->total = 0;
    rs->edits = 0;
    memset(rs->classes, 0, sizeof rs->classes);
    if (rs->count > BASE_RULES || read_classes(&in, rs) != 0)
        return -1;
    for (size_t p = 0; p < rs->count; p++) {
        struct base_rule *r = &rs->rules[p];
        if (read_rule(frame, next_frame(&in, frame), r) != 0 || place_literals(rs, p) != 0)
            return -1;
        uint64_t bit = (uint64_t)1 << (r->number % 64);
        if (r->number < 1 || r->number > rs->last || (seen[r->number / 64] & bit))
            return -1;
        seen[r->number / 64] |= bit;
    }
    return in.at == length ? 0 : -1;
}

struct output {
    uint8_t *at;
    uint8_t sum;
};

static void put(struct output *out, uint8_t byte)
{
    static const char digits[] = "0123456789ABCDEF";
    *out->at++ = (uint8_t)digits[byte >> 4];
    *out->at++ = (uint8_t)digits[byte & 15];
    out->sum = (uint8_t)(out->sum + byte);
}

static void put_two(struct output *out, uint16_t value)
{
    put(out, (uint8_t)(value >> 8));
    put(out, (uint8_t)value);
}

static void put_all(struct output *out, const uint8_t *bytes, size_t length)
{
    for (size_t i = 0; i < length; i++)
        put(out, bytes[i]);
}

static void end_line(struct output *out)
{
    put(out, (uint8_t)-out->sum);
    *out->at++ = '\n';
    out->sum = 0;
}

size_t base_write(const struct base_ruleset *rs, uint8_t *text)
{
    struct output out = { text, 0 };

    put(&out, 1);
    put(&out, 1);
    put_two(&out, rs->count);
    put_two(&out, rs->last);
    end_line(&out);
    for (size_t c = 0; c < BASE_CLASSES; c++)
        if (rs->classes[c] != 0) {
            put(&out, 7);
            put(&out, (uint8_t)(BASE_CLASS + c));
            put(&out, (uint8_t)ones(rs->classes[c]));
            for (uint64_t letters = rs->classes[c]; letters != 0; letters &= letters - 1)
                put(&out, (uint8_t)__builtin_ctzll(letters));
            end_line(&out);
        }
    for (size_t p = 0; p < rs->count; p++) {
        const struct base_rule *r = &rs->rules[p];
        put(&out, 2);
        put_two(&out, r->number);
        put(&out, r->left_len);
        put(&out, r->target_len);
        put(&out, r->right_len);
        put(&out, r->phone_len);
        put_all(&out, r->left, r->left_len);
        put_all(&out, r->target, r->target_len);
        put_all(&out, r->right, r->right_len);
        put_all(&out, r->phones, r->phone_len);
        end_line(&out);
    }
    return (size_t)(out.at - text);
}
