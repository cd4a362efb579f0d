/*
 * Calls the static library as a controller does and compares each answer with the one set down here. Prints what differs and how
 * many answers were compared; the status is 1 where one differs.
 */
#include "nagzelud.h"
#include "stack.h"

#include <stdbool.h>
#include <stdio.h>
#include <stdlib.h>
#include <string.h>

struct bytes {
    size_t len;
    uint8_t at[1024];
};

static unsigned digit(char c)
{
    const char *digits = "0123456789abcdef";
    const char *found = c == '\0' ? NULL : strchr(digits, c);
    if (found == NULL) {
        fprintf(stderr, "host: no hexadecimal digit: %c\n", c);
        exit(2);
    }
    return (unsigned)(found - digits);
}

/* Bytes from lower-case hexadecimal; spaces between bytes are passed over. */
static struct bytes from_hex(const char *text)
{
    struct bytes out = {0};
    while (*text != '\0') {
        if (*text == ' ') {
            text++;
            continue;
        }
        if (out.len == sizeof out.at) {
            fputs("host: a record is too long\n", stderr);
            exit(2);
        }
        out.at[out.len++] = (uint8_t)(digit(text[0]) * 16 + digit(text[1]));
        text += 2;
    }
    return out;
}

/* Document 01's garage: type 0 parentless, predicate 0 of two columns, function 0 from type 0 to type 0; the rule and group of g1. */
#define GARAGE "540000 5000050000000000 4600050000000000"
#define G1_RULE \
    "4e0003000072 530000 45000400000000 45000400010000 520006000000000001 560003000078 560003000179 " \
    "530000 45000400000000 45000400010000 520006000000000001 520006000000010000 560003000078 560003000179 " \
    "4d000c000000010000000000010001 4b00050000000101"
#define G1_GROUP \
    "47000172 57000400007830 57000400007931 550003725f30 42000700000000000001 4200050400000000 4200050400000001 " \
    "48000700000000010000"

/* oracle/cases/scope.txt: type 1 lives in 0, type 2 in 0 and 1; predicate 1 lives in 0, predicate 2 in 0 and 1. */
#define MODELS \
    "540000 5400020000 54000400000001 540000 500003000000 5000050100000000 50000702000000010000 5000050100030000 " \
    "500003010001 46000701000000000000 460009020000000100000000 4600050000000000"
#define VARIABLES "47000167 570003000061 570003000061 570003000161 570003000062 570003000163 570003000364 55000175 "

struct check_case {
    const char *title;
    uint32_t (*check)(const uint8_t *, size_t, const uint8_t *, size_t);
    const char *signature;
    const char *record;
    uint32_t expected;
};

static const struct check_case checks[] = {
    {"g1's rule", nagzelud_check_rule, GARAGE, G1_RULE, 0},
    {"an empty rule", nagzelud_check_rule, GARAGE, "", NAGZELUD_BAD_FIELD},
    {"a rule over a faulty signature", nagzelud_check_rule, "5400020001", "", NAGZELUD_NAMES_NOTHING},
    {"g1's group", nagzelud_check_group, GARAGE, G1_GROUP, 0},
    {"g1's group without its signature", nagzelud_check_group, "", G1_GROUP, NAGZELUD_NAMES_NOTHING},
    {"a group cut short", nagzelud_check_group, GARAGE, "470001", NAGZELUD_BAD_FIELD},
};

struct scope_case {
    const char *title;
    const char *signature;
    const char *group;
    size_t position;
    struct nagzelud_scope_answer expected;
    const char *owners;
};

static const struct scope_case scopes[] = {
    {"g1", GARAGE, G1_GROUP, 0, {0}, ""},
    {"g1, past the last rule", GARAGE, G1_GROUP, 1, {.refused = NAGZELUD_NO_RULE}, ""},
    {"g1, far past it", GARAGE, G1_GROUP, SIZE_MAX, {.refused = NAGZELUD_NO_RULE}, ""},
    {"g11", GARAGE, "47000172 550003725f30", 0, {0}, ""},
    {"a faulty group comes before 41", GARAGE, "470001", 9, {.refused = NAGZELUD_BAD_FIELD}, ""},
    {"a conclusion in model 0", MODELS, VARIABLES "48000700000100030000", 0,
     {.kind = NAGZELUD_MODEL, .model = 0, .offset = 50, .count = 1}, "0003"},
    {"a conclusion in model 1", MODELS, VARIABLES "480009000002000000040003", 0,
     {.kind = NAGZELUD_MODEL, .model = 1, .offset = 50, .count = 2}, "00000004"},
    {"owners equal by name and type, not by number", MODELS, VARIABLES "42000700000100010003 48000700000100000003", 0,
     {.kind = NAGZELUD_MODEL, .model = 0, .offset = 60, .count = 1}, "0000"},
    {"owners of one name and two types", MODELS, VARIABLES "48000700000100000003 48000700000100020003", 0, {0}, ""},
    {"a premise Equality", MODELS, VARIABLES "42000703000000000001 48000700000100000003", 0, {.refused = NAGZELUD_PREMISE_EQUALITY}, ""},
    {"fewer arguments than owners", MODELS, VARIABLES "4800050000040004", 0, {.refused = NAGZELUD_FEW_ARGUMENTS}, ""},
};

static bool right_check(const struct check_case *c)
{
    const struct bytes signature = from_hex(c->signature);
    const struct bytes record = from_hex(c->record);
    const uint32_t code = c->check(signature.at, signature.len, record.at, record.len);
    if (code != c->expected) {
        printf("%s: %u, not %u\n", c->title, (unsigned)code, (unsigned)c->expected);
    }
    return code == c->expected;
}

static bool same(const struct nagzelud_scope_answer *a, const struct nagzelud_scope_answer *b)
{
    return a->refused == b->refused && a->kind == b->kind && a->model == b->model && a->offset == b->offset &&
           a->count == b->count;
}

static void print_scope(const char *words, const struct nagzelud_scope_answer *a)
{
    printf("%s: refused %u, kind %u, model %zu, offset %zu, count %zu\n", words, (unsigned)a->refused, (unsigned)a->kind,
           a->model, a->offset, a->count);
}

static bool right_scope(const struct scope_case *c)
{
    const struct bytes signature = from_hex(c->signature);
    const struct bytes group = from_hex(c->group);
    const struct bytes owners = from_hex(c->owners);
    const struct nagzelud_scope_answer a =
        nagzelud_scope(signature.at, signature.len, group.at, group.len, c->position);
    const bool right = same(&a, &c->expected) && 2 * a.count == owners.len &&
                       memcmp(group.at + a.offset, owners.at, owners.len) == 0;
    if (!right) {
        print_scope(c->title, &a);
        print_scope("expected", &c->expected);
    }
    return right;
}

struct flatten_case {
    const char *title;
    const char *signature;
    const char *rule;
    size_t room;
    uint32_t refused;
    const char *group;
};

/* g7's rule: structure 1 has two elements that no element of 0 is sent to. */
#define G7_RULE \
    "4e0003000072 530000 45000400000000 45000400010000 520006000000000001 560003000078 560003000179 530000 " \
    "45000400000000 45000400010000 45000400020000 45000400030000 520006000000000001 410006000000000003 " \
    "410006000000010002 560003000078 560003000179 4d000c000000010000000000010001 4b00050000000102"

static const struct flatten_case flattenings[] = {
    {"g1", GARAGE, G1_RULE, 1000, 0, G1_GROUP},
    {"g1 in just its room", GARAGE, G1_RULE, 60, 0, G1_GROUP},
    {"g2: g1 in a byte less", GARAGE, G1_RULE, 59, NAGZELUD_BUFFER_TOO_SMALL, ""},
    {"g1 in no room", GARAGE, G1_RULE, 0, NAGZELUD_BUFFER_TOO_SMALL, ""},
    {"g7: two new elements", GARAGE, G7_RULE, 1000, NAGZELUD_TWO_NEW_ELEMENTS, ""},
    {"an empty rule flattened", GARAGE, "", 1000, NAGZELUD_BAD_FIELD, ""},
    {"a faulty signature comes before 31", "5400020001", G1_RULE, 0, NAGZELUD_NAMES_NOTHING, ""},
};

/* What stands at a place of the buffer beforehand. */
static uint8_t pattern(size_t at)
{
    return (uint8_t)(at * 29 + 7);
}

/* The group stands at the buffer's front, and every byte behind it is as it was, behind the room too. */
static bool right_flatten(const struct flatten_case *c)
{
    const struct bytes signature = from_hex(c->signature);
    const struct bytes rule = from_hex(c->rule);
    const struct bytes group = from_hex(c->group);
    uint8_t out[1024];
    for (size_t i = 0; i < sizeof out; i++) {
        out[i] = pattern(i);
    }
    const struct nagzelud_flatten_answer a =
        nagzelud_flatten(signature.at, signature.len, rule.at, rule.len, out, c->room);
    bool right = a.refused == c->refused && a.written == group.len && memcmp(out, group.at, group.len) == 0;
    for (size_t i = group.len; i < sizeof out; i++) {
        right = right && out[i] == pattern(i);
    }
    if (!right) {
        printf("%s: refused %u, written %zu, or a byte of the buffer\n", c->title, (unsigned)a.refused, a.written);
    }
    return right;
}

#ifdef __SANITIZE_ADDRESS__
/* The sanitizer has a stack of its own, so nothing is measured. */
static bool shallow(void)
{
    return true;
}
#else
static struct bytes garage;
static struct bytes chain;
static struct bytes models;
static struct bytes owned;

static void put(const char *hex, unsigned source, unsigned target)
{
    const struct bytes field = from_hex(hex);
    memcpy(chain.at + chain.len, field.at, field.len);
    chain.at[chain.len + 4] = (uint8_t)source;
    chain.at[chain.len + 6] = (uint8_t)target;
    chain.len += field.len;
}

/* 32 structures of one element, each mapped to the next: the longest chain of premises. */
static void make_chain(void)
{
    garage = from_hex(GARAGE);
    chain = from_hex("4e0003000072");
    for (unsigned i = 0; i < 32; i++) {
        const struct bytes structure = from_hex("530000 45000400000000");
        memcpy(chain.at + chain.len, structure.at, structure.len);
        chain.len += structure.len;
    }
    for (unsigned i = 0; i < 31; i++) {
        put("4d00080000000000000000", i, i + 1);
    }
    for (unsigned i = 0; i < 31; i++) {
        put(i < 30 ? "4b00050000000000" : "4b00050000000001", i, i + 1);
    }
}

static struct nagzelud_flatten_answer last;

static void flatten_chain(void)
{
    static uint8_t out[NAGZELUD_BUFFER];
    last = nagzelud_flatten(garage.at, garage.len, chain.at, chain.len, out, sizeof out);
}

static void check_chain(void)
{
    last.refused = nagzelud_check_rule(garage.at, garage.len, chain.at, chain.len);
}

static void check_owned(void)
{
    last.refused = nagzelud_check_group(models.at, models.len, owned.at, owned.len);
}

static void scope_owned(void)
{
    last.refused = nagzelud_scope(models.at, models.len, owned.at, owned.len, 0).refused;
}

/* Called once before it is measured, so that nothing is linked meanwhile. */
static bool within(const char *words, void (*call)(void), size_t most)
{
    call();
    const size_t used = stack_used(call);
    printf("host: %s: refused %u, %zu bytes of stack\n", words, (unsigned)last.refused, used);
    return last.refused == 0 && used != 0 && used <= most;
}

/*
 * At most 24 KB of stack for flatten: the tables, each once. A copy of the variables (4 KB), which the code by value leaves to the compiler
 * to spare, would show here. The others: the indexes of two records.
 */
static bool shallow(void)
{
    make_chain();
    models = from_hex(MODELS);
    owned = from_hex(VARIABLES "480009000002000000040003");
    const bool checked = within("check of 32 structures", check_chain, 6 * 1024);
    const bool grouped = within("check of a group", check_owned, 6 * 1024);
    const bool scoped = within("scope in model 1", scope_owned, 6 * 1024);
    const bool flattened = within("flatten of 32 structures in a chain", flatten_chain, 24 * 1024);
    return checked && grouped && scoped && flattened && last.written != 0;
}
#endif

/* The two records may overlap: g1's rule with its own last 100 bytes for a signature, and as both records. */
static bool right_overlap(void)
{
    const struct bytes rule = from_hex(G1_RULE);
    const uint32_t tail = nagzelud_check_rule(rule.at + rule.len - 100, 100, rule.at, rule.len);
    const uint32_t both = nagzelud_check_rule(rule.at, rule.len, rule.at, rule.len);
    return tail == NAGZELUD_BAD_FIELD && both == NAGZELUD_BAD_FIELD;
}

/* The version in words and in numbers. */
static bool right_version(void)
{
    char text[32];
    snprintf(text, sizeof text, "%d.%d.%d", NAGZELUD_VERSION_MAJOR, NAGZELUD_VERSION_MINOR, NAGZELUD_VERSION_PATCH);
    return strcmp(text, NAGZELUD_VERSION) == 0;
}

int main(void)
{
    const size_t check_count = sizeof checks / sizeof checks[0];
    const size_t scope_count = sizeof scopes / sizeof scopes[0];
    const size_t flatten_count = sizeof flattenings / sizeof flattenings[0];
    size_t wrong = (shallow() ? 0 : 1) + (right_overlap() ? 0 : 1) + (right_version() ? 0 : 1);
    for (size_t i = 0; i < check_count; i++) {
        wrong += right_check(&checks[i]) ? 0 : 1;
    }
    for (size_t i = 0; i < scope_count; i++) {
        wrong += right_scope(&scopes[i]) ? 0 : 1;
    }
    for (size_t i = 0; i < flatten_count; i++) {
        wrong += right_flatten(&flattenings[i]) ? 0 : 1;
    }
    printf("host: %zu answers compared, %zu differ\n", check_count + scope_count + flatten_count, wrong);
    return wrong == 0 ? EXIT_SUCCESS : EXIT_FAILURE;
}
