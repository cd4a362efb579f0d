/*
 * Nagzelud for C: eqlog's flatten and scope on byte records. Link libnagzelud.a (`make -C host` copies it beside this file). The records and
 * the refusals are explained, with an example of each, in docs/FORMAT.md.
 *
 * [proved] marks what is proved of the functions, for all bytes and positions; [measured] what was only tried or looked up in the built
 * library, and where.
 *
 * Every function
 *   - ends, reads only the bytes it is given, and writes none but those of the buffer that nagzelud_flatten is lent [proved];
 *   - answers by its arguments alone: the answer is the definition's in crates/definition/specs [proved];
 *   - allocates nothing and keeps nothing between calls [measured: the archive has no data of its own, and memset is all it asks for];
 *     so any number of threads may call it at once, each with a buffer of its own;
 *   - divides nowhere: nothing that it reaches holds a division or a remainder [measured: lint, by the sources];
 *   - takes less than 6 KB of stack, nagzelud_flatten less than 24 KB [measured: host.c].
 *
 * Every function asks: each pointer is to as many readable bytes as the length behind it says, is not null (also where that length is 0), and
 * nobody changes the bytes during the call. No length is above PTRDIFF_MAX. The two records may overlap, or be the same bytes
 * [measured: host.c]. Nothing is asked of the bytes: a record that is too long or damaged is refused.
 *
 * What the library needs: x86-64 with the System V calling convention (Linux, the BSDs, bare metal that keeps to it; not Windows'), SSE2,
 * which every x86-64 has and which a kernel may have to allow, and the function memset. Nothing else of a C library [measured: nm, objdump].
 */
#ifndef NAGZELUD_H
#define NAGZELUD_H

#include <stddef.h>
#include <stdint.h>

#ifdef __cplusplus
extern "C" {
#endif

#define NAGZELUD_VERSION "0.1.0"
#define NAGZELUD_VERSION_MAJOR 0
#define NAGZELUD_VERSION_MINOR 1
#define NAGZELUD_VERSION_PATCH 0

/* A buffer of so many bytes always suffices: no group is longer, and of a longer buffer no byte behind these is used [proved]. */
#define NAGZELUD_BUFFER 65535

/* What a function refuses; 0 is no refusal. An answer has no other number: each function's comment says which it may have [proved]. */
enum nagzelud_refusal {
    NAGZELUD_ACCEPTED = 0,

    /* A record is faulty: the signature's refusals come before the other record's; then the first faulty field, then the lowest number. */
    NAGZELUD_RECORD_TOO_LONG = 1,  /* a signature or rule over 32,768 bytes, a group over 65,535 */
    NAGZELUD_BAD_FIELD = 2,        /* a field passes the record's end, stands where its letter may not, or is missing */
    NAGZELUD_BAD_LENGTH = 3,       /* a field's parts can't be cut from a content of this length */
    NAGZELUD_OVER_LIMIT = 4,       /* more fields, parents or columns than a record may have */
    NAGZELUD_NAMES_NOTHING = 5,    /* a number that names no type, symbol, structure, element, variable, kind or class */
    NAGZELUD_BAD_ORDER = 6,        /* fields of a rule, or a map's pairs, that don't ascend */
    NAGZELUD_BAD_ARITY = 7,        /* another number of columns than the symbol has */
    NAGZELUD_BAD_NAME = 8,         /* a name that is empty or too long, or has a byte outside 33 to 126 */

    /* A rule can't be flattened. */
    NAGZELUD_MARK_WITHOUT_MAP = 21,      /* an X names a structure with no map into it */
    NAGZELUD_KIND_WITHOUT_MAP = 22,      /* a K names a pair of structures with no map */
    NAGZELUD_SOURCE_NOT_REACHED = 23,    /* a walked map starts at a structure that no map has reached yet */
    NAGZELUD_TARGET_REACHED = 24,        /* a walked map leads to a structure that was reached before, or to structure 0 */
    NAGZELUD_KERNEL_TYPES = 25,          /* a map sends variables of different types to one element */
    NAGZELUD_ROW_WITHOUT_IMAGE = 26,     /* a map sends an element of a source row nowhere */
    NAGZELUD_NOT_SURJECTIVE = 27,        /* a SurjThen has a target element that is no image */
    NAGZELUD_TWO_NEW_ELEMENTS = 28,      /* a NonSurjThen has two or more of them */
    NAGZELUD_NO_YIELDING_ROW = 29,       /* of a NonSurjThen: no function row yields the one new element */
    NAGZELUD_YIELDING_ROW_OUTSIDE = 30,  /* of a NonSurjThen: the first that does has an argument or parent that is no image */
    NAGZELUD_BUFFER_TOO_SMALL = 31,      /* the group is longer than the buffer, or than NAGZELUD_BUFFER */

    /* A flat rule has no scope. */
    NAGZELUD_NO_RULE = 41,           /* no rule at that position */
    NAGZELUD_PREMISE_EQUALITY = 42,  /* an Equality in the premise is reached */
    NAGZELUD_FEW_ARGUMENTS = 43      /* a statement has fewer arguments than the owners it is compared with */
};

/*
 * Is a signature sound, and a rule with it? 0 where both are, else the first refusal, 1 to 8: all of the signature's come before
 * the rule's [proved].
 */
uint32_t nagzelud_check_rule(const uint8_t *signature, size_t signature_len, const uint8_t *rule, size_t rule_len);

/* The same of a signature and a group. */
uint32_t nagzelud_check_group(const uint8_t *signature, size_t signature_len, const uint8_t *group, size_t group_len);

/* What `kind` of a scope says. */
#define NAGZELUD_GLOBAL 0
#define NAGZELUD_MODEL 1

struct nagzelud_scope_answer {
    /* 0, or the refusal's number; then everything below is 0. */
    uint32_t refused;
    /* NAGZELUD_GLOBAL, and then everything below is 0; or NAGZELUD_MODEL. */
    uint32_t kind;
    /* The model's type: its position among the signature's T fields. */
    size_t model;
    /* The first byte of the owners in the group. */
    size_t offset;
    /* How many owners there are: for a model at least one, else 0. */
    size_t count;
};

/*
 * Which model owns the rule at a position, from 0, of a group?
 *
 * `refused` is the first of: 1 to 8, the signature's before the group's; 41; 42 and 43, whichever the comparison meets [proved].
 *
 * The owners are variables' numbers of two bytes each, high byte first, in the group's own bytes: those from group + offset up to
 * group + offset + 2 * count. These lie in the group, also where there are none, and are the leading variables of the rule's
 * first conclusion [proved].
 */
struct nagzelud_scope_answer nagzelud_scope(const uint8_t *signature, size_t signature_len, const uint8_t *group,
                                            size_t group_len, size_t position);

struct nagzelud_flatten_answer {
    /* 0, or the refusal's number; then `written` is 0. */
    uint32_t refused;
    /* How many bytes of the buffer, from its first, are the group. */
    size_t written;
};

/*
 * Flattens a rule: its group into a lent buffer of `room` bytes, at most NAGZELUD_BUFFER of which are ever used.
 *
 * `refused` is the first of: 1 to 8, the signature's before the rule's; 21 to 30; 31 [proved].
 *
 * Where nothing is refused, the buffer's first `written` bytes are the definition's group of that signature and rule, byte for byte, and
 * all bytes behind them are as they were. Where something is refused, all bytes of the buffer are as they were [proved].
 *
 * Of the group, read back: if each walked map has exactly its source's elements as keys, then every variable of a conclusion occurs
 * in that flat rule's premise; if besides no V or I name ends in a digit, then different elements of a reached structure print
 * different names [proved].
 *
 * The buffer is to `room` writable bytes, is not null (also where room is 0), overlaps neither record, and nobody else reads or
 * writes it during the call. Its bytes may be anything. Where it does overlap a record nothing of the above holds: the call may answer
 * anything, touch memory that isn't its own, or never return [measured: a segmentation fault and a call that didn't return were seen].
 */
struct nagzelud_flatten_answer nagzelud_flatten(const uint8_t *signature, size_t signature_len, const uint8_t *rule,
                                                size_t rule_len, uint8_t *out, size_t room);

#ifdef __cplusplus
}
#endif

#endif
