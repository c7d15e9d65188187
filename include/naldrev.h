/* Naldrev, a Refal-5 pattern matcher, for C and C++ on x86-64 Linux. `pkg-config --cflags --libs naldrev` has the flags of an installed
   library; docs/C.md says how to install it. naldrev_store.h has these calls with structs and a handful of arguments.

   Records are 32-bit words in slices that the caller lends: a pointer and a length. docs/REFERENCE.md has the rules of each record. A store is a
   slice with its used count beside it; node 0 of the nodes, six words of 0, has to be there (nodes_used at least 1).

   Units:
   - A length named .._len of a slice is in its elements: bytes of names and texts, words of all else. Terms, nodes, patterns, bindings, runs
     and work are whole records: a multiple of the record's width. Slots may have any length.
   - A used count, and any other count of records, is in records: terms_used terms take terms_used * NALDREV_TERM_WIDTH words.
   - The length of a field, and start and length of a run, are in terms; offset and length of a name are in bytes; *written is in bytes.

   Every function but naldrev_name_count returns 0 (NALDREV_OK), NALDREV_MORE_THAN_FIT, or the number of a refusal. A refusal changes no lent
   word, except that NALDREV_NO_MATCH and NALDREV_CALLS_ARE_NOT_PATTERNS keep the settled copy (see the listing). Out parameters are written
   where the answer has a value for them, and left alone by a refusal. naldrev_text has a sentence for each number.

   What the caller owes, and nothing checks:
   - No pointer is null, also where its length is 0; each points to that many elements, aligned.
   - What is lent for writing (a pointer without const, an out parameter included) overlaps nothing else that the call is lent.
   - Nothing else writes to what is lent while the call runs.
   - There is stack for the call: NALDREV_STACK_BYTES.
   Nothing is kept: once a call has returned, the library holds none of the pointers. Contents are checked by each call: any words are
   answered with a number.

   Threads: the library has no state, takes no lock and allocates nothing. Calls on stores of their own may run at once; so may calls that
   only read one store (all of it lent through pointers to const), if each has its own out parameters and work. A call that adds to a store
   has to have it alone: those that make nodes, and the two listings, which may copy a field after the used terms. */
#ifndef NALDREV_H
#define NALDREV_H

#include <stddef.h>
#include <stdint.h>

#ifdef __cplusplus
extern "C" {
#endif

/* ---- version ---- */

/* Of these headers and of the library that they belong to. As long as the first number is 0, a change of the second may change the calls or
   what they answer. */
#define NALDREV_VERSION_MAJOR 0
#define NALDREV_VERSION_MINOR 3
#define NALDREV_VERSION_PATCH 0
#define NALDREV_VERSION "0.3.0"
#define NALDREV_VERSION_NUMBER (NALDREV_VERSION_MAJOR * 1000000 + NALDREV_VERSION_MINOR * 1000 + NALDREV_VERSION_PATCH)

/* ---- stack ---- */

/* What a call needs of stack at most, in bytes, whatever it is lent. It is measured with the library as it is built, on the inputs found to
   need the most (tools/stack), and rounded up; it is not proved. What the caller's own functions take comes on top. */
#define NALDREV_STACK_BYTES 524288

/* ---- numbers that a function returns ---- */

#define NALDREV_OK 0
#define NALDREV_UNEVEN 1                  /* a slice isn't whole records, a count passes its slice or limit, or over 64 runs */
#define NALDREV_BAD_TERM 2                /* a term breaks its rule */
#define NALDREV_BAD_NODE 3                /* a node breaks its rule, or node 0 is missing */
#define NALDREV_BAD_FIELD 4               /* no such node, or a length past its reach */
#define NALDREV_PAST_END 5                /* a count, range or run reaches past its end */
#define NALDREV_TOO_LONG 6                /* a field would pass NALDREV_MAX_LENGTH terms */
#define NALDREV_BAD_PATTERN 7             /* a pattern record breaks its rule */
#define NALDREV_BAD_BINDING 8             /* a binding breaks its rule, or repeats a name */
#define NALDREV_TOO_MANY_NAMES 9          /* start and pattern name over NALDREV_MAX_ENTRIES */
#define NALDREV_NO_MATCH 10               /* there is no candidate */
#define NALDREV_CALLS_ARE_NOT_PATTERNS 11 /* a try reached a call or a block */
#define NALDREV_NODES_FULL 12             /* the new nodes exceed the unused ones */
#define NALDREV_TERMS_FULL 13             /* the settled copy exceeds the unused terms */
#define NALDREV_WORK_SHORT 14             /* the copy exceeds the work buffer */
#define NALDREV_MORE_THAN_FIT 15          /* the slots are full, and a further candidate exists */
#define NALDREV_BAD_SHEET 16              /* the text isn't a sheet */

/* A short sentence for a number that a function returned. */
static inline const char *naldrev_text(size_t number)
{
    switch (number) {
    case NALDREV_OK: return "accepted";
    case NALDREV_UNEVEN: return "a slice is not whole records, or a count passes its slice or its limit";
    case NALDREV_BAD_TERM: return "a term breaks its rule";
    case NALDREV_BAD_NODE: return "a node breaks its rule, or node 0 is missing";
    case NALDREV_BAD_FIELD: return "a field has no such node, or is longer than its node reaches";
    case NALDREV_PAST_END: return "a count, a range or a run reaches past its end";
    case NALDREV_TOO_LONG: return "the field would be too long";
    case NALDREV_BAD_PATTERN: return "a pattern record breaks its rule";
    case NALDREV_BAD_BINDING: return "a binding breaks its rule, or repeats a name";
    case NALDREV_TOO_MANY_NAMES: return "bindings and pattern have too many names";
    case NALDREV_NO_MATCH: return "the pattern does not fit";
    case NALDREV_CALLS_ARE_NOT_PATTERNS: return "a try reached a call or a block";
    case NALDREV_NODES_FULL: return "there is no room for the new nodes";
    case NALDREV_TERMS_FULL: return "there is no room for the new terms";
    case NALDREV_WORK_SHORT: return "the slice to write to is too short";
    case NALDREV_MORE_THAN_FIT: return "the slots are full, and there is a further candidate";
    case NALDREV_BAD_SHEET: return "the text is not a sheet";
    default: return "unknown number";
    }
}

/* ---- widths of the records, in words ---- */

#define NALDREV_TERM_WIDTH 5    /* kind, a, b, c, d */
#define NALDREV_NODE_WIDTH 6    /* kind, a, b, c, height, reach */
#define NALDREV_RUN_WIDTH 2     /* start, length, both counted in terms of the term store */
#define NALDREV_PATTERN_WIDTH 4 /* kind, a, b, 0 */
#define NALDREV_BINDING_WIDTH 5 /* kind, name offset, name length, run start, run length */

/* ---- kinds of records ---- */

/* Terms; 0 to 2 are kinds of pattern records too. A word that is not named here has to be 0. */
#define NALDREV_CHAR 0       /* a: Unicode scalar value */
#define NALDREV_IDENTIFIER 1 /* a, b: offset and length in the names; compared with ASCII case ignored */
#define NALDREV_NUMBER 2     /* a, b: offset and length in the names; compared without leading zeros, 007 as 7 */
#define NALDREV_BRACKET 3    /* a, b: start and length of the contents, all below; c: depth */
#define NALDREV_UNKNOWN 4    /* a: 0 symbol, 1 term, 2 expression; b, d: lower and upper 32 bits of the level; c: index */

/* Pattern records; 5 to 7 are kinds of bindings too. */
#define NALDREV_OPEN 3         /* a: its close */
#define NALDREV_CLOSE 4        /* a: its open */
#define NALDREV_S_VARIABLE 5   /* a, b: offset and length in the names */
#define NALDREV_T_VARIABLE 6   /* a, b: offset and length in the names */
#define NALDREV_E_VARIABLE 7   /* a, b: offset and length in the names */
#define NALDREV_CALL 8
#define NALDREV_BLOCK 9

/* ---- limits ---- */

#define NALDREV_MAX_NAMES 65536  /* bytes */
#define NALDREV_MAX_TERMS 65536
#define NALDREV_MAX_NODES 65536
#define NALDREV_MAX_LENGTH 65536 /* terms of a field */
#define NALDREV_MAX_RUNS 64
#define NALDREV_MAX_PATTERN 256  /* records */
#define NALDREV_MAX_ENTRIES 64   /* names of a candidate */
#define NALDREV_MAX_TEXT 255     /* bytes of an identifier, a number or a variable's name */
#define NALDREV_MAX_DEPTH 255    /* brackets in terms */
#define NALDREV_MAX_NESTING 32   /* brackets in patterns */

/* Of a sheet, less than of the calls above. */
#define NALDREV_SHEET_TERMS 512
#define NALDREV_SHEET_NAMES 4096   /* bytes */
#define NALDREV_SHEET_PATTERN 256  /* records */
#define NALDREV_SHEET_RUNS 64
#define NALDREV_SHEET_BYTES 43370  /* of the longest text of a sheet */
#define NALDREV_ANSWER_BYTES 42025 /* of the longest text that naldrev_run_sheet writes */

/* ---- calls that build a field: node and len of the new field are written ---- */

/* The terms of runs, in order. Writes new nodes after the used ones, and moves *nodes_used. */
size_t naldrev_from_runs(const uint8_t *names, size_t names_len, const uint32_t *terms, size_t terms_len, size_t terms_used,
                         uint32_t *nodes, size_t nodes_len, size_t *nodes_used, const uint32_t *runs, size_t runs_len, size_t *node,
                         size_t *len);

/* The left's terms, then the right's. Writes new nodes after the used ones, and moves *nodes_used. */
size_t naldrev_join(const uint8_t *names, size_t names_len, const uint32_t *terms, size_t terms_len, size_t terms_used, uint32_t *nodes,
                    size_t nodes_len, size_t *nodes_used, size_t left_node, size_t left_len, size_t right_node, size_t right_len,
                    size_t *node, size_t *len);

/* The first count terms of a field. Makes no node. */
size_t naldrev_take(const uint8_t *names, size_t names_len, const uint32_t *terms, size_t terms_len, size_t terms_used,
                    const uint32_t *nodes, size_t nodes_len, size_t nodes_used, size_t field_node, size_t field_len, size_t count,
                    size_t *node, size_t *len);

/* A field without its first count terms. Writes new nodes after the used ones, and moves *nodes_used. */
size_t naldrev_rest(const uint8_t *names, size_t names_len, const uint32_t *terms, size_t terms_len, size_t terms_used, uint32_t *nodes,
                    size_t nodes_len, size_t *nodes_used, size_t field_node, size_t field_len, size_t count, size_t *node, size_t *len);

/* count terms of a field after its first start. Writes new nodes after the used ones, and moves *nodes_used. */
size_t naldrev_range(const uint8_t *names, size_t names_len, const uint32_t *terms, size_t terms_len, size_t terms_used, uint32_t *nodes,
                     size_t nodes_len, size_t *nodes_used, size_t field_node, size_t field_len, size_t start, size_t count, size_t *node,
                     size_t *len);

/* ---- calls that read ---- */

/* Whether a field starts with another's terms: *yes is 1 or 0. */
size_t naldrev_starts_with(const uint8_t *names, size_t names_len, const uint32_t *terms, size_t terms_len, size_t terms_used,
                           const uint32_t *nodes, size_t nodes_len, size_t nodes_used, size_t field_node, size_t field_len,
                           size_t front_node, size_t front_len, size_t *yes);

/* Whether two fields hold equal terms: *yes is 1 or 0. */
size_t naldrev_equal(const uint8_t *names, size_t names_len, const uint32_t *terms, size_t terms_len, size_t terms_used,
                     const uint32_t *nodes, size_t nodes_len, size_t nodes_used, size_t left_node, size_t left_len, size_t right_node,
                     size_t right_len, size_t *yes);

/* A field's terms in one run. *in_work 0: count terms of the term store from term *start on. *in_work 1: they were copied, and are the first
   *count records of work (*start is 0). The length of work is a multiple of NALDREV_TERM_WIDTH. */
size_t naldrev_flatten(const uint8_t *names, size_t names_len, const uint32_t *terms, size_t terms_len, size_t terms_used,
                       const uint32_t *nodes, size_t nodes_len, size_t nodes_used, size_t field_node, size_t field_len, uint32_t *work,
                       size_t work_len, size_t *in_work, size_t *start, size_t *count);

/* Whether two runs of the term store hold equal terms: *yes is 1 or 0. */
size_t naldrev_compare_runs(const uint8_t *names, size_t names_len, const uint32_t *terms, size_t terms_len, size_t terms_used,
                            size_t first_start, size_t first_len, size_t second_start, size_t second_len, size_t *yes);

/* ---- matching ---- */

/* Returns the number of names of pattern and bindings together, not a refusal: a slot has that many runs. 0 where NALDREV_UNEVEN,
   NALDREV_BAD_PATTERN, NALDREV_BAD_BINDING or NALDREV_TOO_MANY_NAMES would refuse pattern and bindings (the length of the names is not looked
   at). */
size_t naldrev_name_count(const uint8_t *names, size_t names_len, const uint32_t *pattern, size_t pattern_len, const uint32_t *bindings,
                          size_t bindings_len);

/* Lists the candidates of a pattern over a field, from starting bindings, into slots. A slot is one candidate: *entries runs (start, length)
   of the term store, the starting bindings' first, then the pattern's names by first occurrence. The slice of slots may have any length: as
   many slots as fit whole are filled, words after them stay. *count is the number of slots written; at NALDREV_MORE_THAN_FIT too. With no
   names a slot has no words, and there is one.
   A field that is not one run is first copied after the used terms, and *terms_used moves by it (settling). The copy stays at 0,
   NALDREV_NO_MATCH, NALDREV_CALLS_ARE_NOT_PATTERNS and NALDREV_MORE_THAN_FIT. */
size_t naldrev_match_pattern_with_bindings_candidates(const uint8_t *names, size_t names_len, uint32_t *terms, size_t terms_len,
                                                      size_t *terms_used, const uint32_t *nodes, size_t nodes_len, size_t nodes_used,
                                                      size_t field_node, size_t field_len, const uint32_t *pattern, size_t pattern_len,
                                                      const uint32_t *bindings, size_t bindings_len, uint32_t *slots, size_t slots_len,
                                                      size_t *count, size_t *entries);

/* The first candidate alone, as that list has it: *count is 1. NALDREV_MORE_THAN_FIT only if no slot fits, and then *count is 0. */
size_t naldrev_match_pattern_first(const uint8_t *names, size_t names_len, uint32_t *terms, size_t terms_len, size_t *terms_used,
                                   const uint32_t *nodes, size_t nodes_len, size_t nodes_used, size_t field_node, size_t field_len,
                                   const uint32_t *pattern, size_t pattern_len, const uint32_t *bindings, size_t bindings_len,
                                   uint32_t *slots, size_t slots_len, size_t *count, size_t *entries);

/* ---- sheets: terms, names, a pattern and runs as one text (docs/REFERENCE.md, "The sheet") ---- */

/* Reads a sheet. Its words go to the start of terms, pattern and runs; its counts are in records, *name_count in bytes. The names stay in the
   text: *name_count bytes from text + *name_start on. NALDREV_BAD_SHEET if the text is no sheet, NALDREV_WORK_SHORT if a slice is too short
   for its words; slices for the NALDREV_SHEET limits never are. */
size_t naldrev_read_sheet(const uint8_t *text, size_t text_len, uint32_t *terms, size_t terms_len, uint32_t *pattern, size_t pattern_len,
                          uint32_t *runs, size_t runs_len, size_t *term_count, size_t *name_start, size_t *name_count,
                          size_t *pattern_count, size_t *run_count);

/* Writes a sheet's text to the first *written bytes of out. NALDREV_UNEVEN if a slice isn't whole records or passes its NALDREV_SHEET limit,
   NALDREV_WORK_SHORT if out is too short; NALDREV_SHEET_BYTES are always enough. The records themselves are not checked. */
size_t naldrev_write_sheet(const uint32_t *terms, size_t terms_len, const uint8_t *names, size_t names_len, const uint32_t *pattern,
                           size_t pattern_len, const uint32_t *runs, size_t runs_len, uint8_t *out, size_t out_len, size_t *written);

/* Writes to the first *written bytes of out what the program `sheet` prints for a text: the listing's answer, or the line of a refusal, and
   returns NALDREV_OK for either. NALDREV_WORK_SHORT if out is too short; NALDREV_ANSWER_BYTES are always enough. */
size_t naldrev_run_sheet(const uint8_t *text, size_t text_len, uint8_t *out, size_t out_len, size_t *written);

#ifdef __cplusplus
}
#endif

#endif
