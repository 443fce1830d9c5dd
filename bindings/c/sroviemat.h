/*
 * The doors of the static library, for C and C++ on Linux, x86-64 or Arm. docs/API.md says all of them in full: memory, answers,
 * kinds, modes. tools/test-c holds this file against the page, the library's code and the Rust crate.
 *
 * Link with target/staticlib/libexports.a (tools/build-library); for the second door, below, also with
 * target/staticlib/liblist_exports.a (tools/build-library list_exports).
 *
 * Every pointer points to as many bytes, numbers or records as said, for the whole call, and is not null even where the
 * length is 0. What a door writes overlaps nothing else that it is given. No door keeps a pointer, asks for memory or has
 * a state, and two calls may run at once if neither writes what the other uses.
 */
#ifndef SROVIEMAT_H
#define SROVIEMAT_H

#include <stdint.h>

#ifdef __cplusplus
extern "C" {
#endif

/* The number of the interface that is declared here: what srv_version must answer. */
#define SRV_VERSION 5

/* How many numbers a record has in a row: kind, start, end, and the line of the start, from 0. */
#define SRV_STRIDE 4

/* How many numbers an answer has: code, count, place, detail. The code is 0, 20 to 33 for a text in error, 34 for an audit
   that comes to a 201st open bracket, or 1 to 6 for a refusal. The detail is what is wrong with the bytes for code 3, not
   UTF-8 (1 to 7: docs/API.md, "Faults of UTF-8"); the character's number for code 26; else 0. */
#define SRV_ANSWER 4

/* What a text is read as: a module, a line typed at a prompt, an expression; then the same with comments and all newlines
   in the list. */
enum {
    SRV_MODULE = 0,
    SRV_INTERACTIVE = 1,
    SRV_EXPRESSION = 2,
    SRV_MODULE_WITH_COMMENTS = 3,
    SRV_INTERACTIVE_WITH_COMMENTS = 4,
    SRV_EXPRESSION_WITH_COMMENTS = 5
};

/*
 * Reads a text in UTF-8 into a row of numbers, SRV_STRIDE a record, and answers how it ended. `start` is added to every
 * place in the row and in the answer. The count is how many records were written; what lies behind them is as it was. A
 * row for 2 * bytes + 1 records is always long enough, and the fastest.
 */
void srv_read(const uint8_t *text, uint64_t bytes, uint32_t mode, uint32_t start,
              uint32_t *row, uint64_t numbers, uint32_t answer[SRV_ANSWER]);

/* Answers what srv_read answers where the row has room enough; takes no row, and is never code 4. */
void srv_measure(const uint8_t *text, uint64_t bytes, uint32_t mode, uint32_t start,
                 uint32_t answer[SRV_ANSWER]);

/*
 * Reads a text again, at start 0, after an edit that left its first `a` bytes as they were when the row's first `old`
 * records were read: keeps the records up to the last Newline that ends below `a`, and reads on behind it.
 */
void srv_reread(const uint8_t *text, uint64_t bytes, uint32_t mode,
                uint32_t *row, uint64_t numbers, uint32_t old, uint32_t a, uint32_t answer[SRV_ANSWER]);

/* Finds the first wrong closer among a row's first `old` records, one that does not close the latest opener that is still
   open, of its own kind: the place is its index, or else `old`. Up to 200 openers may be open: where a 201st comes first,
   the code is 34 and the place its index. */
void srv_audit(const uint32_t *row, uint64_t numbers, uint32_t old, uint32_t answer[SRV_ANSWER]);

/* The number of the interface that the linked library has. */
uint32_t srv_version(void);

/* Adds up 1 for a start of identifiers, 2 for a continuation, 4 for an emoji; 0 for any other number. */
uint32_t srv_class(uint32_t character);

/* The second door: the same calls over a list of records. The answer comes back by value. */
typedef struct { uint32_t kind, start, end, line; } SrvRecord;
typedef struct { uint32_t code, count, place, detail; } SrvAnswer;

/* srv_read over a list. */
SrvAnswer srv_list_read(const uint8_t *text, uint64_t bytes, uint32_t mode, uint32_t start,
                        SrvRecord *list, uint64_t records);

/* srv_reread over a list. */
SrvAnswer srv_list_reread(const uint8_t *text, uint64_t bytes, uint32_t mode,
                          SrvRecord *list, uint64_t records, uint32_t old, uint32_t a);

/* srv_audit over a list. */
SrvAnswer srv_list_audit(const SrvRecord *list, uint64_t records, uint32_t old);

#ifdef __cplusplus
}
#endif

#endif
