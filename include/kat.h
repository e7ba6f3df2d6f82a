/* SPDX-License-Identifier: MIT OR Apache-2.0 */
/* The calls of kat for C: each but kat_version is a command of docs/commands.md on bytes, without files.
 *
 * A text is a pointer and a length; it needs no byte 0 at its end. OUT points to ROOM bytes for the output, and NEEDED to a
 * place for the length of the whole output. Each call of a command sets *NEEDED and answers a status:
 *
 *   0, 1, 2, 3    that of the command, as named below. The output is in the first *NEEDED bytes at OUT; the bytes after
 *                 them are unchanged.
 *   6             out of memory. *NEEDED is 0, and nothing is written at OUT.
 *   7             PROG or STORE does not fit the text, as with the command. The output is "refused: words\n".
 *   9             the output has *NEEDED bytes, more than ROOM. Nothing is written at OUT: call again with that much room.
 *
 * It is proved that the status and the output are those that the command is proved to give (crates/kat_c). Nothing checks
 * what a caller in C does, so keep to this:
 *
 *   - no pointer is null, also where its length is 0;
 *   - the memory at OUT and at NEEDED overlaps nothing else that is passed;
 *   - no other thread writes to the texts, or reads or writes OUT and NEEDED, until the call returns.
 *
 * No state is kept between calls, so any number of threads may call at once. docs/embedding.md has the rest: how to link,
 * what the calls need of malloc, and the stack. */
#ifndef KAT_H
#define KAT_H

#include <stddef.h>
#include <stdint.h>

/* The version of the release that this header belongs to, as CHANGELOG.md names it, and the same as one number, which is greater
 * for a later version. kat_version answers that of the library. */
#define KAT_VERSION "0.8.0"
#define KAT_VERSION_MAJOR 0
#define KAT_VERSION_MINOR 8
#define KAT_VERSION_PATCH 0
#define KAT_VERSION_NUMBER (KAT_VERSION_MAJOR * 1000000 + KAT_VERSION_MINOR * 1000 + KAT_VERSION_PATCH)

#ifdef __cplusplus
extern "C" {
#endif

enum kat_status {
    KAT_EQUAL = 0,      /* the goal holds, evidence of it is accepted, or the command succeeded */
    KAT_DIFFERENT = 1,  /* the goal does not hold or is false from a store, evidence of that is accepted, or a run did not end */
    KAT_REFUSED = 2,    /* a text is refused: the output says why, "refused: WORD" and the place */
    KAT_REJECTED = 3,   /* evidence, a proof or notes do not show what they claim: the output says why */
    KAT_NO_MEMORY = 6,
    KAT_NO_SUCH = 7,    /* the text has no such program, or the store does not fit it */
    KAT_NO_ROOM = 9
};

/* The version of the library as one number: 1,000,000 times its first number, plus 1,000 times its second, plus its third.
 * It is KAT_VERSION_NUMBER if the library is of the release that this header belongs to. */
uint32_t kat_version(void);

/* Decides the goal of a problem file. The output is evidence: a certificate with 0, a shortest string with 1. */
uint8_t kat_decide(const uint8_t *text, size_t length, uint8_t *out, size_t room, size_t *needed);

/* The same with a line of JSON as its output. */
uint8_t kat_decide_json(const uint8_t *text, size_t length, uint8_t *out, size_t room, size_t *needed);

/* Decides each of up to 64 goals of a problem file: 0 if all hold, 1 if one does not. */
uint8_t kat_batch(const uint8_t *text, size_t length, uint8_t *out, size_t room, size_t *needed);

/* Checks evidence for the goal of a problem file, whoever wrote it: 0 or 1 if it is accepted. */
uint8_t kat_check(const uint8_t *text, size_t length, const uint8_t *evidence, size_t evidence_length,
                  uint8_t *out, size_t room, size_t *needed);

/* Prints the string of evidence, state by state: 0 if it is a string that fits the problem. */
uint8_t kat_replay(const uint8_t *text, size_t length, const uint8_t *evidence, size_t evidence_length,
                   uint8_t *out, size_t room, size_t *needed);

/* Explains evidence in the words of the problem file: 0 if it shows what it claims. */
uint8_t kat_explain(const uint8_t *text, size_t length, const uint8_t *evidence, size_t evidence_length,
                    uint8_t *out, size_t room, size_t *needed);

/* Looks for a store from which the goal of a problem file, of two programs or a triple of one, is false, with runs of at most
 * TURNS loop bodies: 1 with the store and the ends of its runs, 0 if none of the stores tried, 20,000 at most, is one. */
uint8_t kat_try(const uint8_t *text, size_t length, uint64_t turns, uint8_t *out, size_t room, size_t *needed);

/* The same, but the stores that follow the string of evidence are tried first. */
uint8_t kat_try_with(const uint8_t *text, size_t length, uint64_t turns, const uint8_t *evidence, size_t evidence_length,
                     uint8_t *out, size_t room, size_t *needed);

/* Checks a proof that turns one side of the goal into the other by axioms: 0 if it is one. */
uint8_t kat_chain(const uint8_t *text, size_t length, const uint8_t *proof, size_t proof_length,
                  uint8_t *out, size_t room, size_t *needed);

/* Proves a triple of a program: 0 with notes, 1 with a string that refutes it. */
uint8_t kat_outline(const uint8_t *text, size_t length, uint8_t *out, size_t room, size_t *needed);

/* Checks notes in the program of a triple, whoever wrote them: 0 if they follow one from the other. */
uint8_t kat_outline_check(const uint8_t *text, size_t length, const uint8_t *notes, size_t notes_length,
                          uint8_t *out, size_t room, size_t *needed);

/* Prints the problem of tests and actions that is decided for a problem file. */
uint8_t kat_show(const uint8_t *text, size_t length, uint8_t *out, size_t room, size_t *needed);

/* Translates a text of guarded programs into a problem file. */
uint8_t kat_gkat(const uint8_t *text, size_t length, uint8_t *out, size_t room, size_t *needed);

/* Prints the question whether two flow graphs always return the same as a problem file. */
uint8_t kat_flow(const uint8_t *text, size_t length, uint8_t *out, size_t room, size_t *needed);

/* Runs a program of a problem file from a store, as "a=12,b=18", for at most TURNS loop bodies: 0 if it ends. */
uint8_t kat_run(const uint8_t *text, size_t length, const uint8_t *prog, size_t prog_length,
                const uint8_t *store, size_t store_length, uint64_t turns, uint8_t *out, size_t room, size_t *needed);

/* Prints an equivalent program with a single loop. */
uint8_t kat_oneloop(const uint8_t *text, size_t length, const uint8_t *prog, size_t prog_length,
                    uint8_t *out, size_t room, size_t *needed);

/* Rewrites a program by at most TURNS steps that the prover finds correct, and prints the steps and the program. */
uint8_t kat_optimise(const uint8_t *text, size_t length, const uint8_t *prog, size_t prog_length, uint64_t turns,
                     uint8_t *out, size_t room, size_t *needed);

#ifdef __cplusplus
}
#endif

#endif
