/* Checks two rewritings of a loop, as a compiler would before it uses them: each evidence that kat_decide gives is given to
 * kat_check, and a string is explained by kat_replay. `run` builds and runs it. */
#include <stdio.h>
#include <stdlib.h>
#include <string.h>

#include "kat.h"

static const char before[] = "while i < n { sum := sum + i; i := i + 1; }";
static const char *const rewritings[][2] = {
    {"peeled", "if i < n { sum := sum + i; i := i + 1; while i < n { sum := sum + i; i := i + 1; } }"},
    {"hoisted", "if i < n { i := i + 1; while i < n { sum := sum + i; } }"},
};

struct text {
    uint8_t *bytes;
    size_t length;
};

typedef uint8_t of_one(const uint8_t *, size_t, uint8_t *, size_t, size_t *);
typedef uint8_t of_two(const uint8_t *, size_t, const uint8_t *, size_t, uint8_t *, size_t, size_t *);

static void *grown(void *bytes, size_t length) {
    void *more = realloc(bytes, length + 1);
    if (!more) {
        fputs("out of memory\n", stderr);
        exit(6);
    }
    return more;
}

/* The status of a call, with its whole output. The second text is for the calls that take one. */
static uint8_t call(of_one *one, of_two *two, struct text problem, struct text given, struct text *output) {
    size_t room = 64;
    uint8_t status;
    output->bytes = grown(NULL, room);
    for (;;) {
        status = one ? one(problem.bytes, problem.length, output->bytes, room, &output->length)
                     : two(problem.bytes, problem.length, given.bytes, given.length, output->bytes, room, &output->length);
        if (status != KAT_NO_ROOM)
            return status;
        room = output->length;
        output->bytes = grown(output->bytes, room);
    }
}

static int judge(const char *name, const char *after) {
    static const struct text none = {(uint8_t *)"", 0};
    char problem[1024];
    struct text text, evidence, verdict, told;
    uint8_t status;

    snprintf(problem, sizeof problem, "var i, n, sum;\nprog before { %s }\nprog after { %s }\ngoal equal before, after;\n", before, after);
    text.bytes = (uint8_t *)problem;
    text.length = strlen(problem);
    status = call(kat_decide, NULL, text, none, &evidence);
    printf("%s: decide %d\n", name, status);
    if (status > KAT_DIFFERENT) {
        fwrite(evidence.bytes, 1, evidence.length, stdout);
        return 1;
    }
    printf("%s: check %d, ", name, call(NULL, kat_check, text, evidence, &verdict));
    fwrite(verdict.bytes, 1, verdict.length, stdout);
    if (status == KAT_DIFFERENT) {
        printf("%s: replay %d\n", name, call(NULL, kat_replay, text, evidence, &told));
        fwrite(told.bytes, 1, told.length, stdout);
        free(told.bytes);
    }
    free(evidence.bytes);
    free(verdict.bytes);
    return 0;
}

int main(void) {
    int failed = 0;
    size_t at;
    if (kat_version() != KAT_VERSION_NUMBER) {
        fputs("the library is of another version than kat.h\n", stderr);
        return 1;
    }
    for (at = 0; at < sizeof rewritings / sizeof *rewritings; at++)
        failed |= judge(rewritings[at][0], rewritings[at][1]);
    return failed;
}
