/* Links the static library from C and checks pairs of files: FORMULA PROOF ANSWER STEP, again and again.
 *
 * It shows how the library is called, and that header and archive fit together: the answers and steps have to be those on the
 * command line, each readable formula has to be written out as what is written out as itself, and a work store of no length
 * has to be too short. It is no tool: it takes the lengths that always do, with room for all variables, and gives up where
 * memory or a file can't be had.
 */
#include "../../include/proofscale.h"

#include <stdio.h>
#include <stdlib.h>
#include <string.h>

/* The greatest variable of document 01. */
#define VARIABLES 16777215u

struct file {
    uint8_t *bytes;
    size_t length;
};

struct store {
    uint32_t *heads, *lits, *hints, *guess, *tape;
    uint8_t *marks;
    size_t heads_length, lits_length, hints_length, guess_length, marks_length, tape_length;
};

static void give_up(const char *what, const char *name) {
    fprintf(stderr, "check_pairs: %s: %s\n", name, what);
    exit(2);
}

/* So many zeros; never NULL, also for none. */
static void *zeros(size_t count, size_t width) {
    void *start = calloc(count == 0 ? 1 : count, width);
    if (start == NULL) {
        give_up("no memory for it", "the work store");
    }
    return start;
}

static struct file read_file(const char *name) {
    struct file file = {zeros(1, 1), 0};
    size_t room = 1;
    FILE *from = fopen(name, "rb");
    if (from == NULL) {
        give_up("can't be opened", name);
    }
    for (;;) {
        if (file.length == room) {
            uint8_t *more = realloc(file.bytes, room *= 2);
            if (more == NULL) {
                give_up("no memory for it", name);
            }
            file.bytes = more;
        }
        size_t got = fread(file.bytes + file.length, 1, room - file.length, from);
        if (got == 0) {
            break;
        }
        file.length += got;
    }
    if (ferror(from)) {
        give_up("can't be read", name);
    }
    fclose(from);
    return file;
}

/* The lengths of proofscale.h that always do, and a guess for each clause that there may be. */
static struct store make_store(size_t f, size_t p) {
    struct store s;
    s.heads_length = (3 * (f + p) + 12) / 2;
    s.lits_length = (f + p + 3) / 2;
    s.hints_length = (p + 2) / 2;
    s.guess_length = (f + p) / 4;
    s.marks_length = 2 * (size_t)VARIABLES + 2;
    s.tape_length = f + p + 2;
    s.heads = zeros(s.heads_length, sizeof *s.heads);
    s.lits = zeros(s.lits_length, sizeof *s.lits);
    s.hints = zeros(s.hints_length, sizeof *s.hints);
    s.guess = zeros(s.guess_length, sizeof *s.guess);
    s.marks = zeros(s.marks_length, sizeof *s.marks);
    s.tape = zeros(s.tape_length, sizeof *s.tape);
    return s;
}

static void free_store(struct store *s) {
    free(s->heads);
    free(s->lits);
    free(s->hints);
    free(s->guess);
    free(s->marks);
    free(s->tape);
}

static uint64_t check(struct file formula, struct file proof, struct store *s, uint64_t *step, uint64_t *turns) {
    return proofscale_check(formula.bytes, formula.length, proof.bytes, proof.length, s->heads, s->heads_length, s->lits,
                            s->lits_length, s->hints, s->hints_length, s->guess, s->guess_length, s->marks, s->marks_length,
                            s->tape, s->tape_length, step, turns);
}

static int failed = 0;

static void expect(int right, const char *what, const char *name) {
    if (!right) {
        printf("FAILED: %s: %s\n", name, what);
        failed = 1;
    }
}

/* What is written out has to be written out as itself. */
static void write_twice(struct file formula, struct store *s, const char *name) {
    size_t room = formula.length + 2;
    uint8_t *once = zeros(room, 1), *twice = zeros(room, 1);
    uint64_t length = 0, again = 0;
    uint64_t answer = proofscale_write(formula.bytes, formula.length, s->heads, s->heads_length, s->lits, s->lits_length, once,
                                       room, &length);
    expect(answer == PROOFSCALE_VERIFIED && length <= room, "the formula was not written out", name);
    answer = proofscale_write(once, length, s->heads, s->heads_length, s->lits, s->lits_length, twice, room, &again);
    expect(answer == PROOFSCALE_VERIFIED && again == length && memcmp(once, twice, length) == 0,
           "what was written out is not written out as itself", name);
    memset(twice, 'x', room);
    answer = proofscale_write(once, length, s->heads, s->heads_length, s->lits, s->lits_length, twice, length - 1, &again);
    expect(answer == PROOFSCALE_OUTPUT_TOO_SHORT && twice[0] == 'x', "an output that is too short was written to", name);
    free(once);
    free(twice);
}

static void check_pair(const char *formula_name, const char *proof_name, uint64_t answer, uint64_t step) {
    struct file formula = read_file(formula_name), proof = read_file(proof_name);
    struct store s = make_store(formula.length, proof.length);
    uint64_t got_step = 99, turns = 0;
    uint64_t got = check(formula, proof, &s, &got_step, &turns);
    printf("%s %s: answer %llu step %llu, %llu turns\n", formula_name, proof_name, (unsigned long long)got,
           (unsigned long long)got_step, (unsigned long long)turns);
    expect(got == answer && got_step == step, "another answer was expected", proof_name);
    if (answer != PROOFSCALE_UNREADABLE_FORMULA) {
        write_twice(formula, &s, formula_name);
        struct store none = s;
        none.heads_length = none.lits_length = none.hints_length = none.guess_length = none.marks_length = none.tape_length = 0;
        expect(check(formula, proof, &none, &got_step, &turns) == PROOFSCALE_TOO_SHORT, "no store at all was enough", proof_name);
    }
    free_store(&s);
    free(formula.bytes);
    free(proof.bytes);
}

int main(int count, char **words) {
    if (count < 5 || (count - 1) % 4 != 0) {
        fprintf(stderr, "usage: check_pairs {FORMULA PROOF ANSWER STEP}...\n");
        return 2;
    }
    for (int i = 1; i < count; i += 4) {
        check_pair(words[i], words[i + 1], strtoull(words[i + 2], NULL, 10), strtoull(words[i + 3], NULL, 10));
    }
    return failed;
}
