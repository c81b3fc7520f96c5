/* A small plain checker of LRAT steps without deletions, to compare with: the CNF on the standard input, the steps in
   a file. Each text is read whole, and its numbers are parsed by hand. It prints `verified` where each step is accepted
   and one is empty. */
#include <stdio.h>
#include <stdlib.h>
#include <string.h>

struct text {
    const char *at, *end;
};

static struct text read_whole(FILE *in) {
    size_t size = 0, room = 1 << 16;
    char *bytes = malloc(room);
    for (size_t got; bytes && (got = fread(bytes + size, 1, room - size, in)) > 0;) {
        size += got;
        if (size == room) bytes = realloc(bytes, room *= 2);
    }
    if (!bytes) exit(3);
    return (struct text){bytes, bytes + size};
}

static long next_number(struct text *in, int *ok) {
    const char *p = in->at;
    while (p < in->end && (*p == ' ' || *p == '\n' || *p == '\r' || *p == '\t')) p++;
    int negative = p < in->end && *p == '-';
    p += negative;
    const char *first = p;
    long value = 0;
    while (p < in->end && *p >= '0' && *p <= '9' && p - first < 10) value = 10 * value + (*p++ - '0');
    in->at = p;
    *ok = p > first;
    return negative ? -value : value;
}

static int *lits;
static size_t used, room;
static size_t *begins;
static size_t clauses, clause_room;

static void push_lit(int lit) {
    if (used == room) lits = realloc(lits, (room = room ? 2 * room : 1024) * sizeof *lits);
    lits[used++] = lit;
}

static void begin_clause(void) {
    if (clauses + 2 > clause_room) begins = realloc(begins, (clause_room = clause_room ? 2 * clause_room : 1024) * sizeof *begins);
    begins[clauses++] = used;
    begins[clauses] = used;
}

int main(int argc, char **argv) {
    static const char head[] = "p cnf";
    int ok;
    if (argc != 2) return 2;
    struct text cnf = read_whole(stdin);
    if ((size_t)(cnf.end - cnf.at) < sizeof head - 1 || memcmp(cnf.at, head, sizeof head - 1)) return 2;
    cnf.at += sizeof head - 1;
    long vars = next_number(&cnf, &ok), count = next_number(&cnf, &ok);
    if (!ok) return 2;
    for (long i = 0; i < count; i++) {
        begin_clause();
        for (long lit; (lit = next_number(&cnf, &ok)) != 0 && ok;) push_lit((int)lit);
        begins[clauses] = used;
    }
    unsigned *stamps = calloc(2 * vars + 2, sizeof *stamps);
    unsigned round = 0;
    FILE *file = fopen(argv[1], "r");
    if (!file) return 3;
    struct text in = read_whole(file);
    int reached = 0;
    for (;;) {
        long id = next_number(&in, &ok);
        if (!ok) break;
        if (id != (long)clauses + 1) return 8;
        begin_clause();
        round++;
        for (long lit; (lit = next_number(&in, &ok)) != 0 && ok;) {
            push_lit((int)lit);
            stamps[lit > 0 ? 2 * lit + 1 : -2 * lit] = round;
        }
        begins[clauses] = used;
        if (begins[clauses] == begins[clauses - 1]) reached = 1;
        int done = 0;
        for (long hint; (hint = next_number(&in, &ok)) != 0 && ok;) {
            if (done) continue;
            if (hint < 1 || hint >= id) return 8;
            int open = 0, unit = 0;
            for (size_t k = begins[hint - 1]; k < begins[hint]; k++) {
                int lit = lits[k];
                int same = lit > 0 ? 2 * lit : -2 * lit + 1;
                if (stamps[same] == round) return 8;
                if (stamps[same ^ 1] != round && lit != unit) { open++; unit = lit; }
            }
            if (open > 1) return 8;
            if (open == 0) done = 1;
            else stamps[unit > 0 ? 2 * unit : -2 * unit + 1] = round;
        }
        if (!done) return 8;
    }
    if (!reached) return 8;
    puts("verified");
    return 0;
}
