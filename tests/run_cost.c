// A run in plain C, and the program that makes a run by it or by the library: tests/run_cost.py counts the instructions of both.
//
// `run_cost plain` and `run_cost library` read the algorithm's byte, that of n and a schedule from standard input, and write the six
// numbers of the answer and the entries. Words in quotation marks are document 01's.

// The kit has a C compiler and the C library, but no headers.
typedef unsigned char byte;
typedef unsigned long size;
long read(int file, void *to, size most);
long write(int file, const void *from, size length);

enum { SLOTS = 16, NONE = -1, UNBOUNDED = 0, TOKEN_LIMIT = 1000000, SCHEDULE_LIMIT = 60000 };
enum { NO_REFUSAL = 0, BAD_PROCESS_NUMBER = 4, ABOVE_TOKEN_LIMIT = 5 };

// The answer of a run but for its table.
struct counts {
    size moved, waited, entries, waiting, place;
    byte stop;
};

// Both begin with a fresh table, as all runs here do. This is the library's:
struct counts library_run(byte algorithm, byte n, const byte *schedule, size length, byte *entries, size room);

struct row {
    byte line, index, choosing;
    int token, pivot, cells[SLOTS];
};

struct table {
    byte algorithm, n;
    int x;
    struct row rows[SLOTS];
};

// "remainders are 0 to M - 1"
static int remainder_by(int m, int v)
{
    int rest = v % m;
    return rest < 0 ? rest + m : rest;
}

static int modulus(int n)
{
    return 2 * n - 1;
}

// "1 + the largest of the pivot and the read cells"
static int next_unbounded(const struct row *r)
{
    int most = r->pivot;
    for (int k = 0; k < SLOTS; k++)
        if (r->cells[k] > most)
            most = r->cells[k];
    return 1 + most;
}

// "with pivot p, shift each read cell v that is not -1, and p itself, to (v + n - 1 - p) mod M; let m be the largest. The next token is
// (m + p - n + 2) mod M."
static int next_bounded(int n, const struct row *r)
{
    int p = r->pivot;
    int most = n - 1;
    for (int k = 0; k < SLOTS; k++)
        if (r->cells[k] != NONE) {
            int shifted = remainder_by(modulus(n), r->cells[k] + n - 1 - p);
            if (shifted > most)
                most = shifted;
        }
    return remainder_by(modulus(n), most + p - n + 2);
}

static int goes_before(const struct table *t, int i, int j)
{
    int token_i = t->rows[i - 1].token;
    int token_j = t->rows[j - 1].token;
    if (t->algorithm == UNBOUNDED)
        return token_i < token_j || (token_i == token_j && i < j);
    int d = remainder_by(modulus(t->n), token_j - token_i);
    return (1 <= d && d <= t->n - 1) || (d == 0 && i < j);
}

// To line 6 with "the next larger number other than i", or to line 8 "if there is none".
static void go_on(int n, int i, int j, struct row *r)
{
    int next = j + 1 == i ? j + 2 : j + 1;
    if (next <= n) {
        r->index = next;
        r->line = 6;
    } else {
        r->index = 0;
        r->line = 8;
    }
}

// One step of process i: 1 if it changed the table, 0 if it waits, -1 if it is refused by 5.
static int step(struct table *t, int i)
{
    struct row *r = &t->rows[i - 1];
    int j = r->index;
    switch (r->line) {
    case 1:
        r->choosing = 1;
        r->index = 1;
        r->line = 2;
        return 1;
    case 2:
        r->cells[j - 1] = t->rows[j - 1].token;
        if (j == t->n) {
            r->index = 0;
            r->line = 3;
        } else
            r->index = j + 1;
        return 1;
    case 3:
        r->pivot = t->x;
        r->line = 4;
        return 1;
    case 4: {
        int token = t->algorithm == UNBOUNDED ? next_unbounded(r) : next_bounded(t->n, r);
        if (token > TOKEN_LIMIT)
            return -1;
        r->token = token;
        r->pivot = NONE;
        for (int k = 0; k < SLOTS; k++)
            r->cells[k] = NONE;
        r->line = 5;
        return 1;
    }
    case 5:
        r->choosing = 0;
        go_on(t->n, i, 0, r);
        return 1;
    case 6:
        if (t->rows[j - 1].choosing != 0)
            return 0;
        r->line = 7;
        return 1;
    case 7:
        if (t->rows[j - 1].token != NONE && !goes_before(t, i, j))
            return 0;
        go_on(t->n, i, j, r);
        return 1;
    case 8:
        t->x = r->token;
        r->line = 9;
        return 1;
    case 9:
        r->line = 10;
        return 1;
    default:
        r->token = NONE;
        r->line = 1;
        return 1;
    }
}

static void start(struct table *t, byte algorithm, byte n)
{
    t->algorithm = algorithm;
    t->n = n;
    t->x = 0;
    for (int k = 0; k < SLOTS; k++) {
        struct row *r = &t->rows[k];
        r->line = 1;
        r->index = 0;
        r->choosing = 0;
        r->token = NONE;
        r->pivot = NONE;
        for (int j = 0; j < SLOTS; j++)
            r->cells[j] = NONE;
    }
}

// Not inlined, since the library's is not: in `main` the compiler would see which buffers it is lent.
__attribute__((noinline)) static struct counts plain_run(byte algorithm, byte n, const byte *schedule, size length, byte *entries)
{
    struct table t;
    struct counts c = { 0, 0, 0, 0, 0, NO_REFUSAL };
    start(&t, algorithm, n);
    while (c.place < length) {
        int i = schedule[c.place];
        if (i < 1 || i > t.n) {
            c.stop = BAD_PROCESS_NUMBER;
            break;
        }
        int line = t.rows[i - 1].line;
        int mark = step(&t, i);
        if (mark < 0) {
            c.stop = ABOVE_TOKEN_LIMIT;
            break;
        }
        if (line == 8)
            entries[c.entries++] = i;
        c.moved += mark;
        c.place++;
    }
    c.waited = c.place - c.moved;
    for (int k = 0; k < SLOTS; k++)
        c.waiting += t.rows[k].line == 6 || t.rows[k].line == 7;
    return c;
}

static byte input[2 + SCHEDULE_LIMIT], entries[SCHEDULE_LIMIT];

int main(int words, char **word)
{
    long got = read(0, input, sizeof input);
    if (words != 2 || got < 2)
        return 2;
    const byte *schedule = input + 2;
    size length = got - 2;
    struct counts c;
    if (word[1][0] == 'p')
        c = plain_run(input[0], input[1], schedule, length, entries);
    else
        c = library_run(input[0], input[1], schedule, length, entries, sizeof entries);
    size numbers[6] = { c.moved, c.waited, c.entries, c.waiting, c.place, c.stop };
    write(1, numbers, sizeof numbers);
    write(1, entries, c.entries);
    return 0;
}
