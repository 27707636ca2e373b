/* What an opening reads of the list of currents: on basis 2 the words of the list and none beside them, and with any
 * other number for a basis nothing, wherever the pointer points and whatever count stands beside it. Memory that must
 * not be read ends the process that reads it, so each opening runs in a process of its own: one that dies is a check
 * that fails, and its case is shown. */
#define _DEFAULT_SOURCE
#include "point.h"

#include <signal.h>
#include <sys/mman.h>
#include <sys/resource.h>
#include <sys/wait.h>
#include <unistd.h>

/* Three pages, of which only the middle one may be read: its first word and the word past its last. */
static uint32_t *middle, *edge;

/* An opening, and what it has to give: a refusal, or the record of a point with the contract `kept`. */
typedef struct {
    sallowbingo_contract asked, kept;
    uint32_t year, month, number;
    size_t words;
} opening;

/* A list that is lent: its pointer, its count, and the place in it. */
typedef struct {
    const uint32_t *at;
    size_t points, place;
} list;

static void make_pages(void) {
    size_t bytes = (size_t)sysconf(_SC_PAGESIZE);
    char *pages = mmap(NULL, 3 * bytes, PROT_NONE, MAP_PRIVATE | MAP_ANONYMOUS, -1, 0);
    CHECK(pages != MAP_FAILED && mprotect(pages + bytes, bytes, PROT_READ | PROT_WRITE) == 0);
    middle = (uint32_t *)(void *)(pages + bytes);
    edge = (uint32_t *)(void *)(pages + 2 * bytes);
}

/* A store of any words, the same before each opening. */
static void fill_store(void) {
    for (size_t k = 0; k < ROOM; k++) store[k] = (uint32_t)(k * 2654435761u);
    remember();
}

/* Its words are 0, and those past its end as they were. */
static int cleared(void) {
    int clear = 1;
    for (size_t k = 0; k < ROOM; k++) clear &= store[k] == (k < SALLOWBINGO_STORE ? 0 : was[k]);
    return clear;
}

static int right(const opening *o, list l) {
    answer a = sallowbingo_open_point(o->asked, on(o->year, o->month), l.at, l.points, l.place, store, o->words);
    if (o->number != 0) return refused(a, o->number, zeros());
    return a.refusal == 0 && same(a.after, fresh(o->kept, o->year, o->month)) && no_figures(a) && cleared();
}

/* How a process ended: 0 well, 1 with a wrong answer, else less the signal that it died of. */
static int ended(pid_t child) {
    int status = 1;
    if (child < 0 || waitpid(child, &status, 0) != child) return 1;
    return WIFSIGNALED(status) ? -WTERMSIG(status) : WEXITSTATUS(status) != 0;
}

/* That opening with that list, in a process of its own, gives what it has to. */
static int survives(const opening *o, list l) {
    fflush(stdout);
    pid_t child = fork();
    if (child == 0) _exit(!right(o, l));
    int end = ended(child);
    if (end != 0)
        printf("  basis %u billing %u, number %u due, list at %p (edge %p), %zu points, place %zu: %s %d\n",
               o->asked.basis, o->asked.billing, o->number, (const void *)l.at, (const void *)edge, l.points, l.place,
               end < 0 ? "died of signal" : "wrong answer", end < 0 ? -end : end);
    return end == 0;
}

/* How a process ended that reads that word. */
static int reading(volatile const uint32_t *word) {
    fflush(stdout);
    pid_t child = fork();
    if (child == 0) _exit(*word != *word);
    return ended(child);
}

/* The pages do what they are for, and a process that dies is seen: the words beside the middle page end it. */
static void pages(void) {
    CHECK(reading(middle) == 0 && reading(edge - 1) == 0);
    CHECK(reading(middle - 1) == -SIGSEGV);
    CHECK(reading(edge) == -SIGSEGV);
}

/* NO LIST IS LENT: the basis is not 2. */

/* In the pages, at their edges and over them; low, high and odd addresses; the store itself; null. */
static const uint32_t *pointer(size_t which) {
    switch (which) {
    case 0: return NULL;
    case 1: return middle - 16;                           /* not to be read, then the middle page */
    case 2: return middle - 1;                            /* the same from the last such word on */
    case 3: return edge - 1;                              /* one word, then not to be read */
    case 4: return edge;                                  /* not to be read */
    case 5: return edge + 16;
    case 6: return (const uint32_t *)(uintptr_t)16;       /* not mapped */
    case 7: return (const uint32_t *)(uintptr_t)17;       /* and not aligned */
    case 8: return (const uint32_t *)((uintptr_t)edge + 1);
    case 9: return (const uint32_t *)((uintptr_t)1 << 63); /* an address that no process has */
    case 10: return (const uint32_t *)(UINTPTR_MAX - 3);
    default: return store;
    }
}

enum { POINTERS = 12 };

/* The opening gives the same with that pointer beside each count, and with a near or a far place. */
static int ignores(const opening *o, const uint32_t *at) {
    static const size_t counts[] = {0, 1, 2, 64, 65, SIZE_MAX / 4, SIZE_MAX};
    for (size_t k = 0; k < COUNT(counts); k++)
        if (!survives(o, (list){at, counts[k], k % 2 == 0 ? 0 : SIZE_MAX})) return 0;
    return 1;
}

static int looks_at_nothing(opening o) {
    size_t ignored = 0;
    fill_store();
    for (size_t p = 0; p < POINTERS; p++) ignored += ignores(&o, pointer(p)) ? 1 : 0;
    return ignored == POINTERS;
}

/* An opening in February 2023 that keeps the contract, and one that is refused with that number. */
static opening taken(sallowbingo_contract c) { return (opening){c, c, 2023, 2, 0, SALLOWBINGO_STORE}; }

static opening not_taken(uint32_t number, sallowbingo_contract c) {
    return (opening){c, c, 2023, 2, number, SALLOWBINGO_STORE};
}

/* Refused with 10 and with 1, whatever the contract. */
static int looks_at_nothing_before(sallowbingo_contract c) {
    opening no_month = not_taken(10, c), short_store = not_taken(1, c);
    no_month.month = 13, short_store.words--;
    return looks_at_nothing(no_month) && looks_at_nothing(short_store);
}

static void basis_1(void) {
    CHECK(looks_at_nothing(taken(agreed(1, 2, 1000000))));
    CHECK(looks_at_nothing(taken(agreed(2, 1, 669))));
    CHECK(looks_at_nothing(not_taken(15, agreed(2, 1, 670))));
    CHECK(looks_at_nothing(not_taken(12, agreed(1, 2, 0))));
    CHECK(looks_at_nothing(not_taken(12, agreed(2, 2, 1000001))));
    CHECK(looks_at_nothing(not_taken(11, agreed(3, 2, 100))));
    CHECK(looks_at_nothing_before(agreed(1, 2, 100)));
}

/* 100 × 230 × 900 / 500,000 = 41.4, and 1,339 × 250 × 1,000 / 500,000 = 669.5, which is rounded 670. */
static void basis_3(void) {
    static const sallowbingo_cable small = {100, 230, 0, 3}, great = {1339, 250, 1000, 3}, wrong = {100, 230, 0, 2};
    CHECK(looks_at_nothing(taken(cabled(1, 2, great))));
    CHECK(looks_at_nothing(taken(cabled(2, 1, small))));
    CHECK(looks_at_nothing(not_taken(15, cabled(2, 1, great))));
    CHECK(looks_at_nothing(not_taken(13, cabled(2, 1, wrong))));
    CHECK(looks_at_nothing(not_taken(11, cabled(1, 3, small))));
    CHECK(looks_at_nothing_before(cabled(1, 2, small)));
}

/* Numbers that are no basis. */
static void no_basis(void) {
    static const uint32_t bases[] = {0, 4, UINT32_MAX};
    for (size_t k = 0; k < COUNT(bases); k++) {
        sallowbingo_contract c = agreed(1, 2, 100), d = agreed(2, 0, 670);
        c.basis = d.basis = bases[k];
        CHECK(looks_at_nothing(not_taken(12, c)));
        CHECK(looks_at_nothing(not_taken(12, d)));
        d.billing = 0;
        CHECK(looks_at_nothing(not_taken(11, d)));
        CHECK(looks_at_nothing_before(c));
    }
}

/* A LIST IS LENT: the basis is 2. */

/* On basis 2, asked for that power and getting that share. */
static opening sharing(uint32_t billing, uint32_t power, uint32_t share) {
    opening o = taken(shared(billing, 2, power));
    o.kept.power.kw = share;
    return o;
}

/* So many equal currents that end just before a page that is not to be read, and as many that begin just behind one,
 * give that with each. */
static int reads_only(opening o, size_t points, size_t place) {
    for (uint32_t *word = middle; word < edge; word++) *word = 7;
    fill_store();
    return survives(&o, (list){edge - points, points, place}) + survives(&o, (list){middle, points, place}) == 2;
}

/* The last word, or in a list at the page's start the first, is no current: 14. */
static int reads_all(size_t points, uint32_t word) {
    opening o = not_taken(14, shared(1, 2, 100));
    for (uint32_t *at = middle; at < edge; at++) *at = 7;
    *middle = edge[-1] = word;
    fill_store();
    return survives(&o, (list){edge - points, points, 0}) + survives(&o, (list){middle, points, points - 1}) == 2;
}

/* Equal currents: of 64 kW each of 64 gets 1; of 1,339 by two the running sums 669.5 and 1,339 are rounded 670 and
 * 1,339, so that the first gets 670 and the second 669. */
static void basis_2(void) {
    CHECK(reads_only(sharing(1, 100, 100), 1, 0));
    CHECK(reads_only(sharing(1, 64, 1), 64, 0) && reads_only(sharing(1, 64, 1), 64, 63));
    CHECK(reads_only(sharing(2, 669, 669), 1, 0) && reads_only(sharing(2, 1339, 669), 2, 1));
    CHECK(reads_only(not_taken(15, shared(2, 2, 670)), 1, 0));
    CHECK(reads_only(not_taken(15, shared(2, 2, 1339)), 2, 0));
    CHECK(reads_only(not_taken(15, shared(2, 2, 1000000)), 64, 63));
    CHECK(reads_only(not_taken(14, shared(1, 2, 100)), 65, 0));
    CHECK(reads_only(not_taken(14, shared(1, 2, 100)), 64, 64));
    CHECK(reads_only(not_taken(12, shared(1, 2, 0)), 64, 0));
    CHECK(reads_only(not_taken(11, shared(3, 2, 100)), 64, 0));
    CHECK(reads_all(1, 0) && reads_all(1, 2001) && reads_all(64, 0) && reads_all(64, 2001));
}

/* An empty list has no word to be read, whatever aligned address it has: 14, or what goes before. */
static void empty_list(void) {
    for (size_t p = 0; p < POINTERS; p++) {
        if ((uintptr_t)pointer(p) % sizeof(uint32_t) != 0) continue;
        opening one = not_taken(14, shared(1, 2, 100)), two = not_taken(14, shared(2, 2, 670));
        opening power = not_taken(12, shared(2, 2, 0));
        fill_store();
        CHECK(survives(&one, (list){pointer(p), 0, 0}) && survives(&one, (list){pointer(p), 0, SIZE_MAX}));
        CHECK(survives(&two, (list){pointer(p), 0, 0}));
        CHECK(survives(&power, (list){pointer(p), 0, 0}));
    }
}

int main(void) {
    static const struct rlimit no_core;
    setrlimit(RLIMIT_CORE, &no_core); /* a process that dies leaves no file */
    make_pages();
    pages();
    basis_1();
    basis_3();
    no_basis();
    basis_2();
    empty_list();
    return check_tally();
}
