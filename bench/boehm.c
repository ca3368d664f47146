/* The same work for a collector that stops the world: N records with K links each, W workers with R registers and a board of B entries as the roots beside
   what the collector finds itself, on Debian's Boehm collector (libgc-dev). It collects as often as it prints a line:

       boehm N        K 8, W 8, R 16, B 16

   callgrind counts each GC_gcollect by itself; the longest is what every worker has to wait for. */
#include <gc.h>
#include <stdint.h>
#include <stdio.h>
#include <stdlib.h>

enum { K = 8, W = 8, R = 16, B = 16, LARGEST = 1024 };

struct record {
    struct record *links[K];
};

static struct record *registers[W * R], *board[B];

/* The generator of random.rs. */
static uint64_t state = 1;

static size_t below(size_t limit) {
    uint64_t z = state += 0x9E3779B97F4A7C15u;
    z = (z ^ (z >> 30)) * 0xBF58476D1CE4E5B9u;
    z = (z ^ (z >> 27)) * 0x94D049BB133111EBu;
    return (size_t)(((z ^ (z >> 31)) >> 32) * limit >> 32);
}

static void collect(const char *what) {
    GC_gcollect();
    puts(what);
}

/* Every record is made and reached: each from a register or from the record before it, and the other links lead anywhere. */
static void fill(size_t n) {
    struct record *before = NULL;
    struct record **all = GC_MALLOC(n * sizeof *all);
    for (size_t a = 0; a < n; a++) {
        all[a] = GC_MALLOC(sizeof(struct record));
        if (before != NULL) {
            before->links[0] = all[a];
        }
        before = all[a];
    }
    for (size_t a = 0; a < n; a++) {
        for (size_t f = 1; f < K; f++) {
            size_t to = below(n + 1);
            all[a]->links[f] = to == 0 ? NULL : all[to - 1];
        }
    }
    for (size_t r = 0; r < W * R; r++) {
        registers[r] = all[below(n)];
    }
    for (size_t e = 0; e < B; e++) {
        board[e] = all[below(n)];
    }
    registers[0] = all[0];
    GC_FREE(all);
}

int main(int words, char **word) {
    size_t n = words == 2 ? strtoul(word[1], NULL, 10) : 0;
    if (n < 1 || n > LARGEST) {
        fputs("usage: boehm N\n", stderr);
        return 2;
    }
    GC_INIT();
    collect("nothing made");
    fill(n);
    collect("all records reached");
    collect("all records reached, again");
    return 0;
}
