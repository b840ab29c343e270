/* The same diagrams as crates/cb_bench builds, by BuDDy. */
#include <bdd.h>
#include <stdio.h>
#include <stdlib.h>
#include <string.h>
#include <time.h>

static double seconds(void)
{
    struct timespec now;
    clock_gettime(CLOCK_MONOTONIC, &now);
    return now.tv_sec + now.tv_nsec / 1e9;
}

static void full_adder(bdd a, bdd b, bdd c, bdd *sum, bdd *next)
{
    bdd half = bdd_addref(bdd_xor(a, b));
    *sum = bdd_addref(bdd_xor(half, c));
    bdd both = bdd_addref(bdd_and(a, b));
    bdd passed = bdd_addref(bdd_and(half, c));
    *next = bdd_addref(bdd_or(both, passed));
}

static void adder(int width)
{
    bdd carry = bdd_ithvar(0), sum;
    for (int i = 0; i < width; i++)
        full_adder(bdd_ithvar(2 * i + 1), bdd_ithvar(2 * i + 2), carry, &sum, &carry);
}

static void multiplier(int width)
{
    bdd *sums = calloc(2 * width + 1, sizeof *sums);
    for (int i = 0; i < 2 * width; i++)
        sums[i] = bddfalse;
    for (int row = 0; row < width; row++) {
        bdd carry = bddfalse;
        for (int column = 0; column < width; column++) {
            bdd product = bdd_addref(bdd_and(bdd_ithvar(2 * row), bdd_ithvar(2 * column + 1)));
            full_adder(sums[row + column], product, carry, &sums[row + column], &carry);
        }
        sums[row + width] = carry;
    }
}

static int attacks(int r, int c, int s, int d)
{
    int down = abs(r - s), across = abs(c - d);
    return (down || across) && (!down || !across || down == across);
}

static void queens(int size)
{
    bdd all = bddtrue;
    for (int r = 0; r < size; r++) {
        bdd some = bddfalse;
        for (int c = 0; c < size; c++)
            some = bdd_addref(bdd_or(some, bdd_ithvar(r * size + c)));
        all = bdd_addref(bdd_and(all, some));
    }
    for (int r = 0; r < size; r++)
        for (int c = 0; c < size; c++) {
            bdd others = bddtrue;
            for (int s = 0; s < size; s++)
                for (int d = 0; d < size; d++)
                    if (attacks(r, c, s, d))
                        others = bdd_addref(bdd_and(others, bdd_nithvar(s * size + d)));
            all = bdd_addref(bdd_and(all, bdd_addref(bdd_or(bdd_nithvar(r * size + c), others))));
        }
}

int main(int count, char **words)
{
    if (count < 3)
        return 2;
    int size = atoi(words[2]);
    bdd_init(10000000, 1000000);
    bdd_setvarnum(strcmp(words[1], "queens") == 0 ? size * size : 2 * size + 1);
    bdd_disable_reorder();
    double start = seconds();
    if (strcmp(words[1], "multiplier") == 0)
        multiplier(size);
    else if (strcmp(words[1], "queens") == 0)
        queens(size);
    else
        adder(size);
    long micros = (seconds() - start) * 1e6;
    bddStat stat;
    bdd_stats(&stat);
    long nodes = stat.produced - 2 * bdd_varnum();
    printf("%s %d: %ld nodes, %ld us, %ld nodes a second\n", words[1], size, nodes, micros, nodes * 1000000 / (micros ? micros : 1));
    return 0;
}
