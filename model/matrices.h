/* With -DMATRICES: counts which matrices of sent votes a search meets, with a sum that doesn't depend on their order, so that two forms of
   the search can be compared. It prints 'MATRICES n SUM hex' at the end. */
#include <stdio.h>
#include <stdlib.h>
#include <string.h>

enum { MOST = 1 << 22 };

/* a table of matrices, each behind a byte that is 1 where its place is taken */
static unsigned char *table;
static unsigned long count, sum;

static void print_count(void)
{
    printf("MATRICES %lu SUM %016lx\n", count, sum);
}

static unsigned long hash_of(const unsigned char *matrix, int length)
{
    unsigned long hash = 1469598103934665603UL;
    for (int i = 0; i < length; i++)
        hash = (hash ^ matrix[i]) * 1099511628211UL;
    hash ^= hash >> 29;
    hash *= 0xbf58476d1ce4e5b9UL;
    return hash ^ (hash >> 32);
}

static void note_matrix(const unsigned char *matrix, int length)
{
    if (!table) {
        table = calloc(MOST, length + 1);
        atexit(print_count);
    }
    unsigned long hash = hash_of(matrix, length), place = hash % MOST;
    for (; table[place * (length + 1)]; place = (place + 1) % MOST)
        if (!memcmp(table + place * (length + 1) + 1, matrix, length))
            return;
    if (count > MOST / 10 * 9) {
        fprintf(stderr, "matrices.h: its table is full\n");
        exit(9);
    }
    table[place * (length + 1)] = 1;
    memcpy(table + place * (length + 1) + 1, matrix, length);
    count++;
    sum += hash;
}
