/*
 * Shared by the C programs of this folder: questions that are counted, areas
 * that stand alone in memory, and random numbers that repeat. Included first,
 * since mmap's MAP_ANONYMOUS has to be asked for.
 */
#ifndef AREAS_H
#define AREAS_H

#define _DEFAULT_SOURCE

#include "display_box.h"

#include <stdio.h>
#include <stdlib.h>
#include <string.h>
#include <sys/mman.h>
#include <unistd.h>

#define LENGTH_OF(list) (sizeof (list) / sizeof (list)[0])

/* ---- questions */

static unsigned long asked, wrong;

static inline void expect(int holds, const char *what, long a, long b)
{
    asked++;
    if (holds)
        return;
    wrong++;
    if (wrong <= 20)
        printf("wrong: %s (%ld, %ld)\n", what, a, b);
}

static inline int verdict(void)
{
    printf("%lu questions, %lu wrong\n", asked, wrong);
    return wrong == 0 ? 0 : 1;
}

/* ---- random numbers */

static uint32_t state = 20261115;

static inline uint32_t next(void)
{
    state ^= state << 13;
    state ^= state >> 17;
    state ^= state << 5;
    return state;
}

static inline void randomise(void *bytes, size_t n)
{
    for (size_t i = 0; i < n; i++)
        ((uint8_t *)bytes)[i] = (uint8_t)next();
}

/* ---- areas */

/*
 * An area stands alone in one of three ways. On the heap, with its exact size,
 * memcheck sees a byte outside it that is read or written; flush against a page
 * that nobody may touch, behind it or in front of it, the machine itself does.
 * The pages work where memcheck cannot run, under an emulator too; the heap
 * shows both ends at once. So the tests run in all three.
 */
enum standing { ON_THE_HEAP, BEFORE_A_GUARD, BEHIND_A_GUARD, STANDINGS };
static enum standing standing;

/* A place holds one area at a time. */
struct place {
    uint8_t *pages;
    uint8_t *heap;
};

/* Room for the longest area of the tests, a million bytes, in whole pages. */
#define PLACE_ROOM ((size_t)1 << 20)

/* So many bytes between two guard pages, for as long as the program runs. */
static inline uint8_t *guarded(void)
{
    size_t guard = (size_t)sysconf(_SC_PAGESIZE);
    uint8_t *p = mmap(NULL, guard + PLACE_ROOM + guard, PROT_NONE, MAP_PRIVATE | MAP_ANONYMOUS, -1, 0);
    if (p == MAP_FAILED || mprotect(p + guard, PLACE_ROOM, PROT_READ | PROT_WRITE) != 0)
        exit(2);
    return p + guard;
}

/* An area of n bytes, until the place is asked again; NULL for none. */
static inline void *stand(struct place *place, size_t n)
{
    if (n == 0)
        return NULL;
    if (standing == ON_THE_HEAP) {
        free(place->heap);
        place->heap = malloc(n);
        if (place->heap == NULL)
            exit(2);
        return place->heap;
    }
    if (n > PLACE_ROOM)
        exit(2);
    if (place->pages == NULL)
        place->pages = guarded();
    return standing == BEFORE_A_GUARD ? place->pages + PLACE_ROOM - n : place->pages;
}

/* The same with those bytes in it. */
static inline void *stand_copy(struct place *place, const void *bytes, size_t n)
{
    void *p = stand(place, n);
    if (n > 0)
        memcpy(p, bytes, n);
    return p;
}

/* The same with every byte that value. */
static inline void *stand_filled(struct place *place, uint8_t value, size_t n)
{
    void *p = stand(place, n);
    if (n > 0)
        memset(p, value, n);
    return p;
}

#endif
