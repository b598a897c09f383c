/*
 * warned.c: what a compiler must warn of in a host that uses include/vtoc.h. It is compiled, never run. A comment at the end of
 * a line says what is warned of there: a result that is not looked at, or an argument, by its place, that is `restrict` and
 * overlaps another one (gcc alone tells). A line without such a comment must compile without a warning. tests/header compares.
 */
#include "vtoc.h"

void ignored(uint8_t *t, const uint8_t *n, const uint8_t *x, const uint8_t *d, uint8_t *l, uint8_t *a);
uint32_t shared(uint8_t *t, const uint8_t *n, const uint8_t *x, const uint8_t *d, uint8_t *l, uint8_t *a);

void ignored(uint8_t *t, const uint8_t *n, const uint8_t *x, const uint8_t *d, uint8_t *l, uint8_t *a)
{
    vtoc_initialise(t, 420, 4, 5, 3, 1, 1, a, 24);                   /* unused-result */
    vtoc_allocate(t, 420, n, 44, x, 52, 0, 0, 1, 0, 0, d, 4, a, 24); /* unused-result */
    vtoc_extend(t, 420, n, 44, a, 24);                               /* unused-result */
    vtoc_release(t, 420, n, 44, 1, a, 24);                           /* unused-result */
    vtoc_scratch(t, 420, n, 44, d, 4, 0, a, 24);                     /* unused-result */
    vtoc_rename(t, 420, n, 44, x, 44, a, 24);                        /* unused-result */
    vtoc_obtain(t, 420, n, 44, l, 280, a, 24);                       /* unused-result */
    vtoc_lspace(t, 420, a, 24);                                      /* unused-result */

    vtoc_preview_allocate(t, 420, n, 44, x, 52, 0, 0, 1, 0, 0, d, 4, a, 24); /* unused-result */
    vtoc_preview_extend(t, 420, n, 44, a, 24);                               /* unused-result */
    vtoc_preview_release(t, 420, n, 44, 1, a, 24);                           /* unused-result */
    vtoc_preview_scratch(t, 420, n, 44, d, 4, 0, a, 24);                     /* unused-result */

    vtoc_date_to_stored(d, 4, a, 24); /* unused-result */
    vtoc_date_to_packed(d, 3, a, 24); /* unused-result */
}

/* Each buffer that a call may write, handed over as another one too; and the pairs that it only reads, of which none warns. */
uint32_t shared(uint8_t *t, const uint8_t *n, const uint8_t *x, const uint8_t *d, uint8_t *l, uint8_t *a)
{
    uint32_t r = 0;
    r += vtoc_initialise(t, 420, 4, 5, 3, 1, 1, t, 24);                   /* restrict 1 */
    r += vtoc_allocate(t, 420, t, 44, x, 52, 0, 0, 1, 0, 0, d, 4, a, 24); /* restrict 1 */
    r += vtoc_allocate(t, 420, n, 44, t, 52, 0, 0, 1, 0, 0, d, 4, a, 24); /* restrict 1 */
    r += vtoc_allocate(t, 420, a, 44, x, 52, 0, 0, 1, 0, 0, d, 4, a, 24); /* restrict 14 */
    r += vtoc_allocate(t, 420, n, 44, a, 52, 0, 0, 1, 0, 0, d, 4, a, 24); /* restrict 14 */
    r += vtoc_allocate(t, 420, n, 44, x, 52, 0, 0, 1, 0, 0, t, 4, a, 24); /* restrict 1 */
    r += vtoc_allocate(t, 420, n, 44, x, 52, 0, 0, 1, 0, 0, a, 4, a, 24); /* restrict 14 */
    r += vtoc_allocate(t, 420, n, 44, n, 52, 0, 0, 1, 0, 0, n, 4, a, 24);
    r += vtoc_extend(t, 420, t, 44, a, 24);                               /* restrict 1 */
    r += vtoc_extend(t, 420, a, 44, a, 24);                               /* restrict 5 */
    r += vtoc_release(t, 420, t, 44, 1, a, 24);                           /* restrict 1 */
    r += vtoc_release(t, 420, a, 44, 1, a, 24);                           /* restrict 6 */
    r += vtoc_scratch(t, 420, t, 44, d, 4, 0, a, 24);                     /* restrict 1 */
    r += vtoc_scratch(t, 420, a, 44, d, 4, 0, a, 24);                     /* restrict 8 */
    r += vtoc_scratch(t, 420, n, 44, t, 4, 0, a, 24);                     /* restrict 1 */
    r += vtoc_scratch(t, 420, n, 44, a, 4, 0, a, 24);                     /* restrict 8 */
    r += vtoc_scratch(t, 420, n, 44, n, 4, 0, a, 24);
    r += vtoc_rename(t, 420, t, 44, x, 44, a, 24);                        /* restrict 1 */
    r += vtoc_rename(t, 420, n, 44, t, 44, a, 24);                        /* restrict 1 */
    r += vtoc_rename(t, 420, a, 44, x, 44, a, 24);                        /* restrict 7 */
    r += vtoc_rename(t, 420, n, 44, a, 44, a, 24);                        /* restrict 7 */
    r += vtoc_rename(t, 420, n, 44, n, 44, a, 24);
    r += vtoc_obtain(l, 420, n, 44, l, 280, a, 24);                       /* restrict 5 */
    r += vtoc_obtain(t, 420, l, 44, l, 280, a, 24);                       /* restrict 5 */
    r += vtoc_obtain(a, 420, n, 44, l, 280, a, 24);                       /* restrict 7 */
    r += vtoc_obtain(t, 420, a, 44, l, 280, a, 24);                       /* restrict 7 */
    r += vtoc_obtain(t, 420, t, 44, l, 280, a, 24);
    r += vtoc_lspace(a, 420, a, 24);                                      /* restrict 3 */

    r += vtoc_preview_allocate(a, 420, n, 44, x, 52, 0, 0, 1, 0, 0, d, 4, a, 24); /* restrict 14 */
    r += vtoc_preview_allocate(t, 420, a, 44, x, 52, 0, 0, 1, 0, 0, d, 4, a, 24); /* restrict 14 */
    r += vtoc_preview_allocate(t, 420, n, 44, a, 52, 0, 0, 1, 0, 0, d, 4, a, 24); /* restrict 14 */
    r += vtoc_preview_allocate(t, 420, n, 44, x, 52, 0, 0, 1, 0, 0, a, 4, a, 24); /* restrict 14 */
    r += vtoc_preview_allocate(t, 420, t, 44, t, 52, 0, 0, 1, 0, 0, t, 4, a, 24);
    r += vtoc_preview_extend(a, 420, n, 44, a, 24);                               /* restrict 5 */
    r += vtoc_preview_extend(t, 420, a, 44, a, 24);                               /* restrict 5 */
    r += vtoc_preview_extend(t, 420, t, 44, a, 24);
    r += vtoc_preview_release(a, 420, n, 44, 1, a, 24);                           /* restrict 6 */
    r += vtoc_preview_release(t, 420, a, 44, 1, a, 24);                           /* restrict 6 */
    r += vtoc_preview_release(t, 420, t, 44, 1, a, 24);
    r += vtoc_preview_scratch(a, 420, n, 44, d, 4, 0, a, 24);                     /* restrict 8 */
    r += vtoc_preview_scratch(t, 420, a, 44, d, 4, 0, a, 24);                     /* restrict 8 */
    r += vtoc_preview_scratch(t, 420, n, 44, a, 4, 0, a, 24);                     /* restrict 8 */
    r += vtoc_preview_scratch(t, 420, t, 44, t, 4, 0, a, 24);

    r += vtoc_date_to_stored(a, 4, a, 24); /* restrict 3 */
    r += vtoc_date_to_packed(a, 3, a, 24); /* restrict 3 */
    r += vtoc_date_to_packed(t, 3, a, 24);
    return r;
}
