/*
 * Velvetopal for programs in C: what a put would take.
 *
 * The library is crates/studio/out/libstudio.a, which `rt lib` proves and writes in crates/studio. Link it beside your
 * program; it needs no other library, allocates nothing, keeps nothing between calls, and may be called from several
 * threads at once.
 */
#ifndef VELVETOPAL_H
#define VELVETOPAL_H

#include <stddef.h>
#include <stdint.h>

#ifdef __cplusplus
extern "C" {
#endif

/* The least answer that is a refusal. */
#define VELVETOPAL_REFUSED ((uint64_t)1 << 63)

/* The numbers of the refusals, as in the table of faults. */
#define VELVETOPAL_OFF_THE_CARD 1      /* unequal runs, a part of a block, or more than 160 blocks */
#define VELVETOPAL_NO_SUCH_GEOMETRY 7  /* a block size that is not a power of two from 2 to 131072 */

/*
 * How many wipes and words a put begins that turns the contents `present` into `wanted`, on a card with blocks of
 * `block_size` bytes whose jobs all succeed. A block is wiped if some bit of it is 0 and is to be 1; then each of its
 * words that is wanted other than FFFFH is written. In any other block each word that differs is written.
 *
 * Each run is a pointer and a length in bytes. Both runs begin at the first byte of a block. A run of length 0 may have any
 * pointer, NULL too. Otherwise the pointer must be that of so many bytes that can be read and that nothing changes during
 * the call; they are only read. The two runs may overlap.
 *
 * The answer is wipes * 2^32 + words, or 2^63 + the number of a refusal. The block size is tested first (7), then the runs
 * (1). Two runs of length 0 are no blocks, and take 0 wipes and 0 words.
 */
uint64_t velvetopal_plan(const uint8_t *present, size_t present_len,
                         const uint8_t *wanted, size_t wanted_len,
                         uint32_t block_size);

/* The parts of an answer. The refusal is 0 where there is none; the counts have meaning only then. */
static inline uint32_t velvetopal_refusal(uint64_t answer)
{
    return answer < VELVETOPAL_REFUSED ? 0 : (uint32_t)(answer - VELVETOPAL_REFUSED);
}

static inline uint32_t velvetopal_wipes(uint64_t answer)
{
    return (uint32_t)(answer >> 32);
}

static inline uint32_t velvetopal_words(uint64_t answer)
{
    return (uint32_t)answer;
}

#ifdef __cplusplus
}
#endif

#endif
