/* Grouping shops by the direction of their sales: the three fits of Mosterklomp for a program in C. The library is
 * the proved crate `station`, linked as libstation.a (`rt lib` in crates/station). crates/station/src/lib.rt has the
 * promise of each function; docs/PROMISES.md says it in words.
 *
 * m shops (leaves) are m weights and m * d coordinates, row by row: `weights` with its length m, `coords` with its
 * length, which must be m * d. m is 1 to 4096, d 1 to 256, k 1 to 64 and at most m. A weight is from 0 to 2^40, a
 * coordinate from -2 to 2. rounds are 0 to 10000, restarts 0 to 64 (0 acts as 1), the seed is any number.
 *
 * Every array is a pointer and, behind it, its length in entries. An array may be longer than asked for; the entries
 * past what is asked for are left alone. Arrays must not overlap, and no pointer may be null, not even with length 0.
 *
 * The work arrays have at least MOSTERKLOMP_WORK(m, k, d) doubles (`work`) and MOSTERKLOMP_WORK_U32(m, k) numbers
 * (`work_u32`). What they hold before does not matter, and what they hold afterwards means nothing.
 *
 * Each function returns MOSTERKLOMP_DONE, which is 0, or the first refusal that holds. A refusal changes no output
 * array and no other answer, but MOSTERKLOMP_NO_SCORE fills in `counts`.
 *
 * A shop that is equally like two groups, to the last bit, gets the label of the lower one.
 *
 * A result may be NaN where the input makes it so, as with weights that are all 0; which of the NaN it is means
 * nothing. */
#ifndef MOSTERKLOMP_H
#define MOSTERKLOMP_H

#include <stddef.h>
#include <stdint.h>

#ifdef __cplusplus
extern "C" {
#endif

/* What a function returns. MOSTERKLOMP_KAPPA comes before the others, and those in the order of their numbers. */
enum mosterklomp_refusal {
    MOSTERKLOMP_DONE = 0,
    MOSTERKLOMP_SIZES = 1,       /* m or d is out of its limits, or the coordinates are not m * d */
    MOSTERKLOMP_GROUPS = 2,      /* k is 0, above 64 or above m; automatic fit: k_hi is above 64 */
    MOSTERKLOMP_ROUNDS = 3,      /* rounds or restarts are above their limit */
    MOSTERKLOMP_SHORT = 4,       /* an output or work array is too short */
    MOSTERKLOMP_WEIGHT = 5,      /* a weight is below 0, above 2^40 or NaN */
    MOSTERKLOMP_COORDINATE = 6,  /* a coordinate is below -2, above 2 or NaN */
    MOSTERKLOMP_NO_SCORE = 7,    /* automatic fit: no number of groups has a score below +infinity */
    MOSTERKLOMP_KAPPA = 13       /* mixture fits: `kappa` is none of the kinds below */
};

/* The kinds of concentration, for `kappa`. None of them takes a value: `fixed` is not read, pass 0. */
enum mosterklomp_kappa {
    MOSTERKLOMP_FREE = 0,        /* each group has a concentration of its own */
    MOSTERKLOMP_SHARED = 1       /* all groups have the same */
};

/* The lengths of the work arrays for m shops of d coordinates in k groups; of the automatic fit k is k_hi. */
#define MOSTERKLOMP_WORK(m, k, d) \
    (2 * (size_t)(m) * (k) + 4 * (size_t)(k) * (d) + 8 * (size_t)(m) + 16 * (size_t)(k))
#define MOSTERKLOMP_WORK_U32(m, k) (2 * (size_t)(m) + 2 * (size_t)(k))

/* Spherical k-means into k groups, the best of some restarts by cohesion. Fills labels (m) and directions (k * d);
 * gives the cohesion and the counts: products made, and products saved. */
uint32_t mosterklomp_spherical_kmeans(
    const double *weights, size_t m, const double *coords, size_t coords_len,
    size_t d, size_t k, size_t rounds, size_t restarts, uint64_t seed,
    uint32_t *labels, size_t labels_len, double *directions, size_t directions_len,
    double *work, size_t work_len, uint32_t *work_u32, size_t work_u32_len,
    double *cohesion, uint64_t counts[2]);

/* The von Mises-Fisher mixture with k groups, the best of four runs. Fills labels (m), responsibilities (m * k, row by
 * row), group_weights (k), directions (k * d), concentrations (k) and logw (k); gives the number of groups, the
 * log-likelihood and the counts. After a round a responsibility is 0 only where its logarithm is below -745; a very
 * small one is a subnormal number. */
uint32_t mosterklomp_movmf_with(
    const double *weights, size_t m, const double *coords, size_t coords_len,
    size_t d, size_t k, size_t rounds, uint64_t seed, uint32_t kappa, double fixed,
    uint32_t *labels, size_t labels_len, double *responsibilities, size_t responsibilities_len,
    double *group_weights, size_t group_weights_len, double *directions, size_t directions_len,
    double *concentrations, size_t concentrations_len, double *logw, size_t logw_len,
    double *work, size_t work_len, uint32_t *work_u32, size_t work_u32_len,
    size_t *groups, double *loglik, uint64_t counts[2]);

/* The mixture with the best number of groups. Every number from k_lo to k_hi is fitted, and the first with the lowest
 * score is kept: k_hi = max(1, min(k_max, m)), k_lo = min(max(k_min, 1), k_hi). So with k_max 0 one group is fitted,
 * and with k_min above k_max only k_max. The score is the Bayesian information criterion (BIC). Fills and gives what
 * mosterklomp_movmf_with does, for the number kept, and its score; the counts are those of all numbers tried. Output
 * and work arrays must be long enough for k_hi. */
uint32_t mosterklomp_movmf_auto_with(
    const double *weights, size_t m, const double *coords, size_t coords_len,
    size_t d, size_t k_min, size_t k_max, size_t rounds, uint64_t seed, uint32_t kappa, double fixed,
    uint32_t *labels, size_t labels_len, double *responsibilities, size_t responsibilities_len,
    double *group_weights, size_t group_weights_len, double *directions, size_t directions_len,
    double *concentrations, size_t concentrations_len, double *logw, size_t logw_len,
    double *work, size_t work_len, uint32_t *work_u32, size_t work_u32_len,
    size_t *groups, double *loglik, double *score, uint64_t counts[2]);

#ifdef __cplusplus
}
#endif

#endif
