/* Groups nine shops by the direction of their sales, in as many groups as fit best, and prints which shop is in which
 * group:
 *   (cd crates/station && rt lib)
 *   gcc -I include examples/station.c crates/station/out/libstation.a -o station && ./station */
#include "mosterklomp.h"
#include <stdio.h>

enum { SHOPS = 9, GOODS = 3, MOST = 4 };

/* The parts of bread, cheese and beer in each shop's sales, and how much it sells. */
static const double sales[SHOPS * GOODS] = {
    0.9, 0.1, 0.0, 0.8, 0.2, 0.1, 0.9, 0.0, 0.2,
    0.1, 0.9, 0.1, 0.0, 0.8, 0.2, 0.2, 0.9, 0.0,
    0.1, 0.0, 0.9, 0.0, 0.1, 0.8, 0.2, 0.1, 0.9,
};
static const double weights[SHOPS] = {100, 200, 300, 100, 200, 300, 100, 200, 300};

#define LENGTH(a) (sizeof(a) / sizeof((a)[0]))

int main(void) {
    uint32_t labels[SHOPS];
    double responsibilities[SHOPS * MOST], group_weights[MOST], directions[MOST * GOODS], concentrations[MOST], logw[MOST];
    double work[MOSTERKLOMP_WORK(SHOPS, MOST, GOODS)];
    uint32_t work_u32[MOSTERKLOMP_WORK_U32(SHOPS, MOST)];
    size_t groups;
    uint64_t counts[2];
    double loglik, score;
    uint32_t refused = mosterklomp_movmf_auto_with(
        weights, LENGTH(weights), sales, LENGTH(sales), GOODS, 1, MOST, 100, 7, MOSTERKLOMP_FREE, 0,
        labels, LENGTH(labels), responsibilities, LENGTH(responsibilities), group_weights, LENGTH(group_weights),
        directions, LENGTH(directions), concentrations, LENGTH(concentrations), logw, LENGTH(logw),
        work, LENGTH(work), work_u32, LENGTH(work_u32), &groups, &loglik, &score, counts);
    if (refused != MOSTERKLOMP_DONE) {
        printf("refused %u\n", (unsigned)refused);
        return 1;
    }
    printf("groups %zu\n", groups);
    for (int i = 0; i < SHOPS; i++) {
        printf("%d %u\n", i, (unsigned)labels[i]);
    }
    return 0;
}
