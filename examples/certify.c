/* Two links of two arms, as hulls in millimetres: does the direction that the channel finds between them show that they are apart?
 * Prints the numbers of the checker's answers: accepted; declined with the hulls exchanged, and with no direction at all. */
#include <separation.h>

#include <stdio.h>

SEPARATION_STATIC_STORES(stores, PROGRAM);

/* The triangles in metres, and the same corners on the grid. */
static const separation_shape upper = {SEPARATION_TRIANGLE, {0, 0, -1}, {0, 0, 1}, {-0.5f, 0.25f, 0}};
static const separation_shape lower = {SEPARATION_TRIANGLE, {0.5f, 0, 0}, {0.75f, 0.5f, 0.25f}, {1, -0.5f, 1}};
static const int32_t upper_hull[] = {0, 0, -1000, 0, 0, 1000, -500, 250, 0};
static const int32_t lower_hull[] = {500, 0, 0, 750, 500, 250, 1000, -500, 1000};

static separation_grid_vector direction_between(void)
{
    separation_pose pose = {0, 0, 0, 1, {0, 0, 0}};
    separation_vector start = {1, 0, 0};
    return separation_propose(separation_run_on(pose, upper, lower, start, 10, true, &stores).normal);
}

/* Status 2: the floating-point environment is not the one that every channel must have. */
int main(void)
{
    if (!separation_environment())
        return 2;
    separation_grid_vector direction = direction_between(), none = {0, 0, 0};
    printf("%2u\n", separation_certify(SEPARATION_LENT(upper_hull), SEPARATION_LENT(lower_hull), direction));
    printf("%2u\n", separation_certify(SEPARATION_LENT(lower_hull), SEPARATION_LENT(upper_hull), direction));
    printf("%2u\n", separation_certify(SEPARATION_LENT(upper_hull), SEPARATION_LENT(lower_hull), none));
    return 0;
}
