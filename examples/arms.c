/* Two links of two arms: how far apart are they? Prints the lines that the program prints for the same cases. */
#include <separation.h>

#include <math.h>
#include <stdio.h>
#include <string.h>

SEPARATION_STATIC_STORES(stores, PROGRAM);

static separation_answer run_on(float along_x, const separation_stores *lent)
{
    separation_shape upper = {SEPARATION_CAPSULE, {0, 0, -1}, {0, 0, 1}, {0.25f, 0, 0}};
    separation_shape lower = {SEPARATION_CUBOID, {0.5f, 0.25f, 1}, {0, 0, 0}, {0, 0, 0}};
    separation_pose pose = {0, 0, 0, 1, {along_x, 0, 0.5f}};
    separation_vector dir = {1, 0, 0};
    return separation_run_on(pose, upper, lower, dir, 10, true, lent);
}

static separation_answer run(float along_x)
{
    return run_on(along_x, &stores);
}

static void print_vector(separation_vector v)
{
    const float numbers[] = {v.x, v.y, v.z};
    for (size_t i = 0; i < 3; i++) {
        uint32_t bits;
        memcpy(&bits, &numbers[i], sizeof bits);
        printf(" %08X", numbers[i] == numbers[i] ? bits : 0x7FC00000u);
    }
}

static void print_answer(int number, separation_answer a)
{
    printf("%d %c", number, a.outcome);
    if (a.outcome == SEPARATION_CLOSEST_POINTS || a.outcome == SEPARATION_PENETRATION) {
        print_vector(a.point1);
        print_vector(a.point2);
    }
    if (separation_number(a.outcome) == 0)
        print_vector(a.normal);
    if (a.outcome == SEPARATION_PENETRATION || a.outcome == SEPARATION_NO_ANSWER || a.outcome == SEPARATION_NO_ROOM)
        printf(" %zu %zu %zu %zu %zu", a.counts.expansions, a.counts.made, a.counts.live, a.counts.edges,
               a.counts.missed);
    printf("\n");
}

static separation_answer with_x(separation_answer a, float x)
{
    a.normal.x = x;
    return a;
}

/* Whether the vote of three answers names the channel that is odd, or none by 0. */
static bool names(size_t odd, separation_answer a, separation_answer b, separation_answer c)
{
    separation_voted voted = separation_vote(a, b, c);
    return voted.number == SEPARATION_AGREED && voted.odd == odd;
}

static bool declines(separation_answer a, separation_answer b, separation_answer c)
{
    separation_voted voted = separation_vote(a, b, c);
    return voted.number == SEPARATION_NO_TWO_AGREE && separation_number(voted.answer.outcome) == SEPARATION_NO_TWO_AGREE;
}

/* Three channels agree, so the vote names none, also where all answer a NaN; -0 does not pass for +0. */
static bool votes_well(separation_answer apart, separation_answer meet)
{
    separation_answer none = with_x(meet, NAN), plus = with_x(meet, 0.0f), minus = with_x(meet, -0.0f);
    return names(0, meet, run(0.5f), run(0.5f)) && names(2, meet, apart, meet) && names(0, none, none, none)
        && names(2, plus, minus, plus) && declines(none, plus, minus);
}

/* Only where the links meet is a store asked for. */
static bool asks_for_room(separation_answer apart)
{
    separation_stores none = {NULL, 0, NULL, 0, NULL, 0, NULL, 0, NULL, 0, NULL, 0, NULL, 0, NULL, 0};
    return names(0, apart, run_on(1, &none), apart) && run_on(0.5f, &none).outcome == SEPARATION_NO_ROOM;
}

static bool refuses_kind_4(void)
{
    separation_shape no_shape = {4, {0, 0, 0}, {0, 0, 0}, {0, 0, 0}};
    separation_pose pose = {0, 0, 0, 1, {0, 0, 0}};
    separation_vector dir = {1, 0, 0};
    separation_answer answer = separation_run_on(pose, no_shape, no_shape, dir, 10, true, &stores);
    return answer.outcome == SEPARATION_MALFORMED && separation_number(answer.outcome) == 4;
}

/* Status 2: the floating-point environment is not the one that every channel must have. */
int main(void)
{
    if (!separation_environment())
        return 2;
    separation_answer apart = run(1), meet = run(0.5f);
    printf("separation 1\n");
    print_answer(1, apart);
    print_answer(2, meet);
    printf("cases 2\n");
    return votes_well(apart, meet) && asks_for_room(apart) && refuses_kind_4() ? 0 : 1;
}
