/* One arm's link swept towards the other's: when do they meet? Prints the lines that the program prints for sweep.txt. */
#include <separation.h>

#include <stdio.h>
#include <string.h>

static separation_impact swept(float along_x, float max_time)
{
    separation_shape upper = {SEPARATION_CAPSULE, {0, 0, -1}, {0, 0, 1}, {0.25f, 0, 0}};
    separation_shape lower = {SEPARATION_CUBOID, {0.5f, 0.25f, 1}, {0, 0, 0}, {0, 0, 0}};
    separation_pose pose = {0, 0, 0, 1, {1, 0, 0.5f}};
    separation_ray ray = {{0, 0, 0}, {along_x, 0, 0}};
    return separation_cast(pose, upper, lower, ray, max_time);
}

static void print_impact(separation_impact impact)
{
    const float numbers[] = {impact.time, impact.dir.x, impact.dir.y, impact.dir.z};
    printf("%u", impact.number);
    for (size_t i = 0; i < 4; i++) {
        uint32_t bits;
        memcpy(&bits, &numbers[i], sizeof bits);
        printf(" %08X", numbers[i] == numbers[i] ? bits : 0x7FC00000u);
    }
    printf("\n");
}

/* Status 2: the floating-point environment is not the one that every channel must have. */
int main(void)
{
    if (!separation_environment())
        return 2;
    print_impact(swept(-1, 2));
    print_impact(swept(-1, 0.2f));
    print_impact(swept(1, 2));
    return 0;
}
