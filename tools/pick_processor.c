/* The start of the static program, which holds the proved program twice: compiled for x86-64-v2, and for x86-64-v3. It
 * runs the second where the processor has all that x86-64-v3 adds to x86-64-v2, else the first. It asks the C library
 * (2.33 or later), as each of the two does when it starts: a feature that GLIBC_TUNABLES hides counts as missing there,
 * and not for gcc's __builtin_cpu_supports. */
#include <sys/platform/x86.h>

int drain_main_v2(int, char **);
int drain_main_v3(int, char **);

static int has_v3(void) {
    return CPU_FEATURE_ACTIVE(AVX) && CPU_FEATURE_ACTIVE(AVX2) && CPU_FEATURE_ACTIVE(BMI1) && CPU_FEATURE_ACTIVE(BMI2) &&
           CPU_FEATURE_ACTIVE(F16C) && CPU_FEATURE_ACTIVE(FMA) && CPU_FEATURE_ACTIVE(LZCNT) && CPU_FEATURE_ACTIVE(MOVBE);
}

int main(int argc, char **argv) {
    return has_v3() ? drain_main_v3(argc, argv) : drain_main_v2(argc, argv);
}
