/* Tests of the sleeper's reader through include/sleeper_image.h: sleeper SAMPLES. The program is linked with that
 * archive alone. Ends 'N passed, M failed'. Compiles as C11 and as C++17. */
#include "../check.h"
#include "groups.h"

int main(int count, char **arguments) {
    if (count != 2) {
        fprintf(stderr, "sleeper SAMPLES\n");
        return 2;
    }
    const char *folder = arguments[1];
    test_loads(folder);
    test_samples(folder);
    test_guide();
    test_notes();
    test_unseen(folder);
    printf("%lu passed, %lu failed\n", passed, failed);
    return failed != 0;
}
