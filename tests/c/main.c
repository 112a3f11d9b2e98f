/* Tests of the static library through include/story_image.h: library SAMPLES. Ends 'N passed, M failed'. Compiles as
 * C11 and as C++17. */
#include "groups.h"

int main(int count, char **arguments) {
    if (count != 2) {
        fprintf(stderr, "library SAMPLES\n");
        return 2;
    }
    const char *folder = arguments[1];
    test_load(folder);
    test_queries(folder);
    test_walks(folder);
    test_names();
    test_writes(folder);
    test_depths(folder);
    test_index();
    test_lists(folder);
    test_header(folder);
    test_pages(folder);
    test_targets();
    test_counts(folder);
    test_texts();
    test_structs(folder);
    printf("%lu passed, %lu failed\n", passed, failed);
    return failed != 0;
}
