/* The header in C, under strict warnings. */

#include "leafgraph.h"
#include "leafgraph.h" /* the include guard */
#include "test_blocks.h"

int main(void) {
    int count = count_differences() + count_find_differences()
                + count_asked_differences() + count_changed_map_differences()
                + count_asked_of_p1_differences()
                + count_rewrite_differences() + count_constants_differences()
                + count_sweep_differences() + count_squeeze_differences()
                + count_import_differences() + count_listing_differences()
                + count_text_fault_differences() + count_fault_differences()
                + count_helper_differences();
    if (count == 0) {
        puts("header test in C: no difference");
    }
    return count == 0 ? 0 : 1;
}
