/* Built against the installed package alone. */

#include <leafgraph.h>

#include <stdio.h>

int main(void) {
    uint8_t none[1] = {0};
    const uint64_t reply = lg_check_rule(none, sizeof none);
    printf("leafgraph %s from C: reply %u\n", LEAFGRAPH_VERSION, lg_reply_number(reply));
    return lg_reply_number(reply) == LG_BAD_RULE_HEADER && lg_is_bad_rule(reply)
           && lg_is_bad_graph(lg_sweep(none, sizeof none))
           && lg_reply_number(lg_is_read_elsewhere(none, sizeof none, none, 0, none, 0, 0))
                  == LG_BAD_MAP_LENGTH
           && lg_is_bad_graph(lg_import(none, sizeof none))
           && lg_is_bad_graph(lg_write_listing(none, sizeof none, none, 0))
           && lg_reply_number(lg_read_listing(none, 0, none, 0)) == LG_NOT_A_LISTING ? 0 : 1;
}
