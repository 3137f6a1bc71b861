/* pairs TABLE: the pairs of a table that interface/pairs.py makes, handed to pkder_same; prints its answers, a line
 * each: "the same", "another", or which one is refused, as "second: fault at 20: Truncated". */
#define _DEFAULT_SOURCE
#include "table.h"

static void say(const pkder_outcome *said) {
    CHECK(said->taken == 0 && said->size == 0);
    CHECK(said->status == PKDER_FAULT || (said->which == 0 && said->reason == 0 && said->at == 0));
    if (said->status == PKDER_ACCEPTED) {
        puts("the same");
    } else if (said->status == PKDER_ANOTHER) {
        puts("another");
    } else {
        CHECK(said->which == 1 || said->which == 2);
        fputs(said->which == 1 ? "first: " : "second: ", stdout);
        print_outcome(stdout, said);
    }
}

static void do_row(char *row) {
    cell_of(&row);
    uint32_t kind = number_of(cell_of(&row), kinds), depth = (uint32_t)strtoul(cell_of(&row), NULL, 10);
    uint64_t octets = strtoull(cell_of(&row), NULL, 10);
    size_t first_len, second_len;
    uint8_t *first = octets_of(cell_of(&row), &first_len), *second = octets_of(cell_of(&row), &second_len);
    pkder_outcome said = pkder_same(kind, depth, octets, first, first_len, second, second_len);
    say(&said);
    free(first);
    free(second);
}

int main(int count, char **words) {
    return do_rows(count, words, do_row);
}
