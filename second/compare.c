/* Compares the engine under test with the second engine on many inputs.
 *
 *   compare [SEED] [half | quick] [table]
 *
 * The same seed gives the same inputs. The first disagreement is made smaller,
 * printed, and ends the program with 1; so does anything left uncovered.
 * `half` tries half of the random inputs; `quick` tries few of them and no large
 * day, and prints a disagreement as it stands; `table` says how often each
 * refusal, each situation and each part came up. */
#include "parts.h"

#include <stdlib.h>
#include <string.h>

int main(int argc, char **argv) {
    bool quick = false, table = false;
    luck.at = 1;
    for (int i = 1; i < argc; i++) {
        if (strcmp(argv[i], "quick") == 0)
            quick = true;
        else if (strcmp(argv[i], "half") == 0)
            percent = 50;
        else if (strcmp(argv[i], "table") == 0)
            table = true;
        else
            luck.at = strtoull(argv[i], NULL, 10);
    }
    if (quick) percent = 4;
    start_checks((manner){.quick = quick, .seconds_a_call = quick ? 20 : 120});
    void (*const part[])(void) = {part_small,    part_random, part_messages, part_values,
                                  part_refusals, part_pass,   part_ask,      part_in_two,
                                  part_body,     part_odd,    part_twins,    part_damage,
                                  part_limits,   part_slots};
    for (unsigned i = 0; i < sizeof part / sizeof part[0]; i++) part[i]();
    if (!quick) part_large();
    if (table || !all_covered()) print_table();
    if (!all_covered()) {
        print_counts("Not everything was covered");
        return 1;
    }
    print_counts("The two engines agree");
    return 0;
}
