/* tests [stop]: runs the groups: a line each, and the count at the end. With
 * "stop" the first group that fails is the last one. */
#include "tests.h"

#include <stdio.h>
#include <string.h>

static unsigned passed;
static unsigned failed;

void check(bool good, const char *file, int line, const char *what)
{
    if (good) {
        passed += 1;
        return;
    }
    failed += 1;
    if (failed <= 20) {
        printf("%s:%d: %s\n", file, line, what);
    }
}

static const struct {
    const char *name;
    void (*run)(void);
} groups[] = {
    {"packets", test_packets},
    {"number records", test_number_records},
    {"number records carried", test_carried_records},
    {"numbers", test_numbers},
    {"numbers that are not well formed", test_ill_formed_numbers},
    {"power loss", test_power_loss},
    {"starts of an end", test_starts},
    {"ends that are not well formed", test_ill_formed_ends},
    {"rules of the console", test_console_rules},
    {"the answer, stored and read", test_answers},
    {"rules of the controller", test_controller_rules},
    {"refusals of an end alone, and their order", test_alone_refusals},
    {"buffers of an end alone", test_alone_buffers},
    {"bench checks with a star", test_starred_checks},
    {"bench checks without a star", test_unstarred_checks},
    {"mistakes that are easy to make", test_easy_mistakes},
    {"refusals of the bench, and their order", test_bench_refusals},
    {"benches that are not well formed", test_ill_formed_benches},
    {"arbitrary benches", test_arbitrary_benches},
    {"unused fields are not looked at", test_unused_fields},
    {"channels", test_channels},
    {"room", test_room},
    {"fresh bench", test_fresh_bench},
    {"show", test_show},
    {"the listing", test_listing},
    {"list records", test_list_records},
    {"list lengths", test_list_lengths},
    {"generator", test_generator},
    {"generated lists", test_generated_lists},
    {"reach of the generated lists", test_reach},
};

#define GROUPS (sizeof groups / sizeof groups[0])

int main(int argc, char **argv)
{
    bool stop = argc > 1 && strcmp(argv[1], "stop") == 0;

    for (size_t n = 0; n < GROUPS && !(stop && failed > 0); n++) {
        unsigned passed_before = passed;
        unsigned failed_before = failed;

        groups[n].run();
        printf("%s: %u passed, %u failed\n", groups[n].name,
               passed - passed_before, failed - failed_before);
    }
    printf("%u passed, %u failed\n", passed, failed);
    return failed == 0 ? 0 : 1;
}
