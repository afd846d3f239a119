#include "check.h"

int failures;

int run_tests(const test *tests, size_t count)
{
    int failed = 0;
    for (size_t i = 0; i < count; i++) {
        failures = 0;
        tests[i].run();
        printf("%s %s\n", failures ? "FAILED" : "ok", tests[i].name);
        fflush(stdout);
        failed += failures != 0;
    }
    return failed != 0;
}
