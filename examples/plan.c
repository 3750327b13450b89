/* Prints the plan listing of an order sheet that is read from standard input, by the static library. */
#include <stdio.h>

#include "cheapest.h"

int main(void)
{
    static const char *const words[] = {"", "in", "out", "either"};
    static uint8_t sheet[8192], marks[4096];
    const size_t length = fread(sheet, 1, sizeof sheet, stdin);
    const cheapest_plan_answer plan = cheapest_plan(sheet, length, marks, sizeof marks);
    if (plan.number == CHEAPEST_NO_MEMORY) {
        fputs("out of memory\n", stderr);
        return 1;
    }
    if (plan.number != CHEAPEST_FOUND) {
        printf("refused %d record %zu byte %zu\n", plan.number, plan.record, plan.byte);
        return 0;
    }
    printf("entries %zu needs %zu\nleast %llu net %llu\n", plan.entries, plan.needs, (unsigned long long)plan.least,
           (unsigned long long)plan.net);
    for (size_t entry = 0; entry < plan.entries; entry++)
        printf("%zu %s\n", entry, words[marks[entry]]);
    return 0;
}
