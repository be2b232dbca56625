/* Sends an order file to List by the C call, and prints the list or the refusal.
 *
 *   make
 *   gcc -Ibuild samples/call.c build/libsukoreta.a -o build/call
 *   build/call samples/P4.order
 */
#include <stdio.h>

#include "sukoreta.h"

static uint8_t order[SUKORETA_ORDER_LIMIT];
static uint8_t answer[SUKORETA_ANSWER_LIMIT];

int main(int count, char **words) {
    FILE *file = count == 2 ? fopen(words[1], "rb") : NULL;
    if (!file) {
        fprintf(stderr, "usage: call ORDER\n");
        return 2;
    }
    size_t length = fread(order, 1, sizeof order, file);
    fclose(file);
    int64_t result = sukoreta_list(order, length, answer, sizeof answer);
    if (result < 0) {
        printf("refused: %d at %lld\n", SUKORETA_NUMBER(result), (long long)SUKORETA_PLACE(result));
        return 1;
    }
    fwrite(answer, 1, (size_t)result, stdout);
    return 0;
}
