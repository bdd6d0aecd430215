/* Copies standard input, with each {16 hexadecimal digits} as the double of these bits by %.17g; every NaN is written nan. */
#include <inttypes.h>
#include <stdio.h>
#include <stdlib.h>
#include <string.h>

int main(void) {
    int c;
    while ((c = getchar()) != EOF) {
        char digits[17] = {0};
        if (c != '{') {
            putchar(c);
            continue;
        }
        if (fread(digits, 1, 16, stdin) != 16 || getchar() != '}') {
            fprintf(stderr, "doubles: no 16 digits in braces: {%s\n", digits);
            return 1;
        }
        uint64_t bits = strtoull(digits, NULL, 16);
        double value;
        memcpy(&value, &bits, sizeof value);
        if (value != value) {
            printf("nan");
        } else {
            printf("%.17g", value);
        }
    }
    return 0;
}
