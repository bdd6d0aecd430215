/* Answers request lines on standard input, one line each, as `./dwg-hatch answer` does, but through the C headers and with payloads in heap
 * memory of exactly their size. A line that is no request is answered `bad request`. */
#include "calls.h"

#include <stdio.h>
#include <stdlib.h>

int main(void) {
    char *text = NULL;
    size_t room = 0;
    Line line = {NULL, 0, 0};
    while (getline(&text, &room, stdin) > 0) {
        Request request = {.kind = KINDS};
        if (parse(text, &request)) {
            answer(&request, &line);
            puts(line.text);
        } else {
            puts("bad request");
        }
        take_back(SLOT_MAIN, (void *)request.main.bytes);
        take_back(SLOT_STRING, (void *)request.string.bytes);
    }
    free(text);
    free(line.text);
    return ferror(stdin) || fflush(stdout) != 0 ? 1 : 0;
}
