/* Memory from the heap, of exactly the size that is asked for: valgrind sees a read or write one byte past it. It holds zeros, which cost
 * nothing before they are read, also at the limit. */
#include "calls.h"

#include <stdlib.h>

void *lend(Slot slot, size_t bytes) {
    (void)slot;
    void *memory = calloc(bytes, 1);
    claim(memory != NULL, "there is memory to lend");
    return memory;
}

void take_back(Slot slot, void *memory) {
    (void)slot;
    free(memory);
}
