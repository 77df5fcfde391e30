/* Counts the edges of the engine in C that were not taken before, for choose_seeds.py: clang calls these functions with
 * -fsanitize-coverage=trace-pc-guard. */
#include <stdint.h>

long new_edges(void);
void __sanitizer_cov_trace_pc_guard_init(uint32_t *from, uint32_t *to);
void __sanitizer_cov_trace_pc_guard(uint32_t *guard);

static long found;

void __sanitizer_cov_trace_pc_guard_init(uint32_t *from, uint32_t *to) {
    while (from < to)
        *from++ = 1;
}

void __sanitizer_cov_trace_pc_guard(uint32_t *guard) {
    found += *guard;
    *guard = 0;
}

long new_edges(void) {
    const long told = found;
    found = 0;
    return told;
}
