/* Where a stored request (docs/REQUESTS.md) has its run. */
#include <stddef.h>
#include <stdint.h>

/* Where a request has the words of its run, with position and base address behind them: 0 where it has no run. */
static int run_at(uint64_t entry) {
    switch (entry) {
    case 18:
    case 19: return 1;
    case 49: return 6;
    case 80: return 3;
    case 96:
    case 112:
    case 113: return 4;
    default: return 0;
    }
}

static size_t words_of(const uint64_t *q) {
    int at = run_at(q[0]);
    return at == 0 ? 0 : q[0] == 19 ? (q[1] % 33 + 3) / 4 : q[at] % 9;
}
