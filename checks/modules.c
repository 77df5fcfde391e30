/* Calls the functions of random modules, which test_generator.py translates and puts before this, and prints the result
 * of each and the memory that it was given. */
#include <setjmp.h>
#include <signal.h>
#include <stdio.h>

enum { BUFFER = 256 };

static sigjmp_buf trapped;

static void on_trap(int number) { siglongjmp(trapped, number); }

static void call(const struct entry *entry, u32 a, u64 b) {
    static u8 buffer[BUFFER];
    u64 result, hash = 14695981039346656037u;
    for (int i = 0; i < BUFFER; i++)
        buffer[i] = (u8)((u32)i * 37 + a);
    if (sigsetjmp(trapped, 1)) {
        printf("%s trap\n", entry->name);
        return;
    }
    result = entry->function(address_of(buffer), a, b);
    for (int i = 0; i < BUFFER; i++)
        hash = (hash ^ buffer[i]) * 1099511628211u;
    printf("%s %016llx %016llx\n", entry->name, (unsigned long long)result, (unsigned long long)hash);
}

int main(void) {
    static const u32 firsts[] = {0, 1, 0x7fffffff, 0x80000000, 0xffffffff, 100};
    static const u64 seconds[] = {0, ~(u64)0, (u64)1 << 63, 1, 0xffffffff, 10};
    static const int signals[] = {SIGILL, SIGFPE, SIGSEGV, SIGTRAP, SIGBUS};
    for (unsigned i = 0; i < sizeof signals / sizeof *signals; i++)
        signal(signals[i], on_trap);
    for (const struct entry *entry = entries; entry->name; entry++)
        for (int i = 0; i < 6; i++)
            call(entry, firsts[i], seconds[i]);
    return 0;
}
