/* What a program needs of Linux on RV32, for which Debian packages no C library: its start, and five system calls. */
#include <errno.h>
#include <stddef.h>
#include <stdint.h>
#include <string.h>
#include <sys/types.h>

int main(int count, char **words);
void exit(int status);

/* Calls the system. A result from -4095 on is an error. */
static long ask(long number, long first, long second, long third) {
    register long a7 __asm__("a7") = number, a0 __asm__("a0") = first, a1 __asm__("a1") = second,
                                a2 __asm__("a2") = third;
    __asm__ volatile("ecall" : "+r"(a0) : "r"(a1), "r"(a2), "r"(a7) : "memory");
    return a0;
}

static long told(long result) {
    if (result >= 0 || result < -4095)
        return result;
    errno = (int)-result;
    return -1;
}

ssize_t read(int file, void *to, size_t length) { return told(ask(63, file, (long)to, (long)length)); }
ssize_t write(int file, const void *from, size_t length) { return told(ask(64, file, (long)from, (long)length)); }
void _exit(int status) {
    for (;;)
        ask(94, status, 0, 0);
}

void *sbrk(ptrdiff_t more) {
    static uintptr_t end;
    const uintptr_t old = end ? end : (uintptr_t)ask(214, 0, 0, 0);
    end = (uintptr_t)ask(214, (long)(old + (uintptr_t)more), 0, 0);
    return end == old + (uintptr_t)more ? (void *)old : (void *)-1;
}

/* What begins as zero shares a page with other data, and the emulator leaves that page as it is in the file. */
extern uint8_t __bss_start[], __bss_end[];

__attribute__((noreturn, used)) static void begin(uintptr_t *stack) {
    memset(__bss_start, 0, (size_t)(__bss_end - __bss_start));
    exit(main((int)stack[0], (char **)(stack + 1)));
    for (;;)
        ;
}

__asm__(".globl _start\n_start:\n.option push\n.option norelax\nla gp, __global_pointer$\n.option pop\n"
        "la tp, __tls_base\nmv a0, sp\nj begin\n");
