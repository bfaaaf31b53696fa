/* CALL(entry)(..): a call of a C entry. On AArch64 it goes through `watched`, which looks at the registers that a function has to give back as they were:
 * how that is done is what most parts one system's code from another's. */
#include <stdint.h>

uint64_t watched_entry, watched_lost;
#ifdef __aarch64__
uint64_t watched(void);
/* Calls watched_entry with the arguments that it has itself, three of them on the stack at most, and adds to watched_lost what changed in sp, x19 to x29 and d8 to d15. */
__asm__(".text\n.globl watched\n.type watched, %function\nwatched:\n"
        "ldp x9, x10, [sp]\nldr x11, [sp, #16]\n"
        "stp x29, x30, [sp, #-160]!\n"
        "stp x19, x20, [sp, #16]\nstp x21, x22, [sp, #32]\nstp x23, x24, [sp, #48]\nstp x25, x26, [sp, #64]\nstp x27, x28, [sp, #80]\n"
        "stp d8, d9, [sp, #96]\nstp d10, d11, [sp, #112]\nstp d12, d13, [sp, #128]\nstp d14, d15, [sp, #144]\n"
        "stp x9, x10, [sp, #-32]!\nstr x11, [sp, #16]\n"
        "mov x29, sp\n"
        ".irp r, 8, 9, 10, 11, 12, 13, 14, 15\nmovn x10, #\\r * 1003\nfmov d\\r, x10\n.endr\n"
        ".irp r, 19, 20, 21, 22, 23, 24, 25, 26, 27, 28\nmovn x\\r, #\\r * 1001\n.endr\n"
        "adrp x16, watched_entry\nldr x16, [x16, :lo12:watched_entry]\nblr x16\n"
        "mov x9, sp\neor x9, x9, x29\n"
        ".irp r, 8, 9, 10, 11, 12, 13, 14, 15\nmovn x10, #\\r * 1003\nfmov x11, d\\r\neor x10, x10, x11\norr x9, x9, x10\n.endr\n"
        ".irp r, 19, 20, 21, 22, 23, 24, 25, 26, 27, 28\nmovn x10, #\\r * 1001\neor x10, x10, x\\r\norr x9, x9, x10\n.endr\n"
        "adrp x10, watched_lost\nldr x11, [x10, :lo12:watched_lost]\norr x11, x11, x9\nstr x11, [x10, :lo12:watched_lost]\n"
        "add sp, sp, #32\n"
        "ldp x19, x20, [sp, #16]\nldp x21, x22, [sp, #32]\nldp x23, x24, [sp, #48]\nldp x25, x26, [sp, #64]\nldp x27, x28, [sp, #80]\n"
        "ldp d8, d9, [sp, #96]\nldp d10, d11, [sp, #112]\nldp d12, d13, [sp, #128]\nldp d14, d15, [sp, #144]\n"
        "ldp x29, x30, [sp], #160\nret\n");
#define CALL(entry) (watched_entry = (uint64_t)(uintptr_t)(entry), (__typeof__(&(entry)))(uintptr_t)watched)
#else
#define CALL(entry) (entry)
#endif
