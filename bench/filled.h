/* How deep a call goes: it is made on a stack filled with a pattern, and then the lowest byte is sought that differs. */
#ifndef FILLED_H
#define FILLED_H

#include <stdint.h>
#include <stdio.h>
#include <string.h>

/* Calls f with twelve arguments, six of them on the stack that ends at top. x86-64, System V. */
void call_on(void *top, void (*f)(void), const uint64_t *words);
__asm__(".text\n.globl call_on\ncall_on:\n"
        "push %rbp\nmov %rsp, %rbp\nmov %rdi, %rsp\nmov %rsi, %rax\nmov %rdx, %r10\n"
        "push 88(%r10)\npush 80(%r10)\npush 72(%r10)\npush 64(%r10)\npush 56(%r10)\npush 48(%r10)\n"
        "mov 40(%r10), %r9\nmov 32(%r10), %r8\nmov 24(%r10), %rcx\nmov 16(%r10), %rdx\nmov 8(%r10), %rsi\nmov (%r10), %rdi\n"
        "call *%rax\nmov %rbp, %rsp\npop %rbp\nret\n");

enum { SIZE = 65536, ARGUMENTS = 48 };
static uint8_t stack[SIZE] __attribute__((aligned(16)));

#define AT(p) (uint64_t)(uintptr_t)(p)

/* Bytes below the caller's frame, return address included. */
static size_t depth_on(uint8_t pattern, void (*f)(void), const uint64_t *words) {
    size_t low = 0;
    memset(stack, pattern, SIZE);
    call_on(stack + SIZE, f, words);
    while (low < SIZE && stack[low] == pattern) low++;
    return SIZE - ARGUMENTS - low;
}

#endif
