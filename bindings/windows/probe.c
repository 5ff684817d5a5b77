/*
 * The stack probe of the library, which functions with large frames call: it touches each page of a frame, since Windows gives a stack its
 * pages one after the other, and it changes neither memory nor registers. Here a block of memory stands for the stack. Windows says which
 * of its pages were written.
 */
#include <stdbool.h>
#include <stdint.h>
#include <stdio.h>
#include <string.h>
#include <windows.h>

/* A call pushes its address, and the probe two registers. */
enum { PAGE = 4096, PAGES = 520, REGISTERS = 14, FILL = 0x5a, PUSHED = 24 };

/*
 * Calls the probe for a frame below a stack pointer, and returns the size that the probe has left. All other general registers, but for
 * the stack pointer, get numbers, and are stored afterwards.
 */
uint64_t call_probe(uint64_t size, uint64_t registers[REGISTERS], uint8_t *stack_pointer);
__asm__("    .data\n"
        "own_stack_pointer: .quad 0\n"
        "    .text\n"
        "    .globl call_probe\n"
        "call_probe:\n"
        "    pushq %rbx\n pushq %rbp\n pushq %rdi\n pushq %rsi\n pushq %r12\n pushq %r13\n pushq %r14\n pushq %r15\n"
        "    pushq %rdx\n"
        "    movq %rcx, %rax\n"
        "    movq %rsp, own_stack_pointer(%rip)\n"
        "    movq %r8, %rsp\n"
        "    movq $1, %rcx\n movq $2, %rdx\n movq $3, %rbx\n movq $4, %rbp\n movq $5, %rsi\n movq $6, %rdi\n movq $7, %r8\n"
        "    movq $8, %r9\n movq $9, %r10\n movq $10, %r11\n movq $11, %r12\n movq $12, %r13\n movq $13, %r14\n movq $14, %r15\n"
        "    call yurewha_stack_probe\n"
        "    movq own_stack_pointer(%rip), %rsp\n"
        "    xchgq %rax, (%rsp)\n"
        "    movq %rcx, (%rax)\n movq %rdx, 8(%rax)\n movq %rbx, 16(%rax)\n movq %rbp, 24(%rax)\n movq %rsi, 32(%rax)\n"
        "    movq %rdi, 40(%rax)\n movq %r8, 48(%rax)\n movq %r9, 56(%rax)\n movq %r10, 64(%rax)\n movq %r11, 72(%rax)\n"
        "    movq %r12, 80(%rax)\n movq %r13, 88(%rax)\n movq %r14, 96(%rax)\n movq %r15, 104(%rax)\n"
        "    popq %rax\n"
        "    popq %r15\n popq %r14\n popq %r13\n popq %r12\n popq %rsi\n popq %rdi\n popq %rbp\n popq %rbx\n"
        "    ret\n");

static const uint64_t sizes[] = {1, 8, PAGE - 1, PAGE, PAGE + 1, 2 * PAGE, 3 * PAGE + 5, 10 * PAGE - 8, 500 * PAGE + 16};
static unsigned checks, failures;

static void expect(bool holds, const char *what, uint64_t size)
{
    checks++;
    failures += !holds;
    if (!holds)
        printf("fails: %s, for a frame of %llu bytes\n", what, (unsigned long long)size);
}

/* The stack pointer stands in the last page, as far from its ends as `above` says. */
static void probe(uint8_t *block, uint64_t size, size_t above)
{
    uint8_t *const top = block + PAGES * PAGE - above;
    void *written[PAGES];
    ULONG_PTR count = PAGES;
    ULONG page;
    uint64_t registers[REGISTERS] = {0};
    memset(block, FILL, PAGES * PAGE);
    ResetWriteWatch(block, PAGES * PAGE);
    expect(call_probe(size, registers, top) == size, "the size stays", size);
    for (uint64_t i = 0; i < REGISTERS; i++)
        expect(registers[i] == i + 1, "a register stays", size);
    for (const uint8_t *at = block; at < top - PUSHED; at++)
        if (*at != FILL) {
            expect(false, "memory stays", size);
            break;
        }
    expect(GetWriteWatch(0, block, PAGES * PAGE, written, &count, &page) == 0, "Windows tells what was written", size);
    const size_t lowest = (size_t)(top - (size > PUSHED ? size : PUSHED) - block) / PAGE;
    expect(count == PAGES - lowest, "each page of the frame is touched, and no other", size);
    for (size_t i = 0; i < count && i < PAGES - lowest; i++)
        expect(written[i] == block + (lowest + i) * PAGE, "a page is touched", size);
}

int main(void)
{
    uint8_t *block = VirtualAlloc(NULL, PAGES * PAGE, MEM_RESERVE | MEM_COMMIT | MEM_WRITE_WATCH, PAGE_READWRITE);
    if (block == NULL)
        return 2;
    for (size_t i = 0; i < sizeof sizes / sizeof *sizes; i++)
        for (size_t above = 16; above < PAGE; above += 1016)
            probe(block, sizes[i], above);
    printf("%u checks, %u failed\n", checks, failures);
    return failures != 0;
}
