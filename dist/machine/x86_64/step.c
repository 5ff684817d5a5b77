/*
 * Runs single instructions of a linked file on this processor, each from a state of its own:
 *
 *     step FILE STATES RESULTS
 *
 * A state is the place of an instruction, sixteen general registers, the flags, 32 vector registers of 64 bytes, and 512 bytes of memory
 * at SCRATCH. A result is the state after the instruction, whose place is 0 if the processor stopped at it.
 */
#include <cpuid.h>
#include <elf.h>
#include <fcntl.h>
#include <signal.h>
#include <stdint.h>
#include <stdio.h>
#include <stdlib.h>
#include <string.h>
#include <sys/mman.h>
#include <sys/ptrace.h>
#include <sys/uio.h>
#include <sys/user.h>
#include <sys/wait.h>
#include <unistd.h>

#define SCRATCH 0x30001000ul
#define PAGE 4096ul
/* The flags that are compared: carry, zero, sign and overflow. */
#define FLAGS 0x8c1u
/* Where the header of XSAVE's form is, and more than the whole form has with the registers of any processor. */
enum { HEADER = 512, XSAVE_SIZE = 1 << 14 };

/* A part of that form: its number, where it begins, the first of 16 vector registers, and which of their bytes it has. */
typedef struct {
    unsigned number, start;
    int first, from, size;
} part;

static part parts[] = {{1, 160, 0, 0, 16}, {2, 0, 0, 16, 16}, {6, 0, 0, 32, 32}, {7, 0, 16, 0, 64}};
enum { PARTS = sizeof parts / sizeof *parts };

typedef struct {
    uint64_t place, general[16], flags;
    uint8_t vectors[32][64], scratch[512];
} state;

static void must(int holds, const char *what)
{
    if (!holds) {
        perror(what);
        exit(1);
    }
}

static void map(uint64_t place, size_t size)
{
    void *made = mmap((void *)place, size, PROT_READ | PROT_WRITE | PROT_EXEC, MAP_PRIVATE | MAP_ANONYMOUS | MAP_FIXED, -1, 0);
    must(made != MAP_FAILED, "mmap");
}

/* In the child: loads the file and the memory of the states, and waits. */
static void wait_with(const uint8_t *file)
{
    const Elf64_Ehdr *head = (const void *)file;
    const Elf64_Phdr *part = (const void *)(file + head->e_phoff);
    must(ptrace(PTRACE_TRACEME, 0, 0, 0) == 0, "ptrace");
    for (int i = 0; i < head->e_phnum; i++)
        if (part[i].p_type == PT_LOAD) {
            uint64_t start = part[i].p_vaddr / PAGE * PAGE, end = (part[i].p_vaddr + part[i].p_memsz + PAGE - 1) / PAGE * PAGE;
            map(start, end - start);
            memcpy((void *)part[i].p_vaddr, file + part[i].p_offset, part[i].p_filesz);
        }
    map(SCRATCH - 0x1000, 0x10000);
    raise(SIGSTOP);
    _exit(0);
}

/* The general registers of a process in the order of their numbers. */
static void general_of(struct user_regs_struct *r, unsigned long long *found[16])
{
    unsigned long long *all[16] = {
        &r->rax, &r->rcx, &r->rdx, &r->rbx, &r->rsp, &r->rbp, &r->rsi, &r->rdi, &r->r8, &r->r9, &r->r10, &r->r11, &r->r12, &r->r13,
        &r->r14, &r->r15};
    memcpy(found, all, sizeof all);
}

/* Asks the processor where all parts but the first begin, as makers differ. A part that it hasn't begins at 0. */
static void find_parts(void)
{
    unsigned size, third, fourth;
    for (part *it = parts + 1; it < parts + PARTS; it++)
        __cpuid_count(13, it->number, size, it->start, third, fourth);
}

static void put_vectors(uint8_t *saved, uint8_t vectors[32][64])
{
    for (const part *it = parts; it < parts + PARTS; it++)
        if (it->start) {
            *(uint64_t *)(saved + HEADER) |= 1u << it->number;
            for (int i = 0; i < 16; i++)
                memcpy(saved + it->start + it->size * i, vectors[it->first + i] + it->from, it->size);
        }
}

/* A part that the header says isn't there is 0. */
static void get_vectors(const uint8_t *saved, uint8_t vectors[32][64])
{
    memset(vectors, 0, 32 * 64);
    for (const part *it = parts; it < parts + PARTS; it++)
        if (it->start && *(const uint64_t *)(saved + HEADER) & 1u << it->number)
            for (int i = 0; i < 16; i++)
                memcpy(vectors[it->first + i] + it->from, saved + it->start + it->size * i, it->size);
}

/* Runs one instruction of the child, whose memory is open, from a state, which becomes the one after it. */
static void step(pid_t child, int memory, state *s)
{
    static uint8_t saved[XSAVE_SIZE];
    struct user_regs_struct registers;
    unsigned long long *general[16];
    struct iovec vectors = {saved, sizeof saved};
    int status;
    general_of(&registers, general);
    ptrace(PTRACE_GETREGS, child, 0, &registers);
    for (int i = 0; i < 16; i++)
        *general[i] = s->general[i];
    registers.rip = s->place;
    registers.eflags = 0x202 | s->flags;
    registers.orig_rax = -1ull;
    ptrace(PTRACE_SETREGS, child, 0, &registers);
    must(ptrace(PTRACE_GETREGSET, child, NT_X86_XSTATE, &vectors) == 0, "vectors");
    put_vectors(saved, s->vectors);
    must(ptrace(PTRACE_SETREGSET, child, NT_X86_XSTATE, &vectors) == 0, "vectors");
    must(pwrite(memory, s->scratch, sizeof s->scratch, SCRATCH) == sizeof s->scratch, "memory");
    ptrace(PTRACE_SINGLESTEP, child, 0, 0);
    waitpid(child, &status, 0);
    must(WIFSTOPPED(status), "step");
    ptrace(PTRACE_GETREGS, child, 0, &registers);
    s->place = WSTOPSIG(status) == SIGTRAP ? registers.rip : 0;
    for (int i = 0; i < 16; i++)
        s->general[i] = *general[i];
    s->flags = registers.eflags & FLAGS;
    ptrace(PTRACE_GETREGSET, child, NT_X86_XSTATE, &vectors);
    get_vectors(saved, s->vectors);
    must(pread(memory, s->scratch, sizeof s->scratch, SCRATCH) == sizeof s->scratch, "memory");
}

int main(int count, char **words)
{
    static uint8_t file[1 << 23];
    static state s;
    char path[64];
    int status;
    must(count == 4, "three words");
    find_parts();
    int given = open(words[1], O_RDONLY);
    must(given >= 0 && read(given, file, sizeof file) > 0, words[1]);
    pid_t child = fork();
    if (child == 0)
        wait_with(file);
    waitpid(child, &status, 0);
    snprintf(path, sizeof path, "/proc/%d/mem", child);
    int memory = open(path, O_RDWR);
    FILE *states = fopen(words[2], "rb"), *results = fopen(words[3], "wb");
    must(memory >= 0 && states && results, "files");
    while (fread(&s, sizeof s, 1, states) == 1) {
        step(child, memory, &s);
        must(fwrite(&s, sizeof s, 1, results) == 1, words[3]);
    }
    must(fclose(results) == 0, words[3]);
    kill(child, SIGKILL);
    waitpid(child, &status, 0);
    return 0;
}
