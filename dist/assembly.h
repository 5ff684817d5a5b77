/*
 * What the .S files of this folder say in one way for Linux (ELF) and in another for macOS (Mach-O). The rest is the same.
 *
 * A name in quotation marks is a function of the library's own. These names are others', or are of places:
 *
 *     L(0_1)      a place in a function             C(name)      what C code has or sees
 *     D(CPI0_0)   a piece of data                   PLT(name)    a function of elsewhere that is called
 */
#ifdef __APPLE__

#define L(place) LBB##place
#define D(data) l##data
#define C(name) _##name
#define PLT(name) _##name
#define PAGE(name) name@PAGE                /* on aarch64, the two halves of an address */
#define LOW(name) name@PAGEOFF
#define CODE(where) .section __TEXT,__text,regular,pure_instructions
#define CONSTANTS(where) .section __TEXT,__const
#ifdef __aarch64__
#define SIZED(bytes, power) .section __TEXT,__const %% .p2align power
#else
#define SIZED(bytes, power) .section __TEXT,__const; .p2align power
#endif
#define ADDRESSES(where) .section __DATA,__const
#define HIDDEN(name) .private_extern name
#define TYPE(name, kind)
#define SIZE(name)
#define NO_STACK
#define END .subsections_via_symbols        /* the linker may leave out each function */

#else

#define L(place) .LBB##place
#define D(data) .L##data
#define C(name) name
#define PLT(name) name@PLT
#define PAGE(name) name
#define LOW(name) :lo12:name
#define CODE(where) .section where,"ax",@progbits
#define CONSTANTS(where) .section where,"a",@progbits
#define SIZED(bytes, power) .section .rodata.cst##bytes,"aM",@progbits,bytes
#define ADDRESSES(where) .section where,"aw",@progbits
#define HIDDEN(name) .hidden name
#define TYPE(name, kind) .type name,@kind
#define SIZE(name) .size name, .-name
#define NO_STACK .section ".note.GNU-stack","",@progbits        /* the stack has no code */
#define END

/* Each object says that it works with IBT and SHSTK, on aarch64 with BTI and PAC. A program has these if all of its objects say so. */
#ifdef __aarch64__
#define MARKS 0xc0000000
#else
#define MARKS 0xc0000002
#endif
	.section .note.gnu.property,"a",@note
	.p2align 3, 0x0
	.long 4, 16, 5
	.asciz "GNU"
	.long MARKS, 4, 3
	.p2align 3, 0x0

#endif
