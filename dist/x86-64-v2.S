/* Yurewha 1.1.0 for x86-64-v2: the kernels of the proved library, as the toolchain compiles it. Made by dist/make, not by hand.
   The sum of its sources: 9f27598952ba9691f7deda6fc4a73bcce6b881aa2a1edd98ac143c424a08c115 */
#include "assembly.h"
#ifdef __x86_64__
CODE(".text.keyed_blake3::keyed_hash")
	.p2align	4
	TYPE("keyed_blake3::keyed_hash", function)
"keyed_blake3::keyed_hash":
	.cfi_startproc
	endbr64
	pushq	%rbp
	.cfi_def_cfa_offset 16
	pushq	%r15
	.cfi_def_cfa_offset 24
	pushq	%r14
	.cfi_def_cfa_offset 32
	pushq	%r13
	.cfi_def_cfa_offset 40
	pushq	%r12
	.cfi_def_cfa_offset 48
	pushq	%rbx
	.cfi_def_cfa_offset 56
	subq	$2024, %rsp
	.cfi_def_cfa_offset 2080
	.cfi_offset %rbx, -56
	.cfi_offset %r12, -48
	.cfi_offset %r13, -40
	.cfi_offset %r14, -32
	.cfi_offset %r15, -24
	.cfi_offset %rbp, -16
	movq	%rcx, %r14
	movq	%rdx, %rbx
	movq	%rsi, %r12
	movq	%rdi, %r15
	xorps	%xmm0, %xmm0
	movaps	%xmm0, 16(%rsp)
	movaps	%xmm0, (%rsp)
	cmpq	$1025, %rcx
	jae	L(1_1)
	movups	(%r12), %xmm0
	movups	16(%r12), %xmm1
	cmpq	$1, %r14
	movq	%r14, %r12
	adcq	$-1, %r12
	movq	%r12, %r13
	shrq	$6, %r13
	je	L(1_4)
	movq	%r15, 64(%rsp)
	xorl	%ebp, %ebp
	movq	%rbx, %r15
	.p2align	4
L(1_6):
	cmpq	$1, %rbp
	movl	$0, %r8d
	adcl	$16, %r8d
	movups	(%r15), %xmm5
	movups	16(%r15), %xmm4
	movups	32(%r15), %xmm2
	movups	48(%r15), %xmm3
	movaps	%xmm3, 128(%rsp)
	movaps	%xmm2, 112(%rsp)
	movaps	%xmm4, 96(%rsp)
	movaps	%xmm5, 80(%rsp)
	leaq	32(%rsp), %rdi
	leaq	80(%rsp), %rsi
	xorl	%edx, %edx
	movl	$64, %ecx
	callq	"keyed_blake3::compression::compress"
	movaps	32(%rsp), %xmm0
	movaps	48(%rsp), %xmm1
	incq	%rbp
	addq	$64, %r15
	cmpq	%rbp, %r13
	jne	L(1_6)
	movl	$26, %ebp
	movq	64(%rsp), %r15
	jmp	L(1_8)
L(1_1):
	leaq	224(%rsp), %rdi
	movl	$1800, %edx
	xorl	%esi, %esi
	callq	PLT(memset)
	movups	(%r12), %xmm0
	movups	16(%r12), %xmm1
	movaps	%xmm0, 192(%rsp)
	movaps	%xmm1, 208(%rsp)
	movups	(%r12), %xmm0
	movups	16(%r12), %xmm1
	movaps	%xmm0, 160(%rsp)
	movaps	%xmm1, 176(%rsp)
	leaq	160(%rsp), %r12
	movq	%r12, %rdi
	movq	%rbx, %rsi
	movq	%r14, %rdx
	callq	"keyed_blake3::hasher::Hasher::update"
	movq	%rsp, %rdi
	movq	%r12, %rsi
	callq	"keyed_blake3::hasher::Hasher::finalize"
	movaps	(%rsp), %xmm0
	movaps	16(%rsp), %xmm1
	movups	%xmm1, 16(%r15)
	movups	%xmm0, (%r15)
	jmp	L(1_2)
L(1_4):
	movl	$27, %ebp
L(1_8):
	andl	$1984, %r12d
	addq	%r12, %rbx
	subq	%r12, %r14
	xorps	%xmm2, %xmm2
	movaps	%xmm2, 32(%rsp)
	movaps	%xmm2, 48(%rsp)
	cmpq	$64, %r14
	jne	L(1_10)
	movups	(%rbx), %xmm5
	movups	16(%rbx), %xmm4
	movups	32(%rbx), %xmm2
	movups	48(%rbx), %xmm3
	movaps	%xmm3, 128(%rsp)
	movaps	%xmm2, 112(%rsp)
	movaps	%xmm4, 96(%rsp)
	movaps	%xmm5, 80(%rsp)
	leaq	32(%rsp), %rdi
	leaq	80(%rsp), %rsi
	xorl	%edx, %edx
	movl	$64, %ecx
	jmp	L(1_11)
L(1_10):
	movaps	%xmm2, 128(%rsp)
	movaps	%xmm2, 112(%rsp)
	movaps	%xmm2, 96(%rsp)
	movaps	%xmm2, 80(%rsp)
	leaq	80(%rsp), %r12
	movq	%r12, %rdi
	movq	%rbx, %rsi
	movq	%r14, %rdx
	movaps	%xmm1, 64(%rsp)
	movaps	%xmm0, 144(%rsp)
	callq	PLT(memcpy)
	leaq	32(%rsp), %rdi
	movaps	144(%rsp), %xmm0
	movaps	64(%rsp), %xmm1
	movq	%r12, %rsi
	xorl	%edx, %edx
	movl	%r14d, %ecx
L(1_11):
	movl	%ebp, %r8d
	callq	"keyed_blake3::compression::compress"
	movups	36(%rsp), %xmm0
	movsd	52(%rsp), %xmm1
	movl	60(%rsp), %eax
	movl	32(%rsp), %ecx
	movl	%ecx, (%rsp)
	movups	%xmm0, 4(%rsp)
	movlps	%xmm1, 20(%rsp)
	movl	%eax, 28(%rsp)
	movq	16(%rsp), %rax
	movq	%rax, 16(%r15)
	movl	24(%rsp), %eax
	movl	%eax, 24(%r15)
	movl	28(%rsp), %eax
	movl	%eax, 28(%r15)
	movl	(%rsp), %eax
	movl	%eax, (%r15)
	movq	4(%rsp), %rax
	movq	%rax, 4(%r15)
	movl	12(%rsp), %eax
	movl	%eax, 12(%r15)
L(1_2):
	addq	$2024, %rsp
	.cfi_def_cfa_offset 56
	popq	%rbx
	.cfi_def_cfa_offset 48
	popq	%r12
	.cfi_def_cfa_offset 40
	popq	%r13
	.cfi_def_cfa_offset 32
	popq	%r14
	.cfi_def_cfa_offset 24
	popq	%r15
	.cfi_def_cfa_offset 16
	popq	%rbp
	.cfi_def_cfa_offset 8
	retq
	SIZE("keyed_blake3::keyed_hash")
	.cfi_endproc

SIZED(16, 4)
	.p2align	4, 0x0
D(CPI2_0):
	.byte	2
	.byte	3
	.byte	0
	.byte	1
	.byte	6
	.byte	7
	.byte	4
	.byte	5
	.byte	10
	.byte	11
	.byte	8
	.byte	9
	.byte	14
	.byte	15
	.byte	12
	.byte	13
D(CPI2_1):
	.long	1779033703
	.long	3144134277
	.long	1013904242
	.long	2773480762
D(CPI2_2):
	.byte	1
	.byte	2
	.byte	3
	.byte	0
	.byte	5
	.byte	6
	.byte	7
	.byte	4
	.byte	9
	.byte	10
	.byte	11
	.byte	8
	.byte	13
	.byte	14
	.byte	15
	.byte	12
D(CPI2_3):
	.byte	10
	.byte	11
	.byte	8
	.byte	9
	.byte	14
	.byte	15
	.byte	12
	.byte	13
	.byte	2
	.byte	3
	.byte	0
	.byte	1
	.byte	6
	.byte	7
	.byte	4
	.byte	5
CODE(".text.keyed_blake3::compression::compress")
	.p2align	4
	TYPE("keyed_blake3::compression::compress", function)
"keyed_blake3::compression::compress":
	.cfi_startproc
	endbr64
	subq	$40, %rsp
	.cfi_def_cfa_offset 48
	movq	%rdx, %xmm6
	pinsrd	$2, %ecx, %xmm6
	pinsrd	$3, %r8d, %xmm6
	movups	(%rsi), %xmm2
	movups	16(%rsi), %xmm11
	movdqu	32(%rsi), %xmm9
	movdqu	48(%rsi), %xmm13
	movaps	%xmm2, %xmm5
	shufps	$136, %xmm11, %xmm5
	movaps	%xmm2, %xmm7
	movaps	%xmm2, %xmm10
	movaps	%xmm2, -80(%rsp)
	shufps	$221, %xmm11, %xmm7
	movaps	%xmm7, -48(%rsp)
	pshufd	$38, %xmm13, %xmm2
	movdqa	%xmm2, -96(%rsp)
	pshufd	$224, %xmm9, %xmm3
	pblendw	$195, %xmm2, %xmm3
	pshufd	$103, %xmm13, %xmm12
	movdqa	%xmm12, 16(%rsp)
	paddd	%xmm1, %xmm0
	paddd	%xmm5, %xmm0
	movdqa	%xmm5, %xmm14
	movaps	%xmm5, -128(%rsp)
	pxor	%xmm0, %xmm6
	movdqa	D(CPI2_0)(%rip), %xmm8
	pshufb	%xmm8, %xmm6
	movdqa	D(CPI2_1)(%rip), %xmm5
	paddd	%xmm6, %xmm5
	pxor	%xmm5, %xmm1
	movdqa	%xmm1, %xmm2
	psrld	$12, %xmm2
	pslld	$20, %xmm1
	por	%xmm2, %xmm1
	paddd	%xmm7, %xmm0
	paddd	%xmm1, %xmm0
	movdqa	D(CPI2_2)(%rip), %xmm7
	pshufd	$147, %xmm0, %xmm4
	pshufb	%xmm7, %xmm0
	pshufb	%xmm7, %xmm6
	pxor	%xmm0, %xmm6
	paddd	%xmm6, %xmm5
	pxor	%xmm5, %xmm1
	movdqa	%xmm1, %xmm0
	psrld	$7, %xmm0
	pslld	$25, %xmm1
	por	%xmm0, %xmm1
	paddd	%xmm3, %xmm4
	pshufd	$57, %xmm5, %xmm5
	paddd	%xmm1, %xmm4
	movdqa	%xmm4, %xmm0
	pshufb	%xmm8, %xmm0
	movdqa	D(CPI2_3)(%rip), %xmm3
	pshufb	%xmm3, %xmm6
	pxor	%xmm0, %xmm6
	paddd	%xmm6, %xmm5
	pxor	%xmm5, %xmm1
	movdqa	%xmm1, %xmm0
	psrld	$12, %xmm0
	pslld	$20, %xmm1
	por	%xmm0, %xmm1
	pshufd	$244, %xmm9, %xmm15
	pblendw	$195, %xmm12, %xmm15
	paddd	%xmm15, %xmm4
	paddd	%xmm1, %xmm4
	movdqa	%xmm4, %xmm0
	pshufb	%xmm7, %xmm0
	pshufb	%xmm7, %xmm6
	pxor	%xmm0, %xmm6
	paddd	%xmm6, %xmm5
	pxor	%xmm5, %xmm1
	movdqa	%xmm1, %xmm0
	psrld	$7, %xmm0
	pslld	$25, %xmm1
	por	%xmm0, %xmm1
	pshufd	$250, %xmm10, %xmm0
	pblendw	$195, %xmm11, %xmm0
	movdqa	%xmm0, -112(%rsp)
	paddd	%xmm0, %xmm4
	pshufd	$57, %xmm4, %xmm0
	paddd	%xmm1, %xmm0
	movdqa	%xmm0, %xmm2
	pshufb	%xmm8, %xmm2
	pshufb	%xmm3, %xmm6
	pxor	%xmm2, %xmm6
	pshufd	$147, %xmm5, %xmm10
	paddd	%xmm6, %xmm10
	pxor	%xmm10, %xmm1
	movdqa	%xmm1, %xmm2
	psrld	$12, %xmm2
	pslld	$20, %xmm1
	por	%xmm2, %xmm1
	movdqa	%xmm14, %xmm12
	pblendw	$48, %xmm9, %xmm12
	shufps	$203, %xmm12, %xmm12
	movdqa	%xmm13, %xmm14
	movdqa	%xmm13, %xmm3
	punpckldq	%xmm12, %xmm3
	movdqa	%xmm3, -16(%rsp)
	insertps	$112, %xmm13, %xmm12
	paddd	%xmm12, %xmm0
	movaps	%xmm12, -64(%rsp)
	paddd	%xmm1, %xmm0
	pshufd	$147, %xmm0, %xmm5
	pshufb	%xmm7, %xmm0
	pshufb	%xmm7, %xmm6
	pxor	%xmm0, %xmm6
	paddd	%xmm6, %xmm10
	pxor	%xmm10, %xmm1
	movdqa	%xmm1, %xmm0
	psrld	$7, %xmm0
	pslld	$25, %xmm1
	por	%xmm0, %xmm1
	movdqa	%xmm15, %xmm13
	movdqa	%xmm15, %xmm4
	movdqa	-48(%rsp), %xmm15
	punpcklqdq	%xmm15, %xmm4
	movdqa	%xmm4, %xmm0
	movdqa	-96(%rsp), %xmm8
	pblendw	$192, %xmm8, %xmm0
	pshufd	$120, %xmm0, %xmm0
	paddd	%xmm0, %xmm5
	paddd	%xmm1, %xmm5
	movdqa	%xmm5, %xmm0
	movdqa	D(CPI2_0)(%rip), %xmm2
	pshufb	%xmm2, %xmm0
	movdqa	D(CPI2_3)(%rip), %xmm2
	pshufb	%xmm2, %xmm6
	pxor	%xmm0, %xmm6
	pshufd	$57, %xmm10, %xmm0
	paddd	%xmm6, %xmm0
	pxor	%xmm0, %xmm1
	movdqa	%xmm1, %xmm2
	psrld	$12, %xmm2
	pslld	$20, %xmm1
	por	%xmm2, %xmm1
	movdqa	%xmm9, %xmm2
	shufps	$172, %xmm14, %xmm2
	movaps	%xmm14, (%rsp)
	movaps	%xmm11, %xmm10
	insertps	$96, %xmm11, %xmm2
	paddd	%xmm2, %xmm5
	paddd	%xmm1, %xmm5
	movaps	-112(%rsp), %xmm11
	movaps	%xmm11, %xmm2
	shufps	$219, %xmm12, %xmm2
	paddd	%xmm5, %xmm2
	pshufb	%xmm7, %xmm5
	pshufb	%xmm7, %xmm6
	pxor	%xmm5, %xmm6
	paddd	%xmm6, %xmm0
	pxor	%xmm0, %xmm1
	movdqa	%xmm1, %xmm5
	psrld	$7, %xmm5
	pslld	$25, %xmm1
	por	%xmm5, %xmm1
	pshufd	$36, %xmm4, %xmm5
	movdqa	%xmm9, %xmm7
	movdqa	%xmm9, %xmm12
	shufps	$236, %xmm10, %xmm7
	movaps	%xmm10, %xmm9
	movaps	%xmm10, -32(%rsp)
	insertps	$112, %xmm13, %xmm7
	punpckhdq	%xmm15, %xmm5
	shufps	$8, %xmm13, %xmm15
	movaps	%xmm15, %xmm10
	pshufd	$57, %xmm2, %xmm2
	paddd	%xmm1, %xmm2
	movdqa	%xmm2, %xmm3
	pshufb	D(CPI2_0)(%rip), %xmm3
	pshufb	D(CPI2_3)(%rip), %xmm6
	pxor	%xmm3, %xmm6
	pshufd	$147, %xmm0, %xmm4
	paddd	%xmm6, %xmm4
	pxor	%xmm4, %xmm1
	movdqa	%xmm1, %xmm0
	psrld	$12, %xmm0
	pslld	$20, %xmm1
	por	%xmm0, %xmm1
	movaps	%xmm11, %xmm0
	blendps	$12, %xmm8, %xmm0
	pshufd	$220, %xmm0, %xmm8
	movaps	-128(%rsp), %xmm0
	movaps	%xmm0, %xmm15
	shufps	$243, %xmm9, %xmm0
	insertps	$112, %xmm5, %xmm0
	movaps	%xmm0, -128(%rsp)
	movdqa	%xmm5, %xmm13
	punpcklqdq	%xmm8, %xmm13
	insertps	$176, %xmm14, %xmm8
	paddd	%xmm8, %xmm2
	paddd	%xmm1, %xmm2
	pshufd	$147, %xmm2, %xmm0
	movdqa	D(CPI2_2)(%rip), %xmm9
	pshufb	%xmm9, %xmm2
	pshufb	%xmm9, %xmm6
	pxor	%xmm2, %xmm6
	paddd	%xmm6, %xmm4
	pxor	%xmm4, %xmm1
	movdqa	%xmm1, %xmm2
	psrld	$7, %xmm2
	pslld	$25, %xmm1
	por	%xmm2, %xmm1
	shufps	$120, %xmm7, %xmm7
	paddd	%xmm7, %xmm0
	paddd	%xmm1, %xmm0
	movdqa	%xmm0, %xmm2
	movdqa	D(CPI2_0)(%rip), %xmm5
	pshufb	%xmm5, %xmm2
	movdqa	D(CPI2_3)(%rip), %xmm3
	pshufb	%xmm3, %xmm6
	pxor	%xmm2, %xmm6
	pshufd	$57, %xmm4, %xmm4
	paddd	%xmm6, %xmm4
	pxor	%xmm4, %xmm1
	movdqa	%xmm1, %xmm2
	psrld	$12, %xmm2
	pslld	$20, %xmm1
	por	%xmm2, %xmm1
	insertps	$32, -80(%rsp), %xmm10
	paddd	%xmm10, %xmm0
	paddd	%xmm1, %xmm0
	movdqa	%xmm0, %xmm2
	movdqa	%xmm9, %xmm10
	pshufb	%xmm9, %xmm2
	pshufb	%xmm9, %xmm6
	pxor	%xmm2, %xmm6
	paddd	%xmm6, %xmm4
	pxor	%xmm4, %xmm1
	movdqa	%xmm1, %xmm2
	psrld	$7, %xmm2
	pslld	$25, %xmm1
	por	%xmm2, %xmm1
	pshufd	$231, %xmm11, %xmm14
	pblendw	$12, %xmm12, %xmm14
	movdqa	%xmm12, %xmm11
	insertps	$48, 16(%rsp), %xmm14
	movaps	-64(%rsp), %xmm9
	movaps	%xmm9, %xmm2
	shufps	$215, %xmm8, %xmm2
	paddd	%xmm2, %xmm0
	pshufd	$57, %xmm0, %xmm7
	paddd	%xmm1, %xmm7
	movdqa	%xmm7, %xmm0
	pshufb	%xmm5, %xmm0
	pshufb	%xmm3, %xmm6
	pxor	%xmm0, %xmm6
	pshufd	$147, %xmm4, %xmm4
	paddd	%xmm6, %xmm4
	pxor	%xmm4, %xmm1
	movdqa	%xmm1, %xmm0
	psrld	$12, %xmm0
	pslld	$20, %xmm1
	por	%xmm0, %xmm1
	paddd	%xmm14, %xmm7
	paddd	%xmm1, %xmm7
	pshufd	$147, %xmm7, %xmm0
	pshufb	%xmm10, %xmm7
	pshufb	%xmm10, %xmm6
	pxor	%xmm7, %xmm6
	paddd	%xmm6, %xmm4
	pxor	%xmm4, %xmm1
	movdqa	%xmm1, %xmm7
	psrld	$7, %xmm7
	pslld	$25, %xmm1
	por	%xmm7, %xmm1
	shufps	$167, %xmm13, %xmm9
	movaps	%xmm9, %xmm12
	movdqa	%xmm11, %xmm9
	pblendw	$192, %xmm11, %xmm13
	pshufd	$120, %xmm13, %xmm5
	paddd	%xmm5, %xmm0
	paddd	%xmm1, %xmm0
	movdqa	%xmm0, %xmm5
	movdqa	D(CPI2_0)(%rip), %xmm7
	pshufb	%xmm7, %xmm5
	movdqa	%xmm3, %xmm10
	pshufb	%xmm3, %xmm6
	pxor	%xmm5, %xmm6
	pshufd	$57, %xmm4, %xmm4
	paddd	%xmm6, %xmm4
	pxor	%xmm4, %xmm1
	movdqa	%xmm1, %xmm5
	psrld	$12, %xmm5
	pslld	$20, %xmm1
	por	%xmm5, %xmm1
	shufps	$35, %xmm11, %xmm15
	movaps	-80(%rsp), %xmm3
	blendps	$4, %xmm3, %xmm15
	paddd	%xmm15, %xmm0
	paddd	%xmm1, %xmm0
	movdqa	%xmm0, %xmm5
	movdqa	D(CPI2_2)(%rip), %xmm13
	pshufb	%xmm13, %xmm5
	pshufb	%xmm13, %xmm6
	pxor	%xmm5, %xmm6
	paddd	%xmm6, %xmm4
	pxor	%xmm4, %xmm1
	movdqa	%xmm1, %xmm5
	psrld	$7, %xmm5
	pslld	$25, %xmm1
	por	%xmm5, %xmm1
	pshufd	$250, %xmm11, %xmm5
	movdqa	-16(%rsp), %xmm11
	punpckhdq	%xmm5, %xmm11
	pshufd	$57, %xmm0, %xmm0
	movaps	%xmm8, %xmm5
	shufps	$215, %xmm14, %xmm5
	shufps	$57, %xmm5, %xmm5
	paddd	%xmm0, %xmm5
	paddd	%xmm1, %xmm5
	movdqa	%xmm5, %xmm0
	pshufb	%xmm7, %xmm0
	pshufb	%xmm10, %xmm6
	movdqa	%xmm10, %xmm15
	pxor	%xmm0, %xmm6
	pshufd	$147, %xmm4, %xmm4
	paddd	%xmm6, %xmm4
	pxor	%xmm4, %xmm1
	movdqa	%xmm1, %xmm0
	psrld	$12, %xmm0
	pslld	$20, %xmm1
	por	%xmm0, %xmm1
	movdqa	%xmm11, %xmm0
	insertps	$48, %xmm9, %xmm0
	paddd	%xmm0, %xmm5
	paddd	%xmm1, %xmm5
	pshufd	$147, %xmm5, %xmm0
	pshufb	%xmm13, %xmm5
	pshufb	%xmm13, %xmm6
	movdqa	%xmm13, %xmm11
	pxor	%xmm5, %xmm6
	paddd	%xmm6, %xmm4
	pxor	%xmm4, %xmm1
	movdqa	%xmm1, %xmm5
	psrld	$7, %xmm5
	pslld	$25, %xmm1
	por	%xmm5, %xmm1
	movaps	-128(%rsp), %xmm5
	shufps	$120, %xmm5, %xmm5
	paddd	%xmm5, %xmm0
	paddd	%xmm1, %xmm0
	movdqa	%xmm0, %xmm5
	pshufb	%xmm7, %xmm5
	pshufb	%xmm10, %xmm6
	pxor	%xmm5, %xmm6
	pshufd	$57, %xmm4, %xmm5
	paddd	%xmm6, %xmm5
	pxor	%xmm5, %xmm1
	movdqa	%xmm1, %xmm4
	psrld	$12, %xmm4
	pslld	$20, %xmm1
	por	%xmm4, %xmm1
	pshufd	$85, %xmm3, %xmm4
	movdqa	-112(%rsp), %xmm13
	pblendw	$63, %xmm13, %xmm4
	paddd	%xmm4, %xmm0
	paddd	%xmm1, %xmm0
	movdqa	%xmm0, %xmm4
	pshufb	%xmm11, %xmm4
	pshufb	%xmm11, %xmm6
	pxor	%xmm4, %xmm6
	paddd	%xmm6, %xmm5
	pxor	%xmm5, %xmm1
	movdqa	%xmm1, %xmm4
	psrld	$7, %xmm4
	pslld	$25, %xmm1
	por	%xmm4, %xmm1
	movdqa	%xmm13, %xmm4
	punpcklqdq	%xmm2, %xmm4
	movaps	%xmm14, %xmm2
	shufps	$55, %xmm9, %xmm2
	pshufd	$57, %xmm0, %xmm0
	shufps	$57, %xmm2, %xmm2
	paddd	%xmm0, %xmm2
	paddd	%xmm1, %xmm2
	movdqa	%xmm2, %xmm0
	pshufb	%xmm7, %xmm0
	pshufb	%xmm10, %xmm6
	pxor	%xmm0, %xmm6
	pshufd	$147, %xmm5, %xmm0
	paddd	%xmm6, %xmm0
	pxor	%xmm0, %xmm1
	movdqa	%xmm1, %xmm5
	psrld	$12, %xmm5
	pslld	$20, %xmm1
	por	%xmm5, %xmm1
	movaps	-32(%rsp), %xmm10
	insertps	$96, %xmm10, %xmm8
	shufps	$219, %xmm8, %xmm8
	movaps	%xmm3, %xmm5
	insertps	$112, %xmm3, %xmm8
	paddd	%xmm8, %xmm2
	paddd	%xmm1, %xmm2
	pshufd	$147, %xmm2, %xmm3
	pshufb	%xmm11, %xmm2
	pshufb	%xmm11, %xmm6
	pxor	%xmm2, %xmm6
	paddd	%xmm6, %xmm0
	pxor	%xmm0, %xmm1
	movdqa	%xmm1, %xmm2
	psrld	$7, %xmm2
	pslld	$25, %xmm1
	por	%xmm2, %xmm1
	insertps	$48, %xmm5, %xmm4
	shufps	$120, %xmm4, %xmm4
	paddd	%xmm4, %xmm3
	pshufd	$57, %xmm0, %xmm4
	paddd	%xmm1, %xmm3
	movdqa	%xmm3, %xmm0
	pshufb	%xmm7, %xmm0
	pshufb	%xmm15, %xmm6
	pxor	%xmm0, %xmm6
	paddd	%xmm6, %xmm4
	pxor	%xmm4, %xmm1
	movdqa	%xmm1, %xmm0
	psrld	$12, %xmm0
	pslld	$20, %xmm1
	por	%xmm0, %xmm1
	movdqa	%xmm13, %xmm0
	shufps	$171, (%rsp), %xmm0
	insertps	$112, %xmm13, %xmm0
	shufps	$171, %xmm10, %xmm13
	blendps	$4, %xmm9, %xmm13
	paddd	%xmm13, %xmm3
	paddd	%xmm1, %xmm3
	movdqa	%xmm3, %xmm2
	movdqa	%xmm11, %xmm8
	pshufb	%xmm11, %xmm2
	pshufb	%xmm11, %xmm6
	pxor	%xmm2, %xmm6
	paddd	%xmm6, %xmm4
	pxor	%xmm4, %xmm1
	movdqa	%xmm1, %xmm2
	psrld	$7, %xmm2
	pslld	$25, %xmm1
	por	%xmm2, %xmm1
	movaps	%xmm12, %xmm11
	insertps	$32, -84(%rsp), %xmm11
	insertps	$32, %xmm5, %xmm14
	shufps	$219, %xmm14, %xmm14
	movaps	%xmm10, %xmm2
	insertps	$176, %xmm10, %xmm14
	shufps	$85, %xmm5, %xmm2
	movaps	%xmm2, %xmm5
	pshufd	$51, %xmm9, %xmm2
	pblendw	$60, %xmm5, %xmm2
	pshufd	$57, %xmm3, %xmm5
	pshufd	$147, %xmm4, %xmm3
	paddd	%xmm5, %xmm2
	paddd	%xmm1, %xmm2
	movdqa	%xmm2, %xmm4
	pshufb	%xmm7, %xmm4
	pshufb	%xmm15, %xmm6
	pxor	%xmm4, %xmm6
	paddd	%xmm6, %xmm3
	pxor	%xmm3, %xmm1
	movdqa	%xmm1, %xmm4
	psrld	$12, %xmm4
	pslld	$20, %xmm1
	por	%xmm4, %xmm1
	paddd	%xmm14, %xmm2
	paddd	%xmm1, %xmm2
	pshufd	$147, %xmm2, %xmm4
	pshufb	%xmm8, %xmm2
	pshufb	%xmm8, %xmm6
	pxor	%xmm2, %xmm6
	paddd	%xmm6, %xmm3
	pxor	%xmm3, %xmm1
	movdqa	%xmm1, %xmm2
	psrld	$7, %xmm2
	pslld	$25, %xmm1
	por	%xmm2, %xmm1
	shufps	$120, %xmm0, %xmm0
	paddd	%xmm0, %xmm4
	paddd	%xmm1, %xmm4
	movdqa	%xmm4, %xmm2
	pshufb	%xmm7, %xmm2
	pshufb	%xmm15, %xmm6
	pshufd	$57, %xmm3, %xmm0
	pxor	%xmm2, %xmm6
	paddd	%xmm6, %xmm0
	pxor	%xmm0, %xmm1
	movdqa	%xmm1, %xmm2
	psrld	$12, %xmm2
	pslld	$20, %xmm1
	por	%xmm2, %xmm1
	paddd	%xmm11, %xmm4
	paddd	%xmm1, %xmm4
	pshufd	$57, %xmm4, %xmm2
	pshufb	%xmm8, %xmm4
	pshufb	%xmm8, %xmm6
	pxor	%xmm4, %xmm6
	paddd	%xmm6, %xmm0
	pxor	%xmm0, %xmm1
	movdqa	%xmm1, %xmm3
	psrld	$7, %xmm3
	pslld	$25, %xmm1
	por	%xmm3, %xmm1
	pshufd	$147, %xmm0, %xmm0
	pxor	%xmm2, %xmm0
	pshufd	$78, %xmm6, %xmm2
	pxor	%xmm1, %xmm2
	movdqu	%xmm0, (%rdi)
	movdqu	%xmm2, 16(%rdi)
	addq	$40, %rsp
	.cfi_def_cfa_offset 8
	retq
	SIZE("keyed_blake3::compression::compress")
	.cfi_endproc

CODE(".text.keyed_blake3::hasher::Hasher::update")
	.p2align	4
	TYPE("keyed_blake3::hasher::Hasher::update", function)
"keyed_blake3::hasher::Hasher::update":
	.cfi_startproc
	endbr64
	pushq	%rbp
	.cfi_def_cfa_offset 16
	pushq	%r15
	.cfi_def_cfa_offset 24
	pushq	%r14
	.cfi_def_cfa_offset 32
	pushq	%r13
	.cfi_def_cfa_offset 40
	pushq	%r12
	.cfi_def_cfa_offset 48
	pushq	%rbx
	.cfi_def_cfa_offset 56
	subq	$248, %rsp
	.cfi_def_cfa_offset 304
	.cfi_offset %rbx, -56
	.cfi_offset %r12, -48
	.cfi_offset %r13, -40
	.cfi_offset %r14, -32
	.cfi_offset %r15, -24
	.cfi_offset %rbp, -16
	testq	%rdx, %rdx
	je	L(3_101)
	movq	%rdx, %rbp
	movq	%rsi, %r14
	movq	1856(%rdi), %rbx
	cmpq	$1025, %rbx
	setb	%al
	testl	$1023, %ebx
	setne	%cl
	orb	%al, %cl
	movq	%rdi, 8(%rsp)
	jne	L(3_5)
	movq	%rbx, %rax
	shrq	$10, %rax
	leaq	-1(%rax), %rcx
	testq	%rcx, %rax
	jne	L(3_11)
	leaq	64(%rdi), %r15
	movups	96(%rdi), %xmm0
	movups	112(%rdi), %xmm1
	movaps	%xmm1, 224(%rsp)
	movaps	%xmm0, 208(%rsp)
	movups	64(%rdi), %xmm0
	movups	80(%rdi), %xmm1
	movaps	%xmm0, 128(%rsp)
	movaps	%xmm1, 144(%rsp)
	movups	96(%rdi), %xmm0
	movups	112(%rdi), %xmm1
	movaps	%xmm0, 176(%rsp)
	movaps	%xmm1, 192(%rsp)
	xorps	%xmm0, %xmm0
	movaps	%xmm0, 80(%rsp)
	movaps	%xmm0, 96(%rsp)
	leaq	128(%rsp), %rax
	negq	%rax
	addq	%rsp, %rax
	addq	$16, %rax
	movaps	%xmm0, 16(%rsp)
	movaps	%xmm0, 32(%rsp)
	movaps	%xmm0, 48(%rsp)
	movaps	%xmm0, 64(%rsp)
	cmpq	$31, %rax
	ja	L(3_6)
	movaps	128(%rsp), %xmm0
	movaps	144(%rsp), %xmm1
	movaps	%xmm0, 16(%rsp)
	movaps	%xmm1, 32(%rsp)
	jmp	L(3_7)
L(3_5):
	cmpq	$1, %rbx
	movq	%rbx, %r13
	adcq	$-1, %r13
	jmp	L(3_12)
L(3_6):
	movups	(%r15), %xmm0
	movups	16(%r15), %xmm1
	movaps	%xmm1, 32(%rsp)
	movaps	%xmm0, 16(%rsp)
L(3_7):
	leaq	176(%rsp), %rax
	negq	%rax
	addq	%rsp, %rax
	addq	$48, %rax
	cmpq	$31, %rax
	ja	L(3_9)
	movaps	176(%rsp), %xmm0
	movaps	192(%rsp), %xmm1
	movaps	%xmm0, 48(%rsp)
	movaps	%xmm1, 64(%rsp)
	jmp	L(3_10)
L(3_9):
	leaq	96(%rdi), %rax
	leaq	48(%rsp), %rcx
	movups	(%rax), %xmm0
	movups	16(%rax), %xmm1
	movups	%xmm1, 16(%rcx)
	movups	%xmm0, (%rcx)
L(3_10):
	movups	(%rdi), %xmm0
	movups	16(%rdi), %xmm1
	leaq	80(%rsp), %rdi
	leaq	16(%rsp), %rsi
	xorl	%edx, %edx
	movl	$64, %ecx
	movl	$20, %r8d
	callq	"keyed_blake3::compression::compress"
	movaps	80(%rsp), %xmm0
	movaps	96(%rsp), %xmm1
	movaps	%xmm1, 224(%rsp)
	movaps	%xmm0, 208(%rsp)
	movups	%xmm1, 16(%r15)
	movups	%xmm0, (%r15)
L(3_11):
	movq	%rbx, %r13
L(3_12):
	movq	%r13, %rcx
	andq	$-64, %rcx
	movq	%rbx, %rax
	subq	%rcx, %rax
	leaq	(%rbx,%rbp), %rdx
	movq	8(%rsp), %rsi
	movq	%rdx, 1856(%rsi)
	movl	$64, %r12d
	subq	%rax, %r12
	cmpq	%r12, %rbp
	jbe	L(3_15)
	movq	%r13, %r15
	shrq	$6, %r15
	movq	%rbx, %rdx
	subq	%rcx, %rdx
	movq	%rbp, 120(%rsp)
	jne	L(3_18)
	xorl	%r12d, %r12d
	movq	8(%rsp), %r13
	movq	%rbp, %r9
	subq	%r12, %r9
	cmpq	$65, %r9
	jae	L(3_57)
	jmp	L(3_77)
L(3_15):
	leaq	(%rsi,%rax), %rdi
	addq	$1792, %rdi
	movq	%rdi, %rdx
	subq	%r14, %rdx
	cmpq	%rbp, %rdx
	movq	%rsi, %r12
	jae	L(3_22)
	cmpq	$4, %rbp
	jb	L(3_17)
	addq	%r12, %rbx
	addq	%r14, %rcx
	subq	%rcx, %rbx
	addq	$1792, %rbx
	cmpq	$32, %rbx
	jae	L(3_26)
L(3_17):
	xorl	%ecx, %ecx
L(3_37):
	movq	%rbp, %rsi
	movq	%rcx, %rdx
	andq	$3, %rsi
	je	L(3_40)
	movq	%rcx, %rdx
	.p2align	4
L(3_39):
	movzbl	(%r14,%rdx), %r8d
	movb	%r8b, (%rdi,%rdx)
	incq	%rdx
	decq	%rsi
	jne	L(3_39)
L(3_40):
	subq	%rbp, %rcx
	cmpq	$-4, %rcx
	ja	L(3_43)
	addq	%r12, %rax
	addq	$1795, %rax
	.p2align	4
L(3_42):
	movzbl	(%r14,%rdx), %ecx
	movb	%cl, -3(%rax,%rdx)
	movzbl	1(%r14,%rdx), %ecx
	movb	%cl, -2(%rax,%rdx)
	movzbl	2(%r14,%rdx), %ecx
	movb	%cl, -1(%rax,%rdx)
	movzbl	3(%r14,%rdx), %ecx
	movb	%cl, (%rax,%rdx)
	addq	$4, %rdx
	cmpq	%rdx, %rbp
	jne	L(3_42)
	jmp	L(3_43)
L(3_18):
	movq	8(%rsp), %rsi
	leaq	(%rsi,%rax), %rdi
	addq	$1792, %rdi
	movq	%rdi, %rax
	subq	%r14, %rax
	cmpq	%r12, %rax
	jae	L(3_25)
	cmpq	$4, %r12
	jb	L(3_21)
	addq	8(%rsp), %rbx
	addq	%r14, %rcx
	subq	%rcx, %rbx
	addq	$1792, %rbx
	cmpq	$32, %rbx
	jae	L(3_28)
L(3_21):
	xorl	%eax, %eax
	jmp	L(3_51)
L(3_22):
	movq	%r14, %rsi
	movq	%rbp, %rdx
	callq	PLT(memmove)
L(3_43):
	movq	1856(%r12), %r14
	cmpq	$1025, %r14
	setb	%al
	testl	$1023, %r14d
	setne	%cl
	orb	%al, %cl
	jne	L(3_101)
	leaq	1792(%r12), %rax
	shrq	$10, %r14
	decq	%r14
	movups	(%rax), %xmm0
	movups	16(%rax), %xmm1
	movups	32(%rax), %xmm2
	movups	48(%rax), %xmm3
	movaps	%xmm3, 64(%rsp)
	movaps	%xmm2, 48(%rsp)
	movaps	%xmm1, 32(%rsp)
	movaps	%xmm0, 16(%rsp)
	movups	32(%r12), %xmm0
	movups	48(%r12), %xmm1
	leaq	80(%rsp), %r15
	leaq	16(%rsp), %rsi
	movq	%r15, %rdi
	movq	%r14, %rdx
	movl	$64, %ecx
	movl	$18, %r8d
	callq	"keyed_blake3::compression::compress"
	leaq	64(%r12), %rdi
	movl	$1, %r8d
	movq	%r12, %rsi
	movq	%r14, %rdx
	movq	%r15, %rcx
	callq	"keyed_blake3::tree::add_subtree_value"
	movups	(%r12), %xmm0
	movups	16(%r12), %xmm1
	movups	%xmm1, 48(%r12)
	movups	%xmm0, 32(%r12)
	jmp	L(3_101)
L(3_25):
	movq	%r14, %rsi
	movq	%r12, %rdx
	callq	PLT(memmove)
	jmp	L(3_53)
L(3_26):
	cmpq	$32, %rbp
	jae	L(3_30)
	xorl	%ecx, %ecx
	jmp	L(3_34)
L(3_28):
	cmpq	$32, %r12
	jae	L(3_45)
	xorl	%eax, %eax
	jmp	L(3_49)
L(3_30):
	movq	%rbp, %rcx
	andq	$-32, %rcx
	leaq	(%rax,%r12), %rdx
	addq	$1808, %rdx
	xorl	%esi, %esi
	.p2align	4
L(3_31):
	movups	(%r14,%rsi), %xmm0
	movups	16(%r14,%rsi), %xmm1
	movups	%xmm0, -16(%rdx,%rsi)
	movups	%xmm1, (%rdx,%rsi)
	addq	$32, %rsi
	cmpq	%rsi, %rcx
	jne	L(3_31)
	cmpq	%rcx, %rbp
	je	L(3_43)
	testb	$28, %bpl
	je	L(3_37)
L(3_34):
	movq	%rcx, %rdx
	movq	%rbp, %rcx
	andq	$-4, %rcx
	.p2align	4
L(3_35):
	movl	(%r14,%rdx), %esi
	movl	%esi, (%rdi,%rdx)
	addq	$4, %rdx
	cmpq	%rdx, %rcx
	jne	L(3_35)
	cmpq	%rcx, %rbp
	je	L(3_43)
	jmp	L(3_37)
L(3_45):
	movq	%r12, %rax
	andq	$-32, %rax
	movq	8(%rsp), %rcx
	addq	%rdx, %rcx
	addq	$1808, %rcx
	xorl	%edx, %edx
	.p2align	4
L(3_46):
	movups	(%r14,%rdx), %xmm0
	movups	16(%r14,%rdx), %xmm1
	movups	%xmm0, -16(%rcx,%rdx)
	movups	%xmm1, (%rcx,%rdx)
	addq	$32, %rdx
	cmpq	%rdx, %rax
	jne	L(3_46)
	cmpq	%rax, %r12
	je	L(3_53)
	testb	$28, %r12b
	je	L(3_51)
L(3_49):
	movq	%rax, %rcx
	movq	%r12, %rax
	andq	$-4, %rax
	.p2align	4
L(3_50):
	movl	(%r14,%rcx), %edx
	movl	%edx, (%rdi,%rcx)
	addq	$4, %rcx
	cmpq	%rcx, %rax
	jne	L(3_50)
	jmp	L(3_52)
L(3_77):
	cmpq	%rbp, %r12
	je	L(3_101)
	leaq	(%r14,%r12), %rsi
	leaq	1792(%r13), %r15
	movq	%r15, %rax
	subq	%rsi, %rax
	cmpq	%r9, %rax
	jae	L(3_81)
	cmpq	$4, %r9
	jb	L(3_80)
	movq	%r13, %rax
	subq	%rsi, %rax
	addq	$1792, %rax
	cmpq	$32, %rax
	jae	L(3_84)
L(3_80):
	xorl	%eax, %eax
L(3_93):
	movq	%r9, %rdx
	movq	%rax, %rcx
	andq	$3, %rdx
	je	L(3_96)
	movq	%rax, %rcx
	.p2align	4
L(3_95):
	movzbl	(%rsi,%rcx), %edi
	movb	%dil, (%r15,%rcx)
	incq	%rcx
	decq	%rdx
	jne	L(3_95)
L(3_96):
	subq	%r9, %rax
	cmpq	$-4, %rax
	ja	L(3_99)
	leaq	(%r12,%r14), %rax
	addq	$3, %rax
	.p2align	4
L(3_98):
	movzbl	-3(%rax,%rcx), %edx
	movb	%dl, 1792(%r13,%rcx)
	movzbl	-2(%rax,%rcx), %edx
	movb	%dl, 1793(%r13,%rcx)
	movzbl	-1(%rax,%rcx), %edx
	movb	%dl, 1794(%r13,%rcx)
	movzbl	(%rax,%rcx), %edx
	movb	%dl, 1795(%r13,%rcx)
	addq	$4, %rcx
	cmpq	%rcx, %r9
	jne	L(3_98)
	jmp	L(3_99)
L(3_81):
	movq	%r15, %rdi
	movq	%r9, %rdx
	callq	PLT(memmove)
L(3_99):
	movq	1856(%r13), %r14
	cmpq	$1025, %r14
	setb	%al
	testl	$1023, %r14d
	setne	%cl
	orb	%al, %cl
	jne	L(3_101)
	shrq	$10, %r14
	decq	%r14
	movups	(%r15), %xmm0
	movups	16(%r15), %xmm1
	movups	32(%r15), %xmm2
	movups	48(%r15), %xmm3
	movaps	%xmm3, 64(%rsp)
	movaps	%xmm2, 48(%rsp)
	movaps	%xmm1, 32(%rsp)
	movaps	%xmm0, 16(%rsp)
	movups	32(%r13), %xmm0
	movups	48(%r13), %xmm1
	leaq	80(%rsp), %r15
	leaq	16(%rsp), %rsi
	movq	%r15, %rdi
	movq	%r14, %rdx
	movl	$64, %ecx
	movl	$18, %r8d
	callq	"keyed_blake3::compression::compress"
	leaq	64(%r13), %rdi
	movl	$1, %r8d
	movq	%r13, %rsi
	movq	%r14, %rdx
	movq	%r15, %rcx
	callq	"keyed_blake3::tree::add_subtree_value"
	movups	(%r13), %xmm0
	movups	16(%r13), %xmm1
	movups	%xmm1, 48(%r13)
	movups	%xmm0, 32(%r13)
L(3_101):
	addq	$248, %rsp
	.cfi_def_cfa_offset 56
	popq	%rbx
	.cfi_def_cfa_offset 48
	popq	%r12
	.cfi_def_cfa_offset 40
	popq	%r13
	.cfi_def_cfa_offset 32
	popq	%r14
	.cfi_def_cfa_offset 24
	popq	%r15
	.cfi_def_cfa_offset 16
	popq	%rbp
	.cfi_def_cfa_offset 8
	retq
L(3_84):
	.cfi_def_cfa_offset 304
	cmpq	$32, %r9
	jae	L(3_86)
	xorl	%eax, %eax
	jmp	L(3_90)
L(3_86):
	movl	%r9d, %eax
	andl	$96, %eax
	leaq	(%r12,%r14), %rcx
	addq	$16, %rcx
	xorl	%edx, %edx
	.p2align	4
L(3_87):
	movups	-16(%rcx,%rdx), %xmm0
	movups	(%rcx,%rdx), %xmm1
	movups	%xmm0, 1792(%r13,%rdx)
	movups	%xmm1, 1808(%r13,%rdx)
	addq	$32, %rdx
	cmpq	%rdx, %rax
	jne	L(3_87)
	cmpq	%rax, %r9
	je	L(3_99)
	testb	$28, %r9b
	je	L(3_93)
L(3_90):
	movq	%rax, %rcx
	movl	%r9d, %eax
	andl	$124, %eax
	.p2align	4
L(3_91):
	movl	(%rsi,%rcx), %edx
	movl	%edx, (%r15,%rcx)
	addq	$4, %rcx
	cmpq	%rcx, %rax
	jne	L(3_91)
	cmpq	%rax, %r9
	je	L(3_99)
	jmp	L(3_93)
L(3_51):
	movzbl	(%r14,%rax), %ecx
	movb	%cl, (%rdi,%rax)
	incq	%rax
L(3_52):
	cmpq	%rax, %r12
	jne	L(3_51)
L(3_53):
	movq	8(%rsp), %rbx
	leaq	1792(%rbx), %rax
	shrq	$10, %r13
	movl	%r15d, %ecx
	andl	$15, %ecx
	cmpq	$15, %rcx
	jne	L(3_55)
	movups	(%rax), %xmm0
	movups	16(%rax), %xmm1
	movups	32(%rax), %xmm2
	movups	48(%rax), %xmm3
	movaps	%xmm3, 64(%rsp)
	movaps	%xmm2, 48(%rsp)
	movaps	%xmm1, 32(%rsp)
	movaps	%xmm0, 16(%rsp)
	movups	32(%rbx), %xmm0
	movups	48(%rbx), %xmm1
	leaq	80(%rsp), %rbp
	leaq	16(%rsp), %rsi
	movq	%rbp, %rdi
	movq	%r13, %rdx
	movl	$64, %ecx
	movl	$18, %r8d
	callq	"keyed_blake3::compression::compress"
	leaq	64(%rbx), %rdi
	movq	%rbx, %rsi
	movq	%r13, %rdx
	movq	%rbp, %rcx
	movq	120(%rsp), %rbp
	xorl	%r8d, %r8d
	callq	"keyed_blake3::tree::add_subtree_value"
	movups	(%rbx), %xmm0
	movups	16(%rbx), %xmm1
	jmp	L(3_56)
L(3_55):
	xorl	%r8d, %r8d
	cmpq	$1, %rcx
	adcl	$16, %r8d
	movups	(%rax), %xmm0
	movups	16(%rax), %xmm1
	movups	32(%rax), %xmm2
	movups	48(%rax), %xmm3
	movaps	%xmm3, 64(%rsp)
	movaps	%xmm2, 48(%rsp)
	movaps	%xmm1, 32(%rsp)
	movaps	%xmm0, 16(%rsp)
	movups	32(%rbx), %xmm0
	movups	48(%rbx), %xmm1
	leaq	80(%rsp), %rdi
	leaq	16(%rsp), %rsi
	movq	%r13, %rdx
	movl	$64, %ecx
	callq	"keyed_blake3::compression::compress"
	movups	80(%rsp), %xmm0
	movups	96(%rsp), %xmm1
L(3_56):
	movups	%xmm1, 48(%rbx)
	movups	%xmm0, 32(%rbx)
	movq	%rbx, %r13
	incq	%r15
	movq	%rbp, %r9
	subq	%r12, %r9
	cmpq	$65, %r9
	jb	L(3_77)
L(3_57):
	movabsq	$1152921504606846975, %rbx
	leaq	32(%r13), %rax
	movq	%rax, 112(%rsp)
	leaq	64(%r13), %rax
	movq	%rax, 168(%rsp)
	jmp	L(3_61)
	.p2align	4
L(3_58):
	xorl	%eax, %eax
	cmpq	$1, %rcx
	adcl	$16, %eax
	movups	(%r8), %xmm0
	movups	16(%r8), %xmm1
	movups	32(%r8), %xmm2
	movups	48(%r8), %xmm3
	movaps	%xmm3, 64(%rsp)
	movaps	%xmm2, 48(%rsp)
	movaps	%xmm1, 32(%rsp)
	movaps	%xmm0, 16(%rsp)
	movups	32(%r13), %xmm0
	movups	48(%r13), %xmm1
	leaq	128(%rsp), %rdi
	leaq	16(%rsp), %rsi
	movl	$64, %ecx
	movl	%eax, %r8d
	callq	"keyed_blake3::compression::compress"
	movups	128(%rsp), %xmm0
	movups	144(%rsp), %xmm1
L(3_59):
	movq	112(%rsp), %rax
	movups	%xmm1, 16(%rax)
	movups	%xmm0, (%rax)
	movl	$1, %ebp
L(3_60):
	addq	%rbp, %r15
	shlq	$6, %rbp
	addq	%rbp, %r12
	movq	120(%rsp), %rbp
	movq	%rbp, %r9
	subq	%r12, %r9
	cmpq	$64, %r9
	jbe	L(3_77)
L(3_61):
	leaq	(%r14,%r12), %r8
	movl	%r15d, %ecx
	andl	$15, %ecx
	cmpq	$2048, %r9
	jb	L(3_69)
	testq	%rcx, %rcx
	jne	L(3_69)
	movq	%r9, %rax
	shrq	$10, %rax
	movq	%r15, %rsi
	shrq	$4, %rsi
	movq	%r9, %rdi
	shrq	$12, %rdi
	movl	$1, %ecx
	.p2align	4
L(3_64):
	leaq	(%rcx,%rcx), %rdx
	cmpq	%rdi, %rdx
	ja	L(3_72)
	leaq	(%rdx,%rbx), %r10
	testq	%rsi, %r10
	jne	L(3_72)
	shlq	$2, %rcx
	cmpq	%rdi, %rcx
	ja	L(3_73)
	testq	%rcx, %rcx
	je	L(3_102)
	leaq	(%rcx,%rbx), %r10
	testq	%rsi, %r10
	je	L(3_64)
	jmp	L(3_73)
	.p2align	4
L(3_69):
	movq	%r15, %rdx
	shrq	$4, %rdx
	cmpl	$15, %ecx
	jne	L(3_58)
	movups	(%r8), %xmm0
	movups	16(%r8), %xmm1
	movups	32(%r8), %xmm2
	movups	48(%r8), %xmm3
	movaps	%xmm3, 64(%rsp)
	movaps	%xmm2, 48(%rsp)
	movaps	%xmm1, 32(%rsp)
	movaps	%xmm0, 16(%rsp)
	movups	32(%r13), %xmm0
	movups	48(%r13), %xmm1
	leaq	80(%rsp), %rbp
	leaq	16(%rsp), %rsi
	movq	%rbp, %rdi
	movq	%rdx, %r13
	movl	$64, %ecx
	movl	$18, %r8d
	callq	"keyed_blake3::compression::compress"
	movq	168(%rsp), %rdi
	movq	8(%rsp), %rsi
	movq	%r13, %rdx
	movq	8(%rsp), %r13
	movq	%rbp, %rcx
	xorl	%r8d, %r8d
	callq	"keyed_blake3::tree::add_subtree_value"
	movups	(%r13), %xmm0
	movups	16(%r13), %xmm1
	jmp	L(3_59)
	.p2align	4
L(3_72):
	movq	%rcx, %rdx
L(3_73):
	cmpq	$4, %rax
	movl	$4, %ecx
	cmovbq	%rax, %rcx
	movq	%rcx, %rbp
	imulq	%rdx, %rbp
	shlq	$10, %rbp
	cmpq	%r9, %rbp
	jne	L(3_75)
	movq	$1, (%rsp)
	movq	%r13, %rdi
	jmp	L(3_76)
	.p2align	4
L(3_75):
	movq	$0, (%rsp)
	movq	%r13, %rdi
	movq	%rbp, %r9
L(3_76):
	callq	"keyed_blake3::tree::Tree::absorb_subtrees::<#8b36ca032ac25711>"
	shrq	$6, %rbp
	jmp	L(3_60)
L(3_102):
	ud2
	SIZE("keyed_blake3::hasher::Hasher::update")
	.cfi_endproc

CODE(".text.keyed_blake3::tree::add_subtree_value")
	.p2align	4
	TYPE("keyed_blake3::tree::add_subtree_value", function)
"keyed_blake3::tree::add_subtree_value":
	.cfi_startproc
	pushq	%rbp
	.cfi_def_cfa_offset 16
	pushq	%r15
	.cfi_def_cfa_offset 24
	pushq	%r14
	.cfi_def_cfa_offset 32
	pushq	%r13
	.cfi_def_cfa_offset 40
	pushq	%r12
	.cfi_def_cfa_offset 48
	pushq	%rbx
	.cfi_def_cfa_offset 56
	subq	$216, %rsp
	.cfi_def_cfa_offset 272
	.cfi_offset %rbx, -56
	.cfi_offset %r12, -48
	.cfi_offset %r13, -40
	.cfi_offset %r14, -32
	.cfi_offset %r15, -24
	.cfi_offset %rbp, -16
	movq	%rdx, %r15
	xorps	%xmm0, %xmm0
	movaps	%xmm0, 160(%rsp)
	movaps	%xmm0, 144(%rsp)
	movups	(%rcx), %xmm0
	movups	16(%rcx), %xmm1
	movaps	%xmm0, (%rsp)
	movaps	%xmm1, 16(%rsp)
	xorl	%r12d, %r12d
	popcntq	%rdx, %r12
	cmpq	%r12, %r8
	setb	%al
	testb	%r15b, %al
	movq	%rdi, 104(%rsp)
	je	L(4_1)
	movq	%r8, %r14
	movq	%rsp, %rax
	negq	%rax
	addq	%rsp, %rax
	addq	$64, %rax
	movups	(%rsi), %xmm0
	movaps	%xmm0, 128(%rsp)
	movups	16(%rsi), %xmm0
	movaps	%xmm0, 112(%rsp)
	cmpq	$32, %rax
	jae	L(4_3)
	leaq	-1(%r12), %r13
	shll	$5, %r12d
	leaq	-32(%rdi), %rbx
	.p2align	4
L(4_7):
	leaq	(%rbx,%r12), %rax
	leaq	32(%rsp), %rcx
	subq	%rax, %rcx
	xorps	%xmm0, %xmm0
	movaps	%xmm0, 48(%rsp)
	movaps	%xmm0, 32(%rsp)
	cmpq	$32, %rcx
	jae	L(4_8)
	movups	(%rbx,%r12), %xmm0
	movaps	%xmm0, 32(%rsp)
	movups	16(%rbx,%r12), %xmm0
	movaps	%xmm0, 48(%rsp)
	jmp	L(4_10)
	.p2align	4
L(4_8):
	movups	(%rax), %xmm0
	movups	16(%rax), %xmm1
	movaps	%xmm1, 48(%rsp)
	movaps	%xmm0, 32(%rsp)
L(4_10):
	movaps	(%rsp), %xmm0
	movaps	16(%rsp), %xmm1
	movaps	%xmm0, 64(%rsp)
	movaps	%xmm1, 80(%rsp)
	leaq	184(%rsp), %rdi
	leaq	32(%rsp), %rsi
	movaps	128(%rsp), %xmm0
	movaps	112(%rsp), %xmm1
	xorl	%edx, %edx
	movl	$64, %ecx
	movl	$20, %r8d
	callq	"keyed_blake3::compression::compress"
	movups	184(%rsp), %xmm0
	movups	200(%rsp), %xmm1
	movaps	%xmm1, 160(%rsp)
	movaps	%xmm0, 144(%rsp)
	movaps	%xmm0, (%rsp)
	movaps	%xmm1, 16(%rsp)
	addq	$-32, %r12
	cmpq	%r13, %r14
	jae	L(4_15)
	movq	%r15, %rax
	shrq	%rax
	andl	$2, %r15d
	decq	%r13
	testq	%r15, %r15
	movq	%rax, %r15
	jne	L(4_7)
	jmp	L(4_15)
L(4_1):
	shll	$5, %r12d
L(4_15):
	movaps	(%rsp), %xmm0
	movaps	16(%rsp), %xmm1
	movq	104(%rsp), %rax
	movups	%xmm1, 16(%rax,%r12)
	movups	%xmm0, (%rax,%r12)
	addq	$216, %rsp
	.cfi_def_cfa_offset 56
	popq	%rbx
	.cfi_def_cfa_offset 48
	popq	%r12
	.cfi_def_cfa_offset 40
	popq	%r13
	.cfi_def_cfa_offset 32
	popq	%r14
	.cfi_def_cfa_offset 24
	popq	%r15
	.cfi_def_cfa_offset 16
	popq	%rbp
	.cfi_def_cfa_offset 8
	retq
L(4_3):
	.cfi_def_cfa_offset 272
	leaq	64(%rsp), %r13
	leaq	-1(%r12), %rbp
	shll	$5, %r12d
	leaq	-32(%rdi), %rbx
	.p2align	4
L(4_4):
	leaq	(%rbx,%r12), %rax
	leaq	32(%rsp), %rcx
	subq	%rax, %rcx
	xorps	%xmm0, %xmm0
	movaps	%xmm0, 48(%rsp)
	movaps	%xmm0, 32(%rsp)
	cmpq	$31, %rcx
	ja	L(4_12)
	movups	(%rbx,%r12), %xmm0
	movaps	%xmm0, 32(%rsp)
	movups	16(%rbx,%r12), %xmm0
	movaps	%xmm0, 48(%rsp)
	jmp	L(4_13)
	.p2align	4
L(4_12):
	movups	(%rax), %xmm0
	movups	16(%rax), %xmm1
	movaps	%xmm1, 48(%rsp)
	movaps	%xmm0, 32(%rsp)
L(4_13):
	movaps	(%rsp), %xmm0
	movaps	16(%rsp), %xmm1
	movaps	%xmm1, 16(%r13)
	movaps	%xmm0, (%r13)
	leaq	184(%rsp), %rdi
	leaq	32(%rsp), %rsi
	movaps	128(%rsp), %xmm0
	movaps	112(%rsp), %xmm1
	xorl	%edx, %edx
	movl	$64, %ecx
	movl	$20, %r8d
	callq	"keyed_blake3::compression::compress"
	movups	184(%rsp), %xmm0
	movups	200(%rsp), %xmm1
	movaps	%xmm1, 160(%rsp)
	movaps	%xmm0, 144(%rsp)
	movaps	%xmm0, (%rsp)
	movaps	%xmm1, 16(%rsp)
	addq	$-32, %r12
	cmpq	%rbp, %r14
	jae	L(4_15)
	movq	%r15, %rax
	shrq	%rax
	andl	$2, %r15d
	decq	%rbp
	testq	%r15, %r15
	movq	%rax, %r15
	jne	L(4_4)
	jmp	L(4_15)
	SIZE("keyed_blake3::tree::add_subtree_value")
	.cfi_endproc

SIZED(16, 4)
	.p2align	4, 0x0
D(CPI5_0):
	.byte	2
	.byte	3
	.byte	0
	.byte	1
	.byte	6
	.byte	7
	.byte	4
	.byte	5
	.byte	10
	.byte	11
	.byte	8
	.byte	9
	.byte	14
	.byte	15
	.byte	12
	.byte	13
D(CPI5_1):
	.long	1779033703
	.long	3144134277
	.long	1013904242
	.long	2773480762
D(CPI5_2):
	.byte	1
	.byte	2
	.byte	3
	.byte	0
	.byte	5
	.byte	6
	.byte	7
	.byte	4
	.byte	9
	.byte	10
	.byte	11
	.byte	8
	.byte	13
	.byte	14
	.byte	15
	.byte	12
D(CPI5_3):
	.byte	10
	.byte	11
	.byte	8
	.byte	9
	.byte	14
	.byte	15
	.byte	12
	.byte	13
	.byte	2
	.byte	3
	.byte	0
	.byte	1
	.byte	6
	.byte	7
	.byte	4
	.byte	5
CODE(".text.keyed_blake3::compression::two::compress_two_from")
	.p2align	4
	TYPE("keyed_blake3::compression::two::compress_two_from", function)
"keyed_blake3::compression::two::compress_two_from":
	.cfi_startproc
	subq	$296, %rsp
	.cfi_def_cfa_offset 304
	movups	(%rsi), %xmm14
	movups	16(%rsi), %xmm6
	movdqu	32(%rsi), %xmm8
	movdqa	%xmm8, -16(%rsp)
	movdqu	48(%rsi), %xmm12
	movdqa	%xmm12, (%rsp)
	movdqu	32(%rdx), %xmm9
	movdqa	%xmm9, 16(%rsp)
	movdqu	48(%rdx), %xmm11
	movdqa	%xmm11, 96(%rsp)
	movaps	%xmm14, %xmm10
	movaps	%xmm14, 48(%rsp)
	shufps	$136, %xmm6, %xmm10
	movaps	%xmm10, 64(%rsp)
	movaps	%xmm6, -64(%rsp)
	pshufd	$38, %xmm12, %xmm7
	pshufd	$224, %xmm8, %xmm8
	pblendw	$195, %xmm7, %xmm8
	movdqa	%xmm8, -80(%rsp)
	pshufd	$38, %xmm11, %xmm7
	pshufd	$224, %xmm9, %xmm8
	pblendw	$195, %xmm7, %xmm8
	movdqa	%xmm8, -96(%rsp)
	paddd	%xmm2, %xmm0
	paddd	%xmm10, %xmm0
	pxor	%xmm0, %xmm4
	movdqa	D(CPI5_0)(%rip), %xmm13
	pshufb	%xmm13, %xmm4
	movdqa	D(CPI5_1)(%rip), %xmm7
	movdqa	%xmm4, %xmm12
	paddd	%xmm7, %xmm12
	pxor	%xmm12, %xmm2
	movdqa	%xmm2, %xmm9
	psrld	$12, %xmm9
	pslld	$20, %xmm2
	por	%xmm9, %xmm2
	movups	(%rdx), %xmm15
	movups	16(%rdx), %xmm8
	movaps	%xmm15, %xmm11
	movaps	%xmm15, 32(%rsp)
	shufps	$136, %xmm8, %xmm11
	movaps	%xmm11, 80(%rsp)
	movaps	%xmm8, -48(%rsp)
	paddd	%xmm3, %xmm1
	paddd	%xmm11, %xmm1
	pxor	%xmm1, %xmm5
	pshufb	%xmm13, %xmm5
	paddd	%xmm5, %xmm7
	pxor	%xmm7, %xmm3
	movdqa	%xmm3, %xmm9
	psrld	$12, %xmm9
	pslld	$20, %xmm3
	por	%xmm9, %xmm3
	shufps	$221, %xmm6, %xmm14
	movaps	%xmm14, -112(%rsp)
	paddd	%xmm14, %xmm0
	paddd	%xmm2, %xmm0
	movdqa	D(CPI5_2)(%rip), %xmm13
	movdqa	%xmm0, %xmm10
	pshufb	%xmm13, %xmm10
	pshufb	%xmm13, %xmm4
	pxor	%xmm10, %xmm4
	shufps	$221, %xmm8, %xmm15
	movaps	%xmm15, -128(%rsp)
	paddd	%xmm15, %xmm1
	paddd	%xmm3, %xmm1
	movdqa	%xmm1, %xmm11
	pshufb	%xmm13, %xmm11
	pshufb	%xmm13, %xmm5
	pxor	%xmm11, %xmm5
	paddd	%xmm5, %xmm7
	pxor	%xmm7, %xmm3
	movdqa	%xmm3, %xmm11
	psrld	$7, %xmm11
	pslld	$25, %xmm3
	por	%xmm11, %xmm3
	paddd	%xmm4, %xmm12
	pxor	%xmm12, %xmm2
	movdqa	%xmm2, %xmm11
	psrld	$7, %xmm11
	pslld	$25, %xmm2
	por	%xmm11, %xmm2
	pshufd	$147, %xmm0, %xmm0
	paddd	-80(%rsp), %xmm0
	pshufd	$147, %xmm1, %xmm1
	paddd	-96(%rsp), %xmm1
	paddd	%xmm3, %xmm1
	movdqa	%xmm1, %xmm6
	movdqa	D(CPI5_0)(%rip), %xmm8
	pshufb	%xmm8, %xmm6
	movdqa	D(CPI5_3)(%rip), %xmm9
	pshufb	%xmm9, %xmm5
	pxor	%xmm6, %xmm5
	paddd	%xmm2, %xmm0
	movdqa	%xmm0, %xmm6
	pshufb	%xmm8, %xmm6
	pshufb	%xmm9, %xmm4
	pxor	%xmm6, %xmm4
	pshufd	$57, %xmm12, %xmm6
	paddd	%xmm4, %xmm6
	pxor	%xmm6, %xmm2
	movdqa	%xmm2, %xmm8
	psrld	$12, %xmm8
	pslld	$20, %xmm2
	por	%xmm8, %xmm2
	pshufd	$57, %xmm7, %xmm7
	paddd	%xmm5, %xmm7
	pxor	%xmm7, %xmm3
	movdqa	%xmm3, %xmm8
	psrld	$12, %xmm8
	pslld	$20, %xmm3
	por	%xmm8, %xmm3
	movdqa	(%rsp), %xmm15
	pshufd	$103, %xmm15, %xmm8
	movdqa	-16(%rsp), %xmm14
	pshufd	$244, %xmm14, %xmm10
	movdqa	%xmm10, 176(%rsp)
	pblendw	$60, %xmm10, %xmm8
	paddd	%xmm8, %xmm0
	paddd	%xmm2, %xmm0
	movdqa	%xmm0, %xmm11
	pshufb	%xmm13, %xmm11
	pshufb	%xmm13, %xmm4
	pxor	%xmm11, %xmm4
	pshufd	$103, 96(%rsp), %xmm12
	movdqa	16(%rsp), %xmm9
	pshufd	$244, %xmm9, %xmm10
	movdqa	%xmm10, 160(%rsp)
	pblendw	$60, %xmm10, %xmm12
	paddd	%xmm12, %xmm1
	paddd	%xmm3, %xmm1
	movdqa	%xmm1, %xmm11
	pshufb	%xmm13, %xmm11
	pshufb	%xmm13, %xmm5
	pxor	%xmm11, %xmm5
	paddd	%xmm5, %xmm7
	movdqa	%xmm5, %xmm13
	pxor	%xmm7, %xmm3
	movdqa	%xmm3, %xmm11
	psrld	$7, %xmm11
	pslld	$25, %xmm3
	por	%xmm11, %xmm3
	paddd	%xmm4, %xmm6
	pxor	%xmm6, %xmm2
	movdqa	%xmm2, %xmm11
	psrld	$7, %xmm11
	pslld	$25, %xmm2
	por	%xmm11, %xmm2
	movdqa	%xmm14, %xmm5
	movdqa	%xmm14, %xmm10
	movaps	-64(%rsp), %xmm14
	shufps	$172, %xmm14, %xmm10
	insertps	$112, %xmm8, %xmm10
	movaps	%xmm10, 144(%rsp)
	punpcklqdq	-112(%rsp), %xmm8
	pshufd	$104, %xmm8, %xmm8
	pshufd	$68, %xmm15, %xmm11
	movdqa	%xmm15, %xmm10
	pblendw	$207, %xmm8, %xmm11
	movdqa	%xmm11, 256(%rsp)
	movaps	-48(%rsp), %xmm11
	shufps	$172, %xmm11, %xmm9
	insertps	$112, %xmm12, %xmm9
	movaps	%xmm9, 128(%rsp)
	punpcklqdq	-128(%rsp), %xmm12
	pshufd	$104, %xmm12, %xmm8
	movdqa	96(%rsp), %xmm9
	pshufd	$68, %xmm9, %xmm12
	pblendw	$207, %xmm8, %xmm12
	movdqa	%xmm12, 240(%rsp)
	pshufd	$250, 32(%rsp), %xmm12
	movdqa	%xmm12, 112(%rsp)
	movaps	%xmm11, %xmm8
	blendps	$6, %xmm12, %xmm8
	movaps	%xmm8, -32(%rsp)
	paddd	%xmm8, %xmm1
	pshufd	$57, %xmm1, %xmm1
	paddd	%xmm3, %xmm1
	movdqa	%xmm1, %xmm8
	movdqa	D(CPI5_0)(%rip), %xmm11
	pshufb	%xmm11, %xmm8
	movdqa	D(CPI5_3)(%rip), %xmm12
	pshufb	%xmm12, %xmm13
	pxor	%xmm8, %xmm13
	movdqa	%xmm13, %xmm15
	pshufd	$250, 48(%rsp), %xmm13
	movdqa	%xmm13, 272(%rsp)
	movaps	%xmm14, %xmm8
	blendps	$6, %xmm13, %xmm8
	movaps	%xmm8, 192(%rsp)
	paddd	%xmm8, %xmm0
	pshufd	$57, %xmm0, %xmm0
	paddd	%xmm2, %xmm0
	movdqa	%xmm0, %xmm8
	pshufb	%xmm11, %xmm8
	movdqa	%xmm4, %xmm13
	pshufb	%xmm12, %xmm13
	pxor	%xmm8, %xmm13
	pshufd	$147, %xmm6, %xmm8
	paddd	%xmm13, %xmm8
	pxor	%xmm8, %xmm2
	movdqa	%xmm2, %xmm6
	psrld	$12, %xmm6
	pslld	$20, %xmm2
	por	%xmm6, %xmm2
	pshufd	$147, %xmm7, %xmm11
	paddd	%xmm15, %xmm11
	movdqa	%xmm15, %xmm4
	pxor	%xmm11, %xmm3
	movdqa	%xmm3, %xmm6
	psrld	$12, %xmm6
	pslld	$20, %xmm3
	por	%xmm6, %xmm3
	movdqa	64(%rsp), %xmm6
	pblendw	$48, %xmm5, %xmm6
	shufps	$203, %xmm6, %xmm6
	movdqa	%xmm10, %xmm7
	punpckldq	%xmm6, %xmm10
	movdqa	%xmm10, 224(%rsp)
	insertps	$112, %xmm7, %xmm6
	movaps	%xmm6, -80(%rsp)
	paddd	%xmm6, %xmm0
	paddd	%xmm2, %xmm0
	movdqa	%xmm0, %xmm6
	movdqa	D(CPI5_2)(%rip), %xmm14
	pshufb	%xmm14, %xmm6
	pshufb	%xmm14, %xmm13
	pxor	%xmm6, %xmm13
	movaps	80(%rsp), %xmm6
	movaps	16(%rsp), %xmm12
	blendps	$4, %xmm12, %xmm6
	shufps	$203, %xmm6, %xmm6
	movdqa	%xmm9, %xmm15
	movdqa	%xmm9, %xmm10
	punpckldq	%xmm6, %xmm10
	movdqa	%xmm10, 208(%rsp)
	insertps	$112, %xmm9, %xmm6
	movaps	%xmm6, -96(%rsp)
	paddd	%xmm6, %xmm1
	paddd	%xmm3, %xmm1
	movdqa	%xmm1, %xmm6
	pshufb	%xmm14, %xmm6
	pshufb	%xmm14, %xmm4
	pxor	%xmm6, %xmm4
	paddd	%xmm4, %xmm11
	pxor	%xmm11, %xmm3
	movdqa	%xmm11, %xmm10
	movdqa	%xmm3, %xmm6
	psrld	$7, %xmm6
	pslld	$25, %xmm3
	por	%xmm6, %xmm3
	paddd	%xmm13, %xmm8
	pxor	%xmm8, %xmm2
	movdqa	%xmm2, %xmm6
	psrld	$7, %xmm6
	pslld	$25, %xmm2
	por	%xmm6, %xmm2
	pshufd	$147, %xmm0, %xmm0
	paddd	256(%rsp), %xmm0
	pshufd	$147, %xmm1, %xmm11
	paddd	240(%rsp), %xmm11
	paddd	%xmm3, %xmm11
	movdqa	%xmm11, %xmm1
	movdqa	D(CPI5_0)(%rip), %xmm6
	pshufb	%xmm6, %xmm1
	movdqa	D(CPI5_3)(%rip), %xmm9
	pshufb	%xmm9, %xmm4
	pxor	%xmm1, %xmm4
	paddd	%xmm2, %xmm0
	movdqa	%xmm0, %xmm1
	pshufb	%xmm6, %xmm1
	pshufb	%xmm9, %xmm13
	pxor	%xmm1, %xmm13
	pshufd	$57, %xmm8, %xmm8
	paddd	%xmm13, %xmm8
	pxor	%xmm8, %xmm2
	movdqa	%xmm2, %xmm1
	psrld	$12, %xmm1
	pslld	$20, %xmm2
	por	%xmm1, %xmm2
	pshufd	$57, %xmm10, %xmm6
	paddd	%xmm4, %xmm6
	pxor	%xmm6, %xmm3
	movdqa	%xmm3, %xmm1
	psrld	$12, %xmm1
	pslld	$20, %xmm3
	por	%xmm1, %xmm3
	movdqa	%xmm5, %xmm1
	movaps	%xmm7, %xmm14
	shufps	$172, %xmm7, %xmm1
	movaps	-64(%rsp), %xmm9
	insertps	$96, %xmm9, %xmm1
	paddd	%xmm1, %xmm0
	movaps	%xmm12, %xmm1
	movaps	%xmm12, %xmm10
	shufps	$172, %xmm15, %xmm1
	movaps	-48(%rsp), %xmm7
	insertps	$96, %xmm7, %xmm1
	paddd	%xmm1, %xmm11
	paddd	%xmm2, %xmm0
	movdqa	%xmm0, %xmm1
	movdqa	D(CPI5_2)(%rip), %xmm12
	pshufb	%xmm12, %xmm1
	pshufb	%xmm12, %xmm13
	pxor	%xmm1, %xmm13
	paddd	%xmm3, %xmm11
	movdqa	%xmm11, %xmm1
	pshufb	%xmm12, %xmm1
	pshufb	%xmm12, %xmm4
	pxor	%xmm1, %xmm4
	paddd	%xmm4, %xmm6
	pxor	%xmm6, %xmm3
	movdqa	%xmm3, %xmm1
	psrld	$7, %xmm1
	pslld	$25, %xmm3
	por	%xmm1, %xmm3
	paddd	%xmm13, %xmm8
	pxor	%xmm8, %xmm2
	movdqa	%xmm2, %xmm1
	psrld	$7, %xmm1
	pslld	$25, %xmm2
	por	%xmm1, %xmm2
	movaps	112(%rsp), %xmm12
	unpckhpd	%xmm7, %xmm12
	movaps	%xmm10, %xmm1
	shufps	$216, %xmm15, %xmm1
	blendps	$9, %xmm12, %xmm1
	pshufd	$57, %xmm11, %xmm7
	paddd	%xmm7, %xmm1
	movaps	272(%rsp), %xmm7
	unpckhpd	%xmm9, %xmm7
	movdqa	%xmm5, %xmm11
	shufps	$216, %xmm14, %xmm11
	blendps	$9, %xmm7, %xmm11
	pshufd	$57, %xmm0, %xmm0
	paddd	%xmm0, %xmm11
	paddd	%xmm3, %xmm1
	movdqa	%xmm1, %xmm0
	movdqa	D(CPI5_0)(%rip), %xmm10
	pshufb	%xmm10, %xmm0
	movdqa	D(CPI5_3)(%rip), %xmm9
	pshufb	%xmm9, %xmm4
	pxor	%xmm0, %xmm4
	paddd	%xmm2, %xmm11
	movdqa	%xmm11, %xmm0
	pshufb	%xmm10, %xmm0
	pshufb	%xmm9, %xmm13
	pxor	%xmm0, %xmm13
	pshufd	$147, %xmm8, %xmm7
	paddd	%xmm13, %xmm7
	pxor	%xmm7, %xmm2
	movdqa	%xmm2, %xmm0
	psrld	$12, %xmm0
	pslld	$20, %xmm2
	por	%xmm0, %xmm2
	pshufd	$147, %xmm6, %xmm6
	paddd	%xmm4, %xmm6
	pxor	%xmm6, %xmm3
	movdqa	%xmm3, %xmm0
	psrld	$12, %xmm0
	pslld	$20, %xmm3
	por	%xmm0, %xmm3
	movaps	192(%rsp), %xmm0
	unpcklps	%xmm14, %xmm0
	insertps	$176, %xmm14, %xmm0
	movaps	%xmm14, %xmm12
	paddd	%xmm0, %xmm11
	movaps	-32(%rsp), %xmm0
	unpcklps	%xmm15, %xmm0
	insertps	$176, %xmm15, %xmm0
	paddd	%xmm0, %xmm1
	paddd	%xmm2, %xmm11
	movdqa	%xmm11, %xmm0
	movdqa	D(CPI5_2)(%rip), %xmm8
	pshufb	%xmm8, %xmm0
	pshufb	%xmm8, %xmm13
	pxor	%xmm0, %xmm13
	paddd	%xmm3, %xmm1
	movdqa	%xmm1, %xmm0
	pshufb	%xmm8, %xmm0
	pshufb	%xmm8, %xmm4
	pxor	%xmm0, %xmm4
	paddd	%xmm4, %xmm6
	pxor	%xmm6, %xmm3
	movdqa	%xmm3, %xmm0
	psrld	$7, %xmm0
	pslld	$25, %xmm3
	por	%xmm0, %xmm3
	paddd	%xmm13, %xmm7
	pxor	%xmm7, %xmm2
	movdqa	%xmm2, %xmm0
	psrld	$7, %xmm0
	pslld	$25, %xmm2
	por	%xmm0, %xmm2
	pshufd	$147, %xmm11, %xmm0
	movaps	144(%rsp), %xmm5
	shufps	$120, %xmm5, %xmm5
	paddd	%xmm5, %xmm0
	pshufd	$147, %xmm1, %xmm11
	movaps	128(%rsp), %xmm1
	shufps	$120, %xmm1, %xmm1
	paddd	%xmm1, %xmm11
	paddd	%xmm3, %xmm11
	movdqa	%xmm11, %xmm1
	pshufb	%xmm10, %xmm1
	movdqa	D(CPI5_3)(%rip), %xmm5
	pshufb	%xmm5, %xmm4
	pxor	%xmm1, %xmm4
	paddd	%xmm2, %xmm0
	movdqa	%xmm0, %xmm1
	pshufb	%xmm10, %xmm1
	movdqa	%xmm10, %xmm14
	pshufb	%xmm5, %xmm13
	pxor	%xmm1, %xmm13
	pshufd	$57, %xmm7, %xmm7
	paddd	%xmm13, %xmm7
	pxor	%xmm7, %xmm2
	movdqa	%xmm2, %xmm1
	psrld	$12, %xmm1
	pslld	$20, %xmm2
	por	%xmm1, %xmm2
	pshufd	$57, %xmm6, %xmm1
	paddd	%xmm4, %xmm1
	pxor	%xmm1, %xmm3
	movdqa	%xmm3, %xmm6
	psrld	$12, %xmm6
	pslld	$20, %xmm3
	por	%xmm6, %xmm3
	movaps	-112(%rsp), %xmm6
	shufps	$248, %xmm12, %xmm6
	movaps	48(%rsp), %xmm5
	insertps	$32, %xmm5, %xmm6
	paddd	%xmm6, %xmm0
	movaps	-128(%rsp), %xmm6
	shufps	$248, %xmm15, %xmm6
	movaps	32(%rsp), %xmm9
	insertps	$32, %xmm9, %xmm6
	paddd	%xmm6, %xmm11
	paddd	%xmm2, %xmm0
	movdqa	%xmm0, %xmm6
	pshufb	%xmm8, %xmm6
	pshufb	%xmm8, %xmm13
	pxor	%xmm6, %xmm13
	paddd	%xmm3, %xmm11
	movdqa	%xmm11, %xmm6
	pshufb	%xmm8, %xmm6
	pshufb	%xmm8, %xmm4
	pxor	%xmm6, %xmm4
	paddd	%xmm4, %xmm1
	pxor	%xmm1, %xmm3
	movdqa	%xmm3, %xmm6
	psrld	$7, %xmm6
	pslld	$25, %xmm3
	por	%xmm6, %xmm3
	paddd	%xmm13, %xmm7
	pxor	%xmm7, %xmm2
	movdqa	%xmm2, %xmm6
	psrld	$7, %xmm6
	pslld	$25, %xmm2
	por	%xmm6, %xmm2
	movaps	-64(%rsp), %xmm6
	unpcklps	%xmm5, %xmm6
	movaps	%xmm6, 144(%rsp)
	pshufd	$131, %xmm6, %xmm12
	pblendw	$48, 176(%rsp), %xmm12
	movaps	-48(%rsp), %xmm8
	unpcklps	%xmm9, %xmm8
	movaps	%xmm8, 176(%rsp)
	pshufd	$131, %xmm8, %xmm8
	pblendw	$48, 160(%rsp), %xmm8
	movaps	-96(%rsp), %xmm5
	shufps	$135, %xmm15, %xmm5
	movaps	%xmm5, 160(%rsp)
	paddd	%xmm5, %xmm11
	pshufd	$57, %xmm11, %xmm9
	paddd	%xmm3, %xmm9
	movdqa	%xmm9, %xmm10
	pshufb	%xmm14, %xmm10
	movdqa	D(CPI5_3)(%rip), %xmm6
	pshufb	%xmm6, %xmm4
	pxor	%xmm10, %xmm4
	movaps	-80(%rsp), %xmm10
	movaps	(%rsp), %xmm5
	shufps	$135, %xmm5, %xmm10
	movaps	%xmm10, 128(%rsp)
	paddd	%xmm10, %xmm0
	pshufd	$57, %xmm0, %xmm11
	paddd	%xmm2, %xmm11
	movdqa	%xmm11, %xmm0
	pshufb	%xmm14, %xmm0
	pshufb	%xmm6, %xmm13
	pxor	%xmm0, %xmm13
	pshufd	$147, %xmm7, %xmm10
	paddd	%xmm13, %xmm10
	pxor	%xmm10, %xmm2
	movdqa	%xmm2, %xmm0
	psrld	$12, %xmm0
	pslld	$20, %xmm2
	por	%xmm0, %xmm2
	pshufd	$147, %xmm1, %xmm0
	paddd	%xmm4, %xmm0
	pxor	%xmm0, %xmm3
	movdqa	%xmm3, %xmm1
	psrld	$12, %xmm1
	pslld	$20, %xmm3
	por	%xmm1, %xmm3
	pshufd	$231, 192(%rsp), %xmm1
	pblendw	$12, -16(%rsp), %xmm1
	pblendw	$192, %xmm5, %xmm1
	movdqa	%xmm1, -112(%rsp)
	paddd	%xmm1, %xmm11
	paddd	%xmm2, %xmm11
	movdqa	%xmm11, %xmm1
	movdqa	D(CPI5_2)(%rip), %xmm5
	pshufb	%xmm5, %xmm1
	pshufb	%xmm5, %xmm13
	pxor	%xmm1, %xmm13
	pshufd	$231, -32(%rsp), %xmm1
	movdqa	16(%rsp), %xmm14
	pblendw	$12, %xmm14, %xmm1
	pblendw	$192, %xmm15, %xmm1
	movdqa	%xmm1, -128(%rsp)
	paddd	%xmm1, %xmm9
	paddd	%xmm3, %xmm9
	movdqa	%xmm9, %xmm1
	pshufb	%xmm5, %xmm1
	pshufb	%xmm5, %xmm4
	pxor	%xmm1, %xmm4
	paddd	%xmm4, %xmm0
	pxor	%xmm0, %xmm3
	movdqa	%xmm3, %xmm1
	psrld	$7, %xmm1
	pslld	$25, %xmm3
	por	%xmm1, %xmm3
	paddd	%xmm13, %xmm10
	pxor	%xmm10, %xmm2
	movdqa	%xmm2, %xmm1
	psrld	$7, %xmm1
	pslld	$25, %xmm2
	por	%xmm1, %xmm2
	pshufd	$147, %xmm11, %xmm1
	paddd	%xmm12, %xmm1
	pshufd	$147, %xmm9, %xmm7
	paddd	%xmm8, %xmm7
	paddd	%xmm3, %xmm7
	movdqa	%xmm7, %xmm6
	movdqa	D(CPI5_0)(%rip), %xmm8
	pshufb	%xmm8, %xmm6
	movdqa	D(CPI5_3)(%rip), %xmm5
	pshufb	%xmm5, %xmm4
	pxor	%xmm6, %xmm4
	paddd	%xmm2, %xmm1
	movdqa	%xmm1, %xmm6
	pshufb	%xmm8, %xmm6
	pshufb	%xmm5, %xmm13
	pxor	%xmm6, %xmm13
	pshufd	$57, %xmm10, %xmm6
	paddd	%xmm13, %xmm6
	movdqa	%xmm13, %xmm5
	pxor	%xmm6, %xmm2
	movdqa	%xmm2, %xmm8
	psrld	$12, %xmm8
	pslld	$20, %xmm2
	por	%xmm8, %xmm2
	pshufd	$57, %xmm0, %xmm0
	paddd	%xmm4, %xmm0
	pxor	%xmm0, %xmm3
	movdqa	%xmm3, %xmm8
	psrld	$12, %xmm8
	pslld	$20, %xmm3
	por	%xmm8, %xmm3
	movaps	-16(%rsp), %xmm10
	movaps	64(%rsp), %xmm8
	shufps	$3, %xmm10, %xmm8
	blendps	$4, 48(%rsp), %xmm8
	paddd	%xmm8, %xmm1
	movdqa	%xmm14, %xmm9
	movaps	80(%rsp), %xmm8
	shufps	$3, %xmm14, %xmm8
	blendps	$4, 32(%rsp), %xmm8
	paddd	%xmm8, %xmm7
	paddd	%xmm2, %xmm1
	movdqa	%xmm1, %xmm8
	movdqa	D(CPI5_2)(%rip), %xmm13
	pshufb	%xmm13, %xmm8
	pshufb	%xmm13, %xmm5
	pxor	%xmm8, %xmm5
	paddd	%xmm3, %xmm7
	movdqa	%xmm7, %xmm8
	pshufb	%xmm13, %xmm8
	pshufb	%xmm13, %xmm4
	pxor	%xmm8, %xmm4
	paddd	%xmm4, %xmm0
	pxor	%xmm0, %xmm3
	movdqa	%xmm3, %xmm8
	psrld	$7, %xmm8
	pslld	$25, %xmm3
	por	%xmm8, %xmm3
	paddd	%xmm5, %xmm6
	pxor	%xmm6, %xmm2
	movdqa	%xmm2, %xmm8
	psrld	$7, %xmm8
	pslld	$25, %xmm2
	por	%xmm8, %xmm2
	pshufd	$250, %xmm10, %xmm8
	movdqa	224(%rsp), %xmm14
	punpckhdq	%xmm8, %xmm14
	pshufd	$250, %xmm9, %xmm8
	movdqa	208(%rsp), %xmm12
	punpckhdq	%xmm8, %xmm12
	pshufd	$0, %xmm9, %xmm8
	movdqa	%xmm9, %xmm11
	pblendw	$63, %xmm12, %xmm8
	pshufd	$0, %xmm10, %xmm12
	pblendw	$63, %xmm14, %xmm12
	pshufd	$57, %xmm7, %xmm9
	pblendw	$12, %xmm11, %xmm15
	pshufd	$180, %xmm15, %xmm7
	paddd	%xmm9, %xmm7
	pshufd	$57, %xmm1, %xmm9
	movdqa	(%rsp), %xmm1
	pblendw	$12, %xmm10, %xmm1
	pshufd	$180, %xmm1, %xmm1
	paddd	%xmm9, %xmm1
	paddd	%xmm3, %xmm7
	movdqa	%xmm7, %xmm9
	movdqa	D(CPI5_0)(%rip), %xmm14
	pshufb	%xmm14, %xmm9
	movdqa	D(CPI5_3)(%rip), %xmm15
	pshufb	%xmm15, %xmm4
	pxor	%xmm9, %xmm4
	paddd	%xmm2, %xmm1
	movdqa	%xmm1, %xmm9
	pshufb	%xmm14, %xmm9
	pshufb	%xmm15, %xmm5
	pxor	%xmm9, %xmm5
	pshufd	$147, %xmm6, %xmm10
	paddd	%xmm5, %xmm10
	pxor	%xmm10, %xmm2
	movdqa	%xmm2, %xmm6
	psrld	$12, %xmm6
	pslld	$20, %xmm2
	por	%xmm6, %xmm2
	pshufd	$147, %xmm0, %xmm6
	paddd	%xmm4, %xmm6
	pxor	%xmm6, %xmm3
	movdqa	%xmm3, %xmm0
	psrld	$12, %xmm0
	pslld	$20, %xmm3
	por	%xmm0, %xmm3
	paddd	%xmm12, %xmm1
	paddd	%xmm8, %xmm7
	paddd	%xmm2, %xmm1
	movdqa	%xmm1, %xmm0
	pshufb	%xmm13, %xmm0
	pshufb	%xmm13, %xmm5
	pxor	%xmm0, %xmm5
	paddd	%xmm3, %xmm7
	movdqa	%xmm7, %xmm0
	pshufb	%xmm13, %xmm0
	pshufb	%xmm13, %xmm4
	pxor	%xmm0, %xmm4
	paddd	%xmm4, %xmm6
	pxor	%xmm6, %xmm3
	movdqa	%xmm3, %xmm0
	psrld	$7, %xmm0
	pslld	$25, %xmm3
	por	%xmm0, %xmm3
	paddd	%xmm5, %xmm10
	pxor	%xmm10, %xmm2
	movdqa	%xmm2, %xmm0
	psrld	$7, %xmm0
	pslld	$25, %xmm2
	por	%xmm0, %xmm2
	pshufd	$147, %xmm7, %xmm8
	movdqa	-48(%rsp), %xmm9
	movdqa	%xmm9, %xmm0
	movdqa	32(%rsp), %xmm11
	pblendw	$3, %xmm11, %xmm0
	pshufd	$30, %xmm0, %xmm0
	movdqa	%xmm0, 80(%rsp)
	paddd	%xmm0, %xmm8
	paddd	%xmm3, %xmm8
	movdqa	%xmm8, %xmm0
	movdqa	%xmm14, %xmm12
	pshufb	%xmm14, %xmm0
	movdqa	%xmm15, %xmm13
	pshufb	%xmm15, %xmm4
	pxor	%xmm0, %xmm4
	pshufd	$147, %xmm1, %xmm1
	movdqa	-64(%rsp), %xmm7
	movdqa	%xmm7, %xmm0
	movdqa	48(%rsp), %xmm14
	pblendw	$3, %xmm14, %xmm0
	pshufd	$30, %xmm0, %xmm15
	paddd	%xmm15, %xmm1
	paddd	%xmm2, %xmm1
	movdqa	%xmm1, %xmm0
	pshufb	%xmm12, %xmm0
	pshufb	%xmm13, %xmm5
	pxor	%xmm0, %xmm5
	pshufd	$57, %xmm10, %xmm13
	paddd	%xmm5, %xmm13
	pxor	%xmm13, %xmm2
	movdqa	%xmm2, %xmm0
	psrld	$12, %xmm0
	pslld	$20, %xmm2
	por	%xmm0, %xmm2
	pshufd	$57, %xmm6, %xmm10
	paddd	%xmm4, %xmm10
	pxor	%xmm10, %xmm3
	movdqa	%xmm3, %xmm0
	psrld	$12, %xmm0
	pslld	$20, %xmm3
	por	%xmm0, %xmm3
	pshufd	$120, %xmm14, %xmm0
	movdqa	%xmm0, 64(%rsp)
	pblendw	$3, %xmm7, %xmm0
	paddd	%xmm0, %xmm1
	pshufd	$120, %xmm11, %xmm14
	movdqa	%xmm14, %xmm0
	pblendw	$3, %xmm9, %xmm0
	paddd	%xmm0, %xmm8
	paddd	%xmm2, %xmm1
	movdqa	%xmm1, %xmm0
	movdqa	D(CPI5_2)(%rip), %xmm6
	pshufb	%xmm6, %xmm0
	pshufb	%xmm6, %xmm5
	pxor	%xmm0, %xmm5
	paddd	%xmm3, %xmm8
	movdqa	%xmm8, %xmm0
	pshufb	%xmm6, %xmm0
	pshufb	%xmm6, %xmm4
	pxor	%xmm0, %xmm4
	paddd	%xmm4, %xmm10
	pxor	%xmm10, %xmm3
	movdqa	%xmm3, %xmm0
	psrld	$7, %xmm0
	pslld	$25, %xmm3
	por	%xmm0, %xmm3
	paddd	%xmm5, %xmm13
	pxor	%xmm13, %xmm2
	movdqa	%xmm2, %xmm0
	psrld	$7, %xmm0
	pslld	$25, %xmm2
	por	%xmm0, %xmm2
	movaps	-32(%rsp), %xmm11
	movaps	%xmm11, %xmm0
	movaps	96(%rsp), %xmm12
	shufps	$235, %xmm12, %xmm0
	insertps	$112, %xmm11, %xmm0
	movaps	%xmm0, 112(%rsp)
	unpcklpd	160(%rsp), %xmm11
	movaps	192(%rsp), %xmm6
	movaps	%xmm6, %xmm0
	movaps	(%rsp), %xmm7
	shufps	$235, %xmm7, %xmm0
	insertps	$112, %xmm6, %xmm0
	movaps	%xmm0, -32(%rsp)
	unpcklpd	128(%rsp), %xmm6
	blendps	$8, %xmm15, %xmm6
	blendps	$8, 80(%rsp), %xmm11
	pshufd	$78, 16(%rsp), %xmm0
	pshufd	$229, -128(%rsp), %xmm9
	pblendw	$195, %xmm9, %xmm0
	pshufd	$57, %xmm8, %xmm8
	paddd	%xmm8, %xmm0
	pshufd	$78, -16(%rsp), %xmm15
	pshufd	$229, -112(%rsp), %xmm8
	pblendw	$195, %xmm8, %xmm15
	pshufd	$57, %xmm1, %xmm1
	paddd	%xmm1, %xmm15
	paddd	%xmm3, %xmm0
	movdqa	%xmm0, %xmm1
	movdqa	D(CPI5_0)(%rip), %xmm8
	pshufb	%xmm8, %xmm1
	movdqa	D(CPI5_3)(%rip), %xmm9
	pshufb	%xmm9, %xmm4
	pxor	%xmm1, %xmm4
	paddd	%xmm2, %xmm15
	movdqa	%xmm15, %xmm1
	pshufb	%xmm8, %xmm1
	pshufb	%xmm9, %xmm5
	pxor	%xmm1, %xmm5
	pshufd	$147, %xmm13, %xmm1
	paddd	%xmm5, %xmm1
	pxor	%xmm1, %xmm2
	movdqa	%xmm2, %xmm8
	psrld	$12, %xmm8
	pslld	$20, %xmm2
	por	%xmm8, %xmm2
	pshufd	$147, %xmm10, %xmm10
	paddd	%xmm4, %xmm10
	pxor	%xmm10, %xmm3
	movdqa	%xmm3, %xmm8
	psrld	$12, %xmm8
	pslld	$20, %xmm3
	por	%xmm8, %xmm3
	pshufd	$130, %xmm7, %xmm8
	pblendw	$12, -64(%rsp), %xmm8
	movdqa	64(%rsp), %xmm7
	pblendw	$63, %xmm8, %xmm7
	paddd	%xmm7, %xmm15
	pshufd	$130, %xmm12, %xmm9
	pblendw	$12, -48(%rsp), %xmm9
	pblendw	$63, %xmm9, %xmm14
	paddd	%xmm14, %xmm0
	paddd	%xmm2, %xmm15
	movdqa	%xmm15, %xmm12
	movdqa	D(CPI5_2)(%rip), %xmm7
	pshufb	%xmm7, %xmm12
	pshufb	%xmm7, %xmm5
	pxor	%xmm12, %xmm5
	paddd	%xmm3, %xmm0
	movdqa	%xmm0, %xmm12
	pshufb	%xmm7, %xmm12
	pshufb	%xmm7, %xmm4
	pxor	%xmm12, %xmm4
	paddd	%xmm4, %xmm10
	pxor	%xmm10, %xmm3
	movdqa	%xmm3, %xmm12
	psrld	$7, %xmm12
	pslld	$25, %xmm3
	por	%xmm12, %xmm3
	paddd	%xmm5, %xmm1
	pxor	%xmm1, %xmm2
	movdqa	%xmm2, %xmm12
	psrld	$7, %xmm12
	pslld	$25, %xmm2
	por	%xmm12, %xmm2
	pshufd	$147, %xmm15, %xmm15
	pshufd	$120, %xmm6, %xmm6
	paddd	%xmm6, %xmm15
	pshufd	$147, %xmm0, %xmm14
	pshufd	$120, %xmm11, %xmm0
	paddd	%xmm0, %xmm14
	paddd	%xmm3, %xmm14
	movdqa	%xmm14, %xmm0
	movdqa	D(CPI5_0)(%rip), %xmm6
	pshufb	%xmm6, %xmm0
	movdqa	D(CPI5_3)(%rip), %xmm7
	pshufb	%xmm7, %xmm4
	pxor	%xmm0, %xmm4
	paddd	%xmm2, %xmm15
	movdqa	%xmm15, %xmm0
	pshufb	%xmm6, %xmm0
	pshufb	%xmm7, %xmm5
	pxor	%xmm0, %xmm5
	pshufd	$57, %xmm1, %xmm13
	paddd	%xmm5, %xmm13
	pxor	%xmm13, %xmm2
	movdqa	%xmm2, %xmm0
	psrld	$12, %xmm0
	pslld	$20, %xmm2
	por	%xmm0, %xmm2
	pshufd	$57, %xmm10, %xmm10
	paddd	%xmm4, %xmm10
	pxor	%xmm10, %xmm3
	movdqa	%xmm3, %xmm0
	psrld	$12, %xmm0
	pslld	$20, %xmm3
	por	%xmm0, %xmm3
	movdqa	48(%rsp), %xmm12
	movdqa	-112(%rsp), %xmm1
	pblendw	$3, %xmm12, %xmm1
	movdqa	-64(%rsp), %xmm0
	pblendw	$48, %xmm0, %xmm1
	movdqa	%xmm1, -112(%rsp)
	punpckhdq	%xmm12, %xmm0
	pshufd	$14, %xmm0, %xmm0
	movdqa	-16(%rsp), %xmm6
	pblendw	$48, %xmm6, %xmm0
	paddd	%xmm0, %xmm15
	movdqa	32(%rsp), %xmm11
	movdqa	-128(%rsp), %xmm1
	pblendw	$3, %xmm11, %xmm1
	movdqa	-48(%rsp), %xmm0
	pblendw	$48, %xmm0, %xmm1
	movdqa	%xmm1, -128(%rsp)
	punpckhdq	%xmm11, %xmm0
	pshufd	$14, %xmm0, %xmm0
	movdqa	16(%rsp), %xmm7
	pblendw	$48, %xmm7, %xmm0
	paddd	%xmm0, %xmm14
	paddd	%xmm2, %xmm15
	movdqa	%xmm15, %xmm0
	movdqa	D(CPI5_2)(%rip), %xmm1
	pshufb	%xmm1, %xmm0
	pshufb	%xmm1, %xmm5
	pxor	%xmm0, %xmm5
	paddd	%xmm3, %xmm14
	movdqa	%xmm14, %xmm0
	pshufb	%xmm1, %xmm0
	pshufb	%xmm1, %xmm4
	pxor	%xmm0, %xmm4
	paddd	%xmm4, %xmm10
	pxor	%xmm10, %xmm3
	movdqa	%xmm3, %xmm0
	psrld	$7, %xmm0
	pslld	$25, %xmm3
	por	%xmm0, %xmm3
	paddd	%xmm5, %xmm13
	pxor	%xmm13, %xmm2
	movdqa	%xmm2, %xmm0
	psrld	$7, %xmm0
	pslld	$25, %xmm2
	por	%xmm0, %xmm2
	movaps	-96(%rsp), %xmm0
	shufps	$7, 176(%rsp), %xmm0
	insertps	$32, 96(%rsp), %xmm0
	movaps	%xmm0, -96(%rsp)
	movaps	-80(%rsp), %xmm0
	shufps	$7, 144(%rsp), %xmm0
	insertps	$32, (%rsp), %xmm0
	movaps	%xmm0, -80(%rsp)
	shufps	$84, %xmm12, %xmm8
	pshufd	$39, %xmm6, %xmm12
	pblendw	$60, %xmm8, %xmm12
	pshufd	$57, %xmm15, %xmm0
	paddd	%xmm0, %xmm12
	shufps	$84, %xmm11, %xmm9
	pshufd	$39, %xmm7, %xmm7
	pblendw	$60, %xmm9, %xmm7
	pshufd	$57, %xmm14, %xmm0
	paddd	%xmm0, %xmm7
	paddd	%xmm3, %xmm7
	movdqa	%xmm7, %xmm0
	movdqa	D(CPI5_0)(%rip), %xmm14
	pshufb	%xmm14, %xmm0
	movdqa	D(CPI5_3)(%rip), %xmm11
	pshufb	%xmm11, %xmm4
	pxor	%xmm0, %xmm4
	paddd	%xmm2, %xmm12
	movdqa	%xmm12, %xmm0
	pshufb	%xmm14, %xmm0
	pshufb	%xmm11, %xmm5
	pxor	%xmm0, %xmm5
	pshufd	$147, %xmm13, %xmm13
	paddd	%xmm5, %xmm13
	pxor	%xmm13, %xmm2
	movdqa	%xmm2, %xmm0
	psrld	$12, %xmm0
	pslld	$20, %xmm2
	por	%xmm0, %xmm2
	pshufd	$147, %xmm10, %xmm8
	paddd	%xmm4, %xmm8
	pxor	%xmm8, %xmm3
	movdqa	%xmm3, %xmm0
	psrld	$12, %xmm0
	pslld	$20, %xmm3
	por	%xmm0, %xmm3
	pshufd	$147, -112(%rsp), %xmm0
	paddd	%xmm0, %xmm12
	pshufd	$147, -128(%rsp), %xmm0
	paddd	%xmm0, %xmm7
	paddd	%xmm3, %xmm7
	paddd	%xmm2, %xmm12
	movdqa	%xmm12, %xmm0
	pshufb	%xmm1, %xmm0
	pshufb	%xmm1, %xmm5
	pxor	%xmm0, %xmm5
	movdqa	%xmm7, %xmm0
	pshufb	%xmm1, %xmm0
	pshufb	%xmm1, %xmm4
	movdqa	%xmm1, %xmm10
	pxor	%xmm0, %xmm4
	paddd	%xmm4, %xmm8
	paddd	%xmm5, %xmm13
	pxor	%xmm13, %xmm2
	pxor	%xmm8, %xmm3
	movdqa	%xmm3, %xmm0
	psrld	$7, %xmm0
	pslld	$25, %xmm3
	por	%xmm0, %xmm3
	movdqa	%xmm2, %xmm0
	psrld	$7, %xmm0
	pslld	$25, %xmm2
	por	%xmm0, %xmm2
	pshufd	$147, %xmm12, %xmm0
	movaps	-32(%rsp), %xmm1
	shufps	$120, %xmm1, %xmm1
	paddd	%xmm1, %xmm0
	pshufd	$147, %xmm7, %xmm1
	movaps	112(%rsp), %xmm6
	shufps	$120, %xmm6, %xmm6
	paddd	%xmm6, %xmm1
	paddd	%xmm2, %xmm0
	paddd	%xmm3, %xmm1
	movdqa	%xmm1, %xmm6
	pshufb	%xmm14, %xmm6
	pshufb	%xmm11, %xmm4
	pxor	%xmm6, %xmm4
	movdqa	%xmm0, %xmm9
	pshufb	%xmm14, %xmm9
	pshufb	%xmm11, %xmm5
	pshufd	$57, %xmm8, %xmm7
	pshufd	$57, %xmm13, %xmm6
	pxor	%xmm9, %xmm5
	paddd	%xmm5, %xmm6
	paddd	%xmm4, %xmm7
	pxor	%xmm7, %xmm3
	pxor	%xmm6, %xmm2
	movdqa	%xmm2, %xmm8
	psrld	$12, %xmm8
	pslld	$20, %xmm2
	por	%xmm8, %xmm2
	movdqa	%xmm3, %xmm8
	psrld	$12, %xmm8
	pslld	$20, %xmm3
	por	%xmm8, %xmm3
	paddd	-80(%rsp), %xmm0
	paddd	-96(%rsp), %xmm1
	paddd	%xmm3, %xmm1
	paddd	%xmm2, %xmm0
	movdqa	%xmm0, %xmm8
	pshufb	%xmm10, %xmm8
	pshufb	%xmm10, %xmm5
	pxor	%xmm8, %xmm5
	movdqa	%xmm1, %xmm8
	pshufb	%xmm10, %xmm8
	pshufb	%xmm10, %xmm4
	pxor	%xmm8, %xmm4
	paddd	%xmm4, %xmm7
	paddd	%xmm5, %xmm6
	pxor	%xmm6, %xmm2
	pxor	%xmm7, %xmm3
	movdqa	%xmm3, %xmm8
	psrld	$7, %xmm8
	pslld	$25, %xmm3
	por	%xmm8, %xmm3
	movdqa	%xmm2, %xmm8
	psrld	$7, %xmm8
	pslld	$25, %xmm2
	por	%xmm8, %xmm2
	pshufd	$57, %xmm1, %xmm1
	pshufd	$147, %xmm7, %xmm7
	pxor	%xmm1, %xmm7
	pshufd	$57, %xmm0, %xmm0
	pshufd	$147, %xmm6, %xmm1
	pxor	%xmm0, %xmm1
	pshufd	$78, %xmm4, %xmm0
	pxor	%xmm3, %xmm0
	pshufd	$78, %xmm5, %xmm3
	pxor	%xmm2, %xmm3
	movdqu	%xmm7, 16(%rdi)
	movdqu	%xmm1, (%rdi)
	movdqu	%xmm0, 48(%rdi)
	movdqu	%xmm3, 32(%rdi)
	addq	$296, %rsp
	.cfi_def_cfa_offset 8
	retq
	SIZE("keyed_blake3::compression::two::compress_two_from")
	.cfi_endproc

SIZED(16, 4)
	.p2align	4, 0x0
D(CPI6_0):
	.zero	4
	.zero	4
	.long	64
	.long	18
D(CPI6_1):
	.long	0
	.long	0
	.long	64
	.long	20
CODE(".text.keyed_blake3::tree::Tree::absorb_subtrees::<#8b36ca032ac25711>")
	.p2align	4
	TYPE("keyed_blake3::tree::Tree::absorb_subtrees::<#8b36ca032ac25711>", function)
"keyed_blake3::tree::Tree::absorb_subtrees::<#8b36ca032ac25711>":
	.cfi_startproc
	pushq	%rbp
	.cfi_def_cfa_offset 16
	pushq	%r15
	.cfi_def_cfa_offset 24
	pushq	%r14
	.cfi_def_cfa_offset 32
	pushq	%r13
	.cfi_def_cfa_offset 40
	pushq	%r12
	.cfi_def_cfa_offset 48
	pushq	%rbx
	.cfi_def_cfa_offset 56
	subq	$920, %rsp
	.cfi_def_cfa_offset 976
	.cfi_offset %rbx, -56
	.cfi_offset %r12, -48
	.cfi_offset %r13, -40
	.cfi_offset %r14, -32
	.cfi_offset %r15, -24
	.cfi_offset %rbp, -16
	movq	%r8, %r13
	movq	%rcx, 408(%rsp)
	movq	%rdx, %r15
	movq	%rsi, %r12
	movq	%rdi, %rsi
	xorps	%xmm0, %xmm0
	movaps	%xmm0, 224(%rsp)
	movaps	%xmm0, 208(%rsp)
	movaps	%xmm0, 192(%rsp)
	movaps	%xmm0, 176(%rsp)
	movaps	%xmm0, 160(%rsp)
	movaps	%xmm0, 144(%rsp)
	movaps	%xmm0, 128(%rsp)
	movaps	%xmm0, 112(%rsp)
	movaps	%xmm0, 624(%rsp)
	movaps	%xmm0, 640(%rsp)
	movaps	%xmm0, 256(%rsp)
	movaps	%xmm0, 272(%rsp)
	movaps	%xmm0, 288(%rsp)
	movaps	%xmm0, 304(%rsp)
	movaps	%xmm0, 320(%rsp)
	movaps	%xmm0, 336(%rsp)
	movaps	%xmm0, 352(%rsp)
	movaps	%xmm0, 368(%rsp)
	cmpq	$2048, %r9
	movq	%rdi, 104(%rsp)
	jne	L(6_4)
	movups	(%rsi), %xmm0
	movups	16(%rsi), %xmm2
	leaq	1(%r12), %rbx
	movq	%r12, %xmm1
	movl	$64, %eax
	movdqa	%xmm1, 448(%rsp)
	pinsrd	$2, %eax, %xmm1
	movdqa	%xmm1, 240(%rsp)
	movq	%rbx, %xmm1
	movdqa	%xmm1, 608(%rsp)
	pinsrd	$2, %eax, %xmm1
	movdqa	%xmm1, 384(%rsp)
	leaq	1024(%r13), %r14
	xorl	%ebp, %ebp
	movaps	%xmm0, %xmm1
	movaps	%xmm2, %xmm3
	.p2align	4
L(6_2):
	cmpq	$1, %rbp
	movl	$0, %eax
	adcl	$16, %eax
	movups	-1024(%r14,%rbp), %xmm4
	movups	-1008(%r14,%rbp), %xmm5
	movups	-992(%r14,%rbp), %xmm6
	movups	-976(%r14,%rbp), %xmm7
	movaps	%xmm4, 528(%rsp)
	movaps	%xmm5, 544(%rsp)
	movaps	%xmm6, 560(%rsp)
	movaps	%xmm7, 576(%rsp)
	movq	%r12, 592(%rsp)
	movl	$64, 600(%rsp)
	movl	%eax, 604(%rsp)
	movups	(%r14,%rbp), %xmm4
	movups	16(%r14,%rbp), %xmm5
	movups	32(%r14,%rbp), %xmm6
	movups	48(%r14,%rbp), %xmm7
	movaps	%xmm4, (%rsp)
	movaps	%xmm5, 16(%rsp)
	movaps	%xmm6, 32(%rsp)
	movaps	%xmm7, 48(%rsp)
	movq	%rbx, 64(%rsp)
	movl	$64, 72(%rsp)
	movdqa	240(%rsp), %xmm4
	pinsrd	$3, %eax, %xmm4
	movl	%eax, 76(%rsp)
	movdqa	384(%rsp), %xmm5
	pinsrd	$3, %eax, %xmm5
	leaq	656(%rsp), %rdi
	leaq	528(%rsp), %rsi
	movq	%rsp, %rdx
	callq	"keyed_blake3::compression::two::compress_two_from"
	movups	656(%rsp), %xmm0
	movups	672(%rsp), %xmm1
	movups	688(%rsp), %xmm2
	movups	704(%rsp), %xmm3
	addq	$64, %rbp
	cmpq	$960, %rbp
	jne	L(6_2)
	movups	960(%r13), %xmm4
	movups	976(%r13), %xmm5
	movups	992(%r13), %xmm6
	movups	1008(%r13), %xmm7
	movaps	%xmm4, 528(%rsp)
	movaps	%xmm5, 544(%rsp)
	movaps	%xmm6, 560(%rsp)
	movaps	%xmm7, 576(%rsp)
	movq	%r12, 592(%rsp)
	movabsq	$77309411392, %rax
	movq	%rax, 600(%rsp)
	movups	1984(%r13), %xmm4
	movups	2000(%r13), %xmm5
	movups	2016(%r13), %xmm6
	movups	2032(%r13), %xmm7
	movaps	%xmm4, (%rsp)
	movaps	%xmm5, 16(%rsp)
	movaps	%xmm6, 32(%rsp)
	movaps	%xmm7, 48(%rsp)
	movq	%rbx, 64(%rsp)
	movq	%rax, 72(%rsp)
	movdqa	D(CPI6_0)(%rip), %xmm6
	movdqa	448(%rsp), %xmm4
	pblendw	$240, %xmm6, %xmm4
	movdqa	608(%rsp), %xmm5
	pblendw	$240, %xmm6, %xmm5
	leaq	656(%rsp), %rdi
	leaq	528(%rsp), %rsi
	movq	%rsp, %rdx
	callq	"keyed_blake3::compression::two::compress_two_from"
	movdqu	656(%rsp), %xmm0
	movdqu	672(%rsp), %xmm1
	movdqu	688(%rsp), %xmm2
	movdqu	704(%rsp), %xmm3
	movdqa	%xmm0, %xmm4
	punpckldq	%xmm1, %xmm4
	movq	%xmm4, 256(%rsp)
	movq	$0, 264(%rsp)
	pshufd	$85, %xmm0, %xmm4
	pblendw	$12, %xmm1, %xmm4
	movq	%xmm4, 272(%rsp)
	movq	$0, 280(%rsp)
	punpckhdq	%xmm1, %xmm0
	movq	%xmm0, 288(%rsp)
	movq	$0, 296(%rsp)
	pextrq	$1, %xmm0, 304(%rsp)
	movq	$0, 312(%rsp)
	movdqa	%xmm2, %xmm0
	punpckldq	%xmm3, %xmm0
	movq	%xmm0, 320(%rsp)
	movq	$0, 328(%rsp)
	pshufd	$85, %xmm2, %xmm0
	pblendw	$12, %xmm3, %xmm0
	movq	%xmm0, 336(%rsp)
	movq	$0, 344(%rsp)
	punpckhdq	%xmm3, %xmm2
	movq	%xmm2, 352(%rsp)
	movq	$0, 360(%rsp)
	pextrq	$1, %xmm2, 368(%rsp)
	movq	$0, 376(%rsp)
	movq	352(%rsp), %rax
	movq	%rax, 848(%rsp)
	movq	360(%rsp), %rax
	movq	%rax, 856(%rsp)
	movq	336(%rsp), %rax
	movq	%rax, 832(%rsp)
	movq	344(%rsp), %rax
	movq	%rax, 840(%rsp)
	movaps	320(%rsp), %xmm0
	movaps	%xmm0, 816(%rsp)
	movaps	304(%rsp), %xmm0
	movaps	%xmm0, 800(%rsp)
	movaps	288(%rsp), %xmm0
	movaps	%xmm0, 784(%rsp)
	movaps	272(%rsp), %xmm0
	movaps	%xmm0, 768(%rsp)
	movaps	256(%rsp), %xmm0
	movaps	%xmm0, 752(%rsp)
	movaps	368(%rsp), %xmm0
	movaps	%xmm0, 864(%rsp)
	jmp	L(6_8)
L(6_4):
	cmpq	$4096, %r9
	ja	L(6_6)
	shrq	$10, %r9
	xorl	%eax, %eax
	decq	%r9
	setne	%al
	cmpq	$2, %r9
	movl	$2, %ecx
	cmovbq	%r9, %rcx
	movl	$3, %edx
	cmovbeq	%r9, %rdx
	movq	$0, 528(%rsp)
	movq	%rax, 536(%rsp)
	movq	%rcx, 544(%rsp)
	movq	%rdx, 552(%rsp)
	leaq	256(%rsp), %rdi
	leaq	528(%rsp), %rcx
	movq	%r13, %rdx
	movq	%r12, %r8
	callq	"keyed_blake3::chunks::chunk_values::<#8b36ca032ac25711>"
	jmp	L(6_7)
L(6_6):
	shrq	$12, %r9
	leaq	256(%rsp), %rdi
	movq	%r13, %rdx
	xorl	%ecx, %ecx
	movq	%r9, %r8
	movq	%r12, %r9
	callq	"keyed_blake3::subtrees::neighbour_values::<#8b36ca032ac25711>"
L(6_7):
	movaps	368(%rsp), %xmm0
	movaps	%xmm0, 864(%rsp)
	movaps	352(%rsp), %xmm0
	movaps	%xmm0, 848(%rsp)
	movaps	336(%rsp), %xmm0
	movaps	%xmm0, 832(%rsp)
	movaps	320(%rsp), %xmm0
	movaps	%xmm0, 816(%rsp)
	movaps	256(%rsp), %xmm0
	movdqa	272(%rsp), %xmm1
	movdqa	288(%rsp), %xmm2
	movdqa	304(%rsp), %xmm3
	movdqa	%xmm3, 800(%rsp)
	movdqa	%xmm2, 784(%rsp)
	movdqa	%xmm1, 768(%rsp)
	movaps	%xmm0, 752(%rsp)
L(6_8):
	movaps	752(%rsp), %xmm0
	movaps	768(%rsp), %xmm1
	movaps	784(%rsp), %xmm2
	movaps	800(%rsp), %xmm3
	movaps	%xmm0, 112(%rsp)
	movaps	%xmm1, 128(%rsp)
	movaps	%xmm2, 144(%rsp)
	movaps	%xmm3, 160(%rsp)
	movaps	816(%rsp), %xmm0
	movaps	%xmm0, 176(%rsp)
	movaps	832(%rsp), %xmm0
	movaps	%xmm0, 192(%rsp)
	movaps	848(%rsp), %xmm0
	movaps	%xmm0, 208(%rsp)
	movaps	864(%rsp), %xmm0
	movaps	%xmm0, 224(%rsp)
	testq	%r15, %r15
	je	L(6_36)
	movq	%r12, %rax
	orq	%r15, %rax
	shrq	$32, %rax
	movq	104(%rsp), %rsi
	je	L(6_10)
	movq	%r12, %rax
	xorl	%edx, %edx
	divq	%r15
	movq	%rax, 240(%rsp)
	movq	408(%rsp), %r8
	cmpq	$3, %r8
	jae	L(6_14)
	jmp	L(6_13)
L(6_10):
	movl	%r12d, %eax
	xorl	%edx, %edx
	divl	%r15d
	movq	%rax, 240(%rsp)
	movq	408(%rsp), %r8
	cmpq	$3, %r8
	jb	L(6_13)
L(6_14):
	movq	240(%rsp), %rax
	orl	%r8d, %eax
	andl	$1, %eax
	jne	L(6_13)
	leaq	416(%rsp), %rax
	negq	%rax
	addq	%rsp, %rax
	movq	%rax, 912(%rsp)
	leaq	720(%rsp), %rax
	negq	%rax
	addq	%rsp, %rax
	addq	$32, %rax
	movq	%rax, 904(%rsp)
	leaq	496(%rsp), %rax
	negq	%rax
	addq	%rsp, %rax
	movq	%rax, 896(%rsp)
	leaq	464(%rsp), %rax
	negq	%rax
	addq	%rsp, %rax
	addq	$32, %rax
	movq	%rax, 888(%rsp)
	movl	112(%rsp), %edx
	movl	116(%rsp), %r12d
	movl	128(%rsp), %ecx
	movl	144(%rsp), %eax
	movl	%eax, 96(%rsp)
	movl	160(%rsp), %eax
	movl	%eax, 100(%rsp)
	movl	176(%rsp), %eax
	movl	192(%rsp), %r14d
	movl	208(%rsp), %esi
	movl	%esi, 92(%rsp)
	movl	224(%rsp), %esi
	movl	%esi, 608(%rsp)
	movl	132(%rsp), %r9d
	movl	148(%rsp), %esi
	movl	%esi, 448(%rsp)
	movl	164(%rsp), %esi
	movl	%esi, 384(%rsp)
	movl	180(%rsp), %r10d
	movl	196(%rsp), %ebp
	movl	212(%rsp), %edi
	movl	228(%rsp), %r11d
	.p2align	4
L(6_16):
	movq	%r8, 408(%rsp)
	xorps	%xmm0, %xmm0
	movaps	%xmm0, 256(%rsp)
	movaps	%xmm0, 272(%rsp)
	movaps	%xmm0, 288(%rsp)
	movaps	%xmm0, 304(%rsp)
	movaps	%xmm0, 320(%rsp)
	movaps	%xmm0, 528(%rsp)
	movaps	%xmm0, 544(%rsp)
	movaps	%xmm0, 560(%rsp)
	movaps	%xmm0, 576(%rsp)
	movaps	%xmm0, 592(%rsp)
	movaps	%xmm0, 656(%rsp)
	movaps	%xmm0, 672(%rsp)
	movaps	%xmm0, 688(%rsp)
	movaps	%xmm0, 704(%rsp)
	movaps	%xmm0, 496(%rsp)
	movaps	%xmm0, 512(%rsp)
	movaps	%xmm0, 480(%rsp)
	movaps	%xmm0, 464(%rsp)
	movl	%edx, %esi
	movl	%edx, 416(%rsp)
	movl	%ecx, %r13d
	movl	%ecx, 420(%rsp)
	movl	96(%rsp), %edx
	movl	%edx, 424(%rsp)
	movl	100(%rsp), %ecx
	movl	%ecx, 428(%rsp)
	movl	%eax, %r8d
	movl	%eax, 432(%rsp)
	movl	%r14d, %r15d
	movl	%r14d, 436(%rsp)
	movl	92(%rsp), %r14d
	movl	%r14d, 440(%rsp)
	movl	608(%rsp), %eax
	movl	%eax, 444(%rsp)
	movl	%r12d, 720(%rsp)
	movl	%r9d, %ebx
	movl	%r9d, 724(%rsp)
	movl	448(%rsp), %r9d
	movl	%r9d, 728(%rsp)
	movl	384(%rsp), %r9d
	movl	%r9d, 732(%rsp)
	movl	%r10d, 736(%rsp)
	movl	%ebp, 740(%rsp)
	movl	%edi, 744(%rsp)
	movl	%r11d, 748(%rsp)
	movaps	%xmm0, 48(%rsp)
	movaps	%xmm0, 32(%rsp)
	movaps	%xmm0, 16(%rsp)
	movaps	%xmm0, (%rsp)
	cmpq	$31, 912(%rsp)
	ja	L(6_18)
	movl	%esi, (%rsp)
	movl	%r13d, 4(%rsp)
	movl	%edx, 8(%rsp)
	movl	%ecx, 12(%rsp)
	movl	%r8d, 16(%rsp)
	movl	%r15d, 20(%rsp)
	movl	%r14d, 24(%rsp)
	movl	%eax, 28(%rsp)
	cmpq	$31, 904(%rsp)
	jbe	L(6_20)
L(6_21):
	movups	720(%rsp), %xmm0
	movups	736(%rsp), %xmm1
	leaq	32(%rsp), %rax
	movups	%xmm1, 16(%rax)
	movups	%xmm0, (%rax)
	jmp	L(6_22)
	.p2align	4
L(6_18):
	movq	416(%rsp), %rax
	movl	424(%rsp), %ecx
	movl	428(%rsp), %edx
	movq	432(%rsp), %rsi
	movq	%rsi, 16(%rsp)
	movl	440(%rsp), %esi
	movl	%esi, 24(%rsp)
	movl	444(%rsp), %esi
	movl	%esi, 28(%rsp)
	movq	%rax, (%rsp)
	movl	%ecx, 8(%rsp)
	movl	%edx, 12(%rsp)
	cmpq	$31, 904(%rsp)
	ja	L(6_21)
L(6_20):
	movl	%r12d, 32(%rsp)
	movl	%ebx, 36(%rsp)
	movl	448(%rsp), %eax
	movl	%eax, 40(%rsp)
	movl	384(%rsp), %eax
	movl	%eax, 44(%rsp)
	movl	%r10d, 48(%rsp)
	movl	%ebp, 52(%rsp)
	movl	%edi, 56(%rsp)
	movl	%r11d, 60(%rsp)
L(6_22):
	movaps	(%rsp), %xmm0
	movaps	16(%rsp), %xmm1
	movaps	32(%rsp), %xmm2
	movaps	48(%rsp), %xmm3
	movaps	%xmm3, 704(%rsp)
	movaps	%xmm2, 688(%rsp)
	movaps	%xmm1, 672(%rsp)
	movaps	%xmm0, 656(%rsp)
	movaps	%xmm0, 256(%rsp)
	movaps	%xmm1, 272(%rsp)
	movaps	%xmm2, 288(%rsp)
	movaps	%xmm3, 304(%rsp)
	movq	$0, 320(%rsp)
	movabsq	$85899345984, %rax
	movq	%rax, 328(%rsp)
	movl	120(%rsp), %r10d
	movl	136(%rsp), %r11d
	movl	152(%rsp), %ebx
	movl	168(%rsp), %ebp
	movl	184(%rsp), %r14d
	movl	200(%rsp), %r12d
	movl	216(%rsp), %r13d
	movl	232(%rsp), %eax
	movl	%r10d, 496(%rsp)
	movl	%r11d, 500(%rsp)
	movl	%ebx, 504(%rsp)
	movl	%ebp, 508(%rsp)
	movl	%r14d, 512(%rsp)
	movl	%r12d, 516(%rsp)
	movl	%r13d, 520(%rsp)
	movl	%eax, 524(%rsp)
	movl	124(%rsp), %ecx
	movl	140(%rsp), %edx
	movl	156(%rsp), %esi
	movl	172(%rsp), %edi
	movl	188(%rsp), %r8d
	movl	204(%rsp), %r9d
	movl	%ecx, 384(%rsp)
	movl	%ecx, 464(%rsp)
	movl	%edx, 468(%rsp)
	movl	%esi, 472(%rsp)
	movl	%edi, 476(%rsp)
	movl	%r8d, 480(%rsp)
	movl	%r9d, 484(%rsp)
	movl	220(%rsp), %r15d
	movl	%r15d, 488(%rsp)
	movl	236(%rsp), %ecx
	movl	%ecx, 492(%rsp)
	xorps	%xmm0, %xmm0
	movaps	%xmm0, 48(%rsp)
	movaps	%xmm0, 32(%rsp)
	movaps	%xmm0, 16(%rsp)
	movaps	%xmm0, (%rsp)
	cmpq	$31, 896(%rsp)
	ja	L(6_24)
	movl	%r10d, (%rsp)
	movl	%r11d, 4(%rsp)
	movl	%ebx, 8(%rsp)
	movl	%ebp, 12(%rsp)
	movl	%r14d, 16(%rsp)
	movl	%r12d, 20(%rsp)
	movl	%r13d, 24(%rsp)
	movl	%eax, 28(%rsp)
	movq	104(%rsp), %rax
	cmpq	$31, 888(%rsp)
	jbe	L(6_26)
L(6_27):
	movaps	464(%rsp), %xmm0
	movaps	480(%rsp), %xmm1
	leaq	32(%rsp), %rcx
	movups	%xmm1, 16(%rcx)
	movups	%xmm0, (%rcx)
	jmp	L(6_28)
	.p2align	4
L(6_24):
	movaps	496(%rsp), %xmm0
	movaps	512(%rsp), %xmm1
	movaps	%xmm1, 16(%rsp)
	movaps	%xmm0, (%rsp)
	movq	104(%rsp), %rax
	cmpq	$31, 888(%rsp)
	ja	L(6_27)
L(6_26):
	movl	384(%rsp), %r10d
	movl	%r10d, 32(%rsp)
	movl	%edx, 36(%rsp)
	movl	%esi, 40(%rsp)
	movl	%edi, 44(%rsp)
	movl	%r8d, 48(%rsp)
	movl	%r9d, 52(%rsp)
	movl	%r15d, 56(%rsp)
	movl	%ecx, 60(%rsp)
L(6_28):
	movaps	(%rsp), %xmm0
	movaps	16(%rsp), %xmm1
	movaps	32(%rsp), %xmm2
	movaps	48(%rsp), %xmm3
	movaps	%xmm3, 704(%rsp)
	movaps	%xmm2, 688(%rsp)
	movaps	%xmm1, 672(%rsp)
	movaps	%xmm0, 656(%rsp)
	movaps	%xmm0, 528(%rsp)
	movaps	%xmm1, 544(%rsp)
	movaps	%xmm2, 560(%rsp)
	movaps	%xmm3, 576(%rsp)
	movq	$0, 592(%rsp)
	movabsq	$85899345984, %rcx
	movq	%rcx, 600(%rsp)
	movups	(%rax), %xmm0
	movups	16(%rax), %xmm2
	movdqa	D(CPI6_1)(%rip), %xmm4
	movq	%rsp, %rdi
	leaq	256(%rsp), %rsi
	leaq	528(%rsp), %rdx
	movaps	%xmm0, %xmm1
	movaps	%xmm2, %xmm3
	movdqa	%xmm4, %xmm5
	callq	"keyed_blake3::compression::two::compress_two_from"
	movl	(%rsp), %edx
	movl	4(%rsp), %ecx
	movl	8(%rsp), %eax
	movl	%eax, 96(%rsp)
	movl	12(%rsp), %eax
	movl	%eax, 100(%rsp)
	movl	16(%rsp), %r12d
	movl	20(%rsp), %r9d
	movl	24(%rsp), %eax
	movl	%eax, 448(%rsp)
	movl	28(%rsp), %eax
	movl	%eax, 384(%rsp)
	movl	32(%rsp), %eax
	movl	36(%rsp), %r14d
	movl	40(%rsp), %esi
	movl	%esi, 92(%rsp)
	movl	44(%rsp), %edi
	movl	%edi, 608(%rsp)
	movl	48(%rsp), %r10d
	movq	$0, 120(%rsp)
	movq	$0, 136(%rsp)
	movq	$0, 152(%rsp)
	movq	$0, 168(%rsp)
	movq	$0, 184(%rsp)
	movq	$0, 200(%rsp)
	movq	$0, 216(%rsp)
	movq	$0, 232(%rsp)
	movq	240(%rsp), %rbx
	shrq	%rbx
	movq	408(%rsp), %r15
	movq	%r15, %r13
	shrq	%r13
	movl	52(%rsp), %ebp
	movl	56(%rsp), %edi
	movl	60(%rsp), %r11d
	cmpq	$5, %r15
	jb	L(6_31)
	andl	$2, %r15d
	jne	L(6_31)
	movq	%r13, %r8
	movl	%r12d, %r15d
	movq	240(%rsp), %r12
	andl	$2, %r12d
	movq	%rbx, 240(%rsp)
	movl	%r15d, %r12d
	je	L(6_16)
L(6_31):
	movl	%edx, 112(%rsp)
	movl	%r12d, 116(%rsp)
	movl	%ecx, 128(%rsp)
	movl	%r9d, 132(%rsp)
	movl	96(%rsp), %ecx
	movl	%ecx, 144(%rsp)
	movl	448(%rsp), %ecx
	movl	%ecx, 148(%rsp)
	movl	100(%rsp), %ecx
	movl	%ecx, 160(%rsp)
	movl	384(%rsp), %ecx
	movl	%ecx, 164(%rsp)
	movl	%eax, 176(%rsp)
	movl	%r10d, 180(%rsp)
	movl	%r14d, 192(%rsp)
	movl	%ebp, 196(%rsp)
	movl	92(%rsp), %eax
	movl	%eax, 208(%rsp)
	movl	%edi, 212(%rsp)
	movl	608(%rsp), %eax
	movl	%eax, 224(%rsp)
	movl	%r11d, 228(%rsp)
	movq	104(%rsp), %rsi
	movq	976(%rsp), %r14
	movq	%r13, %r12
	decq	%r12
	jne	L(6_33)
	jmp	L(6_35)
L(6_13):
	movq	%r8, %r13
	movq	240(%rsp), %rbx
	movq	976(%rsp), %r14
	movq	%r13, %r12
	decq	%r12
	je	L(6_35)
L(6_33):
	leaq	64(%rsi), %r15
	xorl	%ebp, %ebp
	.p2align	4
L(6_34):
	movl	112(%rsp,%rbp,4), %eax
	movl	128(%rsp,%rbp,4), %ecx
	movl	144(%rsp,%rbp,4), %edx
	movl	160(%rsp,%rbp,4), %r11d
	movl	176(%rsp,%rbp,4), %edi
	movl	192(%rsp,%rbp,4), %r8d
	movl	208(%rsp,%rbp,4), %r9d
	movl	224(%rsp,%rbp,4), %r10d
	movl	%eax, 256(%rsp)
	movl	%ecx, 260(%rsp)
	movl	%edx, 264(%rsp)
	movl	%r11d, 268(%rsp)
	movl	%edi, 272(%rsp)
	movl	%r8d, 276(%rsp)
	movl	%r9d, 280(%rsp)
	movl	%r10d, 284(%rsp)
	leaq	(%rbx,%rbp), %rdx
	leaq	256(%rsp), %rcx
	movq	%r15, %rdi
	xorl	%r8d, %r8d
	callq	"keyed_blake3::tree::add_subtree_value"
	movq	104(%rsp), %rsi
	incq	%rbp
	cmpq	%rbp, %r12
	jne	L(6_34)
L(6_35):
	movl	108(%rsp,%r13,4), %eax
	movl	124(%rsp,%r13,4), %ecx
	movl	140(%rsp,%r13,4), %edx
	movl	156(%rsp,%r13,4), %r11d
	movl	172(%rsp,%r13,4), %edi
	movl	188(%rsp,%r13,4), %r8d
	movl	204(%rsp,%r13,4), %r9d
	movl	220(%rsp,%r13,4), %r10d
	movl	%eax, 624(%rsp)
	movl	%ecx, 628(%rsp)
	movl	%edx, 632(%rsp)
	movl	%r11d, 636(%rsp)
	movl	%edi, 640(%rsp)
	movl	%r8d, 644(%rsp)
	movl	%r9d, 648(%rsp)
	movl	%r10d, 652(%rsp)
	addq	%r12, %rbx
	leaq	64(%rsi), %rdi
	leaq	624(%rsp), %rcx
	movq	%rbx, %rdx
	movq	%r14, %r8
	callq	"keyed_blake3::tree::add_subtree_value"
	addq	$920, %rsp
	.cfi_def_cfa_offset 56
	popq	%rbx
	.cfi_def_cfa_offset 48
	popq	%r12
	.cfi_def_cfa_offset 40
	popq	%r13
	.cfi_def_cfa_offset 32
	popq	%r14
	.cfi_def_cfa_offset 24
	popq	%r15
	.cfi_def_cfa_offset 16
	popq	%rbp
	.cfi_def_cfa_offset 8
	retq
L(6_36):
	.cfi_def_cfa_offset 976
	ud2
	SIZE("keyed_blake3::tree::Tree::absorb_subtrees::<#8b36ca032ac25711>")
	.cfi_endproc

SIZED(16, 4)
	.p2align	4, 0x0
D(CPI7_0):
	.byte	2
	.byte	3
	.byte	0
	.byte	1
	.byte	6
	.byte	7
	.byte	4
	.byte	5
	.byte	10
	.byte	11
	.byte	8
	.byte	9
	.byte	14
	.byte	15
	.byte	12
	.byte	13
D(CPI7_1):
	.long	4194304
	.long	4194304
	.long	4194304
	.long	4194304
D(CPI7_2):
	.long	1779033703
	.long	1779033703
	.long	1779033703
	.long	1779033703
D(CPI7_3):
	.long	3144134277
	.long	3144134277
	.long	3144134277
	.long	3144134277
D(CPI7_4):
	.long	1013904242
	.long	1013904242
	.long	1013904242
	.long	1013904242
D(CPI7_5):
	.long	2773480762
	.long	2773480762
	.long	2773480762
	.long	2773480762
D(CPI7_6):
	.byte	1
	.byte	2
	.byte	3
	.byte	0
	.byte	5
	.byte	6
	.byte	7
	.byte	4
	.byte	9
	.byte	10
	.byte	11
	.byte	8
	.byte	13
	.byte	14
	.byte	15
	.byte	12
CODE(".text.keyed_blake3::chunks::chunk_values::<#8b36ca032ac25711>")
	.p2align	4
	TYPE("keyed_blake3::chunks::chunk_values::<#8b36ca032ac25711>", function)
"keyed_blake3::chunks::chunk_values::<#8b36ca032ac25711>":
	.cfi_startproc
	subq	$216, %rsp
	.cfi_def_cfa_offset 224
	movdqu	(%rcx), %xmm2
	movdqu	16(%rcx), %xmm0
	movq	%r8, %xmm1
	pshufd	$68, %xmm1, %xmm1
	paddq	%xmm1, %xmm0
	paddq	%xmm1, %xmm2
	movdqa	%xmm2, %xmm1
	shufps	$221, %xmm0, %xmm1
	movaps	%xmm1, 176(%rsp)
	shufps	$136, %xmm0, %xmm2
	movaps	%xmm2, 192(%rsp)
	movd	(%rsi), %xmm0
	pshufd	$0, %xmm0, %xmm7
	movd	4(%rsi), %xmm0
	pshufd	$0, %xmm0, %xmm8
	movd	8(%rsi), %xmm0
	pshufd	$0, %xmm0, %xmm9
	movd	12(%rsi), %xmm0
	pshufd	$0, %xmm0, %xmm6
	movd	16(%rsi), %xmm0
	pshufd	$0, %xmm0, %xmm2
	movd	20(%rsi), %xmm0
	pshufd	$0, %xmm0, %xmm3
	movd	24(%rsi), %xmm0
	pshufd	$0, %xmm0, %xmm4
	movd	28(%rsi), %xmm0
	pshufd	$0, %xmm0, %xmm5
	movq	(%rcx), %rax
	movq	8(%rcx), %rsi
	shlq	$10, %rax
	shlq	$10, %rsi
	movq	16(%rcx), %r8
	shlq	$10, %r8
	movq	24(%rcx), %r9
	shlq	$10, %r9
	addq	%rdx, %rax
	addq	$48, %rax
	leaq	(%rsi,%rdx), %rcx
	addq	$48, %rcx
	leaq	(%r8,%rdx), %rsi
	addq	$48, %rsi
	addq	%r9, %rdx
	addq	$48, %rdx
	xorl	%r8d, %r8d
	.p2align	4
L(7_1):
	movdqu	-48(%rax,%r8), %xmm0
	movups	-32(%rax,%r8), %xmm1
	movaps	%xmm1, -80(%rsp)
	movups	-16(%rax,%r8), %xmm1
	movaps	%xmm1, -96(%rsp)
	movdqu	-48(%rsi,%r8), %xmm11
	movups	-32(%rsi,%r8), %xmm1
	movaps	%xmm1, -112(%rsp)
	movups	-16(%rsi,%r8), %xmm1
	movaps	%xmm1, -128(%rsp)
	movdqa	%xmm0, %xmm1
	punpckhdq	%xmm11, %xmm0
	movdqu	-48(%rcx,%r8), %xmm13
	movdqu	-32(%rcx,%r8), %xmm10
	movups	-16(%rcx,%r8), %xmm14
	punpckldq	%xmm11, %xmm1
	movdqu	-48(%rdx,%r8), %xmm11
	movdqu	-32(%rdx,%r8), %xmm12
	movdqa	%xmm13, %xmm15
	punpckldq	%xmm11, %xmm15
	punpckhdq	%xmm11, %xmm13
	movdqa	%xmm1, %xmm11
	punpckhdq	%xmm15, %xmm1
	movdqa	%xmm1, -32(%rsp)
	punpckldq	%xmm15, %xmm11
	movdqa	%xmm11, %xmm15
	movdqa	%xmm11, 112(%rsp)
	movdqa	%xmm0, %xmm1
	punpckldq	%xmm13, %xmm1
	movdqa	%xmm1, (%rsp)
	punpckhdq	%xmm13, %xmm0
	movdqa	%xmm0, -64(%rsp)
	movdqa	-80(%rsp), %xmm0
	movdqa	%xmm0, %xmm1
	movdqa	-112(%rsp), %xmm11
	punpckldq	%xmm11, %xmm1
	punpckhdq	%xmm11, %xmm0
	movdqa	%xmm10, %xmm11
	punpckldq	%xmm12, %xmm11
	punpckhdq	%xmm12, %xmm10
	movdqa	%xmm1, %xmm12
	punpckhdq	%xmm11, %xmm1
	movdqa	%xmm1, 32(%rsp)
	punpckldq	%xmm11, %xmm12
	movdqa	%xmm12, 144(%rsp)
	movdqa	%xmm0, %xmm1
	punpckldq	%xmm10, %xmm1
	movdqa	%xmm1, %xmm13
	movdqa	%xmm1, 128(%rsp)
	punpckhdq	%xmm10, %xmm0
	movdqa	%xmm0, -80(%rsp)
	movaps	-96(%rsp), %xmm11
	movaps	%xmm11, %xmm0
	movaps	-128(%rsp), %xmm1
	unpcklps	%xmm1, %xmm0
	unpckhps	%xmm1, %xmm11
	movups	-16(%rdx,%r8), %xmm1
	movaps	%xmm14, %xmm10
	unpcklps	%xmm1, %xmm10
	unpckhps	%xmm1, %xmm14
	movaps	%xmm11, %xmm1
	unpcklps	%xmm14, %xmm1
	movaps	%xmm1, 96(%rsp)
	unpckhps	%xmm14, %xmm11
	movaps	%xmm11, -96(%rsp)
	movaps	%xmm0, %xmm1
	unpckhps	%xmm10, %xmm0
	movaps	%xmm0, -16(%rsp)
	unpcklps	%xmm10, %xmm1
	movaps	%xmm1, 16(%rsp)
	movups	(%rax,%r8), %xmm14
	prefetcht0	128(%rax,%r8)
	movups	(%rsi,%r8), %xmm0
	prefetcht0	128(%rsi,%r8)
	movaps	%xmm14, %xmm11
	unpcklps	%xmm0, %xmm11
	unpckhps	%xmm0, %xmm14
	movups	(%rcx,%r8), %xmm0
	prefetcht0	128(%rcx,%r8)
	movups	(%rdx,%r8), %xmm1
	prefetcht0	128(%rdx,%r8)
	movaps	%xmm0, %xmm10
	unpcklps	%xmm1, %xmm10
	unpckhps	%xmm1, %xmm0
	movaps	%xmm14, %xmm1
	unpcklps	%xmm0, %xmm1
	movaps	%xmm1, 48(%rsp)
	unpckhps	%xmm0, %xmm14
	movaps	%xmm14, -48(%rsp)
	movaps	%xmm11, %xmm0
	unpckhps	%xmm10, %xmm11
	movaps	%xmm11, 64(%rsp)
	unpcklps	%xmm10, %xmm0
	movaps	%xmm0, 80(%rsp)
	cmpq	$1, %r8
	movl	$0, %r10d
	adcl	$16, %r10d
	cmpq	$960, %r8
	movl	$18, %r9d
	cmovnel	%r10d, %r9d
	paddd	%xmm4, %xmm9
	paddd	%xmm12, %xmm9
	movdqa	%xmm9, %xmm0
	psrld	$16, %xmm0
	movdqa	%xmm9, %xmm10
	pslld	$16, %xmm10
	pxor	D(CPI7_1)(%rip), %xmm10
	por	%xmm0, %xmm10
	paddd	%xmm5, %xmm6
	movd	%r9d, %xmm0
	pshufd	$0, %xmm0, %xmm11
	paddd	%xmm13, %xmm6
	pxor	%xmm6, %xmm11
	movdqa	%xmm6, %xmm0
	psrld	$16, %xmm0
	pslld	$16, %xmm11
	pblendw	$85, %xmm0, %xmm11
	paddd	%xmm2, %xmm7
	paddd	%xmm15, %xmm7
	movdqa	%xmm7, %xmm12
	pxor	192(%rsp), %xmm12
	movdqa	D(CPI7_0)(%rip), %xmm1
	pshufb	%xmm1, %xmm12
	movdqa	D(CPI7_2)(%rip), %xmm13
	paddd	%xmm12, %xmm13
	pxor	%xmm13, %xmm2
	movdqa	%xmm2, %xmm0
	psrld	$12, %xmm0
	pslld	$20, %xmm2
	por	%xmm0, %xmm2
	paddd	%xmm3, %xmm8
	paddd	(%rsp), %xmm8
	movdqa	%xmm8, %xmm14
	pxor	176(%rsp), %xmm14
	pshufb	%xmm1, %xmm14
	movdqa	D(CPI7_3)(%rip), %xmm0
	paddd	%xmm14, %xmm0
	movdqa	%xmm0, -112(%rsp)
	pxor	%xmm0, %xmm3
	movdqa	%xmm3, %xmm0
	psrld	$12, %xmm0
	pslld	$20, %xmm3
	por	%xmm0, %xmm3
	movdqa	D(CPI7_5)(%rip), %xmm0
	paddd	%xmm11, %xmm0
	movdqa	%xmm0, -128(%rsp)
	pxor	%xmm0, %xmm5
	movdqa	%xmm5, %xmm0
	psrld	$12, %xmm0
	pslld	$20, %xmm5
	por	%xmm0, %xmm5
	paddd	-32(%rsp), %xmm7
	paddd	%xmm2, %xmm7
	movdqa	D(CPI7_6)(%rip), %xmm1
	pshufb	%xmm1, %xmm12
	movdqa	%xmm7, %xmm0
	pshufb	%xmm1, %xmm0
	pxor	%xmm0, %xmm12
	paddd	-64(%rsp), %xmm8
	paddd	%xmm3, %xmm8
	movdqa	%xmm8, %xmm0
	pshufb	%xmm1, %xmm0
	pshufb	%xmm1, %xmm14
	pxor	%xmm0, %xmm14
	paddd	-80(%rsp), %xmm6
	paddd	%xmm5, %xmm6
	pshufb	%xmm1, %xmm11
	movdqa	%xmm6, %xmm0
	pshufb	%xmm1, %xmm0
	pxor	%xmm0, %xmm11
	movdqa	D(CPI7_4)(%rip), %xmm15
	paddd	%xmm10, %xmm15
	pxor	%xmm15, %xmm4
	movdqa	%xmm4, %xmm0
	psrld	$12, %xmm0
	pslld	$20, %xmm4
	por	%xmm0, %xmm4
	movdqa	-112(%rsp), %xmm0
	paddd	%xmm14, %xmm0
	movdqa	%xmm0, -112(%rsp)
	pxor	%xmm0, %xmm3
	movdqa	%xmm3, %xmm0
	psrld	$7, %xmm0
	pslld	$25, %xmm3
	por	%xmm0, %xmm3
	paddd	%xmm12, %xmm13
	pxor	%xmm13, %xmm2
	movdqa	%xmm2, %xmm0
	psrld	$7, %xmm0
	pslld	$25, %xmm2
	por	%xmm0, %xmm2
	movdqa	-128(%rsp), %xmm0
	paddd	%xmm11, %xmm0
	movdqa	%xmm0, -128(%rsp)
	pxor	%xmm0, %xmm5
	movdqa	%xmm5, %xmm0
	psrld	$7, %xmm0
	pslld	$25, %xmm5
	por	%xmm0, %xmm5
	paddd	32(%rsp), %xmm9
	paddd	%xmm4, %xmm9
	pxor	%xmm9, %xmm10
	pshufb	%xmm1, %xmm10
	paddd	%xmm10, %xmm15
	pxor	%xmm15, %xmm4
	movdqa	%xmm4, %xmm0
	psrld	$7, %xmm0
	pslld	$25, %xmm4
	por	%xmm0, %xmm4
	paddd	48(%rsp), %xmm6
	paddd	%xmm2, %xmm6
	movdqa	%xmm6, %xmm0
	movdqa	D(CPI7_0)(%rip), %xmm1
	pshufb	%xmm1, %xmm0
	pshufb	%xmm1, %xmm10
	pxor	%xmm0, %xmm10
	movdqa	-112(%rsp), %xmm0
	paddd	%xmm10, %xmm0
	movdqa	%xmm0, -112(%rsp)
	pxor	%xmm0, %xmm2
	movdqa	%xmm2, %xmm0
	psrld	$12, %xmm0
	pslld	$20, %xmm2
	por	%xmm0, %xmm2
	paddd	16(%rsp), %xmm7
	paddd	%xmm3, %xmm7
	pxor	%xmm7, %xmm11
	pshufb	%xmm1, %xmm11
	paddd	%xmm11, %xmm15
	pxor	%xmm15, %xmm3
	movdqa	%xmm3, %xmm0
	psrld	$12, %xmm0
	pslld	$20, %xmm3
	por	%xmm0, %xmm3
	paddd	96(%rsp), %xmm8
	paddd	%xmm4, %xmm8
	pxor	%xmm8, %xmm12
	pshufb	%xmm1, %xmm12
	movdqa	-128(%rsp), %xmm0
	paddd	%xmm12, %xmm0
	movdqa	%xmm0, -128(%rsp)
	pxor	%xmm0, %xmm4
	movdqa	%xmm4, %xmm0
	psrld	$12, %xmm0
	pslld	$20, %xmm4
	por	%xmm0, %xmm4
	paddd	80(%rsp), %xmm9
	paddd	%xmm5, %xmm9
	pxor	%xmm9, %xmm14
	pshufb	%xmm1, %xmm14
	paddd	%xmm14, %xmm13
	pxor	%xmm13, %xmm5
	movdqa	%xmm5, %xmm0
	psrld	$12, %xmm0
	pslld	$20, %xmm5
	por	%xmm0, %xmm5
	paddd	-48(%rsp), %xmm6
	paddd	%xmm2, %xmm6
	movdqa	%xmm6, %xmm0
	movdqa	D(CPI7_6)(%rip), %xmm1
	pshufb	%xmm1, %xmm0
	pshufb	%xmm1, %xmm10
	pxor	%xmm0, %xmm10
	paddd	-16(%rsp), %xmm7
	paddd	%xmm3, %xmm7
	movdqa	%xmm7, %xmm0
	pshufb	%xmm1, %xmm0
	pshufb	%xmm1, %xmm11
	pxor	%xmm0, %xmm11
	paddd	-96(%rsp), %xmm8
	paddd	%xmm4, %xmm8
	movdqa	%xmm8, %xmm0
	pshufb	%xmm1, %xmm0
	pshufb	%xmm1, %xmm12
	pxor	%xmm0, %xmm12
	paddd	64(%rsp), %xmm9
	paddd	%xmm5, %xmm9
	movdqa	%xmm9, %xmm0
	pshufb	%xmm1, %xmm0
	pshufb	%xmm1, %xmm14
	pxor	%xmm0, %xmm14
	movdqa	-112(%rsp), %xmm0
	paddd	%xmm10, %xmm0
	movdqa	%xmm0, -112(%rsp)
	pxor	%xmm0, %xmm2
	movdqa	%xmm2, %xmm0
	psrld	$7, %xmm0
	pslld	$25, %xmm2
	por	%xmm0, %xmm2
	paddd	%xmm11, %xmm15
	pxor	%xmm15, %xmm3
	movdqa	%xmm3, %xmm0
	psrld	$7, %xmm0
	pslld	$25, %xmm3
	por	%xmm0, %xmm3
	movdqa	-128(%rsp), %xmm0
	paddd	%xmm12, %xmm0
	movdqa	%xmm0, -128(%rsp)
	pxor	%xmm0, %xmm4
	movdqa	%xmm4, %xmm0
	psrld	$7, %xmm0
	pslld	$25, %xmm4
	por	%xmm0, %xmm4
	paddd	%xmm14, %xmm13
	pxor	%xmm13, %xmm5
	movdqa	%xmm5, %xmm0
	psrld	$7, %xmm0
	pslld	$25, %xmm5
	por	%xmm0, %xmm5
	paddd	(%rsp), %xmm7
	paddd	%xmm2, %xmm7
	pxor	%xmm7, %xmm12
	movdqa	D(CPI7_0)(%rip), %xmm1
	pshufb	%xmm1, %xmm12
	paddd	%xmm12, %xmm13
	pxor	%xmm13, %xmm2
	movdqa	%xmm2, %xmm0
	psrld	$12, %xmm0
	pslld	$20, %xmm2
	por	%xmm0, %xmm2
	paddd	-64(%rsp), %xmm8
	paddd	%xmm3, %xmm8
	pxor	%xmm8, %xmm14
	pshufb	%xmm1, %xmm14
	movdqa	-112(%rsp), %xmm0
	paddd	%xmm14, %xmm0
	movdqa	%xmm0, -112(%rsp)
	pxor	%xmm0, %xmm3
	movdqa	%xmm3, %xmm0
	psrld	$12, %xmm0
	pslld	$20, %xmm3
	por	%xmm0, %xmm3
	paddd	-80(%rsp), %xmm9
	paddd	%xmm4, %xmm9
	pxor	%xmm9, %xmm10
	pshufb	%xmm1, %xmm10
	paddd	%xmm10, %xmm15
	pxor	%xmm15, %xmm4
	movdqa	%xmm4, %xmm0
	psrld	$12, %xmm0
	pslld	$20, %xmm4
	por	%xmm0, %xmm4
	paddd	144(%rsp), %xmm6
	paddd	%xmm5, %xmm6
	pxor	%xmm6, %xmm11
	pshufb	%xmm1, %xmm11
	movdqa	-128(%rsp), %xmm0
	paddd	%xmm11, %xmm0
	movdqa	%xmm0, -128(%rsp)
	pxor	%xmm0, %xmm5
	movdqa	%xmm5, %xmm0
	psrld	$12, %xmm0
	pslld	$20, %xmm5
	por	%xmm0, %xmm5
	paddd	128(%rsp), %xmm7
	paddd	%xmm2, %xmm7
	movdqa	%xmm7, %xmm0
	movdqa	D(CPI7_6)(%rip), %xmm1
	pshufb	%xmm1, %xmm0
	pshufb	%xmm1, %xmm12
	pxor	%xmm0, %xmm12
	paddd	96(%rsp), %xmm8
	paddd	%xmm3, %xmm8
	movdqa	%xmm8, %xmm0
	pshufb	%xmm1, %xmm0
	pshufb	%xmm1, %xmm14
	pxor	%xmm0, %xmm14
	paddd	112(%rsp), %xmm9
	paddd	%xmm4, %xmm9
	movdqa	%xmm9, %xmm0
	pshufb	%xmm1, %xmm0
	pshufb	%xmm1, %xmm10
	pxor	%xmm0, %xmm10
	paddd	64(%rsp), %xmm6
	paddd	%xmm5, %xmm6
	movdqa	%xmm6, %xmm0
	pshufb	%xmm1, %xmm0
	pshufb	%xmm1, %xmm11
	pxor	%xmm0, %xmm11
	paddd	%xmm12, %xmm13
	pxor	%xmm13, %xmm2
	movdqa	%xmm2, %xmm0
	psrld	$7, %xmm0
	pslld	$25, %xmm2
	por	%xmm0, %xmm2
	movdqa	-112(%rsp), %xmm0
	paddd	%xmm14, %xmm0
	movdqa	%xmm0, -112(%rsp)
	pxor	%xmm0, %xmm3
	movdqa	%xmm3, %xmm0
	psrld	$7, %xmm0
	pslld	$25, %xmm3
	por	%xmm0, %xmm3
	paddd	%xmm10, %xmm15
	pxor	%xmm15, %xmm4
	movdqa	%xmm4, %xmm0
	psrld	$7, %xmm0
	pslld	$25, %xmm4
	por	%xmm0, %xmm4
	movdqa	-128(%rsp), %xmm0
	paddd	%xmm11, %xmm0
	movdqa	%xmm0, -128(%rsp)
	pxor	%xmm0, %xmm5
	movdqa	%xmm5, %xmm0
	psrld	$7, %xmm0
	pslld	$25, %xmm5
	por	%xmm0, %xmm5
	paddd	-48(%rsp), %xmm6
	paddd	%xmm2, %xmm6
	pxor	%xmm6, %xmm10
	movdqa	D(CPI7_0)(%rip), %xmm1
	pshufb	%xmm1, %xmm10
	movdqa	-112(%rsp), %xmm0
	paddd	%xmm10, %xmm0
	movdqa	%xmm0, -112(%rsp)
	pxor	%xmm0, %xmm2
	movdqa	%xmm2, %xmm0
	psrld	$12, %xmm0
	pslld	$20, %xmm2
	por	%xmm0, %xmm2
	paddd	-32(%rsp), %xmm7
	paddd	%xmm3, %xmm7
	pxor	%xmm7, %xmm11
	pshufb	%xmm1, %xmm11
	paddd	%xmm11, %xmm15
	pxor	%xmm15, %xmm3
	movdqa	%xmm3, %xmm0
	psrld	$12, %xmm0
	pslld	$20, %xmm3
	por	%xmm0, %xmm3
	paddd	80(%rsp), %xmm8
	paddd	%xmm4, %xmm8
	pxor	%xmm8, %xmm12
	pshufb	%xmm1, %xmm12
	movdqa	-128(%rsp), %xmm0
	paddd	%xmm12, %xmm0
	movdqa	%xmm0, -128(%rsp)
	pxor	%xmm0, %xmm4
	movdqa	%xmm4, %xmm0
	psrld	$12, %xmm0
	pslld	$20, %xmm4
	por	%xmm0, %xmm4
	paddd	-16(%rsp), %xmm9
	paddd	%xmm5, %xmm9
	pxor	%xmm9, %xmm14
	pshufb	%xmm1, %xmm14
	paddd	%xmm14, %xmm13
	pxor	%xmm13, %xmm5
	movdqa	%xmm5, %xmm0
	psrld	$12, %xmm0
	pslld	$20, %xmm5
	por	%xmm0, %xmm5
	paddd	16(%rsp), %xmm6
	paddd	%xmm2, %xmm6
	movdqa	%xmm6, %xmm0
	movdqa	D(CPI7_6)(%rip), %xmm1
	pshufb	%xmm1, %xmm0
	pshufb	%xmm1, %xmm10
	pxor	%xmm0, %xmm10
	paddd	-96(%rsp), %xmm7
	paddd	%xmm3, %xmm7
	movdqa	%xmm7, %xmm0
	pshufb	%xmm1, %xmm0
	pshufb	%xmm1, %xmm11
	pxor	%xmm0, %xmm11
	paddd	32(%rsp), %xmm8
	paddd	%xmm4, %xmm8
	movdqa	%xmm8, %xmm0
	pshufb	%xmm1, %xmm0
	pshufb	%xmm1, %xmm12
	pxor	%xmm0, %xmm12
	paddd	48(%rsp), %xmm9
	paddd	%xmm5, %xmm9
	movdqa	%xmm9, %xmm0
	pshufb	%xmm1, %xmm0
	pshufb	%xmm1, %xmm14
	pxor	%xmm0, %xmm14
	movdqa	-112(%rsp), %xmm0
	paddd	%xmm10, %xmm0
	movdqa	%xmm0, -112(%rsp)
	pxor	%xmm0, %xmm2
	movdqa	%xmm2, %xmm0
	psrld	$7, %xmm0
	pslld	$25, %xmm2
	por	%xmm0, %xmm2
	paddd	%xmm11, %xmm15
	pxor	%xmm15, %xmm3
	movdqa	%xmm3, %xmm0
	psrld	$7, %xmm0
	pslld	$25, %xmm3
	por	%xmm0, %xmm3
	movdqa	-128(%rsp), %xmm0
	paddd	%xmm12, %xmm0
	movdqa	%xmm0, -128(%rsp)
	pxor	%xmm0, %xmm4
	movdqa	%xmm4, %xmm0
	psrld	$7, %xmm0
	pslld	$25, %xmm4
	por	%xmm0, %xmm4
	paddd	%xmm14, %xmm13
	pxor	%xmm13, %xmm5
	movdqa	%xmm5, %xmm0
	psrld	$7, %xmm0
	pslld	$25, %xmm5
	por	%xmm0, %xmm5
	paddd	-64(%rsp), %xmm7
	paddd	%xmm2, %xmm7
	pxor	%xmm7, %xmm12
	movdqa	D(CPI7_0)(%rip), %xmm1
	pshufb	%xmm1, %xmm12
	paddd	%xmm12, %xmm13
	pxor	%xmm13, %xmm2
	movdqa	%xmm2, %xmm0
	psrld	$12, %xmm0
	pslld	$20, %xmm2
	por	%xmm0, %xmm2
	paddd	96(%rsp), %xmm8
	paddd	%xmm3, %xmm8
	pxor	%xmm8, %xmm14
	pshufb	%xmm1, %xmm14
	movdqa	-112(%rsp), %xmm0
	paddd	%xmm14, %xmm0
	movdqa	%xmm0, -112(%rsp)
	pxor	%xmm0, %xmm3
	movdqa	%xmm3, %xmm0
	psrld	$12, %xmm0
	pslld	$20, %xmm3
	por	%xmm0, %xmm3
	paddd	64(%rsp), %xmm9
	paddd	%xmm4, %xmm9
	pxor	%xmm9, %xmm10
	pshufb	%xmm1, %xmm10
	paddd	%xmm10, %xmm15
	pxor	%xmm15, %xmm4
	movdqa	%xmm4, %xmm0
	psrld	$12, %xmm0
	pslld	$20, %xmm4
	por	%xmm0, %xmm4
	paddd	-80(%rsp), %xmm6
	paddd	%xmm5, %xmm6
	pxor	%xmm6, %xmm11
	pshufb	%xmm1, %xmm11
	movdqa	-128(%rsp), %xmm0
	paddd	%xmm11, %xmm0
	movdqa	%xmm0, -128(%rsp)
	pxor	%xmm0, %xmm5
	movdqa	%xmm5, %xmm0
	psrld	$12, %xmm0
	pslld	$20, %xmm5
	por	%xmm0, %xmm5
	paddd	144(%rsp), %xmm7
	paddd	%xmm2, %xmm7
	movdqa	%xmm7, %xmm0
	movdqa	D(CPI7_6)(%rip), %xmm1
	pshufb	%xmm1, %xmm0
	pshufb	%xmm1, %xmm12
	pxor	%xmm0, %xmm12
	paddd	80(%rsp), %xmm8
	paddd	%xmm3, %xmm8
	movdqa	%xmm8, %xmm0
	pshufb	%xmm1, %xmm0
	pshufb	%xmm1, %xmm14
	pxor	%xmm0, %xmm14
	paddd	(%rsp), %xmm9
	paddd	%xmm4, %xmm9
	movdqa	%xmm9, %xmm0
	pshufb	%xmm1, %xmm0
	pshufb	%xmm1, %xmm10
	pxor	%xmm0, %xmm10
	paddd	48(%rsp), %xmm6
	paddd	%xmm5, %xmm6
	movdqa	%xmm6, %xmm0
	pshufb	%xmm1, %xmm0
	pshufb	%xmm1, %xmm11
	pxor	%xmm0, %xmm11
	paddd	%xmm12, %xmm13
	pxor	%xmm13, %xmm2
	movdqa	%xmm2, %xmm0
	psrld	$7, %xmm0
	pslld	$25, %xmm2
	por	%xmm0, %xmm2
	movdqa	-112(%rsp), %xmm0
	paddd	%xmm14, %xmm0
	movdqa	%xmm0, -112(%rsp)
	pxor	%xmm0, %xmm3
	movdqa	%xmm3, %xmm0
	psrld	$7, %xmm0
	pslld	$25, %xmm3
	por	%xmm0, %xmm3
	paddd	%xmm10, %xmm15
	pxor	%xmm15, %xmm4
	movdqa	%xmm4, %xmm0
	psrld	$7, %xmm0
	pslld	$25, %xmm4
	por	%xmm0, %xmm4
	movdqa	-128(%rsp), %xmm0
	paddd	%xmm11, %xmm0
	movdqa	%xmm0, -128(%rsp)
	pxor	%xmm0, %xmm5
	movdqa	%xmm5, %xmm0
	psrld	$7, %xmm0
	pslld	$25, %xmm5
	por	%xmm0, %xmm5
	paddd	16(%rsp), %xmm6
	paddd	%xmm2, %xmm6
	pxor	%xmm6, %xmm10
	movdqa	D(CPI7_0)(%rip), %xmm1
	pshufb	%xmm1, %xmm10
	movdqa	-112(%rsp), %xmm0
	paddd	%xmm10, %xmm0
	movdqa	%xmm0, -112(%rsp)
	pxor	%xmm0, %xmm2
	movdqa	%xmm2, %xmm0
	psrld	$12, %xmm0
	pslld	$20, %xmm2
	por	%xmm0, %xmm2
	paddd	128(%rsp), %xmm7
	paddd	%xmm3, %xmm7
	pxor	%xmm7, %xmm11
	pshufb	%xmm1, %xmm11
	paddd	%xmm11, %xmm15
	pxor	%xmm15, %xmm3
	movdqa	%xmm3, %xmm0
	psrld	$12, %xmm0
	pslld	$20, %xmm3
	por	%xmm0, %xmm3
	paddd	-16(%rsp), %xmm8
	paddd	%xmm4, %xmm8
	pxor	%xmm8, %xmm12
	pshufb	%xmm1, %xmm12
	movdqa	-128(%rsp), %xmm0
	paddd	%xmm12, %xmm0
	movdqa	%xmm0, -128(%rsp)
	pxor	%xmm0, %xmm4
	movdqa	%xmm4, %xmm0
	psrld	$12, %xmm0
	pslld	$20, %xmm4
	por	%xmm0, %xmm4
	paddd	-96(%rsp), %xmm9
	paddd	%xmm5, %xmm9
	pxor	%xmm9, %xmm14
	pshufb	%xmm1, %xmm14
	paddd	%xmm14, %xmm13
	pxor	%xmm13, %xmm5
	movdqa	%xmm5, %xmm0
	psrld	$12, %xmm0
	pslld	$20, %xmm5
	por	%xmm0, %xmm5
	paddd	-32(%rsp), %xmm6
	paddd	%xmm2, %xmm6
	movdqa	%xmm6, %xmm0
	movdqa	D(CPI7_6)(%rip), %xmm1
	pshufb	%xmm1, %xmm0
	pshufb	%xmm1, %xmm10
	pxor	%xmm0, %xmm10
	paddd	32(%rsp), %xmm7
	paddd	%xmm3, %xmm7
	movdqa	%xmm7, %xmm0
	pshufb	%xmm1, %xmm0
	pshufb	%xmm1, %xmm11
	pxor	%xmm0, %xmm11
	paddd	112(%rsp), %xmm8
	paddd	%xmm4, %xmm8
	movdqa	%xmm8, %xmm0
	pshufb	%xmm1, %xmm0
	pshufb	%xmm1, %xmm12
	pxor	%xmm0, %xmm12
	paddd	-48(%rsp), %xmm9
	paddd	%xmm5, %xmm9
	movdqa	%xmm9, %xmm0
	pshufb	%xmm1, %xmm0
	pshufb	%xmm1, %xmm14
	pxor	%xmm0, %xmm14
	movdqa	-112(%rsp), %xmm0
	paddd	%xmm10, %xmm0
	movdqa	%xmm0, -112(%rsp)
	pxor	%xmm0, %xmm2
	movdqa	%xmm2, %xmm0
	psrld	$7, %xmm0
	pslld	$25, %xmm2
	por	%xmm0, %xmm2
	paddd	%xmm11, %xmm15
	pxor	%xmm15, %xmm3
	movdqa	%xmm3, %xmm0
	psrld	$7, %xmm0
	pslld	$25, %xmm3
	por	%xmm0, %xmm3
	movdqa	-128(%rsp), %xmm0
	paddd	%xmm12, %xmm0
	movdqa	%xmm0, -128(%rsp)
	pxor	%xmm0, %xmm4
	movdqa	%xmm4, %xmm0
	psrld	$7, %xmm0
	pslld	$25, %xmm4
	por	%xmm0, %xmm4
	paddd	%xmm14, %xmm13
	pxor	%xmm13, %xmm5
	movdqa	%xmm5, %xmm0
	psrld	$7, %xmm0
	pslld	$25, %xmm5
	por	%xmm0, %xmm5
	paddd	96(%rsp), %xmm7
	paddd	%xmm2, %xmm7
	pxor	%xmm7, %xmm12
	movdqa	D(CPI7_0)(%rip), %xmm1
	pshufb	%xmm1, %xmm12
	paddd	%xmm12, %xmm13
	pxor	%xmm13, %xmm2
	movdqa	%xmm2, %xmm0
	psrld	$12, %xmm0
	pslld	$20, %xmm2
	por	%xmm0, %xmm2
	paddd	80(%rsp), %xmm8
	paddd	%xmm3, %xmm8
	pxor	%xmm8, %xmm14
	pshufb	%xmm1, %xmm14
	movdqa	-112(%rsp), %xmm0
	paddd	%xmm14, %xmm0
	movdqa	%xmm0, -112(%rsp)
	pxor	%xmm0, %xmm3
	movdqa	%xmm3, %xmm0
	psrld	$12, %xmm0
	pslld	$20, %xmm3
	por	%xmm0, %xmm3
	paddd	48(%rsp), %xmm9
	paddd	%xmm4, %xmm9
	pxor	%xmm9, %xmm10
	pshufb	%xmm1, %xmm10
	paddd	%xmm10, %xmm15
	pxor	%xmm15, %xmm4
	movdqa	%xmm4, %xmm0
	psrld	$12, %xmm0
	pslld	$20, %xmm4
	por	%xmm0, %xmm4
	paddd	64(%rsp), %xmm6
	paddd	%xmm5, %xmm6
	pxor	%xmm6, %xmm11
	pshufb	%xmm1, %xmm11
	movdqa	-128(%rsp), %xmm0
	paddd	%xmm11, %xmm0
	movdqa	%xmm0, -128(%rsp)
	pxor	%xmm0, %xmm5
	movdqa	%xmm5, %xmm0
	psrld	$12, %xmm0
	pslld	$20, %xmm5
	por	%xmm0, %xmm5
	paddd	-80(%rsp), %xmm7
	paddd	%xmm2, %xmm7
	movdqa	%xmm7, %xmm0
	movdqa	D(CPI7_6)(%rip), %xmm1
	pshufb	%xmm1, %xmm0
	pshufb	%xmm1, %xmm12
	pxor	%xmm0, %xmm12
	paddd	-16(%rsp), %xmm8
	paddd	%xmm3, %xmm8
	movdqa	%xmm8, %xmm0
	pshufb	%xmm1, %xmm0
	pshufb	%xmm1, %xmm14
	pxor	%xmm0, %xmm14
	paddd	-64(%rsp), %xmm9
	paddd	%xmm4, %xmm9
	movdqa	%xmm9, %xmm0
	pshufb	%xmm1, %xmm0
	pshufb	%xmm1, %xmm10
	pxor	%xmm0, %xmm10
	paddd	-48(%rsp), %xmm6
	paddd	%xmm5, %xmm6
	movdqa	%xmm6, %xmm0
	pshufb	%xmm1, %xmm0
	pshufb	%xmm1, %xmm11
	pxor	%xmm0, %xmm11
	paddd	%xmm12, %xmm13
	pxor	%xmm13, %xmm2
	movdqa	%xmm2, %xmm0
	psrld	$7, %xmm0
	pslld	$25, %xmm2
	por	%xmm0, %xmm2
	movdqa	-112(%rsp), %xmm0
	paddd	%xmm14, %xmm0
	movdqa	%xmm0, -112(%rsp)
	pxor	%xmm0, %xmm3
	movdqa	%xmm3, %xmm0
	psrld	$7, %xmm0
	pslld	$25, %xmm3
	por	%xmm0, %xmm3
	paddd	%xmm10, %xmm15
	pxor	%xmm15, %xmm4
	movdqa	%xmm4, %xmm0
	psrld	$7, %xmm0
	pslld	$25, %xmm4
	por	%xmm0, %xmm4
	movdqa	-128(%rsp), %xmm0
	paddd	%xmm11, %xmm0
	movdqa	%xmm0, -128(%rsp)
	pxor	%xmm0, %xmm5
	movdqa	%xmm5, %xmm0
	psrld	$7, %xmm0
	pslld	$25, %xmm5
	por	%xmm0, %xmm5
	paddd	-32(%rsp), %xmm6
	paddd	%xmm2, %xmm6
	pxor	%xmm6, %xmm10
	movdqa	D(CPI7_0)(%rip), %xmm1
	pshufb	%xmm1, %xmm10
	movdqa	-112(%rsp), %xmm0
	paddd	%xmm10, %xmm0
	movdqa	%xmm0, -112(%rsp)
	pxor	%xmm0, %xmm2
	movdqa	%xmm2, %xmm0
	psrld	$12, %xmm0
	pslld	$20, %xmm2
	por	%xmm0, %xmm2
	paddd	144(%rsp), %xmm7
	paddd	%xmm3, %xmm7
	pxor	%xmm7, %xmm11
	pshufb	%xmm1, %xmm11
	paddd	%xmm11, %xmm15
	pxor	%xmm15, %xmm3
	movdqa	%xmm3, %xmm0
	psrld	$12, %xmm0
	pslld	$20, %xmm3
	por	%xmm0, %xmm3
	paddd	-96(%rsp), %xmm8
	paddd	%xmm4, %xmm8
	pxor	%xmm8, %xmm12
	pshufb	%xmm1, %xmm12
	movdqa	-128(%rsp), %xmm0
	paddd	%xmm12, %xmm0
	movdqa	%xmm0, -128(%rsp)
	pxor	%xmm0, %xmm4
	movdqa	%xmm4, %xmm0
	psrld	$12, %xmm0
	pslld	$20, %xmm4
	por	%xmm0, %xmm4
	paddd	32(%rsp), %xmm9
	paddd	%xmm5, %xmm9
	pxor	%xmm9, %xmm14
	pshufb	%xmm1, %xmm14
	paddd	%xmm14, %xmm13
	pxor	%xmm13, %xmm5
	movdqa	%xmm5, %xmm0
	psrld	$12, %xmm0
	pslld	$20, %xmm5
	por	%xmm0, %xmm5
	paddd	128(%rsp), %xmm6
	paddd	%xmm2, %xmm6
	movdqa	%xmm6, %xmm0
	movdqa	D(CPI7_6)(%rip), %xmm1
	pshufb	%xmm1, %xmm0
	pshufb	%xmm1, %xmm10
	pxor	%xmm0, %xmm10
	paddd	112(%rsp), %xmm7
	paddd	%xmm3, %xmm7
	movdqa	%xmm7, %xmm0
	pshufb	%xmm1, %xmm0
	pshufb	%xmm1, %xmm11
	pxor	%xmm0, %xmm11
	paddd	(%rsp), %xmm8
	paddd	%xmm4, %xmm8
	movdqa	%xmm8, %xmm0
	pshufb	%xmm1, %xmm0
	pshufb	%xmm1, %xmm12
	pxor	%xmm0, %xmm12
	paddd	16(%rsp), %xmm9
	paddd	%xmm5, %xmm9
	movdqa	%xmm9, %xmm0
	pshufb	%xmm1, %xmm0
	pshufb	%xmm1, %xmm14
	pxor	%xmm0, %xmm14
	movdqa	-112(%rsp), %xmm0
	paddd	%xmm10, %xmm0
	movdqa	%xmm0, -112(%rsp)
	pxor	%xmm0, %xmm2
	movdqa	%xmm2, %xmm0
	psrld	$7, %xmm0
	pslld	$25, %xmm2
	por	%xmm0, %xmm2
	paddd	%xmm11, %xmm15
	pxor	%xmm15, %xmm3
	movdqa	%xmm3, %xmm0
	psrld	$7, %xmm0
	pslld	$25, %xmm3
	por	%xmm0, %xmm3
	movdqa	-128(%rsp), %xmm0
	paddd	%xmm12, %xmm0
	movdqa	%xmm0, -128(%rsp)
	pxor	%xmm0, %xmm4
	movdqa	%xmm4, %xmm0
	psrld	$7, %xmm0
	pslld	$25, %xmm4
	por	%xmm0, %xmm4
	paddd	%xmm14, %xmm13
	pxor	%xmm13, %xmm5
	movdqa	%xmm5, %xmm0
	psrld	$7, %xmm0
	pslld	$25, %xmm5
	por	%xmm0, %xmm5
	paddd	80(%rsp), %xmm7
	paddd	%xmm2, %xmm7
	pxor	%xmm7, %xmm12
	movdqa	D(CPI7_0)(%rip), %xmm1
	pshufb	%xmm1, %xmm12
	paddd	%xmm12, %xmm13
	pxor	%xmm13, %xmm2
	movdqa	%xmm2, %xmm0
	psrld	$12, %xmm0
	pslld	$20, %xmm2
	por	%xmm0, %xmm2
	paddd	-16(%rsp), %xmm8
	paddd	%xmm3, %xmm8
	pxor	%xmm8, %xmm14
	pshufb	%xmm1, %xmm14
	movdqa	-112(%rsp), %xmm0
	paddd	%xmm14, %xmm0
	movdqa	%xmm0, -112(%rsp)
	pxor	%xmm0, %xmm3
	movdqa	%xmm3, %xmm0
	psrld	$12, %xmm0
	pslld	$20, %xmm3
	por	%xmm0, %xmm3
	paddd	-48(%rsp), %xmm9
	paddd	%xmm4, %xmm9
	pxor	%xmm9, %xmm10
	pshufb	%xmm1, %xmm10
	paddd	%xmm10, %xmm15
	pxor	%xmm15, %xmm4
	movdqa	%xmm4, %xmm0
	psrld	$12, %xmm0
	pslld	$20, %xmm4
	por	%xmm0, %xmm4
	paddd	48(%rsp), %xmm6
	paddd	%xmm5, %xmm6
	pxor	%xmm6, %xmm11
	pshufb	%xmm1, %xmm11
	movdqa	-128(%rsp), %xmm0
	paddd	%xmm11, %xmm0
	movdqa	%xmm0, -128(%rsp)
	pxor	%xmm0, %xmm5
	movdqa	%xmm5, %xmm0
	psrld	$12, %xmm0
	pslld	$20, %xmm5
	por	%xmm0, %xmm5
	paddd	64(%rsp), %xmm7
	paddd	%xmm2, %xmm7
	movdqa	%xmm7, %xmm0
	movdqa	D(CPI7_6)(%rip), %xmm1
	pshufb	%xmm1, %xmm0
	pshufb	%xmm1, %xmm12
	pxor	%xmm0, %xmm12
	paddd	-96(%rsp), %xmm8
	paddd	%xmm3, %xmm8
	movdqa	%xmm8, %xmm0
	pshufb	%xmm1, %xmm0
	pshufb	%xmm1, %xmm14
	pxor	%xmm0, %xmm14
	paddd	96(%rsp), %xmm9
	paddd	%xmm4, %xmm9
	movdqa	%xmm9, %xmm0
	pshufb	%xmm1, %xmm0
	pshufb	%xmm1, %xmm10
	pxor	%xmm0, %xmm10
	paddd	16(%rsp), %xmm6
	paddd	%xmm5, %xmm6
	movdqa	%xmm6, %xmm0
	pshufb	%xmm1, %xmm0
	pshufb	%xmm1, %xmm11
	pxor	%xmm0, %xmm11
	paddd	%xmm12, %xmm13
	pxor	%xmm13, %xmm2
	movdqa	%xmm2, %xmm0
	psrld	$7, %xmm0
	pslld	$25, %xmm2
	por	%xmm0, %xmm2
	movdqa	-112(%rsp), %xmm0
	paddd	%xmm14, %xmm0
	movdqa	%xmm0, -112(%rsp)
	pxor	%xmm0, %xmm3
	movdqa	%xmm3, %xmm0
	psrld	$7, %xmm0
	pslld	$25, %xmm3
	por	%xmm0, %xmm3
	paddd	%xmm10, %xmm15
	pxor	%xmm15, %xmm4
	movdqa	%xmm4, %xmm0
	psrld	$7, %xmm0
	pslld	$25, %xmm4
	por	%xmm0, %xmm4
	movdqa	-128(%rsp), %xmm0
	paddd	%xmm11, %xmm0
	movdqa	%xmm0, -128(%rsp)
	pxor	%xmm0, %xmm5
	movdqa	%xmm5, %xmm0
	psrld	$7, %xmm0
	pslld	$25, %xmm5
	por	%xmm0, %xmm5
	paddd	128(%rsp), %xmm6
	paddd	%xmm2, %xmm6
	pxor	%xmm6, %xmm10
	movdqa	D(CPI7_0)(%rip), %xmm1
	pshufb	%xmm1, %xmm10
	movdqa	-112(%rsp), %xmm0
	paddd	%xmm10, %xmm0
	movdqa	%xmm0, -112(%rsp)
	pxor	%xmm0, %xmm2
	movdqa	%xmm2, %xmm0
	psrld	$12, %xmm0
	pslld	$20, %xmm2
	por	%xmm0, %xmm2
	paddd	-80(%rsp), %xmm7
	paddd	%xmm3, %xmm7
	pxor	%xmm7, %xmm11
	pshufb	%xmm1, %xmm11
	paddd	%xmm11, %xmm15
	pxor	%xmm15, %xmm3
	movdqa	%xmm3, %xmm0
	psrld	$12, %xmm0
	pslld	$20, %xmm3
	por	%xmm0, %xmm3
	paddd	32(%rsp), %xmm8
	paddd	%xmm4, %xmm8
	pxor	%xmm8, %xmm12
	pshufb	%xmm1, %xmm12
	movdqa	-128(%rsp), %xmm0
	paddd	%xmm12, %xmm0
	movdqa	%xmm0, -128(%rsp)
	pxor	%xmm0, %xmm4
	movdqa	%xmm4, %xmm0
	psrld	$12, %xmm0
	pslld	$20, %xmm4
	por	%xmm0, %xmm4
	paddd	112(%rsp), %xmm9
	paddd	%xmm5, %xmm9
	pxor	%xmm9, %xmm14
	pshufb	%xmm1, %xmm14
	paddd	%xmm14, %xmm13
	pxor	%xmm13, %xmm5
	movdqa	%xmm5, %xmm0
	psrld	$12, %xmm0
	pslld	$20, %xmm5
	por	%xmm0, %xmm5
	paddd	144(%rsp), %xmm6
	paddd	%xmm2, %xmm6
	movdqa	%xmm6, %xmm0
	movdqa	D(CPI7_6)(%rip), %xmm1
	pshufb	%xmm1, %xmm0
	pshufb	%xmm1, %xmm10
	pxor	%xmm0, %xmm10
	paddd	(%rsp), %xmm7
	paddd	%xmm3, %xmm7
	movdqa	%xmm7, %xmm0
	pshufb	%xmm1, %xmm0
	pshufb	%xmm1, %xmm11
	pxor	%xmm0, %xmm11
	paddd	-64(%rsp), %xmm8
	paddd	%xmm4, %xmm8
	movdqa	%xmm8, %xmm0
	pshufb	%xmm1, %xmm0
	pshufb	%xmm1, %xmm12
	pxor	%xmm0, %xmm12
	paddd	-32(%rsp), %xmm9
	paddd	%xmm5, %xmm9
	movdqa	%xmm9, %xmm0
	pshufb	%xmm1, %xmm0
	pshufb	%xmm1, %xmm14
	pxor	%xmm0, %xmm14
	movdqa	-112(%rsp), %xmm0
	paddd	%xmm10, %xmm0
	movdqa	%xmm0, -112(%rsp)
	pxor	%xmm0, %xmm2
	movdqa	%xmm2, %xmm0
	psrld	$7, %xmm0
	pslld	$25, %xmm2
	por	%xmm0, %xmm2
	paddd	%xmm11, %xmm15
	pxor	%xmm15, %xmm3
	movdqa	%xmm3, %xmm0
	psrld	$7, %xmm0
	pslld	$25, %xmm3
	por	%xmm0, %xmm3
	movdqa	-128(%rsp), %xmm0
	paddd	%xmm12, %xmm0
	movdqa	%xmm0, -128(%rsp)
	pxor	%xmm0, %xmm4
	movdqa	%xmm4, %xmm0
	psrld	$7, %xmm0
	pslld	$25, %xmm4
	por	%xmm0, %xmm4
	paddd	%xmm14, %xmm13
	pxor	%xmm13, %xmm5
	movdqa	%xmm5, %xmm0
	psrld	$7, %xmm0
	pslld	$25, %xmm5
	por	%xmm0, %xmm5
	paddd	-16(%rsp), %xmm7
	paddd	%xmm2, %xmm7
	pxor	%xmm7, %xmm12
	movdqa	D(CPI7_0)(%rip), %xmm1
	pshufb	%xmm1, %xmm12
	paddd	%xmm12, %xmm13
	pxor	%xmm13, %xmm2
	movdqa	%xmm2, %xmm0
	psrld	$12, %xmm0
	pslld	$20, %xmm2
	por	%xmm0, %xmm2
	paddd	-96(%rsp), %xmm8
	paddd	%xmm3, %xmm8
	pxor	%xmm8, %xmm14
	pshufb	%xmm1, %xmm14
	movdqa	-112(%rsp), %xmm0
	paddd	%xmm14, %xmm0
	movdqa	%xmm0, -112(%rsp)
	pxor	%xmm0, %xmm3
	movdqa	%xmm3, %xmm0
	psrld	$12, %xmm0
	pslld	$20, %xmm3
	por	%xmm0, %xmm3
	paddd	16(%rsp), %xmm9
	paddd	%xmm4, %xmm9
	pxor	%xmm9, %xmm10
	pshufb	%xmm1, %xmm10
	paddd	%xmm10, %xmm15
	pxor	%xmm15, %xmm4
	movdqa	%xmm4, %xmm0
	psrld	$12, %xmm0
	pslld	$20, %xmm4
	por	%xmm0, %xmm4
	paddd	-48(%rsp), %xmm6
	paddd	%xmm5, %xmm6
	pxor	%xmm6, %xmm11
	pshufb	%xmm1, %xmm11
	movdqa	-128(%rsp), %xmm0
	paddd	%xmm11, %xmm0
	movdqa	%xmm0, -128(%rsp)
	pxor	%xmm0, %xmm5
	movdqa	%xmm5, %xmm0
	psrld	$12, %xmm0
	pslld	$20, %xmm5
	por	%xmm0, %xmm5
	paddd	48(%rsp), %xmm7
	paddd	%xmm2, %xmm7
	movdqa	%xmm7, %xmm0
	movdqa	D(CPI7_6)(%rip), %xmm1
	pshufb	%xmm1, %xmm0
	pshufb	%xmm1, %xmm12
	pxor	%xmm0, %xmm12
	paddd	32(%rsp), %xmm8
	paddd	%xmm3, %xmm8
	movdqa	%xmm8, %xmm0
	pshufb	%xmm1, %xmm0
	pshufb	%xmm1, %xmm14
	pxor	%xmm0, %xmm14
	paddd	80(%rsp), %xmm9
	paddd	%xmm4, %xmm9
	movdqa	%xmm9, %xmm0
	pshufb	%xmm1, %xmm0
	pshufb	%xmm1, %xmm10
	pxor	%xmm0, %xmm10
	paddd	-32(%rsp), %xmm6
	paddd	%xmm5, %xmm6
	movdqa	%xmm6, %xmm0
	pshufb	%xmm1, %xmm0
	pshufb	%xmm1, %xmm11
	pxor	%xmm0, %xmm11
	paddd	%xmm12, %xmm13
	pxor	%xmm13, %xmm2
	movdqa	%xmm2, %xmm0
	psrld	$7, %xmm0
	pslld	$25, %xmm2
	por	%xmm0, %xmm2
	movdqa	-112(%rsp), %xmm0
	paddd	%xmm14, %xmm0
	movdqa	%xmm0, -112(%rsp)
	pxor	%xmm0, %xmm3
	movdqa	%xmm3, %xmm0
	psrld	$7, %xmm0
	pslld	$25, %xmm3
	por	%xmm0, %xmm3
	paddd	%xmm10, %xmm15
	pxor	%xmm15, %xmm4
	movdqa	%xmm4, %xmm0
	psrld	$7, %xmm0
	pslld	$25, %xmm4
	por	%xmm0, %xmm4
	movdqa	-128(%rsp), %xmm0
	paddd	%xmm11, %xmm0
	movdqa	%xmm0, -128(%rsp)
	pxor	%xmm0, %xmm5
	movdqa	%xmm5, %xmm0
	psrld	$7, %xmm0
	pslld	$25, %xmm5
	por	%xmm0, %xmm5
	paddd	64(%rsp), %xmm7
	paddd	%xmm3, %xmm7
	pxor	%xmm7, %xmm11
	movdqa	D(CPI7_0)(%rip), %xmm1
	pshufb	%xmm1, %xmm11
	paddd	%xmm11, %xmm15
	pxor	%xmm15, %xmm3
	movdqa	%xmm3, %xmm0
	psrld	$12, %xmm0
	pslld	$20, %xmm3
	por	%xmm0, %xmm3
	paddd	(%rsp), %xmm9
	paddd	%xmm5, %xmm9
	pxor	%xmm9, %xmm14
	pshufb	%xmm1, %xmm14
	paddd	%xmm14, %xmm13
	pxor	%xmm13, %xmm5
	movdqa	%xmm5, %xmm0
	psrld	$12, %xmm0
	pslld	$20, %xmm5
	por	%xmm0, %xmm5
	paddd	144(%rsp), %xmm6
	paddd	%xmm2, %xmm6
	pxor	%xmm6, %xmm10
	pshufb	%xmm1, %xmm10
	movdqa	-112(%rsp), %xmm0
	paddd	%xmm10, %xmm0
	movdqa	%xmm0, -112(%rsp)
	pxor	%xmm0, %xmm2
	movdqa	%xmm2, %xmm0
	psrld	$12, %xmm0
	pslld	$20, %xmm2
	por	%xmm0, %xmm2
	paddd	-64(%rsp), %xmm7
	paddd	%xmm3, %xmm7
	movdqa	%xmm7, %xmm0
	movdqa	D(CPI7_6)(%rip), %xmm1
	pshufb	%xmm1, %xmm0
	pshufb	%xmm1, %xmm11
	pxor	%xmm0, %xmm11
	paddd	112(%rsp), %xmm8
	paddd	%xmm4, %xmm8
	pxor	%xmm8, %xmm12
	pshufb	D(CPI7_0)(%rip), %xmm12
	movdqa	-128(%rsp), %xmm0
	paddd	%xmm12, %xmm0
	movdqa	%xmm0, -128(%rsp)
	pxor	%xmm0, %xmm4
	movdqa	%xmm4, %xmm0
	psrld	$12, %xmm0
	pslld	$20, %xmm4
	por	%xmm0, %xmm4
	paddd	128(%rsp), %xmm9
	paddd	%xmm5, %xmm9
	movdqa	%xmm9, %xmm0
	pshufb	%xmm1, %xmm0
	pshufb	%xmm1, %xmm14
	pxor	%xmm0, %xmm14
	paddd	-80(%rsp), %xmm6
	paddd	%xmm2, %xmm6
	movdqa	%xmm6, %xmm0
	pshufb	%xmm1, %xmm0
	pshufb	%xmm1, %xmm10
	pxor	%xmm0, %xmm10
	paddd	%xmm11, %xmm15
	pxor	%xmm15, %xmm3
	movdqa	%xmm3, %xmm0
	psrld	$7, %xmm0
	pslld	$25, %xmm3
	por	%xmm0, %xmm3
	paddd	96(%rsp), %xmm8
	paddd	%xmm4, %xmm8
	movdqa	%xmm8, %xmm0
	pshufb	%xmm1, %xmm0
	pshufb	%xmm1, %xmm12
	pxor	%xmm0, %xmm12
	paddd	%xmm14, %xmm13
	movdqa	%xmm13, 160(%rsp)
	pxor	%xmm13, %xmm5
	movdqa	%xmm5, %xmm0
	psrld	$7, %xmm0
	pslld	$25, %xmm5
	por	%xmm0, %xmm5
	movdqa	-112(%rsp), %xmm13
	paddd	%xmm10, %xmm13
	pxor	%xmm13, %xmm2
	movdqa	%xmm13, %xmm1
	movdqa	%xmm2, %xmm0
	psrld	$7, %xmm0
	pslld	$25, %xmm2
	por	%xmm0, %xmm2
	paddd	-96(%rsp), %xmm7
	paddd	32(%rsp), %xmm8
	movdqa	-128(%rsp), %xmm0
	paddd	%xmm12, %xmm0
	movdqa	%xmm0, -128(%rsp)
	pxor	%xmm0, %xmm4
	movdqa	%xmm4, %xmm0
	psrld	$7, %xmm0
	pslld	$25, %xmm4
	por	%xmm0, %xmm4
	paddd	-32(%rsp), %xmm9
	paddd	16(%rsp), %xmm6
	paddd	%xmm3, %xmm8
	pxor	%xmm8, %xmm14
	movdqa	D(CPI7_0)(%rip), %xmm13
	pshufb	%xmm13, %xmm14
	paddd	%xmm14, %xmm1
	movdqa	%xmm1, -112(%rsp)
	pxor	%xmm1, %xmm3
	movdqa	%xmm3, %xmm0
	psrld	$12, %xmm0
	pslld	$20, %xmm3
	por	%xmm0, %xmm3
	paddd	%xmm2, %xmm7
	pxor	%xmm7, %xmm12
	pshufb	%xmm13, %xmm12
	movdqa	160(%rsp), %xmm0
	paddd	%xmm12, %xmm0
	movdqa	%xmm0, 160(%rsp)
	pxor	%xmm0, %xmm2
	movdqa	%xmm2, %xmm0
	psrld	$12, %xmm0
	pslld	$20, %xmm2
	por	%xmm0, %xmm2
	paddd	%xmm5, %xmm6
	pxor	%xmm6, %xmm11
	pshufb	%xmm13, %xmm11
	movdqa	-128(%rsp), %xmm0
	paddd	%xmm11, %xmm0
	movdqa	%xmm0, -128(%rsp)
	pxor	%xmm0, %xmm5
	movdqa	%xmm5, %xmm0
	pslld	$20, %xmm5
	psrld	$12, %xmm0
	por	%xmm0, %xmm5
	paddd	-48(%rsp), %xmm7
	paddd	112(%rsp), %xmm8
	paddd	%xmm4, %xmm9
	pxor	%xmm9, %xmm10
	pshufb	%xmm13, %xmm10
	paddd	%xmm10, %xmm15
	pxor	%xmm15, %xmm4
	movdqa	%xmm4, %xmm0
	psrld	$12, %xmm0
	pslld	$20, %xmm4
	por	%xmm0, %xmm4
	paddd	-16(%rsp), %xmm9
	paddd	128(%rsp), %xmm6
	paddd	%xmm3, %xmm8
	movdqa	%xmm8, %xmm0
	movdqa	D(CPI7_6)(%rip), %xmm1
	pshufb	%xmm1, %xmm0
	pshufb	%xmm1, %xmm14
	pxor	%xmm0, %xmm14
	paddd	%xmm2, %xmm7
	movdqa	%xmm7, %xmm0
	pshufb	%xmm1, %xmm0
	pshufb	%xmm1, %xmm12
	pxor	%xmm0, %xmm12
	paddd	%xmm5, %xmm6
	pshufb	%xmm1, %xmm11
	movdqa	%xmm6, %xmm0
	pshufb	%xmm1, %xmm0
	pxor	%xmm0, %xmm11
	movdqa	-112(%rsp), %xmm0
	paddd	%xmm14, %xmm0
	movdqa	%xmm0, -112(%rsp)
	pxor	%xmm0, %xmm3
	movdqa	%xmm3, %xmm0
	psrld	$7, %xmm0
	pslld	$25, %xmm3
	por	%xmm0, %xmm3
	paddd	%xmm4, %xmm9
	movdqa	%xmm9, %xmm0
	pshufb	%xmm1, %xmm0
	pshufb	%xmm1, %xmm10
	pxor	%xmm0, %xmm10
	movdqa	-128(%rsp), %xmm0
	paddd	%xmm11, %xmm0
	movdqa	%xmm0, -128(%rsp)
	pxor	%xmm0, %xmm5
	movdqa	%xmm5, %xmm0
	psrld	$7, %xmm0
	pslld	$25, %xmm5
	por	%xmm0, %xmm5
	movdqa	160(%rsp), %xmm13
	paddd	%xmm12, %xmm13
	pxor	%xmm13, %xmm2
	movdqa	%xmm2, %xmm0
	psrld	$7, %xmm0
	pslld	$25, %xmm2
	por	%xmm0, %xmm2
	paddd	-80(%rsp), %xmm6
	paddd	48(%rsp), %xmm7
	paddd	%xmm10, %xmm15
	pxor	%xmm15, %xmm4
	movdqa	%xmm4, %xmm0
	psrld	$7, %xmm0
	pslld	$25, %xmm4
	por	%xmm0, %xmm4
	paddd	(%rsp), %xmm8
	paddd	-64(%rsp), %xmm9
	paddd	%xmm3, %xmm7
	pxor	%xmm7, %xmm11
	movdqa	D(CPI7_0)(%rip), %xmm1
	pshufb	%xmm1, %xmm11
	paddd	%xmm11, %xmm15
	pxor	%xmm15, %xmm3
	movdqa	%xmm3, %xmm0
	psrld	$12, %xmm0
	pslld	$20, %xmm3
	por	%xmm0, %xmm3
	paddd	%xmm2, %xmm6
	paddd	%xmm5, %xmm9
	pxor	%xmm6, %xmm10
	pshufb	%xmm1, %xmm10
	paddd	%xmm4, %xmm8
	pxor	%xmm8, %xmm12
	pxor	%xmm9, %xmm14
	pshufb	%xmm1, %xmm14
	pshufb	%xmm1, %xmm12
	paddd	%xmm14, %xmm13
	movdqa	%xmm13, 160(%rsp)
	pxor	%xmm13, %xmm5
	movdqa	%xmm5, %xmm0
	psrld	$12, %xmm0
	pslld	$20, %xmm5
	por	%xmm0, %xmm5
	paddd	64(%rsp), %xmm6
	movdqa	-112(%rsp), %xmm0
	paddd	%xmm10, %xmm0
	movdqa	%xmm0, -112(%rsp)
	movdqa	-128(%rsp), %xmm1
	paddd	%xmm12, %xmm1
	movdqa	%xmm1, -128(%rsp)
	pxor	%xmm0, %xmm2
	paddd	96(%rsp), %xmm7
	pxor	%xmm1, %xmm4
	movdqa	%xmm2, %xmm0
	psrld	$12, %xmm0
	pslld	$20, %xmm2
	por	%xmm0, %xmm2
	movdqa	%xmm4, %xmm0
	psrld	$12, %xmm0
	pslld	$20, %xmm4
	por	%xmm0, %xmm4
	paddd	80(%rsp), %xmm8
	movdqa	%xmm7, %xmm0
	paddd	%xmm3, %xmm0
	movdqa	%xmm8, %xmm1
	paddd	144(%rsp), %xmm9
	movdqa	%xmm9, %xmm13
	paddd	%xmm5, %xmm13
	paddd	%xmm4, %xmm1
	movdqa	%xmm13, %xmm7
	movdqa	D(CPI7_6)(%rip), %xmm8
	pshufb	%xmm8, %xmm7
	pshufb	%xmm8, %xmm14
	pxor	%xmm7, %xmm14
	movdqa	160(%rsp), %xmm9
	paddd	%xmm14, %xmm9
	movdqa	%xmm9, %xmm7
	pxor	%xmm0, %xmm7
	pshufb	%xmm8, %xmm0
	pshufb	%xmm8, %xmm11
	pxor	%xmm0, %xmm11
	movdqa	%xmm1, %xmm0
	pshufb	%xmm8, %xmm0
	pshufb	%xmm8, %xmm12
	pxor	%xmm0, %xmm12
	movdqa	%xmm6, %xmm0
	paddd	%xmm2, %xmm0
	movdqa	-128(%rsp), %xmm6
	paddd	%xmm12, %xmm6
	pxor	%xmm6, %xmm4
	pxor	%xmm0, %xmm6
	pshufb	%xmm8, %xmm10
	pshufb	%xmm8, %xmm0
	pxor	%xmm9, %xmm5
	movdqa	%xmm5, %xmm8
	pslld	$25, %xmm5
	psrld	$7, %xmm8
	por	%xmm8, %xmm5
	paddd	%xmm11, %xmm15
	pxor	%xmm15, %xmm3
	pxor	%xmm0, %xmm10
	movdqa	%xmm3, %xmm0
	psrld	$7, %xmm0
	pslld	$25, %xmm3
	por	%xmm0, %xmm3
	movdqa	%xmm4, %xmm0
	psrld	$7, %xmm0
	pslld	$25, %xmm4
	por	%xmm0, %xmm4
	movdqa	-112(%rsp), %xmm8
	paddd	%xmm10, %xmm8
	pxor	%xmm8, %xmm2
	pxor	%xmm1, %xmm8
	movdqa	%xmm2, %xmm0
	psrld	$7, %xmm0
	pslld	$25, %xmm2
	por	%xmm0, %xmm2
	movdqa	%xmm15, %xmm9
	pxor	%xmm13, %xmm9
	pxor	%xmm14, %xmm3
	pxor	%xmm12, %xmm2
	pxor	%xmm10, %xmm4
	pxor	%xmm11, %xmm5
	addq	$64, %r8
	cmpq	$1024, %r8
	jne	L(7_1)
	movdqu	%xmm7, (%rdi)
	movdqu	%xmm8, 16(%rdi)
	movdqu	%xmm9, 32(%rdi)
	movdqu	%xmm6, 48(%rdi)
	movdqu	%xmm2, 64(%rdi)
	movdqu	%xmm3, 80(%rdi)
	movdqu	%xmm4, 96(%rdi)
	movdqu	%xmm5, 112(%rdi)
	addq	$216, %rsp
	.cfi_def_cfa_offset 8
	retq
	SIZE("keyed_blake3::chunks::chunk_values::<#8b36ca032ac25711>")
	.cfi_endproc

SIZED(16, 4)
	.p2align	4, 0x0
D(CPI8_0):
	.long	64
	.long	64
	.long	64
	.long	64
D(CPI8_1):
	.long	20
	.long	20
	.long	20
	.long	20
D(CPI8_2):
	.byte	0
	.byte	0
	.byte	0
	.byte	0
	.byte	0
	.byte	0
	.byte	0
	.byte	0
	.byte	1
	.byte	0
	.byte	0
	.byte	0
	.byte	0
	.byte	0
	.byte	0
	.byte	0
D(CPI8_3):
	.quad	2
	.quad	3
CODE(".text.keyed_blake3::subtrees::neighbour_values::<#8b36ca032ac25711>")
	.p2align	4
	TYPE("keyed_blake3::subtrees::neighbour_values::<#8b36ca032ac25711>", function)
"keyed_blake3::subtrees::neighbour_values::<#8b36ca032ac25711>":
	.cfi_startproc
	pushq	%rbp
	.cfi_def_cfa_offset 16
	pushq	%r15
	.cfi_def_cfa_offset 24
	pushq	%r14
	.cfi_def_cfa_offset 32
	pushq	%r13
	.cfi_def_cfa_offset 40
	pushq	%r12
	.cfi_def_cfa_offset 48
	pushq	%rbx
	.cfi_def_cfa_offset 56
	subq	$840, %rsp
	.cfi_def_cfa_offset 896
	.cfi_offset %rbx, -56
	.cfi_offset %r12, -48
	.cfi_offset %r13, -40
	.cfi_offset %r14, -32
	.cfi_offset %r15, -24
	.cfi_offset %rbp, -16
	movq	%rdi, %rbx
	xorps	%xmm0, %xmm0
	movaps	%xmm0, 112(%rsp)
	movaps	%xmm0, 96(%rsp)
	movaps	%xmm0, 80(%rsp)
	movaps	%xmm0, 64(%rsp)
	movaps	%xmm0, 48(%rsp)
	movaps	%xmm0, 32(%rsp)
	movaps	%xmm0, 16(%rsp)
	movaps	%xmm0, (%rsp)
	cmpq	$1, %r8
	jne	L(8_3)
	movq	%rcx, %xmm0
	pshufd	$68, %xmm0, %xmm0
	movdqa	D(CPI8_2)(%rip), %xmm1
	paddq	%xmm0, %xmm1
	paddq	D(CPI8_3)(%rip), %xmm0
	movdqu	%xmm0, 560(%rsp)
	movdqu	%xmm1, 544(%rsp)
	movq	%rsp, %rdi
	leaq	544(%rsp), %rcx
	movq	%r9, %r8
	callq	"keyed_blake3::chunks::chunk_values::<#8b36ca032ac25711>"
	jmp	L(8_2)
L(8_3):
	shrq	%r8
	leaq	144(%rsp), %rdi
	movq	%rsi, %r14
	movq	%rdx, %r12
	movq	%rcx, %r13
	movq	%r8, %rbp
	movq	%r9, %r15
	callq	"keyed_blake3::subtrees::neighbour_values::<#8b36ca032ac25711>"
	movaps	144(%rsp), %xmm0
	movaps	%xmm0, 128(%rsp)
	movaps	160(%rsp), %xmm0
	movaps	%xmm0, 400(%rsp)
	movaps	176(%rsp), %xmm0
	movaps	%xmm0, 416(%rsp)
	movaps	192(%rsp), %xmm0
	movaps	%xmm0, 432(%rsp)
	movaps	208(%rsp), %xmm0
	movaps	%xmm0, 448(%rsp)
	movaps	224(%rsp), %xmm0
	movaps	%xmm0, 464(%rsp)
	movaps	240(%rsp), %xmm0
	movaps	%xmm0, 480(%rsp)
	movaps	256(%rsp), %xmm0
	movaps	%xmm0, 496(%rsp)
	leaq	(%r13,%rbp,4), %rcx
	leaq	144(%rsp), %rdi
	movq	%r14, %rsi
	movq	%r12, %rdx
	movq	%rbp, %r8
	movq	%r15, %r9
	callq	"keyed_blake3::subtrees::neighbour_values::<#8b36ca032ac25711>"
	movaps	144(%rsp), %xmm1
	movaps	160(%rsp), %xmm2
	movaps	176(%rsp), %xmm3
	movaps	192(%rsp), %xmm4
	movaps	208(%rsp), %xmm5
	movaps	224(%rsp), %xmm6
	movaps	240(%rsp), %xmm7
	movaps	128(%rsp), %xmm0
	movaps	%xmm0, %xmm9
	shufps	$136, %xmm1, %xmm9
	shufps	$221, %xmm1, %xmm0
	movaps	%xmm0, 128(%rsp)
	movaps	400(%rsp), %xmm8
	movaps	%xmm8, %xmm1
	shufps	$136, %xmm2, %xmm1
	shufps	$221, %xmm2, %xmm8
	movaps	%xmm8, %xmm10
	movaps	416(%rsp), %xmm8
	movaps	%xmm8, %xmm2
	shufps	$136, %xmm3, %xmm2
	shufps	$221, %xmm3, %xmm8
	movaps	%xmm8, %xmm11
	movaps	432(%rsp), %xmm8
	movaps	%xmm8, %xmm3
	shufps	$136, %xmm4, %xmm3
	shufps	$221, %xmm4, %xmm8
	movaps	%xmm8, %xmm12
	movaps	448(%rsp), %xmm8
	movaps	%xmm8, %xmm4
	shufps	$136, %xmm5, %xmm4
	shufps	$221, %xmm5, %xmm8
	movaps	%xmm8, %xmm13
	movaps	464(%rsp), %xmm8
	movaps	%xmm8, %xmm5
	shufps	$136, %xmm6, %xmm5
	shufps	$221, %xmm6, %xmm8
	movaps	%xmm8, %xmm14
	movaps	480(%rsp), %xmm8
	movaps	%xmm8, %xmm6
	shufps	$136, %xmm7, %xmm6
	shufps	$221, %xmm7, %xmm8
	movaps	%xmm8, %xmm15
	movaps	256(%rsp), %xmm7
	movaps	496(%rsp), %xmm8
	movaps	%xmm8, %xmm0
	shufps	$136, %xmm7, %xmm0
	shufps	$221, %xmm7, %xmm8
	movaps	%xmm9, 576(%rsp)
	movaps	%xmm1, 592(%rsp)
	movaps	%xmm2, 608(%rsp)
	movaps	%xmm3, 624(%rsp)
	movaps	%xmm4, 640(%rsp)
	movaps	%xmm5, 656(%rsp)
	movaps	%xmm6, 672(%rsp)
	movaps	%xmm0, 688(%rsp)
	movaps	128(%rsp), %xmm0
	movaps	%xmm0, 704(%rsp)
	movaps	%xmm10, 720(%rsp)
	movaps	%xmm11, 736(%rsp)
	movaps	%xmm12, 752(%rsp)
	movaps	%xmm13, 768(%rsp)
	movaps	%xmm14, 784(%rsp)
	movaps	%xmm15, 800(%rsp)
	movaps	%xmm8, 816(%rsp)
	movaps	D(CPI8_0)(%rip), %xmm0
	movaps	%xmm0, 528(%rsp)
	movaps	D(CPI8_1)(%rip), %xmm0
	movaps	%xmm0, 512(%rsp)
	movd	(%r14), %xmm0
	pshufd	$0, %xmm0, %xmm0
	movd	4(%r14), %xmm1
	movd	8(%r14), %xmm2
	movd	12(%r14), %xmm3
	movd	16(%r14), %xmm4
	movd	20(%r14), %xmm5
	movd	24(%r14), %xmm6
	movd	28(%r14), %xmm7
	movdqa	%xmm0, 272(%rsp)
	pshufd	$0, %xmm1, %xmm0
	movdqa	%xmm0, 288(%rsp)
	pshufd	$0, %xmm2, %xmm0
	movdqa	%xmm0, 304(%rsp)
	pshufd	$0, %xmm3, %xmm0
	movdqa	%xmm0, 320(%rsp)
	pshufd	$0, %xmm4, %xmm0
	movdqa	%xmm0, 336(%rsp)
	pshufd	$0, %xmm5, %xmm0
	movdqa	%xmm0, 352(%rsp)
	pshufd	$0, %xmm6, %xmm0
	movdqa	%xmm0, 368(%rsp)
	pshufd	$0, %xmm7, %xmm0
	movdqa	%xmm0, 384(%rsp)
	leaq	272(%rsp), %rdi
	leaq	576(%rsp), %rsi
	leaq	528(%rsp), %rdx
	leaq	512(%rsp), %rcx
	callq	"keyed_blake3::compression::lanes::take_in_each::<#8b36ca032ac25711>"
	movaps	272(%rsp), %xmm0
	movdqa	288(%rsp), %xmm1
	movaps	304(%rsp), %xmm2
	movaps	320(%rsp), %xmm3
	movaps	%xmm0, (%rsp)
	movdqa	%xmm1, 16(%rsp)
	movaps	%xmm2, 32(%rsp)
	movaps	%xmm3, 48(%rsp)
	movaps	336(%rsp), %xmm0
	movaps	%xmm0, 64(%rsp)
	movaps	352(%rsp), %xmm0
	movaps	%xmm0, 80(%rsp)
	movaps	368(%rsp), %xmm0
	movaps	%xmm0, 96(%rsp)
	movdqa	384(%rsp), %xmm0
	movdqa	%xmm0, 112(%rsp)
L(8_2):
	movaps	112(%rsp), %xmm0
	movups	%xmm0, 112(%rbx)
	movaps	96(%rsp), %xmm0
	movups	%xmm0, 96(%rbx)
	movaps	80(%rsp), %xmm0
	movups	%xmm0, 80(%rbx)
	movaps	64(%rsp), %xmm0
	movups	%xmm0, 64(%rbx)
	movaps	(%rsp), %xmm0
	movaps	16(%rsp), %xmm1
	movaps	32(%rsp), %xmm2
	movaps	48(%rsp), %xmm3
	movups	%xmm3, 48(%rbx)
	movups	%xmm2, 32(%rbx)
	movups	%xmm1, 16(%rbx)
	movups	%xmm0, (%rbx)
	addq	$840, %rsp
	.cfi_def_cfa_offset 56
	popq	%rbx
	.cfi_def_cfa_offset 48
	popq	%r12
	.cfi_def_cfa_offset 40
	popq	%r13
	.cfi_def_cfa_offset 32
	popq	%r14
	.cfi_def_cfa_offset 24
	popq	%r15
	.cfi_def_cfa_offset 16
	popq	%rbp
	.cfi_def_cfa_offset 8
	retq
	SIZE("keyed_blake3::subtrees::neighbour_values::<#8b36ca032ac25711>")
	.cfi_endproc

SIZED(16, 4)
	.p2align	4, 0x0
D(CPI9_0):
	.byte	2
	.byte	3
	.byte	0
	.byte	1
	.byte	6
	.byte	7
	.byte	4
	.byte	5
	.byte	10
	.byte	11
	.byte	8
	.byte	9
	.byte	14
	.byte	15
	.byte	12
	.byte	13
D(CPI9_1):
	.long	1779033703
	.long	1779033703
	.long	1779033703
	.long	1779033703
D(CPI9_2):
	.long	3144134277
	.long	3144134277
	.long	3144134277
	.long	3144134277
D(CPI9_3):
	.long	1013904242
	.long	1013904242
	.long	1013904242
	.long	1013904242
D(CPI9_4):
	.long	2773480762
	.long	2773480762
	.long	2773480762
	.long	2773480762
D(CPI9_5):
	.byte	1
	.byte	2
	.byte	3
	.byte	0
	.byte	5
	.byte	6
	.byte	7
	.byte	4
	.byte	9
	.byte	10
	.byte	11
	.byte	8
	.byte	13
	.byte	14
	.byte	15
	.byte	12
CODE(".text.keyed_blake3::compression::lanes::take_in_each::<#8b36ca032ac25711>")
	.p2align	4
	TYPE("keyed_blake3::compression::lanes::take_in_each::<#8b36ca032ac25711>", function)
"keyed_blake3::compression::lanes::take_in_each::<#8b36ca032ac25711>":
	.cfi_startproc
	subq	$168, %rsp
	.cfi_def_cfa_offset 176
	movdqu	(%rdi), %xmm6
	movdqu	16(%rdi), %xmm8
	movdqu	32(%rdi), %xmm5
	movdqu	64(%rdi), %xmm3
	movdqu	80(%rdi), %xmm4
	movdqu	96(%rdi), %xmm2
	movdqu	(%rdx), %xmm10
	movdqu	64(%rsi), %xmm0
	movdqa	%xmm0, 144(%rsp)
	paddd	%xmm3, %xmm6
	movdqu	(%rsi), %xmm7
	movdqa	%xmm7, 112(%rsp)
	movdqu	32(%rsi), %xmm1
	movdqa	%xmm1, 128(%rsp)
	paddd	%xmm7, %xmm6
	paddd	%xmm4, %xmm8
	paddd	%xmm1, %xmm8
	paddd	%xmm2, %xmm5
	paddd	%xmm0, %xmm5
	movdqa	D(CPI9_0)(%rip), %xmm0
	movdqa	%xmm6, %xmm7
	pshufb	%xmm0, %xmm7
	movdqa	%xmm8, %xmm9
	pshufb	%xmm0, %xmm9
	pxor	%xmm5, %xmm10
	pshufb	%xmm0, %xmm10
	movdqa	D(CPI9_1)(%rip), %xmm13
	paddd	%xmm7, %xmm13
	movdqa	D(CPI9_2)(%rip), %xmm0
	paddd	%xmm9, %xmm0
	movdqa	%xmm0, -112(%rsp)
	pxor	%xmm13, %xmm3
	pxor	%xmm0, %xmm4
	movdqa	%xmm3, %xmm11
	psrld	$12, %xmm11
	pslld	$20, %xmm3
	por	%xmm11, %xmm3
	movdqa	%xmm4, %xmm11
	psrld	$12, %xmm11
	pslld	$20, %xmm4
	por	%xmm11, %xmm4
	movdqa	D(CPI9_3)(%rip), %xmm0
	paddd	%xmm10, %xmm0
	movdqa	%xmm0, -96(%rsp)
	pxor	%xmm0, %xmm2
	movdqa	%xmm2, %xmm12
	psrld	$12, %xmm12
	pslld	$20, %xmm2
	por	%xmm12, %xmm2
	movdqu	48(%rdi), %xmm15
	movdqu	112(%rdi), %xmm1
	paddd	%xmm1, %xmm15
	movdqu	96(%rsi), %xmm12
	movdqa	%xmm12, 64(%rsp)
	paddd	%xmm12, %xmm15
	movdqu	(%rcx), %xmm14
	pxor	%xmm15, %xmm14
	pshufb	D(CPI9_0)(%rip), %xmm14
	movdqa	D(CPI9_4)(%rip), %xmm11
	paddd	%xmm14, %xmm11
	pxor	%xmm11, %xmm1
	movdqa	%xmm1, %xmm12
	psrld	$12, %xmm12
	pslld	$20, %xmm1
	por	%xmm12, %xmm1
	movdqu	16(%rsi), %xmm12
	movdqa	%xmm12, (%rsp)
	paddd	%xmm12, %xmm6
	paddd	%xmm3, %xmm6
	movdqa	D(CPI9_5)(%rip), %xmm0
	movdqa	%xmm6, %xmm12
	pshufb	%xmm0, %xmm12
	pshufb	%xmm0, %xmm7
	pxor	%xmm12, %xmm7
	movdqu	48(%rsi), %xmm12
	movdqa	%xmm12, 96(%rsp)
	paddd	%xmm12, %xmm8
	paddd	%xmm4, %xmm8
	movdqa	%xmm8, %xmm12
	pshufb	%xmm0, %xmm12
	pshufb	%xmm0, %xmm9
	pxor	%xmm12, %xmm9
	movdqu	80(%rsi), %xmm12
	movdqa	%xmm12, -16(%rsp)
	paddd	%xmm12, %xmm5
	paddd	%xmm2, %xmm5
	movdqa	%xmm5, %xmm12
	pshufb	%xmm0, %xmm12
	pshufb	%xmm0, %xmm10
	pxor	%xmm12, %xmm10
	movdqu	112(%rsi), %xmm12
	movdqa	%xmm12, 80(%rsp)
	paddd	%xmm12, %xmm15
	paddd	%xmm1, %xmm15
	movdqa	%xmm15, %xmm12
	pshufb	%xmm0, %xmm12
	pshufb	%xmm0, %xmm14
	pxor	%xmm12, %xmm14
	paddd	%xmm7, %xmm13
	movdqa	%xmm13, -128(%rsp)
	pxor	%xmm13, %xmm3
	movdqa	%xmm3, %xmm12
	psrld	$7, %xmm12
	pslld	$25, %xmm3
	por	%xmm12, %xmm3
	movdqa	-112(%rsp), %xmm0
	paddd	%xmm9, %xmm0
	movdqa	%xmm0, -112(%rsp)
	pxor	%xmm0, %xmm4
	movdqa	%xmm4, %xmm12
	psrld	$7, %xmm12
	pslld	$25, %xmm4
	por	%xmm12, %xmm4
	movdqa	-96(%rsp), %xmm13
	paddd	%xmm10, %xmm13
	pxor	%xmm13, %xmm2
	movdqa	%xmm2, %xmm12
	psrld	$7, %xmm12
	pslld	$25, %xmm2
	por	%xmm12, %xmm2
	paddd	%xmm14, %xmm11
	pxor	%xmm11, %xmm1
	movdqa	%xmm1, %xmm12
	psrld	$7, %xmm12
	pslld	$25, %xmm1
	por	%xmm12, %xmm1
	movdqu	224(%rsi), %xmm12
	movdqa	%xmm12, 32(%rsp)
	paddd	%xmm12, %xmm15
	paddd	%xmm3, %xmm15
	pxor	%xmm15, %xmm10
	movdqa	D(CPI9_0)(%rip), %xmm0
	pshufb	%xmm0, %xmm10
	movdqa	-112(%rsp), %xmm12
	paddd	%xmm10, %xmm12
	movdqa	%xmm12, -112(%rsp)
	pxor	%xmm12, %xmm3
	movdqa	%xmm3, %xmm12
	psrld	$12, %xmm12
	pslld	$20, %xmm3
	por	%xmm12, %xmm3
	movdqu	128(%rsi), %xmm12
	movdqa	%xmm12, -80(%rsp)
	paddd	%xmm12, %xmm6
	paddd	%xmm4, %xmm6
	pxor	%xmm6, %xmm14
	pshufb	%xmm0, %xmm14
	paddd	%xmm14, %xmm13
	pxor	%xmm13, %xmm4
	movdqa	%xmm4, %xmm12
	psrld	$12, %xmm12
	pslld	$20, %xmm4
	por	%xmm12, %xmm4
	movdqu	160(%rsi), %xmm12
	movdqa	%xmm12, -96(%rsp)
	paddd	%xmm12, %xmm8
	paddd	%xmm2, %xmm8
	pxor	%xmm8, %xmm7
	pshufb	%xmm0, %xmm7
	paddd	%xmm7, %xmm11
	pxor	%xmm11, %xmm2
	movdqa	%xmm2, %xmm12
	psrld	$12, %xmm12
	pslld	$20, %xmm2
	por	%xmm12, %xmm2
	movdqu	192(%rsi), %xmm12
	movdqa	%xmm12, 48(%rsp)
	paddd	%xmm12, %xmm5
	paddd	%xmm1, %xmm5
	pxor	%xmm5, %xmm9
	pshufb	%xmm0, %xmm9
	movdqa	-128(%rsp), %xmm0
	paddd	%xmm9, %xmm0
	movdqa	%xmm0, -128(%rsp)
	pxor	%xmm0, %xmm1
	movdqa	%xmm1, %xmm12
	psrld	$12, %xmm12
	pslld	$20, %xmm1
	por	%xmm12, %xmm1
	movdqu	240(%rsi), %xmm0
	movdqa	%xmm0, -48(%rsp)
	paddd	%xmm0, %xmm15
	paddd	%xmm3, %xmm15
	movdqa	%xmm15, %xmm12
	movdqa	D(CPI9_5)(%rip), %xmm0
	pshufb	%xmm0, %xmm12
	pshufb	%xmm0, %xmm10
	pxor	%xmm12, %xmm10
	movdqu	144(%rsi), %xmm12
	movdqa	%xmm12, -32(%rsp)
	paddd	%xmm12, %xmm6
	paddd	%xmm4, %xmm6
	movdqa	%xmm6, %xmm12
	pshufb	%xmm0, %xmm12
	pshufb	%xmm0, %xmm14
	pxor	%xmm12, %xmm14
	movdqu	176(%rsi), %xmm12
	movdqa	%xmm12, -64(%rsp)
	paddd	%xmm12, %xmm8
	paddd	%xmm2, %xmm8
	movdqa	%xmm8, %xmm12
	pshufb	%xmm0, %xmm12
	pshufb	%xmm0, %xmm7
	pxor	%xmm12, %xmm7
	movdqu	208(%rsi), %xmm12
	movdqa	%xmm12, 16(%rsp)
	paddd	%xmm12, %xmm5
	paddd	%xmm1, %xmm5
	movdqa	%xmm5, %xmm12
	pshufb	%xmm0, %xmm12
	pshufb	%xmm0, %xmm9
	pxor	%xmm12, %xmm9
	movdqa	-112(%rsp), %xmm0
	paddd	%xmm10, %xmm0
	movdqa	%xmm0, -112(%rsp)
	pxor	%xmm0, %xmm3
	movdqa	%xmm3, %xmm12
	psrld	$7, %xmm12
	pslld	$25, %xmm3
	por	%xmm12, %xmm3
	paddd	%xmm14, %xmm13
	pxor	%xmm13, %xmm4
	movdqa	%xmm4, %xmm12
	psrld	$7, %xmm12
	pslld	$25, %xmm4
	por	%xmm12, %xmm4
	paddd	%xmm7, %xmm11
	pxor	%xmm11, %xmm2
	movdqa	%xmm2, %xmm12
	psrld	$7, %xmm12
	pslld	$25, %xmm2
	por	%xmm12, %xmm2
	movdqa	-128(%rsp), %xmm0
	paddd	%xmm9, %xmm0
	movdqa	%xmm0, -128(%rsp)
	pxor	%xmm0, %xmm1
	movdqa	%xmm1, %xmm12
	psrld	$7, %xmm12
	pslld	$25, %xmm1
	por	%xmm12, %xmm1
	paddd	128(%rsp), %xmm6
	paddd	%xmm3, %xmm6
	pxor	%xmm6, %xmm7
	movdqa	D(CPI9_0)(%rip), %xmm0
	pshufb	%xmm0, %xmm7
	movdqa	-128(%rsp), %xmm12
	paddd	%xmm7, %xmm12
	movdqa	%xmm12, -128(%rsp)
	pxor	%xmm12, %xmm3
	movdqa	%xmm3, %xmm12
	psrld	$12, %xmm12
	pslld	$20, %xmm3
	por	%xmm12, %xmm3
	paddd	96(%rsp), %xmm8
	paddd	%xmm4, %xmm8
	pxor	%xmm8, %xmm9
	pshufb	%xmm0, %xmm9
	movdqa	-112(%rsp), %xmm12
	paddd	%xmm9, %xmm12
	movdqa	%xmm12, -112(%rsp)
	pxor	%xmm12, %xmm4
	movdqa	%xmm4, %xmm12
	psrld	$12, %xmm12
	pslld	$20, %xmm4
	por	%xmm12, %xmm4
	paddd	80(%rsp), %xmm5
	paddd	%xmm2, %xmm5
	pxor	%xmm5, %xmm10
	pshufb	%xmm0, %xmm10
	paddd	%xmm10, %xmm13
	pxor	%xmm13, %xmm2
	movdqa	%xmm2, %xmm12
	psrld	$12, %xmm12
	pslld	$20, %xmm2
	por	%xmm12, %xmm2
	paddd	144(%rsp), %xmm15
	paddd	%xmm1, %xmm15
	pxor	%xmm15, %xmm14
	pshufb	%xmm0, %xmm14
	paddd	%xmm14, %xmm11
	pxor	%xmm11, %xmm1
	movdqa	%xmm1, %xmm12
	psrld	$12, %xmm12
	pslld	$20, %xmm1
	por	%xmm12, %xmm1
	paddd	64(%rsp), %xmm6
	paddd	%xmm3, %xmm6
	movdqa	%xmm6, %xmm12
	movdqa	D(CPI9_5)(%rip), %xmm0
	pshufb	%xmm0, %xmm12
	pshufb	%xmm0, %xmm7
	pxor	%xmm12, %xmm7
	paddd	-96(%rsp), %xmm8
	paddd	%xmm4, %xmm8
	movdqa	%xmm8, %xmm12
	pshufb	%xmm0, %xmm12
	pshufb	%xmm0, %xmm9
	pxor	%xmm12, %xmm9
	paddd	112(%rsp), %xmm5
	paddd	%xmm2, %xmm5
	movdqa	%xmm5, %xmm12
	pshufb	%xmm0, %xmm12
	pshufb	%xmm0, %xmm10
	pxor	%xmm12, %xmm10
	paddd	16(%rsp), %xmm15
	paddd	%xmm1, %xmm15
	movdqa	%xmm15, %xmm12
	pshufb	%xmm0, %xmm12
	pshufb	%xmm0, %xmm14
	pxor	%xmm12, %xmm14
	movdqa	-128(%rsp), %xmm0
	paddd	%xmm7, %xmm0
	movdqa	%xmm0, -128(%rsp)
	pxor	%xmm0, %xmm3
	movdqa	%xmm3, %xmm12
	psrld	$7, %xmm12
	pslld	$25, %xmm3
	por	%xmm12, %xmm3
	movdqa	-112(%rsp), %xmm0
	paddd	%xmm9, %xmm0
	movdqa	%xmm0, -112(%rsp)
	pxor	%xmm0, %xmm4
	movdqa	%xmm4, %xmm12
	psrld	$7, %xmm12
	pslld	$25, %xmm4
	por	%xmm12, %xmm4
	paddd	%xmm10, %xmm13
	pxor	%xmm13, %xmm2
	movdqa	%xmm2, %xmm12
	psrld	$7, %xmm12
	pslld	$25, %xmm2
	por	%xmm12, %xmm2
	paddd	%xmm14, %xmm11
	pxor	%xmm11, %xmm1
	movdqa	%xmm1, %xmm12
	psrld	$7, %xmm12
	pslld	$25, %xmm1
	por	%xmm12, %xmm1
	paddd	-48(%rsp), %xmm15
	paddd	%xmm3, %xmm15
	pxor	%xmm15, %xmm10
	movdqa	D(CPI9_0)(%rip), %xmm0
	pshufb	%xmm0, %xmm10
	movdqa	-112(%rsp), %xmm12
	paddd	%xmm10, %xmm12
	movdqa	%xmm12, -112(%rsp)
	pxor	%xmm12, %xmm3
	movdqa	%xmm3, %xmm12
	psrld	$12, %xmm12
	pslld	$20, %xmm3
	por	%xmm12, %xmm3
	paddd	(%rsp), %xmm6
	paddd	%xmm4, %xmm6
	pxor	%xmm6, %xmm14
	pshufb	%xmm0, %xmm14
	paddd	%xmm14, %xmm13
	pxor	%xmm13, %xmm4
	movdqa	%xmm4, %xmm12
	psrld	$12, %xmm12
	pslld	$20, %xmm4
	por	%xmm12, %xmm4
	paddd	48(%rsp), %xmm8
	paddd	%xmm2, %xmm8
	pxor	%xmm8, %xmm7
	pshufb	%xmm0, %xmm7
	paddd	%xmm7, %xmm11
	pxor	%xmm11, %xmm2
	movdqa	%xmm2, %xmm12
	psrld	$12, %xmm12
	pslld	$20, %xmm2
	por	%xmm12, %xmm2
	paddd	-32(%rsp), %xmm5
	paddd	%xmm1, %xmm5
	pxor	%xmm5, %xmm9
	pshufb	%xmm0, %xmm9
	movdqa	-128(%rsp), %xmm0
	paddd	%xmm9, %xmm0
	movdqa	%xmm0, -128(%rsp)
	pxor	%xmm0, %xmm1
	movdqa	%xmm1, %xmm12
	psrld	$12, %xmm12
	pslld	$20, %xmm1
	por	%xmm12, %xmm1
	paddd	-80(%rsp), %xmm15
	paddd	%xmm3, %xmm15
	movdqa	%xmm15, %xmm12
	movdqa	D(CPI9_5)(%rip), %xmm0
	pshufb	%xmm0, %xmm12
	pshufb	%xmm0, %xmm10
	pxor	%xmm12, %xmm10
	paddd	-64(%rsp), %xmm6
	paddd	%xmm4, %xmm6
	movdqa	%xmm6, %xmm12
	pshufb	%xmm0, %xmm12
	pshufb	%xmm0, %xmm14
	pxor	%xmm12, %xmm14
	paddd	-16(%rsp), %xmm8
	paddd	%xmm2, %xmm8
	movdqa	%xmm8, %xmm12
	pshufb	%xmm0, %xmm12
	pshufb	%xmm0, %xmm7
	pxor	%xmm12, %xmm7
	paddd	32(%rsp), %xmm5
	paddd	%xmm1, %xmm5
	movdqa	%xmm5, %xmm12
	pshufb	%xmm0, %xmm12
	pshufb	%xmm0, %xmm9
	pxor	%xmm12, %xmm9
	movdqa	-112(%rsp), %xmm0
	paddd	%xmm10, %xmm0
	movdqa	%xmm0, -112(%rsp)
	pxor	%xmm0, %xmm3
	movdqa	%xmm3, %xmm12
	psrld	$7, %xmm12
	pslld	$25, %xmm3
	por	%xmm12, %xmm3
	paddd	%xmm14, %xmm13
	pxor	%xmm13, %xmm4
	movdqa	%xmm4, %xmm12
	psrld	$7, %xmm12
	pslld	$25, %xmm4
	por	%xmm12, %xmm4
	paddd	%xmm7, %xmm11
	pxor	%xmm11, %xmm2
	movdqa	%xmm2, %xmm12
	psrld	$7, %xmm12
	pslld	$25, %xmm2
	por	%xmm12, %xmm2
	movdqa	-128(%rsp), %xmm0
	paddd	%xmm9, %xmm0
	movdqa	%xmm0, -128(%rsp)
	pxor	%xmm0, %xmm1
	movdqa	%xmm1, %xmm12
	psrld	$7, %xmm12
	pslld	$25, %xmm1
	por	%xmm12, %xmm1
	paddd	96(%rsp), %xmm6
	paddd	%xmm3, %xmm6
	pxor	%xmm6, %xmm7
	movdqa	D(CPI9_0)(%rip), %xmm0
	pshufb	%xmm0, %xmm7
	movdqa	-128(%rsp), %xmm12
	paddd	%xmm7, %xmm12
	movdqa	%xmm12, -128(%rsp)
	pxor	%xmm12, %xmm3
	movdqa	%xmm3, %xmm12
	psrld	$12, %xmm12
	pslld	$20, %xmm3
	por	%xmm12, %xmm3
	paddd	-96(%rsp), %xmm8
	paddd	%xmm4, %xmm8
	pxor	%xmm8, %xmm9
	pshufb	%xmm0, %xmm9
	movdqa	-112(%rsp), %xmm12
	paddd	%xmm9, %xmm12
	movdqa	%xmm12, -112(%rsp)
	pxor	%xmm12, %xmm4
	movdqa	%xmm4, %xmm12
	psrld	$12, %xmm12
	pslld	$20, %xmm4
	por	%xmm12, %xmm4
	paddd	16(%rsp), %xmm5
	paddd	%xmm2, %xmm5
	pxor	%xmm5, %xmm10
	pshufb	%xmm0, %xmm10
	paddd	%xmm10, %xmm13
	pxor	%xmm13, %xmm2
	movdqa	%xmm2, %xmm12
	psrld	$12, %xmm12
	pslld	$20, %xmm2
	por	%xmm12, %xmm2
	paddd	80(%rsp), %xmm15
	paddd	%xmm1, %xmm15
	pxor	%xmm15, %xmm14
	pshufb	%xmm0, %xmm14
	paddd	%xmm14, %xmm11
	pxor	%xmm11, %xmm1
	movdqa	%xmm1, %xmm12
	psrld	$12, %xmm12
	pslld	$20, %xmm1
	por	%xmm12, %xmm1
	paddd	144(%rsp), %xmm6
	paddd	%xmm3, %xmm6
	movdqa	%xmm6, %xmm12
	movdqa	D(CPI9_5)(%rip), %xmm0
	pshufb	%xmm0, %xmm12
	pshufb	%xmm0, %xmm7
	pxor	%xmm12, %xmm7
	paddd	48(%rsp), %xmm8
	paddd	%xmm4, %xmm8
	movdqa	%xmm8, %xmm12
	pshufb	%xmm0, %xmm12
	pshufb	%xmm0, %xmm9
	pxor	%xmm12, %xmm9
	paddd	128(%rsp), %xmm5
	paddd	%xmm2, %xmm5
	movdqa	%xmm5, %xmm12
	pshufb	%xmm0, %xmm12
	pshufb	%xmm0, %xmm10
	pxor	%xmm12, %xmm10
	paddd	32(%rsp), %xmm15
	paddd	%xmm1, %xmm15
	movdqa	%xmm15, %xmm12
	pshufb	%xmm0, %xmm12
	pshufb	%xmm0, %xmm14
	pxor	%xmm12, %xmm14
	movdqa	-128(%rsp), %xmm0
	paddd	%xmm7, %xmm0
	movdqa	%xmm0, -128(%rsp)
	pxor	%xmm0, %xmm3
	movdqa	%xmm3, %xmm12
	psrld	$7, %xmm12
	pslld	$25, %xmm3
	por	%xmm12, %xmm3
	movdqa	-112(%rsp), %xmm0
	paddd	%xmm9, %xmm0
	movdqa	%xmm0, -112(%rsp)
	pxor	%xmm0, %xmm4
	movdqa	%xmm4, %xmm12
	psrld	$7, %xmm12
	pslld	$25, %xmm4
	por	%xmm12, %xmm4
	paddd	%xmm10, %xmm13
	pxor	%xmm13, %xmm2
	movdqa	%xmm2, %xmm12
	psrld	$7, %xmm12
	pslld	$25, %xmm2
	por	%xmm12, %xmm2
	paddd	%xmm14, %xmm11
	pxor	%xmm11, %xmm1
	movdqa	%xmm1, %xmm12
	psrld	$7, %xmm12
	pslld	$25, %xmm1
	por	%xmm12, %xmm1
	paddd	-80(%rsp), %xmm15
	paddd	%xmm3, %xmm15
	pxor	%xmm15, %xmm10
	movdqa	D(CPI9_0)(%rip), %xmm0
	pshufb	%xmm0, %xmm10
	movdqa	-112(%rsp), %xmm12
	paddd	%xmm10, %xmm12
	movdqa	%xmm12, -112(%rsp)
	pxor	%xmm12, %xmm3
	movdqa	%xmm3, %xmm12
	psrld	$12, %xmm12
	pslld	$20, %xmm3
	por	%xmm12, %xmm3
	paddd	64(%rsp), %xmm6
	paddd	%xmm4, %xmm6
	pxor	%xmm6, %xmm14
	pshufb	%xmm0, %xmm14
	paddd	%xmm14, %xmm13
	pxor	%xmm13, %xmm4
	movdqa	%xmm4, %xmm12
	psrld	$12, %xmm12
	pslld	$20, %xmm4
	por	%xmm12, %xmm4
	paddd	-32(%rsp), %xmm8
	paddd	%xmm2, %xmm8
	pxor	%xmm8, %xmm7
	pshufb	%xmm0, %xmm7
	paddd	%xmm7, %xmm11
	pxor	%xmm11, %xmm2
	movdqa	%xmm2, %xmm12
	psrld	$12, %xmm12
	pslld	$20, %xmm2
	por	%xmm12, %xmm2
	paddd	-64(%rsp), %xmm5
	paddd	%xmm1, %xmm5
	pxor	%xmm5, %xmm9
	pshufb	%xmm0, %xmm9
	movdqa	-128(%rsp), %xmm0
	paddd	%xmm9, %xmm0
	movdqa	%xmm0, -128(%rsp)
	pxor	%xmm0, %xmm1
	movdqa	%xmm1, %xmm12
	psrld	$12, %xmm12
	pslld	$20, %xmm1
	por	%xmm12, %xmm1
	paddd	(%rsp), %xmm15
	paddd	%xmm3, %xmm15
	movdqa	%xmm15, %xmm12
	movdqa	D(CPI9_5)(%rip), %xmm0
	pshufb	%xmm0, %xmm12
	pshufb	%xmm0, %xmm10
	pxor	%xmm12, %xmm10
	paddd	-16(%rsp), %xmm6
	paddd	%xmm4, %xmm6
	movdqa	%xmm6, %xmm12
	pshufb	%xmm0, %xmm12
	pshufb	%xmm0, %xmm14
	pxor	%xmm12, %xmm14
	paddd	112(%rsp), %xmm8
	paddd	%xmm2, %xmm8
	movdqa	%xmm8, %xmm12
	pshufb	%xmm0, %xmm12
	pshufb	%xmm0, %xmm7
	pxor	%xmm12, %xmm7
	paddd	-48(%rsp), %xmm5
	paddd	%xmm1, %xmm5
	movdqa	%xmm5, %xmm12
	pshufb	%xmm0, %xmm12
	pshufb	%xmm0, %xmm9
	pxor	%xmm12, %xmm9
	movdqa	-112(%rsp), %xmm0
	paddd	%xmm10, %xmm0
	movdqa	%xmm0, -112(%rsp)
	pxor	%xmm0, %xmm3
	movdqa	%xmm3, %xmm12
	psrld	$7, %xmm12
	pslld	$25, %xmm3
	por	%xmm12, %xmm3
	paddd	%xmm14, %xmm13
	pxor	%xmm13, %xmm4
	movdqa	%xmm4, %xmm12
	psrld	$7, %xmm12
	pslld	$25, %xmm4
	por	%xmm12, %xmm4
	paddd	%xmm7, %xmm11
	pxor	%xmm11, %xmm2
	movdqa	%xmm2, %xmm12
	psrld	$7, %xmm12
	pslld	$25, %xmm2
	por	%xmm12, %xmm2
	movdqa	-128(%rsp), %xmm0
	paddd	%xmm9, %xmm0
	movdqa	%xmm0, -128(%rsp)
	pxor	%xmm0, %xmm1
	movdqa	%xmm1, %xmm12
	psrld	$7, %xmm12
	pslld	$25, %xmm1
	por	%xmm12, %xmm1
	paddd	-96(%rsp), %xmm6
	paddd	%xmm3, %xmm6
	pxor	%xmm6, %xmm7
	movdqa	D(CPI9_0)(%rip), %xmm0
	pshufb	%xmm0, %xmm7
	movdqa	-128(%rsp), %xmm12
	paddd	%xmm7, %xmm12
	movdqa	%xmm12, -128(%rsp)
	pxor	%xmm12, %xmm3
	movdqa	%xmm3, %xmm12
	psrld	$12, %xmm12
	pslld	$20, %xmm3
	por	%xmm12, %xmm3
	paddd	48(%rsp), %xmm8
	paddd	%xmm4, %xmm8
	pxor	%xmm8, %xmm9
	pshufb	%xmm0, %xmm9
	movdqa	-112(%rsp), %xmm12
	paddd	%xmm9, %xmm12
	movdqa	%xmm12, -112(%rsp)
	pxor	%xmm12, %xmm4
	movdqa	%xmm4, %xmm12
	psrld	$12, %xmm12
	pslld	$20, %xmm4
	por	%xmm12, %xmm4
	paddd	32(%rsp), %xmm5
	paddd	%xmm2, %xmm5
	pxor	%xmm5, %xmm10
	pshufb	%xmm0, %xmm10
	paddd	%xmm10, %xmm13
	pxor	%xmm13, %xmm2
	movdqa	%xmm2, %xmm12
	psrld	$12, %xmm12
	pslld	$20, %xmm2
	por	%xmm12, %xmm2
	paddd	16(%rsp), %xmm15
	paddd	%xmm1, %xmm15
	pxor	%xmm15, %xmm14
	pshufb	%xmm0, %xmm14
	paddd	%xmm14, %xmm11
	pxor	%xmm11, %xmm1
	movdqa	%xmm1, %xmm12
	psrld	$12, %xmm12
	pslld	$20, %xmm1
	por	%xmm12, %xmm1
	paddd	80(%rsp), %xmm6
	paddd	%xmm3, %xmm6
	movdqa	%xmm6, %xmm12
	movdqa	D(CPI9_5)(%rip), %xmm0
	pshufb	%xmm0, %xmm12
	pshufb	%xmm0, %xmm7
	pxor	%xmm12, %xmm7
	paddd	-32(%rsp), %xmm8
	paddd	%xmm4, %xmm8
	movdqa	%xmm8, %xmm12
	pshufb	%xmm0, %xmm12
	pshufb	%xmm0, %xmm9
	pxor	%xmm12, %xmm9
	paddd	96(%rsp), %xmm5
	paddd	%xmm2, %xmm5
	movdqa	%xmm5, %xmm12
	pshufb	%xmm0, %xmm12
	pshufb	%xmm0, %xmm10
	pxor	%xmm12, %xmm10
	paddd	-48(%rsp), %xmm15
	paddd	%xmm1, %xmm15
	movdqa	%xmm15, %xmm12
	pshufb	%xmm0, %xmm12
	pshufb	%xmm0, %xmm14
	pxor	%xmm12, %xmm14
	movdqa	-128(%rsp), %xmm0
	paddd	%xmm7, %xmm0
	movdqa	%xmm0, -128(%rsp)
	pxor	%xmm0, %xmm3
	movdqa	%xmm3, %xmm12
	psrld	$7, %xmm12
	pslld	$25, %xmm3
	por	%xmm12, %xmm3
	movdqa	-112(%rsp), %xmm0
	paddd	%xmm9, %xmm0
	movdqa	%xmm0, -112(%rsp)
	pxor	%xmm0, %xmm4
	movdqa	%xmm4, %xmm12
	psrld	$7, %xmm12
	pslld	$25, %xmm4
	por	%xmm12, %xmm4
	paddd	%xmm10, %xmm13
	pxor	%xmm13, %xmm2
	movdqa	%xmm2, %xmm12
	psrld	$7, %xmm12
	pslld	$25, %xmm2
	por	%xmm12, %xmm2
	paddd	%xmm14, %xmm11
	pxor	%xmm11, %xmm1
	movdqa	%xmm1, %xmm12
	psrld	$7, %xmm12
	pslld	$25, %xmm1
	por	%xmm12, %xmm1
	paddd	(%rsp), %xmm15
	paddd	%xmm3, %xmm15
	pxor	%xmm15, %xmm10
	movdqa	D(CPI9_0)(%rip), %xmm0
	pshufb	%xmm0, %xmm10
	movdqa	-112(%rsp), %xmm12
	paddd	%xmm10, %xmm12
	movdqa	%xmm12, -112(%rsp)
	pxor	%xmm12, %xmm3
	movdqa	%xmm3, %xmm12
	psrld	$12, %xmm12
	pslld	$20, %xmm3
	por	%xmm12, %xmm3
	paddd	144(%rsp), %xmm6
	paddd	%xmm4, %xmm6
	pxor	%xmm6, %xmm14
	pshufb	%xmm0, %xmm14
	paddd	%xmm14, %xmm13
	pxor	%xmm13, %xmm4
	movdqa	%xmm4, %xmm12
	psrld	$12, %xmm12
	pslld	$20, %xmm4
	por	%xmm12, %xmm4
	paddd	-64(%rsp), %xmm8
	paddd	%xmm2, %xmm8
	pxor	%xmm8, %xmm7
	pshufb	%xmm0, %xmm7
	paddd	%xmm7, %xmm11
	pxor	%xmm11, %xmm2
	movdqa	%xmm2, %xmm12
	psrld	$12, %xmm12
	pslld	$20, %xmm2
	por	%xmm12, %xmm2
	paddd	-16(%rsp), %xmm5
	paddd	%xmm1, %xmm5
	pxor	%xmm5, %xmm9
	pshufb	%xmm0, %xmm9
	movdqa	-128(%rsp), %xmm0
	paddd	%xmm9, %xmm0
	movdqa	%xmm0, -128(%rsp)
	pxor	%xmm0, %xmm1
	movdqa	%xmm1, %xmm12
	psrld	$12, %xmm12
	pslld	$20, %xmm1
	por	%xmm12, %xmm1
	paddd	64(%rsp), %xmm15
	paddd	%xmm3, %xmm15
	movdqa	%xmm15, %xmm12
	movdqa	D(CPI9_5)(%rip), %xmm0
	pshufb	%xmm0, %xmm12
	pshufb	%xmm0, %xmm10
	pxor	%xmm12, %xmm10
	paddd	112(%rsp), %xmm6
	paddd	%xmm4, %xmm6
	movdqa	%xmm6, %xmm12
	pshufb	%xmm0, %xmm12
	pshufb	%xmm0, %xmm14
	pxor	%xmm12, %xmm14
	paddd	128(%rsp), %xmm8
	paddd	%xmm2, %xmm8
	movdqa	%xmm8, %xmm12
	pshufb	%xmm0, %xmm12
	pshufb	%xmm0, %xmm7
	pxor	%xmm12, %xmm7
	paddd	-80(%rsp), %xmm5
	paddd	%xmm1, %xmm5
	movdqa	%xmm5, %xmm12
	pshufb	%xmm0, %xmm12
	pshufb	%xmm0, %xmm9
	pxor	%xmm12, %xmm9
	movdqa	-112(%rsp), %xmm0
	paddd	%xmm10, %xmm0
	movdqa	%xmm0, -112(%rsp)
	pxor	%xmm0, %xmm3
	movdqa	%xmm3, %xmm12
	psrld	$7, %xmm12
	pslld	$25, %xmm3
	por	%xmm12, %xmm3
	paddd	%xmm14, %xmm13
	pxor	%xmm13, %xmm4
	movdqa	%xmm4, %xmm12
	psrld	$7, %xmm12
	pslld	$25, %xmm4
	por	%xmm12, %xmm4
	paddd	%xmm7, %xmm11
	pxor	%xmm11, %xmm2
	movdqa	%xmm2, %xmm12
	psrld	$7, %xmm12
	pslld	$25, %xmm2
	por	%xmm12, %xmm2
	movdqa	-128(%rsp), %xmm0
	paddd	%xmm9, %xmm0
	movdqa	%xmm0, -128(%rsp)
	pxor	%xmm0, %xmm1
	movdqa	%xmm1, %xmm12
	psrld	$7, %xmm12
	pslld	$25, %xmm1
	por	%xmm12, %xmm1
	paddd	48(%rsp), %xmm6
	paddd	%xmm3, %xmm6
	pxor	%xmm6, %xmm7
	movdqa	D(CPI9_0)(%rip), %xmm0
	pshufb	%xmm0, %xmm7
	movdqa	-128(%rsp), %xmm12
	paddd	%xmm7, %xmm12
	movdqa	%xmm12, -128(%rsp)
	pxor	%xmm12, %xmm3
	movdqa	%xmm3, %xmm12
	psrld	$12, %xmm12
	pslld	$20, %xmm3
	por	%xmm12, %xmm3
	paddd	-32(%rsp), %xmm8
	paddd	%xmm4, %xmm8
	pxor	%xmm8, %xmm9
	pshufb	%xmm0, %xmm9
	movdqa	-112(%rsp), %xmm12
	paddd	%xmm9, %xmm12
	movdqa	%xmm12, -112(%rsp)
	pxor	%xmm12, %xmm4
	movdqa	%xmm4, %xmm12
	psrld	$12, %xmm12
	pslld	$20, %xmm4
	por	%xmm12, %xmm4
	paddd	-48(%rsp), %xmm5
	paddd	%xmm2, %xmm5
	pxor	%xmm5, %xmm10
	pshufb	%xmm0, %xmm10
	paddd	%xmm10, %xmm13
	pxor	%xmm13, %xmm2
	movdqa	%xmm2, %xmm12
	psrld	$12, %xmm12
	pslld	$20, %xmm2
	por	%xmm12, %xmm2
	paddd	32(%rsp), %xmm15
	paddd	%xmm1, %xmm15
	pxor	%xmm15, %xmm14
	pshufb	%xmm0, %xmm14
	paddd	%xmm14, %xmm11
	pxor	%xmm11, %xmm1
	movdqa	%xmm1, %xmm12
	psrld	$12, %xmm12
	pslld	$20, %xmm1
	por	%xmm12, %xmm1
	paddd	16(%rsp), %xmm6
	paddd	%xmm3, %xmm6
	movdqa	%xmm6, %xmm12
	movdqa	D(CPI9_5)(%rip), %xmm0
	pshufb	%xmm0, %xmm12
	pshufb	%xmm0, %xmm7
	pxor	%xmm12, %xmm7
	paddd	-64(%rsp), %xmm8
	paddd	%xmm4, %xmm8
	movdqa	%xmm8, %xmm12
	pshufb	%xmm0, %xmm12
	pshufb	%xmm0, %xmm9
	pxor	%xmm12, %xmm9
	paddd	-96(%rsp), %xmm5
	paddd	%xmm2, %xmm5
	movdqa	%xmm5, %xmm12
	pshufb	%xmm0, %xmm12
	pshufb	%xmm0, %xmm10
	pxor	%xmm12, %xmm10
	paddd	-80(%rsp), %xmm15
	paddd	%xmm1, %xmm15
	movdqa	%xmm15, %xmm12
	pshufb	%xmm0, %xmm12
	pshufb	%xmm0, %xmm14
	pxor	%xmm12, %xmm14
	movdqa	-128(%rsp), %xmm0
	paddd	%xmm7, %xmm0
	movdqa	%xmm0, -128(%rsp)
	pxor	%xmm0, %xmm3
	movdqa	%xmm3, %xmm12
	psrld	$7, %xmm12
	pslld	$25, %xmm3
	por	%xmm12, %xmm3
	movdqa	-112(%rsp), %xmm0
	paddd	%xmm9, %xmm0
	movdqa	%xmm0, -112(%rsp)
	pxor	%xmm0, %xmm4
	movdqa	%xmm4, %xmm12
	psrld	$7, %xmm12
	pslld	$25, %xmm4
	por	%xmm12, %xmm4
	paddd	%xmm10, %xmm13
	pxor	%xmm13, %xmm2
	movdqa	%xmm2, %xmm12
	psrld	$7, %xmm12
	pslld	$25, %xmm2
	por	%xmm12, %xmm2
	paddd	%xmm14, %xmm11
	pxor	%xmm11, %xmm1
	movdqa	%xmm1, %xmm12
	psrld	$7, %xmm12
	pslld	$25, %xmm1
	por	%xmm12, %xmm1
	paddd	64(%rsp), %xmm15
	paddd	%xmm3, %xmm15
	pxor	%xmm15, %xmm10
	movdqa	D(CPI9_0)(%rip), %xmm0
	pshufb	%xmm0, %xmm10
	movdqa	-112(%rsp), %xmm12
	paddd	%xmm10, %xmm12
	movdqa	%xmm12, -112(%rsp)
	pxor	%xmm12, %xmm3
	movdqa	%xmm3, %xmm12
	psrld	$12, %xmm12
	pslld	$20, %xmm3
	por	%xmm12, %xmm3
	paddd	80(%rsp), %xmm6
	paddd	%xmm4, %xmm6
	pxor	%xmm6, %xmm14
	pshufb	%xmm0, %xmm14
	paddd	%xmm14, %xmm13
	pxor	%xmm13, %xmm4
	movdqa	%xmm4, %xmm12
	psrld	$12, %xmm12
	pslld	$20, %xmm4
	por	%xmm12, %xmm4
	paddd	-16(%rsp), %xmm8
	paddd	%xmm2, %xmm8
	pxor	%xmm8, %xmm7
	pshufb	%xmm0, %xmm7
	paddd	%xmm7, %xmm11
	pxor	%xmm11, %xmm2
	movdqa	%xmm2, %xmm12
	psrld	$12, %xmm12
	pslld	$20, %xmm2
	por	%xmm12, %xmm2
	paddd	112(%rsp), %xmm5
	paddd	%xmm1, %xmm5
	pxor	%xmm5, %xmm9
	pshufb	%xmm0, %xmm9
	movdqa	-128(%rsp), %xmm0
	paddd	%xmm9, %xmm0
	movdqa	%xmm0, -128(%rsp)
	pxor	%xmm0, %xmm1
	movdqa	%xmm1, %xmm12
	psrld	$12, %xmm12
	pslld	$20, %xmm1
	por	%xmm12, %xmm1
	paddd	144(%rsp), %xmm15
	paddd	%xmm3, %xmm15
	movdqa	%xmm15, %xmm12
	movdqa	D(CPI9_5)(%rip), %xmm0
	pshufb	%xmm0, %xmm12
	pshufb	%xmm0, %xmm10
	pxor	%xmm12, %xmm10
	paddd	128(%rsp), %xmm6
	paddd	%xmm4, %xmm6
	movdqa	%xmm6, %xmm12
	pshufb	%xmm0, %xmm12
	pshufb	%xmm0, %xmm14
	pxor	%xmm12, %xmm14
	paddd	96(%rsp), %xmm8
	paddd	%xmm2, %xmm8
	movdqa	%xmm8, %xmm12
	pshufb	%xmm0, %xmm12
	pshufb	%xmm0, %xmm7
	pxor	%xmm12, %xmm7
	paddd	(%rsp), %xmm5
	paddd	%xmm1, %xmm5
	movdqa	%xmm5, %xmm12
	pshufb	%xmm0, %xmm12
	pshufb	%xmm0, %xmm9
	pxor	%xmm12, %xmm9
	movdqa	-112(%rsp), %xmm0
	paddd	%xmm10, %xmm0
	movdqa	%xmm0, -112(%rsp)
	pxor	%xmm0, %xmm3
	movdqa	%xmm3, %xmm12
	psrld	$7, %xmm12
	pslld	$25, %xmm3
	por	%xmm12, %xmm3
	paddd	%xmm14, %xmm13
	pxor	%xmm13, %xmm4
	movdqa	%xmm4, %xmm12
	psrld	$7, %xmm12
	pslld	$25, %xmm4
	por	%xmm12, %xmm4
	paddd	%xmm7, %xmm11
	pxor	%xmm11, %xmm2
	movdqa	%xmm2, %xmm12
	psrld	$7, %xmm12
	pslld	$25, %xmm2
	por	%xmm12, %xmm2
	movdqa	-128(%rsp), %xmm0
	paddd	%xmm9, %xmm0
	movdqa	%xmm0, -128(%rsp)
	pxor	%xmm0, %xmm1
	movdqa	%xmm1, %xmm12
	psrld	$7, %xmm12
	pslld	$25, %xmm1
	por	%xmm12, %xmm1
	paddd	-32(%rsp), %xmm6
	paddd	%xmm3, %xmm6
	pxor	%xmm6, %xmm7
	movdqa	D(CPI9_0)(%rip), %xmm0
	pshufb	%xmm0, %xmm7
	movdqa	-128(%rsp), %xmm12
	paddd	%xmm7, %xmm12
	movdqa	%xmm12, -128(%rsp)
	pxor	%xmm12, %xmm3
	movdqa	%xmm3, %xmm12
	psrld	$12, %xmm12
	pslld	$20, %xmm3
	por	%xmm12, %xmm3
	paddd	-64(%rsp), %xmm8
	paddd	%xmm4, %xmm8
	pxor	%xmm8, %xmm9
	pshufb	%xmm0, %xmm9
	movdqa	-112(%rsp), %xmm0
	paddd	%xmm9, %xmm0
	movdqa	%xmm0, -112(%rsp)
	pxor	%xmm0, %xmm4
	movdqa	%xmm4, %xmm12
	psrld	$12, %xmm12
	pslld	$20, %xmm4
	por	%xmm12, %xmm4
	paddd	-80(%rsp), %xmm5
	paddd	%xmm2, %xmm5
	pxor	%xmm5, %xmm10
	movdqa	D(CPI9_0)(%rip), %xmm0
	pshufb	%xmm0, %xmm10
	paddd	%xmm10, %xmm13
	pxor	%xmm13, %xmm2
	movdqa	%xmm2, %xmm12
	psrld	$12, %xmm12
	pslld	$20, %xmm2
	por	%xmm12, %xmm2
	paddd	-48(%rsp), %xmm15
	paddd	%xmm1, %xmm15
	pxor	%xmm15, %xmm14
	pshufb	%xmm0, %xmm14
	paddd	%xmm14, %xmm11
	pxor	%xmm11, %xmm1
	movdqa	%xmm1, %xmm12
	psrld	$12, %xmm12
	pslld	$20, %xmm1
	por	%xmm12, %xmm1
	paddd	32(%rsp), %xmm6
	paddd	%xmm3, %xmm6
	movdqa	%xmm6, %xmm12
	movdqa	D(CPI9_5)(%rip), %xmm0
	pshufb	%xmm0, %xmm12
	pshufb	%xmm0, %xmm7
	pxor	%xmm12, %xmm7
	paddd	-16(%rsp), %xmm8
	paddd	%xmm4, %xmm8
	movdqa	%xmm8, %xmm12
	pshufb	%xmm0, %xmm12
	pshufb	%xmm0, %xmm9
	pxor	%xmm12, %xmm9
	paddd	48(%rsp), %xmm5
	paddd	%xmm2, %xmm5
	movdqa	%xmm5, %xmm12
	pshufb	%xmm0, %xmm12
	pshufb	%xmm0, %xmm10
	pxor	%xmm12, %xmm10
	paddd	(%rsp), %xmm15
	paddd	%xmm1, %xmm15
	movdqa	%xmm15, %xmm12
	pshufb	%xmm0, %xmm12
	pshufb	%xmm0, %xmm14
	pxor	%xmm12, %xmm14
	movdqa	-128(%rsp), %xmm0
	paddd	%xmm7, %xmm0
	movdqa	%xmm0, -128(%rsp)
	pxor	%xmm0, %xmm3
	movdqa	%xmm3, %xmm12
	psrld	$7, %xmm12
	pslld	$25, %xmm3
	por	%xmm12, %xmm3
	movdqa	-112(%rsp), %xmm0
	paddd	%xmm9, %xmm0
	movdqa	%xmm0, -112(%rsp)
	pxor	%xmm0, %xmm4
	movdqa	%xmm4, %xmm12
	psrld	$7, %xmm12
	pslld	$25, %xmm4
	por	%xmm12, %xmm4
	paddd	%xmm10, %xmm13
	pxor	%xmm13, %xmm2
	movdqa	%xmm2, %xmm12
	psrld	$7, %xmm12
	pslld	$25, %xmm2
	por	%xmm12, %xmm2
	paddd	%xmm14, %xmm11
	pxor	%xmm11, %xmm1
	movdqa	%xmm1, %xmm12
	psrld	$7, %xmm12
	pslld	$25, %xmm1
	por	%xmm12, %xmm1
	paddd	144(%rsp), %xmm15
	paddd	%xmm3, %xmm15
	pxor	%xmm15, %xmm10
	movdqa	D(CPI9_0)(%rip), %xmm0
	pshufb	%xmm0, %xmm10
	movdqa	-112(%rsp), %xmm12
	paddd	%xmm10, %xmm12
	movdqa	%xmm12, -112(%rsp)
	pxor	%xmm12, %xmm3
	movdqa	%xmm3, %xmm12
	psrld	$12, %xmm12
	pslld	$20, %xmm3
	por	%xmm12, %xmm3
	paddd	16(%rsp), %xmm6
	paddd	%xmm4, %xmm6
	pxor	%xmm6, %xmm14
	pshufb	%xmm0, %xmm14
	paddd	%xmm14, %xmm13
	pxor	%xmm13, %xmm4
	movdqa	%xmm4, %xmm12
	psrld	$12, %xmm12
	pslld	$20, %xmm4
	por	%xmm12, %xmm4
	paddd	112(%rsp), %xmm8
	paddd	%xmm2, %xmm8
	pxor	%xmm8, %xmm7
	pshufb	%xmm0, %xmm7
	paddd	%xmm7, %xmm11
	pxor	%xmm11, %xmm2
	movdqa	%xmm2, %xmm12
	psrld	$12, %xmm12
	pslld	$20, %xmm2
	por	%xmm12, %xmm2
	paddd	128(%rsp), %xmm5
	paddd	%xmm1, %xmm5
	pxor	%xmm5, %xmm9
	pshufb	%xmm0, %xmm9
	movdqa	-128(%rsp), %xmm0
	paddd	%xmm9, %xmm0
	movdqa	%xmm0, -128(%rsp)
	pxor	%xmm0, %xmm1
	movdqa	%xmm1, %xmm12
	psrld	$12, %xmm12
	pslld	$20, %xmm1
	por	%xmm12, %xmm1
	paddd	80(%rsp), %xmm15
	paddd	%xmm3, %xmm15
	movdqa	%xmm15, %xmm12
	movdqa	D(CPI9_5)(%rip), %xmm0
	pshufb	%xmm0, %xmm12
	pshufb	%xmm0, %xmm10
	pxor	%xmm12, %xmm10
	paddd	96(%rsp), %xmm6
	paddd	%xmm4, %xmm6
	movdqa	%xmm6, %xmm12
	pshufb	%xmm0, %xmm12
	pshufb	%xmm0, %xmm14
	pxor	%xmm12, %xmm14
	paddd	-96(%rsp), %xmm8
	paddd	%xmm2, %xmm8
	movdqa	%xmm8, %xmm12
	pshufb	%xmm0, %xmm12
	pshufb	%xmm0, %xmm7
	pxor	%xmm12, %xmm7
	paddd	64(%rsp), %xmm5
	paddd	%xmm1, %xmm5
	movdqa	%xmm5, %xmm12
	pshufb	%xmm0, %xmm12
	pshufb	%xmm0, %xmm9
	pxor	%xmm12, %xmm9
	movdqa	-112(%rsp), %xmm0
	paddd	%xmm10, %xmm0
	movdqa	%xmm0, -112(%rsp)
	pxor	%xmm0, %xmm3
	movdqa	%xmm3, %xmm12
	psrld	$7, %xmm12
	pslld	$25, %xmm3
	por	%xmm12, %xmm3
	paddd	%xmm14, %xmm13
	pxor	%xmm13, %xmm4
	movdqa	%xmm4, %xmm12
	psrld	$7, %xmm12
	pslld	$25, %xmm4
	por	%xmm12, %xmm4
	paddd	%xmm7, %xmm11
	pxor	%xmm11, %xmm2
	movdqa	%xmm2, %xmm12
	psrld	$7, %xmm12
	pslld	$25, %xmm2
	por	%xmm12, %xmm2
	movdqa	-128(%rsp), %xmm0
	paddd	%xmm9, %xmm0
	movdqa	%xmm0, -128(%rsp)
	pxor	%xmm0, %xmm1
	movdqa	%xmm1, %xmm12
	psrld	$7, %xmm12
	pslld	$25, %xmm1
	por	%xmm12, %xmm1
	paddd	-64(%rsp), %xmm6
	paddd	-16(%rsp), %xmm8
	paddd	(%rsp), %xmm5
	paddd	-80(%rsp), %xmm15
	paddd	%xmm3, %xmm6
	pxor	%xmm6, %xmm7
	movdqa	D(CPI9_0)(%rip), %xmm0
	pshufb	%xmm0, %xmm7
	movdqa	-128(%rsp), %xmm12
	paddd	%xmm7, %xmm12
	movdqa	%xmm12, -128(%rsp)
	pxor	%xmm12, %xmm3
	movdqa	%xmm3, %xmm12
	psrld	$12, %xmm12
	pslld	$20, %xmm3
	por	%xmm12, %xmm3
	paddd	%xmm4, %xmm8
	pxor	%xmm8, %xmm9
	pshufb	%xmm0, %xmm9
	movdqa	-112(%rsp), %xmm12
	paddd	%xmm9, %xmm12
	movdqa	%xmm12, -112(%rsp)
	pxor	%xmm12, %xmm4
	movdqa	%xmm4, %xmm12
	psrld	$12, %xmm12
	pslld	$20, %xmm4
	por	%xmm12, %xmm4
	paddd	%xmm2, %xmm5
	pxor	%xmm5, %xmm10
	pshufb	%xmm0, %xmm10
	paddd	%xmm10, %xmm13
	pxor	%xmm13, %xmm2
	movdqa	%xmm2, %xmm12
	psrld	$12, %xmm12
	pslld	$20, %xmm2
	por	%xmm12, %xmm2
	paddd	%xmm1, %xmm15
	pxor	%xmm15, %xmm14
	pshufb	%xmm0, %xmm14
	paddd	%xmm14, %xmm11
	pxor	%xmm11, %xmm1
	movdqa	%xmm1, %xmm12
	psrld	$12, %xmm12
	pslld	$20, %xmm1
	por	%xmm12, %xmm1
	paddd	-48(%rsp), %xmm6
	paddd	112(%rsp), %xmm8
	paddd	-32(%rsp), %xmm5
	paddd	64(%rsp), %xmm15
	paddd	%xmm3, %xmm6
	movdqa	%xmm6, %xmm12
	movdqa	D(CPI9_5)(%rip), %xmm0
	pshufb	%xmm0, %xmm12
	pshufb	%xmm0, %xmm7
	pxor	%xmm12, %xmm7
	paddd	%xmm4, %xmm8
	movdqa	%xmm8, %xmm12
	pshufb	%xmm0, %xmm12
	pshufb	%xmm0, %xmm9
	pxor	%xmm12, %xmm9
	paddd	%xmm2, %xmm5
	movdqa	%xmm5, %xmm12
	pshufb	%xmm0, %xmm12
	pshufb	%xmm0, %xmm10
	pxor	%xmm12, %xmm10
	paddd	%xmm1, %xmm15
	movdqa	%xmm15, %xmm12
	pshufb	%xmm0, %xmm12
	pshufb	%xmm0, %xmm14
	pxor	%xmm12, %xmm14
	movdqa	-128(%rsp), %xmm0
	paddd	%xmm7, %xmm0
	movdqa	%xmm0, -128(%rsp)
	pxor	%xmm0, %xmm3
	movdqa	%xmm3, %xmm12
	psrld	$7, %xmm12
	pslld	$25, %xmm3
	por	%xmm12, %xmm3
	movdqa	-112(%rsp), %xmm0
	paddd	%xmm9, %xmm0
	pxor	%xmm0, %xmm4
	movdqa	%xmm4, %xmm12
	psrld	$7, %xmm12
	pslld	$25, %xmm4
	por	%xmm12, %xmm4
	paddd	%xmm10, %xmm13
	pxor	%xmm13, %xmm2
	movdqa	%xmm2, %xmm12
	psrld	$7, %xmm12
	pslld	$25, %xmm2
	por	%xmm12, %xmm2
	paddd	%xmm14, %xmm11
	pxor	%xmm11, %xmm1
	movdqa	%xmm1, %xmm12
	psrld	$7, %xmm12
	pslld	$25, %xmm1
	por	%xmm12, %xmm1
	paddd	80(%rsp), %xmm15
	paddd	32(%rsp), %xmm6
	paddd	128(%rsp), %xmm8
	paddd	96(%rsp), %xmm5
	paddd	%xmm3, %xmm15
	paddd	%xmm4, %xmm6
	paddd	%xmm2, %xmm8
	paddd	%xmm1, %xmm5
	pxor	%xmm15, %xmm10
	movdqa	D(CPI9_0)(%rip), %xmm12
	pshufb	%xmm12, %xmm10
	pxor	%xmm6, %xmm14
	pshufb	%xmm12, %xmm14
	pxor	%xmm8, %xmm7
	pshufb	%xmm12, %xmm7
	pxor	%xmm5, %xmm9
	pshufb	%xmm12, %xmm9
	paddd	%xmm10, %xmm0
	movdqa	%xmm0, -112(%rsp)
	pxor	%xmm0, %xmm3
	movdqa	%xmm3, %xmm12
	psrld	$12, %xmm12
	pslld	$20, %xmm3
	por	%xmm12, %xmm3
	paddd	%xmm14, %xmm13
	pxor	%xmm13, %xmm4
	movdqa	%xmm4, %xmm12
	psrld	$12, %xmm12
	pslld	$20, %xmm4
	por	%xmm12, %xmm4
	movdqa	%xmm11, %xmm0
	paddd	%xmm7, %xmm0
	pxor	%xmm0, %xmm2
	movdqa	%xmm2, %xmm12
	psrld	$12, %xmm12
	pslld	$20, %xmm2
	por	%xmm12, %xmm2
	movdqa	-128(%rsp), %xmm11
	paddd	%xmm9, %xmm11
	movdqa	%xmm11, -128(%rsp)
	pxor	%xmm11, %xmm1
	movdqa	%xmm1, %xmm12
	psrld	$12, %xmm12
	pslld	$20, %xmm1
	por	%xmm12, %xmm1
	paddd	16(%rsp), %xmm15
	paddd	-96(%rsp), %xmm6
	paddd	48(%rsp), %xmm8
	paddd	144(%rsp), %xmm5
	paddd	%xmm2, %xmm8
	movdqa	%xmm8, %xmm12
	movdqa	D(CPI9_5)(%rip), %xmm11
	pshufb	%xmm11, %xmm12
	pshufb	%xmm11, %xmm7
	pxor	%xmm12, %xmm7
	paddd	%xmm3, %xmm15
	paddd	%xmm7, %xmm0
	pxor	%xmm0, %xmm2
	pxor	%xmm15, %xmm0
	pshufb	%xmm11, %xmm15
	pshufb	%xmm11, %xmm10
	pxor	%xmm15, %xmm10
	paddd	%xmm1, %xmm5
	movdqa	%xmm5, %xmm12
	pshufb	%xmm11, %xmm12
	pshufb	%xmm11, %xmm9
	pxor	%xmm12, %xmm9
	paddd	%xmm4, %xmm6
	movdqa	-128(%rsp), %xmm12
	paddd	%xmm9, %xmm12
	pxor	%xmm12, %xmm1
	pxor	%xmm6, %xmm12
	pshufb	%xmm11, %xmm6
	pshufb	%xmm11, %xmm14
	pxor	%xmm6, %xmm14
	movdqa	-112(%rsp), %xmm6
	paddd	%xmm10, %xmm6
	paddd	%xmm14, %xmm13
	pxor	%xmm6, %xmm3
	movdqa	%xmm6, %xmm11
	pxor	%xmm13, %xmm4
	movdqa	%xmm3, %xmm6
	psrld	$7, %xmm6
	pslld	$25, %xmm3
	por	%xmm6, %xmm3
	movdqa	%xmm4, %xmm6
	psrld	$7, %xmm6
	pslld	$25, %xmm4
	por	%xmm6, %xmm4
	movdqa	%xmm2, %xmm6
	psrld	$7, %xmm6
	pslld	$25, %xmm2
	por	%xmm6, %xmm2
	movdqa	%xmm1, %xmm6
	psrld	$7, %xmm6
	pslld	$25, %xmm1
	por	%xmm6, %xmm1
	pxor	%xmm8, %xmm11
	pxor	%xmm5, %xmm13
	pxor	%xmm7, %xmm3
	pxor	%xmm9, %xmm4
	pxor	%xmm10, %xmm2
	pxor	%xmm14, %xmm1
	movdqu	%xmm12, (%rdi)
	movdqu	%xmm11, 16(%rdi)
	movdqu	%xmm13, 32(%rdi)
	movdqu	%xmm0, 48(%rdi)
	movdqu	%xmm3, 64(%rdi)
	movdqu	%xmm4, 80(%rdi)
	movdqu	%xmm2, 96(%rdi)
	movdqu	%xmm1, 112(%rdi)
	addq	$168, %rsp
	.cfi_def_cfa_offset 8
	retq
	SIZE("keyed_blake3::compression::lanes::take_in_each::<#8b36ca032ac25711>")
	.cfi_endproc

CODE(".text.keyed_blake3::hasher::Hasher::finalize")
	.p2align	4
	TYPE("keyed_blake3::hasher::Hasher::finalize", function)
"keyed_blake3::hasher::Hasher::finalize":
	.cfi_startproc
	endbr64
	pushq	%rbp
	.cfi_def_cfa_offset 16
	pushq	%r15
	.cfi_def_cfa_offset 24
	pushq	%r14
	.cfi_def_cfa_offset 32
	pushq	%r13
	.cfi_def_cfa_offset 40
	pushq	%r12
	.cfi_def_cfa_offset 48
	pushq	%rbx
	.cfi_def_cfa_offset 56
	subq	$200, %rsp
	.cfi_def_cfa_offset 256
	.cfi_offset %rbx, -56
	.cfi_offset %r12, -48
	.cfi_offset %r13, -40
	.cfi_offset %r14, -32
	.cfi_offset %r15, -24
	.cfi_offset %rbp, -16
	movq	%rsi, %r14
	movq	%rdi, %rbx
	movq	1856(%rsi), %r12
	cmpq	$1025, %r12
	setb	%al
	testl	$1023, %r12d
	setne	%cl
	orb	%al, %cl
	jne	L(10_2)
	shrq	$10, %r12
	xorl	%eax, %eax
	popcntq	%r12, %rax
	cmpl	$3, %eax
	movl	$2, %r15d
	cmovael	%eax, %r15d
	decq	%r15
	movq	%r15, %rax
	shlq	$5, %rax
	movups	64(%r14,%rax), %xmm0
	movups	80(%r14,%rax), %xmm1
	movaps	%xmm1, 16(%rsp)
	movaps	%xmm0, (%rsp)
	testq	%r15, %r15
	jne	L(10_7)
	jmp	L(10_18)
L(10_2):
	cmpq	$1, %r12
	movq	%r12, %rax
	adcq	$-1, %rax
	movq	%rax, %r15
	shrq	$10, %r15
	movq	%rax, %rcx
	andq	$-64, %rcx
	subq	%rcx, %r12
	leaq	1792(%r14), %rsi
	xorl	%ecx, %ecx
	testq	%r15, %r15
	sete	%cl
	xorps	%xmm0, %xmm0
	movaps	%xmm0, 32(%rsp)
	movaps	%xmm0, 48(%rsp)
	xorl	%edx, %edx
	testl	$960, %eax
	sete	%dl
	leal	(%rdx,%rcx,8), %ebp
	addl	$18, %ebp
	cmpq	$64, %r12
	jne	L(10_4)
	movups	(%rsi), %xmm0
	movups	16(%rsi), %xmm1
	movups	32(%rsi), %xmm2
	movups	48(%rsi), %xmm3
	movaps	%xmm3, 112(%rsp)
	movaps	%xmm2, 96(%rsp)
	movaps	%xmm1, 80(%rsp)
	movaps	%xmm0, 64(%rsp)
	movups	32(%r14), %xmm0
	movups	48(%r14), %xmm1
	leaq	32(%rsp), %rdi
	leaq	64(%rsp), %rsi
	movq	%r15, %rdx
	movl	$64, %ecx
	movl	%ebp, %r8d
	callq	"keyed_blake3::compression::compress"
	movaps	32(%rsp), %xmm0
	movaps	48(%rsp), %xmm1
	movaps	%xmm0, 128(%rsp)
	movaps	%xmm1, 144(%rsp)
	jmp	L(10_5)
L(10_4):
	movaps	%xmm0, 112(%rsp)
	movaps	%xmm0, 96(%rsp)
	movaps	%xmm0, 80(%rsp)
	movaps	%xmm0, 64(%rsp)
	leaq	64(%rsp), %r13
	movq	%r13, %rdi
	movq	%r12, %rdx
	callq	PLT(memcpy)
	movups	32(%r14), %xmm0
	movups	48(%r14), %xmm1
	leaq	32(%rsp), %rdi
	movq	%r13, %rsi
	movq	%r15, %rdx
	movl	%r12d, %ecx
	movl	%ebp, %r8d
	callq	"keyed_blake3::compression::compress"
	movaps	32(%rsp), %xmm0
	movaps	48(%rsp), %xmm1
	movaps	%xmm1, 144(%rsp)
	movaps	%xmm0, 128(%rsp)
L(10_5):
	popcntq	%r15, %r15
	movaps	128(%rsp), %xmm0
	movaps	144(%rsp), %xmm1
	movaps	%xmm0, (%rsp)
	movaps	%xmm1, 16(%rsp)
	testq	%r15, %r15
	je	L(10_18)
L(10_7):
	movq	%rsp, %rax
	negq	%rax
	addq	%rsp, %rax
	addq	$96, %rax
	movups	(%r14), %xmm0
	movaps	%xmm0, 176(%rsp)
	movups	16(%r14), %xmm0
	movaps	%xmm0, 160(%rsp)
	cmpq	$32, %rax
	jae	L(10_8)
	shlq	$5, %r15
	addq	$32, %r14
	jmp	L(10_12)
	.p2align	4
L(10_14):
	movups	(%r14,%r15), %xmm0
	movaps	%xmm0, 64(%rsp)
	movups	16(%r14,%r15), %xmm0
	movaps	%xmm0, 80(%rsp)
L(10_15):
	xorl	%eax, %eax
	cmpq	$32, %r15
	sete	%al
	movaps	(%rsp), %xmm0
	movaps	16(%rsp), %xmm1
	movaps	%xmm0, 96(%rsp)
	movaps	%xmm1, 112(%rsp)
	leal	20(,%rax,8), %r8d
	leaq	32(%rsp), %rdi
	leaq	64(%rsp), %rsi
	movaps	176(%rsp), %xmm0
	movaps	160(%rsp), %xmm1
	xorl	%edx, %edx
	movl	$64, %ecx
	callq	"keyed_blake3::compression::compress"
	movups	32(%rsp), %xmm0
	movups	48(%rsp), %xmm1
	movaps	%xmm1, 144(%rsp)
	movaps	%xmm0, 128(%rsp)
	movaps	%xmm0, (%rsp)
	movaps	%xmm1, 16(%rsp)
	addq	$-32, %r15
	je	L(10_18)
L(10_12):
	leaq	(%r14,%r15), %rax
	leaq	64(%rsp), %rcx
	subq	%rax, %rcx
	cmpq	$32, %rcx
	jb	L(10_14)
	movups	(%rax), %xmm0
	movups	16(%rax), %xmm1
	movaps	%xmm1, 80(%rsp)
	movaps	%xmm0, 64(%rsp)
	jmp	L(10_15)
L(10_8):
	leaq	96(%rsp), %r12
	shlq	$5, %r15
	addq	$32, %r14
	jmp	L(10_9)
	.p2align	4
L(10_16):
	movups	(%rax), %xmm0
	movups	16(%rax), %xmm1
	movaps	%xmm1, 80(%rsp)
	movaps	%xmm0, 64(%rsp)
L(10_17):
	xorl	%eax, %eax
	cmpq	$32, %r15
	sete	%al
	movaps	(%rsp), %xmm0
	movaps	16(%rsp), %xmm1
	movaps	%xmm1, 16(%r12)
	movaps	%xmm0, (%r12)
	leal	20(,%rax,8), %r8d
	leaq	32(%rsp), %rdi
	leaq	64(%rsp), %rsi
	movaps	176(%rsp), %xmm0
	movaps	160(%rsp), %xmm1
	xorl	%edx, %edx
	movl	$64, %ecx
	callq	"keyed_blake3::compression::compress"
	movups	32(%rsp), %xmm0
	movups	48(%rsp), %xmm1
	movaps	%xmm1, 144(%rsp)
	movaps	%xmm0, 128(%rsp)
	movaps	%xmm0, (%rsp)
	movaps	%xmm1, 16(%rsp)
	addq	$-32, %r15
	je	L(10_18)
L(10_9):
	leaq	(%r14,%r15), %rax
	leaq	64(%rsp), %rcx
	subq	%rax, %rcx
	cmpq	$31, %rcx
	ja	L(10_16)
	movups	(%r14,%r15), %xmm0
	movaps	%xmm0, 64(%rsp)
	movups	16(%r14,%r15), %xmm0
	movaps	%xmm0, 80(%rsp)
	jmp	L(10_17)
L(10_18):
	movaps	(%rsp), %xmm0
	movups	%xmm0, (%rbx)
	movaps	16(%rsp), %xmm0
	movups	%xmm0, 16(%rbx)
	addq	$200, %rsp
	.cfi_def_cfa_offset 56
	popq	%rbx
	.cfi_def_cfa_offset 48
	popq	%r12
	.cfi_def_cfa_offset 40
	popq	%r13
	.cfi_def_cfa_offset 32
	popq	%r14
	.cfi_def_cfa_offset 24
	popq	%r15
	.cfi_def_cfa_offset 16
	popq	%rbp
	.cfi_def_cfa_offset 8
	retq
	SIZE("keyed_blake3::hasher::Hasher::finalize")
	.cfi_endproc

CODE(".text.xet_roots::groups::parent_hashes")
	.p2align	4
	TYPE("xet_roots::groups::parent_hashes", function)
"xet_roots::groups::parent_hashes":
	.cfi_startproc
	endbr64
	pushq	%rbp
	.cfi_def_cfa_offset 16
	pushq	%r15
	.cfi_def_cfa_offset 24
	pushq	%r14
	.cfi_def_cfa_offset 32
	pushq	%r13
	.cfi_def_cfa_offset 40
	pushq	%r12
	.cfi_def_cfa_offset 48
	pushq	%rbx
	.cfi_def_cfa_offset 56
	subq	$3072, %rsp
	.cfi_adjust_cfa_offset 3072
	movq	$0, (%rsp)
	subq	$3072, %rsp
	.cfi_adjust_cfa_offset 3072
	movq	$0, (%rsp)
	subq	$3072, %rsp
	.cfi_adjust_cfa_offset 3072
	movq	$0, (%rsp)
	subq	$3072, %rsp
	.cfi_adjust_cfa_offset 3072
	movq	$0, (%rsp)
	subq	$3072, %rsp
	.cfi_adjust_cfa_offset 3072
	movq	$0, (%rsp)
	subq	$3072, %rsp
	.cfi_adjust_cfa_offset 3072
	movq	$0, (%rsp)
	subq	$2216, %rsp
	.cfi_def_cfa_offset 20704
	.cfi_offset %rbx, -56
	.cfi_offset %r12, -48
	.cfi_offset %r13, -40
	.cfi_offset %r14, -32
	.cfi_offset %r15, -24
	.cfi_offset %rbp, -16
	movq	%rdx, %r15
	movq	%rsi, %r14
	movq	%rdi, 152(%rsp)
	leaq	936(%rsp), %rdi
	movl	$640, %edx
	xorl	%esi, %esi
	callq	PLT(memset)
	xorps	%xmm0, %xmm0
	movaps	%xmm0, 64(%rsp)
	movaps	%xmm0, 80(%rsp)
	movaps	%xmm0, 96(%rsp)
	movaps	%xmm0, 112(%rsp)
	movaps	%xmm0, 128(%rsp)
	testq	%r15, %r15
	je	L(15_1)
	cmpq	$1, %r15
	jne	L(15_4)
	xorl	%eax, %eax
	jmp	L(15_7)
L(15_1):
	movq	$0, 16(%rsp)
	movq	$0, 8(%rsp)
	xorl	%ecx, %ecx
	movq	$0, 48(%rsp)
	movq	$0, 40(%rsp)
	movq	$0, 32(%rsp)
	movq	$0, 24(%rsp)
	xorl	%ebx, %ebx
	xorl	%r12d, %r12d
	xorl	%r13d, %r13d
	jmp	L(15_9)
L(15_4):
	movq	%r15, %rcx
	andq	$-2, %rcx
	leaq	24(%r14), %rdx
	xorl	%eax, %eax
	.p2align	4
L(15_5):
	movq	-16(%rdx), %rsi
	movq	64(%rsp,%rsi,8), %rdi
	movq	%rsi, %r8
	shlq	$6, %r8
	addq	%rsp, %r8
	addq	$936, %r8
	movb	%al, (%rdi,%r8)
	incq	%rdi
	movq	%rdi, 64(%rsp,%rsi,8)
	movq	(%rdx), %rsi
	movq	64(%rsp,%rsi,8), %rdi
	movq	%rsi, %r8
	shlq	$6, %r8
	addq	%rsp, %r8
	addq	$936, %r8
	leal	1(%rax), %r9d
	movb	%r9b, (%rdi,%r8)
	incq	%rdi
	movq	%rdi, 64(%rsp,%rsi,8)
	addq	$2, %rax
	addq	$32, %rdx
	cmpq	%rcx, %rax
	jne	L(15_5)
	testb	$1, %r15b
	je	L(15_8)
L(15_7):
	movq	%rax, %rcx
	shlq	$4, %rcx
	movq	8(%r14,%rcx), %rcx
	movq	64(%rsp,%rcx,8), %rdx
	movq	%rcx, %rsi
	shlq	$6, %rsi
	addq	%rsp, %rsi
	addq	$936, %rsi
	movb	%al, (%rdx,%rsi)
	incq	%rdx
	movq	%rdx, 64(%rsp,%rcx,8)
L(15_8):
	movq	64(%rsp), %r13
	movq	72(%rsp), %r12
	movq	80(%rsp), %rbx
	movq	88(%rsp), %rax
	movq	%rax, 24(%rsp)
	movq	96(%rsp), %rax
	movq	%rax, 32(%rsp)
	movq	104(%rsp), %rax
	movq	%rax, 40(%rsp)
	movq	112(%rsp), %rax
	movq	%rax, 48(%rsp)
	movq	120(%rsp), %rcx
	movq	128(%rsp), %rax
	movq	%rax, 8(%rsp)
	movq	136(%rsp), %rax
	movq	%rax, 16(%rsp)
L(15_9):
	movq	%rcx, 56(%rsp)
	leaq	3624(%rsp), %r15
	leaq	936(%rsp), %rsi
	movl	$640, %edx
	movq	%r15, %rdi
	callq	PLT(memcpy)
	leaq	296(%rsp), %rdi
	movl	$640, %edx
	movq	%r15, %rsi
	callq	PLT(memcpy)
	leaq	1576(%rsp), %rdi
	xorl	%r15d, %r15d
	movl	$2048, %edx
	xorl	%esi, %esi
	callq	PLT(memset)
	leaq	4264(%rsp), %rdi
	movl	$16384, %edx
	xorl	%esi, %esi
	callq	PLT(memset)
	xorps	%xmm0, %xmm0
	movaps	%xmm0, 160(%rsp)
	movaps	%xmm0, 176(%rsp)
	movaps	%xmm0, 192(%rsp)
	movaps	%xmm0, 208(%rsp)
	movaps	%xmm0, 224(%rsp)
	movaps	%xmm0, 240(%rsp)
	movaps	%xmm0, 256(%rsp)
	movaps	%xmm0, 272(%rsp)
	testq	%r13, %r13
	je	L(15_14)
	xorl	%r15d, %r15d
	xorl	%ebp, %ebp
	jmp	L(15_11)
	.p2align	4
L(15_13):
	incq	%rbp
	cmpq	%rbp, %r13
	je	L(15_14)
L(15_11):
	movzbl	296(%rsp,%rbp), %eax
	movq	%rax, 160(%rsp,%r15,8)
	incq	%r15
	cmpq	$16, %r15
	jne	L(15_13)
	leaq	160(%rsp), %rsi
	leaq	4264(%rsp), %rcx
	leaq	1576(%rsp), %r8
	movl	$16, %edx
	movq	%r14, %rdi
	callq	"xet_roots::groups::hash_at"
	xorl	%r15d, %r15d
	jmp	L(15_13)
L(15_14):
	testq	%r12, %r12
	je	L(15_15)
	xorl	%r13d, %r13d
	movq	56(%rsp), %rbp
	jmp	L(15_17)
	.p2align	4
L(15_19):
	incq	%r13
	cmpq	%r13, %r12
	je	L(15_20)
L(15_17):
	movzbl	360(%rsp,%r13), %eax
	movq	%rax, 160(%rsp,%r15,8)
	incq	%r15
	cmpq	$16, %r15
	jne	L(15_19)
	leaq	160(%rsp), %rsi
	leaq	4264(%rsp), %rcx
	leaq	1576(%rsp), %r8
	movl	$16, %edx
	movq	%r14, %rdi
	callq	"xet_roots::groups::hash_at"
	xorl	%r15d, %r15d
	jmp	L(15_19)
L(15_15):
	movq	56(%rsp), %rbp
L(15_20):
	testq	%rbx, %rbx
	je	L(15_21)
	xorl	%r12d, %r12d
	movq	8(%rsp), %r13
	jmp	L(15_23)
	.p2align	4
L(15_25):
	incq	%r12
	cmpq	%r12, %rbx
	je	L(15_26)
L(15_23):
	movzbl	424(%rsp,%r12), %eax
	movq	%rax, 160(%rsp,%r15,8)
	incq	%r15
	cmpq	$16, %r15
	jne	L(15_25)
	leaq	160(%rsp), %rsi
	leaq	4264(%rsp), %rcx
	leaq	1576(%rsp), %r8
	movl	$16, %edx
	movq	%r14, %rdi
	callq	"xet_roots::groups::hash_at"
	xorl	%r15d, %r15d
	jmp	L(15_25)
L(15_21):
	movq	8(%rsp), %r13
L(15_26):
	cmpq	$0, 24(%rsp)
	je	L(15_27)
	xorl	%ebx, %ebx
	movq	16(%rsp), %r12
	jmp	L(15_29)
	.p2align	4
L(15_31):
	incq	%rbx
	cmpq	%rbx, 24(%rsp)
	je	L(15_32)
L(15_29):
	movzbl	488(%rsp,%rbx), %eax
	movq	%rax, 160(%rsp,%r15,8)
	incq	%r15
	cmpq	$16, %r15
	jne	L(15_31)
	leaq	160(%rsp), %rsi
	leaq	4264(%rsp), %rcx
	leaq	1576(%rsp), %r8
	movl	$16, %edx
	movq	%r14, %rdi
	callq	"xet_roots::groups::hash_at"
	xorl	%r15d, %r15d
	jmp	L(15_31)
L(15_27):
	movq	16(%rsp), %r12
L(15_32):
	cmpq	$0, 32(%rsp)
	je	L(15_37)
	xorl	%ebx, %ebx
	jmp	L(15_34)
	.p2align	4
L(15_36):
	incq	%rbx
	cmpq	%rbx, 32(%rsp)
	je	L(15_37)
L(15_34):
	movzbl	552(%rsp,%rbx), %eax
	movq	%rax, 160(%rsp,%r15,8)
	incq	%r15
	cmpq	$16, %r15
	jne	L(15_36)
	leaq	160(%rsp), %rsi
	leaq	4264(%rsp), %rcx
	leaq	1576(%rsp), %r8
	movl	$16, %edx
	movq	%r14, %rdi
	callq	"xet_roots::groups::hash_at"
	xorl	%r15d, %r15d
	jmp	L(15_36)
L(15_37):
	cmpq	$0, 40(%rsp)
	je	L(15_42)
	xorl	%ebx, %ebx
	jmp	L(15_39)
	.p2align	4
L(15_41):
	incq	%rbx
	cmpq	%rbx, 40(%rsp)
	je	L(15_42)
L(15_39):
	movzbl	616(%rsp,%rbx), %eax
	movq	%rax, 160(%rsp,%r15,8)
	incq	%r15
	cmpq	$16, %r15
	jne	L(15_41)
	leaq	160(%rsp), %rsi
	leaq	4264(%rsp), %rcx
	leaq	1576(%rsp), %r8
	movl	$16, %edx
	movq	%r14, %rdi
	callq	"xet_roots::groups::hash_at"
	xorl	%r15d, %r15d
	jmp	L(15_41)
L(15_42):
	cmpq	$0, 48(%rsp)
	je	L(15_47)
	xorl	%ebx, %ebx
	jmp	L(15_44)
	.p2align	4
L(15_46):
	incq	%rbx
	cmpq	%rbx, 48(%rsp)
	je	L(15_47)
L(15_44):
	movzbl	680(%rsp,%rbx), %eax
	movq	%rax, 160(%rsp,%r15,8)
	incq	%r15
	cmpq	$16, %r15
	jne	L(15_46)
	leaq	160(%rsp), %rsi
	leaq	4264(%rsp), %rcx
	leaq	1576(%rsp), %r8
	movl	$16, %edx
	movq	%r14, %rdi
	callq	"xet_roots::groups::hash_at"
	xorl	%r15d, %r15d
	jmp	L(15_46)
L(15_47):
	testq	%rbp, %rbp
	je	L(15_52)
	xorl	%ebx, %ebx
	jmp	L(15_49)
	.p2align	4
L(15_51):
	incq	%rbx
	cmpq	%rbx, %rbp
	je	L(15_52)
L(15_49):
	movzbl	744(%rsp,%rbx), %eax
	movq	%rax, 160(%rsp,%r15,8)
	incq	%r15
	cmpq	$16, %r15
	jne	L(15_51)
	leaq	160(%rsp), %rsi
	leaq	4264(%rsp), %rcx
	leaq	1576(%rsp), %r8
	movl	$16, %edx
	movq	%r14, %rdi
	callq	"xet_roots::groups::hash_at"
	xorl	%r15d, %r15d
	jmp	L(15_51)
L(15_52):
	testq	%r13, %r13
	je	L(15_57)
	xorl	%ebx, %ebx
	jmp	L(15_54)
	.p2align	4
L(15_56):
	incq	%rbx
	cmpq	%rbx, %r13
	je	L(15_57)
L(15_54):
	movzbl	808(%rsp,%rbx), %eax
	movq	%rax, 160(%rsp,%r15,8)
	incq	%r15
	cmpq	$16, %r15
	jne	L(15_56)
	leaq	160(%rsp), %rsi
	leaq	4264(%rsp), %rcx
	leaq	1576(%rsp), %r8
	movl	$16, %edx
	movq	%r14, %rdi
	callq	"xet_roots::groups::hash_at"
	xorl	%r15d, %r15d
	jmp	L(15_56)
L(15_57):
	testq	%r12, %r12
	je	L(15_62)
	xorl	%ebx, %ebx
	jmp	L(15_59)
	.p2align	4
L(15_61):
	incq	%rbx
	cmpq	%rbx, %r12
	je	L(15_62)
L(15_59):
	movzbl	872(%rsp,%rbx), %eax
	movq	%rax, 160(%rsp,%r15,8)
	incq	%r15
	cmpq	$16, %r15
	jne	L(15_61)
	leaq	160(%rsp), %rsi
	leaq	4264(%rsp), %rcx
	leaq	1576(%rsp), %r8
	movl	$16, %edx
	movq	%r14, %rdi
	callq	"xet_roots::groups::hash_at"
	xorl	%r15d, %r15d
	jmp	L(15_61)
L(15_62):
	leaq	160(%rsp), %rsi
	leaq	4264(%rsp), %rcx
	leaq	1576(%rsp), %r12
	movq	%r14, %rdi
	movq	%r15, %rdx
	movq	%r12, %r8
	callq	"xet_roots::groups::hash_at"
	movl	$2048, %edx
	movq	152(%rsp), %rdi
	movq	%r12, %rsi
	callq	PLT(memcpy)
	addq	$20648, %rsp
	.cfi_def_cfa_offset 56
	popq	%rbx
	.cfi_def_cfa_offset 48
	popq	%r12
	.cfi_def_cfa_offset 40
	popq	%r13
	.cfi_def_cfa_offset 32
	popq	%r14
	.cfi_def_cfa_offset 24
	popq	%r15
	.cfi_def_cfa_offset 16
	popq	%rbp
	.cfi_def_cfa_offset 8
	retq
	SIZE("xet_roots::groups::parent_hashes")
	.cfi_endproc

SIZED(16, 4)
	.p2align	4, 0x0
D(CPI16_0):
	.quad	-9223372036854775808
	.quad	-9223372036854775808
D(CPI16_1):
	.quad	-9223372036854775807
	.quad	-9223372036854775807
D(CPI16_2):
	.quad	4294967232
	.quad	4294967232
D(CPI16_3):
	.long	3351608833
	.long	3351608833
	.long	3351608833
	.long	3351608833
D(CPI16_4):
	.long	2519287717
	.long	2519287717
	.long	2519287717
	.long	2519287717
D(CPI16_5):
	.long	1717998845
	.long	1717998845
	.long	1717998845
	.long	1717998845
D(CPI16_6):
	.long	3858926260
	.long	3858926260
	.long	3858926260
	.long	3858926260
D(CPI16_7):
	.long	1867767133
	.long	1867767133
	.long	1867767133
	.long	1867767133
D(CPI16_8):
	.long	3530409783
	.long	3530409783
	.long	3530409783
	.long	3530409783
D(CPI16_9):
	.long	3864159224
	.long	3864159224
	.long	3864159224
	.long	3864159224
D(CPI16_10):
	.long	1064391498
	.long	1064391498
	.long	1064391498
	.long	1064391498
D(CPI16_11):
	.long	64
	.long	64
	.long	64
	.long	64
CODE(".text.xet_roots::groups::hash_at")
	.p2align	4
	TYPE("xet_roots::groups::hash_at", function)
"xet_roots::groups::hash_at":
	.cfi_startproc
	pushq	%rbp
	.cfi_def_cfa_offset 16
	pushq	%r15
	.cfi_def_cfa_offset 24
	pushq	%r14
	.cfi_def_cfa_offset 32
	pushq	%r13
	.cfi_def_cfa_offset 40
	pushq	%r12
	.cfi_def_cfa_offset 48
	pushq	%rbx
	.cfi_def_cfa_offset 56
	subq	$3072, %rsp
	.cfi_adjust_cfa_offset 3072
	movq	$0, (%rsp)
	subq	$40, %rsp
	.cfi_def_cfa_offset 3168
	.cfi_offset %rbx, -56
	.cfi_offset %r12, -48
	.cfi_offset %r13, -40
	.cfi_offset %r14, -32
	.cfi_offset %r15, -24
	.cfi_offset %rbp, -16
	pxor	%xmm0, %xmm0
	movdqa	%xmm0, 528(%rsp)
	movdqa	%xmm0, 512(%rsp)
	movdqa	%xmm0, 496(%rsp)
	movdqa	%xmm0, 480(%rsp)
	movdqa	%xmm0, 464(%rsp)
	movdqa	%xmm0, 448(%rsp)
	movdqa	%xmm0, 432(%rsp)
	movdqa	%xmm0, 416(%rsp)
	testq	%rdx, %rdx
	je	L(16_35)
	movq	%rdx, %r15
	movq	%rsi, %r14
	movq	%rdi, %r13
	movq	%r8, 32(%rsp)
	xorl	%ebx, %ebx
	movq	%rcx, 16(%rsp)
	movq	%rcx, %rbp
	.p2align	4
L(16_2):
	movq	(%r14,%rbx,8), %rax
	shlq	$4, %rax
	movq	(%r13,%rax), %rsi
	movq	8(%r13,%rax), %rdx
	movq	%rbp, %rdi
	callq	"xet_roots::groups::write_text"
	movq	%rax, 416(%rsp,%rbx,8)
	incq	%rbx
	addq	$1024, %rbp
	cmpq	%rbx, %r15
	jne	L(16_2)
	movq	%r14, 24(%rsp)
	leaq	1576(%rsp), %rdi
	xorl	%ebx, %ebx
	movl	$512, %edx
	xorl	%esi, %esi
	callq	PLT(memset)
	movq	%r15, %rax
	decq	%rax
	movq	%rax, 40(%rsp)
	je	L(16_4)
	movq	%r15, %r14
	andq	$-2, %r14
	xorl	%ebx, %ebx
	movq	16(%rsp), %rbp
	movq	%rbp, %r12
	.p2align	4
L(16_6):
	movq	416(%rsp,%rbx,8), %rax
	leaq	64(%rax), %rdx
	cmpq	$1024, %rdx
	movl	$1024, %r13d
	cmovaeq	%r13, %rdx
	leaq	(%r12,%rax), %rdi
	subq	%rax, %rdx
	xorl	%esi, %esi
	callq	PLT(memset)
	movq	424(%rsp,%rbx,8), %rax
	leaq	64(%rax), %rcx
	cmpq	$1024, %rcx
	cmovbq	%rcx, %r13
	leaq	(%rax,%r12), %rdi
	addq	$1024, %rdi
	subq	%rax, %r13
	xorl	%esi, %esi
	movq	%r13, %rdx
	callq	PLT(memset)
	addq	$2, %rbx
	addq	$2048, %r12
	cmpq	%rbx, %r14
	jne	L(16_6)
	testb	$1, %r15b
	jne	L(16_8)
	jmp	L(16_9)
L(16_4):
	movq	16(%rsp), %rbp
L(16_8):
	movq	%rbx, %rdi
	shlq	$10, %rdi
	addq	%rbp, %rdi
	movq	416(%rsp,%rbx,8), %rax
	leaq	64(%rax), %rcx
	cmpq	$1024, %rcx
	movl	$1024, %edx
	cmovbq	%rcx, %rdx
	addq	%rax, %rdi
	subq	%rax, %rdx
	xorl	%esi, %esi
	callq	PLT(memset)
L(16_9):
	xorl	%r12d, %r12d
	jmp	L(16_10)
	.p2align	4
L(16_22):
	leaq	1(%r12), %rbx
	movq	%rbx, %rax
	shlq	$10, %rax
	addq	%rbp, %rax
	movq	424(%rsp,%r12,8), %r8
	leaq	320(%rsp), %rdi
	movq	%rdx, %rsi
	movq	%rcx, %rdx
	movq	%rax, %rcx
	callq	"keyed_blake3::keyed_hash_two"
	movq	%r12, %rax
	shlq	$5, %rax
	movaps	320(%rsp), %xmm0
	movaps	336(%rsp), %xmm1
	movups	%xmm1, 1592(%rsp,%rax)
	movups	%xmm0, 1576(%rsp,%rax)
	shlq	$5, %rbx
	leaq	352(%rsp), %rax
	movdqu	(%rax), %xmm0
	movups	16(%rax), %xmm1
	movdqu	%xmm0, 1576(%rsp,%rbx)
	movups	%xmm1, 1592(%rsp,%rbx)
	addq	$2, %r12
L(16_23):
	cmpq	%r15, %r12
	jae	L(16_24)
L(16_10):
	pxor	%xmm0, %xmm0
	movdqa	%xmm0, 96(%rsp)
	movdqa	%xmm0, 112(%rsp)
	movdqa	%xmm0, 320(%rsp)
	movdqa	%xmm0, 336(%rsp)
	movdqa	%xmm0, 352(%rsp)
	movdqa	%xmm0, 368(%rsp)
	movq	%r15, %rax
	subq	%r12, %rax
	cmpq	$3, %rax
	jb	L(16_20)
	movdqa	%xmm0, 1168(%rsp)
	movdqa	%xmm0, 1152(%rsp)
	movdqa	%xmm0, 1136(%rsp)
	movdqa	%xmm0, 1120(%rsp)
	movdqa	%xmm0, 1104(%rsp)
	movdqa	%xmm0, 1088(%rsp)
	movdqa	%xmm0, 1072(%rsp)
	movl	$4, %r14d
	cmovbeq	%rax, %r14
	movdqa	%xmm0, 1056(%rsp)
	leaq	416(%rsp,%r12,8), %rax
	movdqa	%xmm0, 544(%rsp)
	movdqa	%xmm0, 64(%rsp)
	jne	L(16_36)
	xorl	%ebx, %ebx
	xorl	%ecx, %ecx
	jmp	L(16_13)
	.p2align	4
L(16_20):
	movq	%r12, %rdx
	shlq	$10, %rdx
	addq	%rbp, %rdx
	movq	416(%rsp,%r12,8), %rcx
	cmpq	$1, %rax
	jne	L(16_22)
	leaq	D(static.7)(%rip), %rsi
	leaq	96(%rsp), %rdi
	callq	"keyed_blake3::keyed_hash"
	movq	%r12, %rax
	shlq	$5, %rax
	movdqa	96(%rsp), %xmm0
	movaps	112(%rsp), %xmm1
	movups	%xmm1, 1592(%rsp,%rax)
	movdqu	%xmm0, 1576(%rsp,%rax)
	incq	%r12
	jmp	L(16_23)
	.p2align	4
L(16_36):
	movl	%r14d, %ecx
	andl	$4, %ecx
	movdqu	(%rax), %xmm0
	movdqu	16(%rax), %xmm2
	pcmpeqd	%xmm3, %xmm3
	movdqa	%xmm0, %xmm4
	paddq	%xmm3, %xmm4
	movdqa	D(CPI16_0)(%rip), %xmm1
	movdqa	%xmm0, %xmm5
	pxor	%xmm1, %xmm5
	movdqa	D(CPI16_1)(%rip), %xmm6
	pcmpgtq	%xmm6, %xmm5
	pand	%xmm4, %xmm5
	paddq	%xmm2, %xmm3
	movdqa	%xmm2, %xmm4
	pxor	%xmm1, %xmm4
	pcmpgtq	%xmm6, %xmm4
	pand	%xmm3, %xmm4
	movdqa	%xmm5, %xmm6
	psrlq	$6, %xmm6
	movdqa	%xmm4, %xmm3
	psrlq	$6, %xmm3
	pshufd	$232, %xmm6, %xmm7
	pshufd	$232, %xmm3, %xmm8
	punpcklqdq	%xmm8, %xmm7
	movdqa	%xmm7, 544(%rsp)
	movdqa	D(CPI16_2)(%rip), %xmm7
	pand	%xmm7, %xmm5
	pand	%xmm7, %xmm4
	psubq	%xmm5, %xmm0
	psubq	%xmm4, %xmm2
	pshufd	$232, %xmm0, %xmm0
	pshufd	$232, %xmm2, %xmm2
	punpcklqdq	%xmm2, %xmm0
	movdqa	%xmm0, 64(%rsp)
	movdqa	%xmm6, %xmm0
	pcmpgtq	%xmm3, %xmm0
	blendvpd	%xmm0, %xmm6, %xmm3
	pshufd	$238, %xmm3, %xmm2
	movdqa	%xmm3, %xmm0
	por	%xmm1, %xmm0
	por	%xmm2, %xmm1
	pcmpgtq	%xmm1, %xmm0
	blendvpd	%xmm0, %xmm3, %xmm2
	movq	%xmm2, %rbx
	jmp	L(16_14)
	.p2align	4
L(16_13):
	movq	%rbx, %rdx
	movq	(%rax,%rcx,8), %rsi
	cmpq	$1, %rsi
	movq	%rsi, %rdi
	adcq	$-1, %rdi
	movq	%rdi, %rbx
	shrq	$6, %rbx
	movl	%ebx, 544(%rsp,%rcx,4)
	andl	$-64, %edi
	subl	%edi, %esi
	cmpq	%rdx, %rbx
	cmovbeq	%rdx, %rbx
	movl	%esi, 64(%rsp,%rcx,4)
	incq	%rcx
L(16_14):
	cmpq	%rcx, %r14
	jne	L(16_13)
	movaps	544(%rsp), %xmm0
	movaps	%xmm0, 176(%rsp)
	movaps	64(%rsp), %xmm0
	movaps	%xmm0, 160(%rsp)
	movq	%r12, %r13
	shlq	$10, %r13
	addq	%rbp, %r13
	leaq	-1(%r14), %rax
	movq	$0, 128(%rsp)
	movq	$1, 136(%rsp)
	movq	$2, 144(%rsp)
	movq	%rax, 152(%rsp)
	xorps	%xmm0, %xmm0
	movaps	%xmm0, 64(%rsp)
	movaps	%xmm0, 80(%rsp)
	movaps	D(CPI16_3)(%rip), %xmm1
	movaps	%xmm1, 544(%rsp)
	movaps	D(CPI16_4)(%rip), %xmm2
	movaps	%xmm2, 560(%rsp)
	movaps	D(CPI16_5)(%rip), %xmm3
	movaps	%xmm3, 576(%rsp)
	movaps	D(CPI16_6)(%rip), %xmm4
	movaps	%xmm4, 592(%rsp)
	movaps	D(CPI16_7)(%rip), %xmm5
	movaps	%xmm5, 608(%rsp)
	movaps	D(CPI16_8)(%rip), %xmm6
	movaps	%xmm6, 624(%rsp)
	movaps	D(CPI16_9)(%rip), %xmm7
	movaps	%xmm7, 640(%rsp)
	movaps	D(CPI16_10)(%rip), %xmm0
	movaps	%xmm0, 656(%rsp)
	incq	%rbx
	xorl	%ebp, %ebp
	.p2align	4
L(16_16):
	movaps	%xmm0, 48(%rsp)
	movaps	%xmm7, 208(%rsp)
	movaps	%xmm6, 224(%rsp)
	movaps	%xmm5, 240(%rsp)
	movaps	%xmm4, 256(%rsp)
	movaps	%xmm3, 272(%rsp)
	movaps	%xmm2, 288(%rsp)
	movaps	%xmm1, 304(%rsp)
	xorl	%eax, %eax
	testl	%ebp, %ebp
	sete	%al
	leal	16(%rax), %ecx
	orl	$26, %eax
	movd	%ebp, %xmm0
	pshufd	$0, %xmm0, %xmm0
	pcmpeqd	176(%rsp), %xmm0
	movdqa	%xmm0, 192(%rsp)
	movaps	D(CPI16_11)(%rip), %xmm1
	blendvps	%xmm0, 160(%rsp), %xmm1
	movd	%eax, %xmm2
	pshufd	$0, %xmm2, %xmm2
	movd	%ecx, %xmm3
	pshufd	$0, %xmm3, %xmm3
	blendvps	%xmm0, %xmm2, %xmm3
	movaps	%xmm1, 400(%rsp)
	movaps	%xmm3, 384(%rsp)
	leaq	384(%rsp), %rax
	movq	%rax, (%rsp)
	leaq	544(%rsp), %rdi
	leaq	128(%rsp), %rdx
	leaq	64(%rsp), %r8
	leaq	400(%rsp), %r9
	movq	%r13, %rsi
	movq	%rbp, %rcx
	callq	"keyed_blake3::chunks::take_block::<#8b36ca032ac25711>"
	movaps	208(%rsp), %xmm7
	movaps	224(%rsp), %xmm6
	movaps	240(%rsp), %xmm5
	movaps	256(%rsp), %xmm4
	movaps	272(%rsp), %xmm3
	movaps	288(%rsp), %xmm2
	movaps	304(%rsp), %xmm1
	movaps	192(%rsp), %xmm0
	blendvps	%xmm0, 544(%rsp), %xmm1
	blendvps	%xmm0, 560(%rsp), %xmm2
	blendvps	%xmm0, 576(%rsp), %xmm3
	blendvps	%xmm0, 592(%rsp), %xmm4
	blendvps	%xmm0, 608(%rsp), %xmm5
	blendvps	%xmm0, 624(%rsp), %xmm6
	blendvps	%xmm0, 640(%rsp), %xmm7
	movaps	48(%rsp), %xmm8
	blendvps	%xmm0, 656(%rsp), %xmm8
	movaps	%xmm8, 48(%rsp)
	movdqa	48(%rsp), %xmm0
	incq	%rbp
	cmpq	%rbp, %rbx
	jne	L(16_16)
	movaps	%xmm1, 1056(%rsp)
	movaps	%xmm2, 1072(%rsp)
	movaps	%xmm3, 1088(%rsp)
	movaps	%xmm4, 1104(%rsp)
	movaps	%xmm5, 1120(%rsp)
	movaps	%xmm6, 1136(%rsp)
	movaps	%xmm7, 1152(%rsp)
	movdqa	%xmm0, 1168(%rsp)
	movq	%r12, %rax
	shlq	$5, %rax
	leaq	1604(%rsp), %rcx
	addq	%rcx, %rax
	xorl	%ecx, %ecx
	.p2align	4
L(16_18):
	movl	1056(%rsp,%rcx,4), %edx
	movl	1072(%rsp,%rcx,4), %esi
	movl	1088(%rsp,%rcx,4), %edi
	movl	1104(%rsp,%rcx,4), %r8d
	movl	1120(%rsp,%rcx,4), %r9d
	movl	1136(%rsp,%rcx,4), %r10d
	movl	1152(%rsp,%rcx,4), %r11d
	movl	1168(%rsp,%rcx,4), %ebx
	movl	%edx, -28(%rax)
	movl	%esi, -24(%rax)
	movl	%edi, -20(%rax)
	movl	%r8d, -16(%rax)
	movl	%r9d, -12(%rax)
	movl	%r10d, -8(%rax)
	movl	%r11d, -4(%rax)
	movl	%ebx, (%rax)
	incq	%rcx
	addq	$32, %rax
	cmpq	%rcx, %r14
	jne	L(16_18)
	addq	%r14, %r12
	movq	16(%rsp), %rbp
	jmp	L(16_23)
L(16_24):
	leaq	1056(%rsp), %r12
	leaq	1576(%rsp), %rsi
	movl	$512, %edx
	movq	%r12, %rdi
	callq	PLT(memcpy)
	leaq	1576(%rsp), %rdi
	movl	$512, %edx
	movq	%r12, %rsi
	callq	PLT(memcpy)
	leaq	544(%rsp), %rdi
	xorl	%ebx, %ebx
	movl	$512, %edx
	xorl	%esi, %esi
	callq	PLT(memset)
	cmpq	$0, 40(%rsp)
	je	L(16_28)
	movq	%r15, %rax
	andq	$-2, %rax
	movl	$48, %ecx
	xorl	%ebx, %ebx
	.p2align	4
L(16_26):
	movdqu	1528(%rsp,%rcx), %xmm0
	movups	1544(%rsp,%rcx), %xmm1
	movups	1560(%rsp,%rcx), %xmm2
	movups	1576(%rsp,%rcx), %xmm3
	movdqu	%xmm0, 496(%rsp,%rcx)
	movups	%xmm1, 512(%rsp,%rcx)
	movups	%xmm2, 528(%rsp,%rcx)
	movups	%xmm3, 544(%rsp,%rcx)
	addq	$2, %rbx
	addq	$64, %rcx
	cmpq	%rbx, %rax
	jne	L(16_26)
	testb	$1, %r15b
	je	L(16_29)
L(16_28):
	shlq	$5, %rbx
	movdqu	1576(%rsp,%rbx), %xmm0
	movups	1592(%rsp,%rbx), %xmm1
	movdqu	%xmm0, 544(%rsp,%rbx)
	movups	%xmm1, 560(%rsp,%rbx)
L(16_29):
	leaq	2600(%rsp), %r12
	leaq	544(%rsp), %rsi
	movl	$512, %edx
	movq	%r12, %rdi
	callq	PLT(memcpy)
	leaq	2088(%rsp), %rdi
	movl	$512, %edx
	movq	%r12, %rsi
	callq	PLT(memcpy)
	cmpq	$0, 40(%rsp)
	je	L(16_30)
	movq	%r15, %rcx
	andq	$-2, %rcx
	leaq	2120(%rsp), %rdx
	xorl	%eax, %eax
	movq	32(%rsp), %rdi
	movq	24(%rsp), %r8
	.p2align	4
L(16_32):
	movq	(%r8,%rax,8), %rsi
	shlq	$5, %rsi
	movups	-32(%rdx), %xmm0
	movups	-16(%rdx), %xmm1
	movups	%xmm1, 16(%rdi,%rsi)
	movups	%xmm0, (%rdi,%rsi)
	movq	8(%r8,%rax,8), %rsi
	shlq	$5, %rsi
	movdqu	(%rdx), %xmm0
	movups	16(%rdx), %xmm1
	movups	%xmm1, 16(%rdi,%rsi)
	movdqu	%xmm0, (%rdi,%rsi)
	addq	$2, %rax
	addq	$64, %rdx
	cmpq	%rax, %rcx
	jne	L(16_32)
	testb	$1, %r15b
	jne	L(16_34)
	jmp	L(16_35)
L(16_30):
	xorl	%eax, %eax
	movq	32(%rsp), %rdi
	movq	24(%rsp), %r8
L(16_34):
	movq	(%r8,%rax,8), %rcx
	shlq	$5, %rax
	shlq	$5, %rcx
	movdqu	2088(%rsp,%rax), %xmm0
	movups	2104(%rsp,%rax), %xmm1
	movups	%xmm1, 16(%rdi,%rcx)
	movdqu	%xmm0, (%rdi,%rcx)
L(16_35):
	addq	$3112, %rsp
	.cfi_def_cfa_offset 56
	popq	%rbx
	.cfi_def_cfa_offset 48
	popq	%r12
	.cfi_def_cfa_offset 40
	popq	%r13
	.cfi_def_cfa_offset 32
	popq	%r14
	.cfi_def_cfa_offset 24
	popq	%r15
	.cfi_def_cfa_offset 16
	popq	%rbp
	.cfi_def_cfa_offset 8
	retq
	SIZE("xet_roots::groups::hash_at")
	.cfi_endproc

SIZED(16, 4)
	.p2align	4, 0x0
D(CPI17_0):
	.byte	7
	.byte	6
	.byte	5
	.byte	4
	.byte	3
	.byte	2
	.byte	1
	.byte	0
	.byte	15
	.byte	14
	.byte	13
	.byte	12
	.byte	11
	.byte	10
	.byte	9
	.byte	8
D(CPI17_1):
	.zero	16,15
D(CPI17_2):
	.byte	160
	.byte	160
	.byte	160
	.byte	160
	.byte	160
	.byte	160
	.byte	160
	.byte	160
	.zero	1
	.zero	1
	.zero	1
	.zero	1
	.zero	1
	.zero	1
	.zero	1
	.zero	1
D(CPI17_3):
	.byte	48
	.byte	48
	.byte	48
	.byte	48
	.byte	48
	.byte	48
	.byte	48
	.byte	48
	.zero	1
	.zero	1
	.zero	1
	.zero	1
	.zero	1
	.zero	1
	.zero	1
	.zero	1
D(CPI17_4):
	.byte	87
	.byte	87
	.byte	87
	.byte	87
	.byte	87
	.byte	87
	.byte	87
	.byte	87
	.zero	1
	.zero	1
	.zero	1
	.zero	1
	.zero	1
	.zero	1
	.zero	1
	.zero	1
D(CPI17_5):
	.byte	15
	.byte	15
	.byte	15
	.byte	15
	.byte	15
	.byte	15
	.byte	15
	.byte	15
	.zero	1
	.zero	1
	.zero	1
	.zero	1
	.zero	1
	.zero	1
	.zero	1
	.zero	1
D(CPI17_6):
	.byte	10
	.byte	10
	.byte	10
	.byte	10
	.byte	10
	.byte	10
	.byte	10
	.byte	10
	.zero	1
	.zero	1
	.zero	1
	.zero	1
	.zero	1
	.zero	1
	.zero	1
	.zero	1
CODE(".text.xet_roots::groups::write_text")
	.p2align	4
	TYPE("xet_roots::groups::write_text", function)
"xet_roots::groups::write_text":
	.cfi_startproc
	endbr64
	pushq	%r15
	.cfi_def_cfa_offset 16
	pushq	%r14
	.cfi_def_cfa_offset 24
	pushq	%r13
	.cfi_def_cfa_offset 32
	pushq	%r12
	.cfi_def_cfa_offset 40
	pushq	%rbx
	.cfi_def_cfa_offset 48
	subq	$32, %rsp
	.cfi_def_cfa_offset 80
	.cfi_offset %rbx, -48
	.cfi_offset %r12, -40
	.cfi_offset %r13, -32
	.cfi_offset %r14, -24
	.cfi_offset %r15, -16
	testq	%rdx, %rdx
	je	L(17_1)
	movq	%rdx, %rbx
	movq	%rsi, %r14
	movq	%rdi, %r15
	xorl	%edi, %edi
	xorl	%r13d, %r13d
	jmp	L(17_3)
L(17_19):
	movzwl	%r8w, %ecx
	movzwl	(%rax,%rcx,2), %eax
	movw	%ax, -3(%rsp,%rsi)
	addq	$-3, %rsi
L(17_20):
	movl	$20, %edx
	subq	%rsi, %rdx
	leaq	(%rdx,%rdi), %r12
	addq	%r15, %rdi
	addq	%rsp, %rsi
	callq	PLT(memcpy)
L(17_21):
	movb	$10, (%r15,%r12)
	incq	%r12
	incq	%r13
	movq	%r12, %rdi
	cmpq	%rbx, %r13
	je	L(17_22)
L(17_3):
	leaq	(,%r13,4), %rax
	addq	%r13, %rax
	movq	32(%r14,%rax,8), %rdx
	movdqu	(%r14,%rax,8), %xmm9
	movdqu	16(%r14,%rax,8), %xmm6
	movdqa	D(CPI17_0)(%rip), %xmm0
	pshufb	%xmm0, %xmm6
	pshufb	%xmm0, %xmm9
	movdqa	%xmm9, %xmm2
	psrlw	$4, %xmm2
	movdqa	D(CPI17_1)(%rip), %xmm7
	pand	%xmm7, %xmm2
	movdqa	D(CPI17_2)(%rip), %xmm1
	movdqa	%xmm9, %xmm0
	pmaxub	%xmm1, %xmm0
	pcmpeqb	%xmm9, %xmm0
	movdqa	D(CPI17_3)(%rip), %xmm4
	movdqa	%xmm2, %xmm3
	por	%xmm4, %xmm3
	movdqa	D(CPI17_4)(%rip), %xmm5
	paddb	%xmm5, %xmm2
	pblendvb	%xmm0, %xmm2, %xmm3
	movdqa	D(CPI17_5)(%rip), %xmm8
	pshufd	$238, %xmm9, %xmm10
	pand	%xmm8, %xmm9
	movdqa	D(CPI17_6)(%rip), %xmm2
	movdqa	%xmm2, %xmm0
	pcmpgtb	%xmm9, %xmm0
	movdqa	%xmm9, %xmm11
	por	%xmm4, %xmm11
	paddb	%xmm5, %xmm9
	pblendvb	%xmm0, %xmm11, %xmm9
	punpcklbw	%xmm9, %xmm3
	movdqa	%xmm10, %xmm11
	psrlw	$4, %xmm11
	pand	%xmm7, %xmm11
	movdqa	%xmm10, %xmm0
	pmaxub	%xmm1, %xmm0
	pcmpeqb	%xmm10, %xmm0
	movdqa	%xmm11, %xmm9
	por	%xmm4, %xmm9
	paddb	%xmm5, %xmm11
	pblendvb	%xmm0, %xmm11, %xmm9
	pand	%xmm8, %xmm10
	movdqa	%xmm2, %xmm0
	pcmpgtb	%xmm10, %xmm0
	movdqa	%xmm10, %xmm11
	por	%xmm4, %xmm11
	paddb	%xmm5, %xmm10
	pblendvb	%xmm0, %xmm11, %xmm10
	movdqa	%xmm6, %xmm12
	psrlw	$4, %xmm12
	pand	%xmm7, %xmm12
	movdqa	%xmm6, %xmm0
	pmaxub	%xmm1, %xmm0
	pcmpeqb	%xmm6, %xmm0
	movdqa	%xmm12, %xmm11
	por	%xmm4, %xmm11
	paddb	%xmm5, %xmm12
	pblendvb	%xmm0, %xmm12, %xmm11
	punpcklbw	%xmm10, %xmm9
	pshufd	$238, %xmm6, %xmm10
	pand	%xmm8, %xmm6
	movdqa	%xmm2, %xmm0
	pcmpgtb	%xmm6, %xmm0
	movdqa	%xmm6, %xmm12
	por	%xmm4, %xmm12
	paddb	%xmm5, %xmm6
	pblendvb	%xmm0, %xmm12, %xmm6
	punpcklbw	%xmm6, %xmm11
	movdqa	%xmm10, %xmm6
	psrlw	$4, %xmm6
	pand	%xmm7, %xmm6
	pmaxub	%xmm10, %xmm1
	pcmpeqb	%xmm10, %xmm1
	movdqa	%xmm6, %xmm7
	por	%xmm4, %xmm7
	paddb	%xmm5, %xmm6
	movdqa	%xmm1, %xmm0
	pblendvb	%xmm0, %xmm6, %xmm7
	pand	%xmm8, %xmm10
	pcmpgtb	%xmm10, %xmm2
	por	%xmm10, %xmm4
	paddb	%xmm5, %xmm10
	movdqa	%xmm2, %xmm0
	pblendvb	%xmm0, %xmm4, %xmm10
	punpcklbw	%xmm10, %xmm7
	movdqu	%xmm3, (%r15,%rdi)
	movdqu	%xmm9, 16(%r15,%rdi)
	movdqu	%xmm11, 32(%r15,%rdi)
	movdqu	%xmm7, 48(%r15,%rdi)
	leaq	(%r15,%rdi), %rax
	addq	$64, %rax
	leaq	D(static.3)(%rip), %rcx
	movq	%rax, %rsi
	subq	%rcx, %rsi
	cmpq	$2, %rsi
	ja	L(17_5)
	leaq	(%r15,%rdi), %rax
	movw	$14880, 64(%rax)
	movb	$32, 66(%rax)
	cmpq	$99999999, %rdx
	jbe	L(17_7)
L(17_11):
	addq	$67, %rdi
	pxor	%xmm0, %xmm0
	movdqa	%xmm0, (%rsp)
	movl	$0, 16(%rsp)
	movl	$19, %esi
	.p2align	4
L(17_12):
	movq	%rdx, %rcx
	movabsq	$3777893186295716171, %rdx
	movq	%rcx, %rax
	mulq	%rdx
	shrq	$11, %rdx
	imull	$10000, %edx, %eax
	movl	%ecx, %r8d
	subl	%eax, %r8d
	imull	$5243, %r8d, %r9d
	shrl	$19, %r9d
	imull	$100, %r9d, %eax
	subl	%eax, %r8d
	movzwl	%r8w, %r8d
	leaq	D(static.6)(%rip), %rax
	movzwl	(%rax,%r8,2), %r8d
	movw	%r8w, -1(%rsp,%rsi)
	movzwl	(%rax,%r9,2), %r8d
	movw	%r8w, -3(%rsp,%rsi)
	addq	$-4, %rsi
	cmpq	$99999999, %rcx
	ja	L(17_12)
	cmpq	$999999, %rcx
	ja	L(17_17)
	cmpq	$99999, %rcx
	ja	L(17_16)
	orb	$48, %dl
	movb	%dl, (%rsp,%rsi)
	jmp	L(17_20)
	.p2align	4
L(17_5):
	movb	$32, 2(%rax)
	movw	$14880, (%rax)
	cmpq	$99999999, %rdx
	ja	L(17_11)
L(17_7):
	xorl	%eax, %eax
	cmpq	$9999, %rdx
	ja	L(17_9)
	cmpq	$1000, %rdx
	adcq	$4, %rax
	cmpq	$100, %rdx
	movl	$6, %ecx
	cmovaeq	%rax, %rcx
	cmpq	$10, %rdx
	movl	$7, %eax
	jmp	L(17_10)
	.p2align	4
L(17_17):
	movl	%edx, %r8d
	shrl	$2, %r8d
	movzwl	%r8w, %r8d
	imull	$5243, %r8d, %r8d
	shrl	$17, %r8d
	imull	$100, %r8d, %r9d
	subl	%r9d, %edx
	movzwl	%dx, %edx
	movzwl	(%rax,%rdx,2), %edx
	movw	%dx, -1(%rsp,%rsi)
	cmpq	$9999999, %rcx
	ja	L(17_19)
	orb	$48, %r8b
	movb	%r8b, -2(%rsp,%rsi)
	addq	$-2, %rsi
	jmp	L(17_20)
	.p2align	4
L(17_9):
	cmpq	$10000000, %rdx
	setb	%al
	cmpq	$1000000, %rdx
	movl	$2, %ecx
	cmovaeq	%rax, %rcx
	cmpq	$100000, %rdx
	movl	$3, %eax
L(17_10):
	cmovaeq	%rcx, %rax
	movl	$3518437209, %ecx
	imulq	%rdx, %rcx
	shrq	$45, %rcx
	movzwl	%cx, %esi
	shrl	$2, %esi
	imull	$5243, %esi, %esi
	shrl	$17, %esi
	leaq	D(static.6)(%rip), %r8
	movzwl	(%r8,%rsi,2), %r9d
	imull	$100, %esi, %esi
	imull	$10000, %ecx, %r10d
	subl	%esi, %ecx
	movzwl	%cx, %ecx
	movzwl	(%r8,%rcx,2), %ecx
	shll	$16, %ecx
	orq	%r9, %rcx
	subl	%r10d, %edx
	imull	$5243, %edx, %esi
	shrl	$19, %esi
	movzwl	(%r8,%rsi,2), %r9d
	imull	$100, %esi, %esi
	subl	%esi, %edx
	movzwl	%dx, %edx
	movzwl	(%r8,%rdx,2), %edx
	shlq	$48, %rdx
	shlq	$32, %r9
	orq	%rcx, %r9
	orq	%rdx, %r9
	leal	(,%rax,8), %ecx
	shrq	%cl, %r9
	movq	%r9, 67(%r15,%rdi)
	subq	%rax, %rdi
	addq	$75, %rdi
	movq	%rdi, %r12
	jmp	L(17_21)
L(17_16):
	movzwl	(%rax,%rdx,2), %eax
	movw	%ax, -1(%rsp,%rsi)
	decq	%rsi
	jmp	L(17_20)
L(17_1):
	xorl	%r12d, %r12d
L(17_22):
	movq	%r12, %rax
	addq	$32, %rsp
	.cfi_def_cfa_offset 48
	popq	%rbx
	.cfi_def_cfa_offset 40
	popq	%r12
	.cfi_def_cfa_offset 32
	popq	%r13
	.cfi_def_cfa_offset 24
	popq	%r14
	.cfi_def_cfa_offset 16
	popq	%r15
	.cfi_def_cfa_offset 8
	retq
	SIZE("xet_roots::groups::write_text")
	.cfi_endproc

SIZED(16, 4)
	.p2align	4, 0x0
D(CPI18_0):
	.byte	2
	.byte	3
	.byte	0
	.byte	1
	.byte	6
	.byte	7
	.byte	4
	.byte	5
	.byte	10
	.byte	11
	.byte	8
	.byte	9
	.byte	14
	.byte	15
	.byte	12
	.byte	13
D(CPI18_1):
	.long	1779033703
	.long	1779033703
	.long	1779033703
	.long	1779033703
D(CPI18_2):
	.long	3144134277
	.long	3144134277
	.long	3144134277
	.long	3144134277
D(CPI18_3):
	.long	1013904242
	.long	1013904242
	.long	1013904242
	.long	1013904242
D(CPI18_4):
	.long	2773480762
	.long	2773480762
	.long	2773480762
	.long	2773480762
D(CPI18_5):
	.byte	1
	.byte	2
	.byte	3
	.byte	0
	.byte	5
	.byte	6
	.byte	7
	.byte	4
	.byte	9
	.byte	10
	.byte	11
	.byte	8
	.byte	13
	.byte	14
	.byte	15
	.byte	12
CODE(".text.keyed_blake3::chunks::take_block::<#8b36ca032ac25711>")
	.p2align	4
	TYPE("keyed_blake3::chunks::take_block::<#8b36ca032ac25711>", function)
"keyed_blake3::chunks::take_block::<#8b36ca032ac25711>":
	.cfi_startproc
	subq	$200, %rsp
	.cfi_def_cfa_offset 208
	shlq	$6, %rcx
	addq	%rsi, %rcx
	movq	(%rdx), %rsi
	movq	8(%rdx), %r10
	shlq	$10, %rsi
	shlq	$10, %r10
	movq	16(%rdx), %r11
	shlq	$10, %r11
	movq	24(%rdx), %rax
	shlq	$10, %rax
	movdqu	(%rsi,%rcx), %xmm11
	prefetcht0	128(%rsi,%rcx)
	movdqu	16(%rsi,%rcx), %xmm12
	movups	32(%rsi,%rcx), %xmm14
	movups	48(%rsi,%rcx), %xmm0
	movaps	%xmm0, -80(%rsp)
	movdqu	(%r11,%rcx), %xmm0
	prefetcht0	128(%r11,%rcx)
	movdqu	16(%r11,%rcx), %xmm6
	movups	32(%r11,%rcx), %xmm3
	movups	48(%r11,%rcx), %xmm1
	movdqa	%xmm11, %xmm2
	punpckldq	%xmm0, %xmm2
	movdqa	%xmm2, %xmm13
	punpckhdq	%xmm0, %xmm11
	movdqu	(%r10,%rcx), %xmm7
	prefetcht0	128(%r10,%rcx)
	movdqu	16(%r10,%rcx), %xmm5
	movups	32(%r10,%rcx), %xmm2
	movups	48(%r10,%rcx), %xmm0
	movdqu	(%rax,%rcx), %xmm8
	prefetcht0	128(%rax,%rcx)
	movdqu	16(%rax,%rcx), %xmm9
	movups	32(%rax,%rcx), %xmm4
	movdqa	%xmm7, %xmm10
	punpckldq	%xmm8, %xmm10
	punpckhdq	%xmm8, %xmm7
	movdqa	%xmm13, %xmm8
	punpckldq	%xmm10, %xmm8
	movdqa	%xmm8, %xmm15
	movdqa	%xmm8, 128(%rsp)
	punpckhdq	%xmm10, %xmm13
	movdqa	%xmm13, 16(%rsp)
	movdqa	%xmm11, %xmm8
	punpckldq	%xmm7, %xmm8
	movdqa	%xmm8, %xmm13
	movdqa	%xmm8, 144(%rsp)
	punpckhdq	%xmm7, %xmm11
	movdqa	%xmm11, 64(%rsp)
	movdqa	%xmm12, %xmm8
	punpckldq	%xmm6, %xmm8
	punpckhdq	%xmm6, %xmm12
	movdqa	%xmm5, %xmm6
	punpckldq	%xmm9, %xmm6
	punpckhdq	%xmm9, %xmm5
	movdqa	%xmm8, %xmm7
	punpckldq	%xmm6, %xmm7
	movdqa	%xmm7, %xmm11
	movdqa	%xmm7, 160(%rsp)
	punpckhdq	%xmm6, %xmm8
	movdqa	%xmm8, (%rsp)
	movdqa	%xmm12, %xmm6
	punpckldq	%xmm5, %xmm6
	movdqa	%xmm6, 48(%rsp)
	punpckhdq	%xmm5, %xmm12
	movdqa	%xmm12, -64(%rsp)
	movaps	%xmm14, %xmm5
	unpcklps	%xmm3, %xmm5
	unpckhps	%xmm3, %xmm14
	movaps	%xmm2, %xmm3
	unpcklps	%xmm4, %xmm3
	unpckhps	%xmm4, %xmm2
	movaps	%xmm5, %xmm4
	unpcklps	%xmm3, %xmm4
	movaps	%xmm4, -16(%rsp)
	unpckhps	%xmm3, %xmm5
	movaps	%xmm5, 32(%rsp)
	movaps	%xmm14, %xmm3
	unpcklps	%xmm2, %xmm3
	movaps	%xmm3, 112(%rsp)
	unpckhps	%xmm2, %xmm14
	movaps	%xmm14, -32(%rsp)
	movaps	-80(%rsp), %xmm14
	movaps	%xmm14, %xmm3
	unpcklps	%xmm1, %xmm3
	unpckhps	%xmm1, %xmm14
	movups	48(%rax,%rcx), %xmm1
	movaps	%xmm0, %xmm2
	unpcklps	%xmm1, %xmm2
	unpckhps	%xmm1, %xmm0
	movaps	%xmm3, %xmm1
	unpcklps	%xmm2, %xmm1
	movaps	%xmm1, 96(%rsp)
	unpckhps	%xmm2, %xmm3
	movaps	%xmm3, 80(%rsp)
	movaps	%xmm14, %xmm1
	unpcklps	%xmm0, %xmm1
	movaps	%xmm1, -48(%rsp)
	unpckhps	%xmm0, %xmm14
	movaps	%xmm14, -80(%rsp)
	movdqu	(%rdi), %xmm3
	movdqu	64(%rdi), %xmm5
	paddd	%xmm5, %xmm3
	paddd	%xmm15, %xmm3
	movdqu	(%r8), %xmm8
	pxor	%xmm3, %xmm8
	movdqa	D(CPI18_0)(%rip), %xmm10
	pshufb	%xmm10, %xmm8
	movdqa	D(CPI18_1)(%rip), %xmm14
	paddd	%xmm8, %xmm14
	pxor	%xmm14, %xmm5
	movdqa	%xmm5, %xmm1
	psrld	$12, %xmm1
	pslld	$20, %xmm5
	por	%xmm1, %xmm5
	movdqu	16(%rdi), %xmm7
	movdqu	80(%rdi), %xmm4
	paddd	%xmm4, %xmm7
	paddd	%xmm13, %xmm7
	movdqu	16(%r8), %xmm6
	pxor	%xmm7, %xmm6
	pshufb	%xmm10, %xmm6
	movdqa	D(CPI18_2)(%rip), %xmm0
	paddd	%xmm6, %xmm0
	movdqa	%xmm0, -96(%rsp)
	pxor	%xmm0, %xmm4
	movdqa	%xmm4, %xmm1
	psrld	$12, %xmm1
	pslld	$20, %xmm4
	por	%xmm1, %xmm4
	movdqu	32(%rdi), %xmm12
	movdqu	96(%rdi), %xmm9
	paddd	%xmm9, %xmm12
	paddd	%xmm11, %xmm12
	movdqu	(%r9), %xmm11
	pxor	%xmm12, %xmm11
	pshufb	%xmm10, %xmm11
	movdqa	D(CPI18_3)(%rip), %xmm0
	paddd	%xmm11, %xmm0
	movdqa	%xmm0, 176(%rsp)
	pxor	%xmm0, %xmm9
	movdqa	%xmm9, %xmm1
	psrld	$12, %xmm1
	pslld	$20, %xmm9
	por	%xmm1, %xmm9
	movq	208(%rsp), %rax
	movdqu	48(%rdi), %xmm1
	movdqu	112(%rdi), %xmm2
	paddd	%xmm2, %xmm1
	paddd	48(%rsp), %xmm1
	movdqu	(%rax), %xmm15
	pxor	%xmm1, %xmm15
	pshufb	%xmm10, %xmm15
	movdqa	D(CPI18_4)(%rip), %xmm0
	paddd	%xmm15, %xmm0
	pxor	%xmm0, %xmm2
	movdqa	%xmm2, %xmm13
	psrld	$12, %xmm13
	pslld	$20, %xmm2
	por	%xmm13, %xmm2
	paddd	16(%rsp), %xmm3
	paddd	%xmm5, %xmm3
	movdqa	D(CPI18_5)(%rip), %xmm10
	movdqa	%xmm3, %xmm13
	pshufb	%xmm10, %xmm13
	pshufb	%xmm10, %xmm8
	pxor	%xmm13, %xmm8
	paddd	64(%rsp), %xmm7
	paddd	%xmm4, %xmm7
	movdqa	%xmm7, %xmm13
	pshufb	%xmm10, %xmm13
	pshufb	%xmm10, %xmm6
	pxor	%xmm13, %xmm6
	paddd	(%rsp), %xmm12
	paddd	%xmm9, %xmm12
	movdqa	%xmm12, %xmm13
	pshufb	%xmm10, %xmm13
	pshufb	%xmm10, %xmm11
	pxor	%xmm13, %xmm11
	paddd	-64(%rsp), %xmm1
	paddd	%xmm2, %xmm1
	movdqa	%xmm1, %xmm13
	pshufb	%xmm10, %xmm13
	pshufb	%xmm10, %xmm15
	pxor	%xmm13, %xmm15
	paddd	%xmm8, %xmm14
	movdqa	%xmm14, -112(%rsp)
	pxor	%xmm14, %xmm5
	movdqa	%xmm5, %xmm13
	psrld	$7, %xmm13
	pslld	$25, %xmm5
	por	%xmm13, %xmm5
	movdqa	-96(%rsp), %xmm13
	paddd	%xmm6, %xmm13
	pxor	%xmm13, %xmm4
	movdqa	%xmm13, %xmm10
	movdqa	%xmm4, %xmm13
	psrld	$7, %xmm13
	pslld	$25, %xmm4
	por	%xmm13, %xmm4
	movdqa	176(%rsp), %xmm14
	paddd	%xmm11, %xmm14
	pxor	%xmm14, %xmm9
	movdqa	%xmm9, %xmm13
	psrld	$7, %xmm13
	pslld	$25, %xmm9
	por	%xmm13, %xmm9
	paddd	%xmm15, %xmm0
	movdqa	%xmm0, -128(%rsp)
	pxor	%xmm0, %xmm2
	movdqa	%xmm2, %xmm13
	psrld	$7, %xmm13
	pslld	$25, %xmm2
	por	%xmm13, %xmm2
	paddd	-48(%rsp), %xmm1
	paddd	%xmm5, %xmm1
	pxor	%xmm1, %xmm11
	movdqa	D(CPI18_0)(%rip), %xmm0
	pshufb	%xmm0, %xmm11
	paddd	%xmm11, %xmm10
	pxor	%xmm10, %xmm5
	movdqa	%xmm5, %xmm13
	psrld	$12, %xmm13
	pslld	$20, %xmm5
	por	%xmm13, %xmm5
	paddd	-16(%rsp), %xmm3
	paddd	%xmm4, %xmm3
	pxor	%xmm3, %xmm15
	pshufb	%xmm0, %xmm15
	paddd	%xmm15, %xmm14
	pxor	%xmm14, %xmm4
	movdqa	%xmm4, %xmm13
	psrld	$12, %xmm13
	pslld	$20, %xmm4
	por	%xmm13, %xmm4
	paddd	112(%rsp), %xmm7
	paddd	%xmm9, %xmm7
	pxor	%xmm7, %xmm8
	pshufb	%xmm0, %xmm8
	movdqa	-128(%rsp), %xmm13
	paddd	%xmm8, %xmm13
	movdqa	%xmm13, -128(%rsp)
	pxor	%xmm13, %xmm9
	movdqa	%xmm9, %xmm13
	psrld	$12, %xmm13
	pslld	$20, %xmm9
	por	%xmm13, %xmm9
	paddd	96(%rsp), %xmm12
	paddd	%xmm2, %xmm12
	pxor	%xmm12, %xmm6
	pshufb	%xmm0, %xmm6
	movdqa	-112(%rsp), %xmm0
	paddd	%xmm6, %xmm0
	movdqa	%xmm0, -112(%rsp)
	pxor	%xmm0, %xmm2
	movdqa	%xmm2, %xmm13
	psrld	$12, %xmm13
	pslld	$20, %xmm2
	por	%xmm13, %xmm2
	paddd	-80(%rsp), %xmm1
	paddd	%xmm5, %xmm1
	movdqa	%xmm1, %xmm13
	movdqa	D(CPI18_5)(%rip), %xmm0
	pshufb	%xmm0, %xmm13
	pshufb	%xmm0, %xmm11
	pxor	%xmm13, %xmm11
	paddd	32(%rsp), %xmm3
	paddd	%xmm4, %xmm3
	movdqa	%xmm3, %xmm13
	pshufb	%xmm0, %xmm13
	pshufb	%xmm0, %xmm15
	pxor	%xmm13, %xmm15
	paddd	-32(%rsp), %xmm7
	paddd	%xmm9, %xmm7
	movdqa	%xmm7, %xmm13
	pshufb	%xmm0, %xmm13
	pshufb	%xmm0, %xmm8
	pxor	%xmm13, %xmm8
	paddd	80(%rsp), %xmm12
	paddd	%xmm2, %xmm12
	movdqa	%xmm12, %xmm13
	pshufb	%xmm0, %xmm13
	pshufb	%xmm0, %xmm6
	pxor	%xmm13, %xmm6
	paddd	%xmm11, %xmm10
	pxor	%xmm10, %xmm5
	movdqa	%xmm5, %xmm13
	psrld	$7, %xmm13
	pslld	$25, %xmm5
	por	%xmm13, %xmm5
	paddd	%xmm15, %xmm14
	pxor	%xmm14, %xmm4
	movdqa	%xmm4, %xmm13
	psrld	$7, %xmm13
	pslld	$25, %xmm4
	por	%xmm13, %xmm4
	movdqa	-128(%rsp), %xmm0
	paddd	%xmm8, %xmm0
	movdqa	%xmm0, -128(%rsp)
	pxor	%xmm0, %xmm9
	movdqa	%xmm9, %xmm13
	psrld	$7, %xmm13
	pslld	$25, %xmm9
	por	%xmm13, %xmm9
	movdqa	-112(%rsp), %xmm0
	paddd	%xmm6, %xmm0
	movdqa	%xmm0, -112(%rsp)
	pxor	%xmm0, %xmm2
	movdqa	%xmm2, %xmm13
	psrld	$7, %xmm13
	pslld	$25, %xmm2
	por	%xmm13, %xmm2
	paddd	144(%rsp), %xmm3
	paddd	%xmm5, %xmm3
	pxor	%xmm3, %xmm8
	movdqa	D(CPI18_0)(%rip), %xmm0
	pshufb	%xmm0, %xmm8
	movdqa	-112(%rsp), %xmm13
	paddd	%xmm8, %xmm13
	movdqa	%xmm13, -112(%rsp)
	pxor	%xmm13, %xmm5
	movdqa	%xmm5, %xmm13
	psrld	$12, %xmm13
	pslld	$20, %xmm5
	por	%xmm13, %xmm5
	paddd	64(%rsp), %xmm7
	paddd	%xmm4, %xmm7
	pxor	%xmm7, %xmm6
	pshufb	%xmm0, %xmm6
	paddd	%xmm6, %xmm10
	pxor	%xmm10, %xmm4
	movdqa	%xmm4, %xmm13
	psrld	$12, %xmm13
	pslld	$20, %xmm4
	por	%xmm13, %xmm4
	paddd	-64(%rsp), %xmm12
	paddd	%xmm9, %xmm12
	pxor	%xmm12, %xmm11
	pshufb	%xmm0, %xmm11
	paddd	%xmm11, %xmm14
	pxor	%xmm14, %xmm9
	movdqa	%xmm9, %xmm13
	psrld	$12, %xmm13
	pslld	$20, %xmm9
	por	%xmm13, %xmm9
	paddd	160(%rsp), %xmm1
	paddd	%xmm2, %xmm1
	pxor	%xmm1, %xmm15
	pshufb	%xmm0, %xmm15
	movdqa	-128(%rsp), %xmm0
	paddd	%xmm15, %xmm0
	movdqa	%xmm0, -128(%rsp)
	pxor	%xmm0, %xmm2
	movdqa	%xmm2, %xmm13
	psrld	$12, %xmm13
	pslld	$20, %xmm2
	por	%xmm13, %xmm2
	paddd	48(%rsp), %xmm3
	paddd	%xmm5, %xmm3
	movdqa	%xmm3, %xmm13
	movdqa	D(CPI18_5)(%rip), %xmm0
	pshufb	%xmm0, %xmm13
	pshufb	%xmm0, %xmm8
	pxor	%xmm13, %xmm8
	paddd	112(%rsp), %xmm7
	paddd	%xmm4, %xmm7
	movdqa	%xmm7, %xmm13
	pshufb	%xmm0, %xmm13
	pshufb	%xmm0, %xmm6
	pxor	%xmm13, %xmm6
	paddd	128(%rsp), %xmm12
	paddd	%xmm9, %xmm12
	movdqa	%xmm12, %xmm13
	pshufb	%xmm0, %xmm13
	pshufb	%xmm0, %xmm11
	pxor	%xmm13, %xmm11
	paddd	80(%rsp), %xmm1
	paddd	%xmm2, %xmm1
	movdqa	%xmm1, %xmm13
	pshufb	%xmm0, %xmm13
	pshufb	%xmm0, %xmm15
	pxor	%xmm13, %xmm15
	movdqa	-112(%rsp), %xmm0
	paddd	%xmm8, %xmm0
	movdqa	%xmm0, -112(%rsp)
	pxor	%xmm0, %xmm5
	movdqa	%xmm5, %xmm13
	psrld	$7, %xmm13
	pslld	$25, %xmm5
	por	%xmm13, %xmm5
	paddd	%xmm6, %xmm10
	pxor	%xmm10, %xmm4
	movdqa	%xmm4, %xmm13
	psrld	$7, %xmm13
	pslld	$25, %xmm4
	por	%xmm13, %xmm4
	paddd	%xmm11, %xmm14
	pxor	%xmm14, %xmm9
	movdqa	%xmm9, %xmm13
	psrld	$7, %xmm13
	pslld	$25, %xmm9
	por	%xmm13, %xmm9
	movdqa	-128(%rsp), %xmm0
	paddd	%xmm15, %xmm0
	movdqa	%xmm0, -128(%rsp)
	pxor	%xmm0, %xmm2
	movdqa	%xmm2, %xmm13
	psrld	$7, %xmm13
	pslld	$25, %xmm2
	por	%xmm13, %xmm2
	paddd	-80(%rsp), %xmm1
	paddd	%xmm5, %xmm1
	pxor	%xmm1, %xmm11
	movdqa	D(CPI18_0)(%rip), %xmm0
	pshufb	%xmm0, %xmm11
	paddd	%xmm11, %xmm10
	pxor	%xmm10, %xmm5
	movdqa	%xmm5, %xmm13
	psrld	$12, %xmm13
	pslld	$20, %xmm5
	por	%xmm13, %xmm5
	paddd	16(%rsp), %xmm3
	paddd	%xmm4, %xmm3
	pxor	%xmm3, %xmm15
	pshufb	%xmm0, %xmm15
	paddd	%xmm15, %xmm14
	pxor	%xmm14, %xmm4
	movdqa	%xmm4, %xmm13
	psrld	$12, %xmm13
	pslld	$20, %xmm4
	por	%xmm13, %xmm4
	paddd	96(%rsp), %xmm7
	paddd	%xmm9, %xmm7
	pxor	%xmm7, %xmm8
	pshufb	%xmm0, %xmm8
	movdqa	-128(%rsp), %xmm13
	paddd	%xmm8, %xmm13
	movdqa	%xmm13, -128(%rsp)
	pxor	%xmm13, %xmm9
	movdqa	%xmm9, %xmm13
	psrld	$12, %xmm13
	pslld	$20, %xmm9
	por	%xmm13, %xmm9
	paddd	32(%rsp), %xmm12
	paddd	%xmm2, %xmm12
	pxor	%xmm12, %xmm6
	pshufb	%xmm0, %xmm6
	movdqa	-112(%rsp), %xmm0
	paddd	%xmm6, %xmm0
	movdqa	%xmm0, -112(%rsp)
	pxor	%xmm0, %xmm2
	movdqa	%xmm2, %xmm13
	psrld	$12, %xmm13
	pslld	$20, %xmm2
	por	%xmm13, %xmm2
	paddd	-16(%rsp), %xmm1
	paddd	%xmm5, %xmm1
	movdqa	%xmm1, %xmm13
	movdqa	D(CPI18_5)(%rip), %xmm0
	pshufb	%xmm0, %xmm13
	pshufb	%xmm0, %xmm11
	pxor	%xmm13, %xmm11
	paddd	-32(%rsp), %xmm3
	paddd	%xmm4, %xmm3
	movdqa	%xmm3, %xmm13
	pshufb	%xmm0, %xmm13
	pshufb	%xmm0, %xmm15
	pxor	%xmm13, %xmm15
	paddd	(%rsp), %xmm7
	paddd	%xmm9, %xmm7
	movdqa	%xmm7, %xmm13
	pshufb	%xmm0, %xmm13
	pshufb	%xmm0, %xmm8
	pxor	%xmm13, %xmm8
	paddd	-48(%rsp), %xmm12
	paddd	%xmm2, %xmm12
	movdqa	%xmm12, %xmm13
	pshufb	%xmm0, %xmm13
	pshufb	%xmm0, %xmm6
	pxor	%xmm13, %xmm6
	paddd	%xmm11, %xmm10
	pxor	%xmm10, %xmm5
	movdqa	%xmm5, %xmm13
	psrld	$7, %xmm13
	pslld	$25, %xmm5
	por	%xmm13, %xmm5
	paddd	%xmm15, %xmm14
	pxor	%xmm14, %xmm4
	movdqa	%xmm4, %xmm13
	psrld	$7, %xmm13
	pslld	$25, %xmm4
	por	%xmm13, %xmm4
	movdqa	-128(%rsp), %xmm0
	paddd	%xmm8, %xmm0
	movdqa	%xmm0, -128(%rsp)
	pxor	%xmm0, %xmm9
	movdqa	%xmm9, %xmm13
	psrld	$7, %xmm13
	pslld	$25, %xmm9
	por	%xmm13, %xmm9
	movdqa	-112(%rsp), %xmm0
	paddd	%xmm6, %xmm0
	movdqa	%xmm0, -112(%rsp)
	pxor	%xmm0, %xmm2
	movdqa	%xmm2, %xmm13
	psrld	$7, %xmm13
	pslld	$25, %xmm2
	por	%xmm13, %xmm2
	paddd	64(%rsp), %xmm3
	paddd	%xmm5, %xmm3
	pxor	%xmm3, %xmm8
	movdqa	D(CPI18_0)(%rip), %xmm0
	pshufb	%xmm0, %xmm8
	movdqa	-112(%rsp), %xmm13
	paddd	%xmm8, %xmm13
	movdqa	%xmm13, -112(%rsp)
	pxor	%xmm13, %xmm5
	movdqa	%xmm5, %xmm13
	psrld	$12, %xmm13
	pslld	$20, %xmm5
	por	%xmm13, %xmm5
	paddd	112(%rsp), %xmm7
	paddd	%xmm4, %xmm7
	pxor	%xmm7, %xmm6
	pshufb	%xmm0, %xmm6
	paddd	%xmm6, %xmm10
	pxor	%xmm10, %xmm4
	movdqa	%xmm4, %xmm13
	psrld	$12, %xmm13
	pslld	$20, %xmm4
	por	%xmm13, %xmm4
	paddd	80(%rsp), %xmm12
	paddd	%xmm9, %xmm12
	pxor	%xmm12, %xmm11
	pshufb	%xmm0, %xmm11
	paddd	%xmm11, %xmm14
	pxor	%xmm14, %xmm9
	movdqa	%xmm9, %xmm13
	psrld	$12, %xmm13
	pslld	$20, %xmm9
	por	%xmm13, %xmm9
	paddd	-64(%rsp), %xmm1
	paddd	%xmm2, %xmm1
	pxor	%xmm1, %xmm15
	pshufb	%xmm0, %xmm15
	movdqa	-128(%rsp), %xmm0
	paddd	%xmm15, %xmm0
	movdqa	%xmm0, -128(%rsp)
	pxor	%xmm0, %xmm2
	movdqa	%xmm2, %xmm13
	psrld	$12, %xmm13
	pslld	$20, %xmm2
	por	%xmm13, %xmm2
	paddd	160(%rsp), %xmm3
	paddd	%xmm5, %xmm3
	movdqa	%xmm3, %xmm13
	movdqa	D(CPI18_5)(%rip), %xmm0
	pshufb	%xmm0, %xmm13
	pshufb	%xmm0, %xmm8
	pxor	%xmm13, %xmm8
	paddd	96(%rsp), %xmm7
	paddd	%xmm4, %xmm7
	movdqa	%xmm7, %xmm13
	pshufb	%xmm0, %xmm13
	pshufb	%xmm0, %xmm6
	pxor	%xmm13, %xmm6
	paddd	144(%rsp), %xmm12
	paddd	%xmm9, %xmm12
	movdqa	%xmm12, %xmm13
	pshufb	%xmm0, %xmm13
	pshufb	%xmm0, %xmm11
	pxor	%xmm13, %xmm11
	paddd	-48(%rsp), %xmm1
	paddd	%xmm2, %xmm1
	movdqa	%xmm1, %xmm13
	pshufb	%xmm0, %xmm13
	pshufb	%xmm0, %xmm15
	pxor	%xmm13, %xmm15
	movdqa	-112(%rsp), %xmm0
	paddd	%xmm8, %xmm0
	movdqa	%xmm0, -112(%rsp)
	pxor	%xmm0, %xmm5
	movdqa	%xmm5, %xmm13
	psrld	$7, %xmm13
	pslld	$25, %xmm5
	por	%xmm13, %xmm5
	paddd	%xmm6, %xmm10
	pxor	%xmm10, %xmm4
	movdqa	%xmm4, %xmm13
	psrld	$7, %xmm13
	pslld	$25, %xmm4
	por	%xmm13, %xmm4
	paddd	%xmm11, %xmm14
	pxor	%xmm14, %xmm9
	movdqa	%xmm9, %xmm13
	psrld	$7, %xmm13
	pslld	$25, %xmm9
	por	%xmm13, %xmm9
	movdqa	-128(%rsp), %xmm0
	paddd	%xmm15, %xmm0
	movdqa	%xmm0, -128(%rsp)
	pxor	%xmm0, %xmm2
	movdqa	%xmm2, %xmm13
	psrld	$7, %xmm13
	pslld	$25, %xmm2
	por	%xmm13, %xmm2
	paddd	-16(%rsp), %xmm1
	paddd	%xmm5, %xmm1
	pxor	%xmm1, %xmm11
	movdqa	D(CPI18_0)(%rip), %xmm0
	pshufb	%xmm0, %xmm11
	paddd	%xmm11, %xmm10
	movdqa	%xmm10, -96(%rsp)
	pxor	%xmm10, %xmm5
	movdqa	%xmm5, %xmm13
	psrld	$12, %xmm13
	pslld	$20, %xmm5
	por	%xmm13, %xmm5
	paddd	48(%rsp), %xmm3
	paddd	%xmm4, %xmm3
	pxor	%xmm3, %xmm15
	pshufb	%xmm0, %xmm15
	paddd	%xmm15, %xmm14
	pxor	%xmm14, %xmm4
	movdqa	%xmm4, %xmm13
	psrld	$12, %xmm13
	pslld	$20, %xmm4
	por	%xmm13, %xmm4
	paddd	32(%rsp), %xmm7
	paddd	%xmm9, %xmm7
	pxor	%xmm7, %xmm8
	pshufb	%xmm0, %xmm8
	movdqa	%xmm0, %xmm10
	movdqa	-128(%rsp), %xmm0
	paddd	%xmm8, %xmm0
	movdqa	%xmm0, -128(%rsp)
	pxor	%xmm0, %xmm9
	movdqa	%xmm9, %xmm13
	psrld	$12, %xmm13
	pslld	$20, %xmm9
	por	%xmm13, %xmm9
	paddd	-32(%rsp), %xmm12
	paddd	%xmm2, %xmm12
	pxor	%xmm12, %xmm6
	pshufb	%xmm10, %xmm6
	movdqa	-112(%rsp), %xmm0
	paddd	%xmm6, %xmm0
	movdqa	%xmm0, -112(%rsp)
	pxor	%xmm0, %xmm2
	movdqa	%xmm2, %xmm13
	psrld	$12, %xmm13
	pslld	$20, %xmm2
	por	%xmm13, %xmm2
	paddd	16(%rsp), %xmm1
	paddd	%xmm5, %xmm1
	movdqa	%xmm1, %xmm13
	movdqa	D(CPI18_5)(%rip), %xmm0
	pshufb	%xmm0, %xmm13
	pshufb	%xmm0, %xmm11
	pxor	%xmm13, %xmm11
	paddd	(%rsp), %xmm3
	paddd	%xmm4, %xmm3
	movdqa	%xmm3, %xmm13
	pshufb	%xmm0, %xmm13
	pshufb	%xmm0, %xmm15
	pxor	%xmm13, %xmm15
	paddd	128(%rsp), %xmm7
	paddd	%xmm9, %xmm7
	movdqa	%xmm7, %xmm13
	pshufb	%xmm0, %xmm13
	pshufb	%xmm0, %xmm8
	pxor	%xmm13, %xmm8
	paddd	-80(%rsp), %xmm12
	paddd	%xmm2, %xmm12
	movdqa	%xmm12, %xmm13
	pshufb	%xmm0, %xmm13
	pshufb	%xmm0, %xmm6
	pxor	%xmm13, %xmm6
	movdqa	-96(%rsp), %xmm10
	paddd	%xmm11, %xmm10
	pxor	%xmm10, %xmm5
	movdqa	%xmm5, %xmm13
	psrld	$7, %xmm13
	pslld	$25, %xmm5
	por	%xmm13, %xmm5
	paddd	%xmm15, %xmm14
	pxor	%xmm14, %xmm4
	movdqa	%xmm4, %xmm13
	psrld	$7, %xmm13
	pslld	$25, %xmm4
	por	%xmm13, %xmm4
	movdqa	-128(%rsp), %xmm0
	paddd	%xmm8, %xmm0
	movdqa	%xmm0, -128(%rsp)
	pxor	%xmm0, %xmm9
	movdqa	%xmm9, %xmm13
	psrld	$7, %xmm13
	pslld	$25, %xmm9
	por	%xmm13, %xmm9
	movdqa	-112(%rsp), %xmm0
	paddd	%xmm6, %xmm0
	movdqa	%xmm0, -112(%rsp)
	pxor	%xmm0, %xmm2
	movdqa	%xmm2, %xmm13
	psrld	$7, %xmm13
	pslld	$25, %xmm2
	por	%xmm13, %xmm2
	paddd	112(%rsp), %xmm3
	paddd	%xmm5, %xmm3
	pxor	%xmm3, %xmm8
	movdqa	D(CPI18_0)(%rip), %xmm0
	pshufb	%xmm0, %xmm8
	movdqa	-112(%rsp), %xmm13
	paddd	%xmm8, %xmm13
	movdqa	%xmm13, -112(%rsp)
	pxor	%xmm13, %xmm5
	movdqa	%xmm5, %xmm13
	psrld	$12, %xmm13
	pslld	$20, %xmm5
	por	%xmm13, %xmm5
	paddd	96(%rsp), %xmm7
	paddd	%xmm4, %xmm7
	pxor	%xmm7, %xmm6
	pshufb	%xmm0, %xmm6
	paddd	%xmm6, %xmm10
	pxor	%xmm10, %xmm4
	movdqa	%xmm4, %xmm13
	psrld	$12, %xmm13
	pslld	$20, %xmm4
	por	%xmm13, %xmm4
	paddd	-48(%rsp), %xmm12
	paddd	%xmm9, %xmm12
	pxor	%xmm12, %xmm11
	pshufb	%xmm0, %xmm11
	paddd	%xmm11, %xmm14
	pxor	%xmm14, %xmm9
	movdqa	%xmm9, %xmm13
	psrld	$12, %xmm13
	pslld	$20, %xmm9
	por	%xmm13, %xmm9
	paddd	80(%rsp), %xmm1
	paddd	%xmm2, %xmm1
	pxor	%xmm1, %xmm15
	pshufb	%xmm0, %xmm15
	movdqa	-128(%rsp), %xmm0
	paddd	%xmm15, %xmm0
	movdqa	%xmm0, -128(%rsp)
	pxor	%xmm0, %xmm2
	movdqa	%xmm2, %xmm13
	psrld	$12, %xmm13
	pslld	$20, %xmm2
	por	%xmm13, %xmm2
	paddd	-64(%rsp), %xmm3
	paddd	%xmm5, %xmm3
	movdqa	%xmm3, %xmm13
	movdqa	D(CPI18_5)(%rip), %xmm0
	pshufb	%xmm0, %xmm13
	pshufb	%xmm0, %xmm8
	pxor	%xmm13, %xmm8
	paddd	32(%rsp), %xmm7
	paddd	%xmm4, %xmm7
	movdqa	%xmm7, %xmm13
	pshufb	%xmm0, %xmm13
	pshufb	%xmm0, %xmm6
	pxor	%xmm13, %xmm6
	paddd	64(%rsp), %xmm12
	paddd	%xmm9, %xmm12
	movdqa	%xmm12, %xmm13
	pshufb	%xmm0, %xmm13
	pshufb	%xmm0, %xmm11
	pxor	%xmm13, %xmm11
	paddd	-80(%rsp), %xmm1
	paddd	%xmm2, %xmm1
	movdqa	%xmm1, %xmm13
	pshufb	%xmm0, %xmm13
	pshufb	%xmm0, %xmm15
	pxor	%xmm13, %xmm15
	movdqa	-112(%rsp), %xmm0
	paddd	%xmm8, %xmm0
	movdqa	%xmm0, -112(%rsp)
	pxor	%xmm0, %xmm5
	movdqa	%xmm5, %xmm13
	psrld	$7, %xmm13
	pslld	$25, %xmm5
	por	%xmm13, %xmm5
	paddd	%xmm6, %xmm10
	pxor	%xmm10, %xmm4
	movdqa	%xmm4, %xmm13
	psrld	$7, %xmm13
	pslld	$25, %xmm4
	por	%xmm13, %xmm4
	paddd	%xmm11, %xmm14
	pxor	%xmm14, %xmm9
	movdqa	%xmm9, %xmm13
	psrld	$7, %xmm13
	pslld	$25, %xmm9
	por	%xmm13, %xmm9
	movdqa	-128(%rsp), %xmm0
	paddd	%xmm15, %xmm0
	movdqa	%xmm0, -128(%rsp)
	pxor	%xmm0, %xmm2
	movdqa	%xmm2, %xmm13
	psrld	$7, %xmm13
	pslld	$25, %xmm2
	por	%xmm13, %xmm2
	paddd	16(%rsp), %xmm1
	paddd	%xmm5, %xmm1
	pxor	%xmm1, %xmm11
	movdqa	D(CPI18_0)(%rip), %xmm0
	pshufb	%xmm0, %xmm11
	paddd	%xmm11, %xmm10
	movdqa	%xmm10, -96(%rsp)
	pxor	%xmm10, %xmm5
	movdqa	%xmm5, %xmm13
	psrld	$12, %xmm13
	pslld	$20, %xmm5
	por	%xmm13, %xmm5
	paddd	160(%rsp), %xmm3
	paddd	%xmm4, %xmm3
	pxor	%xmm3, %xmm15
	pshufb	%xmm0, %xmm15
	paddd	%xmm15, %xmm14
	pxor	%xmm14, %xmm4
	movdqa	%xmm4, %xmm13
	psrld	$12, %xmm13
	pslld	$20, %xmm4
	por	%xmm13, %xmm4
	paddd	-32(%rsp), %xmm7
	paddd	%xmm9, %xmm7
	pxor	%xmm7, %xmm8
	pshufb	%xmm0, %xmm8
	movdqa	%xmm0, %xmm10
	movdqa	-128(%rsp), %xmm0
	paddd	%xmm8, %xmm0
	movdqa	%xmm0, -128(%rsp)
	pxor	%xmm0, %xmm9
	movdqa	%xmm9, %xmm13
	psrld	$12, %xmm13
	pslld	$20, %xmm9
	por	%xmm13, %xmm9
	paddd	(%rsp), %xmm12
	paddd	%xmm2, %xmm12
	pxor	%xmm12, %xmm6
	pshufb	%xmm10, %xmm6
	movdqa	-112(%rsp), %xmm0
	paddd	%xmm6, %xmm0
	movdqa	%xmm0, -112(%rsp)
	pxor	%xmm0, %xmm2
	movdqa	%xmm2, %xmm13
	psrld	$12, %xmm13
	pslld	$20, %xmm2
	por	%xmm13, %xmm2
	paddd	48(%rsp), %xmm1
	paddd	%xmm5, %xmm1
	movdqa	%xmm1, %xmm13
	movdqa	D(CPI18_5)(%rip), %xmm0
	pshufb	%xmm0, %xmm13
	pshufb	%xmm0, %xmm11
	pxor	%xmm13, %xmm11
	paddd	128(%rsp), %xmm3
	paddd	%xmm4, %xmm3
	movdqa	%xmm3, %xmm13
	pshufb	%xmm0, %xmm13
	pshufb	%xmm0, %xmm15
	pxor	%xmm13, %xmm15
	paddd	144(%rsp), %xmm7
	paddd	%xmm9, %xmm7
	movdqa	%xmm7, %xmm13
	pshufb	%xmm0, %xmm13
	pshufb	%xmm0, %xmm8
	pxor	%xmm13, %xmm8
	paddd	-16(%rsp), %xmm12
	paddd	%xmm2, %xmm12
	movdqa	%xmm12, %xmm13
	pshufb	%xmm0, %xmm13
	pshufb	%xmm0, %xmm6
	pxor	%xmm13, %xmm6
	movdqa	-96(%rsp), %xmm10
	paddd	%xmm11, %xmm10
	pxor	%xmm10, %xmm5
	movdqa	%xmm5, %xmm13
	psrld	$7, %xmm13
	pslld	$25, %xmm5
	por	%xmm13, %xmm5
	paddd	%xmm15, %xmm14
	pxor	%xmm14, %xmm4
	movdqa	%xmm4, %xmm13
	psrld	$7, %xmm13
	pslld	$25, %xmm4
	por	%xmm13, %xmm4
	movdqa	-128(%rsp), %xmm0
	paddd	%xmm8, %xmm0
	movdqa	%xmm0, -128(%rsp)
	pxor	%xmm0, %xmm9
	movdqa	%xmm9, %xmm13
	psrld	$7, %xmm13
	pslld	$25, %xmm9
	por	%xmm13, %xmm9
	movdqa	-112(%rsp), %xmm0
	paddd	%xmm6, %xmm0
	movdqa	%xmm0, -112(%rsp)
	pxor	%xmm0, %xmm2
	movdqa	%xmm2, %xmm13
	psrld	$7, %xmm13
	pslld	$25, %xmm2
	por	%xmm13, %xmm2
	paddd	96(%rsp), %xmm3
	paddd	%xmm5, %xmm3
	pxor	%xmm3, %xmm8
	movdqa	D(CPI18_0)(%rip), %xmm0
	pshufb	%xmm0, %xmm8
	movdqa	-112(%rsp), %xmm13
	paddd	%xmm8, %xmm13
	movdqa	%xmm13, -112(%rsp)
	pxor	%xmm13, %xmm5
	movdqa	%xmm5, %xmm13
	psrld	$12, %xmm13
	pslld	$20, %xmm5
	por	%xmm13, %xmm5
	paddd	32(%rsp), %xmm7
	paddd	%xmm4, %xmm7
	pxor	%xmm7, %xmm6
	pshufb	%xmm0, %xmm6
	paddd	%xmm6, %xmm10
	pxor	%xmm10, %xmm4
	movdqa	%xmm4, %xmm13
	psrld	$12, %xmm13
	pslld	$20, %xmm4
	por	%xmm13, %xmm4
	paddd	-80(%rsp), %xmm12
	paddd	%xmm9, %xmm12
	pxor	%xmm12, %xmm11
	pshufb	%xmm0, %xmm11
	paddd	%xmm11, %xmm14
	pxor	%xmm14, %xmm9
	movdqa	%xmm9, %xmm13
	psrld	$12, %xmm13
	pslld	$20, %xmm9
	por	%xmm13, %xmm9
	paddd	-48(%rsp), %xmm1
	paddd	%xmm2, %xmm1
	pxor	%xmm1, %xmm15
	pshufb	%xmm0, %xmm15
	movdqa	-128(%rsp), %xmm0
	paddd	%xmm15, %xmm0
	movdqa	%xmm0, -128(%rsp)
	pxor	%xmm0, %xmm2
	movdqa	%xmm2, %xmm13
	psrld	$12, %xmm13
	pslld	$20, %xmm2
	por	%xmm13, %xmm2
	paddd	80(%rsp), %xmm3
	paddd	%xmm5, %xmm3
	movdqa	%xmm3, %xmm13
	movdqa	D(CPI18_5)(%rip), %xmm0
	pshufb	%xmm0, %xmm13
	pshufb	%xmm0, %xmm8
	pxor	%xmm13, %xmm8
	paddd	-32(%rsp), %xmm7
	paddd	%xmm4, %xmm7
	movdqa	%xmm7, %xmm13
	pshufb	%xmm0, %xmm13
	pshufb	%xmm0, %xmm6
	pxor	%xmm13, %xmm6
	paddd	112(%rsp), %xmm12
	paddd	%xmm9, %xmm12
	movdqa	%xmm12, %xmm13
	pshufb	%xmm0, %xmm13
	pshufb	%xmm0, %xmm11
	pxor	%xmm13, %xmm11
	paddd	-16(%rsp), %xmm1
	paddd	%xmm2, %xmm1
	movdqa	%xmm1, %xmm13
	pshufb	%xmm0, %xmm13
	pshufb	%xmm0, %xmm15
	pxor	%xmm13, %xmm15
	movdqa	-112(%rsp), %xmm0
	paddd	%xmm8, %xmm0
	movdqa	%xmm0, -112(%rsp)
	pxor	%xmm0, %xmm5
	movdqa	%xmm5, %xmm13
	psrld	$7, %xmm13
	pslld	$25, %xmm5
	por	%xmm13, %xmm5
	paddd	%xmm6, %xmm10
	pxor	%xmm10, %xmm4
	movdqa	%xmm4, %xmm13
	psrld	$7, %xmm13
	pslld	$25, %xmm4
	por	%xmm13, %xmm4
	paddd	%xmm11, %xmm14
	pxor	%xmm14, %xmm9
	movdqa	%xmm9, %xmm13
	psrld	$7, %xmm13
	pslld	$25, %xmm9
	por	%xmm13, %xmm9
	movdqa	-128(%rsp), %xmm0
	paddd	%xmm15, %xmm0
	movdqa	%xmm0, -128(%rsp)
	pxor	%xmm0, %xmm2
	movdqa	%xmm2, %xmm13
	psrld	$7, %xmm13
	pslld	$25, %xmm2
	por	%xmm13, %xmm2
	paddd	48(%rsp), %xmm1
	paddd	%xmm5, %xmm1
	pxor	%xmm1, %xmm11
	movdqa	D(CPI18_0)(%rip), %xmm0
	pshufb	%xmm0, %xmm11
	paddd	%xmm11, %xmm10
	movdqa	%xmm10, -96(%rsp)
	pxor	%xmm10, %xmm5
	movdqa	%xmm5, %xmm13
	psrld	$12, %xmm13
	pslld	$20, %xmm5
	por	%xmm13, %xmm5
	paddd	-64(%rsp), %xmm3
	paddd	%xmm4, %xmm3
	pxor	%xmm3, %xmm15
	pshufb	%xmm0, %xmm15
	paddd	%xmm15, %xmm14
	pxor	%xmm14, %xmm4
	movdqa	%xmm4, %xmm13
	psrld	$12, %xmm13
	pslld	$20, %xmm4
	por	%xmm13, %xmm4
	paddd	(%rsp), %xmm7
	paddd	%xmm9, %xmm7
	pxor	%xmm7, %xmm8
	pshufb	%xmm0, %xmm8
	movdqa	%xmm0, %xmm10
	movdqa	-128(%rsp), %xmm0
	paddd	%xmm8, %xmm0
	movdqa	%xmm0, -128(%rsp)
	pxor	%xmm0, %xmm9
	movdqa	%xmm9, %xmm13
	psrld	$12, %xmm13
	pslld	$20, %xmm9
	por	%xmm13, %xmm9
	paddd	128(%rsp), %xmm12
	paddd	%xmm2, %xmm12
	pxor	%xmm12, %xmm6
	pshufb	%xmm10, %xmm6
	movdqa	-112(%rsp), %xmm0
	paddd	%xmm6, %xmm0
	movdqa	%xmm0, -112(%rsp)
	pxor	%xmm0, %xmm2
	movdqa	%xmm2, %xmm13
	psrld	$12, %xmm13
	pslld	$20, %xmm2
	por	%xmm13, %xmm2
	paddd	160(%rsp), %xmm1
	paddd	%xmm5, %xmm1
	movdqa	%xmm1, %xmm13
	movdqa	D(CPI18_5)(%rip), %xmm0
	pshufb	%xmm0, %xmm13
	pshufb	%xmm0, %xmm11
	pxor	%xmm13, %xmm11
	paddd	144(%rsp), %xmm3
	paddd	%xmm4, %xmm3
	movdqa	%xmm3, %xmm13
	pshufb	%xmm0, %xmm13
	pshufb	%xmm0, %xmm15
	pxor	%xmm13, %xmm15
	paddd	64(%rsp), %xmm7
	paddd	%xmm9, %xmm7
	movdqa	%xmm7, %xmm13
	pshufb	%xmm0, %xmm13
	pshufb	%xmm0, %xmm8
	pxor	%xmm13, %xmm8
	paddd	16(%rsp), %xmm12
	paddd	%xmm2, %xmm12
	movdqa	%xmm12, %xmm13
	pshufb	%xmm0, %xmm13
	pshufb	%xmm0, %xmm6
	pxor	%xmm13, %xmm6
	movdqa	-96(%rsp), %xmm10
	paddd	%xmm11, %xmm10
	pxor	%xmm10, %xmm5
	movdqa	%xmm5, %xmm13
	psrld	$7, %xmm13
	pslld	$25, %xmm5
	por	%xmm13, %xmm5
	paddd	%xmm15, %xmm14
	pxor	%xmm14, %xmm4
	movdqa	%xmm4, %xmm13
	psrld	$7, %xmm13
	pslld	$25, %xmm4
	por	%xmm13, %xmm4
	movdqa	-128(%rsp), %xmm0
	paddd	%xmm8, %xmm0
	movdqa	%xmm0, -128(%rsp)
	pxor	%xmm0, %xmm9
	movdqa	%xmm9, %xmm13
	psrld	$7, %xmm13
	pslld	$25, %xmm9
	por	%xmm13, %xmm9
	movdqa	-112(%rsp), %xmm0
	paddd	%xmm6, %xmm0
	movdqa	%xmm0, -112(%rsp)
	pxor	%xmm0, %xmm2
	movdqa	%xmm2, %xmm13
	psrld	$7, %xmm13
	pslld	$25, %xmm2
	por	%xmm13, %xmm2
	paddd	32(%rsp), %xmm3
	paddd	%xmm5, %xmm3
	pxor	%xmm3, %xmm8
	movdqa	D(CPI18_0)(%rip), %xmm0
	pshufb	%xmm0, %xmm8
	movdqa	-112(%rsp), %xmm13
	paddd	%xmm8, %xmm13
	movdqa	%xmm13, -112(%rsp)
	pxor	%xmm13, %xmm5
	movdqa	%xmm5, %xmm13
	psrld	$12, %xmm13
	pslld	$20, %xmm5
	por	%xmm13, %xmm5
	paddd	-32(%rsp), %xmm7
	paddd	%xmm4, %xmm7
	pxor	%xmm7, %xmm6
	pshufb	%xmm0, %xmm6
	paddd	%xmm6, %xmm10
	movdqa	%xmm10, -96(%rsp)
	pxor	%xmm10, %xmm4
	movdqa	%xmm4, %xmm13
	psrld	$12, %xmm13
	pslld	$20, %xmm4
	por	%xmm13, %xmm4
	paddd	-16(%rsp), %xmm12
	paddd	%xmm9, %xmm12
	pxor	%xmm12, %xmm11
	pshufb	%xmm0, %xmm11
	paddd	%xmm11, %xmm14
	pxor	%xmm14, %xmm9
	movdqa	%xmm9, %xmm13
	psrld	$12, %xmm13
	pslld	$20, %xmm9
	por	%xmm13, %xmm9
	paddd	-80(%rsp), %xmm1
	paddd	%xmm2, %xmm1
	pxor	%xmm1, %xmm15
	pshufb	%xmm0, %xmm15
	movdqa	-128(%rsp), %xmm0
	paddd	%xmm15, %xmm0
	pxor	%xmm0, %xmm2
	movdqa	%xmm2, %xmm13
	psrld	$12, %xmm13
	pslld	$20, %xmm2
	por	%xmm13, %xmm2
	paddd	-48(%rsp), %xmm3
	paddd	%xmm5, %xmm3
	movdqa	%xmm3, %xmm13
	movdqa	D(CPI18_5)(%rip), %xmm10
	pshufb	%xmm10, %xmm13
	pshufb	%xmm10, %xmm8
	pxor	%xmm13, %xmm8
	paddd	(%rsp), %xmm7
	paddd	%xmm4, %xmm7
	movdqa	%xmm7, %xmm13
	pshufb	%xmm10, %xmm13
	pshufb	%xmm10, %xmm6
	pxor	%xmm13, %xmm6
	paddd	96(%rsp), %xmm12
	paddd	%xmm9, %xmm12
	movdqa	%xmm12, %xmm13
	pshufb	%xmm10, %xmm13
	pshufb	%xmm10, %xmm11
	pxor	%xmm13, %xmm11
	paddd	16(%rsp), %xmm1
	paddd	%xmm2, %xmm1
	movdqa	%xmm1, %xmm13
	pshufb	%xmm10, %xmm13
	pshufb	%xmm10, %xmm15
	pxor	%xmm13, %xmm15
	movdqa	-112(%rsp), %xmm10
	paddd	%xmm8, %xmm10
	movdqa	%xmm10, -112(%rsp)
	pxor	%xmm10, %xmm5
	movdqa	%xmm5, %xmm13
	psrld	$7, %xmm13
	pslld	$25, %xmm5
	por	%xmm13, %xmm5
	movdqa	-96(%rsp), %xmm10
	paddd	%xmm6, %xmm10
	pxor	%xmm10, %xmm4
	movdqa	%xmm4, %xmm13
	psrld	$7, %xmm13
	pslld	$25, %xmm4
	por	%xmm13, %xmm4
	paddd	%xmm11, %xmm14
	pxor	%xmm14, %xmm9
	movdqa	%xmm9, %xmm13
	psrld	$7, %xmm13
	pslld	$25, %xmm9
	por	%xmm13, %xmm9
	paddd	%xmm15, %xmm0
	movdqa	%xmm0, -128(%rsp)
	pxor	%xmm0, %xmm2
	movdqa	%xmm2, %xmm13
	psrld	$7, %xmm13
	pslld	$25, %xmm2
	por	%xmm13, %xmm2
	paddd	160(%rsp), %xmm1
	paddd	%xmm5, %xmm1
	pxor	%xmm1, %xmm11
	movdqa	D(CPI18_0)(%rip), %xmm0
	pshufb	%xmm0, %xmm11
	paddd	%xmm11, %xmm10
	movdqa	%xmm10, -96(%rsp)
	pxor	%xmm10, %xmm5
	movdqa	%xmm5, %xmm13
	psrld	$12, %xmm13
	pslld	$20, %xmm5
	por	%xmm13, %xmm5
	paddd	80(%rsp), %xmm3
	paddd	%xmm4, %xmm3
	pxor	%xmm3, %xmm15
	pshufb	%xmm0, %xmm15
	paddd	%xmm15, %xmm14
	movdqa	%xmm14, 176(%rsp)
	pxor	%xmm14, %xmm4
	movdqa	%xmm4, %xmm13
	psrld	$12, %xmm13
	pslld	$20, %xmm4
	por	%xmm13, %xmm4
	paddd	128(%rsp), %xmm7
	paddd	%xmm9, %xmm7
	movdqa	%xmm8, %xmm10
	pxor	%xmm7, %xmm10
	pshufb	%xmm0, %xmm10
	movdqa	%xmm0, %xmm14
	movdqa	-128(%rsp), %xmm0
	paddd	%xmm10, %xmm0
	movdqa	%xmm0, -128(%rsp)
	pxor	%xmm0, %xmm9
	movdqa	%xmm9, %xmm13
	psrld	$12, %xmm13
	pslld	$20, %xmm9
	por	%xmm13, %xmm9
	paddd	144(%rsp), %xmm12
	paddd	%xmm2, %xmm12
	pxor	%xmm12, %xmm6
	pshufb	%xmm14, %xmm6
	movdqa	-112(%rsp), %xmm8
	paddd	%xmm6, %xmm8
	pxor	%xmm8, %xmm2
	movdqa	%xmm2, %xmm13
	psrld	$12, %xmm13
	pslld	$20, %xmm2
	por	%xmm13, %xmm2
	paddd	-64(%rsp), %xmm1
	paddd	%xmm5, %xmm1
	movdqa	%xmm1, %xmm13
	movdqa	D(CPI18_5)(%rip), %xmm0
	pshufb	%xmm0, %xmm13
	pshufb	%xmm0, %xmm11
	pxor	%xmm13, %xmm11
	paddd	64(%rsp), %xmm3
	paddd	%xmm4, %xmm3
	movdqa	%xmm3, %xmm13
	pshufb	%xmm0, %xmm13
	pshufb	%xmm0, %xmm15
	pxor	%xmm13, %xmm15
	paddd	112(%rsp), %xmm7
	paddd	%xmm9, %xmm7
	movdqa	%xmm7, %xmm13
	pshufb	%xmm0, %xmm13
	pshufb	%xmm0, %xmm10
	pxor	%xmm13, %xmm10
	paddd	48(%rsp), %xmm12
	paddd	%xmm2, %xmm12
	movdqa	%xmm12, %xmm13
	pshufb	%xmm0, %xmm13
	pshufb	%xmm0, %xmm6
	pxor	%xmm13, %xmm6
	movdqa	-96(%rsp), %xmm0
	paddd	%xmm11, %xmm0
	movdqa	%xmm0, -96(%rsp)
	pxor	%xmm0, %xmm5
	movdqa	%xmm5, %xmm13
	psrld	$7, %xmm13
	pslld	$25, %xmm5
	por	%xmm13, %xmm5
	movdqa	176(%rsp), %xmm14
	paddd	%xmm15, %xmm14
	pxor	%xmm14, %xmm4
	movdqa	%xmm4, %xmm13
	psrld	$7, %xmm13
	pslld	$25, %xmm4
	por	%xmm13, %xmm4
	movdqa	-128(%rsp), %xmm0
	paddd	%xmm10, %xmm0
	movdqa	%xmm0, -128(%rsp)
	pxor	%xmm0, %xmm9
	movdqa	%xmm9, %xmm13
	psrld	$7, %xmm13
	pslld	$25, %xmm9
	por	%xmm13, %xmm9
	movdqa	%xmm8, %xmm0
	paddd	%xmm6, %xmm0
	pxor	%xmm0, %xmm2
	movdqa	%xmm2, %xmm13
	psrld	$7, %xmm13
	pslld	$25, %xmm2
	por	%xmm13, %xmm2
	paddd	-32(%rsp), %xmm3
	paddd	(%rsp), %xmm7
	paddd	16(%rsp), %xmm12
	paddd	-16(%rsp), %xmm1
	paddd	%xmm5, %xmm3
	pxor	%xmm3, %xmm10
	movdqa	D(CPI18_0)(%rip), %xmm8
	pshufb	%xmm8, %xmm10
	paddd	%xmm10, %xmm0
	movdqa	%xmm0, -112(%rsp)
	pxor	%xmm0, %xmm5
	movdqa	%xmm5, %xmm13
	psrld	$12, %xmm13
	pslld	$20, %xmm5
	por	%xmm13, %xmm5
	paddd	%xmm4, %xmm7
	pxor	%xmm7, %xmm6
	pshufb	%xmm8, %xmm6
	movdqa	-96(%rsp), %xmm0
	paddd	%xmm6, %xmm0
	movdqa	%xmm0, -96(%rsp)
	pxor	%xmm0, %xmm4
	movdqa	%xmm4, %xmm13
	psrld	$12, %xmm13
	pslld	$20, %xmm4
	por	%xmm13, %xmm4
	paddd	%xmm9, %xmm12
	pxor	%xmm12, %xmm11
	pshufb	%xmm8, %xmm11
	movdqa	%xmm14, %xmm0
	paddd	%xmm11, %xmm0
	movdqa	%xmm0, 176(%rsp)
	pxor	%xmm0, %xmm9
	movdqa	%xmm9, %xmm13
	psrld	$12, %xmm13
	pslld	$20, %xmm9
	por	%xmm13, %xmm9
	paddd	%xmm2, %xmm1
	pxor	%xmm1, %xmm15
	pshufb	%xmm8, %xmm15
	movdqa	-128(%rsp), %xmm0
	paddd	%xmm15, %xmm0
	movdqa	%xmm0, -128(%rsp)
	pxor	%xmm0, %xmm2
	movdqa	%xmm2, %xmm13
	psrld	$12, %xmm13
	pslld	$20, %xmm2
	por	%xmm13, %xmm2
	paddd	-80(%rsp), %xmm3
	paddd	128(%rsp), %xmm7
	paddd	32(%rsp), %xmm12
	paddd	48(%rsp), %xmm1
	paddd	%xmm5, %xmm3
	movdqa	%xmm3, %xmm13
	movdqa	D(CPI18_5)(%rip), %xmm8
	pshufb	%xmm8, %xmm13
	pshufb	%xmm8, %xmm10
	pxor	%xmm13, %xmm10
	movdqa	%xmm10, %xmm0
	paddd	%xmm4, %xmm7
	movdqa	%xmm7, %xmm13
	pshufb	%xmm8, %xmm13
	pshufb	%xmm8, %xmm6
	pxor	%xmm13, %xmm6
	paddd	%xmm9, %xmm12
	movdqa	%xmm12, %xmm13
	pshufb	%xmm8, %xmm13
	pshufb	%xmm8, %xmm11
	pxor	%xmm13, %xmm11
	paddd	%xmm2, %xmm1
	movdqa	%xmm1, %xmm13
	pshufb	%xmm8, %xmm13
	pshufb	%xmm8, %xmm15
	pxor	%xmm13, %xmm15
	movdqa	-112(%rsp), %xmm8
	paddd	%xmm10, %xmm8
	movdqa	%xmm8, -112(%rsp)
	pxor	%xmm8, %xmm5
	movdqa	%xmm5, %xmm13
	psrld	$7, %xmm13
	pslld	$25, %xmm5
	por	%xmm13, %xmm5
	movdqa	-96(%rsp), %xmm10
	paddd	%xmm6, %xmm10
	pxor	%xmm10, %xmm4
	movdqa	%xmm4, %xmm13
	psrld	$7, %xmm13
	pslld	$25, %xmm4
	por	%xmm13, %xmm4
	movdqa	176(%rsp), %xmm14
	paddd	%xmm11, %xmm14
	pxor	%xmm14, %xmm9
	movdqa	%xmm9, %xmm13
	psrld	$7, %xmm13
	pslld	$25, %xmm9
	por	%xmm13, %xmm9
	movdqa	-128(%rsp), %xmm8
	paddd	%xmm15, %xmm8
	movdqa	%xmm8, -128(%rsp)
	pxor	%xmm8, %xmm2
	movdqa	%xmm2, %xmm13
	psrld	$7, %xmm13
	pslld	$25, %xmm2
	por	%xmm13, %xmm2
	paddd	-64(%rsp), %xmm1
	paddd	-48(%rsp), %xmm3
	paddd	144(%rsp), %xmm7
	paddd	64(%rsp), %xmm12
	paddd	%xmm5, %xmm1
	paddd	%xmm4, %xmm3
	paddd	%xmm9, %xmm7
	paddd	%xmm2, %xmm12
	pxor	%xmm1, %xmm11
	movdqa	D(CPI18_0)(%rip), %xmm8
	pshufb	%xmm8, %xmm11
	pxor	%xmm3, %xmm15
	pshufb	%xmm8, %xmm15
	pxor	%xmm7, %xmm0
	pshufb	%xmm8, %xmm0
	pxor	%xmm12, %xmm6
	pshufb	%xmm8, %xmm6
	paddd	%xmm11, %xmm10
	movdqa	%xmm10, -96(%rsp)
	pxor	%xmm10, %xmm5
	movdqa	%xmm5, %xmm13
	psrld	$12, %xmm13
	pslld	$20, %xmm5
	por	%xmm13, %xmm5
	paddd	%xmm15, %xmm14
	pxor	%xmm14, %xmm4
	movdqa	%xmm4, %xmm13
	psrld	$12, %xmm13
	pslld	$20, %xmm4
	por	%xmm13, %xmm4
	movdqa	-128(%rsp), %xmm10
	paddd	%xmm0, %xmm10
	pxor	%xmm10, %xmm9
	movdqa	%xmm9, %xmm13
	psrld	$12, %xmm13
	pslld	$20, %xmm9
	por	%xmm13, %xmm9
	movdqa	-112(%rsp), %xmm8
	paddd	%xmm6, %xmm8
	movdqa	%xmm8, -112(%rsp)
	pxor	%xmm8, %xmm2
	movdqa	%xmm2, %xmm13
	psrld	$12, %xmm13
	pslld	$20, %xmm2
	por	%xmm13, %xmm2
	paddd	80(%rsp), %xmm1
	paddd	112(%rsp), %xmm3
	paddd	96(%rsp), %xmm7
	paddd	160(%rsp), %xmm12
	paddd	%xmm9, %xmm7
	movdqa	%xmm7, %xmm13
	movdqa	D(CPI18_5)(%rip), %xmm8
	pshufb	%xmm8, %xmm13
	pshufb	%xmm8, %xmm0
	pxor	%xmm13, %xmm0
	paddd	%xmm5, %xmm1
	paddd	%xmm0, %xmm10
	pxor	%xmm10, %xmm9
	pxor	%xmm1, %xmm10
	pshufb	%xmm8, %xmm1
	pshufb	%xmm8, %xmm11
	pxor	%xmm1, %xmm11
	paddd	%xmm2, %xmm12
	movdqa	%xmm12, %xmm1
	pshufb	%xmm8, %xmm1
	pshufb	%xmm8, %xmm6
	pxor	%xmm1, %xmm6
	paddd	%xmm4, %xmm3
	movdqa	-112(%rsp), %xmm13
	paddd	%xmm6, %xmm13
	pxor	%xmm13, %xmm2
	pxor	%xmm3, %xmm13
	pshufb	%xmm8, %xmm3
	pshufb	%xmm8, %xmm15
	pxor	%xmm3, %xmm15
	movdqa	-96(%rsp), %xmm1
	paddd	%xmm11, %xmm1
	paddd	%xmm15, %xmm14
	pxor	%xmm1, %xmm5
	movdqa	%xmm1, %xmm3
	pxor	%xmm14, %xmm4
	movdqa	%xmm5, %xmm1
	psrld	$7, %xmm1
	pslld	$25, %xmm5
	por	%xmm1, %xmm5
	movdqa	%xmm4, %xmm1
	psrld	$7, %xmm1
	pslld	$25, %xmm4
	por	%xmm1, %xmm4
	movdqa	%xmm9, %xmm1
	psrld	$7, %xmm1
	pslld	$25, %xmm9
	por	%xmm1, %xmm9
	movdqa	%xmm2, %xmm1
	psrld	$7, %xmm1
	pslld	$25, %xmm2
	por	%xmm1, %xmm2
	pxor	%xmm7, %xmm3
	pxor	%xmm12, %xmm14
	pxor	%xmm0, %xmm5
	pxor	%xmm6, %xmm4
	pxor	%xmm11, %xmm9
	pxor	%xmm15, %xmm2
	movdqu	%xmm13, (%rdi)
	movdqu	%xmm3, 16(%rdi)
	movdqu	%xmm14, 32(%rdi)
	movdqu	%xmm10, 48(%rdi)
	movdqu	%xmm5, 64(%rdi)
	movdqu	%xmm4, 80(%rdi)
	movdqu	%xmm9, 96(%rdi)
	movdqu	%xmm2, 112(%rdi)
	addq	$200, %rsp
	.cfi_def_cfa_offset 8
	retq
	SIZE("keyed_blake3::chunks::take_block::<#8b36ca032ac25711>")
	.cfi_endproc

SIZED(16, 4)
	.p2align	4, 0x0
D(CPI19_0):
	.long	3351608833
	.long	2519287717
	.long	1717998845
	.long	3858926260
D(CPI19_1):
	.long	1867767133
	.long	3530409783
	.long	3864159224
	.long	1064391498
CODE(".text.keyed_blake3::keyed_hash_two")
	.p2align	4
	TYPE("keyed_blake3::keyed_hash_two", function)
"keyed_blake3::keyed_hash_two":
	.cfi_startproc
	pushq	%rbp
	.cfi_def_cfa_offset 16
	pushq	%r15
	.cfi_def_cfa_offset 24
	pushq	%r14
	.cfi_def_cfa_offset 32
	pushq	%r13
	.cfi_def_cfa_offset 40
	pushq	%r12
	.cfi_def_cfa_offset 48
	pushq	%rbx
	.cfi_def_cfa_offset 56
	subq	$600, %rsp
	.cfi_def_cfa_offset 656
	.cfi_offset %rbx, -56
	.cfi_offset %r12, -48
	.cfi_offset %r13, -40
	.cfi_offset %r14, -32
	.cfi_offset %r15, -24
	.cfi_offset %rbp, -16
	movq	%r8, %r15
	movq	%rcx, %r12
	movq	%rdx, %r13
	movq	%rsi, %r8
	movq	%rdi, %r14
	xorps	%xmm0, %xmm0
	movaps	%xmm0, 576(%rsp)
	movaps	%xmm0, 560(%rsp)
	movaps	%xmm0, 528(%rsp)
	movaps	%xmm0, 544(%rsp)
	cmpq	$1025, %rdx
	setae	%al
	cmpq	$1025, %r15
	setae	%cl
	orb	%al, %cl
	je	L(19_2)
	leaq	D(static.7)(%rip), %rbx
	leaq	560(%rsp), %rdi
	movq	%rbx, %rsi
	movq	%r8, %rdx
	movq	%r13, %rcx
	callq	"keyed_blake3::keyed_hash"
	leaq	528(%rsp), %rdi
	movq	%rbx, %rsi
	movq	%r12, %rdx
	movq	%r15, %rcx
	callq	"keyed_blake3::keyed_hash"
	movaps	560(%rsp), %xmm0
	movups	%xmm0, (%r14)
	movaps	576(%rsp), %xmm0
	movups	%xmm0, 16(%r14)
	movaps	528(%rsp), %xmm0
	movups	%xmm0, 32(%r14)
	movaps	544(%rsp), %xmm0
	movups	%xmm0, 48(%r14)
	jmp	L(19_48)
L(19_2):
	cmpq	$1, %r13
	movq	%r13, %rdi
	adcq	$-1, %rdi
	movq	%rdi, %rsi
	shrq	$6, %rsi
	movq	%rsi, 216(%rsp)
	cmpq	$1, %r15
	movq	%r15, %rax
	adcq	$-1, %rax
	movq	%rax, %rcx
	shrq	$6, %rcx
	cmpq	%rsi, %rcx
	movq	%rsi, %rdx
	cmovbq	%rcx, %rdx
	movq	%rdx, 488(%rsp)
	testq	%rsi, %rsi
	movq	%r12, 8(%rsp)
	movq	%rax, 512(%rsp)
	movq	%rcx, 392(%rsp)
	movq	%r8, 384(%rsp)
	movq	%rdi, 504(%rsp)
	je	L(19_3)
	movups	(%r8), %xmm0
	movups	16(%r8), %xmm1
	movups	32(%r8), %xmm2
	movups	48(%r8), %xmm3
	movaps	%xmm3, 128(%rsp)
	movaps	%xmm2, 112(%rsp)
	movaps	%xmm1, 96(%rsp)
	movaps	%xmm0, 80(%rsp)
	movl	$17, %ebx
	movl	$64, %ebp
	jmp	L(19_8)
L(19_3):
	cmpq	$64, %r13
	jne	L(19_4)
	movups	(%r8), %xmm0
	movups	16(%r8), %xmm1
	movups	32(%r8), %xmm2
	movups	48(%r8), %xmm3
	movaps	%xmm3, 192(%rsp)
	movaps	%xmm2, 176(%rsp)
	movaps	%xmm1, 160(%rsp)
	movaps	%xmm0, 144(%rsp)
	jmp	L(19_6)
L(19_4):
	movaps	%xmm0, 64(%rsp)
	movaps	%xmm0, 48(%rsp)
	movaps	%xmm0, 32(%rsp)
	movaps	%xmm0, 16(%rsp)
	leaq	16(%rsp), %rdi
	movq	%r8, %rsi
	movq	%r13, %rdx
	callq	PLT(memcpy)
	movaps	16(%rsp), %xmm0
	movaps	32(%rsp), %xmm1
	movaps	48(%rsp), %xmm2
	movaps	64(%rsp), %xmm3
	movaps	%xmm0, 144(%rsp)
	movaps	%xmm1, 160(%rsp)
	movaps	%xmm2, 176(%rsp)
	movaps	%xmm3, 192(%rsp)
L(19_6):
	movaps	144(%rsp), %xmm0
	movaps	160(%rsp), %xmm1
	movaps	176(%rsp), %xmm2
	movaps	192(%rsp), %xmm3
	movaps	%xmm0, 80(%rsp)
	movaps	%xmm1, 96(%rsp)
	movaps	%xmm2, 112(%rsp)
	movaps	%xmm3, 128(%rsp)
	movl	$27, %ebx
	movl	%r13d, %ebp
L(19_8):
	movaps	80(%rsp), %xmm0
	movaps	96(%rsp), %xmm1
	movaps	112(%rsp), %xmm2
	movaps	128(%rsp), %xmm3
	movaps	%xmm0, 224(%rsp)
	movaps	%xmm1, 240(%rsp)
	movaps	%xmm2, 256(%rsp)
	movaps	%xmm3, 272(%rsp)
	movq	$0, 288(%rsp)
	movl	%ebp, 296(%rsp)
	movl	%ebx, 300(%rsp)
	cmpq	$0, 392(%rsp)
	je	L(19_9)
	movq	8(%rsp), %rax
	movups	(%rax), %xmm0
	movups	16(%rax), %xmm1
	movups	32(%rax), %xmm2
	movups	48(%rax), %xmm3
	movaps	%xmm3, 128(%rsp)
	movaps	%xmm2, 112(%rsp)
	movaps	%xmm1, 96(%rsp)
	movaps	%xmm0, 80(%rsp)
	movl	$17, %eax
	movl	$64, %ecx
	jmp	L(19_14)
L(19_9):
	cmpq	$64, %r15
	jne	L(19_10)
	movq	8(%rsp), %rax
	movups	(%rax), %xmm0
	movups	16(%rax), %xmm1
	movups	32(%rax), %xmm2
	movups	48(%rax), %xmm3
	movaps	%xmm3, 192(%rsp)
	movaps	%xmm2, 176(%rsp)
	movaps	%xmm1, 160(%rsp)
	movaps	%xmm0, 144(%rsp)
	jmp	L(19_12)
L(19_10):
	xorps	%xmm0, %xmm0
	movaps	%xmm0, 64(%rsp)
	movaps	%xmm0, 48(%rsp)
	movaps	%xmm0, 32(%rsp)
	movaps	%xmm0, 16(%rsp)
	leaq	16(%rsp), %rdi
	movq	8(%rsp), %rsi
	movq	%r15, %rdx
	callq	PLT(memcpy)
	movaps	16(%rsp), %xmm0
	movaps	32(%rsp), %xmm1
	movaps	48(%rsp), %xmm2
	movaps	64(%rsp), %xmm3
	movaps	%xmm0, 144(%rsp)
	movaps	%xmm1, 160(%rsp)
	movaps	%xmm2, 176(%rsp)
	movaps	%xmm3, 192(%rsp)
L(19_12):
	movaps	144(%rsp), %xmm0
	movaps	160(%rsp), %xmm1
	movaps	176(%rsp), %xmm2
	movaps	192(%rsp), %xmm3
	movaps	%xmm0, 80(%rsp)
	movaps	%xmm1, 96(%rsp)
	movaps	%xmm2, 112(%rsp)
	movaps	%xmm3, 128(%rsp)
	movl	$27, %eax
	movl	%r15d, %ecx
L(19_14):
	movq	%r15, 208(%rsp)
	movq	%r14, 376(%rsp)
	movaps	80(%rsp), %xmm0
	movaps	96(%rsp), %xmm1
	movaps	112(%rsp), %xmm2
	movaps	128(%rsp), %xmm3
	movaps	%xmm0, 400(%rsp)
	movaps	%xmm1, 416(%rsp)
	movaps	%xmm2, 432(%rsp)
	movaps	%xmm3, 448(%rsp)
	movq	$0, 464(%rsp)
	movl	%ecx, 472(%rsp)
	movl	%eax, 476(%rsp)
	movd	%ebx, %xmm0
	movd	%ebp, %xmm4
	punpckldq	%xmm0, %xmm4
	pslldq	$8, %xmm4
	movd	%eax, %xmm0
	movd	%ecx, %xmm5
	punpckldq	%xmm0, %xmm5
	pslldq	$8, %xmm5
	movaps	D(CPI19_0)(%rip), %xmm0
	movaps	D(CPI19_1)(%rip), %xmm2
	leaq	16(%rsp), %rdi
	leaq	224(%rsp), %rsi
	leaq	400(%rsp), %rdx
	movaps	%xmm0, %xmm1
	movaps	%xmm2, %xmm3
	callq	"keyed_blake3::compression::two::compress_two_from"
	movups	16(%rsp), %xmm9
	movups	32(%rsp), %xmm8
	movups	48(%rsp), %xmm7
	movups	64(%rsp), %xmm6
	movq	488(%rsp), %rax
	testq	%rax, %rax
	movq	%r13, 496(%rsp)
	je	L(19_29)
	negq	%rax
	movq	%rax, 520(%rsp)
	movq	384(%rsp), %rax
	leaq	64(%rax), %rbx
	movq	8(%rsp), %rax
	leaq	64(%rax), %r15
	movl	$1, %ebp
	xorl	%r14d, %r14d
	jmp	L(19_16)
	.p2align	4
L(19_23):
	movups	(%r15), %xmm0
	movups	16(%r15), %xmm1
	movups	32(%r15), %xmm2
	movups	48(%r15), %xmm3
	movaps	%xmm3, 128(%rsp)
	movaps	%xmm2, 112(%rsp)
	movaps	%xmm1, 96(%rsp)
	movaps	%xmm0, 80(%rsp)
	movl	$16, %ecx
	movl	$64, %eax
L(19_28):
	movaps	80(%rsp), %xmm0
	movaps	96(%rsp), %xmm1
	movaps	112(%rsp), %xmm2
	movaps	128(%rsp), %xmm3
	movaps	%xmm0, 400(%rsp)
	movaps	%xmm1, 416(%rsp)
	movaps	%xmm2, 432(%rsp)
	movaps	%xmm3, 448(%rsp)
	movq	$0, 464(%rsp)
	movl	%eax, 472(%rsp)
	movl	%ecx, 476(%rsp)
	movd	%r13d, %xmm0
	movd	%r12d, %xmm4
	punpckldq	%xmm0, %xmm4
	pslldq	$8, %xmm4
	movd	%ecx, %xmm0
	movd	%eax, %xmm5
	punpckldq	%xmm0, %xmm5
	pslldq	$8, %xmm5
	leaq	16(%rsp), %rdi
	leaq	224(%rsp), %rsi
	leaq	400(%rsp), %rdx
	movaps	%xmm9, %xmm0
	movaps	%xmm8, %xmm1
	movaps	%xmm7, %xmm2
	movaps	%xmm6, %xmm3
	callq	"keyed_blake3::compression::two::compress_two_from"
	movups	16(%rsp), %xmm9
	movups	32(%rsp), %xmm8
	movups	48(%rsp), %xmm7
	movups	64(%rsp), %xmm6
	movq	520(%rsp), %rax
	addq	%rbp, %rax
	incq	%rax
	incq	%rbp
	addq	$-64, %r14
	addq	$64, %rbx
	addq	$64, %r15
	cmpq	$1, %rax
	je	L(19_29)
L(19_16):
	cmpq	216(%rsp), %rbp
	jae	L(19_18)
	movups	(%rbx), %xmm0
	movups	16(%rbx), %xmm1
	movups	32(%rbx), %xmm2
	movups	48(%rbx), %xmm3
	movaps	%xmm3, 128(%rsp)
	movaps	%xmm2, 112(%rsp)
	movaps	%xmm1, 96(%rsp)
	movaps	%xmm0, 80(%rsp)
	movl	$16, %r13d
	movl	$64, %r12d
	jmp	L(19_22)
	.p2align	4
L(19_18):
	movq	496(%rsp), %r12
	leaq	(%r12,%r14), %rax
	cmpq	$128, %rax
	je	L(19_19)
	movaps	%xmm9, 304(%rsp)
	movaps	%xmm8, 320(%rsp)
	movaps	%xmm7, 336(%rsp)
	movaps	%xmm6, 352(%rsp)
	leaq	(%r12,%r14), %rdx
	addq	$-64, %rdx
	xorps	%xmm0, %xmm0
	movaps	%xmm0, 64(%rsp)
	movaps	%xmm0, 48(%rsp)
	movaps	%xmm0, 32(%rsp)
	movaps	%xmm0, 16(%rsp)
	leaq	16(%rsp), %rax
	subq	%rbx, %rax
	cmpq	%rdx, %rax
	leaq	16(%rsp), %rdi
	movq	%rbx, %rsi
	callq	PLT(memcpy)
	movaps	16(%rsp), %xmm0
	movaps	32(%rsp), %xmm1
	movaps	48(%rsp), %xmm2
	movaps	64(%rsp), %xmm3
	movaps	%xmm3, 192(%rsp)
	movaps	%xmm2, 176(%rsp)
	movaps	%xmm1, 160(%rsp)
	movaps	%xmm0, 144(%rsp)
	movaps	352(%rsp), %xmm6
	movaps	336(%rsp), %xmm7
	movaps	320(%rsp), %xmm8
	movaps	304(%rsp), %xmm9
	jmp	L(19_21)
L(19_19):
	movups	(%rbx), %xmm0
	movups	16(%rbx), %xmm1
	movups	32(%rbx), %xmm2
	movups	48(%rbx), %xmm3
	movaps	%xmm3, 192(%rsp)
	movaps	%xmm2, 176(%rsp)
	movaps	%xmm1, 160(%rsp)
	movaps	%xmm0, 144(%rsp)
L(19_21):
	addl	%r14d, %r12d
	addl	$-64, %r12d
	movaps	144(%rsp), %xmm0
	movaps	160(%rsp), %xmm1
	movaps	176(%rsp), %xmm2
	movaps	192(%rsp), %xmm3
	movaps	%xmm0, 80(%rsp)
	movaps	%xmm1, 96(%rsp)
	movaps	%xmm2, 112(%rsp)
	movaps	%xmm3, 128(%rsp)
	movl	$26, %r13d
L(19_22):
	movaps	80(%rsp), %xmm0
	movaps	96(%rsp), %xmm1
	movaps	112(%rsp), %xmm2
	movaps	128(%rsp), %xmm3
	movaps	%xmm0, 224(%rsp)
	movaps	%xmm1, 240(%rsp)
	movaps	%xmm2, 256(%rsp)
	movaps	%xmm3, 272(%rsp)
	movq	$0, 288(%rsp)
	movl	%r12d, 296(%rsp)
	movl	%r13d, 300(%rsp)
	cmpq	392(%rsp), %rbp
	jb	L(19_23)
	movq	208(%rsp), %rcx
	leaq	(%rcx,%r14), %rax
	cmpq	$128, %rax
	je	L(19_25)
	movaps	%xmm9, 304(%rsp)
	movaps	%xmm8, 320(%rsp)
	movaps	%xmm7, 336(%rsp)
	movaps	%xmm6, 352(%rsp)
	leaq	(%rcx,%r14), %rdx
	addq	$-64, %rdx
	xorps	%xmm0, %xmm0
	movaps	%xmm0, 64(%rsp)
	movaps	%xmm0, 48(%rsp)
	movaps	%xmm0, 32(%rsp)
	movaps	%xmm0, 16(%rsp)
	leaq	16(%rsp), %rax
	subq	%r15, %rax
	cmpq	%rdx, %rax
	leaq	16(%rsp), %rdi
	movq	%r15, %rsi
	callq	PLT(memcpy)
	movaps	16(%rsp), %xmm0
	movaps	32(%rsp), %xmm1
	movaps	48(%rsp), %xmm2
	movaps	64(%rsp), %xmm3
	movaps	%xmm3, 192(%rsp)
	movaps	%xmm2, 176(%rsp)
	movaps	%xmm1, 160(%rsp)
	movaps	%xmm0, 144(%rsp)
	movaps	352(%rsp), %xmm6
	movaps	336(%rsp), %xmm7
	movaps	320(%rsp), %xmm8
	movaps	304(%rsp), %xmm9
	jmp	L(19_27)
L(19_25):
	movups	(%r15), %xmm0
	movups	16(%r15), %xmm1
	movups	32(%r15), %xmm2
	movups	48(%r15), %xmm3
	movaps	%xmm3, 192(%rsp)
	movaps	%xmm2, 176(%rsp)
	movaps	%xmm1, 160(%rsp)
	movaps	%xmm0, 144(%rsp)
L(19_27):
	movq	208(%rsp), %rax
	addl	%r14d, %eax
	addl	$-64, %eax
	movaps	144(%rsp), %xmm0
	movaps	160(%rsp), %xmm1
	movaps	176(%rsp), %xmm2
	movaps	192(%rsp), %xmm3
	movaps	%xmm0, 80(%rsp)
	movaps	%xmm1, 96(%rsp)
	movaps	%xmm2, 112(%rsp)
	movaps	%xmm3, 128(%rsp)
	movl	$26, %ecx
	jmp	L(19_28)
L(19_29):
	movq	488(%rsp), %rbp
	leaq	1(%rbp), %rcx
	movq	392(%rsp), %r13
	movq	216(%rsp), %rax
	cmpq	%rax, %r13
	jae	L(19_30)
	movaps	%xmm8, 320(%rsp)
	movaps	%xmm6, 352(%rsp)
	cmpq	%rax, %rcx
	movq	8(%rsp), %r12
	jae	L(19_34)
	movq	%rbp, %rbx
	notq	%rbx
	addq	%rax, %rbx
	movq	%rbp, %rax
	shlq	$6, %rax
	movq	384(%rsp), %rcx
	leaq	(%rax,%rcx), %r15
	addq	$64, %r15
	.p2align	4
L(19_33):
	movups	(%r15), %xmm0
	movups	16(%r15), %xmm1
	movups	32(%r15), %xmm2
	movups	48(%r15), %xmm3
	movaps	%xmm3, 272(%rsp)
	movaps	%xmm2, 256(%rsp)
	movaps	%xmm1, 240(%rsp)
	movaps	%xmm0, 224(%rsp)
	leaq	400(%rsp), %rdi
	leaq	224(%rsp), %rsi
	movaps	%xmm9, %xmm0
	movaps	%xmm7, %xmm1
	xorl	%edx, %edx
	movl	$64, %ecx
	movl	$16, %r8d
	callq	"keyed_blake3::compression::compress"
	movaps	400(%rsp), %xmm9
	movaps	416(%rsp), %xmm7
	addq	$64, %r15
	decq	%rbx
	jne	L(19_33)
L(19_34):
	movq	504(%rsp), %rax
	andl	$1984, %eax
	movq	384(%rsp), %rsi
	addq	%rax, %rsi
	movq	496(%rsp), %r14
	subq	%rax, %r14
	xorps	%xmm0, %xmm0
	movaps	%xmm0, 400(%rsp)
	movaps	%xmm0, 416(%rsp)
	cmpq	$64, %r14
	movq	208(%rsp), %r15
	jne	L(19_36)
	movups	(%rsi), %xmm0
	movups	16(%rsi), %xmm1
	movups	32(%rsi), %xmm2
	movups	48(%rsi), %xmm3
	movaps	%xmm3, 272(%rsp)
	movaps	%xmm2, 256(%rsp)
	movaps	%xmm1, 240(%rsp)
	movaps	%xmm0, 224(%rsp)
	leaq	400(%rsp), %rdi
	leaq	224(%rsp), %rsi
	movaps	%xmm9, %xmm0
	movaps	%xmm7, %xmm1
	xorl	%edx, %edx
	movl	$64, %ecx
	jmp	L(19_37)
L(19_30):
	movq	208(%rsp), %r15
	movq	8(%rsp), %r12
	cmpq	%r13, %rax
	jb	L(19_40)
L(19_39):
	movq	376(%rsp), %rax
	jmp	L(19_47)
L(19_36):
	movaps	%xmm0, 272(%rsp)
	movaps	%xmm0, 256(%rsp)
	movaps	%xmm0, 240(%rsp)
	movaps	%xmm0, 224(%rsp)
	leaq	224(%rsp), %rbx
	movq	%rbx, %rdi
	movq	%r14, %rdx
	movaps	%xmm7, 336(%rsp)
	movaps	%xmm9, 304(%rsp)
	callq	PLT(memcpy)
	leaq	400(%rsp), %rdi
	movaps	304(%rsp), %xmm0
	movaps	336(%rsp), %xmm1
	movq	%rbx, %rsi
	xorl	%edx, %edx
	movl	%r14d, %ecx
L(19_37):
	movl	$26, %r8d
	callq	"keyed_blake3::compression::compress"
	movaps	416(%rsp), %xmm7
	movq	216(%rsp), %rax
	movaps	400(%rsp), %xmm9
	movaps	352(%rsp), %xmm6
	movaps	320(%rsp), %xmm8
	leaq	1(%rbp), %rcx
	cmpq	%r13, %rax
	jae	L(19_39)
L(19_40):
	movaps	%xmm9, 304(%rsp)
	movaps	%xmm7, 336(%rsp)
	cmpq	%r13, %rcx
	jae	L(19_43)
	movq	%rbp, %rbx
	notq	%rbx
	addq	%r13, %rbx
	shlq	$6, %rbp
	leaq	(%r12,%rbp), %r14
	addq	$64, %r14
	.p2align	4
L(19_42):
	movups	(%r14), %xmm0
	movups	16(%r14), %xmm1
	movups	32(%r14), %xmm2
	movups	48(%r14), %xmm3
	movaps	%xmm3, 272(%rsp)
	movaps	%xmm2, 256(%rsp)
	movaps	%xmm1, 240(%rsp)
	movaps	%xmm0, 224(%rsp)
	leaq	400(%rsp), %rdi
	leaq	224(%rsp), %rsi
	movaps	%xmm8, %xmm0
	movaps	%xmm6, %xmm1
	xorl	%edx, %edx
	movl	$64, %ecx
	movl	$16, %r8d
	callq	"keyed_blake3::compression::compress"
	movaps	400(%rsp), %xmm8
	movaps	416(%rsp), %xmm6
	addq	$64, %r14
	decq	%rbx
	jne	L(19_42)
L(19_43):
	movq	512(%rsp), %rax
	andl	$1984, %eax
	addq	%rax, %r12
	subq	%rax, %r15
	xorps	%xmm0, %xmm0
	movaps	%xmm0, 400(%rsp)
	movaps	%xmm0, 416(%rsp)
	cmpq	$64, %r15
	jne	L(19_45)
	movups	(%r12), %xmm0
	movups	16(%r12), %xmm1
	movups	32(%r12), %xmm2
	movups	48(%r12), %xmm3
	movaps	%xmm3, 272(%rsp)
	movaps	%xmm2, 256(%rsp)
	movaps	%xmm1, 240(%rsp)
	movaps	%xmm0, 224(%rsp)
	leaq	400(%rsp), %rdi
	leaq	224(%rsp), %rsi
	movaps	%xmm8, %xmm0
	movaps	%xmm6, %xmm1
	xorl	%edx, %edx
	movl	$64, %ecx
	jmp	L(19_46)
L(19_45):
	movaps	%xmm0, 272(%rsp)
	movaps	%xmm0, 256(%rsp)
	movaps	%xmm0, 240(%rsp)
	movaps	%xmm0, 224(%rsp)
	leaq	224(%rsp), %rbx
	movq	%rbx, %rdi
	movq	%r12, %rsi
	movq	%r15, %rdx
	movaps	%xmm6, 352(%rsp)
	movaps	%xmm8, 320(%rsp)
	callq	PLT(memcpy)
	leaq	400(%rsp), %rdi
	movaps	320(%rsp), %xmm0
	movaps	352(%rsp), %xmm1
	movq	%rbx, %rsi
	xorl	%edx, %edx
	movl	%r15d, %ecx
L(19_46):
	movl	$26, %r8d
	callq	"keyed_blake3::compression::compress"
	movaps	416(%rsp), %xmm6
	movq	376(%rsp), %rax
	movaps	400(%rsp), %xmm8
	movaps	336(%rsp), %xmm7
	movaps	304(%rsp), %xmm9
L(19_47):
	movups	%xmm9, (%rax)
	movups	%xmm7, 16(%rax)
	movups	%xmm8, 32(%rax)
	movups	%xmm6, 48(%rax)
L(19_48):
	addq	$600, %rsp
	.cfi_def_cfa_offset 56
	popq	%rbx
	.cfi_def_cfa_offset 48
	popq	%r12
	.cfi_def_cfa_offset 40
	popq	%r13
	.cfi_def_cfa_offset 32
	popq	%r14
	.cfi_def_cfa_offset 24
	popq	%r15
	.cfi_def_cfa_offset 16
	popq	%rbp
	.cfi_def_cfa_offset 8
	retq
	SIZE("keyed_blake3::keyed_hash_two")
	.cfi_endproc

CODE(".text.xet_roots::groups::two_parent_hashes")
	.p2align	4
	TYPE("xet_roots::groups::two_parent_hashes", function)
"xet_roots::groups::two_parent_hashes":
	.cfi_startproc
	endbr64
	pushq	%rbp
	.cfi_def_cfa_offset 16
	pushq	%r15
	.cfi_def_cfa_offset 24
	pushq	%r14
	.cfi_def_cfa_offset 32
	pushq	%r13
	.cfi_def_cfa_offset 40
	pushq	%r12
	.cfi_def_cfa_offset 48
	pushq	%rbx
	.cfi_def_cfa_offset 56
	subq	$1656, %rsp
	.cfi_def_cfa_offset 1712
	.cfi_offset %rbx, -56
	.cfi_offset %r12, -48
	.cfi_offset %r13, -40
	.cfi_offset %r14, -32
	.cfi_offset %r15, -24
	.cfi_offset %rbp, -16
	movq	%r8, %r15
	movq	%rcx, %r12
	movq	%rdx, %r13
	movq	%rsi, %rbp
	movq	%rdi, %rbx
	leaq	864(%rsp), %r14
	movl	$792, %edx
	movq	%r14, %rdi
	xorl	%esi, %esi
	callq	PLT(memset)
	movq	%r14, %rdi
	movq	%rbp, %rsi
	movq	%r13, %rdx
	callq	"xet_roots::groups::write_text"
	movq	%rax, %r13
	leaq	72(%rsp), %rbp
	movl	$792, %edx
	movq	%rbp, %rdi
	xorl	%esi, %esi
	callq	PLT(memset)
	movq	%rbp, %rdi
	movq	%r12, %rsi
	movq	%r15, %rdx
	callq	"xet_roots::groups::write_text"
	xorps	%xmm0, %xmm0
	movaps	%xmm0, 48(%rsp)
	movaps	%xmm0, 32(%rsp)
	movaps	%xmm0, 16(%rsp)
	movaps	%xmm0, (%rsp)
	movq	%rsp, %rdi
	movq	%r14, %rsi
	movq	%r13, %rdx
	movq	%rbp, %rcx
	movq	%rax, %r8
	callq	"keyed_blake3::keyed_hash_two"
	movaps	(%rsp), %xmm0
	movaps	16(%rsp), %xmm1
	movaps	32(%rsp), %xmm2
	movaps	48(%rsp), %xmm3
	movups	%xmm0, (%rbx)
	movups	%xmm1, 16(%rbx)
	movups	%xmm2, 32(%rbx)
	movups	%xmm3, 48(%rbx)
	addq	$1656, %rsp
	.cfi_def_cfa_offset 56
	popq	%rbx
	.cfi_def_cfa_offset 48
	popq	%r12
	.cfi_def_cfa_offset 40
	popq	%r13
	.cfi_def_cfa_offset 32
	popq	%r14
	.cfi_def_cfa_offset 24
	popq	%r15
	.cfi_def_cfa_offset 16
	popq	%rbp
	.cfi_def_cfa_offset 8
	retq
	SIZE("xet_roots::groups::two_parent_hashes")
	.cfi_endproc

	TYPE(D(static.3), object)
CONSTANTS(.rodata..Lstatic.3)
D(static.3):
	.ascii	" : "
	SIZE(D(static.3))

	TYPE(D(static.6), object)
CONSTANTS(.rodata..Lstatic.6)
	.p2align	1, 0x0
D(static.6):
	.ascii	"00010203040506070809101112131415161718192021222324252627282930313233343536373839404142434445464748495051525354555657585960616263646566676869707172737475767778798081828384858687888990919293949596979899"
	SIZE(D(static.6))

	TYPE(D(static.7), object)
SIZED(32, 5)
D(static.7):
	.ascii	"\001~\305\307\245G)\226\375\224ff\264\212\002\346]\335So7\307m\322\370cR\346JSq?"
	SIZE(D(static.7))

NO_STACK
ADDRESSES(.data.rel.ro.yurewha_x86_64_v2_kernels)
	.p2align	3, 0x0
	.globl	C(yurewha_x86_64_v2_kernels)
	HIDDEN(C(yurewha_x86_64_v2_kernels))
	TYPE(C(yurewha_x86_64_v2_kernels), object)
C(yurewha_x86_64_v2_kernels):
	.quad	"keyed_blake3::keyed_hash"
	.quad	"keyed_blake3::compression::compress"
	.quad	"keyed_blake3::hasher::Hasher::update"
	.quad	"keyed_blake3::hasher::Hasher::finalize"
	.quad	"xet_roots::groups::two_parent_hashes"
	.quad	"xet_roots::groups::parent_hashes"
	.quad	"xet_roots::groups::write_text"
	SIZE(C(yurewha_x86_64_v2_kernels))

#else
NO_STACK
#endif
END
