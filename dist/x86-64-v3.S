/* Yurewha 1.1.0 for x86-64-v3: the kernels of the proved library, as the toolchain compiles it. Made by dist/make, not by hand.
   The sum of its sources: 9f27598952ba9691f7deda6fc4a73bcce6b881aa2a1edd98ac143c424a08c115 */
#include "assembly.h"
#ifdef __x86_64__
CODE(".text.keyed_blake3::keyed_hash")
	.p2align	4
	TYPE("keyed_blake3::keyed_hash", function)
"keyed_blake3::keyed_hash":
	.cfi_startproc
	endbr64
	pushq	%rbp
	.cfi_def_cfa_offset 16
	pushq	%r15
	.cfi_def_cfa_offset 24
	pushq	%r14
	.cfi_def_cfa_offset 32
	pushq	%r13
	.cfi_def_cfa_offset 40
	pushq	%r12
	.cfi_def_cfa_offset 48
	pushq	%rbx
	.cfi_def_cfa_offset 56
	subq	$2024, %rsp
	.cfi_def_cfa_offset 2080
	.cfi_offset %rbx, -56
	.cfi_offset %r12, -48
	.cfi_offset %r13, -40
	.cfi_offset %r14, -32
	.cfi_offset %r15, -24
	.cfi_offset %rbp, -16
	movq	%rcx, %r14
	movq	%rdx, %rbx
	movq	%rsi, %r12
	movq	%rdi, %r15
	vxorps	%xmm0, %xmm0, %xmm0
	vmovups	%ymm0, 32(%rsp)
	cmpq	$1025, %rcx
	jae	L(1_1)
	vmovups	(%r12), %xmm0
	vmovups	16(%r12), %xmm1
	cmpq	$1, %r14
	movq	%r14, %r12
	adcq	$-1, %r12
	movq	%r12, %r13
	shrq	$6, %r13
	je	L(1_4)
	movq	%r15, 64(%rsp)
	xorl	%ebp, %ebp
	movq	%rbx, %r15
	.p2align	4
L(1_6):
	cmpq	$1, %rbp
	movl	$0, %r8d
	adcl	$16, %r8d
	vmovups	(%r15), %ymm3
	vmovups	32(%r15), %ymm2
	vmovups	%ymm2, 112(%rsp)
	vmovups	%ymm3, 80(%rsp)
	movq	%rsp, %rdi
	leaq	80(%rsp), %rsi
	xorl	%edx, %edx
	movl	$64, %ecx
	vzeroupper
	callq	"keyed_blake3::compression::compress"
	vmovaps	(%rsp), %xmm0
	vmovaps	16(%rsp), %xmm1
	incq	%rbp
	addq	$64, %r15
	cmpq	%rbp, %r13
	jne	L(1_6)
	movl	$26, %ebp
	movq	64(%rsp), %r15
	jmp	L(1_8)
L(1_1):
	leaq	224(%rsp), %rdi
	movl	$1800, %edx
	xorl	%esi, %esi
	vzeroupper
	callq	PLT(memset)
	vmovups	(%r12), %ymm0
	vmovups	%ymm0, 192(%rsp)
	vmovups	(%r12), %ymm0
	vmovups	%ymm0, 160(%rsp)
	leaq	160(%rsp), %r12
	movq	%r12, %rdi
	movq	%rbx, %rsi
	movq	%r14, %rdx
	vzeroupper
	callq	"keyed_blake3::hasher::Hasher::update"
	leaq	32(%rsp), %rdi
	movq	%r12, %rsi
	callq	"keyed_blake3::hasher::Hasher::finalize"
	vmovups	32(%rsp), %ymm0
	vmovups	%ymm0, (%r15)
	jmp	L(1_2)
L(1_4):
	movl	$27, %ebp
L(1_8):
	andl	$1984, %r12d
	addq	%r12, %rbx
	subq	%r12, %r14
	vxorps	%xmm2, %xmm2, %xmm2
	vmovups	%ymm2, (%rsp)
	cmpq	$64, %r14
	jne	L(1_10)
	vmovups	(%rbx), %ymm3
	vmovups	32(%rbx), %ymm2
	vmovups	%ymm2, 112(%rsp)
	vmovups	%ymm3, 80(%rsp)
	movq	%rsp, %rdi
	leaq	80(%rsp), %rsi
	xorl	%edx, %edx
	movl	$64, %ecx
	jmp	L(1_11)
L(1_10):
	vmovups	%ymm2, 112(%rsp)
	vmovups	%ymm2, 80(%rsp)
	leaq	80(%rsp), %r12
	movq	%r12, %rdi
	movq	%rbx, %rsi
	movq	%r14, %rdx
	vmovaps	%xmm1, 64(%rsp)
	vmovaps	%xmm0, 144(%rsp)
	vzeroupper
	callq	PLT(memcpy)
	movq	%rsp, %rdi
	vmovaps	144(%rsp), %xmm0
	vmovaps	64(%rsp), %xmm1
	movq	%r12, %rsi
	xorl	%edx, %edx
	movl	%r14d, %ecx
L(1_11):
	movl	%ebp, %r8d
	vzeroupper
	callq	"keyed_blake3::compression::compress"
	vmovups	4(%rsp), %xmm0
	vmovsd	20(%rsp), %xmm1
	movl	28(%rsp), %eax
	movl	(%rsp), %ecx
	movl	%ecx, 32(%rsp)
	vmovups	%xmm0, 36(%rsp)
	vmovlps	%xmm1, 52(%rsp)
	movl	%eax, 60(%rsp)
	movl	32(%rsp), %eax
	movl	%eax, (%r15)
	vmovups	36(%rsp), %xmm0
	vmovups	%xmm0, 4(%r15)
	movq	52(%rsp), %rax
	movq	%rax, 20(%r15)
	movl	60(%rsp), %eax
	movl	%eax, 28(%r15)
L(1_2):
	addq	$2024, %rsp
	.cfi_def_cfa_offset 56
	popq	%rbx
	.cfi_def_cfa_offset 48
	popq	%r12
	.cfi_def_cfa_offset 40
	popq	%r13
	.cfi_def_cfa_offset 32
	popq	%r14
	.cfi_def_cfa_offset 24
	popq	%r15
	.cfi_def_cfa_offset 16
	popq	%rbp
	.cfi_def_cfa_offset 8
	vzeroupper
	retq
	SIZE("keyed_blake3::keyed_hash")
	.cfi_endproc

SIZED(16, 4)
	.p2align	4, 0x0
D(CPI2_0):
	.byte	2
	.byte	3
	.byte	0
	.byte	1
	.byte	6
	.byte	7
	.byte	4
	.byte	5
	.byte	10
	.byte	11
	.byte	8
	.byte	9
	.byte	14
	.byte	15
	.byte	12
	.byte	13
D(CPI2_1):
	.long	1779033703
	.long	3144134277
	.long	1013904242
	.long	2773480762
D(CPI2_2):
	.byte	1
	.byte	2
	.byte	3
	.byte	0
	.byte	5
	.byte	6
	.byte	7
	.byte	4
	.byte	9
	.byte	10
	.byte	11
	.byte	8
	.byte	13
	.byte	14
	.byte	15
	.byte	12
D(CPI2_3):
	.byte	10
	.byte	11
	.byte	8
	.byte	9
	.byte	14
	.byte	15
	.byte	12
	.byte	13
	.byte	2
	.byte	3
	.byte	0
	.byte	1
	.byte	6
	.byte	7
	.byte	4
	.byte	5
SIZED(32, 5)
	.p2align	5, 0x0
D(CPI2_4):
	.long	1
	.long	2
	.long	3
	.long	0
	.long	6
	.long	7
	.long	4
	.long	5
CODE(".text.keyed_blake3::compression::compress")
	.p2align	4
	TYPE("keyed_blake3::compression::compress", function)
"keyed_blake3::compression::compress":
	.cfi_startproc
	endbr64
	subq	$40, %rsp
	.cfi_def_cfa_offset 48
	vmovq	%rdx, %xmm2
	vpinsrd	$2, %ecx, %xmm2, %xmm2
	vpinsrd	$3, %r8d, %xmm2, %xmm2
	vmovups	(%rsi), %xmm3
	vmovups	16(%rsi), %xmm5
	vmovaps	%xmm5, -96(%rsp)
	vmovdqu	32(%rsi), %xmm10
	vmovdqu	48(%rsi), %xmm4
	vshufps	$136, %xmm5, %xmm3, %xmm7
	vshufps	$221, %xmm5, %xmm3, %xmm12
	vmovaps	%xmm3, %xmm5
	vmovaps	%xmm3, -48(%rsp)
	vpshufd	$38, %xmm4, %xmm3
	vmovdqa	%xmm3, -80(%rsp)
	vpshufd	$224, %xmm10, %xmm6
	vpblendd	$9, %xmm3, %xmm6, %xmm8
	vpshufd	$103, %xmm4, %xmm11
	vmovdqa	%xmm11, -128(%rsp)
	vpaddd	%xmm0, %xmm1, %xmm0
	vpaddd	%xmm7, %xmm0, %xmm0
	vmovaps	%xmm7, -16(%rsp)
	vpxor	%xmm2, %xmm0, %xmm2
	vmovdqa	D(CPI2_0)(%rip), %xmm6
	vpshufb	%xmm6, %xmm2, %xmm9
	vpaddd	D(CPI2_1)(%rip), %xmm9, %xmm13
	vpxor	%xmm1, %xmm13, %xmm1
	vpsrld	$12, %xmm1, %xmm2
	vpslld	$20, %xmm1, %xmm1
	vpor	%xmm2, %xmm1, %xmm1
	vpaddd	%xmm0, %xmm12, %xmm0
	vpaddd	%xmm1, %xmm0, %xmm0
	vmovdqa	D(CPI2_2)(%rip), %xmm3
	vpshufb	%xmm3, %xmm0, %xmm14
	vpshufb	%xmm3, %xmm9, %xmm9
	vpxor	%xmm9, %xmm14, %xmm14
	vpaddd	%xmm13, %xmm14, %xmm9
	vpxor	%xmm1, %xmm9, %xmm1
	vpsrld	$7, %xmm1, %xmm13
	vpslld	$25, %xmm1, %xmm1
	vpor	%xmm1, %xmm13, %xmm1
	vpshufd	$147, %xmm0, %xmm0
	vpaddd	%xmm0, %xmm8, %xmm0
	vpshufd	$57, %xmm9, %xmm8
	vpaddd	%xmm1, %xmm0, %xmm0
	vpshufb	%xmm6, %xmm0, %xmm13
	vmovdqa	D(CPI2_3)(%rip), %xmm2
	vpshufb	%xmm2, %xmm14, %xmm14
	vpxor	%xmm14, %xmm13, %xmm13
	vpaddd	%xmm8, %xmm13, %xmm8
	vpxor	%xmm1, %xmm8, %xmm1
	vpsrld	$12, %xmm1, %xmm14
	vpslld	$20, %xmm1, %xmm1
	vpor	%xmm1, %xmm14, %xmm1
	vpshufd	$244, %xmm10, %xmm14
	vpblendd	$9, %xmm11, %xmm14, %xmm14
	vpaddd	%xmm0, %xmm14, %xmm0
	vpaddd	%xmm1, %xmm0, %xmm0
	vpshufb	%xmm3, %xmm13, %xmm13
	vpshufb	%xmm3, %xmm0, %xmm15
	vmovdqa	%xmm3, %xmm9
	vpxor	%xmm13, %xmm15, %xmm13
	vpaddd	%xmm8, %xmm13, %xmm15
	vpxor	%xmm1, %xmm15, %xmm1
	vpsrld	$7, %xmm1, %xmm8
	vpslld	$25, %xmm1, %xmm1
	vpor	%xmm1, %xmm8, %xmm1
	vshufps	$250, %xmm5, %xmm5, %xmm8
	vmovaps	-96(%rsp), %xmm5
	vblendps	$6, %xmm8, %xmm5, %xmm8
	vpaddd	%xmm0, %xmm8, %xmm0
	vpshufd	$57, %xmm0, %xmm0
	vpaddd	%xmm0, %xmm1, %xmm0
	vpshufb	%xmm2, %xmm13, %xmm13
	vmovdqa	%xmm6, %xmm3
	vpshufb	%xmm6, %xmm0, %xmm11
	vpxor	%xmm13, %xmm11, %xmm11
	vpshufd	$147, %xmm15, %xmm13
	vpaddd	%xmm13, %xmm11, %xmm15
	vpxor	%xmm1, %xmm15, %xmm1
	vpsrld	$12, %xmm1, %xmm13
	vpslld	$20, %xmm1, %xmm1
	vpor	%xmm1, %xmm13, %xmm1
	vpblendd	$4, %xmm10, %xmm7, %xmm13
	vpshufd	$203, %xmm13, %xmm2
	vmovdqa	%xmm2, (%rsp)
	vinsertps	$112, %xmm4, %xmm2, %xmm7
	vpaddd	%xmm7, %xmm0, %xmm0
	vpaddd	%xmm1, %xmm0, %xmm0
	vpshufb	%xmm9, %xmm11, %xmm11
	vpshufb	%xmm9, %xmm0, %xmm13
	vpxor	%xmm11, %xmm13, %xmm11
	vpaddd	%xmm15, %xmm11, %xmm13
	vpxor	%xmm1, %xmm13, %xmm1
	vpsrld	$7, %xmm1, %xmm15
	vpslld	$25, %xmm1, %xmm1
	vpor	%xmm1, %xmm15, %xmm15
	vpunpcklqdq	%xmm12, %xmm14, %xmm1
	vmovdqa	-80(%rsp), %xmm6
	vpblendd	$8, %xmm6, %xmm1, %xmm9
	vpshufd	$120, %xmm9, %xmm9
	vpshufd	$147, %xmm0, %xmm0
	vpaddd	%xmm0, %xmm9, %xmm0
	vpaddd	%xmm0, %xmm15, %xmm0
	vpshufb	D(CPI2_3)(%rip), %xmm11, %xmm9
	vpshufb	%xmm3, %xmm0, %xmm11
	vpxor	%xmm9, %xmm11, %xmm9
	vpshufd	$57, %xmm13, %xmm11
	vpaddd	%xmm11, %xmm9, %xmm11
	vpxor	%xmm15, %xmm11, %xmm13
	vpsrld	$12, %xmm13, %xmm15
	vpslld	$20, %xmm13, %xmm13
	vpor	%xmm15, %xmm13, %xmm13
	vshufps	$172, %xmm4, %xmm10, %xmm15
	vmovaps	%xmm4, -112(%rsp)
	vinsertps	$96, %xmm5, %xmm15, %xmm15
	vpaddd	%xmm0, %xmm15, %xmm0
	vpaddd	%xmm0, %xmm13, %xmm15
	vmovdqa	D(CPI2_2)(%rip), %xmm3
	vpshufb	%xmm3, %xmm9, %xmm0
	vpshufb	%xmm3, %xmm15, %xmm9
	vpxor	%xmm0, %xmm9, %xmm9
	vpaddd	%xmm11, %xmm9, %xmm11
	vpxor	%xmm13, %xmm11, %xmm0
	vpsrld	$7, %xmm0, %xmm13
	vpslld	$25, %xmm0, %xmm0
	vpor	%xmm0, %xmm13, %xmm0
	vshufps	$236, %xmm5, %xmm10, %xmm2
	vinsertps	$112, %xmm14, %xmm2, %xmm2
	vpshufd	$36, %xmm1, %xmm1
	vpunpckhdq	%xmm12, %xmm1, %xmm1
	vmovdqa	%xmm1, -64(%rsp)
	vshufps	$8, %xmm14, %xmm12, %xmm13
	vmovaps	%xmm7, %xmm1
	vmovaps	%xmm7, 16(%rsp)
	vshufps	$219, %xmm7, %xmm8, %xmm12
	vpaddd	%xmm12, %xmm15, %xmm12
	vpshufd	$57, %xmm12, %xmm12
	vpaddd	%xmm0, %xmm12, %xmm15
	vmovdqa	D(CPI2_3)(%rip), %xmm7
	vpshufb	%xmm7, %xmm9, %xmm9
	vmovdqa	D(CPI2_0)(%rip), %xmm5
	vpshufb	%xmm5, %xmm15, %xmm12
	vpxor	%xmm9, %xmm12, %xmm9
	vpshufd	$147, %xmm11, %xmm11
	vpaddd	%xmm11, %xmm9, %xmm11
	vpxor	%xmm0, %xmm11, %xmm0
	vpsrld	$12, %xmm0, %xmm12
	vpslld	$20, %xmm0, %xmm0
	vpor	%xmm0, %xmm12, %xmm0
	vpblendd	$12, %xmm6, %xmm8, %xmm12
	vpshufd	$220, %xmm12, %xmm14
	vinsertps	$176, %xmm4, %xmm14, %xmm12
	vpaddd	%xmm12, %xmm15, %xmm15
	vpaddd	%xmm0, %xmm15, %xmm15
	vpshufb	%xmm3, %xmm9, %xmm9
	vpshufb	%xmm3, %xmm15, %xmm6
	vpxor	%xmm6, %xmm9, %xmm6
	vpaddd	%xmm6, %xmm11, %xmm9
	vpxor	%xmm0, %xmm9, %xmm0
	vpsrld	$7, %xmm0, %xmm11
	vpslld	$25, %xmm0, %xmm0
	vpor	%xmm0, %xmm11, %xmm0
	vshufps	$120, %xmm2, %xmm2, %xmm2
	vpshufd	$147, %xmm15, %xmm11
	vpaddd	%xmm2, %xmm11, %xmm2
	vpaddd	%xmm0, %xmm2, %xmm2
	vpshufb	%xmm7, %xmm6, %xmm6
	vmovdqa	%xmm7, %xmm4
	vmovdqa	%xmm5, %xmm15
	vpshufb	%xmm5, %xmm2, %xmm11
	vpxor	%xmm6, %xmm11, %xmm6
	vpshufd	$57, %xmm9, %xmm9
	vpaddd	%xmm6, %xmm9, %xmm9
	vpxor	%xmm0, %xmm9, %xmm0
	vpsrld	$12, %xmm0, %xmm11
	vpslld	$20, %xmm0, %xmm0
	vpor	%xmm0, %xmm11, %xmm0
	vmovaps	-48(%rsp), %xmm7
	vinsertps	$32, %xmm7, %xmm13, %xmm11
	vpaddd	%xmm2, %xmm11, %xmm2
	vpaddd	%xmm0, %xmm2, %xmm2
	vpshufb	%xmm3, %xmm6, %xmm6
	vpshufb	%xmm3, %xmm2, %xmm11
	vpxor	%xmm6, %xmm11, %xmm6
	vpaddd	%xmm6, %xmm9, %xmm9
	vpxor	%xmm0, %xmm9, %xmm0
	vpsrld	$7, %xmm0, %xmm11
	vpslld	$25, %xmm0, %xmm0
	vpor	%xmm0, %xmm11, %xmm0
	vshufps	$231, %xmm8, %xmm8, %xmm11
	vblendps	$2, %xmm10, %xmm11, %xmm11
	vinsertps	$48, -128(%rsp), %xmm11, %xmm5
	vshufps	$215, %xmm12, %xmm1, %xmm1
	vmovaps	%xmm1, -32(%rsp)
	vpaddd	%xmm1, %xmm2, %xmm2
	vpshufd	$57, %xmm2, %xmm2
	vpaddd	%xmm2, %xmm0, %xmm2
	vpshufb	%xmm4, %xmm6, %xmm6
	vpshufb	%xmm15, %xmm2, %xmm13
	vpxor	%xmm6, %xmm13, %xmm6
	vpshufd	$147, %xmm9, %xmm9
	vpaddd	%xmm6, %xmm9, %xmm9
	vpxor	%xmm0, %xmm9, %xmm0
	vpsrld	$12, %xmm0, %xmm13
	vpslld	$20, %xmm0, %xmm0
	vpor	%xmm0, %xmm13, %xmm0
	vpaddd	%xmm5, %xmm2, %xmm2
	vpaddd	%xmm0, %xmm2, %xmm2
	vpshufb	%xmm3, %xmm6, %xmm6
	vpshufb	%xmm3, %xmm2, %xmm13
	vpxor	%xmm6, %xmm13, %xmm6
	vpaddd	%xmm6, %xmm9, %xmm9
	vpxor	%xmm0, %xmm9, %xmm0
	vpsrld	$7, %xmm0, %xmm13
	vpslld	$25, %xmm0, %xmm0
	vpor	%xmm0, %xmm13, %xmm0
	vmovdqa	-64(%rsp), %xmm11
	vpunpcklqdq	%xmm14, %xmm11, %xmm1
	vmovdqa	%xmm1, -128(%rsp)
	vpblendd	$8, %xmm10, %xmm1, %xmm13
	vpshufd	$120, %xmm13, %xmm13
	vpshufd	$147, %xmm2, %xmm2
	vpaddd	%xmm2, %xmm13, %xmm2
	vpaddd	%xmm0, %xmm2, %xmm2
	vpshufb	%xmm4, %xmm6, %xmm6
	vpshufb	%xmm15, %xmm2, %xmm13
	vmovdqa	%xmm15, %xmm4
	vpxor	%xmm6, %xmm13, %xmm6
	vpshufd	$57, %xmm9, %xmm9
	vpaddd	%xmm6, %xmm9, %xmm9
	vpxor	%xmm0, %xmm9, %xmm0
	vpsrld	$12, %xmm0, %xmm13
	vpslld	$20, %xmm0, %xmm0
	vpor	%xmm0, %xmm13, %xmm0
	vmovaps	-16(%rsp), %xmm1
	vshufps	$35, %xmm10, %xmm1, %xmm13
	vblendps	$4, %xmm7, %xmm13, %xmm13
	vpaddd	%xmm2, %xmm13, %xmm2
	vpaddd	%xmm0, %xmm2, %xmm2
	vpshufb	%xmm3, %xmm6, %xmm6
	vpshufb	%xmm3, %xmm2, %xmm13
	vpxor	%xmm6, %xmm13, %xmm6
	vpaddd	%xmm6, %xmm9, %xmm9
	vpxor	%xmm0, %xmm9, %xmm0
	vpsrld	$7, %xmm0, %xmm13
	vpslld	$25, %xmm0, %xmm0
	vpor	%xmm0, %xmm13, %xmm0
	vmovaps	-112(%rsp), %xmm13
	vunpcklps	(%rsp), %xmm13, %xmm13
	vshufps	$250, %xmm10, %xmm10, %xmm14
	vunpckhps	%xmm14, %xmm13, %xmm13
	vmovaps	-96(%rsp), %xmm15
	vshufps	$243, %xmm15, %xmm1, %xmm14
	vinsertps	$112, %xmm11, %xmm14, %xmm1
	vpshufd	$57, %xmm2, %xmm2
	vshufps	$215, %xmm5, %xmm12, %xmm14
	vshufps	$57, %xmm14, %xmm14, %xmm14
	vpaddd	%xmm2, %xmm14, %xmm2
	vpaddd	%xmm2, %xmm0, %xmm2
	vpshufb	D(CPI2_3)(%rip), %xmm6, %xmm6
	vpshufb	%xmm4, %xmm2, %xmm14
	vpxor	%xmm6, %xmm14, %xmm6
	vpshufd	$147, %xmm9, %xmm9
	vpaddd	%xmm6, %xmm9, %xmm9
	vpxor	%xmm0, %xmm9, %xmm0
	vpsrld	$12, %xmm0, %xmm14
	vpslld	$20, %xmm0, %xmm0
	vpor	%xmm0, %xmm14, %xmm0
	vinsertps	$48, %xmm10, %xmm13, %xmm13
	vpaddd	%xmm2, %xmm13, %xmm2
	vpaddd	%xmm0, %xmm2, %xmm2
	vpshufb	%xmm3, %xmm6, %xmm6
	vpshufb	%xmm3, %xmm2, %xmm13
	vpxor	%xmm6, %xmm13, %xmm6
	vpaddd	%xmm6, %xmm9, %xmm9
	vpxor	%xmm0, %xmm9, %xmm0
	vpsrld	$7, %xmm0, %xmm13
	vpslld	$25, %xmm0, %xmm0
	vpor	%xmm0, %xmm13, %xmm0
	vshufps	$120, %xmm1, %xmm1, %xmm1
	vpshufd	$147, %xmm2, %xmm2
	vpaddd	%xmm1, %xmm2, %xmm1
	vpaddd	%xmm0, %xmm1, %xmm1
	vmovdqa	D(CPI2_3)(%rip), %xmm14
	vpshufb	%xmm14, %xmm6, %xmm2
	vpshufb	%xmm4, %xmm1, %xmm6
	vpxor	%xmm2, %xmm6, %xmm2
	vpshufd	$57, %xmm9, %xmm6
	vpaddd	%xmm6, %xmm2, %xmm6
	vpxor	%xmm0, %xmm6, %xmm0
	vpsrld	$12, %xmm0, %xmm9
	vpslld	$20, %xmm0, %xmm0
	vpor	%xmm0, %xmm9, %xmm0
	vmovddup	%xmm7, %xmm9
	vblendps	$8, %xmm9, %xmm8, %xmm9
	vpaddd	%xmm1, %xmm9, %xmm1
	vpaddd	%xmm0, %xmm1, %xmm1
	vpshufb	%xmm3, %xmm2, %xmm2
	vpshufb	%xmm3, %xmm1, %xmm9
	vpxor	%xmm2, %xmm9, %xmm2
	vpaddd	%xmm6, %xmm2, %xmm6
	vpxor	%xmm0, %xmm6, %xmm0
	vpsrld	$7, %xmm0, %xmm9
	vpslld	$25, %xmm0, %xmm0
	vpor	%xmm0, %xmm9, %xmm0
	vpshufd	$57, %xmm1, %xmm1
	vshufps	$55, %xmm10, %xmm5, %xmm9
	vshufps	$57, %xmm9, %xmm9, %xmm9
	vpaddd	%xmm1, %xmm9, %xmm1
	vpaddd	%xmm1, %xmm0, %xmm1
	vpshufb	%xmm14, %xmm2, %xmm2
	vpshufb	%xmm4, %xmm1, %xmm9
	vmovdqa	%xmm4, %xmm13
	vpxor	%xmm2, %xmm9, %xmm2
	vpshufd	$147, %xmm6, %xmm6
	vpaddd	%xmm6, %xmm2, %xmm6
	vpxor	%xmm0, %xmm6, %xmm0
	vpsrld	$12, %xmm0, %xmm9
	vpslld	$20, %xmm0, %xmm0
	vpor	%xmm0, %xmm9, %xmm0
	vinsertps	$96, %xmm15, %xmm12, %xmm9
	vshufps	$219, %xmm9, %xmm9, %xmm9
	vinsertps	$112, %xmm7, %xmm9, %xmm9
	vpaddd	%xmm1, %xmm9, %xmm1
	vpaddd	%xmm0, %xmm1, %xmm1
	vpshufb	%xmm3, %xmm2, %xmm2
	vpshufb	%xmm3, %xmm1, %xmm9
	vpxor	%xmm2, %xmm9, %xmm2
	vpaddd	%xmm6, %xmm2, %xmm6
	vpxor	%xmm0, %xmm6, %xmm0
	vpsrld	$7, %xmm0, %xmm9
	vpslld	$25, %xmm0, %xmm0
	vpor	%xmm0, %xmm9, %xmm0
	vunpcklpd	-32(%rsp), %xmm8, %xmm9
	vinsertps	$48, %xmm7, %xmm9, %xmm9
	vshufps	$120, %xmm9, %xmm9, %xmm9
	vpshufd	$147, %xmm1, %xmm1
	vpaddd	%xmm1, %xmm9, %xmm1
	vpaddd	%xmm0, %xmm1, %xmm1
	vpshufb	%xmm14, %xmm2, %xmm2
	vpshufb	%xmm4, %xmm1, %xmm9
	vpxor	%xmm2, %xmm9, %xmm2
	vpshufd	$57, %xmm6, %xmm6
	vpaddd	%xmm6, %xmm2, %xmm6
	vpxor	%xmm0, %xmm6, %xmm0
	vpsrld	$12, %xmm0, %xmm9
	vpslld	$20, %xmm0, %xmm0
	vpor	%xmm0, %xmm9, %xmm0
	vshufps	$171, %xmm15, %xmm8, %xmm9
	vblendps	$4, %xmm10, %xmm9, %xmm9
	vpaddd	%xmm1, %xmm9, %xmm1
	vpaddd	%xmm0, %xmm1, %xmm9
	vpshufb	%xmm3, %xmm2, %xmm1
	vpshufb	%xmm3, %xmm9, %xmm2
	vpxor	%xmm1, %xmm2, %xmm2
	vpaddd	%xmm6, %xmm2, %xmm6
	vpxor	%xmm0, %xmm6, %xmm0
	vpsrld	$7, %xmm0, %xmm1
	vpslld	$25, %xmm0, %xmm0
	vpor	%xmm1, %xmm0, %xmm12
	vshufps	$171, -112(%rsp), %xmm8, %xmm0
	vinsertps	$112, %xmm8, %xmm0, %xmm0
	vmovaps	16(%rsp), %xmm1
	vshufps	$167, -128(%rsp), %xmm1, %xmm1
	vinsertps	$32, -68(%rsp), %xmm1, %xmm1
	vinsertps	$32, %xmm7, %xmm5, %xmm8
	vshufps	$219, %xmm8, %xmm8, %xmm8
	vinsertps	$176, %xmm15, %xmm8, %xmm8
	vshufps	$85, %xmm7, %xmm15, %xmm4
	vshufps	$51, %xmm10, %xmm10, %xmm5
	vblendps	$6, %xmm4, %xmm5, %xmm4
	vpshufd	$147, %xmm6, %xmm5
	vpshufd	$57, %xmm9, %xmm6
	vpaddd	%xmm4, %xmm6, %xmm4
	vpaddd	%xmm4, %xmm12, %xmm4
	vpshufb	%xmm13, %xmm4, %xmm6
	vpshufb	%xmm14, %xmm2, %xmm2
	vpxor	%xmm2, %xmm6, %xmm2
	vpaddd	%xmm5, %xmm2, %xmm5
	vpxor	%xmm5, %xmm12, %xmm6
	vpsrld	$12, %xmm6, %xmm7
	vpslld	$20, %xmm6, %xmm6
	vpor	%xmm7, %xmm6, %xmm6
	vpaddd	%xmm4, %xmm8, %xmm4
	vpaddd	%xmm6, %xmm4, %xmm4
	vpshufb	%xmm3, %xmm4, %xmm7
	vpshufb	%xmm3, %xmm2, %xmm2
	vpxor	%xmm2, %xmm7, %xmm2
	vpaddd	%xmm5, %xmm2, %xmm5
	vpxor	%xmm6, %xmm5, %xmm6
	vpsrld	$7, %xmm6, %xmm7
	vpslld	$25, %xmm6, %xmm6
	vpor	%xmm7, %xmm6, %xmm6
	vshufps	$120, %xmm0, %xmm0, %xmm0
	vpshufd	$147, %xmm4, %xmm4
	vpaddd	%xmm0, %xmm4, %xmm0
	vpshufb	%xmm14, %xmm2, %xmm2
	vpshufd	$57, %xmm5, %xmm4
	vpaddd	%xmm6, %xmm0, %xmm0
	vpshufb	%xmm13, %xmm0, %xmm5
	vpxor	%xmm2, %xmm5, %xmm2
	vpaddd	%xmm4, %xmm2, %xmm4
	vpxor	%xmm6, %xmm4, %xmm5
	vpsrld	$12, %xmm5, %xmm6
	vpslld	$20, %xmm5, %xmm5
	vpor	%xmm6, %xmm5, %xmm5
	vpaddd	%xmm1, %xmm0, %xmm0
	vpaddd	%xmm5, %xmm0, %xmm0
	vpshufb	%xmm3, %xmm2, %xmm1
	vpshufb	%xmm3, %xmm0, %xmm2
	vpxor	%xmm1, %xmm2, %xmm1
	vpaddd	%xmm4, %xmm1, %xmm2
	vpxor	%xmm5, %xmm2, %xmm3
	vpsrld	$7, %xmm3, %xmm4
	vpslld	$25, %xmm3, %xmm3
	vpor	%xmm4, %xmm3, %xmm3
	vpshufd	$147, %xmm2, %xmm2
	vinserti128	$1, %xmm3, %ymm2, %ymm2
	vinserti128	$1, %xmm1, %ymm0, %ymm0
	vmovdqa	D(CPI2_4)(%rip), %ymm1
	vpermd	%ymm0, %ymm1, %ymm0
	vpxor	%ymm0, %ymm2, %ymm0
	vmovdqu	%ymm0, (%rdi)
	addq	$40, %rsp
	.cfi_def_cfa_offset 8
	vzeroupper
	retq
	SIZE("keyed_blake3::compression::compress")
	.cfi_endproc

CODE(".text.keyed_blake3::hasher::Hasher::update")
	.p2align	4
	TYPE("keyed_blake3::hasher::Hasher::update", function)
"keyed_blake3::hasher::Hasher::update":
	.cfi_startproc
	endbr64
	pushq	%rbp
	.cfi_def_cfa_offset 16
	pushq	%r15
	.cfi_def_cfa_offset 24
	pushq	%r14
	.cfi_def_cfa_offset 32
	pushq	%r13
	.cfi_def_cfa_offset 40
	pushq	%r12
	.cfi_def_cfa_offset 48
	pushq	%rbx
	.cfi_def_cfa_offset 56
	subq	$168, %rsp
	.cfi_def_cfa_offset 224
	.cfi_offset %rbx, -56
	.cfi_offset %r12, -48
	.cfi_offset %r13, -40
	.cfi_offset %r14, -32
	.cfi_offset %r15, -24
	.cfi_offset %rbp, -16
	testq	%rdx, %rdx
	je	L(3_100)
	movq	%rdx, %rbp
	movq	%rsi, %r14
	movq	1856(%rdi), %rbx
	cmpq	$1025, %rbx
	setb	%al
	testl	$1023, %ebx
	setne	%cl
	orb	%al, %cl
	movq	%rdi, 8(%rsp)
	jne	L(3_5)
	movq	%rbx, %rax
	shrq	$10, %rax
	blsrq	%rax, %rax
	jne	L(3_4)
	vmovups	64(%rdi), %ymm0
	vmovups	%ymm0, 32(%rsp)
	vmovups	96(%rdi), %ymm0
	vmovups	%ymm0, 64(%rsp)
	vmovups	(%rdi), %xmm0
	vmovups	16(%rdi), %xmm1
	movq	%rdi, %r15
	leaq	104(%rsp), %rdi
	leaq	32(%rsp), %rsi
	xorl	%edx, %edx
	movl	$64, %ecx
	movl	$20, %r8d
	vzeroupper
	callq	"keyed_blake3::compression::compress"
	vmovups	104(%rsp), %ymm0
	vmovups	%ymm0, 64(%r15)
L(3_4):
	movq	%rbx, %r13
	jmp	L(3_6)
L(3_5):
	cmpq	$1, %rbx
	movq	%rbx, %r13
	adcq	$-1, %r13
L(3_6):
	movq	%r13, %rcx
	andq	$-64, %rcx
	movq	%rbx, %rax
	subq	%rcx, %rax
	leaq	(%rbx,%rbp), %rdx
	movq	8(%rsp), %rsi
	movq	%rdx, 1856(%rsi)
	movl	$64, %r12d
	subq	%rax, %r12
	cmpq	%r12, %rbp
	jbe	L(3_9)
	movq	%r13, %r15
	shrq	$6, %r15
	movq	%rbx, %rdx
	subq	%rcx, %rdx
	movq	%rbp, 24(%rsp)
	jne	L(3_12)
	xorl	%r12d, %r12d
	movq	8(%rsp), %r13
	movq	%rbp, %rax
	subq	%r12, %rax
	cmpq	$65, %rax
	jae	L(3_51)
	jmp	L(3_82)
L(3_9):
	leaq	(%rsi,%rax), %rdi
	addq	$1792, %rdi
	movq	%rdi, %rdx
	subq	%r14, %rdx
	cmpq	%rbp, %rdx
	movq	%rsi, %r12
	jae	L(3_16)
	cmpq	$8, %rbp
	jb	L(3_11)
	addq	%r12, %rbx
	addq	%r14, %rcx
	subq	%rcx, %rbx
	addq	$1792, %rbx
	cmpq	$128, %rbx
	jae	L(3_20)
L(3_11):
	xorl	%ecx, %ecx
L(3_31):
	movq	%rbp, %rsi
	movq	%rcx, %rdx
	andq	$7, %rsi
	je	L(3_34)
	movq	%rcx, %rdx
	.p2align	4
L(3_33):
	movzbl	(%r14,%rdx), %r8d
	movb	%r8b, (%rdi,%rdx)
	incq	%rdx
	decq	%rsi
	jne	L(3_33)
L(3_34):
	subq	%rbp, %rcx
	cmpq	$-8, %rcx
	ja	L(3_37)
	addq	%r12, %rax
	addq	$1799, %rax
	.p2align	4
L(3_36):
	movzbl	(%r14,%rdx), %ecx
	movb	%cl, -7(%rax,%rdx)
	movzbl	1(%r14,%rdx), %ecx
	movb	%cl, -6(%rax,%rdx)
	movzbl	2(%r14,%rdx), %ecx
	movb	%cl, -5(%rax,%rdx)
	movzbl	3(%r14,%rdx), %ecx
	movb	%cl, -4(%rax,%rdx)
	movzbl	4(%r14,%rdx), %ecx
	movb	%cl, -3(%rax,%rdx)
	movzbl	5(%r14,%rdx), %ecx
	movb	%cl, -2(%rax,%rdx)
	movzbl	6(%r14,%rdx), %ecx
	movb	%cl, -1(%rax,%rdx)
	movzbl	7(%r14,%rdx), %ecx
	movb	%cl, (%rax,%rdx)
	addq	$8, %rdx
	cmpq	%rdx, %rbp
	jne	L(3_36)
	jmp	L(3_37)
L(3_12):
	movq	8(%rsp), %rsi
	leaq	(%rsi,%rax), %rdi
	addq	$1792, %rdi
	movq	%rdi, %rax
	subq	%r14, %rax
	cmpq	%r12, %rax
	jae	L(3_19)
	cmpq	$8, %r12
	jb	L(3_15)
	addq	8(%rsp), %rbx
	addq	%r14, %rcx
	subq	%rcx, %rbx
	addq	$1792, %rbx
	cmpq	$128, %rbx
	jae	L(3_22)
L(3_15):
	xorl	%eax, %eax
	jmp	L(3_45)
L(3_16):
	movq	%r14, %rsi
	movq	%rbp, %rdx
	vzeroupper
	callq	PLT(memmove)
L(3_37):
	movq	1856(%r12), %r14
	cmpq	$1025, %r14
	setb	%al
	testl	$1023, %r14d
	setne	%cl
	orb	%al, %cl
	jne	L(3_100)
	leaq	1792(%r12), %rax
	shrq	$10, %r14
	decq	%r14
	vmovups	(%rax), %ymm0
	vmovups	32(%rax), %ymm1
	vmovups	%ymm1, 64(%rsp)
	vmovups	%ymm0, 32(%rsp)
	vmovups	32(%r12), %xmm0
	vmovups	48(%r12), %xmm1
	leaq	104(%rsp), %r15
	leaq	32(%rsp), %rsi
	movq	%r15, %rdi
	movq	%r14, %rdx
	movl	$64, %ecx
	movl	$18, %r8d
	vzeroupper
	callq	"keyed_blake3::compression::compress"
	leaq	64(%r12), %rdi
	movl	$1, %r8d
	movq	%r12, %rsi
	movq	%r14, %rdx
	movq	%r15, %rcx
	callq	"keyed_blake3::tree::add_subtree_value"
	vmovups	(%r12), %ymm0
	vmovups	%ymm0, 32(%r12)
	jmp	L(3_100)
L(3_19):
	movq	%r14, %rsi
	movq	%r12, %rdx
	vzeroupper
	callq	PLT(memmove)
	jmp	L(3_47)
L(3_20):
	cmpq	$128, %rbp
	jae	L(3_24)
	xorl	%ecx, %ecx
	jmp	L(3_28)
L(3_22):
	cmpq	$128, %r12
	jae	L(3_39)
	xorl	%eax, %eax
	jmp	L(3_43)
L(3_24):
	movq	%rbp, %rcx
	andq	$-128, %rcx
	leaq	(%rax,%r12), %rdx
	addq	$1888, %rdx
	xorl	%esi, %esi
	.p2align	4
L(3_25):
	vmovups	(%r14,%rsi), %ymm0
	vmovups	32(%r14,%rsi), %ymm1
	vmovups	64(%r14,%rsi), %ymm2
	vmovups	96(%r14,%rsi), %ymm3
	vmovups	%ymm0, -96(%rdx,%rsi)
	vmovups	%ymm1, -64(%rdx,%rsi)
	vmovups	%ymm2, -32(%rdx,%rsi)
	vmovups	%ymm3, (%rdx,%rsi)
	subq	$-128, %rsi
	cmpq	%rsi, %rcx
	jne	L(3_25)
	cmpq	%rcx, %rbp
	je	L(3_37)
	testb	$120, %bpl
	je	L(3_31)
L(3_28):
	movq	%rcx, %rdx
	movq	%rbp, %rcx
	andq	$-8, %rcx
	.p2align	4
L(3_29):
	movq	(%r14,%rdx), %rsi
	movq	%rsi, (%rdi,%rdx)
	addq	$8, %rdx
	cmpq	%rdx, %rcx
	jne	L(3_29)
	cmpq	%rcx, %rbp
	je	L(3_37)
	jmp	L(3_31)
L(3_39):
	movq	%r12, %rax
	andq	$-128, %rax
	movq	8(%rsp), %rcx
	addq	%rdx, %rcx
	addq	$1888, %rcx
	xorl	%edx, %edx
	.p2align	4
L(3_40):
	vmovups	(%r14,%rdx), %ymm0
	vmovups	32(%r14,%rdx), %ymm1
	vmovups	64(%r14,%rdx), %ymm2
	vmovups	96(%r14,%rdx), %ymm3
	vmovups	%ymm0, -96(%rcx,%rdx)
	vmovups	%ymm1, -64(%rcx,%rdx)
	vmovups	%ymm2, -32(%rcx,%rdx)
	vmovups	%ymm3, (%rcx,%rdx)
	subq	$-128, %rdx
	cmpq	%rdx, %rax
	jne	L(3_40)
	cmpq	%rax, %r12
	je	L(3_47)
	testb	$120, %r12b
	je	L(3_45)
L(3_43):
	movq	%rax, %rcx
	movq	%r12, %rax
	andq	$-8, %rax
	.p2align	4
L(3_44):
	movq	(%r14,%rcx), %rdx
	movq	%rdx, (%rdi,%rcx)
	addq	$8, %rcx
	cmpq	%rcx, %rax
	jne	L(3_44)
	jmp	L(3_46)
L(3_82):
	cmpq	%rbp, %r12
	je	L(3_100)
	leaq	(%r14,%r12), %rsi
	leaq	1792(%r13), %r15
	movq	%r15, %rcx
	subq	%rsi, %rcx
	cmpq	%rax, %rcx
	jae	L(3_86)
	cmpq	$8, %rax
	jb	L(3_85)
	movq	%r13, %rcx
	subq	%rsi, %rcx
	addq	$1792, %rcx
	cmpq	$128, %rcx
	jae	L(3_89)
L(3_85):
	xorl	%ecx, %ecx
L(3_92):
	movq	%rax, %rdi
	movq	%rcx, %rdx
	andq	$7, %rdi
	je	L(3_95)
	movq	%rcx, %rdx
	.p2align	4
L(3_94):
	movzbl	(%rsi,%rdx), %r8d
	movb	%r8b, (%r15,%rdx)
	incq	%rdx
	decq	%rdi
	jne	L(3_94)
L(3_95):
	subq	%rax, %rcx
	cmpq	$-8, %rcx
	ja	L(3_98)
	leaq	(%r12,%r14), %rcx
	addq	$7, %rcx
	.p2align	4
L(3_97):
	movzbl	-7(%rcx,%rdx), %esi
	movb	%sil, 1792(%r13,%rdx)
	movzbl	-6(%rcx,%rdx), %esi
	movb	%sil, 1793(%r13,%rdx)
	movzbl	-5(%rcx,%rdx), %esi
	movb	%sil, 1794(%r13,%rdx)
	movzbl	-4(%rcx,%rdx), %esi
	movb	%sil, 1795(%r13,%rdx)
	movzbl	-3(%rcx,%rdx), %esi
	movb	%sil, 1796(%r13,%rdx)
	movzbl	-2(%rcx,%rdx), %esi
	movb	%sil, 1797(%r13,%rdx)
	movzbl	-1(%rcx,%rdx), %esi
	movb	%sil, 1798(%r13,%rdx)
	movzbl	(%rcx,%rdx), %esi
	movb	%sil, 1799(%r13,%rdx)
	addq	$8, %rdx
	cmpq	%rdx, %rax
	jne	L(3_97)
	jmp	L(3_98)
L(3_86):
	movq	%r15, %rdi
	movq	%rax, %rdx
	vzeroupper
	callq	PLT(memmove)
L(3_98):
	movq	1856(%r13), %r14
	cmpq	$1025, %r14
	setb	%al
	testl	$1023, %r14d
	setne	%cl
	orb	%al, %cl
	jne	L(3_100)
	shrq	$10, %r14
	decq	%r14
	vmovups	(%r15), %ymm0
	vmovups	32(%r15), %ymm1
	vmovups	%ymm1, 64(%rsp)
	vmovups	%ymm0, 32(%rsp)
	vmovups	32(%r13), %xmm0
	vmovups	48(%r13), %xmm1
	leaq	104(%rsp), %r15
	leaq	32(%rsp), %rsi
	movq	%r15, %rdi
	movq	%r14, %rdx
	movl	$64, %ecx
	movl	$18, %r8d
	vzeroupper
	callq	"keyed_blake3::compression::compress"
	leaq	64(%r13), %rdi
	movl	$1, %r8d
	movq	%r13, %rsi
	movq	%r14, %rdx
	movq	%r15, %rcx
	callq	"keyed_blake3::tree::add_subtree_value"
	vmovups	(%r13), %ymm0
	vmovups	%ymm0, 32(%r13)
L(3_100):
	addq	$168, %rsp
	.cfi_def_cfa_offset 56
	popq	%rbx
	.cfi_def_cfa_offset 48
	popq	%r12
	.cfi_def_cfa_offset 40
	popq	%r13
	.cfi_def_cfa_offset 32
	popq	%r14
	.cfi_def_cfa_offset 24
	popq	%r15
	.cfi_def_cfa_offset 16
	popq	%rbp
	.cfi_def_cfa_offset 8
	vzeroupper
	retq
L(3_89):
	.cfi_def_cfa_offset 224
	movl	%eax, %ecx
	andl	$120, %ecx
	xorl	%edx, %edx
	.p2align	4
L(3_90):
	movq	(%rsi,%rdx), %rdi
	movq	%rdi, (%r15,%rdx)
	addq	$8, %rdx
	cmpq	%rdx, %rcx
	jne	L(3_90)
	cmpq	%rcx, %rax
	je	L(3_98)
	jmp	L(3_92)
L(3_45):
	movzbl	(%r14,%rax), %ecx
	movb	%cl, (%rdi,%rax)
	incq	%rax
L(3_46):
	cmpq	%rax, %r12
	jne	L(3_45)
L(3_47):
	movq	8(%rsp), %rbx
	leaq	1792(%rbx), %rax
	shrq	$10, %r13
	movl	%r15d, %ecx
	andl	$15, %ecx
	cmpq	$15, %rcx
	jne	L(3_49)
	vmovups	(%rax), %ymm0
	vmovups	32(%rax), %ymm1
	vmovups	%ymm1, 64(%rsp)
	vmovups	%ymm0, 32(%rsp)
	vmovups	32(%rbx), %xmm0
	vmovups	48(%rbx), %xmm1
	leaq	104(%rsp), %rbp
	leaq	32(%rsp), %rsi
	movq	%rbp, %rdi
	movq	%r13, %rdx
	movl	$64, %ecx
	movl	$18, %r8d
	vzeroupper
	callq	"keyed_blake3::compression::compress"
	leaq	64(%rbx), %rdi
	movq	%rbx, %rsi
	movq	%r13, %rdx
	movq	%rbp, %rcx
	movq	24(%rsp), %rbp
	xorl	%r8d, %r8d
	callq	"keyed_blake3::tree::add_subtree_value"
	vmovups	(%rbx), %ymm0
	jmp	L(3_50)
L(3_49):
	xorl	%r8d, %r8d
	cmpq	$1, %rcx
	adcl	$16, %r8d
	vmovups	(%rax), %ymm0
	vmovups	32(%rax), %ymm1
	vmovups	%ymm1, 64(%rsp)
	vmovups	%ymm0, 32(%rsp)
	vmovups	32(%rbx), %xmm0
	vmovups	48(%rbx), %xmm1
	leaq	104(%rsp), %rdi
	leaq	32(%rsp), %rsi
	movq	%r13, %rdx
	movl	$64, %ecx
	vzeroupper
	callq	"keyed_blake3::compression::compress"
	vmovups	104(%rsp), %ymm0
L(3_50):
	vmovups	%ymm0, 32(%rbx)
	movq	%rbx, %r13
	incq	%r15
	movq	%rbp, %rax
	subq	%r12, %rax
	cmpq	$65, %rax
	jb	L(3_82)
L(3_51):
	movabsq	$1152921504606846975, %rbx
	leaq	32(%r13), %rcx
	movq	%rcx, 16(%rsp)
	leaq	64(%r13), %rcx
	movq	%rcx, 96(%rsp)
	jmp	L(3_55)
	.p2align	4
L(3_52):
	xorl	%r8d, %r8d
	cmpq	$1, %rcx
	adcl	$16, %r8d
	vmovups	(%r10), %ymm0
	vmovups	32(%r10), %ymm1
	vmovups	%ymm1, 64(%rsp)
	vmovups	%ymm0, 32(%rsp)
	vmovups	32(%r13), %xmm0
	vmovups	48(%r13), %xmm1
	leaq	136(%rsp), %rdi
	leaq	32(%rsp), %rsi
	movl	$64, %ecx
	vzeroupper
	callq	"keyed_blake3::compression::compress"
	vmovups	136(%rsp), %ymm0
L(3_53):
	movq	16(%rsp), %rax
	vmovups	%ymm0, (%rax)
	movl	$1, %ebp
L(3_54):
	addq	%rbp, %r15
	shlq	$6, %rbp
	addq	%rbp, %r12
	movq	24(%rsp), %rbp
	movq	%rbp, %rax
	subq	%r12, %rax
	cmpq	$64, %rax
	jbe	L(3_82)
L(3_55):
	leaq	(%r14,%r12), %r10
	movl	%r15d, %ecx
	andl	$15, %ecx
	cmpq	$2048, %rax
	jb	L(3_68)
	testq	%rcx, %rcx
	jne	L(3_68)
	movq	%rax, %rbp
	shrq	$10, %rbp
	movq	%r15, %rsi
	shrq	$4, %rsi
	cmpq	$5120, %rax
	jb	L(3_70)
	movq	%rax, %rdi
	shrq	$13, %rdi
	movl	$1, %ecx
L(3_59):
	leaq	(%rcx,%rcx), %rdx
	cmpq	%rdi, %rdx
	ja	L(3_75)
	leaq	(%rdx,%rbx), %r8
	testq	%rsi, %r8
	jne	L(3_75)
	leaq	(,%rcx,4), %r9
	cmpq	%rdi, %r9
	ja	L(3_78)
	leaq	(%r9,%rbx), %r8
	testq	%rsi, %r8
	jne	L(3_78)
	leaq	(,%rcx,8), %r8
	cmpq	%rdi, %r8
	ja	L(3_76)
	leaq	(%r8,%rbx), %r11
	movq	%r9, %rdx
	testq	%rsi, %r11
	jne	L(3_78)
	shlq	$4, %rcx
	cmpq	%rdi, %rcx
	ja	L(3_77)
	testq	%rcx, %rcx
	je	L(3_101)
	leaq	(%rcx,%rbx), %r9
	movq	%r8, %rdx
	testq	%rsi, %r9
	je	L(3_59)
	jmp	L(3_78)
	.p2align	4
L(3_68):
	movq	%r15, %rdx
	shrq	$4, %rdx
	cmpl	$15, %ecx
	jne	L(3_52)
	vmovups	(%r10), %ymm0
	vmovups	32(%r10), %ymm1
	vmovups	%ymm1, 64(%rsp)
	vmovups	%ymm0, 32(%rsp)
	vmovups	32(%r13), %xmm0
	vmovups	48(%r13), %xmm1
	leaq	104(%rsp), %rbp
	leaq	32(%rsp), %rsi
	movq	%rbp, %rdi
	movq	%rdx, %r13
	movl	$64, %ecx
	movl	$18, %r8d
	vzeroupper
	callq	"keyed_blake3::compression::compress"
	movq	96(%rsp), %rdi
	movq	8(%rsp), %rsi
	movq	%r13, %rdx
	movq	8(%rsp), %r13
	movq	%rbp, %rcx
	xorl	%r8d, %r8d
	callq	"keyed_blake3::tree::add_subtree_value"
	vmovups	(%r13), %ymm0
	jmp	L(3_53)
	.p2align	4
L(3_70):
	movl	%eax, %r8d
	andl	$7168, %r8d
	cmpq	%rax, %r8
	jne	L(3_72)
	movl	$1, %r9d
	movq	%r13, %rdi
	movq	%rbp, %rdx
	movq	%r10, %rcx
	movq	%rax, %r8
	jmp	L(3_73)
L(3_72):
	movq	%r13, %rdi
	movq	%rbp, %rdx
	movq	%r10, %rcx
	xorl	%r9d, %r9d
L(3_73):
	vzeroupper
	callq	"keyed_blake3::tree::Tree::absorb_subtrees::<#8b36ca032ac25711>"
	shlq	$4, %rbp
	jmp	L(3_54)
L(3_75):
	movq	%rcx, %rdx
	jmp	L(3_78)
L(3_76):
	movq	%r9, %rdx
	jmp	L(3_78)
L(3_77):
	movq	%r8, %rdx
	.p2align	4
L(3_78):
	cmpq	$8, %rbp
	movl	$8, %ecx
	cmovbq	%rbp, %rcx
	movq	%rcx, %rbp
	imulq	%rdx, %rbp
	shlq	$10, %rbp
	cmpq	%rax, %rbp
	jne	L(3_80)
	movq	$1, (%rsp)
	movq	%r13, %rdi
	movq	%r10, %r8
	movq	%rax, %r9
	jmp	L(3_81)
L(3_80):
	movq	$0, (%rsp)
	movq	%r13, %rdi
	movq	%r10, %r8
	movq	%rbp, %r9
L(3_81):
	vzeroupper
	callq	"keyed_blake3::tree::Tree::absorb_subtrees::<#a9687390e0dd665c>"
	shrq	$6, %rbp
	jmp	L(3_54)
L(3_101):
	ud2
	SIZE("keyed_blake3::hasher::Hasher::update")
	.cfi_endproc

CODE(".text.keyed_blake3::tree::add_subtree_value")
	.p2align	4
	TYPE("keyed_blake3::tree::add_subtree_value", function)
"keyed_blake3::tree::add_subtree_value":
	.cfi_startproc
	pushq	%rbp
	.cfi_def_cfa_offset 16
	pushq	%r15
	.cfi_def_cfa_offset 24
	pushq	%r14
	.cfi_def_cfa_offset 32
	pushq	%r13
	.cfi_def_cfa_offset 40
	pushq	%r12
	.cfi_def_cfa_offset 48
	pushq	%rbx
	.cfi_def_cfa_offset 56
	subq	$184, %rsp
	.cfi_def_cfa_offset 240
	.cfi_offset %rbx, -56
	.cfi_offset %r12, -48
	.cfi_offset %r13, -40
	.cfi_offset %r14, -32
	.cfi_offset %r15, -24
	.cfi_offset %rbp, -16
	movq	%rdx, %r15
	vmovups	(%rcx), %ymm0
	vmovups	%ymm0, 48(%rsp)
	xorl	%r12d, %r12d
	popcntq	%rdx, %r12
	cmpq	%r12, %r8
	setb	%al
	testb	%r15b, %al
	movq	%rdi, 8(%rsp)
	je	L(4_1)
	movq	%r8, %r14
	leaq	144(%rsp), %r13
	vmovups	(%rsi), %xmm0
	vmovaps	%xmm0, 32(%rsp)
	vmovups	16(%rsi), %xmm0
	vmovaps	%xmm0, 16(%rsp)
	leaq	-1(%r12), %rbp
	shll	$5, %r12d
	leaq	-32(%rdi), %rbx
	.p2align	4
L(4_3):
	vmovups	(%rbx,%r12), %ymm0
	vmovups	%ymm0, 112(%rsp)
	vmovups	48(%rsp), %ymm0
	vmovups	%ymm0, (%r13)
	leaq	80(%rsp), %rdi
	leaq	112(%rsp), %rsi
	vmovaps	32(%rsp), %xmm0
	vmovaps	16(%rsp), %xmm1
	xorl	%edx, %edx
	movl	$64, %ecx
	movl	$20, %r8d
	vzeroupper
	callq	"keyed_blake3::compression::compress"
	vmovups	80(%rsp), %ymm0
	vmovups	%ymm0, 48(%rsp)
	addq	$-32, %r12
	cmpq	%rbp, %r14
	jae	L(4_5)
	movq	%r15, %rax
	shrq	%rax
	andl	$2, %r15d
	decq	%rbp
	testq	%r15, %r15
	movq	%rax, %r15
	jne	L(4_3)
	jmp	L(4_5)
L(4_1):
	shll	$5, %r12d
L(4_5):
	vmovups	48(%rsp), %ymm0
	movq	8(%rsp), %rax
	vmovups	%ymm0, (%rax,%r12)
	addq	$184, %rsp
	.cfi_def_cfa_offset 56
	popq	%rbx
	.cfi_def_cfa_offset 48
	popq	%r12
	.cfi_def_cfa_offset 40
	popq	%r13
	.cfi_def_cfa_offset 32
	popq	%r14
	.cfi_def_cfa_offset 24
	popq	%r15
	.cfi_def_cfa_offset 16
	popq	%rbp
	.cfi_def_cfa_offset 8
	vzeroupper
	retq
	SIZE("keyed_blake3::tree::add_subtree_value")
	.cfi_endproc

SIZED(32, 5)
	.p2align	5, 0x0
D(CPI5_0):
	.byte	2
	.byte	3
	.byte	0
	.byte	1
	.byte	6
	.byte	7
	.byte	4
	.byte	5
	.byte	10
	.byte	11
	.byte	8
	.byte	9
	.byte	14
	.byte	15
	.byte	12
	.byte	13
	.byte	18
	.byte	19
	.byte	16
	.byte	17
	.byte	22
	.byte	23
	.byte	20
	.byte	21
	.byte	26
	.byte	27
	.byte	24
	.byte	25
	.byte	30
	.byte	31
	.byte	28
	.byte	29
D(CPI5_1):
	.long	1779033703
	.long	3144134277
	.long	1013904242
	.long	2773480762
	.long	1779033703
	.long	3144134277
	.long	1013904242
	.long	2773480762
D(CPI5_2):
	.byte	1
	.byte	2
	.byte	3
	.byte	0
	.byte	5
	.byte	6
	.byte	7
	.byte	4
	.byte	9
	.byte	10
	.byte	11
	.byte	8
	.byte	13
	.byte	14
	.byte	15
	.byte	12
	.byte	17
	.byte	18
	.byte	19
	.byte	16
	.byte	21
	.byte	22
	.byte	23
	.byte	20
	.byte	25
	.byte	26
	.byte	27
	.byte	24
	.byte	29
	.byte	30
	.byte	31
	.byte	28
D(CPI5_3):
	.byte	10
	.byte	11
	.byte	8
	.byte	9
	.byte	14
	.byte	15
	.byte	12
	.byte	13
	.byte	2
	.byte	3
	.byte	0
	.byte	1
	.byte	6
	.byte	7
	.byte	4
	.byte	5
	.byte	26
	.byte	27
	.byte	24
	.byte	25
	.byte	30
	.byte	31
	.byte	28
	.byte	29
	.byte	18
	.byte	19
	.byte	16
	.byte	17
	.byte	22
	.byte	23
	.byte	20
	.byte	21
CODE(".text.keyed_blake3::compression::two::compress_two_from")
	.p2align	4
	TYPE("keyed_blake3::compression::two::compress_two_from", function)
"keyed_blake3::compression::two::compress_two_from":
	.cfi_startproc
	subq	$296, %rsp
	.cfi_def_cfa_offset 304
	vmovups	(%rsi), %xmm3
	vmovups	16(%rsi), %xmm4
	vmovdqu	32(%rsi), %xmm5
	vmovdqu	48(%rsi), %xmm6
	vinsertf128	$1, (%rdx), %ymm3, %ymm3
	vinsertf128	$1, 16(%rdx), %ymm4, %ymm4
	vinserti128	$1, 32(%rdx), %ymm5, %ymm5
	vinserti128	$1, 48(%rdx), %ymm6, %ymm13
	vshufps	$136, %ymm4, %ymm3, %ymm9
	vshufps	$221, %ymm4, %ymm3, %ymm11
	vmovaps	%ymm3, %ymm6
	vmovups	%ymm3, 160(%rsp)
	vpshufd	$38, %ymm13, %ymm10
	vmovdqu	%ymm10, -96(%rsp)
	vpshufd	$224, %ymm5, %ymm3
	vpblendd	$153, %ymm10, %ymm3, %ymm7
	vpaddd	%ymm0, %ymm1, %ymm0
	vpaddd	%ymm0, %ymm9, %ymm0
	vmovdqa	%ymm9, %ymm10
	vmovups	%ymm9, 96(%rsp)
	vpxor	%ymm2, %ymm0, %ymm2
	vmovdqa	D(CPI5_0)(%rip), %ymm12
	vpshufb	%ymm12, %ymm2, %ymm2
	vpaddd	D(CPI5_1)(%rip), %ymm2, %ymm9
	vpshufd	$103, %ymm13, %ymm15
	vmovdqu	%ymm13, 256(%rsp)
	vpxor	%ymm1, %ymm9, %ymm1
	vpsrld	$12, %ymm1, %ymm3
	vpslld	$20, %ymm1, %ymm1
	vpor	%ymm3, %ymm1, %ymm1
	vpaddd	%ymm0, %ymm11, %ymm0
	vpaddd	%ymm1, %ymm0, %ymm0
	vmovdqa	D(CPI5_2)(%rip), %ymm3
	vpshufb	%ymm3, %ymm0, %ymm14
	vpshufb	%ymm3, %ymm2, %ymm2
	vpxor	%ymm2, %ymm14, %ymm2
	vpaddd	%ymm2, %ymm9, %ymm9
	vpxor	%ymm1, %ymm9, %ymm1
	vpsrld	$7, %ymm1, %ymm14
	vpslld	$25, %ymm1, %ymm1
	vpor	%ymm1, %ymm14, %ymm1
	vpshufd	$147, %ymm0, %ymm0
	vpaddd	%ymm7, %ymm0, %ymm0
	vpshufd	$57, %ymm9, %ymm7
	vpaddd	%ymm1, %ymm0, %ymm0
	vpshufb	%ymm12, %ymm0, %ymm14
	vmovdqa	D(CPI5_3)(%rip), %ymm9
	vpshufb	%ymm9, %ymm2, %ymm2
	vpxor	%ymm2, %ymm14, %ymm2
	vpaddd	%ymm7, %ymm2, %ymm7
	vpxor	%ymm1, %ymm7, %ymm1
	vpsrld	$12, %ymm1, %ymm14
	vpslld	$20, %ymm1, %ymm1
	vpor	%ymm1, %ymm14, %ymm1
	vpshufd	$244, %ymm5, %ymm14
	vmovdqa	%ymm15, %ymm8
	vmovdqu	%ymm15, 128(%rsp)
	vpblendd	$153, %ymm15, %ymm14, %ymm14
	vpaddd	%ymm0, %ymm14, %ymm0
	vmovdqu	%ymm14, -128(%rsp)
	vpaddd	%ymm1, %ymm0, %ymm0
	vpshufb	%ymm3, %ymm2, %ymm2
	vpshufb	%ymm3, %ymm0, %ymm15
	vpxor	%ymm2, %ymm15, %ymm2
	vpaddd	%ymm7, %ymm2, %ymm15
	vpxor	%ymm1, %ymm15, %ymm1
	vpsrld	$7, %ymm1, %ymm7
	vpslld	$25, %ymm1, %ymm1
	vpor	%ymm7, %ymm1, %ymm1
	vshufps	$248, %ymm6, %ymm6, %ymm7
	vblendps	$102, %ymm7, %ymm4, %ymm3
	vmovups	%ymm3, -64(%rsp)
	vpaddd	%ymm3, %ymm0, %ymm0
	vpshufd	$57, %ymm0, %ymm0
	vpaddd	%ymm0, %ymm1, %ymm0
	vpshufb	%ymm9, %ymm2, %ymm2
	vmovdqa	D(CPI5_0)(%rip), %ymm7
	vpshufb	%ymm7, %ymm0, %ymm12
	vpxor	%ymm2, %ymm12, %ymm2
	vpshufd	$147, %ymm15, %ymm12
	vpaddd	%ymm2, %ymm12, %ymm12
	vpxor	%ymm1, %ymm12, %ymm1
	vpsrld	$12, %ymm1, %ymm15
	vpslld	$20, %ymm1, %ymm1
	vpor	%ymm1, %ymm15, %ymm1
	vpblendd	$68, %ymm5, %ymm10, %ymm15
	vpshufd	$203, %ymm15, %ymm3
	vmovdqu	%ymm3, -32(%rsp)
	vpblendd	$136, %ymm8, %ymm3, %ymm3
	vpaddd	%ymm3, %ymm0, %ymm0
	vpaddd	%ymm1, %ymm0, %ymm15
	vmovdqa	D(CPI5_2)(%rip), %ymm6
	vpshufb	%ymm6, %ymm2, %ymm0
	vpshufb	%ymm6, %ymm15, %ymm2
	vpxor	%ymm0, %ymm2, %ymm2
	vpaddd	%ymm2, %ymm12, %ymm12
	vpxor	%ymm1, %ymm12, %ymm0
	vpsrld	$7, %ymm0, %ymm1
	vpslld	$25, %ymm0, %ymm0
	vpor	%ymm1, %ymm0, %ymm1
	vmovaps	%ymm11, %ymm6
	vpunpcklqdq	%ymm11, %ymm14, %ymm0
	vmovdqu	-96(%rsp), %ymm8
	vpblendd	$136, %ymm8, %ymm0, %ymm0
	vpshufd	$120, %ymm0, %ymm0
	vpshufd	$147, %ymm15, %ymm15
	vpaddd	%ymm0, %ymm15, %ymm15
	vpaddd	%ymm1, %ymm15, %ymm15
	vpshufb	%ymm9, %ymm2, %ymm2
	vpshufb	%ymm7, %ymm15, %ymm10
	vmovdqa	%ymm7, %ymm11
	vpxor	%ymm2, %ymm10, %ymm2
	vpshufd	$57, %ymm12, %ymm10
	vpaddd	%ymm2, %ymm10, %ymm10
	vpxor	%ymm1, %ymm10, %ymm1
	vpsrld	$12, %ymm1, %ymm12
	vpslld	$20, %ymm1, %ymm1
	vpor	%ymm1, %ymm12, %ymm1
	vshufps	$172, %ymm13, %ymm5, %ymm12
	vmovups	%ymm5, (%rsp)
	vblendps	$68, %ymm6, %ymm12, %ymm9
	vmovaps	%ymm6, %ymm14
	vmovups	%ymm6, 64(%rsp)
	vpaddd	%ymm9, %ymm15, %ymm9
	vpaddd	%ymm1, %ymm9, %ymm9
	vmovdqa	D(CPI5_2)(%rip), %ymm13
	vpshufb	%ymm13, %ymm2, %ymm2
	vpshufb	%ymm13, %ymm9, %ymm15
	vpxor	%ymm2, %ymm15, %ymm15
	vpaddd	%ymm10, %ymm15, %ymm10
	vpxor	%ymm1, %ymm10, %ymm1
	vpsrld	$7, %ymm1, %ymm2
	vpslld	$25, %ymm1, %ymm1
	vpor	%ymm2, %ymm1, %ymm1
	vshufps	$172, %ymm4, %ymm5, %ymm2
	vmovups	%ymm4, 192(%rsp)
	vblendps	$136, %ymm0, %ymm2, %ymm7
	vmovups	-64(%rsp), %ymm0
	vshufps	$219, %ymm3, %ymm0, %ymm2
	vmovups	%ymm2, 32(%rsp)
	vmovups	%ymm3, 224(%rsp)
	vpaddd	%ymm2, %ymm9, %ymm9
	vpshufd	$57, %ymm9, %ymm9
	vpaddd	%ymm1, %ymm9, %ymm9
	vmovdqa	D(CPI5_3)(%rip), %ymm5
	vpshufb	%ymm5, %ymm15, %ymm15
	vpshufb	%ymm11, %ymm9, %ymm6
	vpxor	%ymm6, %ymm15, %ymm6
	vpshufd	$147, %ymm10, %ymm10
	vpaddd	%ymm6, %ymm10, %ymm10
	vpxor	%ymm1, %ymm10, %ymm1
	vpsrld	$12, %ymm1, %ymm15
	vpslld	$20, %ymm1, %ymm1
	vpor	%ymm1, %ymm15, %ymm15
	vblendps	$204, %ymm8, %ymm0, %ymm1
	vmovaps	%ymm0, %ymm2
	vshufps	$220, %ymm1, %ymm1, %ymm1
	vblendps	$136, %ymm12, %ymm1, %ymm8
	vpaddd	%ymm8, %ymm9, %ymm9
	vpaddd	%ymm15, %ymm9, %ymm9
	vmovdqa	%ymm13, %ymm12
	vpshufb	%ymm13, %ymm6, %ymm6
	vpshufb	%ymm13, %ymm9, %ymm13
	vpxor	%ymm6, %ymm13, %ymm6
	vpaddd	%ymm6, %ymm10, %ymm10
	vpxor	%ymm15, %ymm10, %ymm13
	vpsrld	$7, %ymm13, %ymm15
	vpslld	$25, %ymm13, %ymm13
	vpor	%ymm15, %ymm13, %ymm13
	vshufps	$120, %ymm7, %ymm7, %ymm0
	vpshufd	$147, %ymm9, %ymm9
	vpaddd	%ymm0, %ymm9, %ymm0
	vpaddd	%ymm0, %ymm13, %ymm0
	vpshufb	%ymm5, %ymm6, %ymm6
	vpshufb	%ymm11, %ymm0, %ymm9
	vmovdqa	%ymm11, %ymm7
	vpxor	%ymm6, %ymm9, %ymm6
	vpshufd	$57, %ymm10, %ymm9
	vpaddd	%ymm6, %ymm9, %ymm9
	vpxor	%ymm13, %ymm9, %ymm10
	vpsrld	$12, %ymm10, %ymm13
	vpslld	$20, %ymm10, %ymm10
	vpor	%ymm13, %ymm10, %ymm10
	vunpcklpd	-128(%rsp), %ymm14, %ymm13
	vblendps	$34, %ymm4, %ymm13, %ymm13
	vshufps	$164, %ymm13, %ymm13, %ymm14
	vblendps	$68, -32(%rsp), %ymm14, %ymm15
	vpaddd	%ymm0, %ymm15, %ymm0
	vpaddd	%ymm0, %ymm10, %ymm0
	vpshufb	%ymm12, %ymm6, %ymm6
	vpshufb	%ymm12, %ymm0, %ymm15
	vpxor	%ymm6, %ymm15, %ymm6
	vpaddd	%ymm6, %ymm9, %ymm9
	vpxor	%ymm10, %ymm9, %ymm10
	vpsrld	$7, %ymm10, %ymm15
	vpslld	$25, %ymm10, %ymm10
	vpor	%ymm15, %ymm10, %ymm10
	vshufps	$231, %ymm2, %ymm2, %ymm15
	vmovups	(%rsp), %ymm11
	vblendps	$34, %ymm11, %ymm15, %ymm15
	vblendps	$136, %ymm14, %ymm15, %ymm14
	vunpcklpd	%ymm1, %ymm13, %ymm2
	vmovups	%ymm2, -96(%rsp)
	vshufps	$215, %ymm8, %ymm3, %ymm1
	vmovups	%ymm1, -128(%rsp)
	vmovaps	%ymm8, %ymm4
	vpaddd	%ymm1, %ymm0, %ymm0
	vpshufd	$57, %ymm0, %ymm0
	vpaddd	%ymm0, %ymm10, %ymm0
	vmovdqa	%ymm5, %ymm1
	vpshufb	%ymm5, %ymm6, %ymm6
	vpshufb	%ymm7, %ymm0, %ymm15
	vpxor	%ymm6, %ymm15, %ymm6
	vpshufd	$147, %ymm9, %ymm9
	vpaddd	%ymm6, %ymm9, %ymm9
	vpxor	%ymm10, %ymm9, %ymm10
	vpsrld	$12, %ymm10, %ymm15
	vpslld	$20, %ymm10, %ymm10
	vpor	%ymm15, %ymm10, %ymm10
	vpaddd	%ymm0, %ymm14, %ymm0
	vpaddd	%ymm0, %ymm10, %ymm15
	vpshufb	%ymm12, %ymm6, %ymm0
	vpshufb	%ymm12, %ymm15, %ymm6
	vpxor	%ymm0, %ymm6, %ymm6
	vpaddd	%ymm6, %ymm9, %ymm9
	vpxor	%ymm10, %ymm9, %ymm0
	vpsrld	$7, %ymm0, %ymm10
	vpslld	$25, %ymm0, %ymm0
	vpor	%ymm0, %ymm10, %ymm10
	vmovaps	%ymm11, %ymm5
	vblendps	$136, %ymm11, %ymm2, %ymm0
	vshufps	$120, %ymm0, %ymm0, %ymm0
	vpshufd	$147, %ymm15, %ymm15
	vpaddd	%ymm0, %ymm15, %ymm15
	vpaddd	%ymm10, %ymm15, %ymm15
	vpshufb	%ymm1, %ymm6, %ymm6
	vpshufb	%ymm7, %ymm15, %ymm13
	vpxor	%ymm6, %ymm13, %ymm6
	vpshufd	$57, %ymm9, %ymm9
	vpaddd	%ymm6, %ymm9, %ymm9
	vpxor	%ymm10, %ymm9, %ymm10
	vpsrld	$12, %ymm10, %ymm13
	vpslld	$20, %ymm10, %ymm10
	vpor	%ymm13, %ymm10, %ymm10
	vmovups	96(%rsp), %ymm3
	vshufps	$35, %ymm11, %ymm3, %ymm13
	vmovups	160(%rsp), %ymm1
	vblendps	$68, %ymm1, %ymm13, %ymm8
	vpaddd	%ymm8, %ymm15, %ymm8
	vpaddd	%ymm10, %ymm8, %ymm8
	vpshufb	%ymm12, %ymm6, %ymm6
	vpshufb	%ymm12, %ymm8, %ymm15
	vpxor	%ymm6, %ymm15, %ymm6
	vpaddd	%ymm6, %ymm9, %ymm9
	vpxor	%ymm10, %ymm9, %ymm10
	vpsrld	$7, %ymm10, %ymm15
	vpslld	$25, %ymm10, %ymm10
	vpor	%ymm15, %ymm10, %ymm10
	vmovups	128(%rsp), %ymm2
	vshufps	$231, %ymm11, %ymm2, %ymm15
	vshufps	$238, %ymm11, %ymm11, %ymm11
	vblendps	$34, %ymm11, %ymm15, %ymm11
	vblendps	$136, %ymm13, %ymm11, %ymm11
	vshufps	$195, 32(%rsp), %ymm3, %ymm2
	vblendps	$136, %ymm0, %ymm2, %ymm0
	vpshufd	$57, %ymm8, %ymm2
	vshufps	$215, %ymm14, %ymm4, %ymm8
	vshufps	$57, %ymm8, %ymm8, %ymm8
	vpaddd	%ymm2, %ymm8, %ymm2
	vpaddd	%ymm2, %ymm10, %ymm2
	vmovdqa	D(CPI5_3)(%rip), %ymm15
	vpshufb	%ymm15, %ymm6, %ymm6
	vpshufb	%ymm7, %ymm2, %ymm8
	vpxor	%ymm6, %ymm8, %ymm6
	vpshufd	$147, %ymm9, %ymm8
	vpaddd	%ymm6, %ymm8, %ymm8
	vpxor	%ymm10, %ymm8, %ymm9
	vpsrld	$12, %ymm9, %ymm10
	vpslld	$20, %ymm9, %ymm9
	vpor	%ymm10, %ymm9, %ymm9
	vpaddd	%ymm2, %ymm11, %ymm2
	vpaddd	%ymm2, %ymm9, %ymm2
	vpshufb	%ymm12, %ymm6, %ymm6
	vpshufb	%ymm12, %ymm2, %ymm10
	vmovdqa	%ymm12, %ymm3
	vpxor	%ymm6, %ymm10, %ymm6
	vpaddd	%ymm6, %ymm8, %ymm8
	vpxor	%ymm9, %ymm8, %ymm9
	vpsrld	$7, %ymm9, %ymm10
	vpslld	$25, %ymm9, %ymm9
	vpor	%ymm10, %ymm9, %ymm9
	vshufps	$120, %ymm0, %ymm0, %ymm0
	vpshufd	$147, %ymm2, %ymm2
	vpaddd	%ymm0, %ymm2, %ymm2
	vpaddd	%ymm2, %ymm9, %ymm10
	vpshufb	%ymm15, %ymm6, %ymm2
	vmovdqa	%ymm15, %ymm12
	vpshufb	%ymm7, %ymm10, %ymm6
	vmovdqa	%ymm7, %ymm15
	vpxor	%ymm2, %ymm6, %ymm6
	vpshufd	$57, %ymm8, %ymm2
	vpaddd	%ymm2, %ymm6, %ymm8
	vpxor	%ymm9, %ymm8, %ymm2
	vpsrld	$12, %ymm2, %ymm9
	vpslld	$20, %ymm2, %ymm2
	vpor	%ymm2, %ymm9, %ymm9
	vshufps	$85, %ymm1, %ymm1, %ymm2
	vmovaps	%ymm1, %ymm13
	vmovups	-64(%rsp), %ymm7
	vblendps	$136, %ymm2, %ymm7, %ymm11
	vpaddd	%ymm11, %ymm10, %ymm10
	vpaddd	%ymm9, %ymm10, %ymm10
	vpshufb	%ymm3, %ymm6, %ymm6
	vpshufb	%ymm3, %ymm10, %ymm11
	vpxor	%ymm6, %ymm11, %ymm6
	vpaddd	%ymm6, %ymm8, %ymm8
	vpxor	%ymm9, %ymm8, %ymm9
	vpsrld	$7, %ymm9, %ymm11
	vpslld	$25, %ymm9, %ymm9
	vpor	%ymm11, %ymm9, %ymm9
	vblendps	$68, 64(%rsp), %ymm4, %ymm11
	vunpcklpd	-128(%rsp), %ymm7, %ymm1
	vblendps	$136, %ymm0, %ymm1, %ymm0
	vpshufd	$57, %ymm10, %ymm1
	vshufps	$55, %ymm5, %ymm14, %ymm10
	vshufps	$57, %ymm10, %ymm10, %ymm10
	vpaddd	%ymm1, %ymm10, %ymm1
	vpaddd	%ymm1, %ymm9, %ymm10
	vpshufb	%ymm12, %ymm6, %ymm1
	vmovdqa	%ymm12, %ymm4
	vpshufb	%ymm15, %ymm10, %ymm6
	vpxor	%ymm1, %ymm6, %ymm6
	vpshufd	$147, %ymm8, %ymm1
	vpaddd	%ymm1, %ymm6, %ymm8
	vpxor	%ymm9, %ymm8, %ymm1
	vpsrld	$12, %ymm1, %ymm9
	vpslld	$20, %ymm1, %ymm1
	vpor	%ymm1, %ymm9, %ymm9
	vshufps	$219, %ymm11, %ymm11, %ymm1
	vblendps	$136, %ymm2, %ymm1, %ymm2
	vpaddd	%ymm2, %ymm10, %ymm2
	vpaddd	%ymm2, %ymm9, %ymm2
	vpshufb	%ymm3, %ymm6, %ymm6
	vpshufb	%ymm3, %ymm2, %ymm10
	vmovdqa	%ymm3, %ymm12
	vpxor	%ymm6, %ymm10, %ymm6
	vpaddd	%ymm6, %ymm8, %ymm8
	vpxor	%ymm9, %ymm8, %ymm9
	vpsrld	$7, %ymm9, %ymm10
	vpslld	$25, %ymm9, %ymm9
	vpor	%ymm10, %ymm9, %ymm9
	vshufps	$120, %ymm0, %ymm0, %ymm0
	vpshufd	$147, %ymm2, %ymm2
	vpaddd	%ymm0, %ymm2, %ymm2
	vpaddd	%ymm2, %ymm9, %ymm2
	vpshufb	%ymm4, %ymm6, %ymm6
	vpshufb	%ymm15, %ymm2, %ymm10
	vpxor	%ymm6, %ymm10, %ymm6
	vpshufd	$57, %ymm8, %ymm8
	vpaddd	%ymm6, %ymm8, %ymm8
	vpxor	%ymm9, %ymm8, %ymm9
	vpsrld	$12, %ymm9, %ymm10
	vpslld	$20, %ymm9, %ymm9
	vpor	%ymm10, %ymm9, %ymm9
	vmovups	192(%rsp), %ymm4
	vshufps	$171, %ymm4, %ymm7, %ymm10
	vblendps	$68, %ymm5, %ymm10, %ymm11
	vpaddd	%ymm2, %ymm11, %ymm2
	vpaddd	%ymm2, %ymm9, %ymm2
	vpshufb	%ymm3, %ymm6, %ymm6
	vpshufb	%ymm3, %ymm2, %ymm11
	vpxor	%ymm6, %ymm11, %ymm6
	vpaddd	%ymm6, %ymm8, %ymm8
	vpxor	%ymm9, %ymm8, %ymm9
	vpsrld	$7, %ymm9, %ymm11
	vpslld	$25, %ymm9, %ymm9
	vpor	%ymm11, %ymm9, %ymm9
	vblendps	$68, -32(%rsp), %ymm14, %ymm11
	vshufps	$219, %ymm11, %ymm11, %ymm11
	vblendps	$136, %ymm10, %ymm11, %ymm10
	vshufps	$171, 256(%rsp), %ymm7, %ymm7
	vblendps	$136, %ymm0, %ymm7, %ymm0
	vmovups	224(%rsp), %ymm3
	vshufps	$167, -96(%rsp), %ymm3, %ymm7
	vblendps	$68, %ymm1, %ymm7, %ymm1
	vshufps	$85, %ymm13, %ymm4, %ymm4
	vshufps	$51, %ymm5, %ymm5, %ymm5
	vblendps	$102, %ymm4, %ymm5, %ymm4
	vpshufd	$147, %ymm8, %ymm5
	vpshufd	$57, %ymm2, %ymm2
	vpaddd	%ymm4, %ymm2, %ymm2
	vpaddd	%ymm2, %ymm9, %ymm2
	vpshufb	%ymm15, %ymm2, %ymm4
	vmovdqa	D(CPI5_3)(%rip), %ymm11
	vpshufb	%ymm11, %ymm6, %ymm6
	vpxor	%ymm6, %ymm4, %ymm4
	vpaddd	%ymm5, %ymm4, %ymm5
	vpxor	%ymm5, %ymm9, %ymm6
	vpsrld	$12, %ymm6, %ymm7
	vpslld	$20, %ymm6, %ymm6
	vpor	%ymm7, %ymm6, %ymm6
	vpaddd	%ymm2, %ymm10, %ymm2
	vpaddd	%ymm6, %ymm2, %ymm2
	vpshufb	%ymm12, %ymm2, %ymm7
	vpshufb	%ymm12, %ymm4, %ymm4
	vpxor	%ymm4, %ymm7, %ymm4
	vpaddd	%ymm5, %ymm4, %ymm5
	vpxor	%ymm6, %ymm5, %ymm6
	vpsrld	$7, %ymm6, %ymm7
	vpslld	$25, %ymm6, %ymm6
	vpor	%ymm7, %ymm6, %ymm6
	vshufps	$120, %ymm0, %ymm0, %ymm0
	vpshufd	$147, %ymm2, %ymm2
	vpaddd	%ymm0, %ymm2, %ymm0
	vpshufb	%ymm11, %ymm4, %ymm2
	vpshufd	$57, %ymm5, %ymm4
	vpaddd	%ymm6, %ymm0, %ymm0
	vpshufb	%ymm15, %ymm0, %ymm5
	vpxor	%ymm2, %ymm5, %ymm2
	vpaddd	%ymm4, %ymm2, %ymm4
	vpxor	%ymm6, %ymm4, %ymm5
	vpsrld	$12, %ymm5, %ymm6
	vpslld	$20, %ymm5, %ymm5
	vpor	%ymm6, %ymm5, %ymm5
	vpaddd	%ymm1, %ymm0, %ymm0
	vpaddd	%ymm5, %ymm0, %ymm0
	vpshufb	%ymm12, %ymm2, %ymm1
	vpshufb	%ymm12, %ymm0, %ymm2
	vpxor	%ymm1, %ymm2, %ymm1
	vpaddd	%ymm4, %ymm1, %ymm2
	vpxor	%ymm5, %ymm2, %ymm3
	vpsrld	$7, %ymm3, %ymm4
	vpslld	$25, %ymm3, %ymm3
	vpor	%ymm4, %ymm3, %ymm3
	vpshufd	$57, %ymm0, %ymm0
	vpshufd	$147, %ymm2, %ymm2
	vpxor	%ymm0, %ymm2, %ymm0
	vpshufd	$78, %ymm1, %ymm1
	vpxor	%ymm1, %ymm3, %ymm1
	vmovdqu	%ymm0, (%rdi)
	vmovdqu	%ymm1, 32(%rdi)
	addq	$296, %rsp
	.cfi_def_cfa_offset 8
	vzeroupper
	retq
	SIZE("keyed_blake3::compression::two::compress_two_from")
	.cfi_endproc

SIZED(32, 5)
	.p2align	5, 0x0
D(CPI6_0):
	.byte	2
	.byte	3
	.byte	0
	.byte	1
	.byte	6
	.byte	7
	.byte	4
	.byte	5
	.byte	10
	.byte	11
	.byte	8
	.byte	9
	.byte	14
	.byte	15
	.byte	12
	.byte	13
	.byte	18
	.byte	19
	.byte	16
	.byte	17
	.byte	22
	.byte	23
	.byte	20
	.byte	21
	.byte	26
	.byte	27
	.byte	24
	.byte	25
	.byte	30
	.byte	31
	.byte	28
	.byte	29
D(CPI6_2):
	.byte	1
	.byte	2
	.byte	3
	.byte	0
	.byte	5
	.byte	6
	.byte	7
	.byte	4
	.byte	9
	.byte	10
	.byte	11
	.byte	8
	.byte	13
	.byte	14
	.byte	15
	.byte	12
	.byte	17
	.byte	18
	.byte	19
	.byte	16
	.byte	21
	.byte	22
	.byte	23
	.byte	20
	.byte	25
	.byte	26
	.byte	27
	.byte	24
	.byte	29
	.byte	30
	.byte	31
	.byte	28
D(CPI6_3):
	.byte	10
	.byte	11
	.byte	8
	.byte	9
	.byte	14
	.byte	15
	.byte	12
	.byte	13
	.byte	2
	.byte	3
	.byte	0
	.byte	1
	.byte	6
	.byte	7
	.byte	4
	.byte	5
	.byte	26
	.byte	27
	.byte	24
	.byte	25
	.byte	30
	.byte	31
	.byte	28
	.byte	29
	.byte	18
	.byte	19
	.byte	16
	.byte	17
	.byte	22
	.byte	23
	.byte	20
	.byte	21
D(CPI6_4):
	.long	2
	.long	6
	.zero	4
	.zero	4
	.long	3
	.long	7
	.zero	4
	.zero	4
D(CPI6_5):
	.zero	4
	.zero	4
	.long	2
	.long	6
	.zero	4
	.zero	4
	.long	3
	.long	7
D(CPI6_6):
	.long	0
	.long	4
	.zero	4
	.zero	4
	.long	1
	.long	5
	.zero	4
	.zero	4
D(CPI6_7):
	.zero	4
	.zero	4
	.long	0
	.long	4
	.zero	4
	.zero	4
	.long	1
	.long	5
SIZED(16, 4)
	.p2align	4, 0x0
D(CPI6_1):
	.long	1779033703
	.long	3144134277
	.long	1013904242
	.long	2773480762
CODE(".text.keyed_blake3::four_chunks::four_chunk_values")
	.p2align	4
	TYPE("keyed_blake3::four_chunks::four_chunk_values", function)
"keyed_blake3::four_chunks::four_chunk_values":
	.cfi_startproc
	pushq	%r14
	.cfi_def_cfa_offset 16
	pushq	%rbx
	.cfi_def_cfa_offset 24
	subq	$744, %rsp
	.cfi_def_cfa_offset 768
	.cfi_offset %rbx, -24
	.cfi_offset %r14, -16
	vinserti128	$1, %xmm0, %ymm0, %ymm3
	vinserti128	$1, %xmm1, %ymm1, %ymm0
	movq	(%rdx), %rax
	movq	8(%rdx), %r8
	movq	16(%rdx), %r9
	movq	24(%rdx), %rdx
	movq	%rax, %r10
	shlq	$10, %r10
	movq	%r8, %r11
	shlq	$10, %r11
	movq	%r9, %rbx
	shlq	$10, %rbx
	movq	%rdx, %r14
	shlq	$10, %r14
	addq	%rcx, %rax
	vmovq	%rax, %xmm1
	movl	$64, %eax
	vpinsrd	$2, %eax, %xmm1, %xmm1
	vmovdqa	%xmm1, 368(%rsp)
	addq	%rcx, %r8
	vmovq	%r8, %xmm1
	vpinsrd	$2, %eax, %xmm1, %xmm1
	vmovdqa	%xmm1, 352(%rsp)
	addq	%rcx, %r9
	vmovq	%r9, %xmm1
	vpinsrd	$2, %eax, %xmm1, %xmm1
	vmovdqa	%xmm1, 336(%rsp)
	addq	%rcx, %rdx
	vmovq	%rdx, %xmm1
	vpinsrd	$2, %eax, %xmm1, %xmm1
	vmovdqa	%xmm1, 320(%rsp)
	leaq	(%r14,%rsi), %rax
	addq	$48, %rax
	leaq	(%rbx,%rsi), %rcx
	addq	$48, %rcx
	leaq	(%r11,%rsi), %rdx
	addq	$48, %rdx
	addq	%r10, %rsi
	addq	$48, %rsi
	xorl	%r8d, %r8d
	vmovdqa	%ymm3, %ymm2
	vmovdqa	%ymm0, %ymm1
	.p2align	4
L(6_1):
	vmovdqu	-16(%rsi,%r8), %xmm4
	vmovdqu	(%rsi,%r8), %xmm5
	vmovdqu	-16(%rcx,%r8), %xmm6
	vmovdqu	(%rcx,%r8), %xmm7
	vinserti128	$1, -16(%rdx,%r8), %ymm4, %ymm13
	vinserti128	$1, -16(%rax,%r8), %ymm6, %ymm11
	vinserti128	$1, (%rdx,%r8), %ymm5, %ymm10
	vmovdqu	%ymm10, -96(%rsp)
	vinserti128	$1, (%rax,%r8), %ymm7, %ymm12
	vmovups	-48(%rsi,%r8), %xmm5
	vpshufd	$38, %ymm12, %ymm4
	vmovdqu	%ymm12, -128(%rsp)
	vpshufd	$224, %ymm11, %ymm6
	vmovdqu	%ymm11, 256(%rsp)
	vpshufd	$38, %ymm10, %ymm7
	vpshufd	$224, %ymm13, %ymm8
	vmovdqu	%ymm13, 96(%rsp)
	cmpq	$1, %r8
	movl	$0, %r9d
	vpshufd	$103, %ymm10, %ymm9
	adcl	$16, %r9d
	cmpq	$960, %r8
	vpblendd	$153, %ymm4, %ymm6, %ymm4
	vmovdqu	%ymm4, 32(%rsp)
	movl	$18, %r10d
	cmovnel	%r9d, %r10d
	vpblendd	$153, %ymm7, %ymm8, %ymm10
	vpshufd	$244, %ymm13, %ymm6
	vmovdqa	368(%rsp), %xmm7
	vpinsrd	$3, %r10d, %xmm7, %xmm7
	vpblendd	$153, %ymm9, %ymm6, %ymm13
	vmovdqu	%ymm13, 160(%rsp)
	vpshufd	$103, %ymm12, %ymm6
	vmovdqa	352(%rsp), %xmm8
	vpinsrd	$3, %r10d, %xmm8, %xmm8
	vpshufd	$244, %ymm11, %ymm9
	vinserti128	$1, %xmm8, %ymm7, %ymm7
	vmovdqa	336(%rsp), %xmm8
	vpinsrd	$3, %r10d, %xmm8, %xmm8
	vpblendd	$153, %ymm6, %ymm9, %ymm14
	vmovdqu	%ymm14, -32(%rsp)
	vmovdqa	320(%rsp), %xmm6
	vpinsrd	$3, %r10d, %xmm6, %xmm6
	vinsertf128	$1, -48(%rdx,%r8), %ymm5, %ymm11
	vmovups	%ymm11, 64(%rsp)
	vinserti128	$1, %xmm6, %ymm8, %ymm5
	vmovups	-48(%rcx,%r8), %xmm6
	vinsertf128	$1, -48(%rax,%r8), %ymm6, %ymm12
	vmovups	-32(%rsi,%r8), %xmm6
	vinsertf128	$1, -32(%rdx,%r8), %ymm6, %ymm15
	vmovups	-32(%rcx,%r8), %xmm6
	vinsertf128	$1, -32(%rax,%r8), %ymm6, %ymm4
	vpaddd	%ymm0, %ymm3, %ymm3
	vshufps	$136, %ymm4, %ymm12, %ymm6
	vmovups	%ymm4, 128(%rsp)
	vmovups	%ymm6, 704(%rsp)
	vmovups	%ymm12, -64(%rsp)
	vpaddd	%ymm6, %ymm3, %ymm6
	vmovdqa	D(CPI6_0)(%rip), %ymm8
	vpshufb	%ymm8, %ymm5, %ymm3
	vpshufb	%ymm8, %ymm6, %ymm5
	vpxor	%ymm3, %ymm5, %ymm3
	vpaddd	%ymm1, %ymm2, %ymm2
	vshufps	$136, %ymm15, %ymm11, %ymm5
	vmovups	%ymm5, 672(%rsp)
	vpaddd	%ymm5, %ymm2, %ymm2
	vpshufb	%ymm8, %ymm7, %ymm5
	vpshufb	%ymm8, %ymm2, %ymm7
	vpxor	%ymm5, %ymm7, %ymm5
	vbroadcasti128	D(CPI6_1)(%rip), %ymm7
	vpaddd	%ymm7, %ymm5, %ymm8
	vpxor	%ymm1, %ymm8, %ymm1
	vpsrld	$12, %ymm1, %ymm9
	vpslld	$20, %ymm1, %ymm1
	vpor	%ymm1, %ymm9, %ymm1
	vshufps	$221, %ymm15, %ymm11, %ymm9
	vpaddd	%ymm2, %ymm9, %ymm2
	vpaddd	%ymm7, %ymm3, %ymm9
	vpxor	%ymm0, %ymm9, %ymm0
	vpsrld	$12, %ymm0, %ymm7
	vpslld	$20, %ymm0, %ymm0
	vpor	%ymm7, %ymm0, %ymm11
	vshufps	$221, %ymm4, %ymm12, %ymm0
	vpaddd	%ymm0, %ymm6, %ymm6
	vpaddd	%ymm1, %ymm2, %ymm2
	vpxor	%ymm5, %ymm2, %ymm0
	vmovdqa	D(CPI6_2)(%rip), %ymm12
	vpshufb	%ymm12, %ymm0, %ymm5
	vpaddd	%ymm5, %ymm8, %ymm0
	vpxor	%ymm1, %ymm0, %ymm1
	vpsrld	$7, %ymm1, %ymm8
	vpslld	$25, %ymm1, %ymm1
	vpor	%ymm1, %ymm8, %ymm1
	vpaddd	%ymm6, %ymm11, %ymm6
	vpxor	%ymm3, %ymm6, %ymm3
	vpshufb	%ymm12, %ymm3, %ymm3
	vpaddd	%ymm3, %ymm9, %ymm8
	vpxor	%ymm11, %ymm8, %ymm9
	vpsrld	$7, %ymm9, %ymm11
	vpslld	$25, %ymm9, %ymm9
	vpor	%ymm11, %ymm9, %ymm9
	vpshufd	$147, %ymm6, %ymm6
	vpaddd	32(%rsp), %ymm6, %ymm6
	vpshufd	$147, %ymm2, %ymm2
	vpaddd	%ymm2, %ymm10, %ymm2
	vpaddd	%ymm1, %ymm2, %ymm4
	vmovdqa	D(CPI6_3)(%rip), %ymm10
	vpshufb	%ymm10, %ymm5, %ymm2
	vmovdqa	D(CPI6_0)(%rip), %ymm7
	vpshufb	%ymm7, %ymm4, %ymm5
	vpxor	%ymm2, %ymm5, %ymm5
	vpaddd	%ymm6, %ymm9, %ymm6
	vpshufb	%ymm10, %ymm3, %ymm2
	vpshufb	%ymm7, %ymm6, %ymm3
	vpxor	%ymm2, %ymm3, %ymm3
	vpshufd	$57, %ymm8, %ymm2
	vpaddd	%ymm2, %ymm3, %ymm2
	vpxor	%ymm2, %ymm9, %ymm8
	vpsrld	$12, %ymm8, %ymm9
	vpslld	$20, %ymm8, %ymm8
	vpor	%ymm9, %ymm8, %ymm8
	vpshufd	$57, %ymm0, %ymm0
	vpaddd	%ymm0, %ymm5, %ymm10
	vpxor	%ymm1, %ymm10, %ymm0
	vpsrld	$12, %ymm0, %ymm1
	vpslld	$20, %ymm0, %ymm0
	vpor	%ymm1, %ymm0, %ymm0
	vpaddd	%ymm6, %ymm14, %ymm1
	vpaddd	%ymm1, %ymm8, %ymm6
	vmovdqu	%ymm6, 192(%rsp)
	vpshufb	%ymm12, %ymm3, %ymm3
	vpshufb	%ymm12, %ymm6, %ymm6
	vpxor	%ymm3, %ymm6, %ymm3
	vmovdqu	%ymm3, 384(%rsp)
	vpaddd	%ymm4, %ymm13, %ymm4
	vpaddd	%ymm0, %ymm4, %ymm11
	vpshufb	%ymm12, %ymm5, %ymm4
	vpshufb	%ymm12, %ymm11, %ymm5
	vpxor	%ymm4, %ymm5, %ymm9
	vpaddd	%ymm10, %ymm9, %ymm1
	vmovdqu	%ymm1, 224(%rsp)
	vpxor	%ymm0, %ymm1, %ymm0
	vpsrld	$7, %ymm0, %ymm4
	vpslld	$25, %ymm0, %ymm0
	vpor	%ymm4, %ymm0, %ymm7
	vpaddd	%ymm2, %ymm3, %ymm12
	vpxor	%ymm8, %ymm12, %ymm0
	vpsrld	$7, %ymm0, %ymm2
	vpslld	$25, %ymm0, %ymm0
	vpor	%ymm2, %ymm0, %ymm8
	vmovups	96(%rsp), %ymm14
	vmovups	-96(%rsp), %ymm0
	vshufps	$90, %ymm0, %ymm14, %ymm3
	vmovdqu	64(%rsp), %ymm1
	vpalignr	$8, %ymm15, %ymm1, %ymm2
	vpblendd	$170, %ymm3, %ymm2, %ymm2
	vmovdqu	%ymm2, 416(%rsp)
	vmovups	256(%rsp), %ymm13
	vshufps	$90, -128(%rsp), %ymm13, %ymm3
	vmovdqu	-64(%rsp), %ymm2
	vmovdqu	128(%rsp), %ymm4
	vpalignr	$8, %ymm4, %ymm2, %ymm10
	vpblendd	$170, %ymm3, %ymm10, %ymm10
	vshufps	$172, %ymm0, %ymm14, %ymm3
	vmovdqa	%ymm15, %ymm0
	vmovups	%ymm15, 288(%rsp)
	vshufps	$85, %ymm15, %ymm15, %ymm15
	vblendps	$68, %ymm15, %ymm3, %ymm3
	vmovups	%ymm3, (%rsp)
	vpshufd	$248, %ymm1, %ymm3
	vmovdqu	%ymm3, 512(%rsp)
	vmovdqa	%ymm1, %ymm14
	vpblendd	$102, %ymm3, %ymm0, %ymm1
	vmovdqu	%ymm1, 32(%rsp)
	vpaddd	%ymm1, %ymm11, %ymm11
	vpshufd	$57, %ymm11, %ymm11
	vpaddd	%ymm7, %ymm11, %ymm11
	vmovdqa	D(CPI6_3)(%rip), %ymm3
	vpshufb	%ymm3, %ymm9, %ymm9
	vmovdqa	D(CPI6_0)(%rip), %ymm5
	vpshufb	%ymm5, %ymm11, %ymm15
	vpxor	%ymm9, %ymm15, %ymm9
	vpshufd	$248, %ymm2, %ymm0
	vmovdqu	%ymm0, 480(%rsp)
	vpblendd	$102, %ymm0, %ymm4, %ymm0
	vmovdqu	%ymm0, 448(%rsp)
	vpaddd	192(%rsp), %ymm0, %ymm1
	vpshufd	$57, %ymm1, %ymm1
	vpaddd	%ymm1, %ymm8, %ymm1
	vmovdqu	384(%rsp), %ymm0
	vpshufb	%ymm3, %ymm0, %ymm3
	vpshufb	%ymm5, %ymm1, %ymm15
	vpxor	%ymm3, %ymm15, %ymm15
	vpshufd	$147, %ymm12, %ymm3
	vpaddd	%ymm3, %ymm15, %ymm3
	vpxor	%ymm3, %ymm8, %ymm6
	vpsrld	$12, %ymm6, %ymm8
	vpslld	$20, %ymm6, %ymm6
	vpor	%ymm6, %ymm8, %ymm6
	vpshufd	$147, 224(%rsp), %ymm5
	vpaddd	%ymm5, %ymm9, %ymm8
	vpxor	%ymm7, %ymm8, %ymm4
	vpsrld	$12, %ymm4, %ymm5
	vpslld	$20, %ymm4, %ymm4
	vpor	%ymm5, %ymm4, %ymm4
	vpaddd	%ymm1, %ymm10, %ymm1
	vpaddd	416(%rsp), %ymm11, %ymm0
	vpaddd	%ymm6, %ymm1, %ymm10
	vmovdqa	D(CPI6_2)(%rip), %ymm7
	vpshufb	%ymm7, %ymm15, %ymm1
	vpshufb	%ymm7, %ymm10, %ymm5
	vpxor	%ymm1, %ymm5, %ymm1
	vpaddd	%ymm4, %ymm0, %ymm11
	vpshufb	%ymm7, %ymm9, %ymm0
	vpshufb	%ymm7, %ymm11, %ymm5
	vpxor	%ymm0, %ymm5, %ymm5
	vpaddd	%ymm5, %ymm8, %ymm0
	vpxor	%ymm4, %ymm0, %ymm4
	vpsrld	$7, %ymm4, %ymm8
	vpslld	$25, %ymm4, %ymm4
	vpor	%ymm4, %ymm8, %ymm4
	vpaddd	%ymm3, %ymm1, %ymm3
	vpxor	%ymm6, %ymm3, %ymm6
	vpsrld	$7, %ymm6, %ymm8
	vpslld	$25, %ymm6, %ymm6
	vpor	%ymm6, %ymm8, %ymm6
	vmovups	-32(%rsp), %ymm7
	vshufps	$212, %ymm2, %ymm7, %ymm7
	vmovups	%ymm7, 192(%rsp)
	vmovups	-128(%rsp), %ymm12
	vshufps	$68, %ymm12, %ymm12, %ymm2
	vmovups	%ymm2, 416(%rsp)
	vshufps	$104, %ymm7, %ymm7, %ymm8
	vblendps	$68, %ymm2, %ymm8, %ymm8
	vpshufd	$147, %ymm10, %ymm9
	vpaddd	%ymm8, %ymm9, %ymm8
	vmovups	160(%rsp), %ymm2
	vshufps	$212, %ymm14, %ymm2, %ymm2
	vmovups	%ymm2, 224(%rsp)
	vshufps	$104, %ymm2, %ymm2, %ymm9
	vpermilps	$68, -96(%rsp), %ymm2
	vmovups	%ymm2, 384(%rsp)
	vblendps	$68, %ymm2, %ymm9, %ymm9
	vpshufd	$147, %ymm11, %ymm10
	vpaddd	%ymm9, %ymm10, %ymm9
	vshufps	$172, %ymm12, %ymm13, %ymm10
	vpermilps	$85, 128(%rsp), %ymm11
	vblendps	$68, %ymm11, %ymm10, %ymm10
	vpaddd	%ymm4, %ymm9, %ymm9
	vmovdqa	D(CPI6_3)(%rip), %ymm7
	vpshufb	%ymm7, %ymm5, %ymm5
	vmovdqa	D(CPI6_0)(%rip), %ymm2
	vpshufb	%ymm2, %ymm9, %ymm11
	vpxor	%ymm5, %ymm11, %ymm5
	vpaddd	%ymm6, %ymm8, %ymm8
	vpshufb	%ymm7, %ymm1, %ymm1
	vpshufb	%ymm2, %ymm8, %ymm11
	vpxor	%ymm1, %ymm11, %ymm11
	vpshufd	$57, %ymm3, %ymm1
	vpaddd	%ymm1, %ymm11, %ymm3
	vpxor	%ymm6, %ymm3, %ymm1
	vpsrld	$12, %ymm1, %ymm6
	vpslld	$20, %ymm1, %ymm1
	vpor	%ymm6, %ymm1, %ymm1
	vpshufd	$57, %ymm0, %ymm0
	vpaddd	%ymm0, %ymm5, %ymm6
	vpxor	%ymm4, %ymm6, %ymm0
	vpsrld	$12, %ymm0, %ymm4
	vpslld	$20, %ymm0, %ymm0
	vpor	%ymm4, %ymm0, %ymm15
	vpaddd	%ymm10, %ymm8, %ymm0
	vpaddd	(%rsp), %ymm9, %ymm2
	vmovdqa	D(CPI6_2)(%rip), %ymm7
	vpshufb	%ymm7, %ymm11, %ymm4
	vpaddd	%ymm1, %ymm0, %ymm0
	vpshufb	%ymm7, %ymm0, %ymm8
	vpxor	%ymm4, %ymm8, %ymm4
	vpaddd	%ymm2, %ymm15, %ymm9
	vpshufb	%ymm7, %ymm5, %ymm2
	vpshufb	%ymm7, %ymm9, %ymm5
	vpxor	%ymm2, %ymm5, %ymm2
	vmovdqu	%ymm2, (%rsp)
	vpaddd	%ymm6, %ymm2, %ymm6
	vpxor	%ymm6, %ymm15, %ymm5
	vpsrld	$7, %ymm5, %ymm8
	vpslld	$25, %ymm5, %ymm5
	vpor	%ymm5, %ymm8, %ymm5
	vmovups	288(%rsp), %ymm12
	vblendps	$204, %ymm14, %ymm12, %ymm8
	vmovups	-96(%rsp), %ymm7
	vshufps	$160, %ymm7, %ymm7, %ymm10
	vblendps	$170, %ymm10, %ymm8, %ymm8
	vmovups	96(%rsp), %ymm2
	vshufps	$218, %ymm7, %ymm2, %ymm10
	vmovups	512(%rsp), %ymm7
	vunpckhpd	%ymm12, %ymm7, %ymm11
	vmovaps	%ymm12, %ymm14
	vblendps	$102, %ymm10, %ymm11, %ymm10
	vpshufd	$57, %ymm9, %ymm9
	vpaddd	%ymm10, %ymm9, %ymm11
	vpaddd	%ymm3, %ymm4, %ymm9
	vpxor	%ymm1, %ymm9, %ymm1
	vpsrld	$7, %ymm1, %ymm3
	vpslld	$25, %ymm1, %ymm1
	vpor	%ymm3, %ymm1, %ymm10
	vmovups	256(%rsp), %ymm12
	vmovups	-128(%rsp), %ymm7
	vshufps	$218, %ymm7, %ymm12, %ymm1
	vmovups	128(%rsp), %ymm13
	vmovups	480(%rsp), %ymm3
	vunpckhpd	%ymm13, %ymm3, %ymm3
	vblendps	$102, %ymm1, %ymm3, %ymm1
	vpshufd	$57, %ymm0, %ymm0
	vpaddd	%ymm1, %ymm0, %ymm15
	vblendps	$204, -64(%rsp), %ymm13, %ymm0
	vshufps	$160, %ymm7, %ymm7, %ymm1
	vblendps	$170, %ymm1, %ymm0, %ymm3
	vshufps	$236, %ymm13, %ymm12, %ymm0
	vmovaps	%ymm13, %ymm7
	vshufps	$104, %ymm0, %ymm0, %ymm0
	vshufps	$85, %ymm12, %ymm12, %ymm1
	vblendps	$68, %ymm1, %ymm0, %ymm12
	vshufps	$236, %ymm14, %ymm2, %ymm1
	vshufps	$104, %ymm1, %ymm1, %ymm1
	vshufps	$85, %ymm2, %ymm2, %ymm14
	vblendps	$68, %ymm14, %ymm1, %ymm1
	vpaddd	%ymm5, %ymm11, %ymm11
	vmovdqa	D(CPI6_3)(%rip), %ymm13
	vmovdqu	(%rsp), %ymm0
	vpshufb	%ymm13, %ymm0, %ymm2
	vmovdqa	D(CPI6_0)(%rip), %ymm0
	vpshufb	%ymm0, %ymm11, %ymm14
	vpxor	%ymm2, %ymm14, %ymm14
	vpaddd	%ymm15, %ymm10, %ymm15
	vpshufb	%ymm13, %ymm4, %ymm2
	vpshufb	%ymm0, %ymm15, %ymm4
	vpxor	%ymm2, %ymm4, %ymm4
	vpshufd	$147, %ymm9, %ymm2
	vpaddd	%ymm2, %ymm4, %ymm2
	vpxor	%ymm2, %ymm10, %ymm9
	vpsrld	$12, %ymm9, %ymm10
	vpslld	$20, %ymm9, %ymm9
	vpor	%ymm10, %ymm9, %ymm9
	vpshufd	$147, %ymm6, %ymm6
	vpaddd	%ymm6, %ymm14, %ymm10
	vpxor	%ymm5, %ymm10, %ymm5
	vpsrld	$12, %ymm5, %ymm6
	vpslld	$20, %ymm5, %ymm5
	vpor	%ymm6, %ymm5, %ymm5
	vpaddd	%ymm3, %ymm15, %ymm3
	vpaddd	%ymm8, %ymm11, %ymm8
	vmovdqa	D(CPI6_2)(%rip), %ymm13
	vpshufb	%ymm13, %ymm4, %ymm4
	vpaddd	%ymm3, %ymm9, %ymm11
	vpshufb	%ymm13, %ymm11, %ymm3
	vpxor	%ymm4, %ymm3, %ymm6
	vpaddd	%ymm5, %ymm8, %ymm8
	vpshufb	%ymm13, %ymm14, %ymm3
	vpshufb	%ymm13, %ymm8, %ymm4
	vpxor	%ymm3, %ymm4, %ymm14
	vpaddd	%ymm10, %ymm14, %ymm3
	vpxor	%ymm5, %ymm3, %ymm4
	vpsrld	$7, %ymm4, %ymm5
	vpslld	$25, %ymm4, %ymm4
	vpor	%ymm5, %ymm4, %ymm4
	vpshufd	$147, %ymm11, %ymm5
	vpaddd	%ymm5, %ymm12, %ymm0
	vpshufd	$147, %ymm8, %ymm5
	vpaddd	%ymm1, %ymm5, %ymm5
	vpaddd	%ymm2, %ymm6, %ymm1
	vpxor	%ymm1, %ymm9, %ymm2
	vpsrld	$7, %ymm2, %ymm8
	vpslld	$25, %ymm2, %ymm2
	vpor	%ymm2, %ymm8, %ymm9
	vpaddd	%ymm4, %ymm5, %ymm8
	vmovdqa	D(CPI6_3)(%rip), %ymm11
	vpshufb	%ymm11, %ymm14, %ymm2
	vmovdqa	D(CPI6_0)(%rip), %ymm12
	vpshufb	%ymm12, %ymm8, %ymm5
	vpxor	%ymm2, %ymm5, %ymm5
	vpaddd	%ymm0, %ymm9, %ymm10
	vpshufb	%ymm11, %ymm6, %ymm0
	vpshufb	%ymm12, %ymm10, %ymm2
	vpxor	%ymm0, %ymm2, %ymm0
	vpermilpd	$5, 192(%rsp), %ymm2
	vblendps	$34, %ymm7, %ymm2, %ymm2
	vpermilps	$68, -64(%rsp), %ymm7
	vmovups	%ymm7, 576(%rsp)
	vshufps	$164, %ymm2, %ymm2, %ymm6
	vblendps	$68, %ymm7, %ymm6, %ymm6
	vpaddd	%ymm6, %ymm10, %ymm10
	vpshufd	$57, %ymm1, %ymm1
	vpaddd	%ymm1, %ymm0, %ymm6
	vpxor	%ymm6, %ymm9, %ymm1
	vpsrld	$12, %ymm1, %ymm9
	vpslld	$20, %ymm1, %ymm1
	vpor	%ymm1, %ymm9, %ymm9
	vpermilpd	$5, 224(%rsp), %ymm1
	vpblendd	$34, 288(%rsp), %ymm1, %ymm1
	vmovdqu	%ymm1, 544(%rsp)
	vpshufd	$68, 64(%rsp), %ymm7
	vmovdqu	%ymm7, 608(%rsp)
	vpshufd	$164, %ymm1, %ymm11
	vpblendd	$68, %ymm7, %ymm11, %ymm11
	vpaddd	%ymm11, %ymm8, %ymm8
	vpshufd	$57, %ymm3, %ymm3
	vpaddd	%ymm3, %ymm5, %ymm11
	vpxor	%ymm4, %ymm11, %ymm3
	vpsrld	$12, %ymm3, %ymm4
	vpslld	$20, %ymm3, %ymm3
	vpor	%ymm4, %ymm3, %ymm14
	vpaddd	%ymm9, %ymm10, %ymm3
	vmovdqa	%ymm13, %ymm12
	vpshufb	%ymm13, %ymm0, %ymm0
	vpshufb	%ymm13, %ymm3, %ymm4
	vpxor	%ymm0, %ymm4, %ymm4
	vpaddd	%ymm14, %ymm8, %ymm0
	vpshufb	%ymm13, %ymm5, %ymm5
	vpshufb	%ymm13, %ymm0, %ymm8
	vpxor	%ymm5, %ymm8, %ymm10
	vmovdqu	96(%rsp), %ymm15
	vpshufd	$170, %ymm15, %ymm5
	vpshufd	$133, -96(%rsp), %ymm8
	vpblendd	$34, %ymm5, %ymm8, %ymm7
	vmovdqu	%ymm7, (%rsp)
	vpaddd	%ymm11, %ymm10, %ymm5
	vpxor	%ymm5, %ymm14, %ymm8
	vpsrld	$7, %ymm8, %ymm11
	vpslld	$25, %ymm8, %ymm8
	vpor	%ymm11, %ymm8, %ymm8
	vmovdqu	256(%rsp), %ymm1
	vpshufd	$170, %ymm1, %ymm11
	vpshufd	$133, -128(%rsp), %ymm14
	vpblendd	$34, %ymm11, %ymm14, %ymm13
	vmovdqu	%ymm13, 640(%rsp)
	vpaddd	%ymm6, %ymm4, %ymm6
	vpxor	%ymm6, %ymm9, %ymm9
	vpsrld	$7, %ymm9, %ymm11
	vpslld	$25, %ymm9, %ymm9
	vpor	%ymm11, %ymm9, %ymm9
	vpaddd	%ymm7, %ymm0, %ymm0
	vpshufd	$57, %ymm0, %ymm0
	vmovdqa	D(CPI6_3)(%rip), %ymm14
	vpshufb	%ymm14, %ymm10, %ymm10
	vpaddd	%ymm0, %ymm8, %ymm0
	vmovdqa	D(CPI6_0)(%rip), %ymm7
	vpshufb	%ymm7, %ymm0, %ymm11
	vpxor	%ymm10, %ymm11, %ymm10
	vpaddd	%ymm3, %ymm13, %ymm3
	vpshufd	$57, %ymm3, %ymm3
	vpaddd	%ymm3, %ymm9, %ymm3
	vpshufb	%ymm14, %ymm4, %ymm4
	vpshufb	%ymm7, %ymm3, %ymm11
	vpxor	%ymm4, %ymm11, %ymm4
	vpshufd	$147, %ymm6, %ymm6
	vpaddd	%ymm6, %ymm4, %ymm6
	vpxor	%ymm6, %ymm9, %ymm9
	vpsrld	$12, %ymm9, %ymm11
	vpslld	$20, %ymm9, %ymm9
	vpor	%ymm11, %ymm9, %ymm9
	vpshufd	$147, %ymm5, %ymm5
	vpaddd	%ymm5, %ymm10, %ymm5
	vpxor	%ymm5, %ymm8, %ymm8
	vpsrld	$12, %ymm8, %ymm11
	vpslld	$20, %ymm8, %ymm8
	vpor	%ymm11, %ymm8, %ymm8
	vmovdqu	448(%rsp), %ymm13
	vpblendd	$51, -32(%rsp), %ymm13, %ymm11
	vpshufd	$39, %ymm11, %ymm11
	vpaddd	%ymm3, %ymm11, %ymm3
	vmovdqu	32(%rsp), %ymm7
	vpblendd	$51, 160(%rsp), %ymm7, %ymm11
	vpshufd	$39, %ymm11, %ymm11
	vpaddd	%ymm0, %ymm11, %ymm11
	vmovdqa	%ymm12, %ymm0
	vpshufb	%ymm12, %ymm4, %ymm4
	vpaddd	%ymm3, %ymm9, %ymm14
	vpshufb	%ymm12, %ymm14, %ymm3
	vpxor	%ymm4, %ymm3, %ymm12
	vpaddd	%ymm8, %ymm11, %ymm11
	vpshufb	%ymm0, %ymm10, %ymm3
	vpshufb	%ymm0, %ymm11, %ymm4
	vpxor	%ymm3, %ymm4, %ymm10
	vpaddd	%ymm5, %ymm10, %ymm3
	vpxor	%ymm3, %ymm8, %ymm4
	vpsrld	$7, %ymm4, %ymm5
	vpslld	$25, %ymm4, %ymm4
	vpor	%ymm5, %ymm4, %ymm4
	vpaddd	%ymm6, %ymm12, %ymm5
	vpxor	%ymm5, %ymm9, %ymm6
	vpsrld	$7, %ymm6, %ymm8
	vpslld	$25, %ymm6, %ymm6
	vpor	%ymm6, %ymm8, %ymm6
	vunpcklpd	%ymm13, %ymm2, %ymm2
	vmovdqa	%ymm1, %ymm13
	vblendps	$136, %ymm1, %ymm2, %ymm2
	vshufps	$120, %ymm2, %ymm2, %ymm2
	vpshufd	$147, %ymm14, %ymm8
	vpaddd	%ymm2, %ymm8, %ymm2
	vmovdqu	544(%rsp), %ymm0
	vpunpcklqdq	%ymm7, %ymm0, %ymm1
	vpblendd	$136, %ymm15, %ymm1, %ymm1
	vpshufd	$120, %ymm1, %ymm1
	vpshufd	$147, %ymm11, %ymm8
	vpaddd	%ymm1, %ymm8, %ymm1
	vmovdqa	D(CPI6_3)(%rip), %ymm0
	vpshufb	%ymm0, %ymm10, %ymm8
	vpaddd	%ymm4, %ymm1, %ymm9
	vmovdqa	D(CPI6_0)(%rip), %ymm10
	vpshufb	%ymm10, %ymm9, %ymm1
	vpxor	%ymm1, %ymm8, %ymm1
	vpaddd	%ymm6, %ymm2, %ymm8
	vpshufb	%ymm0, %ymm12, %ymm0
	vpshufb	%ymm10, %ymm8, %ymm2
	vpxor	%ymm0, %ymm2, %ymm0
	vpshufd	$57, %ymm5, %ymm2
	vpaddd	%ymm2, %ymm0, %ymm2
	vpxor	%ymm6, %ymm2, %ymm5
	vpsrld	$12, %ymm5, %ymm6
	vpslld	$20, %ymm5, %ymm5
	vpor	%ymm6, %ymm5, %ymm5
	vmovups	704(%rsp), %ymm6
	vshufps	$3, %ymm13, %ymm6, %ymm6
	vmovdqa	%ymm13, %ymm11
	vmovups	-64(%rsp), %ymm13
	vblendps	$68, %ymm13, %ymm6, %ymm6
	vpaddd	%ymm6, %ymm8, %ymm6
	vmovups	672(%rsp), %ymm8
	vshufps	$3, %ymm15, %ymm8, %ymm8
	vmovdqa	%ymm15, %ymm7
	vblendps	$68, 64(%rsp), %ymm8, %ymm8
	vpaddd	%ymm8, %ymm9, %ymm8
	vpshufd	$57, %ymm3, %ymm3
	vpaddd	%ymm3, %ymm1, %ymm9
	vpxor	%ymm4, %ymm9, %ymm3
	vpsrld	$12, %ymm3, %ymm4
	vpslld	$20, %ymm3, %ymm3
	vpor	%ymm4, %ymm3, %ymm10
	vpaddd	%ymm5, %ymm6, %ymm4
	vmovdqa	D(CPI6_2)(%rip), %ymm6
	vpshufb	%ymm6, %ymm0, %ymm0
	vpshufb	%ymm6, %ymm4, %ymm3
	vpxor	%ymm0, %ymm3, %ymm3
	vpaddd	%ymm10, %ymm8, %ymm8
	vpshufb	%ymm6, %ymm1, %ymm0
	vpshufb	%ymm6, %ymm8, %ymm1
	vpxor	%ymm0, %ymm1, %ymm6
	vpaddd	%ymm6, %ymm9, %ymm12
	vpxor	%ymm10, %ymm12, %ymm1
	vpsrld	$7, %ymm1, %ymm9
	vpslld	$25, %ymm1, %ymm1
	vpor	%ymm1, %ymm9, %ymm1
	vpaddd	%ymm2, %ymm3, %ymm2
	vpxor	%ymm5, %ymm2, %ymm5
	vpsrld	$7, %ymm5, %ymm9
	vpslld	$25, %ymm5, %ymm5
	vpor	%ymm5, %ymm9, %ymm5
	vpshufd	$57, %ymm8, %ymm8
	vmovdqu	-96(%rsp), %ymm15
	vpshufd	$180, %ymm15, %ymm9
	vpblendd	$34, %ymm7, %ymm9, %ymm9
	vmovdqa	%ymm7, %ymm14
	vpaddd	%ymm9, %ymm8, %ymm8
	vpshufd	$57, %ymm4, %ymm4
	vmovdqu	-128(%rsp), %ymm10
	vpshufd	$180, %ymm10, %ymm9
	vmovdqa	%ymm11, %ymm7
	vpblendd	$34, %ymm11, %ymm9, %ymm9
	vpaddd	%ymm4, %ymm9, %ymm9
	vmovdqa	D(CPI6_3)(%rip), %ymm0
	vpshufb	%ymm0, %ymm6, %ymm4
	vpaddd	%ymm1, %ymm8, %ymm6
	vmovdqa	D(CPI6_0)(%rip), %ymm11
	vpshufb	%ymm11, %ymm6, %ymm8
	vpxor	%ymm4, %ymm8, %ymm4
	vpaddd	%ymm5, %ymm9, %ymm8
	vpshufb	%ymm0, %ymm3, %ymm3
	vpshufb	%ymm11, %ymm8, %ymm9
	vpxor	%ymm3, %ymm9, %ymm9
	vpshufd	$147, %ymm2, %ymm2
	vpaddd	%ymm2, %ymm9, %ymm3
	vpxor	%ymm5, %ymm3, %ymm2
	vpsrld	$12, %ymm2, %ymm5
	vpslld	$20, %ymm2, %ymm2
	vpor	%ymm5, %ymm2, %ymm5
	vpblendd	$34, %ymm10, %ymm7, %ymm2
	vpshufd	$45, %ymm2, %ymm2
	vpaddd	%ymm2, %ymm8, %ymm2
	vpblendd	$34, %ymm15, %ymm14, %ymm8
	vpshufd	$45, %ymm8, %ymm8
	vpaddd	%ymm6, %ymm8, %ymm6
	vpshufd	$147, %ymm12, %ymm0
	vpaddd	%ymm0, %ymm4, %ymm8
	vpxor	%ymm1, %ymm8, %ymm0
	vpsrld	$12, %ymm0, %ymm1
	vpslld	$20, %ymm0, %ymm0
	vpor	%ymm1, %ymm0, %ymm10
	vpaddd	%ymm5, %ymm2, %ymm11
	vmovdqa	D(CPI6_2)(%rip), %ymm2
	vpshufb	%ymm2, %ymm9, %ymm0
	vpshufb	%ymm2, %ymm11, %ymm1
	vpxor	%ymm0, %ymm1, %ymm0
	vpaddd	%ymm6, %ymm10, %ymm6
	vpshufb	%ymm2, %ymm4, %ymm1
	vpshufb	%ymm2, %ymm6, %ymm2
	vpxor	%ymm1, %ymm2, %ymm4
	vpaddd	%ymm4, %ymm8, %ymm12
	vpxor	%ymm10, %ymm12, %ymm2
	vpsrld	$7, %ymm2, %ymm8
	vpslld	$25, %ymm2, %ymm2
	vpor	%ymm2, %ymm8, %ymm2
	vpaddd	%ymm3, %ymm0, %ymm3
	vpxor	%ymm5, %ymm3, %ymm5
	vpsrld	$7, %ymm5, %ymm8
	vpslld	$25, %ymm5, %ymm5
	vpor	%ymm5, %ymm8, %ymm5
	vmovaps	%ymm13, %ymm7
	vmovups	128(%rsp), %ymm14
	vblendps	$17, %ymm13, %ymm14, %ymm8
	vshufps	$30, %ymm8, %ymm8, %ymm8
	vpshufd	$147, %ymm11, %ymm9
	vpaddd	%ymm8, %ymm9, %ymm8
	vmovdqu	64(%rsp), %ymm13
	vmovdqu	288(%rsp), %ymm11
	vpblendd	$17, %ymm13, %ymm11, %ymm9
	vpshufd	$30, %ymm9, %ymm9
	vpshufd	$147, %ymm6, %ymm6
	vpaddd	%ymm6, %ymm9, %ymm6
	vmovdqa	D(CPI6_3)(%rip), %ymm10
	vpshufb	%ymm10, %ymm4, %ymm4
	vpaddd	%ymm2, %ymm6, %ymm6
	vmovdqa	D(CPI6_0)(%rip), %ymm1
	vpshufb	%ymm1, %ymm6, %ymm9
	vpxor	%ymm4, %ymm9, %ymm4
	vpaddd	%ymm5, %ymm8, %ymm8
	vpshufb	%ymm10, %ymm0, %ymm0
	vpshufb	%ymm1, %ymm8, %ymm9
	vpxor	%ymm0, %ymm9, %ymm9
	vpshufd	$57, %ymm3, %ymm0
	vpaddd	%ymm0, %ymm9, %ymm15
	vpxor	%ymm5, %ymm15, %ymm3
	vpsrld	$12, %ymm3, %ymm5
	vpslld	$20, %ymm3, %ymm3
	vpor	%ymm5, %ymm3, %ymm10
	vshufps	$120, %ymm7, %ymm7, %ymm3
	vmovaps	%ymm7, %ymm0
	vblendps	$17, %ymm14, %ymm3, %ymm3
	vpaddd	%ymm3, %ymm8, %ymm3
	vpshufd	$120, %ymm13, %ymm5
	vmovdqa	%ymm11, %ymm7
	vpblendd	$17, %ymm11, %ymm5, %ymm5
	vpaddd	%ymm5, %ymm6, %ymm6
	vpshufd	$57, %ymm12, %ymm1
	vpaddd	%ymm1, %ymm4, %ymm11
	vpxor	%ymm2, %ymm11, %ymm1
	vpsrld	$12, %ymm1, %ymm2
	vpslld	$20, %ymm1, %ymm1
	vpor	%ymm2, %ymm1, %ymm2
	vpaddd	%ymm3, %ymm10, %ymm5
	vmovdqa	D(CPI6_2)(%rip), %ymm8
	vpshufb	%ymm8, %ymm9, %ymm1
	vpshufb	%ymm8, %ymm5, %ymm3
	vpxor	%ymm1, %ymm3, %ymm3
	vpaddd	%ymm2, %ymm6, %ymm9
	vpshufb	%ymm8, %ymm4, %ymm1
	vpshufb	%ymm8, %ymm9, %ymm4
	vpxor	%ymm1, %ymm4, %ymm8
	vpunpcklqdq	%ymm13, %ymm7, %ymm1
	vmovdqu	-96(%rsp), %ymm7
	vpshufd	$78, %ymm7, %ymm4
	vpblendd	$170, %ymm1, %ymm4, %ymm1
	vpaddd	%ymm11, %ymm8, %ymm4
	vpxor	%ymm2, %ymm4, %ymm2
	vpsrld	$7, %ymm2, %ymm6
	vpslld	$25, %ymm2, %ymm2
	vpor	%ymm6, %ymm2, %ymm6
	vunpcklpd	%ymm0, %ymm14, %ymm2
	vmovups	-128(%rsp), %ymm14
	vshufps	$78, %ymm14, %ymm14, %ymm11
	vblendps	$170, %ymm2, %ymm11, %ymm2
	vpaddd	%ymm3, %ymm15, %ymm11
	vpxor	%ymm10, %ymm11, %ymm0
	vpsrld	$7, %ymm0, %ymm10
	vpslld	$25, %ymm0, %ymm0
	vpor	%ymm0, %ymm10, %ymm10
	vmovups	448(%rsp), %ymm0
	vshufps	$212, %ymm14, %ymm0, %ymm0
	vmovaps	%ymm14, %ymm15
	vshufps	$104, %ymm0, %ymm0, %ymm0
	vblendps	$68, 576(%rsp), %ymm0, %ymm0
	vmovups	%ymm0, -32(%rsp)
	vpshufd	$57, %ymm9, %ymm9
	vmovdqu	96(%rsp), %ymm12
	vpshufd	$205, %ymm12, %ymm14
	vpblendd	$136, %ymm7, %ymm14, %ymm14
	vmovdqa	%ymm7, %ymm0
	vpaddd	%ymm14, %ymm9, %ymm9
	vpshufd	$57, %ymm5, %ymm5
	vmovups	256(%rsp), %ymm13
	vshufps	$205, %ymm13, %ymm13, %ymm14
	vblendps	$136, %ymm15, %ymm14, %ymm14
	vpaddd	%ymm5, %ymm14, %ymm5
	vpaddd	%ymm6, %ymm9, %ymm9
	vmovdqa	D(CPI6_3)(%rip), %ymm15
	vpshufb	%ymm15, %ymm8, %ymm8
	vmovdqa	D(CPI6_0)(%rip), %ymm7
	vpshufb	%ymm7, %ymm9, %ymm14
	vpxor	%ymm8, %ymm14, %ymm8
	vpaddd	%ymm5, %ymm10, %ymm14
	vpshufb	%ymm15, %ymm3, %ymm3
	vpshufb	%ymm7, %ymm14, %ymm5
	vpxor	%ymm3, %ymm5, %ymm15
	vpshufd	$147, %ymm11, %ymm3
	vpaddd	%ymm3, %ymm15, %ymm3
	vpxor	%ymm3, %ymm10, %ymm5
	vpsrld	$12, %ymm5, %ymm10
	vpslld	$20, %ymm5, %ymm5
	vpor	%ymm5, %ymm10, %ymm5
	vpaddd	%ymm2, %ymm14, %ymm2
	vpshufd	$147, %ymm4, %ymm4
	vpaddd	%ymm4, %ymm8, %ymm4
	vpxor	%ymm6, %ymm4, %ymm6
	vpsrld	$12, %ymm6, %ymm10
	vpslld	$20, %ymm6, %ymm6
	vpor	%ymm6, %ymm10, %ymm6
	vpaddd	%ymm1, %ymm9, %ymm1
	vpaddd	%ymm5, %ymm2, %ymm9
	vmovdqa	D(CPI6_2)(%rip), %ymm7
	vpshufb	%ymm7, %ymm15, %ymm2
	vpshufb	%ymm7, %ymm9, %ymm10
	vpxor	%ymm2, %ymm10, %ymm2
	vpaddd	%ymm6, %ymm1, %ymm10
	vpshufb	%ymm7, %ymm8, %ymm1
	vpshufb	%ymm7, %ymm10, %ymm8
	vpxor	%ymm1, %ymm8, %ymm8
	vmovups	32(%rsp), %ymm1
	vshufps	$212, %ymm0, %ymm1, %ymm1
	vshufps	$104, %ymm1, %ymm1, %ymm1
	vblendps	$68, 608(%rsp), %ymm1, %ymm11
	vpaddd	%ymm4, %ymm8, %ymm14
	vpxor	%ymm6, %ymm14, %ymm4
	vpsrld	$7, %ymm4, %ymm6
	vpslld	$25, %ymm4, %ymm4
	vpor	%ymm6, %ymm4, %ymm6
	vpshufd	$147, %ymm9, %ymm4
	vpaddd	-32(%rsp), %ymm4, %ymm0
	vpaddd	%ymm3, %ymm2, %ymm3
	vpxor	%ymm5, %ymm3, %ymm4
	vpsrld	$7, %ymm4, %ymm5
	vpslld	$25, %ymm4, %ymm4
	vpor	%ymm5, %ymm4, %ymm4
	vpshufd	$147, %ymm10, %ymm5
	vpaddd	%ymm5, %ymm11, %ymm5
	vmovdqa	D(CPI6_3)(%rip), %ymm7
	vpshufb	%ymm7, %ymm8, %ymm8
	vpaddd	%ymm6, %ymm5, %ymm9
	vmovdqa	D(CPI6_0)(%rip), %ymm11
	vpshufb	%ymm11, %ymm9, %ymm5
	vpxor	%ymm5, %ymm8, %ymm8
	vpaddd	%ymm4, %ymm0, %ymm10
	vpshufb	%ymm7, %ymm2, %ymm0
	vpshufb	%ymm11, %ymm10, %ymm2
	vpxor	%ymm0, %ymm2, %ymm5
	vpshufd	$57, %ymm3, %ymm0
	vpaddd	%ymm0, %ymm5, %ymm0
	vmovdqu	%ymm0, -32(%rsp)
	vpxor	%ymm4, %ymm0, %ymm0
	vpsrld	$12, %ymm0, %ymm3
	vpslld	$20, %ymm0, %ymm0
	vpor	%ymm3, %ymm0, %ymm1
	vmovdqu	%ymm1, 160(%rsp)
	vpshufd	$57, %ymm14, %ymm0
	vpaddd	%ymm0, %ymm8, %ymm4
	vpxor	%ymm6, %ymm4, %ymm0
	vpsrld	$12, %ymm0, %ymm3
	vpslld	$20, %ymm0, %ymm0
	vpor	%ymm3, %ymm0, %ymm0
	vmovups	-64(%rsp), %ymm11
	vmovups	128(%rsp), %ymm14
	vunpckhps	%ymm11, %ymm14, %ymm3
	vshufps	$14, %ymm3, %ymm3, %ymm3
	vmovaps	%ymm13, %ymm2
	vblendps	$68, %ymm13, %ymm3, %ymm3
	vpaddd	%ymm3, %ymm10, %ymm3
	vmovdqu	288(%rsp), %ymm15
	vmovdqu	64(%rsp), %ymm7
	vpunpckhdq	%ymm7, %ymm15, %ymm6
	vpshufd	$14, %ymm6, %ymm6
	vpblendd	$68, %ymm12, %ymm6, %ymm6
	vpaddd	%ymm6, %ymm9, %ymm9
	vmovdqa	D(CPI6_2)(%rip), %ymm10
	vpshufb	%ymm10, %ymm5, %ymm6
	vpaddd	%ymm1, %ymm3, %ymm13
	vpshufb	%ymm10, %ymm13, %ymm3
	vpxor	%ymm6, %ymm3, %ymm5
	vpaddd	%ymm0, %ymm9, %ymm6
	vpshufb	%ymm10, %ymm8, %ymm8
	vpshufb	%ymm10, %ymm6, %ymm9
	vpxor	%ymm8, %ymm9, %ymm8
	vshufps	$128, %ymm15, %ymm7, %ymm9
	vmovdqu	-96(%rsp), %ymm7
	vpalignr	$12, %ymm7, %ymm12, %ymm10
	vpblendd	$170, %ymm9, %ymm10, %ymm10
	vmovaps	%ymm14, %ymm1
	vshufps	$128, %ymm14, %ymm11, %ymm9
	vmovdqu	-128(%rsp), %ymm12
	vpalignr	$12, %ymm12, %ymm2, %ymm11
	vpblendd	$170, %ymm9, %ymm11, %ymm9
	vmovdqu	480(%rsp), %ymm3
	vpalignr	$12, %ymm14, %ymm3, %ymm11
	vpshufd	$170, %ymm12, %ymm14
	vpblendd	$34, %ymm14, %ymm11, %ymm3
	vmovdqu	%ymm3, -64(%rsp)
	vmovdqu	512(%rsp), %ymm3
	vpalignr	$12, %ymm15, %ymm3, %ymm14
	vmovdqa	%ymm15, %ymm3
	vpshufd	$170, %ymm7, %ymm15
	vpblendd	$34, %ymm15, %ymm14, %ymm7
	vmovdqu	%ymm7, -128(%rsp)
	vmovups	640(%rsp), %ymm7
	vunpcklpd	448(%rsp), %ymm7, %ymm7
	vmovups	%ymm7, -96(%rsp)
	vpaddd	%ymm4, %ymm8, %ymm7
	vpxor	%ymm0, %ymm7, %ymm0
	vpsrld	$7, %ymm0, %ymm14
	vpslld	$25, %ymm0, %ymm0
	vpor	%ymm0, %ymm14, %ymm0
	vblendps	$204, 192(%rsp), %ymm1, %ymm12
	vshufps	$39, %ymm2, %ymm2, %ymm14
	vblendps	$102, %ymm12, %ymm14, %ymm12
	vmovdqa	%ymm5, %ymm11
	vpaddd	-32(%rsp), %ymm5, %ymm5
	vpxor	160(%rsp), %ymm5, %ymm4
	vpsrld	$7, %ymm4, %ymm14
	vpslld	$25, %ymm4, %ymm4
	vpor	%ymm4, %ymm14, %ymm4
	vpshufd	$57, %ymm13, %ymm2
	vpaddd	%ymm2, %ymm12, %ymm12
	vpblendd	$204, 224(%rsp), %ymm3, %ymm2
	vpshufd	$39, 96(%rsp), %ymm13
	vpblendd	$102, %ymm2, %ymm13, %ymm2
	vpshufd	$57, %ymm6, %ymm3
	vpaddd	%ymm2, %ymm3, %ymm3
	vmovdqu	(%rsp), %ymm1
	vpunpcklqdq	32(%rsp), %ymm1, %ymm2
	vpaddd	%ymm3, %ymm0, %ymm13
	vmovdqa	D(CPI6_3)(%rip), %ymm6
	vpshufb	%ymm6, %ymm8, %ymm3
	vmovdqa	D(CPI6_0)(%rip), %ymm15
	vpshufb	%ymm15, %ymm13, %ymm8
	vpxor	%ymm3, %ymm8, %ymm8
	vpaddd	%ymm4, %ymm12, %ymm12
	vpshufb	%ymm6, %ymm11, %ymm3
	vmovdqa	%ymm6, %ymm11
	vpshufb	%ymm15, %ymm12, %ymm6
	vpxor	%ymm3, %ymm6, %ymm6
	vpshufd	$147, %ymm5, %ymm3
	vpaddd	%ymm3, %ymm6, %ymm3
	vpxor	%ymm4, %ymm3, %ymm4
	vpsrld	$12, %ymm4, %ymm5
	vpslld	$20, %ymm4, %ymm4
	vpor	%ymm5, %ymm4, %ymm4
	vpshufd	$147, %ymm7, %ymm1
	vpaddd	%ymm1, %ymm8, %ymm5
	vpxor	%ymm0, %ymm5, %ymm0
	vpsrld	$12, %ymm0, %ymm1
	vpslld	$20, %ymm0, %ymm0
	vpor	%ymm1, %ymm0, %ymm14
	vpaddd	%ymm9, %ymm12, %ymm0
	vpaddd	%ymm10, %ymm13, %ymm9
	vmovdqa	D(CPI6_2)(%rip), %ymm7
	vpshufb	%ymm7, %ymm6, %ymm1
	vpaddd	%ymm4, %ymm0, %ymm6
	vpshufb	%ymm7, %ymm6, %ymm0
	vpxor	%ymm1, %ymm0, %ymm1
	vpaddd	%ymm14, %ymm9, %ymm9
	vpshufb	%ymm7, %ymm8, %ymm0
	vpshufb	%ymm7, %ymm9, %ymm8
	vpxor	%ymm0, %ymm8, %ymm8
	vpshufd	$164, %ymm2, %ymm0
	vpblendd	$68, 384(%rsp), %ymm0, %ymm0
	vpaddd	%ymm5, %ymm8, %ymm2
	vpxor	%ymm2, %ymm14, %ymm5
	vpsrld	$7, %ymm5, %ymm10
	vpslld	$25, %ymm5, %ymm5
	vpor	%ymm5, %ymm10, %ymm5
	vpaddd	%ymm3, %ymm1, %ymm3
	vpxor	%ymm4, %ymm3, %ymm4
	vpshufd	$147, %ymm6, %ymm6
	vpaddd	-64(%rsp), %ymm6, %ymm6
	vpsrld	$7, %ymm4, %ymm10
	vpslld	$25, %ymm4, %ymm4
	vpor	%ymm4, %ymm10, %ymm4
	vpshufd	$147, %ymm9, %ymm9
	vpaddd	-128(%rsp), %ymm9, %ymm9
	vpaddd	%ymm5, %ymm9, %ymm9
	vpshufb	%ymm15, %ymm9, %ymm10
	vpshufb	%ymm11, %ymm8, %ymm8
	vpxor	%ymm8, %ymm10, %ymm8
	vpshufb	%ymm11, %ymm1, %ymm1
	vpaddd	%ymm4, %ymm6, %ymm6
	vpshufb	%ymm15, %ymm6, %ymm10
	vpxor	%ymm1, %ymm10, %ymm1
	vpshufd	$164, -96(%rsp), %ymm10
	vpshufd	$57, %ymm2, %ymm2
	vpshufd	$57, %ymm3, %ymm3
	vpaddd	%ymm3, %ymm1, %ymm3
	vpaddd	%ymm2, %ymm8, %ymm2
	vpblendd	$68, 416(%rsp), %ymm10, %ymm10
	vpxor	%ymm5, %ymm2, %ymm5
	vpxor	%ymm4, %ymm3, %ymm4
	vpsrld	$12, %ymm4, %ymm11
	vpslld	$20, %ymm4, %ymm4
	vpor	%ymm4, %ymm11, %ymm4
	vpsrld	$12, %ymm5, %ymm11
	vpslld	$20, %ymm5, %ymm5
	vpor	%ymm5, %ymm11, %ymm5
	vpaddd	%ymm6, %ymm10, %ymm6
	vpaddd	%ymm0, %ymm9, %ymm0
	vpaddd	%ymm4, %ymm6, %ymm6
	vpshufb	%ymm7, %ymm6, %ymm9
	vpshufb	%ymm7, %ymm1, %ymm1
	vpxor	%ymm1, %ymm9, %ymm9
	vpaddd	%ymm5, %ymm0, %ymm0
	vpshufb	%ymm7, %ymm8, %ymm1
	vpshufb	%ymm7, %ymm0, %ymm7
	vpxor	%ymm1, %ymm7, %ymm1
	vpaddd	%ymm2, %ymm1, %ymm2
	vpaddd	%ymm3, %ymm9, %ymm3
	vpxor	%ymm4, %ymm3, %ymm4
	vpxor	%ymm5, %ymm2, %ymm5
	vpsrld	$7, %ymm5, %ymm7
	vpslld	$25, %ymm5, %ymm5
	vpor	%ymm7, %ymm5, %ymm5
	vpsrld	$7, %ymm4, %ymm7
	vpslld	$25, %ymm4, %ymm4
	vpor	%ymm7, %ymm4, %ymm4
	vpshufd	$57, %ymm0, %ymm0
	vpshufd	$147, %ymm2, %ymm2
	vpxor	%ymm0, %ymm2, %ymm2
	vpshufd	$57, %ymm6, %ymm0
	vpshufd	$147, %ymm3, %ymm3
	vpxor	%ymm0, %ymm3, %ymm3
	vpshufd	$78, %ymm1, %ymm0
	vpxor	%ymm0, %ymm5, %ymm1
	vpshufd	$78, %ymm9, %ymm0
	vpxor	%ymm0, %ymm4, %ymm0
	addq	$64, %r8
	cmpq	$1024, %r8
	jne	L(6_1)
	vmovdqa	D(CPI6_4)(%rip), %ymm4
	vpermd	%ymm2, %ymm4, %ymm5
	vmovdqa	D(CPI6_5)(%rip), %ymm6
	vpermd	%ymm3, %ymm6, %ymm7
	vpblendd	$204, %ymm7, %ymm5, %ymm5
	vmovdqa	D(CPI6_6)(%rip), %ymm7
	vpermd	%ymm2, %ymm7, %ymm2
	vmovdqa	D(CPI6_7)(%rip), %ymm8
	vpermd	%ymm3, %ymm8, %ymm3
	vpblendd	$204, %ymm3, %ymm2, %ymm2
	vpermd	%ymm1, %ymm4, %ymm3
	vpermd	%ymm0, %ymm6, %ymm4
	vpblendd	$204, %ymm4, %ymm3, %ymm3
	vpermd	%ymm1, %ymm7, %ymm1
	vpermd	%ymm0, %ymm8, %ymm0
	vpblendd	$204, %ymm0, %ymm1, %ymm0
	vmovdqu	%ymm2, (%rdi)
	vmovdqu	%ymm5, 32(%rdi)
	vmovdqu	%ymm0, 64(%rdi)
	vmovdqu	%ymm3, 96(%rdi)
	addq	$744, %rsp
	.cfi_def_cfa_offset 24
	popq	%rbx
	.cfi_def_cfa_offset 16
	popq	%r14
	.cfi_def_cfa_offset 8
	vzeroupper
	retq
	SIZE("keyed_blake3::four_chunks::four_chunk_values")
	.cfi_endproc

SIZED(8, 3)
	.p2align	3, 0x0
D(CPI7_0):
	.quad	-9223372036854775808
SIZED(32, 5)
	.p2align	5, 0x0
D(CPI7_1):
	.quad	-9223372036854775807
	.quad	-9223372036854775806
	.quad	-9223372036854775805
	.quad	-9223372036854775804
D(CPI7_2):
	.quad	2
	.quad	3
	.quad	4
	.quad	5
D(CPI7_3):
	.zero	4
	.zero	4
	.long	64
	.long	18
	.zero	4
	.zero	4
	.long	64
	.long	18
D(CPI7_8):
	.long	0
	.long	0
	.long	64
	.long	20
	.long	0
	.long	0
	.long	64
	.long	20
SIZED(16, 4)
	.p2align	4, 0x0
D(CPI7_4):
	.long	0
	.long	2
	.long	4
	.long	6
D(CPI7_5):
	.long	1
	.long	3
	.long	5
	.long	7
D(CPI7_9):
	.long	0
	.long	0
	.long	64
	.long	20
SIZED(4, 2)
	.p2align	2, 0x0
D(CPI7_6):
	.long	64
D(CPI7_7):
	.long	20
CODE(".text.keyed_blake3::tree::Tree::absorb_subtrees::<#a9687390e0dd665c>")
	.p2align	4
	TYPE("keyed_blake3::tree::Tree::absorb_subtrees::<#a9687390e0dd665c>", function)
"keyed_blake3::tree::Tree::absorb_subtrees::<#a9687390e0dd665c>":
	.cfi_startproc
	pushq	%rbp
	.cfi_def_cfa_offset 16
	pushq	%r15
	.cfi_def_cfa_offset 24
	pushq	%r14
	.cfi_def_cfa_offset 32
	pushq	%r13
	.cfi_def_cfa_offset 40
	pushq	%r12
	.cfi_def_cfa_offset 48
	pushq	%rbx
	.cfi_def_cfa_offset 56
	subq	$1912, %rsp
	.cfi_def_cfa_offset 1968
	.cfi_offset %rbx, -56
	.cfi_offset %r12, -48
	.cfi_offset %r13, -40
	.cfi_offset %r14, -32
	.cfi_offset %r15, -24
	.cfi_offset %rbp, -16
	vxorpd	%xmm0, %xmm0, %xmm0
	vmovupd	%ymm0, 448(%rsp)
	vmovupd	%ymm0, 416(%rsp)
	vmovupd	%ymm0, 384(%rsp)
	vmovupd	%ymm0, 352(%rsp)
	vmovupd	%ymm0, 320(%rsp)
	vmovupd	%ymm0, 288(%rsp)
	vmovupd	%ymm0, 256(%rsp)
	vmovupd	%ymm0, 224(%rsp)
	vmovupd	%ymm0, 64(%rsp)
	vmovupd	%ymm0, 1008(%rsp)
	vmovupd	%ymm0, 1040(%rsp)
	vmovupd	%ymm0, 1072(%rsp)
	vmovupd	%ymm0, 1104(%rsp)
	vmovupd	%ymm0, 1136(%rsp)
	vmovupd	%ymm0, 1168(%rsp)
	vmovupd	%ymm0, 1200(%rsp)
	movq	%rcx, %r13
	movq	%rdx, %r14
	movq	%rsi, %r12
	movq	%rdi, %rbx
	vmovupd	%ymm0, 1232(%rsp)
	cmpq	$2048, %r9
	jne	L(7_4)
	movq	%r14, 744(%rsp)
	movq	%r8, 736(%rsp)
	leaq	1024(%r8), %r15
	leaq	1(%r12), %rbp
	vbroadcastf128	(%rbx), %ymm0
	vbroadcastf128	16(%rbx), %ymm1
	vmovq	%r12, %xmm2
	movl	$64, %eax
	vmovdqu	%ymm2, 1840(%rsp)
	vpinsrd	$2, %eax, %xmm2, %xmm2
	vmovdqa	%xmm2, 1808(%rsp)
	vmovq	%rbp, %xmm2
	vmovdqa	%xmm2, 1776(%rsp)
	vpinsrd	$2, %eax, %xmm2, %xmm2
	vmovdqa	%xmm2, 1792(%rsp)
	xorl	%r14d, %r14d
	.p2align	4
L(7_2):
	cmpq	$1, %r14
	movl	$0, %eax
	adcl	$16, %eax
	vmovups	-1024(%r15,%r14), %ymm2
	vmovups	-992(%r15,%r14), %ymm3
	vmovups	%ymm2, 752(%rsp)
	vmovups	%ymm3, 784(%rsp)
	movq	%r12, 816(%rsp)
	movl	$64, 824(%rsp)
	movl	%eax, 828(%rsp)
	vmovups	(%r15,%r14), %ymm2
	vmovups	32(%r15,%r14), %ymm3
	vmovups	%ymm2, 480(%rsp)
	vmovups	%ymm3, 512(%rsp)
	movq	%rbp, 544(%rsp)
	movl	$64, 552(%rsp)
	vmovdqa	1808(%rsp), %xmm2
	vpinsrd	$3, %eax, %xmm2, %xmm2
	movl	%eax, 556(%rsp)
	vmovdqa	1792(%rsp), %xmm3
	vpinsrd	$3, %eax, %xmm3, %xmm3
	vinserti128	$1, %xmm3, %ymm2, %ymm2
	movq	%rsp, %rdi
	leaq	752(%rsp), %rsi
	leaq	480(%rsp), %rdx
	callq	"keyed_blake3::compression::two::compress_two_from"
	vmovups	(%rsp), %ymm0
	vmovups	32(%rsp), %ymm1
	addq	$64, %r14
	cmpq	$960, %r14
	jne	L(7_2)
	movq	736(%rsp), %rcx
	vmovups	960(%rcx), %ymm2
	vmovups	992(%rcx), %ymm3
	vmovups	%ymm2, 752(%rsp)
	vmovups	%ymm3, 784(%rsp)
	movq	%r12, 816(%rsp)
	movabsq	$77309411392, %rax
	movq	%rax, 824(%rsp)
	vmovups	1984(%rcx), %ymm2
	vmovups	2016(%rcx), %ymm3
	vmovups	%ymm2, 480(%rsp)
	vmovups	%ymm3, 512(%rsp)
	movq	%rbp, 544(%rsp)
	movq	%rax, 552(%rsp)
	vmovups	1840(%rsp), %ymm2
	vinsertf128	$1, 1776(%rsp), %ymm2, %ymm2
	vblendps	$204, D(CPI7_3)(%rip), %ymm2, %ymm2
	movq	%rsp, %rdi
	leaq	752(%rsp), %rsi
	leaq	480(%rsp), %rdx
	callq	"keyed_blake3::compression::two::compress_two_from"
	vmovdqu	(%rsp), %xmm0
	vmovdqu	16(%rsp), %xmm1
	vpunpckldq	%xmm1, %xmm0, %xmm2
	vmovq	%xmm2, 1008(%rsp)
	vpxor	%xmm2, %xmm2, %xmm2
	vmovdqu	%xmm2, 1016(%rsp)
	movq	$0, 1032(%rsp)
	vpshufd	$85, %xmm0, %xmm3
	vpblendd	$2, %xmm1, %xmm3, %xmm3
	vmovq	%xmm3, 1040(%rsp)
	vmovdqu	%xmm2, 1048(%rsp)
	movq	$0, 1064(%rsp)
	vpunpckhdq	%xmm1, %xmm0, %xmm0
	vmovq	%xmm0, 1072(%rsp)
	vmovdqu	%xmm2, 1080(%rsp)
	movq	$0, 1096(%rsp)
	vpextrq	$1, %xmm0, 1104(%rsp)
	vmovdqu	32(%rsp), %xmm0
	vmovdqu	48(%rsp), %xmm1
	vmovdqu	%xmm2, 1112(%rsp)
	movq	$0, 1128(%rsp)
	vpunpckldq	%xmm1, %xmm0, %xmm3
	vmovq	%xmm3, 1136(%rsp)
	vmovdqu	%xmm2, 1144(%rsp)
	movq	$0, 1160(%rsp)
	vpshufd	$85, %xmm0, %xmm3
	vpblendd	$2, %xmm1, %xmm3, %xmm3
	vmovq	%xmm3, 1168(%rsp)
	vmovdqu	%xmm2, 1176(%rsp)
	movq	$0, 1192(%rsp)
	vpunpckhdq	%xmm1, %xmm0, %xmm0
	vmovq	%xmm0, 1200(%rsp)
	vmovdqu	%xmm2, 1208(%rsp)
	movq	$0, 1224(%rsp)
	vpextrq	$1, %xmm0, 1232(%rsp)
	vmovdqu	%xmm2, 1240(%rsp)
	movq	$0, 1256(%rsp)
	movq	1200(%rsp), %rax
	vmovups	1208(%rsp), %xmm0
	vmovups	%xmm0, 1720(%rsp)
	movq	%rax, 1712(%rsp)
	movq	1224(%rsp), %rax
	movq	%rax, 1736(%rsp)
	movq	1168(%rsp), %rax
	movq	%rax, 1680(%rsp)
	vmovups	1176(%rsp), %xmm0
	vmovups	%xmm0, 1688(%rsp)
	movq	1192(%rsp), %rax
	vmovups	1136(%rsp), %ymm0
	vmovups	%ymm0, 1648(%rsp)
	movq	%rax, 1704(%rsp)
	vmovups	1104(%rsp), %ymm0
	vmovups	%ymm0, 1616(%rsp)
	vmovups	1008(%rsp), %ymm0
	vmovups	1040(%rsp), %ymm1
	vmovups	1072(%rsp), %ymm2
	vmovups	1232(%rsp), %ymm3
	vmovups	%ymm3, 1744(%rsp)
	vmovups	%ymm2, 1584(%rsp)
	vmovups	%ymm1, 1552(%rsp)
	vmovups	%ymm0, 1520(%rsp)
	movq	744(%rsp), %r14
	jmp	L(7_8)
L(7_4):
	cmpq	$8192, %r9
	ja	L(7_6)
	shrq	$10, %r9
	xorl	%eax, %eax
	decq	%r9
	setne	%al
	cmpq	$6, %r9
	movl	$6, %ecx
	cmovbq	%r9, %rcx
	movl	$7, %edx
	cmovbeq	%r9, %rdx
	movq	$0, 752(%rsp)
	vmovq	%r9, %xmm0
	vpbroadcastq	%xmm0, %ymm0
	vpbroadcastq	D(CPI7_0)(%rip), %ymm1
	vpxor	%ymm1, %ymm0, %ymm1
	vpcmpgtq	D(CPI7_1)(%rip), %ymm1, %ymm1
	movq	%rax, 760(%rsp)
	vblendvpd	%ymm1, D(CPI7_2)(%rip), %ymm0, %ymm0
	vmovupd	%ymm0, 768(%rsp)
	movq	%rcx, 800(%rsp)
	movq	%rdx, 808(%rsp)
	leaq	1008(%rsp), %rdi
	leaq	752(%rsp), %rcx
	movq	%rbx, %rsi
	movq	%r8, %rdx
	movq	%r12, %r8
	vzeroupper
	callq	"keyed_blake3::chunks::chunk_values::<#a9687390e0dd665c>"
	jmp	L(7_7)
L(7_6):
	shrq	$13, %r9
	leaq	1008(%rsp), %rdi
	movq	%rbx, %rsi
	movq	%r8, %rdx
	xorl	%ecx, %ecx
	movq	%r9, %r8
	movq	%r12, %r9
	vzeroupper
	callq	"keyed_blake3::subtrees::neighbour_values::<#a9687390e0dd665c>"
L(7_7):
	vmovups	1232(%rsp), %ymm0
	vmovups	%ymm0, 1744(%rsp)
	vmovups	1200(%rsp), %ymm0
	vmovups	%ymm0, 1712(%rsp)
	vmovups	1168(%rsp), %ymm0
	vmovups	%ymm0, 1680(%rsp)
	vmovups	1136(%rsp), %ymm0
	vmovups	%ymm0, 1648(%rsp)
	vmovups	1008(%rsp), %ymm0
	vmovups	1040(%rsp), %ymm1
	vmovups	1072(%rsp), %ymm2
	vmovups	1104(%rsp), %ymm3
	vmovups	%ymm3, 1616(%rsp)
	vmovups	%ymm2, 1584(%rsp)
	vmovups	%ymm1, 1552(%rsp)
	vmovups	%ymm0, 1520(%rsp)
L(7_8):
	vmovups	1520(%rsp), %ymm0
	vmovups	1552(%rsp), %ymm1
	vmovdqu	1584(%rsp), %ymm2
	vmovdqu	1616(%rsp), %ymm3
	vmovups	%ymm0, 224(%rsp)
	vmovups	%ymm1, 256(%rsp)
	vmovdqu	%ymm2, 288(%rsp)
	vmovdqu	%ymm3, 320(%rsp)
	vmovups	1648(%rsp), %ymm0
	vmovups	%ymm0, 352(%rsp)
	vmovups	1680(%rsp), %ymm0
	vmovups	%ymm0, 384(%rsp)
	vmovups	1712(%rsp), %ymm0
	vmovups	%ymm0, 416(%rsp)
	vmovups	1744(%rsp), %ymm0
	vmovups	%ymm0, 448(%rsp)
	testq	%r14, %r14
	je	L(7_29)
	movq	%r12, %rax
	orq	%r14, %rax
	shrq	$32, %rax
	je	L(7_10)
	movq	%r12, %rax
	xorl	%edx, %edx
	divq	%r14
	movq	%rax, %r15
	jmp	L(7_12)
L(7_10):
	movl	%r12d, %eax
	xorl	%edx, %edx
	divl	%r14d
	movl	%eax, %r15d
L(7_12):
	vxorps	%xmm0, %xmm0, %xmm0
	vmovaps	%xmm0, 208(%rsp)
	vmovaps	%xmm0, 192(%rsp)
	vmovaps	%xmm0, 176(%rsp)
	vmovaps	%xmm0, 160(%rsp)
	vmovaps	%xmm0, 144(%rsp)
	vmovaps	%xmm0, 128(%rsp)
	vmovaps	%xmm0, 112(%rsp)
	vmovaps	%xmm0, 96(%rsp)
	cmpq	$3, %r13
	jb	L(7_13)
	movl	%r15d, %eax
	orl	%r13d, %eax
	andl	$1, %eax
	jne	L(7_13)
	leaq	304(%rsp), %rbp
	.p2align	4
L(7_16):
	vxorps	%xmm0, %xmm0, %xmm0
	vmovaps	%xmm0, 720(%rsp)
	vmovaps	%xmm0, 704(%rsp)
	vmovaps	%xmm0, 688(%rsp)
	vmovaps	%xmm0, 672(%rsp)
	vmovaps	%xmm0, 656(%rsp)
	vmovaps	%xmm0, 640(%rsp)
	vmovaps	%xmm0, 624(%rsp)
	vmovaps	%xmm0, 608(%rsp)
	vxorps	%xmm0, %xmm0, %xmm0
	vmovups	%ymm0, 480(%rsp)
	vmovups	%ymm0, 512(%rsp)
	vmovups	%ymm0, 544(%rsp)
	vmovups	%ymm0, 576(%rsp)
	cmpq	$4, %r13
	ja	L(7_18)
	vmovaps	256(%rsp), %xmm0
	vmovaps	224(%rsp), %xmm1
	vunpcklps	%xmm0, %xmm1, %xmm2
	vmovaps	320(%rsp), %xmm3
	vbroadcastss	%xmm3, %xmm4
	vmovaps	288(%rsp), %xmm5
	vbroadcastss	%xmm5, %xmm6
	vunpcklps	%xmm4, %xmm6, %xmm4
	vblendps	$12, %xmm4, %xmm2, %xmm2
	vmovaps	384(%rsp), %xmm4
	vmovaps	352(%rsp), %xmm6
	vunpcklps	%xmm4, %xmm6, %xmm7
	vinsertf128	$1, %xmm7, %ymm0, %ymm7
	vmovaps	448(%rsp), %xmm8
	vbroadcastss	%xmm8, %xmm9
	vmovaps	416(%rsp), %xmm10
	vbroadcastss	%xmm10, %xmm11
	vunpcklps	%xmm9, %xmm11, %xmm9
	vinsertf128	$1, %xmm9, %ymm0, %ymm9
	vblendps	$192, %ymm9, %ymm7, %ymm7
	vblendps	$15, %ymm2, %ymm7, %ymm2
	vunpcklps	%xmm3, %xmm5, %xmm3
	vshufps	$85, %xmm1, %xmm1, %xmm1
	vblendps	$2, %xmm0, %xmm1, %xmm0
	vblendps	$12, %xmm3, %xmm0, %xmm0
	vunpcklps	%xmm8, %xmm10, %xmm1
	vinsertf128	$1, %xmm1, %ymm0, %ymm1
	vshufps	$85, %xmm6, %xmm6, %xmm3
	vblendps	$2, %xmm4, %xmm3, %xmm3
	vinsertf128	$1, %xmm3, %ymm0, %ymm3
	vblendps	$192, %ymm1, %ymm3, %ymm1
	vblendps	$15, %ymm0, %ymm1, %ymm0
	vmovups	%ymm0, 1040(%rsp)
	vmovups	%ymm2, 1008(%rsp)
	movq	$0, 1072(%rsp)
	movabsq	$85899345984, %rax
	movq	%rax, 1080(%rsp)
	vmovq	456(%rsp), %xmm0
	vmovdqu	264(%rsp), %xmm1
	vmovdqu	232(%rsp), %xmm2
	vpunpckldq	%xmm1, %xmm2, %xmm3
	vmovdqu	328(%rsp), %xmm4
	vpbroadcastd	%xmm4, %xmm5
	vmovdqu	296(%rsp), %xmm6
	vpbroadcastd	%xmm6, %xmm7
	vpunpckldq	%xmm5, %xmm7, %xmm5
	vpblendd	$12, %xmm5, %xmm3, %xmm3
	vmovdqu	392(%rsp), %xmm5
	vmovdqu	360(%rsp), %xmm7
	vpunpckldq	%xmm5, %xmm7, %xmm8
	vinserti128	$1, %xmm8, %ymm0, %ymm8
	vpbroadcastd	%xmm0, %xmm9
	vmovdqu	424(%rsp), %xmm10
	vpbroadcastd	%xmm10, %xmm11
	vpunpckldq	%xmm9, %xmm11, %xmm9
	vinserti128	$1, %xmm9, %ymm0, %ymm9
	vpblendd	$192, %ymm9, %ymm8, %ymm8
	vpblendd	$15, %ymm3, %ymm8, %ymm3
	vpunpckldq	%xmm4, %xmm6, %xmm4
	vpshufd	$85, %xmm2, %xmm2
	vpblendd	$2, %xmm1, %xmm2, %xmm1
	vpblendd	$12, %xmm4, %xmm1, %xmm1
	vpunpckldq	%xmm0, %xmm10, %xmm0
	vinserti128	$1, %xmm0, %ymm0, %ymm0
	vpshufd	$85, %xmm7, %xmm2
	vpblendd	$2, %xmm5, %xmm2, %xmm2
	vinserti128	$1, %xmm2, %ymm0, %ymm2
	vpblendd	$192, %ymm0, %ymm2, %ymm0
	vpblendd	$15, %ymm1, %ymm0, %ymm0
	vmovdqu	%ymm0, 784(%rsp)
	vmovdqu	%ymm3, 752(%rsp)
	movq	$0, 816(%rsp)
	movq	%rax, 824(%rsp)
	vbroadcastf128	(%rbx), %ymm0
	vbroadcastf128	16(%rbx), %ymm1
	vbroadcastf128	D(CPI7_9)(%rip), %ymm2
	movq	%rsp, %rdi
	leaq	1008(%rsp), %rsi
	leaq	752(%rsp), %rdx
	callq	"keyed_blake3::compression::two::compress_two_from"
	vmovdqa	(%rsp), %xmm0
	vmovdqu	4(%rsp), %xmm2
	vmovdqu	8(%rsp), %xmm4
	vmovdqu	12(%rsp), %xmm5
	vmovdqa	32(%rsp), %xmm6
	vmovdqu	36(%rsp), %xmm7
	vmovdqu	40(%rsp), %xmm8
	vmovdqu	44(%rsp), %xmm9
	vpinsrd	$1, 16(%rsp), %xmm0, %xmm1
	vpinsrd	$1, 20(%rsp), %xmm2, %xmm3
	vpinsrd	$1, 24(%rsp), %xmm4, %xmm0
	vpinsrd	$1, 28(%rsp), %xmm5, %xmm2
	vpinsrd	$1, 48(%rsp), %xmm6, %xmm4
	vpinsrd	$1, 52(%rsp), %xmm7, %xmm5
	vpinsrd	$1, 56(%rsp), %xmm8, %xmm6
	vpinsrd	$1, 60(%rsp), %xmm9, %xmm7
	vpxor	%xmm8, %xmm8, %xmm8
	vmovdqa	%xmm8, 208(%rsp)
	vmovdqa	%xmm8, 192(%rsp)
	vmovdqa	%xmm8, 176(%rsp)
	vmovdqa	%xmm8, 160(%rsp)
	vmovdqa	%xmm8, 144(%rsp)
	vmovdqa	%xmm8, 128(%rsp)
	vmovdqa	%xmm8, 112(%rsp)
	vmovdqa	%xmm8, 96(%rsp)
	xorl	%eax, %eax
	xorl	%edx, %edx
	xorl	%ecx, %ecx
	xorl	%esi, %esi
	xorl	%edi, %edi
	xorl	%r8d, %r8d
	xorl	%r9d, %r9d
	xorl	%r10d, %r10d
	jmp	L(7_22)
	.p2align	4
L(7_18):
	cmpq	$8, %r13
	ja	L(7_20)
	vmovups	(%rbx), %xmm0
	vmovups	16(%rbx), %xmm1
	leaq	480(%rsp), %rdi
	leaq	224(%rsp), %rsi
	vzeroupper
	callq	"keyed_blake3::subtrees::four_parent_values::<#a9687390e0dd665c>"
	vmovq	512(%rsp), %xmm0
	movq	520(%rsp), %rcx
	vmovq	528(%rsp), %xmm2
	movq	536(%rsp), %rsi
	vmovq	544(%rsp), %xmm4
	movq	552(%rsp), %rdi
	vmovq	560(%rsp), %xmm5
	movq	568(%rsp), %r8
	vmovq	576(%rsp), %xmm6
	movq	584(%rsp), %r9
	vmovq	592(%rsp), %xmm7
	movq	600(%rsp), %r10
	vpxor	%xmm8, %xmm8, %xmm8
	vmovdqa	%xmm8, 720(%rsp)
	vmovq	480(%rsp), %xmm1
	movq	488(%rsp), %rax
	movq	504(%rsp), %rdx
	vmovdqa	%xmm8, 704(%rsp)
	vmovq	496(%rsp), %xmm3
	vmovdqa	%xmm8, 688(%rsp)
	vmovdqa	%xmm8, 672(%rsp)
	vmovdqa	%xmm8, 656(%rsp)
	vmovdqa	%xmm8, 640(%rsp)
	vmovdqa	%xmm8, 624(%rsp)
	vmovdqa	%xmm8, 608(%rsp)
	vmovdqa	%xmm8, 208(%rsp)
	vmovdqa	%xmm8, 192(%rsp)
	vmovdqa	%xmm8, 176(%rsp)
	vmovdqa	%xmm8, 160(%rsp)
	vmovdqa	%xmm8, 144(%rsp)
	vmovdqa	%xmm8, 128(%rsp)
	vmovdqa	%xmm8, 112(%rsp)
	jmp	L(7_21)
	.p2align	4
L(7_20):
	vbroadcasti128	D(CPI7_4)(%rip), %ymm0
	vmovdqu	224(%rsp), %ymm1
	vmovdqu	256(%rsp), %ymm2
	vmovdqu	288(%rsp), %ymm3
	vmovdqu	320(%rsp), %ymm4
	vpermd	%ymm1, %ymm0, %ymm5
	vbroadcasti128	D(CPI7_5)(%rip), %ymm6
	vpermd	%ymm1, %ymm6, %ymm1
	vmovdqu	%ymm1, 1808(%rsp)
	vpermd	%ymm2, %ymm0, %ymm7
	vpermd	%ymm2, %ymm6, %ymm2
	vpermd	%ymm3, %ymm0, %ymm8
	vpermd	%ymm3, %ymm6, %ymm3
	vpermd	%ymm4, %ymm0, %ymm9
	vpermd	%ymm4, %ymm6, %ymm4
	vmovdqu	352(%rsp), %ymm10
	vpermd	%ymm10, %ymm0, %ymm11
	vpermd	%ymm10, %ymm6, %ymm10
	vmovdqu	384(%rsp), %ymm12
	vpermd	%ymm12, %ymm0, %ymm13
	vpermd	%ymm12, %ymm6, %ymm12
	vmovdqu	416(%rsp), %ymm14
	vpermd	%ymm14, %ymm0, %ymm15
	vpermd	%ymm14, %ymm6, %ymm14
	vmovdqu	448(%rsp), %ymm1
	vpermd	%ymm1, %ymm0, %ymm0
	vpermd	%ymm1, %ymm6, %ymm1
	vmovdqu	%ymm5, 1008(%rsp)
	vmovdqu	%ymm7, 1040(%rsp)
	vmovdqu	%ymm8, 1072(%rsp)
	vmovdqu	%ymm9, 1104(%rsp)
	vmovdqu	%ymm11, 1136(%rsp)
	vmovdqu	%ymm13, 1168(%rsp)
	vmovdqu	%ymm15, 1200(%rsp)
	vmovdqu	%ymm0, 1232(%rsp)
	vmovups	1808(%rsp), %ymm0
	vmovups	%ymm0, 1264(%rsp)
	vmovdqu	%ymm2, 1296(%rsp)
	vmovdqu	%ymm3, 1328(%rsp)
	vmovdqu	%ymm4, 1360(%rsp)
	vmovdqu	%ymm10, 1392(%rsp)
	vmovdqu	%ymm12, 1424(%rsp)
	vmovdqu	%ymm14, 1456(%rsp)
	vmovdqu	%ymm1, 1488(%rsp)
	vbroadcastss	D(CPI7_6)(%rip), %ymm0
	vmovups	%ymm0, (%rsp)
	vbroadcastss	D(CPI7_7)(%rip), %ymm0
	vmovups	%ymm0, 1880(%rsp)
	vbroadcastss	(%rbx), %ymm0
	vbroadcastss	4(%rbx), %ymm1
	vbroadcastss	8(%rbx), %ymm2
	vbroadcastss	12(%rbx), %ymm3
	vbroadcastss	16(%rbx), %ymm4
	vbroadcastss	20(%rbx), %ymm5
	vbroadcastss	24(%rbx), %ymm6
	vbroadcastss	28(%rbx), %ymm7
	vmovups	%ymm0, 752(%rsp)
	vmovups	%ymm1, 784(%rsp)
	vmovups	%ymm2, 816(%rsp)
	vmovups	%ymm3, 848(%rsp)
	vmovups	%ymm4, 880(%rsp)
	vmovups	%ymm5, 912(%rsp)
	vmovups	%ymm6, 944(%rsp)
	vmovups	%ymm7, 976(%rsp)
	leaq	752(%rsp), %rdi
	leaq	1008(%rsp), %rsi
	movq	%rsp, %rdx
	leaq	1880(%rsp), %rcx
	vzeroupper
	callq	"keyed_blake3::compression::lanes::take_in_each::<#a9687390e0dd665c>"
	vmovq	752(%rsp), %xmm1
	leaq	832(%rsp), %rdi
	vmovups	-64(%rdi), %xmm0
	vmovaps	%xmm0, 720(%rsp)
	movq	760(%rsp), %rax
	vmovups	-32(%rdi), %xmm0
	vmovaps	%xmm0, 704(%rsp)
	movq	792(%rsp), %rdx
	vmovups	(%rdi), %xmm0
	vmovaps	%xmm0, 688(%rsp)
	vmovq	784(%rsp), %xmm3
	vmovups	32(%rdi), %xmm0
	vmovaps	%xmm0, 672(%rsp)
	vmovq	816(%rsp), %xmm0
	vmovups	64(%rdi), %xmm2
	vmovaps	%xmm2, 656(%rsp)
	movq	824(%rsp), %rcx
	vmovups	96(%rdi), %xmm2
	vmovaps	%xmm2, 640(%rsp)
	vmovq	848(%rsp), %xmm2
	vmovups	128(%rdi), %xmm4
	vmovaps	%xmm4, 624(%rsp)
	movq	856(%rsp), %rsi
	vmovups	160(%rdi), %xmm4
	vmovaps	%xmm4, 608(%rsp)
	vmovq	880(%rsp), %xmm4
	vmovaps	720(%rsp), %xmm5
	vmovaps	%xmm5, 208(%rsp)
	movq	888(%rsp), %rdi
	vmovaps	704(%rsp), %xmm5
	vmovaps	%xmm5, 192(%rsp)
	vmovq	912(%rsp), %xmm5
	vmovaps	688(%rsp), %xmm6
	vmovaps	%xmm6, 176(%rsp)
	movq	920(%rsp), %r8
	vmovaps	672(%rsp), %xmm6
	vmovaps	%xmm6, 160(%rsp)
	vmovq	944(%rsp), %xmm6
	vmovaps	656(%rsp), %xmm7
	vmovaps	%xmm7, 144(%rsp)
	movq	952(%rsp), %r9
	vmovaps	640(%rsp), %xmm7
	vmovaps	%xmm7, 128(%rsp)
	vmovq	976(%rsp), %xmm7
	vmovaps	624(%rsp), %xmm8
	vmovaps	%xmm8, 112(%rsp)
	movq	984(%rsp), %r10
	vmovdqa	608(%rsp), %xmm8
L(7_21):
	vmovdqa	%xmm8, 96(%rsp)
L(7_22):
	vmovq	%xmm1, 224(%rsp)
	movq	%rax, 232(%rsp)
	vmovaps	208(%rsp), %xmm1
	vmovups	%xmm1, -64(%rbp)
	vmovq	%xmm3, 256(%rsp)
	movq	%rdx, 264(%rsp)
	vmovaps	192(%rsp), %xmm1
	vmovups	%xmm1, -32(%rbp)
	vmovq	%xmm0, 288(%rsp)
	movq	%rcx, 296(%rsp)
	vmovaps	176(%rsp), %xmm0
	vmovups	%xmm0, (%rbp)
	vmovq	%xmm2, 320(%rsp)
	movq	%rsi, 328(%rsp)
	vmovaps	160(%rsp), %xmm0
	vmovups	%xmm0, 32(%rbp)
	vmovq	%xmm4, 352(%rsp)
	movq	%rdi, 360(%rsp)
	vmovaps	144(%rsp), %xmm0
	vmovups	%xmm0, 64(%rbp)
	vmovq	%xmm5, 384(%rsp)
	movq	%r8, 392(%rsp)
	vmovaps	128(%rsp), %xmm0
	vmovups	%xmm0, 96(%rbp)
	vmovq	%xmm6, 416(%rsp)
	movq	%r9, 424(%rsp)
	vmovaps	112(%rsp), %xmm0
	vmovups	%xmm0, 128(%rbp)
	vmovq	%xmm7, 448(%rsp)
	movq	%r10, 456(%rsp)
	vmovaps	96(%rsp), %xmm0
	vmovups	%xmm0, 160(%rbp)
	movq	%r15, %r12
	shrq	%r12
	movq	%r13, %r14
	shrq	%r14
	cmpq	$5, %r13
	jb	L(7_25)
	andl	$2, %r13d
	jne	L(7_25)
	movq	%r14, %r13
	andl	$2, %r15d
	movq	%r12, %r15
	je	L(7_16)
	jmp	L(7_25)
L(7_13):
	movq	%r13, %r14
	movq	%r15, %r12
L(7_25):
	movq	%r14, %rbp
	decq	%rbp
	je	L(7_28)
	leaq	64(%rbx), %r15
	xorl	%r13d, %r13d
	.p2align	4
L(7_27):
	movl	224(%rsp,%r13,4), %eax
	movl	256(%rsp,%r13,4), %ecx
	movl	288(%rsp,%r13,4), %edx
	movl	320(%rsp,%r13,4), %esi
	movl	352(%rsp,%r13,4), %edi
	movl	384(%rsp,%r13,4), %r8d
	movl	416(%rsp,%r13,4), %r9d
	movl	448(%rsp,%r13,4), %r10d
	movl	%eax, 1008(%rsp)
	movl	%ecx, 1012(%rsp)
	movl	%edx, 1016(%rsp)
	movl	%esi, 1020(%rsp)
	movl	%edi, 1024(%rsp)
	movl	%r8d, 1028(%rsp)
	movl	%r9d, 1032(%rsp)
	movl	%r10d, 1036(%rsp)
	leaq	(%r12,%r13), %rdx
	leaq	1008(%rsp), %rcx
	movq	%r15, %rdi
	movq	%rbx, %rsi
	xorl	%r8d, %r8d
	vzeroupper
	callq	"keyed_blake3::tree::add_subtree_value"
	incq	%r13
	cmpq	%r13, %rbp
	jne	L(7_27)
L(7_28):
	movl	220(%rsp,%r14,4), %eax
	movl	252(%rsp,%r14,4), %ecx
	movl	284(%rsp,%r14,4), %edx
	movl	316(%rsp,%r14,4), %esi
	movl	348(%rsp,%r14,4), %edi
	movl	380(%rsp,%r14,4), %r8d
	movl	412(%rsp,%r14,4), %r9d
	movl	444(%rsp,%r14,4), %r10d
	movl	%eax, 64(%rsp)
	movl	%ecx, 68(%rsp)
	movl	%edx, 72(%rsp)
	movl	%esi, 76(%rsp)
	movl	%edi, 80(%rsp)
	movl	%r8d, 84(%rsp)
	movl	%r9d, 88(%rsp)
	movl	%r10d, 92(%rsp)
	addq	%rbp, %r12
	leaq	64(%rbx), %rdi
	leaq	64(%rsp), %rcx
	movq	%rbx, %rsi
	movq	%r12, %rdx
	movq	1968(%rsp), %r8
	vzeroupper
	callq	"keyed_blake3::tree::add_subtree_value"
	addq	$1912, %rsp
	.cfi_def_cfa_offset 56
	popq	%rbx
	.cfi_def_cfa_offset 48
	popq	%r12
	.cfi_def_cfa_offset 40
	popq	%r13
	.cfi_def_cfa_offset 32
	popq	%r14
	.cfi_def_cfa_offset 24
	popq	%r15
	.cfi_def_cfa_offset 16
	popq	%rbp
	.cfi_def_cfa_offset 8
	retq
L(7_29):
	.cfi_def_cfa_offset 1968
	ud2
	SIZE("keyed_blake3::tree::Tree::absorb_subtrees::<#a9687390e0dd665c>")
	.cfi_endproc

SIZED(32, 5)
	.p2align	5, 0x0
D(CPI8_0):
	.byte	2
	.byte	3
	.byte	0
	.byte	1
	.byte	6
	.byte	7
	.byte	4
	.byte	5
	.byte	10
	.byte	11
	.byte	8
	.byte	9
	.byte	14
	.byte	15
	.byte	12
	.byte	13
	.byte	18
	.byte	19
	.byte	16
	.byte	17
	.byte	22
	.byte	23
	.byte	20
	.byte	21
	.byte	26
	.byte	27
	.byte	24
	.byte	25
	.byte	30
	.byte	31
	.byte	28
	.byte	29
D(CPI8_1):
	.byte	0
	.byte	0
	.byte	64
	.byte	0
	.byte	0
	.byte	0
	.byte	64
	.byte	0
	.byte	0
	.byte	0
	.byte	64
	.byte	0
	.byte	0
	.byte	0
	.byte	64
	.byte	0
	.byte	0
	.byte	0
	.byte	64
	.byte	0
	.byte	0
	.byte	0
	.byte	64
	.byte	0
	.byte	0
	.byte	0
	.byte	64
	.byte	0
	.byte	0
	.byte	0
	.byte	64
	.byte	0
D(CPI8_5):
	.byte	1
	.byte	2
	.byte	3
	.byte	0
	.byte	5
	.byte	6
	.byte	7
	.byte	4
	.byte	9
	.byte	10
	.byte	11
	.byte	8
	.byte	13
	.byte	14
	.byte	15
	.byte	12
	.byte	1
	.byte	2
	.byte	3
	.byte	0
	.byte	5
	.byte	6
	.byte	7
	.byte	4
	.byte	9
	.byte	10
	.byte	11
	.byte	8
	.byte	13
	.byte	14
	.byte	15
	.byte	12
SIZED(4, 2)
	.p2align	2, 0x0
D(CPI8_2):
	.long	3144134277
D(CPI8_3):
	.long	1013904242
D(CPI8_4):
	.long	2773480762
SIZED(16, 4)
	.p2align	4, 0x0
D(CPI8_6):
	.byte	1
	.byte	2
	.byte	3
	.byte	0
	.byte	5
	.byte	6
	.byte	7
	.byte	4
	.byte	9
	.byte	10
	.byte	11
	.byte	8
	.byte	13
	.byte	14
	.byte	15
	.byte	12
CODE(".text.keyed_blake3::chunks::chunk_values::<#a9687390e0dd665c>")
	.p2align	4
	TYPE("keyed_blake3::chunks::chunk_values::<#a9687390e0dd665c>", function)
"keyed_blake3::chunks::chunk_values::<#a9687390e0dd665c>":
	.cfi_startproc
	pushq	%rbp
	.cfi_def_cfa_offset 16
	.cfi_offset %rbp, -16
	movq	%rsp, %rbp
	.cfi_def_cfa_register %rbp
	pushq	%r15
	pushq	%r14
	pushq	%r13
	pushq	%r12
	pushq	%rbx
	andq	$-32, %rsp
	subq	$992, %rsp
	.cfi_offset %rbx, -56
	.cfi_offset %r12, -48
	.cfi_offset %r13, -40
	.cfi_offset %r14, -32
	.cfi_offset %r15, -24
	vmovq	%r8, %xmm0
	vpbroadcastq	%xmm0, %ymm0
	vpaddq	32(%rcx), %ymm0, %ymm1
	movq	%rdi, 760(%rsp)
	vpaddq	(%rcx), %ymm0, %ymm0
	vshufps	$221, %ymm1, %ymm0, %ymm2
	vpermpd	$216, %ymm2, %ymm2
	vmovaps	%ymm2, 864(%rsp)
	vshufps	$136, %ymm1, %ymm0, %ymm0
	vpermpd	$216, %ymm0, %ymm0
	vmovaps	%ymm0, 832(%rsp)
	vpbroadcastd	(%rsi), %ymm13
	vpbroadcastd	4(%rsi), %ymm11
	vpbroadcastd	8(%rsi), %ymm4
	vpbroadcastd	12(%rsi), %ymm7
	vpbroadcastd	16(%rsi), %ymm3
	vpbroadcastd	20(%rsi), %ymm2
	vpbroadcastd	24(%rsi), %ymm1
	vpbroadcastd	28(%rsi), %ymm0
	movq	(%rcx), %rax
	movq	8(%rcx), %rsi
	shlq	$10, %rax
	shlq	$10, %rsi
	movq	16(%rcx), %rdi
	shlq	$10, %rdi
	movq	24(%rcx), %r8
	shlq	$10, %r8
	movq	32(%rcx), %r9
	shlq	$10, %r9
	movq	40(%rcx), %r10
	shlq	$10, %r10
	movq	48(%rcx), %r11
	shlq	$10, %r11
	movq	56(%rcx), %rcx
	shlq	$10, %rcx
	addq	%rdx, %rax
	addq	$32, %rax
	movq	%rax, 792(%rsp)
	leaq	32(%rsi,%rdx), %rax
	movq	%rax, 784(%rsp)
	leaq	32(%rdi,%rdx), %rax
	movq	%rax, 776(%rsp)
	leaq	32(%r8,%rdx), %rax
	movq	%rax, 768(%rsp)
	leaq	32(%r9,%rdx), %rbx
	leaq	(%r10,%rdx), %r14
	addq	$32, %r14
	leaq	(%r11,%rdx), %r15
	addq	$32, %r15
	leaq	(%rcx,%rdx), %r12
	addq	$32, %r12
	xorl	%r13d, %r13d
	.p2align	4
L(8_1):
	vmovdqa	%ymm13, 896(%rsp)
	vmovdqa	%ymm7, 160(%rsp)
	vmovdqa	%ymm0, 192(%rsp)
	vmovdqa	%ymm3, 128(%rsp)
	vmovdqa	%ymm11, (%rsp)
	vmovdqa	%ymm4, 32(%rsp)
	vmovdqa	%ymm1, 64(%rsp)
	vmovdqa	%ymm2, 96(%rsp)
	movq	792(%rsp), %rax
	vmovups	-32(%rax,%r13), %ymm2
	vmovups	(%rax,%r13), %ymm0
	prefetcht0	128(%rax,%r13)
	movq	784(%rsp), %rax
	vmovups	-32(%rax,%r13), %ymm3
	vmovups	(%rax,%r13), %ymm1
	prefetcht0	128(%rax,%r13)
	vunpcklps	%ymm3, %ymm2, %ymm7
	vunpckhps	%ymm3, %ymm2, %ymm8
	movq	776(%rsp), %rax
	vmovups	-32(%rax,%r13), %ymm4
	vmovups	(%rax,%r13), %ymm2
	prefetcht0	128(%rax,%r13)
	movq	768(%rsp), %rax
	vmovups	-32(%rax,%r13), %ymm5
	vmovups	(%rax,%r13), %ymm3
	prefetcht0	128(%rax,%r13)
	vunpcklps	%ymm5, %ymm4, %ymm9
	vunpckhps	%ymm5, %ymm4, %ymm10
	vmovups	-32(%rbx,%r13), %ymm6
	vmovups	(%rbx,%r13), %ymm4
	prefetcht0	128(%rbx,%r13)
	vmovups	-32(%r14,%r13), %ymm11
	vmovups	(%r14,%r13), %ymm5
	prefetcht0	128(%r14,%r13)
	vunpcklps	%ymm11, %ymm6, %ymm12
	vunpckhps	%ymm11, %ymm6, %ymm11
	vmovups	-32(%r15,%r13), %ymm13
	vmovups	(%r15,%r13), %ymm6
	prefetcht0	128(%r15,%r13)
	vmovups	-32(%r12,%r13), %ymm14
	vunpcklps	%ymm14, %ymm13, %ymm15
	vunpckhps	%ymm14, %ymm13, %ymm13
	vunpcklpd	%ymm9, %ymm7, %ymm14
	vunpckhpd	%ymm9, %ymm7, %ymm7
	vunpcklpd	%ymm10, %ymm8, %ymm9
	vunpckhpd	%ymm10, %ymm8, %ymm8
	vunpcklpd	%ymm15, %ymm12, %ymm10
	vunpckhpd	%ymm15, %ymm12, %ymm12
	vunpcklpd	%ymm13, %ymm11, %ymm15
	vunpckhpd	%ymm13, %ymm11, %ymm11
	vinsertf128	$1, %xmm10, %ymm14, %ymm13
	vmovaps	%ymm13, 384(%rsp)
	vperm2f128	$49, %ymm10, %ymm14, %ymm10
	vmovaps	%ymm10, 704(%rsp)
	vinsertf128	$1, %xmm12, %ymm7, %ymm10
	vmovaps	%ymm10, 288(%rsp)
	vperm2f128	$49, %ymm12, %ymm7, %ymm7
	vmovaps	%ymm7, 224(%rsp)
	vinsertf128	$1, %xmm15, %ymm9, %ymm7
	vmovaps	%ymm7, 512(%rsp)
	vperm2f128	$49, %ymm15, %ymm9, %ymm7
	vmovaps	%ymm7, 416(%rsp)
	vinsertf128	$1, %xmm11, %ymm8, %ymm7
	vmovaps	%ymm7, 480(%rsp)
	vperm2f128	$49, %ymm11, %ymm8, %ymm7
	vmovaps	%ymm7, 448(%rsp)
	vunpcklps	%ymm1, %ymm0, %ymm7
	vunpckhps	%ymm1, %ymm0, %ymm0
	vunpcklps	%ymm3, %ymm2, %ymm1
	vunpckhps	%ymm3, %ymm2, %ymm2
	vunpcklps	%ymm5, %ymm4, %ymm3
	vunpckhps	%ymm5, %ymm4, %ymm4
	vmovups	(%r12,%r13), %ymm5
	prefetcht0	128(%r12,%r13)
	vunpcklps	%ymm5, %ymm6, %ymm8
	vunpckhps	%ymm5, %ymm6, %ymm5
	vunpcklpd	%ymm1, %ymm7, %ymm6
	vunpckhpd	%ymm1, %ymm7, %ymm1
	vunpcklpd	%ymm2, %ymm0, %ymm7
	vunpckhpd	%ymm2, %ymm0, %ymm0
	vunpcklpd	%ymm8, %ymm3, %ymm2
	vunpckhpd	%ymm8, %ymm3, %ymm3
	vunpcklpd	%ymm5, %ymm4, %ymm8
	vunpckhpd	%ymm5, %ymm4, %ymm4
	vinsertf128	$1, %xmm2, %ymm6, %ymm5
	vmovaps	%ymm5, 576(%rsp)
	vperm2f128	$49, %ymm2, %ymm6, %ymm2
	vmovaps	%ymm2, 672(%rsp)
	vinsertf128	$1, %xmm3, %ymm1, %ymm2
	vmovaps	%ymm2, 352(%rsp)
	vperm2f128	$49, %ymm3, %ymm1, %ymm1
	vmovaps	%ymm1, 640(%rsp)
	vinsertf128	$1, %xmm8, %ymm7, %ymm1
	vmovaps	%ymm1, 544(%rsp)
	vperm2f128	$49, %ymm8, %ymm7, %ymm1
	vmovaps	%ymm1, 608(%rsp)
	vinsertf128	$1, %xmm4, %ymm0, %ymm1
	vmovaps	%ymm1, 256(%rsp)
	vperm2f128	$49, %ymm4, %ymm0, %ymm0
	vmovaps	%ymm0, 320(%rsp)
	cmpq	$1, %r13
	movl	$0, %eax
	adcl	$16, %eax
	cmpq	$960, %r13
	movl	$18, %ecx
	cmovnel	%eax, %ecx
	vmovd	%ecx, %xmm0
	vpbroadcastd	%xmm0, %ymm0
	vmovdqa	%ymm0, 800(%rsp)
	leaq	928(%rsp), %rdi
	vzeroupper
	callq	"keyed_blake3::compression::lanes::each_by_call::<=8>"
	vmovdqa	192(%rsp), %ymm5
	vpaddd	160(%rsp), %ymm5, %ymm0
	vpaddd	416(%rsp), %ymm0, %ymm1
	vmovdqa	%ymm1, 160(%rsp)
	vmovdqa	D(CPI8_0)(%rip), %ymm2
	vmovdqa	800(%rsp), %ymm0
	vpshufb	%ymm2, %ymm0, %ymm0
	vpshufb	%ymm2, %ymm1, %ymm1
	vpxor	%ymm0, %ymm1, %ymm8
	vmovdqa	%ymm8, 800(%rsp)
	vmovdqa	128(%rsp), %ymm1
	vpaddd	896(%rsp), %ymm1, %ymm0
	vpaddd	384(%rsp), %ymm0, %ymm10
	vpxor	832(%rsp), %ymm10, %ymm0
	vpshufb	%ymm2, %ymm0, %ymm11
	vpaddd	928(%rsp), %ymm11, %ymm6
	vpxor	%ymm1, %ymm6, %ymm0
	vpsrld	$12, %ymm0, %ymm1
	vpslld	$20, %ymm0, %ymm0
	vpor	%ymm1, %ymm0, %ymm14
	vmovdqa	96(%rsp), %ymm12
	vpaddd	(%rsp), %ymm12, %ymm0
	vpaddd	512(%rsp), %ymm0, %ymm3
	vmovdqa	64(%rsp), %ymm4
	vpaddd	32(%rsp), %ymm4, %ymm0
	vpaddd	704(%rsp), %ymm0, %ymm1
	vmovdqa	%ymm1, 32(%rsp)
	vpxor	864(%rsp), %ymm3, %ymm0
	vpshufb	%ymm2, %ymm0, %ymm9
	vpshufb	%ymm2, %ymm1, %ymm0
	vpxor	D(CPI8_1)(%rip), %ymm0, %ymm7
	vpbroadcastd	D(CPI8_2)(%rip), %ymm0
	vpaddd	%ymm0, %ymm9, %ymm1
	vpxor	%ymm1, %ymm12, %ymm0
	vpsrld	$12, %ymm0, %ymm2
	vpslld	$20, %ymm0, %ymm0
	vpor	%ymm2, %ymm0, %ymm15
	vpbroadcastd	D(CPI8_3)(%rip), %ymm0
	vpaddd	%ymm0, %ymm7, %ymm12
	vpxor	%ymm4, %ymm12, %ymm0
	vpsrld	$12, %ymm0, %ymm2
	vpslld	$20, %ymm0, %ymm0
	vpor	%ymm2, %ymm0, %ymm13
	vpbroadcastd	D(CPI8_4)(%rip), %ymm0
	vpaddd	%ymm0, %ymm8, %ymm4
	vpxor	%ymm5, %ymm4, %ymm2
	vpsrld	$12, %ymm2, %ymm0
	vpslld	$20, %ymm2, %ymm2
	vpor	%ymm0, %ymm2, %ymm2
	vpaddd	480(%rsp), %ymm3, %ymm0
	vpaddd	%ymm0, %ymm15, %ymm0
	vmovdqa	%ymm0, 64(%rsp)
	vpxor	%ymm0, %ymm9, %ymm0
	vbroadcasti128	D(CPI8_6)(%rip), %ymm5
	vpshufb	%ymm5, %ymm0, %ymm0
	vmovdqa	%ymm0, 96(%rsp)
	vpaddd	%ymm0, %ymm1, %ymm9
	vpxor	%ymm15, %ymm9, %ymm0
	vpsrld	$7, %ymm0, %ymm1
	vpslld	$25, %ymm0, %ymm0
	vpor	%ymm1, %ymm0, %ymm8
	vpaddd	288(%rsp), %ymm10, %ymm0
	vpaddd	%ymm0, %ymm14, %ymm0
	vpxor	%ymm0, %ymm11, %ymm10
	vpshufb	%ymm5, %ymm10, %ymm10
	vmovdqa	%ymm5, %ymm1
	vpaddd	%ymm6, %ymm10, %ymm3
	vmovdqa	%ymm3, (%rsp)
	vpxor	%ymm3, %ymm14, %ymm11
	vpsrld	$7, %ymm11, %ymm14
	vpslld	$25, %ymm11, %ymm11
	vpor	%ymm14, %ymm11, %ymm14
	vmovdqa	160(%rsp), %ymm3
	vpaddd	448(%rsp), %ymm3, %ymm11
	vpaddd	%ymm2, %ymm11, %ymm15
	vpxor	800(%rsp), %ymm15, %ymm5
	vmovdqa	%ymm1, %ymm3
	vpshufb	%ymm1, %ymm5, %ymm1
	vpaddd	%ymm1, %ymm4, %ymm11
	vpxor	%ymm2, %ymm11, %ymm2
	vpsrld	$7, %ymm2, %ymm4
	vpslld	$25, %ymm2, %ymm2
	vpor	%ymm4, %ymm2, %ymm2
	vmovdqa	%ymm2, 128(%rsp)
	vpaddd	576(%rsp), %ymm8, %ymm2
	vpaddd	%ymm0, %ymm2, %ymm2
	vmovdqa	%ymm2, 192(%rsp)
	vmovdqa	32(%rsp), %ymm0
	vpaddd	224(%rsp), %ymm0, %ymm0
	vpaddd	%ymm0, %ymm13, %ymm5
	vpxor	%ymm5, %ymm7, %ymm0
	vpshufb	%ymm3, %ymm0, %ymm6
	vpaddd	%ymm6, %ymm12, %ymm7
	vpxor	%ymm7, %ymm13, %ymm0
	vpsrld	$7, %ymm0, %ymm4
	vpslld	$25, %ymm0, %ymm0
	vpor	%ymm4, %ymm0, %ymm0
	vpxor	%ymm2, %ymm1, %ymm1
	vmovdqa	D(CPI8_0)(%rip), %ymm13
	vpshufb	%ymm13, %ymm1, %ymm4
	vpaddd	%ymm4, %ymm7, %ymm7
	vpxor	%ymm7, %ymm8, %ymm1
	vpsrld	$12, %ymm1, %ymm3
	vpslld	$20, %ymm1, %ymm1
	vpor	%ymm3, %ymm1, %ymm1
	vpaddd	608(%rsp), %ymm15, %ymm3
	vpaddd	%ymm3, %ymm14, %ymm12
	vpxor	%ymm6, %ymm12, %ymm3
	vpshufb	%ymm13, %ymm3, %ymm15
	vmovdqa	%ymm13, %ymm8
	vpaddd	%ymm15, %ymm9, %ymm2
	vmovdqa	%ymm2, 160(%rsp)
	vpxor	%ymm2, %ymm14, %ymm3
	vpsrld	$12, %ymm3, %ymm6
	vpslld	$20, %ymm3, %ymm3
	vpor	%ymm6, %ymm3, %ymm6
	vmovdqa	64(%rsp), %ymm3
	vpaddd	544(%rsp), %ymm3, %ymm3
	vpaddd	%ymm0, %ymm3, %ymm13
	vpxor	%ymm13, %ymm10, %ymm3
	vpshufb	%ymm8, %ymm3, %ymm14
	vpaddd	%ymm14, %ymm11, %ymm9
	vpxor	%ymm0, %ymm9, %ymm0
	vpsrld	$12, %ymm0, %ymm3
	vpslld	$20, %ymm0, %ymm0
	vpor	%ymm3, %ymm0, %ymm3
	vpaddd	672(%rsp), %ymm5, %ymm0
	vmovdqa	128(%rsp), %ymm2
	vpaddd	%ymm2, %ymm0, %ymm10
	vpxor	96(%rsp), %ymm10, %ymm0
	vpshufb	%ymm8, %ymm0, %ymm11
	vpaddd	(%rsp), %ymm11, %ymm8
	vpxor	%ymm2, %ymm8, %ymm0
	vpsrld	$12, %ymm0, %ymm2
	vpslld	$20, %ymm0, %ymm0
	vpor	%ymm2, %ymm0, %ymm5
	vmovdqa	192(%rsp), %ymm0
	vpaddd	352(%rsp), %ymm0, %ymm0
	vpaddd	%ymm1, %ymm0, %ymm0
	vmovdqa	%ymm0, 32(%rsp)
	vpxor	%ymm0, %ymm4, %ymm0
	vbroadcasti128	D(CPI8_6)(%rip), %ymm2
	vpshufb	%ymm2, %ymm0, %ymm0
	vmovdqa	%ymm0, 96(%rsp)
	vpaddd	%ymm0, %ymm7, %ymm0
	vmovdqa	%ymm0, 64(%rsp)
	vpxor	%ymm1, %ymm0, %ymm0
	vpsrld	$7, %ymm0, %ymm1
	vpslld	$25, %ymm0, %ymm0
	vpor	%ymm1, %ymm0, %ymm4
	vpaddd	320(%rsp), %ymm12, %ymm0
	vpaddd	%ymm6, %ymm0, %ymm0
	vmovdqa	%ymm0, (%rsp)
	vpxor	%ymm0, %ymm15, %ymm0
	vpshufb	%ymm2, %ymm0, %ymm0
	vmovdqa	%ymm0, 192(%rsp)
	vmovdqa	%ymm2, %ymm12
	vpaddd	160(%rsp), %ymm0, %ymm0
	vpxor	%ymm6, %ymm0, %ymm1
	vpsrld	$7, %ymm1, %ymm2
	vpslld	$25, %ymm1, %ymm1
	vpor	%ymm2, %ymm1, %ymm2
	vpaddd	256(%rsp), %ymm13, %ymm1
	vpaddd	%ymm3, %ymm1, %ymm7
	vpxor	%ymm7, %ymm14, %ymm1
	vpshufb	%ymm12, %ymm1, %ymm1
	vpaddd	%ymm1, %ymm9, %ymm6
	vmovdqa	%ymm6, 128(%rsp)
	vpxor	%ymm3, %ymm6, %ymm3
	vpsrld	$7, %ymm3, %ymm6
	vpslld	$25, %ymm3, %ymm3
	vpor	%ymm6, %ymm3, %ymm3
	vpaddd	640(%rsp), %ymm10, %ymm6
	vpaddd	%ymm5, %ymm6, %ymm6
	vpxor	%ymm6, %ymm11, %ymm9
	vpshufb	%ymm12, %ymm9, %ymm9
	vpaddd	%ymm9, %ymm8, %ymm8
	vpxor	%ymm5, %ymm8, %ymm5
	vpsrld	$7, %ymm5, %ymm10
	vpslld	$25, %ymm5, %ymm5
	vpor	%ymm5, %ymm10, %ymm5
	vpaddd	480(%rsp), %ymm7, %ymm7
	vpaddd	%ymm4, %ymm7, %ymm12
	vpxor	%ymm12, %ymm9, %ymm7
	vmovdqa	D(CPI8_0)(%rip), %ymm10
	vpshufb	%ymm10, %ymm7, %ymm7
	vpaddd	%ymm7, %ymm0, %ymm0
	vmovdqa	%ymm0, 160(%rsp)
	vpxor	%ymm4, %ymm0, %ymm0
	vpsrld	$12, %ymm0, %ymm4
	vpslld	$20, %ymm0, %ymm0
	vpor	%ymm4, %ymm0, %ymm0
	vmovdqa	32(%rsp), %ymm4
	vpaddd	512(%rsp), %ymm4, %ymm4
	vpaddd	%ymm2, %ymm4, %ymm4
	vpxor	%ymm4, %ymm1, %ymm1
	vpshufb	%ymm10, %ymm1, %ymm15
	vpaddd	%ymm15, %ymm8, %ymm1
	vmovdqa	%ymm1, 32(%rsp)
	vpxor	%ymm2, %ymm1, %ymm1
	vpsrld	$12, %ymm1, %ymm2
	vpslld	$20, %ymm1, %ymm1
	vpor	%ymm2, %ymm1, %ymm1
	vpaddd	448(%rsp), %ymm6, %ymm2
	vpaddd	%ymm3, %ymm2, %ymm13
	vpxor	192(%rsp), %ymm13, %ymm2
	vpshufb	%ymm10, %ymm2, %ymm9
	vmovdqa	%ymm10, %ymm8
	vpaddd	64(%rsp), %ymm9, %ymm10
	vpxor	%ymm3, %ymm10, %ymm2
	vpsrld	$12, %ymm2, %ymm3
	vpslld	$20, %ymm2, %ymm2
	vpor	%ymm3, %ymm2, %ymm6
	vmovdqa	(%rsp), %ymm2
	vpaddd	704(%rsp), %ymm2, %ymm3
	vpaddd	%ymm5, %ymm3, %ymm14
	vpxor	96(%rsp), %ymm14, %ymm3
	vpshufb	%ymm8, %ymm3, %ymm8
	vpaddd	128(%rsp), %ymm8, %ymm11
	vpxor	%ymm5, %ymm11, %ymm3
	vpsrld	$12, %ymm3, %ymm5
	vpslld	$20, %ymm3, %ymm3
	vpor	%ymm5, %ymm3, %ymm3
	vpaddd	544(%rsp), %ymm12, %ymm5
	vpaddd	%ymm0, %ymm5, %ymm2
	vmovdqa	%ymm2, 64(%rsp)
	vpxor	%ymm2, %ymm7, %ymm5
	vbroadcasti128	D(CPI8_6)(%rip), %ymm12
	vpshufb	%ymm12, %ymm5, %ymm2
	vmovdqa	%ymm2, 96(%rsp)
	vpaddd	160(%rsp), %ymm2, %ymm5
	vpxor	%ymm0, %ymm5, %ymm0
	vpsrld	$7, %ymm0, %ymm7
	vpslld	$25, %ymm0, %ymm0
	vpor	%ymm7, %ymm0, %ymm2
	vpaddd	416(%rsp), %ymm4, %ymm4
	vpaddd	%ymm1, %ymm4, %ymm7
	vpxor	%ymm7, %ymm15, %ymm4
	vpshufb	%ymm12, %ymm4, %ymm4
	vmovdqa	%ymm4, (%rsp)
	vpaddd	32(%rsp), %ymm4, %ymm4
	vmovdqa	%ymm4, 32(%rsp)
	vpxor	%ymm1, %ymm4, %ymm1
	vpsrld	$7, %ymm1, %ymm4
	vpslld	$25, %ymm1, %ymm1
	vpor	%ymm4, %ymm1, %ymm1
	vpaddd	384(%rsp), %ymm13, %ymm4
	vpaddd	%ymm6, %ymm4, %ymm13
	vpxor	%ymm13, %ymm9, %ymm4
	vpshufb	%ymm12, %ymm4, %ymm9
	vpaddd	%ymm9, %ymm10, %ymm0
	vpxor	%ymm6, %ymm0, %ymm4
	vpsrld	$7, %ymm4, %ymm6
	vpslld	$25, %ymm4, %ymm4
	vpor	%ymm6, %ymm4, %ymm6
	vpaddd	640(%rsp), %ymm14, %ymm4
	vpaddd	%ymm3, %ymm4, %ymm4
	vpxor	%ymm4, %ymm8, %ymm8
	vpshufb	%ymm12, %ymm8, %ymm8
	vpaddd	%ymm8, %ymm11, %ymm10
	vpxor	%ymm3, %ymm10, %ymm3
	vpsrld	$7, %ymm3, %ymm11
	vpslld	$25, %ymm3, %ymm3
	vpor	%ymm3, %ymm11, %ymm3
	vpaddd	288(%rsp), %ymm7, %ymm7
	vpaddd	%ymm2, %ymm7, %ymm7
	vpxor	%ymm7, %ymm8, %ymm8
	vmovdqa	D(CPI8_0)(%rip), %ymm11
	vpshufb	%ymm11, %ymm8, %ymm15
	vpaddd	%ymm0, %ymm15, %ymm0
	vmovdqa	%ymm0, 128(%rsp)
	vpxor	%ymm2, %ymm0, %ymm0
	vpsrld	$12, %ymm0, %ymm2
	vpslld	$20, %ymm0, %ymm0
	vpor	%ymm2, %ymm0, %ymm0
	vpaddd	320(%rsp), %ymm4, %ymm2
	vpaddd	%ymm1, %ymm2, %ymm4
	vpxor	%ymm4, %ymm9, %ymm2
	vpshufb	%ymm11, %ymm2, %ymm14
	vpaddd	%ymm5, %ymm14, %ymm8
	vpxor	%ymm1, %ymm8, %ymm1
	vpsrld	$12, %ymm1, %ymm2
	vpslld	$20, %ymm1, %ymm1
	vpor	%ymm2, %ymm1, %ymm5
	vmovdqa	64(%rsp), %ymm1
	vpaddd	672(%rsp), %ymm1, %ymm1
	vpaddd	%ymm6, %ymm1, %ymm12
	vpxor	(%rsp), %ymm12, %ymm1
	vpshufb	%ymm11, %ymm1, %ymm9
	vpaddd	%ymm9, %ymm10, %ymm10
	vpxor	%ymm6, %ymm10, %ymm1
	vpsrld	$12, %ymm1, %ymm2
	vpslld	$20, %ymm1, %ymm1
	vpor	%ymm2, %ymm1, %ymm6
	vpaddd	352(%rsp), %ymm13, %ymm1
	vpaddd	%ymm3, %ymm1, %ymm13
	vpxor	96(%rsp), %ymm13, %ymm1
	vpshufb	%ymm11, %ymm1, %ymm2
	vpaddd	32(%rsp), %ymm2, %ymm11
	vpxor	%ymm3, %ymm11, %ymm1
	vpsrld	$12, %ymm1, %ymm3
	vpslld	$20, %ymm1, %ymm1
	vpor	%ymm3, %ymm1, %ymm1
	vpaddd	256(%rsp), %ymm7, %ymm3
	vpaddd	%ymm0, %ymm3, %ymm3
	vmovdqa	%ymm3, 32(%rsp)
	vpxor	%ymm3, %ymm15, %ymm3
	vbroadcasti128	D(CPI8_6)(%rip), %ymm7
	vpshufb	%ymm7, %ymm3, %ymm3
	vmovdqa	%ymm3, 96(%rsp)
	vpaddd	128(%rsp), %ymm3, %ymm3
	vmovdqa	%ymm3, 64(%rsp)
	vpxor	%ymm0, %ymm3, %ymm0
	vpsrld	$7, %ymm0, %ymm3
	vpslld	$25, %ymm0, %ymm0
	vpor	%ymm3, %ymm0, %ymm0
	vpaddd	576(%rsp), %ymm4, %ymm3
	vpaddd	%ymm5, %ymm3, %ymm15
	vpxor	%ymm15, %ymm14, %ymm3
	vmovdqa	%ymm7, %ymm14
	vpshufb	%ymm7, %ymm3, %ymm7
	vpaddd	%ymm7, %ymm8, %ymm4
	vpxor	%ymm5, %ymm4, %ymm3
	vpsrld	$7, %ymm3, %ymm5
	vpslld	$25, %ymm3, %ymm3
	vpor	%ymm5, %ymm3, %ymm8
	vpaddd	224(%rsp), %ymm12, %ymm3
	vpaddd	%ymm6, %ymm3, %ymm3
	vpxor	%ymm3, %ymm9, %ymm5
	vpshufb	%ymm14, %ymm5, %ymm12
	vpaddd	%ymm12, %ymm10, %ymm5
	vmovdqa	%ymm5, (%rsp)
	vpxor	%ymm6, %ymm5, %ymm5
	vpsrld	$7, %ymm5, %ymm6
	vpslld	$25, %ymm5, %ymm5
	vpor	%ymm6, %ymm5, %ymm10
	vpaddd	608(%rsp), %ymm13, %ymm5
	vpaddd	%ymm1, %ymm5, %ymm9
	vpxor	%ymm2, %ymm9, %ymm2
	vpshufb	%ymm14, %ymm2, %ymm2
	vpaddd	%ymm2, %ymm11, %ymm6
	vpxor	%ymm1, %ymm6, %ymm1
	vpsrld	$7, %ymm1, %ymm5
	vpslld	$25, %ymm1, %ymm1
	vpor	%ymm5, %ymm1, %ymm11
	vpaddd	544(%rsp), %ymm3, %ymm1
	vpaddd	%ymm0, %ymm1, %ymm5
	vpxor	%ymm5, %ymm2, %ymm1
	vmovdqa	D(CPI8_0)(%rip), %ymm13
	vpshufb	%ymm13, %ymm1, %ymm3
	vpaddd	%ymm3, %ymm4, %ymm1
	vpxor	%ymm0, %ymm1, %ymm0
	vpsrld	$12, %ymm0, %ymm2
	vpslld	$20, %ymm0, %ymm0
	vpor	%ymm2, %ymm0, %ymm0
	vmovdqa	32(%rsp), %ymm2
	vpaddd	480(%rsp), %ymm2, %ymm2
	vpaddd	%ymm2, %ymm8, %ymm4
	vpxor	%ymm4, %ymm12, %ymm2
	vpshufb	%ymm13, %ymm2, %ymm14
	vpaddd	%ymm6, %ymm14, %ymm6
	vpxor	%ymm6, %ymm8, %ymm2
	vpsrld	$12, %ymm2, %ymm8
	vpslld	$20, %ymm2, %ymm2
	vpor	%ymm2, %ymm8, %ymm2
	vpaddd	640(%rsp), %ymm9, %ymm8
	vpaddd	%ymm10, %ymm8, %ymm12
	vpxor	%ymm7, %ymm12, %ymm7
	vpshufb	%ymm13, %ymm7, %ymm8
	vpaddd	64(%rsp), %ymm8, %ymm7
	vmovdqa	%ymm7, 128(%rsp)
	vpxor	%ymm7, %ymm10, %ymm7
	vpsrld	$12, %ymm7, %ymm9
	vpslld	$20, %ymm7, %ymm7
	vpor	%ymm7, %ymm9, %ymm7
	vpaddd	448(%rsp), %ymm15, %ymm9
	vpaddd	%ymm11, %ymm9, %ymm10
	vpxor	96(%rsp), %ymm10, %ymm9
	vpshufb	%ymm13, %ymm9, %ymm15
	vpaddd	(%rsp), %ymm15, %ymm9
	vmovdqa	%ymm9, (%rsp)
	vpxor	%ymm11, %ymm9, %ymm9
	vpsrld	$12, %ymm9, %ymm11
	vpslld	$20, %ymm9, %ymm9
	vpor	%ymm11, %ymm9, %ymm9
	vpaddd	672(%rsp), %ymm5, %ymm5
	vpaddd	%ymm0, %ymm5, %ymm5
	vmovdqa	%ymm5, 64(%rsp)
	vpxor	%ymm5, %ymm3, %ymm3
	vbroadcasti128	D(CPI8_6)(%rip), %ymm13
	vpshufb	%ymm13, %ymm3, %ymm3
	vmovdqa	%ymm3, 96(%rsp)
	vpaddd	%ymm3, %ymm1, %ymm5
	vpxor	%ymm0, %ymm5, %ymm0
	vpsrld	$7, %ymm0, %ymm1
	vpslld	$25, %ymm0, %ymm0
	vpor	%ymm1, %ymm0, %ymm3
	vpaddd	704(%rsp), %ymm4, %ymm0
	vpaddd	%ymm2, %ymm0, %ymm0
	vpxor	%ymm0, %ymm14, %ymm4
	vpshufb	%ymm13, %ymm4, %ymm11
	vpaddd	%ymm6, %ymm11, %ymm1
	vmovdqa	%ymm1, 32(%rsp)
	vpxor	%ymm2, %ymm1, %ymm2
	vpsrld	$7, %ymm2, %ymm4
	vpslld	$25, %ymm2, %ymm2
	vpor	%ymm4, %ymm2, %ymm6
	vpaddd	512(%rsp), %ymm12, %ymm2
	vpaddd	%ymm7, %ymm2, %ymm12
	vpxor	%ymm12, %ymm8, %ymm2
	vpshufb	%ymm13, %ymm2, %ymm2
	vpaddd	128(%rsp), %ymm2, %ymm1
	vpxor	%ymm7, %ymm1, %ymm4
	vpsrld	$7, %ymm4, %ymm7
	vpslld	$25, %ymm4, %ymm4
	vpor	%ymm7, %ymm4, %ymm7
	vpaddd	608(%rsp), %ymm10, %ymm4
	vpaddd	%ymm4, %ymm9, %ymm4
	vpxor	%ymm4, %ymm15, %ymm8
	vpshufb	%ymm13, %ymm8, %ymm13
	vpaddd	(%rsp), %ymm13, %ymm8
	vpxor	%ymm9, %ymm8, %ymm9
	vpsrld	$7, %ymm9, %ymm10
	vpslld	$25, %ymm9, %ymm9
	vpor	%ymm10, %ymm9, %ymm10
	vpaddd	416(%rsp), %ymm0, %ymm0
	vpaddd	%ymm3, %ymm0, %ymm0
	vmovdqa	%ymm0, 160(%rsp)
	vpxor	%ymm0, %ymm13, %ymm9
	vmovdqa	D(CPI8_0)(%rip), %ymm0
	vpshufb	%ymm0, %ymm9, %ymm14
	vpaddd	%ymm1, %ymm14, %ymm9
	vpxor	%ymm3, %ymm9, %ymm1
	vpsrld	$12, %ymm1, %ymm3
	vpslld	$20, %ymm1, %ymm1
	vpor	%ymm3, %ymm1, %ymm1
	vpaddd	576(%rsp), %ymm4, %ymm3
	vpaddd	%ymm6, %ymm3, %ymm4
	vpxor	%ymm4, %ymm2, %ymm2
	vpshufb	%ymm0, %ymm2, %ymm13
	vpaddd	%ymm5, %ymm13, %ymm2
	vmovdqa	%ymm2, (%rsp)
	vpxor	%ymm6, %ymm2, %ymm2
	vpsrld	$12, %ymm2, %ymm3
	vpslld	$20, %ymm2, %ymm2
	vpor	%ymm3, %ymm2, %ymm2
	vmovdqa	64(%rsp), %ymm3
	vpaddd	352(%rsp), %ymm3, %ymm3
	vpaddd	%ymm7, %ymm3, %ymm6
	vpxor	%ymm6, %ymm11, %ymm3
	vpshufb	%ymm0, %ymm3, %ymm15
	vpaddd	%ymm15, %ymm8, %ymm3
	vmovdqa	%ymm3, 128(%rsp)
	vpxor	%ymm7, %ymm3, %ymm3
	vpsrld	$12, %ymm3, %ymm5
	vpslld	$20, %ymm3, %ymm3
	vpor	%ymm5, %ymm3, %ymm5
	vpaddd	256(%rsp), %ymm12, %ymm3
	vpaddd	%ymm3, %ymm10, %ymm12
	vpxor	96(%rsp), %ymm12, %ymm3
	vpshufb	%ymm0, %ymm3, %ymm11
	vpaddd	32(%rsp), %ymm11, %ymm0
	vmovdqa	%ymm0, 192(%rsp)
	vpxor	%ymm0, %ymm10, %ymm7
	vpsrld	$12, %ymm7, %ymm8
	vpslld	$20, %ymm7, %ymm7
	vpor	%ymm7, %ymm8, %ymm7
	vmovdqa	160(%rsp), %ymm0
	vpaddd	224(%rsp), %ymm0, %ymm0
	vpaddd	%ymm1, %ymm0, %ymm3
	vpxor	%ymm3, %ymm14, %ymm0
	vmovdqa	%ymm3, %ymm14
	vbroadcasti128	D(CPI8_6)(%rip), %ymm10
	vpshufb	%ymm10, %ymm0, %ymm0
	vmovdqa	%ymm0, 96(%rsp)
	vpaddd	%ymm0, %ymm9, %ymm0
	vmovdqa	%ymm0, 64(%rsp)
	vpxor	%ymm1, %ymm0, %ymm0
	vpsrld	$7, %ymm0, %ymm1
	vpslld	$25, %ymm0, %ymm0
	vpor	%ymm1, %ymm0, %ymm3
	vpaddd	288(%rsp), %ymm4, %ymm1
	vpaddd	%ymm2, %ymm1, %ymm0
	vmovdqa	%ymm0, 32(%rsp)
	vpxor	%ymm0, %ymm13, %ymm1
	vpshufb	%ymm10, %ymm1, %ymm13
	vpaddd	(%rsp), %ymm13, %ymm4
	vpxor	%ymm2, %ymm4, %ymm1
	vpsrld	$7, %ymm1, %ymm2
	vpslld	$25, %ymm1, %ymm1
	vpor	%ymm2, %ymm1, %ymm9
	vpaddd	384(%rsp), %ymm6, %ymm1
	vpaddd	%ymm5, %ymm1, %ymm0
	vpxor	%ymm0, %ymm15, %ymm1
	vpshufb	%ymm10, %ymm1, %ymm1
	vpaddd	128(%rsp), %ymm1, %ymm6
	vpxor	%ymm5, %ymm6, %ymm2
	vpsrld	$7, %ymm2, %ymm5
	vpslld	$25, %ymm2, %ymm2
	vpor	%ymm5, %ymm2, %ymm5
	vpaddd	320(%rsp), %ymm12, %ymm2
	vpaddd	%ymm7, %ymm2, %ymm2
	vpxor	%ymm2, %ymm11, %ymm8
	vpshufb	%ymm10, %ymm8, %ymm10
	vpaddd	192(%rsp), %ymm10, %ymm8
	vpxor	%ymm7, %ymm8, %ymm7
	vpsrld	$7, %ymm7, %ymm11
	vpslld	$25, %ymm7, %ymm7
	vpor	%ymm7, %ymm11, %ymm11
	vpaddd	672(%rsp), %ymm0, %ymm0
	vpaddd	%ymm3, %ymm0, %ymm7
	vpxor	%ymm7, %ymm10, %ymm0
	vmovdqa	D(CPI8_0)(%rip), %ymm12
	vpshufb	%ymm12, %ymm0, %ymm10
	vpaddd	%ymm4, %ymm10, %ymm0
	vmovdqa	%ymm0, 192(%rsp)
	vpxor	%ymm3, %ymm0, %ymm0
	vpsrld	$12, %ymm0, %ymm3
	vpslld	$20, %ymm0, %ymm0
	vpor	%ymm3, %ymm0, %ymm0
	vpaddd	544(%rsp), %ymm14, %ymm3
	vpaddd	%ymm3, %ymm9, %ymm4
	vpxor	%ymm4, %ymm1, %ymm1
	vpshufb	%ymm12, %ymm1, %ymm15
	vmovdqa	%ymm12, %ymm14
	vpaddd	%ymm15, %ymm8, %ymm1
	vmovdqa	%ymm1, (%rsp)
	vpxor	%ymm1, %ymm9, %ymm1
	vpsrld	$12, %ymm1, %ymm3
	vpslld	$20, %ymm1, %ymm1
	vpor	%ymm3, %ymm1, %ymm1
	vpaddd	608(%rsp), %ymm2, %ymm2
	vpaddd	%ymm5, %ymm2, %ymm12
	vpxor	%ymm12, %ymm13, %ymm2
	vpshufb	%ymm14, %ymm2, %ymm3
	vpaddd	64(%rsp), %ymm3, %ymm2
	vmovdqa	%ymm2, 128(%rsp)
	vpxor	%ymm5, %ymm2, %ymm5
	vpsrld	$12, %ymm5, %ymm9
	vpslld	$20, %ymm5, %ymm5
	vpor	%ymm5, %ymm9, %ymm5
	vmovdqa	32(%rsp), %ymm2
	vpaddd	640(%rsp), %ymm2, %ymm9
	vpaddd	%ymm11, %ymm9, %ymm13
	vpxor	96(%rsp), %ymm13, %ymm9
	vpshufb	%ymm14, %ymm9, %ymm8
	vpaddd	%ymm6, %ymm8, %ymm9
	vpxor	%ymm11, %ymm9, %ymm6
	vpsrld	$12, %ymm6, %ymm11
	vpslld	$20, %ymm6, %ymm6
	vpor	%ymm6, %ymm11, %ymm6
	vpaddd	352(%rsp), %ymm7, %ymm7
	vpaddd	%ymm0, %ymm7, %ymm2
	vmovdqa	%ymm2, 64(%rsp)
	vpxor	%ymm2, %ymm10, %ymm7
	vbroadcasti128	D(CPI8_6)(%rip), %ymm10
	vpshufb	%ymm10, %ymm7, %ymm2
	vmovdqa	%ymm2, 96(%rsp)
	vpaddd	192(%rsp), %ymm2, %ymm11
	vpxor	%ymm0, %ymm11, %ymm0
	vpsrld	$7, %ymm0, %ymm7
	vpslld	$25, %ymm0, %ymm0
	vpor	%ymm7, %ymm0, %ymm2
	vpaddd	448(%rsp), %ymm4, %ymm4
	vpaddd	%ymm1, %ymm4, %ymm0
	vpxor	%ymm0, %ymm15, %ymm4
	vpshufb	%ymm10, %ymm4, %ymm7
	vpaddd	(%rsp), %ymm7, %ymm4
	vmovdqa	%ymm4, 32(%rsp)
	vpxor	%ymm1, %ymm4, %ymm1
	vpsrld	$7, %ymm1, %ymm4
	vpslld	$25, %ymm1, %ymm1
	vpor	%ymm4, %ymm1, %ymm15
	vpaddd	480(%rsp), %ymm12, %ymm1
	vpaddd	%ymm5, %ymm1, %ymm12
	vpxor	%ymm3, %ymm12, %ymm1
	vpshufb	%ymm10, %ymm1, %ymm1
	vpaddd	128(%rsp), %ymm1, %ymm3
	vpxor	%ymm5, %ymm3, %ymm4
	vpsrld	$7, %ymm4, %ymm5
	vpslld	$25, %ymm4, %ymm4
	vpor	%ymm5, %ymm4, %ymm5
	vpaddd	320(%rsp), %ymm13, %ymm4
	vpaddd	%ymm6, %ymm4, %ymm4
	vpxor	%ymm4, %ymm8, %ymm8
	vpshufb	%ymm10, %ymm8, %ymm8
	vpaddd	%ymm8, %ymm9, %ymm10
	vpxor	%ymm6, %ymm10, %ymm6
	vpsrld	$7, %ymm6, %ymm9
	vpslld	$25, %ymm6, %ymm6
	vpor	%ymm6, %ymm9, %ymm6
	vpaddd	704(%rsp), %ymm0, %ymm0
	vpaddd	%ymm2, %ymm0, %ymm9
	vpxor	%ymm9, %ymm8, %ymm0
	vmovdqa	%ymm14, %ymm8
	vpshufb	%ymm14, %ymm0, %ymm14
	vpaddd	%ymm3, %ymm14, %ymm0
	vmovdqa	%ymm0, 128(%rsp)
	vpxor	%ymm2, %ymm0, %ymm0
	vpsrld	$12, %ymm0, %ymm2
	vpslld	$20, %ymm0, %ymm0
	vpor	%ymm2, %ymm0, %ymm0
	vpaddd	288(%rsp), %ymm4, %ymm2
	vpaddd	%ymm2, %ymm15, %ymm4
	vpxor	%ymm4, %ymm1, %ymm1
	vpshufb	%ymm8, %ymm1, %ymm13
	vmovdqa	%ymm8, %ymm3
	vpaddd	%ymm13, %ymm11, %ymm1
	vmovdqa	%ymm1, (%rsp)
	vpxor	%ymm1, %ymm15, %ymm1
	vpsrld	$12, %ymm1, %ymm2
	vpslld	$20, %ymm1, %ymm1
	vpor	%ymm2, %ymm1, %ymm1
	vmovdqa	64(%rsp), %ymm2
	vpaddd	256(%rsp), %ymm2, %ymm2
	vpaddd	%ymm5, %ymm2, %ymm8
	vpxor	%ymm7, %ymm8, %ymm2
	vpshufb	%ymm3, %ymm2, %ymm15
	vmovdqa	%ymm3, %ymm7
	vpaddd	%ymm15, %ymm10, %ymm10
	vpxor	%ymm5, %ymm10, %ymm2
	vpsrld	$12, %ymm2, %ymm3
	vpslld	$20, %ymm2, %ymm2
	vpor	%ymm3, %ymm2, %ymm5
	vpaddd	224(%rsp), %ymm12, %ymm2
	vpaddd	%ymm6, %ymm2, %ymm12
	vpxor	96(%rsp), %ymm12, %ymm2
	vpshufb	%ymm7, %ymm2, %ymm3
	vpaddd	32(%rsp), %ymm3, %ymm11
	vpxor	%ymm6, %ymm11, %ymm2
	vpsrld	$12, %ymm2, %ymm6
	vpslld	$20, %ymm2, %ymm2
	vpor	%ymm6, %ymm2, %ymm7
	vpaddd	384(%rsp), %ymm9, %ymm2
	vpaddd	%ymm0, %ymm2, %ymm2
	vmovdqa	%ymm2, 32(%rsp)
	vpxor	%ymm2, %ymm14, %ymm6
	vbroadcasti128	D(CPI8_6)(%rip), %ymm9
	vpshufb	%ymm9, %ymm6, %ymm2
	vmovdqa	%ymm2, 96(%rsp)
	vpaddd	128(%rsp), %ymm2, %ymm2
	vmovdqa	%ymm2, 64(%rsp)
	vpxor	%ymm0, %ymm2, %ymm0
	vpsrld	$7, %ymm0, %ymm6
	vpslld	$25, %ymm0, %ymm0
	vpor	%ymm6, %ymm0, %ymm2
	vpaddd	416(%rsp), %ymm4, %ymm4
	vpaddd	%ymm1, %ymm4, %ymm14
	vpxor	%ymm14, %ymm13, %ymm4
	vpshufb	%ymm9, %ymm4, %ymm13
	vpaddd	(%rsp), %ymm13, %ymm4
	vpxor	%ymm1, %ymm4, %ymm1
	vpsrld	$7, %ymm1, %ymm6
	vpslld	$25, %ymm1, %ymm1
	vpor	%ymm6, %ymm1, %ymm6
	vpaddd	512(%rsp), %ymm8, %ymm1
	vpaddd	%ymm5, %ymm1, %ymm0
	vpxor	%ymm0, %ymm15, %ymm1
	vpshufb	%ymm9, %ymm1, %ymm1
	vpaddd	%ymm1, %ymm10, %ymm8
	vmovdqa	%ymm8, (%rsp)
	vpxor	%ymm5, %ymm8, %ymm5
	vpsrld	$7, %ymm5, %ymm8
	vpslld	$25, %ymm5, %ymm5
	vpor	%ymm5, %ymm8, %ymm5
	vpaddd	576(%rsp), %ymm12, %ymm8
	vpaddd	%ymm7, %ymm8, %ymm12
	vpxor	%ymm3, %ymm12, %ymm3
	vpshufb	%ymm9, %ymm3, %ymm3
	vpaddd	%ymm3, %ymm11, %ymm8
	vpxor	%ymm7, %ymm8, %ymm7
	vpsrld	$7, %ymm7, %ymm10
	vpslld	$25, %ymm7, %ymm7
	vpor	%ymm7, %ymm10, %ymm10
	vpaddd	352(%rsp), %ymm0, %ymm0
	vpaddd	%ymm2, %ymm0, %ymm7
	vpxor	%ymm7, %ymm3, %ymm0
	vmovdqa	D(CPI8_0)(%rip), %ymm11
	vpshufb	%ymm11, %ymm0, %ymm3
	vpaddd	%ymm3, %ymm4, %ymm0
	vmovdqa	%ymm0, 128(%rsp)
	vpxor	%ymm2, %ymm0, %ymm0
	vpsrld	$12, %ymm0, %ymm2
	vpslld	$20, %ymm0, %ymm0
	vpor	%ymm2, %ymm0, %ymm0
	vmovdqa	32(%rsp), %ymm2
	vpaddd	672(%rsp), %ymm2, %ymm2
	vpaddd	%ymm6, %ymm2, %ymm4
	vpxor	%ymm4, %ymm1, %ymm1
	vpshufb	%ymm11, %ymm1, %ymm15
	vpaddd	%ymm15, %ymm8, %ymm8
	vpxor	%ymm6, %ymm8, %ymm1
	vpsrld	$12, %ymm1, %ymm2
	vpslld	$20, %ymm1, %ymm1
	vpor	%ymm2, %ymm1, %ymm1
	vpaddd	320(%rsp), %ymm12, %ymm2
	vpaddd	%ymm5, %ymm2, %ymm12
	vpxor	%ymm12, %ymm13, %ymm2
	vpshufb	%ymm11, %ymm2, %ymm2
	vmovdqa	%ymm11, %ymm6
	vpaddd	64(%rsp), %ymm2, %ymm9
	vpxor	%ymm5, %ymm9, %ymm5
	vpsrld	$12, %ymm5, %ymm11
	vpslld	$20, %ymm5, %ymm5
	vpor	%ymm5, %ymm11, %ymm5
	vpaddd	608(%rsp), %ymm14, %ymm11
	vpaddd	%ymm10, %ymm11, %ymm13
	vpxor	96(%rsp), %ymm13, %ymm11
	vpshufb	%ymm6, %ymm11, %ymm14
	vpaddd	(%rsp), %ymm14, %ymm11
	vpxor	%ymm10, %ymm11, %ymm6
	vpsrld	$12, %ymm6, %ymm10
	vpslld	$20, %ymm6, %ymm6
	vpor	%ymm6, %ymm10, %ymm6
	vpaddd	256(%rsp), %ymm7, %ymm7
	vpaddd	%ymm0, %ymm7, %ymm7
	vmovdqa	%ymm7, 64(%rsp)
	vpxor	%ymm7, %ymm3, %ymm3
	vbroadcasti128	D(CPI8_6)(%rip), %ymm10
	vpshufb	%ymm10, %ymm3, %ymm3
	vmovdqa	%ymm3, 96(%rsp)
	vpaddd	128(%rsp), %ymm3, %ymm3
	vmovdqa	%ymm3, (%rsp)
	vpxor	%ymm0, %ymm3, %ymm0
	vpsrld	$7, %ymm0, %ymm3
	vpslld	$25, %ymm0, %ymm0
	vpor	%ymm3, %ymm0, %ymm0
	vpaddd	640(%rsp), %ymm4, %ymm3
	vpaddd	%ymm1, %ymm3, %ymm7
	vpxor	%ymm7, %ymm15, %ymm3
	vpshufb	%ymm10, %ymm3, %ymm3
	vpaddd	%ymm3, %ymm8, %ymm4
	vmovdqa	%ymm4, 32(%rsp)
	vpxor	%ymm1, %ymm4, %ymm1
	vpsrld	$7, %ymm1, %ymm4
	vpslld	$25, %ymm1, %ymm1
	vpor	%ymm4, %ymm1, %ymm15
	vpaddd	544(%rsp), %ymm12, %ymm1
	vpaddd	%ymm5, %ymm1, %ymm12
	vpxor	%ymm2, %ymm12, %ymm1
	vpshufb	%ymm10, %ymm1, %ymm1
	vpaddd	%ymm1, %ymm9, %ymm8
	vpxor	%ymm5, %ymm8, %ymm2
	vpsrld	$7, %ymm2, %ymm4
	vpslld	$25, %ymm2, %ymm2
	vpor	%ymm4, %ymm2, %ymm5
	vpaddd	576(%rsp), %ymm13, %ymm2
	vpaddd	%ymm6, %ymm2, %ymm4
	vpxor	%ymm4, %ymm14, %ymm2
	vpshufb	%ymm10, %ymm2, %ymm9
	vpaddd	%ymm9, %ymm11, %ymm11
	vpxor	%ymm6, %ymm11, %ymm2
	vpsrld	$7, %ymm2, %ymm6
	vpslld	$25, %ymm2, %ymm2
	vpor	%ymm6, %ymm2, %ymm6
	vpaddd	448(%rsp), %ymm7, %ymm2
	vpaddd	%ymm0, %ymm2, %ymm10
	vpxor	%ymm10, %ymm9, %ymm7
	vmovdqa	D(CPI8_0)(%rip), %ymm13
	vpshufb	%ymm13, %ymm7, %ymm14
	vpaddd	%ymm14, %ymm8, %ymm9
	vpxor	%ymm0, %ymm9, %ymm0
	vpsrld	$12, %ymm0, %ymm7
	vpslld	$20, %ymm0, %ymm0
	vpor	%ymm7, %ymm0, %ymm2
	vpaddd	416(%rsp), %ymm4, %ymm4
	vpaddd	%ymm4, %ymm15, %ymm4
	vpxor	%ymm4, %ymm1, %ymm1
	vmovdqa	%ymm13, %ymm0
	vpshufb	%ymm13, %ymm1, %ymm13
	vpaddd	(%rsp), %ymm13, %ymm8
	vpxor	%ymm15, %ymm8, %ymm1
	vpsrld	$12, %ymm1, %ymm7
	vpslld	$20, %ymm1, %ymm1
	vpor	%ymm7, %ymm1, %ymm1
	vmovdqa	64(%rsp), %ymm7
	vpaddd	224(%rsp), %ymm7, %ymm7
	vpaddd	%ymm5, %ymm7, %ymm7
	vpxor	%ymm7, %ymm3, %ymm3
	vpshufb	%ymm0, %ymm3, %ymm15
	vpaddd	%ymm15, %ymm11, %ymm3
	vmovdqa	%ymm3, (%rsp)
	vpxor	%ymm5, %ymm3, %ymm3
	vpsrld	$12, %ymm3, %ymm5
	vpslld	$20, %ymm3, %ymm3
	vpor	%ymm5, %ymm3, %ymm5
	vpaddd	384(%rsp), %ymm12, %ymm3
	vpaddd	%ymm6, %ymm3, %ymm12
	vpxor	96(%rsp), %ymm12, %ymm3
	vpshufb	%ymm0, %ymm3, %ymm3
	vpaddd	32(%rsp), %ymm3, %ymm11
	vpxor	%ymm6, %ymm11, %ymm6
	vpsrld	$12, %ymm6, %ymm0
	vpslld	$20, %ymm6, %ymm6
	vpor	%ymm0, %ymm6, %ymm6
	vpaddd	512(%rsp), %ymm10, %ymm0
	vpaddd	%ymm2, %ymm0, %ymm0
	vmovdqa	%ymm0, 32(%rsp)
	vpxor	%ymm0, %ymm14, %ymm0
	vbroadcasti128	D(CPI8_6)(%rip), %ymm10
	vpshufb	%ymm10, %ymm0, %ymm0
	vmovdqa	%ymm0, 96(%rsp)
	vpaddd	%ymm0, %ymm9, %ymm0
	vmovdqa	%ymm0, 64(%rsp)
	vpxor	%ymm2, %ymm0, %ymm0
	vpsrld	$7, %ymm0, %ymm2
	vpslld	$25, %ymm0, %ymm0
	vpor	%ymm2, %ymm0, %ymm9
	vpaddd	704(%rsp), %ymm4, %ymm0
	vpaddd	%ymm1, %ymm0, %ymm14
	vpxor	%ymm14, %ymm13, %ymm0
	vpshufb	%ymm10, %ymm0, %ymm2
	vpaddd	%ymm2, %ymm8, %ymm0
	vpxor	%ymm1, %ymm0, %ymm1
	vpsrld	$7, %ymm1, %ymm4
	vpslld	$25, %ymm1, %ymm1
	vpor	%ymm4, %ymm1, %ymm8
	vpaddd	480(%rsp), %ymm7, %ymm1
	vpaddd	%ymm5, %ymm1, %ymm4
	vpxor	%ymm4, %ymm15, %ymm1
	vpshufb	%ymm10, %ymm1, %ymm7
	vpaddd	(%rsp), %ymm7, %ymm1
	vmovdqa	%ymm1, (%rsp)
	vpxor	%ymm5, %ymm1, %ymm1
	vpsrld	$7, %ymm1, %ymm5
	vpslld	$25, %ymm1, %ymm1
	vpor	%ymm5, %ymm1, %ymm5
	vpaddd	288(%rsp), %ymm12, %ymm1
	vpaddd	%ymm6, %ymm1, %ymm1
	vpxor	%ymm1, %ymm3, %ymm3
	vpshufb	%ymm10, %ymm3, %ymm12
	vpaddd	%ymm12, %ymm11, %ymm11
	vpxor	%ymm6, %ymm11, %ymm3
	vpsrld	$7, %ymm3, %ymm6
	vpslld	$25, %ymm3, %ymm3
	vpor	%ymm6, %ymm3, %ymm3
	vpaddd	256(%rsp), %ymm4, %ymm4
	vpaddd	%ymm4, %ymm9, %ymm6
	vpxor	%ymm6, %ymm12, %ymm4
	vmovdqa	D(CPI8_0)(%rip), %ymm12
	vpshufb	%ymm12, %ymm4, %ymm15
	vpaddd	%ymm0, %ymm15, %ymm0
	vmovdqa	%ymm0, 160(%rsp)
	vpxor	%ymm0, %ymm9, %ymm0
	vpsrld	$12, %ymm0, %ymm4
	vpslld	$20, %ymm0, %ymm0
	vpor	%ymm4, %ymm0, %ymm0
	vmovdqa	32(%rsp), %ymm4
	vpaddd	352(%rsp), %ymm4, %ymm4
	vpaddd	%ymm4, %ymm8, %ymm4
	vpxor	%ymm4, %ymm7, %ymm7
	vpshufb	%ymm12, %ymm7, %ymm13
	vpaddd	%ymm13, %ymm11, %ymm9
	vpxor	%ymm8, %ymm9, %ymm7
	vpsrld	$12, %ymm7, %ymm8
	vpslld	$20, %ymm7, %ymm7
	vpor	%ymm7, %ymm8, %ymm8
	vpaddd	576(%rsp), %ymm1, %ymm1
	vpaddd	%ymm5, %ymm1, %ymm11
	vpxor	%ymm2, %ymm11, %ymm1
	vpshufb	%ymm12, %ymm1, %ymm7
	vpaddd	64(%rsp), %ymm7, %ymm1
	vmovdqa	%ymm1, 128(%rsp)
	vpxor	%ymm5, %ymm1, %ymm1
	vpsrld	$12, %ymm1, %ymm2
	vpslld	$20, %ymm1, %ymm1
	vpor	%ymm2, %ymm1, %ymm2
	vpaddd	320(%rsp), %ymm14, %ymm1
	vpaddd	%ymm3, %ymm1, %ymm10
	vpxor	96(%rsp), %ymm10, %ymm1
	vpshufb	%ymm12, %ymm1, %ymm14
	vpaddd	(%rsp), %ymm14, %ymm1
	vmovdqa	%ymm1, 192(%rsp)
	vpxor	%ymm3, %ymm1, %ymm1
	vpsrld	$12, %ymm1, %ymm3
	vpslld	$20, %ymm1, %ymm1
	vpor	%ymm3, %ymm1, %ymm1
	vpaddd	224(%rsp), %ymm6, %ymm3
	vpaddd	%ymm0, %ymm3, %ymm3
	vmovdqa	%ymm3, 64(%rsp)
	vpxor	%ymm3, %ymm15, %ymm3
	vbroadcasti128	D(CPI8_6)(%rip), %ymm15
	vpshufb	%ymm15, %ymm3, %ymm3
	vmovdqa	%ymm3, 96(%rsp)
	vpaddd	160(%rsp), %ymm3, %ymm3
	vmovdqa	%ymm3, (%rsp)
	vpxor	%ymm0, %ymm3, %ymm0
	vpsrld	$7, %ymm0, %ymm3
	vpslld	$25, %ymm0, %ymm0
	vpor	%ymm3, %ymm0, %ymm3
	vpaddd	608(%rsp), %ymm4, %ymm0
	vpaddd	%ymm0, %ymm8, %ymm6
	vpxor	%ymm6, %ymm13, %ymm0
	vpshufb	%ymm15, %ymm0, %ymm4
	vpaddd	%ymm4, %ymm9, %ymm0
	vmovdqa	%ymm0, 32(%rsp)
	vpxor	%ymm0, %ymm8, %ymm0
	vpsrld	$7, %ymm0, %ymm5
	vpslld	$25, %ymm0, %ymm0
	vpor	%ymm5, %ymm0, %ymm8
	vpaddd	672(%rsp), %ymm11, %ymm0
	vpaddd	%ymm2, %ymm0, %ymm0
	vmovdqa	%ymm0, 160(%rsp)
	vpxor	%ymm0, %ymm7, %ymm0
	vpshufb	%ymm15, %ymm0, %ymm7
	vmovdqa	%ymm15, %ymm5
	vpaddd	128(%rsp), %ymm7, %ymm15
	vpxor	%ymm2, %ymm15, %ymm0
	vpsrld	$7, %ymm0, %ymm2
	vpslld	$25, %ymm0, %ymm0
	vpor	%ymm2, %ymm0, %ymm9
	vpaddd	288(%rsp), %ymm10, %ymm0
	vpaddd	%ymm1, %ymm0, %ymm2
	vpxor	%ymm2, %ymm14, %ymm0
	vpshufb	%ymm5, %ymm0, %ymm12
	vpaddd	192(%rsp), %ymm12, %ymm0
	vpxor	%ymm1, %ymm0, %ymm1
	vpsrld	$7, %ymm1, %ymm5
	vpslld	$25, %ymm1, %ymm1
	vpor	%ymm5, %ymm1, %ymm5
	vpaddd	640(%rsp), %ymm6, %ymm1
	vpaddd	%ymm3, %ymm1, %ymm11
	vpxor	%ymm11, %ymm12, %ymm1
	vmovdqa	D(CPI8_0)(%rip), %ymm14
	vpshufb	%ymm14, %ymm1, %ymm13
	vpaddd	%ymm13, %ymm15, %ymm15
	vpxor	%ymm3, %ymm15, %ymm1
	vpsrld	$12, %ymm1, %ymm3
	vpslld	$20, %ymm1, %ymm1
	vpor	%ymm3, %ymm1, %ymm6
	vpaddd	704(%rsp), %ymm2, %ymm1
	vpaddd	%ymm1, %ymm8, %ymm10
	vpxor	%ymm7, %ymm10, %ymm1
	vpshufb	%ymm14, %ymm1, %ymm12
	vmovdqa	%ymm14, %ymm3
	vpaddd	(%rsp), %ymm12, %ymm7
	vpxor	%ymm7, %ymm8, %ymm1
	vpsrld	$12, %ymm1, %ymm2
	vpslld	$20, %ymm1, %ymm1
	vpor	%ymm2, %ymm1, %ymm14
	vmovdqa	64(%rsp), %ymm1
	vpaddd	384(%rsp), %ymm1, %ymm1
	vpaddd	%ymm1, %ymm9, %ymm1
	vmovdqa	%ymm1, 192(%rsp)
	vpxor	%ymm1, %ymm4, %ymm1
	vpshufb	%ymm3, %ymm1, %ymm1
	vmovdqa	%ymm1, 128(%rsp)
	vpaddd	%ymm1, %ymm0, %ymm0
	vmovdqa	%ymm0, (%rsp)
	vpxor	%ymm0, %ymm9, %ymm0
	vpsrld	$12, %ymm0, %ymm1
	vpslld	$20, %ymm0, %ymm0
	vpor	%ymm1, %ymm0, %ymm9
	vmovdqa	160(%rsp), %ymm0
	vpaddd	512(%rsp), %ymm0, %ymm0
	vpaddd	%ymm5, %ymm0, %ymm2
	vpxor	96(%rsp), %ymm2, %ymm0
	vpshufb	%ymm3, %ymm0, %ymm4
	vpaddd	32(%rsp), %ymm4, %ymm8
	vpxor	%ymm5, %ymm8, %ymm0
	vpsrld	$12, %ymm0, %ymm1
	vpslld	$20, %ymm0, %ymm0
	vpor	%ymm1, %ymm0, %ymm3
	vpaddd	480(%rsp), %ymm11, %ymm0
	vpaddd	%ymm6, %ymm0, %ymm5
	vpxor	%ymm5, %ymm13, %ymm0
	vbroadcasti128	D(CPI8_6)(%rip), %ymm13
	vpshufb	%ymm13, %ymm0, %ymm0
	vmovdqa	%ymm0, 64(%rsp)
	vpaddd	%ymm0, %ymm15, %ymm0
	vmovdqa	%ymm0, 96(%rsp)
	vpxor	%ymm6, %ymm0, %ymm0
	vpsrld	$7, %ymm0, %ymm6
	vpslld	$25, %ymm0, %ymm0
	vpor	%ymm6, %ymm0, %ymm11
	vpaddd	448(%rsp), %ymm10, %ymm0
	vpaddd	%ymm0, %ymm14, %ymm1
	vpxor	%ymm1, %ymm12, %ymm6
	vpshufb	%ymm13, %ymm6, %ymm12
	vpaddd	%ymm7, %ymm12, %ymm7
	vpxor	%ymm7, %ymm14, %ymm6
	vpsrld	$7, %ymm6, %ymm10
	vpslld	$25, %ymm6, %ymm6
	vpor	%ymm6, %ymm10, %ymm6
	vpaddd	416(%rsp), %ymm2, %ymm2
	vpaddd	%ymm3, %ymm2, %ymm15
	vpxor	%ymm4, %ymm15, %ymm2
	vpshufb	%ymm13, %ymm2, %ymm0
	vpaddd	%ymm0, %ymm8, %ymm10
	vpxor	%ymm3, %ymm10, %ymm2
	vpsrld	$7, %ymm2, %ymm3
	vpslld	$25, %ymm2, %ymm2
	vpor	%ymm3, %ymm2, %ymm2
	vpaddd	256(%rsp), %ymm5, %ymm3
	vmovdqa	%ymm3, 256(%rsp)
	vmovdqa	192(%rsp), %ymm3
	vpaddd	544(%rsp), %ymm3, %ymm3
	vpaddd	%ymm3, %ymm9, %ymm3
	vpxor	128(%rsp), %ymm3, %ymm4
	vpaddd	224(%rsp), %ymm3, %ymm5
	vpshufb	%ymm13, %ymm4, %ymm4
	vpaddd	(%rsp), %ymm4, %ymm8
	vpxor	%ymm9, %ymm8, %ymm3
	vpsrld	$7, %ymm3, %ymm9
	vpslld	$25, %ymm3, %ymm3
	vpor	%ymm3, %ymm9, %ymm14
	vpaddd	288(%rsp), %ymm15, %ymm3
	vmovdqa	%ymm3, 32(%rsp)
	vpaddd	576(%rsp), %ymm1, %ymm1
	vpaddd	%ymm5, %ymm11, %ymm5
	vpxor	%ymm5, %ymm0, %ymm0
	vmovdqa	D(CPI8_0)(%rip), %ymm13
	vpshufb	%ymm13, %ymm0, %ymm9
	vpaddd	%ymm7, %ymm9, %ymm0
	vmovdqa	%ymm0, 224(%rsp)
	vpxor	%ymm0, %ymm11, %ymm0
	vpsrld	$12, %ymm0, %ymm11
	vpslld	$20, %ymm0, %ymm0
	vpor	%ymm0, %ymm11, %ymm3
	vpaddd	%ymm2, %ymm1, %ymm15
	vpxor	64(%rsp), %ymm15, %ymm1
	vpshufb	%ymm13, %ymm1, %ymm11
	vpaddd	%ymm11, %ymm8, %ymm8
	vpxor	%ymm2, %ymm8, %ymm1
	vpsrld	$12, %ymm1, %ymm2
	vpslld	$20, %ymm1, %ymm1
	vpor	%ymm2, %ymm1, %ymm7
	vpaddd	256(%rsp), %ymm6, %ymm1
	vpxor	%ymm1, %ymm4, %ymm4
	vpaddd	320(%rsp), %ymm1, %ymm0
	vmovdqa	%ymm0, 320(%rsp)
	vpaddd	384(%rsp), %ymm5, %ymm0
	vmovdqa	%ymm13, %ymm1
	vpshufb	%ymm13, %ymm4, %ymm5
	vpaddd	%ymm5, %ymm10, %ymm2
	vmovdqa	%ymm2, 288(%rsp)
	vpxor	%ymm6, %ymm2, %ymm4
	vpsrld	$12, %ymm4, %ymm6
	vpslld	$20, %ymm4, %ymm4
	vpor	%ymm6, %ymm4, %ymm13
	vpaddd	32(%rsp), %ymm14, %ymm4
	vpxor	%ymm4, %ymm12, %ymm6
	vpshufb	%ymm1, %ymm6, %ymm10
	vpaddd	96(%rsp), %ymm10, %ymm6
	vpxor	%ymm6, %ymm14, %ymm12
	vpsrld	$12, %ymm12, %ymm14
	vpslld	$20, %ymm12, %ymm12
	vpor	%ymm14, %ymm12, %ymm14
	vpaddd	352(%rsp), %ymm4, %ymm12
	vpaddd	416(%rsp), %ymm15, %ymm1
	vpaddd	%ymm3, %ymm0, %ymm15
	vpxor	%ymm15, %ymm9, %ymm0
	vbroadcasti128	D(CPI8_6)(%rip), %ymm2
	vpshufb	%ymm2, %ymm0, %ymm0
	vmovdqa	%ymm0, 352(%rsp)
	vpaddd	224(%rsp), %ymm0, %ymm0
	vmovdqa	%ymm0, 384(%rsp)
	vpxor	%ymm3, %ymm0, %ymm0
	vpsrld	$7, %ymm0, %ymm3
	vpslld	$25, %ymm0, %ymm0
	vpor	%ymm3, %ymm0, %ymm9
	vpaddd	%ymm7, %ymm1, %ymm1
	vpxor	%ymm1, %ymm11, %ymm0
	vpshufb	%ymm2, %ymm0, %ymm4
	vmovdqa	%ymm2, %ymm0
	vpaddd	%ymm4, %ymm8, %ymm2
	vmovdqa	%ymm2, 416(%rsp)
	vpxor	%ymm7, %ymm2, %ymm2
	vpsrld	$7, %ymm2, %ymm3
	vpslld	$25, %ymm2, %ymm2
	vpor	%ymm3, %ymm2, %ymm7
	vmovdqa	%ymm7, 224(%rsp)
	vpaddd	448(%rsp), %ymm1, %ymm1
	vpaddd	320(%rsp), %ymm13, %ymm2
	vpxor	%ymm2, %ymm5, %ymm3
	vpaddd	608(%rsp), %ymm2, %ymm5
	vpshufb	%ymm0, %ymm3, %ymm8
	vpaddd	288(%rsp), %ymm8, %ymm11
	vpxor	%ymm13, %ymm11, %ymm2
	vpsrld	$7, %ymm2, %ymm3
	vpslld	$25, %ymm2, %ymm2
	vpor	%ymm3, %ymm2, %ymm2
	vpaddd	%ymm14, %ymm12, %ymm3
	vpxor	%ymm3, %ymm10, %ymm10
	vpshufb	%ymm0, %ymm10, %ymm10
	vpaddd	%ymm6, %ymm10, %ymm0
	vpxor	%ymm0, %ymm14, %ymm6
	vpsrld	$7, %ymm6, %ymm12
	vpslld	$25, %ymm6, %ymm6
	vpor	%ymm6, %ymm12, %ymm12
	vpaddd	512(%rsp), %ymm15, %ymm6
	vpaddd	480(%rsp), %ymm3, %ymm13
	vpaddd	%ymm5, %ymm9, %ymm3
	vpaddd	%ymm2, %ymm1, %ymm1
	vpaddd	%ymm6, %ymm12, %ymm14
	vpaddd	%ymm7, %ymm13, %ymm13
	vpxor	%ymm1, %ymm10, %ymm5
	vmovdqa	D(CPI8_0)(%rip), %ymm10
	vpshufb	%ymm10, %ymm5, %ymm5
	vpxor	%ymm3, %ymm4, %ymm4
	vpshufb	%ymm10, %ymm4, %ymm6
	vpxor	%ymm14, %ymm8, %ymm4
	vpshufb	%ymm10, %ymm4, %ymm8
	vpxor	352(%rsp), %ymm13, %ymm4
	vpshufb	%ymm10, %ymm4, %ymm10
	vpaddd	%ymm6, %ymm0, %ymm0
	vmovdqa	%ymm0, 448(%rsp)
	vpxor	%ymm0, %ymm9, %ymm0
	vpsrld	$12, %ymm0, %ymm4
	vpslld	$20, %ymm0, %ymm0
	vpor	%ymm4, %ymm0, %ymm15
	vpaddd	384(%rsp), %ymm5, %ymm0
	vmovdqa	%ymm0, 512(%rsp)
	vpxor	%ymm2, %ymm0, %ymm0
	vpsrld	$12, %ymm0, %ymm2
	vpslld	$20, %ymm0, %ymm0
	vpor	%ymm2, %ymm0, %ymm7
	vpaddd	%ymm10, %ymm11, %ymm0
	vmovdqa	%ymm0, 480(%rsp)
	vpxor	224(%rsp), %ymm0, %ymm0
	vpsrld	$12, %ymm0, %ymm2
	vpslld	$20, %ymm0, %ymm0
	vpor	%ymm2, %ymm0, %ymm11
	vpaddd	640(%rsp), %ymm1, %ymm1
	vpaddd	544(%rsp), %ymm3, %ymm2
	vpaddd	416(%rsp), %ymm8, %ymm0
	vmovdqa	%ymm0, 544(%rsp)
	vpxor	%ymm0, %ymm12, %ymm3
	vpsrld	$12, %ymm3, %ymm9
	vpslld	$20, %ymm3, %ymm3
	vpor	%ymm3, %ymm9, %ymm4
	vpaddd	672(%rsp), %ymm14, %ymm12
	vpaddd	704(%rsp), %ymm13, %ymm14
	vpaddd	%ymm2, %ymm15, %ymm13
	vpaddd	%ymm7, %ymm1, %ymm9
	vpaddd	%ymm4, %ymm12, %ymm1
	vpaddd	%ymm11, %ymm14, %ymm12
	vpxor	%ymm5, %ymm9, %ymm2
	vbroadcasti128	D(CPI8_6)(%rip), %ymm0
	vpshufb	%ymm0, %ymm2, %ymm5
	vpxor	%ymm6, %ymm13, %ymm2
	vpshufb	%ymm0, %ymm2, %ymm6
	vpxor	%ymm1, %ymm8, %ymm2
	vpshufb	%ymm0, %ymm2, %ymm8
	vpxor	%ymm12, %ymm10, %ymm2
	vpshufb	%ymm0, %ymm2, %ymm2
	vpaddd	448(%rsp), %ymm6, %ymm10
	vpxor	%ymm15, %ymm10, %ymm14
	vpsrld	$7, %ymm14, %ymm15
	vpslld	$25, %ymm14, %ymm14
	vpor	%ymm15, %ymm14, %ymm14
	vpaddd	512(%rsp), %ymm5, %ymm15
	vpxor	%ymm7, %ymm15, %ymm7
	vpsrld	$7, %ymm7, %ymm0
	vpslld	$25, %ymm7, %ymm7
	vpor	%ymm0, %ymm7, %ymm3
	vpaddd	480(%rsp), %ymm2, %ymm7
	vpxor	%ymm7, %ymm11, %ymm11
	vpsrld	$7, %ymm11, %ymm0
	vpslld	$25, %ymm11, %ymm11
	vpor	%ymm0, %ymm11, %ymm0
	vpxor	%ymm7, %ymm13, %ymm13
	vpaddd	544(%rsp), %ymm8, %ymm7
	vpxor	%ymm4, %ymm7, %ymm4
	vpxor	%ymm1, %ymm15, %ymm11
	vpsrld	$7, %ymm4, %ymm1
	vpslld	$25, %ymm4, %ymm4
	vpor	%ymm1, %ymm4, %ymm1
	vpxor	%ymm12, %ymm10, %ymm4
	vpxor	%ymm7, %ymm9, %ymm7
	vpxor	%ymm2, %ymm14, %ymm2
	vpxor	%ymm3, %ymm8, %ymm3
	vpxor	%ymm5, %ymm1, %ymm1
	vpxor	%ymm6, %ymm0, %ymm0
	addq	$64, %r13
	cmpq	$1024, %r13
	jne	L(8_1)
	movq	760(%rsp), %rax
	vmovdqu	%ymm13, (%rax)
	vmovdqu	%ymm11, 32(%rax)
	vmovdqu	%ymm4, 64(%rax)
	vmovdqu	%ymm7, 96(%rax)
	vmovdqu	%ymm3, 128(%rax)
	vmovdqu	%ymm2, 160(%rax)
	vmovdqu	%ymm1, 192(%rax)
	vmovdqu	%ymm0, 224(%rax)
	leaq	-40(%rbp), %rsp
	popq	%rbx
	popq	%r12
	popq	%r13
	popq	%r14
	popq	%r15
	popq	%rbp
	.cfi_def_cfa %rsp, 8
	vzeroupper
	retq
	SIZE("keyed_blake3::chunks::chunk_values::<#a9687390e0dd665c>")
	.cfi_endproc

SIZED(4, 2)
	.p2align	2, 0x0
D(CPI9_0):
	.long	1779033703
CODE(".text.keyed_blake3::compression::lanes::each_by_call::<=8>")
	.p2align	4
	TYPE("keyed_blake3::compression::lanes::each_by_call::<=8>", function)
"keyed_blake3::compression::lanes::each_by_call::<=8>":
	.cfi_startproc
	vbroadcastss	D(CPI9_0)(%rip), %ymm0
	vmovups	%ymm0, (%rdi)
	vzeroupper
	retq
	SIZE("keyed_blake3::compression::lanes::each_by_call::<=8>")
	.cfi_endproc

SIZED(4, 2)
	.p2align	2, 0x0
D(CPI10_0):
	.long	64
D(CPI10_1):
	.long	20
SIZED(32, 5)
	.p2align	5, 0x0
D(CPI10_2):
	.quad	4
	.quad	5
	.quad	6
	.quad	7
D(CPI10_3):
	.quad	0
	.quad	1
	.quad	2
	.quad	3
CODE(".text.keyed_blake3::subtrees::neighbour_values::<#a9687390e0dd665c>")
	.p2align	4
	TYPE("keyed_blake3::subtrees::neighbour_values::<#a9687390e0dd665c>", function)
"keyed_blake3::subtrees::neighbour_values::<#a9687390e0dd665c>":
	.cfi_startproc
	pushq	%rbp
	.cfi_def_cfa_offset 16
	pushq	%r15
	.cfi_def_cfa_offset 24
	pushq	%r14
	.cfi_def_cfa_offset 32
	pushq	%r13
	.cfi_def_cfa_offset 40
	pushq	%r12
	.cfi_def_cfa_offset 48
	pushq	%rbx
	.cfi_def_cfa_offset 56
	subq	$1672, %rsp
	.cfi_def_cfa_offset 1728
	.cfi_offset %rbx, -56
	.cfi_offset %r12, -48
	.cfi_offset %r13, -40
	.cfi_offset %r14, -32
	.cfi_offset %r15, -24
	.cfi_offset %rbp, -16
	vxorps	%xmm0, %xmm0, %xmm0
	vmovups	%ymm0, 224(%rsp)
	vmovups	%ymm0, 192(%rsp)
	vmovups	%ymm0, 160(%rsp)
	vmovups	%ymm0, 128(%rsp)
	vmovups	%ymm0, 96(%rsp)
	vmovups	%ymm0, 64(%rsp)
	vmovups	%ymm0, 32(%rsp)
	movq	%rdi, %rbx
	vmovups	%ymm0, (%rsp)
	cmpq	$1, %r8
	jne	L(10_3)
	vmovq	%rcx, %xmm0
	vpbroadcastq	%xmm0, %ymm0
	vpaddq	D(CPI10_2)(%rip), %ymm0, %ymm1
	vpaddq	D(CPI10_3)(%rip), %ymm0, %ymm0
	vmovdqu	%ymm0, 1096(%rsp)
	vmovdqu	%ymm1, 1128(%rsp)
	movq	%rsp, %rdi
	leaq	1096(%rsp), %rcx
	movq	%r9, %r8
	vzeroupper
	callq	"keyed_blake3::chunks::chunk_values::<#a9687390e0dd665c>"
	jmp	L(10_2)
L(10_3):
	shrq	%r8
	leaq	256(%rsp), %rdi
	movq	%rsi, %r14
	movq	%rdx, %r12
	movq	%rcx, %r13
	movq	%r8, %rbp
	movq	%r9, %r15
	vzeroupper
	callq	"keyed_blake3::subtrees::neighbour_values::<#a9687390e0dd665c>"
	vmovups	256(%rsp), %ymm0
	vmovups	%ymm0, 768(%rsp)
	vmovups	288(%rsp), %ymm0
	vmovups	%ymm0, 800(%rsp)
	vmovups	320(%rsp), %ymm0
	vmovups	%ymm0, 832(%rsp)
	vmovups	352(%rsp), %ymm0
	vmovups	%ymm0, 864(%rsp)
	vmovups	384(%rsp), %ymm0
	vmovups	%ymm0, 896(%rsp)
	vmovups	416(%rsp), %ymm0
	vmovups	%ymm0, 928(%rsp)
	vmovups	448(%rsp), %ymm0
	vmovups	%ymm0, 960(%rsp)
	vmovups	480(%rsp), %ymm0
	vmovups	%ymm0, 992(%rsp)
	leaq	(%r13,%rbp,8), %rcx
	leaq	256(%rsp), %rdi
	movq	%r14, %rsi
	movq	%r12, %rdx
	movq	%rbp, %r8
	movq	%r15, %r9
	vzeroupper
	callq	"keyed_blake3::subtrees::neighbour_values::<#a9687390e0dd665c>"
	vmovups	256(%rsp), %ymm0
	vmovups	288(%rsp), %ymm1
	vmovups	320(%rsp), %ymm2
	vmovups	352(%rsp), %ymm3
	vmovups	384(%rsp), %ymm4
	vmovups	768(%rsp), %ymm5
	vshufps	$136, %ymm0, %ymm5, %ymm6
	vshufps	$221, %ymm0, %ymm5, %ymm0
	vmovups	800(%rsp), %ymm7
	vshufps	$136, %ymm1, %ymm7, %ymm5
	vshufps	$221, %ymm1, %ymm7, %ymm1
	vmovups	832(%rsp), %ymm8
	vshufps	$136, %ymm2, %ymm8, %ymm7
	vshufps	$221, %ymm2, %ymm8, %ymm2
	vmovups	864(%rsp), %ymm9
	vshufps	$136, %ymm3, %ymm9, %ymm8
	vshufps	$221, %ymm3, %ymm9, %ymm3
	vmovups	896(%rsp), %ymm10
	vshufps	$136, %ymm4, %ymm10, %ymm9
	vshufps	$221, %ymm4, %ymm10, %ymm4
	vmovups	416(%rsp), %ymm10
	vpermpd	$216, %ymm6, %ymm6
	vmovups	%ymm6, 1160(%rsp)
	vmovups	928(%rsp), %ymm11
	vshufps	$136, %ymm10, %ymm11, %ymm6
	vshufps	$221, %ymm10, %ymm11, %ymm10
	vpermpd	$216, %ymm5, %ymm5
	vmovups	%ymm5, 1192(%rsp)
	vpermpd	$216, %ymm7, %ymm5
	vmovups	%ymm5, 1224(%rsp)
	vmovups	448(%rsp), %ymm5
	vpermpd	$216, %ymm8, %ymm7
	vmovups	%ymm7, 1256(%rsp)
	vmovups	960(%rsp), %ymm8
	vshufps	$136, %ymm5, %ymm8, %ymm7
	vshufps	$221, %ymm5, %ymm8, %ymm5
	vpermpd	$216, %ymm9, %ymm8
	vmovups	%ymm8, 1288(%rsp)
	vpermpd	$216, %ymm6, %ymm6
	vmovups	%ymm6, 1320(%rsp)
	vmovups	480(%rsp), %ymm6
	vpermpd	$216, %ymm7, %ymm7
	vmovups	%ymm7, 1352(%rsp)
	vmovups	992(%rsp), %ymm8
	vshufps	$136, %ymm6, %ymm8, %ymm7
	vshufps	$221, %ymm6, %ymm8, %ymm6
	vpermpd	$216, %ymm7, %ymm7
	vmovups	%ymm7, 1384(%rsp)
	vpermpd	$216, %ymm0, %ymm0
	vpermpd	$216, %ymm1, %ymm1
	vpermpd	$216, %ymm2, %ymm2
	vpermpd	$216, %ymm3, %ymm3
	vpermpd	$216, %ymm4, %ymm4
	vpermpd	$216, %ymm10, %ymm7
	vpermpd	$216, %ymm5, %ymm5
	vpermpd	$216, %ymm6, %ymm6
	vmovups	%ymm0, 1416(%rsp)
	vmovups	%ymm1, 1448(%rsp)
	vmovups	%ymm2, 1480(%rsp)
	vmovups	%ymm3, 1512(%rsp)
	vmovups	%ymm4, 1544(%rsp)
	vmovups	%ymm7, 1576(%rsp)
	vmovups	%ymm5, 1608(%rsp)
	vmovups	%ymm6, 1640(%rsp)
	vbroadcastss	D(CPI10_0)(%rip), %ymm0
	vmovups	%ymm0, 1064(%rsp)
	vbroadcastss	D(CPI10_1)(%rip), %ymm0
	vmovups	%ymm0, 1032(%rsp)
	vbroadcastss	(%r14), %ymm0
	vbroadcastss	4(%r14), %ymm1
	vbroadcastss	8(%r14), %ymm2
	vbroadcastss	12(%r14), %ymm3
	vbroadcastss	16(%r14), %ymm4
	vbroadcastss	20(%r14), %ymm5
	vbroadcastss	24(%r14), %ymm6
	vbroadcastss	28(%r14), %ymm7
	vmovups	%ymm0, 512(%rsp)
	vmovups	%ymm1, 544(%rsp)
	vmovups	%ymm2, 576(%rsp)
	vmovups	%ymm3, 608(%rsp)
	vmovups	%ymm4, 640(%rsp)
	vmovups	%ymm5, 672(%rsp)
	vmovups	%ymm6, 704(%rsp)
	vmovups	%ymm7, 736(%rsp)
	leaq	512(%rsp), %rdi
	leaq	1160(%rsp), %rsi
	leaq	1064(%rsp), %rdx
	leaq	1032(%rsp), %rcx
	vzeroupper
	callq	"keyed_blake3::compression::lanes::take_in_each::<#a9687390e0dd665c>"
	vmovups	512(%rsp), %ymm0
	vmovdqu	544(%rsp), %ymm1
	vmovups	576(%rsp), %ymm2
	vmovups	608(%rsp), %ymm3
	vmovups	%ymm0, (%rsp)
	vmovdqu	%ymm1, 32(%rsp)
	vmovups	%ymm2, 64(%rsp)
	vmovups	%ymm3, 96(%rsp)
	vmovups	640(%rsp), %ymm0
	vmovups	%ymm0, 128(%rsp)
	vmovups	672(%rsp), %ymm0
	vmovups	%ymm0, 160(%rsp)
	vmovups	704(%rsp), %ymm0
	vmovups	%ymm0, 192(%rsp)
	vmovdqu	736(%rsp), %ymm0
	vmovdqu	%ymm0, 224(%rsp)
L(10_2):
	vmovups	224(%rsp), %ymm0
	vmovups	%ymm0, 224(%rbx)
	vmovups	192(%rsp), %ymm0
	vmovups	%ymm0, 192(%rbx)
	vmovups	160(%rsp), %ymm0
	vmovups	%ymm0, 160(%rbx)
	vmovups	128(%rsp), %ymm0
	vmovups	%ymm0, 128(%rbx)
	vmovups	(%rsp), %ymm0
	vmovups	32(%rsp), %ymm1
	vmovups	64(%rsp), %ymm2
	vmovups	96(%rsp), %ymm3
	vmovups	%ymm3, 96(%rbx)
	vmovups	%ymm2, 64(%rbx)
	vmovups	%ymm1, 32(%rbx)
	vmovups	%ymm0, (%rbx)
	addq	$1672, %rsp
	.cfi_def_cfa_offset 56
	popq	%rbx
	.cfi_def_cfa_offset 48
	popq	%r12
	.cfi_def_cfa_offset 40
	popq	%r13
	.cfi_def_cfa_offset 32
	popq	%r14
	.cfi_def_cfa_offset 24
	popq	%r15
	.cfi_def_cfa_offset 16
	popq	%rbp
	.cfi_def_cfa_offset 8
	vzeroupper
	retq
	SIZE("keyed_blake3::subtrees::neighbour_values::<#a9687390e0dd665c>")
	.cfi_endproc

SIZED(32, 5)
	.p2align	5, 0x0
D(CPI11_0):
	.byte	2
	.byte	3
	.byte	0
	.byte	1
	.byte	6
	.byte	7
	.byte	4
	.byte	5
	.byte	10
	.byte	11
	.byte	8
	.byte	9
	.byte	14
	.byte	15
	.byte	12
	.byte	13
	.byte	18
	.byte	19
	.byte	16
	.byte	17
	.byte	22
	.byte	23
	.byte	20
	.byte	21
	.byte	26
	.byte	27
	.byte	24
	.byte	25
	.byte	30
	.byte	31
	.byte	28
	.byte	29
D(CPI11_4):
	.byte	1
	.byte	2
	.byte	3
	.byte	0
	.byte	5
	.byte	6
	.byte	7
	.byte	4
	.byte	9
	.byte	10
	.byte	11
	.byte	8
	.byte	13
	.byte	14
	.byte	15
	.byte	12
	.byte	1
	.byte	2
	.byte	3
	.byte	0
	.byte	5
	.byte	6
	.byte	7
	.byte	4
	.byte	9
	.byte	10
	.byte	11
	.byte	8
	.byte	13
	.byte	14
	.byte	15
	.byte	12
SIZED(4, 2)
	.p2align	2, 0x0
D(CPI11_1):
	.long	3144134277
D(CPI11_2):
	.long	1013904242
D(CPI11_3):
	.long	2773480762
SIZED(16, 4)
	.p2align	4, 0x0
D(CPI11_5):
	.byte	1
	.byte	2
	.byte	3
	.byte	0
	.byte	5
	.byte	6
	.byte	7
	.byte	4
	.byte	9
	.byte	10
	.byte	11
	.byte	8
	.byte	13
	.byte	14
	.byte	15
	.byte	12
CODE(".text.keyed_blake3::compression::lanes::take_in_each::<#a9687390e0dd665c>")
	.p2align	4
	TYPE("keyed_blake3::compression::lanes::take_in_each::<#a9687390e0dd665c>", function)
"keyed_blake3::compression::lanes::take_in_each::<#a9687390e0dd665c>":
	.cfi_startproc
	pushq	%rbp
	.cfi_def_cfa_offset 16
	.cfi_offset %rbp, -16
	movq	%rsp, %rbp
	.cfi_def_cfa_register %rbp
	pushq	%r15
	pushq	%r14
	pushq	%r12
	pushq	%rbx
	andq	$-32, %rsp
	subq	$768, %rsp
	.cfi_offset %rbx, -48
	.cfi_offset %r12, -40
	.cfi_offset %r14, -32
	.cfi_offset %r15, -24
	movq	%rcx, %r15
	movq	%rdx, %r12
	movq	%rsi, %r14
	movq	%rdi, %rbx
	vmovdqu	128(%rdi), %ymm3
	vmovdqa	%ymm3, 192(%rsp)
	vmovdqu	160(%rdi), %ymm2
	vmovdqa	%ymm2, 320(%rsp)
	vmovdqu	192(%rdi), %ymm1
	vmovdqa	%ymm1, 416(%rsp)
	vmovdqu	224(%rdi), %ymm0
	vmovdqa	%ymm0, 448(%rsp)
	vpaddd	(%rdi), %ymm3, %ymm3
	vmovdqa	%ymm3, 384(%rsp)
	vpaddd	32(%rdi), %ymm2, %ymm2
	vmovdqa	%ymm2, 352(%rsp)
	vpaddd	64(%rdi), %ymm1, %ymm1
	vmovdqa	%ymm1, 288(%rsp)
	vpaddd	96(%rdi), %ymm0, %ymm0
	vmovdqa	%ymm0, 608(%rsp)
	leaq	704(%rsp), %rdi
	vzeroupper
	callq	"keyed_blake3::compression::lanes::each_by_call::<=8>"
	vmovdqu	128(%r14), %ymm0
	vmovdqa	%ymm0, 672(%rsp)
	vmovdqu	(%r14), %ymm2
	vmovdqa	%ymm2, 480(%rsp)
	vmovdqu	64(%r14), %ymm1
	vmovdqa	%ymm1, 640(%rsp)
	vpaddd	384(%rsp), %ymm2, %ymm11
	vpaddd	352(%rsp), %ymm1, %ymm2
	vmovdqa	%ymm2, 384(%rsp)
	vpaddd	288(%rsp), %ymm0, %ymm1
	vmovdqa	%ymm1, 352(%rsp)
	vmovdqa	D(CPI11_0)(%rip), %ymm0
	vpshufb	%ymm0, %ymm11, %ymm4
	vpaddd	704(%rsp), %ymm4, %ymm7
	vpshufb	%ymm0, %ymm2, %ymm9
	vpxor	192(%rsp), %ymm7, %ymm2
	vpsrld	$12, %ymm2, %ymm3
	vpslld	$20, %ymm2, %ymm2
	vpor	%ymm3, %ymm2, %ymm13
	vpbroadcastd	D(CPI11_1)(%rip), %ymm2
	vpaddd	%ymm2, %ymm9, %ymm2
	vpxor	320(%rsp), %ymm2, %ymm3
	vpsrld	$12, %ymm3, %ymm5
	vpslld	$20, %ymm3, %ymm3
	vpxor	(%r12), %ymm1, %ymm6
	vpor	%ymm5, %ymm3, %ymm8
	vmovdqa	%ymm0, %ymm1
	vpshufb	%ymm0, %ymm6, %ymm10
	vpbroadcastd	D(CPI11_2)(%rip), %ymm3
	vpaddd	%ymm3, %ymm10, %ymm14
	vpxor	416(%rsp), %ymm14, %ymm3
	vpsrld	$12, %ymm3, %ymm5
	vpslld	$20, %ymm3, %ymm3
	vpor	%ymm5, %ymm3, %ymm3
	vmovdqu	192(%r14), %ymm0
	vmovdqa	%ymm0, 416(%rsp)
	vpaddd	608(%rsp), %ymm0, %ymm5
	vpxor	(%r15), %ymm5, %ymm6
	vpshufb	%ymm1, %ymm6, %ymm12
	vpbroadcastd	D(CPI11_3)(%rip), %ymm6
	vpaddd	%ymm6, %ymm12, %ymm15
	vpxor	448(%rsp), %ymm15, %ymm6
	vpsrld	$12, %ymm6, %ymm0
	vpslld	$20, %ymm6, %ymm6
	vpor	%ymm0, %ymm6, %ymm6
	vmovdqu	32(%r14), %ymm0
	vmovdqa	%ymm0, 192(%rsp)
	vpaddd	%ymm0, %ymm11, %ymm0
	vpaddd	%ymm0, %ymm13, %ymm11
	vpxor	%ymm4, %ymm11, %ymm0
	vbroadcasti128	D(CPI11_5)(%rip), %ymm4
	vpshufb	%ymm4, %ymm0, %ymm0
	vmovdqa	%ymm0, 320(%rsp)
	vpaddd	%ymm0, %ymm7, %ymm0
	vmovdqa	%ymm0, 288(%rsp)
	vpxor	%ymm0, %ymm13, %ymm0
	vpsrld	$7, %ymm0, %ymm1
	vpslld	$25, %ymm0, %ymm0
	vpor	%ymm1, %ymm0, %ymm0
	vmovdqu	96(%r14), %ymm1
	vmovdqa	%ymm1, 448(%rsp)
	vpaddd	384(%rsp), %ymm1, %ymm1
	vpaddd	%ymm1, %ymm8, %ymm1
	vmovdqa	%ymm1, 544(%rsp)
	vpxor	%ymm1, %ymm9, %ymm1
	vpshufb	%ymm4, %ymm1, %ymm1
	vmovdqa	%ymm1, 256(%rsp)
	vpaddd	%ymm1, %ymm2, %ymm7
	vpxor	%ymm7, %ymm8, %ymm1
	vpsrld	$7, %ymm1, %ymm2
	vpslld	$25, %ymm1, %ymm1
	vpor	%ymm2, %ymm1, %ymm2
	vmovdqu	160(%r14), %ymm1
	vmovdqa	%ymm1, 576(%rsp)
	vpaddd	352(%rsp), %ymm1, %ymm1
	vpaddd	%ymm3, %ymm1, %ymm13
	vpxor	%ymm13, %ymm10, %ymm1
	vpshufb	%ymm4, %ymm1, %ymm8
	vpaddd	%ymm8, %ymm14, %ymm14
	vpxor	%ymm3, %ymm14, %ymm1
	vpsrld	$7, %ymm1, %ymm3
	vpslld	$25, %ymm1, %ymm1
	vpor	%ymm3, %ymm1, %ymm9
	vmovdqu	224(%r14), %ymm1
	vmovdqa	%ymm1, 384(%rsp)
	vpaddd	%ymm5, %ymm1, %ymm1
	vpaddd	%ymm6, %ymm1, %ymm3
	vpxor	%ymm3, %ymm12, %ymm1
	vpshufb	%ymm4, %ymm1, %ymm12
	vpaddd	%ymm12, %ymm15, %ymm15
	vpxor	%ymm6, %ymm15, %ymm1
	vpsrld	$7, %ymm1, %ymm5
	vpslld	$25, %ymm1, %ymm1
	vpor	%ymm5, %ymm1, %ymm1
	vmovdqu	448(%r14), %ymm4
	vmovdqa	%ymm4, 608(%rsp)
	vpaddd	%ymm0, %ymm4, %ymm5
	vpaddd	%ymm5, %ymm3, %ymm3
	vmovdqa	%ymm3, 64(%rsp)
	vpxor	%ymm3, %ymm8, %ymm3
	vmovdqa	D(CPI11_0)(%rip), %ymm5
	vpshufb	%ymm5, %ymm3, %ymm10
	vpaddd	%ymm7, %ymm10, %ymm3
	vmovdqa	%ymm3, 32(%rsp)
	vpxor	%ymm0, %ymm3, %ymm0
	vpsrld	$12, %ymm0, %ymm3
	vpslld	$20, %ymm0, %ymm0
	vpor	%ymm3, %ymm0, %ymm4
	vmovdqu	256(%r14), %ymm0
	vmovdqa	%ymm0, 224(%rsp)
	vpaddd	%ymm0, %ymm11, %ymm3
	vpaddd	%ymm2, %ymm3, %ymm3
	vpxor	%ymm3, %ymm12, %ymm6
	vpshufb	%ymm5, %ymm6, %ymm12
	vpaddd	%ymm12, %ymm14, %ymm0
	vmovdqa	%ymm0, 512(%rsp)
	vpxor	%ymm2, %ymm0, %ymm2
	vpsrld	$12, %ymm2, %ymm6
	vpslld	$20, %ymm2, %ymm2
	vpor	%ymm6, %ymm2, %ymm11
	vmovdqu	320(%r14), %ymm0
	vmovdqa	%ymm0, 352(%rsp)
	vpaddd	544(%rsp), %ymm0, %ymm2
	vpaddd	%ymm2, %ymm9, %ymm6
	vpxor	320(%rsp), %ymm6, %ymm2
	vpshufb	%ymm5, %ymm2, %ymm8
	vpaddd	%ymm8, %ymm15, %ymm14
	vpxor	%ymm9, %ymm14, %ymm2
	vpsrld	$12, %ymm2, %ymm9
	vpslld	$20, %ymm2, %ymm2
	vpor	%ymm2, %ymm9, %ymm2
	vmovdqu	384(%r14), %ymm0
	vmovdqa	%ymm0, 320(%rsp)
	vpaddd	%ymm0, %ymm13, %ymm9
	vpaddd	%ymm1, %ymm9, %ymm13
	vpxor	256(%rsp), %ymm13, %ymm9
	vpshufb	%ymm5, %ymm9, %ymm9
	vpaddd	288(%rsp), %ymm9, %ymm15
	vpxor	%ymm1, %ymm15, %ymm1
	vpsrld	$12, %ymm1, %ymm0
	vpslld	$20, %ymm1, %ymm1
	vpor	%ymm0, %ymm1, %ymm7
	vmovdqu	480(%r14), %ymm0
	vmovdqa	%ymm0, 256(%rsp)
	vpaddd	64(%rsp), %ymm0, %ymm0
	vpaddd	%ymm4, %ymm0, %ymm0
	vmovdqa	%ymm0, 64(%rsp)
	vpxor	%ymm0, %ymm10, %ymm0
	vbroadcasti128	D(CPI11_5)(%rip), %ymm10
	vpshufb	%ymm10, %ymm0, %ymm0
	vmovdqa	%ymm0, 128(%rsp)
	vpaddd	32(%rsp), %ymm0, %ymm0
	vmovdqa	%ymm0, 96(%rsp)
	vpxor	%ymm4, %ymm0, %ymm0
	vpsrld	$7, %ymm0, %ymm4
	vpslld	$25, %ymm0, %ymm0
	vpor	%ymm4, %ymm0, %ymm5
	vmovdqu	288(%r14), %ymm0
	vmovdqa	%ymm0, 544(%rsp)
	vpaddd	%ymm0, %ymm3, %ymm3
	vpaddd	%ymm3, %ymm11, %ymm1
	vpxor	%ymm1, %ymm12, %ymm3
	vpshufb	%ymm10, %ymm3, %ymm0
	vmovdqa	%ymm0, 32(%rsp)
	vmovdqa	%ymm10, %ymm12
	vpaddd	512(%rsp), %ymm0, %ymm10
	vpxor	%ymm11, %ymm10, %ymm3
	vpsrld	$7, %ymm3, %ymm4
	vpslld	$25, %ymm3, %ymm3
	vpor	%ymm4, %ymm3, %ymm11
	vmovdqu	352(%r14), %ymm0
	vmovdqa	%ymm0, 512(%rsp)
	vpaddd	%ymm0, %ymm6, %ymm3
	vpaddd	%ymm2, %ymm3, %ymm6
	vpxor	%ymm6, %ymm8, %ymm3
	vpshufb	%ymm12, %ymm3, %ymm0
	vpaddd	%ymm0, %ymm14, %ymm4
	vpxor	%ymm2, %ymm4, %ymm2
	vpsrld	$7, %ymm2, %ymm3
	vpslld	$25, %ymm2, %ymm2
	vpor	%ymm3, %ymm2, %ymm8
	vmovdqu	416(%r14), %ymm2
	vmovdqa	%ymm2, 288(%rsp)
	vpaddd	%ymm2, %ymm13, %ymm2
	vpaddd	%ymm7, %ymm2, %ymm2
	vpxor	%ymm2, %ymm9, %ymm3
	vpshufb	%ymm12, %ymm3, %ymm13
	vpaddd	%ymm13, %ymm15, %ymm9
	vpxor	%ymm7, %ymm9, %ymm3
	vpsrld	$7, %ymm3, %ymm7
	vpslld	$25, %ymm3, %ymm3
	vpor	%ymm7, %ymm3, %ymm12
	vpaddd	640(%rsp), %ymm1, %ymm1
	vpaddd	%ymm5, %ymm1, %ymm3
	vpxor	%ymm3, %ymm0, %ymm0
	vmovdqa	D(CPI11_0)(%rip), %ymm7
	vpshufb	%ymm7, %ymm0, %ymm14
	vpaddd	%ymm14, %ymm9, %ymm0
	vmovdqa	%ymm0, (%rsp)
	vpxor	%ymm5, %ymm0, %ymm0
	vpsrld	$12, %ymm0, %ymm1
	vpslld	$20, %ymm0, %ymm0
	vpor	%ymm1, %ymm0, %ymm0
	vpaddd	448(%rsp), %ymm6, %ymm1
	vpaddd	%ymm1, %ymm11, %ymm9
	vpxor	%ymm9, %ymm13, %ymm1
	vpshufb	%ymm7, %ymm1, %ymm15
	vpaddd	96(%rsp), %ymm15, %ymm1
	vmovdqa	%ymm1, 160(%rsp)
	vpxor	%ymm1, %ymm11, %ymm1
	vpsrld	$12, %ymm1, %ymm5
	vpslld	$20, %ymm1, %ymm1
	vpor	%ymm5, %ymm1, %ymm11
	vpaddd	384(%rsp), %ymm2, %ymm1
	vpaddd	%ymm1, %ymm8, %ymm13
	vpxor	128(%rsp), %ymm13, %ymm1
	vpshufb	%ymm7, %ymm1, %ymm2
	vpaddd	%ymm2, %ymm10, %ymm6
	vpxor	%ymm6, %ymm8, %ymm1
	vpsrld	$12, %ymm1, %ymm5
	vpslld	$20, %ymm1, %ymm1
	vpor	%ymm5, %ymm1, %ymm8
	vmovdqa	64(%rsp), %ymm1
	vpaddd	672(%rsp), %ymm1, %ymm1
	vpaddd	%ymm1, %ymm12, %ymm10
	vpxor	32(%rsp), %ymm10, %ymm1
	vpshufb	%ymm7, %ymm1, %ymm5
	vpaddd	%ymm5, %ymm4, %ymm7
	vpxor	%ymm7, %ymm12, %ymm1
	vpsrld	$12, %ymm1, %ymm4
	vpslld	$20, %ymm1, %ymm1
	vpor	%ymm4, %ymm1, %ymm4
	vpaddd	416(%rsp), %ymm3, %ymm1
	vpaddd	%ymm0, %ymm1, %ymm1
	vmovdqa	%ymm1, 32(%rsp)
	vpxor	%ymm1, %ymm14, %ymm1
	vbroadcasti128	D(CPI11_5)(%rip), %ymm12
	vpshufb	%ymm12, %ymm1, %ymm1
	vmovdqa	%ymm1, 128(%rsp)
	vpaddd	(%rsp), %ymm1, %ymm1
	vmovdqa	%ymm1, 64(%rsp)
	vpxor	%ymm0, %ymm1, %ymm0
	vpsrld	$7, %ymm0, %ymm1
	vpslld	$25, %ymm0, %ymm0
	vpor	%ymm1, %ymm0, %ymm3
	vpaddd	352(%rsp), %ymm9, %ymm0
	vpaddd	%ymm0, %ymm11, %ymm0
	vmovdqa	%ymm0, (%rsp)
	vpxor	%ymm0, %ymm15, %ymm0
	vpshufb	%ymm12, %ymm0, %ymm0
	vmovdqa	%ymm0, 96(%rsp)
	vmovdqa	%ymm12, %ymm15
	vpaddd	160(%rsp), %ymm0, %ymm9
	vpxor	%ymm11, %ymm9, %ymm0
	vpsrld	$7, %ymm0, %ymm1
	vpslld	$25, %ymm0, %ymm0
	vpor	%ymm1, %ymm0, %ymm11
	vpaddd	480(%rsp), %ymm13, %ymm0
	vpaddd	%ymm0, %ymm8, %ymm14
	vpxor	%ymm2, %ymm14, %ymm0
	vpshufb	%ymm12, %ymm0, %ymm12
	vpaddd	%ymm6, %ymm12, %ymm1
	vpxor	%ymm1, %ymm8, %ymm0
	vpsrld	$7, %ymm0, %ymm2
	vpslld	$25, %ymm0, %ymm0
	vpor	%ymm2, %ymm0, %ymm8
	vpaddd	288(%rsp), %ymm10, %ymm0
	vpaddd	%ymm4, %ymm0, %ymm6
	vpxor	%ymm6, %ymm5, %ymm0
	vpshufb	%ymm15, %ymm0, %ymm0
	vpaddd	%ymm0, %ymm7, %ymm2
	vpxor	%ymm4, %ymm2, %ymm4
	vpsrld	$7, %ymm4, %ymm5
	vpslld	$25, %ymm4, %ymm4
	vpor	%ymm5, %ymm4, %ymm10
	vpaddd	256(%rsp), %ymm6, %ymm4
	vpaddd	%ymm3, %ymm4, %ymm6
	vpxor	%ymm6, %ymm12, %ymm4
	vmovdqa	D(CPI11_0)(%rip), %ymm5
	vpshufb	%ymm5, %ymm4, %ymm12
	vpaddd	%ymm12, %ymm9, %ymm15
	vpxor	%ymm3, %ymm15, %ymm3
	vpsrld	$12, %ymm3, %ymm4
	vpslld	$20, %ymm3, %ymm3
	vpor	%ymm4, %ymm3, %ymm3
	vmovdqa	32(%rsp), %ymm4
	vpaddd	192(%rsp), %ymm4, %ymm4
	vpaddd	%ymm4, %ymm11, %ymm13
	vpxor	%ymm0, %ymm13, %ymm0
	vpshufb	%ymm5, %ymm0, %ymm9
	vpaddd	%ymm1, %ymm9, %ymm0
	vmovdqa	%ymm0, 160(%rsp)
	vpxor	%ymm0, %ymm11, %ymm0
	vpsrld	$12, %ymm0, %ymm1
	vpslld	$20, %ymm0, %ymm0
	vpor	%ymm1, %ymm0, %ymm11
	vmovdqa	(%rsp), %ymm0
	vpaddd	320(%rsp), %ymm0, %ymm0
	vpaddd	%ymm0, %ymm8, %ymm7
	vpxor	128(%rsp), %ymm7, %ymm0
	vpshufb	%ymm5, %ymm0, %ymm4
	vpaddd	%ymm4, %ymm2, %ymm0
	vmovdqa	%ymm0, (%rsp)
	vpxor	%ymm0, %ymm8, %ymm0
	vpsrld	$12, %ymm0, %ymm1
	vpslld	$20, %ymm0, %ymm0
	vpor	%ymm1, %ymm0, %ymm8
	vpaddd	544(%rsp), %ymm14, %ymm0
	vpaddd	%ymm0, %ymm10, %ymm14
	vpxor	96(%rsp), %ymm14, %ymm0
	vpshufb	%ymm5, %ymm0, %ymm1
	vpaddd	64(%rsp), %ymm1, %ymm5
	vpxor	%ymm5, %ymm10, %ymm0
	vpsrld	$12, %ymm0, %ymm2
	vpslld	$20, %ymm0, %ymm0
	vpor	%ymm2, %ymm0, %ymm2
	vpaddd	224(%rsp), %ymm6, %ymm0
	vpaddd	%ymm3, %ymm0, %ymm0
	vmovdqa	%ymm0, 64(%rsp)
	vpxor	%ymm0, %ymm12, %ymm0
	vbroadcasti128	D(CPI11_5)(%rip), %ymm10
	vpshufb	%ymm10, %ymm0, %ymm0
	vmovdqa	%ymm0, 128(%rsp)
	vpaddd	%ymm0, %ymm15, %ymm15
	vpxor	%ymm3, %ymm15, %ymm0
	vpsrld	$7, %ymm0, %ymm3
	vpslld	$25, %ymm0, %ymm0
	vpor	%ymm3, %ymm0, %ymm0
	vpaddd	512(%rsp), %ymm13, %ymm3
	vpaddd	%ymm3, %ymm11, %ymm6
	vpxor	%ymm6, %ymm9, %ymm3
	vpshufb	%ymm10, %ymm3, %ymm3
	vmovdqa	%ymm3, 32(%rsp)
	vmovdqa	%ymm10, %ymm13
	vpaddd	160(%rsp), %ymm3, %ymm3
	vmovdqa	%ymm3, 96(%rsp)
	vpxor	%ymm3, %ymm11, %ymm3
	vpsrld	$7, %ymm3, %ymm9
	vpslld	$25, %ymm3, %ymm3
	vpor	%ymm3, %ymm9, %ymm11
	vpaddd	576(%rsp), %ymm7, %ymm3
	vpaddd	%ymm3, %ymm8, %ymm7
	vpxor	%ymm7, %ymm4, %ymm3
	vpshufb	%ymm10, %ymm3, %ymm12
	vpaddd	(%rsp), %ymm12, %ymm10
	vpxor	%ymm8, %ymm10, %ymm3
	vpsrld	$7, %ymm3, %ymm4
	vpslld	$25, %ymm3, %ymm3
	vpor	%ymm4, %ymm3, %ymm3
	vpaddd	608(%rsp), %ymm14, %ymm4
	vpaddd	%ymm2, %ymm4, %ymm8
	vpxor	%ymm1, %ymm8, %ymm4
	vpshufb	%ymm13, %ymm4, %ymm9
	vpaddd	%ymm5, %ymm9, %ymm5
	vpxor	%ymm2, %ymm5, %ymm1
	vpsrld	$7, %ymm1, %ymm2
	vpslld	$25, %ymm1, %ymm1
	vpor	%ymm2, %ymm1, %ymm1
	vpaddd	448(%rsp), %ymm6, %ymm2
	vpaddd	%ymm0, %ymm2, %ymm6
	vpxor	%ymm6, %ymm12, %ymm2
	vmovdqa	D(CPI11_0)(%rip), %ymm12
	vpshufb	%ymm12, %ymm2, %ymm14
	vpaddd	%ymm5, %ymm14, %ymm5
	vpxor	%ymm0, %ymm5, %ymm0
	vpsrld	$12, %ymm0, %ymm2
	vpslld	$20, %ymm0, %ymm0
	vpor	%ymm2, %ymm0, %ymm4
	vpaddd	352(%rsp), %ymm7, %ymm2
	vpaddd	%ymm2, %ymm11, %ymm7
	vpxor	%ymm7, %ymm9, %ymm2
	vmovdqa	%ymm12, %ymm0
	vpshufb	%ymm12, %ymm2, %ymm2
	vpaddd	%ymm2, %ymm15, %ymm9
	vmovdqa	%ymm9, 160(%rsp)
	vpxor	%ymm11, %ymm9, %ymm9
	vpsrld	$12, %ymm9, %ymm11
	vpslld	$20, %ymm9, %ymm9
	vpor	%ymm11, %ymm9, %ymm12
	vpaddd	288(%rsp), %ymm8, %ymm8
	vpaddd	%ymm3, %ymm8, %ymm13
	vpxor	128(%rsp), %ymm13, %ymm8
	vpshufb	%ymm0, %ymm8, %ymm15
	vpaddd	96(%rsp), %ymm15, %ymm9
	vpxor	%ymm3, %ymm9, %ymm3
	vpsrld	$12, %ymm3, %ymm8
	vpslld	$20, %ymm3, %ymm3
	vpor	%ymm3, %ymm8, %ymm3
	vmovdqa	64(%rsp), %ymm8
	vpaddd	384(%rsp), %ymm8, %ymm8
	vpaddd	%ymm1, %ymm8, %ymm8
	vpxor	32(%rsp), %ymm8, %ymm11
	vpshufb	%ymm0, %ymm11, %ymm11
	vpaddd	%ymm11, %ymm10, %ymm10
	vpxor	%ymm1, %ymm10, %ymm1
	vpsrld	$12, %ymm1, %ymm0
	vpslld	$20, %ymm1, %ymm1
	vpor	%ymm0, %ymm1, %ymm1
	vpaddd	672(%rsp), %ymm6, %ymm0
	vpaddd	%ymm4, %ymm0, %ymm0
	vmovdqa	%ymm0, 32(%rsp)
	vpxor	%ymm0, %ymm14, %ymm0
	vbroadcasti128	D(CPI11_5)(%rip), %ymm6
	vpshufb	%ymm6, %ymm0, %ymm0
	vmovdqa	%ymm0, 128(%rsp)
	vpaddd	%ymm0, %ymm5, %ymm5
	vmovdqa	%ymm5, 64(%rsp)
	vpxor	%ymm4, %ymm5, %ymm0
	vpsrld	$7, %ymm0, %ymm4
	vpslld	$25, %ymm0, %ymm0
	vpor	%ymm4, %ymm0, %ymm5
	vpaddd	320(%rsp), %ymm7, %ymm4
	vpaddd	%ymm4, %ymm12, %ymm0
	vmovdqa	%ymm0, (%rsp)
	vpxor	%ymm0, %ymm2, %ymm2
	vpshufb	%ymm6, %ymm2, %ymm2
	vmovdqa	%ymm2, 96(%rsp)
	vmovdqa	%ymm6, %ymm0
	vpaddd	160(%rsp), %ymm2, %ymm2
	vpxor	%ymm2, %ymm12, %ymm4
	vpsrld	$7, %ymm4, %ymm6
	vpslld	$25, %ymm4, %ymm4
	vpor	%ymm6, %ymm4, %ymm12
	vpaddd	640(%rsp), %ymm13, %ymm4
	vpaddd	%ymm3, %ymm4, %ymm14
	vpxor	%ymm14, %ymm15, %ymm4
	vpshufb	%ymm0, %ymm4, %ymm13
	vpaddd	%ymm13, %ymm9, %ymm6
	vpxor	%ymm3, %ymm6, %ymm3
	vpsrld	$7, %ymm3, %ymm4
	vpslld	$25, %ymm3, %ymm3
	vpor	%ymm4, %ymm3, %ymm3
	vpaddd	608(%rsp), %ymm8, %ymm4
	vpaddd	%ymm1, %ymm4, %ymm4
	vpxor	%ymm4, %ymm11, %ymm7
	vpshufb	%ymm0, %ymm7, %ymm7
	vpaddd	%ymm7, %ymm10, %ymm9
	vpxor	%ymm1, %ymm9, %ymm1
	vpsrld	$7, %ymm1, %ymm8
	vpslld	$25, %ymm1, %ymm1
	vpor	%ymm1, %ymm8, %ymm10
	vpaddd	224(%rsp), %ymm4, %ymm1
	vpaddd	%ymm5, %ymm1, %ymm4
	vpxor	%ymm4, %ymm13, %ymm1
	vmovdqa	D(CPI11_0)(%rip), %ymm11
	vpshufb	%ymm11, %ymm1, %ymm13
	vpaddd	%ymm2, %ymm13, %ymm0
	vmovdqa	%ymm0, 160(%rsp)
	vpxor	%ymm5, %ymm0, %ymm0
	vpsrld	$12, %ymm0, %ymm1
	vpslld	$20, %ymm0, %ymm0
	vpor	%ymm1, %ymm0, %ymm0
	vmovdqa	32(%rsp), %ymm1
	vpaddd	416(%rsp), %ymm1, %ymm1
	vpaddd	%ymm1, %ymm12, %ymm2
	vpxor	%ymm2, %ymm7, %ymm1
	vpshufb	%ymm11, %ymm1, %ymm15
	vpaddd	%ymm6, %ymm15, %ymm7
	vpxor	%ymm7, %ymm12, %ymm1
	vpsrld	$12, %ymm1, %ymm6
	vpslld	$20, %ymm1, %ymm1
	vpor	%ymm6, %ymm1, %ymm12
	vmovdqa	(%rsp), %ymm1
	vpaddd	544(%rsp), %ymm1, %ymm1
	vpaddd	%ymm3, %ymm1, %ymm8
	vpxor	128(%rsp), %ymm8, %ymm1
	vpshufb	%ymm11, %ymm1, %ymm5
	vpaddd	%ymm5, %ymm9, %ymm1
	vmovdqa	%ymm1, (%rsp)
	vpxor	%ymm3, %ymm1, %ymm1
	vpsrld	$12, %ymm1, %ymm3
	vpslld	$20, %ymm1, %ymm1
	vpor	%ymm3, %ymm1, %ymm3
	vpaddd	512(%rsp), %ymm14, %ymm1
	vpaddd	%ymm1, %ymm10, %ymm9
	vpxor	96(%rsp), %ymm9, %ymm1
	vpshufb	%ymm11, %ymm1, %ymm6
	vpaddd	64(%rsp), %ymm6, %ymm14
	vpxor	%ymm10, %ymm14, %ymm1
	vpsrld	$12, %ymm1, %ymm10
	vpslld	$20, %ymm1, %ymm1
	vpor	%ymm1, %ymm10, %ymm1
	vpaddd	192(%rsp), %ymm4, %ymm4
	vpaddd	%ymm0, %ymm4, %ymm4
	vmovdqa	%ymm4, 64(%rsp)
	vpxor	%ymm4, %ymm13, %ymm4
	vbroadcasti128	D(CPI11_5)(%rip), %ymm10
	vpshufb	%ymm10, %ymm4, %ymm4
	vmovdqa	%ymm4, 128(%rsp)
	vpaddd	160(%rsp), %ymm4, %ymm13
	vpxor	%ymm0, %ymm13, %ymm0
	vpsrld	$7, %ymm0, %ymm4
	vpslld	$25, %ymm0, %ymm0
	vpor	%ymm4, %ymm0, %ymm4
	vpaddd	576(%rsp), %ymm2, %ymm0
	vpaddd	%ymm0, %ymm12, %ymm0
	vpxor	%ymm0, %ymm15, %ymm2
	vpshufb	%ymm10, %ymm2, %ymm2
	vmovdqa	%ymm2, 32(%rsp)
	vmovdqa	%ymm10, %ymm15
	vpaddd	%ymm2, %ymm7, %ymm10
	vpxor	%ymm12, %ymm10, %ymm2
	vpsrld	$7, %ymm2, %ymm7
	vpslld	$25, %ymm2, %ymm2
	vpor	%ymm7, %ymm2, %ymm2
	vpaddd	480(%rsp), %ymm8, %ymm7
	vpaddd	%ymm3, %ymm7, %ymm7
	vpxor	%ymm7, %ymm5, %ymm5
	vpshufb	%ymm15, %ymm5, %ymm12
	vpaddd	(%rsp), %ymm12, %ymm5
	vmovdqa	%ymm5, 96(%rsp)
	vpxor	%ymm3, %ymm5, %ymm3
	vpsrld	$7, %ymm3, %ymm5
	vpslld	$25, %ymm3, %ymm3
	vpor	%ymm5, %ymm3, %ymm5
	vpaddd	256(%rsp), %ymm9, %ymm3
	vpaddd	%ymm1, %ymm3, %ymm8
	vpxor	%ymm6, %ymm8, %ymm3
	vpshufb	%ymm15, %ymm3, %ymm9
	vpaddd	%ymm9, %ymm14, %ymm11
	vpxor	%ymm1, %ymm11, %ymm1
	vpsrld	$7, %ymm1, %ymm3
	vpslld	$25, %ymm1, %ymm1
	vpor	%ymm3, %ymm1, %ymm3
	vpaddd	352(%rsp), %ymm0, %ymm0
	vpaddd	%ymm4, %ymm0, %ymm6
	vpxor	%ymm6, %ymm12, %ymm0
	vmovdqa	D(CPI11_0)(%rip), %ymm12
	vpshufb	%ymm12, %ymm0, %ymm15
	vpaddd	%ymm15, %ymm11, %ymm0
	vmovdqa	%ymm0, (%rsp)
	vpxor	%ymm4, %ymm0, %ymm0
	vpsrld	$12, %ymm0, %ymm1
	vpslld	$20, %ymm0, %ymm0
	vpor	%ymm1, %ymm0, %ymm11
	vpaddd	320(%rsp), %ymm7, %ymm0
	vpaddd	%ymm2, %ymm0, %ymm7
	vpxor	%ymm7, %ymm9, %ymm0
	vpshufb	%ymm12, %ymm0, %ymm4
	vmovdqa	%ymm12, %ymm9
	vpaddd	%ymm4, %ymm13, %ymm12
	vpxor	%ymm2, %ymm12, %ymm0
	vpsrld	$12, %ymm0, %ymm1
	vpslld	$20, %ymm0, %ymm0
	vpor	%ymm1, %ymm0, %ymm1
	vpaddd	608(%rsp), %ymm8, %ymm0
	vpaddd	%ymm5, %ymm0, %ymm8
	vpxor	128(%rsp), %ymm8, %ymm0
	vpshufb	%ymm9, %ymm0, %ymm13
	vpaddd	%ymm13, %ymm10, %ymm0
	vmovdqa	%ymm0, 160(%rsp)
	vpxor	%ymm5, %ymm0, %ymm0
	vpsrld	$12, %ymm0, %ymm2
	vpslld	$20, %ymm0, %ymm0
	vpor	%ymm2, %ymm0, %ymm2
	vmovdqa	64(%rsp), %ymm0
	vpaddd	288(%rsp), %ymm0, %ymm0
	vpaddd	%ymm3, %ymm0, %ymm5
	vpxor	32(%rsp), %ymm5, %ymm0
	vpshufb	%ymm9, %ymm0, %ymm14
	vpaddd	96(%rsp), %ymm14, %ymm10
	vpxor	%ymm3, %ymm10, %ymm0
	vpsrld	$12, %ymm0, %ymm3
	vpslld	$20, %ymm0, %ymm0
	vpor	%ymm3, %ymm0, %ymm0
	vpaddd	384(%rsp), %ymm6, %ymm3
	vpaddd	%ymm3, %ymm11, %ymm3
	vmovdqa	%ymm3, 32(%rsp)
	vpxor	%ymm3, %ymm15, %ymm3
	vpshufb	D(CPI11_4)(%rip), %ymm3, %ymm3
	vmovdqa	%ymm3, 128(%rsp)
	vpaddd	(%rsp), %ymm3, %ymm6
	vmovdqa	%ymm6, 64(%rsp)
	vpxor	%ymm6, %ymm11, %ymm3
	vpsrld	$7, %ymm3, %ymm6
	vpslld	$25, %ymm3, %ymm3
	vpor	%ymm6, %ymm3, %ymm11
	vpaddd	544(%rsp), %ymm7, %ymm3
	vpaddd	%ymm1, %ymm3, %ymm15
	vpxor	%ymm4, %ymm15, %ymm3
	vbroadcasti128	D(CPI11_5)(%rip), %ymm6
	vpshufb	%ymm6, %ymm3, %ymm3
	vmovdqa	%ymm3, 96(%rsp)
	vpaddd	%ymm3, %ymm12, %ymm12
	vpxor	%ymm1, %ymm12, %ymm1
	vpsrld	$7, %ymm1, %ymm3
	vpslld	$25, %ymm1, %ymm1
	vpor	%ymm3, %ymm1, %ymm1
	vpaddd	448(%rsp), %ymm8, %ymm3
	vpaddd	%ymm2, %ymm3, %ymm3
	vmovdqa	%ymm3, (%rsp)
	vpxor	%ymm3, %ymm13, %ymm3
	vpshufb	%ymm6, %ymm3, %ymm13
	vpaddd	160(%rsp), %ymm13, %ymm7
	vpxor	%ymm2, %ymm7, %ymm2
	vpsrld	$7, %ymm2, %ymm3
	vpslld	$25, %ymm2, %ymm2
	vpor	%ymm3, %ymm2, %ymm4
	vpaddd	256(%rsp), %ymm5, %ymm2
	vpaddd	%ymm0, %ymm2, %ymm5
	vpxor	%ymm5, %ymm14, %ymm2
	vpshufb	%ymm6, %ymm2, %ymm8
	vpaddd	%ymm8, %ymm10, %ymm2
	vpxor	%ymm0, %ymm2, %ymm0
	vpsrld	$7, %ymm0, %ymm3
	vpslld	$25, %ymm0, %ymm0
	vpor	%ymm3, %ymm0, %ymm3
	vpaddd	192(%rsp), %ymm5, %ymm0
	vpaddd	%ymm0, %ymm11, %ymm10
	vpxor	%ymm10, %ymm13, %ymm0
	vpshufb	%ymm9, %ymm0, %ymm13
	vpaddd	%ymm13, %ymm12, %ymm12
	vpxor	%ymm11, %ymm12, %ymm0
	vpsrld	$12, %ymm0, %ymm5
	vpslld	$20, %ymm0, %ymm0
	vpor	%ymm5, %ymm0, %ymm6
	vmovdqa	32(%rsp), %ymm0
	vpaddd	672(%rsp), %ymm0, %ymm5
	vpaddd	%ymm1, %ymm5, %ymm5
	vpxor	%ymm5, %ymm8, %ymm8
	vmovdqa	%ymm9, %ymm0
	vpshufb	%ymm9, %ymm8, %ymm14
	vpaddd	%ymm7, %ymm14, %ymm7
	vpxor	%ymm1, %ymm7, %ymm1
	vpsrld	$12, %ymm1, %ymm8
	vpslld	$20, %ymm1, %ymm1
	vpor	%ymm1, %ymm8, %ymm1
	vpaddd	512(%rsp), %ymm15, %ymm8
	vpaddd	%ymm4, %ymm8, %ymm8
	vpxor	128(%rsp), %ymm8, %ymm9
	vpshufb	%ymm0, %ymm9, %ymm15
	vpaddd	%ymm2, %ymm15, %ymm9
	vpxor	%ymm4, %ymm9, %ymm2
	vpsrld	$12, %ymm2, %ymm4
	vpslld	$20, %ymm2, %ymm2
	vpor	%ymm4, %ymm2, %ymm2
	vmovdqa	(%rsp), %ymm4
	vpaddd	576(%rsp), %ymm4, %ymm4
	vpaddd	%ymm3, %ymm4, %ymm11
	vpxor	96(%rsp), %ymm11, %ymm4
	vpshufb	%ymm0, %ymm4, %ymm4
	vpaddd	64(%rsp), %ymm4, %ymm0
	vmovdqa	%ymm0, (%rsp)
	vpxor	%ymm3, %ymm0, %ymm3
	vpsrld	$12, %ymm3, %ymm0
	vpslld	$20, %ymm3, %ymm3
	vpor	%ymm0, %ymm3, %ymm3
	vpaddd	416(%rsp), %ymm10, %ymm0
	vpaddd	%ymm6, %ymm0, %ymm0
	vmovdqa	%ymm0, 64(%rsp)
	vpxor	%ymm0, %ymm13, %ymm0
	vbroadcasti128	D(CPI11_5)(%rip), %ymm13
	vpshufb	%ymm13, %ymm0, %ymm0
	vmovdqa	%ymm0, 128(%rsp)
	vpaddd	%ymm0, %ymm12, %ymm0
	vmovdqa	%ymm0, 96(%rsp)
	vpxor	%ymm6, %ymm0, %ymm0
	vpsrld	$7, %ymm0, %ymm6
	vpslld	$25, %ymm0, %ymm0
	vpor	%ymm6, %ymm0, %ymm0
	vpaddd	480(%rsp), %ymm5, %ymm5
	vpaddd	%ymm1, %ymm5, %ymm10
	vpxor	%ymm10, %ymm14, %ymm5
	vpshufb	%ymm13, %ymm5, %ymm5
	vmovdqa	%ymm5, 32(%rsp)
	vpaddd	%ymm5, %ymm7, %ymm12
	vpxor	%ymm1, %ymm12, %ymm1
	vpsrld	$7, %ymm1, %ymm5
	vpslld	$25, %ymm1, %ymm1
	vpor	%ymm5, %ymm1, %ymm6
	vpaddd	640(%rsp), %ymm8, %ymm1
	vpaddd	%ymm2, %ymm1, %ymm1
	vpxor	%ymm1, %ymm15, %ymm5
	vpshufb	%ymm13, %ymm5, %ymm8
	vpaddd	%ymm8, %ymm9, %ymm5
	vpxor	%ymm2, %ymm5, %ymm2
	vpsrld	$7, %ymm2, %ymm7
	vpslld	$25, %ymm2, %ymm2
	vpor	%ymm7, %ymm2, %ymm2
	vpaddd	224(%rsp), %ymm11, %ymm7
	vpaddd	%ymm3, %ymm7, %ymm11
	vpxor	%ymm4, %ymm11, %ymm4
	vpshufb	%ymm13, %ymm4, %ymm7
	vpaddd	(%rsp), %ymm7, %ymm14
	vpxor	%ymm3, %ymm14, %ymm3
	vpsrld	$7, %ymm3, %ymm4
	vpslld	$25, %ymm3, %ymm3
	vpor	%ymm4, %ymm3, %ymm9
	vpaddd	320(%rsp), %ymm10, %ymm3
	vpaddd	%ymm0, %ymm3, %ymm4
	vpxor	%ymm4, %ymm8, %ymm3
	vmovdqa	D(CPI11_0)(%rip), %ymm10
	vpshufb	%ymm10, %ymm3, %ymm13
	vpaddd	%ymm13, %ymm14, %ymm3
	vmovdqa	%ymm3, 160(%rsp)
	vpxor	%ymm0, %ymm3, %ymm0
	vpsrld	$12, %ymm0, %ymm3
	vpslld	$20, %ymm0, %ymm0
	vpor	%ymm3, %ymm0, %ymm0
	vpaddd	544(%rsp), %ymm1, %ymm1
	vpaddd	%ymm6, %ymm1, %ymm8
	vpxor	%ymm7, %ymm8, %ymm1
	vpshufb	%ymm10, %ymm1, %ymm14
	vpaddd	96(%rsp), %ymm14, %ymm7
	vpxor	%ymm6, %ymm7, %ymm1
	vpsrld	$12, %ymm1, %ymm3
	vpslld	$20, %ymm1, %ymm1
	vpor	%ymm3, %ymm1, %ymm3
	vpaddd	256(%rsp), %ymm11, %ymm1
	vpaddd	%ymm2, %ymm1, %ymm11
	vpxor	128(%rsp), %ymm11, %ymm1
	vpshufb	%ymm10, %ymm1, %ymm15
	vpaddd	%ymm15, %ymm12, %ymm1
	vmovdqa	%ymm1, (%rsp)
	vpxor	%ymm2, %ymm1, %ymm1
	vpsrld	$12, %ymm1, %ymm2
	vpslld	$20, %ymm1, %ymm1
	vpor	%ymm2, %ymm1, %ymm6
	vmovdqa	64(%rsp), %ymm1
	vpaddd	608(%rsp), %ymm1, %ymm2
	vpaddd	%ymm2, %ymm9, %ymm12
	vpxor	32(%rsp), %ymm12, %ymm2
	vpshufb	%ymm10, %ymm2, %ymm2
	vpaddd	%ymm2, %ymm5, %ymm10
	vpxor	%ymm9, %ymm10, %ymm5
	vpsrld	$12, %ymm5, %ymm9
	vpslld	$20, %ymm5, %ymm5
	vpor	%ymm5, %ymm9, %ymm5
	vpaddd	288(%rsp), %ymm4, %ymm4
	vpaddd	%ymm0, %ymm4, %ymm1
	vmovdqa	%ymm1, 32(%rsp)
	vpxor	%ymm1, %ymm13, %ymm4
	vbroadcasti128	D(CPI11_5)(%rip), %ymm9
	vpshufb	%ymm9, %ymm4, %ymm1
	vmovdqa	%ymm1, 128(%rsp)
	vpaddd	160(%rsp), %ymm1, %ymm1
	vmovdqa	%ymm1, 64(%rsp)
	vpxor	%ymm0, %ymm1, %ymm0
	vpsrld	$7, %ymm0, %ymm4
	vpslld	$25, %ymm0, %ymm0
	vpor	%ymm4, %ymm0, %ymm1
	vpaddd	512(%rsp), %ymm8, %ymm4
	vpaddd	%ymm3, %ymm4, %ymm13
	vpxor	%ymm13, %ymm14, %ymm8
	vpshufb	%ymm9, %ymm8, %ymm0
	vmovdqa	%ymm0, 96(%rsp)
	vpaddd	%ymm0, %ymm7, %ymm14
	vpxor	%ymm3, %ymm14, %ymm3
	vpsrld	$7, %ymm3, %ymm7
	vpslld	$25, %ymm3, %ymm3
	vpor	%ymm7, %ymm3, %ymm8
	vpaddd	352(%rsp), %ymm11, %ymm3
	vpaddd	%ymm6, %ymm3, %ymm11
	vpxor	%ymm11, %ymm15, %ymm3
	vpshufb	%ymm9, %ymm3, %ymm0
	vpaddd	(%rsp), %ymm0, %ymm7
	vpxor	%ymm6, %ymm7, %ymm3
	vpsrld	$7, %ymm3, %ymm6
	vpslld	$25, %ymm3, %ymm3
	vpor	%ymm6, %ymm3, %ymm4
	vpaddd	224(%rsp), %ymm12, %ymm6
	vpaddd	%ymm5, %ymm6, %ymm6
	vpxor	%ymm6, %ymm2, %ymm2
	vpshufb	%ymm9, %ymm2, %ymm15
	vpaddd	%ymm15, %ymm10, %ymm2
	vpxor	%ymm5, %ymm2, %ymm5
	vpsrld	$7, %ymm5, %ymm10
	vpslld	$25, %ymm5, %ymm5
	vpor	%ymm5, %ymm10, %ymm5
	vpaddd	416(%rsp), %ymm6, %ymm6
	vpaddd	%ymm1, %ymm6, %ymm10
	vpxor	%ymm0, %ymm10, %ymm0
	vmovdqa	D(CPI11_0)(%rip), %ymm9
	vpshufb	%ymm9, %ymm0, %ymm12
	vpaddd	%ymm12, %ymm14, %ymm0
	vmovdqa	%ymm0, 160(%rsp)
	vpxor	%ymm1, %ymm0, %ymm0
	vpsrld	$12, %ymm0, %ymm1
	vpslld	$20, %ymm0, %ymm0
	vpor	%ymm1, %ymm0, %ymm3
	vmovdqa	32(%rsp), %ymm0
	vpaddd	384(%rsp), %ymm0, %ymm1
	vpaddd	%ymm1, %ymm8, %ymm6
	vpxor	%ymm6, %ymm15, %ymm1
	vmovdqa	%ymm9, %ymm0
	vpshufb	%ymm9, %ymm1, %ymm14
	vpaddd	%ymm7, %ymm14, %ymm7
	vpxor	%ymm7, %ymm8, %ymm1
	vpsrld	$12, %ymm1, %ymm8
	vpslld	$20, %ymm1, %ymm1
	vpor	%ymm1, %ymm8, %ymm9
	vpaddd	576(%rsp), %ymm13, %ymm1
	vpaddd	%ymm4, %ymm1, %ymm8
	vpxor	128(%rsp), %ymm8, %ymm1
	vpshufb	%ymm0, %ymm1, %ymm15
	vpaddd	%ymm2, %ymm15, %ymm13
	vpxor	%ymm4, %ymm13, %ymm1
	vpsrld	$12, %ymm1, %ymm2
	vpslld	$20, %ymm1, %ymm1
	vpor	%ymm2, %ymm1, %ymm2
	vpaddd	480(%rsp), %ymm11, %ymm1
	vpaddd	%ymm5, %ymm1, %ymm11
	vpxor	96(%rsp), %ymm11, %ymm1
	vpshufb	%ymm0, %ymm1, %ymm4
	vpaddd	64(%rsp), %ymm4, %ymm0
	vmovdqa	%ymm0, (%rsp)
	vpxor	%ymm5, %ymm0, %ymm1
	vpsrld	$12, %ymm1, %ymm5
	vpslld	$20, %ymm1, %ymm1
	vpor	%ymm5, %ymm1, %ymm1
	vpaddd	672(%rsp), %ymm10, %ymm5
	vpaddd	%ymm3, %ymm5, %ymm0
	vmovdqa	%ymm0, 64(%rsp)
	vpxor	%ymm0, %ymm12, %ymm5
	vbroadcasti128	D(CPI11_5)(%rip), %ymm10
	vpshufb	%ymm10, %ymm5, %ymm0
	vmovdqa	%ymm0, 128(%rsp)
	vpaddd	160(%rsp), %ymm0, %ymm0
	vmovdqa	%ymm0, 96(%rsp)
	vpxor	%ymm3, %ymm0, %ymm0
	vpsrld	$7, %ymm0, %ymm5
	vpslld	$25, %ymm0, %ymm0
	vpor	%ymm5, %ymm0, %ymm0
	vpaddd	640(%rsp), %ymm6, %ymm5
	vpaddd	%ymm5, %ymm9, %ymm6
	vpxor	%ymm6, %ymm14, %ymm5
	vpshufb	%ymm10, %ymm5, %ymm3
	vmovdqa	%ymm3, 32(%rsp)
	vpaddd	%ymm3, %ymm7, %ymm12
	vpxor	%ymm9, %ymm12, %ymm5
	vpsrld	$7, %ymm5, %ymm7
	vpslld	$25, %ymm5, %ymm5
	vpor	%ymm7, %ymm5, %ymm9
	vpaddd	448(%rsp), %ymm8, %ymm5
	vpaddd	%ymm2, %ymm5, %ymm7
	vpxor	%ymm7, %ymm15, %ymm5
	vpshufb	%ymm10, %ymm5, %ymm8
	vmovdqa	%ymm10, %ymm3
	vpaddd	%ymm8, %ymm13, %ymm5
	vpxor	%ymm2, %ymm5, %ymm2
	vpsrld	$7, %ymm2, %ymm10
	vpslld	$25, %ymm2, %ymm2
	vpor	%ymm2, %ymm10, %ymm2
	vpaddd	192(%rsp), %ymm11, %ymm10
	vpaddd	%ymm1, %ymm10, %ymm11
	vpxor	%ymm4, %ymm11, %ymm4
	vpshufb	%ymm3, %ymm4, %ymm14
	vpaddd	(%rsp), %ymm14, %ymm3
	vpxor	%ymm1, %ymm3, %ymm1
	vpsrld	$7, %ymm1, %ymm4
	vpslld	$25, %ymm1, %ymm1
	vpor	%ymm4, %ymm1, %ymm4
	vpaddd	544(%rsp), %ymm6, %ymm1
	vpaddd	%ymm0, %ymm1, %ymm6
	vpxor	%ymm6, %ymm8, %ymm1
	vmovdqa	D(CPI11_0)(%rip), %ymm15
	vpshufb	%ymm15, %ymm1, %ymm13
	vpaddd	%ymm3, %ymm13, %ymm1
	vmovdqa	%ymm1, 160(%rsp)
	vpxor	%ymm0, %ymm1, %ymm0
	vpsrld	$12, %ymm0, %ymm1
	vpslld	$20, %ymm0, %ymm0
	vpor	%ymm1, %ymm0, %ymm10
	vpaddd	512(%rsp), %ymm7, %ymm0
	vpaddd	%ymm0, %ymm9, %ymm8
	vpxor	%ymm8, %ymm14, %ymm0
	vpshufb	%ymm15, %ymm0, %ymm14
	vmovdqa	%ymm15, %ymm3
	vpaddd	96(%rsp), %ymm14, %ymm7
	vpxor	%ymm7, %ymm9, %ymm0
	vpsrld	$12, %ymm0, %ymm1
	vpslld	$20, %ymm0, %ymm0
	vpor	%ymm1, %ymm0, %ymm1
	vpaddd	224(%rsp), %ymm11, %ymm0
	vpaddd	%ymm2, %ymm0, %ymm11
	vpxor	128(%rsp), %ymm11, %ymm0
	vpshufb	%ymm15, %ymm0, %ymm15
	vpaddd	%ymm15, %ymm12, %ymm9
	vpxor	%ymm2, %ymm9, %ymm0
	vpsrld	$12, %ymm0, %ymm2
	vpslld	$20, %ymm0, %ymm0
	vpor	%ymm2, %ymm0, %ymm0
	vmovdqa	64(%rsp), %ymm2
	vpaddd	256(%rsp), %ymm2, %ymm2
	vpaddd	%ymm4, %ymm2, %ymm12
	vpxor	32(%rsp), %ymm12, %ymm2
	vpshufb	%ymm3, %ymm2, %ymm2
	vpaddd	%ymm2, %ymm5, %ymm3
	vmovdqa	%ymm3, (%rsp)
	vpxor	%ymm4, %ymm3, %ymm4
	vpsrld	$12, %ymm4, %ymm5
	vpslld	$20, %ymm4, %ymm4
	vpor	%ymm5, %ymm4, %ymm5
	vpaddd	608(%rsp), %ymm6, %ymm4
	vpaddd	%ymm4, %ymm10, %ymm3
	vmovdqa	%ymm3, 32(%rsp)
	vpxor	%ymm3, %ymm13, %ymm4
	vbroadcasti128	D(CPI11_5)(%rip), %ymm13
	vpshufb	%ymm13, %ymm4, %ymm3
	vmovdqa	%ymm3, 128(%rsp)
	vpaddd	160(%rsp), %ymm3, %ymm6
	vmovdqa	%ymm6, 64(%rsp)
	vpxor	%ymm6, %ymm10, %ymm4
	vpsrld	$7, %ymm4, %ymm6
	vpslld	$25, %ymm4, %ymm4
	vpor	%ymm6, %ymm4, %ymm10
	vpaddd	576(%rsp), %ymm8, %ymm4
	vpaddd	%ymm1, %ymm4, %ymm4
	vpxor	%ymm4, %ymm14, %ymm6
	vpshufb	%ymm13, %ymm6, %ymm3
	vmovdqa	%ymm3, 96(%rsp)
	vpaddd	%ymm3, %ymm7, %ymm6
	vpxor	%ymm1, %ymm6, %ymm1
	vpsrld	$7, %ymm1, %ymm7
	vpslld	$25, %ymm1, %ymm1
	vpor	%ymm7, %ymm1, %ymm1
	vpaddd	320(%rsp), %ymm11, %ymm7
	vpaddd	%ymm0, %ymm7, %ymm11
	vpxor	%ymm11, %ymm15, %ymm7
	vpshufb	%ymm13, %ymm7, %ymm8
	vpaddd	%ymm8, %ymm9, %ymm7
	vpxor	%ymm0, %ymm7, %ymm0
	vpsrld	$7, %ymm0, %ymm9
	vpslld	$25, %ymm0, %ymm0
	vpor	%ymm0, %ymm9, %ymm9
	vpaddd	192(%rsp), %ymm12, %ymm0
	vpaddd	%ymm5, %ymm0, %ymm0
	vpxor	%ymm0, %ymm2, %ymm3
	vpshufb	%ymm13, %ymm3, %ymm14
	vpaddd	(%rsp), %ymm14, %ymm13
	vpxor	%ymm5, %ymm13, %ymm2
	vpsrld	$7, %ymm2, %ymm3
	vpslld	$25, %ymm2, %ymm2
	vpor	%ymm3, %ymm2, %ymm3
	vpaddd	672(%rsp), %ymm0, %ymm0
	vpaddd	%ymm0, %ymm10, %ymm0
	vmovdqa	%ymm0, (%rsp)
	vpxor	%ymm0, %ymm8, %ymm0
	vmovdqa	D(CPI11_0)(%rip), %ymm15
	vpshufb	%ymm15, %ymm0, %ymm12
	vpaddd	%ymm6, %ymm12, %ymm6
	vpxor	%ymm6, %ymm10, %ymm0
	vpsrld	$12, %ymm0, %ymm5
	vpslld	$20, %ymm0, %ymm0
	vpor	%ymm5, %ymm0, %ymm2
	vmovdqa	32(%rsp), %ymm0
	vpaddd	288(%rsp), %ymm0, %ymm5
	vpaddd	%ymm1, %ymm5, %ymm8
	vpxor	%ymm8, %ymm14, %ymm5
	vmovdqa	%ymm15, %ymm0
	vpshufb	%ymm15, %ymm5, %ymm14
	vpaddd	%ymm7, %ymm14, %ymm7
	vpxor	%ymm1, %ymm7, %ymm1
	vpsrld	$12, %ymm1, %ymm5
	vpslld	$20, %ymm1, %ymm1
	vpor	%ymm5, %ymm1, %ymm5
	vpaddd	480(%rsp), %ymm4, %ymm1
	vpaddd	%ymm1, %ymm9, %ymm10
	vpxor	128(%rsp), %ymm10, %ymm1
	vpshufb	%ymm15, %ymm1, %ymm15
	vpaddd	%ymm15, %ymm13, %ymm13
	vpxor	%ymm9, %ymm13, %ymm1
	vpsrld	$12, %ymm1, %ymm4
	vpslld	$20, %ymm1, %ymm1
	vpor	%ymm4, %ymm1, %ymm1
	vpaddd	640(%rsp), %ymm11, %ymm4
	vpaddd	%ymm3, %ymm4, %ymm11
	vpxor	96(%rsp), %ymm11, %ymm4
	vpshufb	%ymm0, %ymm4, %ymm4
	vpaddd	64(%rsp), %ymm4, %ymm9
	vpxor	%ymm3, %ymm9, %ymm3
	vpsrld	$12, %ymm3, %ymm0
	vpslld	$20, %ymm3, %ymm3
	vpor	%ymm0, %ymm3, %ymm3
	vmovdqa	(%rsp), %ymm0
	vpaddd	384(%rsp), %ymm0, %ymm0
	vpaddd	%ymm2, %ymm0, %ymm0
	vmovdqa	%ymm0, 96(%rsp)
	vpxor	%ymm0, %ymm12, %ymm12
	vbroadcasti128	D(CPI11_5)(%rip), %ymm0
	vpshufb	%ymm0, %ymm12, %ymm12
	vmovdqa	%ymm12, 64(%rsp)
	vpaddd	%ymm6, %ymm12, %ymm6
	vmovdqa	%ymm6, 32(%rsp)
	vpxor	%ymm2, %ymm6, %ymm2
	vpsrld	$7, %ymm2, %ymm6
	vpslld	$25, %ymm2, %ymm2
	vpor	%ymm6, %ymm2, %ymm6
	vpaddd	448(%rsp), %ymm8, %ymm2
	vpaddd	%ymm5, %ymm2, %ymm2
	vpxor	%ymm2, %ymm14, %ymm8
	vmovdqa	%ymm0, %ymm12
	vpshufb	%ymm0, %ymm8, %ymm0
	vmovdqa	%ymm0, 128(%rsp)
	vpaddd	%ymm0, %ymm7, %ymm14
	vpxor	%ymm5, %ymm14, %ymm5
	vpsrld	$7, %ymm5, %ymm8
	vpslld	$25, %ymm5, %ymm5
	vpor	%ymm5, %ymm8, %ymm8
	vpaddd	352(%rsp), %ymm10, %ymm5
	vpaddd	%ymm1, %ymm5, %ymm5
	vpxor	%ymm5, %ymm15, %ymm10
	vpshufb	%ymm12, %ymm10, %ymm0
	vmovdqa	%ymm12, %ymm15
	vpaddd	%ymm0, %ymm13, %ymm12
	vpxor	%ymm1, %ymm12, %ymm1
	vpsrld	$7, %ymm1, %ymm10
	vpslld	$25, %ymm1, %ymm1
	vpor	%ymm1, %ymm10, %ymm7
	vpaddd	416(%rsp), %ymm11, %ymm1
	vpaddd	%ymm3, %ymm1, %ymm13
	vpxor	%ymm4, %ymm13, %ymm1
	vpshufb	%ymm15, %ymm1, %ymm11
	vpaddd	%ymm11, %ymm9, %ymm9
	vpxor	%ymm3, %ymm9, %ymm1
	vpsrld	$7, %ymm1, %ymm3
	vpslld	$25, %ymm1, %ymm1
	vpor	%ymm3, %ymm1, %ymm10
	vpaddd	512(%rsp), %ymm2, %ymm2
	vpaddd	576(%rsp), %ymm5, %ymm15
	vpaddd	192(%rsp), %ymm13, %ymm1
	vmovdqa	96(%rsp), %ymm3
	vpaddd	224(%rsp), %ymm3, %ymm3
	vmovdqa	%ymm3, 224(%rsp)
	vpaddd	%ymm6, %ymm2, %ymm4
	vpxor	%ymm4, %ymm0, %ymm0
	vpshufb	D(CPI11_0)(%rip), %ymm0, %ymm5
	vpaddd	%ymm5, %ymm9, %ymm0
	vmovdqa	%ymm0, 576(%rsp)
	vpxor	%ymm6, %ymm0, %ymm2
	vpsrld	$12, %ymm2, %ymm6
	vpslld	$20, %ymm2, %ymm2
	vpor	%ymm6, %ymm2, %ymm13
	vpaddd	%ymm8, %ymm15, %ymm3
	vpxor	%ymm3, %ymm11, %ymm2
	vmovdqa	D(CPI11_0)(%rip), %ymm0
	vpshufb	%ymm0, %ymm2, %ymm9
	vpaddd	32(%rsp), %ymm9, %ymm2
	vmovdqa	%ymm2, 192(%rsp)
	vpxor	%ymm2, %ymm8, %ymm6
	vpsrld	$12, %ymm6, %ymm8
	vpslld	$20, %ymm6, %ymm6
	vpor	%ymm6, %ymm8, %ymm11
	vpaddd	%ymm7, %ymm1, %ymm1
	vpxor	64(%rsp), %ymm1, %ymm6
	vpshufb	%ymm0, %ymm6, %ymm8
	vmovdqa	%ymm0, %ymm2
	vpaddd	%ymm8, %ymm14, %ymm15
	vpxor	%ymm7, %ymm15, %ymm6
	vpsrld	$12, %ymm6, %ymm7
	vpslld	$20, %ymm6, %ymm6
	vpor	%ymm7, %ymm6, %ymm7
	vpaddd	224(%rsp), %ymm10, %ymm0
	vpxor	128(%rsp), %ymm0, %ymm6
	vpshufb	%ymm2, %ymm6, %ymm6
	vpaddd	%ymm6, %ymm12, %ymm14
	vpxor	%ymm10, %ymm14, %ymm10
	vpsrld	$12, %ymm10, %ymm12
	vpslld	$20, %ymm10, %ymm10
	vpor	%ymm12, %ymm10, %ymm10
	vpaddd	256(%rsp), %ymm4, %ymm4
	vpaddd	480(%rsp), %ymm3, %ymm3
	vpaddd	544(%rsp), %ymm1, %ymm1
	vmovdqa	%ymm1, 224(%rsp)
	vpaddd	416(%rsp), %ymm0, %ymm0
	vmovdqa	%ymm0, 256(%rsp)
	vpaddd	%ymm4, %ymm13, %ymm12
	vpxor	%ymm5, %ymm12, %ymm1
	vbroadcasti128	D(CPI11_5)(%rip), %ymm0
	vpshufb	%ymm0, %ymm1, %ymm1
	vmovdqa	%ymm1, 416(%rsp)
	vpaddd	576(%rsp), %ymm1, %ymm1
	vmovdqa	%ymm1, 480(%rsp)
	vpxor	%ymm1, %ymm13, %ymm4
	vpsrld	$7, %ymm4, %ymm5
	vpslld	$25, %ymm4, %ymm4
	vpor	%ymm5, %ymm4, %ymm5
	vpaddd	%ymm3, %ymm11, %ymm1
	vpxor	%ymm1, %ymm9, %ymm3
	vpshufb	%ymm0, %ymm3, %ymm9
	vpaddd	192(%rsp), %ymm9, %ymm13
	vpxor	%ymm11, %ymm13, %ymm2
	vpsrld	$7, %ymm2, %ymm3
	vpslld	$25, %ymm2, %ymm2
	vpor	%ymm3, %ymm2, %ymm2
	vpaddd	224(%rsp), %ymm7, %ymm11
	vpxor	%ymm11, %ymm8, %ymm3
	vpshufb	%ymm0, %ymm3, %ymm8
	vpaddd	%ymm8, %ymm15, %ymm4
	vpxor	%ymm7, %ymm4, %ymm3
	vpsrld	$7, %ymm3, %ymm7
	vpslld	$25, %ymm3, %ymm3
	vpor	%ymm7, %ymm3, %ymm3
	vmovdqa	%ymm3, 192(%rsp)
	vpaddd	256(%rsp), %ymm10, %ymm7
	vpxor	%ymm7, %ymm6, %ymm6
	vpshufb	%ymm0, %ymm6, %ymm0
	vpaddd	%ymm0, %ymm14, %ymm14
	vpxor	%ymm10, %ymm14, %ymm6
	vpsrld	$7, %ymm6, %ymm10
	vpslld	$25, %ymm6, %ymm6
	vpor	%ymm6, %ymm10, %ymm10
	vpaddd	384(%rsp), %ymm7, %ymm6
	vpaddd	608(%rsp), %ymm12, %ymm7
	vpaddd	640(%rsp), %ymm1, %ymm12
	vpaddd	448(%rsp), %ymm11, %ymm11
	vpaddd	%ymm5, %ymm6, %ymm1
	vpaddd	%ymm2, %ymm7, %ymm15
	vpaddd	%ymm3, %ymm12, %ymm12
	vpaddd	%ymm10, %ymm11, %ymm11
	vpxor	%ymm1, %ymm8, %ymm6
	vmovdqa	D(CPI11_0)(%rip), %ymm8
	vpshufb	%ymm8, %ymm6, %ymm6
	vpxor	%ymm0, %ymm15, %ymm0
	vpshufb	%ymm8, %ymm0, %ymm7
	vpxor	416(%rsp), %ymm12, %ymm0
	vpshufb	%ymm8, %ymm0, %ymm3
	vpxor	%ymm11, %ymm9, %ymm0
	vpshufb	%ymm8, %ymm0, %ymm9
	vpaddd	%ymm6, %ymm13, %ymm0
	vmovdqa	%ymm0, 448(%rsp)
	vpxor	%ymm5, %ymm0, %ymm0
	vpsrld	$12, %ymm0, %ymm5
	vpslld	$20, %ymm0, %ymm0
	vpor	%ymm5, %ymm0, %ymm13
	vpaddd	%ymm7, %ymm4, %ymm4
	vpxor	%ymm2, %ymm4, %ymm0
	vpsrld	$12, %ymm0, %ymm2
	vpslld	$20, %ymm0, %ymm0
	vpor	%ymm2, %ymm0, %ymm5
	vmovdqa	%ymm3, %ymm8
	vpaddd	%ymm3, %ymm14, %ymm0
	vmovdqa	%ymm0, 640(%rsp)
	vpxor	192(%rsp), %ymm0, %ymm0
	vpsrld	$12, %ymm0, %ymm3
	vpslld	$20, %ymm0, %ymm0
	vpor	%ymm3, %ymm0, %ymm3
	vpaddd	480(%rsp), %ymm9, %ymm0
	vmovdqa	%ymm0, 480(%rsp)
	vpxor	%ymm0, %ymm10, %ymm0
	vpsrld	$12, %ymm0, %ymm10
	vpslld	$20, %ymm0, %ymm0
	vpor	%ymm0, %ymm10, %ymm10
	vpaddd	288(%rsp), %ymm1, %ymm0
	vpaddd	352(%rsp), %ymm15, %ymm1
	vpaddd	320(%rsp), %ymm12, %ymm15
	vpaddd	672(%rsp), %ymm11, %ymm12
	vpaddd	%ymm0, %ymm13, %ymm14
	vpaddd	%ymm5, %ymm1, %ymm11
	vpaddd	%ymm3, %ymm15, %ymm15
	vpaddd	%ymm10, %ymm12, %ymm2
	vpxor	%ymm6, %ymm14, %ymm6
	vbroadcasti128	D(CPI11_5)(%rip), %ymm0
	vpshufb	%ymm0, %ymm6, %ymm6
	vpxor	%ymm7, %ymm11, %ymm7
	vpshufb	%ymm0, %ymm7, %ymm7
	vpxor	%ymm15, %ymm8, %ymm8
	vpshufb	%ymm0, %ymm8, %ymm8
	vpxor	%ymm2, %ymm9, %ymm9
	vpshufb	%ymm0, %ymm9, %ymm9
	vpaddd	448(%rsp), %ymm6, %ymm12
	vpxor	%ymm13, %ymm12, %ymm13
	vpsrld	$7, %ymm13, %ymm0
	vpslld	$25, %ymm13, %ymm13
	vpor	%ymm0, %ymm13, %ymm0
	vmovdqa	%ymm0, 672(%rsp)
	vpaddd	%ymm7, %ymm4, %ymm4
	vpxor	%ymm5, %ymm4, %ymm5
	vpsrld	$7, %ymm5, %ymm13
	vpslld	$25, %ymm5, %ymm5
	vpor	%ymm5, %ymm13, %ymm5
	vpaddd	640(%rsp), %ymm8, %ymm13
	vpxor	%ymm3, %ymm13, %ymm3
	vpsrld	$7, %ymm3, %ymm0
	vpslld	$25, %ymm3, %ymm3
	vpor	%ymm0, %ymm3, %ymm1
	vpaddd	480(%rsp), %ymm9, %ymm3
	vpxor	%ymm3, %ymm10, %ymm10
	vpsrld	$7, %ymm10, %ymm0
	vpslld	$25, %ymm10, %ymm10
	vpor	%ymm0, %ymm10, %ymm0
	vpxor	%ymm3, %ymm11, %ymm3
	vpxor	%ymm15, %ymm12, %ymm10
	vpxor	%ymm2, %ymm4, %ymm2
	vpxor	%ymm14, %ymm13, %ymm4
	vpxor	672(%rsp), %ymm8, %ymm8
	vpxor	%ymm5, %ymm9, %ymm5
	vpxor	%ymm6, %ymm1, %ymm1
	vpxor	%ymm7, %ymm0, %ymm0
	vmovdqu	%ymm3, (%rbx)
	vmovdqu	%ymm10, 32(%rbx)
	vmovdqu	%ymm2, 64(%rbx)
	vmovdqu	%ymm4, 96(%rbx)
	vmovdqu	%ymm8, 128(%rbx)
	vmovdqu	%ymm5, 160(%rbx)
	vmovdqu	%ymm1, 192(%rbx)
	vmovdqu	%ymm0, 224(%rbx)
	leaq	-32(%rbp), %rsp
	popq	%rbx
	popq	%r12
	popq	%r14
	popq	%r15
	popq	%rbp
	.cfi_def_cfa %rsp, 8
	vzeroupper
	retq
	SIZE("keyed_blake3::compression::lanes::take_in_each::<#a9687390e0dd665c>")
	.cfi_endproc

SIZED(16, 4)
	.p2align	4, 0x0
D(CPI12_0):
	.long	0
	.long	0
	.long	64
	.long	20
D(CPI12_1):
	.long	1779033703
	.long	3144134277
	.long	1013904242
	.long	2773480762
SIZED(32, 5)
	.p2align	5, 0x0
D(CPI12_2):
	.byte	1
	.byte	2
	.byte	3
	.byte	0
	.byte	5
	.byte	6
	.byte	7
	.byte	4
	.byte	9
	.byte	10
	.byte	11
	.byte	8
	.byte	13
	.byte	14
	.byte	15
	.byte	12
	.byte	17
	.byte	18
	.byte	19
	.byte	16
	.byte	21
	.byte	22
	.byte	23
	.byte	20
	.byte	25
	.byte	26
	.byte	27
	.byte	24
	.byte	29
	.byte	30
	.byte	31
	.byte	28
D(CPI12_3):
	.byte	2
	.byte	3
	.byte	0
	.byte	1
	.byte	6
	.byte	7
	.byte	4
	.byte	5
	.byte	10
	.byte	11
	.byte	8
	.byte	9
	.byte	14
	.byte	15
	.byte	12
	.byte	13
	.byte	18
	.byte	19
	.byte	16
	.byte	17
	.byte	22
	.byte	23
	.byte	20
	.byte	21
	.byte	26
	.byte	27
	.byte	24
	.byte	25
	.byte	30
	.byte	31
	.byte	28
	.byte	29
D(CPI12_4):
	.byte	10
	.byte	11
	.byte	8
	.byte	9
	.byte	14
	.byte	15
	.byte	12
	.byte	13
	.byte	2
	.byte	3
	.byte	0
	.byte	1
	.byte	6
	.byte	7
	.byte	4
	.byte	5
	.byte	26
	.byte	27
	.byte	24
	.byte	25
	.byte	30
	.byte	31
	.byte	28
	.byte	29
	.byte	18
	.byte	19
	.byte	16
	.byte	17
	.byte	22
	.byte	23
	.byte	20
	.byte	21
D(CPI12_5):
	.long	0
	.long	0
	.long	2
	.long	2
	.long	2
	.long	2
	.zero	4
	.zero	4
D(CPI12_6):
	.long	4
	.long	4
	.long	2
	.long	2
	.long	6
	.long	6
	.long	6
	.long	6
D(CPI12_7):
	.long	0
	.long	2
	.zero	4
	.long	1
	.long	4
	.long	6
	.zero	4
	.long	3
D(CPI12_8):
	.long	0
	.long	2
	.zero	4
	.long	5
	.long	4
	.long	6
	.zero	4
	.long	7
D(CPI12_9):
	.long	5
	.zero	4
	.zero	4
	.zero	4
	.long	7
	.zero	4
	.zero	4
	.zero	4
D(CPI12_10):
	.zero	4
	.zero	4
	.long	5
	.long	4
	.zero	4
	.zero	4
	.long	7
	.long	6
D(CPI12_11):
	.zero	4
	.zero	4
	.long	1
	.long	0
	.zero	4
	.zero	4
	.long	3
	.long	2
D(CPI12_12):
	.zero	4
	.zero	4
	.long	2
	.long	6
	.zero	4
	.zero	4
	.long	3
	.long	7
D(CPI12_13):
	.long	2
	.long	6
	.zero	4
	.zero	4
	.long	3
	.long	7
	.zero	4
	.zero	4
D(CPI12_14):
	.zero	4
	.zero	4
	.long	0
	.long	4
	.zero	4
	.zero	4
	.long	1
	.long	5
D(CPI12_15):
	.long	0
	.long	4
	.zero	4
	.zero	4
	.long	1
	.long	5
	.zero	4
	.zero	4
CODE(".text.keyed_blake3::subtrees::four_parent_values::<#a9687390e0dd665c>")
	.p2align	4
	TYPE("keyed_blake3::subtrees::four_parent_values::<#a9687390e0dd665c>", function)
"keyed_blake3::subtrees::four_parent_values::<#a9687390e0dd665c>":
	.cfi_startproc
	subq	$1608, %rsp
	.cfi_def_cfa_offset 1616
	vmovups	%ymm1, -64(%rsp)
	vmovaps	%xmm0, -96(%rsp)
	vmovups	(%rsi), %xmm7
	vmovups	16(%rsi), %xmm6
	vmovaps	%xmm6, 368(%rsp)
	vmovups	32(%rsi), %xmm3
	vunpcklps	%xmm3, %xmm7, %xmm2
	vunpckhps	%xmm3, %xmm7, %xmm4
	vmovaps	%xmm7, 336(%rsp)
	vinsertf128	$1, %xmm4, %ymm2, %ymm9
	vmovups	%ymm9, 768(%rsp)
	vmovups	96(%rsi), %xmm2
	vmovups	64(%rsi), %xmm8
	vmovups	48(%rsi), %xmm4
	vunpckhps	%xmm4, %xmm6, %xmm5
	vunpcklps	%xmm4, %xmm6, %xmm4
	vinsertf128	$1, %xmm5, %ymm4, %ymm1
	vmovups	%ymm1, 496(%rsp)
	vunpckhps	%xmm2, %xmm8, %xmm4
	vunpcklps	%xmm2, %xmm8, %xmm5
	vmovaps	%xmm8, 656(%rsp)
	vinsertf128	$1, %xmm4, %ymm5, %ymm0
	vmovups	%ymm0, 1344(%rsp)
	vshufps	$245, %xmm7, %xmm7, %xmm4
	vblendps	$10, %xmm3, %xmm4, %xmm4
	vmovdqu	112(%rsi), %xmm3
	vmovdqu	80(%rsi), %xmm1
	vmovdqa	%xmm1, 240(%rsp)
	vpunpckhdq	%xmm3, %xmm1, %xmm5
	vpunpckldq	%xmm3, %xmm1, %xmm3
	vinserti128	$1, %xmm5, %ymm3, %ymm1
	vmovdqu	%ymm1, 1312(%rsp)
	vmovups	160(%rsi), %xmm11
	vmovups	128(%rsi), %xmm5
	vunpckhps	%xmm11, %xmm5, %xmm3
	vunpcklps	%xmm11, %xmm5, %xmm6
	vmovaps	%xmm11, (%rsp)
	vinsertf128	$1, %xmm3, %ymm6, %ymm10
	vmovups	%ymm10, 1024(%rsp)
	vmovups	176(%rsi), %xmm7
	vmovaps	%xmm7, 720(%rsp)
	vmovups	144(%rsi), %xmm3
	vunpckhps	%xmm7, %xmm3, %xmm6
	vunpcklps	%xmm7, %xmm3, %xmm3
	vinsertf128	$1, %xmm6, %ymm3, %ymm12
	vmovups	%ymm12, 992(%rsp)
	vmovups	224(%rsi), %xmm3
	vmovups	192(%rsi), %xmm15
	vunpckhps	%xmm3, %xmm15, %xmm6
	vunpcklps	%xmm3, %xmm15, %xmm7
	vmovaps	%xmm15, 272(%rsp)
	vinsertf128	$1, %xmm6, %ymm7, %ymm13
	vmovups	%ymm13, 432(%rsp)
	vmovdqu	240(%rsi), %xmm6
	vmovdqu	208(%rsi), %xmm14
	vmovdqa	%xmm14, 304(%rsp)
	vpunpckhdq	%xmm6, %xmm14, %xmm7
	vpunpckldq	%xmm6, %xmm14, %xmm6
	vinserti128	$1, %xmm7, %ymm6, %ymm7
	vmovdqu	%ymm7, 400(%rsp)
	vpermpd	$212, %ymm4, %ymm6
	vmovups	%ymm6, 1568(%rsp)
	vshufps	$245, %xmm5, %xmm5, %xmm4
	vblendps	$10, %xmm11, %xmm4, %xmm4
	vpermpd	$212, %ymm4, %ymm4
	vmovups	%ymm4, 1504(%rsp)
	vblendps	$204, %ymm0, %ymm6, %ymm5
	vmovups	%ymm5, 48(%rsp)
	vblendps	$204, %ymm13, %ymm4, %ymm0
	vmovups	%ymm0, -128(%rsp)
	vshufps	$103, %ymm0, %ymm0, %ymm4
	vshufps	$244, %ymm5, %ymm5, %ymm5
	vblendps	$153, %ymm4, %ymm5, %ymm0
	vmovups	%ymm0, 112(%rsp)
	vmovdqu	32(%rsi), %ymm0
	vmovdqu	%ymm0, 1280(%rsp)
	vpshufd	$245, (%rsi), %ymm4
	vpblendd	$170, %ymm0, %ymm4, %ymm4
	vpermq	$246, %ymm4, %ymm5
	vmovdqu	%ymm5, 1536(%rsp)
	vmovdqu	128(%rsi), %ymm0
	vmovdqu	%ymm0, 896(%rsp)
	vmovdqu	160(%rsi), %ymm6
	vmovdqu	%ymm6, 736(%rsp)
	vpshufd	$245, %ymm0, %ymm4
	vpblendd	$170, %ymm6, %ymm4, %ymm4
	vpermq	$246, %ymm4, %ymm4
	vmovdqu	%ymm4, 1472(%rsp)
	vpblendd	$204, %ymm1, %ymm5, %ymm13
	vpblendd	$204, %ymm7, %ymm4, %ymm14
	vpshufd	$103, %ymm14, %ymm4
	vmovdqu	%ymm14, 16(%rsp)
	vpshufd	$244, %ymm13, %ymm5
	vmovdqu	%ymm13, 464(%rsp)
	vpblendd	$153, %ymm4, %ymm5, %ymm0
	vmovdqu	%ymm0, 144(%rsp)
	vshufps	$160, %xmm2, %xmm2, %xmm2
	vblendps	$10, %xmm2, %xmm8, %xmm2
	vpermpd	$96, %ymm2, %ymm2
	vblendps	$204, %ymm2, %ymm9, %ymm2
	vshufps	$160, %xmm3, %xmm3, %xmm3
	vblendps	$10, %xmm3, %xmm15, %xmm3
	vpermpd	$96, %ymm3, %ymm3
	vblendps	$204, %ymm3, %ymm10, %ymm15
	vmovdqu	-64(%rsp), %ymm9
	vpaddd	-96(%rsp), %xmm9, %xmm0
	vinserti128	$1, %xmm0, %ymm0, %ymm4
	vshufps	$136, %ymm15, %ymm2, %ymm0
	vmovups	%ymm0, 208(%rsp)
	vmovups	%ymm15, 928(%rsp)
	vpaddd	%ymm4, %ymm0, %ymm0
	vbroadcasti128	D(CPI12_0)(%rip), %ymm5
	vpxor	%ymm5, %ymm0, %ymm3
	vpslld	$16, %ymm3, %ymm3
	vpsrld	$16, %ymm0, %ymm6
	vpblendw	$170, %ymm3, %ymm6, %ymm3
	vmovups	64(%rsi), %ymm1
	vmovups	%ymm1, 800(%rsp)
	vmovups	96(%rsi), %ymm6
	vmovups	%ymm6, 80(%rsp)
	vshufps	$160, %ymm6, %ymm6, %ymm6
	vblendps	$170, %ymm6, %ymm1, %ymm6
	vpermpd	$232, %ymm6, %ymm6
	vblendps	$51, 496(%rsp), %ymm6, %ymm6
	vmovups	192(%rsi), %ymm8
	vmovups	%ymm8, 688(%rsp)
	vmovups	224(%rsi), %ymm1
	vmovups	%ymm1, 864(%rsp)
	vshufps	$160, %ymm1, %ymm1, %ymm7
	vblendps	$170, %ymm7, %ymm8, %ymm7
	vpermpd	$232, %ymm7, %ymm7
	vblendps	$204, %ymm7, %ymm12, %ymm12
	vshufps	$136, %ymm12, %ymm6, %ymm1
	vmovups	%ymm1, 176(%rsp)
	vmovups	%ymm12, 960(%rsp)
	vpaddd	%ymm4, %ymm1, %ymm4
	vpxor	%ymm5, %ymm4, %ymm5
	vpslld	$16, %ymm5, %ymm5
	vpsrld	$16, %ymm4, %ymm7
	vpblendw	$170, %ymm5, %ymm7, %ymm5
	vinserti128	$1, %xmm9, %ymm9, %ymm7
	vbroadcasti128	D(CPI12_1)(%rip), %ymm8
	vpaddd	%ymm5, %ymm8, %ymm1
	vpxor	%ymm7, %ymm1, %ymm9
	vpsrld	$12, %ymm9, %ymm10
	vpslld	$20, %ymm9, %ymm9
	vpor	%ymm10, %ymm9, %ymm9
	vpaddd	%ymm3, %ymm8, %ymm8
	vpxor	%ymm7, %ymm8, %ymm7
	vpsrld	$12, %ymm7, %ymm10
	vpslld	$20, %ymm7, %ymm7
	vpor	%ymm7, %ymm10, %ymm7
	vshufps	$221, %ymm12, %ymm6, %ymm6
	vmovups	%ymm6, -32(%rsp)
	vpaddd	%ymm6, %ymm4, %ymm4
	vpaddd	%ymm4, %ymm9, %ymm6
	vmovdqa	D(CPI12_2)(%rip), %ymm11
	vpshufb	%ymm11, %ymm5, %ymm4
	vpshufb	%ymm11, %ymm6, %ymm5
	vpxor	%ymm4, %ymm5, %ymm4
	vshufps	$221, %ymm15, %ymm2, %ymm15
	vpaddd	%ymm0, %ymm15, %ymm0
	vmovups	%ymm15, 624(%rsp)
	vpaddd	%ymm7, %ymm0, %ymm5
	vpshufb	%ymm11, %ymm3, %ymm0
	vpshufb	%ymm11, %ymm5, %ymm2
	vpxor	%ymm0, %ymm2, %ymm10
	vpaddd	%ymm8, %ymm10, %ymm0
	vpxor	%ymm7, %ymm0, %ymm2
	vpsrld	$7, %ymm2, %ymm3
	vpslld	$25, %ymm2, %ymm2
	vpor	%ymm3, %ymm2, %ymm2
	vpaddd	%ymm1, %ymm4, %ymm7
	vpxor	%ymm7, %ymm9, %ymm1
	vpsrld	$7, %ymm1, %ymm3
	vpslld	$25, %ymm1, %ymm1
	vpor	%ymm3, %ymm1, %ymm8
	vpshufd	$38, %ymm14, %ymm12
	vpshufd	$224, %ymm13, %ymm3
	vpblendd	$153, %ymm12, %ymm3, %ymm3
	vpshufd	$147, %ymm6, %ymm6
	vpaddd	%ymm3, %ymm6, %ymm6
	vpshufd	$38, -128(%rsp), %ymm13
	vpshufd	$224, 48(%rsp), %ymm3
	vpblendd	$153, %ymm13, %ymm3, %ymm3
	vpshufd	$147, %ymm5, %ymm5
	vpaddd	%ymm3, %ymm5, %ymm3
	vpaddd	%ymm2, %ymm3, %ymm3
	vmovdqa	D(CPI12_4)(%rip), %ymm1
	vpshufb	%ymm1, %ymm10, %ymm5
	vmovdqa	D(CPI12_3)(%rip), %ymm14
	vpshufb	%ymm14, %ymm3, %ymm9
	vpxor	%ymm5, %ymm9, %ymm10
	vpaddd	%ymm6, %ymm8, %ymm6
	vpshufb	%ymm1, %ymm4, %ymm4
	vpshufb	%ymm14, %ymm6, %ymm5
	vpxor	%ymm4, %ymm5, %ymm4
	vpshufd	$57, %ymm7, %ymm5
	vpaddd	%ymm5, %ymm4, %ymm5
	vpxor	%ymm5, %ymm8, %ymm7
	vpsrld	$12, %ymm7, %ymm8
	vpslld	$20, %ymm7, %ymm7
	vpor	%ymm7, %ymm8, %ymm8
	vpshufd	$57, %ymm0, %ymm0
	vpaddd	%ymm0, %ymm10, %ymm0
	vpxor	%ymm2, %ymm0, %ymm2
	vpsrld	$12, %ymm2, %ymm7
	vpslld	$20, %ymm2, %ymm2
	vpor	%ymm7, %ymm2, %ymm14
	vmovdqu	144(%rsp), %ymm1
	vpaddd	%ymm1, %ymm6, %ymm2
	vpaddd	%ymm2, %ymm8, %ymm7
	vmovdqa	%ymm11, %ymm6
	vpshufb	%ymm11, %ymm4, %ymm2
	vpshufb	%ymm11, %ymm7, %ymm4
	vpxor	%ymm2, %ymm4, %ymm2
	vmovdqu	112(%rsp), %ymm11
	vpaddd	%ymm3, %ymm11, %ymm3
	vpaddd	%ymm3, %ymm14, %ymm9
	vpshufb	%ymm6, %ymm10, %ymm3
	vpshufb	%ymm6, %ymm9, %ymm4
	vpxor	%ymm3, %ymm4, %ymm4
	vpaddd	%ymm0, %ymm4, %ymm0
	vpxor	%ymm0, %ymm14, %ymm3
	vpsrld	$7, %ymm3, %ymm6
	vpslld	$25, %ymm3, %ymm3
	vpor	%ymm6, %ymm3, %ymm3
	vpaddd	%ymm5, %ymm2, %ymm6
	vpxor	%ymm6, %ymm8, %ymm5
	vpsrld	$7, %ymm5, %ymm8
	vpslld	$25, %ymm5, %ymm5
	vpor	%ymm5, %ymm8, %ymm8
	vpunpcklqdq	-32(%rsp), %ymm1, %ymm5
	vpblendd	$136, %ymm12, %ymm5, %ymm5
	vpunpcklqdq	%ymm15, %ymm11, %ymm1
	vpblendd	$136, %ymm13, %ymm1, %ymm1
	vmovdqa	D(CPI12_5)(%rip), %ymm10
	vmovdqu	800(%rsp), %ymm13
	vpermd	%ymm13, %ymm10, %ymm10
	vpblendd	$221, 928(%rsp), %ymm10, %ymm10
	vmovdqu	%ymm10, -96(%rsp)
	vmovdqu	80(%rsp), %ymm14
	vpermq	$96, %ymm14, %ymm11
	vmovdqu	%ymm11, 1248(%rsp)
	vpblendd	$68, %ymm11, %ymm10, %ymm11
	vmovdqu	%ymm11, 832(%rsp)
	vpaddd	%ymm11, %ymm9, %ymm9
	vpshufd	$57, %ymm9, %ymm9
	vpaddd	%ymm3, %ymm9, %ymm9
	vmovdqa	D(CPI12_4)(%rip), %ymm12
	vpshufb	%ymm12, %ymm4, %ymm4
	vmovdqa	D(CPI12_3)(%rip), %ymm15
	vpshufb	%ymm15, %ymm9, %ymm10
	vpxor	%ymm4, %ymm10, %ymm4
	vmovdqa	D(CPI12_6)(%rip), %ymm10
	vpermd	%ymm13, %ymm10, %ymm10
	vpblendd	$221, 960(%rsp), %ymm10, %ymm10
	vmovdqu	%ymm10, -64(%rsp)
	vpermq	$232, %ymm14, %ymm11
	vmovdqu	%ymm11, 1216(%rsp)
	vpblendd	$68, %ymm11, %ymm10, %ymm10
	vmovdqu	%ymm10, 1184(%rsp)
	vpaddd	%ymm7, %ymm10, %ymm7
	vpshufd	$57, %ymm7, %ymm7
	vpaddd	%ymm7, %ymm8, %ymm7
	vpshufb	%ymm12, %ymm2, %ymm2
	vpshufb	%ymm15, %ymm7, %ymm10
	vpxor	%ymm2, %ymm10, %ymm10
	vpshufd	$147, %ymm6, %ymm2
	vpaddd	%ymm2, %ymm10, %ymm2
	vpxor	%ymm2, %ymm8, %ymm6
	vpsrld	$12, %ymm6, %ymm8
	vpslld	$20, %ymm6, %ymm6
	vpor	%ymm6, %ymm8, %ymm6
	vpshufd	$147, %ymm0, %ymm0
	vpaddd	%ymm0, %ymm4, %ymm0
	vpxor	%ymm3, %ymm0, %ymm3
	vpsrld	$12, %ymm3, %ymm8
	vpslld	$20, %ymm3, %ymm3
	vpor	%ymm3, %ymm8, %ymm8
	vpshufd	$199, 176(%rsp), %ymm11
	vmovdqu	%ymm11, 592(%rsp)
	vmovdqa	%ymm13, %ymm12
	vpermq	$246, %ymm13, %ymm3
	vpblendd	$34, %ymm3, %ymm11, %ymm3
	vmovdqu	736(%rsp), %ymm11
	vpermq	$232, %ymm11, %ymm15
	vpblendd	$136, %ymm15, %ymm3, %ymm3
	vmovdqu	%ymm15, 80(%rsp)
	vpaddd	%ymm3, %ymm7, %ymm3
	vpshufd	$199, 208(%rsp), %ymm13
	vmovdqu	%ymm13, 560(%rsp)
	vpermq	$212, %ymm12, %ymm7
	vpblendd	$34, %ymm7, %ymm13, %ymm7
	vpermq	$96, %ymm11, %ymm14
	vpblendd	$136, %ymm14, %ymm7, %ymm7
	vpaddd	%ymm7, %ymm9, %ymm7
	vpaddd	%ymm6, %ymm3, %ymm3
	vmovdqa	D(CPI12_2)(%rip), %ymm11
	vpshufb	%ymm11, %ymm10, %ymm9
	vpshufb	%ymm11, %ymm3, %ymm10
	vpxor	%ymm9, %ymm10, %ymm9
	vpaddd	%ymm7, %ymm8, %ymm10
	vpshufb	%ymm11, %ymm4, %ymm4
	vpshufb	%ymm11, %ymm10, %ymm7
	vpxor	%ymm4, %ymm7, %ymm11
	vpaddd	%ymm0, %ymm11, %ymm0
	vpxor	%ymm0, %ymm8, %ymm4
	vpsrld	$7, %ymm4, %ymm7
	vpslld	$25, %ymm4, %ymm4
	vpor	%ymm7, %ymm4, %ymm7
	vpaddd	%ymm2, %ymm9, %ymm13
	vpxor	%ymm6, %ymm13, %ymm2
	vpsrld	$7, %ymm2, %ymm4
	vpslld	$25, %ymm2, %ymm2
	vpor	%ymm4, %ymm2, %ymm6
	vpshufd	$120, %ymm1, %ymm2
	vmovdqu	%ymm2, 528(%rsp)
	vpshufd	$147, %ymm10, %ymm1
	vpaddd	%ymm2, %ymm1, %ymm1
	vpaddd	%ymm7, %ymm1, %ymm4
	vmovdqa	D(CPI12_4)(%rip), %ymm8
	vpshufb	%ymm8, %ymm11, %ymm1
	vmovdqa	D(CPI12_3)(%rip), %ymm10
	vpshufb	%ymm10, %ymm4, %ymm2
	vpxor	%ymm1, %ymm2, %ymm2
	vpshufd	$120, %ymm5, %ymm12
	vpshufd	$147, %ymm3, %ymm1
	vpaddd	%ymm1, %ymm12, %ymm1
	vpaddd	%ymm6, %ymm1, %ymm5
	vpshufb	%ymm8, %ymm9, %ymm1
	vpshufb	%ymm10, %ymm5, %ymm3
	vpxor	%ymm1, %ymm3, %ymm9
	vpshufd	$57, %ymm13, %ymm1
	vpaddd	%ymm1, %ymm9, %ymm3
	vpxor	%ymm6, %ymm3, %ymm1
	vpsrld	$12, %ymm1, %ymm6
	vpslld	$20, %ymm1, %ymm1
	vpor	%ymm6, %ymm1, %ymm11
	vpshufd	$57, %ymm0, %ymm0
	vpaddd	%ymm0, %ymm2, %ymm6
	vpxor	%ymm7, %ymm6, %ymm0
	vpsrld	$12, %ymm0, %ymm1
	vpslld	$20, %ymm0, %ymm0
	vpor	%ymm1, %ymm0, %ymm13
	vpshufd	$236, 464(%rsp), %ymm1
	vpmovzxdq	304(%rsp), %ymm0
	vmovdqu	%ymm0, 1440(%rsp)
	vpblendd	$204, %ymm0, %ymm1, %ymm0
	vpshufd	$164, %ymm0, %ymm0
	vpblendd	$68, %ymm15, %ymm0, %ymm0
	vpaddd	%ymm0, %ymm5, %ymm5
	vpshufd	$236, 48(%rsp), %ymm8
	vpmovzxdq	272(%rsp), %ymm7
	vmovdqu	%ymm7, 1408(%rsp)
	vpblendd	$204, %ymm7, %ymm8, %ymm7
	vpshufd	$164, %ymm7, %ymm7
	vmovdqa	%ymm14, %ymm10
	vmovdqu	%ymm14, 1152(%rsp)
	vpblendd	$68, %ymm14, %ymm7, %ymm7
	vpaddd	%ymm7, %ymm4, %ymm7
	vpaddd	%ymm5, %ymm11, %ymm4
	vmovdqa	D(CPI12_2)(%rip), %ymm0
	vpshufb	%ymm0, %ymm9, %ymm5
	vpshufb	%ymm0, %ymm4, %ymm9
	vpxor	%ymm5, %ymm9, %ymm5
	vpaddd	%ymm7, %ymm13, %ymm9
	vpshufb	%ymm0, %ymm2, %ymm2
	vpshufb	%ymm0, %ymm9, %ymm7
	vpxor	%ymm2, %ymm7, %ymm15
	vpaddd	%ymm6, %ymm15, %ymm7
	vpxor	%ymm7, %ymm13, %ymm2
	vpsrld	$7, %ymm2, %ymm6
	vpslld	$25, %ymm2, %ymm2
	vpor	%ymm6, %ymm2, %ymm6
	vpaddd	%ymm3, %ymm5, %ymm2
	vpxor	%ymm2, %ymm11, %ymm3
	vpsrld	$7, %ymm3, %ymm11
	vpslld	$25, %ymm3, %ymm3
	vpor	%ymm3, %ymm11, %ymm3
	vpshufd	$160, -128(%rsp), %ymm11
	vpshufd	$212, -96(%rsp), %ymm13
	vpblendd	$170, %ymm11, %ymm13, %ymm13
	vpshufd	$160, 16(%rsp), %ymm11
	vpshufd	$212, -64(%rsp), %ymm14
	vpblendd	$170, %ymm11, %ymm14, %ymm11
	vmovdqu	688(%rsp), %ymm0
	vpermq	$232, %ymm0, %ymm14
	vmovdqu	%ymm14, 1376(%rsp)
	vpblendd	$204, %ymm14, %ymm1, %ymm1
	vpblendd	$136, %ymm12, %ymm1, %ymm1
	vmovdqu	%ymm1, 1088(%rsp)
	vpermq	$96, %ymm0, %ymm1
	vmovdqu	%ymm1, 688(%rsp)
	vpblendd	$204, %ymm1, %ymm8, %ymm0
	vpblendd	$136, 528(%rsp), %ymm0, %ymm0
	vmovdqu	%ymm0, 1056(%rsp)
	vmovups	864(%rsp), %ymm0
	vblendps	$245, 624(%rsp), %ymm0, %ymm1
	vmovaps	D(CPI12_7)(%rip), %ymm8
	vpermps	%ymm1, %ymm8, %ymm1
	vblendps	$68, 560(%rsp), %ymm1, %ymm1
	vmovups	%ymm1, 528(%rsp)
	vblendps	$95, -32(%rsp), %ymm0, %ymm1
	vmovaps	D(CPI12_8)(%rip), %ymm8
	vpermps	%ymm1, %ymm8, %ymm1
	vblendps	$68, 592(%rsp), %ymm1, %ymm0
	vmovups	%ymm0, 1120(%rsp)
	vpmovzxdq	656(%rsp), %ymm1
	vmovdqu	%ymm1, -32(%rsp)
	vpshufd	$235, 832(%rsp), %ymm0
	vmovdqu	%ymm0, 656(%rsp)
	vpblendd	$204, %ymm1, %ymm0, %ymm8
	vpblendd	$136, %ymm10, %ymm8, %ymm0
	vmovdqu	%ymm0, 592(%rsp)
	vpaddd	%ymm0, %ymm9, %ymm8
	vpshufd	$57, %ymm8, %ymm8
	vpaddd	%ymm6, %ymm8, %ymm9
	vmovdqa	D(CPI12_4)(%rip), %ymm12
	vpshufb	%ymm12, %ymm15, %ymm8
	vmovdqa	D(CPI12_3)(%rip), %ymm10
	vpshufb	%ymm10, %ymm9, %ymm15
	vpxor	%ymm8, %ymm15, %ymm8
	vpmovzxdq	240(%rsp), %ymm0
	vmovdqu	%ymm0, 240(%rsp)
	vmovdqu	1184(%rsp), %ymm14
	vpshufd	$235, %ymm14, %ymm1
	vmovdqu	%ymm1, 624(%rsp)
	vpblendd	$204, %ymm0, %ymm1, %ymm15
	vpblendd	$136, 80(%rsp), %ymm15, %ymm0
	vmovdqu	%ymm0, 560(%rsp)
	vpaddd	%ymm0, %ymm4, %ymm4
	vpshufd	$57, %ymm4, %ymm4
	vpaddd	%ymm4, %ymm3, %ymm4
	vpshufb	%ymm12, %ymm5, %ymm5
	vmovdqa	%ymm12, %ymm1
	vpshufb	%ymm10, %ymm4, %ymm15
	vpxor	%ymm5, %ymm15, %ymm15
	vpshufd	$147, %ymm2, %ymm2
	vpaddd	%ymm2, %ymm15, %ymm5
	vpxor	%ymm3, %ymm5, %ymm2
	vpsrld	$12, %ymm2, %ymm3
	vpslld	$20, %ymm2, %ymm2
	vpor	%ymm3, %ymm2, %ymm0
	vpshufd	$147, %ymm7, %ymm2
	vpaddd	%ymm2, %ymm8, %ymm2
	vpxor	%ymm6, %ymm2, %ymm3
	vpsrld	$12, %ymm3, %ymm6
	vpslld	$20, %ymm3, %ymm3
	vpor	%ymm6, %ymm3, %ymm3
	vpaddd	%ymm4, %ymm11, %ymm4
	vpaddd	%ymm13, %ymm9, %ymm6
	vpaddd	%ymm0, %ymm4, %ymm7
	vmovdqa	D(CPI12_2)(%rip), %ymm12
	vpshufb	%ymm12, %ymm15, %ymm4
	vpshufb	%ymm12, %ymm7, %ymm9
	vpxor	%ymm4, %ymm9, %ymm4
	vpaddd	%ymm3, %ymm6, %ymm6
	vpshufb	%ymm12, %ymm8, %ymm8
	vpshufb	%ymm12, %ymm6, %ymm9
	vpxor	%ymm8, %ymm9, %ymm8
	vpaddd	%ymm2, %ymm8, %ymm2
	vpxor	%ymm3, %ymm2, %ymm3
	vpsrld	$7, %ymm3, %ymm9
	vpslld	$25, %ymm3, %ymm3
	vpor	%ymm3, %ymm9, %ymm3
	vpaddd	%ymm5, %ymm4, %ymm5
	vpxor	%ymm0, %ymm5, %ymm0
	vpsrld	$7, %ymm0, %ymm9
	vpslld	$25, %ymm0, %ymm0
	vpor	%ymm0, %ymm9, %ymm0
	vpshufd	$120, 1088(%rsp), %ymm9
	vpshufd	$147, %ymm7, %ymm7
	vpaddd	%ymm7, %ymm9, %ymm7
	vpshufd	$120, 1056(%rsp), %ymm9
	vpshufd	$147, %ymm6, %ymm6
	vpaddd	%ymm6, %ymm9, %ymm6
	vpaddd	%ymm3, %ymm6, %ymm6
	vpshufb	%ymm1, %ymm8, %ymm8
	vpshufb	%ymm10, %ymm6, %ymm9
	vpxor	%ymm8, %ymm9, %ymm8
	vpaddd	%ymm0, %ymm7, %ymm9
	vpshufb	%ymm1, %ymm4, %ymm4
	vpshufb	%ymm10, %ymm9, %ymm7
	vpxor	%ymm4, %ymm7, %ymm4
	vpshufd	$57, %ymm5, %ymm5
	vpaddd	%ymm5, %ymm4, %ymm7
	vpxor	%ymm0, %ymm7, %ymm0
	vpsrld	$12, %ymm0, %ymm5
	vpslld	$20, %ymm0, %ymm0
	vpor	%ymm5, %ymm0, %ymm10
	vpshufd	$57, %ymm2, %ymm0
	vpaddd	%ymm0, %ymm8, %ymm2
	vpxor	%ymm3, %ymm2, %ymm0
	vpsrld	$12, %ymm0, %ymm3
	vpslld	$20, %ymm0, %ymm0
	vpor	%ymm3, %ymm0, %ymm3
	vpaddd	1120(%rsp), %ymm9, %ymm0
	vpaddd	528(%rsp), %ymm6, %ymm1
	vpaddd	%ymm0, %ymm10, %ymm5
	vpshufb	%ymm12, %ymm4, %ymm0
	vpshufb	%ymm12, %ymm5, %ymm4
	vpxor	%ymm0, %ymm4, %ymm6
	vpaddd	%ymm3, %ymm1, %ymm11
	vpshufb	%ymm12, %ymm8, %ymm0
	vpshufb	%ymm12, %ymm11, %ymm1
	vpxor	%ymm0, %ymm1, %ymm0
	vpaddd	%ymm2, %ymm0, %ymm8
	vpxor	%ymm3, %ymm8, %ymm1
	vpsrld	$7, %ymm1, %ymm2
	vpslld	$25, %ymm1, %ymm1
	vpor	%ymm2, %ymm1, %ymm4
	vpaddd	%ymm7, %ymm6, %ymm3
	vpxor	%ymm3, %ymm10, %ymm2
	vpsrld	$7, %ymm2, %ymm7
	vpslld	$25, %ymm2, %ymm2
	vpor	%ymm7, %ymm2, %ymm2
	vmovdqu	832(%rsp), %ymm7
	vpblendd	$51, 112(%rsp), %ymm7, %ymm12
	vpblendd	$51, 144(%rsp), %ymm14, %ymm7
	vmovdqu	736(%rsp), %ymm13
	vmovdqa	D(CPI12_5)(%rip), %ymm9
	vpermd	%ymm13, %ymm9, %ymm9
	vmovdqu	896(%rsp), %ymm14
	vpermq	$96, %ymm14, %ymm10
	vmovdqu	1280(%rsp), %ymm15
	vpermq	$212, %ymm15, %ymm1
	vmovdqu	%ymm1, 144(%rsp)
	vpblendd	$204, %ymm10, %ymm1, %ymm10
	vpblendd	$34, %ymm9, %ymm10, %ymm9
	vmovdqa	D(CPI12_6)(%rip), %ymm10
	vpermd	%ymm13, %ymm10, %ymm10
	vpermq	$246, %ymm15, %ymm1
	vmovdqu	%ymm1, 112(%rsp)
	vpermq	$232, %ymm14, %ymm13
	vpblendd	$204, %ymm13, %ymm1, %ymm13
	vpblendd	$34, %ymm10, %ymm13, %ymm10
	vpblendd	$136, 1312(%rsp), %ymm10, %ymm10
	vpblendd	$136, 1344(%rsp), %ymm9, %ymm9
	vpmovzxdq	336(%rsp), %ymm13
	vmovups	208(%rsp), %ymm14
	vshufps	$163, %ymm13, %ymm14, %ymm13
	vmovups	800(%rsp), %ymm15
	vpermpd	$96, %ymm15, %ymm14
	vblendps	$68, %ymm14, %ymm13, %ymm1
	vmovups	%ymm1, 208(%rsp)
	vpmovzxdq	368(%rsp), %ymm13
	vmovups	176(%rsp), %ymm14
	vshufps	$163, %ymm13, %ymm14, %ymm13
	vpermpd	$232, %ymm15, %ymm14
	vblendps	$68, %ymm14, %ymm13, %ymm14
	vmovdqu	-32(%rsp), %ymm13
	vpunpckhqdq	1152(%rsp), %ymm13, %ymm13
	vpshufd	$224, -128(%rsp), %ymm15
	vpblendd	$102, %ymm15, %ymm13, %ymm13
	vpshufd	$57, %ymm11, %ymm11
	vpaddd	%ymm13, %ymm11, %ymm11
	vmovdqu	240(%rsp), %ymm13
	vpunpckhqdq	80(%rsp), %ymm13, %ymm13
	vpshufd	$224, 16(%rsp), %ymm15
	vpblendd	$102, %ymm15, %ymm13, %ymm13
	vpshufd	$57, %ymm5, %ymm5
	vpaddd	%ymm5, %ymm13, %ymm5
	vpaddd	%ymm4, %ymm11, %ymm11
	vmovdqa	D(CPI12_4)(%rip), %ymm15
	vpshufb	%ymm15, %ymm0, %ymm0
	vmovdqa	D(CPI12_3)(%rip), %ymm1
	vpshufb	%ymm1, %ymm11, %ymm13
	vpxor	%ymm0, %ymm13, %ymm0
	vpaddd	%ymm5, %ymm2, %ymm5
	vpshufb	%ymm15, %ymm6, %ymm6
	vpshufb	%ymm1, %ymm5, %ymm13
	vmovdqa	%ymm1, %ymm15
	vpxor	%ymm6, %ymm13, %ymm13
	vpshufd	$147, %ymm3, %ymm1
	vpaddd	%ymm1, %ymm13, %ymm6
	vpxor	%ymm2, %ymm6, %ymm1
	vpsrld	$12, %ymm1, %ymm2
	vpslld	$20, %ymm1, %ymm1
	vpor	%ymm2, %ymm1, %ymm2
	vpshufd	$147, %ymm8, %ymm1
	vpaddd	%ymm1, %ymm0, %ymm1
	vpxor	%ymm4, %ymm1, %ymm3
	vpsrld	$12, %ymm3, %ymm4
	vpslld	$20, %ymm3, %ymm3
	vpor	%ymm4, %ymm3, %ymm3
	vpshufd	$39, %ymm7, %ymm4
	vpaddd	%ymm4, %ymm5, %ymm4
	vpshufd	$39, %ymm12, %ymm5
	vpaddd	%ymm5, %ymm11, %ymm7
	vpaddd	%ymm2, %ymm4, %ymm4
	vmovdqa	D(CPI12_2)(%rip), %ymm12
	vpshufb	%ymm12, %ymm13, %ymm5
	vpshufb	%ymm12, %ymm4, %ymm8
	vpxor	%ymm5, %ymm8, %ymm5
	vpaddd	%ymm3, %ymm7, %ymm7
	vpshufb	%ymm12, %ymm0, %ymm0
	vpshufb	%ymm12, %ymm7, %ymm8
	vpxor	%ymm0, %ymm8, %ymm8
	vpaddd	%ymm1, %ymm8, %ymm0
	vpxor	%ymm3, %ymm0, %ymm1
	vpsrld	$7, %ymm1, %ymm3
	vpslld	$25, %ymm1, %ymm1
	vpor	%ymm3, %ymm1, %ymm1
	vpaddd	%ymm6, %ymm5, %ymm11
	vpxor	%ymm2, %ymm11, %ymm2
	vpsrld	$7, %ymm2, %ymm3
	vpslld	$25, %ymm2, %ymm2
	vpor	%ymm3, %ymm2, %ymm13
	vpshufd	$120, %ymm9, %ymm3
	vmovdqu	%ymm3, 176(%rsp)
	vpshufd	$147, %ymm7, %ymm2
	vpaddd	%ymm3, %ymm2, %ymm2
	vpaddd	%ymm1, %ymm2, %ymm7
	vmovdqa	D(CPI12_4)(%rip), %ymm9
	vpshufb	%ymm9, %ymm8, %ymm2
	vpshufb	%ymm15, %ymm7, %ymm6
	vpxor	%ymm2, %ymm6, %ymm6
	vpshufd	$120, %ymm10, %ymm3
	vpshufd	$147, %ymm4, %ymm4
	vpaddd	%ymm3, %ymm4, %ymm4
	vpaddd	%ymm4, %ymm13, %ymm8
	vpshufb	%ymm9, %ymm5, %ymm4
	vpshufb	%ymm15, %ymm8, %ymm5
	vpxor	%ymm4, %ymm5, %ymm5
	vpshufd	$57, %ymm11, %ymm4
	vpaddd	%ymm4, %ymm5, %ymm4
	vpxor	%ymm4, %ymm13, %ymm9
	vpsrld	$12, %ymm9, %ymm10
	vpslld	$20, %ymm9, %ymm9
	vpor	%ymm10, %ymm9, %ymm15
	vpshufd	$57, %ymm0, %ymm0
	vpaddd	%ymm0, %ymm6, %ymm9
	vpxor	%ymm1, %ymm9, %ymm0
	vpsrld	$12, %ymm0, %ymm1
	vpslld	$20, %ymm0, %ymm0
	vpor	%ymm1, %ymm0, %ymm1
	vpaddd	%ymm14, %ymm8, %ymm0
	vpaddd	208(%rsp), %ymm7, %ymm7
	vpaddd	%ymm0, %ymm15, %ymm13
	vpshufb	%ymm12, %ymm5, %ymm0
	vpshufb	%ymm12, %ymm13, %ymm5
	vpxor	%ymm0, %ymm5, %ymm11
	vpaddd	%ymm1, %ymm7, %ymm2
	vpshufb	%ymm12, %ymm6, %ymm5
	vpshufb	%ymm12, %ymm2, %ymm6
	vpxor	%ymm5, %ymm6, %ymm7
	vpaddd	%ymm7, %ymm9, %ymm8
	vpxor	%ymm1, %ymm8, %ymm1
	vpsrld	$7, %ymm1, %ymm5
	vpslld	$25, %ymm1, %ymm1
	vpor	%ymm5, %ymm1, %ymm9
	vpaddd	%ymm4, %ymm11, %ymm10
	vpxor	%ymm15, %ymm10, %ymm1
	vpsrld	$7, %ymm1, %ymm4
	vpslld	$25, %ymm1, %ymm1
	vpor	%ymm4, %ymm1, %ymm14
	vpshufd	$231, 592(%rsp), %ymm1
	vpshufd	$44, 48(%rsp), %ymm4
	vpblendd	$170, %ymm4, %ymm1, %ymm4
	vpshufd	$231, 560(%rsp), %ymm1
	vpshufd	$44, 464(%rsp), %ymm5
	vpblendd	$170, %ymm5, %ymm1, %ymm15
	vmovdqa	336(%rsp), %xmm5
	vmovdqa	272(%rsp), %xmm6
	vpunpckhdq	%xmm5, %xmm6, %xmm1
	vpunpckldq	%xmm5, %xmm6, %xmm5
	vinserti128	$1, %xmm1, %ymm5, %ymm1
	vmovdqa	368(%rsp), %xmm6
	vmovdqa	304(%rsp), %xmm0
	vpunpckhdq	%xmm6, %xmm0, %xmm5
	vpunpckldq	%xmm6, %xmm0, %xmm6
	vinserti128	$1, %xmm5, %ymm6, %ymm5
	vmovdqu	864(%rsp), %ymm0
	vpermq	$232, %ymm0, %ymm6
	vmovdqu	%ymm6, 368(%rsp)
	vpblendd	$204, %ymm6, %ymm5, %ymm5
	vpblendd	$136, %ymm3, %ymm5, %ymm3
	vmovdqu	%ymm3, 272(%rsp)
	vpermq	$96, %ymm0, %ymm0
	vmovdqu	%ymm0, 336(%rsp)
	vpblendd	$204, %ymm0, %ymm1, %ymm1
	vpblendd	$136, 176(%rsp), %ymm1, %ymm6
	vmovups	-64(%rsp), %ymm0
	vunpcklpd	496(%rsp), %ymm0, %ymm3
	vblendps	$68, 1216(%rsp), %ymm3, %ymm0
	vmovups	%ymm0, 304(%rsp)
	vmovdqu	-96(%rsp), %ymm0
	vpunpcklqdq	768(%rsp), %ymm0, %ymm5
	vpblendd	$68, 1248(%rsp), %ymm5, %ymm5
	vpshufd	$180, -128(%rsp), %ymm3
	vpblendd	$34, 144(%rsp), %ymm3, %ymm3
	vpshufd	$57, %ymm2, %ymm0
	vpaddd	%ymm3, %ymm0, %ymm0
	vpshufd	$180, 16(%rsp), %ymm3
	vpblendd	$34, 112(%rsp), %ymm3, %ymm3
	vpshufd	$57, %ymm13, %ymm13
	vpaddd	%ymm3, %ymm13, %ymm3
	vpaddd	%ymm0, %ymm9, %ymm13
	vmovdqa	D(CPI12_4)(%rip), %ymm1
	vpshufb	%ymm1, %ymm7, %ymm0
	vmovdqa	D(CPI12_3)(%rip), %ymm2
	vpshufb	%ymm2, %ymm13, %ymm7
	vpxor	%ymm0, %ymm7, %ymm7
	vpaddd	%ymm3, %ymm14, %ymm3
	vpshufb	%ymm1, %ymm11, %ymm0
	vpshufb	%ymm2, %ymm3, %ymm11
	vpxor	%ymm0, %ymm11, %ymm11
	vpshufd	$147, %ymm10, %ymm0
	vpaddd	%ymm0, %ymm11, %ymm0
	vpxor	%ymm0, %ymm14, %ymm10
	vpsrld	$12, %ymm10, %ymm14
	vpslld	$20, %ymm10, %ymm10
	vpor	%ymm14, %ymm10, %ymm10
	vpshufd	$147, %ymm8, %ymm8
	vpaddd	%ymm7, %ymm8, %ymm14
	vpxor	%ymm9, %ymm14, %ymm8
	vpsrld	$12, %ymm8, %ymm9
	vpslld	$20, %ymm8, %ymm8
	vpor	%ymm9, %ymm8, %ymm8
	vpaddd	%ymm3, %ymm15, %ymm3
	vpaddd	%ymm4, %ymm13, %ymm4
	vpaddd	%ymm3, %ymm10, %ymm3
	vpshufb	%ymm12, %ymm11, %ymm9
	vpshufb	%ymm12, %ymm3, %ymm11
	vpxor	%ymm9, %ymm11, %ymm9
	vpaddd	%ymm4, %ymm8, %ymm11
	vpshufb	%ymm12, %ymm7, %ymm4
	vpshufb	%ymm12, %ymm11, %ymm7
	vpxor	%ymm4, %ymm7, %ymm13
	vpaddd	%ymm14, %ymm13, %ymm4
	vpxor	%ymm4, %ymm8, %ymm7
	vpsrld	$7, %ymm7, %ymm8
	vpslld	$25, %ymm7, %ymm7
	vpor	%ymm7, %ymm8, %ymm7
	vpaddd	%ymm0, %ymm9, %ymm8
	vpxor	%ymm10, %ymm8, %ymm0
	vpsrld	$7, %ymm0, %ymm10
	vpslld	$25, %ymm0, %ymm0
	vpor	%ymm0, %ymm10, %ymm10
	vpshufd	$120, %ymm6, %ymm0
	vpshufd	$147, %ymm11, %ymm1
	vpaddd	%ymm0, %ymm1, %ymm1
	vpaddd	%ymm7, %ymm1, %ymm11
	vmovdqa	D(CPI12_4)(%rip), %ymm2
	vpshufb	%ymm2, %ymm13, %ymm1
	vmovdqa	D(CPI12_3)(%rip), %ymm14
	vpshufb	%ymm14, %ymm11, %ymm13
	vpxor	%ymm1, %ymm13, %ymm1
	vpshufd	$120, 272(%rsp), %ymm6
	vpshufd	$147, %ymm3, %ymm3
	vpaddd	%ymm6, %ymm3, %ymm3
	vpaddd	%ymm3, %ymm10, %ymm3
	vpshufb	%ymm2, %ymm9, %ymm9
	vpshufb	%ymm14, %ymm3, %ymm13
	vpxor	%ymm9, %ymm13, %ymm13
	vpshufd	$57, %ymm8, %ymm8
	vpaddd	%ymm8, %ymm13, %ymm8
	vpxor	%ymm10, %ymm8, %ymm9
	vpsrld	$12, %ymm9, %ymm10
	vpslld	$20, %ymm9, %ymm9
	vpor	%ymm10, %ymm9, %ymm15
	vpshufd	$57, %ymm4, %ymm4
	vpaddd	%ymm4, %ymm1, %ymm4
	vpxor	%ymm7, %ymm4, %ymm7
	vpsrld	$12, %ymm7, %ymm9
	vpslld	$20, %ymm7, %ymm7
	vpor	%ymm7, %ymm9, %ymm10
	vpaddd	304(%rsp), %ymm3, %ymm3
	vpaddd	%ymm5, %ymm11, %ymm5
	vpaddd	%ymm3, %ymm15, %ymm9
	vpshufb	%ymm12, %ymm13, %ymm3
	vpshufb	%ymm12, %ymm9, %ymm7
	vpxor	%ymm3, %ymm7, %ymm7
	vpaddd	%ymm5, %ymm10, %ymm14
	vpshufb	%ymm12, %ymm1, %ymm1
	vpshufb	%ymm12, %ymm14, %ymm3
	vpxor	%ymm1, %ymm3, %ymm1
	vpaddd	%ymm4, %ymm1, %ymm4
	vpxor	%ymm4, %ymm10, %ymm3
	vpsrld	$7, %ymm3, %ymm5
	vpslld	$25, %ymm3, %ymm3
	vpor	%ymm5, %ymm3, %ymm5
	vpaddd	%ymm7, %ymm8, %ymm10
	vpxor	%ymm15, %ymm10, %ymm3
	vpsrld	$7, %ymm3, %ymm8
	vpslld	$25, %ymm3, %ymm3
	vpor	%ymm3, %ymm8, %ymm11
	vmovdqu	1504(%rsp), %ymm3
	vpalignr	$8, 432(%rsp), %ymm3, %ymm3
	vmovdqu	1024(%rsp), %ymm8
	vpunpcklqdq	768(%rsp), %ymm8, %ymm8
	vpblendd	$170, %ymm8, %ymm3, %ymm8
	vmovdqu	1472(%rsp), %ymm2
	vpalignr	$8, 400(%rsp), %ymm2, %ymm3
	vmovdqu	992(%rsp), %ymm2
	vpunpcklqdq	496(%rsp), %ymm2, %ymm13
	vpblendd	$170, %ymm13, %ymm3, %ymm13
	vpmovzxdq	(%rsp), %ymm3
	vpblendd	$51, -96(%rsp), %ymm3, %ymm15
	vpmovzxdq	720(%rsp), %ymm3
	vpblendd	$51, -64(%rsp), %ymm3, %ymm3
	vpblendd	$136, %ymm6, %ymm3, %ymm3
	vpblendd	$136, %ymm0, %ymm15, %ymm0
	vpshufd	$205, 48(%rsp), %ymm6
	vpblendd	$136, 336(%rsp), %ymm6, %ymm2
	vpshufd	$57, %ymm14, %ymm6
	vpaddd	%ymm2, %ymm6, %ymm2
	vpshufd	$205, 464(%rsp), %ymm6
	vpblendd	$136, 368(%rsp), %ymm6, %ymm6
	vpshufd	$57, %ymm9, %ymm9
	vpaddd	%ymm6, %ymm9, %ymm6
	vpaddd	%ymm2, %ymm5, %ymm2
	vmovdqa	D(CPI12_4)(%rip), %ymm14
	vpshufb	%ymm14, %ymm1, %ymm1
	vmovdqa	D(CPI12_3)(%rip), %ymm15
	vpshufb	%ymm15, %ymm2, %ymm9
	vpxor	%ymm1, %ymm9, %ymm9
	vpaddd	%ymm6, %ymm11, %ymm6
	vpshufb	%ymm14, %ymm7, %ymm1
	vpshufb	%ymm15, %ymm6, %ymm7
	vpxor	%ymm1, %ymm7, %ymm7
	vpshufd	$147, %ymm10, %ymm1
	vpaddd	%ymm1, %ymm7, %ymm1
	vpxor	%ymm1, %ymm11, %ymm10
	vpsrld	$12, %ymm10, %ymm11
	vpslld	$20, %ymm10, %ymm10
	vpor	%ymm11, %ymm10, %ymm10
	vpshufd	$147, %ymm4, %ymm4
	vpaddd	%ymm4, %ymm9, %ymm4
	vpxor	%ymm5, %ymm4, %ymm5
	vpsrld	$12, %ymm5, %ymm11
	vpslld	$20, %ymm5, %ymm5
	vpor	%ymm5, %ymm11, %ymm5
	vpaddd	%ymm6, %ymm13, %ymm6
	vpaddd	%ymm2, %ymm8, %ymm2
	vpaddd	%ymm6, %ymm10, %ymm6
	vpshufb	%ymm12, %ymm7, %ymm7
	vpshufb	%ymm12, %ymm6, %ymm8
	vpxor	%ymm7, %ymm8, %ymm7
	vpaddd	%ymm5, %ymm2, %ymm8
	vpshufb	%ymm12, %ymm9, %ymm2
	vpshufb	%ymm12, %ymm8, %ymm9
	vpxor	%ymm2, %ymm9, %ymm9
	vpaddd	%ymm4, %ymm9, %ymm2
	vpxor	%ymm5, %ymm2, %ymm4
	vpsrld	$7, %ymm4, %ymm5
	vpslld	$25, %ymm4, %ymm4
	vpor	%ymm5, %ymm4, %ymm5
	vpaddd	%ymm1, %ymm7, %ymm11
	vpxor	%ymm10, %ymm11, %ymm1
	vpsrld	$7, %ymm1, %ymm4
	vpslld	$25, %ymm1, %ymm1
	vpor	%ymm4, %ymm1, %ymm10
	vpshufd	$120, %ymm0, %ymm1
	vmovdqu	%ymm1, -128(%rsp)
	vpshufd	$147, %ymm8, %ymm0
	vpaddd	%ymm1, %ymm0, %ymm0
	vpaddd	%ymm5, %ymm0, %ymm8
	vpshufb	%ymm14, %ymm9, %ymm0
	vmovdqa	%ymm15, %ymm1
	vpshufb	%ymm15, %ymm8, %ymm4
	vpxor	%ymm0, %ymm4, %ymm4
	vpshufd	$120, %ymm3, %ymm15
	vpshufd	$147, %ymm6, %ymm3
	vpaddd	%ymm3, %ymm15, %ymm3
	vpaddd	%ymm3, %ymm10, %ymm6
	vpshufb	%ymm14, %ymm7, %ymm3
	vpshufb	%ymm1, %ymm6, %ymm7
	vpxor	%ymm3, %ymm7, %ymm7
	vpshufd	$57, %ymm11, %ymm3
	vpaddd	%ymm3, %ymm7, %ymm3
	vpxor	%ymm3, %ymm10, %ymm9
	vpsrld	$12, %ymm9, %ymm10
	vpslld	$20, %ymm9, %ymm9
	vpor	%ymm10, %ymm9, %ymm11
	vpshufd	$57, %ymm2, %ymm2
	vpaddd	%ymm2, %ymm4, %ymm2
	vpxor	%ymm5, %ymm2, %ymm5
	vpsrld	$12, %ymm5, %ymm9
	vpslld	$20, %ymm5, %ymm5
	vpor	%ymm5, %ymm9, %ymm10
	vmovdqu	624(%rsp), %ymm9
	vpblendd	$204, 1376(%rsp), %ymm9, %ymm5
	vpshufd	$164, %ymm5, %ymm5
	vmovdqu	240(%rsp), %ymm12
	vpblendd	$68, %ymm12, %ymm5, %ymm5
	vpaddd	%ymm5, %ymm6, %ymm5
	vmovdqu	656(%rsp), %ymm1
	vpblendd	$204, 688(%rsp), %ymm1, %ymm6
	vpshufd	$164, %ymm6, %ymm6
	vmovdqu	-32(%rsp), %ymm13
	vpblendd	$68, %ymm13, %ymm6, %ymm6
	vpaddd	%ymm6, %ymm8, %ymm6
	vpaddd	%ymm5, %ymm11, %ymm14
	vmovdqa	D(CPI12_2)(%rip), %ymm0
	vpshufb	%ymm0, %ymm7, %ymm5
	vpshufb	%ymm0, %ymm14, %ymm7
	vpxor	%ymm5, %ymm7, %ymm7
	vpaddd	%ymm6, %ymm10, %ymm6
	vpshufb	%ymm0, %ymm4, %ymm4
	vpshufb	%ymm0, %ymm6, %ymm5
	vpxor	%ymm4, %ymm5, %ymm5
	vpaddd	%ymm2, %ymm5, %ymm0
	vmovdqu	%ymm0, -96(%rsp)
	vpxor	%ymm0, %ymm10, %ymm2
	vpsrld	$7, %ymm2, %ymm4
	vpslld	$25, %ymm2, %ymm2
	vpor	%ymm4, %ymm2, %ymm8
	vpaddd	%ymm3, %ymm7, %ymm10
	vpxor	%ymm11, %ymm10, %ymm2
	vpsrld	$7, %ymm2, %ymm3
	vpslld	$25, %ymm2, %ymm2
	vpor	%ymm3, %ymm2, %ymm11
	vmovdqu	1568(%rsp), %ymm0
	vpalignr	$12, 432(%rsp), %ymm0, %ymm2
	vmovups	768(%rsp), %ymm4
	vshufps	$128, 928(%rsp), %ymm4, %ymm3
	vpblendd	$170, %ymm3, %ymm2, %ymm0
	vmovdqu	%ymm0, 432(%rsp)
	vmovdqu	1536(%rsp), %ymm0
	vpalignr	$12, 400(%rsp), %ymm0, %ymm2
	vmovups	496(%rsp), %ymm0
	vshufps	$128, 960(%rsp), %ymm0, %ymm3
	vpblendd	$170, %ymm3, %ymm2, %ymm2
	vmovdqu	%ymm2, 400(%rsp)
	vpblendd	$204, 1408(%rsp), %ymm1, %ymm2
	vpblendd	$204, 1440(%rsp), %ymm9, %ymm3
	vpblendd	$136, %ymm15, %ymm3, %ymm3
	vpblendd	$136, -128(%rsp), %ymm2, %ymm1
	vmovdqu	%ymm1, 16(%rsp)
	vmovdqa	D(CPI12_9)(%rip), %ymm1
	vpermd	736(%rsp), %ymm1, %ymm1
	vmovdqa	D(CPI12_10)(%rip), %ymm2
	vmovdqu	896(%rsp), %ymm9
	vpermd	%ymm9, %ymm2, %ymm2
	vpshufd	$170, %ymm12, %ymm15
	vpblendd	$204, %ymm2, %ymm15, %ymm2
	vpblendd	$17, %ymm1, %ymm2, %ymm1
	vmovdqu	%ymm1, -128(%rsp)
	vmovdqa	D(CPI12_11)(%rip), %ymm2
	vpermd	%ymm9, %ymm2, %ymm2
	vpshufd	$170, %ymm13, %ymm15
	vpblendd	$204, %ymm2, %ymm15, %ymm2
	vpshufd	$249, (%rsp), %xmm15
	vpmovzxdq	%xmm15, %ymm15
	vpblendd	$17, %ymm15, %ymm2, %ymm1
	vmovdqu	%ymm1, -64(%rsp)
	vmovups	992(%rsp), %ymm1
	vshufps	$85, %ymm0, %ymm1, %ymm15
	vpermilps	$39, 464(%rsp), %ymm1
	vblendps	$102, %ymm15, %ymm1, %ymm1
	vpshufd	$57, %ymm14, %ymm14
	vpaddd	%ymm1, %ymm14, %ymm1
	vmovups	1024(%rsp), %ymm0
	vshufps	$85, %ymm4, %ymm0, %ymm14
	vpermilps	$39, 48(%rsp), %ymm15
	vblendps	$102, %ymm14, %ymm15, %ymm14
	vpshufd	$57, %ymm6, %ymm13
	vpaddd	%ymm14, %ymm13, %ymm13
	vpaddd	%ymm13, %ymm8, %ymm13
	vmovdqa	D(CPI12_4)(%rip), %ymm2
	vpshufb	%ymm2, %ymm5, %ymm9
	vmovdqa	D(CPI12_3)(%rip), %ymm15
	vpshufb	%ymm15, %ymm13, %ymm14
	vpxor	%ymm9, %ymm14, %ymm9
	vpaddd	%ymm1, %ymm11, %ymm1
	vpshufb	%ymm2, %ymm7, %ymm7
	vpshufb	%ymm15, %ymm1, %ymm14
	vpxor	%ymm7, %ymm14, %ymm7
	vpshufd	$147, %ymm10, %ymm10
	vpaddd	%ymm7, %ymm10, %ymm10
	vpxor	%ymm11, %ymm10, %ymm11
	vpsrld	$12, %ymm11, %ymm14
	vpslld	$20, %ymm11, %ymm11
	vpor	%ymm14, %ymm11, %ymm11
	vpshufd	$147, -96(%rsp), %ymm5
	vpaddd	%ymm5, %ymm9, %ymm5
	vpxor	%ymm5, %ymm8, %ymm6
	vpsrld	$12, %ymm6, %ymm14
	vpslld	$20, %ymm6, %ymm6
	vpor	%ymm6, %ymm14, %ymm6
	vpaddd	400(%rsp), %ymm1, %ymm1
	vpaddd	432(%rsp), %ymm13, %ymm4
	vpaddd	%ymm6, %ymm4, %ymm4
	vpaddd	%ymm1, %ymm11, %ymm1
	vmovdqa	D(CPI12_2)(%rip), %ymm12
	vpshufb	%ymm12, %ymm1, %ymm8
	vpshufb	%ymm12, %ymm7, %ymm7
	vpxor	%ymm7, %ymm8, %ymm7
	vpshufb	%ymm12, %ymm4, %ymm8
	vpshufb	%ymm12, %ymm9, %ymm9
	vpxor	%ymm9, %ymm8, %ymm8
	vpaddd	%ymm5, %ymm8, %ymm5
	vpaddd	%ymm7, %ymm10, %ymm9
	vpxor	%ymm11, %ymm9, %ymm10
	vpxor	%ymm6, %ymm5, %ymm6
	vpsrld	$7, %ymm6, %ymm11
	vpslld	$25, %ymm6, %ymm6
	vpor	%ymm6, %ymm11, %ymm6
	vpsrld	$7, %ymm10, %ymm11
	vpslld	$25, %ymm10, %ymm10
	vpor	%ymm11, %ymm10, %ymm10
	vpshufd	$120, %ymm3, %ymm3
	vpshufd	$147, %ymm1, %ymm1
	vpaddd	%ymm3, %ymm1, %ymm1
	vpshufd	$120, 16(%rsp), %ymm0
	vpshufd	$147, %ymm4, %ymm3
	vpaddd	%ymm0, %ymm3, %ymm0
	vpaddd	%ymm6, %ymm0, %ymm0
	vpshufb	%ymm15, %ymm0, %ymm3
	vpshufb	%ymm2, %ymm8, %ymm4
	vpxor	%ymm4, %ymm3, %ymm3
	vpshufb	%ymm2, %ymm7, %ymm4
	vpshufd	$57, %ymm5, %ymm5
	vpshufd	$57, %ymm9, %ymm7
	vpaddd	%ymm1, %ymm10, %ymm1
	vpshufb	%ymm15, %ymm1, %ymm8
	vpxor	%ymm4, %ymm8, %ymm4
	vpaddd	%ymm7, %ymm4, %ymm7
	vpaddd	%ymm5, %ymm3, %ymm5
	vpxor	%ymm6, %ymm5, %ymm6
	vpxor	%ymm7, %ymm10, %ymm8
	vpsrld	$12, %ymm8, %ymm9
	vpslld	$20, %ymm8, %ymm8
	vpor	%ymm9, %ymm8, %ymm8
	vpsrld	$12, %ymm6, %ymm9
	vpslld	$20, %ymm6, %ymm6
	vpor	%ymm6, %ymm9, %ymm6
	vpaddd	-128(%rsp), %ymm1, %ymm1
	vpaddd	-64(%rsp), %ymm0, %ymm0
	vpaddd	%ymm6, %ymm0, %ymm2
	vpaddd	%ymm1, %ymm8, %ymm9
	vpshufb	%ymm12, %ymm9, %ymm0
	vpshufb	%ymm12, %ymm4, %ymm1
	vpxor	%ymm1, %ymm0, %ymm0
	vpshufb	%ymm12, %ymm2, %ymm1
	vpshufb	%ymm12, %ymm3, %ymm3
	vpxor	%ymm3, %ymm1, %ymm1
	vpaddd	%ymm5, %ymm1, %ymm3
	vpaddd	%ymm7, %ymm0, %ymm4
	vpxor	%ymm4, %ymm8, %ymm5
	vpxor	%ymm6, %ymm3, %ymm6
	vpsrld	$7, %ymm6, %ymm7
	vpslld	$25, %ymm6, %ymm6
	vpor	%ymm7, %ymm6, %ymm6
	vpsrld	$7, %ymm5, %ymm7
	vpslld	$25, %ymm5, %ymm5
	vpor	%ymm7, %ymm5, %ymm5
	vpshufd	$57, %ymm9, %ymm7
	vpshufd	$57, %ymm2, %ymm2
	vpshufd	$147, %ymm4, %ymm4
	vpxor	%ymm7, %ymm4, %ymm4
	vpshufd	$147, %ymm3, %ymm3
	vpxor	%ymm2, %ymm3, %ymm2
	vmovdqa	D(CPI12_12)(%rip), %ymm3
	vpermd	%ymm4, %ymm3, %ymm7
	vmovdqa	D(CPI12_13)(%rip), %ymm8
	vpermd	%ymm2, %ymm8, %ymm9
	vpblendd	$204, %ymm7, %ymm9, %ymm7
	vmovdqa	D(CPI12_14)(%rip), %ymm9
	vpermd	%ymm4, %ymm9, %ymm4
	vmovdqa	D(CPI12_15)(%rip), %ymm10
	vpermd	%ymm2, %ymm10, %ymm2
	vpblendd	$204, %ymm4, %ymm2, %ymm2
	vpermd	%ymm5, %ymm9, %ymm4
	vpermd	%ymm6, %ymm10, %ymm11
	vpblendd	$204, %ymm4, %ymm11, %ymm4
	vpermd	%ymm5, %ymm3, %ymm5
	vpermd	%ymm6, %ymm8, %ymm6
	vpblendd	$204, %ymm5, %ymm6, %ymm5
	vpermd	%ymm0, %ymm3, %ymm3
	vpermd	%ymm1, %ymm8, %ymm6
	vpblendd	$204, %ymm3, %ymm6, %ymm3
	vpxor	%ymm3, %ymm4, %ymm3
	vpermd	%ymm0, %ymm9, %ymm0
	vpermd	%ymm1, %ymm10, %ymm1
	vpblendd	$204, %ymm0, %ymm1, %ymm0
	vpxor	%ymm0, %ymm5, %ymm0
	vmovdqu	%ymm2, (%rdi)
	vmovdqu	%ymm7, 32(%rdi)
	vmovdqu	%ymm3, 64(%rdi)
	vmovdqu	%ymm0, 96(%rdi)
	addq	$1608, %rsp
	.cfi_def_cfa_offset 8
	vzeroupper
	retq
	SIZE("keyed_blake3::subtrees::four_parent_values::<#a9687390e0dd665c>")
	.cfi_endproc

SIZED(32, 5)
	.p2align	5, 0x0
D(CPI13_0):
	.zero	4
	.zero	4
	.long	64
	.long	18
	.zero	4
	.zero	4
	.long	64
	.long	18
D(CPI13_1):
	.long	0
	.long	4
	.long	1
	.long	5
	.long	2
	.long	6
	.long	3
	.long	7
D(CPI13_2):
	.long	0
	.long	0
	.long	64
	.long	20
	.long	0
	.long	0
	.long	64
	.long	20
SIZED(16, 4)
	.p2align	4, 0x0
D(CPI13_3):
	.long	0
	.long	0
	.long	64
	.long	20
CODE(".text.keyed_blake3::tree::Tree::absorb_subtrees::<#8b36ca032ac25711>")
	.p2align	4
	TYPE("keyed_blake3::tree::Tree::absorb_subtrees::<#8b36ca032ac25711>", function)
"keyed_blake3::tree::Tree::absorb_subtrees::<#8b36ca032ac25711>":
	.cfi_startproc
	pushq	%rbp
	.cfi_def_cfa_offset 16
	pushq	%r15
	.cfi_def_cfa_offset 24
	pushq	%r14
	.cfi_def_cfa_offset 32
	pushq	%r13
	.cfi_def_cfa_offset 40
	pushq	%r12
	.cfi_def_cfa_offset 48
	pushq	%rbx
	.cfi_def_cfa_offset 56
	subq	$632, %rsp
	.cfi_def_cfa_offset 688
	.cfi_offset %rbx, -56
	.cfi_offset %r12, -48
	.cfi_offset %r13, -40
	.cfi_offset %r14, -32
	.cfi_offset %r15, -24
	.cfi_offset %rbp, -16
	vxorps	%xmm2, %xmm2, %xmm2
	vmovups	%ymm2, 256(%rsp)
	vmovups	%ymm2, 224(%rsp)
	vmovups	%ymm2, 192(%rsp)
	vmovups	%ymm2, 160(%rsp)
	vmovups	%ymm2, 480(%rsp)
	movq	%r9, 520(%rsp)
	movq	%rcx, %r13
	movq	%rdx, %r14
	movq	%rsi, %r12
	vmovdqu	(%rdi), %xmm0
	vmovups	16(%rdi), %xmm1
	cmpq	$2048, %r8
	movq	%rdi, 424(%rsp)
	jne	L(13_4)
	movq	%r14, %rbp
	leaq	1024(%r13), %r14
	leaq	1(%r12), %rbx
	vinserti128	$1, %xmm0, %ymm0, %ymm0
	vinsertf128	$1, %xmm1, %ymm1, %ymm1
	vmovq	%r12, %xmm2
	movl	$64, %eax
	vmovdqu	%ymm2, 528(%rsp)
	vpinsrd	$2, %eax, %xmm2, %xmm2
	vmovdqa	%xmm2, 464(%rsp)
	vmovq	%rbx, %xmm2
	vmovdqa	%xmm2, 432(%rsp)
	vpinsrd	$2, %eax, %xmm2, %xmm2
	vmovdqa	%xmm2, 448(%rsp)
	xorl	%r15d, %r15d
	.p2align	4
L(13_2):
	cmpq	$1, %r15
	movl	$0, %eax
	adcl	$16, %eax
	vmovups	-1024(%r14,%r15), %ymm2
	vmovups	-992(%r14,%r15), %ymm3
	vmovups	%ymm2, 288(%rsp)
	vmovups	%ymm3, 320(%rsp)
	movq	%r12, 352(%rsp)
	movl	$64, 360(%rsp)
	movl	%eax, 364(%rsp)
	vmovups	(%r14,%r15), %ymm2
	vmovups	32(%r14,%r15), %ymm3
	vmovups	%ymm2, 80(%rsp)
	vmovups	%ymm3, 112(%rsp)
	movq	%rbx, 144(%rsp)
	movl	$64, 152(%rsp)
	vmovdqa	464(%rsp), %xmm2
	vpinsrd	$3, %eax, %xmm2, %xmm2
	movl	%eax, 156(%rsp)
	vmovdqa	448(%rsp), %xmm3
	vpinsrd	$3, %eax, %xmm3, %xmm3
	vinserti128	$1, %xmm3, %ymm2, %ymm2
	movq	%rsp, %rdi
	leaq	288(%rsp), %rsi
	leaq	80(%rsp), %rdx
	callq	"keyed_blake3::compression::two::compress_two_from"
	vmovdqu	(%rsp), %ymm0
	vmovups	32(%rsp), %ymm1
	addq	$64, %r15
	cmpq	$960, %r15
	jne	L(13_2)
	vmovups	960(%r13), %ymm2
	vmovups	992(%r13), %ymm3
	vmovups	%ymm2, 288(%rsp)
	vmovups	%ymm3, 320(%rsp)
	movq	%r12, 352(%rsp)
	movabsq	$77309411392, %rax
	movq	%rax, 360(%rsp)
	vmovups	1984(%r13), %ymm2
	vmovups	2016(%r13), %ymm3
	vmovups	%ymm2, 80(%rsp)
	vmovups	%ymm3, 112(%rsp)
	movq	%rbx, 144(%rsp)
	movq	%rax, 152(%rsp)
	vmovdqu	528(%rsp), %ymm2
	vinserti128	$1, 432(%rsp), %ymm2, %ymm2
	vpblendd	$204, D(CPI13_0)(%rip), %ymm2, %ymm2
	movq	%rsp, %rdi
	leaq	288(%rsp), %rsi
	leaq	80(%rsp), %rdx
	callq	"keyed_blake3::compression::two::compress_two_from"
	vmovdqa	D(CPI13_1)(%rip), %ymm1
	vpermd	32(%rsp), %ymm1, %ymm3
	vpermd	(%rsp), %ymm1, %ymm4
	xorl	%r10d, %r10d
	xorl	%r8d, %r8d
	xorl	%edi, %edi
	xorl	%esi, %esi
	xorl	%edx, %edx
	xorl	%ecx, %ecx
	xorl	%eax, %eax
	xorl	%r9d, %r9d
	movq	424(%rsp), %r15
	movq	%rbp, %r14
	jmp	L(13_5)
L(13_4):
	movq	%rdi, %r15
	vmovups	%ymm2, 384(%rsp)
	vmovups	%ymm2, 352(%rsp)
	vmovups	%ymm2, 320(%rsp)
	vmovups	%ymm2, 288(%rsp)
	shrq	$10, %r8
	xorl	%eax, %eax
	decq	%r8
	setne	%al
	cmpq	$2, %r8
	movl	$2, %ecx
	cmovbq	%r8, %rcx
	movl	$3, %edx
	cmovbeq	%r8, %rdx
	movq	$0, 80(%rsp)
	movq	%rax, 88(%rsp)
	movq	%rcx, 96(%rsp)
	movq	%rdx, 104(%rsp)
	leaq	288(%rsp), %rdi
	leaq	80(%rsp), %rdx
	movq	%r13, %rsi
	movq	%r12, %rcx
	vzeroupper
	callq	"keyed_blake3::four_chunks::four_chunk_values"
	movq	296(%rsp), %r10
	movq	312(%rsp), %r8
	movq	328(%rsp), %rdi
	movq	344(%rsp), %rsi
	movq	360(%rsp), %rdx
	movq	376(%rsp), %rcx
	movq	392(%rsp), %rax
	vmovdqu	352(%rsp), %ymm0
	vpunpcklqdq	384(%rsp), %ymm0, %ymm0
	vmovdqu	288(%rsp), %ymm1
	vpermq	$216, %ymm0, %ymm0
	vpbroadcastq	400(%rsp), %ymm2
	vpblendd	$192, %ymm2, %ymm0, %ymm3
	vpunpcklqdq	320(%rsp), %ymm1, %ymm1
	vpermq	$216, %ymm1, %ymm4
	movq	408(%rsp), %r9
L(13_5):
	vmovq	%xmm4, 160(%rsp)
	movq	%r10, 168(%rsp)
	vpextrq	$1, %xmm4, 176(%rsp)
	movq	%r8, 184(%rsp)
	vextracti128	$1, %ymm4, %xmm2
	vmovq	%xmm2, 192(%rsp)
	movq	%rdi, 200(%rsp)
	vpextrq	$1, %xmm2, 208(%rsp)
	movq	%rsi, 216(%rsp)
	vmovq	%xmm3, 224(%rsp)
	movq	%rdx, 232(%rsp)
	vpextrq	$1, %xmm3, 240(%rsp)
	movq	%rcx, 248(%rsp)
	vextracti128	$1, %ymm3, %xmm2
	vmovq	%xmm2, 256(%rsp)
	movq	%rax, 264(%rsp)
	vpextrq	$1, %xmm2, 272(%rsp)
	movq	%r9, 280(%rsp)
	cmpq	$3, %r14
	jb	L(13_15)
	movl	%r14d, %r11d
	orl	%r12d, %r11d
	andl	$1, %r11d
	jne	L(13_15)
	vbroadcasti128	(%r15), %ymm0
	vbroadcasti128	16(%r15), %ymm1
	movl	%r10d, 80(%rsp)
	shrq	$32, %r10
	movl	%r8d, 84(%rsp)
	movl	%edi, 88(%rsp)
	movl	%esi, 92(%rsp)
	movl	%edx, 96(%rsp)
	movl	%ecx, 100(%rsp)
	movl	%eax, 104(%rsp)
	movl	%r9d, 108(%rsp)
	movl	%r10d, 112(%rsp)
	shrq	$32, %r8
	movl	%r8d, 116(%rsp)
	shrq	$32, %rdi
	movl	%edi, 120(%rsp)
	shrq	$32, %rsi
	movl	%esi, 124(%rsp)
	shrq	$32, %rdx
	movl	%edx, 128(%rsp)
	shrq	$32, %rcx
	movl	%ecx, 132(%rsp)
	shrq	$32, %rax
	movl	%eax, 136(%rsp)
	shrq	$32, %r9
	vshufps	$136, %ymm3, %ymm4, %ymm2
	vpermpd	$216, %ymm2, %ymm2
	vshufps	$221, %ymm3, %ymm4, %ymm3
	vpermpd	$216, %ymm3, %ymm3
	vmovups	%ymm3, 320(%rsp)
	vmovups	%ymm2, 288(%rsp)
	movq	$0, 352(%rsp)
	movl	%r9d, 140(%rsp)
	movabsq	$85899345984, %rax
	movq	%rax, 360(%rsp)
	movq	$0, 144(%rsp)
	movq	%rax, 152(%rsp)
	vbroadcasti128	D(CPI13_3)(%rip), %ymm2
	movq	%rsp, %rdi
	leaq	288(%rsp), %rsi
	leaq	80(%rsp), %rdx
	vmovdqu	%ymm0, 592(%rsp)
	vmovdqu	%ymm1, 560(%rsp)
	callq	"keyed_blake3::compression::two::compress_two_from"
	movl	12(%rsp), %eax
	movl	%eax, 464(%rsp)
	movl	8(%rsp), %eax
	movl	%eax, 528(%rsp)
	movl	(%rsp), %r11d
	movl	4(%rsp), %r10d
	movl	44(%rsp), %eax
	movl	%eax, 448(%rsp)
	movl	40(%rsp), %eax
	movl	%eax, 432(%rsp)
	movl	36(%rsp), %eax
	movl	%eax, 76(%rsp)
	movl	32(%rsp), %esi
	movl	28(%rsp), %r8d
	movl	24(%rsp), %edi
	movl	20(%rsp), %ebx
	movl	16(%rsp), %eax
	movl	60(%rsp), %r9d
	movq	%r12, %r15
	shrq	%r15
	movq	%r14, %r13
	shrq	%r13
	movq	%r14, %rbp
	movl	56(%rsp), %r14d
	movl	52(%rsp), %ecx
	movl	48(%rsp), %edx
	cmpq	$5, %rbp
	jb	L(13_8)
	orl	%ebp, %r12d
	andl	$2, %r12d
	jne	L(13_8)
	vmovdqa	(%rsp), %xmm1
	vmovdqa	16(%rsp), %xmm0
	vinserti128	$1, 48(%rsp), %ymm0, %ymm0
	vinserti128	$1, 32(%rsp), %ymm1, %ymm1
	movq	%r15, %r12
	movq	%r13, %rbp
	.p2align	4
L(13_11):
	movq	$0, 352(%rsp)
	movabsq	$85899345984, %rax
	movq	%rax, 360(%rsp)
	vpxor	%xmm2, %xmm2, %xmm2
	vmovdqu	%ymm2, 80(%rsp)
	vmovdqu	%ymm2, 112(%rsp)
	movq	$0, 144(%rsp)
	movq	%rax, 152(%rsp)
	vmovdqu	%ymm1, 288(%rsp)
	vmovdqu	%ymm0, 320(%rsp)
	vbroadcasti128	D(CPI13_3)(%rip), %ymm2
	movq	%rsp, %rdi
	leaq	288(%rsp), %rsi
	leaq	80(%rsp), %rdx
	vmovups	592(%rsp), %ymm0
	vmovups	560(%rsp), %ymm1
	callq	"keyed_blake3::compression::two::compress_two_from"
	movl	12(%rsp), %eax
	movl	%eax, 464(%rsp)
	movl	8(%rsp), %eax
	movl	%eax, 528(%rsp)
	movl	(%rsp), %r11d
	movl	4(%rsp), %r10d
	movl	28(%rsp), %r8d
	movl	24(%rsp), %edi
	movl	20(%rsp), %ebx
	movl	16(%rsp), %eax
	movl	44(%rsp), %ecx
	movl	%ecx, 448(%rsp)
	movl	40(%rsp), %ecx
	movl	%ecx, 432(%rsp)
	movl	36(%rsp), %ecx
	movl	%ecx, 76(%rsp)
	movl	32(%rsp), %esi
	movl	60(%rsp), %r9d
	movl	56(%rsp), %r14d
	movl	52(%rsp), %ecx
	shrq	%r12
	shrq	%rbp
	movl	48(%rsp), %edx
	cmpq	$5, %r13
	jb	L(13_14)
	andl	$2, %r13d
	jne	L(13_14)
	vmovdqu	(%rsp), %ymm0
	vinserti128	$1, 32(%rsp), %ymm0, %ymm1
	vmovdqu	16(%rsp), %ymm0
	vinserti128	$1, 48(%rsp), %ymm0, %ymm0
	movq	%rbp, %r13
	andl	$2, %r15d
	movq	%r12, %r15
	je	L(13_11)
	jmp	L(13_14)
L(13_8):
	movq	%r15, %r12
	movq	%r13, %rbp
L(13_14):
	movl	%r11d, 160(%rsp)
	movl	%eax, 164(%rsp)
	movq	$0, 168(%rsp)
	movl	%r10d, 176(%rsp)
	movl	%ebx, 180(%rsp)
	movq	$0, 184(%rsp)
	movl	528(%rsp), %eax
	movl	%eax, 192(%rsp)
	movl	%edi, 196(%rsp)
	movq	$0, 200(%rsp)
	movl	464(%rsp), %eax
	movl	%eax, 208(%rsp)
	movl	%r8d, 212(%rsp)
	movq	$0, 216(%rsp)
	movl	%esi, 224(%rsp)
	movl	%edx, 228(%rsp)
	movq	$0, 232(%rsp)
	movl	76(%rsp), %eax
	movl	%eax, 240(%rsp)
	movl	%ecx, 244(%rsp)
	movq	$0, 248(%rsp)
	movl	432(%rsp), %eax
	movl	%eax, 256(%rsp)
	movl	%r14d, 260(%rsp)
	movq	$0, 264(%rsp)
	movl	448(%rsp), %eax
	movl	%eax, 272(%rsp)
	movl	%r9d, 276(%rsp)
	movq	$0, 280(%rsp)
	movq	424(%rsp), %r15
	movq	%rbp, %r14
L(13_15):
	movq	%r14, %rbp
	movq	%r14, %rbx
	decq	%rbx
	je	L(13_18)
	leaq	64(%r15), %r13
	xorl	%r14d, %r14d
	.p2align	4
L(13_17):
	movl	160(%rsp,%r14,4), %eax
	movl	176(%rsp,%r14,4), %ecx
	movl	192(%rsp,%r14,4), %edx
	movl	208(%rsp,%r14,4), %esi
	movl	224(%rsp,%r14,4), %edi
	movl	240(%rsp,%r14,4), %r8d
	movl	256(%rsp,%r14,4), %r9d
	movl	272(%rsp,%r14,4), %r10d
	movl	%eax, 288(%rsp)
	movl	%ecx, 292(%rsp)
	movl	%edx, 296(%rsp)
	movl	%esi, 300(%rsp)
	movl	%edi, 304(%rsp)
	movl	%r8d, 308(%rsp)
	movl	%r9d, 312(%rsp)
	movl	%r10d, 316(%rsp)
	leaq	(%r12,%r14), %rdx
	leaq	288(%rsp), %rcx
	movq	%r13, %rdi
	movq	%r15, %rsi
	xorl	%r8d, %r8d
	vzeroupper
	callq	"keyed_blake3::tree::add_subtree_value"
	incq	%r14
	cmpq	%r14, %rbx
	jne	L(13_17)
L(13_18):
	movl	156(%rsp,%rbp,4), %eax
	movl	172(%rsp,%rbp,4), %ecx
	movl	188(%rsp,%rbp,4), %edx
	movl	204(%rsp,%rbp,4), %esi
	movl	220(%rsp,%rbp,4), %edi
	movl	236(%rsp,%rbp,4), %r8d
	movl	252(%rsp,%rbp,4), %r9d
	movl	268(%rsp,%rbp,4), %r10d
	movl	%eax, 480(%rsp)
	movl	%ecx, 484(%rsp)
	movl	%edx, 488(%rsp)
	movl	%esi, 492(%rsp)
	movl	%edi, 496(%rsp)
	movl	%r8d, 500(%rsp)
	movl	%r9d, 504(%rsp)
	movl	%r10d, 508(%rsp)
	addq	%rbx, %r12
	leaq	64(%r15), %rdi
	leaq	480(%rsp), %rcx
	movq	%r15, %rsi
	movq	%r12, %rdx
	movq	520(%rsp), %r8
	vzeroupper
	callq	"keyed_blake3::tree::add_subtree_value"
	addq	$632, %rsp
	.cfi_def_cfa_offset 56
	popq	%rbx
	.cfi_def_cfa_offset 48
	popq	%r12
	.cfi_def_cfa_offset 40
	popq	%r13
	.cfi_def_cfa_offset 32
	popq	%r14
	.cfi_def_cfa_offset 24
	popq	%r15
	.cfi_def_cfa_offset 16
	popq	%rbp
	.cfi_def_cfa_offset 8
	retq
	SIZE("keyed_blake3::tree::Tree::absorb_subtrees::<#8b36ca032ac25711>")
	.cfi_endproc

CODE(".text.keyed_blake3::hasher::Hasher::finalize")
	.p2align	4
	TYPE("keyed_blake3::hasher::Hasher::finalize", function)
"keyed_blake3::hasher::Hasher::finalize":
	.cfi_startproc
	endbr64
	pushq	%rbp
	.cfi_def_cfa_offset 16
	pushq	%r15
	.cfi_def_cfa_offset 24
	pushq	%r14
	.cfi_def_cfa_offset 32
	pushq	%r13
	.cfi_def_cfa_offset 40
	pushq	%r12
	.cfi_def_cfa_offset 48
	pushq	%rbx
	.cfi_def_cfa_offset 56
	subq	$136, %rsp
	.cfi_def_cfa_offset 192
	.cfi_offset %rbx, -56
	.cfi_offset %r12, -48
	.cfi_offset %r13, -40
	.cfi_offset %r14, -32
	.cfi_offset %r15, -24
	.cfi_offset %rbp, -16
	movq	%rsi, %r14
	movq	%rdi, %rbx
	movq	1856(%rsi), %r12
	cmpq	$1025, %r12
	setb	%al
	testl	$1023, %r12d
	setne	%cl
	orb	%al, %cl
	jne	L(14_2)
	shrq	$10, %r12
	xorl	%eax, %eax
	popcntq	%r12, %rax
	cmpl	$3, %eax
	movl	$2, %r15d
	cmovael	%eax, %r15d
	decq	%r15
	movq	%r15, %rax
	shlq	$5, %rax
	vmovdqu	64(%r14,%rax), %ymm0
	jmp	L(14_8)
L(14_2):
	cmpq	$1, %r12
	movq	%r12, %rax
	adcq	$-1, %rax
	movq	%rax, %r15
	shrq	$10, %r15
	movq	%rax, %rcx
	andq	$-64, %rcx
	subq	%rcx, %r12
	leaq	1792(%r14), %rsi
	xorl	%ecx, %ecx
	testq	%r15, %r15
	sete	%cl
	vxorps	%xmm0, %xmm0, %xmm0
	vmovups	%ymm0, (%rsp)
	xorl	%edx, %edx
	testl	$960, %eax
	sete	%dl
	leal	(%rdx,%rcx,8), %ebp
	addl	$18, %ebp
	cmpq	$64, %r12
	jne	L(14_4)
	vmovups	(%rsi), %ymm0
	vmovups	32(%rsi), %ymm1
	vmovups	%ymm1, 64(%rsp)
	vmovups	%ymm0, 32(%rsp)
	vmovups	32(%r14), %xmm0
	vmovups	48(%r14), %xmm1
	movq	%rsp, %rdi
	leaq	32(%rsp), %rsi
	movq	%r15, %rdx
	movl	$64, %ecx
	jmp	L(14_5)
L(14_4):
	vmovups	%ymm0, 64(%rsp)
	vmovups	%ymm0, 32(%rsp)
	leaq	32(%rsp), %r13
	movq	%r13, %rdi
	movq	%r12, %rdx
	vzeroupper
	callq	PLT(memcpy)
	vmovups	32(%r14), %xmm0
	vmovups	48(%r14), %xmm1
	movq	%rsp, %rdi
	movq	%r13, %rsi
	movq	%r15, %rdx
	movl	%r12d, %ecx
L(14_5):
	movl	%ebp, %r8d
	vzeroupper
	callq	"keyed_blake3::compression::compress"
	movl	4(%rsp), %eax
	vmovq	8(%rsp), %xmm0
	vmovdqa	16(%rsp), %xmm1
	vmovdqa	(%rsp), %xmm2
	vpinsrd	$1, %eax, %xmm2, %xmm2
	testq	%r15, %r15
	je	L(14_6)
	vpblendd	$240, (%rsp), %ymm2, %ymm2
	popcntq	%r15, %r15
	vinserti128	$1, %xmm1, %ymm2, %ymm1
	vpbroadcastq	%xmm0, %xmm0
	vpblendd	$12, %ymm0, %ymm1, %ymm0
L(14_8):
	vmovups	(%r14), %xmm1
	vmovaps	%xmm1, 112(%rsp)
	vmovdqu	16(%r14), %xmm1
	vmovdqa	%xmm1, 96(%rsp)
	movq	%r15, %rax
	shlq	$5, %rax
	addq	%rax, %r14
	addq	$32, %r14
	.p2align	4
L(14_9):
	xorl	%eax, %eax
	cmpq	$1, %r15
	vmovups	(%r14), %ymm1
	vmovups	%ymm1, 32(%rsp)
	sete	%al
	leal	20(,%rax,8), %r8d
	vmovdqu	%ymm0, 64(%rsp)
	movq	%rsp, %rdi
	leaq	32(%rsp), %rsi
	vmovaps	112(%rsp), %xmm0
	vmovdqa	96(%rsp), %xmm1
	xorl	%edx, %edx
	movl	$64, %ecx
	vzeroupper
	callq	"keyed_blake3::compression::compress"
	addq	$-32, %r14
	vmovdqu	(%rsp), %ymm0
	decq	%r15
	jne	L(14_9)
L(14_10):
	vmovdqu	%ymm0, (%rbx)
	addq	$136, %rsp
	.cfi_def_cfa_offset 56
	popq	%rbx
	.cfi_def_cfa_offset 48
	popq	%r12
	.cfi_def_cfa_offset 40
	popq	%r13
	.cfi_def_cfa_offset 32
	popq	%r14
	.cfi_def_cfa_offset 24
	popq	%r15
	.cfi_def_cfa_offset 16
	popq	%rbp
	.cfi_def_cfa_offset 8
	vzeroupper
	retq
L(14_6):
	.cfi_def_cfa_offset 192
	vpunpcklqdq	%xmm0, %xmm2, %xmm0
	vinserti128	$1, %xmm1, %ymm0, %ymm0
	jmp	L(14_10)
	SIZE("keyed_blake3::hasher::Hasher::finalize")
	.cfi_endproc

CODE(".text.xet_roots::groups::parent_hashes")
	.p2align	4
	TYPE("xet_roots::groups::parent_hashes", function)
"xet_roots::groups::parent_hashes":
	.cfi_startproc
	endbr64
	pushq	%rbp
	.cfi_def_cfa_offset 16
	pushq	%r15
	.cfi_def_cfa_offset 24
	pushq	%r14
	.cfi_def_cfa_offset 32
	pushq	%r13
	.cfi_def_cfa_offset 40
	pushq	%r12
	.cfi_def_cfa_offset 48
	pushq	%rbx
	.cfi_def_cfa_offset 56
	subq	$3072, %rsp
	.cfi_adjust_cfa_offset 3072
	movq	$0, (%rsp)
	subq	$3072, %rsp
	.cfi_adjust_cfa_offset 3072
	movq	$0, (%rsp)
	subq	$3072, %rsp
	.cfi_adjust_cfa_offset 3072
	movq	$0, (%rsp)
	subq	$3072, %rsp
	.cfi_adjust_cfa_offset 3072
	movq	$0, (%rsp)
	subq	$3072, %rsp
	.cfi_adjust_cfa_offset 3072
	movq	$0, (%rsp)
	subq	$3072, %rsp
	.cfi_adjust_cfa_offset 3072
	movq	$0, (%rsp)
	subq	$2216, %rsp
	.cfi_def_cfa_offset 20704
	.cfi_offset %rbx, -56
	.cfi_offset %r12, -48
	.cfi_offset %r13, -40
	.cfi_offset %r14, -32
	.cfi_offset %r15, -24
	.cfi_offset %rbp, -16
	movq	%rdx, %r15
	movq	%rsi, %r14
	movq	%rdi, 152(%rsp)
	leaq	936(%rsp), %rdi
	movl	$640, %edx
	xorl	%esi, %esi
	callq	PLT(memset)
	vxorps	%xmm0, %xmm0, %xmm0
	vmovups	%ymm0, 64(%rsp)
	vmovups	%ymm0, 96(%rsp)
	vmovups	%ymm0, 112(%rsp)
	testq	%r15, %r15
	je	L(19_1)
	movl	%r15d, %eax
	andl	$3, %eax
	cmpq	$4, %r15
	jae	L(19_4)
	xorl	%ecx, %ecx
	jmp	L(19_7)
L(19_1):
	movq	$0, 16(%rsp)
	movq	$0, 8(%rsp)
	xorl	%ecx, %ecx
	movq	$0, 48(%rsp)
	movq	$0, 40(%rsp)
	movq	$0, 32(%rsp)
	movq	$0, 24(%rsp)
	xorl	%ebx, %ebx
	xorl	%r12d, %r12d
	xorl	%r13d, %r13d
	jmp	L(19_10)
L(19_4):
	andq	$-4, %r15
	leaq	56(%r14), %rdx
	xorl	%ecx, %ecx
	.p2align	4
L(19_5):
	movq	-48(%rdx), %rsi
	movq	64(%rsp,%rsi,8), %rdi
	movq	%rsi, %r8
	shlq	$6, %r8
	addq	%rsp, %r8
	addq	$936, %r8
	movb	%cl, (%rdi,%r8)
	incq	%rdi
	movq	%rdi, 64(%rsp,%rsi,8)
	movq	-32(%rdx), %rsi
	movq	64(%rsp,%rsi,8), %rdi
	movq	%rsi, %r8
	shlq	$6, %r8
	addq	%rsp, %r8
	addq	$936, %r8
	leal	1(%rcx), %r9d
	movb	%r9b, (%rdi,%r8)
	incq	%rdi
	movq	%rdi, 64(%rsp,%rsi,8)
	movq	-16(%rdx), %rsi
	movq	64(%rsp,%rsi,8), %rdi
	movq	%rsi, %r8
	shlq	$6, %r8
	addq	%rsp, %r8
	addq	$936, %r8
	leal	2(%rcx), %r9d
	movb	%r9b, (%rdi,%r8)
	incq	%rdi
	movq	%rdi, 64(%rsp,%rsi,8)
	movq	(%rdx), %rsi
	movq	64(%rsp,%rsi,8), %rdi
	movq	%rsi, %r8
	shlq	$6, %r8
	addq	%rsp, %r8
	addq	$936, %r8
	leal	3(%rcx), %r9d
	movb	%r9b, (%rdi,%r8)
	incq	%rdi
	movq	%rdi, 64(%rsp,%rsi,8)
	addq	$4, %rcx
	addq	$64, %rdx
	cmpq	%r15, %rcx
	jne	L(19_5)
	testq	%rax, %rax
	je	L(19_9)
L(19_7):
	movq	%rcx, %rdx
	shlq	$4, %rdx
	addq	%r14, %rdx
	addq	$8, %rdx
	shll	$4, %eax
	xorl	%esi, %esi
	.p2align	4
L(19_8):
	movq	(%rdx,%rsi), %rdi
	movq	64(%rsp,%rdi,8), %r8
	movq	%rdi, %r9
	shlq	$6, %r9
	addq	%rsp, %r9
	addq	$936, %r9
	movb	%cl, (%r8,%r9)
	incq	%r8
	movq	%r8, 64(%rsp,%rdi,8)
	incb	%cl
	addq	$16, %rsi
	cmpq	%rsi, %rax
	jne	L(19_8)
L(19_9):
	movq	64(%rsp), %r13
	movq	72(%rsp), %r12
	movq	80(%rsp), %rbx
	movq	88(%rsp), %rax
	movq	%rax, 24(%rsp)
	movq	96(%rsp), %rax
	movq	%rax, 32(%rsp)
	movq	104(%rsp), %rax
	movq	%rax, 40(%rsp)
	movq	112(%rsp), %rax
	movq	%rax, 48(%rsp)
	movq	120(%rsp), %rcx
	movq	128(%rsp), %rax
	movq	%rax, 8(%rsp)
	movq	136(%rsp), %rax
	movq	%rax, 16(%rsp)
L(19_10):
	movq	%rcx, 56(%rsp)
	leaq	3624(%rsp), %r15
	leaq	936(%rsp), %rsi
	movl	$640, %edx
	movq	%r15, %rdi
	vzeroupper
	callq	PLT(memcpy)
	leaq	296(%rsp), %rdi
	movl	$640, %edx
	movq	%r15, %rsi
	callq	PLT(memcpy)
	leaq	1576(%rsp), %rdi
	xorl	%r15d, %r15d
	movl	$2048, %edx
	xorl	%esi, %esi
	callq	PLT(memset)
	leaq	4264(%rsp), %rdi
	movl	$16384, %edx
	xorl	%esi, %esi
	callq	PLT(memset)
	vxorps	%xmm0, %xmm0, %xmm0
	vmovups	%ymm0, 160(%rsp)
	vmovups	%ymm0, 192(%rsp)
	vmovups	%ymm0, 224(%rsp)
	vmovups	%ymm0, 256(%rsp)
	testq	%r13, %r13
	je	L(19_15)
	xorl	%r15d, %r15d
	xorl	%ebp, %ebp
	jmp	L(19_12)
	.p2align	4
L(19_14):
	incq	%rbp
	cmpq	%rbp, %r13
	je	L(19_15)
L(19_12):
	movzbl	296(%rsp,%rbp), %eax
	movq	%rax, 160(%rsp,%r15,8)
	incq	%r15
	cmpq	$16, %r15
	jne	L(19_14)
	leaq	160(%rsp), %rsi
	leaq	4264(%rsp), %rcx
	leaq	1576(%rsp), %r8
	movl	$16, %edx
	movq	%r14, %rdi
	vzeroupper
	callq	"xet_roots::groups::hash_at"
	xorl	%r15d, %r15d
	jmp	L(19_14)
L(19_15):
	testq	%r12, %r12
	je	L(19_16)
	xorl	%r13d, %r13d
	movq	56(%rsp), %rbp
	jmp	L(19_18)
	.p2align	4
L(19_20):
	incq	%r13
	cmpq	%r13, %r12
	je	L(19_21)
L(19_18):
	movzbl	360(%rsp,%r13), %eax
	movq	%rax, 160(%rsp,%r15,8)
	incq	%r15
	cmpq	$16, %r15
	jne	L(19_20)
	leaq	160(%rsp), %rsi
	leaq	4264(%rsp), %rcx
	leaq	1576(%rsp), %r8
	movl	$16, %edx
	movq	%r14, %rdi
	vzeroupper
	callq	"xet_roots::groups::hash_at"
	xorl	%r15d, %r15d
	jmp	L(19_20)
L(19_16):
	movq	56(%rsp), %rbp
L(19_21):
	testq	%rbx, %rbx
	je	L(19_22)
	xorl	%r12d, %r12d
	movq	8(%rsp), %r13
	jmp	L(19_24)
	.p2align	4
L(19_26):
	incq	%r12
	cmpq	%r12, %rbx
	je	L(19_27)
L(19_24):
	movzbl	424(%rsp,%r12), %eax
	movq	%rax, 160(%rsp,%r15,8)
	incq	%r15
	cmpq	$16, %r15
	jne	L(19_26)
	leaq	160(%rsp), %rsi
	leaq	4264(%rsp), %rcx
	leaq	1576(%rsp), %r8
	movl	$16, %edx
	movq	%r14, %rdi
	vzeroupper
	callq	"xet_roots::groups::hash_at"
	xorl	%r15d, %r15d
	jmp	L(19_26)
L(19_22):
	movq	8(%rsp), %r13
L(19_27):
	cmpq	$0, 24(%rsp)
	je	L(19_28)
	xorl	%ebx, %ebx
	movq	16(%rsp), %r12
	jmp	L(19_30)
	.p2align	4
L(19_32):
	incq	%rbx
	cmpq	%rbx, 24(%rsp)
	je	L(19_33)
L(19_30):
	movzbl	488(%rsp,%rbx), %eax
	movq	%rax, 160(%rsp,%r15,8)
	incq	%r15
	cmpq	$16, %r15
	jne	L(19_32)
	leaq	160(%rsp), %rsi
	leaq	4264(%rsp), %rcx
	leaq	1576(%rsp), %r8
	movl	$16, %edx
	movq	%r14, %rdi
	vzeroupper
	callq	"xet_roots::groups::hash_at"
	xorl	%r15d, %r15d
	jmp	L(19_32)
L(19_28):
	movq	16(%rsp), %r12
L(19_33):
	cmpq	$0, 32(%rsp)
	je	L(19_38)
	xorl	%ebx, %ebx
	jmp	L(19_35)
	.p2align	4
L(19_37):
	incq	%rbx
	cmpq	%rbx, 32(%rsp)
	je	L(19_38)
L(19_35):
	movzbl	552(%rsp,%rbx), %eax
	movq	%rax, 160(%rsp,%r15,8)
	incq	%r15
	cmpq	$16, %r15
	jne	L(19_37)
	leaq	160(%rsp), %rsi
	leaq	4264(%rsp), %rcx
	leaq	1576(%rsp), %r8
	movl	$16, %edx
	movq	%r14, %rdi
	vzeroupper
	callq	"xet_roots::groups::hash_at"
	xorl	%r15d, %r15d
	jmp	L(19_37)
L(19_38):
	cmpq	$0, 40(%rsp)
	je	L(19_43)
	xorl	%ebx, %ebx
	jmp	L(19_40)
	.p2align	4
L(19_42):
	incq	%rbx
	cmpq	%rbx, 40(%rsp)
	je	L(19_43)
L(19_40):
	movzbl	616(%rsp,%rbx), %eax
	movq	%rax, 160(%rsp,%r15,8)
	incq	%r15
	cmpq	$16, %r15
	jne	L(19_42)
	leaq	160(%rsp), %rsi
	leaq	4264(%rsp), %rcx
	leaq	1576(%rsp), %r8
	movl	$16, %edx
	movq	%r14, %rdi
	vzeroupper
	callq	"xet_roots::groups::hash_at"
	xorl	%r15d, %r15d
	jmp	L(19_42)
L(19_43):
	cmpq	$0, 48(%rsp)
	je	L(19_48)
	xorl	%ebx, %ebx
	jmp	L(19_45)
	.p2align	4
L(19_47):
	incq	%rbx
	cmpq	%rbx, 48(%rsp)
	je	L(19_48)
L(19_45):
	movzbl	680(%rsp,%rbx), %eax
	movq	%rax, 160(%rsp,%r15,8)
	incq	%r15
	cmpq	$16, %r15
	jne	L(19_47)
	leaq	160(%rsp), %rsi
	leaq	4264(%rsp), %rcx
	leaq	1576(%rsp), %r8
	movl	$16, %edx
	movq	%r14, %rdi
	vzeroupper
	callq	"xet_roots::groups::hash_at"
	xorl	%r15d, %r15d
	jmp	L(19_47)
L(19_48):
	testq	%rbp, %rbp
	je	L(19_53)
	xorl	%ebx, %ebx
	jmp	L(19_50)
	.p2align	4
L(19_52):
	incq	%rbx
	cmpq	%rbx, %rbp
	je	L(19_53)
L(19_50):
	movzbl	744(%rsp,%rbx), %eax
	movq	%rax, 160(%rsp,%r15,8)
	incq	%r15
	cmpq	$16, %r15
	jne	L(19_52)
	leaq	160(%rsp), %rsi
	leaq	4264(%rsp), %rcx
	leaq	1576(%rsp), %r8
	movl	$16, %edx
	movq	%r14, %rdi
	vzeroupper
	callq	"xet_roots::groups::hash_at"
	xorl	%r15d, %r15d
	jmp	L(19_52)
L(19_53):
	testq	%r13, %r13
	je	L(19_58)
	xorl	%ebx, %ebx
	jmp	L(19_55)
	.p2align	4
L(19_57):
	incq	%rbx
	cmpq	%rbx, %r13
	je	L(19_58)
L(19_55):
	movzbl	808(%rsp,%rbx), %eax
	movq	%rax, 160(%rsp,%r15,8)
	incq	%r15
	cmpq	$16, %r15
	jne	L(19_57)
	leaq	160(%rsp), %rsi
	leaq	4264(%rsp), %rcx
	leaq	1576(%rsp), %r8
	movl	$16, %edx
	movq	%r14, %rdi
	vzeroupper
	callq	"xet_roots::groups::hash_at"
	xorl	%r15d, %r15d
	jmp	L(19_57)
L(19_58):
	testq	%r12, %r12
	je	L(19_63)
	xorl	%ebx, %ebx
	jmp	L(19_60)
	.p2align	4
L(19_62):
	incq	%rbx
	cmpq	%rbx, %r12
	je	L(19_63)
L(19_60):
	movzbl	872(%rsp,%rbx), %eax
	movq	%rax, 160(%rsp,%r15,8)
	incq	%r15
	cmpq	$16, %r15
	jne	L(19_62)
	leaq	160(%rsp), %rsi
	leaq	4264(%rsp), %rcx
	leaq	1576(%rsp), %r8
	movl	$16, %edx
	movq	%r14, %rdi
	vzeroupper
	callq	"xet_roots::groups::hash_at"
	xorl	%r15d, %r15d
	jmp	L(19_62)
L(19_63):
	leaq	160(%rsp), %rsi
	leaq	4264(%rsp), %rcx
	leaq	1576(%rsp), %r12
	movq	%r14, %rdi
	movq	%r15, %rdx
	movq	%r12, %r8
	vzeroupper
	callq	"xet_roots::groups::hash_at"
	movl	$2048, %edx
	movq	152(%rsp), %rdi
	movq	%r12, %rsi
	callq	PLT(memcpy)
	addq	$20648, %rsp
	.cfi_def_cfa_offset 56
	popq	%rbx
	.cfi_def_cfa_offset 48
	popq	%r12
	.cfi_def_cfa_offset 40
	popq	%r13
	.cfi_def_cfa_offset 32
	popq	%r14
	.cfi_def_cfa_offset 24
	popq	%r15
	.cfi_def_cfa_offset 16
	popq	%rbp
	.cfi_def_cfa_offset 8
	retq
	SIZE("xet_roots::groups::parent_hashes")
	.cfi_endproc

SIZED(8, 3)
	.p2align	3, 0x0
D(CPI20_0):
	.quad	-9223372036854775808
D(CPI20_1):
	.quad	-9223372036854775807
D(CPI20_3):
	.quad	4294967232
SIZED(32, 5)
	.p2align	5, 0x0
D(CPI20_2):
	.long	0
	.long	2
	.long	4
	.long	6
	.long	4
	.long	6
	.long	6
	.long	7
D(CPI20_4):
	.quad	0
	.quad	1
	.quad	2
	.quad	3
SIZED(4, 2)
	.p2align	2, 0x0
D(CPI20_5):
	.long	3351608833
D(CPI20_6):
	.long	2519287717
D(CPI20_7):
	.long	1717998845
D(CPI20_8):
	.long	3858926260
D(CPI20_9):
	.long	1867767133
D(CPI20_10):
	.long	3530409783
D(CPI20_11):
	.long	3864159224
D(CPI20_12):
	.long	1064391498
D(CPI20_13):
	.long	64
CODE(".text.xet_roots::groups::hash_at")
	.p2align	4
	TYPE("xet_roots::groups::hash_at", function)
"xet_roots::groups::hash_at":
	.cfi_startproc
	pushq	%rbp
	.cfi_def_cfa_offset 16
	pushq	%r15
	.cfi_def_cfa_offset 24
	pushq	%r14
	.cfi_def_cfa_offset 32
	pushq	%r13
	.cfi_def_cfa_offset 40
	pushq	%r12
	.cfi_def_cfa_offset 48
	pushq	%rbx
	.cfi_def_cfa_offset 56
	subq	$3072, %rsp
	.cfi_adjust_cfa_offset 3072
	movq	$0, (%rsp)
	subq	$312, %rsp
	.cfi_def_cfa_offset 3440
	.cfi_offset %rbx, -56
	.cfi_offset %r12, -48
	.cfi_offset %r13, -40
	.cfi_offset %r14, -32
	.cfi_offset %r15, -24
	.cfi_offset %rbp, -16
	vxorpd	%xmm0, %xmm0, %xmm0
	vmovupd	%ymm0, 240(%rsp)
	vmovupd	%ymm0, 208(%rsp)
	vmovupd	%ymm0, 176(%rsp)
	vmovupd	%ymm0, 144(%rsp)
	testq	%rdx, %rdx
	je	L(20_43)
	movq	%rdx, %r15
	movq	%rsi, %r14
	movq	%rdi, %r13
	movq	%r8, 40(%rsp)
	xorl	%ebx, %ebx
	movq	%rcx, 24(%rsp)
	movq	%rcx, %rbp
	.p2align	4
L(20_2):
	movq	(%r14,%rbx,8), %rax
	shlq	$4, %rax
	movq	(%r13,%rax), %rsi
	movq	8(%r13,%rax), %rdx
	movq	%rbp, %rdi
	vzeroupper
	callq	"xet_roots::groups::write_text"
	movq	%rax, 144(%rsp,%rbx,8)
	incq	%rbx
	addq	$1024, %rbp
	cmpq	%rbx, %r15
	jne	L(20_2)
	movq	%r14, 32(%rsp)
	vxorpd	%xmm0, %xmm0, %xmm0
	vmovupd	%ymm0, 2256(%rsp)
	vmovupd	%ymm0, 2224(%rsp)
	vmovupd	%ymm0, 2192(%rsp)
	vmovupd	%ymm0, 2160(%rsp)
	vmovupd	%ymm0, 2128(%rsp)
	vmovupd	%ymm0, 2096(%rsp)
	vmovupd	%ymm0, 2064(%rsp)
	vmovupd	%ymm0, 2032(%rsp)
	vmovupd	%ymm0, 2000(%rsp)
	vmovupd	%ymm0, 1968(%rsp)
	vmovupd	%ymm0, 1936(%rsp)
	vmovupd	%ymm0, 1904(%rsp)
	vmovupd	%ymm0, 1872(%rsp)
	vmovupd	%ymm0, 1840(%rsp)
	vmovupd	%ymm0, 1808(%rsp)
	vmovupd	%ymm0, 1776(%rsp)
	movl	%r15d, %ebx
	andl	$3, %ebx
	cmpq	$4, %r15
	movq	%r15, 16(%rsp)
	jae	L(20_5)
	xorl	%r14d, %r14d
	movq	24(%rsp), %rbp
	jmp	L(20_8)
L(20_5):
	andq	$-4, %r15
	xorl	%r14d, %r14d
	movq	24(%rsp), %rbp
	movq	%rbp, %r12
	.p2align	4
L(20_6):
	movq	144(%rsp,%r14,8), %rax
	leaq	64(%rax), %rdx
	cmpq	$1024, %rdx
	movl	$1024, %r13d
	cmovaeq	%r13, %rdx
	leaq	(%r12,%rax), %rdi
	subq	%rax, %rdx
	xorl	%esi, %esi
	vzeroupper
	callq	PLT(memset)
	movq	152(%rsp,%r14,8), %rax
	leaq	64(%rax), %rdx
	cmpq	$1024, %rdx
	cmovaeq	%r13, %rdx
	leaq	(%rax,%r12), %rdi
	addq	$1024, %rdi
	subq	%rax, %rdx
	xorl	%esi, %esi
	callq	PLT(memset)
	movq	160(%rsp,%r14,8), %rax
	leaq	64(%rax), %rdx
	cmpq	$1024, %rdx
	cmovaeq	%r13, %rdx
	leaq	(%rax,%r12), %rdi
	addq	$2048, %rdi
	subq	%rax, %rdx
	xorl	%esi, %esi
	callq	PLT(memset)
	movq	168(%rsp,%r14,8), %rax
	leaq	64(%rax), %rcx
	cmpq	$1024, %rcx
	cmovbq	%rcx, %r13
	leaq	(%rax,%r12), %rdi
	addq	$3072, %rdi
	subq	%rax, %r13
	xorl	%esi, %esi
	movq	%r13, %rdx
	callq	PLT(memset)
	addq	$4, %r14
	addq	$4096, %r12
	cmpq	%r14, %r15
	jne	L(20_6)
	testq	%rbx, %rbx
	je	L(20_10)
L(20_8):
	leaq	(%rsp,%r14,8), %r15
	addq	$144, %r15
	shlq	$10, %r14
	addq	%rbp, %r14
	xorl	%r12d, %r12d
	.p2align	4
L(20_9):
	movq	(%r15,%r12,8), %rax
	leaq	64(%rax), %rcx
	cmpq	$1024, %rcx
	movl	$1024, %edx
	cmovbq	%rcx, %rdx
	leaq	(%r14,%rax), %rdi
	subq	%rax, %rdx
	xorl	%esi, %esi
	vzeroupper
	callq	PLT(memset)
	incq	%r12
	addq	$1024, %r14
	cmpq	%r12, %rbx
	jne	L(20_9)
L(20_10):
	xorl	%r12d, %r12d
	movq	16(%rsp), %r15
	jmp	L(20_11)
	.p2align	4
L(20_26):
	leaq	1(%r12), %rbx
	movq	%rbx, %rax
	shlq	$10, %rax
	addq	%rbp, %rax
	movq	152(%rsp,%r12,8), %r8
	leaq	1392(%rsp), %rdi
	movq	%rdx, %rsi
	movq	%rcx, %rdx
	movq	%rax, %rcx
	vzeroupper
	callq	"keyed_blake3::keyed_hash_two"
	movq	%r12, %rax
	shlq	$5, %rax
	vmovups	1392(%rsp), %ymm0
	vmovups	%ymm0, 1776(%rsp,%rax)
	shlq	$5, %rbx
	leaq	1424(%rsp), %rax
	vmovupd	(%rax), %ymm0
	vmovupd	%ymm0, 1776(%rsp,%rbx)
	addq	$2, %r12
	movq	16(%rsp), %r15
	cmpq	%r15, %r12
	jae	L(20_29)
L(20_11):
	vxorpd	%xmm0, %xmm0, %xmm0
	vmovupd	%ymm0, 272(%rsp)
	vmovupd	%ymm0, 1392(%rsp)
	vmovupd	%ymm0, 1424(%rsp)
	subq	%r12, %r15
	cmpq	$5, %r15
	jb	L(20_24)
	vmovupd	%ymm0, 592(%rsp)
	vmovupd	%ymm0, 560(%rsp)
	vmovupd	%ymm0, 528(%rsp)
	vmovupd	%ymm0, 496(%rsp)
	vmovupd	%ymm0, 464(%rsp)
	vmovupd	%ymm0, 432(%rsp)
	vmovupd	%ymm0, 400(%rsp)
	vmovupd	%ymm0, 368(%rsp)
	leaq	(%rsp,%r12,8), %rax
	addq	$144, %rax
	vmovupd	%ymm0, 880(%rsp)
	vmovupd	%ymm0, 80(%rsp)
	cmpq	$8, %r15
	movl	$8, %ebx
	cmovbq	%r15, %rbx
	jae	L(20_44)
	xorl	%r14d, %r14d
	xorl	%ecx, %ecx
	jmp	L(20_14)
	.p2align	4
L(20_24):
	movq	%r12, %rdx
	shlq	$10, %rdx
	addq	%rbp, %rdx
	movq	144(%rsp,%r12,8), %rcx
	cmpq	$1, %r15
	jne	L(20_26)
	leaq	D(static.7)(%rip), %rsi
	leaq	272(%rsp), %rdi
	vzeroupper
	callq	"keyed_blake3::keyed_hash"
	movq	%r12, %rax
	shlq	$5, %rax
	vmovupd	272(%rsp), %ymm0
	vmovupd	%ymm0, 1776(%rsp,%rax)
	incq	%r12
	movq	16(%rsp), %r15
	cmpq	%r15, %r12
	jb	L(20_11)
	jmp	L(20_29)
	.p2align	4
L(20_44):
	movl	%ebx, %ecx
	andl	$8, %ecx
	vmovdqu	(%rax), %ymm1
	vmovdqu	32(%rax), %ymm2
	vpcmpeqd	%ymm3, %ymm3, %ymm3
	vpaddq	%ymm3, %ymm1, %ymm4
	vpbroadcastq	D(CPI20_0)(%rip), %ymm0
	vpxor	%ymm0, %ymm1, %ymm5
	vpbroadcastq	D(CPI20_1)(%rip), %ymm6
	vpcmpgtq	%ymm6, %ymm5, %ymm5
	vpand	%ymm4, %ymm5, %ymm4
	vpaddq	%ymm3, %ymm2, %ymm3
	vpxor	%ymm0, %ymm2, %ymm5
	vpcmpgtq	%ymm6, %ymm5, %ymm5
	vpand	%ymm3, %ymm5, %ymm3
	vpsrlq	$6, %ymm4, %ymm5
	vpsrlq	$6, %ymm3, %ymm6
	vmovdqa	D(CPI20_2)(%rip), %ymm7
	vpermd	%ymm5, %ymm7, %ymm8
	vpermd	%ymm6, %ymm7, %ymm9
	vmovdqa	%xmm8, 880(%rsp)
	vmovdqa	%xmm9, 896(%rsp)
	vpbroadcastq	D(CPI20_3)(%rip), %ymm8
	vpand	%ymm4, %ymm8, %ymm4
	vpand	%ymm3, %ymm8, %ymm3
	vpsubq	%ymm4, %ymm1, %ymm1
	vpsubq	%ymm3, %ymm2, %ymm2
	vpermd	%ymm1, %ymm7, %ymm1
	vmovdqa	%xmm1, 80(%rsp)
	vpermd	%ymm2, %ymm7, %ymm1
	vmovdqa	%xmm1, 96(%rsp)
	vpcmpgtq	%ymm6, %ymm5, %ymm1
	vblendvpd	%ymm1, %ymm5, %ymm6, %ymm1
	vextractf128	$1, %ymm1, %xmm2
	vorpd	%xmm0, %xmm2, %xmm3
	vorpd	%xmm0, %xmm1, %xmm4
	vpcmpgtq	%xmm3, %xmm4, %xmm3
	vblendvpd	%xmm3, %xmm1, %xmm2, %xmm1
	vshufps	$238, %xmm1, %xmm1, %xmm2
	vorpd	%xmm0, %xmm1, %xmm3
	vxorpd	%xmm0, %xmm2, %xmm0
	vpcmpgtq	%xmm0, %xmm3, %xmm0
	vblendvpd	%xmm0, %xmm1, %xmm2, %xmm0
	vmovq	%xmm0, %r14
	jmp	L(20_15)
	.p2align	4
L(20_14):
	movq	%r14, %rdx
	movq	(%rax,%rcx,8), %rsi
	cmpq	$1, %rsi
	movq	%rsi, %rdi
	adcq	$-1, %rdi
	movq	%rdi, %r14
	shrq	$6, %r14
	movl	%r14d, 880(%rsp,%rcx,4)
	andl	$-64, %edi
	subl	%edi, %esi
	cmpq	%rdx, %r14
	cmovbeq	%rdx, %r14
	movl	%esi, 80(%rsp,%rcx,4)
	incq	%rcx
L(20_15):
	cmpq	%rcx, %rbx
	jne	L(20_14)
	vmovups	80(%rsp), %ymm0
	vmovups	%ymm0, 1488(%rsp)
	movq	%r12, %r13
	shlq	$10, %r13
	addq	%rbp, %r13
	leaq	-1(%rbx), %rax
	cmpq	$5, %rax
	movl	$5, %ecx
	cmovbq	%rax, %rcx
	movl	$6, %edx
	cmovbeq	%rax, %rdx
	vmovaps	D(CPI20_4)(%rip), %ymm0
	vmovups	%ymm0, 304(%rsp)
	vxorps	%xmm0, %xmm0, %xmm0
	vmovups	%ymm0, 80(%rsp)
	vmovups	%ymm0, 112(%rsp)
	vmovups	880(%rsp), %ymm0
	vmovups	%ymm0, 1456(%rsp)
	vbroadcastss	D(CPI20_5)(%rip), %ymm0
	vmovups	%ymm0, 880(%rsp)
	vbroadcastss	D(CPI20_6)(%rip), %ymm1
	vmovups	%ymm1, 912(%rsp)
	movq	$4, 336(%rsp)
	vbroadcastss	D(CPI20_7)(%rip), %ymm2
	vmovups	%ymm2, 944(%rsp)
	movq	%rcx, 344(%rsp)
	vbroadcastss	D(CPI20_8)(%rip), %ymm3
	vmovups	%ymm3, 976(%rsp)
	movq	%rdx, 352(%rsp)
	vbroadcastss	D(CPI20_9)(%rip), %ymm4
	vmovups	%ymm4, 1008(%rsp)
	movq	%rax, 360(%rsp)
	vbroadcastss	D(CPI20_10)(%rip), %ymm5
	vmovups	%ymm5, 1040(%rsp)
	vbroadcastss	D(CPI20_11)(%rip), %ymm6
	vmovups	%ymm6, 1072(%rsp)
	vbroadcastss	D(CPI20_12)(%rip), %ymm7
	vmovups	%ymm7, 1104(%rsp)
	incq	%r14
	xorl	%ebp, %ebp
	.p2align	4
L(20_17):
	vmovups	%ymm7, 1552(%rsp)
	vmovups	%ymm6, 1584(%rsp)
	vmovups	%ymm5, 1616(%rsp)
	vmovups	%ymm4, 1648(%rsp)
	vmovups	%ymm3, 1680(%rsp)
	vmovups	%ymm2, 1712(%rsp)
	vmovups	%ymm1, 1744(%rsp)
	vmovups	%ymm0, 48(%rsp)
	xorl	%eax, %eax
	testl	%ebp, %ebp
	sete	%al
	leal	16(%rax), %ecx
	orl	$26, %eax
	vmovd	%ebp, %xmm0
	vpbroadcastd	%xmm0, %ymm0
	vpcmpeqd	1456(%rsp), %ymm0, %ymm3
	vmovdqu	%ymm3, 1520(%rsp)
	vbroadcastss	D(CPI20_13)(%rip), %ymm0
	vblendvps	%ymm3, 1488(%rsp), %ymm0, %ymm0
	vmovd	%eax, %xmm1
	vpbroadcastd	%xmm1, %ymm1
	vmovd	%ecx, %xmm2
	vpbroadcastd	%xmm2, %ymm2
	vblendvps	%ymm3, %ymm1, %ymm2, %ymm1
	vmovups	%ymm0, 2328(%rsp)
	vmovups	%ymm1, 2296(%rsp)
	leaq	2296(%rsp), %rax
	movq	%rax, (%rsp)
	leaq	880(%rsp), %rdi
	leaq	304(%rsp), %rdx
	leaq	80(%rsp), %r8
	leaq	2328(%rsp), %r9
	movq	%r13, %rsi
	movq	%rbp, %rcx
	vzeroupper
	callq	"keyed_blake3::chunks::take_block::<#a9687390e0dd665c>"
	vmovups	1552(%rsp), %ymm7
	vmovups	1584(%rsp), %ymm6
	vmovups	1616(%rsp), %ymm5
	vmovups	1648(%rsp), %ymm4
	vmovups	1680(%rsp), %ymm3
	vmovups	1712(%rsp), %ymm2
	vmovups	1744(%rsp), %ymm1
	vmovups	48(%rsp), %ymm0
	vmovups	1520(%rsp), %ymm8
	vblendvps	%ymm8, 880(%rsp), %ymm0, %ymm0
	vblendvps	%ymm8, 912(%rsp), %ymm1, %ymm1
	vblendvps	%ymm8, 944(%rsp), %ymm2, %ymm2
	vblendvps	%ymm8, 976(%rsp), %ymm3, %ymm3
	vblendvps	%ymm8, 1008(%rsp), %ymm4, %ymm4
	vblendvps	%ymm8, 1040(%rsp), %ymm5, %ymm5
	vblendvps	%ymm8, 1072(%rsp), %ymm6, %ymm6
	vblendvps	%ymm8, 1104(%rsp), %ymm7, %ymm7
	incq	%rbp
	cmpq	%rbp, %r14
	jne	L(20_17)
	vmovups	%ymm0, 368(%rsp)
	vmovups	%ymm1, 400(%rsp)
	vmovups	%ymm2, 432(%rsp)
	vmovups	%ymm3, 464(%rsp)
	vmovups	%ymm4, 496(%rsp)
	vmovups	%ymm5, 528(%rsp)
	vmovups	%ymm6, 560(%rsp)
	vmovups	%ymm7, 592(%rsp)
	cmpq	$8, %r15
	jae	L(20_20)
	xorl	%eax, %eax
	movq	16(%rsp), %r15
	jmp	L(20_21)
	.p2align	4
L(20_20):
	vmovups	368(%rsp), %ymm3
	vmovups	400(%rsp), %ymm6
	vmovups	432(%rsp), %ymm5
	vmovups	464(%rsp), %ymm7
	vmovups	496(%rsp), %ymm8
	vmovups	528(%rsp), %ymm9
	vmovups	560(%rsp), %ymm10
	vmovups	592(%rsp), %ymm4
	vunpcklps	%ymm4, %ymm10, %ymm2
	vunpcklps	%ymm9, %ymm8, %ymm0
	vunpcklpd	%ymm2, %ymm0, %ymm0
	vmovups	%ymm0, 48(%rsp)
	vunpcklps	%ymm6, %ymm3, %ymm1
	vextractf128	$1, %ymm1, %xmm1
	vunpcklps	%ymm7, %ymm5, %ymm11
	vpermpd	$170, %ymm11, %ymm12
	vblendps	$12, %xmm12, %xmm1, %xmm1
	vbroadcastss	516(%rsp), %ymm12
	vblendps	$32, %ymm9, %ymm12, %ymm12
	vblendps	$192, %ymm2, %ymm12, %ymm2
	vextractf128	$1, %ymm11, %xmm11
	vshufps	$85, %ymm3, %ymm3, %ymm12
	vblendps	$34, %ymm6, %ymm12, %ymm12
	vextractf128	$1, %ymm12, %xmm12
	vblendps	$12, %xmm11, %xmm12, %xmm11
	vblendps	$15, %ymm11, %ymm2, %ymm2
	vbroadcastss	616(%rsp), %ymm11
	vblendps	$128, %ymm11, %ymm10, %ymm10
	vunpckhps	%ymm9, %ymm8, %ymm8
	vblendps	$192, %ymm10, %ymm8, %ymm9
	vunpckhps	%ymm6, %ymm3, %ymm6
	vextractf128	$1, %ymm6, %xmm3
	vunpckhps	%ymm7, %ymm5, %ymm5
	vpermpd	$170, %ymm5, %ymm7
	vblendps	$12, %xmm7, %xmm3, %xmm3
	vblendps	$15, %ymm3, %ymm9, %ymm3
	vbroadcastss	588(%rsp), %ymm7
	vunpckhps	%ymm4, %ymm7, %ymm4
	vunpckhpd	%ymm4, %ymm8, %ymm4
	vextractf128	$1, %ymm5, %xmm5
	vshufps	$238, %ymm6, %ymm6, %ymm6
	vextractf128	$1, %ymm6, %xmm6
	vblendps	$12, %xmm5, %xmm6, %xmm5
	vblendps	$15, %ymm5, %ymm4, %ymm4
	vmovaps	464(%rsp), %xmm5
	vmovaps	368(%rsp), %xmm7
	vmovaps	400(%rsp), %xmm8
	vmovaps	432(%rsp), %xmm6
	vunpcklps	%xmm5, %xmm6, %xmm9
	vshufps	$85, %xmm7, %xmm7, %xmm10
	vblendps	$2, %xmm8, %xmm10, %xmm10
	vblendps	$12, %xmm9, %xmm10, %xmm9
	vmovaps	592(%rsp), %xmm10
	vmovaps	560(%rsp), %xmm11
	vunpcklps	%xmm10, %xmm11, %xmm12
	vinsertf128	$1, %xmm12, %ymm0, %ymm12
	vmovaps	496(%rsp), %xmm13
	vshufps	$85, %xmm13, %xmm13, %xmm14
	vmovaps	528(%rsp), %xmm15
	vblendps	$2, %xmm15, %xmm14, %xmm14
	vinsertf128	$1, %xmm14, %ymm0, %ymm14
	vblendps	$192, %ymm12, %ymm14, %ymm12
	vblendps	$15, %ymm9, %ymm12, %ymm9
	vbroadcastss	%xmm10, %xmm12
	vbroadcastss	%xmm11, %xmm14
	vunpcklps	%xmm12, %xmm14, %xmm12
	vunpcklps	%xmm15, %xmm13, %xmm14
	vinsertf128	$1, %xmm14, %ymm0, %ymm14
	vinsertf128	$1, %xmm12, %ymm0, %ymm12
	vblendps	$192, %ymm12, %ymm14, %ymm12
	vbroadcastss	%xmm5, %xmm14
	vbroadcastss	%xmm6, %xmm0
	vunpcklps	%xmm14, %xmm0, %xmm0
	vunpcklps	%xmm8, %xmm7, %xmm14
	vblendps	$12, %xmm0, %xmm14, %xmm0
	movl	%ebx, %eax
	andl	$8, %eax
	movq	%r12, %rcx
	shlq	$5, %rcx
	vblendps	$15, %ymm0, %ymm12, %ymm0
	vunpckhps	%xmm15, %xmm13, %xmm12
	vinsertf128	$1, %xmm12, %ymm0, %ymm13
	vshufps	$170, %xmm10, %xmm10, %xmm14
	vblendps	$8, %xmm14, %xmm11, %xmm14
	vinsertf128	$1, %xmm14, %ymm0, %ymm14
	vblendps	$192, %ymm14, %ymm13, %ymm13
	vshufps	$170, %xmm5, %xmm5, %xmm14
	vblendps	$8, %xmm14, %xmm6, %xmm14
	vunpckhps	%xmm8, %xmm7, %xmm7
	vblendps	$12, %xmm14, %xmm7, %xmm8
	vblendps	$15, %ymm8, %ymm13, %ymm8
	vunpckhps	%xmm10, %xmm11, %xmm10
	vinsertf128	$1, %xmm10, %ymm0, %ymm10
	vshufps	$238, %xmm12, %xmm12, %xmm11
	vinsertf128	$1, %xmm11, %ymm0, %ymm11
	vblendps	$192, %ymm10, %ymm11, %ymm10
	vunpckhps	%xmm5, %xmm6, %xmm5
	vunpckhpd	%xmm5, %xmm7, %xmm5
	vblendps	$15, %ymm5, %ymm10, %ymm5
	vmovups	%ymm5, 1872(%rsp,%rcx)
	vmovups	%ymm8, 1840(%rsp,%rcx)
	vmovups	%ymm9, 1808(%rsp,%rcx)
	vmovups	%ymm0, 1776(%rsp,%rcx)
	vmovups	%ymm4, 2000(%rsp,%rcx)
	vmovups	%ymm3, 1968(%rsp,%rcx)
	vmovups	%ymm2, 1936(%rsp,%rcx)
	vblendps	$240, 48(%rsp), %ymm1, %ymm0
	vmovups	%ymm0, 1904(%rsp,%rcx)
	cmpq	%rax, %rbx
	movq	16(%rsp), %r15
	je	L(20_23)
L(20_21):
	leaq	(%r12,%rax), %rcx
	shlq	$5, %rcx
	leaq	1804(%rsp), %rdx
	addq	%rdx, %rcx
	.p2align	4
L(20_22):
	movl	368(%rsp,%rax,4), %edx
	movl	400(%rsp,%rax,4), %esi
	movl	432(%rsp,%rax,4), %edi
	movl	464(%rsp,%rax,4), %r8d
	movl	496(%rsp,%rax,4), %r9d
	movl	528(%rsp,%rax,4), %r10d
	movl	560(%rsp,%rax,4), %r11d
	movl	592(%rsp,%rax,4), %ebp
	movl	%edx, -28(%rcx)
	movl	%esi, -24(%rcx)
	movl	%edi, -20(%rcx)
	movl	%r8d, -16(%rcx)
	movl	%r9d, -12(%rcx)
	movl	%r10d, -8(%rcx)
	movl	%r11d, -4(%rcx)
	movl	%ebp, (%rcx)
	incq	%rax
	addq	$32, %rcx
	cmpq	%rax, %rbx
	jne	L(20_22)
L(20_23):
	addq	%rbx, %r12
	movq	24(%rsp), %rbp
	cmpq	%r15, %r12
	jb	L(20_11)
L(20_29):
	leaq	368(%rsp), %r12
	leaq	1776(%rsp), %rsi
	movl	$512, %edx
	movq	%r12, %rdi
	vzeroupper
	callq	PLT(memcpy)
	leaq	1776(%rsp), %rdi
	movl	$512, %edx
	movq	%r12, %rsi
	callq	PLT(memcpy)
	vxorpd	%xmm0, %xmm0, %xmm0
	vmovupd	%ymm0, 880(%rsp)
	vmovupd	%ymm0, 912(%rsp)
	vmovupd	%ymm0, 944(%rsp)
	vmovupd	%ymm0, 976(%rsp)
	vmovupd	%ymm0, 1008(%rsp)
	vmovupd	%ymm0, 1040(%rsp)
	vmovupd	%ymm0, 1072(%rsp)
	vmovupd	%ymm0, 1104(%rsp)
	vmovupd	%ymm0, 1136(%rsp)
	vmovupd	%ymm0, 1168(%rsp)
	vmovupd	%ymm0, 1200(%rsp)
	vmovupd	%ymm0, 1232(%rsp)
	vmovupd	%ymm0, 1264(%rsp)
	vmovupd	%ymm0, 1296(%rsp)
	vmovupd	%ymm0, 1328(%rsp)
	vmovupd	%ymm0, 1360(%rsp)
	cmpq	$4, %r15
	jae	L(20_31)
	xorl	%eax, %eax
	movq	32(%rsp), %rbx
	jmp	L(20_34)
L(20_31):
	movq	%r15, %rax
	andq	$-4, %rax
	xorl	%ecx, %ecx
	movq	%rax, %rdx
	movq	32(%rsp), %rbx
	.p2align	4
L(20_32):
	vmovupd	1776(%rsp,%rcx), %ymm0
	vmovupd	%ymm0, 880(%rsp,%rcx)
	addq	$32, %rcx
	decq	%rdx
	jne	L(20_32)
	cmpq	%rax, %r15
	je	L(20_36)
L(20_34):
	movq	%r15, %rcx
	subq	%rax, %rcx
	shlq	$5, %rax
	.p2align	4
L(20_35):
	vmovupd	1776(%rsp,%rax), %ymm0
	vmovupd	%ymm0, 880(%rsp,%rax)
	addq	$32, %rax
	decq	%rcx
	jne	L(20_35)
L(20_36):
	leaq	2872(%rsp), %r12
	leaq	880(%rsp), %rsi
	movl	$512, %edx
	movq	%r12, %rdi
	vzeroupper
	callq	PLT(memcpy)
	leaq	2360(%rsp), %rdi
	movl	$512, %edx
	movq	%r12, %rsi
	callq	PLT(memcpy)
	movl	%r15d, %eax
	andl	$3, %eax
	cmpq	$4, %r15
	jae	L(20_38)
	xorl	%ecx, %ecx
	movq	40(%rsp), %r8
	jmp	L(20_41)
L(20_38):
	andq	$-4, %r15
	leaq	2456(%rsp), %rdx
	xorl	%ecx, %ecx
	movq	40(%rsp), %r8
	.p2align	4
L(20_39):
	movq	(%rbx,%rcx,8), %rsi
	shlq	$5, %rsi
	vmovups	-96(%rdx), %ymm0
	vmovups	%ymm0, (%r8,%rsi)
	movq	8(%rbx,%rcx,8), %rsi
	shlq	$5, %rsi
	vmovups	-64(%rdx), %ymm0
	vmovups	%ymm0, (%r8,%rsi)
	movq	16(%rbx,%rcx,8), %rsi
	shlq	$5, %rsi
	vmovups	-32(%rdx), %ymm0
	vmovups	%ymm0, (%r8,%rsi)
	movq	24(%rbx,%rcx,8), %rsi
	shlq	$5, %rsi
	vmovupd	(%rdx), %ymm0
	vmovupd	%ymm0, (%r8,%rsi)
	addq	$4, %rcx
	subq	$-128, %rdx
	cmpq	%rcx, %r15
	jne	L(20_39)
	testq	%rax, %rax
	je	L(20_43)
L(20_41):
	leaq	(%rbx,%rcx,8), %rdx
	shlq	$5, %rcx
	addq	%rsp, %rcx
	addq	$2360, %rcx
	shll	$3, %eax
	xorl	%esi, %esi
	.p2align	4
L(20_42):
	movq	(%rdx,%rsi), %rdi
	shlq	$5, %rdi
	vmovupd	(%rcx,%rsi,4), %ymm0
	vmovupd	%ymm0, (%r8,%rdi)
	addq	$8, %rsi
	cmpq	%rsi, %rax
	jne	L(20_42)
L(20_43):
	addq	$3384, %rsp
	.cfi_def_cfa_offset 56
	popq	%rbx
	.cfi_def_cfa_offset 48
	popq	%r12
	.cfi_def_cfa_offset 40
	popq	%r13
	.cfi_def_cfa_offset 32
	popq	%r14
	.cfi_def_cfa_offset 24
	popq	%r15
	.cfi_def_cfa_offset 16
	popq	%rbp
	.cfi_def_cfa_offset 8
	vzeroupper
	retq
	SIZE("xet_roots::groups::hash_at")
	.cfi_endproc

SIZED(32, 5)
	.p2align	5, 0x0
D(CPI21_0):
	.byte	7
	.byte	6
	.byte	5
	.byte	4
	.byte	3
	.byte	2
	.byte	1
	.byte	0
	.byte	15
	.byte	14
	.byte	13
	.byte	12
	.byte	11
	.byte	10
	.byte	9
	.byte	8
	.byte	7
	.byte	6
	.byte	5
	.byte	4
	.byte	3
	.byte	2
	.byte	1
	.byte	0
	.byte	15
	.byte	14
	.byte	13
	.byte	12
	.byte	11
	.byte	10
	.byte	9
	.byte	8
D(CPI21_1):
	.zero	32,15
D(CPI21_2):
	.zero	32,159
D(CPI21_3):
	.zero	32,48
D(CPI21_4):
	.zero	32,87
D(CPI21_5):
	.zero	32,9
SIZED(4, 2)
	.p2align	2, 0x0
D(CPI21_6):
	.zero	4,15
D(CPI21_7):
	.zero	4,48
D(CPI21_8):
	.zero	4,87
CODE(".text.xet_roots::groups::write_text")
	.p2align	4
	TYPE("xet_roots::groups::write_text", function)
"xet_roots::groups::write_text":
	.cfi_startproc
	endbr64
	pushq	%r15
	.cfi_def_cfa_offset 16
	pushq	%r14
	.cfi_def_cfa_offset 24
	pushq	%r13
	.cfi_def_cfa_offset 32
	pushq	%r12
	.cfi_def_cfa_offset 40
	pushq	%rbx
	.cfi_def_cfa_offset 48
	subq	$32, %rsp
	.cfi_def_cfa_offset 80
	.cfi_offset %rbx, -48
	.cfi_offset %r12, -40
	.cfi_offset %r13, -32
	.cfi_offset %r14, -24
	.cfi_offset %r15, -16
	testq	%rdx, %rdx
	je	L(21_1)
	movq	%rdx, %rbx
	movq	%rsi, %r14
	movq	%rdi, %r15
	xorl	%edi, %edi
	xorl	%r13d, %r13d
	jmp	L(21_3)
L(21_19):
	movzwl	%r8w, %eax
	movzwl	(%rsi,%rax,2), %eax
	movw	%ax, -3(%rsp,%rcx)
	addq	$-3, %rcx
L(21_20):
	movl	$20, %edx
	subq	%rcx, %rdx
	leaq	(%rdx,%rdi), %r12
	addq	%r15, %rdi
	leaq	(%rsp,%rcx), %rsi
	vzeroupper
	callq	PLT(memcpy)
L(21_21):
	movb	$10, (%r15,%r12)
	incq	%r12
	incq	%r13
	movq	%r12, %rdi
	cmpq	%rbx, %r13
	je	L(21_22)
L(21_3):
	leaq	(,%r13,4), %rax
	addq	%r13, %rax
	vmovdqu	(%r14,%rax,8), %ymm0
	vpshufb	D(CPI21_0)(%rip), %ymm0, %ymm0
	vpsrlw	$4, %ymm0, %ymm1
	vpbroadcastd	D(CPI21_6)(%rip), %ymm2
	vpminub	D(CPI21_2)(%rip), %ymm0, %ymm3
	vpand	%ymm2, %ymm1, %ymm1
	vpcmpeqb	%ymm3, %ymm0, %ymm3
	vpbroadcastd	D(CPI21_7)(%rip), %ymm4
	vpor	%ymm4, %ymm1, %ymm5
	vpbroadcastd	D(CPI21_8)(%rip), %ymm6
	vpaddb	%ymm6, %ymm1, %ymm1
	vpblendvb	%ymm3, %ymm5, %ymm1, %ymm1
	movq	32(%r14,%rax,8), %rax
	vpand	%ymm2, %ymm0, %ymm0
	vpcmpgtb	D(CPI21_5)(%rip), %ymm0, %ymm2
	vpor	%ymm4, %ymm0, %ymm3
	vpaddb	%ymm6, %ymm0, %ymm0
	vpblendvb	%ymm2, %ymm0, %ymm3, %ymm0
	vpunpckhbw	%ymm0, %ymm1, %ymm2
	vpunpcklbw	%ymm0, %ymm1, %ymm0
	vperm2i128	$32, %ymm2, %ymm0, %ymm1
	vperm2i128	$49, %ymm2, %ymm0, %ymm0
	vmovdqu	%ymm0, 32(%r15,%rdi)
	vmovdqu	%ymm1, (%r15,%rdi)
	leaq	(%r15,%rdi), %rcx
	addq	$64, %rcx
	leaq	D(static.3)(%rip), %rdx
	movq	%rcx, %rsi
	subq	%rdx, %rsi
	cmpq	$2, %rsi
	ja	L(21_5)
	leaq	(%r15,%rdi), %rcx
	movw	$14880, 64(%rcx)
	movb	$32, 66(%rcx)
	cmpq	$99999999, %rax
	jbe	L(21_7)
L(21_11):
	addq	$67, %rdi
	vpxor	%xmm0, %xmm0, %xmm0
	vmovdqa	%xmm0, (%rsp)
	movl	$0, 16(%rsp)
	movl	$19, %ecx
	.p2align	4
L(21_12):
	movq	%rax, %rdx
	movabsq	$3777893186295716171, %rax
	mulxq	%rax, %rax, %rax
	shrq	$11, %rax
	imull	$10000, %eax, %esi
	movl	%edx, %r8d
	subl	%esi, %r8d
	imull	$5243, %r8d, %r9d
	shrl	$19, %r9d
	imull	$100, %r9d, %esi
	subl	%esi, %r8d
	movzwl	%r8w, %r8d
	leaq	D(static.6)(%rip), %rsi
	movzwl	(%rsi,%r8,2), %r8d
	movw	%r8w, -1(%rsp,%rcx)
	movzwl	(%rsi,%r9,2), %r8d
	movw	%r8w, -3(%rsp,%rcx)
	addq	$-4, %rcx
	cmpq	$99999999, %rdx
	ja	L(21_12)
	cmpq	$999999, %rdx
	ja	L(21_17)
	cmpq	$99999, %rdx
	ja	L(21_16)
	orb	$48, %al
	movb	%al, (%rsp,%rcx)
	jmp	L(21_20)
	.p2align	4
L(21_5):
	movb	$32, 2(%rcx)
	movw	$14880, (%rcx)
	cmpq	$99999999, %rax
	ja	L(21_11)
L(21_7):
	xorl	%ecx, %ecx
	cmpq	$9999, %rax
	ja	L(21_9)
	cmpq	$1000, %rax
	adcq	$4, %rcx
	cmpq	$100, %rax
	movl	$6, %edx
	cmovaeq	%rcx, %rdx
	cmpq	$10, %rax
	movl	$7, %ecx
	jmp	L(21_10)
	.p2align	4
L(21_17):
	movl	%eax, %r8d
	shrl	$2, %r8d
	movzwl	%r8w, %r8d
	imull	$5243, %r8d, %r8d
	shrl	$17, %r8d
	imull	$100, %r8d, %r9d
	subl	%r9d, %eax
	movzwl	%ax, %eax
	movzwl	(%rsi,%rax,2), %eax
	movw	%ax, -1(%rsp,%rcx)
	cmpq	$9999999, %rdx
	ja	L(21_19)
	orb	$48, %r8b
	movb	%r8b, -2(%rsp,%rcx)
	addq	$-2, %rcx
	jmp	L(21_20)
	.p2align	4
L(21_9):
	cmpq	$10000000, %rax
	setb	%cl
	cmpq	$1000000, %rax
	movl	$2, %edx
	cmovaeq	%rcx, %rdx
	cmpq	$100000, %rax
	movl	$3, %ecx
L(21_10):
	cmovaeq	%rdx, %rcx
	movl	$3518437209, %edx
	imulq	%rax, %rdx
	shrq	$45, %rdx
	movzwl	%dx, %esi
	shrl	$2, %esi
	imull	$5243, %esi, %esi
	shrl	$17, %esi
	leaq	D(static.6)(%rip), %r8
	movzwl	(%r8,%rsi,2), %r9d
	imull	$100, %esi, %esi
	imull	$10000, %edx, %r10d
	subl	%esi, %edx
	movzwl	%dx, %edx
	movzwl	(%r8,%rdx,2), %edx
	shll	$16, %edx
	orq	%r9, %rdx
	subl	%r10d, %eax
	imull	$5243, %eax, %esi
	shrl	$19, %esi
	movzwl	(%r8,%rsi,2), %r9d
	imull	$100, %esi, %esi
	subl	%esi, %eax
	movzwl	%ax, %eax
	movzwl	(%r8,%rax,2), %eax
	shlq	$48, %rax
	shlq	$32, %r9
	orq	%rdx, %r9
	orq	%rax, %r9
	leal	(,%rcx,8), %eax
	shrxq	%rax, %r9, %rax
	movq	%rax, 67(%r15,%rdi)
	subq	%rcx, %rdi
	addq	$75, %rdi
	movq	%rdi, %r12
	jmp	L(21_21)
L(21_16):
	movzwl	(%rsi,%rax,2), %eax
	movw	%ax, -1(%rsp,%rcx)
	decq	%rcx
	jmp	L(21_20)
L(21_1):
	xorl	%r12d, %r12d
L(21_22):
	movq	%r12, %rax
	addq	$32, %rsp
	.cfi_def_cfa_offset 48
	popq	%rbx
	.cfi_def_cfa_offset 40
	popq	%r12
	.cfi_def_cfa_offset 32
	popq	%r13
	.cfi_def_cfa_offset 24
	popq	%r14
	.cfi_def_cfa_offset 16
	popq	%r15
	.cfi_def_cfa_offset 8
	vzeroupper
	retq
	SIZE("xet_roots::groups::write_text")
	.cfi_endproc

SIZED(32, 5)
	.p2align	5, 0x0
D(CPI22_0):
	.byte	2
	.byte	3
	.byte	0
	.byte	1
	.byte	6
	.byte	7
	.byte	4
	.byte	5
	.byte	10
	.byte	11
	.byte	8
	.byte	9
	.byte	14
	.byte	15
	.byte	12
	.byte	13
	.byte	18
	.byte	19
	.byte	16
	.byte	17
	.byte	22
	.byte	23
	.byte	20
	.byte	21
	.byte	26
	.byte	27
	.byte	24
	.byte	25
	.byte	30
	.byte	31
	.byte	28
	.byte	29
D(CPI22_4):
	.byte	1
	.byte	2
	.byte	3
	.byte	0
	.byte	5
	.byte	6
	.byte	7
	.byte	4
	.byte	9
	.byte	10
	.byte	11
	.byte	8
	.byte	13
	.byte	14
	.byte	15
	.byte	12
	.byte	1
	.byte	2
	.byte	3
	.byte	0
	.byte	5
	.byte	6
	.byte	7
	.byte	4
	.byte	9
	.byte	10
	.byte	11
	.byte	8
	.byte	13
	.byte	14
	.byte	15
	.byte	12
SIZED(4, 2)
	.p2align	2, 0x0
D(CPI22_1):
	.long	3144134277
D(CPI22_2):
	.long	1013904242
D(CPI22_3):
	.long	2773480762
SIZED(16, 4)
	.p2align	4, 0x0
D(CPI22_5):
	.byte	1
	.byte	2
	.byte	3
	.byte	0
	.byte	5
	.byte	6
	.byte	7
	.byte	4
	.byte	9
	.byte	10
	.byte	11
	.byte	8
	.byte	13
	.byte	14
	.byte	15
	.byte	12
CODE(".text.keyed_blake3::chunks::take_block::<#a9687390e0dd665c>")
	.p2align	4
	TYPE("keyed_blake3::chunks::take_block::<#a9687390e0dd665c>", function)
"keyed_blake3::chunks::take_block::<#a9687390e0dd665c>":
	.cfi_startproc
	pushq	%rbp
	.cfi_def_cfa_offset 16
	.cfi_offset %rbp, -16
	movq	%rsp, %rbp
	.cfi_def_cfa_register %rbp
	pushq	%r15
	pushq	%r14
	pushq	%r12
	pushq	%rbx
	andq	$-32, %rsp
	subq	$832, %rsp
	.cfi_offset %rbx, -48
	.cfi_offset %r12, -40
	.cfi_offset %r14, -32
	.cfi_offset %r15, -24
	movq	%r9, %r14
	movq	%r8, %r15
	movq	%rdi, %rbx
	shlq	$6, %rcx
	addq	%rsi, %rcx
	movq	(%rdx), %rsi
	movq	8(%rdx), %rdi
	shlq	$10, %rsi
	shlq	$10, %rdi
	movq	16(%rdx), %r8
	shlq	$10, %r8
	movq	24(%rdx), %r9
	shlq	$10, %r9
	movq	32(%rdx), %r10
	shlq	$10, %r10
	movq	40(%rdx), %r11
	shlq	$10, %r11
	movq	48(%rdx), %r12
	shlq	$10, %r12
	movq	56(%rdx), %rax
	shlq	$10, %rax
	vmovdqu	(%rsi,%rcx), %ymm2
	prefetcht0	128(%rsi,%rcx)
	vmovups	32(%rsi,%rcx), %ymm0
	vmovdqu	(%rdi,%rcx), %ymm3
	prefetcht0	128(%rdi,%rcx)
	vmovups	32(%rdi,%rcx), %ymm1
	vpunpckldq	%ymm3, %ymm2, %ymm7
	vpunpckhdq	%ymm3, %ymm2, %ymm8
	vmovdqu	(%r8,%rcx), %ymm4
	prefetcht0	128(%r8,%rcx)
	vmovups	32(%r8,%rcx), %ymm2
	vmovdqu	(%r9,%rcx), %ymm5
	prefetcht0	128(%r9,%rcx)
	vmovups	32(%r9,%rcx), %ymm3
	vpunpckldq	%ymm5, %ymm4, %ymm9
	vpunpckhdq	%ymm5, %ymm4, %ymm10
	vmovdqu	(%r10,%rcx), %ymm6
	prefetcht0	128(%r10,%rcx)
	vmovups	32(%r10,%rcx), %ymm4
	vmovdqu	(%r11,%rcx), %ymm11
	prefetcht0	128(%r11,%rcx)
	vmovups	32(%r11,%rcx), %ymm5
	vpunpckldq	%ymm11, %ymm6, %ymm12
	vpunpckhdq	%ymm11, %ymm6, %ymm11
	vmovdqu	(%r12,%rcx), %ymm13
	prefetcht0	128(%r12,%rcx)
	vmovups	32(%r12,%rcx), %ymm6
	vmovdqu	(%rax,%rcx), %ymm14
	prefetcht0	128(%rax,%rcx)
	vpunpckldq	%ymm14, %ymm13, %ymm15
	vpunpckhdq	%ymm14, %ymm13, %ymm13
	vpunpcklqdq	%ymm9, %ymm7, %ymm14
	vpunpckhqdq	%ymm9, %ymm7, %ymm7
	vpunpcklqdq	%ymm10, %ymm8, %ymm9
	vpunpckhqdq	%ymm10, %ymm8, %ymm8
	vpunpcklqdq	%ymm15, %ymm12, %ymm10
	vpunpckhqdq	%ymm15, %ymm12, %ymm12
	vpunpcklqdq	%ymm13, %ymm11, %ymm15
	vpunpckhqdq	%ymm13, %ymm11, %ymm11
	vinserti128	$1, %xmm10, %ymm14, %ymm13
	vmovdqa	%ymm13, 512(%rsp)
	vperm2i128	$49, %ymm10, %ymm14, %ymm10
	vmovdqa	%ymm10, 704(%rsp)
	vinserti128	$1, %xmm12, %ymm7, %ymm14
	vmovdqa	%ymm14, 256(%rsp)
	vperm2i128	$49, %ymm12, %ymm7, %ymm7
	vmovdqa	%ymm7, 224(%rsp)
	vinserti128	$1, %xmm15, %ymm9, %ymm12
	vmovdqa	%ymm12, 672(%rsp)
	vperm2i128	$49, %ymm15, %ymm9, %ymm9
	vmovdqa	%ymm9, 544(%rsp)
	vinserti128	$1, %xmm11, %ymm8, %ymm7
	vmovdqa	%ymm7, 448(%rsp)
	vperm2i128	$49, %ymm11, %ymm8, %ymm7
	vmovdqa	%ymm7, 416(%rsp)
	vunpcklps	%ymm1, %ymm0, %ymm7
	vunpckhps	%ymm1, %ymm0, %ymm0
	vunpcklps	%ymm3, %ymm2, %ymm1
	vunpckhps	%ymm3, %ymm2, %ymm2
	vunpcklps	%ymm5, %ymm4, %ymm3
	vunpckhps	%ymm5, %ymm4, %ymm4
	vmovups	32(%rax,%rcx), %ymm5
	vunpcklps	%ymm5, %ymm6, %ymm8
	vunpckhps	%ymm5, %ymm6, %ymm5
	vunpcklpd	%ymm1, %ymm7, %ymm6
	vunpckhpd	%ymm1, %ymm7, %ymm1
	vunpcklpd	%ymm2, %ymm0, %ymm7
	vunpckhpd	%ymm2, %ymm0, %ymm0
	vunpcklpd	%ymm8, %ymm3, %ymm2
	vunpckhpd	%ymm8, %ymm3, %ymm3
	vunpcklpd	%ymm5, %ymm4, %ymm8
	vunpckhpd	%ymm5, %ymm4, %ymm4
	vinsertf128	$1, %xmm2, %ymm6, %ymm5
	vmovaps	%ymm5, 192(%rsp)
	vperm2f128	$49, %ymm2, %ymm6, %ymm2
	vmovaps	%ymm2, 480(%rsp)
	vinsertf128	$1, %xmm3, %ymm1, %ymm2
	vmovaps	%ymm2, 352(%rsp)
	vperm2f128	$49, %ymm3, %ymm1, %ymm1
	vmovaps	%ymm1, 608(%rsp)
	vinsertf128	$1, %xmm8, %ymm7, %ymm1
	vmovaps	%ymm1, 640(%rsp)
	vperm2f128	$49, %ymm8, %ymm7, %ymm1
	vmovaps	%ymm1, 384(%rsp)
	vinsertf128	$1, %xmm4, %ymm0, %ymm1
	vmovaps	%ymm1, 288(%rsp)
	vperm2f128	$49, %ymm4, %ymm0, %ymm0
	vmovaps	%ymm0, 320(%rsp)
	movq	16(%rbp), %r12
	vmovups	128(%rbx), %ymm0
	vmovaps	%ymm0, 736(%rsp)
	vmovups	160(%rbx), %ymm0
	vmovaps	%ymm0, 160(%rsp)
	vmovups	192(%rbx), %ymm0
	vmovaps	%ymm0, 64(%rsp)
	vmovups	224(%rbx), %ymm0
	vmovaps	%ymm0, 128(%rsp)
	vpaddd	(%rbx), %ymm13, %ymm0
	vmovdqa	%ymm0, (%rsp)
	vpaddd	32(%rbx), %ymm12, %ymm0
	vmovdqa	%ymm0, 576(%rsp)
	vpaddd	64(%rbx), %ymm10, %ymm0
	vmovdqa	%ymm0, 32(%rsp)
	vpaddd	96(%rbx), %ymm9, %ymm0
	vmovdqa	%ymm0, 96(%rsp)
	leaq	768(%rsp), %rdi
	vzeroupper
	callq	"keyed_blake3::compression::lanes::each_by_call::<=8>"
	vmovdqa	736(%rsp), %ymm4
	vpaddd	(%rsp), %ymm4, %ymm3
	vpxor	(%r15), %ymm3, %ymm0
	vmovdqa	D(CPI22_0)(%rip), %ymm11
	vpshufb	%ymm11, %ymm0, %ymm1
	vpaddd	768(%rsp), %ymm1, %ymm0
	vmovdqa	%ymm0, (%rsp)
	vpxor	%ymm4, %ymm0, %ymm2
	vpsrld	$12, %ymm2, %ymm4
	vpslld	$20, %ymm2, %ymm2
	vpor	%ymm4, %ymm2, %ymm4
	vmovdqa	160(%rsp), %ymm0
	vpaddd	576(%rsp), %ymm0, %ymm5
	vpxor	32(%r15), %ymm5, %ymm2
	vpshufb	%ymm11, %ymm2, %ymm9
	vpbroadcastd	D(CPI22_1)(%rip), %ymm2
	vpaddd	%ymm2, %ymm9, %ymm12
	vpxor	%ymm0, %ymm12, %ymm2
	vpsrld	$12, %ymm2, %ymm6
	vpslld	$20, %ymm2, %ymm2
	vpor	%ymm6, %ymm2, %ymm2
	vmovdqa	64(%rsp), %ymm0
	vpaddd	32(%rsp), %ymm0, %ymm7
	vpxor	(%r14), %ymm7, %ymm6
	vpshufb	%ymm11, %ymm6, %ymm10
	vpbroadcastd	D(CPI22_2)(%rip), %ymm6
	vpaddd	%ymm6, %ymm10, %ymm13
	vpxor	%ymm0, %ymm13, %ymm6
	vpsrld	$12, %ymm6, %ymm8
	vpslld	$20, %ymm6, %ymm6
	vpor	%ymm6, %ymm8, %ymm15
	vmovdqa	128(%rsp), %ymm0
	vpaddd	96(%rsp), %ymm0, %ymm8
	vpxor	(%r12), %ymm8, %ymm6
	vpshufb	%ymm11, %ymm6, %ymm11
	vpbroadcastd	D(CPI22_3)(%rip), %ymm6
	vpaddd	%ymm6, %ymm11, %ymm14
	vpxor	%ymm0, %ymm14, %ymm6
	vpsrld	$12, %ymm6, %ymm0
	vpslld	$20, %ymm6, %ymm6
	vpor	%ymm0, %ymm6, %ymm6
	vpaddd	256(%rsp), %ymm3, %ymm0
	vpaddd	%ymm4, %ymm0, %ymm3
	vpxor	%ymm3, %ymm1, %ymm0
	vpshufb	D(CPI22_4)(%rip), %ymm0, %ymm0
	vmovdqa	%ymm0, 96(%rsp)
	vpaddd	(%rsp), %ymm0, %ymm1
	vmovdqa	%ymm1, 128(%rsp)
	vpxor	%ymm4, %ymm1, %ymm0
	vpsrld	$7, %ymm0, %ymm1
	vpslld	$25, %ymm0, %ymm0
	vpor	%ymm1, %ymm0, %ymm4
	vpaddd	448(%rsp), %ymm5, %ymm0
	vpaddd	%ymm2, %ymm0, %ymm0
	vmovdqa	%ymm0, 64(%rsp)
	vpxor	%ymm0, %ymm9, %ymm0
	vbroadcasti128	D(CPI22_5)(%rip), %ymm1
	vpshufb	%ymm1, %ymm0, %ymm0
	vmovdqa	%ymm0, (%rsp)
	vpaddd	%ymm0, %ymm12, %ymm0
	vpxor	%ymm2, %ymm0, %ymm2
	vpsrld	$7, %ymm2, %ymm5
	vpslld	$25, %ymm2, %ymm2
	vpor	%ymm5, %ymm2, %ymm2
	vpaddd	224(%rsp), %ymm7, %ymm5
	vpaddd	%ymm5, %ymm15, %ymm7
	vpxor	%ymm7, %ymm10, %ymm5
	vpshufb	%ymm1, %ymm5, %ymm10
	vpaddd	%ymm10, %ymm13, %ymm5
	vpxor	%ymm5, %ymm15, %ymm9
	vpsrld	$7, %ymm9, %ymm12
	vpslld	$25, %ymm9, %ymm9
	vpor	%ymm12, %ymm9, %ymm9
	vpaddd	416(%rsp), %ymm8, %ymm8
	vpaddd	%ymm6, %ymm8, %ymm8
	vpxor	%ymm8, %ymm11, %ymm11
	vpshufb	%ymm1, %ymm11, %ymm13
	vpaddd	%ymm13, %ymm14, %ymm14
	vpxor	%ymm6, %ymm14, %ymm6
	vpsrld	$7, %ymm6, %ymm11
	vpslld	$25, %ymm6, %ymm6
	vpor	%ymm6, %ymm11, %ymm11
	vpaddd	384(%rsp), %ymm8, %ymm6
	vpaddd	%ymm4, %ymm6, %ymm12
	vpxor	%ymm12, %ymm10, %ymm6
	vmovdqa	D(CPI22_0)(%rip), %ymm1
	vpshufb	%ymm1, %ymm6, %ymm15
	vpaddd	%ymm0, %ymm15, %ymm8
	vpxor	%ymm4, %ymm8, %ymm0
	vpsrld	$12, %ymm0, %ymm4
	vpslld	$20, %ymm0, %ymm0
	vpor	%ymm4, %ymm0, %ymm4
	vpaddd	192(%rsp), %ymm3, %ymm3
	vpaddd	%ymm2, %ymm3, %ymm10
	vpxor	%ymm10, %ymm13, %ymm3
	vmovdqa	%ymm1, %ymm6
	vpshufb	%ymm1, %ymm3, %ymm3
	vpaddd	%ymm3, %ymm5, %ymm0
	vmovdqa	%ymm0, 32(%rsp)
	vpxor	%ymm2, %ymm0, %ymm2
	vpsrld	$12, %ymm2, %ymm5
	vpslld	$20, %ymm2, %ymm2
	vpor	%ymm5, %ymm2, %ymm2
	vmovdqa	64(%rsp), %ymm0
	vpaddd	640(%rsp), %ymm0, %ymm1
	vpaddd	%ymm1, %ymm9, %ymm13
	vpxor	96(%rsp), %ymm13, %ymm1
	vpshufb	%ymm6, %ymm1, %ymm5
	vmovdqa	%ymm6, %ymm0
	vpaddd	%ymm5, %ymm14, %ymm6
	vpxor	%ymm6, %ymm9, %ymm1
	vmovdqa	%ymm6, %ymm9
	vpsrld	$12, %ymm1, %ymm6
	vpslld	$20, %ymm1, %ymm1
	vpor	%ymm6, %ymm1, %ymm1
	vpaddd	480(%rsp), %ymm7, %ymm6
	vpaddd	%ymm6, %ymm11, %ymm14
	vpxor	(%rsp), %ymm14, %ymm6
	vpshufb	%ymm0, %ymm6, %ymm6
	vpaddd	128(%rsp), %ymm6, %ymm0
	vmovdqa	%ymm0, 160(%rsp)
	vpxor	%ymm0, %ymm11, %ymm7
	vpsrld	$12, %ymm7, %ymm11
	vpslld	$20, %ymm7, %ymm7
	vpor	%ymm7, %ymm11, %ymm7
	vpaddd	320(%rsp), %ymm12, %ymm11
	vpaddd	%ymm4, %ymm11, %ymm11
	vmovdqa	%ymm11, 128(%rsp)
	vpxor	%ymm11, %ymm15, %ymm11
	vbroadcasti128	D(CPI22_5)(%rip), %ymm12
	vpshufb	%ymm12, %ymm11, %ymm0
	vmovdqa	%ymm0, 96(%rsp)
	vpaddd	%ymm0, %ymm8, %ymm15
	vpxor	%ymm4, %ymm15, %ymm0
	vpsrld	$7, %ymm0, %ymm8
	vpslld	$25, %ymm0, %ymm0
	vpor	%ymm0, %ymm8, %ymm0
	vpaddd	352(%rsp), %ymm10, %ymm4
	vpaddd	%ymm2, %ymm4, %ymm4
	vpxor	%ymm4, %ymm3, %ymm3
	vmovdqa	%ymm12, %ymm8
	vpshufb	%ymm12, %ymm3, %ymm3
	vmovdqa	%ymm3, (%rsp)
	vpaddd	32(%rsp), %ymm3, %ymm12
	vpxor	%ymm2, %ymm12, %ymm2
	vpsrld	$7, %ymm2, %ymm3
	vpslld	$25, %ymm2, %ymm2
	vpor	%ymm3, %ymm2, %ymm3
	vpaddd	288(%rsp), %ymm13, %ymm2
	vpaddd	%ymm1, %ymm2, %ymm13
	vpxor	%ymm5, %ymm13, %ymm2
	vpshufb	%ymm8, %ymm2, %ymm2
	vpaddd	%ymm2, %ymm9, %ymm5
	vmovdqa	%ymm5, 64(%rsp)
	vpxor	%ymm1, %ymm5, %ymm1
	vpsrld	$7, %ymm1, %ymm5
	vpslld	$25, %ymm1, %ymm1
	vpor	%ymm5, %ymm1, %ymm9
	vpaddd	608(%rsp), %ymm14, %ymm1
	vpaddd	%ymm7, %ymm1, %ymm10
	vpxor	%ymm6, %ymm10, %ymm1
	vpshufb	%ymm8, %ymm1, %ymm1
	vpaddd	160(%rsp), %ymm1, %ymm5
	vpxor	%ymm7, %ymm5, %ymm6
	vpsrld	$7, %ymm6, %ymm7
	vpslld	$25, %ymm6, %ymm6
	vpor	%ymm7, %ymm6, %ymm6
	vpaddd	672(%rsp), %ymm4, %ymm4
	vpaddd	%ymm0, %ymm4, %ymm11
	vpxor	%ymm2, %ymm11, %ymm2
	vmovdqa	D(CPI22_0)(%rip), %ymm4
	vpshufb	%ymm4, %ymm2, %ymm7
	vpaddd	%ymm7, %ymm5, %ymm2
	vmovdqa	%ymm2, 32(%rsp)
	vpxor	%ymm0, %ymm2, %ymm0
	vpsrld	$12, %ymm0, %ymm5
	vpslld	$20, %ymm0, %ymm0
	vpor	%ymm5, %ymm0, %ymm2
	vpaddd	448(%rsp), %ymm13, %ymm5
	vpaddd	%ymm3, %ymm5, %ymm5
	vpxor	%ymm5, %ymm1, %ymm1
	vmovdqa	%ymm4, %ymm0
	vpshufb	%ymm4, %ymm1, %ymm14
	vpaddd	%ymm14, %ymm15, %ymm1
	vmovdqa	%ymm1, 160(%rsp)
	vpxor	%ymm3, %ymm1, %ymm1
	vpsrld	$12, %ymm1, %ymm3
	vpslld	$20, %ymm1, %ymm1
	vpor	%ymm3, %ymm1, %ymm4
	vpaddd	416(%rsp), %ymm10, %ymm3
	vpaddd	%ymm3, %ymm9, %ymm13
	vpxor	96(%rsp), %ymm13, %ymm3
	vpshufb	%ymm0, %ymm3, %ymm15
	vpaddd	%ymm15, %ymm12, %ymm10
	vpxor	%ymm9, %ymm10, %ymm3
	vpsrld	$12, %ymm3, %ymm8
	vpslld	$20, %ymm3, %ymm3
	vpor	%ymm3, %ymm8, %ymm8
	vmovdqa	128(%rsp), %ymm3
	vpaddd	704(%rsp), %ymm3, %ymm3
	vpaddd	%ymm6, %ymm3, %ymm12
	vpxor	(%rsp), %ymm12, %ymm3
	vpshufb	%ymm0, %ymm3, %ymm3
	vpaddd	64(%rsp), %ymm3, %ymm0
	vmovdqa	%ymm0, 576(%rsp)
	vpxor	%ymm6, %ymm0, %ymm6
	vpsrld	$12, %ymm6, %ymm0
	vpslld	$20, %ymm6, %ymm6
	vpor	%ymm0, %ymm6, %ymm6
	vpaddd	544(%rsp), %ymm11, %ymm0
	vpaddd	%ymm2, %ymm0, %ymm0
	vmovdqa	%ymm0, (%rsp)
	vpxor	%ymm0, %ymm7, %ymm0
	vbroadcasti128	D(CPI22_5)(%rip), %ymm9
	vpshufb	%ymm9, %ymm0, %ymm0
	vmovdqa	%ymm0, 96(%rsp)
	vpaddd	32(%rsp), %ymm0, %ymm0
	vmovdqa	%ymm0, 128(%rsp)
	vpxor	%ymm2, %ymm0, %ymm1
	vpsrld	$7, %ymm1, %ymm2
	vpslld	$25, %ymm1, %ymm0
	vpor	%ymm2, %ymm0, %ymm0
	vpaddd	640(%rsp), %ymm5, %ymm2
	vpaddd	%ymm4, %ymm2, %ymm1
	vmovdqa	%ymm1, 32(%rsp)
	vpxor	%ymm1, %ymm14, %ymm2
	vpshufb	%ymm9, %ymm2, %ymm1
	vmovdqa	%ymm1, 64(%rsp)
	vpaddd	160(%rsp), %ymm1, %ymm2
	vpxor	%ymm4, %ymm2, %ymm1
	vpsrld	$7, %ymm1, %ymm5
	vpslld	$25, %ymm1, %ymm1
	vpor	%ymm5, %ymm1, %ymm14
	vpaddd	512(%rsp), %ymm13, %ymm1
	vpaddd	%ymm1, %ymm8, %ymm7
	vpxor	%ymm7, %ymm15, %ymm1
	vpshufb	%ymm9, %ymm1, %ymm13
	vpaddd	%ymm13, %ymm10, %ymm1
	vpxor	%ymm1, %ymm8, %ymm5
	vpsrld	$7, %ymm5, %ymm8
	vpslld	$25, %ymm5, %ymm5
	vpor	%ymm5, %ymm8, %ymm15
	vpaddd	608(%rsp), %ymm12, %ymm5
	vpaddd	%ymm6, %ymm5, %ymm5
	vpxor	%ymm5, %ymm3, %ymm3
	vpshufb	%ymm9, %ymm3, %ymm9
	vpaddd	576(%rsp), %ymm9, %ymm11
	vpxor	%ymm6, %ymm11, %ymm3
	vpsrld	$7, %ymm3, %ymm6
	vpslld	$25, %ymm3, %ymm3
	vpor	%ymm6, %ymm3, %ymm10
	vpaddd	320(%rsp), %ymm5, %ymm3
	vpaddd	%ymm0, %ymm3, %ymm5
	vpxor	%ymm5, %ymm13, %ymm3
	vmovdqa	D(CPI22_0)(%rip), %ymm6
	vpshufb	%ymm6, %ymm3, %ymm3
	vpaddd	%ymm3, %ymm2, %ymm2
	vmovdqa	%ymm2, 160(%rsp)
	vpxor	%ymm0, %ymm2, %ymm0
	vpsrld	$12, %ymm0, %ymm2
	vpslld	$20, %ymm0, %ymm0
	vpor	%ymm2, %ymm0, %ymm4
	vmovdqa	(%rsp), %ymm0
	vpaddd	256(%rsp), %ymm0, %ymm2
	vpaddd	%ymm2, %ymm14, %ymm8
	vpxor	%ymm8, %ymm9, %ymm2
	vpshufb	%ymm6, %ymm2, %ymm13
	vpaddd	%ymm1, %ymm13, %ymm9
	vpxor	%ymm14, %ymm9, %ymm1
	vpsrld	$12, %ymm1, %ymm2
	vpslld	$20, %ymm1, %ymm1
	vpor	%ymm2, %ymm1, %ymm2
	vmovdqa	32(%rsp), %ymm0
	vpaddd	480(%rsp), %ymm0, %ymm1
	vpaddd	%ymm1, %ymm15, %ymm12
	vpxor	96(%rsp), %ymm12, %ymm1
	vpshufb	%ymm6, %ymm1, %ymm14
	vmovdqa	%ymm6, %ymm0
	vpaddd	%ymm14, %ymm11, %ymm1
	vmovdqa	%ymm1, 32(%rsp)
	vpxor	%ymm1, %ymm15, %ymm1
	vpsrld	$12, %ymm1, %ymm6
	vpslld	$20, %ymm1, %ymm1
	vpor	%ymm6, %ymm1, %ymm1
	vpaddd	352(%rsp), %ymm7, %ymm6
	vpaddd	%ymm6, %ymm10, %ymm6
	vpxor	64(%rsp), %ymm6, %ymm7
	vpshufb	%ymm0, %ymm7, %ymm15
	vpaddd	128(%rsp), %ymm15, %ymm11
	vpxor	%ymm10, %ymm11, %ymm7
	vpsrld	$12, %ymm7, %ymm10
	vpslld	$20, %ymm7, %ymm7
	vpor	%ymm7, %ymm10, %ymm7
	vpaddd	192(%rsp), %ymm5, %ymm5
	vpaddd	%ymm4, %ymm5, %ymm5
	vmovdqa	%ymm5, 128(%rsp)
	vpxor	%ymm5, %ymm3, %ymm3
	vbroadcasti128	D(CPI22_5)(%rip), %ymm10
	vpshufb	%ymm10, %ymm3, %ymm0
	vmovdqa	%ymm0, 96(%rsp)
	vpaddd	160(%rsp), %ymm0, %ymm3
	vpxor	%ymm4, %ymm3, %ymm0
	vpsrld	$7, %ymm0, %ymm5
	vpslld	$25, %ymm0, %ymm0
	vpor	%ymm5, %ymm0, %ymm0
	vpaddd	288(%rsp), %ymm8, %ymm4
	vpaddd	%ymm2, %ymm4, %ymm4
	vpxor	%ymm4, %ymm13, %ymm5
	vpshufb	%ymm10, %ymm5, %ymm5
	vmovdqa	%ymm5, (%rsp)
	vmovdqa	%ymm10, %ymm8
	vpaddd	%ymm5, %ymm9, %ymm10
	vpxor	%ymm2, %ymm10, %ymm2
	vpsrld	$7, %ymm2, %ymm5
	vpslld	$25, %ymm2, %ymm2
	vpor	%ymm5, %ymm2, %ymm13
	vpaddd	224(%rsp), %ymm12, %ymm2
	vpaddd	%ymm1, %ymm2, %ymm2
	vpxor	%ymm2, %ymm14, %ymm5
	vpshufb	%ymm8, %ymm5, %ymm14
	vmovdqa	%ymm8, %ymm5
	vpaddd	32(%rsp), %ymm14, %ymm8
	vmovdqa	%ymm8, 64(%rsp)
	vpxor	%ymm1, %ymm8, %ymm1
	vpsrld	$7, %ymm1, %ymm8
	vpslld	$25, %ymm1, %ymm1
	vpor	%ymm1, %ymm8, %ymm8
	vpaddd	384(%rsp), %ymm6, %ymm1
	vpaddd	%ymm7, %ymm1, %ymm12
	vpxor	%ymm12, %ymm15, %ymm1
	vpshufb	%ymm5, %ymm1, %ymm9
	vpaddd	%ymm9, %ymm11, %ymm1
	vpxor	%ymm7, %ymm1, %ymm6
	vpsrld	$7, %ymm6, %ymm7
	vpslld	$25, %ymm6, %ymm6
	vpor	%ymm7, %ymm6, %ymm7
	vpaddd	448(%rsp), %ymm4, %ymm4
	vpaddd	%ymm0, %ymm4, %ymm5
	vpxor	%ymm5, %ymm14, %ymm6
	vmovdqa	D(CPI22_0)(%rip), %ymm11
	vpshufb	%ymm11, %ymm6, %ymm14
	vpaddd	%ymm1, %ymm14, %ymm6
	vpxor	%ymm0, %ymm6, %ymm0
	vpsrld	$12, %ymm0, %ymm1
	vpslld	$20, %ymm0, %ymm0
	vpor	%ymm1, %ymm0, %ymm4
	vpaddd	640(%rsp), %ymm2, %ymm1
	vpaddd	%ymm1, %ymm13, %ymm1
	vpxor	%ymm1, %ymm9, %ymm2
	vmovdqa	%ymm11, %ymm0
	vpshufb	%ymm11, %ymm2, %ymm15
	vpaddd	%ymm3, %ymm15, %ymm9
	vpxor	%ymm13, %ymm9, %ymm2
	vpsrld	$12, %ymm2, %ymm3
	vpslld	$20, %ymm2, %ymm2
	vpor	%ymm3, %ymm2, %ymm11
	vpaddd	608(%rsp), %ymm12, %ymm2
	vpaddd	%ymm2, %ymm8, %ymm12
	vpxor	96(%rsp), %ymm12, %ymm2
	vpshufb	%ymm0, %ymm2, %ymm2
	vpaddd	%ymm2, %ymm10, %ymm10
	vpxor	%ymm8, %ymm10, %ymm3
	vpsrld	$12, %ymm3, %ymm8
	vpslld	$20, %ymm3, %ymm3
	vpor	%ymm3, %ymm8, %ymm8
	vmovdqa	128(%rsp), %ymm3
	vpaddd	416(%rsp), %ymm3, %ymm3
	vpaddd	%ymm7, %ymm3, %ymm13
	vpxor	(%rsp), %ymm13, %ymm3
	vpshufb	%ymm0, %ymm3, %ymm3
	vpaddd	64(%rsp), %ymm3, %ymm0
	vmovdqa	%ymm0, 32(%rsp)
	vpxor	%ymm7, %ymm0, %ymm7
	vpsrld	$12, %ymm7, %ymm0
	vpslld	$20, %ymm7, %ymm7
	vpor	%ymm0, %ymm7, %ymm7
	vpaddd	704(%rsp), %ymm5, %ymm0
	vpaddd	%ymm4, %ymm0, %ymm0
	vmovdqa	%ymm0, (%rsp)
	vpxor	%ymm0, %ymm14, %ymm0
	vbroadcasti128	D(CPI22_5)(%rip), %ymm5
	vpshufb	%ymm5, %ymm0, %ymm0
	vmovdqa	%ymm0, 96(%rsp)
	vpaddd	%ymm0, %ymm6, %ymm6
	vmovdqa	%ymm6, 128(%rsp)
	vpxor	%ymm4, %ymm6, %ymm0
	vpsrld	$7, %ymm0, %ymm4
	vpslld	$25, %ymm0, %ymm0
	vpor	%ymm4, %ymm0, %ymm0
	vpaddd	480(%rsp), %ymm1, %ymm1
	vpaddd	%ymm1, %ymm11, %ymm6
	vpxor	%ymm6, %ymm15, %ymm1
	vpshufb	%ymm5, %ymm1, %ymm1
	vmovdqa	%ymm1, 64(%rsp)
	vpaddd	%ymm1, %ymm9, %ymm15
	vpxor	%ymm11, %ymm15, %ymm1
	vpsrld	$7, %ymm1, %ymm4
	vpslld	$25, %ymm1, %ymm1
	vpor	%ymm4, %ymm1, %ymm9
	vpaddd	672(%rsp), %ymm12, %ymm1
	vpaddd	%ymm1, %ymm8, %ymm11
	vpxor	%ymm2, %ymm11, %ymm1
	vpshufb	%ymm5, %ymm1, %ymm4
	vmovdqa	%ymm5, %ymm12
	vpaddd	%ymm4, %ymm10, %ymm1
	vpxor	%ymm1, %ymm8, %ymm2
	vpsrld	$7, %ymm2, %ymm5
	vpslld	$25, %ymm2, %ymm2
	vpor	%ymm5, %ymm2, %ymm2
	vpaddd	384(%rsp), %ymm13, %ymm5
	vpaddd	%ymm7, %ymm5, %ymm5
	vpxor	%ymm5, %ymm3, %ymm3
	vpshufb	%ymm12, %ymm3, %ymm12
	vpaddd	32(%rsp), %ymm12, %ymm13
	vpxor	%ymm7, %ymm13, %ymm3
	vpsrld	$7, %ymm3, %ymm7
	vpslld	$25, %ymm3, %ymm3
	vpor	%ymm7, %ymm3, %ymm10
	vpaddd	192(%rsp), %ymm5, %ymm3
	vpaddd	%ymm0, %ymm3, %ymm5
	vpxor	%ymm5, %ymm4, %ymm3
	vmovdqa	D(CPI22_0)(%rip), %ymm14
	vpshufb	%ymm14, %ymm3, %ymm8
	vpaddd	%ymm8, %ymm15, %ymm3
	vmovdqa	%ymm3, 160(%rsp)
	vpxor	%ymm0, %ymm3, %ymm0
	vpsrld	$12, %ymm0, %ymm4
	vpslld	$20, %ymm0, %ymm0
	vpor	%ymm4, %ymm0, %ymm3
	vmovdqa	(%rsp), %ymm0
	vpaddd	544(%rsp), %ymm0, %ymm4
	vpaddd	%ymm4, %ymm9, %ymm4
	vpxor	%ymm4, %ymm12, %ymm7
	vmovdqa	%ymm14, %ymm0
	vpshufb	%ymm14, %ymm7, %ymm15
	vpaddd	%ymm1, %ymm15, %ymm1
	vmovdqa	%ymm1, 32(%rsp)
	vpxor	%ymm1, %ymm9, %ymm1
	vpsrld	$12, %ymm1, %ymm9
	vpslld	$20, %ymm1, %ymm1
	vpor	%ymm1, %ymm9, %ymm1
	vpaddd	352(%rsp), %ymm6, %ymm6
	vpaddd	%ymm2, %ymm6, %ymm12
	vpxor	96(%rsp), %ymm12, %ymm6
	vpshufb	%ymm14, %ymm6, %ymm14
	vpaddd	%ymm14, %ymm13, %ymm9
	vpxor	%ymm2, %ymm9, %ymm2
	vpsrld	$12, %ymm2, %ymm6
	vpslld	$20, %ymm2, %ymm2
	vpor	%ymm6, %ymm2, %ymm2
	vpaddd	288(%rsp), %ymm11, %ymm6
	vpaddd	%ymm6, %ymm10, %ymm13
	vpxor	64(%rsp), %ymm13, %ymm6
	vpshufb	%ymm0, %ymm6, %ymm6
	vpaddd	128(%rsp), %ymm6, %ymm11
	vpxor	%ymm10, %ymm11, %ymm10
	vpsrld	$12, %ymm10, %ymm0
	vpslld	$20, %ymm10, %ymm10
	vpor	%ymm0, %ymm10, %ymm10
	vpaddd	256(%rsp), %ymm5, %ymm0
	vpaddd	%ymm3, %ymm0, %ymm0
	vmovdqa	%ymm0, 128(%rsp)
	vpxor	%ymm0, %ymm8, %ymm0
	vbroadcasti128	D(CPI22_5)(%rip), %ymm5
	vpshufb	%ymm5, %ymm0, %ymm0
	vmovdqa	%ymm0, 96(%rsp)
	vpaddd	160(%rsp), %ymm0, %ymm0
	vmovdqa	%ymm0, 64(%rsp)
	vpxor	%ymm3, %ymm0, %ymm0
	vpsrld	$7, %ymm0, %ymm3
	vpslld	$25, %ymm0, %ymm0
	vpor	%ymm3, %ymm0, %ymm7
	vpaddd	224(%rsp), %ymm4, %ymm3
	vpaddd	%ymm1, %ymm3, %ymm4
	vpxor	%ymm4, %ymm15, %ymm3
	vpshufb	%ymm5, %ymm3, %ymm3
	vmovdqa	%ymm3, (%rsp)
	vmovdqa	%ymm5, %ymm0
	vpaddd	32(%rsp), %ymm3, %ymm3
	vmovdqa	%ymm3, 32(%rsp)
	vpxor	%ymm1, %ymm3, %ymm1
	vpsrld	$7, %ymm1, %ymm3
	vpslld	$25, %ymm1, %ymm1
	vpor	%ymm3, %ymm1, %ymm15
	vpaddd	512(%rsp), %ymm12, %ymm1
	vpaddd	%ymm2, %ymm1, %ymm8
	vpxor	%ymm8, %ymm14, %ymm1
	vpshufb	%ymm5, %ymm1, %ymm5
	vpaddd	%ymm5, %ymm9, %ymm1
	vmovdqa	%ymm1, 160(%rsp)
	vpxor	%ymm2, %ymm1, %ymm1
	vpsrld	$7, %ymm1, %ymm2
	vpslld	$25, %ymm1, %ymm1
	vpor	%ymm2, %ymm1, %ymm3
	vpaddd	320(%rsp), %ymm13, %ymm1
	vpaddd	%ymm1, %ymm10, %ymm13
	vpxor	%ymm6, %ymm13, %ymm1
	vpshufb	%ymm0, %ymm1, %ymm2
	vpaddd	%ymm2, %ymm11, %ymm6
	vpxor	%ymm6, %ymm10, %ymm1
	vpsrld	$7, %ymm1, %ymm9
	vpslld	$25, %ymm1, %ymm1
	vpor	%ymm1, %ymm9, %ymm1
	vpaddd	640(%rsp), %ymm4, %ymm4
	vpaddd	%ymm7, %ymm4, %ymm4
	vpxor	%ymm4, %ymm5, %ymm5
	vmovdqa	D(CPI22_0)(%rip), %ymm11
	vpshufb	%ymm11, %ymm5, %ymm5
	vpaddd	%ymm5, %ymm6, %ymm0
	vmovdqa	%ymm0, 576(%rsp)
	vpxor	%ymm7, %ymm0, %ymm0
	vpsrld	$12, %ymm0, %ymm6
	vpslld	$20, %ymm0, %ymm0
	vpor	%ymm6, %ymm0, %ymm0
	vpaddd	480(%rsp), %ymm8, %ymm6
	vpaddd	%ymm6, %ymm15, %ymm12
	vpxor	%ymm2, %ymm12, %ymm2
	vpshufb	%ymm11, %ymm2, %ymm14
	vpaddd	64(%rsp), %ymm14, %ymm9
	vpxor	%ymm15, %ymm9, %ymm2
	vpsrld	$12, %ymm2, %ymm6
	vpslld	$20, %ymm2, %ymm2
	vpor	%ymm6, %ymm2, %ymm2
	vpaddd	384(%rsp), %ymm13, %ymm6
	vpaddd	%ymm3, %ymm6, %ymm13
	vpxor	96(%rsp), %ymm13, %ymm6
	vpshufb	%ymm11, %ymm6, %ymm15
	vpaddd	32(%rsp), %ymm15, %ymm10
	vpxor	%ymm3, %ymm10, %ymm3
	vpsrld	$12, %ymm3, %ymm6
	vpslld	$20, %ymm3, %ymm3
	vpor	%ymm6, %ymm3, %ymm6
	vmovdqa	128(%rsp), %ymm3
	vpaddd	608(%rsp), %ymm3, %ymm3
	vpaddd	%ymm1, %ymm3, %ymm8
	vpxor	(%rsp), %ymm8, %ymm3
	vpshufb	%ymm11, %ymm3, %ymm3
	vpaddd	160(%rsp), %ymm3, %ymm11
	vpxor	%ymm1, %ymm11, %ymm1
	vpsrld	$12, %ymm1, %ymm7
	vpslld	$20, %ymm1, %ymm1
	vpor	%ymm7, %ymm1, %ymm7
	vpaddd	416(%rsp), %ymm4, %ymm1
	vpaddd	%ymm0, %ymm1, %ymm1
	vmovdqa	%ymm1, (%rsp)
	vpxor	%ymm1, %ymm5, %ymm1
	vbroadcasti128	D(CPI22_5)(%rip), %ymm5
	vpshufb	%ymm5, %ymm1, %ymm1
	vmovdqa	%ymm1, 96(%rsp)
	vpaddd	576(%rsp), %ymm1, %ymm1
	vmovdqa	%ymm1, 128(%rsp)
	vpxor	%ymm0, %ymm1, %ymm0
	vpsrld	$7, %ymm0, %ymm1
	vpslld	$25, %ymm0, %ymm0
	vpor	%ymm1, %ymm0, %ymm4
	vpaddd	352(%rsp), %ymm12, %ymm0
	vpaddd	%ymm2, %ymm0, %ymm12
	vpxor	%ymm12, %ymm14, %ymm0
	vpshufb	%ymm5, %ymm0, %ymm1
	vmovdqa	%ymm1, 64(%rsp)
	vmovdqa	%ymm5, %ymm0
	vpaddd	%ymm1, %ymm9, %ymm1
	vpxor	%ymm2, %ymm1, %ymm2
	vpsrld	$7, %ymm2, %ymm5
	vpslld	$25, %ymm2, %ymm2
	vpor	%ymm5, %ymm2, %ymm14
	vpaddd	448(%rsp), %ymm13, %ymm2
	vpaddd	%ymm6, %ymm2, %ymm5
	vpxor	%ymm5, %ymm15, %ymm2
	vpshufb	%ymm0, %ymm2, %ymm15
	vpaddd	%ymm15, %ymm10, %ymm9
	vpxor	%ymm6, %ymm9, %ymm2
	vpsrld	$7, %ymm2, %ymm6
	vpslld	$25, %ymm2, %ymm2
	vpor	%ymm6, %ymm2, %ymm6
	vpaddd	320(%rsp), %ymm8, %ymm2
	vpaddd	%ymm7, %ymm2, %ymm2
	vpxor	%ymm2, %ymm3, %ymm3
	vpshufb	%ymm0, %ymm3, %ymm13
	vpaddd	%ymm13, %ymm11, %ymm10
	vpxor	%ymm7, %ymm10, %ymm3
	vpsrld	$7, %ymm3, %ymm7
	vpslld	$25, %ymm3, %ymm3
	vpor	%ymm7, %ymm3, %ymm7
	vpaddd	256(%rsp), %ymm2, %ymm2
	vpaddd	%ymm4, %ymm2, %ymm8
	vpxor	%ymm8, %ymm15, %ymm3
	vmovdqa	D(CPI22_0)(%rip), %ymm11
	vpshufb	%ymm11, %ymm3, %ymm3
	vpaddd	%ymm3, %ymm1, %ymm0
	vmovdqa	%ymm0, 32(%rsp)
	vpxor	%ymm4, %ymm0, %ymm0
	vpsrld	$12, %ymm0, %ymm1
	vpslld	$20, %ymm0, %ymm0
	vpor	%ymm1, %ymm0, %ymm2
	vmovdqa	(%rsp), %ymm0
	vpaddd	704(%rsp), %ymm0, %ymm1
	vpaddd	%ymm1, %ymm14, %ymm4
	vpxor	%ymm4, %ymm13, %ymm1
	vmovdqa	%ymm11, %ymm0
	vpshufb	%ymm11, %ymm1, %ymm13
	vpaddd	%ymm13, %ymm9, %ymm9
	vpxor	%ymm14, %ymm9, %ymm1
	vpsrld	$12, %ymm1, %ymm11
	vpslld	$20, %ymm1, %ymm1
	vpor	%ymm1, %ymm11, %ymm11
	vpaddd	288(%rsp), %ymm12, %ymm1
	vpaddd	%ymm6, %ymm1, %ymm12
	vpxor	96(%rsp), %ymm12, %ymm1
	vpshufb	%ymm0, %ymm1, %ymm14
	vpaddd	%ymm14, %ymm10, %ymm10
	vpxor	%ymm6, %ymm10, %ymm1
	vpsrld	$12, %ymm1, %ymm6
	vpslld	$20, %ymm1, %ymm1
	vpor	%ymm6, %ymm1, %ymm6
	vpaddd	224(%rsp), %ymm5, %ymm1
	vpaddd	%ymm7, %ymm1, %ymm1
	vpxor	64(%rsp), %ymm1, %ymm5
	vpshufb	%ymm0, %ymm5, %ymm15
	vpaddd	128(%rsp), %ymm15, %ymm5
	vpxor	%ymm7, %ymm5, %ymm7
	vpsrld	$12, %ymm7, %ymm0
	vpslld	$20, %ymm7, %ymm7
	vpor	%ymm0, %ymm7, %ymm7
	vpaddd	544(%rsp), %ymm8, %ymm0
	vpaddd	%ymm2, %ymm0, %ymm0
	vmovdqa	%ymm0, 128(%rsp)
	vpxor	%ymm0, %ymm3, %ymm0
	vbroadcasti128	D(CPI22_5)(%rip), %ymm8
	vpshufb	%ymm8, %ymm0, %ymm0
	vmovdqa	%ymm0, 96(%rsp)
	vpaddd	32(%rsp), %ymm0, %ymm0
	vmovdqa	%ymm0, 64(%rsp)
	vpxor	%ymm2, %ymm0, %ymm0
	vpsrld	$7, %ymm0, %ymm2
	vpslld	$25, %ymm0, %ymm0
	vpor	%ymm2, %ymm0, %ymm3
	vpaddd	512(%rsp), %ymm4, %ymm2
	vpaddd	%ymm2, %ymm11, %ymm2
	vpxor	%ymm2, %ymm13, %ymm4
	vmovdqa	%ymm8, %ymm0
	vpshufb	%ymm8, %ymm4, %ymm4
	vmovdqa	%ymm4, (%rsp)
	vpaddd	%ymm4, %ymm9, %ymm13
	vpxor	%ymm11, %ymm13, %ymm4
	vpsrld	$7, %ymm4, %ymm8
	vpslld	$25, %ymm4, %ymm4
	vpor	%ymm4, %ymm8, %ymm8
	vpaddd	672(%rsp), %ymm12, %ymm4
	vpaddd	%ymm6, %ymm4, %ymm9
	vpxor	%ymm9, %ymm14, %ymm4
	vpshufb	%ymm0, %ymm4, %ymm14
	vpaddd	%ymm14, %ymm10, %ymm4
	vmovdqa	%ymm4, 32(%rsp)
	vpxor	%ymm6, %ymm4, %ymm4
	vpsrld	$7, %ymm4, %ymm6
	vpslld	$25, %ymm4, %ymm4
	vpor	%ymm6, %ymm4, %ymm6
	vpaddd	192(%rsp), %ymm1, %ymm1
	vpaddd	%ymm7, %ymm1, %ymm1
	vpxor	%ymm1, %ymm15, %ymm4
	vpshufb	%ymm0, %ymm4, %ymm12
	vpaddd	%ymm5, %ymm12, %ymm5
	vpxor	%ymm7, %ymm5, %ymm4
	vpsrld	$7, %ymm4, %ymm7
	vpslld	$25, %ymm4, %ymm4
	vpor	%ymm7, %ymm4, %ymm10
	vpaddd	480(%rsp), %ymm2, %ymm2
	vpaddd	%ymm3, %ymm2, %ymm4
	vpxor	%ymm4, %ymm14, %ymm2
	vmovdqa	D(CPI22_0)(%rip), %ymm7
	vpshufb	%ymm7, %ymm2, %ymm14
	vpaddd	%ymm5, %ymm14, %ymm0
	vmovdqa	%ymm0, 160(%rsp)
	vpxor	%ymm3, %ymm0, %ymm0
	vpsrld	$12, %ymm0, %ymm2
	vpslld	$20, %ymm0, %ymm0
	vpor	%ymm2, %ymm0, %ymm0
	vpaddd	352(%rsp), %ymm9, %ymm2
	vpaddd	%ymm2, %ymm8, %ymm5
	vpxor	%ymm5, %ymm12, %ymm2
	vpshufb	%ymm7, %ymm2, %ymm15
	vpaddd	64(%rsp), %ymm15, %ymm9
	vpxor	%ymm8, %ymm9, %ymm2
	vpsrld	$12, %ymm2, %ymm3
	vpslld	$20, %ymm2, %ymm2
	vpor	%ymm3, %ymm2, %ymm2
	vpaddd	320(%rsp), %ymm1, %ymm1
	vpaddd	%ymm6, %ymm1, %ymm12
	vpxor	96(%rsp), %ymm12, %ymm1
	vpshufb	%ymm7, %ymm1, %ymm11
	vpaddd	%ymm11, %ymm13, %ymm1
	vmovdqa	%ymm1, 64(%rsp)
	vpxor	%ymm6, %ymm1, %ymm1
	vpsrld	$12, %ymm1, %ymm3
	vpslld	$20, %ymm1, %ymm1
	vpor	%ymm3, %ymm1, %ymm6
	vmovdqa	128(%rsp), %ymm1
	vpaddd	384(%rsp), %ymm1, %ymm1
	vpaddd	%ymm1, %ymm10, %ymm13
	vpxor	(%rsp), %ymm13, %ymm1
	vpshufb	%ymm7, %ymm1, %ymm8
	vpaddd	32(%rsp), %ymm8, %ymm1
	vmovdqa	%ymm1, 32(%rsp)
	vpxor	%ymm1, %ymm10, %ymm1
	vpsrld	$12, %ymm1, %ymm3
	vpslld	$20, %ymm1, %ymm1
	vpor	%ymm3, %ymm1, %ymm1
	vpaddd	608(%rsp), %ymm4, %ymm3
	vpaddd	%ymm0, %ymm3, %ymm4
	vpxor	%ymm4, %ymm14, %ymm3
	vbroadcasti128	D(CPI22_5)(%rip), %ymm7
	vpshufb	%ymm7, %ymm3, %ymm14
	vpaddd	160(%rsp), %ymm14, %ymm3
	vmovdqa	%ymm3, 128(%rsp)
	vpxor	%ymm0, %ymm3, %ymm0
	vpsrld	$7, %ymm0, %ymm3
	vpslld	$25, %ymm0, %ymm0
	vpor	%ymm3, %ymm0, %ymm0
	vpaddd	288(%rsp), %ymm5, %ymm3
	vpaddd	%ymm2, %ymm3, %ymm10
	vpxor	%ymm10, %ymm15, %ymm3
	vpshufb	%ymm7, %ymm3, %ymm3
	vmovdqa	%ymm3, 96(%rsp)
	vpaddd	%ymm3, %ymm9, %ymm9
	vpxor	%ymm2, %ymm9, %ymm2
	vpsrld	$7, %ymm2, %ymm3
	vpslld	$25, %ymm2, %ymm2
	vpor	%ymm3, %ymm2, %ymm3
	vpaddd	640(%rsp), %ymm12, %ymm2
	vpaddd	%ymm6, %ymm2, %ymm2
	vmovdqa	%ymm2, (%rsp)
	vpxor	%ymm2, %ymm11, %ymm2
	vpshufb	%ymm7, %ymm2, %ymm15
	vmovdqa	%ymm7, %ymm11
	vpaddd	64(%rsp), %ymm15, %ymm7
	vpxor	%ymm6, %ymm7, %ymm2
	vpsrld	$7, %ymm2, %ymm5
	vpslld	$25, %ymm2, %ymm2
	vpor	%ymm5, %ymm2, %ymm2
	vpaddd	192(%rsp), %ymm13, %ymm5
	vpaddd	%ymm1, %ymm5, %ymm5
	vpxor	%ymm5, %ymm8, %ymm6
	vpshufb	%ymm11, %ymm6, %ymm12
	vpaddd	32(%rsp), %ymm12, %ymm11
	vpxor	%ymm1, %ymm11, %ymm1
	vpsrld	$7, %ymm1, %ymm6
	vpslld	$25, %ymm1, %ymm1
	vpor	%ymm6, %ymm1, %ymm6
	vpaddd	544(%rsp), %ymm5, %ymm1
	vpaddd	%ymm0, %ymm1, %ymm5
	vpxor	%ymm5, %ymm15, %ymm1
	vmovdqa	D(CPI22_0)(%rip), %ymm13
	vpshufb	%ymm13, %ymm1, %ymm8
	vpaddd	%ymm8, %ymm9, %ymm1
	vmovdqa	%ymm1, 64(%rsp)
	vpxor	%ymm0, %ymm1, %ymm0
	vpsrld	$12, %ymm0, %ymm1
	vpslld	$20, %ymm0, %ymm0
	vpor	%ymm1, %ymm0, %ymm0
	vpaddd	416(%rsp), %ymm4, %ymm1
	vpaddd	%ymm3, %ymm1, %ymm4
	vpxor	%ymm4, %ymm12, %ymm1
	vpshufb	%ymm13, %ymm1, %ymm15
	vpaddd	%ymm7, %ymm15, %ymm9
	vpxor	%ymm3, %ymm9, %ymm1
	vpsrld	$12, %ymm1, %ymm3
	vpslld	$20, %ymm1, %ymm1
	vpor	%ymm3, %ymm1, %ymm3
	vpaddd	224(%rsp), %ymm10, %ymm1
	vpaddd	%ymm2, %ymm1, %ymm12
	vpxor	%ymm12, %ymm14, %ymm1
	vpshufb	%ymm13, %ymm1, %ymm14
	vpaddd	%ymm14, %ymm11, %ymm1
	vmovdqa	%ymm1, 160(%rsp)
	vpxor	%ymm2, %ymm1, %ymm1
	vpsrld	$12, %ymm1, %ymm2
	vpslld	$20, %ymm1, %ymm1
	vpor	%ymm2, %ymm1, %ymm1
	vmovdqa	(%rsp), %ymm2
	vpaddd	512(%rsp), %ymm2, %ymm2
	vpaddd	%ymm6, %ymm2, %ymm10
	vpxor	96(%rsp), %ymm10, %ymm2
	vpshufb	%ymm13, %ymm2, %ymm7
	vpaddd	128(%rsp), %ymm7, %ymm11
	vpxor	%ymm6, %ymm11, %ymm2
	vpsrld	$12, %ymm2, %ymm6
	vpslld	$20, %ymm2, %ymm2
	vpor	%ymm6, %ymm2, %ymm2
	vpaddd	704(%rsp), %ymm5, %ymm5
	vpaddd	%ymm0, %ymm5, %ymm5
	vmovdqa	%ymm5, 128(%rsp)
	vpxor	%ymm5, %ymm8, %ymm5
	vbroadcasti128	D(CPI22_5)(%rip), %ymm6
	vpshufb	%ymm6, %ymm5, %ymm5
	vmovdqa	%ymm5, 96(%rsp)
	vpaddd	64(%rsp), %ymm5, %ymm5
	vmovdqa	%ymm5, 64(%rsp)
	vpxor	%ymm0, %ymm5, %ymm0
	vpsrld	$7, %ymm0, %ymm5
	vpslld	$25, %ymm0, %ymm0
	vpor	%ymm5, %ymm0, %ymm0
	vpaddd	672(%rsp), %ymm4, %ymm4
	vpaddd	%ymm3, %ymm4, %ymm5
	vpxor	%ymm5, %ymm15, %ymm4
	vpshufb	%ymm6, %ymm4, %ymm8
	vmovdqa	%ymm8, (%rsp)
	vmovdqa	%ymm6, %ymm4
	vpaddd	%ymm8, %ymm9, %ymm6
	vmovdqa	%ymm6, 32(%rsp)
	vpxor	%ymm3, %ymm6, %ymm3
	vpsrld	$7, %ymm3, %ymm6
	vpslld	$25, %ymm3, %ymm3
	vpor	%ymm6, %ymm3, %ymm3
	vpaddd	448(%rsp), %ymm12, %ymm6
	vpaddd	%ymm1, %ymm6, %ymm9
	vpxor	%ymm9, %ymm14, %ymm6
	vpshufb	%ymm4, %ymm6, %ymm6
	vpaddd	160(%rsp), %ymm6, %ymm8
	vmovdqa	%ymm8, 160(%rsp)
	vpxor	%ymm1, %ymm8, %ymm1
	vpsrld	$7, %ymm1, %ymm8
	vpslld	$25, %ymm1, %ymm1
	vpor	%ymm1, %ymm8, %ymm8
	vpaddd	256(%rsp), %ymm10, %ymm1
	vpaddd	%ymm2, %ymm1, %ymm1
	vpxor	%ymm1, %ymm7, %ymm7
	vpshufb	%ymm4, %ymm7, %ymm7
	vpaddd	%ymm7, %ymm11, %ymm10
	vpxor	%ymm2, %ymm10, %ymm2
	vpsrld	$7, %ymm2, %ymm11
	vpslld	$25, %ymm2, %ymm2
	vpor	%ymm2, %ymm11, %ymm11
	vpaddd	352(%rsp), %ymm5, %ymm2
	vpaddd	%ymm0, %ymm2, %ymm5
	vpxor	%ymm5, %ymm6, %ymm2
	vpshufb	%ymm13, %ymm2, %ymm6
	vpaddd	%ymm6, %ymm10, %ymm2
	vmovdqa	%ymm2, 576(%rsp)
	vpxor	%ymm0, %ymm2, %ymm0
	vpsrld	$12, %ymm0, %ymm2
	vpslld	$20, %ymm0, %ymm0
	vpor	%ymm2, %ymm0, %ymm4
	vpaddd	288(%rsp), %ymm9, %ymm2
	vpaddd	%ymm3, %ymm2, %ymm12
	vpxor	%ymm7, %ymm12, %ymm2
	vmovdqa	%ymm13, %ymm0
	vpshufb	%ymm13, %ymm2, %ymm14
	vpaddd	64(%rsp), %ymm14, %ymm9
	vpxor	%ymm3, %ymm9, %ymm2
	vpsrld	$12, %ymm2, %ymm3
	vpslld	$20, %ymm2, %ymm2
	vpor	%ymm3, %ymm2, %ymm3
	vpaddd	192(%rsp), %ymm1, %ymm1
	vpaddd	%ymm1, %ymm8, %ymm13
	vpxor	96(%rsp), %ymm13, %ymm1
	vpshufb	%ymm0, %ymm1, %ymm15
	vpaddd	32(%rsp), %ymm15, %ymm10
	vpxor	%ymm8, %ymm10, %ymm1
	vpsrld	$12, %ymm1, %ymm2
	vpslld	$20, %ymm1, %ymm1
	vpor	%ymm2, %ymm1, %ymm1
	vmovdqa	128(%rsp), %ymm2
	vpaddd	320(%rsp), %ymm2, %ymm2
	vpaddd	%ymm2, %ymm11, %ymm8
	vpxor	(%rsp), %ymm8, %ymm2
	vpshufb	%ymm0, %ymm2, %ymm7
	vpaddd	160(%rsp), %ymm7, %ymm0
	vmovdqa	%ymm0, 32(%rsp)
	vpxor	%ymm0, %ymm11, %ymm2
	vpsrld	$12, %ymm2, %ymm11
	vpslld	$20, %ymm2, %ymm2
	vpor	%ymm2, %ymm11, %ymm2
	vpaddd	384(%rsp), %ymm5, %ymm5
	vpaddd	%ymm4, %ymm5, %ymm0
	vmovdqa	%ymm0, (%rsp)
	vpxor	%ymm0, %ymm6, %ymm5
	vbroadcasti128	D(CPI22_5)(%rip), %ymm6
	vpshufb	%ymm6, %ymm5, %ymm0
	vmovdqa	%ymm0, 96(%rsp)
	vpaddd	576(%rsp), %ymm0, %ymm5
	vmovdqa	%ymm5, 128(%rsp)
	vpxor	%ymm4, %ymm5, %ymm0
	vpsrld	$7, %ymm0, %ymm5
	vpslld	$25, %ymm0, %ymm0
	vpor	%ymm5, %ymm0, %ymm0
	vpaddd	224(%rsp), %ymm12, %ymm5
	vpaddd	%ymm3, %ymm5, %ymm11
	vpxor	%ymm11, %ymm14, %ymm5
	vpshufb	%ymm6, %ymm5, %ymm4
	vmovdqa	%ymm4, 64(%rsp)
	vpaddd	%ymm4, %ymm9, %ymm5
	vpxor	%ymm3, %ymm5, %ymm3
	vpsrld	$7, %ymm3, %ymm9
	vpslld	$25, %ymm3, %ymm3
	vpor	%ymm3, %ymm9, %ymm14
	vpaddd	480(%rsp), %ymm13, %ymm3
	vpaddd	%ymm1, %ymm3, %ymm4
	vpxor	%ymm4, %ymm15, %ymm3
	vmovdqa	%ymm4, %ymm15
	vpshufb	%ymm6, %ymm3, %ymm3
	vpaddd	%ymm3, %ymm10, %ymm9
	vpxor	%ymm1, %ymm9, %ymm1
	vpsrld	$7, %ymm1, %ymm10
	vpslld	$25, %ymm1, %ymm1
	vpor	%ymm1, %ymm10, %ymm1
	vpaddd	256(%rsp), %ymm8, %ymm4
	vpaddd	%ymm2, %ymm4, %ymm12
	vpxor	%ymm7, %ymm12, %ymm4
	vpshufb	%ymm6, %ymm4, %ymm4
	vpaddd	32(%rsp), %ymm4, %ymm10
	vpxor	%ymm2, %ymm10, %ymm2
	vpsrld	$7, %ymm2, %ymm7
	vpslld	$25, %ymm2, %ymm2
	vpor	%ymm7, %ymm2, %ymm2
	vpaddd	704(%rsp), %ymm12, %ymm7
	vpaddd	%ymm0, %ymm7, %ymm8
	vpxor	%ymm3, %ymm8, %ymm3
	vmovdqa	D(CPI22_0)(%rip), %ymm7
	vpshufb	%ymm7, %ymm3, %ymm12
	vpaddd	%ymm5, %ymm12, %ymm3
	vmovdqa	%ymm3, 32(%rsp)
	vpxor	%ymm0, %ymm3, %ymm0
	vpsrld	$12, %ymm0, %ymm3
	vpslld	$20, %ymm0, %ymm0
	vpor	%ymm3, %ymm0, %ymm5
	vmovdqa	(%rsp), %ymm0
	vpaddd	608(%rsp), %ymm0, %ymm0
	vpaddd	%ymm0, %ymm14, %ymm6
	vpxor	%ymm6, %ymm4, %ymm0
	vmovdqa	%ymm7, %ymm3
	vpshufb	%ymm7, %ymm0, %ymm13
	vpaddd	%ymm13, %ymm9, %ymm9
	vpxor	%ymm14, %ymm9, %ymm0
	vpsrld	$12, %ymm0, %ymm4
	vpslld	$20, %ymm0, %ymm0
	vpor	%ymm4, %ymm0, %ymm4
	vpaddd	512(%rsp), %ymm11, %ymm0
	vpaddd	%ymm1, %ymm0, %ymm11
	vpxor	96(%rsp), %ymm11, %ymm0
	vpshufb	%ymm7, %ymm0, %ymm14
	vpaddd	%ymm14, %ymm10, %ymm0
	vmovdqa	%ymm0, (%rsp)
	vpxor	%ymm1, %ymm0, %ymm0
	vpsrld	$12, %ymm0, %ymm1
	vpslld	$20, %ymm0, %ymm0
	vpor	%ymm1, %ymm0, %ymm7
	vpaddd	672(%rsp), %ymm15, %ymm1
	vpaddd	%ymm2, %ymm1, %ymm1
	vpxor	64(%rsp), %ymm1, %ymm10
	vpshufb	%ymm3, %ymm10, %ymm15
	vpaddd	128(%rsp), %ymm15, %ymm10
	vpxor	%ymm2, %ymm10, %ymm2
	vpsrld	$12, %ymm2, %ymm0
	vpslld	$20, %ymm2, %ymm2
	vpor	%ymm0, %ymm2, %ymm2
	vpaddd	416(%rsp), %ymm8, %ymm0
	vpaddd	%ymm5, %ymm0, %ymm0
	vmovdqa	%ymm0, 64(%rsp)
	vpxor	%ymm0, %ymm12, %ymm0
	vbroadcasti128	D(CPI22_5)(%rip), %ymm12
	vpshufb	%ymm12, %ymm0, %ymm0
	vmovdqa	%ymm0, 128(%rsp)
	vpaddd	32(%rsp), %ymm0, %ymm8
	vpxor	%ymm5, %ymm8, %ymm0
	vpsrld	$7, %ymm0, %ymm5
	vpslld	$25, %ymm0, %ymm0
	vpor	%ymm5, %ymm0, %ymm5
	vpaddd	448(%rsp), %ymm6, %ymm0
	vpaddd	%ymm4, %ymm0, %ymm0
	vpxor	%ymm0, %ymm13, %ymm6
	vpshufb	%ymm12, %ymm6, %ymm3
	vmovdqa	%ymm3, 96(%rsp)
	vmovdqa	%ymm12, %ymm13
	vpaddd	%ymm3, %ymm9, %ymm12
	vpxor	%ymm4, %ymm12, %ymm4
	vpsrld	$7, %ymm4, %ymm6
	vpslld	$25, %ymm4, %ymm4
	vpor	%ymm6, %ymm4, %ymm4
	vpaddd	640(%rsp), %ymm11, %ymm6
	vpaddd	%ymm7, %ymm6, %ymm11
	vpxor	%ymm11, %ymm14, %ymm6
	vpshufb	%ymm13, %ymm6, %ymm14
	vpaddd	(%rsp), %ymm14, %ymm3
	vmovdqa	%ymm3, (%rsp)
	vpxor	%ymm7, %ymm3, %ymm3
	vpsrld	$7, %ymm3, %ymm9
	vpslld	$25, %ymm3, %ymm3
	vpor	%ymm3, %ymm9, %ymm9
	vpaddd	544(%rsp), %ymm1, %ymm1
	vpaddd	%ymm2, %ymm1, %ymm3
	vpxor	%ymm3, %ymm15, %ymm1
	vpshufb	%ymm13, %ymm1, %ymm1
	vpaddd	%ymm1, %ymm10, %ymm15
	vpxor	%ymm2, %ymm15, %ymm2
	vpsrld	$7, %ymm2, %ymm10
	vpslld	$25, %ymm2, %ymm2
	vpor	%ymm2, %ymm10, %ymm10
	vpaddd	288(%rsp), %ymm0, %ymm0
	vpaddd	224(%rsp), %ymm11, %ymm11
	vpaddd	256(%rsp), %ymm3, %ymm6
	vmovdqa	64(%rsp), %ymm2
	vpaddd	192(%rsp), %ymm2, %ymm2
	vmovdqa	%ymm2, 192(%rsp)
	vpaddd	%ymm5, %ymm0, %ymm3
	vpxor	%ymm3, %ymm14, %ymm0
	vmovdqa	D(CPI22_0)(%rip), %ymm14
	vpshufb	%ymm14, %ymm0, %ymm2
	vpaddd	%ymm2, %ymm15, %ymm13
	vpxor	%ymm5, %ymm13, %ymm5
	vpsrld	$12, %ymm5, %ymm7
	vpslld	$20, %ymm5, %ymm5
	vpor	%ymm7, %ymm5, %ymm7
	vpaddd	%ymm4, %ymm11, %ymm15
	vpxor	%ymm1, %ymm15, %ymm1
	vpshufb	%ymm14, %ymm1, %ymm1
	vmovdqa	%ymm1, 224(%rsp)
	vpaddd	%ymm1, %ymm8, %ymm1
	vmovdqa	%ymm1, 256(%rsp)
	vpxor	%ymm4, %ymm1, %ymm4
	vpsrld	$12, %ymm4, %ymm5
	vpslld	$20, %ymm4, %ymm4
	vpor	%ymm5, %ymm4, %ymm11
	vpaddd	%ymm6, %ymm9, %ymm1
	vpxor	128(%rsp), %ymm1, %ymm4
	vpshufb	%ymm14, %ymm4, %ymm8
	vpaddd	%ymm8, %ymm12, %ymm4
	vpxor	%ymm4, %ymm9, %ymm5
	vpsrld	$12, %ymm5, %ymm6
	vpslld	$20, %ymm5, %ymm5
	vpor	%ymm6, %ymm5, %ymm12
	vpaddd	192(%rsp), %ymm10, %ymm0
	vpxor	96(%rsp), %ymm0, %ymm5
	vpshufb	%ymm14, %ymm5, %ymm5
	vpaddd	(%rsp), %ymm5, %ymm6
	vmovdqa	%ymm6, 192(%rsp)
	vpxor	%ymm6, %ymm10, %ymm6
	vpsrld	$12, %ymm6, %ymm10
	vpslld	$20, %ymm6, %ymm6
	vpor	%ymm6, %ymm10, %ymm6
	vpaddd	320(%rsp), %ymm3, %ymm3
	vpaddd	512(%rsp), %ymm15, %ymm15
	vpaddd	352(%rsp), %ymm1, %ymm1
	vpaddd	544(%rsp), %ymm0, %ymm0
	vpaddd	%ymm7, %ymm3, %ymm10
	vpxor	%ymm2, %ymm10, %ymm2
	vbroadcasti128	D(CPI22_5)(%rip), %ymm14
	vpshufb	%ymm14, %ymm2, %ymm2
	vmovdqa	%ymm2, 320(%rsp)
	vpaddd	%ymm2, %ymm13, %ymm2
	vmovdqa	%ymm2, 352(%rsp)
	vpxor	%ymm7, %ymm2, %ymm2
	vpsrld	$7, %ymm2, %ymm13
	vpslld	$25, %ymm2, %ymm2
	vpor	%ymm2, %ymm13, %ymm2
	vmovdqa	%ymm2, 288(%rsp)
	vpaddd	%ymm11, %ymm15, %ymm15
	vpxor	224(%rsp), %ymm15, %ymm2
	vpshufb	%ymm14, %ymm2, %ymm9
	vpaddd	256(%rsp), %ymm9, %ymm2
	vmovdqa	%ymm2, 256(%rsp)
	vpxor	%ymm2, %ymm11, %ymm7
	vpsrld	$7, %ymm7, %ymm11
	vpslld	$25, %ymm7, %ymm7
	vpor	%ymm7, %ymm11, %ymm3
	vmovdqa	%ymm3, 512(%rsp)
	vpaddd	%ymm1, %ymm12, %ymm13
	vpxor	%ymm13, %ymm8, %ymm7
	vpshufb	%ymm14, %ymm7, %ymm7
	vpaddd	%ymm7, %ymm4, %ymm11
	vpxor	%ymm12, %ymm11, %ymm4
	vpsrld	$7, %ymm4, %ymm8
	vpslld	$25, %ymm4, %ymm4
	vpor	%ymm4, %ymm8, %ymm2
	vmovdqa	%ymm2, 544(%rsp)
	vpaddd	%ymm6, %ymm0, %ymm0
	vpxor	%ymm0, %ymm5, %ymm8
	vpshufb	%ymm14, %ymm8, %ymm8
	vpaddd	192(%rsp), %ymm8, %ymm14
	vpxor	%ymm6, %ymm14, %ymm5
	vpsrld	$7, %ymm5, %ymm6
	vpslld	$25, %ymm5, %ymm5
	vpor	%ymm6, %ymm5, %ymm1
	vpaddd	416(%rsp), %ymm0, %ymm12
	vpaddd	384(%rsp), %ymm10, %ymm5
	vpaddd	672(%rsp), %ymm15, %ymm6
	vpaddd	448(%rsp), %ymm13, %ymm10
	vmovdqa	288(%rsp), %ymm4
	vpaddd	%ymm4, %ymm12, %ymm12
	vpaddd	%ymm3, %ymm5, %ymm13
	vpaddd	%ymm2, %ymm6, %ymm15
	vpaddd	%ymm1, %ymm10, %ymm0
	vmovdqa	%ymm0, 224(%rsp)
	vpxor	%ymm7, %ymm12, %ymm5
	vmovdqa	D(CPI22_0)(%rip), %ymm10
	vpshufb	%ymm10, %ymm5, %ymm5
	vpxor	%ymm13, %ymm8, %ymm6
	vpshufb	%ymm10, %ymm6, %ymm6
	vpxor	320(%rsp), %ymm15, %ymm3
	vpshufb	%ymm10, %ymm3, %ymm7
	vpxor	%ymm0, %ymm9, %ymm2
	vpshufb	%ymm10, %ymm2, %ymm8
	vpaddd	256(%rsp), %ymm5, %ymm3
	vpxor	%ymm4, %ymm3, %ymm2
	vpsrld	$12, %ymm2, %ymm10
	vpslld	$20, %ymm2, %ymm2
	vpor	%ymm2, %ymm10, %ymm2
	vpaddd	%ymm6, %ymm11, %ymm0
	vmovdqa	%ymm0, 448(%rsp)
	vpxor	512(%rsp), %ymm0, %ymm10
	vpsrld	$12, %ymm10, %ymm11
	vpslld	$20, %ymm10, %ymm10
	vpor	%ymm11, %ymm10, %ymm10
	vpaddd	%ymm7, %ymm14, %ymm0
	vmovdqa	%ymm0, 416(%rsp)
	vpxor	544(%rsp), %ymm0, %ymm4
	vpsrld	$12, %ymm4, %ymm11
	vpslld	$20, %ymm4, %ymm4
	vpor	%ymm4, %ymm11, %ymm4
	vpaddd	352(%rsp), %ymm8, %ymm0
	vmovdqa	%ymm0, 384(%rsp)
	vpxor	%ymm1, %ymm0, %ymm9
	vpsrld	$12, %ymm9, %ymm11
	vpslld	$20, %ymm9, %ymm9
	vpor	%ymm11, %ymm9, %ymm14
	vpaddd	608(%rsp), %ymm12, %ymm11
	vpaddd	640(%rsp), %ymm13, %ymm1
	vpaddd	480(%rsp), %ymm15, %ymm15
	vmovdqa	224(%rsp), %ymm0
	vpaddd	704(%rsp), %ymm0, %ymm0
	vpaddd	%ymm2, %ymm11, %ymm11
	vpaddd	%ymm1, %ymm10, %ymm12
	vpaddd	%ymm4, %ymm15, %ymm15
	vmovdqa	%ymm4, %ymm13
	vpaddd	%ymm0, %ymm14, %ymm4
	vpxor	%ymm5, %ymm11, %ymm0
	vbroadcasti128	D(CPI22_5)(%rip), %ymm1
	vpshufb	%ymm1, %ymm0, %ymm9
	vpxor	%ymm6, %ymm12, %ymm0
	vpshufb	%ymm1, %ymm0, %ymm5
	vpxor	%ymm7, %ymm15, %ymm6
	vpshufb	%ymm1, %ymm6, %ymm6
	vpxor	%ymm4, %ymm8, %ymm7
	vpshufb	%ymm1, %ymm7, %ymm7
	vpaddd	%ymm3, %ymm9, %ymm3
	vpxor	%ymm2, %ymm3, %ymm2
	vpsrld	$7, %ymm2, %ymm8
	vpslld	$25, %ymm2, %ymm2
	vpor	%ymm2, %ymm8, %ymm0
	vmovdqa	%ymm0, 480(%rsp)
	vpaddd	448(%rsp), %ymm5, %ymm8
	vpxor	%ymm10, %ymm8, %ymm10
	vpsrld	$7, %ymm10, %ymm0
	vpslld	$25, %ymm10, %ymm10
	vpor	%ymm0, %ymm10, %ymm2
	vpaddd	416(%rsp), %ymm6, %ymm10
	vpxor	%ymm13, %ymm10, %ymm13
	vpsrld	$7, %ymm13, %ymm0
	vpslld	$25, %ymm13, %ymm13
	vpor	%ymm0, %ymm13, %ymm1
	vpaddd	384(%rsp), %ymm7, %ymm13
	vpxor	%ymm14, %ymm13, %ymm14
	vpsrld	$7, %ymm14, %ymm0
	vpslld	$25, %ymm14, %ymm14
	vpor	%ymm0, %ymm14, %ymm0
	vpxor	%ymm12, %ymm13, %ymm12
	vpxor	%ymm3, %ymm15, %ymm3
	vpxor	%ymm4, %ymm8, %ymm4
	vpxor	%ymm11, %ymm10, %ymm8
	vpxor	480(%rsp), %ymm6, %ymm6
	vpxor	%ymm7, %ymm2, %ymm2
	vpxor	%ymm1, %ymm9, %ymm1
	vpxor	%ymm5, %ymm0, %ymm0
	vmovdqu	%ymm12, (%rbx)
	vmovdqu	%ymm3, 32(%rbx)
	vmovdqu	%ymm4, 64(%rbx)
	vmovdqu	%ymm8, 96(%rbx)
	vmovdqu	%ymm6, 128(%rbx)
	vmovdqu	%ymm2, 160(%rbx)
	vmovdqu	%ymm1, 192(%rbx)
	vmovdqu	%ymm0, 224(%rbx)
	leaq	-32(%rbp), %rsp
	popq	%rbx
	popq	%r12
	popq	%r14
	popq	%r15
	popq	%rbp
	.cfi_def_cfa %rsp, 8
	vzeroupper
	retq
	SIZE("keyed_blake3::chunks::take_block::<#a9687390e0dd665c>")
	.cfi_endproc

SIZED(16, 4)
	.p2align	4, 0x0
D(CPI23_2):
	.long	3351608833
	.long	2519287717
	.long	1717998845
	.long	3858926260
D(CPI23_3):
	.long	1867767133
	.long	3530409783
	.long	3864159224
	.long	1064391498
CODE(".text.keyed_blake3::keyed_hash_two")
	.p2align	4
	TYPE("keyed_blake3::keyed_hash_two", function)
"keyed_blake3::keyed_hash_two":
	.cfi_startproc
	pushq	%rbp
	.cfi_def_cfa_offset 16
	pushq	%r15
	.cfi_def_cfa_offset 24
	pushq	%r14
	.cfi_def_cfa_offset 32
	pushq	%r13
	.cfi_def_cfa_offset 40
	pushq	%r12
	.cfi_def_cfa_offset 48
	pushq	%rbx
	.cfi_def_cfa_offset 56
	subq	$616, %rsp
	.cfi_def_cfa_offset 672
	.cfi_offset %rbx, -56
	.cfi_offset %r12, -48
	.cfi_offset %r13, -40
	.cfi_offset %r14, -32
	.cfi_offset %r15, -24
	.cfi_offset %rbp, -16
	vxorps	%xmm0, %xmm0, %xmm0
	vmovups	%ymm0, 576(%rsp)
	movq	%r8, %r15
	movq	%rcx, %r12
	movq	%rdx, %r13
	movq	%rsi, %r8
	movq	%rdi, %r14
	vmovups	%ymm0, 544(%rsp)
	cmpq	$1025, %rdx
	setae	%al
	cmpq	$1025, %r15
	setae	%cl
	orb	%al, %cl
	je	L(23_2)
	leaq	D(static.7)(%rip), %rbx
	leaq	576(%rsp), %rdi
	movq	%rbx, %rsi
	movq	%r8, %rdx
	movq	%r13, %rcx
	vzeroupper
	callq	"keyed_blake3::keyed_hash"
	leaq	544(%rsp), %rdi
	movq	%rbx, %rsi
	movq	%r12, %rdx
	movq	%r15, %rcx
	callq	"keyed_blake3::keyed_hash"
	vmovups	576(%rsp), %ymm0
	vmovups	%ymm0, (%r14)
	vmovups	544(%rsp), %ymm0
	vmovups	%ymm0, 32(%r14)
	jmp	L(23_49)
L(23_2):
	cmpq	$1, %r13
	movq	%r13, %rdi
	adcq	$-1, %rdi
	movq	%rdi, %rsi
	shrq	$6, %rsi
	movq	%rsi, 96(%rsp)
	cmpq	$1, %r15
	movq	%r15, %rax
	adcq	$-1, %rax
	movq	%rax, %rcx
	shrq	$6, %rcx
	cmpq	%rsi, %rcx
	movq	%rsi, %rdx
	cmovbq	%rcx, %rdx
	movq	%rdx, 424(%rsp)
	testq	%rsi, %rsi
	movq	%r12, (%rsp)
	movq	%rax, 536(%rsp)
	movq	%rcx, 112(%rsp)
	movq	%r8, 24(%rsp)
	movq	%rdi, 528(%rsp)
	je	L(23_3)
	vmovups	(%r8), %ymm0
	vmovups	32(%r8), %ymm1
	vmovups	%ymm1, 160(%rsp)
	vmovups	%ymm0, 128(%rsp)
	movl	$17, %ebx
	movl	$64, %ebp
	jmp	L(23_8)
L(23_3):
	cmpq	$64, %r13
	jne	L(23_4)
	vmovups	(%r8), %ymm0
	vmovups	32(%r8), %ymm1
	vmovups	%ymm1, 384(%rsp)
	vmovups	%ymm0, 352(%rsp)
	jmp	L(23_6)
L(23_4):
	vmovups	%ymm0, 64(%rsp)
	vmovups	%ymm0, 32(%rsp)
	leaq	32(%rsp), %rdi
	movq	%r8, %rsi
	movq	%r13, %rdx
	vzeroupper
	callq	PLT(memcpy)
	vmovups	32(%rsp), %ymm0
	vmovups	64(%rsp), %ymm1
	vmovups	%ymm0, 352(%rsp)
	vmovups	%ymm1, 384(%rsp)
L(23_6):
	vmovups	352(%rsp), %ymm0
	vmovups	%ymm0, 128(%rsp)
	vmovups	384(%rsp), %ymm0
	vmovups	%ymm0, 160(%rsp)
	movl	$27, %ebx
	movl	%r13d, %ebp
L(23_8):
	vmovups	128(%rsp), %ymm0
	vmovups	160(%rsp), %ymm1
	vmovups	%ymm0, 272(%rsp)
	vmovups	%ymm1, 304(%rsp)
	movq	$0, 336(%rsp)
	movl	%ebp, 344(%rsp)
	movl	%ebx, 348(%rsp)
	cmpq	$0, 112(%rsp)
	je	L(23_9)
	movq	(%rsp), %rax
	vmovups	(%rax), %ymm0
	vmovups	32(%rax), %ymm1
	vmovups	%ymm1, 160(%rsp)
	vmovups	%ymm0, 128(%rsp)
	movl	$17, %eax
	movl	$64, %ecx
	jmp	L(23_14)
L(23_9):
	cmpq	$64, %r15
	jne	L(23_10)
	movq	(%rsp), %rax
	vmovups	(%rax), %ymm0
	vmovups	32(%rax), %ymm1
	vmovups	%ymm1, 384(%rsp)
	vmovups	%ymm0, 352(%rsp)
	jmp	L(23_12)
L(23_10):
	vxorps	%xmm0, %xmm0, %xmm0
	vmovups	%ymm0, 64(%rsp)
	vmovups	%ymm0, 32(%rsp)
	leaq	32(%rsp), %rdi
	movq	(%rsp), %rsi
	movq	%r15, %rdx
	vzeroupper
	callq	PLT(memcpy)
	vmovups	32(%rsp), %ymm0
	vmovups	64(%rsp), %ymm1
	vmovups	%ymm0, 352(%rsp)
	vmovups	%ymm1, 384(%rsp)
L(23_12):
	vmovups	352(%rsp), %ymm0
	vmovups	%ymm0, 128(%rsp)
	vmovups	384(%rsp), %ymm0
	vmovups	%ymm0, 160(%rsp)
	movl	$27, %eax
	movl	%r15d, %ecx
L(23_14):
	movq	%r15, 8(%rsp)
	movq	%r14, 16(%rsp)
	vmovups	128(%rsp), %ymm0
	vmovups	160(%rsp), %ymm1
	vmovups	%ymm0, 192(%rsp)
	vmovups	%ymm1, 224(%rsp)
	movq	$0, 256(%rsp)
	movl	%ecx, 264(%rsp)
	movl	%eax, 268(%rsp)
	vmovd	%ebx, %xmm0
	vmovd	%ebp, %xmm1
	vpunpckldq	%xmm0, %xmm1, %xmm0
	vpslldq	$8, %xmm0, %xmm0
	vmovd	%eax, %xmm1
	vmovd	%ecx, %xmm2
	vpunpckldq	%xmm1, %xmm2, %xmm1
	vpslldq	$8, %xmm1, %xmm1
	vinserti128	$1, %xmm1, %ymm0, %ymm2
	vbroadcastf128	D(CPI23_2)(%rip), %ymm0
	vbroadcastf128	D(CPI23_3)(%rip), %ymm1
	leaq	32(%rsp), %rdi
	leaq	272(%rsp), %rsi
	leaq	192(%rsp), %rdx
	callq	"keyed_blake3::compression::two::compress_two_from"
	vmovups	32(%rsp), %ymm3
	vmovups	64(%rsp), %ymm4
	movq	424(%rsp), %rax
	testq	%rax, %rax
	movq	%r13, 432(%rsp)
	je	L(23_29)
	negq	%rax
	movq	%rax, 448(%rsp)
	movq	24(%rsp), %rax
	leaq	64(%rax), %rbx
	movq	(%rsp), %rax
	leaq	64(%rax), %r15
	movl	$1, %ebp
	xorl	%r14d, %r14d
	jmp	L(23_16)
	.p2align	4
L(23_23):
	vmovups	(%r15), %ymm0
	vmovups	32(%r15), %ymm1
	vmovups	%ymm1, 160(%rsp)
	vmovups	%ymm0, 128(%rsp)
	movl	$16, %ecx
	movl	$64, %eax
L(23_28):
	vmovups	128(%rsp), %ymm0
	vmovups	160(%rsp), %ymm1
	vmovups	%ymm0, 192(%rsp)
	vmovups	%ymm1, 224(%rsp)
	movq	$0, 256(%rsp)
	movl	%eax, 264(%rsp)
	movl	%ecx, 268(%rsp)
	vmovd	%r13d, %xmm0
	vmovd	%r12d, %xmm1
	vpunpckldq	%xmm0, %xmm1, %xmm0
	vpslldq	$8, %xmm0, %xmm0
	vmovd	%ecx, %xmm1
	vmovd	%eax, %xmm2
	vpunpckldq	%xmm1, %xmm2, %xmm1
	vpslldq	$8, %xmm1, %xmm1
	vinserti128	$1, %xmm1, %ymm0, %ymm2
	leaq	32(%rsp), %rdi
	leaq	272(%rsp), %rsi
	leaq	192(%rsp), %rdx
	vmovaps	%ymm3, %ymm0
	vmovaps	%ymm4, %ymm1
	callq	"keyed_blake3::compression::two::compress_two_from"
	vmovups	32(%rsp), %ymm3
	vmovups	64(%rsp), %ymm4
	movq	448(%rsp), %rax
	addq	%rbp, %rax
	incq	%rax
	incq	%rbp
	addq	$-64, %r14
	addq	$64, %rbx
	addq	$64, %r15
	cmpq	$1, %rax
	je	L(23_29)
L(23_16):
	cmpq	96(%rsp), %rbp
	jae	L(23_18)
	vmovups	(%rbx), %ymm0
	vmovups	32(%rbx), %ymm1
	vmovups	%ymm1, 160(%rsp)
	vmovups	%ymm0, 128(%rsp)
	movl	$16, %r13d
	movl	$64, %r12d
	jmp	L(23_22)
	.p2align	4
L(23_18):
	movq	432(%rsp), %r12
	leaq	(%r12,%r14), %rax
	cmpq	$128, %rax
	je	L(23_19)
	vmovups	%ymm4, 464(%rsp)
	vmovups	%ymm3, 496(%rsp)
	leaq	(%r12,%r14), %rdx
	addq	$-64, %rdx
	vxorps	%xmm0, %xmm0, %xmm0
	vmovups	%ymm0, 64(%rsp)
	vmovups	%ymm0, 32(%rsp)
	leaq	32(%rsp), %rax
	subq	%rbx, %rax
	cmpq	%rdx, %rax
	leaq	32(%rsp), %rdi
	movq	%rbx, %rsi
	vzeroupper
	callq	PLT(memcpy)
	vmovups	32(%rsp), %ymm0
	vmovups	64(%rsp), %ymm1
	vmovups	%ymm1, 384(%rsp)
	vmovups	%ymm0, 352(%rsp)
	vmovups	496(%rsp), %ymm3
	vmovups	464(%rsp), %ymm4
	jmp	L(23_21)
L(23_19):
	vmovups	(%rbx), %ymm0
	vmovups	32(%rbx), %ymm1
	vmovups	%ymm1, 384(%rsp)
	vmovups	%ymm0, 352(%rsp)
L(23_21):
	addl	%r14d, %r12d
	addl	$-64, %r12d
	vmovups	352(%rsp), %ymm0
	vmovups	%ymm0, 128(%rsp)
	vmovups	384(%rsp), %ymm0
	vmovups	%ymm0, 160(%rsp)
	movl	$26, %r13d
L(23_22):
	vmovups	128(%rsp), %ymm0
	vmovups	160(%rsp), %ymm1
	vmovups	%ymm0, 272(%rsp)
	vmovups	%ymm1, 304(%rsp)
	movq	$0, 336(%rsp)
	movl	%r12d, 344(%rsp)
	movl	%r13d, 348(%rsp)
	cmpq	112(%rsp), %rbp
	jb	L(23_23)
	movq	8(%rsp), %rcx
	leaq	(%rcx,%r14), %rax
	cmpq	$128, %rax
	je	L(23_25)
	vmovups	%ymm4, 464(%rsp)
	vmovups	%ymm3, 496(%rsp)
	leaq	(%rcx,%r14), %rdx
	addq	$-64, %rdx
	vxorps	%xmm0, %xmm0, %xmm0
	vmovups	%ymm0, 64(%rsp)
	vmovups	%ymm0, 32(%rsp)
	leaq	32(%rsp), %rax
	subq	%r15, %rax
	cmpq	%rdx, %rax
	leaq	32(%rsp), %rdi
	movq	%r15, %rsi
	vzeroupper
	callq	PLT(memcpy)
	vmovups	32(%rsp), %ymm0
	vmovups	64(%rsp), %ymm1
	vmovups	%ymm1, 384(%rsp)
	vmovups	%ymm0, 352(%rsp)
	vmovups	496(%rsp), %ymm3
	vmovups	464(%rsp), %ymm4
	jmp	L(23_27)
L(23_25):
	vmovups	(%r15), %ymm0
	vmovups	32(%r15), %ymm1
	vmovups	%ymm1, 384(%rsp)
	vmovups	%ymm0, 352(%rsp)
L(23_27):
	movq	8(%rsp), %rax
	addl	%r14d, %eax
	addl	$-64, %eax
	vmovups	352(%rsp), %ymm0
	vmovups	%ymm0, 128(%rsp)
	vmovups	384(%rsp), %ymm0
	vmovups	%ymm0, 160(%rsp)
	movl	$26, %ecx
	jmp	L(23_28)
L(23_29):
	movq	424(%rsp), %rbp
	leaq	1(%rbp), %rcx
	movq	112(%rsp), %r13
	movq	96(%rsp), %rax
	cmpq	%rax, %r13
	jae	L(23_30)
	cmpq	%rax, %rcx
	movq	(%rsp), %r12
	vmovups	%ymm3, 496(%rsp)
	vmovups	%ymm4, 464(%rsp)
	jae	L(23_32)
	movq	%rbp, %rbx
	notq	%rbx
	addq	%rax, %rbx
	movq	%rbp, %rax
	shlq	$6, %rax
	movq	24(%rsp), %rcx
	leaq	(%rax,%rcx), %r15
	addq	$64, %r15
	vmovaps	%xmm3, %xmm0
	vmovaps	%xmm4, %xmm1
	.p2align	4
L(23_34):
	vmovups	(%r15), %ymm3
	vmovdqu	32(%r15), %ymm2
	vmovdqu	%ymm2, 304(%rsp)
	vmovups	%ymm3, 272(%rsp)
	leaq	192(%rsp), %rdi
	leaq	272(%rsp), %rsi
	xorl	%edx, %edx
	movl	$64, %ecx
	movl	$16, %r8d
	vzeroupper
	callq	"keyed_blake3::compression::compress"
	vmovaps	192(%rsp), %xmm0
	vmovaps	208(%rsp), %xmm1
	addq	$64, %r15
	decq	%rbx
	jne	L(23_34)
	jmp	L(23_35)
L(23_30):
	vmovaps	%xmm4, %xmm5
	vmovaps	%xmm3, %xmm2
	movq	8(%rsp), %r15
	movq	(%rsp), %r12
	vextractf128	$1, %ymm3, %xmm0
	vextractf128	$1, %ymm4, %xmm1
	cmpq	%r13, %rax
	jb	L(23_41)
L(23_40):
	movq	16(%rsp), %rax
	jmp	L(23_48)
L(23_32):
	vmovaps	%xmm4, %xmm1
	vmovaps	%xmm3, %xmm0
L(23_35):
	movq	528(%rsp), %rax
	andl	$1984, %eax
	movq	24(%rsp), %rsi
	addq	%rax, %rsi
	movq	432(%rsp), %r14
	subq	%rax, %r14
	vpxor	%xmm2, %xmm2, %xmm2
	vmovdqu	%ymm2, 192(%rsp)
	cmpq	$64, %r14
	movq	8(%rsp), %r15
	jne	L(23_37)
	vmovups	(%rsi), %ymm3
	vmovdqu	32(%rsi), %ymm2
	vmovdqu	%ymm2, 304(%rsp)
	vmovups	%ymm3, 272(%rsp)
	leaq	192(%rsp), %rdi
	leaq	272(%rsp), %rsi
	xorl	%edx, %edx
	movl	$64, %ecx
	jmp	L(23_38)
L(23_37):
	vmovdqu	%ymm2, 304(%rsp)
	vmovdqu	%ymm2, 272(%rsp)
	leaq	272(%rsp), %rbx
	movq	%rbx, %rdi
	movq	%r14, %rdx
	vmovaps	%xmm1, 448(%rsp)
	vmovaps	%xmm0, 432(%rsp)
	vzeroupper
	callq	PLT(memcpy)
	leaq	192(%rsp), %rdi
	vmovaps	432(%rsp), %xmm0
	vmovaps	448(%rsp), %xmm1
	movq	%rbx, %rsi
	xorl	%edx, %edx
	movl	%r14d, %ecx
L(23_38):
	movl	$26, %r8d
	vzeroupper
	callq	"keyed_blake3::compression::compress"
	vmovaps	208(%rsp), %xmm5
	movq	96(%rsp), %rax
	vmovaps	192(%rsp), %xmm2
	vmovups	496(%rsp), %ymm3
	vmovups	464(%rsp), %ymm4
	leaq	1(%rbp), %rcx
	vextractf128	$1, %ymm3, %xmm0
	vextractf128	$1, %ymm4, %xmm1
	cmpq	%r13, %rax
	jae	L(23_40)
L(23_41):
	vmovaps	%xmm2, 464(%rsp)
	vmovaps	%xmm5, 496(%rsp)
	cmpq	%r13, %rcx
	jae	L(23_44)
	movq	%rbp, %rbx
	notq	%rbx
	addq	%r13, %rbx
	shlq	$6, %rbp
	leaq	(%r12,%rbp), %r14
	addq	$64, %r14
	.p2align	4
L(23_43):
	vmovups	(%r14), %ymm3
	vmovups	32(%r14), %ymm2
	vmovups	%ymm2, 304(%rsp)
	vmovups	%ymm3, 272(%rsp)
	leaq	192(%rsp), %rdi
	leaq	272(%rsp), %rsi
	xorl	%edx, %edx
	movl	$64, %ecx
	movl	$16, %r8d
	vzeroupper
	callq	"keyed_blake3::compression::compress"
	vmovaps	192(%rsp), %xmm0
	vmovaps	208(%rsp), %xmm1
	addq	$64, %r14
	decq	%rbx
	jne	L(23_43)
L(23_44):
	movq	536(%rsp), %rax
	andl	$1984, %eax
	addq	%rax, %r12
	subq	%rax, %r15
	vxorps	%xmm2, %xmm2, %xmm2
	vmovups	%ymm2, 192(%rsp)
	cmpq	$64, %r15
	jne	L(23_46)
	vmovups	(%r12), %ymm3
	vmovups	32(%r12), %ymm2
	vmovups	%ymm2, 304(%rsp)
	vmovups	%ymm3, 272(%rsp)
	leaq	192(%rsp), %rdi
	leaq	272(%rsp), %rsi
	xorl	%edx, %edx
	movl	$64, %ecx
	jmp	L(23_47)
L(23_46):
	vmovups	%ymm2, 304(%rsp)
	vmovups	%ymm2, 272(%rsp)
	leaq	272(%rsp), %rbx
	movq	%rbx, %rdi
	movq	%r12, %rsi
	movq	%r15, %rdx
	vmovaps	%xmm1, 112(%rsp)
	vmovaps	%xmm0, 96(%rsp)
	vzeroupper
	callq	PLT(memcpy)
	leaq	192(%rsp), %rdi
	vmovaps	96(%rsp), %xmm0
	vmovaps	112(%rsp), %xmm1
	movq	%rbx, %rsi
	xorl	%edx, %edx
	movl	%r15d, %ecx
L(23_47):
	movl	$26, %r8d
	vzeroupper
	callq	"keyed_blake3::compression::compress"
	vmovaps	208(%rsp), %xmm1
	movq	16(%rsp), %rax
	vmovaps	192(%rsp), %xmm0
	vmovaps	496(%rsp), %xmm5
	vmovaps	464(%rsp), %xmm2
L(23_48):
	vmovups	%xmm5, 16(%rax)
	vmovups	%xmm2, (%rax)
	vmovups	%xmm1, 48(%rax)
	vmovups	%xmm0, 32(%rax)
L(23_49):
	addq	$616, %rsp
	.cfi_def_cfa_offset 56
	popq	%rbx
	.cfi_def_cfa_offset 48
	popq	%r12
	.cfi_def_cfa_offset 40
	popq	%r13
	.cfi_def_cfa_offset 32
	popq	%r14
	.cfi_def_cfa_offset 24
	popq	%r15
	.cfi_def_cfa_offset 16
	popq	%rbp
	.cfi_def_cfa_offset 8
	vzeroupper
	retq
	SIZE("keyed_blake3::keyed_hash_two")
	.cfi_endproc

CODE(".text.xet_roots::groups::two_parent_hashes")
	.p2align	4
	TYPE("xet_roots::groups::two_parent_hashes", function)
"xet_roots::groups::two_parent_hashes":
	.cfi_startproc
	endbr64
	pushq	%rbp
	.cfi_def_cfa_offset 16
	pushq	%r15
	.cfi_def_cfa_offset 24
	pushq	%r14
	.cfi_def_cfa_offset 32
	pushq	%r13
	.cfi_def_cfa_offset 40
	pushq	%r12
	.cfi_def_cfa_offset 48
	pushq	%rbx
	.cfi_def_cfa_offset 56
	subq	$1656, %rsp
	.cfi_def_cfa_offset 1712
	.cfi_offset %rbx, -56
	.cfi_offset %r12, -48
	.cfi_offset %r13, -40
	.cfi_offset %r14, -32
	.cfi_offset %r15, -24
	.cfi_offset %rbp, -16
	movq	%r8, %r15
	movq	%rcx, %r12
	movq	%rdx, %r13
	movq	%rsi, %rbp
	movq	%rdi, %rbx
	leaq	864(%rsp), %r14
	movl	$792, %edx
	movq	%r14, %rdi
	xorl	%esi, %esi
	callq	PLT(memset)
	movq	%r14, %rdi
	movq	%rbp, %rsi
	movq	%r13, %rdx
	callq	"xet_roots::groups::write_text"
	movq	%rax, %r13
	leaq	72(%rsp), %rbp
	movl	$792, %edx
	movq	%rbp, %rdi
	xorl	%esi, %esi
	callq	PLT(memset)
	movq	%rbp, %rdi
	movq	%r12, %rsi
	movq	%r15, %rdx
	callq	"xet_roots::groups::write_text"
	vxorps	%xmm0, %xmm0, %xmm0
	vmovups	%ymm0, 32(%rsp)
	vmovups	%ymm0, (%rsp)
	movq	%rsp, %rdi
	movq	%r14, %rsi
	movq	%r13, %rdx
	movq	%rbp, %rcx
	movq	%rax, %r8
	vzeroupper
	callq	"keyed_blake3::keyed_hash_two"
	vmovups	(%rsp), %ymm0
	vmovups	32(%rsp), %ymm1
	vmovups	%ymm0, (%rbx)
	vmovups	%ymm1, 32(%rbx)
	addq	$1656, %rsp
	.cfi_def_cfa_offset 56
	popq	%rbx
	.cfi_def_cfa_offset 48
	popq	%r12
	.cfi_def_cfa_offset 40
	popq	%r13
	.cfi_def_cfa_offset 32
	popq	%r14
	.cfi_def_cfa_offset 24
	popq	%r15
	.cfi_def_cfa_offset 16
	popq	%rbp
	.cfi_def_cfa_offset 8
	vzeroupper
	retq
	SIZE("xet_roots::groups::two_parent_hashes")
	.cfi_endproc

	TYPE(D(static.3), object)
CONSTANTS(.rodata..Lstatic.3)
D(static.3):
	.ascii	" : "
	SIZE(D(static.3))

	TYPE(D(static.6), object)
CONSTANTS(.rodata..Lstatic.6)
	.p2align	1, 0x0
D(static.6):
	.ascii	"00010203040506070809101112131415161718192021222324252627282930313233343536373839404142434445464748495051525354555657585960616263646566676869707172737475767778798081828384858687888990919293949596979899"
	SIZE(D(static.6))

	TYPE(D(static.7), object)
SIZED(32, 5)
D(static.7):
	.ascii	"\001~\305\307\245G)\226\375\224ff\264\212\002\346]\335So7\307m\322\370cR\346JSq?"
	SIZE(D(static.7))

NO_STACK
ADDRESSES(.data.rel.ro.yurewha_x86_64_v3_kernels)
	.p2align	3, 0x0
	.globl	C(yurewha_x86_64_v3_kernels)
	HIDDEN(C(yurewha_x86_64_v3_kernels))
	TYPE(C(yurewha_x86_64_v3_kernels), object)
C(yurewha_x86_64_v3_kernels):
	.quad	"keyed_blake3::keyed_hash"
	.quad	"keyed_blake3::compression::compress"
	.quad	"keyed_blake3::hasher::Hasher::update"
	.quad	"keyed_blake3::hasher::Hasher::finalize"
	.quad	"xet_roots::groups::two_parent_hashes"
	.quad	"xet_roots::groups::parent_hashes"
	.quad	"xet_roots::groups::write_text"
	SIZE(C(yurewha_x86_64_v3_kernels))

#else
NO_STACK
#endif
END
