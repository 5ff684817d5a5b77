/* Yurewha 1.1.0 for x86-64-v4: the kernels of the proved library, as the toolchain compiles it. Made by dist/make, not by hand.
   The sum of its sources: 9f27598952ba9691f7deda6fc4a73bcce6b881aa2a1edd98ac143c424a08c115 */
#include "assembly.h"
#ifdef __x86_64__
CODE(".text.keyed_blake3::keyed_hash")
	.p2align	4
	TYPE("keyed_blake3::keyed_hash", function)
"keyed_blake3::keyed_hash":
	.cfi_startproc
	endbr64
	pushq	%rbp
	.cfi_def_cfa_offset 16
	pushq	%r15
	.cfi_def_cfa_offset 24
	pushq	%r14
	.cfi_def_cfa_offset 32
	pushq	%r13
	.cfi_def_cfa_offset 40
	pushq	%r12
	.cfi_def_cfa_offset 48
	pushq	%rbx
	.cfi_def_cfa_offset 56
	subq	$2024, %rsp
	.cfi_def_cfa_offset 2080
	.cfi_offset %rbx, -56
	.cfi_offset %r12, -48
	.cfi_offset %r13, -40
	.cfi_offset %r14, -32
	.cfi_offset %r15, -24
	.cfi_offset %rbp, -16
	movq	%rcx, %r14
	movq	%rdx, %rbx
	movq	%rsi, %r12
	movq	%rdi, %r15
	vxorps	%xmm0, %xmm0, %xmm0
	vmovups	%ymm0, 32(%rsp)
	cmpq	$1025, %rcx
	jae	L(1_1)
	vmovups	(%r12), %xmm0
	vmovups	16(%r12), %xmm1
	cmpq	$1, %r14
	movq	%r14, %r12
	adcq	$-1, %r12
	movq	%r12, %r13
	shrq	$6, %r13
	je	L(1_4)
	movq	%r15, 64(%rsp)
	xorl	%ebp, %ebp
	movq	%rbx, %r15
	.p2align	4
L(1_6):
	cmpq	$1, %rbp
	movl	$0, %r8d
	adcl	$16, %r8d
	vmovups	(%r15), %ymm3
	vmovups	32(%r15), %ymm2
	vmovups	%ymm2, 112(%rsp)
	vmovups	%ymm3, 80(%rsp)
	movq	%rsp, %rdi
	leaq	80(%rsp), %rsi
	xorl	%edx, %edx
	movl	$64, %ecx
	vzeroupper
	callq	"keyed_blake3::compression::compress"
	vmovaps	(%rsp), %xmm0
	vmovaps	16(%rsp), %xmm1
	incq	%rbp
	addq	$64, %r15
	cmpq	%rbp, %r13
	jne	L(1_6)
	movl	$26, %ebp
	movq	64(%rsp), %r15
	jmp	L(1_8)
L(1_1):
	leaq	224(%rsp), %rdi
	movl	$1800, %edx
	xorl	%esi, %esi
	vzeroupper
	callq	PLT(memset)
	vmovups	(%r12), %ymm0
	vmovups	%ymm0, 192(%rsp)
	vmovups	(%r12), %ymm0
	vmovups	%ymm0, 160(%rsp)
	leaq	160(%rsp), %r12
	movq	%r12, %rdi
	movq	%rbx, %rsi
	movq	%r14, %rdx
	vzeroupper
	callq	"keyed_blake3::hasher::Hasher::update"
	leaq	32(%rsp), %rdi
	movq	%r12, %rsi
	callq	"keyed_blake3::hasher::Hasher::finalize"
	vmovups	32(%rsp), %ymm0
	vmovups	%ymm0, (%r15)
	jmp	L(1_2)
L(1_4):
	movl	$27, %ebp
L(1_8):
	andl	$1984, %r12d
	addq	%r12, %rbx
	subq	%r12, %r14
	vxorps	%xmm2, %xmm2, %xmm2
	vmovups	%ymm2, (%rsp)
	cmpq	$64, %r14
	jne	L(1_10)
	vmovups	(%rbx), %ymm3
	vmovups	32(%rbx), %ymm2
	vmovups	%ymm2, 112(%rsp)
	vmovups	%ymm3, 80(%rsp)
	movq	%rsp, %rdi
	leaq	80(%rsp), %rsi
	xorl	%edx, %edx
	movl	$64, %ecx
	jmp	L(1_11)
L(1_10):
	vmovups	%ymm2, 112(%rsp)
	vmovups	%ymm2, 80(%rsp)
	leaq	80(%rsp), %r12
	movq	%r12, %rdi
	movq	%rbx, %rsi
	movq	%r14, %rdx
	vmovaps	%xmm1, 64(%rsp)
	vmovaps	%xmm0, 144(%rsp)
	vzeroupper
	callq	PLT(memcpy)
	movq	%rsp, %rdi
	vmovaps	144(%rsp), %xmm0
	vmovaps	64(%rsp), %xmm1
	movq	%r12, %rsi
	xorl	%edx, %edx
	movl	%r14d, %ecx
L(1_11):
	movl	%ebp, %r8d
	vzeroupper
	callq	"keyed_blake3::compression::compress"
	vmovups	4(%rsp), %xmm0
	vmovsd	20(%rsp), %xmm1
	movl	28(%rsp), %eax
	movl	(%rsp), %ecx
	movl	%ecx, 32(%rsp)
	vmovups	%xmm0, 36(%rsp)
	vmovlps	%xmm1, 52(%rsp)
	movl	%eax, 60(%rsp)
	movl	32(%rsp), %eax
	movl	%eax, (%r15)
	vmovups	36(%rsp), %xmm0
	vmovups	%xmm0, 4(%r15)
	movq	52(%rsp), %rax
	movq	%rax, 20(%r15)
	movl	60(%rsp), %eax
	movl	%eax, 28(%r15)
L(1_2):
	addq	$2024, %rsp
	.cfi_def_cfa_offset 56
	popq	%rbx
	.cfi_def_cfa_offset 48
	popq	%r12
	.cfi_def_cfa_offset 40
	popq	%r13
	.cfi_def_cfa_offset 32
	popq	%r14
	.cfi_def_cfa_offset 24
	popq	%r15
	.cfi_def_cfa_offset 16
	popq	%rbp
	.cfi_def_cfa_offset 8
	vzeroupper
	retq
	SIZE("keyed_blake3::keyed_hash")
	.cfi_endproc

SIZED(16, 4)
	.p2align	4, 0x0
D(CPI2_0):
	.long	6
	.long	0
	.long	2
	.long	4
D(CPI2_1):
	.long	7
	.long	1
	.long	3
	.long	5
D(CPI2_2):
	.long	1779033703
	.long	3144134277
	.long	1013904242
	.long	2773480762
D(CPI2_3):
	.long	4
	.long	2
	.long	3
	.long	7
D(CPI2_4):
	.long	3
	.long	6
	.long	0
	.zero	4
D(CPI2_5):
	.long	0
	.long	2
	.long	4
	.long	1
D(CPI2_6):
	.long	0
	.long	3
	.zero	4
	.long	6
D(CPI2_7):
	.long	0
	.long	4
	.long	1
	.long	4
D(CPI2_8):
	.long	0
	.long	2
	.long	5
	.long	1
D(CPI2_9):
	.long	3
	.long	5
	.long	2
	.zero	4
D(CPI2_10):
	.long	0
	.long	2
	.long	7
	.long	1
D(CPI2_11):
	.long	5
	.long	3
	.long	2
	.long	3
D(CPI2_12):
	.long	4
	.long	2
	.long	3
	.long	1
D(CPI2_13):
	.long	1
	.long	5
	.long	7
	.long	3
D(CPI2_14):
	.long	3
	.long	2
	.long	1
	.long	7
D(CPI2_15):
	.long	3
	.long	4
	.long	1
	.zero	4
D(CPI2_16):
	.long	3
	.long	7
	.long	1
	.long	2
D(CPI2_17):
	.long	3
	.long	5
	.long	6
	.long	0
D(CPI2_19):
	.long	3
	.long	6
	.long	0
	.long	0
SIZED(32, 5)
	.p2align	5, 0x0
D(CPI2_18):
	.long	1
	.long	2
	.long	3
	.long	0
	.long	10
	.long	11
	.long	8
	.long	9
CODE(".text.keyed_blake3::compression::compress")
	.p2align	4
	TYPE("keyed_blake3::compression::compress", function)
"keyed_blake3::compression::compress":
	.cfi_startproc
	endbr64
	pushq	%rbp
	.cfi_def_cfa_offset 16
	.cfi_offset %rbp, -16
	movq	%rsp, %rbp
	.cfi_def_cfa_register %rbp
	andq	$-64, %rsp
	subq	$64, %rsp
	vmovq	%rdx, %xmm2
	vpinsrd	$2, %ecx, %xmm2, %xmm2
	vpinsrd	$3, %r8d, %xmm2, %xmm7
	vmovups	(%rsi), %xmm3
	vmovups	16(%rsi), %xmm4
	vmovups	32(%rsi), %xmm2
	vmovdqu	48(%rsi), %xmm13
	vmovdqu	(%rsi), %ymm9
	vpmovqd	%ymm9, %xmm10
	vshufps	$221, %xmm4, %xmm3, %xmm6
	vmovdqa	D(CPI2_0)(%rip), %xmm5
	vmovdqu	32(%rsi), %ymm11
	vpermd	%ymm11, %ymm5, %ymm8
	vpbroadcastd	%xmm13, %xmm20
	vmovdqa	D(CPI2_1)(%rip), %xmm12
	vpermd	%ymm11, %ymm12, %ymm12
	vpaddd	%xmm0, %xmm1, %xmm0
	vpaddd	%xmm0, %xmm10, %xmm0
	vpxor	%xmm7, %xmm0, %xmm7
	vprold	$16, %xmm7, %xmm7
	vpaddd	D(CPI2_2)(%rip), %xmm7, %xmm14
	vpxor	%xmm1, %xmm14, %xmm1
	vprold	$20, %xmm1, %xmm1
	vpaddd	%xmm6, %xmm0, %xmm0
	vpaddd	%xmm1, %xmm0, %xmm0
	vpxor	%xmm7, %xmm0, %xmm7
	vprold	$24, %xmm7, %xmm7
	vpaddd	%xmm7, %xmm14, %xmm14
	vpxor	%xmm1, %xmm14, %xmm1
	vprold	$25, %xmm1, %xmm1
	vpshufd	$147, %xmm0, %xmm0
	vpshufd	$57, %xmm14, %xmm14
	vpshufd	$78, %xmm7, %xmm7
	vpaddd	%xmm0, %xmm8, %xmm0
	vpaddd	%xmm1, %xmm0, %xmm0
	vpxor	%xmm7, %xmm0, %xmm7
	vprold	$16, %xmm7, %xmm7
	vpaddd	%xmm7, %xmm14, %xmm8
	vpxor	%xmm1, %xmm8, %xmm1
	vprold	$20, %xmm1, %xmm1
	vpaddd	%xmm0, %xmm12, %xmm0
	vpaddd	%xmm1, %xmm0, %xmm15
	vpxor	%xmm7, %xmm15, %xmm0
	vprold	$24, %xmm0, %xmm0
	vpaddd	%xmm0, %xmm8, %xmm7
	vpxor	%xmm1, %xmm7, %xmm1
	vprold	$25, %xmm1, %xmm14
	vpshufd	$147, %xmm7, %xmm16
	vpshufd	$78, %xmm0, %xmm18
	vmovdqa	D(CPI2_3)(%rip), %xmm0
	vpermd	%ymm9, %ymm0, %ymm0
	vmovsd	D(CPI2_19)(%rip), %xmm1
	vpermi2ps	%xmm2, %xmm10, %xmm1
	vblendps	$8, %xmm12, %xmm1, %xmm1
	vmovlhps	%xmm6, %xmm12, %xmm7
	vmovdqa64	D(CPI2_5)(%rip), %xmm19
	vinsertps	$140, %xmm7, %xmm4, %xmm17
	vpermt2d	%xmm13, %xmm19, %xmm7
	vmovdqa	D(CPI2_6)(%rip), %xmm8
	vpermd	%ymm11, %ymm8, %ymm8
	vpblendd	$4, %xmm6, %xmm8, %xmm5
	vpaddd	%xmm0, %xmm15, %xmm15
	vpshufd	$57, %xmm15, %xmm15
	vpaddd	%xmm15, %xmm14, %xmm15
	vpxord	%xmm18, %xmm15, %xmm18
	vprold	$16, %xmm18, %xmm18
	vpaddd	%xmm16, %xmm18, %xmm16
	vpxord	%xmm14, %xmm16, %xmm14
	vprold	$20, %xmm14, %xmm14
	vpaddd	%xmm1, %xmm15, %xmm15
	vpaddd	%xmm14, %xmm15, %xmm15
	vpxord	%xmm18, %xmm15, %xmm18
	vprold	$24, %xmm18, %xmm18
	vpaddd	%xmm16, %xmm18, %xmm16
	vpxord	%xmm14, %xmm16, %xmm14
	vprold	$25, %xmm14, %xmm14
	vpshufd	$147, %xmm15, %xmm15
	vpaddd	%xmm7, %xmm15, %xmm7
	vpshufd	$57, %xmm16, %xmm15
	vpshufd	$78, %xmm18, %xmm16
	vpaddd	%xmm7, %xmm14, %xmm7
	vpxord	%xmm16, %xmm7, %xmm16
	vprold	$16, %xmm16, %xmm16
	vpaddd	%xmm15, %xmm16, %xmm15
	vpxor	%xmm14, %xmm15, %xmm14
	vprold	$20, %xmm14, %xmm14
	vpaddd	%xmm5, %xmm7, %xmm5
	vpaddd	%xmm5, %xmm14, %xmm5
	vpxord	%xmm16, %xmm5, %xmm7
	vprold	$24, %xmm7, %xmm7
	vpaddd	%xmm7, %xmm15, %xmm15
	vpxor	%xmm14, %xmm15, %xmm14
	vprold	$25, %xmm14, %xmm18
	vpshufd	$147, %xmm15, %xmm15
	vpshufd	$78, %xmm7, %xmm21
	vshufps	$219, %xmm1, %xmm0, %xmm22
	vmovdqa	D(CPI2_7)(%rip), %xmm7
	vpermi2d	%xmm13, %xmm0, %xmm7
	vpblendd	$8, %xmm8, %xmm7, %xmm14
	vmovdqa64	%ymm8, %ymm24
	vshufps	$236, %xmm4, %xmm2, %xmm13
	vmovaps	D(CPI2_8)(%rip), %xmm16
	vpermt2ps	%xmm2, %xmm16, %xmm13
	vshufps	$40, %xmm12, %xmm6, %xmm23
	vinsertps	$32, %xmm3, %xmm23, %xmm23
	vpaddd	%xmm22, %xmm5, %xmm5
	vpshufd	$57, %xmm5, %xmm5
	vpaddd	%xmm5, %xmm18, %xmm5
	vpxord	%xmm21, %xmm5, %xmm21
	vprold	$16, %xmm21, %xmm21
	vpaddd	%xmm15, %xmm21, %xmm15
	vpxord	%xmm18, %xmm15, %xmm18
	vprold	$20, %xmm18, %xmm18
	vpaddd	%xmm5, %xmm14, %xmm5
	vpaddd	%xmm18, %xmm5, %xmm5
	vpxord	%xmm21, %xmm5, %xmm21
	vprold	$24, %xmm21, %xmm21
	vpaddd	%xmm15, %xmm21, %xmm15
	vpxord	%xmm18, %xmm15, %xmm18
	vprold	$25, %xmm18, %xmm18
	vpshufd	$147, %xmm5, %xmm5
	vpaddd	%xmm5, %xmm13, %xmm5
	vpshufd	$57, %xmm15, %xmm13
	vpshufd	$78, %xmm21, %xmm15
	vpaddd	%xmm18, %xmm5, %xmm5
	vpxor	%xmm5, %xmm15, %xmm15
	vprold	$16, %xmm15, %xmm15
	vpaddd	%xmm13, %xmm15, %xmm13
	vpxord	%xmm18, %xmm13, %xmm18
	vprold	$20, %xmm18, %xmm18
	vpaddd	%xmm23, %xmm5, %xmm5
	vpaddd	%xmm18, %xmm5, %xmm5
	vpxor	%xmm5, %xmm15, %xmm15
	vprold	$24, %xmm15, %xmm15
	vpaddd	%xmm13, %xmm15, %xmm13
	vpxord	%xmm18, %xmm13, %xmm18
	vprold	$25, %xmm18, %xmm18
	vpshufd	$147, %xmm13, %xmm21
	vpshufd	$78, %xmm15, %xmm22
	vshufps	$215, %xmm14, %xmm1, %xmm15
	vmovdqa	D(CPI2_9)(%rip), %xmm13
	vpermi2d	%xmm2, %xmm0, %xmm13
	vinsertps	$48, %xmm12, %xmm13, %xmm13
	vmovlhps	%xmm7, %xmm17, %xmm12
	vmovdqa	D(CPI2_10)(%rip), %xmm7
	vpermi2d	%xmm2, %xmm12, %xmm7
	vshufps	$35, %xmm2, %xmm10, %xmm8
	vblendps	$4, %xmm3, %xmm8, %xmm8
	vpaddd	%xmm5, %xmm15, %xmm5
	vpshufd	$57, %xmm5, %xmm5
	vpaddd	%xmm5, %xmm18, %xmm5
	vpxord	%xmm22, %xmm5, %xmm17
	vprold	$16, %xmm17, %xmm17
	vpaddd	%xmm21, %xmm17, %xmm21
	vpxord	%xmm18, %xmm21, %xmm18
	vprold	$20, %xmm18, %xmm18
	vpaddd	%xmm5, %xmm13, %xmm5
	vpaddd	%xmm18, %xmm5, %xmm5
	vpxord	%xmm17, %xmm5, %xmm17
	vprold	$24, %xmm17, %xmm17
	vpaddd	%xmm21, %xmm17, %xmm21
	vpxord	%xmm18, %xmm21, %xmm18
	vprold	$25, %xmm18, %xmm18
	vpshufd	$147, %xmm5, %xmm5
	vpaddd	%xmm7, %xmm5, %xmm5
	vpshufd	$57, %xmm21, %xmm7
	vpshufd	$78, %xmm17, %xmm17
	vpaddd	%xmm18, %xmm5, %xmm5
	vpxord	%xmm17, %xmm5, %xmm17
	vprold	$16, %xmm17, %xmm17
	vpaddd	%xmm7, %xmm17, %xmm7
	vpxord	%xmm18, %xmm7, %xmm18
	vprold	$20, %xmm18, %xmm18
	vpaddd	%xmm5, %xmm8, %xmm5
	vpaddd	%xmm18, %xmm5, %xmm5
	vpxord	%xmm17, %xmm5, %xmm8
	vprold	$24, %xmm8, %xmm8
	vpaddd	%xmm7, %xmm8, %xmm7
	vpxord	%xmm18, %xmm7, %xmm17
	vprold	$25, %xmm17, %xmm17
	vpshufd	$147, %xmm7, %xmm7
	vpshufd	$78, %xmm8, %xmm8
	vmovdqa64	D(CPI2_11)(%rip), %xmm18
	vpermd	%ymm11, %ymm18, %ymm11
	vinsertps	$48, %xmm2, %xmm11, %xmm11
	vshufps	$243, %xmm0, %xmm10, %xmm18
	vpermt2ps	%xmm4, %xmm16, %xmm18
	vmovdqa	D(CPI2_12)(%rip), %xmm10
	vpermd	%ymm9, %ymm10, %ymm10
	vpshufd	$57, %xmm5, %xmm5
	vmovaps	D(CPI2_13)(%rip), %xmm9
	vpblendd	$4, %xmm6, %xmm14, %xmm6
	vpermt2ps	%xmm13, %xmm9, %xmm14
	vpaddd	%xmm5, %xmm14, %xmm5
	vpaddd	%xmm5, %xmm17, %xmm5
	vpxor	%xmm5, %xmm8, %xmm8
	vprold	$16, %xmm8, %xmm8
	vpaddd	%xmm7, %xmm8, %xmm7
	vpxord	%xmm17, %xmm7, %xmm14
	vprold	$20, %xmm14, %xmm14
	vpaddd	%xmm5, %xmm11, %xmm5
	vpaddd	%xmm5, %xmm14, %xmm5
	vpxor	%xmm5, %xmm8, %xmm8
	vprold	$24, %xmm8, %xmm8
	vpaddd	%xmm7, %xmm8, %xmm7
	vpxor	%xmm7, %xmm14, %xmm14
	vprold	$25, %xmm14, %xmm14
	vpshufd	$147, %xmm5, %xmm5
	vpaddd	%xmm18, %xmm5, %xmm5
	vpshufd	$57, %xmm7, %xmm7
	vpshufd	$78, %xmm8, %xmm8
	vpaddd	%xmm5, %xmm14, %xmm5
	vpxor	%xmm5, %xmm8, %xmm8
	vprold	$16, %xmm8, %xmm8
	vpaddd	%xmm7, %xmm8, %xmm7
	vpxor	%xmm7, %xmm14, %xmm14
	vprold	$20, %xmm14, %xmm14
	vpaddd	%xmm5, %xmm10, %xmm5
	vpaddd	%xmm5, %xmm14, %xmm5
	vpxor	%xmm5, %xmm8, %xmm8
	vprold	$24, %xmm8, %xmm8
	vpaddd	%xmm7, %xmm8, %xmm7
	vpxor	%xmm7, %xmm14, %xmm14
	vprold	$25, %xmm14, %xmm14
	vpshufd	$147, %xmm7, %xmm7
	vpshufd	$78, %xmm8, %xmm8
	vmovdqa64	D(CPI2_14)(%rip), %xmm16
	vpermi2d	%xmm10, %xmm6, %xmm16
	vpunpcklqdq	%xmm15, %xmm0, %xmm10
	vpermt2d	%xmm3, %xmm19, %xmm10
	vshufps	$171, %xmm4, %xmm0, %xmm15
	vblendps	$4, %xmm2, %xmm15, %xmm15
	vpshufd	$57, %xmm5, %xmm5
	vpermi2ps	%xmm11, %xmm13, %xmm9
	vpaddd	%xmm5, %xmm9, %xmm5
	vpaddd	%xmm5, %xmm14, %xmm5
	vpxor	%xmm5, %xmm8, %xmm8
	vprold	$16, %xmm8, %xmm8
	vpaddd	%xmm7, %xmm8, %xmm7
	vpxor	%xmm7, %xmm14, %xmm9
	vprold	$20, %xmm9, %xmm9
	vpaddd	%xmm16, %xmm5, %xmm5
	vpaddd	%xmm5, %xmm9, %xmm5
	vpxor	%xmm5, %xmm8, %xmm8
	vprold	$24, %xmm8, %xmm8
	vpaddd	%xmm7, %xmm8, %xmm7
	vpxor	%xmm7, %xmm9, %xmm9
	vprold	$25, %xmm9, %xmm9
	vpshufd	$147, %xmm5, %xmm5
	vpaddd	%xmm5, %xmm10, %xmm5
	vpshufd	$57, %xmm7, %xmm7
	vpshufd	$78, %xmm8, %xmm8
	vpaddd	%xmm5, %xmm9, %xmm5
	vpxor	%xmm5, %xmm8, %xmm8
	vprold	$16, %xmm8, %xmm8
	vpaddd	%xmm7, %xmm8, %xmm7
	vpxor	%xmm7, %xmm9, %xmm9
	vprold	$20, %xmm9, %xmm9
	vpaddd	%xmm5, %xmm15, %xmm5
	vpaddd	%xmm5, %xmm9, %xmm5
	vpxor	%xmm5, %xmm8, %xmm8
	vprold	$24, %xmm8, %xmm8
	vpaddd	%xmm7, %xmm8, %xmm7
	vpxor	%xmm7, %xmm9, %xmm9
	vprold	$25, %xmm9, %xmm9
	vpshufd	$147, %xmm7, %xmm7
	vpshufd	$78, %xmm8, %xmm8
	vmovdqa	D(CPI2_15)(%rip), %xmm10
	vpermi2d	%xmm3, %xmm13, %xmm10
	vinsertps	$176, %xmm4, %xmm10, %xmm4
	vmovdqa	D(CPI2_16)(%rip), %xmm10
	vpermi2d	%xmm24, %xmm0, %xmm10
	vshufps	$167, %xmm12, %xmm1, %xmm0
	vinsertps	$224, %xmm20, %xmm0, %xmm0
	vpshufd	$57, %xmm5, %xmm1
	vshufps	$91, %xmm3, %xmm6, %xmm3
	vmovaps	D(CPI2_17)(%rip), %xmm5
	vpermi2ps	%xmm3, %xmm2, %xmm5
	vpaddd	%xmm5, %xmm1, %xmm1
	vpaddd	%xmm1, %xmm9, %xmm1
	vpxor	%xmm1, %xmm8, %xmm2
	vprold	$16, %xmm2, %xmm2
	vpaddd	%xmm7, %xmm2, %xmm3
	vpxor	%xmm3, %xmm9, %xmm5
	vprold	$20, %xmm5, %xmm5
	vpaddd	%xmm4, %xmm1, %xmm1
	vpaddd	%xmm5, %xmm1, %xmm1
	vpxor	%xmm2, %xmm1, %xmm2
	vprold	$24, %xmm2, %xmm2
	vpaddd	%xmm3, %xmm2, %xmm3
	vpxor	%xmm5, %xmm3, %xmm4
	vprold	$25, %xmm4, %xmm4
	vpshufd	$147, %xmm1, %xmm1
	vpaddd	%xmm1, %xmm10, %xmm1
	vpshufd	$57, %xmm3, %xmm3
	vpshufd	$78, %xmm2, %xmm2
	vpaddd	%xmm4, %xmm1, %xmm1
	vpxor	%xmm2, %xmm1, %xmm2
	vprold	$16, %xmm2, %xmm2
	vpaddd	%xmm3, %xmm2, %xmm3
	vpxor	%xmm4, %xmm3, %xmm4
	vprold	$20, %xmm4, %xmm4
	vpaddd	%xmm0, %xmm1, %xmm0
	vpaddd	%xmm4, %xmm0, %xmm0
	vpxor	%xmm2, %xmm0, %xmm1
	vprold	$24, %xmm1, %xmm1
	vpaddd	%xmm3, %xmm1, %xmm2
	vpxor	%xmm4, %xmm2, %xmm3
	vprold	$25, %xmm3, %xmm3
	vpshufd	$147, %xmm2, %xmm2
	vinserti128	$1, %xmm3, %ymm2, %ymm2
	vmovdqa	D(CPI2_18)(%rip), %ymm3
	vpermi2d	%ymm1, %ymm0, %ymm3
	vpxor	%ymm3, %ymm2, %ymm0
	vmovdqu	%ymm0, (%rdi)
	movq	%rbp, %rsp
	popq	%rbp
	.cfi_def_cfa %rsp, 8
	vzeroupper
	retq
	SIZE("keyed_blake3::compression::compress")
	.cfi_endproc

CODE(".text.keyed_blake3::hasher::Hasher::update")
	.p2align	4
	TYPE("keyed_blake3::hasher::Hasher::update", function)
"keyed_blake3::hasher::Hasher::update":
	.cfi_startproc
	endbr64
	pushq	%rbp
	.cfi_def_cfa_offset 16
	pushq	%r15
	.cfi_def_cfa_offset 24
	pushq	%r14
	.cfi_def_cfa_offset 32
	pushq	%r13
	.cfi_def_cfa_offset 40
	pushq	%r12
	.cfi_def_cfa_offset 48
	pushq	%rbx
	.cfi_def_cfa_offset 56
	subq	$168, %rsp
	.cfi_def_cfa_offset 224
	.cfi_offset %rbx, -56
	.cfi_offset %r12, -48
	.cfi_offset %r13, -40
	.cfi_offset %r14, -32
	.cfi_offset %r15, -24
	.cfi_offset %rbp, -16
	testq	%rdx, %rdx
	je	L(3_105)
	movq	%rdx, %rbp
	movq	%rsi, %r14
	movq	1856(%rdi), %rbx
	cmpq	$1025, %rbx
	setb	%al
	testl	$1023, %ebx
	setne	%cl
	orb	%al, %cl
	movq	%rdi, 8(%rsp)
	jne	L(3_5)
	movq	%rbx, %rax
	shrq	$10, %rax
	blsrq	%rax, %rax
	jne	L(3_4)
	vmovups	64(%rdi), %ymm0
	vmovups	%ymm0, 32(%rsp)
	vmovups	96(%rdi), %ymm0
	vmovups	%ymm0, 64(%rsp)
	vmovups	(%rdi), %xmm0
	vmovups	16(%rdi), %xmm1
	movq	%rdi, %r15
	leaq	104(%rsp), %rdi
	leaq	32(%rsp), %rsi
	xorl	%edx, %edx
	movl	$64, %ecx
	movl	$20, %r8d
	vzeroupper
	callq	"keyed_blake3::compression::compress"
	vmovups	104(%rsp), %ymm0
	vmovups	%ymm0, 64(%r15)
L(3_4):
	movq	%rbx, %r13
	jmp	L(3_6)
L(3_5):
	cmpq	$1, %rbx
	movq	%rbx, %r13
	adcq	$-1, %r13
L(3_6):
	movq	%r13, %rcx
	andq	$-64, %rcx
	movq	%rbx, %rax
	subq	%rcx, %rax
	leaq	(%rbx,%rbp), %rdx
	movq	8(%rsp), %rsi
	movq	%rdx, 1856(%rsi)
	movl	$64, %r12d
	subq	%rax, %r12
	cmpq	%r12, %rbp
	jbe	L(3_9)
	movq	%r13, %r15
	shrq	$6, %r15
	movq	%rbx, %rdx
	subq	%rcx, %rdx
	movq	%rbp, 24(%rsp)
	jne	L(3_12)
	xorl	%r12d, %r12d
	movq	8(%rsp), %r13
	movq	%rbp, %rax
	subq	%r12, %rax
	cmpq	$65, %rax
	jae	L(3_51)
	jmp	L(3_87)
L(3_9):
	leaq	(%rsi,%rax), %rdi
	addq	$1792, %rdi
	movq	%rdi, %rdx
	subq	%r14, %rdx
	cmpq	%rbp, %rdx
	movq	%rsi, %r12
	jae	L(3_16)
	cmpq	$8, %rbp
	jb	L(3_11)
	addq	%r12, %rbx
	addq	%r14, %rcx
	subq	%rcx, %rbx
	addq	$1792, %rbx
	cmpq	$128, %rbx
	jae	L(3_20)
L(3_11):
	xorl	%ecx, %ecx
L(3_31):
	movq	%rbp, %rsi
	movq	%rcx, %rdx
	andq	$7, %rsi
	je	L(3_34)
	movq	%rcx, %rdx
	.p2align	4
L(3_33):
	movzbl	(%r14,%rdx), %r8d
	movb	%r8b, (%rdi,%rdx)
	incq	%rdx
	decq	%rsi
	jne	L(3_33)
L(3_34):
	subq	%rbp, %rcx
	cmpq	$-8, %rcx
	ja	L(3_37)
	addq	%r12, %rax
	addq	$1799, %rax
	.p2align	4
L(3_36):
	movzbl	(%r14,%rdx), %ecx
	movb	%cl, -7(%rax,%rdx)
	movzbl	1(%r14,%rdx), %ecx
	movb	%cl, -6(%rax,%rdx)
	movzbl	2(%r14,%rdx), %ecx
	movb	%cl, -5(%rax,%rdx)
	movzbl	3(%r14,%rdx), %ecx
	movb	%cl, -4(%rax,%rdx)
	movzbl	4(%r14,%rdx), %ecx
	movb	%cl, -3(%rax,%rdx)
	movzbl	5(%r14,%rdx), %ecx
	movb	%cl, -2(%rax,%rdx)
	movzbl	6(%r14,%rdx), %ecx
	movb	%cl, -1(%rax,%rdx)
	movzbl	7(%r14,%rdx), %ecx
	movb	%cl, (%rax,%rdx)
	addq	$8, %rdx
	cmpq	%rdx, %rbp
	jne	L(3_36)
	jmp	L(3_37)
L(3_12):
	movq	8(%rsp), %rsi
	leaq	(%rsi,%rax), %rdi
	addq	$1792, %rdi
	movq	%rdi, %rax
	subq	%r14, %rax
	cmpq	%r12, %rax
	jae	L(3_19)
	cmpq	$8, %r12
	jb	L(3_15)
	addq	8(%rsp), %rbx
	addq	%r14, %rcx
	subq	%rcx, %rbx
	addq	$1792, %rbx
	cmpq	$128, %rbx
	jae	L(3_22)
L(3_15):
	xorl	%eax, %eax
	jmp	L(3_45)
L(3_16):
	movq	%r14, %rsi
	movq	%rbp, %rdx
	vzeroupper
	callq	PLT(memmove)
L(3_37):
	movq	1856(%r12), %r14
	cmpq	$1025, %r14
	setb	%al
	testl	$1023, %r14d
	setne	%cl
	orb	%al, %cl
	jne	L(3_105)
	leaq	1792(%r12), %rax
	shrq	$10, %r14
	decq	%r14
	vmovups	(%rax), %ymm0
	vmovups	32(%rax), %ymm1
	vmovups	%ymm1, 64(%rsp)
	vmovups	%ymm0, 32(%rsp)
	vmovups	32(%r12), %xmm0
	vmovups	48(%r12), %xmm1
	leaq	104(%rsp), %r15
	leaq	32(%rsp), %rsi
	movq	%r15, %rdi
	movq	%r14, %rdx
	movl	$64, %ecx
	movl	$18, %r8d
	vzeroupper
	callq	"keyed_blake3::compression::compress"
	leaq	64(%r12), %rdi
	movl	$1, %r8d
	movq	%r12, %rsi
	movq	%r14, %rdx
	movq	%r15, %rcx
	callq	"keyed_blake3::tree::add_subtree_value"
	vmovups	(%r12), %ymm0
	vmovups	%ymm0, 32(%r12)
	jmp	L(3_105)
L(3_19):
	movq	%r14, %rsi
	movq	%r12, %rdx
	vzeroupper
	callq	PLT(memmove)
	jmp	L(3_47)
L(3_20):
	cmpq	$128, %rbp
	jae	L(3_24)
	xorl	%ecx, %ecx
	jmp	L(3_28)
L(3_22):
	cmpq	$128, %r12
	jae	L(3_39)
	xorl	%eax, %eax
	jmp	L(3_43)
L(3_24):
	movq	%rbp, %rcx
	andq	$-128, %rcx
	leaq	(%rax,%r12), %rdx
	addq	$1888, %rdx
	xorl	%esi, %esi
	.p2align	4
L(3_25):
	vmovups	(%r14,%rsi), %ymm0
	vmovups	32(%r14,%rsi), %ymm1
	vmovups	64(%r14,%rsi), %ymm2
	vmovups	96(%r14,%rsi), %ymm3
	vmovups	%ymm0, -96(%rdx,%rsi)
	vmovups	%ymm1, -64(%rdx,%rsi)
	vmovups	%ymm2, -32(%rdx,%rsi)
	vmovups	%ymm3, (%rdx,%rsi)
	subq	$-128, %rsi
	cmpq	%rsi, %rcx
	jne	L(3_25)
	cmpq	%rcx, %rbp
	je	L(3_37)
	testb	$120, %bpl
	je	L(3_31)
L(3_28):
	movq	%rcx, %rdx
	movq	%rbp, %rcx
	andq	$-8, %rcx
	.p2align	4
L(3_29):
	movq	(%r14,%rdx), %rsi
	movq	%rsi, (%rdi,%rdx)
	addq	$8, %rdx
	cmpq	%rdx, %rcx
	jne	L(3_29)
	cmpq	%rcx, %rbp
	je	L(3_37)
	jmp	L(3_31)
L(3_39):
	movq	%r12, %rax
	andq	$-128, %rax
	movq	8(%rsp), %rcx
	addq	%rdx, %rcx
	addq	$1888, %rcx
	xorl	%edx, %edx
	.p2align	4
L(3_40):
	vmovups	(%r14,%rdx), %ymm0
	vmovups	32(%r14,%rdx), %ymm1
	vmovups	64(%r14,%rdx), %ymm2
	vmovups	96(%r14,%rdx), %ymm3
	vmovups	%ymm0, -96(%rcx,%rdx)
	vmovups	%ymm1, -64(%rcx,%rdx)
	vmovups	%ymm2, -32(%rcx,%rdx)
	vmovups	%ymm3, (%rcx,%rdx)
	subq	$-128, %rdx
	cmpq	%rdx, %rax
	jne	L(3_40)
	cmpq	%rax, %r12
	je	L(3_47)
	testb	$120, %r12b
	je	L(3_45)
L(3_43):
	movq	%rax, %rcx
	movq	%r12, %rax
	andq	$-8, %rax
	.p2align	4
L(3_44):
	movq	(%r14,%rcx), %rdx
	movq	%rdx, (%rdi,%rcx)
	addq	$8, %rcx
	cmpq	%rcx, %rax
	jne	L(3_44)
	jmp	L(3_46)
L(3_87):
	cmpq	%rbp, %r12
	je	L(3_105)
	leaq	(%r14,%r12), %rsi
	leaq	1792(%r13), %r15
	movq	%r15, %rcx
	subq	%rsi, %rcx
	cmpq	%rax, %rcx
	jae	L(3_91)
	cmpq	$8, %rax
	jb	L(3_90)
	movq	%r13, %rcx
	subq	%rsi, %rcx
	addq	$1792, %rcx
	cmpq	$128, %rcx
	jae	L(3_94)
L(3_90):
	xorl	%ecx, %ecx
L(3_97):
	movq	%rax, %rdi
	movq	%rcx, %rdx
	andq	$7, %rdi
	je	L(3_100)
	movq	%rcx, %rdx
	.p2align	4
L(3_99):
	movzbl	(%rsi,%rdx), %r8d
	movb	%r8b, (%r15,%rdx)
	incq	%rdx
	decq	%rdi
	jne	L(3_99)
L(3_100):
	subq	%rax, %rcx
	cmpq	$-8, %rcx
	ja	L(3_103)
	leaq	(%r12,%r14), %rcx
	addq	$7, %rcx
	.p2align	4
L(3_102):
	movzbl	-7(%rcx,%rdx), %esi
	movb	%sil, 1792(%r13,%rdx)
	movzbl	-6(%rcx,%rdx), %esi
	movb	%sil, 1793(%r13,%rdx)
	movzbl	-5(%rcx,%rdx), %esi
	movb	%sil, 1794(%r13,%rdx)
	movzbl	-4(%rcx,%rdx), %esi
	movb	%sil, 1795(%r13,%rdx)
	movzbl	-3(%rcx,%rdx), %esi
	movb	%sil, 1796(%r13,%rdx)
	movzbl	-2(%rcx,%rdx), %esi
	movb	%sil, 1797(%r13,%rdx)
	movzbl	-1(%rcx,%rdx), %esi
	movb	%sil, 1798(%r13,%rdx)
	movzbl	(%rcx,%rdx), %esi
	movb	%sil, 1799(%r13,%rdx)
	addq	$8, %rdx
	cmpq	%rdx, %rax
	jne	L(3_102)
	jmp	L(3_103)
L(3_91):
	movq	%r15, %rdi
	movq	%rax, %rdx
	vzeroupper
	callq	PLT(memmove)
L(3_103):
	movq	1856(%r13), %r14
	cmpq	$1025, %r14
	setb	%al
	testl	$1023, %r14d
	setne	%cl
	orb	%al, %cl
	jne	L(3_105)
	shrq	$10, %r14
	decq	%r14
	vmovups	(%r15), %ymm0
	vmovups	32(%r15), %ymm1
	vmovups	%ymm1, 64(%rsp)
	vmovups	%ymm0, 32(%rsp)
	vmovups	32(%r13), %xmm0
	vmovups	48(%r13), %xmm1
	leaq	104(%rsp), %r15
	leaq	32(%rsp), %rsi
	movq	%r15, %rdi
	movq	%r14, %rdx
	movl	$64, %ecx
	movl	$18, %r8d
	vzeroupper
	callq	"keyed_blake3::compression::compress"
	leaq	64(%r13), %rdi
	movl	$1, %r8d
	movq	%r13, %rsi
	movq	%r14, %rdx
	movq	%r15, %rcx
	callq	"keyed_blake3::tree::add_subtree_value"
	vmovups	(%r13), %ymm0
	vmovups	%ymm0, 32(%r13)
L(3_105):
	addq	$168, %rsp
	.cfi_def_cfa_offset 56
	popq	%rbx
	.cfi_def_cfa_offset 48
	popq	%r12
	.cfi_def_cfa_offset 40
	popq	%r13
	.cfi_def_cfa_offset 32
	popq	%r14
	.cfi_def_cfa_offset 24
	popq	%r15
	.cfi_def_cfa_offset 16
	popq	%rbp
	.cfi_def_cfa_offset 8
	vzeroupper
	retq
L(3_94):
	.cfi_def_cfa_offset 224
	movl	%eax, %ecx
	andl	$120, %ecx
	xorl	%edx, %edx
	.p2align	4
L(3_95):
	movq	(%rsi,%rdx), %rdi
	movq	%rdi, (%r15,%rdx)
	addq	$8, %rdx
	cmpq	%rdx, %rcx
	jne	L(3_95)
	cmpq	%rcx, %rax
	je	L(3_103)
	jmp	L(3_97)
L(3_45):
	movzbl	(%r14,%rax), %ecx
	movb	%cl, (%rdi,%rax)
	incq	%rax
L(3_46):
	cmpq	%rax, %r12
	jne	L(3_45)
L(3_47):
	movq	8(%rsp), %rbx
	leaq	1792(%rbx), %rax
	shrq	$10, %r13
	movl	%r15d, %ecx
	andl	$15, %ecx
	cmpq	$15, %rcx
	jne	L(3_49)
	vmovups	(%rax), %ymm0
	vmovups	32(%rax), %ymm1
	vmovups	%ymm1, 64(%rsp)
	vmovups	%ymm0, 32(%rsp)
	vmovups	32(%rbx), %xmm0
	vmovups	48(%rbx), %xmm1
	leaq	104(%rsp), %rbp
	leaq	32(%rsp), %rsi
	movq	%rbp, %rdi
	movq	%r13, %rdx
	movl	$64, %ecx
	movl	$18, %r8d
	vzeroupper
	callq	"keyed_blake3::compression::compress"
	leaq	64(%rbx), %rdi
	movq	%rbx, %rsi
	movq	%r13, %rdx
	movq	%rbp, %rcx
	movq	24(%rsp), %rbp
	xorl	%r8d, %r8d
	callq	"keyed_blake3::tree::add_subtree_value"
	vmovups	(%rbx), %ymm0
	jmp	L(3_50)
L(3_49):
	xorl	%r8d, %r8d
	cmpq	$1, %rcx
	adcl	$16, %r8d
	vmovups	(%rax), %ymm0
	vmovups	32(%rax), %ymm1
	vmovups	%ymm1, 64(%rsp)
	vmovups	%ymm0, 32(%rsp)
	vmovups	32(%rbx), %xmm0
	vmovups	48(%rbx), %xmm1
	leaq	104(%rsp), %rdi
	leaq	32(%rsp), %rsi
	movq	%r13, %rdx
	movl	$64, %ecx
	vzeroupper
	callq	"keyed_blake3::compression::compress"
	vmovups	104(%rsp), %ymm0
L(3_50):
	vmovups	%ymm0, 32(%rbx)
	movq	%rbx, %r13
	incq	%r15
	movq	%rbp, %rax
	subq	%r12, %rax
	cmpq	$65, %rax
	jb	L(3_87)
L(3_51):
	movabsq	$1152921504606846975, %rbx
	leaq	32(%r13), %rcx
	movq	%rcx, 16(%rsp)
	leaq	64(%r13), %rcx
	movq	%rcx, 96(%rsp)
	jmp	L(3_55)
	.p2align	4
L(3_52):
	xorl	%r8d, %r8d
	cmpq	$1, %rcx
	adcl	$16, %r8d
	vmovups	(%r10), %ymm0
	vmovups	32(%r10), %ymm1
	vmovups	%ymm1, 64(%rsp)
	vmovups	%ymm0, 32(%rsp)
	vmovups	32(%r13), %xmm0
	vmovups	48(%r13), %xmm1
	leaq	136(%rsp), %rdi
	leaq	32(%rsp), %rsi
	movl	$64, %ecx
	vzeroupper
	callq	"keyed_blake3::compression::compress"
	vmovups	136(%rsp), %ymm0
L(3_53):
	movq	16(%rsp), %rax
	vmovups	%ymm0, (%rax)
	movl	$1, %ebp
L(3_54):
	addq	%rbp, %r15
	shlq	$6, %rbp
	addq	%rbp, %r12
	movq	24(%rsp), %rbp
	movq	%rbp, %rax
	subq	%r12, %rax
	cmpq	$64, %rax
	jbe	L(3_87)
L(3_55):
	leaq	(%r14,%r12), %r10
	movl	%r15d, %ecx
	andl	$15, %ecx
	cmpq	$2048, %rax
	jb	L(3_68)
	testq	%rcx, %rcx
	jne	L(3_68)
	movq	%rax, %rbp
	shrq	$10, %rbp
	movq	%r15, %rsi
	shrq	$4, %rsi
	cmpq	$9216, %rax
	jb	L(3_70)
	movq	%rax, %rdi
	shrq	$14, %rdi
	movl	$1, %ecx
L(3_59):
	leaq	(%rcx,%rcx), %rdx
	cmpq	%rdi, %rdx
	ja	L(3_80)
	leaq	(%rdx,%rbx), %r8
	testq	%rsi, %r8
	jne	L(3_80)
	leaq	(,%rcx,4), %r9
	cmpq	%rdi, %r9
	ja	L(3_83)
	leaq	(%r9,%rbx), %r8
	testq	%rsi, %r8
	jne	L(3_83)
	leaq	(,%rcx,8), %r8
	cmpq	%rdi, %r8
	ja	L(3_81)
	leaq	(%r8,%rbx), %r11
	movq	%r9, %rdx
	testq	%rsi, %r11
	jne	L(3_83)
	shlq	$4, %rcx
	cmpq	%rdi, %rcx
	ja	L(3_82)
	testq	%rcx, %rcx
	je	L(3_106)
	leaq	(%rcx,%rbx), %r9
	movq	%r8, %rdx
	testq	%rsi, %r9
	je	L(3_59)
	jmp	L(3_83)
	.p2align	4
L(3_68):
	movq	%r15, %rdx
	shrq	$4, %rdx
	cmpl	$15, %ecx
	jne	L(3_52)
	vmovups	(%r10), %ymm0
	vmovups	32(%r10), %ymm1
	vmovups	%ymm1, 64(%rsp)
	vmovups	%ymm0, 32(%rsp)
	vmovups	32(%r13), %xmm0
	vmovups	48(%r13), %xmm1
	leaq	104(%rsp), %rbp
	leaq	32(%rsp), %rsi
	movq	%rbp, %rdi
	movq	%rdx, %r13
	movl	$64, %ecx
	movl	$18, %r8d
	vzeroupper
	callq	"keyed_blake3::compression::compress"
	movq	96(%rsp), %rdi
	movq	8(%rsp), %rsi
	movq	%r13, %rdx
	movq	8(%rsp), %r13
	movq	%rbp, %rcx
	xorl	%r8d, %r8d
	callq	"keyed_blake3::tree::add_subtree_value"
	vmovups	(%r13), %ymm0
	jmp	L(3_53)
	.p2align	4
L(3_70):
	movl	%eax, %r8d
	andl	$15360, %r8d
	cmpq	$5120, %rax
	jb	L(3_73)
	cmpq	%rax, %r8
	jne	L(3_75)
	movl	$1, %r9d
	movq	%r13, %rdi
	movq	%rbp, %rdx
	movq	%r10, %rcx
	movq	%rax, %r8
	vzeroupper
	callq	"keyed_blake3::tree::Tree::absorb_subtrees::<#a9687390e0dd665c>"
	jmp	L(3_78)
L(3_73):
	cmpq	%rax, %r8
	jne	L(3_76)
	movl	$1, %r9d
	movq	%r13, %rdi
	movq	%rbp, %rdx
	movq	%r10, %rcx
	movq	%rax, %r8
	jmp	L(3_77)
L(3_80):
	movq	%rcx, %rdx
	jmp	L(3_83)
L(3_75):
	movq	%r13, %rdi
	movq	%rbp, %rdx
	movq	%r10, %rcx
	xorl	%r9d, %r9d
	vzeroupper
	callq	"keyed_blake3::tree::Tree::absorb_subtrees::<#a9687390e0dd665c>"
	jmp	L(3_78)
L(3_76):
	movq	%r13, %rdi
	movq	%rbp, %rdx
	movq	%r10, %rcx
	xorl	%r9d, %r9d
L(3_77):
	vzeroupper
	callq	"keyed_blake3::tree::Tree::absorb_subtrees::<#8b36ca032ac25711>"
L(3_78):
	shlq	$4, %rbp
	jmp	L(3_54)
L(3_81):
	movq	%r9, %rdx
	jmp	L(3_83)
L(3_82):
	movq	%r8, %rdx
	.p2align	4
L(3_83):
	cmpq	$16, %rbp
	movl	$16, %ecx
	cmovbq	%rbp, %rcx
	movq	%rcx, %rbp
	imulq	%rdx, %rbp
	shlq	$10, %rbp
	cmpq	%rax, %rbp
	jne	L(3_85)
	movq	$1, (%rsp)
	movq	%r13, %rdi
	movq	%r10, %r8
	movq	%rax, %r9
	jmp	L(3_86)
L(3_85):
	movq	$0, (%rsp)
	movq	%r13, %rdi
	movq	%r10, %r8
	movq	%rbp, %r9
L(3_86):
	vzeroupper
	callq	"keyed_blake3::tree::Tree::absorb_subtrees::<#2e65a0a13cda87df>"
	shrq	$6, %rbp
	jmp	L(3_54)
L(3_106):
	ud2
	SIZE("keyed_blake3::hasher::Hasher::update")
	.cfi_endproc

CODE(".text.keyed_blake3::tree::add_subtree_value")
	.p2align	4
	TYPE("keyed_blake3::tree::add_subtree_value", function)
"keyed_blake3::tree::add_subtree_value":
	.cfi_startproc
	pushq	%rbp
	.cfi_def_cfa_offset 16
	pushq	%r15
	.cfi_def_cfa_offset 24
	pushq	%r14
	.cfi_def_cfa_offset 32
	pushq	%r13
	.cfi_def_cfa_offset 40
	pushq	%r12
	.cfi_def_cfa_offset 48
	pushq	%rbx
	.cfi_def_cfa_offset 56
	subq	$184, %rsp
	.cfi_def_cfa_offset 240
	.cfi_offset %rbx, -56
	.cfi_offset %r12, -48
	.cfi_offset %r13, -40
	.cfi_offset %r14, -32
	.cfi_offset %r15, -24
	.cfi_offset %rbp, -16
	movq	%rdx, %r15
	vmovups	(%rcx), %ymm0
	vmovups	%ymm0, 48(%rsp)
	xorl	%r12d, %r12d
	popcntq	%rdx, %r12
	cmpq	%r12, %r8
	setb	%al
	testb	%r15b, %al
	movq	%rdi, 8(%rsp)
	je	L(4_1)
	movq	%r8, %r14
	leaq	144(%rsp), %r13
	vmovups	(%rsi), %xmm0
	vmovaps	%xmm0, 32(%rsp)
	vmovups	16(%rsi), %xmm0
	vmovaps	%xmm0, 16(%rsp)
	leaq	-1(%r12), %rbp
	shll	$5, %r12d
	leaq	-32(%rdi), %rbx
	.p2align	4
L(4_3):
	vmovups	(%rbx,%r12), %ymm0
	vmovups	%ymm0, 112(%rsp)
	vmovups	48(%rsp), %ymm0
	vmovups	%ymm0, (%r13)
	leaq	80(%rsp), %rdi
	leaq	112(%rsp), %rsi
	vmovaps	32(%rsp), %xmm0
	vmovaps	16(%rsp), %xmm1
	xorl	%edx, %edx
	movl	$64, %ecx
	movl	$20, %r8d
	vzeroupper
	callq	"keyed_blake3::compression::compress"
	vmovups	80(%rsp), %ymm0
	vmovups	%ymm0, 48(%rsp)
	addq	$-32, %r12
	cmpq	%rbp, %r14
	jae	L(4_5)
	movq	%r15, %rax
	shrq	%rax
	andl	$2, %r15d
	decq	%rbp
	testq	%r15, %r15
	movq	%rax, %r15
	jne	L(4_3)
	jmp	L(4_5)
L(4_1):
	shll	$5, %r12d
L(4_5):
	vmovups	48(%rsp), %ymm0
	movq	8(%rsp), %rax
	vmovups	%ymm0, (%rax,%r12)
	addq	$184, %rsp
	.cfi_def_cfa_offset 56
	popq	%rbx
	.cfi_def_cfa_offset 48
	popq	%r12
	.cfi_def_cfa_offset 40
	popq	%r13
	.cfi_def_cfa_offset 32
	popq	%r14
	.cfi_def_cfa_offset 24
	popq	%r15
	.cfi_def_cfa_offset 16
	popq	%rbp
	.cfi_def_cfa_offset 8
	vzeroupper
	retq
	SIZE("keyed_blake3::tree::add_subtree_value")
	.cfi_endproc

SIZED(8, 3)
	.p2align	3, 0x0
D(CPI5_0):
	.quad	-9223372036854775808
SIZED(32, 5)
	.p2align	5, 0x0
D(CPI5_1):
	.quad	-9223372036854775807
	.quad	-9223372036854775806
	.quad	-9223372036854775805
	.quad	-9223372036854775804
D(CPI5_2):
	.quad	2
	.quad	3
	.quad	4
	.quad	5
D(CPI5_3):
	.quad	-9223372036854775803
	.quad	-9223372036854775802
	.quad	-9223372036854775801
	.quad	-9223372036854775800
D(CPI5_4):
	.quad	6
	.quad	7
	.quad	8
	.quad	9
D(CPI5_5):
	.quad	-9223372036854775799
	.quad	-9223372036854775798
	.quad	-9223372036854775797
	.quad	-9223372036854775796
D(CPI5_6):
	.quad	10
	.quad	11
	.quad	12
	.quad	13
D(CPI5_7):
	.zero	4
	.zero	4
	.long	64
	.long	18
	.zero	4
	.zero	4
	.long	64
	.long	18
D(CPI5_10):
	.long	0
	.long	0
	.long	64
	.long	20
	.long	0
	.long	0
	.long	64
	.long	20
SIZED(4, 2)
	.p2align	2, 0x0
D(CPI5_8):
	.long	64
D(CPI5_9):
	.long	20
SIZED(16, 4)
	.p2align	4, 0x0
D(CPI5_11):
	.long	0
	.long	0
	.long	64
	.long	20
CODE(".text.keyed_blake3::tree::Tree::absorb_subtrees::<#2e65a0a13cda87df>")
	.p2align	4
	TYPE("keyed_blake3::tree::Tree::absorb_subtrees::<#2e65a0a13cda87df>", function)
"keyed_blake3::tree::Tree::absorb_subtrees::<#2e65a0a13cda87df>":
	.cfi_startproc
	pushq	%rbp
	.cfi_def_cfa_offset 16
	.cfi_offset %rbp, -16
	movq	%rsp, %rbp
	.cfi_def_cfa_register %rbp
	pushq	%r15
	pushq	%r14
	pushq	%r13
	pushq	%r12
	pushq	%rbx
	andq	$-64, %rsp
	subq	$3008, %rsp
	movq	$0, (%rsp)
	subq	$1088, %rsp
	.cfi_offset %rbx, -56
	.cfi_offset %r12, -48
	.cfi_offset %r13, -40
	.cfi_offset %r14, -32
	.cfi_offset %r15, -24
	vxorpd	%xmm0, %xmm0, %xmm0
	vmovapd	%ymm0, 1280(%rsp)
	vmovapd	%ymm0, 1248(%rsp)
	vmovapd	%ymm0, 1216(%rsp)
	vmovapd	%ymm0, 1184(%rsp)
	vmovapd	%ymm0, 1152(%rsp)
	vmovapd	%ymm0, 1120(%rsp)
	vmovapd	%ymm0, 1088(%rsp)
	vmovapd	%ymm0, 1056(%rsp)
	vmovapd	%ymm0, 1024(%rsp)
	vmovapd	%ymm0, 992(%rsp)
	vmovapd	%ymm0, 960(%rsp)
	vmovapd	%ymm0, 928(%rsp)
	vmovapd	%ymm0, 896(%rsp)
	vmovapd	%ymm0, 864(%rsp)
	vmovapd	%ymm0, 832(%rsp)
	vmovapd	%ymm0, 800(%rsp)
	vmovapd	%ymm0, 96(%rsp)
	vmovapd	%ymm0, 2400(%rsp)
	vmovapd	%ymm0, 2432(%rsp)
	vmovapd	%ymm0, 2464(%rsp)
	vmovapd	%ymm0, 2496(%rsp)
	vmovapd	%ymm0, 2528(%rsp)
	vmovapd	%ymm0, 2560(%rsp)
	vmovapd	%ymm0, 2592(%rsp)
	vmovapd	%ymm0, 2624(%rsp)
	vmovapd	%ymm0, 2656(%rsp)
	vmovapd	%ymm0, 2688(%rsp)
	vmovapd	%ymm0, 2720(%rsp)
	vmovapd	%ymm0, 2752(%rsp)
	vmovapd	%ymm0, 2784(%rsp)
	vmovapd	%ymm0, 2816(%rsp)
	vmovapd	%ymm0, 2848(%rsp)
	movq	%rcx, %rbx
	movq	%rdx, %r14
	movq	%rsi, %r12
	movq	%rdi, %rsi
	vmovapd	%ymm0, 2880(%rsp)
	cmpq	$2048, %r9
	movq	%rdi, 24(%rsp)
	jne	L(5_4)
	movq	%r14, 280(%rsp)
	movq	%r8, 272(%rsp)
	leaq	1024(%r8), %r15
	leaq	1(%r12), %r14
	vbroadcastf128	(%rsi), %ymm0
	vbroadcastf128	16(%rsi), %ymm1
	vmovq	%r12, %xmm2
	movl	$64, %eax
	vmovdqa	%ymm2, 3424(%rsp)
	vpinsrd	$2, %eax, %xmm2, %xmm2
	vmovdqa	%xmm2, 1824(%rsp)
	vmovq	%r14, %xmm2
	vmovdqa	%xmm2, 1856(%rsp)
	vpinsrd	$2, %eax, %xmm2, %xmm2
	vmovdqa	%xmm2, 1872(%rsp)
	xorl	%r13d, %r13d
	.p2align	4
L(5_2):
	cmpq	$1, %r13
	movl	$0, %eax
	adcl	$16, %eax
	vmovups	-1024(%r15,%r13), %ymm2
	vmovups	-992(%r15,%r13), %ymm3
	vmovaps	%ymm2, 1888(%rsp)
	vmovaps	%ymm3, 1920(%rsp)
	movq	%r12, 1952(%rsp)
	movl	$64, 1960(%rsp)
	movl	%eax, 1964(%rsp)
	vmovups	(%r15,%r13), %ymm2
	vmovups	32(%r15,%r13), %ymm3
	vmovaps	%ymm2, 128(%rsp)
	vmovaps	%ymm3, 160(%rsp)
	movq	%r14, 192(%rsp)
	movl	$64, 200(%rsp)
	vmovdqa	1824(%rsp), %xmm2
	vpinsrd	$3, %eax, %xmm2, %xmm2
	movl	%eax, 204(%rsp)
	vmovdqa	1872(%rsp), %xmm3
	vpinsrd	$3, %eax, %xmm3, %xmm3
	vinserti128	$1, %xmm3, %ymm2, %ymm2
	leaq	32(%rsp), %rdi
	leaq	1888(%rsp), %rsi
	leaq	128(%rsp), %rdx
	callq	"keyed_blake3::compression::two::compress_two_from"
	vmovups	32(%rsp), %ymm0
	vmovups	64(%rsp), %ymm1
	addq	$64, %r13
	cmpq	$960, %r13
	jne	L(5_2)
	movq	272(%rsp), %rcx
	vmovups	960(%rcx), %ymm2
	vmovups	992(%rcx), %ymm3
	vmovaps	%ymm2, 1888(%rsp)
	vmovaps	%ymm3, 1920(%rsp)
	movq	%r12, 1952(%rsp)
	movabsq	$77309411392, %rax
	movq	%rax, 1960(%rsp)
	vmovups	1984(%rcx), %ymm2
	vmovups	2016(%rcx), %ymm3
	vmovaps	%ymm2, 128(%rsp)
	vmovaps	%ymm3, 160(%rsp)
	movq	%r14, 192(%rsp)
	movq	%rax, 200(%rsp)
	vmovaps	3424(%rsp), %ymm2
	vinsertf128	$1, 1856(%rsp), %ymm2, %ymm2
	vblendps	$204, D(CPI5_7)(%rip), %ymm2, %ymm2
	leaq	32(%rsp), %rdi
	leaq	1888(%rsp), %rsi
	leaq	128(%rsp), %rdx
	callq	"keyed_blake3::compression::two::compress_two_from"
	vmovdqu	32(%rsp), %xmm0
	vmovdqu	48(%rsp), %xmm1
	vpunpckldq	%xmm1, %xmm0, %xmm2
	vmovq	%xmm2, 2400(%rsp)
	vpxor	%xmm2, %xmm2, %xmm2
	vmovdqu	%ymm2, 2408(%rsp)
	vmovdqu	%ymm2, 2432(%rsp)
	vpshufd	$85, %xmm0, %xmm3
	vpblendd	$2, %xmm1, %xmm3, %xmm3
	vmovq	%xmm3, 2464(%rsp)
	vmovdqu	%ymm2, 2472(%rsp)
	vmovdqu	%ymm2, 2496(%rsp)
	vpunpckhdq	%xmm1, %xmm0, %xmm0
	vmovq	%xmm0, 2528(%rsp)
	vmovdqu	%ymm2, 2536(%rsp)
	vmovdqu	%ymm2, 2560(%rsp)
	vmovdqu	64(%rsp), %xmm1
	vpextrq	$1, %xmm0, 2592(%rsp)
	vmovdqu	%ymm2, 2600(%rsp)
	vmovdqu	%ymm2, 2624(%rsp)
	vmovdqu	80(%rsp), %xmm0
	vpunpckldq	%xmm0, %xmm1, %xmm3
	vmovq	%xmm3, 2656(%rsp)
	vmovdqu	%ymm2, 2688(%rsp)
	vmovdqu	%ymm2, 2664(%rsp)
	vpshufd	$85, %xmm1, %xmm3
	vpblendd	$2, %xmm0, %xmm3, %xmm3
	vmovq	%xmm3, 2720(%rsp)
	vmovdqu	%ymm2, 2752(%rsp)
	vmovdqu	%ymm2, 2728(%rsp)
	vpunpckhdq	%xmm0, %xmm1, %xmm0
	vmovq	%xmm0, 2784(%rsp)
	vmovdqu	%ymm2, 2816(%rsp)
	vmovdqu	%ymm2, 2792(%rsp)
	vpextrq	$1, %xmm0, 2848(%rsp)
	vmovdqu	%ymm2, 2880(%rsp)
	vmovdqu	%ymm2, 2856(%rsp)
	leaq	3520(%rsp), %rdi
	leaq	2400(%rsp), %rsi
	movl	$512, %edx
	vzeroupper
	callq	PLT(memcpy)
	movq	280(%rsp), %r14
	jmp	L(5_8)
L(5_4):
	cmpq	$16384, %r9
	ja	L(5_6)
	shrq	$10, %r9
	xorl	%eax, %eax
	decq	%r9
	setne	%al
	cmpq	$14, %r9
	movl	$14, %ecx
	cmovbq	%r9, %rcx
	movl	$15, %edx
	cmovbeq	%r9, %rdx
	movq	$0, 1888(%rsp)
	vmovq	%r9, %xmm0
	vpbroadcastq	%xmm0, %ymm0
	vpbroadcastq	D(CPI5_0)(%rip), %ymm1
	vpxor	%ymm1, %ymm0, %ymm1
	vpcmpgtq	D(CPI5_1)(%rip), %ymm1, %ymm2
	movq	%rax, 1896(%rsp)
	vblendvpd	%ymm2, D(CPI5_2)(%rip), %ymm0, %ymm2
	vmovupd	%ymm2, 1904(%rsp)
	vpcmpgtq	D(CPI5_3)(%rip), %ymm1, %ymm2
	vblendvpd	%ymm2, D(CPI5_4)(%rip), %ymm0, %ymm2
	vmovupd	%ymm2, 1936(%rsp)
	vpcmpgtq	D(CPI5_5)(%rip), %ymm1, %ymm1
	vblendvpd	%ymm1, D(CPI5_6)(%rip), %ymm0, %ymm0
	vmovupd	%ymm0, 1968(%rsp)
	movq	%rcx, 2000(%rsp)
	movq	%rdx, 2008(%rsp)
	leaq	2400(%rsp), %r15
	leaq	1888(%rsp), %rcx
	movq	%r15, %rdi
	movq	%r8, %rdx
	movq	%r12, %r8
	vzeroupper
	callq	"keyed_blake3::chunks::chunk_values::<#2e65a0a13cda87df>"
	jmp	L(5_7)
L(5_6):
	shrq	$14, %r9
	leaq	2400(%rsp), %r15
	movq	%r15, %rdi
	movq	%r8, %rdx
	xorl	%ecx, %ecx
	movq	%r9, %r8
	movq	%r12, %r9
	vzeroupper
	callq	"keyed_blake3::subtrees::neighbour_values::<#2e65a0a13cda87df>"
L(5_7):
	leaq	3520(%rsp), %rdi
	movl	$512, %edx
	movq	%r15, %rsi
	callq	PLT(memcpy)
L(5_8):
	leaq	800(%rsp), %rdi
	leaq	3520(%rsp), %rsi
	movl	$512, %edx
	callq	PLT(memcpy)
	testq	%r14, %r14
	je	L(5_30)
	movq	%r12, %rax
	orq	%r14, %rax
	shrq	$32, %rax
	movq	24(%rsp), %rsi
	je	L(5_10)
	movq	%r12, %rax
	xorl	%edx, %edx
	divq	%r14
	movq	%rax, %r15
	jmp	L(5_12)
L(5_10):
	movl	%r12d, %eax
	xorl	%edx, %edx
	divl	%r14d
	movl	%eax, %r15d
L(5_12):
	vpxor	%xmm0, %xmm0, %xmm0
	vmovdqa	%ymm0, 736(%rsp)
	vmovdqu	%ymm0, 752(%rsp)
	vmovdqa	%ymm0, 672(%rsp)
	vmovdqu	%ymm0, 688(%rsp)
	vmovdqa	%ymm0, 608(%rsp)
	vmovdqu	%ymm0, 624(%rsp)
	vmovdqa	%ymm0, 544(%rsp)
	vmovdqu	%ymm0, 560(%rsp)
	vmovdqa	%ymm0, 480(%rsp)
	vmovdqu	%ymm0, 496(%rsp)
	vmovdqa	%ymm0, 416(%rsp)
	vmovdqu	%ymm0, 432(%rsp)
	vmovdqa	%ymm0, 352(%rsp)
	vmovdqu	%ymm0, 368(%rsp)
	vmovdqu	%ymm0, 304(%rsp)
	vmovdqa	%ymm0, 288(%rsp)
	cmpq	$3, %rbx
	jb	L(5_13)
	movl	%r15d, %eax
	orl	%ebx, %eax
	andl	$1, %eax
	jne	L(5_13)
	leaq	944(%rsp), %r13
	.p2align	4
L(5_16):
	vpxor	%xmm0, %xmm0, %xmm0
	vmovdqa	%ymm0, 1760(%rsp)
	vmovdqu	%ymm0, 1776(%rsp)
	vmovdqa	%ymm0, 1696(%rsp)
	vmovdqu	%ymm0, 1712(%rsp)
	vmovdqa	%ymm0, 1632(%rsp)
	vmovdqu	%ymm0, 1648(%rsp)
	vmovdqa	%ymm0, 1568(%rsp)
	vmovdqu	%ymm0, 1584(%rsp)
	vmovdqa	%ymm0, 1504(%rsp)
	vmovdqu	%ymm0, 1520(%rsp)
	vmovdqa	%ymm0, 1440(%rsp)
	vmovdqu	%ymm0, 1456(%rsp)
	vmovdqu	%ymm0, 1392(%rsp)
	vmovdqa	%ymm0, 1376(%rsp)
	vmovdqu	%ymm0, 1328(%rsp)
	vmovdqa	%ymm0, 1312(%rsp)
	vmovdqa	%ymm0, 224(%rsp)
	vmovdqa	%ymm0, 192(%rsp)
	vmovdqa	%ymm0, 160(%rsp)
	vmovdqa	%ymm0, 128(%rsp)
	cmpq	$4, %rbx
	ja	L(5_18)
	movl	800(%rsp), %eax
	movl	%eax, 2400(%rsp)
	movl	864(%rsp), %eax
	movl	%eax, 2404(%rsp)
	movl	928(%rsp), %eax
	movl	%eax, 2408(%rsp)
	movl	992(%rsp), %eax
	movl	%eax, 2412(%rsp)
	movl	1056(%rsp), %eax
	movl	%eax, 2416(%rsp)
	movl	1120(%rsp), %eax
	movl	%eax, 2420(%rsp)
	movl	1184(%rsp), %eax
	movl	%eax, 2424(%rsp)
	movl	1248(%rsp), %eax
	movl	%eax, 2428(%rsp)
	movl	804(%rsp), %eax
	movl	%eax, 2432(%rsp)
	movl	868(%rsp), %eax
	movl	%eax, 2436(%rsp)
	movl	932(%rsp), %eax
	movl	%eax, 2440(%rsp)
	movl	996(%rsp), %eax
	movl	%eax, 2444(%rsp)
	movl	1060(%rsp), %eax
	movl	%eax, 2448(%rsp)
	movl	1124(%rsp), %eax
	movl	%eax, 2452(%rsp)
	movl	1188(%rsp), %eax
	movl	%eax, 2456(%rsp)
	movl	1252(%rsp), %eax
	movl	%eax, 2460(%rsp)
	movq	$0, 2464(%rsp)
	movl	808(%rsp), %eax
	movl	%eax, 1888(%rsp)
	movl	872(%rsp), %eax
	movl	%eax, 1892(%rsp)
	movl	936(%rsp), %eax
	movl	%eax, 1896(%rsp)
	movl	1000(%rsp), %eax
	movl	%eax, 1900(%rsp)
	movl	1064(%rsp), %eax
	movl	%eax, 1904(%rsp)
	movl	1128(%rsp), %eax
	movl	%eax, 1908(%rsp)
	movl	1192(%rsp), %eax
	movl	%eax, 1912(%rsp)
	movl	1256(%rsp), %eax
	movl	%eax, 1916(%rsp)
	movl	812(%rsp), %eax
	movl	%eax, 1920(%rsp)
	movl	876(%rsp), %eax
	movl	%eax, 1924(%rsp)
	movl	940(%rsp), %eax
	movl	%eax, 1928(%rsp)
	movl	1004(%rsp), %eax
	movl	%eax, 1932(%rsp)
	movl	1068(%rsp), %eax
	movl	%eax, 1936(%rsp)
	movl	1132(%rsp), %eax
	movl	%eax, 1940(%rsp)
	movl	1196(%rsp), %eax
	movl	%eax, 1944(%rsp)
	movl	1260(%rsp), %eax
	movl	%eax, 1948(%rsp)
	movabsq	$85899345984, %rax
	movq	%rax, 2472(%rsp)
	movq	$0, 1952(%rsp)
	movq	%rax, 1960(%rsp)
	vbroadcastf128	(%rsi), %ymm0
	vbroadcastf128	16(%rsi), %ymm1
	vbroadcastf128	D(CPI5_11)(%rip), %ymm2
	leaq	32(%rsp), %rdi
	leaq	2400(%rsp), %rsi
	leaq	1888(%rsp), %rdx
	callq	"keyed_blake3::compression::two::compress_two_from"
	vmovdqa	32(%rsp), %xmm0
	vmovdqu	36(%rsp), %xmm1
	vmovdqu	40(%rsp), %xmm2
	vmovdqu	44(%rsp), %xmm3
	vmovdqa	64(%rsp), %xmm4
	vmovdqu	68(%rsp), %xmm6
	vmovdqu	72(%rsp), %xmm8
	vmovdqu	76(%rsp), %xmm9
	vpinsrd	$1, 48(%rsp), %xmm0, %xmm5
	vpinsrd	$1, 52(%rsp), %xmm1, %xmm7
	vpinsrd	$1, 56(%rsp), %xmm2, %xmm0
	vpinsrd	$1, 60(%rsp), %xmm3, %xmm1
	vpinsrd	$1, 80(%rsp), %xmm4, %xmm2
	vpinsrd	$1, 84(%rsp), %xmm6, %xmm3
	vpinsrd	$1, 88(%rsp), %xmm8, %xmm4
	vpinsrd	$1, 92(%rsp), %xmm9, %xmm6
	vpxor	%xmm8, %xmm8, %xmm8
	vmovdqu	%ymm8, 752(%rsp)
	vmovdqa	%ymm8, 736(%rsp)
	vmovdqu	%ymm8, 688(%rsp)
	vmovdqa	%ymm8, 672(%rsp)
	vmovdqu	%ymm8, 624(%rsp)
	vmovdqa	%ymm8, 608(%rsp)
	vmovdqu	%ymm8, 560(%rsp)
	vmovdqa	%ymm8, 544(%rsp)
	vmovdqu	%ymm8, 496(%rsp)
	vmovdqa	%ymm8, 480(%rsp)
	vmovdqu	%ymm8, 432(%rsp)
	vmovdqa	%ymm8, 416(%rsp)
	vmovdqu	%ymm8, 368(%rsp)
	vmovdqa	%ymm8, 352(%rsp)
	vmovdqu	%ymm8, 304(%rsp)
	vmovdqa	%ymm8, 288(%rsp)
	xorl	%eax, %eax
	xorl	%r9d, %r9d
	xorl	%ecx, %ecx
	xorl	%edx, %edx
	xorl	%esi, %esi
	xorl	%edi, %edi
	xorl	%r8d, %r8d
	xorl	%r10d, %r10d
	jmp	L(5_22)
	.p2align	4
L(5_18):
	cmpq	$8, %rbx
	ja	L(5_20)
	vmovups	(%rsi), %xmm0
	vmovups	16(%rsi), %xmm1
	leaq	128(%rsp), %rdi
	leaq	800(%rsp), %rsi
	vzeroupper
	callq	"keyed_blake3::subtrees::four_parent_values::<#2e65a0a13cda87df>"
	vmovq	160(%rsp), %xmm0
	movq	136(%rsp), %rax
	movq	168(%rsp), %rcx
	vmovq	176(%rsp), %xmm1
	movq	184(%rsp), %rdx
	vmovq	192(%rsp), %xmm2
	movq	200(%rsp), %rsi
	vmovq	208(%rsp), %xmm3
	movq	216(%rsp), %rdi
	vmovq	224(%rsp), %xmm4
	movq	232(%rsp), %r8
	vmovq	240(%rsp), %xmm6
	vpxor	%xmm8, %xmm8, %xmm8
	vmovdqa	%ymm8, 1760(%rsp)
	vmovdqu	%ymm8, 1776(%rsp)
	movq	248(%rsp), %r10
	vmovq	128(%rsp), %xmm5
	vmovdqa	%ymm8, 1696(%rsp)
	vmovdqu	%ymm8, 1712(%rsp)
	vmovq	144(%rsp), %xmm7
	movq	152(%rsp), %r9
	vmovdqa	%ymm8, 1632(%rsp)
	vmovdqu	%ymm8, 1648(%rsp)
	vmovdqa	%ymm8, 1568(%rsp)
	vmovdqu	%ymm8, 1584(%rsp)
	vmovdqa	%ymm8, 1504(%rsp)
	vmovdqu	%ymm8, 1520(%rsp)
	vmovdqa	%ymm8, 1440(%rsp)
	vmovdqu	%ymm8, 1456(%rsp)
	vmovdqa	%ymm8, 1376(%rsp)
	vmovdqu	%ymm8, 1392(%rsp)
	vmovdqa	%ymm8, 1312(%rsp)
	vmovdqu	%ymm8, 1328(%rsp)
	vmovdqu	%ymm8, 752(%rsp)
	vmovdqa	%ymm8, 736(%rsp)
	vmovdqu	%ymm8, 688(%rsp)
	vmovdqa	%ymm8, 672(%rsp)
	vmovdqu	%ymm8, 624(%rsp)
	vmovdqa	%ymm8, 608(%rsp)
	vmovdqu	%ymm8, 560(%rsp)
	vmovdqa	%ymm8, 544(%rsp)
	vmovdqu	%ymm8, 496(%rsp)
	vmovdqa	%ymm8, 480(%rsp)
	vmovdqu	%ymm8, 432(%rsp)
	vmovdqa	%ymm8, 416(%rsp)
	vmovdqu	%ymm8, 368(%rsp)
	vmovdqa	%ymm8, 352(%rsp)
	vmovdqu	%ymm8, 304(%rsp)
	jmp	L(5_21)
	.p2align	4
L(5_20):
	vmovaps	800(%rsp), %ymm1
	vmovaps	832(%rsp), %ymm3
	vmovaps	864(%rsp), %ymm0
	vmovaps	%ymm0, 1824(%rsp)
	vmovaps	896(%rsp), %ymm2
	vshufps	$136, %ymm3, %ymm1, %ymm4
	vpermpd	$216, %ymm4, %ymm10
	vshufps	$136, %ymm2, %ymm0, %ymm4
	vpermpd	$216, %ymm4, %ymm11
	vmovaps	960(%rsp), %ymm4
	vmovaps	928(%rsp), %ymm5
	vshufps	$136, %ymm4, %ymm5, %ymm6
	vpermpd	$216, %ymm6, %ymm13
	vmovaps	1024(%rsp), %ymm6
	vmovaps	992(%rsp), %ymm7
	vshufps	$136, %ymm6, %ymm7, %ymm8
	vpermpd	$216, %ymm8, %ymm14
	vmovaps	1088(%rsp), %ymm8
	vmovaps	1056(%rsp), %ymm9
	vshufps	$136, %ymm8, %ymm9, %ymm12
	vpermpd	$216, %ymm12, %ymm15
	vmovups	%ymm10, 2432(%rsp)
	vmovups	%ymm10, 2400(%rsp)
	vmovaps	1152(%rsp), %ymm10
	vmovaps	1120(%rsp), %ymm12
	vmovups	%ymm11, 2496(%rsp)
	vmovups	%ymm11, 2464(%rsp)
	vshufps	$136, %ymm10, %ymm12, %ymm11
	vpermpd	$216, %ymm11, %ymm0
	vmovups	%ymm13, 2560(%rsp)
	vmovups	%ymm13, 2528(%rsp)
	vmovups	%ymm14, 2624(%rsp)
	vmovups	%ymm14, 2592(%rsp)
	vmovaps	1216(%rsp), %ymm11
	vmovaps	1184(%rsp), %ymm13
	vmovups	%ymm15, 2688(%rsp)
	vmovups	%ymm15, 2656(%rsp)
	vshufps	$136, %ymm11, %ymm13, %ymm14
	vpermpd	$216, %ymm14, %ymm14
	vmovups	%ymm0, 2752(%rsp)
	vmovups	%ymm0, 2720(%rsp)
	vmovups	%ymm14, 2816(%rsp)
	vmovups	%ymm14, 2784(%rsp)
	vmovaps	1280(%rsp), %ymm14
	vmovaps	1248(%rsp), %ymm0
	vshufps	$136, %ymm14, %ymm0, %ymm15
	vpermpd	$216, %ymm15, %ymm15
	vmovups	%ymm15, 2880(%rsp)
	vmovups	%ymm15, 2848(%rsp)
	vshufps	$221, %ymm3, %ymm1, %ymm1
	vpermpd	$216, %ymm1, %ymm1
	vmovups	%ymm1, 2944(%rsp)
	vmovaps	1824(%rsp), %ymm3
	vshufps	$221, %ymm2, %ymm3, %ymm2
	vmovups	%ymm1, 2912(%rsp)
	vpermpd	$216, %ymm2, %ymm1
	vmovups	%ymm1, 3008(%rsp)
	vmovups	%ymm1, 2976(%rsp)
	vshufps	$221, %ymm4, %ymm5, %ymm1
	vpermpd	$216, %ymm1, %ymm1
	vmovups	%ymm1, 3072(%rsp)
	vshufps	$221, %ymm6, %ymm7, %ymm2
	vmovups	%ymm1, 3040(%rsp)
	vpermpd	$216, %ymm2, %ymm1
	vmovups	%ymm1, 3136(%rsp)
	vmovups	%ymm1, 3104(%rsp)
	vshufps	$221, %ymm8, %ymm9, %ymm1
	vpermpd	$216, %ymm1, %ymm1
	vmovups	%ymm1, 3200(%rsp)
	vshufps	$221, %ymm10, %ymm12, %ymm2
	vmovups	%ymm1, 3168(%rsp)
	vpermpd	$216, %ymm2, %ymm1
	vmovups	%ymm1, 3264(%rsp)
	vmovups	%ymm1, 3232(%rsp)
	vshufps	$221, %ymm11, %ymm13, %ymm1
	vpermpd	$216, %ymm1, %ymm1
	vmovups	%ymm1, 3328(%rsp)
	vshufps	$221, %ymm14, %ymm0, %ymm0
	vmovups	%ymm1, 3296(%rsp)
	vpermpd	$216, %ymm0, %ymm0
	vmovups	%ymm0, 3392(%rsp)
	vmovups	%ymm0, 3360(%rsp)
	vbroadcastss	D(CPI5_8)(%rip), %ymm0
	vmovups	%ymm0, 64(%rsp)
	vmovups	%ymm0, 32(%rsp)
	vbroadcastss	D(CPI5_9)(%rip), %ymm0
	vmovups	%ymm0, 3488(%rsp)
	vmovups	%ymm0, 3456(%rsp)
	leaq	1888(%rsp), %r12
	movq	%r12, %rdi
	vzeroupper
	callq	"keyed_blake3::chunks::key_of_each::<#2e65a0a13cda87df>"
	leaq	2400(%rsp), %rsi
	leaq	32(%rsp), %rdx
	leaq	3456(%rsp), %rcx
	movq	%r12, %rdi
	callq	"keyed_blake3::compression::lanes::take_in_each::<#2e65a0a13cda87df>"
	leaq	2032(%rsp), %rax
	vmovups	-128(%rax), %ymm0
	vmovups	-112(%rax), %ymm1
	vmovups	%ymm1, 1776(%rsp)
	vmovaps	%ymm0, 1760(%rsp)
	vmovups	-64(%rax), %ymm0
	vmovups	-48(%rax), %ymm1
	vmovups	%ymm1, 1712(%rsp)
	vmovaps	%ymm0, 1696(%rsp)
	vmovups	(%rax), %ymm0
	vmovups	16(%rax), %ymm1
	vmovaps	%ymm0, 1632(%rsp)
	vmovups	%ymm1, 1648(%rsp)
	vmovups	64(%rax), %ymm0
	vmovups	80(%rax), %ymm1
	vmovaps	%ymm0, 1568(%rsp)
	vmovups	%ymm1, 1584(%rsp)
	vmovups	128(%rax), %ymm0
	vmovups	144(%rax), %ymm1
	vmovups	%ymm1, 1520(%rsp)
	vmovaps	%ymm0, 1504(%rsp)
	vmovups	192(%rax), %ymm0
	vmovups	208(%rax), %ymm1
	vmovups	%ymm1, 1456(%rsp)
	vmovaps	%ymm0, 1440(%rsp)
	vmovups	256(%rax), %ymm0
	vmovups	272(%rax), %ymm1
	vmovups	%ymm1, 1392(%rsp)
	vmovaps	%ymm0, 1376(%rsp)
	vmovups	320(%rax), %ymm0
	vmovups	336(%rax), %ymm1
	vmovups	%ymm1, 1328(%rsp)
	vmovaps	%ymm0, 1312(%rsp)
	vmovq	1888(%rsp), %xmm5
	vmovups	1776(%rsp), %ymm0
	vmovups	%ymm0, 752(%rsp)
	movq	1896(%rsp), %rax
	vmovaps	1760(%rsp), %ymm0
	vmovaps	%ymm0, 736(%rsp)
	movq	1960(%rsp), %r9
	vmovups	1712(%rsp), %ymm0
	vmovups	%ymm0, 688(%rsp)
	vmovq	1952(%rsp), %xmm7
	vmovaps	1696(%rsp), %ymm0
	vmovaps	%ymm0, 672(%rsp)
	vmovq	2016(%rsp), %xmm0
	vmovups	1648(%rsp), %ymm1
	vmovups	%ymm1, 624(%rsp)
	movq	2024(%rsp), %rcx
	vmovaps	1632(%rsp), %ymm1
	vmovaps	%ymm1, 608(%rsp)
	vmovq	2080(%rsp), %xmm1
	vmovups	1584(%rsp), %ymm2
	vmovups	%ymm2, 560(%rsp)
	movq	2088(%rsp), %rdx
	vmovaps	1568(%rsp), %ymm2
	vmovaps	%ymm2, 544(%rsp)
	vmovq	2144(%rsp), %xmm2
	vmovups	1520(%rsp), %ymm3
	vmovups	%ymm3, 496(%rsp)
	movq	2152(%rsp), %rsi
	vmovaps	1504(%rsp), %ymm3
	vmovaps	%ymm3, 480(%rsp)
	vmovq	2208(%rsp), %xmm3
	vmovups	1456(%rsp), %ymm4
	vmovups	%ymm4, 432(%rsp)
	movq	2216(%rsp), %rdi
	vmovaps	1440(%rsp), %ymm4
	vmovaps	%ymm4, 416(%rsp)
	vmovq	2272(%rsp), %xmm4
	vmovups	1392(%rsp), %ymm6
	vmovups	%ymm6, 368(%rsp)
	movq	2280(%rsp), %r8
	vmovaps	1376(%rsp), %ymm6
	vmovaps	%ymm6, 352(%rsp)
	vmovq	2336(%rsp), %xmm6
	vmovups	1328(%rsp), %ymm8
	vmovups	%ymm8, 304(%rsp)
	movq	2344(%rsp), %r10
	vmovdqa	1312(%rsp), %ymm8
L(5_21):
	vmovdqa	%ymm8, 288(%rsp)
L(5_22):
	vmovq	%xmm5, 800(%rsp)
	movq	%rax, 808(%rsp)
	vmovups	752(%rsp), %ymm5
	vmovups	%ymm5, -112(%r13)
	vmovaps	736(%rsp), %ymm5
	vmovups	%ymm5, -128(%r13)
	vmovq	%xmm7, 864(%rsp)
	movq	%r9, 872(%rsp)
	vmovups	688(%rsp), %ymm5
	vmovups	%ymm5, -48(%r13)
	vmovaps	672(%rsp), %ymm5
	vmovups	%ymm5, -64(%r13)
	vmovq	%xmm0, 928(%rsp)
	movq	%rcx, 936(%rsp)
	vmovups	624(%rsp), %ymm0
	vmovups	%ymm0, 16(%r13)
	vmovaps	608(%rsp), %ymm0
	vmovups	%ymm0, (%r13)
	vmovq	%xmm1, 992(%rsp)
	movq	%rdx, 1000(%rsp)
	vmovups	560(%rsp), %ymm0
	vmovups	%ymm0, 80(%r13)
	vmovaps	544(%rsp), %ymm0
	vmovups	%ymm0, 64(%r13)
	vmovq	%xmm2, 1056(%rsp)
	movq	%rsi, 1064(%rsp)
	vmovups	496(%rsp), %ymm0
	vmovups	%ymm0, 144(%r13)
	vmovaps	480(%rsp), %ymm0
	vmovups	%ymm0, 128(%r13)
	vmovq	%xmm3, 1120(%rsp)
	movq	%rdi, 1128(%rsp)
	vmovups	432(%rsp), %ymm0
	vmovups	%ymm0, 208(%r13)
	vmovaps	416(%rsp), %ymm0
	vmovups	%ymm0, 192(%r13)
	vmovq	%xmm4, 1184(%rsp)
	movq	%r8, 1192(%rsp)
	vmovups	368(%rsp), %ymm0
	vmovups	%ymm0, 272(%r13)
	vmovaps	352(%rsp), %ymm0
	vmovups	%ymm0, 256(%r13)
	vmovq	%xmm6, 1248(%rsp)
	movq	%r10, 1256(%rsp)
	vmovups	304(%rsp), %ymm0
	vmovups	%ymm0, 336(%r13)
	vmovdqa	288(%rsp), %ymm0
	vmovdqu	%ymm0, 320(%r13)
	movq	%r15, %r12
	shrq	%r12
	movq	%rbx, %r14
	shrq	%r14
	cmpq	$5, %rbx
	jb	L(5_23)
	andl	$2, %ebx
	movq	24(%rsp), %rsi
	jne	L(5_26)
	movq	%r14, %rbx
	andl	$2, %r15d
	movq	%r12, %r15
	je	L(5_16)
	jmp	L(5_26)
L(5_13):
	movq	%rbx, %r14
	movq	%r15, %r12
L(5_26):
	movq	%r14, %r13
	decq	%r13
	je	L(5_29)
L(5_27):
	leaq	64(%rsi), %r15
	xorl	%ebx, %ebx
	.p2align	4
L(5_28):
	movl	800(%rsp,%rbx,4), %eax
	movl	864(%rsp,%rbx,4), %ecx
	movl	928(%rsp,%rbx,4), %edx
	movl	992(%rsp,%rbx,4), %r11d
	movl	1056(%rsp,%rbx,4), %edi
	movl	1120(%rsp,%rbx,4), %r8d
	movl	1184(%rsp,%rbx,4), %r9d
	movl	1248(%rsp,%rbx,4), %r10d
	movl	%eax, 2400(%rsp)
	movl	%ecx, 2404(%rsp)
	movl	%edx, 2408(%rsp)
	movl	%r11d, 2412(%rsp)
	movl	%edi, 2416(%rsp)
	movl	%r8d, 2420(%rsp)
	movl	%r9d, 2424(%rsp)
	movl	%r10d, 2428(%rsp)
	leaq	(%r12,%rbx), %rdx
	leaq	2400(%rsp), %rcx
	movq	%r15, %rdi
	xorl	%r8d, %r8d
	vzeroupper
	callq	"keyed_blake3::tree::add_subtree_value"
	movq	24(%rsp), %rsi
	incq	%rbx
	cmpq	%rbx, %r13
	jne	L(5_28)
L(5_29):
	movl	796(%rsp,%r14,4), %eax
	movl	860(%rsp,%r14,4), %ecx
	movl	924(%rsp,%r14,4), %edx
	movl	988(%rsp,%r14,4), %r11d
	movl	1052(%rsp,%r14,4), %edi
	movl	1116(%rsp,%r14,4), %r8d
	movl	1180(%rsp,%r14,4), %r9d
	movl	1244(%rsp,%r14,4), %r10d
	movl	%eax, 96(%rsp)
	movl	%ecx, 100(%rsp)
	movl	%edx, 104(%rsp)
	movl	%r11d, 108(%rsp)
	movl	%edi, 112(%rsp)
	movl	%r8d, 116(%rsp)
	movl	%r9d, 120(%rsp)
	movl	%r10d, 124(%rsp)
	addq	%r13, %r12
	leaq	64(%rsi), %rdi
	leaq	96(%rsp), %rcx
	movq	%r12, %rdx
	movq	16(%rbp), %r8
	vzeroupper
	callq	"keyed_blake3::tree::add_subtree_value"
	leaq	-40(%rbp), %rsp
	popq	%rbx
	popq	%r12
	popq	%r13
	popq	%r14
	popq	%r15
	popq	%rbp
	.cfi_def_cfa %rsp, 8
	retq
L(5_23):
	.cfi_def_cfa %rbp, 16
	movq	24(%rsp), %rsi
	movq	%r14, %r13
	decq	%r13
	jne	L(5_27)
	jmp	L(5_29)
L(5_30):
	ud2
	SIZE("keyed_blake3::tree::Tree::absorb_subtrees::<#2e65a0a13cda87df>")
	.cfi_endproc

SIZED(32, 5)
	.p2align	5, 0x0
D(CPI6_0):
	.long	10
	.long	0
	.long	2
	.long	8
	.long	14
	.long	4
	.long	6
	.long	12
D(CPI6_1):
	.long	11
	.long	1
	.long	3
	.long	9
	.long	15
	.long	5
	.long	7
	.long	13
D(CPI6_2):
	.long	1779033703
	.long	3144134277
	.long	1013904242
	.long	2773480762
	.long	1779033703
	.long	3144134277
	.long	1013904242
	.long	2773480762
D(CPI6_3):
	.long	0
	.long	10
	.long	11
	.long	3
	.long	4
	.long	14
	.long	15
	.long	7
D(CPI6_4):
	.long	3
	.long	10
	.long	0
	.zero	4
	.long	7
	.long	14
	.long	4
	.zero	4
D(CPI6_5):
	.long	0
	.long	2
	.long	8
	.long	1
	.long	4
	.long	6
	.long	12
	.long	5
D(CPI6_6):
	.long	0
	.long	3
	.zero	4
	.long	10
	.long	4
	.long	7
	.zero	4
	.long	14
D(CPI6_7):
	.long	0
	.long	8
	.long	1
	.long	8
	.long	4
	.long	12
	.long	5
	.long	12
D(CPI6_8):
	.long	0
	.long	2
	.long	11
	.long	1
	.long	4
	.long	6
	.long	15
	.long	5
D(CPI6_9):
	.long	0
	.long	1
	.long	8
	.long	2
	.long	4
	.long	5
	.long	12
	.long	6
D(CPI6_10):
	.long	3
	.long	9
	.long	2
	.zero	4
	.long	7
	.long	13
	.long	6
	.zero	4
D(CPI6_11):
	.long	9
	.long	3
	.long	2
	.zero	4
	.long	13
	.long	7
	.long	6
	.zero	4
D(CPI6_12):
	.long	8
	.long	2
	.long	3
	.long	1
	.long	12
	.long	6
	.long	7
	.long	5
D(CPI6_13):
	.long	8
	.long	1
	.long	3
	.long	10
	.long	12
	.long	5
	.long	7
	.long	14
D(CPI6_14):
	.long	1
	.long	3
	.long	0
	.long	11
	.long	5
	.long	7
	.long	4
	.long	15
D(CPI6_15):
	.long	3
	.long	8
	.long	1
	.zero	4
	.long	7
	.long	12
	.long	5
	.zero	4
D(CPI6_16):
	.long	3
	.long	11
	.long	1
	.long	2
	.long	7
	.long	15
	.long	5
	.long	6
D(CPI6_17):
	.long	3
	.long	9
	.long	10
	.long	0
	.long	7
	.long	13
	.long	14
	.long	4
CODE(".text.keyed_blake3::compression::two::compress_two_from")
	.p2align	4
	TYPE("keyed_blake3::compression::two::compress_two_from", function)
"keyed_blake3::compression::two::compress_two_from":
	.cfi_startproc
	pushq	%rbp
	.cfi_def_cfa_offset 16
	.cfi_offset %rbp, -16
	movq	%rsp, %rbp
	.cfi_def_cfa_register %rbp
	andq	$-64, %rsp
	subq	$64, %rsp
	vmovups	(%rsi), %xmm3
	vmovups	16(%rsi), %xmm4
	vmovdqu	32(%rsi), %xmm6
	vinsertf128	$1, (%rdx), %ymm3, %ymm3
	vinsertf128	$1, 16(%rdx), %ymm4, %ymm5
	vinserti128	$1, 32(%rdx), %ymm6, %ymm4
	vmovdqu	48(%rsi), %xmm6
	vinserti128	$1, 48(%rdx), %ymm6, %ymm6
	vshufps	$136, %ymm5, %ymm3, %ymm8
	vshufps	$221, %ymm5, %ymm3, %ymm7
	vmovdqa	D(CPI6_0)(%rip), %ymm9
	vpermi2d	%ymm6, %ymm4, %ymm9
	vmovdqa	D(CPI6_1)(%rip), %ymm10
	vpermi2d	%ymm6, %ymm4, %ymm10
	vpaddd	%ymm0, %ymm1, %ymm0
	vpaddd	%ymm0, %ymm8, %ymm0
	vpxor	%ymm2, %ymm0, %ymm2
	vprold	$16, %ymm2, %ymm2
	vpaddd	D(CPI6_2)(%rip), %ymm2, %ymm11
	vpxor	%ymm1, %ymm11, %ymm1
	vprold	$20, %ymm1, %ymm1
	vpaddd	%ymm7, %ymm0, %ymm0
	vpaddd	%ymm1, %ymm0, %ymm0
	vpxor	%ymm2, %ymm0, %ymm2
	vprold	$24, %ymm2, %ymm2
	vpaddd	%ymm2, %ymm11, %ymm11
	vpxor	%ymm1, %ymm11, %ymm1
	vprold	$25, %ymm1, %ymm1
	vpshufd	$147, %ymm0, %ymm0
	vpaddd	%ymm0, %ymm9, %ymm0
	vpshufd	$57, %ymm11, %ymm9
	vpshufd	$78, %ymm2, %ymm2
	vpaddd	%ymm1, %ymm0, %ymm0
	vpxor	%ymm2, %ymm0, %ymm2
	vprold	$16, %ymm2, %ymm2
	vpaddd	%ymm2, %ymm9, %ymm9
	vpxor	%ymm1, %ymm9, %ymm1
	vprold	$20, %ymm1, %ymm1
	vpaddd	%ymm0, %ymm10, %ymm0
	vpaddd	%ymm1, %ymm0, %ymm12
	vpxor	%ymm2, %ymm12, %ymm0
	vprold	$24, %ymm0, %ymm0
	vpaddd	%ymm0, %ymm9, %ymm2
	vpxor	%ymm1, %ymm2, %ymm1
	vprold	$25, %ymm1, %ymm9
	vpshufd	$147, %ymm2, %ymm2
	vpshufd	$78, %ymm0, %ymm13
	vmovdqa	D(CPI6_3)(%rip), %ymm0
	vpermi2d	%ymm3, %ymm5, %ymm0
	vmovaps	D(CPI6_4)(%rip), %ymm1
	vpermi2ps	%ymm4, %ymm8, %ymm1
	vblendps	$136, %ymm10, %ymm1, %ymm11
	vpunpcklqdq	%ymm7, %ymm10, %ymm14
	vmovdqa64	D(CPI6_5)(%rip), %ymm19
	vpermt2d	%ymm6, %ymm19, %ymm14
	vmovdqa	D(CPI6_6)(%rip), %ymm1
	vpermi2d	%ymm6, %ymm4, %ymm1
	vpblendd	$68, %ymm7, %ymm1, %ymm15
	vpaddd	%ymm0, %ymm12, %ymm12
	vpshufd	$57, %ymm12, %ymm12
	vpaddd	%ymm12, %ymm9, %ymm12
	vpxor	%ymm13, %ymm12, %ymm13
	vprold	$16, %ymm13, %ymm13
	vpaddd	%ymm2, %ymm13, %ymm2
	vpxor	%ymm2, %ymm9, %ymm9
	vprold	$20, %ymm9, %ymm9
	vpaddd	%ymm11, %ymm12, %ymm12
	vpaddd	%ymm9, %ymm12, %ymm12
	vpxor	%ymm13, %ymm12, %ymm13
	vprold	$24, %ymm13, %ymm13
	vpaddd	%ymm2, %ymm13, %ymm2
	vpxor	%ymm2, %ymm9, %ymm9
	vprold	$25, %ymm9, %ymm9
	vpshufd	$147, %ymm12, %ymm12
	vpshufd	$57, %ymm2, %ymm2
	vpshufd	$78, %ymm13, %ymm13
	vpaddd	%ymm14, %ymm12, %ymm12
	vpaddd	%ymm9, %ymm12, %ymm12
	vpxor	%ymm13, %ymm12, %ymm13
	vprold	$16, %ymm13, %ymm13
	vpaddd	%ymm2, %ymm13, %ymm2
	vpxor	%ymm2, %ymm9, %ymm9
	vprold	$20, %ymm9, %ymm9
	vpaddd	%ymm15, %ymm12, %ymm12
	vpaddd	%ymm9, %ymm12, %ymm15
	vpxor	%ymm13, %ymm15, %ymm12
	vprold	$24, %ymm12, %ymm12
	vpaddd	%ymm2, %ymm12, %ymm2
	vpxor	%ymm2, %ymm9, %ymm9
	vprold	$25, %ymm9, %ymm13
	vpshufd	$147, %ymm2, %ymm16
	vpshufd	$78, %ymm12, %ymm17
	vshufps	$219, %ymm11, %ymm0, %ymm18
	vmovdqa	D(CPI6_7)(%rip), %ymm2
	vpermi2d	%ymm6, %ymm0, %ymm2
	vpblendd	$136, %ymm1, %ymm2, %ymm9
	vshufps	$172, %ymm5, %ymm4, %ymm21
	vmovaps	D(CPI6_8)(%rip), %ymm20
	vpermt2ps	%ymm14, %ymm20, %ymm21
	vpunpcklqdq	%ymm10, %ymm7, %ymm10
	vpblendd	$34, %ymm5, %ymm10, %ymm12
	vmovdqa	D(CPI6_9)(%rip), %ymm10
	vpermi2d	%ymm3, %ymm12, %ymm10
	vpaddd	%ymm18, %ymm15, %ymm14
	vpshufd	$57, %ymm14, %ymm14
	vpaddd	%ymm14, %ymm13, %ymm14
	vpxord	%ymm17, %ymm14, %ymm15
	vprold	$16, %ymm15, %ymm15
	vpaddd	%ymm16, %ymm15, %ymm16
	vpxord	%ymm13, %ymm16, %ymm13
	vprold	$20, %ymm13, %ymm13
	vpaddd	%ymm9, %ymm14, %ymm14
	vpaddd	%ymm13, %ymm14, %ymm14
	vpxor	%ymm15, %ymm14, %ymm15
	vprold	$24, %ymm15, %ymm15
	vpaddd	%ymm16, %ymm15, %ymm16
	vpxord	%ymm13, %ymm16, %ymm13
	vprold	$25, %ymm13, %ymm13
	vpshufd	$147, %ymm14, %ymm14
	vpaddd	%ymm21, %ymm14, %ymm14
	vpshufd	$57, %ymm16, %ymm16
	vpshufd	$78, %ymm15, %ymm15
	vpaddd	%ymm13, %ymm14, %ymm14
	vpxor	%ymm15, %ymm14, %ymm15
	vprold	$16, %ymm15, %ymm17
	vpaddd	%ymm16, %ymm17, %ymm16
	vpxord	%ymm13, %ymm16, %ymm13
	vprold	$20, %ymm13, %ymm13
	vpaddd	%ymm10, %ymm14, %ymm14
	vpaddd	%ymm13, %ymm14, %ymm15
	vpxord	%ymm17, %ymm15, %ymm14
	vprold	$24, %ymm14, %ymm17
	vpaddd	%ymm16, %ymm17, %ymm16
	vpxord	%ymm13, %ymm16, %ymm13
	vprold	$25, %ymm13, %ymm14
	vpshufd	$147, %ymm16, %ymm16
	vpshufd	$78, %ymm17, %ymm17
	vshufps	$215, %ymm9, %ymm11, %ymm21
	vmovdqa	D(CPI6_10)(%rip), %ymm13
	vpermi2d	%ymm4, %ymm0, %ymm13
	vpblendd	$136, %ymm10, %ymm13, %ymm10
	vpunpcklqdq	%ymm2, %ymm12, %ymm18
	vshufps	$167, %ymm18, %ymm11, %ymm22
	vpermt2d	%ymm4, %ymm20, %ymm18
	vshufps	$35, %ymm4, %ymm8, %ymm2
	vblendps	$68, %ymm3, %ymm2, %ymm12
	vpaddd	%ymm21, %ymm15, %ymm13
	vpshufd	$57, %ymm13, %ymm13
	vpaddd	%ymm13, %ymm14, %ymm13
	vpxord	%ymm17, %ymm13, %ymm15
	vprold	$16, %ymm15, %ymm15
	vpaddd	%ymm16, %ymm15, %ymm16
	vpxord	%ymm14, %ymm16, %ymm14
	vprold	$20, %ymm14, %ymm14
	vpaddd	%ymm10, %ymm13, %ymm13
	vpaddd	%ymm14, %ymm13, %ymm13
	vpxor	%ymm15, %ymm13, %ymm15
	vprold	$24, %ymm15, %ymm15
	vpaddd	%ymm16, %ymm15, %ymm16
	vpxord	%ymm14, %ymm16, %ymm14
	vprold	$25, %ymm14, %ymm14
	vpshufd	$147, %ymm13, %ymm13
	vpshufd	$57, %ymm16, %ymm16
	vpshufd	$78, %ymm15, %ymm15
	vpaddd	%ymm18, %ymm13, %ymm13
	vpaddd	%ymm14, %ymm13, %ymm13
	vpxor	%ymm15, %ymm13, %ymm15
	vprold	$16, %ymm15, %ymm15
	vpaddd	%ymm16, %ymm15, %ymm16
	vpxord	%ymm14, %ymm16, %ymm14
	vprold	$20, %ymm14, %ymm14
	vpaddd	%ymm12, %ymm13, %ymm12
	vpaddd	%ymm14, %ymm12, %ymm12
	vpxor	%ymm15, %ymm12, %ymm13
	vprold	$24, %ymm13, %ymm13
	vpaddd	%ymm16, %ymm13, %ymm15
	vpxor	%ymm14, %ymm15, %ymm14
	vprold	$25, %ymm14, %ymm14
	vpshufd	$147, %ymm15, %ymm15
	vpshufd	$78, %ymm13, %ymm13
	vmovdqa	D(CPI6_11)(%rip), %ymm11
	vpermi2d	%ymm6, %ymm4, %ymm11
	vpblendd	$136, %ymm2, %ymm11, %ymm2
	vshufps	$243, %ymm5, %ymm8, %ymm11
	vpermt2ps	%ymm18, %ymm20, %ymm11
	vmovdqa	D(CPI6_12)(%rip), %ymm8
	vpermi2d	%ymm5, %ymm3, %ymm8
	vpshufd	$57, %ymm12, %ymm12
	vmovdqa64	D(CPI6_13)(%rip), %ymm16
	vpermi2d	%ymm6, %ymm10, %ymm16
	vpaddd	%ymm16, %ymm12, %ymm12
	vpaddd	%ymm12, %ymm14, %ymm12
	vpxor	%ymm13, %ymm12, %ymm13
	vprold	$16, %ymm13, %ymm13
	vpaddd	%ymm15, %ymm13, %ymm15
	vpxor	%ymm14, %ymm15, %ymm14
	vprold	$20, %ymm14, %ymm14
	vpaddd	%ymm2, %ymm12, %ymm2
	vpaddd	%ymm2, %ymm14, %ymm2
	vpxor	%ymm2, %ymm13, %ymm12
	vprold	$24, %ymm12, %ymm12
	vpaddd	%ymm15, %ymm12, %ymm13
	vpxor	%ymm14, %ymm13, %ymm14
	vprold	$25, %ymm14, %ymm14
	vpshufd	$147, %ymm2, %ymm2
	vpaddd	%ymm2, %ymm11, %ymm2
	vpshufd	$57, %ymm13, %ymm11
	vpshufd	$78, %ymm12, %ymm12
	vpaddd	%ymm2, %ymm14, %ymm2
	vpxor	%ymm2, %ymm12, %ymm12
	vprold	$16, %ymm12, %ymm12
	vpaddd	%ymm11, %ymm12, %ymm11
	vpxor	%ymm14, %ymm11, %ymm13
	vprold	$20, %ymm13, %ymm13
	vpaddd	%ymm2, %ymm8, %ymm2
	vpaddd	%ymm2, %ymm13, %ymm14
	vpxor	%ymm12, %ymm14, %ymm2
	vprold	$24, %ymm2, %ymm2
	vpaddd	%ymm2, %ymm11, %ymm11
	vpxor	%ymm13, %ymm11, %ymm12
	vprold	$25, %ymm12, %ymm12
	vpshufd	$147, %ymm11, %ymm11
	vpshufd	$78, %ymm2, %ymm13
	vpblendd	$68, %ymm7, %ymm9, %ymm2
	vpshufd	$219, %ymm2, %ymm7
	vpblendd	$136, %ymm8, %ymm7, %ymm8
	vunpcklpd	%ymm21, %ymm0, %ymm9
	vpermt2ps	%ymm3, %ymm19, %ymm9
	vshufps	$171, %ymm5, %ymm0, %ymm5
	vblendps	$68, %ymm4, %ymm5, %ymm15
	vpshufd	$57, %ymm14, %ymm14
	vmovdqa64	D(CPI6_14)(%rip), %ymm16
	vpermi2d	%ymm6, %ymm4, %ymm16
	vpaddd	%ymm16, %ymm14, %ymm6
	vpaddd	%ymm6, %ymm12, %ymm6
	vpxor	%ymm6, %ymm13, %ymm13
	vprold	$16, %ymm13, %ymm13
	vpaddd	%ymm11, %ymm13, %ymm11
	vpxor	%ymm12, %ymm11, %ymm12
	vprold	$20, %ymm12, %ymm12
	vpaddd	%ymm6, %ymm8, %ymm6
	vpaddd	%ymm6, %ymm12, %ymm6
	vpxor	%ymm6, %ymm13, %ymm8
	vprold	$24, %ymm8, %ymm8
	vpaddd	%ymm11, %ymm8, %ymm11
	vpxor	%ymm12, %ymm11, %ymm12
	vprold	$25, %ymm12, %ymm12
	vpshufd	$147, %ymm6, %ymm6
	vpaddd	%ymm6, %ymm9, %ymm6
	vpshufd	$57, %ymm11, %ymm9
	vpshufd	$78, %ymm8, %ymm8
	vpaddd	%ymm6, %ymm12, %ymm6
	vpxor	%ymm6, %ymm8, %ymm8
	vprold	$16, %ymm8, %ymm8
	vpaddd	%ymm9, %ymm8, %ymm9
	vpxor	%ymm12, %ymm9, %ymm11
	vprold	$20, %ymm11, %ymm11
	vpaddd	%ymm6, %ymm15, %ymm6
	vpaddd	%ymm6, %ymm11, %ymm6
	vpxor	%ymm6, %ymm8, %ymm8
	vprold	$24, %ymm8, %ymm8
	vpaddd	%ymm9, %ymm8, %ymm9
	vpxor	%ymm11, %ymm9, %ymm11
	vprold	$25, %ymm11, %ymm11
	vpshufd	$147, %ymm9, %ymm9
	vpshufd	$78, %ymm8, %ymm8
	vmovdqa	D(CPI6_15)(%rip), %ymm12
	vpermi2d	%ymm3, %ymm10, %ymm12
	vpblendd	$136, %ymm5, %ymm12, %ymm5
	vmovaps	D(CPI6_16)(%rip), %ymm10
	vpermi2ps	%ymm1, %ymm0, %ymm10
	vmovaps	%ymm22, %ymm0
	vblendps	$68, %ymm7, %ymm0, %ymm0
	vpshufd	$57, %ymm6, %ymm1
	vshufps	$91, %ymm3, %ymm2, %ymm2
	vmovaps	D(CPI6_17)(%rip), %ymm3
	vpermi2ps	%ymm2, %ymm4, %ymm3
	vpaddd	%ymm3, %ymm1, %ymm1
	vpaddd	%ymm1, %ymm11, %ymm1
	vpxor	%ymm1, %ymm8, %ymm2
	vprold	$16, %ymm2, %ymm2
	vpaddd	%ymm2, %ymm9, %ymm3
	vpxor	%ymm3, %ymm11, %ymm4
	vprold	$20, %ymm4, %ymm4
	vpaddd	%ymm5, %ymm1, %ymm1
	vpaddd	%ymm4, %ymm1, %ymm1
	vpxor	%ymm2, %ymm1, %ymm2
	vprold	$24, %ymm2, %ymm2
	vpaddd	%ymm3, %ymm2, %ymm3
	vpxor	%ymm4, %ymm3, %ymm4
	vprold	$25, %ymm4, %ymm4
	vpshufd	$147, %ymm1, %ymm1
	vpaddd	%ymm1, %ymm10, %ymm1
	vpshufd	$57, %ymm3, %ymm3
	vpshufd	$78, %ymm2, %ymm2
	vpaddd	%ymm4, %ymm1, %ymm1
	vpxor	%ymm2, %ymm1, %ymm2
	vprold	$16, %ymm2, %ymm2
	vpaddd	%ymm3, %ymm2, %ymm3
	vpxor	%ymm4, %ymm3, %ymm4
	vprold	$20, %ymm4, %ymm4
	vpaddd	%ymm0, %ymm1, %ymm0
	vpaddd	%ymm4, %ymm0, %ymm0
	vpxor	%ymm2, %ymm0, %ymm1
	vprold	$24, %ymm1, %ymm1
	vpaddd	%ymm3, %ymm1, %ymm2
	vpxor	%ymm4, %ymm2, %ymm3
	vprold	$25, %ymm3, %ymm3
	vpshufd	$57, %ymm0, %ymm0
	vpshufd	$147, %ymm2, %ymm2
	vpxor	%ymm0, %ymm2, %ymm0
	vpshufd	$78, %ymm1, %ymm1
	vpxor	%ymm1, %ymm3, %ymm1
	vmovdqu	%ymm0, (%rdi)
	vmovdqu	%ymm1, 32(%rdi)
	movq	%rbp, %rsp
	popq	%rbp
	.cfi_def_cfa %rsp, 8
	vzeroupper
	retq
	SIZE("keyed_blake3::compression::two::compress_two_from")
	.cfi_endproc

CONSTANTS(.rodata)
	.p2align	6, 0x0
D(CPI7_0):
	.long	0
	.long	18
	.long	19
	.long	3
	.long	4
	.long	22
	.long	23
	.long	7
	.long	8
	.long	26
	.long	27
	.long	11
	.long	12
	.long	30
	.long	31
	.long	15
D(CPI7_1):
	.long	18
	.long	0
	.long	2
	.long	16
	.long	22
	.long	4
	.long	6
	.long	20
	.long	26
	.long	8
	.long	10
	.long	24
	.long	30
	.long	12
	.long	14
	.long	28
D(CPI7_2):
	.long	19
	.long	1
	.long	3
	.long	17
	.long	23
	.long	5
	.long	7
	.long	21
	.long	27
	.long	9
	.long	11
	.long	25
	.long	31
	.long	13
	.long	15
	.long	29
D(CPI7_3):
	.long	1779033703
	.long	3144134277
	.long	1013904242
	.long	2773480762
	.long	1779033703
	.long	3144134277
	.long	1013904242
	.long	2773480762
	.long	1779033703
	.long	3144134277
	.long	1013904242
	.long	2773480762
	.long	1779033703
	.long	3144134277
	.long	1013904242
	.long	2773480762
D(CPI7_4):
	.long	3
	.long	16
	.long	0
	.long	18
	.long	7
	.long	20
	.long	4
	.long	22
	.long	11
	.long	24
	.long	8
	.long	26
	.long	15
	.long	28
	.long	12
	.long	30
D(CPI7_5):
	.long	0
	.long	2
	.long	16
	.long	1
	.long	4
	.long	6
	.long	20
	.long	5
	.long	8
	.long	10
	.long	24
	.long	9
	.long	12
	.long	14
	.long	28
	.long	13
D(CPI7_6):
	.long	0
	.long	1
	.long	17
	.long	2
	.long	4
	.long	5
	.long	21
	.long	6
	.long	8
	.long	9
	.long	25
	.long	10
	.long	12
	.long	13
	.long	29
	.long	14
D(CPI7_7):
	.long	0
	.long	16
	.long	1
	.long	18
	.long	4
	.long	20
	.long	5
	.long	22
	.long	8
	.long	24
	.long	9
	.long	26
	.long	12
	.long	28
	.long	13
	.long	30
D(CPI7_8):
	.long	0
	.long	2
	.long	17
	.long	1
	.long	4
	.long	6
	.long	21
	.long	5
	.long	8
	.long	10
	.long	25
	.long	9
	.long	12
	.long	14
	.long	29
	.long	13
D(CPI7_9):
	.long	0
	.long	1
	.long	16
	.long	2
	.long	4
	.long	5
	.long	20
	.long	6
	.long	8
	.long	9
	.long	24
	.long	10
	.long	12
	.long	13
	.long	28
	.long	14
D(CPI7_10):
	.long	0
	.long	17
	.long	1
	.long	16
	.long	4
	.long	21
	.long	5
	.long	20
	.long	8
	.long	25
	.long	9
	.long	24
	.long	12
	.long	29
	.long	13
	.long	28
D(CPI7_11):
	.long	0
	.long	2
	.long	19
	.long	1
	.long	4
	.long	6
	.long	23
	.long	5
	.long	8
	.long	10
	.long	27
	.long	9
	.long	12
	.long	14
	.long	31
	.long	13
D(CPI7_12):
	.long	0
	.long	1
	.long	18
	.long	2
	.long	4
	.long	5
	.long	22
	.long	6
	.long	8
	.long	9
	.long	26
	.long	10
	.long	12
	.long	13
	.long	30
	.long	14
D(CPI7_13):
	.long	0
	.long	19
	.long	1
	.long	16
	.long	4
	.long	23
	.long	5
	.long	20
	.long	8
	.long	27
	.long	9
	.long	24
	.long	12
	.long	31
	.long	13
	.long	28
D(CPI7_14):
	.long	2
	.long	3
	.long	1
	.long	16
	.long	6
	.long	7
	.long	5
	.long	20
	.long	10
	.long	11
	.long	9
	.long	24
	.long	14
	.long	15
	.long	13
	.long	28
D(CPI7_15):
	.long	0
	.long	1
	.long	2
	.long	17
	.long	4
	.long	5
	.long	6
	.long	21
	.long	8
	.long	9
	.long	10
	.long	25
	.long	12
	.long	13
	.long	14
	.long	29
D(CPI7_16):
	.long	0
	.long	17
	.long	3
	.long	2
	.long	4
	.long	21
	.long	7
	.long	6
	.long	8
	.long	25
	.long	11
	.long	10
	.long	12
	.long	29
	.long	15
	.long	14
D(CPI7_17):
	.long	2
	.long	18
	.long	0
	.long	16
	.long	6
	.long	22
	.long	4
	.long	20
	.long	10
	.long	26
	.long	8
	.long	24
	.long	14
	.long	30
	.long	12
	.long	28
D(CPI7_18):
	.long	1
	.long	3
	.long	0
	.long	19
	.long	5
	.long	7
	.long	4
	.long	23
	.long	9
	.long	11
	.long	8
	.long	27
	.long	13
	.long	15
	.long	12
	.long	31
D(CPI7_19):
	.long	0
	.long	16
	.long	1
	.long	19
	.long	4
	.long	20
	.long	5
	.long	23
	.long	8
	.long	24
	.long	9
	.long	27
	.long	12
	.long	28
	.long	13
	.long	31
D(CPI7_20):
	.long	3
	.long	18
	.long	1
	.long	2
	.long	7
	.long	22
	.long	5
	.long	6
	.long	11
	.long	26
	.long	9
	.long	10
	.long	15
	.long	30
	.long	13
	.long	14
D(CPI7_21):
	.long	3
	.long	18
	.long	16
	.long	0
	.long	7
	.long	22
	.long	20
	.long	4
	.long	11
	.long	26
	.long	24
	.long	8
	.long	15
	.long	30
	.long	28
	.long	12
D(CPI7_22):
	.long	0
	.long	4
	.long	8
	.long	12
	.long	1
	.long	5
	.long	9
	.long	13
	.long	2
	.long	6
	.long	10
	.long	14
	.long	3
	.long	7
	.long	11
	.long	15
CODE(".text.keyed_blake3::four_chunks::four_chunk_values")
	.p2align	4
	TYPE("keyed_blake3::four_chunks::four_chunk_values", function)
"keyed_blake3::four_chunks::four_chunk_values":
	.cfi_startproc
	pushq	%rbp
	.cfi_def_cfa_offset 16
	.cfi_offset %rbp, -16
	movq	%rsp, %rbp
	.cfi_def_cfa_register %rbp
	pushq	%r14
	pushq	%rbx
	andq	$-64, %rsp
	subq	$64, %rsp
	.cfi_offset %rbx, -32
	.cfi_offset %r14, -24
	vshufi64x2	$0, %zmm0, %zmm0, %zmm13
	vshufi64x2	$0, %zmm1, %zmm1, %zmm12
	movq	(%rdx), %rax
	movq	8(%rdx), %r8
	movq	16(%rdx), %r9
	movq	24(%rdx), %rdx
	movq	%rax, %r10
	shlq	$10, %r10
	movq	%r8, %r11
	shlq	$10, %r11
	movq	%r9, %rbx
	shlq	$10, %rbx
	movq	%rdx, %r14
	shlq	$10, %r14
	addq	%rcx, %rax
	vmovq	%rax, %xmm0
	movl	$64, %eax
	vpinsrd	$2, %eax, %xmm0, %xmm0
	vmovdqa64	%xmm0, %xmm24
	addq	%rcx, %r8
	vmovq	%r8, %xmm1
	vpinsrd	$2, %eax, %xmm1, %xmm1
	addq	%rcx, %r9
	vmovq	%r9, %xmm2
	vpinsrd	$2, %eax, %xmm2, %xmm2
	addq	%rcx, %rdx
	vmovq	%rdx, %xmm3
	vpinsrd	$2, %eax, %xmm3, %xmm3
	leaq	(%r14,%rsi), %rax
	addq	$48, %rax
	leaq	(%rbx,%rsi), %rcx
	addq	$48, %rcx
	leaq	(%r11,%rsi), %rdx
	addq	$48, %rdx
	addq	%r10, %rsi
	addq	$48, %rsi
	xorl	%r8d, %r8d
	.p2align	4
L(7_1):
	vmovdqu	-48(%rcx,%r8), %xmm4
	vmovdqu	-32(%rcx,%r8), %xmm5
	vmovups	-16(%rcx,%r8), %xmm6
	vinserti128	$1, -48(%rax,%r8), %ymm4, %ymm4
	vmovups	(%rcx,%r8), %xmm7
	vmovdqu	-48(%rsi,%r8), %xmm8
	vmovdqu	-32(%rsi,%r8), %xmm9
	vmovups	-16(%rsi,%r8), %xmm10
	vinserti128	$1, -48(%rdx,%r8), %ymm8, %ymm8
	vinserti128	$1, -32(%rax,%r8), %ymm5, %ymm5
	vinserti128	$1, -32(%rdx,%r8), %ymm9, %ymm9
	vinsertf128	$1, -16(%rax,%r8), %ymm6, %ymm6
	vinsertf128	$1, -16(%rdx,%r8), %ymm10, %ymm14
	vinsertf128	$1, (%rax,%r8), %ymm7, %ymm7
	vmovups	(%rsi,%r8), %xmm10
	vinsertf128	$1, (%rdx,%r8), %ymm10, %ymm15
	cmpq	$1, %r8
	movl	$0, %r9d
	adcl	$16, %r9d
	cmpq	$960, %r8
	movl	$18, %r10d
	cmovnel	%r9d, %r10d
	vinserti64x4	$1, %ymm4, %zmm8, %zmm10
	vinserti64x4	$1, %ymm5, %zmm9, %zmm11
	vmovdqa64	%xmm24, %xmm0
	vpinsrd	$3, %r10d, %xmm0, %xmm0
	vinsertf64x4	$1, %ymm6, %zmm14, %zmm5
	vmovdqa64	D(CPI7_0)(%rip), %zmm6
	vpinsrd	$3, %r10d, %xmm1, %xmm14
	vinsertf64x4	$1, %ymm7, %zmm15, %zmm4
	vmovdqa64	D(CPI7_1)(%rip), %zmm16
	vpinsrd	$3, %r10d, %xmm2, %xmm7
	vpermi2d	%zmm10, %zmm11, %zmm6
	vmovdqa64	D(CPI7_2)(%rip), %zmm8
	vpinsrd	$3, %r10d, %xmm3, %xmm15
	vshufps	$136, %zmm11, %zmm10, %zmm9
	vinserti128	$1, %xmm15, %ymm7, %ymm7
	vinserti128	$1, %xmm14, %ymm0, %ymm0
	vinserti64x4	$1, %ymm7, %zmm0, %zmm0
	vshufps	$221, %zmm11, %zmm10, %zmm7
	vpaddd	%zmm12, %zmm13, %zmm13
	vpaddd	%zmm9, %zmm13, %zmm13
	vpxord	%zmm0, %zmm13, %zmm0
	vprold	$16, %zmm0, %zmm0
	vpaddd	D(CPI7_3)(%rip), %zmm0, %zmm14
	vpxord	%zmm12, %zmm14, %zmm12
	vshufps	$214, %zmm4, %zmm5, %zmm15
	vprold	$20, %zmm12, %zmm12
	vpaddd	%zmm7, %zmm13, %zmm13
	vpaddd	%zmm12, %zmm13, %zmm13
	vpermi2d	%zmm4, %zmm5, %zmm16
	vpxord	%zmm0, %zmm13, %zmm0
	vprold	$24, %zmm0, %zmm0
	vpaddd	%zmm14, %zmm0, %zmm14
	vpxord	%zmm12, %zmm14, %zmm12
	vprold	$25, %zmm12, %zmm12
	vpshufd	$147, %zmm13, %zmm13
	vpaddd	%zmm16, %zmm13, %zmm13
	vpermi2d	%zmm4, %zmm5, %zmm8
	vpshufd	$78, %zmm0, %zmm0
	vpaddd	%zmm12, %zmm13, %zmm13
	vpxord	%zmm0, %zmm13, %zmm0
	vpshufd	$57, %zmm14, %zmm14
	vprold	$16, %zmm0, %zmm0
	vpaddd	%zmm14, %zmm0, %zmm14
	vpxord	%zmm12, %zmm14, %zmm12
	vprold	$20, %zmm12, %zmm16
	vpaddd	%zmm8, %zmm13, %zmm12
	vpaddd	%zmm16, %zmm12, %zmm13
	vpxord	%zmm0, %zmm13, %zmm0
	vprold	$24, %zmm0, %zmm0
	vpaddd	%zmm14, %zmm0, %zmm14
	vmovdqa64	D(CPI7_4)(%rip), %zmm17
	vpermi2d	%zmm15, %zmm9, %zmm17
	vpshufd	$78, %zmm0, %zmm0
	vpunpcklqdq	%zmm7, %zmm8, %zmm18
	vmovdqa64	D(CPI7_5)(%rip), %zmm12
	vshufps	$236, %zmm4, %zmm5, %zmm19
	vpxord	%zmm16, %zmm14, %zmm16
	vmovaps	D(CPI7_6)(%rip), %zmm20
	vpermi2ps	%zmm11, %zmm19, %zmm20
	vpaddd	%zmm6, %zmm13, %zmm13
	vprold	$25, %zmm16, %zmm16
	vpshufd	$57, %zmm13, %zmm13
	vpaddd	%zmm13, %zmm16, %zmm13
	vpxord	%zmm0, %zmm13, %zmm0
	vpshufd	$147, %zmm14, %zmm14
	vprold	$16, %zmm0, %zmm0
	vpaddd	%zmm14, %zmm0, %zmm14
	vpxord	%zmm16, %zmm14, %zmm16
	vprold	$20, %zmm16, %zmm16
	vpaddd	%zmm17, %zmm13, %zmm13
	vpaddd	%zmm16, %zmm13, %zmm13
	vpxord	%zmm0, %zmm13, %zmm0
	vpermt2d	%zmm4, %zmm12, %zmm18
	vprold	$24, %zmm0, %zmm0
	vpaddd	%zmm14, %zmm0, %zmm14
	vpxord	%zmm16, %zmm14, %zmm16
	vprold	$25, %zmm16, %zmm16
	vpshufd	$147, %zmm13, %zmm13
	vpaddd	%zmm18, %zmm13, %zmm13
	vpshufd	$78, %zmm0, %zmm0
	vpshufd	$57, %zmm14, %zmm14
	vpaddd	%zmm16, %zmm13, %zmm13
	vpxord	%zmm0, %zmm13, %zmm0
	vprold	$16, %zmm0, %zmm0
	vpaddd	%zmm14, %zmm0, %zmm17
	vpxord	%zmm16, %zmm17, %zmm14
	vprold	$20, %zmm14, %zmm16
	vpaddd	%zmm20, %zmm13, %zmm13
	vshufps	$139, %zmm15, %zmm6, %zmm14
	vpaddd	%zmm16, %zmm13, %zmm18
	vpxord	%zmm0, %zmm18, %zmm0
	vprold	$24, %zmm0, %zmm0
	vpaddd	%zmm17, %zmm0, %zmm17
	vpshufd	$78, %zmm0, %zmm0
	vmovdqa64	D(CPI7_7)(%rip), %zmm19
	vpermi2d	%zmm4, %zmm6, %zmm19
	vpxord	%zmm16, %zmm17, %zmm16
	vshufps	$236, %zmm11, %zmm5, %zmm20
	vmovaps	D(CPI7_8)(%rip), %zmm21
	vmovaps	D(CPI7_9)(%rip), %zmm13
	vprold	$25, %zmm16, %zmm16
	vpaddd	%zmm14, %zmm18, %zmm18
	vpshufd	$57, %zmm18, %zmm18
	vpaddd	%zmm18, %zmm16, %zmm18
	vpshufd	$147, %zmm17, %zmm17
	vpxord	%zmm0, %zmm18, %zmm0
	vprold	$16, %zmm0, %zmm0
	vpaddd	%zmm17, %zmm0, %zmm17
	vpermi2ps	%zmm8, %zmm20, %zmm21
	vpxord	%zmm16, %zmm17, %zmm16
	vprold	$20, %zmm16, %zmm16
	vpaddd	%zmm19, %zmm18, %zmm18
	vshufps	$200, %zmm8, %zmm7, %zmm19
	vpaddd	%zmm16, %zmm18, %zmm18
	vpxord	%zmm0, %zmm18, %zmm0
	vprold	$24, %zmm0, %zmm0
	vpermt2ps	%zmm10, %zmm13, %zmm19
	vpaddd	%zmm17, %zmm0, %zmm17
	vpxord	%zmm16, %zmm17, %zmm16
	vpshufd	$147, %zmm18, %zmm18
	vprold	$25, %zmm16, %zmm16
	vpaddd	%zmm21, %zmm18, %zmm18
	vpshufd	$78, %zmm0, %zmm0
	vpaddd	%zmm16, %zmm18, %zmm18
	vpshufd	$57, %zmm17, %zmm17
	vpxord	%zmm0, %zmm18, %zmm0
	vprold	$16, %zmm0, %zmm0
	vpaddd	%zmm17, %zmm0, %zmm17
	vpxord	%zmm16, %zmm17, %zmm16
	vprold	$20, %zmm16, %zmm16
	vpaddd	%zmm19, %zmm18, %zmm18
	vpaddd	%zmm16, %zmm18, %zmm18
	vpxord	%zmm0, %zmm18, %zmm0
	vprold	$24, %zmm0, %zmm0
	vpaddd	%zmm17, %zmm0, %zmm19
	vshufps	$130, %zmm4, %zmm15, %zmm17
	vpshufd	$78, %zmm0, %zmm0
	vmovdqa64	D(CPI7_10)(%rip), %zmm20
	vpermi2d	%zmm8, %zmm14, %zmm20
	vshufps	$8, %zmm11, %zmm7, %zmm15
	vpxord	%zmm16, %zmm19, %zmm21
	vmovaps	D(CPI7_11)(%rip), %zmm22
	vmovaps	D(CPI7_12)(%rip), %zmm16
	vpaddd	%zmm17, %zmm18, %zmm18
	vprold	$25, %zmm21, %zmm21
	vpshufd	$57, %zmm18, %zmm18
	vpaddd	%zmm18, %zmm21, %zmm18
	vpxord	%zmm0, %zmm18, %zmm0
	vpshufd	$147, %zmm19, %zmm19
	vprold	$16, %zmm0, %zmm0
	vpaddd	%zmm19, %zmm0, %zmm19
	vpxord	%zmm21, %zmm19, %zmm21
	vshufps	$195, %zmm5, %zmm9, %zmm23
	vprold	$20, %zmm21, %zmm21
	vpaddd	%zmm20, %zmm18, %zmm18
	vpaddd	%zmm21, %zmm18, %zmm18
	vpermi2ps	%zmm5, %zmm15, %zmm22
	vpxord	%zmm0, %zmm18, %zmm0
	vprold	$24, %zmm0, %zmm0
	vpaddd	%zmm19, %zmm0, %zmm19
	vpxord	%zmm21, %zmm19, %zmm20
	vprold	$25, %zmm20, %zmm20
	vpshufd	$147, %zmm18, %zmm18
	vpaddd	%zmm22, %zmm18, %zmm18
	vpermt2ps	%zmm10, %zmm16, %zmm23
	vpshufd	$57, %zmm19, %zmm19
	vpshufd	$78, %zmm0, %zmm0
	vpaddd	%zmm20, %zmm18, %zmm18
	vpxord	%zmm0, %zmm18, %zmm0
	vprold	$16, %zmm0, %zmm0
	vpaddd	%zmm19, %zmm0, %zmm19
	vpxord	%zmm20, %zmm19, %zmm20
	vprold	$20, %zmm20, %zmm20
	vpaddd	%zmm23, %zmm18, %zmm18
	vpaddd	%zmm20, %zmm18, %zmm18
	vpxord	%zmm0, %zmm18, %zmm0
	vprold	$24, %zmm0, %zmm0
	vpaddd	%zmm19, %zmm0, %zmm19
	vmovdqa64	D(CPI7_13)(%rip), %zmm21
	vpermi2d	%zmm5, %zmm17, %zmm21
	vpxord	%zmm20, %zmm19, %zmm20
	vmovaps	D(CPI7_14)(%rip), %zmm22
	vpermi2ps	%zmm10, %zmm11, %zmm22
	vpshufd	$57, %zmm18, %zmm18
	vprold	$25, %zmm20, %zmm20
	vmovdqa64	D(CPI7_16)(%rip), %zmm23
	vpermi2d	%zmm5, %zmm4, %zmm23
	vpaddd	%zmm23, %zmm18, %zmm18
	vpshufd	$78, %zmm0, %zmm0
	vmovaps	D(CPI7_15)(%rip), %zmm23
	vpaddd	%zmm18, %zmm20, %zmm18
	vpxord	%zmm0, %zmm18, %zmm0
	vpshufd	$147, %zmm19, %zmm19
	vprold	$16, %zmm0, %zmm0
	vpaddd	%zmm19, %zmm0, %zmm19
	vpxord	%zmm20, %zmm19, %zmm20
	vshufpd	$170, %zmm15, %zmm17, %zmm15
	vprold	$20, %zmm20, %zmm20
	vpaddd	%zmm21, %zmm18, %zmm18
	vpaddd	%zmm20, %zmm18, %zmm18
	vpermi2ps	%zmm10, %zmm6, %zmm23
	vpxord	%zmm0, %zmm18, %zmm0
	vprold	$24, %zmm0, %zmm0
	vpaddd	%zmm19, %zmm0, %zmm19
	vpxord	%zmm20, %zmm19, %zmm20
	vprold	$25, %zmm20, %zmm20
	vpshufd	$147, %zmm18, %zmm18
	vpaddd	%zmm22, %zmm18, %zmm18
	vpshufd	$57, %zmm19, %zmm19
	vpshufd	$78, %zmm0, %zmm0
	vpaddd	%zmm20, %zmm18, %zmm18
	vpxord	%zmm0, %zmm18, %zmm0
	vprold	$16, %zmm0, %zmm0
	vpaddd	%zmm19, %zmm0, %zmm19
	vpxord	%zmm20, %zmm19, %zmm20
	vpaddd	%zmm23, %zmm18, %zmm18
	vprold	$20, %zmm20, %zmm20
	vpaddd	%zmm20, %zmm18, %zmm18
	vpxord	%zmm0, %zmm18, %zmm0
	vprold	$24, %zmm0, %zmm0
	vpaddd	%zmm19, %zmm0, %zmm19
	vpshufd	$78, %zmm0, %zmm0
	vmovaps	D(CPI7_17)(%rip), %zmm21
	vpermi2ps	%zmm7, %zmm4, %zmm21
	vpxord	%zmm20, %zmm19, %zmm20
	vpunpcklqdq	%zmm17, %zmm6, %zmm17
	vpshufd	$57, %zmm18, %zmm18
	vmovdqa64	D(CPI7_18)(%rip), %zmm22
	vprold	$25, %zmm20, %zmm20
	vpermi2d	%zmm4, %zmm5, %zmm22
	vpaddd	%zmm22, %zmm18, %zmm18
	vpaddd	%zmm18, %zmm20, %zmm18
	vpshufd	$147, %zmm19, %zmm19
	vpxord	%zmm0, %zmm18, %zmm0
	vprold	$16, %zmm0, %zmm0
	vpaddd	%zmm19, %zmm0, %zmm19
	vshufpd	$170, %zmm11, %zmm14, %zmm11
	vpxord	%zmm20, %zmm19, %zmm14
	vprold	$20, %zmm14, %zmm14
	vpaddd	%zmm21, %zmm18, %zmm18
	vpermt2d	%zmm10, %zmm12, %zmm17
	vpaddd	%zmm14, %zmm18, %zmm10
	vpxord	%zmm0, %zmm10, %zmm0
	vprold	$24, %zmm0, %zmm0
	vpermt2ps	%zmm5, %zmm16, %zmm11
	vpaddd	%zmm19, %zmm0, %zmm12
	vpxord	%zmm14, %zmm12, %zmm14
	vpshufd	$147, %zmm10, %zmm10
	vprold	$25, %zmm14, %zmm14
	vpaddd	%zmm17, %zmm10, %zmm10
	vpshufd	$78, %zmm0, %zmm0
	vpaddd	%zmm14, %zmm10, %zmm10
	vpshufd	$57, %zmm12, %zmm12
	vpxord	%zmm0, %zmm10, %zmm0
	vprold	$16, %zmm0, %zmm0
	vpaddd	%zmm12, %zmm0, %zmm12
	vpxord	%zmm14, %zmm12, %zmm14
	vprold	$20, %zmm14, %zmm14
	vpaddd	%zmm11, %zmm10, %zmm10
	vpaddd	%zmm14, %zmm10, %zmm10
	vpxord	%zmm0, %zmm10, %zmm0
	vprold	$24, %zmm0, %zmm0
	vpaddd	%zmm12, %zmm0, %zmm11
	vmovaps	D(CPI7_19)(%rip), %zmm12
	vpshufd	$78, %zmm0, %zmm0
	vpermi2ps	%zmm9, %zmm8, %zmm12
	vmovdqa64	D(CPI7_20)(%rip), %zmm8
	vpermi2d	%zmm4, %zmm6, %zmm8
	vpxord	%zmm14, %zmm11, %zmm6
	vpshufd	$57, %zmm10, %zmm9
	vmovaps	D(CPI7_21)(%rip), %zmm10
	vpermi2ps	%zmm7, %zmm5, %zmm10
	vprold	$25, %zmm6, %zmm5
	vpaddd	%zmm10, %zmm9, %zmm6
	vpaddd	%zmm6, %zmm5, %zmm6
	vpxord	%zmm0, %zmm6, %zmm0
	vpshufd	$147, %zmm11, %zmm7
	vprold	$16, %zmm0, %zmm0
	vpaddd	%zmm7, %zmm0, %zmm7
	vpxord	%zmm5, %zmm7, %zmm5
	vprold	$20, %zmm5, %zmm5
	vpaddd	%zmm12, %zmm6, %zmm6
	vpaddd	%zmm5, %zmm6, %zmm6
	vpxord	%zmm0, %zmm6, %zmm0
	vpermt2ps	%zmm4, %zmm13, %zmm15
	vprold	$24, %zmm0, %zmm0
	vpaddd	%zmm7, %zmm0, %zmm4
	vpxord	%zmm5, %zmm4, %zmm5
	vprold	$25, %zmm5, %zmm5
	vpshufd	$147, %zmm6, %zmm6
	vpaddd	%zmm8, %zmm6, %zmm6
	vpshufd	$78, %zmm0, %zmm0
	vpshufd	$57, %zmm4, %zmm4
	vpaddd	%zmm5, %zmm6, %zmm6
	vpxord	%zmm0, %zmm6, %zmm0
	vprold	$16, %zmm0, %zmm0
	vpaddd	%zmm4, %zmm0, %zmm4
	vpxord	%zmm5, %zmm4, %zmm5
	vprold	$20, %zmm5, %zmm5
	vpaddd	%zmm15, %zmm6, %zmm6
	vpaddd	%zmm5, %zmm6, %zmm6
	vpxord	%zmm0, %zmm6, %zmm0
	vprold	$24, %zmm0, %zmm0
	vpaddd	%zmm4, %zmm0, %zmm4
	vpxord	%zmm5, %zmm4, %zmm5
	vprold	$25, %zmm5, %zmm5
	vpshufd	$57, %zmm6, %zmm6
	vpshufd	$147, %zmm4, %zmm4
	vpxord	%zmm6, %zmm4, %zmm13
	vpshufd	$78, %zmm0, %zmm0
	vpxord	%zmm0, %zmm5, %zmm12
	addq	$64, %r8
	cmpq	$1024, %r8
	jne	L(7_1)
	vmovdqa64	D(CPI7_22)(%rip), %zmm0
	vpermd	%zmm13, %zmm0, %zmm1
	vpermd	%zmm12, %zmm0, %zmm0
	vmovdqu64	%zmm1, (%rdi)
	vmovdqu64	%zmm0, 64(%rdi)
	leaq	-16(%rbp), %rsp
	popq	%rbx
	popq	%r14
	popq	%rbp
	.cfi_def_cfa %rsp, 8
	vzeroupper
	retq
	SIZE("keyed_blake3::four_chunks::four_chunk_values")
	.cfi_endproc

SIZED(4, 2)
	.p2align	2, 0x0
D(CPI8_1):
	.long	1779033703
D(CPI8_2):
	.long	3144134277
D(CPI8_3):
	.long	1013904242
D(CPI8_4):
	.long	2773480762
D(CPI8_5):
	.byte	64
	.byte	0
	.byte	0
	.byte	0
CODE(".text.keyed_blake3::chunks::chunk_values::<#2e65a0a13cda87df>")
	.p2align	4
	TYPE("keyed_blake3::chunks::chunk_values::<#2e65a0a13cda87df>", function)
"keyed_blake3::chunks::chunk_values::<#2e65a0a13cda87df>":
	.cfi_startproc
	pushq	%rbp
	.cfi_def_cfa_offset 16
	.cfi_offset %rbp, -16
	movq	%rsp, %rbp
	.cfi_def_cfa_register %rbp
	pushq	%r15
	pushq	%r14
	pushq	%r13
	pushq	%r12
	pushq	%rbx
	andq	$-64, %rsp
	subq	$1408, %rsp
	.cfi_offset %rbx, -56
	.cfi_offset %r12, -48
	.cfi_offset %r13, -40
	.cfi_offset %r14, -32
	.cfi_offset %r15, -24
	movq	%rcx, %r15
	movq	%rdx, %r14
	movq	%rdi, 16(%rsp)
	vpbroadcastq	%r8, %zmm0
	vpaddq	(%rcx), %zmm0, %zmm1
	vpaddq	64(%rcx), %zmm0, %zmm0
	vpsrlq	$32, %zmm0, %zmm2
	vpsrlq	$32, %zmm1, %zmm3
	vpmovqd	%zmm3, %ymm3
	vpmovqd	%zmm2, %ymm2
	vinserti64x4	$1, %ymm2, %zmm3, %zmm2
	vmovdqa64	%zmm2, 320(%rsp)
	vpmovqd	%zmm1, %ymm1
	vpmovqd	%zmm0, %ymm0
	vinserti64x4	$1, %ymm0, %zmm1, %zmm0
	vmovdqa64	%zmm0, 256(%rsp)
	leaq	832(%rsp), %rdi
	vzeroupper
	callq	"keyed_blake3::chunks::key_of_each::<#2e65a0a13cda87df>"
	movq	(%r15), %rax
	movq	8(%r15), %rcx
	shlq	$10, %rax
	movq	%rax, 192(%rsp)
	shlq	$10, %rcx
	movq	%rcx, 128(%rsp)
	movq	16(%r15), %rax
	shlq	$10, %rax
	movq	%rax, 64(%rsp)
	movq	24(%r15), %rbx
	shlq	$10, %rbx
	movq	32(%r15), %r13
	shlq	$10, %r13
	movq	40(%r15), %r12
	shlq	$10, %r12
	movq	48(%r15), %rsi
	shlq	$10, %rsi
	movq	56(%r15), %r11
	shlq	$10, %r11
	movq	64(%r15), %r10
	shlq	$10, %r10
	movq	72(%r15), %r9
	shlq	$10, %r9
	movq	80(%r15), %r8
	shlq	$10, %r8
	movq	88(%r15), %rdi
	shlq	$10, %rdi
	movq	96(%r15), %rdx
	shlq	$10, %rdx
	movq	104(%r15), %rcx
	shlq	$10, %rcx
	movq	112(%r15), %rax
	shlq	$10, %rax
	movq	120(%r15), %r15
	shlq	$10, %r15
	addq	%r14, %r15
	addq	$32, %r15
	movq	%r15, 56(%rsp)
	leaq	32(%rax,%r14), %rax
	movq	%rax, 48(%rsp)
	leaq	32(%rcx,%r14), %rax
	movq	%rax, 40(%rsp)
	leaq	32(%rdx,%r14), %rax
	movq	%rax, 32(%rsp)
	leaq	32(%rdi,%r14), %rax
	movq	%rax, 24(%rsp)
	leaq	32(%r8,%r14), %r8
	leaq	32(%r9,%r14), %r9
	leaq	32(%r10,%r14), %r10
	leaq	32(%r11,%r14), %r11
	leaq	32(%rsi,%r14), %r15
	leaq	32(%r12,%r14), %r12
	leaq	32(%r13,%r14), %r13
	leaq	32(%rbx,%r14), %rbx
	movq	64(%rsp), %rax
	leaq	32(%rax,%r14), %rax
	movq	128(%rsp), %rcx
	leaq	32(%rcx,%r14), %rcx
	movq	192(%rsp), %rdx
	leaq	32(%rdx,%r14), %r14
	vmovdqa64	832(%rsp), %zmm18
	vmovdqa64	896(%rsp), %zmm21
	vmovdqa64	960(%rsp), %zmm22
	vmovdqa64	1024(%rsp), %zmm23
	vmovdqa64	1088(%rsp), %zmm16
	vmovdqa64	1152(%rsp), %zmm17
	vmovdqa64	1216(%rsp), %zmm19
	vmovdqa64	1280(%rsp), %zmm20
	xorl	%edx, %edx
	.p2align	4
L(8_1):
	cmpq	$1, %rdx
	movl	$0, %edi
	adcl	$16, %edi
	cmpq	$960, %rdx
	movl	$18, %esi
	cmovnel	%edi, %esi
	vmovdqu	-32(%r14,%rdx), %ymm0
	vmovdqu	(%r14,%rdx), %ymm1
	prefetcht0	128(%r14,%rdx)
	vmovdqu	-32(%rcx,%rdx), %ymm2
	vmovdqu	(%rcx,%rdx), %ymm3
	prefetcht0	128(%rcx,%rdx)
	vmovdqu	-32(%rax,%rdx), %ymm4
	vmovdqu	(%rax,%rdx), %ymm5
	prefetcht0	128(%rax,%rdx)
	vmovdqu	-32(%rbx,%rdx), %ymm6
	vmovdqu	(%rbx,%rdx), %ymm7
	prefetcht0	128(%rbx,%rdx)
	vmovdqu	-32(%r10,%rdx), %ymm8
	vmovdqu	(%r10,%rdx), %ymm9
	prefetcht0	128(%r10,%rdx)
	vmovdqu	-32(%r9,%rdx), %ymm10
	vmovdqu	(%r9,%rdx), %ymm11
	prefetcht0	128(%r9,%rdx)
	vmovdqu	-32(%r8,%rdx), %ymm12
	vmovdqu	(%r8,%rdx), %ymm13
	prefetcht0	128(%r8,%rdx)
	movq	24(%rsp), %rdi
	vmovdqu	-32(%rdi,%rdx), %ymm14
	vmovdqu	(%rdi,%rdx), %ymm15
	prefetcht0	128(%rdi,%rdx)
	vinserti64x4	$1, -32(%r13,%rdx), %zmm0, %zmm0
	vinserti64x4	$1, (%r13,%rdx), %zmm1, %zmm1
	prefetcht0	128(%r13,%rdx)
	vinserti64x4	$1, -32(%r12,%rdx), %zmm2, %zmm2
	vinserti64x4	$1, (%r12,%rdx), %zmm3, %zmm3
	prefetcht0	128(%r12,%rdx)
	vinserti64x4	$1, -32(%r15,%rdx), %zmm4, %zmm4
	vinserti64x4	$1, (%r15,%rdx), %zmm5, %zmm5
	prefetcht0	128(%r15,%rdx)
	vinserti64x4	$1, -32(%r11,%rdx), %zmm6, %zmm6
	vinserti64x4	$1, (%r11,%rdx), %zmm7, %zmm7
	prefetcht0	128(%r11,%rdx)
	movq	32(%rsp), %rdi
	vinserti64x4	$1, -32(%rdi,%rdx), %zmm8, %zmm8
	vinserti64x4	$1, (%rdi,%rdx), %zmm9, %zmm9
	prefetcht0	128(%rdi,%rdx)
	movq	40(%rsp), %rdi
	vinserti64x4	$1, -32(%rdi,%rdx), %zmm10, %zmm10
	vinserti64x4	$1, (%rdi,%rdx), %zmm11, %zmm11
	prefetcht0	128(%rdi,%rdx)
	movq	48(%rsp), %rdi
	vinserti64x4	$1, -32(%rdi,%rdx), %zmm12, %zmm12
	vinserti64x4	$1, (%rdi,%rdx), %zmm13, %zmm13
	prefetcht0	128(%rdi,%rdx)
	movq	56(%rsp), %rdi
	vinserti64x4	$1, -32(%rdi,%rdx), %zmm14, %zmm14
	vinserti64x4	$1, (%rdi,%rdx), %zmm15, %zmm15
	prefetcht0	128(%rdi,%rdx)
	vpbroadcastd	%esi, %zmm24
	vpunpckldq	%zmm2, %zmm0, %zmm25
	vpunpckhdq	%zmm2, %zmm0, %zmm0
	vpunpckldq	%zmm6, %zmm4, %zmm2
	vpunpckhdq	%zmm6, %zmm4, %zmm4
	vpunpckldq	%zmm10, %zmm8, %zmm6
	vpunpckhdq	%zmm10, %zmm8, %zmm8
	vpunpckldq	%zmm14, %zmm12, %zmm10
	vpunpckhdq	%zmm14, %zmm12, %zmm12
	vpunpckldq	%zmm3, %zmm1, %zmm14
	vpunpckhdq	%zmm3, %zmm1, %zmm1
	vpunpckldq	%zmm7, %zmm5, %zmm3
	vpunpckhdq	%zmm7, %zmm5, %zmm5
	vpunpckldq	%zmm11, %zmm9, %zmm7
	vpunpckhdq	%zmm11, %zmm9, %zmm9
	vpunpckldq	%zmm15, %zmm13, %zmm11
	vpunpckhdq	%zmm15, %zmm13, %zmm13
	vpunpcklqdq	%zmm2, %zmm25, %zmm15
	vpunpckhqdq	%zmm2, %zmm25, %zmm2
	vpunpcklqdq	%zmm4, %zmm0, %zmm25
	vpunpckhqdq	%zmm4, %zmm0, %zmm26
	vpunpcklqdq	%zmm10, %zmm6, %zmm0
	vpunpckhqdq	%zmm10, %zmm6, %zmm4
	vpunpcklqdq	%zmm12, %zmm8, %zmm6
	vpunpckhqdq	%zmm12, %zmm8, %zmm10
	vpunpcklqdq	%zmm3, %zmm14, %zmm27
	vpunpckhqdq	%zmm3, %zmm14, %zmm3
	vpunpcklqdq	%zmm5, %zmm1, %zmm28
	vpunpckhqdq	%zmm5, %zmm1, %zmm29
	vpunpcklqdq	%zmm11, %zmm7, %zmm1
	vpunpckhqdq	%zmm11, %zmm7, %zmm11
	vpunpcklqdq	%zmm13, %zmm9, %zmm30
	vpunpckhqdq	%zmm13, %zmm9, %zmm31
	vshufi64x2	$136, %zmm0, %zmm15, %zmm9
	vmovdqa64	%zmm9, 576(%rsp)
	vshufi64x2	$221, %zmm0, %zmm15, %zmm0
	vshufi64x2	$136, %zmm4, %zmm2, %zmm12
	vshufi64x2	$221, %zmm4, %zmm2, %zmm14
	vmovdqa64	%zmm14, 768(%rsp)
	vshufi64x2	$136, %zmm6, %zmm25, %zmm5
	vshufi64x2	$221, %zmm6, %zmm25, %zmm8
	vshufi64x2	$136, %zmm10, %zmm26, %zmm4
	vshufi64x2	$221, %zmm10, %zmm26, %zmm7
	vshufi64x2	$136, %zmm1, %zmm27, %zmm10
	vshufi64x2	$221, %zmm1, %zmm27, %zmm1
	vshufi64x2	$136, %zmm11, %zmm3, %zmm15
	vshufi64x2	$221, %zmm11, %zmm3, %zmm3
	vshufi64x2	$136, %zmm30, %zmm28, %zmm2
	vshufi64x2	$221, %zmm30, %zmm28, %zmm6
	vshufi64x2	$136, %zmm31, %zmm29, %zmm13
	vshufi64x2	$221, %zmm31, %zmm29, %zmm11
	vpaddd	%zmm16, %zmm18, %zmm18
	vpaddd	%zmm17, %zmm21, %zmm25
	vpaddd	%zmm9, %zmm18, %zmm21
	vpaddd	%zmm5, %zmm25, %zmm18
	vpaddd	%zmm19, %zmm22, %zmm22
	vpaddd	%zmm20, %zmm23, %zmm23
	vpaddd	%zmm0, %zmm22, %zmm26
	vpaddd	%zmm8, %zmm23, %zmm27
	vmovdqa64	%zmm8, %zmm9
	vpxord	256(%rsp), %zmm21, %zmm22
	vpxord	320(%rsp), %zmm18, %zmm25
	vprold	$16, %zmm22, %zmm23
	vpxord	D(CPI8_5)(%rip){1to16}, %zmm26, %zmm22
	vpxord	%zmm24, %zmm27, %zmm28
	vprold	$16, %zmm25, %zmm24
	vprold	$16, %zmm28, %zmm28
	vpaddd	D(CPI8_1)(%rip){1to16}, %zmm23, %zmm25
	vprold	$16, %zmm22, %zmm29
	vpaddd	D(CPI8_4)(%rip){1to16}, %zmm28, %zmm30
	vpaddd	D(CPI8_3)(%rip){1to16}, %zmm29, %zmm22
	vpxord	%zmm19, %zmm22, %zmm19
	vpxord	%zmm20, %zmm30, %zmm20
	vprold	$20, %zmm20, %zmm31
	vprold	$20, %zmm19, %zmm20
	vpaddd	%zmm14, %zmm26, %zmm19
	vpaddd	%zmm7, %zmm27, %zmm26
	vmovdqa64	%zmm7, %zmm8
	vpaddd	%zmm31, %zmm26, %zmm26
	vpaddd	%zmm20, %zmm19, %zmm27
	vpxorq	%zmm26, %zmm28, %zmm19
	vprold	$24, %zmm19, %zmm28
	vpaddd	%zmm28, %zmm30, %zmm19
	vpxorq	%zmm27, %zmm29, %zmm29
	vpxord	%zmm31, %zmm19, %zmm30
	vprold	$25, %zmm30, %zmm30
	vpaddd	%zmm30, %zmm1, %zmm31
	vpaddd	%zmm31, %zmm27, %zmm27
	vpaddd	D(CPI8_2)(%rip){1to16}, %zmm24, %zmm31
	vpxord	%zmm16, %zmm25, %zmm16
	vpxord	%zmm17, %zmm31, %zmm17
	vprold	$20, %zmm16, %zmm16
	vprold	$20, %zmm17, %zmm17
	vpaddd	%zmm12, %zmm21, %zmm21
	vpaddd	%zmm16, %zmm21, %zmm21
	vpaddd	%zmm4, %zmm18, %zmm18
	vpaddd	%zmm17, %zmm18, %zmm18
	vpxorq	%zmm21, %zmm23, %zmm23
	vprold	$24, %zmm23, %zmm23
	vpxorq	%zmm18, %zmm24, %zmm24
	vprold	$24, %zmm24, %zmm24
	vpaddd	%zmm23, %zmm25, %zmm25
	vpaddd	%zmm24, %zmm31, %zmm31
	vpxord	%zmm16, %zmm25, %zmm16
	vpxord	%zmm17, %zmm31, %zmm17
	vprold	$25, %zmm16, %zmm16
	vprold	$24, %zmm29, %zmm29
	vprold	$25, %zmm17, %zmm17
	vpaddd	%zmm6, %zmm26, %zmm26
	vpaddd	%zmm16, %zmm26, %zmm26
	vpaddd	%zmm29, %zmm22, %zmm22
	vpaddd	%zmm10, %zmm21, %zmm21
	vmovdqa64	%zmm10, %zmm14
	vpaddd	%zmm17, %zmm21, %zmm21
	vpaddd	%zmm2, %zmm18, %zmm18
	vpxord	%zmm20, %zmm22, %zmm20
	vpxorq	%zmm26, %zmm29, %zmm29
	vprold	$16, %zmm29, %zmm29
	vpxorq	%zmm21, %zmm28, %zmm28
	vprold	$25, %zmm20, %zmm20
	vprold	$16, %zmm28, %zmm28
	vpxorq	%zmm27, %zmm24, %zmm24
	vprold	$16, %zmm24, %zmm24
	vpaddd	%zmm20, %zmm18, %zmm18
	vpaddd	%zmm29, %zmm31, %zmm31
	vpaddd	%zmm28, %zmm22, %zmm22
	vpaddd	%zmm24, %zmm25, %zmm25
	vpxorq	%zmm18, %zmm23, %zmm23
	vpxord	%zmm16, %zmm31, %zmm16
	vpxord	%zmm17, %zmm22, %zmm17
	vpxord	%zmm30, %zmm25, %zmm30
	vprold	$20, %zmm16, %zmm16
	vprold	$20, %zmm17, %zmm17
	vprold	$20, %zmm30, %zmm30
	vpaddd	%zmm11, %zmm26, %zmm26
	vprold	$16, %zmm23, %zmm23
	vpaddd	%zmm16, %zmm26, %zmm26
	vpaddd	%zmm15, %zmm21, %zmm21
	vpaddd	%zmm17, %zmm21, %zmm21
	vpaddd	%zmm23, %zmm19, %zmm19
	vpaddd	%zmm13, %zmm18, %zmm18
	vpaddd	%zmm3, %zmm27, %zmm27
	vpaddd	%zmm30, %zmm27, %zmm27
	vpxord	%zmm20, %zmm19, %zmm20
	vpxorq	%zmm26, %zmm29, %zmm29
	vprold	$24, %zmm29, %zmm29
	vpxorq	%zmm21, %zmm28, %zmm28
	vprold	$20, %zmm20, %zmm20
	vprold	$24, %zmm28, %zmm28
	vpxorq	%zmm27, %zmm24, %zmm24
	vprold	$24, %zmm24, %zmm24
	vpaddd	%zmm20, %zmm18, %zmm18
	vpaddd	%zmm29, %zmm31, %zmm31
	vpaddd	%zmm28, %zmm22, %zmm22
	vpaddd	%zmm24, %zmm25, %zmm25
	vpxorq	%zmm18, %zmm23, %zmm23
	vpxord	%zmm16, %zmm31, %zmm16
	vpxord	%zmm17, %zmm22, %zmm17
	vpxord	%zmm30, %zmm25, %zmm30
	vprold	$25, %zmm16, %zmm16
	vprold	$25, %zmm17, %zmm17
	vprold	$25, %zmm30, %zmm30
	vmovdqa64	%zmm5, 640(%rsp)
	vpaddd	%zmm5, %zmm21, %zmm21
	vprold	$24, %zmm23, %zmm23
	vpaddd	%zmm16, %zmm21, %zmm21
	vpaddd	%zmm4, %zmm18, %zmm18
	vmovdqa64	%zmm4, 384(%rsp)
	vpaddd	%zmm17, %zmm18, %zmm18
	vpaddd	%zmm23, %zmm19, %zmm19
	vpaddd	%zmm7, %zmm27, %zmm27
	vpaddd	%zmm0, %zmm26, %zmm26
	vpaddd	%zmm30, %zmm26, %zmm26
	vpxord	%zmm20, %zmm19, %zmm20
	vpxorq	%zmm21, %zmm23, %zmm23
	vprold	$16, %zmm23, %zmm23
	vpxorq	%zmm18, %zmm24, %zmm24
	vprold	$25, %zmm20, %zmm20
	vprold	$16, %zmm24, %zmm24
	vpxorq	%zmm26, %zmm28, %zmm28
	vprold	$16, %zmm28, %zmm28
	vpaddd	%zmm20, %zmm27, %zmm27
	vpaddd	%zmm23, %zmm25, %zmm25
	vpaddd	%zmm24, %zmm31, %zmm31
	vpaddd	%zmm28, %zmm19, %zmm19
	vpxorq	%zmm27, %zmm29, %zmm29
	vpxord	%zmm16, %zmm25, %zmm16
	vpxord	%zmm17, %zmm31, %zmm17
	vpxord	%zmm30, %zmm19, %zmm30
	vprold	$20, %zmm16, %zmm16
	vprold	$20, %zmm17, %zmm17
	vprold	$20, %zmm30, %zmm30
	vpaddd	%zmm9, %zmm21, %zmm21
	vmovdqa64	%zmm9, %zmm10
	vprold	$16, %zmm29, %zmm29
	vpaddd	%zmm16, %zmm21, %zmm21
	vpaddd	%zmm2, %zmm18, %zmm18
	vpaddd	%zmm17, %zmm18, %zmm18
	vpaddd	%zmm29, %zmm22, %zmm22
	vmovdqa64	576(%rsp), %zmm9
	vpaddd	%zmm9, %zmm27, %zmm27
	vpaddd	%zmm3, %zmm26, %zmm26
	vpaddd	%zmm30, %zmm26, %zmm26
	vpxord	%zmm20, %zmm22, %zmm20
	vpxorq	%zmm21, %zmm23, %zmm23
	vprold	$24, %zmm23, %zmm23
	vpxorq	%zmm18, %zmm24, %zmm24
	vprold	$20, %zmm20, %zmm20
	vprold	$24, %zmm24, %zmm24
	vpxorq	%zmm26, %zmm28, %zmm28
	vprold	$24, %zmm28, %zmm28
	vpaddd	%zmm20, %zmm27, %zmm27
	vpaddd	%zmm23, %zmm25, %zmm25
	vpaddd	%zmm24, %zmm31, %zmm31
	vpaddd	%zmm28, %zmm19, %zmm19
	vpxorq	%zmm27, %zmm29, %zmm29
	vpxord	%zmm16, %zmm25, %zmm16
	vpxord	%zmm17, %zmm31, %zmm17
	vpxord	%zmm30, %zmm19, %zmm30
	vprold	$25, %zmm16, %zmm16
	vprold	$25, %zmm17, %zmm17
	vprold	$25, %zmm30, %zmm30
	vpaddd	%zmm11, %zmm26, %zmm26
	vprold	$24, %zmm29, %zmm29
	vpaddd	%zmm16, %zmm26, %zmm26
	vpaddd	%zmm12, %zmm21, %zmm21
	vpaddd	%zmm17, %zmm21, %zmm21
	vpaddd	%zmm29, %zmm22, %zmm22
	vpaddd	%zmm1, %zmm18, %zmm18
	vpaddd	%zmm15, %zmm27, %zmm27
	vpaddd	%zmm30, %zmm27, %zmm27
	vpxord	%zmm20, %zmm22, %zmm20
	vpxorq	%zmm26, %zmm29, %zmm29
	vprold	$16, %zmm29, %zmm29
	vpxorq	%zmm21, %zmm28, %zmm28
	vprold	$25, %zmm20, %zmm20
	vprold	$16, %zmm28, %zmm28
	vpxorq	%zmm27, %zmm24, %zmm24
	vprold	$16, %zmm24, %zmm24
	vpaddd	%zmm20, %zmm18, %zmm18
	vpaddd	%zmm29, %zmm31, %zmm31
	vpaddd	%zmm28, %zmm22, %zmm22
	vpaddd	%zmm24, %zmm25, %zmm25
	vpxorq	%zmm18, %zmm23, %zmm23
	vpxord	%zmm16, %zmm31, %zmm16
	vpxord	%zmm17, %zmm22, %zmm17
	vpxord	%zmm30, %zmm25, %zmm30
	vprold	$20, %zmm16, %zmm16
	vprold	$20, %zmm17, %zmm17
	vprold	$20, %zmm30, %zmm30
	vmovdqa64	%zmm14, 448(%rsp)
	vpaddd	%zmm14, %zmm26, %zmm26
	vprold	$16, %zmm23, %zmm23
	vpaddd	%zmm16, %zmm26, %zmm26
	vpaddd	%zmm13, %zmm21, %zmm21
	vpaddd	%zmm17, %zmm21, %zmm21
	vpaddd	%zmm23, %zmm19, %zmm19
	vmovdqa64	768(%rsp), %zmm7
	vpaddd	%zmm7, %zmm18, %zmm18
	vpaddd	%zmm6, %zmm27, %zmm27
	vpaddd	%zmm30, %zmm27, %zmm27
	vpxord	%zmm20, %zmm19, %zmm20
	vpxorq	%zmm26, %zmm29, %zmm29
	vprold	$24, %zmm29, %zmm29
	vpxorq	%zmm21, %zmm28, %zmm28
	vprold	$20, %zmm20, %zmm20
	vprold	$24, %zmm28, %zmm28
	vpxorq	%zmm27, %zmm24, %zmm24
	vprold	$24, %zmm24, %zmm24
	vpaddd	%zmm20, %zmm18, %zmm18
	vpaddd	%zmm29, %zmm31, %zmm31
	vpaddd	%zmm28, %zmm22, %zmm22
	vpaddd	%zmm24, %zmm25, %zmm25
	vpxorq	%zmm18, %zmm23, %zmm23
	vpxord	%zmm16, %zmm31, %zmm16
	vpxord	%zmm17, %zmm22, %zmm17
	vpxord	%zmm30, %zmm25, %zmm30
	vprold	$25, %zmm16, %zmm16
	vprold	$25, %zmm17, %zmm17
	vprold	$25, %zmm30, %zmm30
	vpaddd	%zmm4, %zmm21, %zmm21
	vprold	$24, %zmm23, %zmm23
	vpaddd	%zmm16, %zmm21, %zmm21
	vpaddd	%zmm2, %zmm18, %zmm18
	vpaddd	%zmm17, %zmm18, %zmm18
	vpaddd	%zmm23, %zmm19, %zmm19
	vpaddd	%zmm3, %zmm27, %zmm27
	vpaddd	%zmm8, %zmm26, %zmm26
	vmovdqa64	%zmm8, %zmm4
	vpaddd	%zmm30, %zmm26, %zmm26
	vpxord	%zmm20, %zmm19, %zmm20
	vpxorq	%zmm21, %zmm23, %zmm23
	vprold	$16, %zmm23, %zmm23
	vpxorq	%zmm18, %zmm24, %zmm24
	vprold	$25, %zmm20, %zmm20
	vprold	$16, %zmm24, %zmm24
	vpxorq	%zmm26, %zmm28, %zmm28
	vprold	$16, %zmm28, %zmm28
	vpaddd	%zmm20, %zmm27, %zmm27
	vpaddd	%zmm23, %zmm25, %zmm25
	vpaddd	%zmm24, %zmm31, %zmm31
	vpaddd	%zmm28, %zmm19, %zmm19
	vpxorq	%zmm27, %zmm29, %zmm29
	vpxord	%zmm16, %zmm25, %zmm16
	vpxord	%zmm17, %zmm31, %zmm17
	vpxord	%zmm30, %zmm19, %zmm30
	vprold	$20, %zmm16, %zmm16
	vprold	$20, %zmm17, %zmm17
	vprold	$20, %zmm30, %zmm30
	vpaddd	%zmm0, %zmm21, %zmm21
	vprold	$16, %zmm29, %zmm29
	vpaddd	%zmm16, %zmm21, %zmm21
	vpaddd	%zmm1, %zmm18, %zmm18
	vpaddd	%zmm17, %zmm18, %zmm18
	vpaddd	%zmm29, %zmm22, %zmm22
	vpaddd	%zmm5, %zmm27, %zmm27
	vpaddd	%zmm6, %zmm26, %zmm26
	vpaddd	%zmm30, %zmm26, %zmm26
	vpxord	%zmm20, %zmm22, %zmm20
	vpxorq	%zmm21, %zmm23, %zmm23
	vprold	$24, %zmm23, %zmm23
	vpxorq	%zmm18, %zmm24, %zmm24
	vprold	$20, %zmm20, %zmm20
	vprold	$24, %zmm24, %zmm24
	vpxorq	%zmm26, %zmm28, %zmm28
	vprold	$24, %zmm28, %zmm28
	vpaddd	%zmm20, %zmm27, %zmm27
	vpaddd	%zmm23, %zmm25, %zmm25
	vpaddd	%zmm24, %zmm31, %zmm31
	vpaddd	%zmm28, %zmm19, %zmm19
	vpxorq	%zmm27, %zmm29, %zmm29
	vpxord	%zmm16, %zmm25, %zmm16
	vpxord	%zmm17, %zmm31, %zmm17
	vpxord	%zmm30, %zmm19, %zmm30
	vprold	$25, %zmm16, %zmm16
	vprold	$25, %zmm17, %zmm17
	vprold	$25, %zmm30, %zmm30
	vpaddd	%zmm14, %zmm26, %zmm26
	vprold	$24, %zmm29, %zmm29
	vpaddd	%zmm16, %zmm26, %zmm26
	vpaddd	%zmm10, %zmm21, %zmm21
	vmovdqa64	%zmm10, %zmm8
	vpaddd	%zmm17, %zmm21, %zmm21
	vpaddd	%zmm29, %zmm22, %zmm22
	vpaddd	%zmm15, %zmm18, %zmm18
	vpaddd	%zmm13, %zmm27, %zmm27
	vmovdqa64	%zmm13, %zmm5
	vpaddd	%zmm30, %zmm27, %zmm27
	vpxord	%zmm20, %zmm22, %zmm20
	vpxorq	%zmm26, %zmm29, %zmm29
	vprold	$16, %zmm29, %zmm29
	vpxorq	%zmm21, %zmm28, %zmm28
	vprold	$25, %zmm20, %zmm20
	vprold	$16, %zmm28, %zmm28
	vpxorq	%zmm27, %zmm24, %zmm24
	vprold	$16, %zmm24, %zmm24
	vpaddd	%zmm20, %zmm18, %zmm18
	vpaddd	%zmm29, %zmm31, %zmm31
	vpaddd	%zmm28, %zmm22, %zmm22
	vpaddd	%zmm24, %zmm25, %zmm25
	vpxorq	%zmm18, %zmm23, %zmm23
	vpxord	%zmm16, %zmm31, %zmm16
	vpxord	%zmm17, %zmm22, %zmm17
	vpxord	%zmm30, %zmm25, %zmm30
	vprold	$20, %zmm16, %zmm16
	vprold	$20, %zmm17, %zmm17
	vprold	$20, %zmm30, %zmm30
	vmovdqa64	%zmm12, 512(%rsp)
	vpaddd	%zmm12, %zmm26, %zmm26
	vprold	$16, %zmm23, %zmm23
	vpaddd	%zmm16, %zmm26, %zmm26
	vpaddd	%zmm7, %zmm21, %zmm21
	vpaddd	%zmm17, %zmm21, %zmm21
	vpaddd	%zmm23, %zmm19, %zmm19
	vpaddd	%zmm9, %zmm18, %zmm18
	vpaddd	%zmm11, %zmm27, %zmm27
	vpaddd	%zmm30, %zmm27, %zmm27
	vpxord	%zmm20, %zmm19, %zmm20
	vpxorq	%zmm26, %zmm29, %zmm29
	vprold	$24, %zmm29, %zmm29
	vpxorq	%zmm21, %zmm28, %zmm28
	vprold	$20, %zmm20, %zmm20
	vprold	$24, %zmm28, %zmm28
	vpxorq	%zmm27, %zmm24, %zmm24
	vprold	$24, %zmm24, %zmm24
	vpaddd	%zmm20, %zmm18, %zmm18
	vpaddd	%zmm29, %zmm31, %zmm31
	vpaddd	%zmm28, %zmm22, %zmm22
	vpaddd	%zmm24, %zmm25, %zmm25
	vpxorq	%zmm18, %zmm23, %zmm23
	vpxord	%zmm16, %zmm31, %zmm16
	vpxord	%zmm17, %zmm22, %zmm17
	vpxord	%zmm30, %zmm25, %zmm30
	vprold	$25, %zmm16, %zmm16
	vprold	$25, %zmm17, %zmm17
	vprold	$25, %zmm30, %zmm30
	vmovdqa64	%zmm2, 128(%rsp)
	vpaddd	%zmm2, %zmm21, %zmm21
	vprold	$24, %zmm23, %zmm23
	vpaddd	%zmm16, %zmm21, %zmm21
	vpaddd	%zmm1, %zmm18, %zmm18
	vpaddd	%zmm17, %zmm18, %zmm18
	vpaddd	%zmm23, %zmm19, %zmm19
	vpaddd	%zmm6, %zmm27, %zmm27
	vpaddd	%zmm3, %zmm26, %zmm26
	vpaddd	%zmm30, %zmm26, %zmm26
	vpxord	%zmm20, %zmm19, %zmm20
	vpxorq	%zmm21, %zmm23, %zmm23
	vprold	$16, %zmm23, %zmm23
	vpxorq	%zmm18, %zmm24, %zmm24
	vprold	$25, %zmm20, %zmm20
	vprold	$16, %zmm24, %zmm24
	vpxorq	%zmm26, %zmm28, %zmm28
	vprold	$16, %zmm28, %zmm28
	vpaddd	%zmm20, %zmm27, %zmm27
	vpaddd	%zmm23, %zmm25, %zmm25
	vpaddd	%zmm24, %zmm31, %zmm31
	vpaddd	%zmm28, %zmm19, %zmm19
	vpxorq	%zmm27, %zmm29, %zmm29
	vpxord	%zmm16, %zmm25, %zmm16
	vpxord	%zmm17, %zmm31, %zmm17
	vpxord	%zmm30, %zmm19, %zmm30
	vprold	$20, %zmm16, %zmm16
	vprold	$20, %zmm17, %zmm17
	vprold	$20, %zmm30, %zmm30
	vpaddd	%zmm4, %zmm21, %zmm21
	vmovdqa64	%zmm4, 64(%rsp)
	vprold	$16, %zmm29, %zmm29
	vpaddd	%zmm16, %zmm21, %zmm21
	vpaddd	%zmm15, %zmm18, %zmm18
	vmovdqa64	%zmm15, %zmm10
	vpaddd	%zmm17, %zmm18, %zmm18
	vpaddd	%zmm29, %zmm22, %zmm22
	vmovdqa64	384(%rsp), %zmm13
	vpaddd	%zmm13, %zmm27, %zmm27
	vpaddd	%zmm11, %zmm26, %zmm26
	vpaddd	%zmm30, %zmm26, %zmm26
	vpxord	%zmm20, %zmm22, %zmm20
	vpxorq	%zmm21, %zmm23, %zmm23
	vprold	$24, %zmm23, %zmm23
	vpxorq	%zmm18, %zmm24, %zmm24
	vprold	$20, %zmm20, %zmm20
	vprold	$24, %zmm24, %zmm24
	vpxorq	%zmm26, %zmm28, %zmm28
	vprold	$24, %zmm28, %zmm28
	vpaddd	%zmm20, %zmm27, %zmm27
	vpaddd	%zmm23, %zmm25, %zmm25
	vpaddd	%zmm24, %zmm31, %zmm31
	vpaddd	%zmm28, %zmm19, %zmm19
	vpxorq	%zmm27, %zmm29, %zmm29
	vpxord	%zmm16, %zmm25, %zmm16
	vpxord	%zmm17, %zmm31, %zmm17
	vpxord	%zmm30, %zmm19, %zmm30
	vprold	$25, %zmm16, %zmm16
	vprold	$25, %zmm17, %zmm17
	vprold	$25, %zmm30, %zmm30
	vpaddd	%zmm12, %zmm26, %zmm26
	vprold	$24, %zmm29, %zmm29
	vpaddd	%zmm16, %zmm26, %zmm26
	vpaddd	%zmm0, %zmm21, %zmm21
	vpaddd	%zmm17, %zmm21, %zmm21
	vpaddd	%zmm29, %zmm22, %zmm22
	vmovdqa64	%zmm5, %zmm15
	vpaddd	%zmm5, %zmm18, %zmm18
	vpaddd	%zmm7, %zmm27, %zmm27
	vmovdqa64	%zmm7, %zmm14
	vpaddd	%zmm30, %zmm27, %zmm27
	vpxord	%zmm20, %zmm22, %zmm20
	vpxorq	%zmm26, %zmm29, %zmm29
	vprold	$16, %zmm29, %zmm29
	vpxorq	%zmm21, %zmm28, %zmm28
	vprold	$25, %zmm20, %zmm20
	vprold	$16, %zmm28, %zmm28
	vpxorq	%zmm27, %zmm24, %zmm24
	vprold	$16, %zmm24, %zmm24
	vpaddd	%zmm20, %zmm18, %zmm18
	vpaddd	%zmm29, %zmm31, %zmm31
	vpaddd	%zmm28, %zmm22, %zmm22
	vpaddd	%zmm24, %zmm25, %zmm25
	vpxorq	%zmm18, %zmm23, %zmm23
	vpxord	%zmm16, %zmm31, %zmm16
	vpxord	%zmm17, %zmm22, %zmm17
	vpxord	%zmm30, %zmm25, %zmm30
	vprold	$20, %zmm16, %zmm16
	vprold	$20, %zmm17, %zmm17
	vprold	$20, %zmm30, %zmm30
	vmovdqa64	%zmm8, %zmm7
	vmovdqa64	%zmm8, 704(%rsp)
	vpaddd	%zmm8, %zmm26, %zmm26
	vprold	$16, %zmm23, %zmm23
	vpaddd	%zmm16, %zmm26, %zmm26
	vpaddd	%zmm9, %zmm21, %zmm21
	vpaddd	%zmm17, %zmm21, %zmm21
	vpaddd	%zmm23, %zmm19, %zmm19
	vmovdqa64	640(%rsp), %zmm5
	vpaddd	%zmm5, %zmm18, %zmm18
	vmovdqa64	448(%rsp), %zmm12
	vpaddd	%zmm12, %zmm27, %zmm27
	vpaddd	%zmm30, %zmm27, %zmm27
	vpxord	%zmm20, %zmm19, %zmm20
	vpxorq	%zmm26, %zmm29, %zmm29
	vprold	$24, %zmm29, %zmm29
	vpxorq	%zmm21, %zmm28, %zmm28
	vprold	$20, %zmm20, %zmm20
	vprold	$24, %zmm28, %zmm28
	vpxorq	%zmm27, %zmm24, %zmm24
	vprold	$24, %zmm24, %zmm24
	vpaddd	%zmm20, %zmm18, %zmm18
	vpaddd	%zmm29, %zmm31, %zmm31
	vpaddd	%zmm28, %zmm22, %zmm22
	vpaddd	%zmm24, %zmm25, %zmm25
	vpxorq	%zmm18, %zmm23, %zmm23
	vpxord	%zmm16, %zmm31, %zmm16
	vpxord	%zmm17, %zmm22, %zmm17
	vpxord	%zmm30, %zmm25, %zmm30
	vprold	$25, %zmm16, %zmm16
	vprold	$25, %zmm17, %zmm17
	vprold	$25, %zmm30, %zmm30
	vpaddd	%zmm1, %zmm21, %zmm21
	vmovdqa64	%zmm1, %zmm8
	vmovdqa64	%zmm1, 192(%rsp)
	vprold	$24, %zmm23, %zmm23
	vpaddd	%zmm16, %zmm21, %zmm21
	vpaddd	%zmm10, %zmm18, %zmm18
	vpaddd	%zmm17, %zmm18, %zmm18
	vpaddd	%zmm23, %zmm19, %zmm19
	vpaddd	%zmm11, %zmm27, %zmm27
	vpaddd	%zmm6, %zmm26, %zmm26
	vpaddd	%zmm30, %zmm26, %zmm26
	vpxord	%zmm20, %zmm19, %zmm20
	vpxorq	%zmm21, %zmm23, %zmm23
	vprold	$16, %zmm23, %zmm23
	vpxorq	%zmm18, %zmm24, %zmm24
	vprold	$25, %zmm20, %zmm20
	vprold	$16, %zmm24, %zmm24
	vpxorq	%zmm26, %zmm28, %zmm28
	vprold	$16, %zmm28, %zmm28
	vpaddd	%zmm20, %zmm27, %zmm27
	vpaddd	%zmm23, %zmm25, %zmm25
	vpaddd	%zmm24, %zmm31, %zmm31
	vpaddd	%zmm28, %zmm19, %zmm19
	vpxorq	%zmm27, %zmm29, %zmm29
	vpxord	%zmm16, %zmm25, %zmm16
	vpxord	%zmm17, %zmm31, %zmm17
	vpxord	%zmm30, %zmm19, %zmm30
	vprold	$20, %zmm16, %zmm16
	vprold	$20, %zmm17, %zmm17
	vprold	$20, %zmm30, %zmm30
	vpaddd	%zmm3, %zmm21, %zmm21
	vprold	$16, %zmm29, %zmm29
	vpaddd	%zmm16, %zmm21, %zmm21
	vpaddd	%zmm15, %zmm18, %zmm18
	vpaddd	%zmm17, %zmm18, %zmm18
	vpaddd	%zmm29, %zmm22, %zmm22
	vpaddd	%zmm2, %zmm27, %zmm27
	vpaddd	%zmm12, %zmm26, %zmm26
	vpaddd	%zmm30, %zmm26, %zmm26
	vpxord	%zmm20, %zmm22, %zmm20
	vpxorq	%zmm21, %zmm23, %zmm23
	vprold	$24, %zmm23, %zmm23
	vpxorq	%zmm18, %zmm24, %zmm24
	vprold	$20, %zmm20, %zmm20
	vprold	$24, %zmm24, %zmm24
	vpxorq	%zmm26, %zmm28, %zmm28
	vprold	$24, %zmm28, %zmm28
	vpaddd	%zmm20, %zmm27, %zmm27
	vpaddd	%zmm23, %zmm25, %zmm25
	vpaddd	%zmm24, %zmm31, %zmm31
	vpaddd	%zmm28, %zmm19, %zmm19
	vpxorq	%zmm27, %zmm29, %zmm29
	vpxord	%zmm16, %zmm25, %zmm16
	vpxord	%zmm17, %zmm31, %zmm17
	vpxord	%zmm30, %zmm19, %zmm30
	vprold	$25, %zmm16, %zmm16
	vprold	$25, %zmm17, %zmm17
	vprold	$25, %zmm30, %zmm30
	vpaddd	%zmm7, %zmm26, %zmm26
	vprold	$24, %zmm29, %zmm29
	vpaddd	%zmm16, %zmm26, %zmm26
	vpaddd	%zmm4, %zmm21, %zmm21
	vpaddd	%zmm17, %zmm21, %zmm21
	vpaddd	%zmm29, %zmm22, %zmm22
	vpaddd	%zmm14, %zmm18, %zmm18
	vpaddd	%zmm9, %zmm27, %zmm27
	vpaddd	%zmm30, %zmm27, %zmm27
	vpxord	%zmm20, %zmm22, %zmm20
	vpxorq	%zmm26, %zmm29, %zmm29
	vprold	$16, %zmm29, %zmm29
	vpxorq	%zmm21, %zmm28, %zmm28
	vprold	$25, %zmm20, %zmm20
	vprold	$16, %zmm28, %zmm28
	vpxorq	%zmm27, %zmm24, %zmm24
	vprold	$16, %zmm24, %zmm24
	vpaddd	%zmm20, %zmm18, %zmm18
	vpaddd	%zmm29, %zmm31, %zmm31
	vpaddd	%zmm28, %zmm22, %zmm22
	vpaddd	%zmm24, %zmm25, %zmm25
	vpxorq	%zmm18, %zmm23, %zmm23
	vpxord	%zmm16, %zmm31, %zmm16
	vpxord	%zmm17, %zmm22, %zmm17
	vpxord	%zmm30, %zmm25, %zmm30
	vprold	$20, %zmm16, %zmm16
	vprold	$20, %zmm17, %zmm17
	vprold	$20, %zmm30, %zmm30
	vpaddd	%zmm0, %zmm26, %zmm26
	vmovdqa64	%zmm0, %zmm7
	vprold	$16, %zmm23, %zmm23
	vpaddd	%zmm16, %zmm26, %zmm26
	vpaddd	%zmm5, %zmm21, %zmm21
	vpaddd	%zmm17, %zmm21, %zmm21
	vpaddd	%zmm23, %zmm19, %zmm19
	vmovdqa64	%zmm13, %zmm4
	vpaddd	%zmm13, %zmm18, %zmm18
	vmovdqa64	512(%rsp), %zmm13
	vpaddd	%zmm13, %zmm27, %zmm27
	vpaddd	%zmm30, %zmm27, %zmm27
	vpxord	%zmm20, %zmm19, %zmm20
	vpxorq	%zmm26, %zmm29, %zmm29
	vprold	$24, %zmm29, %zmm29
	vpxorq	%zmm21, %zmm28, %zmm28
	vprold	$20, %zmm20, %zmm20
	vprold	$24, %zmm28, %zmm28
	vpxorq	%zmm27, %zmm24, %zmm24
	vprold	$24, %zmm24, %zmm24
	vpaddd	%zmm20, %zmm18, %zmm18
	vpaddd	%zmm29, %zmm31, %zmm31
	vpaddd	%zmm28, %zmm22, %zmm22
	vpaddd	%zmm24, %zmm25, %zmm25
	vpxorq	%zmm18, %zmm23, %zmm23
	vpxord	%zmm16, %zmm31, %zmm16
	vpxord	%zmm17, %zmm22, %zmm17
	vpxord	%zmm30, %zmm25, %zmm30
	vprold	$25, %zmm16, %zmm16
	vprold	$25, %zmm17, %zmm17
	vprold	$25, %zmm30, %zmm30
	vpaddd	%zmm10, %zmm21, %zmm21
	vprold	$24, %zmm23, %zmm23
	vpaddd	%zmm16, %zmm21, %zmm21
	vpaddd	%zmm15, %zmm18, %zmm18
	vpaddd	%zmm17, %zmm18, %zmm18
	vpaddd	%zmm23, %zmm19, %zmm19
	vpaddd	%zmm12, %zmm27, %zmm27
	vpaddd	%zmm11, %zmm26, %zmm26
	vpaddd	%zmm30, %zmm26, %zmm0
	vpxord	%zmm20, %zmm19, %zmm20
	vpxorq	%zmm21, %zmm23, %zmm23
	vprold	$16, %zmm23, %zmm23
	vpxorq	%zmm18, %zmm24, %zmm24
	vprold	$25, %zmm20, %zmm26
	vprold	$16, %zmm24, %zmm24
	vpxorq	%zmm0, %zmm28, %zmm20
	vprold	$16, %zmm20, %zmm1
	vpaddd	%zmm26, %zmm27, %zmm27
	vpaddd	%zmm23, %zmm25, %zmm20
	vpaddd	%zmm24, %zmm31, %zmm31
	vpaddd	%zmm1, %zmm19, %zmm19
	vpxorq	%zmm27, %zmm29, %zmm25
	vpxord	%zmm16, %zmm20, %zmm16
	vpxord	%zmm17, %zmm31, %zmm28
	vpxord	%zmm30, %zmm19, %zmm29
	vprold	$16, %zmm25, %zmm30
	vprold	$20, %zmm16, %zmm17
	vprold	$20, %zmm28, %zmm16
	vprold	$20, %zmm29, %zmm25
	vpaddd	%zmm30, %zmm22, %zmm28
	vpaddd	%zmm6, %zmm21, %zmm21
	vpaddd	%zmm17, %zmm21, %zmm2
	vpaddd	%zmm14, %zmm18, %zmm18
	vpxord	%zmm26, %zmm28, %zmm21
	vpaddd	%zmm16, %zmm18, %zmm26
	vpaddd	%zmm8, %zmm27, %zmm22
	vpaddd	%zmm13, %zmm0, %zmm0
	vprold	$20, %zmm21, %zmm27
	vpaddd	%zmm25, %zmm0, %zmm18
	vpxorq	%zmm2, %zmm23, %zmm0
	vpxorq	%zmm26, %zmm24, %zmm21
	vpaddd	%zmm27, %zmm22, %zmm24
	vprold	$24, %zmm21, %zmm23
	vpxorq	%zmm24, %zmm30, %zmm21
	vpxorq	%zmm18, %zmm1, %zmm1
	vprold	$24, %zmm21, %zmm21
	vprold	$24, %zmm1, %zmm1
	vpaddd	%zmm23, %zmm31, %zmm22
	vpaddd	%zmm1, %zmm19, %zmm29
	vpaddd	%zmm21, %zmm28, %zmm19
	vpxord	%zmm16, %zmm22, %zmm16
	vprold	$25, %zmm16, %zmm28
	vpaddd	%zmm3, %zmm2, %zmm2
	vpxord	%zmm27, %zmm19, %zmm30
	vpaddd	%zmm28, %zmm2, %zmm2
	vpxorq	%zmm2, %zmm1, %zmm1
	vprold	$16, %zmm1, %zmm1
	vpaddd	%zmm1, %zmm19, %zmm16
	vpxord	%zmm28, %zmm16, %zmm19
	vprold	$20, %zmm19, %zmm19
	vpaddd	%zmm4, %zmm2, %zmm2
	vpaddd	%zmm19, %zmm2, %zmm2
	vpxorq	%zmm2, %zmm1, %zmm27
	vpaddd	%zmm15, %zmm2, %zmm1
	vprold	$24, %zmm0, %zmm0
	vpaddd	%zmm0, %zmm20, %zmm2
	vpxord	%zmm25, %zmm29, %zmm20
	vprold	$25, %zmm30, %zmm15
	vpaddd	%zmm9, %zmm26, %zmm25
	vpaddd	%zmm15, %zmm25, %zmm25
	vpxorq	%zmm25, %zmm0, %zmm0
	vprold	$16, %zmm0, %zmm0
	vpaddd	%zmm0, %zmm29, %zmm26
	vpxord	%zmm15, %zmm26, %zmm15
	vprold	$20, %zmm15, %zmm15
	vmovdqa64	128(%rsp), %zmm28
	vpaddd	%zmm28, %zmm25, %zmm25
	vpaddd	%zmm15, %zmm25, %zmm25
	vpxorq	%zmm25, %zmm0, %zmm0
	vpaddd	%zmm14, %zmm25, %zmm25
	vpxord	%zmm17, %zmm2, %zmm14
	vprold	$25, %zmm20, %zmm17
	vpaddd	%zmm5, %zmm24, %zmm20
	vpaddd	%zmm17, %zmm20, %zmm20
	vpxorq	%zmm20, %zmm23, %zmm23
	vprold	$16, %zmm23, %zmm23
	vpaddd	%zmm23, %zmm2, %zmm2
	vpxord	%zmm17, %zmm2, %zmm17
	vprold	$20, %zmm17, %zmm17
	vmovdqa64	704(%rsp), %zmm8
	vpaddd	%zmm8, %zmm20, %zmm20
	vpaddd	%zmm17, %zmm20, %zmm20
	vpxorq	%zmm20, %zmm23, %zmm23
	vpaddd	%zmm13, %zmm20, %zmm20
	vmovdqa64	%zmm7, %zmm24
	vpaddd	%zmm7, %zmm18, %zmm13
	vprold	$25, %zmm14, %zmm14
	vpaddd	%zmm14, %zmm13, %zmm13
	vpxorq	%zmm13, %zmm21, %zmm18
	vprold	$16, %zmm18, %zmm18
	vpaddd	%zmm18, %zmm22, %zmm21
	vpxord	%zmm14, %zmm21, %zmm14
	vprold	$20, %zmm14, %zmm14
	vmovdqa64	64(%rsp), %zmm7
	vpaddd	%zmm7, %zmm13, %zmm13
	vpaddd	%zmm14, %zmm13, %zmm13
	vpxorq	%zmm13, %zmm18, %zmm18
	vpaddd	%zmm12, %zmm13, %zmm22
	vprold	$24, %zmm18, %zmm18
	vprold	$24, %zmm0, %zmm0
	vpaddd	%zmm18, %zmm21, %zmm12
	vpxord	%zmm14, %zmm12, %zmm13
	vprold	$25, %zmm13, %zmm13
	vpaddd	%zmm0, %zmm26, %zmm21
	vpaddd	%zmm13, %zmm1, %zmm1
	vpxorq	%zmm1, %zmm0, %zmm14
	vpaddd	%zmm11, %zmm1, %zmm0
	vprold	$24, %zmm27, %zmm1
	vprold	$24, %zmm23, %zmm11
	vpaddd	%zmm1, %zmm16, %zmm16
	vpaddd	%zmm11, %zmm2, %zmm2
	vpxord	%zmm19, %zmm16, %zmm19
	vprold	$25, %zmm19, %zmm19
	vpaddd	%zmm19, %zmm25, %zmm23
	vpxorq	%zmm23, %zmm11, %zmm11
	vpaddd	%zmm9, %zmm23, %zmm23
	vpxord	%zmm15, %zmm21, %zmm9
	vprold	$25, %zmm9, %zmm15
	vpaddd	%zmm15, %zmm20, %zmm9
	vpxorq	%zmm9, %zmm18, %zmm18
	vpaddd	%zmm10, %zmm9, %zmm20
	vpxord	%zmm17, %zmm2, %zmm9
	vprold	$25, %zmm9, %zmm10
	vpaddd	%zmm10, %zmm22, %zmm9
	vpxorq	%zmm9, %zmm1, %zmm1
	vpaddd	%zmm8, %zmm9, %zmm17
	vprold	$16, %zmm1, %zmm1
	vpaddd	%zmm1, %zmm21, %zmm9
	vpxord	%zmm10, %zmm9, %zmm8
	vprold	$20, %zmm8, %zmm8
	vpaddd	%zmm8, %zmm17, %zmm17
	vpxorq	%zmm17, %zmm1, %zmm10
	vpaddd	%zmm7, %zmm17, %zmm1
	vprold	$16, %zmm14, %zmm7
	vpaddd	%zmm7, %zmm2, %zmm2
	vpxord	%zmm13, %zmm2, %zmm13
	vprold	$20, %zmm13, %zmm13
	vpaddd	%zmm13, %zmm0, %zmm0
	vpxorq	%zmm0, %zmm7, %zmm7
	vpaddd	%zmm6, %zmm0, %zmm0
	vprold	$16, %zmm11, %zmm6
	vpaddd	%zmm6, %zmm12, %zmm11
	vpxord	%zmm19, %zmm11, %zmm12
	vprold	$20, %zmm12, %zmm12
	vpaddd	%zmm12, %zmm23, %zmm14
	vpxorq	%zmm14, %zmm6, %zmm6
	vpaddd	%zmm5, %zmm14, %zmm14
	vprold	$16, %zmm18, %zmm5
	vpaddd	%zmm5, %zmm16, %zmm16
	vpxord	%zmm15, %zmm16, %zmm15
	vprold	$20, %zmm15, %zmm15
	vpaddd	%zmm15, %zmm20, %zmm17
	vpxorq	%zmm17, %zmm5, %zmm5
	vpaddd	%zmm4, %zmm17, %zmm17
	vprold	$24, %zmm7, %zmm7
	vprold	$24, %zmm5, %zmm5
	vpaddd	%zmm7, %zmm2, %zmm2
	vpxord	%zmm13, %zmm2, %zmm4
	vprold	$25, %zmm4, %zmm4
	vpaddd	%zmm5, %zmm16, %zmm13
	vpaddd	%zmm4, %zmm1, %zmm1
	vpxorq	%zmm1, %zmm5, %zmm5
	vpaddd	%zmm3, %zmm1, %zmm1
	vprold	$24, %zmm6, %zmm3
	vprold	$24, %zmm10, %zmm6
	vpaddd	%zmm3, %zmm11, %zmm10
	vpaddd	%zmm6, %zmm9, %zmm9
	vpxord	%zmm12, %zmm10, %zmm11
	vprold	$25, %zmm11, %zmm11
	vpaddd	%zmm11, %zmm0, %zmm0
	vpxorq	%zmm0, %zmm6, %zmm6
	vpaddd	%zmm28, %zmm0, %zmm0
	vpxord	%zmm15, %zmm13, %zmm12
	vprold	$25, %zmm12, %zmm12
	vpaddd	%zmm12, %zmm14, %zmm14
	vpxorq	%zmm14, %zmm7, %zmm7
	vpaddd	192(%rsp), %zmm14, %zmm14
	vpxord	%zmm8, %zmm9, %zmm8
	vprold	$25, %zmm8, %zmm8
	vpaddd	%zmm8, %zmm17, %zmm15
	vpxorq	%zmm15, %zmm3, %zmm3
	vpaddd	%zmm24, %zmm15, %zmm15
	vprold	$16, %zmm6, %zmm6
	vprold	$16, %zmm3, %zmm3
	vpaddd	%zmm6, %zmm13, %zmm13
	vpaddd	%zmm3, %zmm2, %zmm2
	vpxord	%zmm11, %zmm13, %zmm11
	vpxord	%zmm8, %zmm2, %zmm8
	vprold	$20, %zmm11, %zmm11
	vprold	$20, %zmm8, %zmm8
	vpaddd	%zmm11, %zmm0, %zmm0
	vpaddd	%zmm8, %zmm15, %zmm15
	vpxorq	%zmm0, %zmm6, %zmm6
	vpxorq	%zmm15, %zmm3, %zmm3
	vprold	$24, %zmm3, %zmm3
	vpaddd	%zmm3, %zmm2, %zmm2
	vpxord	%zmm8, %zmm2, %zmm8
	vpxord	%zmm0, %zmm2, %zmm18
	vprold	$16, %zmm5, %zmm0
	vprold	$16, %zmm7, %zmm2
	vpaddd	%zmm0, %zmm10, %zmm5
	vpaddd	%zmm2, %zmm9, %zmm7
	vpxord	%zmm4, %zmm5, %zmm4
	vpxord	%zmm12, %zmm7, %zmm9
	vprold	$20, %zmm4, %zmm4
	vprold	$20, %zmm9, %zmm9
	vpaddd	%zmm4, %zmm1, %zmm1
	vpaddd	%zmm9, %zmm14, %zmm10
	vpxorq	%zmm1, %zmm0, %zmm0
	vprold	$24, %zmm0, %zmm0
	vpaddd	%zmm0, %zmm5, %zmm5
	vpxorq	%zmm10, %zmm2, %zmm2
	vpxord	%zmm4, %zmm5, %zmm4
	vpxord	%zmm10, %zmm5, %zmm21
	vprold	$24, %zmm6, %zmm5
	vpaddd	%zmm5, %zmm13, %zmm6
	vpxord	%zmm11, %zmm6, %zmm10
	vpxord	%zmm15, %zmm6, %zmm22
	vprold	$24, %zmm2, %zmm2
	vpaddd	%zmm2, %zmm7, %zmm6
	vprold	$25, %zmm4, %zmm4
	vpxord	%zmm2, %zmm4, %zmm16
	vpxord	%zmm9, %zmm6, %zmm2
	vpxord	%zmm1, %zmm6, %zmm23
	vprold	$25, %zmm10, %zmm1
	vpxord	%zmm3, %zmm1, %zmm17
	vprold	$25, %zmm2, %zmm1
	vpxord	%zmm0, %zmm1, %zmm19
	vprold	$25, %zmm8, %zmm0
	vpxord	%zmm5, %zmm0, %zmm20
	addq	$64, %rdx
	cmpq	$1024, %rdx
	jne	L(8_1)
	movq	16(%rsp), %rax
	vmovdqu64	%zmm18, (%rax)
	vmovdqu64	%zmm21, 64(%rax)
	vmovdqu64	%zmm22, 128(%rax)
	vmovdqu64	%zmm23, 192(%rax)
	vmovdqu64	%zmm16, 256(%rax)
	vmovdqu64	%zmm17, 320(%rax)
	vmovdqu64	%zmm19, 384(%rax)
	vmovdqu64	%zmm20, 448(%rax)
	leaq	-40(%rbp), %rsp
	popq	%rbx
	popq	%r12
	popq	%r13
	popq	%r14
	popq	%r15
	popq	%rbp
	.cfi_def_cfa %rsp, 8
	vzeroupper
	retq
	SIZE("keyed_blake3::chunks::chunk_values::<#2e65a0a13cda87df>")
	.cfi_endproc

CODE(".text.keyed_blake3::chunks::key_of_each::<#2e65a0a13cda87df>")
	.p2align	4
	TYPE("keyed_blake3::chunks::key_of_each::<#2e65a0a13cda87df>", function)
"keyed_blake3::chunks::key_of_each::<#2e65a0a13cda87df>":
	.cfi_startproc
	pushq	%rbp
	.cfi_def_cfa_offset 16
	.cfi_offset %rbp, -16
	movq	%rsp, %rbp
	.cfi_def_cfa_register %rbp
	andq	$-64, %rsp
	subq	$64, %rsp
	vbroadcastss	(%rsi), %zmm0
	vbroadcastss	4(%rsi), %zmm1
	vbroadcastss	8(%rsi), %zmm2
	vbroadcastss	12(%rsi), %zmm3
	vbroadcastss	16(%rsi), %zmm4
	vbroadcastss	20(%rsi), %zmm5
	vbroadcastss	24(%rsi), %zmm6
	vbroadcastss	28(%rsi), %zmm7
	vmovups	%zmm0, (%rdi)
	vmovups	%zmm1, 64(%rdi)
	vmovups	%zmm2, 128(%rdi)
	vmovups	%zmm3, 192(%rdi)
	vmovups	%zmm4, 256(%rdi)
	vmovups	%zmm5, 320(%rdi)
	vmovups	%zmm6, 384(%rdi)
	vmovups	%zmm7, 448(%rdi)
	movq	%rbp, %rsp
	popq	%rbp
	.cfi_def_cfa %rsp, 8
	vzeroupper
	retq
	SIZE("keyed_blake3::chunks::key_of_each::<#2e65a0a13cda87df>")
	.cfi_endproc

SIZED(32, 5)
	.p2align	5, 0x0
D(CPI10_0):
	.quad	4
	.quad	5
	.quad	6
	.quad	7
D(CPI10_1):
	.quad	8
	.quad	9
	.quad	10
	.quad	11
D(CPI10_2):
	.quad	12
	.quad	13
	.quad	14
	.quad	15
D(CPI10_3):
	.quad	0
	.quad	1
	.quad	2
	.quad	3
CODE(".text.keyed_blake3::subtrees::neighbour_values::<#2e65a0a13cda87df>")
	.p2align	4
	TYPE("keyed_blake3::subtrees::neighbour_values::<#2e65a0a13cda87df>", function)
"keyed_blake3::subtrees::neighbour_values::<#2e65a0a13cda87df>":
	.cfi_startproc
	pushq	%rbp
	.cfi_def_cfa_offset 16
	.cfi_offset %rbp, -16
	movq	%rsp, %rbp
	.cfi_def_cfa_register %rbp
	pushq	%r15
	pushq	%r14
	pushq	%r13
	pushq	%r12
	pushq	%rbx
	andq	$-64, %rsp
	subq	$1792, %rsp
	.cfi_offset %rbx, -56
	.cfi_offset %r12, -48
	.cfi_offset %r13, -40
	.cfi_offset %r14, -32
	.cfi_offset %r15, -24
	vpxor	%xmm0, %xmm0, %xmm0
	vmovdqa	%ymm0, 672(%rsp)
	vmovdqa	%ymm0, 640(%rsp)
	vmovdqa	%ymm0, 608(%rsp)
	vmovdqa	%ymm0, 576(%rsp)
	vmovdqa	%ymm0, 544(%rsp)
	vmovdqa	%ymm0, 512(%rsp)
	vmovdqa	%ymm0, 480(%rsp)
	vmovdqa	%ymm0, 448(%rsp)
	vmovdqa	%ymm0, 416(%rsp)
	vmovdqa	%ymm0, 384(%rsp)
	vmovdqa	%ymm0, 352(%rsp)
	vmovdqa	%ymm0, 320(%rsp)
	vmovdqa	%ymm0, 288(%rsp)
	vmovdqa	%ymm0, 256(%rsp)
	vmovdqa	%ymm0, 224(%rsp)
	movq	%rdi, %rbx
	vmovdqa	%ymm0, 192(%rsp)
	cmpq	$1, %r8
	jne	L(10_2)
	vmovq	%rcx, %xmm0
	vpbroadcastq	%xmm0, %ymm0
	vpaddq	D(CPI10_0)(%rip), %ymm0, %ymm1
	vpaddq	D(CPI10_1)(%rip), %ymm0, %ymm2
	vpaddq	D(CPI10_2)(%rip), %ymm0, %ymm3
	vpaddq	D(CPI10_3)(%rip), %ymm0, %ymm0
	vmovdqu	%ymm0, 64(%rsp)
	vmovdqu	%ymm1, 96(%rsp)
	vmovdqu	%ymm2, 128(%rsp)
	vmovdqu	%ymm3, 160(%rsp)
	leaq	192(%rsp), %r14
	leaq	64(%rsp), %rcx
	movq	%r14, %rdi
	movq	%r9, %r8
	vzeroupper
	callq	"keyed_blake3::chunks::chunk_values::<#2e65a0a13cda87df>"
	movl	$512, %edx
	movq	%rbx, %rdi
	movq	%r14, %rsi
	jmp	L(10_3)
L(10_2):
	shrq	%r8
	leaq	704(%rsp), %rdi
	movq	%rsi, %r15
	movq	%rdx, %r12
	movq	%rcx, %r13
	movq	%rbx, 56(%rsp)
	movq	%r8, %rbx
	movq	%r9, %r14
	vzeroupper
	callq	"keyed_blake3::subtrees::neighbour_values::<#2e65a0a13cda87df>"
	leaq	1216(%rsp), %rdi
	movl	$512, %edx
	leaq	704(%rsp), %rsi
	callq	PLT(memcpy)
	movq	%rbx, %rcx
	shlq	$4, %rcx
	addq	%r13, %rcx
	leaq	704(%rsp), %rdi
	movq	%rdi, %r13
	movq	%r15, %rsi
	movq	%r12, %rdx
	movq	%rbx, %r8
	movq	%r14, %r9
	callq	"keyed_blake3::subtrees::neighbour_values::<#2e65a0a13cda87df>"
	leaq	192(%rsp), %rbx
	movq	%rbx, %rdi
	movq	%r15, %rsi
	leaq	1216(%rsp), %rdx
	movq	%r13, %rcx
	callq	"keyed_blake3::subtrees::parent_values::<#2e65a0a13cda87df>"
	movl	$512, %edx
	movq	56(%rsp), %rdi
	movq	%rbx, %rsi
L(10_3):
	callq	PLT(memcpy)
	leaq	-40(%rbp), %rsp
	popq	%rbx
	popq	%r12
	popq	%r13
	popq	%r14
	popq	%r15
	popq	%rbp
	.cfi_def_cfa %rsp, 8
	retq
	SIZE("keyed_blake3::subtrees::neighbour_values::<#2e65a0a13cda87df>")
	.cfi_endproc

SIZED(4, 2)
	.p2align	2, 0x0
D(CPI11_0):
	.long	64
D(CPI11_1):
	.long	20
CODE(".text.keyed_blake3::subtrees::parent_values::<#2e65a0a13cda87df>")
	.p2align	4
	TYPE("keyed_blake3::subtrees::parent_values::<#2e65a0a13cda87df>", function)
"keyed_blake3::subtrees::parent_values::<#2e65a0a13cda87df>":
	.cfi_startproc
	pushq	%rbp
	.cfi_def_cfa_offset 16
	.cfi_offset %rbp, -16
	movq	%rsp, %rbp
	.cfi_def_cfa_register %rbp
	pushq	%r14
	pushq	%rbx
	andq	$-64, %rsp
	subq	$2752, %rsp
	.cfi_offset %rbx, -32
	.cfi_offset %r14, -24
	vmovups	(%rcx), %ymm1
	vmovaps	%ymm1, 448(%rsp)
	vmovups	32(%rcx), %ymm2
	vmovaps	%ymm2, 512(%rsp)
	vmovups	64(%rcx), %ymm0
	vmovaps	%ymm0, 928(%rsp)
	vmovups	96(%rcx), %ymm0
	vmovaps	%ymm0, 896(%rsp)
	vmovups	(%rdx), %ymm3
	vmovaps	%ymm3, 960(%rsp)
	vmovups	32(%rdx), %ymm0
	vmovaps	%ymm0, 992(%rsp)
	vmovups	64(%rdx), %ymm5
	vmovups	96(%rdx), %ymm4
	vmovaps	%ymm4, 864(%rsp)
	vshufps	$136, %ymm0, %ymm3, %ymm0
	vpermpd	$216, %ymm0, %ymm3
	vmovups	160(%rdx), %ymm4
	vmovaps	%ymm4, 416(%rsp)
	vmovups	128(%rdx), %ymm6
	vmovaps	%ymm6, 480(%rsp)
	vmovups	160(%rcx), %ymm0
	vmovaps	%ymm0, 832(%rsp)
	vmovups	128(%rcx), %ymm0
	vmovaps	%ymm0, 800(%rsp)
	vmovups	224(%rdx), %ymm0
	vmovaps	%ymm0, 768(%rsp)
	vmovups	192(%rdx), %ymm7
	vmovaps	%ymm7, 352(%rsp)
	vmovups	224(%rcx), %ymm8
	vmovaps	%ymm8, 384(%rsp)
	vmovups	192(%rcx), %ymm0
	vmovaps	%ymm0, 736(%rsp)
	vmovups	288(%rdx), %ymm0
	vmovaps	%ymm0, 704(%rsp)
	vmovups	256(%rdx), %ymm9
	vmovaps	%ymm9, 288(%rsp)
	vmovups	288(%rcx), %ymm10
	vmovaps	%ymm10, 320(%rsp)
	vmovups	256(%rcx), %ymm0
	vmovaps	%ymm0, 672(%rsp)
	vmovups	352(%rdx), %ymm0
	vmovaps	%ymm0, 640(%rsp)
	vmovups	320(%rdx), %ymm11
	vmovaps	%ymm11, 224(%rsp)
	vmovups	352(%rcx), %ymm14
	vmovaps	%ymm14, 256(%rsp)
	vmovups	320(%rcx), %ymm0
	vmovaps	%ymm0, 608(%rsp)
	vmovups	416(%rdx), %ymm13
	vmovaps	%ymm13, 192(%rsp)
	vmovups	384(%rdx), %ymm0
	vmovaps	%ymm0, 544(%rsp)
	vmovups	416(%rcx), %ymm0
	vmovaps	%ymm0, 128(%rsp)
	vmovups	384(%rcx), %ymm0
	vmovaps	%ymm0, 576(%rsp)
	vmovups	480(%rdx), %ymm0
	vmovaps	%ymm0, 96(%rsp)
	vmovups	448(%rdx), %ymm0
	vmovaps	%ymm0, 32(%rsp)
	vmovups	480(%rcx), %ymm12
	vmovaps	%ymm12, 160(%rsp)
	vmovups	448(%rcx), %ymm0
	vmovaps	%ymm0, 64(%rsp)
	vmovups	%ymm3, 1152(%rsp)
	vshufps	$136, %ymm2, %ymm1, %ymm15
	vpermpd	$216, %ymm15, %ymm15
	vmovups	%ymm15, 1184(%rsp)
	vmovaps	864(%rsp), %ymm1
	vshufps	$136, %ymm1, %ymm5, %ymm15
	vpermpd	$216, %ymm15, %ymm15
	vmovups	%ymm15, 1216(%rsp)
	vmovaps	928(%rsp), %ymm3
	vmovaps	896(%rsp), %ymm0
	vshufps	$136, %ymm0, %ymm3, %ymm15
	vpermpd	$216, %ymm15, %ymm15
	vmovups	%ymm15, 1248(%rsp)
	vshufps	$136, %ymm4, %ymm6, %ymm15
	vpermpd	$216, %ymm15, %ymm15
	vmovups	%ymm15, 1280(%rsp)
	vmovaps	832(%rsp), %ymm4
	vmovaps	800(%rsp), %ymm2
	vshufps	$136, %ymm4, %ymm2, %ymm15
	vpermpd	$216, %ymm15, %ymm15
	vmovups	%ymm15, 1312(%rsp)
	vmovaps	768(%rsp), %ymm6
	vshufps	$136, %ymm6, %ymm7, %ymm15
	vpermpd	$216, %ymm15, %ymm15
	vmovups	%ymm15, 1344(%rsp)
	vmovaps	736(%rsp), %ymm7
	vshufps	$136, %ymm8, %ymm7, %ymm15
	vpermpd	$216, %ymm15, %ymm15
	vmovups	%ymm15, 1376(%rsp)
	vmovaps	704(%rsp), %ymm8
	vshufps	$136, %ymm8, %ymm9, %ymm15
	vpermpd	$216, %ymm15, %ymm15
	vmovups	%ymm15, 1408(%rsp)
	vmovaps	672(%rsp), %ymm9
	vshufps	$136, %ymm10, %ymm9, %ymm15
	vpermpd	$216, %ymm15, %ymm15
	vmovups	%ymm15, 1440(%rsp)
	vmovaps	640(%rsp), %ymm10
	vshufps	$136, %ymm10, %ymm11, %ymm15
	vpermpd	$216, %ymm15, %ymm15
	vmovups	%ymm15, 1472(%rsp)
	vmovaps	608(%rsp), %ymm11
	vshufps	$136, %ymm14, %ymm11, %ymm15
	vpermpd	$216, %ymm15, %ymm15
	vmovups	%ymm15, 1504(%rsp)
	vmovaps	544(%rsp), %ymm14
	vshufps	$136, %ymm13, %ymm14, %ymm15
	vpermpd	$216, %ymm15, %ymm15
	vmovups	%ymm15, 1536(%rsp)
	vmovaps	576(%rsp), %ymm13
	vshufps	$136, 128(%rsp), %ymm13, %ymm15
	vpermpd	$216, %ymm15, %ymm15
	vmovups	%ymm15, 1568(%rsp)
	vmovaps	32(%rsp), %ymm15
	vshufps	$136, 96(%rsp), %ymm15, %ymm15
	vpermpd	$216, %ymm15, %ymm15
	vmovups	%ymm15, 1600(%rsp)
	vmovaps	64(%rsp), %ymm15
	vshufps	$136, %ymm12, %ymm15, %ymm15
	vpermpd	$216, %ymm15, %ymm15
	vmovups	%ymm15, 1632(%rsp)
	vmovaps	960(%rsp), %ymm15
	vshufps	$221, 992(%rsp), %ymm15, %ymm15
	vpermpd	$216, %ymm15, %ymm15
	vmovups	%ymm15, 1664(%rsp)
	vmovaps	448(%rsp), %ymm12
	vshufps	$221, 512(%rsp), %ymm12, %ymm15
	vpermpd	$216, %ymm15, %ymm15
	vmovups	%ymm15, 1696(%rsp)
	vshufps	$221, %ymm1, %ymm5, %ymm15
	vpermpd	$216, %ymm15, %ymm15
	vmovups	%ymm15, 1728(%rsp)
	vshufps	$221, %ymm0, %ymm3, %ymm15
	vpermpd	$216, %ymm15, %ymm15
	vmovups	%ymm15, 1760(%rsp)
	vmovaps	480(%rsp), %ymm0
	vshufps	$221, 416(%rsp), %ymm0, %ymm15
	vpermpd	$216, %ymm15, %ymm15
	vmovups	%ymm15, 1792(%rsp)
	vshufps	$221, %ymm4, %ymm2, %ymm15
	vpermpd	$216, %ymm15, %ymm15
	vmovups	%ymm15, 1824(%rsp)
	vmovaps	352(%rsp), %ymm0
	vshufps	$221, %ymm6, %ymm0, %ymm15
	vpermpd	$216, %ymm15, %ymm15
	vmovups	%ymm15, 1856(%rsp)
	vshufps	$221, 384(%rsp), %ymm7, %ymm15
	vpermpd	$216, %ymm15, %ymm15
	vmovups	%ymm15, 1888(%rsp)
	vmovaps	288(%rsp), %ymm0
	vshufps	$221, %ymm8, %ymm0, %ymm12
	vpermpd	$216, %ymm12, %ymm12
	vmovups	%ymm12, 1920(%rsp)
	vshufps	$221, 320(%rsp), %ymm9, %ymm12
	vpermpd	$216, %ymm12, %ymm12
	vmovups	%ymm12, 1952(%rsp)
	vmovaps	224(%rsp), %ymm0
	vshufps	$221, %ymm10, %ymm0, %ymm8
	vpermpd	$216, %ymm8, %ymm8
	vmovups	%ymm8, 1984(%rsp)
	vshufps	$221, 256(%rsp), %ymm11, %ymm8
	vpermpd	$216, %ymm8, %ymm8
	vmovups	%ymm8, 2016(%rsp)
	vshufps	$221, 192(%rsp), %ymm14, %ymm4
	vpermpd	$216, %ymm4, %ymm4
	vmovups	%ymm4, 2048(%rsp)
	vshufps	$221, 128(%rsp), %ymm13, %ymm4
	vpermpd	$216, %ymm4, %ymm4
	vmovups	%ymm4, 2080(%rsp)
	vmovaps	32(%rsp), %ymm0
	vshufps	$221, 96(%rsp), %ymm0, %ymm0
	vpermpd	$216, %ymm0, %ymm0
	vmovups	%ymm0, 2112(%rsp)
	vmovaps	64(%rsp), %ymm0
	vshufps	$221, 160(%rsp), %ymm0, %ymm0
	vpermpd	$216, %ymm0, %ymm0
	vmovups	%ymm0, 2144(%rsp)
	vbroadcastss	D(CPI11_0)(%rip), %ymm0
	vmovups	%ymm0, 1120(%rsp)
	movq	%rdi, %rbx
	vmovups	%ymm0, 1088(%rsp)
	vbroadcastss	D(CPI11_1)(%rip), %ymm0
	vmovups	%ymm0, 1056(%rsp)
	vmovups	%ymm0, 1024(%rsp)
	leaq	2176(%rsp), %r14
	movq	%r14, %rdi
	vzeroupper
	callq	"keyed_blake3::chunks::key_of_each::<#2e65a0a13cda87df>"
	leaq	1152(%rsp), %rsi
	leaq	1088(%rsp), %rdx
	leaq	1024(%rsp), %rcx
	movq	%r14, %rdi
	callq	"keyed_blake3::compression::lanes::take_in_each::<#2e65a0a13cda87df>"
	movl	$512, %edx
	movq	%rbx, %rdi
	movq	%r14, %rsi
	callq	PLT(memcpy)
	leaq	-16(%rbp), %rsp
	popq	%rbx
	popq	%r14
	popq	%rbp
	.cfi_def_cfa %rsp, 8
	retq
	SIZE("keyed_blake3::subtrees::parent_values::<#2e65a0a13cda87df>")
	.cfi_endproc

SIZED(4, 2)
	.p2align	2, 0x0
D(CPI12_0):
	.long	1779033703
D(CPI12_1):
	.long	3144134277
D(CPI12_2):
	.long	1013904242
D(CPI12_3):
	.long	2773480762
CODE(".text.keyed_blake3::compression::lanes::take_in_each::<#2e65a0a13cda87df>")
	.p2align	4
	TYPE("keyed_blake3::compression::lanes::take_in_each::<#2e65a0a13cda87df>", function)
"keyed_blake3::compression::lanes::take_in_each::<#2e65a0a13cda87df>":
	.cfi_startproc
	pushq	%rbp
	.cfi_def_cfa_offset 16
	.cfi_offset %rbp, -16
	movq	%rsp, %rbp
	.cfi_def_cfa_register %rbp
	andq	$-64, %rsp
	subq	$64, %rsp
	vmovdqu64	256(%rdi), %zmm5
	vmovdqu64	320(%rdi), %zmm6
	vmovdqu64	384(%rdi), %zmm7
	vmovdqu64	448(%rdi), %zmm9
	vmovdqu64	256(%rsi), %zmm0
	vmovdqu64	384(%rsi), %zmm3
	vpaddd	(%rdi), %zmm5, %zmm10
	vmovdqu64	(%rsi), %zmm4
	vmovdqu64	64(%rsi), %zmm8
	vmovdqu64	128(%rsi), %zmm2
	vmovdqu64	192(%rsi), %zmm1
	vpaddd	%zmm4, %zmm10, %zmm10
	vpaddd	64(%rdi), %zmm6, %zmm11
	vpaddd	%zmm2, %zmm11, %zmm12
	vpaddd	128(%rdi), %zmm7, %zmm11
	vpaddd	192(%rdi), %zmm9, %zmm13
	vpaddd	%zmm0, %zmm11, %zmm14
	vpaddd	%zmm3, %zmm13, %zmm13
	vprold	$16, %zmm10, %zmm15
	vprold	$16, %zmm12, %zmm16
	vpxorq	(%rdx), %zmm14, %zmm11
	vpxorq	(%rcx), %zmm13, %zmm17
	vprold	$16, %zmm11, %zmm18
	vprold	$16, %zmm17, %zmm17
	vpaddd	D(CPI12_0)(%rip){1to16}, %zmm15, %zmm19
	vpaddd	D(CPI12_1)(%rip){1to16}, %zmm16, %zmm20
	vpaddd	D(CPI12_2)(%rip){1to16}, %zmm18, %zmm21
	vpaddd	D(CPI12_3)(%rip){1to16}, %zmm17, %zmm22
	vpxord	%zmm5, %zmm19, %zmm5
	vpxord	%zmm6, %zmm20, %zmm6
	vpxord	%zmm7, %zmm21, %zmm7
	vpxord	%zmm9, %zmm22, %zmm9
	vprold	$20, %zmm5, %zmm23
	vprold	$20, %zmm6, %zmm6
	vprold	$20, %zmm7, %zmm7
	vprold	$20, %zmm9, %zmm9
	vmovdqu64	320(%rsi), %zmm11
	vmovdqu64	448(%rsi), %zmm5
	vpaddd	%zmm10, %zmm8, %zmm10
	vpaddd	%zmm23, %zmm10, %zmm10
	vpaddd	%zmm12, %zmm1, %zmm12
	vpaddd	%zmm6, %zmm12, %zmm24
	vpaddd	%zmm14, %zmm11, %zmm12
	vpaddd	%zmm7, %zmm12, %zmm14
	vpaddd	%zmm13, %zmm5, %zmm12
	vpaddd	%zmm9, %zmm12, %zmm13
	vpxorq	%zmm10, %zmm15, %zmm12
	vprold	$24, %zmm12, %zmm15
	vpxorq	%zmm24, %zmm16, %zmm12
	vprold	$24, %zmm12, %zmm16
	vpxorq	%zmm14, %zmm18, %zmm12
	vprold	$24, %zmm12, %zmm18
	vpxorq	%zmm13, %zmm17, %zmm12
	vprold	$24, %zmm12, %zmm17
	vpaddd	%zmm15, %zmm19, %zmm19
	vpaddd	%zmm16, %zmm20, %zmm20
	vpaddd	%zmm18, %zmm21, %zmm21
	vpaddd	%zmm17, %zmm22, %zmm22
	vpxord	%zmm23, %zmm19, %zmm12
	vpxord	%zmm6, %zmm20, %zmm6
	vpxord	%zmm7, %zmm21, %zmm7
	vpxord	%zmm9, %zmm22, %zmm9
	vprold	$25, %zmm12, %zmm23
	vprold	$25, %zmm6, %zmm25
	vprold	$25, %zmm7, %zmm26
	vprold	$25, %zmm9, %zmm27
	vmovdqu64	896(%rsi), %zmm9
	vmovdqu64	512(%rsi), %zmm12
	vmovdqu64	640(%rsi), %zmm7
	vmovdqu64	768(%rsi), %zmm6
	vpaddd	%zmm23, %zmm9, %zmm28
	vpaddd	%zmm28, %zmm13, %zmm28
	vpaddd	%zmm12, %zmm10, %zmm10
	vpaddd	%zmm25, %zmm10, %zmm29
	vpaddd	%zmm7, %zmm24, %zmm10
	vpaddd	%zmm26, %zmm10, %zmm24
	vpaddd	%zmm6, %zmm14, %zmm10
	vpaddd	%zmm27, %zmm10, %zmm30
	vpxorq	%zmm28, %zmm18, %zmm10
	vprold	$16, %zmm10, %zmm18
	vpxorq	%zmm29, %zmm17, %zmm10
	vprold	$16, %zmm10, %zmm17
	vpxorq	%zmm24, %zmm15, %zmm10
	vprold	$16, %zmm10, %zmm31
	vpxorq	%zmm30, %zmm16, %zmm10
	vprold	$16, %zmm10, %zmm16
	vpaddd	%zmm18, %zmm20, %zmm20
	vpaddd	%zmm17, %zmm21, %zmm21
	vpaddd	%zmm31, %zmm22, %zmm22
	vpaddd	%zmm16, %zmm19, %zmm19
	vpxord	%zmm23, %zmm20, %zmm10
	vpxord	%zmm25, %zmm21, %zmm13
	vpxord	%zmm26, %zmm22, %zmm14
	vpxord	%zmm27, %zmm19, %zmm15
	vprold	$20, %zmm10, %zmm23
	vprold	$20, %zmm13, %zmm25
	vprold	$20, %zmm14, %zmm26
	vprold	$20, %zmm15, %zmm27
	vmovdqu64	960(%rsi), %zmm14
	vmovdqu64	576(%rsi), %zmm13
	vmovdqu64	704(%rsi), %zmm15
	vmovdqu64	832(%rsi), %zmm10
	vpaddd	%zmm14, %zmm28, %zmm28
	vpaddd	%zmm23, %zmm28, %zmm28
	vpaddd	%zmm13, %zmm29, %zmm29
	vpaddd	%zmm25, %zmm29, %zmm29
	vpaddd	%zmm15, %zmm24, %zmm24
	vpaddd	%zmm26, %zmm24, %zmm24
	vpaddd	%zmm10, %zmm30, %zmm30
	vpaddd	%zmm27, %zmm30, %zmm30
	vpxorq	%zmm28, %zmm18, %zmm18
	vprold	$24, %zmm18, %zmm18
	vpxorq	%zmm29, %zmm17, %zmm17
	vprold	$24, %zmm17, %zmm17
	vpxorq	%zmm24, %zmm31, %zmm31
	vprold	$24, %zmm31, %zmm31
	vpxorq	%zmm30, %zmm16, %zmm16
	vprold	$24, %zmm16, %zmm16
	vpaddd	%zmm18, %zmm20, %zmm20
	vpaddd	%zmm17, %zmm21, %zmm21
	vpaddd	%zmm31, %zmm22, %zmm22
	vpaddd	%zmm16, %zmm19, %zmm19
	vpxord	%zmm23, %zmm20, %zmm23
	vpxord	%zmm25, %zmm21, %zmm25
	vpxord	%zmm26, %zmm22, %zmm26
	vpxord	%zmm27, %zmm19, %zmm27
	vprold	$25, %zmm23, %zmm23
	vprold	$25, %zmm25, %zmm25
	vprold	$25, %zmm26, %zmm26
	vprold	$25, %zmm27, %zmm27
	vpaddd	%zmm2, %zmm29, %zmm29
	vpaddd	%zmm23, %zmm29, %zmm29
	vpaddd	%zmm1, %zmm24, %zmm24
	vpaddd	%zmm25, %zmm24, %zmm24
	vpaddd	%zmm5, %zmm30, %zmm30
	vpaddd	%zmm26, %zmm30, %zmm30
	vpaddd	%zmm0, %zmm28, %zmm28
	vpaddd	%zmm27, %zmm28, %zmm28
	vpxorq	%zmm29, %zmm31, %zmm31
	vprold	$16, %zmm31, %zmm31
	vpxorq	%zmm24, %zmm16, %zmm16
	vprold	$16, %zmm16, %zmm16
	vpxorq	%zmm30, %zmm18, %zmm18
	vprold	$16, %zmm18, %zmm18
	vpxorq	%zmm28, %zmm17, %zmm17
	vprold	$16, %zmm17, %zmm17
	vpaddd	%zmm31, %zmm19, %zmm19
	vpaddd	%zmm16, %zmm20, %zmm20
	vpaddd	%zmm18, %zmm21, %zmm21
	vpaddd	%zmm17, %zmm22, %zmm22
	vpxord	%zmm23, %zmm19, %zmm23
	vpxord	%zmm25, %zmm20, %zmm25
	vpxord	%zmm26, %zmm21, %zmm26
	vpxord	%zmm27, %zmm22, %zmm27
	vprold	$20, %zmm23, %zmm23
	vprold	$20, %zmm25, %zmm25
	vprold	$20, %zmm26, %zmm26
	vprold	$20, %zmm27, %zmm27
	vpaddd	%zmm3, %zmm29, %zmm29
	vpaddd	%zmm23, %zmm29, %zmm29
	vpaddd	%zmm7, %zmm24, %zmm24
	vpaddd	%zmm25, %zmm24, %zmm24
	vpaddd	%zmm4, %zmm30, %zmm30
	vpaddd	%zmm26, %zmm30, %zmm30
	vpaddd	%zmm10, %zmm28, %zmm28
	vpaddd	%zmm27, %zmm28, %zmm28
	vpxorq	%zmm29, %zmm31, %zmm31
	vprold	$24, %zmm31, %zmm31
	vpxorq	%zmm24, %zmm16, %zmm16
	vprold	$24, %zmm16, %zmm16
	vpxorq	%zmm30, %zmm18, %zmm18
	vprold	$24, %zmm18, %zmm18
	vpxorq	%zmm28, %zmm17, %zmm17
	vprold	$24, %zmm17, %zmm17
	vpaddd	%zmm31, %zmm19, %zmm19
	vpaddd	%zmm16, %zmm20, %zmm20
	vpaddd	%zmm18, %zmm21, %zmm21
	vpaddd	%zmm17, %zmm22, %zmm22
	vpxord	%zmm23, %zmm19, %zmm23
	vpxord	%zmm25, %zmm20, %zmm25
	vpxord	%zmm26, %zmm21, %zmm26
	vpxord	%zmm27, %zmm22, %zmm27
	vprold	$25, %zmm23, %zmm23
	vprold	$25, %zmm25, %zmm25
	vprold	$25, %zmm26, %zmm26
	vprold	$25, %zmm27, %zmm27
	vpaddd	%zmm14, %zmm28, %zmm28
	vpaddd	%zmm23, %zmm28, %zmm28
	vpaddd	%zmm8, %zmm29, %zmm29
	vpaddd	%zmm25, %zmm29, %zmm29
	vpaddd	%zmm6, %zmm24, %zmm24
	vpaddd	%zmm26, %zmm24, %zmm24
	vpaddd	%zmm13, %zmm30, %zmm30
	vpaddd	%zmm27, %zmm30, %zmm30
	vpxorq	%zmm28, %zmm18, %zmm18
	vprold	$16, %zmm18, %zmm18
	vpxorq	%zmm29, %zmm17, %zmm17
	vprold	$16, %zmm17, %zmm17
	vpxorq	%zmm24, %zmm31, %zmm31
	vprold	$16, %zmm31, %zmm31
	vpxorq	%zmm30, %zmm16, %zmm16
	vprold	$16, %zmm16, %zmm16
	vpaddd	%zmm18, %zmm20, %zmm20
	vpaddd	%zmm17, %zmm21, %zmm21
	vpaddd	%zmm31, %zmm22, %zmm22
	vpaddd	%zmm16, %zmm19, %zmm19
	vpxord	%zmm23, %zmm20, %zmm23
	vpxord	%zmm25, %zmm21, %zmm25
	vpxord	%zmm26, %zmm22, %zmm26
	vpxord	%zmm27, %zmm19, %zmm27
	vprold	$20, %zmm23, %zmm23
	vprold	$20, %zmm25, %zmm25
	vprold	$20, %zmm26, %zmm26
	vprold	$20, %zmm27, %zmm27
	vpaddd	%zmm12, %zmm28, %zmm28
	vpaddd	%zmm23, %zmm28, %zmm28
	vpaddd	%zmm15, %zmm29, %zmm29
	vpaddd	%zmm25, %zmm29, %zmm29
	vpaddd	%zmm11, %zmm24, %zmm24
	vpaddd	%zmm26, %zmm24, %zmm24
	vpaddd	%zmm9, %zmm30, %zmm30
	vpaddd	%zmm27, %zmm30, %zmm30
	vpxorq	%zmm28, %zmm18, %zmm18
	vprold	$24, %zmm18, %zmm18
	vpxorq	%zmm29, %zmm17, %zmm17
	vprold	$24, %zmm17, %zmm17
	vpxorq	%zmm24, %zmm31, %zmm31
	vprold	$24, %zmm31, %zmm31
	vpxorq	%zmm30, %zmm16, %zmm16
	vprold	$24, %zmm16, %zmm16
	vpaddd	%zmm18, %zmm20, %zmm20
	vpaddd	%zmm17, %zmm21, %zmm21
	vpaddd	%zmm31, %zmm22, %zmm22
	vpaddd	%zmm16, %zmm19, %zmm19
	vpxord	%zmm23, %zmm20, %zmm23
	vpxord	%zmm25, %zmm21, %zmm25
	vpxord	%zmm26, %zmm22, %zmm26
	vpxord	%zmm27, %zmm19, %zmm27
	vprold	$25, %zmm23, %zmm23
	vprold	$25, %zmm25, %zmm25
	vprold	$25, %zmm26, %zmm26
	vprold	$25, %zmm27, %zmm27
	vpaddd	%zmm1, %zmm29, %zmm29
	vpaddd	%zmm23, %zmm29, %zmm29
	vpaddd	%zmm7, %zmm24, %zmm24
	vpaddd	%zmm25, %zmm24, %zmm24
	vpaddd	%zmm10, %zmm30, %zmm30
	vpaddd	%zmm26, %zmm30, %zmm30
	vpaddd	%zmm5, %zmm28, %zmm28
	vpaddd	%zmm27, %zmm28, %zmm28
	vpxorq	%zmm29, %zmm31, %zmm31
	vprold	$16, %zmm31, %zmm31
	vpxorq	%zmm24, %zmm16, %zmm16
	vprold	$16, %zmm16, %zmm16
	vpxorq	%zmm30, %zmm18, %zmm18
	vprold	$16, %zmm18, %zmm18
	vpxorq	%zmm28, %zmm17, %zmm17
	vprold	$16, %zmm17, %zmm17
	vpaddd	%zmm31, %zmm19, %zmm19
	vpaddd	%zmm16, %zmm20, %zmm20
	vpaddd	%zmm18, %zmm21, %zmm21
	vpaddd	%zmm17, %zmm22, %zmm22
	vpxord	%zmm23, %zmm19, %zmm23
	vpxord	%zmm25, %zmm20, %zmm25
	vpxord	%zmm26, %zmm21, %zmm26
	vpxord	%zmm27, %zmm22, %zmm27
	vprold	$20, %zmm23, %zmm23
	vprold	$20, %zmm25, %zmm25
	vprold	$20, %zmm26, %zmm26
	vprold	$20, %zmm27, %zmm27
	vpaddd	%zmm0, %zmm29, %zmm29
	vpaddd	%zmm23, %zmm29, %zmm29
	vpaddd	%zmm6, %zmm24, %zmm24
	vpaddd	%zmm25, %zmm24, %zmm24
	vpaddd	%zmm2, %zmm30, %zmm30
	vpaddd	%zmm26, %zmm30, %zmm30
	vpaddd	%zmm9, %zmm28, %zmm28
	vpaddd	%zmm27, %zmm28, %zmm28
	vpxorq	%zmm29, %zmm31, %zmm31
	vprold	$24, %zmm31, %zmm31
	vpxorq	%zmm24, %zmm16, %zmm16
	vprold	$24, %zmm16, %zmm16
	vpxorq	%zmm30, %zmm18, %zmm18
	vprold	$24, %zmm18, %zmm18
	vpxorq	%zmm28, %zmm17, %zmm17
	vprold	$24, %zmm17, %zmm17
	vpaddd	%zmm31, %zmm19, %zmm19
	vpaddd	%zmm16, %zmm20, %zmm20
	vpaddd	%zmm18, %zmm21, %zmm21
	vpaddd	%zmm17, %zmm22, %zmm22
	vpxord	%zmm23, %zmm19, %zmm23
	vpxord	%zmm25, %zmm20, %zmm25
	vpxord	%zmm26, %zmm21, %zmm26
	vpxord	%zmm27, %zmm22, %zmm27
	vprold	$25, %zmm23, %zmm23
	vprold	$25, %zmm25, %zmm25
	vprold	$25, %zmm26, %zmm26
	vprold	$25, %zmm27, %zmm27
	vpaddd	%zmm12, %zmm28, %zmm28
	vpaddd	%zmm23, %zmm28, %zmm28
	vpaddd	%zmm3, %zmm29, %zmm29
	vpaddd	%zmm25, %zmm29, %zmm29
	vpaddd	%zmm13, %zmm24, %zmm24
	vpaddd	%zmm26, %zmm24, %zmm24
	vpaddd	%zmm15, %zmm30, %zmm30
	vpaddd	%zmm27, %zmm30, %zmm30
	vpxorq	%zmm28, %zmm18, %zmm18
	vprold	$16, %zmm18, %zmm18
	vpxorq	%zmm29, %zmm17, %zmm17
	vprold	$16, %zmm17, %zmm17
	vpxorq	%zmm24, %zmm31, %zmm31
	vprold	$16, %zmm31, %zmm31
	vpxorq	%zmm30, %zmm16, %zmm16
	vprold	$16, %zmm16, %zmm16
	vpaddd	%zmm18, %zmm20, %zmm20
	vpaddd	%zmm17, %zmm21, %zmm21
	vpaddd	%zmm31, %zmm22, %zmm22
	vpaddd	%zmm16, %zmm19, %zmm19
	vpxord	%zmm23, %zmm20, %zmm23
	vpxord	%zmm25, %zmm21, %zmm25
	vpxord	%zmm26, %zmm22, %zmm26
	vpxord	%zmm27, %zmm19, %zmm27
	vprold	$20, %zmm23, %zmm23
	vprold	$20, %zmm25, %zmm25
	vprold	$20, %zmm26, %zmm26
	vprold	$20, %zmm27, %zmm27
	vpaddd	%zmm8, %zmm28, %zmm28
	vpaddd	%zmm23, %zmm28, %zmm28
	vpaddd	%zmm11, %zmm29, %zmm29
	vpaddd	%zmm25, %zmm29, %zmm29
	vpaddd	%zmm4, %zmm24, %zmm24
	vpaddd	%zmm26, %zmm24, %zmm24
	vpaddd	%zmm14, %zmm30, %zmm30
	vpaddd	%zmm27, %zmm30, %zmm30
	vpxorq	%zmm28, %zmm18, %zmm18
	vprold	$24, %zmm18, %zmm18
	vpxorq	%zmm29, %zmm17, %zmm17
	vprold	$24, %zmm17, %zmm17
	vpxorq	%zmm24, %zmm31, %zmm31
	vprold	$24, %zmm31, %zmm31
	vpxorq	%zmm30, %zmm16, %zmm16
	vprold	$24, %zmm16, %zmm16
	vpaddd	%zmm18, %zmm20, %zmm20
	vpaddd	%zmm17, %zmm21, %zmm21
	vpaddd	%zmm31, %zmm22, %zmm22
	vpaddd	%zmm16, %zmm19, %zmm19
	vpxord	%zmm23, %zmm20, %zmm23
	vpxord	%zmm25, %zmm21, %zmm25
	vpxord	%zmm26, %zmm22, %zmm26
	vpxord	%zmm27, %zmm19, %zmm27
	vprold	$25, %zmm23, %zmm23
	vprold	$25, %zmm25, %zmm25
	vprold	$25, %zmm26, %zmm26
	vprold	$25, %zmm27, %zmm27
	vpaddd	%zmm7, %zmm29, %zmm29
	vpaddd	%zmm23, %zmm29, %zmm29
	vpaddd	%zmm6, %zmm24, %zmm24
	vpaddd	%zmm25, %zmm24, %zmm24
	vpaddd	%zmm9, %zmm30, %zmm30
	vpaddd	%zmm26, %zmm30, %zmm30
	vpaddd	%zmm10, %zmm28, %zmm28
	vpaddd	%zmm27, %zmm28, %zmm28
	vpxorq	%zmm29, %zmm31, %zmm31
	vprold	$16, %zmm31, %zmm31
	vpxorq	%zmm24, %zmm16, %zmm16
	vprold	$16, %zmm16, %zmm16
	vpxorq	%zmm30, %zmm18, %zmm18
	vprold	$16, %zmm18, %zmm18
	vpxorq	%zmm28, %zmm17, %zmm17
	vprold	$16, %zmm17, %zmm17
	vpaddd	%zmm31, %zmm19, %zmm19
	vpaddd	%zmm16, %zmm20, %zmm20
	vpaddd	%zmm18, %zmm21, %zmm21
	vpaddd	%zmm17, %zmm22, %zmm22
	vpxord	%zmm23, %zmm19, %zmm23
	vpxord	%zmm25, %zmm20, %zmm25
	vpxord	%zmm26, %zmm21, %zmm26
	vpxord	%zmm27, %zmm22, %zmm27
	vprold	$20, %zmm23, %zmm23
	vprold	$20, %zmm25, %zmm25
	vprold	$20, %zmm26, %zmm26
	vprold	$20, %zmm27, %zmm27
	vpaddd	%zmm5, %zmm29, %zmm29
	vpaddd	%zmm23, %zmm29, %zmm29
	vpaddd	%zmm13, %zmm24, %zmm24
	vpaddd	%zmm25, %zmm24, %zmm24
	vpaddd	%zmm1, %zmm30, %zmm30
	vpaddd	%zmm26, %zmm30, %zmm30
	vpaddd	%zmm14, %zmm28, %zmm28
	vpaddd	%zmm27, %zmm28, %zmm28
	vpxorq	%zmm29, %zmm31, %zmm31
	vprold	$24, %zmm31, %zmm31
	vpxorq	%zmm24, %zmm16, %zmm16
	vprold	$24, %zmm16, %zmm16
	vpxorq	%zmm30, %zmm18, %zmm18
	vprold	$24, %zmm18, %zmm18
	vpxorq	%zmm28, %zmm17, %zmm17
	vprold	$24, %zmm17, %zmm17
	vpaddd	%zmm31, %zmm19, %zmm19
	vpaddd	%zmm16, %zmm20, %zmm20
	vpaddd	%zmm18, %zmm21, %zmm21
	vpaddd	%zmm17, %zmm22, %zmm22
	vpxord	%zmm23, %zmm19, %zmm23
	vpxord	%zmm25, %zmm20, %zmm25
	vpxord	%zmm26, %zmm21, %zmm26
	vpxord	%zmm27, %zmm22, %zmm27
	vprold	$25, %zmm23, %zmm23
	vprold	$25, %zmm25, %zmm25
	vprold	$25, %zmm26, %zmm26
	vprold	$25, %zmm27, %zmm27
	vpaddd	%zmm8, %zmm28, %zmm28
	vpaddd	%zmm23, %zmm28, %zmm28
	vpaddd	%zmm0, %zmm29, %zmm29
	vpaddd	%zmm25, %zmm29, %zmm29
	vpaddd	%zmm15, %zmm24, %zmm24
	vpaddd	%zmm26, %zmm24, %zmm24
	vpaddd	%zmm11, %zmm30, %zmm30
	vpaddd	%zmm27, %zmm30, %zmm30
	vpxorq	%zmm28, %zmm18, %zmm18
	vprold	$16, %zmm18, %zmm18
	vpxorq	%zmm29, %zmm17, %zmm17
	vprold	$16, %zmm17, %zmm17
	vpxorq	%zmm24, %zmm31, %zmm31
	vprold	$16, %zmm31, %zmm31
	vpxorq	%zmm30, %zmm16, %zmm16
	vprold	$16, %zmm16, %zmm16
	vpaddd	%zmm18, %zmm20, %zmm20
	vpaddd	%zmm17, %zmm21, %zmm21
	vpaddd	%zmm31, %zmm22, %zmm22
	vpaddd	%zmm16, %zmm19, %zmm19
	vpxord	%zmm23, %zmm20, %zmm23
	vpxord	%zmm25, %zmm21, %zmm25
	vpxord	%zmm26, %zmm22, %zmm26
	vpxord	%zmm27, %zmm19, %zmm27
	vprold	$20, %zmm23, %zmm23
	vprold	$20, %zmm25, %zmm25
	vprold	$20, %zmm26, %zmm26
	vprold	$20, %zmm27, %zmm27
	vpaddd	%zmm3, %zmm28, %zmm28
	vpaddd	%zmm23, %zmm28, %zmm28
	vpaddd	%zmm4, %zmm29, %zmm29
	vpaddd	%zmm25, %zmm29, %zmm29
	vpaddd	%zmm2, %zmm24, %zmm24
	vpaddd	%zmm26, %zmm24, %zmm24
	vpaddd	%zmm12, %zmm30, %zmm30
	vpaddd	%zmm27, %zmm30, %zmm30
	vpxorq	%zmm28, %zmm18, %zmm18
	vprold	$24, %zmm18, %zmm18
	vpxorq	%zmm29, %zmm17, %zmm17
	vprold	$24, %zmm17, %zmm17
	vpxorq	%zmm24, %zmm31, %zmm31
	vprold	$24, %zmm31, %zmm31
	vpxorq	%zmm30, %zmm16, %zmm16
	vprold	$24, %zmm16, %zmm16
	vpaddd	%zmm18, %zmm20, %zmm20
	vpaddd	%zmm17, %zmm21, %zmm21
	vpaddd	%zmm31, %zmm22, %zmm22
	vpaddd	%zmm16, %zmm19, %zmm19
	vpxord	%zmm23, %zmm20, %zmm23
	vpxord	%zmm25, %zmm21, %zmm25
	vpxord	%zmm26, %zmm22, %zmm26
	vpxord	%zmm27, %zmm19, %zmm27
	vprold	$25, %zmm23, %zmm23
	vprold	$25, %zmm25, %zmm25
	vprold	$25, %zmm26, %zmm26
	vprold	$25, %zmm27, %zmm27
	vpaddd	%zmm6, %zmm29, %zmm29
	vpaddd	%zmm23, %zmm29, %zmm29
	vpaddd	%zmm13, %zmm24, %zmm24
	vpaddd	%zmm25, %zmm24, %zmm24
	vpaddd	%zmm14, %zmm30, %zmm30
	vpaddd	%zmm26, %zmm30, %zmm30
	vpaddd	%zmm9, %zmm28, %zmm28
	vpaddd	%zmm27, %zmm28, %zmm28
	vpxorq	%zmm29, %zmm31, %zmm31
	vprold	$16, %zmm31, %zmm31
	vpxorq	%zmm24, %zmm16, %zmm16
	vprold	$16, %zmm16, %zmm16
	vpxorq	%zmm30, %zmm18, %zmm18
	vprold	$16, %zmm18, %zmm18
	vpxorq	%zmm28, %zmm17, %zmm17
	vprold	$16, %zmm17, %zmm17
	vpaddd	%zmm31, %zmm19, %zmm19
	vpaddd	%zmm16, %zmm20, %zmm20
	vpaddd	%zmm18, %zmm21, %zmm21
	vpaddd	%zmm17, %zmm22, %zmm22
	vpxord	%zmm23, %zmm19, %zmm23
	vpxord	%zmm25, %zmm20, %zmm25
	vpxord	%zmm26, %zmm21, %zmm26
	vpxord	%zmm27, %zmm22, %zmm27
	vprold	$20, %zmm23, %zmm23
	vprold	$20, %zmm25, %zmm25
	vprold	$20, %zmm26, %zmm26
	vprold	$20, %zmm27, %zmm27
	vpaddd	%zmm10, %zmm29, %zmm29
	vpaddd	%zmm23, %zmm29, %zmm29
	vpaddd	%zmm15, %zmm24, %zmm24
	vpaddd	%zmm25, %zmm24, %zmm24
	vpaddd	%zmm7, %zmm30, %zmm30
	vpaddd	%zmm26, %zmm30, %zmm30
	vpaddd	%zmm12, %zmm28, %zmm28
	vpaddd	%zmm27, %zmm28, %zmm28
	vpxorq	%zmm29, %zmm31, %zmm31
	vprold	$24, %zmm31, %zmm31
	vpxorq	%zmm24, %zmm16, %zmm16
	vprold	$24, %zmm16, %zmm16
	vpxorq	%zmm30, %zmm18, %zmm18
	vprold	$24, %zmm18, %zmm18
	vpxorq	%zmm28, %zmm17, %zmm17
	vprold	$24, %zmm17, %zmm17
	vpaddd	%zmm31, %zmm19, %zmm19
	vpaddd	%zmm16, %zmm20, %zmm20
	vpaddd	%zmm18, %zmm21, %zmm21
	vpaddd	%zmm17, %zmm22, %zmm22
	vpxord	%zmm23, %zmm19, %zmm23
	vpxord	%zmm25, %zmm20, %zmm25
	vpxord	%zmm26, %zmm21, %zmm26
	vpxord	%zmm27, %zmm22, %zmm27
	vprold	$25, %zmm23, %zmm23
	vprold	$25, %zmm25, %zmm25
	vprold	$25, %zmm26, %zmm26
	vprold	$25, %zmm27, %zmm27
	vpaddd	%zmm3, %zmm28, %zmm28
	vpaddd	%zmm23, %zmm28, %zmm28
	vpaddd	%zmm5, %zmm29, %zmm29
	vpaddd	%zmm25, %zmm29, %zmm29
	vpaddd	%zmm11, %zmm24, %zmm24
	vpaddd	%zmm26, %zmm24, %zmm24
	vpaddd	%zmm4, %zmm30, %zmm30
	vpaddd	%zmm27, %zmm30, %zmm30
	vpxorq	%zmm28, %zmm18, %zmm18
	vprold	$16, %zmm18, %zmm18
	vpxorq	%zmm29, %zmm17, %zmm17
	vprold	$16, %zmm17, %zmm17
	vpxorq	%zmm24, %zmm31, %zmm31
	vprold	$16, %zmm31, %zmm31
	vpxorq	%zmm30, %zmm16, %zmm16
	vprold	$16, %zmm16, %zmm16
	vpaddd	%zmm18, %zmm20, %zmm20
	vpaddd	%zmm17, %zmm21, %zmm21
	vpaddd	%zmm31, %zmm22, %zmm22
	vpaddd	%zmm16, %zmm19, %zmm19
	vpxord	%zmm23, %zmm20, %zmm23
	vpxord	%zmm25, %zmm21, %zmm25
	vpxord	%zmm26, %zmm22, %zmm26
	vpxord	%zmm27, %zmm19, %zmm27
	vprold	$20, %zmm23, %zmm23
	vprold	$20, %zmm25, %zmm25
	vprold	$20, %zmm26, %zmm26
	vprold	$20, %zmm27, %zmm27
	vpaddd	%zmm0, %zmm28, %zmm28
	vpaddd	%zmm23, %zmm28, %zmm28
	vpaddd	%zmm2, %zmm29, %zmm29
	vpaddd	%zmm25, %zmm29, %zmm29
	vpaddd	%zmm1, %zmm24, %zmm24
	vpaddd	%zmm26, %zmm24, %zmm24
	vpaddd	%zmm8, %zmm30, %zmm30
	vpaddd	%zmm27, %zmm30, %zmm30
	vpxorq	%zmm28, %zmm18, %zmm18
	vprold	$24, %zmm18, %zmm18
	vpxorq	%zmm29, %zmm17, %zmm17
	vprold	$24, %zmm17, %zmm17
	vpxorq	%zmm24, %zmm31, %zmm31
	vprold	$24, %zmm31, %zmm31
	vpxorq	%zmm30, %zmm16, %zmm16
	vprold	$24, %zmm16, %zmm16
	vpaddd	%zmm18, %zmm20, %zmm20
	vpaddd	%zmm17, %zmm21, %zmm21
	vpaddd	%zmm31, %zmm22, %zmm22
	vpaddd	%zmm16, %zmm19, %zmm19
	vpxord	%zmm23, %zmm20, %zmm23
	vpxord	%zmm25, %zmm21, %zmm25
	vpxord	%zmm26, %zmm22, %zmm26
	vpxord	%zmm27, %zmm19, %zmm27
	vprold	$25, %zmm23, %zmm23
	vprold	$25, %zmm25, %zmm25
	vprold	$25, %zmm26, %zmm26
	vprold	$25, %zmm27, %zmm27
	vpaddd	%zmm13, %zmm29, %zmm29
	vpaddd	%zmm23, %zmm29, %zmm29
	vpaddd	%zmm15, %zmm24, %zmm24
	vpaddd	%zmm25, %zmm24, %zmm24
	vpaddd	%zmm12, %zmm30, %zmm30
	vpaddd	%zmm26, %zmm30, %zmm30
	vpaddd	%zmm14, %zmm28, %zmm28
	vpaddd	%zmm27, %zmm28, %zmm28
	vpxorq	%zmm29, %zmm31, %zmm31
	vprold	$16, %zmm31, %zmm31
	vpxorq	%zmm24, %zmm16, %zmm16
	vprold	$16, %zmm16, %zmm16
	vpxorq	%zmm30, %zmm18, %zmm18
	vprold	$16, %zmm18, %zmm18
	vpxorq	%zmm28, %zmm17, %zmm17
	vprold	$16, %zmm17, %zmm17
	vpaddd	%zmm31, %zmm19, %zmm19
	vpaddd	%zmm16, %zmm20, %zmm20
	vpaddd	%zmm18, %zmm21, %zmm21
	vpaddd	%zmm17, %zmm22, %zmm22
	vpxord	%zmm23, %zmm19, %zmm23
	vpxord	%zmm25, %zmm20, %zmm25
	vpxord	%zmm26, %zmm21, %zmm26
	vpxord	%zmm27, %zmm22, %zmm27
	vprold	$20, %zmm23, %zmm23
	vprold	$20, %zmm25, %zmm25
	vprold	$20, %zmm26, %zmm26
	vprold	$20, %zmm27, %zmm27
	vpaddd	%zmm9, %zmm29, %zmm29
	vpaddd	%zmm23, %zmm29, %zmm29
	vpaddd	%zmm11, %zmm24, %zmm24
	vpaddd	%zmm25, %zmm24, %zmm24
	vpaddd	%zmm6, %zmm30, %zmm30
	vpaddd	%zmm26, %zmm30, %zmm30
	vpaddd	%zmm8, %zmm28, %zmm28
	vpaddd	%zmm27, %zmm28, %zmm28
	vpxorq	%zmm29, %zmm31, %zmm31
	vprold	$24, %zmm31, %zmm31
	vpxorq	%zmm24, %zmm16, %zmm16
	vprold	$24, %zmm16, %zmm16
	vpxorq	%zmm30, %zmm18, %zmm18
	vprold	$24, %zmm18, %zmm18
	vpxorq	%zmm28, %zmm17, %zmm17
	vprold	$24, %zmm17, %zmm17
	vpaddd	%zmm31, %zmm19, %zmm19
	vpaddd	%zmm16, %zmm20, %zmm20
	vpaddd	%zmm18, %zmm21, %zmm21
	vpaddd	%zmm17, %zmm22, %zmm22
	vpxord	%zmm23, %zmm19, %zmm23
	vpxord	%zmm25, %zmm20, %zmm25
	vpxord	%zmm26, %zmm21, %zmm26
	vpxord	%zmm27, %zmm22, %zmm27
	vprold	$25, %zmm23, %zmm23
	vprold	$25, %zmm25, %zmm25
	vprold	$25, %zmm26, %zmm26
	vprold	$25, %zmm27, %zmm27
	vpaddd	%zmm0, %zmm28, %zmm28
	vpaddd	%zmm23, %zmm28, %zmm28
	vpaddd	%zmm10, %zmm29, %zmm29
	vpaddd	%zmm25, %zmm29, %zmm29
	vpaddd	%zmm4, %zmm24, %zmm24
	vpaddd	%zmm26, %zmm24, %zmm24
	vpaddd	%zmm2, %zmm30, %zmm30
	vpaddd	%zmm27, %zmm30, %zmm30
	vpxorq	%zmm28, %zmm18, %zmm18
	vprold	$16, %zmm18, %zmm18
	vpxorq	%zmm29, %zmm17, %zmm17
	vprold	$16, %zmm17, %zmm17
	vpxorq	%zmm24, %zmm31, %zmm31
	vprold	$16, %zmm31, %zmm31
	vpxorq	%zmm30, %zmm16, %zmm16
	vprold	$16, %zmm16, %zmm16
	vpaddd	%zmm18, %zmm20, %zmm20
	vpaddd	%zmm17, %zmm21, %zmm21
	vpaddd	%zmm31, %zmm22, %zmm22
	vpaddd	%zmm16, %zmm19, %zmm19
	vpxord	%zmm23, %zmm20, %zmm23
	vpxord	%zmm25, %zmm21, %zmm25
	vpxord	%zmm26, %zmm22, %zmm26
	vpxord	%zmm27, %zmm19, %zmm27
	vprold	$20, %zmm23, %zmm23
	vprold	$20, %zmm25, %zmm25
	vprold	$20, %zmm26, %zmm26
	vprold	$20, %zmm27, %zmm27
	vpaddd	%zmm5, %zmm28, %zmm28
	vpaddd	%zmm23, %zmm28, %zmm28
	vpaddd	%zmm1, %zmm29, %zmm29
	vpaddd	%zmm25, %zmm29, %zmm29
	vpaddd	%zmm7, %zmm24, %zmm24
	vpaddd	%zmm26, %zmm24, %zmm24
	vpaddd	%zmm3, %zmm30, %zmm30
	vpaddd	%zmm27, %zmm30, %zmm30
	vpxorq	%zmm28, %zmm18, %zmm18
	vprold	$24, %zmm18, %zmm18
	vpxorq	%zmm29, %zmm17, %zmm17
	vprold	$24, %zmm17, %zmm17
	vpxorq	%zmm24, %zmm31, %zmm31
	vprold	$24, %zmm31, %zmm31
	vpxorq	%zmm30, %zmm16, %zmm16
	vprold	$24, %zmm16, %zmm16
	vpaddd	%zmm18, %zmm20, %zmm20
	vpaddd	%zmm17, %zmm21, %zmm21
	vpaddd	%zmm31, %zmm22, %zmm22
	vpaddd	%zmm16, %zmm19, %zmm19
	vpxord	%zmm23, %zmm20, %zmm23
	vpxord	%zmm25, %zmm21, %zmm25
	vpxord	%zmm26, %zmm22, %zmm26
	vpxord	%zmm27, %zmm19, %zmm27
	vprold	$25, %zmm23, %zmm23
	vprold	$25, %zmm25, %zmm25
	vprold	$25, %zmm26, %zmm26
	vprold	$25, %zmm27, %zmm27
	vpaddd	%zmm15, %zmm29, %zmm15
	vpaddd	%zmm23, %zmm15, %zmm15
	vpaddd	%zmm11, %zmm24, %zmm11
	vpaddd	%zmm25, %zmm11, %zmm11
	vpaddd	%zmm8, %zmm30, %zmm8
	vpaddd	%zmm26, %zmm8, %zmm8
	vpaddd	%zmm12, %zmm28, %zmm12
	vpaddd	%zmm27, %zmm12, %zmm12
	vpxorq	%zmm15, %zmm31, %zmm24
	vprold	$16, %zmm24, %zmm24
	vpxorq	%zmm11, %zmm16, %zmm16
	vprold	$16, %zmm16, %zmm16
	vpxorq	%zmm8, %zmm18, %zmm18
	vprold	$16, %zmm18, %zmm18
	vpxorq	%zmm12, %zmm17, %zmm17
	vprold	$16, %zmm17, %zmm17
	vpaddd	%zmm24, %zmm19, %zmm19
	vpaddd	%zmm16, %zmm20, %zmm20
	vpaddd	%zmm18, %zmm21, %zmm21
	vpaddd	%zmm17, %zmm22, %zmm22
	vpxord	%zmm23, %zmm19, %zmm23
	vpxord	%zmm25, %zmm20, %zmm25
	vpxord	%zmm26, %zmm21, %zmm26
	vpxord	%zmm27, %zmm22, %zmm27
	vprold	$20, %zmm23, %zmm23
	vprold	$20, %zmm25, %zmm25
	vprold	$20, %zmm26, %zmm26
	vprold	$20, %zmm27, %zmm27
	vpaddd	%zmm14, %zmm15, %zmm14
	vpaddd	%zmm23, %zmm14, %zmm14
	vpaddd	%zmm4, %zmm11, %zmm4
	vpaddd	%zmm25, %zmm4, %zmm4
	vpaddd	%zmm13, %zmm8, %zmm8
	vpaddd	%zmm26, %zmm8, %zmm8
	vpaddd	%zmm3, %zmm12, %zmm3
	vpaddd	%zmm27, %zmm3, %zmm3
	vpxorq	%zmm14, %zmm24, %zmm11
	vprold	$24, %zmm11, %zmm11
	vpxorq	%zmm4, %zmm16, %zmm12
	vprold	$24, %zmm12, %zmm12
	vpxorq	%zmm8, %zmm18, %zmm13
	vprold	$24, %zmm13, %zmm13
	vpxorq	%zmm3, %zmm17, %zmm15
	vprold	$24, %zmm15, %zmm15
	vpaddd	%zmm11, %zmm19, %zmm16
	vpaddd	%zmm12, %zmm20, %zmm17
	vpaddd	%zmm13, %zmm21, %zmm18
	vpaddd	%zmm15, %zmm22, %zmm19
	vpxord	%zmm23, %zmm16, %zmm20
	vpxord	%zmm25, %zmm17, %zmm21
	vpxord	%zmm26, %zmm18, %zmm22
	vpxord	%zmm27, %zmm19, %zmm23
	vprold	$25, %zmm20, %zmm20
	vprold	$25, %zmm21, %zmm21
	vprold	$25, %zmm22, %zmm22
	vprold	$25, %zmm23, %zmm23
	vpaddd	%zmm5, %zmm3, %zmm3
	vpaddd	%zmm20, %zmm3, %zmm3
	vpaddd	%zmm9, %zmm14, %zmm5
	vpaddd	%zmm21, %zmm5, %zmm5
	vpaddd	%zmm2, %zmm4, %zmm2
	vpaddd	%zmm22, %zmm2, %zmm2
	vpaddd	%zmm1, %zmm8, %zmm1
	vpaddd	%zmm23, %zmm1, %zmm1
	vpxorq	%zmm3, %zmm13, %zmm4
	vprold	$16, %zmm4, %zmm4
	vpxorq	%zmm5, %zmm15, %zmm8
	vprold	$16, %zmm8, %zmm8
	vpxorq	%zmm2, %zmm11, %zmm9
	vprold	$16, %zmm9, %zmm9
	vpxorq	%zmm1, %zmm12, %zmm11
	vprold	$16, %zmm11, %zmm11
	vpaddd	%zmm4, %zmm17, %zmm12
	vpaddd	%zmm8, %zmm18, %zmm13
	vpaddd	%zmm9, %zmm19, %zmm14
	vpaddd	%zmm11, %zmm16, %zmm15
	vpxord	%zmm20, %zmm12, %zmm16
	vpxord	%zmm21, %zmm13, %zmm17
	vpxord	%zmm22, %zmm14, %zmm18
	vpxord	%zmm23, %zmm15, %zmm19
	vprold	$20, %zmm16, %zmm16
	vprold	$20, %zmm17, %zmm17
	vprold	$20, %zmm18, %zmm18
	vprold	$20, %zmm19, %zmm19
	vpaddd	%zmm10, %zmm3, %zmm3
	vpaddd	%zmm16, %zmm3, %zmm3
	vpaddd	%zmm7, %zmm5, %zmm5
	vpaddd	%zmm17, %zmm5, %zmm5
	vpaddd	%zmm6, %zmm2, %zmm2
	vpaddd	%zmm18, %zmm2, %zmm2
	vpaddd	%zmm0, %zmm1, %zmm0
	vpaddd	%zmm19, %zmm0, %zmm0
	vpxorq	%zmm3, %zmm4, %zmm1
	vprold	$24, %zmm1, %zmm1
	vpxorq	%zmm5, %zmm8, %zmm4
	vprold	$24, %zmm4, %zmm4
	vpxorq	%zmm2, %zmm9, %zmm6
	vprold	$24, %zmm6, %zmm6
	vpxorq	%zmm0, %zmm11, %zmm7
	vprold	$24, %zmm7, %zmm7
	vpaddd	%zmm1, %zmm12, %zmm8
	vpaddd	%zmm4, %zmm13, %zmm9
	vpaddd	%zmm6, %zmm14, %zmm10
	vpaddd	%zmm7, %zmm15, %zmm11
	vpxord	%zmm16, %zmm8, %zmm12
	vpxord	%zmm17, %zmm9, %zmm13
	vpxord	%zmm18, %zmm10, %zmm14
	vpxord	%zmm19, %zmm11, %zmm15
	vprold	$25, %zmm12, %zmm12
	vprold	$25, %zmm13, %zmm13
	vprold	$25, %zmm14, %zmm14
	vprold	$25, %zmm15, %zmm15
	vpxord	%zmm5, %zmm11, %zmm5
	vpxord	%zmm2, %zmm8, %zmm2
	vpxord	%zmm0, %zmm9, %zmm0
	vpxord	%zmm3, %zmm10, %zmm3
	vpxord	%zmm6, %zmm12, %zmm6
	vpxord	%zmm7, %zmm13, %zmm7
	vpxord	%zmm1, %zmm14, %zmm1
	vpxord	%zmm4, %zmm15, %zmm4
	vmovdqu64	%zmm5, (%rdi)
	vmovdqu64	%zmm2, 64(%rdi)
	vmovdqu64	%zmm0, 128(%rdi)
	vmovdqu64	%zmm3, 192(%rdi)
	vmovdqu64	%zmm6, 256(%rdi)
	vmovdqu64	%zmm7, 320(%rdi)
	vmovdqu64	%zmm1, 384(%rdi)
	vmovdqu64	%zmm4, 448(%rdi)
	movq	%rbp, %rsp
	popq	%rbp
	.cfi_def_cfa %rsp, 8
	vzeroupper
	retq
	SIZE("keyed_blake3::compression::lanes::take_in_each::<#2e65a0a13cda87df>")
	.cfi_endproc

CONSTANTS(.rodata)
	.p2align	6, 0x0
D(CPI13_0):
	.long	0
	.long	16
	.long	2
	.long	18
	.long	4
	.long	20
	.long	6
	.long	22
	.long	9
	.long	25
	.long	11
	.long	27
	.long	13
	.long	29
	.long	15
	.long	31
D(CPI13_1):
	.quad	0
	.quad	8
	.quad	1
	.quad	9
	.quad	2
	.quad	10
	.quad	3
	.quad	11
D(CPI13_2):
	.quad	4
	.quad	12
	.quad	5
	.quad	13
	.quad	6
	.quad	14
	.quad	7
	.quad	15
D(CPI13_3):
	.long	0
	.long	16
	.long	17
	.long	3
	.long	4
	.long	18
	.long	19
	.long	7
	.long	8
	.long	20
	.long	21
	.long	11
	.long	12
	.long	22
	.long	23
	.long	15
D(CPI13_4):
	.long	18
	.long	0
	.long	2
	.long	16
	.long	22
	.long	4
	.long	6
	.long	20
	.long	26
	.long	8
	.long	10
	.long	24
	.long	30
	.long	12
	.long	14
	.long	28
D(CPI13_5):
	.long	19
	.long	1
	.long	3
	.long	17
	.long	23
	.long	5
	.long	7
	.long	21
	.long	27
	.long	9
	.long	11
	.long	25
	.long	31
	.long	13
	.long	15
	.long	29
D(CPI13_6):
	.long	0
	.long	0
	.long	64
	.long	20
	.long	0
	.long	0
	.long	64
	.long	20
	.long	0
	.long	0
	.long	64
	.long	20
	.long	0
	.long	0
	.long	64
	.long	20
D(CPI13_7):
	.long	1779033703
	.long	3144134277
	.long	1013904242
	.long	2773480762
	.long	1779033703
	.long	3144134277
	.long	1013904242
	.long	2773480762
	.long	1779033703
	.long	3144134277
	.long	1013904242
	.long	2773480762
	.long	1779033703
	.long	3144134277
	.long	1013904242
	.long	2773480762
D(CPI13_8):
	.long	3
	.long	16
	.long	0
	.long	18
	.long	7
	.long	20
	.long	4
	.long	22
	.long	11
	.long	24
	.long	8
	.long	26
	.long	15
	.long	28
	.long	12
	.long	30
D(CPI13_9):
	.long	0
	.long	2
	.long	16
	.long	1
	.long	4
	.long	6
	.long	20
	.long	5
	.long	8
	.long	10
	.long	24
	.long	9
	.long	12
	.long	14
	.long	28
	.long	13
D(CPI13_10):
	.long	0
	.long	1
	.long	17
	.long	2
	.long	4
	.long	5
	.long	21
	.long	6
	.long	8
	.long	9
	.long	25
	.long	10
	.long	12
	.long	13
	.long	29
	.long	14
D(CPI13_11):
	.long	0
	.long	16
	.long	1
	.long	18
	.long	4
	.long	20
	.long	5
	.long	22
	.long	8
	.long	24
	.long	9
	.long	26
	.long	12
	.long	28
	.long	13
	.long	30
D(CPI13_12):
	.long	0
	.long	2
	.long	17
	.long	1
	.long	4
	.long	6
	.long	21
	.long	5
	.long	8
	.long	10
	.long	25
	.long	9
	.long	12
	.long	14
	.long	29
	.long	13
D(CPI13_13):
	.long	0
	.long	1
	.long	16
	.long	2
	.long	4
	.long	5
	.long	18
	.long	6
	.long	8
	.long	9
	.long	20
	.long	10
	.long	12
	.long	13
	.long	22
	.long	14
D(CPI13_14):
	.long	0
	.long	17
	.long	1
	.long	16
	.long	4
	.long	21
	.long	5
	.long	20
	.long	8
	.long	25
	.long	9
	.long	24
	.long	12
	.long	29
	.long	13
	.long	28
D(CPI13_15):
	.long	0
	.long	2
	.long	19
	.long	1
	.long	4
	.long	6
	.long	23
	.long	5
	.long	8
	.long	10
	.long	27
	.long	9
	.long	12
	.long	14
	.long	31
	.long	13
D(CPI13_16):
	.long	0
	.long	19
	.long	1
	.long	16
	.long	4
	.long	23
	.long	5
	.long	20
	.long	8
	.long	27
	.long	9
	.long	24
	.long	12
	.long	31
	.long	13
	.long	28
D(CPI13_17):
	.long	2
	.long	3
	.long	1
	.long	16
	.long	6
	.long	7
	.long	5
	.long	18
	.long	10
	.long	11
	.long	9
	.long	20
	.long	14
	.long	15
	.long	13
	.long	22
D(CPI13_18):
	.long	0
	.long	1
	.long	2
	.long	16
	.long	4
	.long	5
	.long	6
	.long	18
	.long	8
	.long	9
	.long	10
	.long	20
	.long	12
	.long	13
	.long	14
	.long	22
D(CPI13_19):
	.long	0
	.long	17
	.long	3
	.long	2
	.long	4
	.long	21
	.long	7
	.long	6
	.long	8
	.long	25
	.long	11
	.long	10
	.long	12
	.long	29
	.long	15
	.long	14
D(CPI13_20):
	.long	2
	.long	18
	.long	0
	.long	16
	.long	6
	.long	22
	.long	4
	.long	20
	.long	10
	.long	26
	.long	8
	.long	24
	.long	14
	.long	30
	.long	12
	.long	28
D(CPI13_21):
	.long	0
	.long	2
	.long	16
	.long	1
	.long	4
	.long	6
	.long	18
	.long	5
	.long	8
	.long	10
	.long	20
	.long	9
	.long	12
	.long	14
	.long	22
	.long	13
D(CPI13_22):
	.long	0
	.long	1
	.long	18
	.long	2
	.long	4
	.long	5
	.long	22
	.long	6
	.long	8
	.long	9
	.long	26
	.long	10
	.long	12
	.long	13
	.long	30
	.long	14
D(CPI13_23):
	.long	1
	.long	3
	.long	0
	.long	25
	.long	5
	.long	7
	.long	4
	.long	27
	.long	9
	.long	11
	.long	8
	.long	29
	.long	13
	.long	15
	.long	12
	.long	31
D(CPI13_24):
	.long	0
	.long	16
	.long	1
	.long	19
	.long	4
	.long	20
	.long	5
	.long	23
	.long	8
	.long	24
	.long	9
	.long	27
	.long	12
	.long	28
	.long	13
	.long	31
D(CPI13_25):
	.long	3
	.long	18
	.long	1
	.long	2
	.long	7
	.long	22
	.long	5
	.long	6
	.long	11
	.long	26
	.long	9
	.long	10
	.long	15
	.long	30
	.long	13
	.long	14
D(CPI13_26):
	.long	0
	.long	1
	.long	16
	.long	2
	.long	4
	.long	5
	.long	20
	.long	6
	.long	8
	.long	9
	.long	24
	.long	10
	.long	12
	.long	13
	.long	28
	.long	14
D(CPI13_27):
	.long	3
	.long	18
	.long	16
	.long	0
	.long	7
	.long	22
	.long	20
	.long	4
	.long	11
	.long	26
	.long	24
	.long	8
	.long	15
	.long	30
	.long	28
	.long	12
D(CPI13_28):
	.long	1
	.long	5
	.long	9
	.long	13
	.long	2
	.long	6
	.long	10
	.long	14
	.long	3
	.long	7
	.long	11
	.long	15
	.long	0
	.long	4
	.long	8
	.long	12
D(CPI13_29):
	.long	3
	.long	7
	.long	11
	.long	15
	.long	0
	.long	4
	.long	8
	.long	12
	.long	1
	.long	5
	.long	9
	.long	13
	.long	2
	.long	6
	.long	10
	.long	14
D(CPI13_30):
	.long	0
	.long	4
	.long	8
	.long	12
	.long	1
	.long	5
	.long	9
	.long	13
	.long	2
	.long	6
	.long	10
	.long	14
	.long	3
	.long	7
	.long	11
	.long	15
D(CPI13_31):
	.long	2
	.long	6
	.long	10
	.long	14
	.long	3
	.long	7
	.long	11
	.long	15
	.long	0
	.long	4
	.long	8
	.long	12
	.long	1
	.long	5
	.long	9
	.long	13
CODE(".text.keyed_blake3::subtrees::four_parent_values::<#2e65a0a13cda87df>")
	.p2align	4
	TYPE("keyed_blake3::subtrees::four_parent_values::<#2e65a0a13cda87df>", function)
"keyed_blake3::subtrees::four_parent_values::<#2e65a0a13cda87df>":
	.cfi_startproc
	pushq	%rbp
	.cfi_def_cfa_offset 16
	.cfi_offset %rbp, -16
	movq	%rsp, %rbp
	.cfi_def_cfa_register %rbp
	andq	$-64, %rsp
	subq	$64, %rsp
	vbroadcasti64x4	64(%rsi), %zmm11
	vbroadcasti64x4	(%rsi), %zmm8
	vmovdqa64	D(CPI13_0)(%rip), %zmm4
	vmovdqa64	%zmm8, %zmm2
	vbroadcasti64x4	192(%rsi), %zmm3
	vbroadcasti64x4	128(%rsi), %zmm13
	vpermt2d	%zmm11, %zmm4, %zmm2
	vmovdqa64	%zmm13, %zmm5
	vpermt2d	%zmm3, %zmm4, %zmm5
	vmovdqa64	D(CPI13_1)(%rip), %zmm12
	vmovdqa64	%zmm2, %zmm7
	vpermt2q	%zmm5, %zmm12, %zmm7
	vmovdqa64	D(CPI13_2)(%rip), %zmm6
	vpermt2q	%zmm5, %zmm6, %zmm2
	vbroadcasti64x4	320(%rsi), %zmm10
	vbroadcasti64x4	256(%rsi), %zmm3
	vbroadcasti64x4	448(%rsi), %zmm9
	vpermt2d	%zmm10, %zmm4, %zmm3
	vbroadcasti64x4	384(%rsi), %zmm10
	vpermt2d	%zmm9, %zmm4, %zmm10
	vpermi2q	%zmm10, %zmm3, %zmm12
	vpermt2q	%zmm10, %zmm6, %zmm3
	vmovdqa64	D(CPI13_3)(%rip), %zmm4
	vpermi2d	%zmm5, %zmm12, %zmm4
	vshufps	$214, %zmm3, %zmm2, %zmm15
	vshufps	$139, %zmm15, %zmm4, %zmm14
	vshufpd	$170, %zmm12, %zmm14, %zmm10
	vshufps	$136, %zmm12, %zmm7, %zmm6
	vshufps	$221, %zmm12, %zmm7, %zmm5
	vmovdqa64	D(CPI13_4)(%rip), %zmm16
	vpermi2d	%zmm3, %zmm2, %zmm16
	vmovdqa64	D(CPI13_5)(%rip), %zmm7
	vpermi2d	%zmm3, %zmm2, %zmm7
	vshufi64x2	$0, %zmm1, %zmm1, %zmm17
	vpaddd	%xmm0, %xmm1, %xmm0
	vshufi64x2	$0, %zmm0, %zmm0, %zmm0
	vpaddd	%zmm0, %zmm6, %zmm0
	vpxord	D(CPI13_6)(%rip), %zmm0, %zmm1
	vprold	$16, %zmm1, %zmm1
	vpaddd	D(CPI13_7)(%rip), %zmm1, %zmm18
	vpxord	%zmm17, %zmm18, %zmm17
	vprold	$20, %zmm17, %zmm17
	vpaddd	%zmm5, %zmm0, %zmm0
	vpaddd	%zmm17, %zmm0, %zmm0
	vpxord	%zmm1, %zmm0, %zmm1
	vprold	$24, %zmm1, %zmm1
	vpaddd	%zmm18, %zmm1, %zmm18
	vpxord	%zmm17, %zmm18, %zmm17
	vprold	$25, %zmm17, %zmm17
	vpshufd	$147, %zmm0, %zmm0
	vpaddd	%zmm16, %zmm0, %zmm0
	vpshufd	$57, %zmm18, %zmm16
	vpshufd	$78, %zmm1, %zmm1
	vpaddd	%zmm17, %zmm0, %zmm0
	vpxord	%zmm1, %zmm0, %zmm1
	vprold	$16, %zmm1, %zmm1
	vpaddd	%zmm16, %zmm1, %zmm16
	vpxord	%zmm17, %zmm16, %zmm17
	vprold	$20, %zmm17, %zmm17
	vpaddd	%zmm7, %zmm0, %zmm0
	vpaddd	%zmm17, %zmm0, %zmm0
	vpxord	%zmm1, %zmm0, %zmm1
	vprold	$24, %zmm1, %zmm1
	vpaddd	%zmm16, %zmm1, %zmm16
	vpxord	%zmm17, %zmm16, %zmm17
	vprold	$25, %zmm17, %zmm17
	vpshufd	$147, %zmm16, %zmm16
	vpshufd	$78, %zmm1, %zmm1
	vmovdqa64	D(CPI13_8)(%rip), %zmm18
	vpermi2d	%zmm15, %zmm6, %zmm18
	vpunpcklqdq	%zmm5, %zmm7, %zmm19
	vmovdqa64	D(CPI13_9)(%rip), %zmm20
	vpermi2d	%zmm3, %zmm19, %zmm20
	vshufps	$236, %zmm3, %zmm2, %zmm19
	vmovaps	D(CPI13_10)(%rip), %zmm21
	vpermi2ps	%zmm12, %zmm19, %zmm21
	vpaddd	%zmm4, %zmm0, %zmm0
	vpshufd	$57, %zmm0, %zmm0
	vpaddd	%zmm0, %zmm17, %zmm0
	vpxord	%zmm1, %zmm0, %zmm1
	vprold	$16, %zmm1, %zmm1
	vpaddd	%zmm16, %zmm1, %zmm16
	vpxord	%zmm17, %zmm16, %zmm17
	vprold	$20, %zmm17, %zmm17
	vpaddd	%zmm18, %zmm0, %zmm0
	vpaddd	%zmm17, %zmm0, %zmm0
	vpxord	%zmm1, %zmm0, %zmm1
	vprold	$24, %zmm1, %zmm1
	vpaddd	%zmm16, %zmm1, %zmm16
	vpxord	%zmm17, %zmm16, %zmm17
	vprold	$25, %zmm17, %zmm17
	vpshufd	$147, %zmm0, %zmm0
	vpaddd	%zmm20, %zmm0, %zmm0
	vpshufd	$57, %zmm16, %zmm16
	vpshufd	$78, %zmm1, %zmm1
	vpaddd	%zmm17, %zmm0, %zmm0
	vpxord	%zmm1, %zmm0, %zmm1
	vprold	$16, %zmm1, %zmm1
	vpaddd	%zmm16, %zmm1, %zmm16
	vpxord	%zmm17, %zmm16, %zmm17
	vprold	$20, %zmm17, %zmm17
	vpaddd	%zmm21, %zmm0, %zmm0
	vpaddd	%zmm17, %zmm0, %zmm0
	vpxord	%zmm1, %zmm0, %zmm1
	vprold	$24, %zmm1, %zmm1
	vpaddd	%zmm16, %zmm1, %zmm16
	vpxord	%zmm17, %zmm16, %zmm17
	vprold	$25, %zmm17, %zmm17
	vpshufd	$147, %zmm16, %zmm16
	vpshufd	$78, %zmm1, %zmm1
	vmovdqa64	D(CPI13_11)(%rip), %zmm18
	vpermi2d	%zmm3, %zmm4, %zmm18
	vshufps	$236, %zmm12, %zmm2, %zmm19
	vmovaps	D(CPI13_12)(%rip), %zmm20
	vpermi2ps	%zmm7, %zmm19, %zmm20
	vshufps	$200, %zmm7, %zmm5, %zmm19
	vmovaps	D(CPI13_13)(%rip), %zmm21
	vpermt2ps	%zmm8, %zmm21, %zmm19
	vpaddd	%zmm14, %zmm0, %zmm0
	vpshufd	$57, %zmm0, %zmm0
	vpaddd	%zmm0, %zmm17, %zmm0
	vpxord	%zmm1, %zmm0, %zmm1
	vprold	$16, %zmm1, %zmm1
	vpaddd	%zmm16, %zmm1, %zmm16
	vpxord	%zmm17, %zmm16, %zmm17
	vprold	$20, %zmm17, %zmm17
	vpaddd	%zmm18, %zmm0, %zmm0
	vpaddd	%zmm17, %zmm0, %zmm0
	vpxord	%zmm1, %zmm0, %zmm1
	vprold	$24, %zmm1, %zmm1
	vpaddd	%zmm16, %zmm1, %zmm16
	vpxord	%zmm17, %zmm16, %zmm17
	vprold	$25, %zmm17, %zmm17
	vpshufd	$147, %zmm0, %zmm0
	vpaddd	%zmm20, %zmm0, %zmm0
	vpshufd	$57, %zmm16, %zmm16
	vpshufd	$78, %zmm1, %zmm1
	vpaddd	%zmm17, %zmm0, %zmm0
	vpxord	%zmm1, %zmm0, %zmm1
	vprold	$16, %zmm1, %zmm1
	vpaddd	%zmm16, %zmm1, %zmm16
	vpxord	%zmm17, %zmm16, %zmm17
	vprold	$20, %zmm17, %zmm17
	vpaddd	%zmm19, %zmm0, %zmm0
	vpaddd	%zmm17, %zmm0, %zmm18
	vpxord	%zmm1, %zmm18, %zmm0
	vprold	$24, %zmm0, %zmm0
	vpaddd	%zmm16, %zmm0, %zmm1
	vpxord	%zmm17, %zmm1, %zmm16
	vprold	$25, %zmm16, %zmm16
	vpshufd	$147, %zmm1, %zmm17
	vpshufd	$78, %zmm0, %zmm19
	vshufps	$130, %zmm3, %zmm15, %zmm1
	vmovdqa64	D(CPI13_14)(%rip), %zmm15
	vpermi2d	%zmm7, %zmm14, %zmm15
	vshufps	$8, %zmm12, %zmm5, %zmm14
	vshufpd	$170, %zmm14, %zmm1, %zmm0
	vmovaps	D(CPI13_15)(%rip), %zmm20
	vpermi2ps	%zmm2, %zmm14, %zmm20
	vshufps	$195, %zmm2, %zmm6, %zmm14
	vpermt2ps	%zmm13, %zmm21, %zmm14
	vpaddd	%zmm1, %zmm18, %zmm13
	vpshufd	$57, %zmm13, %zmm13
	vpaddd	%zmm13, %zmm16, %zmm13
	vpxord	%zmm19, %zmm13, %zmm18
	vprold	$16, %zmm18, %zmm18
	vpaddd	%zmm17, %zmm18, %zmm17
	vpxord	%zmm16, %zmm17, %zmm16
	vprold	$20, %zmm16, %zmm16
	vpaddd	%zmm15, %zmm13, %zmm13
	vpaddd	%zmm16, %zmm13, %zmm13
	vpxord	%zmm18, %zmm13, %zmm15
	vprold	$24, %zmm15, %zmm15
	vpaddd	%zmm17, %zmm15, %zmm17
	vpxord	%zmm16, %zmm17, %zmm16
	vprold	$25, %zmm16, %zmm16
	vpshufd	$147, %zmm13, %zmm13
	vpaddd	%zmm20, %zmm13, %zmm13
	vpshufd	$57, %zmm17, %zmm17
	vpshufd	$78, %zmm15, %zmm15
	vpaddd	%zmm16, %zmm13, %zmm13
	vpxord	%zmm15, %zmm13, %zmm15
	vprold	$16, %zmm15, %zmm15
	vpaddd	%zmm17, %zmm15, %zmm17
	vpxord	%zmm16, %zmm17, %zmm16
	vprold	$20, %zmm16, %zmm16
	vpaddd	%zmm14, %zmm13, %zmm13
	vpaddd	%zmm16, %zmm13, %zmm13
	vpxord	%zmm15, %zmm13, %zmm14
	vprold	$24, %zmm14, %zmm14
	vpaddd	%zmm17, %zmm14, %zmm15
	vpxord	%zmm16, %zmm15, %zmm16
	vprold	$25, %zmm16, %zmm16
	vpshufd	$147, %zmm15, %zmm15
	vpshufd	$78, %zmm14, %zmm14
	vmovdqa64	D(CPI13_16)(%rip), %zmm17
	vpermi2d	%zmm2, %zmm1, %zmm17
	vmovaps	D(CPI13_17)(%rip), %zmm18
	vpermi2ps	%zmm8, %zmm12, %zmm18
	vmovaps	D(CPI13_18)(%rip), %zmm12
	vpermi2ps	%zmm11, %zmm4, %zmm12
	vpshufd	$57, %zmm13, %zmm11
	vmovdqa64	D(CPI13_19)(%rip), %zmm13
	vpermi2d	%zmm2, %zmm3, %zmm13
	vpaddd	%zmm13, %zmm11, %zmm11
	vpaddd	%zmm11, %zmm16, %zmm11
	vpxord	%zmm14, %zmm11, %zmm13
	vprold	$16, %zmm13, %zmm13
	vpaddd	%zmm15, %zmm13, %zmm14
	vpxord	%zmm16, %zmm14, %zmm15
	vprold	$20, %zmm15, %zmm15
	vpaddd	%zmm17, %zmm11, %zmm11
	vpaddd	%zmm15, %zmm11, %zmm11
	vpxord	%zmm13, %zmm11, %zmm13
	vprold	$24, %zmm13, %zmm13
	vpaddd	%zmm14, %zmm13, %zmm14
	vpxord	%zmm15, %zmm14, %zmm15
	vprold	$25, %zmm15, %zmm15
	vpshufd	$147, %zmm11, %zmm11
	vpaddd	%zmm18, %zmm11, %zmm11
	vpshufd	$57, %zmm14, %zmm14
	vpshufd	$78, %zmm13, %zmm13
	vpaddd	%zmm15, %zmm11, %zmm11
	vpxord	%zmm13, %zmm11, %zmm13
	vprold	$16, %zmm13, %zmm13
	vpaddd	%zmm14, %zmm13, %zmm14
	vpxord	%zmm15, %zmm14, %zmm15
	vprold	$20, %zmm15, %zmm15
	vpaddd	%zmm12, %zmm11, %zmm11
	vpaddd	%zmm15, %zmm11, %zmm11
	vpxord	%zmm13, %zmm11, %zmm12
	vprold	$24, %zmm12, %zmm12
	vpaddd	%zmm14, %zmm12, %zmm13
	vpxord	%zmm15, %zmm13, %zmm14
	vprold	$25, %zmm14, %zmm14
	vpshufd	$147, %zmm13, %zmm13
	vpshufd	$78, %zmm12, %zmm12
	vmovaps	D(CPI13_20)(%rip), %zmm15
	vpermi2ps	%zmm5, %zmm3, %zmm15
	vpunpcklqdq	%zmm1, %zmm4, %zmm1
	vmovdqa64	D(CPI13_21)(%rip), %zmm16
	vpermi2d	%zmm8, %zmm1, %zmm16
	vmovaps	D(CPI13_22)(%rip), %zmm1
	vpermi2ps	%zmm2, %zmm10, %zmm1
	vpshufd	$57, %zmm11, %zmm8
	vmovdqa64	D(CPI13_23)(%rip), %zmm10
	vpermi2d	%zmm9, %zmm2, %zmm10
	vpaddd	%zmm10, %zmm8, %zmm8
	vpaddd	%zmm8, %zmm14, %zmm8
	vpxord	%zmm12, %zmm8, %zmm9
	vprold	$16, %zmm9, %zmm9
	vpaddd	%zmm13, %zmm9, %zmm10
	vpxord	%zmm14, %zmm10, %zmm11
	vprold	$20, %zmm11, %zmm11
	vpaddd	%zmm15, %zmm8, %zmm8
	vpaddd	%zmm11, %zmm8, %zmm8
	vpxord	%zmm9, %zmm8, %zmm9
	vprold	$24, %zmm9, %zmm9
	vpaddd	%zmm10, %zmm9, %zmm10
	vpxord	%zmm11, %zmm10, %zmm11
	vprold	$25, %zmm11, %zmm11
	vpshufd	$147, %zmm8, %zmm8
	vpaddd	%zmm16, %zmm8, %zmm8
	vpshufd	$57, %zmm10, %zmm10
	vpshufd	$78, %zmm9, %zmm9
	vpaddd	%zmm11, %zmm8, %zmm8
	vpxord	%zmm9, %zmm8, %zmm9
	vprold	$16, %zmm9, %zmm9
	vpaddd	%zmm10, %zmm9, %zmm10
	vpxord	%zmm11, %zmm10, %zmm11
	vprold	$20, %zmm11, %zmm11
	vpaddd	%zmm1, %zmm8, %zmm1
	vpaddd	%zmm11, %zmm1, %zmm1
	vpxord	%zmm9, %zmm1, %zmm8
	vprold	$24, %zmm8, %zmm8
	vpaddd	%zmm10, %zmm8, %zmm9
	vpxord	%zmm11, %zmm9, %zmm10
	vprold	$25, %zmm10, %zmm10
	vpshufd	$147, %zmm9, %zmm9
	vpshufd	$78, %zmm8, %zmm8
	vmovaps	D(CPI13_24)(%rip), %zmm11
	vpermi2ps	%zmm6, %zmm7, %zmm11
	vmovdqa64	D(CPI13_25)(%rip), %zmm6
	vpermi2d	%zmm3, %zmm4, %zmm6
	vmovaps	D(CPI13_26)(%rip), %zmm4
	vpermi2ps	%zmm3, %zmm0, %zmm4
	vpshufd	$57, %zmm1, %zmm0
	vmovaps	D(CPI13_27)(%rip), %zmm1
	vpermi2ps	%zmm5, %zmm2, %zmm1
	vpaddd	%zmm1, %zmm0, %zmm0
	vpaddd	%zmm0, %zmm10, %zmm0
	vpxord	%zmm8, %zmm0, %zmm1
	vprold	$16, %zmm1, %zmm1
	vpaddd	%zmm9, %zmm1, %zmm2
	vpxord	%zmm10, %zmm2, %zmm3
	vprold	$20, %zmm3, %zmm3
	vpaddd	%zmm11, %zmm0, %zmm0
	vpaddd	%zmm3, %zmm0, %zmm0
	vpxord	%zmm1, %zmm0, %zmm1
	vprold	$24, %zmm1, %zmm1
	vpaddd	%zmm2, %zmm1, %zmm2
	vpxord	%zmm3, %zmm2, %zmm3
	vprold	$25, %zmm3, %zmm3
	vpshufd	$147, %zmm0, %zmm0
	vpaddd	%zmm6, %zmm0, %zmm0
	vpshufd	$57, %zmm2, %zmm2
	vpshufd	$78, %zmm1, %zmm1
	vpaddd	%zmm3, %zmm0, %zmm0
	vpxord	%zmm1, %zmm0, %zmm1
	vprold	$16, %zmm1, %zmm1
	vpaddd	%zmm2, %zmm1, %zmm2
	vpxord	%zmm3, %zmm2, %zmm3
	vprold	$20, %zmm3, %zmm3
	vpaddd	%zmm4, %zmm0, %zmm0
	vpaddd	%zmm3, %zmm0, %zmm0
	vpxord	%zmm1, %zmm0, %zmm1
	vprold	$24, %zmm1, %zmm1
	vpaddd	%zmm2, %zmm1, %zmm2
	vpxord	%zmm3, %zmm2, %zmm3
	vprold	$25, %zmm3, %zmm3
	vmovdqa64	D(CPI13_28)(%rip), %zmm4
	vpermd	%zmm0, %zmm4, %zmm0
	vmovdqa64	D(CPI13_29)(%rip), %zmm4
	vpermd	%zmm2, %zmm4, %zmm2
	vpxord	%zmm0, %zmm2, %zmm0
	vmovdqa64	D(CPI13_30)(%rip), %zmm2
	vpermd	%zmm3, %zmm2, %zmm2
	vmovdqa64	D(CPI13_31)(%rip), %zmm3
	vpermd	%zmm1, %zmm3, %zmm1
	vpxord	%zmm1, %zmm2, %zmm1
	vmovdqu64	%zmm0, (%rdi)
	vmovdqu64	%zmm1, 64(%rdi)
	movq	%rbp, %rsp
	popq	%rbp
	.cfi_def_cfa %rsp, 8
	vzeroupper
	retq
	SIZE("keyed_blake3::subtrees::four_parent_values::<#2e65a0a13cda87df>")
	.cfi_endproc

SIZED(8, 3)
	.p2align	3, 0x0
D(CPI14_0):
	.quad	-9223372036854775808
SIZED(32, 5)
	.p2align	5, 0x0
D(CPI14_1):
	.quad	-9223372036854775807
	.quad	-9223372036854775806
	.quad	-9223372036854775805
	.quad	-9223372036854775804
D(CPI14_2):
	.quad	2
	.quad	3
	.quad	4
	.quad	5
D(CPI14_3):
	.zero	4
	.zero	4
	.long	64
	.long	18
	.zero	4
	.zero	4
	.long	64
	.long	18
D(CPI14_8):
	.long	0
	.long	0
	.long	64
	.long	20
	.long	0
	.long	0
	.long	64
	.long	20
SIZED(16, 4)
	.p2align	4, 0x0
D(CPI14_4):
	.long	0
	.long	2
	.long	4
	.long	6
D(CPI14_5):
	.long	1
	.long	3
	.long	5
	.long	7
D(CPI14_9):
	.long	0
	.long	0
	.long	64
	.long	20
SIZED(4, 2)
	.p2align	2, 0x0
D(CPI14_6):
	.long	64
D(CPI14_7):
	.long	20
CODE(".text.keyed_blake3::tree::Tree::absorb_subtrees::<#a9687390e0dd665c>")
	.p2align	4
	TYPE("keyed_blake3::tree::Tree::absorb_subtrees::<#a9687390e0dd665c>", function)
"keyed_blake3::tree::Tree::absorb_subtrees::<#a9687390e0dd665c>":
	.cfi_startproc
	pushq	%rbp
	.cfi_def_cfa_offset 16
	.cfi_offset %rbp, -16
	movq	%rsp, %rbp
	.cfi_def_cfa_register %rbp
	pushq	%r15
	pushq	%r14
	pushq	%r13
	pushq	%r12
	pushq	%rbx
	andq	$-64, %rsp
	subq	$2112, %rsp
	.cfi_offset %rbx, -56
	.cfi_offset %r12, -48
	.cfi_offset %r13, -40
	.cfi_offset %r14, -32
	.cfi_offset %r15, -24
	vxorps	%xmm0, %xmm0, %xmm0
	vmovaps	%ymm0, 672(%rsp)
	vmovaps	%ymm0, 640(%rsp)
	vmovaps	%ymm0, 608(%rsp)
	vmovaps	%ymm0, 576(%rsp)
	vmovaps	%ymm0, 544(%rsp)
	vmovaps	%ymm0, 512(%rsp)
	vmovaps	%ymm0, 480(%rsp)
	vmovaps	%ymm0, 448(%rsp)
	vmovaps	%ymm0, 384(%rsp)
	vmovaps	%ymm0, 896(%rsp)
	vmovaps	%ymm0, 928(%rsp)
	vmovaps	%ymm0, 960(%rsp)
	vmovaps	%ymm0, 992(%rsp)
	vmovaps	%ymm0, 1024(%rsp)
	vmovaps	%ymm0, 1056(%rsp)
	vmovaps	%ymm0, 1088(%rsp)
	movq	%r9, 856(%rsp)
	movq	%rcx, %r9
	movq	%rdx, %r12
	movq	%rsi, %r15
	movq	%rdi, %rsi
	vmovaps	%ymm0, 1120(%rsp)
	cmpq	$2048, %r8
	movq	%rdi, 48(%rsp)
	jne	L(14_4)
	movq	%r9, 56(%rsp)
	leaq	1024(%r9), %r14
	leaq	1(%r15), %rbx
	vbroadcastf128	(%rsi), %ymm0
	vbroadcastf128	16(%rsi), %ymm1
	vmovq	%r15, %xmm2
	movl	$64, %eax
	vmovdqa	%ymm2, 1696(%rsp)
	vpinsrd	$2, %eax, %xmm2, %xmm2
	vmovdqa	%xmm2, 864(%rsp)
	vmovq	%rbx, %xmm2
	vmovdqa	%xmm2, 416(%rsp)
	vpinsrd	$2, %eax, %xmm2, %xmm2
	vmovdqa	%xmm2, 432(%rsp)
	xorl	%r13d, %r13d
	.p2align	4
L(14_2):
	cmpq	$1, %r13
	movl	$0, %eax
	adcl	$16, %eax
	vmovups	-1024(%r14,%r13), %ymm2
	vmovups	-992(%r14,%r13), %ymm3
	vmovaps	%ymm2, 1408(%rsp)
	vmovaps	%ymm3, 1440(%rsp)
	movq	%r15, 1472(%rsp)
	movl	$64, 1480(%rsp)
	movl	%eax, 1484(%rsp)
	vmovups	(%r14,%r13), %ymm2
	vmovups	32(%r14,%r13), %ymm3
	vmovaps	%ymm2, 64(%rsp)
	vmovaps	%ymm3, 96(%rsp)
	movq	%rbx, 128(%rsp)
	movl	$64, 136(%rsp)
	vmovdqa	864(%rsp), %xmm2
	vpinsrd	$3, %eax, %xmm2, %xmm2
	movl	%eax, 140(%rsp)
	vmovdqa	432(%rsp), %xmm3
	vpinsrd	$3, %eax, %xmm3, %xmm3
	vinserti128	$1, %xmm3, %ymm2, %ymm2
	leaq	1728(%rsp), %rdi
	leaq	1408(%rsp), %rsi
	leaq	64(%rsp), %rdx
	callq	"keyed_blake3::compression::two::compress_two_from"
	vmovups	1728(%rsp), %ymm0
	vmovups	1760(%rsp), %ymm1
	addq	$64, %r13
	cmpq	$960, %r13
	jne	L(14_2)
	movq	56(%rsp), %rcx
	vmovups	960(%rcx), %ymm2
	vmovups	992(%rcx), %ymm3
	vmovaps	%ymm2, 1408(%rsp)
	vmovaps	%ymm3, 1440(%rsp)
	movq	%r15, 1472(%rsp)
	movabsq	$77309411392, %rax
	movq	%rax, 1480(%rsp)
	vmovups	1984(%rcx), %ymm2
	vmovups	2016(%rcx), %ymm3
	vmovaps	%ymm2, 64(%rsp)
	vmovaps	%ymm3, 96(%rsp)
	movq	%rbx, 128(%rsp)
	movq	%rax, 136(%rsp)
	vmovaps	1696(%rsp), %ymm2
	vinsertf128	$1, 416(%rsp), %ymm2, %ymm2
	vblendps	$204, D(CPI14_3)(%rip), %ymm2, %ymm2
	leaq	1728(%rsp), %rdi
	leaq	1408(%rsp), %rsi
	leaq	64(%rsp), %rdx
	callq	"keyed_blake3::compression::two::compress_two_from"
	vmovdqu	1728(%rsp), %xmm0
	vmovdqu	1744(%rsp), %xmm1
	vpunpckldq	%xmm1, %xmm0, %xmm2
	vmovq	%xmm2, 896(%rsp)
	vpxor	%xmm2, %xmm2, %xmm2
	vmovdqu	%xmm2, 904(%rsp)
	movq	$0, 920(%rsp)
	vpshufd	$85, %xmm0, %xmm3
	vpblendd	$2, %xmm1, %xmm3, %xmm3
	vmovq	%xmm3, 928(%rsp)
	vmovdqu	%xmm2, 936(%rsp)
	movq	$0, 952(%rsp)
	vpunpckhdq	%xmm1, %xmm0, %xmm0
	vmovq	%xmm0, 960(%rsp)
	vmovdqu	%xmm2, 968(%rsp)
	movq	$0, 984(%rsp)
	vpextrq	$1, %xmm0, 992(%rsp)
	vmovdqu	1760(%rsp), %xmm0
	vmovdqu	1776(%rsp), %xmm1
	vmovdqu	%xmm2, 1000(%rsp)
	movq	$0, 1016(%rsp)
	vpunpckldq	%xmm1, %xmm0, %xmm3
	vmovq	%xmm3, 1024(%rsp)
	vmovdqu	%xmm2, 1032(%rsp)
	movq	$0, 1048(%rsp)
	vpshufd	$85, %xmm0, %xmm3
	vpblendd	$2, %xmm1, %xmm3, %xmm3
	vmovq	%xmm3, 1056(%rsp)
	vmovdqu	%xmm2, 1064(%rsp)
	movq	$0, 1080(%rsp)
	vpunpckhdq	%xmm1, %xmm0, %xmm0
	vmovq	%xmm0, 1088(%rsp)
	vmovdqu	%xmm2, 1096(%rsp)
	movq	$0, 1112(%rsp)
	vpextrq	$1, %xmm0, 1120(%rsp)
	vmovdqu	%xmm2, 1128(%rsp)
	movq	$0, 1144(%rsp)
	movq	1088(%rsp), %rax
	vmovups	1096(%rsp), %xmm0
	vmovups	%xmm0, 1992(%rsp)
	movq	%rax, 1984(%rsp)
	movq	1112(%rsp), %rax
	movq	%rax, 2008(%rsp)
	movq	1056(%rsp), %rax
	movq	%rax, 1952(%rsp)
	vmovups	1064(%rsp), %xmm0
	vmovups	%xmm0, 1960(%rsp)
	movq	1080(%rsp), %rax
	vmovaps	1024(%rsp), %ymm0
	vmovaps	%ymm0, 1920(%rsp)
	movq	%rax, 1976(%rsp)
	vmovaps	992(%rsp), %ymm0
	vmovaps	%ymm0, 1888(%rsp)
	vmovaps	896(%rsp), %ymm0
	vmovaps	928(%rsp), %ymm1
	vmovaps	960(%rsp), %ymm2
	vmovaps	1120(%rsp), %ymm3
	vmovaps	%ymm3, 2016(%rsp)
	jmp	L(14_5)
L(14_4):
	shrq	$10, %r8
	xorl	%eax, %eax
	decq	%r8
	setne	%al
	cmpq	$6, %r8
	movl	$6, %ecx
	cmovbq	%r8, %rcx
	movl	$7, %edx
	cmovbeq	%r8, %rdx
	movq	$0, 1408(%rsp)
	vmovq	%r8, %xmm0
	vpbroadcastq	%xmm0, %ymm0
	vpbroadcastq	D(CPI14_0)(%rip), %ymm1
	vpxor	%ymm1, %ymm0, %ymm1
	vpcmpgtq	D(CPI14_1)(%rip), %ymm1, %ymm1
	movq	%rax, 1416(%rsp)
	vblendvpd	%ymm1, D(CPI14_2)(%rip), %ymm0, %ymm0
	vmovupd	%ymm0, 1424(%rsp)
	movq	%rcx, 1456(%rsp)
	movq	%rdx, 1464(%rsp)
	leaq	896(%rsp), %rdi
	leaq	1408(%rsp), %rcx
	movq	%r9, %rdx
	movq	%r15, %r8
	vzeroupper
	callq	"keyed_blake3::chunks::chunk_values::<#a9687390e0dd665c>"
	vmovaps	1120(%rsp), %ymm0
	vmovaps	%ymm0, 2016(%rsp)
	vmovaps	1088(%rsp), %ymm0
	vmovaps	%ymm0, 1984(%rsp)
	vmovaps	1056(%rsp), %ymm0
	vmovaps	%ymm0, 1952(%rsp)
	vmovaps	1024(%rsp), %ymm0
	vmovaps	%ymm0, 1920(%rsp)
	vmovaps	896(%rsp), %ymm0
	vmovaps	928(%rsp), %ymm1
	vmovaps	960(%rsp), %ymm2
	vmovaps	992(%rsp), %ymm3
	vmovaps	%ymm3, 1888(%rsp)
L(14_5):
	vmovaps	%ymm2, 1856(%rsp)
	vmovaps	%ymm1, 1824(%rsp)
	vmovaps	%ymm0, 1792(%rsp)
	vmovaps	1792(%rsp), %ymm0
	vmovaps	1824(%rsp), %ymm1
	vmovaps	1856(%rsp), %ymm2
	vmovaps	1888(%rsp), %ymm3
	vmovaps	%ymm0, 448(%rsp)
	vmovaps	%ymm1, 480(%rsp)
	vmovaps	%ymm2, 512(%rsp)
	vmovaps	%ymm3, 544(%rsp)
	vmovaps	1920(%rsp), %ymm0
	vmovaps	%ymm0, 576(%rsp)
	vmovaps	1952(%rsp), %ymm0
	vmovaps	%ymm0, 608(%rsp)
	vmovaps	1984(%rsp), %ymm0
	vmovaps	%ymm0, 640(%rsp)
	vmovaps	2016(%rsp), %ymm0
	vmovaps	%ymm0, 672(%rsp)
	vxorps	%xmm0, %xmm0, %xmm0
	vmovaps	%xmm0, 352(%rsp)
	movq	$0, 368(%rsp)
	vmovaps	%xmm0, 320(%rsp)
	movq	$0, 336(%rsp)
	vmovaps	%xmm0, 288(%rsp)
	vmovaps	%xmm0, 256(%rsp)
	movq	$0, 304(%rsp)
	movq	$0, 272(%rsp)
	vmovaps	%xmm0, 224(%rsp)
	movq	$0, 240(%rsp)
	vmovaps	%xmm0, 192(%rsp)
	movq	$0, 208(%rsp)
	vmovaps	%xmm0, 160(%rsp)
	movq	$0, 176(%rsp)
	cmpq	$3, %r12
	jb	L(14_6)
	movl	%r12d, %eax
	orl	%r15d, %eax
	andl	$1, %eax
	movq	48(%rsp), %rsi
	jne	L(14_8)
	leaq	456(%rsp), %r14
	.p2align	4
L(14_10):
	vxorps	%xmm0, %xmm0, %xmm0
	vmovaps	%xmm0, 832(%rsp)
	movq	$0, 848(%rsp)
	vmovaps	%xmm0, 800(%rsp)
	movq	$0, 816(%rsp)
	vmovaps	%xmm0, 768(%rsp)
	movq	$0, 784(%rsp)
	cmpq	$4, %r12
	ja	L(14_12)
	vmovaps	480(%rsp), %xmm0
	vmovaps	448(%rsp), %xmm1
	vunpcklps	%xmm0, %xmm1, %xmm2
	vmovaps	544(%rsp), %xmm3
	vbroadcastss	%xmm3, %xmm4
	vmovaps	512(%rsp), %xmm5
	vbroadcastss	%xmm5, %xmm6
	vunpcklps	%xmm4, %xmm6, %xmm4
	vblendps	$12, %xmm4, %xmm2, %xmm2
	vmovaps	608(%rsp), %xmm4
	vmovaps	576(%rsp), %xmm6
	vunpcklps	%xmm4, %xmm6, %xmm7
	vinsertf128	$1, %xmm7, %ymm0, %ymm7
	vmovaps	672(%rsp), %xmm8
	vbroadcastss	%xmm8, %xmm9
	vmovaps	640(%rsp), %xmm10
	vbroadcastss	%xmm10, %xmm11
	vunpcklps	%xmm9, %xmm11, %xmm9
	vinsertf128	$1, %xmm9, %ymm0, %ymm9
	vblendps	$192, %ymm9, %ymm7, %ymm7
	vblendps	$15, %ymm2, %ymm7, %ymm2
	vunpcklps	%xmm3, %xmm5, %xmm3
	vshufps	$85, %xmm1, %xmm1, %xmm1
	vblendps	$2, %xmm0, %xmm1, %xmm0
	vblendps	$12, %xmm3, %xmm0, %xmm0
	vunpcklps	%xmm8, %xmm10, %xmm1
	vinsertf128	$1, %xmm1, %ymm0, %ymm1
	vshufps	$85, %xmm6, %xmm6, %xmm3
	vblendps	$2, %xmm4, %xmm3, %xmm3
	vinsertf128	$1, %xmm3, %ymm0, %ymm3
	vblendps	$192, %ymm1, %ymm3, %ymm1
	vblendps	$15, %ymm0, %ymm1, %ymm0
	vmovups	%ymm0, 928(%rsp)
	vmovups	%ymm2, 896(%rsp)
	movq	$0, 960(%rsp)
	movabsq	$85899345984, %rax
	movq	%rax, 968(%rsp)
	vmovsd	680(%rsp), %xmm0
	vmovups	488(%rsp), %xmm1
	vmovups	456(%rsp), %xmm2
	vunpcklps	%xmm1, %xmm2, %xmm3
	vmovups	552(%rsp), %xmm4
	vbroadcastss	%xmm4, %xmm5
	vmovups	520(%rsp), %xmm6
	vbroadcastss	%xmm6, %xmm7
	vunpcklps	%xmm5, %xmm7, %xmm5
	vblendps	$12, %xmm5, %xmm3, %xmm3
	vmovups	616(%rsp), %xmm5
	vmovups	584(%rsp), %xmm7
	vunpcklps	%xmm5, %xmm7, %xmm8
	vinsertf128	$1, %xmm8, %ymm0, %ymm8
	vbroadcastss	%xmm0, %xmm9
	vmovups	648(%rsp), %xmm10
	vbroadcastss	%xmm10, %xmm11
	vunpcklps	%xmm9, %xmm11, %xmm9
	vinsertf128	$1, %xmm9, %ymm0, %ymm9
	vblendps	$192, %ymm9, %ymm8, %ymm8
	vblendps	$15, %ymm3, %ymm8, %ymm3
	vunpcklps	%xmm4, %xmm6, %xmm4
	vshufps	$85, %xmm2, %xmm2, %xmm2
	vblendps	$2, %xmm1, %xmm2, %xmm1
	vblendps	$12, %xmm4, %xmm1, %xmm1
	vunpcklps	%xmm0, %xmm10, %xmm0
	vinsertf128	$1, %xmm0, %ymm0, %ymm0
	vshufps	$85, %xmm7, %xmm7, %xmm2
	vblendps	$2, %xmm5, %xmm2, %xmm2
	vinsertf128	$1, %xmm2, %ymm0, %ymm2
	vblendps	$192, %ymm0, %ymm2, %ymm0
	vblendps	$15, %ymm1, %ymm0, %ymm0
	vmovups	%ymm0, 1440(%rsp)
	vmovups	%ymm3, 1408(%rsp)
	movq	$0, 1472(%rsp)
	movq	%rax, 1480(%rsp)
	vbroadcastf128	(%rsi), %ymm0
	vbroadcastf128	16(%rsi), %ymm1
	vbroadcastf128	D(CPI14_9)(%rip), %ymm2
	leaq	64(%rsp), %rdi
	leaq	896(%rsp), %rsi
	leaq	1408(%rsp), %rdx
	callq	"keyed_blake3::compression::two::compress_two_from"
	movl	64(%rsp), %r8d
	movl	68(%rsp), %eax
	movl	%eax, 864(%rsp)
	movl	72(%rsp), %eax
	movl	%eax, 432(%rsp)
	movl	76(%rsp), %eax
	movl	%eax, 1696(%rsp)
	movl	80(%rsp), %eax
	movl	%eax, 56(%rsp)
	movl	84(%rsp), %r9d
	movl	88(%rsp), %eax
	movl	%eax, 416(%rsp)
	movl	92(%rsp), %r10d
	movl	96(%rsp), %r11d
	movl	100(%rsp), %r13d
	movl	104(%rsp), %edx
	movl	108(%rsp), %eax
	movl	112(%rsp), %ebx
	vxorps	%xmm0, %xmm0, %xmm0
	vmovaps	%xmm0, 736(%rsp)
	movq	$0, 752(%rsp)
	vmovaps	%xmm0, 352(%rsp)
	vmovaps	%xmm0, 320(%rsp)
	movq	$0, 368(%rsp)
	movq	$0, 336(%rsp)
	vmovaps	%xmm0, 288(%rsp)
	movq	$0, 304(%rsp)
	vmovaps	%xmm0, 256(%rsp)
	movq	$0, 272(%rsp)
	vmovaps	%xmm0, 224(%rsp)
	vmovaps	%xmm0, 192(%rsp)
	movq	$0, 240(%rsp)
	movq	$0, 208(%rsp)
	vmovaps	%xmm0, 160(%rsp)
	movq	$0, 176(%rsp)
	movl	116(%rsp), %ecx
	movl	120(%rsp), %edi
	movl	124(%rsp), %esi
	jmp	L(14_13)
	.p2align	4
L(14_12):
	vbroadcastf128	D(CPI14_4)(%rip), %ymm0
	vmovaps	448(%rsp), %ymm1
	vmovaps	480(%rsp), %ymm2
	vmovaps	512(%rsp), %ymm3
	vmovaps	544(%rsp), %ymm4
	vpermps	%ymm1, %ymm0, %ymm5
	vbroadcastf128	D(CPI14_5)(%rip), %ymm6
	vpermps	%ymm1, %ymm6, %ymm1
	vmovaps	%ymm1, 864(%rsp)
	vpermps	%ymm2, %ymm0, %ymm7
	vpermps	%ymm2, %ymm6, %ymm2
	vpermps	%ymm3, %ymm0, %ymm8
	vpermps	%ymm3, %ymm6, %ymm3
	vpermps	%ymm4, %ymm0, %ymm9
	vpermps	%ymm4, %ymm6, %ymm4
	vmovaps	576(%rsp), %ymm10
	vpermps	%ymm10, %ymm0, %ymm11
	vpermps	%ymm10, %ymm6, %ymm10
	vmovaps	608(%rsp), %ymm12
	vpermps	%ymm12, %ymm0, %ymm13
	vpermps	%ymm12, %ymm6, %ymm12
	vmovaps	640(%rsp), %ymm14
	vpermps	%ymm14, %ymm0, %ymm15
	vpermps	%ymm14, %ymm6, %ymm14
	vmovaps	672(%rsp), %ymm1
	vpermps	%ymm1, %ymm0, %ymm0
	vpermps	%ymm1, %ymm6, %ymm1
	vmovaps	%ymm5, 896(%rsp)
	vmovaps	%ymm7, 928(%rsp)
	vmovaps	%ymm8, 960(%rsp)
	vmovaps	%ymm9, 992(%rsp)
	vmovaps	%ymm11, 1024(%rsp)
	vmovaps	%ymm13, 1056(%rsp)
	vmovaps	%ymm15, 1088(%rsp)
	vmovaps	%ymm0, 1120(%rsp)
	vmovaps	864(%rsp), %ymm0
	vmovaps	%ymm0, 1152(%rsp)
	vmovaps	%ymm2, 1184(%rsp)
	vmovaps	%ymm3, 1216(%rsp)
	vmovaps	%ymm4, 1248(%rsp)
	vmovaps	%ymm10, 1280(%rsp)
	vmovaps	%ymm12, 1312(%rsp)
	vmovaps	%ymm14, 1344(%rsp)
	vmovaps	%ymm1, 1376(%rsp)
	vbroadcastss	D(CPI14_6)(%rip), %ymm0
	vmovups	%ymm0, 64(%rsp)
	vbroadcastss	D(CPI14_7)(%rip), %ymm0
	vmovups	%ymm0, 1728(%rsp)
	leaq	1408(%rsp), %r13
	movq	%r13, %rdi
	vzeroupper
	callq	"keyed_blake3::chunks::key_of_each::<#a9687390e0dd665c>"
	leaq	896(%rsp), %rsi
	leaq	64(%rsp), %rdx
	leaq	1728(%rsp), %rcx
	movq	%r13, %rdi
	callq	"keyed_blake3::compression::lanes::take_in_each::<#a9687390e0dd665c>"
	movl	1408(%rsp), %r8d
	movl	1412(%rsp), %eax
	movl	%eax, 56(%rsp)
	leaq	1416(%rsp), %rdx
	movq	16(%rdx), %rax
	movq	%rax, 752(%rsp)
	vmovups	(%rdx), %xmm0
	vmovaps	%xmm0, 736(%rsp)
	movl	1440(%rsp), %eax
	movl	%eax, 864(%rsp)
	vmovups	32(%rdx), %xmm0
	vmovaps	%xmm0, 352(%rsp)
	movl	1444(%rsp), %r9d
	movq	48(%rdx), %rax
	movq	%rax, 368(%rsp)
	movl	1472(%rsp), %eax
	movl	%eax, 432(%rsp)
	movl	1476(%rsp), %eax
	movl	%eax, 416(%rsp)
	movq	80(%rdx), %rax
	movq	%rax, 336(%rsp)
	vmovups	64(%rdx), %xmm0
	vmovaps	%xmm0, 320(%rsp)
	movl	1504(%rsp), %eax
	movl	%eax, 1696(%rsp)
	movl	1508(%rsp), %r10d
	movq	112(%rdx), %rax
	vmovups	96(%rdx), %xmm0
	vmovaps	%xmm0, 288(%rsp)
	movq	%rax, 304(%rsp)
	movl	1536(%rsp), %r11d
	movl	1540(%rsp), %ebx
	movq	144(%rdx), %rax
	movq	%rax, 272(%rsp)
	vmovups	128(%rdx), %xmm0
	vmovaps	%xmm0, 256(%rsp)
	movl	1568(%rsp), %r13d
	movl	1572(%rsp), %ecx
	movq	176(%rdx), %rax
	movq	%rax, 848(%rsp)
	vmovups	160(%rdx), %xmm0
	vmovaps	%xmm0, 832(%rsp)
	movq	208(%rdx), %rax
	movq	%rax, 816(%rsp)
	vmovups	192(%rdx), %xmm0
	vmovaps	%xmm0, 800(%rsp)
	movq	240(%rdx), %rax
	vmovups	224(%rdx), %xmm0
	vmovaps	%xmm0, 768(%rsp)
	movq	%rax, 784(%rsp)
	movq	848(%rsp), %rax
	movq	%rax, 240(%rsp)
	vmovaps	832(%rsp), %xmm0
	vmovaps	%xmm0, 224(%rsp)
	movq	816(%rsp), %rax
	movq	%rax, 208(%rsp)
	vmovaps	800(%rsp), %xmm0
	vmovaps	%xmm0, 192(%rsp)
	movq	784(%rsp), %rax
	movq	%rax, 176(%rsp)
	vmovaps	768(%rsp), %xmm0
	vmovaps	%xmm0, 160(%rsp)
	movl	1600(%rsp), %edx
	movl	1604(%rsp), %edi
	movl	1632(%rsp), %eax
	movl	1636(%rsp), %esi
L(14_13):
	movl	%r8d, 448(%rsp)
	movl	56(%rsp), %r8d
	movl	%r8d, 452(%rsp)
	movq	752(%rsp), %r8
	movq	%r8, 16(%r14)
	vmovaps	736(%rsp), %xmm0
	vmovups	%xmm0, (%r14)
	movl	864(%rsp), %r8d
	movl	%r8d, 480(%rsp)
	movl	%r9d, 484(%rsp)
	movq	368(%rsp), %r8
	movq	%r8, 48(%r14)
	vmovaps	352(%rsp), %xmm0
	vmovups	%xmm0, 32(%r14)
	movl	432(%rsp), %r8d
	movl	%r8d, 512(%rsp)
	movl	416(%rsp), %r8d
	movl	%r8d, 516(%rsp)
	movq	336(%rsp), %r8
	movq	%r8, 80(%r14)
	vmovaps	320(%rsp), %xmm0
	vmovups	%xmm0, 64(%r14)
	movl	1696(%rsp), %r8d
	movl	%r8d, 544(%rsp)
	movl	%r10d, 548(%rsp)
	movq	304(%rsp), %r8
	vmovaps	288(%rsp), %xmm0
	vmovups	%xmm0, 96(%r14)
	movq	%r8, 112(%r14)
	movl	%r11d, 576(%rsp)
	movl	%ebx, 580(%rsp)
	movq	272(%rsp), %r8
	movq	%r8, 144(%r14)
	vmovaps	256(%rsp), %xmm0
	vmovups	%xmm0, 128(%r14)
	movl	%r13d, 608(%rsp)
	movl	%ecx, 612(%rsp)
	movq	240(%rsp), %rcx
	movq	%rcx, 176(%r14)
	vmovaps	224(%rsp), %xmm0
	vmovups	%xmm0, 160(%r14)
	movl	%edx, 640(%rsp)
	movl	%edi, 644(%rsp)
	movq	208(%rsp), %rcx
	movq	%rcx, 208(%r14)
	vmovaps	192(%rsp), %xmm0
	vmovups	%xmm0, 192(%r14)
	movl	%eax, 672(%rsp)
	movl	%esi, 676(%rsp)
	movq	176(%rsp), %rax
	vmovaps	160(%rsp), %xmm0
	vmovups	%xmm0, 224(%r14)
	movq	%rax, 240(%r14)
	movq	%r15, %r13
	shrq	%r13
	movq	%r12, %rbx
	shrq	%rbx
	cmpq	$5, %r12
	jb	L(14_14)
	andl	$2, %r12d
	movq	48(%rsp), %rsi
	jne	L(14_17)
	movq	%rbx, %r12
	andl	$2, %r15d
	movq	%r13, %r15
	je	L(14_10)
	jmp	L(14_17)
L(14_8):
	movq	%r12, %rbx
	movq	%r15, %r13
	movq	%rbx, %r14
	decq	%r14
	jne	L(14_18)
	jmp	L(14_20)
L(14_6):
	movq	%r12, %rbx
	movq	%r15, %r13
	movq	48(%rsp), %rsi
L(14_17):
	movq	%rbx, %r14
	decq	%r14
	je	L(14_20)
L(14_18):
	leaq	64(%rsi), %r15
	xorl	%r12d, %r12d
	.p2align	4
L(14_19):
	movl	448(%rsp,%r12,4), %eax
	movl	480(%rsp,%r12,4), %ecx
	movl	512(%rsp,%r12,4), %edx
	movl	544(%rsp,%r12,4), %r11d
	movl	576(%rsp,%r12,4), %edi
	movl	608(%rsp,%r12,4), %r8d
	movl	640(%rsp,%r12,4), %r9d
	movl	672(%rsp,%r12,4), %r10d
	movl	%eax, 896(%rsp)
	movl	%ecx, 900(%rsp)
	movl	%edx, 904(%rsp)
	movl	%r11d, 908(%rsp)
	movl	%edi, 912(%rsp)
	movl	%r8d, 916(%rsp)
	movl	%r9d, 920(%rsp)
	movl	%r10d, 924(%rsp)
	leaq	(%r12,%r13), %rdx
	leaq	896(%rsp), %rcx
	movq	%r15, %rdi
	xorl	%r8d, %r8d
	vzeroupper
	callq	"keyed_blake3::tree::add_subtree_value"
	movq	48(%rsp), %rsi
	incq	%r12
	cmpq	%r12, %r14
	jne	L(14_19)
L(14_20):
	movl	444(%rsp,%rbx,4), %eax
	movl	476(%rsp,%rbx,4), %ecx
	movl	508(%rsp,%rbx,4), %edx
	movl	540(%rsp,%rbx,4), %r11d
	movl	572(%rsp,%rbx,4), %edi
	movl	604(%rsp,%rbx,4), %r8d
	movl	636(%rsp,%rbx,4), %r9d
	movl	668(%rsp,%rbx,4), %r10d
	movl	%eax, 384(%rsp)
	movl	%ecx, 388(%rsp)
	movl	%edx, 392(%rsp)
	movl	%r11d, 396(%rsp)
	movl	%edi, 400(%rsp)
	movl	%r8d, 404(%rsp)
	movl	%r9d, 408(%rsp)
	movl	%r10d, 412(%rsp)
	addq	%r14, %r13
	leaq	64(%rsi), %rdi
	leaq	384(%rsp), %rcx
	movq	%r13, %rdx
	movq	856(%rsp), %r8
	vzeroupper
	callq	"keyed_blake3::tree::add_subtree_value"
	leaq	-40(%rbp), %rsp
	popq	%rbx
	popq	%r12
	popq	%r13
	popq	%r14
	popq	%r15
	popq	%rbp
	.cfi_def_cfa %rsp, 8
	retq
L(14_14):
	.cfi_def_cfa %rbp, 16
	movq	48(%rsp), %rsi
	movq	%rbx, %r14
	decq	%r14
	jne	L(14_18)
	jmp	L(14_20)
	SIZE("keyed_blake3::tree::Tree::absorb_subtrees::<#a9687390e0dd665c>")
	.cfi_endproc

SIZED(4, 2)
	.p2align	2, 0x0
D(CPI15_1):
	.long	1779033703
D(CPI15_2):
	.long	3144134277
D(CPI15_3):
	.long	1013904242
D(CPI15_4):
	.long	2773480762
D(CPI15_5):
	.byte	64
	.byte	0
	.byte	0
	.byte	0
CODE(".text.keyed_blake3::chunks::chunk_values::<#a9687390e0dd665c>")
	.p2align	4
	TYPE("keyed_blake3::chunks::chunk_values::<#a9687390e0dd665c>", function)
"keyed_blake3::chunks::chunk_values::<#a9687390e0dd665c>":
	.cfi_startproc
	pushq	%rbp
	.cfi_def_cfa_offset 16
	.cfi_offset %rbp, -16
	movq	%rsp, %rbp
	.cfi_def_cfa_register %rbp
	pushq	%r15
	pushq	%r14
	pushq	%rbx
	andq	$-64, %rsp
	subq	$704, %rsp
	.cfi_offset %rbx, -40
	.cfi_offset %r14, -32
	.cfi_offset %r15, -24
	movq	%rcx, %r15
	vpbroadcastq	%r8, %zmm0
	vpaddq	(%rcx), %zmm0, %zmm0
	movq	%rdx, %r14
	movq	%rdi, %rbx
	vpsrlq	$32, %zmm0, %zmm1
	vpmovqd	%zmm1, 96(%rsp)
	vpmovqd	%zmm0, 64(%rsp)
	leaq	384(%rsp), %rdi
	vzeroupper
	callq	"keyed_blake3::chunks::key_of_each::<#a9687390e0dd665c>"
	vmovdqa64	384(%rsp), %ymm18
	vmovdqa64	416(%rsp), %ymm21
	vmovdqa64	448(%rsp), %ymm22
	vmovdqa64	480(%rsp), %ymm23
	vmovdqa64	512(%rsp), %ymm16
	vmovdqa64	544(%rsp), %ymm17
	vmovdqa64	576(%rsp), %ymm19
	vmovdqa64	608(%rsp), %ymm20
	movq	(%r15), %r10
	movq	8(%r15), %r9
	shlq	$10, %r10
	shlq	$10, %r9
	movq	16(%r15), %r8
	shlq	$10, %r8
	movq	24(%r15), %rdi
	shlq	$10, %rdi
	movq	32(%r15), %rsi
	shlq	$10, %rsi
	movq	40(%r15), %rdx
	shlq	$10, %rdx
	movq	48(%r15), %rcx
	shlq	$10, %rcx
	movq	56(%r15), %rax
	shlq	$10, %rax
	addq	%r14, %rax
	addq	$32, %rax
	leaq	32(%rcx,%r14), %rcx
	leaq	32(%rdx,%r14), %rdx
	leaq	32(%rsi,%r14), %rsi
	leaq	32(%rdi,%r14), %rdi
	addq	%r14, %r8
	addq	$32, %r8
	addq	%r14, %r9
	addq	$32, %r9
	addq	%r14, %r10
	addq	$32, %r10
	xorl	%r11d, %r11d
	.p2align	4
L(15_1):
	vmovdqu	-32(%r10,%r11), %ymm0
	vmovdqu	(%r10,%r11), %ymm1
	prefetcht0	128(%r10,%r11)
	vmovdqu	-32(%r9,%r11), %ymm2
	vmovdqu	(%r9,%r11), %ymm3
	prefetcht0	128(%r9,%r11)
	vpunpckldq	%ymm2, %ymm0, %ymm4
	vmovdqu	-32(%r8,%r11), %ymm5
	vmovdqu	(%r8,%r11), %ymm6
	prefetcht0	128(%r8,%r11)
	vpunpckhdq	%ymm2, %ymm0, %ymm0
	vmovdqu	-32(%rdi,%r11), %ymm2
	vmovdqu	(%rdi,%r11), %ymm8
	prefetcht0	128(%rdi,%r11)
	vmovdqu	-32(%rsi,%r11), %ymm7
	vpunpckldq	%ymm2, %ymm5, %ymm9
	vmovdqu	(%rsi,%r11), %ymm10
	prefetcht0	128(%rsi,%r11)
	vmovdqu	-32(%rdx,%r11), %ymm11
	vmovdqu	(%rdx,%r11), %ymm12
	prefetcht0	128(%rdx,%r11)
	vpunpckhdq	%ymm2, %ymm5, %ymm2
	vpunpckldq	%ymm11, %ymm7, %ymm5
	vmovdqu	-32(%rcx,%r11), %ymm13
	vmovdqu	(%rcx,%r11), %ymm14
	prefetcht0	128(%rcx,%r11)
	vpunpckhdq	%ymm11, %ymm7, %ymm7
	vmovdqu	-32(%rax,%r11), %ymm11
	vmovdqu	(%rax,%r11), %ymm15
	prefetcht0	128(%rax,%r11)
	vpunpckldq	%ymm11, %ymm13, %ymm24
	vpunpckhdq	%ymm11, %ymm13, %ymm11
	vpunpcklqdq	%ymm9, %ymm4, %ymm13
	vpunpckhqdq	%ymm9, %ymm4, %ymm4
	vpunpcklqdq	%ymm2, %ymm0, %ymm9
	vpunpckhqdq	%ymm2, %ymm0, %ymm2
	vpunpcklqdq	%ymm24, %ymm5, %ymm0
	vpunpckhqdq	%ymm24, %ymm5, %ymm24
	vpunpcklqdq	%ymm11, %ymm7, %ymm25
	vpunpckhqdq	%ymm11, %ymm7, %ymm26
	vinserti128	$1, %xmm0, %ymm13, %ymm7
	vinserti32x4	$1, %xmm24, %ymm4, %ymm11
	vpunpckldq	%ymm3, %ymm1, %ymm27
	vinserti32x4	$1, %xmm25, %ymm9, %ymm5
	vpunpckhdq	%ymm3, %ymm1, %ymm1
	vpunpckldq	%ymm8, %ymm6, %ymm28
	vpunpckhdq	%ymm8, %ymm6, %ymm6
	vinserti32x4	$1, %xmm26, %ymm2, %ymm3
	vpunpckldq	%ymm12, %ymm10, %ymm8
	vpunpckhdq	%ymm12, %ymm10, %ymm10
	vpunpckldq	%ymm15, %ymm14, %ymm12
	vperm2i128	$49, %ymm0, %ymm13, %ymm0
	vpunpckhdq	%ymm15, %ymm14, %ymm13
	vpunpcklqdq	%ymm28, %ymm27, %ymm29
	vpunpckhqdq	%ymm28, %ymm27, %ymm27
	vshufi64x2	$3, %ymm24, %ymm4, %ymm14
	vpunpcklqdq	%ymm6, %ymm1, %ymm24
	vpunpckhqdq	%ymm6, %ymm1, %ymm28
	vpunpcklqdq	%ymm12, %ymm8, %ymm1
	vshufi64x2	$3, %ymm25, %ymm9, %ymm9
	vpunpckhqdq	%ymm12, %ymm8, %ymm4
	vpunpcklqdq	%ymm13, %ymm10, %ymm8
	vpunpckhqdq	%ymm13, %ymm10, %ymm12
	vshufi64x2	$3, %ymm26, %ymm2, %ymm6
	vinserti32x4	$1, %xmm1, %ymm29, %ymm13
	vinserti32x4	$1, %xmm4, %ymm27, %ymm2
	vmovdqa	%ymm2, 128(%rsp)
	vinserti32x4	$1, %xmm8, %ymm24, %ymm2
	vinserti32x4	$1, %xmm12, %ymm28, %ymm15
	vshufi64x2	$3, %ymm1, %ymm29, %ymm1
	cmpq	$1, %r11
	movl	$0, %r14d
	vshufi64x2	$3, %ymm4, %ymm27, %ymm4
	adcl	$16, %r14d
	cmpq	$960, %r11
	vshufi64x2	$3, %ymm8, %ymm24, %ymm8
	movl	$18, %r15d
	cmovnel	%r14d, %r15d
	vshufi64x2	$3, %ymm12, %ymm28, %ymm10
	vpbroadcastd	%r15d, %ymm24
	vpaddd	%ymm16, %ymm18, %ymm18
	vpaddd	%ymm17, %ymm21, %ymm25
	vpaddd	%ymm7, %ymm18, %ymm21
	vmovdqa	%ymm7, %ymm12
	vmovdqa	%ymm7, 32(%rsp)
	vpaddd	%ymm5, %ymm25, %ymm18
	vmovdqa	%ymm5, %ymm7
	vpaddd	%ymm19, %ymm22, %ymm22
	vpaddd	%ymm20, %ymm23, %ymm23
	vpaddd	%ymm0, %ymm22, %ymm26
	vpaddd	%ymm9, %ymm23, %ymm27
	vpxord	64(%rsp), %ymm21, %ymm22
	vpxord	96(%rsp), %ymm18, %ymm25
	vprold	$16, %ymm22, %ymm23
	vpxord	D(CPI15_5)(%rip){1to8}, %ymm26, %ymm22
	vpxord	%ymm24, %ymm27, %ymm28
	vprold	$16, %ymm25, %ymm24
	vprold	$16, %ymm28, %ymm28
	vpaddd	D(CPI15_1)(%rip){1to8}, %ymm23, %ymm25
	vprold	$16, %ymm22, %ymm29
	vpaddd	D(CPI15_4)(%rip){1to8}, %ymm28, %ymm30
	vpaddd	D(CPI15_3)(%rip){1to8}, %ymm29, %ymm22
	vpxord	%ymm19, %ymm22, %ymm19
	vpxord	%ymm20, %ymm30, %ymm20
	vprold	$20, %ymm20, %ymm31
	vprold	$20, %ymm19, %ymm20
	vpaddd	%ymm14, %ymm26, %ymm19
	vpaddd	%ymm6, %ymm27, %ymm26
	vpaddd	%ymm31, %ymm26, %ymm26
	vpaddd	%ymm20, %ymm19, %ymm27
	vpxorq	%ymm26, %ymm28, %ymm19
	vprold	$24, %ymm19, %ymm28
	vpaddd	%ymm28, %ymm30, %ymm19
	vpxorq	%ymm27, %ymm29, %ymm29
	vpxord	%ymm31, %ymm19, %ymm30
	vprold	$25, %ymm30, %ymm30
	vpaddd	%ymm30, %ymm1, %ymm31
	vpaddd	%ymm31, %ymm27, %ymm27
	vpaddd	D(CPI15_2)(%rip){1to8}, %ymm24, %ymm31
	vpxord	%ymm16, %ymm25, %ymm16
	vpxord	%ymm17, %ymm31, %ymm17
	vprold	$20, %ymm16, %ymm16
	vprold	$20, %ymm17, %ymm17
	vpaddd	%ymm11, %ymm21, %ymm21
	vpaddd	%ymm16, %ymm21, %ymm21
	vpaddd	%ymm3, %ymm18, %ymm18
	vpaddd	%ymm17, %ymm18, %ymm18
	vpxorq	%ymm21, %ymm23, %ymm23
	vprold	$24, %ymm23, %ymm23
	vpxorq	%ymm18, %ymm24, %ymm24
	vprold	$24, %ymm24, %ymm24
	vpaddd	%ymm23, %ymm25, %ymm25
	vpaddd	%ymm24, %ymm31, %ymm31
	vpxord	%ymm16, %ymm25, %ymm16
	vpxord	%ymm17, %ymm31, %ymm17
	vprold	$25, %ymm16, %ymm16
	vprold	$24, %ymm29, %ymm29
	vprold	$25, %ymm17, %ymm17
	vpaddd	%ymm8, %ymm26, %ymm26
	vpaddd	%ymm16, %ymm26, %ymm26
	vpaddd	%ymm29, %ymm22, %ymm22
	vpaddd	%ymm13, %ymm21, %ymm21
	vpaddd	%ymm17, %ymm21, %ymm21
	vpaddd	%ymm2, %ymm18, %ymm18
	vpxord	%ymm20, %ymm22, %ymm20
	vpxorq	%ymm26, %ymm29, %ymm29
	vprold	$16, %ymm29, %ymm29
	vpxorq	%ymm21, %ymm28, %ymm28
	vprold	$25, %ymm20, %ymm20
	vprold	$16, %ymm28, %ymm28
	vpxorq	%ymm27, %ymm24, %ymm24
	vprold	$16, %ymm24, %ymm24
	vpaddd	%ymm20, %ymm18, %ymm18
	vpaddd	%ymm29, %ymm31, %ymm31
	vpaddd	%ymm28, %ymm22, %ymm22
	vpaddd	%ymm24, %ymm25, %ymm25
	vpxorq	%ymm18, %ymm23, %ymm23
	vpxord	%ymm16, %ymm31, %ymm16
	vpxord	%ymm17, %ymm22, %ymm17
	vpxord	%ymm30, %ymm25, %ymm30
	vprold	$20, %ymm16, %ymm16
	vprold	$20, %ymm17, %ymm17
	vprold	$20, %ymm30, %ymm30
	vpaddd	%ymm10, %ymm26, %ymm26
	vprold	$16, %ymm23, %ymm23
	vpaddd	%ymm16, %ymm26, %ymm26
	vmovdqa	128(%rsp), %ymm5
	vpaddd	%ymm5, %ymm21, %ymm21
	vpaddd	%ymm17, %ymm21, %ymm21
	vpaddd	%ymm23, %ymm19, %ymm19
	vpaddd	%ymm15, %ymm18, %ymm18
	vpaddd	%ymm4, %ymm27, %ymm27
	vpaddd	%ymm30, %ymm27, %ymm27
	vpxord	%ymm20, %ymm19, %ymm20
	vpxorq	%ymm26, %ymm29, %ymm29
	vprold	$24, %ymm29, %ymm29
	vpxorq	%ymm21, %ymm28, %ymm28
	vprold	$20, %ymm20, %ymm20
	vprold	$24, %ymm28, %ymm28
	vpxorq	%ymm27, %ymm24, %ymm24
	vprold	$24, %ymm24, %ymm24
	vpaddd	%ymm20, %ymm18, %ymm18
	vpaddd	%ymm29, %ymm31, %ymm31
	vpaddd	%ymm28, %ymm22, %ymm22
	vpaddd	%ymm24, %ymm25, %ymm25
	vpxorq	%ymm18, %ymm23, %ymm23
	vpxord	%ymm16, %ymm31, %ymm16
	vpxord	%ymm17, %ymm22, %ymm17
	vpxord	%ymm30, %ymm25, %ymm30
	vprold	$25, %ymm16, %ymm16
	vprold	$25, %ymm17, %ymm17
	vprold	$25, %ymm30, %ymm30
	vpaddd	%ymm7, %ymm21, %ymm21
	vmovdqa	%ymm7, 224(%rsp)
	vprold	$24, %ymm23, %ymm23
	vpaddd	%ymm16, %ymm21, %ymm21
	vpaddd	%ymm3, %ymm18, %ymm18
	vpaddd	%ymm17, %ymm18, %ymm18
	vpaddd	%ymm23, %ymm19, %ymm19
	vpaddd	%ymm6, %ymm27, %ymm27
	vpaddd	%ymm0, %ymm26, %ymm26
	vpaddd	%ymm30, %ymm26, %ymm26
	vpxord	%ymm20, %ymm19, %ymm20
	vpxorq	%ymm21, %ymm23, %ymm23
	vprold	$16, %ymm23, %ymm23
	vpxorq	%ymm18, %ymm24, %ymm24
	vprold	$25, %ymm20, %ymm20
	vprold	$16, %ymm24, %ymm24
	vpxorq	%ymm26, %ymm28, %ymm28
	vprold	$16, %ymm28, %ymm28
	vpaddd	%ymm20, %ymm27, %ymm27
	vpaddd	%ymm23, %ymm25, %ymm25
	vpaddd	%ymm24, %ymm31, %ymm31
	vpaddd	%ymm28, %ymm19, %ymm19
	vpxorq	%ymm27, %ymm29, %ymm29
	vpxord	%ymm16, %ymm25, %ymm16
	vpxord	%ymm17, %ymm31, %ymm17
	vpxord	%ymm30, %ymm19, %ymm30
	vprold	$20, %ymm16, %ymm16
	vprold	$20, %ymm17, %ymm17
	vprold	$20, %ymm30, %ymm30
	vpaddd	%ymm9, %ymm21, %ymm21
	vprold	$16, %ymm29, %ymm29
	vpaddd	%ymm16, %ymm21, %ymm21
	vpaddd	%ymm2, %ymm18, %ymm18
	vpaddd	%ymm17, %ymm18, %ymm18
	vpaddd	%ymm29, %ymm22, %ymm22
	vpaddd	%ymm12, %ymm27, %ymm27
	vpaddd	%ymm4, %ymm26, %ymm26
	vpaddd	%ymm30, %ymm26, %ymm26
	vpxord	%ymm20, %ymm22, %ymm20
	vpxorq	%ymm21, %ymm23, %ymm23
	vprold	$24, %ymm23, %ymm23
	vpxorq	%ymm18, %ymm24, %ymm24
	vprold	$20, %ymm20, %ymm20
	vprold	$24, %ymm24, %ymm24
	vpxorq	%ymm26, %ymm28, %ymm28
	vprold	$24, %ymm28, %ymm28
	vpaddd	%ymm20, %ymm27, %ymm27
	vpaddd	%ymm23, %ymm25, %ymm25
	vpaddd	%ymm24, %ymm31, %ymm31
	vpaddd	%ymm28, %ymm19, %ymm19
	vpxorq	%ymm27, %ymm29, %ymm29
	vpxord	%ymm16, %ymm25, %ymm16
	vpxord	%ymm17, %ymm31, %ymm17
	vpxord	%ymm30, %ymm19, %ymm30
	vprold	$25, %ymm16, %ymm16
	vprold	$25, %ymm17, %ymm17
	vprold	$25, %ymm30, %ymm30
	vpaddd	%ymm10, %ymm26, %ymm26
	vmovdqa	%ymm10, %ymm12
	vprold	$24, %ymm29, %ymm29
	vpaddd	%ymm16, %ymm26, %ymm26
	vpaddd	%ymm11, %ymm21, %ymm21
	vpaddd	%ymm17, %ymm21, %ymm21
	vpaddd	%ymm29, %ymm22, %ymm22
	vpaddd	%ymm1, %ymm18, %ymm18
	vpaddd	%ymm5, %ymm27, %ymm27
	vmovdqa	%ymm5, %ymm10
	vpaddd	%ymm30, %ymm27, %ymm27
	vpxord	%ymm20, %ymm22, %ymm20
	vpxorq	%ymm26, %ymm29, %ymm29
	vprold	$16, %ymm29, %ymm29
	vpxorq	%ymm21, %ymm28, %ymm28
	vprold	$25, %ymm20, %ymm20
	vprold	$16, %ymm28, %ymm28
	vpxorq	%ymm27, %ymm24, %ymm24
	vprold	$16, %ymm24, %ymm24
	vpaddd	%ymm20, %ymm18, %ymm18
	vpaddd	%ymm29, %ymm31, %ymm31
	vpaddd	%ymm28, %ymm22, %ymm22
	vpaddd	%ymm24, %ymm25, %ymm25
	vpxorq	%ymm18, %ymm23, %ymm23
	vpxord	%ymm16, %ymm31, %ymm16
	vpxord	%ymm17, %ymm22, %ymm17
	vpxord	%ymm30, %ymm25, %ymm30
	vprold	$20, %ymm16, %ymm16
	vprold	$20, %ymm17, %ymm17
	vprold	$20, %ymm30, %ymm30
	vpaddd	%ymm13, %ymm26, %ymm26
	vprold	$16, %ymm23, %ymm23
	vpaddd	%ymm16, %ymm26, %ymm26
	vpaddd	%ymm15, %ymm21, %ymm21
	vpaddd	%ymm17, %ymm21, %ymm21
	vpaddd	%ymm23, %ymm19, %ymm19
	vpaddd	%ymm14, %ymm18, %ymm18
	vpaddd	%ymm8, %ymm27, %ymm27
	vpaddd	%ymm30, %ymm27, %ymm27
	vpxord	%ymm20, %ymm19, %ymm20
	vpxorq	%ymm26, %ymm29, %ymm29
	vprold	$24, %ymm29, %ymm29
	vpxorq	%ymm21, %ymm28, %ymm28
	vprold	$20, %ymm20, %ymm20
	vprold	$24, %ymm28, %ymm28
	vpxorq	%ymm27, %ymm24, %ymm24
	vprold	$24, %ymm24, %ymm24
	vpaddd	%ymm20, %ymm18, %ymm18
	vpaddd	%ymm29, %ymm31, %ymm31
	vpaddd	%ymm28, %ymm22, %ymm22
	vpaddd	%ymm24, %ymm25, %ymm25
	vpxorq	%ymm18, %ymm23, %ymm23
	vpxord	%ymm16, %ymm31, %ymm16
	vpxord	%ymm17, %ymm22, %ymm17
	vpxord	%ymm30, %ymm25, %ymm30
	vprold	$25, %ymm16, %ymm16
	vprold	$25, %ymm17, %ymm17
	vprold	$25, %ymm30, %ymm30
	vpaddd	%ymm3, %ymm21, %ymm21
	vmovdqa	%ymm3, 192(%rsp)
	vprold	$24, %ymm23, %ymm23
	vpaddd	%ymm16, %ymm21, %ymm21
	vpaddd	%ymm2, %ymm18, %ymm18
	vpaddd	%ymm17, %ymm18, %ymm18
	vpaddd	%ymm23, %ymm19, %ymm19
	vpaddd	%ymm4, %ymm27, %ymm27
	vpaddd	%ymm6, %ymm26, %ymm26
	vmovdqa	%ymm6, %ymm5
	vpaddd	%ymm30, %ymm26, %ymm26
	vpxord	%ymm20, %ymm19, %ymm20
	vpxorq	%ymm21, %ymm23, %ymm23
	vprold	$16, %ymm23, %ymm23
	vpxorq	%ymm18, %ymm24, %ymm24
	vprold	$25, %ymm20, %ymm20
	vprold	$16, %ymm24, %ymm24
	vpxorq	%ymm26, %ymm28, %ymm28
	vprold	$16, %ymm28, %ymm28
	vpaddd	%ymm20, %ymm27, %ymm27
	vpaddd	%ymm23, %ymm25, %ymm25
	vpaddd	%ymm24, %ymm31, %ymm31
	vpaddd	%ymm28, %ymm19, %ymm19
	vpxorq	%ymm27, %ymm29, %ymm29
	vpxord	%ymm16, %ymm25, %ymm16
	vpxord	%ymm17, %ymm31, %ymm17
	vpxord	%ymm30, %ymm19, %ymm30
	vprold	$20, %ymm16, %ymm16
	vprold	$20, %ymm17, %ymm17
	vprold	$20, %ymm30, %ymm30
	vpaddd	%ymm0, %ymm21, %ymm21
	vprold	$16, %ymm29, %ymm29
	vpaddd	%ymm16, %ymm21, %ymm21
	vpaddd	%ymm1, %ymm18, %ymm18
	vpaddd	%ymm17, %ymm18, %ymm18
	vpaddd	%ymm29, %ymm22, %ymm22
	vpaddd	%ymm7, %ymm27, %ymm27
	vpaddd	%ymm8, %ymm26, %ymm26
	vpaddd	%ymm30, %ymm26, %ymm26
	vpxord	%ymm20, %ymm22, %ymm20
	vpxorq	%ymm21, %ymm23, %ymm23
	vprold	$24, %ymm23, %ymm23
	vpxorq	%ymm18, %ymm24, %ymm24
	vprold	$20, %ymm20, %ymm20
	vprold	$24, %ymm24, %ymm24
	vpxorq	%ymm26, %ymm28, %ymm28
	vprold	$24, %ymm28, %ymm28
	vpaddd	%ymm20, %ymm27, %ymm27
	vpaddd	%ymm23, %ymm25, %ymm25
	vpaddd	%ymm24, %ymm31, %ymm31
	vpaddd	%ymm28, %ymm19, %ymm19
	vpxorq	%ymm27, %ymm29, %ymm29
	vpxord	%ymm16, %ymm25, %ymm16
	vpxord	%ymm17, %ymm31, %ymm17
	vpxord	%ymm30, %ymm19, %ymm30
	vprold	$25, %ymm16, %ymm16
	vprold	$25, %ymm17, %ymm17
	vprold	$25, %ymm30, %ymm30
	vpaddd	%ymm13, %ymm26, %ymm26
	vmovdqa	%ymm13, %ymm7
	vprold	$24, %ymm29, %ymm29
	vpaddd	%ymm16, %ymm26, %ymm26
	vpaddd	%ymm9, %ymm21, %ymm21
	vpaddd	%ymm17, %ymm21, %ymm21
	vpaddd	%ymm29, %ymm22, %ymm22
	vpaddd	%ymm10, %ymm18, %ymm18
	vpaddd	%ymm15, %ymm27, %ymm27
	vpaddd	%ymm30, %ymm27, %ymm27
	vpxord	%ymm20, %ymm22, %ymm20
	vpxorq	%ymm26, %ymm29, %ymm29
	vprold	$16, %ymm29, %ymm29
	vpxorq	%ymm21, %ymm28, %ymm28
	vprold	$25, %ymm20, %ymm20
	vprold	$16, %ymm28, %ymm28
	vpxorq	%ymm27, %ymm24, %ymm24
	vprold	$16, %ymm24, %ymm24
	vpaddd	%ymm20, %ymm18, %ymm18
	vpaddd	%ymm29, %ymm31, %ymm31
	vpaddd	%ymm28, %ymm22, %ymm22
	vpaddd	%ymm24, %ymm25, %ymm25
	vpxorq	%ymm18, %ymm23, %ymm23
	vpxord	%ymm16, %ymm31, %ymm16
	vpxord	%ymm17, %ymm22, %ymm17
	vpxord	%ymm30, %ymm25, %ymm30
	vprold	$20, %ymm16, %ymm16
	vprold	$20, %ymm17, %ymm17
	vprold	$20, %ymm30, %ymm30
	vmovdqa	%ymm11, 160(%rsp)
	vpaddd	%ymm11, %ymm26, %ymm26
	vprold	$16, %ymm23, %ymm23
	vpaddd	%ymm16, %ymm26, %ymm26
	vpaddd	%ymm14, %ymm21, %ymm21
	vpaddd	%ymm17, %ymm21, %ymm21
	vpaddd	%ymm23, %ymm19, %ymm19
	vmovdqa	32(%rsp), %ymm6
	vpaddd	%ymm6, %ymm18, %ymm18
	vpaddd	%ymm12, %ymm27, %ymm27
	vpaddd	%ymm30, %ymm27, %ymm27
	vpxord	%ymm20, %ymm19, %ymm20
	vpxorq	%ymm26, %ymm29, %ymm29
	vprold	$24, %ymm29, %ymm29
	vpxorq	%ymm21, %ymm28, %ymm28
	vprold	$20, %ymm20, %ymm20
	vprold	$24, %ymm28, %ymm28
	vpxorq	%ymm27, %ymm24, %ymm24
	vprold	$24, %ymm24, %ymm24
	vpaddd	%ymm20, %ymm18, %ymm18
	vpaddd	%ymm29, %ymm31, %ymm31
	vpaddd	%ymm28, %ymm22, %ymm22
	vpaddd	%ymm24, %ymm25, %ymm25
	vpxorq	%ymm18, %ymm23, %ymm23
	vpxord	%ymm16, %ymm31, %ymm16
	vpxord	%ymm17, %ymm22, %ymm17
	vpxord	%ymm30, %ymm25, %ymm30
	vprold	$25, %ymm16, %ymm16
	vprold	$25, %ymm17, %ymm17
	vprold	$25, %ymm30, %ymm30
	vmovdqa	%ymm2, 320(%rsp)
	vpaddd	%ymm2, %ymm21, %ymm21
	vprold	$24, %ymm23, %ymm23
	vpaddd	%ymm16, %ymm21, %ymm21
	vpaddd	%ymm1, %ymm18, %ymm18
	vpaddd	%ymm17, %ymm18, %ymm18
	vpaddd	%ymm23, %ymm19, %ymm19
	vpaddd	%ymm8, %ymm27, %ymm27
	vpaddd	%ymm4, %ymm26, %ymm26
	vmovdqa	%ymm4, %ymm13
	vpaddd	%ymm30, %ymm26, %ymm26
	vpxord	%ymm20, %ymm19, %ymm20
	vpxorq	%ymm21, %ymm23, %ymm23
	vprold	$16, %ymm23, %ymm23
	vpxorq	%ymm18, %ymm24, %ymm24
	vprold	$25, %ymm20, %ymm20
	vprold	$16, %ymm24, %ymm24
	vpxorq	%ymm26, %ymm28, %ymm28
	vprold	$16, %ymm28, %ymm28
	vpaddd	%ymm20, %ymm27, %ymm27
	vpaddd	%ymm23, %ymm25, %ymm25
	vpaddd	%ymm24, %ymm31, %ymm31
	vpaddd	%ymm28, %ymm19, %ymm19
	vpxorq	%ymm27, %ymm29, %ymm29
	vpxord	%ymm16, %ymm25, %ymm16
	vpxord	%ymm17, %ymm31, %ymm17
	vpxord	%ymm30, %ymm19, %ymm30
	vprold	$20, %ymm16, %ymm16
	vprold	$20, %ymm17, %ymm17
	vprold	$20, %ymm30, %ymm30
	vpaddd	%ymm5, %ymm21, %ymm21
	vmovdqa	%ymm5, 288(%rsp)
	vprold	$16, %ymm29, %ymm29
	vpaddd	%ymm16, %ymm21, %ymm21
	vpaddd	%ymm10, %ymm18, %ymm18
	vpaddd	%ymm17, %ymm18, %ymm18
	vpaddd	%ymm29, %ymm22, %ymm22
	vpaddd	%ymm3, %ymm27, %ymm27
	vpaddd	%ymm12, %ymm26, %ymm26
	vpaddd	%ymm30, %ymm26, %ymm26
	vpxord	%ymm20, %ymm22, %ymm20
	vpxorq	%ymm21, %ymm23, %ymm23
	vprold	$24, %ymm23, %ymm23
	vpxorq	%ymm18, %ymm24, %ymm24
	vprold	$20, %ymm20, %ymm20
	vprold	$24, %ymm24, %ymm24
	vpxorq	%ymm26, %ymm28, %ymm28
	vprold	$24, %ymm28, %ymm28
	vpaddd	%ymm20, %ymm27, %ymm27
	vpaddd	%ymm23, %ymm25, %ymm25
	vpaddd	%ymm24, %ymm31, %ymm31
	vpaddd	%ymm28, %ymm19, %ymm19
	vpxorq	%ymm27, %ymm29, %ymm29
	vpxord	%ymm16, %ymm25, %ymm16
	vpxord	%ymm17, %ymm31, %ymm17
	vpxord	%ymm30, %ymm19, %ymm30
	vprold	$25, %ymm16, %ymm16
	vprold	$25, %ymm17, %ymm17
	vprold	$25, %ymm30, %ymm30
	vpaddd	%ymm11, %ymm26, %ymm26
	vprold	$24, %ymm29, %ymm29
	vpaddd	%ymm16, %ymm26, %ymm26
	vpaddd	%ymm0, %ymm21, %ymm21
	vpaddd	%ymm17, %ymm21, %ymm21
	vpaddd	%ymm29, %ymm22, %ymm22
	vpaddd	%ymm15, %ymm18, %ymm18
	vpaddd	%ymm14, %ymm27, %ymm27
	vmovdqa	%ymm14, %ymm11
	vpaddd	%ymm30, %ymm27, %ymm27
	vpxord	%ymm20, %ymm22, %ymm20
	vpxorq	%ymm26, %ymm29, %ymm29
	vprold	$16, %ymm29, %ymm29
	vpxorq	%ymm21, %ymm28, %ymm28
	vprold	$25, %ymm20, %ymm20
	vprold	$16, %ymm28, %ymm28
	vpxorq	%ymm27, %ymm24, %ymm24
	vprold	$16, %ymm24, %ymm24
	vpaddd	%ymm20, %ymm18, %ymm18
	vpaddd	%ymm29, %ymm31, %ymm31
	vpaddd	%ymm28, %ymm22, %ymm22
	vpaddd	%ymm24, %ymm25, %ymm25
	vpxorq	%ymm18, %ymm23, %ymm23
	vpxord	%ymm16, %ymm31, %ymm16
	vpxord	%ymm17, %ymm22, %ymm17
	vpxord	%ymm30, %ymm25, %ymm30
	vprold	$20, %ymm16, %ymm16
	vprold	$20, %ymm17, %ymm17
	vprold	$20, %ymm30, %ymm30
	vmovdqa	%ymm9, 256(%rsp)
	vpaddd	%ymm9, %ymm26, %ymm26
	vprold	$16, %ymm23, %ymm23
	vpaddd	%ymm16, %ymm26, %ymm26
	vpaddd	%ymm6, %ymm21, %ymm21
	vmovdqa	%ymm6, %ymm14
	vpaddd	%ymm17, %ymm21, %ymm21
	vpaddd	%ymm23, %ymm19, %ymm19
	vmovdqa	224(%rsp), %ymm4
	vpaddd	%ymm4, %ymm18, %ymm18
	vpaddd	%ymm7, %ymm27, %ymm27
	vpaddd	%ymm30, %ymm27, %ymm27
	vpxord	%ymm20, %ymm19, %ymm20
	vpxorq	%ymm26, %ymm29, %ymm29
	vprold	$24, %ymm29, %ymm29
	vpxorq	%ymm21, %ymm28, %ymm28
	vprold	$20, %ymm20, %ymm20
	vprold	$24, %ymm28, %ymm28
	vpxorq	%ymm27, %ymm24, %ymm24
	vprold	$24, %ymm24, %ymm24
	vpaddd	%ymm20, %ymm18, %ymm18
	vpaddd	%ymm29, %ymm31, %ymm31
	vpaddd	%ymm28, %ymm22, %ymm22
	vpaddd	%ymm24, %ymm25, %ymm25
	vpxorq	%ymm18, %ymm23, %ymm23
	vpxord	%ymm16, %ymm31, %ymm16
	vpxord	%ymm17, %ymm22, %ymm17
	vpxord	%ymm30, %ymm25, %ymm30
	vprold	$25, %ymm16, %ymm16
	vprold	$25, %ymm17, %ymm17
	vprold	$25, %ymm30, %ymm30
	vpaddd	%ymm1, %ymm21, %ymm21
	vmovdqa	%ymm1, %ymm3
	vmovdqa	%ymm1, 352(%rsp)
	vprold	$24, %ymm23, %ymm23
	vpaddd	%ymm16, %ymm21, %ymm21
	vpaddd	%ymm10, %ymm18, %ymm18
	vpaddd	%ymm17, %ymm18, %ymm18
	vpaddd	%ymm23, %ymm19, %ymm19
	vpaddd	%ymm12, %ymm27, %ymm27
	vpaddd	%ymm8, %ymm26, %ymm26
	vpaddd	%ymm30, %ymm26, %ymm26
	vpxord	%ymm20, %ymm19, %ymm20
	vpxorq	%ymm21, %ymm23, %ymm23
	vprold	$16, %ymm23, %ymm23
	vpxorq	%ymm18, %ymm24, %ymm24
	vprold	$25, %ymm20, %ymm20
	vprold	$16, %ymm24, %ymm24
	vpxorq	%ymm26, %ymm28, %ymm28
	vprold	$16, %ymm28, %ymm28
	vpaddd	%ymm20, %ymm27, %ymm27
	vpaddd	%ymm23, %ymm25, %ymm25
	vpaddd	%ymm24, %ymm31, %ymm31
	vpaddd	%ymm28, %ymm19, %ymm19
	vpxorq	%ymm27, %ymm29, %ymm29
	vpxord	%ymm16, %ymm25, %ymm16
	vpxord	%ymm17, %ymm31, %ymm17
	vpxord	%ymm30, %ymm19, %ymm30
	vprold	$20, %ymm16, %ymm16
	vprold	$20, %ymm17, %ymm17
	vprold	$20, %ymm30, %ymm30
	vpaddd	%ymm13, %ymm21, %ymm21
	vmovdqa	%ymm13, %ymm6
	vprold	$16, %ymm29, %ymm29
	vpaddd	%ymm16, %ymm21, %ymm21
	vpaddd	%ymm15, %ymm18, %ymm18
	vpaddd	%ymm17, %ymm18, %ymm18
	vpaddd	%ymm29, %ymm22, %ymm22
	vpaddd	%ymm2, %ymm27, %ymm27
	vpaddd	%ymm7, %ymm26, %ymm26
	vpaddd	%ymm30, %ymm26, %ymm26
	vpxord	%ymm20, %ymm22, %ymm20
	vpxorq	%ymm21, %ymm23, %ymm23
	vprold	$24, %ymm23, %ymm23
	vpxorq	%ymm18, %ymm24, %ymm24
	vprold	$20, %ymm20, %ymm20
	vprold	$24, %ymm24, %ymm24
	vpxorq	%ymm26, %ymm28, %ymm28
	vprold	$24, %ymm28, %ymm28
	vpaddd	%ymm20, %ymm27, %ymm27
	vpaddd	%ymm23, %ymm25, %ymm25
	vpaddd	%ymm24, %ymm31, %ymm31
	vpaddd	%ymm28, %ymm19, %ymm19
	vpxorq	%ymm27, %ymm29, %ymm29
	vpxord	%ymm16, %ymm25, %ymm16
	vpxord	%ymm17, %ymm31, %ymm17
	vpxord	%ymm30, %ymm19, %ymm30
	vprold	$25, %ymm16, %ymm16
	vprold	$25, %ymm17, %ymm17
	vprold	$25, %ymm30, %ymm30
	vpaddd	%ymm9, %ymm26, %ymm26
	vprold	$24, %ymm29, %ymm29
	vpaddd	%ymm16, %ymm26, %ymm26
	vpaddd	%ymm5, %ymm21, %ymm21
	vpaddd	%ymm17, %ymm21, %ymm21
	vpaddd	%ymm29, %ymm22, %ymm22
	vpaddd	%ymm11, %ymm18, %ymm18
	vpaddd	%ymm14, %ymm27, %ymm27
	vpaddd	%ymm30, %ymm27, %ymm27
	vpxord	%ymm20, %ymm22, %ymm20
	vpxorq	%ymm26, %ymm29, %ymm29
	vprold	$16, %ymm29, %ymm29
	vpxorq	%ymm21, %ymm28, %ymm28
	vprold	$25, %ymm20, %ymm20
	vprold	$16, %ymm28, %ymm28
	vpxorq	%ymm27, %ymm24, %ymm24
	vprold	$16, %ymm24, %ymm24
	vpaddd	%ymm20, %ymm18, %ymm18
	vpaddd	%ymm29, %ymm31, %ymm31
	vpaddd	%ymm28, %ymm22, %ymm22
	vpaddd	%ymm24, %ymm25, %ymm25
	vpxorq	%ymm18, %ymm23, %ymm23
	vpxord	%ymm16, %ymm31, %ymm16
	vpxord	%ymm17, %ymm22, %ymm17
	vpxord	%ymm30, %ymm25, %ymm30
	vprold	$20, %ymm16, %ymm16
	vprold	$20, %ymm17, %ymm17
	vprold	$20, %ymm30, %ymm30
	vpaddd	%ymm0, %ymm26, %ymm26
	vmovdqa	%ymm0, %ymm13
	vprold	$16, %ymm23, %ymm23
	vpaddd	%ymm16, %ymm26, %ymm26
	vpaddd	%ymm4, %ymm21, %ymm21
	vpaddd	%ymm17, %ymm21, %ymm21
	vpaddd	%ymm23, %ymm19, %ymm19
	vmovdqa	192(%rsp), %ymm14
	vpaddd	%ymm14, %ymm18, %ymm18
	vmovdqa	160(%rsp), %ymm5
	vpaddd	%ymm5, %ymm27, %ymm27
	vpaddd	%ymm30, %ymm27, %ymm27
	vpxord	%ymm20, %ymm19, %ymm20
	vpxorq	%ymm26, %ymm29, %ymm29
	vprold	$24, %ymm29, %ymm29
	vpxorq	%ymm21, %ymm28, %ymm28
	vprold	$20, %ymm20, %ymm20
	vprold	$24, %ymm28, %ymm28
	vpxorq	%ymm27, %ymm24, %ymm24
	vprold	$24, %ymm24, %ymm24
	vpaddd	%ymm20, %ymm18, %ymm18
	vpaddd	%ymm29, %ymm31, %ymm31
	vpaddd	%ymm28, %ymm22, %ymm22
	vpaddd	%ymm24, %ymm25, %ymm25
	vpxorq	%ymm18, %ymm23, %ymm23
	vpxord	%ymm16, %ymm31, %ymm16
	vpxord	%ymm17, %ymm22, %ymm17
	vpxord	%ymm30, %ymm25, %ymm30
	vprold	$25, %ymm16, %ymm16
	vprold	$25, %ymm17, %ymm17
	vprold	$25, %ymm30, %ymm30
	vpaddd	%ymm10, %ymm21, %ymm21
	vprold	$24, %ymm23, %ymm23
	vpaddd	%ymm16, %ymm21, %ymm21
	vpaddd	%ymm15, %ymm18, %ymm18
	vpaddd	%ymm17, %ymm18, %ymm18
	vpaddd	%ymm23, %ymm19, %ymm19
	vpaddd	%ymm7, %ymm27, %ymm27
	vpaddd	%ymm12, %ymm26, %ymm26
	vpaddd	%ymm30, %ymm26, %ymm0
	vpxord	%ymm20, %ymm19, %ymm20
	vpxorq	%ymm21, %ymm23, %ymm23
	vprold	$16, %ymm23, %ymm23
	vpxorq	%ymm18, %ymm24, %ymm24
	vprold	$25, %ymm20, %ymm26
	vprold	$16, %ymm24, %ymm24
	vpxorq	%ymm0, %ymm28, %ymm20
	vprold	$16, %ymm20, %ymm1
	vpaddd	%ymm26, %ymm27, %ymm27
	vpaddd	%ymm23, %ymm25, %ymm20
	vpaddd	%ymm24, %ymm31, %ymm31
	vpaddd	%ymm1, %ymm19, %ymm19
	vpxorq	%ymm27, %ymm29, %ymm25
	vpxord	%ymm16, %ymm20, %ymm16
	vpxord	%ymm17, %ymm31, %ymm28
	vpxord	%ymm30, %ymm19, %ymm29
	vprold	$16, %ymm25, %ymm30
	vprold	$20, %ymm16, %ymm17
	vprold	$20, %ymm28, %ymm16
	vprold	$20, %ymm29, %ymm25
	vpaddd	%ymm30, %ymm22, %ymm28
	vpaddd	%ymm8, %ymm21, %ymm21
	vpaddd	%ymm17, %ymm21, %ymm2
	vpaddd	%ymm11, %ymm18, %ymm18
	vpxord	%ymm26, %ymm28, %ymm21
	vpaddd	%ymm16, %ymm18, %ymm26
	vpaddd	%ymm3, %ymm27, %ymm22
	vpaddd	%ymm5, %ymm0, %ymm0
	vprold	$20, %ymm21, %ymm27
	vpaddd	%ymm25, %ymm0, %ymm18
	vpxorq	%ymm2, %ymm23, %ymm0
	vpxorq	%ymm26, %ymm24, %ymm21
	vpaddd	%ymm27, %ymm22, %ymm24
	vprold	$24, %ymm21, %ymm23
	vpxorq	%ymm24, %ymm30, %ymm21
	vpxorq	%ymm18, %ymm1, %ymm1
	vprold	$24, %ymm21, %ymm21
	vprold	$24, %ymm1, %ymm1
	vpaddd	%ymm23, %ymm31, %ymm22
	vpaddd	%ymm1, %ymm19, %ymm29
	vpaddd	%ymm21, %ymm28, %ymm19
	vpxord	%ymm16, %ymm22, %ymm16
	vprold	$25, %ymm16, %ymm28
	vmovdqa64	%ymm6, %ymm31
	vpaddd	%ymm6, %ymm2, %ymm2
	vpxord	%ymm27, %ymm19, %ymm30
	vpaddd	%ymm28, %ymm2, %ymm2
	vpxor	%ymm2, %ymm1, %ymm1
	vprold	$16, %ymm1, %ymm1
	vpaddd	%ymm1, %ymm19, %ymm16
	vpxord	%ymm28, %ymm16, %ymm19
	vprold	$20, %ymm19, %ymm19
	vmovdqa	%ymm14, %ymm3
	vpaddd	%ymm2, %ymm14, %ymm2
	vpaddd	%ymm19, %ymm2, %ymm2
	vpxorq	%ymm2, %ymm1, %ymm27
	vpaddd	%ymm2, %ymm15, %ymm1
	vprold	$24, %ymm0, %ymm0
	vpaddd	%ymm0, %ymm20, %ymm2
	vpxord	%ymm25, %ymm29, %ymm20
	vprold	$25, %ymm30, %ymm15
	vmovdqa	32(%rsp), %ymm6
	vpaddd	%ymm6, %ymm26, %ymm25
	vpaddd	%ymm15, %ymm25, %ymm25
	vpxorq	%ymm25, %ymm0, %ymm0
	vprold	$16, %ymm0, %ymm0
	vpaddd	%ymm0, %ymm29, %ymm26
	vpxord	%ymm15, %ymm26, %ymm15
	vprold	$20, %ymm15, %ymm15
	vmovdqa64	320(%rsp), %ymm28
	vpaddd	%ymm28, %ymm25, %ymm25
	vpaddd	%ymm15, %ymm25, %ymm25
	vpxorq	%ymm25, %ymm0, %ymm0
	vpaddd	%ymm11, %ymm25, %ymm25
	vpxord	%ymm17, %ymm2, %ymm14
	vprold	$25, %ymm20, %ymm17
	vpaddd	%ymm4, %ymm24, %ymm20
	vpaddd	%ymm17, %ymm20, %ymm20
	vpxorq	%ymm20, %ymm23, %ymm23
	vprold	$16, %ymm23, %ymm23
	vpaddd	%ymm23, %ymm2, %ymm2
	vpxord	%ymm17, %ymm2, %ymm17
	vprold	$20, %ymm17, %ymm17
	vmovdqa	256(%rsp), %ymm9
	vpaddd	%ymm9, %ymm20, %ymm20
	vpaddd	%ymm17, %ymm20, %ymm20
	vpxorq	%ymm20, %ymm23, %ymm23
	vpaddd	%ymm5, %ymm20, %ymm20
	vmovdqa64	%ymm13, %ymm24
	vpaddd	%ymm13, %ymm18, %ymm11
	vprold	$25, %ymm14, %ymm14
	vpaddd	%ymm14, %ymm11, %ymm11
	vpxorq	%ymm11, %ymm21, %ymm18
	vprold	$16, %ymm18, %ymm18
	vpaddd	%ymm18, %ymm22, %ymm21
	vpxord	%ymm14, %ymm21, %ymm14
	vprold	$20, %ymm14, %ymm14
	vmovdqa	288(%rsp), %ymm5
	vpaddd	%ymm5, %ymm11, %ymm11
	vpaddd	%ymm14, %ymm11, %ymm11
	vpxorq	%ymm11, %ymm18, %ymm18
	vpaddd	%ymm7, %ymm11, %ymm22
	vprold	$24, %ymm18, %ymm18
	vprold	$24, %ymm0, %ymm0
	vpaddd	%ymm18, %ymm21, %ymm11
	vpxor	%ymm14, %ymm11, %ymm13
	vprold	$25, %ymm13, %ymm13
	vpaddd	%ymm0, %ymm26, %ymm21
	vpaddd	%ymm1, %ymm13, %ymm1
	vpxor	%ymm1, %ymm0, %ymm14
	vpaddd	%ymm1, %ymm12, %ymm0
	vprold	$24, %ymm27, %ymm1
	vprold	$24, %ymm23, %ymm12
	vpaddd	%ymm1, %ymm16, %ymm16
	vpaddd	%ymm2, %ymm12, %ymm2
	vpxord	%ymm19, %ymm16, %ymm19
	vprold	$25, %ymm19, %ymm19
	vpaddd	%ymm19, %ymm25, %ymm23
	vpxorq	%ymm23, %ymm12, %ymm12
	vpaddd	%ymm6, %ymm23, %ymm23
	vpxord	%ymm15, %ymm21, %ymm7
	vprold	$25, %ymm7, %ymm15
	vpaddd	%ymm15, %ymm20, %ymm7
	vpxorq	%ymm7, %ymm18, %ymm18
	vpaddd	%ymm10, %ymm7, %ymm20
	vpxord	%ymm17, %ymm2, %ymm7
	vprold	$25, %ymm7, %ymm7
	vpaddd	%ymm7, %ymm22, %ymm10
	vpxor	%ymm1, %ymm10, %ymm1
	vpaddd	%ymm9, %ymm10, %ymm10
	vprold	$16, %ymm1, %ymm1
	vpaddd	%ymm1, %ymm21, %ymm9
	vpxor	%ymm7, %ymm9, %ymm7
	vprold	$20, %ymm7, %ymm7
	vpaddd	%ymm7, %ymm10, %ymm17
	vpxorq	%ymm17, %ymm1, %ymm10
	vpaddd	%ymm5, %ymm17, %ymm1
	vprold	$16, %ymm14, %ymm6
	vpaddd	%ymm6, %ymm2, %ymm2
	vpxor	%ymm2, %ymm13, %ymm13
	vprold	$20, %ymm13, %ymm13
	vpaddd	%ymm0, %ymm13, %ymm0
	vpxor	%ymm0, %ymm6, %ymm6
	vpaddd	%ymm0, %ymm8, %ymm0
	vprold	$16, %ymm12, %ymm8
	vpaddd	%ymm8, %ymm11, %ymm11
	vpxord	%ymm19, %ymm11, %ymm12
	vprold	$20, %ymm12, %ymm12
	vpaddd	%ymm12, %ymm23, %ymm14
	vpxor	%ymm14, %ymm8, %ymm8
	vpaddd	%ymm4, %ymm14, %ymm14
	vprold	$16, %ymm18, %ymm5
	vpaddd	%ymm5, %ymm16, %ymm16
	vpxord	%ymm15, %ymm16, %ymm15
	vprold	$20, %ymm15, %ymm15
	vpaddd	%ymm15, %ymm20, %ymm17
	vpxorq	%ymm17, %ymm5, %ymm5
	vpaddd	%ymm3, %ymm17, %ymm17
	vprold	$24, %ymm6, %ymm6
	vprold	$24, %ymm5, %ymm5
	vpaddd	%ymm6, %ymm2, %ymm2
	vpxor	%ymm2, %ymm13, %ymm3
	vprold	$25, %ymm3, %ymm3
	vpaddd	%ymm5, %ymm16, %ymm13
	vpaddd	%ymm3, %ymm1, %ymm1
	vpxor	%ymm1, %ymm5, %ymm5
	vpaddd	%ymm31, %ymm1, %ymm1
	vprold	$24, %ymm8, %ymm4
	vprold	$24, %ymm10, %ymm8
	vpaddd	%ymm4, %ymm11, %ymm10
	vpaddd	%ymm8, %ymm9, %ymm9
	vpxor	%ymm12, %ymm10, %ymm11
	vprold	$25, %ymm11, %ymm11
	vpaddd	%ymm0, %ymm11, %ymm0
	vpxor	%ymm0, %ymm8, %ymm8
	vpaddd	%ymm28, %ymm0, %ymm0
	vpxor	%ymm15, %ymm13, %ymm12
	vprold	$25, %ymm12, %ymm12
	vpaddd	%ymm12, %ymm14, %ymm14
	vpxor	%ymm6, %ymm14, %ymm6
	vpaddd	352(%rsp), %ymm14, %ymm14
	vpxor	%ymm7, %ymm9, %ymm7
	vprold	$25, %ymm7, %ymm7
	vpaddd	%ymm7, %ymm17, %ymm15
	vpxor	%ymm4, %ymm15, %ymm4
	vpaddd	%ymm24, %ymm15, %ymm15
	vprold	$16, %ymm8, %ymm8
	vprold	$16, %ymm4, %ymm4
	vpaddd	%ymm8, %ymm13, %ymm13
	vpaddd	%ymm4, %ymm2, %ymm2
	vpxor	%ymm11, %ymm13, %ymm11
	vpxor	%ymm7, %ymm2, %ymm7
	vprold	$20, %ymm11, %ymm11
	vprold	$20, %ymm7, %ymm7
	vpaddd	%ymm0, %ymm11, %ymm0
	vpaddd	%ymm7, %ymm15, %ymm15
	vpxor	%ymm0, %ymm8, %ymm8
	vpxor	%ymm4, %ymm15, %ymm4
	vprold	$24, %ymm4, %ymm4
	vpaddd	%ymm4, %ymm2, %ymm2
	vpxor	%ymm7, %ymm2, %ymm7
	vpxord	%ymm0, %ymm2, %ymm18
	vprold	$16, %ymm5, %ymm0
	vprold	$16, %ymm6, %ymm2
	vpaddd	%ymm0, %ymm10, %ymm5
	vpaddd	%ymm2, %ymm9, %ymm6
	vpxor	%ymm3, %ymm5, %ymm3
	vpxor	%ymm6, %ymm12, %ymm9
	vprold	$20, %ymm3, %ymm3
	vprold	$20, %ymm9, %ymm9
	vpaddd	%ymm3, %ymm1, %ymm1
	vpaddd	%ymm9, %ymm14, %ymm10
	vpxor	%ymm1, %ymm0, %ymm0
	vprold	$24, %ymm0, %ymm0
	vpaddd	%ymm0, %ymm5, %ymm5
	vpxor	%ymm2, %ymm10, %ymm2
	vpxor	%ymm3, %ymm5, %ymm3
	vpxord	%ymm10, %ymm5, %ymm21
	vprold	$24, %ymm8, %ymm5
	vpaddd	%ymm5, %ymm13, %ymm8
	vpxor	%ymm11, %ymm8, %ymm10
	vpxord	%ymm15, %ymm8, %ymm22
	vprold	$24, %ymm2, %ymm2
	vpaddd	%ymm2, %ymm6, %ymm6
	vprold	$25, %ymm3, %ymm3
	vpxord	%ymm2, %ymm3, %ymm16
	vpxor	%ymm6, %ymm9, %ymm2
	vpxord	%ymm1, %ymm6, %ymm23
	vprold	$25, %ymm10, %ymm1
	vpxord	%ymm4, %ymm1, %ymm17
	vprold	$25, %ymm2, %ymm1
	vpxord	%ymm0, %ymm1, %ymm19
	vprold	$25, %ymm7, %ymm0
	vpxord	%ymm5, %ymm0, %ymm20
	addq	$64, %r11
	cmpq	$1024, %r11
	jne	L(15_1)
	vmovdqu64	%ymm18, (%rbx)
	vmovdqu64	%ymm21, 32(%rbx)
	vmovdqu64	%ymm22, 64(%rbx)
	vmovdqu64	%ymm23, 96(%rbx)
	vmovdqu64	%ymm16, 128(%rbx)
	vmovdqu64	%ymm17, 160(%rbx)
	vmovdqu64	%ymm19, 192(%rbx)
	vmovdqu64	%ymm20, 224(%rbx)
	leaq	-24(%rbp), %rsp
	popq	%rbx
	popq	%r14
	popq	%r15
	popq	%rbp
	.cfi_def_cfa %rsp, 8
	vzeroupper
	retq
	SIZE("keyed_blake3::chunks::chunk_values::<#a9687390e0dd665c>")
	.cfi_endproc

CODE(".text.keyed_blake3::chunks::key_of_each::<#a9687390e0dd665c>")
	.p2align	4
	TYPE("keyed_blake3::chunks::key_of_each::<#a9687390e0dd665c>", function)
"keyed_blake3::chunks::key_of_each::<#a9687390e0dd665c>":
	.cfi_startproc
	pushq	%rbp
	.cfi_def_cfa_offset 16
	.cfi_offset %rbp, -16
	movq	%rsp, %rbp
	.cfi_def_cfa_register %rbp
	andq	$-64, %rsp
	subq	$64, %rsp
	vbroadcastss	(%rsi), %ymm0
	vbroadcastss	4(%rsi), %ymm1
	vbroadcastss	8(%rsi), %ymm2
	vbroadcastss	12(%rsi), %ymm3
	vbroadcastss	16(%rsi), %ymm4
	vbroadcastss	20(%rsi), %ymm5
	vbroadcastss	24(%rsi), %ymm6
	vbroadcastss	28(%rsi), %ymm7
	vmovups	%ymm0, (%rdi)
	vmovups	%ymm1, 32(%rdi)
	vmovups	%ymm2, 64(%rdi)
	vmovups	%ymm3, 96(%rdi)
	vmovups	%ymm4, 128(%rdi)
	vmovups	%ymm5, 160(%rdi)
	vmovups	%ymm6, 192(%rdi)
	vmovups	%ymm7, 224(%rdi)
	movq	%rbp, %rsp
	popq	%rbp
	.cfi_def_cfa %rsp, 8
	vzeroupper
	retq
	SIZE("keyed_blake3::chunks::key_of_each::<#a9687390e0dd665c>")
	.cfi_endproc

SIZED(4, 2)
	.p2align	2, 0x0
D(CPI17_0):
	.long	1779033703
D(CPI17_1):
	.long	3144134277
D(CPI17_2):
	.long	1013904242
D(CPI17_3):
	.long	2773480762
CODE(".text.keyed_blake3::compression::lanes::take_in_each::<#a9687390e0dd665c>")
	.p2align	4
	TYPE("keyed_blake3::compression::lanes::take_in_each::<#a9687390e0dd665c>", function)
"keyed_blake3::compression::lanes::take_in_each::<#a9687390e0dd665c>":
	.cfi_startproc
	pushq	%rbp
	.cfi_def_cfa_offset 16
	.cfi_offset %rbp, -16
	movq	%rsp, %rbp
	.cfi_def_cfa_register %rbp
	andq	$-64, %rsp
	subq	$64, %rsp
	vmovdqu	128(%rdi), %ymm5
	vmovdqu	160(%rdi), %ymm6
	vmovdqu	192(%rdi), %ymm7
	vmovdqu	224(%rdi), %ymm9
	vmovdqu	128(%rsi), %ymm0
	vmovdqu	192(%rsi), %ymm3
	vpaddd	(%rdi), %ymm5, %ymm10
	vmovdqu	(%rsi), %ymm4
	vmovdqu	32(%rsi), %ymm8
	vmovdqu	64(%rsi), %ymm2
	vmovdqu	96(%rsi), %ymm1
	vpaddd	%ymm4, %ymm10, %ymm10
	vpaddd	32(%rdi), %ymm6, %ymm11
	vpaddd	%ymm2, %ymm11, %ymm12
	vpaddd	64(%rdi), %ymm7, %ymm11
	vpaddd	96(%rdi), %ymm9, %ymm13
	vpaddd	%ymm0, %ymm11, %ymm14
	vpaddd	%ymm3, %ymm13, %ymm13
	vprold	$16, %ymm10, %ymm15
	vprold	$16, %ymm12, %ymm16
	vpxor	(%rdx), %ymm14, %ymm11
	vpxorq	(%rcx), %ymm13, %ymm17
	vprold	$16, %ymm11, %ymm18
	vprold	$16, %ymm17, %ymm17
	vpaddd	D(CPI17_0)(%rip){1to8}, %ymm15, %ymm19
	vpaddd	D(CPI17_1)(%rip){1to8}, %ymm16, %ymm20
	vpaddd	D(CPI17_2)(%rip){1to8}, %ymm18, %ymm21
	vpaddd	D(CPI17_3)(%rip){1to8}, %ymm17, %ymm22
	vpxord	%ymm5, %ymm19, %ymm5
	vpxord	%ymm6, %ymm20, %ymm6
	vpxord	%ymm7, %ymm21, %ymm7
	vpxord	%ymm9, %ymm22, %ymm9
	vprold	$20, %ymm5, %ymm23
	vprold	$20, %ymm6, %ymm6
	vprold	$20, %ymm7, %ymm7
	vprold	$20, %ymm9, %ymm9
	vmovdqu	160(%rsi), %ymm11
	vmovdqu	224(%rsi), %ymm5
	vpaddd	%ymm10, %ymm8, %ymm10
	vpaddd	%ymm23, %ymm10, %ymm10
	vpaddd	%ymm1, %ymm12, %ymm12
	vpaddd	%ymm6, %ymm12, %ymm24
	vpaddd	%ymm14, %ymm11, %ymm12
	vpaddd	%ymm7, %ymm12, %ymm14
	vpaddd	%ymm5, %ymm13, %ymm12
	vpaddd	%ymm9, %ymm12, %ymm13
	vpxor	%ymm10, %ymm15, %ymm12
	vprold	$24, %ymm12, %ymm15
	vpxorq	%ymm24, %ymm16, %ymm12
	vprold	$24, %ymm12, %ymm16
	vpxorq	%ymm14, %ymm18, %ymm12
	vprold	$24, %ymm12, %ymm18
	vpxorq	%ymm13, %ymm17, %ymm12
	vprold	$24, %ymm12, %ymm17
	vpaddd	%ymm15, %ymm19, %ymm19
	vpaddd	%ymm16, %ymm20, %ymm20
	vpaddd	%ymm18, %ymm21, %ymm21
	vpaddd	%ymm17, %ymm22, %ymm22
	vpxord	%ymm23, %ymm19, %ymm12
	vpxord	%ymm6, %ymm20, %ymm6
	vpxord	%ymm7, %ymm21, %ymm7
	vpxord	%ymm9, %ymm22, %ymm9
	vprold	$25, %ymm12, %ymm23
	vprold	$25, %ymm6, %ymm25
	vprold	$25, %ymm7, %ymm26
	vprold	$25, %ymm9, %ymm27
	vmovdqu	448(%rsi), %ymm9
	vmovdqu	256(%rsi), %ymm12
	vmovdqu	320(%rsi), %ymm7
	vmovdqu	384(%rsi), %ymm6
	vpaddd	%ymm23, %ymm9, %ymm28
	vpaddd	%ymm28, %ymm13, %ymm28
	vpaddd	%ymm12, %ymm10, %ymm10
	vpaddd	%ymm25, %ymm10, %ymm29
	vpaddd	%ymm7, %ymm24, %ymm10
	vpaddd	%ymm26, %ymm10, %ymm24
	vpaddd	%ymm6, %ymm14, %ymm10
	vpaddd	%ymm27, %ymm10, %ymm30
	vpxorq	%ymm28, %ymm18, %ymm10
	vprold	$16, %ymm10, %ymm18
	vpxorq	%ymm29, %ymm17, %ymm10
	vprold	$16, %ymm10, %ymm17
	vpxorq	%ymm24, %ymm15, %ymm10
	vprold	$16, %ymm10, %ymm31
	vpxorq	%ymm30, %ymm16, %ymm10
	vprold	$16, %ymm10, %ymm16
	vpaddd	%ymm18, %ymm20, %ymm20
	vpaddd	%ymm17, %ymm21, %ymm21
	vpaddd	%ymm31, %ymm22, %ymm22
	vpaddd	%ymm16, %ymm19, %ymm19
	vpxord	%ymm23, %ymm20, %ymm10
	vpxord	%ymm25, %ymm21, %ymm13
	vpxord	%ymm26, %ymm22, %ymm14
	vpxord	%ymm27, %ymm19, %ymm15
	vprold	$20, %ymm10, %ymm23
	vprold	$20, %ymm13, %ymm25
	vprold	$20, %ymm14, %ymm26
	vprold	$20, %ymm15, %ymm27
	vmovdqu	480(%rsi), %ymm14
	vmovdqu	288(%rsi), %ymm13
	vmovdqu	352(%rsi), %ymm15
	vmovdqu	416(%rsi), %ymm10
	vpaddd	%ymm14, %ymm28, %ymm28
	vpaddd	%ymm23, %ymm28, %ymm28
	vpaddd	%ymm13, %ymm29, %ymm29
	vpaddd	%ymm25, %ymm29, %ymm29
	vpaddd	%ymm15, %ymm24, %ymm24
	vpaddd	%ymm26, %ymm24, %ymm24
	vpaddd	%ymm10, %ymm30, %ymm30
	vpaddd	%ymm27, %ymm30, %ymm30
	vpxorq	%ymm28, %ymm18, %ymm18
	vprold	$24, %ymm18, %ymm18
	vpxorq	%ymm29, %ymm17, %ymm17
	vprold	$24, %ymm17, %ymm17
	vpxorq	%ymm24, %ymm31, %ymm31
	vprold	$24, %ymm31, %ymm31
	vpxorq	%ymm30, %ymm16, %ymm16
	vprold	$24, %ymm16, %ymm16
	vpaddd	%ymm18, %ymm20, %ymm20
	vpaddd	%ymm17, %ymm21, %ymm21
	vpaddd	%ymm31, %ymm22, %ymm22
	vpaddd	%ymm16, %ymm19, %ymm19
	vpxord	%ymm23, %ymm20, %ymm23
	vpxord	%ymm25, %ymm21, %ymm25
	vpxord	%ymm26, %ymm22, %ymm26
	vpxord	%ymm27, %ymm19, %ymm27
	vprold	$25, %ymm23, %ymm23
	vprold	$25, %ymm25, %ymm25
	vprold	$25, %ymm26, %ymm26
	vprold	$25, %ymm27, %ymm27
	vpaddd	%ymm2, %ymm29, %ymm29
	vpaddd	%ymm23, %ymm29, %ymm29
	vpaddd	%ymm1, %ymm24, %ymm24
	vpaddd	%ymm25, %ymm24, %ymm24
	vpaddd	%ymm5, %ymm30, %ymm30
	vpaddd	%ymm26, %ymm30, %ymm30
	vpaddd	%ymm0, %ymm28, %ymm28
	vpaddd	%ymm27, %ymm28, %ymm28
	vpxorq	%ymm29, %ymm31, %ymm31
	vprold	$16, %ymm31, %ymm31
	vpxorq	%ymm24, %ymm16, %ymm16
	vprold	$16, %ymm16, %ymm16
	vpxorq	%ymm30, %ymm18, %ymm18
	vprold	$16, %ymm18, %ymm18
	vpxorq	%ymm28, %ymm17, %ymm17
	vprold	$16, %ymm17, %ymm17
	vpaddd	%ymm31, %ymm19, %ymm19
	vpaddd	%ymm16, %ymm20, %ymm20
	vpaddd	%ymm18, %ymm21, %ymm21
	vpaddd	%ymm17, %ymm22, %ymm22
	vpxord	%ymm23, %ymm19, %ymm23
	vpxord	%ymm25, %ymm20, %ymm25
	vpxord	%ymm26, %ymm21, %ymm26
	vpxord	%ymm27, %ymm22, %ymm27
	vprold	$20, %ymm23, %ymm23
	vprold	$20, %ymm25, %ymm25
	vprold	$20, %ymm26, %ymm26
	vprold	$20, %ymm27, %ymm27
	vpaddd	%ymm3, %ymm29, %ymm29
	vpaddd	%ymm23, %ymm29, %ymm29
	vpaddd	%ymm7, %ymm24, %ymm24
	vpaddd	%ymm25, %ymm24, %ymm24
	vpaddd	%ymm4, %ymm30, %ymm30
	vpaddd	%ymm26, %ymm30, %ymm30
	vpaddd	%ymm10, %ymm28, %ymm28
	vpaddd	%ymm27, %ymm28, %ymm28
	vpxorq	%ymm29, %ymm31, %ymm31
	vprold	$24, %ymm31, %ymm31
	vpxorq	%ymm24, %ymm16, %ymm16
	vprold	$24, %ymm16, %ymm16
	vpxorq	%ymm30, %ymm18, %ymm18
	vprold	$24, %ymm18, %ymm18
	vpxorq	%ymm28, %ymm17, %ymm17
	vprold	$24, %ymm17, %ymm17
	vpaddd	%ymm31, %ymm19, %ymm19
	vpaddd	%ymm16, %ymm20, %ymm20
	vpaddd	%ymm18, %ymm21, %ymm21
	vpaddd	%ymm17, %ymm22, %ymm22
	vpxord	%ymm23, %ymm19, %ymm23
	vpxord	%ymm25, %ymm20, %ymm25
	vpxord	%ymm26, %ymm21, %ymm26
	vpxord	%ymm27, %ymm22, %ymm27
	vprold	$25, %ymm23, %ymm23
	vprold	$25, %ymm25, %ymm25
	vprold	$25, %ymm26, %ymm26
	vprold	$25, %ymm27, %ymm27
	vpaddd	%ymm14, %ymm28, %ymm28
	vpaddd	%ymm23, %ymm28, %ymm28
	vpaddd	%ymm8, %ymm29, %ymm29
	vpaddd	%ymm25, %ymm29, %ymm29
	vpaddd	%ymm6, %ymm24, %ymm24
	vpaddd	%ymm26, %ymm24, %ymm24
	vpaddd	%ymm13, %ymm30, %ymm30
	vpaddd	%ymm27, %ymm30, %ymm30
	vpxorq	%ymm28, %ymm18, %ymm18
	vprold	$16, %ymm18, %ymm18
	vpxorq	%ymm29, %ymm17, %ymm17
	vprold	$16, %ymm17, %ymm17
	vpxorq	%ymm24, %ymm31, %ymm31
	vprold	$16, %ymm31, %ymm31
	vpxorq	%ymm30, %ymm16, %ymm16
	vprold	$16, %ymm16, %ymm16
	vpaddd	%ymm18, %ymm20, %ymm20
	vpaddd	%ymm17, %ymm21, %ymm21
	vpaddd	%ymm31, %ymm22, %ymm22
	vpaddd	%ymm16, %ymm19, %ymm19
	vpxord	%ymm23, %ymm20, %ymm23
	vpxord	%ymm25, %ymm21, %ymm25
	vpxord	%ymm26, %ymm22, %ymm26
	vpxord	%ymm27, %ymm19, %ymm27
	vprold	$20, %ymm23, %ymm23
	vprold	$20, %ymm25, %ymm25
	vprold	$20, %ymm26, %ymm26
	vprold	$20, %ymm27, %ymm27
	vpaddd	%ymm12, %ymm28, %ymm28
	vpaddd	%ymm23, %ymm28, %ymm28
	vpaddd	%ymm15, %ymm29, %ymm29
	vpaddd	%ymm25, %ymm29, %ymm29
	vpaddd	%ymm11, %ymm24, %ymm24
	vpaddd	%ymm26, %ymm24, %ymm24
	vpaddd	%ymm9, %ymm30, %ymm30
	vpaddd	%ymm27, %ymm30, %ymm30
	vpxorq	%ymm28, %ymm18, %ymm18
	vprold	$24, %ymm18, %ymm18
	vpxorq	%ymm29, %ymm17, %ymm17
	vprold	$24, %ymm17, %ymm17
	vpxorq	%ymm24, %ymm31, %ymm31
	vprold	$24, %ymm31, %ymm31
	vpxorq	%ymm30, %ymm16, %ymm16
	vprold	$24, %ymm16, %ymm16
	vpaddd	%ymm18, %ymm20, %ymm20
	vpaddd	%ymm17, %ymm21, %ymm21
	vpaddd	%ymm31, %ymm22, %ymm22
	vpaddd	%ymm16, %ymm19, %ymm19
	vpxord	%ymm23, %ymm20, %ymm23
	vpxord	%ymm25, %ymm21, %ymm25
	vpxord	%ymm26, %ymm22, %ymm26
	vpxord	%ymm27, %ymm19, %ymm27
	vprold	$25, %ymm23, %ymm23
	vprold	$25, %ymm25, %ymm25
	vprold	$25, %ymm26, %ymm26
	vprold	$25, %ymm27, %ymm27
	vpaddd	%ymm1, %ymm29, %ymm29
	vpaddd	%ymm23, %ymm29, %ymm29
	vpaddd	%ymm7, %ymm24, %ymm24
	vpaddd	%ymm25, %ymm24, %ymm24
	vpaddd	%ymm10, %ymm30, %ymm30
	vpaddd	%ymm26, %ymm30, %ymm30
	vpaddd	%ymm5, %ymm28, %ymm28
	vpaddd	%ymm27, %ymm28, %ymm28
	vpxorq	%ymm29, %ymm31, %ymm31
	vprold	$16, %ymm31, %ymm31
	vpxorq	%ymm24, %ymm16, %ymm16
	vprold	$16, %ymm16, %ymm16
	vpxorq	%ymm30, %ymm18, %ymm18
	vprold	$16, %ymm18, %ymm18
	vpxorq	%ymm28, %ymm17, %ymm17
	vprold	$16, %ymm17, %ymm17
	vpaddd	%ymm31, %ymm19, %ymm19
	vpaddd	%ymm16, %ymm20, %ymm20
	vpaddd	%ymm18, %ymm21, %ymm21
	vpaddd	%ymm17, %ymm22, %ymm22
	vpxord	%ymm23, %ymm19, %ymm23
	vpxord	%ymm25, %ymm20, %ymm25
	vpxord	%ymm26, %ymm21, %ymm26
	vpxord	%ymm27, %ymm22, %ymm27
	vprold	$20, %ymm23, %ymm23
	vprold	$20, %ymm25, %ymm25
	vprold	$20, %ymm26, %ymm26
	vprold	$20, %ymm27, %ymm27
	vpaddd	%ymm0, %ymm29, %ymm29
	vpaddd	%ymm23, %ymm29, %ymm29
	vpaddd	%ymm6, %ymm24, %ymm24
	vpaddd	%ymm25, %ymm24, %ymm24
	vpaddd	%ymm2, %ymm30, %ymm30
	vpaddd	%ymm26, %ymm30, %ymm30
	vpaddd	%ymm9, %ymm28, %ymm28
	vpaddd	%ymm27, %ymm28, %ymm28
	vpxorq	%ymm29, %ymm31, %ymm31
	vprold	$24, %ymm31, %ymm31
	vpxorq	%ymm24, %ymm16, %ymm16
	vprold	$24, %ymm16, %ymm16
	vpxorq	%ymm30, %ymm18, %ymm18
	vprold	$24, %ymm18, %ymm18
	vpxorq	%ymm28, %ymm17, %ymm17
	vprold	$24, %ymm17, %ymm17
	vpaddd	%ymm31, %ymm19, %ymm19
	vpaddd	%ymm16, %ymm20, %ymm20
	vpaddd	%ymm18, %ymm21, %ymm21
	vpaddd	%ymm17, %ymm22, %ymm22
	vpxord	%ymm23, %ymm19, %ymm23
	vpxord	%ymm25, %ymm20, %ymm25
	vpxord	%ymm26, %ymm21, %ymm26
	vpxord	%ymm27, %ymm22, %ymm27
	vprold	$25, %ymm23, %ymm23
	vprold	$25, %ymm25, %ymm25
	vprold	$25, %ymm26, %ymm26
	vprold	$25, %ymm27, %ymm27
	vpaddd	%ymm12, %ymm28, %ymm28
	vpaddd	%ymm23, %ymm28, %ymm28
	vpaddd	%ymm3, %ymm29, %ymm29
	vpaddd	%ymm25, %ymm29, %ymm29
	vpaddd	%ymm13, %ymm24, %ymm24
	vpaddd	%ymm26, %ymm24, %ymm24
	vpaddd	%ymm15, %ymm30, %ymm30
	vpaddd	%ymm27, %ymm30, %ymm30
	vpxorq	%ymm28, %ymm18, %ymm18
	vprold	$16, %ymm18, %ymm18
	vpxorq	%ymm29, %ymm17, %ymm17
	vprold	$16, %ymm17, %ymm17
	vpxorq	%ymm24, %ymm31, %ymm31
	vprold	$16, %ymm31, %ymm31
	vpxorq	%ymm30, %ymm16, %ymm16
	vprold	$16, %ymm16, %ymm16
	vpaddd	%ymm18, %ymm20, %ymm20
	vpaddd	%ymm17, %ymm21, %ymm21
	vpaddd	%ymm31, %ymm22, %ymm22
	vpaddd	%ymm16, %ymm19, %ymm19
	vpxord	%ymm23, %ymm20, %ymm23
	vpxord	%ymm25, %ymm21, %ymm25
	vpxord	%ymm26, %ymm22, %ymm26
	vpxord	%ymm27, %ymm19, %ymm27
	vprold	$20, %ymm23, %ymm23
	vprold	$20, %ymm25, %ymm25
	vprold	$20, %ymm26, %ymm26
	vprold	$20, %ymm27, %ymm27
	vpaddd	%ymm8, %ymm28, %ymm28
	vpaddd	%ymm23, %ymm28, %ymm28
	vpaddd	%ymm11, %ymm29, %ymm29
	vpaddd	%ymm25, %ymm29, %ymm29
	vpaddd	%ymm4, %ymm24, %ymm24
	vpaddd	%ymm26, %ymm24, %ymm24
	vpaddd	%ymm14, %ymm30, %ymm30
	vpaddd	%ymm27, %ymm30, %ymm30
	vpxorq	%ymm28, %ymm18, %ymm18
	vprold	$24, %ymm18, %ymm18
	vpxorq	%ymm29, %ymm17, %ymm17
	vprold	$24, %ymm17, %ymm17
	vpxorq	%ymm24, %ymm31, %ymm31
	vprold	$24, %ymm31, %ymm31
	vpxorq	%ymm30, %ymm16, %ymm16
	vprold	$24, %ymm16, %ymm16
	vpaddd	%ymm18, %ymm20, %ymm20
	vpaddd	%ymm17, %ymm21, %ymm21
	vpaddd	%ymm31, %ymm22, %ymm22
	vpaddd	%ymm16, %ymm19, %ymm19
	vpxord	%ymm23, %ymm20, %ymm23
	vpxord	%ymm25, %ymm21, %ymm25
	vpxord	%ymm26, %ymm22, %ymm26
	vpxord	%ymm27, %ymm19, %ymm27
	vprold	$25, %ymm23, %ymm23
	vprold	$25, %ymm25, %ymm25
	vprold	$25, %ymm26, %ymm26
	vprold	$25, %ymm27, %ymm27
	vpaddd	%ymm7, %ymm29, %ymm29
	vpaddd	%ymm23, %ymm29, %ymm29
	vpaddd	%ymm6, %ymm24, %ymm24
	vpaddd	%ymm25, %ymm24, %ymm24
	vpaddd	%ymm9, %ymm30, %ymm30
	vpaddd	%ymm26, %ymm30, %ymm30
	vpaddd	%ymm10, %ymm28, %ymm28
	vpaddd	%ymm27, %ymm28, %ymm28
	vpxorq	%ymm29, %ymm31, %ymm31
	vprold	$16, %ymm31, %ymm31
	vpxorq	%ymm24, %ymm16, %ymm16
	vprold	$16, %ymm16, %ymm16
	vpxorq	%ymm30, %ymm18, %ymm18
	vprold	$16, %ymm18, %ymm18
	vpxorq	%ymm28, %ymm17, %ymm17
	vprold	$16, %ymm17, %ymm17
	vpaddd	%ymm31, %ymm19, %ymm19
	vpaddd	%ymm16, %ymm20, %ymm20
	vpaddd	%ymm18, %ymm21, %ymm21
	vpaddd	%ymm17, %ymm22, %ymm22
	vpxord	%ymm23, %ymm19, %ymm23
	vpxord	%ymm25, %ymm20, %ymm25
	vpxord	%ymm26, %ymm21, %ymm26
	vpxord	%ymm27, %ymm22, %ymm27
	vprold	$20, %ymm23, %ymm23
	vprold	$20, %ymm25, %ymm25
	vprold	$20, %ymm26, %ymm26
	vprold	$20, %ymm27, %ymm27
	vpaddd	%ymm5, %ymm29, %ymm29
	vpaddd	%ymm23, %ymm29, %ymm29
	vpaddd	%ymm13, %ymm24, %ymm24
	vpaddd	%ymm25, %ymm24, %ymm24
	vpaddd	%ymm1, %ymm30, %ymm30
	vpaddd	%ymm26, %ymm30, %ymm30
	vpaddd	%ymm14, %ymm28, %ymm28
	vpaddd	%ymm27, %ymm28, %ymm28
	vpxorq	%ymm29, %ymm31, %ymm31
	vprold	$24, %ymm31, %ymm31
	vpxorq	%ymm24, %ymm16, %ymm16
	vprold	$24, %ymm16, %ymm16
	vpxorq	%ymm30, %ymm18, %ymm18
	vprold	$24, %ymm18, %ymm18
	vpxorq	%ymm28, %ymm17, %ymm17
	vprold	$24, %ymm17, %ymm17
	vpaddd	%ymm31, %ymm19, %ymm19
	vpaddd	%ymm16, %ymm20, %ymm20
	vpaddd	%ymm18, %ymm21, %ymm21
	vpaddd	%ymm17, %ymm22, %ymm22
	vpxord	%ymm23, %ymm19, %ymm23
	vpxord	%ymm25, %ymm20, %ymm25
	vpxord	%ymm26, %ymm21, %ymm26
	vpxord	%ymm27, %ymm22, %ymm27
	vprold	$25, %ymm23, %ymm23
	vprold	$25, %ymm25, %ymm25
	vprold	$25, %ymm26, %ymm26
	vprold	$25, %ymm27, %ymm27
	vpaddd	%ymm8, %ymm28, %ymm28
	vpaddd	%ymm23, %ymm28, %ymm28
	vpaddd	%ymm0, %ymm29, %ymm29
	vpaddd	%ymm25, %ymm29, %ymm29
	vpaddd	%ymm15, %ymm24, %ymm24
	vpaddd	%ymm26, %ymm24, %ymm24
	vpaddd	%ymm11, %ymm30, %ymm30
	vpaddd	%ymm27, %ymm30, %ymm30
	vpxorq	%ymm28, %ymm18, %ymm18
	vprold	$16, %ymm18, %ymm18
	vpxorq	%ymm29, %ymm17, %ymm17
	vprold	$16, %ymm17, %ymm17
	vpxorq	%ymm24, %ymm31, %ymm31
	vprold	$16, %ymm31, %ymm31
	vpxorq	%ymm30, %ymm16, %ymm16
	vprold	$16, %ymm16, %ymm16
	vpaddd	%ymm18, %ymm20, %ymm20
	vpaddd	%ymm17, %ymm21, %ymm21
	vpaddd	%ymm31, %ymm22, %ymm22
	vpaddd	%ymm16, %ymm19, %ymm19
	vpxord	%ymm23, %ymm20, %ymm23
	vpxord	%ymm25, %ymm21, %ymm25
	vpxord	%ymm26, %ymm22, %ymm26
	vpxord	%ymm27, %ymm19, %ymm27
	vprold	$20, %ymm23, %ymm23
	vprold	$20, %ymm25, %ymm25
	vprold	$20, %ymm26, %ymm26
	vprold	$20, %ymm27, %ymm27
	vpaddd	%ymm3, %ymm28, %ymm28
	vpaddd	%ymm23, %ymm28, %ymm28
	vpaddd	%ymm4, %ymm29, %ymm29
	vpaddd	%ymm25, %ymm29, %ymm29
	vpaddd	%ymm2, %ymm24, %ymm24
	vpaddd	%ymm26, %ymm24, %ymm24
	vpaddd	%ymm12, %ymm30, %ymm30
	vpaddd	%ymm27, %ymm30, %ymm30
	vpxorq	%ymm28, %ymm18, %ymm18
	vprold	$24, %ymm18, %ymm18
	vpxorq	%ymm29, %ymm17, %ymm17
	vprold	$24, %ymm17, %ymm17
	vpxorq	%ymm24, %ymm31, %ymm31
	vprold	$24, %ymm31, %ymm31
	vpxorq	%ymm30, %ymm16, %ymm16
	vprold	$24, %ymm16, %ymm16
	vpaddd	%ymm18, %ymm20, %ymm20
	vpaddd	%ymm17, %ymm21, %ymm21
	vpaddd	%ymm31, %ymm22, %ymm22
	vpaddd	%ymm16, %ymm19, %ymm19
	vpxord	%ymm23, %ymm20, %ymm23
	vpxord	%ymm25, %ymm21, %ymm25
	vpxord	%ymm26, %ymm22, %ymm26
	vpxord	%ymm27, %ymm19, %ymm27
	vprold	$25, %ymm23, %ymm23
	vprold	$25, %ymm25, %ymm25
	vprold	$25, %ymm26, %ymm26
	vprold	$25, %ymm27, %ymm27
	vpaddd	%ymm6, %ymm29, %ymm29
	vpaddd	%ymm23, %ymm29, %ymm29
	vpaddd	%ymm13, %ymm24, %ymm24
	vpaddd	%ymm25, %ymm24, %ymm24
	vpaddd	%ymm14, %ymm30, %ymm30
	vpaddd	%ymm26, %ymm30, %ymm30
	vpaddd	%ymm9, %ymm28, %ymm28
	vpaddd	%ymm27, %ymm28, %ymm28
	vpxorq	%ymm29, %ymm31, %ymm31
	vprold	$16, %ymm31, %ymm31
	vpxorq	%ymm24, %ymm16, %ymm16
	vprold	$16, %ymm16, %ymm16
	vpxorq	%ymm30, %ymm18, %ymm18
	vprold	$16, %ymm18, %ymm18
	vpxorq	%ymm28, %ymm17, %ymm17
	vprold	$16, %ymm17, %ymm17
	vpaddd	%ymm31, %ymm19, %ymm19
	vpaddd	%ymm16, %ymm20, %ymm20
	vpaddd	%ymm18, %ymm21, %ymm21
	vpaddd	%ymm17, %ymm22, %ymm22
	vpxord	%ymm23, %ymm19, %ymm23
	vpxord	%ymm25, %ymm20, %ymm25
	vpxord	%ymm26, %ymm21, %ymm26
	vpxord	%ymm27, %ymm22, %ymm27
	vprold	$20, %ymm23, %ymm23
	vprold	$20, %ymm25, %ymm25
	vprold	$20, %ymm26, %ymm26
	vprold	$20, %ymm27, %ymm27
	vpaddd	%ymm10, %ymm29, %ymm29
	vpaddd	%ymm23, %ymm29, %ymm29
	vpaddd	%ymm15, %ymm24, %ymm24
	vpaddd	%ymm25, %ymm24, %ymm24
	vpaddd	%ymm7, %ymm30, %ymm30
	vpaddd	%ymm26, %ymm30, %ymm30
	vpaddd	%ymm12, %ymm28, %ymm28
	vpaddd	%ymm27, %ymm28, %ymm28
	vpxorq	%ymm29, %ymm31, %ymm31
	vprold	$24, %ymm31, %ymm31
	vpxorq	%ymm24, %ymm16, %ymm16
	vprold	$24, %ymm16, %ymm16
	vpxorq	%ymm30, %ymm18, %ymm18
	vprold	$24, %ymm18, %ymm18
	vpxorq	%ymm28, %ymm17, %ymm17
	vprold	$24, %ymm17, %ymm17
	vpaddd	%ymm31, %ymm19, %ymm19
	vpaddd	%ymm16, %ymm20, %ymm20
	vpaddd	%ymm18, %ymm21, %ymm21
	vpaddd	%ymm17, %ymm22, %ymm22
	vpxord	%ymm23, %ymm19, %ymm23
	vpxord	%ymm25, %ymm20, %ymm25
	vpxord	%ymm26, %ymm21, %ymm26
	vpxord	%ymm27, %ymm22, %ymm27
	vprold	$25, %ymm23, %ymm23
	vprold	$25, %ymm25, %ymm25
	vprold	$25, %ymm26, %ymm26
	vprold	$25, %ymm27, %ymm27
	vpaddd	%ymm3, %ymm28, %ymm28
	vpaddd	%ymm23, %ymm28, %ymm28
	vpaddd	%ymm5, %ymm29, %ymm29
	vpaddd	%ymm25, %ymm29, %ymm29
	vpaddd	%ymm11, %ymm24, %ymm24
	vpaddd	%ymm26, %ymm24, %ymm24
	vpaddd	%ymm4, %ymm30, %ymm30
	vpaddd	%ymm27, %ymm30, %ymm30
	vpxorq	%ymm28, %ymm18, %ymm18
	vprold	$16, %ymm18, %ymm18
	vpxorq	%ymm29, %ymm17, %ymm17
	vprold	$16, %ymm17, %ymm17
	vpxorq	%ymm24, %ymm31, %ymm31
	vprold	$16, %ymm31, %ymm31
	vpxorq	%ymm30, %ymm16, %ymm16
	vprold	$16, %ymm16, %ymm16
	vpaddd	%ymm18, %ymm20, %ymm20
	vpaddd	%ymm17, %ymm21, %ymm21
	vpaddd	%ymm31, %ymm22, %ymm22
	vpaddd	%ymm16, %ymm19, %ymm19
	vpxord	%ymm23, %ymm20, %ymm23
	vpxord	%ymm25, %ymm21, %ymm25
	vpxord	%ymm26, %ymm22, %ymm26
	vpxord	%ymm27, %ymm19, %ymm27
	vprold	$20, %ymm23, %ymm23
	vprold	$20, %ymm25, %ymm25
	vprold	$20, %ymm26, %ymm26
	vprold	$20, %ymm27, %ymm27
	vpaddd	%ymm0, %ymm28, %ymm28
	vpaddd	%ymm23, %ymm28, %ymm28
	vpaddd	%ymm2, %ymm29, %ymm29
	vpaddd	%ymm25, %ymm29, %ymm29
	vpaddd	%ymm1, %ymm24, %ymm24
	vpaddd	%ymm26, %ymm24, %ymm24
	vpaddd	%ymm8, %ymm30, %ymm30
	vpaddd	%ymm27, %ymm30, %ymm30
	vpxorq	%ymm28, %ymm18, %ymm18
	vprold	$24, %ymm18, %ymm18
	vpxorq	%ymm29, %ymm17, %ymm17
	vprold	$24, %ymm17, %ymm17
	vpxorq	%ymm24, %ymm31, %ymm31
	vprold	$24, %ymm31, %ymm31
	vpxorq	%ymm30, %ymm16, %ymm16
	vprold	$24, %ymm16, %ymm16
	vpaddd	%ymm18, %ymm20, %ymm20
	vpaddd	%ymm17, %ymm21, %ymm21
	vpaddd	%ymm31, %ymm22, %ymm22
	vpaddd	%ymm16, %ymm19, %ymm19
	vpxord	%ymm23, %ymm20, %ymm23
	vpxord	%ymm25, %ymm21, %ymm25
	vpxord	%ymm26, %ymm22, %ymm26
	vpxord	%ymm27, %ymm19, %ymm27
	vprold	$25, %ymm23, %ymm23
	vprold	$25, %ymm25, %ymm25
	vprold	$25, %ymm26, %ymm26
	vprold	$25, %ymm27, %ymm27
	vpaddd	%ymm13, %ymm29, %ymm29
	vpaddd	%ymm23, %ymm29, %ymm29
	vpaddd	%ymm15, %ymm24, %ymm24
	vpaddd	%ymm25, %ymm24, %ymm24
	vpaddd	%ymm12, %ymm30, %ymm30
	vpaddd	%ymm26, %ymm30, %ymm30
	vpaddd	%ymm14, %ymm28, %ymm28
	vpaddd	%ymm27, %ymm28, %ymm28
	vpxorq	%ymm29, %ymm31, %ymm31
	vprold	$16, %ymm31, %ymm31
	vpxorq	%ymm24, %ymm16, %ymm16
	vprold	$16, %ymm16, %ymm16
	vpxorq	%ymm30, %ymm18, %ymm18
	vprold	$16, %ymm18, %ymm18
	vpxorq	%ymm28, %ymm17, %ymm17
	vprold	$16, %ymm17, %ymm17
	vpaddd	%ymm31, %ymm19, %ymm19
	vpaddd	%ymm16, %ymm20, %ymm20
	vpaddd	%ymm18, %ymm21, %ymm21
	vpaddd	%ymm17, %ymm22, %ymm22
	vpxord	%ymm23, %ymm19, %ymm23
	vpxord	%ymm25, %ymm20, %ymm25
	vpxord	%ymm26, %ymm21, %ymm26
	vpxord	%ymm27, %ymm22, %ymm27
	vprold	$20, %ymm23, %ymm23
	vprold	$20, %ymm25, %ymm25
	vprold	$20, %ymm26, %ymm26
	vprold	$20, %ymm27, %ymm27
	vpaddd	%ymm9, %ymm29, %ymm29
	vpaddd	%ymm23, %ymm29, %ymm29
	vpaddd	%ymm11, %ymm24, %ymm24
	vpaddd	%ymm25, %ymm24, %ymm24
	vpaddd	%ymm6, %ymm30, %ymm30
	vpaddd	%ymm26, %ymm30, %ymm30
	vpaddd	%ymm8, %ymm28, %ymm28
	vpaddd	%ymm27, %ymm28, %ymm28
	vpxorq	%ymm29, %ymm31, %ymm31
	vprold	$24, %ymm31, %ymm31
	vpxorq	%ymm24, %ymm16, %ymm16
	vprold	$24, %ymm16, %ymm16
	vpxorq	%ymm30, %ymm18, %ymm18
	vprold	$24, %ymm18, %ymm18
	vpxorq	%ymm28, %ymm17, %ymm17
	vprold	$24, %ymm17, %ymm17
	vpaddd	%ymm31, %ymm19, %ymm19
	vpaddd	%ymm16, %ymm20, %ymm20
	vpaddd	%ymm18, %ymm21, %ymm21
	vpaddd	%ymm17, %ymm22, %ymm22
	vpxord	%ymm23, %ymm19, %ymm23
	vpxord	%ymm25, %ymm20, %ymm25
	vpxord	%ymm26, %ymm21, %ymm26
	vpxord	%ymm27, %ymm22, %ymm27
	vprold	$25, %ymm23, %ymm23
	vprold	$25, %ymm25, %ymm25
	vprold	$25, %ymm26, %ymm26
	vprold	$25, %ymm27, %ymm27
	vpaddd	%ymm0, %ymm28, %ymm28
	vpaddd	%ymm23, %ymm28, %ymm28
	vpaddd	%ymm10, %ymm29, %ymm29
	vpaddd	%ymm25, %ymm29, %ymm29
	vpaddd	%ymm4, %ymm24, %ymm24
	vpaddd	%ymm26, %ymm24, %ymm24
	vpaddd	%ymm2, %ymm30, %ymm30
	vpaddd	%ymm27, %ymm30, %ymm30
	vpxorq	%ymm28, %ymm18, %ymm18
	vprold	$16, %ymm18, %ymm18
	vpxorq	%ymm29, %ymm17, %ymm17
	vprold	$16, %ymm17, %ymm17
	vpxorq	%ymm24, %ymm31, %ymm31
	vprold	$16, %ymm31, %ymm31
	vpxorq	%ymm30, %ymm16, %ymm16
	vprold	$16, %ymm16, %ymm16
	vpaddd	%ymm18, %ymm20, %ymm20
	vpaddd	%ymm17, %ymm21, %ymm21
	vpaddd	%ymm31, %ymm22, %ymm22
	vpaddd	%ymm16, %ymm19, %ymm19
	vpxord	%ymm23, %ymm20, %ymm23
	vpxord	%ymm25, %ymm21, %ymm25
	vpxord	%ymm26, %ymm22, %ymm26
	vpxord	%ymm27, %ymm19, %ymm27
	vprold	$20, %ymm23, %ymm23
	vprold	$20, %ymm25, %ymm25
	vprold	$20, %ymm26, %ymm26
	vprold	$20, %ymm27, %ymm27
	vpaddd	%ymm5, %ymm28, %ymm28
	vpaddd	%ymm23, %ymm28, %ymm28
	vpaddd	%ymm1, %ymm29, %ymm29
	vpaddd	%ymm25, %ymm29, %ymm29
	vpaddd	%ymm7, %ymm24, %ymm24
	vpaddd	%ymm26, %ymm24, %ymm24
	vpaddd	%ymm3, %ymm30, %ymm30
	vpaddd	%ymm27, %ymm30, %ymm30
	vpxorq	%ymm28, %ymm18, %ymm18
	vprold	$24, %ymm18, %ymm18
	vpxorq	%ymm29, %ymm17, %ymm17
	vprold	$24, %ymm17, %ymm17
	vpxorq	%ymm24, %ymm31, %ymm31
	vprold	$24, %ymm31, %ymm31
	vpxorq	%ymm30, %ymm16, %ymm16
	vprold	$24, %ymm16, %ymm16
	vpaddd	%ymm18, %ymm20, %ymm20
	vpaddd	%ymm17, %ymm21, %ymm21
	vpaddd	%ymm31, %ymm22, %ymm22
	vpaddd	%ymm16, %ymm19, %ymm19
	vpxord	%ymm23, %ymm20, %ymm23
	vpxord	%ymm25, %ymm21, %ymm25
	vpxord	%ymm26, %ymm22, %ymm26
	vpxord	%ymm27, %ymm19, %ymm27
	vprold	$25, %ymm23, %ymm23
	vprold	$25, %ymm25, %ymm25
	vprold	$25, %ymm26, %ymm26
	vprold	$25, %ymm27, %ymm27
	vpaddd	%ymm15, %ymm29, %ymm15
	vpaddd	%ymm23, %ymm15, %ymm15
	vpaddd	%ymm11, %ymm24, %ymm11
	vpaddd	%ymm25, %ymm11, %ymm11
	vpaddd	%ymm8, %ymm30, %ymm8
	vpaddd	%ymm26, %ymm8, %ymm8
	vpaddd	%ymm12, %ymm28, %ymm12
	vpaddd	%ymm27, %ymm12, %ymm12
	vpxorq	%ymm15, %ymm31, %ymm24
	vprold	$16, %ymm24, %ymm24
	vpxorq	%ymm11, %ymm16, %ymm16
	vprold	$16, %ymm16, %ymm16
	vpxorq	%ymm8, %ymm18, %ymm18
	vprold	$16, %ymm18, %ymm18
	vpxorq	%ymm12, %ymm17, %ymm17
	vprold	$16, %ymm17, %ymm17
	vpaddd	%ymm24, %ymm19, %ymm19
	vpaddd	%ymm16, %ymm20, %ymm20
	vpaddd	%ymm18, %ymm21, %ymm21
	vpaddd	%ymm17, %ymm22, %ymm22
	vpxord	%ymm23, %ymm19, %ymm23
	vpxord	%ymm25, %ymm20, %ymm25
	vpxord	%ymm26, %ymm21, %ymm26
	vpxord	%ymm27, %ymm22, %ymm27
	vprold	$20, %ymm23, %ymm23
	vprold	$20, %ymm25, %ymm25
	vprold	$20, %ymm26, %ymm26
	vprold	$20, %ymm27, %ymm27
	vpaddd	%ymm14, %ymm15, %ymm14
	vpaddd	%ymm23, %ymm14, %ymm14
	vpaddd	%ymm4, %ymm11, %ymm4
	vpaddd	%ymm25, %ymm4, %ymm4
	vpaddd	%ymm13, %ymm8, %ymm8
	vpaddd	%ymm26, %ymm8, %ymm8
	vpaddd	%ymm3, %ymm12, %ymm3
	vpaddd	%ymm27, %ymm3, %ymm3
	vpxorq	%ymm14, %ymm24, %ymm11
	vprold	$24, %ymm11, %ymm11
	vpxorq	%ymm4, %ymm16, %ymm12
	vprold	$24, %ymm12, %ymm12
	vpxorq	%ymm8, %ymm18, %ymm13
	vprold	$24, %ymm13, %ymm13
	vpxorq	%ymm3, %ymm17, %ymm15
	vprold	$24, %ymm15, %ymm15
	vpaddd	%ymm11, %ymm19, %ymm16
	vpaddd	%ymm12, %ymm20, %ymm17
	vpaddd	%ymm13, %ymm21, %ymm18
	vpaddd	%ymm15, %ymm22, %ymm19
	vpxord	%ymm23, %ymm16, %ymm20
	vpxord	%ymm25, %ymm17, %ymm21
	vpxord	%ymm26, %ymm18, %ymm22
	vpxord	%ymm27, %ymm19, %ymm23
	vprold	$25, %ymm20, %ymm20
	vprold	$25, %ymm21, %ymm21
	vprold	$25, %ymm22, %ymm22
	vprold	$25, %ymm23, %ymm23
	vpaddd	%ymm5, %ymm3, %ymm3
	vpaddd	%ymm20, %ymm3, %ymm3
	vpaddd	%ymm9, %ymm14, %ymm5
	vpaddd	%ymm21, %ymm5, %ymm5
	vpaddd	%ymm2, %ymm4, %ymm2
	vpaddd	%ymm22, %ymm2, %ymm2
	vpaddd	%ymm1, %ymm8, %ymm1
	vpaddd	%ymm23, %ymm1, %ymm1
	vpxor	%ymm3, %ymm13, %ymm4
	vprold	$16, %ymm4, %ymm4
	vpxor	%ymm5, %ymm15, %ymm8
	vprold	$16, %ymm8, %ymm8
	vpxor	%ymm2, %ymm11, %ymm9
	vprold	$16, %ymm9, %ymm9
	vpxor	%ymm1, %ymm12, %ymm11
	vprold	$16, %ymm11, %ymm11
	vpaddd	%ymm4, %ymm17, %ymm12
	vpaddd	%ymm8, %ymm18, %ymm13
	vpaddd	%ymm9, %ymm19, %ymm14
	vpaddd	%ymm11, %ymm16, %ymm15
	vpxord	%ymm20, %ymm12, %ymm16
	vpxord	%ymm21, %ymm13, %ymm17
	vpxord	%ymm22, %ymm14, %ymm18
	vpxord	%ymm23, %ymm15, %ymm19
	vprold	$20, %ymm16, %ymm16
	vprold	$20, %ymm17, %ymm17
	vprold	$20, %ymm18, %ymm18
	vprold	$20, %ymm19, %ymm19
	vpaddd	%ymm3, %ymm10, %ymm3
	vpaddd	%ymm16, %ymm3, %ymm3
	vpaddd	%ymm7, %ymm5, %ymm5
	vpaddd	%ymm17, %ymm5, %ymm5
	vpaddd	%ymm6, %ymm2, %ymm2
	vpaddd	%ymm18, %ymm2, %ymm2
	vpaddd	%ymm0, %ymm1, %ymm0
	vpaddd	%ymm19, %ymm0, %ymm0
	vpxor	%ymm3, %ymm4, %ymm1
	vprold	$24, %ymm1, %ymm1
	vpxor	%ymm5, %ymm8, %ymm4
	vprold	$24, %ymm4, %ymm4
	vpxor	%ymm2, %ymm9, %ymm6
	vprold	$24, %ymm6, %ymm6
	vpxor	%ymm0, %ymm11, %ymm7
	vprold	$24, %ymm7, %ymm7
	vpaddd	%ymm1, %ymm12, %ymm8
	vpaddd	%ymm4, %ymm13, %ymm9
	vpaddd	%ymm6, %ymm14, %ymm10
	vpaddd	%ymm7, %ymm15, %ymm11
	vpxord	%ymm16, %ymm8, %ymm12
	vpxord	%ymm17, %ymm9, %ymm13
	vpxord	%ymm18, %ymm10, %ymm14
	vpxord	%ymm19, %ymm11, %ymm15
	vprold	$25, %ymm12, %ymm12
	vprold	$25, %ymm13, %ymm13
	vprold	$25, %ymm14, %ymm14
	vprold	$25, %ymm15, %ymm15
	vpxor	%ymm5, %ymm11, %ymm5
	vpxor	%ymm2, %ymm8, %ymm2
	vpxor	%ymm0, %ymm9, %ymm0
	vpxor	%ymm3, %ymm10, %ymm3
	vpxor	%ymm6, %ymm12, %ymm6
	vpxor	%ymm7, %ymm13, %ymm7
	vpxor	%ymm1, %ymm14, %ymm1
	vpxor	%ymm4, %ymm15, %ymm4
	vmovdqu	%ymm5, (%rdi)
	vmovdqu	%ymm2, 32(%rdi)
	vmovdqu	%ymm0, 64(%rdi)
	vmovdqu	%ymm3, 96(%rdi)
	vmovdqu	%ymm6, 128(%rdi)
	vmovdqu	%ymm7, 160(%rdi)
	vmovdqu	%ymm1, 192(%rdi)
	vmovdqu	%ymm4, 224(%rdi)
	movq	%rbp, %rsp
	popq	%rbp
	.cfi_def_cfa %rsp, 8
	vzeroupper
	retq
	SIZE("keyed_blake3::compression::lanes::take_in_each::<#a9687390e0dd665c>")
	.cfi_endproc

SIZED(32, 5)
	.p2align	5, 0x0
D(CPI18_0):
	.zero	4
	.zero	4
	.long	64
	.long	18
	.zero	4
	.zero	4
	.long	64
	.long	18
D(CPI18_1):
	.long	0
	.long	4
	.long	1
	.long	5
	.long	2
	.long	6
	.long	3
	.long	7
D(CPI18_2):
	.long	0
	.long	0
	.long	64
	.long	20
	.long	0
	.long	0
	.long	64
	.long	20
SIZED(16, 4)
	.p2align	4, 0x0
D(CPI18_3):
	.long	0
	.long	0
	.long	64
	.long	20
CODE(".text.keyed_blake3::tree::Tree::absorb_subtrees::<#8b36ca032ac25711>")
	.p2align	4
	TYPE("keyed_blake3::tree::Tree::absorb_subtrees::<#8b36ca032ac25711>", function)
"keyed_blake3::tree::Tree::absorb_subtrees::<#8b36ca032ac25711>":
	.cfi_startproc
	pushq	%rbp
	.cfi_def_cfa_offset 16
	pushq	%r15
	.cfi_def_cfa_offset 24
	pushq	%r14
	.cfi_def_cfa_offset 32
	pushq	%r13
	.cfi_def_cfa_offset 40
	pushq	%r12
	.cfi_def_cfa_offset 48
	pushq	%rbx
	.cfi_def_cfa_offset 56
	subq	$632, %rsp
	.cfi_def_cfa_offset 688
	.cfi_offset %rbx, -56
	.cfi_offset %r12, -48
	.cfi_offset %r13, -40
	.cfi_offset %r14, -32
	.cfi_offset %r15, -24
	.cfi_offset %rbp, -16
	vxorps	%xmm2, %xmm2, %xmm2
	vmovups	%ymm2, 256(%rsp)
	vmovups	%ymm2, 224(%rsp)
	vmovups	%ymm2, 192(%rsp)
	vmovups	%ymm2, 160(%rsp)
	vmovups	%ymm2, 480(%rsp)
	movq	%r9, 520(%rsp)
	movq	%rcx, %r13
	movq	%rdx, %r14
	movq	%rsi, %r12
	vmovdqu	(%rdi), %xmm0
	vmovups	16(%rdi), %xmm1
	cmpq	$2048, %r8
	movq	%rdi, 424(%rsp)
	jne	L(18_4)
	movq	%r14, %rbp
	leaq	1024(%r13), %r14
	leaq	1(%r12), %rbx
	vinserti128	$1, %xmm0, %ymm0, %ymm0
	vinsertf128	$1, %xmm1, %ymm1, %ymm1
	vmovq	%r12, %xmm2
	movl	$64, %eax
	vmovdqu	%ymm2, 528(%rsp)
	vpinsrd	$2, %eax, %xmm2, %xmm2
	vmovdqa	%xmm2, 464(%rsp)
	vmovq	%rbx, %xmm2
	vmovdqa	%xmm2, 432(%rsp)
	vpinsrd	$2, %eax, %xmm2, %xmm2
	vmovdqa	%xmm2, 448(%rsp)
	xorl	%r15d, %r15d
	.p2align	4
L(18_2):
	cmpq	$1, %r15
	movl	$0, %eax
	adcl	$16, %eax
	vmovups	-1024(%r14,%r15), %ymm2
	vmovups	-992(%r14,%r15), %ymm3
	vmovups	%ymm2, 288(%rsp)
	vmovups	%ymm3, 320(%rsp)
	movq	%r12, 352(%rsp)
	movl	$64, 360(%rsp)
	movl	%eax, 364(%rsp)
	vmovups	(%r14,%r15), %ymm2
	vmovups	32(%r14,%r15), %ymm3
	vmovups	%ymm2, 80(%rsp)
	vmovups	%ymm3, 112(%rsp)
	movq	%rbx, 144(%rsp)
	movl	$64, 152(%rsp)
	vmovdqa	464(%rsp), %xmm2
	vpinsrd	$3, %eax, %xmm2, %xmm2
	movl	%eax, 156(%rsp)
	vmovdqa	448(%rsp), %xmm3
	vpinsrd	$3, %eax, %xmm3, %xmm3
	vinserti128	$1, %xmm3, %ymm2, %ymm2
	movq	%rsp, %rdi
	leaq	288(%rsp), %rsi
	leaq	80(%rsp), %rdx
	callq	"keyed_blake3::compression::two::compress_two_from"
	vmovdqu	(%rsp), %ymm0
	vmovups	32(%rsp), %ymm1
	addq	$64, %r15
	cmpq	$960, %r15
	jne	L(18_2)
	vmovups	960(%r13), %ymm2
	vmovups	992(%r13), %ymm3
	vmovups	%ymm2, 288(%rsp)
	vmovups	%ymm3, 320(%rsp)
	movq	%r12, 352(%rsp)
	movabsq	$77309411392, %rax
	movq	%rax, 360(%rsp)
	vmovups	1984(%r13), %ymm2
	vmovups	2016(%r13), %ymm3
	vmovups	%ymm2, 80(%rsp)
	vmovups	%ymm3, 112(%rsp)
	movq	%rbx, 144(%rsp)
	movq	%rax, 152(%rsp)
	vmovdqu	528(%rsp), %ymm2
	vinserti128	$1, 432(%rsp), %ymm2, %ymm2
	vpblendd	$204, D(CPI18_0)(%rip), %ymm2, %ymm2
	movq	%rsp, %rdi
	leaq	288(%rsp), %rsi
	leaq	80(%rsp), %rdx
	callq	"keyed_blake3::compression::two::compress_two_from"
	vmovdqa	D(CPI18_1)(%rip), %ymm1
	vpermd	32(%rsp), %ymm1, %ymm3
	vpermd	(%rsp), %ymm1, %ymm4
	xorl	%r10d, %r10d
	xorl	%r8d, %r8d
	xorl	%edi, %edi
	xorl	%esi, %esi
	xorl	%edx, %edx
	xorl	%ecx, %ecx
	xorl	%eax, %eax
	xorl	%r9d, %r9d
	movq	424(%rsp), %r15
	movq	%rbp, %r14
	jmp	L(18_5)
L(18_4):
	movq	%rdi, %r15
	vmovups	%ymm2, 384(%rsp)
	vmovups	%ymm2, 352(%rsp)
	vmovups	%ymm2, 320(%rsp)
	vmovups	%ymm2, 288(%rsp)
	shrq	$10, %r8
	xorl	%eax, %eax
	decq	%r8
	setne	%al
	cmpq	$2, %r8
	movl	$2, %ecx
	cmovbq	%r8, %rcx
	movl	$3, %edx
	cmovbeq	%r8, %rdx
	movq	$0, 80(%rsp)
	movq	%rax, 88(%rsp)
	movq	%rcx, 96(%rsp)
	movq	%rdx, 104(%rsp)
	leaq	288(%rsp), %rdi
	leaq	80(%rsp), %rdx
	movq	%r13, %rsi
	movq	%r12, %rcx
	vzeroupper
	callq	"keyed_blake3::four_chunks::four_chunk_values"
	movq	296(%rsp), %r10
	movq	312(%rsp), %r8
	movq	328(%rsp), %rdi
	movq	344(%rsp), %rsi
	movq	360(%rsp), %rdx
	movq	376(%rsp), %rcx
	movq	392(%rsp), %rax
	vmovdqu	352(%rsp), %ymm0
	vpunpcklqdq	384(%rsp), %ymm0, %ymm0
	vmovdqu	288(%rsp), %ymm1
	vpermq	$216, %ymm0, %ymm0
	vpbroadcastq	400(%rsp), %ymm2
	vpblendd	$192, %ymm2, %ymm0, %ymm3
	vpunpcklqdq	320(%rsp), %ymm1, %ymm1
	vpermq	$216, %ymm1, %ymm4
	movq	408(%rsp), %r9
L(18_5):
	vmovq	%xmm4, 160(%rsp)
	movq	%r10, 168(%rsp)
	vpextrq	$1, %xmm4, 176(%rsp)
	movq	%r8, 184(%rsp)
	vextracti128	$1, %ymm4, %xmm2
	vmovq	%xmm2, 192(%rsp)
	movq	%rdi, 200(%rsp)
	vpextrq	$1, %xmm2, 208(%rsp)
	movq	%rsi, 216(%rsp)
	vmovq	%xmm3, 224(%rsp)
	movq	%rdx, 232(%rsp)
	vpextrq	$1, %xmm3, 240(%rsp)
	movq	%rcx, 248(%rsp)
	vextracti128	$1, %ymm3, %xmm2
	vmovq	%xmm2, 256(%rsp)
	movq	%rax, 264(%rsp)
	vpextrq	$1, %xmm2, 272(%rsp)
	movq	%r9, 280(%rsp)
	cmpq	$3, %r14
	jb	L(18_15)
	movl	%r14d, %r11d
	orl	%r12d, %r11d
	andl	$1, %r11d
	jne	L(18_15)
	vbroadcasti128	(%r15), %ymm0
	vbroadcasti128	16(%r15), %ymm1
	movl	%r10d, 80(%rsp)
	shrq	$32, %r10
	movl	%r8d, 84(%rsp)
	movl	%edi, 88(%rsp)
	movl	%esi, 92(%rsp)
	movl	%edx, 96(%rsp)
	movl	%ecx, 100(%rsp)
	movl	%eax, 104(%rsp)
	movl	%r9d, 108(%rsp)
	movl	%r10d, 112(%rsp)
	shrq	$32, %r8
	movl	%r8d, 116(%rsp)
	shrq	$32, %rdi
	movl	%edi, 120(%rsp)
	shrq	$32, %rsi
	movl	%esi, 124(%rsp)
	shrq	$32, %rdx
	movl	%edx, 128(%rsp)
	shrq	$32, %rcx
	movl	%ecx, 132(%rsp)
	shrq	$32, %rax
	movl	%eax, 136(%rsp)
	shrq	$32, %r9
	vshufps	$136, %ymm3, %ymm4, %ymm2
	vpermpd	$216, %ymm2, %ymm2
	vshufps	$221, %ymm3, %ymm4, %ymm3
	vpermpd	$216, %ymm3, %ymm3
	vmovups	%ymm3, 320(%rsp)
	vmovups	%ymm2, 288(%rsp)
	movq	$0, 352(%rsp)
	movl	%r9d, 140(%rsp)
	movabsq	$85899345984, %rax
	movq	%rax, 360(%rsp)
	movq	$0, 144(%rsp)
	movq	%rax, 152(%rsp)
	vbroadcasti128	D(CPI18_3)(%rip), %ymm2
	movq	%rsp, %rdi
	leaq	288(%rsp), %rsi
	leaq	80(%rsp), %rdx
	vmovdqu	%ymm0, 592(%rsp)
	vmovdqu	%ymm1, 560(%rsp)
	callq	"keyed_blake3::compression::two::compress_two_from"
	movl	12(%rsp), %eax
	movl	%eax, 464(%rsp)
	movl	8(%rsp), %eax
	movl	%eax, 528(%rsp)
	movl	(%rsp), %r11d
	movl	4(%rsp), %r10d
	movl	44(%rsp), %eax
	movl	%eax, 448(%rsp)
	movl	40(%rsp), %eax
	movl	%eax, 432(%rsp)
	movl	36(%rsp), %eax
	movl	%eax, 76(%rsp)
	movl	32(%rsp), %esi
	movl	28(%rsp), %r8d
	movl	24(%rsp), %edi
	movl	20(%rsp), %ebx
	movl	16(%rsp), %eax
	movl	60(%rsp), %r9d
	movq	%r12, %r15
	shrq	%r15
	movq	%r14, %r13
	shrq	%r13
	movq	%r14, %rbp
	movl	56(%rsp), %r14d
	movl	52(%rsp), %ecx
	movl	48(%rsp), %edx
	cmpq	$5, %rbp
	jb	L(18_8)
	orl	%ebp, %r12d
	andl	$2, %r12d
	jne	L(18_8)
	vmovdqa	(%rsp), %xmm1
	vmovdqa	16(%rsp), %xmm0
	vinserti128	$1, 48(%rsp), %ymm0, %ymm0
	vinserti128	$1, 32(%rsp), %ymm1, %ymm1
	movq	%r15, %r12
	movq	%r13, %rbp
	.p2align	4
L(18_11):
	movq	$0, 352(%rsp)
	movabsq	$85899345984, %rax
	movq	%rax, 360(%rsp)
	vpxor	%xmm2, %xmm2, %xmm2
	vmovdqu	%ymm2, 80(%rsp)
	vmovdqu	%ymm2, 112(%rsp)
	movq	$0, 144(%rsp)
	movq	%rax, 152(%rsp)
	vmovdqu	%ymm1, 288(%rsp)
	vmovdqu	%ymm0, 320(%rsp)
	vbroadcasti128	D(CPI18_3)(%rip), %ymm2
	movq	%rsp, %rdi
	leaq	288(%rsp), %rsi
	leaq	80(%rsp), %rdx
	vmovups	592(%rsp), %ymm0
	vmovups	560(%rsp), %ymm1
	callq	"keyed_blake3::compression::two::compress_two_from"
	movl	12(%rsp), %eax
	movl	%eax, 464(%rsp)
	movl	8(%rsp), %eax
	movl	%eax, 528(%rsp)
	movl	(%rsp), %r11d
	movl	4(%rsp), %r10d
	movl	28(%rsp), %r8d
	movl	24(%rsp), %edi
	movl	20(%rsp), %ebx
	movl	16(%rsp), %eax
	movl	44(%rsp), %ecx
	movl	%ecx, 448(%rsp)
	movl	40(%rsp), %ecx
	movl	%ecx, 432(%rsp)
	movl	36(%rsp), %ecx
	movl	%ecx, 76(%rsp)
	movl	32(%rsp), %esi
	movl	60(%rsp), %r9d
	movl	56(%rsp), %r14d
	movl	52(%rsp), %ecx
	shrq	%r12
	shrq	%rbp
	movl	48(%rsp), %edx
	cmpq	$5, %r13
	jb	L(18_14)
	andl	$2, %r13d
	jne	L(18_14)
	vmovdqu	(%rsp), %ymm0
	vinserti128	$1, 32(%rsp), %ymm0, %ymm1
	vmovdqu	16(%rsp), %ymm0
	vinserti128	$1, 48(%rsp), %ymm0, %ymm0
	movq	%rbp, %r13
	andl	$2, %r15d
	movq	%r12, %r15
	je	L(18_11)
	jmp	L(18_14)
L(18_8):
	movq	%r15, %r12
	movq	%r13, %rbp
L(18_14):
	movl	%r11d, 160(%rsp)
	movl	%eax, 164(%rsp)
	movq	$0, 168(%rsp)
	movl	%r10d, 176(%rsp)
	movl	%ebx, 180(%rsp)
	movq	$0, 184(%rsp)
	movl	528(%rsp), %eax
	movl	%eax, 192(%rsp)
	movl	%edi, 196(%rsp)
	movq	$0, 200(%rsp)
	movl	464(%rsp), %eax
	movl	%eax, 208(%rsp)
	movl	%r8d, 212(%rsp)
	movq	$0, 216(%rsp)
	movl	%esi, 224(%rsp)
	movl	%edx, 228(%rsp)
	movq	$0, 232(%rsp)
	movl	76(%rsp), %eax
	movl	%eax, 240(%rsp)
	movl	%ecx, 244(%rsp)
	movq	$0, 248(%rsp)
	movl	432(%rsp), %eax
	movl	%eax, 256(%rsp)
	movl	%r14d, 260(%rsp)
	movq	$0, 264(%rsp)
	movl	448(%rsp), %eax
	movl	%eax, 272(%rsp)
	movl	%r9d, 276(%rsp)
	movq	$0, 280(%rsp)
	movq	424(%rsp), %r15
	movq	%rbp, %r14
L(18_15):
	movq	%r14, %rbp
	movq	%r14, %rbx
	decq	%rbx
	je	L(18_18)
	leaq	64(%r15), %r13
	xorl	%r14d, %r14d
	.p2align	4
L(18_17):
	movl	160(%rsp,%r14,4), %eax
	movl	176(%rsp,%r14,4), %ecx
	movl	192(%rsp,%r14,4), %edx
	movl	208(%rsp,%r14,4), %esi
	movl	224(%rsp,%r14,4), %edi
	movl	240(%rsp,%r14,4), %r8d
	movl	256(%rsp,%r14,4), %r9d
	movl	272(%rsp,%r14,4), %r10d
	movl	%eax, 288(%rsp)
	movl	%ecx, 292(%rsp)
	movl	%edx, 296(%rsp)
	movl	%esi, 300(%rsp)
	movl	%edi, 304(%rsp)
	movl	%r8d, 308(%rsp)
	movl	%r9d, 312(%rsp)
	movl	%r10d, 316(%rsp)
	leaq	(%r12,%r14), %rdx
	leaq	288(%rsp), %rcx
	movq	%r13, %rdi
	movq	%r15, %rsi
	xorl	%r8d, %r8d
	vzeroupper
	callq	"keyed_blake3::tree::add_subtree_value"
	incq	%r14
	cmpq	%r14, %rbx
	jne	L(18_17)
L(18_18):
	movl	156(%rsp,%rbp,4), %eax
	movl	172(%rsp,%rbp,4), %ecx
	movl	188(%rsp,%rbp,4), %edx
	movl	204(%rsp,%rbp,4), %esi
	movl	220(%rsp,%rbp,4), %edi
	movl	236(%rsp,%rbp,4), %r8d
	movl	252(%rsp,%rbp,4), %r9d
	movl	268(%rsp,%rbp,4), %r10d
	movl	%eax, 480(%rsp)
	movl	%ecx, 484(%rsp)
	movl	%edx, 488(%rsp)
	movl	%esi, 492(%rsp)
	movl	%edi, 496(%rsp)
	movl	%r8d, 500(%rsp)
	movl	%r9d, 504(%rsp)
	movl	%r10d, 508(%rsp)
	addq	%rbx, %r12
	leaq	64(%r15), %rdi
	leaq	480(%rsp), %rcx
	movq	%r15, %rsi
	movq	%r12, %rdx
	movq	520(%rsp), %r8
	vzeroupper
	callq	"keyed_blake3::tree::add_subtree_value"
	addq	$632, %rsp
	.cfi_def_cfa_offset 56
	popq	%rbx
	.cfi_def_cfa_offset 48
	popq	%r12
	.cfi_def_cfa_offset 40
	popq	%r13
	.cfi_def_cfa_offset 32
	popq	%r14
	.cfi_def_cfa_offset 24
	popq	%r15
	.cfi_def_cfa_offset 16
	popq	%rbp
	.cfi_def_cfa_offset 8
	retq
	SIZE("keyed_blake3::tree::Tree::absorb_subtrees::<#8b36ca032ac25711>")
	.cfi_endproc

CODE(".text.keyed_blake3::hasher::Hasher::finalize")
	.p2align	4
	TYPE("keyed_blake3::hasher::Hasher::finalize", function)
"keyed_blake3::hasher::Hasher::finalize":
	.cfi_startproc
	endbr64
	pushq	%rbp
	.cfi_def_cfa_offset 16
	pushq	%r15
	.cfi_def_cfa_offset 24
	pushq	%r14
	.cfi_def_cfa_offset 32
	pushq	%r13
	.cfi_def_cfa_offset 40
	pushq	%r12
	.cfi_def_cfa_offset 48
	pushq	%rbx
	.cfi_def_cfa_offset 56
	subq	$136, %rsp
	.cfi_def_cfa_offset 192
	.cfi_offset %rbx, -56
	.cfi_offset %r12, -48
	.cfi_offset %r13, -40
	.cfi_offset %r14, -32
	.cfi_offset %r15, -24
	.cfi_offset %rbp, -16
	movq	%rsi, %r14
	movq	%rdi, %rbx
	movq	1856(%rsi), %r12
	cmpq	$1025, %r12
	setb	%al
	testl	$1023, %r12d
	setne	%cl
	orb	%al, %cl
	jne	L(19_2)
	shrq	$10, %r12
	xorl	%eax, %eax
	popcntq	%r12, %rax
	cmpl	$3, %eax
	movl	$2, %r15d
	cmovael	%eax, %r15d
	decq	%r15
	movq	%r15, %rax
	shlq	$5, %rax
	vmovdqu	64(%r14,%rax), %ymm0
	jmp	L(19_8)
L(19_2):
	cmpq	$1, %r12
	movq	%r12, %rax
	adcq	$-1, %rax
	movq	%rax, %r15
	shrq	$10, %r15
	movq	%rax, %rcx
	andq	$-64, %rcx
	subq	%rcx, %r12
	leaq	1792(%r14), %rsi
	xorl	%ecx, %ecx
	testq	%r15, %r15
	sete	%cl
	vxorps	%xmm0, %xmm0, %xmm0
	vmovups	%ymm0, (%rsp)
	xorl	%edx, %edx
	testl	$960, %eax
	sete	%dl
	leal	(%rdx,%rcx,8), %ebp
	addl	$18, %ebp
	cmpq	$64, %r12
	jne	L(19_4)
	vmovups	(%rsi), %ymm0
	vmovups	32(%rsi), %ymm1
	vmovups	%ymm1, 64(%rsp)
	vmovups	%ymm0, 32(%rsp)
	vmovups	32(%r14), %xmm0
	vmovups	48(%r14), %xmm1
	movq	%rsp, %rdi
	leaq	32(%rsp), %rsi
	movq	%r15, %rdx
	movl	$64, %ecx
	jmp	L(19_5)
L(19_4):
	vmovups	%ymm0, 64(%rsp)
	vmovups	%ymm0, 32(%rsp)
	leaq	32(%rsp), %r13
	movq	%r13, %rdi
	movq	%r12, %rdx
	vzeroupper
	callq	PLT(memcpy)
	vmovups	32(%r14), %xmm0
	vmovups	48(%r14), %xmm1
	movq	%rsp, %rdi
	movq	%r13, %rsi
	movq	%r15, %rdx
	movl	%r12d, %ecx
L(19_5):
	movl	%ebp, %r8d
	vzeroupper
	callq	"keyed_blake3::compression::compress"
	movl	4(%rsp), %eax
	vmovq	8(%rsp), %xmm0
	vmovdqa	16(%rsp), %xmm1
	vmovdqa	(%rsp), %xmm2
	vpinsrd	$1, %eax, %xmm2, %xmm2
	testq	%r15, %r15
	je	L(19_6)
	vpblendd	$240, (%rsp), %ymm2, %ymm2
	popcntq	%r15, %r15
	vinserti128	$1, %xmm1, %ymm2, %ymm1
	vpbroadcastq	%xmm0, %xmm0
	vpblendd	$12, %ymm0, %ymm1, %ymm0
L(19_8):
	vmovups	(%r14), %xmm1
	vmovaps	%xmm1, 112(%rsp)
	vmovdqu	16(%r14), %xmm1
	vmovdqa	%xmm1, 96(%rsp)
	movq	%r15, %rax
	shlq	$5, %rax
	addq	%rax, %r14
	addq	$32, %r14
	.p2align	4
L(19_9):
	xorl	%eax, %eax
	cmpq	$1, %r15
	vmovups	(%r14), %ymm1
	vmovups	%ymm1, 32(%rsp)
	sete	%al
	leal	20(,%rax,8), %r8d
	vmovdqu	%ymm0, 64(%rsp)
	movq	%rsp, %rdi
	leaq	32(%rsp), %rsi
	vmovaps	112(%rsp), %xmm0
	vmovdqa	96(%rsp), %xmm1
	xorl	%edx, %edx
	movl	$64, %ecx
	vzeroupper
	callq	"keyed_blake3::compression::compress"
	addq	$-32, %r14
	vmovdqu	(%rsp), %ymm0
	decq	%r15
	jne	L(19_9)
L(19_10):
	vmovdqu	%ymm0, (%rbx)
	addq	$136, %rsp
	.cfi_def_cfa_offset 56
	popq	%rbx
	.cfi_def_cfa_offset 48
	popq	%r12
	.cfi_def_cfa_offset 40
	popq	%r13
	.cfi_def_cfa_offset 32
	popq	%r14
	.cfi_def_cfa_offset 24
	popq	%r15
	.cfi_def_cfa_offset 16
	popq	%rbp
	.cfi_def_cfa_offset 8
	vzeroupper
	retq
L(19_6):
	.cfi_def_cfa_offset 192
	vpunpcklqdq	%xmm0, %xmm2, %xmm0
	vinserti128	$1, %xmm1, %ymm0, %ymm0
	jmp	L(19_10)
	SIZE("keyed_blake3::hasher::Hasher::finalize")
	.cfi_endproc

CODE(".text.xet_roots::groups::parent_hashes")
	.p2align	4
	TYPE("xet_roots::groups::parent_hashes", function)
"xet_roots::groups::parent_hashes":
	.cfi_startproc
	endbr64
	pushq	%rbp
	.cfi_def_cfa_offset 16
	pushq	%r15
	.cfi_def_cfa_offset 24
	pushq	%r14
	.cfi_def_cfa_offset 32
	pushq	%r13
	.cfi_def_cfa_offset 40
	pushq	%r12
	.cfi_def_cfa_offset 48
	pushq	%rbx
	.cfi_def_cfa_offset 56
	subq	$3072, %rsp
	.cfi_adjust_cfa_offset 3072
	movq	$0, (%rsp)
	subq	$3072, %rsp
	.cfi_adjust_cfa_offset 3072
	movq	$0, (%rsp)
	subq	$3072, %rsp
	.cfi_adjust_cfa_offset 3072
	movq	$0, (%rsp)
	subq	$3072, %rsp
	.cfi_adjust_cfa_offset 3072
	movq	$0, (%rsp)
	subq	$3072, %rsp
	.cfi_adjust_cfa_offset 3072
	movq	$0, (%rsp)
	subq	$3072, %rsp
	.cfi_adjust_cfa_offset 3072
	movq	$0, (%rsp)
	subq	$2216, %rsp
	.cfi_def_cfa_offset 20704
	.cfi_offset %rbx, -56
	.cfi_offset %r12, -48
	.cfi_offset %r13, -40
	.cfi_offset %r14, -32
	.cfi_offset %r15, -24
	.cfi_offset %rbp, -16
	movq	%rdx, %r15
	movq	%rsi, %r14
	movq	%rdi, 152(%rsp)
	leaq	936(%rsp), %rdi
	movl	$640, %edx
	xorl	%esi, %esi
	callq	PLT(memset)
	vxorps	%xmm0, %xmm0, %xmm0
	vmovups	%ymm0, 64(%rsp)
	vmovups	%ymm0, 96(%rsp)
	vmovups	%ymm0, 112(%rsp)
	testq	%r15, %r15
	je	L(24_1)
	movl	%r15d, %eax
	andl	$3, %eax
	cmpq	$4, %r15
	jae	L(24_4)
	xorl	%ecx, %ecx
	jmp	L(24_7)
L(24_1):
	movq	$0, 16(%rsp)
	movq	$0, 8(%rsp)
	xorl	%ecx, %ecx
	movq	$0, 48(%rsp)
	movq	$0, 40(%rsp)
	movq	$0, 32(%rsp)
	movq	$0, 24(%rsp)
	xorl	%ebx, %ebx
	xorl	%r12d, %r12d
	xorl	%r13d, %r13d
	jmp	L(24_10)
L(24_4):
	andq	$-4, %r15
	leaq	56(%r14), %rdx
	xorl	%ecx, %ecx
	.p2align	4
L(24_5):
	movq	-48(%rdx), %rsi
	movq	64(%rsp,%rsi,8), %rdi
	movq	%rsi, %r8
	shlq	$6, %r8
	addq	%rsp, %r8
	addq	$936, %r8
	movb	%cl, (%rdi,%r8)
	incq	%rdi
	movq	%rdi, 64(%rsp,%rsi,8)
	movq	-32(%rdx), %rsi
	movq	64(%rsp,%rsi,8), %rdi
	movq	%rsi, %r8
	shlq	$6, %r8
	addq	%rsp, %r8
	addq	$936, %r8
	leal	1(%rcx), %r9d
	movb	%r9b, (%rdi,%r8)
	incq	%rdi
	movq	%rdi, 64(%rsp,%rsi,8)
	movq	-16(%rdx), %rsi
	movq	64(%rsp,%rsi,8), %rdi
	movq	%rsi, %r8
	shlq	$6, %r8
	addq	%rsp, %r8
	addq	$936, %r8
	leal	2(%rcx), %r9d
	movb	%r9b, (%rdi,%r8)
	incq	%rdi
	movq	%rdi, 64(%rsp,%rsi,8)
	movq	(%rdx), %rsi
	movq	64(%rsp,%rsi,8), %rdi
	movq	%rsi, %r8
	shlq	$6, %r8
	addq	%rsp, %r8
	addq	$936, %r8
	leal	3(%rcx), %r9d
	movb	%r9b, (%rdi,%r8)
	incq	%rdi
	movq	%rdi, 64(%rsp,%rsi,8)
	addq	$4, %rcx
	addq	$64, %rdx
	cmpq	%r15, %rcx
	jne	L(24_5)
	testq	%rax, %rax
	je	L(24_9)
L(24_7):
	movq	%rcx, %rdx
	shlq	$4, %rdx
	addq	%r14, %rdx
	addq	$8, %rdx
	shll	$4, %eax
	xorl	%esi, %esi
	.p2align	4
L(24_8):
	movq	(%rdx,%rsi), %rdi
	movq	64(%rsp,%rdi,8), %r8
	movq	%rdi, %r9
	shlq	$6, %r9
	addq	%rsp, %r9
	addq	$936, %r9
	movb	%cl, (%r8,%r9)
	incq	%r8
	movq	%r8, 64(%rsp,%rdi,8)
	incb	%cl
	addq	$16, %rsi
	cmpq	%rsi, %rax
	jne	L(24_8)
L(24_9):
	movq	64(%rsp), %r13
	movq	72(%rsp), %r12
	movq	80(%rsp), %rbx
	movq	88(%rsp), %rax
	movq	%rax, 24(%rsp)
	movq	96(%rsp), %rax
	movq	%rax, 32(%rsp)
	movq	104(%rsp), %rax
	movq	%rax, 40(%rsp)
	movq	112(%rsp), %rax
	movq	%rax, 48(%rsp)
	movq	120(%rsp), %rcx
	movq	128(%rsp), %rax
	movq	%rax, 8(%rsp)
	movq	136(%rsp), %rax
	movq	%rax, 16(%rsp)
L(24_10):
	movq	%rcx, 56(%rsp)
	leaq	3624(%rsp), %r15
	leaq	936(%rsp), %rsi
	movl	$640, %edx
	movq	%r15, %rdi
	vzeroupper
	callq	PLT(memcpy)
	leaq	296(%rsp), %rdi
	movl	$640, %edx
	movq	%r15, %rsi
	callq	PLT(memcpy)
	leaq	1576(%rsp), %rdi
	xorl	%r15d, %r15d
	movl	$2048, %edx
	xorl	%esi, %esi
	callq	PLT(memset)
	leaq	4264(%rsp), %rdi
	movl	$16384, %edx
	xorl	%esi, %esi
	callq	PLT(memset)
	vxorps	%xmm0, %xmm0, %xmm0
	vmovups	%ymm0, 160(%rsp)
	vmovups	%ymm0, 192(%rsp)
	vmovups	%ymm0, 224(%rsp)
	vmovups	%ymm0, 256(%rsp)
	testq	%r13, %r13
	je	L(24_15)
	xorl	%r15d, %r15d
	xorl	%ebp, %ebp
	jmp	L(24_12)
	.p2align	4
L(24_14):
	incq	%rbp
	cmpq	%rbp, %r13
	je	L(24_15)
L(24_12):
	movzbl	296(%rsp,%rbp), %eax
	movq	%rax, 160(%rsp,%r15,8)
	incq	%r15
	cmpq	$16, %r15
	jne	L(24_14)
	leaq	160(%rsp), %rsi
	leaq	4264(%rsp), %rcx
	leaq	1576(%rsp), %r8
	movl	$16, %edx
	movq	%r14, %rdi
	vzeroupper
	callq	"xet_roots::groups::hash_at"
	xorl	%r15d, %r15d
	jmp	L(24_14)
L(24_15):
	testq	%r12, %r12
	je	L(24_16)
	xorl	%r13d, %r13d
	movq	56(%rsp), %rbp
	jmp	L(24_18)
	.p2align	4
L(24_20):
	incq	%r13
	cmpq	%r13, %r12
	je	L(24_21)
L(24_18):
	movzbl	360(%rsp,%r13), %eax
	movq	%rax, 160(%rsp,%r15,8)
	incq	%r15
	cmpq	$16, %r15
	jne	L(24_20)
	leaq	160(%rsp), %rsi
	leaq	4264(%rsp), %rcx
	leaq	1576(%rsp), %r8
	movl	$16, %edx
	movq	%r14, %rdi
	vzeroupper
	callq	"xet_roots::groups::hash_at"
	xorl	%r15d, %r15d
	jmp	L(24_20)
L(24_16):
	movq	56(%rsp), %rbp
L(24_21):
	testq	%rbx, %rbx
	je	L(24_22)
	xorl	%r12d, %r12d
	movq	8(%rsp), %r13
	jmp	L(24_24)
	.p2align	4
L(24_26):
	incq	%r12
	cmpq	%r12, %rbx
	je	L(24_27)
L(24_24):
	movzbl	424(%rsp,%r12), %eax
	movq	%rax, 160(%rsp,%r15,8)
	incq	%r15
	cmpq	$16, %r15
	jne	L(24_26)
	leaq	160(%rsp), %rsi
	leaq	4264(%rsp), %rcx
	leaq	1576(%rsp), %r8
	movl	$16, %edx
	movq	%r14, %rdi
	vzeroupper
	callq	"xet_roots::groups::hash_at"
	xorl	%r15d, %r15d
	jmp	L(24_26)
L(24_22):
	movq	8(%rsp), %r13
L(24_27):
	cmpq	$0, 24(%rsp)
	je	L(24_28)
	xorl	%ebx, %ebx
	movq	16(%rsp), %r12
	jmp	L(24_30)
	.p2align	4
L(24_32):
	incq	%rbx
	cmpq	%rbx, 24(%rsp)
	je	L(24_33)
L(24_30):
	movzbl	488(%rsp,%rbx), %eax
	movq	%rax, 160(%rsp,%r15,8)
	incq	%r15
	cmpq	$16, %r15
	jne	L(24_32)
	leaq	160(%rsp), %rsi
	leaq	4264(%rsp), %rcx
	leaq	1576(%rsp), %r8
	movl	$16, %edx
	movq	%r14, %rdi
	vzeroupper
	callq	"xet_roots::groups::hash_at"
	xorl	%r15d, %r15d
	jmp	L(24_32)
L(24_28):
	movq	16(%rsp), %r12
L(24_33):
	cmpq	$0, 32(%rsp)
	je	L(24_38)
	xorl	%ebx, %ebx
	jmp	L(24_35)
	.p2align	4
L(24_37):
	incq	%rbx
	cmpq	%rbx, 32(%rsp)
	je	L(24_38)
L(24_35):
	movzbl	552(%rsp,%rbx), %eax
	movq	%rax, 160(%rsp,%r15,8)
	incq	%r15
	cmpq	$16, %r15
	jne	L(24_37)
	leaq	160(%rsp), %rsi
	leaq	4264(%rsp), %rcx
	leaq	1576(%rsp), %r8
	movl	$16, %edx
	movq	%r14, %rdi
	vzeroupper
	callq	"xet_roots::groups::hash_at"
	xorl	%r15d, %r15d
	jmp	L(24_37)
L(24_38):
	cmpq	$0, 40(%rsp)
	je	L(24_43)
	xorl	%ebx, %ebx
	jmp	L(24_40)
	.p2align	4
L(24_42):
	incq	%rbx
	cmpq	%rbx, 40(%rsp)
	je	L(24_43)
L(24_40):
	movzbl	616(%rsp,%rbx), %eax
	movq	%rax, 160(%rsp,%r15,8)
	incq	%r15
	cmpq	$16, %r15
	jne	L(24_42)
	leaq	160(%rsp), %rsi
	leaq	4264(%rsp), %rcx
	leaq	1576(%rsp), %r8
	movl	$16, %edx
	movq	%r14, %rdi
	vzeroupper
	callq	"xet_roots::groups::hash_at"
	xorl	%r15d, %r15d
	jmp	L(24_42)
L(24_43):
	cmpq	$0, 48(%rsp)
	je	L(24_48)
	xorl	%ebx, %ebx
	jmp	L(24_45)
	.p2align	4
L(24_47):
	incq	%rbx
	cmpq	%rbx, 48(%rsp)
	je	L(24_48)
L(24_45):
	movzbl	680(%rsp,%rbx), %eax
	movq	%rax, 160(%rsp,%r15,8)
	incq	%r15
	cmpq	$16, %r15
	jne	L(24_47)
	leaq	160(%rsp), %rsi
	leaq	4264(%rsp), %rcx
	leaq	1576(%rsp), %r8
	movl	$16, %edx
	movq	%r14, %rdi
	vzeroupper
	callq	"xet_roots::groups::hash_at"
	xorl	%r15d, %r15d
	jmp	L(24_47)
L(24_48):
	testq	%rbp, %rbp
	je	L(24_53)
	xorl	%ebx, %ebx
	jmp	L(24_50)
	.p2align	4
L(24_52):
	incq	%rbx
	cmpq	%rbx, %rbp
	je	L(24_53)
L(24_50):
	movzbl	744(%rsp,%rbx), %eax
	movq	%rax, 160(%rsp,%r15,8)
	incq	%r15
	cmpq	$16, %r15
	jne	L(24_52)
	leaq	160(%rsp), %rsi
	leaq	4264(%rsp), %rcx
	leaq	1576(%rsp), %r8
	movl	$16, %edx
	movq	%r14, %rdi
	vzeroupper
	callq	"xet_roots::groups::hash_at"
	xorl	%r15d, %r15d
	jmp	L(24_52)
L(24_53):
	testq	%r13, %r13
	je	L(24_58)
	xorl	%ebx, %ebx
	jmp	L(24_55)
	.p2align	4
L(24_57):
	incq	%rbx
	cmpq	%rbx, %r13
	je	L(24_58)
L(24_55):
	movzbl	808(%rsp,%rbx), %eax
	movq	%rax, 160(%rsp,%r15,8)
	incq	%r15
	cmpq	$16, %r15
	jne	L(24_57)
	leaq	160(%rsp), %rsi
	leaq	4264(%rsp), %rcx
	leaq	1576(%rsp), %r8
	movl	$16, %edx
	movq	%r14, %rdi
	vzeroupper
	callq	"xet_roots::groups::hash_at"
	xorl	%r15d, %r15d
	jmp	L(24_57)
L(24_58):
	testq	%r12, %r12
	je	L(24_63)
	xorl	%ebx, %ebx
	jmp	L(24_60)
	.p2align	4
L(24_62):
	incq	%rbx
	cmpq	%rbx, %r12
	je	L(24_63)
L(24_60):
	movzbl	872(%rsp,%rbx), %eax
	movq	%rax, 160(%rsp,%r15,8)
	incq	%r15
	cmpq	$16, %r15
	jne	L(24_62)
	leaq	160(%rsp), %rsi
	leaq	4264(%rsp), %rcx
	leaq	1576(%rsp), %r8
	movl	$16, %edx
	movq	%r14, %rdi
	vzeroupper
	callq	"xet_roots::groups::hash_at"
	xorl	%r15d, %r15d
	jmp	L(24_62)
L(24_63):
	leaq	160(%rsp), %rsi
	leaq	4264(%rsp), %rcx
	leaq	1576(%rsp), %r12
	movq	%r14, %rdi
	movq	%r15, %rdx
	movq	%r12, %r8
	vzeroupper
	callq	"xet_roots::groups::hash_at"
	movl	$2048, %edx
	movq	152(%rsp), %rdi
	movq	%r12, %rsi
	callq	PLT(memcpy)
	addq	$20648, %rsp
	.cfi_def_cfa_offset 56
	popq	%rbx
	.cfi_def_cfa_offset 48
	popq	%r12
	.cfi_def_cfa_offset 40
	popq	%r13
	.cfi_def_cfa_offset 32
	popq	%r14
	.cfi_def_cfa_offset 24
	popq	%r15
	.cfi_def_cfa_offset 16
	popq	%rbp
	.cfi_def_cfa_offset 8
	retq
	SIZE("xet_roots::groups::parent_hashes")
	.cfi_endproc

SIZED(8, 3)
	.p2align	3, 0x0
D(CPI25_0):
	.quad	-9223372036854775808
D(CPI25_1):
	.quad	-9223372036854775807
D(CPI25_3):
	.quad	4294967232
SIZED(32, 5)
	.p2align	5, 0x0
D(CPI25_2):
	.long	0
	.long	2
	.long	4
	.long	6
	.long	4
	.long	6
	.long	6
	.long	7
D(CPI25_4):
	.quad	0
	.quad	1
	.quad	2
	.quad	3
D(CPI25_5):
	.quad	-9223372036854775804
	.quad	-9223372036854775803
	.quad	-9223372036854775802
	.quad	-9223372036854775801
D(CPI25_6):
	.quad	5
	.quad	6
	.quad	7
	.quad	8
D(CPI25_7):
	.quad	-9223372036854775800
	.quad	-9223372036854775799
	.quad	-9223372036854775798
	.quad	-9223372036854775797
D(CPI25_8):
	.quad	9
	.quad	10
	.quad	11
	.quad	12
SIZED(4, 2)
	.p2align	2, 0x0
D(CPI25_9):
	.long	64
CODE(".text.xet_roots::groups::hash_at")
	.p2align	4
	TYPE("xet_roots::groups::hash_at", function)
"xet_roots::groups::hash_at":
	.cfi_startproc
	pushq	%rbp
	.cfi_def_cfa_offset 16
	.cfi_offset %rbp, -16
	movq	%rsp, %rbp
	.cfi_def_cfa_register %rbp
	pushq	%r15
	pushq	%r14
	pushq	%r13
	pushq	%r12
	pushq	%rbx
	andq	$-64, %rsp
	subq	$3008, %rsp
	movq	$0, (%rsp)
	subq	$1536, %rsp
	.cfi_offset %rbx, -56
	.cfi_offset %r12, -48
	.cfi_offset %r13, -40
	.cfi_offset %r14, -32
	.cfi_offset %r15, -24
	vpxor	%xmm0, %xmm0, %xmm0
	vmovdqa	%ymm0, 768(%rsp)
	vmovdqa	%ymm0, 736(%rsp)
	vmovdqa	%ymm0, 704(%rsp)
	vmovdqa	%ymm0, 672(%rsp)
	testq	%rdx, %rdx
	je	L(25_48)
	movq	%rdx, %r15
	movq	%rsi, %r14
	movq	%rdi, %r12
	movq	%r8, 48(%rsp)
	xorl	%ebx, %ebx
	movq	%rcx, 24(%rsp)
	movq	%rcx, %r13
	.p2align	4
L(25_2):
	movq	(%r14,%rbx,8), %rax
	shlq	$4, %rax
	movq	(%r12,%rax), %rsi
	movq	8(%r12,%rax), %rdx
	movq	%r13, %rdi
	vzeroupper
	callq	"xet_roots::groups::write_text"
	movq	%rax, 672(%rsp,%rbx,8)
	incq	%rbx
	addq	$1024, %r13
	cmpq	%rbx, %r15
	jne	L(25_2)
	movq	%r14, 40(%rsp)
	vpxor	%xmm0, %xmm0, %xmm0
	vmovdqa	%ymm0, 3296(%rsp)
	vmovdqa	%ymm0, 3264(%rsp)
	vmovdqa	%ymm0, 3232(%rsp)
	vmovdqa	%ymm0, 3200(%rsp)
	vmovdqa	%ymm0, 3168(%rsp)
	vmovdqa	%ymm0, 3136(%rsp)
	vmovdqa	%ymm0, 3104(%rsp)
	vmovdqa	%ymm0, 3072(%rsp)
	vmovdqa	%ymm0, 3040(%rsp)
	vmovdqa	%ymm0, 3008(%rsp)
	vmovdqa	%ymm0, 2976(%rsp)
	vmovdqa	%ymm0, 2944(%rsp)
	vmovdqa	%ymm0, 2912(%rsp)
	vmovdqa	%ymm0, 2880(%rsp)
	vmovdqa	%ymm0, 2848(%rsp)
	vmovdqa	%ymm0, 2816(%rsp)
	movl	%r15d, %ebx
	andl	$3, %ebx
	cmpq	$4, %r15
	movq	%r15, 32(%rsp)
	jae	L(25_5)
	xorl	%r14d, %r14d
	jmp	L(25_8)
L(25_5):
	andq	$-4, %r15
	xorl	%r14d, %r14d
	movq	24(%rsp), %r13
	.p2align	4
L(25_6):
	movq	672(%rsp,%r14,8), %rax
	leaq	64(%rax), %rdx
	cmpq	$1024, %rdx
	movl	$1024, %r12d
	cmovaeq	%r12, %rdx
	leaq	(%rax,%r13), %rdi
	subq	%rax, %rdx
	xorl	%esi, %esi
	vzeroupper
	callq	PLT(memset)
	movq	680(%rsp,%r14,8), %rax
	leaq	64(%rax), %rdx
	cmpq	$1024, %rdx
	cmovaeq	%r12, %rdx
	leaq	(%rax,%r13), %rdi
	addq	$1024, %rdi
	subq	%rax, %rdx
	xorl	%esi, %esi
	callq	PLT(memset)
	movq	688(%rsp,%r14,8), %rax
	leaq	64(%rax), %rdx
	cmpq	$1024, %rdx
	cmovaeq	%r12, %rdx
	leaq	(%rax,%r13), %rdi
	addq	$2048, %rdi
	subq	%rax, %rdx
	xorl	%esi, %esi
	callq	PLT(memset)
	movq	696(%rsp,%r14,8), %rax
	leaq	64(%rax), %rcx
	cmpq	$1024, %rcx
	cmovbq	%rcx, %r12
	leaq	(%rax,%r13), %rdi
	addq	$3072, %rdi
	subq	%rax, %r12
	xorl	%esi, %esi
	movq	%r12, %rdx
	callq	PLT(memset)
	addq	$4, %r14
	addq	$4096, %r13
	cmpq	%r14, %r15
	jne	L(25_6)
	testq	%rbx, %rbx
	je	L(25_10)
L(25_8):
	leaq	(%rsp,%r14,8), %r15
	addq	$672, %r15
	shlq	$10, %r14
	addq	24(%rsp), %r14
	xorl	%r12d, %r12d
	.p2align	4
L(25_9):
	movq	(%r15,%r12,8), %rax
	leaq	64(%rax), %rcx
	cmpq	$1024, %rcx
	movl	$1024, %edx
	cmovbq	%rcx, %rdx
	leaq	(%r14,%rax), %rdi
	subq	%rax, %rdx
	xorl	%esi, %esi
	vzeroupper
	callq	PLT(memset)
	incq	%r12
	addq	$1024, %r14
	cmpq	%r12, %rbx
	jne	L(25_9)
L(25_10):
	xorl	%r13d, %r13d
	movq	32(%rsp), %r15
	movq	24(%rsp), %r12
	jmp	L(25_11)
	.p2align	4
L(25_31):
	leaq	1(%r13), %rbx
	movq	%rbx, %rax
	shlq	$10, %rax
	addq	%r12, %rax
	movq	680(%rsp,%r13,8), %r8
	leaq	1344(%rsp), %rdi
	movq	%rdx, %rsi
	movq	%rcx, %rdx
	movq	%rax, %rcx
	vzeroupper
	callq	"keyed_blake3::keyed_hash_two"
	movq	%r13, %rax
	shlq	$5, %rax
	vmovaps	1344(%rsp), %ymm0
	vmovups	%ymm0, 2816(%rsp,%rax)
	shlq	$5, %rbx
	leaq	1376(%rsp), %rax
	vmovdqu	(%rax), %ymm0
	vmovdqu	%ymm0, 2816(%rsp,%rbx)
	addq	$2, %r13
	movq	32(%rsp), %r15
	cmpq	%r15, %r13
	jae	L(25_34)
L(25_11):
	vpxor	%xmm0, %xmm0, %xmm0
	vmovdqa	%ymm0, 800(%rsp)
	vmovdqa	%ymm0, 1344(%rsp)
	vmovdqa	%ymm0, 1376(%rsp)
	subq	%r13, %r15
	cmpq	$5, %r15
	jb	L(25_29)
	vmovdqa	%ymm0, 608(%rsp)
	vmovdqa	%ymm0, 576(%rsp)
	vmovdqa	%ymm0, 544(%rsp)
	vmovdqa	%ymm0, 512(%rsp)
	vmovdqa	%ymm0, 480(%rsp)
	vmovdqa	%ymm0, 448(%rsp)
	vmovdqa	%ymm0, 416(%rsp)
	vmovdqa	%ymm0, 384(%rsp)
	vmovdqa	%ymm0, 352(%rsp)
	vmovdqa	%ymm0, 320(%rsp)
	vmovdqa	%ymm0, 288(%rsp)
	vmovdqa	%ymm0, 256(%rsp)
	vmovdqa	%ymm0, 224(%rsp)
	vmovdqa	%ymm0, 192(%rsp)
	vmovdqa	%ymm0, 160(%rsp)
	vmovdqa	%ymm0, 128(%rsp)
	cmpq	$16, %r15
	movl	$16, %r14d
	cmovbq	%r15, %r14
	vmovdqa	%ymm0, 2176(%rsp)
	vmovdqa	%ymm0, 2208(%rsp)
	vmovdqa	%ymm0, 832(%rsp)
	vmovdqa	%ymm0, 864(%rsp)
	cmpq	$8, %r15
	jae	L(25_14)
	xorl	%ebx, %ebx
	xorl	%eax, %eax
	jmp	L(25_17)
	.p2align	4
L(25_29):
	movq	%r13, %rdx
	shlq	$10, %rdx
	addq	%r12, %rdx
	movq	672(%rsp,%r13,8), %rcx
	cmpq	$1, %r15
	jne	L(25_31)
	leaq	D(static.7)(%rip), %rsi
	leaq	800(%rsp), %rdi
	vzeroupper
	callq	"keyed_blake3::keyed_hash"
	movq	%r13, %rax
	shlq	$5, %rax
	vmovdqa	800(%rsp), %ymm0
	vmovdqu	%ymm0, 2816(%rsp,%rax)
	incq	%r13
	movq	32(%rsp), %r15
	cmpq	%r15, %r13
	jb	L(25_11)
	jmp	L(25_34)
	.p2align	4
L(25_14):
	leaq	(,%r13,8), %rcx
	leaq	704(%rsp), %rax
	addq	%rax, %rcx
	movl	%r14d, %eax
	andl	$24, %eax
	xorl	%edx, %edx
	vpxor	%xmm2, %xmm2, %xmm2
	.p2align	4
L(25_15):
	vmovdqu	-32(%rcx,%rdx,8), %ymm3
	vmovdqu	(%rcx,%rdx,8), %ymm4
	vpcmpeqd	%ymm5, %ymm5, %ymm5
	vpaddq	%ymm5, %ymm3, %ymm6
	vpbroadcastq	D(CPI25_0)(%rip), %ymm1
	vpxor	%ymm1, %ymm3, %ymm7
	vpbroadcastq	D(CPI25_1)(%rip), %ymm8
	vpcmpgtq	%ymm8, %ymm7, %ymm7
	vpand	%ymm6, %ymm7, %ymm6
	vpaddq	%ymm5, %ymm4, %ymm5
	vpxor	%ymm1, %ymm4, %ymm7
	vpcmpgtq	%ymm8, %ymm7, %ymm7
	vpand	%ymm5, %ymm7, %ymm5
	vpsrlq	$6, %ymm6, %ymm7
	vpsrlq	$6, %ymm5, %ymm8
	vmovdqa	D(CPI25_2)(%rip), %ymm9
	vpermd	%ymm7, %ymm9, %ymm10
	vpermd	%ymm8, %ymm9, %ymm11
	vmovdqu	%xmm10, 2176(%rsp,%rdx,4)
	vmovdqu	%xmm11, 2192(%rsp,%rdx,4)
	vpbroadcastq	D(CPI25_3)(%rip), %ymm10
	vpand	%ymm6, %ymm10, %ymm6
	vpand	%ymm5, %ymm10, %ymm5
	vpsubq	%ymm6, %ymm3, %ymm3
	vpsubq	%ymm5, %ymm4, %ymm4
	vpermd	%ymm3, %ymm9, %ymm3
	vmovdqu	%xmm3, 832(%rsp,%rdx,4)
	vpermd	%ymm4, %ymm9, %ymm3
	vmovdqu	%xmm3, 848(%rsp,%rdx,4)
	vpor	%ymm1, %ymm7, %ymm3
	vpxor	%ymm1, %ymm0, %ymm4
	vpcmpgtq	%ymm4, %ymm3, %ymm3
	vblendvpd	%ymm3, %ymm7, %ymm0, %ymm0
	vpor	%ymm1, %ymm8, %ymm3
	vpxor	%ymm1, %ymm2, %ymm4
	vpcmpgtq	%ymm4, %ymm3, %ymm3
	vblendvpd	%ymm3, %ymm8, %ymm2, %ymm2
	addq	$8, %rdx
	cmpq	%rdx, %rax
	jne	L(25_15)
	vxorpd	%ymm1, %ymm2, %ymm3
	vxorpd	%ymm1, %ymm0, %ymm4
	vpcmpgtq	%ymm3, %ymm4, %ymm3
	vblendvpd	%ymm3, %ymm0, %ymm2, %ymm0
	vextractf128	$1, %ymm0, %xmm2
	vxorpd	%xmm1, %xmm2, %xmm3
	vxorpd	%xmm1, %xmm0, %xmm4
	vpcmpgtq	%xmm3, %xmm4, %xmm3
	vblendvpd	%xmm3, %xmm0, %xmm2, %xmm0
	vshufps	$238, %xmm0, %xmm0, %xmm2
	vxorpd	%xmm1, %xmm0, %xmm3
	vxorpd	%xmm1, %xmm2, %xmm1
	vpcmpgtq	%xmm1, %xmm3, %xmm1
	vblendvpd	%xmm1, %xmm0, %xmm2, %xmm0
	vmovq	%xmm0, %rbx
	cmpq	%rax, %r14
	je	L(25_19)
L(25_17):
	leaq	(%rsp,%r13,8), %rcx
	addq	$672, %rcx
	.p2align	4
L(25_18):
	movq	%rbx, %rdx
	movq	(%rcx,%rax,8), %rsi
	cmpq	$1, %rsi
	movq	%rsi, %rdi
	adcq	$-1, %rdi
	movq	%rdi, %rbx
	shrq	$6, %rbx
	movl	%ebx, 2176(%rsp,%rax,4)
	andl	$-64, %edi
	subl	%edi, %esi
	cmpq	%rdx, %rbx
	cmovbeq	%rdx, %rbx
	movl	%esi, 832(%rsp,%rax,4)
	incq	%rax
	cmpq	%rax, %r14
	jne	L(25_18)
L(25_19):
	vmovaps	2176(%rsp), %ymm0
	vmovaps	%ymm0, 1504(%rsp)
	vmovaps	2208(%rsp), %ymm0
	vmovaps	%ymm0, 1472(%rsp)
	vmovaps	832(%rsp), %ymm0
	vmovaps	%ymm0, 1440(%rsp)
	vmovaps	864(%rsp), %ymm0
	vmovaps	%ymm0, 1408(%rsp)
	movq	%r13, 56(%rsp)
	shlq	$10, %r13
	addq	%r12, %r13
	leaq	-1(%r14), %rax
	cmpq	$13, %rax
	movl	$14, %ecx
	cmovbeq	%rax, %rcx
	vmovaps	D(CPI25_4)(%rip), %ymm0
	vmovups	%ymm0, 2048(%rsp)
	vmovq	%rax, %xmm0
	vpbroadcastq	%xmm0, %ymm0
	vpbroadcastq	D(CPI25_0)(%rip), %ymm1
	vpxor	%ymm1, %ymm0, %ymm1
	vpcmpgtq	D(CPI25_5)(%rip), %ymm1, %ymm2
	movl	$13, %edx
	vblendvpd	%ymm2, D(CPI25_6)(%rip), %ymm0, %ymm2
	cmovbq	%rax, %rdx
	vpcmpgtq	D(CPI25_7)(%rip), %ymm1, %ymm1
	movq	$4, 2080(%rsp)
	vblendvpd	%ymm1, D(CPI25_8)(%rip), %ymm0, %ymm0
	vmovupd	%ymm2, 2088(%rsp)
	vmovupd	%ymm0, 2120(%rsp)
	movq	%rdx, 2152(%rsp)
	movq	%rcx, 2160(%rsp)
	movq	%rax, 2168(%rsp)
	vxorpd	%xmm0, %xmm0, %xmm0
	vmovapd	%ymm0, 3328(%rsp)
	vmovapd	%ymm0, 3360(%rsp)
	vmovapd	%ymm0, 3392(%rsp)
	vmovapd	%ymm0, 3424(%rsp)
	leaq	D(static.7)(%rip), %rsi
	leaq	832(%rsp), %r12
	movq	%r12, %rdi
	vzeroupper
	callq	"keyed_blake3::chunks::key_of_each::<#2e65a0a13cda87df>"
	leaq	2176(%rsp), %rdi
	movl	$512, %edx
	movq	%r12, %rsi
	callq	PLT(memcpy)
	vmovaps	1312(%rsp), %ymm0
	vmovaps	1280(%rsp), %ymm1
	vmovaps	1248(%rsp), %ymm2
	vmovaps	1216(%rsp), %ymm3
	vmovaps	1184(%rsp), %ymm4
	vmovaps	1152(%rsp), %ymm5
	vmovaps	%ymm5, 64(%rsp)
	vmovaps	1120(%rsp), %ymm5
	vmovaps	%ymm5, 96(%rsp)
	vmovaps	1088(%rsp), %ymm7
	vmovaps	1056(%rsp), %ymm8
	vmovaps	1024(%rsp), %ymm9
	vmovaps	992(%rsp), %ymm10
	vmovaps	960(%rsp), %ymm11
	vmovaps	832(%rsp), %ymm12
	vmovaps	864(%rsp), %ymm13
	vmovaps	896(%rsp), %ymm14
	vmovaps	928(%rsp), %ymm15
	incq	%rbx
	xorl	%r12d, %r12d
	.p2align	4
L(25_20):
	vmovaps	%ymm15, 1600(%rsp)
	vmovaps	%ymm14, 1632(%rsp)
	vmovaps	%ymm13, 1664(%rsp)
	vmovaps	%ymm12, 1696(%rsp)
	vmovaps	%ymm11, 1728(%rsp)
	vmovaps	%ymm10, 1760(%rsp)
	vmovaps	%ymm9, 1792(%rsp)
	vmovaps	%ymm8, 1824(%rsp)
	vmovaps	%ymm7, 1856(%rsp)
	vmovaps	%ymm4, 1888(%rsp)
	vmovaps	%ymm3, 1920(%rsp)
	vmovaps	%ymm2, 1952(%rsp)
	vmovaps	%ymm1, 1984(%rsp)
	vmovaps	%ymm0, 2016(%rsp)
	xorl	%eax, %eax
	testl	%r12d, %r12d
	sete	%al
	leal	16(%rax), %ecx
	orl	$26, %eax
	vmovd	%r12d, %xmm0
	vpbroadcastd	%xmm0, %ymm0
	vpcmpeqd	1472(%rsp), %ymm0, %ymm5
	vmovdqa	%ymm5, 1536(%rsp)
	vpcmpeqd	1504(%rsp), %ymm0, %ymm4
	vmovdqa	%ymm4, 1568(%rsp)
	vbroadcastss	D(CPI25_9)(%rip), %ymm0
	vblendvps	%ymm4, 1440(%rsp), %ymm0, %ymm1
	vblendvps	%ymm5, 1408(%rsp), %ymm0, %ymm0
	vmovd	%eax, %xmm2
	vpbroadcastd	%xmm2, %ymm2
	vmovd	%ecx, %xmm3
	vpbroadcastd	%xmm3, %ymm3
	vblendvps	%ymm4, %ymm2, %ymm3, %ymm4
	vblendvps	%ymm5, %ymm2, %ymm3, %ymm2
	vmovups	%ymm0, 2784(%rsp)
	vmovups	%ymm1, 2752(%rsp)
	vmovups	%ymm2, 2720(%rsp)
	vmovups	%ymm4, 2688(%rsp)
	leaq	2688(%rsp), %rax
	movq	%rax, (%rsp)
	leaq	2176(%rsp), %rdi
	leaq	2048(%rsp), %rdx
	leaq	3328(%rsp), %r8
	leaq	2752(%rsp), %r9
	movq	%r13, %rsi
	movq	%r12, %rcx
	vzeroupper
	callq	"keyed_blake3::chunks::take_block::<#2e65a0a13cda87df>"
	vmovaps	1600(%rsp), %ymm15
	vmovaps	1632(%rsp), %ymm14
	vmovaps	1664(%rsp), %ymm13
	vmovaps	1696(%rsp), %ymm12
	vmovaps	1728(%rsp), %ymm11
	vmovaps	1760(%rsp), %ymm10
	vmovaps	1792(%rsp), %ymm9
	vmovaps	1824(%rsp), %ymm8
	vmovaps	1856(%rsp), %ymm7
	vmovaps	1888(%rsp), %ymm4
	vmovaps	1920(%rsp), %ymm3
	vmovaps	1952(%rsp), %ymm2
	vmovaps	1984(%rsp), %ymm1
	vmovaps	2016(%rsp), %ymm0
	vmovaps	1536(%rsp), %ymm6
	vblendvps	%ymm6, 2208(%rsp), %ymm13, %ymm13
	vblendvps	%ymm6, 2272(%rsp), %ymm15, %ymm15
	vblendvps	%ymm6, 2336(%rsp), %ymm10, %ymm10
	vblendvps	%ymm6, 2400(%rsp), %ymm8, %ymm8
	vmovaps	96(%rsp), %ymm5
	vblendvps	%ymm6, 2464(%rsp), %ymm5, %ymm5
	vmovaps	%ymm5, 96(%rsp)
	vblendvps	%ymm6, 2528(%rsp), %ymm4, %ymm4
	vblendvps	%ymm6, 2592(%rsp), %ymm2, %ymm2
	vblendvps	%ymm6, 2656(%rsp), %ymm0, %ymm0
	vmovaps	1568(%rsp), %ymm5
	vblendvps	%ymm5, 2176(%rsp), %ymm12, %ymm12
	vblendvps	%ymm5, 2240(%rsp), %ymm14, %ymm14
	vblendvps	%ymm5, 2304(%rsp), %ymm11, %ymm11
	vblendvps	%ymm5, 2368(%rsp), %ymm9, %ymm9
	vblendvps	%ymm5, 2432(%rsp), %ymm7, %ymm7
	vmovaps	64(%rsp), %ymm6
	vblendvps	%ymm5, 2496(%rsp), %ymm6, %ymm6
	vmovaps	%ymm6, 64(%rsp)
	vblendvps	%ymm5, 2560(%rsp), %ymm3, %ymm3
	vblendvps	%ymm5, 2624(%rsp), %ymm1, %ymm1
	incq	%r12
	cmpq	%r12, %rbx
	jne	L(25_20)
	vmovaps	%ymm12, 128(%rsp)
	vmovaps	%ymm13, 160(%rsp)
	vmovaps	%ymm14, 192(%rsp)
	vmovaps	%ymm15, 224(%rsp)
	vmovaps	%ymm11, 256(%rsp)
	vmovaps	%ymm10, 288(%rsp)
	vmovaps	%ymm9, 320(%rsp)
	vmovaps	%ymm8, 352(%rsp)
	vmovaps	%ymm7, 384(%rsp)
	vmovaps	96(%rsp), %ymm5
	vmovaps	%ymm5, 416(%rsp)
	vmovaps	64(%rsp), %ymm5
	vmovaps	%ymm5, 448(%rsp)
	vmovaps	%ymm4, 480(%rsp)
	vmovaps	%ymm3, 512(%rsp)
	vmovaps	%ymm2, 544(%rsp)
	vmovaps	%ymm1, 576(%rsp)
	vmovaps	%ymm0, 608(%rsp)
	cmpq	$8, %r15
	jae	L(25_23)
	xorl	%eax, %eax
	movq	32(%rsp), %r15
	movq	24(%rsp), %r12
	movq	56(%rsp), %r13
	jmp	L(25_26)
	.p2align	4
L(25_23):
	movl	%r14d, %eax
	andl	$24, %eax
	movq	56(%rsp), %r13
	movq	%r13, %rcx
	shlq	$5, %rcx
	addq	%rsp, %rcx
	addq	$2816, %rcx
	xorl	%edx, %edx
	movq	32(%rsp), %r15
	movq	24(%rsp), %r12
	.p2align	4
L(25_24):
	vmovups	128(%rsp,%rdx,4), %ymm3
	vmovups	192(%rsp,%rdx,4), %ymm4
	vmovups	256(%rsp,%rdx,4), %ymm2
	vmovups	320(%rsp,%rdx,4), %ymm6
	vmovups	384(%rsp,%rdx,4), %ymm7
	vmovups	448(%rsp,%rdx,4), %ymm5
	vmovups	512(%rsp,%rdx,4), %ymm8
	vmovups	576(%rsp,%rdx,4), %ymm9
	vbroadcastss	600(%rsp,%rdx,4), %ymm0
	vblendps	$128, %ymm0, %ymm8, %ymm0
	vunpckhps	%ymm5, %ymm7, %ymm1
	vblendps	$192, %ymm0, %ymm1, %ymm0
	vunpckhps	%ymm4, %ymm3, %ymm10
	vextractf128	$1, %ymm10, %xmm11
	vunpckhps	%ymm6, %ymm2, %ymm12
	vpermpd	$170, %ymm12, %ymm13
	vblendps	$12, %xmm13, %xmm11, %xmm11
	vblendps	$15, %ymm11, %ymm0, %ymm0
	vmovaps	%ymm0, 64(%rsp)
	vbroadcastss	540(%rsp,%rdx,4), %ymm11
	vunpckhps	%ymm9, %ymm11, %ymm11
	vunpckhpd	%ymm11, %ymm1, %ymm1
	vextractf128	$1, %ymm12, %xmm11
	vshufps	$238, %ymm10, %ymm10, %ymm10
	vextractf128	$1, %ymm10, %xmm10
	vblendps	$12, %xmm11, %xmm10, %xmm10
	vblendps	$15, %ymm10, %ymm1, %ymm1
	vunpcklps	%ymm9, %ymm8, %ymm8
	vunpcklps	%ymm5, %ymm7, %ymm7
	vunpcklpd	%ymm8, %ymm7, %ymm7
	vunpcklps	%ymm4, %ymm3, %ymm9
	vextractf128	$1, %ymm9, %xmm9
	vunpcklps	%ymm6, %ymm2, %ymm6
	vpermpd	$170, %ymm6, %ymm2
	vblendps	$12, %xmm2, %xmm9, %xmm2
	vblendps	$15, %ymm2, %ymm7, %ymm2
	vbroadcastss	404(%rsp,%rdx,4), %ymm7
	vblendps	$32, %ymm5, %ymm7, %ymm5
	vblendps	$192, %ymm8, %ymm5, %ymm5
	vextractf128	$1, %ymm6, %xmm6
	vshufps	$85, %ymm3, %ymm3, %ymm3
	vblendps	$34, %ymm4, %ymm3, %ymm3
	vextractf128	$1, %ymm3, %xmm3
	vblendps	$12, %xmm6, %xmm3, %xmm3
	vblendps	$15, %ymm3, %ymm5, %ymm3
	vmovups	320(%rsp,%rdx,4), %xmm4
	vmovups	128(%rsp,%rdx,4), %xmm6
	vmovups	192(%rsp,%rdx,4), %xmm7
	vmovups	256(%rsp,%rdx,4), %xmm5
	vunpcklps	%xmm4, %xmm5, %xmm8
	vshufps	$85, %xmm6, %xmm6, %xmm9
	vblendps	$2, %xmm7, %xmm9, %xmm9
	vblendps	$12, %xmm8, %xmm9, %xmm8
	vmovups	576(%rsp,%rdx,4), %xmm9
	vmovups	512(%rsp,%rdx,4), %xmm10
	vunpcklps	%xmm9, %xmm10, %xmm11
	vinsertf128	$1, %xmm11, %ymm0, %ymm11
	vmovups	448(%rsp,%rdx,4), %xmm12
	vmovups	384(%rsp,%rdx,4), %xmm13
	vshufps	$85, %xmm13, %xmm13, %xmm14
	vblendps	$2, %xmm12, %xmm14, %xmm14
	vinsertf128	$1, %xmm14, %ymm0, %ymm14
	vblendps	$192, %ymm11, %ymm14, %ymm11
	vblendps	$15, %ymm8, %ymm11, %ymm8
	vunpckhps	%xmm12, %xmm13, %xmm11
	vinsertf128	$1, %xmm11, %ymm0, %ymm14
	vshufps	$170, %xmm9, %xmm9, %xmm15
	vblendps	$8, %xmm15, %xmm10, %xmm15
	vinsertf128	$1, %xmm15, %ymm0, %ymm15
	vblendps	$192, %ymm15, %ymm14, %ymm14
	vshufps	$170, %xmm4, %xmm4, %xmm15
	vblendps	$8, %xmm15, %xmm5, %xmm15
	vunpckhps	%xmm7, %xmm6, %xmm0
	vblendps	$12, %xmm15, %xmm0, %xmm15
	vblendps	$15, %ymm15, %ymm14, %ymm14
	vunpcklps	%xmm12, %xmm13, %xmm12
	vbroadcastss	%xmm9, %xmm13
	vbroadcastss	%xmm10, %xmm15
	vunpcklps	%xmm13, %xmm15, %xmm13
	vinsertf128	$1, %xmm12, %ymm0, %ymm12
	vinsertf128	$1, %xmm13, %ymm0, %ymm13
	vblendps	$192, %ymm13, %ymm12, %ymm12
	vbroadcastss	%xmm4, %xmm13
	vbroadcastss	%xmm5, %xmm15
	vunpcklps	%xmm13, %xmm15, %xmm13
	vunpcklps	%xmm7, %xmm6, %xmm6
	vblendps	$12, %xmm13, %xmm6, %xmm6
	vblendps	$15, %ymm6, %ymm12, %ymm6
	vunpckhps	%xmm9, %xmm10, %xmm7
	vinsertf128	$1, %xmm7, %ymm0, %ymm7
	vshufps	$238, %xmm11, %xmm11, %xmm9
	vinsertf128	$1, %xmm9, %ymm0, %ymm9
	vblendps	$192, %ymm7, %ymm9, %ymm7
	vunpckhps	%xmm4, %xmm5, %xmm4
	vunpckhpd	%xmm4, %xmm0, %xmm0
	vblendps	$15, %ymm0, %ymm7, %ymm0
	vmovups	%ymm0, 96(%rcx)
	vmovups	%ymm6, (%rcx)
	vmovups	%ymm8, 32(%rcx)
	vmovups	%ymm14, 64(%rcx)
	vmovups	%ymm3, 160(%rcx)
	vmovups	%ymm2, 128(%rcx)
	vmovups	%ymm1, 224(%rcx)
	vmovaps	64(%rsp), %ymm0
	vmovups	%ymm0, 192(%rcx)
	addq	$8, %rdx
	addq	$256, %rcx
	cmpq	%rdx, %rax
	jne	L(25_24)
	cmpq	%rax, %r14
	je	L(25_28)
L(25_26):
	leaq	(%rax,%r13), %rcx
	shlq	$5, %rcx
	leaq	2844(%rsp), %rdx
	addq	%rdx, %rcx
	.p2align	4
L(25_27):
	movl	128(%rsp,%rax,4), %edx
	movl	192(%rsp,%rax,4), %esi
	movl	256(%rsp,%rax,4), %edi
	movl	320(%rsp,%rax,4), %r8d
	movl	384(%rsp,%rax,4), %r9d
	movl	448(%rsp,%rax,4), %r10d
	movl	512(%rsp,%rax,4), %r11d
	movl	576(%rsp,%rax,4), %ebx
	movl	%edx, -28(%rcx)
	movl	%esi, -24(%rcx)
	movl	%edi, -20(%rcx)
	movl	%r8d, -16(%rcx)
	movl	%r9d, -12(%rcx)
	movl	%r10d, -8(%rcx)
	movl	%r11d, -4(%rcx)
	movl	%ebx, (%rcx)
	incq	%rax
	addq	$32, %rcx
	cmpq	%rax, %r14
	jne	L(25_27)
L(25_28):
	addq	%r14, %r13
	cmpq	%r15, %r13
	jb	L(25_11)
L(25_34):
	leaq	128(%rsp), %r12
	leaq	2816(%rsp), %rsi
	movl	$512, %edx
	movq	%r12, %rdi
	vzeroupper
	callq	PLT(memcpy)
	leaq	2176(%rsp), %rdi
	movl	$512, %edx
	movq	%r12, %rsi
	callq	PLT(memcpy)
	vpxor	%xmm0, %xmm0, %xmm0
	vmovdqa	%ymm0, 832(%rsp)
	vmovdqa	%ymm0, 864(%rsp)
	vmovdqa	%ymm0, 896(%rsp)
	vmovdqa	%ymm0, 928(%rsp)
	vmovdqa	%ymm0, 960(%rsp)
	vmovdqa	%ymm0, 992(%rsp)
	vmovdqa	%ymm0, 1024(%rsp)
	vmovdqa	%ymm0, 1056(%rsp)
	vmovdqa	%ymm0, 1088(%rsp)
	vmovdqa	%ymm0, 1120(%rsp)
	vmovdqa	%ymm0, 1152(%rsp)
	vmovdqa	%ymm0, 1184(%rsp)
	vmovdqa	%ymm0, 1216(%rsp)
	vmovdqa	%ymm0, 1248(%rsp)
	vmovdqa	%ymm0, 1280(%rsp)
	vmovdqa	%ymm0, 1312(%rsp)
	cmpq	$4, %r15
	jae	L(25_36)
	xorl	%eax, %eax
	movq	40(%rsp), %rbx
	jmp	L(25_39)
L(25_36):
	movq	%r15, %rax
	andq	$-4, %rax
	xorl	%ecx, %ecx
	movq	%rax, %rdx
	movq	40(%rsp), %rbx
	.p2align	4
L(25_37):
	vmovdqu	2176(%rsp,%rcx), %ymm0
	vmovdqu	%ymm0, 832(%rsp,%rcx)
	addq	$32, %rcx
	decq	%rdx
	jne	L(25_37)
	cmpq	%rax, %r15
	je	L(25_41)
L(25_39):
	movq	%r15, %rcx
	subq	%rax, %rcx
	shlq	$5, %rax
	.p2align	4
L(25_40):
	vmovdqu	2176(%rsp,%rax), %ymm0
	vmovdqu	%ymm0, 832(%rsp,%rax)
	addq	$32, %rax
	decq	%rcx
	jne	L(25_40)
L(25_41):
	leaq	3976(%rsp), %r12
	leaq	832(%rsp), %rsi
	movl	$512, %edx
	movq	%r12, %rdi
	vzeroupper
	callq	PLT(memcpy)
	leaq	3464(%rsp), %rdi
	movl	$512, %edx
	movq	%r12, %rsi
	callq	PLT(memcpy)
	movl	%r15d, %eax
	andl	$3, %eax
	cmpq	$4, %r15
	jae	L(25_43)
	xorl	%ecx, %ecx
	movq	48(%rsp), %r8
	jmp	L(25_46)
L(25_43):
	andq	$-4, %r15
	leaq	3560(%rsp), %rdx
	xorl	%ecx, %ecx
	movq	48(%rsp), %r8
	.p2align	4
L(25_44):
	movq	(%rbx,%rcx,8), %rsi
	shlq	$5, %rsi
	vmovups	-96(%rdx), %ymm0
	vmovups	%ymm0, (%r8,%rsi)
	movq	8(%rbx,%rcx,8), %rsi
	shlq	$5, %rsi
	vmovups	-64(%rdx), %ymm0
	vmovups	%ymm0, (%r8,%rsi)
	movq	16(%rbx,%rcx,8), %rsi
	shlq	$5, %rsi
	vmovups	-32(%rdx), %ymm0
	vmovups	%ymm0, (%r8,%rsi)
	movq	24(%rbx,%rcx,8), %rsi
	shlq	$5, %rsi
	vmovdqu	(%rdx), %ymm0
	vmovdqu	%ymm0, (%r8,%rsi)
	addq	$4, %rcx
	subq	$-128, %rdx
	cmpq	%rcx, %r15
	jne	L(25_44)
	testq	%rax, %rax
	je	L(25_48)
L(25_46):
	leaq	(%rbx,%rcx,8), %rdx
	shlq	$5, %rcx
	addq	%rsp, %rcx
	addq	$3464, %rcx
	shll	$3, %eax
	xorl	%esi, %esi
	.p2align	4
L(25_47):
	movq	(%rdx,%rsi), %rdi
	shlq	$5, %rdi
	vmovdqu	(%rcx,%rsi,4), %ymm0
	vmovdqu	%ymm0, (%r8,%rdi)
	addq	$8, %rsi
	cmpq	%rsi, %rax
	jne	L(25_47)
L(25_48):
	leaq	-40(%rbp), %rsp
	popq	%rbx
	popq	%r12
	popq	%r13
	popq	%r14
	popq	%r15
	popq	%rbp
	.cfi_def_cfa %rsp, 8
	vzeroupper
	retq
	SIZE("xet_roots::groups::hash_at")
	.cfi_endproc

SIZED(32, 5)
	.p2align	5, 0x0
D(CPI26_0):
	.byte	7
	.byte	6
	.byte	5
	.byte	4
	.byte	3
	.byte	2
	.byte	1
	.byte	0
	.byte	15
	.byte	14
	.byte	13
	.byte	12
	.byte	11
	.byte	10
	.byte	9
	.byte	8
	.byte	7
	.byte	6
	.byte	5
	.byte	4
	.byte	3
	.byte	2
	.byte	1
	.byte	0
	.byte	15
	.byte	14
	.byte	13
	.byte	12
	.byte	11
	.byte	10
	.byte	9
	.byte	8
D(CPI26_1):
	.zero	32,15
D(CPI26_2):
	.zero	32,159
D(CPI26_3):
	.zero	32,48
D(CPI26_4):
	.zero	32,87
D(CPI26_5):
	.zero	32,9
SIZED(4, 2)
	.p2align	2, 0x0
D(CPI26_6):
	.zero	4,15
D(CPI26_7):
	.zero	4,48
D(CPI26_8):
	.zero	4,87
CODE(".text.xet_roots::groups::write_text")
	.p2align	4
	TYPE("xet_roots::groups::write_text", function)
"xet_roots::groups::write_text":
	.cfi_startproc
	endbr64
	pushq	%r15
	.cfi_def_cfa_offset 16
	pushq	%r14
	.cfi_def_cfa_offset 24
	pushq	%r13
	.cfi_def_cfa_offset 32
	pushq	%r12
	.cfi_def_cfa_offset 40
	pushq	%rbx
	.cfi_def_cfa_offset 48
	subq	$32, %rsp
	.cfi_def_cfa_offset 80
	.cfi_offset %rbx, -48
	.cfi_offset %r12, -40
	.cfi_offset %r13, -32
	.cfi_offset %r14, -24
	.cfi_offset %r15, -16
	testq	%rdx, %rdx
	je	L(26_1)
	movq	%rdx, %rbx
	movq	%rsi, %r14
	movq	%rdi, %r15
	xorl	%edi, %edi
	xorl	%r13d, %r13d
	jmp	L(26_3)
L(26_19):
	movzwl	%r8w, %eax
	movzwl	(%rsi,%rax,2), %eax
	movw	%ax, -3(%rsp,%rcx)
	addq	$-3, %rcx
L(26_20):
	movl	$20, %edx
	subq	%rcx, %rdx
	leaq	(%rdx,%rdi), %r12
	addq	%r15, %rdi
	leaq	(%rsp,%rcx), %rsi
	vzeroupper
	callq	PLT(memcpy)
L(26_21):
	movb	$10, (%r15,%r12)
	incq	%r12
	incq	%r13
	movq	%r12, %rdi
	cmpq	%rbx, %r13
	je	L(26_22)
L(26_3):
	leaq	(,%r13,4), %rax
	addq	%r13, %rax
	vmovdqu	(%r14,%rax,8), %ymm0
	vpshufb	D(CPI26_0)(%rip), %ymm0, %ymm0
	vpsrlw	$4, %ymm0, %ymm1
	vpbroadcastd	D(CPI26_6)(%rip), %ymm2
	vpminub	D(CPI26_2)(%rip), %ymm0, %ymm3
	vpand	%ymm2, %ymm1, %ymm1
	vpcmpeqb	%ymm3, %ymm0, %ymm3
	vpbroadcastd	D(CPI26_7)(%rip), %ymm4
	vpor	%ymm4, %ymm1, %ymm5
	vpbroadcastd	D(CPI26_8)(%rip), %ymm6
	vpaddb	%ymm6, %ymm1, %ymm1
	vpblendvb	%ymm3, %ymm5, %ymm1, %ymm1
	movq	32(%r14,%rax,8), %rax
	vpand	%ymm2, %ymm0, %ymm0
	vpcmpgtb	D(CPI26_5)(%rip), %ymm0, %ymm2
	vpor	%ymm4, %ymm0, %ymm3
	vpaddb	%ymm6, %ymm0, %ymm0
	vpblendvb	%ymm2, %ymm0, %ymm3, %ymm0
	vpunpckhbw	%ymm0, %ymm1, %ymm2
	vpunpcklbw	%ymm0, %ymm1, %ymm0
	vperm2i128	$32, %ymm2, %ymm0, %ymm1
	vperm2i128	$49, %ymm2, %ymm0, %ymm0
	vmovdqu	%ymm0, 32(%r15,%rdi)
	vmovdqu	%ymm1, (%r15,%rdi)
	leaq	(%r15,%rdi), %rcx
	addq	$64, %rcx
	leaq	D(static.3)(%rip), %rdx
	movq	%rcx, %rsi
	subq	%rdx, %rsi
	cmpq	$2, %rsi
	ja	L(26_5)
	leaq	(%r15,%rdi), %rcx
	movw	$14880, 64(%rcx)
	movb	$32, 66(%rcx)
	cmpq	$99999999, %rax
	jbe	L(26_7)
L(26_11):
	addq	$67, %rdi
	vpxor	%xmm0, %xmm0, %xmm0
	vmovdqa	%xmm0, (%rsp)
	movl	$0, 16(%rsp)
	movl	$19, %ecx
	.p2align	4
L(26_12):
	movq	%rax, %rdx
	movabsq	$3777893186295716171, %rax
	mulxq	%rax, %rax, %rax
	shrq	$11, %rax
	imull	$10000, %eax, %esi
	movl	%edx, %r8d
	subl	%esi, %r8d
	imull	$5243, %r8d, %r9d
	shrl	$19, %r9d
	imull	$100, %r9d, %esi
	subl	%esi, %r8d
	movzwl	%r8w, %r8d
	leaq	D(static.6)(%rip), %rsi
	movzwl	(%rsi,%r8,2), %r8d
	movw	%r8w, -1(%rsp,%rcx)
	movzwl	(%rsi,%r9,2), %r8d
	movw	%r8w, -3(%rsp,%rcx)
	addq	$-4, %rcx
	cmpq	$99999999, %rdx
	ja	L(26_12)
	cmpq	$999999, %rdx
	ja	L(26_17)
	cmpq	$99999, %rdx
	ja	L(26_16)
	orb	$48, %al
	movb	%al, (%rsp,%rcx)
	jmp	L(26_20)
	.p2align	4
L(26_5):
	movb	$32, 2(%rcx)
	movw	$14880, (%rcx)
	cmpq	$99999999, %rax
	ja	L(26_11)
L(26_7):
	xorl	%ecx, %ecx
	cmpq	$9999, %rax
	ja	L(26_9)
	cmpq	$1000, %rax
	adcq	$4, %rcx
	cmpq	$100, %rax
	movl	$6, %edx
	cmovaeq	%rcx, %rdx
	cmpq	$10, %rax
	movl	$7, %ecx
	jmp	L(26_10)
	.p2align	4
L(26_17):
	movl	%eax, %r8d
	shrl	$2, %r8d
	movzwl	%r8w, %r8d
	imull	$5243, %r8d, %r8d
	shrl	$17, %r8d
	imull	$100, %r8d, %r9d
	subl	%r9d, %eax
	movzwl	%ax, %eax
	movzwl	(%rsi,%rax,2), %eax
	movw	%ax, -1(%rsp,%rcx)
	cmpq	$9999999, %rdx
	ja	L(26_19)
	orb	$48, %r8b
	movb	%r8b, -2(%rsp,%rcx)
	addq	$-2, %rcx
	jmp	L(26_20)
	.p2align	4
L(26_9):
	cmpq	$10000000, %rax
	setb	%cl
	cmpq	$1000000, %rax
	movl	$2, %edx
	cmovaeq	%rcx, %rdx
	cmpq	$100000, %rax
	movl	$3, %ecx
L(26_10):
	cmovaeq	%rdx, %rcx
	movl	$3518437209, %edx
	imulq	%rax, %rdx
	shrq	$45, %rdx
	movzwl	%dx, %esi
	shrl	$2, %esi
	imull	$5243, %esi, %esi
	shrl	$17, %esi
	leaq	D(static.6)(%rip), %r8
	movzwl	(%r8,%rsi,2), %r9d
	imull	$100, %esi, %esi
	imull	$10000, %edx, %r10d
	subl	%esi, %edx
	movzwl	%dx, %edx
	movzwl	(%r8,%rdx,2), %edx
	shll	$16, %edx
	orq	%r9, %rdx
	subl	%r10d, %eax
	imull	$5243, %eax, %esi
	shrl	$19, %esi
	movzwl	(%r8,%rsi,2), %r9d
	imull	$100, %esi, %esi
	subl	%esi, %eax
	movzwl	%ax, %eax
	movzwl	(%r8,%rax,2), %eax
	shlq	$48, %rax
	shlq	$32, %r9
	orq	%rdx, %r9
	orq	%rax, %r9
	leal	(,%rcx,8), %eax
	shrxq	%rax, %r9, %rax
	movq	%rax, 67(%r15,%rdi)
	subq	%rcx, %rdi
	addq	$75, %rdi
	movq	%rdi, %r12
	jmp	L(26_21)
L(26_16):
	movzwl	(%rsi,%rax,2), %eax
	movw	%ax, -1(%rsp,%rcx)
	decq	%rcx
	jmp	L(26_20)
L(26_1):
	xorl	%r12d, %r12d
L(26_22):
	movq	%r12, %rax
	addq	$32, %rsp
	.cfi_def_cfa_offset 48
	popq	%rbx
	.cfi_def_cfa_offset 40
	popq	%r12
	.cfi_def_cfa_offset 32
	popq	%r13
	.cfi_def_cfa_offset 24
	popq	%r14
	.cfi_def_cfa_offset 16
	popq	%r15
	.cfi_def_cfa_offset 8
	vzeroupper
	retq
	SIZE("xet_roots::groups::write_text")
	.cfi_endproc

SIZED(4, 2)
	.p2align	2, 0x0
D(CPI27_0):
	.long	1779033703
D(CPI27_1):
	.long	3144134277
D(CPI27_2):
	.long	1013904242
D(CPI27_3):
	.long	2773480762
CODE(".text.keyed_blake3::chunks::take_block::<#2e65a0a13cda87df>")
	.p2align	4
	TYPE("keyed_blake3::chunks::take_block::<#2e65a0a13cda87df>", function)
"keyed_blake3::chunks::take_block::<#2e65a0a13cda87df>":
	.cfi_startproc
	pushq	%rbp
	.cfi_def_cfa_offset 16
	.cfi_offset %rbp, -16
	movq	%rsp, %rbp
	.cfi_def_cfa_register %rbp
	pushq	%r15
	pushq	%r14
	pushq	%r12
	pushq	%rbx
	andq	$-64, %rsp
	subq	$64, %rsp
	.cfi_offset %rbx, -48
	.cfi_offset %r12, -40
	.cfi_offset %r14, -32
	.cfi_offset %r15, -24
	movq	16(%rbp), %rax
	shlq	$6, %rcx
	addq	%rsi, %rcx
	movq	(%rdx), %rsi
	movq	8(%rdx), %r10
	shlq	$10, %rsi
	vmovdqu	(%rsi,%rcx), %ymm0
	prefetcht0	128(%rsi,%rcx)
	vmovdqu	32(%rsi,%rcx), %ymm1
	shlq	$10, %r10
	vmovdqu	(%r10,%rcx), %ymm2
	prefetcht0	128(%r10,%rcx)
	vmovdqu	32(%r10,%rcx), %ymm3
	movq	16(%rdx), %rsi
	shlq	$10, %rsi
	vmovdqu	(%rsi,%rcx), %ymm4
	prefetcht0	128(%rsi,%rcx)
	vmovdqu	32(%rsi,%rcx), %ymm5
	movq	24(%rdx), %rsi
	shlq	$10, %rsi
	vmovdqu	(%rsi,%rcx), %ymm6
	prefetcht0	128(%rsi,%rcx)
	vmovdqu	32(%rsi,%rcx), %ymm7
	movq	32(%rdx), %rbx
	shlq	$10, %rbx
	movq	40(%rdx), %r11
	shlq	$10, %r11
	movq	48(%rdx), %r10
	shlq	$10, %r10
	movq	56(%rdx), %rsi
	shlq	$10, %rsi
	movq	64(%rdx), %r14
	shlq	$10, %r14
	vmovdqu	(%r14,%rcx), %ymm8
	prefetcht0	128(%r14,%rcx)
	vmovdqu	32(%r14,%rcx), %ymm9
	movq	72(%rdx), %r14
	shlq	$10, %r14
	vmovdqu	(%r14,%rcx), %ymm10
	prefetcht0	128(%r14,%rcx)
	vmovdqu	32(%r14,%rcx), %ymm11
	movq	80(%rdx), %r14
	shlq	$10, %r14
	vmovdqu	(%r14,%rcx), %ymm12
	prefetcht0	128(%r14,%rcx)
	vmovdqu	32(%r14,%rcx), %ymm13
	movq	88(%rdx), %r14
	shlq	$10, %r14
	vmovdqu	(%r14,%rcx), %ymm14
	prefetcht0	128(%r14,%rcx)
	vmovdqu	32(%r14,%rcx), %ymm15
	movq	96(%rdx), %r12
	shlq	$10, %r12
	movq	104(%rdx), %r15
	shlq	$10, %r15
	movq	112(%rdx), %r14
	shlq	$10, %r14
	movq	120(%rdx), %rdx
	shlq	$10, %rdx
	vinserti64x4	$1, (%rbx,%rcx), %zmm0, %zmm0
	prefetcht0	128(%rbx,%rcx)
	vinserti64x4	$1, 32(%rbx,%rcx), %zmm1, %zmm1
	vinserti64x4	$1, (%r11,%rcx), %zmm2, %zmm2
	prefetcht0	128(%r11,%rcx)
	vinserti64x4	$1, 32(%r11,%rcx), %zmm3, %zmm3
	vinserti64x4	$1, (%r10,%rcx), %zmm4, %zmm4
	prefetcht0	128(%r10,%rcx)
	vinserti64x4	$1, 32(%r10,%rcx), %zmm5, %zmm5
	vinserti64x4	$1, (%rsi,%rcx), %zmm6, %zmm6
	prefetcht0	128(%rsi,%rcx)
	vinserti64x4	$1, 32(%rsi,%rcx), %zmm7, %zmm7
	vinserti64x4	$1, (%r12,%rcx), %zmm8, %zmm8
	prefetcht0	128(%r12,%rcx)
	vinserti64x4	$1, 32(%r12,%rcx), %zmm9, %zmm9
	vinserti64x4	$1, (%r15,%rcx), %zmm10, %zmm10
	prefetcht0	128(%r15,%rcx)
	vinserti64x4	$1, 32(%r15,%rcx), %zmm11, %zmm11
	vinserti64x4	$1, (%r14,%rcx), %zmm12, %zmm12
	prefetcht0	128(%r14,%rcx)
	vinserti64x4	$1, 32(%r14,%rcx), %zmm13, %zmm13
	vinserti64x4	$1, (%rdx,%rcx), %zmm14, %zmm14
	prefetcht0	128(%rdx,%rcx)
	vinserti64x4	$1, 32(%rdx,%rcx), %zmm15, %zmm15
	vpunpckldq	%zmm2, %zmm0, %zmm16
	vpunpckhdq	%zmm2, %zmm0, %zmm0
	vpunpckldq	%zmm6, %zmm4, %zmm2
	vpunpckhdq	%zmm6, %zmm4, %zmm4
	vpunpckldq	%zmm10, %zmm8, %zmm6
	vpunpckhdq	%zmm10, %zmm8, %zmm8
	vpunpckldq	%zmm14, %zmm12, %zmm10
	vpunpckhdq	%zmm14, %zmm12, %zmm12
	vpunpckldq	%zmm3, %zmm1, %zmm14
	vpunpckhdq	%zmm3, %zmm1, %zmm1
	vpunpckldq	%zmm7, %zmm5, %zmm3
	vpunpckhdq	%zmm7, %zmm5, %zmm5
	vpunpckldq	%zmm11, %zmm9, %zmm7
	vpunpckhdq	%zmm11, %zmm9, %zmm9
	vpunpckldq	%zmm15, %zmm13, %zmm11
	vpunpckhdq	%zmm15, %zmm13, %zmm13
	vpunpcklqdq	%zmm2, %zmm16, %zmm15
	vpunpckhqdq	%zmm2, %zmm16, %zmm2
	vpunpcklqdq	%zmm4, %zmm0, %zmm16
	vpunpckhqdq	%zmm4, %zmm0, %zmm17
	vpunpcklqdq	%zmm10, %zmm6, %zmm0
	vpunpckhqdq	%zmm10, %zmm6, %zmm4
	vpunpcklqdq	%zmm12, %zmm8, %zmm6
	vpunpckhqdq	%zmm12, %zmm8, %zmm10
	vpunpcklqdq	%zmm3, %zmm14, %zmm18
	vpunpckhqdq	%zmm3, %zmm14, %zmm3
	vpunpcklqdq	%zmm5, %zmm1, %zmm19
	vpunpckhqdq	%zmm5, %zmm1, %zmm20
	vpunpcklqdq	%zmm11, %zmm7, %zmm1
	vpunpckhqdq	%zmm11, %zmm7, %zmm7
	vpunpcklqdq	%zmm13, %zmm9, %zmm11
	vpunpckhqdq	%zmm13, %zmm9, %zmm21
	vshufi64x2	$136, %zmm0, %zmm15, %zmm8
	vshufi64x2	$221, %zmm0, %zmm15, %zmm0
	vshufi64x2	$136, %zmm4, %zmm2, %zmm12
	vshufi64x2	$221, %zmm4, %zmm2, %zmm13
	vshufi64x2	$136, %zmm6, %zmm16, %zmm4
	vshufi64x2	$221, %zmm6, %zmm16, %zmm9
	vshufi64x2	$136, %zmm10, %zmm17, %zmm5
	vshufi64x2	$221, %zmm10, %zmm17, %zmm6
	vshufi64x2	$136, %zmm1, %zmm18, %zmm14
	vshufi64x2	$221, %zmm1, %zmm18, %zmm1
	vshufi64x2	$136, %zmm7, %zmm3, %zmm10
	vshufi64x2	$221, %zmm7, %zmm3, %zmm3
	vshufi64x2	$136, %zmm11, %zmm19, %zmm2
	vshufi64x2	$221, %zmm11, %zmm19, %zmm7
	vshufi64x2	$136, %zmm21, %zmm20, %zmm15
	vshufi64x2	$221, %zmm21, %zmm20, %zmm11
	vmovdqu64	256(%rdi), %zmm16
	vmovdqu64	320(%rdi), %zmm17
	vmovdqu64	384(%rdi), %zmm18
	vmovdqu64	448(%rdi), %zmm19
	vpaddd	(%rdi), %zmm8, %zmm20
	vpaddd	64(%rdi), %zmm4, %zmm21
	vpaddd	%zmm16, %zmm20, %zmm20
	vpaddd	%zmm17, %zmm21, %zmm21
	vpaddd	128(%rdi), %zmm0, %zmm22
	vpaddd	%zmm18, %zmm22, %zmm22
	vpaddd	192(%rdi), %zmm9, %zmm23
	vpaddd	%zmm19, %zmm23, %zmm23
	vpxorq	(%r8), %zmm20, %zmm24
	vpxorq	64(%r8), %zmm21, %zmm25
	vprold	$16, %zmm24, %zmm24
	vprold	$16, %zmm25, %zmm25
	vpxorq	(%r9), %zmm22, %zmm26
	vprold	$16, %zmm26, %zmm26
	vpxorq	(%rax), %zmm23, %zmm27
	vprold	$16, %zmm27, %zmm27
	vpaddd	D(CPI27_0)(%rip){1to16}, %zmm24, %zmm28
	vpaddd	D(CPI27_1)(%rip){1to16}, %zmm25, %zmm29
	vpaddd	D(CPI27_2)(%rip){1to16}, %zmm26, %zmm30
	vpaddd	D(CPI27_3)(%rip){1to16}, %zmm27, %zmm31
	vpxord	%zmm16, %zmm28, %zmm16
	vpxord	%zmm17, %zmm29, %zmm17
	vpxord	%zmm18, %zmm30, %zmm18
	vpxord	%zmm19, %zmm31, %zmm19
	vprold	$20, %zmm16, %zmm16
	vprold	$20, %zmm17, %zmm17
	vprold	$20, %zmm18, %zmm18
	vprold	$20, %zmm19, %zmm19
	vpaddd	%zmm12, %zmm20, %zmm20
	vpaddd	%zmm16, %zmm20, %zmm20
	vpaddd	%zmm5, %zmm21, %zmm21
	vpaddd	%zmm17, %zmm21, %zmm21
	vpaddd	%zmm13, %zmm22, %zmm22
	vpaddd	%zmm18, %zmm22, %zmm22
	vpaddd	%zmm6, %zmm23, %zmm23
	vpaddd	%zmm19, %zmm23, %zmm23
	vpxorq	%zmm20, %zmm24, %zmm24
	vprold	$24, %zmm24, %zmm24
	vpxorq	%zmm21, %zmm25, %zmm25
	vprold	$24, %zmm25, %zmm25
	vpxorq	%zmm22, %zmm26, %zmm26
	vprold	$24, %zmm26, %zmm26
	vpxorq	%zmm23, %zmm27, %zmm27
	vprold	$24, %zmm27, %zmm27
	vpaddd	%zmm24, %zmm28, %zmm28
	vpaddd	%zmm25, %zmm29, %zmm29
	vpaddd	%zmm26, %zmm30, %zmm30
	vpaddd	%zmm27, %zmm31, %zmm31
	vpxord	%zmm16, %zmm28, %zmm16
	vpxord	%zmm17, %zmm29, %zmm17
	vpxord	%zmm18, %zmm30, %zmm18
	vpxord	%zmm19, %zmm31, %zmm19
	vprold	$25, %zmm16, %zmm16
	vprold	$25, %zmm17, %zmm17
	vprold	$25, %zmm18, %zmm18
	vprold	$25, %zmm19, %zmm19
	vpaddd	%zmm7, %zmm23, %zmm23
	vpaddd	%zmm16, %zmm23, %zmm23
	vpaddd	%zmm14, %zmm20, %zmm20
	vpaddd	%zmm17, %zmm20, %zmm20
	vpaddd	%zmm2, %zmm21, %zmm21
	vpaddd	%zmm18, %zmm21, %zmm21
	vpaddd	%zmm1, %zmm22, %zmm22
	vpaddd	%zmm19, %zmm22, %zmm22
	vpxorq	%zmm23, %zmm26, %zmm26
	vprold	$16, %zmm26, %zmm26
	vpxorq	%zmm20, %zmm27, %zmm27
	vprold	$16, %zmm27, %zmm27
	vpxorq	%zmm21, %zmm24, %zmm24
	vprold	$16, %zmm24, %zmm24
	vpxorq	%zmm22, %zmm25, %zmm25
	vprold	$16, %zmm25, %zmm25
	vpaddd	%zmm26, %zmm29, %zmm29
	vpaddd	%zmm27, %zmm30, %zmm30
	vpaddd	%zmm24, %zmm31, %zmm31
	vpaddd	%zmm25, %zmm28, %zmm28
	vpxord	%zmm16, %zmm29, %zmm16
	vpxord	%zmm17, %zmm30, %zmm17
	vpxord	%zmm18, %zmm31, %zmm18
	vpxord	%zmm19, %zmm28, %zmm19
	vprold	$20, %zmm16, %zmm16
	vprold	$20, %zmm17, %zmm17
	vprold	$20, %zmm18, %zmm18
	vprold	$20, %zmm19, %zmm19
	vpaddd	%zmm11, %zmm23, %zmm23
	vpaddd	%zmm16, %zmm23, %zmm23
	vpaddd	%zmm10, %zmm20, %zmm20
	vpaddd	%zmm17, %zmm20, %zmm20
	vpaddd	%zmm15, %zmm21, %zmm21
	vpaddd	%zmm18, %zmm21, %zmm21
	vpaddd	%zmm3, %zmm22, %zmm22
	vpaddd	%zmm19, %zmm22, %zmm22
	vpxorq	%zmm23, %zmm26, %zmm26
	vprold	$24, %zmm26, %zmm26
	vpxorq	%zmm20, %zmm27, %zmm27
	vprold	$24, %zmm27, %zmm27
	vpxorq	%zmm21, %zmm24, %zmm24
	vprold	$24, %zmm24, %zmm24
	vpxorq	%zmm22, %zmm25, %zmm25
	vprold	$24, %zmm25, %zmm25
	vpaddd	%zmm26, %zmm29, %zmm29
	vpaddd	%zmm27, %zmm30, %zmm30
	vpaddd	%zmm24, %zmm31, %zmm31
	vpaddd	%zmm25, %zmm28, %zmm28
	vpxord	%zmm16, %zmm29, %zmm16
	vpxord	%zmm17, %zmm30, %zmm17
	vpxord	%zmm18, %zmm31, %zmm18
	vpxord	%zmm19, %zmm28, %zmm19
	vprold	$25, %zmm16, %zmm16
	vprold	$25, %zmm17, %zmm17
	vprold	$25, %zmm18, %zmm18
	vprold	$25, %zmm19, %zmm19
	vpaddd	%zmm4, %zmm20, %zmm20
	vpaddd	%zmm16, %zmm20, %zmm20
	vpaddd	%zmm5, %zmm21, %zmm21
	vpaddd	%zmm17, %zmm21, %zmm21
	vpaddd	%zmm6, %zmm22, %zmm22
	vpaddd	%zmm18, %zmm22, %zmm22
	vpaddd	%zmm0, %zmm23, %zmm23
	vpaddd	%zmm19, %zmm23, %zmm23
	vpxorq	%zmm20, %zmm24, %zmm24
	vprold	$16, %zmm24, %zmm24
	vpxorq	%zmm21, %zmm25, %zmm25
	vprold	$16, %zmm25, %zmm25
	vpxorq	%zmm22, %zmm26, %zmm26
	vprold	$16, %zmm26, %zmm26
	vpxorq	%zmm23, %zmm27, %zmm27
	vprold	$16, %zmm27, %zmm27
	vpaddd	%zmm24, %zmm28, %zmm28
	vpaddd	%zmm25, %zmm29, %zmm29
	vpaddd	%zmm26, %zmm30, %zmm30
	vpaddd	%zmm27, %zmm31, %zmm31
	vpxord	%zmm16, %zmm28, %zmm16
	vpxord	%zmm17, %zmm29, %zmm17
	vpxord	%zmm18, %zmm30, %zmm18
	vpxord	%zmm19, %zmm31, %zmm19
	vprold	$20, %zmm16, %zmm16
	vprold	$20, %zmm17, %zmm17
	vprold	$20, %zmm18, %zmm18
	vprold	$20, %zmm19, %zmm19
	vpaddd	%zmm9, %zmm20, %zmm20
	vpaddd	%zmm16, %zmm20, %zmm20
	vpaddd	%zmm2, %zmm21, %zmm21
	vpaddd	%zmm17, %zmm21, %zmm21
	vpaddd	%zmm8, %zmm22, %zmm22
	vpaddd	%zmm18, %zmm22, %zmm22
	vpaddd	%zmm3, %zmm23, %zmm23
	vpaddd	%zmm19, %zmm23, %zmm23
	vpxorq	%zmm20, %zmm24, %zmm24
	vprold	$24, %zmm24, %zmm24
	vpxorq	%zmm21, %zmm25, %zmm25
	vprold	$24, %zmm25, %zmm25
	vpxorq	%zmm22, %zmm26, %zmm26
	vprold	$24, %zmm26, %zmm26
	vpxorq	%zmm23, %zmm27, %zmm27
	vprold	$24, %zmm27, %zmm27
	vpaddd	%zmm24, %zmm28, %zmm28
	vpaddd	%zmm25, %zmm29, %zmm29
	vpaddd	%zmm26, %zmm30, %zmm30
	vpaddd	%zmm27, %zmm31, %zmm31
	vpxord	%zmm16, %zmm28, %zmm16
	vpxord	%zmm17, %zmm29, %zmm17
	vpxord	%zmm18, %zmm30, %zmm18
	vpxord	%zmm19, %zmm31, %zmm19
	vprold	$25, %zmm16, %zmm16
	vprold	$25, %zmm17, %zmm17
	vprold	$25, %zmm18, %zmm18
	vprold	$25, %zmm19, %zmm19
	vpaddd	%zmm11, %zmm23, %zmm23
	vpaddd	%zmm16, %zmm23, %zmm23
	vpaddd	%zmm12, %zmm20, %zmm20
	vpaddd	%zmm17, %zmm20, %zmm20
	vpaddd	%zmm1, %zmm21, %zmm21
	vpaddd	%zmm18, %zmm21, %zmm21
	vpaddd	%zmm10, %zmm22, %zmm22
	vpaddd	%zmm19, %zmm22, %zmm22
	vpxorq	%zmm23, %zmm26, %zmm26
	vprold	$16, %zmm26, %zmm26
	vpxorq	%zmm20, %zmm27, %zmm27
	vprold	$16, %zmm27, %zmm27
	vpxorq	%zmm21, %zmm24, %zmm24
	vprold	$16, %zmm24, %zmm24
	vpxorq	%zmm22, %zmm25, %zmm25
	vprold	$16, %zmm25, %zmm25
	vpaddd	%zmm26, %zmm29, %zmm29
	vpaddd	%zmm27, %zmm30, %zmm30
	vpaddd	%zmm24, %zmm31, %zmm31
	vpaddd	%zmm25, %zmm28, %zmm28
	vpxord	%zmm16, %zmm29, %zmm16
	vpxord	%zmm17, %zmm30, %zmm17
	vpxord	%zmm18, %zmm31, %zmm18
	vpxord	%zmm19, %zmm28, %zmm19
	vprold	$20, %zmm16, %zmm16
	vprold	$20, %zmm17, %zmm17
	vprold	$20, %zmm18, %zmm18
	vprold	$20, %zmm19, %zmm19
	vpaddd	%zmm14, %zmm23, %zmm23
	vpaddd	%zmm16, %zmm23, %zmm23
	vpaddd	%zmm15, %zmm20, %zmm20
	vpaddd	%zmm17, %zmm20, %zmm20
	vpaddd	%zmm13, %zmm21, %zmm21
	vpaddd	%zmm18, %zmm21, %zmm21
	vpaddd	%zmm7, %zmm22, %zmm22
	vpaddd	%zmm19, %zmm22, %zmm22
	vpxorq	%zmm23, %zmm26, %zmm26
	vprold	$24, %zmm26, %zmm26
	vpxorq	%zmm20, %zmm27, %zmm27
	vprold	$24, %zmm27, %zmm27
	vpxorq	%zmm21, %zmm24, %zmm24
	vprold	$24, %zmm24, %zmm24
	vpxorq	%zmm22, %zmm25, %zmm25
	vprold	$24, %zmm25, %zmm25
	vpaddd	%zmm26, %zmm29, %zmm29
	vpaddd	%zmm27, %zmm30, %zmm30
	vpaddd	%zmm24, %zmm31, %zmm31
	vpaddd	%zmm25, %zmm28, %zmm28
	vpxord	%zmm16, %zmm29, %zmm16
	vpxord	%zmm17, %zmm30, %zmm17
	vpxord	%zmm18, %zmm31, %zmm18
	vpxord	%zmm19, %zmm28, %zmm19
	vprold	$25, %zmm16, %zmm16
	vprold	$25, %zmm17, %zmm17
	vprold	$25, %zmm18, %zmm18
	vprold	$25, %zmm19, %zmm19
	vpaddd	%zmm5, %zmm20, %zmm20
	vpaddd	%zmm16, %zmm20, %zmm20
	vpaddd	%zmm2, %zmm21, %zmm21
	vpaddd	%zmm17, %zmm21, %zmm21
	vpaddd	%zmm3, %zmm22, %zmm22
	vpaddd	%zmm18, %zmm22, %zmm22
	vpaddd	%zmm6, %zmm23, %zmm23
	vpaddd	%zmm19, %zmm23, %zmm23
	vpxorq	%zmm20, %zmm24, %zmm24
	vprold	$16, %zmm24, %zmm24
	vpxorq	%zmm21, %zmm25, %zmm25
	vprold	$16, %zmm25, %zmm25
	vpxorq	%zmm22, %zmm26, %zmm26
	vprold	$16, %zmm26, %zmm26
	vpxorq	%zmm23, %zmm27, %zmm27
	vprold	$16, %zmm27, %zmm27
	vpaddd	%zmm24, %zmm28, %zmm28
	vpaddd	%zmm25, %zmm29, %zmm29
	vpaddd	%zmm26, %zmm30, %zmm30
	vpaddd	%zmm27, %zmm31, %zmm31
	vpxord	%zmm16, %zmm28, %zmm16
	vpxord	%zmm17, %zmm29, %zmm17
	vpxord	%zmm18, %zmm30, %zmm18
	vpxord	%zmm19, %zmm31, %zmm19
	vprold	$20, %zmm16, %zmm16
	vprold	$20, %zmm17, %zmm17
	vprold	$20, %zmm18, %zmm18
	vprold	$20, %zmm19, %zmm19
	vpaddd	%zmm0, %zmm20, %zmm20
	vpaddd	%zmm16, %zmm20, %zmm20
	vpaddd	%zmm1, %zmm21, %zmm21
	vpaddd	%zmm17, %zmm21, %zmm21
	vpaddd	%zmm4, %zmm22, %zmm22
	vpaddd	%zmm18, %zmm22, %zmm22
	vpaddd	%zmm7, %zmm23, %zmm23
	vpaddd	%zmm19, %zmm23, %zmm23
	vpxorq	%zmm20, %zmm24, %zmm24
	vprold	$24, %zmm24, %zmm24
	vpxorq	%zmm21, %zmm25, %zmm25
	vprold	$24, %zmm25, %zmm25
	vpxorq	%zmm22, %zmm26, %zmm26
	vprold	$24, %zmm26, %zmm26
	vpxorq	%zmm23, %zmm27, %zmm27
	vprold	$24, %zmm27, %zmm27
	vpaddd	%zmm24, %zmm28, %zmm28
	vpaddd	%zmm25, %zmm29, %zmm29
	vpaddd	%zmm26, %zmm30, %zmm30
	vpaddd	%zmm27, %zmm31, %zmm31
	vpxord	%zmm16, %zmm28, %zmm16
	vpxord	%zmm17, %zmm29, %zmm17
	vpxord	%zmm18, %zmm30, %zmm18
	vpxord	%zmm19, %zmm31, %zmm19
	vprold	$25, %zmm16, %zmm16
	vprold	$25, %zmm17, %zmm17
	vprold	$25, %zmm18, %zmm18
	vprold	$25, %zmm19, %zmm19
	vpaddd	%zmm14, %zmm23, %zmm23
	vpaddd	%zmm16, %zmm23, %zmm23
	vpaddd	%zmm9, %zmm20, %zmm20
	vpaddd	%zmm17, %zmm20, %zmm20
	vpaddd	%zmm10, %zmm21, %zmm21
	vpaddd	%zmm18, %zmm21, %zmm21
	vpaddd	%zmm15, %zmm22, %zmm22
	vpaddd	%zmm19, %zmm22, %zmm22
	vpxorq	%zmm23, %zmm26, %zmm26
	vprold	$16, %zmm26, %zmm26
	vpxorq	%zmm20, %zmm27, %zmm27
	vprold	$16, %zmm27, %zmm27
	vpxorq	%zmm21, %zmm24, %zmm24
	vprold	$16, %zmm24, %zmm24
	vpxorq	%zmm22, %zmm25, %zmm25
	vprold	$16, %zmm25, %zmm25
	vpaddd	%zmm26, %zmm29, %zmm29
	vpaddd	%zmm27, %zmm30, %zmm30
	vpaddd	%zmm24, %zmm31, %zmm31
	vpaddd	%zmm25, %zmm28, %zmm28
	vpxord	%zmm16, %zmm29, %zmm16
	vpxord	%zmm17, %zmm30, %zmm17
	vpxord	%zmm18, %zmm31, %zmm18
	vpxord	%zmm19, %zmm28, %zmm19
	vprold	$20, %zmm16, %zmm16
	vprold	$20, %zmm17, %zmm17
	vprold	$20, %zmm18, %zmm18
	vprold	$20, %zmm19, %zmm19
	vpaddd	%zmm12, %zmm23, %zmm23
	vpaddd	%zmm16, %zmm23, %zmm23
	vpaddd	%zmm13, %zmm20, %zmm20
	vpaddd	%zmm17, %zmm20, %zmm20
	vpaddd	%zmm8, %zmm21, %zmm21
	vpaddd	%zmm18, %zmm21, %zmm21
	vpaddd	%zmm11, %zmm22, %zmm22
	vpaddd	%zmm19, %zmm22, %zmm22
	vpxorq	%zmm23, %zmm26, %zmm26
	vprold	$24, %zmm26, %zmm26
	vpxorq	%zmm20, %zmm27, %zmm27
	vprold	$24, %zmm27, %zmm27
	vpxorq	%zmm21, %zmm24, %zmm24
	vprold	$24, %zmm24, %zmm24
	vpxorq	%zmm22, %zmm25, %zmm25
	vprold	$24, %zmm25, %zmm25
	vpaddd	%zmm26, %zmm29, %zmm29
	vpaddd	%zmm27, %zmm30, %zmm30
	vpaddd	%zmm24, %zmm31, %zmm31
	vpaddd	%zmm25, %zmm28, %zmm28
	vpxord	%zmm16, %zmm29, %zmm16
	vpxord	%zmm17, %zmm30, %zmm17
	vpxord	%zmm18, %zmm31, %zmm18
	vpxord	%zmm19, %zmm28, %zmm19
	vprold	$25, %zmm16, %zmm16
	vprold	$25, %zmm17, %zmm17
	vprold	$25, %zmm18, %zmm18
	vprold	$25, %zmm19, %zmm19
	vpaddd	%zmm2, %zmm20, %zmm20
	vpaddd	%zmm16, %zmm20, %zmm20
	vpaddd	%zmm1, %zmm21, %zmm21
	vpaddd	%zmm17, %zmm21, %zmm21
	vpaddd	%zmm7, %zmm22, %zmm22
	vpaddd	%zmm18, %zmm22, %zmm22
	vpaddd	%zmm3, %zmm23, %zmm23
	vpaddd	%zmm19, %zmm23, %zmm23
	vpxorq	%zmm20, %zmm24, %zmm24
	vprold	$16, %zmm24, %zmm24
	vpxorq	%zmm21, %zmm25, %zmm25
	vprold	$16, %zmm25, %zmm25
	vpxorq	%zmm22, %zmm26, %zmm26
	vprold	$16, %zmm26, %zmm26
	vpxorq	%zmm23, %zmm27, %zmm27
	vprold	$16, %zmm27, %zmm27
	vpaddd	%zmm24, %zmm28, %zmm28
	vpaddd	%zmm25, %zmm29, %zmm29
	vpaddd	%zmm26, %zmm30, %zmm30
	vpaddd	%zmm27, %zmm31, %zmm31
	vpxord	%zmm16, %zmm28, %zmm16
	vpxord	%zmm17, %zmm29, %zmm17
	vpxord	%zmm18, %zmm30, %zmm18
	vpxord	%zmm19, %zmm31, %zmm19
	vprold	$20, %zmm16, %zmm16
	vprold	$20, %zmm17, %zmm17
	vprold	$20, %zmm18, %zmm18
	vprold	$20, %zmm19, %zmm19
	vpaddd	%zmm6, %zmm20, %zmm20
	vpaddd	%zmm16, %zmm20, %zmm20
	vpaddd	%zmm10, %zmm21, %zmm21
	vpaddd	%zmm17, %zmm21, %zmm21
	vpaddd	%zmm5, %zmm22, %zmm22
	vpaddd	%zmm18, %zmm22, %zmm22
	vpaddd	%zmm11, %zmm23, %zmm23
	vpaddd	%zmm19, %zmm23, %zmm23
	vpxorq	%zmm20, %zmm24, %zmm24
	vprold	$24, %zmm24, %zmm24
	vpxorq	%zmm21, %zmm25, %zmm25
	vprold	$24, %zmm25, %zmm25
	vpxorq	%zmm22, %zmm26, %zmm26
	vprold	$24, %zmm26, %zmm26
	vpxorq	%zmm23, %zmm27, %zmm27
	vprold	$24, %zmm27, %zmm27
	vpaddd	%zmm24, %zmm28, %zmm28
	vpaddd	%zmm25, %zmm29, %zmm29
	vpaddd	%zmm26, %zmm30, %zmm30
	vpaddd	%zmm27, %zmm31, %zmm31
	vpxord	%zmm16, %zmm28, %zmm16
	vpxord	%zmm17, %zmm29, %zmm17
	vpxord	%zmm18, %zmm30, %zmm18
	vpxord	%zmm19, %zmm31, %zmm19
	vprold	$25, %zmm16, %zmm16
	vprold	$25, %zmm17, %zmm17
	vprold	$25, %zmm18, %zmm18
	vprold	$25, %zmm19, %zmm19
	vpaddd	%zmm12, %zmm23, %zmm23
	vpaddd	%zmm16, %zmm23, %zmm23
	vpaddd	%zmm0, %zmm20, %zmm20
	vpaddd	%zmm17, %zmm20, %zmm20
	vpaddd	%zmm15, %zmm21, %zmm21
	vpaddd	%zmm18, %zmm21, %zmm21
	vpaddd	%zmm13, %zmm22, %zmm22
	vpaddd	%zmm19, %zmm22, %zmm22
	vpxorq	%zmm23, %zmm26, %zmm26
	vprold	$16, %zmm26, %zmm26
	vpxorq	%zmm20, %zmm27, %zmm27
	vprold	$16, %zmm27, %zmm27
	vpxorq	%zmm21, %zmm24, %zmm24
	vprold	$16, %zmm24, %zmm24
	vpxorq	%zmm22, %zmm25, %zmm25
	vprold	$16, %zmm25, %zmm25
	vpaddd	%zmm26, %zmm29, %zmm29
	vpaddd	%zmm27, %zmm30, %zmm30
	vpaddd	%zmm24, %zmm31, %zmm31
	vpaddd	%zmm25, %zmm28, %zmm28
	vpxord	%zmm16, %zmm29, %zmm16
	vpxord	%zmm17, %zmm30, %zmm17
	vpxord	%zmm18, %zmm31, %zmm18
	vpxord	%zmm19, %zmm28, %zmm19
	vprold	$20, %zmm16, %zmm16
	vprold	$20, %zmm17, %zmm17
	vprold	$20, %zmm18, %zmm18
	vprold	$20, %zmm19, %zmm19
	vpaddd	%zmm9, %zmm23, %zmm23
	vpaddd	%zmm16, %zmm23, %zmm23
	vpaddd	%zmm8, %zmm20, %zmm20
	vpaddd	%zmm17, %zmm20, %zmm20
	vpaddd	%zmm4, %zmm21, %zmm21
	vpaddd	%zmm18, %zmm21, %zmm21
	vpaddd	%zmm14, %zmm22, %zmm22
	vpaddd	%zmm19, %zmm22, %zmm22
	vpxorq	%zmm23, %zmm26, %zmm26
	vprold	$24, %zmm26, %zmm26
	vpxorq	%zmm20, %zmm27, %zmm27
	vprold	$24, %zmm27, %zmm27
	vpxorq	%zmm21, %zmm24, %zmm24
	vprold	$24, %zmm24, %zmm24
	vpxorq	%zmm22, %zmm25, %zmm25
	vprold	$24, %zmm25, %zmm25
	vpaddd	%zmm26, %zmm29, %zmm29
	vpaddd	%zmm27, %zmm30, %zmm30
	vpaddd	%zmm24, %zmm31, %zmm31
	vpaddd	%zmm25, %zmm28, %zmm28
	vpxord	%zmm16, %zmm29, %zmm16
	vpxord	%zmm17, %zmm30, %zmm17
	vpxord	%zmm18, %zmm31, %zmm18
	vpxord	%zmm19, %zmm28, %zmm19
	vprold	$25, %zmm16, %zmm16
	vprold	$25, %zmm17, %zmm17
	vprold	$25, %zmm18, %zmm18
	vprold	$25, %zmm19, %zmm19
	vpaddd	%zmm1, %zmm20, %zmm20
	vpaddd	%zmm16, %zmm20, %zmm20
	vpaddd	%zmm10, %zmm21, %zmm21
	vpaddd	%zmm17, %zmm21, %zmm21
	vpaddd	%zmm11, %zmm22, %zmm22
	vpaddd	%zmm18, %zmm22, %zmm22
	vpaddd	%zmm7, %zmm23, %zmm23
	vpaddd	%zmm19, %zmm23, %zmm23
	vpxorq	%zmm20, %zmm24, %zmm24
	vprold	$16, %zmm24, %zmm24
	vpxorq	%zmm21, %zmm25, %zmm25
	vprold	$16, %zmm25, %zmm25
	vpxorq	%zmm22, %zmm26, %zmm26
	vprold	$16, %zmm26, %zmm26
	vpxorq	%zmm23, %zmm27, %zmm27
	vprold	$16, %zmm27, %zmm27
	vpaddd	%zmm24, %zmm28, %zmm28
	vpaddd	%zmm25, %zmm29, %zmm29
	vpaddd	%zmm26, %zmm30, %zmm30
	vpaddd	%zmm27, %zmm31, %zmm31
	vpxord	%zmm16, %zmm28, %zmm16
	vpxord	%zmm17, %zmm29, %zmm17
	vpxord	%zmm18, %zmm30, %zmm18
	vpxord	%zmm19, %zmm31, %zmm19
	vprold	$20, %zmm16, %zmm16
	vprold	$20, %zmm17, %zmm17
	vprold	$20, %zmm18, %zmm18
	vprold	$20, %zmm19, %zmm19
	vpaddd	%zmm3, %zmm20, %zmm20
	vpaddd	%zmm16, %zmm20, %zmm20
	vpaddd	%zmm15, %zmm21, %zmm21
	vpaddd	%zmm17, %zmm21, %zmm21
	vpaddd	%zmm2, %zmm22, %zmm22
	vpaddd	%zmm18, %zmm22, %zmm22
	vpaddd	%zmm14, %zmm23, %zmm23
	vpaddd	%zmm19, %zmm23, %zmm23
	vpxorq	%zmm20, %zmm24, %zmm24
	vprold	$24, %zmm24, %zmm24
	vpxorq	%zmm21, %zmm25, %zmm25
	vprold	$24, %zmm25, %zmm25
	vpxorq	%zmm22, %zmm26, %zmm26
	vprold	$24, %zmm26, %zmm26
	vpxorq	%zmm23, %zmm27, %zmm27
	vprold	$24, %zmm27, %zmm27
	vpaddd	%zmm24, %zmm28, %zmm28
	vpaddd	%zmm25, %zmm29, %zmm29
	vpaddd	%zmm26, %zmm30, %zmm30
	vpaddd	%zmm27, %zmm31, %zmm31
	vpxord	%zmm16, %zmm28, %zmm16
	vpxord	%zmm17, %zmm29, %zmm17
	vpxord	%zmm18, %zmm30, %zmm18
	vpxord	%zmm19, %zmm31, %zmm19
	vprold	$25, %zmm16, %zmm16
	vprold	$25, %zmm17, %zmm17
	vprold	$25, %zmm18, %zmm18
	vprold	$25, %zmm19, %zmm19
	vpaddd	%zmm9, %zmm23, %zmm23
	vpaddd	%zmm16, %zmm23, %zmm23
	vpaddd	%zmm6, %zmm20, %zmm20
	vpaddd	%zmm17, %zmm20, %zmm20
	vpaddd	%zmm13, %zmm21, %zmm21
	vpaddd	%zmm18, %zmm21, %zmm21
	vpaddd	%zmm8, %zmm22, %zmm22
	vpaddd	%zmm19, %zmm22, %zmm22
	vpxorq	%zmm23, %zmm26, %zmm26
	vprold	$16, %zmm26, %zmm26
	vpxorq	%zmm20, %zmm27, %zmm27
	vprold	$16, %zmm27, %zmm27
	vpxorq	%zmm21, %zmm24, %zmm24
	vprold	$16, %zmm24, %zmm24
	vpxorq	%zmm22, %zmm25, %zmm25
	vprold	$16, %zmm25, %zmm25
	vpaddd	%zmm26, %zmm29, %zmm29
	vpaddd	%zmm27, %zmm30, %zmm30
	vpaddd	%zmm24, %zmm31, %zmm31
	vpaddd	%zmm25, %zmm28, %zmm28
	vpxord	%zmm16, %zmm29, %zmm16
	vpxord	%zmm17, %zmm30, %zmm17
	vpxord	%zmm18, %zmm31, %zmm18
	vpxord	%zmm19, %zmm28, %zmm19
	vprold	$20, %zmm16, %zmm16
	vprold	$20, %zmm17, %zmm17
	vprold	$20, %zmm18, %zmm18
	vprold	$20, %zmm19, %zmm19
	vpaddd	%zmm0, %zmm23, %zmm23
	vpaddd	%zmm16, %zmm23, %zmm23
	vpaddd	%zmm4, %zmm20, %zmm20
	vpaddd	%zmm17, %zmm20, %zmm20
	vpaddd	%zmm5, %zmm21, %zmm21
	vpaddd	%zmm18, %zmm21, %zmm21
	vpaddd	%zmm12, %zmm22, %zmm22
	vpaddd	%zmm19, %zmm22, %zmm22
	vpxorq	%zmm23, %zmm26, %zmm26
	vprold	$24, %zmm26, %zmm26
	vpxorq	%zmm20, %zmm27, %zmm27
	vprold	$24, %zmm27, %zmm27
	vpxorq	%zmm21, %zmm24, %zmm24
	vprold	$24, %zmm24, %zmm24
	vpxorq	%zmm22, %zmm25, %zmm25
	vprold	$24, %zmm25, %zmm25
	vpaddd	%zmm26, %zmm29, %zmm29
	vpaddd	%zmm27, %zmm30, %zmm30
	vpaddd	%zmm24, %zmm31, %zmm31
	vpaddd	%zmm25, %zmm28, %zmm28
	vpxord	%zmm16, %zmm29, %zmm16
	vpxord	%zmm17, %zmm30, %zmm17
	vpxord	%zmm18, %zmm31, %zmm18
	vpxord	%zmm19, %zmm28, %zmm19
	vprold	$25, %zmm16, %zmm16
	vprold	$25, %zmm17, %zmm17
	vprold	$25, %zmm18, %zmm18
	vprold	$25, %zmm19, %zmm19
	vpaddd	%zmm10, %zmm20, %zmm20
	vpaddd	%zmm16, %zmm20, %zmm20
	vpaddd	%zmm15, %zmm21, %zmm21
	vpaddd	%zmm17, %zmm21, %zmm21
	vpaddd	%zmm14, %zmm22, %zmm22
	vpaddd	%zmm18, %zmm22, %zmm22
	vpaddd	%zmm11, %zmm23, %zmm23
	vpaddd	%zmm19, %zmm23, %zmm23
	vpxorq	%zmm20, %zmm24, %zmm24
	vprold	$16, %zmm24, %zmm24
	vpxorq	%zmm21, %zmm25, %zmm25
	vprold	$16, %zmm25, %zmm25
	vpxorq	%zmm22, %zmm26, %zmm26
	vprold	$16, %zmm26, %zmm26
	vpxorq	%zmm23, %zmm27, %zmm27
	vprold	$16, %zmm27, %zmm27
	vpaddd	%zmm24, %zmm28, %zmm28
	vpaddd	%zmm25, %zmm29, %zmm29
	vpaddd	%zmm26, %zmm30, %zmm30
	vpaddd	%zmm27, %zmm31, %zmm31
	vpxord	%zmm16, %zmm28, %zmm16
	vpxord	%zmm17, %zmm29, %zmm17
	vpxord	%zmm18, %zmm30, %zmm18
	vpxord	%zmm19, %zmm31, %zmm19
	vprold	$20, %zmm16, %zmm16
	vprold	$20, %zmm17, %zmm17
	vprold	$20, %zmm18, %zmm18
	vprold	$20, %zmm19, %zmm19
	vpaddd	%zmm7, %zmm20, %zmm20
	vpaddd	%zmm16, %zmm20, %zmm20
	vpaddd	%zmm13, %zmm21, %zmm21
	vpaddd	%zmm17, %zmm21, %zmm21
	vpaddd	%zmm1, %zmm22, %zmm22
	vpaddd	%zmm18, %zmm22, %zmm22
	vpaddd	%zmm12, %zmm23, %zmm23
	vpaddd	%zmm19, %zmm23, %zmm23
	vpxorq	%zmm20, %zmm24, %zmm24
	vprold	$24, %zmm24, %zmm24
	vpxorq	%zmm21, %zmm25, %zmm25
	vprold	$24, %zmm25, %zmm25
	vpxorq	%zmm22, %zmm26, %zmm26
	vprold	$24, %zmm26, %zmm26
	vpxorq	%zmm23, %zmm27, %zmm27
	vprold	$24, %zmm27, %zmm27
	vpaddd	%zmm24, %zmm28, %zmm28
	vpaddd	%zmm25, %zmm29, %zmm29
	vpaddd	%zmm26, %zmm30, %zmm30
	vpaddd	%zmm27, %zmm31, %zmm31
	vpxord	%zmm16, %zmm28, %zmm16
	vpxord	%zmm17, %zmm29, %zmm17
	vpxord	%zmm18, %zmm30, %zmm18
	vpxord	%zmm19, %zmm31, %zmm19
	vprold	$25, %zmm16, %zmm16
	vprold	$25, %zmm17, %zmm17
	vprold	$25, %zmm18, %zmm18
	vprold	$25, %zmm19, %zmm19
	vpaddd	%zmm0, %zmm23, %zmm23
	vpaddd	%zmm16, %zmm23, %zmm23
	vpaddd	%zmm3, %zmm20, %zmm20
	vpaddd	%zmm17, %zmm20, %zmm20
	vpaddd	%zmm8, %zmm21, %zmm21
	vpaddd	%zmm18, %zmm21, %zmm21
	vpaddd	%zmm4, %zmm22, %zmm22
	vpaddd	%zmm19, %zmm22, %zmm22
	vpxorq	%zmm23, %zmm26, %zmm26
	vprold	$16, %zmm26, %zmm26
	vpxorq	%zmm20, %zmm27, %zmm27
	vprold	$16, %zmm27, %zmm27
	vpxorq	%zmm21, %zmm24, %zmm24
	vprold	$16, %zmm24, %zmm24
	vpxorq	%zmm22, %zmm25, %zmm25
	vprold	$16, %zmm25, %zmm25
	vpaddd	%zmm26, %zmm29, %zmm29
	vpaddd	%zmm27, %zmm30, %zmm30
	vpaddd	%zmm24, %zmm31, %zmm31
	vpaddd	%zmm25, %zmm28, %zmm28
	vpxord	%zmm16, %zmm29, %zmm16
	vpxord	%zmm17, %zmm30, %zmm17
	vpxord	%zmm18, %zmm31, %zmm18
	vpxord	%zmm19, %zmm28, %zmm19
	vprold	$20, %zmm16, %zmm16
	vprold	$20, %zmm17, %zmm17
	vprold	$20, %zmm18, %zmm18
	vprold	$20, %zmm19, %zmm19
	vpaddd	%zmm6, %zmm23, %zmm23
	vpaddd	%zmm16, %zmm23, %zmm23
	vpaddd	%zmm5, %zmm20, %zmm20
	vpaddd	%zmm17, %zmm20, %zmm20
	vpaddd	%zmm2, %zmm21, %zmm21
	vpaddd	%zmm18, %zmm21, %zmm21
	vpaddd	%zmm9, %zmm22, %zmm22
	vpaddd	%zmm19, %zmm22, %zmm22
	vpxorq	%zmm23, %zmm26, %zmm26
	vprold	$24, %zmm26, %zmm26
	vpxorq	%zmm20, %zmm27, %zmm27
	vprold	$24, %zmm27, %zmm27
	vpxorq	%zmm21, %zmm24, %zmm24
	vprold	$24, %zmm24, %zmm24
	vpxorq	%zmm22, %zmm25, %zmm25
	vprold	$24, %zmm25, %zmm25
	vpaddd	%zmm26, %zmm29, %zmm29
	vpaddd	%zmm27, %zmm30, %zmm30
	vpaddd	%zmm24, %zmm31, %zmm31
	vpaddd	%zmm25, %zmm28, %zmm28
	vpxord	%zmm16, %zmm29, %zmm16
	vpxord	%zmm17, %zmm30, %zmm17
	vpxord	%zmm18, %zmm31, %zmm18
	vpxord	%zmm19, %zmm28, %zmm19
	vprold	$25, %zmm16, %zmm16
	vprold	$25, %zmm17, %zmm17
	vprold	$25, %zmm18, %zmm18
	vprold	$25, %zmm19, %zmm19
	vpaddd	%zmm15, %zmm20, %zmm15
	vpaddd	%zmm16, %zmm15, %zmm15
	vpaddd	%zmm13, %zmm21, %zmm13
	vpaddd	%zmm17, %zmm13, %zmm13
	vpaddd	%zmm12, %zmm22, %zmm12
	vpaddd	%zmm18, %zmm12, %zmm12
	vpaddd	%zmm14, %zmm23, %zmm14
	vpaddd	%zmm19, %zmm14, %zmm14
	vpxorq	%zmm15, %zmm24, %zmm20
	vprold	$16, %zmm20, %zmm20
	vpxorq	%zmm13, %zmm25, %zmm21
	vprold	$16, %zmm21, %zmm21
	vpxorq	%zmm12, %zmm26, %zmm22
	vprold	$16, %zmm22, %zmm22
	vpxorq	%zmm14, %zmm27, %zmm23
	vprold	$16, %zmm23, %zmm23
	vpaddd	%zmm20, %zmm28, %zmm24
	vpaddd	%zmm21, %zmm29, %zmm25
	vpaddd	%zmm22, %zmm30, %zmm26
	vpaddd	%zmm23, %zmm31, %zmm27
	vpxord	%zmm16, %zmm24, %zmm16
	vpxord	%zmm17, %zmm25, %zmm17
	vpxord	%zmm18, %zmm26, %zmm18
	vpxord	%zmm19, %zmm27, %zmm19
	vprold	$20, %zmm16, %zmm16
	vprold	$20, %zmm17, %zmm17
	vprold	$20, %zmm18, %zmm18
	vprold	$20, %zmm19, %zmm19
	vpaddd	%zmm11, %zmm15, %zmm11
	vpaddd	%zmm16, %zmm11, %zmm11
	vpaddd	%zmm8, %zmm13, %zmm8
	vpaddd	%zmm17, %zmm8, %zmm8
	vpaddd	%zmm10, %zmm12, %zmm10
	vpaddd	%zmm18, %zmm10, %zmm10
	vpaddd	%zmm9, %zmm14, %zmm9
	vpaddd	%zmm19, %zmm9, %zmm9
	vpxorq	%zmm11, %zmm20, %zmm12
	vprold	$24, %zmm12, %zmm12
	vpxorq	%zmm8, %zmm21, %zmm13
	vprold	$24, %zmm13, %zmm13
	vpxorq	%zmm10, %zmm22, %zmm14
	vprold	$24, %zmm14, %zmm14
	vpxorq	%zmm9, %zmm23, %zmm15
	vprold	$24, %zmm15, %zmm15
	vpaddd	%zmm12, %zmm24, %zmm20
	vpaddd	%zmm13, %zmm25, %zmm21
	vpaddd	%zmm14, %zmm26, %zmm22
	vpaddd	%zmm15, %zmm27, %zmm23
	vpxord	%zmm16, %zmm20, %zmm16
	vpxord	%zmm17, %zmm21, %zmm17
	vpxord	%zmm18, %zmm22, %zmm18
	vpxord	%zmm19, %zmm23, %zmm19
	vprold	$25, %zmm16, %zmm16
	vprold	$25, %zmm17, %zmm17
	vprold	$25, %zmm18, %zmm18
	vprold	$25, %zmm19, %zmm19
	vpaddd	%zmm6, %zmm9, %zmm6
	vpaddd	%zmm16, %zmm6, %zmm6
	vpaddd	%zmm7, %zmm11, %zmm7
	vpaddd	%zmm17, %zmm7, %zmm7
	vpaddd	%zmm4, %zmm8, %zmm4
	vpaddd	%zmm18, %zmm4, %zmm4
	vpaddd	%zmm5, %zmm10, %zmm5
	vpaddd	%zmm19, %zmm5, %zmm5
	vpxorq	%zmm6, %zmm14, %zmm8
	vprold	$16, %zmm8, %zmm8
	vpxorq	%zmm7, %zmm15, %zmm9
	vprold	$16, %zmm9, %zmm9
	vpxorq	%zmm4, %zmm12, %zmm10
	vprold	$16, %zmm10, %zmm10
	vpxorq	%zmm5, %zmm13, %zmm11
	vprold	$16, %zmm11, %zmm11
	vpaddd	%zmm8, %zmm21, %zmm12
	vpaddd	%zmm9, %zmm22, %zmm13
	vpaddd	%zmm10, %zmm23, %zmm14
	vpaddd	%zmm11, %zmm20, %zmm15
	vpxord	%zmm16, %zmm12, %zmm16
	vpxord	%zmm17, %zmm13, %zmm17
	vpxord	%zmm18, %zmm14, %zmm18
	vpxord	%zmm19, %zmm15, %zmm19
	vprold	$20, %zmm16, %zmm16
	vprold	$20, %zmm17, %zmm17
	vprold	$20, %zmm18, %zmm18
	vprold	$20, %zmm19, %zmm19
	vpaddd	%zmm3, %zmm6, %zmm3
	vpaddd	%zmm16, %zmm3, %zmm3
	vpaddd	%zmm2, %zmm7, %zmm2
	vpaddd	%zmm17, %zmm2, %zmm2
	vpaddd	%zmm1, %zmm4, %zmm1
	vpaddd	%zmm18, %zmm1, %zmm1
	vpaddd	%zmm0, %zmm5, %zmm0
	vpaddd	%zmm19, %zmm0, %zmm0
	vpxorq	%zmm3, %zmm8, %zmm4
	vprold	$24, %zmm4, %zmm4
	vpxorq	%zmm2, %zmm9, %zmm5
	vprold	$24, %zmm5, %zmm5
	vpxorq	%zmm1, %zmm10, %zmm6
	vprold	$24, %zmm6, %zmm6
	vpxorq	%zmm0, %zmm11, %zmm7
	vprold	$24, %zmm7, %zmm7
	vpaddd	%zmm4, %zmm12, %zmm8
	vpaddd	%zmm5, %zmm13, %zmm9
	vpaddd	%zmm6, %zmm14, %zmm10
	vpaddd	%zmm7, %zmm15, %zmm11
	vpxord	%zmm16, %zmm8, %zmm12
	vpxord	%zmm17, %zmm9, %zmm13
	vpxord	%zmm18, %zmm10, %zmm14
	vpxord	%zmm19, %zmm11, %zmm15
	vprold	$25, %zmm12, %zmm12
	vprold	$25, %zmm13, %zmm13
	vprold	$25, %zmm14, %zmm14
	vprold	$25, %zmm15, %zmm15
	vpxord	%zmm2, %zmm11, %zmm2
	vpxord	%zmm1, %zmm8, %zmm1
	vpxord	%zmm0, %zmm9, %zmm0
	vpxord	%zmm3, %zmm10, %zmm3
	vpxord	%zmm6, %zmm12, %zmm6
	vpxord	%zmm7, %zmm13, %zmm7
	vpxord	%zmm4, %zmm14, %zmm4
	vpxord	%zmm5, %zmm15, %zmm5
	vmovdqu64	%zmm2, (%rdi)
	vmovdqu64	%zmm1, 64(%rdi)
	vmovdqu64	%zmm0, 128(%rdi)
	vmovdqu64	%zmm3, 192(%rdi)
	vmovdqu64	%zmm6, 256(%rdi)
	vmovdqu64	%zmm7, 320(%rdi)
	vmovdqu64	%zmm4, 384(%rdi)
	vmovdqu64	%zmm5, 448(%rdi)
	leaq	-32(%rbp), %rsp
	popq	%rbx
	popq	%r12
	popq	%r14
	popq	%r15
	popq	%rbp
	.cfi_def_cfa %rsp, 8
	vzeroupper
	retq
	SIZE("keyed_blake3::chunks::take_block::<#2e65a0a13cda87df>")
	.cfi_endproc

SIZED(16, 4)
	.p2align	4, 0x0
D(CPI28_2):
	.long	3351608833
	.long	2519287717
	.long	1717998845
	.long	3858926260
D(CPI28_3):
	.long	1867767133
	.long	3530409783
	.long	3864159224
	.long	1064391498
CODE(".text.keyed_blake3::keyed_hash_two")
	.p2align	4
	TYPE("keyed_blake3::keyed_hash_two", function)
"keyed_blake3::keyed_hash_two":
	.cfi_startproc
	pushq	%rbp
	.cfi_def_cfa_offset 16
	pushq	%r15
	.cfi_def_cfa_offset 24
	pushq	%r14
	.cfi_def_cfa_offset 32
	pushq	%r13
	.cfi_def_cfa_offset 40
	pushq	%r12
	.cfi_def_cfa_offset 48
	pushq	%rbx
	.cfi_def_cfa_offset 56
	subq	$616, %rsp
	.cfi_def_cfa_offset 672
	.cfi_offset %rbx, -56
	.cfi_offset %r12, -48
	.cfi_offset %r13, -40
	.cfi_offset %r14, -32
	.cfi_offset %r15, -24
	.cfi_offset %rbp, -16
	vxorps	%xmm0, %xmm0, %xmm0
	vmovups	%ymm0, 576(%rsp)
	movq	%r8, %r15
	movq	%rcx, %r12
	movq	%rdx, %r13
	movq	%rsi, %r8
	movq	%rdi, %r14
	vmovups	%ymm0, 544(%rsp)
	cmpq	$1025, %rdx
	setae	%al
	cmpq	$1025, %r15
	setae	%cl
	orb	%al, %cl
	je	L(28_2)
	leaq	D(static.7)(%rip), %rbx
	leaq	576(%rsp), %rdi
	movq	%rbx, %rsi
	movq	%r8, %rdx
	movq	%r13, %rcx
	vzeroupper
	callq	"keyed_blake3::keyed_hash"
	leaq	544(%rsp), %rdi
	movq	%rbx, %rsi
	movq	%r12, %rdx
	movq	%r15, %rcx
	callq	"keyed_blake3::keyed_hash"
	vmovups	576(%rsp), %ymm0
	vmovups	%ymm0, (%r14)
	vmovups	544(%rsp), %ymm0
	vmovups	%ymm0, 32(%r14)
	jmp	L(28_49)
L(28_2):
	cmpq	$1, %r13
	movq	%r13, %rdi
	adcq	$-1, %rdi
	movq	%rdi, %rsi
	shrq	$6, %rsi
	movq	%rsi, 96(%rsp)
	cmpq	$1, %r15
	movq	%r15, %rax
	adcq	$-1, %rax
	movq	%rax, %rcx
	shrq	$6, %rcx
	cmpq	%rsi, %rcx
	movq	%rsi, %rdx
	cmovbq	%rcx, %rdx
	movq	%rdx, 424(%rsp)
	testq	%rsi, %rsi
	movq	%r12, (%rsp)
	movq	%rax, 536(%rsp)
	movq	%rcx, 112(%rsp)
	movq	%r8, 24(%rsp)
	movq	%rdi, 528(%rsp)
	je	L(28_3)
	vmovups	(%r8), %ymm0
	vmovups	32(%r8), %ymm1
	vmovups	%ymm1, 160(%rsp)
	vmovups	%ymm0, 128(%rsp)
	movl	$17, %ebx
	movl	$64, %ebp
	jmp	L(28_8)
L(28_3):
	cmpq	$64, %r13
	jne	L(28_4)
	vmovups	(%r8), %ymm0
	vmovups	32(%r8), %ymm1
	vmovups	%ymm1, 384(%rsp)
	vmovups	%ymm0, 352(%rsp)
	jmp	L(28_6)
L(28_4):
	vmovups	%ymm0, 64(%rsp)
	vmovups	%ymm0, 32(%rsp)
	leaq	32(%rsp), %rdi
	movq	%r8, %rsi
	movq	%r13, %rdx
	vzeroupper
	callq	PLT(memcpy)
	vmovups	32(%rsp), %ymm0
	vmovups	64(%rsp), %ymm1
	vmovups	%ymm0, 352(%rsp)
	vmovups	%ymm1, 384(%rsp)
L(28_6):
	vmovups	352(%rsp), %ymm0
	vmovups	%ymm0, 128(%rsp)
	vmovups	384(%rsp), %ymm0
	vmovups	%ymm0, 160(%rsp)
	movl	$27, %ebx
	movl	%r13d, %ebp
L(28_8):
	vmovups	128(%rsp), %ymm0
	vmovups	160(%rsp), %ymm1
	vmovups	%ymm0, 272(%rsp)
	vmovups	%ymm1, 304(%rsp)
	movq	$0, 336(%rsp)
	movl	%ebp, 344(%rsp)
	movl	%ebx, 348(%rsp)
	cmpq	$0, 112(%rsp)
	je	L(28_9)
	movq	(%rsp), %rax
	vmovups	(%rax), %ymm0
	vmovups	32(%rax), %ymm1
	vmovups	%ymm1, 160(%rsp)
	vmovups	%ymm0, 128(%rsp)
	movl	$17, %eax
	movl	$64, %ecx
	jmp	L(28_14)
L(28_9):
	cmpq	$64, %r15
	jne	L(28_10)
	movq	(%rsp), %rax
	vmovups	(%rax), %ymm0
	vmovups	32(%rax), %ymm1
	vmovups	%ymm1, 384(%rsp)
	vmovups	%ymm0, 352(%rsp)
	jmp	L(28_12)
L(28_10):
	vxorps	%xmm0, %xmm0, %xmm0
	vmovups	%ymm0, 64(%rsp)
	vmovups	%ymm0, 32(%rsp)
	leaq	32(%rsp), %rdi
	movq	(%rsp), %rsi
	movq	%r15, %rdx
	vzeroupper
	callq	PLT(memcpy)
	vmovups	32(%rsp), %ymm0
	vmovups	64(%rsp), %ymm1
	vmovups	%ymm0, 352(%rsp)
	vmovups	%ymm1, 384(%rsp)
L(28_12):
	vmovups	352(%rsp), %ymm0
	vmovups	%ymm0, 128(%rsp)
	vmovups	384(%rsp), %ymm0
	vmovups	%ymm0, 160(%rsp)
	movl	$27, %eax
	movl	%r15d, %ecx
L(28_14):
	movq	%r15, 8(%rsp)
	movq	%r14, 16(%rsp)
	vmovups	128(%rsp), %ymm0
	vmovups	160(%rsp), %ymm1
	vmovups	%ymm0, 192(%rsp)
	vmovups	%ymm1, 224(%rsp)
	movq	$0, 256(%rsp)
	movl	%ecx, 264(%rsp)
	movl	%eax, 268(%rsp)
	vmovd	%ebx, %xmm0
	vmovd	%ebp, %xmm1
	vpunpckldq	%xmm0, %xmm1, %xmm0
	vpslldq	$8, %xmm0, %xmm0
	vmovd	%eax, %xmm1
	vmovd	%ecx, %xmm2
	vpunpckldq	%xmm1, %xmm2, %xmm1
	vpslldq	$8, %xmm1, %xmm1
	vinserti128	$1, %xmm1, %ymm0, %ymm2
	vbroadcastf128	D(CPI28_2)(%rip), %ymm0
	vbroadcastf128	D(CPI28_3)(%rip), %ymm1
	leaq	32(%rsp), %rdi
	leaq	272(%rsp), %rsi
	leaq	192(%rsp), %rdx
	callq	"keyed_blake3::compression::two::compress_two_from"
	vmovups	32(%rsp), %ymm3
	vmovups	64(%rsp), %ymm4
	movq	424(%rsp), %rax
	testq	%rax, %rax
	movq	%r13, 432(%rsp)
	je	L(28_29)
	negq	%rax
	movq	%rax, 448(%rsp)
	movq	24(%rsp), %rax
	leaq	64(%rax), %rbx
	movq	(%rsp), %rax
	leaq	64(%rax), %r15
	movl	$1, %ebp
	xorl	%r14d, %r14d
	jmp	L(28_16)
	.p2align	4
L(28_23):
	vmovups	(%r15), %ymm0
	vmovups	32(%r15), %ymm1
	vmovups	%ymm1, 160(%rsp)
	vmovups	%ymm0, 128(%rsp)
	movl	$16, %ecx
	movl	$64, %eax
L(28_28):
	vmovups	128(%rsp), %ymm0
	vmovups	160(%rsp), %ymm1
	vmovups	%ymm0, 192(%rsp)
	vmovups	%ymm1, 224(%rsp)
	movq	$0, 256(%rsp)
	movl	%eax, 264(%rsp)
	movl	%ecx, 268(%rsp)
	vmovd	%r13d, %xmm0
	vmovd	%r12d, %xmm1
	vpunpckldq	%xmm0, %xmm1, %xmm0
	vpslldq	$8, %xmm0, %xmm0
	vmovd	%ecx, %xmm1
	vmovd	%eax, %xmm2
	vpunpckldq	%xmm1, %xmm2, %xmm1
	vpslldq	$8, %xmm1, %xmm1
	vinserti128	$1, %xmm1, %ymm0, %ymm2
	leaq	32(%rsp), %rdi
	leaq	272(%rsp), %rsi
	leaq	192(%rsp), %rdx
	vmovaps	%ymm3, %ymm0
	vmovaps	%ymm4, %ymm1
	callq	"keyed_blake3::compression::two::compress_two_from"
	vmovups	32(%rsp), %ymm3
	vmovups	64(%rsp), %ymm4
	movq	448(%rsp), %rax
	addq	%rbp, %rax
	incq	%rax
	incq	%rbp
	addq	$-64, %r14
	addq	$64, %rbx
	addq	$64, %r15
	cmpq	$1, %rax
	je	L(28_29)
L(28_16):
	cmpq	96(%rsp), %rbp
	jae	L(28_18)
	vmovups	(%rbx), %ymm0
	vmovups	32(%rbx), %ymm1
	vmovups	%ymm1, 160(%rsp)
	vmovups	%ymm0, 128(%rsp)
	movl	$16, %r13d
	movl	$64, %r12d
	jmp	L(28_22)
	.p2align	4
L(28_18):
	movq	432(%rsp), %r12
	leaq	(%r12,%r14), %rax
	cmpq	$128, %rax
	je	L(28_19)
	vmovups	%ymm4, 464(%rsp)
	vmovups	%ymm3, 496(%rsp)
	leaq	(%r12,%r14), %rdx
	addq	$-64, %rdx
	vxorps	%xmm0, %xmm0, %xmm0
	vmovups	%ymm0, 64(%rsp)
	vmovups	%ymm0, 32(%rsp)
	leaq	32(%rsp), %rax
	subq	%rbx, %rax
	cmpq	%rdx, %rax
	leaq	32(%rsp), %rdi
	movq	%rbx, %rsi
	vzeroupper
	callq	PLT(memcpy)
	vmovups	32(%rsp), %ymm0
	vmovups	64(%rsp), %ymm1
	vmovups	%ymm1, 384(%rsp)
	vmovups	%ymm0, 352(%rsp)
	vmovups	496(%rsp), %ymm3
	vmovups	464(%rsp), %ymm4
	jmp	L(28_21)
L(28_19):
	vmovups	(%rbx), %ymm0
	vmovups	32(%rbx), %ymm1
	vmovups	%ymm1, 384(%rsp)
	vmovups	%ymm0, 352(%rsp)
L(28_21):
	addl	%r14d, %r12d
	addl	$-64, %r12d
	vmovups	352(%rsp), %ymm0
	vmovups	%ymm0, 128(%rsp)
	vmovups	384(%rsp), %ymm0
	vmovups	%ymm0, 160(%rsp)
	movl	$26, %r13d
L(28_22):
	vmovups	128(%rsp), %ymm0
	vmovups	160(%rsp), %ymm1
	vmovups	%ymm0, 272(%rsp)
	vmovups	%ymm1, 304(%rsp)
	movq	$0, 336(%rsp)
	movl	%r12d, 344(%rsp)
	movl	%r13d, 348(%rsp)
	cmpq	112(%rsp), %rbp
	jb	L(28_23)
	movq	8(%rsp), %rcx
	leaq	(%rcx,%r14), %rax
	cmpq	$128, %rax
	je	L(28_25)
	vmovups	%ymm4, 464(%rsp)
	vmovups	%ymm3, 496(%rsp)
	leaq	(%rcx,%r14), %rdx
	addq	$-64, %rdx
	vxorps	%xmm0, %xmm0, %xmm0
	vmovups	%ymm0, 64(%rsp)
	vmovups	%ymm0, 32(%rsp)
	leaq	32(%rsp), %rax
	subq	%r15, %rax
	cmpq	%rdx, %rax
	leaq	32(%rsp), %rdi
	movq	%r15, %rsi
	vzeroupper
	callq	PLT(memcpy)
	vmovups	32(%rsp), %ymm0
	vmovups	64(%rsp), %ymm1
	vmovups	%ymm1, 384(%rsp)
	vmovups	%ymm0, 352(%rsp)
	vmovups	496(%rsp), %ymm3
	vmovups	464(%rsp), %ymm4
	jmp	L(28_27)
L(28_25):
	vmovups	(%r15), %ymm0
	vmovups	32(%r15), %ymm1
	vmovups	%ymm1, 384(%rsp)
	vmovups	%ymm0, 352(%rsp)
L(28_27):
	movq	8(%rsp), %rax
	addl	%r14d, %eax
	addl	$-64, %eax
	vmovups	352(%rsp), %ymm0
	vmovups	%ymm0, 128(%rsp)
	vmovups	384(%rsp), %ymm0
	vmovups	%ymm0, 160(%rsp)
	movl	$26, %ecx
	jmp	L(28_28)
L(28_29):
	movq	424(%rsp), %rbp
	leaq	1(%rbp), %rcx
	movq	112(%rsp), %r13
	movq	96(%rsp), %rax
	cmpq	%rax, %r13
	jae	L(28_30)
	cmpq	%rax, %rcx
	movq	(%rsp), %r12
	vmovups	%ymm3, 496(%rsp)
	vmovups	%ymm4, 464(%rsp)
	jae	L(28_32)
	movq	%rbp, %rbx
	notq	%rbx
	addq	%rax, %rbx
	movq	%rbp, %rax
	shlq	$6, %rax
	movq	24(%rsp), %rcx
	leaq	(%rax,%rcx), %r15
	addq	$64, %r15
	vmovaps	%xmm3, %xmm0
	vmovaps	%xmm4, %xmm1
	.p2align	4
L(28_34):
	vmovups	(%r15), %ymm3
	vmovdqu	32(%r15), %ymm2
	vmovdqu	%ymm2, 304(%rsp)
	vmovups	%ymm3, 272(%rsp)
	leaq	192(%rsp), %rdi
	leaq	272(%rsp), %rsi
	xorl	%edx, %edx
	movl	$64, %ecx
	movl	$16, %r8d
	vzeroupper
	callq	"keyed_blake3::compression::compress"
	vmovaps	192(%rsp), %xmm0
	vmovaps	208(%rsp), %xmm1
	addq	$64, %r15
	decq	%rbx
	jne	L(28_34)
	jmp	L(28_35)
L(28_30):
	vmovaps	%xmm4, %xmm5
	vmovaps	%xmm3, %xmm2
	movq	8(%rsp), %r15
	movq	(%rsp), %r12
	vextractf128	$1, %ymm3, %xmm0
	vextractf128	$1, %ymm4, %xmm1
	cmpq	%r13, %rax
	jb	L(28_41)
L(28_40):
	movq	16(%rsp), %rax
	jmp	L(28_48)
L(28_32):
	vmovaps	%xmm4, %xmm1
	vmovaps	%xmm3, %xmm0
L(28_35):
	movq	528(%rsp), %rax
	andl	$1984, %eax
	movq	24(%rsp), %rsi
	addq	%rax, %rsi
	movq	432(%rsp), %r14
	subq	%rax, %r14
	vpxor	%xmm2, %xmm2, %xmm2
	vmovdqu	%ymm2, 192(%rsp)
	cmpq	$64, %r14
	movq	8(%rsp), %r15
	jne	L(28_37)
	vmovups	(%rsi), %ymm3
	vmovdqu	32(%rsi), %ymm2
	vmovdqu	%ymm2, 304(%rsp)
	vmovups	%ymm3, 272(%rsp)
	leaq	192(%rsp), %rdi
	leaq	272(%rsp), %rsi
	xorl	%edx, %edx
	movl	$64, %ecx
	jmp	L(28_38)
L(28_37):
	vmovdqu	%ymm2, 304(%rsp)
	vmovdqu	%ymm2, 272(%rsp)
	leaq	272(%rsp), %rbx
	movq	%rbx, %rdi
	movq	%r14, %rdx
	vmovaps	%xmm1, 448(%rsp)
	vmovaps	%xmm0, 432(%rsp)
	vzeroupper
	callq	PLT(memcpy)
	leaq	192(%rsp), %rdi
	vmovaps	432(%rsp), %xmm0
	vmovaps	448(%rsp), %xmm1
	movq	%rbx, %rsi
	xorl	%edx, %edx
	movl	%r14d, %ecx
L(28_38):
	movl	$26, %r8d
	vzeroupper
	callq	"keyed_blake3::compression::compress"
	vmovaps	208(%rsp), %xmm5
	movq	96(%rsp), %rax
	vmovaps	192(%rsp), %xmm2
	vmovups	496(%rsp), %ymm3
	vmovups	464(%rsp), %ymm4
	leaq	1(%rbp), %rcx
	vextractf128	$1, %ymm3, %xmm0
	vextractf128	$1, %ymm4, %xmm1
	cmpq	%r13, %rax
	jae	L(28_40)
L(28_41):
	vmovaps	%xmm2, 464(%rsp)
	vmovaps	%xmm5, 496(%rsp)
	cmpq	%r13, %rcx
	jae	L(28_44)
	movq	%rbp, %rbx
	notq	%rbx
	addq	%r13, %rbx
	shlq	$6, %rbp
	leaq	(%r12,%rbp), %r14
	addq	$64, %r14
	.p2align	4
L(28_43):
	vmovups	(%r14), %ymm3
	vmovups	32(%r14), %ymm2
	vmovups	%ymm2, 304(%rsp)
	vmovups	%ymm3, 272(%rsp)
	leaq	192(%rsp), %rdi
	leaq	272(%rsp), %rsi
	xorl	%edx, %edx
	movl	$64, %ecx
	movl	$16, %r8d
	vzeroupper
	callq	"keyed_blake3::compression::compress"
	vmovaps	192(%rsp), %xmm0
	vmovaps	208(%rsp), %xmm1
	addq	$64, %r14
	decq	%rbx
	jne	L(28_43)
L(28_44):
	movq	536(%rsp), %rax
	andl	$1984, %eax
	addq	%rax, %r12
	subq	%rax, %r15
	vxorps	%xmm2, %xmm2, %xmm2
	vmovups	%ymm2, 192(%rsp)
	cmpq	$64, %r15
	jne	L(28_46)
	vmovups	(%r12), %ymm3
	vmovups	32(%r12), %ymm2
	vmovups	%ymm2, 304(%rsp)
	vmovups	%ymm3, 272(%rsp)
	leaq	192(%rsp), %rdi
	leaq	272(%rsp), %rsi
	xorl	%edx, %edx
	movl	$64, %ecx
	jmp	L(28_47)
L(28_46):
	vmovups	%ymm2, 304(%rsp)
	vmovups	%ymm2, 272(%rsp)
	leaq	272(%rsp), %rbx
	movq	%rbx, %rdi
	movq	%r12, %rsi
	movq	%r15, %rdx
	vmovaps	%xmm1, 112(%rsp)
	vmovaps	%xmm0, 96(%rsp)
	vzeroupper
	callq	PLT(memcpy)
	leaq	192(%rsp), %rdi
	vmovaps	96(%rsp), %xmm0
	vmovaps	112(%rsp), %xmm1
	movq	%rbx, %rsi
	xorl	%edx, %edx
	movl	%r15d, %ecx
L(28_47):
	movl	$26, %r8d
	vzeroupper
	callq	"keyed_blake3::compression::compress"
	vmovaps	208(%rsp), %xmm1
	movq	16(%rsp), %rax
	vmovaps	192(%rsp), %xmm0
	vmovaps	496(%rsp), %xmm5
	vmovaps	464(%rsp), %xmm2
L(28_48):
	vmovups	%xmm5, 16(%rax)
	vmovups	%xmm2, (%rax)
	vmovups	%xmm1, 48(%rax)
	vmovups	%xmm0, 32(%rax)
L(28_49):
	addq	$616, %rsp
	.cfi_def_cfa_offset 56
	popq	%rbx
	.cfi_def_cfa_offset 48
	popq	%r12
	.cfi_def_cfa_offset 40
	popq	%r13
	.cfi_def_cfa_offset 32
	popq	%r14
	.cfi_def_cfa_offset 24
	popq	%r15
	.cfi_def_cfa_offset 16
	popq	%rbp
	.cfi_def_cfa_offset 8
	vzeroupper
	retq
	SIZE("keyed_blake3::keyed_hash_two")
	.cfi_endproc

CODE(".text.xet_roots::groups::two_parent_hashes")
	.p2align	4
	TYPE("xet_roots::groups::two_parent_hashes", function)
"xet_roots::groups::two_parent_hashes":
	.cfi_startproc
	endbr64
	pushq	%rbp
	.cfi_def_cfa_offset 16
	pushq	%r15
	.cfi_def_cfa_offset 24
	pushq	%r14
	.cfi_def_cfa_offset 32
	pushq	%r13
	.cfi_def_cfa_offset 40
	pushq	%r12
	.cfi_def_cfa_offset 48
	pushq	%rbx
	.cfi_def_cfa_offset 56
	subq	$1656, %rsp
	.cfi_def_cfa_offset 1712
	.cfi_offset %rbx, -56
	.cfi_offset %r12, -48
	.cfi_offset %r13, -40
	.cfi_offset %r14, -32
	.cfi_offset %r15, -24
	.cfi_offset %rbp, -16
	movq	%r8, %r15
	movq	%rcx, %r12
	movq	%rdx, %r13
	movq	%rsi, %rbp
	movq	%rdi, %rbx
	leaq	864(%rsp), %r14
	movl	$792, %edx
	movq	%r14, %rdi
	xorl	%esi, %esi
	callq	PLT(memset)
	movq	%r14, %rdi
	movq	%rbp, %rsi
	movq	%r13, %rdx
	callq	"xet_roots::groups::write_text"
	movq	%rax, %r13
	leaq	72(%rsp), %rbp
	movl	$792, %edx
	movq	%rbp, %rdi
	xorl	%esi, %esi
	callq	PLT(memset)
	movq	%rbp, %rdi
	movq	%r12, %rsi
	movq	%r15, %rdx
	callq	"xet_roots::groups::write_text"
	vxorps	%xmm0, %xmm0, %xmm0
	vmovups	%ymm0, 32(%rsp)
	vmovups	%ymm0, (%rsp)
	movq	%rsp, %rdi
	movq	%r14, %rsi
	movq	%r13, %rdx
	movq	%rbp, %rcx
	movq	%rax, %r8
	vzeroupper
	callq	"keyed_blake3::keyed_hash_two"
	vmovups	(%rsp), %ymm0
	vmovups	32(%rsp), %ymm1
	vmovups	%ymm0, (%rbx)
	vmovups	%ymm1, 32(%rbx)
	addq	$1656, %rsp
	.cfi_def_cfa_offset 56
	popq	%rbx
	.cfi_def_cfa_offset 48
	popq	%r12
	.cfi_def_cfa_offset 40
	popq	%r13
	.cfi_def_cfa_offset 32
	popq	%r14
	.cfi_def_cfa_offset 24
	popq	%r15
	.cfi_def_cfa_offset 16
	popq	%rbp
	.cfi_def_cfa_offset 8
	vzeroupper
	retq
	SIZE("xet_roots::groups::two_parent_hashes")
	.cfi_endproc

	TYPE(D(static.3), object)
CONSTANTS(.rodata..Lstatic.3)
D(static.3):
	.ascii	" : "
	SIZE(D(static.3))

	TYPE(D(static.6), object)
CONSTANTS(.rodata..Lstatic.6)
	.p2align	1, 0x0
D(static.6):
	.ascii	"00010203040506070809101112131415161718192021222324252627282930313233343536373839404142434445464748495051525354555657585960616263646566676869707172737475767778798081828384858687888990919293949596979899"
	SIZE(D(static.6))

	TYPE(D(static.7), object)
SIZED(32, 5)
	.p2align	2, 0x0
D(static.7):
	.ascii	"\001~\305\307\245G)\226\375\224ff\264\212\002\346]\335So7\307m\322\370cR\346JSq?"
	SIZE(D(static.7))

NO_STACK
ADDRESSES(.data.rel.ro.yurewha_x86_64_v4_kernels)
	.p2align	3, 0x0
	.globl	C(yurewha_x86_64_v4_kernels)
	HIDDEN(C(yurewha_x86_64_v4_kernels))
	TYPE(C(yurewha_x86_64_v4_kernels), object)
C(yurewha_x86_64_v4_kernels):
	.quad	"keyed_blake3::keyed_hash"
	.quad	"keyed_blake3::compression::compress"
	.quad	"keyed_blake3::hasher::Hasher::update"
	.quad	"keyed_blake3::hasher::Hasher::finalize"
	.quad	"xet_roots::groups::two_parent_hashes"
	.quad	"xet_roots::groups::parent_hashes"
	.quad	"xet_roots::groups::write_text"
	SIZE(C(yurewha_x86_64_v4_kernels))

#else
NO_STACK
#endif
END
