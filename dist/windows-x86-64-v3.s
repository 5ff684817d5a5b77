/* Yurewha 1.1.0 for windows-x86-64-v3: the kernels of the proved library, as the toolchain compiles it. Made by dist/make, not by hand.
   The sum of its sources: 9f27598952ba9691f7deda6fc4a73bcce6b881aa2a1edd98ac143c424a08c115 */
	.section	.text
	.p2align	4
	.def	"keyed_blake3::keyed_hash";
	.scl	3;
	.type	32;
	.endef
"keyed_blake3::keyed_hash":
.seh_proc "keyed_blake3::keyed_hash"
	pushq	%r15
	.seh_pushreg %r15
	pushq	%r14
	.seh_pushreg %r14
	pushq	%r13
	.seh_pushreg %r13
	pushq	%r12
	.seh_pushreg %r12
	pushq	%rsi
	.seh_pushreg %rsi
	pushq	%rdi
	.seh_pushreg %rdi
	pushq	%rbp
	.seh_pushreg %rbp
	pushq	%rbx
	.seh_pushreg %rbx
	subq	$2200, %rsp
	.seh_stackalloc 2200
	vmovaps	%xmm7, 2176(%rsp)
	.seh_savexmm %xmm7, 2176
	vmovaps	%xmm6, 2160(%rsp)
	.seh_savexmm %xmm6, 2160
	.seh_endprologue
	movq	%r9, %rdi
	movq	%r8, %rbx
	movq	%rdx, %r14
	movq	%rcx, %rsi
	vxorps	%xmm0, %xmm0, %xmm0
	vmovups	%ymm0, 96(%rsp)
	cmpq	$1025, %r9
	jae	.LBB1_1
	vmovups	(%r14), %xmm6
	vmovups	16(%r14), %xmm7
	cmpq	$1, %rdi
	movq	%rdi, %r14
	adcq	$-1, %r14
	movq	%r14, %r15
	shrq	$6, %r15
	je	.LBB1_4
	xorl	%r12d, %r12d
	movq	%rbx, %r13
	.p2align	4
.LBB1_6:
	cmpq	$1, %r12
	movl	$0, %eax
	adcl	$16, %eax
	vmovups	(%r13), %ymm0
	vmovups	32(%r13), %ymm1
	vmovups	%ymm1, 160(%rsp)
	vmovups	%ymm0, 128(%rsp)
	vmovaps	%xmm7, 256(%rsp)
	vmovaps	%xmm6, 272(%rsp)
	movl	%eax, 48(%rsp)
	movl	$64, 40(%rsp)
	movq	$0, 32(%rsp)
	leaq	64(%rsp), %rcx
	leaq	272(%rsp), %rdx
	leaq	256(%rsp), %r8
	leaq	128(%rsp), %r9
	vzeroupper
	callq	"keyed_blake3::compression::compress"
	vmovaps	64(%rsp), %xmm6
	vmovaps	80(%rsp), %xmm7
	incq	%r12
	addq	$64, %r13
	cmpq	%r12, %r15
	jne	.LBB1_6
	movl	$26, %ebp
	jmp	.LBB1_8
.LBB1_1:
	leaq	352(%rsp), %rcx
	movl	$1800, %r8d
	xorl	%edx, %edx
	vzeroupper
	callq	memset
	vmovups	(%r14), %ymm0
	vmovups	%ymm0, 320(%rsp)
	vmovups	(%r14), %ymm0
	vmovups	%ymm0, 288(%rsp)
	leaq	288(%rsp), %r14
	movq	%r14, %rcx
	movq	%rbx, %rdx
	movq	%rdi, %r8
	vzeroupper
	callq	"keyed_blake3::hasher::Hasher::update"
	leaq	96(%rsp), %rcx
	movq	%r14, %rdx
	callq	"keyed_blake3::hasher::Hasher::finalize"
	vmovups	96(%rsp), %ymm0
	vmovups	%ymm0, (%rsi)
	jmp	.LBB1_2
.LBB1_4:
	movl	$27, %ebp
.LBB1_8:
	andl	$1984, %r14d
	addq	%r14, %rbx
	subq	%r14, %rdi
	vxorps	%xmm0, %xmm0, %xmm0
	vmovups	%ymm0, 64(%rsp)
	cmpq	$64, %rdi
	jne	.LBB1_10
	vmovups	(%rbx), %ymm0
	vmovups	32(%rbx), %ymm1
	vmovups	%ymm1, 160(%rsp)
	vmovups	%ymm0, 128(%rsp)
	vmovaps	%xmm7, 192(%rsp)
	vmovaps	%xmm6, 208(%rsp)
	movl	%ebp, 48(%rsp)
	movl	$64, 40(%rsp)
	movq	$0, 32(%rsp)
	leaq	64(%rsp), %rcx
	leaq	208(%rsp), %rdx
	leaq	192(%rsp), %r8
	leaq	128(%rsp), %r9
	jmp	.LBB1_11
.LBB1_10:
	vmovups	%ymm0, 160(%rsp)
	vmovups	%ymm0, 128(%rsp)
	leaq	128(%rsp), %r14
	movq	%r14, %rcx
	movq	%rbx, %rdx
	movq	%rdi, %r8
	vzeroupper
	callq	memcpy
	vmovaps	%xmm7, 224(%rsp)
	vmovaps	%xmm6, 240(%rsp)
	movl	%ebp, 48(%rsp)
	movl	%edi, 40(%rsp)
	movq	$0, 32(%rsp)
	leaq	64(%rsp), %rcx
	leaq	240(%rsp), %rdx
	leaq	224(%rsp), %r8
	movq	%r14, %r9
.LBB1_11:
	vzeroupper
	callq	"keyed_blake3::compression::compress"
	vmovups	68(%rsp), %xmm0
	vmovsd	84(%rsp), %xmm1
	movl	92(%rsp), %eax
	movl	64(%rsp), %ecx
	movl	%ecx, 96(%rsp)
	vmovups	%xmm0, 100(%rsp)
	vmovlps	%xmm1, 116(%rsp)
	movl	%eax, 124(%rsp)
	movl	96(%rsp), %eax
	movl	%eax, (%rsi)
	vmovups	100(%rsp), %xmm0
	vmovups	%xmm0, 4(%rsi)
	movq	116(%rsp), %rax
	movq	%rax, 20(%rsi)
	movl	124(%rsp), %eax
	movl	%eax, 28(%rsi)
.LBB1_2:
	vmovaps	2160(%rsp), %xmm6
	vmovaps	2176(%rsp), %xmm7
	addq	$2200, %rsp
	popq	%rbx
	popq	%rbp
	popq	%rdi
	popq	%rsi
	popq	%r12
	popq	%r13
	popq	%r14
	popq	%r15
	vzeroupper
	retq
	.seh_endproc

	.section	.rdata,"dr"
	.p2align	5, 0x0
.LCPI2_0:
	.byte	2
	.byte	3
	.byte	0
	.byte	1
	.byte	6
	.byte	7
	.byte	4
	.byte	5
	.byte	10
	.byte	11
	.byte	8
	.byte	9
	.byte	14
	.byte	15
	.byte	12
	.byte	13
.LCPI2_1:
	.long	1779033703
	.long	3144134277
	.long	1013904242
	.long	2773480762
.LCPI2_2:
	.byte	1
	.byte	2
	.byte	3
	.byte	0
	.byte	5
	.byte	6
	.byte	7
	.byte	4
	.byte	9
	.byte	10
	.byte	11
	.byte	8
	.byte	13
	.byte	14
	.byte	15
	.byte	12
.LCPI2_3:
	.byte	10
	.byte	11
	.byte	8
	.byte	9
	.byte	14
	.byte	15
	.byte	12
	.byte	13
	.byte	2
	.byte	3
	.byte	0
	.byte	1
	.byte	6
	.byte	7
	.byte	4
	.byte	5
.LCPI2_4:
	.long	1
	.long	2
	.long	3
	.long	0
	.long	6
	.long	7
	.long	4
	.long	5
	.section	.text
	.p2align	4
	.def	"keyed_blake3::compression::compress";
	.scl	3;
	.type	32;
	.endef
"keyed_blake3::compression::compress":
.seh_proc "keyed_blake3::compression::compress"
	subq	$376, %rsp
	.seh_stackalloc 376
	vmovaps	%xmm15, 352(%rsp)
	.seh_savexmm %xmm15, 352
	vmovaps	%xmm14, 336(%rsp)
	.seh_savexmm %xmm14, 336
	vmovaps	%xmm13, 320(%rsp)
	.seh_savexmm %xmm13, 320
	vmovaps	%xmm12, 304(%rsp)
	.seh_savexmm %xmm12, 304
	vmovaps	%xmm11, 288(%rsp)
	.seh_savexmm %xmm11, 288
	vmovaps	%xmm10, 272(%rsp)
	.seh_savexmm %xmm10, 272
	vmovaps	%xmm9, 256(%rsp)
	.seh_savexmm %xmm9, 256
	vmovaps	%xmm8, 240(%rsp)
	.seh_savexmm %xmm8, 240
	vmovaps	%xmm7, 224(%rsp)
	.seh_savexmm %xmm7, 224
	vmovaps	%xmm6, 208(%rsp)
	.seh_savexmm %xmm6, 208
	.seh_endprologue
	vmovdqa	(%r8), %xmm0
	vmovq	416(%rsp), %xmm1
	vpinsrd	$2, 424(%rsp), %xmm1, %xmm1
	vpinsrd	$3, 432(%rsp), %xmm1, %xmm1
	vmovups	(%r9), %xmm4
	vmovups	16(%r9), %xmm7
	vmovdqu	32(%r9), %xmm15
	vmovdqu	48(%r9), %xmm5
	vshufps	$136, %xmm7, %xmm4, %xmm6
	vshufps	$221, %xmm7, %xmm4, %xmm12
	vmovaps	%xmm7, 16(%rsp)
	vmovaps	%xmm4, 144(%rsp)
	vpshufd	$38, %xmm5, %xmm3
	vmovdqa	%xmm3, 48(%rsp)
	vpshufd	$224, %xmm15, %xmm2
	vpblendd	$9, %xmm3, %xmm2, %xmm8
	vpshufd	$103, %xmm5, %xmm11
	vmovdqa	%xmm11, (%rsp)
	vpaddd	(%rdx), %xmm0, %xmm2
	vpaddd	%xmm6, %xmm2, %xmm2
	vmovaps	%xmm6, 176(%rsp)
	vpxor	%xmm1, %xmm2, %xmm1
	vmovdqa	.LCPI2_0(%rip), %xmm10
	vpshufb	%xmm10, %xmm1, %xmm1
	vpaddd	.LCPI2_1(%rip), %xmm1, %xmm9
	vpxor	%xmm0, %xmm9, %xmm0
	vpsrld	$12, %xmm0, %xmm13
	vpslld	$20, %xmm0, %xmm0
	vpor	%xmm0, %xmm13, %xmm0
	vpaddd	%xmm2, %xmm12, %xmm2
	vpaddd	%xmm0, %xmm2, %xmm13
	vmovdqa	.LCPI2_2(%rip), %xmm3
	vpshufb	%xmm3, %xmm13, %xmm14
	vpshufb	%xmm3, %xmm1, %xmm1
	vpxor	%xmm1, %xmm14, %xmm1
	vpaddd	%xmm1, %xmm9, %xmm9
	vpxor	%xmm0, %xmm9, %xmm0
	vpsrld	$7, %xmm0, %xmm14
	vpslld	$25, %xmm0, %xmm0
	vpor	%xmm0, %xmm14, %xmm0
	vpshufd	$147, %xmm13, %xmm13
	vpaddd	%xmm8, %xmm13, %xmm8
	vpshufd	$57, %xmm9, %xmm13
	vpaddd	%xmm0, %xmm8, %xmm8
	vpshufb	%xmm10, %xmm8, %xmm14
	vmovdqa	.LCPI2_3(%rip), %xmm9
	vpshufb	%xmm9, %xmm1, %xmm1
	vpxor	%xmm1, %xmm14, %xmm1
	vpaddd	%xmm1, %xmm13, %xmm13
	vpxor	%xmm0, %xmm13, %xmm0
	vpsrld	$12, %xmm0, %xmm14
	vpslld	$20, %xmm0, %xmm0
	vpor	%xmm0, %xmm14, %xmm0
	vmovdqa	%xmm15, %xmm2
	vpshufd	$244, %xmm15, %xmm14
	vpblendd	$9, %xmm11, %xmm14, %xmm14
	vpaddd	%xmm14, %xmm8, %xmm8
	vpaddd	%xmm0, %xmm8, %xmm15
	vpshufb	%xmm3, %xmm1, %xmm1
	vpshufb	%xmm3, %xmm15, %xmm8
	vpxor	%xmm1, %xmm8, %xmm1
	vpaddd	%xmm1, %xmm13, %xmm13
	vpxor	%xmm0, %xmm13, %xmm0
	vpsrld	$7, %xmm0, %xmm8
	vpslld	$25, %xmm0, %xmm0
	vpor	%xmm0, %xmm8, %xmm0
	vshufps	$250, %xmm4, %xmm4, %xmm8
	vblendps	$6, %xmm8, %xmm7, %xmm8
	vpaddd	%xmm8, %xmm15, %xmm15
	vpshufd	$57, %xmm15, %xmm15
	vpaddd	%xmm0, %xmm15, %xmm15
	vpshufb	%xmm9, %xmm1, %xmm1
	vmovdqa	%xmm9, %xmm7
	vpshufb	%xmm10, %xmm15, %xmm11
	vpxor	%xmm1, %xmm11, %xmm1
	vpshufd	$147, %xmm13, %xmm11
	vpaddd	%xmm1, %xmm11, %xmm11
	vpxor	%xmm0, %xmm11, %xmm0
	vpsrld	$12, %xmm0, %xmm13
	vpslld	$20, %xmm0, %xmm0
	vpor	%xmm0, %xmm13, %xmm0
	vpblendd	$4, %xmm2, %xmm6, %xmm13
	vmovdqa	%xmm2, %xmm4
	vpshufd	$203, %xmm13, %xmm2
	vmovdqa	%xmm2, 192(%rsp)
	vmovdqa	%xmm5, %xmm6
	vinsertps	$112, %xmm5, %xmm2, %xmm2
	vmovaps	%xmm2, 32(%rsp)
	vpaddd	%xmm2, %xmm15, %xmm15
	vpaddd	%xmm0, %xmm15, %xmm15
	vpshufb	%xmm3, %xmm1, %xmm1
	vpshufb	%xmm3, %xmm15, %xmm13
	vpxor	%xmm1, %xmm13, %xmm13
	vpaddd	%xmm11, %xmm13, %xmm11
	vpxor	%xmm0, %xmm11, %xmm0
	vpsrld	$7, %xmm0, %xmm1
	vpslld	$25, %xmm0, %xmm0
	vpor	%xmm1, %xmm0, %xmm0
	vpunpcklqdq	%xmm12, %xmm14, %xmm1
	vmovdqa	48(%rsp), %xmm10
	vpblendd	$8, %xmm10, %xmm1, %xmm9
	vpshufd	$120, %xmm9, %xmm9
	vpshufd	$147, %xmm15, %xmm15
	vpaddd	%xmm9, %xmm15, %xmm9
	vpaddd	%xmm0, %xmm9, %xmm9
	vpshufb	%xmm7, %xmm13, %xmm13
	vpshufb	.LCPI2_0(%rip), %xmm9, %xmm15
	vpxor	%xmm13, %xmm15, %xmm13
	vpshufd	$57, %xmm11, %xmm11
	vpaddd	%xmm11, %xmm13, %xmm11
	vpxor	%xmm0, %xmm11, %xmm0
	vpsrld	$12, %xmm0, %xmm15
	vpslld	$20, %xmm0, %xmm0
	vpor	%xmm0, %xmm15, %xmm0
	vshufps	$172, %xmm5, %xmm4, %xmm15
	vmovaps	%xmm4, 64(%rsp)
	vmovaps	16(%rsp), %xmm7
	vinsertps	$96, %xmm7, %xmm15, %xmm15
	vpaddd	%xmm15, %xmm9, %xmm9
	vpaddd	%xmm0, %xmm9, %xmm9
	vpshufb	%xmm3, %xmm13, %xmm13
	vpshufb	%xmm3, %xmm9, %xmm15
	vpxor	%xmm13, %xmm15, %xmm13
	vpaddd	%xmm11, %xmm13, %xmm11
	vpxor	%xmm0, %xmm11, %xmm0
	vpsrld	$7, %xmm0, %xmm15
	vpslld	$25, %xmm0, %xmm0
	vpor	%xmm0, %xmm15, %xmm0
	vshufps	$236, %xmm7, %xmm4, %xmm2
	vinsertps	$112, %xmm14, %xmm2, %xmm2
	vpshufd	$36, %xmm1, %xmm1
	vpunpckhdq	%xmm12, %xmm1, %xmm1
	vmovdqa	%xmm1, 112(%rsp)
	vshufps	$8, %xmm14, %xmm12, %xmm4
	vmovaps	32(%rsp), %xmm5
	vshufps	$219, %xmm5, %xmm8, %xmm12
	vpaddd	%xmm12, %xmm9, %xmm9
	vpshufd	$57, %xmm9, %xmm9
	vpaddd	%xmm0, %xmm9, %xmm9
	vmovdqa	.LCPI2_3(%rip), %xmm3
	vpshufb	%xmm3, %xmm13, %xmm12
	vmovdqa	.LCPI2_0(%rip), %xmm1
	vpshufb	%xmm1, %xmm9, %xmm13
	vpxor	%xmm12, %xmm13, %xmm13
	vpshufd	$147, %xmm11, %xmm11
	vpaddd	%xmm11, %xmm13, %xmm11
	vpxor	%xmm0, %xmm11, %xmm0
	vpsrld	$12, %xmm0, %xmm12
	vpslld	$20, %xmm0, %xmm0
	vpor	%xmm0, %xmm12, %xmm0
	vpblendd	$12, %xmm10, %xmm8, %xmm12
	vmovaps	%xmm8, 128(%rsp)
	vpshufd	$220, %xmm12, %xmm15
	vmovdqa	%xmm6, %xmm14
	vmovdqa	%xmm6, 80(%rsp)
	vinsertps	$176, %xmm6, %xmm15, %xmm6
	vpaddd	%xmm6, %xmm9, %xmm9
	vmovaps	%xmm6, 96(%rsp)
	vpaddd	%xmm0, %xmm9, %xmm9
	vmovdqa	.LCPI2_2(%rip), %xmm12
	vpshufb	%xmm12, %xmm13, %xmm13
	vpshufb	%xmm12, %xmm9, %xmm10
	vpxor	%xmm13, %xmm10, %xmm10
	vpaddd	%xmm11, %xmm10, %xmm11
	vpxor	%xmm0, %xmm11, %xmm0
	vpsrld	$7, %xmm0, %xmm13
	vpslld	$25, %xmm0, %xmm0
	vpor	%xmm0, %xmm13, %xmm0
	vshufps	$120, %xmm2, %xmm2, %xmm2
	vpshufd	$147, %xmm9, %xmm9
	vpaddd	%xmm2, %xmm9, %xmm2
	vpaddd	%xmm0, %xmm2, %xmm2
	vmovdqa	%xmm3, %xmm13
	vpshufb	%xmm3, %xmm10, %xmm9
	vpshufb	%xmm1, %xmm2, %xmm10
	vpxor	%xmm9, %xmm10, %xmm9
	vpshufd	$57, %xmm11, %xmm10
	vpaddd	%xmm10, %xmm9, %xmm10
	vpxor	%xmm0, %xmm10, %xmm0
	vpsrld	$12, %xmm0, %xmm11
	vpslld	$20, %xmm0, %xmm0
	vpor	%xmm0, %xmm11, %xmm0
	vmovaps	144(%rsp), %xmm7
	vinsertps	$32, %xmm7, %xmm4, %xmm11
	vpaddd	%xmm2, %xmm11, %xmm2
	vpaddd	%xmm0, %xmm2, %xmm2
	vpshufb	%xmm12, %xmm9, %xmm9
	vpshufb	%xmm12, %xmm2, %xmm11
	vpxor	%xmm9, %xmm11, %xmm9
	vpaddd	%xmm10, %xmm9, %xmm10
	vpxor	%xmm0, %xmm10, %xmm0
	vpsrld	$7, %xmm0, %xmm11
	vpslld	$25, %xmm0, %xmm0
	vpor	%xmm0, %xmm11, %xmm0
	vshufps	$231, %xmm8, %xmm8, %xmm11
	vmovaps	64(%rsp), %xmm4
	vblendps	$2, %xmm4, %xmm11, %xmm11
	vinsertps	$48, (%rsp), %xmm11, %xmm3
	vshufps	$215, %xmm6, %xmm5, %xmm1
	vmovaps	%xmm1, 160(%rsp)
	vpaddd	%xmm1, %xmm2, %xmm2
	vpshufd	$57, %xmm2, %xmm2
	vpaddd	%xmm2, %xmm0, %xmm2
	vpshufb	%xmm13, %xmm9, %xmm9
	vmovdqa	%xmm13, %xmm8
	vmovdqa	.LCPI2_0(%rip), %xmm5
	vpshufb	%xmm5, %xmm2, %xmm13
	vpxor	%xmm9, %xmm13, %xmm9
	vpshufd	$147, %xmm10, %xmm10
	vpaddd	%xmm10, %xmm9, %xmm10
	vpxor	%xmm0, %xmm10, %xmm0
	vpsrld	$12, %xmm0, %xmm13
	vpslld	$20, %xmm0, %xmm0
	vpor	%xmm0, %xmm13, %xmm0
	vpaddd	%xmm3, %xmm2, %xmm2
	vmovaps	%xmm3, %xmm6
	vpaddd	%xmm0, %xmm2, %xmm2
	vpshufb	%xmm12, %xmm9, %xmm9
	vpshufb	%xmm12, %xmm2, %xmm13
	vmovdqa	%xmm12, %xmm11
	vpxor	%xmm9, %xmm13, %xmm9
	vpaddd	%xmm10, %xmm9, %xmm10
	vpxor	%xmm0, %xmm10, %xmm0
	vpsrld	$7, %xmm0, %xmm13
	vpslld	$25, %xmm0, %xmm0
	vpor	%xmm0, %xmm13, %xmm0
	vmovaps	112(%rsp), %xmm3
	vmovlhps	%xmm15, %xmm3, %xmm1
	vmovaps	%xmm1, (%rsp)
	vblendps	$8, %xmm4, %xmm1, %xmm13
	vshufps	$120, %xmm13, %xmm13, %xmm13
	vpshufd	$147, %xmm2, %xmm2
	vpaddd	%xmm2, %xmm13, %xmm2
	vpaddd	%xmm0, %xmm2, %xmm2
	vpshufb	%xmm8, %xmm9, %xmm9
	vpshufb	%xmm5, %xmm2, %xmm13
	vmovdqa	%xmm5, %xmm8
	vpxor	%xmm9, %xmm13, %xmm9
	vpshufd	$57, %xmm10, %xmm10
	vpaddd	%xmm10, %xmm9, %xmm10
	vpxor	%xmm0, %xmm10, %xmm0
	vpsrld	$12, %xmm0, %xmm13
	vpslld	$20, %xmm0, %xmm0
	vpor	%xmm0, %xmm13, %xmm0
	vmovaps	176(%rsp), %xmm1
	vshufps	$35, %xmm4, %xmm1, %xmm13
	vblendps	$4, %xmm7, %xmm13, %xmm13
	vpaddd	%xmm2, %xmm13, %xmm2
	vpaddd	%xmm0, %xmm2, %xmm2
	vpshufb	%xmm12, %xmm9, %xmm9
	vpshufb	%xmm12, %xmm2, %xmm13
	vpxor	%xmm9, %xmm13, %xmm9
	vpaddd	%xmm10, %xmm9, %xmm10
	vpxor	%xmm0, %xmm10, %xmm0
	vpsrld	$7, %xmm0, %xmm13
	vpslld	$25, %xmm0, %xmm0
	vpor	%xmm0, %xmm13, %xmm0
	vpunpckldq	192(%rsp), %xmm14, %xmm13
	vshufps	$250, %xmm4, %xmm4, %xmm14
	vpunpckhdq	%xmm14, %xmm13, %xmm13
	vmovaps	16(%rsp), %xmm5
	vshufps	$243, %xmm5, %xmm1, %xmm14
	vinsertps	$112, %xmm3, %xmm14, %xmm1
	vpshufd	$57, %xmm2, %xmm2
	vmovaps	96(%rsp), %xmm12
	vmovaps	%xmm6, %xmm15
	vshufps	$215, %xmm6, %xmm12, %xmm14
	vshufps	$57, %xmm14, %xmm14, %xmm14
	vpaddd	%xmm2, %xmm14, %xmm2
	vpaddd	%xmm2, %xmm0, %xmm2
	vmovdqa	.LCPI2_3(%rip), %xmm6
	vpshufb	%xmm6, %xmm9, %xmm9
	vpshufb	%xmm8, %xmm2, %xmm14
	vpxor	%xmm9, %xmm14, %xmm9
	vpshufd	$147, %xmm10, %xmm10
	vpaddd	%xmm10, %xmm9, %xmm10
	vpxor	%xmm0, %xmm10, %xmm0
	vpsrld	$12, %xmm0, %xmm14
	vpslld	$20, %xmm0, %xmm0
	vpor	%xmm0, %xmm14, %xmm0
	vinsertps	$48, %xmm4, %xmm13, %xmm13
	vpaddd	%xmm2, %xmm13, %xmm2
	vpaddd	%xmm0, %xmm2, %xmm2
	vpshufb	%xmm11, %xmm9, %xmm9
	vpshufb	%xmm11, %xmm2, %xmm13
	vmovdqa	%xmm11, %xmm3
	vpxor	%xmm9, %xmm13, %xmm9
	vpaddd	%xmm10, %xmm9, %xmm10
	vpxor	%xmm0, %xmm10, %xmm0
	vpsrld	$7, %xmm0, %xmm13
	vpslld	$25, %xmm0, %xmm0
	vpor	%xmm0, %xmm13, %xmm0
	vshufps	$120, %xmm1, %xmm1, %xmm1
	vpshufd	$147, %xmm2, %xmm2
	vpaddd	%xmm1, %xmm2, %xmm1
	vpaddd	%xmm0, %xmm1, %xmm1
	vmovdqa	%xmm6, %xmm11
	vpshufb	%xmm6, %xmm9, %xmm2
	vmovdqa	%xmm8, %xmm13
	vpshufb	%xmm8, %xmm1, %xmm9
	vpxor	%xmm2, %xmm9, %xmm2
	vpshufd	$57, %xmm10, %xmm9
	vpaddd	%xmm2, %xmm9, %xmm9
	vpxor	%xmm0, %xmm9, %xmm0
	vpsrld	$12, %xmm0, %xmm10
	vpslld	$20, %xmm0, %xmm0
	vpor	%xmm0, %xmm10, %xmm0
	vmovddup	%xmm7, %xmm10
	vmovaps	128(%rsp), %xmm8
	vblendps	$8, %xmm10, %xmm8, %xmm10
	vpaddd	%xmm1, %xmm10, %xmm1
	vpaddd	%xmm0, %xmm1, %xmm1
	vpshufb	%xmm3, %xmm2, %xmm2
	vpshufb	%xmm3, %xmm1, %xmm10
	vpxor	%xmm2, %xmm10, %xmm2
	vpaddd	%xmm2, %xmm9, %xmm9
	vpxor	%xmm0, %xmm9, %xmm0
	vpsrld	$7, %xmm0, %xmm10
	vpslld	$25, %xmm0, %xmm0
	vpor	%xmm0, %xmm10, %xmm0
	vpshufd	$57, %xmm1, %xmm1
	vshufps	$55, %xmm4, %xmm15, %xmm10
	vshufps	$57, %xmm10, %xmm10, %xmm10
	vpaddd	%xmm1, %xmm10, %xmm1
	vpaddd	%xmm1, %xmm0, %xmm1
	vpshufb	%xmm6, %xmm2, %xmm2
	vpshufb	%xmm13, %xmm1, %xmm10
	vpxor	%xmm2, %xmm10, %xmm2
	vpshufd	$147, %xmm9, %xmm9
	vpaddd	%xmm2, %xmm9, %xmm9
	vpxor	%xmm0, %xmm9, %xmm0
	vpsrld	$12, %xmm0, %xmm10
	vpslld	$20, %xmm0, %xmm0
	vpor	%xmm0, %xmm10, %xmm0
	vmovaps	%xmm5, %xmm14
	vinsertps	$96, %xmm5, %xmm12, %xmm10
	vshufps	$219, %xmm10, %xmm10, %xmm10
	vinsertps	$112, %xmm7, %xmm10, %xmm10
	vpaddd	%xmm1, %xmm10, %xmm1
	vpaddd	%xmm0, %xmm1, %xmm1
	vpshufb	%xmm3, %xmm2, %xmm2
	vpshufb	%xmm3, %xmm1, %xmm10
	vpxor	%xmm2, %xmm10, %xmm2
	vpaddd	%xmm2, %xmm9, %xmm9
	vpxor	%xmm0, %xmm9, %xmm0
	vpsrld	$7, %xmm0, %xmm10
	vpslld	$25, %xmm0, %xmm0
	vpor	%xmm0, %xmm10, %xmm0
	vunpcklpd	160(%rsp), %xmm8, %xmm10
	vinsertps	$48, %xmm7, %xmm10, %xmm10
	vshufps	$120, %xmm10, %xmm10, %xmm10
	vpshufd	$147, %xmm1, %xmm1
	vpaddd	%xmm1, %xmm10, %xmm1
	vpaddd	%xmm0, %xmm1, %xmm1
	vpshufb	%xmm6, %xmm2, %xmm2
	vpshufb	%xmm13, %xmm1, %xmm10
	vpxor	%xmm2, %xmm10, %xmm2
	vpshufd	$57, %xmm9, %xmm9
	vpaddd	%xmm2, %xmm9, %xmm9
	vpxor	%xmm0, %xmm9, %xmm0
	vpsrld	$12, %xmm0, %xmm10
	vpslld	$20, %xmm0, %xmm0
	vpor	%xmm0, %xmm10, %xmm0
	vshufps	$171, %xmm5, %xmm8, %xmm10
	vblendps	$4, %xmm4, %xmm10, %xmm10
	vpaddd	%xmm1, %xmm10, %xmm1
	vpaddd	%xmm0, %xmm1, %xmm10
	vpshufb	%xmm3, %xmm2, %xmm1
	vpshufb	%xmm3, %xmm10, %xmm2
	vpxor	%xmm1, %xmm2, %xmm2
	vpaddd	%xmm2, %xmm9, %xmm9
	vpxor	%xmm0, %xmm9, %xmm0
	vpsrld	$7, %xmm0, %xmm1
	vpslld	$25, %xmm0, %xmm0
	vpor	%xmm1, %xmm0, %xmm12
	vshufps	$171, 80(%rsp), %xmm8, %xmm0
	vinsertps	$112, %xmm8, %xmm0, %xmm0
	vmovaps	32(%rsp), %xmm1
	vshufps	$167, (%rsp), %xmm1, %xmm1
	vinsertps	$32, 60(%rsp), %xmm1, %xmm1
	vmovaps	%xmm7, %xmm5
	vinsertps	$32, %xmm7, %xmm15, %xmm7
	vshufps	$219, %xmm7, %xmm7, %xmm7
	vinsertps	$176, %xmm14, %xmm7, %xmm7
	vshufps	$85, %xmm5, %xmm14, %xmm5
	vshufps	$51, %xmm4, %xmm4, %xmm4
	vblendps	$6, %xmm5, %xmm4, %xmm4
	vpshufd	$147, %xmm9, %xmm5
	vpshufd	$57, %xmm10, %xmm6
	vpaddd	%xmm4, %xmm6, %xmm4
	vpaddd	%xmm4, %xmm12, %xmm4
	vpshufb	%xmm13, %xmm4, %xmm6
	vpshufb	%xmm11, %xmm2, %xmm2
	vpxor	%xmm2, %xmm6, %xmm2
	vpaddd	%xmm5, %xmm2, %xmm5
	vpxor	%xmm5, %xmm12, %xmm6
	vpsrld	$12, %xmm6, %xmm8
	vpslld	$20, %xmm6, %xmm6
	vpor	%xmm6, %xmm8, %xmm6
	vpaddd	%xmm7, %xmm4, %xmm4
	vpaddd	%xmm6, %xmm4, %xmm4
	vpshufb	%xmm3, %xmm4, %xmm7
	vpshufb	%xmm3, %xmm2, %xmm2
	vpxor	%xmm2, %xmm7, %xmm2
	vpaddd	%xmm5, %xmm2, %xmm5
	vpxor	%xmm6, %xmm5, %xmm6
	vpsrld	$7, %xmm6, %xmm7
	vpslld	$25, %xmm6, %xmm6
	vpor	%xmm7, %xmm6, %xmm6
	vshufps	$120, %xmm0, %xmm0, %xmm0
	vpshufd	$147, %xmm4, %xmm4
	vpaddd	%xmm0, %xmm4, %xmm0
	vpshufb	%xmm11, %xmm2, %xmm2
	vpshufd	$57, %xmm5, %xmm4
	vpaddd	%xmm6, %xmm0, %xmm0
	vpshufb	%xmm13, %xmm0, %xmm5
	vpxor	%xmm2, %xmm5, %xmm2
	vpaddd	%xmm4, %xmm2, %xmm4
	vpxor	%xmm6, %xmm4, %xmm5
	vpsrld	$12, %xmm5, %xmm6
	vpslld	$20, %xmm5, %xmm5
	vpor	%xmm6, %xmm5, %xmm5
	vpaddd	%xmm1, %xmm0, %xmm0
	vpaddd	%xmm5, %xmm0, %xmm0
	vpshufb	%xmm3, %xmm2, %xmm1
	vpshufb	%xmm3, %xmm0, %xmm2
	vpxor	%xmm1, %xmm2, %xmm1
	vpaddd	%xmm4, %xmm1, %xmm2
	vpxor	%xmm5, %xmm2, %xmm3
	vpsrld	$7, %xmm3, %xmm4
	vpslld	$25, %xmm3, %xmm3
	vpor	%xmm4, %xmm3, %xmm3
	vpshufd	$147, %xmm2, %xmm2
	vinserti128	$1, %xmm3, %ymm2, %ymm2
	vinserti128	$1, %xmm1, %ymm0, %ymm0
	vmovdqa	.LCPI2_4(%rip), %ymm1
	vpermd	%ymm0, %ymm1, %ymm0
	vpxor	%ymm0, %ymm2, %ymm0
	vmovdqu	%ymm0, (%rcx)
	vmovaps	208(%rsp), %xmm6
	vmovaps	224(%rsp), %xmm7
	vmovaps	240(%rsp), %xmm8
	vmovaps	256(%rsp), %xmm9
	vmovaps	272(%rsp), %xmm10
	vmovaps	288(%rsp), %xmm11
	vmovaps	304(%rsp), %xmm12
	vmovaps	320(%rsp), %xmm13
	vmovaps	336(%rsp), %xmm14
	vmovaps	352(%rsp), %xmm15
	addq	$376, %rsp
	vzeroupper
	retq
	.seh_endproc

	.section	.text
	.p2align	4
	.def	"keyed_blake3::hasher::Hasher::update";
	.scl	3;
	.type	32;
	.endef
"keyed_blake3::hasher::Hasher::update":
.seh_proc "keyed_blake3::hasher::Hasher::update"
	pushq	%r15
	.seh_pushreg %r15
	pushq	%r14
	.seh_pushreg %r14
	pushq	%r13
	.seh_pushreg %r13
	pushq	%r12
	.seh_pushreg %r12
	pushq	%rsi
	.seh_pushreg %rsi
	pushq	%rdi
	.seh_pushreg %rdi
	pushq	%rbp
	.seh_pushreg %rbp
	pushq	%rbx
	.seh_pushreg %rbx
	subq	$424, %rsp
	.seh_stackalloc 424
	.seh_endprologue
	testq	%r8, %r8
	je	.LBB3_101
	movq	%r8, %rbx
	movq	%rdx, %rdi
	movq	%rcx, %rsi
	movq	1856(%rcx), %r12
	cmpq	$1025, %r12
	setb	%al
	testl	$1023, %r12d
	setne	%cl
	orb	%al, %cl
	jne	.LBB3_5
	movq	%r12, %rax
	shrq	$10, %rax
	blsrq	%rax, %rax
	jne	.LBB3_4
	vmovups	64(%rsi), %ymm0
	vmovups	%ymm0, 64(%rsp)
	vmovups	96(%rsi), %ymm0
	vmovups	%ymm0, 96(%rsp)
	vmovups	(%rsi), %xmm0
	vmovups	16(%rsi), %xmm1
	vmovaps	%xmm1, 352(%rsp)
	vmovaps	%xmm0, 368(%rsp)
	movl	$20, 48(%rsp)
	movl	$64, 40(%rsp)
	movq	$0, 32(%rsp)
	leaq	128(%rsp), %rcx
	leaq	368(%rsp), %rdx
	leaq	352(%rsp), %r8
	leaq	64(%rsp), %r9
	vzeroupper
	callq	"keyed_blake3::compression::compress"
	vmovups	128(%rsp), %ymm0
	vmovups	%ymm0, 64(%rsi)
.LBB3_4:
	movq	%r12, %r15
	jmp	.LBB3_6
.LBB3_5:
	cmpq	$1, %r12
	movq	%r12, %r15
	adcq	$-1, %r15
.LBB3_6:
	movq	%r15, %rdx
	andq	$-64, %rdx
	movq	%r12, %rax
	subq	%rdx, %rax
	leaq	(%r12,%rbx), %rcx
	movq	%rcx, 1856(%rsi)
	movl	$64, %r14d
	subq	%rax, %r14
	cmpq	%r14, %rbx
	jbe	.LBB3_9
	movq	%r15, %rbp
	shrq	$6, %rbp
	movq	%r12, %r8
	subq	%rdx, %r8
	jne	.LBB3_12
	xorl	%r14d, %r14d
	movq	%rbx, %r8
	subq	%r14, %r8
	cmpq	$65, %r8
	jae	.LBB3_51
	jmp	.LBB3_82
.LBB3_9:
	leaq	(%rsi,%rax), %rcx
	addq	$1792, %rcx
	movq	%rcx, %r8
	subq	%rdi, %r8
	cmpq	%rbx, %r8
	jae	.LBB3_16
	cmpq	$8, %rbx
	jb	.LBB3_11
	addq	%rsi, %r12
	addq	%rdi, %rdx
	subq	%rdx, %r12
	addq	$1792, %r12
	cmpq	$128, %r12
	jae	.LBB3_20
.LBB3_11:
	xorl	%edx, %edx
.LBB3_31:
	movq	%rbx, %r9
	movq	%rdx, %r8
	andq	$7, %r9
	je	.LBB3_34
	movq	%rdx, %r8
	.p2align	4
.LBB3_33:
	movzbl	(%rdi,%r8), %r10d
	movb	%r10b, (%rcx,%r8)
	incq	%r8
	decq	%r9
	jne	.LBB3_33
.LBB3_34:
	subq	%rbx, %rdx
	cmpq	$-8, %rdx
	ja	.LBB3_37
	addq	%rsi, %rax
	addq	$1799, %rax
	.p2align	4
.LBB3_36:
	movzbl	(%rdi,%r8), %ecx
	movb	%cl, -7(%rax,%r8)
	movzbl	1(%rdi,%r8), %ecx
	movb	%cl, -6(%rax,%r8)
	movzbl	2(%rdi,%r8), %ecx
	movb	%cl, -5(%rax,%r8)
	movzbl	3(%rdi,%r8), %ecx
	movb	%cl, -4(%rax,%r8)
	movzbl	4(%rdi,%r8), %ecx
	movb	%cl, -3(%rax,%r8)
	movzbl	5(%rdi,%r8), %ecx
	movb	%cl, -2(%rax,%r8)
	movzbl	6(%rdi,%r8), %ecx
	movb	%cl, -1(%rax,%r8)
	movzbl	7(%rdi,%r8), %ecx
	movb	%cl, (%rax,%r8)
	addq	$8, %r8
	cmpq	%r8, %rbx
	jne	.LBB3_36
	jmp	.LBB3_37
.LBB3_12:
	leaq	(%rsi,%rax), %rcx
	addq	$1792, %rcx
	movq	%rcx, %rax
	subq	%rdi, %rax
	cmpq	%r14, %rax
	jae	.LBB3_19
	cmpq	$8, %r14
	jb	.LBB3_15
	addq	%rsi, %r12
	addq	%rdi, %rdx
	subq	%rdx, %r12
	addq	$1792, %r12
	cmpq	$128, %r12
	jae	.LBB3_22
.LBB3_15:
	xorl	%eax, %eax
	jmp	.LBB3_45
.LBB3_16:
	movq	%rdi, %rdx
	movq	%rbx, %r8
	vzeroupper
	callq	memmove
.LBB3_37:
	movq	1856(%rsi), %rdi
	cmpq	$1025, %rdi
	setb	%al
	testl	$1023, %edi
	setne	%cl
	orb	%al, %cl
	jne	.LBB3_101
	leaq	1792(%rsi), %rax
	shrq	$10, %rdi
	decq	%rdi
	vmovups	(%rax), %ymm0
	vmovups	32(%rax), %ymm1
	vmovups	%ymm1, 96(%rsp)
	vmovups	%ymm0, 64(%rsp)
	vmovups	32(%rsi), %xmm0
	vmovups	48(%rsi), %xmm1
	vmovaps	%xmm1, 320(%rsp)
	vmovaps	%xmm0, 336(%rsp)
	movq	%rdi, 32(%rsp)
	movl	$18, 48(%rsp)
	movl	$64, 40(%rsp)
	leaq	128(%rsp), %rbx
	leaq	336(%rsp), %rdx
	leaq	320(%rsp), %r8
	jmp	.LBB3_100
.LBB3_19:
	movq	%rdi, %rdx
	movq	%r14, %r8
	vzeroupper
	callq	memmove
	jmp	.LBB3_47
.LBB3_20:
	cmpq	$128, %rbx
	jae	.LBB3_24
	xorl	%edx, %edx
	jmp	.LBB3_28
.LBB3_22:
	cmpq	$128, %r14
	jae	.LBB3_39
	xorl	%eax, %eax
	jmp	.LBB3_43
.LBB3_24:
	movq	%rbx, %rdx
	andq	$-128, %rdx
	leaq	(%rax,%rsi), %r8
	addq	$1888, %r8
	xorl	%r9d, %r9d
	.p2align	4
.LBB3_25:
	vmovups	(%rdi,%r9), %ymm0
	vmovups	32(%rdi,%r9), %ymm1
	vmovups	64(%rdi,%r9), %ymm2
	vmovups	96(%rdi,%r9), %ymm3
	vmovups	%ymm0, -96(%r8,%r9)
	vmovups	%ymm1, -64(%r8,%r9)
	vmovups	%ymm2, -32(%r8,%r9)
	vmovups	%ymm3, (%r8,%r9)
	subq	$-128, %r9
	cmpq	%r9, %rdx
	jne	.LBB3_25
	cmpq	%rdx, %rbx
	je	.LBB3_37
	testb	$120, %bl
	je	.LBB3_31
.LBB3_28:
	movq	%rdx, %r8
	movq	%rbx, %rdx
	andq	$-8, %rdx
	.p2align	4
.LBB3_29:
	movq	(%rdi,%r8), %r9
	movq	%r9, (%rcx,%r8)
	addq	$8, %r8
	cmpq	%r8, %rdx
	jne	.LBB3_29
	cmpq	%rdx, %rbx
	je	.LBB3_37
	jmp	.LBB3_31
.LBB3_39:
	movq	%r14, %rax
	andq	$-128, %rax
	leaq	(%r8,%rsi), %rdx
	addq	$1888, %rdx
	xorl	%r8d, %r8d
	.p2align	4
.LBB3_40:
	vmovups	(%rdi,%r8), %ymm0
	vmovups	32(%rdi,%r8), %ymm1
	vmovups	64(%rdi,%r8), %ymm2
	vmovups	96(%rdi,%r8), %ymm3
	vmovups	%ymm0, -96(%rdx,%r8)
	vmovups	%ymm1, -64(%rdx,%r8)
	vmovups	%ymm2, -32(%rdx,%r8)
	vmovups	%ymm3, (%rdx,%r8)
	subq	$-128, %r8
	cmpq	%r8, %rax
	jne	.LBB3_40
	cmpq	%rax, %r14
	je	.LBB3_47
	testb	$120, %r14b
	je	.LBB3_45
.LBB3_43:
	movq	%rax, %rdx
	movq	%r14, %rax
	andq	$-8, %rax
	.p2align	4
.LBB3_44:
	movq	(%rdi,%rdx), %r8
	movq	%r8, (%rcx,%rdx)
	addq	$8, %rdx
	cmpq	%rdx, %rax
	jne	.LBB3_44
	jmp	.LBB3_46
.LBB3_82:
	cmpq	%rbx, %r14
	je	.LBB3_101
	leaq	(%rdi,%r14), %rdx
	leaq	1792(%rsi), %rbx
	movq	%rbx, %rax
	subq	%rdx, %rax
	cmpq	%r8, %rax
	jae	.LBB3_86
	cmpq	$8, %r8
	jb	.LBB3_85
	movq	%rsi, %rax
	subq	%rdx, %rax
	addq	$1792, %rax
	cmpq	$128, %rax
	jae	.LBB3_89
.LBB3_85:
	xorl	%eax, %eax
.LBB3_92:
	movq	%r8, %r9
	movq	%rax, %rcx
	andq	$7, %r9
	je	.LBB3_95
	movq	%rax, %rcx
	.p2align	4
.LBB3_94:
	movzbl	(%rdx,%rcx), %r10d
	movb	%r10b, (%rbx,%rcx)
	incq	%rcx
	decq	%r9
	jne	.LBB3_94
.LBB3_95:
	subq	%r8, %rax
	cmpq	$-8, %rax
	ja	.LBB3_98
	leaq	(%r14,%rdi), %rax
	addq	$7, %rax
	.p2align	4
.LBB3_97:
	movzbl	-7(%rax,%rcx), %edx
	movb	%dl, 1792(%rsi,%rcx)
	movzbl	-6(%rax,%rcx), %edx
	movb	%dl, 1793(%rsi,%rcx)
	movzbl	-5(%rax,%rcx), %edx
	movb	%dl, 1794(%rsi,%rcx)
	movzbl	-4(%rax,%rcx), %edx
	movb	%dl, 1795(%rsi,%rcx)
	movzbl	-3(%rax,%rcx), %edx
	movb	%dl, 1796(%rsi,%rcx)
	movzbl	-2(%rax,%rcx), %edx
	movb	%dl, 1797(%rsi,%rcx)
	movzbl	-1(%rax,%rcx), %edx
	movb	%dl, 1798(%rsi,%rcx)
	movzbl	(%rax,%rcx), %edx
	movb	%dl, 1799(%rsi,%rcx)
	addq	$8, %rcx
	cmpq	%rcx, %r8
	jne	.LBB3_97
	jmp	.LBB3_98
.LBB3_86:
	movq	%rbx, %rcx
	vzeroupper
	callq	memmove
.LBB3_98:
	movq	1856(%rsi), %rdi
	cmpq	$1025, %rdi
	setb	%al
	testl	$1023, %edi
	setne	%cl
	orb	%al, %cl
	jne	.LBB3_101
	shrq	$10, %rdi
	decq	%rdi
	vmovups	(%rbx), %ymm0
	vmovups	32(%rbx), %ymm1
	vmovups	%ymm1, 96(%rsp)
	vmovups	%ymm0, 64(%rsp)
	vmovups	32(%rsi), %xmm0
	vmovups	48(%rsi), %xmm1
	vmovaps	%xmm1, 160(%rsp)
	vmovaps	%xmm0, 176(%rsp)
	movq	%rdi, 32(%rsp)
	movl	$18, 48(%rsp)
	movl	$64, 40(%rsp)
	leaq	128(%rsp), %rbx
	leaq	176(%rsp), %rdx
	leaq	160(%rsp), %r8
.LBB3_100:
	leaq	64(%rsp), %r9
	movq	%rbx, %rcx
	vzeroupper
	callq	"keyed_blake3::compression::compress"
	leaq	64(%rsi), %rcx
	movq	$1, 32(%rsp)
	movq	%rsi, %rdx
	movq	%rdi, %r8
	movq	%rbx, %r9
	callq	"keyed_blake3::tree::add_subtree_value"
	vmovups	(%rsi), %ymm0
	vmovups	%ymm0, 32(%rsi)
.LBB3_101:
	addq	$424, %rsp
	popq	%rbx
	popq	%rbp
	popq	%rdi
	popq	%rsi
	popq	%r12
	popq	%r13
	popq	%r14
	popq	%r15
	vzeroupper
	retq
.LBB3_89:
	movl	%r8d, %eax
	andl	$120, %eax
	xorl	%ecx, %ecx
	.p2align	4
.LBB3_90:
	movq	(%rdx,%rcx), %r9
	movq	%r9, (%rbx,%rcx)
	addq	$8, %rcx
	cmpq	%rcx, %rax
	jne	.LBB3_90
	cmpq	%rax, %r8
	je	.LBB3_98
	jmp	.LBB3_92
.LBB3_45:
	movzbl	(%rdi,%rax), %edx
	movb	%dl, (%rcx,%rax)
	incq	%rax
.LBB3_46:
	cmpq	%rax, %r14
	jne	.LBB3_45
.LBB3_47:
	leaq	1792(%rsi), %rax
	shrq	$10, %r15
	movl	%ebp, %ecx
	andl	$15, %ecx
	cmpq	$15, %rcx
	jne	.LBB3_49
	vmovups	(%rax), %ymm0
	vmovups	32(%rax), %ymm1
	vmovups	%ymm1, 96(%rsp)
	vmovups	%ymm0, 64(%rsp)
	vmovups	32(%rsi), %xmm0
	vmovups	48(%rsi), %xmm1
	vmovaps	%xmm1, 256(%rsp)
	vmovaps	%xmm0, 272(%rsp)
	movq	%r15, 32(%rsp)
	movl	$18, 48(%rsp)
	movl	$64, 40(%rsp)
	leaq	128(%rsp), %r12
	leaq	272(%rsp), %rdx
	leaq	256(%rsp), %r8
	leaq	64(%rsp), %r9
	movq	%r12, %rcx
	vzeroupper
	callq	"keyed_blake3::compression::compress"
	leaq	64(%rsi), %rcx
	movq	$0, 32(%rsp)
	movq	%rsi, %rdx
	movq	%r15, %r8
	movq	%r12, %r9
	callq	"keyed_blake3::tree::add_subtree_value"
	vmovups	(%rsi), %ymm0
	jmp	.LBB3_50
.LBB3_49:
	xorl	%edx, %edx
	cmpq	$1, %rcx
	adcl	$16, %edx
	vmovups	(%rax), %ymm0
	vmovups	32(%rax), %ymm1
	vmovups	%ymm1, 96(%rsp)
	vmovups	%ymm0, 64(%rsp)
	vmovups	32(%rsi), %xmm0
	vmovups	48(%rsi), %xmm1
	vmovaps	%xmm1, 288(%rsp)
	vmovaps	%xmm0, 304(%rsp)
	movl	%edx, 48(%rsp)
	movq	%r15, 32(%rsp)
	movl	$64, 40(%rsp)
	leaq	128(%rsp), %rcx
	leaq	304(%rsp), %rdx
	leaq	288(%rsp), %r8
	leaq	64(%rsp), %r9
	vzeroupper
	callq	"keyed_blake3::compression::compress"
	vmovups	128(%rsp), %ymm0
.LBB3_50:
	vmovups	%ymm0, 32(%rsi)
	incq	%rbp
	movq	%rbx, %r8
	subq	%r14, %r8
	cmpq	$65, %r8
	jb	.LBB3_82
.LBB3_51:
	movabsq	$1152921504606846975, %r15
	movq	%rbx, 56(%rsp)
	jmp	.LBB3_55
	.p2align	4
.LBB3_52:
	xorl	%ecx, %ecx
	cmpq	$1, %rax
	adcl	$16, %ecx
	vmovups	(%r9), %ymm0
	vmovups	32(%r9), %ymm1
	vmovups	%ymm1, 96(%rsp)
	vmovups	%ymm0, 64(%rsp)
	vmovups	32(%rsi), %xmm0
	vmovups	48(%rsi), %xmm1
	vmovaps	%xmm1, 224(%rsp)
	vmovaps	%xmm0, 240(%rsp)
	movl	%ecx, 48(%rsp)
	movq	%r12, 32(%rsp)
	movl	$64, 40(%rsp)
	leaq	392(%rsp), %rcx
	leaq	240(%rsp), %rdx
	leaq	224(%rsp), %r8
	leaq	64(%rsp), %r9
	vzeroupper
	callq	"keyed_blake3::compression::compress"
	vmovups	392(%rsp), %ymm0
.LBB3_53:
	leaq	32(%rsi), %rax
	vmovups	%ymm0, (%rax)
	movl	$1, %r12d
.LBB3_54:
	addq	%r12, %rbp
	shlq	$6, %r12
	addq	%r12, %r14
	movq	%rbx, %r8
	subq	%r14, %r8
	cmpq	$64, %r8
	jbe	.LBB3_82
.LBB3_55:
	leaq	(%rdi,%r14), %r9
	movl	%ebp, %eax
	andl	$15, %eax
	cmpq	$2048, %r8
	jb	.LBB3_68
	testq	%rax, %rax
	jne	.LBB3_68
	movq	%r8, %r12
	shrq	$10, %r12
	movq	%rbp, %rdx
	shrq	$4, %rdx
	cmpq	$5120, %r8
	jb	.LBB3_70
	movq	%r8, %r10
	shrq	$13, %r10
	movl	$1, %ecx
.LBB3_59:
	leaq	(%rcx,%rcx), %rax
	cmpq	%r10, %rax
	ja	.LBB3_75
	leaq	(%rax,%r15), %r11
	testq	%rdx, %r11
	jne	.LBB3_75
	leaq	(,%rcx,4), %r13
	cmpq	%r10, %r13
	ja	.LBB3_78
	leaq	(%r15,%r13), %r11
	testq	%rdx, %r11
	jne	.LBB3_78
	leaq	(,%rcx,8), %r11
	cmpq	%r10, %r11
	ja	.LBB3_76
	leaq	(%r11,%r15), %rbx
	movq	%r13, %rax
	testq	%rdx, %rbx
	jne	.LBB3_78
	shlq	$4, %rcx
	cmpq	%r10, %rcx
	ja	.LBB3_77
	testq	%rcx, %rcx
	je	.LBB3_102
	leaq	(%rcx,%r15), %rbx
	movq	%r11, %rax
	testq	%rdx, %rbx
	je	.LBB3_59
	jmp	.LBB3_78
	.p2align	4
.LBB3_68:
	movq	%rbp, %r12
	shrq	$4, %r12
	cmpl	$15, %eax
	jne	.LBB3_52
	vmovups	(%r9), %ymm0
	vmovups	32(%r9), %ymm1
	vmovups	%ymm1, 96(%rsp)
	vmovups	%ymm0, 64(%rsp)
	vmovups	32(%rsi), %xmm0
	vmovups	48(%rsi), %xmm1
	vmovaps	%xmm1, 192(%rsp)
	vmovaps	%xmm0, 208(%rsp)
	movq	%r12, 32(%rsp)
	movl	$18, 48(%rsp)
	movl	$64, 40(%rsp)
	leaq	128(%rsp), %r13
	leaq	208(%rsp), %rdx
	leaq	192(%rsp), %r8
	leaq	64(%rsp), %r9
	movq	%r13, %rcx
	vzeroupper
	callq	"keyed_blake3::compression::compress"
	movq	$0, 32(%rsp)
	leaq	64(%rsi), %rcx
	movq	%rsi, %rdx
	movq	%r12, %r8
	movq	%r13, %r9
	movq	56(%rsp), %rbx
	callq	"keyed_blake3::tree::add_subtree_value"
	vmovups	(%rsi), %ymm0
	jmp	.LBB3_53
	.p2align	4
.LBB3_70:
	movl	%r8d, %eax
	andl	$7168, %eax
	cmpq	%r8, %rax
	jne	.LBB3_72
	movq	%r8, 32(%rsp)
	movq	$1, 40(%rsp)
	jmp	.LBB3_73
.LBB3_72:
	movq	%rax, 32(%rsp)
	movq	$0, 40(%rsp)
.LBB3_73:
	movq	%rsi, %rcx
	movq	%r12, %r8
	vzeroupper
	callq	"keyed_blake3::tree::Tree::absorb_subtrees::<#8b36ca032ac25711>"
	shlq	$4, %r12
	jmp	.LBB3_54
.LBB3_75:
	movq	%rcx, %rax
	jmp	.LBB3_78
.LBB3_76:
	movq	%r13, %rax
	jmp	.LBB3_78
.LBB3_77:
	movq	%r11, %rax
	.p2align	4
.LBB3_78:
	cmpq	$8, %r12
	movl	$8, %r10d
	cmovbq	%r12, %r10
	movq	%r10, %r12
	imulq	%rax, %r12
	shlq	$10, %r12
	cmpq	%r8, %r12
	jne	.LBB3_80
	movq	%r8, 40(%rsp)
	movq	%r9, 32(%rsp)
	movq	$1, 48(%rsp)
	jmp	.LBB3_81
.LBB3_80:
	movq	%r12, 40(%rsp)
	movq	%r9, 32(%rsp)
	movq	$0, 48(%rsp)
.LBB3_81:
	movq	%rsi, %rcx
	movq	%rax, %r8
	movq	%r10, %r9
	vzeroupper
	callq	"keyed_blake3::tree::Tree::absorb_subtrees::<#a9687390e0dd665c>"
	shrq	$6, %r12
	movq	56(%rsp), %rbx
	jmp	.LBB3_54
.LBB3_102:
	ud2
	.seh_endproc

	.section	.text
	.p2align	4
	.def	"keyed_blake3::tree::add_subtree_value";
	.scl	3;
	.type	32;
	.endef
"keyed_blake3::tree::add_subtree_value":
.seh_proc "keyed_blake3::tree::add_subtree_value"
	pushq	%r15
	.seh_pushreg %r15
	pushq	%r14
	.seh_pushreg %r14
	pushq	%r13
	.seh_pushreg %r13
	pushq	%r12
	.seh_pushreg %r12
	pushq	%rsi
	.seh_pushreg %rsi
	pushq	%rdi
	.seh_pushreg %rdi
	pushq	%rbx
	.seh_pushreg %rbx
	subq	$256, %rsp
	.seh_stackalloc 256
	vmovaps	%xmm7, 240(%rsp)
	.seh_savexmm %xmm7, 240
	vmovaps	%xmm6, 224(%rsp)
	.seh_savexmm %xmm6, 224
	.seh_endprologue
	movq	%r8, %rdi
	movq	%rcx, %rsi
	movq	352(%rsp), %r14
	vmovups	(%r9), %ymm0
	vmovups	%ymm0, 96(%rsp)
	xorl	%ebx, %ebx
	popcntq	%r8, %rbx
	cmpq	%rbx, %r14
	setb	%al
	testb	%dil, %al
	je	.LBB4_1
	leaq	192(%rsp), %r15
	vmovups	(%rdx), %xmm6
	vmovups	16(%rdx), %xmm7
	leaq	-1(%rbx), %r12
	shll	$5, %ebx
	leaq	-32(%rsi), %r13
	.p2align	4
.LBB4_3:
	vmovups	(%r13,%rbx), %ymm0
	vmovups	%ymm0, 160(%rsp)
	vmovups	96(%rsp), %ymm0
	vmovups	%ymm0, (%r15)
	vmovaps	%xmm7, 64(%rsp)
	vmovaps	%xmm6, 80(%rsp)
	movl	$20, 48(%rsp)
	movl	$64, 40(%rsp)
	movq	$0, 32(%rsp)
	leaq	128(%rsp), %rcx
	leaq	80(%rsp), %rdx
	leaq	64(%rsp), %r8
	leaq	160(%rsp), %r9
	vzeroupper
	callq	"keyed_blake3::compression::compress"
	vmovups	128(%rsp), %ymm0
	vmovups	%ymm0, 96(%rsp)
	addq	$-32, %rbx
	cmpq	%r12, %r14
	jae	.LBB4_5
	movq	%rdi, %rax
	shrq	%rax
	andl	$2, %edi
	decq	%r12
	testq	%rdi, %rdi
	movq	%rax, %rdi
	jne	.LBB4_3
	jmp	.LBB4_5
.LBB4_1:
	shll	$5, %ebx
.LBB4_5:
	vmovups	96(%rsp), %ymm0
	vmovups	%ymm0, (%rsi,%rbx)
	vmovaps	224(%rsp), %xmm6
	vmovaps	240(%rsp), %xmm7
	addq	$256, %rsp
	popq	%rbx
	popq	%rdi
	popq	%rsi
	popq	%r12
	popq	%r13
	popq	%r14
	popq	%r15
	vzeroupper
	retq
	.seh_endproc

	.section	.rdata,"dr"
	.p2align	5, 0x0
.LCPI5_0:
	.byte	2
	.byte	3
	.byte	0
	.byte	1
	.byte	6
	.byte	7
	.byte	4
	.byte	5
	.byte	10
	.byte	11
	.byte	8
	.byte	9
	.byte	14
	.byte	15
	.byte	12
	.byte	13
	.byte	18
	.byte	19
	.byte	16
	.byte	17
	.byte	22
	.byte	23
	.byte	20
	.byte	21
	.byte	26
	.byte	27
	.byte	24
	.byte	25
	.byte	30
	.byte	31
	.byte	28
	.byte	29
.LCPI5_1:
	.long	1779033703
	.long	3144134277
	.long	1013904242
	.long	2773480762
	.long	1779033703
	.long	3144134277
	.long	1013904242
	.long	2773480762
.LCPI5_2:
	.byte	1
	.byte	2
	.byte	3
	.byte	0
	.byte	5
	.byte	6
	.byte	7
	.byte	4
	.byte	9
	.byte	10
	.byte	11
	.byte	8
	.byte	13
	.byte	14
	.byte	15
	.byte	12
	.byte	17
	.byte	18
	.byte	19
	.byte	16
	.byte	21
	.byte	22
	.byte	23
	.byte	20
	.byte	25
	.byte	26
	.byte	27
	.byte	24
	.byte	29
	.byte	30
	.byte	31
	.byte	28
.LCPI5_3:
	.byte	10
	.byte	11
	.byte	8
	.byte	9
	.byte	14
	.byte	15
	.byte	12
	.byte	13
	.byte	2
	.byte	3
	.byte	0
	.byte	1
	.byte	6
	.byte	7
	.byte	4
	.byte	5
	.byte	26
	.byte	27
	.byte	24
	.byte	25
	.byte	30
	.byte	31
	.byte	28
	.byte	29
	.byte	18
	.byte	19
	.byte	16
	.byte	17
	.byte	22
	.byte	23
	.byte	20
	.byte	21
	.section	.text
	.p2align	4
	.def	"keyed_blake3::compression::two::compress_two_from";
	.scl	3;
	.type	32;
	.endef
"keyed_blake3::compression::two::compress_two_from":
.seh_proc "keyed_blake3::compression::two::compress_two_from"
	subq	$584, %rsp
	.seh_stackalloc 584
	vmovaps	%xmm15, 560(%rsp)
	.seh_savexmm %xmm15, 560
	vmovaps	%xmm14, 544(%rsp)
	.seh_savexmm %xmm14, 544
	vmovaps	%xmm13, 528(%rsp)
	.seh_savexmm %xmm13, 528
	vmovaps	%xmm12, 512(%rsp)
	.seh_savexmm %xmm12, 512
	vmovaps	%xmm11, 496(%rsp)
	.seh_savexmm %xmm11, 496
	vmovaps	%xmm10, 480(%rsp)
	.seh_savexmm %xmm10, 480
	vmovaps	%xmm9, 464(%rsp)
	.seh_savexmm %xmm9, 464
	vmovaps	%xmm8, 448(%rsp)
	.seh_savexmm %xmm8, 448
	vmovaps	%xmm7, 432(%rsp)
	.seh_savexmm %xmm7, 432
	vmovaps	%xmm6, 416(%rsp)
	.seh_savexmm %xmm6, 416
	.seh_endprologue
	vmovdqa	(%r8), %ymm0
	movq	632(%rsp), %rax
	movq	624(%rsp), %r8
	vmovups	(%r8), %xmm1
	vmovups	16(%r8), %xmm2
	vmovdqu	32(%r8), %xmm3
	vmovdqu	48(%r8), %xmm6
	vinsertf128	$1, (%rax), %ymm1, %ymm1
	vinsertf128	$1, 16(%rax), %ymm2, %ymm8
	vinserti128	$1, 32(%rax), %ymm3, %ymm13
	vinserti128	$1, 48(%rax), %ymm6, %ymm10
	vshufps	$136, %ymm8, %ymm1, %ymm11
	vshufps	$221, %ymm8, %ymm1, %ymm14
	vmovups	%ymm14, 64(%rsp)
	vmovaps	%ymm1, %ymm6
	vmovups	%ymm1, 320(%rsp)
	vpshufd	$38, %ymm10, %ymm5
	vmovdqu	%ymm5, 32(%rsp)
	vmovdqu	%ymm10, 128(%rsp)
	vpshufd	$224, %ymm13, %ymm1
	vpaddd	(%rdx), %ymm0, %ymm2
	vpblendd	$153, %ymm5, %ymm1, %ymm1
	vpaddd	%ymm2, %ymm11, %ymm2
	vmovups	%ymm11, 256(%rsp)
	vpxor	(%r9), %ymm2, %ymm3
	vmovdqa	.LCPI5_0(%rip), %ymm5
	vpshufb	%ymm5, %ymm3, %ymm7
	vpaddd	.LCPI5_1(%rip), %ymm7, %ymm9
	vpshufd	$103, %ymm10, %ymm10
	vpxor	%ymm0, %ymm9, %ymm0
	vpsrld	$12, %ymm0, %ymm3
	vpslld	$20, %ymm0, %ymm0
	vpor	%ymm3, %ymm0, %ymm0
	vpaddd	%ymm2, %ymm14, %ymm2
	vpaddd	%ymm0, %ymm2, %ymm2
	vmovdqa	.LCPI5_2(%rip), %ymm3
	vpshufb	%ymm3, %ymm2, %ymm14
	vpshufb	%ymm3, %ymm7, %ymm7
	vpxor	%ymm7, %ymm14, %ymm7
	vpaddd	%ymm7, %ymm9, %ymm9
	vpxor	%ymm0, %ymm9, %ymm0
	vpsrld	$7, %ymm0, %ymm14
	vpslld	$25, %ymm0, %ymm0
	vpor	%ymm0, %ymm14, %ymm0
	vpshufd	$147, %ymm2, %ymm2
	vpaddd	%ymm1, %ymm2, %ymm1
	vpshufd	$57, %ymm9, %ymm2
	vpaddd	%ymm0, %ymm1, %ymm1
	vpshufb	%ymm5, %ymm1, %ymm14
	vmovdqa	.LCPI5_3(%rip), %ymm9
	vpshufb	%ymm9, %ymm7, %ymm7
	vpxor	%ymm7, %ymm14, %ymm7
	vpaddd	%ymm2, %ymm7, %ymm2
	vpxor	%ymm0, %ymm2, %ymm0
	vpsrld	$12, %ymm0, %ymm14
	vpslld	$20, %ymm0, %ymm0
	vpor	%ymm0, %ymm14, %ymm0
	vpshufd	$244, %ymm13, %ymm14
	vmovdqu	%ymm10, 288(%rsp)
	vpblendd	$153, %ymm10, %ymm14, %ymm4
	vpaddd	%ymm4, %ymm1, %ymm1
	vmovdqu	%ymm4, (%rsp)
	vpaddd	%ymm0, %ymm1, %ymm1
	vpshufb	%ymm3, %ymm7, %ymm7
	vpshufb	%ymm3, %ymm1, %ymm15
	vpxor	%ymm7, %ymm15, %ymm15
	vpaddd	%ymm2, %ymm15, %ymm2
	vpxor	%ymm0, %ymm2, %ymm0
	vpsrld	$7, %ymm0, %ymm7
	vpslld	$25, %ymm0, %ymm0
	vpor	%ymm7, %ymm0, %ymm0
	vshufps	$248, %ymm6, %ymm6, %ymm7
	vblendps	$102, %ymm7, %ymm8, %ymm6
	vpaddd	%ymm6, %ymm1, %ymm1
	vpshufd	$57, %ymm1, %ymm1
	vpaddd	%ymm1, %ymm0, %ymm1
	vpshufb	%ymm9, %ymm15, %ymm15
	vmovdqa	.LCPI5_0(%rip), %ymm7
	vpshufb	%ymm7, %ymm1, %ymm12
	vpxor	%ymm15, %ymm12, %ymm12
	vpshufd	$147, %ymm2, %ymm2
	vpaddd	%ymm2, %ymm12, %ymm2
	vpxor	%ymm0, %ymm2, %ymm0
	vpsrld	$12, %ymm0, %ymm15
	vpslld	$20, %ymm0, %ymm0
	vpor	%ymm0, %ymm15, %ymm0
	vpblendd	$68, %ymm13, %ymm11, %ymm15
	vpshufd	$203, %ymm15, %ymm5
	vmovdqu	%ymm5, 96(%rsp)
	vpblendd	$136, %ymm10, %ymm5, %ymm11
	vpaddd	%ymm1, %ymm11, %ymm1
	vpaddd	%ymm0, %ymm1, %ymm1
	vpshufb	%ymm3, %ymm12, %ymm12
	vpshufb	%ymm3, %ymm1, %ymm15
	vpxor	%ymm12, %ymm15, %ymm12
	vpaddd	%ymm2, %ymm12, %ymm2
	vpxor	%ymm0, %ymm2, %ymm0
	vpsrld	$7, %ymm0, %ymm15
	vpslld	$25, %ymm0, %ymm0
	vpor	%ymm0, %ymm15, %ymm15
	vmovdqu	64(%rsp), %ymm5
	vpunpcklqdq	%ymm5, %ymm4, %ymm0
	vmovdqu	32(%rsp), %ymm4
	vpblendd	$136, %ymm4, %ymm0, %ymm0
	vpshufd	$120, %ymm0, %ymm0
	vpshufd	$147, %ymm1, %ymm1
	vpaddd	%ymm0, %ymm1, %ymm1
	vpaddd	%ymm1, %ymm15, %ymm1
	vpshufb	%ymm9, %ymm12, %ymm12
	vpshufb	%ymm7, %ymm1, %ymm10
	vpxor	%ymm12, %ymm10, %ymm10
	vpshufd	$57, %ymm2, %ymm2
	vpaddd	%ymm2, %ymm10, %ymm2
	vpxor	%ymm2, %ymm15, %ymm12
	vpsrld	$12, %ymm12, %ymm15
	vpslld	$20, %ymm12, %ymm12
	vpor	%ymm15, %ymm12, %ymm12
	vmovdqu	%ymm13, 160(%rsp)
	vshufps	$172, 128(%rsp), %ymm13, %ymm15
	vblendps	$68, %ymm5, %ymm15, %ymm9
	vpaddd	%ymm1, %ymm9, %ymm1
	vpaddd	%ymm1, %ymm12, %ymm1
	vmovdqa	%ymm3, %ymm7
	vpshufb	%ymm3, %ymm10, %ymm9
	vpshufb	%ymm3, %ymm1, %ymm10
	vpxor	%ymm9, %ymm10, %ymm9
	vpaddd	%ymm2, %ymm9, %ymm10
	vpxor	%ymm12, %ymm10, %ymm2
	vpsrld	$7, %ymm2, %ymm12
	vpslld	$25, %ymm2, %ymm2
	vpor	%ymm2, %ymm12, %ymm12
	vshufps	$172, %ymm8, %ymm13, %ymm2
	vmovups	%ymm8, 352(%rsp)
	vblendps	$136, %ymm0, %ymm2, %ymm2
	vmovdqu	%ymm11, 384(%rsp)
	vmovdqa	%ymm6, %ymm3
	vshufps	$219, %ymm11, %ymm6, %ymm0
	vmovups	%ymm0, 224(%rsp)
	vpaddd	%ymm0, %ymm1, %ymm1
	vpshufd	$57, %ymm1, %ymm1
	vpaddd	%ymm1, %ymm12, %ymm0
	vmovdqa	.LCPI5_3(%rip), %ymm14
	vpshufb	%ymm14, %ymm9, %ymm1
	vmovdqa	.LCPI5_0(%rip), %ymm6
	vpshufb	%ymm6, %ymm0, %ymm9
	vpxor	%ymm1, %ymm9, %ymm9
	vpshufd	$147, %ymm10, %ymm1
	vpaddd	%ymm1, %ymm9, %ymm10
	vpxor	%ymm12, %ymm10, %ymm1
	vpsrld	$12, %ymm1, %ymm12
	vpslld	$20, %ymm1, %ymm1
	vpor	%ymm1, %ymm12, %ymm12
	vpblendd	$204, %ymm4, %ymm3, %ymm1
	vmovdqu	%ymm3, 192(%rsp)
	vpshufd	$220, %ymm1, %ymm1
	vpblendd	$136, %ymm15, %ymm1, %ymm15
	vpaddd	%ymm0, %ymm15, %ymm0
	vpaddd	%ymm0, %ymm12, %ymm0
	vpshufb	%ymm7, %ymm9, %ymm9
	vpshufb	%ymm7, %ymm0, %ymm13
	vpxor	%ymm9, %ymm13, %ymm9
	vpaddd	%ymm10, %ymm9, %ymm10
	vpxor	%ymm12, %ymm10, %ymm12
	vpsrld	$7, %ymm12, %ymm13
	vpslld	$25, %ymm12, %ymm12
	vpor	%ymm13, %ymm12, %ymm12
	vshufps	$120, %ymm2, %ymm2, %ymm2
	vpshufd	$147, %ymm0, %ymm0
	vpaddd	%ymm2, %ymm0, %ymm0
	vpaddd	%ymm0, %ymm12, %ymm0
	vpshufb	%ymm14, %ymm9, %ymm2
	vpshufb	%ymm6, %ymm0, %ymm9
	vpxor	%ymm2, %ymm9, %ymm2
	vpshufd	$57, %ymm10, %ymm9
	vpaddd	%ymm2, %ymm9, %ymm9
	vpxor	%ymm12, %ymm9, %ymm10
	vpsrld	$12, %ymm10, %ymm12
	vpslld	$20, %ymm10, %ymm10
	vpor	%ymm12, %ymm10, %ymm10
	vunpcklpd	(%rsp), %ymm5, %ymm12
	vblendps	$34, %ymm8, %ymm12, %ymm12
	vshufps	$164, %ymm12, %ymm12, %ymm13
	vblendps	$68, 96(%rsp), %ymm13, %ymm14
	vpaddd	%ymm0, %ymm14, %ymm0
	vpaddd	%ymm0, %ymm10, %ymm0
	vpshufb	%ymm7, %ymm2, %ymm2
	vpshufb	%ymm7, %ymm0, %ymm14
	vpxor	%ymm2, %ymm14, %ymm2
	vpaddd	%ymm2, %ymm9, %ymm9
	vpxor	%ymm10, %ymm9, %ymm10
	vpsrld	$7, %ymm10, %ymm14
	vpslld	$25, %ymm10, %ymm10
	vpor	%ymm14, %ymm10, %ymm10
	vpshufd	$231, %ymm3, %ymm14
	vmovdqu	160(%rsp), %ymm4
	vpblendd	$34, %ymm4, %ymm14, %ymm14
	vpblendd	$136, %ymm13, %ymm14, %ymm14
	vunpcklpd	%ymm1, %ymm12, %ymm1
	vmovups	%ymm1, 32(%rsp)
	vshufps	$215, %ymm15, %ymm11, %ymm3
	vmovups	%ymm3, (%rsp)
	vpaddd	%ymm3, %ymm0, %ymm0
	vpshufd	$57, %ymm0, %ymm0
	vpaddd	%ymm0, %ymm10, %ymm0
	vmovdqa	.LCPI5_3(%rip), %ymm8
	vpshufb	%ymm8, %ymm2, %ymm2
	vpshufb	%ymm6, %ymm0, %ymm12
	vpxor	%ymm2, %ymm12, %ymm2
	vpshufd	$147, %ymm9, %ymm9
	vpaddd	%ymm2, %ymm9, %ymm9
	vpxor	%ymm10, %ymm9, %ymm10
	vpsrld	$12, %ymm10, %ymm12
	vpslld	$20, %ymm10, %ymm10
	vpor	%ymm12, %ymm10, %ymm10
	vpaddd	%ymm0, %ymm14, %ymm0
	vpaddd	%ymm0, %ymm10, %ymm12
	vpshufb	%ymm7, %ymm2, %ymm0
	vpshufb	%ymm7, %ymm12, %ymm2
	vpxor	%ymm0, %ymm2, %ymm2
	vpaddd	%ymm2, %ymm9, %ymm9
	vpxor	%ymm10, %ymm9, %ymm0
	vpsrld	$7, %ymm0, %ymm10
	vpslld	$25, %ymm0, %ymm0
	vpor	%ymm0, %ymm10, %ymm10
	vblendps	$136, %ymm4, %ymm1, %ymm0
	vshufps	$120, %ymm0, %ymm0, %ymm1
	vpshufd	$147, %ymm12, %ymm12
	vpaddd	%ymm1, %ymm12, %ymm12
	vpaddd	%ymm10, %ymm12, %ymm12
	vpshufb	%ymm8, %ymm2, %ymm2
	vpshufb	%ymm6, %ymm12, %ymm13
	vpxor	%ymm2, %ymm13, %ymm2
	vpshufd	$57, %ymm9, %ymm9
	vpaddd	%ymm2, %ymm9, %ymm9
	vpxor	%ymm10, %ymm9, %ymm10
	vpsrld	$12, %ymm10, %ymm13
	vpslld	$20, %ymm10, %ymm10
	vpor	%ymm13, %ymm10, %ymm10
	vmovups	256(%rsp), %ymm0
	vshufps	$35, %ymm4, %ymm0, %ymm13
	vmovups	320(%rsp), %ymm3
	vblendps	$68, %ymm3, %ymm13, %ymm6
	vpaddd	%ymm6, %ymm12, %ymm6
	vpaddd	%ymm6, %ymm10, %ymm6
	vpshufb	%ymm7, %ymm2, %ymm2
	vpshufb	%ymm7, %ymm6, %ymm12
	vpxor	%ymm2, %ymm12, %ymm2
	vpaddd	%ymm2, %ymm9, %ymm9
	vpxor	%ymm10, %ymm9, %ymm10
	vpsrld	$7, %ymm10, %ymm12
	vpslld	$25, %ymm10, %ymm10
	vpor	%ymm12, %ymm10, %ymm10
	vmovups	288(%rsp), %ymm11
	vshufps	$231, %ymm4, %ymm11, %ymm12
	vshufps	$238, %ymm4, %ymm4, %ymm11
	vblendps	$34, %ymm11, %ymm12, %ymm11
	vblendps	$136, %ymm13, %ymm11, %ymm11
	vshufps	$195, 224(%rsp), %ymm0, %ymm5
	vblendps	$136, %ymm1, %ymm5, %ymm0
	vpshufd	$57, %ymm6, %ymm5
	vshufps	$215, %ymm14, %ymm15, %ymm6
	vshufps	$57, %ymm6, %ymm6, %ymm6
	vpaddd	%ymm6, %ymm5, %ymm5
	vpaddd	%ymm5, %ymm10, %ymm5
	vmovdqa	%ymm8, %ymm13
	vpshufb	%ymm8, %ymm2, %ymm2
	vmovdqa	.LCPI5_0(%rip), %ymm1
	vpshufb	%ymm1, %ymm5, %ymm6
	vpxor	%ymm2, %ymm6, %ymm2
	vpshufd	$147, %ymm9, %ymm6
	vpaddd	%ymm6, %ymm2, %ymm6
	vpxor	%ymm6, %ymm10, %ymm9
	vpsrld	$12, %ymm9, %ymm10
	vpslld	$20, %ymm9, %ymm9
	vpor	%ymm10, %ymm9, %ymm9
	vpaddd	%ymm5, %ymm11, %ymm5
	vpaddd	%ymm5, %ymm9, %ymm5
	vpshufb	%ymm7, %ymm2, %ymm2
	vpshufb	%ymm7, %ymm5, %ymm10
	vmovdqa	%ymm7, %ymm8
	vpxor	%ymm2, %ymm10, %ymm2
	vpaddd	%ymm6, %ymm2, %ymm6
	vpxor	%ymm6, %ymm9, %ymm9
	vpsrld	$7, %ymm9, %ymm10
	vpslld	$25, %ymm9, %ymm9
	vpor	%ymm10, %ymm9, %ymm9
	vshufps	$120, %ymm0, %ymm0, %ymm0
	vpshufd	$147, %ymm5, %ymm5
	vpaddd	%ymm0, %ymm5, %ymm5
	vpaddd	%ymm5, %ymm9, %ymm5
	vpshufb	%ymm13, %ymm2, %ymm2
	vpshufb	%ymm1, %ymm5, %ymm10
	vpxor	%ymm2, %ymm10, %ymm10
	vpshufd	$57, %ymm6, %ymm2
	vpaddd	%ymm2, %ymm10, %ymm6
	vpxor	%ymm6, %ymm9, %ymm2
	vpsrld	$12, %ymm2, %ymm9
	vpslld	$20, %ymm2, %ymm2
	vpor	%ymm2, %ymm9, %ymm9
	vshufps	$85, %ymm3, %ymm3, %ymm2
	vmovaps	%ymm3, %ymm12
	vmovups	192(%rsp), %ymm7
	vblendps	$136, %ymm2, %ymm7, %ymm11
	vpaddd	%ymm5, %ymm11, %ymm5
	vpaddd	%ymm5, %ymm9, %ymm5
	vpshufb	%ymm8, %ymm10, %ymm10
	vpshufb	%ymm8, %ymm5, %ymm11
	vpxor	%ymm10, %ymm11, %ymm10
	vpaddd	%ymm6, %ymm10, %ymm6
	vpxor	%ymm6, %ymm9, %ymm9
	vpsrld	$7, %ymm9, %ymm11
	vpslld	$25, %ymm9, %ymm9
	vpor	%ymm11, %ymm9, %ymm9
	vblendps	$68, 64(%rsp), %ymm15, %ymm11
	vunpcklpd	(%rsp), %ymm7, %ymm1
	vblendps	$136, %ymm0, %ymm1, %ymm0
	vpshufd	$57, %ymm5, %ymm1
	vshufps	$55, %ymm4, %ymm14, %ymm5
	vshufps	$57, %ymm5, %ymm5, %ymm5
	vpaddd	%ymm5, %ymm1, %ymm1
	vpaddd	%ymm1, %ymm9, %ymm5
	vpshufb	%ymm13, %ymm10, %ymm1
	vmovdqa	.LCPI5_0(%rip), %ymm15
	vpshufb	%ymm15, %ymm5, %ymm10
	vpxor	%ymm1, %ymm10, %ymm10
	vpshufd	$147, %ymm6, %ymm1
	vpaddd	%ymm1, %ymm10, %ymm6
	vpxor	%ymm6, %ymm9, %ymm1
	vpsrld	$12, %ymm1, %ymm9
	vpslld	$20, %ymm1, %ymm1
	vpor	%ymm1, %ymm9, %ymm9
	vshufps	$219, %ymm11, %ymm11, %ymm1
	vblendps	$136, %ymm2, %ymm1, %ymm2
	vpaddd	%ymm2, %ymm5, %ymm2
	vpaddd	%ymm2, %ymm9, %ymm2
	vpshufb	%ymm8, %ymm10, %ymm5
	vpshufb	%ymm8, %ymm2, %ymm10
	vmovdqa	%ymm8, %ymm3
	vpxor	%ymm5, %ymm10, %ymm5
	vpaddd	%ymm6, %ymm5, %ymm6
	vpxor	%ymm6, %ymm9, %ymm9
	vpsrld	$7, %ymm9, %ymm10
	vpslld	$25, %ymm9, %ymm9
	vpor	%ymm10, %ymm9, %ymm9
	vshufps	$120, %ymm0, %ymm0, %ymm0
	vpshufd	$147, %ymm2, %ymm2
	vpaddd	%ymm0, %ymm2, %ymm2
	vpaddd	%ymm2, %ymm9, %ymm2
	vpshufb	%ymm13, %ymm5, %ymm5
	vpshufb	%ymm15, %ymm2, %ymm10
	vpxor	%ymm5, %ymm10, %ymm5
	vpshufd	$57, %ymm6, %ymm6
	vpaddd	%ymm6, %ymm5, %ymm6
	vpxor	%ymm6, %ymm9, %ymm9
	vpsrld	$12, %ymm9, %ymm10
	vpslld	$20, %ymm9, %ymm9
	vpor	%ymm10, %ymm9, %ymm9
	vmovups	352(%rsp), %ymm8
	vshufps	$171, %ymm8, %ymm7, %ymm10
	vblendps	$68, %ymm4, %ymm10, %ymm11
	vpaddd	%ymm2, %ymm11, %ymm2
	vpaddd	%ymm2, %ymm9, %ymm2
	vpshufb	%ymm3, %ymm5, %ymm5
	vpshufb	%ymm3, %ymm2, %ymm11
	vpxor	%ymm5, %ymm11, %ymm5
	vpaddd	%ymm6, %ymm5, %ymm6
	vpxor	%ymm6, %ymm9, %ymm9
	vpsrld	$7, %ymm9, %ymm11
	vpslld	$25, %ymm9, %ymm9
	vpor	%ymm11, %ymm9, %ymm9
	vblendps	$68, 96(%rsp), %ymm14, %ymm11
	vshufps	$219, %ymm11, %ymm11, %ymm11
	vblendps	$136, %ymm10, %ymm11, %ymm10
	vshufps	$171, 128(%rsp), %ymm7, %ymm7
	vblendps	$136, %ymm0, %ymm7, %ymm0
	vmovups	384(%rsp), %ymm7
	vshufps	$167, 32(%rsp), %ymm7, %ymm7
	vblendps	$68, %ymm1, %ymm7, %ymm1
	vshufps	$85, %ymm12, %ymm8, %ymm7
	vshufps	$51, %ymm4, %ymm4, %ymm4
	vblendps	$102, %ymm7, %ymm4, %ymm4
	vpshufd	$147, %ymm6, %ymm6
	vpshufd	$57, %ymm2, %ymm2
	vpaddd	%ymm4, %ymm2, %ymm2
	vpaddd	%ymm2, %ymm9, %ymm2
	vpshufb	%ymm15, %ymm2, %ymm4
	vpshufb	%ymm13, %ymm5, %ymm5
	vpxor	%ymm5, %ymm4, %ymm4
	vpaddd	%ymm6, %ymm4, %ymm5
	vpxor	%ymm5, %ymm9, %ymm6
	vpsrld	$12, %ymm6, %ymm7
	vpslld	$20, %ymm6, %ymm6
	vpor	%ymm7, %ymm6, %ymm6
	vpaddd	%ymm2, %ymm10, %ymm2
	vpaddd	%ymm6, %ymm2, %ymm2
	vpshufb	%ymm3, %ymm2, %ymm7
	vpshufb	%ymm3, %ymm4, %ymm4
	vpxor	%ymm4, %ymm7, %ymm4
	vpaddd	%ymm5, %ymm4, %ymm5
	vpxor	%ymm6, %ymm5, %ymm6
	vpsrld	$7, %ymm6, %ymm7
	vpslld	$25, %ymm6, %ymm6
	vpor	%ymm7, %ymm6, %ymm6
	vshufps	$120, %ymm0, %ymm0, %ymm0
	vpshufd	$147, %ymm2, %ymm2
	vpaddd	%ymm0, %ymm2, %ymm0
	vpshufb	%ymm13, %ymm4, %ymm2
	vpshufd	$57, %ymm5, %ymm4
	vpaddd	%ymm6, %ymm0, %ymm0
	vpshufb	%ymm15, %ymm0, %ymm5
	vpxor	%ymm2, %ymm5, %ymm2
	vpaddd	%ymm4, %ymm2, %ymm4
	vpxor	%ymm6, %ymm4, %ymm5
	vpsrld	$12, %ymm5, %ymm6
	vpslld	$20, %ymm5, %ymm5
	vpor	%ymm6, %ymm5, %ymm5
	vpaddd	%ymm1, %ymm0, %ymm0
	vpaddd	%ymm5, %ymm0, %ymm0
	vpshufb	%ymm3, %ymm2, %ymm1
	vpshufb	%ymm3, %ymm0, %ymm2
	vpxor	%ymm1, %ymm2, %ymm1
	vpaddd	%ymm4, %ymm1, %ymm2
	vpxor	%ymm5, %ymm2, %ymm3
	vpsrld	$7, %ymm3, %ymm4
	vpslld	$25, %ymm3, %ymm3
	vpor	%ymm4, %ymm3, %ymm3
	vpshufd	$57, %ymm0, %ymm0
	vpshufd	$147, %ymm2, %ymm2
	vpxor	%ymm0, %ymm2, %ymm0
	vpshufd	$78, %ymm1, %ymm1
	vpxor	%ymm1, %ymm3, %ymm1
	vmovdqu	%ymm0, (%rcx)
	vmovdqu	%ymm1, 32(%rcx)
	vmovaps	416(%rsp), %xmm6
	vmovaps	432(%rsp), %xmm7
	vmovaps	448(%rsp), %xmm8
	vmovaps	464(%rsp), %xmm9
	vmovaps	480(%rsp), %xmm10
	vmovaps	496(%rsp), %xmm11
	vmovaps	512(%rsp), %xmm12
	vmovaps	528(%rsp), %xmm13
	vmovaps	544(%rsp), %xmm14
	vmovaps	560(%rsp), %xmm15
	addq	$584, %rsp
	vzeroupper
	retq
	.seh_endproc

	.section	.rdata,"dr"
	.p2align	5, 0x0
.LCPI6_0:
	.byte	2
	.byte	3
	.byte	0
	.byte	1
	.byte	6
	.byte	7
	.byte	4
	.byte	5
	.byte	10
	.byte	11
	.byte	8
	.byte	9
	.byte	14
	.byte	15
	.byte	12
	.byte	13
	.byte	18
	.byte	19
	.byte	16
	.byte	17
	.byte	22
	.byte	23
	.byte	20
	.byte	21
	.byte	26
	.byte	27
	.byte	24
	.byte	25
	.byte	30
	.byte	31
	.byte	28
	.byte	29
.LCPI6_1:
	.long	1779033703
	.long	3144134277
	.long	1013904242
	.long	2773480762
	.zero	16
.LCPI6_2:
	.byte	1
	.byte	2
	.byte	3
	.byte	0
	.byte	5
	.byte	6
	.byte	7
	.byte	4
	.byte	9
	.byte	10
	.byte	11
	.byte	8
	.byte	13
	.byte	14
	.byte	15
	.byte	12
	.byte	17
	.byte	18
	.byte	19
	.byte	16
	.byte	21
	.byte	22
	.byte	23
	.byte	20
	.byte	25
	.byte	26
	.byte	27
	.byte	24
	.byte	29
	.byte	30
	.byte	31
	.byte	28
.LCPI6_3:
	.byte	10
	.byte	11
	.byte	8
	.byte	9
	.byte	14
	.byte	15
	.byte	12
	.byte	13
	.byte	2
	.byte	3
	.byte	0
	.byte	1
	.byte	6
	.byte	7
	.byte	4
	.byte	5
	.byte	26
	.byte	27
	.byte	24
	.byte	25
	.byte	30
	.byte	31
	.byte	28
	.byte	29
	.byte	18
	.byte	19
	.byte	16
	.byte	17
	.byte	22
	.byte	23
	.byte	20
	.byte	21
.LCPI6_4:
	.long	2
	.long	6
	.zero	4
	.zero	4
	.long	3
	.long	7
	.zero	4
	.zero	4
.LCPI6_5:
	.zero	4
	.zero	4
	.long	2
	.long	6
	.zero	4
	.zero	4
	.long	3
	.long	7
.LCPI6_6:
	.long	0
	.long	4
	.zero	4
	.zero	4
	.long	1
	.long	5
	.zero	4
	.zero	4
.LCPI6_7:
	.zero	4
	.zero	4
	.long	0
	.long	4
	.zero	4
	.zero	4
	.long	1
	.long	5
	.section	.text
	.p2align	4
	.def	"keyed_blake3::four_chunks::four_chunk_values";
	.scl	3;
	.type	32;
	.endef
"keyed_blake3::four_chunks::four_chunk_values":
.seh_proc "keyed_blake3::four_chunks::four_chunk_values"
	pushq	%r14
	.seh_pushreg %r14
	pushq	%rsi
	.seh_pushreg %rsi
	pushq	%rdi
	.seh_pushreg %rdi
	pushq	%rbx
	.seh_pushreg %rbx
	subq	$1032, %rsp
	.seh_stackalloc 1032
	vmovdqa	%xmm15, 1008(%rsp)
	.seh_savexmm %xmm15, 1008
	vmovdqa	%xmm14, 992(%rsp)
	.seh_savexmm %xmm14, 992
	vmovdqa	%xmm13, 976(%rsp)
	.seh_savexmm %xmm13, 976
	vmovdqa	%xmm12, 960(%rsp)
	.seh_savexmm %xmm12, 960
	vmovdqa	%xmm11, 944(%rsp)
	.seh_savexmm %xmm11, 944
	vmovdqa	%xmm10, 928(%rsp)
	.seh_savexmm %xmm10, 928
	vmovdqa	%xmm9, 912(%rsp)
	.seh_savexmm %xmm9, 912
	vmovdqa	%xmm8, 896(%rsp)
	.seh_savexmm %xmm8, 896
	vmovdqa	%xmm7, 880(%rsp)
	.seh_savexmm %xmm7, 880
	vmovdqa	%xmm6, 864(%rsp)
	.seh_savexmm %xmm6, 864
	.seh_endprologue
	movq	1112(%rsp), %rax
	movq	1104(%rsp), %r10
	vbroadcasti128	(%rdx), %ymm1
	vbroadcasti128	(%r8), %ymm0
	movq	(%r10), %rdx
	movq	8(%r10), %r8
	movq	16(%r10), %r11
	movq	24(%r10), %r10
	movq	%rdx, %rsi
	shlq	$10, %rsi
	movq	%r8, %rdi
	shlq	$10, %rdi
	movq	%r11, %rbx
	shlq	$10, %rbx
	movq	%r10, %r14
	shlq	$10, %r14
	addq	%rax, %rdx
	vmovq	%rdx, %xmm2
	movl	$64, %edx
	vpinsrd	$2, %edx, %xmm2, %xmm2
	vmovdqa	%xmm2, 496(%rsp)
	addq	%rax, %r8
	vmovq	%r8, %xmm2
	vpinsrd	$2, %edx, %xmm2, %xmm2
	vmovdqa	%xmm2, 480(%rsp)
	addq	%rax, %r11
	vmovq	%r11, %xmm2
	vpinsrd	$2, %edx, %xmm2, %xmm2
	vmovdqa	%xmm2, 464(%rsp)
	addq	%rax, %r10
	vmovq	%r10, %xmm2
	vpinsrd	$2, %edx, %xmm2, %xmm2
	vmovdqa	%xmm2, 448(%rsp)
	leaq	(%r14,%r9), %rax
	addq	$48, %rax
	leaq	(%rbx,%r9), %rdx
	addq	$48, %rdx
	leaq	(%rdi,%r9), %r8
	addq	$48, %r8
	addq	%rsi, %r9
	addq	$48, %r9
	xorl	%r10d, %r10d
	vmovdqa	%ymm1, %ymm3
	vmovdqa	%ymm0, %ymm2
	.p2align	4
.LBB6_1:
	vmovdqu	-16(%r9,%r10), %xmm4
	vmovdqu	(%r9,%r10), %xmm5
	vmovdqu	-16(%rdx,%r10), %xmm6
	vmovdqu	(%rdx,%r10), %xmm7
	vinserti128	$1, -16(%r8,%r10), %ymm4, %ymm11
	vinserti128	$1, -16(%rax,%r10), %ymm6, %ymm12
	vinserti128	$1, (%r8,%r10), %ymm5, %ymm10
	vmovdqu	%ymm10, 64(%rsp)
	vinserti128	$1, (%rax,%r10), %ymm7, %ymm13
	vmovups	-48(%r9,%r10), %xmm5
	vpshufd	$38, %ymm13, %ymm4
	vmovdqu	%ymm13, (%rsp)
	vpshufd	$224, %ymm12, %ymm6
	vmovdqu	%ymm12, 128(%rsp)
	vpshufd	$38, %ymm10, %ymm7
	vpshufd	$224, %ymm11, %ymm8
	vmovdqu	%ymm11, 256(%rsp)
	cmpq	$1, %r10
	movl	$0, %r11d
	vpshufd	$103, %ymm10, %ymm9
	adcl	$16, %r11d
	cmpq	$960, %r10
	vpblendd	$153, %ymm4, %ymm6, %ymm4
	vmovdqu	%ymm4, 224(%rsp)
	movl	$18, %esi
	cmovnel	%r11d, %esi
	vpblendd	$153, %ymm7, %ymm8, %ymm10
	vpshufd	$244, %ymm11, %ymm6
	vmovdqa	496(%rsp), %xmm7
	vpinsrd	$3, %esi, %xmm7, %xmm7
	vpblendd	$153, %ymm9, %ymm6, %ymm14
	vmovdqu	%ymm14, 288(%rsp)
	vpshufd	$103, %ymm13, %ymm6
	vmovdqa	480(%rsp), %xmm8
	vpinsrd	$3, %esi, %xmm8, %xmm8
	vpshufd	$244, %ymm12, %ymm9
	vinserti128	$1, %xmm8, %ymm7, %ymm7
	vmovdqa	464(%rsp), %xmm8
	vpinsrd	$3, %esi, %xmm8, %xmm8
	vpblendd	$153, %ymm6, %ymm9, %ymm12
	vmovdqu	%ymm12, 32(%rsp)
	vmovdqa	448(%rsp), %xmm6
	vpinsrd	$3, %esi, %xmm6, %xmm6
	vinsertf128	$1, -48(%r8,%r10), %ymm5, %ymm11
	vmovups	%ymm11, 96(%rsp)
	vinserti128	$1, %xmm6, %ymm8, %ymm5
	vmovups	-48(%rdx,%r10), %xmm6
	vinsertf128	$1, -48(%rax,%r10), %ymm6, %ymm13
	vmovups	-32(%r9,%r10), %xmm6
	vinsertf128	$1, -32(%r8,%r10), %ymm6, %ymm15
	vmovups	-32(%rdx,%r10), %xmm6
	vinsertf128	$1, -32(%rax,%r10), %ymm6, %ymm4
	vpaddd	%ymm0, %ymm1, %ymm1
	vshufps	$136, %ymm4, %ymm13, %ymm6
	vmovups	%ymm4, 160(%rsp)
	vmovups	%ymm6, 576(%rsp)
	vmovups	%ymm13, 384(%rsp)
	vpaddd	%ymm6, %ymm1, %ymm6
	vmovdqa	.LCPI6_0(%rip), %ymm8
	vpshufb	%ymm8, %ymm5, %ymm1
	vpshufb	%ymm8, %ymm6, %ymm5
	vpxor	%ymm1, %ymm5, %ymm1
	vpaddd	%ymm2, %ymm3, %ymm3
	vshufps	$136, %ymm15, %ymm11, %ymm5
	vmovups	%ymm5, 544(%rsp)
	vpaddd	%ymm5, %ymm3, %ymm3
	vpshufb	%ymm8, %ymm7, %ymm5
	vpshufb	%ymm8, %ymm3, %ymm7
	vpxor	%ymm5, %ymm7, %ymm5
	vbroadcasti128	.LCPI6_1(%rip), %ymm7
	vpaddd	%ymm7, %ymm5, %ymm8
	vpxor	%ymm2, %ymm8, %ymm2
	vpsrld	$12, %ymm2, %ymm9
	vpslld	$20, %ymm2, %ymm2
	vpor	%ymm2, %ymm9, %ymm2
	vshufps	$221, %ymm15, %ymm11, %ymm9
	vpaddd	%ymm3, %ymm9, %ymm3
	vpaddd	%ymm7, %ymm1, %ymm9
	vpxor	%ymm0, %ymm9, %ymm0
	vpsrld	$12, %ymm0, %ymm7
	vpslld	$20, %ymm0, %ymm0
	vpor	%ymm7, %ymm0, %ymm11
	vshufps	$221, %ymm4, %ymm13, %ymm0
	vpaddd	%ymm0, %ymm6, %ymm6
	vpaddd	%ymm2, %ymm3, %ymm3
	vpxor	%ymm5, %ymm3, %ymm0
	vmovdqa	.LCPI6_2(%rip), %ymm13
	vpshufb	%ymm13, %ymm0, %ymm5
	vpaddd	%ymm5, %ymm8, %ymm0
	vpxor	%ymm2, %ymm0, %ymm2
	vpsrld	$7, %ymm2, %ymm8
	vpslld	$25, %ymm2, %ymm2
	vpor	%ymm2, %ymm8, %ymm2
	vpaddd	%ymm6, %ymm11, %ymm6
	vpxor	%ymm1, %ymm6, %ymm1
	vpshufb	%ymm13, %ymm1, %ymm8
	vpaddd	%ymm9, %ymm8, %ymm9
	vpxor	%ymm11, %ymm9, %ymm1
	vpsrld	$7, %ymm1, %ymm11
	vpslld	$25, %ymm1, %ymm1
	vpor	%ymm1, %ymm11, %ymm11
	vpshufd	$147, %ymm6, %ymm1
	vpaddd	224(%rsp), %ymm1, %ymm6
	vpshufd	$147, %ymm3, %ymm1
	vpaddd	%ymm1, %ymm10, %ymm1
	vpaddd	%ymm2, %ymm1, %ymm1
	vmovdqa	.LCPI6_3(%rip), %ymm10
	vpshufb	%ymm10, %ymm5, %ymm3
	vmovdqa	.LCPI6_0(%rip), %ymm7
	vpshufb	%ymm7, %ymm1, %ymm4
	vpxor	%ymm3, %ymm4, %ymm4
	vpaddd	%ymm6, %ymm11, %ymm3
	vpshufb	%ymm10, %ymm8, %ymm5
	vpshufb	%ymm7, %ymm3, %ymm6
	vpxor	%ymm5, %ymm6, %ymm6
	vpshufd	$57, %ymm9, %ymm5
	vpaddd	%ymm5, %ymm6, %ymm5
	vpxor	%ymm5, %ymm11, %ymm8
	vpsrld	$12, %ymm8, %ymm9
	vpslld	$20, %ymm8, %ymm8
	vpor	%ymm9, %ymm8, %ymm8
	vpshufd	$57, %ymm0, %ymm0
	vpaddd	%ymm0, %ymm4, %ymm10
	vpxor	%ymm2, %ymm10, %ymm0
	vpsrld	$12, %ymm0, %ymm2
	vpslld	$20, %ymm0, %ymm0
	vpor	%ymm2, %ymm0, %ymm2
	vpaddd	%ymm3, %ymm12, %ymm0
	vpaddd	%ymm0, %ymm8, %ymm7
	vpshufb	%ymm13, %ymm6, %ymm3
	vpshufb	%ymm13, %ymm7, %ymm6
	vpxor	%ymm3, %ymm6, %ymm12
	vpaddd	%ymm1, %ymm14, %ymm1
	vpaddd	%ymm2, %ymm1, %ymm11
	vpshufb	%ymm13, %ymm4, %ymm1
	vpshufb	%ymm13, %ymm11, %ymm4
	vpxor	%ymm1, %ymm4, %ymm9
	vpaddd	%ymm10, %ymm9, %ymm0
	vmovdqu	%ymm0, 352(%rsp)
	vpxor	%ymm2, %ymm0, %ymm2
	vpsrld	$7, %ymm2, %ymm4
	vpslld	$25, %ymm2, %ymm2
	vpor	%ymm4, %ymm2, %ymm13
	vpaddd	%ymm5, %ymm12, %ymm6
	vpxor	%ymm6, %ymm8, %ymm2
	vpsrld	$7, %ymm2, %ymm5
	vpslld	$25, %ymm2, %ymm2
	vpor	%ymm5, %ymm2, %ymm8
	vmovups	256(%rsp), %ymm14
	vmovups	64(%rsp), %ymm0
	vshufps	$90, %ymm0, %ymm14, %ymm2
	vmovdqu	96(%rsp), %ymm1
	vpalignr	$8, %ymm15, %ymm1, %ymm5
	vpblendd	$170, %ymm2, %ymm5, %ymm2
	vmovdqu	%ymm2, 320(%rsp)
	vmovups	128(%rsp), %ymm2
	vshufps	$90, (%rsp), %ymm2, %ymm3
	vmovdqu	384(%rsp), %ymm2
	vmovdqu	160(%rsp), %ymm4
	vpalignr	$8, %ymm4, %ymm2, %ymm10
	vpblendd	$170, %ymm3, %ymm10, %ymm10
	vshufps	$172, %ymm0, %ymm14, %ymm3
	vmovdqa	%ymm15, %ymm0
	vmovups	%ymm15, 416(%rsp)
	vshufps	$85, %ymm15, %ymm15, %ymm15
	vblendps	$68, %ymm15, %ymm3, %ymm3
	vmovups	%ymm3, 192(%rsp)
	vpshufd	$248, %ymm1, %ymm3
	vmovdqu	%ymm3, 672(%rsp)
	vmovdqa	%ymm1, %ymm14
	vpblendd	$102, %ymm3, %ymm0, %ymm1
	vmovdqu	%ymm1, 224(%rsp)
	vpaddd	%ymm1, %ymm11, %ymm11
	vpshufd	$57, %ymm11, %ymm11
	vpaddd	%ymm11, %ymm13, %ymm11
	vmovdqa	.LCPI6_3(%rip), %ymm3
	vpshufb	%ymm3, %ymm9, %ymm9
	vmovdqa	.LCPI6_0(%rip), %ymm1
	vpshufb	%ymm1, %ymm11, %ymm15
	vpxor	%ymm9, %ymm15, %ymm9
	vpshufd	$248, %ymm2, %ymm0
	vmovdqu	%ymm0, 640(%rsp)
	vpblendd	$102, %ymm0, %ymm4, %ymm0
	vmovdqu	%ymm0, 608(%rsp)
	vpaddd	%ymm0, %ymm7, %ymm0
	vpshufd	$57, %ymm0, %ymm0
	vpaddd	%ymm0, %ymm8, %ymm0
	vpshufb	%ymm3, %ymm12, %ymm3
	vpshufb	%ymm1, %ymm0, %ymm15
	vpxor	%ymm3, %ymm15, %ymm15
	vpshufd	$147, %ymm6, %ymm3
	vpaddd	%ymm3, %ymm15, %ymm3
	vpxor	%ymm3, %ymm8, %ymm6
	vpsrld	$12, %ymm6, %ymm8
	vpslld	$20, %ymm6, %ymm6
	vpor	%ymm6, %ymm8, %ymm6
	vpshufd	$147, 352(%rsp), %ymm1
	vpaddd	%ymm1, %ymm9, %ymm8
	vpxor	%ymm13, %ymm8, %ymm1
	vpsrld	$12, %ymm1, %ymm4
	vpslld	$20, %ymm1, %ymm1
	vpor	%ymm4, %ymm1, %ymm4
	vpaddd	%ymm0, %ymm10, %ymm0
	vpaddd	320(%rsp), %ymm11, %ymm5
	vpaddd	%ymm6, %ymm0, %ymm10
	vmovdqa	.LCPI6_2(%rip), %ymm13
	vpshufb	%ymm13, %ymm15, %ymm0
	vpshufb	%ymm13, %ymm10, %ymm1
	vpxor	%ymm0, %ymm1, %ymm1
	vpaddd	%ymm4, %ymm5, %ymm11
	vpshufb	%ymm13, %ymm9, %ymm0
	vpshufb	%ymm13, %ymm11, %ymm5
	vpxor	%ymm0, %ymm5, %ymm5
	vpaddd	%ymm5, %ymm8, %ymm0
	vpxor	%ymm4, %ymm0, %ymm4
	vpsrld	$7, %ymm4, %ymm8
	vpslld	$25, %ymm4, %ymm4
	vpor	%ymm4, %ymm8, %ymm4
	vpaddd	%ymm3, %ymm1, %ymm3
	vpxor	%ymm6, %ymm3, %ymm6
	vpsrld	$7, %ymm6, %ymm8
	vpslld	$25, %ymm6, %ymm6
	vpor	%ymm6, %ymm8, %ymm6
	vmovups	32(%rsp), %ymm7
	vshufps	$212, %ymm2, %ymm7, %ymm7
	vmovups	%ymm7, 320(%rsp)
	vmovups	(%rsp), %ymm12
	vshufps	$68, %ymm12, %ymm12, %ymm2
	vmovups	%ymm2, 832(%rsp)
	vshufps	$104, %ymm7, %ymm7, %ymm8
	vblendps	$68, %ymm2, %ymm8, %ymm8
	vpshufd	$147, %ymm10, %ymm9
	vpaddd	%ymm8, %ymm9, %ymm8
	vmovups	288(%rsp), %ymm2
	vshufps	$212, %ymm14, %ymm2, %ymm2
	vmovups	%ymm2, 352(%rsp)
	vshufps	$104, %ymm2, %ymm2, %ymm9
	vpermilps	$68, 64(%rsp), %ymm2
	vmovups	%ymm2, 800(%rsp)
	vblendps	$68, %ymm2, %ymm9, %ymm9
	vpshufd	$147, %ymm11, %ymm10
	vpaddd	%ymm9, %ymm10, %ymm9
	vmovups	128(%rsp), %ymm2
	vshufps	$172, %ymm12, %ymm2, %ymm10
	vpermilps	$85, 160(%rsp), %ymm11
	vblendps	$68, %ymm11, %ymm10, %ymm10
	vpaddd	%ymm4, %ymm9, %ymm9
	vmovdqa	.LCPI6_3(%rip), %ymm7
	vpshufb	%ymm7, %ymm5, %ymm5
	vmovdqa	.LCPI6_0(%rip), %ymm2
	vpshufb	%ymm2, %ymm9, %ymm11
	vpxor	%ymm5, %ymm11, %ymm5
	vpaddd	%ymm6, %ymm8, %ymm8
	vpshufb	%ymm7, %ymm1, %ymm1
	vpshufb	%ymm2, %ymm8, %ymm11
	vpxor	%ymm1, %ymm11, %ymm11
	vpshufd	$57, %ymm3, %ymm1
	vpaddd	%ymm1, %ymm11, %ymm3
	vpxor	%ymm6, %ymm3, %ymm1
	vpsrld	$12, %ymm1, %ymm6
	vpslld	$20, %ymm1, %ymm1
	vpor	%ymm6, %ymm1, %ymm1
	vpshufd	$57, %ymm0, %ymm0
	vpaddd	%ymm0, %ymm5, %ymm6
	vpxor	%ymm4, %ymm6, %ymm0
	vpsrld	$12, %ymm0, %ymm4
	vpslld	$20, %ymm0, %ymm0
	vpor	%ymm4, %ymm0, %ymm15
	vpaddd	%ymm10, %ymm8, %ymm0
	vpaddd	192(%rsp), %ymm9, %ymm2
	vmovdqa	%ymm13, %ymm7
	vpshufb	%ymm13, %ymm11, %ymm4
	vpaddd	%ymm1, %ymm0, %ymm0
	vpshufb	%ymm13, %ymm0, %ymm8
	vpxor	%ymm4, %ymm8, %ymm13
	vpaddd	%ymm2, %ymm15, %ymm9
	vpshufb	%ymm7, %ymm5, %ymm2
	vpshufb	%ymm7, %ymm9, %ymm5
	vpxor	%ymm2, %ymm5, %ymm2
	vmovdqu	%ymm2, 192(%rsp)
	vpaddd	%ymm6, %ymm2, %ymm6
	vpxor	%ymm6, %ymm15, %ymm5
	vpsrld	$7, %ymm5, %ymm8
	vpslld	$25, %ymm5, %ymm5
	vpor	%ymm5, %ymm8, %ymm2
	vmovdqu	%ymm2, 512(%rsp)
	vmovups	416(%rsp), %ymm12
	vblendps	$204, %ymm14, %ymm12, %ymm8
	vmovups	64(%rsp), %ymm2
	vshufps	$160, %ymm2, %ymm2, %ymm10
	vblendps	$170, %ymm10, %ymm8, %ymm8
	vmovups	256(%rsp), %ymm4
	vshufps	$218, %ymm2, %ymm4, %ymm10
	vmovups	672(%rsp), %ymm7
	vunpckhpd	%ymm12, %ymm7, %ymm11
	vmovaps	%ymm12, %ymm2
	vblendps	$102, %ymm10, %ymm11, %ymm10
	vpshufd	$57, %ymm9, %ymm9
	vpaddd	%ymm10, %ymm9, %ymm11
	vpaddd	%ymm3, %ymm13, %ymm9
	vmovdqa	%ymm13, %ymm5
	vpxor	%ymm1, %ymm9, %ymm1
	vpsrld	$7, %ymm1, %ymm3
	vpslld	$25, %ymm1, %ymm1
	vpor	%ymm3, %ymm1, %ymm10
	vmovups	128(%rsp), %ymm12
	vmovups	(%rsp), %ymm13
	vshufps	$218, %ymm13, %ymm12, %ymm1
	vmovups	160(%rsp), %ymm14
	vmovups	640(%rsp), %ymm3
	vunpckhpd	%ymm14, %ymm3, %ymm3
	vblendps	$102, %ymm1, %ymm3, %ymm1
	vpshufd	$57, %ymm0, %ymm0
	vpaddd	%ymm1, %ymm0, %ymm15
	vmovups	384(%rsp), %ymm7
	vblendps	$204, %ymm7, %ymm14, %ymm0
	vshufps	$160, %ymm13, %ymm13, %ymm1
	vblendps	$170, %ymm1, %ymm0, %ymm3
	vshufps	$236, %ymm14, %ymm12, %ymm0
	vshufps	$104, %ymm0, %ymm0, %ymm0
	vshufps	$85, %ymm12, %ymm12, %ymm1
	vblendps	$68, %ymm1, %ymm0, %ymm12
	vshufps	$236, %ymm2, %ymm4, %ymm1
	vshufps	$104, %ymm1, %ymm1, %ymm1
	vshufps	$85, %ymm4, %ymm4, %ymm14
	vblendps	$68, %ymm14, %ymm1, %ymm1
	vmovdqu	512(%rsp), %ymm13
	vpaddd	%ymm11, %ymm13, %ymm11
	vmovdqa	.LCPI6_3(%rip), %ymm4
	vmovdqu	192(%rsp), %ymm0
	vpshufb	%ymm4, %ymm0, %ymm2
	vmovdqa	.LCPI6_0(%rip), %ymm0
	vpshufb	%ymm0, %ymm11, %ymm14
	vpxor	%ymm2, %ymm14, %ymm14
	vpaddd	%ymm15, %ymm10, %ymm15
	vpshufb	%ymm4, %ymm5, %ymm2
	vpshufb	%ymm0, %ymm15, %ymm4
	vpxor	%ymm2, %ymm4, %ymm4
	vpshufd	$147, %ymm9, %ymm2
	vpaddd	%ymm2, %ymm4, %ymm2
	vpxor	%ymm2, %ymm10, %ymm9
	vpsrld	$12, %ymm9, %ymm10
	vpslld	$20, %ymm9, %ymm9
	vpor	%ymm10, %ymm9, %ymm9
	vpshufd	$147, %ymm6, %ymm6
	vpaddd	%ymm6, %ymm14, %ymm10
	vpxor	%ymm13, %ymm10, %ymm5
	vpsrld	$12, %ymm5, %ymm6
	vpslld	$20, %ymm5, %ymm5
	vpor	%ymm6, %ymm5, %ymm5
	vpaddd	%ymm3, %ymm15, %ymm3
	vpaddd	%ymm8, %ymm11, %ymm8
	vmovdqa	.LCPI6_2(%rip), %ymm13
	vpshufb	%ymm13, %ymm4, %ymm4
	vpaddd	%ymm3, %ymm9, %ymm11
	vpshufb	%ymm13, %ymm11, %ymm3
	vpxor	%ymm4, %ymm3, %ymm6
	vpaddd	%ymm5, %ymm8, %ymm8
	vpshufb	%ymm13, %ymm14, %ymm3
	vpshufb	%ymm13, %ymm8, %ymm4
	vpxor	%ymm3, %ymm4, %ymm14
	vpaddd	%ymm10, %ymm14, %ymm3
	vpxor	%ymm5, %ymm3, %ymm4
	vpsrld	$7, %ymm4, %ymm5
	vpslld	$25, %ymm4, %ymm4
	vpor	%ymm5, %ymm4, %ymm4
	vpshufd	$147, %ymm11, %ymm5
	vpaddd	%ymm5, %ymm12, %ymm0
	vpshufd	$147, %ymm8, %ymm5
	vpaddd	%ymm1, %ymm5, %ymm5
	vpaddd	%ymm2, %ymm6, %ymm1
	vpxor	%ymm1, %ymm9, %ymm2
	vpsrld	$7, %ymm2, %ymm8
	vpslld	$25, %ymm2, %ymm2
	vpor	%ymm2, %ymm8, %ymm9
	vpaddd	%ymm4, %ymm5, %ymm8
	vmovdqa	.LCPI6_3(%rip), %ymm11
	vpshufb	%ymm11, %ymm14, %ymm2
	vmovdqa	.LCPI6_0(%rip), %ymm12
	vpshufb	%ymm12, %ymm8, %ymm5
	vpxor	%ymm2, %ymm5, %ymm5
	vpaddd	%ymm0, %ymm9, %ymm10
	vpshufb	%ymm11, %ymm6, %ymm0
	vpshufb	%ymm12, %ymm10, %ymm2
	vpxor	%ymm0, %ymm2, %ymm0
	vpermilpd	$5, 320(%rsp), %ymm2
	vblendps	$34, 160(%rsp), %ymm2, %ymm2
	vshufps	$68, %ymm7, %ymm7, %ymm11
	vmovups	%ymm11, 736(%rsp)
	vshufps	$164, %ymm2, %ymm2, %ymm6
	vblendps	$68, %ymm11, %ymm6, %ymm6
	vpaddd	%ymm6, %ymm10, %ymm10
	vpshufd	$57, %ymm1, %ymm1
	vpaddd	%ymm1, %ymm0, %ymm6
	vpxor	%ymm6, %ymm9, %ymm1
	vpsrld	$12, %ymm1, %ymm9
	vpslld	$20, %ymm1, %ymm1
	vpor	%ymm1, %ymm9, %ymm9
	vpermilpd	$5, 352(%rsp), %ymm1
	vpblendd	$34, 416(%rsp), %ymm1, %ymm1
	vmovdqu	%ymm1, 704(%rsp)
	vpshufd	$68, 96(%rsp), %ymm7
	vmovdqu	%ymm7, 768(%rsp)
	vpshufd	$164, %ymm1, %ymm11
	vpblendd	$68, %ymm7, %ymm11, %ymm11
	vpaddd	%ymm11, %ymm8, %ymm8
	vpshufd	$57, %ymm3, %ymm3
	vpaddd	%ymm3, %ymm5, %ymm11
	vpxor	%ymm4, %ymm11, %ymm3
	vpsrld	$12, %ymm3, %ymm4
	vpslld	$20, %ymm3, %ymm3
	vpor	%ymm4, %ymm3, %ymm14
	vpaddd	%ymm9, %ymm10, %ymm3
	vpshufb	%ymm13, %ymm0, %ymm0
	vpshufb	%ymm13, %ymm3, %ymm4
	vpxor	%ymm0, %ymm4, %ymm4
	vpaddd	%ymm14, %ymm8, %ymm0
	vpshufb	%ymm13, %ymm5, %ymm5
	vpshufb	%ymm13, %ymm0, %ymm8
	vpxor	%ymm5, %ymm8, %ymm10
	vmovdqu	256(%rsp), %ymm15
	vpshufd	$170, %ymm15, %ymm5
	vpshufd	$133, 64(%rsp), %ymm8
	vpblendd	$34, %ymm5, %ymm8, %ymm7
	vmovdqu	%ymm7, 192(%rsp)
	vpaddd	%ymm11, %ymm10, %ymm5
	vpxor	%ymm5, %ymm14, %ymm8
	vpsrld	$7, %ymm8, %ymm11
	vpslld	$25, %ymm8, %ymm8
	vpor	%ymm11, %ymm8, %ymm8
	vmovdqu	128(%rsp), %ymm1
	vpshufd	$170, %ymm1, %ymm11
	vpshufd	$133, (%rsp), %ymm14
	vpblendd	$34, %ymm11, %ymm14, %ymm12
	vmovdqu	%ymm12, 512(%rsp)
	vpaddd	%ymm6, %ymm4, %ymm6
	vpxor	%ymm6, %ymm9, %ymm9
	vpsrld	$7, %ymm9, %ymm11
	vpslld	$25, %ymm9, %ymm9
	vpor	%ymm11, %ymm9, %ymm9
	vpaddd	%ymm7, %ymm0, %ymm0
	vpshufd	$57, %ymm0, %ymm0
	vmovdqa	.LCPI6_3(%rip), %ymm14
	vpshufb	%ymm14, %ymm10, %ymm10
	vpaddd	%ymm0, %ymm8, %ymm0
	vmovdqa	.LCPI6_0(%rip), %ymm7
	vpshufb	%ymm7, %ymm0, %ymm11
	vpxor	%ymm10, %ymm11, %ymm10
	vpaddd	%ymm3, %ymm12, %ymm3
	vpshufd	$57, %ymm3, %ymm3
	vpaddd	%ymm3, %ymm9, %ymm3
	vpshufb	%ymm14, %ymm4, %ymm4
	vpshufb	%ymm7, %ymm3, %ymm11
	vpxor	%ymm4, %ymm11, %ymm4
	vpshufd	$147, %ymm6, %ymm6
	vpaddd	%ymm6, %ymm4, %ymm6
	vpxor	%ymm6, %ymm9, %ymm9
	vpsrld	$12, %ymm9, %ymm11
	vpslld	$20, %ymm9, %ymm9
	vpor	%ymm11, %ymm9, %ymm9
	vpshufd	$147, %ymm5, %ymm5
	vpaddd	%ymm5, %ymm10, %ymm5
	vpxor	%ymm5, %ymm8, %ymm8
	vpsrld	$12, %ymm8, %ymm11
	vpslld	$20, %ymm8, %ymm8
	vpor	%ymm11, %ymm8, %ymm8
	vmovdqu	608(%rsp), %ymm12
	vpblendd	$51, 32(%rsp), %ymm12, %ymm11
	vpshufd	$39, %ymm11, %ymm11
	vpaddd	%ymm3, %ymm11, %ymm3
	vmovdqu	224(%rsp), %ymm7
	vpblendd	$51, 288(%rsp), %ymm7, %ymm11
	vpshufd	$39, %ymm11, %ymm11
	vpaddd	%ymm0, %ymm11, %ymm11
	vmovdqa	%ymm13, %ymm0
	vpshufb	%ymm13, %ymm4, %ymm4
	vpaddd	%ymm3, %ymm9, %ymm14
	vpshufb	%ymm13, %ymm14, %ymm3
	vpxor	%ymm4, %ymm3, %ymm13
	vpaddd	%ymm8, %ymm11, %ymm11
	vpshufb	%ymm0, %ymm10, %ymm3
	vpshufb	%ymm0, %ymm11, %ymm4
	vpxor	%ymm3, %ymm4, %ymm10
	vpaddd	%ymm5, %ymm10, %ymm3
	vpxor	%ymm3, %ymm8, %ymm4
	vpsrld	$7, %ymm4, %ymm5
	vpslld	$25, %ymm4, %ymm4
	vpor	%ymm5, %ymm4, %ymm4
	vpaddd	%ymm6, %ymm13, %ymm5
	vpxor	%ymm5, %ymm9, %ymm6
	vpsrld	$7, %ymm6, %ymm8
	vpslld	$25, %ymm6, %ymm6
	vpor	%ymm6, %ymm8, %ymm6
	vunpcklpd	%ymm12, %ymm2, %ymm2
	vmovdqa	%ymm1, %ymm12
	vblendps	$136, %ymm1, %ymm2, %ymm2
	vshufps	$120, %ymm2, %ymm2, %ymm2
	vpshufd	$147, %ymm14, %ymm8
	vpaddd	%ymm2, %ymm8, %ymm2
	vmovdqu	704(%rsp), %ymm0
	vpunpcklqdq	%ymm7, %ymm0, %ymm1
	vmovdqa	%ymm15, %ymm7
	vpblendd	$136, %ymm15, %ymm1, %ymm1
	vpshufd	$120, %ymm1, %ymm1
	vpshufd	$147, %ymm11, %ymm8
	vpaddd	%ymm1, %ymm8, %ymm1
	vmovdqa	.LCPI6_3(%rip), %ymm0
	vpshufb	%ymm0, %ymm10, %ymm8
	vpaddd	%ymm4, %ymm1, %ymm9
	vmovdqa	.LCPI6_0(%rip), %ymm10
	vpshufb	%ymm10, %ymm9, %ymm1
	vpxor	%ymm1, %ymm8, %ymm1
	vpaddd	%ymm6, %ymm2, %ymm8
	vpshufb	%ymm0, %ymm13, %ymm0
	vpshufb	%ymm10, %ymm8, %ymm2
	vpxor	%ymm0, %ymm2, %ymm0
	vpshufd	$57, %ymm5, %ymm2
	vpaddd	%ymm2, %ymm0, %ymm2
	vpxor	%ymm6, %ymm2, %ymm5
	vpsrld	$12, %ymm5, %ymm6
	vpslld	$20, %ymm5, %ymm5
	vpor	%ymm6, %ymm5, %ymm5
	vmovups	576(%rsp), %ymm6
	vshufps	$3, %ymm12, %ymm6, %ymm6
	vmovups	384(%rsp), %ymm15
	vblendps	$68, %ymm15, %ymm6, %ymm6
	vpaddd	%ymm6, %ymm8, %ymm6
	vmovups	544(%rsp), %ymm8
	vshufps	$3, %ymm7, %ymm8, %ymm8
	vmovdqa	%ymm7, %ymm14
	vblendps	$68, 96(%rsp), %ymm8, %ymm8
	vpaddd	%ymm8, %ymm9, %ymm8
	vpshufd	$57, %ymm3, %ymm3
	vpaddd	%ymm3, %ymm1, %ymm9
	vpxor	%ymm4, %ymm9, %ymm3
	vpsrld	$12, %ymm3, %ymm4
	vpslld	$20, %ymm3, %ymm3
	vpor	%ymm4, %ymm3, %ymm10
	vpaddd	%ymm5, %ymm6, %ymm4
	vmovdqa	.LCPI6_2(%rip), %ymm6
	vpshufb	%ymm6, %ymm0, %ymm0
	vpshufb	%ymm6, %ymm4, %ymm3
	vpxor	%ymm0, %ymm3, %ymm3
	vpaddd	%ymm10, %ymm8, %ymm8
	vpshufb	%ymm6, %ymm1, %ymm0
	vpshufb	%ymm6, %ymm8, %ymm1
	vpxor	%ymm0, %ymm1, %ymm6
	vpaddd	%ymm6, %ymm9, %ymm13
	vpxor	%ymm10, %ymm13, %ymm1
	vpsrld	$7, %ymm1, %ymm9
	vpslld	$25, %ymm1, %ymm1
	vpor	%ymm1, %ymm9, %ymm11
	vpaddd	%ymm2, %ymm3, %ymm2
	vpxor	%ymm5, %ymm2, %ymm5
	vpsrld	$7, %ymm5, %ymm9
	vpslld	$25, %ymm5, %ymm5
	vpor	%ymm5, %ymm9, %ymm5
	vpshufd	$57, %ymm8, %ymm8
	vmovdqu	64(%rsp), %ymm7
	vpshufd	$180, %ymm7, %ymm9
	vpblendd	$34, %ymm14, %ymm9, %ymm9
	vmovdqa	%ymm14, %ymm1
	vpaddd	%ymm9, %ymm8, %ymm8
	vpshufd	$57, %ymm4, %ymm4
	vmovdqu	(%rsp), %ymm14
	vpshufd	$180, %ymm14, %ymm9
	vmovdqa	%ymm12, %ymm10
	vpblendd	$34, %ymm12, %ymm9, %ymm9
	vpaddd	%ymm4, %ymm9, %ymm9
	vmovdqa	.LCPI6_3(%rip), %ymm0
	vpshufb	%ymm0, %ymm6, %ymm4
	vpaddd	%ymm8, %ymm11, %ymm6
	vmovdqa	.LCPI6_0(%rip), %ymm12
	vpshufb	%ymm12, %ymm6, %ymm8
	vpxor	%ymm4, %ymm8, %ymm4
	vpaddd	%ymm5, %ymm9, %ymm8
	vpshufb	%ymm0, %ymm3, %ymm3
	vpshufb	%ymm12, %ymm8, %ymm9
	vpxor	%ymm3, %ymm9, %ymm9
	vpshufd	$147, %ymm2, %ymm2
	vpaddd	%ymm2, %ymm9, %ymm3
	vpxor	%ymm5, %ymm3, %ymm2
	vpsrld	$12, %ymm2, %ymm5
	vpslld	$20, %ymm2, %ymm2
	vpor	%ymm5, %ymm2, %ymm5
	vpblendd	$34, %ymm14, %ymm10, %ymm2
	vpshufd	$45, %ymm2, %ymm2
	vpaddd	%ymm2, %ymm8, %ymm2
	vpblendd	$34, %ymm7, %ymm1, %ymm8
	vpshufd	$45, %ymm8, %ymm8
	vpaddd	%ymm6, %ymm8, %ymm6
	vpshufd	$147, %ymm13, %ymm0
	vpaddd	%ymm0, %ymm4, %ymm8
	vpxor	%ymm11, %ymm8, %ymm0
	vpsrld	$12, %ymm0, %ymm1
	vpslld	$20, %ymm0, %ymm0
	vpor	%ymm1, %ymm0, %ymm10
	vpaddd	%ymm5, %ymm2, %ymm11
	vmovdqa	.LCPI6_2(%rip), %ymm13
	vpshufb	%ymm13, %ymm9, %ymm0
	vpshufb	%ymm13, %ymm11, %ymm1
	vpxor	%ymm0, %ymm1, %ymm0
	vpaddd	%ymm6, %ymm10, %ymm6
	vpshufb	%ymm13, %ymm4, %ymm1
	vpshufb	%ymm13, %ymm6, %ymm2
	vpxor	%ymm1, %ymm2, %ymm4
	vpaddd	%ymm4, %ymm8, %ymm1
	vpxor	%ymm1, %ymm10, %ymm2
	vpsrld	$7, %ymm2, %ymm8
	vpslld	$25, %ymm2, %ymm2
	vpor	%ymm2, %ymm8, %ymm2
	vpaddd	%ymm3, %ymm0, %ymm3
	vpxor	%ymm5, %ymm3, %ymm5
	vpsrld	$7, %ymm5, %ymm8
	vpslld	$25, %ymm5, %ymm5
	vpor	%ymm5, %ymm8, %ymm5
	vmovups	160(%rsp), %ymm7
	vblendps	$17, %ymm15, %ymm7, %ymm8
	vshufps	$30, %ymm8, %ymm8, %ymm8
	vpshufd	$147, %ymm11, %ymm9
	vpaddd	%ymm8, %ymm9, %ymm8
	vmovdqu	96(%rsp), %ymm12
	vmovdqu	416(%rsp), %ymm11
	vpblendd	$17, %ymm12, %ymm11, %ymm9
	vpshufd	$30, %ymm9, %ymm9
	vpshufd	$147, %ymm6, %ymm6
	vpaddd	%ymm6, %ymm9, %ymm6
	vmovdqa	.LCPI6_3(%rip), %ymm10
	vpshufb	%ymm10, %ymm4, %ymm4
	vpaddd	%ymm2, %ymm6, %ymm6
	vmovdqa	.LCPI6_0(%rip), %ymm14
	vpshufb	%ymm14, %ymm6, %ymm9
	vpxor	%ymm4, %ymm9, %ymm4
	vpaddd	%ymm5, %ymm8, %ymm8
	vpshufb	%ymm10, %ymm0, %ymm0
	vpshufb	%ymm14, %ymm8, %ymm9
	vpxor	%ymm0, %ymm9, %ymm9
	vpshufd	$57, %ymm3, %ymm0
	vpaddd	%ymm0, %ymm9, %ymm0
	vmovdqu	%ymm0, 32(%rsp)
	vpxor	%ymm5, %ymm0, %ymm3
	vpsrld	$12, %ymm3, %ymm5
	vpslld	$20, %ymm3, %ymm3
	vpor	%ymm5, %ymm3, %ymm14
	vshufps	$120, %ymm15, %ymm15, %ymm3
	vblendps	$17, %ymm7, %ymm3, %ymm3
	vmovaps	%ymm7, %ymm0
	vpaddd	%ymm3, %ymm8, %ymm3
	vpshufd	$120, %ymm12, %ymm5
	vmovdqa	%ymm11, %ymm7
	vpblendd	$17, %ymm11, %ymm5, %ymm5
	vpaddd	%ymm5, %ymm6, %ymm6
	vpshufd	$57, %ymm1, %ymm1
	vpaddd	%ymm1, %ymm4, %ymm11
	vpxor	%ymm2, %ymm11, %ymm1
	vpsrld	$12, %ymm1, %ymm2
	vpslld	$20, %ymm1, %ymm1
	vpor	%ymm2, %ymm1, %ymm2
	vpaddd	%ymm3, %ymm14, %ymm5
	vpshufb	%ymm13, %ymm9, %ymm1
	vpshufb	%ymm13, %ymm5, %ymm3
	vpxor	%ymm1, %ymm3, %ymm3
	vpaddd	%ymm2, %ymm6, %ymm9
	vpshufb	%ymm13, %ymm4, %ymm1
	vpshufb	%ymm13, %ymm9, %ymm4
	vpxor	%ymm1, %ymm4, %ymm8
	vpunpcklqdq	%ymm12, %ymm7, %ymm1
	vmovdqu	64(%rsp), %ymm12
	vpshufd	$78, %ymm12, %ymm4
	vpblendd	$170, %ymm1, %ymm4, %ymm1
	vpaddd	%ymm11, %ymm8, %ymm4
	vpxor	%ymm2, %ymm4, %ymm2
	vpsrld	$7, %ymm2, %ymm6
	vpslld	$25, %ymm2, %ymm2
	vpor	%ymm6, %ymm2, %ymm6
	vunpcklpd	%ymm15, %ymm0, %ymm2
	vmovups	(%rsp), %ymm7
	vshufps	$78, %ymm7, %ymm7, %ymm11
	vblendps	$170, %ymm2, %ymm11, %ymm2
	vpaddd	32(%rsp), %ymm3, %ymm11
	vpxor	%ymm14, %ymm11, %ymm0
	vpsrld	$7, %ymm0, %ymm10
	vpslld	$25, %ymm0, %ymm0
	vpor	%ymm0, %ymm10, %ymm10
	vmovups	608(%rsp), %ymm0
	vshufps	$212, %ymm7, %ymm0, %ymm0
	vshufps	$104, %ymm0, %ymm0, %ymm0
	vblendps	$68, 736(%rsp), %ymm0, %ymm0
	vmovups	%ymm0, 32(%rsp)
	vpshufd	$57, %ymm9, %ymm9
	vpshufd	$205, 256(%rsp), %ymm14
	vpblendd	$136, %ymm12, %ymm14, %ymm14
	vpaddd	%ymm14, %ymm9, %ymm9
	vpshufd	$57, %ymm5, %ymm5
	vpermilps	$205, 128(%rsp), %ymm14
	vblendps	$136, %ymm7, %ymm14, %ymm14
	vpaddd	%ymm5, %ymm14, %ymm5
	vpaddd	%ymm6, %ymm9, %ymm9
	vmovdqa	.LCPI6_3(%rip), %ymm0
	vpshufb	%ymm0, %ymm8, %ymm8
	vmovdqa	.LCPI6_0(%rip), %ymm7
	vpshufb	%ymm7, %ymm9, %ymm14
	vpxor	%ymm8, %ymm14, %ymm8
	vpaddd	%ymm5, %ymm10, %ymm14
	vpshufb	%ymm0, %ymm3, %ymm3
	vpshufb	%ymm7, %ymm14, %ymm5
	vpxor	%ymm3, %ymm5, %ymm15
	vpshufd	$147, %ymm11, %ymm3
	vpaddd	%ymm3, %ymm15, %ymm3
	vpxor	%ymm3, %ymm10, %ymm5
	vpsrld	$12, %ymm5, %ymm10
	vpslld	$20, %ymm5, %ymm5
	vpor	%ymm5, %ymm10, %ymm5
	vpaddd	%ymm2, %ymm14, %ymm2
	vpshufd	$147, %ymm4, %ymm4
	vpaddd	%ymm4, %ymm8, %ymm4
	vpxor	%ymm6, %ymm4, %ymm6
	vpsrld	$12, %ymm6, %ymm10
	vpslld	$20, %ymm6, %ymm6
	vpor	%ymm6, %ymm10, %ymm6
	vpaddd	%ymm1, %ymm9, %ymm1
	vpaddd	%ymm5, %ymm2, %ymm9
	vpshufb	%ymm13, %ymm15, %ymm2
	vpshufb	%ymm13, %ymm9, %ymm10
	vpxor	%ymm2, %ymm10, %ymm2
	vpaddd	%ymm6, %ymm1, %ymm10
	vpshufb	%ymm13, %ymm8, %ymm1
	vpshufb	%ymm13, %ymm10, %ymm8
	vpxor	%ymm1, %ymm8, %ymm8
	vmovups	224(%rsp), %ymm1
	vshufps	$212, %ymm12, %ymm1, %ymm1
	vshufps	$104, %ymm1, %ymm1, %ymm1
	vblendps	$68, 768(%rsp), %ymm1, %ymm11
	vpaddd	%ymm4, %ymm8, %ymm13
	vpxor	%ymm6, %ymm13, %ymm4
	vpsrld	$7, %ymm4, %ymm6
	vpslld	$25, %ymm4, %ymm4
	vpor	%ymm6, %ymm4, %ymm6
	vpshufd	$147, %ymm9, %ymm4
	vpaddd	32(%rsp), %ymm4, %ymm0
	vpaddd	%ymm3, %ymm2, %ymm3
	vpxor	%ymm5, %ymm3, %ymm4
	vpsrld	$7, %ymm4, %ymm5
	vpslld	$25, %ymm4, %ymm4
	vpor	%ymm5, %ymm4, %ymm4
	vpshufd	$147, %ymm10, %ymm5
	vpaddd	%ymm5, %ymm11, %ymm5
	vmovdqa	.LCPI6_3(%rip), %ymm7
	vpshufb	%ymm7, %ymm8, %ymm8
	vpaddd	%ymm6, %ymm5, %ymm9
	vmovdqa	.LCPI6_0(%rip), %ymm11
	vpshufb	%ymm11, %ymm9, %ymm5
	vpxor	%ymm5, %ymm8, %ymm8
	vpaddd	%ymm4, %ymm0, %ymm10
	vpshufb	%ymm7, %ymm2, %ymm0
	vpshufb	%ymm11, %ymm10, %ymm2
	vpxor	%ymm0, %ymm2, %ymm5
	vpshufd	$57, %ymm3, %ymm0
	vpaddd	%ymm0, %ymm5, %ymm0
	vmovdqu	%ymm0, 32(%rsp)
	vpxor	%ymm4, %ymm0, %ymm0
	vpsrld	$12, %ymm0, %ymm3
	vpslld	$20, %ymm0, %ymm0
	vpor	%ymm3, %ymm0, %ymm1
	vmovdqu	%ymm1, 544(%rsp)
	vpshufd	$57, %ymm13, %ymm0
	vpaddd	%ymm0, %ymm8, %ymm4
	vpxor	%ymm6, %ymm4, %ymm0
	vpsrld	$12, %ymm0, %ymm3
	vpslld	$20, %ymm0, %ymm0
	vpor	%ymm3, %ymm0, %ymm0
	vmovdqu	384(%rsp), %ymm11
	vmovdqu	160(%rsp), %ymm15
	vpunpckhdq	%ymm11, %ymm15, %ymm3
	vpshufd	$14, %ymm3, %ymm3
	vmovdqu	128(%rsp), %ymm2
	vpblendd	$68, %ymm2, %ymm3, %ymm3
	vpaddd	%ymm3, %ymm10, %ymm3
	vmovdqu	416(%rsp), %ymm13
	vmovdqu	96(%rsp), %ymm7
	vpunpckhdq	%ymm7, %ymm13, %ymm6
	vpshufd	$14, %ymm6, %ymm6
	vmovdqu	256(%rsp), %ymm14
	vpblendd	$68, %ymm14, %ymm6, %ymm6
	vpaddd	%ymm6, %ymm9, %ymm9
	vmovdqa	.LCPI6_2(%rip), %ymm10
	vpshufb	%ymm10, %ymm5, %ymm6
	vpaddd	%ymm1, %ymm3, %ymm3
	vmovdqu	%ymm3, 576(%rsp)
	vpshufb	%ymm10, %ymm3, %ymm3
	vpxor	%ymm6, %ymm3, %ymm5
	vpaddd	%ymm0, %ymm9, %ymm3
	vpshufb	%ymm10, %ymm8, %ymm8
	vpshufb	%ymm10, %ymm3, %ymm9
	vpxor	%ymm8, %ymm9, %ymm8
	vshufps	$128, %ymm13, %ymm7, %ymm9
	vmovdqa	%ymm12, %ymm7
	vpalignr	$12, %ymm12, %ymm14, %ymm10
	vmovdqa	%ymm14, %ymm6
	vpblendd	$170, %ymm9, %ymm10, %ymm1
	vmovdqu	%ymm1, 288(%rsp)
	vmovdqa	%ymm15, %ymm1
	vshufps	$128, %ymm15, %ymm11, %ymm9
	vmovdqu	(%rsp), %ymm12
	vpalignr	$12, %ymm12, %ymm2, %ymm11
	vpblendd	$170, %ymm9, %ymm11, %ymm10
	vmovdqu	640(%rsp), %ymm11
	vpalignr	$12, %ymm15, %ymm11, %ymm11
	vpshufd	$170, %ymm12, %ymm14
	vpblendd	$34, %ymm14, %ymm11, %ymm11
	vmovdqu	%ymm11, 96(%rsp)
	vmovdqu	672(%rsp), %ymm12
	vpalignr	$12, %ymm13, %ymm12, %ymm14
	vpshufd	$170, %ymm7, %ymm15
	vpblendd	$34, %ymm15, %ymm14, %ymm7
	vmovdqu	%ymm7, 64(%rsp)
	vmovups	512(%rsp), %ymm7
	vunpcklpd	608(%rsp), %ymm7, %ymm7
	vmovups	%ymm7, (%rsp)
	vpaddd	%ymm4, %ymm8, %ymm9
	vpxor	%ymm0, %ymm9, %ymm0
	vpsrld	$7, %ymm0, %ymm14
	vpslld	$25, %ymm0, %ymm0
	vpor	%ymm0, %ymm14, %ymm7
	vpblendd	$204, 320(%rsp), %ymm1, %ymm12
	vpshufd	$39, %ymm2, %ymm14
	vpblendd	$102, %ymm12, %ymm14, %ymm12
	vpaddd	32(%rsp), %ymm5, %ymm0
	vpxor	544(%rsp), %ymm0, %ymm4
	vpsrld	$7, %ymm4, %ymm14
	vpslld	$25, %ymm4, %ymm4
	vpor	%ymm4, %ymm14, %ymm4
	vpshufd	$57, 576(%rsp), %ymm2
	vpaddd	%ymm2, %ymm12, %ymm12
	vpblendd	$204, 352(%rsp), %ymm13, %ymm2
	vpshufd	$39, %ymm6, %ymm13
	vpblendd	$102, %ymm2, %ymm13, %ymm2
	vpshufd	$57, %ymm3, %ymm3
	vpaddd	%ymm2, %ymm3, %ymm3
	vmovdqu	192(%rsp), %ymm1
	vpunpcklqdq	224(%rsp), %ymm1, %ymm2
	vpaddd	%ymm3, %ymm7, %ymm13
	vmovdqa	.LCPI6_3(%rip), %ymm11
	vpshufb	%ymm11, %ymm8, %ymm3
	vmovdqa	.LCPI6_0(%rip), %ymm15
	vpshufb	%ymm15, %ymm13, %ymm8
	vpxor	%ymm3, %ymm8, %ymm8
	vpaddd	%ymm4, %ymm12, %ymm12
	vpshufb	%ymm11, %ymm5, %ymm3
	vpshufb	%ymm15, %ymm12, %ymm6
	vpxor	%ymm3, %ymm6, %ymm6
	vpshufd	$147, %ymm0, %ymm3
	vpaddd	%ymm3, %ymm6, %ymm3
	vpxor	%ymm4, %ymm3, %ymm4
	vpsrld	$12, %ymm4, %ymm5
	vpslld	$20, %ymm4, %ymm4
	vpor	%ymm5, %ymm4, %ymm4
	vpshufd	$147, %ymm9, %ymm1
	vpaddd	%ymm1, %ymm8, %ymm5
	vpxor	%ymm7, %ymm5, %ymm0
	vpsrld	$12, %ymm0, %ymm1
	vpslld	$20, %ymm0, %ymm0
	vpor	%ymm1, %ymm0, %ymm14
	vpaddd	%ymm10, %ymm12, %ymm0
	vpaddd	288(%rsp), %ymm13, %ymm9
	vmovdqa	.LCPI6_2(%rip), %ymm7
	vpshufb	%ymm7, %ymm6, %ymm1
	vpaddd	%ymm4, %ymm0, %ymm6
	vpshufb	%ymm7, %ymm6, %ymm0
	vpxor	%ymm1, %ymm0, %ymm1
	vpaddd	%ymm14, %ymm9, %ymm9
	vpshufb	%ymm7, %ymm8, %ymm0
	vpshufb	%ymm7, %ymm9, %ymm8
	vpxor	%ymm0, %ymm8, %ymm8
	vpshufd	$164, %ymm2, %ymm0
	vpblendd	$68, 800(%rsp), %ymm0, %ymm0
	vpaddd	%ymm5, %ymm8, %ymm2
	vpxor	%ymm2, %ymm14, %ymm5
	vpsrld	$7, %ymm5, %ymm10
	vpslld	$25, %ymm5, %ymm5
	vpor	%ymm5, %ymm10, %ymm5
	vpaddd	%ymm3, %ymm1, %ymm3
	vpxor	%ymm4, %ymm3, %ymm4
	vpshufd	$147, %ymm6, %ymm6
	vpaddd	96(%rsp), %ymm6, %ymm6
	vpsrld	$7, %ymm4, %ymm10
	vpslld	$25, %ymm4, %ymm4
	vpor	%ymm4, %ymm10, %ymm4
	vpshufd	$147, %ymm9, %ymm9
	vpaddd	64(%rsp), %ymm9, %ymm9
	vpaddd	%ymm5, %ymm9, %ymm9
	vpshufb	%ymm15, %ymm9, %ymm10
	vpshufb	%ymm11, %ymm8, %ymm8
	vpxor	%ymm8, %ymm10, %ymm8
	vpshufb	%ymm11, %ymm1, %ymm1
	vpaddd	%ymm4, %ymm6, %ymm6
	vpshufb	%ymm15, %ymm6, %ymm10
	vpxor	%ymm1, %ymm10, %ymm1
	vpshufd	$164, (%rsp), %ymm10
	vpshufd	$57, %ymm2, %ymm2
	vpshufd	$57, %ymm3, %ymm3
	vpaddd	%ymm3, %ymm1, %ymm3
	vpaddd	%ymm2, %ymm8, %ymm2
	vpblendd	$68, 832(%rsp), %ymm10, %ymm10
	vpxor	%ymm5, %ymm2, %ymm5
	vpxor	%ymm4, %ymm3, %ymm4
	vpsrld	$12, %ymm4, %ymm11
	vpslld	$20, %ymm4, %ymm4
	vpor	%ymm4, %ymm11, %ymm4
	vpsrld	$12, %ymm5, %ymm11
	vpslld	$20, %ymm5, %ymm5
	vpor	%ymm5, %ymm11, %ymm5
	vpaddd	%ymm6, %ymm10, %ymm6
	vpaddd	%ymm0, %ymm9, %ymm0
	vpaddd	%ymm4, %ymm6, %ymm6
	vpshufb	%ymm7, %ymm6, %ymm9
	vpshufb	%ymm7, %ymm1, %ymm1
	vpxor	%ymm1, %ymm9, %ymm9
	vpaddd	%ymm5, %ymm0, %ymm0
	vpshufb	%ymm7, %ymm8, %ymm1
	vpshufb	%ymm7, %ymm0, %ymm7
	vpxor	%ymm1, %ymm7, %ymm7
	vpaddd	%ymm2, %ymm7, %ymm1
	vpaddd	%ymm3, %ymm9, %ymm2
	vpxor	%ymm4, %ymm2, %ymm3
	vpxor	%ymm5, %ymm1, %ymm4
	vpsrld	$7, %ymm4, %ymm5
	vpslld	$25, %ymm4, %ymm4
	vpor	%ymm5, %ymm4, %ymm4
	vpsrld	$7, %ymm3, %ymm5
	vpslld	$25, %ymm3, %ymm3
	vpor	%ymm5, %ymm3, %ymm5
	vpshufd	$57, %ymm0, %ymm0
	vpshufd	$147, %ymm1, %ymm1
	vpxor	%ymm0, %ymm1, %ymm3
	vpshufd	$57, %ymm6, %ymm0
	vpshufd	$147, %ymm2, %ymm1
	vpxor	%ymm0, %ymm1, %ymm1
	vpshufd	$78, %ymm7, %ymm0
	vpxor	%ymm0, %ymm4, %ymm2
	vpshufd	$78, %ymm9, %ymm0
	vpxor	%ymm0, %ymm5, %ymm0
	addq	$64, %r10
	cmpq	$1024, %r10
	jne	.LBB6_1
	vmovdqa	.LCPI6_4(%rip), %ymm4
	vpermd	%ymm3, %ymm4, %ymm5
	vmovdqa	.LCPI6_5(%rip), %ymm6
	vpermd	%ymm1, %ymm6, %ymm7
	vpblendd	$204, %ymm7, %ymm5, %ymm5
	vmovdqa	.LCPI6_6(%rip), %ymm7
	vpermd	%ymm3, %ymm7, %ymm3
	vmovdqa	.LCPI6_7(%rip), %ymm8
	vpermd	%ymm1, %ymm8, %ymm1
	vpblendd	$204, %ymm1, %ymm3, %ymm1
	vpermd	%ymm2, %ymm4, %ymm3
	vpermd	%ymm0, %ymm6, %ymm4
	vpblendd	$204, %ymm4, %ymm3, %ymm3
	vpermd	%ymm2, %ymm7, %ymm2
	vpermd	%ymm0, %ymm8, %ymm0
	vpblendd	$204, %ymm0, %ymm2, %ymm0
	vmovdqu	%ymm1, (%rcx)
	vmovdqu	%ymm5, 32(%rcx)
	vmovdqu	%ymm0, 64(%rcx)
	vmovdqu	%ymm3, 96(%rcx)
	vmovaps	864(%rsp), %xmm6
	vmovaps	880(%rsp), %xmm7
	vmovaps	896(%rsp), %xmm8
	vmovaps	912(%rsp), %xmm9
	vmovaps	928(%rsp), %xmm10
	vmovaps	944(%rsp), %xmm11
	vmovaps	960(%rsp), %xmm12
	vmovaps	976(%rsp), %xmm13
	vmovaps	992(%rsp), %xmm14
	vmovaps	1008(%rsp), %xmm15
	addq	$1032, %rsp
	popq	%rbx
	popq	%rdi
	popq	%rsi
	popq	%r14
	vzeroupper
	retq
	.seh_endproc

	.section	.rdata,"dr"
	.p2align	5, 0x0
.LCPI7_0:
	.quad	-9223372036854775808
	.zero	24
.LCPI7_1:
	.quad	-9223372036854775807
	.quad	-9223372036854775806
	.quad	-9223372036854775805
	.quad	-9223372036854775804
.LCPI7_2:
	.quad	2
	.quad	3
	.quad	4
	.quad	5
.LCPI7_3:
	.zero	4
	.zero	4
	.long	64
	.long	18
	.zero	4
	.zero	4
	.long	64
	.long	18
.LCPI7_4:
	.long	0
	.long	2
	.long	4
	.long	6
.LCPI7_5:
	.long	1
	.long	3
	.long	5
	.long	7
.LCPI7_6:
	.long	64
.LCPI7_7:
	.long	20
	.zero	24
.LCPI7_8:
	.long	0
	.long	0
	.long	64
	.long	20
	.long	0
	.long	0
	.long	64
	.long	20
.LCPI7_9:
	.long	0
	.long	0
	.long	64
	.long	20
	.section	.text
	.p2align	4
	.def	"keyed_blake3::tree::Tree::absorb_subtrees::<#a9687390e0dd665c>";
	.scl	3;
	.type	32;
	.endef
"keyed_blake3::tree::Tree::absorb_subtrees::<#a9687390e0dd665c>":
.seh_proc "keyed_blake3::tree::Tree::absorb_subtrees::<#a9687390e0dd665c>"
	pushq	%rbp
	.seh_pushreg %rbp
	pushq	%r15
	.seh_pushreg %r15
	pushq	%r14
	.seh_pushreg %r14
	pushq	%r13
	.seh_pushreg %r13
	pushq	%r12
	.seh_pushreg %r12
	pushq	%rsi
	.seh_pushreg %rsi
	pushq	%rdi
	.seh_pushreg %rdi
	pushq	%rbx
	.seh_pushreg %rbx
	subq	$2456, %rsp
	.seh_stackalloc 2456
	leaq	128(%rsp), %rbp
	.seh_setframe %rbp, 128
	vmovdqa	%xmm15, 2304(%rbp)
	.seh_savexmm %xmm15, 2432
	vmovdqa	%xmm14, 2288(%rbp)
	.seh_savexmm %xmm14, 2416
	vmovdqa	%xmm13, 2272(%rbp)
	.seh_savexmm %xmm13, 2400
	vmovdqa	%xmm12, 2256(%rbp)
	.seh_savexmm %xmm12, 2384
	vmovdqa	%xmm11, 2240(%rbp)
	.seh_savexmm %xmm11, 2368
	vmovdqa	%xmm10, 2224(%rbp)
	.seh_savexmm %xmm10, 2352
	vmovdqa	%xmm9, 2208(%rbp)
	.seh_savexmm %xmm9, 2336
	vmovdqa	%xmm8, 2192(%rbp)
	.seh_savexmm %xmm8, 2320
	vmovdqa	%xmm7, 2176(%rbp)
	.seh_savexmm %xmm7, 2304
	vmovdqa	%xmm6, 2160(%rbp)
	.seh_savexmm %xmm6, 2288
	.seh_endprologue
	andq	$-32, %rsp
	movq	%r9, %rdi
	movq	%r8, %rbx
	movq	%rdx, %r9
	movq	%rcx, %rsi
	movq	2440(%rbp), %rax
	vxorpd	%xmm0, %xmm0, %xmm0
	vmovupd	%ymm0, 512(%rsp)
	vmovupd	%ymm0, 480(%rsp)
	vmovupd	%ymm0, 448(%rsp)
	vmovupd	%ymm0, 416(%rsp)
	vmovupd	%ymm0, 384(%rsp)
	vmovupd	%ymm0, 352(%rsp)
	vmovupd	%ymm0, 320(%rsp)
	vmovupd	%ymm0, 288(%rsp)
	vmovupd	%ymm0, 128(%rsp)
	vmovupd	%ymm0, 1088(%rsp)
	vmovupd	%ymm0, 1120(%rsp)
	vmovupd	%ymm0, 1152(%rsp)
	vmovupd	%ymm0, 1184(%rsp)
	vmovupd	%ymm0, 1216(%rsp)
	vmovupd	%ymm0, 1248(%rsp)
	vmovupd	%ymm0, 1280(%rsp)
	movq	2432(%rbp), %r8
	vmovupd	%ymm0, 1312(%rsp)
	cmpq	$2048, %rax
	jne	.LBB7_4
	movq	%rbx, 1856(%rsp)
	leaq	1024(%r8), %r13
	leaq	1(%r9), %rcx
	vbroadcastf128	(%rsi), %ymm0
	movq	%rsi, 696(%rsp)
	vbroadcastf128	16(%rsi), %ymm1
	vmovq	%r9, %xmm2
	movl	$64, %eax
	vmovdqa	%ymm2, 1952(%rsp)
	vpinsrd	$2, %eax, %xmm2, %xmm7
	movq	%rcx, %rsi
	vmovq	%rcx, %xmm6
	vpinsrd	$2, %eax, %xmm6, %xmm8
	xorl	%ebx, %ebx
	.p2align	4
.LBB7_2:
	cmpq	$1, %rbx
	movl	$0, %eax
	adcl	$16, %eax
	vmovups	-1024(%r13,%rbx), %ymm2
	vmovups	-992(%r13,%rbx), %ymm3
	vmovups	%ymm2, 832(%rsp)
	vmovups	%ymm3, 864(%rsp)
	movq	%r9, 896(%rsp)
	movl	$64, 904(%rsp)
	movl	%eax, 908(%rsp)
	vmovups	(%r13,%rbx), %ymm2
	vmovups	32(%r13,%rbx), %ymm3
	vmovups	%ymm2, 704(%rsp)
	vmovups	%ymm3, 736(%rsp)
	movq	%rsi, 768(%rsp)
	movl	$64, 776(%rsp)
	movl	%eax, 780(%rsp)
	vpinsrd	$3, %eax, %xmm7, %xmm2
	vpinsrd	$3, %eax, %xmm8, %xmm3
	vmovdqa	%xmm3, 1936(%rsp)
	vmovdqa	%xmm2, 1920(%rsp)
	vmovaps	%ymm1, 2176(%rsp)
	vmovaps	%ymm0, 2208(%rsp)
	leaq	704(%rsp), %r15
	movq	%r15, 40(%rsp)
	leaq	832(%rsp), %r14
	movq	%r14, 32(%rsp)
	leaq	64(%rsp), %rcx
	leaq	2208(%rsp), %rdx
	leaq	2176(%rsp), %r8
	movq	%r9, %r12
	leaq	1920(%rsp), %r9
	vzeroupper
	callq	"keyed_blake3::compression::two::compress_two_from"
	movq	%r12, %r9
	vmovups	64(%rsp), %ymm0
	vmovups	96(%rsp), %ymm1
	addq	$64, %rbx
	cmpq	$960, %rbx
	jne	.LBB7_2
	movq	2432(%rbp), %rcx
	vmovups	960(%rcx), %ymm2
	vmovups	992(%rcx), %ymm3
	vmovaps	%ymm2, 832(%rsp)
	vmovaps	%ymm3, 864(%rsp)
	movq	%r9, 896(%rsp)
	movabsq	$77309411392, %rax
	movq	%rax, 904(%rsp)
	vmovups	1984(%rcx), %ymm2
	vmovups	2016(%rcx), %ymm3
	vmovaps	%ymm2, 704(%rsp)
	vmovaps	%ymm3, 736(%rsp)
	movq	%rsi, 768(%rsp)
	movq	%rax, 776(%rsp)
	vmovdqa	1952(%rsp), %ymm2
	vinserti128	$1, %xmm6, %ymm2, %ymm2
	vpblendd	$204, .LCPI7_3(%rip), %ymm2, %ymm2
	vmovaps	%ymm1, 2112(%rsp)
	vmovaps	%ymm0, 2144(%rsp)
	vmovdqa	%ymm2, 2080(%rsp)
	movq	%r15, 40(%rsp)
	movq	%r14, 32(%rsp)
	leaq	64(%rsp), %rcx
	leaq	2144(%rsp), %rdx
	leaq	2112(%rsp), %r8
	leaq	2080(%rsp), %r9
	vzeroupper
	callq	"keyed_blake3::compression::two::compress_two_from"
	vmovdqu	64(%rsp), %xmm0
	vmovdqu	80(%rsp), %xmm1
	vpunpckldq	%xmm1, %xmm0, %xmm2
	vmovq	%xmm2, 1088(%rsp)
	vpxor	%xmm2, %xmm2, %xmm2
	vmovdqu	%xmm2, 1096(%rsp)
	movq	$0, 1112(%rsp)
	vpshufd	$85, %xmm0, %xmm3
	vpblendd	$2, %xmm1, %xmm3, %xmm3
	vmovq	%xmm3, 1120(%rsp)
	vmovdqu	%xmm2, 1128(%rsp)
	movq	$0, 1144(%rsp)
	vpunpckhdq	%xmm1, %xmm0, %xmm0
	vmovq	%xmm0, 1152(%rsp)
	vmovdqu	%xmm2, 1160(%rsp)
	movq	$0, 1176(%rsp)
	vpextrq	$1, %xmm0, 1184(%rsp)
	vmovdqu	96(%rsp), %xmm0
	vmovdqu	112(%rsp), %xmm1
	vmovdqu	%xmm2, 1192(%rsp)
	movq	$0, 1208(%rsp)
	vpunpckldq	%xmm1, %xmm0, %xmm3
	vmovq	%xmm3, 1216(%rsp)
	vmovdqu	%xmm2, 1224(%rsp)
	movq	$0, 1240(%rsp)
	vpshufd	$85, %xmm0, %xmm3
	vpblendd	$2, %xmm1, %xmm3, %xmm3
	vmovq	%xmm3, 1248(%rsp)
	vmovdqu	%xmm2, 1256(%rsp)
	movq	$0, 1272(%rsp)
	vpunpckhdq	%xmm1, %xmm0, %xmm0
	vmovq	%xmm0, 1280(%rsp)
	vmovdqu	%xmm2, 1288(%rsp)
	movq	$0, 1304(%rsp)
	vpextrq	$1, %xmm0, 1312(%rsp)
	vmovdqu	%xmm2, 1320(%rsp)
	movq	$0, 1336(%rsp)
	movq	1280(%rsp), %rax
	vmovups	1288(%rsp), %xmm0
	vmovups	%xmm0, 1800(%rsp)
	movq	%rax, 1792(%rsp)
	movq	1304(%rsp), %rax
	movq	%rax, 1816(%rsp)
	movq	1248(%rsp), %rax
	movq	%rax, 1760(%rsp)
	vmovups	1256(%rsp), %xmm0
	vmovups	%xmm0, 1768(%rsp)
	movq	1272(%rsp), %rax
	vmovups	1216(%rsp), %ymm0
	vmovaps	%ymm0, 1728(%rsp)
	movq	%rax, 1784(%rsp)
	vmovups	1184(%rsp), %ymm0
	vmovaps	%ymm0, 1696(%rsp)
	vmovups	1088(%rsp), %ymm0
	vmovups	1120(%rsp), %ymm1
	vmovups	1152(%rsp), %ymm2
	vmovups	1312(%rsp), %ymm3
	vmovaps	%ymm3, 1824(%rsp)
	vmovaps	%ymm2, 1664(%rsp)
	vmovaps	%ymm1, 1632(%rsp)
	vmovaps	%ymm0, 1600(%rsp)
	movq	1856(%rsp), %rbx
	movq	696(%rsp), %rsi
	jmp	.LBB7_8
.LBB7_4:
	cmpq	$8192, %rax
	ja	.LBB7_6
	shrq	$10, %rax
	xorl	%ecx, %ecx
	decq	%rax
	setne	%cl
	cmpq	$6, %rax
	movl	$6, %edx
	cmovbq	%rax, %rdx
	movl	$7, %r10d
	cmovbeq	%rax, %r10
	movq	$0, 832(%rsp)
	vmovq	%rax, %xmm0
	vpbroadcastq	%xmm0, %ymm0
	vpbroadcastq	.LCPI7_0(%rip), %ymm1
	vpxor	%ymm1, %ymm0, %ymm1
	vpcmpgtq	.LCPI7_1(%rip), %ymm1, %ymm1
	movq	%rcx, 840(%rsp)
	vblendvpd	%ymm1, .LCPI7_2(%rip), %ymm0, %ymm0
	vmovupd	%ymm0, 848(%rsp)
	movq	%rdx, 880(%rsp)
	movq	%r10, 888(%rsp)
	movq	%r9, %r12
	movq	%r9, 32(%rsp)
	leaq	1088(%rsp), %rcx
	leaq	832(%rsp), %r9
	movq	%rsi, %rdx
	vzeroupper
	callq	"keyed_blake3::chunks::chunk_values::<#a9687390e0dd665c>"
	jmp	.LBB7_7
.LBB7_6:
	shrq	$13, %rax
	movq	%r9, %r12
	movq	%r9, 40(%rsp)
	movq	%rax, 32(%rsp)
	leaq	1088(%rsp), %rcx
	movq	%rsi, %rdx
	xorl	%r9d, %r9d
	vzeroupper
	callq	"keyed_blake3::subtrees::neighbour_values::<#a9687390e0dd665c>"
.LBB7_7:
	vmovups	1312(%rsp), %ymm0
	vmovups	%ymm0, 1824(%rsp)
	vmovups	1280(%rsp), %ymm0
	vmovups	%ymm0, 1792(%rsp)
	vmovups	1248(%rsp), %ymm0
	vmovups	%ymm0, 1760(%rsp)
	vmovups	1216(%rsp), %ymm0
	vmovups	%ymm0, 1728(%rsp)
	vmovups	1088(%rsp), %ymm0
	vmovups	1120(%rsp), %ymm1
	vmovups	1152(%rsp), %ymm2
	vmovups	1184(%rsp), %ymm3
	vmovups	%ymm3, 1696(%rsp)
	vmovups	%ymm2, 1664(%rsp)
	vmovups	%ymm1, 1632(%rsp)
	vmovups	%ymm0, 1600(%rsp)
.LBB7_8:
	vmovaps	1600(%rsp), %ymm0
	vmovaps	1632(%rsp), %ymm1
	vmovdqa	1664(%rsp), %ymm2
	vmovdqa	1696(%rsp), %ymm3
	vmovaps	%ymm0, 288(%rsp)
	vmovaps	%ymm1, 320(%rsp)
	vmovdqa	%ymm2, 352(%rsp)
	vmovdqa	%ymm3, 384(%rsp)
	vmovaps	1728(%rsp), %ymm0
	vmovaps	%ymm0, 416(%rsp)
	vmovaps	1760(%rsp), %ymm0
	vmovaps	%ymm0, 448(%rsp)
	vmovaps	1792(%rsp), %ymm0
	vmovaps	%ymm0, 480(%rsp)
	vmovaps	1824(%rsp), %ymm0
	vmovaps	%ymm0, 512(%rsp)
	testq	%rbx, %rbx
	je	.LBB7_29
	movq	%r12, %rcx
	orq	%rbx, %rcx
	shrq	$32, %rcx
	je	.LBB7_10
	movq	%r12, %rax
	xorl	%edx, %edx
	divq	%rbx
	movq	%rax, %rbx
	jmp	.LBB7_12
.LBB7_10:
	movl	%r12d, %eax
	xorl	%edx, %edx
	divl	%ebx
	movl	%eax, %ebx
.LBB7_12:
	vxorps	%xmm0, %xmm0, %xmm0
	vmovaps	%xmm0, 272(%rsp)
	vmovaps	%xmm0, 256(%rsp)
	vmovaps	%xmm0, 240(%rsp)
	vmovaps	%xmm0, 224(%rsp)
	vmovaps	%xmm0, 208(%rsp)
	vmovaps	%xmm0, 192(%rsp)
	vmovaps	%xmm0, 176(%rsp)
	vmovaps	%xmm0, 160(%rsp)
	cmpq	$3, %rdi
	jb	.LBB7_13
	movl	%ebx, %eax
	orl	%edi, %eax
	andl	$1, %eax
	jne	.LBB7_13
	leaq	912(%rsp), %r15
	leaq	368(%rsp), %r12
	.p2align	4
.LBB7_16:
	vpxor	%xmm6, %xmm6, %xmm6
	vmovdqa	%xmm6, 672(%rsp)
	vmovdqa	%xmm6, 656(%rsp)
	vmovdqa	%xmm6, 640(%rsp)
	vmovdqa	%xmm6, 624(%rsp)
	vmovdqa	%xmm6, 608(%rsp)
	vmovdqa	%xmm6, 592(%rsp)
	vmovdqa	%xmm6, 576(%rsp)
	vmovdqa	%xmm6, 560(%rsp)
	vxorps	%xmm0, %xmm0, %xmm0
	vmovaps	%ymm0, 704(%rsp)
	vmovaps	%ymm0, 736(%rsp)
	vmovaps	%ymm0, 768(%rsp)
	vmovaps	%ymm0, 800(%rsp)
	cmpq	$4, %rdi
	ja	.LBB7_18
	vmovaps	320(%rsp), %xmm0
	vmovaps	288(%rsp), %xmm1
	vunpcklps	%xmm0, %xmm1, %xmm2
	vmovaps	384(%rsp), %xmm3
	vbroadcastss	%xmm3, %xmm4
	vmovaps	352(%rsp), %xmm5
	vbroadcastss	%xmm5, %xmm7
	vunpcklps	%xmm4, %xmm7, %xmm4
	vblendps	$12, %xmm4, %xmm2, %xmm2
	vmovaps	448(%rsp), %xmm4
	vmovaps	416(%rsp), %xmm7
	vunpcklps	%xmm4, %xmm7, %xmm8
	vinsertf128	$1, %xmm8, %ymm0, %ymm8
	vmovaps	512(%rsp), %xmm9
	vbroadcastss	%xmm9, %xmm10
	vmovaps	480(%rsp), %xmm11
	vbroadcastss	%xmm11, %xmm12
	vunpcklps	%xmm10, %xmm12, %xmm10
	vinsertf128	$1, %xmm10, %ymm0, %ymm10
	vblendps	$192, %ymm10, %ymm8, %ymm8
	vblendps	$15, %ymm2, %ymm8, %ymm2
	vunpcklps	%xmm3, %xmm5, %xmm3
	vshufps	$85, %xmm1, %xmm1, %xmm1
	vblendps	$2, %xmm0, %xmm1, %xmm0
	vblendps	$12, %xmm3, %xmm0, %xmm0
	vunpcklps	%xmm9, %xmm11, %xmm1
	vinsertf128	$1, %xmm1, %ymm0, %ymm1
	vshufps	$85, %xmm7, %xmm7, %xmm3
	vblendps	$2, %xmm4, %xmm3, %xmm3
	vinsertf128	$1, %xmm3, %ymm0, %ymm3
	vblendps	$192, %ymm1, %ymm3, %ymm1
	vblendps	$15, %ymm0, %ymm1, %ymm0
	vmovups	%ymm0, 1120(%rsp)
	vmovups	%ymm2, 1088(%rsp)
	movq	$0, 1152(%rsp)
	movabsq	$85899345984, %rax
	movq	%rax, 1160(%rsp)
	vmovq	520(%rsp), %xmm0
	vmovdqu	328(%rsp), %xmm1
	vmovdqu	296(%rsp), %xmm2
	vpunpckldq	%xmm1, %xmm2, %xmm3
	vmovdqu	392(%rsp), %xmm4
	vpbroadcastd	%xmm4, %xmm5
	vmovdqu	360(%rsp), %xmm7
	vpbroadcastd	%xmm7, %xmm8
	vpunpckldq	%xmm5, %xmm8, %xmm5
	vpblendd	$12, %xmm5, %xmm3, %xmm3
	vmovdqu	456(%rsp), %xmm5
	vmovdqu	424(%rsp), %xmm8
	vpunpckldq	%xmm5, %xmm8, %xmm9
	vinserti128	$1, %xmm9, %ymm0, %ymm9
	vpbroadcastd	%xmm0, %xmm10
	vmovdqu	488(%rsp), %xmm11
	vpbroadcastd	%xmm11, %xmm12
	vpunpckldq	%xmm10, %xmm12, %xmm10
	vinserti128	$1, %xmm10, %ymm0, %ymm10
	vpblendd	$192, %ymm10, %ymm9, %ymm9
	vpblendd	$15, %ymm3, %ymm9, %ymm3
	vpunpckldq	%xmm4, %xmm7, %xmm4
	vpshufd	$85, %xmm2, %xmm2
	vpblendd	$2, %xmm1, %xmm2, %xmm1
	vpblendd	$12, %xmm4, %xmm1, %xmm1
	vpunpckldq	%xmm0, %xmm11, %xmm0
	vinserti128	$1, %xmm0, %ymm0, %ymm0
	vpshufd	$85, %xmm8, %xmm2
	vpblendd	$2, %xmm5, %xmm2, %xmm2
	vinserti128	$1, %xmm2, %ymm0, %ymm2
	vpblendd	$192, %ymm0, %ymm2, %ymm0
	vpblendd	$15, %ymm1, %ymm0, %ymm0
	vmovdqu	%ymm0, 864(%rsp)
	vmovdqu	%ymm3, 832(%rsp)
	movq	$0, 896(%rsp)
	movq	%rax, 904(%rsp)
	vbroadcastf128	(%rsi), %ymm0
	vbroadcastf128	16(%rsi), %ymm1
	vmovaps	%ymm1, 2016(%rsp)
	vmovaps	%ymm0, 2048(%rsp)
	vbroadcastf128	.LCPI7_9(%rip), %ymm0
	vmovaps	%ymm0, 1984(%rsp)
	leaq	832(%rsp), %rax
	movq	%rax, 40(%rsp)
	leaq	1088(%rsp), %rax
	movq	%rax, 32(%rsp)
	leaq	64(%rsp), %rcx
	leaq	2048(%rsp), %rdx
	leaq	2016(%rsp), %r8
	leaq	1984(%rsp), %r9
	vzeroupper
	callq	"keyed_blake3::compression::two::compress_two_from"
	vmovdqa	64(%rsp), %xmm0
	vmovdqu	68(%rsp), %xmm2
	vmovdqu	72(%rsp), %xmm4
	vmovdqu	76(%rsp), %xmm5
	vmovdqa	96(%rsp), %xmm7
	vmovdqu	100(%rsp), %xmm8
	vmovdqu	104(%rsp), %xmm9
	vmovdqu	108(%rsp), %xmm10
	vpinsrd	$1, 80(%rsp), %xmm0, %xmm1
	vpinsrd	$1, 84(%rsp), %xmm2, %xmm3
	vpinsrd	$1, 88(%rsp), %xmm4, %xmm0
	vpinsrd	$1, 92(%rsp), %xmm5, %xmm2
	vpinsrd	$1, 112(%rsp), %xmm7, %xmm4
	vpinsrd	$1, 116(%rsp), %xmm8, %xmm5
	vpinsrd	$1, 120(%rsp), %xmm9, %xmm7
	vpinsrd	$1, 124(%rsp), %xmm10, %xmm8
	vmovdqa	%xmm6, 272(%rsp)
	vmovdqa	%xmm6, 256(%rsp)
	vmovdqa	%xmm6, 240(%rsp)
	vmovdqa	%xmm6, 224(%rsp)
	vmovdqa	%xmm6, 208(%rsp)
	vmovdqa	%xmm6, 192(%rsp)
	vmovdqa	%xmm6, 176(%rsp)
	vmovdqa	%xmm6, 160(%rsp)
	xorl	%eax, %eax
	xorl	%edx, %edx
	xorl	%ecx, %ecx
	xorl	%r8d, %r8d
	xorl	%r9d, %r9d
	xorl	%r10d, %r10d
	xorl	%r11d, %r11d
	xorl	%r14d, %r14d
	jmp	.LBB7_22
	.p2align	4
.LBB7_18:
	cmpq	$8, %rdi
	ja	.LBB7_20
	vmovups	(%rsi), %xmm0
	vmovups	16(%rsi), %xmm1
	vmovaps	%xmm1, 1888(%rsp)
	vmovaps	%xmm0, 1904(%rsp)
	leaq	704(%rsp), %rcx
	leaq	1904(%rsp), %rdx
	leaq	1888(%rsp), %r8
	leaq	288(%rsp), %r9
	vzeroupper
	callq	"keyed_blake3::subtrees::four_parent_values::<#a9687390e0dd665c>"
	vmovq	736(%rsp), %xmm0
	movq	744(%rsp), %rcx
	vmovq	752(%rsp), %xmm2
	movq	760(%rsp), %r8
	vmovq	768(%rsp), %xmm4
	movq	776(%rsp), %r9
	vmovq	784(%rsp), %xmm5
	movq	792(%rsp), %r10
	vmovq	800(%rsp), %xmm7
	movq	808(%rsp), %r11
	vmovq	816(%rsp), %xmm8
	movq	824(%rsp), %r14
	vmovdqa	%xmm6, 672(%rsp)
	vmovq	704(%rsp), %xmm1
	movq	712(%rsp), %rax
	movq	728(%rsp), %rdx
	vmovdqa	%xmm6, 656(%rsp)
	vmovq	720(%rsp), %xmm3
	vmovdqa	%xmm6, 640(%rsp)
	vmovdqa	%xmm6, 624(%rsp)
	vmovdqa	%xmm6, 608(%rsp)
	vmovdqa	%xmm6, 592(%rsp)
	vmovdqa	%xmm6, 576(%rsp)
	vmovdqa	%xmm6, 560(%rsp)
	vmovdqa	%xmm6, 272(%rsp)
	vmovdqa	%xmm6, 256(%rsp)
	vmovdqa	%xmm6, 240(%rsp)
	vmovdqa	%xmm6, 224(%rsp)
	vmovdqa	%xmm6, 208(%rsp)
	vmovdqa	%xmm6, 192(%rsp)
	vmovdqa	%xmm6, 176(%rsp)
	jmp	.LBB7_21
	.p2align	4
.LBB7_20:
	vbroadcasti128	.LCPI7_4(%rip), %ymm0
	vmovdqa	288(%rsp), %ymm1
	vmovdqa	320(%rsp), %ymm2
	vmovdqa	352(%rsp), %ymm3
	vmovdqa	384(%rsp), %ymm4
	vpermd	%ymm1, %ymm0, %ymm5
	vbroadcasti128	.LCPI7_5(%rip), %ymm6
	vpermd	%ymm1, %ymm6, %ymm1
	vmovdqa	%ymm1, 1856(%rsp)
	vpermd	%ymm2, %ymm0, %ymm7
	vpermd	%ymm2, %ymm6, %ymm2
	vpermd	%ymm3, %ymm0, %ymm8
	vpermd	%ymm3, %ymm6, %ymm3
	vpermd	%ymm4, %ymm0, %ymm9
	vpermd	%ymm4, %ymm6, %ymm4
	vmovdqa	416(%rsp), %ymm10
	vpermd	%ymm10, %ymm0, %ymm11
	vpermd	%ymm10, %ymm6, %ymm10
	vmovdqa	448(%rsp), %ymm12
	vpermd	%ymm12, %ymm0, %ymm13
	vpermd	%ymm12, %ymm6, %ymm12
	vmovdqa	480(%rsp), %ymm14
	vpermd	%ymm14, %ymm0, %ymm15
	vpermd	%ymm14, %ymm6, %ymm14
	vmovdqa	512(%rsp), %ymm1
	vpermd	%ymm1, %ymm0, %ymm0
	vpermd	%ymm1, %ymm6, %ymm1
	vmovdqu	%ymm5, 1088(%rsp)
	vmovdqu	%ymm7, 1120(%rsp)
	vmovdqu	%ymm8, 1152(%rsp)
	vmovdqu	%ymm9, 1184(%rsp)
	vmovdqu	%ymm11, 1216(%rsp)
	vmovdqu	%ymm13, 1248(%rsp)
	vmovdqu	%ymm15, 1280(%rsp)
	vmovdqu	%ymm0, 1312(%rsp)
	vmovaps	1856(%rsp), %ymm0
	vmovups	%ymm0, 1344(%rsp)
	vmovdqu	%ymm2, 1376(%rsp)
	vmovdqu	%ymm3, 1408(%rsp)
	vmovdqu	%ymm4, 1440(%rsp)
	vmovdqu	%ymm10, 1472(%rsp)
	vmovdqu	%ymm12, 1504(%rsp)
	vmovdqu	%ymm14, 1536(%rsp)
	vmovdqu	%ymm1, 1568(%rsp)
	vbroadcastss	.LCPI7_6(%rip), %ymm0
	vmovups	%ymm0, 64(%rsp)
	vbroadcastss	.LCPI7_7(%rip), %ymm0
	vmovups	%ymm0, 2256(%rsp)
	vbroadcastss	(%rsi), %ymm0
	vbroadcastss	4(%rsi), %ymm1
	vbroadcastss	8(%rsi), %ymm2
	vbroadcastss	12(%rsi), %ymm3
	vbroadcastss	16(%rsi), %ymm4
	vbroadcastss	20(%rsi), %ymm5
	vbroadcastss	24(%rsi), %ymm6
	vbroadcastss	28(%rsi), %ymm7
	vmovups	%ymm0, 832(%rsp)
	vmovups	%ymm1, 864(%rsp)
	vmovups	%ymm2, 896(%rsp)
	vmovups	%ymm3, 928(%rsp)
	vmovups	%ymm4, 960(%rsp)
	vmovups	%ymm5, 992(%rsp)
	vmovups	%ymm6, 1024(%rsp)
	vmovups	%ymm7, 1056(%rsp)
	leaq	832(%rsp), %rcx
	leaq	1088(%rsp), %rdx
	leaq	64(%rsp), %r8
	leaq	2256(%rsp), %r9
	vzeroupper
	callq	"keyed_blake3::compression::lanes::take_in_each::<#a9687390e0dd665c>"
	vmovq	832(%rsp), %xmm1
	vmovups	-64(%r15), %xmm0
	vmovaps	%xmm0, 672(%rsp)
	movq	840(%rsp), %rax
	vmovups	-32(%r15), %xmm0
	vmovaps	%xmm0, 656(%rsp)
	movq	872(%rsp), %rdx
	vmovups	(%r15), %xmm0
	vmovaps	%xmm0, 640(%rsp)
	vmovq	864(%rsp), %xmm3
	vmovups	32(%r15), %xmm0
	vmovaps	%xmm0, 624(%rsp)
	vmovq	896(%rsp), %xmm0
	vmovups	64(%r15), %xmm2
	vmovaps	%xmm2, 608(%rsp)
	movq	904(%rsp), %rcx
	vmovups	96(%r15), %xmm2
	vmovaps	%xmm2, 592(%rsp)
	vmovq	928(%rsp), %xmm2
	vmovups	128(%r15), %xmm4
	vmovaps	%xmm4, 576(%rsp)
	movq	936(%rsp), %r8
	vmovups	160(%r15), %xmm4
	vmovaps	%xmm4, 560(%rsp)
	vmovq	960(%rsp), %xmm4
	vmovaps	672(%rsp), %xmm5
	vmovaps	%xmm5, 272(%rsp)
	movq	968(%rsp), %r9
	vmovaps	656(%rsp), %xmm5
	vmovaps	%xmm5, 256(%rsp)
	vmovq	992(%rsp), %xmm5
	vmovaps	640(%rsp), %xmm6
	vmovaps	%xmm6, 240(%rsp)
	movq	1000(%rsp), %r10
	vmovaps	624(%rsp), %xmm6
	vmovaps	%xmm6, 224(%rsp)
	vmovq	1024(%rsp), %xmm7
	vmovaps	608(%rsp), %xmm6
	vmovaps	%xmm6, 208(%rsp)
	movq	1032(%rsp), %r11
	vmovaps	592(%rsp), %xmm6
	vmovaps	%xmm6, 192(%rsp)
	vmovq	1056(%rsp), %xmm8
	vmovaps	576(%rsp), %xmm6
	vmovaps	%xmm6, 176(%rsp)
	movq	1064(%rsp), %r14
	vmovdqa	560(%rsp), %xmm6
.LBB7_21:
	vmovdqa	%xmm6, 160(%rsp)
.LBB7_22:
	vmovq	%xmm1, 288(%rsp)
	movq	%rax, 296(%rsp)
	vmovaps	272(%rsp), %xmm1
	vmovups	%xmm1, -64(%r12)
	vmovq	%xmm3, 320(%rsp)
	movq	%rdx, 328(%rsp)
	vmovaps	256(%rsp), %xmm1
	vmovups	%xmm1, -32(%r12)
	vmovq	%xmm0, 352(%rsp)
	movq	%rcx, 360(%rsp)
	vmovaps	240(%rsp), %xmm0
	vmovups	%xmm0, (%r12)
	vmovq	%xmm2, 384(%rsp)
	movq	%r8, 392(%rsp)
	vmovaps	224(%rsp), %xmm0
	vmovups	%xmm0, 32(%r12)
	vmovq	%xmm4, 416(%rsp)
	movq	%r9, 424(%rsp)
	vmovaps	208(%rsp), %xmm0
	vmovups	%xmm0, 64(%r12)
	vmovq	%xmm5, 448(%rsp)
	movq	%r10, 456(%rsp)
	vmovaps	192(%rsp), %xmm0
	vmovups	%xmm0, 96(%r12)
	vmovq	%xmm7, 480(%rsp)
	movq	%r11, 488(%rsp)
	vmovaps	176(%rsp), %xmm0
	vmovups	%xmm0, 128(%r12)
	vmovq	%xmm8, 512(%rsp)
	movq	%r14, 520(%rsp)
	vmovaps	160(%rsp), %xmm0
	vmovups	%xmm0, 160(%r12)
	movq	%rbx, %r14
	shrq	%r14
	movq	%rdi, %r13
	shrq	%r13
	cmpq	$5, %rdi
	jb	.LBB7_25
	andl	$2, %edi
	jne	.LBB7_25
	movq	%r13, %rdi
	andl	$2, %ebx
	movq	%r14, %rbx
	je	.LBB7_16
	jmp	.LBB7_25
.LBB7_13:
	movq	%rdi, %r13
	movq	%rbx, %r14
.LBB7_25:
	movq	%r13, %r15
	decq	%r15
	je	.LBB7_28
	leaq	64(%rsi), %rdi
	xorl	%r12d, %r12d
	.p2align	4
.LBB7_27:
	movl	288(%rsp,%r12,4), %eax
	movl	320(%rsp,%r12,4), %ecx
	movl	352(%rsp,%r12,4), %edx
	movl	384(%rsp,%r12,4), %r8d
	movl	416(%rsp,%r12,4), %r9d
	movl	448(%rsp,%r12,4), %r10d
	movl	480(%rsp,%r12,4), %r11d
	movl	512(%rsp,%r12,4), %ebx
	movl	%eax, 1088(%rsp)
	movl	%ecx, 1092(%rsp)
	movl	%edx, 1096(%rsp)
	movl	%r8d, 1100(%rsp)
	movl	%r9d, 1104(%rsp)
	movl	%r10d, 1108(%rsp)
	movl	%r11d, 1112(%rsp)
	movl	%ebx, 1116(%rsp)
	leaq	(%r14,%r12), %r8
	movq	$0, 32(%rsp)
	leaq	1088(%rsp), %r9
	movq	%rdi, %rcx
	movq	%rsi, %rdx
	vzeroupper
	callq	"keyed_blake3::tree::add_subtree_value"
	incq	%r12
	cmpq	%r12, %r15
	jne	.LBB7_27
.LBB7_28:
	movl	284(%rsp,%r13,4), %eax
	movl	316(%rsp,%r13,4), %ecx
	movl	348(%rsp,%r13,4), %edx
	movl	380(%rsp,%r13,4), %r8d
	movl	412(%rsp,%r13,4), %r9d
	movl	444(%rsp,%r13,4), %r10d
	movl	476(%rsp,%r13,4), %r11d
	movl	508(%rsp,%r13,4), %edi
	movl	%eax, 128(%rsp)
	movl	%ecx, 132(%rsp)
	movl	%edx, 136(%rsp)
	movl	%r8d, 140(%rsp)
	movl	%r9d, 144(%rsp)
	movl	%r10d, 148(%rsp)
	movl	%r11d, 152(%rsp)
	movl	%edi, 156(%rsp)
	addq	%r15, %r14
	leaq	64(%rsi), %rcx
	movq	2448(%rbp), %rax
	movq	%rax, 32(%rsp)
	leaq	128(%rsp), %r9
	movq	%rsi, %rdx
	movq	%r14, %r8
	vzeroupper
	callq	"keyed_blake3::tree::add_subtree_value"
	vmovaps	2160(%rbp), %xmm6
	vmovaps	2176(%rbp), %xmm7
	vmovaps	2192(%rbp), %xmm8
	vmovaps	2208(%rbp), %xmm9
	vmovaps	2224(%rbp), %xmm10
	vmovaps	2240(%rbp), %xmm11
	vmovaps	2256(%rbp), %xmm12
	vmovaps	2272(%rbp), %xmm13
	vmovaps	2288(%rbp), %xmm14
	vmovaps	2304(%rbp), %xmm15
	leaq	2328(%rbp), %rsp
	popq	%rbx
	popq	%rdi
	popq	%rsi
	popq	%r12
	popq	%r13
	popq	%r14
	popq	%r15
	popq	%rbp
	retq
.LBB7_29:
	ud2
	.seh_endproc

	.section	.rdata,"dr"
	.p2align	5, 0x0
.LCPI8_0:
	.byte	2
	.byte	3
	.byte	0
	.byte	1
	.byte	6
	.byte	7
	.byte	4
	.byte	5
	.byte	10
	.byte	11
	.byte	8
	.byte	9
	.byte	14
	.byte	15
	.byte	12
	.byte	13
	.byte	18
	.byte	19
	.byte	16
	.byte	17
	.byte	22
	.byte	23
	.byte	20
	.byte	21
	.byte	26
	.byte	27
	.byte	24
	.byte	25
	.byte	30
	.byte	31
	.byte	28
	.byte	29
.LCPI8_1:
	.byte	0
	.byte	0
	.byte	64
	.byte	0
	.byte	0
	.byte	0
	.byte	64
	.byte	0
	.byte	0
	.byte	0
	.byte	64
	.byte	0
	.byte	0
	.byte	0
	.byte	64
	.byte	0
	.byte	0
	.byte	0
	.byte	64
	.byte	0
	.byte	0
	.byte	0
	.byte	64
	.byte	0
	.byte	0
	.byte	0
	.byte	64
	.byte	0
	.byte	0
	.byte	0
	.byte	64
	.byte	0
.LCPI8_2:
	.long	3144134277
.LCPI8_3:
	.long	1013904242
.LCPI8_4:
	.long	2773480762
	.zero	20
.LCPI8_5:
	.byte	1
	.byte	2
	.byte	3
	.byte	0
	.byte	5
	.byte	6
	.byte	7
	.byte	4
	.byte	9
	.byte	10
	.byte	11
	.byte	8
	.byte	13
	.byte	14
	.byte	15
	.byte	12
	.byte	1
	.byte	2
	.byte	3
	.byte	0
	.byte	5
	.byte	6
	.byte	7
	.byte	4
	.byte	9
	.byte	10
	.byte	11
	.byte	8
	.byte	13
	.byte	14
	.byte	15
	.byte	12
.LCPI8_6:
	.byte	1
	.byte	2
	.byte	3
	.byte	0
	.byte	5
	.byte	6
	.byte	7
	.byte	4
	.byte	9
	.byte	10
	.byte	11
	.byte	8
	.byte	13
	.byte	14
	.byte	15
	.byte	12
	.section	.text
	.p2align	4
	.def	"keyed_blake3::chunks::chunk_values::<#a9687390e0dd665c>";
	.scl	3;
	.type	32;
	.endef
"keyed_blake3::chunks::chunk_values::<#a9687390e0dd665c>":
.seh_proc "keyed_blake3::chunks::chunk_values::<#a9687390e0dd665c>"
	pushq	%rbp
	.seh_pushreg %rbp
	pushq	%r15
	.seh_pushreg %r15
	pushq	%r14
	.seh_pushreg %r14
	pushq	%r13
	.seh_pushreg %r13
	pushq	%r12
	.seh_pushreg %r12
	pushq	%rsi
	.seh_pushreg %rsi
	pushq	%rdi
	.seh_pushreg %rdi
	pushq	%rbx
	.seh_pushreg %rbx
	subq	$1144, %rsp
	.seh_stackalloc 1144
	leaq	128(%rsp), %rbp
	.seh_setframe %rbp, 128
	vmovdqa	%xmm15, 992(%rbp)
	.seh_savexmm %xmm15, 1120
	vmovdqa	%xmm14, 976(%rbp)
	.seh_savexmm %xmm14, 1104
	vmovaps	%xmm13, 960(%rbp)
	.seh_savexmm %xmm13, 1088
	vmovdqa	%xmm12, 944(%rbp)
	.seh_savexmm %xmm12, 1072
	vmovaps	%xmm11, 928(%rbp)
	.seh_savexmm %xmm11, 1056
	vmovdqa	%xmm10, 912(%rbp)
	.seh_savexmm %xmm10, 1040
	vmovdqa	%xmm9, 896(%rbp)
	.seh_savexmm %xmm9, 1024
	vmovdqa	%xmm8, 880(%rbp)
	.seh_savexmm %xmm8, 1008
	vmovaps	%xmm7, 864(%rbp)
	.seh_savexmm %xmm7, 992
	vmovdqa	%xmm6, 848(%rbp)
	.seh_savexmm %xmm6, 976
	.seh_endprologue
	andq	$-32, %rsp
	vpbroadcastq	1120(%rbp), %ymm0
	vpaddq	32(%r9), %ymm0, %ymm1
	movq	%rcx, 776(%rsp)
	vpaddq	(%r9), %ymm0, %ymm0
	vshufps	$221, %ymm1, %ymm0, %ymm2
	vpermpd	$216, %ymm2, %ymm2
	vmovaps	%ymm2, 864(%rsp)
	vshufps	$136, %ymm1, %ymm0, %ymm0
	vpermpd	$216, %ymm0, %ymm0
	vmovaps	%ymm0, 832(%rsp)
	vpbroadcastd	(%rdx), %ymm13
	vpbroadcastd	4(%rdx), %ymm11
	vpbroadcastd	8(%rdx), %ymm4
	vpbroadcastd	12(%rdx), %ymm7
	vpbroadcastd	16(%rdx), %ymm3
	vpbroadcastd	20(%rdx), %ymm2
	vpbroadcastd	24(%rdx), %ymm1
	vpbroadcastd	28(%rdx), %ymm0
	movq	(%r9), %rax
	movq	8(%r9), %rcx
	shlq	$10, %rax
	shlq	$10, %rcx
	movq	16(%r9), %rdx
	shlq	$10, %rdx
	movq	24(%r9), %r10
	shlq	$10, %r10
	movq	32(%r9), %r11
	shlq	$10, %r11
	movq	40(%r9), %rsi
	shlq	$10, %rsi
	movq	48(%r9), %rdi
	shlq	$10, %rdi
	movq	56(%r9), %r9
	shlq	$10, %r9
	addq	%r8, %rax
	addq	$32, %rax
	movq	%rax, 792(%rsp)
	leaq	32(%rcx,%r8), %rax
	movq	%rax, 784(%rsp)
	leaq	32(%rdx,%r8), %r14
	leaq	32(%r10,%r8), %r15
	leaq	32(%r11,%r8), %r12
	leaq	(%rsi,%r8), %r13
	addq	$32, %r13
	leaq	(%rdi,%r8), %rsi
	addq	$32, %rsi
	leaq	(%r9,%r8), %rdi
	addq	$32, %rdi
	xorl	%ebx, %ebx
	.p2align	4
.LBB8_1:
	vmovdqa	%ymm13, 896(%rsp)
	vmovdqa	%ymm7, 192(%rsp)
	vmovdqa	%ymm0, 224(%rsp)
	vmovdqa	%ymm3, 160(%rsp)
	vmovdqa	%ymm11, 32(%rsp)
	vmovdqa	%ymm4, 64(%rsp)
	vmovdqa	%ymm1, 96(%rsp)
	vmovdqa	%ymm2, 128(%rsp)
	movq	792(%rsp), %rax
	vmovups	-32(%rax,%rbx), %ymm2
	vmovups	(%rax,%rbx), %ymm0
	prefetcht0	128(%rax,%rbx)
	movq	784(%rsp), %rax
	vmovups	-32(%rax,%rbx), %ymm3
	vmovups	(%rax,%rbx), %ymm1
	prefetcht0	128(%rax,%rbx)
	vunpcklps	%ymm3, %ymm2, %ymm7
	vunpckhps	%ymm3, %ymm2, %ymm8
	vmovups	-32(%r14,%rbx), %ymm4
	vmovups	(%r14,%rbx), %ymm2
	prefetcht0	128(%r14,%rbx)
	vmovups	-32(%r15,%rbx), %ymm5
	vmovups	(%r15,%rbx), %ymm3
	prefetcht0	128(%r15,%rbx)
	vunpcklps	%ymm5, %ymm4, %ymm9
	vunpckhps	%ymm5, %ymm4, %ymm10
	vmovups	-32(%r12,%rbx), %ymm6
	vmovups	(%r12,%rbx), %ymm4
	prefetcht0	128(%r12,%rbx)
	vmovups	-32(%r13,%rbx), %ymm11
	vmovups	(%r13,%rbx), %ymm5
	prefetcht0	128(%r13,%rbx)
	vunpcklps	%ymm11, %ymm6, %ymm12
	vunpckhps	%ymm11, %ymm6, %ymm11
	vmovups	-32(%rsi,%rbx), %ymm13
	vmovups	(%rsi,%rbx), %ymm6
	prefetcht0	128(%rsi,%rbx)
	vmovups	-32(%rdi,%rbx), %ymm14
	vunpcklps	%ymm14, %ymm13, %ymm15
	vunpckhps	%ymm14, %ymm13, %ymm13
	vunpcklpd	%ymm9, %ymm7, %ymm14
	vunpckhpd	%ymm9, %ymm7, %ymm7
	vunpcklpd	%ymm10, %ymm8, %ymm9
	vunpckhpd	%ymm10, %ymm8, %ymm8
	vunpcklpd	%ymm15, %ymm12, %ymm10
	vunpckhpd	%ymm15, %ymm12, %ymm12
	vunpcklpd	%ymm13, %ymm11, %ymm15
	vunpckhpd	%ymm13, %ymm11, %ymm11
	vinsertf128	$1, %xmm10, %ymm14, %ymm13
	vmovaps	%ymm13, 416(%rsp)
	vperm2f128	$49, %ymm10, %ymm14, %ymm10
	vmovaps	%ymm10, 736(%rsp)
	vinsertf128	$1, %xmm12, %ymm7, %ymm10
	vmovaps	%ymm10, 320(%rsp)
	vperm2f128	$49, %ymm12, %ymm7, %ymm7
	vmovaps	%ymm7, 256(%rsp)
	vinsertf128	$1, %xmm15, %ymm9, %ymm7
	vmovaps	%ymm7, 544(%rsp)
	vperm2f128	$49, %ymm15, %ymm9, %ymm7
	vmovaps	%ymm7, 448(%rsp)
	vinsertf128	$1, %xmm11, %ymm8, %ymm7
	vmovaps	%ymm7, 512(%rsp)
	vperm2f128	$49, %ymm11, %ymm8, %ymm7
	vmovaps	%ymm7, 480(%rsp)
	vunpcklps	%ymm1, %ymm0, %ymm7
	vunpckhps	%ymm1, %ymm0, %ymm0
	vunpcklps	%ymm3, %ymm2, %ymm1
	vunpckhps	%ymm3, %ymm2, %ymm2
	vunpcklps	%ymm5, %ymm4, %ymm3
	vunpckhps	%ymm5, %ymm4, %ymm4
	vmovups	(%rdi,%rbx), %ymm5
	prefetcht0	128(%rdi,%rbx)
	vunpcklps	%ymm5, %ymm6, %ymm8
	vunpckhps	%ymm5, %ymm6, %ymm5
	vunpcklpd	%ymm1, %ymm7, %ymm6
	vunpckhpd	%ymm1, %ymm7, %ymm1
	vunpcklpd	%ymm2, %ymm0, %ymm7
	vunpckhpd	%ymm2, %ymm0, %ymm0
	vunpcklpd	%ymm8, %ymm3, %ymm2
	vunpckhpd	%ymm8, %ymm3, %ymm3
	vunpcklpd	%ymm5, %ymm4, %ymm8
	vunpckhpd	%ymm5, %ymm4, %ymm4
	vinsertf128	$1, %xmm2, %ymm6, %ymm5
	vmovaps	%ymm5, 608(%rsp)
	vperm2f128	$49, %ymm2, %ymm6, %ymm2
	vmovaps	%ymm2, 704(%rsp)
	vinsertf128	$1, %xmm3, %ymm1, %ymm2
	vmovaps	%ymm2, 384(%rsp)
	vperm2f128	$49, %ymm3, %ymm1, %ymm1
	vmovaps	%ymm1, 672(%rsp)
	vinsertf128	$1, %xmm8, %ymm7, %ymm1
	vmovaps	%ymm1, 576(%rsp)
	vperm2f128	$49, %ymm8, %ymm7, %ymm1
	vmovaps	%ymm1, 640(%rsp)
	vinsertf128	$1, %xmm4, %ymm0, %ymm1
	vmovaps	%ymm1, 288(%rsp)
	vperm2f128	$49, %ymm4, %ymm0, %ymm0
	vmovaps	%ymm0, 352(%rsp)
	cmpq	$1, %rbx
	movl	$0, %eax
	adcl	$16, %eax
	cmpq	$960, %rbx
	movl	$18, %ecx
	cmovnel	%eax, %ecx
	vmovd	%ecx, %xmm0
	vpbroadcastd	%xmm0, %ymm0
	vmovdqa	%ymm0, 800(%rsp)
	leaq	928(%rsp), %rcx
	vzeroupper
	callq	"keyed_blake3::compression::lanes::each_by_call::<=8>"
	vmovdqa	224(%rsp), %ymm5
	vpaddd	192(%rsp), %ymm5, %ymm0
	vpaddd	448(%rsp), %ymm0, %ymm1
	vmovdqa	%ymm1, 192(%rsp)
	vmovdqa	.LCPI8_0(%rip), %ymm2
	vmovdqa	800(%rsp), %ymm0
	vpshufb	%ymm2, %ymm0, %ymm0
	vpshufb	%ymm2, %ymm1, %ymm1
	vpxor	%ymm0, %ymm1, %ymm8
	vmovdqa	%ymm8, 800(%rsp)
	vmovdqa	160(%rsp), %ymm1
	vpaddd	896(%rsp), %ymm1, %ymm0
	vpaddd	416(%rsp), %ymm0, %ymm10
	vpxor	832(%rsp), %ymm10, %ymm0
	vpshufb	%ymm2, %ymm0, %ymm11
	vpaddd	928(%rsp), %ymm11, %ymm6
	vpxor	%ymm1, %ymm6, %ymm0
	vpsrld	$12, %ymm0, %ymm1
	vpslld	$20, %ymm0, %ymm0
	vpor	%ymm1, %ymm0, %ymm14
	vmovdqa	128(%rsp), %ymm12
	vpaddd	32(%rsp), %ymm12, %ymm0
	vpaddd	544(%rsp), %ymm0, %ymm3
	vmovdqa	96(%rsp), %ymm4
	vpaddd	64(%rsp), %ymm4, %ymm0
	vpaddd	736(%rsp), %ymm0, %ymm1
	vmovdqa	%ymm1, 64(%rsp)
	vpxor	864(%rsp), %ymm3, %ymm0
	vpshufb	%ymm2, %ymm0, %ymm9
	vpshufb	%ymm2, %ymm1, %ymm0
	vpxor	.LCPI8_1(%rip), %ymm0, %ymm7
	vpbroadcastd	.LCPI8_2(%rip), %ymm0
	vpaddd	%ymm0, %ymm9, %ymm1
	vpxor	%ymm1, %ymm12, %ymm0
	vpsrld	$12, %ymm0, %ymm2
	vpslld	$20, %ymm0, %ymm0
	vpor	%ymm2, %ymm0, %ymm15
	vpbroadcastd	.LCPI8_3(%rip), %ymm0
	vpaddd	%ymm0, %ymm7, %ymm12
	vpxor	%ymm4, %ymm12, %ymm0
	vpsrld	$12, %ymm0, %ymm2
	vpslld	$20, %ymm0, %ymm0
	vpor	%ymm2, %ymm0, %ymm13
	vpbroadcastd	.LCPI8_4(%rip), %ymm0
	vpaddd	%ymm0, %ymm8, %ymm4
	vpxor	%ymm5, %ymm4, %ymm2
	vpsrld	$12, %ymm2, %ymm0
	vpslld	$20, %ymm2, %ymm2
	vpor	%ymm0, %ymm2, %ymm2
	vpaddd	512(%rsp), %ymm3, %ymm0
	vpaddd	%ymm0, %ymm15, %ymm0
	vmovdqa	%ymm0, 96(%rsp)
	vpxor	%ymm0, %ymm9, %ymm0
	vbroadcasti128	.LCPI8_6(%rip), %ymm5
	vpshufb	%ymm5, %ymm0, %ymm0
	vmovdqa	%ymm0, 128(%rsp)
	vpaddd	%ymm0, %ymm1, %ymm9
	vpxor	%ymm15, %ymm9, %ymm0
	vpsrld	$7, %ymm0, %ymm1
	vpslld	$25, %ymm0, %ymm0
	vpor	%ymm1, %ymm0, %ymm8
	vpaddd	320(%rsp), %ymm10, %ymm0
	vpaddd	%ymm0, %ymm14, %ymm0
	vpxor	%ymm0, %ymm11, %ymm10
	vpshufb	%ymm5, %ymm10, %ymm10
	vmovdqa	%ymm5, %ymm1
	vpaddd	%ymm6, %ymm10, %ymm3
	vmovdqa	%ymm3, 32(%rsp)
	vpxor	%ymm3, %ymm14, %ymm11
	vpsrld	$7, %ymm11, %ymm14
	vpslld	$25, %ymm11, %ymm11
	vpor	%ymm14, %ymm11, %ymm14
	vmovdqa	192(%rsp), %ymm3
	vpaddd	480(%rsp), %ymm3, %ymm11
	vpaddd	%ymm2, %ymm11, %ymm15
	vpxor	800(%rsp), %ymm15, %ymm5
	vmovdqa	%ymm1, %ymm3
	vpshufb	%ymm1, %ymm5, %ymm1
	vpaddd	%ymm1, %ymm4, %ymm11
	vpxor	%ymm2, %ymm11, %ymm2
	vpsrld	$7, %ymm2, %ymm4
	vpslld	$25, %ymm2, %ymm2
	vpor	%ymm4, %ymm2, %ymm2
	vmovdqa	%ymm2, 160(%rsp)
	vpaddd	608(%rsp), %ymm8, %ymm2
	vpaddd	%ymm0, %ymm2, %ymm2
	vmovdqa	%ymm2, 224(%rsp)
	vmovdqa	64(%rsp), %ymm0
	vpaddd	256(%rsp), %ymm0, %ymm0
	vpaddd	%ymm0, %ymm13, %ymm5
	vpxor	%ymm5, %ymm7, %ymm0
	vpshufb	%ymm3, %ymm0, %ymm6
	vpaddd	%ymm6, %ymm12, %ymm7
	vpxor	%ymm7, %ymm13, %ymm0
	vpsrld	$7, %ymm0, %ymm4
	vpslld	$25, %ymm0, %ymm0
	vpor	%ymm4, %ymm0, %ymm0
	vpxor	%ymm2, %ymm1, %ymm1
	vmovdqa	.LCPI8_0(%rip), %ymm13
	vpshufb	%ymm13, %ymm1, %ymm4
	vpaddd	%ymm4, %ymm7, %ymm7
	vpxor	%ymm7, %ymm8, %ymm1
	vpsrld	$12, %ymm1, %ymm3
	vpslld	$20, %ymm1, %ymm1
	vpor	%ymm3, %ymm1, %ymm1
	vpaddd	640(%rsp), %ymm15, %ymm3
	vpaddd	%ymm3, %ymm14, %ymm12
	vpxor	%ymm6, %ymm12, %ymm3
	vpshufb	%ymm13, %ymm3, %ymm15
	vmovdqa	%ymm13, %ymm8
	vpaddd	%ymm15, %ymm9, %ymm2
	vmovdqa	%ymm2, 192(%rsp)
	vpxor	%ymm2, %ymm14, %ymm3
	vpsrld	$12, %ymm3, %ymm6
	vpslld	$20, %ymm3, %ymm3
	vpor	%ymm6, %ymm3, %ymm6
	vmovdqa	96(%rsp), %ymm3
	vpaddd	576(%rsp), %ymm3, %ymm3
	vpaddd	%ymm0, %ymm3, %ymm13
	vpxor	%ymm13, %ymm10, %ymm3
	vpshufb	%ymm8, %ymm3, %ymm14
	vpaddd	%ymm14, %ymm11, %ymm9
	vpxor	%ymm0, %ymm9, %ymm0
	vpsrld	$12, %ymm0, %ymm3
	vpslld	$20, %ymm0, %ymm0
	vpor	%ymm3, %ymm0, %ymm3
	vpaddd	704(%rsp), %ymm5, %ymm0
	vmovdqa	160(%rsp), %ymm2
	vpaddd	%ymm2, %ymm0, %ymm10
	vpxor	128(%rsp), %ymm10, %ymm0
	vpshufb	%ymm8, %ymm0, %ymm11
	vpaddd	32(%rsp), %ymm11, %ymm8
	vpxor	%ymm2, %ymm8, %ymm0
	vpsrld	$12, %ymm0, %ymm2
	vpslld	$20, %ymm0, %ymm0
	vpor	%ymm2, %ymm0, %ymm5
	vmovdqa	224(%rsp), %ymm0
	vpaddd	384(%rsp), %ymm0, %ymm0
	vpaddd	%ymm1, %ymm0, %ymm0
	vmovdqa	%ymm0, 64(%rsp)
	vpxor	%ymm0, %ymm4, %ymm0
	vbroadcasti128	.LCPI8_6(%rip), %ymm2
	vpshufb	%ymm2, %ymm0, %ymm0
	vmovdqa	%ymm0, 128(%rsp)
	vpaddd	%ymm0, %ymm7, %ymm0
	vmovdqa	%ymm0, 96(%rsp)
	vpxor	%ymm1, %ymm0, %ymm0
	vpsrld	$7, %ymm0, %ymm1
	vpslld	$25, %ymm0, %ymm0
	vpor	%ymm1, %ymm0, %ymm4
	vpaddd	352(%rsp), %ymm12, %ymm0
	vpaddd	%ymm6, %ymm0, %ymm0
	vmovdqa	%ymm0, 32(%rsp)
	vpxor	%ymm0, %ymm15, %ymm0
	vpshufb	%ymm2, %ymm0, %ymm0
	vmovdqa	%ymm0, 224(%rsp)
	vmovdqa	%ymm2, %ymm12
	vpaddd	192(%rsp), %ymm0, %ymm0
	vpxor	%ymm6, %ymm0, %ymm1
	vpsrld	$7, %ymm1, %ymm2
	vpslld	$25, %ymm1, %ymm1
	vpor	%ymm2, %ymm1, %ymm2
	vpaddd	288(%rsp), %ymm13, %ymm1
	vpaddd	%ymm3, %ymm1, %ymm7
	vpxor	%ymm7, %ymm14, %ymm1
	vpshufb	%ymm12, %ymm1, %ymm1
	vpaddd	%ymm1, %ymm9, %ymm6
	vmovdqa	%ymm6, 160(%rsp)
	vpxor	%ymm3, %ymm6, %ymm3
	vpsrld	$7, %ymm3, %ymm6
	vpslld	$25, %ymm3, %ymm3
	vpor	%ymm6, %ymm3, %ymm3
	vpaddd	672(%rsp), %ymm10, %ymm6
	vpaddd	%ymm5, %ymm6, %ymm6
	vpxor	%ymm6, %ymm11, %ymm9
	vpshufb	%ymm12, %ymm9, %ymm9
	vpaddd	%ymm9, %ymm8, %ymm8
	vpxor	%ymm5, %ymm8, %ymm5
	vpsrld	$7, %ymm5, %ymm10
	vpslld	$25, %ymm5, %ymm5
	vpor	%ymm5, %ymm10, %ymm5
	vpaddd	512(%rsp), %ymm7, %ymm7
	vpaddd	%ymm4, %ymm7, %ymm12
	vpxor	%ymm12, %ymm9, %ymm7
	vmovdqa	.LCPI8_0(%rip), %ymm10
	vpshufb	%ymm10, %ymm7, %ymm7
	vpaddd	%ymm7, %ymm0, %ymm0
	vmovdqa	%ymm0, 192(%rsp)
	vpxor	%ymm4, %ymm0, %ymm0
	vpsrld	$12, %ymm0, %ymm4
	vpslld	$20, %ymm0, %ymm0
	vpor	%ymm4, %ymm0, %ymm0
	vmovdqa	64(%rsp), %ymm4
	vpaddd	544(%rsp), %ymm4, %ymm4
	vpaddd	%ymm2, %ymm4, %ymm4
	vpxor	%ymm4, %ymm1, %ymm1
	vpshufb	%ymm10, %ymm1, %ymm15
	vpaddd	%ymm15, %ymm8, %ymm1
	vmovdqa	%ymm1, 64(%rsp)
	vpxor	%ymm2, %ymm1, %ymm1
	vpsrld	$12, %ymm1, %ymm2
	vpslld	$20, %ymm1, %ymm1
	vpor	%ymm2, %ymm1, %ymm1
	vpaddd	480(%rsp), %ymm6, %ymm2
	vpaddd	%ymm3, %ymm2, %ymm13
	vpxor	224(%rsp), %ymm13, %ymm2
	vpshufb	%ymm10, %ymm2, %ymm9
	vmovdqa	%ymm10, %ymm8
	vpaddd	96(%rsp), %ymm9, %ymm10
	vpxor	%ymm3, %ymm10, %ymm2
	vpsrld	$12, %ymm2, %ymm3
	vpslld	$20, %ymm2, %ymm2
	vpor	%ymm3, %ymm2, %ymm6
	vmovdqa	32(%rsp), %ymm2
	vpaddd	736(%rsp), %ymm2, %ymm3
	vpaddd	%ymm5, %ymm3, %ymm14
	vpxor	128(%rsp), %ymm14, %ymm3
	vpshufb	%ymm8, %ymm3, %ymm8
	vpaddd	160(%rsp), %ymm8, %ymm11
	vpxor	%ymm5, %ymm11, %ymm3
	vpsrld	$12, %ymm3, %ymm5
	vpslld	$20, %ymm3, %ymm3
	vpor	%ymm5, %ymm3, %ymm3
	vpaddd	576(%rsp), %ymm12, %ymm5
	vpaddd	%ymm0, %ymm5, %ymm2
	vmovdqa	%ymm2, 96(%rsp)
	vpxor	%ymm2, %ymm7, %ymm5
	vbroadcasti128	.LCPI8_6(%rip), %ymm12
	vpshufb	%ymm12, %ymm5, %ymm2
	vmovdqa	%ymm2, 128(%rsp)
	vpaddd	192(%rsp), %ymm2, %ymm5
	vpxor	%ymm0, %ymm5, %ymm0
	vpsrld	$7, %ymm0, %ymm7
	vpslld	$25, %ymm0, %ymm0
	vpor	%ymm7, %ymm0, %ymm2
	vpaddd	448(%rsp), %ymm4, %ymm4
	vpaddd	%ymm1, %ymm4, %ymm7
	vpxor	%ymm7, %ymm15, %ymm4
	vpshufb	%ymm12, %ymm4, %ymm4
	vmovdqa	%ymm4, 32(%rsp)
	vpaddd	64(%rsp), %ymm4, %ymm4
	vmovdqa	%ymm4, 64(%rsp)
	vpxor	%ymm1, %ymm4, %ymm1
	vpsrld	$7, %ymm1, %ymm4
	vpslld	$25, %ymm1, %ymm1
	vpor	%ymm4, %ymm1, %ymm1
	vpaddd	416(%rsp), %ymm13, %ymm4
	vpaddd	%ymm6, %ymm4, %ymm13
	vpxor	%ymm13, %ymm9, %ymm4
	vpshufb	%ymm12, %ymm4, %ymm9
	vpaddd	%ymm9, %ymm10, %ymm0
	vpxor	%ymm6, %ymm0, %ymm4
	vpsrld	$7, %ymm4, %ymm6
	vpslld	$25, %ymm4, %ymm4
	vpor	%ymm6, %ymm4, %ymm6
	vpaddd	672(%rsp), %ymm14, %ymm4
	vpaddd	%ymm3, %ymm4, %ymm4
	vpxor	%ymm4, %ymm8, %ymm8
	vpshufb	%ymm12, %ymm8, %ymm8
	vpaddd	%ymm8, %ymm11, %ymm10
	vpxor	%ymm3, %ymm10, %ymm3
	vpsrld	$7, %ymm3, %ymm11
	vpslld	$25, %ymm3, %ymm3
	vpor	%ymm3, %ymm11, %ymm3
	vpaddd	320(%rsp), %ymm7, %ymm7
	vpaddd	%ymm2, %ymm7, %ymm7
	vpxor	%ymm7, %ymm8, %ymm8
	vmovdqa	.LCPI8_0(%rip), %ymm11
	vpshufb	%ymm11, %ymm8, %ymm15
	vpaddd	%ymm0, %ymm15, %ymm0
	vmovdqa	%ymm0, 160(%rsp)
	vpxor	%ymm2, %ymm0, %ymm0
	vpsrld	$12, %ymm0, %ymm2
	vpslld	$20, %ymm0, %ymm0
	vpor	%ymm2, %ymm0, %ymm0
	vpaddd	352(%rsp), %ymm4, %ymm2
	vpaddd	%ymm1, %ymm2, %ymm4
	vpxor	%ymm4, %ymm9, %ymm2
	vpshufb	%ymm11, %ymm2, %ymm14
	vpaddd	%ymm5, %ymm14, %ymm8
	vpxor	%ymm1, %ymm8, %ymm1
	vpsrld	$12, %ymm1, %ymm2
	vpslld	$20, %ymm1, %ymm1
	vpor	%ymm2, %ymm1, %ymm5
	vmovdqa	96(%rsp), %ymm1
	vpaddd	704(%rsp), %ymm1, %ymm1
	vpaddd	%ymm6, %ymm1, %ymm12
	vpxor	32(%rsp), %ymm12, %ymm1
	vpshufb	%ymm11, %ymm1, %ymm9
	vpaddd	%ymm9, %ymm10, %ymm10
	vpxor	%ymm6, %ymm10, %ymm1
	vpsrld	$12, %ymm1, %ymm2
	vpslld	$20, %ymm1, %ymm1
	vpor	%ymm2, %ymm1, %ymm6
	vpaddd	384(%rsp), %ymm13, %ymm1
	vpaddd	%ymm3, %ymm1, %ymm13
	vpxor	128(%rsp), %ymm13, %ymm1
	vpshufb	%ymm11, %ymm1, %ymm2
	vpaddd	64(%rsp), %ymm2, %ymm11
	vpxor	%ymm3, %ymm11, %ymm1
	vpsrld	$12, %ymm1, %ymm3
	vpslld	$20, %ymm1, %ymm1
	vpor	%ymm3, %ymm1, %ymm1
	vpaddd	288(%rsp), %ymm7, %ymm3
	vpaddd	%ymm0, %ymm3, %ymm3
	vmovdqa	%ymm3, 64(%rsp)
	vpxor	%ymm3, %ymm15, %ymm3
	vbroadcasti128	.LCPI8_6(%rip), %ymm7
	vpshufb	%ymm7, %ymm3, %ymm3
	vmovdqa	%ymm3, 128(%rsp)
	vpaddd	160(%rsp), %ymm3, %ymm3
	vmovdqa	%ymm3, 96(%rsp)
	vpxor	%ymm0, %ymm3, %ymm0
	vpsrld	$7, %ymm0, %ymm3
	vpslld	$25, %ymm0, %ymm0
	vpor	%ymm3, %ymm0, %ymm0
	vpaddd	608(%rsp), %ymm4, %ymm3
	vpaddd	%ymm5, %ymm3, %ymm15
	vpxor	%ymm15, %ymm14, %ymm3
	vmovdqa	%ymm7, %ymm14
	vpshufb	%ymm7, %ymm3, %ymm7
	vpaddd	%ymm7, %ymm8, %ymm4
	vpxor	%ymm5, %ymm4, %ymm3
	vpsrld	$7, %ymm3, %ymm5
	vpslld	$25, %ymm3, %ymm3
	vpor	%ymm5, %ymm3, %ymm8
	vpaddd	256(%rsp), %ymm12, %ymm3
	vpaddd	%ymm6, %ymm3, %ymm3
	vpxor	%ymm3, %ymm9, %ymm5
	vpshufb	%ymm14, %ymm5, %ymm12
	vpaddd	%ymm12, %ymm10, %ymm5
	vmovdqa	%ymm5, 32(%rsp)
	vpxor	%ymm6, %ymm5, %ymm5
	vpsrld	$7, %ymm5, %ymm6
	vpslld	$25, %ymm5, %ymm5
	vpor	%ymm6, %ymm5, %ymm10
	vpaddd	640(%rsp), %ymm13, %ymm5
	vpaddd	%ymm1, %ymm5, %ymm9
	vpxor	%ymm2, %ymm9, %ymm2
	vpshufb	%ymm14, %ymm2, %ymm2
	vpaddd	%ymm2, %ymm11, %ymm6
	vpxor	%ymm1, %ymm6, %ymm1
	vpsrld	$7, %ymm1, %ymm5
	vpslld	$25, %ymm1, %ymm1
	vpor	%ymm5, %ymm1, %ymm11
	vpaddd	576(%rsp), %ymm3, %ymm1
	vpaddd	%ymm0, %ymm1, %ymm5
	vpxor	%ymm5, %ymm2, %ymm1
	vmovdqa	.LCPI8_0(%rip), %ymm13
	vpshufb	%ymm13, %ymm1, %ymm3
	vpaddd	%ymm3, %ymm4, %ymm1
	vpxor	%ymm0, %ymm1, %ymm0
	vpsrld	$12, %ymm0, %ymm2
	vpslld	$20, %ymm0, %ymm0
	vpor	%ymm2, %ymm0, %ymm0
	vmovdqa	64(%rsp), %ymm2
	vpaddd	512(%rsp), %ymm2, %ymm2
	vpaddd	%ymm2, %ymm8, %ymm4
	vpxor	%ymm4, %ymm12, %ymm2
	vpshufb	%ymm13, %ymm2, %ymm14
	vpaddd	%ymm6, %ymm14, %ymm6
	vpxor	%ymm6, %ymm8, %ymm2
	vpsrld	$12, %ymm2, %ymm8
	vpslld	$20, %ymm2, %ymm2
	vpor	%ymm2, %ymm8, %ymm2
	vpaddd	672(%rsp), %ymm9, %ymm8
	vpaddd	%ymm10, %ymm8, %ymm12
	vpxor	%ymm7, %ymm12, %ymm7
	vpshufb	%ymm13, %ymm7, %ymm8
	vpaddd	96(%rsp), %ymm8, %ymm7
	vmovdqa	%ymm7, 160(%rsp)
	vpxor	%ymm7, %ymm10, %ymm7
	vpsrld	$12, %ymm7, %ymm9
	vpslld	$20, %ymm7, %ymm7
	vpor	%ymm7, %ymm9, %ymm7
	vpaddd	480(%rsp), %ymm15, %ymm9
	vpaddd	%ymm11, %ymm9, %ymm10
	vpxor	128(%rsp), %ymm10, %ymm9
	vpshufb	%ymm13, %ymm9, %ymm15
	vpaddd	32(%rsp), %ymm15, %ymm9
	vmovdqa	%ymm9, 32(%rsp)
	vpxor	%ymm11, %ymm9, %ymm9
	vpsrld	$12, %ymm9, %ymm11
	vpslld	$20, %ymm9, %ymm9
	vpor	%ymm11, %ymm9, %ymm9
	vpaddd	704(%rsp), %ymm5, %ymm5
	vpaddd	%ymm0, %ymm5, %ymm5
	vmovdqa	%ymm5, 96(%rsp)
	vpxor	%ymm5, %ymm3, %ymm3
	vbroadcasti128	.LCPI8_6(%rip), %ymm13
	vpshufb	%ymm13, %ymm3, %ymm3
	vmovdqa	%ymm3, 128(%rsp)
	vpaddd	%ymm3, %ymm1, %ymm5
	vpxor	%ymm0, %ymm5, %ymm0
	vpsrld	$7, %ymm0, %ymm1
	vpslld	$25, %ymm0, %ymm0
	vpor	%ymm1, %ymm0, %ymm3
	vpaddd	736(%rsp), %ymm4, %ymm0
	vpaddd	%ymm2, %ymm0, %ymm0
	vpxor	%ymm0, %ymm14, %ymm4
	vpshufb	%ymm13, %ymm4, %ymm11
	vpaddd	%ymm6, %ymm11, %ymm1
	vmovdqa	%ymm1, 64(%rsp)
	vpxor	%ymm2, %ymm1, %ymm2
	vpsrld	$7, %ymm2, %ymm4
	vpslld	$25, %ymm2, %ymm2
	vpor	%ymm4, %ymm2, %ymm6
	vpaddd	544(%rsp), %ymm12, %ymm2
	vpaddd	%ymm7, %ymm2, %ymm12
	vpxor	%ymm12, %ymm8, %ymm2
	vpshufb	%ymm13, %ymm2, %ymm2
	vpaddd	160(%rsp), %ymm2, %ymm1
	vpxor	%ymm7, %ymm1, %ymm4
	vpsrld	$7, %ymm4, %ymm7
	vpslld	$25, %ymm4, %ymm4
	vpor	%ymm7, %ymm4, %ymm7
	vpaddd	640(%rsp), %ymm10, %ymm4
	vpaddd	%ymm4, %ymm9, %ymm4
	vpxor	%ymm4, %ymm15, %ymm8
	vpshufb	%ymm13, %ymm8, %ymm13
	vpaddd	32(%rsp), %ymm13, %ymm8
	vpxor	%ymm9, %ymm8, %ymm9
	vpsrld	$7, %ymm9, %ymm10
	vpslld	$25, %ymm9, %ymm9
	vpor	%ymm10, %ymm9, %ymm10
	vpaddd	448(%rsp), %ymm0, %ymm0
	vpaddd	%ymm3, %ymm0, %ymm0
	vmovdqa	%ymm0, 192(%rsp)
	vpxor	%ymm0, %ymm13, %ymm9
	vmovdqa	.LCPI8_0(%rip), %ymm0
	vpshufb	%ymm0, %ymm9, %ymm14
	vpaddd	%ymm1, %ymm14, %ymm9
	vpxor	%ymm3, %ymm9, %ymm1
	vpsrld	$12, %ymm1, %ymm3
	vpslld	$20, %ymm1, %ymm1
	vpor	%ymm3, %ymm1, %ymm1
	vpaddd	608(%rsp), %ymm4, %ymm3
	vpaddd	%ymm6, %ymm3, %ymm4
	vpxor	%ymm4, %ymm2, %ymm2
	vpshufb	%ymm0, %ymm2, %ymm13
	vpaddd	%ymm5, %ymm13, %ymm2
	vmovdqa	%ymm2, 32(%rsp)
	vpxor	%ymm6, %ymm2, %ymm2
	vpsrld	$12, %ymm2, %ymm3
	vpslld	$20, %ymm2, %ymm2
	vpor	%ymm3, %ymm2, %ymm2
	vmovdqa	96(%rsp), %ymm3
	vpaddd	384(%rsp), %ymm3, %ymm3
	vpaddd	%ymm7, %ymm3, %ymm6
	vpxor	%ymm6, %ymm11, %ymm3
	vpshufb	%ymm0, %ymm3, %ymm15
	vpaddd	%ymm15, %ymm8, %ymm3
	vmovdqa	%ymm3, 160(%rsp)
	vpxor	%ymm7, %ymm3, %ymm3
	vpsrld	$12, %ymm3, %ymm5
	vpslld	$20, %ymm3, %ymm3
	vpor	%ymm5, %ymm3, %ymm5
	vpaddd	288(%rsp), %ymm12, %ymm3
	vpaddd	%ymm3, %ymm10, %ymm12
	vpxor	128(%rsp), %ymm12, %ymm3
	vpshufb	%ymm0, %ymm3, %ymm11
	vpaddd	64(%rsp), %ymm11, %ymm0
	vmovdqa	%ymm0, 224(%rsp)
	vpxor	%ymm0, %ymm10, %ymm7
	vpsrld	$12, %ymm7, %ymm8
	vpslld	$20, %ymm7, %ymm7
	vpor	%ymm7, %ymm8, %ymm7
	vmovdqa	192(%rsp), %ymm0
	vpaddd	256(%rsp), %ymm0, %ymm0
	vpaddd	%ymm1, %ymm0, %ymm3
	vpxor	%ymm3, %ymm14, %ymm0
	vmovdqa	%ymm3, %ymm14
	vbroadcasti128	.LCPI8_6(%rip), %ymm10
	vpshufb	%ymm10, %ymm0, %ymm0
	vmovdqa	%ymm0, 128(%rsp)
	vpaddd	%ymm0, %ymm9, %ymm0
	vmovdqa	%ymm0, 96(%rsp)
	vpxor	%ymm1, %ymm0, %ymm0
	vpsrld	$7, %ymm0, %ymm1
	vpslld	$25, %ymm0, %ymm0
	vpor	%ymm1, %ymm0, %ymm3
	vpaddd	320(%rsp), %ymm4, %ymm1
	vpaddd	%ymm2, %ymm1, %ymm0
	vmovdqa	%ymm0, 64(%rsp)
	vpxor	%ymm0, %ymm13, %ymm1
	vpshufb	%ymm10, %ymm1, %ymm13
	vpaddd	32(%rsp), %ymm13, %ymm4
	vpxor	%ymm2, %ymm4, %ymm1
	vpsrld	$7, %ymm1, %ymm2
	vpslld	$25, %ymm1, %ymm1
	vpor	%ymm2, %ymm1, %ymm9
	vpaddd	416(%rsp), %ymm6, %ymm1
	vpaddd	%ymm5, %ymm1, %ymm0
	vpxor	%ymm0, %ymm15, %ymm1
	vpshufb	%ymm10, %ymm1, %ymm1
	vpaddd	160(%rsp), %ymm1, %ymm6
	vpxor	%ymm5, %ymm6, %ymm2
	vpsrld	$7, %ymm2, %ymm5
	vpslld	$25, %ymm2, %ymm2
	vpor	%ymm5, %ymm2, %ymm5
	vpaddd	352(%rsp), %ymm12, %ymm2
	vpaddd	%ymm7, %ymm2, %ymm2
	vpxor	%ymm2, %ymm11, %ymm8
	vpshufb	%ymm10, %ymm8, %ymm10
	vpaddd	224(%rsp), %ymm10, %ymm8
	vpxor	%ymm7, %ymm8, %ymm7
	vpsrld	$7, %ymm7, %ymm11
	vpslld	$25, %ymm7, %ymm7
	vpor	%ymm7, %ymm11, %ymm11
	vpaddd	704(%rsp), %ymm0, %ymm0
	vpaddd	%ymm3, %ymm0, %ymm7
	vpxor	%ymm7, %ymm10, %ymm0
	vmovdqa	.LCPI8_0(%rip), %ymm12
	vpshufb	%ymm12, %ymm0, %ymm10
	vpaddd	%ymm4, %ymm10, %ymm0
	vmovdqa	%ymm0, 224(%rsp)
	vpxor	%ymm3, %ymm0, %ymm0
	vpsrld	$12, %ymm0, %ymm3
	vpslld	$20, %ymm0, %ymm0
	vpor	%ymm3, %ymm0, %ymm0
	vpaddd	576(%rsp), %ymm14, %ymm3
	vpaddd	%ymm3, %ymm9, %ymm4
	vpxor	%ymm4, %ymm1, %ymm1
	vpshufb	%ymm12, %ymm1, %ymm15
	vmovdqa	%ymm12, %ymm14
	vpaddd	%ymm15, %ymm8, %ymm1
	vmovdqa	%ymm1, 32(%rsp)
	vpxor	%ymm1, %ymm9, %ymm1
	vpsrld	$12, %ymm1, %ymm3
	vpslld	$20, %ymm1, %ymm1
	vpor	%ymm3, %ymm1, %ymm1
	vpaddd	640(%rsp), %ymm2, %ymm2
	vpaddd	%ymm5, %ymm2, %ymm12
	vpxor	%ymm12, %ymm13, %ymm2
	vpshufb	%ymm14, %ymm2, %ymm3
	vpaddd	96(%rsp), %ymm3, %ymm2
	vmovdqa	%ymm2, 160(%rsp)
	vpxor	%ymm5, %ymm2, %ymm5
	vpsrld	$12, %ymm5, %ymm9
	vpslld	$20, %ymm5, %ymm5
	vpor	%ymm5, %ymm9, %ymm5
	vmovdqa	64(%rsp), %ymm2
	vpaddd	672(%rsp), %ymm2, %ymm9
	vpaddd	%ymm11, %ymm9, %ymm13
	vpxor	128(%rsp), %ymm13, %ymm9
	vpshufb	%ymm14, %ymm9, %ymm8
	vpaddd	%ymm6, %ymm8, %ymm9
	vpxor	%ymm11, %ymm9, %ymm6
	vpsrld	$12, %ymm6, %ymm11
	vpslld	$20, %ymm6, %ymm6
	vpor	%ymm6, %ymm11, %ymm6
	vpaddd	384(%rsp), %ymm7, %ymm7
	vpaddd	%ymm0, %ymm7, %ymm2
	vmovdqa	%ymm2, 96(%rsp)
	vpxor	%ymm2, %ymm10, %ymm7
	vbroadcasti128	.LCPI8_6(%rip), %ymm10
	vpshufb	%ymm10, %ymm7, %ymm2
	vmovdqa	%ymm2, 128(%rsp)
	vpaddd	224(%rsp), %ymm2, %ymm11
	vpxor	%ymm0, %ymm11, %ymm0
	vpsrld	$7, %ymm0, %ymm7
	vpslld	$25, %ymm0, %ymm0
	vpor	%ymm7, %ymm0, %ymm2
	vpaddd	480(%rsp), %ymm4, %ymm4
	vpaddd	%ymm1, %ymm4, %ymm0
	vpxor	%ymm0, %ymm15, %ymm4
	vpshufb	%ymm10, %ymm4, %ymm7
	vpaddd	32(%rsp), %ymm7, %ymm4
	vmovdqa	%ymm4, 64(%rsp)
	vpxor	%ymm1, %ymm4, %ymm1
	vpsrld	$7, %ymm1, %ymm4
	vpslld	$25, %ymm1, %ymm1
	vpor	%ymm4, %ymm1, %ymm15
	vpaddd	512(%rsp), %ymm12, %ymm1
	vpaddd	%ymm5, %ymm1, %ymm12
	vpxor	%ymm3, %ymm12, %ymm1
	vpshufb	%ymm10, %ymm1, %ymm1
	vpaddd	160(%rsp), %ymm1, %ymm3
	vpxor	%ymm5, %ymm3, %ymm4
	vpsrld	$7, %ymm4, %ymm5
	vpslld	$25, %ymm4, %ymm4
	vpor	%ymm5, %ymm4, %ymm5
	vpaddd	352(%rsp), %ymm13, %ymm4
	vpaddd	%ymm6, %ymm4, %ymm4
	vpxor	%ymm4, %ymm8, %ymm8
	vpshufb	%ymm10, %ymm8, %ymm8
	vpaddd	%ymm8, %ymm9, %ymm10
	vpxor	%ymm6, %ymm10, %ymm6
	vpsrld	$7, %ymm6, %ymm9
	vpslld	$25, %ymm6, %ymm6
	vpor	%ymm6, %ymm9, %ymm6
	vpaddd	736(%rsp), %ymm0, %ymm0
	vpaddd	%ymm2, %ymm0, %ymm9
	vpxor	%ymm9, %ymm8, %ymm0
	vmovdqa	%ymm14, %ymm8
	vpshufb	%ymm14, %ymm0, %ymm14
	vpaddd	%ymm3, %ymm14, %ymm0
	vmovdqa	%ymm0, 160(%rsp)
	vpxor	%ymm2, %ymm0, %ymm0
	vpsrld	$12, %ymm0, %ymm2
	vpslld	$20, %ymm0, %ymm0
	vpor	%ymm2, %ymm0, %ymm0
	vpaddd	320(%rsp), %ymm4, %ymm2
	vpaddd	%ymm2, %ymm15, %ymm4
	vpxor	%ymm4, %ymm1, %ymm1
	vpshufb	%ymm8, %ymm1, %ymm13
	vmovdqa	%ymm8, %ymm3
	vpaddd	%ymm13, %ymm11, %ymm1
	vmovdqa	%ymm1, 32(%rsp)
	vpxor	%ymm1, %ymm15, %ymm1
	vpsrld	$12, %ymm1, %ymm2
	vpslld	$20, %ymm1, %ymm1
	vpor	%ymm2, %ymm1, %ymm1
	vmovdqa	96(%rsp), %ymm2
	vpaddd	288(%rsp), %ymm2, %ymm2
	vpaddd	%ymm5, %ymm2, %ymm8
	vpxor	%ymm7, %ymm8, %ymm2
	vpshufb	%ymm3, %ymm2, %ymm15
	vmovdqa	%ymm3, %ymm7
	vpaddd	%ymm15, %ymm10, %ymm10
	vpxor	%ymm5, %ymm10, %ymm2
	vpsrld	$12, %ymm2, %ymm3
	vpslld	$20, %ymm2, %ymm2
	vpor	%ymm3, %ymm2, %ymm5
	vpaddd	256(%rsp), %ymm12, %ymm2
	vpaddd	%ymm6, %ymm2, %ymm12
	vpxor	128(%rsp), %ymm12, %ymm2
	vpshufb	%ymm7, %ymm2, %ymm3
	vpaddd	64(%rsp), %ymm3, %ymm11
	vpxor	%ymm6, %ymm11, %ymm2
	vpsrld	$12, %ymm2, %ymm6
	vpslld	$20, %ymm2, %ymm2
	vpor	%ymm6, %ymm2, %ymm7
	vpaddd	416(%rsp), %ymm9, %ymm2
	vpaddd	%ymm0, %ymm2, %ymm2
	vmovdqa	%ymm2, 64(%rsp)
	vpxor	%ymm2, %ymm14, %ymm6
	vbroadcasti128	.LCPI8_6(%rip), %ymm9
	vpshufb	%ymm9, %ymm6, %ymm2
	vmovdqa	%ymm2, 128(%rsp)
	vpaddd	160(%rsp), %ymm2, %ymm2
	vmovdqa	%ymm2, 96(%rsp)
	vpxor	%ymm0, %ymm2, %ymm0
	vpsrld	$7, %ymm0, %ymm6
	vpslld	$25, %ymm0, %ymm0
	vpor	%ymm6, %ymm0, %ymm2
	vpaddd	448(%rsp), %ymm4, %ymm4
	vpaddd	%ymm1, %ymm4, %ymm14
	vpxor	%ymm14, %ymm13, %ymm4
	vpshufb	%ymm9, %ymm4, %ymm13
	vpaddd	32(%rsp), %ymm13, %ymm4
	vpxor	%ymm1, %ymm4, %ymm1
	vpsrld	$7, %ymm1, %ymm6
	vpslld	$25, %ymm1, %ymm1
	vpor	%ymm6, %ymm1, %ymm6
	vpaddd	544(%rsp), %ymm8, %ymm1
	vpaddd	%ymm5, %ymm1, %ymm0
	vpxor	%ymm0, %ymm15, %ymm1
	vpshufb	%ymm9, %ymm1, %ymm1
	vpaddd	%ymm1, %ymm10, %ymm8
	vmovdqa	%ymm8, 32(%rsp)
	vpxor	%ymm5, %ymm8, %ymm5
	vpsrld	$7, %ymm5, %ymm8
	vpslld	$25, %ymm5, %ymm5
	vpor	%ymm5, %ymm8, %ymm5
	vpaddd	608(%rsp), %ymm12, %ymm8
	vpaddd	%ymm7, %ymm8, %ymm12
	vpxor	%ymm3, %ymm12, %ymm3
	vpshufb	%ymm9, %ymm3, %ymm3
	vpaddd	%ymm3, %ymm11, %ymm8
	vpxor	%ymm7, %ymm8, %ymm7
	vpsrld	$7, %ymm7, %ymm10
	vpslld	$25, %ymm7, %ymm7
	vpor	%ymm7, %ymm10, %ymm10
	vpaddd	384(%rsp), %ymm0, %ymm0
	vpaddd	%ymm2, %ymm0, %ymm7
	vpxor	%ymm7, %ymm3, %ymm0
	vmovdqa	.LCPI8_0(%rip), %ymm11
	vpshufb	%ymm11, %ymm0, %ymm3
	vpaddd	%ymm3, %ymm4, %ymm0
	vmovdqa	%ymm0, 160(%rsp)
	vpxor	%ymm2, %ymm0, %ymm0
	vpsrld	$12, %ymm0, %ymm2
	vpslld	$20, %ymm0, %ymm0
	vpor	%ymm2, %ymm0, %ymm0
	vmovdqa	64(%rsp), %ymm2
	vpaddd	704(%rsp), %ymm2, %ymm2
	vpaddd	%ymm6, %ymm2, %ymm4
	vpxor	%ymm4, %ymm1, %ymm1
	vpshufb	%ymm11, %ymm1, %ymm15
	vpaddd	%ymm15, %ymm8, %ymm8
	vpxor	%ymm6, %ymm8, %ymm1
	vpsrld	$12, %ymm1, %ymm2
	vpslld	$20, %ymm1, %ymm1
	vpor	%ymm2, %ymm1, %ymm1
	vpaddd	352(%rsp), %ymm12, %ymm2
	vpaddd	%ymm5, %ymm2, %ymm12
	vpxor	%ymm12, %ymm13, %ymm2
	vpshufb	%ymm11, %ymm2, %ymm2
	vmovdqa	%ymm11, %ymm6
	vpaddd	96(%rsp), %ymm2, %ymm9
	vpxor	%ymm5, %ymm9, %ymm5
	vpsrld	$12, %ymm5, %ymm11
	vpslld	$20, %ymm5, %ymm5
	vpor	%ymm5, %ymm11, %ymm5
	vpaddd	640(%rsp), %ymm14, %ymm11
	vpaddd	%ymm10, %ymm11, %ymm13
	vpxor	128(%rsp), %ymm13, %ymm11
	vpshufb	%ymm6, %ymm11, %ymm14
	vpaddd	32(%rsp), %ymm14, %ymm11
	vpxor	%ymm10, %ymm11, %ymm6
	vpsrld	$12, %ymm6, %ymm10
	vpslld	$20, %ymm6, %ymm6
	vpor	%ymm6, %ymm10, %ymm6
	vpaddd	288(%rsp), %ymm7, %ymm7
	vpaddd	%ymm0, %ymm7, %ymm7
	vmovdqa	%ymm7, 96(%rsp)
	vpxor	%ymm7, %ymm3, %ymm3
	vbroadcasti128	.LCPI8_6(%rip), %ymm10
	vpshufb	%ymm10, %ymm3, %ymm3
	vmovdqa	%ymm3, 128(%rsp)
	vpaddd	160(%rsp), %ymm3, %ymm3
	vmovdqa	%ymm3, 32(%rsp)
	vpxor	%ymm0, %ymm3, %ymm0
	vpsrld	$7, %ymm0, %ymm3
	vpslld	$25, %ymm0, %ymm0
	vpor	%ymm3, %ymm0, %ymm0
	vpaddd	672(%rsp), %ymm4, %ymm3
	vpaddd	%ymm1, %ymm3, %ymm7
	vpxor	%ymm7, %ymm15, %ymm3
	vpshufb	%ymm10, %ymm3, %ymm3
	vpaddd	%ymm3, %ymm8, %ymm4
	vmovdqa	%ymm4, 64(%rsp)
	vpxor	%ymm1, %ymm4, %ymm1
	vpsrld	$7, %ymm1, %ymm4
	vpslld	$25, %ymm1, %ymm1
	vpor	%ymm4, %ymm1, %ymm15
	vpaddd	576(%rsp), %ymm12, %ymm1
	vpaddd	%ymm5, %ymm1, %ymm12
	vpxor	%ymm2, %ymm12, %ymm1
	vpshufb	%ymm10, %ymm1, %ymm1
	vpaddd	%ymm1, %ymm9, %ymm8
	vpxor	%ymm5, %ymm8, %ymm2
	vpsrld	$7, %ymm2, %ymm4
	vpslld	$25, %ymm2, %ymm2
	vpor	%ymm4, %ymm2, %ymm5
	vpaddd	608(%rsp), %ymm13, %ymm2
	vpaddd	%ymm6, %ymm2, %ymm4
	vpxor	%ymm4, %ymm14, %ymm2
	vpshufb	%ymm10, %ymm2, %ymm9
	vpaddd	%ymm9, %ymm11, %ymm11
	vpxor	%ymm6, %ymm11, %ymm2
	vpsrld	$7, %ymm2, %ymm6
	vpslld	$25, %ymm2, %ymm2
	vpor	%ymm6, %ymm2, %ymm6
	vpaddd	480(%rsp), %ymm7, %ymm2
	vpaddd	%ymm0, %ymm2, %ymm10
	vpxor	%ymm10, %ymm9, %ymm7
	vmovdqa	.LCPI8_0(%rip), %ymm13
	vpshufb	%ymm13, %ymm7, %ymm14
	vpaddd	%ymm14, %ymm8, %ymm9
	vpxor	%ymm0, %ymm9, %ymm0
	vpsrld	$12, %ymm0, %ymm7
	vpslld	$20, %ymm0, %ymm0
	vpor	%ymm7, %ymm0, %ymm2
	vpaddd	448(%rsp), %ymm4, %ymm4
	vpaddd	%ymm4, %ymm15, %ymm4
	vpxor	%ymm4, %ymm1, %ymm1
	vmovdqa	%ymm13, %ymm0
	vpshufb	%ymm13, %ymm1, %ymm13
	vpaddd	32(%rsp), %ymm13, %ymm8
	vpxor	%ymm15, %ymm8, %ymm1
	vpsrld	$12, %ymm1, %ymm7
	vpslld	$20, %ymm1, %ymm1
	vpor	%ymm7, %ymm1, %ymm1
	vmovdqa	96(%rsp), %ymm7
	vpaddd	256(%rsp), %ymm7, %ymm7
	vpaddd	%ymm5, %ymm7, %ymm7
	vpxor	%ymm7, %ymm3, %ymm3
	vpshufb	%ymm0, %ymm3, %ymm15
	vpaddd	%ymm15, %ymm11, %ymm3
	vmovdqa	%ymm3, 32(%rsp)
	vpxor	%ymm5, %ymm3, %ymm3
	vpsrld	$12, %ymm3, %ymm5
	vpslld	$20, %ymm3, %ymm3
	vpor	%ymm5, %ymm3, %ymm5
	vpaddd	416(%rsp), %ymm12, %ymm3
	vpaddd	%ymm6, %ymm3, %ymm12
	vpxor	128(%rsp), %ymm12, %ymm3
	vpshufb	%ymm0, %ymm3, %ymm3
	vpaddd	64(%rsp), %ymm3, %ymm11
	vpxor	%ymm6, %ymm11, %ymm6
	vpsrld	$12, %ymm6, %ymm0
	vpslld	$20, %ymm6, %ymm6
	vpor	%ymm0, %ymm6, %ymm6
	vpaddd	544(%rsp), %ymm10, %ymm0
	vpaddd	%ymm2, %ymm0, %ymm0
	vmovdqa	%ymm0, 64(%rsp)
	vpxor	%ymm0, %ymm14, %ymm0
	vbroadcasti128	.LCPI8_6(%rip), %ymm10
	vpshufb	%ymm10, %ymm0, %ymm0
	vmovdqa	%ymm0, 128(%rsp)
	vpaddd	%ymm0, %ymm9, %ymm0
	vmovdqa	%ymm0, 96(%rsp)
	vpxor	%ymm2, %ymm0, %ymm0
	vpsrld	$7, %ymm0, %ymm2
	vpslld	$25, %ymm0, %ymm0
	vpor	%ymm2, %ymm0, %ymm9
	vpaddd	736(%rsp), %ymm4, %ymm0
	vpaddd	%ymm1, %ymm0, %ymm14
	vpxor	%ymm14, %ymm13, %ymm0
	vpshufb	%ymm10, %ymm0, %ymm2
	vpaddd	%ymm2, %ymm8, %ymm0
	vpxor	%ymm1, %ymm0, %ymm1
	vpsrld	$7, %ymm1, %ymm4
	vpslld	$25, %ymm1, %ymm1
	vpor	%ymm4, %ymm1, %ymm8
	vpaddd	512(%rsp), %ymm7, %ymm1
	vpaddd	%ymm5, %ymm1, %ymm4
	vpxor	%ymm4, %ymm15, %ymm1
	vpshufb	%ymm10, %ymm1, %ymm7
	vpaddd	32(%rsp), %ymm7, %ymm1
	vmovdqa	%ymm1, 32(%rsp)
	vpxor	%ymm5, %ymm1, %ymm1
	vpsrld	$7, %ymm1, %ymm5
	vpslld	$25, %ymm1, %ymm1
	vpor	%ymm5, %ymm1, %ymm5
	vpaddd	320(%rsp), %ymm12, %ymm1
	vpaddd	%ymm6, %ymm1, %ymm1
	vpxor	%ymm1, %ymm3, %ymm3
	vpshufb	%ymm10, %ymm3, %ymm12
	vpaddd	%ymm12, %ymm11, %ymm11
	vpxor	%ymm6, %ymm11, %ymm3
	vpsrld	$7, %ymm3, %ymm6
	vpslld	$25, %ymm3, %ymm3
	vpor	%ymm6, %ymm3, %ymm3
	vpaddd	288(%rsp), %ymm4, %ymm4
	vpaddd	%ymm4, %ymm9, %ymm6
	vpxor	%ymm6, %ymm12, %ymm4
	vmovdqa	.LCPI8_0(%rip), %ymm12
	vpshufb	%ymm12, %ymm4, %ymm15
	vpaddd	%ymm0, %ymm15, %ymm0
	vmovdqa	%ymm0, 192(%rsp)
	vpxor	%ymm0, %ymm9, %ymm0
	vpsrld	$12, %ymm0, %ymm4
	vpslld	$20, %ymm0, %ymm0
	vpor	%ymm4, %ymm0, %ymm0
	vmovdqa	64(%rsp), %ymm4
	vpaddd	384(%rsp), %ymm4, %ymm4
	vpaddd	%ymm4, %ymm8, %ymm4
	vpxor	%ymm4, %ymm7, %ymm7
	vpshufb	%ymm12, %ymm7, %ymm13
	vpaddd	%ymm13, %ymm11, %ymm9
	vpxor	%ymm8, %ymm9, %ymm7
	vpsrld	$12, %ymm7, %ymm8
	vpslld	$20, %ymm7, %ymm7
	vpor	%ymm7, %ymm8, %ymm8
	vpaddd	608(%rsp), %ymm1, %ymm1
	vpaddd	%ymm5, %ymm1, %ymm11
	vpxor	%ymm2, %ymm11, %ymm1
	vpshufb	%ymm12, %ymm1, %ymm7
	vpaddd	96(%rsp), %ymm7, %ymm1
	vmovdqa	%ymm1, 160(%rsp)
	vpxor	%ymm5, %ymm1, %ymm1
	vpsrld	$12, %ymm1, %ymm2
	vpslld	$20, %ymm1, %ymm1
	vpor	%ymm2, %ymm1, %ymm2
	vpaddd	352(%rsp), %ymm14, %ymm1
	vpaddd	%ymm3, %ymm1, %ymm10
	vpxor	128(%rsp), %ymm10, %ymm1
	vpshufb	%ymm12, %ymm1, %ymm14
	vpaddd	32(%rsp), %ymm14, %ymm1
	vmovdqa	%ymm1, 224(%rsp)
	vpxor	%ymm3, %ymm1, %ymm1
	vpsrld	$12, %ymm1, %ymm3
	vpslld	$20, %ymm1, %ymm1
	vpor	%ymm3, %ymm1, %ymm1
	vpaddd	256(%rsp), %ymm6, %ymm3
	vpaddd	%ymm0, %ymm3, %ymm3
	vmovdqa	%ymm3, 96(%rsp)
	vpxor	%ymm3, %ymm15, %ymm3
	vbroadcasti128	.LCPI8_6(%rip), %ymm15
	vpshufb	%ymm15, %ymm3, %ymm3
	vmovdqa	%ymm3, 128(%rsp)
	vpaddd	192(%rsp), %ymm3, %ymm3
	vmovdqa	%ymm3, 32(%rsp)
	vpxor	%ymm0, %ymm3, %ymm0
	vpsrld	$7, %ymm0, %ymm3
	vpslld	$25, %ymm0, %ymm0
	vpor	%ymm3, %ymm0, %ymm3
	vpaddd	640(%rsp), %ymm4, %ymm0
	vpaddd	%ymm0, %ymm8, %ymm6
	vpxor	%ymm6, %ymm13, %ymm0
	vpshufb	%ymm15, %ymm0, %ymm4
	vpaddd	%ymm4, %ymm9, %ymm0
	vmovdqa	%ymm0, 64(%rsp)
	vpxor	%ymm0, %ymm8, %ymm0
	vpsrld	$7, %ymm0, %ymm5
	vpslld	$25, %ymm0, %ymm0
	vpor	%ymm5, %ymm0, %ymm8
	vpaddd	704(%rsp), %ymm11, %ymm0
	vpaddd	%ymm2, %ymm0, %ymm0
	vmovdqa	%ymm0, 192(%rsp)
	vpxor	%ymm0, %ymm7, %ymm0
	vpshufb	%ymm15, %ymm0, %ymm7
	vmovdqa	%ymm15, %ymm5
	vpaddd	160(%rsp), %ymm7, %ymm15
	vpxor	%ymm2, %ymm15, %ymm0
	vpsrld	$7, %ymm0, %ymm2
	vpslld	$25, %ymm0, %ymm0
	vpor	%ymm2, %ymm0, %ymm9
	vpaddd	320(%rsp), %ymm10, %ymm0
	vpaddd	%ymm1, %ymm0, %ymm2
	vpxor	%ymm2, %ymm14, %ymm0
	vpshufb	%ymm5, %ymm0, %ymm12
	vpaddd	224(%rsp), %ymm12, %ymm0
	vpxor	%ymm1, %ymm0, %ymm1
	vpsrld	$7, %ymm1, %ymm5
	vpslld	$25, %ymm1, %ymm1
	vpor	%ymm5, %ymm1, %ymm5
	vpaddd	672(%rsp), %ymm6, %ymm1
	vpaddd	%ymm3, %ymm1, %ymm11
	vpxor	%ymm11, %ymm12, %ymm1
	vmovdqa	.LCPI8_0(%rip), %ymm14
	vpshufb	%ymm14, %ymm1, %ymm13
	vpaddd	%ymm13, %ymm15, %ymm15
	vpxor	%ymm3, %ymm15, %ymm1
	vpsrld	$12, %ymm1, %ymm3
	vpslld	$20, %ymm1, %ymm1
	vpor	%ymm3, %ymm1, %ymm6
	vpaddd	736(%rsp), %ymm2, %ymm1
	vpaddd	%ymm1, %ymm8, %ymm10
	vpxor	%ymm7, %ymm10, %ymm1
	vpshufb	%ymm14, %ymm1, %ymm12
	vmovdqa	%ymm14, %ymm3
	vpaddd	32(%rsp), %ymm12, %ymm7
	vpxor	%ymm7, %ymm8, %ymm1
	vpsrld	$12, %ymm1, %ymm2
	vpslld	$20, %ymm1, %ymm1
	vpor	%ymm2, %ymm1, %ymm14
	vmovdqa	96(%rsp), %ymm1
	vpaddd	416(%rsp), %ymm1, %ymm1
	vpaddd	%ymm1, %ymm9, %ymm1
	vmovdqa	%ymm1, 224(%rsp)
	vpxor	%ymm1, %ymm4, %ymm1
	vpshufb	%ymm3, %ymm1, %ymm1
	vmovdqa	%ymm1, 160(%rsp)
	vpaddd	%ymm1, %ymm0, %ymm0
	vmovdqa	%ymm0, 32(%rsp)
	vpxor	%ymm0, %ymm9, %ymm0
	vpsrld	$12, %ymm0, %ymm1
	vpslld	$20, %ymm0, %ymm0
	vpor	%ymm1, %ymm0, %ymm9
	vmovdqa	192(%rsp), %ymm0
	vpaddd	544(%rsp), %ymm0, %ymm0
	vpaddd	%ymm5, %ymm0, %ymm2
	vpxor	128(%rsp), %ymm2, %ymm0
	vpshufb	%ymm3, %ymm0, %ymm4
	vpaddd	64(%rsp), %ymm4, %ymm8
	vpxor	%ymm5, %ymm8, %ymm0
	vpsrld	$12, %ymm0, %ymm1
	vpslld	$20, %ymm0, %ymm0
	vpor	%ymm1, %ymm0, %ymm3
	vpaddd	512(%rsp), %ymm11, %ymm0
	vpaddd	%ymm6, %ymm0, %ymm5
	vpxor	%ymm5, %ymm13, %ymm0
	vbroadcasti128	.LCPI8_6(%rip), %ymm13
	vpshufb	%ymm13, %ymm0, %ymm0
	vmovdqa	%ymm0, 96(%rsp)
	vpaddd	%ymm0, %ymm15, %ymm0
	vmovdqa	%ymm0, 128(%rsp)
	vpxor	%ymm6, %ymm0, %ymm0
	vpsrld	$7, %ymm0, %ymm6
	vpslld	$25, %ymm0, %ymm0
	vpor	%ymm6, %ymm0, %ymm11
	vpaddd	480(%rsp), %ymm10, %ymm0
	vpaddd	%ymm0, %ymm14, %ymm1
	vpxor	%ymm1, %ymm12, %ymm6
	vpshufb	%ymm13, %ymm6, %ymm12
	vpaddd	%ymm7, %ymm12, %ymm7
	vpxor	%ymm7, %ymm14, %ymm6
	vpsrld	$7, %ymm6, %ymm10
	vpslld	$25, %ymm6, %ymm6
	vpor	%ymm6, %ymm10, %ymm6
	vpaddd	448(%rsp), %ymm2, %ymm2
	vpaddd	%ymm3, %ymm2, %ymm15
	vpxor	%ymm4, %ymm15, %ymm2
	vpshufb	%ymm13, %ymm2, %ymm0
	vpaddd	%ymm0, %ymm8, %ymm10
	vpxor	%ymm3, %ymm10, %ymm2
	vpsrld	$7, %ymm2, %ymm3
	vpslld	$25, %ymm2, %ymm2
	vpor	%ymm3, %ymm2, %ymm2
	vpaddd	288(%rsp), %ymm5, %ymm3
	vmovdqa	%ymm3, 288(%rsp)
	vmovdqa	224(%rsp), %ymm3
	vpaddd	576(%rsp), %ymm3, %ymm3
	vpaddd	%ymm3, %ymm9, %ymm3
	vpxor	160(%rsp), %ymm3, %ymm4
	vpaddd	256(%rsp), %ymm3, %ymm5
	vpshufb	%ymm13, %ymm4, %ymm4
	vpaddd	32(%rsp), %ymm4, %ymm8
	vpxor	%ymm9, %ymm8, %ymm3
	vpsrld	$7, %ymm3, %ymm9
	vpslld	$25, %ymm3, %ymm3
	vpor	%ymm3, %ymm9, %ymm14
	vpaddd	320(%rsp), %ymm15, %ymm3
	vmovdqa	%ymm3, 64(%rsp)
	vpaddd	608(%rsp), %ymm1, %ymm1
	vpaddd	%ymm5, %ymm11, %ymm5
	vpxor	%ymm5, %ymm0, %ymm0
	vmovdqa	.LCPI8_0(%rip), %ymm13
	vpshufb	%ymm13, %ymm0, %ymm9
	vpaddd	%ymm7, %ymm9, %ymm0
	vmovdqa	%ymm0, 256(%rsp)
	vpxor	%ymm0, %ymm11, %ymm0
	vpsrld	$12, %ymm0, %ymm11
	vpslld	$20, %ymm0, %ymm0
	vpor	%ymm0, %ymm11, %ymm3
	vpaddd	%ymm2, %ymm1, %ymm15
	vpxor	96(%rsp), %ymm15, %ymm1
	vpshufb	%ymm13, %ymm1, %ymm11
	vpaddd	%ymm11, %ymm8, %ymm8
	vpxor	%ymm2, %ymm8, %ymm1
	vpsrld	$12, %ymm1, %ymm2
	vpslld	$20, %ymm1, %ymm1
	vpor	%ymm2, %ymm1, %ymm7
	vpaddd	288(%rsp), %ymm6, %ymm1
	vpxor	%ymm1, %ymm4, %ymm4
	vpaddd	352(%rsp), %ymm1, %ymm0
	vmovdqa	%ymm0, 352(%rsp)
	vpaddd	416(%rsp), %ymm5, %ymm0
	vmovdqa	%ymm13, %ymm1
	vpshufb	%ymm13, %ymm4, %ymm5
	vpaddd	%ymm5, %ymm10, %ymm2
	vmovdqa	%ymm2, 320(%rsp)
	vpxor	%ymm6, %ymm2, %ymm4
	vpsrld	$12, %ymm4, %ymm6
	vpslld	$20, %ymm4, %ymm4
	vpor	%ymm6, %ymm4, %ymm13
	vpaddd	64(%rsp), %ymm14, %ymm4
	vpxor	%ymm4, %ymm12, %ymm6
	vpshufb	%ymm1, %ymm6, %ymm10
	vpaddd	128(%rsp), %ymm10, %ymm6
	vpxor	%ymm6, %ymm14, %ymm12
	vpsrld	$12, %ymm12, %ymm14
	vpslld	$20, %ymm12, %ymm12
	vpor	%ymm14, %ymm12, %ymm14
	vpaddd	384(%rsp), %ymm4, %ymm12
	vpaddd	448(%rsp), %ymm15, %ymm1
	vpaddd	%ymm3, %ymm0, %ymm15
	vpxor	%ymm15, %ymm9, %ymm0
	vbroadcasti128	.LCPI8_6(%rip), %ymm2
	vpshufb	%ymm2, %ymm0, %ymm0
	vmovdqa	%ymm0, 384(%rsp)
	vpaddd	256(%rsp), %ymm0, %ymm0
	vmovdqa	%ymm0, 416(%rsp)
	vpxor	%ymm3, %ymm0, %ymm0
	vpsrld	$7, %ymm0, %ymm3
	vpslld	$25, %ymm0, %ymm0
	vpor	%ymm3, %ymm0, %ymm9
	vpaddd	%ymm7, %ymm1, %ymm1
	vpxor	%ymm1, %ymm11, %ymm0
	vpshufb	%ymm2, %ymm0, %ymm4
	vmovdqa	%ymm2, %ymm0
	vpaddd	%ymm4, %ymm8, %ymm2
	vmovdqa	%ymm2, 448(%rsp)
	vpxor	%ymm7, %ymm2, %ymm2
	vpsrld	$7, %ymm2, %ymm3
	vpslld	$25, %ymm2, %ymm2
	vpor	%ymm3, %ymm2, %ymm7
	vmovdqa	%ymm7, 256(%rsp)
	vpaddd	480(%rsp), %ymm1, %ymm1
	vpaddd	352(%rsp), %ymm13, %ymm2
	vpxor	%ymm2, %ymm5, %ymm3
	vpaddd	640(%rsp), %ymm2, %ymm5
	vpshufb	%ymm0, %ymm3, %ymm8
	vpaddd	320(%rsp), %ymm8, %ymm11
	vpxor	%ymm13, %ymm11, %ymm2
	vpsrld	$7, %ymm2, %ymm3
	vpslld	$25, %ymm2, %ymm2
	vpor	%ymm3, %ymm2, %ymm2
	vpaddd	%ymm14, %ymm12, %ymm3
	vpxor	%ymm3, %ymm10, %ymm10
	vpshufb	%ymm0, %ymm10, %ymm10
	vpaddd	%ymm6, %ymm10, %ymm0
	vpxor	%ymm0, %ymm14, %ymm6
	vpsrld	$7, %ymm6, %ymm12
	vpslld	$25, %ymm6, %ymm6
	vpor	%ymm6, %ymm12, %ymm12
	vpaddd	544(%rsp), %ymm15, %ymm6
	vpaddd	512(%rsp), %ymm3, %ymm13
	vpaddd	%ymm5, %ymm9, %ymm3
	vpaddd	%ymm2, %ymm1, %ymm1
	vpaddd	%ymm6, %ymm12, %ymm14
	vpaddd	%ymm7, %ymm13, %ymm13
	vpxor	%ymm1, %ymm10, %ymm5
	vmovdqa	.LCPI8_0(%rip), %ymm10
	vpshufb	%ymm10, %ymm5, %ymm5
	vpxor	%ymm3, %ymm4, %ymm4
	vpshufb	%ymm10, %ymm4, %ymm6
	vpxor	%ymm14, %ymm8, %ymm4
	vpshufb	%ymm10, %ymm4, %ymm8
	vpxor	384(%rsp), %ymm13, %ymm4
	vpshufb	%ymm10, %ymm4, %ymm10
	vpaddd	%ymm6, %ymm0, %ymm0
	vmovdqa	%ymm0, 480(%rsp)
	vpxor	%ymm0, %ymm9, %ymm0
	vpsrld	$12, %ymm0, %ymm4
	vpslld	$20, %ymm0, %ymm0
	vpor	%ymm4, %ymm0, %ymm15
	vpaddd	416(%rsp), %ymm5, %ymm0
	vmovdqa	%ymm0, 544(%rsp)
	vpxor	%ymm2, %ymm0, %ymm0
	vpsrld	$12, %ymm0, %ymm2
	vpslld	$20, %ymm0, %ymm0
	vpor	%ymm2, %ymm0, %ymm7
	vpaddd	%ymm10, %ymm11, %ymm0
	vmovdqa	%ymm0, 512(%rsp)
	vpxor	256(%rsp), %ymm0, %ymm0
	vpsrld	$12, %ymm0, %ymm2
	vpslld	$20, %ymm0, %ymm0
	vpor	%ymm2, %ymm0, %ymm11
	vpaddd	672(%rsp), %ymm1, %ymm1
	vpaddd	576(%rsp), %ymm3, %ymm2
	vpaddd	448(%rsp), %ymm8, %ymm0
	vmovdqa	%ymm0, 576(%rsp)
	vpxor	%ymm0, %ymm12, %ymm3
	vpsrld	$12, %ymm3, %ymm9
	vpslld	$20, %ymm3, %ymm3
	vpor	%ymm3, %ymm9, %ymm4
	vpaddd	704(%rsp), %ymm14, %ymm12
	vpaddd	736(%rsp), %ymm13, %ymm14
	vpaddd	%ymm2, %ymm15, %ymm13
	vpaddd	%ymm7, %ymm1, %ymm9
	vpaddd	%ymm4, %ymm12, %ymm1
	vpaddd	%ymm11, %ymm14, %ymm12
	vpxor	%ymm5, %ymm9, %ymm2
	vbroadcasti128	.LCPI8_6(%rip), %ymm0
	vpshufb	%ymm0, %ymm2, %ymm5
	vpxor	%ymm6, %ymm13, %ymm2
	vpshufb	%ymm0, %ymm2, %ymm6
	vpxor	%ymm1, %ymm8, %ymm2
	vpshufb	%ymm0, %ymm2, %ymm8
	vpxor	%ymm12, %ymm10, %ymm2
	vpshufb	%ymm0, %ymm2, %ymm2
	vpaddd	480(%rsp), %ymm6, %ymm10
	vpxor	%ymm15, %ymm10, %ymm14
	vpsrld	$7, %ymm14, %ymm15
	vpslld	$25, %ymm14, %ymm14
	vpor	%ymm15, %ymm14, %ymm14
	vpaddd	544(%rsp), %ymm5, %ymm15
	vpxor	%ymm7, %ymm15, %ymm7
	vpsrld	$7, %ymm7, %ymm0
	vpslld	$25, %ymm7, %ymm7
	vpor	%ymm0, %ymm7, %ymm3
	vpaddd	512(%rsp), %ymm2, %ymm7
	vpxor	%ymm7, %ymm11, %ymm11
	vpsrld	$7, %ymm11, %ymm0
	vpslld	$25, %ymm11, %ymm11
	vpor	%ymm0, %ymm11, %ymm0
	vpxor	%ymm7, %ymm13, %ymm13
	vpaddd	576(%rsp), %ymm8, %ymm7
	vpxor	%ymm4, %ymm7, %ymm4
	vpxor	%ymm1, %ymm15, %ymm11
	vpsrld	$7, %ymm4, %ymm1
	vpslld	$25, %ymm4, %ymm4
	vpor	%ymm1, %ymm4, %ymm1
	vpxor	%ymm12, %ymm10, %ymm4
	vpxor	%ymm7, %ymm9, %ymm7
	vpxor	%ymm2, %ymm14, %ymm2
	vpxor	%ymm3, %ymm8, %ymm3
	vpxor	%ymm5, %ymm1, %ymm1
	vpxor	%ymm6, %ymm0, %ymm0
	addq	$64, %rbx
	cmpq	$1024, %rbx
	jne	.LBB8_1
	movq	776(%rsp), %rax
	vmovdqu	%ymm13, (%rax)
	vmovdqu	%ymm11, 32(%rax)
	vmovdqu	%ymm4, 64(%rax)
	vmovdqu	%ymm7, 96(%rax)
	vmovdqu	%ymm3, 128(%rax)
	vmovdqu	%ymm2, 160(%rax)
	vmovdqu	%ymm1, 192(%rax)
	vmovdqu	%ymm0, 224(%rax)
	vmovaps	848(%rbp), %xmm6
	vmovaps	864(%rbp), %xmm7
	vmovaps	880(%rbp), %xmm8
	vmovaps	896(%rbp), %xmm9
	vmovaps	912(%rbp), %xmm10
	vmovaps	928(%rbp), %xmm11
	vmovaps	944(%rbp), %xmm12
	vmovaps	960(%rbp), %xmm13
	vmovaps	976(%rbp), %xmm14
	vmovaps	992(%rbp), %xmm15
	leaq	1016(%rbp), %rsp
	popq	%rbx
	popq	%rdi
	popq	%rsi
	popq	%r12
	popq	%r13
	popq	%r14
	popq	%r15
	popq	%rbp
	vzeroupper
	retq
	.seh_endproc

	.section	.rdata,"dr"
	.p2align	2, 0x0
.LCPI9_0:
	.long	1779033703
	.section	.text
	.p2align	4
	.def	"keyed_blake3::compression::lanes::each_by_call::<=8>";
	.scl	3;
	.type	32;
	.endef
"keyed_blake3::compression::lanes::each_by_call::<=8>":
	vbroadcastss	.LCPI9_0(%rip), %ymm0
	vmovups	%ymm0, (%rcx)
	vzeroupper
	retq

	.section	.rdata,"dr"
	.p2align	5, 0x0
.LCPI10_0:
	.long	64
.LCPI10_1:
	.long	20
	.zero	24
.LCPI10_2:
	.quad	4
	.quad	5
	.quad	6
	.quad	7
.LCPI10_3:
	.quad	0
	.quad	1
	.quad	2
	.quad	3
	.section	.text
	.p2align	4
	.def	"keyed_blake3::subtrees::neighbour_values::<#a9687390e0dd665c>";
	.scl	3;
	.type	32;
	.endef
"keyed_blake3::subtrees::neighbour_values::<#a9687390e0dd665c>":
.seh_proc "keyed_blake3::subtrees::neighbour_values::<#a9687390e0dd665c>"
	pushq	%r15
	.seh_pushreg %r15
	pushq	%r14
	.seh_pushreg %r14
	pushq	%r13
	.seh_pushreg %r13
	pushq	%r12
	.seh_pushreg %r12
	pushq	%rsi
	.seh_pushreg %rsi
	pushq	%rdi
	.seh_pushreg %rdi
	pushq	%rbx
	.seh_pushreg %rbx
	subq	$1808, %rsp
	.seh_stackalloc 1808
	vmovaps	%xmm11, 1792(%rsp)
	.seh_savexmm %xmm11, 1792
	vmovaps	%xmm10, 1776(%rsp)
	.seh_savexmm %xmm10, 1776
	vmovaps	%xmm9, 1760(%rsp)
	.seh_savexmm %xmm9, 1760
	vmovaps	%xmm8, 1744(%rsp)
	.seh_savexmm %xmm8, 1744
	vmovaps	%xmm7, 1728(%rsp)
	.seh_savexmm %xmm7, 1728
	vmovaps	%xmm6, 1712(%rsp)
	.seh_savexmm %xmm6, 1712
	.seh_endprologue
	movq	%rcx, %rsi
	movq	1912(%rsp), %r12
	vxorps	%xmm0, %xmm0, %xmm0
	vmovups	%ymm0, 272(%rsp)
	vmovups	%ymm0, 240(%rsp)
	vmovups	%ymm0, 208(%rsp)
	vmovups	%ymm0, 176(%rsp)
	vmovups	%ymm0, 144(%rsp)
	vmovups	%ymm0, 112(%rsp)
	vmovups	%ymm0, 80(%rsp)
	movq	1904(%rsp), %r13
	vmovups	%ymm0, 48(%rsp)
	cmpq	$1, %r13
	jne	.LBB10_3
	vmovq	%r9, %xmm0
	vpbroadcastq	%xmm0, %ymm0
	vpaddq	.LCPI10_2(%rip), %ymm0, %ymm1
	vpaddq	.LCPI10_3(%rip), %ymm0, %ymm0
	vmovdqu	%ymm0, 1136(%rsp)
	vmovdqu	%ymm1, 1168(%rsp)
	movq	%r12, 32(%rsp)
	leaq	48(%rsp), %rcx
	leaq	1136(%rsp), %r9
	vzeroupper
	callq	"keyed_blake3::chunks::chunk_values::<#a9687390e0dd665c>"
	jmp	.LBB10_2
.LBB10_3:
	shrq	%r13
	movq	%r12, 40(%rsp)
	movq	%r13, 32(%rsp)
	leaq	304(%rsp), %rbx
	movq	%rbx, %rcx
	movq	%rdx, %rdi
	movq	%r8, %r14
	movq	%r9, %r15
	vzeroupper
	callq	"keyed_blake3::subtrees::neighbour_values::<#a9687390e0dd665c>"
	vmovups	304(%rsp), %ymm0
	vmovups	%ymm0, 816(%rsp)
	vmovups	336(%rsp), %ymm0
	vmovups	%ymm0, 848(%rsp)
	vmovups	368(%rsp), %ymm0
	vmovups	%ymm0, 880(%rsp)
	vmovups	400(%rsp), %ymm0
	vmovups	%ymm0, 912(%rsp)
	vmovups	432(%rsp), %ymm0
	vmovups	%ymm0, 944(%rsp)
	vmovups	464(%rsp), %ymm0
	vmovups	%ymm0, 976(%rsp)
	vmovups	496(%rsp), %ymm0
	vmovups	%ymm0, 1008(%rsp)
	vmovups	528(%rsp), %ymm0
	vmovups	%ymm0, 1040(%rsp)
	leaq	(%r15,%r13,8), %r9
	movq	%r12, 40(%rsp)
	movq	%r13, 32(%rsp)
	movq	%rbx, %rcx
	movq	%rdi, %rdx
	movq	%r14, %r8
	vzeroupper
	callq	"keyed_blake3::subtrees::neighbour_values::<#a9687390e0dd665c>"
	vmovups	304(%rsp), %ymm0
	vmovups	336(%rsp), %ymm1
	vmovups	368(%rsp), %ymm2
	vmovups	400(%rsp), %ymm3
	vmovups	432(%rsp), %ymm4
	vmovups	816(%rsp), %ymm5
	vshufps	$136, %ymm0, %ymm5, %ymm6
	vshufps	$221, %ymm0, %ymm5, %ymm0
	vmovups	848(%rsp), %ymm7
	vshufps	$136, %ymm1, %ymm7, %ymm5
	vshufps	$221, %ymm1, %ymm7, %ymm1
	vmovups	880(%rsp), %ymm8
	vshufps	$136, %ymm2, %ymm8, %ymm7
	vshufps	$221, %ymm2, %ymm8, %ymm2
	vmovups	912(%rsp), %ymm9
	vshufps	$136, %ymm3, %ymm9, %ymm8
	vshufps	$221, %ymm3, %ymm9, %ymm3
	vmovups	944(%rsp), %ymm10
	vshufps	$136, %ymm4, %ymm10, %ymm9
	vshufps	$221, %ymm4, %ymm10, %ymm4
	vmovups	464(%rsp), %ymm10
	vpermpd	$216, %ymm6, %ymm6
	vmovups	%ymm6, 1200(%rsp)
	vmovups	976(%rsp), %ymm11
	vshufps	$136, %ymm10, %ymm11, %ymm6
	vshufps	$221, %ymm10, %ymm11, %ymm10
	vpermpd	$216, %ymm5, %ymm5
	vmovups	%ymm5, 1232(%rsp)
	vpermpd	$216, %ymm7, %ymm5
	vmovups	%ymm5, 1264(%rsp)
	vmovups	496(%rsp), %ymm5
	vpermpd	$216, %ymm8, %ymm7
	vmovups	%ymm7, 1296(%rsp)
	vmovups	1008(%rsp), %ymm8
	vshufps	$136, %ymm5, %ymm8, %ymm7
	vshufps	$221, %ymm5, %ymm8, %ymm5
	vpermpd	$216, %ymm9, %ymm8
	vmovups	%ymm8, 1328(%rsp)
	vpermpd	$216, %ymm6, %ymm6
	vmovups	%ymm6, 1360(%rsp)
	vmovups	528(%rsp), %ymm6
	vpermpd	$216, %ymm7, %ymm7
	vmovups	%ymm7, 1392(%rsp)
	vmovups	1040(%rsp), %ymm8
	vshufps	$136, %ymm6, %ymm8, %ymm7
	vshufps	$221, %ymm6, %ymm8, %ymm6
	vpermpd	$216, %ymm7, %ymm7
	vmovups	%ymm7, 1424(%rsp)
	vpermpd	$216, %ymm0, %ymm0
	vpermpd	$216, %ymm1, %ymm1
	vpermpd	$216, %ymm2, %ymm2
	vpermpd	$216, %ymm3, %ymm3
	vpermpd	$216, %ymm4, %ymm4
	vpermpd	$216, %ymm10, %ymm7
	vpermpd	$216, %ymm5, %ymm5
	vpermpd	$216, %ymm6, %ymm6
	vmovups	%ymm0, 1456(%rsp)
	vmovups	%ymm1, 1488(%rsp)
	vmovups	%ymm2, 1520(%rsp)
	vmovups	%ymm3, 1552(%rsp)
	vmovups	%ymm4, 1584(%rsp)
	vmovups	%ymm7, 1616(%rsp)
	vmovups	%ymm5, 1648(%rsp)
	vmovups	%ymm6, 1680(%rsp)
	vbroadcastss	.LCPI10_0(%rip), %ymm0
	vmovups	%ymm0, 1104(%rsp)
	vbroadcastss	.LCPI10_1(%rip), %ymm0
	vmovups	%ymm0, 1072(%rsp)
	vbroadcastss	(%rdi), %ymm0
	vbroadcastss	4(%rdi), %ymm1
	vbroadcastss	8(%rdi), %ymm2
	vbroadcastss	12(%rdi), %ymm3
	vbroadcastss	16(%rdi), %ymm4
	vbroadcastss	20(%rdi), %ymm5
	vbroadcastss	24(%rdi), %ymm6
	vbroadcastss	28(%rdi), %ymm7
	vmovups	%ymm0, 560(%rsp)
	vmovups	%ymm1, 592(%rsp)
	vmovups	%ymm2, 624(%rsp)
	vmovups	%ymm3, 656(%rsp)
	vmovups	%ymm4, 688(%rsp)
	vmovups	%ymm5, 720(%rsp)
	vmovups	%ymm6, 752(%rsp)
	vmovups	%ymm7, 784(%rsp)
	leaq	560(%rsp), %rcx
	leaq	1200(%rsp), %rdx
	leaq	1104(%rsp), %r8
	leaq	1072(%rsp), %r9
	vzeroupper
	callq	"keyed_blake3::compression::lanes::take_in_each::<#a9687390e0dd665c>"
	vmovups	560(%rsp), %ymm0
	vmovdqu	592(%rsp), %ymm1
	vmovups	624(%rsp), %ymm2
	vmovups	656(%rsp), %ymm3
	vmovups	%ymm0, 48(%rsp)
	vmovdqu	%ymm1, 80(%rsp)
	vmovups	%ymm2, 112(%rsp)
	vmovups	%ymm3, 144(%rsp)
	vmovups	688(%rsp), %ymm0
	vmovups	%ymm0, 176(%rsp)
	vmovups	720(%rsp), %ymm0
	vmovups	%ymm0, 208(%rsp)
	vmovups	752(%rsp), %ymm0
	vmovups	%ymm0, 240(%rsp)
	vmovdqu	784(%rsp), %ymm0
	vmovdqu	%ymm0, 272(%rsp)
.LBB10_2:
	vmovups	272(%rsp), %ymm0
	vmovups	%ymm0, 224(%rsi)
	vmovups	240(%rsp), %ymm0
	vmovups	%ymm0, 192(%rsi)
	vmovups	208(%rsp), %ymm0
	vmovups	%ymm0, 160(%rsi)
	vmovups	176(%rsp), %ymm0
	vmovups	%ymm0, 128(%rsi)
	vmovups	48(%rsp), %ymm0
	vmovups	80(%rsp), %ymm1
	vmovups	112(%rsp), %ymm2
	vmovups	144(%rsp), %ymm3
	vmovups	%ymm3, 96(%rsi)
	vmovups	%ymm2, 64(%rsi)
	vmovups	%ymm1, 32(%rsi)
	vmovups	%ymm0, (%rsi)
	vmovaps	1712(%rsp), %xmm6
	vmovaps	1728(%rsp), %xmm7
	vmovaps	1744(%rsp), %xmm8
	vmovaps	1760(%rsp), %xmm9
	vmovaps	1776(%rsp), %xmm10
	vmovaps	1792(%rsp), %xmm11
	addq	$1808, %rsp
	popq	%rbx
	popq	%rdi
	popq	%rsi
	popq	%r12
	popq	%r13
	popq	%r14
	popq	%r15
	vzeroupper
	retq
	.seh_endproc

	.section	.rdata,"dr"
	.p2align	5, 0x0
.LCPI11_0:
	.byte	2
	.byte	3
	.byte	0
	.byte	1
	.byte	6
	.byte	7
	.byte	4
	.byte	5
	.byte	10
	.byte	11
	.byte	8
	.byte	9
	.byte	14
	.byte	15
	.byte	12
	.byte	13
	.byte	18
	.byte	19
	.byte	16
	.byte	17
	.byte	22
	.byte	23
	.byte	20
	.byte	21
	.byte	26
	.byte	27
	.byte	24
	.byte	25
	.byte	30
	.byte	31
	.byte	28
	.byte	29
.LCPI11_1:
	.long	3144134277
.LCPI11_2:
	.long	1013904242
.LCPI11_3:
	.long	2773480762
	.zero	20
.LCPI11_4:
	.byte	1
	.byte	2
	.byte	3
	.byte	0
	.byte	5
	.byte	6
	.byte	7
	.byte	4
	.byte	9
	.byte	10
	.byte	11
	.byte	8
	.byte	13
	.byte	14
	.byte	15
	.byte	12
	.byte	1
	.byte	2
	.byte	3
	.byte	0
	.byte	5
	.byte	6
	.byte	7
	.byte	4
	.byte	9
	.byte	10
	.byte	11
	.byte	8
	.byte	13
	.byte	14
	.byte	15
	.byte	12
.LCPI11_5:
	.byte	1
	.byte	2
	.byte	3
	.byte	0
	.byte	5
	.byte	6
	.byte	7
	.byte	4
	.byte	9
	.byte	10
	.byte	11
	.byte	8
	.byte	13
	.byte	14
	.byte	15
	.byte	12
	.section	.text
	.p2align	4
	.def	"keyed_blake3::compression::lanes::take_in_each::<#a9687390e0dd665c>";
	.scl	3;
	.type	32;
	.endef
"keyed_blake3::compression::lanes::take_in_each::<#a9687390e0dd665c>":
.seh_proc "keyed_blake3::compression::lanes::take_in_each::<#a9687390e0dd665c>"
	pushq	%rbp
	.seh_pushreg %rbp
	pushq	%r14
	.seh_pushreg %r14
	pushq	%rsi
	.seh_pushreg %rsi
	pushq	%rdi
	.seh_pushreg %rdi
	pushq	%rbx
	.seh_pushreg %rbx
	subq	$944, %rsp
	.seh_stackalloc 944
	leaq	128(%rsp), %rbp
	.seh_setframe %rbp, 128
	vmovaps	%xmm15, 800(%rbp)
	.seh_savexmm %xmm15, 928
	vmovaps	%xmm14, 784(%rbp)
	.seh_savexmm %xmm14, 912
	vmovaps	%xmm13, 768(%rbp)
	.seh_savexmm %xmm13, 896
	vmovaps	%xmm12, 752(%rbp)
	.seh_savexmm %xmm12, 880
	vmovaps	%xmm11, 736(%rbp)
	.seh_savexmm %xmm11, 864
	vmovaps	%xmm10, 720(%rbp)
	.seh_savexmm %xmm10, 848
	vmovaps	%xmm9, 704(%rbp)
	.seh_savexmm %xmm9, 832
	vmovaps	%xmm8, 688(%rbp)
	.seh_savexmm %xmm8, 816
	vmovaps	%xmm7, 672(%rbp)
	.seh_savexmm %xmm7, 800
	vmovaps	%xmm6, 656(%rbp)
	.seh_savexmm %xmm6, 784
	.seh_endprologue
	andq	$-32, %rsp
	movq	%r9, %rbx
	movq	%r8, %r14
	movq	%rdx, %rdi
	movq	%rcx, %rsi
	vmovdqu	128(%rcx), %ymm3
	vmovdqa	%ymm3, 224(%rsp)
	vmovdqu	160(%rcx), %ymm2
	vmovdqa	%ymm2, 352(%rsp)
	vmovdqu	192(%rcx), %ymm1
	vmovdqa	%ymm1, 448(%rsp)
	vmovdqu	224(%rcx), %ymm0
	vmovdqa	%ymm0, 480(%rsp)
	vpaddd	(%rcx), %ymm3, %ymm3
	vmovdqa	%ymm3, 416(%rsp)
	vpaddd	32(%rcx), %ymm2, %ymm2
	vmovdqa	%ymm2, 384(%rsp)
	vpaddd	64(%rcx), %ymm1, %ymm1
	vmovdqa	%ymm1, 320(%rsp)
	vpaddd	96(%rcx), %ymm0, %ymm0
	vmovdqa	%ymm0, 640(%rsp)
	leaq	736(%rsp), %rcx
	vzeroupper
	callq	"keyed_blake3::compression::lanes::each_by_call::<=8>"
	vmovdqu	128(%rdi), %ymm0
	vmovdqa	%ymm0, 704(%rsp)
	vmovdqu	(%rdi), %ymm2
	vmovdqa	%ymm2, 512(%rsp)
	vmovdqu	64(%rdi), %ymm1
	vmovdqa	%ymm1, 672(%rsp)
	vpaddd	416(%rsp), %ymm2, %ymm11
	vpaddd	384(%rsp), %ymm1, %ymm2
	vmovdqa	%ymm2, 416(%rsp)
	vpaddd	320(%rsp), %ymm0, %ymm1
	vmovdqa	%ymm1, 384(%rsp)
	vmovdqa	.LCPI11_0(%rip), %ymm0
	vpshufb	%ymm0, %ymm11, %ymm4
	vpaddd	736(%rsp), %ymm4, %ymm7
	vpshufb	%ymm0, %ymm2, %ymm9
	vpxor	224(%rsp), %ymm7, %ymm2
	vpsrld	$12, %ymm2, %ymm3
	vpslld	$20, %ymm2, %ymm2
	vpor	%ymm3, %ymm2, %ymm13
	vpbroadcastd	.LCPI11_1(%rip), %ymm2
	vpaddd	%ymm2, %ymm9, %ymm2
	vpxor	352(%rsp), %ymm2, %ymm3
	vpsrld	$12, %ymm3, %ymm5
	vpslld	$20, %ymm3, %ymm3
	vpxor	(%r14), %ymm1, %ymm6
	vpor	%ymm5, %ymm3, %ymm8
	vmovdqa	%ymm0, %ymm1
	vpshufb	%ymm0, %ymm6, %ymm10
	vpbroadcastd	.LCPI11_2(%rip), %ymm3
	vpaddd	%ymm3, %ymm10, %ymm14
	vpxor	448(%rsp), %ymm14, %ymm3
	vpsrld	$12, %ymm3, %ymm5
	vpslld	$20, %ymm3, %ymm3
	vpor	%ymm5, %ymm3, %ymm3
	vmovdqu	192(%rdi), %ymm0
	vmovdqa	%ymm0, 448(%rsp)
	vpaddd	640(%rsp), %ymm0, %ymm5
	vpxor	(%rbx), %ymm5, %ymm6
	vpshufb	%ymm1, %ymm6, %ymm12
	vpbroadcastd	.LCPI11_3(%rip), %ymm6
	vpaddd	%ymm6, %ymm12, %ymm15
	vpxor	480(%rsp), %ymm15, %ymm6
	vpsrld	$12, %ymm6, %ymm0
	vpslld	$20, %ymm6, %ymm6
	vpor	%ymm0, %ymm6, %ymm6
	vmovdqu	32(%rdi), %ymm0
	vmovdqa	%ymm0, 224(%rsp)
	vpaddd	%ymm0, %ymm11, %ymm0
	vpaddd	%ymm0, %ymm13, %ymm11
	vpxor	%ymm4, %ymm11, %ymm0
	vbroadcasti128	.LCPI11_5(%rip), %ymm4
	vpshufb	%ymm4, %ymm0, %ymm0
	vmovdqa	%ymm0, 352(%rsp)
	vpaddd	%ymm0, %ymm7, %ymm0
	vmovdqa	%ymm0, 320(%rsp)
	vpxor	%ymm0, %ymm13, %ymm0
	vpsrld	$7, %ymm0, %ymm1
	vpslld	$25, %ymm0, %ymm0
	vpor	%ymm1, %ymm0, %ymm0
	vmovdqu	96(%rdi), %ymm1
	vmovdqa	%ymm1, 480(%rsp)
	vpaddd	416(%rsp), %ymm1, %ymm1
	vpaddd	%ymm1, %ymm8, %ymm1
	vmovdqa	%ymm1, 576(%rsp)
	vpxor	%ymm1, %ymm9, %ymm1
	vpshufb	%ymm4, %ymm1, %ymm1
	vmovdqa	%ymm1, 288(%rsp)
	vpaddd	%ymm1, %ymm2, %ymm7
	vpxor	%ymm7, %ymm8, %ymm1
	vpsrld	$7, %ymm1, %ymm2
	vpslld	$25, %ymm1, %ymm1
	vpor	%ymm2, %ymm1, %ymm2
	vmovdqu	160(%rdi), %ymm1
	vmovdqa	%ymm1, 608(%rsp)
	vpaddd	384(%rsp), %ymm1, %ymm1
	vpaddd	%ymm3, %ymm1, %ymm13
	vpxor	%ymm13, %ymm10, %ymm1
	vpshufb	%ymm4, %ymm1, %ymm8
	vpaddd	%ymm8, %ymm14, %ymm14
	vpxor	%ymm3, %ymm14, %ymm1
	vpsrld	$7, %ymm1, %ymm3
	vpslld	$25, %ymm1, %ymm1
	vpor	%ymm3, %ymm1, %ymm9
	vmovdqu	224(%rdi), %ymm1
	vmovdqa	%ymm1, 416(%rsp)
	vpaddd	%ymm5, %ymm1, %ymm1
	vpaddd	%ymm6, %ymm1, %ymm3
	vpxor	%ymm3, %ymm12, %ymm1
	vpshufb	%ymm4, %ymm1, %ymm12
	vpaddd	%ymm12, %ymm15, %ymm15
	vpxor	%ymm6, %ymm15, %ymm1
	vpsrld	$7, %ymm1, %ymm5
	vpslld	$25, %ymm1, %ymm1
	vpor	%ymm5, %ymm1, %ymm1
	vmovdqu	448(%rdi), %ymm4
	vmovdqa	%ymm4, 640(%rsp)
	vpaddd	%ymm0, %ymm4, %ymm5
	vpaddd	%ymm5, %ymm3, %ymm3
	vmovdqa	%ymm3, 96(%rsp)
	vpxor	%ymm3, %ymm8, %ymm3
	vmovdqa	.LCPI11_0(%rip), %ymm5
	vpshufb	%ymm5, %ymm3, %ymm10
	vpaddd	%ymm7, %ymm10, %ymm3
	vmovdqa	%ymm3, 64(%rsp)
	vpxor	%ymm0, %ymm3, %ymm0
	vpsrld	$12, %ymm0, %ymm3
	vpslld	$20, %ymm0, %ymm0
	vpor	%ymm3, %ymm0, %ymm4
	vmovdqu	256(%rdi), %ymm0
	vmovdqa	%ymm0, 256(%rsp)
	vpaddd	%ymm0, %ymm11, %ymm3
	vpaddd	%ymm2, %ymm3, %ymm3
	vpxor	%ymm3, %ymm12, %ymm6
	vpshufb	%ymm5, %ymm6, %ymm12
	vpaddd	%ymm12, %ymm14, %ymm0
	vmovdqa	%ymm0, 544(%rsp)
	vpxor	%ymm2, %ymm0, %ymm2
	vpsrld	$12, %ymm2, %ymm6
	vpslld	$20, %ymm2, %ymm2
	vpor	%ymm6, %ymm2, %ymm11
	vmovdqu	320(%rdi), %ymm0
	vmovdqa	%ymm0, 384(%rsp)
	vpaddd	576(%rsp), %ymm0, %ymm2
	vpaddd	%ymm2, %ymm9, %ymm6
	vpxor	352(%rsp), %ymm6, %ymm2
	vpshufb	%ymm5, %ymm2, %ymm8
	vpaddd	%ymm8, %ymm15, %ymm14
	vpxor	%ymm9, %ymm14, %ymm2
	vpsrld	$12, %ymm2, %ymm9
	vpslld	$20, %ymm2, %ymm2
	vpor	%ymm2, %ymm9, %ymm2
	vmovdqu	384(%rdi), %ymm0
	vmovdqa	%ymm0, 352(%rsp)
	vpaddd	%ymm0, %ymm13, %ymm9
	vpaddd	%ymm1, %ymm9, %ymm13
	vpxor	288(%rsp), %ymm13, %ymm9
	vpshufb	%ymm5, %ymm9, %ymm9
	vpaddd	320(%rsp), %ymm9, %ymm15
	vpxor	%ymm1, %ymm15, %ymm1
	vpsrld	$12, %ymm1, %ymm0
	vpslld	$20, %ymm1, %ymm1
	vpor	%ymm0, %ymm1, %ymm7
	vmovdqu	480(%rdi), %ymm0
	vmovdqa	%ymm0, 288(%rsp)
	vpaddd	96(%rsp), %ymm0, %ymm0
	vpaddd	%ymm4, %ymm0, %ymm0
	vmovdqa	%ymm0, 96(%rsp)
	vpxor	%ymm0, %ymm10, %ymm0
	vbroadcasti128	.LCPI11_5(%rip), %ymm10
	vpshufb	%ymm10, %ymm0, %ymm0
	vmovdqa	%ymm0, 160(%rsp)
	vpaddd	64(%rsp), %ymm0, %ymm0
	vmovdqa	%ymm0, 128(%rsp)
	vpxor	%ymm4, %ymm0, %ymm0
	vpsrld	$7, %ymm0, %ymm4
	vpslld	$25, %ymm0, %ymm0
	vpor	%ymm4, %ymm0, %ymm5
	vmovdqu	288(%rdi), %ymm0
	vmovdqa	%ymm0, 576(%rsp)
	vpaddd	%ymm0, %ymm3, %ymm3
	vpaddd	%ymm3, %ymm11, %ymm1
	vpxor	%ymm1, %ymm12, %ymm3
	vpshufb	%ymm10, %ymm3, %ymm0
	vmovdqa	%ymm0, 64(%rsp)
	vmovdqa	%ymm10, %ymm12
	vpaddd	544(%rsp), %ymm0, %ymm10
	vpxor	%ymm11, %ymm10, %ymm3
	vpsrld	$7, %ymm3, %ymm4
	vpslld	$25, %ymm3, %ymm3
	vpor	%ymm4, %ymm3, %ymm11
	vmovdqu	352(%rdi), %ymm0
	vmovdqa	%ymm0, 544(%rsp)
	vpaddd	%ymm0, %ymm6, %ymm3
	vpaddd	%ymm2, %ymm3, %ymm6
	vpxor	%ymm6, %ymm8, %ymm3
	vpshufb	%ymm12, %ymm3, %ymm0
	vpaddd	%ymm0, %ymm14, %ymm4
	vpxor	%ymm2, %ymm4, %ymm2
	vpsrld	$7, %ymm2, %ymm3
	vpslld	$25, %ymm2, %ymm2
	vpor	%ymm3, %ymm2, %ymm8
	vmovdqu	416(%rdi), %ymm2
	vmovdqa	%ymm2, 320(%rsp)
	vpaddd	%ymm2, %ymm13, %ymm2
	vpaddd	%ymm7, %ymm2, %ymm2
	vpxor	%ymm2, %ymm9, %ymm3
	vpshufb	%ymm12, %ymm3, %ymm13
	vpaddd	%ymm13, %ymm15, %ymm9
	vpxor	%ymm7, %ymm9, %ymm3
	vpsrld	$7, %ymm3, %ymm7
	vpslld	$25, %ymm3, %ymm3
	vpor	%ymm7, %ymm3, %ymm12
	vpaddd	672(%rsp), %ymm1, %ymm1
	vpaddd	%ymm5, %ymm1, %ymm3
	vpxor	%ymm3, %ymm0, %ymm0
	vmovdqa	.LCPI11_0(%rip), %ymm7
	vpshufb	%ymm7, %ymm0, %ymm14
	vpaddd	%ymm14, %ymm9, %ymm0
	vmovdqa	%ymm0, 32(%rsp)
	vpxor	%ymm5, %ymm0, %ymm0
	vpsrld	$12, %ymm0, %ymm1
	vpslld	$20, %ymm0, %ymm0
	vpor	%ymm1, %ymm0, %ymm0
	vpaddd	480(%rsp), %ymm6, %ymm1
	vpaddd	%ymm1, %ymm11, %ymm9
	vpxor	%ymm9, %ymm13, %ymm1
	vpshufb	%ymm7, %ymm1, %ymm15
	vpaddd	128(%rsp), %ymm15, %ymm1
	vmovdqa	%ymm1, 192(%rsp)
	vpxor	%ymm1, %ymm11, %ymm1
	vpsrld	$12, %ymm1, %ymm5
	vpslld	$20, %ymm1, %ymm1
	vpor	%ymm5, %ymm1, %ymm11
	vpaddd	416(%rsp), %ymm2, %ymm1
	vpaddd	%ymm1, %ymm8, %ymm13
	vpxor	160(%rsp), %ymm13, %ymm1
	vpshufb	%ymm7, %ymm1, %ymm2
	vpaddd	%ymm2, %ymm10, %ymm6
	vpxor	%ymm6, %ymm8, %ymm1
	vpsrld	$12, %ymm1, %ymm5
	vpslld	$20, %ymm1, %ymm1
	vpor	%ymm5, %ymm1, %ymm8
	vmovdqa	96(%rsp), %ymm1
	vpaddd	704(%rsp), %ymm1, %ymm1
	vpaddd	%ymm1, %ymm12, %ymm10
	vpxor	64(%rsp), %ymm10, %ymm1
	vpshufb	%ymm7, %ymm1, %ymm5
	vpaddd	%ymm5, %ymm4, %ymm7
	vpxor	%ymm7, %ymm12, %ymm1
	vpsrld	$12, %ymm1, %ymm4
	vpslld	$20, %ymm1, %ymm1
	vpor	%ymm4, %ymm1, %ymm4
	vpaddd	448(%rsp), %ymm3, %ymm1
	vpaddd	%ymm0, %ymm1, %ymm1
	vmovdqa	%ymm1, 64(%rsp)
	vpxor	%ymm1, %ymm14, %ymm1
	vbroadcasti128	.LCPI11_5(%rip), %ymm12
	vpshufb	%ymm12, %ymm1, %ymm1
	vmovdqa	%ymm1, 160(%rsp)
	vpaddd	32(%rsp), %ymm1, %ymm1
	vmovdqa	%ymm1, 96(%rsp)
	vpxor	%ymm0, %ymm1, %ymm0
	vpsrld	$7, %ymm0, %ymm1
	vpslld	$25, %ymm0, %ymm0
	vpor	%ymm1, %ymm0, %ymm3
	vpaddd	384(%rsp), %ymm9, %ymm0
	vpaddd	%ymm0, %ymm11, %ymm0
	vmovdqa	%ymm0, 32(%rsp)
	vpxor	%ymm0, %ymm15, %ymm0
	vpshufb	%ymm12, %ymm0, %ymm0
	vmovdqa	%ymm0, 128(%rsp)
	vmovdqa	%ymm12, %ymm15
	vpaddd	192(%rsp), %ymm0, %ymm9
	vpxor	%ymm11, %ymm9, %ymm0
	vpsrld	$7, %ymm0, %ymm1
	vpslld	$25, %ymm0, %ymm0
	vpor	%ymm1, %ymm0, %ymm11
	vpaddd	512(%rsp), %ymm13, %ymm0
	vpaddd	%ymm0, %ymm8, %ymm14
	vpxor	%ymm2, %ymm14, %ymm0
	vpshufb	%ymm12, %ymm0, %ymm12
	vpaddd	%ymm6, %ymm12, %ymm1
	vpxor	%ymm1, %ymm8, %ymm0
	vpsrld	$7, %ymm0, %ymm2
	vpslld	$25, %ymm0, %ymm0
	vpor	%ymm2, %ymm0, %ymm8
	vpaddd	320(%rsp), %ymm10, %ymm0
	vpaddd	%ymm4, %ymm0, %ymm6
	vpxor	%ymm6, %ymm5, %ymm0
	vpshufb	%ymm15, %ymm0, %ymm0
	vpaddd	%ymm0, %ymm7, %ymm2
	vpxor	%ymm4, %ymm2, %ymm4
	vpsrld	$7, %ymm4, %ymm5
	vpslld	$25, %ymm4, %ymm4
	vpor	%ymm5, %ymm4, %ymm10
	vpaddd	288(%rsp), %ymm6, %ymm4
	vpaddd	%ymm3, %ymm4, %ymm6
	vpxor	%ymm6, %ymm12, %ymm4
	vmovdqa	.LCPI11_0(%rip), %ymm5
	vpshufb	%ymm5, %ymm4, %ymm12
	vpaddd	%ymm12, %ymm9, %ymm15
	vpxor	%ymm3, %ymm15, %ymm3
	vpsrld	$12, %ymm3, %ymm4
	vpslld	$20, %ymm3, %ymm3
	vpor	%ymm4, %ymm3, %ymm3
	vmovdqa	64(%rsp), %ymm4
	vpaddd	224(%rsp), %ymm4, %ymm4
	vpaddd	%ymm4, %ymm11, %ymm13
	vpxor	%ymm0, %ymm13, %ymm0
	vpshufb	%ymm5, %ymm0, %ymm9
	vpaddd	%ymm1, %ymm9, %ymm0
	vmovdqa	%ymm0, 192(%rsp)
	vpxor	%ymm0, %ymm11, %ymm0
	vpsrld	$12, %ymm0, %ymm1
	vpslld	$20, %ymm0, %ymm0
	vpor	%ymm1, %ymm0, %ymm11
	vmovdqa	32(%rsp), %ymm0
	vpaddd	352(%rsp), %ymm0, %ymm0
	vpaddd	%ymm0, %ymm8, %ymm7
	vpxor	160(%rsp), %ymm7, %ymm0
	vpshufb	%ymm5, %ymm0, %ymm4
	vpaddd	%ymm4, %ymm2, %ymm0
	vmovdqa	%ymm0, 32(%rsp)
	vpxor	%ymm0, %ymm8, %ymm0
	vpsrld	$12, %ymm0, %ymm1
	vpslld	$20, %ymm0, %ymm0
	vpor	%ymm1, %ymm0, %ymm8
	vpaddd	576(%rsp), %ymm14, %ymm0
	vpaddd	%ymm0, %ymm10, %ymm14
	vpxor	128(%rsp), %ymm14, %ymm0
	vpshufb	%ymm5, %ymm0, %ymm1
	vpaddd	96(%rsp), %ymm1, %ymm5
	vpxor	%ymm5, %ymm10, %ymm0
	vpsrld	$12, %ymm0, %ymm2
	vpslld	$20, %ymm0, %ymm0
	vpor	%ymm2, %ymm0, %ymm2
	vpaddd	256(%rsp), %ymm6, %ymm0
	vpaddd	%ymm3, %ymm0, %ymm0
	vmovdqa	%ymm0, 96(%rsp)
	vpxor	%ymm0, %ymm12, %ymm0
	vbroadcasti128	.LCPI11_5(%rip), %ymm10
	vpshufb	%ymm10, %ymm0, %ymm0
	vmovdqa	%ymm0, 160(%rsp)
	vpaddd	%ymm0, %ymm15, %ymm15
	vpxor	%ymm3, %ymm15, %ymm0
	vpsrld	$7, %ymm0, %ymm3
	vpslld	$25, %ymm0, %ymm0
	vpor	%ymm3, %ymm0, %ymm0
	vpaddd	544(%rsp), %ymm13, %ymm3
	vpaddd	%ymm3, %ymm11, %ymm6
	vpxor	%ymm6, %ymm9, %ymm3
	vpshufb	%ymm10, %ymm3, %ymm3
	vmovdqa	%ymm3, 64(%rsp)
	vmovdqa	%ymm10, %ymm13
	vpaddd	192(%rsp), %ymm3, %ymm3
	vmovdqa	%ymm3, 128(%rsp)
	vpxor	%ymm3, %ymm11, %ymm3
	vpsrld	$7, %ymm3, %ymm9
	vpslld	$25, %ymm3, %ymm3
	vpor	%ymm3, %ymm9, %ymm11
	vpaddd	608(%rsp), %ymm7, %ymm3
	vpaddd	%ymm3, %ymm8, %ymm7
	vpxor	%ymm7, %ymm4, %ymm3
	vpshufb	%ymm10, %ymm3, %ymm12
	vpaddd	32(%rsp), %ymm12, %ymm10
	vpxor	%ymm8, %ymm10, %ymm3
	vpsrld	$7, %ymm3, %ymm4
	vpslld	$25, %ymm3, %ymm3
	vpor	%ymm4, %ymm3, %ymm3
	vpaddd	640(%rsp), %ymm14, %ymm4
	vpaddd	%ymm2, %ymm4, %ymm8
	vpxor	%ymm1, %ymm8, %ymm4
	vpshufb	%ymm13, %ymm4, %ymm9
	vpaddd	%ymm5, %ymm9, %ymm5
	vpxor	%ymm2, %ymm5, %ymm1
	vpsrld	$7, %ymm1, %ymm2
	vpslld	$25, %ymm1, %ymm1
	vpor	%ymm2, %ymm1, %ymm1
	vpaddd	480(%rsp), %ymm6, %ymm2
	vpaddd	%ymm0, %ymm2, %ymm6
	vpxor	%ymm6, %ymm12, %ymm2
	vmovdqa	.LCPI11_0(%rip), %ymm12
	vpshufb	%ymm12, %ymm2, %ymm14
	vpaddd	%ymm5, %ymm14, %ymm5
	vpxor	%ymm0, %ymm5, %ymm0
	vpsrld	$12, %ymm0, %ymm2
	vpslld	$20, %ymm0, %ymm0
	vpor	%ymm2, %ymm0, %ymm4
	vpaddd	384(%rsp), %ymm7, %ymm2
	vpaddd	%ymm2, %ymm11, %ymm7
	vpxor	%ymm7, %ymm9, %ymm2
	vmovdqa	%ymm12, %ymm0
	vpshufb	%ymm12, %ymm2, %ymm2
	vpaddd	%ymm2, %ymm15, %ymm9
	vmovdqa	%ymm9, 192(%rsp)
	vpxor	%ymm11, %ymm9, %ymm9
	vpsrld	$12, %ymm9, %ymm11
	vpslld	$20, %ymm9, %ymm9
	vpor	%ymm11, %ymm9, %ymm12
	vpaddd	320(%rsp), %ymm8, %ymm8
	vpaddd	%ymm3, %ymm8, %ymm13
	vpxor	160(%rsp), %ymm13, %ymm8
	vpshufb	%ymm0, %ymm8, %ymm15
	vpaddd	128(%rsp), %ymm15, %ymm9
	vpxor	%ymm3, %ymm9, %ymm3
	vpsrld	$12, %ymm3, %ymm8
	vpslld	$20, %ymm3, %ymm3
	vpor	%ymm3, %ymm8, %ymm3
	vmovdqa	96(%rsp), %ymm8
	vpaddd	416(%rsp), %ymm8, %ymm8
	vpaddd	%ymm1, %ymm8, %ymm8
	vpxor	64(%rsp), %ymm8, %ymm11
	vpshufb	%ymm0, %ymm11, %ymm11
	vpaddd	%ymm11, %ymm10, %ymm10
	vpxor	%ymm1, %ymm10, %ymm1
	vpsrld	$12, %ymm1, %ymm0
	vpslld	$20, %ymm1, %ymm1
	vpor	%ymm0, %ymm1, %ymm1
	vpaddd	704(%rsp), %ymm6, %ymm0
	vpaddd	%ymm4, %ymm0, %ymm0
	vmovdqa	%ymm0, 64(%rsp)
	vpxor	%ymm0, %ymm14, %ymm0
	vbroadcasti128	.LCPI11_5(%rip), %ymm6
	vpshufb	%ymm6, %ymm0, %ymm0
	vmovdqa	%ymm0, 160(%rsp)
	vpaddd	%ymm0, %ymm5, %ymm5
	vmovdqa	%ymm5, 96(%rsp)
	vpxor	%ymm4, %ymm5, %ymm0
	vpsrld	$7, %ymm0, %ymm4
	vpslld	$25, %ymm0, %ymm0
	vpor	%ymm4, %ymm0, %ymm5
	vpaddd	352(%rsp), %ymm7, %ymm4
	vpaddd	%ymm4, %ymm12, %ymm0
	vmovdqa	%ymm0, 32(%rsp)
	vpxor	%ymm0, %ymm2, %ymm2
	vpshufb	%ymm6, %ymm2, %ymm2
	vmovdqa	%ymm2, 128(%rsp)
	vmovdqa	%ymm6, %ymm0
	vpaddd	192(%rsp), %ymm2, %ymm2
	vpxor	%ymm2, %ymm12, %ymm4
	vpsrld	$7, %ymm4, %ymm6
	vpslld	$25, %ymm4, %ymm4
	vpor	%ymm6, %ymm4, %ymm12
	vpaddd	672(%rsp), %ymm13, %ymm4
	vpaddd	%ymm3, %ymm4, %ymm14
	vpxor	%ymm14, %ymm15, %ymm4
	vpshufb	%ymm0, %ymm4, %ymm13
	vpaddd	%ymm13, %ymm9, %ymm6
	vpxor	%ymm3, %ymm6, %ymm3
	vpsrld	$7, %ymm3, %ymm4
	vpslld	$25, %ymm3, %ymm3
	vpor	%ymm4, %ymm3, %ymm3
	vpaddd	640(%rsp), %ymm8, %ymm4
	vpaddd	%ymm1, %ymm4, %ymm4
	vpxor	%ymm4, %ymm11, %ymm7
	vpshufb	%ymm0, %ymm7, %ymm7
	vpaddd	%ymm7, %ymm10, %ymm9
	vpxor	%ymm1, %ymm9, %ymm1
	vpsrld	$7, %ymm1, %ymm8
	vpslld	$25, %ymm1, %ymm1
	vpor	%ymm1, %ymm8, %ymm10
	vpaddd	256(%rsp), %ymm4, %ymm1
	vpaddd	%ymm5, %ymm1, %ymm4
	vpxor	%ymm4, %ymm13, %ymm1
	vmovdqa	.LCPI11_0(%rip), %ymm11
	vpshufb	%ymm11, %ymm1, %ymm13
	vpaddd	%ymm2, %ymm13, %ymm0
	vmovdqa	%ymm0, 192(%rsp)
	vpxor	%ymm5, %ymm0, %ymm0
	vpsrld	$12, %ymm0, %ymm1
	vpslld	$20, %ymm0, %ymm0
	vpor	%ymm1, %ymm0, %ymm0
	vmovdqa	64(%rsp), %ymm1
	vpaddd	448(%rsp), %ymm1, %ymm1
	vpaddd	%ymm1, %ymm12, %ymm2
	vpxor	%ymm2, %ymm7, %ymm1
	vpshufb	%ymm11, %ymm1, %ymm15
	vpaddd	%ymm6, %ymm15, %ymm7
	vpxor	%ymm7, %ymm12, %ymm1
	vpsrld	$12, %ymm1, %ymm6
	vpslld	$20, %ymm1, %ymm1
	vpor	%ymm6, %ymm1, %ymm12
	vmovdqa	32(%rsp), %ymm1
	vpaddd	576(%rsp), %ymm1, %ymm1
	vpaddd	%ymm3, %ymm1, %ymm8
	vpxor	160(%rsp), %ymm8, %ymm1
	vpshufb	%ymm11, %ymm1, %ymm5
	vpaddd	%ymm5, %ymm9, %ymm1
	vmovdqa	%ymm1, 32(%rsp)
	vpxor	%ymm3, %ymm1, %ymm1
	vpsrld	$12, %ymm1, %ymm3
	vpslld	$20, %ymm1, %ymm1
	vpor	%ymm3, %ymm1, %ymm3
	vpaddd	544(%rsp), %ymm14, %ymm1
	vpaddd	%ymm1, %ymm10, %ymm9
	vpxor	128(%rsp), %ymm9, %ymm1
	vpshufb	%ymm11, %ymm1, %ymm6
	vpaddd	96(%rsp), %ymm6, %ymm14
	vpxor	%ymm10, %ymm14, %ymm1
	vpsrld	$12, %ymm1, %ymm10
	vpslld	$20, %ymm1, %ymm1
	vpor	%ymm1, %ymm10, %ymm1
	vpaddd	224(%rsp), %ymm4, %ymm4
	vpaddd	%ymm0, %ymm4, %ymm4
	vmovdqa	%ymm4, 96(%rsp)
	vpxor	%ymm4, %ymm13, %ymm4
	vbroadcasti128	.LCPI11_5(%rip), %ymm10
	vpshufb	%ymm10, %ymm4, %ymm4
	vmovdqa	%ymm4, 160(%rsp)
	vpaddd	192(%rsp), %ymm4, %ymm13
	vpxor	%ymm0, %ymm13, %ymm0
	vpsrld	$7, %ymm0, %ymm4
	vpslld	$25, %ymm0, %ymm0
	vpor	%ymm4, %ymm0, %ymm4
	vpaddd	608(%rsp), %ymm2, %ymm0
	vpaddd	%ymm0, %ymm12, %ymm0
	vpxor	%ymm0, %ymm15, %ymm2
	vpshufb	%ymm10, %ymm2, %ymm2
	vmovdqa	%ymm2, 64(%rsp)
	vmovdqa	%ymm10, %ymm15
	vpaddd	%ymm2, %ymm7, %ymm10
	vpxor	%ymm12, %ymm10, %ymm2
	vpsrld	$7, %ymm2, %ymm7
	vpslld	$25, %ymm2, %ymm2
	vpor	%ymm7, %ymm2, %ymm2
	vpaddd	512(%rsp), %ymm8, %ymm7
	vpaddd	%ymm3, %ymm7, %ymm7
	vpxor	%ymm7, %ymm5, %ymm5
	vpshufb	%ymm15, %ymm5, %ymm12
	vpaddd	32(%rsp), %ymm12, %ymm5
	vmovdqa	%ymm5, 128(%rsp)
	vpxor	%ymm3, %ymm5, %ymm3
	vpsrld	$7, %ymm3, %ymm5
	vpslld	$25, %ymm3, %ymm3
	vpor	%ymm5, %ymm3, %ymm5
	vpaddd	288(%rsp), %ymm9, %ymm3
	vpaddd	%ymm1, %ymm3, %ymm8
	vpxor	%ymm6, %ymm8, %ymm3
	vpshufb	%ymm15, %ymm3, %ymm9
	vpaddd	%ymm9, %ymm14, %ymm11
	vpxor	%ymm1, %ymm11, %ymm1
	vpsrld	$7, %ymm1, %ymm3
	vpslld	$25, %ymm1, %ymm1
	vpor	%ymm3, %ymm1, %ymm3
	vpaddd	384(%rsp), %ymm0, %ymm0
	vpaddd	%ymm4, %ymm0, %ymm6
	vpxor	%ymm6, %ymm12, %ymm0
	vmovdqa	.LCPI11_0(%rip), %ymm12
	vpshufb	%ymm12, %ymm0, %ymm15
	vpaddd	%ymm15, %ymm11, %ymm0
	vmovdqa	%ymm0, 32(%rsp)
	vpxor	%ymm4, %ymm0, %ymm0
	vpsrld	$12, %ymm0, %ymm1
	vpslld	$20, %ymm0, %ymm0
	vpor	%ymm1, %ymm0, %ymm11
	vpaddd	352(%rsp), %ymm7, %ymm0
	vpaddd	%ymm2, %ymm0, %ymm7
	vpxor	%ymm7, %ymm9, %ymm0
	vpshufb	%ymm12, %ymm0, %ymm4
	vmovdqa	%ymm12, %ymm9
	vpaddd	%ymm4, %ymm13, %ymm12
	vpxor	%ymm2, %ymm12, %ymm0
	vpsrld	$12, %ymm0, %ymm1
	vpslld	$20, %ymm0, %ymm0
	vpor	%ymm1, %ymm0, %ymm1
	vpaddd	640(%rsp), %ymm8, %ymm0
	vpaddd	%ymm5, %ymm0, %ymm8
	vpxor	160(%rsp), %ymm8, %ymm0
	vpshufb	%ymm9, %ymm0, %ymm13
	vpaddd	%ymm13, %ymm10, %ymm0
	vmovdqa	%ymm0, 192(%rsp)
	vpxor	%ymm5, %ymm0, %ymm0
	vpsrld	$12, %ymm0, %ymm2
	vpslld	$20, %ymm0, %ymm0
	vpor	%ymm2, %ymm0, %ymm2
	vmovdqa	96(%rsp), %ymm0
	vpaddd	320(%rsp), %ymm0, %ymm0
	vpaddd	%ymm3, %ymm0, %ymm5
	vpxor	64(%rsp), %ymm5, %ymm0
	vpshufb	%ymm9, %ymm0, %ymm14
	vpaddd	128(%rsp), %ymm14, %ymm10
	vpxor	%ymm3, %ymm10, %ymm0
	vpsrld	$12, %ymm0, %ymm3
	vpslld	$20, %ymm0, %ymm0
	vpor	%ymm3, %ymm0, %ymm0
	vpaddd	416(%rsp), %ymm6, %ymm3
	vpaddd	%ymm3, %ymm11, %ymm3
	vmovdqa	%ymm3, 64(%rsp)
	vpxor	%ymm3, %ymm15, %ymm3
	vpshufb	.LCPI11_4(%rip), %ymm3, %ymm3
	vmovdqa	%ymm3, 160(%rsp)
	vpaddd	32(%rsp), %ymm3, %ymm6
	vmovdqa	%ymm6, 96(%rsp)
	vpxor	%ymm6, %ymm11, %ymm3
	vpsrld	$7, %ymm3, %ymm6
	vpslld	$25, %ymm3, %ymm3
	vpor	%ymm6, %ymm3, %ymm11
	vpaddd	576(%rsp), %ymm7, %ymm3
	vpaddd	%ymm1, %ymm3, %ymm15
	vpxor	%ymm4, %ymm15, %ymm3
	vbroadcasti128	.LCPI11_5(%rip), %ymm6
	vpshufb	%ymm6, %ymm3, %ymm3
	vmovdqa	%ymm3, 128(%rsp)
	vpaddd	%ymm3, %ymm12, %ymm12
	vpxor	%ymm1, %ymm12, %ymm1
	vpsrld	$7, %ymm1, %ymm3
	vpslld	$25, %ymm1, %ymm1
	vpor	%ymm3, %ymm1, %ymm1
	vpaddd	480(%rsp), %ymm8, %ymm3
	vpaddd	%ymm2, %ymm3, %ymm3
	vmovdqa	%ymm3, 32(%rsp)
	vpxor	%ymm3, %ymm13, %ymm3
	vpshufb	%ymm6, %ymm3, %ymm13
	vpaddd	192(%rsp), %ymm13, %ymm7
	vpxor	%ymm2, %ymm7, %ymm2
	vpsrld	$7, %ymm2, %ymm3
	vpslld	$25, %ymm2, %ymm2
	vpor	%ymm3, %ymm2, %ymm4
	vpaddd	288(%rsp), %ymm5, %ymm2
	vpaddd	%ymm0, %ymm2, %ymm5
	vpxor	%ymm5, %ymm14, %ymm2
	vpshufb	%ymm6, %ymm2, %ymm8
	vpaddd	%ymm8, %ymm10, %ymm2
	vpxor	%ymm0, %ymm2, %ymm0
	vpsrld	$7, %ymm0, %ymm3
	vpslld	$25, %ymm0, %ymm0
	vpor	%ymm3, %ymm0, %ymm3
	vpaddd	224(%rsp), %ymm5, %ymm0
	vpaddd	%ymm0, %ymm11, %ymm10
	vpxor	%ymm10, %ymm13, %ymm0
	vpshufb	%ymm9, %ymm0, %ymm13
	vpaddd	%ymm13, %ymm12, %ymm12
	vpxor	%ymm11, %ymm12, %ymm0
	vpsrld	$12, %ymm0, %ymm5
	vpslld	$20, %ymm0, %ymm0
	vpor	%ymm5, %ymm0, %ymm6
	vmovdqa	64(%rsp), %ymm0
	vpaddd	704(%rsp), %ymm0, %ymm5
	vpaddd	%ymm1, %ymm5, %ymm5
	vpxor	%ymm5, %ymm8, %ymm8
	vmovdqa	%ymm9, %ymm0
	vpshufb	%ymm9, %ymm8, %ymm14
	vpaddd	%ymm7, %ymm14, %ymm7
	vpxor	%ymm1, %ymm7, %ymm1
	vpsrld	$12, %ymm1, %ymm8
	vpslld	$20, %ymm1, %ymm1
	vpor	%ymm1, %ymm8, %ymm1
	vpaddd	544(%rsp), %ymm15, %ymm8
	vpaddd	%ymm4, %ymm8, %ymm8
	vpxor	160(%rsp), %ymm8, %ymm9
	vpshufb	%ymm0, %ymm9, %ymm15
	vpaddd	%ymm2, %ymm15, %ymm9
	vpxor	%ymm4, %ymm9, %ymm2
	vpsrld	$12, %ymm2, %ymm4
	vpslld	$20, %ymm2, %ymm2
	vpor	%ymm4, %ymm2, %ymm2
	vmovdqa	32(%rsp), %ymm4
	vpaddd	608(%rsp), %ymm4, %ymm4
	vpaddd	%ymm3, %ymm4, %ymm11
	vpxor	128(%rsp), %ymm11, %ymm4
	vpshufb	%ymm0, %ymm4, %ymm4
	vpaddd	96(%rsp), %ymm4, %ymm0
	vmovdqa	%ymm0, 32(%rsp)
	vpxor	%ymm3, %ymm0, %ymm3
	vpsrld	$12, %ymm3, %ymm0
	vpslld	$20, %ymm3, %ymm3
	vpor	%ymm0, %ymm3, %ymm3
	vpaddd	448(%rsp), %ymm10, %ymm0
	vpaddd	%ymm6, %ymm0, %ymm0
	vmovdqa	%ymm0, 96(%rsp)
	vpxor	%ymm0, %ymm13, %ymm0
	vbroadcasti128	.LCPI11_5(%rip), %ymm13
	vpshufb	%ymm13, %ymm0, %ymm0
	vmovdqa	%ymm0, 160(%rsp)
	vpaddd	%ymm0, %ymm12, %ymm0
	vmovdqa	%ymm0, 128(%rsp)
	vpxor	%ymm6, %ymm0, %ymm0
	vpsrld	$7, %ymm0, %ymm6
	vpslld	$25, %ymm0, %ymm0
	vpor	%ymm6, %ymm0, %ymm0
	vpaddd	512(%rsp), %ymm5, %ymm5
	vpaddd	%ymm1, %ymm5, %ymm10
	vpxor	%ymm10, %ymm14, %ymm5
	vpshufb	%ymm13, %ymm5, %ymm5
	vmovdqa	%ymm5, 64(%rsp)
	vpaddd	%ymm5, %ymm7, %ymm12
	vpxor	%ymm1, %ymm12, %ymm1
	vpsrld	$7, %ymm1, %ymm5
	vpslld	$25, %ymm1, %ymm1
	vpor	%ymm5, %ymm1, %ymm6
	vpaddd	672(%rsp), %ymm8, %ymm1
	vpaddd	%ymm2, %ymm1, %ymm1
	vpxor	%ymm1, %ymm15, %ymm5
	vpshufb	%ymm13, %ymm5, %ymm8
	vpaddd	%ymm8, %ymm9, %ymm5
	vpxor	%ymm2, %ymm5, %ymm2
	vpsrld	$7, %ymm2, %ymm7
	vpslld	$25, %ymm2, %ymm2
	vpor	%ymm7, %ymm2, %ymm2
	vpaddd	256(%rsp), %ymm11, %ymm7
	vpaddd	%ymm3, %ymm7, %ymm11
	vpxor	%ymm4, %ymm11, %ymm4
	vpshufb	%ymm13, %ymm4, %ymm7
	vpaddd	32(%rsp), %ymm7, %ymm14
	vpxor	%ymm3, %ymm14, %ymm3
	vpsrld	$7, %ymm3, %ymm4
	vpslld	$25, %ymm3, %ymm3
	vpor	%ymm4, %ymm3, %ymm9
	vpaddd	352(%rsp), %ymm10, %ymm3
	vpaddd	%ymm0, %ymm3, %ymm4
	vpxor	%ymm4, %ymm8, %ymm3
	vmovdqa	.LCPI11_0(%rip), %ymm10
	vpshufb	%ymm10, %ymm3, %ymm13
	vpaddd	%ymm13, %ymm14, %ymm3
	vmovdqa	%ymm3, 192(%rsp)
	vpxor	%ymm0, %ymm3, %ymm0
	vpsrld	$12, %ymm0, %ymm3
	vpslld	$20, %ymm0, %ymm0
	vpor	%ymm3, %ymm0, %ymm0
	vpaddd	576(%rsp), %ymm1, %ymm1
	vpaddd	%ymm6, %ymm1, %ymm8
	vpxor	%ymm7, %ymm8, %ymm1
	vpshufb	%ymm10, %ymm1, %ymm14
	vpaddd	128(%rsp), %ymm14, %ymm7
	vpxor	%ymm6, %ymm7, %ymm1
	vpsrld	$12, %ymm1, %ymm3
	vpslld	$20, %ymm1, %ymm1
	vpor	%ymm3, %ymm1, %ymm3
	vpaddd	288(%rsp), %ymm11, %ymm1
	vpaddd	%ymm2, %ymm1, %ymm11
	vpxor	160(%rsp), %ymm11, %ymm1
	vpshufb	%ymm10, %ymm1, %ymm15
	vpaddd	%ymm15, %ymm12, %ymm1
	vmovdqa	%ymm1, 32(%rsp)
	vpxor	%ymm2, %ymm1, %ymm1
	vpsrld	$12, %ymm1, %ymm2
	vpslld	$20, %ymm1, %ymm1
	vpor	%ymm2, %ymm1, %ymm6
	vmovdqa	96(%rsp), %ymm1
	vpaddd	640(%rsp), %ymm1, %ymm2
	vpaddd	%ymm2, %ymm9, %ymm12
	vpxor	64(%rsp), %ymm12, %ymm2
	vpshufb	%ymm10, %ymm2, %ymm2
	vpaddd	%ymm2, %ymm5, %ymm10
	vpxor	%ymm9, %ymm10, %ymm5
	vpsrld	$12, %ymm5, %ymm9
	vpslld	$20, %ymm5, %ymm5
	vpor	%ymm5, %ymm9, %ymm5
	vpaddd	320(%rsp), %ymm4, %ymm4
	vpaddd	%ymm0, %ymm4, %ymm1
	vmovdqa	%ymm1, 64(%rsp)
	vpxor	%ymm1, %ymm13, %ymm4
	vbroadcasti128	.LCPI11_5(%rip), %ymm9
	vpshufb	%ymm9, %ymm4, %ymm1
	vmovdqa	%ymm1, 160(%rsp)
	vpaddd	192(%rsp), %ymm1, %ymm1
	vmovdqa	%ymm1, 96(%rsp)
	vpxor	%ymm0, %ymm1, %ymm0
	vpsrld	$7, %ymm0, %ymm4
	vpslld	$25, %ymm0, %ymm0
	vpor	%ymm4, %ymm0, %ymm1
	vpaddd	544(%rsp), %ymm8, %ymm4
	vpaddd	%ymm3, %ymm4, %ymm13
	vpxor	%ymm13, %ymm14, %ymm8
	vpshufb	%ymm9, %ymm8, %ymm0
	vmovdqa	%ymm0, 128(%rsp)
	vpaddd	%ymm0, %ymm7, %ymm14
	vpxor	%ymm3, %ymm14, %ymm3
	vpsrld	$7, %ymm3, %ymm7
	vpslld	$25, %ymm3, %ymm3
	vpor	%ymm7, %ymm3, %ymm8
	vpaddd	384(%rsp), %ymm11, %ymm3
	vpaddd	%ymm6, %ymm3, %ymm11
	vpxor	%ymm11, %ymm15, %ymm3
	vpshufb	%ymm9, %ymm3, %ymm0
	vpaddd	32(%rsp), %ymm0, %ymm7
	vpxor	%ymm6, %ymm7, %ymm3
	vpsrld	$7, %ymm3, %ymm6
	vpslld	$25, %ymm3, %ymm3
	vpor	%ymm6, %ymm3, %ymm4
	vpaddd	256(%rsp), %ymm12, %ymm6
	vpaddd	%ymm5, %ymm6, %ymm6
	vpxor	%ymm6, %ymm2, %ymm2
	vpshufb	%ymm9, %ymm2, %ymm15
	vpaddd	%ymm15, %ymm10, %ymm2
	vpxor	%ymm5, %ymm2, %ymm5
	vpsrld	$7, %ymm5, %ymm10
	vpslld	$25, %ymm5, %ymm5
	vpor	%ymm5, %ymm10, %ymm5
	vpaddd	448(%rsp), %ymm6, %ymm6
	vpaddd	%ymm1, %ymm6, %ymm10
	vpxor	%ymm0, %ymm10, %ymm0
	vmovdqa	.LCPI11_0(%rip), %ymm9
	vpshufb	%ymm9, %ymm0, %ymm12
	vpaddd	%ymm12, %ymm14, %ymm0
	vmovdqa	%ymm0, 192(%rsp)
	vpxor	%ymm1, %ymm0, %ymm0
	vpsrld	$12, %ymm0, %ymm1
	vpslld	$20, %ymm0, %ymm0
	vpor	%ymm1, %ymm0, %ymm3
	vmovdqa	64(%rsp), %ymm0
	vpaddd	416(%rsp), %ymm0, %ymm1
	vpaddd	%ymm1, %ymm8, %ymm6
	vpxor	%ymm6, %ymm15, %ymm1
	vmovdqa	%ymm9, %ymm0
	vpshufb	%ymm9, %ymm1, %ymm14
	vpaddd	%ymm7, %ymm14, %ymm7
	vpxor	%ymm7, %ymm8, %ymm1
	vpsrld	$12, %ymm1, %ymm8
	vpslld	$20, %ymm1, %ymm1
	vpor	%ymm1, %ymm8, %ymm9
	vpaddd	608(%rsp), %ymm13, %ymm1
	vpaddd	%ymm4, %ymm1, %ymm8
	vpxor	160(%rsp), %ymm8, %ymm1
	vpshufb	%ymm0, %ymm1, %ymm15
	vpaddd	%ymm2, %ymm15, %ymm13
	vpxor	%ymm4, %ymm13, %ymm1
	vpsrld	$12, %ymm1, %ymm2
	vpslld	$20, %ymm1, %ymm1
	vpor	%ymm2, %ymm1, %ymm2
	vpaddd	512(%rsp), %ymm11, %ymm1
	vpaddd	%ymm5, %ymm1, %ymm11
	vpxor	128(%rsp), %ymm11, %ymm1
	vpshufb	%ymm0, %ymm1, %ymm4
	vpaddd	96(%rsp), %ymm4, %ymm0
	vmovdqa	%ymm0, 32(%rsp)
	vpxor	%ymm5, %ymm0, %ymm1
	vpsrld	$12, %ymm1, %ymm5
	vpslld	$20, %ymm1, %ymm1
	vpor	%ymm5, %ymm1, %ymm1
	vpaddd	704(%rsp), %ymm10, %ymm5
	vpaddd	%ymm3, %ymm5, %ymm0
	vmovdqa	%ymm0, 96(%rsp)
	vpxor	%ymm0, %ymm12, %ymm5
	vbroadcasti128	.LCPI11_5(%rip), %ymm10
	vpshufb	%ymm10, %ymm5, %ymm0
	vmovdqa	%ymm0, 160(%rsp)
	vpaddd	192(%rsp), %ymm0, %ymm0
	vmovdqa	%ymm0, 128(%rsp)
	vpxor	%ymm3, %ymm0, %ymm0
	vpsrld	$7, %ymm0, %ymm5
	vpslld	$25, %ymm0, %ymm0
	vpor	%ymm5, %ymm0, %ymm0
	vpaddd	672(%rsp), %ymm6, %ymm5
	vpaddd	%ymm5, %ymm9, %ymm6
	vpxor	%ymm6, %ymm14, %ymm5
	vpshufb	%ymm10, %ymm5, %ymm3
	vmovdqa	%ymm3, 64(%rsp)
	vpaddd	%ymm3, %ymm7, %ymm12
	vpxor	%ymm9, %ymm12, %ymm5
	vpsrld	$7, %ymm5, %ymm7
	vpslld	$25, %ymm5, %ymm5
	vpor	%ymm7, %ymm5, %ymm9
	vpaddd	480(%rsp), %ymm8, %ymm5
	vpaddd	%ymm2, %ymm5, %ymm7
	vpxor	%ymm7, %ymm15, %ymm5
	vpshufb	%ymm10, %ymm5, %ymm8
	vmovdqa	%ymm10, %ymm3
	vpaddd	%ymm8, %ymm13, %ymm5
	vpxor	%ymm2, %ymm5, %ymm2
	vpsrld	$7, %ymm2, %ymm10
	vpslld	$25, %ymm2, %ymm2
	vpor	%ymm2, %ymm10, %ymm2
	vpaddd	224(%rsp), %ymm11, %ymm10
	vpaddd	%ymm1, %ymm10, %ymm11
	vpxor	%ymm4, %ymm11, %ymm4
	vpshufb	%ymm3, %ymm4, %ymm14
	vpaddd	32(%rsp), %ymm14, %ymm3
	vpxor	%ymm1, %ymm3, %ymm1
	vpsrld	$7, %ymm1, %ymm4
	vpslld	$25, %ymm1, %ymm1
	vpor	%ymm4, %ymm1, %ymm4
	vpaddd	576(%rsp), %ymm6, %ymm1
	vpaddd	%ymm0, %ymm1, %ymm6
	vpxor	%ymm6, %ymm8, %ymm1
	vmovdqa	.LCPI11_0(%rip), %ymm15
	vpshufb	%ymm15, %ymm1, %ymm13
	vpaddd	%ymm3, %ymm13, %ymm1
	vmovdqa	%ymm1, 192(%rsp)
	vpxor	%ymm0, %ymm1, %ymm0
	vpsrld	$12, %ymm0, %ymm1
	vpslld	$20, %ymm0, %ymm0
	vpor	%ymm1, %ymm0, %ymm10
	vpaddd	544(%rsp), %ymm7, %ymm0
	vpaddd	%ymm0, %ymm9, %ymm8
	vpxor	%ymm8, %ymm14, %ymm0
	vpshufb	%ymm15, %ymm0, %ymm14
	vmovdqa	%ymm15, %ymm3
	vpaddd	128(%rsp), %ymm14, %ymm7
	vpxor	%ymm7, %ymm9, %ymm0
	vpsrld	$12, %ymm0, %ymm1
	vpslld	$20, %ymm0, %ymm0
	vpor	%ymm1, %ymm0, %ymm1
	vpaddd	256(%rsp), %ymm11, %ymm0
	vpaddd	%ymm2, %ymm0, %ymm11
	vpxor	160(%rsp), %ymm11, %ymm0
	vpshufb	%ymm15, %ymm0, %ymm15
	vpaddd	%ymm15, %ymm12, %ymm9
	vpxor	%ymm2, %ymm9, %ymm0
	vpsrld	$12, %ymm0, %ymm2
	vpslld	$20, %ymm0, %ymm0
	vpor	%ymm2, %ymm0, %ymm0
	vmovdqa	96(%rsp), %ymm2
	vpaddd	288(%rsp), %ymm2, %ymm2
	vpaddd	%ymm4, %ymm2, %ymm12
	vpxor	64(%rsp), %ymm12, %ymm2
	vpshufb	%ymm3, %ymm2, %ymm2
	vpaddd	%ymm2, %ymm5, %ymm3
	vmovdqa	%ymm3, 32(%rsp)
	vpxor	%ymm4, %ymm3, %ymm4
	vpsrld	$12, %ymm4, %ymm5
	vpslld	$20, %ymm4, %ymm4
	vpor	%ymm5, %ymm4, %ymm5
	vpaddd	640(%rsp), %ymm6, %ymm4
	vpaddd	%ymm4, %ymm10, %ymm3
	vmovdqa	%ymm3, 64(%rsp)
	vpxor	%ymm3, %ymm13, %ymm4
	vbroadcasti128	.LCPI11_5(%rip), %ymm13
	vpshufb	%ymm13, %ymm4, %ymm3
	vmovdqa	%ymm3, 160(%rsp)
	vpaddd	192(%rsp), %ymm3, %ymm6
	vmovdqa	%ymm6, 96(%rsp)
	vpxor	%ymm6, %ymm10, %ymm4
	vpsrld	$7, %ymm4, %ymm6
	vpslld	$25, %ymm4, %ymm4
	vpor	%ymm6, %ymm4, %ymm10
	vpaddd	608(%rsp), %ymm8, %ymm4
	vpaddd	%ymm1, %ymm4, %ymm4
	vpxor	%ymm4, %ymm14, %ymm6
	vpshufb	%ymm13, %ymm6, %ymm3
	vmovdqa	%ymm3, 128(%rsp)
	vpaddd	%ymm3, %ymm7, %ymm6
	vpxor	%ymm1, %ymm6, %ymm1
	vpsrld	$7, %ymm1, %ymm7
	vpslld	$25, %ymm1, %ymm1
	vpor	%ymm7, %ymm1, %ymm1
	vpaddd	352(%rsp), %ymm11, %ymm7
	vpaddd	%ymm0, %ymm7, %ymm11
	vpxor	%ymm11, %ymm15, %ymm7
	vpshufb	%ymm13, %ymm7, %ymm8
	vpaddd	%ymm8, %ymm9, %ymm7
	vpxor	%ymm0, %ymm7, %ymm0
	vpsrld	$7, %ymm0, %ymm9
	vpslld	$25, %ymm0, %ymm0
	vpor	%ymm0, %ymm9, %ymm9
	vpaddd	224(%rsp), %ymm12, %ymm0
	vpaddd	%ymm5, %ymm0, %ymm0
	vpxor	%ymm0, %ymm2, %ymm3
	vpshufb	%ymm13, %ymm3, %ymm14
	vpaddd	32(%rsp), %ymm14, %ymm13
	vpxor	%ymm5, %ymm13, %ymm2
	vpsrld	$7, %ymm2, %ymm3
	vpslld	$25, %ymm2, %ymm2
	vpor	%ymm3, %ymm2, %ymm3
	vpaddd	704(%rsp), %ymm0, %ymm0
	vpaddd	%ymm0, %ymm10, %ymm0
	vmovdqa	%ymm0, 32(%rsp)
	vpxor	%ymm0, %ymm8, %ymm0
	vmovdqa	.LCPI11_0(%rip), %ymm15
	vpshufb	%ymm15, %ymm0, %ymm12
	vpaddd	%ymm6, %ymm12, %ymm6
	vpxor	%ymm6, %ymm10, %ymm0
	vpsrld	$12, %ymm0, %ymm5
	vpslld	$20, %ymm0, %ymm0
	vpor	%ymm5, %ymm0, %ymm2
	vmovdqa	64(%rsp), %ymm0
	vpaddd	320(%rsp), %ymm0, %ymm5
	vpaddd	%ymm1, %ymm5, %ymm8
	vpxor	%ymm8, %ymm14, %ymm5
	vmovdqa	%ymm15, %ymm0
	vpshufb	%ymm15, %ymm5, %ymm14
	vpaddd	%ymm7, %ymm14, %ymm7
	vpxor	%ymm1, %ymm7, %ymm1
	vpsrld	$12, %ymm1, %ymm5
	vpslld	$20, %ymm1, %ymm1
	vpor	%ymm5, %ymm1, %ymm5
	vpaddd	512(%rsp), %ymm4, %ymm1
	vpaddd	%ymm1, %ymm9, %ymm10
	vpxor	160(%rsp), %ymm10, %ymm1
	vpshufb	%ymm15, %ymm1, %ymm15
	vpaddd	%ymm15, %ymm13, %ymm13
	vpxor	%ymm9, %ymm13, %ymm1
	vpsrld	$12, %ymm1, %ymm4
	vpslld	$20, %ymm1, %ymm1
	vpor	%ymm4, %ymm1, %ymm1
	vpaddd	672(%rsp), %ymm11, %ymm4
	vpaddd	%ymm3, %ymm4, %ymm11
	vpxor	128(%rsp), %ymm11, %ymm4
	vpshufb	%ymm0, %ymm4, %ymm4
	vpaddd	96(%rsp), %ymm4, %ymm9
	vpxor	%ymm3, %ymm9, %ymm3
	vpsrld	$12, %ymm3, %ymm0
	vpslld	$20, %ymm3, %ymm3
	vpor	%ymm0, %ymm3, %ymm3
	vmovdqa	32(%rsp), %ymm0
	vpaddd	416(%rsp), %ymm0, %ymm0
	vpaddd	%ymm2, %ymm0, %ymm0
	vmovdqa	%ymm0, 128(%rsp)
	vpxor	%ymm0, %ymm12, %ymm12
	vbroadcasti128	.LCPI11_5(%rip), %ymm0
	vpshufb	%ymm0, %ymm12, %ymm12
	vmovdqa	%ymm12, 96(%rsp)
	vpaddd	%ymm6, %ymm12, %ymm6
	vmovdqa	%ymm6, 64(%rsp)
	vpxor	%ymm2, %ymm6, %ymm2
	vpsrld	$7, %ymm2, %ymm6
	vpslld	$25, %ymm2, %ymm2
	vpor	%ymm6, %ymm2, %ymm6
	vpaddd	480(%rsp), %ymm8, %ymm2
	vpaddd	%ymm5, %ymm2, %ymm2
	vpxor	%ymm2, %ymm14, %ymm8
	vmovdqa	%ymm0, %ymm12
	vpshufb	%ymm0, %ymm8, %ymm0
	vmovdqa	%ymm0, 160(%rsp)
	vpaddd	%ymm0, %ymm7, %ymm14
	vpxor	%ymm5, %ymm14, %ymm5
	vpsrld	$7, %ymm5, %ymm8
	vpslld	$25, %ymm5, %ymm5
	vpor	%ymm5, %ymm8, %ymm8
	vpaddd	384(%rsp), %ymm10, %ymm5
	vpaddd	%ymm1, %ymm5, %ymm5
	vpxor	%ymm5, %ymm15, %ymm10
	vpshufb	%ymm12, %ymm10, %ymm0
	vmovdqa	%ymm12, %ymm15
	vpaddd	%ymm0, %ymm13, %ymm12
	vpxor	%ymm1, %ymm12, %ymm1
	vpsrld	$7, %ymm1, %ymm10
	vpslld	$25, %ymm1, %ymm1
	vpor	%ymm1, %ymm10, %ymm7
	vpaddd	448(%rsp), %ymm11, %ymm1
	vpaddd	%ymm3, %ymm1, %ymm13
	vpxor	%ymm4, %ymm13, %ymm1
	vpshufb	%ymm15, %ymm1, %ymm11
	vpaddd	%ymm11, %ymm9, %ymm9
	vpxor	%ymm3, %ymm9, %ymm1
	vpsrld	$7, %ymm1, %ymm3
	vpslld	$25, %ymm1, %ymm1
	vpor	%ymm3, %ymm1, %ymm10
	vpaddd	544(%rsp), %ymm2, %ymm2
	vpaddd	608(%rsp), %ymm5, %ymm15
	vpaddd	224(%rsp), %ymm13, %ymm1
	vmovdqa	128(%rsp), %ymm3
	vpaddd	256(%rsp), %ymm3, %ymm3
	vmovdqa	%ymm3, 256(%rsp)
	vpaddd	%ymm6, %ymm2, %ymm4
	vpxor	%ymm4, %ymm0, %ymm0
	vpshufb	.LCPI11_0(%rip), %ymm0, %ymm5
	vpaddd	%ymm5, %ymm9, %ymm0
	vmovdqa	%ymm0, 608(%rsp)
	vpxor	%ymm6, %ymm0, %ymm2
	vpsrld	$12, %ymm2, %ymm6
	vpslld	$20, %ymm2, %ymm2
	vpor	%ymm6, %ymm2, %ymm13
	vpaddd	%ymm8, %ymm15, %ymm3
	vpxor	%ymm3, %ymm11, %ymm2
	vmovdqa	.LCPI11_0(%rip), %ymm0
	vpshufb	%ymm0, %ymm2, %ymm9
	vpaddd	64(%rsp), %ymm9, %ymm2
	vmovdqa	%ymm2, 224(%rsp)
	vpxor	%ymm2, %ymm8, %ymm6
	vpsrld	$12, %ymm6, %ymm8
	vpslld	$20, %ymm6, %ymm6
	vpor	%ymm6, %ymm8, %ymm11
	vpaddd	%ymm7, %ymm1, %ymm1
	vpxor	96(%rsp), %ymm1, %ymm6
	vpshufb	%ymm0, %ymm6, %ymm8
	vmovdqa	%ymm0, %ymm2
	vpaddd	%ymm8, %ymm14, %ymm15
	vpxor	%ymm7, %ymm15, %ymm6
	vpsrld	$12, %ymm6, %ymm7
	vpslld	$20, %ymm6, %ymm6
	vpor	%ymm7, %ymm6, %ymm7
	vpaddd	256(%rsp), %ymm10, %ymm0
	vpxor	160(%rsp), %ymm0, %ymm6
	vpshufb	%ymm2, %ymm6, %ymm6
	vpaddd	%ymm6, %ymm12, %ymm14
	vpxor	%ymm10, %ymm14, %ymm10
	vpsrld	$12, %ymm10, %ymm12
	vpslld	$20, %ymm10, %ymm10
	vpor	%ymm12, %ymm10, %ymm10
	vpaddd	288(%rsp), %ymm4, %ymm4
	vpaddd	512(%rsp), %ymm3, %ymm3
	vpaddd	576(%rsp), %ymm1, %ymm1
	vmovdqa	%ymm1, 256(%rsp)
	vpaddd	448(%rsp), %ymm0, %ymm0
	vmovdqa	%ymm0, 288(%rsp)
	vpaddd	%ymm4, %ymm13, %ymm12
	vpxor	%ymm5, %ymm12, %ymm1
	vbroadcasti128	.LCPI11_5(%rip), %ymm0
	vpshufb	%ymm0, %ymm1, %ymm1
	vmovdqa	%ymm1, 448(%rsp)
	vpaddd	608(%rsp), %ymm1, %ymm1
	vmovdqa	%ymm1, 512(%rsp)
	vpxor	%ymm1, %ymm13, %ymm4
	vpsrld	$7, %ymm4, %ymm5
	vpslld	$25, %ymm4, %ymm4
	vpor	%ymm5, %ymm4, %ymm5
	vpaddd	%ymm3, %ymm11, %ymm1
	vpxor	%ymm1, %ymm9, %ymm3
	vpshufb	%ymm0, %ymm3, %ymm9
	vpaddd	224(%rsp), %ymm9, %ymm13
	vpxor	%ymm11, %ymm13, %ymm2
	vpsrld	$7, %ymm2, %ymm3
	vpslld	$25, %ymm2, %ymm2
	vpor	%ymm3, %ymm2, %ymm2
	vpaddd	256(%rsp), %ymm7, %ymm11
	vpxor	%ymm11, %ymm8, %ymm3
	vpshufb	%ymm0, %ymm3, %ymm8
	vpaddd	%ymm8, %ymm15, %ymm4
	vpxor	%ymm7, %ymm4, %ymm3
	vpsrld	$7, %ymm3, %ymm7
	vpslld	$25, %ymm3, %ymm3
	vpor	%ymm7, %ymm3, %ymm3
	vmovdqa	%ymm3, 224(%rsp)
	vpaddd	288(%rsp), %ymm10, %ymm7
	vpxor	%ymm7, %ymm6, %ymm6
	vpshufb	%ymm0, %ymm6, %ymm0
	vpaddd	%ymm0, %ymm14, %ymm14
	vpxor	%ymm10, %ymm14, %ymm6
	vpsrld	$7, %ymm6, %ymm10
	vpslld	$25, %ymm6, %ymm6
	vpor	%ymm6, %ymm10, %ymm10
	vpaddd	416(%rsp), %ymm7, %ymm6
	vpaddd	640(%rsp), %ymm12, %ymm7
	vpaddd	672(%rsp), %ymm1, %ymm12
	vpaddd	480(%rsp), %ymm11, %ymm11
	vpaddd	%ymm5, %ymm6, %ymm1
	vpaddd	%ymm2, %ymm7, %ymm15
	vpaddd	%ymm3, %ymm12, %ymm12
	vpaddd	%ymm10, %ymm11, %ymm11
	vpxor	%ymm1, %ymm8, %ymm6
	vmovdqa	.LCPI11_0(%rip), %ymm8
	vpshufb	%ymm8, %ymm6, %ymm6
	vpxor	%ymm0, %ymm15, %ymm0
	vpshufb	%ymm8, %ymm0, %ymm7
	vpxor	448(%rsp), %ymm12, %ymm0
	vpshufb	%ymm8, %ymm0, %ymm3
	vpxor	%ymm11, %ymm9, %ymm0
	vpshufb	%ymm8, %ymm0, %ymm9
	vpaddd	%ymm6, %ymm13, %ymm0
	vmovdqa	%ymm0, 480(%rsp)
	vpxor	%ymm5, %ymm0, %ymm0
	vpsrld	$12, %ymm0, %ymm5
	vpslld	$20, %ymm0, %ymm0
	vpor	%ymm5, %ymm0, %ymm13
	vpaddd	%ymm7, %ymm4, %ymm4
	vpxor	%ymm2, %ymm4, %ymm0
	vpsrld	$12, %ymm0, %ymm2
	vpslld	$20, %ymm0, %ymm0
	vpor	%ymm2, %ymm0, %ymm5
	vmovdqa	%ymm3, %ymm8
	vpaddd	%ymm3, %ymm14, %ymm0
	vmovdqa	%ymm0, 672(%rsp)
	vpxor	224(%rsp), %ymm0, %ymm0
	vpsrld	$12, %ymm0, %ymm3
	vpslld	$20, %ymm0, %ymm0
	vpor	%ymm3, %ymm0, %ymm3
	vpaddd	512(%rsp), %ymm9, %ymm0
	vmovdqa	%ymm0, 512(%rsp)
	vpxor	%ymm0, %ymm10, %ymm0
	vpsrld	$12, %ymm0, %ymm10
	vpslld	$20, %ymm0, %ymm0
	vpor	%ymm0, %ymm10, %ymm10
	vpaddd	320(%rsp), %ymm1, %ymm0
	vpaddd	384(%rsp), %ymm15, %ymm1
	vpaddd	352(%rsp), %ymm12, %ymm15
	vpaddd	704(%rsp), %ymm11, %ymm12
	vpaddd	%ymm0, %ymm13, %ymm14
	vpaddd	%ymm5, %ymm1, %ymm11
	vpaddd	%ymm3, %ymm15, %ymm15
	vpaddd	%ymm10, %ymm12, %ymm2
	vpxor	%ymm6, %ymm14, %ymm6
	vbroadcasti128	.LCPI11_5(%rip), %ymm0
	vpshufb	%ymm0, %ymm6, %ymm6
	vpxor	%ymm7, %ymm11, %ymm7
	vpshufb	%ymm0, %ymm7, %ymm7
	vpxor	%ymm15, %ymm8, %ymm8
	vpshufb	%ymm0, %ymm8, %ymm8
	vpxor	%ymm2, %ymm9, %ymm9
	vpshufb	%ymm0, %ymm9, %ymm9
	vpaddd	480(%rsp), %ymm6, %ymm12
	vpxor	%ymm13, %ymm12, %ymm13
	vpsrld	$7, %ymm13, %ymm0
	vpslld	$25, %ymm13, %ymm13
	vpor	%ymm0, %ymm13, %ymm0
	vmovdqa	%ymm0, 704(%rsp)
	vpaddd	%ymm7, %ymm4, %ymm4
	vpxor	%ymm5, %ymm4, %ymm5
	vpsrld	$7, %ymm5, %ymm13
	vpslld	$25, %ymm5, %ymm5
	vpor	%ymm5, %ymm13, %ymm5
	vpaddd	672(%rsp), %ymm8, %ymm13
	vpxor	%ymm3, %ymm13, %ymm3
	vpsrld	$7, %ymm3, %ymm0
	vpslld	$25, %ymm3, %ymm3
	vpor	%ymm0, %ymm3, %ymm1
	vpaddd	512(%rsp), %ymm9, %ymm3
	vpxor	%ymm3, %ymm10, %ymm10
	vpsrld	$7, %ymm10, %ymm0
	vpslld	$25, %ymm10, %ymm10
	vpor	%ymm0, %ymm10, %ymm0
	vpxor	%ymm3, %ymm11, %ymm3
	vpxor	%ymm15, %ymm12, %ymm10
	vpxor	%ymm2, %ymm4, %ymm2
	vpxor	%ymm14, %ymm13, %ymm4
	vpxor	704(%rsp), %ymm8, %ymm8
	vpxor	%ymm5, %ymm9, %ymm5
	vpxor	%ymm6, %ymm1, %ymm1
	vpxor	%ymm7, %ymm0, %ymm0
	vmovdqu	%ymm3, (%rsi)
	vmovdqu	%ymm10, 32(%rsi)
	vmovdqu	%ymm2, 64(%rsi)
	vmovdqu	%ymm4, 96(%rsi)
	vmovdqu	%ymm8, 128(%rsi)
	vmovdqu	%ymm5, 160(%rsi)
	vmovdqu	%ymm1, 192(%rsi)
	vmovdqu	%ymm0, 224(%rsi)
	vmovaps	656(%rbp), %xmm6
	vmovaps	672(%rbp), %xmm7
	vmovaps	688(%rbp), %xmm8
	vmovaps	704(%rbp), %xmm9
	vmovaps	720(%rbp), %xmm10
	vmovaps	736(%rbp), %xmm11
	vmovaps	752(%rbp), %xmm12
	vmovaps	768(%rbp), %xmm13
	vmovaps	784(%rbp), %xmm14
	vmovaps	800(%rbp), %xmm15
	leaq	816(%rbp), %rsp
	popq	%rbx
	popq	%rdi
	popq	%rsi
	popq	%r14
	popq	%rbp
	vzeroupper
	retq
	.seh_endproc

	.section	.rdata,"dr"
	.p2align	5, 0x0
.LCPI12_0:
	.long	0
	.long	0
	.long	64
	.long	20
.LCPI12_1:
	.long	1779033703
	.long	3144134277
	.long	1013904242
	.long	2773480762
.LCPI12_2:
	.byte	1
	.byte	2
	.byte	3
	.byte	0
	.byte	5
	.byte	6
	.byte	7
	.byte	4
	.byte	9
	.byte	10
	.byte	11
	.byte	8
	.byte	13
	.byte	14
	.byte	15
	.byte	12
	.byte	17
	.byte	18
	.byte	19
	.byte	16
	.byte	21
	.byte	22
	.byte	23
	.byte	20
	.byte	25
	.byte	26
	.byte	27
	.byte	24
	.byte	29
	.byte	30
	.byte	31
	.byte	28
.LCPI12_3:
	.byte	2
	.byte	3
	.byte	0
	.byte	1
	.byte	6
	.byte	7
	.byte	4
	.byte	5
	.byte	10
	.byte	11
	.byte	8
	.byte	9
	.byte	14
	.byte	15
	.byte	12
	.byte	13
	.byte	18
	.byte	19
	.byte	16
	.byte	17
	.byte	22
	.byte	23
	.byte	20
	.byte	21
	.byte	26
	.byte	27
	.byte	24
	.byte	25
	.byte	30
	.byte	31
	.byte	28
	.byte	29
.LCPI12_4:
	.byte	10
	.byte	11
	.byte	8
	.byte	9
	.byte	14
	.byte	15
	.byte	12
	.byte	13
	.byte	2
	.byte	3
	.byte	0
	.byte	1
	.byte	6
	.byte	7
	.byte	4
	.byte	5
	.byte	26
	.byte	27
	.byte	24
	.byte	25
	.byte	30
	.byte	31
	.byte	28
	.byte	29
	.byte	18
	.byte	19
	.byte	16
	.byte	17
	.byte	22
	.byte	23
	.byte	20
	.byte	21
.LCPI12_5:
	.long	0
	.long	0
	.long	2
	.long	2
	.long	2
	.long	2
	.zero	4
	.zero	4
.LCPI12_6:
	.long	4
	.long	4
	.long	2
	.long	2
	.long	6
	.long	6
	.long	6
	.long	6
.LCPI12_7:
	.long	0
	.long	2
	.zero	4
	.long	1
	.long	4
	.long	6
	.zero	4
	.long	3
.LCPI12_8:
	.long	0
	.long	2
	.zero	4
	.long	5
	.long	4
	.long	6
	.zero	4
	.long	7
.LCPI12_9:
	.long	5
	.zero	4
	.zero	4
	.zero	4
	.long	7
	.zero	4
	.zero	4
	.zero	4
.LCPI12_10:
	.zero	4
	.zero	4
	.long	5
	.long	4
	.zero	4
	.zero	4
	.long	7
	.long	6
.LCPI12_11:
	.zero	4
	.zero	4
	.long	1
	.long	0
	.zero	4
	.zero	4
	.long	3
	.long	2
.LCPI12_12:
	.zero	4
	.zero	4
	.long	2
	.long	6
	.zero	4
	.zero	4
	.long	3
	.long	7
.LCPI12_13:
	.long	2
	.long	6
	.zero	4
	.zero	4
	.long	3
	.long	7
	.zero	4
	.zero	4
.LCPI12_14:
	.zero	4
	.zero	4
	.long	0
	.long	4
	.zero	4
	.zero	4
	.long	1
	.long	5
.LCPI12_15:
	.long	0
	.long	4
	.zero	4
	.zero	4
	.long	1
	.long	5
	.zero	4
	.zero	4
	.section	.text
	.p2align	4
	.def	"keyed_blake3::subtrees::four_parent_values::<#a9687390e0dd665c>";
	.scl	3;
	.type	32;
	.endef
"keyed_blake3::subtrees::four_parent_values::<#a9687390e0dd665c>":
.seh_proc "keyed_blake3::subtrees::four_parent_values::<#a9687390e0dd665c>"
	subq	$1848, %rsp
	.seh_stackalloc 1848
	vmovaps	%xmm15, 1824(%rsp)
	.seh_savexmm %xmm15, 1824
	vmovaps	%xmm14, 1808(%rsp)
	.seh_savexmm %xmm14, 1808
	vmovaps	%xmm13, 1792(%rsp)
	.seh_savexmm %xmm13, 1792
	vmovaps	%xmm12, 1776(%rsp)
	.seh_savexmm %xmm12, 1776
	vmovaps	%xmm11, 1760(%rsp)
	.seh_savexmm %xmm11, 1760
	vmovaps	%xmm10, 1744(%rsp)
	.seh_savexmm %xmm10, 1744
	vmovaps	%xmm9, 1728(%rsp)
	.seh_savexmm %xmm9, 1728
	vmovaps	%xmm8, 1712(%rsp)
	.seh_savexmm %xmm8, 1712
	vmovaps	%xmm7, 1696(%rsp)
	.seh_savexmm %xmm7, 1696
	vmovaps	%xmm6, 1680(%rsp)
	.seh_savexmm %xmm6, 1680
	.seh_endprologue
	vmovups	(%r9), %xmm5
	vmovups	16(%r9), %xmm4
	vmovaps	%xmm4, 64(%rsp)
	vmovups	32(%r9), %xmm1
	vunpcklps	%xmm1, %xmm5, %xmm0
	vunpckhps	%xmm1, %xmm5, %xmm2
	vmovaps	%xmm5, 416(%rsp)
	vinsertf128	$1, %xmm2, %ymm0, %ymm7
	vmovups	%ymm7, 976(%rsp)
	vmovups	96(%r9), %xmm0
	vmovups	64(%r9), %xmm6
	vmovups	48(%r9), %xmm2
	vunpckhps	%xmm2, %xmm4, %xmm3
	vunpcklps	%xmm2, %xmm4, %xmm2
	vinsertf128	$1, %xmm3, %ymm2, %ymm2
	vmovups	%ymm2, 512(%rsp)
	vunpckhps	%xmm0, %xmm6, %xmm2
	vunpcklps	%xmm0, %xmm6, %xmm3
	vmovaps	%xmm6, 672(%rsp)
	vinsertf128	$1, %xmm2, %ymm3, %ymm13
	vmovups	%ymm13, 1424(%rsp)
	vshufps	$245, %xmm5, %xmm5, %xmm2
	vblendps	$10, %xmm1, %xmm2, %xmm2
	vmovdqu	112(%r9), %xmm1
	vmovdqu	80(%r9), %xmm4
	vmovdqa	%xmm4, 640(%rsp)
	vpunpckhdq	%xmm1, %xmm4, %xmm3
	vpunpckldq	%xmm1, %xmm4, %xmm1
	vinserti128	$1, %xmm3, %ymm1, %ymm15
	vmovdqu	%ymm15, 1392(%rsp)
	vmovups	160(%r9), %xmm9
	vmovups	128(%r9), %xmm3
	vunpckhps	%xmm9, %xmm3, %xmm1
	vunpcklps	%xmm9, %xmm3, %xmm4
	vmovaps	%xmm9, 176(%rsp)
	vinsertf128	$1, %xmm1, %ymm4, %ymm8
	vmovups	%ymm8, 1136(%rsp)
	vmovups	176(%r9), %xmm5
	vmovaps	%xmm5, 736(%rsp)
	vmovups	144(%r9), %xmm1
	vunpckhps	%xmm5, %xmm1, %xmm4
	vunpcklps	%xmm5, %xmm1, %xmm1
	vinsertf128	$1, %xmm4, %ymm1, %ymm10
	vmovups	%ymm10, 1072(%rsp)
	vmovups	224(%r9), %xmm1
	vmovups	192(%r9), %xmm14
	vunpckhps	%xmm1, %xmm14, %xmm4
	vunpcklps	%xmm1, %xmm14, %xmm5
	vmovaps	%xmm14, 160(%rsp)
	vinsertf128	$1, %xmm4, %ymm5, %ymm11
	vmovups	%ymm11, 1168(%rsp)
	vmovdqu	240(%r9), %xmm4
	vmovdqu	208(%r9), %xmm12
	vmovdqa	%xmm12, 384(%rsp)
	vpunpckhdq	%xmm4, %xmm12, %xmm5
	vpunpckldq	%xmm4, %xmm12, %xmm4
	vinserti128	$1, %xmm5, %ymm4, %ymm5
	vmovdqu	%ymm5, 1104(%rsp)
	vpermpd	$212, %ymm2, %ymm4
	vmovups	%ymm4, 1648(%rsp)
	vshufps	$245, %xmm3, %xmm3, %xmm2
	vblendps	$10, %xmm9, %xmm2, %xmm2
	vpermpd	$212, %ymm2, %ymm2
	vmovups	%ymm2, 1584(%rsp)
	vblendps	$204, %ymm13, %ymm4, %ymm12
	vblendps	$204, %ymm11, %ymm2, %ymm2
	vmovups	%ymm2, (%rsp)
	vshufps	$103, %ymm2, %ymm2, %ymm2
	vshufps	$244, %ymm12, %ymm12, %ymm3
	vmovups	%ymm12, 448(%rsp)
	vblendps	$153, %ymm2, %ymm3, %ymm2
	vmovups	%ymm2, 320(%rsp)
	vpshufd	$245, (%r9), %ymm2
	vmovdqu	32(%r9), %ymm3
	vmovdqu	%ymm3, 1360(%rsp)
	vpblendd	$170, %ymm3, %ymm2, %ymm2
	vpermq	$246, %ymm2, %ymm3
	vmovdqu	%ymm3, 1616(%rsp)
	vmovdqu	128(%r9), %ymm2
	vmovdqu	%ymm2, 944(%rsp)
	vmovdqu	160(%r9), %ymm4
	vmovdqu	%ymm4, 752(%rsp)
	vpshufd	$245, %ymm2, %ymm2
	vpblendd	$170, %ymm4, %ymm2, %ymm2
	vpermq	$246, %ymm2, %ymm2
	vmovdqu	%ymm2, 1552(%rsp)
	vpblendd	$204, %ymm15, %ymm3, %ymm13
	vpblendd	$204, %ymm5, %ymm2, %ymm11
	vpshufd	$103, %ymm11, %ymm2
	vmovdqu	%ymm11, 224(%rsp)
	vpshufd	$244, %ymm13, %ymm3
	vmovdqu	%ymm13, 480(%rsp)
	vpblendd	$153, %ymm2, %ymm3, %ymm2
	vmovdqu	%ymm2, 352(%rsp)
	vshufps	$160, %xmm0, %xmm0, %xmm0
	vblendps	$10, %xmm0, %xmm6, %xmm0
	vpermpd	$96, %ymm0, %ymm0
	vblendps	$204, %ymm0, %ymm7, %ymm0
	vshufps	$160, %xmm1, %xmm1, %xmm1
	vblendps	$10, %xmm1, %xmm14, %xmm1
	vpermpd	$96, %ymm1, %ymm1
	vblendps	$204, %ymm1, %ymm8, %ymm14
	vbroadcasti128	(%r8), %ymm3
	vpaddd	(%rdx), %xmm3, %xmm1
	vinserti128	$1, %xmm1, %ymm1, %ymm4
	vshufps	$136, %ymm14, %ymm0, %ymm1
	vmovups	%ymm1, 32(%rsp)
	vmovups	%ymm14, 1008(%rsp)
	vpaddd	%ymm4, %ymm1, %ymm1
	vbroadcasti128	.LCPI12_0(%rip), %ymm5
	vpxor	%ymm5, %ymm1, %ymm2
	vpslld	$16, %ymm2, %ymm2
	vpsrld	$16, %ymm1, %ymm6
	vpblendw	$170, %ymm2, %ymm6, %ymm2
	vmovups	64(%r9), %ymm7
	vmovups	%ymm7, 816(%rsp)
	vmovups	96(%r9), %ymm6
	vmovups	%ymm6, 288(%rsp)
	vshufps	$160, %ymm6, %ymm6, %ymm6
	vblendps	$170, %ymm6, %ymm7, %ymm6
	vpermpd	$232, %ymm6, %ymm6
	vblendps	$51, 512(%rsp), %ymm6, %ymm6
	vmovups	192(%r9), %ymm8
	vmovups	%ymm8, 704(%rsp)
	vmovups	224(%r9), %ymm7
	vmovups	%ymm7, 880(%rsp)
	vshufps	$160, %ymm7, %ymm7, %ymm7
	vblendps	$170, %ymm7, %ymm8, %ymm7
	vpermpd	$232, %ymm7, %ymm7
	vblendps	$204, %ymm7, %ymm10, %ymm15
	vshufps	$136, %ymm15, %ymm6, %ymm8
	vmovups	%ymm8, 912(%rsp)
	vmovups	%ymm15, 1040(%rsp)
	vpaddd	%ymm4, %ymm8, %ymm4
	vpxor	%ymm5, %ymm4, %ymm5
	vpslld	$16, %ymm5, %ymm5
	vpsrld	$16, %ymm4, %ymm7
	vpblendw	$170, %ymm5, %ymm7, %ymm7
	vbroadcasti128	.LCPI12_1(%rip), %ymm8
	vpaddd	%ymm7, %ymm8, %ymm5
	vpxor	%ymm3, %ymm5, %ymm9
	vpsrld	$12, %ymm9, %ymm10
	vpslld	$20, %ymm9, %ymm9
	vpor	%ymm10, %ymm9, %ymm9
	vpaddd	%ymm2, %ymm8, %ymm8
	vpxor	%ymm3, %ymm8, %ymm3
	vpsrld	$12, %ymm3, %ymm10
	vpslld	$20, %ymm3, %ymm3
	vpor	%ymm3, %ymm10, %ymm3
	vshufps	$221, %ymm15, %ymm6, %ymm6
	vmovups	%ymm6, 128(%rsp)
	vpaddd	%ymm6, %ymm4, %ymm4
	vpaddd	%ymm4, %ymm9, %ymm6
	vmovdqa	.LCPI12_2(%rip), %ymm15
	vpshufb	%ymm15, %ymm7, %ymm4
	vpshufb	%ymm15, %ymm6, %ymm7
	vpxor	%ymm4, %ymm7, %ymm4
	vshufps	$221, %ymm14, %ymm0, %ymm0
	vmovups	%ymm0, 96(%rsp)
	vpaddd	%ymm0, %ymm1, %ymm0
	vpaddd	%ymm3, %ymm0, %ymm7
	vpshufb	%ymm15, %ymm2, %ymm0
	vpshufb	%ymm15, %ymm7, %ymm1
	vpxor	%ymm0, %ymm1, %ymm10
	vpaddd	%ymm8, %ymm10, %ymm0
	vpxor	%ymm3, %ymm0, %ymm1
	vpsrld	$7, %ymm1, %ymm2
	vpslld	$25, %ymm1, %ymm1
	vpor	%ymm2, %ymm1, %ymm1
	vpaddd	%ymm5, %ymm4, %ymm8
	vpxor	%ymm9, %ymm8, %ymm2
	vpsrld	$7, %ymm2, %ymm3
	vpslld	$25, %ymm2, %ymm2
	vpor	%ymm3, %ymm2, %ymm9
	vpshufd	$38, %ymm11, %ymm3
	vpshufd	$224, %ymm13, %ymm2
	vpblendd	$153, %ymm3, %ymm2, %ymm2
	vpshufd	$147, %ymm6, %ymm5
	vpaddd	%ymm2, %ymm5, %ymm6
	vpermilps	$38, (%rsp), %ymm14
	vshufps	$224, %ymm12, %ymm12, %ymm5
	vblendps	$153, %ymm14, %ymm5, %ymm5
	vpshufd	$147, %ymm7, %ymm7
	vpaddd	%ymm5, %ymm7, %ymm5
	vpaddd	%ymm1, %ymm5, %ymm5
	vmovdqa	.LCPI12_4(%rip), %ymm2
	vpshufb	%ymm2, %ymm10, %ymm7
	vmovdqa	.LCPI12_3(%rip), %ymm11
	vpshufb	%ymm11, %ymm5, %ymm10
	vpxor	%ymm7, %ymm10, %ymm10
	vpaddd	%ymm6, %ymm9, %ymm7
	vpshufb	%ymm2, %ymm4, %ymm4
	vpshufb	%ymm11, %ymm7, %ymm6
	vpxor	%ymm4, %ymm6, %ymm4
	vpshufd	$57, %ymm8, %ymm6
	vpaddd	%ymm6, %ymm4, %ymm6
	vpxor	%ymm6, %ymm9, %ymm8
	vpsrld	$12, %ymm8, %ymm9
	vpslld	$20, %ymm8, %ymm8
	vpor	%ymm9, %ymm8, %ymm13
	vpshufd	$57, %ymm0, %ymm0
	vpaddd	%ymm0, %ymm10, %ymm8
	vpxor	%ymm1, %ymm8, %ymm0
	vpsrld	$12, %ymm0, %ymm1
	vpslld	$20, %ymm0, %ymm0
	vpor	%ymm1, %ymm0, %ymm1
	vmovdqu	352(%rsp), %ymm2
	vpaddd	%ymm2, %ymm7, %ymm0
	vpaddd	%ymm0, %ymm13, %ymm7
	vpshufb	%ymm15, %ymm4, %ymm0
	vpshufb	%ymm15, %ymm7, %ymm4
	vpxor	%ymm0, %ymm4, %ymm0
	vmovdqu	320(%rsp), %ymm11
	vpaddd	%ymm5, %ymm11, %ymm4
	vpaddd	%ymm1, %ymm4, %ymm12
	vpshufb	%ymm15, %ymm10, %ymm4
	vpshufb	%ymm15, %ymm12, %ymm5
	vpxor	%ymm4, %ymm5, %ymm9
	vpaddd	%ymm8, %ymm9, %ymm4
	vpxor	%ymm1, %ymm4, %ymm1
	vpsrld	$7, %ymm1, %ymm5
	vpslld	$25, %ymm1, %ymm1
	vpor	%ymm5, %ymm1, %ymm1
	vpaddd	%ymm6, %ymm0, %ymm8
	vpxor	%ymm13, %ymm8, %ymm5
	vpsrld	$7, %ymm5, %ymm6
	vpslld	$25, %ymm5, %ymm5
	vpor	%ymm6, %ymm5, %ymm10
	vpunpcklqdq	128(%rsp), %ymm2, %ymm5
	vpblendd	$136, %ymm3, %ymm5, %ymm5
	vpunpcklqdq	96(%rsp), %ymm11, %ymm3
	vpblendd	$136, %ymm14, %ymm3, %ymm3
	vmovdqa	.LCPI12_5(%rip), %ymm2
	vmovdqu	816(%rsp), %ymm13
	vpermd	%ymm13, %ymm2, %ymm2
	vpblendd	$221, 1008(%rsp), %ymm2, %ymm2
	vmovdqu	%ymm2, 192(%rsp)
	vmovdqu	288(%rsp), %ymm11
	vpermq	$96, %ymm11, %ymm6
	vmovdqu	%ymm6, 1328(%rsp)
	vpblendd	$68, %ymm6, %ymm2, %ymm6
	vmovdqu	%ymm6, 848(%rsp)
	vpaddd	%ymm6, %ymm12, %ymm2
	vpshufd	$57, %ymm2, %ymm2
	vpaddd	%ymm2, %ymm1, %ymm6
	vmovdqa	.LCPI12_4(%rip), %ymm12
	vpshufb	%ymm12, %ymm9, %ymm2
	vmovdqa	.LCPI12_3(%rip), %ymm14
	vpshufb	%ymm14, %ymm6, %ymm9
	vpxor	%ymm2, %ymm9, %ymm2
	vmovdqa	.LCPI12_6(%rip), %ymm9
	vpermd	%ymm13, %ymm9, %ymm9
	vpblendd	$221, 1040(%rsp), %ymm9, %ymm9
	vmovdqu	%ymm9, 256(%rsp)
	vpermq	$232, %ymm11, %ymm11
	vmovdqu	%ymm11, 1296(%rsp)
	vpblendd	$68, %ymm11, %ymm9, %ymm9
	vmovdqu	%ymm9, 288(%rsp)
	vpaddd	%ymm7, %ymm9, %ymm7
	vpshufd	$57, %ymm7, %ymm7
	vpaddd	%ymm7, %ymm10, %ymm9
	vpshufb	%ymm12, %ymm0, %ymm0
	vpshufb	%ymm14, %ymm9, %ymm7
	vpxor	%ymm0, %ymm7, %ymm11
	vpshufd	$147, %ymm8, %ymm0
	vpaddd	%ymm0, %ymm11, %ymm0
	vpxor	%ymm0, %ymm10, %ymm7
	vpsrld	$12, %ymm7, %ymm8
	vpslld	$20, %ymm7, %ymm7
	vpor	%ymm7, %ymm8, %ymm7
	vpshufd	$147, %ymm4, %ymm4
	vpaddd	%ymm4, %ymm2, %ymm4
	vpxor	%ymm1, %ymm4, %ymm1
	vpsrld	$12, %ymm1, %ymm8
	vpslld	$20, %ymm1, %ymm1
	vpor	%ymm1, %ymm8, %ymm8
	vpshufd	$199, 912(%rsp), %ymm10
	vmovdqu	%ymm10, 608(%rsp)
	vmovdqa	%ymm13, %ymm12
	vpermq	$246, %ymm13, %ymm1
	vpblendd	$34, %ymm1, %ymm10, %ymm1
	vmovdqu	752(%rsp), %ymm10
	vpermq	$232, %ymm10, %ymm14
	vpblendd	$136, %ymm14, %ymm1, %ymm1
	vmovdqu	%ymm14, 784(%rsp)
	vpaddd	%ymm1, %ymm9, %ymm1
	vpshufd	$199, 32(%rsp), %ymm13
	vmovdqu	%ymm13, 576(%rsp)
	vpermq	$212, %ymm12, %ymm9
	vpblendd	$34, %ymm9, %ymm13, %ymm9
	vpermq	$96, %ymm10, %ymm13
	vpblendd	$136, %ymm13, %ymm9, %ymm9
	vpaddd	%ymm6, %ymm9, %ymm6
	vpaddd	%ymm7, %ymm1, %ymm9
	vpshufb	%ymm15, %ymm11, %ymm1
	vpshufb	%ymm15, %ymm9, %ymm10
	vpxor	%ymm1, %ymm10, %ymm11
	vpaddd	%ymm6, %ymm8, %ymm10
	vpshufb	%ymm15, %ymm2, %ymm1
	vpshufb	%ymm15, %ymm10, %ymm2
	vpxor	%ymm1, %ymm2, %ymm2
	vpaddd	%ymm4, %ymm2, %ymm1
	vpxor	%ymm1, %ymm8, %ymm4
	vpsrld	$7, %ymm4, %ymm6
	vpslld	$25, %ymm4, %ymm4
	vpor	%ymm6, %ymm4, %ymm6
	vpaddd	%ymm0, %ymm11, %ymm0
	vpxor	%ymm7, %ymm0, %ymm4
	vpsrld	$7, %ymm4, %ymm7
	vpslld	$25, %ymm4, %ymm4
	vpor	%ymm7, %ymm4, %ymm7
	vpshufd	$120, %ymm3, %ymm4
	vmovdqu	%ymm4, 544(%rsp)
	vpshufd	$147, %ymm10, %ymm3
	vpaddd	%ymm4, %ymm3, %ymm3
	vpaddd	%ymm6, %ymm3, %ymm4
	vmovdqa	.LCPI12_4(%rip), %ymm8
	vpshufb	%ymm8, %ymm2, %ymm2
	vmovdqa	.LCPI12_3(%rip), %ymm10
	vpshufb	%ymm10, %ymm4, %ymm3
	vpxor	%ymm2, %ymm3, %ymm2
	vpshufd	$120, %ymm5, %ymm15
	vpshufd	$147, %ymm9, %ymm3
	vpaddd	%ymm3, %ymm15, %ymm3
	vpaddd	%ymm7, %ymm3, %ymm5
	vpshufb	%ymm8, %ymm11, %ymm3
	vpshufb	%ymm10, %ymm5, %ymm9
	vpxor	%ymm3, %ymm9, %ymm9
	vpshufd	$57, %ymm0, %ymm0
	vpaddd	%ymm0, %ymm9, %ymm3
	vpxor	%ymm7, %ymm3, %ymm0
	vpsrld	$12, %ymm0, %ymm7
	vpslld	$20, %ymm0, %ymm0
	vpor	%ymm7, %ymm0, %ymm12
	vpshufd	$57, %ymm1, %ymm0
	vpaddd	%ymm0, %ymm2, %ymm7
	vpxor	%ymm6, %ymm7, %ymm0
	vpsrld	$12, %ymm0, %ymm1
	vpslld	$20, %ymm0, %ymm0
	vpor	%ymm1, %ymm0, %ymm6
	vpshufd	$236, 480(%rsp), %ymm1
	vpmovzxdq	384(%rsp), %ymm0
	vmovdqu	%ymm0, 1520(%rsp)
	vpblendd	$204, %ymm0, %ymm1, %ymm0
	vpshufd	$164, %ymm0, %ymm0
	vpblendd	$68, %ymm14, %ymm0, %ymm0
	vpaddd	%ymm0, %ymm5, %ymm5
	vpshufd	$236, 448(%rsp), %ymm8
	vpmovzxdq	160(%rsp), %ymm11
	vmovdqu	%ymm11, 1488(%rsp)
	vpblendd	$204, %ymm11, %ymm8, %ymm11
	vpshufd	$164, %ymm11, %ymm11
	vmovdqa	%ymm13, %ymm10
	vmovdqu	%ymm13, 1264(%rsp)
	vpblendd	$68, %ymm13, %ymm11, %ymm11
	vpaddd	%ymm4, %ymm11, %ymm11
	vpaddd	%ymm5, %ymm12, %ymm4
	vmovdqa	.LCPI12_2(%rip), %ymm0
	vpshufb	%ymm0, %ymm9, %ymm5
	vpshufb	%ymm0, %ymm4, %ymm9
	vpxor	%ymm5, %ymm9, %ymm5
	vpaddd	%ymm6, %ymm11, %ymm9
	vpshufb	%ymm0, %ymm2, %ymm2
	vpshufb	%ymm0, %ymm9, %ymm11
	vpxor	%ymm2, %ymm11, %ymm11
	vpaddd	%ymm7, %ymm11, %ymm7
	vpxor	%ymm6, %ymm7, %ymm2
	vpsrld	$7, %ymm2, %ymm6
	vpslld	$25, %ymm2, %ymm2
	vpor	%ymm6, %ymm2, %ymm6
	vpaddd	%ymm3, %ymm5, %ymm2
	vpxor	%ymm2, %ymm12, %ymm3
	vpsrld	$7, %ymm3, %ymm12
	vpslld	$25, %ymm3, %ymm3
	vpor	%ymm3, %ymm12, %ymm3
	vpshufd	$160, (%rsp), %ymm12
	vpshufd	$212, 192(%rsp), %ymm14
	vpblendd	$170, %ymm12, %ymm14, %ymm14
	vpshufd	$160, 224(%rsp), %ymm12
	vpshufd	$212, 256(%rsp), %ymm13
	vpblendd	$170, %ymm12, %ymm13, %ymm12
	vmovdqu	704(%rsp), %ymm0
	vpermq	$232, %ymm0, %ymm13
	vmovdqu	%ymm13, 1456(%rsp)
	vpblendd	$204, %ymm13, %ymm1, %ymm1
	vpblendd	$136, %ymm15, %ymm1, %ymm1
	vmovdqu	%ymm1, 1232(%rsp)
	vpermq	$96, %ymm0, %ymm1
	vmovdqu	%ymm1, 704(%rsp)
	vpblendd	$204, %ymm1, %ymm8, %ymm0
	vpblendd	$136, 544(%rsp), %ymm0, %ymm0
	vmovdqu	%ymm0, 1200(%rsp)
	vmovdqu	880(%rsp), %ymm1
	vpblendd	$245, 96(%rsp), %ymm1, %ymm0
	vmovdqa	.LCPI12_7(%rip), %ymm8
	vpermd	%ymm0, %ymm8, %ymm0
	vpblendd	$68, 576(%rsp), %ymm0, %ymm0
	vmovdqu	%ymm0, 544(%rsp)
	vpblendd	$95, 128(%rsp), %ymm1, %ymm8
	vmovdqa	.LCPI12_8(%rip), %ymm13
	vpermd	%ymm8, %ymm13, %ymm8
	vpblendd	$68, 608(%rsp), %ymm8, %ymm8
	vpmovzxdq	672(%rsp), %ymm1
	vmovdqu	%ymm1, 128(%rsp)
	vpshufd	$235, 848(%rsp), %ymm0
	vmovdqu	%ymm0, 672(%rsp)
	vpblendd	$204, %ymm1, %ymm0, %ymm13
	vpblendd	$136, %ymm10, %ymm13, %ymm0
	vmovdqu	%ymm0, 608(%rsp)
	vpaddd	%ymm0, %ymm9, %ymm9
	vpshufd	$57, %ymm9, %ymm9
	vpaddd	%ymm6, %ymm9, %ymm13
	vmovdqa	.LCPI12_4(%rip), %ymm15
	vpshufb	%ymm15, %ymm11, %ymm9
	vmovdqa	.LCPI12_3(%rip), %ymm10
	vpshufb	%ymm10, %ymm13, %ymm11
	vpxor	%ymm9, %ymm11, %ymm9
	vpmovzxdq	640(%rsp), %ymm0
	vmovdqu	%ymm0, 96(%rsp)
	vpshufd	$235, 288(%rsp), %ymm1
	vmovdqu	%ymm1, 640(%rsp)
	vpblendd	$204, %ymm0, %ymm1, %ymm11
	vpblendd	$136, 784(%rsp), %ymm11, %ymm0
	vmovdqu	%ymm0, 576(%rsp)
	vpaddd	%ymm0, %ymm4, %ymm4
	vpshufd	$57, %ymm4, %ymm4
	vpaddd	%ymm4, %ymm3, %ymm4
	vpshufb	%ymm15, %ymm5, %ymm5
	vpshufb	%ymm10, %ymm4, %ymm11
	vpxor	%ymm5, %ymm11, %ymm11
	vpshufd	$147, %ymm2, %ymm2
	vpaddd	%ymm2, %ymm11, %ymm5
	vpxor	%ymm3, %ymm5, %ymm2
	vpsrld	$12, %ymm2, %ymm3
	vpslld	$20, %ymm2, %ymm2
	vpor	%ymm3, %ymm2, %ymm0
	vpshufd	$147, %ymm7, %ymm2
	vpaddd	%ymm2, %ymm9, %ymm2
	vpxor	%ymm6, %ymm2, %ymm3
	vpsrld	$12, %ymm3, %ymm6
	vpslld	$20, %ymm3, %ymm3
	vpor	%ymm6, %ymm3, %ymm3
	vpaddd	%ymm4, %ymm12, %ymm4
	vpaddd	%ymm14, %ymm13, %ymm6
	vpaddd	%ymm0, %ymm4, %ymm7
	vmovdqa	.LCPI12_2(%rip), %ymm15
	vpshufb	%ymm15, %ymm11, %ymm4
	vpshufb	%ymm15, %ymm7, %ymm11
	vpxor	%ymm4, %ymm11, %ymm4
	vpaddd	%ymm3, %ymm6, %ymm6
	vpshufb	%ymm15, %ymm9, %ymm9
	vpshufb	%ymm15, %ymm6, %ymm11
	vpxor	%ymm9, %ymm11, %ymm9
	vpaddd	%ymm2, %ymm9, %ymm2
	vpxor	%ymm3, %ymm2, %ymm3
	vpsrld	$7, %ymm3, %ymm11
	vpslld	$25, %ymm3, %ymm3
	vpor	%ymm3, %ymm11, %ymm3
	vpaddd	%ymm5, %ymm4, %ymm5
	vpxor	%ymm0, %ymm5, %ymm0
	vpsrld	$7, %ymm0, %ymm11
	vpslld	$25, %ymm0, %ymm0
	vpor	%ymm0, %ymm11, %ymm0
	vpshufd	$120, 1232(%rsp), %ymm10
	vpshufd	$147, %ymm7, %ymm7
	vpaddd	%ymm7, %ymm10, %ymm7
	vpshufd	$120, 1200(%rsp), %ymm1
	vpshufd	$147, %ymm6, %ymm6
	vpaddd	%ymm1, %ymm6, %ymm1
	vpaddd	%ymm3, %ymm1, %ymm6
	vmovdqa	.LCPI12_4(%rip), %ymm11
	vpshufb	%ymm11, %ymm9, %ymm1
	vmovdqa	.LCPI12_3(%rip), %ymm10
	vpshufb	%ymm10, %ymm6, %ymm9
	vpxor	%ymm1, %ymm9, %ymm9
	vpaddd	%ymm0, %ymm7, %ymm7
	vpshufb	%ymm11, %ymm4, %ymm1
	vpshufb	%ymm10, %ymm7, %ymm4
	vpxor	%ymm1, %ymm4, %ymm4
	vpshufd	$57, %ymm5, %ymm1
	vpaddd	%ymm1, %ymm4, %ymm1
	vpxor	%ymm0, %ymm1, %ymm0
	vpsrld	$12, %ymm0, %ymm5
	vpslld	$20, %ymm0, %ymm0
	vpor	%ymm5, %ymm0, %ymm5
	vpshufd	$57, %ymm2, %ymm0
	vpaddd	%ymm0, %ymm9, %ymm2
	vpxor	%ymm3, %ymm2, %ymm0
	vpsrld	$12, %ymm0, %ymm3
	vpslld	$20, %ymm0, %ymm0
	vpor	%ymm3, %ymm0, %ymm10
	vpaddd	%ymm7, %ymm8, %ymm0
	vpaddd	544(%rsp), %ymm6, %ymm6
	vpaddd	%ymm5, %ymm0, %ymm3
	vpshufb	%ymm15, %ymm4, %ymm0
	vpshufb	%ymm15, %ymm3, %ymm4
	vpxor	%ymm0, %ymm4, %ymm8
	vpaddd	%ymm6, %ymm10, %ymm6
	vpshufb	%ymm15, %ymm9, %ymm0
	vpshufb	%ymm15, %ymm6, %ymm4
	vpxor	%ymm0, %ymm4, %ymm0
	vpaddd	%ymm2, %ymm0, %ymm15
	vpxor	%ymm10, %ymm15, %ymm2
	vpsrld	$7, %ymm2, %ymm7
	vpslld	$25, %ymm2, %ymm2
	vpor	%ymm7, %ymm2, %ymm7
	vpaddd	%ymm1, %ymm8, %ymm4
	vpxor	%ymm5, %ymm4, %ymm2
	vpsrld	$7, %ymm2, %ymm5
	vpslld	$25, %ymm2, %ymm2
	vpor	%ymm5, %ymm2, %ymm2
	vmovdqu	848(%rsp), %ymm5
	vpblendd	$51, 320(%rsp), %ymm5, %ymm10
	vmovdqu	288(%rsp), %ymm5
	vpblendd	$51, 352(%rsp), %ymm5, %ymm5
	vmovdqu	752(%rsp), %ymm12
	vmovdqa	.LCPI12_5(%rip), %ymm9
	vpermd	%ymm12, %ymm9, %ymm9
	vmovdqu	944(%rsp), %ymm13
	vpermq	$96, %ymm13, %ymm11
	vmovdqu	1360(%rsp), %ymm14
	vpermq	$212, %ymm14, %ymm1
	vmovdqu	%ymm1, 352(%rsp)
	vpblendd	$204, %ymm11, %ymm1, %ymm11
	vpblendd	$34, %ymm9, %ymm11, %ymm9
	vmovdqa	.LCPI12_6(%rip), %ymm11
	vpermd	%ymm12, %ymm11, %ymm11
	vpermq	$246, %ymm14, %ymm1
	vmovdqu	%ymm1, 320(%rsp)
	vpermq	$232, %ymm13, %ymm12
	vpblendd	$204, %ymm12, %ymm1, %ymm12
	vpblendd	$34, %ymm11, %ymm12, %ymm11
	vpblendd	$136, 1392(%rsp), %ymm11, %ymm11
	vpblendd	$136, 1424(%rsp), %ymm9, %ymm9
	vpmovzxdq	416(%rsp), %ymm12
	vmovups	32(%rsp), %ymm13
	vshufps	$163, %ymm12, %ymm13, %ymm12
	vmovups	816(%rsp), %ymm14
	vpermpd	$96, %ymm14, %ymm13
	vblendps	$68, %ymm13, %ymm12, %ymm1
	vmovups	%ymm1, 32(%rsp)
	vpmovzxdq	64(%rsp), %ymm12
	vmovups	912(%rsp), %ymm13
	vshufps	$163, %ymm12, %ymm13, %ymm12
	vpermpd	$232, %ymm14, %ymm13
	vblendps	$68, %ymm13, %ymm12, %ymm12
	vmovdqu	128(%rsp), %ymm13
	vpunpckhqdq	1264(%rsp), %ymm13, %ymm13
	vpshufd	$224, (%rsp), %ymm14
	vpblendd	$102, %ymm14, %ymm13, %ymm13
	vpshufd	$57, %ymm6, %ymm6
	vpaddd	%ymm6, %ymm13, %ymm6
	vmovdqu	96(%rsp), %ymm13
	vpunpckhqdq	784(%rsp), %ymm13, %ymm13
	vpshufd	$224, 224(%rsp), %ymm14
	vpblendd	$102, %ymm14, %ymm13, %ymm13
	vpshufd	$57, %ymm3, %ymm3
	vpaddd	%ymm3, %ymm13, %ymm3
	vpaddd	%ymm6, %ymm7, %ymm13
	vmovdqa	.LCPI12_4(%rip), %ymm14
	vpshufb	%ymm14, %ymm0, %ymm0
	vmovdqa	.LCPI12_3(%rip), %ymm1
	vpshufb	%ymm1, %ymm13, %ymm6
	vpxor	%ymm0, %ymm6, %ymm0
	vpaddd	%ymm3, %ymm2, %ymm3
	vpshufb	%ymm14, %ymm8, %ymm6
	vpshufb	%ymm1, %ymm3, %ymm8
	vmovdqa	%ymm1, %ymm14
	vpxor	%ymm6, %ymm8, %ymm8
	vpshufd	$147, %ymm4, %ymm1
	vpaddd	%ymm1, %ymm8, %ymm6
	vpxor	%ymm2, %ymm6, %ymm1
	vpsrld	$12, %ymm1, %ymm2
	vpslld	$20, %ymm1, %ymm1
	vpor	%ymm2, %ymm1, %ymm2
	vpshufd	$147, %ymm15, %ymm1
	vpaddd	%ymm1, %ymm0, %ymm1
	vpxor	%ymm7, %ymm1, %ymm4
	vpsrld	$12, %ymm4, %ymm7
	vpslld	$20, %ymm4, %ymm4
	vpor	%ymm7, %ymm4, %ymm4
	vpshufd	$39, %ymm5, %ymm5
	vpaddd	%ymm5, %ymm3, %ymm3
	vpshufd	$39, %ymm10, %ymm5
	vpaddd	%ymm5, %ymm13, %ymm7
	vpaddd	%ymm2, %ymm3, %ymm3
	vmovdqa	.LCPI12_2(%rip), %ymm15
	vpshufb	%ymm15, %ymm8, %ymm5
	vpshufb	%ymm15, %ymm3, %ymm8
	vpxor	%ymm5, %ymm8, %ymm5
	vpaddd	%ymm4, %ymm7, %ymm7
	vpshufb	%ymm15, %ymm0, %ymm0
	vpshufb	%ymm15, %ymm7, %ymm8
	vpxor	%ymm0, %ymm8, %ymm8
	vpaddd	%ymm1, %ymm8, %ymm0
	vpxor	%ymm4, %ymm0, %ymm1
	vpsrld	$7, %ymm1, %ymm4
	vpslld	$25, %ymm1, %ymm1
	vpor	%ymm4, %ymm1, %ymm1
	vpaddd	%ymm6, %ymm5, %ymm10
	vpxor	%ymm2, %ymm10, %ymm2
	vpsrld	$7, %ymm2, %ymm4
	vpslld	$25, %ymm2, %ymm2
	vpor	%ymm4, %ymm2, %ymm13
	vpshufd	$120, %ymm9, %ymm4
	vpshufd	$147, %ymm7, %ymm2
	vpaddd	%ymm4, %ymm2, %ymm2
	vpaddd	%ymm1, %ymm2, %ymm7
	vmovdqa	.LCPI12_4(%rip), %ymm9
	vpshufb	%ymm9, %ymm8, %ymm2
	vpshufb	%ymm14, %ymm7, %ymm6
	vpxor	%ymm2, %ymm6, %ymm6
	vpshufd	$120, %ymm11, %ymm2
	vpshufd	$147, %ymm3, %ymm3
	vpaddd	%ymm2, %ymm3, %ymm3
	vpaddd	%ymm3, %ymm13, %ymm8
	vpshufb	%ymm9, %ymm5, %ymm3
	vpshufb	%ymm14, %ymm8, %ymm5
	vpxor	%ymm3, %ymm5, %ymm5
	vpshufd	$57, %ymm10, %ymm3
	vpaddd	%ymm3, %ymm5, %ymm3
	vpxor	%ymm3, %ymm13, %ymm9
	vpsrld	$12, %ymm9, %ymm10
	vpslld	$20, %ymm9, %ymm9
	vpor	%ymm10, %ymm9, %ymm11
	vpshufd	$57, %ymm0, %ymm0
	vpaddd	%ymm0, %ymm6, %ymm13
	vpxor	%ymm1, %ymm13, %ymm0
	vpsrld	$12, %ymm0, %ymm1
	vpslld	$20, %ymm0, %ymm0
	vpor	%ymm1, %ymm0, %ymm1
	vpaddd	%ymm12, %ymm8, %ymm0
	vpaddd	32(%rsp), %ymm7, %ymm7
	vpaddd	%ymm0, %ymm11, %ymm12
	vpshufb	%ymm15, %ymm5, %ymm0
	vpshufb	%ymm15, %ymm12, %ymm5
	vpxor	%ymm0, %ymm5, %ymm10
	vpaddd	%ymm1, %ymm7, %ymm7
	vpshufb	%ymm15, %ymm6, %ymm5
	vpshufb	%ymm15, %ymm7, %ymm6
	vpxor	%ymm5, %ymm6, %ymm9
	vpaddd	%ymm13, %ymm9, %ymm6
	vpxor	%ymm1, %ymm6, %ymm1
	vpsrld	$7, %ymm1, %ymm5
	vpslld	$25, %ymm1, %ymm1
	vpor	%ymm5, %ymm1, %ymm8
	vpaddd	%ymm3, %ymm10, %ymm13
	vpxor	%ymm11, %ymm13, %ymm1
	vpsrld	$7, %ymm1, %ymm3
	vpslld	$25, %ymm1, %ymm1
	vpor	%ymm3, %ymm1, %ymm14
	vpermilps	$231, 608(%rsp), %ymm1
	vpermilps	$44, 448(%rsp), %ymm3
	vblendps	$170, %ymm3, %ymm1, %ymm0
	vmovups	%ymm0, 32(%rsp)
	vpshufd	$231, 576(%rsp), %ymm1
	vpshufd	$44, 480(%rsp), %ymm5
	vpblendd	$170, %ymm5, %ymm1, %ymm3
	vmovdqa	416(%rsp), %xmm5
	vmovdqa	160(%rsp), %xmm11
	vpunpckhdq	%xmm5, %xmm11, %xmm1
	vpunpckldq	%xmm5, %xmm11, %xmm5
	vinserti128	$1, %xmm1, %ymm5, %ymm11
	vmovdqa	64(%rsp), %xmm5
	vmovdqa	384(%rsp), %xmm0
	vpunpckhdq	%xmm5, %xmm0, %xmm1
	vpunpckldq	%xmm5, %xmm0, %xmm5
	vinserti128	$1, %xmm1, %ymm5, %ymm1
	vmovdqu	880(%rsp), %ymm0
	vpermq	$232, %ymm0, %ymm5
	vmovdqu	%ymm5, 64(%rsp)
	vpblendd	$204, %ymm5, %ymm1, %ymm1
	vpblendd	$136, %ymm2, %ymm1, %ymm5
	vpermq	$96, %ymm0, %ymm0
	vmovdqu	%ymm0, 416(%rsp)
	vpblendd	$204, %ymm0, %ymm11, %ymm2
	vpblendd	$136, %ymm4, %ymm2, %ymm11
	vmovups	256(%rsp), %ymm0
	vunpcklpd	512(%rsp), %ymm0, %ymm2
	vblendps	$68, 1296(%rsp), %ymm2, %ymm0
	vmovups	%ymm0, 384(%rsp)
	vmovdqu	976(%rsp), %ymm15
	vmovdqu	192(%rsp), %ymm0
	vpunpcklqdq	%ymm15, %ymm0, %ymm4
	vpblendd	$68, 1328(%rsp), %ymm4, %ymm4
	vpshufd	$180, (%rsp), %ymm2
	vpblendd	$34, 352(%rsp), %ymm2, %ymm2
	vpshufd	$57, %ymm7, %ymm0
	vpaddd	%ymm2, %ymm0, %ymm0
	vpshufd	$180, 224(%rsp), %ymm2
	vpblendd	$34, 320(%rsp), %ymm2, %ymm2
	vpshufd	$57, %ymm12, %ymm12
	vpaddd	%ymm2, %ymm12, %ymm2
	vpaddd	%ymm0, %ymm8, %ymm1
	vmovdqa	.LCPI12_4(%rip), %ymm0
	vpshufb	%ymm0, %ymm9, %ymm9
	vmovdqa	.LCPI12_3(%rip), %ymm7
	vpshufb	%ymm7, %ymm1, %ymm12
	vpxor	%ymm9, %ymm12, %ymm12
	vpaddd	%ymm2, %ymm14, %ymm2
	vpshufb	%ymm0, %ymm10, %ymm9
	vpshufb	%ymm7, %ymm2, %ymm10
	vpxor	%ymm9, %ymm10, %ymm10
	vpshufd	$147, %ymm13, %ymm9
	vpaddd	%ymm9, %ymm10, %ymm9
	vpxor	%ymm14, %ymm9, %ymm13
	vpsrld	$12, %ymm13, %ymm14
	vpslld	$20, %ymm13, %ymm13
	vpor	%ymm14, %ymm13, %ymm13
	vpshufd	$147, %ymm6, %ymm7
	vpaddd	%ymm7, %ymm12, %ymm14
	vpxor	%ymm8, %ymm14, %ymm7
	vpsrld	$12, %ymm7, %ymm8
	vpslld	$20, %ymm7, %ymm7
	vpor	%ymm7, %ymm8, %ymm7
	vpaddd	%ymm3, %ymm2, %ymm2
	vpaddd	32(%rsp), %ymm1, %ymm0
	vpaddd	%ymm2, %ymm13, %ymm2
	vmovdqa	.LCPI12_2(%rip), %ymm1
	vpshufb	%ymm1, %ymm10, %ymm3
	vpshufb	%ymm1, %ymm2, %ymm6
	vpxor	%ymm3, %ymm6, %ymm8
	vpaddd	%ymm7, %ymm0, %ymm10
	vpshufb	%ymm1, %ymm12, %ymm0
	vpshufb	%ymm1, %ymm10, %ymm3
	vpxor	%ymm0, %ymm3, %ymm12
	vpaddd	%ymm14, %ymm12, %ymm0
	vpxor	%ymm7, %ymm0, %ymm3
	vpsrld	$7, %ymm3, %ymm6
	vpslld	$25, %ymm3, %ymm3
	vpor	%ymm6, %ymm3, %ymm6
	vpaddd	%ymm9, %ymm8, %ymm7
	vpxor	%ymm7, %ymm13, %ymm3
	vpsrld	$7, %ymm3, %ymm9
	vpslld	$25, %ymm3, %ymm3
	vpor	%ymm3, %ymm9, %ymm13
	vpshufd	$120, %ymm11, %ymm3
	vpshufd	$147, %ymm10, %ymm9
	vpaddd	%ymm3, %ymm9, %ymm9
	vpaddd	%ymm6, %ymm9, %ymm11
	vmovdqa	.LCPI12_4(%rip), %ymm14
	vpshufb	%ymm14, %ymm12, %ymm9
	vmovdqa	.LCPI12_3(%rip), %ymm12
	vpshufb	%ymm12, %ymm11, %ymm10
	vpxor	%ymm9, %ymm10, %ymm9
	vpshufd	$120, %ymm5, %ymm5
	vpshufd	$147, %ymm2, %ymm2
	vpaddd	%ymm5, %ymm2, %ymm2
	vpaddd	%ymm2, %ymm13, %ymm2
	vpshufb	%ymm14, %ymm8, %ymm8
	vpshufb	%ymm12, %ymm2, %ymm10
	vpxor	%ymm8, %ymm10, %ymm8
	vpshufd	$57, %ymm7, %ymm7
	vpaddd	%ymm7, %ymm8, %ymm10
	vpxor	%ymm13, %ymm10, %ymm7
	vpsrld	$12, %ymm7, %ymm12
	vpslld	$20, %ymm7, %ymm7
	vpor	%ymm7, %ymm12, %ymm12
	vpshufd	$57, %ymm0, %ymm0
	vpaddd	%ymm0, %ymm9, %ymm7
	vpxor	%ymm6, %ymm7, %ymm0
	vpsrld	$12, %ymm0, %ymm6
	vpslld	$20, %ymm0, %ymm0
	vpor	%ymm6, %ymm0, %ymm14
	vpaddd	384(%rsp), %ymm2, %ymm0
	vpaddd	%ymm4, %ymm11, %ymm2
	vpaddd	%ymm0, %ymm12, %ymm6
	vpshufb	%ymm1, %ymm8, %ymm0
	vpshufb	%ymm1, %ymm6, %ymm4
	vpxor	%ymm0, %ymm4, %ymm8
	vpaddd	%ymm2, %ymm14, %ymm13
	vpshufb	%ymm1, %ymm9, %ymm0
	vpshufb	%ymm1, %ymm13, %ymm2
	vpxor	%ymm0, %ymm2, %ymm0
	vpaddd	%ymm7, %ymm0, %ymm4
	vpxor	%ymm4, %ymm14, %ymm2
	vpsrld	$7, %ymm2, %ymm7
	vpslld	$25, %ymm2, %ymm2
	vpor	%ymm7, %ymm2, %ymm7
	vpaddd	%ymm10, %ymm8, %ymm10
	vpxor	%ymm12, %ymm10, %ymm2
	vpsrld	$7, %ymm2, %ymm9
	vpslld	$25, %ymm2, %ymm2
	vpor	%ymm2, %ymm9, %ymm11
	vmovdqu	1584(%rsp), %ymm2
	vpalignr	$8, 1168(%rsp), %ymm2, %ymm2
	vmovdqu	1136(%rsp), %ymm9
	vpunpcklqdq	%ymm15, %ymm9, %ymm9
	vpblendd	$170, %ymm9, %ymm2, %ymm9
	vmovdqu	1552(%rsp), %ymm1
	vpalignr	$8, 1104(%rsp), %ymm1, %ymm2
	vmovdqu	1072(%rsp), %ymm1
	vpunpcklqdq	512(%rsp), %ymm1, %ymm12
	vpblendd	$170, %ymm12, %ymm2, %ymm12
	vpmovzxdq	176(%rsp), %ymm2
	vpblendd	$51, 192(%rsp), %ymm2, %ymm14
	vpmovzxdq	736(%rsp), %ymm2
	vpblendd	$51, 256(%rsp), %ymm2, %ymm2
	vpblendd	$136, %ymm5, %ymm2, %ymm2
	vpblendd	$136, %ymm3, %ymm14, %ymm3
	vpshufd	$205, 448(%rsp), %ymm5
	vpblendd	$136, 416(%rsp), %ymm5, %ymm1
	vpshufd	$57, %ymm13, %ymm5
	vpaddd	%ymm1, %ymm5, %ymm1
	vpshufd	$205, 480(%rsp), %ymm5
	vpblendd	$136, 64(%rsp), %ymm5, %ymm5
	vpshufd	$57, %ymm6, %ymm6
	vpaddd	%ymm5, %ymm6, %ymm5
	vpaddd	%ymm1, %ymm7, %ymm1
	vmovdqa	.LCPI12_4(%rip), %ymm14
	vpshufb	%ymm14, %ymm0, %ymm0
	vmovdqa	.LCPI12_3(%rip), %ymm15
	vpshufb	%ymm15, %ymm1, %ymm6
	vpxor	%ymm0, %ymm6, %ymm13
	vpaddd	%ymm5, %ymm11, %ymm5
	vpshufb	%ymm14, %ymm8, %ymm0
	vpshufb	%ymm15, %ymm5, %ymm6
	vpxor	%ymm0, %ymm6, %ymm8
	vpshufd	$147, %ymm10, %ymm0
	vpaddd	%ymm0, %ymm8, %ymm0
	vpxor	%ymm0, %ymm11, %ymm6
	vpsrld	$12, %ymm6, %ymm10
	vpslld	$20, %ymm6, %ymm6
	vpor	%ymm6, %ymm10, %ymm10
	vpshufd	$147, %ymm4, %ymm4
	vpaddd	%ymm4, %ymm13, %ymm4
	vpxor	%ymm7, %ymm4, %ymm6
	vpsrld	$12, %ymm6, %ymm7
	vpslld	$20, %ymm6, %ymm6
	vpor	%ymm7, %ymm6, %ymm11
	vpaddd	%ymm5, %ymm12, %ymm5
	vpaddd	%ymm1, %ymm9, %ymm1
	vpaddd	%ymm5, %ymm10, %ymm6
	vmovdqa	.LCPI12_2(%rip), %ymm15
	vpshufb	%ymm15, %ymm8, %ymm5
	vpshufb	%ymm15, %ymm6, %ymm7
	vpxor	%ymm5, %ymm7, %ymm7
	vpaddd	%ymm1, %ymm11, %ymm1
	vpshufb	%ymm15, %ymm13, %ymm5
	vpshufb	%ymm15, %ymm1, %ymm8
	vmovdqa	%ymm15, %ymm13
	vpxor	%ymm5, %ymm8, %ymm9
	vpaddd	%ymm4, %ymm9, %ymm4
	vpxor	%ymm4, %ymm11, %ymm5
	vpsrld	$7, %ymm5, %ymm8
	vpslld	$25, %ymm5, %ymm5
	vpor	%ymm5, %ymm8, %ymm5
	vpaddd	%ymm0, %ymm7, %ymm11
	vpxor	%ymm10, %ymm11, %ymm0
	vpsrld	$7, %ymm0, %ymm8
	vpslld	$25, %ymm0, %ymm0
	vpor	%ymm0, %ymm8, %ymm10
	vpshufd	$120, %ymm3, %ymm0
	vmovdqu	%ymm0, (%rsp)
	vpshufd	$147, %ymm1, %ymm1
	vpaddd	%ymm0, %ymm1, %ymm1
	vpaddd	%ymm5, %ymm1, %ymm8
	vpshufb	%ymm14, %ymm9, %ymm1
	vmovdqa	.LCPI12_3(%rip), %ymm0
	vpshufb	%ymm0, %ymm8, %ymm3
	vpxor	%ymm1, %ymm3, %ymm3
	vpshufd	$120, %ymm2, %ymm15
	vpshufd	$147, %ymm6, %ymm2
	vpaddd	%ymm2, %ymm15, %ymm2
	vpaddd	%ymm2, %ymm10, %ymm9
	vpshufb	%ymm14, %ymm7, %ymm2
	vpshufb	%ymm0, %ymm9, %ymm6
	vpxor	%ymm2, %ymm6, %ymm7
	vpshufd	$57, %ymm11, %ymm2
	vpaddd	%ymm2, %ymm7, %ymm2
	vpxor	%ymm2, %ymm10, %ymm6
	vpsrld	$12, %ymm6, %ymm10
	vpslld	$20, %ymm6, %ymm6
	vpor	%ymm6, %ymm10, %ymm6
	vpshufd	$57, %ymm4, %ymm4
	vpaddd	%ymm4, %ymm3, %ymm4
	vpxor	%ymm5, %ymm4, %ymm5
	vpsrld	$12, %ymm5, %ymm10
	vpslld	$20, %ymm5, %ymm5
	vpor	%ymm5, %ymm10, %ymm5
	vmovdqu	640(%rsp), %ymm1
	vpblendd	$204, 1456(%rsp), %ymm1, %ymm10
	vpshufd	$164, %ymm10, %ymm10
	vmovdqu	96(%rsp), %ymm11
	vpblendd	$68, %ymm11, %ymm10, %ymm10
	vpaddd	%ymm10, %ymm9, %ymm9
	vmovdqu	672(%rsp), %ymm0
	vpblendd	$204, 704(%rsp), %ymm0, %ymm10
	vpshufd	$164, %ymm10, %ymm10
	vmovdqu	128(%rsp), %ymm12
	vpblendd	$68, %ymm12, %ymm10, %ymm10
	vpaddd	%ymm10, %ymm8, %ymm8
	vpaddd	%ymm6, %ymm9, %ymm14
	vmovdqa	%ymm13, %ymm10
	vpshufb	%ymm13, %ymm7, %ymm7
	vpshufb	%ymm13, %ymm14, %ymm9
	vpxor	%ymm7, %ymm9, %ymm7
	vpaddd	%ymm5, %ymm8, %ymm13
	vpshufb	%ymm10, %ymm3, %ymm3
	vpshufb	%ymm10, %ymm13, %ymm8
	vpxor	%ymm3, %ymm8, %ymm10
	vpaddd	%ymm4, %ymm10, %ymm3
	vmovdqu	%ymm3, 256(%rsp)
	vpxor	%ymm5, %ymm3, %ymm3
	vpsrld	$7, %ymm3, %ymm5
	vpslld	$25, %ymm3, %ymm3
	vpor	%ymm5, %ymm3, %ymm3
	vmovdqu	%ymm3, 64(%rsp)
	vpaddd	%ymm2, %ymm7, %ymm8
	vpxor	%ymm6, %ymm8, %ymm2
	vpsrld	$7, %ymm2, %ymm3
	vpslld	$25, %ymm2, %ymm2
	vpor	%ymm3, %ymm2, %ymm9
	vmovdqu	1648(%rsp), %ymm2
	vpalignr	$12, 1168(%rsp), %ymm2, %ymm2
	vmovups	976(%rsp), %ymm5
	vshufps	$128, 1008(%rsp), %ymm5, %ymm3
	vpblendd	$170, %ymm3, %ymm2, %ymm2
	vmovdqu	%ymm2, 224(%rsp)
	vmovdqu	1616(%rsp), %ymm2
	vpalignr	$12, 1104(%rsp), %ymm2, %ymm2
	vmovups	512(%rsp), %ymm4
	vshufps	$128, 1040(%rsp), %ymm4, %ymm3
	vpblendd	$170, %ymm3, %ymm2, %ymm2
	vmovdqu	%ymm2, 192(%rsp)
	vpblendd	$204, 1488(%rsp), %ymm0, %ymm2
	vpblendd	$204, 1520(%rsp), %ymm1, %ymm3
	vpblendd	$136, %ymm15, %ymm3, %ymm3
	vpblendd	$136, (%rsp), %ymm2, %ymm2
	vmovdqa	.LCPI12_9(%rip), %ymm0
	vpermd	752(%rsp), %ymm0, %ymm0
	vmovdqa	.LCPI12_10(%rip), %ymm1
	vmovdqu	944(%rsp), %ymm15
	vpermd	%ymm15, %ymm1, %ymm1
	vpshufd	$170, %ymm11, %ymm6
	vpblendd	$204, %ymm1, %ymm6, %ymm1
	vpblendd	$17, %ymm0, %ymm1, %ymm0
	vmovdqu	%ymm0, (%rsp)
	vmovdqa	.LCPI12_11(%rip), %ymm1
	vpermd	%ymm15, %ymm1, %ymm1
	vpshufd	$170, %ymm12, %ymm6
	vpblendd	$204, %ymm1, %ymm6, %ymm1
	vpshufd	$249, 176(%rsp), %xmm6
	vpmovzxdq	%xmm6, %ymm6
	vpblendd	$17, %ymm6, %ymm1, %ymm1
	vmovups	1072(%rsp), %ymm0
	vshufps	$85, %ymm4, %ymm0, %ymm6
	vpermilps	$39, 480(%rsp), %ymm0
	vblendps	$102, %ymm6, %ymm0, %ymm0
	vpshufd	$57, %ymm14, %ymm6
	vpaddd	%ymm0, %ymm6, %ymm0
	vmovups	1136(%rsp), %ymm4
	vshufps	$85, %ymm5, %ymm4, %ymm6
	vpermilps	$39, 448(%rsp), %ymm14
	vblendps	$102, %ymm6, %ymm14, %ymm6
	vpshufd	$57, %ymm13, %ymm13
	vpaddd	%ymm6, %ymm13, %ymm6
	vmovdqu	64(%rsp), %ymm5
	vpaddd	%ymm6, %ymm5, %ymm6
	vmovdqa	.LCPI12_4(%rip), %ymm15
	vpshufb	%ymm15, %ymm10, %ymm10
	vmovdqa	.LCPI12_3(%rip), %ymm14
	vpshufb	%ymm14, %ymm6, %ymm13
	vpxor	%ymm10, %ymm13, %ymm10
	vpaddd	%ymm0, %ymm9, %ymm0
	vpshufb	%ymm15, %ymm7, %ymm7
	vpshufb	%ymm14, %ymm0, %ymm13
	vpxor	%ymm7, %ymm13, %ymm7
	vpshufd	$147, %ymm8, %ymm11
	vpaddd	%ymm7, %ymm11, %ymm11
	vpxor	%ymm9, %ymm11, %ymm12
	vpsrld	$12, %ymm12, %ymm13
	vpslld	$20, %ymm12, %ymm12
	vpor	%ymm13, %ymm12, %ymm12
	vpshufd	$147, 256(%rsp), %ymm4
	vpaddd	%ymm4, %ymm10, %ymm4
	vpxor	%ymm5, %ymm4, %ymm5
	vpsrld	$12, %ymm5, %ymm13
	vpslld	$20, %ymm5, %ymm5
	vpor	%ymm5, %ymm13, %ymm5
	vpaddd	192(%rsp), %ymm0, %ymm0
	vpaddd	224(%rsp), %ymm6, %ymm6
	vpaddd	%ymm5, %ymm6, %ymm6
	vpaddd	%ymm0, %ymm12, %ymm0
	vmovdqa	.LCPI12_2(%rip), %ymm13
	vpshufb	%ymm13, %ymm0, %ymm8
	vpshufb	%ymm13, %ymm7, %ymm7
	vpxor	%ymm7, %ymm8, %ymm7
	vpshufb	%ymm13, %ymm6, %ymm8
	vpshufb	%ymm13, %ymm10, %ymm9
	vpxor	%ymm9, %ymm8, %ymm8
	vpaddd	%ymm4, %ymm8, %ymm4
	vpaddd	%ymm7, %ymm11, %ymm9
	vpxor	%ymm12, %ymm9, %ymm10
	vpxor	%ymm5, %ymm4, %ymm5
	vpsrld	$7, %ymm5, %ymm11
	vpslld	$25, %ymm5, %ymm5
	vpor	%ymm5, %ymm11, %ymm5
	vpsrld	$7, %ymm10, %ymm11
	vpslld	$25, %ymm10, %ymm10
	vpor	%ymm11, %ymm10, %ymm10
	vpshufd	$120, %ymm3, %ymm3
	vpshufd	$147, %ymm0, %ymm0
	vpaddd	%ymm3, %ymm0, %ymm0
	vpshufd	$120, %ymm2, %ymm2
	vpshufd	$147, %ymm6, %ymm3
	vpaddd	%ymm2, %ymm3, %ymm2
	vpaddd	%ymm5, %ymm2, %ymm2
	vpshufb	%ymm14, %ymm2, %ymm3
	vpshufb	%ymm15, %ymm8, %ymm6
	vpxor	%ymm6, %ymm3, %ymm3
	vpshufb	%ymm15, %ymm7, %ymm6
	vpshufd	$57, %ymm4, %ymm4
	vpshufd	$57, %ymm9, %ymm7
	vpaddd	%ymm0, %ymm10, %ymm0
	vpshufb	%ymm14, %ymm0, %ymm8
	vpxor	%ymm6, %ymm8, %ymm6
	vpaddd	%ymm7, %ymm6, %ymm7
	vpaddd	%ymm4, %ymm3, %ymm4
	vpxor	%ymm5, %ymm4, %ymm5
	vpxor	%ymm7, %ymm10, %ymm8
	vpsrld	$12, %ymm8, %ymm9
	vpslld	$20, %ymm8, %ymm8
	vpor	%ymm9, %ymm8, %ymm8
	vpsrld	$12, %ymm5, %ymm9
	vpslld	$20, %ymm5, %ymm5
	vpor	%ymm5, %ymm9, %ymm5
	vpaddd	(%rsp), %ymm0, %ymm0
	vpaddd	%ymm1, %ymm2, %ymm1
	vpaddd	%ymm5, %ymm1, %ymm2
	vpaddd	%ymm0, %ymm8, %ymm9
	vpshufb	%ymm13, %ymm9, %ymm0
	vpshufb	%ymm13, %ymm6, %ymm1
	vpxor	%ymm1, %ymm0, %ymm0
	vpshufb	%ymm13, %ymm2, %ymm1
	vpshufb	%ymm13, %ymm3, %ymm3
	vpxor	%ymm3, %ymm1, %ymm1
	vpaddd	%ymm4, %ymm1, %ymm3
	vpaddd	%ymm7, %ymm0, %ymm4
	vpxor	%ymm4, %ymm8, %ymm6
	vpxor	%ymm5, %ymm3, %ymm5
	vpsrld	$7, %ymm5, %ymm7
	vpslld	$25, %ymm5, %ymm5
	vpor	%ymm7, %ymm5, %ymm5
	vpsrld	$7, %ymm6, %ymm7
	vpslld	$25, %ymm6, %ymm6
	vpor	%ymm7, %ymm6, %ymm6
	vpshufd	$57, %ymm9, %ymm7
	vpshufd	$57, %ymm2, %ymm2
	vpshufd	$147, %ymm4, %ymm4
	vpxor	%ymm7, %ymm4, %ymm4
	vpshufd	$147, %ymm3, %ymm3
	vpxor	%ymm2, %ymm3, %ymm2
	vmovdqa	.LCPI12_12(%rip), %ymm3
	vpermd	%ymm4, %ymm3, %ymm7
	vmovdqa	.LCPI12_13(%rip), %ymm8
	vpermd	%ymm2, %ymm8, %ymm9
	vpblendd	$204, %ymm7, %ymm9, %ymm7
	vmovdqa	.LCPI12_14(%rip), %ymm9
	vpermd	%ymm4, %ymm9, %ymm4
	vmovdqa	.LCPI12_15(%rip), %ymm10
	vpermd	%ymm2, %ymm10, %ymm2
	vpblendd	$204, %ymm4, %ymm2, %ymm2
	vpermd	%ymm6, %ymm9, %ymm4
	vpermd	%ymm5, %ymm10, %ymm11
	vpblendd	$204, %ymm4, %ymm11, %ymm4
	vpermd	%ymm6, %ymm3, %ymm6
	vpermd	%ymm5, %ymm8, %ymm5
	vpblendd	$204, %ymm6, %ymm5, %ymm5
	vpermd	%ymm0, %ymm3, %ymm3
	vpermd	%ymm1, %ymm8, %ymm6
	vpblendd	$204, %ymm3, %ymm6, %ymm3
	vpxor	%ymm3, %ymm4, %ymm3
	vpermd	%ymm0, %ymm9, %ymm0
	vpermd	%ymm1, %ymm10, %ymm1
	vpblendd	$204, %ymm0, %ymm1, %ymm0
	vpxor	%ymm0, %ymm5, %ymm0
	vmovdqu	%ymm2, (%rcx)
	vmovdqu	%ymm7, 32(%rcx)
	vmovdqu	%ymm3, 64(%rcx)
	vmovdqu	%ymm0, 96(%rcx)
	vmovaps	1680(%rsp), %xmm6
	vmovaps	1696(%rsp), %xmm7
	vmovaps	1712(%rsp), %xmm8
	vmovaps	1728(%rsp), %xmm9
	vmovaps	1744(%rsp), %xmm10
	vmovaps	1760(%rsp), %xmm11
	vmovaps	1776(%rsp), %xmm12
	vmovaps	1792(%rsp), %xmm13
	vmovaps	1808(%rsp), %xmm14
	vmovaps	1824(%rsp), %xmm15
	addq	$1848, %rsp
	vzeroupper
	retq
	.seh_endproc

	.section	.rdata,"dr"
	.p2align	5, 0x0
.LCPI13_0:
	.zero	4
	.zero	4
	.long	64
	.long	18
	.zero	4
	.zero	4
	.long	64
	.long	18
.LCPI13_1:
	.long	0
	.long	4
	.long	1
	.long	5
	.long	2
	.long	6
	.long	3
	.long	7
.LCPI13_2:
	.long	0
	.long	0
	.long	64
	.long	20
	.long	0
	.long	0
	.long	64
	.long	20
.LCPI13_3:
	.long	0
	.long	0
	.long	64
	.long	20
	.section	.text
	.p2align	4
	.def	"keyed_blake3::tree::Tree::absorb_subtrees::<#8b36ca032ac25711>";
	.scl	3;
	.type	32;
	.endef
"keyed_blake3::tree::Tree::absorb_subtrees::<#8b36ca032ac25711>":
.seh_proc "keyed_blake3::tree::Tree::absorb_subtrees::<#8b36ca032ac25711>"
	pushq	%rbp
	.seh_pushreg %rbp
	pushq	%r15
	.seh_pushreg %r15
	pushq	%r14
	.seh_pushreg %r14
	pushq	%r13
	.seh_pushreg %r13
	pushq	%r12
	.seh_pushreg %r12
	pushq	%rsi
	.seh_pushreg %rsi
	pushq	%rdi
	.seh_pushreg %rdi
	pushq	%rbx
	.seh_pushreg %rbx
	subq	$1112, %rsp
	.seh_stackalloc 1112
	leaq	128(%rsp), %rbp
	.seh_setframe %rbp, 128
	vmovdqa	%xmm8, 960(%rbp)
	.seh_savexmm %xmm8, 1088
	vmovdqa	%xmm7, 944(%rbp)
	.seh_savexmm %xmm7, 1072
	vmovdqa	%xmm6, 928(%rbp)
	.seh_savexmm %xmm6, 1056
	.seh_endprologue
	andq	$-32, %rsp
	movq	%r8, %rbx
	movq	%rdx, %r15
	vxorps	%xmm2, %xmm2, %xmm2
	vmovups	%ymm2, 336(%rsp)
	vmovups	%ymm2, 304(%rsp)
	vmovups	%ymm2, 272(%rsp)
	vmovups	%ymm2, 240(%rsp)
	vmovups	%ymm2, 512(%rsp)
	movq	1088(%rbp), %rax
	vmovups	(%rcx), %xmm0
	vmovups	16(%rcx), %xmm1
	cmpq	$2048, %rax
	movq	%rcx, 376(%rsp)
	jne	.LBB13_4
	movq	%rbx, 152(%rsp)
	movq	%r9, %rdi
	leaq	1024(%r9), %rbx
	leaq	1(%r15), %rsi
	vinsertf128	$1, %xmm0, %ymm0, %ymm0
	vinsertf128	$1, %xmm1, %ymm1, %ymm1
	vmovq	%r15, %xmm2
	movl	$64, %eax
	vmovdqa	%ymm2, 544(%rsp)
	vpinsrd	$2, %eax, %xmm2, %xmm7
	vmovq	%rsi, %xmm6
	vpinsrd	$2, %eax, %xmm6, %xmm8
	xorl	%r14d, %r14d
	.p2align	4
.LBB13_2:
	cmpq	$1, %r14
	movl	$0, %eax
	adcl	$16, %eax
	vmovups	-1024(%rbx,%r14), %ymm2
	vmovups	-992(%rbx,%r14), %ymm3
	vmovups	%ymm2, 384(%rsp)
	vmovups	%ymm3, 416(%rsp)
	movq	%r15, 448(%rsp)
	movl	$64, 456(%rsp)
	movl	%eax, 460(%rsp)
	vmovups	(%rbx,%r14), %ymm2
	vmovups	32(%rbx,%r14), %ymm3
	vmovups	%ymm2, 160(%rsp)
	vmovups	%ymm3, 192(%rsp)
	movq	%rsi, 224(%rsp)
	movl	$64, 232(%rsp)
	movl	%eax, 236(%rsp)
	vpinsrd	$3, %eax, %xmm7, %xmm2
	vpinsrd	$3, %eax, %xmm8, %xmm3
	vmovdqa	%xmm3, 624(%rsp)
	vmovdqa	%xmm2, 608(%rsp)
	vmovaps	%ymm1, 992(%rsp)
	vmovaps	%ymm0, 1024(%rsp)
	leaq	160(%rsp), %r12
	movq	%r12, 40(%rsp)
	leaq	384(%rsp), %r13
	movq	%r13, 32(%rsp)
	leaq	64(%rsp), %rcx
	leaq	1024(%rsp), %rdx
	leaq	992(%rsp), %r8
	leaq	608(%rsp), %r9
	vzeroupper
	callq	"keyed_blake3::compression::two::compress_two_from"
	vmovups	64(%rsp), %ymm0
	vmovups	96(%rsp), %ymm1
	addq	$64, %r14
	cmpq	$960, %r14
	jne	.LBB13_2
	vmovups	960(%rdi), %ymm2
	vmovups	992(%rdi), %ymm3
	vmovaps	%ymm2, 384(%rsp)
	vmovaps	%ymm3, 416(%rsp)
	movq	%r15, 448(%rsp)
	movabsq	$77309411392, %rax
	movq	%rax, 456(%rsp)
	vmovups	1984(%rdi), %ymm2
	vmovups	2016(%rdi), %ymm3
	vmovaps	%ymm2, 160(%rsp)
	vmovaps	%ymm3, 192(%rsp)
	movq	%rsi, 224(%rsp)
	movq	%rax, 232(%rsp)
	vmovdqa	544(%rsp), %ymm2
	vinserti128	$1, %xmm6, %ymm2, %ymm2
	vpblendd	$204, .LCPI13_0(%rip), %ymm2, %ymm2
	vmovaps	%ymm1, 928(%rsp)
	vmovaps	%ymm0, 960(%rsp)
	vmovdqa	%ymm2, 896(%rsp)
	movq	%r12, 40(%rsp)
	movq	%r13, 32(%rsp)
	leaq	64(%rsp), %rcx
	leaq	960(%rsp), %rdx
	leaq	928(%rsp), %r8
	leaq	896(%rsp), %r9
	vzeroupper
	callq	"keyed_blake3::compression::two::compress_two_from"
	vmovdqa	.LCPI13_1(%rip), %ymm1
	vpermd	96(%rsp), %ymm1, %ymm0
	vpermd	64(%rsp), %ymm1, %ymm1
	xorl	%esi, %esi
	xorl	%r10d, %r10d
	xorl	%r9d, %r9d
	xorl	%r8d, %r8d
	xorl	%edx, %edx
	xorl	%ecx, %ecx
	xorl	%eax, %eax
	xorl	%r11d, %r11d
	movq	376(%rsp), %r13
	movq	152(%rsp), %rbx
	jmp	.LBB13_5
.LBB13_4:
	movq	%rcx, %r13
	vmovups	%ymm2, 480(%rsp)
	vmovups	%ymm2, 448(%rsp)
	vmovups	%ymm2, 416(%rsp)
	vmovups	%ymm2, 384(%rsp)
	shrq	$10, %rax
	xorl	%ecx, %ecx
	decq	%rax
	setne	%cl
	cmpq	$2, %rax
	movl	$2, %edx
	cmovbq	%rax, %rdx
	movl	$3, %r8d
	cmovbeq	%rax, %r8
	movq	$0, 160(%rsp)
	movq	%rcx, 168(%rsp)
	movq	%rdx, 176(%rsp)
	movq	%r8, 184(%rsp)
	vmovaps	%xmm1, 576(%rsp)
	vmovaps	%xmm0, 592(%rsp)
	movq	%r15, 40(%rsp)
	leaq	160(%rsp), %rax
	movq	%rax, 32(%rsp)
	leaq	384(%rsp), %rcx
	leaq	592(%rsp), %rdx
	leaq	576(%rsp), %r8
	vzeroupper
	callq	"keyed_blake3::four_chunks::four_chunk_values"
	movq	392(%rsp), %rsi
	movq	408(%rsp), %r10
	movq	424(%rsp), %r9
	movq	440(%rsp), %r8
	movq	456(%rsp), %rdx
	movq	472(%rsp), %rcx
	movq	488(%rsp), %rax
	vmovdqu	448(%rsp), %ymm0
	vpunpcklqdq	480(%rsp), %ymm0, %ymm0
	vmovdqu	384(%rsp), %ymm1
	vpermq	$216, %ymm0, %ymm0
	vpbroadcastq	496(%rsp), %ymm2
	vpblendd	$192, %ymm2, %ymm0, %ymm0
	vpunpcklqdq	416(%rsp), %ymm1, %ymm1
	vpermq	$216, %ymm1, %ymm1
	movq	504(%rsp), %r11
.LBB13_5:
	vmovq	%xmm1, 240(%rsp)
	movq	%rsi, 248(%rsp)
	vpextrq	$1, %xmm1, 256(%rsp)
	movq	%r10, 264(%rsp)
	vextracti128	$1, %ymm1, %xmm2
	vmovq	%xmm2, 272(%rsp)
	movq	%r9, 280(%rsp)
	vpextrq	$1, %xmm2, 288(%rsp)
	movq	%r8, 296(%rsp)
	vmovq	%xmm0, 304(%rsp)
	movq	%rdx, 312(%rsp)
	vpextrq	$1, %xmm0, 320(%rsp)
	movq	%rcx, 328(%rsp)
	vextracti128	$1, %ymm0, %xmm2
	vmovq	%xmm2, 336(%rsp)
	movq	%rax, 344(%rsp)
	vpextrq	$1, %xmm2, 352(%rsp)
	movq	%r11, 360(%rsp)
	cmpq	$3, %rbx
	jb	.LBB13_15
	movl	%ebx, %edi
	orl	%r15d, %edi
	andl	$1, %edi
	jne	.LBB13_15
	vbroadcastf128	(%r13), %ymm3
	vbroadcastf128	16(%r13), %ymm4
	movl	%esi, 160(%rsp)
	shrq	$32, %rsi
	movl	%r10d, 164(%rsp)
	movl	%r9d, 168(%rsp)
	movl	%r8d, 172(%rsp)
	movl	%edx, 176(%rsp)
	movl	%ecx, 180(%rsp)
	movl	%eax, 184(%rsp)
	movl	%r11d, 188(%rsp)
	movl	%esi, 192(%rsp)
	shrq	$32, %r10
	movl	%r10d, 196(%rsp)
	shrq	$32, %r9
	movl	%r9d, 200(%rsp)
	shrq	$32, %r8
	movl	%r8d, 204(%rsp)
	shrq	$32, %rdx
	movl	%edx, 208(%rsp)
	shrq	$32, %rcx
	movl	%ecx, 212(%rsp)
	shrq	$32, %rax
	movl	%eax, 216(%rsp)
	shrq	$32, %r11
	vshufps	$136, %ymm0, %ymm1, %ymm2
	vpermpd	$216, %ymm2, %ymm2
	vshufps	$221, %ymm0, %ymm1, %ymm0
	vpermpd	$216, %ymm0, %ymm0
	vmovups	%ymm0, 416(%rsp)
	vmovups	%ymm2, 384(%rsp)
	movq	$0, 448(%rsp)
	movl	%r11d, 220(%rsp)
	movabsq	$85899345984, %rax
	movq	%rax, 456(%rsp)
	movq	$0, 224(%rsp)
	movq	%rax, 232(%rsp)
	vmovaps	%ymm4, 640(%rsp)
	vmovaps	%ymm4, 832(%rsp)
	vmovaps	%ymm3, 672(%rsp)
	vmovaps	%ymm3, 864(%rsp)
	vbroadcastf128	.LCPI13_3(%rip), %ymm0
	vmovaps	%ymm0, 800(%rsp)
	leaq	160(%rsp), %rax
	movq	%rax, 40(%rsp)
	leaq	384(%rsp), %rax
	movq	%rax, 32(%rsp)
	leaq	64(%rsp), %rcx
	leaq	864(%rsp), %rdx
	leaq	832(%rsp), %r8
	leaq	800(%rsp), %r9
	vzeroupper
	callq	"keyed_blake3::compression::two::compress_two_from"
	movl	76(%rsp), %eax
	movl	%eax, 140(%rsp)
	movl	72(%rsp), %eax
	movl	%eax, 136(%rsp)
	movl	64(%rsp), %eax
	movl	%eax, 152(%rsp)
	movl	68(%rsp), %r8d
	movl	108(%rsp), %r14d
	movl	104(%rsp), %r10d
	movl	100(%rsp), %r13d
	movl	96(%rsp), %eax
	movl	%eax, 544(%rsp)
	movl	92(%rsp), %esi
	movl	88(%rsp), %eax
	movl	%eax, 148(%rsp)
	movl	84(%rsp), %eax
	movl	%eax, 144(%rsp)
	movq	%r15, %rdi
	shrq	%rdi
	movq	%rbx, %r12
	shrq	%r12
	movl	80(%rsp), %eax
	movl	124(%rsp), %r9d
	movl	120(%rsp), %r11d
	movl	116(%rsp), %ecx
	movl	112(%rsp), %edx
	cmpq	$5, %rbx
	jb	.LBB13_8
	orl	%ebx, %r15d
	andl	$2, %r15d
	jne	.LBB13_8
	vmovaps	64(%rsp), %xmm1
	vmovaps	80(%rsp), %xmm0
	vinsertf128	$1, 112(%rsp), %ymm0, %ymm0
	vinsertf128	$1, 96(%rsp), %ymm1, %ymm1
	movq	%rdi, %r15
	movq	%r12, %r14
	.p2align	4
.LBB13_11:
	movq	$0, 448(%rsp)
	movabsq	$85899345984, %rax
	movq	%rax, 456(%rsp)
	vxorps	%xmm2, %xmm2, %xmm2
	vmovaps	%ymm2, 160(%rsp)
	vmovaps	%ymm2, 192(%rsp)
	movq	$0, 224(%rsp)
	movq	%rax, 232(%rsp)
	vmovups	%ymm1, 384(%rsp)
	vmovups	%ymm0, 416(%rsp)
	vmovaps	640(%rsp), %ymm0
	vmovaps	%ymm0, 736(%rsp)
	vmovaps	672(%rsp), %ymm0
	vmovaps	%ymm0, 768(%rsp)
	vbroadcastf128	.LCPI13_3(%rip), %ymm0
	vmovaps	%ymm0, 704(%rsp)
	leaq	160(%rsp), %rax
	movq	%rax, 40(%rsp)
	leaq	384(%rsp), %rax
	movq	%rax, 32(%rsp)
	leaq	64(%rsp), %rcx
	leaq	768(%rsp), %rdx
	leaq	736(%rsp), %r8
	leaq	704(%rsp), %r9
	vzeroupper
	callq	"keyed_blake3::compression::two::compress_two_from"
	movl	76(%rsp), %r9d
	movl	72(%rsp), %r8d
	movl	64(%rsp), %eax
	movl	%eax, 152(%rsp)
	movl	68(%rsp), %ebx
	movl	92(%rsp), %esi
	movl	88(%rsp), %eax
	movl	%eax, 148(%rsp)
	movl	84(%rsp), %eax
	movl	%eax, 144(%rsp)
	movl	80(%rsp), %eax
	movl	108(%rsp), %ecx
	movl	%ecx, 60(%rsp)
	movl	104(%rsp), %r10d
	movl	100(%rsp), %r13d
	movl	96(%rsp), %ecx
	movl	%ecx, 544(%rsp)
	movl	124(%rsp), %ecx
	movl	%ecx, 56(%rsp)
	shrq	%r15
	shrq	%r14
	movl	120(%rsp), %r11d
	movl	116(%rsp), %ecx
	movl	112(%rsp), %edx
	cmpq	$5, %r12
	jb	.LBB13_14
	andl	$2, %r12d
	jne	.LBB13_14
	vmovups	64(%rsp), %ymm0
	vinsertf128	$1, 96(%rsp), %ymm0, %ymm1
	vmovups	80(%rsp), %ymm0
	vinsertf128	$1, 112(%rsp), %ymm0, %ymm0
	movq	%r14, %r12
	andl	$2, %edi
	movq	%r15, %rdi
	je	.LBB13_11
	jmp	.LBB13_14
.LBB13_8:
	movl	%r9d, 56(%rsp)
	movl	%r8d, %ebx
	movl	136(%rsp), %r8d
	movl	%r14d, 60(%rsp)
	movl	140(%rsp), %r9d
	movq	%rdi, %r15
	movq	%r12, %r14
.LBB13_14:
	movl	152(%rsp), %edi
	movl	%edi, 240(%rsp)
	movl	%eax, 244(%rsp)
	movq	$0, 248(%rsp)
	movl	%ebx, 256(%rsp)
	movl	144(%rsp), %eax
	movl	%eax, 260(%rsp)
	movq	$0, 264(%rsp)
	movl	%r8d, 272(%rsp)
	movl	148(%rsp), %eax
	movl	%eax, 276(%rsp)
	movq	$0, 280(%rsp)
	movl	%r9d, 288(%rsp)
	movl	%esi, 292(%rsp)
	movq	$0, 296(%rsp)
	movl	544(%rsp), %eax
	movl	%eax, 304(%rsp)
	movl	%edx, 308(%rsp)
	movq	$0, 312(%rsp)
	movl	%r13d, 320(%rsp)
	movl	%ecx, 324(%rsp)
	movq	$0, 328(%rsp)
	movl	%r10d, 336(%rsp)
	movl	%r11d, 340(%rsp)
	movq	$0, 344(%rsp)
	movl	60(%rsp), %eax
	movl	%eax, 352(%rsp)
	movl	56(%rsp), %eax
	movl	%eax, 356(%rsp)
	movq	$0, 360(%rsp)
	movq	376(%rsp), %r13
	movq	%r14, %rbx
.LBB13_15:
	movq	%rbx, %rsi
	movq	%rbx, %rdi
	decq	%rdi
	je	.LBB13_18
	leaq	64(%r13), %r14
	xorl	%ebx, %ebx
	.p2align	4
.LBB13_17:
	movl	240(%rsp,%rbx,4), %eax
	movl	256(%rsp,%rbx,4), %ecx
	movl	272(%rsp,%rbx,4), %edx
	movl	288(%rsp,%rbx,4), %r8d
	movl	304(%rsp,%rbx,4), %r9d
	movl	320(%rsp,%rbx,4), %r10d
	movl	336(%rsp,%rbx,4), %r11d
	movl	352(%rsp,%rbx,4), %r12d
	movl	%eax, 384(%rsp)
	movl	%ecx, 388(%rsp)
	movl	%edx, 392(%rsp)
	movl	%r8d, 396(%rsp)
	movl	%r9d, 400(%rsp)
	movl	%r10d, 404(%rsp)
	movl	%r11d, 408(%rsp)
	movl	%r12d, 412(%rsp)
	leaq	(%r15,%rbx), %r8
	movq	$0, 32(%rsp)
	leaq	384(%rsp), %r9
	movq	%r14, %rcx
	movq	%r13, %rdx
	vzeroupper
	callq	"keyed_blake3::tree::add_subtree_value"
	incq	%rbx
	cmpq	%rbx, %rdi
	jne	.LBB13_17
.LBB13_18:
	movl	236(%rsp,%rsi,4), %eax
	movl	252(%rsp,%rsi,4), %ecx
	movl	268(%rsp,%rsi,4), %edx
	movl	284(%rsp,%rsi,4), %r8d
	movl	300(%rsp,%rsi,4), %r9d
	movl	316(%rsp,%rsi,4), %r10d
	movl	332(%rsp,%rsi,4), %r11d
	movl	348(%rsp,%rsi,4), %ebx
	movl	%eax, 512(%rsp)
	movl	%ecx, 516(%rsp)
	movl	%edx, 520(%rsp)
	movl	%r8d, 524(%rsp)
	movl	%r9d, 528(%rsp)
	movl	%r10d, 532(%rsp)
	movl	%r11d, 536(%rsp)
	movl	%ebx, 540(%rsp)
	addq	%rdi, %r15
	leaq	64(%r13), %rcx
	movq	1096(%rbp), %rax
	movq	%rax, 32(%rsp)
	leaq	512(%rsp), %r9
	movq	%r13, %rdx
	movq	%r15, %r8
	vzeroupper
	callq	"keyed_blake3::tree::add_subtree_value"
	vmovaps	928(%rbp), %xmm6
	vmovaps	944(%rbp), %xmm7
	vmovaps	960(%rbp), %xmm8
	leaq	984(%rbp), %rsp
	popq	%rbx
	popq	%rdi
	popq	%rsi
	popq	%r12
	popq	%r13
	popq	%r14
	popq	%r15
	popq	%rbp
	retq
	.seh_endproc

	.section	.text
	.p2align	4
	.def	"keyed_blake3::hasher::Hasher::finalize";
	.scl	3;
	.type	32;
	.endef
"keyed_blake3::hasher::Hasher::finalize":
.seh_proc "keyed_blake3::hasher::Hasher::finalize"
	pushq	%r15
	.seh_pushreg %r15
	pushq	%r14
	.seh_pushreg %r14
	pushq	%rsi
	.seh_pushreg %rsi
	pushq	%rdi
	.seh_pushreg %rdi
	pushq	%rbp
	.seh_pushreg %rbp
	pushq	%rbx
	.seh_pushreg %rbx
	subq	$296, %rsp
	.seh_stackalloc 296
	vmovaps	%xmm7, 272(%rsp)
	.seh_savexmm %xmm7, 272
	vmovaps	%xmm6, 256(%rsp)
	.seh_savexmm %xmm6, 256
	.seh_endprologue
	movq	%rdx, %rdi
	movq	%rcx, %rsi
	movq	1856(%rdx), %rbx
	cmpq	$1025, %rbx
	setb	%al
	testl	$1023, %ebx
	setne	%cl
	orb	%al, %cl
	jne	.LBB14_2
	shrq	$10, %rbx
	xorl	%eax, %eax
	popcntq	%rbx, %rax
	cmpl	$3, %eax
	movl	$2, %ebx
	cmovael	%eax, %ebx
	decq	%rbx
	movq	%rbx, %rax
	shlq	$5, %rax
	vmovdqu	64(%rdi,%rax), %ymm0
	jmp	.LBB14_8
.LBB14_2:
	cmpq	$1, %rbx
	movq	%rbx, %rax
	adcq	$-1, %rax
	movq	%rax, %r15
	shrq	$10, %r15
	movq	%rax, %rcx
	andq	$-64, %rcx
	subq	%rcx, %rbx
	leaq	1792(%rdi), %rdx
	xorl	%ecx, %ecx
	testq	%r15, %r15
	sete	%cl
	vxorps	%xmm0, %xmm0, %xmm0
	vmovups	%ymm0, 64(%rsp)
	xorl	%r8d, %r8d
	testl	$960, %eax
	sete	%r8b
	leal	(%r8,%rcx,8), %ebp
	addl	$18, %ebp
	cmpq	$64, %rbx
	jne	.LBB14_4
	vmovups	(%rdx), %ymm0
	vmovups	32(%rdx), %ymm1
	vmovups	%ymm1, 128(%rsp)
	vmovups	%ymm0, 96(%rsp)
	vmovups	32(%rdi), %xmm0
	vmovups	48(%rdi), %xmm1
	vmovaps	%xmm1, 192(%rsp)
	vmovaps	%xmm0, 208(%rsp)
	movl	%ebp, 48(%rsp)
	movq	%r15, 32(%rsp)
	movl	$64, 40(%rsp)
	leaq	64(%rsp), %rcx
	leaq	208(%rsp), %rdx
	leaq	192(%rsp), %r8
	leaq	96(%rsp), %r9
	jmp	.LBB14_5
.LBB14_4:
	vmovups	%ymm0, 128(%rsp)
	vmovups	%ymm0, 96(%rsp)
	leaq	96(%rsp), %r14
	movq	%r14, %rcx
	movq	%rbx, %r8
	vzeroupper
	callq	memcpy
	vmovups	32(%rdi), %xmm0
	vmovups	48(%rdi), %xmm1
	vmovaps	%xmm1, 224(%rsp)
	vmovaps	%xmm0, 240(%rsp)
	movl	%ebp, 48(%rsp)
	movl	%ebx, 40(%rsp)
	movq	%r15, 32(%rsp)
	leaq	64(%rsp), %rcx
	leaq	240(%rsp), %rdx
	leaq	224(%rsp), %r8
	movq	%r14, %r9
.LBB14_5:
	vzeroupper
	callq	"keyed_blake3::compression::compress"
	movl	68(%rsp), %eax
	vmovq	72(%rsp), %xmm0
	vmovdqa	80(%rsp), %xmm1
	vmovdqa	64(%rsp), %xmm2
	vpinsrd	$1, %eax, %xmm2, %xmm2
	testq	%r15, %r15
	je	.LBB14_6
	vpblendd	$240, 64(%rsp), %ymm2, %ymm2
	xorl	%ebx, %ebx
	popcntq	%r15, %rbx
	vinserti128	$1, %xmm1, %ymm2, %ymm1
	vpbroadcastq	%xmm0, %xmm0
	vpblendd	$12, %ymm0, %ymm1, %ymm0
.LBB14_8:
	vmovups	(%rdi), %xmm6
	vmovups	16(%rdi), %xmm7
	movq	%rbx, %rax
	shlq	$5, %rax
	addq	%rax, %rdi
	addq	$32, %rdi
	.p2align	4
.LBB14_9:
	xorl	%eax, %eax
	cmpq	$1, %rbx
	vmovdqu	(%rdi), %ymm1
	vmovdqu	%ymm1, 96(%rsp)
	sete	%al
	leal	20(,%rax,8), %eax
	vmovdqu	%ymm0, 128(%rsp)
	vmovaps	%xmm7, 160(%rsp)
	vmovaps	%xmm6, 176(%rsp)
	movl	%eax, 48(%rsp)
	movl	$64, 40(%rsp)
	movq	$0, 32(%rsp)
	leaq	64(%rsp), %rcx
	leaq	176(%rsp), %rdx
	leaq	160(%rsp), %r8
	leaq	96(%rsp), %r9
	vzeroupper
	callq	"keyed_blake3::compression::compress"
	addq	$-32, %rdi
	vmovdqu	64(%rsp), %ymm0
	decq	%rbx
	jne	.LBB14_9
.LBB14_10:
	vmovdqu	%ymm0, (%rsi)
	vmovaps	256(%rsp), %xmm6
	vmovaps	272(%rsp), %xmm7
	addq	$296, %rsp
	popq	%rbx
	popq	%rbp
	popq	%rdi
	popq	%rsi
	popq	%r14
	popq	%r15
	vzeroupper
	retq
.LBB14_6:
	vpunpcklqdq	%xmm0, %xmm2, %xmm0
	vinserti128	$1, %xmm1, %ymm0, %ymm0
	jmp	.LBB14_10
	.seh_endproc

	.section	.text
	.p2align	4
	.def	"xet_roots::groups::parent_hashes";
	.scl	3;
	.type	32;
	.endef
"xet_roots::groups::parent_hashes":
.seh_proc "xet_roots::groups::parent_hashes"
	pushq	%r15
	.seh_pushreg %r15
	pushq	%r14
	.seh_pushreg %r14
	pushq	%r13
	.seh_pushreg %r13
	pushq	%r12
	.seh_pushreg %r12
	pushq	%rsi
	.seh_pushreg %rsi
	pushq	%rdi
	.seh_pushreg %rdi
	pushq	%rbp
	.seh_pushreg %rbp
	pushq	%rbx
	.seh_pushreg %rbx
	movl	$20664, %eax
	callq	yurewha_stack_probe
	subq	%rax, %rsp
	.seh_stackalloc 20664
	.seh_endprologue
	movq	%r8, %rbx
	movq	%rdx, %rdi
	movq	%rcx, 168(%rsp)
	leaq	952(%rsp), %rcx
	movl	$640, %r8d
	xorl	%edx, %edx
	callq	memset
	vxorps	%xmm0, %xmm0, %xmm0
	vmovups	%ymm0, 80(%rsp)
	vmovups	%ymm0, 112(%rsp)
	vmovups	%ymm0, 128(%rsp)
	testq	%rbx, %rbx
	je	.LBB19_1
	movl	%ebx, %eax
	andl	$3, %eax
	cmpq	$4, %rbx
	jae	.LBB19_4
	xorl	%ecx, %ecx
	jmp	.LBB19_7
.LBB19_1:
	movq	$0, 64(%rsp)
	movq	$0, 56(%rsp)
	movq	$0, 48(%rsp)
	movq	$0, 40(%rsp)
	movq	$0, 72(%rsp)
	xorl	%r15d, %r15d
	xorl	%r12d, %r12d
	xorl	%r13d, %r13d
	xorl	%ebp, %ebp
	xorl	%esi, %esi
	jmp	.LBB19_10
.LBB19_4:
	andq	$-4, %rbx
	leaq	56(%rdi), %rdx
	xorl	%ecx, %ecx
	.p2align	4
.LBB19_5:
	movq	-48(%rdx), %r8
	movq	80(%rsp,%r8,8), %r9
	movq	%r8, %r10
	shlq	$6, %r10
	addq	%rsp, %r10
	addq	$952, %r10
	movb	%cl, (%r9,%r10)
	incq	%r9
	movq	%r9, 80(%rsp,%r8,8)
	movq	-32(%rdx), %r8
	movq	80(%rsp,%r8,8), %r9
	movq	%r8, %r10
	shlq	$6, %r10
	addq	%rsp, %r10
	addq	$952, %r10
	leal	1(%rcx), %r11d
	movb	%r11b, (%r9,%r10)
	incq	%r9
	movq	%r9, 80(%rsp,%r8,8)
	movq	-16(%rdx), %r8
	movq	80(%rsp,%r8,8), %r9
	movq	%r8, %r10
	shlq	$6, %r10
	addq	%rsp, %r10
	addq	$952, %r10
	leal	2(%rcx), %r11d
	movb	%r11b, (%r9,%r10)
	incq	%r9
	movq	%r9, 80(%rsp,%r8,8)
	movq	(%rdx), %r8
	movq	80(%rsp,%r8,8), %r9
	movq	%r8, %r10
	shlq	$6, %r10
	addq	%rsp, %r10
	addq	$952, %r10
	leal	3(%rcx), %r11d
	movb	%r11b, (%r9,%r10)
	incq	%r9
	movq	%r9, 80(%rsp,%r8,8)
	addq	$4, %rcx
	addq	$64, %rdx
	cmpq	%rbx, %rcx
	jne	.LBB19_5
	testq	%rax, %rax
	je	.LBB19_9
.LBB19_7:
	movq	%rcx, %rdx
	shlq	$4, %rdx
	addq	%rdi, %rdx
	addq	$8, %rdx
	shll	$4, %eax
	xorl	%r8d, %r8d
	.p2align	4
.LBB19_8:
	movq	(%rdx,%r8), %r9
	movq	80(%rsp,%r9,8), %r10
	movq	%r9, %r11
	shlq	$6, %r11
	addq	%rsp, %r11
	addq	$952, %r11
	movb	%cl, (%r10,%r11)
	incq	%r10
	movq	%r10, 80(%rsp,%r9,8)
	incb	%cl
	addq	$16, %r8
	cmpq	%r8, %rax
	jne	.LBB19_8
.LBB19_9:
	movq	80(%rsp), %rsi
	movq	88(%rsp), %rbp
	movq	96(%rsp), %r13
	movq	104(%rsp), %r12
	movq	112(%rsp), %r15
	movq	120(%rsp), %rax
	movq	%rax, 72(%rsp)
	movq	128(%rsp), %rax
	movq	%rax, 40(%rsp)
	movq	136(%rsp), %rax
	movq	%rax, 48(%rsp)
	movq	144(%rsp), %rax
	movq	%rax, 56(%rsp)
	movq	152(%rsp), %rax
	movq	%rax, 64(%rsp)
.LBB19_10:
	leaq	3640(%rsp), %rbx
	leaq	952(%rsp), %rdx
	movl	$640, %r8d
	movq	%rbx, %rcx
	vzeroupper
	callq	memcpy
	leaq	312(%rsp), %rcx
	movl	$640, %r8d
	movq	%rbx, %rdx
	callq	memcpy
	xorl	%r14d, %r14d
	leaq	1592(%rsp), %rcx
	movl	$2048, %r8d
	xorl	%edx, %edx
	callq	memset
	leaq	4280(%rsp), %rcx
	movl	$16384, %r8d
	xorl	%edx, %edx
	callq	memset
	vxorps	%xmm0, %xmm0, %xmm0
	vmovups	%ymm0, 176(%rsp)
	vmovups	%ymm0, 208(%rsp)
	vmovups	%ymm0, 240(%rsp)
	vmovups	%ymm0, 272(%rsp)
	testq	%rsi, %rsi
	je	.LBB19_15
	xorl	%r14d, %r14d
	xorl	%ebx, %ebx
	jmp	.LBB19_12
	.p2align	4
.LBB19_14:
	incq	%rbx
	cmpq	%rbx, %rsi
	je	.LBB19_15
.LBB19_12:
	movzbl	312(%rsp,%rbx), %eax
	movq	%rax, 176(%rsp,%r14,8)
	incq	%r14
	cmpq	$16, %r14
	jne	.LBB19_14
	leaq	1592(%rsp), %rax
	movq	%rax, 32(%rsp)
	leaq	176(%rsp), %rdx
	leaq	4280(%rsp), %r9
	movl	$16, %r8d
	movq	%rdi, %rcx
	vzeroupper
	callq	"xet_roots::groups::hash_at"
	xorl	%r14d, %r14d
	jmp	.LBB19_14
.LBB19_15:
	testq	%rbp, %rbp
	je	.LBB19_20
	xorl	%esi, %esi
	jmp	.LBB19_17
	.p2align	4
.LBB19_19:
	incq	%rsi
	cmpq	%rsi, %rbp
	je	.LBB19_20
.LBB19_17:
	movzbl	376(%rsp,%rsi), %eax
	movq	%rax, 176(%rsp,%r14,8)
	incq	%r14
	cmpq	$16, %r14
	jne	.LBB19_19
	leaq	1592(%rsp), %rax
	movq	%rax, 32(%rsp)
	leaq	176(%rsp), %rdx
	leaq	4280(%rsp), %r9
	movl	$16, %r8d
	movq	%rdi, %rcx
	vzeroupper
	callq	"xet_roots::groups::hash_at"
	xorl	%r14d, %r14d
	jmp	.LBB19_19
.LBB19_20:
	testq	%r13, %r13
	je	.LBB19_21
	xorl	%esi, %esi
	leaq	1592(%rsp), %rbp
	jmp	.LBB19_23
	.p2align	4
.LBB19_25:
	incq	%rsi
	cmpq	%rsi, %r13
	je	.LBB19_26
.LBB19_23:
	movzbl	440(%rsp,%rsi), %eax
	movq	%rax, 176(%rsp,%r14,8)
	incq	%r14
	cmpq	$16, %r14
	jne	.LBB19_25
	movq	%rbp, 32(%rsp)
	leaq	176(%rsp), %rdx
	leaq	4280(%rsp), %r9
	movl	$16, %r8d
	movq	%rdi, %rcx
	vzeroupper
	callq	"xet_roots::groups::hash_at"
	xorl	%r14d, %r14d
	jmp	.LBB19_25
.LBB19_21:
	leaq	1592(%rsp), %rbp
.LBB19_26:
	testq	%r12, %r12
	je	.LBB19_27
	xorl	%esi, %esi
	movq	40(%rsp), %r13
	jmp	.LBB19_29
	.p2align	4
.LBB19_31:
	incq	%rsi
	cmpq	%rsi, %r12
	je	.LBB19_32
.LBB19_29:
	movzbl	504(%rsp,%rsi), %eax
	movq	%rax, 176(%rsp,%r14,8)
	incq	%r14
	cmpq	$16, %r14
	jne	.LBB19_31
	movq	%rbp, 32(%rsp)
	leaq	176(%rsp), %rdx
	leaq	4280(%rsp), %r9
	movl	$16, %r8d
	movq	%rdi, %rcx
	vzeroupper
	callq	"xet_roots::groups::hash_at"
	xorl	%r14d, %r14d
	jmp	.LBB19_31
.LBB19_27:
	movq	40(%rsp), %r13
.LBB19_32:
	testq	%r15, %r15
	je	.LBB19_33
	xorl	%esi, %esi
	movq	48(%rsp), %r12
	jmp	.LBB19_35
	.p2align	4
.LBB19_37:
	incq	%rsi
	cmpq	%rsi, %r15
	je	.LBB19_38
.LBB19_35:
	movzbl	568(%rsp,%rsi), %eax
	movq	%rax, 176(%rsp,%r14,8)
	incq	%r14
	cmpq	$16, %r14
	jne	.LBB19_37
	movq	%rbp, 32(%rsp)
	leaq	176(%rsp), %rdx
	leaq	4280(%rsp), %r9
	movl	$16, %r8d
	movq	%rdi, %rcx
	vzeroupper
	callq	"xet_roots::groups::hash_at"
	xorl	%r14d, %r14d
	jmp	.LBB19_37
.LBB19_33:
	movq	48(%rsp), %r12
.LBB19_38:
	cmpq	$0, 72(%rsp)
	je	.LBB19_39
	xorl	%esi, %esi
	movq	64(%rsp), %rbx
	movq	56(%rsp), %r15
	jmp	.LBB19_41
	.p2align	4
.LBB19_43:
	incq	%rsi
	cmpq	%rsi, 72(%rsp)
	je	.LBB19_44
.LBB19_41:
	movzbl	632(%rsp,%rsi), %eax
	movq	%rax, 176(%rsp,%r14,8)
	incq	%r14
	cmpq	$16, %r14
	jne	.LBB19_43
	movq	%rbp, 32(%rsp)
	leaq	176(%rsp), %rdx
	leaq	4280(%rsp), %r9
	movl	$16, %r8d
	movq	%rdi, %rcx
	vzeroupper
	callq	"xet_roots::groups::hash_at"
	xorl	%r14d, %r14d
	jmp	.LBB19_43
.LBB19_39:
	movq	64(%rsp), %rbx
	movq	56(%rsp), %r15
.LBB19_44:
	testq	%r13, %r13
	je	.LBB19_49
	xorl	%esi, %esi
	jmp	.LBB19_46
	.p2align	4
.LBB19_48:
	incq	%rsi
	cmpq	%rsi, %r13
	je	.LBB19_49
.LBB19_46:
	movzbl	696(%rsp,%rsi), %eax
	movq	%rax, 176(%rsp,%r14,8)
	incq	%r14
	cmpq	$16, %r14
	jne	.LBB19_48
	movq	%rbp, 32(%rsp)
	leaq	176(%rsp), %rdx
	leaq	4280(%rsp), %r9
	movl	$16, %r8d
	movq	%rdi, %rcx
	vzeroupper
	callq	"xet_roots::groups::hash_at"
	xorl	%r14d, %r14d
	jmp	.LBB19_48
.LBB19_49:
	testq	%r12, %r12
	je	.LBB19_54
	xorl	%esi, %esi
	jmp	.LBB19_51
	.p2align	4
.LBB19_53:
	incq	%rsi
	cmpq	%rsi, %r12
	je	.LBB19_54
.LBB19_51:
	movzbl	760(%rsp,%rsi), %eax
	movq	%rax, 176(%rsp,%r14,8)
	incq	%r14
	cmpq	$16, %r14
	jne	.LBB19_53
	movq	%rbp, 32(%rsp)
	leaq	176(%rsp), %rdx
	leaq	4280(%rsp), %r9
	movl	$16, %r8d
	movq	%rdi, %rcx
	vzeroupper
	callq	"xet_roots::groups::hash_at"
	xorl	%r14d, %r14d
	jmp	.LBB19_53
.LBB19_54:
	testq	%r15, %r15
	je	.LBB19_59
	xorl	%esi, %esi
	jmp	.LBB19_56
	.p2align	4
.LBB19_58:
	incq	%rsi
	cmpq	%rsi, %r15
	je	.LBB19_59
.LBB19_56:
	movzbl	824(%rsp,%rsi), %eax
	movq	%rax, 176(%rsp,%r14,8)
	incq	%r14
	cmpq	$16, %r14
	jne	.LBB19_58
	movq	%rbp, 32(%rsp)
	leaq	176(%rsp), %rdx
	leaq	4280(%rsp), %r9
	movl	$16, %r8d
	movq	%rdi, %rcx
	vzeroupper
	callq	"xet_roots::groups::hash_at"
	xorl	%r14d, %r14d
	jmp	.LBB19_58
.LBB19_59:
	testq	%rbx, %rbx
	je	.LBB19_64
	xorl	%esi, %esi
	jmp	.LBB19_61
	.p2align	4
.LBB19_63:
	incq	%rsi
	cmpq	%rsi, %rbx
	je	.LBB19_64
.LBB19_61:
	movzbl	888(%rsp,%rsi), %eax
	movq	%rax, 176(%rsp,%r14,8)
	incq	%r14
	cmpq	$16, %r14
	jne	.LBB19_63
	movq	%rbp, 32(%rsp)
	leaq	176(%rsp), %rdx
	leaq	4280(%rsp), %r9
	movl	$16, %r8d
	movq	%rdi, %rcx
	vzeroupper
	callq	"xet_roots::groups::hash_at"
	xorl	%r14d, %r14d
	jmp	.LBB19_63
.LBB19_64:
	movq	%rbp, 32(%rsp)
	leaq	176(%rsp), %rdx
	leaq	4280(%rsp), %r9
	movq	%rdi, %rcx
	movq	%r14, %r8
	vzeroupper
	callq	"xet_roots::groups::hash_at"
	movl	$2048, %r8d
	movq	168(%rsp), %rcx
	movq	%rbp, %rdx
	callq	memcpy
	nop
	addq	$20664, %rsp
	popq	%rbx
	popq	%rbp
	popq	%rdi
	popq	%rsi
	popq	%r12
	popq	%r13
	popq	%r14
	popq	%r15
	retq
	.seh_endproc

	.section	.rdata,"dr"
	.p2align	5, 0x0
.LCPI20_0:
	.quad	-9223372036854775808
.LCPI20_1:
	.quad	-9223372036854775807
	.zero	16
.LCPI20_2:
	.long	0
	.long	2
	.long	4
	.long	6
	.long	4
	.long	6
	.long	6
	.long	7
.LCPI20_3:
	.quad	4294967232
	.zero	24
.LCPI20_4:
	.quad	0
	.quad	1
	.quad	2
	.quad	3
.LCPI20_5:
	.long	3351608833
.LCPI20_6:
	.long	2519287717
.LCPI20_7:
	.long	1717998845
.LCPI20_8:
	.long	3858926260
.LCPI20_9:
	.long	1867767133
.LCPI20_10:
	.long	3530409783
.LCPI20_11:
	.long	3864159224
.LCPI20_12:
	.long	1064391498
.LCPI20_13:
	.long	64
	.section	.text
	.p2align	4
	.def	"xet_roots::groups::hash_at";
	.scl	3;
	.type	32;
	.endef
"xet_roots::groups::hash_at":
.seh_proc "xet_roots::groups::hash_at"
	pushq	%r15
	.seh_pushreg %r15
	pushq	%r14
	.seh_pushreg %r14
	pushq	%r13
	.seh_pushreg %r13
	pushq	%r12
	.seh_pushreg %r12
	pushq	%rsi
	.seh_pushreg %rsi
	pushq	%rdi
	.seh_pushreg %rdi
	pushq	%rbp
	.seh_pushreg %rbp
	pushq	%rbx
	.seh_pushreg %rbx
	movl	$3560, %eax
	callq	yurewha_stack_probe
	subq	%rax, %rsp
	.seh_stackalloc 3560
	vmovaps	%xmm15, 3536(%rsp)
	.seh_savexmm %xmm15, 3536
	vmovaps	%xmm14, 3520(%rsp)
	.seh_savexmm %xmm14, 3520
	vmovaps	%xmm13, 3504(%rsp)
	.seh_savexmm %xmm13, 3504
	vmovaps	%xmm12, 3488(%rsp)
	.seh_savexmm %xmm12, 3488
	vmovaps	%xmm11, 3472(%rsp)
	.seh_savexmm %xmm11, 3472
	vmovaps	%xmm10, 3456(%rsp)
	.seh_savexmm %xmm10, 3456
	vmovdqa	%xmm9, 3440(%rsp)
	.seh_savexmm %xmm9, 3440
	vmovdqa	%xmm8, 3424(%rsp)
	.seh_savexmm %xmm8, 3424
	vmovdqa	%xmm7, 3408(%rsp)
	.seh_savexmm %xmm7, 3408
	vmovapd	%xmm6, 3392(%rsp)
	.seh_savexmm %xmm6, 3392
	.seh_endprologue
	vxorpd	%xmm0, %xmm0, %xmm0
	vmovupd	%ymm0, 256(%rsp)
	vmovupd	%ymm0, 224(%rsp)
	vmovupd	%ymm0, 192(%rsp)
	vmovupd	%ymm0, 160(%rsp)
	testq	%r8, %r8
	je	.LBB20_42
	movq	%r8, %r12
	movq	%rdx, %rsi
	movq	%rcx, %r14
	xorl	%edi, %edi
	movq	%r9, 56(%rsp)
	movq	%r9, %r15
	.p2align	4
.LBB20_2:
	movq	(%rsi,%rdi,8), %rax
	shlq	$4, %rax
	movq	(%r14,%rax), %rdx
	movq	8(%r14,%rax), %r8
	movq	%r15, %rcx
	vzeroupper
	callq	"xet_roots::groups::write_text"
	movq	%rax, 160(%rsp,%rdi,8)
	incq	%rdi
	addq	$1024, %r15
	cmpq	%rdi, %r12
	jne	.LBB20_2
	vxorpd	%xmm0, %xmm0, %xmm0
	vmovupd	%ymm0, 2272(%rsp)
	vmovupd	%ymm0, 2240(%rsp)
	vmovupd	%ymm0, 2208(%rsp)
	vmovupd	%ymm0, 2176(%rsp)
	vmovupd	%ymm0, 2144(%rsp)
	vmovupd	%ymm0, 2112(%rsp)
	vmovupd	%ymm0, 2080(%rsp)
	vmovupd	%ymm0, 2048(%rsp)
	vmovupd	%ymm0, 2016(%rsp)
	vmovupd	%ymm0, 1984(%rsp)
	vmovupd	%ymm0, 1952(%rsp)
	vmovupd	%ymm0, 1920(%rsp)
	vmovupd	%ymm0, 1888(%rsp)
	vmovupd	%ymm0, 1856(%rsp)
	vmovupd	%ymm0, 1824(%rsp)
	vmovupd	%ymm0, 1792(%rsp)
	movl	%r12d, %edi
	andl	$3, %edi
	cmpq	$4, %r12
	jae	.LBB20_5
	xorl	%ebx, %ebx
	jmp	.LBB20_8
.LBB20_5:
	movq	%r12, %r15
	andq	$-4, %r15
	xorl	%ebx, %ebx
	movq	56(%rsp), %r13
	.p2align	4
.LBB20_6:
	movq	160(%rsp,%rbx,8), %rax
	leaq	64(%rax), %r8
	cmpq	$1024, %r8
	movl	$1024, %r14d
	cmovaeq	%r14, %r8
	leaq	(%rax,%r13), %rcx
	subq	%rax, %r8
	xorl	%edx, %edx
	vzeroupper
	callq	memset
	movq	168(%rsp,%rbx,8), %rax
	leaq	64(%rax), %r8
	cmpq	$1024, %r8
	cmovaeq	%r14, %r8
	leaq	(%rax,%r13), %rcx
	addq	$1024, %rcx
	subq	%rax, %r8
	xorl	%edx, %edx
	callq	memset
	movq	176(%rsp,%rbx,8), %rax
	leaq	64(%rax), %r8
	cmpq	$1024, %r8
	cmovaeq	%r14, %r8
	leaq	(%rax,%r13), %rcx
	addq	$2048, %rcx
	subq	%rax, %r8
	xorl	%edx, %edx
	callq	memset
	movq	184(%rsp,%rbx,8), %rax
	leaq	64(%rax), %rcx
	cmpq	$1024, %rcx
	cmovbq	%rcx, %r14
	leaq	(%rax,%r13), %rcx
	addq	$3072, %rcx
	subq	%rax, %r14
	xorl	%edx, %edx
	movq	%r14, %r8
	callq	memset
	addq	$4, %rbx
	addq	$4096, %r13
	cmpq	%rbx, %r15
	jne	.LBB20_6
	testq	%rdi, %rdi
	je	.LBB20_10
.LBB20_8:
	leaq	(%rsp,%rbx,8), %r14
	addq	$160, %r14
	shlq	$10, %rbx
	addq	56(%rsp), %rbx
	xorl	%r15d, %r15d
	.p2align	4
.LBB20_9:
	movq	(%r14,%r15,8), %rax
	leaq	64(%rax), %rcx
	cmpq	$1024, %rcx
	movl	$1024, %r8d
	cmovbq	%rcx, %r8
	leaq	(%rbx,%rax), %rcx
	subq	%rax, %r8
	xorl	%edx, %edx
	vzeroupper
	callq	memset
	incq	%r15
	addq	$1024, %rbx
	cmpq	%r15, %rdi
	jne	.LBB20_9
.LBB20_10:
	xorl	%r13d, %r13d
	movq	56(%rsp), %r15
	jmp	.LBB20_11
	.p2align	4
.LBB20_26:
	leaq	1(%r13), %rdi
	movq	%rdi, %r9
	shlq	$10, %r9
	addq	%r15, %r9
	movq	168(%rsp,%r13,8), %rcx
	movq	%rcx, 32(%rsp)
	leaq	1408(%rsp), %rcx
	movq	%r8, %rdx
	movq	%rax, %r8
	vzeroupper
	callq	"keyed_blake3::keyed_hash_two"
	movq	%r13, %rax
	shlq	$5, %rax
	vmovups	1408(%rsp), %ymm0
	vmovups	%ymm0, 1792(%rsp,%rax)
	shlq	$5, %rdi
	leaq	1440(%rsp), %rax
	vmovups	(%rax), %ymm0
	vmovups	%ymm0, 1792(%rsp,%rdi)
	addq	$2, %r13
.LBB20_27:
	cmpq	%r12, %r13
	jae	.LBB20_28
.LBB20_11:
	vxorpd	%xmm0, %xmm0, %xmm0
	vmovupd	%ymm0, 288(%rsp)
	vmovupd	%ymm0, 1408(%rsp)
	vmovupd	%ymm0, 1440(%rsp)
	movq	%r12, %rdi
	subq	%r13, %rdi
	cmpq	$5, %rdi
	jb	.LBB20_24
	vmovupd	%ymm0, 608(%rsp)
	vmovupd	%ymm0, 576(%rsp)
	vmovupd	%ymm0, 544(%rsp)
	vmovupd	%ymm0, 512(%rsp)
	vmovupd	%ymm0, 480(%rsp)
	vmovupd	%ymm0, 448(%rsp)
	vmovupd	%ymm0, 416(%rsp)
	vmovupd	%ymm0, 384(%rsp)
	leaq	(%rsp,%r13,8), %rax
	addq	$160, %rax
	vmovupd	%ymm0, 896(%rsp)
	vmovupd	%ymm0, 96(%rsp)
	cmpq	$8, %rdi
	movl	$8, %ebp
	cmovbq	%rdi, %rbp
	jae	.LBB20_43
	xorl	%ebx, %ebx
	xorl	%ecx, %ecx
	jmp	.LBB20_14
	.p2align	4
.LBB20_24:
	movq	%r13, %r8
	shlq	$10, %r8
	addq	%r15, %r8
	movq	160(%rsp,%r13,8), %rax
	cmpq	$1, %rdi
	jne	.LBB20_26
	leaq	static.7(%rip), %rdx
	leaq	288(%rsp), %rcx
	movq	%rax, %r9
	vzeroupper
	callq	"keyed_blake3::keyed_hash"
	movq	%r13, %rax
	shlq	$5, %rax
	vmovups	288(%rsp), %ymm0
	vmovups	%ymm0, 1792(%rsp,%rax)
	incq	%r13
	jmp	.LBB20_27
	.p2align	4
.LBB20_43:
	movl	%ebp, %ecx
	andl	$8, %ecx
	vmovdqu	(%rax), %ymm1
	vmovdqu	32(%rax), %ymm2
	vpcmpeqd	%ymm3, %ymm3, %ymm3
	vpaddq	%ymm3, %ymm1, %ymm4
	vpbroadcastq	.LCPI20_0(%rip), %ymm0
	vpxor	%ymm0, %ymm1, %ymm5
	vpbroadcastq	.LCPI20_1(%rip), %ymm6
	vpcmpgtq	%ymm6, %ymm5, %ymm5
	vpand	%ymm4, %ymm5, %ymm4
	vpaddq	%ymm3, %ymm2, %ymm3
	vpxor	%ymm0, %ymm2, %ymm5
	vpcmpgtq	%ymm6, %ymm5, %ymm5
	vpand	%ymm3, %ymm5, %ymm3
	vpsrlq	$6, %ymm4, %ymm5
	vpsrlq	$6, %ymm3, %ymm6
	vmovdqa	.LCPI20_2(%rip), %ymm7
	vpermd	%ymm5, %ymm7, %ymm8
	vpermd	%ymm6, %ymm7, %ymm9
	vmovdqa	%xmm8, 896(%rsp)
	vmovdqa	%xmm9, 912(%rsp)
	vpbroadcastq	.LCPI20_3(%rip), %ymm8
	vpand	%ymm4, %ymm8, %ymm4
	vpand	%ymm3, %ymm8, %ymm3
	vpsubq	%ymm4, %ymm1, %ymm1
	vpsubq	%ymm3, %ymm2, %ymm2
	vpermd	%ymm1, %ymm7, %ymm1
	vmovdqa	%xmm1, 96(%rsp)
	vpermd	%ymm2, %ymm7, %ymm1
	vmovdqa	%xmm1, 112(%rsp)
	vpcmpgtq	%ymm6, %ymm5, %ymm1
	vblendvpd	%ymm1, %ymm5, %ymm6, %ymm1
	vextractf128	$1, %ymm1, %xmm2
	vorpd	%xmm0, %xmm2, %xmm3
	vorpd	%xmm0, %xmm1, %xmm4
	vpcmpgtq	%xmm3, %xmm4, %xmm3
	vblendvpd	%xmm3, %xmm1, %xmm2, %xmm1
	vshufps	$238, %xmm1, %xmm1, %xmm2
	vorpd	%xmm0, %xmm1, %xmm3
	vxorpd	%xmm0, %xmm2, %xmm0
	vpcmpgtq	%xmm0, %xmm3, %xmm0
	vblendvpd	%xmm0, %xmm1, %xmm2, %xmm0
	vmovq	%xmm0, %rbx
	jmp	.LBB20_15
	.p2align	4
.LBB20_14:
	movq	%rbx, %rdx
	movq	(%rax,%rcx,8), %r8
	cmpq	$1, %r8
	movq	%r8, %r9
	adcq	$-1, %r9
	movq	%r9, %rbx
	shrq	$6, %rbx
	movl	%ebx, 896(%rsp,%rcx,4)
	andl	$-64, %r9d
	subl	%r9d, %r8d
	cmpq	%rdx, %rbx
	cmovbeq	%rdx, %rbx
	movl	%r8d, 96(%rsp,%rcx,4)
	incq	%rcx
.LBB20_15:
	cmpq	%rcx, %rbp
	jne	.LBB20_14
	vmovups	96(%rsp), %ymm0
	vmovups	%ymm0, 1504(%rsp)
	movq	%r13, %r14
	shlq	$10, %r14
	addq	%r15, %r14
	leaq	-1(%rbp), %rax
	cmpq	$5, %rax
	movl	$5, %ecx
	cmovbq	%rax, %rcx
	movl	$6, %edx
	cmovbeq	%rax, %rdx
	vmovaps	.LCPI20_4(%rip), %ymm0
	vmovups	%ymm0, 320(%rsp)
	vxorps	%xmm0, %xmm0, %xmm0
	vmovups	%ymm0, 96(%rsp)
	vmovups	%ymm0, 128(%rsp)
	vmovups	896(%rsp), %ymm0
	vmovups	%ymm0, 1472(%rsp)
	vbroadcastss	.LCPI20_5(%rip), %ymm0
	vmovups	%ymm0, 896(%rsp)
	vbroadcastss	.LCPI20_6(%rip), %ymm1
	vmovups	%ymm1, 928(%rsp)
	movq	$4, 352(%rsp)
	vbroadcastss	.LCPI20_7(%rip), %ymm2
	vmovups	%ymm2, 960(%rsp)
	movq	%rcx, 360(%rsp)
	vbroadcastss	.LCPI20_8(%rip), %ymm3
	vmovups	%ymm3, 992(%rsp)
	movq	%rdx, 368(%rsp)
	vbroadcastss	.LCPI20_9(%rip), %ymm4
	vmovups	%ymm4, 1024(%rsp)
	movq	%rax, 376(%rsp)
	vbroadcastss	.LCPI20_10(%rip), %ymm5
	vmovups	%ymm5, 1056(%rsp)
	vbroadcastss	.LCPI20_11(%rip), %ymm6
	vmovups	%ymm6, 1088(%rsp)
	vbroadcastss	.LCPI20_12(%rip), %ymm7
	vmovups	%ymm7, 1120(%rsp)
	incq	%rbx
	xorl	%r15d, %r15d
	.p2align	4
.LBB20_17:
	vmovups	%ymm7, 1568(%rsp)
	vmovups	%ymm6, 1600(%rsp)
	vmovups	%ymm5, 1632(%rsp)
	vmovups	%ymm4, 1664(%rsp)
	vmovups	%ymm3, 1696(%rsp)
	vmovups	%ymm2, 1728(%rsp)
	vmovups	%ymm1, 1760(%rsp)
	vmovups	%ymm0, 64(%rsp)
	xorl	%eax, %eax
	testl	%r15d, %r15d
	sete	%al
	leal	16(%rax), %ecx
	orl	$26, %eax
	vmovd	%r15d, %xmm0
	vpbroadcastd	%xmm0, %ymm0
	vpcmpeqd	1472(%rsp), %ymm0, %ymm3
	vmovdqu	%ymm3, 1536(%rsp)
	vbroadcastss	.LCPI20_13(%rip), %ymm0
	vblendvps	%ymm3, 1504(%rsp), %ymm0, %ymm0
	vmovd	%eax, %xmm1
	vpbroadcastd	%xmm1, %ymm1
	vmovd	%ecx, %xmm2
	vpbroadcastd	%xmm2, %ymm2
	vblendvps	%ymm3, %ymm1, %ymm2, %ymm1
	vmovups	%ymm0, 2336(%rsp)
	vmovups	%ymm1, 2304(%rsp)
	leaq	2304(%rsp), %rax
	movq	%rax, 48(%rsp)
	leaq	2336(%rsp), %rax
	movq	%rax, 40(%rsp)
	leaq	96(%rsp), %rax
	movq	%rax, 32(%rsp)
	leaq	896(%rsp), %rcx
	leaq	320(%rsp), %r8
	movq	%r14, %rdx
	movq	%r15, %r9
	vzeroupper
	callq	"keyed_blake3::chunks::take_block::<#a9687390e0dd665c>"
	vmovups	1568(%rsp), %ymm7
	vmovups	1600(%rsp), %ymm6
	vmovups	1632(%rsp), %ymm5
	vmovups	1664(%rsp), %ymm4
	vmovups	1696(%rsp), %ymm3
	vmovups	1728(%rsp), %ymm2
	vmovups	1760(%rsp), %ymm1
	vmovups	64(%rsp), %ymm0
	vmovups	1536(%rsp), %ymm8
	vblendvps	%ymm8, 896(%rsp), %ymm0, %ymm0
	vblendvps	%ymm8, 928(%rsp), %ymm1, %ymm1
	vblendvps	%ymm8, 960(%rsp), %ymm2, %ymm2
	vblendvps	%ymm8, 992(%rsp), %ymm3, %ymm3
	vblendvps	%ymm8, 1024(%rsp), %ymm4, %ymm4
	vblendvps	%ymm8, 1056(%rsp), %ymm5, %ymm5
	vblendvps	%ymm8, 1088(%rsp), %ymm6, %ymm6
	vblendvps	%ymm8, 1120(%rsp), %ymm7, %ymm7
	incq	%r15
	cmpq	%r15, %rbx
	jne	.LBB20_17
	vmovups	%ymm0, 384(%rsp)
	vmovups	%ymm1, 416(%rsp)
	vmovups	%ymm2, 448(%rsp)
	vmovups	%ymm3, 480(%rsp)
	vmovups	%ymm4, 512(%rsp)
	vmovups	%ymm5, 544(%rsp)
	vmovups	%ymm6, 576(%rsp)
	vmovups	%ymm7, 608(%rsp)
	cmpq	$8, %rdi
	jae	.LBB20_20
	xorl	%eax, %eax
	movq	56(%rsp), %r15
	jmp	.LBB20_21
	.p2align	4
.LBB20_20:
	vmovups	384(%rsp), %ymm3
	vmovups	416(%rsp), %ymm6
	vmovups	448(%rsp), %ymm5
	vmovups	480(%rsp), %ymm7
	vmovups	512(%rsp), %ymm8
	vmovups	544(%rsp), %ymm9
	vmovups	576(%rsp), %ymm10
	vmovups	608(%rsp), %ymm4
	vunpcklps	%ymm4, %ymm10, %ymm2
	vunpcklps	%ymm9, %ymm8, %ymm0
	vunpcklpd	%ymm2, %ymm0, %ymm0
	vmovups	%ymm0, 64(%rsp)
	vunpcklps	%ymm6, %ymm3, %ymm1
	vextractf128	$1, %ymm1, %xmm1
	vunpcklps	%ymm7, %ymm5, %ymm11
	vpermpd	$170, %ymm11, %ymm12
	vblendps	$12, %xmm12, %xmm1, %xmm1
	vbroadcastss	532(%rsp), %ymm12
	vblendps	$32, %ymm9, %ymm12, %ymm12
	vblendps	$192, %ymm2, %ymm12, %ymm2
	vextractf128	$1, %ymm11, %xmm11
	vshufps	$85, %ymm3, %ymm3, %ymm12
	vblendps	$34, %ymm6, %ymm12, %ymm12
	vextractf128	$1, %ymm12, %xmm12
	vblendps	$12, %xmm11, %xmm12, %xmm11
	vblendps	$15, %ymm11, %ymm2, %ymm2
	vbroadcastss	632(%rsp), %ymm11
	vblendps	$128, %ymm11, %ymm10, %ymm10
	vunpckhps	%ymm9, %ymm8, %ymm8
	vblendps	$192, %ymm10, %ymm8, %ymm9
	vunpckhps	%ymm6, %ymm3, %ymm6
	vextractf128	$1, %ymm6, %xmm3
	vunpckhps	%ymm7, %ymm5, %ymm5
	vpermpd	$170, %ymm5, %ymm7
	vblendps	$12, %xmm7, %xmm3, %xmm3
	vblendps	$15, %ymm3, %ymm9, %ymm3
	vbroadcastss	604(%rsp), %ymm7
	vunpckhps	%ymm4, %ymm7, %ymm4
	vunpckhpd	%ymm4, %ymm8, %ymm4
	vextractf128	$1, %ymm5, %xmm5
	vshufps	$238, %ymm6, %ymm6, %ymm6
	vextractf128	$1, %ymm6, %xmm6
	vblendps	$12, %xmm5, %xmm6, %xmm5
	vblendps	$15, %ymm5, %ymm4, %ymm4
	vmovaps	480(%rsp), %xmm5
	vmovaps	384(%rsp), %xmm7
	vmovaps	416(%rsp), %xmm8
	vmovaps	448(%rsp), %xmm6
	vunpcklps	%xmm5, %xmm6, %xmm9
	vshufps	$85, %xmm7, %xmm7, %xmm10
	vblendps	$2, %xmm8, %xmm10, %xmm10
	vblendps	$12, %xmm9, %xmm10, %xmm9
	vmovaps	608(%rsp), %xmm10
	vmovaps	576(%rsp), %xmm11
	vunpcklps	%xmm10, %xmm11, %xmm12
	vinsertf128	$1, %xmm12, %ymm0, %ymm12
	vmovaps	512(%rsp), %xmm13
	vshufps	$85, %xmm13, %xmm13, %xmm14
	vmovaps	544(%rsp), %xmm15
	vblendps	$2, %xmm15, %xmm14, %xmm14
	vinsertf128	$1, %xmm14, %ymm0, %ymm14
	vblendps	$192, %ymm12, %ymm14, %ymm12
	vblendps	$15, %ymm9, %ymm12, %ymm9
	vbroadcastss	%xmm10, %xmm12
	vbroadcastss	%xmm11, %xmm14
	vunpcklps	%xmm12, %xmm14, %xmm12
	vunpcklps	%xmm15, %xmm13, %xmm14
	vinsertf128	$1, %xmm14, %ymm0, %ymm14
	vinsertf128	$1, %xmm12, %ymm0, %ymm12
	vblendps	$192, %ymm12, %ymm14, %ymm12
	vbroadcastss	%xmm5, %xmm14
	vbroadcastss	%xmm6, %xmm0
	vunpcklps	%xmm14, %xmm0, %xmm0
	vunpcklps	%xmm8, %xmm7, %xmm14
	vblendps	$12, %xmm0, %xmm14, %xmm0
	movl	%ebp, %eax
	andl	$8, %eax
	movq	%r13, %rcx
	shlq	$5, %rcx
	vblendps	$15, %ymm0, %ymm12, %ymm0
	vunpckhps	%xmm15, %xmm13, %xmm12
	vinsertf128	$1, %xmm12, %ymm0, %ymm13
	vshufps	$170, %xmm10, %xmm10, %xmm14
	vblendps	$8, %xmm14, %xmm11, %xmm14
	vinsertf128	$1, %xmm14, %ymm0, %ymm14
	vblendps	$192, %ymm14, %ymm13, %ymm13
	vshufps	$170, %xmm5, %xmm5, %xmm14
	vblendps	$8, %xmm14, %xmm6, %xmm14
	vunpckhps	%xmm8, %xmm7, %xmm7
	vblendps	$12, %xmm14, %xmm7, %xmm8
	vblendps	$15, %ymm8, %ymm13, %ymm8
	vunpckhps	%xmm10, %xmm11, %xmm10
	vinsertf128	$1, %xmm10, %ymm0, %ymm10
	vshufps	$238, %xmm12, %xmm12, %xmm11
	vinsertf128	$1, %xmm11, %ymm0, %ymm11
	vblendps	$192, %ymm10, %ymm11, %ymm10
	vunpckhps	%xmm5, %xmm6, %xmm5
	vunpckhpd	%xmm5, %xmm7, %xmm5
	vblendps	$15, %ymm5, %ymm10, %ymm5
	vmovups	%ymm5, 1888(%rsp,%rcx)
	vmovups	%ymm8, 1856(%rsp,%rcx)
	vmovups	%ymm9, 1824(%rsp,%rcx)
	vmovups	%ymm0, 1792(%rsp,%rcx)
	vmovups	%ymm4, 2016(%rsp,%rcx)
	vmovups	%ymm3, 1984(%rsp,%rcx)
	vmovups	%ymm2, 1952(%rsp,%rcx)
	vblendps	$240, 64(%rsp), %ymm1, %ymm0
	vmovups	%ymm0, 1920(%rsp,%rcx)
	cmpq	%rax, %rbp
	movq	56(%rsp), %r15
	je	.LBB20_23
.LBB20_21:
	leaq	(%rax,%r13), %rcx
	shlq	$5, %rcx
	leaq	1820(%rsp), %rdx
	addq	%rdx, %rcx
	.p2align	4
.LBB20_22:
	movl	384(%rsp,%rax,4), %edx
	movl	416(%rsp,%rax,4), %r8d
	movl	448(%rsp,%rax,4), %r9d
	movl	480(%rsp,%rax,4), %r10d
	movl	512(%rsp,%rax,4), %r11d
	movl	544(%rsp,%rax,4), %edi
	movl	576(%rsp,%rax,4), %ebx
	movl	608(%rsp,%rax,4), %r14d
	movl	%edx, -28(%rcx)
	movl	%r8d, -24(%rcx)
	movl	%r9d, -20(%rcx)
	movl	%r10d, -16(%rcx)
	movl	%r11d, -12(%rcx)
	movl	%edi, -8(%rcx)
	movl	%ebx, -4(%rcx)
	movl	%r14d, (%rcx)
	incq	%rax
	addq	$32, %rcx
	cmpq	%rax, %rbp
	jne	.LBB20_22
.LBB20_23:
	addq	%rbp, %r13
	jmp	.LBB20_27
.LBB20_28:
	leaq	384(%rsp), %rbx
	leaq	1792(%rsp), %rdx
	movl	$512, %r8d
	movq	%rbx, %rcx
	vzeroupper
	callq	memcpy
	leaq	1792(%rsp), %rcx
	movl	$512, %r8d
	movq	%rbx, %rdx
	callq	memcpy
	vxorpd	%xmm0, %xmm0, %xmm0
	vmovupd	%ymm0, 896(%rsp)
	vmovupd	%ymm0, 928(%rsp)
	vmovupd	%ymm0, 960(%rsp)
	vmovupd	%ymm0, 992(%rsp)
	vmovupd	%ymm0, 1024(%rsp)
	vmovupd	%ymm0, 1056(%rsp)
	vmovupd	%ymm0, 1088(%rsp)
	vmovupd	%ymm0, 1120(%rsp)
	vmovupd	%ymm0, 1152(%rsp)
	vmovupd	%ymm0, 1184(%rsp)
	vmovupd	%ymm0, 1216(%rsp)
	vmovupd	%ymm0, 1248(%rsp)
	vmovupd	%ymm0, 1280(%rsp)
	vmovupd	%ymm0, 1312(%rsp)
	vmovupd	%ymm0, 1344(%rsp)
	vmovupd	%ymm0, 1376(%rsp)
	cmpq	$4, %r12
	jae	.LBB20_30
	xorl	%eax, %eax
	jmp	.LBB20_33
.LBB20_30:
	movq	%r12, %rax
	andq	$-4, %rax
	xorl	%ecx, %ecx
	movq	%rax, %rdx
	.p2align	4
.LBB20_31:
	vmovupd	1792(%rsp,%rcx), %ymm0
	vmovupd	%ymm0, 896(%rsp,%rcx)
	addq	$32, %rcx
	decq	%rdx
	jne	.LBB20_31
	cmpq	%rax, %r12
	je	.LBB20_35
.LBB20_33:
	movq	%r12, %rcx
	subq	%rax, %rcx
	shlq	$5, %rax
	.p2align	4
.LBB20_34:
	vmovupd	1792(%rsp,%rax), %ymm0
	vmovupd	%ymm0, 896(%rsp,%rax)
	addq	$32, %rax
	decq	%rcx
	jne	.LBB20_34
.LBB20_35:
	leaq	2880(%rsp), %rbx
	leaq	896(%rsp), %rdx
	movl	$512, %r8d
	movq	%rbx, %rcx
	vzeroupper
	callq	memcpy
	leaq	2368(%rsp), %rcx
	movl	$512, %r8d
	movq	%rbx, %rdx
	callq	memcpy
	movl	%r12d, %eax
	andl	$3, %eax
	cmpq	$4, %r12
	jae	.LBB20_37
	xorl	%ecx, %ecx
	movq	3664(%rsp), %r10
	jmp	.LBB20_40
.LBB20_37:
	andq	$-4, %r12
	leaq	2464(%rsp), %rdx
	xorl	%ecx, %ecx
	movq	3664(%rsp), %r10
	.p2align	4
.LBB20_38:
	movq	(%rsi,%rcx,8), %r8
	shlq	$5, %r8
	vmovups	-96(%rdx), %ymm0
	vmovups	%ymm0, (%r10,%r8)
	movq	8(%rsi,%rcx,8), %r8
	shlq	$5, %r8
	vmovups	-64(%rdx), %ymm0
	vmovups	%ymm0, (%r10,%r8)
	movq	16(%rsi,%rcx,8), %r8
	shlq	$5, %r8
	vmovups	-32(%rdx), %ymm0
	vmovups	%ymm0, (%r10,%r8)
	movq	24(%rsi,%rcx,8), %r8
	shlq	$5, %r8
	vmovupd	(%rdx), %ymm0
	vmovupd	%ymm0, (%r10,%r8)
	addq	$4, %rcx
	subq	$-128, %rdx
	cmpq	%rcx, %r12
	jne	.LBB20_38
	testq	%rax, %rax
	je	.LBB20_42
.LBB20_40:
	leaq	(%rsi,%rcx,8), %rdx
	shlq	$5, %rcx
	addq	%rsp, %rcx
	addq	$2368, %rcx
	shll	$3, %eax
	xorl	%r8d, %r8d
	.p2align	4
.LBB20_41:
	movq	(%rdx,%r8), %r9
	shlq	$5, %r9
	vmovupd	(%rcx,%r8,4), %ymm0
	vmovupd	%ymm0, (%r10,%r9)
	addq	$8, %r8
	cmpq	%r8, %rax
	jne	.LBB20_41
.LBB20_42:
	vmovaps	3392(%rsp), %xmm6
	vmovaps	3408(%rsp), %xmm7
	vmovaps	3424(%rsp), %xmm8
	vmovaps	3440(%rsp), %xmm9
	vmovaps	3456(%rsp), %xmm10
	vmovaps	3472(%rsp), %xmm11
	vmovaps	3488(%rsp), %xmm12
	vmovaps	3504(%rsp), %xmm13
	vmovaps	3520(%rsp), %xmm14
	vmovaps	3536(%rsp), %xmm15
	addq	$3560, %rsp
	popq	%rbx
	popq	%rbp
	popq	%rdi
	popq	%rsi
	popq	%r12
	popq	%r13
	popq	%r14
	popq	%r15
	vzeroupper
	retq
	.seh_endproc

	.section	.rdata,"dr"
	.p2align	5, 0x0
.LCPI21_0:
	.byte	7
	.byte	6
	.byte	5
	.byte	4
	.byte	3
	.byte	2
	.byte	1
	.byte	0
	.byte	15
	.byte	14
	.byte	13
	.byte	12
	.byte	11
	.byte	10
	.byte	9
	.byte	8
	.byte	7
	.byte	6
	.byte	5
	.byte	4
	.byte	3
	.byte	2
	.byte	1
	.byte	0
	.byte	15
	.byte	14
	.byte	13
	.byte	12
	.byte	11
	.byte	10
	.byte	9
	.byte	8
.LCPI21_1:
	.zero	32,15
.LCPI21_2:
	.zero	32,159
.LCPI21_3:
	.zero	32,48
.LCPI21_4:
	.zero	32,87
.LCPI21_5:
	.zero	32,9
.LCPI21_6:
	.zero	4,15
.LCPI21_7:
	.zero	4,48
.LCPI21_8:
	.zero	4,87
	.section	.text
	.p2align	4
	.def	"xet_roots::groups::write_text";
	.scl	3;
	.type	32;
	.endef
"xet_roots::groups::write_text":
.seh_proc "xet_roots::groups::write_text"
	pushq	%r15
	.seh_pushreg %r15
	pushq	%r14
	.seh_pushreg %r14
	pushq	%rsi
	.seh_pushreg %rsi
	pushq	%rdi
	.seh_pushreg %rdi
	pushq	%rbp
	.seh_pushreg %rbp
	pushq	%rbx
	.seh_pushreg %rbx
	subq	$88, %rsp
	.seh_stackalloc 88
	vmovdqa	%xmm6, 64(%rsp)
	.seh_savexmm %xmm6, 64
	.seh_endprologue
	testq	%r8, %r8
	je	.LBB21_1
	movq	%r8, %rsi
	movq	%rdx, %rdi
	movq	%rcx, %rbx
	xorl	%ecx, %ecx
	xorl	%r15d, %r15d
	jmp	.LBB21_3
.LBB21_19:
	movzwl	%r10w, %eax
	movzwl	(%r8,%rax,2), %eax
	movw	%ax, 29(%rsp,%r9)
	addq	$-3, %r9
.LBB21_20:
	movl	$20, %r8d
	subq	%r9, %r8
	leaq	(%r8,%rcx), %r14
	addq	%rbx, %rcx
	leaq	(%rsp,%r9), %rdx
	addq	$32, %rdx
	vzeroupper
	callq	memcpy
.LBB21_21:
	movb	$10, (%rbx,%r14)
	incq	%r14
	incq	%r15
	movq	%r14, %rcx
	cmpq	%rsi, %r15
	je	.LBB21_22
.LBB21_3:
	leaq	(%r15,%r15,4), %rax
	vmovdqu	(%rdi,%rax,8), %ymm0
	vpshufb	.LCPI21_0(%rip), %ymm0, %ymm0
	vpsrlw	$4, %ymm0, %ymm1
	vpbroadcastd	.LCPI21_6(%rip), %ymm2
	vpminub	.LCPI21_2(%rip), %ymm0, %ymm3
	vpand	%ymm2, %ymm1, %ymm1
	vpcmpeqb	%ymm3, %ymm0, %ymm3
	vpbroadcastd	.LCPI21_7(%rip), %ymm4
	vpor	%ymm4, %ymm1, %ymm5
	vpbroadcastd	.LCPI21_8(%rip), %ymm6
	vpaddb	%ymm6, %ymm1, %ymm1
	vpblendvb	%ymm3, %ymm5, %ymm1, %ymm1
	movq	32(%rdi,%rax,8), %rax
	vpand	%ymm2, %ymm0, %ymm0
	vpcmpgtb	.LCPI21_5(%rip), %ymm0, %ymm2
	vpor	%ymm4, %ymm0, %ymm3
	vpaddb	%ymm6, %ymm0, %ymm0
	vpblendvb	%ymm2, %ymm0, %ymm3, %ymm0
	vpunpckhbw	%ymm0, %ymm1, %ymm2
	vpunpcklbw	%ymm0, %ymm1, %ymm0
	vperm2i128	$32, %ymm2, %ymm0, %ymm1
	vperm2i128	$49, %ymm2, %ymm0, %ymm0
	vmovdqu	%ymm0, 32(%rbx,%rcx)
	vmovdqu	%ymm1, (%rbx,%rcx)
	leaq	(%rbx,%rcx), %rdx
	addq	$64, %rdx
	leaq	static.3(%rip), %r8
	movq	%rdx, %r9
	subq	%r8, %r9
	cmpq	$2, %r9
	ja	.LBB21_5
	leaq	(%rbx,%rcx), %rdx
	movw	$14880, 64(%rdx)
	movb	$32, 66(%rdx)
	cmpq	$99999999, %rax
	jbe	.LBB21_7
.LBB21_11:
	addq	$67, %rcx
	vpxor	%xmm0, %xmm0, %xmm0
	vmovdqa	%xmm0, 32(%rsp)
	movl	$0, 48(%rsp)
	movl	$19, %r9d
	.p2align	4
.LBB21_12:
	movq	%rax, %rdx
	movabsq	$3777893186295716171, %rax
	mulxq	%rax, %rax, %rax
	shrq	$11, %rax
	imull	$10000, %eax, %r8d
	movl	%edx, %r10d
	subl	%r8d, %r10d
	imull	$5243, %r10d, %r11d
	shrl	$19, %r11d
	imull	$100, %r11d, %r8d
	subl	%r8d, %r10d
	movzwl	%r10w, %r10d
	leaq	static.6(%rip), %r8
	movzwl	(%r8,%r10,2), %r10d
	movw	%r10w, 31(%rsp,%r9)
	movzwl	(%r8,%r11,2), %r10d
	movw	%r10w, 29(%rsp,%r9)
	addq	$-4, %r9
	cmpq	$99999999, %rdx
	ja	.LBB21_12
	cmpq	$999999, %rdx
	ja	.LBB21_17
	cmpq	$99999, %rdx
	ja	.LBB21_16
	orb	$48, %al
	movb	%al, 32(%rsp,%r9)
	jmp	.LBB21_20
	.p2align	4
.LBB21_5:
	movb	$32, 2(%rdx)
	movw	$14880, (%rdx)
	cmpq	$99999999, %rax
	ja	.LBB21_11
.LBB21_7:
	xorl	%edx, %edx
	cmpq	$9999, %rax
	ja	.LBB21_9
	cmpq	$1000, %rax
	adcq	$4, %rdx
	cmpq	$100, %rax
	movl	$6, %r8d
	cmovaeq	%rdx, %r8
	cmpq	$10, %rax
	movl	$7, %edx
	jmp	.LBB21_10
	.p2align	4
.LBB21_17:
	movl	%eax, %r10d
	shrl	$2, %r10d
	movzwl	%r10w, %r10d
	imull	$5243, %r10d, %r10d
	shrl	$17, %r10d
	imull	$100, %r10d, %r11d
	subl	%r11d, %eax
	movzwl	%ax, %eax
	movzwl	(%r8,%rax,2), %eax
	movw	%ax, 31(%rsp,%r9)
	cmpq	$9999999, %rdx
	ja	.LBB21_19
	orb	$48, %r10b
	movb	%r10b, 30(%rsp,%r9)
	addq	$-2, %r9
	jmp	.LBB21_20
	.p2align	4
.LBB21_9:
	cmpq	$10000000, %rax
	setb	%dl
	cmpq	$1000000, %rax
	movl	$2, %r8d
	cmovaeq	%rdx, %r8
	cmpq	$100000, %rax
	movl	$3, %edx
.LBB21_10:
	cmovaeq	%r8, %rdx
	movl	$3518437209, %r8d
	imulq	%rax, %r8
	shrq	$45, %r8
	movzwl	%r8w, %r9d
	shrl	$2, %r9d
	imull	$5243, %r9d, %r9d
	shrl	$17, %r9d
	leaq	static.6(%rip), %r10
	movzwl	(%r10,%r9,2), %r11d
	imull	$100, %r9d, %r9d
	imull	$10000, %r8d, %ebp
	subl	%r9d, %r8d
	movzwl	%r8w, %r8d
	movzwl	(%r10,%r8,2), %r8d
	shll	$16, %r8d
	orq	%r11, %r8
	subl	%ebp, %eax
	imull	$5243, %eax, %r9d
	shrl	$19, %r9d
	movzwl	(%r10,%r9,2), %r11d
	imull	$100, %r9d, %r9d
	subl	%r9d, %eax
	movzwl	%ax, %eax
	movzwl	(%r10,%rax,2), %eax
	shlq	$48, %rax
	shlq	$32, %r11
	orq	%r8, %r11
	orq	%rax, %r11
	leal	(,%rdx,8), %eax
	shrxq	%rax, %r11, %rax
	movq	%rax, 67(%rbx,%rcx)
	subq	%rdx, %rcx
	addq	$75, %rcx
	movq	%rcx, %r14
	jmp	.LBB21_21
.LBB21_16:
	movzwl	(%r8,%rax,2), %eax
	movw	%ax, 31(%rsp,%r9)
	decq	%r9
	jmp	.LBB21_20
.LBB21_1:
	xorl	%r14d, %r14d
.LBB21_22:
	movq	%r14, %rax
	vmovaps	64(%rsp), %xmm6
	addq	$88, %rsp
	popq	%rbx
	popq	%rbp
	popq	%rdi
	popq	%rsi
	popq	%r14
	popq	%r15
	vzeroupper
	retq
	.seh_endproc

	.section	.rdata,"dr"
	.p2align	5, 0x0
.LCPI22_0:
	.byte	2
	.byte	3
	.byte	0
	.byte	1
	.byte	6
	.byte	7
	.byte	4
	.byte	5
	.byte	10
	.byte	11
	.byte	8
	.byte	9
	.byte	14
	.byte	15
	.byte	12
	.byte	13
	.byte	18
	.byte	19
	.byte	16
	.byte	17
	.byte	22
	.byte	23
	.byte	20
	.byte	21
	.byte	26
	.byte	27
	.byte	24
	.byte	25
	.byte	30
	.byte	31
	.byte	28
	.byte	29
.LCPI22_1:
	.long	3144134277
.LCPI22_2:
	.long	1013904242
.LCPI22_3:
	.long	2773480762
	.zero	20
.LCPI22_4:
	.byte	1
	.byte	2
	.byte	3
	.byte	0
	.byte	5
	.byte	6
	.byte	7
	.byte	4
	.byte	9
	.byte	10
	.byte	11
	.byte	8
	.byte	13
	.byte	14
	.byte	15
	.byte	12
	.byte	1
	.byte	2
	.byte	3
	.byte	0
	.byte	5
	.byte	6
	.byte	7
	.byte	4
	.byte	9
	.byte	10
	.byte	11
	.byte	8
	.byte	13
	.byte	14
	.byte	15
	.byte	12
.LCPI22_5:
	.byte	1
	.byte	2
	.byte	3
	.byte	0
	.byte	5
	.byte	6
	.byte	7
	.byte	4
	.byte	9
	.byte	10
	.byte	11
	.byte	8
	.byte	13
	.byte	14
	.byte	15
	.byte	12
	.section	.text
	.p2align	4
	.def	"keyed_blake3::chunks::take_block::<#a9687390e0dd665c>";
	.scl	3;
	.type	32;
	.endef
"keyed_blake3::chunks::take_block::<#a9687390e0dd665c>":
.seh_proc "keyed_blake3::chunks::take_block::<#a9687390e0dd665c>"
	pushq	%rbp
	.seh_pushreg %rbp
	pushq	%r14
	.seh_pushreg %r14
	pushq	%rsi
	.seh_pushreg %rsi
	pushq	%rdi
	.seh_pushreg %rdi
	pushq	%rbx
	.seh_pushreg %rbx
	subq	$1008, %rsp
	.seh_stackalloc 1008
	leaq	128(%rsp), %rbp
	.seh_setframe %rbp, 128
	vmovaps	%xmm15, 864(%rbp)
	.seh_savexmm %xmm15, 992
	vmovaps	%xmm14, 848(%rbp)
	.seh_savexmm %xmm14, 976
	vmovaps	%xmm13, 832(%rbp)
	.seh_savexmm %xmm13, 960
	vmovaps	%xmm12, 816(%rbp)
	.seh_savexmm %xmm12, 944
	vmovaps	%xmm11, 800(%rbp)
	.seh_savexmm %xmm11, 928
	vmovaps	%xmm10, 784(%rbp)
	.seh_savexmm %xmm10, 912
	vmovaps	%xmm9, 768(%rbp)
	.seh_savexmm %xmm9, 896
	vmovaps	%xmm8, 752(%rbp)
	.seh_savexmm %xmm8, 880
	vmovaps	%xmm7, 736(%rbp)
	.seh_savexmm %xmm7, 864
	vmovaps	%xmm6, 720(%rbp)
	.seh_savexmm %xmm6, 848
	.seh_endprologue
	andq	$-32, %rsp
	movq	%rcx, %rsi
	shlq	$6, %r9
	addq	%rdx, %r9
	movq	(%r8), %rcx
	movq	8(%r8), %rdx
	shlq	$10, %rcx
	shlq	$10, %rdx
	movq	16(%r8), %r10
	shlq	$10, %r10
	movq	24(%r8), %r11
	shlq	$10, %r11
	movq	32(%r8), %rdi
	shlq	$10, %rdi
	movq	40(%r8), %rbx
	shlq	$10, %rbx
	movq	48(%r8), %r14
	shlq	$10, %r14
	movq	56(%r8), %rax
	shlq	$10, %rax
	vmovdqu	(%rcx,%r9), %ymm2
	prefetcht0	128(%rcx,%r9)
	vmovups	32(%rcx,%r9), %ymm0
	vmovdqu	(%rdx,%r9), %ymm3
	prefetcht0	128(%rdx,%r9)
	vmovups	32(%rdx,%r9), %ymm1
	vpunpckldq	%ymm3, %ymm2, %ymm7
	vpunpckhdq	%ymm3, %ymm2, %ymm8
	vmovdqu	(%r10,%r9), %ymm4
	prefetcht0	128(%r10,%r9)
	vmovups	32(%r10,%r9), %ymm2
	vmovdqu	(%r11,%r9), %ymm5
	prefetcht0	128(%r11,%r9)
	vmovups	32(%r11,%r9), %ymm3
	vpunpckldq	%ymm5, %ymm4, %ymm9
	vpunpckhdq	%ymm5, %ymm4, %ymm10
	vmovdqu	(%rdi,%r9), %ymm6
	prefetcht0	128(%rdi,%r9)
	vmovups	32(%rdi,%r9), %ymm4
	vmovdqu	(%rbx,%r9), %ymm11
	prefetcht0	128(%rbx,%r9)
	vmovups	32(%rbx,%r9), %ymm5
	vpunpckldq	%ymm11, %ymm6, %ymm12
	vpunpckhdq	%ymm11, %ymm6, %ymm11
	vmovdqu	(%r14,%r9), %ymm13
	prefetcht0	128(%r14,%r9)
	vmovups	32(%r14,%r9), %ymm6
	vmovdqu	(%rax,%r9), %ymm14
	prefetcht0	128(%rax,%r9)
	vpunpckldq	%ymm14, %ymm13, %ymm15
	vpunpckhdq	%ymm14, %ymm13, %ymm13
	vpunpcklqdq	%ymm9, %ymm7, %ymm14
	vpunpckhqdq	%ymm9, %ymm7, %ymm7
	vpunpcklqdq	%ymm10, %ymm8, %ymm9
	vpunpckhqdq	%ymm10, %ymm8, %ymm8
	vpunpcklqdq	%ymm15, %ymm12, %ymm10
	vpunpckhqdq	%ymm15, %ymm12, %ymm12
	vpunpcklqdq	%ymm13, %ymm11, %ymm15
	vpunpckhqdq	%ymm13, %ymm11, %ymm11
	vinserti128	$1, %xmm10, %ymm14, %ymm13
	vmovdqa	%ymm13, 544(%rsp)
	vperm2i128	$49, %ymm10, %ymm14, %ymm10
	vmovdqa	%ymm10, 736(%rsp)
	vinserti128	$1, %xmm12, %ymm7, %ymm14
	vmovdqa	%ymm14, 288(%rsp)
	vperm2i128	$49, %ymm12, %ymm7, %ymm7
	vmovdqa	%ymm7, 256(%rsp)
	vinserti128	$1, %xmm15, %ymm9, %ymm12
	vmovdqa	%ymm12, 704(%rsp)
	vperm2i128	$49, %ymm15, %ymm9, %ymm9
	vmovdqa	%ymm9, 576(%rsp)
	vinserti128	$1, %xmm11, %ymm8, %ymm7
	vmovdqa	%ymm7, 480(%rsp)
	vperm2i128	$49, %ymm11, %ymm8, %ymm7
	vmovdqa	%ymm7, 448(%rsp)
	vunpcklps	%ymm1, %ymm0, %ymm7
	vunpckhps	%ymm1, %ymm0, %ymm0
	vunpcklps	%ymm3, %ymm2, %ymm1
	vunpckhps	%ymm3, %ymm2, %ymm2
	vunpcklps	%ymm5, %ymm4, %ymm3
	vunpckhps	%ymm5, %ymm4, %ymm4
	vmovups	32(%rax,%r9), %ymm5
	vunpcklps	%ymm5, %ymm6, %ymm8
	vunpckhps	%ymm5, %ymm6, %ymm5
	vunpcklpd	%ymm1, %ymm7, %ymm6
	vunpckhpd	%ymm1, %ymm7, %ymm1
	vunpcklpd	%ymm2, %ymm0, %ymm7
	vunpckhpd	%ymm2, %ymm0, %ymm0
	vunpcklpd	%ymm8, %ymm3, %ymm2
	vunpckhpd	%ymm8, %ymm3, %ymm3
	vunpcklpd	%ymm5, %ymm4, %ymm8
	vunpckhpd	%ymm5, %ymm4, %ymm4
	vinsertf128	$1, %xmm2, %ymm6, %ymm5
	vmovaps	%ymm5, 224(%rsp)
	vperm2f128	$49, %ymm2, %ymm6, %ymm2
	vmovaps	%ymm2, 512(%rsp)
	vinsertf128	$1, %xmm3, %ymm1, %ymm2
	vmovaps	%ymm2, 384(%rsp)
	vperm2f128	$49, %ymm3, %ymm1, %ymm1
	vmovaps	%ymm1, 640(%rsp)
	vinsertf128	$1, %xmm8, %ymm7, %ymm1
	vmovaps	%ymm1, 672(%rsp)
	vperm2f128	$49, %ymm8, %ymm7, %ymm1
	vmovaps	%ymm1, 416(%rsp)
	vinsertf128	$1, %xmm4, %ymm0, %ymm1
	vmovaps	%ymm1, 320(%rsp)
	vperm2f128	$49, %ymm4, %ymm0, %ymm0
	vmovaps	%ymm0, 352(%rsp)
	movq	976(%rbp), %rdi
	movq	968(%rbp), %rbx
	movq	960(%rbp), %r14
	vmovups	128(%rsi), %ymm0
	vmovaps	%ymm0, 768(%rsp)
	vmovups	160(%rsi), %ymm0
	vmovaps	%ymm0, 192(%rsp)
	vmovups	192(%rsi), %ymm0
	vmovaps	%ymm0, 96(%rsp)
	vmovups	224(%rsi), %ymm0
	vmovaps	%ymm0, 160(%rsp)
	vpaddd	(%rsi), %ymm13, %ymm0
	vmovdqa	%ymm0, 32(%rsp)
	vpaddd	32(%rsi), %ymm12, %ymm0
	vmovdqa	%ymm0, 608(%rsp)
	vpaddd	64(%rsi), %ymm10, %ymm0
	vmovdqa	%ymm0, 64(%rsp)
	vpaddd	96(%rsi), %ymm9, %ymm0
	vmovdqa	%ymm0, 128(%rsp)
	leaq	800(%rsp), %rcx
	vzeroupper
	callq	"keyed_blake3::compression::lanes::each_by_call::<=8>"
	vmovdqa	768(%rsp), %ymm4
	vpaddd	32(%rsp), %ymm4, %ymm3
	vpxor	(%r14), %ymm3, %ymm0
	vmovdqa	.LCPI22_0(%rip), %ymm11
	vpshufb	%ymm11, %ymm0, %ymm1
	vpaddd	800(%rsp), %ymm1, %ymm0
	vmovdqa	%ymm0, 32(%rsp)
	vpxor	%ymm4, %ymm0, %ymm2
	vpsrld	$12, %ymm2, %ymm4
	vpslld	$20, %ymm2, %ymm2
	vpor	%ymm4, %ymm2, %ymm4
	vmovdqa	192(%rsp), %ymm0
	vpaddd	608(%rsp), %ymm0, %ymm5
	vpxor	32(%r14), %ymm5, %ymm2
	vpshufb	%ymm11, %ymm2, %ymm9
	vpbroadcastd	.LCPI22_1(%rip), %ymm2
	vpaddd	%ymm2, %ymm9, %ymm12
	vpxor	%ymm0, %ymm12, %ymm2
	vpsrld	$12, %ymm2, %ymm6
	vpslld	$20, %ymm2, %ymm2
	vpor	%ymm6, %ymm2, %ymm2
	vmovdqa	96(%rsp), %ymm0
	vpaddd	64(%rsp), %ymm0, %ymm7
	vpxor	(%rbx), %ymm7, %ymm6
	vpshufb	%ymm11, %ymm6, %ymm10
	vpbroadcastd	.LCPI22_2(%rip), %ymm6
	vpaddd	%ymm6, %ymm10, %ymm13
	vpxor	%ymm0, %ymm13, %ymm6
	vpsrld	$12, %ymm6, %ymm8
	vpslld	$20, %ymm6, %ymm6
	vpor	%ymm6, %ymm8, %ymm15
	vmovdqa	160(%rsp), %ymm0
	vpaddd	128(%rsp), %ymm0, %ymm8
	vpxor	(%rdi), %ymm8, %ymm6
	vpshufb	%ymm11, %ymm6, %ymm11
	vpbroadcastd	.LCPI22_3(%rip), %ymm6
	vpaddd	%ymm6, %ymm11, %ymm14
	vpxor	%ymm0, %ymm14, %ymm6
	vpsrld	$12, %ymm6, %ymm0
	vpslld	$20, %ymm6, %ymm6
	vpor	%ymm0, %ymm6, %ymm6
	vpaddd	288(%rsp), %ymm3, %ymm0
	vpaddd	%ymm4, %ymm0, %ymm3
	vpxor	%ymm3, %ymm1, %ymm0
	vpshufb	.LCPI22_4(%rip), %ymm0, %ymm0
	vmovdqa	%ymm0, 128(%rsp)
	vpaddd	32(%rsp), %ymm0, %ymm1
	vmovdqa	%ymm1, 160(%rsp)
	vpxor	%ymm4, %ymm1, %ymm0
	vpsrld	$7, %ymm0, %ymm1
	vpslld	$25, %ymm0, %ymm0
	vpor	%ymm1, %ymm0, %ymm4
	vpaddd	480(%rsp), %ymm5, %ymm0
	vpaddd	%ymm2, %ymm0, %ymm0
	vmovdqa	%ymm0, 96(%rsp)
	vpxor	%ymm0, %ymm9, %ymm0
	vbroadcasti128	.LCPI22_5(%rip), %ymm1
	vpshufb	%ymm1, %ymm0, %ymm0
	vmovdqa	%ymm0, 32(%rsp)
	vpaddd	%ymm0, %ymm12, %ymm0
	vpxor	%ymm2, %ymm0, %ymm2
	vpsrld	$7, %ymm2, %ymm5
	vpslld	$25, %ymm2, %ymm2
	vpor	%ymm5, %ymm2, %ymm2
	vpaddd	256(%rsp), %ymm7, %ymm5
	vpaddd	%ymm5, %ymm15, %ymm7
	vpxor	%ymm7, %ymm10, %ymm5
	vpshufb	%ymm1, %ymm5, %ymm10
	vpaddd	%ymm10, %ymm13, %ymm5
	vpxor	%ymm5, %ymm15, %ymm9
	vpsrld	$7, %ymm9, %ymm12
	vpslld	$25, %ymm9, %ymm9
	vpor	%ymm12, %ymm9, %ymm9
	vpaddd	448(%rsp), %ymm8, %ymm8
	vpaddd	%ymm6, %ymm8, %ymm8
	vpxor	%ymm8, %ymm11, %ymm11
	vpshufb	%ymm1, %ymm11, %ymm13
	vpaddd	%ymm13, %ymm14, %ymm14
	vpxor	%ymm6, %ymm14, %ymm6
	vpsrld	$7, %ymm6, %ymm11
	vpslld	$25, %ymm6, %ymm6
	vpor	%ymm6, %ymm11, %ymm11
	vpaddd	416(%rsp), %ymm8, %ymm6
	vpaddd	%ymm4, %ymm6, %ymm12
	vpxor	%ymm12, %ymm10, %ymm6
	vmovdqa	.LCPI22_0(%rip), %ymm1
	vpshufb	%ymm1, %ymm6, %ymm15
	vpaddd	%ymm0, %ymm15, %ymm8
	vpxor	%ymm4, %ymm8, %ymm0
	vpsrld	$12, %ymm0, %ymm4
	vpslld	$20, %ymm0, %ymm0
	vpor	%ymm4, %ymm0, %ymm4
	vpaddd	224(%rsp), %ymm3, %ymm3
	vpaddd	%ymm2, %ymm3, %ymm10
	vpxor	%ymm10, %ymm13, %ymm3
	vmovdqa	%ymm1, %ymm6
	vpshufb	%ymm1, %ymm3, %ymm3
	vpaddd	%ymm3, %ymm5, %ymm0
	vmovdqa	%ymm0, 64(%rsp)
	vpxor	%ymm2, %ymm0, %ymm2
	vpsrld	$12, %ymm2, %ymm5
	vpslld	$20, %ymm2, %ymm2
	vpor	%ymm5, %ymm2, %ymm2
	vmovdqa	96(%rsp), %ymm0
	vpaddd	672(%rsp), %ymm0, %ymm1
	vpaddd	%ymm1, %ymm9, %ymm13
	vpxor	128(%rsp), %ymm13, %ymm1
	vpshufb	%ymm6, %ymm1, %ymm5
	vmovdqa	%ymm6, %ymm0
	vpaddd	%ymm5, %ymm14, %ymm6
	vpxor	%ymm6, %ymm9, %ymm1
	vmovdqa	%ymm6, %ymm9
	vpsrld	$12, %ymm1, %ymm6
	vpslld	$20, %ymm1, %ymm1
	vpor	%ymm6, %ymm1, %ymm1
	vpaddd	512(%rsp), %ymm7, %ymm6
	vpaddd	%ymm6, %ymm11, %ymm14
	vpxor	32(%rsp), %ymm14, %ymm6
	vpshufb	%ymm0, %ymm6, %ymm6
	vpaddd	160(%rsp), %ymm6, %ymm0
	vmovdqa	%ymm0, 192(%rsp)
	vpxor	%ymm0, %ymm11, %ymm7
	vpsrld	$12, %ymm7, %ymm11
	vpslld	$20, %ymm7, %ymm7
	vpor	%ymm7, %ymm11, %ymm7
	vpaddd	352(%rsp), %ymm12, %ymm11
	vpaddd	%ymm4, %ymm11, %ymm11
	vmovdqa	%ymm11, 160(%rsp)
	vpxor	%ymm11, %ymm15, %ymm11
	vbroadcasti128	.LCPI22_5(%rip), %ymm12
	vpshufb	%ymm12, %ymm11, %ymm0
	vmovdqa	%ymm0, 128(%rsp)
	vpaddd	%ymm0, %ymm8, %ymm15
	vpxor	%ymm4, %ymm15, %ymm0
	vpsrld	$7, %ymm0, %ymm8
	vpslld	$25, %ymm0, %ymm0
	vpor	%ymm0, %ymm8, %ymm0
	vpaddd	384(%rsp), %ymm10, %ymm4
	vpaddd	%ymm2, %ymm4, %ymm4
	vpxor	%ymm4, %ymm3, %ymm3
	vmovdqa	%ymm12, %ymm8
	vpshufb	%ymm12, %ymm3, %ymm3
	vmovdqa	%ymm3, 32(%rsp)
	vpaddd	64(%rsp), %ymm3, %ymm12
	vpxor	%ymm2, %ymm12, %ymm2
	vpsrld	$7, %ymm2, %ymm3
	vpslld	$25, %ymm2, %ymm2
	vpor	%ymm3, %ymm2, %ymm3
	vpaddd	320(%rsp), %ymm13, %ymm2
	vpaddd	%ymm1, %ymm2, %ymm13
	vpxor	%ymm5, %ymm13, %ymm2
	vpshufb	%ymm8, %ymm2, %ymm2
	vpaddd	%ymm2, %ymm9, %ymm5
	vmovdqa	%ymm5, 96(%rsp)
	vpxor	%ymm1, %ymm5, %ymm1
	vpsrld	$7, %ymm1, %ymm5
	vpslld	$25, %ymm1, %ymm1
	vpor	%ymm5, %ymm1, %ymm9
	vpaddd	640(%rsp), %ymm14, %ymm1
	vpaddd	%ymm7, %ymm1, %ymm10
	vpxor	%ymm6, %ymm10, %ymm1
	vpshufb	%ymm8, %ymm1, %ymm1
	vpaddd	192(%rsp), %ymm1, %ymm5
	vpxor	%ymm7, %ymm5, %ymm6
	vpsrld	$7, %ymm6, %ymm7
	vpslld	$25, %ymm6, %ymm6
	vpor	%ymm7, %ymm6, %ymm6
	vpaddd	704(%rsp), %ymm4, %ymm4
	vpaddd	%ymm0, %ymm4, %ymm11
	vpxor	%ymm2, %ymm11, %ymm2
	vmovdqa	.LCPI22_0(%rip), %ymm4
	vpshufb	%ymm4, %ymm2, %ymm7
	vpaddd	%ymm7, %ymm5, %ymm2
	vmovdqa	%ymm2, 64(%rsp)
	vpxor	%ymm0, %ymm2, %ymm0
	vpsrld	$12, %ymm0, %ymm5
	vpslld	$20, %ymm0, %ymm0
	vpor	%ymm5, %ymm0, %ymm2
	vpaddd	480(%rsp), %ymm13, %ymm5
	vpaddd	%ymm3, %ymm5, %ymm5
	vpxor	%ymm5, %ymm1, %ymm1
	vmovdqa	%ymm4, %ymm0
	vpshufb	%ymm4, %ymm1, %ymm14
	vpaddd	%ymm14, %ymm15, %ymm1
	vmovdqa	%ymm1, 192(%rsp)
	vpxor	%ymm3, %ymm1, %ymm1
	vpsrld	$12, %ymm1, %ymm3
	vpslld	$20, %ymm1, %ymm1
	vpor	%ymm3, %ymm1, %ymm4
	vpaddd	448(%rsp), %ymm10, %ymm3
	vpaddd	%ymm3, %ymm9, %ymm13
	vpxor	128(%rsp), %ymm13, %ymm3
	vpshufb	%ymm0, %ymm3, %ymm15
	vpaddd	%ymm15, %ymm12, %ymm10
	vpxor	%ymm9, %ymm10, %ymm3
	vpsrld	$12, %ymm3, %ymm8
	vpslld	$20, %ymm3, %ymm3
	vpor	%ymm3, %ymm8, %ymm8
	vmovdqa	160(%rsp), %ymm3
	vpaddd	736(%rsp), %ymm3, %ymm3
	vpaddd	%ymm6, %ymm3, %ymm12
	vpxor	32(%rsp), %ymm12, %ymm3
	vpshufb	%ymm0, %ymm3, %ymm3
	vpaddd	96(%rsp), %ymm3, %ymm0
	vmovdqa	%ymm0, 608(%rsp)
	vpxor	%ymm6, %ymm0, %ymm6
	vpsrld	$12, %ymm6, %ymm0
	vpslld	$20, %ymm6, %ymm6
	vpor	%ymm0, %ymm6, %ymm6
	vpaddd	576(%rsp), %ymm11, %ymm0
	vpaddd	%ymm2, %ymm0, %ymm0
	vmovdqa	%ymm0, 32(%rsp)
	vpxor	%ymm0, %ymm7, %ymm0
	vbroadcasti128	.LCPI22_5(%rip), %ymm9
	vpshufb	%ymm9, %ymm0, %ymm0
	vmovdqa	%ymm0, 128(%rsp)
	vpaddd	64(%rsp), %ymm0, %ymm0
	vmovdqa	%ymm0, 160(%rsp)
	vpxor	%ymm2, %ymm0, %ymm1
	vpsrld	$7, %ymm1, %ymm2
	vpslld	$25, %ymm1, %ymm0
	vpor	%ymm2, %ymm0, %ymm0
	vpaddd	672(%rsp), %ymm5, %ymm2
	vpaddd	%ymm4, %ymm2, %ymm1
	vmovdqa	%ymm1, 64(%rsp)
	vpxor	%ymm1, %ymm14, %ymm2
	vpshufb	%ymm9, %ymm2, %ymm1
	vmovdqa	%ymm1, 96(%rsp)
	vpaddd	192(%rsp), %ymm1, %ymm2
	vpxor	%ymm4, %ymm2, %ymm1
	vpsrld	$7, %ymm1, %ymm5
	vpslld	$25, %ymm1, %ymm1
	vpor	%ymm5, %ymm1, %ymm14
	vpaddd	544(%rsp), %ymm13, %ymm1
	vpaddd	%ymm1, %ymm8, %ymm7
	vpxor	%ymm7, %ymm15, %ymm1
	vpshufb	%ymm9, %ymm1, %ymm13
	vpaddd	%ymm13, %ymm10, %ymm1
	vpxor	%ymm1, %ymm8, %ymm5
	vpsrld	$7, %ymm5, %ymm8
	vpslld	$25, %ymm5, %ymm5
	vpor	%ymm5, %ymm8, %ymm15
	vpaddd	640(%rsp), %ymm12, %ymm5
	vpaddd	%ymm6, %ymm5, %ymm5
	vpxor	%ymm5, %ymm3, %ymm3
	vpshufb	%ymm9, %ymm3, %ymm9
	vpaddd	608(%rsp), %ymm9, %ymm11
	vpxor	%ymm6, %ymm11, %ymm3
	vpsrld	$7, %ymm3, %ymm6
	vpslld	$25, %ymm3, %ymm3
	vpor	%ymm6, %ymm3, %ymm10
	vpaddd	352(%rsp), %ymm5, %ymm3
	vpaddd	%ymm0, %ymm3, %ymm5
	vpxor	%ymm5, %ymm13, %ymm3
	vmovdqa	.LCPI22_0(%rip), %ymm6
	vpshufb	%ymm6, %ymm3, %ymm3
	vpaddd	%ymm3, %ymm2, %ymm2
	vmovdqa	%ymm2, 192(%rsp)
	vpxor	%ymm0, %ymm2, %ymm0
	vpsrld	$12, %ymm0, %ymm2
	vpslld	$20, %ymm0, %ymm0
	vpor	%ymm2, %ymm0, %ymm4
	vmovdqa	32(%rsp), %ymm0
	vpaddd	288(%rsp), %ymm0, %ymm2
	vpaddd	%ymm2, %ymm14, %ymm8
	vpxor	%ymm8, %ymm9, %ymm2
	vpshufb	%ymm6, %ymm2, %ymm13
	vpaddd	%ymm1, %ymm13, %ymm9
	vpxor	%ymm14, %ymm9, %ymm1
	vpsrld	$12, %ymm1, %ymm2
	vpslld	$20, %ymm1, %ymm1
	vpor	%ymm2, %ymm1, %ymm2
	vmovdqa	64(%rsp), %ymm0
	vpaddd	512(%rsp), %ymm0, %ymm1
	vpaddd	%ymm1, %ymm15, %ymm12
	vpxor	128(%rsp), %ymm12, %ymm1
	vpshufb	%ymm6, %ymm1, %ymm14
	vmovdqa	%ymm6, %ymm0
	vpaddd	%ymm14, %ymm11, %ymm1
	vmovdqa	%ymm1, 64(%rsp)
	vpxor	%ymm1, %ymm15, %ymm1
	vpsrld	$12, %ymm1, %ymm6
	vpslld	$20, %ymm1, %ymm1
	vpor	%ymm6, %ymm1, %ymm1
	vpaddd	384(%rsp), %ymm7, %ymm6
	vpaddd	%ymm6, %ymm10, %ymm6
	vpxor	96(%rsp), %ymm6, %ymm7
	vpshufb	%ymm0, %ymm7, %ymm15
	vpaddd	160(%rsp), %ymm15, %ymm11
	vpxor	%ymm10, %ymm11, %ymm7
	vpsrld	$12, %ymm7, %ymm10
	vpslld	$20, %ymm7, %ymm7
	vpor	%ymm7, %ymm10, %ymm7
	vpaddd	224(%rsp), %ymm5, %ymm5
	vpaddd	%ymm4, %ymm5, %ymm5
	vmovdqa	%ymm5, 160(%rsp)
	vpxor	%ymm5, %ymm3, %ymm3
	vbroadcasti128	.LCPI22_5(%rip), %ymm10
	vpshufb	%ymm10, %ymm3, %ymm0
	vmovdqa	%ymm0, 128(%rsp)
	vpaddd	192(%rsp), %ymm0, %ymm3
	vpxor	%ymm4, %ymm3, %ymm0
	vpsrld	$7, %ymm0, %ymm5
	vpslld	$25, %ymm0, %ymm0
	vpor	%ymm5, %ymm0, %ymm0
	vpaddd	320(%rsp), %ymm8, %ymm4
	vpaddd	%ymm2, %ymm4, %ymm4
	vpxor	%ymm4, %ymm13, %ymm5
	vpshufb	%ymm10, %ymm5, %ymm5
	vmovdqa	%ymm5, 32(%rsp)
	vmovdqa	%ymm10, %ymm8
	vpaddd	%ymm5, %ymm9, %ymm10
	vpxor	%ymm2, %ymm10, %ymm2
	vpsrld	$7, %ymm2, %ymm5
	vpslld	$25, %ymm2, %ymm2
	vpor	%ymm5, %ymm2, %ymm13
	vpaddd	256(%rsp), %ymm12, %ymm2
	vpaddd	%ymm1, %ymm2, %ymm2
	vpxor	%ymm2, %ymm14, %ymm5
	vpshufb	%ymm8, %ymm5, %ymm14
	vmovdqa	%ymm8, %ymm5
	vpaddd	64(%rsp), %ymm14, %ymm8
	vmovdqa	%ymm8, 96(%rsp)
	vpxor	%ymm1, %ymm8, %ymm1
	vpsrld	$7, %ymm1, %ymm8
	vpslld	$25, %ymm1, %ymm1
	vpor	%ymm1, %ymm8, %ymm8
	vpaddd	416(%rsp), %ymm6, %ymm1
	vpaddd	%ymm7, %ymm1, %ymm12
	vpxor	%ymm12, %ymm15, %ymm1
	vpshufb	%ymm5, %ymm1, %ymm9
	vpaddd	%ymm9, %ymm11, %ymm1
	vpxor	%ymm7, %ymm1, %ymm6
	vpsrld	$7, %ymm6, %ymm7
	vpslld	$25, %ymm6, %ymm6
	vpor	%ymm7, %ymm6, %ymm7
	vpaddd	480(%rsp), %ymm4, %ymm4
	vpaddd	%ymm0, %ymm4, %ymm5
	vpxor	%ymm5, %ymm14, %ymm6
	vmovdqa	.LCPI22_0(%rip), %ymm11
	vpshufb	%ymm11, %ymm6, %ymm14
	vpaddd	%ymm1, %ymm14, %ymm6
	vpxor	%ymm0, %ymm6, %ymm0
	vpsrld	$12, %ymm0, %ymm1
	vpslld	$20, %ymm0, %ymm0
	vpor	%ymm1, %ymm0, %ymm4
	vpaddd	672(%rsp), %ymm2, %ymm1
	vpaddd	%ymm1, %ymm13, %ymm1
	vpxor	%ymm1, %ymm9, %ymm2
	vmovdqa	%ymm11, %ymm0
	vpshufb	%ymm11, %ymm2, %ymm15
	vpaddd	%ymm3, %ymm15, %ymm9
	vpxor	%ymm13, %ymm9, %ymm2
	vpsrld	$12, %ymm2, %ymm3
	vpslld	$20, %ymm2, %ymm2
	vpor	%ymm3, %ymm2, %ymm11
	vpaddd	640(%rsp), %ymm12, %ymm2
	vpaddd	%ymm2, %ymm8, %ymm12
	vpxor	128(%rsp), %ymm12, %ymm2
	vpshufb	%ymm0, %ymm2, %ymm2
	vpaddd	%ymm2, %ymm10, %ymm10
	vpxor	%ymm8, %ymm10, %ymm3
	vpsrld	$12, %ymm3, %ymm8
	vpslld	$20, %ymm3, %ymm3
	vpor	%ymm3, %ymm8, %ymm8
	vmovdqa	160(%rsp), %ymm3
	vpaddd	448(%rsp), %ymm3, %ymm3
	vpaddd	%ymm7, %ymm3, %ymm13
	vpxor	32(%rsp), %ymm13, %ymm3
	vpshufb	%ymm0, %ymm3, %ymm3
	vpaddd	96(%rsp), %ymm3, %ymm0
	vmovdqa	%ymm0, 64(%rsp)
	vpxor	%ymm7, %ymm0, %ymm7
	vpsrld	$12, %ymm7, %ymm0
	vpslld	$20, %ymm7, %ymm7
	vpor	%ymm0, %ymm7, %ymm7
	vpaddd	736(%rsp), %ymm5, %ymm0
	vpaddd	%ymm4, %ymm0, %ymm0
	vmovdqa	%ymm0, 32(%rsp)
	vpxor	%ymm0, %ymm14, %ymm0
	vbroadcasti128	.LCPI22_5(%rip), %ymm5
	vpshufb	%ymm5, %ymm0, %ymm0
	vmovdqa	%ymm0, 128(%rsp)
	vpaddd	%ymm0, %ymm6, %ymm6
	vmovdqa	%ymm6, 160(%rsp)
	vpxor	%ymm4, %ymm6, %ymm0
	vpsrld	$7, %ymm0, %ymm4
	vpslld	$25, %ymm0, %ymm0
	vpor	%ymm4, %ymm0, %ymm0
	vpaddd	512(%rsp), %ymm1, %ymm1
	vpaddd	%ymm1, %ymm11, %ymm6
	vpxor	%ymm6, %ymm15, %ymm1
	vpshufb	%ymm5, %ymm1, %ymm1
	vmovdqa	%ymm1, 96(%rsp)
	vpaddd	%ymm1, %ymm9, %ymm15
	vpxor	%ymm11, %ymm15, %ymm1
	vpsrld	$7, %ymm1, %ymm4
	vpslld	$25, %ymm1, %ymm1
	vpor	%ymm4, %ymm1, %ymm9
	vpaddd	704(%rsp), %ymm12, %ymm1
	vpaddd	%ymm1, %ymm8, %ymm11
	vpxor	%ymm2, %ymm11, %ymm1
	vpshufb	%ymm5, %ymm1, %ymm4
	vmovdqa	%ymm5, %ymm12
	vpaddd	%ymm4, %ymm10, %ymm1
	vpxor	%ymm1, %ymm8, %ymm2
	vpsrld	$7, %ymm2, %ymm5
	vpslld	$25, %ymm2, %ymm2
	vpor	%ymm5, %ymm2, %ymm2
	vpaddd	416(%rsp), %ymm13, %ymm5
	vpaddd	%ymm7, %ymm5, %ymm5
	vpxor	%ymm5, %ymm3, %ymm3
	vpshufb	%ymm12, %ymm3, %ymm12
	vpaddd	64(%rsp), %ymm12, %ymm13
	vpxor	%ymm7, %ymm13, %ymm3
	vpsrld	$7, %ymm3, %ymm7
	vpslld	$25, %ymm3, %ymm3
	vpor	%ymm7, %ymm3, %ymm10
	vpaddd	224(%rsp), %ymm5, %ymm3
	vpaddd	%ymm0, %ymm3, %ymm5
	vpxor	%ymm5, %ymm4, %ymm3
	vmovdqa	.LCPI22_0(%rip), %ymm14
	vpshufb	%ymm14, %ymm3, %ymm8
	vpaddd	%ymm8, %ymm15, %ymm3
	vmovdqa	%ymm3, 192(%rsp)
	vpxor	%ymm0, %ymm3, %ymm0
	vpsrld	$12, %ymm0, %ymm4
	vpslld	$20, %ymm0, %ymm0
	vpor	%ymm4, %ymm0, %ymm3
	vmovdqa	32(%rsp), %ymm0
	vpaddd	576(%rsp), %ymm0, %ymm4
	vpaddd	%ymm4, %ymm9, %ymm4
	vpxor	%ymm4, %ymm12, %ymm7
	vmovdqa	%ymm14, %ymm0
	vpshufb	%ymm14, %ymm7, %ymm15
	vpaddd	%ymm1, %ymm15, %ymm1
	vmovdqa	%ymm1, 64(%rsp)
	vpxor	%ymm1, %ymm9, %ymm1
	vpsrld	$12, %ymm1, %ymm9
	vpslld	$20, %ymm1, %ymm1
	vpor	%ymm1, %ymm9, %ymm1
	vpaddd	384(%rsp), %ymm6, %ymm6
	vpaddd	%ymm2, %ymm6, %ymm12
	vpxor	128(%rsp), %ymm12, %ymm6
	vpshufb	%ymm14, %ymm6, %ymm14
	vpaddd	%ymm14, %ymm13, %ymm9
	vpxor	%ymm2, %ymm9, %ymm2
	vpsrld	$12, %ymm2, %ymm6
	vpslld	$20, %ymm2, %ymm2
	vpor	%ymm6, %ymm2, %ymm2
	vpaddd	320(%rsp), %ymm11, %ymm6
	vpaddd	%ymm6, %ymm10, %ymm13
	vpxor	96(%rsp), %ymm13, %ymm6
	vpshufb	%ymm0, %ymm6, %ymm6
	vpaddd	160(%rsp), %ymm6, %ymm11
	vpxor	%ymm10, %ymm11, %ymm10
	vpsrld	$12, %ymm10, %ymm0
	vpslld	$20, %ymm10, %ymm10
	vpor	%ymm0, %ymm10, %ymm10
	vpaddd	288(%rsp), %ymm5, %ymm0
	vpaddd	%ymm3, %ymm0, %ymm0
	vmovdqa	%ymm0, 160(%rsp)
	vpxor	%ymm0, %ymm8, %ymm0
	vbroadcasti128	.LCPI22_5(%rip), %ymm5
	vpshufb	%ymm5, %ymm0, %ymm0
	vmovdqa	%ymm0, 128(%rsp)
	vpaddd	192(%rsp), %ymm0, %ymm0
	vmovdqa	%ymm0, 96(%rsp)
	vpxor	%ymm3, %ymm0, %ymm0
	vpsrld	$7, %ymm0, %ymm3
	vpslld	$25, %ymm0, %ymm0
	vpor	%ymm3, %ymm0, %ymm7
	vpaddd	256(%rsp), %ymm4, %ymm3
	vpaddd	%ymm1, %ymm3, %ymm4
	vpxor	%ymm4, %ymm15, %ymm3
	vpshufb	%ymm5, %ymm3, %ymm3
	vmovdqa	%ymm3, 32(%rsp)
	vmovdqa	%ymm5, %ymm0
	vpaddd	64(%rsp), %ymm3, %ymm3
	vmovdqa	%ymm3, 64(%rsp)
	vpxor	%ymm1, %ymm3, %ymm1
	vpsrld	$7, %ymm1, %ymm3
	vpslld	$25, %ymm1, %ymm1
	vpor	%ymm3, %ymm1, %ymm15
	vpaddd	544(%rsp), %ymm12, %ymm1
	vpaddd	%ymm2, %ymm1, %ymm8
	vpxor	%ymm8, %ymm14, %ymm1
	vpshufb	%ymm5, %ymm1, %ymm5
	vpaddd	%ymm5, %ymm9, %ymm1
	vmovdqa	%ymm1, 192(%rsp)
	vpxor	%ymm2, %ymm1, %ymm1
	vpsrld	$7, %ymm1, %ymm2
	vpslld	$25, %ymm1, %ymm1
	vpor	%ymm2, %ymm1, %ymm3
	vpaddd	352(%rsp), %ymm13, %ymm1
	vpaddd	%ymm1, %ymm10, %ymm13
	vpxor	%ymm6, %ymm13, %ymm1
	vpshufb	%ymm0, %ymm1, %ymm2
	vpaddd	%ymm2, %ymm11, %ymm6
	vpxor	%ymm6, %ymm10, %ymm1
	vpsrld	$7, %ymm1, %ymm9
	vpslld	$25, %ymm1, %ymm1
	vpor	%ymm1, %ymm9, %ymm1
	vpaddd	672(%rsp), %ymm4, %ymm4
	vpaddd	%ymm7, %ymm4, %ymm4
	vpxor	%ymm4, %ymm5, %ymm5
	vmovdqa	.LCPI22_0(%rip), %ymm11
	vpshufb	%ymm11, %ymm5, %ymm5
	vpaddd	%ymm5, %ymm6, %ymm0
	vmovdqa	%ymm0, 608(%rsp)
	vpxor	%ymm7, %ymm0, %ymm0
	vpsrld	$12, %ymm0, %ymm6
	vpslld	$20, %ymm0, %ymm0
	vpor	%ymm6, %ymm0, %ymm0
	vpaddd	512(%rsp), %ymm8, %ymm6
	vpaddd	%ymm6, %ymm15, %ymm12
	vpxor	%ymm2, %ymm12, %ymm2
	vpshufb	%ymm11, %ymm2, %ymm14
	vpaddd	96(%rsp), %ymm14, %ymm9
	vpxor	%ymm15, %ymm9, %ymm2
	vpsrld	$12, %ymm2, %ymm6
	vpslld	$20, %ymm2, %ymm2
	vpor	%ymm6, %ymm2, %ymm2
	vpaddd	416(%rsp), %ymm13, %ymm6
	vpaddd	%ymm3, %ymm6, %ymm13
	vpxor	128(%rsp), %ymm13, %ymm6
	vpshufb	%ymm11, %ymm6, %ymm15
	vpaddd	64(%rsp), %ymm15, %ymm10
	vpxor	%ymm3, %ymm10, %ymm3
	vpsrld	$12, %ymm3, %ymm6
	vpslld	$20, %ymm3, %ymm3
	vpor	%ymm6, %ymm3, %ymm6
	vmovdqa	160(%rsp), %ymm3
	vpaddd	640(%rsp), %ymm3, %ymm3
	vpaddd	%ymm1, %ymm3, %ymm8
	vpxor	32(%rsp), %ymm8, %ymm3
	vpshufb	%ymm11, %ymm3, %ymm3
	vpaddd	192(%rsp), %ymm3, %ymm11
	vpxor	%ymm1, %ymm11, %ymm1
	vpsrld	$12, %ymm1, %ymm7
	vpslld	$20, %ymm1, %ymm1
	vpor	%ymm7, %ymm1, %ymm7
	vpaddd	448(%rsp), %ymm4, %ymm1
	vpaddd	%ymm0, %ymm1, %ymm1
	vmovdqa	%ymm1, 32(%rsp)
	vpxor	%ymm1, %ymm5, %ymm1
	vbroadcasti128	.LCPI22_5(%rip), %ymm5
	vpshufb	%ymm5, %ymm1, %ymm1
	vmovdqa	%ymm1, 128(%rsp)
	vpaddd	608(%rsp), %ymm1, %ymm1
	vmovdqa	%ymm1, 160(%rsp)
	vpxor	%ymm0, %ymm1, %ymm0
	vpsrld	$7, %ymm0, %ymm1
	vpslld	$25, %ymm0, %ymm0
	vpor	%ymm1, %ymm0, %ymm4
	vpaddd	384(%rsp), %ymm12, %ymm0
	vpaddd	%ymm2, %ymm0, %ymm12
	vpxor	%ymm12, %ymm14, %ymm0
	vpshufb	%ymm5, %ymm0, %ymm1
	vmovdqa	%ymm1, 96(%rsp)
	vmovdqa	%ymm5, %ymm0
	vpaddd	%ymm1, %ymm9, %ymm1
	vpxor	%ymm2, %ymm1, %ymm2
	vpsrld	$7, %ymm2, %ymm5
	vpslld	$25, %ymm2, %ymm2
	vpor	%ymm5, %ymm2, %ymm14
	vpaddd	480(%rsp), %ymm13, %ymm2
	vpaddd	%ymm6, %ymm2, %ymm5
	vpxor	%ymm5, %ymm15, %ymm2
	vpshufb	%ymm0, %ymm2, %ymm15
	vpaddd	%ymm15, %ymm10, %ymm9
	vpxor	%ymm6, %ymm9, %ymm2
	vpsrld	$7, %ymm2, %ymm6
	vpslld	$25, %ymm2, %ymm2
	vpor	%ymm6, %ymm2, %ymm6
	vpaddd	352(%rsp), %ymm8, %ymm2
	vpaddd	%ymm7, %ymm2, %ymm2
	vpxor	%ymm2, %ymm3, %ymm3
	vpshufb	%ymm0, %ymm3, %ymm13
	vpaddd	%ymm13, %ymm11, %ymm10
	vpxor	%ymm7, %ymm10, %ymm3
	vpsrld	$7, %ymm3, %ymm7
	vpslld	$25, %ymm3, %ymm3
	vpor	%ymm7, %ymm3, %ymm7
	vpaddd	288(%rsp), %ymm2, %ymm2
	vpaddd	%ymm4, %ymm2, %ymm8
	vpxor	%ymm8, %ymm15, %ymm3
	vmovdqa	.LCPI22_0(%rip), %ymm11
	vpshufb	%ymm11, %ymm3, %ymm3
	vpaddd	%ymm3, %ymm1, %ymm0
	vmovdqa	%ymm0, 64(%rsp)
	vpxor	%ymm4, %ymm0, %ymm0
	vpsrld	$12, %ymm0, %ymm1
	vpslld	$20, %ymm0, %ymm0
	vpor	%ymm1, %ymm0, %ymm2
	vmovdqa	32(%rsp), %ymm0
	vpaddd	736(%rsp), %ymm0, %ymm1
	vpaddd	%ymm1, %ymm14, %ymm4
	vpxor	%ymm4, %ymm13, %ymm1
	vmovdqa	%ymm11, %ymm0
	vpshufb	%ymm11, %ymm1, %ymm13
	vpaddd	%ymm13, %ymm9, %ymm9
	vpxor	%ymm14, %ymm9, %ymm1
	vpsrld	$12, %ymm1, %ymm11
	vpslld	$20, %ymm1, %ymm1
	vpor	%ymm1, %ymm11, %ymm11
	vpaddd	320(%rsp), %ymm12, %ymm1
	vpaddd	%ymm6, %ymm1, %ymm12
	vpxor	128(%rsp), %ymm12, %ymm1
	vpshufb	%ymm0, %ymm1, %ymm14
	vpaddd	%ymm14, %ymm10, %ymm10
	vpxor	%ymm6, %ymm10, %ymm1
	vpsrld	$12, %ymm1, %ymm6
	vpslld	$20, %ymm1, %ymm1
	vpor	%ymm6, %ymm1, %ymm6
	vpaddd	256(%rsp), %ymm5, %ymm1
	vpaddd	%ymm7, %ymm1, %ymm1
	vpxor	96(%rsp), %ymm1, %ymm5
	vpshufb	%ymm0, %ymm5, %ymm15
	vpaddd	160(%rsp), %ymm15, %ymm5
	vpxor	%ymm7, %ymm5, %ymm7
	vpsrld	$12, %ymm7, %ymm0
	vpslld	$20, %ymm7, %ymm7
	vpor	%ymm0, %ymm7, %ymm7
	vpaddd	576(%rsp), %ymm8, %ymm0
	vpaddd	%ymm2, %ymm0, %ymm0
	vmovdqa	%ymm0, 160(%rsp)
	vpxor	%ymm0, %ymm3, %ymm0
	vbroadcasti128	.LCPI22_5(%rip), %ymm8
	vpshufb	%ymm8, %ymm0, %ymm0
	vmovdqa	%ymm0, 128(%rsp)
	vpaddd	64(%rsp), %ymm0, %ymm0
	vmovdqa	%ymm0, 96(%rsp)
	vpxor	%ymm2, %ymm0, %ymm0
	vpsrld	$7, %ymm0, %ymm2
	vpslld	$25, %ymm0, %ymm0
	vpor	%ymm2, %ymm0, %ymm3
	vpaddd	544(%rsp), %ymm4, %ymm2
	vpaddd	%ymm2, %ymm11, %ymm2
	vpxor	%ymm2, %ymm13, %ymm4
	vmovdqa	%ymm8, %ymm0
	vpshufb	%ymm8, %ymm4, %ymm4
	vmovdqa	%ymm4, 32(%rsp)
	vpaddd	%ymm4, %ymm9, %ymm13
	vpxor	%ymm11, %ymm13, %ymm4
	vpsrld	$7, %ymm4, %ymm8
	vpslld	$25, %ymm4, %ymm4
	vpor	%ymm4, %ymm8, %ymm8
	vpaddd	704(%rsp), %ymm12, %ymm4
	vpaddd	%ymm6, %ymm4, %ymm9
	vpxor	%ymm9, %ymm14, %ymm4
	vpshufb	%ymm0, %ymm4, %ymm14
	vpaddd	%ymm14, %ymm10, %ymm4
	vmovdqa	%ymm4, 64(%rsp)
	vpxor	%ymm6, %ymm4, %ymm4
	vpsrld	$7, %ymm4, %ymm6
	vpslld	$25, %ymm4, %ymm4
	vpor	%ymm6, %ymm4, %ymm6
	vpaddd	224(%rsp), %ymm1, %ymm1
	vpaddd	%ymm7, %ymm1, %ymm1
	vpxor	%ymm1, %ymm15, %ymm4
	vpshufb	%ymm0, %ymm4, %ymm12
	vpaddd	%ymm5, %ymm12, %ymm5
	vpxor	%ymm7, %ymm5, %ymm4
	vpsrld	$7, %ymm4, %ymm7
	vpslld	$25, %ymm4, %ymm4
	vpor	%ymm7, %ymm4, %ymm10
	vpaddd	512(%rsp), %ymm2, %ymm2
	vpaddd	%ymm3, %ymm2, %ymm4
	vpxor	%ymm4, %ymm14, %ymm2
	vmovdqa	.LCPI22_0(%rip), %ymm7
	vpshufb	%ymm7, %ymm2, %ymm14
	vpaddd	%ymm5, %ymm14, %ymm0
	vmovdqa	%ymm0, 192(%rsp)
	vpxor	%ymm3, %ymm0, %ymm0
	vpsrld	$12, %ymm0, %ymm2
	vpslld	$20, %ymm0, %ymm0
	vpor	%ymm2, %ymm0, %ymm0
	vpaddd	384(%rsp), %ymm9, %ymm2
	vpaddd	%ymm2, %ymm8, %ymm5
	vpxor	%ymm5, %ymm12, %ymm2
	vpshufb	%ymm7, %ymm2, %ymm15
	vpaddd	96(%rsp), %ymm15, %ymm9
	vpxor	%ymm8, %ymm9, %ymm2
	vpsrld	$12, %ymm2, %ymm3
	vpslld	$20, %ymm2, %ymm2
	vpor	%ymm3, %ymm2, %ymm2
	vpaddd	352(%rsp), %ymm1, %ymm1
	vpaddd	%ymm6, %ymm1, %ymm12
	vpxor	128(%rsp), %ymm12, %ymm1
	vpshufb	%ymm7, %ymm1, %ymm11
	vpaddd	%ymm11, %ymm13, %ymm1
	vmovdqa	%ymm1, 96(%rsp)
	vpxor	%ymm6, %ymm1, %ymm1
	vpsrld	$12, %ymm1, %ymm3
	vpslld	$20, %ymm1, %ymm1
	vpor	%ymm3, %ymm1, %ymm6
	vmovdqa	160(%rsp), %ymm1
	vpaddd	416(%rsp), %ymm1, %ymm1
	vpaddd	%ymm1, %ymm10, %ymm13
	vpxor	32(%rsp), %ymm13, %ymm1
	vpshufb	%ymm7, %ymm1, %ymm8
	vpaddd	64(%rsp), %ymm8, %ymm1
	vmovdqa	%ymm1, 64(%rsp)
	vpxor	%ymm1, %ymm10, %ymm1
	vpsrld	$12, %ymm1, %ymm3
	vpslld	$20, %ymm1, %ymm1
	vpor	%ymm3, %ymm1, %ymm1
	vpaddd	640(%rsp), %ymm4, %ymm3
	vpaddd	%ymm0, %ymm3, %ymm4
	vpxor	%ymm4, %ymm14, %ymm3
	vbroadcasti128	.LCPI22_5(%rip), %ymm7
	vpshufb	%ymm7, %ymm3, %ymm14
	vpaddd	192(%rsp), %ymm14, %ymm3
	vmovdqa	%ymm3, 160(%rsp)
	vpxor	%ymm0, %ymm3, %ymm0
	vpsrld	$7, %ymm0, %ymm3
	vpslld	$25, %ymm0, %ymm0
	vpor	%ymm3, %ymm0, %ymm0
	vpaddd	320(%rsp), %ymm5, %ymm3
	vpaddd	%ymm2, %ymm3, %ymm10
	vpxor	%ymm10, %ymm15, %ymm3
	vpshufb	%ymm7, %ymm3, %ymm3
	vmovdqa	%ymm3, 128(%rsp)
	vpaddd	%ymm3, %ymm9, %ymm9
	vpxor	%ymm2, %ymm9, %ymm2
	vpsrld	$7, %ymm2, %ymm3
	vpslld	$25, %ymm2, %ymm2
	vpor	%ymm3, %ymm2, %ymm3
	vpaddd	672(%rsp), %ymm12, %ymm2
	vpaddd	%ymm6, %ymm2, %ymm2
	vmovdqa	%ymm2, 32(%rsp)
	vpxor	%ymm2, %ymm11, %ymm2
	vpshufb	%ymm7, %ymm2, %ymm15
	vmovdqa	%ymm7, %ymm11
	vpaddd	96(%rsp), %ymm15, %ymm7
	vpxor	%ymm6, %ymm7, %ymm2
	vpsrld	$7, %ymm2, %ymm5
	vpslld	$25, %ymm2, %ymm2
	vpor	%ymm5, %ymm2, %ymm2
	vpaddd	224(%rsp), %ymm13, %ymm5
	vpaddd	%ymm1, %ymm5, %ymm5
	vpxor	%ymm5, %ymm8, %ymm6
	vpshufb	%ymm11, %ymm6, %ymm12
	vpaddd	64(%rsp), %ymm12, %ymm11
	vpxor	%ymm1, %ymm11, %ymm1
	vpsrld	$7, %ymm1, %ymm6
	vpslld	$25, %ymm1, %ymm1
	vpor	%ymm6, %ymm1, %ymm6
	vpaddd	576(%rsp), %ymm5, %ymm1
	vpaddd	%ymm0, %ymm1, %ymm5
	vpxor	%ymm5, %ymm15, %ymm1
	vmovdqa	.LCPI22_0(%rip), %ymm13
	vpshufb	%ymm13, %ymm1, %ymm8
	vpaddd	%ymm8, %ymm9, %ymm1
	vmovdqa	%ymm1, 96(%rsp)
	vpxor	%ymm0, %ymm1, %ymm0
	vpsrld	$12, %ymm0, %ymm1
	vpslld	$20, %ymm0, %ymm0
	vpor	%ymm1, %ymm0, %ymm0
	vpaddd	448(%rsp), %ymm4, %ymm1
	vpaddd	%ymm3, %ymm1, %ymm4
	vpxor	%ymm4, %ymm12, %ymm1
	vpshufb	%ymm13, %ymm1, %ymm15
	vpaddd	%ymm7, %ymm15, %ymm9
	vpxor	%ymm3, %ymm9, %ymm1
	vpsrld	$12, %ymm1, %ymm3
	vpslld	$20, %ymm1, %ymm1
	vpor	%ymm3, %ymm1, %ymm3
	vpaddd	256(%rsp), %ymm10, %ymm1
	vpaddd	%ymm2, %ymm1, %ymm12
	vpxor	%ymm12, %ymm14, %ymm1
	vpshufb	%ymm13, %ymm1, %ymm14
	vpaddd	%ymm14, %ymm11, %ymm1
	vmovdqa	%ymm1, 192(%rsp)
	vpxor	%ymm2, %ymm1, %ymm1
	vpsrld	$12, %ymm1, %ymm2
	vpslld	$20, %ymm1, %ymm1
	vpor	%ymm2, %ymm1, %ymm1
	vmovdqa	32(%rsp), %ymm2
	vpaddd	544(%rsp), %ymm2, %ymm2
	vpaddd	%ymm6, %ymm2, %ymm10
	vpxor	128(%rsp), %ymm10, %ymm2
	vpshufb	%ymm13, %ymm2, %ymm7
	vpaddd	160(%rsp), %ymm7, %ymm11
	vpxor	%ymm6, %ymm11, %ymm2
	vpsrld	$12, %ymm2, %ymm6
	vpslld	$20, %ymm2, %ymm2
	vpor	%ymm6, %ymm2, %ymm2
	vpaddd	736(%rsp), %ymm5, %ymm5
	vpaddd	%ymm0, %ymm5, %ymm5
	vmovdqa	%ymm5, 160(%rsp)
	vpxor	%ymm5, %ymm8, %ymm5
	vbroadcasti128	.LCPI22_5(%rip), %ymm6
	vpshufb	%ymm6, %ymm5, %ymm5
	vmovdqa	%ymm5, 128(%rsp)
	vpaddd	96(%rsp), %ymm5, %ymm5
	vmovdqa	%ymm5, 96(%rsp)
	vpxor	%ymm0, %ymm5, %ymm0
	vpsrld	$7, %ymm0, %ymm5
	vpslld	$25, %ymm0, %ymm0
	vpor	%ymm5, %ymm0, %ymm0
	vpaddd	704(%rsp), %ymm4, %ymm4
	vpaddd	%ymm3, %ymm4, %ymm5
	vpxor	%ymm5, %ymm15, %ymm4
	vpshufb	%ymm6, %ymm4, %ymm8
	vmovdqa	%ymm8, 32(%rsp)
	vmovdqa	%ymm6, %ymm4
	vpaddd	%ymm8, %ymm9, %ymm6
	vmovdqa	%ymm6, 64(%rsp)
	vpxor	%ymm3, %ymm6, %ymm3
	vpsrld	$7, %ymm3, %ymm6
	vpslld	$25, %ymm3, %ymm3
	vpor	%ymm6, %ymm3, %ymm3
	vpaddd	480(%rsp), %ymm12, %ymm6
	vpaddd	%ymm1, %ymm6, %ymm9
	vpxor	%ymm9, %ymm14, %ymm6
	vpshufb	%ymm4, %ymm6, %ymm6
	vpaddd	192(%rsp), %ymm6, %ymm8
	vmovdqa	%ymm8, 192(%rsp)
	vpxor	%ymm1, %ymm8, %ymm1
	vpsrld	$7, %ymm1, %ymm8
	vpslld	$25, %ymm1, %ymm1
	vpor	%ymm1, %ymm8, %ymm8
	vpaddd	288(%rsp), %ymm10, %ymm1
	vpaddd	%ymm2, %ymm1, %ymm1
	vpxor	%ymm1, %ymm7, %ymm7
	vpshufb	%ymm4, %ymm7, %ymm7
	vpaddd	%ymm7, %ymm11, %ymm10
	vpxor	%ymm2, %ymm10, %ymm2
	vpsrld	$7, %ymm2, %ymm11
	vpslld	$25, %ymm2, %ymm2
	vpor	%ymm2, %ymm11, %ymm11
	vpaddd	384(%rsp), %ymm5, %ymm2
	vpaddd	%ymm0, %ymm2, %ymm5
	vpxor	%ymm5, %ymm6, %ymm2
	vpshufb	%ymm13, %ymm2, %ymm6
	vpaddd	%ymm6, %ymm10, %ymm2
	vmovdqa	%ymm2, 608(%rsp)
	vpxor	%ymm0, %ymm2, %ymm0
	vpsrld	$12, %ymm0, %ymm2
	vpslld	$20, %ymm0, %ymm0
	vpor	%ymm2, %ymm0, %ymm4
	vpaddd	320(%rsp), %ymm9, %ymm2
	vpaddd	%ymm3, %ymm2, %ymm12
	vpxor	%ymm7, %ymm12, %ymm2
	vmovdqa	%ymm13, %ymm0
	vpshufb	%ymm13, %ymm2, %ymm14
	vpaddd	96(%rsp), %ymm14, %ymm9
	vpxor	%ymm3, %ymm9, %ymm2
	vpsrld	$12, %ymm2, %ymm3
	vpslld	$20, %ymm2, %ymm2
	vpor	%ymm3, %ymm2, %ymm3
	vpaddd	224(%rsp), %ymm1, %ymm1
	vpaddd	%ymm1, %ymm8, %ymm13
	vpxor	128(%rsp), %ymm13, %ymm1
	vpshufb	%ymm0, %ymm1, %ymm15
	vpaddd	64(%rsp), %ymm15, %ymm10
	vpxor	%ymm8, %ymm10, %ymm1
	vpsrld	$12, %ymm1, %ymm2
	vpslld	$20, %ymm1, %ymm1
	vpor	%ymm2, %ymm1, %ymm1
	vmovdqa	160(%rsp), %ymm2
	vpaddd	352(%rsp), %ymm2, %ymm2
	vpaddd	%ymm2, %ymm11, %ymm8
	vpxor	32(%rsp), %ymm8, %ymm2
	vpshufb	%ymm0, %ymm2, %ymm7
	vpaddd	192(%rsp), %ymm7, %ymm0
	vmovdqa	%ymm0, 64(%rsp)
	vpxor	%ymm0, %ymm11, %ymm2
	vpsrld	$12, %ymm2, %ymm11
	vpslld	$20, %ymm2, %ymm2
	vpor	%ymm2, %ymm11, %ymm2
	vpaddd	416(%rsp), %ymm5, %ymm5
	vpaddd	%ymm4, %ymm5, %ymm0
	vmovdqa	%ymm0, 32(%rsp)
	vpxor	%ymm0, %ymm6, %ymm5
	vbroadcasti128	.LCPI22_5(%rip), %ymm6
	vpshufb	%ymm6, %ymm5, %ymm0
	vmovdqa	%ymm0, 128(%rsp)
	vpaddd	608(%rsp), %ymm0, %ymm5
	vmovdqa	%ymm5, 160(%rsp)
	vpxor	%ymm4, %ymm5, %ymm0
	vpsrld	$7, %ymm0, %ymm5
	vpslld	$25, %ymm0, %ymm0
	vpor	%ymm5, %ymm0, %ymm0
	vpaddd	256(%rsp), %ymm12, %ymm5
	vpaddd	%ymm3, %ymm5, %ymm11
	vpxor	%ymm11, %ymm14, %ymm5
	vpshufb	%ymm6, %ymm5, %ymm4
	vmovdqa	%ymm4, 96(%rsp)
	vpaddd	%ymm4, %ymm9, %ymm5
	vpxor	%ymm3, %ymm5, %ymm3
	vpsrld	$7, %ymm3, %ymm9
	vpslld	$25, %ymm3, %ymm3
	vpor	%ymm3, %ymm9, %ymm14
	vpaddd	512(%rsp), %ymm13, %ymm3
	vpaddd	%ymm1, %ymm3, %ymm4
	vpxor	%ymm4, %ymm15, %ymm3
	vmovdqa	%ymm4, %ymm15
	vpshufb	%ymm6, %ymm3, %ymm3
	vpaddd	%ymm3, %ymm10, %ymm9
	vpxor	%ymm1, %ymm9, %ymm1
	vpsrld	$7, %ymm1, %ymm10
	vpslld	$25, %ymm1, %ymm1
	vpor	%ymm1, %ymm10, %ymm1
	vpaddd	288(%rsp), %ymm8, %ymm4
	vpaddd	%ymm2, %ymm4, %ymm12
	vpxor	%ymm7, %ymm12, %ymm4
	vpshufb	%ymm6, %ymm4, %ymm4
	vpaddd	64(%rsp), %ymm4, %ymm10
	vpxor	%ymm2, %ymm10, %ymm2
	vpsrld	$7, %ymm2, %ymm7
	vpslld	$25, %ymm2, %ymm2
	vpor	%ymm7, %ymm2, %ymm2
	vpaddd	736(%rsp), %ymm12, %ymm7
	vpaddd	%ymm0, %ymm7, %ymm8
	vpxor	%ymm3, %ymm8, %ymm3
	vmovdqa	.LCPI22_0(%rip), %ymm7
	vpshufb	%ymm7, %ymm3, %ymm12
	vpaddd	%ymm5, %ymm12, %ymm3
	vmovdqa	%ymm3, 64(%rsp)
	vpxor	%ymm0, %ymm3, %ymm0
	vpsrld	$12, %ymm0, %ymm3
	vpslld	$20, %ymm0, %ymm0
	vpor	%ymm3, %ymm0, %ymm5
	vmovdqa	32(%rsp), %ymm0
	vpaddd	640(%rsp), %ymm0, %ymm0
	vpaddd	%ymm0, %ymm14, %ymm6
	vpxor	%ymm6, %ymm4, %ymm0
	vmovdqa	%ymm7, %ymm3
	vpshufb	%ymm7, %ymm0, %ymm13
	vpaddd	%ymm13, %ymm9, %ymm9
	vpxor	%ymm14, %ymm9, %ymm0
	vpsrld	$12, %ymm0, %ymm4
	vpslld	$20, %ymm0, %ymm0
	vpor	%ymm4, %ymm0, %ymm4
	vpaddd	544(%rsp), %ymm11, %ymm0
	vpaddd	%ymm1, %ymm0, %ymm11
	vpxor	128(%rsp), %ymm11, %ymm0
	vpshufb	%ymm7, %ymm0, %ymm14
	vpaddd	%ymm14, %ymm10, %ymm0
	vmovdqa	%ymm0, 32(%rsp)
	vpxor	%ymm1, %ymm0, %ymm0
	vpsrld	$12, %ymm0, %ymm1
	vpslld	$20, %ymm0, %ymm0
	vpor	%ymm1, %ymm0, %ymm7
	vpaddd	704(%rsp), %ymm15, %ymm1
	vpaddd	%ymm2, %ymm1, %ymm1
	vpxor	96(%rsp), %ymm1, %ymm10
	vpshufb	%ymm3, %ymm10, %ymm15
	vpaddd	160(%rsp), %ymm15, %ymm10
	vpxor	%ymm2, %ymm10, %ymm2
	vpsrld	$12, %ymm2, %ymm0
	vpslld	$20, %ymm2, %ymm2
	vpor	%ymm0, %ymm2, %ymm2
	vpaddd	448(%rsp), %ymm8, %ymm0
	vpaddd	%ymm5, %ymm0, %ymm0
	vmovdqa	%ymm0, 96(%rsp)
	vpxor	%ymm0, %ymm12, %ymm0
	vbroadcasti128	.LCPI22_5(%rip), %ymm12
	vpshufb	%ymm12, %ymm0, %ymm0
	vmovdqa	%ymm0, 160(%rsp)
	vpaddd	64(%rsp), %ymm0, %ymm8
	vpxor	%ymm5, %ymm8, %ymm0
	vpsrld	$7, %ymm0, %ymm5
	vpslld	$25, %ymm0, %ymm0
	vpor	%ymm5, %ymm0, %ymm5
	vpaddd	480(%rsp), %ymm6, %ymm0
	vpaddd	%ymm4, %ymm0, %ymm0
	vpxor	%ymm0, %ymm13, %ymm6
	vpshufb	%ymm12, %ymm6, %ymm3
	vmovdqa	%ymm3, 128(%rsp)
	vmovdqa	%ymm12, %ymm13
	vpaddd	%ymm3, %ymm9, %ymm12
	vpxor	%ymm4, %ymm12, %ymm4
	vpsrld	$7, %ymm4, %ymm6
	vpslld	$25, %ymm4, %ymm4
	vpor	%ymm6, %ymm4, %ymm4
	vpaddd	672(%rsp), %ymm11, %ymm6
	vpaddd	%ymm7, %ymm6, %ymm11
	vpxor	%ymm11, %ymm14, %ymm6
	vpshufb	%ymm13, %ymm6, %ymm14
	vpaddd	32(%rsp), %ymm14, %ymm3
	vmovdqa	%ymm3, 32(%rsp)
	vpxor	%ymm7, %ymm3, %ymm3
	vpsrld	$7, %ymm3, %ymm9
	vpslld	$25, %ymm3, %ymm3
	vpor	%ymm3, %ymm9, %ymm9
	vpaddd	576(%rsp), %ymm1, %ymm1
	vpaddd	%ymm2, %ymm1, %ymm3
	vpxor	%ymm3, %ymm15, %ymm1
	vpshufb	%ymm13, %ymm1, %ymm1
	vpaddd	%ymm1, %ymm10, %ymm15
	vpxor	%ymm2, %ymm15, %ymm2
	vpsrld	$7, %ymm2, %ymm10
	vpslld	$25, %ymm2, %ymm2
	vpor	%ymm2, %ymm10, %ymm10
	vpaddd	320(%rsp), %ymm0, %ymm0
	vpaddd	256(%rsp), %ymm11, %ymm11
	vpaddd	288(%rsp), %ymm3, %ymm6
	vmovdqa	96(%rsp), %ymm2
	vpaddd	224(%rsp), %ymm2, %ymm2
	vmovdqa	%ymm2, 224(%rsp)
	vpaddd	%ymm5, %ymm0, %ymm3
	vpxor	%ymm3, %ymm14, %ymm0
	vmovdqa	.LCPI22_0(%rip), %ymm14
	vpshufb	%ymm14, %ymm0, %ymm2
	vpaddd	%ymm2, %ymm15, %ymm13
	vpxor	%ymm5, %ymm13, %ymm5
	vpsrld	$12, %ymm5, %ymm7
	vpslld	$20, %ymm5, %ymm5
	vpor	%ymm7, %ymm5, %ymm7
	vpaddd	%ymm4, %ymm11, %ymm15
	vpxor	%ymm1, %ymm15, %ymm1
	vpshufb	%ymm14, %ymm1, %ymm1
	vmovdqa	%ymm1, 256(%rsp)
	vpaddd	%ymm1, %ymm8, %ymm1
	vmovdqa	%ymm1, 288(%rsp)
	vpxor	%ymm4, %ymm1, %ymm4
	vpsrld	$12, %ymm4, %ymm5
	vpslld	$20, %ymm4, %ymm4
	vpor	%ymm5, %ymm4, %ymm11
	vpaddd	%ymm6, %ymm9, %ymm1
	vpxor	160(%rsp), %ymm1, %ymm4
	vpshufb	%ymm14, %ymm4, %ymm8
	vpaddd	%ymm8, %ymm12, %ymm4
	vpxor	%ymm4, %ymm9, %ymm5
	vpsrld	$12, %ymm5, %ymm6
	vpslld	$20, %ymm5, %ymm5
	vpor	%ymm6, %ymm5, %ymm12
	vpaddd	224(%rsp), %ymm10, %ymm0
	vpxor	128(%rsp), %ymm0, %ymm5
	vpshufb	%ymm14, %ymm5, %ymm5
	vpaddd	32(%rsp), %ymm5, %ymm6
	vmovdqa	%ymm6, 224(%rsp)
	vpxor	%ymm6, %ymm10, %ymm6
	vpsrld	$12, %ymm6, %ymm10
	vpslld	$20, %ymm6, %ymm6
	vpor	%ymm6, %ymm10, %ymm6
	vpaddd	352(%rsp), %ymm3, %ymm3
	vpaddd	544(%rsp), %ymm15, %ymm15
	vpaddd	384(%rsp), %ymm1, %ymm1
	vpaddd	576(%rsp), %ymm0, %ymm0
	vpaddd	%ymm7, %ymm3, %ymm10
	vpxor	%ymm2, %ymm10, %ymm2
	vbroadcasti128	.LCPI22_5(%rip), %ymm14
	vpshufb	%ymm14, %ymm2, %ymm2
	vmovdqa	%ymm2, 352(%rsp)
	vpaddd	%ymm2, %ymm13, %ymm2
	vmovdqa	%ymm2, 384(%rsp)
	vpxor	%ymm7, %ymm2, %ymm2
	vpsrld	$7, %ymm2, %ymm13
	vpslld	$25, %ymm2, %ymm2
	vpor	%ymm2, %ymm13, %ymm2
	vmovdqa	%ymm2, 320(%rsp)
	vpaddd	%ymm11, %ymm15, %ymm15
	vpxor	256(%rsp), %ymm15, %ymm2
	vpshufb	%ymm14, %ymm2, %ymm9
	vpaddd	288(%rsp), %ymm9, %ymm2
	vmovdqa	%ymm2, 288(%rsp)
	vpxor	%ymm2, %ymm11, %ymm7
	vpsrld	$7, %ymm7, %ymm11
	vpslld	$25, %ymm7, %ymm7
	vpor	%ymm7, %ymm11, %ymm3
	vmovdqa	%ymm3, 544(%rsp)
	vpaddd	%ymm1, %ymm12, %ymm13
	vpxor	%ymm13, %ymm8, %ymm7
	vpshufb	%ymm14, %ymm7, %ymm7
	vpaddd	%ymm7, %ymm4, %ymm11
	vpxor	%ymm12, %ymm11, %ymm4
	vpsrld	$7, %ymm4, %ymm8
	vpslld	$25, %ymm4, %ymm4
	vpor	%ymm4, %ymm8, %ymm2
	vmovdqa	%ymm2, 576(%rsp)
	vpaddd	%ymm6, %ymm0, %ymm0
	vpxor	%ymm0, %ymm5, %ymm8
	vpshufb	%ymm14, %ymm8, %ymm8
	vpaddd	224(%rsp), %ymm8, %ymm14
	vpxor	%ymm6, %ymm14, %ymm5
	vpsrld	$7, %ymm5, %ymm6
	vpslld	$25, %ymm5, %ymm5
	vpor	%ymm6, %ymm5, %ymm1
	vpaddd	448(%rsp), %ymm0, %ymm12
	vpaddd	416(%rsp), %ymm10, %ymm5
	vpaddd	704(%rsp), %ymm15, %ymm6
	vpaddd	480(%rsp), %ymm13, %ymm10
	vmovdqa	320(%rsp), %ymm4
	vpaddd	%ymm4, %ymm12, %ymm12
	vpaddd	%ymm3, %ymm5, %ymm13
	vpaddd	%ymm2, %ymm6, %ymm15
	vpaddd	%ymm1, %ymm10, %ymm0
	vmovdqa	%ymm0, 256(%rsp)
	vpxor	%ymm7, %ymm12, %ymm5
	vmovdqa	.LCPI22_0(%rip), %ymm10
	vpshufb	%ymm10, %ymm5, %ymm5
	vpxor	%ymm13, %ymm8, %ymm6
	vpshufb	%ymm10, %ymm6, %ymm6
	vpxor	352(%rsp), %ymm15, %ymm3
	vpshufb	%ymm10, %ymm3, %ymm7
	vpxor	%ymm0, %ymm9, %ymm2
	vpshufb	%ymm10, %ymm2, %ymm8
	vpaddd	288(%rsp), %ymm5, %ymm3
	vpxor	%ymm4, %ymm3, %ymm2
	vpsrld	$12, %ymm2, %ymm10
	vpslld	$20, %ymm2, %ymm2
	vpor	%ymm2, %ymm10, %ymm2
	vpaddd	%ymm6, %ymm11, %ymm0
	vmovdqa	%ymm0, 480(%rsp)
	vpxor	544(%rsp), %ymm0, %ymm10
	vpsrld	$12, %ymm10, %ymm11
	vpslld	$20, %ymm10, %ymm10
	vpor	%ymm11, %ymm10, %ymm10
	vpaddd	%ymm7, %ymm14, %ymm0
	vmovdqa	%ymm0, 448(%rsp)
	vpxor	576(%rsp), %ymm0, %ymm4
	vpsrld	$12, %ymm4, %ymm11
	vpslld	$20, %ymm4, %ymm4
	vpor	%ymm4, %ymm11, %ymm4
	vpaddd	384(%rsp), %ymm8, %ymm0
	vmovdqa	%ymm0, 416(%rsp)
	vpxor	%ymm1, %ymm0, %ymm9
	vpsrld	$12, %ymm9, %ymm11
	vpslld	$20, %ymm9, %ymm9
	vpor	%ymm11, %ymm9, %ymm14
	vpaddd	640(%rsp), %ymm12, %ymm11
	vpaddd	672(%rsp), %ymm13, %ymm1
	vpaddd	512(%rsp), %ymm15, %ymm15
	vmovdqa	256(%rsp), %ymm0
	vpaddd	736(%rsp), %ymm0, %ymm0
	vpaddd	%ymm2, %ymm11, %ymm11
	vpaddd	%ymm1, %ymm10, %ymm12
	vpaddd	%ymm4, %ymm15, %ymm15
	vmovdqa	%ymm4, %ymm13
	vpaddd	%ymm0, %ymm14, %ymm4
	vpxor	%ymm5, %ymm11, %ymm0
	vbroadcasti128	.LCPI22_5(%rip), %ymm1
	vpshufb	%ymm1, %ymm0, %ymm9
	vpxor	%ymm6, %ymm12, %ymm0
	vpshufb	%ymm1, %ymm0, %ymm5
	vpxor	%ymm7, %ymm15, %ymm6
	vpshufb	%ymm1, %ymm6, %ymm6
	vpxor	%ymm4, %ymm8, %ymm7
	vpshufb	%ymm1, %ymm7, %ymm7
	vpaddd	%ymm3, %ymm9, %ymm3
	vpxor	%ymm2, %ymm3, %ymm2
	vpsrld	$7, %ymm2, %ymm8
	vpslld	$25, %ymm2, %ymm2
	vpor	%ymm2, %ymm8, %ymm0
	vmovdqa	%ymm0, 512(%rsp)
	vpaddd	480(%rsp), %ymm5, %ymm8
	vpxor	%ymm10, %ymm8, %ymm10
	vpsrld	$7, %ymm10, %ymm0
	vpslld	$25, %ymm10, %ymm10
	vpor	%ymm0, %ymm10, %ymm2
	vpaddd	448(%rsp), %ymm6, %ymm10
	vpxor	%ymm13, %ymm10, %ymm13
	vpsrld	$7, %ymm13, %ymm0
	vpslld	$25, %ymm13, %ymm13
	vpor	%ymm0, %ymm13, %ymm1
	vpaddd	416(%rsp), %ymm7, %ymm13
	vpxor	%ymm14, %ymm13, %ymm14
	vpsrld	$7, %ymm14, %ymm0
	vpslld	$25, %ymm14, %ymm14
	vpor	%ymm0, %ymm14, %ymm0
	vpxor	%ymm12, %ymm13, %ymm12
	vpxor	%ymm3, %ymm15, %ymm3
	vpxor	%ymm4, %ymm8, %ymm4
	vpxor	%ymm11, %ymm10, %ymm8
	vpxor	512(%rsp), %ymm6, %ymm6
	vpxor	%ymm7, %ymm2, %ymm2
	vpxor	%ymm1, %ymm9, %ymm1
	vpxor	%ymm5, %ymm0, %ymm0
	vmovdqu	%ymm12, (%rsi)
	vmovdqu	%ymm3, 32(%rsi)
	vmovdqu	%ymm4, 64(%rsi)
	vmovdqu	%ymm8, 96(%rsi)
	vmovdqu	%ymm6, 128(%rsi)
	vmovdqu	%ymm2, 160(%rsi)
	vmovdqu	%ymm1, 192(%rsi)
	vmovdqu	%ymm0, 224(%rsi)
	vmovaps	720(%rbp), %xmm6
	vmovaps	736(%rbp), %xmm7
	vmovaps	752(%rbp), %xmm8
	vmovaps	768(%rbp), %xmm9
	vmovaps	784(%rbp), %xmm10
	vmovaps	800(%rbp), %xmm11
	vmovaps	816(%rbp), %xmm12
	vmovaps	832(%rbp), %xmm13
	vmovaps	848(%rbp), %xmm14
	vmovaps	864(%rbp), %xmm15
	leaq	880(%rbp), %rsp
	popq	%rbx
	popq	%rdi
	popq	%rsi
	popq	%r14
	popq	%rbp
	vzeroupper
	retq
	.seh_endproc

	.section	.rdata,"dr"
	.p2align	5, 0x0
.LCPI23_0:
	.long	1867767133
	.long	3530409783
	.long	3864159224
	.long	1064391498
	.long	1867767133
	.long	3530409783
	.long	3864159224
	.long	1064391498
.LCPI23_1:
	.long	3351608833
	.long	2519287717
	.long	1717998845
	.long	3858926260
	.long	3351608833
	.long	2519287717
	.long	1717998845
	.long	3858926260
.LCPI23_2:
	.long	1867767133
	.long	3530409783
	.long	3864159224
	.long	1064391498
.LCPI23_3:
	.long	3351608833
	.long	2519287717
	.long	1717998845
	.long	3858926260
	.section	.text
	.p2align	4
	.def	"keyed_blake3::keyed_hash_two";
	.scl	3;
	.type	32;
	.endef
"keyed_blake3::keyed_hash_two":
.seh_proc "keyed_blake3::keyed_hash_two"
	pushq	%rbp
	.seh_pushreg %rbp
	pushq	%r15
	.seh_pushreg %r15
	pushq	%r14
	.seh_pushreg %r14
	pushq	%r13
	.seh_pushreg %r13
	pushq	%r12
	.seh_pushreg %r12
	pushq	%rsi
	.seh_pushreg %rsi
	pushq	%rdi
	.seh_pushreg %rdi
	pushq	%rbx
	.seh_pushreg %rbx
	subq	$1144, %rsp
	.seh_stackalloc 1144
	leaq	128(%rsp), %rbp
	.seh_setframe %rbp, 128
	vmovaps	%xmm9, 992(%rbp)
	.seh_savexmm %xmm9, 1120
	vmovaps	%xmm8, 976(%rbp)
	.seh_savexmm %xmm8, 1104
	vmovaps	%xmm7, 960(%rbp)
	.seh_savexmm %xmm7, 1088
	vmovaps	%xmm6, 944(%rbp)
	.seh_savexmm %xmm6, 1072
	.seh_endprologue
	andq	$-32, %rsp
	movq	%r9, %r15
	movq	%r8, %rdi
	movq	%rcx, %rbx
	vxorps	%xmm0, %xmm0, %xmm0
	vmovups	%ymm0, 832(%rsp)
	movq	1120(%rbp), %r14
	vmovups	%ymm0, 800(%rsp)
	cmpq	$1025, %r8
	setae	%al
	cmpq	$1025, %r14
	setae	%cl
	orb	%al, %cl
	je	.LBB23_2
	movq	%rdx, %r8
	leaq	static.7(%rip), %rsi
	leaq	832(%rsp), %rcx
	movq	%rsi, %rdx
	movq	%rdi, %r9
	vzeroupper
	callq	"keyed_blake3::keyed_hash"
	leaq	800(%rsp), %rcx
	movq	%rsi, %rdx
	movq	%r15, %r8
	movq	%r14, %r9
	callq	"keyed_blake3::keyed_hash"
	vmovups	832(%rsp), %ymm0
	vmovups	%ymm0, (%rbx)
	vmovdqu	800(%rsp), %ymm0
	vmovdqu	%ymm0, 32(%rbx)
	jmp	.LBB23_50
.LBB23_2:
	cmpq	$1, %rdi
	movq	%rdi, %r8
	adcq	$-1, %r8
	movq	%r8, %rcx
	shrq	$6, %rcx
	movq	%rcx, 72(%rsp)
	cmpq	$1, %r14
	movq	%r14, %rax
	adcq	$-1, %rax
	movq	%rax, %r12
	shrq	$6, %r12
	cmpq	%rcx, %r12
	movq	%rcx, %r13
	cmovbq	%r12, %r13
	testq	%rcx, %rcx
	movq	%rdi, 88(%rsp)
	movq	%rax, 528(%rsp)
	movq	%rdx, 80(%rsp)
	movq	%r8, 520(%rsp)
	je	.LBB23_3
	vmovups	(%rdx), %ymm0
	vmovups	32(%rdx), %ymm1
	vmovups	%ymm1, 192(%rsp)
	vmovups	%ymm0, 160(%rsp)
	movl	$17, %esi
	movl	$64, %edi
	jmp	.LBB23_8
.LBB23_3:
	cmpq	$64, %rdi
	jne	.LBB23_4
	vmovups	(%rdx), %ymm0
	vmovups	32(%rdx), %ymm1
	vmovups	%ymm1, 448(%rsp)
	vmovups	%ymm0, 416(%rsp)
	jmp	.LBB23_6
.LBB23_4:
	vmovups	%ymm0, 128(%rsp)
	vmovups	%ymm0, 96(%rsp)
	leaq	96(%rsp), %rcx
	movq	%rdi, %r8
	vzeroupper
	callq	memcpy
	vmovups	96(%rsp), %ymm0
	vmovups	128(%rsp), %ymm1
	vmovups	%ymm0, 416(%rsp)
	vmovups	%ymm1, 448(%rsp)
.LBB23_6:
	vmovups	416(%rsp), %ymm0
	vmovups	%ymm0, 160(%rsp)
	vmovups	448(%rsp), %ymm0
	vmovups	%ymm0, 192(%rsp)
	movl	$27, %esi
.LBB23_8:
	vmovups	160(%rsp), %ymm0
	vmovups	192(%rsp), %ymm1
	vmovups	%ymm0, 320(%rsp)
	vmovups	%ymm1, 352(%rsp)
	movq	$0, 384(%rsp)
	movl	%edi, 392(%rsp)
	movl	%esi, 396(%rsp)
	testq	%r12, %r12
	je	.LBB23_9
	vmovups	(%r15), %ymm0
	vmovups	32(%r15), %ymm1
	vmovups	%ymm1, 192(%rsp)
	vmovups	%ymm0, 160(%rsp)
	movl	$17, %eax
	movl	$64, %ecx
	jmp	.LBB23_14
.LBB23_9:
	cmpq	$64, %r14
	jne	.LBB23_10
	vmovups	(%r15), %ymm0
	vmovups	32(%r15), %ymm1
	vmovups	%ymm1, 448(%rsp)
	vmovups	%ymm0, 416(%rsp)
	jmp	.LBB23_12
.LBB23_10:
	vxorps	%xmm0, %xmm0, %xmm0
	vmovups	%ymm0, 128(%rsp)
	vmovups	%ymm0, 96(%rsp)
	leaq	96(%rsp), %rcx
	movq	%r15, %rdx
	movq	%r14, %r8
	vzeroupper
	callq	memcpy
	vmovups	96(%rsp), %ymm0
	vmovups	128(%rsp), %ymm1
	vmovups	%ymm0, 416(%rsp)
	vmovups	%ymm1, 448(%rsp)
.LBB23_12:
	vmovups	416(%rsp), %ymm0
	vmovups	%ymm0, 160(%rsp)
	vmovups	448(%rsp), %ymm0
	vmovups	%ymm0, 192(%rsp)
	movl	$27, %eax
	movl	%r14d, %ecx
.LBB23_14:
	movq	%r12, 512(%rsp)
	movq	%rbx, 504(%rsp)
	vmovups	160(%rsp), %ymm0
	vmovups	192(%rsp), %ymm1
	vmovups	%ymm0, 224(%rsp)
	vmovups	%ymm1, 256(%rsp)
	movq	$0, 288(%rsp)
	movl	%ecx, 296(%rsp)
	movl	%eax, 300(%rsp)
	vmovd	%esi, %xmm0
	vmovd	%edi, %xmm1
	vpunpckldq	%xmm0, %xmm1, %xmm0
	vpslldq	$8, %xmm0, %xmm0
	vmovd	%eax, %xmm1
	vmovd	%ecx, %xmm2
	vpunpckldq	%xmm1, %xmm2, %xmm1
	vpslldq	$8, %xmm1, %xmm1
	vinserti128	$1, %xmm1, %ymm0, %ymm0
	vbroadcastf128	.LCPI23_2(%rip), %ymm1
	vmovaps	%ymm1, 992(%rsp)
	vbroadcasti128	.LCPI23_3(%rip), %ymm1
	vmovdqa	%ymm1, 1024(%rsp)
	vmovdqa	%ymm0, 960(%rsp)
	leaq	224(%rsp), %rax
	movq	%rax, 40(%rsp)
	leaq	320(%rsp), %rax
	movq	%rax, 32(%rsp)
	leaq	96(%rsp), %rcx
	leaq	1024(%rsp), %rdx
	leaq	992(%rsp), %r8
	leaq	960(%rsp), %r9
	vzeroupper
	callq	"keyed_blake3::compression::two::compress_two_from"
	vmovups	96(%rsp), %ymm3
	vmovups	128(%rsp), %ymm4
	testq	%r13, %r13
	movq	%r15, 496(%rsp)
	movq	%r13, 536(%rsp)
	je	.LBB23_15
	movq	%r13, %r12
	negq	%r12
	movq	80(%rsp), %rax
	leaq	64(%rax), %r13
	leaq	64(%r15), %rsi
	movl	$1, %ebx
	xorl	%r15d, %r15d
	movq	72(%rsp), %rax
	movq	88(%rsp), %rdi
	jmp	.LBB23_17
	.p2align	4
.LBB23_24:
	vmovups	(%rsi), %ymm0
	vmovups	32(%rsi), %ymm1
	vmovaps	%ymm1, 192(%rsp)
	vmovaps	%ymm0, 160(%rsp)
	movl	$16, %ecx
	movl	$64, %eax
.LBB23_29:
	vmovaps	160(%rsp), %ymm0
	vmovaps	192(%rsp), %ymm1
	vmovaps	%ymm0, 224(%rsp)
	vmovaps	%ymm1, 256(%rsp)
	movq	$0, 288(%rsp)
	movl	%eax, 296(%rsp)
	movl	%ecx, 300(%rsp)
	vmovd	%r14d, %xmm0
	vmovd	%edi, %xmm1
	vpunpckldq	%xmm0, %xmm1, %xmm0
	vpslldq	$8, %xmm0, %xmm0
	vmovd	%ecx, %xmm1
	vmovd	%eax, %xmm2
	vpunpckldq	%xmm1, %xmm2, %xmm1
	vpslldq	$8, %xmm1, %xmm1
	vinserti128	$1, %xmm1, %ymm0, %ymm0
	vmovaps	%ymm4, 896(%rsp)
	vmovaps	%ymm3, 928(%rsp)
	vmovdqa	%ymm0, 864(%rsp)
	leaq	224(%rsp), %rax
	movq	%rax, 40(%rsp)
	leaq	320(%rsp), %rax
	movq	%rax, 32(%rsp)
	leaq	96(%rsp), %rcx
	leaq	928(%rsp), %rdx
	leaq	896(%rsp), %r8
	leaq	864(%rsp), %r9
	vzeroupper
	callq	"keyed_blake3::compression::two::compress_two_from"
	vmovups	96(%rsp), %ymm3
	vmovups	128(%rsp), %ymm4
	leaq	(%r12,%rbx), %rax
	incq	%rax
	incq	%rbx
	addq	$-64, %r15
	addq	$64, %r13
	addq	$64, %rsi
	cmpq	$1, %rax
	movq	72(%rsp), %rax
	movq	88(%rsp), %rdi
	je	.LBB23_30
.LBB23_17:
	cmpq	%rax, %rbx
	jae	.LBB23_19
	vmovups	(%r13), %ymm0
	vmovups	32(%r13), %ymm1
	vmovaps	%ymm1, 192(%rsp)
	vmovaps	%ymm0, 160(%rsp)
	movl	$16, %r14d
	movl	$64, %edi
	jmp	.LBB23_23
	.p2align	4
.LBB23_19:
	leaq	(%rdi,%r15), %rax
	cmpq	$128, %rax
	je	.LBB23_20
	vmovaps	%ymm4, 544(%rsp)
	vmovaps	%ymm3, 576(%rsp)
	leaq	(%rdi,%r15), %r8
	addq	$-64, %r8
	vpxor	%xmm0, %xmm0, %xmm0
	vmovdqa	%ymm0, 128(%rsp)
	vmovdqa	%ymm0, 96(%rsp)
	leaq	96(%rsp), %rax
	subq	%r13, %rax
	cmpq	%r8, %rax
	leaq	96(%rsp), %rcx
	movq	%r13, %rdx
	vzeroupper
	callq	memcpy
	vmovaps	96(%rsp), %ymm0
	vmovaps	128(%rsp), %ymm1
	vmovaps	%ymm1, 448(%rsp)
	vmovaps	%ymm0, 416(%rsp)
	vmovaps	576(%rsp), %ymm3
	vmovaps	544(%rsp), %ymm4
	jmp	.LBB23_22
.LBB23_20:
	vmovups	(%r13), %ymm0
	vmovups	32(%r13), %ymm1
	vmovaps	%ymm1, 448(%rsp)
	vmovaps	%ymm0, 416(%rsp)
.LBB23_22:
	addl	%r15d, %edi
	addl	$-64, %edi
	vmovaps	416(%rsp), %ymm0
	vmovaps	%ymm0, 160(%rsp)
	vmovaps	448(%rsp), %ymm0
	vmovaps	%ymm0, 192(%rsp)
	movl	$26, %r14d
.LBB23_23:
	vmovaps	160(%rsp), %ymm0
	vmovaps	192(%rsp), %ymm1
	vmovaps	%ymm0, 320(%rsp)
	vmovaps	%ymm1, 352(%rsp)
	movq	$0, 384(%rsp)
	movl	%edi, 392(%rsp)
	movl	%r14d, 396(%rsp)
	cmpq	512(%rsp), %rbx
	jb	.LBB23_24
	movq	1120(%rbp), %rcx
	leaq	(%rcx,%r15), %rax
	cmpq	$128, %rax
	je	.LBB23_26
	vmovaps	%ymm4, 544(%rsp)
	vmovaps	%ymm3, 576(%rsp)
	leaq	(%rcx,%r15), %r8
	addq	$-64, %r8
	vxorps	%xmm0, %xmm0, %xmm0
	vmovaps	%ymm0, 128(%rsp)
	vmovaps	%ymm0, 96(%rsp)
	leaq	96(%rsp), %rax
	subq	%rsi, %rax
	cmpq	%r8, %rax
	leaq	96(%rsp), %rcx
	movq	%rsi, %rdx
	vzeroupper
	callq	memcpy
	vmovaps	96(%rsp), %ymm0
	vmovaps	128(%rsp), %ymm1
	vmovaps	%ymm1, 448(%rsp)
	vmovaps	%ymm0, 416(%rsp)
	vmovaps	576(%rsp), %ymm3
	vmovaps	544(%rsp), %ymm4
	jmp	.LBB23_28
.LBB23_26:
	vmovups	(%rsi), %ymm0
	vmovups	32(%rsi), %ymm1
	vmovaps	%ymm1, 448(%rsp)
	vmovaps	%ymm0, 416(%rsp)
.LBB23_28:
	movq	1120(%rbp), %rax
	addl	%r15d, %eax
	addl	$-64, %eax
	vmovaps	416(%rsp), %ymm0
	vmovaps	%ymm0, 160(%rsp)
	vmovaps	448(%rsp), %ymm0
	vmovaps	%ymm0, 192(%rsp)
	movl	$26, %ecx
	jmp	.LBB23_29
.LBB23_15:
	movq	72(%rsp), %rax
.LBB23_30:
	movq	536(%rsp), %r13
	leaq	1(%r13), %rbx
	movq	512(%rsp), %r12
	cmpq	%rax, %r12
	jae	.LBB23_31
	cmpq	%rax, %rbx
	movq	1120(%rbp), %r14
	movq	496(%rsp), %r15
	vmovaps	%ymm3, 576(%rsp)
	vmovaps	%ymm4, 544(%rsp)
	jae	.LBB23_33
	movq	%r13, %rsi
	notq	%rsi
	addq	%rax, %rsi
	movq	%r13, %rax
	shlq	$6, %rax
	movq	80(%rsp), %rcx
	leaq	(%rax,%rcx), %rdi
	addq	$64, %rdi
	vmovaps	%xmm3, %xmm6
	vmovaps	%xmm4, %xmm7
	.p2align	4
.LBB23_35:
	vmovdqu	(%rdi), %ymm0
	vmovdqu	32(%rdi), %ymm1
	vmovdqa	%ymm1, 352(%rsp)
	vmovdqa	%ymm0, 320(%rsp)
	vmovaps	%xmm7, 768(%rsp)
	vmovaps	%xmm6, 784(%rsp)
	movl	$16, 48(%rsp)
	movl	$64, 40(%rsp)
	movq	$0, 32(%rsp)
	leaq	224(%rsp), %rcx
	leaq	784(%rsp), %rdx
	leaq	768(%rsp), %r8
	leaq	320(%rsp), %r9
	vzeroupper
	callq	"keyed_blake3::compression::compress"
	vmovaps	224(%rsp), %xmm6
	vmovaps	240(%rsp), %xmm7
	addq	$64, %rdi
	decq	%rsi
	jne	.LBB23_35
	jmp	.LBB23_36
.LBB23_31:
	vmovaps	%xmm4, %xmm6
	vmovaps	%xmm3, %xmm7
	movq	1120(%rbp), %r14
	movq	496(%rsp), %r15
	vextractf128	$1, %ymm3, %xmm9
	vextractf128	$1, %ymm4, %xmm8
	cmpq	%r12, %rax
	jb	.LBB23_42
.LBB23_41:
	movq	504(%rsp), %rdi
	jmp	.LBB23_49
.LBB23_33:
	vmovaps	%xmm4, %xmm7
	vmovaps	%xmm3, %xmm6
.LBB23_36:
	movq	520(%rsp), %rax
	andl	$1984, %eax
	movq	80(%rsp), %rdx
	addq	%rax, %rdx
	movq	88(%rsp), %rdi
	subq	%rax, %rdi
	vpxor	%xmm0, %xmm0, %xmm0
	vmovdqa	%ymm0, 224(%rsp)
	cmpq	$64, %rdi
	jne	.LBB23_38
	vmovdqu	(%rdx), %ymm0
	vmovdqu	32(%rdx), %ymm1
	vmovdqa	%ymm1, 352(%rsp)
	vmovdqa	%ymm0, 320(%rsp)
	vmovaps	%xmm7, 704(%rsp)
	vmovaps	%xmm6, 720(%rsp)
	movl	$26, 48(%rsp)
	movl	$64, 40(%rsp)
	movq	$0, 32(%rsp)
	leaq	224(%rsp), %rcx
	leaq	720(%rsp), %rdx
	leaq	704(%rsp), %r8
	leaq	320(%rsp), %r9
	jmp	.LBB23_39
.LBB23_38:
	vmovdqa	%ymm0, 352(%rsp)
	vmovdqa	%ymm0, 320(%rsp)
	leaq	320(%rsp), %rsi
	movq	%rsi, %rcx
	movq	%rdi, %r8
	vzeroupper
	callq	memcpy
	vmovaps	%xmm7, 736(%rsp)
	vmovaps	%xmm6, 752(%rsp)
	movl	%edi, 40(%rsp)
	movl	$26, 48(%rsp)
	movq	$0, 32(%rsp)
	leaq	224(%rsp), %rcx
	leaq	752(%rsp), %rdx
	leaq	736(%rsp), %r8
	movq	%rsi, %r9
.LBB23_39:
	vzeroupper
	callq	"keyed_blake3::compression::compress"
	vmovaps	240(%rsp), %xmm6
	movq	72(%rsp), %rax
	vmovaps	224(%rsp), %xmm7
	vmovaps	576(%rsp), %ymm3
	vmovaps	544(%rsp), %ymm4
	vextractf128	$1, %ymm3, %xmm9
	vextractf128	$1, %ymm4, %xmm8
	cmpq	%r12, %rax
	jae	.LBB23_41
.LBB23_42:
	cmpq	%r12, %rbx
	jae	.LBB23_45
	movq	%r13, %rsi
	notq	%rsi
	addq	%r12, %rsi
	shlq	$6, %r13
	leaq	(%r15,%r13), %rdi
	addq	$64, %rdi
	.p2align	4
.LBB23_44:
	vmovdqu	(%rdi), %ymm0
	vmovdqu	32(%rdi), %ymm1
	vmovdqa	%ymm1, 352(%rsp)
	vmovdqa	%ymm0, 320(%rsp)
	vmovaps	%xmm8, 672(%rsp)
	vmovaps	%xmm9, 688(%rsp)
	movl	$16, 48(%rsp)
	movl	$64, 40(%rsp)
	movq	$0, 32(%rsp)
	leaq	224(%rsp), %rcx
	leaq	688(%rsp), %rdx
	leaq	672(%rsp), %r8
	leaq	320(%rsp), %r9
	vzeroupper
	callq	"keyed_blake3::compression::compress"
	vmovaps	224(%rsp), %xmm9
	vmovaps	240(%rsp), %xmm8
	addq	$64, %rdi
	decq	%rsi
	jne	.LBB23_44
.LBB23_45:
	movq	528(%rsp), %rax
	andl	$1984, %eax
	addq	%rax, %r15
	subq	%rax, %r14
	vpxor	%xmm0, %xmm0, %xmm0
	vmovdqa	%ymm0, 224(%rsp)
	cmpq	$64, %r14
	movq	504(%rsp), %rdi
	jne	.LBB23_47
	vmovdqu	(%r15), %ymm0
	vmovdqu	32(%r15), %ymm1
	vmovdqa	%ymm1, 352(%rsp)
	vmovdqa	%ymm0, 320(%rsp)
	vmovaps	%xmm8, 608(%rsp)
	vmovaps	%xmm9, 624(%rsp)
	movl	$26, 48(%rsp)
	movl	$64, 40(%rsp)
	movq	$0, 32(%rsp)
	leaq	224(%rsp), %rcx
	leaq	624(%rsp), %rdx
	leaq	608(%rsp), %r8
	leaq	320(%rsp), %r9
	jmp	.LBB23_48
.LBB23_47:
	vmovdqa	%ymm0, 352(%rsp)
	vmovdqa	%ymm0, 320(%rsp)
	leaq	320(%rsp), %rsi
	movq	%rsi, %rcx
	movq	%r15, %rdx
	movq	%r14, %r8
	vzeroupper
	callq	memcpy
	vmovaps	%xmm8, 640(%rsp)
	vmovaps	%xmm9, 656(%rsp)
	movl	%r14d, 40(%rsp)
	movl	$26, 48(%rsp)
	movq	$0, 32(%rsp)
	leaq	224(%rsp), %rcx
	leaq	656(%rsp), %rdx
	leaq	640(%rsp), %r8
	movq	%rsi, %r9
.LBB23_48:
	vzeroupper
	callq	"keyed_blake3::compression::compress"
	vmovaps	240(%rsp), %xmm8
	vmovaps	224(%rsp), %xmm9
.LBB23_49:
	vmovups	%xmm6, 16(%rdi)
	vmovups	%xmm7, (%rdi)
	vmovups	%xmm8, 48(%rdi)
	vmovups	%xmm9, 32(%rdi)
.LBB23_50:
	vmovaps	944(%rbp), %xmm6
	vmovaps	960(%rbp), %xmm7
	vmovaps	976(%rbp), %xmm8
	vmovaps	992(%rbp), %xmm9
	leaq	1016(%rbp), %rsp
	popq	%rbx
	popq	%rdi
	popq	%rsi
	popq	%r12
	popq	%r13
	popq	%r14
	popq	%r15
	popq	%rbp
	vzeroupper
	retq
	.seh_endproc

	.section	.text
	.p2align	4
	.def	"xet_roots::groups::two_parent_hashes";
	.scl	3;
	.type	32;
	.endef
"xet_roots::groups::two_parent_hashes":
.seh_proc "xet_roots::groups::two_parent_hashes"
	pushq	%r15
	.seh_pushreg %r15
	pushq	%r14
	.seh_pushreg %r14
	pushq	%r12
	.seh_pushreg %r12
	pushq	%rsi
	.seh_pushreg %rsi
	pushq	%rdi
	.seh_pushreg %rdi
	pushq	%rbx
	.seh_pushreg %rbx
	subq	$1704, %rsp
	.seh_stackalloc 1704
	.seh_endprologue
	movq	%r9, %rbx
	movq	%r8, %r15
	movq	%rdx, %r12
	movq	%rcx, %rsi
	movq	1792(%rsp), %r14
	leaq	912(%rsp), %rdi
	movl	$792, %r8d
	movq	%rdi, %rcx
	xorl	%edx, %edx
	callq	memset
	movq	%rdi, %rcx
	movq	%r12, %rdx
	movq	%r15, %r8
	callq	"xet_roots::groups::write_text"
	movq	%rax, %r15
	leaq	120(%rsp), %r12
	movl	$792, %r8d
	movq	%r12, %rcx
	xorl	%edx, %edx
	callq	memset
	movq	%r12, %rcx
	movq	%rbx, %rdx
	movq	%r14, %r8
	callq	"xet_roots::groups::write_text"
	vxorps	%xmm0, %xmm0, %xmm0
	vmovups	%ymm0, 80(%rsp)
	vmovups	%ymm0, 48(%rsp)
	movq	%rax, 32(%rsp)
	leaq	48(%rsp), %rcx
	movq	%rdi, %rdx
	movq	%r15, %r8
	movq	%r12, %r9
	vzeroupper
	callq	"keyed_blake3::keyed_hash_two"
	vmovups	48(%rsp), %ymm0
	vmovups	80(%rsp), %ymm1
	vmovups	%ymm0, (%rsi)
	vmovups	%ymm1, 32(%rsi)
	addq	$1704, %rsp
	popq	%rbx
	popq	%rdi
	popq	%rsi
	popq	%r12
	popq	%r14
	popq	%r15
	vzeroupper
	retq
	.seh_endproc

	.section	.rdata,"dr"
static.3:
	.ascii	" : "

	.section	.rdata,"dr"
	.p2align	1, 0x0
static.6:
	.ascii	"00010203040506070809101112131415161718192021222324252627282930313233343536373839404142434445464748495051525354555657585960616263646566676869707172737475767778798081828384858687888990919293949596979899"

	.section	.rdata,"dr"
static.7:
	.ascii	"\001~\305\307\245G)\226\375\224ff\264\212\002\346]\335So7\307m\322\370cR\346JSq?"

	.section	.rdata,"dr"
	.p2align	3, 0x0
	.globl	yurewha_x86_64_v3_kernels
yurewha_x86_64_v3_kernels:
	.quad	"keyed_blake3::keyed_hash"
	.quad	"keyed_blake3::compression::compress"
	.quad	"keyed_blake3::hasher::Hasher::update"
	.quad	"keyed_blake3::hasher::Hasher::finalize"
	.quad	"xet_roots::groups::two_parent_hashes"
	.quad	"xet_roots::groups::parent_hashes"
	.quad	"xet_roots::groups::write_text"

