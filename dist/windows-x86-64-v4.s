/* Yurewha 1.1.0 for windows-x86-64-v4: the kernels of the proved library, as the toolchain compiles it. Made by dist/make, not by hand.
   The sum of its sources: 9f27598952ba9691f7deda6fc4a73bcce6b881aa2a1edd98ac143c424a08c115 */
	.section	.text
	.p2align	4
	.def	"keyed_blake3::keyed_hash";
	.scl	3;
	.type	32;
	.endef
"keyed_blake3::keyed_hash":
.seh_proc "keyed_blake3::keyed_hash"
	pushq	%r15
	.seh_pushreg %r15
	pushq	%r14
	.seh_pushreg %r14
	pushq	%r13
	.seh_pushreg %r13
	pushq	%r12
	.seh_pushreg %r12
	pushq	%rsi
	.seh_pushreg %rsi
	pushq	%rdi
	.seh_pushreg %rdi
	pushq	%rbp
	.seh_pushreg %rbp
	pushq	%rbx
	.seh_pushreg %rbx
	subq	$2200, %rsp
	.seh_stackalloc 2200
	vmovaps	%xmm7, 2176(%rsp)
	.seh_savexmm %xmm7, 2176
	vmovaps	%xmm6, 2160(%rsp)
	.seh_savexmm %xmm6, 2160
	.seh_endprologue
	movq	%r9, %rdi
	movq	%r8, %rbx
	movq	%rdx, %r14
	movq	%rcx, %rsi
	vxorps	%xmm0, %xmm0, %xmm0
	vmovups	%ymm0, 96(%rsp)
	cmpq	$1025, %r9
	jae	.LBB1_1
	vmovups	(%r14), %xmm6
	vmovups	16(%r14), %xmm7
	cmpq	$1, %rdi
	movq	%rdi, %r14
	adcq	$-1, %r14
	movq	%r14, %r15
	shrq	$6, %r15
	je	.LBB1_4
	xorl	%r12d, %r12d
	movq	%rbx, %r13
	.p2align	4
.LBB1_6:
	cmpq	$1, %r12
	movl	$0, %eax
	adcl	$16, %eax
	vmovups	(%r13), %ymm0
	vmovups	32(%r13), %ymm1
	vmovups	%ymm1, 160(%rsp)
	vmovups	%ymm0, 128(%rsp)
	vmovaps	%xmm7, 256(%rsp)
	vmovaps	%xmm6, 272(%rsp)
	movl	%eax, 48(%rsp)
	movl	$64, 40(%rsp)
	movq	$0, 32(%rsp)
	leaq	64(%rsp), %rcx
	leaq	272(%rsp), %rdx
	leaq	256(%rsp), %r8
	leaq	128(%rsp), %r9
	vzeroupper
	callq	"keyed_blake3::compression::compress"
	vmovaps	64(%rsp), %xmm6
	vmovaps	80(%rsp), %xmm7
	incq	%r12
	addq	$64, %r13
	cmpq	%r12, %r15
	jne	.LBB1_6
	movl	$26, %ebp
	jmp	.LBB1_8
.LBB1_1:
	leaq	352(%rsp), %rcx
	movl	$1800, %r8d
	xorl	%edx, %edx
	vzeroupper
	callq	memset
	vmovups	(%r14), %ymm0
	vmovups	%ymm0, 320(%rsp)
	vmovups	(%r14), %ymm0
	vmovups	%ymm0, 288(%rsp)
	leaq	288(%rsp), %r14
	movq	%r14, %rcx
	movq	%rbx, %rdx
	movq	%rdi, %r8
	vzeroupper
	callq	"keyed_blake3::hasher::Hasher::update"
	leaq	96(%rsp), %rcx
	movq	%r14, %rdx
	callq	"keyed_blake3::hasher::Hasher::finalize"
	vmovups	96(%rsp), %ymm0
	vmovups	%ymm0, (%rsi)
	jmp	.LBB1_2
.LBB1_4:
	movl	$27, %ebp
.LBB1_8:
	andl	$1984, %r14d
	addq	%r14, %rbx
	subq	%r14, %rdi
	vxorps	%xmm0, %xmm0, %xmm0
	vmovups	%ymm0, 64(%rsp)
	cmpq	$64, %rdi
	jne	.LBB1_10
	vmovups	(%rbx), %ymm0
	vmovups	32(%rbx), %ymm1
	vmovups	%ymm1, 160(%rsp)
	vmovups	%ymm0, 128(%rsp)
	vmovaps	%xmm7, 192(%rsp)
	vmovaps	%xmm6, 208(%rsp)
	movl	%ebp, 48(%rsp)
	movl	$64, 40(%rsp)
	movq	$0, 32(%rsp)
	leaq	64(%rsp), %rcx
	leaq	208(%rsp), %rdx
	leaq	192(%rsp), %r8
	leaq	128(%rsp), %r9
	jmp	.LBB1_11
.LBB1_10:
	vmovups	%ymm0, 160(%rsp)
	vmovups	%ymm0, 128(%rsp)
	leaq	128(%rsp), %r14
	movq	%r14, %rcx
	movq	%rbx, %rdx
	movq	%rdi, %r8
	vzeroupper
	callq	memcpy
	vmovaps	%xmm7, 224(%rsp)
	vmovaps	%xmm6, 240(%rsp)
	movl	%ebp, 48(%rsp)
	movl	%edi, 40(%rsp)
	movq	$0, 32(%rsp)
	leaq	64(%rsp), %rcx
	leaq	240(%rsp), %rdx
	leaq	224(%rsp), %r8
	movq	%r14, %r9
.LBB1_11:
	vzeroupper
	callq	"keyed_blake3::compression::compress"
	vmovups	68(%rsp), %xmm0
	vmovsd	84(%rsp), %xmm1
	movl	92(%rsp), %eax
	movl	64(%rsp), %ecx
	movl	%ecx, 96(%rsp)
	vmovups	%xmm0, 100(%rsp)
	vmovlps	%xmm1, 116(%rsp)
	movl	%eax, 124(%rsp)
	movl	96(%rsp), %eax
	movl	%eax, (%rsi)
	vmovups	100(%rsp), %xmm0
	vmovups	%xmm0, 4(%rsi)
	movq	116(%rsp), %rax
	movq	%rax, 20(%rsi)
	movl	124(%rsp), %eax
	movl	%eax, 28(%rsi)
.LBB1_2:
	vmovaps	2160(%rsp), %xmm6
	vmovaps	2176(%rsp), %xmm7
	addq	$2200, %rsp
	popq	%rbx
	popq	%rbp
	popq	%rdi
	popq	%rsi
	popq	%r12
	popq	%r13
	popq	%r14
	popq	%r15
	vzeroupper
	retq
	.seh_endproc

	.section	.rdata,"dr"
	.p2align	5, 0x0
.LCPI2_0:
	.long	6
	.long	0
	.long	2
	.long	4
.LCPI2_1:
	.long	7
	.long	1
	.long	3
	.long	5
.LCPI2_2:
	.long	1779033703
	.long	3144134277
	.long	1013904242
	.long	2773480762
.LCPI2_3:
	.long	4
	.long	2
	.long	3
	.long	7
.LCPI2_4:
	.long	3
	.long	6
	.long	0
	.zero	4
.LCPI2_5:
	.long	0
	.long	2
	.long	4
	.long	1
.LCPI2_6:
	.long	0
	.long	3
	.zero	4
	.long	6
.LCPI2_7:
	.long	0
	.long	4
	.long	1
	.long	4
.LCPI2_8:
	.long	0
	.long	2
	.long	5
	.long	1
.LCPI2_9:
	.long	3
	.long	5
	.long	2
	.zero	4
.LCPI2_10:
	.long	0
	.long	2
	.long	7
	.long	1
.LCPI2_11:
	.long	5
	.long	3
	.long	2
	.long	3
.LCPI2_12:
	.long	4
	.long	2
	.long	3
	.long	1
.LCPI2_13:
	.long	1
	.long	5
	.long	7
	.long	3
.LCPI2_14:
	.long	3
	.long	2
	.long	1
	.long	7
.LCPI2_15:
	.long	3
	.long	4
	.long	1
	.zero	4
.LCPI2_16:
	.long	3
	.long	7
	.long	1
	.long	2
.LCPI2_17:
	.long	3
	.long	5
	.long	6
	.long	0
.LCPI2_18:
	.long	1
	.long	2
	.long	3
	.long	0
	.long	10
	.long	11
	.long	8
	.long	9
.LCPI2_19:
	.long	3
	.long	6
	.long	0
	.long	0
	.section	.text
	.p2align	4
	.def	"keyed_blake3::compression::compress";
	.scl	3;
	.type	32;
	.endef
"keyed_blake3::compression::compress":
.seh_proc "keyed_blake3::compression::compress"
	pushq	%rbp
	.seh_pushreg %rbp
	subq	$112, %rsp
	.seh_stackalloc 112
	leaq	112(%rsp), %rbp
	.seh_setframe %rbp, 112
	vmovaps	%xmm10, -16(%rbp)
	.seh_savexmm %xmm10, 96
	vmovaps	%xmm9, -32(%rbp)
	.seh_savexmm %xmm9, 80
	vmovaps	%xmm8, -48(%rbp)
	.seh_savexmm %xmm8, 64
	vmovaps	%xmm7, -64(%rbp)
	.seh_savexmm %xmm7, 48
	vmovaps	%xmm6, -80(%rbp)
	.seh_savexmm %xmm6, 32
	.seh_endprologue
	andq	$-64, %rsp
	vmovdqa	(%r8), %xmm4
	vmovq	48(%rbp), %xmm0
	vpinsrd	$2, 56(%rbp), %xmm0, %xmm0
	vpinsrd	$3, 64(%rbp), %xmm0, %xmm5
	vmovups	(%r9), %xmm1
	vmovups	16(%r9), %xmm2
	vmovups	32(%r9), %xmm0
	vmovdqu64	48(%r9), %xmm20
	vmovdqu64	(%r9), %ymm17
	vpmovqd	%ymm17, %xmm18
	vshufps	$221, %xmm2, %xmm1, %xmm6
	vmovdqa	.LCPI2_0(%rip), %xmm3
	vmovdqu64	32(%r9), %ymm19
	vpermd	%ymm19, %ymm3, %ymm16
	vpbroadcastd	%xmm20, %xmm3
	vmovdqa64	.LCPI2_1(%rip), %xmm21
	vpaddd	(%rdx), %xmm4, %xmm22
	vpermd	%ymm19, %ymm21, %ymm8
	vpaddd	%xmm18, %xmm22, %xmm21
	vpxord	%xmm5, %xmm21, %xmm5
	vprold	$16, %xmm5, %xmm5
	vpaddd	.LCPI2_2(%rip), %xmm5, %xmm22
	vpxord	%xmm4, %xmm22, %xmm4
	vprold	$20, %xmm4, %xmm4
	vpaddd	%xmm6, %xmm21, %xmm21
	vpaddd	%xmm4, %xmm21, %xmm21
	vpxord	%xmm5, %xmm21, %xmm5
	vprold	$24, %xmm5, %xmm5
	vpaddd	%xmm22, %xmm5, %xmm22
	vpxord	%xmm4, %xmm22, %xmm4
	vprold	$25, %xmm4, %xmm4
	vpshufd	$147, %xmm21, %xmm21
	vpshufd	$57, %xmm22, %xmm22
	vpshufd	$78, %xmm5, %xmm5
	vpaddd	%xmm16, %xmm21, %xmm16
	vpaddd	%xmm4, %xmm16, %xmm16
	vpxord	%xmm5, %xmm16, %xmm5
	vprold	$16, %xmm5, %xmm5
	vpaddd	%xmm22, %xmm5, %xmm21
	vpxord	%xmm4, %xmm21, %xmm4
	vprold	$20, %xmm4, %xmm4
	vpaddd	%xmm8, %xmm16, %xmm16
	vpaddd	%xmm4, %xmm16, %xmm22
	vpxord	%xmm5, %xmm22, %xmm5
	vprold	$24, %xmm5, %xmm5
	vpaddd	%xmm21, %xmm5, %xmm16
	vpxord	%xmm4, %xmm16, %xmm4
	vprold	$25, %xmm4, %xmm21
	vpshufd	$147, %xmm16, %xmm23
	vpshufd	$78, %xmm5, %xmm25
	vmovdqa	.LCPI2_3(%rip), %xmm4
	vpermd	%ymm17, %ymm4, %ymm4
	vmovsd	.LCPI2_19(%rip), %xmm5
	vpermi2ps	%xmm0, %xmm18, %xmm5
	vblendps	$8, %xmm8, %xmm5, %xmm5
	vmovlhps	%xmm6, %xmm8, %xmm26
	vmovdqa64	.LCPI2_5(%rip), %xmm16
	vinsertps	$140, %xmm26, %xmm2, %xmm24
	vpermt2d	%xmm20, %xmm16, %xmm26
	vmovdqa64	.LCPI2_6(%rip), %xmm27
	vpermd	%ymm19, %ymm27, %ymm7
	vpblendd	$4, %xmm6, %xmm7, %xmm9
	vpaddd	%xmm4, %xmm22, %xmm22
	vpshufd	$57, %xmm22, %xmm22
	vpaddd	%xmm22, %xmm21, %xmm22
	vpxord	%xmm25, %xmm22, %xmm25
	vprold	$16, %xmm25, %xmm25
	vpaddd	%xmm23, %xmm25, %xmm23
	vpxord	%xmm21, %xmm23, %xmm21
	vprold	$20, %xmm21, %xmm21
	vpaddd	%xmm5, %xmm22, %xmm22
	vpaddd	%xmm21, %xmm22, %xmm22
	vpxord	%xmm25, %xmm22, %xmm25
	vprold	$24, %xmm25, %xmm25
	vpaddd	%xmm23, %xmm25, %xmm23
	vpxord	%xmm21, %xmm23, %xmm21
	vprold	$25, %xmm21, %xmm21
	vpshufd	$147, %xmm22, %xmm22
	vpaddd	%xmm26, %xmm22, %xmm22
	vpshufd	$57, %xmm23, %xmm23
	vpshufd	$78, %xmm25, %xmm25
	vpaddd	%xmm21, %xmm22, %xmm22
	vpxord	%xmm25, %xmm22, %xmm25
	vprold	$16, %xmm25, %xmm25
	vpaddd	%xmm23, %xmm25, %xmm23
	vpxord	%xmm21, %xmm23, %xmm21
	vprold	$20, %xmm21, %xmm21
	vpaddd	%xmm9, %xmm22, %xmm22
	vpaddd	%xmm21, %xmm22, %xmm22
	vpxord	%xmm25, %xmm22, %xmm25
	vprold	$24, %xmm25, %xmm25
	vpaddd	%xmm23, %xmm25, %xmm23
	vpxord	%xmm21, %xmm23, %xmm21
	vprold	$25, %xmm21, %xmm21
	vpshufd	$147, %xmm23, %xmm26
	vpshufd	$78, %xmm25, %xmm25
	vshufps	$219, %xmm5, %xmm4, %xmm27
	vmovdqa	.LCPI2_7(%rip), %xmm10
	vpermi2d	%xmm20, %xmm4, %xmm10
	vpblendd	$8, %xmm7, %xmm10, %xmm9
	vshufps	$236, %xmm2, %xmm0, %xmm20
	vmovaps	.LCPI2_8(%rip), %xmm23
	vpermt2ps	%xmm0, %xmm23, %xmm20
	vshufps	$40, %xmm8, %xmm6, %xmm28
	vinsertps	$32, %xmm1, %xmm28, %xmm28
	vpaddd	%xmm27, %xmm22, %xmm22
	vpshufd	$57, %xmm22, %xmm22
	vpaddd	%xmm22, %xmm21, %xmm22
	vpxord	%xmm25, %xmm22, %xmm25
	vprold	$16, %xmm25, %xmm25
	vpaddd	%xmm26, %xmm25, %xmm26
	vpxord	%xmm21, %xmm26, %xmm21
	vprold	$20, %xmm21, %xmm21
	vpaddd	%xmm9, %xmm22, %xmm22
	vpaddd	%xmm21, %xmm22, %xmm22
	vpxord	%xmm25, %xmm22, %xmm25
	vprold	$24, %xmm25, %xmm25
	vpaddd	%xmm26, %xmm25, %xmm26
	vpxord	%xmm21, %xmm26, %xmm21
	vprold	$25, %xmm21, %xmm21
	vpshufd	$147, %xmm22, %xmm22
	vpaddd	%xmm20, %xmm22, %xmm20
	vpshufd	$57, %xmm26, %xmm22
	vpshufd	$78, %xmm25, %xmm25
	vpaddd	%xmm21, %xmm20, %xmm20
	vpxord	%xmm25, %xmm20, %xmm25
	vprold	$16, %xmm25, %xmm25
	vpaddd	%xmm22, %xmm25, %xmm22
	vpxord	%xmm21, %xmm22, %xmm21
	vprold	$20, %xmm21, %xmm21
	vpaddd	%xmm28, %xmm20, %xmm20
	vpaddd	%xmm21, %xmm20, %xmm26
	vpxord	%xmm25, %xmm26, %xmm20
	vprold	$24, %xmm20, %xmm20
	vpaddd	%xmm22, %xmm20, %xmm22
	vpxord	%xmm21, %xmm22, %xmm21
	vprold	$25, %xmm21, %xmm25
	vpshufd	$147, %xmm22, %xmm27
	vpshufd	$78, %xmm20, %xmm28
	vshufps	$215, %xmm9, %xmm5, %xmm22
	vmovdqa64	.LCPI2_9(%rip), %xmm20
	vpermi2d	%xmm0, %xmm4, %xmm20
	vinsertps	$48, %xmm8, %xmm20, %xmm21
	vmovlhps	%xmm10, %xmm24, %xmm20
	vmovdqa64	.LCPI2_10(%rip), %xmm24
	vpermi2d	%xmm0, %xmm20, %xmm24
	vshufps	$35, %xmm0, %xmm18, %xmm8
	vblendps	$4, %xmm1, %xmm8, %xmm8
	vpaddd	%xmm22, %xmm26, %xmm26
	vpshufd	$57, %xmm26, %xmm26
	vpaddd	%xmm26, %xmm25, %xmm26
	vpxord	%xmm28, %xmm26, %xmm28
	vprold	$16, %xmm28, %xmm28
	vpaddd	%xmm27, %xmm28, %xmm27
	vpxord	%xmm25, %xmm27, %xmm25
	vprold	$20, %xmm25, %xmm25
	vpaddd	%xmm21, %xmm26, %xmm26
	vpaddd	%xmm25, %xmm26, %xmm26
	vpxord	%xmm28, %xmm26, %xmm28
	vprold	$24, %xmm28, %xmm28
	vpaddd	%xmm27, %xmm28, %xmm27
	vpxord	%xmm25, %xmm27, %xmm25
	vprold	$25, %xmm25, %xmm25
	vpshufd	$147, %xmm26, %xmm26
	vpaddd	%xmm24, %xmm26, %xmm24
	vpshufd	$57, %xmm27, %xmm26
	vpshufd	$78, %xmm28, %xmm27
	vpaddd	%xmm25, %xmm24, %xmm24
	vpxord	%xmm27, %xmm24, %xmm27
	vprold	$16, %xmm27, %xmm27
	vpaddd	%xmm26, %xmm27, %xmm26
	vpxord	%xmm25, %xmm26, %xmm25
	vprold	$20, %xmm25, %xmm25
	vpaddd	%xmm8, %xmm24, %xmm24
	vpaddd	%xmm25, %xmm24, %xmm24
	vpxord	%xmm27, %xmm24, %xmm27
	vprold	$24, %xmm27, %xmm27
	vpaddd	%xmm26, %xmm27, %xmm26
	vpxord	%xmm25, %xmm26, %xmm25
	vprold	$25, %xmm25, %xmm25
	vpshufd	$147, %xmm26, %xmm26
	vpshufd	$78, %xmm27, %xmm27
	vmovdqa64	.LCPI2_11(%rip), %xmm28
	vpermd	%ymm19, %ymm28, %ymm19
	vinsertps	$48, %xmm0, %xmm19, %xmm19
	vshufps	$243, %xmm4, %xmm18, %xmm28
	vpermt2ps	%xmm2, %xmm23, %xmm28
	vmovdqa64	.LCPI2_12(%rip), %xmm18
	vpermd	%ymm17, %ymm18, %ymm18
	vpshufd	$57, %xmm24, %xmm23
	vmovaps	.LCPI2_13(%rip), %xmm17
	vpblendd	$4, %xmm6, %xmm9, %xmm6
	vpermt2ps	%xmm21, %xmm17, %xmm9
	vpaddd	%xmm9, %xmm23, %xmm23
	vpaddd	%xmm23, %xmm25, %xmm23
	vpxord	%xmm27, %xmm23, %xmm24
	vprold	$16, %xmm24, %xmm24
	vpaddd	%xmm26, %xmm24, %xmm26
	vpxord	%xmm25, %xmm26, %xmm25
	vprold	$20, %xmm25, %xmm25
	vpaddd	%xmm19, %xmm23, %xmm23
	vpaddd	%xmm25, %xmm23, %xmm23
	vpxord	%xmm24, %xmm23, %xmm24
	vprold	$24, %xmm24, %xmm24
	vpaddd	%xmm26, %xmm24, %xmm26
	vpxord	%xmm25, %xmm26, %xmm25
	vprold	$25, %xmm25, %xmm25
	vpshufd	$147, %xmm23, %xmm23
	vpaddd	%xmm28, %xmm23, %xmm23
	vpshufd	$57, %xmm26, %xmm26
	vpshufd	$78, %xmm24, %xmm24
	vpaddd	%xmm25, %xmm23, %xmm23
	vpxord	%xmm24, %xmm23, %xmm24
	vprold	$16, %xmm24, %xmm24
	vpaddd	%xmm26, %xmm24, %xmm26
	vpxord	%xmm25, %xmm26, %xmm25
	vprold	$20, %xmm25, %xmm25
	vpaddd	%xmm18, %xmm23, %xmm23
	vpaddd	%xmm25, %xmm23, %xmm23
	vpxord	%xmm24, %xmm23, %xmm24
	vprold	$24, %xmm24, %xmm24
	vpaddd	%xmm26, %xmm24, %xmm26
	vpxord	%xmm25, %xmm26, %xmm25
	vprold	$25, %xmm25, %xmm25
	vpshufd	$147, %xmm26, %xmm26
	vpshufd	$78, %xmm24, %xmm24
	vmovdqa64	.LCPI2_14(%rip), %xmm27
	vpermi2d	%xmm18, %xmm6, %xmm27
	vpunpcklqdq	%xmm22, %xmm4, %xmm18
	vpermt2d	%xmm1, %xmm16, %xmm18
	vshufps	$171, %xmm2, %xmm4, %xmm8
	vblendps	$4, %xmm0, %xmm8, %xmm8
	vpshufd	$57, %xmm23, %xmm16
	vpermi2ps	%xmm19, %xmm21, %xmm17
	vpaddd	%xmm17, %xmm16, %xmm16
	vpaddd	%xmm16, %xmm25, %xmm16
	vpxord	%xmm24, %xmm16, %xmm17
	vprold	$16, %xmm17, %xmm17
	vpaddd	%xmm26, %xmm17, %xmm19
	vpxord	%xmm25, %xmm19, %xmm22
	vprold	$20, %xmm22, %xmm22
	vpaddd	%xmm27, %xmm16, %xmm16
	vpaddd	%xmm22, %xmm16, %xmm16
	vpxord	%xmm17, %xmm16, %xmm17
	vprold	$24, %xmm17, %xmm17
	vpaddd	%xmm19, %xmm17, %xmm19
	vpxord	%xmm22, %xmm19, %xmm22
	vprold	$25, %xmm22, %xmm22
	vpshufd	$147, %xmm16, %xmm16
	vpaddd	%xmm18, %xmm16, %xmm16
	vpshufd	$57, %xmm19, %xmm18
	vpshufd	$78, %xmm17, %xmm17
	vpaddd	%xmm22, %xmm16, %xmm16
	vpxord	%xmm17, %xmm16, %xmm17
	vprold	$16, %xmm17, %xmm17
	vpaddd	%xmm18, %xmm17, %xmm18
	vpxord	%xmm22, %xmm18, %xmm19
	vprold	$20, %xmm19, %xmm19
	vpaddd	%xmm8, %xmm16, %xmm16
	vpaddd	%xmm19, %xmm16, %xmm16
	vpxord	%xmm17, %xmm16, %xmm17
	vprold	$24, %xmm17, %xmm17
	vpaddd	%xmm18, %xmm17, %xmm18
	vpxord	%xmm19, %xmm18, %xmm19
	vprold	$25, %xmm19, %xmm19
	vpshufd	$147, %xmm18, %xmm18
	vpshufd	$78, %xmm17, %xmm17
	vmovdqa64	.LCPI2_15(%rip), %xmm22
	vpermi2d	%xmm1, %xmm21, %xmm22
	vinsertps	$176, %xmm2, %xmm22, %xmm2
	vmovdqa64	.LCPI2_16(%rip), %xmm21
	vpermi2d	%xmm7, %xmm4, %xmm21
	vshufps	$167, %xmm20, %xmm5, %xmm4
	vinsertps	$224, %xmm3, %xmm4, %xmm3
	vpshufd	$57, %xmm16, %xmm4
	vshufps	$91, %xmm1, %xmm6, %xmm1
	vmovaps	.LCPI2_17(%rip), %xmm5
	vpermi2ps	%xmm1, %xmm0, %xmm5
	vpaddd	%xmm5, %xmm4, %xmm0
	vpaddd	%xmm0, %xmm19, %xmm0
	vpxord	%xmm17, %xmm0, %xmm1
	vprold	$16, %xmm1, %xmm1
	vpaddd	%xmm18, %xmm1, %xmm4
	vpxord	%xmm19, %xmm4, %xmm5
	vprold	$20, %xmm5, %xmm5
	vpaddd	%xmm2, %xmm0, %xmm0
	vpaddd	%xmm5, %xmm0, %xmm0
	vpxor	%xmm1, %xmm0, %xmm1
	vprold	$24, %xmm1, %xmm1
	vpaddd	%xmm4, %xmm1, %xmm2
	vpxor	%xmm5, %xmm2, %xmm4
	vprold	$25, %xmm4, %xmm4
	vpshufd	$147, %xmm0, %xmm0
	vpaddd	%xmm21, %xmm0, %xmm0
	vpshufd	$57, %xmm2, %xmm2
	vpshufd	$78, %xmm1, %xmm1
	vpaddd	%xmm4, %xmm0, %xmm0
	vpxor	%xmm1, %xmm0, %xmm1
	vprold	$16, %xmm1, %xmm1
	vpaddd	%xmm2, %xmm1, %xmm2
	vpxor	%xmm4, %xmm2, %xmm4
	vprold	$20, %xmm4, %xmm4
	vpaddd	%xmm3, %xmm0, %xmm0
	vpaddd	%xmm4, %xmm0, %xmm0
	vpxor	%xmm1, %xmm0, %xmm1
	vprold	$24, %xmm1, %xmm1
	vpaddd	%xmm2, %xmm1, %xmm2
	vpxor	%xmm4, %xmm2, %xmm3
	vprold	$25, %xmm3, %xmm3
	vpshufd	$147, %xmm2, %xmm2
	vinserti128	$1, %xmm3, %ymm2, %ymm2
	vmovdqa	.LCPI2_18(%rip), %ymm3
	vpermi2d	%ymm1, %ymm0, %ymm3
	vpxor	%ymm3, %ymm2, %ymm0
	vmovdqu	%ymm0, (%rcx)
	vmovaps	-80(%rbp), %xmm6
	vmovaps	-64(%rbp), %xmm7
	vmovaps	-48(%rbp), %xmm8
	vmovaps	-32(%rbp), %xmm9
	vmovaps	-16(%rbp), %xmm10
	movq	%rbp, %rsp
	popq	%rbp
	vzeroupper
	retq
	.seh_endproc

	.section	.text
	.p2align	4
	.def	"keyed_blake3::hasher::Hasher::update";
	.scl	3;
	.type	32;
	.endef
"keyed_blake3::hasher::Hasher::update":
.seh_proc "keyed_blake3::hasher::Hasher::update"
	pushq	%r15
	.seh_pushreg %r15
	pushq	%r14
	.seh_pushreg %r14
	pushq	%r13
	.seh_pushreg %r13
	pushq	%r12
	.seh_pushreg %r12
	pushq	%rsi
	.seh_pushreg %rsi
	pushq	%rdi
	.seh_pushreg %rdi
	pushq	%rbp
	.seh_pushreg %rbp
	pushq	%rbx
	.seh_pushreg %rbx
	subq	$424, %rsp
	.seh_stackalloc 424
	.seh_endprologue
	testq	%r8, %r8
	je	.LBB3_107
	movq	%r8, %rbx
	movq	%rdx, %rdi
	movq	%rcx, %rsi
	movq	1856(%rcx), %r12
	cmpq	$1025, %r12
	setb	%al
	testl	$1023, %r12d
	setne	%cl
	orb	%al, %cl
	jne	.LBB3_5
	movq	%r12, %rax
	shrq	$10, %rax
	blsrq	%rax, %rax
	jne	.LBB3_4
	vmovups	64(%rsi), %ymm0
	vmovups	%ymm0, 64(%rsp)
	vmovups	96(%rsi), %ymm0
	vmovups	%ymm0, 96(%rsp)
	vmovups	(%rsi), %xmm0
	vmovups	16(%rsi), %xmm1
	vmovaps	%xmm1, 352(%rsp)
	vmovaps	%xmm0, 368(%rsp)
	movl	$20, 48(%rsp)
	movl	$64, 40(%rsp)
	movq	$0, 32(%rsp)
	leaq	128(%rsp), %rcx
	leaq	368(%rsp), %rdx
	leaq	352(%rsp), %r8
	leaq	64(%rsp), %r9
	vzeroupper
	callq	"keyed_blake3::compression::compress"
	vmovups	128(%rsp), %ymm0
	vmovups	%ymm0, 64(%rsi)
.LBB3_4:
	movq	%r12, %r15
	jmp	.LBB3_6
.LBB3_5:
	cmpq	$1, %r12
	movq	%r12, %r15
	adcq	$-1, %r15
.LBB3_6:
	movq	%r15, %rdx
	andq	$-64, %rdx
	movq	%r12, %rax
	subq	%rdx, %rax
	leaq	(%r12,%rbx), %rcx
	movq	%rcx, 1856(%rsi)
	movl	$64, %r14d
	subq	%rax, %r14
	cmpq	%r14, %rbx
	jbe	.LBB3_9
	movq	%r15, %rbp
	shrq	$6, %rbp
	movq	%r12, %r8
	subq	%rdx, %r8
	jne	.LBB3_12
	xorl	%r14d, %r14d
	movq	%rbx, %r8
	subq	%r14, %r8
	cmpq	$65, %r8
	jae	.LBB3_51
	jmp	.LBB3_88
.LBB3_9:
	leaq	(%rsi,%rax), %rcx
	addq	$1792, %rcx
	movq	%rcx, %r8
	subq	%rdi, %r8
	cmpq	%rbx, %r8
	jae	.LBB3_16
	cmpq	$8, %rbx
	jb	.LBB3_11
	addq	%rsi, %r12
	addq	%rdi, %rdx
	subq	%rdx, %r12
	addq	$1792, %r12
	cmpq	$128, %r12
	jae	.LBB3_20
.LBB3_11:
	xorl	%edx, %edx
.LBB3_31:
	movq	%rbx, %r9
	movq	%rdx, %r8
	andq	$7, %r9
	je	.LBB3_34
	movq	%rdx, %r8
	.p2align	4
.LBB3_33:
	movzbl	(%rdi,%r8), %r10d
	movb	%r10b, (%rcx,%r8)
	incq	%r8
	decq	%r9
	jne	.LBB3_33
.LBB3_34:
	subq	%rbx, %rdx
	cmpq	$-8, %rdx
	ja	.LBB3_37
	addq	%rsi, %rax
	addq	$1799, %rax
	.p2align	4
.LBB3_36:
	movzbl	(%rdi,%r8), %ecx
	movb	%cl, -7(%rax,%r8)
	movzbl	1(%rdi,%r8), %ecx
	movb	%cl, -6(%rax,%r8)
	movzbl	2(%rdi,%r8), %ecx
	movb	%cl, -5(%rax,%r8)
	movzbl	3(%rdi,%r8), %ecx
	movb	%cl, -4(%rax,%r8)
	movzbl	4(%rdi,%r8), %ecx
	movb	%cl, -3(%rax,%r8)
	movzbl	5(%rdi,%r8), %ecx
	movb	%cl, -2(%rax,%r8)
	movzbl	6(%rdi,%r8), %ecx
	movb	%cl, -1(%rax,%r8)
	movzbl	7(%rdi,%r8), %ecx
	movb	%cl, (%rax,%r8)
	addq	$8, %r8
	cmpq	%r8, %rbx
	jne	.LBB3_36
	jmp	.LBB3_37
.LBB3_12:
	leaq	(%rsi,%rax), %rcx
	addq	$1792, %rcx
	movq	%rcx, %rax
	subq	%rdi, %rax
	cmpq	%r14, %rax
	jae	.LBB3_19
	cmpq	$8, %r14
	jb	.LBB3_15
	addq	%rsi, %r12
	addq	%rdi, %rdx
	subq	%rdx, %r12
	addq	$1792, %r12
	cmpq	$128, %r12
	jae	.LBB3_22
.LBB3_15:
	xorl	%eax, %eax
	jmp	.LBB3_45
.LBB3_16:
	movq	%rdi, %rdx
	movq	%rbx, %r8
	vzeroupper
	callq	memmove
.LBB3_37:
	movq	1856(%rsi), %rdi
	cmpq	$1025, %rdi
	setb	%al
	testl	$1023, %edi
	setne	%cl
	orb	%al, %cl
	jne	.LBB3_107
	leaq	1792(%rsi), %rax
	shrq	$10, %rdi
	decq	%rdi
	vmovups	(%rax), %ymm0
	vmovups	32(%rax), %ymm1
	vmovups	%ymm1, 96(%rsp)
	vmovups	%ymm0, 64(%rsp)
	vmovups	32(%rsi), %xmm0
	vmovups	48(%rsi), %xmm1
	vmovaps	%xmm1, 320(%rsp)
	vmovaps	%xmm0, 336(%rsp)
	movq	%rdi, 32(%rsp)
	movl	$18, 48(%rsp)
	movl	$64, 40(%rsp)
	leaq	128(%rsp), %rbx
	leaq	336(%rsp), %rdx
	leaq	320(%rsp), %r8
	jmp	.LBB3_106
.LBB3_19:
	movq	%rdi, %rdx
	movq	%r14, %r8
	vzeroupper
	callq	memmove
	jmp	.LBB3_47
.LBB3_20:
	cmpq	$128, %rbx
	jae	.LBB3_24
	xorl	%edx, %edx
	jmp	.LBB3_28
.LBB3_22:
	cmpq	$128, %r14
	jae	.LBB3_39
	xorl	%eax, %eax
	jmp	.LBB3_43
.LBB3_24:
	movq	%rbx, %rdx
	andq	$-128, %rdx
	leaq	(%rax,%rsi), %r8
	addq	$1888, %r8
	xorl	%r9d, %r9d
	.p2align	4
.LBB3_25:
	vmovups	(%rdi,%r9), %ymm0
	vmovups	32(%rdi,%r9), %ymm1
	vmovups	64(%rdi,%r9), %ymm2
	vmovups	96(%rdi,%r9), %ymm3
	vmovups	%ymm0, -96(%r8,%r9)
	vmovups	%ymm1, -64(%r8,%r9)
	vmovups	%ymm2, -32(%r8,%r9)
	vmovups	%ymm3, (%r8,%r9)
	subq	$-128, %r9
	cmpq	%r9, %rdx
	jne	.LBB3_25
	cmpq	%rdx, %rbx
	je	.LBB3_37
	testb	$120, %bl
	je	.LBB3_31
.LBB3_28:
	movq	%rdx, %r8
	movq	%rbx, %rdx
	andq	$-8, %rdx
	.p2align	4
.LBB3_29:
	movq	(%rdi,%r8), %r9
	movq	%r9, (%rcx,%r8)
	addq	$8, %r8
	cmpq	%r8, %rdx
	jne	.LBB3_29
	cmpq	%rdx, %rbx
	je	.LBB3_37
	jmp	.LBB3_31
.LBB3_39:
	movq	%r14, %rax
	andq	$-128, %rax
	leaq	(%r8,%rsi), %rdx
	addq	$1888, %rdx
	xorl	%r8d, %r8d
	.p2align	4
.LBB3_40:
	vmovups	(%rdi,%r8), %ymm0
	vmovups	32(%rdi,%r8), %ymm1
	vmovups	64(%rdi,%r8), %ymm2
	vmovups	96(%rdi,%r8), %ymm3
	vmovups	%ymm0, -96(%rdx,%r8)
	vmovups	%ymm1, -64(%rdx,%r8)
	vmovups	%ymm2, -32(%rdx,%r8)
	vmovups	%ymm3, (%rdx,%r8)
	subq	$-128, %r8
	cmpq	%r8, %rax
	jne	.LBB3_40
	cmpq	%rax, %r14
	je	.LBB3_47
	testb	$120, %r14b
	je	.LBB3_45
.LBB3_43:
	movq	%rax, %rdx
	movq	%r14, %rax
	andq	$-8, %rax
	.p2align	4
.LBB3_44:
	movq	(%rdi,%rdx), %r8
	movq	%r8, (%rcx,%rdx)
	addq	$8, %rdx
	cmpq	%rdx, %rax
	jne	.LBB3_44
	jmp	.LBB3_46
.LBB3_88:
	cmpq	%rbx, %r14
	je	.LBB3_107
	leaq	(%rdi,%r14), %rdx
	leaq	1792(%rsi), %rbx
	movq	%rbx, %rax
	subq	%rdx, %rax
	cmpq	%r8, %rax
	jae	.LBB3_92
	cmpq	$8, %r8
	jb	.LBB3_91
	movq	%rsi, %rax
	subq	%rdx, %rax
	addq	$1792, %rax
	cmpq	$128, %rax
	jae	.LBB3_95
.LBB3_91:
	xorl	%eax, %eax
.LBB3_98:
	movq	%r8, %r9
	movq	%rax, %rcx
	andq	$7, %r9
	je	.LBB3_101
	movq	%rax, %rcx
	.p2align	4
.LBB3_100:
	movzbl	(%rdx,%rcx), %r10d
	movb	%r10b, (%rbx,%rcx)
	incq	%rcx
	decq	%r9
	jne	.LBB3_100
.LBB3_101:
	subq	%r8, %rax
	cmpq	$-8, %rax
	ja	.LBB3_104
	leaq	(%r14,%rdi), %rax
	addq	$7, %rax
	.p2align	4
.LBB3_103:
	movzbl	-7(%rax,%rcx), %edx
	movb	%dl, 1792(%rsi,%rcx)
	movzbl	-6(%rax,%rcx), %edx
	movb	%dl, 1793(%rsi,%rcx)
	movzbl	-5(%rax,%rcx), %edx
	movb	%dl, 1794(%rsi,%rcx)
	movzbl	-4(%rax,%rcx), %edx
	movb	%dl, 1795(%rsi,%rcx)
	movzbl	-3(%rax,%rcx), %edx
	movb	%dl, 1796(%rsi,%rcx)
	movzbl	-2(%rax,%rcx), %edx
	movb	%dl, 1797(%rsi,%rcx)
	movzbl	-1(%rax,%rcx), %edx
	movb	%dl, 1798(%rsi,%rcx)
	movzbl	(%rax,%rcx), %edx
	movb	%dl, 1799(%rsi,%rcx)
	addq	$8, %rcx
	cmpq	%rcx, %r8
	jne	.LBB3_103
	jmp	.LBB3_104
.LBB3_92:
	movq	%rbx, %rcx
	vzeroupper
	callq	memmove
.LBB3_104:
	movq	1856(%rsi), %rdi
	cmpq	$1025, %rdi
	setb	%al
	testl	$1023, %edi
	setne	%cl
	orb	%al, %cl
	jne	.LBB3_107
	shrq	$10, %rdi
	decq	%rdi
	vmovups	(%rbx), %ymm0
	vmovups	32(%rbx), %ymm1
	vmovups	%ymm1, 96(%rsp)
	vmovups	%ymm0, 64(%rsp)
	vmovups	32(%rsi), %xmm0
	vmovups	48(%rsi), %xmm1
	vmovaps	%xmm1, 160(%rsp)
	vmovaps	%xmm0, 176(%rsp)
	movq	%rdi, 32(%rsp)
	movl	$18, 48(%rsp)
	movl	$64, 40(%rsp)
	leaq	128(%rsp), %rbx
	leaq	176(%rsp), %rdx
	leaq	160(%rsp), %r8
.LBB3_106:
	leaq	64(%rsp), %r9
	movq	%rbx, %rcx
	vzeroupper
	callq	"keyed_blake3::compression::compress"
	leaq	64(%rsi), %rcx
	movq	$1, 32(%rsp)
	movq	%rsi, %rdx
	movq	%rdi, %r8
	movq	%rbx, %r9
	callq	"keyed_blake3::tree::add_subtree_value"
	vmovups	(%rsi), %ymm0
	vmovups	%ymm0, 32(%rsi)
.LBB3_107:
	addq	$424, %rsp
	popq	%rbx
	popq	%rbp
	popq	%rdi
	popq	%rsi
	popq	%r12
	popq	%r13
	popq	%r14
	popq	%r15
	vzeroupper
	retq
.LBB3_95:
	movl	%r8d, %eax
	andl	$120, %eax
	xorl	%ecx, %ecx
	.p2align	4
.LBB3_96:
	movq	(%rdx,%rcx), %r9
	movq	%r9, (%rbx,%rcx)
	addq	$8, %rcx
	cmpq	%rcx, %rax
	jne	.LBB3_96
	cmpq	%rax, %r8
	je	.LBB3_104
	jmp	.LBB3_98
.LBB3_45:
	movzbl	(%rdi,%rax), %edx
	movb	%dl, (%rcx,%rax)
	incq	%rax
.LBB3_46:
	cmpq	%rax, %r14
	jne	.LBB3_45
.LBB3_47:
	leaq	1792(%rsi), %rax
	shrq	$10, %r15
	movl	%ebp, %ecx
	andl	$15, %ecx
	cmpq	$15, %rcx
	jne	.LBB3_49
	vmovups	(%rax), %ymm0
	vmovups	32(%rax), %ymm1
	vmovups	%ymm1, 96(%rsp)
	vmovups	%ymm0, 64(%rsp)
	vmovups	32(%rsi), %xmm0
	vmovups	48(%rsi), %xmm1
	vmovaps	%xmm1, 256(%rsp)
	vmovaps	%xmm0, 272(%rsp)
	movq	%r15, 32(%rsp)
	movl	$18, 48(%rsp)
	movl	$64, 40(%rsp)
	leaq	128(%rsp), %r12
	leaq	272(%rsp), %rdx
	leaq	256(%rsp), %r8
	leaq	64(%rsp), %r9
	movq	%r12, %rcx
	vzeroupper
	callq	"keyed_blake3::compression::compress"
	leaq	64(%rsi), %rcx
	movq	$0, 32(%rsp)
	movq	%rsi, %rdx
	movq	%r15, %r8
	movq	%r12, %r9
	callq	"keyed_blake3::tree::add_subtree_value"
	vmovups	(%rsi), %ymm0
	jmp	.LBB3_50
.LBB3_49:
	xorl	%edx, %edx
	cmpq	$1, %rcx
	adcl	$16, %edx
	vmovups	(%rax), %ymm0
	vmovups	32(%rax), %ymm1
	vmovups	%ymm1, 96(%rsp)
	vmovups	%ymm0, 64(%rsp)
	vmovups	32(%rsi), %xmm0
	vmovups	48(%rsi), %xmm1
	vmovaps	%xmm1, 288(%rsp)
	vmovaps	%xmm0, 304(%rsp)
	movl	%edx, 48(%rsp)
	movq	%r15, 32(%rsp)
	movl	$64, 40(%rsp)
	leaq	128(%rsp), %rcx
	leaq	304(%rsp), %rdx
	leaq	288(%rsp), %r8
	leaq	64(%rsp), %r9
	vzeroupper
	callq	"keyed_blake3::compression::compress"
	vmovups	128(%rsp), %ymm0
.LBB3_50:
	vmovups	%ymm0, 32(%rsi)
	incq	%rbp
	movq	%rbx, %r8
	subq	%r14, %r8
	cmpq	$65, %r8
	jb	.LBB3_88
.LBB3_51:
	movabsq	$1152921504606846975, %r15
	movq	%rbx, 56(%rsp)
	jmp	.LBB3_55
	.p2align	4
.LBB3_52:
	xorl	%ecx, %ecx
	cmpq	$1, %rax
	adcl	$16, %ecx
	vmovups	(%r9), %ymm0
	vmovups	32(%r9), %ymm1
	vmovups	%ymm1, 96(%rsp)
	vmovups	%ymm0, 64(%rsp)
	vmovups	32(%rsi), %xmm0
	vmovups	48(%rsi), %xmm1
	vmovaps	%xmm1, 224(%rsp)
	vmovaps	%xmm0, 240(%rsp)
	movl	%ecx, 48(%rsp)
	movq	%r12, 32(%rsp)
	movl	$64, 40(%rsp)
	leaq	392(%rsp), %rcx
	leaq	240(%rsp), %rdx
	leaq	224(%rsp), %r8
	leaq	64(%rsp), %r9
	vzeroupper
	callq	"keyed_blake3::compression::compress"
	vmovups	392(%rsp), %ymm0
.LBB3_53:
	leaq	32(%rsi), %rax
	vmovups	%ymm0, (%rax)
	movl	$1, %r12d
.LBB3_54:
	addq	%r12, %rbp
	shlq	$6, %r12
	addq	%r12, %r14
	movq	%rbx, %r8
	subq	%r14, %r8
	cmpq	$64, %r8
	jbe	.LBB3_88
.LBB3_55:
	leaq	(%rdi,%r14), %r9
	movl	%ebp, %eax
	andl	$15, %eax
	cmpq	$2048, %r8
	jb	.LBB3_68
	testq	%rax, %rax
	jne	.LBB3_68
	movq	%r8, %r12
	shrq	$10, %r12
	movq	%rbp, %rdx
	shrq	$4, %rdx
	cmpq	$9216, %r8
	jb	.LBB3_70
	movq	%r8, %r10
	shrq	$14, %r10
	movl	$1, %ecx
.LBB3_59:
	leaq	(%rcx,%rcx), %rax
	cmpq	%r10, %rax
	ja	.LBB3_81
	leaq	(%rax,%r15), %r11
	testq	%rdx, %r11
	jne	.LBB3_81
	leaq	(,%rcx,4), %r13
	cmpq	%r10, %r13
	ja	.LBB3_84
	leaq	(%r15,%r13), %r11
	testq	%rdx, %r11
	jne	.LBB3_84
	leaq	(,%rcx,8), %r11
	cmpq	%r10, %r11
	ja	.LBB3_82
	leaq	(%r11,%r15), %rbx
	movq	%r13, %rax
	testq	%rdx, %rbx
	jne	.LBB3_84
	shlq	$4, %rcx
	cmpq	%r10, %rcx
	ja	.LBB3_83
	testq	%rcx, %rcx
	je	.LBB3_108
	leaq	(%rcx,%r15), %rbx
	movq	%r11, %rax
	testq	%rdx, %rbx
	je	.LBB3_59
	jmp	.LBB3_84
	.p2align	4
.LBB3_68:
	movq	%rbp, %r12
	shrq	$4, %r12
	cmpl	$15, %eax
	jne	.LBB3_52
	vmovups	(%r9), %ymm0
	vmovups	32(%r9), %ymm1
	vmovups	%ymm1, 96(%rsp)
	vmovups	%ymm0, 64(%rsp)
	vmovups	32(%rsi), %xmm0
	vmovups	48(%rsi), %xmm1
	vmovaps	%xmm1, 192(%rsp)
	vmovaps	%xmm0, 208(%rsp)
	movq	%r12, 32(%rsp)
	movl	$18, 48(%rsp)
	movl	$64, 40(%rsp)
	leaq	128(%rsp), %r13
	leaq	208(%rsp), %rdx
	leaq	192(%rsp), %r8
	leaq	64(%rsp), %r9
	movq	%r13, %rcx
	vzeroupper
	callq	"keyed_blake3::compression::compress"
	movq	$0, 32(%rsp)
	leaq	64(%rsi), %rcx
	movq	%rsi, %rdx
	movq	%r12, %r8
	movq	%r13, %r9
	movq	56(%rsp), %rbx
	callq	"keyed_blake3::tree::add_subtree_value"
	vmovups	(%rsi), %ymm0
	jmp	.LBB3_53
	.p2align	4
.LBB3_70:
	movl	%r8d, %eax
	andl	$15360, %eax
	cmpq	$5120, %r8
	jb	.LBB3_73
	cmpq	%r8, %rax
	jne	.LBB3_75
	movq	%r8, 32(%rsp)
	movq	$1, 40(%rsp)
	jmp	.LBB3_76
.LBB3_73:
	cmpq	%r8, %rax
	jne	.LBB3_77
	movq	%r8, 32(%rsp)
	movq	$1, 40(%rsp)
	jmp	.LBB3_78
.LBB3_81:
	movq	%rcx, %rax
	jmp	.LBB3_84
.LBB3_75:
	movq	%rax, 32(%rsp)
	movq	$0, 40(%rsp)
.LBB3_76:
	movq	%rsi, %rcx
	movq	%r12, %r8
	vzeroupper
	callq	"keyed_blake3::tree::Tree::absorb_subtrees::<#a9687390e0dd665c>"
	jmp	.LBB3_79
.LBB3_77:
	movq	%rax, 32(%rsp)
	movq	$0, 40(%rsp)
.LBB3_78:
	movq	%rsi, %rcx
	movq	%r12, %r8
	vzeroupper
	callq	"keyed_blake3::tree::Tree::absorb_subtrees::<#8b36ca032ac25711>"
.LBB3_79:
	shlq	$4, %r12
	jmp	.LBB3_54
.LBB3_82:
	movq	%r13, %rax
	jmp	.LBB3_84
.LBB3_83:
	movq	%r11, %rax
	.p2align	4
.LBB3_84:
	cmpq	$16, %r12
	movl	$16, %r10d
	cmovbq	%r12, %r10
	movq	%r10, %r12
	imulq	%rax, %r12
	shlq	$10, %r12
	cmpq	%r8, %r12
	jne	.LBB3_86
	movq	%r8, 40(%rsp)
	movq	%r9, 32(%rsp)
	movq	$1, 48(%rsp)
	jmp	.LBB3_87
.LBB3_86:
	movq	%r12, 40(%rsp)
	movq	%r9, 32(%rsp)
	movq	$0, 48(%rsp)
.LBB3_87:
	movq	%rsi, %rcx
	movq	%rax, %r8
	movq	%r10, %r9
	vzeroupper
	callq	"keyed_blake3::tree::Tree::absorb_subtrees::<#2e65a0a13cda87df>"
	shrq	$6, %r12
	movq	56(%rsp), %rbx
	jmp	.LBB3_54
.LBB3_108:
	ud2
	.seh_endproc

	.section	.text
	.p2align	4
	.def	"keyed_blake3::tree::add_subtree_value";
	.scl	3;
	.type	32;
	.endef
"keyed_blake3::tree::add_subtree_value":
.seh_proc "keyed_blake3::tree::add_subtree_value"
	pushq	%r15
	.seh_pushreg %r15
	pushq	%r14
	.seh_pushreg %r14
	pushq	%r13
	.seh_pushreg %r13
	pushq	%r12
	.seh_pushreg %r12
	pushq	%rsi
	.seh_pushreg %rsi
	pushq	%rdi
	.seh_pushreg %rdi
	pushq	%rbx
	.seh_pushreg %rbx
	subq	$256, %rsp
	.seh_stackalloc 256
	vmovaps	%xmm7, 240(%rsp)
	.seh_savexmm %xmm7, 240
	vmovaps	%xmm6, 224(%rsp)
	.seh_savexmm %xmm6, 224
	.seh_endprologue
	movq	%r8, %rdi
	movq	%rcx, %rsi
	movq	352(%rsp), %r14
	vmovups	(%r9), %ymm0
	vmovups	%ymm0, 96(%rsp)
	xorl	%ebx, %ebx
	popcntq	%r8, %rbx
	cmpq	%rbx, %r14
	setb	%al
	testb	%dil, %al
	je	.LBB4_1
	leaq	192(%rsp), %r15
	vmovups	(%rdx), %xmm6
	vmovups	16(%rdx), %xmm7
	leaq	-1(%rbx), %r12
	shll	$5, %ebx
	leaq	-32(%rsi), %r13
	.p2align	4
.LBB4_3:
	vmovups	(%r13,%rbx), %ymm0
	vmovups	%ymm0, 160(%rsp)
	vmovups	96(%rsp), %ymm0
	vmovups	%ymm0, (%r15)
	vmovaps	%xmm7, 64(%rsp)
	vmovaps	%xmm6, 80(%rsp)
	movl	$20, 48(%rsp)
	movl	$64, 40(%rsp)
	movq	$0, 32(%rsp)
	leaq	128(%rsp), %rcx
	leaq	80(%rsp), %rdx
	leaq	64(%rsp), %r8
	leaq	160(%rsp), %r9
	vzeroupper
	callq	"keyed_blake3::compression::compress"
	vmovups	128(%rsp), %ymm0
	vmovups	%ymm0, 96(%rsp)
	addq	$-32, %rbx
	cmpq	%r12, %r14
	jae	.LBB4_5
	movq	%rdi, %rax
	shrq	%rax
	andl	$2, %edi
	decq	%r12
	testq	%rdi, %rdi
	movq	%rax, %rdi
	jne	.LBB4_3
	jmp	.LBB4_5
.LBB4_1:
	shll	$5, %ebx
.LBB4_5:
	vmovups	96(%rsp), %ymm0
	vmovups	%ymm0, (%rsi,%rbx)
	vmovaps	224(%rsp), %xmm6
	vmovaps	240(%rsp), %xmm7
	addq	$256, %rsp
	popq	%rbx
	popq	%rdi
	popq	%rsi
	popq	%r12
	popq	%r13
	popq	%r14
	popq	%r15
	vzeroupper
	retq
	.seh_endproc

	.section	.rdata,"dr"
	.p2align	5, 0x0
.LCPI5_0:
	.quad	-9223372036854775808
	.zero	24
.LCPI5_1:
	.quad	-9223372036854775807
	.quad	-9223372036854775806
	.quad	-9223372036854775805
	.quad	-9223372036854775804
.LCPI5_2:
	.quad	2
	.quad	3
	.quad	4
	.quad	5
.LCPI5_3:
	.quad	-9223372036854775803
	.quad	-9223372036854775802
	.quad	-9223372036854775801
	.quad	-9223372036854775800
.LCPI5_4:
	.quad	6
	.quad	7
	.quad	8
	.quad	9
.LCPI5_5:
	.quad	-9223372036854775799
	.quad	-9223372036854775798
	.quad	-9223372036854775797
	.quad	-9223372036854775796
.LCPI5_6:
	.quad	10
	.quad	11
	.quad	12
	.quad	13
.LCPI5_7:
	.zero	4
	.zero	4
	.long	64
	.long	18
	.zero	4
	.zero	4
	.long	64
	.long	18
.LCPI5_8:
	.long	64
.LCPI5_9:
	.long	20
	.zero	24
.LCPI5_10:
	.long	0
	.long	0
	.long	64
	.long	20
	.long	0
	.long	0
	.long	64
	.long	20
.LCPI5_11:
	.long	0
	.long	0
	.long	64
	.long	20
	.section	.text
	.p2align	4
	.def	"keyed_blake3::tree::Tree::absorb_subtrees::<#2e65a0a13cda87df>";
	.scl	3;
	.type	32;
	.endef
"keyed_blake3::tree::Tree::absorb_subtrees::<#2e65a0a13cda87df>":
.seh_proc "keyed_blake3::tree::Tree::absorb_subtrees::<#2e65a0a13cda87df>"
	pushq	%rbp
	.seh_pushreg %rbp
	pushq	%r15
	.seh_pushreg %r15
	pushq	%r14
	.seh_pushreg %r14
	pushq	%r13
	.seh_pushreg %r13
	pushq	%r12
	.seh_pushreg %r12
	pushq	%rsi
	.seh_pushreg %rsi
	pushq	%rdi
	.seh_pushreg %rdi
	pushq	%rbx
	.seh_pushreg %rbx
	movl	$4536, %eax
	callq	yurewha_stack_probe
	subq	%rax, %rsp
	.seh_stackalloc 4536
	leaq	128(%rsp), %rbp
	.seh_setframe %rbp, 128
	vmovaps	%xmm15, 4384(%rbp)
	.seh_savexmm %xmm15, 4512
	vmovaps	%xmm14, 4368(%rbp)
	.seh_savexmm %xmm14, 4496
	vmovaps	%xmm13, 4352(%rbp)
	.seh_savexmm %xmm13, 4480
	vmovaps	%xmm12, 4336(%rbp)
	.seh_savexmm %xmm12, 4464
	vmovaps	%xmm11, 4320(%rbp)
	.seh_savexmm %xmm11, 4448
	vmovaps	%xmm10, 4304(%rbp)
	.seh_savexmm %xmm10, 4432
	vmovaps	%xmm9, 4288(%rbp)
	.seh_savexmm %xmm9, 4416
	vmovdqa	%xmm8, 4272(%rbp)
	.seh_savexmm %xmm8, 4400
	vmovdqa	%xmm7, 4256(%rbp)
	.seh_savexmm %xmm7, 4384
	vmovdqa	%xmm6, 4240(%rbp)
	.seh_savexmm %xmm6, 4368
	.seh_endprologue
	andq	$-64, %rsp
	movq	%r9, %rdi
	movq	%r8, %rbx
	movq	%rdx, %r14
	movq	%rcx, %rsi
	movq	4520(%rbp), %rax
	vxorpd	%xmm0, %xmm0, %xmm0
	vmovapd	%ymm0, 1312(%rsp)
	vmovapd	%ymm0, 1280(%rsp)
	vmovapd	%ymm0, 1248(%rsp)
	vmovapd	%ymm0, 1216(%rsp)
	vmovapd	%ymm0, 1184(%rsp)
	vmovapd	%ymm0, 1152(%rsp)
	vmovapd	%ymm0, 1120(%rsp)
	vmovapd	%ymm0, 1088(%rsp)
	vmovapd	%ymm0, 1056(%rsp)
	vmovapd	%ymm0, 1024(%rsp)
	vmovapd	%ymm0, 992(%rsp)
	vmovapd	%ymm0, 960(%rsp)
	vmovapd	%ymm0, 928(%rsp)
	vmovapd	%ymm0, 896(%rsp)
	vmovapd	%ymm0, 864(%rsp)
	vmovapd	%ymm0, 832(%rsp)
	vmovapd	%ymm0, 128(%rsp)
	vmovapd	%ymm0, 2432(%rsp)
	vmovapd	%ymm0, 2464(%rsp)
	vmovapd	%ymm0, 2496(%rsp)
	vmovapd	%ymm0, 2528(%rsp)
	vmovapd	%ymm0, 2560(%rsp)
	vmovapd	%ymm0, 2592(%rsp)
	vmovapd	%ymm0, 2624(%rsp)
	vmovapd	%ymm0, 2656(%rsp)
	vmovapd	%ymm0, 2688(%rsp)
	vmovapd	%ymm0, 2720(%rsp)
	vmovapd	%ymm0, 2752(%rsp)
	vmovapd	%ymm0, 2784(%rsp)
	vmovapd	%ymm0, 2816(%rsp)
	vmovapd	%ymm0, 2848(%rsp)
	vmovapd	%ymm0, 2880(%rsp)
	movq	4512(%rbp), %r8
	vmovapd	%ymm0, 2912(%rsp)
	cmpq	$2048, %rax
	jne	.LBB5_4
	movq	%rbx, 184(%rsp)
	leaq	1024(%r8), %r13
	leaq	1(%r14), %r12
	vbroadcastf128	(%rsi), %ymm0
	movq	%rsi, 1856(%rsp)
	vbroadcastf128	16(%rsi), %ymm1
	vmovq	%r14, %xmm2
	movl	$64, %eax
	vmovdqa	%ymm2, 3488(%rsp)
	vpinsrd	$2, %eax, %xmm2, %xmm7
	vmovq	%r12, %xmm6
	vpinsrd	$2, %eax, %xmm6, %xmm8
	xorl	%ebx, %ebx
	.p2align	4
.LBB5_2:
	cmpq	$1, %rbx
	movl	$0, %eax
	adcl	$16, %eax
	vmovups	-1024(%r13,%rbx), %ymm2
	vmovups	-992(%r13,%rbx), %ymm3
	vmovaps	%ymm2, 1920(%rsp)
	vmovaps	%ymm3, 1952(%rsp)
	movq	%r14, 1984(%rsp)
	movl	$64, 1992(%rsp)
	movl	%eax, 1996(%rsp)
	vmovups	(%r13,%rbx), %ymm2
	vmovups	32(%r13,%rbx), %ymm3
	vmovaps	%ymm2, 192(%rsp)
	vmovaps	%ymm3, 224(%rsp)
	movq	%r12, 256(%rsp)
	movl	$64, 264(%rsp)
	movl	%eax, 268(%rsp)
	vpinsrd	$3, %eax, %xmm7, %xmm2
	vpinsrd	$3, %eax, %xmm8, %xmm3
	vmovdqa	%xmm3, 3472(%rsp)
	vmovdqa	%xmm2, 3456(%rsp)
	vmovaps	%ymm1, 3712(%rsp)
	vmovaps	%ymm0, 3744(%rsp)
	leaq	192(%rsp), %r15
	movq	%r15, 40(%rsp)
	leaq	1920(%rsp), %rsi
	movq	%rsi, 32(%rsp)
	leaq	64(%rsp), %rcx
	leaq	3744(%rsp), %rdx
	leaq	3712(%rsp), %r8
	leaq	3456(%rsp), %r9
	vzeroupper
	callq	"keyed_blake3::compression::two::compress_two_from"
	vmovups	64(%rsp), %ymm0
	vmovups	96(%rsp), %ymm1
	addq	$64, %rbx
	cmpq	$960, %rbx
	jne	.LBB5_2
	movq	4512(%rbp), %rcx
	vmovups	960(%rcx), %ymm2
	vmovups	992(%rcx), %ymm3
	vmovaps	%ymm2, 1920(%rsp)
	vmovaps	%ymm3, 1952(%rsp)
	movq	%r14, 1984(%rsp)
	movabsq	$77309411392, %rax
	movq	%rax, 1992(%rsp)
	vmovups	1984(%rcx), %ymm2
	vmovups	2016(%rcx), %ymm3
	vmovaps	%ymm2, 192(%rsp)
	vmovaps	%ymm3, 224(%rsp)
	movq	%r12, 256(%rsp)
	movq	%rax, 264(%rsp)
	vmovdqa	3488(%rsp), %ymm2
	vinserti128	$1, %xmm6, %ymm2, %ymm2
	vpblendd	$204, .LCPI5_7(%rip), %ymm2, %ymm2
	vmovaps	%ymm1, 3648(%rsp)
	vmovaps	%ymm0, 3680(%rsp)
	vmovdqa	%ymm2, 3616(%rsp)
	movq	%r15, 40(%rsp)
	movq	%rsi, 32(%rsp)
	leaq	64(%rsp), %rcx
	leaq	3680(%rsp), %rdx
	leaq	3648(%rsp), %r8
	leaq	3616(%rsp), %r9
	vzeroupper
	callq	"keyed_blake3::compression::two::compress_two_from"
	vmovdqu	64(%rsp), %xmm0
	vmovdqu	80(%rsp), %xmm1
	vpunpckldq	%xmm1, %xmm0, %xmm2
	vmovq	%xmm2, 2432(%rsp)
	vpxor	%xmm2, %xmm2, %xmm2
	vmovdqu	%ymm2, 2440(%rsp)
	vmovdqu	%ymm2, 2464(%rsp)
	vpshufd	$85, %xmm0, %xmm3
	vpblendd	$2, %xmm1, %xmm3, %xmm3
	vmovq	%xmm3, 2496(%rsp)
	vmovdqu	%ymm2, 2504(%rsp)
	vmovdqu	%ymm2, 2528(%rsp)
	vpunpckhdq	%xmm1, %xmm0, %xmm0
	vmovq	%xmm0, 2560(%rsp)
	vmovdqu	%ymm2, 2568(%rsp)
	vmovdqu	%ymm2, 2592(%rsp)
	vmovdqu	96(%rsp), %xmm1
	vpextrq	$1, %xmm0, 2624(%rsp)
	vmovdqu	%ymm2, 2632(%rsp)
	vmovdqu	%ymm2, 2656(%rsp)
	vmovdqu	112(%rsp), %xmm0
	vpunpckldq	%xmm0, %xmm1, %xmm3
	vmovq	%xmm3, 2688(%rsp)
	vmovdqu	%ymm2, 2720(%rsp)
	vmovdqu	%ymm2, 2696(%rsp)
	vpshufd	$85, %xmm1, %xmm3
	vpblendd	$2, %xmm0, %xmm3, %xmm3
	vmovq	%xmm3, 2752(%rsp)
	vmovdqu	%ymm2, 2784(%rsp)
	vmovdqu	%ymm2, 2760(%rsp)
	vpunpckhdq	%xmm0, %xmm1, %xmm0
	vmovq	%xmm0, 2816(%rsp)
	vmovdqu	%ymm2, 2848(%rsp)
	vmovdqu	%ymm2, 2824(%rsp)
	vpextrq	$1, %xmm0, 2880(%rsp)
	vmovdqu	%ymm2, 2912(%rsp)
	vmovdqu	%ymm2, 2888(%rsp)
	leaq	3840(%rsp), %rcx
	leaq	2432(%rsp), %rdx
	movl	$512, %r8d
	vzeroupper
	callq	memcpy
	movq	1856(%rsp), %rsi
	movq	184(%rsp), %rbx
	jmp	.LBB5_8
.LBB5_4:
	cmpq	$16384, %rax
	ja	.LBB5_6
	shrq	$10, %rax
	xorl	%ecx, %ecx
	decq	%rax
	setne	%cl
	cmpq	$14, %rax
	movl	$14, %edx
	cmovbq	%rax, %rdx
	movl	$15, %r9d
	cmovbeq	%rax, %r9
	movq	$0, 1920(%rsp)
	vmovq	%rax, %xmm0
	vpbroadcastq	%xmm0, %ymm0
	vpbroadcastq	.LCPI5_0(%rip), %ymm1
	vpxor	%ymm1, %ymm0, %ymm1
	vpcmpgtq	.LCPI5_1(%rip), %ymm1, %ymm2
	movq	%rcx, 1928(%rsp)
	vblendvpd	%ymm2, .LCPI5_2(%rip), %ymm0, %ymm2
	vmovupd	%ymm2, 1936(%rsp)
	vpcmpgtq	.LCPI5_3(%rip), %ymm1, %ymm2
	vblendvpd	%ymm2, .LCPI5_4(%rip), %ymm0, %ymm2
	vmovupd	%ymm2, 1968(%rsp)
	vpcmpgtq	.LCPI5_5(%rip), %ymm1, %ymm1
	vblendvpd	%ymm1, .LCPI5_6(%rip), %ymm0, %ymm0
	vmovupd	%ymm0, 2000(%rsp)
	movq	%rdx, 2032(%rsp)
	movq	%r9, 2040(%rsp)
	movq	%r14, 32(%rsp)
	leaq	2432(%rsp), %r12
	leaq	1920(%rsp), %r9
	movq	%r12, %rcx
	movq	%rsi, %rdx
	vzeroupper
	callq	"keyed_blake3::chunks::chunk_values::<#2e65a0a13cda87df>"
	jmp	.LBB5_7
.LBB5_6:
	shrq	$14, %rax
	movq	%r14, 40(%rsp)
	movq	%rax, 32(%rsp)
	leaq	2432(%rsp), %r12
	movq	%r12, %rcx
	movq	%rsi, %rdx
	xorl	%r9d, %r9d
	vzeroupper
	callq	"keyed_blake3::subtrees::neighbour_values::<#2e65a0a13cda87df>"
.LBB5_7:
	leaq	3840(%rsp), %rcx
	movl	$512, %r8d
	movq	%r12, %rdx
	callq	memcpy
.LBB5_8:
	leaq	832(%rsp), %rcx
	leaq	3840(%rsp), %rdx
	movl	$512, %r8d
	callq	memcpy
	testq	%rbx, %rbx
	je	.LBB5_29
	movq	%r14, %rax
	orq	%rbx, %rax
	shrq	$32, %rax
	je	.LBB5_10
	movq	%r14, %rax
	xorl	%edx, %edx
	divq	%rbx
	movq	%rax, %rbx
	jmp	.LBB5_12
.LBB5_10:
	movl	%r14d, %eax
	xorl	%edx, %edx
	divl	%ebx
	movl	%eax, %ebx
.LBB5_12:
	vpxor	%xmm0, %xmm0, %xmm0
	vmovdqa	%ymm0, 768(%rsp)
	vmovdqu	%ymm0, 784(%rsp)
	vmovdqa	%ymm0, 704(%rsp)
	vmovdqu	%ymm0, 720(%rsp)
	vmovdqa	%ymm0, 640(%rsp)
	vmovdqu	%ymm0, 656(%rsp)
	vmovdqa	%ymm0, 576(%rsp)
	vmovdqu	%ymm0, 592(%rsp)
	vmovdqa	%ymm0, 512(%rsp)
	vmovdqu	%ymm0, 528(%rsp)
	vmovdqa	%ymm0, 448(%rsp)
	vmovdqu	%ymm0, 464(%rsp)
	vmovdqa	%ymm0, 384(%rsp)
	vmovdqu	%ymm0, 400(%rsp)
	vmovdqu	%ymm0, 336(%rsp)
	vmovdqa	%ymm0, 320(%rsp)
	cmpq	$3, %rdi
	jb	.LBB5_13
	movl	%ebx, %eax
	orl	%edi, %eax
	andl	$1, %eax
	jne	.LBB5_13
	leaq	2064(%rsp), %r15
	leaq	976(%rsp), %r12
	.p2align	4
.LBB5_16:
	vpxor	%xmm0, %xmm0, %xmm0
	vmovdqa	%ymm0, 1792(%rsp)
	vmovdqu	%ymm0, 1808(%rsp)
	vmovdqa	%ymm0, 1728(%rsp)
	vmovdqu	%ymm0, 1744(%rsp)
	vmovdqa	%ymm0, 1664(%rsp)
	vmovdqu	%ymm0, 1680(%rsp)
	vmovdqa	%ymm0, 1600(%rsp)
	vmovdqu	%ymm0, 1616(%rsp)
	vmovdqa	%ymm0, 1536(%rsp)
	vmovdqu	%ymm0, 1552(%rsp)
	vmovdqa	%ymm0, 1472(%rsp)
	vmovdqu	%ymm0, 1488(%rsp)
	vmovdqu	%ymm0, 1424(%rsp)
	vmovdqa	%ymm0, 1408(%rsp)
	vmovdqu	%ymm0, 1360(%rsp)
	vmovdqa	%ymm0, 1344(%rsp)
	vmovdqa	%ymm0, 288(%rsp)
	vmovdqa	%ymm0, 256(%rsp)
	vmovdqa	%ymm0, 224(%rsp)
	vmovdqa	%ymm0, 192(%rsp)
	cmpq	$4, %rdi
	ja	.LBB5_18
	movl	832(%rsp), %eax
	movl	%eax, 2432(%rsp)
	movl	896(%rsp), %eax
	movl	%eax, 2436(%rsp)
	movl	960(%rsp), %eax
	movl	%eax, 2440(%rsp)
	movl	1024(%rsp), %eax
	movl	%eax, 2444(%rsp)
	movl	1088(%rsp), %eax
	movl	%eax, 2448(%rsp)
	movl	1152(%rsp), %eax
	movl	%eax, 2452(%rsp)
	movl	1216(%rsp), %eax
	movl	%eax, 2456(%rsp)
	movl	1280(%rsp), %eax
	movl	%eax, 2460(%rsp)
	movl	836(%rsp), %eax
	movl	%eax, 2464(%rsp)
	movl	900(%rsp), %eax
	movl	%eax, 2468(%rsp)
	movl	964(%rsp), %eax
	movl	%eax, 2472(%rsp)
	movl	1028(%rsp), %eax
	movl	%eax, 2476(%rsp)
	movl	1092(%rsp), %eax
	movl	%eax, 2480(%rsp)
	movl	1156(%rsp), %eax
	movl	%eax, 2484(%rsp)
	movl	1220(%rsp), %eax
	movl	%eax, 2488(%rsp)
	movl	1284(%rsp), %eax
	movl	%eax, 2492(%rsp)
	movq	$0, 2496(%rsp)
	movl	840(%rsp), %eax
	movl	%eax, 1920(%rsp)
	movl	904(%rsp), %eax
	movl	%eax, 1924(%rsp)
	movl	968(%rsp), %eax
	movl	%eax, 1928(%rsp)
	movl	1032(%rsp), %eax
	movl	%eax, 1932(%rsp)
	movl	1096(%rsp), %eax
	movl	%eax, 1936(%rsp)
	movl	1160(%rsp), %eax
	movl	%eax, 1940(%rsp)
	movl	1224(%rsp), %eax
	movl	%eax, 1944(%rsp)
	movl	1288(%rsp), %eax
	movl	%eax, 1948(%rsp)
	movl	844(%rsp), %eax
	movl	%eax, 1952(%rsp)
	movl	908(%rsp), %eax
	movl	%eax, 1956(%rsp)
	movl	972(%rsp), %eax
	movl	%eax, 1960(%rsp)
	movl	1036(%rsp), %eax
	movl	%eax, 1964(%rsp)
	movl	1100(%rsp), %eax
	movl	%eax, 1968(%rsp)
	movl	1164(%rsp), %eax
	movl	%eax, 1972(%rsp)
	movl	1228(%rsp), %eax
	movl	%eax, 1976(%rsp)
	movl	1292(%rsp), %eax
	movl	%eax, 1980(%rsp)
	movabsq	$85899345984, %rax
	movq	%rax, 2504(%rsp)
	movq	$0, 1984(%rsp)
	movq	%rax, 1992(%rsp)
	vbroadcastf128	(%rsi), %ymm0
	vbroadcastf128	16(%rsi), %ymm1
	vmovaps	%ymm1, 3552(%rsp)
	vmovaps	%ymm0, 3584(%rsp)
	vbroadcastf128	.LCPI5_11(%rip), %ymm0
	vmovaps	%ymm0, 3520(%rsp)
	leaq	1920(%rsp), %rax
	movq	%rax, 40(%rsp)
	leaq	2432(%rsp), %rax
	movq	%rax, 32(%rsp)
	leaq	64(%rsp), %rcx
	leaq	3584(%rsp), %rdx
	leaq	3552(%rsp), %r8
	leaq	3520(%rsp), %r9
	vzeroupper
	callq	"keyed_blake3::compression::two::compress_two_from"
	vmovdqa	64(%rsp), %xmm0
	vmovdqu	68(%rsp), %xmm1
	vmovdqu	72(%rsp), %xmm2
	vmovdqu	76(%rsp), %xmm3
	vmovdqa	96(%rsp), %xmm4
	vmovdqu	100(%rsp), %xmm6
	vmovdqu	104(%rsp), %xmm8
	vmovdqu	108(%rsp), %xmm9
	vpinsrd	$1, 80(%rsp), %xmm0, %xmm5
	vpinsrd	$1, 84(%rsp), %xmm1, %xmm7
	vpinsrd	$1, 88(%rsp), %xmm2, %xmm0
	vpinsrd	$1, 92(%rsp), %xmm3, %xmm1
	vpinsrd	$1, 112(%rsp), %xmm4, %xmm2
	vpinsrd	$1, 116(%rsp), %xmm6, %xmm3
	vpinsrd	$1, 120(%rsp), %xmm8, %xmm4
	vpinsrd	$1, 124(%rsp), %xmm9, %xmm6
	vpxor	%xmm8, %xmm8, %xmm8
	vmovdqu	%ymm8, 784(%rsp)
	vmovdqa	%ymm8, 768(%rsp)
	vmovdqu	%ymm8, 720(%rsp)
	vmovdqa	%ymm8, 704(%rsp)
	vmovdqu	%ymm8, 656(%rsp)
	vmovdqa	%ymm8, 640(%rsp)
	vmovdqu	%ymm8, 592(%rsp)
	vmovdqa	%ymm8, 576(%rsp)
	vmovdqu	%ymm8, 528(%rsp)
	vmovdqa	%ymm8, 512(%rsp)
	vmovdqu	%ymm8, 464(%rsp)
	vmovdqa	%ymm8, 448(%rsp)
	vmovdqu	%ymm8, 400(%rsp)
	vmovdqa	%ymm8, 384(%rsp)
	vmovdqu	%ymm8, 336(%rsp)
	vmovdqa	%ymm8, 320(%rsp)
	xorl	%eax, %eax
	xorl	%r11d, %r11d
	xorl	%ecx, %ecx
	xorl	%edx, %edx
	xorl	%r8d, %r8d
	xorl	%r9d, %r9d
	xorl	%r10d, %r10d
	xorl	%r14d, %r14d
	jmp	.LBB5_22
	.p2align	4
.LBB5_18:
	cmpq	$8, %rdi
	ja	.LBB5_20
	vmovups	(%rsi), %xmm0
	vmovups	16(%rsi), %xmm1
	vmovaps	%xmm1, 1888(%rsp)
	vmovaps	%xmm0, 1904(%rsp)
	leaq	192(%rsp), %rcx
	leaq	1904(%rsp), %rdx
	leaq	1888(%rsp), %r8
	leaq	832(%rsp), %r9
	vzeroupper
	callq	"keyed_blake3::subtrees::four_parent_values::<#2e65a0a13cda87df>"
	vmovq	224(%rsp), %xmm0
	movq	200(%rsp), %rax
	movq	232(%rsp), %rcx
	vmovq	240(%rsp), %xmm1
	movq	248(%rsp), %rdx
	vmovq	256(%rsp), %xmm2
	movq	264(%rsp), %r8
	vmovq	272(%rsp), %xmm3
	movq	280(%rsp), %r9
	vmovq	288(%rsp), %xmm4
	movq	296(%rsp), %r10
	vmovq	304(%rsp), %xmm6
	vpxor	%xmm8, %xmm8, %xmm8
	vmovdqa	%ymm8, 1792(%rsp)
	vmovdqu	%ymm8, 1808(%rsp)
	movq	312(%rsp), %r14
	vmovq	192(%rsp), %xmm5
	vmovdqa	%ymm8, 1728(%rsp)
	vmovdqu	%ymm8, 1744(%rsp)
	vmovq	208(%rsp), %xmm7
	movq	216(%rsp), %r11
	vmovdqa	%ymm8, 1664(%rsp)
	vmovdqu	%ymm8, 1680(%rsp)
	vmovdqa	%ymm8, 1600(%rsp)
	vmovdqu	%ymm8, 1616(%rsp)
	vmovdqa	%ymm8, 1536(%rsp)
	vmovdqu	%ymm8, 1552(%rsp)
	vmovdqa	%ymm8, 1472(%rsp)
	vmovdqu	%ymm8, 1488(%rsp)
	vmovdqa	%ymm8, 1408(%rsp)
	vmovdqu	%ymm8, 1424(%rsp)
	vmovdqa	%ymm8, 1344(%rsp)
	vmovdqu	%ymm8, 1360(%rsp)
	vmovdqu	%ymm8, 784(%rsp)
	vmovdqa	%ymm8, 768(%rsp)
	vmovdqu	%ymm8, 720(%rsp)
	vmovdqa	%ymm8, 704(%rsp)
	vmovdqu	%ymm8, 656(%rsp)
	vmovdqa	%ymm8, 640(%rsp)
	vmovdqu	%ymm8, 592(%rsp)
	vmovdqa	%ymm8, 576(%rsp)
	vmovdqu	%ymm8, 528(%rsp)
	vmovdqa	%ymm8, 512(%rsp)
	vmovdqu	%ymm8, 464(%rsp)
	vmovdqa	%ymm8, 448(%rsp)
	vmovdqu	%ymm8, 400(%rsp)
	vmovdqa	%ymm8, 384(%rsp)
	vmovdqu	%ymm8, 336(%rsp)
	jmp	.LBB5_21
	.p2align	4
.LBB5_20:
	vmovaps	832(%rsp), %ymm1
	vmovaps	864(%rsp), %ymm3
	vmovaps	896(%rsp), %ymm0
	vmovaps	%ymm0, 1856(%rsp)
	vmovaps	928(%rsp), %ymm2
	vshufps	$136, %ymm3, %ymm1, %ymm4
	vpermpd	$216, %ymm4, %ymm10
	vshufps	$136, %ymm2, %ymm0, %ymm4
	vpermpd	$216, %ymm4, %ymm11
	vmovaps	992(%rsp), %ymm4
	vmovaps	960(%rsp), %ymm5
	vshufps	$136, %ymm4, %ymm5, %ymm6
	vpermpd	$216, %ymm6, %ymm13
	vmovaps	1056(%rsp), %ymm6
	vmovaps	1024(%rsp), %ymm7
	vshufps	$136, %ymm6, %ymm7, %ymm8
	vpermpd	$216, %ymm8, %ymm14
	vmovaps	1120(%rsp), %ymm8
	vmovaps	1088(%rsp), %ymm9
	vshufps	$136, %ymm8, %ymm9, %ymm12
	vpermpd	$216, %ymm12, %ymm15
	vmovups	%ymm10, 2464(%rsp)
	vmovups	%ymm10, 2432(%rsp)
	vmovaps	1184(%rsp), %ymm10
	vmovaps	1152(%rsp), %ymm12
	vmovups	%ymm11, 2528(%rsp)
	vmovups	%ymm11, 2496(%rsp)
	vshufps	$136, %ymm10, %ymm12, %ymm11
	vpermpd	$216, %ymm11, %ymm0
	vmovups	%ymm13, 2592(%rsp)
	vmovups	%ymm13, 2560(%rsp)
	vmovups	%ymm14, 2656(%rsp)
	vmovups	%ymm14, 2624(%rsp)
	vmovaps	1248(%rsp), %ymm11
	vmovaps	1216(%rsp), %ymm13
	vmovups	%ymm15, 2720(%rsp)
	vmovups	%ymm15, 2688(%rsp)
	vshufps	$136, %ymm11, %ymm13, %ymm14
	vpermpd	$216, %ymm14, %ymm14
	vmovups	%ymm0, 2784(%rsp)
	vmovups	%ymm0, 2752(%rsp)
	vmovups	%ymm14, 2848(%rsp)
	vmovups	%ymm14, 2816(%rsp)
	vmovaps	1312(%rsp), %ymm14
	vmovaps	1280(%rsp), %ymm0
	vshufps	$136, %ymm14, %ymm0, %ymm15
	vpermpd	$216, %ymm15, %ymm15
	vmovups	%ymm15, 2912(%rsp)
	vmovups	%ymm15, 2880(%rsp)
	vshufps	$221, %ymm3, %ymm1, %ymm1
	vpermpd	$216, %ymm1, %ymm1
	vmovups	%ymm1, 2976(%rsp)
	vmovaps	1856(%rsp), %ymm3
	vshufps	$221, %ymm2, %ymm3, %ymm2
	vmovups	%ymm1, 2944(%rsp)
	vpermpd	$216, %ymm2, %ymm1
	vmovups	%ymm1, 3040(%rsp)
	vmovups	%ymm1, 3008(%rsp)
	vshufps	$221, %ymm4, %ymm5, %ymm1
	vpermpd	$216, %ymm1, %ymm1
	vmovups	%ymm1, 3104(%rsp)
	vshufps	$221, %ymm6, %ymm7, %ymm2
	vmovups	%ymm1, 3072(%rsp)
	vpermpd	$216, %ymm2, %ymm1
	vmovups	%ymm1, 3168(%rsp)
	vmovups	%ymm1, 3136(%rsp)
	vshufps	$221, %ymm8, %ymm9, %ymm1
	vpermpd	$216, %ymm1, %ymm1
	vmovups	%ymm1, 3232(%rsp)
	vshufps	$221, %ymm10, %ymm12, %ymm2
	vmovups	%ymm1, 3200(%rsp)
	vpermpd	$216, %ymm2, %ymm1
	vmovups	%ymm1, 3296(%rsp)
	vmovups	%ymm1, 3264(%rsp)
	vshufps	$221, %ymm11, %ymm13, %ymm1
	vpermpd	$216, %ymm1, %ymm1
	vmovups	%ymm1, 3360(%rsp)
	vshufps	$221, %ymm14, %ymm0, %ymm0
	vmovups	%ymm1, 3328(%rsp)
	vpermpd	$216, %ymm0, %ymm0
	vmovups	%ymm0, 3424(%rsp)
	vmovups	%ymm0, 3392(%rsp)
	vbroadcastss	.LCPI5_8(%rip), %ymm0
	vmovups	%ymm0, 96(%rsp)
	vmovups	%ymm0, 64(%rsp)
	vbroadcastss	.LCPI5_9(%rip), %ymm0
	vmovups	%ymm0, 3808(%rsp)
	vmovups	%ymm0, 3776(%rsp)
	leaq	1920(%rsp), %r14
	movq	%r14, %rcx
	movq	%rsi, %rdx
	vzeroupper
	callq	"keyed_blake3::chunks::key_of_each::<#2e65a0a13cda87df>"
	leaq	2432(%rsp), %rdx
	leaq	64(%rsp), %r8
	leaq	3776(%rsp), %r9
	movq	%r14, %rcx
	callq	"keyed_blake3::compression::lanes::take_in_each::<#2e65a0a13cda87df>"
	vmovups	-128(%r15), %ymm0
	vmovups	-112(%r15), %ymm1
	vmovups	%ymm1, 1808(%rsp)
	vmovaps	%ymm0, 1792(%rsp)
	vmovups	-64(%r15), %ymm0
	vmovups	-48(%r15), %ymm1
	vmovups	%ymm1, 1744(%rsp)
	vmovaps	%ymm0, 1728(%rsp)
	vmovups	(%r15), %ymm0
	vmovups	16(%r15), %ymm1
	vmovaps	%ymm0, 1664(%rsp)
	vmovups	%ymm1, 1680(%rsp)
	vmovups	64(%r15), %ymm0
	vmovups	80(%r15), %ymm1
	vmovaps	%ymm0, 1600(%rsp)
	vmovups	%ymm1, 1616(%rsp)
	vmovups	128(%r15), %ymm0
	vmovups	144(%r15), %ymm1
	vmovups	%ymm1, 1552(%rsp)
	vmovaps	%ymm0, 1536(%rsp)
	vmovups	192(%r15), %ymm0
	vmovups	208(%r15), %ymm1
	vmovups	%ymm1, 1488(%rsp)
	vmovaps	%ymm0, 1472(%rsp)
	vmovups	256(%r15), %ymm0
	vmovups	272(%r15), %ymm1
	vmovups	%ymm1, 1424(%rsp)
	vmovaps	%ymm0, 1408(%rsp)
	vmovups	320(%r15), %ymm0
	vmovups	336(%r15), %ymm1
	vmovups	%ymm1, 1360(%rsp)
	vmovaps	%ymm0, 1344(%rsp)
	vmovq	1920(%rsp), %xmm5
	vmovups	1808(%rsp), %ymm0
	vmovups	%ymm0, 784(%rsp)
	movq	1928(%rsp), %rax
	vmovaps	1792(%rsp), %ymm0
	vmovaps	%ymm0, 768(%rsp)
	movq	1992(%rsp), %r11
	vmovups	1744(%rsp), %ymm0
	vmovups	%ymm0, 720(%rsp)
	vmovq	1984(%rsp), %xmm7
	vmovaps	1728(%rsp), %ymm0
	vmovaps	%ymm0, 704(%rsp)
	vmovq	2048(%rsp), %xmm0
	vmovups	1680(%rsp), %ymm1
	vmovups	%ymm1, 656(%rsp)
	movq	2056(%rsp), %rcx
	vmovaps	1664(%rsp), %ymm1
	vmovaps	%ymm1, 640(%rsp)
	vmovq	2112(%rsp), %xmm1
	vmovups	1616(%rsp), %ymm2
	vmovups	%ymm2, 592(%rsp)
	movq	2120(%rsp), %rdx
	vmovaps	1600(%rsp), %ymm2
	vmovaps	%ymm2, 576(%rsp)
	vmovq	2176(%rsp), %xmm2
	vmovups	1552(%rsp), %ymm3
	vmovups	%ymm3, 528(%rsp)
	movq	2184(%rsp), %r8
	vmovaps	1536(%rsp), %ymm3
	vmovaps	%ymm3, 512(%rsp)
	vmovq	2240(%rsp), %xmm3
	vmovups	1488(%rsp), %ymm4
	vmovups	%ymm4, 464(%rsp)
	movq	2248(%rsp), %r9
	vmovaps	1472(%rsp), %ymm4
	vmovaps	%ymm4, 448(%rsp)
	vmovq	2304(%rsp), %xmm4
	vmovups	1424(%rsp), %ymm6
	vmovups	%ymm6, 400(%rsp)
	movq	2312(%rsp), %r10
	vmovaps	1408(%rsp), %ymm6
	vmovaps	%ymm6, 384(%rsp)
	vmovq	2368(%rsp), %xmm6
	vmovups	1360(%rsp), %ymm8
	vmovups	%ymm8, 336(%rsp)
	movq	2376(%rsp), %r14
	vmovdqa	1344(%rsp), %ymm8
.LBB5_21:
	vmovdqa	%ymm8, 320(%rsp)
.LBB5_22:
	vmovq	%xmm5, 832(%rsp)
	movq	%rax, 840(%rsp)
	vmovups	784(%rsp), %ymm5
	vmovups	%ymm5, -112(%r12)
	vmovaps	768(%rsp), %ymm5
	vmovups	%ymm5, -128(%r12)
	vmovq	%xmm7, 896(%rsp)
	movq	%r11, 904(%rsp)
	vmovups	720(%rsp), %ymm5
	vmovups	%ymm5, -48(%r12)
	vmovaps	704(%rsp), %ymm5
	vmovups	%ymm5, -64(%r12)
	vmovq	%xmm0, 960(%rsp)
	movq	%rcx, 968(%rsp)
	vmovups	656(%rsp), %ymm0
	vmovups	%ymm0, 16(%r12)
	vmovaps	640(%rsp), %ymm0
	vmovups	%ymm0, (%r12)
	vmovq	%xmm1, 1024(%rsp)
	movq	%rdx, 1032(%rsp)
	vmovups	592(%rsp), %ymm0
	vmovups	%ymm0, 80(%r12)
	vmovaps	576(%rsp), %ymm0
	vmovups	%ymm0, 64(%r12)
	vmovq	%xmm2, 1088(%rsp)
	movq	%r8, 1096(%rsp)
	vmovups	528(%rsp), %ymm0
	vmovups	%ymm0, 144(%r12)
	vmovaps	512(%rsp), %ymm0
	vmovups	%ymm0, 128(%r12)
	vmovq	%xmm3, 1152(%rsp)
	movq	%r9, 1160(%rsp)
	vmovups	464(%rsp), %ymm0
	vmovups	%ymm0, 208(%r12)
	vmovaps	448(%rsp), %ymm0
	vmovups	%ymm0, 192(%r12)
	vmovq	%xmm4, 1216(%rsp)
	movq	%r10, 1224(%rsp)
	vmovups	400(%rsp), %ymm0
	vmovups	%ymm0, 272(%r12)
	vmovaps	384(%rsp), %ymm0
	vmovups	%ymm0, 256(%r12)
	vmovq	%xmm6, 1280(%rsp)
	movq	%r14, 1288(%rsp)
	vmovups	336(%rsp), %ymm0
	vmovups	%ymm0, 336(%r12)
	vmovdqa	320(%rsp), %ymm0
	vmovdqu	%ymm0, 320(%r12)
	movq	%rbx, %r14
	shrq	%r14
	movq	%rdi, %r13
	shrq	%r13
	cmpq	$5, %rdi
	jb	.LBB5_25
	andl	$2, %edi
	jne	.LBB5_25
	movq	%r13, %rdi
	andl	$2, %ebx
	movq	%r14, %rbx
	je	.LBB5_16
	jmp	.LBB5_25
.LBB5_13:
	movq	%rdi, %r13
	movq	%rbx, %r14
.LBB5_25:
	movq	%r13, %r15
	decq	%r15
	movq	%rsi, %rbx
	je	.LBB5_28
	leaq	64(%rbx), %rdi
	xorl	%esi, %esi
	.p2align	4
.LBB5_27:
	movl	832(%rsp,%rsi,4), %eax
	movl	896(%rsp,%rsi,4), %ecx
	movl	960(%rsp,%rsi,4), %edx
	movl	1024(%rsp,%rsi,4), %r8d
	movl	1088(%rsp,%rsi,4), %r9d
	movl	1152(%rsp,%rsi,4), %r10d
	movl	1216(%rsp,%rsi,4), %r11d
	movl	1280(%rsp,%rsi,4), %r12d
	movl	%eax, 2432(%rsp)
	movl	%ecx, 2436(%rsp)
	movl	%edx, 2440(%rsp)
	movl	%r8d, 2444(%rsp)
	movl	%r9d, 2448(%rsp)
	movl	%r10d, 2452(%rsp)
	movl	%r11d, 2456(%rsp)
	movl	%r12d, 2460(%rsp)
	leaq	(%r14,%rsi), %r8
	movq	$0, 32(%rsp)
	leaq	2432(%rsp), %r9
	movq	%rdi, %rcx
	movq	%rbx, %rdx
	vzeroupper
	callq	"keyed_blake3::tree::add_subtree_value"
	incq	%rsi
	cmpq	%rsi, %r15
	jne	.LBB5_27
.LBB5_28:
	movl	828(%rsp,%r13,4), %eax
	movl	892(%rsp,%r13,4), %ecx
	movl	956(%rsp,%r13,4), %edx
	movl	1020(%rsp,%r13,4), %r8d
	movl	1084(%rsp,%r13,4), %r9d
	movl	1148(%rsp,%r13,4), %r10d
	movl	1212(%rsp,%r13,4), %r11d
	movl	1276(%rsp,%r13,4), %esi
	movl	%eax, 128(%rsp)
	movl	%ecx, 132(%rsp)
	movl	%edx, 136(%rsp)
	movl	%r8d, 140(%rsp)
	movl	%r9d, 144(%rsp)
	movl	%r10d, 148(%rsp)
	movl	%r11d, 152(%rsp)
	movl	%esi, 156(%rsp)
	addq	%r15, %r14
	leaq	64(%rbx), %rcx
	movq	4528(%rbp), %rax
	movq	%rax, 32(%rsp)
	leaq	128(%rsp), %r9
	movq	%rbx, %rdx
	movq	%r14, %r8
	vzeroupper
	callq	"keyed_blake3::tree::add_subtree_value"
	vmovaps	4240(%rbp), %xmm6
	vmovaps	4256(%rbp), %xmm7
	vmovaps	4272(%rbp), %xmm8
	vmovaps	4288(%rbp), %xmm9
	vmovaps	4304(%rbp), %xmm10
	vmovaps	4320(%rbp), %xmm11
	vmovaps	4336(%rbp), %xmm12
	vmovaps	4352(%rbp), %xmm13
	vmovaps	4368(%rbp), %xmm14
	vmovaps	4384(%rbp), %xmm15
	leaq	4408(%rbp), %rsp
	popq	%rbx
	popq	%rdi
	popq	%rsi
	popq	%r12
	popq	%r13
	popq	%r14
	popq	%r15
	popq	%rbp
	retq
.LBB5_29:
	ud2
	.seh_endproc

	.section	.rdata,"dr"
	.p2align	5, 0x0
.LCPI6_0:
	.long	10
	.long	0
	.long	2
	.long	8
	.long	14
	.long	4
	.long	6
	.long	12
.LCPI6_1:
	.long	11
	.long	1
	.long	3
	.long	9
	.long	15
	.long	5
	.long	7
	.long	13
.LCPI6_2:
	.long	1779033703
	.long	3144134277
	.long	1013904242
	.long	2773480762
	.long	1779033703
	.long	3144134277
	.long	1013904242
	.long	2773480762
.LCPI6_3:
	.long	0
	.long	10
	.long	11
	.long	3
	.long	4
	.long	14
	.long	15
	.long	7
.LCPI6_4:
	.long	3
	.long	10
	.long	0
	.zero	4
	.long	7
	.long	14
	.long	4
	.zero	4
.LCPI6_5:
	.long	0
	.long	2
	.long	8
	.long	1
	.long	4
	.long	6
	.long	12
	.long	5
.LCPI6_6:
	.long	0
	.long	3
	.zero	4
	.long	10
	.long	4
	.long	7
	.zero	4
	.long	14
.LCPI6_7:
	.long	0
	.long	8
	.long	1
	.long	8
	.long	4
	.long	12
	.long	5
	.long	12
.LCPI6_8:
	.long	0
	.long	2
	.long	11
	.long	1
	.long	4
	.long	6
	.long	15
	.long	5
.LCPI6_9:
	.long	0
	.long	1
	.long	8
	.long	2
	.long	4
	.long	5
	.long	12
	.long	6
.LCPI6_10:
	.long	3
	.long	9
	.long	2
	.zero	4
	.long	7
	.long	13
	.long	6
	.zero	4
.LCPI6_11:
	.long	9
	.long	3
	.long	2
	.zero	4
	.long	13
	.long	7
	.long	6
	.zero	4
.LCPI6_12:
	.long	8
	.long	2
	.long	3
	.long	1
	.long	12
	.long	6
	.long	7
	.long	5
.LCPI6_13:
	.long	8
	.long	1
	.long	3
	.long	10
	.long	12
	.long	5
	.long	7
	.long	14
.LCPI6_14:
	.long	1
	.long	3
	.long	0
	.long	11
	.long	5
	.long	7
	.long	4
	.long	15
.LCPI6_15:
	.long	3
	.long	8
	.long	1
	.zero	4
	.long	7
	.long	12
	.long	5
	.zero	4
.LCPI6_16:
	.long	3
	.long	11
	.long	1
	.long	2
	.long	7
	.long	15
	.long	5
	.long	6
.LCPI6_17:
	.long	3
	.long	9
	.long	10
	.long	0
	.long	7
	.long	13
	.long	14
	.long	4
	.section	.text
	.p2align	4
	.def	"keyed_blake3::compression::two::compress_two_from";
	.scl	3;
	.type	32;
	.endef
"keyed_blake3::compression::two::compress_two_from":
.seh_proc "keyed_blake3::compression::two::compress_two_from"
	pushq	%rbp
	.seh_pushreg %rbp
	subq	$112, %rsp
	.seh_stackalloc 112
	leaq	112(%rsp), %rbp
	.seh_setframe %rbp, 112
	vmovaps	%xmm12, -16(%rbp)
	.seh_savexmm %xmm12, 96
	vmovaps	%xmm11, -32(%rbp)
	.seh_savexmm %xmm11, 80
	vmovaps	%xmm10, -48(%rbp)
	.seh_savexmm %xmm10, 64
	vmovaps	%xmm9, -64(%rbp)
	.seh_savexmm %xmm9, 48
	vmovaps	%xmm8, -80(%rbp)
	.seh_savexmm %xmm8, 32
	vmovaps	%xmm7, -96(%rbp)
	.seh_savexmm %xmm7, 16
	vmovaps	%xmm6, -112(%rbp)
	.seh_savexmm %xmm6, 0
	.seh_endprologue
	andq	$-64, %rsp
	movq	48(%rbp), %rax
	vmovups	(%rax), %xmm0
	vmovups	16(%rax), %xmm1
	vmovdqu	32(%rax), %xmm3
	vmovdqu	48(%rax), %xmm4
	movq	56(%rbp), %rax
	vinsertf128	$1, (%rax), %ymm0, %ymm0
	vinsertf128	$1, 16(%rax), %ymm1, %ymm2
	vinserti128	$1, 32(%rax), %ymm3, %ymm1
	vinserti128	$1, 48(%rax), %ymm4, %ymm3
	vmovdqa	(%r8), %ymm4
	vshufps	$136, %ymm2, %ymm0, %ymm16
	vshufps	$221, %ymm2, %ymm0, %ymm5
	vmovdqa64	.LCPI6_0(%rip), %ymm17
	vpermi2d	%ymm3, %ymm1, %ymm17
	vmovdqa	.LCPI6_1(%rip), %ymm8
	vpaddd	(%rdx), %ymm4, %ymm18
	vpermi2d	%ymm3, %ymm1, %ymm8
	vpaddd	%ymm16, %ymm18, %ymm18
	vpxord	(%r9), %ymm18, %ymm19
	vprold	$16, %ymm19, %ymm19
	vpaddd	.LCPI6_2(%rip), %ymm19, %ymm20
	vpxord	%ymm4, %ymm20, %ymm4
	vprold	$20, %ymm4, %ymm4
	vpaddd	%ymm5, %ymm18, %ymm18
	vpaddd	%ymm4, %ymm18, %ymm18
	vpxord	%ymm19, %ymm18, %ymm19
	vprold	$24, %ymm19, %ymm19
	vpaddd	%ymm20, %ymm19, %ymm20
	vpxord	%ymm4, %ymm20, %ymm4
	vprold	$25, %ymm4, %ymm4
	vpshufd	$147, %ymm18, %ymm18
	vpaddd	%ymm17, %ymm18, %ymm17
	vpshufd	$57, %ymm20, %ymm18
	vpshufd	$78, %ymm19, %ymm19
	vpaddd	%ymm4, %ymm17, %ymm17
	vpxord	%ymm19, %ymm17, %ymm19
	vprold	$16, %ymm19, %ymm19
	vpaddd	%ymm18, %ymm19, %ymm18
	vpxord	%ymm4, %ymm18, %ymm4
	vprold	$20, %ymm4, %ymm4
	vpaddd	%ymm8, %ymm17, %ymm17
	vpaddd	%ymm4, %ymm17, %ymm20
	vpxord	%ymm19, %ymm20, %ymm17
	vprold	$24, %ymm17, %ymm17
	vpaddd	%ymm18, %ymm17, %ymm18
	vpxord	%ymm4, %ymm18, %ymm4
	vprold	$25, %ymm4, %ymm19
	vpshufd	$147, %ymm18, %ymm18
	vpshufd	$78, %ymm17, %ymm21
	vmovdqa	.LCPI6_3(%rip), %ymm4
	vpermi2d	%ymm0, %ymm2, %ymm4
	vmovaps	.LCPI6_4(%rip), %ymm6
	vpermi2ps	%ymm1, %ymm16, %ymm6
	vblendps	$136, %ymm8, %ymm6, %ymm9
	vpunpcklqdq	%ymm5, %ymm8, %ymm22
	vmovdqa64	.LCPI6_5(%rip), %ymm17
	vpermt2d	%ymm3, %ymm17, %ymm22
	vmovdqa	.LCPI6_6(%rip), %ymm6
	vpermi2d	%ymm3, %ymm1, %ymm6
	vpblendd	$68, %ymm5, %ymm6, %ymm7
	vpaddd	%ymm4, %ymm20, %ymm20
	vpshufd	$57, %ymm20, %ymm20
	vpaddd	%ymm20, %ymm19, %ymm20
	vpxord	%ymm21, %ymm20, %ymm21
	vprold	$16, %ymm21, %ymm21
	vpaddd	%ymm18, %ymm21, %ymm18
	vpxord	%ymm19, %ymm18, %ymm19
	vprold	$20, %ymm19, %ymm19
	vpaddd	%ymm9, %ymm20, %ymm20
	vpaddd	%ymm19, %ymm20, %ymm20
	vpxord	%ymm21, %ymm20, %ymm21
	vprold	$24, %ymm21, %ymm21
	vpaddd	%ymm18, %ymm21, %ymm18
	vpxord	%ymm19, %ymm18, %ymm19
	vprold	$25, %ymm19, %ymm19
	vpshufd	$147, %ymm20, %ymm20
	vpshufd	$57, %ymm18, %ymm18
	vpshufd	$78, %ymm21, %ymm21
	vpaddd	%ymm22, %ymm20, %ymm20
	vpaddd	%ymm19, %ymm20, %ymm20
	vpxord	%ymm21, %ymm20, %ymm21
	vprold	$16, %ymm21, %ymm21
	vpaddd	%ymm18, %ymm21, %ymm18
	vpxord	%ymm19, %ymm18, %ymm19
	vprold	$20, %ymm19, %ymm19
	vpaddd	%ymm7, %ymm20, %ymm20
	vpaddd	%ymm19, %ymm20, %ymm20
	vpxord	%ymm21, %ymm20, %ymm21
	vprold	$24, %ymm21, %ymm21
	vpaddd	%ymm18, %ymm21, %ymm18
	vpxord	%ymm19, %ymm18, %ymm19
	vprold	$25, %ymm19, %ymm19
	vpshufd	$147, %ymm18, %ymm23
	vpshufd	$78, %ymm21, %ymm21
	vshufps	$219, %ymm9, %ymm4, %ymm24
	vmovdqa	.LCPI6_7(%rip), %ymm10
	vpermi2d	%ymm3, %ymm4, %ymm10
	vpblendd	$136, %ymm6, %ymm10, %ymm7
	vshufps	$172, %ymm2, %ymm1, %ymm25
	vmovaps	.LCPI6_8(%rip), %ymm18
	vpermt2ps	%ymm22, %ymm18, %ymm25
	vpunpcklqdq	%ymm8, %ymm5, %ymm8
	vpblendd	$34, %ymm2, %ymm8, %ymm11
	vmovdqa	.LCPI6_9(%rip), %ymm8
	vpermi2d	%ymm0, %ymm11, %ymm8
	vpaddd	%ymm24, %ymm20, %ymm20
	vpshufd	$57, %ymm20, %ymm20
	vpaddd	%ymm20, %ymm19, %ymm20
	vpxord	%ymm21, %ymm20, %ymm21
	vprold	$16, %ymm21, %ymm21
	vpaddd	%ymm23, %ymm21, %ymm22
	vpxord	%ymm19, %ymm22, %ymm19
	vprold	$20, %ymm19, %ymm19
	vpaddd	%ymm7, %ymm20, %ymm20
	vpaddd	%ymm19, %ymm20, %ymm20
	vpxord	%ymm21, %ymm20, %ymm21
	vprold	$24, %ymm21, %ymm21
	vpaddd	%ymm22, %ymm21, %ymm22
	vpxord	%ymm19, %ymm22, %ymm19
	vprold	$25, %ymm19, %ymm19
	vpshufd	$147, %ymm20, %ymm20
	vpaddd	%ymm25, %ymm20, %ymm20
	vpshufd	$57, %ymm22, %ymm22
	vpshufd	$78, %ymm21, %ymm21
	vpaddd	%ymm19, %ymm20, %ymm20
	vpxord	%ymm21, %ymm20, %ymm21
	vprold	$16, %ymm21, %ymm23
	vpaddd	%ymm22, %ymm23, %ymm22
	vpxord	%ymm19, %ymm22, %ymm19
	vprold	$20, %ymm19, %ymm19
	vpaddd	%ymm8, %ymm20, %ymm20
	vpaddd	%ymm19, %ymm20, %ymm21
	vpxord	%ymm23, %ymm21, %ymm20
	vprold	$24, %ymm20, %ymm23
	vpaddd	%ymm22, %ymm23, %ymm22
	vpxord	%ymm19, %ymm22, %ymm19
	vprold	$25, %ymm19, %ymm20
	vpshufd	$147, %ymm22, %ymm22
	vpshufd	$78, %ymm23, %ymm23
	vshufps	$215, %ymm7, %ymm9, %ymm19
	vmovdqa	.LCPI6_10(%rip), %ymm12
	vpermi2d	%ymm1, %ymm4, %ymm12
	vpblendd	$136, %ymm8, %ymm12, %ymm8
	vpunpcklqdq	%ymm10, %ymm11, %ymm24
	vshufps	$167, %ymm24, %ymm9, %ymm9
	vpermt2d	%ymm1, %ymm18, %ymm24
	vshufps	$35, %ymm1, %ymm16, %ymm10
	vblendps	$68, %ymm0, %ymm10, %ymm11
	vpaddd	%ymm19, %ymm21, %ymm21
	vpshufd	$57, %ymm21, %ymm21
	vpaddd	%ymm21, %ymm20, %ymm21
	vpxord	%ymm23, %ymm21, %ymm23
	vprold	$16, %ymm23, %ymm23
	vpaddd	%ymm22, %ymm23, %ymm22
	vpxord	%ymm20, %ymm22, %ymm20
	vprold	$20, %ymm20, %ymm20
	vpaddd	%ymm8, %ymm21, %ymm21
	vpaddd	%ymm20, %ymm21, %ymm21
	vpxord	%ymm23, %ymm21, %ymm23
	vprold	$24, %ymm23, %ymm23
	vpaddd	%ymm22, %ymm23, %ymm22
	vpxord	%ymm20, %ymm22, %ymm20
	vprold	$25, %ymm20, %ymm20
	vpshufd	$147, %ymm21, %ymm21
	vpshufd	$57, %ymm22, %ymm22
	vpshufd	$78, %ymm23, %ymm23
	vpaddd	%ymm24, %ymm21, %ymm21
	vpaddd	%ymm20, %ymm21, %ymm21
	vpxord	%ymm23, %ymm21, %ymm23
	vprold	$16, %ymm23, %ymm23
	vpaddd	%ymm22, %ymm23, %ymm22
	vpxord	%ymm20, %ymm22, %ymm20
	vprold	$20, %ymm20, %ymm20
	vpaddd	%ymm11, %ymm21, %ymm21
	vpaddd	%ymm20, %ymm21, %ymm21
	vpxord	%ymm23, %ymm21, %ymm23
	vprold	$24, %ymm23, %ymm23
	vpaddd	%ymm22, %ymm23, %ymm22
	vpxord	%ymm20, %ymm22, %ymm20
	vprold	$25, %ymm20, %ymm20
	vpshufd	$147, %ymm22, %ymm22
	vpshufd	$78, %ymm23, %ymm23
	vmovdqa	.LCPI6_11(%rip), %ymm11
	vpermi2d	%ymm3, %ymm1, %ymm11
	vpblendd	$136, %ymm10, %ymm11, %ymm11
	vshufps	$243, %ymm2, %ymm16, %ymm16
	vpermt2ps	%ymm24, %ymm18, %ymm16
	vmovdqa	.LCPI6_12(%rip), %ymm10
	vpermi2d	%ymm2, %ymm0, %ymm10
	vpshufd	$57, %ymm21, %ymm18
	vmovdqa64	.LCPI6_13(%rip), %ymm21
	vpermi2d	%ymm3, %ymm8, %ymm21
	vpaddd	%ymm21, %ymm18, %ymm18
	vpaddd	%ymm18, %ymm20, %ymm18
	vpxord	%ymm23, %ymm18, %ymm21
	vprold	$16, %ymm21, %ymm21
	vpaddd	%ymm22, %ymm21, %ymm22
	vpxord	%ymm20, %ymm22, %ymm20
	vprold	$20, %ymm20, %ymm20
	vpaddd	%ymm11, %ymm18, %ymm18
	vpaddd	%ymm20, %ymm18, %ymm18
	vpxord	%ymm21, %ymm18, %ymm21
	vprold	$24, %ymm21, %ymm21
	vpaddd	%ymm22, %ymm21, %ymm22
	vpxord	%ymm20, %ymm22, %ymm20
	vprold	$25, %ymm20, %ymm20
	vpshufd	$147, %ymm18, %ymm18
	vpaddd	%ymm16, %ymm18, %ymm16
	vpshufd	$57, %ymm22, %ymm18
	vpshufd	$78, %ymm21, %ymm21
	vpaddd	%ymm20, %ymm16, %ymm16
	vpxord	%ymm21, %ymm16, %ymm21
	vprold	$16, %ymm21, %ymm21
	vpaddd	%ymm18, %ymm21, %ymm18
	vpxord	%ymm20, %ymm18, %ymm20
	vprold	$20, %ymm20, %ymm20
	vpaddd	%ymm10, %ymm16, %ymm16
	vpaddd	%ymm20, %ymm16, %ymm16
	vpxord	%ymm21, %ymm16, %ymm21
	vprold	$24, %ymm21, %ymm21
	vpaddd	%ymm18, %ymm21, %ymm18
	vpxord	%ymm20, %ymm18, %ymm20
	vprold	$25, %ymm20, %ymm20
	vpshufd	$147, %ymm18, %ymm18
	vpshufd	$78, %ymm21, %ymm21
	vpblendd	$68, %ymm5, %ymm7, %ymm5
	vpshufd	$219, %ymm5, %ymm7
	vpblendd	$136, %ymm10, %ymm7, %ymm10
	vunpcklpd	%ymm19, %ymm4, %ymm19
	vpermt2ps	%ymm0, %ymm17, %ymm19
	vshufps	$171, %ymm2, %ymm4, %ymm2
	vblendps	$68, %ymm1, %ymm2, %ymm11
	vpshufd	$57, %ymm16, %ymm16
	vmovdqa64	.LCPI6_14(%rip), %ymm17
	vpermi2d	%ymm3, %ymm1, %ymm17
	vpaddd	%ymm17, %ymm16, %ymm3
	vpaddd	%ymm3, %ymm20, %ymm3
	vpxord	%ymm21, %ymm3, %ymm16
	vprold	$16, %ymm16, %ymm16
	vpaddd	%ymm18, %ymm16, %ymm17
	vpxord	%ymm20, %ymm17, %ymm18
	vprold	$20, %ymm18, %ymm18
	vpaddd	%ymm3, %ymm10, %ymm3
	vpaddd	%ymm18, %ymm3, %ymm3
	vpxord	%ymm16, %ymm3, %ymm16
	vprold	$24, %ymm16, %ymm16
	vpaddd	%ymm17, %ymm16, %ymm17
	vpxord	%ymm18, %ymm17, %ymm18
	vprold	$25, %ymm18, %ymm18
	vpshufd	$147, %ymm3, %ymm3
	vpaddd	%ymm19, %ymm3, %ymm3
	vpshufd	$57, %ymm17, %ymm17
	vpshufd	$78, %ymm16, %ymm16
	vpaddd	%ymm18, %ymm3, %ymm3
	vpxord	%ymm16, %ymm3, %ymm16
	vprold	$16, %ymm16, %ymm16
	vpaddd	%ymm17, %ymm16, %ymm17
	vpxord	%ymm18, %ymm17, %ymm18
	vprold	$20, %ymm18, %ymm18
	vpaddd	%ymm3, %ymm11, %ymm3
	vpaddd	%ymm18, %ymm3, %ymm3
	vpxord	%ymm16, %ymm3, %ymm16
	vprold	$24, %ymm16, %ymm16
	vpaddd	%ymm17, %ymm16, %ymm17
	vpxord	%ymm18, %ymm17, %ymm18
	vprold	$25, %ymm18, %ymm18
	vpshufd	$147, %ymm17, %ymm17
	vpshufd	$78, %ymm16, %ymm16
	vmovdqa	.LCPI6_15(%rip), %ymm10
	vpermi2d	%ymm0, %ymm8, %ymm10
	vpblendd	$136, %ymm2, %ymm10, %ymm2
	vmovaps	.LCPI6_16(%rip), %ymm19
	vpermi2ps	%ymm6, %ymm4, %ymm19
	vblendps	$68, %ymm7, %ymm9, %ymm4
	vpshufd	$57, %ymm3, %ymm3
	vshufps	$91, %ymm0, %ymm5, %ymm0
	vmovaps	.LCPI6_17(%rip), %ymm5
	vpermi2ps	%ymm0, %ymm1, %ymm5
	vpaddd	%ymm5, %ymm3, %ymm0
	vpaddd	%ymm0, %ymm18, %ymm0
	vpxord	%ymm16, %ymm0, %ymm1
	vprold	$16, %ymm1, %ymm1
	vpaddd	%ymm17, %ymm1, %ymm3
	vpxord	%ymm18, %ymm3, %ymm5
	vprold	$20, %ymm5, %ymm5
	vpaddd	%ymm2, %ymm0, %ymm0
	vpaddd	%ymm5, %ymm0, %ymm0
	vpxor	%ymm1, %ymm0, %ymm1
	vprold	$24, %ymm1, %ymm1
	vpaddd	%ymm3, %ymm1, %ymm2
	vpxor	%ymm5, %ymm2, %ymm3
	vprold	$25, %ymm3, %ymm3
	vpshufd	$147, %ymm0, %ymm0
	vpaddd	%ymm19, %ymm0, %ymm0
	vpshufd	$57, %ymm2, %ymm2
	vpshufd	$78, %ymm1, %ymm1
	vpaddd	%ymm3, %ymm0, %ymm0
	vpxor	%ymm1, %ymm0, %ymm1
	vprold	$16, %ymm1, %ymm1
	vpaddd	%ymm2, %ymm1, %ymm2
	vpxor	%ymm3, %ymm2, %ymm3
	vprold	$20, %ymm3, %ymm3
	vpaddd	%ymm4, %ymm0, %ymm0
	vpaddd	%ymm3, %ymm0, %ymm0
	vpxor	%ymm1, %ymm0, %ymm1
	vprold	$24, %ymm1, %ymm1
	vpaddd	%ymm2, %ymm1, %ymm2
	vpxor	%ymm3, %ymm2, %ymm3
	vprold	$25, %ymm3, %ymm3
	vpshufd	$57, %ymm0, %ymm0
	vpshufd	$147, %ymm2, %ymm2
	vpxor	%ymm0, %ymm2, %ymm0
	vpshufd	$78, %ymm1, %ymm1
	vpxor	%ymm1, %ymm3, %ymm1
	vmovdqu	%ymm0, (%rcx)
	vmovdqu	%ymm1, 32(%rcx)
	vmovaps	-112(%rbp), %xmm6
	vmovaps	-96(%rbp), %xmm7
	vmovaps	-80(%rbp), %xmm8
	vmovaps	-64(%rbp), %xmm9
	vmovaps	-48(%rbp), %xmm10
	vmovaps	-32(%rbp), %xmm11
	vmovaps	-16(%rbp), %xmm12
	movq	%rbp, %rsp
	popq	%rbp
	vzeroupper
	retq
	.seh_endproc

	.section	.rdata,"dr"
	.p2align	6, 0x0
.LCPI7_0:
	.long	0
	.long	18
	.long	19
	.long	3
	.long	4
	.long	22
	.long	23
	.long	7
	.long	8
	.long	26
	.long	27
	.long	11
	.long	12
	.long	30
	.long	31
	.long	15
.LCPI7_1:
	.long	18
	.long	0
	.long	2
	.long	16
	.long	22
	.long	4
	.long	6
	.long	20
	.long	26
	.long	8
	.long	10
	.long	24
	.long	30
	.long	12
	.long	14
	.long	28
.LCPI7_2:
	.long	19
	.long	1
	.long	3
	.long	17
	.long	23
	.long	5
	.long	7
	.long	21
	.long	27
	.long	9
	.long	11
	.long	25
	.long	31
	.long	13
	.long	15
	.long	29
.LCPI7_3:
	.long	1779033703
	.long	3144134277
	.long	1013904242
	.long	2773480762
	.long	1779033703
	.long	3144134277
	.long	1013904242
	.long	2773480762
	.long	1779033703
	.long	3144134277
	.long	1013904242
	.long	2773480762
	.long	1779033703
	.long	3144134277
	.long	1013904242
	.long	2773480762
.LCPI7_4:
	.long	3
	.long	16
	.long	0
	.long	18
	.long	7
	.long	20
	.long	4
	.long	22
	.long	11
	.long	24
	.long	8
	.long	26
	.long	15
	.long	28
	.long	12
	.long	30
.LCPI7_5:
	.long	0
	.long	2
	.long	16
	.long	1
	.long	4
	.long	6
	.long	20
	.long	5
	.long	8
	.long	10
	.long	24
	.long	9
	.long	12
	.long	14
	.long	28
	.long	13
.LCPI7_6:
	.long	0
	.long	1
	.long	17
	.long	2
	.long	4
	.long	5
	.long	21
	.long	6
	.long	8
	.long	9
	.long	25
	.long	10
	.long	12
	.long	13
	.long	29
	.long	14
.LCPI7_7:
	.long	0
	.long	16
	.long	1
	.long	18
	.long	4
	.long	20
	.long	5
	.long	22
	.long	8
	.long	24
	.long	9
	.long	26
	.long	12
	.long	28
	.long	13
	.long	30
.LCPI7_8:
	.long	0
	.long	2
	.long	17
	.long	1
	.long	4
	.long	6
	.long	21
	.long	5
	.long	8
	.long	10
	.long	25
	.long	9
	.long	12
	.long	14
	.long	29
	.long	13
.LCPI7_9:
	.long	0
	.long	1
	.long	16
	.long	2
	.long	4
	.long	5
	.long	20
	.long	6
	.long	8
	.long	9
	.long	24
	.long	10
	.long	12
	.long	13
	.long	28
	.long	14
.LCPI7_10:
	.long	0
	.long	17
	.long	1
	.long	16
	.long	4
	.long	21
	.long	5
	.long	20
	.long	8
	.long	25
	.long	9
	.long	24
	.long	12
	.long	29
	.long	13
	.long	28
.LCPI7_11:
	.long	0
	.long	2
	.long	19
	.long	1
	.long	4
	.long	6
	.long	23
	.long	5
	.long	8
	.long	10
	.long	27
	.long	9
	.long	12
	.long	14
	.long	31
	.long	13
.LCPI7_12:
	.long	0
	.long	1
	.long	18
	.long	2
	.long	4
	.long	5
	.long	22
	.long	6
	.long	8
	.long	9
	.long	26
	.long	10
	.long	12
	.long	13
	.long	30
	.long	14
.LCPI7_13:
	.long	0
	.long	19
	.long	1
	.long	16
	.long	4
	.long	23
	.long	5
	.long	20
	.long	8
	.long	27
	.long	9
	.long	24
	.long	12
	.long	31
	.long	13
	.long	28
.LCPI7_14:
	.long	2
	.long	3
	.long	1
	.long	16
	.long	6
	.long	7
	.long	5
	.long	20
	.long	10
	.long	11
	.long	9
	.long	24
	.long	14
	.long	15
	.long	13
	.long	28
.LCPI7_15:
	.long	0
	.long	1
	.long	2
	.long	17
	.long	4
	.long	5
	.long	6
	.long	21
	.long	8
	.long	9
	.long	10
	.long	25
	.long	12
	.long	13
	.long	14
	.long	29
.LCPI7_16:
	.long	0
	.long	17
	.long	3
	.long	2
	.long	4
	.long	21
	.long	7
	.long	6
	.long	8
	.long	25
	.long	11
	.long	10
	.long	12
	.long	29
	.long	15
	.long	14
.LCPI7_17:
	.long	2
	.long	18
	.long	0
	.long	16
	.long	6
	.long	22
	.long	4
	.long	20
	.long	10
	.long	26
	.long	8
	.long	24
	.long	14
	.long	30
	.long	12
	.long	28
.LCPI7_18:
	.long	1
	.long	3
	.long	0
	.long	19
	.long	5
	.long	7
	.long	4
	.long	23
	.long	9
	.long	11
	.long	8
	.long	27
	.long	13
	.long	15
	.long	12
	.long	31
.LCPI7_19:
	.long	0
	.long	16
	.long	1
	.long	19
	.long	4
	.long	20
	.long	5
	.long	23
	.long	8
	.long	24
	.long	9
	.long	27
	.long	12
	.long	28
	.long	13
	.long	31
.LCPI7_20:
	.long	3
	.long	18
	.long	1
	.long	2
	.long	7
	.long	22
	.long	5
	.long	6
	.long	11
	.long	26
	.long	9
	.long	10
	.long	15
	.long	30
	.long	13
	.long	14
.LCPI7_21:
	.long	3
	.long	18
	.long	16
	.long	0
	.long	7
	.long	22
	.long	20
	.long	4
	.long	11
	.long	26
	.long	24
	.long	8
	.long	15
	.long	30
	.long	28
	.long	12
.LCPI7_22:
	.long	0
	.long	4
	.long	8
	.long	12
	.long	1
	.long	5
	.long	9
	.long	13
	.long	2
	.long	6
	.long	10
	.long	14
	.long	3
	.long	7
	.long	11
	.long	15
	.section	.text
	.p2align	4
	.def	"keyed_blake3::four_chunks::four_chunk_values";
	.scl	3;
	.type	32;
	.endef
"keyed_blake3::four_chunks::four_chunk_values":
.seh_proc "keyed_blake3::four_chunks::four_chunk_values"
	pushq	%rbp
	.seh_pushreg %rbp
	pushq	%r14
	.seh_pushreg %r14
	pushq	%rsi
	.seh_pushreg %rsi
	pushq	%rdi
	.seh_pushreg %rdi
	pushq	%rbx
	.seh_pushreg %rbx
	subq	$80, %rsp
	.seh_stackalloc 80
	leaq	80(%rsp), %rbp
	.seh_setframe %rbp, 80
	vmovdqa	%xmm9, -16(%rbp)
	.seh_savexmm %xmm9, 64
	vmovaps	%xmm8, -32(%rbp)
	.seh_savexmm %xmm8, 48
	vmovdqa	%xmm7, -48(%rbp)
	.seh_savexmm %xmm7, 32
	vmovaps	%xmm6, -64(%rbp)
	.seh_savexmm %xmm6, 16
	.seh_endprologue
	andq	$-64, %rsp
	movq	88(%rbp), %rax
	movq	80(%rbp), %r10
	vbroadcasti32x4	(%rdx), %zmm23
	vbroadcasti32x4	(%r8), %zmm22
	movq	(%r10), %rdx
	movq	8(%r10), %r8
	movq	16(%r10), %r11
	movq	24(%r10), %r10
	movq	%rdx, %rsi
	shlq	$10, %rsi
	movq	%r8, %rdi
	shlq	$10, %rdi
	movq	%r11, %rbx
	shlq	$10, %rbx
	movq	%r10, %r14
	shlq	$10, %r14
	addq	%rax, %rdx
	vmovq	%rdx, %xmm0
	movl	$64, %edx
	vpinsrd	$2, %edx, %xmm0, %xmm0
	addq	%rax, %r8
	vmovq	%r8, %xmm1
	vpinsrd	$2, %edx, %xmm1, %xmm1
	addq	%rax, %r11
	vmovq	%r11, %xmm2
	vpinsrd	$2, %edx, %xmm2, %xmm2
	addq	%rax, %r10
	vmovq	%r10, %xmm3
	vpinsrd	$2, %edx, %xmm3, %xmm3
	leaq	(%r14,%r9), %rax
	addq	$48, %rax
	leaq	(%rbx,%r9), %rdx
	addq	$48, %rdx
	leaq	(%rdi,%r9), %r8
	addq	$48, %r8
	addq	%rsi, %r9
	addq	$48, %r9
	xorl	%r10d, %r10d
	.p2align	4
.LBB7_1:
	vmovdqu	-48(%rdx,%r10), %xmm4
	vmovdqu	-32(%rdx,%r10), %xmm5
	vmovups	-16(%rdx,%r10), %xmm16
	vinserti128	$1, -48(%rax,%r10), %ymm4, %ymm4
	vmovups	(%rdx,%r10), %xmm17
	vmovdqu64	-48(%r9,%r10), %xmm18
	vmovdqu64	-32(%r9,%r10), %xmm19
	vmovups	-16(%r9,%r10), %xmm20
	vinserti32x4	$1, -48(%r8,%r10), %ymm18, %ymm18
	vinserti128	$1, -32(%rax,%r10), %ymm5, %ymm5
	vinserti32x4	$1, -32(%r8,%r10), %ymm19, %ymm19
	vinsertf32x4	$1, -16(%rax,%r10), %ymm16, %ymm16
	vinsertf32x4	$1, -16(%r8,%r10), %ymm20, %ymm24
	vinsertf32x4	$1, (%rax,%r10), %ymm17, %ymm17
	vmovups	(%r9,%r10), %xmm20
	vinsertf32x4	$1, (%r8,%r10), %ymm20, %ymm25
	cmpq	$1, %r10
	movl	$0, %r11d
	adcl	$16, %r11d
	cmpq	$960, %r10
	movl	$18, %esi
	cmovnel	%r11d, %esi
	vinserti64x4	$1, %ymm4, %zmm18, %zmm20
	vinserti64x4	$1, %ymm5, %zmm19, %zmm21
	vpinsrd	$3, %esi, %xmm0, %xmm6
	vinsertf64x4	$1, %ymm16, %zmm24, %zmm5
	vmovdqa64	.LCPI7_0(%rip), %zmm16
	vpinsrd	$3, %esi, %xmm1, %xmm7
	vinsertf64x4	$1, %ymm17, %zmm25, %zmm4
	vmovdqa64	.LCPI7_1(%rip), %zmm24
	vpinsrd	$3, %esi, %xmm2, %xmm8
	vpermi2d	%zmm20, %zmm21, %zmm16
	vmovdqa64	.LCPI7_2(%rip), %zmm18
	vpinsrd	$3, %esi, %xmm3, %xmm9
	vshufps	$136, %zmm21, %zmm20, %zmm19
	vinserti32x4	$1, %xmm9, %ymm8, %ymm17
	vinserti32x4	$1, %xmm7, %ymm6, %ymm25
	vinserti64x4	$1, %ymm17, %zmm25, %zmm25
	vshufps	$221, %zmm21, %zmm20, %zmm17
	vpaddd	%zmm22, %zmm23, %zmm23
	vpaddd	%zmm19, %zmm23, %zmm23
	vpxord	%zmm25, %zmm23, %zmm25
	vprold	$16, %zmm25, %zmm26
	vpaddd	.LCPI7_3(%rip), %zmm26, %zmm27
	vpxord	%zmm22, %zmm27, %zmm22
	vshufps	$214, %zmm4, %zmm5, %zmm25
	vprold	$20, %zmm22, %zmm22
	vpaddd	%zmm17, %zmm23, %zmm23
	vpaddd	%zmm22, %zmm23, %zmm23
	vpermi2d	%zmm4, %zmm5, %zmm24
	vpxord	%zmm26, %zmm23, %zmm26
	vprold	$24, %zmm26, %zmm26
	vpaddd	%zmm27, %zmm26, %zmm27
	vpxord	%zmm22, %zmm27, %zmm22
	vprold	$25, %zmm22, %zmm22
	vpshufd	$147, %zmm23, %zmm23
	vpaddd	%zmm24, %zmm23, %zmm23
	vpermi2d	%zmm4, %zmm5, %zmm18
	vpshufd	$78, %zmm26, %zmm24
	vpaddd	%zmm22, %zmm23, %zmm23
	vpxord	%zmm24, %zmm23, %zmm24
	vpshufd	$57, %zmm27, %zmm26
	vprold	$16, %zmm24, %zmm24
	vpaddd	%zmm26, %zmm24, %zmm26
	vpxord	%zmm22, %zmm26, %zmm22
	vprold	$20, %zmm22, %zmm27
	vpaddd	%zmm18, %zmm23, %zmm22
	vpaddd	%zmm27, %zmm22, %zmm23
	vpxord	%zmm24, %zmm23, %zmm22
	vprold	$24, %zmm22, %zmm22
	vpaddd	%zmm26, %zmm22, %zmm24
	vmovdqa64	.LCPI7_4(%rip), %zmm26
	vpermi2d	%zmm25, %zmm19, %zmm26
	vpshufd	$78, %zmm22, %zmm28
	vpunpcklqdq	%zmm17, %zmm18, %zmm29
	vmovdqa64	.LCPI7_5(%rip), %zmm22
	vshufps	$236, %zmm4, %zmm5, %zmm30
	vpxord	%zmm27, %zmm24, %zmm27
	vmovaps	.LCPI7_6(%rip), %zmm31
	vpermi2ps	%zmm21, %zmm30, %zmm31
	vpaddd	%zmm16, %zmm23, %zmm23
	vprold	$25, %zmm27, %zmm27
	vpshufd	$57, %zmm23, %zmm23
	vpaddd	%zmm23, %zmm27, %zmm23
	vpxord	%zmm28, %zmm23, %zmm28
	vpshufd	$147, %zmm24, %zmm24
	vprold	$16, %zmm28, %zmm28
	vpaddd	%zmm24, %zmm28, %zmm24
	vpxord	%zmm27, %zmm24, %zmm27
	vprold	$20, %zmm27, %zmm27
	vpaddd	%zmm26, %zmm23, %zmm23
	vpaddd	%zmm27, %zmm23, %zmm23
	vpxord	%zmm28, %zmm23, %zmm26
	vpermt2d	%zmm4, %zmm22, %zmm29
	vprold	$24, %zmm26, %zmm26
	vpaddd	%zmm24, %zmm26, %zmm24
	vpxord	%zmm27, %zmm24, %zmm27
	vprold	$25, %zmm27, %zmm27
	vpshufd	$147, %zmm23, %zmm23
	vpaddd	%zmm29, %zmm23, %zmm23
	vpshufd	$78, %zmm26, %zmm26
	vpshufd	$57, %zmm24, %zmm24
	vpaddd	%zmm27, %zmm23, %zmm23
	vpxord	%zmm26, %zmm23, %zmm26
	vprold	$16, %zmm26, %zmm26
	vpaddd	%zmm24, %zmm26, %zmm28
	vpxord	%zmm27, %zmm28, %zmm24
	vprold	$20, %zmm24, %zmm27
	vpaddd	%zmm31, %zmm23, %zmm23
	vshufps	$139, %zmm25, %zmm16, %zmm24
	vpaddd	%zmm27, %zmm23, %zmm29
	vpxord	%zmm26, %zmm29, %zmm23
	vprold	$24, %zmm23, %zmm23
	vpaddd	%zmm28, %zmm23, %zmm26
	vpshufd	$78, %zmm23, %zmm28
	vmovdqa64	.LCPI7_7(%rip), %zmm30
	vpermi2d	%zmm4, %zmm16, %zmm30
	vpxord	%zmm27, %zmm26, %zmm27
	vshufps	$236, %zmm21, %zmm5, %zmm31
	vmovaps	.LCPI7_8(%rip), %zmm6
	vmovaps	.LCPI7_9(%rip), %zmm23
	vprold	$25, %zmm27, %zmm27
	vpaddd	%zmm24, %zmm29, %zmm29
	vpshufd	$57, %zmm29, %zmm29
	vpaddd	%zmm29, %zmm27, %zmm29
	vpshufd	$147, %zmm26, %zmm26
	vpxord	%zmm28, %zmm29, %zmm28
	vprold	$16, %zmm28, %zmm28
	vpaddd	%zmm26, %zmm28, %zmm26
	vpermi2ps	%zmm18, %zmm31, %zmm6
	vpxord	%zmm27, %zmm26, %zmm27
	vprold	$20, %zmm27, %zmm27
	vpaddd	%zmm30, %zmm29, %zmm29
	vshufps	$200, %zmm18, %zmm17, %zmm30
	vpaddd	%zmm27, %zmm29, %zmm29
	vpxord	%zmm28, %zmm29, %zmm28
	vprold	$24, %zmm28, %zmm28
	vpermt2ps	%zmm20, %zmm23, %zmm30
	vpaddd	%zmm26, %zmm28, %zmm26
	vpxord	%zmm27, %zmm26, %zmm27
	vpshufd	$147, %zmm29, %zmm29
	vprold	$25, %zmm27, %zmm27
	vpaddd	%zmm6, %zmm29, %zmm29
	vpshufd	$78, %zmm28, %zmm28
	vpaddd	%zmm27, %zmm29, %zmm29
	vpshufd	$57, %zmm26, %zmm26
	vpxord	%zmm28, %zmm29, %zmm28
	vprold	$16, %zmm28, %zmm28
	vpaddd	%zmm26, %zmm28, %zmm26
	vpxord	%zmm27, %zmm26, %zmm27
	vprold	$20, %zmm27, %zmm31
	vpaddd	%zmm30, %zmm29, %zmm27
	vpaddd	%zmm31, %zmm27, %zmm29
	vpxord	%zmm28, %zmm29, %zmm27
	vprold	$24, %zmm27, %zmm28
	vpaddd	%zmm26, %zmm28, %zmm30
	vshufps	$130, %zmm4, %zmm25, %zmm27
	vpshufd	$78, %zmm28, %zmm28
	vmovdqa64	.LCPI7_10(%rip), %zmm6
	vpermi2d	%zmm18, %zmm24, %zmm6
	vshufps	$8, %zmm21, %zmm17, %zmm25
	vpxord	%zmm31, %zmm30, %zmm31
	vmovaps	.LCPI7_11(%rip), %zmm7
	vmovaps	.LCPI7_12(%rip), %zmm26
	vpaddd	%zmm27, %zmm29, %zmm29
	vprold	$25, %zmm31, %zmm31
	vpshufd	$57, %zmm29, %zmm29
	vpaddd	%zmm29, %zmm31, %zmm29
	vpxord	%zmm28, %zmm29, %zmm28
	vpshufd	$147, %zmm30, %zmm30
	vprold	$16, %zmm28, %zmm28
	vpaddd	%zmm30, %zmm28, %zmm30
	vpxord	%zmm31, %zmm30, %zmm31
	vshufps	$195, %zmm5, %zmm19, %zmm8
	vprold	$20, %zmm31, %zmm31
	vpaddd	%zmm6, %zmm29, %zmm29
	vpaddd	%zmm31, %zmm29, %zmm29
	vpermi2ps	%zmm5, %zmm25, %zmm7
	vpxord	%zmm28, %zmm29, %zmm28
	vprold	$24, %zmm28, %zmm28
	vpaddd	%zmm30, %zmm28, %zmm30
	vpxord	%zmm31, %zmm30, %zmm31
	vprold	$25, %zmm31, %zmm31
	vpshufd	$147, %zmm29, %zmm29
	vpaddd	%zmm7, %zmm29, %zmm29
	vpermt2ps	%zmm20, %zmm26, %zmm8
	vpshufd	$57, %zmm30, %zmm30
	vpshufd	$78, %zmm28, %zmm28
	vpaddd	%zmm31, %zmm29, %zmm29
	vpxord	%zmm28, %zmm29, %zmm28
	vprold	$16, %zmm28, %zmm28
	vpaddd	%zmm30, %zmm28, %zmm30
	vpxord	%zmm31, %zmm30, %zmm31
	vprold	$20, %zmm31, %zmm31
	vpaddd	%zmm8, %zmm29, %zmm29
	vpaddd	%zmm31, %zmm29, %zmm29
	vpxord	%zmm28, %zmm29, %zmm28
	vprold	$24, %zmm28, %zmm28
	vpaddd	%zmm30, %zmm28, %zmm30
	vmovdqa64	.LCPI7_13(%rip), %zmm6
	vpermi2d	%zmm5, %zmm27, %zmm6
	vpxord	%zmm31, %zmm30, %zmm31
	vmovaps	.LCPI7_14(%rip), %zmm7
	vpermi2ps	%zmm20, %zmm21, %zmm7
	vpshufd	$57, %zmm29, %zmm29
	vprold	$25, %zmm31, %zmm31
	vmovdqa64	.LCPI7_16(%rip), %zmm8
	vpermi2d	%zmm5, %zmm4, %zmm8
	vpaddd	%zmm8, %zmm29, %zmm29
	vpshufd	$78, %zmm28, %zmm28
	vmovaps	.LCPI7_15(%rip), %zmm8
	vpaddd	%zmm29, %zmm31, %zmm29
	vpxord	%zmm28, %zmm29, %zmm28
	vpshufd	$147, %zmm30, %zmm30
	vprold	$16, %zmm28, %zmm28
	vpaddd	%zmm30, %zmm28, %zmm30
	vpxord	%zmm31, %zmm30, %zmm31
	vshufpd	$170, %zmm25, %zmm27, %zmm25
	vprold	$20, %zmm31, %zmm31
	vpaddd	%zmm6, %zmm29, %zmm29
	vpaddd	%zmm31, %zmm29, %zmm29
	vpermi2ps	%zmm20, %zmm16, %zmm8
	vpxord	%zmm28, %zmm29, %zmm28
	vprold	$24, %zmm28, %zmm28
	vpaddd	%zmm30, %zmm28, %zmm30
	vpxord	%zmm31, %zmm30, %zmm31
	vprold	$25, %zmm31, %zmm31
	vpshufd	$147, %zmm29, %zmm29
	vpaddd	%zmm7, %zmm29, %zmm29
	vpshufd	$57, %zmm30, %zmm30
	vpshufd	$78, %zmm28, %zmm28
	vpaddd	%zmm31, %zmm29, %zmm29
	vpxord	%zmm28, %zmm29, %zmm28
	vprold	$16, %zmm28, %zmm28
	vpaddd	%zmm30, %zmm28, %zmm30
	vpxord	%zmm31, %zmm30, %zmm31
	vpaddd	%zmm8, %zmm29, %zmm29
	vprold	$20, %zmm31, %zmm31
	vpaddd	%zmm31, %zmm29, %zmm29
	vpxord	%zmm28, %zmm29, %zmm28
	vprold	$24, %zmm28, %zmm28
	vpaddd	%zmm30, %zmm28, %zmm30
	vpshufd	$78, %zmm28, %zmm28
	vmovaps	.LCPI7_17(%rip), %zmm6
	vpermi2ps	%zmm17, %zmm4, %zmm6
	vpxord	%zmm31, %zmm30, %zmm31
	vpunpcklqdq	%zmm27, %zmm16, %zmm27
	vpshufd	$57, %zmm29, %zmm29
	vmovdqa64	.LCPI7_18(%rip), %zmm7
	vprold	$25, %zmm31, %zmm31
	vpermi2d	%zmm4, %zmm5, %zmm7
	vpaddd	%zmm7, %zmm29, %zmm29
	vpaddd	%zmm29, %zmm31, %zmm29
	vpshufd	$147, %zmm30, %zmm30
	vpxord	%zmm28, %zmm29, %zmm28
	vprold	$16, %zmm28, %zmm28
	vpaddd	%zmm30, %zmm28, %zmm30
	vshufpd	$170, %zmm21, %zmm24, %zmm21
	vpxord	%zmm31, %zmm30, %zmm24
	vprold	$20, %zmm24, %zmm24
	vpaddd	%zmm6, %zmm29, %zmm29
	vpermt2d	%zmm20, %zmm22, %zmm27
	vpaddd	%zmm24, %zmm29, %zmm20
	vpxord	%zmm28, %zmm20, %zmm22
	vprold	$24, %zmm22, %zmm22
	vpermt2ps	%zmm5, %zmm26, %zmm21
	vpaddd	%zmm30, %zmm22, %zmm26
	vpxord	%zmm24, %zmm26, %zmm24
	vpshufd	$147, %zmm20, %zmm20
	vprold	$25, %zmm24, %zmm24
	vpaddd	%zmm27, %zmm20, %zmm20
	vpshufd	$78, %zmm22, %zmm22
	vpaddd	%zmm24, %zmm20, %zmm20
	vpshufd	$57, %zmm26, %zmm26
	vpxord	%zmm22, %zmm20, %zmm22
	vprold	$16, %zmm22, %zmm22
	vpaddd	%zmm26, %zmm22, %zmm26
	vpxord	%zmm24, %zmm26, %zmm24
	vprold	$20, %zmm24, %zmm24
	vpaddd	%zmm21, %zmm20, %zmm20
	vpaddd	%zmm24, %zmm20, %zmm20
	vpxord	%zmm22, %zmm20, %zmm21
	vprold	$24, %zmm21, %zmm21
	vpaddd	%zmm26, %zmm21, %zmm22
	vmovaps	.LCPI7_19(%rip), %zmm26
	vpshufd	$78, %zmm21, %zmm21
	vpermi2ps	%zmm19, %zmm18, %zmm26
	vmovdqa64	.LCPI7_20(%rip), %zmm18
	vpermi2d	%zmm4, %zmm16, %zmm18
	vpxord	%zmm24, %zmm22, %zmm16
	vpshufd	$57, %zmm20, %zmm19
	vmovaps	.LCPI7_21(%rip), %zmm20
	vpermi2ps	%zmm17, %zmm5, %zmm20
	vprold	$25, %zmm16, %zmm5
	vpaddd	%zmm20, %zmm19, %zmm16
	vpaddd	%zmm16, %zmm5, %zmm16
	vpxord	%zmm21, %zmm16, %zmm17
	vpshufd	$147, %zmm22, %zmm19
	vprold	$16, %zmm17, %zmm17
	vpaddd	%zmm19, %zmm17, %zmm19
	vpxord	%zmm5, %zmm19, %zmm5
	vprold	$20, %zmm5, %zmm5
	vpaddd	%zmm26, %zmm16, %zmm16
	vpaddd	%zmm5, %zmm16, %zmm16
	vpxord	%zmm17, %zmm16, %zmm17
	vpermt2ps	%zmm4, %zmm23, %zmm25
	vprold	$24, %zmm17, %zmm4
	vpaddd	%zmm19, %zmm4, %zmm17
	vpxord	%zmm5, %zmm17, %zmm5
	vprold	$25, %zmm5, %zmm5
	vpshufd	$147, %zmm16, %zmm16
	vpaddd	%zmm18, %zmm16, %zmm16
	vpshufd	$78, %zmm4, %zmm4
	vpshufd	$57, %zmm17, %zmm17
	vpaddd	%zmm5, %zmm16, %zmm16
	vpxord	%zmm4, %zmm16, %zmm4
	vprold	$16, %zmm4, %zmm4
	vpaddd	%zmm17, %zmm4, %zmm17
	vpxord	%zmm5, %zmm17, %zmm5
	vprold	$20, %zmm5, %zmm5
	vpaddd	%zmm25, %zmm16, %zmm16
	vpaddd	%zmm5, %zmm16, %zmm16
	vpxord	%zmm4, %zmm16, %zmm4
	vprold	$24, %zmm4, %zmm4
	vpaddd	%zmm17, %zmm4, %zmm17
	vpxord	%zmm5, %zmm17, %zmm5
	vprold	$25, %zmm5, %zmm5
	vpshufd	$57, %zmm16, %zmm16
	vpshufd	$147, %zmm17, %zmm17
	vpxord	%zmm16, %zmm17, %zmm23
	vpshufd	$78, %zmm4, %zmm4
	vpxord	%zmm4, %zmm5, %zmm22
	addq	$64, %r10
	cmpq	$1024, %r10
	jne	.LBB7_1
	vmovdqa64	.LCPI7_22(%rip), %zmm0
	vpermd	%zmm23, %zmm0, %zmm1
	vpermd	%zmm22, %zmm0, %zmm0
	vmovdqu64	%zmm1, (%rcx)
	vmovdqu64	%zmm0, 64(%rcx)
	vmovaps	-64(%rbp), %xmm6
	vmovaps	-48(%rbp), %xmm7
	vmovaps	-32(%rbp), %xmm8
	vmovaps	-16(%rbp), %xmm9
	movq	%rbp, %rsp
	popq	%rbx
	popq	%rdi
	popq	%rsi
	popq	%r14
	popq	%rbp
	vzeroupper
	retq
	.seh_endproc

	.section	.rdata,"dr"
	.p2align	6, 0x0
.LCPI8_0:
	.byte	64
	.byte	0
	.byte	0
	.byte	0
	.byte	64
	.byte	0
	.byte	0
	.byte	0
	.byte	64
	.byte	0
	.byte	0
	.byte	0
	.byte	64
	.byte	0
	.byte	0
	.byte	0
	.byte	64
	.byte	0
	.byte	0
	.byte	0
	.byte	64
	.byte	0
	.byte	0
	.byte	0
	.byte	64
	.byte	0
	.byte	0
	.byte	0
	.byte	64
	.byte	0
	.byte	0
	.byte	0
	.byte	64
	.byte	0
	.byte	0
	.byte	0
	.byte	64
	.byte	0
	.byte	0
	.byte	0
	.byte	64
	.byte	0
	.byte	0
	.byte	0
	.byte	64
	.byte	0
	.byte	0
	.byte	0
	.byte	64
	.byte	0
	.byte	0
	.byte	0
	.byte	64
	.byte	0
	.byte	0
	.byte	0
	.byte	64
	.byte	0
	.byte	0
	.byte	0
	.byte	64
	.byte	0
	.byte	0
	.byte	0
.LCPI8_1:
	.long	1779033703
.LCPI8_2:
	.long	3144134277
.LCPI8_3:
	.long	1013904242
.LCPI8_4:
	.long	2773480762
.LCPI8_5:
	.byte	64
	.byte	0
	.byte	0
	.byte	0
	.section	.text
	.p2align	4
	.def	"keyed_blake3::chunks::chunk_values::<#2e65a0a13cda87df>";
	.scl	3;
	.type	32;
	.endef
"keyed_blake3::chunks::chunk_values::<#2e65a0a13cda87df>":
.seh_proc "keyed_blake3::chunks::chunk_values::<#2e65a0a13cda87df>"
	pushq	%rbp
	.seh_pushreg %rbp
	pushq	%r15
	.seh_pushreg %r15
	pushq	%r14
	.seh_pushreg %r14
	pushq	%r13
	.seh_pushreg %r13
	pushq	%r12
	.seh_pushreg %r12
	pushq	%rsi
	.seh_pushreg %rsi
	pushq	%rdi
	.seh_pushreg %rdi
	pushq	%rbx
	.seh_pushreg %rbx
	subq	$1592, %rsp
	.seh_stackalloc 1592
	leaq	128(%rsp), %rbp
	.seh_setframe %rbp, 128
	vmovdqa	%xmm15, 1440(%rbp)
	.seh_savexmm %xmm15, 1568
	vmovdqa	%xmm14, 1424(%rbp)
	.seh_savexmm %xmm14, 1552
	vmovdqa	%xmm13, 1408(%rbp)
	.seh_savexmm %xmm13, 1536
	vmovdqa	%xmm12, 1392(%rbp)
	.seh_savexmm %xmm12, 1520
	vmovdqa	%xmm11, 1376(%rbp)
	.seh_savexmm %xmm11, 1504
	vmovdqa	%xmm10, 1360(%rbp)
	.seh_savexmm %xmm10, 1488
	vmovdqa	%xmm9, 1344(%rbp)
	.seh_savexmm %xmm9, 1472
	vmovdqa	%xmm8, 1328(%rbp)
	.seh_savexmm %xmm8, 1456
	vmovaps	%xmm7, 1312(%rbp)
	.seh_savexmm %xmm7, 1440
	vmovaps	%xmm6, 1296(%rbp)
	.seh_savexmm %xmm6, 1424
	.seh_endprologue
	andq	$-64, %rsp
	movq	%r9, %rbx
	movq	%r8, %rdi
	movq	%rcx, 80(%rsp)
	vpbroadcastq	1568(%rbp), %zmm0
	vpaddq	(%r9), %zmm0, %zmm1
	vpaddq	64(%r9), %zmm0, %zmm0
	vpsrlq	$32, %zmm0, %zmm2
	vpsrlq	$32, %zmm1, %zmm3
	vpmovqd	%zmm3, %ymm3
	vpmovqd	%zmm2, %ymm2
	vinserti64x4	$1, %ymm2, %zmm3, %zmm2
	vmovdqa64	%zmm2, 384(%rsp)
	vpmovqd	%zmm1, %ymm1
	vpmovqd	%zmm0, %ymm0
	vinserti64x4	$1, %ymm0, %zmm1, %zmm0
	vmovdqa64	%zmm0, 320(%rsp)
	leaq	896(%rsp), %rcx
	vzeroupper
	callq	"keyed_blake3::chunks::key_of_each::<#2e65a0a13cda87df>"
	movq	(%rbx), %rax
	movq	8(%rbx), %rcx
	shlq	$10, %rax
	movq	%rax, 256(%rsp)
	shlq	$10, %rcx
	movq	%rcx, 192(%rsp)
	movq	16(%rbx), %rax
	shlq	$10, %rax
	movq	%rax, 128(%rsp)
	movq	24(%rbx), %rsi
	shlq	$10, %rsi
	movq	32(%rbx), %r13
	shlq	$10, %r13
	movq	40(%rbx), %r12
	shlq	$10, %r12
	movq	48(%rbx), %r15
	shlq	$10, %r15
	movq	56(%rbx), %r14
	shlq	$10, %r14
	movq	64(%rbx), %r8
	shlq	$10, %r8
	movq	72(%rbx), %r11
	shlq	$10, %r11
	movq	80(%rbx), %r10
	shlq	$10, %r10
	movq	88(%rbx), %r9
	shlq	$10, %r9
	movq	96(%rbx), %rdx
	shlq	$10, %rdx
	movq	104(%rbx), %rcx
	shlq	$10, %rcx
	movq	112(%rbx), %rax
	shlq	$10, %rax
	movq	120(%rbx), %rbx
	shlq	$10, %rbx
	addq	%rdi, %rbx
	addq	$32, %rbx
	movq	%rbx, 120(%rsp)
	leaq	32(%rax,%rdi), %rax
	movq	%rax, 112(%rsp)
	leaq	32(%rcx,%rdi), %rax
	movq	%rax, 104(%rsp)
	leaq	32(%rdx,%rdi), %rax
	movq	%rax, 96(%rsp)
	leaq	32(%r9,%rdi), %rax
	movq	%rax, 88(%rsp)
	leaq	32(%r10,%rdi), %r10
	leaq	32(%r11,%rdi), %r11
	leaq	32(%r8,%rdi), %rbx
	leaq	32(%r14,%rdi), %r14
	leaq	32(%r15,%rdi), %r15
	leaq	32(%r12,%rdi), %r12
	leaq	32(%r13,%rdi), %r13
	leaq	32(%rsi,%rdi), %rsi
	movq	128(%rsp), %rax
	leaq	32(%rax,%rdi), %rax
	movq	192(%rsp), %rcx
	leaq	32(%rcx,%rdi), %rcx
	movq	256(%rsp), %rdx
	leaq	32(%rdx,%rdi), %rdi
	vmovdqa64	896(%rsp), %zmm28
	vmovdqa64	960(%rsp), %zmm31
	vmovdqa64	1024(%rsp), %zmm6
	vmovdqa64	1088(%rsp), %zmm7
	vmovdqa64	1152(%rsp), %zmm26
	vmovdqa64	1216(%rsp), %zmm27
	vmovdqa64	1280(%rsp), %zmm29
	vmovdqa64	1344(%rsp), %zmm30
	xorl	%edx, %edx
	.p2align	4
.LBB8_1:
	cmpq	$1, %rdx
	movl	$0, %r9d
	adcl	$16, %r9d
	cmpq	$960, %rdx
	movl	$18, %r8d
	cmovnel	%r9d, %r8d
	vmovdqu	-32(%rdi,%rdx), %ymm0
	vmovdqu	(%rdi,%rdx), %ymm1
	prefetcht0	128(%rdi,%rdx)
	vmovdqu	-32(%rcx,%rdx), %ymm2
	vmovdqu	(%rcx,%rdx), %ymm3
	prefetcht0	128(%rcx,%rdx)
	vmovdqu	-32(%rax,%rdx), %ymm4
	vmovdqu	(%rax,%rdx), %ymm5
	prefetcht0	128(%rax,%rdx)
	vmovdqu64	-32(%rsi,%rdx), %ymm16
	vmovdqu64	(%rsi,%rdx), %ymm17
	prefetcht0	128(%rsi,%rdx)
	vmovdqu64	-32(%rbx,%rdx), %ymm18
	vmovdqu64	(%rbx,%rdx), %ymm19
	prefetcht0	128(%rbx,%rdx)
	vmovdqu64	-32(%r11,%rdx), %ymm20
	vmovdqu64	(%r11,%rdx), %ymm21
	prefetcht0	128(%r11,%rdx)
	vmovdqu64	-32(%r10,%rdx), %ymm22
	vmovdqu64	(%r10,%rdx), %ymm23
	prefetcht0	128(%r10,%rdx)
	movq	88(%rsp), %r9
	vmovdqu64	-32(%r9,%rdx), %ymm24
	vmovdqu64	(%r9,%rdx), %ymm25
	prefetcht0	128(%r9,%rdx)
	vinserti64x4	$1, -32(%r13,%rdx), %zmm0, %zmm0
	vinserti64x4	$1, (%r13,%rdx), %zmm1, %zmm1
	prefetcht0	128(%r13,%rdx)
	vinserti64x4	$1, -32(%r12,%rdx), %zmm2, %zmm2
	vinserti64x4	$1, (%r12,%rdx), %zmm3, %zmm3
	prefetcht0	128(%r12,%rdx)
	vinserti64x4	$1, -32(%r15,%rdx), %zmm4, %zmm4
	vinserti64x4	$1, (%r15,%rdx), %zmm5, %zmm5
	prefetcht0	128(%r15,%rdx)
	vinserti64x4	$1, -32(%r14,%rdx), %zmm16, %zmm16
	vinserti64x4	$1, (%r14,%rdx), %zmm17, %zmm17
	prefetcht0	128(%r14,%rdx)
	movq	96(%rsp), %r9
	vinserti64x4	$1, -32(%r9,%rdx), %zmm18, %zmm18
	vinserti64x4	$1, (%r9,%rdx), %zmm19, %zmm19
	prefetcht0	128(%r9,%rdx)
	movq	104(%rsp), %r9
	vinserti64x4	$1, -32(%r9,%rdx), %zmm20, %zmm20
	vinserti64x4	$1, (%r9,%rdx), %zmm21, %zmm21
	prefetcht0	128(%r9,%rdx)
	movq	112(%rsp), %r9
	vinserti64x4	$1, -32(%r9,%rdx), %zmm22, %zmm22
	vinserti64x4	$1, (%r9,%rdx), %zmm23, %zmm23
	prefetcht0	128(%r9,%rdx)
	movq	120(%rsp), %r9
	vinserti64x4	$1, -32(%r9,%rdx), %zmm24, %zmm24
	vinserti64x4	$1, (%r9,%rdx), %zmm25, %zmm25
	prefetcht0	128(%r9,%rdx)
	vpbroadcastd	%r8d, %zmm8
	vpunpckldq	%zmm2, %zmm0, %zmm9
	vpunpckhdq	%zmm2, %zmm0, %zmm0
	vpunpckldq	%zmm16, %zmm4, %zmm2
	vpunpckhdq	%zmm16, %zmm4, %zmm4
	vpunpckldq	%zmm20, %zmm18, %zmm16
	vpunpckhdq	%zmm20, %zmm18, %zmm18
	vpunpckldq	%zmm24, %zmm22, %zmm20
	vpunpckhdq	%zmm24, %zmm22, %zmm22
	vpunpckldq	%zmm3, %zmm1, %zmm24
	vpunpckhdq	%zmm3, %zmm1, %zmm1
	vpunpckldq	%zmm17, %zmm5, %zmm3
	vpunpckhdq	%zmm17, %zmm5, %zmm5
	vpunpckldq	%zmm21, %zmm19, %zmm17
	vpunpckhdq	%zmm21, %zmm19, %zmm19
	vpunpckldq	%zmm25, %zmm23, %zmm21
	vpunpckhdq	%zmm25, %zmm23, %zmm23
	vpunpcklqdq	%zmm2, %zmm9, %zmm25
	vpunpckhqdq	%zmm2, %zmm9, %zmm2
	vpunpcklqdq	%zmm4, %zmm0, %zmm9
	vpunpckhqdq	%zmm4, %zmm0, %zmm10
	vpunpcklqdq	%zmm20, %zmm16, %zmm0
	vpunpckhqdq	%zmm20, %zmm16, %zmm4
	vpunpcklqdq	%zmm22, %zmm18, %zmm16
	vpunpckhqdq	%zmm22, %zmm18, %zmm20
	vpunpcklqdq	%zmm3, %zmm24, %zmm11
	vpunpckhqdq	%zmm3, %zmm24, %zmm3
	vpunpcklqdq	%zmm5, %zmm1, %zmm12
	vpunpckhqdq	%zmm5, %zmm1, %zmm13
	vpunpcklqdq	%zmm21, %zmm17, %zmm1
	vpunpckhqdq	%zmm21, %zmm17, %zmm21
	vpunpcklqdq	%zmm23, %zmm19, %zmm14
	vpunpckhqdq	%zmm23, %zmm19, %zmm15
	vshufi64x2	$136, %zmm0, %zmm25, %zmm19
	vmovdqa64	%zmm19, 640(%rsp)
	vshufi64x2	$221, %zmm0, %zmm25, %zmm0
	vshufi64x2	$136, %zmm4, %zmm2, %zmm22
	vshufi64x2	$221, %zmm4, %zmm2, %zmm24
	vmovdqa64	%zmm24, 832(%rsp)
	vshufi64x2	$136, %zmm16, %zmm9, %zmm5
	vshufi64x2	$221, %zmm16, %zmm9, %zmm18
	vshufi64x2	$136, %zmm20, %zmm10, %zmm4
	vshufi64x2	$221, %zmm20, %zmm10, %zmm17
	vshufi64x2	$136, %zmm1, %zmm11, %zmm20
	vshufi64x2	$221, %zmm1, %zmm11, %zmm1
	vshufi64x2	$136, %zmm21, %zmm3, %zmm25
	vshufi64x2	$221, %zmm21, %zmm3, %zmm3
	vshufi64x2	$136, %zmm14, %zmm12, %zmm2
	vshufi64x2	$221, %zmm14, %zmm12, %zmm16
	vshufi64x2	$136, %zmm15, %zmm13, %zmm23
	vshufi64x2	$221, %zmm15, %zmm13, %zmm21
	vpaddd	%zmm26, %zmm28, %zmm28
	vpaddd	%zmm27, %zmm31, %zmm9
	vpaddd	%zmm19, %zmm28, %zmm31
	vpaddd	%zmm5, %zmm9, %zmm28
	vpaddd	%zmm29, %zmm6, %zmm6
	vpaddd	%zmm30, %zmm7, %zmm7
	vpaddd	%zmm0, %zmm6, %zmm10
	vpaddd	%zmm18, %zmm7, %zmm11
	vmovdqa64	%zmm18, %zmm19
	vpxord	320(%rsp), %zmm31, %zmm6
	vpxord	384(%rsp), %zmm28, %zmm9
	vprold	$16, %zmm6, %zmm7
	vpxord	.LCPI8_5(%rip){1to16}, %zmm10, %zmm6
	vpxord	%zmm8, %zmm11, %zmm12
	vprold	$16, %zmm9, %zmm8
	vprold	$16, %zmm12, %zmm12
	vpaddd	.LCPI8_1(%rip){1to16}, %zmm7, %zmm9
	vprold	$16, %zmm6, %zmm13
	vpaddd	.LCPI8_4(%rip){1to16}, %zmm12, %zmm14
	vpaddd	.LCPI8_3(%rip){1to16}, %zmm13, %zmm6
	vpxord	%zmm29, %zmm6, %zmm29
	vpxord	%zmm30, %zmm14, %zmm30
	vprold	$20, %zmm30, %zmm15
	vprold	$20, %zmm29, %zmm30
	vpaddd	%zmm24, %zmm10, %zmm29
	vpaddd	%zmm17, %zmm11, %zmm10
	vmovdqa64	%zmm17, %zmm18
	vpaddd	%zmm15, %zmm10, %zmm10
	vpaddd	%zmm30, %zmm29, %zmm11
	vpxorq	%zmm10, %zmm12, %zmm29
	vprold	$24, %zmm29, %zmm12
	vpaddd	%zmm12, %zmm14, %zmm29
	vpxorq	%zmm11, %zmm13, %zmm13
	vpxord	%zmm15, %zmm29, %zmm14
	vprold	$25, %zmm14, %zmm14
	vpaddd	%zmm14, %zmm1, %zmm15
	vpaddd	%zmm15, %zmm11, %zmm11
	vpaddd	.LCPI8_2(%rip){1to16}, %zmm8, %zmm15
	vpxord	%zmm26, %zmm9, %zmm26
	vpxord	%zmm27, %zmm15, %zmm27
	vprold	$20, %zmm26, %zmm26
	vprold	$20, %zmm27, %zmm27
	vpaddd	%zmm22, %zmm31, %zmm31
	vpaddd	%zmm26, %zmm31, %zmm31
	vpaddd	%zmm4, %zmm28, %zmm28
	vpaddd	%zmm27, %zmm28, %zmm28
	vpxorq	%zmm31, %zmm7, %zmm7
	vprold	$24, %zmm7, %zmm7
	vpxorq	%zmm28, %zmm8, %zmm8
	vprold	$24, %zmm8, %zmm8
	vpaddd	%zmm7, %zmm9, %zmm9
	vpaddd	%zmm8, %zmm15, %zmm15
	vpxord	%zmm26, %zmm9, %zmm26
	vpxord	%zmm27, %zmm15, %zmm27
	vprold	$25, %zmm26, %zmm26
	vprold	$24, %zmm13, %zmm13
	vprold	$25, %zmm27, %zmm27
	vpaddd	%zmm16, %zmm10, %zmm10
	vpaddd	%zmm26, %zmm10, %zmm10
	vpaddd	%zmm13, %zmm6, %zmm6
	vpaddd	%zmm20, %zmm31, %zmm31
	vmovdqa64	%zmm20, %zmm24
	vpaddd	%zmm27, %zmm31, %zmm31
	vpaddd	%zmm2, %zmm28, %zmm28
	vpxord	%zmm30, %zmm6, %zmm30
	vpxorq	%zmm10, %zmm13, %zmm13
	vprold	$16, %zmm13, %zmm13
	vpxorq	%zmm31, %zmm12, %zmm12
	vprold	$25, %zmm30, %zmm30
	vprold	$16, %zmm12, %zmm12
	vpxorq	%zmm11, %zmm8, %zmm8
	vprold	$16, %zmm8, %zmm8
	vpaddd	%zmm30, %zmm28, %zmm28
	vpaddd	%zmm13, %zmm15, %zmm15
	vpaddd	%zmm12, %zmm6, %zmm6
	vpaddd	%zmm8, %zmm9, %zmm9
	vpxorq	%zmm28, %zmm7, %zmm7
	vpxord	%zmm26, %zmm15, %zmm26
	vpxord	%zmm27, %zmm6, %zmm27
	vpxord	%zmm14, %zmm9, %zmm14
	vprold	$20, %zmm26, %zmm26
	vprold	$20, %zmm27, %zmm27
	vprold	$20, %zmm14, %zmm14
	vpaddd	%zmm21, %zmm10, %zmm10
	vprold	$16, %zmm7, %zmm7
	vpaddd	%zmm26, %zmm10, %zmm10
	vpaddd	%zmm25, %zmm31, %zmm31
	vpaddd	%zmm27, %zmm31, %zmm31
	vpaddd	%zmm7, %zmm29, %zmm29
	vpaddd	%zmm23, %zmm28, %zmm28
	vpaddd	%zmm3, %zmm11, %zmm11
	vpaddd	%zmm14, %zmm11, %zmm11
	vpxord	%zmm30, %zmm29, %zmm30
	vpxorq	%zmm10, %zmm13, %zmm13
	vprold	$24, %zmm13, %zmm13
	vpxorq	%zmm31, %zmm12, %zmm12
	vprold	$20, %zmm30, %zmm30
	vprold	$24, %zmm12, %zmm12
	vpxorq	%zmm11, %zmm8, %zmm8
	vprold	$24, %zmm8, %zmm8
	vpaddd	%zmm30, %zmm28, %zmm28
	vpaddd	%zmm13, %zmm15, %zmm15
	vpaddd	%zmm12, %zmm6, %zmm6
	vpaddd	%zmm8, %zmm9, %zmm9
	vpxorq	%zmm28, %zmm7, %zmm7
	vpxord	%zmm26, %zmm15, %zmm26
	vpxord	%zmm27, %zmm6, %zmm27
	vpxord	%zmm14, %zmm9, %zmm14
	vprold	$25, %zmm26, %zmm26
	vprold	$25, %zmm27, %zmm27
	vprold	$25, %zmm14, %zmm14
	vmovdqa64	%zmm5, 704(%rsp)
	vpaddd	%zmm5, %zmm31, %zmm31
	vprold	$24, %zmm7, %zmm7
	vpaddd	%zmm26, %zmm31, %zmm31
	vpaddd	%zmm4, %zmm28, %zmm28
	vmovdqa64	%zmm4, 448(%rsp)
	vpaddd	%zmm27, %zmm28, %zmm28
	vpaddd	%zmm7, %zmm29, %zmm29
	vpaddd	%zmm17, %zmm11, %zmm11
	vpaddd	%zmm0, %zmm10, %zmm10
	vpaddd	%zmm14, %zmm10, %zmm10
	vpxord	%zmm30, %zmm29, %zmm30
	vpxorq	%zmm31, %zmm7, %zmm7
	vprold	$16, %zmm7, %zmm7
	vpxorq	%zmm28, %zmm8, %zmm8
	vprold	$25, %zmm30, %zmm30
	vprold	$16, %zmm8, %zmm8
	vpxorq	%zmm10, %zmm12, %zmm12
	vprold	$16, %zmm12, %zmm12
	vpaddd	%zmm30, %zmm11, %zmm11
	vpaddd	%zmm7, %zmm9, %zmm9
	vpaddd	%zmm8, %zmm15, %zmm15
	vpaddd	%zmm12, %zmm29, %zmm29
	vpxorq	%zmm11, %zmm13, %zmm13
	vpxord	%zmm26, %zmm9, %zmm26
	vpxord	%zmm27, %zmm15, %zmm27
	vpxord	%zmm14, %zmm29, %zmm14
	vprold	$20, %zmm26, %zmm26
	vprold	$20, %zmm27, %zmm27
	vprold	$20, %zmm14, %zmm14
	vpaddd	%zmm19, %zmm31, %zmm31
	vmovdqa64	%zmm19, %zmm20
	vprold	$16, %zmm13, %zmm13
	vpaddd	%zmm26, %zmm31, %zmm31
	vpaddd	%zmm2, %zmm28, %zmm28
	vpaddd	%zmm27, %zmm28, %zmm28
	vpaddd	%zmm13, %zmm6, %zmm6
	vmovdqa64	640(%rsp), %zmm19
	vpaddd	%zmm19, %zmm11, %zmm11
	vpaddd	%zmm3, %zmm10, %zmm10
	vpaddd	%zmm14, %zmm10, %zmm10
	vpxord	%zmm30, %zmm6, %zmm30
	vpxorq	%zmm31, %zmm7, %zmm7
	vprold	$24, %zmm7, %zmm7
	vpxorq	%zmm28, %zmm8, %zmm8
	vprold	$20, %zmm30, %zmm30
	vprold	$24, %zmm8, %zmm8
	vpxorq	%zmm10, %zmm12, %zmm12
	vprold	$24, %zmm12, %zmm12
	vpaddd	%zmm30, %zmm11, %zmm11
	vpaddd	%zmm7, %zmm9, %zmm9
	vpaddd	%zmm8, %zmm15, %zmm15
	vpaddd	%zmm12, %zmm29, %zmm29
	vpxorq	%zmm11, %zmm13, %zmm13
	vpxord	%zmm26, %zmm9, %zmm26
	vpxord	%zmm27, %zmm15, %zmm27
	vpxord	%zmm14, %zmm29, %zmm14
	vprold	$25, %zmm26, %zmm26
	vprold	$25, %zmm27, %zmm27
	vprold	$25, %zmm14, %zmm14
	vpaddd	%zmm21, %zmm10, %zmm10
	vprold	$24, %zmm13, %zmm13
	vpaddd	%zmm26, %zmm10, %zmm10
	vpaddd	%zmm22, %zmm31, %zmm31
	vpaddd	%zmm27, %zmm31, %zmm31
	vpaddd	%zmm13, %zmm6, %zmm6
	vpaddd	%zmm1, %zmm28, %zmm28
	vpaddd	%zmm25, %zmm11, %zmm11
	vpaddd	%zmm14, %zmm11, %zmm11
	vpxord	%zmm30, %zmm6, %zmm30
	vpxorq	%zmm10, %zmm13, %zmm13
	vprold	$16, %zmm13, %zmm13
	vpxorq	%zmm31, %zmm12, %zmm12
	vprold	$25, %zmm30, %zmm30
	vprold	$16, %zmm12, %zmm12
	vpxorq	%zmm11, %zmm8, %zmm8
	vprold	$16, %zmm8, %zmm8
	vpaddd	%zmm30, %zmm28, %zmm28
	vpaddd	%zmm13, %zmm15, %zmm15
	vpaddd	%zmm12, %zmm6, %zmm6
	vpaddd	%zmm8, %zmm9, %zmm9
	vpxorq	%zmm28, %zmm7, %zmm7
	vpxord	%zmm26, %zmm15, %zmm26
	vpxord	%zmm27, %zmm6, %zmm27
	vpxord	%zmm14, %zmm9, %zmm14
	vprold	$20, %zmm26, %zmm26
	vprold	$20, %zmm27, %zmm27
	vprold	$20, %zmm14, %zmm14
	vmovdqa64	%zmm24, 512(%rsp)
	vpaddd	%zmm24, %zmm10, %zmm10
	vprold	$16, %zmm7, %zmm7
	vpaddd	%zmm26, %zmm10, %zmm10
	vpaddd	%zmm23, %zmm31, %zmm31
	vpaddd	%zmm27, %zmm31, %zmm31
	vpaddd	%zmm7, %zmm29, %zmm29
	vmovdqa64	832(%rsp), %zmm17
	vpaddd	%zmm17, %zmm28, %zmm28
	vpaddd	%zmm16, %zmm11, %zmm11
	vpaddd	%zmm14, %zmm11, %zmm11
	vpxord	%zmm30, %zmm29, %zmm30
	vpxorq	%zmm10, %zmm13, %zmm13
	vprold	$24, %zmm13, %zmm13
	vpxorq	%zmm31, %zmm12, %zmm12
	vprold	$20, %zmm30, %zmm30
	vprold	$24, %zmm12, %zmm12
	vpxorq	%zmm11, %zmm8, %zmm8
	vprold	$24, %zmm8, %zmm8
	vpaddd	%zmm30, %zmm28, %zmm28
	vpaddd	%zmm13, %zmm15, %zmm15
	vpaddd	%zmm12, %zmm6, %zmm6
	vpaddd	%zmm8, %zmm9, %zmm9
	vpxorq	%zmm28, %zmm7, %zmm7
	vpxord	%zmm26, %zmm15, %zmm26
	vpxord	%zmm27, %zmm6, %zmm27
	vpxord	%zmm14, %zmm9, %zmm14
	vprold	$25, %zmm26, %zmm26
	vprold	$25, %zmm27, %zmm27
	vprold	$25, %zmm14, %zmm14
	vpaddd	%zmm4, %zmm31, %zmm31
	vprold	$24, %zmm7, %zmm7
	vpaddd	%zmm26, %zmm31, %zmm31
	vpaddd	%zmm2, %zmm28, %zmm28
	vpaddd	%zmm27, %zmm28, %zmm28
	vpaddd	%zmm7, %zmm29, %zmm29
	vpaddd	%zmm3, %zmm11, %zmm11
	vpaddd	%zmm18, %zmm10, %zmm10
	vmovdqa64	%zmm18, %zmm4
	vpaddd	%zmm14, %zmm10, %zmm10
	vpxord	%zmm30, %zmm29, %zmm30
	vpxorq	%zmm31, %zmm7, %zmm7
	vprold	$16, %zmm7, %zmm7
	vpxorq	%zmm28, %zmm8, %zmm8
	vprold	$25, %zmm30, %zmm30
	vprold	$16, %zmm8, %zmm8
	vpxorq	%zmm10, %zmm12, %zmm12
	vprold	$16, %zmm12, %zmm12
	vpaddd	%zmm30, %zmm11, %zmm11
	vpaddd	%zmm7, %zmm9, %zmm9
	vpaddd	%zmm8, %zmm15, %zmm15
	vpaddd	%zmm12, %zmm29, %zmm29
	vpxorq	%zmm11, %zmm13, %zmm13
	vpxord	%zmm26, %zmm9, %zmm26
	vpxord	%zmm27, %zmm15, %zmm27
	vpxord	%zmm14, %zmm29, %zmm14
	vprold	$20, %zmm26, %zmm26
	vprold	$20, %zmm27, %zmm27
	vprold	$20, %zmm14, %zmm14
	vpaddd	%zmm0, %zmm31, %zmm31
	vprold	$16, %zmm13, %zmm13
	vpaddd	%zmm26, %zmm31, %zmm31
	vpaddd	%zmm1, %zmm28, %zmm28
	vpaddd	%zmm27, %zmm28, %zmm28
	vpaddd	%zmm13, %zmm6, %zmm6
	vpaddd	%zmm5, %zmm11, %zmm11
	vpaddd	%zmm16, %zmm10, %zmm10
	vpaddd	%zmm14, %zmm10, %zmm10
	vpxord	%zmm30, %zmm6, %zmm30
	vpxorq	%zmm31, %zmm7, %zmm7
	vprold	$24, %zmm7, %zmm7
	vpxorq	%zmm28, %zmm8, %zmm8
	vprold	$20, %zmm30, %zmm30
	vprold	$24, %zmm8, %zmm8
	vpxorq	%zmm10, %zmm12, %zmm12
	vprold	$24, %zmm12, %zmm12
	vpaddd	%zmm30, %zmm11, %zmm11
	vpaddd	%zmm7, %zmm9, %zmm9
	vpaddd	%zmm8, %zmm15, %zmm15
	vpaddd	%zmm12, %zmm29, %zmm29
	vpxorq	%zmm11, %zmm13, %zmm13
	vpxord	%zmm26, %zmm9, %zmm26
	vpxord	%zmm27, %zmm15, %zmm27
	vpxord	%zmm14, %zmm29, %zmm14
	vprold	$25, %zmm26, %zmm26
	vprold	$25, %zmm27, %zmm27
	vprold	$25, %zmm14, %zmm14
	vpaddd	%zmm24, %zmm10, %zmm10
	vprold	$24, %zmm13, %zmm13
	vpaddd	%zmm26, %zmm10, %zmm10
	vpaddd	%zmm20, %zmm31, %zmm31
	vmovdqa64	%zmm20, %zmm18
	vpaddd	%zmm27, %zmm31, %zmm31
	vpaddd	%zmm13, %zmm6, %zmm6
	vpaddd	%zmm25, %zmm28, %zmm28
	vpaddd	%zmm23, %zmm11, %zmm11
	vmovdqa64	%zmm23, %zmm5
	vpaddd	%zmm14, %zmm11, %zmm11
	vpxord	%zmm30, %zmm6, %zmm30
	vpxorq	%zmm10, %zmm13, %zmm13
	vprold	$16, %zmm13, %zmm13
	vpxorq	%zmm31, %zmm12, %zmm12
	vprold	$25, %zmm30, %zmm30
	vprold	$16, %zmm12, %zmm12
	vpxorq	%zmm11, %zmm8, %zmm8
	vprold	$16, %zmm8, %zmm8
	vpaddd	%zmm30, %zmm28, %zmm28
	vpaddd	%zmm13, %zmm15, %zmm15
	vpaddd	%zmm12, %zmm6, %zmm6
	vpaddd	%zmm8, %zmm9, %zmm9
	vpxorq	%zmm28, %zmm7, %zmm7
	vpxord	%zmm26, %zmm15, %zmm26
	vpxord	%zmm27, %zmm6, %zmm27
	vpxord	%zmm14, %zmm9, %zmm14
	vprold	$20, %zmm26, %zmm26
	vprold	$20, %zmm27, %zmm27
	vprold	$20, %zmm14, %zmm14
	vmovdqa64	%zmm22, 576(%rsp)
	vpaddd	%zmm22, %zmm10, %zmm10
	vprold	$16, %zmm7, %zmm7
	vpaddd	%zmm26, %zmm10, %zmm10
	vpaddd	%zmm17, %zmm31, %zmm31
	vpaddd	%zmm27, %zmm31, %zmm31
	vpaddd	%zmm7, %zmm29, %zmm29
	vpaddd	%zmm19, %zmm28, %zmm28
	vpaddd	%zmm21, %zmm11, %zmm11
	vpaddd	%zmm14, %zmm11, %zmm11
	vpxord	%zmm30, %zmm29, %zmm30
	vpxorq	%zmm10, %zmm13, %zmm13
	vprold	$24, %zmm13, %zmm13
	vpxorq	%zmm31, %zmm12, %zmm12
	vprold	$20, %zmm30, %zmm30
	vprold	$24, %zmm12, %zmm12
	vpxorq	%zmm11, %zmm8, %zmm8
	vprold	$24, %zmm8, %zmm8
	vpaddd	%zmm30, %zmm28, %zmm28
	vpaddd	%zmm13, %zmm15, %zmm15
	vpaddd	%zmm12, %zmm6, %zmm6
	vpaddd	%zmm8, %zmm9, %zmm9
	vpxorq	%zmm28, %zmm7, %zmm7
	vpxord	%zmm26, %zmm15, %zmm26
	vpxord	%zmm27, %zmm6, %zmm27
	vpxord	%zmm14, %zmm9, %zmm14
	vprold	$25, %zmm26, %zmm26
	vprold	$25, %zmm27, %zmm27
	vprold	$25, %zmm14, %zmm14
	vmovdqa64	%zmm2, 192(%rsp)
	vpaddd	%zmm2, %zmm31, %zmm31
	vprold	$24, %zmm7, %zmm7
	vpaddd	%zmm26, %zmm31, %zmm31
	vpaddd	%zmm1, %zmm28, %zmm28
	vpaddd	%zmm27, %zmm28, %zmm28
	vpaddd	%zmm7, %zmm29, %zmm29
	vpaddd	%zmm16, %zmm11, %zmm11
	vpaddd	%zmm3, %zmm10, %zmm10
	vpaddd	%zmm14, %zmm10, %zmm10
	vpxord	%zmm30, %zmm29, %zmm30
	vpxorq	%zmm31, %zmm7, %zmm7
	vprold	$16, %zmm7, %zmm7
	vpxorq	%zmm28, %zmm8, %zmm8
	vprold	$25, %zmm30, %zmm30
	vprold	$16, %zmm8, %zmm8
	vpxorq	%zmm10, %zmm12, %zmm12
	vprold	$16, %zmm12, %zmm12
	vpaddd	%zmm30, %zmm11, %zmm11
	vpaddd	%zmm7, %zmm9, %zmm9
	vpaddd	%zmm8, %zmm15, %zmm15
	vpaddd	%zmm12, %zmm29, %zmm29
	vpxorq	%zmm11, %zmm13, %zmm13
	vpxord	%zmm26, %zmm9, %zmm26
	vpxord	%zmm27, %zmm15, %zmm27
	vpxord	%zmm14, %zmm29, %zmm14
	vprold	$20, %zmm26, %zmm26
	vprold	$20, %zmm27, %zmm27
	vprold	$20, %zmm14, %zmm14
	vpaddd	%zmm4, %zmm31, %zmm31
	vmovdqa64	%zmm4, 128(%rsp)
	vprold	$16, %zmm13, %zmm13
	vpaddd	%zmm26, %zmm31, %zmm31
	vpaddd	%zmm25, %zmm28, %zmm28
	vmovdqa64	%zmm25, %zmm20
	vpaddd	%zmm27, %zmm28, %zmm28
	vpaddd	%zmm13, %zmm6, %zmm6
	vmovdqa64	448(%rsp), %zmm23
	vpaddd	%zmm23, %zmm11, %zmm11
	vpaddd	%zmm21, %zmm10, %zmm10
	vpaddd	%zmm14, %zmm10, %zmm10
	vpxord	%zmm30, %zmm6, %zmm30
	vpxorq	%zmm31, %zmm7, %zmm7
	vprold	$24, %zmm7, %zmm7
	vpxorq	%zmm28, %zmm8, %zmm8
	vprold	$20, %zmm30, %zmm30
	vprold	$24, %zmm8, %zmm8
	vpxorq	%zmm10, %zmm12, %zmm12
	vprold	$24, %zmm12, %zmm12
	vpaddd	%zmm30, %zmm11, %zmm11
	vpaddd	%zmm7, %zmm9, %zmm9
	vpaddd	%zmm8, %zmm15, %zmm15
	vpaddd	%zmm12, %zmm29, %zmm29
	vpxorq	%zmm11, %zmm13, %zmm13
	vpxord	%zmm26, %zmm9, %zmm26
	vpxord	%zmm27, %zmm15, %zmm27
	vpxord	%zmm14, %zmm29, %zmm14
	vprold	$25, %zmm26, %zmm26
	vprold	$25, %zmm27, %zmm27
	vprold	$25, %zmm14, %zmm14
	vpaddd	%zmm22, %zmm10, %zmm10
	vprold	$24, %zmm13, %zmm13
	vpaddd	%zmm26, %zmm10, %zmm10
	vpaddd	%zmm0, %zmm31, %zmm31
	vpaddd	%zmm27, %zmm31, %zmm31
	vpaddd	%zmm13, %zmm6, %zmm6
	vmovdqa64	%zmm5, %zmm25
	vpaddd	%zmm5, %zmm28, %zmm28
	vpaddd	%zmm17, %zmm11, %zmm11
	vmovdqa64	%zmm17, %zmm24
	vpaddd	%zmm14, %zmm11, %zmm11
	vpxord	%zmm30, %zmm6, %zmm30
	vpxorq	%zmm10, %zmm13, %zmm13
	vprold	$16, %zmm13, %zmm13
	vpxorq	%zmm31, %zmm12, %zmm12
	vprold	$25, %zmm30, %zmm30
	vprold	$16, %zmm12, %zmm12
	vpxorq	%zmm11, %zmm8, %zmm8
	vprold	$16, %zmm8, %zmm8
	vpaddd	%zmm30, %zmm28, %zmm28
	vpaddd	%zmm13, %zmm15, %zmm15
	vpaddd	%zmm12, %zmm6, %zmm6
	vpaddd	%zmm8, %zmm9, %zmm9
	vpxorq	%zmm28, %zmm7, %zmm7
	vpxord	%zmm26, %zmm15, %zmm26
	vpxord	%zmm27, %zmm6, %zmm27
	vpxord	%zmm14, %zmm9, %zmm14
	vprold	$20, %zmm26, %zmm26
	vprold	$20, %zmm27, %zmm27
	vprold	$20, %zmm14, %zmm14
	vmovdqa64	%zmm18, %zmm17
	vmovdqa64	%zmm18, 768(%rsp)
	vpaddd	%zmm18, %zmm10, %zmm10
	vprold	$16, %zmm7, %zmm7
	vpaddd	%zmm26, %zmm10, %zmm10
	vpaddd	%zmm19, %zmm31, %zmm31
	vpaddd	%zmm27, %zmm31, %zmm31
	vpaddd	%zmm7, %zmm29, %zmm29
	vmovdqa64	704(%rsp), %zmm5
	vpaddd	%zmm5, %zmm28, %zmm28
	vmovdqa64	512(%rsp), %zmm22
	vpaddd	%zmm22, %zmm11, %zmm11
	vpaddd	%zmm14, %zmm11, %zmm11
	vpxord	%zmm30, %zmm29, %zmm30
	vpxorq	%zmm10, %zmm13, %zmm13
	vprold	$24, %zmm13, %zmm13
	vpxorq	%zmm31, %zmm12, %zmm12
	vprold	$20, %zmm30, %zmm30
	vprold	$24, %zmm12, %zmm12
	vpxorq	%zmm11, %zmm8, %zmm8
	vprold	$24, %zmm8, %zmm8
	vpaddd	%zmm30, %zmm28, %zmm28
	vpaddd	%zmm13, %zmm15, %zmm15
	vpaddd	%zmm12, %zmm6, %zmm6
	vpaddd	%zmm8, %zmm9, %zmm9
	vpxorq	%zmm28, %zmm7, %zmm7
	vpxord	%zmm26, %zmm15, %zmm26
	vpxord	%zmm27, %zmm6, %zmm27
	vpxord	%zmm14, %zmm9, %zmm14
	vprold	$25, %zmm26, %zmm26
	vprold	$25, %zmm27, %zmm27
	vprold	$25, %zmm14, %zmm14
	vpaddd	%zmm1, %zmm31, %zmm31
	vmovdqa64	%zmm1, %zmm18
	vmovdqa64	%zmm1, 256(%rsp)
	vprold	$24, %zmm7, %zmm7
	vpaddd	%zmm26, %zmm31, %zmm31
	vpaddd	%zmm20, %zmm28, %zmm28
	vpaddd	%zmm27, %zmm28, %zmm28
	vpaddd	%zmm7, %zmm29, %zmm29
	vpaddd	%zmm21, %zmm11, %zmm11
	vpaddd	%zmm16, %zmm10, %zmm10
	vpaddd	%zmm14, %zmm10, %zmm10
	vpxord	%zmm30, %zmm29, %zmm30
	vpxorq	%zmm31, %zmm7, %zmm7
	vprold	$16, %zmm7, %zmm7
	vpxorq	%zmm28, %zmm8, %zmm8
	vprold	$25, %zmm30, %zmm30
	vprold	$16, %zmm8, %zmm8
	vpxorq	%zmm10, %zmm12, %zmm12
	vprold	$16, %zmm12, %zmm12
	vpaddd	%zmm30, %zmm11, %zmm11
	vpaddd	%zmm7, %zmm9, %zmm9
	vpaddd	%zmm8, %zmm15, %zmm15
	vpaddd	%zmm12, %zmm29, %zmm29
	vpxorq	%zmm11, %zmm13, %zmm13
	vpxord	%zmm26, %zmm9, %zmm26
	vpxord	%zmm27, %zmm15, %zmm27
	vpxord	%zmm14, %zmm29, %zmm14
	vprold	$20, %zmm26, %zmm26
	vprold	$20, %zmm27, %zmm27
	vprold	$20, %zmm14, %zmm14
	vpaddd	%zmm3, %zmm31, %zmm31
	vprold	$16, %zmm13, %zmm13
	vpaddd	%zmm26, %zmm31, %zmm31
	vpaddd	%zmm25, %zmm28, %zmm28
	vpaddd	%zmm27, %zmm28, %zmm28
	vpaddd	%zmm13, %zmm6, %zmm6
	vpaddd	%zmm2, %zmm11, %zmm11
	vpaddd	%zmm22, %zmm10, %zmm10
	vpaddd	%zmm14, %zmm10, %zmm10
	vpxord	%zmm30, %zmm6, %zmm30
	vpxorq	%zmm31, %zmm7, %zmm7
	vprold	$24, %zmm7, %zmm7
	vpxorq	%zmm28, %zmm8, %zmm8
	vprold	$20, %zmm30, %zmm30
	vprold	$24, %zmm8, %zmm8
	vpxorq	%zmm10, %zmm12, %zmm12
	vprold	$24, %zmm12, %zmm12
	vpaddd	%zmm30, %zmm11, %zmm11
	vpaddd	%zmm7, %zmm9, %zmm9
	vpaddd	%zmm8, %zmm15, %zmm15
	vpaddd	%zmm12, %zmm29, %zmm29
	vpxorq	%zmm11, %zmm13, %zmm13
	vpxord	%zmm26, %zmm9, %zmm26
	vpxord	%zmm27, %zmm15, %zmm27
	vpxord	%zmm14, %zmm29, %zmm14
	vprold	$25, %zmm26, %zmm26
	vprold	$25, %zmm27, %zmm27
	vprold	$25, %zmm14, %zmm14
	vpaddd	%zmm17, %zmm10, %zmm10
	vprold	$24, %zmm13, %zmm13
	vpaddd	%zmm26, %zmm10, %zmm10
	vpaddd	%zmm4, %zmm31, %zmm31
	vpaddd	%zmm27, %zmm31, %zmm31
	vpaddd	%zmm13, %zmm6, %zmm6
	vpaddd	%zmm24, %zmm28, %zmm28
	vpaddd	%zmm19, %zmm11, %zmm11
	vpaddd	%zmm14, %zmm11, %zmm11
	vpxord	%zmm30, %zmm6, %zmm30
	vpxorq	%zmm10, %zmm13, %zmm13
	vprold	$16, %zmm13, %zmm13
	vpxorq	%zmm31, %zmm12, %zmm12
	vprold	$25, %zmm30, %zmm30
	vprold	$16, %zmm12, %zmm12
	vpxorq	%zmm11, %zmm8, %zmm8
	vprold	$16, %zmm8, %zmm8
	vpaddd	%zmm30, %zmm28, %zmm28
	vpaddd	%zmm13, %zmm15, %zmm15
	vpaddd	%zmm12, %zmm6, %zmm6
	vpaddd	%zmm8, %zmm9, %zmm9
	vpxorq	%zmm28, %zmm7, %zmm7
	vpxord	%zmm26, %zmm15, %zmm26
	vpxord	%zmm27, %zmm6, %zmm27
	vpxord	%zmm14, %zmm9, %zmm14
	vprold	$20, %zmm26, %zmm26
	vprold	$20, %zmm27, %zmm27
	vprold	$20, %zmm14, %zmm14
	vpaddd	%zmm0, %zmm10, %zmm10
	vmovdqa64	%zmm0, %zmm17
	vprold	$16, %zmm7, %zmm7
	vpaddd	%zmm26, %zmm10, %zmm10
	vpaddd	%zmm5, %zmm31, %zmm31
	vpaddd	%zmm27, %zmm31, %zmm31
	vpaddd	%zmm7, %zmm29, %zmm29
	vmovdqa64	%zmm23, %zmm4
	vpaddd	%zmm23, %zmm28, %zmm28
	vmovdqa64	576(%rsp), %zmm23
	vpaddd	%zmm23, %zmm11, %zmm11
	vpaddd	%zmm14, %zmm11, %zmm11
	vpxord	%zmm30, %zmm29, %zmm30
	vpxorq	%zmm10, %zmm13, %zmm13
	vprold	$24, %zmm13, %zmm13
	vpxorq	%zmm31, %zmm12, %zmm12
	vprold	$20, %zmm30, %zmm30
	vprold	$24, %zmm12, %zmm12
	vpxorq	%zmm11, %zmm8, %zmm8
	vprold	$24, %zmm8, %zmm8
	vpaddd	%zmm30, %zmm28, %zmm28
	vpaddd	%zmm13, %zmm15, %zmm15
	vpaddd	%zmm12, %zmm6, %zmm6
	vpaddd	%zmm8, %zmm9, %zmm9
	vpxorq	%zmm28, %zmm7, %zmm7
	vpxord	%zmm26, %zmm15, %zmm26
	vpxord	%zmm27, %zmm6, %zmm27
	vpxord	%zmm14, %zmm9, %zmm14
	vprold	$25, %zmm26, %zmm26
	vprold	$25, %zmm27, %zmm27
	vprold	$25, %zmm14, %zmm14
	vpaddd	%zmm20, %zmm31, %zmm31
	vprold	$24, %zmm7, %zmm7
	vpaddd	%zmm26, %zmm31, %zmm31
	vpaddd	%zmm25, %zmm28, %zmm28
	vpaddd	%zmm27, %zmm28, %zmm28
	vpaddd	%zmm7, %zmm29, %zmm29
	vpaddd	%zmm22, %zmm11, %zmm11
	vpaddd	%zmm21, %zmm10, %zmm10
	vpaddd	%zmm14, %zmm10, %zmm0
	vpxord	%zmm30, %zmm29, %zmm30
	vpxorq	%zmm31, %zmm7, %zmm7
	vprold	$16, %zmm7, %zmm7
	vpxorq	%zmm28, %zmm8, %zmm8
	vprold	$25, %zmm30, %zmm10
	vprold	$16, %zmm8, %zmm8
	vpxorq	%zmm0, %zmm12, %zmm30
	vprold	$16, %zmm30, %zmm1
	vpaddd	%zmm10, %zmm11, %zmm11
	vpaddd	%zmm7, %zmm9, %zmm30
	vpaddd	%zmm8, %zmm15, %zmm15
	vpaddd	%zmm1, %zmm29, %zmm29
	vpxorq	%zmm11, %zmm13, %zmm9
	vpxord	%zmm26, %zmm30, %zmm26
	vpxord	%zmm27, %zmm15, %zmm12
	vpxord	%zmm14, %zmm29, %zmm13
	vprold	$16, %zmm9, %zmm14
	vprold	$20, %zmm26, %zmm27
	vprold	$20, %zmm12, %zmm26
	vprold	$20, %zmm13, %zmm9
	vpaddd	%zmm14, %zmm6, %zmm12
	vpaddd	%zmm16, %zmm31, %zmm31
	vpaddd	%zmm27, %zmm31, %zmm2
	vpaddd	%zmm24, %zmm28, %zmm28
	vpxord	%zmm10, %zmm12, %zmm31
	vpaddd	%zmm26, %zmm28, %zmm10
	vpaddd	%zmm18, %zmm11, %zmm6
	vpaddd	%zmm23, %zmm0, %zmm0
	vprold	$20, %zmm31, %zmm11
	vpaddd	%zmm9, %zmm0, %zmm28
	vpxorq	%zmm2, %zmm7, %zmm0
	vpxorq	%zmm10, %zmm8, %zmm31
	vpaddd	%zmm11, %zmm6, %zmm8
	vprold	$24, %zmm31, %zmm7
	vpxorq	%zmm8, %zmm14, %zmm31
	vpxorq	%zmm28, %zmm1, %zmm1
	vprold	$24, %zmm31, %zmm31
	vprold	$24, %zmm1, %zmm1
	vpaddd	%zmm7, %zmm15, %zmm6
	vpaddd	%zmm1, %zmm29, %zmm13
	vpaddd	%zmm31, %zmm12, %zmm29
	vpxord	%zmm26, %zmm6, %zmm26
	vprold	$25, %zmm26, %zmm12
	vpaddd	%zmm3, %zmm2, %zmm2
	vpxord	%zmm11, %zmm29, %zmm14
	vpaddd	%zmm12, %zmm2, %zmm2
	vpxorq	%zmm2, %zmm1, %zmm1
	vprold	$16, %zmm1, %zmm1
	vpaddd	%zmm1, %zmm29, %zmm26
	vpxord	%zmm12, %zmm26, %zmm29
	vprold	$20, %zmm29, %zmm29
	vpaddd	%zmm4, %zmm2, %zmm2
	vpaddd	%zmm29, %zmm2, %zmm2
	vpxorq	%zmm2, %zmm1, %zmm11
	vpaddd	%zmm25, %zmm2, %zmm1
	vprold	$24, %zmm0, %zmm0
	vpaddd	%zmm0, %zmm30, %zmm2
	vpxord	%zmm9, %zmm13, %zmm30
	vprold	$25, %zmm14, %zmm25
	vpaddd	%zmm19, %zmm10, %zmm9
	vpaddd	%zmm25, %zmm9, %zmm9
	vpxorq	%zmm9, %zmm0, %zmm0
	vprold	$16, %zmm0, %zmm0
	vpaddd	%zmm0, %zmm13, %zmm10
	vpxord	%zmm25, %zmm10, %zmm25
	vprold	$20, %zmm25, %zmm25
	vmovdqa64	192(%rsp), %zmm12
	vpaddd	%zmm12, %zmm9, %zmm9
	vpaddd	%zmm25, %zmm9, %zmm9
	vpxorq	%zmm9, %zmm0, %zmm0
	vpaddd	%zmm24, %zmm9, %zmm9
	vpxord	%zmm27, %zmm2, %zmm24
	vprold	$25, %zmm30, %zmm27
	vpaddd	%zmm5, %zmm8, %zmm30
	vpaddd	%zmm27, %zmm30, %zmm30
	vpxorq	%zmm30, %zmm7, %zmm7
	vprold	$16, %zmm7, %zmm7
	vpaddd	%zmm7, %zmm2, %zmm2
	vpxord	%zmm27, %zmm2, %zmm27
	vprold	$20, %zmm27, %zmm27
	vmovdqa64	768(%rsp), %zmm18
	vpaddd	%zmm18, %zmm30, %zmm30
	vpaddd	%zmm27, %zmm30, %zmm30
	vpxorq	%zmm30, %zmm7, %zmm7
	vpaddd	%zmm23, %zmm30, %zmm30
	vmovdqa64	%zmm17, %zmm8
	vpaddd	%zmm17, %zmm28, %zmm23
	vprold	$25, %zmm24, %zmm24
	vpaddd	%zmm24, %zmm23, %zmm23
	vpxorq	%zmm23, %zmm31, %zmm28
	vprold	$16, %zmm28, %zmm28
	vpaddd	%zmm28, %zmm6, %zmm31
	vpxord	%zmm24, %zmm31, %zmm24
	vprold	$20, %zmm24, %zmm24
	vmovdqa64	128(%rsp), %zmm17
	vpaddd	%zmm17, %zmm23, %zmm23
	vpaddd	%zmm24, %zmm23, %zmm23
	vpxorq	%zmm23, %zmm28, %zmm28
	vpaddd	%zmm22, %zmm23, %zmm6
	vprold	$24, %zmm28, %zmm28
	vprold	$24, %zmm0, %zmm0
	vpaddd	%zmm28, %zmm31, %zmm22
	vpxord	%zmm24, %zmm22, %zmm23
	vprold	$25, %zmm23, %zmm23
	vpaddd	%zmm0, %zmm10, %zmm31
	vpaddd	%zmm23, %zmm1, %zmm1
	vpxorq	%zmm1, %zmm0, %zmm24
	vpaddd	%zmm21, %zmm1, %zmm0
	vprold	$24, %zmm11, %zmm1
	vprold	$24, %zmm7, %zmm21
	vpaddd	%zmm1, %zmm26, %zmm26
	vpaddd	%zmm21, %zmm2, %zmm2
	vpxord	%zmm29, %zmm26, %zmm29
	vprold	$25, %zmm29, %zmm29
	vpaddd	%zmm29, %zmm9, %zmm7
	vpxorq	%zmm7, %zmm21, %zmm21
	vpaddd	%zmm19, %zmm7, %zmm7
	vpxord	%zmm25, %zmm31, %zmm19
	vprold	$25, %zmm19, %zmm25
	vpaddd	%zmm25, %zmm30, %zmm19
	vpxorq	%zmm19, %zmm28, %zmm28
	vpaddd	%zmm20, %zmm19, %zmm30
	vpxord	%zmm27, %zmm2, %zmm19
	vprold	$25, %zmm19, %zmm20
	vpaddd	%zmm20, %zmm6, %zmm19
	vpxorq	%zmm19, %zmm1, %zmm1
	vpaddd	%zmm18, %zmm19, %zmm27
	vprold	$16, %zmm1, %zmm1
	vpaddd	%zmm1, %zmm31, %zmm19
	vpxord	%zmm20, %zmm19, %zmm18
	vprold	$20, %zmm18, %zmm18
	vpaddd	%zmm18, %zmm27, %zmm27
	vpxorq	%zmm27, %zmm1, %zmm20
	vpaddd	%zmm17, %zmm27, %zmm1
	vprold	$16, %zmm24, %zmm17
	vpaddd	%zmm17, %zmm2, %zmm2
	vpxord	%zmm23, %zmm2, %zmm23
	vprold	$20, %zmm23, %zmm23
	vpaddd	%zmm23, %zmm0, %zmm0
	vpxorq	%zmm0, %zmm17, %zmm17
	vpaddd	%zmm16, %zmm0, %zmm0
	vprold	$16, %zmm21, %zmm16
	vpaddd	%zmm16, %zmm22, %zmm21
	vpxord	%zmm29, %zmm21, %zmm22
	vprold	$20, %zmm22, %zmm22
	vpaddd	%zmm22, %zmm7, %zmm24
	vpxorq	%zmm24, %zmm16, %zmm16
	vpaddd	%zmm5, %zmm24, %zmm24
	vprold	$16, %zmm28, %zmm5
	vpaddd	%zmm5, %zmm26, %zmm26
	vpxord	%zmm25, %zmm26, %zmm25
	vprold	$20, %zmm25, %zmm25
	vpaddd	%zmm25, %zmm30, %zmm27
	vpxorq	%zmm27, %zmm5, %zmm5
	vpaddd	%zmm4, %zmm27, %zmm27
	vprold	$24, %zmm17, %zmm17
	vprold	$24, %zmm5, %zmm5
	vpaddd	%zmm17, %zmm2, %zmm2
	vpxord	%zmm23, %zmm2, %zmm4
	vprold	$25, %zmm4, %zmm4
	vpaddd	%zmm5, %zmm26, %zmm23
	vpaddd	%zmm4, %zmm1, %zmm1
	vpxorq	%zmm1, %zmm5, %zmm5
	vpaddd	%zmm3, %zmm1, %zmm1
	vprold	$24, %zmm16, %zmm3
	vprold	$24, %zmm20, %zmm16
	vpaddd	%zmm3, %zmm21, %zmm20
	vpaddd	%zmm16, %zmm19, %zmm19
	vpxord	%zmm22, %zmm20, %zmm21
	vprold	$25, %zmm21, %zmm21
	vpaddd	%zmm21, %zmm0, %zmm0
	vpxorq	%zmm0, %zmm16, %zmm16
	vpaddd	%zmm12, %zmm0, %zmm0
	vpxord	%zmm25, %zmm23, %zmm22
	vprold	$25, %zmm22, %zmm22
	vpaddd	%zmm22, %zmm24, %zmm24
	vpxorq	%zmm24, %zmm17, %zmm17
	vpaddd	256(%rsp), %zmm24, %zmm24
	vpxord	%zmm18, %zmm19, %zmm18
	vprold	$25, %zmm18, %zmm18
	vpaddd	%zmm18, %zmm27, %zmm25
	vpxorq	%zmm25, %zmm3, %zmm3
	vpaddd	%zmm8, %zmm25, %zmm25
	vprold	$16, %zmm16, %zmm16
	vprold	$16, %zmm3, %zmm3
	vpaddd	%zmm16, %zmm23, %zmm23
	vpaddd	%zmm3, %zmm2, %zmm2
	vpxord	%zmm21, %zmm23, %zmm21
	vpxord	%zmm18, %zmm2, %zmm18
	vprold	$20, %zmm21, %zmm21
	vprold	$20, %zmm18, %zmm18
	vpaddd	%zmm21, %zmm0, %zmm0
	vpaddd	%zmm18, %zmm25, %zmm25
	vpxorq	%zmm0, %zmm16, %zmm16
	vpxorq	%zmm25, %zmm3, %zmm3
	vprold	$24, %zmm3, %zmm3
	vpaddd	%zmm3, %zmm2, %zmm2
	vpxord	%zmm18, %zmm2, %zmm18
	vpxord	%zmm0, %zmm2, %zmm28
	vprold	$16, %zmm5, %zmm0
	vprold	$16, %zmm17, %zmm2
	vpaddd	%zmm0, %zmm20, %zmm5
	vpaddd	%zmm2, %zmm19, %zmm17
	vpxord	%zmm4, %zmm5, %zmm4
	vpxord	%zmm22, %zmm17, %zmm19
	vprold	$20, %zmm4, %zmm4
	vprold	$20, %zmm19, %zmm19
	vpaddd	%zmm4, %zmm1, %zmm1
	vpaddd	%zmm19, %zmm24, %zmm20
	vpxorq	%zmm1, %zmm0, %zmm0
	vprold	$24, %zmm0, %zmm0
	vpaddd	%zmm0, %zmm5, %zmm5
	vpxorq	%zmm20, %zmm2, %zmm2
	vpxord	%zmm4, %zmm5, %zmm4
	vpxord	%zmm20, %zmm5, %zmm31
	vprold	$24, %zmm16, %zmm5
	vpaddd	%zmm5, %zmm23, %zmm16
	vpxord	%zmm21, %zmm16, %zmm20
	vpxord	%zmm25, %zmm16, %zmm6
	vprold	$24, %zmm2, %zmm2
	vpaddd	%zmm2, %zmm17, %zmm16
	vprold	$25, %zmm4, %zmm4
	vpxord	%zmm2, %zmm4, %zmm26
	vpxord	%zmm19, %zmm16, %zmm2
	vpxord	%zmm1, %zmm16, %zmm7
	vprold	$25, %zmm20, %zmm1
	vpxord	%zmm3, %zmm1, %zmm27
	vprold	$25, %zmm2, %zmm1
	vpxord	%zmm0, %zmm1, %zmm29
	vprold	$25, %zmm18, %zmm0
	vpxord	%zmm5, %zmm0, %zmm30
	addq	$64, %rdx
	cmpq	$1024, %rdx
	jne	.LBB8_1
	movq	80(%rsp), %rax
	vmovdqu64	%zmm28, (%rax)
	vmovdqu64	%zmm31, 64(%rax)
	vmovdqu64	%zmm6, 128(%rax)
	vmovdqu64	%zmm7, 192(%rax)
	vmovdqu64	%zmm26, 256(%rax)
	vmovdqu64	%zmm27, 320(%rax)
	vmovdqu64	%zmm29, 384(%rax)
	vmovdqu64	%zmm30, 448(%rax)
	vmovaps	1296(%rbp), %xmm6
	vmovaps	1312(%rbp), %xmm7
	vmovaps	1328(%rbp), %xmm8
	vmovaps	1344(%rbp), %xmm9
	vmovaps	1360(%rbp), %xmm10
	vmovaps	1376(%rbp), %xmm11
	vmovaps	1392(%rbp), %xmm12
	vmovaps	1408(%rbp), %xmm13
	vmovaps	1424(%rbp), %xmm14
	vmovaps	1440(%rbp), %xmm15
	leaq	1464(%rbp), %rsp
	popq	%rbx
	popq	%rdi
	popq	%rsi
	popq	%r12
	popq	%r13
	popq	%r14
	popq	%r15
	popq	%rbp
	vzeroupper
	retq
	.seh_endproc

	.section	.text
	.p2align	4
	.def	"keyed_blake3::chunks::key_of_each::<#2e65a0a13cda87df>";
	.scl	3;
	.type	32;
	.endef
"keyed_blake3::chunks::key_of_each::<#2e65a0a13cda87df>":
.seh_proc "keyed_blake3::chunks::key_of_each::<#2e65a0a13cda87df>"
	pushq	%rbp
	.seh_pushreg %rbp
	subq	$48, %rsp
	.seh_stackalloc 48
	leaq	48(%rsp), %rbp
	.seh_setframe %rbp, 48
	.seh_endprologue
	andq	$-64, %rsp
	vbroadcastss	(%rdx), %zmm0
	vbroadcastss	4(%rdx), %zmm1
	vbroadcastss	8(%rdx), %zmm2
	vbroadcastss	12(%rdx), %zmm3
	vbroadcastss	16(%rdx), %zmm4
	vbroadcastss	20(%rdx), %zmm5
	vbroadcastss	24(%rdx), %zmm16
	vbroadcastss	28(%rdx), %zmm17
	vmovups	%zmm0, (%rcx)
	vmovups	%zmm1, 64(%rcx)
	vmovups	%zmm2, 128(%rcx)
	vmovups	%zmm3, 192(%rcx)
	vmovups	%zmm4, 256(%rcx)
	vmovups	%zmm5, 320(%rcx)
	vmovups	%zmm16, 384(%rcx)
	vmovups	%zmm17, 448(%rcx)
	movq	%rbp, %rsp
	popq	%rbp
	vzeroupper
	retq
	.seh_endproc

	.section	.rdata,"dr"
	.p2align	5, 0x0
.LCPI10_0:
	.quad	4
	.quad	5
	.quad	6
	.quad	7
.LCPI10_1:
	.quad	8
	.quad	9
	.quad	10
	.quad	11
.LCPI10_2:
	.quad	12
	.quad	13
	.quad	14
	.quad	15
.LCPI10_3:
	.quad	0
	.quad	1
	.quad	2
	.quad	3
	.section	.text
	.p2align	4
	.def	"keyed_blake3::subtrees::neighbour_values::<#2e65a0a13cda87df>";
	.scl	3;
	.type	32;
	.endef
"keyed_blake3::subtrees::neighbour_values::<#2e65a0a13cda87df>":
.seh_proc "keyed_blake3::subtrees::neighbour_values::<#2e65a0a13cda87df>"
	pushq	%rbp
	.seh_pushreg %rbp
	pushq	%r15
	.seh_pushreg %r15
	pushq	%r14
	.seh_pushreg %r14
	pushq	%r13
	.seh_pushreg %r13
	pushq	%r12
	.seh_pushreg %r12
	pushq	%rsi
	.seh_pushreg %rsi
	pushq	%rdi
	.seh_pushreg %rdi
	pushq	%rbx
	.seh_pushreg %rbx
	subq	$1784, %rsp
	.seh_stackalloc 1784
	leaq	128(%rsp), %rbp
	.seh_setframe %rbp, 128
	.seh_endprologue
	andq	$-64, %rsp
	movq	%rcx, %rsi
	movq	1768(%rbp), %rax
	vpxor	%xmm0, %xmm0, %xmm0
	vmovdqa	%ymm0, 672(%rsp)
	vmovdqa	%ymm0, 640(%rsp)
	vmovdqa	%ymm0, 608(%rsp)
	vmovdqa	%ymm0, 576(%rsp)
	vmovdqa	%ymm0, 544(%rsp)
	vmovdqa	%ymm0, 512(%rsp)
	vmovdqa	%ymm0, 480(%rsp)
	vmovdqa	%ymm0, 448(%rsp)
	vmovdqa	%ymm0, 416(%rsp)
	vmovdqa	%ymm0, 384(%rsp)
	vmovdqa	%ymm0, 352(%rsp)
	vmovdqa	%ymm0, 320(%rsp)
	vmovdqa	%ymm0, 288(%rsp)
	vmovdqa	%ymm0, 256(%rsp)
	vmovdqa	%ymm0, 224(%rsp)
	movq	1760(%rbp), %r13
	vmovdqa	%ymm0, 192(%rsp)
	cmpq	$1, %r13
	jne	.LBB10_2
	vmovq	%r9, %xmm0
	vpbroadcastq	%xmm0, %ymm0
	vpaddq	.LCPI10_0(%rip), %ymm0, %ymm1
	vpaddq	.LCPI10_1(%rip), %ymm0, %ymm2
	vpaddq	.LCPI10_2(%rip), %ymm0, %ymm3
	vpaddq	.LCPI10_3(%rip), %ymm0, %ymm0
	vmovdqu	%ymm0, 64(%rsp)
	vmovdqu	%ymm1, 96(%rsp)
	vmovdqu	%ymm2, 128(%rsp)
	vmovdqu	%ymm3, 160(%rsp)
	movq	%rax, 32(%rsp)
	leaq	192(%rsp), %rdi
	leaq	64(%rsp), %r9
	movq	%rdi, %rcx
	vzeroupper
	callq	"keyed_blake3::chunks::chunk_values::<#2e65a0a13cda87df>"
	movl	$512, %r8d
	movq	%rsi, %rcx
	movq	%rdi, %rdx
	jmp	.LBB10_3
.LBB10_2:
	shrq	%r13
	movq	%rax, 40(%rsp)
	movq	%r13, 32(%rsp)
	leaq	704(%rsp), %rdi
	movq	%rdi, %rcx
	movq	%rdx, %rbx
	movq	%r8, %r14
	movq	%r9, %r15
	vzeroupper
	callq	"keyed_blake3::subtrees::neighbour_values::<#2e65a0a13cda87df>"
	leaq	1216(%rsp), %r12
	movl	$512, %r8d
	movq	%r12, %rcx
	movq	%rdi, %rdx
	callq	memcpy
	movq	%r13, %r9
	shlq	$4, %r9
	addq	%r15, %r9
	movq	1768(%rbp), %rax
	movq	%rax, 40(%rsp)
	movq	%r13, 32(%rsp)
	movq	%rdi, %rcx
	movq	%rbx, %rdx
	movq	%r14, %r8
	callq	"keyed_blake3::subtrees::neighbour_values::<#2e65a0a13cda87df>"
	leaq	192(%rsp), %r14
	movq	%r14, %rcx
	movq	%rbx, %rdx
	movq	%r12, %r8
	movq	%rdi, %r9
	callq	"keyed_blake3::subtrees::parent_values::<#2e65a0a13cda87df>"
	movl	$512, %r8d
	movq	%rsi, %rcx
	movq	%r14, %rdx
.LBB10_3:
	callq	memcpy
	nop
	leaq	1656(%rbp), %rsp
	popq	%rbx
	popq	%rdi
	popq	%rsi
	popq	%r12
	popq	%r13
	popq	%r14
	popq	%r15
	popq	%rbp
	retq
	.seh_endproc

	.section	.rdata,"dr"
	.p2align	2, 0x0
.LCPI11_0:
	.long	64
.LCPI11_1:
	.long	20
	.section	.text
	.p2align	4
	.def	"keyed_blake3::subtrees::parent_values::<#2e65a0a13cda87df>";
	.scl	3;
	.type	32;
	.endef
"keyed_blake3::subtrees::parent_values::<#2e65a0a13cda87df>":
.seh_proc "keyed_blake3::subtrees::parent_values::<#2e65a0a13cda87df>"
	pushq	%rbp
	.seh_pushreg %rbp
	pushq	%rsi
	.seh_pushreg %rsi
	pushq	%rdi
	.seh_pushreg %rdi
	subq	$2848, %rsp
	.seh_stackalloc 2848
	leaq	128(%rsp), %rbp
	.seh_setframe %rbp, 128
	vmovaps	%xmm15, 2704(%rbp)
	.seh_savexmm %xmm15, 2832
	vmovaps	%xmm14, 2688(%rbp)
	.seh_savexmm %xmm14, 2816
	vmovaps	%xmm13, 2672(%rbp)
	.seh_savexmm %xmm13, 2800
	vmovaps	%xmm12, 2656(%rbp)
	.seh_savexmm %xmm12, 2784
	vmovaps	%xmm11, 2640(%rbp)
	.seh_savexmm %xmm11, 2768
	vmovaps	%xmm10, 2624(%rbp)
	.seh_savexmm %xmm10, 2752
	vmovaps	%xmm9, 2608(%rbp)
	.seh_savexmm %xmm9, 2736
	vmovaps	%xmm8, 2592(%rbp)
	.seh_savexmm %xmm8, 2720
	vmovaps	%xmm7, 2576(%rbp)
	.seh_savexmm %xmm7, 2704
	vmovaps	%xmm6, 2560(%rbp)
	.seh_savexmm %xmm6, 2688
	.seh_endprologue
	andq	$-64, %rsp
	vmovups	(%r9), %ymm1
	vmovaps	%ymm1, 448(%rsp)
	vmovups	32(%r9), %ymm2
	vmovaps	%ymm2, 512(%rsp)
	vmovups	64(%r9), %ymm0
	vmovaps	%ymm0, 928(%rsp)
	vmovups	96(%r9), %ymm0
	vmovaps	%ymm0, 896(%rsp)
	vmovups	(%r8), %ymm3
	vmovaps	%ymm3, 960(%rsp)
	vmovups	32(%r8), %ymm0
	vmovaps	%ymm0, 992(%rsp)
	vmovups	64(%r8), %ymm5
	vmovups	96(%r8), %ymm4
	vmovaps	%ymm4, 864(%rsp)
	vshufps	$136, %ymm0, %ymm3, %ymm0
	vpermpd	$216, %ymm0, %ymm3
	vmovups	160(%r8), %ymm4
	vmovaps	%ymm4, 416(%rsp)
	vmovups	128(%r8), %ymm6
	vmovaps	%ymm6, 480(%rsp)
	vmovups	160(%r9), %ymm0
	vmovaps	%ymm0, 832(%rsp)
	vmovups	128(%r9), %ymm0
	vmovaps	%ymm0, 800(%rsp)
	vmovups	224(%r8), %ymm0
	vmovaps	%ymm0, 768(%rsp)
	vmovups	192(%r8), %ymm7
	vmovaps	%ymm7, 352(%rsp)
	vmovups	224(%r9), %ymm8
	vmovaps	%ymm8, 384(%rsp)
	vmovups	192(%r9), %ymm0
	vmovaps	%ymm0, 736(%rsp)
	vmovups	288(%r8), %ymm0
	vmovaps	%ymm0, 704(%rsp)
	vmovups	256(%r8), %ymm9
	vmovaps	%ymm9, 288(%rsp)
	vmovups	288(%r9), %ymm10
	vmovaps	%ymm10, 320(%rsp)
	vmovups	256(%r9), %ymm0
	vmovaps	%ymm0, 672(%rsp)
	vmovups	352(%r8), %ymm0
	vmovaps	%ymm0, 640(%rsp)
	vmovups	320(%r8), %ymm11
	vmovaps	%ymm11, 224(%rsp)
	vmovups	352(%r9), %ymm14
	vmovaps	%ymm14, 256(%rsp)
	vmovups	320(%r9), %ymm0
	vmovaps	%ymm0, 608(%rsp)
	vmovups	416(%r8), %ymm13
	vmovaps	%ymm13, 192(%rsp)
	vmovups	384(%r8), %ymm0
	vmovaps	%ymm0, 544(%rsp)
	vmovups	416(%r9), %ymm0
	vmovaps	%ymm0, 128(%rsp)
	vmovups	384(%r9), %ymm0
	vmovaps	%ymm0, 576(%rsp)
	vmovups	480(%r8), %ymm0
	vmovaps	%ymm0, 96(%rsp)
	vmovups	448(%r8), %ymm0
	vmovaps	%ymm0, 32(%rsp)
	vmovups	480(%r9), %ymm12
	vmovaps	%ymm12, 160(%rsp)
	vmovups	448(%r9), %ymm0
	vmovaps	%ymm0, 64(%rsp)
	vmovups	%ymm3, 1152(%rsp)
	vshufps	$136, %ymm2, %ymm1, %ymm15
	vpermpd	$216, %ymm15, %ymm15
	vmovups	%ymm15, 1184(%rsp)
	vmovaps	864(%rsp), %ymm1
	vshufps	$136, %ymm1, %ymm5, %ymm15
	vpermpd	$216, %ymm15, %ymm15
	vmovups	%ymm15, 1216(%rsp)
	vmovaps	928(%rsp), %ymm3
	vmovaps	896(%rsp), %ymm0
	vshufps	$136, %ymm0, %ymm3, %ymm15
	vpermpd	$216, %ymm15, %ymm15
	vmovups	%ymm15, 1248(%rsp)
	vshufps	$136, %ymm4, %ymm6, %ymm15
	vpermpd	$216, %ymm15, %ymm15
	vmovups	%ymm15, 1280(%rsp)
	vmovaps	832(%rsp), %ymm4
	vmovaps	800(%rsp), %ymm2
	vshufps	$136, %ymm4, %ymm2, %ymm15
	vpermpd	$216, %ymm15, %ymm15
	vmovups	%ymm15, 1312(%rsp)
	vmovaps	768(%rsp), %ymm6
	vshufps	$136, %ymm6, %ymm7, %ymm15
	vpermpd	$216, %ymm15, %ymm15
	vmovups	%ymm15, 1344(%rsp)
	vmovaps	736(%rsp), %ymm7
	vshufps	$136, %ymm8, %ymm7, %ymm15
	vpermpd	$216, %ymm15, %ymm15
	vmovups	%ymm15, 1376(%rsp)
	vmovaps	704(%rsp), %ymm8
	vshufps	$136, %ymm8, %ymm9, %ymm15
	vpermpd	$216, %ymm15, %ymm15
	vmovups	%ymm15, 1408(%rsp)
	vmovaps	672(%rsp), %ymm9
	vshufps	$136, %ymm10, %ymm9, %ymm15
	vpermpd	$216, %ymm15, %ymm15
	vmovups	%ymm15, 1440(%rsp)
	vmovaps	640(%rsp), %ymm10
	vshufps	$136, %ymm10, %ymm11, %ymm15
	vpermpd	$216, %ymm15, %ymm15
	vmovups	%ymm15, 1472(%rsp)
	vmovaps	608(%rsp), %ymm11
	vshufps	$136, %ymm14, %ymm11, %ymm15
	vpermpd	$216, %ymm15, %ymm15
	vmovups	%ymm15, 1504(%rsp)
	vmovaps	544(%rsp), %ymm14
	vshufps	$136, %ymm13, %ymm14, %ymm15
	vpermpd	$216, %ymm15, %ymm15
	vmovups	%ymm15, 1536(%rsp)
	vmovaps	576(%rsp), %ymm13
	vshufps	$136, 128(%rsp), %ymm13, %ymm15
	vpermpd	$216, %ymm15, %ymm15
	vmovups	%ymm15, 1568(%rsp)
	vmovaps	32(%rsp), %ymm15
	vshufps	$136, 96(%rsp), %ymm15, %ymm15
	vpermpd	$216, %ymm15, %ymm15
	vmovups	%ymm15, 1600(%rsp)
	vmovaps	64(%rsp), %ymm15
	vshufps	$136, %ymm12, %ymm15, %ymm15
	vpermpd	$216, %ymm15, %ymm15
	vmovups	%ymm15, 1632(%rsp)
	vmovaps	960(%rsp), %ymm15
	vshufps	$221, 992(%rsp), %ymm15, %ymm15
	vpermpd	$216, %ymm15, %ymm15
	vmovups	%ymm15, 1664(%rsp)
	vmovaps	448(%rsp), %ymm12
	vshufps	$221, 512(%rsp), %ymm12, %ymm15
	vpermpd	$216, %ymm15, %ymm15
	vmovups	%ymm15, 1696(%rsp)
	vshufps	$221, %ymm1, %ymm5, %ymm15
	vpermpd	$216, %ymm15, %ymm15
	vmovups	%ymm15, 1728(%rsp)
	vshufps	$221, %ymm0, %ymm3, %ymm15
	vpermpd	$216, %ymm15, %ymm15
	vmovups	%ymm15, 1760(%rsp)
	vmovaps	480(%rsp), %ymm0
	vshufps	$221, 416(%rsp), %ymm0, %ymm15
	vpermpd	$216, %ymm15, %ymm15
	vmovups	%ymm15, 1792(%rsp)
	vshufps	$221, %ymm4, %ymm2, %ymm15
	vpermpd	$216, %ymm15, %ymm15
	vmovups	%ymm15, 1824(%rsp)
	vmovaps	352(%rsp), %ymm0
	vshufps	$221, %ymm6, %ymm0, %ymm15
	vpermpd	$216, %ymm15, %ymm15
	vmovups	%ymm15, 1856(%rsp)
	vshufps	$221, 384(%rsp), %ymm7, %ymm15
	vpermpd	$216, %ymm15, %ymm15
	vmovups	%ymm15, 1888(%rsp)
	vmovaps	288(%rsp), %ymm0
	vshufps	$221, %ymm8, %ymm0, %ymm12
	vpermpd	$216, %ymm12, %ymm12
	vmovups	%ymm12, 1920(%rsp)
	vshufps	$221, 320(%rsp), %ymm9, %ymm12
	vpermpd	$216, %ymm12, %ymm12
	vmovups	%ymm12, 1952(%rsp)
	vmovaps	224(%rsp), %ymm0
	vshufps	$221, %ymm10, %ymm0, %ymm8
	vpermpd	$216, %ymm8, %ymm8
	vmovups	%ymm8, 1984(%rsp)
	vshufps	$221, 256(%rsp), %ymm11, %ymm8
	vpermpd	$216, %ymm8, %ymm8
	vmovups	%ymm8, 2016(%rsp)
	vshufps	$221, 192(%rsp), %ymm14, %ymm4
	vpermpd	$216, %ymm4, %ymm4
	vmovups	%ymm4, 2048(%rsp)
	vshufps	$221, 128(%rsp), %ymm13, %ymm4
	vpermpd	$216, %ymm4, %ymm4
	vmovups	%ymm4, 2080(%rsp)
	vmovaps	32(%rsp), %ymm0
	vshufps	$221, 96(%rsp), %ymm0, %ymm0
	vpermpd	$216, %ymm0, %ymm0
	vmovups	%ymm0, 2112(%rsp)
	vmovaps	64(%rsp), %ymm0
	vshufps	$221, 160(%rsp), %ymm0, %ymm0
	vpermpd	$216, %ymm0, %ymm0
	vmovups	%ymm0, 2144(%rsp)
	vbroadcastss	.LCPI11_0(%rip), %ymm0
	vmovups	%ymm0, 1120(%rsp)
	movq	%rcx, %rsi
	vmovups	%ymm0, 1088(%rsp)
	vbroadcastss	.LCPI11_1(%rip), %ymm0
	vmovups	%ymm0, 1056(%rsp)
	vmovups	%ymm0, 1024(%rsp)
	leaq	2176(%rsp), %rdi
	movq	%rdi, %rcx
	vzeroupper
	callq	"keyed_blake3::chunks::key_of_each::<#2e65a0a13cda87df>"
	leaq	1152(%rsp), %rdx
	leaq	1088(%rsp), %r8
	leaq	1024(%rsp), %r9
	movq	%rdi, %rcx
	callq	"keyed_blake3::compression::lanes::take_in_each::<#2e65a0a13cda87df>"
	movl	$512, %r8d
	movq	%rsi, %rcx
	movq	%rdi, %rdx
	callq	memcpy
	vmovaps	2560(%rbp), %xmm6
	vmovaps	2576(%rbp), %xmm7
	vmovaps	2592(%rbp), %xmm8
	vmovaps	2608(%rbp), %xmm9
	vmovaps	2624(%rbp), %xmm10
	vmovaps	2640(%rbp), %xmm11
	vmovaps	2656(%rbp), %xmm12
	vmovaps	2672(%rbp), %xmm13
	vmovaps	2688(%rbp), %xmm14
	vmovaps	2704(%rbp), %xmm15
	leaq	2720(%rbp), %rsp
	popq	%rdi
	popq	%rsi
	popq	%rbp
	retq
	.seh_endproc

	.section	.rdata,"dr"
	.p2align	2, 0x0
.LCPI12_0:
	.long	1779033703
.LCPI12_1:
	.long	3144134277
.LCPI12_2:
	.long	1013904242
.LCPI12_3:
	.long	2773480762
	.section	.text
	.p2align	4
	.def	"keyed_blake3::compression::lanes::take_in_each::<#2e65a0a13cda87df>";
	.scl	3;
	.type	32;
	.endef
"keyed_blake3::compression::lanes::take_in_each::<#2e65a0a13cda87df>":
.seh_proc "keyed_blake3::compression::lanes::take_in_each::<#2e65a0a13cda87df>"
	pushq	%rbp
	.seh_pushreg %rbp
	subq	$176, %rsp
	.seh_stackalloc 176
	leaq	128(%rsp), %rbp
	.seh_setframe %rbp, 128
	vmovaps	%xmm15, 32(%rbp)
	.seh_savexmm %xmm15, 160
	vmovaps	%xmm14, 16(%rbp)
	.seh_savexmm %xmm14, 144
	vmovaps	%xmm13, (%rbp)
	.seh_savexmm %xmm13, 128
	vmovaps	%xmm12, -16(%rbp)
	.seh_savexmm %xmm12, 112
	vmovaps	%xmm11, -32(%rbp)
	.seh_savexmm %xmm11, 96
	vmovaps	%xmm10, -48(%rbp)
	.seh_savexmm %xmm10, 80
	vmovaps	%xmm9, -64(%rbp)
	.seh_savexmm %xmm9, 64
	vmovaps	%xmm8, -80(%rbp)
	.seh_savexmm %xmm8, 48
	vmovaps	%xmm7, -96(%rbp)
	.seh_savexmm %xmm7, 32
	vmovaps	%xmm6, -112(%rbp)
	.seh_savexmm %xmm6, 16
	.seh_endprologue
	andq	$-64, %rsp
	vmovdqu64	256(%rcx), %zmm5
	vmovdqu64	320(%rcx), %zmm16
	vmovdqu64	384(%rcx), %zmm17
	vmovdqu64	448(%rcx), %zmm19
	vmovdqu64	256(%rdx), %zmm0
	vmovdqu64	384(%rdx), %zmm3
	vpaddd	(%rcx), %zmm5, %zmm20
	vmovdqu64	(%rdx), %zmm4
	vmovdqu64	64(%rdx), %zmm18
	vmovdqu64	128(%rdx), %zmm2
	vmovdqu64	192(%rdx), %zmm1
	vpaddd	%zmm4, %zmm20, %zmm20
	vpaddd	64(%rcx), %zmm16, %zmm21
	vpaddd	%zmm2, %zmm21, %zmm22
	vpaddd	128(%rcx), %zmm17, %zmm21
	vpaddd	192(%rcx), %zmm19, %zmm23
	vpaddd	%zmm0, %zmm21, %zmm24
	vpaddd	%zmm3, %zmm23, %zmm23
	vprold	$16, %zmm20, %zmm25
	vprold	$16, %zmm22, %zmm26
	vpxorq	(%r8), %zmm24, %zmm21
	vpxorq	(%r9), %zmm23, %zmm27
	vprold	$16, %zmm21, %zmm28
	vprold	$16, %zmm27, %zmm27
	vpaddd	.LCPI12_0(%rip){1to16}, %zmm25, %zmm29
	vpaddd	.LCPI12_1(%rip){1to16}, %zmm26, %zmm30
	vpaddd	.LCPI12_2(%rip){1to16}, %zmm28, %zmm31
	vpaddd	.LCPI12_3(%rip){1to16}, %zmm27, %zmm6
	vpxord	%zmm5, %zmm29, %zmm5
	vpxord	%zmm16, %zmm30, %zmm16
	vpxord	%zmm17, %zmm31, %zmm17
	vpxord	%zmm19, %zmm6, %zmm19
	vprold	$20, %zmm5, %zmm7
	vprold	$20, %zmm16, %zmm16
	vprold	$20, %zmm17, %zmm17
	vprold	$20, %zmm19, %zmm19
	vmovdqu64	320(%rdx), %zmm21
	vmovdqu64	448(%rdx), %zmm5
	vpaddd	%zmm20, %zmm18, %zmm20
	vpaddd	%zmm7, %zmm20, %zmm20
	vpaddd	%zmm22, %zmm1, %zmm22
	vpaddd	%zmm16, %zmm22, %zmm8
	vpaddd	%zmm24, %zmm21, %zmm22
	vpaddd	%zmm17, %zmm22, %zmm24
	vpaddd	%zmm23, %zmm5, %zmm22
	vpaddd	%zmm19, %zmm22, %zmm23
	vpxorq	%zmm20, %zmm25, %zmm22
	vprold	$24, %zmm22, %zmm25
	vpxorq	%zmm8, %zmm26, %zmm22
	vprold	$24, %zmm22, %zmm26
	vpxorq	%zmm24, %zmm28, %zmm22
	vprold	$24, %zmm22, %zmm28
	vpxorq	%zmm23, %zmm27, %zmm22
	vprold	$24, %zmm22, %zmm27
	vpaddd	%zmm25, %zmm29, %zmm29
	vpaddd	%zmm26, %zmm30, %zmm30
	vpaddd	%zmm28, %zmm31, %zmm31
	vpaddd	%zmm27, %zmm6, %zmm6
	vpxord	%zmm7, %zmm29, %zmm22
	vpxord	%zmm16, %zmm30, %zmm16
	vpxord	%zmm17, %zmm31, %zmm17
	vpxord	%zmm19, %zmm6, %zmm19
	vprold	$25, %zmm22, %zmm7
	vprold	$25, %zmm16, %zmm9
	vprold	$25, %zmm17, %zmm10
	vprold	$25, %zmm19, %zmm11
	vmovdqu64	896(%rdx), %zmm19
	vmovdqu64	512(%rdx), %zmm22
	vmovdqu64	640(%rdx), %zmm17
	vmovdqu64	768(%rdx), %zmm16
	vpaddd	%zmm7, %zmm19, %zmm12
	vpaddd	%zmm12, %zmm23, %zmm12
	vpaddd	%zmm22, %zmm20, %zmm20
	vpaddd	%zmm9, %zmm20, %zmm13
	vpaddd	%zmm17, %zmm8, %zmm20
	vpaddd	%zmm10, %zmm20, %zmm8
	vpaddd	%zmm16, %zmm24, %zmm20
	vpaddd	%zmm11, %zmm20, %zmm14
	vpxorq	%zmm12, %zmm28, %zmm20
	vprold	$16, %zmm20, %zmm28
	vpxorq	%zmm13, %zmm27, %zmm20
	vprold	$16, %zmm20, %zmm27
	vpxorq	%zmm8, %zmm25, %zmm20
	vprold	$16, %zmm20, %zmm15
	vpxorq	%zmm14, %zmm26, %zmm20
	vprold	$16, %zmm20, %zmm26
	vpaddd	%zmm28, %zmm30, %zmm30
	vpaddd	%zmm27, %zmm31, %zmm31
	vpaddd	%zmm15, %zmm6, %zmm6
	vpaddd	%zmm26, %zmm29, %zmm29
	vpxord	%zmm7, %zmm30, %zmm20
	vpxord	%zmm9, %zmm31, %zmm23
	vpxord	%zmm10, %zmm6, %zmm24
	vpxord	%zmm11, %zmm29, %zmm25
	vprold	$20, %zmm20, %zmm7
	vprold	$20, %zmm23, %zmm9
	vprold	$20, %zmm24, %zmm10
	vprold	$20, %zmm25, %zmm11
	vmovdqu64	960(%rdx), %zmm24
	vmovdqu64	576(%rdx), %zmm23
	vmovdqu64	704(%rdx), %zmm25
	vmovdqu64	832(%rdx), %zmm20
	vpaddd	%zmm24, %zmm12, %zmm12
	vpaddd	%zmm7, %zmm12, %zmm12
	vpaddd	%zmm23, %zmm13, %zmm13
	vpaddd	%zmm9, %zmm13, %zmm13
	vpaddd	%zmm25, %zmm8, %zmm8
	vpaddd	%zmm10, %zmm8, %zmm8
	vpaddd	%zmm20, %zmm14, %zmm14
	vpaddd	%zmm11, %zmm14, %zmm14
	vpxorq	%zmm12, %zmm28, %zmm28
	vprold	$24, %zmm28, %zmm28
	vpxorq	%zmm13, %zmm27, %zmm27
	vprold	$24, %zmm27, %zmm27
	vpxorq	%zmm8, %zmm15, %zmm15
	vprold	$24, %zmm15, %zmm15
	vpxorq	%zmm14, %zmm26, %zmm26
	vprold	$24, %zmm26, %zmm26
	vpaddd	%zmm28, %zmm30, %zmm30
	vpaddd	%zmm27, %zmm31, %zmm31
	vpaddd	%zmm15, %zmm6, %zmm6
	vpaddd	%zmm26, %zmm29, %zmm29
	vpxord	%zmm7, %zmm30, %zmm7
	vpxord	%zmm9, %zmm31, %zmm9
	vpxord	%zmm10, %zmm6, %zmm10
	vpxord	%zmm11, %zmm29, %zmm11
	vprold	$25, %zmm7, %zmm7
	vprold	$25, %zmm9, %zmm9
	vprold	$25, %zmm10, %zmm10
	vprold	$25, %zmm11, %zmm11
	vpaddd	%zmm2, %zmm13, %zmm13
	vpaddd	%zmm7, %zmm13, %zmm13
	vpaddd	%zmm1, %zmm8, %zmm8
	vpaddd	%zmm9, %zmm8, %zmm8
	vpaddd	%zmm5, %zmm14, %zmm14
	vpaddd	%zmm10, %zmm14, %zmm14
	vpaddd	%zmm0, %zmm12, %zmm12
	vpaddd	%zmm11, %zmm12, %zmm12
	vpxorq	%zmm13, %zmm15, %zmm15
	vprold	$16, %zmm15, %zmm15
	vpxorq	%zmm8, %zmm26, %zmm26
	vprold	$16, %zmm26, %zmm26
	vpxorq	%zmm14, %zmm28, %zmm28
	vprold	$16, %zmm28, %zmm28
	vpxorq	%zmm12, %zmm27, %zmm27
	vprold	$16, %zmm27, %zmm27
	vpaddd	%zmm15, %zmm29, %zmm29
	vpaddd	%zmm26, %zmm30, %zmm30
	vpaddd	%zmm28, %zmm31, %zmm31
	vpaddd	%zmm27, %zmm6, %zmm6
	vpxord	%zmm7, %zmm29, %zmm7
	vpxord	%zmm9, %zmm30, %zmm9
	vpxord	%zmm10, %zmm31, %zmm10
	vpxord	%zmm11, %zmm6, %zmm11
	vprold	$20, %zmm7, %zmm7
	vprold	$20, %zmm9, %zmm9
	vprold	$20, %zmm10, %zmm10
	vprold	$20, %zmm11, %zmm11
	vpaddd	%zmm3, %zmm13, %zmm13
	vpaddd	%zmm7, %zmm13, %zmm13
	vpaddd	%zmm17, %zmm8, %zmm8
	vpaddd	%zmm9, %zmm8, %zmm8
	vpaddd	%zmm4, %zmm14, %zmm14
	vpaddd	%zmm10, %zmm14, %zmm14
	vpaddd	%zmm20, %zmm12, %zmm12
	vpaddd	%zmm11, %zmm12, %zmm12
	vpxorq	%zmm13, %zmm15, %zmm15
	vprold	$24, %zmm15, %zmm15
	vpxorq	%zmm8, %zmm26, %zmm26
	vprold	$24, %zmm26, %zmm26
	vpxorq	%zmm14, %zmm28, %zmm28
	vprold	$24, %zmm28, %zmm28
	vpxorq	%zmm12, %zmm27, %zmm27
	vprold	$24, %zmm27, %zmm27
	vpaddd	%zmm15, %zmm29, %zmm29
	vpaddd	%zmm26, %zmm30, %zmm30
	vpaddd	%zmm28, %zmm31, %zmm31
	vpaddd	%zmm27, %zmm6, %zmm6
	vpxord	%zmm7, %zmm29, %zmm7
	vpxord	%zmm9, %zmm30, %zmm9
	vpxord	%zmm10, %zmm31, %zmm10
	vpxord	%zmm11, %zmm6, %zmm11
	vprold	$25, %zmm7, %zmm7
	vprold	$25, %zmm9, %zmm9
	vprold	$25, %zmm10, %zmm10
	vprold	$25, %zmm11, %zmm11
	vpaddd	%zmm24, %zmm12, %zmm12
	vpaddd	%zmm7, %zmm12, %zmm12
	vpaddd	%zmm18, %zmm13, %zmm13
	vpaddd	%zmm9, %zmm13, %zmm13
	vpaddd	%zmm16, %zmm8, %zmm8
	vpaddd	%zmm10, %zmm8, %zmm8
	vpaddd	%zmm23, %zmm14, %zmm14
	vpaddd	%zmm11, %zmm14, %zmm14
	vpxorq	%zmm12, %zmm28, %zmm28
	vprold	$16, %zmm28, %zmm28
	vpxorq	%zmm13, %zmm27, %zmm27
	vprold	$16, %zmm27, %zmm27
	vpxorq	%zmm8, %zmm15, %zmm15
	vprold	$16, %zmm15, %zmm15
	vpxorq	%zmm14, %zmm26, %zmm26
	vprold	$16, %zmm26, %zmm26
	vpaddd	%zmm28, %zmm30, %zmm30
	vpaddd	%zmm27, %zmm31, %zmm31
	vpaddd	%zmm15, %zmm6, %zmm6
	vpaddd	%zmm26, %zmm29, %zmm29
	vpxord	%zmm7, %zmm30, %zmm7
	vpxord	%zmm9, %zmm31, %zmm9
	vpxord	%zmm10, %zmm6, %zmm10
	vpxord	%zmm11, %zmm29, %zmm11
	vprold	$20, %zmm7, %zmm7
	vprold	$20, %zmm9, %zmm9
	vprold	$20, %zmm10, %zmm10
	vprold	$20, %zmm11, %zmm11
	vpaddd	%zmm22, %zmm12, %zmm12
	vpaddd	%zmm7, %zmm12, %zmm12
	vpaddd	%zmm25, %zmm13, %zmm13
	vpaddd	%zmm9, %zmm13, %zmm13
	vpaddd	%zmm21, %zmm8, %zmm8
	vpaddd	%zmm10, %zmm8, %zmm8
	vpaddd	%zmm19, %zmm14, %zmm14
	vpaddd	%zmm11, %zmm14, %zmm14
	vpxorq	%zmm12, %zmm28, %zmm28
	vprold	$24, %zmm28, %zmm28
	vpxorq	%zmm13, %zmm27, %zmm27
	vprold	$24, %zmm27, %zmm27
	vpxorq	%zmm8, %zmm15, %zmm15
	vprold	$24, %zmm15, %zmm15
	vpxorq	%zmm14, %zmm26, %zmm26
	vprold	$24, %zmm26, %zmm26
	vpaddd	%zmm28, %zmm30, %zmm30
	vpaddd	%zmm27, %zmm31, %zmm31
	vpaddd	%zmm15, %zmm6, %zmm6
	vpaddd	%zmm26, %zmm29, %zmm29
	vpxord	%zmm7, %zmm30, %zmm7
	vpxord	%zmm9, %zmm31, %zmm9
	vpxord	%zmm10, %zmm6, %zmm10
	vpxord	%zmm11, %zmm29, %zmm11
	vprold	$25, %zmm7, %zmm7
	vprold	$25, %zmm9, %zmm9
	vprold	$25, %zmm10, %zmm10
	vprold	$25, %zmm11, %zmm11
	vpaddd	%zmm1, %zmm13, %zmm13
	vpaddd	%zmm7, %zmm13, %zmm13
	vpaddd	%zmm17, %zmm8, %zmm8
	vpaddd	%zmm9, %zmm8, %zmm8
	vpaddd	%zmm20, %zmm14, %zmm14
	vpaddd	%zmm10, %zmm14, %zmm14
	vpaddd	%zmm5, %zmm12, %zmm12
	vpaddd	%zmm11, %zmm12, %zmm12
	vpxorq	%zmm13, %zmm15, %zmm15
	vprold	$16, %zmm15, %zmm15
	vpxorq	%zmm8, %zmm26, %zmm26
	vprold	$16, %zmm26, %zmm26
	vpxorq	%zmm14, %zmm28, %zmm28
	vprold	$16, %zmm28, %zmm28
	vpxorq	%zmm12, %zmm27, %zmm27
	vprold	$16, %zmm27, %zmm27
	vpaddd	%zmm15, %zmm29, %zmm29
	vpaddd	%zmm26, %zmm30, %zmm30
	vpaddd	%zmm28, %zmm31, %zmm31
	vpaddd	%zmm27, %zmm6, %zmm6
	vpxord	%zmm7, %zmm29, %zmm7
	vpxord	%zmm9, %zmm30, %zmm9
	vpxord	%zmm10, %zmm31, %zmm10
	vpxord	%zmm11, %zmm6, %zmm11
	vprold	$20, %zmm7, %zmm7
	vprold	$20, %zmm9, %zmm9
	vprold	$20, %zmm10, %zmm10
	vprold	$20, %zmm11, %zmm11
	vpaddd	%zmm0, %zmm13, %zmm13
	vpaddd	%zmm7, %zmm13, %zmm13
	vpaddd	%zmm16, %zmm8, %zmm8
	vpaddd	%zmm9, %zmm8, %zmm8
	vpaddd	%zmm2, %zmm14, %zmm14
	vpaddd	%zmm10, %zmm14, %zmm14
	vpaddd	%zmm19, %zmm12, %zmm12
	vpaddd	%zmm11, %zmm12, %zmm12
	vpxorq	%zmm13, %zmm15, %zmm15
	vprold	$24, %zmm15, %zmm15
	vpxorq	%zmm8, %zmm26, %zmm26
	vprold	$24, %zmm26, %zmm26
	vpxorq	%zmm14, %zmm28, %zmm28
	vprold	$24, %zmm28, %zmm28
	vpxorq	%zmm12, %zmm27, %zmm27
	vprold	$24, %zmm27, %zmm27
	vpaddd	%zmm15, %zmm29, %zmm29
	vpaddd	%zmm26, %zmm30, %zmm30
	vpaddd	%zmm28, %zmm31, %zmm31
	vpaddd	%zmm27, %zmm6, %zmm6
	vpxord	%zmm7, %zmm29, %zmm7
	vpxord	%zmm9, %zmm30, %zmm9
	vpxord	%zmm10, %zmm31, %zmm10
	vpxord	%zmm11, %zmm6, %zmm11
	vprold	$25, %zmm7, %zmm7
	vprold	$25, %zmm9, %zmm9
	vprold	$25, %zmm10, %zmm10
	vprold	$25, %zmm11, %zmm11
	vpaddd	%zmm22, %zmm12, %zmm12
	vpaddd	%zmm7, %zmm12, %zmm12
	vpaddd	%zmm3, %zmm13, %zmm13
	vpaddd	%zmm9, %zmm13, %zmm13
	vpaddd	%zmm23, %zmm8, %zmm8
	vpaddd	%zmm10, %zmm8, %zmm8
	vpaddd	%zmm25, %zmm14, %zmm14
	vpaddd	%zmm11, %zmm14, %zmm14
	vpxorq	%zmm12, %zmm28, %zmm28
	vprold	$16, %zmm28, %zmm28
	vpxorq	%zmm13, %zmm27, %zmm27
	vprold	$16, %zmm27, %zmm27
	vpxorq	%zmm8, %zmm15, %zmm15
	vprold	$16, %zmm15, %zmm15
	vpxorq	%zmm14, %zmm26, %zmm26
	vprold	$16, %zmm26, %zmm26
	vpaddd	%zmm28, %zmm30, %zmm30
	vpaddd	%zmm27, %zmm31, %zmm31
	vpaddd	%zmm15, %zmm6, %zmm6
	vpaddd	%zmm26, %zmm29, %zmm29
	vpxord	%zmm7, %zmm30, %zmm7
	vpxord	%zmm9, %zmm31, %zmm9
	vpxord	%zmm10, %zmm6, %zmm10
	vpxord	%zmm11, %zmm29, %zmm11
	vprold	$20, %zmm7, %zmm7
	vprold	$20, %zmm9, %zmm9
	vprold	$20, %zmm10, %zmm10
	vprold	$20, %zmm11, %zmm11
	vpaddd	%zmm18, %zmm12, %zmm12
	vpaddd	%zmm7, %zmm12, %zmm12
	vpaddd	%zmm21, %zmm13, %zmm13
	vpaddd	%zmm9, %zmm13, %zmm13
	vpaddd	%zmm4, %zmm8, %zmm8
	vpaddd	%zmm10, %zmm8, %zmm8
	vpaddd	%zmm24, %zmm14, %zmm14
	vpaddd	%zmm11, %zmm14, %zmm14
	vpxorq	%zmm12, %zmm28, %zmm28
	vprold	$24, %zmm28, %zmm28
	vpxorq	%zmm13, %zmm27, %zmm27
	vprold	$24, %zmm27, %zmm27
	vpxorq	%zmm8, %zmm15, %zmm15
	vprold	$24, %zmm15, %zmm15
	vpxorq	%zmm14, %zmm26, %zmm26
	vprold	$24, %zmm26, %zmm26
	vpaddd	%zmm28, %zmm30, %zmm30
	vpaddd	%zmm27, %zmm31, %zmm31
	vpaddd	%zmm15, %zmm6, %zmm6
	vpaddd	%zmm26, %zmm29, %zmm29
	vpxord	%zmm7, %zmm30, %zmm7
	vpxord	%zmm9, %zmm31, %zmm9
	vpxord	%zmm10, %zmm6, %zmm10
	vpxord	%zmm11, %zmm29, %zmm11
	vprold	$25, %zmm7, %zmm7
	vprold	$25, %zmm9, %zmm9
	vprold	$25, %zmm10, %zmm10
	vprold	$25, %zmm11, %zmm11
	vpaddd	%zmm17, %zmm13, %zmm13
	vpaddd	%zmm7, %zmm13, %zmm13
	vpaddd	%zmm16, %zmm8, %zmm8
	vpaddd	%zmm9, %zmm8, %zmm8
	vpaddd	%zmm19, %zmm14, %zmm14
	vpaddd	%zmm10, %zmm14, %zmm14
	vpaddd	%zmm20, %zmm12, %zmm12
	vpaddd	%zmm11, %zmm12, %zmm12
	vpxorq	%zmm13, %zmm15, %zmm15
	vprold	$16, %zmm15, %zmm15
	vpxorq	%zmm8, %zmm26, %zmm26
	vprold	$16, %zmm26, %zmm26
	vpxorq	%zmm14, %zmm28, %zmm28
	vprold	$16, %zmm28, %zmm28
	vpxorq	%zmm12, %zmm27, %zmm27
	vprold	$16, %zmm27, %zmm27
	vpaddd	%zmm15, %zmm29, %zmm29
	vpaddd	%zmm26, %zmm30, %zmm30
	vpaddd	%zmm28, %zmm31, %zmm31
	vpaddd	%zmm27, %zmm6, %zmm6
	vpxord	%zmm7, %zmm29, %zmm7
	vpxord	%zmm9, %zmm30, %zmm9
	vpxord	%zmm10, %zmm31, %zmm10
	vpxord	%zmm11, %zmm6, %zmm11
	vprold	$20, %zmm7, %zmm7
	vprold	$20, %zmm9, %zmm9
	vprold	$20, %zmm10, %zmm10
	vprold	$20, %zmm11, %zmm11
	vpaddd	%zmm5, %zmm13, %zmm13
	vpaddd	%zmm7, %zmm13, %zmm13
	vpaddd	%zmm23, %zmm8, %zmm8
	vpaddd	%zmm9, %zmm8, %zmm8
	vpaddd	%zmm1, %zmm14, %zmm14
	vpaddd	%zmm10, %zmm14, %zmm14
	vpaddd	%zmm24, %zmm12, %zmm12
	vpaddd	%zmm11, %zmm12, %zmm12
	vpxorq	%zmm13, %zmm15, %zmm15
	vprold	$24, %zmm15, %zmm15
	vpxorq	%zmm8, %zmm26, %zmm26
	vprold	$24, %zmm26, %zmm26
	vpxorq	%zmm14, %zmm28, %zmm28
	vprold	$24, %zmm28, %zmm28
	vpxorq	%zmm12, %zmm27, %zmm27
	vprold	$24, %zmm27, %zmm27
	vpaddd	%zmm15, %zmm29, %zmm29
	vpaddd	%zmm26, %zmm30, %zmm30
	vpaddd	%zmm28, %zmm31, %zmm31
	vpaddd	%zmm27, %zmm6, %zmm6
	vpxord	%zmm7, %zmm29, %zmm7
	vpxord	%zmm9, %zmm30, %zmm9
	vpxord	%zmm10, %zmm31, %zmm10
	vpxord	%zmm11, %zmm6, %zmm11
	vprold	$25, %zmm7, %zmm7
	vprold	$25, %zmm9, %zmm9
	vprold	$25, %zmm10, %zmm10
	vprold	$25, %zmm11, %zmm11
	vpaddd	%zmm18, %zmm12, %zmm12
	vpaddd	%zmm7, %zmm12, %zmm12
	vpaddd	%zmm0, %zmm13, %zmm13
	vpaddd	%zmm9, %zmm13, %zmm13
	vpaddd	%zmm25, %zmm8, %zmm8
	vpaddd	%zmm10, %zmm8, %zmm8
	vpaddd	%zmm21, %zmm14, %zmm14
	vpaddd	%zmm11, %zmm14, %zmm14
	vpxorq	%zmm12, %zmm28, %zmm28
	vprold	$16, %zmm28, %zmm28
	vpxorq	%zmm13, %zmm27, %zmm27
	vprold	$16, %zmm27, %zmm27
	vpxorq	%zmm8, %zmm15, %zmm15
	vprold	$16, %zmm15, %zmm15
	vpxorq	%zmm14, %zmm26, %zmm26
	vprold	$16, %zmm26, %zmm26
	vpaddd	%zmm28, %zmm30, %zmm30
	vpaddd	%zmm27, %zmm31, %zmm31
	vpaddd	%zmm15, %zmm6, %zmm6
	vpaddd	%zmm26, %zmm29, %zmm29
	vpxord	%zmm7, %zmm30, %zmm7
	vpxord	%zmm9, %zmm31, %zmm9
	vpxord	%zmm10, %zmm6, %zmm10
	vpxord	%zmm11, %zmm29, %zmm11
	vprold	$20, %zmm7, %zmm7
	vprold	$20, %zmm9, %zmm9
	vprold	$20, %zmm10, %zmm10
	vprold	$20, %zmm11, %zmm11
	vpaddd	%zmm3, %zmm12, %zmm12
	vpaddd	%zmm7, %zmm12, %zmm12
	vpaddd	%zmm4, %zmm13, %zmm13
	vpaddd	%zmm9, %zmm13, %zmm13
	vpaddd	%zmm2, %zmm8, %zmm8
	vpaddd	%zmm10, %zmm8, %zmm8
	vpaddd	%zmm22, %zmm14, %zmm14
	vpaddd	%zmm11, %zmm14, %zmm14
	vpxorq	%zmm12, %zmm28, %zmm28
	vprold	$24, %zmm28, %zmm28
	vpxorq	%zmm13, %zmm27, %zmm27
	vprold	$24, %zmm27, %zmm27
	vpxorq	%zmm8, %zmm15, %zmm15
	vprold	$24, %zmm15, %zmm15
	vpxorq	%zmm14, %zmm26, %zmm26
	vprold	$24, %zmm26, %zmm26
	vpaddd	%zmm28, %zmm30, %zmm30
	vpaddd	%zmm27, %zmm31, %zmm31
	vpaddd	%zmm15, %zmm6, %zmm6
	vpaddd	%zmm26, %zmm29, %zmm29
	vpxord	%zmm7, %zmm30, %zmm7
	vpxord	%zmm9, %zmm31, %zmm9
	vpxord	%zmm10, %zmm6, %zmm10
	vpxord	%zmm11, %zmm29, %zmm11
	vprold	$25, %zmm7, %zmm7
	vprold	$25, %zmm9, %zmm9
	vprold	$25, %zmm10, %zmm10
	vprold	$25, %zmm11, %zmm11
	vpaddd	%zmm16, %zmm13, %zmm13
	vpaddd	%zmm7, %zmm13, %zmm13
	vpaddd	%zmm23, %zmm8, %zmm8
	vpaddd	%zmm9, %zmm8, %zmm8
	vpaddd	%zmm24, %zmm14, %zmm14
	vpaddd	%zmm10, %zmm14, %zmm14
	vpaddd	%zmm19, %zmm12, %zmm12
	vpaddd	%zmm11, %zmm12, %zmm12
	vpxorq	%zmm13, %zmm15, %zmm15
	vprold	$16, %zmm15, %zmm15
	vpxorq	%zmm8, %zmm26, %zmm26
	vprold	$16, %zmm26, %zmm26
	vpxorq	%zmm14, %zmm28, %zmm28
	vprold	$16, %zmm28, %zmm28
	vpxorq	%zmm12, %zmm27, %zmm27
	vprold	$16, %zmm27, %zmm27
	vpaddd	%zmm15, %zmm29, %zmm29
	vpaddd	%zmm26, %zmm30, %zmm30
	vpaddd	%zmm28, %zmm31, %zmm31
	vpaddd	%zmm27, %zmm6, %zmm6
	vpxord	%zmm7, %zmm29, %zmm7
	vpxord	%zmm9, %zmm30, %zmm9
	vpxord	%zmm10, %zmm31, %zmm10
	vpxord	%zmm11, %zmm6, %zmm11
	vprold	$20, %zmm7, %zmm7
	vprold	$20, %zmm9, %zmm9
	vprold	$20, %zmm10, %zmm10
	vprold	$20, %zmm11, %zmm11
	vpaddd	%zmm20, %zmm13, %zmm13
	vpaddd	%zmm7, %zmm13, %zmm13
	vpaddd	%zmm25, %zmm8, %zmm8
	vpaddd	%zmm9, %zmm8, %zmm8
	vpaddd	%zmm17, %zmm14, %zmm14
	vpaddd	%zmm10, %zmm14, %zmm14
	vpaddd	%zmm22, %zmm12, %zmm12
	vpaddd	%zmm11, %zmm12, %zmm12
	vpxorq	%zmm13, %zmm15, %zmm15
	vprold	$24, %zmm15, %zmm15
	vpxorq	%zmm8, %zmm26, %zmm26
	vprold	$24, %zmm26, %zmm26
	vpxorq	%zmm14, %zmm28, %zmm28
	vprold	$24, %zmm28, %zmm28
	vpxorq	%zmm12, %zmm27, %zmm27
	vprold	$24, %zmm27, %zmm27
	vpaddd	%zmm15, %zmm29, %zmm29
	vpaddd	%zmm26, %zmm30, %zmm30
	vpaddd	%zmm28, %zmm31, %zmm31
	vpaddd	%zmm27, %zmm6, %zmm6
	vpxord	%zmm7, %zmm29, %zmm7
	vpxord	%zmm9, %zmm30, %zmm9
	vpxord	%zmm10, %zmm31, %zmm10
	vpxord	%zmm11, %zmm6, %zmm11
	vprold	$25, %zmm7, %zmm7
	vprold	$25, %zmm9, %zmm9
	vprold	$25, %zmm10, %zmm10
	vprold	$25, %zmm11, %zmm11
	vpaddd	%zmm3, %zmm12, %zmm12
	vpaddd	%zmm7, %zmm12, %zmm12
	vpaddd	%zmm5, %zmm13, %zmm13
	vpaddd	%zmm9, %zmm13, %zmm13
	vpaddd	%zmm21, %zmm8, %zmm8
	vpaddd	%zmm10, %zmm8, %zmm8
	vpaddd	%zmm4, %zmm14, %zmm14
	vpaddd	%zmm11, %zmm14, %zmm14
	vpxorq	%zmm12, %zmm28, %zmm28
	vprold	$16, %zmm28, %zmm28
	vpxorq	%zmm13, %zmm27, %zmm27
	vprold	$16, %zmm27, %zmm27
	vpxorq	%zmm8, %zmm15, %zmm15
	vprold	$16, %zmm15, %zmm15
	vpxorq	%zmm14, %zmm26, %zmm26
	vprold	$16, %zmm26, %zmm26
	vpaddd	%zmm28, %zmm30, %zmm30
	vpaddd	%zmm27, %zmm31, %zmm31
	vpaddd	%zmm15, %zmm6, %zmm6
	vpaddd	%zmm26, %zmm29, %zmm29
	vpxord	%zmm7, %zmm30, %zmm7
	vpxord	%zmm9, %zmm31, %zmm9
	vpxord	%zmm10, %zmm6, %zmm10
	vpxord	%zmm11, %zmm29, %zmm11
	vprold	$20, %zmm7, %zmm7
	vprold	$20, %zmm9, %zmm9
	vprold	$20, %zmm10, %zmm10
	vprold	$20, %zmm11, %zmm11
	vpaddd	%zmm0, %zmm12, %zmm12
	vpaddd	%zmm7, %zmm12, %zmm12
	vpaddd	%zmm2, %zmm13, %zmm13
	vpaddd	%zmm9, %zmm13, %zmm13
	vpaddd	%zmm1, %zmm8, %zmm8
	vpaddd	%zmm10, %zmm8, %zmm8
	vpaddd	%zmm18, %zmm14, %zmm14
	vpaddd	%zmm11, %zmm14, %zmm14
	vpxorq	%zmm12, %zmm28, %zmm28
	vprold	$24, %zmm28, %zmm28
	vpxorq	%zmm13, %zmm27, %zmm27
	vprold	$24, %zmm27, %zmm27
	vpxorq	%zmm8, %zmm15, %zmm15
	vprold	$24, %zmm15, %zmm15
	vpxorq	%zmm14, %zmm26, %zmm26
	vprold	$24, %zmm26, %zmm26
	vpaddd	%zmm28, %zmm30, %zmm30
	vpaddd	%zmm27, %zmm31, %zmm31
	vpaddd	%zmm15, %zmm6, %zmm6
	vpaddd	%zmm26, %zmm29, %zmm29
	vpxord	%zmm7, %zmm30, %zmm7
	vpxord	%zmm9, %zmm31, %zmm9
	vpxord	%zmm10, %zmm6, %zmm10
	vpxord	%zmm11, %zmm29, %zmm11
	vprold	$25, %zmm7, %zmm7
	vprold	$25, %zmm9, %zmm9
	vprold	$25, %zmm10, %zmm10
	vprold	$25, %zmm11, %zmm11
	vpaddd	%zmm23, %zmm13, %zmm13
	vpaddd	%zmm7, %zmm13, %zmm13
	vpaddd	%zmm25, %zmm8, %zmm8
	vpaddd	%zmm9, %zmm8, %zmm8
	vpaddd	%zmm22, %zmm14, %zmm14
	vpaddd	%zmm10, %zmm14, %zmm14
	vpaddd	%zmm24, %zmm12, %zmm12
	vpaddd	%zmm11, %zmm12, %zmm12
	vpxorq	%zmm13, %zmm15, %zmm15
	vprold	$16, %zmm15, %zmm15
	vpxorq	%zmm8, %zmm26, %zmm26
	vprold	$16, %zmm26, %zmm26
	vpxorq	%zmm14, %zmm28, %zmm28
	vprold	$16, %zmm28, %zmm28
	vpxorq	%zmm12, %zmm27, %zmm27
	vprold	$16, %zmm27, %zmm27
	vpaddd	%zmm15, %zmm29, %zmm29
	vpaddd	%zmm26, %zmm30, %zmm30
	vpaddd	%zmm28, %zmm31, %zmm31
	vpaddd	%zmm27, %zmm6, %zmm6
	vpxord	%zmm7, %zmm29, %zmm7
	vpxord	%zmm9, %zmm30, %zmm9
	vpxord	%zmm10, %zmm31, %zmm10
	vpxord	%zmm11, %zmm6, %zmm11
	vprold	$20, %zmm7, %zmm7
	vprold	$20, %zmm9, %zmm9
	vprold	$20, %zmm10, %zmm10
	vprold	$20, %zmm11, %zmm11
	vpaddd	%zmm19, %zmm13, %zmm13
	vpaddd	%zmm7, %zmm13, %zmm13
	vpaddd	%zmm21, %zmm8, %zmm8
	vpaddd	%zmm9, %zmm8, %zmm8
	vpaddd	%zmm16, %zmm14, %zmm14
	vpaddd	%zmm10, %zmm14, %zmm14
	vpaddd	%zmm18, %zmm12, %zmm12
	vpaddd	%zmm11, %zmm12, %zmm12
	vpxorq	%zmm13, %zmm15, %zmm15
	vprold	$24, %zmm15, %zmm15
	vpxorq	%zmm8, %zmm26, %zmm26
	vprold	$24, %zmm26, %zmm26
	vpxorq	%zmm14, %zmm28, %zmm28
	vprold	$24, %zmm28, %zmm28
	vpxorq	%zmm12, %zmm27, %zmm27
	vprold	$24, %zmm27, %zmm27
	vpaddd	%zmm15, %zmm29, %zmm29
	vpaddd	%zmm26, %zmm30, %zmm30
	vpaddd	%zmm28, %zmm31, %zmm31
	vpaddd	%zmm27, %zmm6, %zmm6
	vpxord	%zmm7, %zmm29, %zmm7
	vpxord	%zmm9, %zmm30, %zmm9
	vpxord	%zmm10, %zmm31, %zmm10
	vpxord	%zmm11, %zmm6, %zmm11
	vprold	$25, %zmm7, %zmm7
	vprold	$25, %zmm9, %zmm9
	vprold	$25, %zmm10, %zmm10
	vprold	$25, %zmm11, %zmm11
	vpaddd	%zmm0, %zmm12, %zmm12
	vpaddd	%zmm7, %zmm12, %zmm12
	vpaddd	%zmm20, %zmm13, %zmm13
	vpaddd	%zmm9, %zmm13, %zmm13
	vpaddd	%zmm4, %zmm8, %zmm8
	vpaddd	%zmm10, %zmm8, %zmm8
	vpaddd	%zmm2, %zmm14, %zmm14
	vpaddd	%zmm11, %zmm14, %zmm14
	vpxorq	%zmm12, %zmm28, %zmm28
	vprold	$16, %zmm28, %zmm28
	vpxorq	%zmm13, %zmm27, %zmm27
	vprold	$16, %zmm27, %zmm27
	vpxorq	%zmm8, %zmm15, %zmm15
	vprold	$16, %zmm15, %zmm15
	vpxorq	%zmm14, %zmm26, %zmm26
	vprold	$16, %zmm26, %zmm26
	vpaddd	%zmm28, %zmm30, %zmm30
	vpaddd	%zmm27, %zmm31, %zmm31
	vpaddd	%zmm15, %zmm6, %zmm6
	vpaddd	%zmm26, %zmm29, %zmm29
	vpxord	%zmm7, %zmm30, %zmm7
	vpxord	%zmm9, %zmm31, %zmm9
	vpxord	%zmm10, %zmm6, %zmm10
	vpxord	%zmm11, %zmm29, %zmm11
	vprold	$20, %zmm7, %zmm7
	vprold	$20, %zmm9, %zmm9
	vprold	$20, %zmm10, %zmm10
	vprold	$20, %zmm11, %zmm11
	vpaddd	%zmm5, %zmm12, %zmm12
	vpaddd	%zmm7, %zmm12, %zmm12
	vpaddd	%zmm1, %zmm13, %zmm13
	vpaddd	%zmm9, %zmm13, %zmm13
	vpaddd	%zmm17, %zmm8, %zmm8
	vpaddd	%zmm10, %zmm8, %zmm8
	vpaddd	%zmm3, %zmm14, %zmm14
	vpaddd	%zmm11, %zmm14, %zmm14
	vpxorq	%zmm12, %zmm28, %zmm28
	vprold	$24, %zmm28, %zmm28
	vpxorq	%zmm13, %zmm27, %zmm27
	vprold	$24, %zmm27, %zmm27
	vpxorq	%zmm8, %zmm15, %zmm15
	vprold	$24, %zmm15, %zmm15
	vpxorq	%zmm14, %zmm26, %zmm26
	vprold	$24, %zmm26, %zmm26
	vpaddd	%zmm28, %zmm30, %zmm30
	vpaddd	%zmm27, %zmm31, %zmm31
	vpaddd	%zmm15, %zmm6, %zmm6
	vpaddd	%zmm26, %zmm29, %zmm29
	vpxord	%zmm7, %zmm30, %zmm7
	vpxord	%zmm9, %zmm31, %zmm9
	vpxord	%zmm10, %zmm6, %zmm10
	vpxord	%zmm11, %zmm29, %zmm11
	vprold	$25, %zmm7, %zmm7
	vprold	$25, %zmm9, %zmm9
	vprold	$25, %zmm10, %zmm10
	vprold	$25, %zmm11, %zmm11
	vpaddd	%zmm25, %zmm13, %zmm25
	vpaddd	%zmm7, %zmm25, %zmm25
	vpaddd	%zmm21, %zmm8, %zmm21
	vpaddd	%zmm9, %zmm21, %zmm21
	vpaddd	%zmm18, %zmm14, %zmm18
	vpaddd	%zmm10, %zmm18, %zmm18
	vpaddd	%zmm22, %zmm12, %zmm22
	vpaddd	%zmm11, %zmm22, %zmm22
	vpxorq	%zmm25, %zmm15, %zmm8
	vprold	$16, %zmm8, %zmm8
	vpxorq	%zmm21, %zmm26, %zmm26
	vprold	$16, %zmm26, %zmm26
	vpxorq	%zmm18, %zmm28, %zmm28
	vprold	$16, %zmm28, %zmm28
	vpxorq	%zmm22, %zmm27, %zmm27
	vprold	$16, %zmm27, %zmm27
	vpaddd	%zmm8, %zmm29, %zmm29
	vpaddd	%zmm26, %zmm30, %zmm30
	vpaddd	%zmm28, %zmm31, %zmm31
	vpaddd	%zmm27, %zmm6, %zmm6
	vpxord	%zmm7, %zmm29, %zmm7
	vpxord	%zmm9, %zmm30, %zmm9
	vpxord	%zmm10, %zmm31, %zmm10
	vpxord	%zmm11, %zmm6, %zmm11
	vprold	$20, %zmm7, %zmm7
	vprold	$20, %zmm9, %zmm9
	vprold	$20, %zmm10, %zmm10
	vprold	$20, %zmm11, %zmm11
	vpaddd	%zmm24, %zmm25, %zmm24
	vpaddd	%zmm7, %zmm24, %zmm24
	vpaddd	%zmm4, %zmm21, %zmm4
	vpaddd	%zmm9, %zmm4, %zmm4
	vpaddd	%zmm23, %zmm18, %zmm18
	vpaddd	%zmm10, %zmm18, %zmm18
	vpaddd	%zmm3, %zmm22, %zmm3
	vpaddd	%zmm11, %zmm3, %zmm3
	vpxorq	%zmm24, %zmm8, %zmm21
	vprold	$24, %zmm21, %zmm21
	vpxorq	%zmm4, %zmm26, %zmm22
	vprold	$24, %zmm22, %zmm22
	vpxorq	%zmm18, %zmm28, %zmm23
	vprold	$24, %zmm23, %zmm23
	vpxorq	%zmm3, %zmm27, %zmm25
	vprold	$24, %zmm25, %zmm25
	vpaddd	%zmm21, %zmm29, %zmm26
	vpaddd	%zmm22, %zmm30, %zmm27
	vpaddd	%zmm23, %zmm31, %zmm28
	vpaddd	%zmm25, %zmm6, %zmm29
	vpxord	%zmm7, %zmm26, %zmm30
	vpxord	%zmm9, %zmm27, %zmm31
	vpxord	%zmm10, %zmm28, %zmm6
	vpxord	%zmm11, %zmm29, %zmm7
	vprold	$25, %zmm30, %zmm30
	vprold	$25, %zmm31, %zmm31
	vprold	$25, %zmm6, %zmm6
	vprold	$25, %zmm7, %zmm7
	vpaddd	%zmm5, %zmm3, %zmm3
	vpaddd	%zmm30, %zmm3, %zmm3
	vpaddd	%zmm19, %zmm24, %zmm5
	vpaddd	%zmm31, %zmm5, %zmm5
	vpaddd	%zmm2, %zmm4, %zmm2
	vpaddd	%zmm6, %zmm2, %zmm2
	vpaddd	%zmm1, %zmm18, %zmm1
	vpaddd	%zmm7, %zmm1, %zmm1
	vpxorq	%zmm3, %zmm23, %zmm4
	vprold	$16, %zmm4, %zmm4
	vpxorq	%zmm5, %zmm25, %zmm18
	vprold	$16, %zmm18, %zmm18
	vpxorq	%zmm2, %zmm21, %zmm19
	vprold	$16, %zmm19, %zmm19
	vpxorq	%zmm1, %zmm22, %zmm21
	vprold	$16, %zmm21, %zmm21
	vpaddd	%zmm4, %zmm27, %zmm22
	vpaddd	%zmm18, %zmm28, %zmm23
	vpaddd	%zmm19, %zmm29, %zmm24
	vpaddd	%zmm21, %zmm26, %zmm25
	vpxord	%zmm30, %zmm22, %zmm26
	vpxord	%zmm31, %zmm23, %zmm27
	vpxord	%zmm6, %zmm24, %zmm28
	vpxord	%zmm7, %zmm25, %zmm29
	vprold	$20, %zmm26, %zmm26
	vprold	$20, %zmm27, %zmm27
	vprold	$20, %zmm28, %zmm28
	vprold	$20, %zmm29, %zmm29
	vpaddd	%zmm20, %zmm3, %zmm3
	vpaddd	%zmm26, %zmm3, %zmm3
	vpaddd	%zmm17, %zmm5, %zmm5
	vpaddd	%zmm27, %zmm5, %zmm5
	vpaddd	%zmm16, %zmm2, %zmm2
	vpaddd	%zmm28, %zmm2, %zmm2
	vpaddd	%zmm0, %zmm1, %zmm0
	vpaddd	%zmm29, %zmm0, %zmm0
	vpxorq	%zmm3, %zmm4, %zmm1
	vprold	$24, %zmm1, %zmm1
	vpxorq	%zmm5, %zmm18, %zmm4
	vprold	$24, %zmm4, %zmm4
	vpxorq	%zmm2, %zmm19, %zmm16
	vprold	$24, %zmm16, %zmm16
	vpxorq	%zmm0, %zmm21, %zmm17
	vprold	$24, %zmm17, %zmm17
	vpaddd	%zmm1, %zmm22, %zmm18
	vpaddd	%zmm4, %zmm23, %zmm19
	vpaddd	%zmm16, %zmm24, %zmm20
	vpaddd	%zmm17, %zmm25, %zmm21
	vpxord	%zmm26, %zmm18, %zmm22
	vpxord	%zmm27, %zmm19, %zmm23
	vpxord	%zmm28, %zmm20, %zmm24
	vpxord	%zmm29, %zmm21, %zmm25
	vprold	$25, %zmm22, %zmm22
	vprold	$25, %zmm23, %zmm23
	vprold	$25, %zmm24, %zmm24
	vprold	$25, %zmm25, %zmm25
	vpxord	%zmm5, %zmm21, %zmm5
	vpxord	%zmm2, %zmm18, %zmm2
	vpxord	%zmm0, %zmm19, %zmm0
	vpxord	%zmm3, %zmm20, %zmm3
	vpxord	%zmm16, %zmm22, %zmm16
	vpxord	%zmm17, %zmm23, %zmm17
	vpxord	%zmm1, %zmm24, %zmm1
	vpxord	%zmm4, %zmm25, %zmm4
	vmovdqu64	%zmm5, (%rcx)
	vmovdqu64	%zmm2, 64(%rcx)
	vmovdqu64	%zmm0, 128(%rcx)
	vmovdqu64	%zmm3, 192(%rcx)
	vmovdqu64	%zmm16, 256(%rcx)
	vmovdqu64	%zmm17, 320(%rcx)
	vmovdqu64	%zmm1, 384(%rcx)
	vmovdqu64	%zmm4, 448(%rcx)
	vmovaps	-112(%rbp), %xmm6
	vmovaps	-96(%rbp), %xmm7
	vmovaps	-80(%rbp), %xmm8
	vmovaps	-64(%rbp), %xmm9
	vmovaps	-48(%rbp), %xmm10
	vmovaps	-32(%rbp), %xmm11
	vmovaps	-16(%rbp), %xmm12
	vmovaps	(%rbp), %xmm13
	vmovaps	16(%rbp), %xmm14
	vmovaps	32(%rbp), %xmm15
	leaq	48(%rbp), %rsp
	popq	%rbp
	vzeroupper
	retq
	.seh_endproc

	.section	.rdata,"dr"
	.p2align	6, 0x0
.LCPI13_0:
	.long	0
	.long	16
	.long	2
	.long	18
	.long	4
	.long	20
	.long	6
	.long	22
	.long	9
	.long	25
	.long	11
	.long	27
	.long	13
	.long	29
	.long	15
	.long	31
.LCPI13_1:
	.quad	0
	.quad	8
	.quad	1
	.quad	9
	.quad	2
	.quad	10
	.quad	3
	.quad	11
.LCPI13_2:
	.quad	4
	.quad	12
	.quad	5
	.quad	13
	.quad	6
	.quad	14
	.quad	7
	.quad	15
.LCPI13_3:
	.long	0
	.long	16
	.long	17
	.long	3
	.long	4
	.long	18
	.long	19
	.long	7
	.long	8
	.long	20
	.long	21
	.long	11
	.long	12
	.long	22
	.long	23
	.long	15
.LCPI13_4:
	.long	18
	.long	0
	.long	2
	.long	16
	.long	22
	.long	4
	.long	6
	.long	20
	.long	26
	.long	8
	.long	10
	.long	24
	.long	30
	.long	12
	.long	14
	.long	28
.LCPI13_5:
	.long	19
	.long	1
	.long	3
	.long	17
	.long	23
	.long	5
	.long	7
	.long	21
	.long	27
	.long	9
	.long	11
	.long	25
	.long	31
	.long	13
	.long	15
	.long	29
.LCPI13_6:
	.long	0
	.long	0
	.long	64
	.long	20
	.long	0
	.long	0
	.long	64
	.long	20
	.long	0
	.long	0
	.long	64
	.long	20
	.long	0
	.long	0
	.long	64
	.long	20
.LCPI13_7:
	.long	1779033703
	.long	3144134277
	.long	1013904242
	.long	2773480762
	.long	1779033703
	.long	3144134277
	.long	1013904242
	.long	2773480762
	.long	1779033703
	.long	3144134277
	.long	1013904242
	.long	2773480762
	.long	1779033703
	.long	3144134277
	.long	1013904242
	.long	2773480762
.LCPI13_8:
	.long	3
	.long	16
	.long	0
	.long	18
	.long	7
	.long	20
	.long	4
	.long	22
	.long	11
	.long	24
	.long	8
	.long	26
	.long	15
	.long	28
	.long	12
	.long	30
.LCPI13_9:
	.long	0
	.long	2
	.long	16
	.long	1
	.long	4
	.long	6
	.long	20
	.long	5
	.long	8
	.long	10
	.long	24
	.long	9
	.long	12
	.long	14
	.long	28
	.long	13
.LCPI13_10:
	.long	0
	.long	1
	.long	17
	.long	2
	.long	4
	.long	5
	.long	21
	.long	6
	.long	8
	.long	9
	.long	25
	.long	10
	.long	12
	.long	13
	.long	29
	.long	14
.LCPI13_11:
	.long	0
	.long	16
	.long	1
	.long	18
	.long	4
	.long	20
	.long	5
	.long	22
	.long	8
	.long	24
	.long	9
	.long	26
	.long	12
	.long	28
	.long	13
	.long	30
.LCPI13_12:
	.long	0
	.long	2
	.long	17
	.long	1
	.long	4
	.long	6
	.long	21
	.long	5
	.long	8
	.long	10
	.long	25
	.long	9
	.long	12
	.long	14
	.long	29
	.long	13
.LCPI13_13:
	.long	0
	.long	1
	.long	16
	.long	2
	.long	4
	.long	5
	.long	18
	.long	6
	.long	8
	.long	9
	.long	20
	.long	10
	.long	12
	.long	13
	.long	22
	.long	14
.LCPI13_14:
	.long	0
	.long	17
	.long	1
	.long	16
	.long	4
	.long	21
	.long	5
	.long	20
	.long	8
	.long	25
	.long	9
	.long	24
	.long	12
	.long	29
	.long	13
	.long	28
.LCPI13_15:
	.long	0
	.long	2
	.long	19
	.long	1
	.long	4
	.long	6
	.long	23
	.long	5
	.long	8
	.long	10
	.long	27
	.long	9
	.long	12
	.long	14
	.long	31
	.long	13
.LCPI13_16:
	.long	0
	.long	19
	.long	1
	.long	16
	.long	4
	.long	23
	.long	5
	.long	20
	.long	8
	.long	27
	.long	9
	.long	24
	.long	12
	.long	31
	.long	13
	.long	28
.LCPI13_17:
	.long	2
	.long	3
	.long	1
	.long	16
	.long	6
	.long	7
	.long	5
	.long	18
	.long	10
	.long	11
	.long	9
	.long	20
	.long	14
	.long	15
	.long	13
	.long	22
.LCPI13_18:
	.long	0
	.long	1
	.long	2
	.long	16
	.long	4
	.long	5
	.long	6
	.long	18
	.long	8
	.long	9
	.long	10
	.long	20
	.long	12
	.long	13
	.long	14
	.long	22
.LCPI13_19:
	.long	0
	.long	17
	.long	3
	.long	2
	.long	4
	.long	21
	.long	7
	.long	6
	.long	8
	.long	25
	.long	11
	.long	10
	.long	12
	.long	29
	.long	15
	.long	14
.LCPI13_20:
	.long	2
	.long	18
	.long	0
	.long	16
	.long	6
	.long	22
	.long	4
	.long	20
	.long	10
	.long	26
	.long	8
	.long	24
	.long	14
	.long	30
	.long	12
	.long	28
.LCPI13_21:
	.long	0
	.long	2
	.long	16
	.long	1
	.long	4
	.long	6
	.long	18
	.long	5
	.long	8
	.long	10
	.long	20
	.long	9
	.long	12
	.long	14
	.long	22
	.long	13
.LCPI13_22:
	.long	0
	.long	1
	.long	18
	.long	2
	.long	4
	.long	5
	.long	22
	.long	6
	.long	8
	.long	9
	.long	26
	.long	10
	.long	12
	.long	13
	.long	30
	.long	14
.LCPI13_23:
	.long	1
	.long	3
	.long	0
	.long	25
	.long	5
	.long	7
	.long	4
	.long	27
	.long	9
	.long	11
	.long	8
	.long	29
	.long	13
	.long	15
	.long	12
	.long	31
.LCPI13_24:
	.long	0
	.long	16
	.long	1
	.long	19
	.long	4
	.long	20
	.long	5
	.long	23
	.long	8
	.long	24
	.long	9
	.long	27
	.long	12
	.long	28
	.long	13
	.long	31
.LCPI13_25:
	.long	3
	.long	18
	.long	1
	.long	2
	.long	7
	.long	22
	.long	5
	.long	6
	.long	11
	.long	26
	.long	9
	.long	10
	.long	15
	.long	30
	.long	13
	.long	14
.LCPI13_26:
	.long	0
	.long	1
	.long	16
	.long	2
	.long	4
	.long	5
	.long	20
	.long	6
	.long	8
	.long	9
	.long	24
	.long	10
	.long	12
	.long	13
	.long	28
	.long	14
.LCPI13_27:
	.long	3
	.long	18
	.long	16
	.long	0
	.long	7
	.long	22
	.long	20
	.long	4
	.long	11
	.long	26
	.long	24
	.long	8
	.long	15
	.long	30
	.long	28
	.long	12
.LCPI13_28:
	.long	1
	.long	5
	.long	9
	.long	13
	.long	2
	.long	6
	.long	10
	.long	14
	.long	3
	.long	7
	.long	11
	.long	15
	.long	0
	.long	4
	.long	8
	.long	12
.LCPI13_29:
	.long	3
	.long	7
	.long	11
	.long	15
	.long	0
	.long	4
	.long	8
	.long	12
	.long	1
	.long	5
	.long	9
	.long	13
	.long	2
	.long	6
	.long	10
	.long	14
.LCPI13_30:
	.long	0
	.long	4
	.long	8
	.long	12
	.long	1
	.long	5
	.long	9
	.long	13
	.long	2
	.long	6
	.long	10
	.long	14
	.long	3
	.long	7
	.long	11
	.long	15
.LCPI13_31:
	.long	2
	.long	6
	.long	10
	.long	14
	.long	3
	.long	7
	.long	11
	.long	15
	.long	0
	.long	4
	.long	8
	.long	12
	.long	1
	.long	5
	.long	9
	.long	13
	.section	.text
	.p2align	4
	.def	"keyed_blake3::subtrees::four_parent_values::<#2e65a0a13cda87df>";
	.scl	3;
	.type	32;
	.endef
"keyed_blake3::subtrees::four_parent_values::<#2e65a0a13cda87df>":
.seh_proc "keyed_blake3::subtrees::four_parent_values::<#2e65a0a13cda87df>"
	pushq	%rbp
	.seh_pushreg %rbp
	subq	$48, %rsp
	.seh_stackalloc 48
	leaq	48(%rsp), %rbp
	.seh_setframe %rbp, 48
	.seh_endprologue
	andq	$-64, %rsp
	vbroadcasti64x4	64(%r9), %zmm19
	vbroadcasti64x4	(%r9), %zmm16
	vmovdqa64	.LCPI13_0(%rip), %zmm2
	vmovdqa64	%zmm16, %zmm0
	vbroadcasti64x4	192(%r9), %zmm1
	vpermt2d	%zmm19, %zmm2, %zmm0
	vbroadcasti64x4	128(%r9), %zmm21
	vmovdqa64	%zmm21, %zmm3
	vpermt2d	%zmm1, %zmm2, %zmm3
	vmovdqa64	.LCPI13_1(%rip), %zmm20
	vmovdqa64	%zmm0, %zmm5
	vpermt2q	%zmm3, %zmm20, %zmm5
	vmovdqa64	.LCPI13_2(%rip), %zmm4
	vpermt2q	%zmm3, %zmm4, %zmm0
	vbroadcasti64x4	320(%r9), %zmm18
	vbroadcasti64x4	256(%r9), %zmm1
	vbroadcasti64x4	448(%r9), %zmm17
	vbroadcasti64x4	384(%r9), %zmm22
	vpermt2d	%zmm18, %zmm2, %zmm1
	vpermt2d	%zmm17, %zmm2, %zmm22
	vpermi2q	%zmm22, %zmm1, %zmm20
	vpermt2q	%zmm22, %zmm4, %zmm1
	vmovdqa64	.LCPI13_3(%rip), %zmm2
	vpermi2d	%zmm3, %zmm20, %zmm2
	vshufps	$214, %zmm1, %zmm0, %zmm23
	vshufps	$139, %zmm23, %zmm2, %zmm22
	vshufpd	$170, %zmm20, %zmm22, %zmm18
	vshufps	$136, %zmm20, %zmm5, %zmm4
	vshufps	$221, %zmm20, %zmm5, %zmm3
	vmovdqa64	.LCPI13_4(%rip), %zmm24
	vpermi2d	%zmm1, %zmm0, %zmm24
	vmovdqa64	.LCPI13_5(%rip), %zmm5
	vbroadcasti32x4	(%r8), %zmm25
	vpermi2d	%zmm1, %zmm0, %zmm5
	vpaddd	(%rdx), %xmm25, %xmm26
	vshufi64x2	$0, %zmm26, %zmm26, %zmm26
	vpaddd	%zmm26, %zmm4, %zmm26
	vpxord	.LCPI13_6(%rip), %zmm26, %zmm27
	vprold	$16, %zmm27, %zmm27
	vpaddd	.LCPI13_7(%rip), %zmm27, %zmm28
	vpxord	%zmm25, %zmm28, %zmm25
	vprold	$20, %zmm25, %zmm25
	vpaddd	%zmm3, %zmm26, %zmm26
	vpaddd	%zmm25, %zmm26, %zmm26
	vpxord	%zmm27, %zmm26, %zmm27
	vprold	$24, %zmm27, %zmm27
	vpaddd	%zmm28, %zmm27, %zmm28
	vpxord	%zmm25, %zmm28, %zmm25
	vprold	$25, %zmm25, %zmm25
	vpshufd	$147, %zmm26, %zmm26
	vpaddd	%zmm24, %zmm26, %zmm24
	vpshufd	$57, %zmm28, %zmm26
	vpshufd	$78, %zmm27, %zmm27
	vpaddd	%zmm25, %zmm24, %zmm24
	vpxord	%zmm27, %zmm24, %zmm27
	vprold	$16, %zmm27, %zmm27
	vpaddd	%zmm26, %zmm27, %zmm26
	vpxord	%zmm25, %zmm26, %zmm25
	vprold	$20, %zmm25, %zmm25
	vpaddd	%zmm5, %zmm24, %zmm24
	vpaddd	%zmm25, %zmm24, %zmm24
	vpxord	%zmm27, %zmm24, %zmm27
	vprold	$24, %zmm27, %zmm27
	vpaddd	%zmm26, %zmm27, %zmm26
	vpxord	%zmm25, %zmm26, %zmm25
	vprold	$25, %zmm25, %zmm25
	vpshufd	$147, %zmm26, %zmm26
	vpshufd	$78, %zmm27, %zmm27
	vmovdqa64	.LCPI13_8(%rip), %zmm28
	vpermi2d	%zmm23, %zmm4, %zmm28
	vpunpcklqdq	%zmm3, %zmm5, %zmm29
	vmovdqa64	.LCPI13_9(%rip), %zmm30
	vpermi2d	%zmm1, %zmm29, %zmm30
	vshufps	$236, %zmm1, %zmm0, %zmm29
	vmovaps	.LCPI13_10(%rip), %zmm31
	vpermi2ps	%zmm20, %zmm29, %zmm31
	vpaddd	%zmm2, %zmm24, %zmm24
	vpshufd	$57, %zmm24, %zmm24
	vpaddd	%zmm24, %zmm25, %zmm24
	vpxord	%zmm27, %zmm24, %zmm27
	vprold	$16, %zmm27, %zmm27
	vpaddd	%zmm26, %zmm27, %zmm26
	vpxord	%zmm25, %zmm26, %zmm25
	vprold	$20, %zmm25, %zmm25
	vpaddd	%zmm28, %zmm24, %zmm24
	vpaddd	%zmm25, %zmm24, %zmm24
	vpxord	%zmm27, %zmm24, %zmm27
	vprold	$24, %zmm27, %zmm27
	vpaddd	%zmm26, %zmm27, %zmm26
	vpxord	%zmm25, %zmm26, %zmm25
	vprold	$25, %zmm25, %zmm25
	vpshufd	$147, %zmm24, %zmm24
	vpaddd	%zmm30, %zmm24, %zmm24
	vpshufd	$57, %zmm26, %zmm26
	vpshufd	$78, %zmm27, %zmm27
	vpaddd	%zmm25, %zmm24, %zmm24
	vpxord	%zmm27, %zmm24, %zmm27
	vprold	$16, %zmm27, %zmm27
	vpaddd	%zmm26, %zmm27, %zmm26
	vpxord	%zmm25, %zmm26, %zmm25
	vprold	$20, %zmm25, %zmm25
	vpaddd	%zmm31, %zmm24, %zmm24
	vpaddd	%zmm25, %zmm24, %zmm24
	vpxord	%zmm27, %zmm24, %zmm27
	vprold	$24, %zmm27, %zmm27
	vpaddd	%zmm26, %zmm27, %zmm26
	vpxord	%zmm25, %zmm26, %zmm25
	vprold	$25, %zmm25, %zmm25
	vpshufd	$147, %zmm26, %zmm26
	vpshufd	$78, %zmm27, %zmm27
	vmovdqa64	.LCPI13_11(%rip), %zmm28
	vpermi2d	%zmm1, %zmm2, %zmm28
	vshufps	$236, %zmm20, %zmm0, %zmm29
	vmovaps	.LCPI13_12(%rip), %zmm30
	vpermi2ps	%zmm5, %zmm29, %zmm30
	vshufps	$200, %zmm5, %zmm3, %zmm29
	vmovaps	.LCPI13_13(%rip), %zmm31
	vpermt2ps	%zmm16, %zmm31, %zmm29
	vpaddd	%zmm22, %zmm24, %zmm24
	vpshufd	$57, %zmm24, %zmm24
	vpaddd	%zmm24, %zmm25, %zmm24
	vpxord	%zmm27, %zmm24, %zmm27
	vprold	$16, %zmm27, %zmm27
	vpaddd	%zmm26, %zmm27, %zmm26
	vpxord	%zmm25, %zmm26, %zmm25
	vprold	$20, %zmm25, %zmm25
	vpaddd	%zmm28, %zmm24, %zmm24
	vpaddd	%zmm25, %zmm24, %zmm24
	vpxord	%zmm27, %zmm24, %zmm27
	vprold	$24, %zmm27, %zmm27
	vpaddd	%zmm26, %zmm27, %zmm26
	vpxord	%zmm25, %zmm26, %zmm25
	vprold	$25, %zmm25, %zmm25
	vpshufd	$147, %zmm24, %zmm24
	vpaddd	%zmm30, %zmm24, %zmm24
	vpshufd	$57, %zmm26, %zmm26
	vpshufd	$78, %zmm27, %zmm27
	vpaddd	%zmm25, %zmm24, %zmm24
	vpxord	%zmm27, %zmm24, %zmm27
	vprold	$16, %zmm27, %zmm27
	vpaddd	%zmm26, %zmm27, %zmm26
	vpxord	%zmm25, %zmm26, %zmm25
	vprold	$20, %zmm25, %zmm25
	vpaddd	%zmm29, %zmm24, %zmm24
	vpaddd	%zmm25, %zmm24, %zmm24
	vpxord	%zmm27, %zmm24, %zmm27
	vprold	$24, %zmm27, %zmm27
	vpaddd	%zmm26, %zmm27, %zmm26
	vpxord	%zmm25, %zmm26, %zmm25
	vprold	$25, %zmm25, %zmm25
	vpshufd	$147, %zmm26, %zmm26
	vpshufd	$78, %zmm27, %zmm27
	vshufps	$130, %zmm1, %zmm23, %zmm23
	vmovdqa64	.LCPI13_14(%rip), %zmm28
	vpermi2d	%zmm5, %zmm22, %zmm28
	vshufps	$8, %zmm20, %zmm3, %zmm29
	vshufpd	$170, %zmm29, %zmm23, %zmm22
	vmovaps	.LCPI13_15(%rip), %zmm30
	vpermi2ps	%zmm0, %zmm29, %zmm30
	vshufps	$195, %zmm0, %zmm4, %zmm29
	vpermt2ps	%zmm21, %zmm31, %zmm29
	vpaddd	%zmm23, %zmm24, %zmm21
	vpshufd	$57, %zmm21, %zmm21
	vpaddd	%zmm21, %zmm25, %zmm21
	vpxord	%zmm27, %zmm21, %zmm24
	vprold	$16, %zmm24, %zmm24
	vpaddd	%zmm26, %zmm24, %zmm26
	vpxord	%zmm25, %zmm26, %zmm25
	vprold	$20, %zmm25, %zmm25
	vpaddd	%zmm28, %zmm21, %zmm21
	vpaddd	%zmm25, %zmm21, %zmm21
	vpxord	%zmm24, %zmm21, %zmm24
	vprold	$24, %zmm24, %zmm24
	vpaddd	%zmm26, %zmm24, %zmm26
	vpxord	%zmm25, %zmm26, %zmm25
	vprold	$25, %zmm25, %zmm25
	vpshufd	$147, %zmm21, %zmm21
	vpaddd	%zmm30, %zmm21, %zmm21
	vpshufd	$57, %zmm26, %zmm26
	vpshufd	$78, %zmm24, %zmm24
	vpaddd	%zmm25, %zmm21, %zmm21
	vpxord	%zmm24, %zmm21, %zmm24
	vprold	$16, %zmm24, %zmm24
	vpaddd	%zmm26, %zmm24, %zmm26
	vpxord	%zmm25, %zmm26, %zmm25
	vprold	$20, %zmm25, %zmm25
	vpaddd	%zmm29, %zmm21, %zmm21
	vpaddd	%zmm25, %zmm21, %zmm21
	vpxord	%zmm24, %zmm21, %zmm24
	vprold	$24, %zmm24, %zmm24
	vpaddd	%zmm26, %zmm24, %zmm26
	vpxord	%zmm25, %zmm26, %zmm25
	vprold	$25, %zmm25, %zmm25
	vpshufd	$147, %zmm26, %zmm26
	vpshufd	$78, %zmm24, %zmm24
	vmovdqa64	.LCPI13_16(%rip), %zmm27
	vpermi2d	%zmm0, %zmm23, %zmm27
	vmovaps	.LCPI13_17(%rip), %zmm28
	vpermi2ps	%zmm16, %zmm20, %zmm28
	vmovaps	.LCPI13_18(%rip), %zmm20
	vpermi2ps	%zmm19, %zmm2, %zmm20
	vpshufd	$57, %zmm21, %zmm19
	vmovdqa64	.LCPI13_19(%rip), %zmm21
	vpermi2d	%zmm0, %zmm1, %zmm21
	vpaddd	%zmm21, %zmm19, %zmm19
	vpaddd	%zmm19, %zmm25, %zmm19
	vpxord	%zmm24, %zmm19, %zmm21
	vprold	$16, %zmm21, %zmm21
	vpaddd	%zmm26, %zmm21, %zmm24
	vpxord	%zmm25, %zmm24, %zmm25
	vprold	$20, %zmm25, %zmm25
	vpaddd	%zmm27, %zmm19, %zmm19
	vpaddd	%zmm25, %zmm19, %zmm19
	vpxord	%zmm21, %zmm19, %zmm21
	vprold	$24, %zmm21, %zmm21
	vpaddd	%zmm24, %zmm21, %zmm24
	vpxord	%zmm25, %zmm24, %zmm25
	vprold	$25, %zmm25, %zmm25
	vpshufd	$147, %zmm19, %zmm19
	vpaddd	%zmm28, %zmm19, %zmm19
	vpshufd	$57, %zmm24, %zmm24
	vpshufd	$78, %zmm21, %zmm21
	vpaddd	%zmm25, %zmm19, %zmm19
	vpxord	%zmm21, %zmm19, %zmm21
	vprold	$16, %zmm21, %zmm21
	vpaddd	%zmm24, %zmm21, %zmm24
	vpxord	%zmm25, %zmm24, %zmm25
	vprold	$20, %zmm25, %zmm25
	vpaddd	%zmm20, %zmm19, %zmm19
	vpaddd	%zmm25, %zmm19, %zmm19
	vpxord	%zmm21, %zmm19, %zmm20
	vprold	$24, %zmm20, %zmm20
	vpaddd	%zmm24, %zmm20, %zmm21
	vpxord	%zmm25, %zmm21, %zmm24
	vprold	$25, %zmm24, %zmm24
	vpshufd	$147, %zmm21, %zmm21
	vpshufd	$78, %zmm20, %zmm20
	vmovaps	.LCPI13_20(%rip), %zmm25
	vpermi2ps	%zmm3, %zmm1, %zmm25
	vpunpcklqdq	%zmm23, %zmm2, %zmm23
	vmovdqa64	.LCPI13_21(%rip), %zmm26
	vpermi2d	%zmm16, %zmm23, %zmm26
	vmovaps	.LCPI13_22(%rip), %zmm16
	vpermi2ps	%zmm0, %zmm18, %zmm16
	vpshufd	$57, %zmm19, %zmm18
	vmovdqa64	.LCPI13_23(%rip), %zmm19
	vpermi2d	%zmm17, %zmm0, %zmm19
	vpaddd	%zmm19, %zmm18, %zmm17
	vpaddd	%zmm17, %zmm24, %zmm17
	vpxord	%zmm20, %zmm17, %zmm18
	vprold	$16, %zmm18, %zmm18
	vpaddd	%zmm21, %zmm18, %zmm19
	vpxord	%zmm24, %zmm19, %zmm20
	vprold	$20, %zmm20, %zmm20
	vpaddd	%zmm25, %zmm17, %zmm17
	vpaddd	%zmm20, %zmm17, %zmm17
	vpxord	%zmm18, %zmm17, %zmm18
	vprold	$24, %zmm18, %zmm18
	vpaddd	%zmm19, %zmm18, %zmm19
	vpxord	%zmm20, %zmm19, %zmm20
	vprold	$25, %zmm20, %zmm20
	vpshufd	$147, %zmm17, %zmm17
	vpaddd	%zmm26, %zmm17, %zmm17
	vpshufd	$57, %zmm19, %zmm19
	vpshufd	$78, %zmm18, %zmm18
	vpaddd	%zmm20, %zmm17, %zmm17
	vpxord	%zmm18, %zmm17, %zmm18
	vprold	$16, %zmm18, %zmm18
	vpaddd	%zmm19, %zmm18, %zmm19
	vpxord	%zmm20, %zmm19, %zmm20
	vprold	$20, %zmm20, %zmm20
	vpaddd	%zmm16, %zmm17, %zmm16
	vpaddd	%zmm20, %zmm16, %zmm16
	vpxord	%zmm18, %zmm16, %zmm17
	vprold	$24, %zmm17, %zmm17
	vpaddd	%zmm19, %zmm17, %zmm18
	vpxord	%zmm20, %zmm18, %zmm19
	vprold	$25, %zmm19, %zmm19
	vpshufd	$147, %zmm18, %zmm18
	vpshufd	$78, %zmm17, %zmm17
	vmovaps	.LCPI13_24(%rip), %zmm20
	vpermi2ps	%zmm4, %zmm5, %zmm20
	vmovdqa64	.LCPI13_25(%rip), %zmm4
	vpermi2d	%zmm1, %zmm2, %zmm4
	vmovaps	.LCPI13_26(%rip), %zmm2
	vpermi2ps	%zmm1, %zmm22, %zmm2
	vpshufd	$57, %zmm16, %zmm1
	vmovaps	.LCPI13_27(%rip), %zmm5
	vpermi2ps	%zmm3, %zmm0, %zmm5
	vpaddd	%zmm5, %zmm1, %zmm0
	vpaddd	%zmm0, %zmm19, %zmm0
	vpxord	%zmm17, %zmm0, %zmm1
	vprold	$16, %zmm1, %zmm1
	vpaddd	%zmm18, %zmm1, %zmm3
	vpxord	%zmm19, %zmm3, %zmm5
	vprold	$20, %zmm5, %zmm5
	vpaddd	%zmm20, %zmm0, %zmm0
	vpaddd	%zmm5, %zmm0, %zmm0
	vpxord	%zmm1, %zmm0, %zmm1
	vprold	$24, %zmm1, %zmm1
	vpaddd	%zmm3, %zmm1, %zmm3
	vpxord	%zmm5, %zmm3, %zmm5
	vprold	$25, %zmm5, %zmm5
	vpshufd	$147, %zmm0, %zmm0
	vpaddd	%zmm4, %zmm0, %zmm0
	vpshufd	$57, %zmm3, %zmm3
	vpshufd	$78, %zmm1, %zmm1
	vpaddd	%zmm5, %zmm0, %zmm0
	vpxord	%zmm1, %zmm0, %zmm1
	vprold	$16, %zmm1, %zmm1
	vpaddd	%zmm3, %zmm1, %zmm3
	vpxord	%zmm5, %zmm3, %zmm4
	vprold	$20, %zmm4, %zmm4
	vpaddd	%zmm2, %zmm0, %zmm0
	vpaddd	%zmm4, %zmm0, %zmm0
	vpxord	%zmm1, %zmm0, %zmm1
	vprold	$24, %zmm1, %zmm1
	vpaddd	%zmm3, %zmm1, %zmm2
	vpxord	%zmm4, %zmm2, %zmm3
	vprold	$25, %zmm3, %zmm3
	vmovdqa64	.LCPI13_28(%rip), %zmm4
	vpermd	%zmm0, %zmm4, %zmm0
	vmovdqa64	.LCPI13_29(%rip), %zmm4
	vpermd	%zmm2, %zmm4, %zmm2
	vpxord	%zmm0, %zmm2, %zmm0
	vmovdqa64	.LCPI13_30(%rip), %zmm2
	vpermd	%zmm3, %zmm2, %zmm2
	vmovdqa64	.LCPI13_31(%rip), %zmm3
	vpermd	%zmm1, %zmm3, %zmm1
	vpxord	%zmm1, %zmm2, %zmm1
	vmovdqu64	%zmm0, (%rcx)
	vmovdqu64	%zmm1, 64(%rcx)
	movq	%rbp, %rsp
	popq	%rbp
	vzeroupper
	retq
	.seh_endproc

	.section	.rdata,"dr"
	.p2align	5, 0x0
.LCPI14_0:
	.quad	-9223372036854775808
	.zero	24
.LCPI14_1:
	.quad	-9223372036854775807
	.quad	-9223372036854775806
	.quad	-9223372036854775805
	.quad	-9223372036854775804
.LCPI14_2:
	.quad	2
	.quad	3
	.quad	4
	.quad	5
.LCPI14_3:
	.zero	4
	.zero	4
	.long	64
	.long	18
	.zero	4
	.zero	4
	.long	64
	.long	18
.LCPI14_4:
	.long	0
	.long	2
	.long	4
	.long	6
.LCPI14_5:
	.long	1
	.long	3
	.long	5
	.long	7
.LCPI14_6:
	.long	64
.LCPI14_7:
	.long	20
	.zero	24
.LCPI14_8:
	.long	0
	.long	0
	.long	64
	.long	20
	.long	0
	.long	0
	.long	64
	.long	20
.LCPI14_9:
	.long	0
	.long	0
	.long	64
	.long	20
	.section	.text
	.p2align	4
	.def	"keyed_blake3::tree::Tree::absorb_subtrees::<#a9687390e0dd665c>";
	.scl	3;
	.type	32;
	.endef
"keyed_blake3::tree::Tree::absorb_subtrees::<#a9687390e0dd665c>":
.seh_proc "keyed_blake3::tree::Tree::absorb_subtrees::<#a9687390e0dd665c>"
	pushq	%rbp
	.seh_pushreg %rbp
	pushq	%r15
	.seh_pushreg %r15
	pushq	%r14
	.seh_pushreg %r14
	pushq	%r13
	.seh_pushreg %r13
	pushq	%r12
	.seh_pushreg %r12
	pushq	%rsi
	.seh_pushreg %rsi
	pushq	%rdi
	.seh_pushreg %rdi
	pushq	%rbx
	.seh_pushreg %rbx
	subq	$2488, %rsp
	.seh_stackalloc 2488
	leaq	128(%rsp), %rbp
	.seh_setframe %rbp, 128
	vmovdqa	%xmm15, 2336(%rbp)
	.seh_savexmm %xmm15, 2464
	vmovdqa	%xmm14, 2320(%rbp)
	.seh_savexmm %xmm14, 2448
	vmovdqa	%xmm13, 2304(%rbp)
	.seh_savexmm %xmm13, 2432
	vmovdqa	%xmm12, 2288(%rbp)
	.seh_savexmm %xmm12, 2416
	vmovdqa	%xmm11, 2272(%rbp)
	.seh_savexmm %xmm11, 2400
	vmovdqa	%xmm10, 2256(%rbp)
	.seh_savexmm %xmm10, 2384
	vmovdqa	%xmm9, 2240(%rbp)
	.seh_savexmm %xmm9, 2368
	vmovdqa	%xmm8, 2224(%rbp)
	.seh_savexmm %xmm8, 2352
	vmovdqa	%xmm7, 2208(%rbp)
	.seh_savexmm %xmm7, 2336
	vmovdqa	%xmm6, 2192(%rbp)
	.seh_savexmm %xmm6, 2320
	.seh_endprologue
	andq	$-64, %rsp
	movq	%r9, %r14
	movq	%r8, %rbx
	movq	%rdx, %rdi
	movq	%rcx, %r13
	vxorps	%xmm0, %xmm0, %xmm0
	vmovaps	%ymm0, 672(%rsp)
	vmovaps	%ymm0, 640(%rsp)
	vmovaps	%ymm0, 608(%rsp)
	vmovaps	%ymm0, 576(%rsp)
	vmovaps	%ymm0, 544(%rsp)
	vmovaps	%ymm0, 512(%rsp)
	vmovaps	%ymm0, 480(%rsp)
	vmovaps	%ymm0, 448(%rsp)
	vmovaps	%ymm0, 416(%rsp)
	vmovaps	%ymm0, 896(%rsp)
	vmovaps	%ymm0, 928(%rsp)
	vmovaps	%ymm0, 960(%rsp)
	vmovaps	%ymm0, 992(%rsp)
	vmovaps	%ymm0, 1024(%rsp)
	vmovaps	%ymm0, 1056(%rsp)
	vmovaps	%ymm0, 1088(%rsp)
	movq	2464(%rbp), %rax
	vmovaps	%ymm0, 1120(%rsp)
	cmpq	$2048, %rax
	movq	%rcx, 80(%rsp)
	jne	.LBB14_4
	movq	%rbx, 88(%rsp)
	leaq	1024(%r14), %rbx
	leaq	1(%rdi), %rsi
	vbroadcastf128	(%r13), %ymm0
	vbroadcastf128	16(%r13), %ymm1
	vmovq	%rdi, %xmm2
	movl	$64, %eax
	vmovdqa	%ymm2, 864(%rsp)
	vpinsrd	$2, %eax, %xmm2, %xmm7
	vmovq	%rsi, %xmm6
	vpinsrd	$2, %eax, %xmm6, %xmm8
	xorl	%r15d, %r15d
	.p2align	4
.LBB14_2:
	cmpq	$1, %r15
	movl	$0, %eax
	adcl	$16, %eax
	vmovups	-1024(%rbx,%r15), %ymm2
	vmovups	-992(%rbx,%r15), %ymm3
	vmovaps	%ymm2, 1472(%rsp)
	vmovaps	%ymm3, 1504(%rsp)
	movq	%rdi, 1536(%rsp)
	movl	$64, 1544(%rsp)
	movl	%eax, 1548(%rsp)
	vmovups	(%rbx,%r15), %ymm2
	vmovups	32(%rbx,%r15), %ymm3
	vmovaps	%ymm2, 96(%rsp)
	vmovaps	%ymm3, 128(%rsp)
	movq	%rsi, 160(%rsp)
	movl	$64, 168(%rsp)
	movl	%eax, 172(%rsp)
	vpinsrd	$3, %eax, %xmm7, %xmm2
	vpinsrd	$3, %eax, %xmm8, %xmm3
	vmovdqa	%xmm3, 2032(%rsp)
	vmovdqa	%xmm2, 2016(%rsp)
	vmovaps	%ymm1, 2240(%rsp)
	vmovaps	%ymm0, 2272(%rsp)
	leaq	96(%rsp), %r12
	movq	%r12, 40(%rsp)
	leaq	1472(%rsp), %r13
	movq	%r13, 32(%rsp)
	leaq	1408(%rsp), %rcx
	leaq	2272(%rsp), %rdx
	leaq	2240(%rsp), %r8
	leaq	2016(%rsp), %r9
	vzeroupper
	callq	"keyed_blake3::compression::two::compress_two_from"
	vmovups	1408(%rsp), %ymm0
	vmovups	1440(%rsp), %ymm1
	addq	$64, %r15
	cmpq	$960, %r15
	jne	.LBB14_2
	vmovups	960(%r14), %ymm2
	vmovups	992(%r14), %ymm3
	vmovaps	%ymm2, 1472(%rsp)
	vmovaps	%ymm3, 1504(%rsp)
	movq	%rdi, 1536(%rsp)
	movabsq	$77309411392, %rax
	movq	%rax, 1544(%rsp)
	vmovups	1984(%r14), %ymm2
	vmovups	2016(%r14), %ymm3
	vmovaps	%ymm2, 96(%rsp)
	vmovaps	%ymm3, 128(%rsp)
	movq	%rsi, 160(%rsp)
	movq	%rax, 168(%rsp)
	vmovdqa	864(%rsp), %ymm2
	vinserti128	$1, %xmm6, %ymm2, %ymm2
	vpblendd	$204, .LCPI14_3(%rip), %ymm2, %ymm2
	vmovaps	%ymm1, 2176(%rsp)
	vmovaps	%ymm0, 2208(%rsp)
	vmovdqa	%ymm2, 2144(%rsp)
	movq	%r12, 40(%rsp)
	movq	%r13, 32(%rsp)
	leaq	1408(%rsp), %rcx
	leaq	2208(%rsp), %rdx
	leaq	2176(%rsp), %r8
	leaq	2144(%rsp), %r9
	vzeroupper
	callq	"keyed_blake3::compression::two::compress_two_from"
	vmovdqu	1408(%rsp), %xmm0
	vmovdqu	1424(%rsp), %xmm1
	vpunpckldq	%xmm1, %xmm0, %xmm2
	vmovq	%xmm2, 896(%rsp)
	vpxor	%xmm2, %xmm2, %xmm2
	vmovdqu	%xmm2, 904(%rsp)
	movq	$0, 920(%rsp)
	vpshufd	$85, %xmm0, %xmm3
	vpblendd	$2, %xmm1, %xmm3, %xmm3
	vmovq	%xmm3, 928(%rsp)
	vmovdqu	%xmm2, 936(%rsp)
	movq	$0, 952(%rsp)
	vpunpckhdq	%xmm1, %xmm0, %xmm0
	vmovq	%xmm0, 960(%rsp)
	vmovdqu	%xmm2, 968(%rsp)
	movq	$0, 984(%rsp)
	vpextrq	$1, %xmm0, 992(%rsp)
	vmovdqu	1440(%rsp), %xmm0
	vmovdqu	1456(%rsp), %xmm1
	vmovdqu	%xmm2, 1000(%rsp)
	movq	$0, 1016(%rsp)
	vpunpckldq	%xmm1, %xmm0, %xmm3
	vmovq	%xmm3, 1024(%rsp)
	vmovdqu	%xmm2, 1032(%rsp)
	movq	$0, 1048(%rsp)
	vpshufd	$85, %xmm0, %xmm3
	vpblendd	$2, %xmm1, %xmm3, %xmm3
	vmovq	%xmm3, 1056(%rsp)
	vmovdqu	%xmm2, 1064(%rsp)
	movq	$0, 1080(%rsp)
	vpunpckhdq	%xmm1, %xmm0, %xmm0
	vmovq	%xmm0, 1088(%rsp)
	vmovdqu	%xmm2, 1096(%rsp)
	movq	$0, 1112(%rsp)
	vpextrq	$1, %xmm0, 1120(%rsp)
	vmovdqu	%xmm2, 1128(%rsp)
	movq	$0, 1144(%rsp)
	movq	1088(%rsp), %rax
	vmovups	1096(%rsp), %xmm0
	vmovups	%xmm0, 1928(%rsp)
	movq	%rax, 1920(%rsp)
	movq	1112(%rsp), %rax
	movq	%rax, 1944(%rsp)
	movq	1056(%rsp), %rax
	movq	%rax, 1888(%rsp)
	vmovups	1064(%rsp), %xmm0
	vmovups	%xmm0, 1896(%rsp)
	movq	1080(%rsp), %rax
	vmovaps	1024(%rsp), %ymm0
	vmovaps	%ymm0, 1856(%rsp)
	movq	%rax, 1912(%rsp)
	vmovaps	992(%rsp), %ymm0
	vmovaps	%ymm0, 1824(%rsp)
	vmovaps	896(%rsp), %ymm0
	vmovaps	928(%rsp), %ymm1
	vmovaps	960(%rsp), %ymm2
	vmovaps	1120(%rsp), %ymm3
	vmovaps	%ymm3, 1952(%rsp)
	vmovaps	%ymm2, 1792(%rsp)
	vmovaps	%ymm1, 1760(%rsp)
	vmovaps	%ymm0, 1728(%rsp)
	movq	80(%rsp), %r13
	movq	88(%rsp), %rbx
	jmp	.LBB14_5
.LBB14_4:
	shrq	$10, %rax
	xorl	%ecx, %ecx
	decq	%rax
	setne	%cl
	cmpq	$6, %rax
	movl	$6, %edx
	cmovbq	%rax, %rdx
	movl	$7, %r8d
	cmovbeq	%rax, %r8
	movq	$0, 1472(%rsp)
	vmovq	%rax, %xmm0
	vpbroadcastq	%xmm0, %ymm0
	vpbroadcastq	.LCPI14_0(%rip), %ymm1
	vpxor	%ymm1, %ymm0, %ymm1
	vpcmpgtq	.LCPI14_1(%rip), %ymm1, %ymm1
	movq	%rcx, 1480(%rsp)
	vblendvpd	%ymm1, .LCPI14_2(%rip), %ymm0, %ymm0
	vmovupd	%ymm0, 1488(%rsp)
	movq	%rdx, 1520(%rsp)
	movq	%r8, 1528(%rsp)
	movq	%rdi, 32(%rsp)
	leaq	896(%rsp), %rcx
	leaq	1472(%rsp), %r9
	movq	%r13, %rdx
	movq	%r14, %r8
	vzeroupper
	callq	"keyed_blake3::chunks::chunk_values::<#a9687390e0dd665c>"
	vmovaps	1120(%rsp), %ymm0
	vmovaps	%ymm0, 1952(%rsp)
	vmovaps	1088(%rsp), %ymm0
	vmovaps	%ymm0, 1920(%rsp)
	vmovaps	1056(%rsp), %ymm0
	vmovaps	%ymm0, 1888(%rsp)
	vmovaps	1024(%rsp), %ymm0
	vmovaps	%ymm0, 1856(%rsp)
	vmovaps	896(%rsp), %ymm0
	vmovaps	928(%rsp), %ymm1
	vmovaps	960(%rsp), %ymm2
	vmovaps	992(%rsp), %ymm3
	vmovaps	%ymm3, 1824(%rsp)
	vmovaps	%ymm2, 1792(%rsp)
	vmovaps	%ymm1, 1760(%rsp)
	vmovaps	%ymm0, 1728(%rsp)
.LBB14_5:
	vmovaps	1728(%rsp), %ymm0
	vmovdqa	1760(%rsp), %ymm1
	vmovdqa	1792(%rsp), %ymm2
	vmovdqa	1824(%rsp), %ymm3
	vmovaps	%ymm0, 448(%rsp)
	vmovdqa	%ymm1, 480(%rsp)
	vmovdqa	%ymm2, 512(%rsp)
	vmovdqa	%ymm3, 544(%rsp)
	vmovaps	1856(%rsp), %ymm0
	vmovaps	%ymm0, 576(%rsp)
	vmovaps	1888(%rsp), %ymm0
	vmovaps	%ymm0, 608(%rsp)
	vmovaps	1920(%rsp), %ymm0
	vmovaps	%ymm0, 640(%rsp)
	vmovaps	1952(%rsp), %ymm0
	vmovaps	%ymm0, 672(%rsp)
	vxorps	%xmm0, %xmm0, %xmm0
	vmovaps	%xmm0, 384(%rsp)
	movq	$0, 400(%rsp)
	vmovaps	%xmm0, 352(%rsp)
	movq	$0, 368(%rsp)
	vmovaps	%xmm0, 320(%rsp)
	vmovaps	%xmm0, 288(%rsp)
	movq	$0, 336(%rsp)
	movq	$0, 304(%rsp)
	vmovaps	%xmm0, 256(%rsp)
	movq	$0, 272(%rsp)
	vmovaps	%xmm0, 224(%rsp)
	movq	$0, 240(%rsp)
	vmovaps	%xmm0, 192(%rsp)
	movq	$0, 208(%rsp)
	cmpq	$3, %rbx
	jb	.LBB14_6
	movl	%ebx, %eax
	orl	%edi, %eax
	andl	$1, %eax
	jne	.LBB14_6
	leaq	456(%rsp), %r12
	.p2align	4
.LBB14_9:
	vpxor	%xmm6, %xmm6, %xmm6
	vmovdqa	%xmm6, 832(%rsp)
	movq	$0, 848(%rsp)
	vmovdqa	%xmm6, 800(%rsp)
	movq	$0, 816(%rsp)
	vmovdqa	%xmm6, 768(%rsp)
	movq	$0, 784(%rsp)
	movq	%rbx, 88(%rsp)
	cmpq	$4, %rbx
	ja	.LBB14_11
	vmovaps	480(%rsp), %xmm0
	vmovaps	448(%rsp), %xmm1
	vunpcklps	%xmm0, %xmm1, %xmm2
	vmovaps	544(%rsp), %xmm3
	vbroadcastss	%xmm3, %xmm4
	vmovaps	512(%rsp), %xmm5
	vbroadcastss	%xmm5, %xmm7
	vunpcklps	%xmm4, %xmm7, %xmm4
	vblendps	$12, %xmm4, %xmm2, %xmm2
	vmovaps	608(%rsp), %xmm4
	vmovaps	576(%rsp), %xmm7
	vunpcklps	%xmm4, %xmm7, %xmm8
	vinsertf128	$1, %xmm8, %ymm0, %ymm8
	vmovaps	672(%rsp), %xmm9
	vbroadcastss	%xmm9, %xmm10
	vmovaps	640(%rsp), %xmm11
	vbroadcastss	%xmm11, %xmm12
	vunpcklps	%xmm10, %xmm12, %xmm10
	vinsertf128	$1, %xmm10, %ymm0, %ymm10
	vblendps	$192, %ymm10, %ymm8, %ymm8
	vblendps	$15, %ymm2, %ymm8, %ymm2
	vunpcklps	%xmm3, %xmm5, %xmm3
	vshufps	$85, %xmm1, %xmm1, %xmm1
	vblendps	$2, %xmm0, %xmm1, %xmm0
	vblendps	$12, %xmm3, %xmm0, %xmm0
	vunpcklps	%xmm9, %xmm11, %xmm1
	vinsertf128	$1, %xmm1, %ymm0, %ymm1
	vshufps	$85, %xmm7, %xmm7, %xmm3
	vblendps	$2, %xmm4, %xmm3, %xmm3
	vinsertf128	$1, %xmm3, %ymm0, %ymm3
	vblendps	$192, %ymm1, %ymm3, %ymm1
	vblendps	$15, %ymm0, %ymm1, %ymm0
	vmovups	%ymm0, 928(%rsp)
	vmovups	%ymm2, 896(%rsp)
	movq	$0, 960(%rsp)
	movabsq	$85899345984, %rax
	movq	%rax, 968(%rsp)
	vmovq	680(%rsp), %xmm0
	vmovdqu	488(%rsp), %xmm1
	vmovdqu	456(%rsp), %xmm2
	vpunpckldq	%xmm1, %xmm2, %xmm3
	vmovdqu	552(%rsp), %xmm4
	vpbroadcastd	%xmm4, %xmm5
	vmovdqu	520(%rsp), %xmm7
	vpbroadcastd	%xmm7, %xmm8
	vpunpckldq	%xmm5, %xmm8, %xmm5
	vpblendd	$12, %xmm5, %xmm3, %xmm3
	vmovdqu	616(%rsp), %xmm5
	vmovdqu	584(%rsp), %xmm8
	vpunpckldq	%xmm5, %xmm8, %xmm9
	vinserti128	$1, %xmm9, %ymm0, %ymm9
	vpbroadcastd	%xmm0, %xmm10
	vmovdqu	648(%rsp), %xmm11
	vpbroadcastd	%xmm11, %xmm12
	vpunpckldq	%xmm10, %xmm12, %xmm10
	vinserti128	$1, %xmm10, %ymm0, %ymm10
	vpblendd	$192, %ymm10, %ymm9, %ymm9
	vpblendd	$15, %ymm3, %ymm9, %ymm3
	vpunpckldq	%xmm4, %xmm7, %xmm4
	vpshufd	$85, %xmm2, %xmm2
	vpblendd	$2, %xmm1, %xmm2, %xmm1
	vpblendd	$12, %xmm4, %xmm1, %xmm1
	vpunpckldq	%xmm0, %xmm11, %xmm0
	vinserti128	$1, %xmm0, %ymm0, %ymm0
	vpshufd	$85, %xmm8, %xmm2
	vpblendd	$2, %xmm5, %xmm2, %xmm2
	vinserti128	$1, %xmm2, %ymm0, %ymm2
	vpblendd	$192, %ymm0, %ymm2, %ymm0
	vpblendd	$15, %ymm1, %ymm0, %ymm0
	vmovdqu	%ymm0, 1504(%rsp)
	vmovdqu	%ymm3, 1472(%rsp)
	movq	$0, 1536(%rsp)
	movq	%rax, 1544(%rsp)
	vbroadcastf128	(%r13), %ymm0
	vbroadcasti128	16(%r13), %ymm1
	vmovdqa	%ymm1, 2080(%rsp)
	vmovaps	%ymm0, 2112(%rsp)
	vbroadcastf128	.LCPI14_9(%rip), %ymm0
	vmovaps	%ymm0, 2048(%rsp)
	leaq	1472(%rsp), %rax
	movq	%rax, 40(%rsp)
	leaq	896(%rsp), %rax
	movq	%rax, 32(%rsp)
	leaq	96(%rsp), %rcx
	leaq	2112(%rsp), %rdx
	leaq	2080(%rsp), %r8
	leaq	2048(%rsp), %r9
	vzeroupper
	callq	"keyed_blake3::compression::two::compress_two_from"
	movl	96(%rsp), %r9d
	movl	100(%rsp), %eax
	movl	%eax, 864(%rsp)
	movl	104(%rsp), %eax
	movl	%eax, 76(%rsp)
	movl	108(%rsp), %eax
	movl	%eax, 68(%rsp)
	movl	112(%rsp), %eax
	movl	%eax, 72(%rsp)
	movl	116(%rsp), %r11d
	movl	120(%rsp), %r10d
	movl	124(%rsp), %r14d
	movl	128(%rsp), %r13d
	movl	132(%rsp), %esi
	movl	136(%rsp), %edx
	movl	140(%rsp), %eax
	movl	144(%rsp), %r15d
	vmovdqa	%xmm6, 736(%rsp)
	movq	$0, 752(%rsp)
	vmovdqa	%xmm6, 384(%rsp)
	vmovdqa	%xmm6, 352(%rsp)
	movq	$0, 400(%rsp)
	movq	$0, 368(%rsp)
	vmovdqa	%xmm6, 320(%rsp)
	movq	$0, 336(%rsp)
	vmovdqa	%xmm6, 288(%rsp)
	movq	$0, 304(%rsp)
	vmovdqa	%xmm6, 256(%rsp)
	vmovdqa	%xmm6, 224(%rsp)
	movq	$0, 272(%rsp)
	movq	$0, 240(%rsp)
	vmovdqa	%xmm6, 192(%rsp)
	movq	$0, 208(%rsp)
	movl	148(%rsp), %ecx
	movl	152(%rsp), %r8d
	movl	156(%rsp), %ebx
	jmp	.LBB14_12
	.p2align	4
.LBB14_11:
	vbroadcasti128	.LCPI14_4(%rip), %ymm0
	vmovdqa	448(%rsp), %ymm1
	vmovdqa	480(%rsp), %ymm2
	vmovdqa	512(%rsp), %ymm3
	vmovdqa	544(%rsp), %ymm4
	vpermd	%ymm1, %ymm0, %ymm5
	vbroadcasti128	.LCPI14_5(%rip), %ymm6
	vpermd	%ymm1, %ymm6, %ymm1
	vmovdqa	%ymm1, 864(%rsp)
	vpermd	%ymm2, %ymm0, %ymm7
	vpermd	%ymm2, %ymm6, %ymm2
	vpermd	%ymm3, %ymm0, %ymm8
	vpermd	%ymm3, %ymm6, %ymm3
	vpermd	%ymm4, %ymm0, %ymm9
	vpermd	%ymm4, %ymm6, %ymm4
	vmovdqa	576(%rsp), %ymm10
	vpermd	%ymm10, %ymm0, %ymm11
	vpermd	%ymm10, %ymm6, %ymm10
	vmovdqa	608(%rsp), %ymm12
	vpermd	%ymm12, %ymm0, %ymm13
	vpermd	%ymm12, %ymm6, %ymm12
	vmovdqa	640(%rsp), %ymm14
	vpermd	%ymm14, %ymm0, %ymm15
	vpermd	%ymm14, %ymm6, %ymm14
	vmovdqa	672(%rsp), %ymm1
	vpermd	%ymm1, %ymm0, %ymm0
	vpermd	%ymm1, %ymm6, %ymm1
	vmovdqa	%ymm5, 896(%rsp)
	vmovdqa	%ymm7, 928(%rsp)
	vmovdqa	%ymm8, 960(%rsp)
	vmovdqa	%ymm9, 992(%rsp)
	vmovdqa	%ymm11, 1024(%rsp)
	vmovdqa	%ymm13, 1056(%rsp)
	vmovdqa	%ymm15, 1088(%rsp)
	vmovdqa	%ymm0, 1120(%rsp)
	vmovaps	864(%rsp), %ymm0
	vmovaps	%ymm0, 1152(%rsp)
	vmovdqa	%ymm2, 1184(%rsp)
	vmovdqa	%ymm3, 1216(%rsp)
	vmovdqa	%ymm4, 1248(%rsp)
	vmovdqa	%ymm10, 1280(%rsp)
	vmovdqa	%ymm12, 1312(%rsp)
	vmovdqa	%ymm14, 1344(%rsp)
	vmovdqa	%ymm1, 1376(%rsp)
	vbroadcastss	.LCPI14_6(%rip), %ymm0
	vmovups	%ymm0, 96(%rsp)
	vbroadcastss	.LCPI14_7(%rip), %ymm0
	vmovups	%ymm0, 1408(%rsp)
	leaq	1472(%rsp), %r14
	movq	%r14, %rcx
	movq	%r13, %rdx
	vzeroupper
	callq	"keyed_blake3::chunks::key_of_each::<#a9687390e0dd665c>"
	leaq	896(%rsp), %rdx
	leaq	96(%rsp), %r8
	leaq	1408(%rsp), %r9
	movq	%r14, %rcx
	callq	"keyed_blake3::compression::lanes::take_in_each::<#a9687390e0dd665c>"
	movl	1472(%rsp), %r9d
	movl	1476(%rsp), %eax
	movl	%eax, 72(%rsp)
	leaq	1480(%rsp), %rdx
	movq	16(%rdx), %rax
	movq	%rax, 752(%rsp)
	vmovups	(%rdx), %xmm0
	vmovaps	%xmm0, 736(%rsp)
	movl	1504(%rsp), %eax
	movl	%eax, 864(%rsp)
	vmovups	32(%rdx), %xmm0
	vmovaps	%xmm0, 384(%rsp)
	movl	1508(%rsp), %r11d
	movq	48(%rdx), %rax
	movq	%rax, 400(%rsp)
	movl	1536(%rsp), %eax
	movl	%eax, 76(%rsp)
	movl	1540(%rsp), %r10d
	movq	80(%rdx), %rax
	movq	%rax, 368(%rsp)
	vmovups	64(%rdx), %xmm0
	vmovaps	%xmm0, 352(%rsp)
	movl	1568(%rsp), %eax
	movl	%eax, 68(%rsp)
	movl	1572(%rsp), %r14d
	movq	112(%rdx), %rax
	vmovups	96(%rdx), %xmm0
	vmovaps	%xmm0, 320(%rsp)
	movq	%rax, 336(%rsp)
	movl	1600(%rsp), %r13d
	movl	1604(%rsp), %r15d
	movq	144(%rdx), %rax
	movq	%rax, 304(%rsp)
	vmovups	128(%rdx), %xmm0
	vmovaps	%xmm0, 288(%rsp)
	movl	1632(%rsp), %esi
	movl	1636(%rsp), %ecx
	movq	176(%rdx), %rax
	movq	%rax, 848(%rsp)
	vmovups	160(%rdx), %xmm0
	vmovaps	%xmm0, 832(%rsp)
	movq	208(%rdx), %rax
	movq	%rax, 816(%rsp)
	vmovups	192(%rdx), %xmm0
	vmovaps	%xmm0, 800(%rsp)
	movq	240(%rdx), %rax
	vmovups	224(%rdx), %xmm0
	vmovaps	%xmm0, 768(%rsp)
	movq	%rax, 784(%rsp)
	movq	848(%rsp), %rax
	movq	%rax, 272(%rsp)
	vmovaps	832(%rsp), %xmm0
	vmovaps	%xmm0, 256(%rsp)
	movq	816(%rsp), %rax
	movq	%rax, 240(%rsp)
	vmovaps	800(%rsp), %xmm0
	vmovaps	%xmm0, 224(%rsp)
	movq	784(%rsp), %rax
	movq	%rax, 208(%rsp)
	vmovaps	768(%rsp), %xmm0
	vmovaps	%xmm0, 192(%rsp)
	movl	1664(%rsp), %edx
	movl	1668(%rsp), %r8d
	movl	1696(%rsp), %eax
	movl	1700(%rsp), %ebx
.LBB14_12:
	movl	%r9d, 448(%rsp)
	movl	72(%rsp), %r9d
	movl	%r9d, 452(%rsp)
	movq	752(%rsp), %r9
	movq	%r9, 16(%r12)
	vmovaps	736(%rsp), %xmm0
	vmovups	%xmm0, (%r12)
	movl	864(%rsp), %r9d
	movl	%r9d, 480(%rsp)
	movl	%r11d, 484(%rsp)
	movq	400(%rsp), %r9
	movq	%r9, 48(%r12)
	vmovaps	384(%rsp), %xmm0
	vmovups	%xmm0, 32(%r12)
	movl	76(%rsp), %r9d
	movl	%r9d, 512(%rsp)
	movl	%r10d, 516(%rsp)
	movq	368(%rsp), %r9
	movq	%r9, 80(%r12)
	vmovaps	352(%rsp), %xmm0
	vmovups	%xmm0, 64(%r12)
	movl	68(%rsp), %r9d
	movl	%r9d, 544(%rsp)
	movl	%r14d, 548(%rsp)
	movq	336(%rsp), %r9
	vmovaps	320(%rsp), %xmm0
	vmovups	%xmm0, 96(%r12)
	movq	%r9, 112(%r12)
	movl	%r13d, 576(%rsp)
	movl	%r15d, 580(%rsp)
	movq	304(%rsp), %r9
	movq	%r9, 144(%r12)
	vmovaps	288(%rsp), %xmm0
	vmovups	%xmm0, 128(%r12)
	movl	%esi, 608(%rsp)
	movl	%ecx, 612(%rsp)
	movq	272(%rsp), %rcx
	movq	%rcx, 176(%r12)
	vmovaps	256(%rsp), %xmm0
	vmovups	%xmm0, 160(%r12)
	movl	%edx, 640(%rsp)
	movl	%r8d, 644(%rsp)
	movq	240(%rsp), %rcx
	movq	%rcx, 208(%r12)
	vmovaps	224(%rsp), %xmm0
	vmovups	%xmm0, 192(%r12)
	movl	%eax, 672(%rsp)
	movl	%ebx, 676(%rsp)
	movq	208(%rsp), %rax
	vmovaps	192(%rsp), %xmm0
	vmovups	%xmm0, 224(%r12)
	movq	%rax, 240(%r12)
	movq	%rdi, %r14
	shrq	%r14
	movq	88(%rsp), %rax
	movq	%rax, %rsi
	shrq	%rsi
	cmpq	$5, %rax
	jb	.LBB14_13
	andl	$2, %eax
	movq	80(%rsp), %r13
	jne	.LBB14_16
	movq	%rsi, %rbx
	andl	$2, %edi
	movq	%r14, %rdi
	je	.LBB14_9
	jmp	.LBB14_16
.LBB14_6:
	movq	%rbx, %rsi
	movq	%rdi, %r14
.LBB14_16:
	movq	2472(%rbp), %rbx
	movq	%rsi, %r15
	decq	%r15
	je	.LBB14_19
.LBB14_17:
	leaq	64(%r13), %rdi
	xorl	%r12d, %r12d
	.p2align	4
.LBB14_18:
	movl	448(%rsp,%r12,4), %eax
	movl	480(%rsp,%r12,4), %ecx
	movl	512(%rsp,%r12,4), %edx
	movl	544(%rsp,%r12,4), %r8d
	movl	576(%rsp,%r12,4), %r9d
	movl	608(%rsp,%r12,4), %r10d
	movl	640(%rsp,%r12,4), %r11d
	movl	672(%rsp,%r12,4), %r13d
	movl	%eax, 896(%rsp)
	movl	%ecx, 900(%rsp)
	movl	%edx, 904(%rsp)
	movl	%r8d, 908(%rsp)
	movl	%r9d, 912(%rsp)
	movl	%r10d, 916(%rsp)
	movl	%r11d, 920(%rsp)
	movl	%r13d, 924(%rsp)
	movq	80(%rsp), %r13
	leaq	(%r14,%r12), %r8
	movq	$0, 32(%rsp)
	leaq	896(%rsp), %r9
	movq	%rdi, %rcx
	movq	%r13, %rdx
	vzeroupper
	callq	"keyed_blake3::tree::add_subtree_value"
	incq	%r12
	cmpq	%r12, %r15
	jne	.LBB14_18
.LBB14_19:
	movl	444(%rsp,%rsi,4), %eax
	movl	476(%rsp,%rsi,4), %ecx
	movl	508(%rsp,%rsi,4), %edx
	movl	540(%rsp,%rsi,4), %r8d
	movl	572(%rsp,%rsi,4), %r9d
	movl	604(%rsp,%rsi,4), %r10d
	movl	636(%rsp,%rsi,4), %r11d
	movl	668(%rsp,%rsi,4), %esi
	movl	%eax, 416(%rsp)
	movl	%ecx, 420(%rsp)
	movl	%edx, 424(%rsp)
	movl	%r8d, 428(%rsp)
	movl	%r9d, 432(%rsp)
	movl	%r10d, 436(%rsp)
	movl	%r11d, 440(%rsp)
	movl	%esi, 444(%rsp)
	addq	%r15, %r14
	leaq	64(%r13), %rcx
	movq	%rbx, 32(%rsp)
	leaq	416(%rsp), %r9
	movq	%r13, %rdx
	movq	%r14, %r8
	vzeroupper
	callq	"keyed_blake3::tree::add_subtree_value"
	vmovaps	2192(%rbp), %xmm6
	vmovaps	2208(%rbp), %xmm7
	vmovaps	2224(%rbp), %xmm8
	vmovaps	2240(%rbp), %xmm9
	vmovaps	2256(%rbp), %xmm10
	vmovaps	2272(%rbp), %xmm11
	vmovaps	2288(%rbp), %xmm12
	vmovaps	2304(%rbp), %xmm13
	vmovaps	2320(%rbp), %xmm14
	vmovaps	2336(%rbp), %xmm15
	leaq	2360(%rbp), %rsp
	popq	%rbx
	popq	%rdi
	popq	%rsi
	popq	%r12
	popq	%r13
	popq	%r14
	popq	%r15
	popq	%rbp
	retq
.LBB14_13:
	movq	80(%rsp), %r13
	movq	2472(%rbp), %rbx
	movq	%rsi, %r15
	decq	%r15
	jne	.LBB14_17
	jmp	.LBB14_19
	.seh_endproc

	.section	.rdata,"dr"
	.p2align	5, 0x0
.LCPI15_0:
	.byte	64
	.byte	0
	.byte	0
	.byte	0
	.byte	64
	.byte	0
	.byte	0
	.byte	0
	.byte	64
	.byte	0
	.byte	0
	.byte	0
	.byte	64
	.byte	0
	.byte	0
	.byte	0
	.byte	64
	.byte	0
	.byte	0
	.byte	0
	.byte	64
	.byte	0
	.byte	0
	.byte	0
	.byte	64
	.byte	0
	.byte	0
	.byte	0
	.byte	64
	.byte	0
	.byte	0
	.byte	0
.LCPI15_1:
	.long	1779033703
.LCPI15_2:
	.long	3144134277
.LCPI15_3:
	.long	1013904242
.LCPI15_4:
	.long	2773480762
.LCPI15_5:
	.byte	64
	.byte	0
	.byte	0
	.byte	0
	.section	.text
	.p2align	4
	.def	"keyed_blake3::chunks::chunk_values::<#a9687390e0dd665c>";
	.scl	3;
	.type	32;
	.endef
"keyed_blake3::chunks::chunk_values::<#a9687390e0dd665c>":
.seh_proc "keyed_blake3::chunks::chunk_values::<#a9687390e0dd665c>"
	pushq	%rbp
	.seh_pushreg %rbp
	pushq	%r15
	.seh_pushreg %r15
	pushq	%r14
	.seh_pushreg %r14
	pushq	%rsi
	.seh_pushreg %rsi
	pushq	%rdi
	.seh_pushreg %rdi
	pushq	%rbx
	.seh_pushreg %rbx
	subq	$840, %rsp
	.seh_stackalloc 840
	leaq	128(%rsp), %rbp
	.seh_setframe %rbp, 128
	vmovdqa	%xmm15, 688(%rbp)
	.seh_savexmm %xmm15, 816
	vmovdqa	%xmm14, 672(%rbp)
	.seh_savexmm %xmm14, 800
	vmovdqa	%xmm13, 656(%rbp)
	.seh_savexmm %xmm13, 784
	vmovdqa	%xmm12, 640(%rbp)
	.seh_savexmm %xmm12, 768
	vmovdqa	%xmm11, 624(%rbp)
	.seh_savexmm %xmm11, 752
	vmovdqa	%xmm10, 608(%rbp)
	.seh_savexmm %xmm10, 736
	vmovdqa	%xmm9, 592(%rbp)
	.seh_savexmm %xmm9, 720
	vmovdqa	%xmm8, 576(%rbp)
	.seh_savexmm %xmm8, 704
	vmovaps	%xmm7, 560(%rbp)
	.seh_savexmm %xmm7, 688
	vmovaps	%xmm6, 544(%rbp)
	.seh_savexmm %xmm6, 672
	.seh_endprologue
	andq	$-64, %rsp
	movq	%r9, %rbx
	vmovdqu64	(%r9), %zmm0
	vpaddq	800(%rbp){1to8}, %zmm0, %zmm0
	movq	%r8, %rdi
	movq	%rcx, %rsi
	vpsrlq	$32, %zmm0, %zmm1
	vpmovqd	%zmm1, 96(%rsp)
	vpmovqd	%zmm0, 64(%rsp)
	leaq	384(%rsp), %rcx
	vzeroupper
	callq	"keyed_blake3::chunks::key_of_each::<#a9687390e0dd665c>"
	vmovdqa64	384(%rsp), %ymm28
	vmovdqa64	416(%rsp), %ymm31
	vmovdqa	448(%rsp), %ymm6
	vmovdqa	480(%rsp), %ymm7
	vmovdqa64	512(%rsp), %ymm26
	vmovdqa64	544(%rsp), %ymm27
	vmovdqa64	576(%rsp), %ymm29
	vmovdqa64	608(%rsp), %ymm30
	movq	(%rbx), %r14
	movq	8(%rbx), %r11
	shlq	$10, %r14
	shlq	$10, %r11
	movq	16(%rbx), %r10
	shlq	$10, %r10
	movq	24(%rbx), %r9
	shlq	$10, %r9
	movq	32(%rbx), %r8
	shlq	$10, %r8
	movq	40(%rbx), %rdx
	shlq	$10, %rdx
	movq	48(%rbx), %rcx
	shlq	$10, %rcx
	movq	56(%rbx), %rax
	shlq	$10, %rax
	addq	%rdi, %rax
	addq	$32, %rax
	leaq	32(%rcx,%rdi), %rcx
	leaq	32(%rdx,%rdi), %rdx
	leaq	32(%r8,%rdi), %r8
	leaq	32(%r9,%rdi), %r9
	addq	%rdi, %r10
	addq	$32, %r10
	addq	%rdi, %r11
	addq	$32, %r11
	addq	%r14, %rdi
	addq	$32, %rdi
	xorl	%ebx, %ebx
	.p2align	4
.LBB15_1:
	vmovdqu	-32(%rdi,%rbx), %ymm0
	vmovdqu	(%rdi,%rbx), %ymm1
	prefetcht0	128(%rdi,%rbx)
	vmovdqu	-32(%r11,%rbx), %ymm2
	vmovdqu	(%r11,%rbx), %ymm3
	prefetcht0	128(%r11,%rbx)
	vpunpckldq	%ymm2, %ymm0, %ymm4
	vmovdqu	-32(%r10,%rbx), %ymm5
	vmovdqu64	(%r10,%rbx), %ymm16
	prefetcht0	128(%r10,%rbx)
	vpunpckhdq	%ymm2, %ymm0, %ymm0
	vmovdqu	-32(%r9,%rbx), %ymm2
	vmovdqu64	(%r9,%rbx), %ymm18
	prefetcht0	128(%r9,%rbx)
	vmovdqu64	-32(%r8,%rbx), %ymm17
	vpunpckldq	%ymm2, %ymm5, %ymm19
	vmovdqu64	(%r8,%rbx), %ymm20
	prefetcht0	128(%r8,%rbx)
	vmovdqu64	-32(%rdx,%rbx), %ymm21
	vmovdqu64	(%rdx,%rbx), %ymm22
	prefetcht0	128(%rdx,%rbx)
	vpunpckhdq	%ymm2, %ymm5, %ymm2
	vpunpckldq	%ymm21, %ymm17, %ymm5
	vmovdqu64	-32(%rcx,%rbx), %ymm23
	vmovdqu64	(%rcx,%rbx), %ymm24
	prefetcht0	128(%rcx,%rbx)
	vpunpckhdq	%ymm21, %ymm17, %ymm17
	vmovdqu64	-32(%rax,%rbx), %ymm21
	vmovdqu64	(%rax,%rbx), %ymm25
	prefetcht0	128(%rax,%rbx)
	vpunpckldq	%ymm21, %ymm23, %ymm8
	vpunpckhdq	%ymm21, %ymm23, %ymm21
	vpunpcklqdq	%ymm19, %ymm4, %ymm23
	vpunpckhqdq	%ymm19, %ymm4, %ymm4
	vpunpcklqdq	%ymm2, %ymm0, %ymm19
	vpunpckhqdq	%ymm2, %ymm0, %ymm2
	vpunpcklqdq	%ymm8, %ymm5, %ymm0
	vpunpckhqdq	%ymm8, %ymm5, %ymm8
	vpunpcklqdq	%ymm21, %ymm17, %ymm9
	vpunpckhqdq	%ymm21, %ymm17, %ymm10
	vinserti32x4	$1, %xmm0, %ymm23, %ymm17
	vinserti32x4	$1, %xmm8, %ymm4, %ymm21
	vpunpckldq	%ymm3, %ymm1, %ymm11
	vinserti32x4	$1, %xmm9, %ymm19, %ymm5
	vpunpckhdq	%ymm3, %ymm1, %ymm1
	vpunpckldq	%ymm18, %ymm16, %ymm12
	vpunpckhdq	%ymm18, %ymm16, %ymm16
	vinserti128	$1, %xmm10, %ymm2, %ymm3
	vpunpckldq	%ymm22, %ymm20, %ymm18
	vpunpckhdq	%ymm22, %ymm20, %ymm20
	vpunpckldq	%ymm25, %ymm24, %ymm22
	vshufi64x2	$3, %ymm0, %ymm23, %ymm0
	vpunpckhdq	%ymm25, %ymm24, %ymm23
	vpunpcklqdq	%ymm12, %ymm11, %ymm13
	vpunpckhqdq	%ymm12, %ymm11, %ymm11
	vshufi64x2	$3, %ymm8, %ymm4, %ymm24
	vpunpcklqdq	%ymm16, %ymm1, %ymm8
	vpunpckhqdq	%ymm16, %ymm1, %ymm12
	vpunpcklqdq	%ymm22, %ymm18, %ymm1
	vshufi64x2	$3, %ymm9, %ymm19, %ymm19
	vpunpckhqdq	%ymm22, %ymm18, %ymm4
	vpunpcklqdq	%ymm23, %ymm20, %ymm18
	vpunpckhqdq	%ymm23, %ymm20, %ymm22
	vshufi64x2	$3, %ymm10, %ymm2, %ymm16
	vinserti32x4	$1, %xmm1, %ymm13, %ymm23
	vinserti128	$1, %xmm4, %ymm11, %ymm2
	vmovdqa	%ymm2, 128(%rsp)
	vinserti32x4	$1, %xmm18, %ymm8, %ymm2
	vinserti32x4	$1, %xmm22, %ymm12, %ymm25
	vperm2i128	$49, %ymm1, %ymm13, %ymm1
	cmpq	$1, %rbx
	movl	$0, %r14d
	vperm2i128	$49, %ymm4, %ymm11, %ymm4
	adcl	$16, %r14d
	cmpq	$960, %rbx
	vshufi64x2	$3, %ymm18, %ymm8, %ymm18
	movl	$18, %r15d
	cmovnel	%r14d, %r15d
	vshufi64x2	$3, %ymm22, %ymm12, %ymm20
	vpbroadcastd	%r15d, %ymm8
	vpaddd	%ymm26, %ymm28, %ymm28
	vpaddd	%ymm27, %ymm31, %ymm9
	vpaddd	%ymm17, %ymm28, %ymm31
	vmovdqa64	%ymm17, %ymm22
	vmovdqa64	%ymm17, 32(%rsp)
	vpaddd	%ymm5, %ymm9, %ymm28
	vmovdqa64	%ymm5, %ymm17
	vpaddd	%ymm29, %ymm6, %ymm6
	vpaddd	%ymm30, %ymm7, %ymm7
	vpaddd	%ymm0, %ymm6, %ymm10
	vpaddd	%ymm19, %ymm7, %ymm11
	vpxord	64(%rsp), %ymm31, %ymm6
	vpxord	96(%rsp), %ymm28, %ymm9
	vprold	$16, %ymm6, %ymm7
	vpxord	.LCPI15_5(%rip){1to8}, %ymm10, %ymm6
	vpxor	%ymm8, %ymm11, %ymm12
	vprold	$16, %ymm9, %ymm8
	vprold	$16, %ymm12, %ymm12
	vpaddd	.LCPI15_1(%rip){1to8}, %ymm7, %ymm9
	vprold	$16, %ymm6, %ymm13
	vpaddd	.LCPI15_4(%rip){1to8}, %ymm12, %ymm14
	vpaddd	.LCPI15_3(%rip){1to8}, %ymm13, %ymm6
	vpxord	%ymm29, %ymm6, %ymm29
	vpxord	%ymm30, %ymm14, %ymm30
	vprold	$20, %ymm30, %ymm15
	vprold	$20, %ymm29, %ymm30
	vpaddd	%ymm24, %ymm10, %ymm29
	vpaddd	%ymm16, %ymm11, %ymm10
	vpaddd	%ymm15, %ymm10, %ymm10
	vpaddd	%ymm30, %ymm29, %ymm11
	vpxorq	%ymm10, %ymm12, %ymm29
	vprold	$24, %ymm29, %ymm12
	vpaddd	%ymm12, %ymm14, %ymm29
	vpxor	%ymm11, %ymm13, %ymm13
	vpxord	%ymm15, %ymm29, %ymm14
	vprold	$25, %ymm14, %ymm14
	vpaddd	%ymm1, %ymm14, %ymm15
	vpaddd	%ymm15, %ymm11, %ymm11
	vpaddd	.LCPI15_2(%rip){1to8}, %ymm8, %ymm15
	vpxord	%ymm26, %ymm9, %ymm26
	vpxord	%ymm27, %ymm15, %ymm27
	vprold	$20, %ymm26, %ymm26
	vprold	$20, %ymm27, %ymm27
	vpaddd	%ymm21, %ymm31, %ymm31
	vpaddd	%ymm26, %ymm31, %ymm31
	vpaddd	%ymm3, %ymm28, %ymm28
	vpaddd	%ymm27, %ymm28, %ymm28
	vpxorq	%ymm31, %ymm7, %ymm7
	vprold	$24, %ymm7, %ymm7
	vpxorq	%ymm28, %ymm8, %ymm8
	vprold	$24, %ymm8, %ymm8
	vpaddd	%ymm7, %ymm9, %ymm9
	vpaddd	%ymm8, %ymm15, %ymm15
	vpxord	%ymm26, %ymm9, %ymm26
	vpxord	%ymm27, %ymm15, %ymm27
	vprold	$25, %ymm26, %ymm26
	vprold	$24, %ymm13, %ymm13
	vprold	$25, %ymm27, %ymm27
	vpaddd	%ymm18, %ymm10, %ymm10
	vpaddd	%ymm26, %ymm10, %ymm10
	vpaddd	%ymm6, %ymm13, %ymm6
	vpaddd	%ymm23, %ymm31, %ymm31
	vpaddd	%ymm27, %ymm31, %ymm31
	vpaddd	%ymm2, %ymm28, %ymm28
	vpxord	%ymm30, %ymm6, %ymm30
	vpxor	%ymm10, %ymm13, %ymm13
	vprold	$16, %ymm13, %ymm13
	vpxorq	%ymm31, %ymm12, %ymm12
	vprold	$25, %ymm30, %ymm30
	vprold	$16, %ymm12, %ymm12
	vpxor	%ymm11, %ymm8, %ymm8
	vprold	$16, %ymm8, %ymm8
	vpaddd	%ymm30, %ymm28, %ymm28
	vpaddd	%ymm13, %ymm15, %ymm15
	vpaddd	%ymm6, %ymm12, %ymm6
	vpaddd	%ymm8, %ymm9, %ymm9
	vpxorq	%ymm28, %ymm7, %ymm7
	vpxord	%ymm26, %ymm15, %ymm26
	vpxord	%ymm27, %ymm6, %ymm27
	vpxor	%ymm14, %ymm9, %ymm14
	vprold	$20, %ymm26, %ymm26
	vprold	$20, %ymm27, %ymm27
	vprold	$20, %ymm14, %ymm14
	vpaddd	%ymm20, %ymm10, %ymm10
	vprold	$16, %ymm7, %ymm7
	vpaddd	%ymm26, %ymm10, %ymm10
	vmovdqa	128(%rsp), %ymm5
	vpaddd	%ymm5, %ymm31, %ymm31
	vpaddd	%ymm27, %ymm31, %ymm31
	vpaddd	%ymm7, %ymm29, %ymm29
	vpaddd	%ymm25, %ymm28, %ymm28
	vpaddd	%ymm4, %ymm11, %ymm11
	vpaddd	%ymm14, %ymm11, %ymm11
	vpxord	%ymm30, %ymm29, %ymm30
	vpxor	%ymm10, %ymm13, %ymm13
	vprold	$24, %ymm13, %ymm13
	vpxorq	%ymm31, %ymm12, %ymm12
	vprold	$20, %ymm30, %ymm30
	vprold	$24, %ymm12, %ymm12
	vpxor	%ymm11, %ymm8, %ymm8
	vprold	$24, %ymm8, %ymm8
	vpaddd	%ymm30, %ymm28, %ymm28
	vpaddd	%ymm13, %ymm15, %ymm15
	vpaddd	%ymm6, %ymm12, %ymm6
	vpaddd	%ymm8, %ymm9, %ymm9
	vpxorq	%ymm28, %ymm7, %ymm7
	vpxord	%ymm26, %ymm15, %ymm26
	vpxord	%ymm27, %ymm6, %ymm27
	vpxor	%ymm14, %ymm9, %ymm14
	vprold	$25, %ymm26, %ymm26
	vprold	$25, %ymm27, %ymm27
	vprold	$25, %ymm14, %ymm14
	vpaddd	%ymm17, %ymm31, %ymm31
	vmovdqa64	%ymm17, 224(%rsp)
	vprold	$24, %ymm7, %ymm7
	vpaddd	%ymm26, %ymm31, %ymm31
	vpaddd	%ymm3, %ymm28, %ymm28
	vpaddd	%ymm27, %ymm28, %ymm28
	vpaddd	%ymm7, %ymm29, %ymm29
	vpaddd	%ymm16, %ymm11, %ymm11
	vpaddd	%ymm0, %ymm10, %ymm10
	vpaddd	%ymm14, %ymm10, %ymm10
	vpxord	%ymm30, %ymm29, %ymm30
	vpxorq	%ymm31, %ymm7, %ymm7
	vprold	$16, %ymm7, %ymm7
	vpxorq	%ymm28, %ymm8, %ymm8
	vprold	$25, %ymm30, %ymm30
	vprold	$16, %ymm8, %ymm8
	vpxor	%ymm10, %ymm12, %ymm12
	vprold	$16, %ymm12, %ymm12
	vpaddd	%ymm30, %ymm11, %ymm11
	vpaddd	%ymm7, %ymm9, %ymm9
	vpaddd	%ymm8, %ymm15, %ymm15
	vpaddd	%ymm12, %ymm29, %ymm29
	vpxor	%ymm11, %ymm13, %ymm13
	vpxord	%ymm26, %ymm9, %ymm26
	vpxord	%ymm27, %ymm15, %ymm27
	vpxord	%ymm14, %ymm29, %ymm14
	vprold	$20, %ymm26, %ymm26
	vprold	$20, %ymm27, %ymm27
	vprold	$20, %ymm14, %ymm14
	vpaddd	%ymm19, %ymm31, %ymm31
	vprold	$16, %ymm13, %ymm13
	vpaddd	%ymm26, %ymm31, %ymm31
	vpaddd	%ymm2, %ymm28, %ymm28
	vpaddd	%ymm27, %ymm28, %ymm28
	vpaddd	%ymm6, %ymm13, %ymm6
	vpaddd	%ymm22, %ymm11, %ymm11
	vpaddd	%ymm4, %ymm10, %ymm10
	vpaddd	%ymm14, %ymm10, %ymm10
	vpxord	%ymm30, %ymm6, %ymm30
	vpxorq	%ymm31, %ymm7, %ymm7
	vprold	$24, %ymm7, %ymm7
	vpxorq	%ymm28, %ymm8, %ymm8
	vprold	$20, %ymm30, %ymm30
	vprold	$24, %ymm8, %ymm8
	vpxor	%ymm10, %ymm12, %ymm12
	vprold	$24, %ymm12, %ymm12
	vpaddd	%ymm30, %ymm11, %ymm11
	vpaddd	%ymm7, %ymm9, %ymm9
	vpaddd	%ymm8, %ymm15, %ymm15
	vpaddd	%ymm12, %ymm29, %ymm29
	vpxor	%ymm11, %ymm13, %ymm13
	vpxord	%ymm26, %ymm9, %ymm26
	vpxord	%ymm27, %ymm15, %ymm27
	vpxord	%ymm14, %ymm29, %ymm14
	vprold	$25, %ymm26, %ymm26
	vprold	$25, %ymm27, %ymm27
	vprold	$25, %ymm14, %ymm14
	vpaddd	%ymm20, %ymm10, %ymm10
	vmovdqa64	%ymm20, %ymm22
	vprold	$24, %ymm13, %ymm13
	vpaddd	%ymm26, %ymm10, %ymm10
	vpaddd	%ymm21, %ymm31, %ymm31
	vpaddd	%ymm27, %ymm31, %ymm31
	vpaddd	%ymm6, %ymm13, %ymm6
	vpaddd	%ymm1, %ymm28, %ymm28
	vpaddd	%ymm5, %ymm11, %ymm11
	vmovdqa64	%ymm5, %ymm20
	vpaddd	%ymm14, %ymm11, %ymm11
	vpxord	%ymm30, %ymm6, %ymm30
	vpxor	%ymm10, %ymm13, %ymm13
	vprold	$16, %ymm13, %ymm13
	vpxorq	%ymm31, %ymm12, %ymm12
	vprold	$25, %ymm30, %ymm30
	vprold	$16, %ymm12, %ymm12
	vpxor	%ymm11, %ymm8, %ymm8
	vprold	$16, %ymm8, %ymm8
	vpaddd	%ymm30, %ymm28, %ymm28
	vpaddd	%ymm13, %ymm15, %ymm15
	vpaddd	%ymm6, %ymm12, %ymm6
	vpaddd	%ymm8, %ymm9, %ymm9
	vpxorq	%ymm28, %ymm7, %ymm7
	vpxord	%ymm26, %ymm15, %ymm26
	vpxord	%ymm27, %ymm6, %ymm27
	vpxor	%ymm14, %ymm9, %ymm14
	vprold	$20, %ymm26, %ymm26
	vprold	$20, %ymm27, %ymm27
	vprold	$20, %ymm14, %ymm14
	vpaddd	%ymm23, %ymm10, %ymm10
	vprold	$16, %ymm7, %ymm7
	vpaddd	%ymm26, %ymm10, %ymm10
	vpaddd	%ymm25, %ymm31, %ymm31
	vpaddd	%ymm27, %ymm31, %ymm31
	vpaddd	%ymm7, %ymm29, %ymm29
	vpaddd	%ymm24, %ymm28, %ymm28
	vpaddd	%ymm18, %ymm11, %ymm11
	vpaddd	%ymm14, %ymm11, %ymm11
	vpxord	%ymm30, %ymm29, %ymm30
	vpxor	%ymm10, %ymm13, %ymm13
	vprold	$24, %ymm13, %ymm13
	vpxorq	%ymm31, %ymm12, %ymm12
	vprold	$20, %ymm30, %ymm30
	vprold	$24, %ymm12, %ymm12
	vpxor	%ymm11, %ymm8, %ymm8
	vprold	$24, %ymm8, %ymm8
	vpaddd	%ymm30, %ymm28, %ymm28
	vpaddd	%ymm13, %ymm15, %ymm15
	vpaddd	%ymm6, %ymm12, %ymm6
	vpaddd	%ymm8, %ymm9, %ymm9
	vpxorq	%ymm28, %ymm7, %ymm7
	vpxord	%ymm26, %ymm15, %ymm26
	vpxord	%ymm27, %ymm6, %ymm27
	vpxor	%ymm14, %ymm9, %ymm14
	vprold	$25, %ymm26, %ymm26
	vprold	$25, %ymm27, %ymm27
	vprold	$25, %ymm14, %ymm14
	vpaddd	%ymm3, %ymm31, %ymm31
	vmovdqa	%ymm3, 192(%rsp)
	vprold	$24, %ymm7, %ymm7
	vpaddd	%ymm26, %ymm31, %ymm31
	vpaddd	%ymm2, %ymm28, %ymm28
	vpaddd	%ymm27, %ymm28, %ymm28
	vpaddd	%ymm7, %ymm29, %ymm29
	vpaddd	%ymm4, %ymm11, %ymm11
	vpaddd	%ymm16, %ymm10, %ymm10
	vmovdqa64	%ymm16, %ymm5
	vpaddd	%ymm14, %ymm10, %ymm10
	vpxord	%ymm30, %ymm29, %ymm30
	vpxorq	%ymm31, %ymm7, %ymm7
	vprold	$16, %ymm7, %ymm7
	vpxorq	%ymm28, %ymm8, %ymm8
	vprold	$25, %ymm30, %ymm30
	vprold	$16, %ymm8, %ymm8
	vpxor	%ymm10, %ymm12, %ymm12
	vprold	$16, %ymm12, %ymm12
	vpaddd	%ymm30, %ymm11, %ymm11
	vpaddd	%ymm7, %ymm9, %ymm9
	vpaddd	%ymm8, %ymm15, %ymm15
	vpaddd	%ymm12, %ymm29, %ymm29
	vpxor	%ymm11, %ymm13, %ymm13
	vpxord	%ymm26, %ymm9, %ymm26
	vpxord	%ymm27, %ymm15, %ymm27
	vpxord	%ymm14, %ymm29, %ymm14
	vprold	$20, %ymm26, %ymm26
	vprold	$20, %ymm27, %ymm27
	vprold	$20, %ymm14, %ymm14
	vpaddd	%ymm0, %ymm31, %ymm31
	vprold	$16, %ymm13, %ymm13
	vpaddd	%ymm26, %ymm31, %ymm31
	vpaddd	%ymm1, %ymm28, %ymm28
	vpaddd	%ymm27, %ymm28, %ymm28
	vpaddd	%ymm6, %ymm13, %ymm6
	vpaddd	%ymm17, %ymm11, %ymm11
	vpaddd	%ymm18, %ymm10, %ymm10
	vpaddd	%ymm14, %ymm10, %ymm10
	vpxord	%ymm30, %ymm6, %ymm30
	vpxorq	%ymm31, %ymm7, %ymm7
	vprold	$24, %ymm7, %ymm7
	vpxorq	%ymm28, %ymm8, %ymm8
	vprold	$20, %ymm30, %ymm30
	vprold	$24, %ymm8, %ymm8
	vpxor	%ymm10, %ymm12, %ymm12
	vprold	$24, %ymm12, %ymm12
	vpaddd	%ymm30, %ymm11, %ymm11
	vpaddd	%ymm7, %ymm9, %ymm9
	vpaddd	%ymm8, %ymm15, %ymm15
	vpaddd	%ymm12, %ymm29, %ymm29
	vpxor	%ymm11, %ymm13, %ymm13
	vpxord	%ymm26, %ymm9, %ymm26
	vpxord	%ymm27, %ymm15, %ymm27
	vpxord	%ymm14, %ymm29, %ymm14
	vprold	$25, %ymm26, %ymm26
	vprold	$25, %ymm27, %ymm27
	vprold	$25, %ymm14, %ymm14
	vpaddd	%ymm23, %ymm10, %ymm10
	vmovdqa64	%ymm23, %ymm17
	vprold	$24, %ymm13, %ymm13
	vpaddd	%ymm26, %ymm10, %ymm10
	vpaddd	%ymm19, %ymm31, %ymm31
	vpaddd	%ymm27, %ymm31, %ymm31
	vpaddd	%ymm6, %ymm13, %ymm6
	vpaddd	%ymm20, %ymm28, %ymm28
	vpaddd	%ymm25, %ymm11, %ymm11
	vpaddd	%ymm14, %ymm11, %ymm11
	vpxord	%ymm30, %ymm6, %ymm30
	vpxor	%ymm10, %ymm13, %ymm13
	vprold	$16, %ymm13, %ymm13
	vpxorq	%ymm31, %ymm12, %ymm12
	vprold	$25, %ymm30, %ymm30
	vprold	$16, %ymm12, %ymm12
	vpxor	%ymm11, %ymm8, %ymm8
	vprold	$16, %ymm8, %ymm8
	vpaddd	%ymm30, %ymm28, %ymm28
	vpaddd	%ymm13, %ymm15, %ymm15
	vpaddd	%ymm6, %ymm12, %ymm6
	vpaddd	%ymm8, %ymm9, %ymm9
	vpxorq	%ymm28, %ymm7, %ymm7
	vpxord	%ymm26, %ymm15, %ymm26
	vpxord	%ymm27, %ymm6, %ymm27
	vpxor	%ymm14, %ymm9, %ymm14
	vprold	$20, %ymm26, %ymm26
	vprold	$20, %ymm27, %ymm27
	vprold	$20, %ymm14, %ymm14
	vmovdqa64	%ymm21, 160(%rsp)
	vpaddd	%ymm21, %ymm10, %ymm10
	vprold	$16, %ymm7, %ymm7
	vpaddd	%ymm26, %ymm10, %ymm10
	vpaddd	%ymm24, %ymm31, %ymm31
	vpaddd	%ymm27, %ymm31, %ymm31
	vpaddd	%ymm7, %ymm29, %ymm29
	vmovdqa64	32(%rsp), %ymm16
	vpaddd	%ymm16, %ymm28, %ymm28
	vpaddd	%ymm22, %ymm11, %ymm11
	vpaddd	%ymm14, %ymm11, %ymm11
	vpxord	%ymm30, %ymm29, %ymm30
	vpxor	%ymm10, %ymm13, %ymm13
	vprold	$24, %ymm13, %ymm13
	vpxorq	%ymm31, %ymm12, %ymm12
	vprold	$20, %ymm30, %ymm30
	vprold	$24, %ymm12, %ymm12
	vpxor	%ymm11, %ymm8, %ymm8
	vprold	$24, %ymm8, %ymm8
	vpaddd	%ymm30, %ymm28, %ymm28
	vpaddd	%ymm13, %ymm15, %ymm15
	vpaddd	%ymm6, %ymm12, %ymm6
	vpaddd	%ymm8, %ymm9, %ymm9
	vpxorq	%ymm28, %ymm7, %ymm7
	vpxord	%ymm26, %ymm15, %ymm26
	vpxord	%ymm27, %ymm6, %ymm27
	vpxor	%ymm14, %ymm9, %ymm14
	vprold	$25, %ymm26, %ymm26
	vprold	$25, %ymm27, %ymm27
	vprold	$25, %ymm14, %ymm14
	vmovdqa	%ymm2, 320(%rsp)
	vpaddd	%ymm2, %ymm31, %ymm31
	vprold	$24, %ymm7, %ymm7
	vpaddd	%ymm26, %ymm31, %ymm31
	vpaddd	%ymm1, %ymm28, %ymm28
	vpaddd	%ymm27, %ymm28, %ymm28
	vpaddd	%ymm7, %ymm29, %ymm29
	vpaddd	%ymm18, %ymm11, %ymm11
	vpaddd	%ymm4, %ymm10, %ymm10
	vmovdqa64	%ymm4, %ymm23
	vpaddd	%ymm14, %ymm10, %ymm10
	vpxord	%ymm30, %ymm29, %ymm30
	vpxorq	%ymm31, %ymm7, %ymm7
	vprold	$16, %ymm7, %ymm7
	vpxorq	%ymm28, %ymm8, %ymm8
	vprold	$25, %ymm30, %ymm30
	vprold	$16, %ymm8, %ymm8
	vpxor	%ymm10, %ymm12, %ymm12
	vprold	$16, %ymm12, %ymm12
	vpaddd	%ymm30, %ymm11, %ymm11
	vpaddd	%ymm7, %ymm9, %ymm9
	vpaddd	%ymm8, %ymm15, %ymm15
	vpaddd	%ymm12, %ymm29, %ymm29
	vpxor	%ymm11, %ymm13, %ymm13
	vpxord	%ymm26, %ymm9, %ymm26
	vpxord	%ymm27, %ymm15, %ymm27
	vpxord	%ymm14, %ymm29, %ymm14
	vprold	$20, %ymm26, %ymm26
	vprold	$20, %ymm27, %ymm27
	vprold	$20, %ymm14, %ymm14
	vpaddd	%ymm5, %ymm31, %ymm31
	vmovdqa	%ymm5, 288(%rsp)
	vprold	$16, %ymm13, %ymm13
	vpaddd	%ymm26, %ymm31, %ymm31
	vpaddd	%ymm20, %ymm28, %ymm28
	vpaddd	%ymm27, %ymm28, %ymm28
	vpaddd	%ymm6, %ymm13, %ymm6
	vpaddd	%ymm3, %ymm11, %ymm11
	vpaddd	%ymm22, %ymm10, %ymm10
	vpaddd	%ymm14, %ymm10, %ymm10
	vpxord	%ymm30, %ymm6, %ymm30
	vpxorq	%ymm31, %ymm7, %ymm7
	vprold	$24, %ymm7, %ymm7
	vpxorq	%ymm28, %ymm8, %ymm8
	vprold	$20, %ymm30, %ymm30
	vprold	$24, %ymm8, %ymm8
	vpxor	%ymm10, %ymm12, %ymm12
	vprold	$24, %ymm12, %ymm12
	vpaddd	%ymm30, %ymm11, %ymm11
	vpaddd	%ymm7, %ymm9, %ymm9
	vpaddd	%ymm8, %ymm15, %ymm15
	vpaddd	%ymm12, %ymm29, %ymm29
	vpxor	%ymm11, %ymm13, %ymm13
	vpxord	%ymm26, %ymm9, %ymm26
	vpxord	%ymm27, %ymm15, %ymm27
	vpxord	%ymm14, %ymm29, %ymm14
	vprold	$25, %ymm26, %ymm26
	vprold	$25, %ymm27, %ymm27
	vprold	$25, %ymm14, %ymm14
	vpaddd	%ymm21, %ymm10, %ymm10
	vprold	$24, %ymm13, %ymm13
	vpaddd	%ymm26, %ymm10, %ymm10
	vpaddd	%ymm0, %ymm31, %ymm31
	vpaddd	%ymm27, %ymm31, %ymm31
	vpaddd	%ymm6, %ymm13, %ymm6
	vpaddd	%ymm25, %ymm28, %ymm28
	vpaddd	%ymm24, %ymm11, %ymm11
	vmovdqa64	%ymm24, %ymm21
	vpaddd	%ymm14, %ymm11, %ymm11
	vpxord	%ymm30, %ymm6, %ymm30
	vpxor	%ymm10, %ymm13, %ymm13
	vprold	$16, %ymm13, %ymm13
	vpxorq	%ymm31, %ymm12, %ymm12
	vprold	$25, %ymm30, %ymm30
	vprold	$16, %ymm12, %ymm12
	vpxor	%ymm11, %ymm8, %ymm8
	vprold	$16, %ymm8, %ymm8
	vpaddd	%ymm30, %ymm28, %ymm28
	vpaddd	%ymm13, %ymm15, %ymm15
	vpaddd	%ymm6, %ymm12, %ymm6
	vpaddd	%ymm8, %ymm9, %ymm9
	vpxorq	%ymm28, %ymm7, %ymm7
	vpxord	%ymm26, %ymm15, %ymm26
	vpxord	%ymm27, %ymm6, %ymm27
	vpxor	%ymm14, %ymm9, %ymm14
	vprold	$20, %ymm26, %ymm26
	vprold	$20, %ymm27, %ymm27
	vprold	$20, %ymm14, %ymm14
	vmovdqa64	%ymm19, 256(%rsp)
	vpaddd	%ymm19, %ymm10, %ymm10
	vprold	$16, %ymm7, %ymm7
	vpaddd	%ymm26, %ymm10, %ymm10
	vpaddd	%ymm16, %ymm31, %ymm31
	vmovdqa64	%ymm16, %ymm24
	vpaddd	%ymm27, %ymm31, %ymm31
	vpaddd	%ymm7, %ymm29, %ymm29
	vmovdqa	224(%rsp), %ymm4
	vpaddd	%ymm4, %ymm28, %ymm28
	vpaddd	%ymm17, %ymm11, %ymm11
	vpaddd	%ymm14, %ymm11, %ymm11
	vpxord	%ymm30, %ymm29, %ymm30
	vpxor	%ymm10, %ymm13, %ymm13
	vprold	$24, %ymm13, %ymm13
	vpxorq	%ymm31, %ymm12, %ymm12
	vprold	$20, %ymm30, %ymm30
	vprold	$24, %ymm12, %ymm12
	vpxor	%ymm11, %ymm8, %ymm8
	vprold	$24, %ymm8, %ymm8
	vpaddd	%ymm30, %ymm28, %ymm28
	vpaddd	%ymm13, %ymm15, %ymm15
	vpaddd	%ymm6, %ymm12, %ymm6
	vpaddd	%ymm8, %ymm9, %ymm9
	vpxorq	%ymm28, %ymm7, %ymm7
	vpxord	%ymm26, %ymm15, %ymm26
	vpxord	%ymm27, %ymm6, %ymm27
	vpxor	%ymm14, %ymm9, %ymm14
	vprold	$25, %ymm26, %ymm26
	vprold	$25, %ymm27, %ymm27
	vprold	$25, %ymm14, %ymm14
	vpaddd	%ymm1, %ymm31, %ymm31
	vmovdqa	%ymm1, %ymm3
	vmovdqa	%ymm1, 352(%rsp)
	vprold	$24, %ymm7, %ymm7
	vpaddd	%ymm26, %ymm31, %ymm31
	vpaddd	%ymm20, %ymm28, %ymm28
	vpaddd	%ymm27, %ymm28, %ymm28
	vpaddd	%ymm7, %ymm29, %ymm29
	vpaddd	%ymm22, %ymm11, %ymm11
	vpaddd	%ymm18, %ymm10, %ymm10
	vpaddd	%ymm14, %ymm10, %ymm10
	vpxord	%ymm30, %ymm29, %ymm30
	vpxorq	%ymm31, %ymm7, %ymm7
	vprold	$16, %ymm7, %ymm7
	vpxorq	%ymm28, %ymm8, %ymm8
	vprold	$25, %ymm30, %ymm30
	vprold	$16, %ymm8, %ymm8
	vpxor	%ymm10, %ymm12, %ymm12
	vprold	$16, %ymm12, %ymm12
	vpaddd	%ymm30, %ymm11, %ymm11
	vpaddd	%ymm7, %ymm9, %ymm9
	vpaddd	%ymm8, %ymm15, %ymm15
	vpaddd	%ymm12, %ymm29, %ymm29
	vpxor	%ymm11, %ymm13, %ymm13
	vpxord	%ymm26, %ymm9, %ymm26
	vpxord	%ymm27, %ymm15, %ymm27
	vpxord	%ymm14, %ymm29, %ymm14
	vprold	$20, %ymm26, %ymm26
	vprold	$20, %ymm27, %ymm27
	vprold	$20, %ymm14, %ymm14
	vpaddd	%ymm23, %ymm31, %ymm31
	vmovdqa64	%ymm23, %ymm16
	vprold	$16, %ymm13, %ymm13
	vpaddd	%ymm26, %ymm31, %ymm31
	vpaddd	%ymm25, %ymm28, %ymm28
	vpaddd	%ymm27, %ymm28, %ymm28
	vpaddd	%ymm6, %ymm13, %ymm6
	vpaddd	%ymm2, %ymm11, %ymm11
	vpaddd	%ymm17, %ymm10, %ymm10
	vpaddd	%ymm14, %ymm10, %ymm10
	vpxord	%ymm30, %ymm6, %ymm30
	vpxorq	%ymm31, %ymm7, %ymm7
	vprold	$24, %ymm7, %ymm7
	vpxorq	%ymm28, %ymm8, %ymm8
	vprold	$20, %ymm30, %ymm30
	vprold	$24, %ymm8, %ymm8
	vpxor	%ymm10, %ymm12, %ymm12
	vprold	$24, %ymm12, %ymm12
	vpaddd	%ymm30, %ymm11, %ymm11
	vpaddd	%ymm7, %ymm9, %ymm9
	vpaddd	%ymm8, %ymm15, %ymm15
	vpaddd	%ymm12, %ymm29, %ymm29
	vpxor	%ymm11, %ymm13, %ymm13
	vpxord	%ymm26, %ymm9, %ymm26
	vpxord	%ymm27, %ymm15, %ymm27
	vpxord	%ymm14, %ymm29, %ymm14
	vprold	$25, %ymm26, %ymm26
	vprold	$25, %ymm27, %ymm27
	vprold	$25, %ymm14, %ymm14
	vpaddd	%ymm19, %ymm10, %ymm10
	vprold	$24, %ymm13, %ymm13
	vpaddd	%ymm26, %ymm10, %ymm10
	vpaddd	%ymm5, %ymm31, %ymm31
	vpaddd	%ymm27, %ymm31, %ymm31
	vpaddd	%ymm6, %ymm13, %ymm6
	vpaddd	%ymm21, %ymm28, %ymm28
	vpaddd	%ymm24, %ymm11, %ymm11
	vpaddd	%ymm14, %ymm11, %ymm11
	vpxord	%ymm30, %ymm6, %ymm30
	vpxor	%ymm10, %ymm13, %ymm13
	vprold	$16, %ymm13, %ymm13
	vpxorq	%ymm31, %ymm12, %ymm12
	vprold	$25, %ymm30, %ymm30
	vprold	$16, %ymm12, %ymm12
	vpxor	%ymm11, %ymm8, %ymm8
	vprold	$16, %ymm8, %ymm8
	vpaddd	%ymm30, %ymm28, %ymm28
	vpaddd	%ymm13, %ymm15, %ymm15
	vpaddd	%ymm6, %ymm12, %ymm6
	vpaddd	%ymm8, %ymm9, %ymm9
	vpxorq	%ymm28, %ymm7, %ymm7
	vpxord	%ymm26, %ymm15, %ymm26
	vpxord	%ymm27, %ymm6, %ymm27
	vpxor	%ymm14, %ymm9, %ymm14
	vprold	$20, %ymm26, %ymm26
	vprold	$20, %ymm27, %ymm27
	vprold	$20, %ymm14, %ymm14
	vpaddd	%ymm0, %ymm10, %ymm10
	vmovdqa64	%ymm0, %ymm23
	vprold	$16, %ymm7, %ymm7
	vpaddd	%ymm26, %ymm10, %ymm10
	vpaddd	%ymm4, %ymm31, %ymm31
	vpaddd	%ymm27, %ymm31, %ymm31
	vpaddd	%ymm7, %ymm29, %ymm29
	vmovdqa64	192(%rsp), %ymm24
	vpaddd	%ymm24, %ymm28, %ymm28
	vmovdqa	160(%rsp), %ymm5
	vpaddd	%ymm5, %ymm11, %ymm11
	vpaddd	%ymm14, %ymm11, %ymm11
	vpxord	%ymm30, %ymm29, %ymm30
	vpxor	%ymm10, %ymm13, %ymm13
	vprold	$24, %ymm13, %ymm13
	vpxorq	%ymm31, %ymm12, %ymm12
	vprold	$20, %ymm30, %ymm30
	vprold	$24, %ymm12, %ymm12
	vpxor	%ymm11, %ymm8, %ymm8
	vprold	$24, %ymm8, %ymm8
	vpaddd	%ymm30, %ymm28, %ymm28
	vpaddd	%ymm13, %ymm15, %ymm15
	vpaddd	%ymm6, %ymm12, %ymm6
	vpaddd	%ymm8, %ymm9, %ymm9
	vpxorq	%ymm28, %ymm7, %ymm7
	vpxord	%ymm26, %ymm15, %ymm26
	vpxord	%ymm27, %ymm6, %ymm27
	vpxor	%ymm14, %ymm9, %ymm14
	vprold	$25, %ymm26, %ymm26
	vprold	$25, %ymm27, %ymm27
	vprold	$25, %ymm14, %ymm14
	vpaddd	%ymm20, %ymm31, %ymm31
	vprold	$24, %ymm7, %ymm7
	vpaddd	%ymm26, %ymm31, %ymm31
	vpaddd	%ymm25, %ymm28, %ymm28
	vpaddd	%ymm27, %ymm28, %ymm28
	vpaddd	%ymm7, %ymm29, %ymm29
	vpaddd	%ymm17, %ymm11, %ymm11
	vpaddd	%ymm22, %ymm10, %ymm10
	vpaddd	%ymm14, %ymm10, %ymm0
	vpxord	%ymm30, %ymm29, %ymm30
	vpxorq	%ymm31, %ymm7, %ymm7
	vprold	$16, %ymm7, %ymm7
	vpxorq	%ymm28, %ymm8, %ymm8
	vprold	$25, %ymm30, %ymm10
	vprold	$16, %ymm8, %ymm8
	vpxorq	%ymm0, %ymm12, %ymm30
	vprold	$16, %ymm30, %ymm1
	vpaddd	%ymm10, %ymm11, %ymm11
	vpaddd	%ymm7, %ymm9, %ymm30
	vpaddd	%ymm8, %ymm15, %ymm15
	vpaddd	%ymm1, %ymm29, %ymm29
	vpxor	%ymm11, %ymm13, %ymm9
	vpxord	%ymm26, %ymm30, %ymm26
	vpxord	%ymm27, %ymm15, %ymm12
	vpxord	%ymm14, %ymm29, %ymm13
	vprold	$16, %ymm9, %ymm14
	vprold	$20, %ymm26, %ymm27
	vprold	$20, %ymm12, %ymm26
	vprold	$20, %ymm13, %ymm9
	vpaddd	%ymm6, %ymm14, %ymm12
	vpaddd	%ymm18, %ymm31, %ymm31
	vpaddd	%ymm27, %ymm31, %ymm2
	vpaddd	%ymm21, %ymm28, %ymm28
	vpxord	%ymm10, %ymm12, %ymm31
	vpaddd	%ymm26, %ymm28, %ymm10
	vpaddd	%ymm3, %ymm11, %ymm6
	vpaddd	%ymm5, %ymm0, %ymm0
	vprold	$20, %ymm31, %ymm11
	vpaddd	%ymm9, %ymm0, %ymm28
	vpxor	%ymm2, %ymm7, %ymm0
	vpxorq	%ymm10, %ymm8, %ymm31
	vpaddd	%ymm6, %ymm11, %ymm8
	vprold	$24, %ymm31, %ymm7
	vpxorq	%ymm8, %ymm14, %ymm31
	vpxorq	%ymm28, %ymm1, %ymm1
	vprold	$24, %ymm31, %ymm31
	vprold	$24, %ymm1, %ymm1
	vpaddd	%ymm7, %ymm15, %ymm6
	vpaddd	%ymm1, %ymm29, %ymm13
	vpaddd	%ymm31, %ymm12, %ymm29
	vpxord	%ymm26, %ymm6, %ymm26
	vprold	$25, %ymm26, %ymm12
	vmovdqa64	%ymm16, %ymm15
	vpaddd	%ymm16, %ymm2, %ymm2
	vpxord	%ymm11, %ymm29, %ymm14
	vpaddd	%ymm2, %ymm12, %ymm2
	vpxor	%ymm2, %ymm1, %ymm1
	vprold	$16, %ymm1, %ymm1
	vpaddd	%ymm1, %ymm29, %ymm26
	vpxord	%ymm12, %ymm26, %ymm29
	vprold	$20, %ymm29, %ymm29
	vmovdqa64	%ymm24, %ymm3
	vpaddd	%ymm24, %ymm2, %ymm2
	vpaddd	%ymm29, %ymm2, %ymm2
	vpxor	%ymm2, %ymm1, %ymm11
	vpaddd	%ymm25, %ymm2, %ymm1
	vprold	$24, %ymm0, %ymm0
	vpaddd	%ymm0, %ymm30, %ymm2
	vpxord	%ymm9, %ymm13, %ymm30
	vprold	$25, %ymm14, %ymm25
	vmovdqa64	32(%rsp), %ymm16
	vpaddd	%ymm16, %ymm10, %ymm9
	vpaddd	%ymm25, %ymm9, %ymm9
	vpxor	%ymm0, %ymm9, %ymm0
	vprold	$16, %ymm0, %ymm0
	vpaddd	%ymm0, %ymm13, %ymm10
	vpxord	%ymm25, %ymm10, %ymm25
	vprold	$20, %ymm25, %ymm25
	vmovdqa	320(%rsp), %ymm12
	vpaddd	%ymm12, %ymm9, %ymm9
	vpaddd	%ymm25, %ymm9, %ymm9
	vpxor	%ymm0, %ymm9, %ymm0
	vpaddd	%ymm21, %ymm9, %ymm9
	vpxord	%ymm27, %ymm2, %ymm24
	vprold	$25, %ymm30, %ymm27
	vpaddd	%ymm4, %ymm8, %ymm30
	vpaddd	%ymm27, %ymm30, %ymm30
	vpxorq	%ymm30, %ymm7, %ymm7
	vprold	$16, %ymm7, %ymm7
	vpaddd	%ymm7, %ymm2, %ymm2
	vpxord	%ymm27, %ymm2, %ymm27
	vprold	$20, %ymm27, %ymm27
	vmovdqa64	256(%rsp), %ymm19
	vpaddd	%ymm19, %ymm30, %ymm30
	vpaddd	%ymm27, %ymm30, %ymm30
	vpxorq	%ymm30, %ymm7, %ymm7
	vpaddd	%ymm5, %ymm30, %ymm30
	vmovdqa64	%ymm23, %ymm8
	vpaddd	%ymm23, %ymm28, %ymm21
	vprold	$25, %ymm24, %ymm24
	vpaddd	%ymm24, %ymm21, %ymm21
	vpxorq	%ymm21, %ymm31, %ymm28
	vprold	$16, %ymm28, %ymm28
	vpaddd	%ymm28, %ymm6, %ymm31
	vpxord	%ymm24, %ymm31, %ymm24
	vprold	$20, %ymm24, %ymm24
	vmovdqa	288(%rsp), %ymm5
	vpaddd	%ymm5, %ymm21, %ymm21
	vpaddd	%ymm24, %ymm21, %ymm21
	vpxorq	%ymm21, %ymm28, %ymm28
	vpaddd	%ymm17, %ymm21, %ymm6
	vprold	$24, %ymm28, %ymm28
	vprold	$24, %ymm0, %ymm0
	vpaddd	%ymm28, %ymm31, %ymm21
	vpxord	%ymm24, %ymm21, %ymm23
	vprold	$25, %ymm23, %ymm23
	vpaddd	%ymm0, %ymm10, %ymm31
	vpaddd	%ymm23, %ymm1, %ymm1
	vpxorq	%ymm1, %ymm0, %ymm24
	vpaddd	%ymm22, %ymm1, %ymm0
	vprold	$24, %ymm11, %ymm1
	vprold	$24, %ymm7, %ymm22
	vpaddd	%ymm1, %ymm26, %ymm26
	vpaddd	%ymm22, %ymm2, %ymm2
	vpxord	%ymm29, %ymm26, %ymm29
	vprold	$25, %ymm29, %ymm29
	vpaddd	%ymm29, %ymm9, %ymm7
	vpxorq	%ymm7, %ymm22, %ymm22
	vpaddd	%ymm16, %ymm7, %ymm7
	vpxord	%ymm25, %ymm31, %ymm17
	vprold	$25, %ymm17, %ymm25
	vpaddd	%ymm25, %ymm30, %ymm17
	vpxorq	%ymm17, %ymm28, %ymm28
	vpaddd	%ymm20, %ymm17, %ymm30
	vpxord	%ymm27, %ymm2, %ymm17
	vprold	$25, %ymm17, %ymm17
	vpaddd	%ymm17, %ymm6, %ymm20
	vpxorq	%ymm20, %ymm1, %ymm1
	vpaddd	%ymm19, %ymm20, %ymm20
	vprold	$16, %ymm1, %ymm1
	vpaddd	%ymm1, %ymm31, %ymm19
	vpxord	%ymm17, %ymm19, %ymm17
	vprold	$20, %ymm17, %ymm17
	vpaddd	%ymm17, %ymm20, %ymm27
	vpxorq	%ymm27, %ymm1, %ymm20
	vpaddd	%ymm5, %ymm27, %ymm1
	vprold	$16, %ymm24, %ymm16
	vpaddd	%ymm16, %ymm2, %ymm2
	vpxord	%ymm23, %ymm2, %ymm23
	vprold	$20, %ymm23, %ymm23
	vpaddd	%ymm23, %ymm0, %ymm0
	vpxorq	%ymm0, %ymm16, %ymm16
	vpaddd	%ymm18, %ymm0, %ymm0
	vprold	$16, %ymm22, %ymm18
	vpaddd	%ymm18, %ymm21, %ymm21
	vpxord	%ymm29, %ymm21, %ymm22
	vprold	$20, %ymm22, %ymm22
	vpaddd	%ymm22, %ymm7, %ymm24
	vpxorq	%ymm24, %ymm18, %ymm18
	vpaddd	%ymm4, %ymm24, %ymm24
	vprold	$16, %ymm28, %ymm5
	vpaddd	%ymm5, %ymm26, %ymm26
	vpxord	%ymm25, %ymm26, %ymm25
	vprold	$20, %ymm25, %ymm25
	vpaddd	%ymm25, %ymm30, %ymm27
	vpxorq	%ymm27, %ymm5, %ymm5
	vpaddd	%ymm3, %ymm27, %ymm27
	vprold	$24, %ymm16, %ymm16
	vprold	$24, %ymm5, %ymm5
	vpaddd	%ymm16, %ymm2, %ymm2
	vpxord	%ymm23, %ymm2, %ymm3
	vprold	$25, %ymm3, %ymm3
	vpaddd	%ymm5, %ymm26, %ymm23
	vpaddd	%ymm3, %ymm1, %ymm1
	vpxor	%ymm1, %ymm5, %ymm5
	vpaddd	%ymm1, %ymm15, %ymm1
	vprold	$24, %ymm18, %ymm4
	vprold	$24, %ymm20, %ymm18
	vpaddd	%ymm4, %ymm21, %ymm20
	vpaddd	%ymm18, %ymm19, %ymm19
	vpxord	%ymm22, %ymm20, %ymm21
	vprold	$25, %ymm21, %ymm21
	vpaddd	%ymm21, %ymm0, %ymm0
	vpxorq	%ymm0, %ymm18, %ymm18
	vpaddd	%ymm0, %ymm12, %ymm0
	vpxord	%ymm25, %ymm23, %ymm22
	vprold	$25, %ymm22, %ymm22
	vpaddd	%ymm22, %ymm24, %ymm24
	vpxorq	%ymm24, %ymm16, %ymm16
	vpaddd	352(%rsp), %ymm24, %ymm24
	vpxord	%ymm17, %ymm19, %ymm17
	vprold	$25, %ymm17, %ymm17
	vpaddd	%ymm17, %ymm27, %ymm25
	vpxorq	%ymm25, %ymm4, %ymm4
	vpaddd	%ymm8, %ymm25, %ymm25
	vprold	$16, %ymm18, %ymm18
	vprold	$16, %ymm4, %ymm4
	vpaddd	%ymm18, %ymm23, %ymm23
	vpaddd	%ymm4, %ymm2, %ymm2
	vpxord	%ymm21, %ymm23, %ymm21
	vpxord	%ymm17, %ymm2, %ymm17
	vprold	$20, %ymm21, %ymm21
	vprold	$20, %ymm17, %ymm17
	vpaddd	%ymm21, %ymm0, %ymm0
	vpaddd	%ymm17, %ymm25, %ymm25
	vpxorq	%ymm0, %ymm18, %ymm18
	vpxorq	%ymm25, %ymm4, %ymm4
	vprold	$24, %ymm4, %ymm4
	vpaddd	%ymm4, %ymm2, %ymm2
	vpxord	%ymm17, %ymm2, %ymm17
	vpxord	%ymm0, %ymm2, %ymm28
	vprold	$16, %ymm5, %ymm0
	vprold	$16, %ymm16, %ymm2
	vpaddd	%ymm0, %ymm20, %ymm5
	vpaddd	%ymm2, %ymm19, %ymm16
	vpxor	%ymm3, %ymm5, %ymm3
	vpxord	%ymm22, %ymm16, %ymm19
	vprold	$20, %ymm3, %ymm3
	vprold	$20, %ymm19, %ymm19
	vpaddd	%ymm3, %ymm1, %ymm1
	vpaddd	%ymm19, %ymm24, %ymm20
	vpxor	%ymm1, %ymm0, %ymm0
	vprold	$24, %ymm0, %ymm0
	vpaddd	%ymm0, %ymm5, %ymm5
	vpxorq	%ymm20, %ymm2, %ymm2
	vpxor	%ymm3, %ymm5, %ymm3
	vpxord	%ymm20, %ymm5, %ymm31
	vprold	$24, %ymm18, %ymm5
	vpaddd	%ymm5, %ymm23, %ymm18
	vpxord	%ymm21, %ymm18, %ymm20
	vpxord	%ymm25, %ymm18, %ymm6
	vprold	$24, %ymm2, %ymm2
	vpaddd	%ymm2, %ymm16, %ymm16
	vprold	$25, %ymm3, %ymm3
	vpxord	%ymm2, %ymm3, %ymm26
	vpxord	%ymm19, %ymm16, %ymm2
	vpxord	%ymm1, %ymm16, %ymm7
	vprold	$25, %ymm20, %ymm1
	vpxord	%ymm4, %ymm1, %ymm27
	vprold	$25, %ymm2, %ymm1
	vpxord	%ymm0, %ymm1, %ymm29
	vprold	$25, %ymm17, %ymm0
	vpxord	%ymm5, %ymm0, %ymm30
	addq	$64, %rbx
	cmpq	$1024, %rbx
	jne	.LBB15_1
	vmovdqu64	%ymm28, (%rsi)
	vmovdqu64	%ymm31, 32(%rsi)
	vmovdqu	%ymm6, 64(%rsi)
	vmovdqu	%ymm7, 96(%rsi)
	vmovdqu64	%ymm26, 128(%rsi)
	vmovdqu64	%ymm27, 160(%rsi)
	vmovdqu64	%ymm29, 192(%rsi)
	vmovdqu64	%ymm30, 224(%rsi)
	vmovaps	544(%rbp), %xmm6
	vmovaps	560(%rbp), %xmm7
	vmovaps	576(%rbp), %xmm8
	vmovaps	592(%rbp), %xmm9
	vmovaps	608(%rbp), %xmm10
	vmovaps	624(%rbp), %xmm11
	vmovaps	640(%rbp), %xmm12
	vmovaps	656(%rbp), %xmm13
	vmovaps	672(%rbp), %xmm14
	vmovaps	688(%rbp), %xmm15
	leaq	712(%rbp), %rsp
	popq	%rbx
	popq	%rdi
	popq	%rsi
	popq	%r14
	popq	%r15
	popq	%rbp
	vzeroupper
	retq
	.seh_endproc

	.section	.text
	.p2align	4
	.def	"keyed_blake3::chunks::key_of_each::<#a9687390e0dd665c>";
	.scl	3;
	.type	32;
	.endef
"keyed_blake3::chunks::key_of_each::<#a9687390e0dd665c>":
.seh_proc "keyed_blake3::chunks::key_of_each::<#a9687390e0dd665c>"
	pushq	%rbp
	.seh_pushreg %rbp
	subq	$48, %rsp
	.seh_stackalloc 48
	leaq	48(%rsp), %rbp
	.seh_setframe %rbp, 48
	.seh_endprologue
	andq	$-64, %rsp
	vbroadcastss	(%rdx), %ymm0
	vbroadcastss	4(%rdx), %ymm1
	vbroadcastss	8(%rdx), %ymm2
	vbroadcastss	12(%rdx), %ymm3
	vbroadcastss	16(%rdx), %ymm4
	vbroadcastss	20(%rdx), %ymm5
	vbroadcastss	24(%rdx), %ymm16
	vbroadcastss	28(%rdx), %ymm17
	vmovups	%ymm0, (%rcx)
	vmovups	%ymm1, 32(%rcx)
	vmovups	%ymm2, 64(%rcx)
	vmovups	%ymm3, 96(%rcx)
	vmovups	%ymm4, 128(%rcx)
	vmovups	%ymm5, 160(%rcx)
	vmovups	%ymm16, 192(%rcx)
	vmovups	%ymm17, 224(%rcx)
	movq	%rbp, %rsp
	popq	%rbp
	vzeroupper
	retq
	.seh_endproc

	.section	.rdata,"dr"
	.p2align	2, 0x0
.LCPI17_0:
	.long	1779033703
.LCPI17_1:
	.long	3144134277
.LCPI17_2:
	.long	1013904242
.LCPI17_3:
	.long	2773480762
	.section	.text
	.p2align	4
	.def	"keyed_blake3::compression::lanes::take_in_each::<#a9687390e0dd665c>";
	.scl	3;
	.type	32;
	.endef
"keyed_blake3::compression::lanes::take_in_each::<#a9687390e0dd665c>":
.seh_proc "keyed_blake3::compression::lanes::take_in_each::<#a9687390e0dd665c>"
	pushq	%rbp
	.seh_pushreg %rbp
	subq	$176, %rsp
	.seh_stackalloc 176
	leaq	128(%rsp), %rbp
	.seh_setframe %rbp, 128
	vmovaps	%xmm15, 32(%rbp)
	.seh_savexmm %xmm15, 160
	vmovaps	%xmm14, 16(%rbp)
	.seh_savexmm %xmm14, 144
	vmovaps	%xmm13, (%rbp)
	.seh_savexmm %xmm13, 128
	vmovaps	%xmm12, -16(%rbp)
	.seh_savexmm %xmm12, 112
	vmovaps	%xmm11, -32(%rbp)
	.seh_savexmm %xmm11, 96
	vmovaps	%xmm10, -48(%rbp)
	.seh_savexmm %xmm10, 80
	vmovaps	%xmm9, -64(%rbp)
	.seh_savexmm %xmm9, 64
	vmovaps	%xmm8, -80(%rbp)
	.seh_savexmm %xmm8, 48
	vmovaps	%xmm7, -96(%rbp)
	.seh_savexmm %xmm7, 32
	vmovaps	%xmm6, -112(%rbp)
	.seh_savexmm %xmm6, 16
	.seh_endprologue
	andq	$-64, %rsp
	vmovdqu	128(%rcx), %ymm5
	vmovdqu64	160(%rcx), %ymm16
	vmovdqu64	192(%rcx), %ymm17
	vmovdqu64	224(%rcx), %ymm19
	vmovdqu	128(%rdx), %ymm0
	vmovdqu	192(%rdx), %ymm3
	vpaddd	(%rcx), %ymm5, %ymm20
	vmovdqu	(%rdx), %ymm4
	vmovdqu64	32(%rdx), %ymm18
	vmovdqu	64(%rdx), %ymm2
	vmovdqu	96(%rdx), %ymm1
	vpaddd	%ymm4, %ymm20, %ymm20
	vpaddd	32(%rcx), %ymm16, %ymm21
	vpaddd	%ymm2, %ymm21, %ymm22
	vpaddd	64(%rcx), %ymm17, %ymm21
	vpaddd	96(%rcx), %ymm19, %ymm23
	vpaddd	%ymm0, %ymm21, %ymm24
	vpaddd	%ymm3, %ymm23, %ymm23
	vprold	$16, %ymm20, %ymm25
	vprold	$16, %ymm22, %ymm26
	vpxorq	(%r8), %ymm24, %ymm21
	vpxorq	(%r9), %ymm23, %ymm27
	vprold	$16, %ymm21, %ymm28
	vprold	$16, %ymm27, %ymm27
	vpaddd	.LCPI17_0(%rip){1to8}, %ymm25, %ymm29
	vpaddd	.LCPI17_1(%rip){1to8}, %ymm26, %ymm30
	vpaddd	.LCPI17_2(%rip){1to8}, %ymm28, %ymm31
	vpaddd	.LCPI17_3(%rip){1to8}, %ymm27, %ymm6
	vpxord	%ymm5, %ymm29, %ymm5
	vpxord	%ymm16, %ymm30, %ymm16
	vpxord	%ymm17, %ymm31, %ymm17
	vpxord	%ymm19, %ymm6, %ymm19
	vprold	$20, %ymm5, %ymm7
	vprold	$20, %ymm16, %ymm16
	vprold	$20, %ymm17, %ymm17
	vprold	$20, %ymm19, %ymm19
	vmovdqu64	160(%rdx), %ymm21
	vmovdqu	224(%rdx), %ymm5
	vpaddd	%ymm20, %ymm18, %ymm20
	vpaddd	%ymm7, %ymm20, %ymm20
	vpaddd	%ymm22, %ymm1, %ymm22
	vpaddd	%ymm16, %ymm22, %ymm8
	vpaddd	%ymm24, %ymm21, %ymm22
	vpaddd	%ymm17, %ymm22, %ymm24
	vpaddd	%ymm23, %ymm5, %ymm22
	vpaddd	%ymm19, %ymm22, %ymm23
	vpxorq	%ymm20, %ymm25, %ymm22
	vprold	$24, %ymm22, %ymm25
	vpxorq	%ymm8, %ymm26, %ymm22
	vprold	$24, %ymm22, %ymm26
	vpxorq	%ymm24, %ymm28, %ymm22
	vprold	$24, %ymm22, %ymm28
	vpxorq	%ymm23, %ymm27, %ymm22
	vprold	$24, %ymm22, %ymm27
	vpaddd	%ymm25, %ymm29, %ymm29
	vpaddd	%ymm26, %ymm30, %ymm30
	vpaddd	%ymm28, %ymm31, %ymm31
	vpaddd	%ymm27, %ymm6, %ymm6
	vpxord	%ymm7, %ymm29, %ymm22
	vpxord	%ymm16, %ymm30, %ymm16
	vpxord	%ymm17, %ymm31, %ymm17
	vpxord	%ymm19, %ymm6, %ymm19
	vprold	$25, %ymm22, %ymm7
	vprold	$25, %ymm16, %ymm9
	vprold	$25, %ymm17, %ymm10
	vprold	$25, %ymm19, %ymm11
	vmovdqu64	448(%rdx), %ymm19
	vmovdqu64	256(%rdx), %ymm22
	vmovdqu64	320(%rdx), %ymm17
	vmovdqu64	384(%rdx), %ymm16
	vpaddd	%ymm7, %ymm19, %ymm12
	vpaddd	%ymm12, %ymm23, %ymm12
	vpaddd	%ymm22, %ymm20, %ymm20
	vpaddd	%ymm9, %ymm20, %ymm13
	vpaddd	%ymm17, %ymm8, %ymm20
	vpaddd	%ymm10, %ymm20, %ymm8
	vpaddd	%ymm16, %ymm24, %ymm20
	vpaddd	%ymm11, %ymm20, %ymm14
	vpxorq	%ymm12, %ymm28, %ymm20
	vprold	$16, %ymm20, %ymm28
	vpxorq	%ymm13, %ymm27, %ymm20
	vprold	$16, %ymm20, %ymm27
	vpxorq	%ymm8, %ymm25, %ymm20
	vprold	$16, %ymm20, %ymm15
	vpxorq	%ymm14, %ymm26, %ymm20
	vprold	$16, %ymm20, %ymm26
	vpaddd	%ymm28, %ymm30, %ymm30
	vpaddd	%ymm27, %ymm31, %ymm31
	vpaddd	%ymm6, %ymm15, %ymm6
	vpaddd	%ymm26, %ymm29, %ymm29
	vpxord	%ymm7, %ymm30, %ymm20
	vpxord	%ymm9, %ymm31, %ymm23
	vpxord	%ymm10, %ymm6, %ymm24
	vpxord	%ymm11, %ymm29, %ymm25
	vprold	$20, %ymm20, %ymm7
	vprold	$20, %ymm23, %ymm9
	vprold	$20, %ymm24, %ymm10
	vprold	$20, %ymm25, %ymm11
	vmovdqu64	480(%rdx), %ymm24
	vmovdqu64	288(%rdx), %ymm23
	vmovdqu64	352(%rdx), %ymm25
	vmovdqu64	416(%rdx), %ymm20
	vpaddd	%ymm24, %ymm12, %ymm12
	vpaddd	%ymm7, %ymm12, %ymm12
	vpaddd	%ymm23, %ymm13, %ymm13
	vpaddd	%ymm9, %ymm13, %ymm13
	vpaddd	%ymm25, %ymm8, %ymm8
	vpaddd	%ymm10, %ymm8, %ymm8
	vpaddd	%ymm20, %ymm14, %ymm14
	vpaddd	%ymm11, %ymm14, %ymm14
	vpxorq	%ymm12, %ymm28, %ymm28
	vprold	$24, %ymm28, %ymm28
	vpxorq	%ymm13, %ymm27, %ymm27
	vprold	$24, %ymm27, %ymm27
	vpxor	%ymm8, %ymm15, %ymm15
	vprold	$24, %ymm15, %ymm15
	vpxorq	%ymm14, %ymm26, %ymm26
	vprold	$24, %ymm26, %ymm26
	vpaddd	%ymm28, %ymm30, %ymm30
	vpaddd	%ymm27, %ymm31, %ymm31
	vpaddd	%ymm6, %ymm15, %ymm6
	vpaddd	%ymm26, %ymm29, %ymm29
	vpxord	%ymm7, %ymm30, %ymm7
	vpxord	%ymm9, %ymm31, %ymm9
	vpxor	%ymm6, %ymm10, %ymm10
	vpxord	%ymm11, %ymm29, %ymm11
	vprold	$25, %ymm7, %ymm7
	vprold	$25, %ymm9, %ymm9
	vprold	$25, %ymm10, %ymm10
	vprold	$25, %ymm11, %ymm11
	vpaddd	%ymm2, %ymm13, %ymm13
	vpaddd	%ymm7, %ymm13, %ymm13
	vpaddd	%ymm1, %ymm8, %ymm8
	vpaddd	%ymm9, %ymm8, %ymm8
	vpaddd	%ymm5, %ymm14, %ymm14
	vpaddd	%ymm10, %ymm14, %ymm14
	vpaddd	%ymm0, %ymm12, %ymm12
	vpaddd	%ymm11, %ymm12, %ymm12
	vpxor	%ymm13, %ymm15, %ymm15
	vprold	$16, %ymm15, %ymm15
	vpxorq	%ymm8, %ymm26, %ymm26
	vprold	$16, %ymm26, %ymm26
	vpxorq	%ymm14, %ymm28, %ymm28
	vprold	$16, %ymm28, %ymm28
	vpxorq	%ymm12, %ymm27, %ymm27
	vprold	$16, %ymm27, %ymm27
	vpaddd	%ymm15, %ymm29, %ymm29
	vpaddd	%ymm26, %ymm30, %ymm30
	vpaddd	%ymm28, %ymm31, %ymm31
	vpaddd	%ymm27, %ymm6, %ymm6
	vpxord	%ymm7, %ymm29, %ymm7
	vpxord	%ymm9, %ymm30, %ymm9
	vpxord	%ymm10, %ymm31, %ymm10
	vpxor	%ymm6, %ymm11, %ymm11
	vprold	$20, %ymm7, %ymm7
	vprold	$20, %ymm9, %ymm9
	vprold	$20, %ymm10, %ymm10
	vprold	$20, %ymm11, %ymm11
	vpaddd	%ymm3, %ymm13, %ymm13
	vpaddd	%ymm7, %ymm13, %ymm13
	vpaddd	%ymm17, %ymm8, %ymm8
	vpaddd	%ymm9, %ymm8, %ymm8
	vpaddd	%ymm4, %ymm14, %ymm14
	vpaddd	%ymm10, %ymm14, %ymm14
	vpaddd	%ymm20, %ymm12, %ymm12
	vpaddd	%ymm11, %ymm12, %ymm12
	vpxor	%ymm13, %ymm15, %ymm15
	vprold	$24, %ymm15, %ymm15
	vpxorq	%ymm8, %ymm26, %ymm26
	vprold	$24, %ymm26, %ymm26
	vpxorq	%ymm14, %ymm28, %ymm28
	vprold	$24, %ymm28, %ymm28
	vpxorq	%ymm12, %ymm27, %ymm27
	vprold	$24, %ymm27, %ymm27
	vpaddd	%ymm15, %ymm29, %ymm29
	vpaddd	%ymm26, %ymm30, %ymm30
	vpaddd	%ymm28, %ymm31, %ymm31
	vpaddd	%ymm27, %ymm6, %ymm6
	vpxord	%ymm7, %ymm29, %ymm7
	vpxord	%ymm9, %ymm30, %ymm9
	vpxord	%ymm10, %ymm31, %ymm10
	vpxor	%ymm6, %ymm11, %ymm11
	vprold	$25, %ymm7, %ymm7
	vprold	$25, %ymm9, %ymm9
	vprold	$25, %ymm10, %ymm10
	vprold	$25, %ymm11, %ymm11
	vpaddd	%ymm24, %ymm12, %ymm12
	vpaddd	%ymm7, %ymm12, %ymm12
	vpaddd	%ymm18, %ymm13, %ymm13
	vpaddd	%ymm9, %ymm13, %ymm13
	vpaddd	%ymm16, %ymm8, %ymm8
	vpaddd	%ymm10, %ymm8, %ymm8
	vpaddd	%ymm23, %ymm14, %ymm14
	vpaddd	%ymm11, %ymm14, %ymm14
	vpxorq	%ymm12, %ymm28, %ymm28
	vprold	$16, %ymm28, %ymm28
	vpxorq	%ymm13, %ymm27, %ymm27
	vprold	$16, %ymm27, %ymm27
	vpxor	%ymm8, %ymm15, %ymm15
	vprold	$16, %ymm15, %ymm15
	vpxorq	%ymm14, %ymm26, %ymm26
	vprold	$16, %ymm26, %ymm26
	vpaddd	%ymm28, %ymm30, %ymm30
	vpaddd	%ymm27, %ymm31, %ymm31
	vpaddd	%ymm6, %ymm15, %ymm6
	vpaddd	%ymm26, %ymm29, %ymm29
	vpxord	%ymm7, %ymm30, %ymm7
	vpxord	%ymm9, %ymm31, %ymm9
	vpxor	%ymm6, %ymm10, %ymm10
	vpxord	%ymm11, %ymm29, %ymm11
	vprold	$20, %ymm7, %ymm7
	vprold	$20, %ymm9, %ymm9
	vprold	$20, %ymm10, %ymm10
	vprold	$20, %ymm11, %ymm11
	vpaddd	%ymm22, %ymm12, %ymm12
	vpaddd	%ymm7, %ymm12, %ymm12
	vpaddd	%ymm25, %ymm13, %ymm13
	vpaddd	%ymm9, %ymm13, %ymm13
	vpaddd	%ymm21, %ymm8, %ymm8
	vpaddd	%ymm10, %ymm8, %ymm8
	vpaddd	%ymm19, %ymm14, %ymm14
	vpaddd	%ymm11, %ymm14, %ymm14
	vpxorq	%ymm12, %ymm28, %ymm28
	vprold	$24, %ymm28, %ymm28
	vpxorq	%ymm13, %ymm27, %ymm27
	vprold	$24, %ymm27, %ymm27
	vpxor	%ymm8, %ymm15, %ymm15
	vprold	$24, %ymm15, %ymm15
	vpxorq	%ymm14, %ymm26, %ymm26
	vprold	$24, %ymm26, %ymm26
	vpaddd	%ymm28, %ymm30, %ymm30
	vpaddd	%ymm27, %ymm31, %ymm31
	vpaddd	%ymm6, %ymm15, %ymm6
	vpaddd	%ymm26, %ymm29, %ymm29
	vpxord	%ymm7, %ymm30, %ymm7
	vpxord	%ymm9, %ymm31, %ymm9
	vpxor	%ymm6, %ymm10, %ymm10
	vpxord	%ymm11, %ymm29, %ymm11
	vprold	$25, %ymm7, %ymm7
	vprold	$25, %ymm9, %ymm9
	vprold	$25, %ymm10, %ymm10
	vprold	$25, %ymm11, %ymm11
	vpaddd	%ymm1, %ymm13, %ymm13
	vpaddd	%ymm7, %ymm13, %ymm13
	vpaddd	%ymm17, %ymm8, %ymm8
	vpaddd	%ymm9, %ymm8, %ymm8
	vpaddd	%ymm20, %ymm14, %ymm14
	vpaddd	%ymm10, %ymm14, %ymm14
	vpaddd	%ymm5, %ymm12, %ymm12
	vpaddd	%ymm11, %ymm12, %ymm12
	vpxor	%ymm13, %ymm15, %ymm15
	vprold	$16, %ymm15, %ymm15
	vpxorq	%ymm8, %ymm26, %ymm26
	vprold	$16, %ymm26, %ymm26
	vpxorq	%ymm14, %ymm28, %ymm28
	vprold	$16, %ymm28, %ymm28
	vpxorq	%ymm12, %ymm27, %ymm27
	vprold	$16, %ymm27, %ymm27
	vpaddd	%ymm15, %ymm29, %ymm29
	vpaddd	%ymm26, %ymm30, %ymm30
	vpaddd	%ymm28, %ymm31, %ymm31
	vpaddd	%ymm27, %ymm6, %ymm6
	vpxord	%ymm7, %ymm29, %ymm7
	vpxord	%ymm9, %ymm30, %ymm9
	vpxord	%ymm10, %ymm31, %ymm10
	vpxor	%ymm6, %ymm11, %ymm11
	vprold	$20, %ymm7, %ymm7
	vprold	$20, %ymm9, %ymm9
	vprold	$20, %ymm10, %ymm10
	vprold	$20, %ymm11, %ymm11
	vpaddd	%ymm0, %ymm13, %ymm13
	vpaddd	%ymm7, %ymm13, %ymm13
	vpaddd	%ymm16, %ymm8, %ymm8
	vpaddd	%ymm9, %ymm8, %ymm8
	vpaddd	%ymm2, %ymm14, %ymm14
	vpaddd	%ymm10, %ymm14, %ymm14
	vpaddd	%ymm19, %ymm12, %ymm12
	vpaddd	%ymm11, %ymm12, %ymm12
	vpxor	%ymm13, %ymm15, %ymm15
	vprold	$24, %ymm15, %ymm15
	vpxorq	%ymm8, %ymm26, %ymm26
	vprold	$24, %ymm26, %ymm26
	vpxorq	%ymm14, %ymm28, %ymm28
	vprold	$24, %ymm28, %ymm28
	vpxorq	%ymm12, %ymm27, %ymm27
	vprold	$24, %ymm27, %ymm27
	vpaddd	%ymm15, %ymm29, %ymm29
	vpaddd	%ymm26, %ymm30, %ymm30
	vpaddd	%ymm28, %ymm31, %ymm31
	vpaddd	%ymm27, %ymm6, %ymm6
	vpxord	%ymm7, %ymm29, %ymm7
	vpxord	%ymm9, %ymm30, %ymm9
	vpxord	%ymm10, %ymm31, %ymm10
	vpxor	%ymm6, %ymm11, %ymm11
	vprold	$25, %ymm7, %ymm7
	vprold	$25, %ymm9, %ymm9
	vprold	$25, %ymm10, %ymm10
	vprold	$25, %ymm11, %ymm11
	vpaddd	%ymm22, %ymm12, %ymm12
	vpaddd	%ymm7, %ymm12, %ymm12
	vpaddd	%ymm3, %ymm13, %ymm13
	vpaddd	%ymm9, %ymm13, %ymm13
	vpaddd	%ymm23, %ymm8, %ymm8
	vpaddd	%ymm10, %ymm8, %ymm8
	vpaddd	%ymm25, %ymm14, %ymm14
	vpaddd	%ymm11, %ymm14, %ymm14
	vpxorq	%ymm12, %ymm28, %ymm28
	vprold	$16, %ymm28, %ymm28
	vpxorq	%ymm13, %ymm27, %ymm27
	vprold	$16, %ymm27, %ymm27
	vpxor	%ymm8, %ymm15, %ymm15
	vprold	$16, %ymm15, %ymm15
	vpxorq	%ymm14, %ymm26, %ymm26
	vprold	$16, %ymm26, %ymm26
	vpaddd	%ymm28, %ymm30, %ymm30
	vpaddd	%ymm27, %ymm31, %ymm31
	vpaddd	%ymm6, %ymm15, %ymm6
	vpaddd	%ymm26, %ymm29, %ymm29
	vpxord	%ymm7, %ymm30, %ymm7
	vpxord	%ymm9, %ymm31, %ymm9
	vpxor	%ymm6, %ymm10, %ymm10
	vpxord	%ymm11, %ymm29, %ymm11
	vprold	$20, %ymm7, %ymm7
	vprold	$20, %ymm9, %ymm9
	vprold	$20, %ymm10, %ymm10
	vprold	$20, %ymm11, %ymm11
	vpaddd	%ymm18, %ymm12, %ymm12
	vpaddd	%ymm7, %ymm12, %ymm12
	vpaddd	%ymm21, %ymm13, %ymm13
	vpaddd	%ymm9, %ymm13, %ymm13
	vpaddd	%ymm4, %ymm8, %ymm8
	vpaddd	%ymm10, %ymm8, %ymm8
	vpaddd	%ymm24, %ymm14, %ymm14
	vpaddd	%ymm11, %ymm14, %ymm14
	vpxorq	%ymm12, %ymm28, %ymm28
	vprold	$24, %ymm28, %ymm28
	vpxorq	%ymm13, %ymm27, %ymm27
	vprold	$24, %ymm27, %ymm27
	vpxor	%ymm8, %ymm15, %ymm15
	vprold	$24, %ymm15, %ymm15
	vpxorq	%ymm14, %ymm26, %ymm26
	vprold	$24, %ymm26, %ymm26
	vpaddd	%ymm28, %ymm30, %ymm30
	vpaddd	%ymm27, %ymm31, %ymm31
	vpaddd	%ymm6, %ymm15, %ymm6
	vpaddd	%ymm26, %ymm29, %ymm29
	vpxord	%ymm7, %ymm30, %ymm7
	vpxord	%ymm9, %ymm31, %ymm9
	vpxor	%ymm6, %ymm10, %ymm10
	vpxord	%ymm11, %ymm29, %ymm11
	vprold	$25, %ymm7, %ymm7
	vprold	$25, %ymm9, %ymm9
	vprold	$25, %ymm10, %ymm10
	vprold	$25, %ymm11, %ymm11
	vpaddd	%ymm17, %ymm13, %ymm13
	vpaddd	%ymm7, %ymm13, %ymm13
	vpaddd	%ymm16, %ymm8, %ymm8
	vpaddd	%ymm9, %ymm8, %ymm8
	vpaddd	%ymm19, %ymm14, %ymm14
	vpaddd	%ymm10, %ymm14, %ymm14
	vpaddd	%ymm20, %ymm12, %ymm12
	vpaddd	%ymm11, %ymm12, %ymm12
	vpxor	%ymm13, %ymm15, %ymm15
	vprold	$16, %ymm15, %ymm15
	vpxorq	%ymm8, %ymm26, %ymm26
	vprold	$16, %ymm26, %ymm26
	vpxorq	%ymm14, %ymm28, %ymm28
	vprold	$16, %ymm28, %ymm28
	vpxorq	%ymm12, %ymm27, %ymm27
	vprold	$16, %ymm27, %ymm27
	vpaddd	%ymm15, %ymm29, %ymm29
	vpaddd	%ymm26, %ymm30, %ymm30
	vpaddd	%ymm28, %ymm31, %ymm31
	vpaddd	%ymm27, %ymm6, %ymm6
	vpxord	%ymm7, %ymm29, %ymm7
	vpxord	%ymm9, %ymm30, %ymm9
	vpxord	%ymm10, %ymm31, %ymm10
	vpxor	%ymm6, %ymm11, %ymm11
	vprold	$20, %ymm7, %ymm7
	vprold	$20, %ymm9, %ymm9
	vprold	$20, %ymm10, %ymm10
	vprold	$20, %ymm11, %ymm11
	vpaddd	%ymm5, %ymm13, %ymm13
	vpaddd	%ymm7, %ymm13, %ymm13
	vpaddd	%ymm23, %ymm8, %ymm8
	vpaddd	%ymm9, %ymm8, %ymm8
	vpaddd	%ymm1, %ymm14, %ymm14
	vpaddd	%ymm10, %ymm14, %ymm14
	vpaddd	%ymm24, %ymm12, %ymm12
	vpaddd	%ymm11, %ymm12, %ymm12
	vpxor	%ymm13, %ymm15, %ymm15
	vprold	$24, %ymm15, %ymm15
	vpxorq	%ymm8, %ymm26, %ymm26
	vprold	$24, %ymm26, %ymm26
	vpxorq	%ymm14, %ymm28, %ymm28
	vprold	$24, %ymm28, %ymm28
	vpxorq	%ymm12, %ymm27, %ymm27
	vprold	$24, %ymm27, %ymm27
	vpaddd	%ymm15, %ymm29, %ymm29
	vpaddd	%ymm26, %ymm30, %ymm30
	vpaddd	%ymm28, %ymm31, %ymm31
	vpaddd	%ymm27, %ymm6, %ymm6
	vpxord	%ymm7, %ymm29, %ymm7
	vpxord	%ymm9, %ymm30, %ymm9
	vpxord	%ymm10, %ymm31, %ymm10
	vpxor	%ymm6, %ymm11, %ymm11
	vprold	$25, %ymm7, %ymm7
	vprold	$25, %ymm9, %ymm9
	vprold	$25, %ymm10, %ymm10
	vprold	$25, %ymm11, %ymm11
	vpaddd	%ymm18, %ymm12, %ymm12
	vpaddd	%ymm7, %ymm12, %ymm12
	vpaddd	%ymm0, %ymm13, %ymm13
	vpaddd	%ymm9, %ymm13, %ymm13
	vpaddd	%ymm25, %ymm8, %ymm8
	vpaddd	%ymm10, %ymm8, %ymm8
	vpaddd	%ymm21, %ymm14, %ymm14
	vpaddd	%ymm11, %ymm14, %ymm14
	vpxorq	%ymm12, %ymm28, %ymm28
	vprold	$16, %ymm28, %ymm28
	vpxorq	%ymm13, %ymm27, %ymm27
	vprold	$16, %ymm27, %ymm27
	vpxor	%ymm8, %ymm15, %ymm15
	vprold	$16, %ymm15, %ymm15
	vpxorq	%ymm14, %ymm26, %ymm26
	vprold	$16, %ymm26, %ymm26
	vpaddd	%ymm28, %ymm30, %ymm30
	vpaddd	%ymm27, %ymm31, %ymm31
	vpaddd	%ymm6, %ymm15, %ymm6
	vpaddd	%ymm26, %ymm29, %ymm29
	vpxord	%ymm7, %ymm30, %ymm7
	vpxord	%ymm9, %ymm31, %ymm9
	vpxor	%ymm6, %ymm10, %ymm10
	vpxord	%ymm11, %ymm29, %ymm11
	vprold	$20, %ymm7, %ymm7
	vprold	$20, %ymm9, %ymm9
	vprold	$20, %ymm10, %ymm10
	vprold	$20, %ymm11, %ymm11
	vpaddd	%ymm3, %ymm12, %ymm12
	vpaddd	%ymm7, %ymm12, %ymm12
	vpaddd	%ymm4, %ymm13, %ymm13
	vpaddd	%ymm9, %ymm13, %ymm13
	vpaddd	%ymm2, %ymm8, %ymm8
	vpaddd	%ymm10, %ymm8, %ymm8
	vpaddd	%ymm22, %ymm14, %ymm14
	vpaddd	%ymm11, %ymm14, %ymm14
	vpxorq	%ymm12, %ymm28, %ymm28
	vprold	$24, %ymm28, %ymm28
	vpxorq	%ymm13, %ymm27, %ymm27
	vprold	$24, %ymm27, %ymm27
	vpxor	%ymm8, %ymm15, %ymm15
	vprold	$24, %ymm15, %ymm15
	vpxorq	%ymm14, %ymm26, %ymm26
	vprold	$24, %ymm26, %ymm26
	vpaddd	%ymm28, %ymm30, %ymm30
	vpaddd	%ymm27, %ymm31, %ymm31
	vpaddd	%ymm6, %ymm15, %ymm6
	vpaddd	%ymm26, %ymm29, %ymm29
	vpxord	%ymm7, %ymm30, %ymm7
	vpxord	%ymm9, %ymm31, %ymm9
	vpxor	%ymm6, %ymm10, %ymm10
	vpxord	%ymm11, %ymm29, %ymm11
	vprold	$25, %ymm7, %ymm7
	vprold	$25, %ymm9, %ymm9
	vprold	$25, %ymm10, %ymm10
	vprold	$25, %ymm11, %ymm11
	vpaddd	%ymm16, %ymm13, %ymm13
	vpaddd	%ymm7, %ymm13, %ymm13
	vpaddd	%ymm23, %ymm8, %ymm8
	vpaddd	%ymm9, %ymm8, %ymm8
	vpaddd	%ymm24, %ymm14, %ymm14
	vpaddd	%ymm10, %ymm14, %ymm14
	vpaddd	%ymm19, %ymm12, %ymm12
	vpaddd	%ymm11, %ymm12, %ymm12
	vpxor	%ymm13, %ymm15, %ymm15
	vprold	$16, %ymm15, %ymm15
	vpxorq	%ymm8, %ymm26, %ymm26
	vprold	$16, %ymm26, %ymm26
	vpxorq	%ymm14, %ymm28, %ymm28
	vprold	$16, %ymm28, %ymm28
	vpxorq	%ymm12, %ymm27, %ymm27
	vprold	$16, %ymm27, %ymm27
	vpaddd	%ymm15, %ymm29, %ymm29
	vpaddd	%ymm26, %ymm30, %ymm30
	vpaddd	%ymm28, %ymm31, %ymm31
	vpaddd	%ymm27, %ymm6, %ymm6
	vpxord	%ymm7, %ymm29, %ymm7
	vpxord	%ymm9, %ymm30, %ymm9
	vpxord	%ymm10, %ymm31, %ymm10
	vpxor	%ymm6, %ymm11, %ymm11
	vprold	$20, %ymm7, %ymm7
	vprold	$20, %ymm9, %ymm9
	vprold	$20, %ymm10, %ymm10
	vprold	$20, %ymm11, %ymm11
	vpaddd	%ymm20, %ymm13, %ymm13
	vpaddd	%ymm7, %ymm13, %ymm13
	vpaddd	%ymm25, %ymm8, %ymm8
	vpaddd	%ymm9, %ymm8, %ymm8
	vpaddd	%ymm17, %ymm14, %ymm14
	vpaddd	%ymm10, %ymm14, %ymm14
	vpaddd	%ymm22, %ymm12, %ymm12
	vpaddd	%ymm11, %ymm12, %ymm12
	vpxor	%ymm13, %ymm15, %ymm15
	vprold	$24, %ymm15, %ymm15
	vpxorq	%ymm8, %ymm26, %ymm26
	vprold	$24, %ymm26, %ymm26
	vpxorq	%ymm14, %ymm28, %ymm28
	vprold	$24, %ymm28, %ymm28
	vpxorq	%ymm12, %ymm27, %ymm27
	vprold	$24, %ymm27, %ymm27
	vpaddd	%ymm15, %ymm29, %ymm29
	vpaddd	%ymm26, %ymm30, %ymm30
	vpaddd	%ymm28, %ymm31, %ymm31
	vpaddd	%ymm27, %ymm6, %ymm6
	vpxord	%ymm7, %ymm29, %ymm7
	vpxord	%ymm9, %ymm30, %ymm9
	vpxord	%ymm10, %ymm31, %ymm10
	vpxor	%ymm6, %ymm11, %ymm11
	vprold	$25, %ymm7, %ymm7
	vprold	$25, %ymm9, %ymm9
	vprold	$25, %ymm10, %ymm10
	vprold	$25, %ymm11, %ymm11
	vpaddd	%ymm3, %ymm12, %ymm12
	vpaddd	%ymm7, %ymm12, %ymm12
	vpaddd	%ymm5, %ymm13, %ymm13
	vpaddd	%ymm9, %ymm13, %ymm13
	vpaddd	%ymm21, %ymm8, %ymm8
	vpaddd	%ymm10, %ymm8, %ymm8
	vpaddd	%ymm4, %ymm14, %ymm14
	vpaddd	%ymm11, %ymm14, %ymm14
	vpxorq	%ymm12, %ymm28, %ymm28
	vprold	$16, %ymm28, %ymm28
	vpxorq	%ymm13, %ymm27, %ymm27
	vprold	$16, %ymm27, %ymm27
	vpxor	%ymm8, %ymm15, %ymm15
	vprold	$16, %ymm15, %ymm15
	vpxorq	%ymm14, %ymm26, %ymm26
	vprold	$16, %ymm26, %ymm26
	vpaddd	%ymm28, %ymm30, %ymm30
	vpaddd	%ymm27, %ymm31, %ymm31
	vpaddd	%ymm6, %ymm15, %ymm6
	vpaddd	%ymm26, %ymm29, %ymm29
	vpxord	%ymm7, %ymm30, %ymm7
	vpxord	%ymm9, %ymm31, %ymm9
	vpxor	%ymm6, %ymm10, %ymm10
	vpxord	%ymm11, %ymm29, %ymm11
	vprold	$20, %ymm7, %ymm7
	vprold	$20, %ymm9, %ymm9
	vprold	$20, %ymm10, %ymm10
	vprold	$20, %ymm11, %ymm11
	vpaddd	%ymm0, %ymm12, %ymm12
	vpaddd	%ymm7, %ymm12, %ymm12
	vpaddd	%ymm2, %ymm13, %ymm13
	vpaddd	%ymm9, %ymm13, %ymm13
	vpaddd	%ymm1, %ymm8, %ymm8
	vpaddd	%ymm10, %ymm8, %ymm8
	vpaddd	%ymm18, %ymm14, %ymm14
	vpaddd	%ymm11, %ymm14, %ymm14
	vpxorq	%ymm12, %ymm28, %ymm28
	vprold	$24, %ymm28, %ymm28
	vpxorq	%ymm13, %ymm27, %ymm27
	vprold	$24, %ymm27, %ymm27
	vpxor	%ymm8, %ymm15, %ymm15
	vprold	$24, %ymm15, %ymm15
	vpxorq	%ymm14, %ymm26, %ymm26
	vprold	$24, %ymm26, %ymm26
	vpaddd	%ymm28, %ymm30, %ymm30
	vpaddd	%ymm27, %ymm31, %ymm31
	vpaddd	%ymm6, %ymm15, %ymm6
	vpaddd	%ymm26, %ymm29, %ymm29
	vpxord	%ymm7, %ymm30, %ymm7
	vpxord	%ymm9, %ymm31, %ymm9
	vpxor	%ymm6, %ymm10, %ymm10
	vpxord	%ymm11, %ymm29, %ymm11
	vprold	$25, %ymm7, %ymm7
	vprold	$25, %ymm9, %ymm9
	vprold	$25, %ymm10, %ymm10
	vprold	$25, %ymm11, %ymm11
	vpaddd	%ymm23, %ymm13, %ymm13
	vpaddd	%ymm7, %ymm13, %ymm13
	vpaddd	%ymm25, %ymm8, %ymm8
	vpaddd	%ymm9, %ymm8, %ymm8
	vpaddd	%ymm22, %ymm14, %ymm14
	vpaddd	%ymm10, %ymm14, %ymm14
	vpaddd	%ymm24, %ymm12, %ymm12
	vpaddd	%ymm11, %ymm12, %ymm12
	vpxor	%ymm13, %ymm15, %ymm15
	vprold	$16, %ymm15, %ymm15
	vpxorq	%ymm8, %ymm26, %ymm26
	vprold	$16, %ymm26, %ymm26
	vpxorq	%ymm14, %ymm28, %ymm28
	vprold	$16, %ymm28, %ymm28
	vpxorq	%ymm12, %ymm27, %ymm27
	vprold	$16, %ymm27, %ymm27
	vpaddd	%ymm15, %ymm29, %ymm29
	vpaddd	%ymm26, %ymm30, %ymm30
	vpaddd	%ymm28, %ymm31, %ymm31
	vpaddd	%ymm27, %ymm6, %ymm6
	vpxord	%ymm7, %ymm29, %ymm7
	vpxord	%ymm9, %ymm30, %ymm9
	vpxord	%ymm10, %ymm31, %ymm10
	vpxor	%ymm6, %ymm11, %ymm11
	vprold	$20, %ymm7, %ymm7
	vprold	$20, %ymm9, %ymm9
	vprold	$20, %ymm10, %ymm10
	vprold	$20, %ymm11, %ymm11
	vpaddd	%ymm19, %ymm13, %ymm13
	vpaddd	%ymm7, %ymm13, %ymm13
	vpaddd	%ymm21, %ymm8, %ymm8
	vpaddd	%ymm9, %ymm8, %ymm8
	vpaddd	%ymm16, %ymm14, %ymm14
	vpaddd	%ymm10, %ymm14, %ymm14
	vpaddd	%ymm18, %ymm12, %ymm12
	vpaddd	%ymm11, %ymm12, %ymm12
	vpxor	%ymm13, %ymm15, %ymm15
	vprold	$24, %ymm15, %ymm15
	vpxorq	%ymm8, %ymm26, %ymm26
	vprold	$24, %ymm26, %ymm26
	vpxorq	%ymm14, %ymm28, %ymm28
	vprold	$24, %ymm28, %ymm28
	vpxorq	%ymm12, %ymm27, %ymm27
	vprold	$24, %ymm27, %ymm27
	vpaddd	%ymm15, %ymm29, %ymm29
	vpaddd	%ymm26, %ymm30, %ymm30
	vpaddd	%ymm28, %ymm31, %ymm31
	vpaddd	%ymm27, %ymm6, %ymm6
	vpxord	%ymm7, %ymm29, %ymm7
	vpxord	%ymm9, %ymm30, %ymm9
	vpxord	%ymm10, %ymm31, %ymm10
	vpxor	%ymm6, %ymm11, %ymm11
	vprold	$25, %ymm7, %ymm7
	vprold	$25, %ymm9, %ymm9
	vprold	$25, %ymm10, %ymm10
	vprold	$25, %ymm11, %ymm11
	vpaddd	%ymm0, %ymm12, %ymm12
	vpaddd	%ymm7, %ymm12, %ymm12
	vpaddd	%ymm20, %ymm13, %ymm13
	vpaddd	%ymm9, %ymm13, %ymm13
	vpaddd	%ymm4, %ymm8, %ymm8
	vpaddd	%ymm10, %ymm8, %ymm8
	vpaddd	%ymm2, %ymm14, %ymm14
	vpaddd	%ymm11, %ymm14, %ymm14
	vpxorq	%ymm12, %ymm28, %ymm28
	vprold	$16, %ymm28, %ymm28
	vpxorq	%ymm13, %ymm27, %ymm27
	vprold	$16, %ymm27, %ymm27
	vpxor	%ymm8, %ymm15, %ymm15
	vprold	$16, %ymm15, %ymm15
	vpxorq	%ymm14, %ymm26, %ymm26
	vprold	$16, %ymm26, %ymm26
	vpaddd	%ymm28, %ymm30, %ymm30
	vpaddd	%ymm27, %ymm31, %ymm31
	vpaddd	%ymm6, %ymm15, %ymm6
	vpaddd	%ymm26, %ymm29, %ymm29
	vpxord	%ymm7, %ymm30, %ymm7
	vpxord	%ymm9, %ymm31, %ymm9
	vpxor	%ymm6, %ymm10, %ymm10
	vpxord	%ymm11, %ymm29, %ymm11
	vprold	$20, %ymm7, %ymm7
	vprold	$20, %ymm9, %ymm9
	vprold	$20, %ymm10, %ymm10
	vprold	$20, %ymm11, %ymm11
	vpaddd	%ymm5, %ymm12, %ymm12
	vpaddd	%ymm7, %ymm12, %ymm12
	vpaddd	%ymm1, %ymm13, %ymm13
	vpaddd	%ymm9, %ymm13, %ymm13
	vpaddd	%ymm17, %ymm8, %ymm8
	vpaddd	%ymm10, %ymm8, %ymm8
	vpaddd	%ymm3, %ymm14, %ymm14
	vpaddd	%ymm11, %ymm14, %ymm14
	vpxorq	%ymm12, %ymm28, %ymm28
	vprold	$24, %ymm28, %ymm28
	vpxorq	%ymm13, %ymm27, %ymm27
	vprold	$24, %ymm27, %ymm27
	vpxor	%ymm8, %ymm15, %ymm15
	vprold	$24, %ymm15, %ymm15
	vpxorq	%ymm14, %ymm26, %ymm26
	vprold	$24, %ymm26, %ymm26
	vpaddd	%ymm28, %ymm30, %ymm30
	vpaddd	%ymm27, %ymm31, %ymm31
	vpaddd	%ymm6, %ymm15, %ymm6
	vpaddd	%ymm26, %ymm29, %ymm29
	vpxord	%ymm7, %ymm30, %ymm7
	vpxord	%ymm9, %ymm31, %ymm9
	vpxor	%ymm6, %ymm10, %ymm10
	vpxord	%ymm11, %ymm29, %ymm11
	vprold	$25, %ymm7, %ymm7
	vprold	$25, %ymm9, %ymm9
	vprold	$25, %ymm10, %ymm10
	vprold	$25, %ymm11, %ymm11
	vpaddd	%ymm25, %ymm13, %ymm25
	vpaddd	%ymm7, %ymm25, %ymm25
	vpaddd	%ymm21, %ymm8, %ymm21
	vpaddd	%ymm9, %ymm21, %ymm21
	vpaddd	%ymm18, %ymm14, %ymm18
	vpaddd	%ymm10, %ymm18, %ymm18
	vpaddd	%ymm22, %ymm12, %ymm22
	vpaddd	%ymm11, %ymm22, %ymm22
	vpxorq	%ymm25, %ymm15, %ymm8
	vprold	$16, %ymm8, %ymm8
	vpxorq	%ymm21, %ymm26, %ymm26
	vprold	$16, %ymm26, %ymm26
	vpxorq	%ymm18, %ymm28, %ymm28
	vprold	$16, %ymm28, %ymm28
	vpxorq	%ymm22, %ymm27, %ymm27
	vprold	$16, %ymm27, %ymm27
	vpaddd	%ymm8, %ymm29, %ymm29
	vpaddd	%ymm26, %ymm30, %ymm30
	vpaddd	%ymm28, %ymm31, %ymm31
	vpaddd	%ymm27, %ymm6, %ymm6
	vpxord	%ymm7, %ymm29, %ymm7
	vpxord	%ymm9, %ymm30, %ymm9
	vpxord	%ymm10, %ymm31, %ymm10
	vpxor	%ymm6, %ymm11, %ymm11
	vprold	$20, %ymm7, %ymm7
	vprold	$20, %ymm9, %ymm9
	vprold	$20, %ymm10, %ymm10
	vprold	$20, %ymm11, %ymm11
	vpaddd	%ymm24, %ymm25, %ymm24
	vpaddd	%ymm7, %ymm24, %ymm24
	vpaddd	%ymm4, %ymm21, %ymm4
	vpaddd	%ymm4, %ymm9, %ymm4
	vpaddd	%ymm23, %ymm18, %ymm18
	vpaddd	%ymm10, %ymm18, %ymm18
	vpaddd	%ymm3, %ymm22, %ymm3
	vpaddd	%ymm3, %ymm11, %ymm3
	vpxorq	%ymm24, %ymm8, %ymm21
	vprold	$24, %ymm21, %ymm21
	vpxorq	%ymm4, %ymm26, %ymm22
	vprold	$24, %ymm22, %ymm22
	vpxorq	%ymm18, %ymm28, %ymm23
	vprold	$24, %ymm23, %ymm23
	vpxorq	%ymm3, %ymm27, %ymm25
	vprold	$24, %ymm25, %ymm25
	vpaddd	%ymm21, %ymm29, %ymm26
	vpaddd	%ymm22, %ymm30, %ymm27
	vpaddd	%ymm23, %ymm31, %ymm28
	vpaddd	%ymm25, %ymm6, %ymm29
	vpxord	%ymm7, %ymm26, %ymm30
	vpxord	%ymm9, %ymm27, %ymm31
	vpxord	%ymm10, %ymm28, %ymm6
	vpxord	%ymm11, %ymm29, %ymm7
	vprold	$25, %ymm30, %ymm30
	vprold	$25, %ymm31, %ymm31
	vprold	$25, %ymm6, %ymm6
	vprold	$25, %ymm7, %ymm7
	vpaddd	%ymm5, %ymm3, %ymm3
	vpaddd	%ymm30, %ymm3, %ymm3
	vpaddd	%ymm19, %ymm24, %ymm5
	vpaddd	%ymm31, %ymm5, %ymm5
	vpaddd	%ymm2, %ymm4, %ymm2
	vpaddd	%ymm6, %ymm2, %ymm2
	vpaddd	%ymm1, %ymm18, %ymm1
	vpaddd	%ymm7, %ymm1, %ymm1
	vpxorq	%ymm3, %ymm23, %ymm4
	vprold	$16, %ymm4, %ymm4
	vpxorq	%ymm5, %ymm25, %ymm18
	vprold	$16, %ymm18, %ymm18
	vpxorq	%ymm2, %ymm21, %ymm19
	vprold	$16, %ymm19, %ymm19
	vpxorq	%ymm1, %ymm22, %ymm21
	vprold	$16, %ymm21, %ymm21
	vpaddd	%ymm4, %ymm27, %ymm22
	vpaddd	%ymm18, %ymm28, %ymm23
	vpaddd	%ymm19, %ymm29, %ymm24
	vpaddd	%ymm21, %ymm26, %ymm25
	vpxord	%ymm30, %ymm22, %ymm26
	vpxord	%ymm31, %ymm23, %ymm27
	vpxord	%ymm6, %ymm24, %ymm28
	vpxord	%ymm7, %ymm25, %ymm29
	vprold	$20, %ymm26, %ymm26
	vprold	$20, %ymm27, %ymm27
	vprold	$20, %ymm28, %ymm28
	vprold	$20, %ymm29, %ymm29
	vpaddd	%ymm20, %ymm3, %ymm3
	vpaddd	%ymm26, %ymm3, %ymm3
	vpaddd	%ymm17, %ymm5, %ymm5
	vpaddd	%ymm27, %ymm5, %ymm5
	vpaddd	%ymm16, %ymm2, %ymm2
	vpaddd	%ymm28, %ymm2, %ymm2
	vpaddd	%ymm0, %ymm1, %ymm0
	vpaddd	%ymm29, %ymm0, %ymm0
	vpxor	%ymm3, %ymm4, %ymm1
	vprold	$24, %ymm1, %ymm1
	vpxorq	%ymm5, %ymm18, %ymm4
	vprold	$24, %ymm4, %ymm4
	vpxorq	%ymm2, %ymm19, %ymm16
	vprold	$24, %ymm16, %ymm16
	vpxorq	%ymm0, %ymm21, %ymm17
	vprold	$24, %ymm17, %ymm17
	vpaddd	%ymm1, %ymm22, %ymm18
	vpaddd	%ymm4, %ymm23, %ymm19
	vpaddd	%ymm16, %ymm24, %ymm20
	vpaddd	%ymm17, %ymm25, %ymm21
	vpxord	%ymm26, %ymm18, %ymm22
	vpxord	%ymm27, %ymm19, %ymm23
	vpxord	%ymm28, %ymm20, %ymm24
	vpxord	%ymm29, %ymm21, %ymm25
	vprold	$25, %ymm22, %ymm22
	vprold	$25, %ymm23, %ymm23
	vprold	$25, %ymm24, %ymm24
	vprold	$25, %ymm25, %ymm25
	vpxord	%ymm5, %ymm21, %ymm5
	vpxord	%ymm2, %ymm18, %ymm2
	vpxord	%ymm0, %ymm19, %ymm0
	vpxord	%ymm3, %ymm20, %ymm3
	vpxord	%ymm16, %ymm22, %ymm16
	vpxord	%ymm17, %ymm23, %ymm17
	vpxord	%ymm1, %ymm24, %ymm1
	vpxord	%ymm4, %ymm25, %ymm4
	vmovdqu	%ymm5, (%rcx)
	vmovdqu	%ymm2, 32(%rcx)
	vmovdqu	%ymm0, 64(%rcx)
	vmovdqu	%ymm3, 96(%rcx)
	vmovdqu64	%ymm16, 128(%rcx)
	vmovdqu64	%ymm17, 160(%rcx)
	vmovdqu	%ymm1, 192(%rcx)
	vmovdqu	%ymm4, 224(%rcx)
	vmovaps	-112(%rbp), %xmm6
	vmovaps	-96(%rbp), %xmm7
	vmovaps	-80(%rbp), %xmm8
	vmovaps	-64(%rbp), %xmm9
	vmovaps	-48(%rbp), %xmm10
	vmovaps	-32(%rbp), %xmm11
	vmovaps	-16(%rbp), %xmm12
	vmovaps	(%rbp), %xmm13
	vmovaps	16(%rbp), %xmm14
	vmovaps	32(%rbp), %xmm15
	leaq	48(%rbp), %rsp
	popq	%rbp
	vzeroupper
	retq
	.seh_endproc

	.section	.rdata,"dr"
	.p2align	5, 0x0
.LCPI18_0:
	.zero	4
	.zero	4
	.long	64
	.long	18
	.zero	4
	.zero	4
	.long	64
	.long	18
.LCPI18_1:
	.long	0
	.long	4
	.long	1
	.long	5
	.long	2
	.long	6
	.long	3
	.long	7
.LCPI18_2:
	.long	0
	.long	0
	.long	64
	.long	20
	.long	0
	.long	0
	.long	64
	.long	20
.LCPI18_3:
	.long	0
	.long	0
	.long	64
	.long	20
	.section	.text
	.p2align	4
	.def	"keyed_blake3::tree::Tree::absorb_subtrees::<#8b36ca032ac25711>";
	.scl	3;
	.type	32;
	.endef
"keyed_blake3::tree::Tree::absorb_subtrees::<#8b36ca032ac25711>":
.seh_proc "keyed_blake3::tree::Tree::absorb_subtrees::<#8b36ca032ac25711>"
	pushq	%rbp
	.seh_pushreg %rbp
	pushq	%r15
	.seh_pushreg %r15
	pushq	%r14
	.seh_pushreg %r14
	pushq	%r13
	.seh_pushreg %r13
	pushq	%r12
	.seh_pushreg %r12
	pushq	%rsi
	.seh_pushreg %rsi
	pushq	%rdi
	.seh_pushreg %rdi
	pushq	%rbx
	.seh_pushreg %rbx
	subq	$1112, %rsp
	.seh_stackalloc 1112
	leaq	128(%rsp), %rbp
	.seh_setframe %rbp, 128
	vmovdqa	%xmm8, 960(%rbp)
	.seh_savexmm %xmm8, 1088
	vmovdqa	%xmm7, 944(%rbp)
	.seh_savexmm %xmm7, 1072
	vmovdqa	%xmm6, 928(%rbp)
	.seh_savexmm %xmm6, 1056
	.seh_endprologue
	andq	$-32, %rsp
	movq	%r8, %rbx
	movq	%rdx, %r15
	vxorps	%xmm2, %xmm2, %xmm2
	vmovups	%ymm2, 336(%rsp)
	vmovups	%ymm2, 304(%rsp)
	vmovups	%ymm2, 272(%rsp)
	vmovups	%ymm2, 240(%rsp)
	vmovups	%ymm2, 512(%rsp)
	movq	1088(%rbp), %rax
	vmovups	(%rcx), %xmm0
	vmovups	16(%rcx), %xmm1
	cmpq	$2048, %rax
	movq	%rcx, 376(%rsp)
	jne	.LBB18_4
	movq	%rbx, 152(%rsp)
	movq	%r9, %rdi
	leaq	1024(%r9), %rbx
	leaq	1(%r15), %rsi
	vinsertf128	$1, %xmm0, %ymm0, %ymm0
	vinsertf128	$1, %xmm1, %ymm1, %ymm1
	vmovq	%r15, %xmm2
	movl	$64, %eax
	vmovdqa	%ymm2, 544(%rsp)
	vpinsrd	$2, %eax, %xmm2, %xmm7
	vmovq	%rsi, %xmm6
	vpinsrd	$2, %eax, %xmm6, %xmm8
	xorl	%r14d, %r14d
	.p2align	4
.LBB18_2:
	cmpq	$1, %r14
	movl	$0, %eax
	adcl	$16, %eax
	vmovups	-1024(%rbx,%r14), %ymm2
	vmovups	-992(%rbx,%r14), %ymm3
	vmovups	%ymm2, 384(%rsp)
	vmovups	%ymm3, 416(%rsp)
	movq	%r15, 448(%rsp)
	movl	$64, 456(%rsp)
	movl	%eax, 460(%rsp)
	vmovups	(%rbx,%r14), %ymm2
	vmovups	32(%rbx,%r14), %ymm3
	vmovups	%ymm2, 160(%rsp)
	vmovups	%ymm3, 192(%rsp)
	movq	%rsi, 224(%rsp)
	movl	$64, 232(%rsp)
	movl	%eax, 236(%rsp)
	vpinsrd	$3, %eax, %xmm7, %xmm2
	vpinsrd	$3, %eax, %xmm8, %xmm3
	vmovdqa	%xmm3, 624(%rsp)
	vmovdqa	%xmm2, 608(%rsp)
	vmovaps	%ymm1, 992(%rsp)
	vmovaps	%ymm0, 1024(%rsp)
	leaq	160(%rsp), %r12
	movq	%r12, 40(%rsp)
	leaq	384(%rsp), %r13
	movq	%r13, 32(%rsp)
	leaq	64(%rsp), %rcx
	leaq	1024(%rsp), %rdx
	leaq	992(%rsp), %r8
	leaq	608(%rsp), %r9
	vzeroupper
	callq	"keyed_blake3::compression::two::compress_two_from"
	vmovups	64(%rsp), %ymm0
	vmovups	96(%rsp), %ymm1
	addq	$64, %r14
	cmpq	$960, %r14
	jne	.LBB18_2
	vmovups	960(%rdi), %ymm2
	vmovups	992(%rdi), %ymm3
	vmovaps	%ymm2, 384(%rsp)
	vmovaps	%ymm3, 416(%rsp)
	movq	%r15, 448(%rsp)
	movabsq	$77309411392, %rax
	movq	%rax, 456(%rsp)
	vmovups	1984(%rdi), %ymm2
	vmovups	2016(%rdi), %ymm3
	vmovaps	%ymm2, 160(%rsp)
	vmovaps	%ymm3, 192(%rsp)
	movq	%rsi, 224(%rsp)
	movq	%rax, 232(%rsp)
	vmovdqa	544(%rsp), %ymm2
	vinserti128	$1, %xmm6, %ymm2, %ymm2
	vpblendd	$204, .LCPI18_0(%rip), %ymm2, %ymm2
	vmovaps	%ymm1, 928(%rsp)
	vmovaps	%ymm0, 960(%rsp)
	vmovdqa	%ymm2, 896(%rsp)
	movq	%r12, 40(%rsp)
	movq	%r13, 32(%rsp)
	leaq	64(%rsp), %rcx
	leaq	960(%rsp), %rdx
	leaq	928(%rsp), %r8
	leaq	896(%rsp), %r9
	vzeroupper
	callq	"keyed_blake3::compression::two::compress_two_from"
	vmovdqa	.LCPI18_1(%rip), %ymm1
	vpermd	96(%rsp), %ymm1, %ymm0
	vpermd	64(%rsp), %ymm1, %ymm1
	xorl	%esi, %esi
	xorl	%r10d, %r10d
	xorl	%r9d, %r9d
	xorl	%r8d, %r8d
	xorl	%edx, %edx
	xorl	%ecx, %ecx
	xorl	%eax, %eax
	xorl	%r11d, %r11d
	movq	376(%rsp), %r13
	movq	152(%rsp), %rbx
	jmp	.LBB18_5
.LBB18_4:
	movq	%rcx, %r13
	vmovups	%ymm2, 480(%rsp)
	vmovups	%ymm2, 448(%rsp)
	vmovups	%ymm2, 416(%rsp)
	vmovups	%ymm2, 384(%rsp)
	shrq	$10, %rax
	xorl	%ecx, %ecx
	decq	%rax
	setne	%cl
	cmpq	$2, %rax
	movl	$2, %edx
	cmovbq	%rax, %rdx
	movl	$3, %r8d
	cmovbeq	%rax, %r8
	movq	$0, 160(%rsp)
	movq	%rcx, 168(%rsp)
	movq	%rdx, 176(%rsp)
	movq	%r8, 184(%rsp)
	vmovaps	%xmm1, 576(%rsp)
	vmovaps	%xmm0, 592(%rsp)
	movq	%r15, 40(%rsp)
	leaq	160(%rsp), %rax
	movq	%rax, 32(%rsp)
	leaq	384(%rsp), %rcx
	leaq	592(%rsp), %rdx
	leaq	576(%rsp), %r8
	vzeroupper
	callq	"keyed_blake3::four_chunks::four_chunk_values"
	movq	392(%rsp), %rsi
	movq	408(%rsp), %r10
	movq	424(%rsp), %r9
	movq	440(%rsp), %r8
	movq	456(%rsp), %rdx
	movq	472(%rsp), %rcx
	movq	488(%rsp), %rax
	vmovdqu	448(%rsp), %ymm0
	vpunpcklqdq	480(%rsp), %ymm0, %ymm0
	vmovdqu	384(%rsp), %ymm1
	vpermq	$216, %ymm0, %ymm0
	vpbroadcastq	496(%rsp), %ymm2
	vpblendd	$192, %ymm2, %ymm0, %ymm0
	vpunpcklqdq	416(%rsp), %ymm1, %ymm1
	vpermq	$216, %ymm1, %ymm1
	movq	504(%rsp), %r11
.LBB18_5:
	vmovq	%xmm1, 240(%rsp)
	movq	%rsi, 248(%rsp)
	vpextrq	$1, %xmm1, 256(%rsp)
	movq	%r10, 264(%rsp)
	vextracti128	$1, %ymm1, %xmm2
	vmovq	%xmm2, 272(%rsp)
	movq	%r9, 280(%rsp)
	vpextrq	$1, %xmm2, 288(%rsp)
	movq	%r8, 296(%rsp)
	vmovq	%xmm0, 304(%rsp)
	movq	%rdx, 312(%rsp)
	vpextrq	$1, %xmm0, 320(%rsp)
	movq	%rcx, 328(%rsp)
	vextracti128	$1, %ymm0, %xmm2
	vmovq	%xmm2, 336(%rsp)
	movq	%rax, 344(%rsp)
	vpextrq	$1, %xmm2, 352(%rsp)
	movq	%r11, 360(%rsp)
	cmpq	$3, %rbx
	jb	.LBB18_15
	movl	%ebx, %edi
	orl	%r15d, %edi
	andl	$1, %edi
	jne	.LBB18_15
	vbroadcastf128	(%r13), %ymm3
	vbroadcastf128	16(%r13), %ymm4
	movl	%esi, 160(%rsp)
	shrq	$32, %rsi
	movl	%r10d, 164(%rsp)
	movl	%r9d, 168(%rsp)
	movl	%r8d, 172(%rsp)
	movl	%edx, 176(%rsp)
	movl	%ecx, 180(%rsp)
	movl	%eax, 184(%rsp)
	movl	%r11d, 188(%rsp)
	movl	%esi, 192(%rsp)
	shrq	$32, %r10
	movl	%r10d, 196(%rsp)
	shrq	$32, %r9
	movl	%r9d, 200(%rsp)
	shrq	$32, %r8
	movl	%r8d, 204(%rsp)
	shrq	$32, %rdx
	movl	%edx, 208(%rsp)
	shrq	$32, %rcx
	movl	%ecx, 212(%rsp)
	shrq	$32, %rax
	movl	%eax, 216(%rsp)
	shrq	$32, %r11
	vshufps	$136, %ymm0, %ymm1, %ymm2
	vpermpd	$216, %ymm2, %ymm2
	vshufps	$221, %ymm0, %ymm1, %ymm0
	vpermpd	$216, %ymm0, %ymm0
	vmovups	%ymm0, 416(%rsp)
	vmovups	%ymm2, 384(%rsp)
	movq	$0, 448(%rsp)
	movl	%r11d, 220(%rsp)
	movabsq	$85899345984, %rax
	movq	%rax, 456(%rsp)
	movq	$0, 224(%rsp)
	movq	%rax, 232(%rsp)
	vmovaps	%ymm4, 640(%rsp)
	vmovaps	%ymm4, 832(%rsp)
	vmovaps	%ymm3, 672(%rsp)
	vmovaps	%ymm3, 864(%rsp)
	vbroadcastf128	.LCPI18_3(%rip), %ymm0
	vmovaps	%ymm0, 800(%rsp)
	leaq	160(%rsp), %rax
	movq	%rax, 40(%rsp)
	leaq	384(%rsp), %rax
	movq	%rax, 32(%rsp)
	leaq	64(%rsp), %rcx
	leaq	864(%rsp), %rdx
	leaq	832(%rsp), %r8
	leaq	800(%rsp), %r9
	vzeroupper
	callq	"keyed_blake3::compression::two::compress_two_from"
	movl	76(%rsp), %eax
	movl	%eax, 140(%rsp)
	movl	72(%rsp), %eax
	movl	%eax, 136(%rsp)
	movl	64(%rsp), %eax
	movl	%eax, 152(%rsp)
	movl	68(%rsp), %r8d
	movl	108(%rsp), %r14d
	movl	104(%rsp), %r10d
	movl	100(%rsp), %r13d
	movl	96(%rsp), %eax
	movl	%eax, 544(%rsp)
	movl	92(%rsp), %esi
	movl	88(%rsp), %eax
	movl	%eax, 148(%rsp)
	movl	84(%rsp), %eax
	movl	%eax, 144(%rsp)
	movq	%r15, %rdi
	shrq	%rdi
	movq	%rbx, %r12
	shrq	%r12
	movl	80(%rsp), %eax
	movl	124(%rsp), %r9d
	movl	120(%rsp), %r11d
	movl	116(%rsp), %ecx
	movl	112(%rsp), %edx
	cmpq	$5, %rbx
	jb	.LBB18_8
	orl	%ebx, %r15d
	andl	$2, %r15d
	jne	.LBB18_8
	vmovaps	64(%rsp), %xmm1
	vmovaps	80(%rsp), %xmm0
	vinsertf128	$1, 112(%rsp), %ymm0, %ymm0
	vinsertf128	$1, 96(%rsp), %ymm1, %ymm1
	movq	%rdi, %r15
	movq	%r12, %r14
	.p2align	4
.LBB18_11:
	movq	$0, 448(%rsp)
	movabsq	$85899345984, %rax
	movq	%rax, 456(%rsp)
	vxorps	%xmm2, %xmm2, %xmm2
	vmovaps	%ymm2, 160(%rsp)
	vmovaps	%ymm2, 192(%rsp)
	movq	$0, 224(%rsp)
	movq	%rax, 232(%rsp)
	vmovups	%ymm1, 384(%rsp)
	vmovups	%ymm0, 416(%rsp)
	vmovaps	640(%rsp), %ymm0
	vmovaps	%ymm0, 736(%rsp)
	vmovaps	672(%rsp), %ymm0
	vmovaps	%ymm0, 768(%rsp)
	vbroadcastf128	.LCPI18_3(%rip), %ymm0
	vmovaps	%ymm0, 704(%rsp)
	leaq	160(%rsp), %rax
	movq	%rax, 40(%rsp)
	leaq	384(%rsp), %rax
	movq	%rax, 32(%rsp)
	leaq	64(%rsp), %rcx
	leaq	768(%rsp), %rdx
	leaq	736(%rsp), %r8
	leaq	704(%rsp), %r9
	vzeroupper
	callq	"keyed_blake3::compression::two::compress_two_from"
	movl	76(%rsp), %r9d
	movl	72(%rsp), %r8d
	movl	64(%rsp), %eax
	movl	%eax, 152(%rsp)
	movl	68(%rsp), %ebx
	movl	92(%rsp), %esi
	movl	88(%rsp), %eax
	movl	%eax, 148(%rsp)
	movl	84(%rsp), %eax
	movl	%eax, 144(%rsp)
	movl	80(%rsp), %eax
	movl	108(%rsp), %ecx
	movl	%ecx, 60(%rsp)
	movl	104(%rsp), %r10d
	movl	100(%rsp), %r13d
	movl	96(%rsp), %ecx
	movl	%ecx, 544(%rsp)
	movl	124(%rsp), %ecx
	movl	%ecx, 56(%rsp)
	shrq	%r15
	shrq	%r14
	movl	120(%rsp), %r11d
	movl	116(%rsp), %ecx
	movl	112(%rsp), %edx
	cmpq	$5, %r12
	jb	.LBB18_14
	andl	$2, %r12d
	jne	.LBB18_14
	vmovups	64(%rsp), %ymm0
	vinsertf128	$1, 96(%rsp), %ymm0, %ymm1
	vmovups	80(%rsp), %ymm0
	vinsertf128	$1, 112(%rsp), %ymm0, %ymm0
	movq	%r14, %r12
	andl	$2, %edi
	movq	%r15, %rdi
	je	.LBB18_11
	jmp	.LBB18_14
.LBB18_8:
	movl	%r9d, 56(%rsp)
	movl	%r8d, %ebx
	movl	136(%rsp), %r8d
	movl	%r14d, 60(%rsp)
	movl	140(%rsp), %r9d
	movq	%rdi, %r15
	movq	%r12, %r14
.LBB18_14:
	movl	152(%rsp), %edi
	movl	%edi, 240(%rsp)
	movl	%eax, 244(%rsp)
	movq	$0, 248(%rsp)
	movl	%ebx, 256(%rsp)
	movl	144(%rsp), %eax
	movl	%eax, 260(%rsp)
	movq	$0, 264(%rsp)
	movl	%r8d, 272(%rsp)
	movl	148(%rsp), %eax
	movl	%eax, 276(%rsp)
	movq	$0, 280(%rsp)
	movl	%r9d, 288(%rsp)
	movl	%esi, 292(%rsp)
	movq	$0, 296(%rsp)
	movl	544(%rsp), %eax
	movl	%eax, 304(%rsp)
	movl	%edx, 308(%rsp)
	movq	$0, 312(%rsp)
	movl	%r13d, 320(%rsp)
	movl	%ecx, 324(%rsp)
	movq	$0, 328(%rsp)
	movl	%r10d, 336(%rsp)
	movl	%r11d, 340(%rsp)
	movq	$0, 344(%rsp)
	movl	60(%rsp), %eax
	movl	%eax, 352(%rsp)
	movl	56(%rsp), %eax
	movl	%eax, 356(%rsp)
	movq	$0, 360(%rsp)
	movq	376(%rsp), %r13
	movq	%r14, %rbx
.LBB18_15:
	movq	%rbx, %rsi
	movq	%rbx, %rdi
	decq	%rdi
	je	.LBB18_18
	leaq	64(%r13), %r14
	xorl	%ebx, %ebx
	.p2align	4
.LBB18_17:
	movl	240(%rsp,%rbx,4), %eax
	movl	256(%rsp,%rbx,4), %ecx
	movl	272(%rsp,%rbx,4), %edx
	movl	288(%rsp,%rbx,4), %r8d
	movl	304(%rsp,%rbx,4), %r9d
	movl	320(%rsp,%rbx,4), %r10d
	movl	336(%rsp,%rbx,4), %r11d
	movl	352(%rsp,%rbx,4), %r12d
	movl	%eax, 384(%rsp)
	movl	%ecx, 388(%rsp)
	movl	%edx, 392(%rsp)
	movl	%r8d, 396(%rsp)
	movl	%r9d, 400(%rsp)
	movl	%r10d, 404(%rsp)
	movl	%r11d, 408(%rsp)
	movl	%r12d, 412(%rsp)
	leaq	(%r15,%rbx), %r8
	movq	$0, 32(%rsp)
	leaq	384(%rsp), %r9
	movq	%r14, %rcx
	movq	%r13, %rdx
	vzeroupper
	callq	"keyed_blake3::tree::add_subtree_value"
	incq	%rbx
	cmpq	%rbx, %rdi
	jne	.LBB18_17
.LBB18_18:
	movl	236(%rsp,%rsi,4), %eax
	movl	252(%rsp,%rsi,4), %ecx
	movl	268(%rsp,%rsi,4), %edx
	movl	284(%rsp,%rsi,4), %r8d
	movl	300(%rsp,%rsi,4), %r9d
	movl	316(%rsp,%rsi,4), %r10d
	movl	332(%rsp,%rsi,4), %r11d
	movl	348(%rsp,%rsi,4), %ebx
	movl	%eax, 512(%rsp)
	movl	%ecx, 516(%rsp)
	movl	%edx, 520(%rsp)
	movl	%r8d, 524(%rsp)
	movl	%r9d, 528(%rsp)
	movl	%r10d, 532(%rsp)
	movl	%r11d, 536(%rsp)
	movl	%ebx, 540(%rsp)
	addq	%rdi, %r15
	leaq	64(%r13), %rcx
	movq	1096(%rbp), %rax
	movq	%rax, 32(%rsp)
	leaq	512(%rsp), %r9
	movq	%r13, %rdx
	movq	%r15, %r8
	vzeroupper
	callq	"keyed_blake3::tree::add_subtree_value"
	vmovaps	928(%rbp), %xmm6
	vmovaps	944(%rbp), %xmm7
	vmovaps	960(%rbp), %xmm8
	leaq	984(%rbp), %rsp
	popq	%rbx
	popq	%rdi
	popq	%rsi
	popq	%r12
	popq	%r13
	popq	%r14
	popq	%r15
	popq	%rbp
	retq
	.seh_endproc

	.section	.text
	.p2align	4
	.def	"keyed_blake3::hasher::Hasher::finalize";
	.scl	3;
	.type	32;
	.endef
"keyed_blake3::hasher::Hasher::finalize":
.seh_proc "keyed_blake3::hasher::Hasher::finalize"
	pushq	%r15
	.seh_pushreg %r15
	pushq	%r14
	.seh_pushreg %r14
	pushq	%rsi
	.seh_pushreg %rsi
	pushq	%rdi
	.seh_pushreg %rdi
	pushq	%rbp
	.seh_pushreg %rbp
	pushq	%rbx
	.seh_pushreg %rbx
	subq	$296, %rsp
	.seh_stackalloc 296
	vmovaps	%xmm7, 272(%rsp)
	.seh_savexmm %xmm7, 272
	vmovaps	%xmm6, 256(%rsp)
	.seh_savexmm %xmm6, 256
	.seh_endprologue
	movq	%rdx, %rdi
	movq	%rcx, %rsi
	movq	1856(%rdx), %rbx
	cmpq	$1025, %rbx
	setb	%al
	testl	$1023, %ebx
	setne	%cl
	orb	%al, %cl
	jne	.LBB19_2
	shrq	$10, %rbx
	xorl	%eax, %eax
	popcntq	%rbx, %rax
	cmpl	$3, %eax
	movl	$2, %ebx
	cmovael	%eax, %ebx
	decq	%rbx
	movq	%rbx, %rax
	shlq	$5, %rax
	vmovdqu	64(%rdi,%rax), %ymm0
	jmp	.LBB19_8
.LBB19_2:
	cmpq	$1, %rbx
	movq	%rbx, %rax
	adcq	$-1, %rax
	movq	%rax, %r15
	shrq	$10, %r15
	movq	%rax, %rcx
	andq	$-64, %rcx
	subq	%rcx, %rbx
	leaq	1792(%rdi), %rdx
	xorl	%ecx, %ecx
	testq	%r15, %r15
	sete	%cl
	vxorps	%xmm0, %xmm0, %xmm0
	vmovups	%ymm0, 64(%rsp)
	xorl	%r8d, %r8d
	testl	$960, %eax
	sete	%r8b
	leal	(%r8,%rcx,8), %ebp
	addl	$18, %ebp
	cmpq	$64, %rbx
	jne	.LBB19_4
	vmovups	(%rdx), %ymm0
	vmovups	32(%rdx), %ymm1
	vmovups	%ymm1, 128(%rsp)
	vmovups	%ymm0, 96(%rsp)
	vmovups	32(%rdi), %xmm0
	vmovups	48(%rdi), %xmm1
	vmovaps	%xmm1, 192(%rsp)
	vmovaps	%xmm0, 208(%rsp)
	movl	%ebp, 48(%rsp)
	movq	%r15, 32(%rsp)
	movl	$64, 40(%rsp)
	leaq	64(%rsp), %rcx
	leaq	208(%rsp), %rdx
	leaq	192(%rsp), %r8
	leaq	96(%rsp), %r9
	jmp	.LBB19_5
.LBB19_4:
	vmovups	%ymm0, 128(%rsp)
	vmovups	%ymm0, 96(%rsp)
	leaq	96(%rsp), %r14
	movq	%r14, %rcx
	movq	%rbx, %r8
	vzeroupper
	callq	memcpy
	vmovups	32(%rdi), %xmm0
	vmovups	48(%rdi), %xmm1
	vmovaps	%xmm1, 224(%rsp)
	vmovaps	%xmm0, 240(%rsp)
	movl	%ebp, 48(%rsp)
	movl	%ebx, 40(%rsp)
	movq	%r15, 32(%rsp)
	leaq	64(%rsp), %rcx
	leaq	240(%rsp), %rdx
	leaq	224(%rsp), %r8
	movq	%r14, %r9
.LBB19_5:
	vzeroupper
	callq	"keyed_blake3::compression::compress"
	movl	68(%rsp), %eax
	vmovq	72(%rsp), %xmm0
	vmovdqa	80(%rsp), %xmm1
	vmovdqa	64(%rsp), %xmm2
	vpinsrd	$1, %eax, %xmm2, %xmm2
	testq	%r15, %r15
	je	.LBB19_6
	vpblendd	$240, 64(%rsp), %ymm2, %ymm2
	xorl	%ebx, %ebx
	popcntq	%r15, %rbx
	vinserti128	$1, %xmm1, %ymm2, %ymm1
	vpbroadcastq	%xmm0, %xmm0
	vpblendd	$12, %ymm0, %ymm1, %ymm0
.LBB19_8:
	vmovups	(%rdi), %xmm6
	vmovups	16(%rdi), %xmm7
	movq	%rbx, %rax
	shlq	$5, %rax
	addq	%rax, %rdi
	addq	$32, %rdi
	.p2align	4
.LBB19_9:
	xorl	%eax, %eax
	cmpq	$1, %rbx
	vmovdqu	(%rdi), %ymm1
	vmovdqu	%ymm1, 96(%rsp)
	sete	%al
	leal	20(,%rax,8), %eax
	vmovdqu	%ymm0, 128(%rsp)
	vmovaps	%xmm7, 160(%rsp)
	vmovaps	%xmm6, 176(%rsp)
	movl	%eax, 48(%rsp)
	movl	$64, 40(%rsp)
	movq	$0, 32(%rsp)
	leaq	64(%rsp), %rcx
	leaq	176(%rsp), %rdx
	leaq	160(%rsp), %r8
	leaq	96(%rsp), %r9
	vzeroupper
	callq	"keyed_blake3::compression::compress"
	addq	$-32, %rdi
	vmovdqu	64(%rsp), %ymm0
	decq	%rbx
	jne	.LBB19_9
.LBB19_10:
	vmovdqu	%ymm0, (%rsi)
	vmovaps	256(%rsp), %xmm6
	vmovaps	272(%rsp), %xmm7
	addq	$296, %rsp
	popq	%rbx
	popq	%rbp
	popq	%rdi
	popq	%rsi
	popq	%r14
	popq	%r15
	vzeroupper
	retq
.LBB19_6:
	vpunpcklqdq	%xmm0, %xmm2, %xmm0
	vinserti128	$1, %xmm1, %ymm0, %ymm0
	jmp	.LBB19_10
	.seh_endproc

	.section	.text
	.p2align	4
	.def	"xet_roots::groups::parent_hashes";
	.scl	3;
	.type	32;
	.endef
"xet_roots::groups::parent_hashes":
.seh_proc "xet_roots::groups::parent_hashes"
	pushq	%r15
	.seh_pushreg %r15
	pushq	%r14
	.seh_pushreg %r14
	pushq	%r13
	.seh_pushreg %r13
	pushq	%r12
	.seh_pushreg %r12
	pushq	%rsi
	.seh_pushreg %rsi
	pushq	%rdi
	.seh_pushreg %rdi
	pushq	%rbp
	.seh_pushreg %rbp
	pushq	%rbx
	.seh_pushreg %rbx
	movl	$20664, %eax
	callq	yurewha_stack_probe
	subq	%rax, %rsp
	.seh_stackalloc 20664
	.seh_endprologue
	movq	%r8, %rbx
	movq	%rdx, %rdi
	movq	%rcx, 168(%rsp)
	leaq	952(%rsp), %rcx
	movl	$640, %r8d
	xorl	%edx, %edx
	callq	memset
	vxorps	%xmm0, %xmm0, %xmm0
	vmovups	%ymm0, 80(%rsp)
	vmovups	%ymm0, 112(%rsp)
	vmovups	%ymm0, 128(%rsp)
	testq	%rbx, %rbx
	je	.LBB24_1
	movl	%ebx, %eax
	andl	$3, %eax
	cmpq	$4, %rbx
	jae	.LBB24_4
	xorl	%ecx, %ecx
	jmp	.LBB24_7
.LBB24_1:
	movq	$0, 64(%rsp)
	movq	$0, 56(%rsp)
	movq	$0, 48(%rsp)
	movq	$0, 40(%rsp)
	movq	$0, 72(%rsp)
	xorl	%r15d, %r15d
	xorl	%r12d, %r12d
	xorl	%r13d, %r13d
	xorl	%ebp, %ebp
	xorl	%esi, %esi
	jmp	.LBB24_10
.LBB24_4:
	andq	$-4, %rbx
	leaq	56(%rdi), %rdx
	xorl	%ecx, %ecx
	.p2align	4
.LBB24_5:
	movq	-48(%rdx), %r8
	movq	80(%rsp,%r8,8), %r9
	movq	%r8, %r10
	shlq	$6, %r10
	addq	%rsp, %r10
	addq	$952, %r10
	movb	%cl, (%r9,%r10)
	incq	%r9
	movq	%r9, 80(%rsp,%r8,8)
	movq	-32(%rdx), %r8
	movq	80(%rsp,%r8,8), %r9
	movq	%r8, %r10
	shlq	$6, %r10
	addq	%rsp, %r10
	addq	$952, %r10
	leal	1(%rcx), %r11d
	movb	%r11b, (%r9,%r10)
	incq	%r9
	movq	%r9, 80(%rsp,%r8,8)
	movq	-16(%rdx), %r8
	movq	80(%rsp,%r8,8), %r9
	movq	%r8, %r10
	shlq	$6, %r10
	addq	%rsp, %r10
	addq	$952, %r10
	leal	2(%rcx), %r11d
	movb	%r11b, (%r9,%r10)
	incq	%r9
	movq	%r9, 80(%rsp,%r8,8)
	movq	(%rdx), %r8
	movq	80(%rsp,%r8,8), %r9
	movq	%r8, %r10
	shlq	$6, %r10
	addq	%rsp, %r10
	addq	$952, %r10
	leal	3(%rcx), %r11d
	movb	%r11b, (%r9,%r10)
	incq	%r9
	movq	%r9, 80(%rsp,%r8,8)
	addq	$4, %rcx
	addq	$64, %rdx
	cmpq	%rbx, %rcx
	jne	.LBB24_5
	testq	%rax, %rax
	je	.LBB24_9
.LBB24_7:
	movq	%rcx, %rdx
	shlq	$4, %rdx
	addq	%rdi, %rdx
	addq	$8, %rdx
	shll	$4, %eax
	xorl	%r8d, %r8d
	.p2align	4
.LBB24_8:
	movq	(%rdx,%r8), %r9
	movq	80(%rsp,%r9,8), %r10
	movq	%r9, %r11
	shlq	$6, %r11
	addq	%rsp, %r11
	addq	$952, %r11
	movb	%cl, (%r10,%r11)
	incq	%r10
	movq	%r10, 80(%rsp,%r9,8)
	incb	%cl
	addq	$16, %r8
	cmpq	%r8, %rax
	jne	.LBB24_8
.LBB24_9:
	movq	80(%rsp), %rsi
	movq	88(%rsp), %rbp
	movq	96(%rsp), %r13
	movq	104(%rsp), %r12
	movq	112(%rsp), %r15
	movq	120(%rsp), %rax
	movq	%rax, 72(%rsp)
	movq	128(%rsp), %rax
	movq	%rax, 40(%rsp)
	movq	136(%rsp), %rax
	movq	%rax, 48(%rsp)
	movq	144(%rsp), %rax
	movq	%rax, 56(%rsp)
	movq	152(%rsp), %rax
	movq	%rax, 64(%rsp)
.LBB24_10:
	leaq	3640(%rsp), %rbx
	leaq	952(%rsp), %rdx
	movl	$640, %r8d
	movq	%rbx, %rcx
	vzeroupper
	callq	memcpy
	leaq	312(%rsp), %rcx
	movl	$640, %r8d
	movq	%rbx, %rdx
	callq	memcpy
	xorl	%r14d, %r14d
	leaq	1592(%rsp), %rcx
	movl	$2048, %r8d
	xorl	%edx, %edx
	callq	memset
	leaq	4280(%rsp), %rcx
	movl	$16384, %r8d
	xorl	%edx, %edx
	callq	memset
	vxorps	%xmm0, %xmm0, %xmm0
	vmovups	%ymm0, 176(%rsp)
	vmovups	%ymm0, 208(%rsp)
	vmovups	%ymm0, 240(%rsp)
	vmovups	%ymm0, 272(%rsp)
	testq	%rsi, %rsi
	je	.LBB24_15
	xorl	%r14d, %r14d
	xorl	%ebx, %ebx
	jmp	.LBB24_12
	.p2align	4
.LBB24_14:
	incq	%rbx
	cmpq	%rbx, %rsi
	je	.LBB24_15
.LBB24_12:
	movzbl	312(%rsp,%rbx), %eax
	movq	%rax, 176(%rsp,%r14,8)
	incq	%r14
	cmpq	$16, %r14
	jne	.LBB24_14
	leaq	1592(%rsp), %rax
	movq	%rax, 32(%rsp)
	leaq	176(%rsp), %rdx
	leaq	4280(%rsp), %r9
	movl	$16, %r8d
	movq	%rdi, %rcx
	vzeroupper
	callq	"xet_roots::groups::hash_at"
	xorl	%r14d, %r14d
	jmp	.LBB24_14
.LBB24_15:
	testq	%rbp, %rbp
	je	.LBB24_20
	xorl	%esi, %esi
	jmp	.LBB24_17
	.p2align	4
.LBB24_19:
	incq	%rsi
	cmpq	%rsi, %rbp
	je	.LBB24_20
.LBB24_17:
	movzbl	376(%rsp,%rsi), %eax
	movq	%rax, 176(%rsp,%r14,8)
	incq	%r14
	cmpq	$16, %r14
	jne	.LBB24_19
	leaq	1592(%rsp), %rax
	movq	%rax, 32(%rsp)
	leaq	176(%rsp), %rdx
	leaq	4280(%rsp), %r9
	movl	$16, %r8d
	movq	%rdi, %rcx
	vzeroupper
	callq	"xet_roots::groups::hash_at"
	xorl	%r14d, %r14d
	jmp	.LBB24_19
.LBB24_20:
	testq	%r13, %r13
	je	.LBB24_21
	xorl	%esi, %esi
	leaq	1592(%rsp), %rbp
	jmp	.LBB24_23
	.p2align	4
.LBB24_25:
	incq	%rsi
	cmpq	%rsi, %r13
	je	.LBB24_26
.LBB24_23:
	movzbl	440(%rsp,%rsi), %eax
	movq	%rax, 176(%rsp,%r14,8)
	incq	%r14
	cmpq	$16, %r14
	jne	.LBB24_25
	movq	%rbp, 32(%rsp)
	leaq	176(%rsp), %rdx
	leaq	4280(%rsp), %r9
	movl	$16, %r8d
	movq	%rdi, %rcx
	vzeroupper
	callq	"xet_roots::groups::hash_at"
	xorl	%r14d, %r14d
	jmp	.LBB24_25
.LBB24_21:
	leaq	1592(%rsp), %rbp
.LBB24_26:
	testq	%r12, %r12
	je	.LBB24_27
	xorl	%esi, %esi
	movq	40(%rsp), %r13
	jmp	.LBB24_29
	.p2align	4
.LBB24_31:
	incq	%rsi
	cmpq	%rsi, %r12
	je	.LBB24_32
.LBB24_29:
	movzbl	504(%rsp,%rsi), %eax
	movq	%rax, 176(%rsp,%r14,8)
	incq	%r14
	cmpq	$16, %r14
	jne	.LBB24_31
	movq	%rbp, 32(%rsp)
	leaq	176(%rsp), %rdx
	leaq	4280(%rsp), %r9
	movl	$16, %r8d
	movq	%rdi, %rcx
	vzeroupper
	callq	"xet_roots::groups::hash_at"
	xorl	%r14d, %r14d
	jmp	.LBB24_31
.LBB24_27:
	movq	40(%rsp), %r13
.LBB24_32:
	testq	%r15, %r15
	je	.LBB24_33
	xorl	%esi, %esi
	movq	48(%rsp), %r12
	jmp	.LBB24_35
	.p2align	4
.LBB24_37:
	incq	%rsi
	cmpq	%rsi, %r15
	je	.LBB24_38
.LBB24_35:
	movzbl	568(%rsp,%rsi), %eax
	movq	%rax, 176(%rsp,%r14,8)
	incq	%r14
	cmpq	$16, %r14
	jne	.LBB24_37
	movq	%rbp, 32(%rsp)
	leaq	176(%rsp), %rdx
	leaq	4280(%rsp), %r9
	movl	$16, %r8d
	movq	%rdi, %rcx
	vzeroupper
	callq	"xet_roots::groups::hash_at"
	xorl	%r14d, %r14d
	jmp	.LBB24_37
.LBB24_33:
	movq	48(%rsp), %r12
.LBB24_38:
	cmpq	$0, 72(%rsp)
	je	.LBB24_39
	xorl	%esi, %esi
	movq	64(%rsp), %rbx
	movq	56(%rsp), %r15
	jmp	.LBB24_41
	.p2align	4
.LBB24_43:
	incq	%rsi
	cmpq	%rsi, 72(%rsp)
	je	.LBB24_44
.LBB24_41:
	movzbl	632(%rsp,%rsi), %eax
	movq	%rax, 176(%rsp,%r14,8)
	incq	%r14
	cmpq	$16, %r14
	jne	.LBB24_43
	movq	%rbp, 32(%rsp)
	leaq	176(%rsp), %rdx
	leaq	4280(%rsp), %r9
	movl	$16, %r8d
	movq	%rdi, %rcx
	vzeroupper
	callq	"xet_roots::groups::hash_at"
	xorl	%r14d, %r14d
	jmp	.LBB24_43
.LBB24_39:
	movq	64(%rsp), %rbx
	movq	56(%rsp), %r15
.LBB24_44:
	testq	%r13, %r13
	je	.LBB24_49
	xorl	%esi, %esi
	jmp	.LBB24_46
	.p2align	4
.LBB24_48:
	incq	%rsi
	cmpq	%rsi, %r13
	je	.LBB24_49
.LBB24_46:
	movzbl	696(%rsp,%rsi), %eax
	movq	%rax, 176(%rsp,%r14,8)
	incq	%r14
	cmpq	$16, %r14
	jne	.LBB24_48
	movq	%rbp, 32(%rsp)
	leaq	176(%rsp), %rdx
	leaq	4280(%rsp), %r9
	movl	$16, %r8d
	movq	%rdi, %rcx
	vzeroupper
	callq	"xet_roots::groups::hash_at"
	xorl	%r14d, %r14d
	jmp	.LBB24_48
.LBB24_49:
	testq	%r12, %r12
	je	.LBB24_54
	xorl	%esi, %esi
	jmp	.LBB24_51
	.p2align	4
.LBB24_53:
	incq	%rsi
	cmpq	%rsi, %r12
	je	.LBB24_54
.LBB24_51:
	movzbl	760(%rsp,%rsi), %eax
	movq	%rax, 176(%rsp,%r14,8)
	incq	%r14
	cmpq	$16, %r14
	jne	.LBB24_53
	movq	%rbp, 32(%rsp)
	leaq	176(%rsp), %rdx
	leaq	4280(%rsp), %r9
	movl	$16, %r8d
	movq	%rdi, %rcx
	vzeroupper
	callq	"xet_roots::groups::hash_at"
	xorl	%r14d, %r14d
	jmp	.LBB24_53
.LBB24_54:
	testq	%r15, %r15
	je	.LBB24_59
	xorl	%esi, %esi
	jmp	.LBB24_56
	.p2align	4
.LBB24_58:
	incq	%rsi
	cmpq	%rsi, %r15
	je	.LBB24_59
.LBB24_56:
	movzbl	824(%rsp,%rsi), %eax
	movq	%rax, 176(%rsp,%r14,8)
	incq	%r14
	cmpq	$16, %r14
	jne	.LBB24_58
	movq	%rbp, 32(%rsp)
	leaq	176(%rsp), %rdx
	leaq	4280(%rsp), %r9
	movl	$16, %r8d
	movq	%rdi, %rcx
	vzeroupper
	callq	"xet_roots::groups::hash_at"
	xorl	%r14d, %r14d
	jmp	.LBB24_58
.LBB24_59:
	testq	%rbx, %rbx
	je	.LBB24_64
	xorl	%esi, %esi
	jmp	.LBB24_61
	.p2align	4
.LBB24_63:
	incq	%rsi
	cmpq	%rsi, %rbx
	je	.LBB24_64
.LBB24_61:
	movzbl	888(%rsp,%rsi), %eax
	movq	%rax, 176(%rsp,%r14,8)
	incq	%r14
	cmpq	$16, %r14
	jne	.LBB24_63
	movq	%rbp, 32(%rsp)
	leaq	176(%rsp), %rdx
	leaq	4280(%rsp), %r9
	movl	$16, %r8d
	movq	%rdi, %rcx
	vzeroupper
	callq	"xet_roots::groups::hash_at"
	xorl	%r14d, %r14d
	jmp	.LBB24_63
.LBB24_64:
	movq	%rbp, 32(%rsp)
	leaq	176(%rsp), %rdx
	leaq	4280(%rsp), %r9
	movq	%rdi, %rcx
	movq	%r14, %r8
	vzeroupper
	callq	"xet_roots::groups::hash_at"
	movl	$2048, %r8d
	movq	168(%rsp), %rcx
	movq	%rbp, %rdx
	callq	memcpy
	nop
	addq	$20664, %rsp
	popq	%rbx
	popq	%rbp
	popq	%rdi
	popq	%rsi
	popq	%r12
	popq	%r13
	popq	%r14
	popq	%r15
	retq
	.seh_endproc

	.section	.rdata,"dr"
	.p2align	5, 0x0
.LCPI25_0:
	.quad	-9223372036854775808
.LCPI25_1:
	.quad	-9223372036854775807
	.zero	16
.LCPI25_2:
	.long	0
	.long	2
	.long	4
	.long	6
	.long	4
	.long	6
	.long	6
	.long	7
.LCPI25_3:
	.quad	4294967232
	.zero	24
.LCPI25_4:
	.quad	0
	.quad	1
	.quad	2
	.quad	3
.LCPI25_5:
	.quad	-9223372036854775804
	.quad	-9223372036854775803
	.quad	-9223372036854775802
	.quad	-9223372036854775801
.LCPI25_6:
	.quad	5
	.quad	6
	.quad	7
	.quad	8
.LCPI25_7:
	.quad	-9223372036854775800
	.quad	-9223372036854775799
	.quad	-9223372036854775798
	.quad	-9223372036854775797
.LCPI25_8:
	.quad	9
	.quad	10
	.quad	11
	.quad	12
.LCPI25_9:
	.long	64
	.section	.text
	.p2align	4
	.def	"xet_roots::groups::hash_at";
	.scl	3;
	.type	32;
	.endef
"xet_roots::groups::hash_at":
.seh_proc "xet_roots::groups::hash_at"
	pushq	%rbp
	.seh_pushreg %rbp
	pushq	%r15
	.seh_pushreg %r15
	pushq	%r14
	.seh_pushreg %r14
	pushq	%r13
	.seh_pushreg %r13
	pushq	%r12
	.seh_pushreg %r12
	pushq	%rsi
	.seh_pushreg %rsi
	pushq	%rdi
	.seh_pushreg %rdi
	pushq	%rbx
	.seh_pushreg %rbx
	movl	$4728, %eax
	callq	yurewha_stack_probe
	subq	%rax, %rsp
	.seh_stackalloc 4728
	leaq	128(%rsp), %rbp
	.seh_setframe %rbp, 128
	vmovaps	%xmm15, 4576(%rbp)
	.seh_savexmm %xmm15, 4704
	vmovaps	%xmm14, 4560(%rbp)
	.seh_savexmm %xmm14, 4688
	vmovaps	%xmm13, 4544(%rbp)
	.seh_savexmm %xmm13, 4672
	vmovaps	%xmm12, 4528(%rbp)
	.seh_savexmm %xmm12, 4656
	vmovdqa	%xmm11, 4512(%rbp)
	.seh_savexmm %xmm11, 4640
	vmovdqa	%xmm10, 4496(%rbp)
	.seh_savexmm %xmm10, 4624
	vmovdqa	%xmm9, 4480(%rbp)
	.seh_savexmm %xmm9, 4608
	vmovapd	%xmm8, 4464(%rbp)
	.seh_savexmm %xmm8, 4592
	vmovapd	%xmm7, 4448(%rbp)
	.seh_savexmm %xmm7, 4576
	vmovdqa	%xmm6, 4432(%rbp)
	.seh_savexmm %xmm6, 4560
	.seh_endprologue
	andq	$-64, %rsp
	vpxor	%xmm0, %xmm0, %xmm0
	vmovdqa	%ymm0, 832(%rsp)
	vmovdqa	%ymm0, 800(%rsp)
	vmovdqa	%ymm0, 768(%rsp)
	vmovdqa	%ymm0, 736(%rsp)
	testq	%r8, %r8
	je	.LBB25_47
	movq	%r8, %rbx
	movq	%rdx, %rdi
	movq	%rcx, %r14
	xorl	%esi, %esi
	movq	%r9, 112(%rsp)
	movq	%r9, %r15
	.p2align	4
.LBB25_2:
	movq	(%rdi,%rsi,8), %rax
	shlq	$4, %rax
	movq	(%r14,%rax), %rdx
	movq	8(%r14,%rax), %r8
	movq	%r15, %rcx
	vzeroupper
	callq	"xet_roots::groups::write_text"
	movq	%rax, 736(%rsp,%rsi,8)
	incq	%rsi
	addq	$1024, %r15
	cmpq	%rsi, %rbx
	jne	.LBB25_2
	movq	%rdi, 120(%rsp)
	vpxor	%xmm0, %xmm0, %xmm0
	vmovdqa	%ymm0, 3360(%rsp)
	vmovdqa	%ymm0, 3328(%rsp)
	vmovdqa	%ymm0, 3296(%rsp)
	vmovdqa	%ymm0, 3264(%rsp)
	vmovdqa	%ymm0, 3232(%rsp)
	vmovdqa	%ymm0, 3200(%rsp)
	vmovdqa	%ymm0, 3168(%rsp)
	vmovdqa	%ymm0, 3136(%rsp)
	vmovdqa	%ymm0, 3104(%rsp)
	vmovdqa	%ymm0, 3072(%rsp)
	vmovdqa	%ymm0, 3040(%rsp)
	vmovdqa	%ymm0, 3008(%rsp)
	vmovdqa	%ymm0, 2976(%rsp)
	vmovdqa	%ymm0, 2944(%rsp)
	vmovdqa	%ymm0, 2912(%rsp)
	vmovdqa	%ymm0, 2880(%rsp)
	movl	%ebx, %esi
	andl	$3, %esi
	cmpq	$4, %rbx
	jae	.LBB25_5
	xorl	%edi, %edi
	jmp	.LBB25_8
.LBB25_5:
	movq	%rbx, %r15
	andq	$-4, %r15
	xorl	%edi, %edi
	movq	112(%rsp), %r12
	.p2align	4
.LBB25_6:
	movq	736(%rsp,%rdi,8), %rax
	leaq	64(%rax), %r8
	cmpq	$1024, %r8
	movl	$1024, %r14d
	cmovaeq	%r14, %r8
	leaq	(%r12,%rax), %rcx
	subq	%rax, %r8
	xorl	%edx, %edx
	vzeroupper
	callq	memset
	movq	744(%rsp,%rdi,8), %rax
	leaq	64(%rax), %r8
	cmpq	$1024, %r8
	cmovaeq	%r14, %r8
	leaq	(%rax,%r12), %rcx
	addq	$1024, %rcx
	subq	%rax, %r8
	xorl	%edx, %edx
	callq	memset
	movq	752(%rsp,%rdi,8), %rax
	leaq	64(%rax), %r8
	cmpq	$1024, %r8
	cmovaeq	%r14, %r8
	leaq	(%rax,%r12), %rcx
	addq	$2048, %rcx
	subq	%rax, %r8
	xorl	%edx, %edx
	callq	memset
	movq	760(%rsp,%rdi,8), %rax
	leaq	64(%rax), %rcx
	cmpq	$1024, %rcx
	cmovbq	%rcx, %r14
	leaq	(%rax,%r12), %rcx
	addq	$3072, %rcx
	subq	%rax, %r14
	xorl	%edx, %edx
	movq	%r14, %r8
	callq	memset
	addq	$4, %rdi
	addq	$4096, %r12
	cmpq	%rdi, %r15
	jne	.LBB25_6
	testq	%rsi, %rsi
	je	.LBB25_10
.LBB25_8:
	leaq	(%rsp,%rdi,8), %r14
	addq	$736, %r14
	shlq	$10, %rdi
	addq	112(%rsp), %rdi
	xorl	%r15d, %r15d
	.p2align	4
.LBB25_9:
	movq	(%r14,%r15,8), %rax
	leaq	64(%rax), %rcx
	cmpq	$1024, %rcx
	movl	$1024, %r8d
	cmovbq	%rcx, %r8
	leaq	(%rdi,%rax), %rcx
	subq	%rax, %r8
	xorl	%edx, %edx
	vzeroupper
	callq	memset
	incq	%r15
	addq	$1024, %rdi
	cmpq	%r15, %rsi
	jne	.LBB25_9
.LBB25_10:
	xorl	%r13d, %r13d
	movq	112(%rsp), %r15
	jmp	.LBB25_11
	.p2align	4
.LBB25_31:
	leaq	1(%r13), %rsi
	movq	%rsi, %r9
	shlq	$10, %r9
	addq	%r15, %r9
	movq	744(%rsp,%r13,8), %rcx
	movq	%rcx, 32(%rsp)
	leaq	1408(%rsp), %rcx
	movq	%r8, %rdx
	movq	%rax, %r8
	vzeroupper
	callq	"keyed_blake3::keyed_hash_two"
	movq	%r13, %rax
	shlq	$5, %rax
	vmovaps	1408(%rsp), %ymm0
	vmovups	%ymm0, 2880(%rsp,%rax)
	shlq	$5, %rsi
	leaq	1440(%rsp), %rax
	vmovups	(%rax), %ymm0
	vmovups	%ymm0, 2880(%rsp,%rsi)
	addq	$2, %r13
.LBB25_32:
	cmpq	%rbx, %r13
	jae	.LBB25_33
.LBB25_11:
	vpxor	%xmm0, %xmm0, %xmm0
	vmovdqa	%ymm0, 864(%rsp)
	vmovdqa	%ymm0, 1408(%rsp)
	vmovdqa	%ymm0, 1440(%rsp)
	movq	%rbx, %rdi
	subq	%r13, %rdi
	cmpq	$5, %rdi
	jb	.LBB25_29
	vmovdqa	%ymm0, 672(%rsp)
	vmovdqa	%ymm0, 640(%rsp)
	vmovdqa	%ymm0, 608(%rsp)
	vmovdqa	%ymm0, 576(%rsp)
	vmovdqa	%ymm0, 544(%rsp)
	vmovdqa	%ymm0, 512(%rsp)
	vmovdqa	%ymm0, 480(%rsp)
	vmovdqa	%ymm0, 448(%rsp)
	vmovdqa	%ymm0, 416(%rsp)
	vmovdqa	%ymm0, 384(%rsp)
	vmovdqa	%ymm0, 352(%rsp)
	vmovdqa	%ymm0, 320(%rsp)
	vmovdqa	%ymm0, 288(%rsp)
	vmovdqa	%ymm0, 256(%rsp)
	vmovdqa	%ymm0, 224(%rsp)
	vmovdqa	%ymm0, 192(%rsp)
	cmpq	$16, %rdi
	movl	$16, %r12d
	cmovbq	%rdi, %r12
	vmovdqa	%ymm0, 2240(%rsp)
	vmovdqa	%ymm0, 2272(%rsp)
	vmovdqa	%ymm0, 896(%rsp)
	vmovdqa	%ymm0, 928(%rsp)
	cmpq	$8, %rdi
	jae	.LBB25_14
	xorl	%esi, %esi
	xorl	%eax, %eax
	jmp	.LBB25_17
	.p2align	4
.LBB25_29:
	movq	%r13, %r8
	shlq	$10, %r8
	addq	%r15, %r8
	movq	736(%rsp,%r13,8), %rax
	cmpq	$1, %rdi
	jne	.LBB25_31
	leaq	static.7(%rip), %rdx
	leaq	864(%rsp), %rcx
	movq	%rax, %r9
	vzeroupper
	callq	"keyed_blake3::keyed_hash"
	movq	%r13, %rax
	shlq	$5, %rax
	vmovaps	864(%rsp), %ymm0
	vmovups	%ymm0, 2880(%rsp,%rax)
	incq	%r13
	jmp	.LBB25_32
	.p2align	4
.LBB25_14:
	leaq	(,%r13,8), %rcx
	leaq	768(%rsp), %rax
	addq	%rax, %rcx
	movl	%r12d, %eax
	andl	$24, %eax
	xorl	%edx, %edx
	vpxor	%xmm2, %xmm2, %xmm2
	.p2align	4
.LBB25_15:
	vmovdqu	-32(%rcx,%rdx,8), %ymm3
	vmovdqu	(%rcx,%rdx,8), %ymm4
	vpcmpeqd	%ymm5, %ymm5, %ymm5
	vpaddq	%ymm5, %ymm3, %ymm6
	vpbroadcastq	.LCPI25_0(%rip), %ymm1
	vpxor	%ymm1, %ymm3, %ymm7
	vpbroadcastq	.LCPI25_1(%rip), %ymm8
	vpcmpgtq	%ymm8, %ymm7, %ymm7
	vpand	%ymm6, %ymm7, %ymm6
	vpaddq	%ymm5, %ymm4, %ymm5
	vpxor	%ymm1, %ymm4, %ymm7
	vpcmpgtq	%ymm8, %ymm7, %ymm7
	vpand	%ymm5, %ymm7, %ymm5
	vpsrlq	$6, %ymm6, %ymm7
	vpsrlq	$6, %ymm5, %ymm8
	vmovdqa	.LCPI25_2(%rip), %ymm9
	vpermd	%ymm7, %ymm9, %ymm10
	vpermd	%ymm8, %ymm9, %ymm11
	vmovdqu	%xmm10, 2240(%rsp,%rdx,4)
	vmovdqu	%xmm11, 2256(%rsp,%rdx,4)
	vpbroadcastq	.LCPI25_3(%rip), %ymm10
	vpand	%ymm6, %ymm10, %ymm6
	vpand	%ymm5, %ymm10, %ymm5
	vpsubq	%ymm6, %ymm3, %ymm3
	vpsubq	%ymm5, %ymm4, %ymm4
	vpermd	%ymm3, %ymm9, %ymm3
	vmovdqu	%xmm3, 896(%rsp,%rdx,4)
	vpermd	%ymm4, %ymm9, %ymm3
	vmovdqu	%xmm3, 912(%rsp,%rdx,4)
	vpor	%ymm1, %ymm7, %ymm3
	vpxor	%ymm1, %ymm0, %ymm4
	vpcmpgtq	%ymm4, %ymm3, %ymm3
	vblendvpd	%ymm3, %ymm7, %ymm0, %ymm0
	vpor	%ymm1, %ymm8, %ymm3
	vpxor	%ymm1, %ymm2, %ymm4
	vpcmpgtq	%ymm4, %ymm3, %ymm3
	vblendvpd	%ymm3, %ymm8, %ymm2, %ymm2
	addq	$8, %rdx
	cmpq	%rdx, %rax
	jne	.LBB25_15
	vxorpd	%ymm1, %ymm2, %ymm3
	vxorpd	%ymm1, %ymm0, %ymm4
	vpcmpgtq	%ymm3, %ymm4, %ymm3
	vblendvpd	%ymm3, %ymm0, %ymm2, %ymm0
	vextractf128	$1, %ymm0, %xmm2
	vxorpd	%xmm1, %xmm2, %xmm3
	vxorpd	%xmm1, %xmm0, %xmm4
	vpcmpgtq	%xmm3, %xmm4, %xmm3
	vblendvpd	%xmm3, %xmm0, %xmm2, %xmm0
	vshufps	$238, %xmm0, %xmm0, %xmm2
	vxorpd	%xmm1, %xmm0, %xmm3
	vxorpd	%xmm1, %xmm2, %xmm1
	vpcmpgtq	%xmm1, %xmm3, %xmm1
	vblendvpd	%xmm1, %xmm0, %xmm2, %xmm0
	vmovq	%xmm0, %rsi
	cmpq	%rax, %r12
	je	.LBB25_19
.LBB25_17:
	leaq	(%rsp,%r13,8), %rcx
	addq	$736, %rcx
	.p2align	4
.LBB25_18:
	movq	%rsi, %rdx
	movq	(%rcx,%rax,8), %r8
	cmpq	$1, %r8
	movq	%r8, %r9
	adcq	$-1, %r9
	movq	%r9, %rsi
	shrq	$6, %rsi
	movl	%esi, 2240(%rsp,%rax,4)
	andl	$-64, %r9d
	subl	%r9d, %r8d
	cmpq	%rdx, %rsi
	cmovbeq	%rdx, %rsi
	movl	%r8d, 896(%rsp,%rax,4)
	incq	%rax
	cmpq	%rax, %r12
	jne	.LBB25_18
.LBB25_19:
	vmovaps	2240(%rsp), %ymm0
	vmovaps	%ymm0, 1568(%rsp)
	vmovaps	2272(%rsp), %ymm0
	vmovaps	%ymm0, 1536(%rsp)
	vmovaps	896(%rsp), %ymm0
	vmovaps	%ymm0, 1504(%rsp)
	vmovaps	928(%rsp), %ymm0
	vmovaps	%ymm0, 1472(%rsp)
	movq	%r13, %r14
	shlq	$10, %r14
	addq	%r15, %r14
	leaq	-1(%r12), %rax
	cmpq	$13, %rax
	movl	$14, %ecx
	cmovbeq	%rax, %rcx
	vmovaps	.LCPI25_4(%rip), %ymm0
	vmovups	%ymm0, 2112(%rsp)
	vmovq	%rax, %xmm0
	vpbroadcastq	%xmm0, %ymm0
	vpbroadcastq	.LCPI25_0(%rip), %ymm1
	vpxor	%ymm1, %ymm0, %ymm1
	vpcmpgtq	.LCPI25_5(%rip), %ymm1, %ymm2
	movl	$13, %edx
	vblendvpd	%ymm2, .LCPI25_6(%rip), %ymm0, %ymm2
	cmovbq	%rax, %rdx
	vpcmpgtq	.LCPI25_7(%rip), %ymm1, %ymm1
	movq	$4, 2144(%rsp)
	vblendvpd	%ymm1, .LCPI25_8(%rip), %ymm0, %ymm0
	vmovupd	%ymm2, 2152(%rsp)
	vmovupd	%ymm0, 2184(%rsp)
	movq	%rdx, 2216(%rsp)
	movq	%rcx, 2224(%rsp)
	movq	%rax, 2232(%rsp)
	vxorpd	%xmm0, %xmm0, %xmm0
	vmovapd	%ymm0, 3392(%rsp)
	vmovapd	%ymm0, 3424(%rsp)
	vmovapd	%ymm0, 3456(%rsp)
	vmovapd	%ymm0, 3488(%rsp)
	leaq	static.7(%rip), %rdx
	leaq	896(%rsp), %r15
	movq	%r15, %rcx
	vzeroupper
	callq	"keyed_blake3::chunks::key_of_each::<#2e65a0a13cda87df>"
	leaq	2240(%rsp), %rcx
	movl	$512, %r8d
	movq	%r15, %rdx
	callq	memcpy
	vmovaps	1376(%rsp), %ymm0
	vmovaps	1344(%rsp), %ymm1
	vmovaps	1312(%rsp), %ymm2
	vmovaps	1280(%rsp), %ymm3
	vmovaps	1248(%rsp), %ymm4
	vmovaps	1216(%rsp), %ymm5
	vmovaps	%ymm5, 128(%rsp)
	vmovaps	1184(%rsp), %ymm5
	vmovaps	%ymm5, 160(%rsp)
	vmovaps	1152(%rsp), %ymm7
	vmovaps	1120(%rsp), %ymm8
	vmovaps	1088(%rsp), %ymm9
	vmovaps	1056(%rsp), %ymm10
	vmovaps	1024(%rsp), %ymm11
	vmovaps	896(%rsp), %ymm12
	vmovaps	928(%rsp), %ymm13
	vmovaps	960(%rsp), %ymm14
	vmovaps	992(%rsp), %ymm15
	incq	%rsi
	xorl	%r15d, %r15d
	.p2align	4
.LBB25_20:
	vmovaps	%ymm15, 1664(%rsp)
	vmovaps	%ymm14, 1696(%rsp)
	vmovaps	%ymm13, 1728(%rsp)
	vmovaps	%ymm12, 1760(%rsp)
	vmovaps	%ymm11, 1792(%rsp)
	vmovaps	%ymm10, 1824(%rsp)
	vmovaps	%ymm9, 1856(%rsp)
	vmovaps	%ymm8, 1888(%rsp)
	vmovaps	%ymm7, 1920(%rsp)
	vmovaps	%ymm4, 1952(%rsp)
	vmovaps	%ymm3, 1984(%rsp)
	vmovaps	%ymm2, 2016(%rsp)
	vmovaps	%ymm1, 2048(%rsp)
	vmovaps	%ymm0, 2080(%rsp)
	xorl	%eax, %eax
	testl	%r15d, %r15d
	sete	%al
	leal	16(%rax), %ecx
	orl	$26, %eax
	vmovd	%r15d, %xmm0
	vpbroadcastd	%xmm0, %ymm0
	vpcmpeqd	1536(%rsp), %ymm0, %ymm5
	vmovdqa	%ymm5, 1600(%rsp)
	vpcmpeqd	1568(%rsp), %ymm0, %ymm4
	vmovdqa	%ymm4, 1632(%rsp)
	vbroadcastss	.LCPI25_9(%rip), %ymm0
	vblendvps	%ymm4, 1504(%rsp), %ymm0, %ymm1
	vblendvps	%ymm5, 1472(%rsp), %ymm0, %ymm0
	vmovd	%eax, %xmm2
	vpbroadcastd	%xmm2, %ymm2
	vmovd	%ecx, %xmm3
	vpbroadcastd	%xmm3, %ymm3
	vblendvps	%ymm4, %ymm2, %ymm3, %ymm4
	vblendvps	%ymm5, %ymm2, %ymm3, %ymm2
	vmovups	%ymm0, 2848(%rsp)
	vmovups	%ymm1, 2816(%rsp)
	vmovups	%ymm2, 2784(%rsp)
	vmovups	%ymm4, 2752(%rsp)
	leaq	2752(%rsp), %rax
	movq	%rax, 48(%rsp)
	leaq	2816(%rsp), %rax
	movq	%rax, 40(%rsp)
	leaq	3392(%rsp), %rax
	movq	%rax, 32(%rsp)
	leaq	2240(%rsp), %rcx
	leaq	2112(%rsp), %r8
	movq	%r14, %rdx
	movq	%r15, %r9
	vzeroupper
	callq	"keyed_blake3::chunks::take_block::<#2e65a0a13cda87df>"
	vmovaps	1664(%rsp), %ymm15
	vmovaps	1696(%rsp), %ymm14
	vmovaps	1728(%rsp), %ymm13
	vmovaps	1760(%rsp), %ymm12
	vmovaps	1792(%rsp), %ymm11
	vmovaps	1824(%rsp), %ymm10
	vmovaps	1856(%rsp), %ymm9
	vmovaps	1888(%rsp), %ymm8
	vmovaps	1920(%rsp), %ymm7
	vmovaps	1952(%rsp), %ymm4
	vmovaps	1984(%rsp), %ymm3
	vmovaps	2016(%rsp), %ymm2
	vmovaps	2048(%rsp), %ymm1
	vmovaps	2080(%rsp), %ymm0
	vmovaps	1600(%rsp), %ymm6
	vblendvps	%ymm6, 2272(%rsp), %ymm13, %ymm13
	vblendvps	%ymm6, 2336(%rsp), %ymm15, %ymm15
	vblendvps	%ymm6, 2400(%rsp), %ymm10, %ymm10
	vblendvps	%ymm6, 2464(%rsp), %ymm8, %ymm8
	vmovaps	160(%rsp), %ymm5
	vblendvps	%ymm6, 2528(%rsp), %ymm5, %ymm5
	vmovaps	%ymm5, 160(%rsp)
	vblendvps	%ymm6, 2592(%rsp), %ymm4, %ymm4
	vblendvps	%ymm6, 2656(%rsp), %ymm2, %ymm2
	vblendvps	%ymm6, 2720(%rsp), %ymm0, %ymm0
	vmovaps	1632(%rsp), %ymm5
	vblendvps	%ymm5, 2240(%rsp), %ymm12, %ymm12
	vblendvps	%ymm5, 2304(%rsp), %ymm14, %ymm14
	vblendvps	%ymm5, 2368(%rsp), %ymm11, %ymm11
	vblendvps	%ymm5, 2432(%rsp), %ymm9, %ymm9
	vblendvps	%ymm5, 2496(%rsp), %ymm7, %ymm7
	vmovaps	128(%rsp), %ymm6
	vblendvps	%ymm5, 2560(%rsp), %ymm6, %ymm6
	vmovaps	%ymm6, 128(%rsp)
	vblendvps	%ymm5, 2624(%rsp), %ymm3, %ymm3
	vblendvps	%ymm5, 2688(%rsp), %ymm1, %ymm1
	incq	%r15
	cmpq	%r15, %rsi
	jne	.LBB25_20
	vmovaps	%ymm12, 192(%rsp)
	vmovaps	%ymm13, 224(%rsp)
	vmovaps	%ymm14, 256(%rsp)
	vmovaps	%ymm15, 288(%rsp)
	vmovaps	%ymm11, 320(%rsp)
	vmovaps	%ymm10, 352(%rsp)
	vmovaps	%ymm9, 384(%rsp)
	vmovaps	%ymm8, 416(%rsp)
	vmovaps	%ymm7, 448(%rsp)
	vmovaps	160(%rsp), %ymm5
	vmovaps	%ymm5, 480(%rsp)
	vmovaps	128(%rsp), %ymm5
	vmovaps	%ymm5, 512(%rsp)
	vmovaps	%ymm4, 544(%rsp)
	vmovaps	%ymm3, 576(%rsp)
	vmovaps	%ymm2, 608(%rsp)
	vmovaps	%ymm1, 640(%rsp)
	vmovaps	%ymm0, 672(%rsp)
	cmpq	$8, %rdi
	jae	.LBB25_23
	xorl	%eax, %eax
	movq	112(%rsp), %r15
	jmp	.LBB25_26
	.p2align	4
.LBB25_23:
	movl	%r12d, %eax
	andl	$24, %eax
	movq	%r13, %rcx
	shlq	$5, %rcx
	addq	%rsp, %rcx
	addq	$2880, %rcx
	xorl	%edx, %edx
	movq	112(%rsp), %r15
	.p2align	4
.LBB25_24:
	vmovups	192(%rsp,%rdx,4), %ymm3
	vmovups	256(%rsp,%rdx,4), %ymm4
	vmovups	320(%rsp,%rdx,4), %ymm2
	vmovups	384(%rsp,%rdx,4), %ymm6
	vmovups	448(%rsp,%rdx,4), %ymm7
	vmovups	512(%rsp,%rdx,4), %ymm5
	vmovups	576(%rsp,%rdx,4), %ymm8
	vmovups	640(%rsp,%rdx,4), %ymm9
	vbroadcastss	664(%rsp,%rdx,4), %ymm0
	vblendps	$128, %ymm0, %ymm8, %ymm0
	vunpckhps	%ymm5, %ymm7, %ymm1
	vblendps	$192, %ymm0, %ymm1, %ymm0
	vunpckhps	%ymm4, %ymm3, %ymm10
	vextractf128	$1, %ymm10, %xmm11
	vunpckhps	%ymm6, %ymm2, %ymm12
	vpermpd	$170, %ymm12, %ymm13
	vblendps	$12, %xmm13, %xmm11, %xmm11
	vblendps	$15, %ymm11, %ymm0, %ymm0
	vmovaps	%ymm0, 128(%rsp)
	vbroadcastss	604(%rsp,%rdx,4), %ymm11
	vunpckhps	%ymm9, %ymm11, %ymm11
	vunpckhpd	%ymm11, %ymm1, %ymm1
	vextractf128	$1, %ymm12, %xmm11
	vshufps	$238, %ymm10, %ymm10, %ymm10
	vextractf128	$1, %ymm10, %xmm10
	vblendps	$12, %xmm11, %xmm10, %xmm10
	vblendps	$15, %ymm10, %ymm1, %ymm1
	vunpcklps	%ymm9, %ymm8, %ymm8
	vunpcklps	%ymm5, %ymm7, %ymm7
	vunpcklpd	%ymm8, %ymm7, %ymm7
	vunpcklps	%ymm4, %ymm3, %ymm9
	vextractf128	$1, %ymm9, %xmm9
	vunpcklps	%ymm6, %ymm2, %ymm6
	vpermpd	$170, %ymm6, %ymm2
	vblendps	$12, %xmm2, %xmm9, %xmm2
	vblendps	$15, %ymm2, %ymm7, %ymm2
	vbroadcastss	468(%rsp,%rdx,4), %ymm7
	vblendps	$32, %ymm5, %ymm7, %ymm5
	vblendps	$192, %ymm8, %ymm5, %ymm5
	vextractf128	$1, %ymm6, %xmm6
	vshufps	$85, %ymm3, %ymm3, %ymm3
	vblendps	$34, %ymm4, %ymm3, %ymm3
	vextractf128	$1, %ymm3, %xmm3
	vblendps	$12, %xmm6, %xmm3, %xmm3
	vblendps	$15, %ymm3, %ymm5, %ymm3
	vmovups	384(%rsp,%rdx,4), %xmm4
	vmovups	192(%rsp,%rdx,4), %xmm6
	vmovups	256(%rsp,%rdx,4), %xmm7
	vmovups	320(%rsp,%rdx,4), %xmm5
	vunpcklps	%xmm4, %xmm5, %xmm8
	vshufps	$85, %xmm6, %xmm6, %xmm9
	vblendps	$2, %xmm7, %xmm9, %xmm9
	vblendps	$12, %xmm8, %xmm9, %xmm8
	vmovups	640(%rsp,%rdx,4), %xmm9
	vmovups	576(%rsp,%rdx,4), %xmm10
	vunpcklps	%xmm9, %xmm10, %xmm11
	vinsertf128	$1, %xmm11, %ymm0, %ymm11
	vmovups	512(%rsp,%rdx,4), %xmm12
	vmovups	448(%rsp,%rdx,4), %xmm13
	vshufps	$85, %xmm13, %xmm13, %xmm14
	vblendps	$2, %xmm12, %xmm14, %xmm14
	vinsertf128	$1, %xmm14, %ymm0, %ymm14
	vblendps	$192, %ymm11, %ymm14, %ymm11
	vblendps	$15, %ymm8, %ymm11, %ymm8
	vunpckhps	%xmm12, %xmm13, %xmm11
	vinsertf128	$1, %xmm11, %ymm0, %ymm14
	vshufps	$170, %xmm9, %xmm9, %xmm15
	vblendps	$8, %xmm15, %xmm10, %xmm15
	vinsertf128	$1, %xmm15, %ymm0, %ymm15
	vblendps	$192, %ymm15, %ymm14, %ymm14
	vshufps	$170, %xmm4, %xmm4, %xmm15
	vblendps	$8, %xmm15, %xmm5, %xmm15
	vunpckhps	%xmm7, %xmm6, %xmm0
	vblendps	$12, %xmm15, %xmm0, %xmm15
	vblendps	$15, %ymm15, %ymm14, %ymm14
	vunpcklps	%xmm12, %xmm13, %xmm12
	vbroadcastss	%xmm9, %xmm13
	vbroadcastss	%xmm10, %xmm15
	vunpcklps	%xmm13, %xmm15, %xmm13
	vinsertf128	$1, %xmm12, %ymm0, %ymm12
	vinsertf128	$1, %xmm13, %ymm0, %ymm13
	vblendps	$192, %ymm13, %ymm12, %ymm12
	vbroadcastss	%xmm4, %xmm13
	vbroadcastss	%xmm5, %xmm15
	vunpcklps	%xmm13, %xmm15, %xmm13
	vunpcklps	%xmm7, %xmm6, %xmm6
	vblendps	$12, %xmm13, %xmm6, %xmm6
	vblendps	$15, %ymm6, %ymm12, %ymm6
	vunpckhps	%xmm9, %xmm10, %xmm7
	vinsertf128	$1, %xmm7, %ymm0, %ymm7
	vshufps	$238, %xmm11, %xmm11, %xmm9
	vinsertf128	$1, %xmm9, %ymm0, %ymm9
	vblendps	$192, %ymm7, %ymm9, %ymm7
	vunpckhps	%xmm4, %xmm5, %xmm4
	vunpckhpd	%xmm4, %xmm0, %xmm0
	vblendps	$15, %ymm0, %ymm7, %ymm0
	vmovups	%ymm0, 96(%rcx)
	vmovups	%ymm6, (%rcx)
	vmovups	%ymm8, 32(%rcx)
	vmovups	%ymm14, 64(%rcx)
	vmovups	%ymm3, 160(%rcx)
	vmovups	%ymm2, 128(%rcx)
	vmovups	%ymm1, 224(%rcx)
	vmovaps	128(%rsp), %ymm0
	vmovups	%ymm0, 192(%rcx)
	addq	$8, %rdx
	addq	$256, %rcx
	cmpq	%rdx, %rax
	jne	.LBB25_24
	cmpq	%rax, %r12
	je	.LBB25_28
.LBB25_26:
	leaq	(%rax,%r13), %rcx
	shlq	$5, %rcx
	leaq	2908(%rsp), %rdx
	addq	%rdx, %rcx
	.p2align	4
.LBB25_27:
	movl	192(%rsp,%rax,4), %edx
	movl	256(%rsp,%rax,4), %r8d
	movl	320(%rsp,%rax,4), %r9d
	movl	384(%rsp,%rax,4), %r10d
	movl	448(%rsp,%rax,4), %r11d
	movl	512(%rsp,%rax,4), %esi
	movl	576(%rsp,%rax,4), %edi
	movl	640(%rsp,%rax,4), %r14d
	movl	%edx, -28(%rcx)
	movl	%r8d, -24(%rcx)
	movl	%r9d, -20(%rcx)
	movl	%r10d, -16(%rcx)
	movl	%r11d, -12(%rcx)
	movl	%esi, -8(%rcx)
	movl	%edi, -4(%rcx)
	movl	%r14d, (%rcx)
	incq	%rax
	addq	$32, %rcx
	cmpq	%rax, %r12
	jne	.LBB25_27
.LBB25_28:
	addq	%r12, %r13
	jmp	.LBB25_32
.LBB25_33:
	leaq	192(%rsp), %rdi
	leaq	2880(%rsp), %rdx
	movl	$512, %r8d
	movq	%rdi, %rcx
	vzeroupper
	callq	memcpy
	leaq	2240(%rsp), %rcx
	movl	$512, %r8d
	movq	%rdi, %rdx
	callq	memcpy
	vpxor	%xmm0, %xmm0, %xmm0
	vmovdqa	%ymm0, 896(%rsp)
	vmovdqa	%ymm0, 928(%rsp)
	vmovdqa	%ymm0, 960(%rsp)
	vmovdqa	%ymm0, 992(%rsp)
	vmovdqa	%ymm0, 1024(%rsp)
	vmovdqa	%ymm0, 1056(%rsp)
	vmovdqa	%ymm0, 1088(%rsp)
	vmovdqa	%ymm0, 1120(%rsp)
	vmovdqa	%ymm0, 1152(%rsp)
	vmovdqa	%ymm0, 1184(%rsp)
	vmovdqa	%ymm0, 1216(%rsp)
	vmovdqa	%ymm0, 1248(%rsp)
	vmovdqa	%ymm0, 1280(%rsp)
	vmovdqa	%ymm0, 1312(%rsp)
	vmovdqa	%ymm0, 1344(%rsp)
	vmovdqa	%ymm0, 1376(%rsp)
	cmpq	$4, %rbx
	jae	.LBB25_35
	xorl	%eax, %eax
	jmp	.LBB25_38
.LBB25_35:
	movq	%rbx, %rax
	andq	$-4, %rax
	xorl	%ecx, %ecx
	movq	%rax, %rdx
	.p2align	4
.LBB25_36:
	vmovdqu	2240(%rsp,%rcx), %ymm0
	vmovdqu	%ymm0, 896(%rsp,%rcx)
	addq	$32, %rcx
	decq	%rdx
	jne	.LBB25_36
	cmpq	%rax, %rbx
	je	.LBB25_40
.LBB25_38:
	movq	%rbx, %rcx
	subq	%rax, %rcx
	shlq	$5, %rax
	.p2align	4
.LBB25_39:
	vmovdqu	2240(%rsp,%rax), %ymm0
	vmovdqu	%ymm0, 896(%rsp,%rax)
	addq	$32, %rax
	decq	%rcx
	jne	.LBB25_39
.LBB25_40:
	leaq	4048(%rsp), %rdi
	leaq	896(%rsp), %rdx
	movl	$512, %r8d
	movq	%rdi, %rcx
	vzeroupper
	callq	memcpy
	leaq	3536(%rsp), %rcx
	movl	$512, %r8d
	movq	%rdi, %rdx
	callq	memcpy
	movl	%ebx, %eax
	andl	$3, %eax
	cmpq	$4, %rbx
	jae	.LBB25_42
	xorl	%ecx, %ecx
	movq	4704(%rbp), %r10
	movq	120(%rsp), %r9
	jmp	.LBB25_45
.LBB25_42:
	andq	$-4, %rbx
	leaq	3632(%rsp), %rdx
	xorl	%ecx, %ecx
	movq	4704(%rbp), %r10
	movq	120(%rsp), %r9
	.p2align	4
.LBB25_43:
	movq	(%r9,%rcx,8), %r8
	shlq	$5, %r8
	vmovups	-96(%rdx), %ymm0
	vmovups	%ymm0, (%r10,%r8)
	movq	8(%r9,%rcx,8), %r8
	shlq	$5, %r8
	vmovups	-64(%rdx), %ymm0
	vmovups	%ymm0, (%r10,%r8)
	movq	16(%r9,%rcx,8), %r8
	shlq	$5, %r8
	vmovups	-32(%rdx), %ymm0
	vmovups	%ymm0, (%r10,%r8)
	movq	24(%r9,%rcx,8), %r8
	shlq	$5, %r8
	vmovdqu	(%rdx), %ymm0
	vmovdqu	%ymm0, (%r10,%r8)
	addq	$4, %rcx
	subq	$-128, %rdx
	cmpq	%rcx, %rbx
	jne	.LBB25_43
	testq	%rax, %rax
	je	.LBB25_47
.LBB25_45:
	leaq	(%r9,%rcx,8), %rdx
	shlq	$5, %rcx
	addq	%rsp, %rcx
	addq	$3536, %rcx
	shll	$3, %eax
	xorl	%r8d, %r8d
	.p2align	4
.LBB25_46:
	movq	(%rdx,%r8), %r9
	shlq	$5, %r9
	vmovdqu	(%rcx,%r8,4), %ymm0
	vmovdqu	%ymm0, (%r10,%r9)
	addq	$8, %r8
	cmpq	%r8, %rax
	jne	.LBB25_46
.LBB25_47:
	vmovaps	4432(%rbp), %xmm6
	vmovaps	4448(%rbp), %xmm7
	vmovaps	4464(%rbp), %xmm8
	vmovaps	4480(%rbp), %xmm9
	vmovaps	4496(%rbp), %xmm10
	vmovaps	4512(%rbp), %xmm11
	vmovaps	4528(%rbp), %xmm12
	vmovaps	4544(%rbp), %xmm13
	vmovaps	4560(%rbp), %xmm14
	vmovaps	4576(%rbp), %xmm15
	leaq	4600(%rbp), %rsp
	popq	%rbx
	popq	%rdi
	popq	%rsi
	popq	%r12
	popq	%r13
	popq	%r14
	popq	%r15
	popq	%rbp
	vzeroupper
	retq
	.seh_endproc

	.section	.rdata,"dr"
	.p2align	5, 0x0
.LCPI26_0:
	.byte	7
	.byte	6
	.byte	5
	.byte	4
	.byte	3
	.byte	2
	.byte	1
	.byte	0
	.byte	15
	.byte	14
	.byte	13
	.byte	12
	.byte	11
	.byte	10
	.byte	9
	.byte	8
	.byte	7
	.byte	6
	.byte	5
	.byte	4
	.byte	3
	.byte	2
	.byte	1
	.byte	0
	.byte	15
	.byte	14
	.byte	13
	.byte	12
	.byte	11
	.byte	10
	.byte	9
	.byte	8
.LCPI26_1:
	.zero	32,15
.LCPI26_2:
	.zero	32,159
.LCPI26_3:
	.zero	32,48
.LCPI26_4:
	.zero	32,87
.LCPI26_5:
	.zero	32,9
.LCPI26_6:
	.zero	4,15
.LCPI26_7:
	.zero	4,48
.LCPI26_8:
	.zero	4,87
	.section	.text
	.p2align	4
	.def	"xet_roots::groups::write_text";
	.scl	3;
	.type	32;
	.endef
"xet_roots::groups::write_text":
.seh_proc "xet_roots::groups::write_text"
	pushq	%r15
	.seh_pushreg %r15
	pushq	%r14
	.seh_pushreg %r14
	pushq	%rsi
	.seh_pushreg %rsi
	pushq	%rdi
	.seh_pushreg %rdi
	pushq	%rbp
	.seh_pushreg %rbp
	pushq	%rbx
	.seh_pushreg %rbx
	subq	$88, %rsp
	.seh_stackalloc 88
	vmovdqa	%xmm6, 64(%rsp)
	.seh_savexmm %xmm6, 64
	.seh_endprologue
	testq	%r8, %r8
	je	.LBB26_1
	movq	%r8, %rsi
	movq	%rdx, %rdi
	movq	%rcx, %rbx
	xorl	%ecx, %ecx
	xorl	%r15d, %r15d
	jmp	.LBB26_3
.LBB26_19:
	movzwl	%r10w, %eax
	movzwl	(%r8,%rax,2), %eax
	movw	%ax, 29(%rsp,%r9)
	addq	$-3, %r9
.LBB26_20:
	movl	$20, %r8d
	subq	%r9, %r8
	leaq	(%r8,%rcx), %r14
	addq	%rbx, %rcx
	leaq	(%rsp,%r9), %rdx
	addq	$32, %rdx
	vzeroupper
	callq	memcpy
.LBB26_21:
	movb	$10, (%rbx,%r14)
	incq	%r14
	incq	%r15
	movq	%r14, %rcx
	cmpq	%rsi, %r15
	je	.LBB26_22
.LBB26_3:
	leaq	(%r15,%r15,4), %rax
	vmovdqu	(%rdi,%rax,8), %ymm0
	vpshufb	.LCPI26_0(%rip), %ymm0, %ymm0
	vpsrlw	$4, %ymm0, %ymm1
	vpbroadcastd	.LCPI26_6(%rip), %ymm2
	vpminub	.LCPI26_2(%rip), %ymm0, %ymm3
	vpand	%ymm2, %ymm1, %ymm1
	vpcmpeqb	%ymm3, %ymm0, %ymm3
	vpbroadcastd	.LCPI26_7(%rip), %ymm4
	vpor	%ymm4, %ymm1, %ymm5
	vpbroadcastd	.LCPI26_8(%rip), %ymm6
	vpaddb	%ymm6, %ymm1, %ymm1
	vpblendvb	%ymm3, %ymm5, %ymm1, %ymm1
	movq	32(%rdi,%rax,8), %rax
	vpand	%ymm2, %ymm0, %ymm0
	vpcmpgtb	.LCPI26_5(%rip), %ymm0, %ymm2
	vpor	%ymm4, %ymm0, %ymm3
	vpaddb	%ymm6, %ymm0, %ymm0
	vpblendvb	%ymm2, %ymm0, %ymm3, %ymm0
	vpunpckhbw	%ymm0, %ymm1, %ymm2
	vpunpcklbw	%ymm0, %ymm1, %ymm0
	vperm2i128	$32, %ymm2, %ymm0, %ymm1
	vperm2i128	$49, %ymm2, %ymm0, %ymm0
	vmovdqu	%ymm0, 32(%rbx,%rcx)
	vmovdqu	%ymm1, (%rbx,%rcx)
	leaq	(%rbx,%rcx), %rdx
	addq	$64, %rdx
	leaq	static.3(%rip), %r8
	movq	%rdx, %r9
	subq	%r8, %r9
	cmpq	$2, %r9
	ja	.LBB26_5
	leaq	(%rbx,%rcx), %rdx
	movw	$14880, 64(%rdx)
	movb	$32, 66(%rdx)
	cmpq	$99999999, %rax
	jbe	.LBB26_7
.LBB26_11:
	addq	$67, %rcx
	vpxor	%xmm0, %xmm0, %xmm0
	vmovdqa	%xmm0, 32(%rsp)
	movl	$0, 48(%rsp)
	movl	$19, %r9d
	.p2align	4
.LBB26_12:
	movq	%rax, %rdx
	movabsq	$3777893186295716171, %rax
	mulxq	%rax, %rax, %rax
	shrq	$11, %rax
	imull	$10000, %eax, %r8d
	movl	%edx, %r10d
	subl	%r8d, %r10d
	imull	$5243, %r10d, %r11d
	shrl	$19, %r11d
	imull	$100, %r11d, %r8d
	subl	%r8d, %r10d
	movzwl	%r10w, %r10d
	leaq	static.6(%rip), %r8
	movzwl	(%r8,%r10,2), %r10d
	movw	%r10w, 31(%rsp,%r9)
	movzwl	(%r8,%r11,2), %r10d
	movw	%r10w, 29(%rsp,%r9)
	addq	$-4, %r9
	cmpq	$99999999, %rdx
	ja	.LBB26_12
	cmpq	$999999, %rdx
	ja	.LBB26_17
	cmpq	$99999, %rdx
	ja	.LBB26_16
	orb	$48, %al
	movb	%al, 32(%rsp,%r9)
	jmp	.LBB26_20
	.p2align	4
.LBB26_5:
	movb	$32, 2(%rdx)
	movw	$14880, (%rdx)
	cmpq	$99999999, %rax
	ja	.LBB26_11
.LBB26_7:
	xorl	%edx, %edx
	cmpq	$9999, %rax
	ja	.LBB26_9
	cmpq	$1000, %rax
	adcq	$4, %rdx
	cmpq	$100, %rax
	movl	$6, %r8d
	cmovaeq	%rdx, %r8
	cmpq	$10, %rax
	movl	$7, %edx
	jmp	.LBB26_10
	.p2align	4
.LBB26_17:
	movl	%eax, %r10d
	shrl	$2, %r10d
	movzwl	%r10w, %r10d
	imull	$5243, %r10d, %r10d
	shrl	$17, %r10d
	imull	$100, %r10d, %r11d
	subl	%r11d, %eax
	movzwl	%ax, %eax
	movzwl	(%r8,%rax,2), %eax
	movw	%ax, 31(%rsp,%r9)
	cmpq	$9999999, %rdx
	ja	.LBB26_19
	orb	$48, %r10b
	movb	%r10b, 30(%rsp,%r9)
	addq	$-2, %r9
	jmp	.LBB26_20
	.p2align	4
.LBB26_9:
	cmpq	$10000000, %rax
	setb	%dl
	cmpq	$1000000, %rax
	movl	$2, %r8d
	cmovaeq	%rdx, %r8
	cmpq	$100000, %rax
	movl	$3, %edx
.LBB26_10:
	cmovaeq	%r8, %rdx
	movl	$3518437209, %r8d
	imulq	%rax, %r8
	shrq	$45, %r8
	movzwl	%r8w, %r9d
	shrl	$2, %r9d
	imull	$5243, %r9d, %r9d
	shrl	$17, %r9d
	leaq	static.6(%rip), %r10
	movzwl	(%r10,%r9,2), %r11d
	imull	$100, %r9d, %r9d
	imull	$10000, %r8d, %ebp
	subl	%r9d, %r8d
	movzwl	%r8w, %r8d
	movzwl	(%r10,%r8,2), %r8d
	shll	$16, %r8d
	orq	%r11, %r8
	subl	%ebp, %eax
	imull	$5243, %eax, %r9d
	shrl	$19, %r9d
	movzwl	(%r10,%r9,2), %r11d
	imull	$100, %r9d, %r9d
	subl	%r9d, %eax
	movzwl	%ax, %eax
	movzwl	(%r10,%rax,2), %eax
	shlq	$48, %rax
	shlq	$32, %r11
	orq	%r8, %r11
	orq	%rax, %r11
	leal	(,%rdx,8), %eax
	shrxq	%rax, %r11, %rax
	movq	%rax, 67(%rbx,%rcx)
	subq	%rdx, %rcx
	addq	$75, %rcx
	movq	%rcx, %r14
	jmp	.LBB26_21
.LBB26_16:
	movzwl	(%r8,%rax,2), %eax
	movw	%ax, 31(%rsp,%r9)
	decq	%r9
	jmp	.LBB26_20
.LBB26_1:
	xorl	%r14d, %r14d
.LBB26_22:
	movq	%r14, %rax
	vmovaps	64(%rsp), %xmm6
	addq	$88, %rsp
	popq	%rbx
	popq	%rbp
	popq	%rdi
	popq	%rsi
	popq	%r14
	popq	%r15
	vzeroupper
	retq
	.seh_endproc

	.section	.rdata,"dr"
	.p2align	2, 0x0
.LCPI27_0:
	.long	1779033703
.LCPI27_1:
	.long	3144134277
.LCPI27_2:
	.long	1013904242
.LCPI27_3:
	.long	2773480762
	.section	.text
	.p2align	4
	.def	"keyed_blake3::chunks::take_block::<#2e65a0a13cda87df>";
	.scl	3;
	.type	32;
	.endef
"keyed_blake3::chunks::take_block::<#2e65a0a13cda87df>":
.seh_proc "keyed_blake3::chunks::take_block::<#2e65a0a13cda87df>"
	pushq	%rbp
	.seh_pushreg %rbp
	pushq	%r15
	.seh_pushreg %r15
	pushq	%r14
	.seh_pushreg %r14
	pushq	%r12
	.seh_pushreg %r12
	pushq	%rsi
	.seh_pushreg %rsi
	pushq	%rdi
	.seh_pushreg %rdi
	pushq	%rbx
	.seh_pushreg %rbx
	subq	$192, %rsp
	.seh_stackalloc 192
	leaq	128(%rsp), %rbp
	.seh_setframe %rbp, 128
	vmovaps	%xmm15, 48(%rbp)
	.seh_savexmm %xmm15, 176
	vmovaps	%xmm14, 32(%rbp)
	.seh_savexmm %xmm14, 160
	vmovaps	%xmm13, 16(%rbp)
	.seh_savexmm %xmm13, 144
	vmovaps	%xmm12, (%rbp)
	.seh_savexmm %xmm12, 128
	vmovaps	%xmm11, -16(%rbp)
	.seh_savexmm %xmm11, 112
	vmovaps	%xmm10, -32(%rbp)
	.seh_savexmm %xmm10, 96
	vmovaps	%xmm9, -48(%rbp)
	.seh_savexmm %xmm9, 80
	vmovaps	%xmm8, -64(%rbp)
	.seh_savexmm %xmm8, 64
	vmovaps	%xmm7, -80(%rbp)
	.seh_savexmm %xmm7, 48
	vmovaps	%xmm6, -96(%rbp)
	.seh_savexmm %xmm6, 32
	.seh_endprologue
	andq	$-64, %rsp
	movq	176(%rbp), %rax
	movq	168(%rbp), %r10
	movq	160(%rbp), %r11
	shlq	$6, %r9
	addq	%rdx, %r9
	movq	(%r8), %rdx
	movq	8(%r8), %rsi
	shlq	$10, %rdx
	vmovdqu	(%rdx,%r9), %ymm0
	prefetcht0	128(%rdx,%r9)
	vmovdqu	32(%rdx,%r9), %ymm1
	shlq	$10, %rsi
	vmovdqu	(%rsi,%r9), %ymm2
	prefetcht0	128(%rsi,%r9)
	vmovdqu	32(%rsi,%r9), %ymm3
	movq	16(%r8), %rdx
	shlq	$10, %rdx
	vmovdqu	(%rdx,%r9), %ymm4
	prefetcht0	128(%rdx,%r9)
	vmovdqu	32(%rdx,%r9), %ymm5
	movq	24(%r8), %rdx
	shlq	$10, %rdx
	vmovdqu64	(%rdx,%r9), %ymm16
	prefetcht0	128(%rdx,%r9)
	vmovdqu64	32(%rdx,%r9), %ymm17
	movq	32(%r8), %rbx
	shlq	$10, %rbx
	movq	40(%r8), %rdi
	shlq	$10, %rdi
	movq	48(%r8), %rsi
	shlq	$10, %rsi
	movq	56(%r8), %rdx
	shlq	$10, %rdx
	movq	64(%r8), %r14
	shlq	$10, %r14
	vmovdqu64	(%r14,%r9), %ymm18
	prefetcht0	128(%r14,%r9)
	vmovdqu64	32(%r14,%r9), %ymm19
	movq	72(%r8), %r14
	shlq	$10, %r14
	vmovdqu64	(%r14,%r9), %ymm20
	prefetcht0	128(%r14,%r9)
	vmovdqu64	32(%r14,%r9), %ymm21
	movq	80(%r8), %r14
	shlq	$10, %r14
	vmovdqu64	(%r14,%r9), %ymm22
	prefetcht0	128(%r14,%r9)
	vmovdqu64	32(%r14,%r9), %ymm23
	movq	88(%r8), %r14
	shlq	$10, %r14
	vmovdqu64	(%r14,%r9), %ymm24
	prefetcht0	128(%r14,%r9)
	vmovdqu64	32(%r14,%r9), %ymm25
	movq	96(%r8), %r12
	shlq	$10, %r12
	movq	104(%r8), %r15
	shlq	$10, %r15
	movq	112(%r8), %r14
	shlq	$10, %r14
	movq	120(%r8), %r8
	shlq	$10, %r8
	vinserti64x4	$1, (%rbx,%r9), %zmm0, %zmm0
	prefetcht0	128(%rbx,%r9)
	vinserti64x4	$1, 32(%rbx,%r9), %zmm1, %zmm1
	vinserti64x4	$1, (%rdi,%r9), %zmm2, %zmm2
	prefetcht0	128(%rdi,%r9)
	vinserti64x4	$1, 32(%rdi,%r9), %zmm3, %zmm3
	vinserti64x4	$1, (%rsi,%r9), %zmm4, %zmm4
	prefetcht0	128(%rsi,%r9)
	vinserti64x4	$1, 32(%rsi,%r9), %zmm5, %zmm5
	vinserti64x4	$1, (%rdx,%r9), %zmm16, %zmm16
	prefetcht0	128(%rdx,%r9)
	vinserti64x4	$1, 32(%rdx,%r9), %zmm17, %zmm17
	vinserti64x4	$1, (%r12,%r9), %zmm18, %zmm18
	prefetcht0	128(%r12,%r9)
	vinserti64x4	$1, 32(%r12,%r9), %zmm19, %zmm19
	vinserti64x4	$1, (%r15,%r9), %zmm20, %zmm20
	prefetcht0	128(%r15,%r9)
	vinserti64x4	$1, 32(%r15,%r9), %zmm21, %zmm21
	vinserti64x4	$1, (%r14,%r9), %zmm22, %zmm22
	prefetcht0	128(%r14,%r9)
	vinserti64x4	$1, 32(%r14,%r9), %zmm23, %zmm23
	vinserti64x4	$1, (%r8,%r9), %zmm24, %zmm24
	prefetcht0	128(%r8,%r9)
	vinserti64x4	$1, 32(%r8,%r9), %zmm25, %zmm25
	vpunpckldq	%zmm2, %zmm0, %zmm26
	vpunpckhdq	%zmm2, %zmm0, %zmm0
	vpunpckldq	%zmm16, %zmm4, %zmm2
	vpunpckhdq	%zmm16, %zmm4, %zmm4
	vpunpckldq	%zmm20, %zmm18, %zmm16
	vpunpckhdq	%zmm20, %zmm18, %zmm18
	vpunpckldq	%zmm24, %zmm22, %zmm20
	vpunpckhdq	%zmm24, %zmm22, %zmm22
	vpunpckldq	%zmm3, %zmm1, %zmm24
	vpunpckhdq	%zmm3, %zmm1, %zmm1
	vpunpckldq	%zmm17, %zmm5, %zmm3
	vpunpckhdq	%zmm17, %zmm5, %zmm5
	vpunpckldq	%zmm21, %zmm19, %zmm17
	vpunpckhdq	%zmm21, %zmm19, %zmm19
	vpunpckldq	%zmm25, %zmm23, %zmm21
	vpunpckhdq	%zmm25, %zmm23, %zmm23
	vpunpcklqdq	%zmm2, %zmm26, %zmm25
	vpunpckhqdq	%zmm2, %zmm26, %zmm2
	vpunpcklqdq	%zmm4, %zmm0, %zmm26
	vpunpckhqdq	%zmm4, %zmm0, %zmm27
	vpunpcklqdq	%zmm20, %zmm16, %zmm0
	vpunpckhqdq	%zmm20, %zmm16, %zmm4
	vpunpcklqdq	%zmm22, %zmm18, %zmm16
	vpunpckhqdq	%zmm22, %zmm18, %zmm20
	vpunpcklqdq	%zmm3, %zmm24, %zmm28
	vpunpckhqdq	%zmm3, %zmm24, %zmm3
	vpunpcklqdq	%zmm5, %zmm1, %zmm29
	vpunpckhqdq	%zmm5, %zmm1, %zmm30
	vpunpcklqdq	%zmm21, %zmm17, %zmm1
	vpunpckhqdq	%zmm21, %zmm17, %zmm17
	vpunpcklqdq	%zmm23, %zmm19, %zmm21
	vpunpckhqdq	%zmm23, %zmm19, %zmm31
	vshufi64x2	$136, %zmm0, %zmm25, %zmm18
	vshufi64x2	$221, %zmm0, %zmm25, %zmm0
	vshufi64x2	$136, %zmm4, %zmm2, %zmm22
	vshufi64x2	$221, %zmm4, %zmm2, %zmm23
	vshufi64x2	$136, %zmm16, %zmm26, %zmm4
	vshufi64x2	$221, %zmm16, %zmm26, %zmm19
	vshufi64x2	$136, %zmm20, %zmm27, %zmm5
	vshufi64x2	$221, %zmm20, %zmm27, %zmm16
	vshufi64x2	$136, %zmm1, %zmm28, %zmm24
	vshufi64x2	$221, %zmm1, %zmm28, %zmm1
	vshufi64x2	$136, %zmm17, %zmm3, %zmm20
	vshufi64x2	$221, %zmm17, %zmm3, %zmm3
	vshufi64x2	$136, %zmm21, %zmm29, %zmm2
	vshufi64x2	$221, %zmm21, %zmm29, %zmm17
	vshufi64x2	$136, %zmm31, %zmm30, %zmm25
	vshufi64x2	$221, %zmm31, %zmm30, %zmm21
	vmovdqu64	256(%rcx), %zmm26
	vmovdqu64	320(%rcx), %zmm27
	vmovdqu64	384(%rcx), %zmm28
	vmovdqu64	448(%rcx), %zmm29
	vpaddd	(%rcx), %zmm18, %zmm30
	vpaddd	64(%rcx), %zmm4, %zmm31
	vpaddd	%zmm26, %zmm30, %zmm30
	vpaddd	%zmm27, %zmm31, %zmm31
	vpaddd	128(%rcx), %zmm0, %zmm6
	vpaddd	%zmm28, %zmm6, %zmm6
	vpaddd	192(%rcx), %zmm19, %zmm7
	vpaddd	%zmm29, %zmm7, %zmm7
	vpxorq	(%r11), %zmm30, %zmm8
	vpxorq	64(%r11), %zmm31, %zmm9
	vprold	$16, %zmm8, %zmm8
	vprold	$16, %zmm9, %zmm9
	vpxorq	(%r10), %zmm6, %zmm10
	vprold	$16, %zmm10, %zmm10
	vpxorq	(%rax), %zmm7, %zmm11
	vprold	$16, %zmm11, %zmm11
	vpaddd	.LCPI27_0(%rip){1to16}, %zmm8, %zmm12
	vpaddd	.LCPI27_1(%rip){1to16}, %zmm9, %zmm13
	vpaddd	.LCPI27_2(%rip){1to16}, %zmm10, %zmm14
	vpaddd	.LCPI27_3(%rip){1to16}, %zmm11, %zmm15
	vpxord	%zmm26, %zmm12, %zmm26
	vpxord	%zmm27, %zmm13, %zmm27
	vpxord	%zmm28, %zmm14, %zmm28
	vpxord	%zmm29, %zmm15, %zmm29
	vprold	$20, %zmm26, %zmm26
	vprold	$20, %zmm27, %zmm27
	vprold	$20, %zmm28, %zmm28
	vprold	$20, %zmm29, %zmm29
	vpaddd	%zmm22, %zmm30, %zmm30
	vpaddd	%zmm26, %zmm30, %zmm30
	vpaddd	%zmm5, %zmm31, %zmm31
	vpaddd	%zmm27, %zmm31, %zmm31
	vpaddd	%zmm23, %zmm6, %zmm6
	vpaddd	%zmm28, %zmm6, %zmm6
	vpaddd	%zmm16, %zmm7, %zmm7
	vpaddd	%zmm29, %zmm7, %zmm7
	vpxorq	%zmm30, %zmm8, %zmm8
	vprold	$24, %zmm8, %zmm8
	vpxorq	%zmm31, %zmm9, %zmm9
	vprold	$24, %zmm9, %zmm9
	vpxorq	%zmm6, %zmm10, %zmm10
	vprold	$24, %zmm10, %zmm10
	vpxorq	%zmm7, %zmm11, %zmm11
	vprold	$24, %zmm11, %zmm11
	vpaddd	%zmm8, %zmm12, %zmm12
	vpaddd	%zmm9, %zmm13, %zmm13
	vpaddd	%zmm10, %zmm14, %zmm14
	vpaddd	%zmm11, %zmm15, %zmm15
	vpxord	%zmm26, %zmm12, %zmm26
	vpxord	%zmm27, %zmm13, %zmm27
	vpxord	%zmm28, %zmm14, %zmm28
	vpxord	%zmm29, %zmm15, %zmm29
	vprold	$25, %zmm26, %zmm26
	vprold	$25, %zmm27, %zmm27
	vprold	$25, %zmm28, %zmm28
	vprold	$25, %zmm29, %zmm29
	vpaddd	%zmm17, %zmm7, %zmm7
	vpaddd	%zmm26, %zmm7, %zmm7
	vpaddd	%zmm24, %zmm30, %zmm30
	vpaddd	%zmm27, %zmm30, %zmm30
	vpaddd	%zmm2, %zmm31, %zmm31
	vpaddd	%zmm28, %zmm31, %zmm31
	vpaddd	%zmm1, %zmm6, %zmm6
	vpaddd	%zmm29, %zmm6, %zmm6
	vpxorq	%zmm7, %zmm10, %zmm10
	vprold	$16, %zmm10, %zmm10
	vpxorq	%zmm30, %zmm11, %zmm11
	vprold	$16, %zmm11, %zmm11
	vpxorq	%zmm31, %zmm8, %zmm8
	vprold	$16, %zmm8, %zmm8
	vpxorq	%zmm6, %zmm9, %zmm9
	vprold	$16, %zmm9, %zmm9
	vpaddd	%zmm10, %zmm13, %zmm13
	vpaddd	%zmm11, %zmm14, %zmm14
	vpaddd	%zmm8, %zmm15, %zmm15
	vpaddd	%zmm9, %zmm12, %zmm12
	vpxord	%zmm26, %zmm13, %zmm26
	vpxord	%zmm27, %zmm14, %zmm27
	vpxord	%zmm28, %zmm15, %zmm28
	vpxord	%zmm29, %zmm12, %zmm29
	vprold	$20, %zmm26, %zmm26
	vprold	$20, %zmm27, %zmm27
	vprold	$20, %zmm28, %zmm28
	vprold	$20, %zmm29, %zmm29
	vpaddd	%zmm21, %zmm7, %zmm7
	vpaddd	%zmm26, %zmm7, %zmm7
	vpaddd	%zmm20, %zmm30, %zmm30
	vpaddd	%zmm27, %zmm30, %zmm30
	vpaddd	%zmm25, %zmm31, %zmm31
	vpaddd	%zmm28, %zmm31, %zmm31
	vpaddd	%zmm3, %zmm6, %zmm6
	vpaddd	%zmm29, %zmm6, %zmm6
	vpxorq	%zmm7, %zmm10, %zmm10
	vprold	$24, %zmm10, %zmm10
	vpxorq	%zmm30, %zmm11, %zmm11
	vprold	$24, %zmm11, %zmm11
	vpxorq	%zmm31, %zmm8, %zmm8
	vprold	$24, %zmm8, %zmm8
	vpxorq	%zmm6, %zmm9, %zmm9
	vprold	$24, %zmm9, %zmm9
	vpaddd	%zmm10, %zmm13, %zmm13
	vpaddd	%zmm11, %zmm14, %zmm14
	vpaddd	%zmm8, %zmm15, %zmm15
	vpaddd	%zmm9, %zmm12, %zmm12
	vpxord	%zmm26, %zmm13, %zmm26
	vpxord	%zmm27, %zmm14, %zmm27
	vpxord	%zmm28, %zmm15, %zmm28
	vpxord	%zmm29, %zmm12, %zmm29
	vprold	$25, %zmm26, %zmm26
	vprold	$25, %zmm27, %zmm27
	vprold	$25, %zmm28, %zmm28
	vprold	$25, %zmm29, %zmm29
	vpaddd	%zmm4, %zmm30, %zmm30
	vpaddd	%zmm26, %zmm30, %zmm30
	vpaddd	%zmm5, %zmm31, %zmm31
	vpaddd	%zmm27, %zmm31, %zmm31
	vpaddd	%zmm16, %zmm6, %zmm6
	vpaddd	%zmm28, %zmm6, %zmm6
	vpaddd	%zmm0, %zmm7, %zmm7
	vpaddd	%zmm29, %zmm7, %zmm7
	vpxorq	%zmm30, %zmm8, %zmm8
	vprold	$16, %zmm8, %zmm8
	vpxorq	%zmm31, %zmm9, %zmm9
	vprold	$16, %zmm9, %zmm9
	vpxorq	%zmm6, %zmm10, %zmm10
	vprold	$16, %zmm10, %zmm10
	vpxorq	%zmm7, %zmm11, %zmm11
	vprold	$16, %zmm11, %zmm11
	vpaddd	%zmm8, %zmm12, %zmm12
	vpaddd	%zmm9, %zmm13, %zmm13
	vpaddd	%zmm10, %zmm14, %zmm14
	vpaddd	%zmm11, %zmm15, %zmm15
	vpxord	%zmm26, %zmm12, %zmm26
	vpxord	%zmm27, %zmm13, %zmm27
	vpxord	%zmm28, %zmm14, %zmm28
	vpxord	%zmm29, %zmm15, %zmm29
	vprold	$20, %zmm26, %zmm26
	vprold	$20, %zmm27, %zmm27
	vprold	$20, %zmm28, %zmm28
	vprold	$20, %zmm29, %zmm29
	vpaddd	%zmm19, %zmm30, %zmm30
	vpaddd	%zmm26, %zmm30, %zmm30
	vpaddd	%zmm2, %zmm31, %zmm31
	vpaddd	%zmm27, %zmm31, %zmm31
	vpaddd	%zmm18, %zmm6, %zmm6
	vpaddd	%zmm28, %zmm6, %zmm6
	vpaddd	%zmm3, %zmm7, %zmm7
	vpaddd	%zmm29, %zmm7, %zmm7
	vpxorq	%zmm30, %zmm8, %zmm8
	vprold	$24, %zmm8, %zmm8
	vpxorq	%zmm31, %zmm9, %zmm9
	vprold	$24, %zmm9, %zmm9
	vpxorq	%zmm6, %zmm10, %zmm10
	vprold	$24, %zmm10, %zmm10
	vpxorq	%zmm7, %zmm11, %zmm11
	vprold	$24, %zmm11, %zmm11
	vpaddd	%zmm8, %zmm12, %zmm12
	vpaddd	%zmm9, %zmm13, %zmm13
	vpaddd	%zmm10, %zmm14, %zmm14
	vpaddd	%zmm11, %zmm15, %zmm15
	vpxord	%zmm26, %zmm12, %zmm26
	vpxord	%zmm27, %zmm13, %zmm27
	vpxord	%zmm28, %zmm14, %zmm28
	vpxord	%zmm29, %zmm15, %zmm29
	vprold	$25, %zmm26, %zmm26
	vprold	$25, %zmm27, %zmm27
	vprold	$25, %zmm28, %zmm28
	vprold	$25, %zmm29, %zmm29
	vpaddd	%zmm21, %zmm7, %zmm7
	vpaddd	%zmm26, %zmm7, %zmm7
	vpaddd	%zmm22, %zmm30, %zmm30
	vpaddd	%zmm27, %zmm30, %zmm30
	vpaddd	%zmm1, %zmm31, %zmm31
	vpaddd	%zmm28, %zmm31, %zmm31
	vpaddd	%zmm20, %zmm6, %zmm6
	vpaddd	%zmm29, %zmm6, %zmm6
	vpxorq	%zmm7, %zmm10, %zmm10
	vprold	$16, %zmm10, %zmm10
	vpxorq	%zmm30, %zmm11, %zmm11
	vprold	$16, %zmm11, %zmm11
	vpxorq	%zmm31, %zmm8, %zmm8
	vprold	$16, %zmm8, %zmm8
	vpxorq	%zmm6, %zmm9, %zmm9
	vprold	$16, %zmm9, %zmm9
	vpaddd	%zmm10, %zmm13, %zmm13
	vpaddd	%zmm11, %zmm14, %zmm14
	vpaddd	%zmm8, %zmm15, %zmm15
	vpaddd	%zmm9, %zmm12, %zmm12
	vpxord	%zmm26, %zmm13, %zmm26
	vpxord	%zmm27, %zmm14, %zmm27
	vpxord	%zmm28, %zmm15, %zmm28
	vpxord	%zmm29, %zmm12, %zmm29
	vprold	$20, %zmm26, %zmm26
	vprold	$20, %zmm27, %zmm27
	vprold	$20, %zmm28, %zmm28
	vprold	$20, %zmm29, %zmm29
	vpaddd	%zmm24, %zmm7, %zmm7
	vpaddd	%zmm26, %zmm7, %zmm7
	vpaddd	%zmm25, %zmm30, %zmm30
	vpaddd	%zmm27, %zmm30, %zmm30
	vpaddd	%zmm23, %zmm31, %zmm31
	vpaddd	%zmm28, %zmm31, %zmm31
	vpaddd	%zmm17, %zmm6, %zmm6
	vpaddd	%zmm29, %zmm6, %zmm6
	vpxorq	%zmm7, %zmm10, %zmm10
	vprold	$24, %zmm10, %zmm10
	vpxorq	%zmm30, %zmm11, %zmm11
	vprold	$24, %zmm11, %zmm11
	vpxorq	%zmm31, %zmm8, %zmm8
	vprold	$24, %zmm8, %zmm8
	vpxorq	%zmm6, %zmm9, %zmm9
	vprold	$24, %zmm9, %zmm9
	vpaddd	%zmm10, %zmm13, %zmm13
	vpaddd	%zmm11, %zmm14, %zmm14
	vpaddd	%zmm8, %zmm15, %zmm15
	vpaddd	%zmm9, %zmm12, %zmm12
	vpxord	%zmm26, %zmm13, %zmm26
	vpxord	%zmm27, %zmm14, %zmm27
	vpxord	%zmm28, %zmm15, %zmm28
	vpxord	%zmm29, %zmm12, %zmm29
	vprold	$25, %zmm26, %zmm26
	vprold	$25, %zmm27, %zmm27
	vprold	$25, %zmm28, %zmm28
	vprold	$25, %zmm29, %zmm29
	vpaddd	%zmm5, %zmm30, %zmm30
	vpaddd	%zmm26, %zmm30, %zmm30
	vpaddd	%zmm2, %zmm31, %zmm31
	vpaddd	%zmm27, %zmm31, %zmm31
	vpaddd	%zmm3, %zmm6, %zmm6
	vpaddd	%zmm28, %zmm6, %zmm6
	vpaddd	%zmm16, %zmm7, %zmm7
	vpaddd	%zmm29, %zmm7, %zmm7
	vpxorq	%zmm30, %zmm8, %zmm8
	vprold	$16, %zmm8, %zmm8
	vpxorq	%zmm31, %zmm9, %zmm9
	vprold	$16, %zmm9, %zmm9
	vpxorq	%zmm6, %zmm10, %zmm10
	vprold	$16, %zmm10, %zmm10
	vpxorq	%zmm7, %zmm11, %zmm11
	vprold	$16, %zmm11, %zmm11
	vpaddd	%zmm8, %zmm12, %zmm12
	vpaddd	%zmm9, %zmm13, %zmm13
	vpaddd	%zmm10, %zmm14, %zmm14
	vpaddd	%zmm11, %zmm15, %zmm15
	vpxord	%zmm26, %zmm12, %zmm26
	vpxord	%zmm27, %zmm13, %zmm27
	vpxord	%zmm28, %zmm14, %zmm28
	vpxord	%zmm29, %zmm15, %zmm29
	vprold	$20, %zmm26, %zmm26
	vprold	$20, %zmm27, %zmm27
	vprold	$20, %zmm28, %zmm28
	vprold	$20, %zmm29, %zmm29
	vpaddd	%zmm0, %zmm30, %zmm30
	vpaddd	%zmm26, %zmm30, %zmm30
	vpaddd	%zmm1, %zmm31, %zmm31
	vpaddd	%zmm27, %zmm31, %zmm31
	vpaddd	%zmm4, %zmm6, %zmm6
	vpaddd	%zmm28, %zmm6, %zmm6
	vpaddd	%zmm17, %zmm7, %zmm7
	vpaddd	%zmm29, %zmm7, %zmm7
	vpxorq	%zmm30, %zmm8, %zmm8
	vprold	$24, %zmm8, %zmm8
	vpxorq	%zmm31, %zmm9, %zmm9
	vprold	$24, %zmm9, %zmm9
	vpxorq	%zmm6, %zmm10, %zmm10
	vprold	$24, %zmm10, %zmm10
	vpxorq	%zmm7, %zmm11, %zmm11
	vprold	$24, %zmm11, %zmm11
	vpaddd	%zmm8, %zmm12, %zmm12
	vpaddd	%zmm9, %zmm13, %zmm13
	vpaddd	%zmm10, %zmm14, %zmm14
	vpaddd	%zmm11, %zmm15, %zmm15
	vpxord	%zmm26, %zmm12, %zmm26
	vpxord	%zmm27, %zmm13, %zmm27
	vpxord	%zmm28, %zmm14, %zmm28
	vpxord	%zmm29, %zmm15, %zmm29
	vprold	$25, %zmm26, %zmm26
	vprold	$25, %zmm27, %zmm27
	vprold	$25, %zmm28, %zmm28
	vprold	$25, %zmm29, %zmm29
	vpaddd	%zmm24, %zmm7, %zmm7
	vpaddd	%zmm26, %zmm7, %zmm7
	vpaddd	%zmm19, %zmm30, %zmm30
	vpaddd	%zmm27, %zmm30, %zmm30
	vpaddd	%zmm20, %zmm31, %zmm31
	vpaddd	%zmm28, %zmm31, %zmm31
	vpaddd	%zmm25, %zmm6, %zmm6
	vpaddd	%zmm29, %zmm6, %zmm6
	vpxorq	%zmm7, %zmm10, %zmm10
	vprold	$16, %zmm10, %zmm10
	vpxorq	%zmm30, %zmm11, %zmm11
	vprold	$16, %zmm11, %zmm11
	vpxorq	%zmm31, %zmm8, %zmm8
	vprold	$16, %zmm8, %zmm8
	vpxorq	%zmm6, %zmm9, %zmm9
	vprold	$16, %zmm9, %zmm9
	vpaddd	%zmm10, %zmm13, %zmm13
	vpaddd	%zmm11, %zmm14, %zmm14
	vpaddd	%zmm8, %zmm15, %zmm15
	vpaddd	%zmm9, %zmm12, %zmm12
	vpxord	%zmm26, %zmm13, %zmm26
	vpxord	%zmm27, %zmm14, %zmm27
	vpxord	%zmm28, %zmm15, %zmm28
	vpxord	%zmm29, %zmm12, %zmm29
	vprold	$20, %zmm26, %zmm26
	vprold	$20, %zmm27, %zmm27
	vprold	$20, %zmm28, %zmm28
	vprold	$20, %zmm29, %zmm29
	vpaddd	%zmm22, %zmm7, %zmm7
	vpaddd	%zmm26, %zmm7, %zmm7
	vpaddd	%zmm23, %zmm30, %zmm30
	vpaddd	%zmm27, %zmm30, %zmm30
	vpaddd	%zmm18, %zmm31, %zmm31
	vpaddd	%zmm28, %zmm31, %zmm31
	vpaddd	%zmm21, %zmm6, %zmm6
	vpaddd	%zmm29, %zmm6, %zmm6
	vpxorq	%zmm7, %zmm10, %zmm10
	vprold	$24, %zmm10, %zmm10
	vpxorq	%zmm30, %zmm11, %zmm11
	vprold	$24, %zmm11, %zmm11
	vpxorq	%zmm31, %zmm8, %zmm8
	vprold	$24, %zmm8, %zmm8
	vpxorq	%zmm6, %zmm9, %zmm9
	vprold	$24, %zmm9, %zmm9
	vpaddd	%zmm10, %zmm13, %zmm13
	vpaddd	%zmm11, %zmm14, %zmm14
	vpaddd	%zmm8, %zmm15, %zmm15
	vpaddd	%zmm9, %zmm12, %zmm12
	vpxord	%zmm26, %zmm13, %zmm26
	vpxord	%zmm27, %zmm14, %zmm27
	vpxord	%zmm28, %zmm15, %zmm28
	vpxord	%zmm29, %zmm12, %zmm29
	vprold	$25, %zmm26, %zmm26
	vprold	$25, %zmm27, %zmm27
	vprold	$25, %zmm28, %zmm28
	vprold	$25, %zmm29, %zmm29
	vpaddd	%zmm2, %zmm30, %zmm30
	vpaddd	%zmm26, %zmm30, %zmm30
	vpaddd	%zmm1, %zmm31, %zmm31
	vpaddd	%zmm27, %zmm31, %zmm31
	vpaddd	%zmm17, %zmm6, %zmm6
	vpaddd	%zmm28, %zmm6, %zmm6
	vpaddd	%zmm3, %zmm7, %zmm7
	vpaddd	%zmm29, %zmm7, %zmm7
	vpxorq	%zmm30, %zmm8, %zmm8
	vprold	$16, %zmm8, %zmm8
	vpxorq	%zmm31, %zmm9, %zmm9
	vprold	$16, %zmm9, %zmm9
	vpxorq	%zmm6, %zmm10, %zmm10
	vprold	$16, %zmm10, %zmm10
	vpxorq	%zmm7, %zmm11, %zmm11
	vprold	$16, %zmm11, %zmm11
	vpaddd	%zmm8, %zmm12, %zmm12
	vpaddd	%zmm9, %zmm13, %zmm13
	vpaddd	%zmm10, %zmm14, %zmm14
	vpaddd	%zmm11, %zmm15, %zmm15
	vpxord	%zmm26, %zmm12, %zmm26
	vpxord	%zmm27, %zmm13, %zmm27
	vpxord	%zmm28, %zmm14, %zmm28
	vpxord	%zmm29, %zmm15, %zmm29
	vprold	$20, %zmm26, %zmm26
	vprold	$20, %zmm27, %zmm27
	vprold	$20, %zmm28, %zmm28
	vprold	$20, %zmm29, %zmm29
	vpaddd	%zmm16, %zmm30, %zmm30
	vpaddd	%zmm26, %zmm30, %zmm30
	vpaddd	%zmm20, %zmm31, %zmm31
	vpaddd	%zmm27, %zmm31, %zmm31
	vpaddd	%zmm5, %zmm6, %zmm6
	vpaddd	%zmm28, %zmm6, %zmm6
	vpaddd	%zmm21, %zmm7, %zmm7
	vpaddd	%zmm29, %zmm7, %zmm7
	vpxorq	%zmm30, %zmm8, %zmm8
	vprold	$24, %zmm8, %zmm8
	vpxorq	%zmm31, %zmm9, %zmm9
	vprold	$24, %zmm9, %zmm9
	vpxorq	%zmm6, %zmm10, %zmm10
	vprold	$24, %zmm10, %zmm10
	vpxorq	%zmm7, %zmm11, %zmm11
	vprold	$24, %zmm11, %zmm11
	vpaddd	%zmm8, %zmm12, %zmm12
	vpaddd	%zmm9, %zmm13, %zmm13
	vpaddd	%zmm10, %zmm14, %zmm14
	vpaddd	%zmm11, %zmm15, %zmm15
	vpxord	%zmm26, %zmm12, %zmm26
	vpxord	%zmm27, %zmm13, %zmm27
	vpxord	%zmm28, %zmm14, %zmm28
	vpxord	%zmm29, %zmm15, %zmm29
	vprold	$25, %zmm26, %zmm26
	vprold	$25, %zmm27, %zmm27
	vprold	$25, %zmm28, %zmm28
	vprold	$25, %zmm29, %zmm29
	vpaddd	%zmm22, %zmm7, %zmm7
	vpaddd	%zmm26, %zmm7, %zmm7
	vpaddd	%zmm0, %zmm30, %zmm30
	vpaddd	%zmm27, %zmm30, %zmm30
	vpaddd	%zmm25, %zmm31, %zmm31
	vpaddd	%zmm28, %zmm31, %zmm31
	vpaddd	%zmm23, %zmm6, %zmm6
	vpaddd	%zmm29, %zmm6, %zmm6
	vpxorq	%zmm7, %zmm10, %zmm10
	vprold	$16, %zmm10, %zmm10
	vpxorq	%zmm30, %zmm11, %zmm11
	vprold	$16, %zmm11, %zmm11
	vpxorq	%zmm31, %zmm8, %zmm8
	vprold	$16, %zmm8, %zmm8
	vpxorq	%zmm6, %zmm9, %zmm9
	vprold	$16, %zmm9, %zmm9
	vpaddd	%zmm10, %zmm13, %zmm13
	vpaddd	%zmm11, %zmm14, %zmm14
	vpaddd	%zmm8, %zmm15, %zmm15
	vpaddd	%zmm9, %zmm12, %zmm12
	vpxord	%zmm26, %zmm13, %zmm26
	vpxord	%zmm27, %zmm14, %zmm27
	vpxord	%zmm28, %zmm15, %zmm28
	vpxord	%zmm29, %zmm12, %zmm29
	vprold	$20, %zmm26, %zmm26
	vprold	$20, %zmm27, %zmm27
	vprold	$20, %zmm28, %zmm28
	vprold	$20, %zmm29, %zmm29
	vpaddd	%zmm19, %zmm7, %zmm7
	vpaddd	%zmm26, %zmm7, %zmm7
	vpaddd	%zmm18, %zmm30, %zmm30
	vpaddd	%zmm27, %zmm30, %zmm30
	vpaddd	%zmm4, %zmm31, %zmm31
	vpaddd	%zmm28, %zmm31, %zmm31
	vpaddd	%zmm24, %zmm6, %zmm6
	vpaddd	%zmm29, %zmm6, %zmm6
	vpxorq	%zmm7, %zmm10, %zmm10
	vprold	$24, %zmm10, %zmm10
	vpxorq	%zmm30, %zmm11, %zmm11
	vprold	$24, %zmm11, %zmm11
	vpxorq	%zmm31, %zmm8, %zmm8
	vprold	$24, %zmm8, %zmm8
	vpxorq	%zmm6, %zmm9, %zmm9
	vprold	$24, %zmm9, %zmm9
	vpaddd	%zmm10, %zmm13, %zmm13
	vpaddd	%zmm11, %zmm14, %zmm14
	vpaddd	%zmm8, %zmm15, %zmm15
	vpaddd	%zmm9, %zmm12, %zmm12
	vpxord	%zmm26, %zmm13, %zmm26
	vpxord	%zmm27, %zmm14, %zmm27
	vpxord	%zmm28, %zmm15, %zmm28
	vpxord	%zmm29, %zmm12, %zmm29
	vprold	$25, %zmm26, %zmm26
	vprold	$25, %zmm27, %zmm27
	vprold	$25, %zmm28, %zmm28
	vprold	$25, %zmm29, %zmm29
	vpaddd	%zmm1, %zmm30, %zmm30
	vpaddd	%zmm26, %zmm30, %zmm30
	vpaddd	%zmm20, %zmm31, %zmm31
	vpaddd	%zmm27, %zmm31, %zmm31
	vpaddd	%zmm21, %zmm6, %zmm6
	vpaddd	%zmm28, %zmm6, %zmm6
	vpaddd	%zmm17, %zmm7, %zmm7
	vpaddd	%zmm29, %zmm7, %zmm7
	vpxorq	%zmm30, %zmm8, %zmm8
	vprold	$16, %zmm8, %zmm8
	vpxorq	%zmm31, %zmm9, %zmm9
	vprold	$16, %zmm9, %zmm9
	vpxorq	%zmm6, %zmm10, %zmm10
	vprold	$16, %zmm10, %zmm10
	vpxorq	%zmm7, %zmm11, %zmm11
	vprold	$16, %zmm11, %zmm11
	vpaddd	%zmm8, %zmm12, %zmm12
	vpaddd	%zmm9, %zmm13, %zmm13
	vpaddd	%zmm10, %zmm14, %zmm14
	vpaddd	%zmm11, %zmm15, %zmm15
	vpxord	%zmm26, %zmm12, %zmm26
	vpxord	%zmm27, %zmm13, %zmm27
	vpxord	%zmm28, %zmm14, %zmm28
	vpxord	%zmm29, %zmm15, %zmm29
	vprold	$20, %zmm26, %zmm26
	vprold	$20, %zmm27, %zmm27
	vprold	$20, %zmm28, %zmm28
	vprold	$20, %zmm29, %zmm29
	vpaddd	%zmm3, %zmm30, %zmm30
	vpaddd	%zmm26, %zmm30, %zmm30
	vpaddd	%zmm25, %zmm31, %zmm31
	vpaddd	%zmm27, %zmm31, %zmm31
	vpaddd	%zmm2, %zmm6, %zmm6
	vpaddd	%zmm28, %zmm6, %zmm6
	vpaddd	%zmm24, %zmm7, %zmm7
	vpaddd	%zmm29, %zmm7, %zmm7
	vpxorq	%zmm30, %zmm8, %zmm8
	vprold	$24, %zmm8, %zmm8
	vpxorq	%zmm31, %zmm9, %zmm9
	vprold	$24, %zmm9, %zmm9
	vpxorq	%zmm6, %zmm10, %zmm10
	vprold	$24, %zmm10, %zmm10
	vpxorq	%zmm7, %zmm11, %zmm11
	vprold	$24, %zmm11, %zmm11
	vpaddd	%zmm8, %zmm12, %zmm12
	vpaddd	%zmm9, %zmm13, %zmm13
	vpaddd	%zmm10, %zmm14, %zmm14
	vpaddd	%zmm11, %zmm15, %zmm15
	vpxord	%zmm26, %zmm12, %zmm26
	vpxord	%zmm27, %zmm13, %zmm27
	vpxord	%zmm28, %zmm14, %zmm28
	vpxord	%zmm29, %zmm15, %zmm29
	vprold	$25, %zmm26, %zmm26
	vprold	$25, %zmm27, %zmm27
	vprold	$25, %zmm28, %zmm28
	vprold	$25, %zmm29, %zmm29
	vpaddd	%zmm19, %zmm7, %zmm7
	vpaddd	%zmm26, %zmm7, %zmm7
	vpaddd	%zmm16, %zmm30, %zmm30
	vpaddd	%zmm27, %zmm30, %zmm30
	vpaddd	%zmm23, %zmm31, %zmm31
	vpaddd	%zmm28, %zmm31, %zmm31
	vpaddd	%zmm18, %zmm6, %zmm6
	vpaddd	%zmm29, %zmm6, %zmm6
	vpxorq	%zmm7, %zmm10, %zmm10
	vprold	$16, %zmm10, %zmm10
	vpxorq	%zmm30, %zmm11, %zmm11
	vprold	$16, %zmm11, %zmm11
	vpxorq	%zmm31, %zmm8, %zmm8
	vprold	$16, %zmm8, %zmm8
	vpxorq	%zmm6, %zmm9, %zmm9
	vprold	$16, %zmm9, %zmm9
	vpaddd	%zmm10, %zmm13, %zmm13
	vpaddd	%zmm11, %zmm14, %zmm14
	vpaddd	%zmm8, %zmm15, %zmm15
	vpaddd	%zmm9, %zmm12, %zmm12
	vpxord	%zmm26, %zmm13, %zmm26
	vpxord	%zmm27, %zmm14, %zmm27
	vpxord	%zmm28, %zmm15, %zmm28
	vpxord	%zmm29, %zmm12, %zmm29
	vprold	$20, %zmm26, %zmm26
	vprold	$20, %zmm27, %zmm27
	vprold	$20, %zmm28, %zmm28
	vprold	$20, %zmm29, %zmm29
	vpaddd	%zmm0, %zmm7, %zmm7
	vpaddd	%zmm26, %zmm7, %zmm7
	vpaddd	%zmm4, %zmm30, %zmm30
	vpaddd	%zmm27, %zmm30, %zmm30
	vpaddd	%zmm5, %zmm31, %zmm31
	vpaddd	%zmm28, %zmm31, %zmm31
	vpaddd	%zmm22, %zmm6, %zmm6
	vpaddd	%zmm29, %zmm6, %zmm6
	vpxorq	%zmm7, %zmm10, %zmm10
	vprold	$24, %zmm10, %zmm10
	vpxorq	%zmm30, %zmm11, %zmm11
	vprold	$24, %zmm11, %zmm11
	vpxorq	%zmm31, %zmm8, %zmm8
	vprold	$24, %zmm8, %zmm8
	vpxorq	%zmm6, %zmm9, %zmm9
	vprold	$24, %zmm9, %zmm9
	vpaddd	%zmm10, %zmm13, %zmm13
	vpaddd	%zmm11, %zmm14, %zmm14
	vpaddd	%zmm8, %zmm15, %zmm15
	vpaddd	%zmm9, %zmm12, %zmm12
	vpxord	%zmm26, %zmm13, %zmm26
	vpxord	%zmm27, %zmm14, %zmm27
	vpxord	%zmm28, %zmm15, %zmm28
	vpxord	%zmm29, %zmm12, %zmm29
	vprold	$25, %zmm26, %zmm26
	vprold	$25, %zmm27, %zmm27
	vprold	$25, %zmm28, %zmm28
	vprold	$25, %zmm29, %zmm29
	vpaddd	%zmm20, %zmm30, %zmm30
	vpaddd	%zmm26, %zmm30, %zmm30
	vpaddd	%zmm25, %zmm31, %zmm31
	vpaddd	%zmm27, %zmm31, %zmm31
	vpaddd	%zmm24, %zmm6, %zmm6
	vpaddd	%zmm28, %zmm6, %zmm6
	vpaddd	%zmm21, %zmm7, %zmm7
	vpaddd	%zmm29, %zmm7, %zmm7
	vpxorq	%zmm30, %zmm8, %zmm8
	vprold	$16, %zmm8, %zmm8
	vpxorq	%zmm31, %zmm9, %zmm9
	vprold	$16, %zmm9, %zmm9
	vpxorq	%zmm6, %zmm10, %zmm10
	vprold	$16, %zmm10, %zmm10
	vpxorq	%zmm7, %zmm11, %zmm11
	vprold	$16, %zmm11, %zmm11
	vpaddd	%zmm8, %zmm12, %zmm12
	vpaddd	%zmm9, %zmm13, %zmm13
	vpaddd	%zmm10, %zmm14, %zmm14
	vpaddd	%zmm11, %zmm15, %zmm15
	vpxord	%zmm26, %zmm12, %zmm26
	vpxord	%zmm27, %zmm13, %zmm27
	vpxord	%zmm28, %zmm14, %zmm28
	vpxord	%zmm29, %zmm15, %zmm29
	vprold	$20, %zmm26, %zmm26
	vprold	$20, %zmm27, %zmm27
	vprold	$20, %zmm28, %zmm28
	vprold	$20, %zmm29, %zmm29
	vpaddd	%zmm17, %zmm30, %zmm30
	vpaddd	%zmm26, %zmm30, %zmm30
	vpaddd	%zmm23, %zmm31, %zmm31
	vpaddd	%zmm27, %zmm31, %zmm31
	vpaddd	%zmm1, %zmm6, %zmm6
	vpaddd	%zmm28, %zmm6, %zmm6
	vpaddd	%zmm22, %zmm7, %zmm7
	vpaddd	%zmm29, %zmm7, %zmm7
	vpxorq	%zmm30, %zmm8, %zmm8
	vprold	$24, %zmm8, %zmm8
	vpxorq	%zmm31, %zmm9, %zmm9
	vprold	$24, %zmm9, %zmm9
	vpxorq	%zmm6, %zmm10, %zmm10
	vprold	$24, %zmm10, %zmm10
	vpxorq	%zmm7, %zmm11, %zmm11
	vprold	$24, %zmm11, %zmm11
	vpaddd	%zmm8, %zmm12, %zmm12
	vpaddd	%zmm9, %zmm13, %zmm13
	vpaddd	%zmm10, %zmm14, %zmm14
	vpaddd	%zmm11, %zmm15, %zmm15
	vpxord	%zmm26, %zmm12, %zmm26
	vpxord	%zmm27, %zmm13, %zmm27
	vpxord	%zmm28, %zmm14, %zmm28
	vpxord	%zmm29, %zmm15, %zmm29
	vprold	$25, %zmm26, %zmm26
	vprold	$25, %zmm27, %zmm27
	vprold	$25, %zmm28, %zmm28
	vprold	$25, %zmm29, %zmm29
	vpaddd	%zmm0, %zmm7, %zmm7
	vpaddd	%zmm26, %zmm7, %zmm7
	vpaddd	%zmm3, %zmm30, %zmm30
	vpaddd	%zmm27, %zmm30, %zmm30
	vpaddd	%zmm18, %zmm31, %zmm31
	vpaddd	%zmm28, %zmm31, %zmm31
	vpaddd	%zmm4, %zmm6, %zmm6
	vpaddd	%zmm29, %zmm6, %zmm6
	vpxorq	%zmm7, %zmm10, %zmm10
	vprold	$16, %zmm10, %zmm10
	vpxorq	%zmm30, %zmm11, %zmm11
	vprold	$16, %zmm11, %zmm11
	vpxorq	%zmm31, %zmm8, %zmm8
	vprold	$16, %zmm8, %zmm8
	vpxorq	%zmm6, %zmm9, %zmm9
	vprold	$16, %zmm9, %zmm9
	vpaddd	%zmm10, %zmm13, %zmm13
	vpaddd	%zmm11, %zmm14, %zmm14
	vpaddd	%zmm8, %zmm15, %zmm15
	vpaddd	%zmm9, %zmm12, %zmm12
	vpxord	%zmm26, %zmm13, %zmm26
	vpxord	%zmm27, %zmm14, %zmm27
	vpxord	%zmm28, %zmm15, %zmm28
	vpxord	%zmm29, %zmm12, %zmm29
	vprold	$20, %zmm26, %zmm26
	vprold	$20, %zmm27, %zmm27
	vprold	$20, %zmm28, %zmm28
	vprold	$20, %zmm29, %zmm29
	vpaddd	%zmm16, %zmm7, %zmm7
	vpaddd	%zmm26, %zmm7, %zmm7
	vpaddd	%zmm5, %zmm30, %zmm30
	vpaddd	%zmm27, %zmm30, %zmm30
	vpaddd	%zmm2, %zmm31, %zmm31
	vpaddd	%zmm28, %zmm31, %zmm31
	vpaddd	%zmm19, %zmm6, %zmm6
	vpaddd	%zmm29, %zmm6, %zmm6
	vpxorq	%zmm7, %zmm10, %zmm10
	vprold	$24, %zmm10, %zmm10
	vpxorq	%zmm30, %zmm11, %zmm11
	vprold	$24, %zmm11, %zmm11
	vpxorq	%zmm31, %zmm8, %zmm8
	vprold	$24, %zmm8, %zmm8
	vpxorq	%zmm6, %zmm9, %zmm9
	vprold	$24, %zmm9, %zmm9
	vpaddd	%zmm10, %zmm13, %zmm13
	vpaddd	%zmm11, %zmm14, %zmm14
	vpaddd	%zmm8, %zmm15, %zmm15
	vpaddd	%zmm9, %zmm12, %zmm12
	vpxord	%zmm26, %zmm13, %zmm26
	vpxord	%zmm27, %zmm14, %zmm27
	vpxord	%zmm28, %zmm15, %zmm28
	vpxord	%zmm29, %zmm12, %zmm29
	vprold	$25, %zmm26, %zmm26
	vprold	$25, %zmm27, %zmm27
	vprold	$25, %zmm28, %zmm28
	vprold	$25, %zmm29, %zmm29
	vpaddd	%zmm25, %zmm30, %zmm25
	vpaddd	%zmm26, %zmm25, %zmm25
	vpaddd	%zmm23, %zmm31, %zmm23
	vpaddd	%zmm27, %zmm23, %zmm23
	vpaddd	%zmm22, %zmm6, %zmm22
	vpaddd	%zmm28, %zmm22, %zmm22
	vpaddd	%zmm24, %zmm7, %zmm24
	vpaddd	%zmm29, %zmm24, %zmm24
	vpxorq	%zmm25, %zmm8, %zmm30
	vprold	$16, %zmm30, %zmm30
	vpxorq	%zmm23, %zmm9, %zmm31
	vprold	$16, %zmm31, %zmm31
	vpxorq	%zmm22, %zmm10, %zmm6
	vprold	$16, %zmm6, %zmm6
	vpxorq	%zmm24, %zmm11, %zmm7
	vprold	$16, %zmm7, %zmm7
	vpaddd	%zmm30, %zmm12, %zmm8
	vpaddd	%zmm31, %zmm13, %zmm9
	vpaddd	%zmm6, %zmm14, %zmm10
	vpaddd	%zmm7, %zmm15, %zmm11
	vpxord	%zmm26, %zmm8, %zmm26
	vpxord	%zmm27, %zmm9, %zmm27
	vpxord	%zmm28, %zmm10, %zmm28
	vpxord	%zmm29, %zmm11, %zmm29
	vprold	$20, %zmm26, %zmm26
	vprold	$20, %zmm27, %zmm27
	vprold	$20, %zmm28, %zmm28
	vprold	$20, %zmm29, %zmm29
	vpaddd	%zmm21, %zmm25, %zmm21
	vpaddd	%zmm26, %zmm21, %zmm21
	vpaddd	%zmm18, %zmm23, %zmm18
	vpaddd	%zmm27, %zmm18, %zmm18
	vpaddd	%zmm20, %zmm22, %zmm20
	vpaddd	%zmm28, %zmm20, %zmm20
	vpaddd	%zmm19, %zmm24, %zmm19
	vpaddd	%zmm29, %zmm19, %zmm19
	vpxorq	%zmm21, %zmm30, %zmm22
	vprold	$24, %zmm22, %zmm22
	vpxorq	%zmm18, %zmm31, %zmm23
	vprold	$24, %zmm23, %zmm23
	vpxorq	%zmm20, %zmm6, %zmm24
	vprold	$24, %zmm24, %zmm24
	vpxorq	%zmm19, %zmm7, %zmm25
	vprold	$24, %zmm25, %zmm25
	vpaddd	%zmm22, %zmm8, %zmm30
	vpaddd	%zmm23, %zmm9, %zmm31
	vpaddd	%zmm24, %zmm10, %zmm6
	vpaddd	%zmm25, %zmm11, %zmm7
	vpxord	%zmm26, %zmm30, %zmm26
	vpxord	%zmm27, %zmm31, %zmm27
	vpxord	%zmm28, %zmm6, %zmm28
	vpxord	%zmm29, %zmm7, %zmm29
	vprold	$25, %zmm26, %zmm26
	vprold	$25, %zmm27, %zmm27
	vprold	$25, %zmm28, %zmm28
	vprold	$25, %zmm29, %zmm29
	vpaddd	%zmm16, %zmm19, %zmm16
	vpaddd	%zmm26, %zmm16, %zmm16
	vpaddd	%zmm17, %zmm21, %zmm17
	vpaddd	%zmm27, %zmm17, %zmm17
	vpaddd	%zmm4, %zmm18, %zmm4
	vpaddd	%zmm28, %zmm4, %zmm4
	vpaddd	%zmm5, %zmm20, %zmm5
	vpaddd	%zmm29, %zmm5, %zmm5
	vpxorq	%zmm16, %zmm24, %zmm18
	vprold	$16, %zmm18, %zmm18
	vpxorq	%zmm17, %zmm25, %zmm19
	vprold	$16, %zmm19, %zmm19
	vpxorq	%zmm4, %zmm22, %zmm20
	vprold	$16, %zmm20, %zmm20
	vpxorq	%zmm5, %zmm23, %zmm21
	vprold	$16, %zmm21, %zmm21
	vpaddd	%zmm18, %zmm31, %zmm22
	vpaddd	%zmm19, %zmm6, %zmm23
	vpaddd	%zmm20, %zmm7, %zmm24
	vpaddd	%zmm21, %zmm30, %zmm25
	vpxord	%zmm26, %zmm22, %zmm26
	vpxord	%zmm27, %zmm23, %zmm27
	vpxord	%zmm28, %zmm24, %zmm28
	vpxord	%zmm29, %zmm25, %zmm29
	vprold	$20, %zmm26, %zmm26
	vprold	$20, %zmm27, %zmm27
	vprold	$20, %zmm28, %zmm28
	vprold	$20, %zmm29, %zmm29
	vpaddd	%zmm3, %zmm16, %zmm3
	vpaddd	%zmm26, %zmm3, %zmm3
	vpaddd	%zmm2, %zmm17, %zmm2
	vpaddd	%zmm27, %zmm2, %zmm2
	vpaddd	%zmm1, %zmm4, %zmm1
	vpaddd	%zmm28, %zmm1, %zmm1
	vpaddd	%zmm0, %zmm5, %zmm0
	vpaddd	%zmm29, %zmm0, %zmm0
	vpxorq	%zmm3, %zmm18, %zmm4
	vprold	$24, %zmm4, %zmm4
	vpxorq	%zmm2, %zmm19, %zmm5
	vprold	$24, %zmm5, %zmm5
	vpxorq	%zmm1, %zmm20, %zmm16
	vprold	$24, %zmm16, %zmm16
	vpxorq	%zmm0, %zmm21, %zmm17
	vprold	$24, %zmm17, %zmm17
	vpaddd	%zmm4, %zmm22, %zmm18
	vpaddd	%zmm5, %zmm23, %zmm19
	vpaddd	%zmm16, %zmm24, %zmm20
	vpaddd	%zmm17, %zmm25, %zmm21
	vpxord	%zmm26, %zmm18, %zmm22
	vpxord	%zmm27, %zmm19, %zmm23
	vpxord	%zmm28, %zmm20, %zmm24
	vpxord	%zmm29, %zmm21, %zmm25
	vprold	$25, %zmm22, %zmm22
	vprold	$25, %zmm23, %zmm23
	vprold	$25, %zmm24, %zmm24
	vprold	$25, %zmm25, %zmm25
	vpxord	%zmm2, %zmm21, %zmm2
	vpxord	%zmm1, %zmm18, %zmm1
	vpxord	%zmm0, %zmm19, %zmm0
	vpxord	%zmm3, %zmm20, %zmm3
	vpxord	%zmm16, %zmm22, %zmm16
	vpxord	%zmm17, %zmm23, %zmm17
	vpxord	%zmm4, %zmm24, %zmm4
	vpxord	%zmm5, %zmm25, %zmm5
	vmovdqu64	%zmm2, (%rcx)
	vmovdqu64	%zmm1, 64(%rcx)
	vmovdqu64	%zmm0, 128(%rcx)
	vmovdqu64	%zmm3, 192(%rcx)
	vmovdqu64	%zmm16, 256(%rcx)
	vmovdqu64	%zmm17, 320(%rcx)
	vmovdqu64	%zmm4, 384(%rcx)
	vmovdqu64	%zmm5, 448(%rcx)
	vmovaps	-96(%rbp), %xmm6
	vmovaps	-80(%rbp), %xmm7
	vmovaps	-64(%rbp), %xmm8
	vmovaps	-48(%rbp), %xmm9
	vmovaps	-32(%rbp), %xmm10
	vmovaps	-16(%rbp), %xmm11
	vmovaps	(%rbp), %xmm12
	vmovaps	16(%rbp), %xmm13
	vmovaps	32(%rbp), %xmm14
	vmovaps	48(%rbp), %xmm15
	leaq	64(%rbp), %rsp
	popq	%rbx
	popq	%rdi
	popq	%rsi
	popq	%r12
	popq	%r14
	popq	%r15
	popq	%rbp
	vzeroupper
	retq
	.seh_endproc

	.section	.rdata,"dr"
	.p2align	5, 0x0
.LCPI28_0:
	.long	1867767133
	.long	3530409783
	.long	3864159224
	.long	1064391498
	.long	1867767133
	.long	3530409783
	.long	3864159224
	.long	1064391498
.LCPI28_1:
	.long	3351608833
	.long	2519287717
	.long	1717998845
	.long	3858926260
	.long	3351608833
	.long	2519287717
	.long	1717998845
	.long	3858926260
.LCPI28_2:
	.long	1867767133
	.long	3530409783
	.long	3864159224
	.long	1064391498
.LCPI28_3:
	.long	3351608833
	.long	2519287717
	.long	1717998845
	.long	3858926260
	.section	.text
	.p2align	4
	.def	"keyed_blake3::keyed_hash_two";
	.scl	3;
	.type	32;
	.endef
"keyed_blake3::keyed_hash_two":
.seh_proc "keyed_blake3::keyed_hash_two"
	pushq	%rbp
	.seh_pushreg %rbp
	pushq	%r15
	.seh_pushreg %r15
	pushq	%r14
	.seh_pushreg %r14
	pushq	%r13
	.seh_pushreg %r13
	pushq	%r12
	.seh_pushreg %r12
	pushq	%rsi
	.seh_pushreg %rsi
	pushq	%rdi
	.seh_pushreg %rdi
	pushq	%rbx
	.seh_pushreg %rbx
	subq	$1144, %rsp
	.seh_stackalloc 1144
	leaq	128(%rsp), %rbp
	.seh_setframe %rbp, 128
	vmovaps	%xmm9, 992(%rbp)
	.seh_savexmm %xmm9, 1120
	vmovaps	%xmm8, 976(%rbp)
	.seh_savexmm %xmm8, 1104
	vmovaps	%xmm7, 960(%rbp)
	.seh_savexmm %xmm7, 1088
	vmovaps	%xmm6, 944(%rbp)
	.seh_savexmm %xmm6, 1072
	.seh_endprologue
	andq	$-32, %rsp
	movq	%r9, %r15
	movq	%r8, %rdi
	movq	%rcx, %rbx
	vxorps	%xmm0, %xmm0, %xmm0
	vmovups	%ymm0, 832(%rsp)
	movq	1120(%rbp), %r14
	vmovups	%ymm0, 800(%rsp)
	cmpq	$1025, %r8
	setae	%al
	cmpq	$1025, %r14
	setae	%cl
	orb	%al, %cl
	je	.LBB28_2
	movq	%rdx, %r8
	leaq	static.7(%rip), %rsi
	leaq	832(%rsp), %rcx
	movq	%rsi, %rdx
	movq	%rdi, %r9
	vzeroupper
	callq	"keyed_blake3::keyed_hash"
	leaq	800(%rsp), %rcx
	movq	%rsi, %rdx
	movq	%r15, %r8
	movq	%r14, %r9
	callq	"keyed_blake3::keyed_hash"
	vmovups	832(%rsp), %ymm0
	vmovups	%ymm0, (%rbx)
	vmovdqu	800(%rsp), %ymm0
	vmovdqu	%ymm0, 32(%rbx)
	jmp	.LBB28_50
.LBB28_2:
	cmpq	$1, %rdi
	movq	%rdi, %r8
	adcq	$-1, %r8
	movq	%r8, %rcx
	shrq	$6, %rcx
	movq	%rcx, 72(%rsp)
	cmpq	$1, %r14
	movq	%r14, %rax
	adcq	$-1, %rax
	movq	%rax, %r12
	shrq	$6, %r12
	cmpq	%rcx, %r12
	movq	%rcx, %r13
	cmovbq	%r12, %r13
	testq	%rcx, %rcx
	movq	%rdi, 88(%rsp)
	movq	%rax, 528(%rsp)
	movq	%rdx, 80(%rsp)
	movq	%r8, 520(%rsp)
	je	.LBB28_3
	vmovups	(%rdx), %ymm0
	vmovups	32(%rdx), %ymm1
	vmovups	%ymm1, 192(%rsp)
	vmovups	%ymm0, 160(%rsp)
	movl	$17, %esi
	movl	$64, %edi
	jmp	.LBB28_8
.LBB28_3:
	cmpq	$64, %rdi
	jne	.LBB28_4
	vmovups	(%rdx), %ymm0
	vmovups	32(%rdx), %ymm1
	vmovups	%ymm1, 448(%rsp)
	vmovups	%ymm0, 416(%rsp)
	jmp	.LBB28_6
.LBB28_4:
	vmovups	%ymm0, 128(%rsp)
	vmovups	%ymm0, 96(%rsp)
	leaq	96(%rsp), %rcx
	movq	%rdi, %r8
	vzeroupper
	callq	memcpy
	vmovups	96(%rsp), %ymm0
	vmovups	128(%rsp), %ymm1
	vmovups	%ymm0, 416(%rsp)
	vmovups	%ymm1, 448(%rsp)
.LBB28_6:
	vmovups	416(%rsp), %ymm0
	vmovups	%ymm0, 160(%rsp)
	vmovups	448(%rsp), %ymm0
	vmovups	%ymm0, 192(%rsp)
	movl	$27, %esi
.LBB28_8:
	vmovups	160(%rsp), %ymm0
	vmovups	192(%rsp), %ymm1
	vmovups	%ymm0, 320(%rsp)
	vmovups	%ymm1, 352(%rsp)
	movq	$0, 384(%rsp)
	movl	%edi, 392(%rsp)
	movl	%esi, 396(%rsp)
	testq	%r12, %r12
	je	.LBB28_9
	vmovups	(%r15), %ymm0
	vmovups	32(%r15), %ymm1
	vmovups	%ymm1, 192(%rsp)
	vmovups	%ymm0, 160(%rsp)
	movl	$17, %eax
	movl	$64, %ecx
	jmp	.LBB28_14
.LBB28_9:
	cmpq	$64, %r14
	jne	.LBB28_10
	vmovups	(%r15), %ymm0
	vmovups	32(%r15), %ymm1
	vmovups	%ymm1, 448(%rsp)
	vmovups	%ymm0, 416(%rsp)
	jmp	.LBB28_12
.LBB28_10:
	vxorps	%xmm0, %xmm0, %xmm0
	vmovups	%ymm0, 128(%rsp)
	vmovups	%ymm0, 96(%rsp)
	leaq	96(%rsp), %rcx
	movq	%r15, %rdx
	movq	%r14, %r8
	vzeroupper
	callq	memcpy
	vmovups	96(%rsp), %ymm0
	vmovups	128(%rsp), %ymm1
	vmovups	%ymm0, 416(%rsp)
	vmovups	%ymm1, 448(%rsp)
.LBB28_12:
	vmovups	416(%rsp), %ymm0
	vmovups	%ymm0, 160(%rsp)
	vmovups	448(%rsp), %ymm0
	vmovups	%ymm0, 192(%rsp)
	movl	$27, %eax
	movl	%r14d, %ecx
.LBB28_14:
	movq	%r12, 512(%rsp)
	movq	%rbx, 504(%rsp)
	vmovups	160(%rsp), %ymm0
	vmovups	192(%rsp), %ymm1
	vmovups	%ymm0, 224(%rsp)
	vmovups	%ymm1, 256(%rsp)
	movq	$0, 288(%rsp)
	movl	%ecx, 296(%rsp)
	movl	%eax, 300(%rsp)
	vmovd	%esi, %xmm0
	vmovd	%edi, %xmm1
	vpunpckldq	%xmm0, %xmm1, %xmm0
	vpslldq	$8, %xmm0, %xmm0
	vmovd	%eax, %xmm1
	vmovd	%ecx, %xmm2
	vpunpckldq	%xmm1, %xmm2, %xmm1
	vpslldq	$8, %xmm1, %xmm1
	vinserti128	$1, %xmm1, %ymm0, %ymm0
	vbroadcastf128	.LCPI28_2(%rip), %ymm1
	vmovaps	%ymm1, 992(%rsp)
	vbroadcasti128	.LCPI28_3(%rip), %ymm1
	vmovdqa	%ymm1, 1024(%rsp)
	vmovdqa	%ymm0, 960(%rsp)
	leaq	224(%rsp), %rax
	movq	%rax, 40(%rsp)
	leaq	320(%rsp), %rax
	movq	%rax, 32(%rsp)
	leaq	96(%rsp), %rcx
	leaq	1024(%rsp), %rdx
	leaq	992(%rsp), %r8
	leaq	960(%rsp), %r9
	vzeroupper
	callq	"keyed_blake3::compression::two::compress_two_from"
	vmovups	96(%rsp), %ymm3
	vmovups	128(%rsp), %ymm4
	testq	%r13, %r13
	movq	%r15, 496(%rsp)
	movq	%r13, 536(%rsp)
	je	.LBB28_15
	movq	%r13, %r12
	negq	%r12
	movq	80(%rsp), %rax
	leaq	64(%rax), %r13
	leaq	64(%r15), %rsi
	movl	$1, %ebx
	xorl	%r15d, %r15d
	movq	72(%rsp), %rax
	movq	88(%rsp), %rdi
	jmp	.LBB28_17
	.p2align	4
.LBB28_24:
	vmovups	(%rsi), %ymm0
	vmovups	32(%rsi), %ymm1
	vmovaps	%ymm1, 192(%rsp)
	vmovaps	%ymm0, 160(%rsp)
	movl	$16, %ecx
	movl	$64, %eax
.LBB28_29:
	vmovaps	160(%rsp), %ymm0
	vmovaps	192(%rsp), %ymm1
	vmovaps	%ymm0, 224(%rsp)
	vmovaps	%ymm1, 256(%rsp)
	movq	$0, 288(%rsp)
	movl	%eax, 296(%rsp)
	movl	%ecx, 300(%rsp)
	vmovd	%r14d, %xmm0
	vmovd	%edi, %xmm1
	vpunpckldq	%xmm0, %xmm1, %xmm0
	vpslldq	$8, %xmm0, %xmm0
	vmovd	%ecx, %xmm1
	vmovd	%eax, %xmm2
	vpunpckldq	%xmm1, %xmm2, %xmm1
	vpslldq	$8, %xmm1, %xmm1
	vinserti128	$1, %xmm1, %ymm0, %ymm0
	vmovaps	%ymm4, 896(%rsp)
	vmovaps	%ymm3, 928(%rsp)
	vmovdqa	%ymm0, 864(%rsp)
	leaq	224(%rsp), %rax
	movq	%rax, 40(%rsp)
	leaq	320(%rsp), %rax
	movq	%rax, 32(%rsp)
	leaq	96(%rsp), %rcx
	leaq	928(%rsp), %rdx
	leaq	896(%rsp), %r8
	leaq	864(%rsp), %r9
	vzeroupper
	callq	"keyed_blake3::compression::two::compress_two_from"
	vmovups	96(%rsp), %ymm3
	vmovups	128(%rsp), %ymm4
	leaq	(%r12,%rbx), %rax
	incq	%rax
	incq	%rbx
	addq	$-64, %r15
	addq	$64, %r13
	addq	$64, %rsi
	cmpq	$1, %rax
	movq	72(%rsp), %rax
	movq	88(%rsp), %rdi
	je	.LBB28_30
.LBB28_17:
	cmpq	%rax, %rbx
	jae	.LBB28_19
	vmovups	(%r13), %ymm0
	vmovups	32(%r13), %ymm1
	vmovaps	%ymm1, 192(%rsp)
	vmovaps	%ymm0, 160(%rsp)
	movl	$16, %r14d
	movl	$64, %edi
	jmp	.LBB28_23
	.p2align	4
.LBB28_19:
	leaq	(%rdi,%r15), %rax
	cmpq	$128, %rax
	je	.LBB28_20
	vmovaps	%ymm4, 544(%rsp)
	vmovaps	%ymm3, 576(%rsp)
	leaq	(%rdi,%r15), %r8
	addq	$-64, %r8
	vpxor	%xmm0, %xmm0, %xmm0
	vmovdqa	%ymm0, 128(%rsp)
	vmovdqa	%ymm0, 96(%rsp)
	leaq	96(%rsp), %rax
	subq	%r13, %rax
	cmpq	%r8, %rax
	leaq	96(%rsp), %rcx
	movq	%r13, %rdx
	vzeroupper
	callq	memcpy
	vmovaps	96(%rsp), %ymm0
	vmovaps	128(%rsp), %ymm1
	vmovaps	%ymm1, 448(%rsp)
	vmovaps	%ymm0, 416(%rsp)
	vmovaps	576(%rsp), %ymm3
	vmovaps	544(%rsp), %ymm4
	jmp	.LBB28_22
.LBB28_20:
	vmovups	(%r13), %ymm0
	vmovups	32(%r13), %ymm1
	vmovaps	%ymm1, 448(%rsp)
	vmovaps	%ymm0, 416(%rsp)
.LBB28_22:
	addl	%r15d, %edi
	addl	$-64, %edi
	vmovaps	416(%rsp), %ymm0
	vmovaps	%ymm0, 160(%rsp)
	vmovaps	448(%rsp), %ymm0
	vmovaps	%ymm0, 192(%rsp)
	movl	$26, %r14d
.LBB28_23:
	vmovaps	160(%rsp), %ymm0
	vmovaps	192(%rsp), %ymm1
	vmovaps	%ymm0, 320(%rsp)
	vmovaps	%ymm1, 352(%rsp)
	movq	$0, 384(%rsp)
	movl	%edi, 392(%rsp)
	movl	%r14d, 396(%rsp)
	cmpq	512(%rsp), %rbx
	jb	.LBB28_24
	movq	1120(%rbp), %rcx
	leaq	(%rcx,%r15), %rax
	cmpq	$128, %rax
	je	.LBB28_26
	vmovaps	%ymm4, 544(%rsp)
	vmovaps	%ymm3, 576(%rsp)
	leaq	(%rcx,%r15), %r8
	addq	$-64, %r8
	vxorps	%xmm0, %xmm0, %xmm0
	vmovaps	%ymm0, 128(%rsp)
	vmovaps	%ymm0, 96(%rsp)
	leaq	96(%rsp), %rax
	subq	%rsi, %rax
	cmpq	%r8, %rax
	leaq	96(%rsp), %rcx
	movq	%rsi, %rdx
	vzeroupper
	callq	memcpy
	vmovaps	96(%rsp), %ymm0
	vmovaps	128(%rsp), %ymm1
	vmovaps	%ymm1, 448(%rsp)
	vmovaps	%ymm0, 416(%rsp)
	vmovaps	576(%rsp), %ymm3
	vmovaps	544(%rsp), %ymm4
	jmp	.LBB28_28
.LBB28_26:
	vmovups	(%rsi), %ymm0
	vmovups	32(%rsi), %ymm1
	vmovaps	%ymm1, 448(%rsp)
	vmovaps	%ymm0, 416(%rsp)
.LBB28_28:
	movq	1120(%rbp), %rax
	addl	%r15d, %eax
	addl	$-64, %eax
	vmovaps	416(%rsp), %ymm0
	vmovaps	%ymm0, 160(%rsp)
	vmovaps	448(%rsp), %ymm0
	vmovaps	%ymm0, 192(%rsp)
	movl	$26, %ecx
	jmp	.LBB28_29
.LBB28_15:
	movq	72(%rsp), %rax
.LBB28_30:
	movq	536(%rsp), %r13
	leaq	1(%r13), %rbx
	movq	512(%rsp), %r12
	cmpq	%rax, %r12
	jae	.LBB28_31
	cmpq	%rax, %rbx
	movq	1120(%rbp), %r14
	movq	496(%rsp), %r15
	vmovaps	%ymm3, 576(%rsp)
	vmovaps	%ymm4, 544(%rsp)
	jae	.LBB28_33
	movq	%r13, %rsi
	notq	%rsi
	addq	%rax, %rsi
	movq	%r13, %rax
	shlq	$6, %rax
	movq	80(%rsp), %rcx
	leaq	(%rax,%rcx), %rdi
	addq	$64, %rdi
	vmovaps	%xmm3, %xmm6
	vmovaps	%xmm4, %xmm7
	.p2align	4
.LBB28_35:
	vmovdqu	(%rdi), %ymm0
	vmovdqu	32(%rdi), %ymm1
	vmovdqa	%ymm1, 352(%rsp)
	vmovdqa	%ymm0, 320(%rsp)
	vmovaps	%xmm7, 768(%rsp)
	vmovaps	%xmm6, 784(%rsp)
	movl	$16, 48(%rsp)
	movl	$64, 40(%rsp)
	movq	$0, 32(%rsp)
	leaq	224(%rsp), %rcx
	leaq	784(%rsp), %rdx
	leaq	768(%rsp), %r8
	leaq	320(%rsp), %r9
	vzeroupper
	callq	"keyed_blake3::compression::compress"
	vmovaps	224(%rsp), %xmm6
	vmovaps	240(%rsp), %xmm7
	addq	$64, %rdi
	decq	%rsi
	jne	.LBB28_35
	jmp	.LBB28_36
.LBB28_31:
	vmovaps	%xmm4, %xmm6
	vmovaps	%xmm3, %xmm7
	movq	1120(%rbp), %r14
	movq	496(%rsp), %r15
	vextractf128	$1, %ymm3, %xmm9
	vextractf128	$1, %ymm4, %xmm8
	cmpq	%r12, %rax
	jb	.LBB28_42
.LBB28_41:
	movq	504(%rsp), %rdi
	jmp	.LBB28_49
.LBB28_33:
	vmovaps	%xmm4, %xmm7
	vmovaps	%xmm3, %xmm6
.LBB28_36:
	movq	520(%rsp), %rax
	andl	$1984, %eax
	movq	80(%rsp), %rdx
	addq	%rax, %rdx
	movq	88(%rsp), %rdi
	subq	%rax, %rdi
	vpxor	%xmm0, %xmm0, %xmm0
	vmovdqa	%ymm0, 224(%rsp)
	cmpq	$64, %rdi
	jne	.LBB28_38
	vmovdqu	(%rdx), %ymm0
	vmovdqu	32(%rdx), %ymm1
	vmovdqa	%ymm1, 352(%rsp)
	vmovdqa	%ymm0, 320(%rsp)
	vmovaps	%xmm7, 704(%rsp)
	vmovaps	%xmm6, 720(%rsp)
	movl	$26, 48(%rsp)
	movl	$64, 40(%rsp)
	movq	$0, 32(%rsp)
	leaq	224(%rsp), %rcx
	leaq	720(%rsp), %rdx
	leaq	704(%rsp), %r8
	leaq	320(%rsp), %r9
	jmp	.LBB28_39
.LBB28_38:
	vmovdqa	%ymm0, 352(%rsp)
	vmovdqa	%ymm0, 320(%rsp)
	leaq	320(%rsp), %rsi
	movq	%rsi, %rcx
	movq	%rdi, %r8
	vzeroupper
	callq	memcpy
	vmovaps	%xmm7, 736(%rsp)
	vmovaps	%xmm6, 752(%rsp)
	movl	%edi, 40(%rsp)
	movl	$26, 48(%rsp)
	movq	$0, 32(%rsp)
	leaq	224(%rsp), %rcx
	leaq	752(%rsp), %rdx
	leaq	736(%rsp), %r8
	movq	%rsi, %r9
.LBB28_39:
	vzeroupper
	callq	"keyed_blake3::compression::compress"
	vmovaps	240(%rsp), %xmm6
	movq	72(%rsp), %rax
	vmovaps	224(%rsp), %xmm7
	vmovaps	576(%rsp), %ymm3
	vmovaps	544(%rsp), %ymm4
	vextractf128	$1, %ymm3, %xmm9
	vextractf128	$1, %ymm4, %xmm8
	cmpq	%r12, %rax
	jae	.LBB28_41
.LBB28_42:
	cmpq	%r12, %rbx
	jae	.LBB28_45
	movq	%r13, %rsi
	notq	%rsi
	addq	%r12, %rsi
	shlq	$6, %r13
	leaq	(%r15,%r13), %rdi
	addq	$64, %rdi
	.p2align	4
.LBB28_44:
	vmovdqu	(%rdi), %ymm0
	vmovdqu	32(%rdi), %ymm1
	vmovdqa	%ymm1, 352(%rsp)
	vmovdqa	%ymm0, 320(%rsp)
	vmovaps	%xmm8, 672(%rsp)
	vmovaps	%xmm9, 688(%rsp)
	movl	$16, 48(%rsp)
	movl	$64, 40(%rsp)
	movq	$0, 32(%rsp)
	leaq	224(%rsp), %rcx
	leaq	688(%rsp), %rdx
	leaq	672(%rsp), %r8
	leaq	320(%rsp), %r9
	vzeroupper
	callq	"keyed_blake3::compression::compress"
	vmovaps	224(%rsp), %xmm9
	vmovaps	240(%rsp), %xmm8
	addq	$64, %rdi
	decq	%rsi
	jne	.LBB28_44
.LBB28_45:
	movq	528(%rsp), %rax
	andl	$1984, %eax
	addq	%rax, %r15
	subq	%rax, %r14
	vpxor	%xmm0, %xmm0, %xmm0
	vmovdqa	%ymm0, 224(%rsp)
	cmpq	$64, %r14
	movq	504(%rsp), %rdi
	jne	.LBB28_47
	vmovdqu	(%r15), %ymm0
	vmovdqu	32(%r15), %ymm1
	vmovdqa	%ymm1, 352(%rsp)
	vmovdqa	%ymm0, 320(%rsp)
	vmovaps	%xmm8, 608(%rsp)
	vmovaps	%xmm9, 624(%rsp)
	movl	$26, 48(%rsp)
	movl	$64, 40(%rsp)
	movq	$0, 32(%rsp)
	leaq	224(%rsp), %rcx
	leaq	624(%rsp), %rdx
	leaq	608(%rsp), %r8
	leaq	320(%rsp), %r9
	jmp	.LBB28_48
.LBB28_47:
	vmovdqa	%ymm0, 352(%rsp)
	vmovdqa	%ymm0, 320(%rsp)
	leaq	320(%rsp), %rsi
	movq	%rsi, %rcx
	movq	%r15, %rdx
	movq	%r14, %r8
	vzeroupper
	callq	memcpy
	vmovaps	%xmm8, 640(%rsp)
	vmovaps	%xmm9, 656(%rsp)
	movl	%r14d, 40(%rsp)
	movl	$26, 48(%rsp)
	movq	$0, 32(%rsp)
	leaq	224(%rsp), %rcx
	leaq	656(%rsp), %rdx
	leaq	640(%rsp), %r8
	movq	%rsi, %r9
.LBB28_48:
	vzeroupper
	callq	"keyed_blake3::compression::compress"
	vmovaps	240(%rsp), %xmm8
	vmovaps	224(%rsp), %xmm9
.LBB28_49:
	vmovups	%xmm6, 16(%rdi)
	vmovups	%xmm7, (%rdi)
	vmovups	%xmm8, 48(%rdi)
	vmovups	%xmm9, 32(%rdi)
.LBB28_50:
	vmovaps	944(%rbp), %xmm6
	vmovaps	960(%rbp), %xmm7
	vmovaps	976(%rbp), %xmm8
	vmovaps	992(%rbp), %xmm9
	leaq	1016(%rbp), %rsp
	popq	%rbx
	popq	%rdi
	popq	%rsi
	popq	%r12
	popq	%r13
	popq	%r14
	popq	%r15
	popq	%rbp
	vzeroupper
	retq
	.seh_endproc

	.section	.text
	.p2align	4
	.def	"xet_roots::groups::two_parent_hashes";
	.scl	3;
	.type	32;
	.endef
"xet_roots::groups::two_parent_hashes":
.seh_proc "xet_roots::groups::two_parent_hashes"
	pushq	%r15
	.seh_pushreg %r15
	pushq	%r14
	.seh_pushreg %r14
	pushq	%r12
	.seh_pushreg %r12
	pushq	%rsi
	.seh_pushreg %rsi
	pushq	%rdi
	.seh_pushreg %rdi
	pushq	%rbx
	.seh_pushreg %rbx
	subq	$1704, %rsp
	.seh_stackalloc 1704
	.seh_endprologue
	movq	%r9, %rbx
	movq	%r8, %r15
	movq	%rdx, %r12
	movq	%rcx, %rsi
	movq	1792(%rsp), %r14
	leaq	912(%rsp), %rdi
	movl	$792, %r8d
	movq	%rdi, %rcx
	xorl	%edx, %edx
	callq	memset
	movq	%rdi, %rcx
	movq	%r12, %rdx
	movq	%r15, %r8
	callq	"xet_roots::groups::write_text"
	movq	%rax, %r15
	leaq	120(%rsp), %r12
	movl	$792, %r8d
	movq	%r12, %rcx
	xorl	%edx, %edx
	callq	memset
	movq	%r12, %rcx
	movq	%rbx, %rdx
	movq	%r14, %r8
	callq	"xet_roots::groups::write_text"
	vxorps	%xmm0, %xmm0, %xmm0
	vmovups	%ymm0, 80(%rsp)
	vmovups	%ymm0, 48(%rsp)
	movq	%rax, 32(%rsp)
	leaq	48(%rsp), %rcx
	movq	%rdi, %rdx
	movq	%r15, %r8
	movq	%r12, %r9
	vzeroupper
	callq	"keyed_blake3::keyed_hash_two"
	vmovups	48(%rsp), %ymm0
	vmovups	80(%rsp), %ymm1
	vmovups	%ymm0, (%rsi)
	vmovups	%ymm1, 32(%rsi)
	addq	$1704, %rsp
	popq	%rbx
	popq	%rdi
	popq	%rsi
	popq	%r12
	popq	%r14
	popq	%r15
	vzeroupper
	retq
	.seh_endproc

	.section	.rdata,"dr"
static.3:
	.ascii	" : "

	.section	.rdata,"dr"
	.p2align	1, 0x0
static.6:
	.ascii	"00010203040506070809101112131415161718192021222324252627282930313233343536373839404142434445464748495051525354555657585960616263646566676869707172737475767778798081828384858687888990919293949596979899"

	.section	.rdata,"dr"
	.p2align	2, 0x0
static.7:
	.ascii	"\001~\305\307\245G)\226\375\224ff\264\212\002\346]\335So7\307m\322\370cR\346JSq?"

	.section	.rdata,"dr"
	.p2align	3, 0x0
	.globl	yurewha_x86_64_v4_kernels
yurewha_x86_64_v4_kernels:
	.quad	"keyed_blake3::keyed_hash"
	.quad	"keyed_blake3::compression::compress"
	.quad	"keyed_blake3::hasher::Hasher::update"
	.quad	"keyed_blake3::hasher::Hasher::finalize"
	.quad	"xet_roots::groups::two_parent_hashes"
	.quad	"xet_roots::groups::parent_hashes"
	.quad	"xet_roots::groups::write_text"

