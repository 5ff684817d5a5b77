/* Yurewha 1.1.0 for windows-x86-64-v2: the kernels of the proved library, as the toolchain compiles it. Made by dist/make, not by hand.
   The sum of its sources: 9f27598952ba9691f7deda6fc4a73bcce6b881aa2a1edd98ac143c424a08c115 */
	.section	.text
	.p2align	4
	.def	"keyed_blake3::keyed_hash";
	.scl	3;
	.type	32;
	.endef
"keyed_blake3::keyed_hash":
.seh_proc "keyed_blake3::keyed_hash"
	pushq	%r15
	.seh_pushreg %r15
	pushq	%r14
	.seh_pushreg %r14
	pushq	%r13
	.seh_pushreg %r13
	pushq	%r12
	.seh_pushreg %r12
	pushq	%rsi
	.seh_pushreg %rsi
	pushq	%rdi
	.seh_pushreg %rdi
	pushq	%rbp
	.seh_pushreg %rbp
	pushq	%rbx
	.seh_pushreg %rbx
	subq	$2200, %rsp
	.seh_stackalloc 2200
	movaps	%xmm7, 2176(%rsp)
	.seh_savexmm %xmm7, 2176
	movaps	%xmm6, 2160(%rsp)
	.seh_savexmm %xmm6, 2160
	.seh_endprologue
	movq	%r9, %rdi
	movq	%r8, %rbx
	movq	%rdx, %r14
	movq	%rcx, %rsi
	xorps	%xmm0, %xmm0
	movaps	%xmm0, 80(%rsp)
	movaps	%xmm0, 64(%rsp)
	cmpq	$1025, %r9
	jae	.LBB1_1
	movups	(%r14), %xmm6
	movups	16(%r14), %xmm7
	cmpq	$1, %rdi
	movq	%rdi, %r14
	adcq	$-1, %r14
	movq	%r14, %r15
	shrq	$6, %r15
	je	.LBB1_4
	xorl	%r12d, %r12d
	movq	%rbx, %r13
	.p2align	4
.LBB1_6:
	cmpq	$1, %r12
	movl	$0, %eax
	adcl	$16, %eax
	movups	(%r13), %xmm0
	movups	16(%r13), %xmm1
	movups	32(%r13), %xmm2
	movups	48(%r13), %xmm3
	movaps	%xmm3, 176(%rsp)
	movaps	%xmm2, 160(%rsp)
	movaps	%xmm1, 144(%rsp)
	movaps	%xmm0, 128(%rsp)
	movaps	%xmm7, 256(%rsp)
	movaps	%xmm6, 272(%rsp)
	movl	%eax, 48(%rsp)
	movl	$64, 40(%rsp)
	movq	$0, 32(%rsp)
	leaq	96(%rsp), %rcx
	leaq	272(%rsp), %rdx
	leaq	256(%rsp), %r8
	leaq	128(%rsp), %r9
	callq	"keyed_blake3::compression::compress"
	movaps	96(%rsp), %xmm6
	movaps	112(%rsp), %xmm7
	incq	%r12
	addq	$64, %r13
	cmpq	%r12, %r15
	jne	.LBB1_6
	movl	$26, %ebp
	jmp	.LBB1_8
.LBB1_1:
	leaq	352(%rsp), %rcx
	movl	$1800, %r8d
	xorl	%edx, %edx
	callq	memset
	movups	(%r14), %xmm0
	movups	16(%r14), %xmm1
	movaps	%xmm0, 320(%rsp)
	movaps	%xmm1, 336(%rsp)
	movups	(%r14), %xmm0
	movups	16(%r14), %xmm1
	movaps	%xmm0, 288(%rsp)
	movaps	%xmm1, 304(%rsp)
	leaq	288(%rsp), %r14
	movq	%r14, %rcx
	movq	%rbx, %rdx
	movq	%rdi, %r8
	callq	"keyed_blake3::hasher::Hasher::update"
	leaq	64(%rsp), %rcx
	movq	%r14, %rdx
	callq	"keyed_blake3::hasher::Hasher::finalize"
	movaps	64(%rsp), %xmm0
	movaps	80(%rsp), %xmm1
	movups	%xmm1, 16(%rsi)
	movups	%xmm0, (%rsi)
	jmp	.LBB1_2
.LBB1_4:
	movl	$27, %ebp
.LBB1_8:
	andl	$1984, %r14d
	addq	%r14, %rbx
	subq	%r14, %rdi
	xorps	%xmm0, %xmm0
	movaps	%xmm0, 96(%rsp)
	movaps	%xmm0, 112(%rsp)
	cmpq	$64, %rdi
	jne	.LBB1_10
	movups	(%rbx), %xmm0
	movups	16(%rbx), %xmm1
	movups	32(%rbx), %xmm2
	movups	48(%rbx), %xmm3
	movaps	%xmm3, 176(%rsp)
	movaps	%xmm2, 160(%rsp)
	movaps	%xmm1, 144(%rsp)
	movaps	%xmm0, 128(%rsp)
	movaps	%xmm7, 192(%rsp)
	movaps	%xmm6, 208(%rsp)
	movl	%ebp, 48(%rsp)
	movl	$64, 40(%rsp)
	movq	$0, 32(%rsp)
	leaq	96(%rsp), %rcx
	leaq	208(%rsp), %rdx
	leaq	192(%rsp), %r8
	leaq	128(%rsp), %r9
	jmp	.LBB1_11
.LBB1_10:
	movaps	%xmm0, 176(%rsp)
	movaps	%xmm0, 160(%rsp)
	movaps	%xmm0, 144(%rsp)
	movaps	%xmm0, 128(%rsp)
	leaq	128(%rsp), %r14
	movq	%r14, %rcx
	movq	%rbx, %rdx
	movq	%rdi, %r8
	callq	memcpy
	movaps	%xmm7, 224(%rsp)
	movaps	%xmm6, 240(%rsp)
	movl	%ebp, 48(%rsp)
	movl	%edi, 40(%rsp)
	movq	$0, 32(%rsp)
	leaq	96(%rsp), %rcx
	leaq	240(%rsp), %rdx
	leaq	224(%rsp), %r8
	movq	%r14, %r9
.LBB1_11:
	callq	"keyed_blake3::compression::compress"
	movups	100(%rsp), %xmm0
	movsd	116(%rsp), %xmm1
	movl	124(%rsp), %eax
	movl	96(%rsp), %ecx
	movl	%ecx, 64(%rsp)
	movups	%xmm0, 68(%rsp)
	movlps	%xmm1, 84(%rsp)
	movl	%eax, 92(%rsp)
	movq	80(%rsp), %rax
	movq	%rax, 16(%rsi)
	movl	88(%rsp), %eax
	movl	%eax, 24(%rsi)
	movl	92(%rsp), %eax
	movl	%eax, 28(%rsi)
	movl	64(%rsp), %eax
	movl	%eax, (%rsi)
	movq	68(%rsp), %rax
	movq	%rax, 4(%rsi)
	movl	76(%rsp), %eax
	movl	%eax, 12(%rsi)
.LBB1_2:
	movaps	2160(%rsp), %xmm6
	movaps	2176(%rsp), %xmm7
	addq	$2200, %rsp
	popq	%rbx
	popq	%rbp
	popq	%rdi
	popq	%rsi
	popq	%r12
	popq	%r13
	popq	%r14
	popq	%r15
	retq
	.seh_endproc

	.section	.rdata,"dr"
	.p2align	4, 0x0
.LCPI2_0:
	.byte	2
	.byte	3
	.byte	0
	.byte	1
	.byte	6
	.byte	7
	.byte	4
	.byte	5
	.byte	10
	.byte	11
	.byte	8
	.byte	9
	.byte	14
	.byte	15
	.byte	12
	.byte	13
.LCPI2_1:
	.long	1779033703
	.long	3144134277
	.long	1013904242
	.long	2773480762
.LCPI2_2:
	.byte	1
	.byte	2
	.byte	3
	.byte	0
	.byte	5
	.byte	6
	.byte	7
	.byte	4
	.byte	9
	.byte	10
	.byte	11
	.byte	8
	.byte	13
	.byte	14
	.byte	15
	.byte	12
.LCPI2_3:
	.byte	10
	.byte	11
	.byte	8
	.byte	9
	.byte	14
	.byte	15
	.byte	12
	.byte	13
	.byte	2
	.byte	3
	.byte	0
	.byte	1
	.byte	6
	.byte	7
	.byte	4
	.byte	5
	.section	.text
	.p2align	4
	.def	"keyed_blake3::compression::compress";
	.scl	3;
	.type	32;
	.endef
"keyed_blake3::compression::compress":
.seh_proc "keyed_blake3::compression::compress"
	subq	$328, %rsp
	.seh_stackalloc 328
	movaps	%xmm15, 304(%rsp)
	.seh_savexmm %xmm15, 304
	movaps	%xmm14, 288(%rsp)
	.seh_savexmm %xmm14, 288
	movaps	%xmm13, 272(%rsp)
	.seh_savexmm %xmm13, 272
	movaps	%xmm12, 256(%rsp)
	.seh_savexmm %xmm12, 256
	movaps	%xmm11, 240(%rsp)
	.seh_savexmm %xmm11, 240
	movaps	%xmm10, 224(%rsp)
	.seh_savexmm %xmm10, 224
	movaps	%xmm9, 208(%rsp)
	.seh_savexmm %xmm9, 208
	movaps	%xmm8, 192(%rsp)
	.seh_savexmm %xmm8, 192
	movaps	%xmm7, 176(%rsp)
	.seh_savexmm %xmm7, 176
	movaps	%xmm6, 160(%rsp)
	.seh_savexmm %xmm6, 160
	.seh_endprologue
	movq	368(%rsp), %xmm6
	pinsrd	$2, 376(%rsp), %xmm6
	pinsrd	$3, 384(%rsp), %xmm6
	movdqa	(%r8), %xmm1
	movups	(%r9), %xmm0
	movups	16(%r9), %xmm7
	movdqu	32(%r9), %xmm9
	movdqu	48(%r9), %xmm5
	movaps	%xmm0, %xmm3
	shufps	$136, %xmm7, %xmm3
	movaps	%xmm3, %xmm11
	movaps	%xmm0, %xmm14
	movaps	%xmm0, %xmm10
	movaps	%xmm0, 64(%rsp)
	shufps	$221, %xmm7, %xmm14
	movaps	%xmm7, 32(%rsp)
	pshufd	$38, %xmm5, %xmm0
	movdqa	%xmm0, 48(%rsp)
	pshufd	$224, %xmm9, %xmm3
	pblendw	$195, %xmm0, %xmm3
	pshufd	$103, %xmm5, %xmm12
	movdqa	%xmm12, 144(%rsp)
	movdqa	(%rdx), %xmm2
	paddd	%xmm1, %xmm2
	paddd	%xmm11, %xmm2
	movdqa	%xmm11, %xmm13
	movaps	%xmm11, (%rsp)
	pxor	%xmm2, %xmm6
	movdqa	.LCPI2_0(%rip), %xmm11
	pshufb	%xmm11, %xmm6
	movdqa	.LCPI2_1(%rip), %xmm4
	paddd	%xmm6, %xmm4
	pxor	%xmm4, %xmm1
	movdqa	%xmm1, %xmm0
	psrld	$12, %xmm0
	pslld	$20, %xmm1
	por	%xmm0, %xmm1
	paddd	%xmm14, %xmm2
	paddd	%xmm1, %xmm2
	movdqa	.LCPI2_2(%rip), %xmm15
	pshufd	$147, %xmm2, %xmm0
	pshufb	%xmm15, %xmm2
	pshufb	%xmm15, %xmm6
	pxor	%xmm2, %xmm6
	paddd	%xmm6, %xmm4
	pxor	%xmm4, %xmm1
	movdqa	%xmm1, %xmm2
	psrld	$7, %xmm2
	pslld	$25, %xmm1
	por	%xmm2, %xmm1
	paddd	%xmm3, %xmm0
	pshufd	$57, %xmm4, %xmm4
	paddd	%xmm1, %xmm0
	movdqa	%xmm0, %xmm2
	pshufb	%xmm11, %xmm2
	movdqa	.LCPI2_3(%rip), %xmm3
	pshufb	%xmm3, %xmm6
	pxor	%xmm2, %xmm6
	paddd	%xmm6, %xmm4
	pxor	%xmm4, %xmm1
	movdqa	%xmm1, %xmm2
	psrld	$12, %xmm2
	pslld	$20, %xmm1
	por	%xmm2, %xmm1
	pshufd	$244, %xmm9, %xmm8
	pblendw	$195, %xmm12, %xmm8
	paddd	%xmm8, %xmm0
	paddd	%xmm1, %xmm0
	movdqa	%xmm0, %xmm2
	pshufb	%xmm15, %xmm2
	pshufb	%xmm15, %xmm6
	pxor	%xmm2, %xmm6
	paddd	%xmm6, %xmm4
	pxor	%xmm4, %xmm1
	movdqa	%xmm1, %xmm2
	psrld	$7, %xmm2
	pslld	$25, %xmm1
	por	%xmm2, %xmm1
	pshufd	$250, %xmm10, %xmm2
	pblendw	$195, %xmm7, %xmm2
	movdqa	%xmm2, 16(%rsp)
	paddd	%xmm2, %xmm0
	pshufd	$57, %xmm0, %xmm0
	paddd	%xmm1, %xmm0
	movdqa	%xmm0, %xmm2
	pshufb	%xmm11, %xmm2
	pshufb	%xmm3, %xmm6
	movdqa	%xmm3, %xmm11
	pxor	%xmm2, %xmm6
	pshufd	$147, %xmm4, %xmm10
	paddd	%xmm6, %xmm10
	pxor	%xmm10, %xmm1
	movdqa	%xmm1, %xmm2
	psrld	$12, %xmm2
	pslld	$20, %xmm1
	por	%xmm2, %xmm1
	movdqa	%xmm13, %xmm12
	pblendw	$48, %xmm9, %xmm12
	shufps	$203, %xmm12, %xmm12
	movdqa	%xmm5, %xmm3
	punpckldq	%xmm12, %xmm3
	movdqa	%xmm3, 112(%rsp)
	insertps	$112, %xmm5, %xmm12
	movaps	%xmm5, %xmm3
	paddd	%xmm12, %xmm0
	movaps	%xmm12, 80(%rsp)
	paddd	%xmm1, %xmm0
	pshufd	$147, %xmm0, %xmm5
	movdqa	%xmm15, %xmm7
	pshufb	%xmm15, %xmm0
	pshufb	%xmm15, %xmm6
	pxor	%xmm0, %xmm6
	paddd	%xmm6, %xmm10
	pxor	%xmm10, %xmm1
	movdqa	%xmm1, %xmm0
	psrld	$7, %xmm0
	pslld	$25, %xmm1
	por	%xmm0, %xmm1
	movdqa	%xmm8, %xmm13
	movdqa	%xmm8, %xmm4
	punpcklqdq	%xmm14, %xmm4
	movdqa	%xmm4, %xmm0
	movdqa	48(%rsp), %xmm8
	pblendw	$192, %xmm8, %xmm0
	pshufd	$120, %xmm0, %xmm0
	paddd	%xmm0, %xmm5
	paddd	%xmm1, %xmm5
	movdqa	%xmm5, %xmm0
	movdqa	.LCPI2_0(%rip), %xmm2
	pshufb	%xmm2, %xmm0
	pshufb	%xmm11, %xmm6
	pxor	%xmm0, %xmm6
	pshufd	$57, %xmm10, %xmm0
	paddd	%xmm6, %xmm0
	pxor	%xmm0, %xmm1
	movdqa	%xmm1, %xmm2
	psrld	$12, %xmm2
	pslld	$20, %xmm1
	por	%xmm2, %xmm1
	movdqa	%xmm9, %xmm2
	shufps	$172, %xmm3, %xmm2
	movaps	%xmm3, %xmm15
	movaps	%xmm3, 128(%rsp)
	movaps	32(%rsp), %xmm10
	insertps	$96, %xmm10, %xmm2
	paddd	%xmm2, %xmm5
	paddd	%xmm1, %xmm5
	movaps	16(%rsp), %xmm11
	movaps	%xmm11, %xmm2
	shufps	$219, %xmm12, %xmm2
	paddd	%xmm5, %xmm2
	pshufb	%xmm7, %xmm5
	pshufb	%xmm7, %xmm6
	pxor	%xmm5, %xmm6
	paddd	%xmm6, %xmm0
	pxor	%xmm0, %xmm1
	movdqa	%xmm1, %xmm5
	psrld	$7, %xmm5
	pslld	$25, %xmm1
	por	%xmm5, %xmm1
	pshufd	$36, %xmm4, %xmm5
	movdqa	%xmm9, %xmm7
	movdqa	%xmm9, %xmm12
	shufps	$236, %xmm10, %xmm7
	movaps	%xmm10, %xmm9
	insertps	$112, %xmm13, %xmm7
	punpckhdq	%xmm14, %xmm5
	shufps	$8, %xmm13, %xmm14
	movaps	%xmm14, %xmm10
	pshufd	$57, %xmm2, %xmm2
	paddd	%xmm1, %xmm2
	movdqa	%xmm2, %xmm3
	pshufb	.LCPI2_0(%rip), %xmm3
	movdqa	.LCPI2_3(%rip), %xmm14
	pshufb	%xmm14, %xmm6
	pxor	%xmm3, %xmm6
	pshufd	$147, %xmm0, %xmm4
	paddd	%xmm6, %xmm4
	pxor	%xmm4, %xmm1
	movdqa	%xmm1, %xmm0
	psrld	$12, %xmm0
	pslld	$20, %xmm1
	por	%xmm0, %xmm1
	movaps	%xmm11, %xmm0
	blendps	$12, %xmm8, %xmm0
	pshufd	$220, %xmm0, %xmm8
	movaps	(%rsp), %xmm0
	movaps	%xmm0, %xmm13
	shufps	$243, %xmm9, %xmm0
	insertps	$112, %xmm5, %xmm0
	movaps	%xmm0, (%rsp)
	punpcklqdq	%xmm8, %xmm5
	movdqa	%xmm5, 96(%rsp)
	insertps	$176, %xmm15, %xmm8
	paddd	%xmm8, %xmm2
	paddd	%xmm1, %xmm2
	pshufd	$147, %xmm2, %xmm0
	movdqa	.LCPI2_2(%rip), %xmm15
	pshufb	%xmm15, %xmm2
	pshufb	%xmm15, %xmm6
	pxor	%xmm2, %xmm6
	paddd	%xmm6, %xmm4
	pxor	%xmm4, %xmm1
	movdqa	%xmm1, %xmm2
	psrld	$7, %xmm2
	pslld	$25, %xmm1
	por	%xmm2, %xmm1
	shufps	$120, %xmm7, %xmm7
	paddd	%xmm7, %xmm0
	paddd	%xmm1, %xmm0
	movdqa	%xmm0, %xmm2
	movdqa	.LCPI2_0(%rip), %xmm5
	pshufb	%xmm5, %xmm2
	movdqa	%xmm14, %xmm3
	pshufb	%xmm14, %xmm6
	pxor	%xmm2, %xmm6
	pshufd	$57, %xmm4, %xmm4
	paddd	%xmm6, %xmm4
	pxor	%xmm4, %xmm1
	movdqa	%xmm1, %xmm2
	psrld	$12, %xmm2
	pslld	$20, %xmm1
	por	%xmm2, %xmm1
	insertps	$32, 64(%rsp), %xmm10
	paddd	%xmm10, %xmm0
	paddd	%xmm1, %xmm0
	movdqa	%xmm0, %xmm2
	pshufb	%xmm15, %xmm2
	pshufb	%xmm15, %xmm6
	pxor	%xmm2, %xmm6
	paddd	%xmm6, %xmm4
	pxor	%xmm4, %xmm1
	movdqa	%xmm1, %xmm2
	psrld	$7, %xmm2
	pslld	$25, %xmm1
	por	%xmm2, %xmm1
	pshufd	$231, %xmm11, %xmm14
	pblendw	$12, %xmm12, %xmm14
	movdqa	%xmm12, %xmm10
	insertps	$48, 144(%rsp), %xmm14
	movaps	80(%rsp), %xmm9
	movaps	%xmm9, %xmm2
	shufps	$215, %xmm8, %xmm2
	paddd	%xmm2, %xmm0
	pshufd	$57, %xmm0, %xmm7
	paddd	%xmm1, %xmm7
	movdqa	%xmm7, %xmm0
	pshufb	%xmm5, %xmm0
	pshufb	%xmm3, %xmm6
	movdqa	%xmm3, %xmm12
	pxor	%xmm0, %xmm6
	pshufd	$147, %xmm4, %xmm4
	paddd	%xmm6, %xmm4
	pxor	%xmm4, %xmm1
	movdqa	%xmm1, %xmm0
	psrld	$12, %xmm0
	pslld	$20, %xmm1
	por	%xmm0, %xmm1
	paddd	%xmm14, %xmm7
	paddd	%xmm1, %xmm7
	pshufd	$147, %xmm7, %xmm0
	pshufb	%xmm15, %xmm7
	pshufb	%xmm15, %xmm6
	movdqa	%xmm15, %xmm11
	pxor	%xmm7, %xmm6
	paddd	%xmm6, %xmm4
	pxor	%xmm4, %xmm1
	movdqa	%xmm1, %xmm7
	psrld	$7, %xmm7
	pslld	$25, %xmm1
	por	%xmm7, %xmm1
	movaps	96(%rsp), %xmm5
	shufps	$167, %xmm5, %xmm9
	movaps	%xmm9, %xmm15
	movdqa	%xmm10, %xmm9
	blendps	$8, %xmm10, %xmm5
	pshufd	$120, %xmm5, %xmm5
	paddd	%xmm5, %xmm0
	paddd	%xmm1, %xmm0
	movdqa	%xmm0, %xmm5
	movdqa	.LCPI2_0(%rip), %xmm7
	pshufb	%xmm7, %xmm5
	pshufb	%xmm3, %xmm6
	pxor	%xmm5, %xmm6
	pshufd	$57, %xmm4, %xmm4
	paddd	%xmm6, %xmm4
	pxor	%xmm4, %xmm1
	movdqa	%xmm1, %xmm5
	psrld	$12, %xmm5
	pslld	$20, %xmm1
	por	%xmm5, %xmm1
	shufps	$35, %xmm10, %xmm13
	movaps	64(%rsp), %xmm3
	blendps	$4, %xmm3, %xmm13
	paddd	%xmm13, %xmm0
	paddd	%xmm1, %xmm0
	movdqa	%xmm0, %xmm5
	pshufb	%xmm11, %xmm5
	pshufb	%xmm11, %xmm6
	pxor	%xmm5, %xmm6
	paddd	%xmm6, %xmm4
	pxor	%xmm4, %xmm1
	movdqa	%xmm1, %xmm5
	psrld	$7, %xmm5
	pslld	$25, %xmm1
	por	%xmm5, %xmm1
	pshufd	$250, %xmm10, %xmm5
	movdqa	112(%rsp), %xmm10
	punpckhdq	%xmm5, %xmm10
	pshufd	$57, %xmm0, %xmm0
	movaps	%xmm8, %xmm5
	shufps	$215, %xmm14, %xmm5
	shufps	$57, %xmm5, %xmm5
	paddd	%xmm0, %xmm5
	paddd	%xmm1, %xmm5
	movdqa	%xmm5, %xmm0
	pshufb	%xmm7, %xmm0
	pshufb	%xmm12, %xmm6
	pxor	%xmm0, %xmm6
	pshufd	$147, %xmm4, %xmm4
	paddd	%xmm6, %xmm4
	pxor	%xmm4, %xmm1
	movdqa	%xmm1, %xmm0
	psrld	$12, %xmm0
	pslld	$20, %xmm1
	por	%xmm0, %xmm1
	movdqa	%xmm10, %xmm0
	insertps	$48, %xmm9, %xmm0
	paddd	%xmm0, %xmm5
	paddd	%xmm1, %xmm5
	pshufd	$147, %xmm5, %xmm0
	pshufb	%xmm11, %xmm5
	pshufb	%xmm11, %xmm6
	pxor	%xmm5, %xmm6
	paddd	%xmm6, %xmm4
	pxor	%xmm4, %xmm1
	movdqa	%xmm1, %xmm5
	psrld	$7, %xmm5
	pslld	$25, %xmm1
	por	%xmm5, %xmm1
	movaps	(%rsp), %xmm5
	shufps	$120, %xmm5, %xmm5
	paddd	%xmm5, %xmm0
	paddd	%xmm1, %xmm0
	movdqa	%xmm0, %xmm5
	pshufb	%xmm7, %xmm5
	pshufb	%xmm12, %xmm6
	pxor	%xmm5, %xmm6
	pshufd	$57, %xmm4, %xmm5
	paddd	%xmm6, %xmm5
	pxor	%xmm5, %xmm1
	movdqa	%xmm1, %xmm4
	psrld	$12, %xmm4
	pslld	$20, %xmm1
	por	%xmm4, %xmm1
	pshufd	$85, %xmm3, %xmm4
	movdqa	16(%rsp), %xmm13
	pblendw	$63, %xmm13, %xmm4
	paddd	%xmm4, %xmm0
	paddd	%xmm1, %xmm0
	movdqa	%xmm0, %xmm4
	pshufb	%xmm11, %xmm4
	pshufb	%xmm11, %xmm6
	pxor	%xmm4, %xmm6
	paddd	%xmm6, %xmm5
	pxor	%xmm5, %xmm1
	movdqa	%xmm1, %xmm4
	psrld	$7, %xmm4
	pslld	$25, %xmm1
	por	%xmm4, %xmm1
	movdqa	%xmm13, %xmm4
	punpcklqdq	%xmm2, %xmm4
	movaps	%xmm14, %xmm2
	shufps	$55, %xmm9, %xmm2
	pshufd	$57, %xmm0, %xmm0
	shufps	$57, %xmm2, %xmm2
	paddd	%xmm0, %xmm2
	paddd	%xmm1, %xmm2
	movdqa	%xmm2, %xmm0
	pshufb	%xmm7, %xmm0
	pshufb	%xmm12, %xmm6
	pxor	%xmm0, %xmm6
	pshufd	$147, %xmm5, %xmm0
	paddd	%xmm6, %xmm0
	pxor	%xmm0, %xmm1
	movdqa	%xmm1, %xmm5
	psrld	$12, %xmm5
	pslld	$20, %xmm1
	por	%xmm5, %xmm1
	movaps	32(%rsp), %xmm10
	insertps	$96, %xmm10, %xmm8
	shufps	$219, %xmm8, %xmm8
	movaps	%xmm3, %xmm5
	insertps	$112, %xmm3, %xmm8
	paddd	%xmm8, %xmm2
	paddd	%xmm1, %xmm2
	pshufd	$147, %xmm2, %xmm3
	pshufb	%xmm11, %xmm2
	pshufb	%xmm11, %xmm6
	pxor	%xmm2, %xmm6
	paddd	%xmm6, %xmm0
	pxor	%xmm0, %xmm1
	movdqa	%xmm1, %xmm2
	psrld	$7, %xmm2
	pslld	$25, %xmm1
	por	%xmm2, %xmm1
	insertps	$48, %xmm5, %xmm4
	shufps	$120, %xmm4, %xmm4
	paddd	%xmm4, %xmm3
	pshufd	$57, %xmm0, %xmm4
	paddd	%xmm1, %xmm3
	movdqa	%xmm3, %xmm0
	pshufb	%xmm7, %xmm0
	pshufb	%xmm12, %xmm6
	pxor	%xmm0, %xmm6
	paddd	%xmm6, %xmm4
	pxor	%xmm4, %xmm1
	movdqa	%xmm1, %xmm0
	psrld	$12, %xmm0
	pslld	$20, %xmm1
	por	%xmm0, %xmm1
	movdqa	%xmm13, %xmm0
	shufps	$171, 128(%rsp), %xmm0
	insertps	$112, %xmm13, %xmm0
	shufps	$171, %xmm10, %xmm13
	blendps	$4, %xmm9, %xmm13
	paddd	%xmm13, %xmm3
	paddd	%xmm1, %xmm3
	movdqa	%xmm3, %xmm2
	pshufb	%xmm11, %xmm2
	pshufb	%xmm11, %xmm6
	pxor	%xmm2, %xmm6
	paddd	%xmm6, %xmm4
	pxor	%xmm4, %xmm1
	movdqa	%xmm1, %xmm2
	psrld	$7, %xmm2
	pslld	$25, %xmm1
	por	%xmm2, %xmm1
	insertps	$32, 60(%rsp), %xmm15
	insertps	$32, %xmm5, %xmm14
	shufps	$219, %xmm14, %xmm14
	movaps	%xmm10, %xmm2
	insertps	$176, %xmm10, %xmm14
	shufps	$85, %xmm5, %xmm2
	movaps	%xmm2, %xmm5
	pshufd	$51, %xmm9, %xmm2
	pblendw	$60, %xmm5, %xmm2
	pshufd	$57, %xmm3, %xmm5
	pshufd	$147, %xmm4, %xmm3
	paddd	%xmm5, %xmm2
	paddd	%xmm1, %xmm2
	movdqa	%xmm2, %xmm4
	pshufb	%xmm7, %xmm4
	pshufb	%xmm12, %xmm6
	pxor	%xmm4, %xmm6
	paddd	%xmm6, %xmm3
	pxor	%xmm3, %xmm1
	movdqa	%xmm1, %xmm4
	psrld	$12, %xmm4
	pslld	$20, %xmm1
	por	%xmm4, %xmm1
	paddd	%xmm14, %xmm2
	paddd	%xmm1, %xmm2
	pshufd	$147, %xmm2, %xmm4
	pshufb	%xmm11, %xmm2
	pshufb	%xmm11, %xmm6
	pxor	%xmm2, %xmm6
	paddd	%xmm6, %xmm3
	pxor	%xmm3, %xmm1
	movdqa	%xmm1, %xmm2
	psrld	$7, %xmm2
	pslld	$25, %xmm1
	por	%xmm2, %xmm1
	shufps	$120, %xmm0, %xmm0
	paddd	%xmm0, %xmm4
	paddd	%xmm1, %xmm4
	movdqa	%xmm4, %xmm2
	pshufb	%xmm7, %xmm2
	pshufb	%xmm12, %xmm6
	pshufd	$57, %xmm3, %xmm0
	pxor	%xmm2, %xmm6
	paddd	%xmm6, %xmm0
	pxor	%xmm0, %xmm1
	movdqa	%xmm1, %xmm2
	psrld	$12, %xmm2
	pslld	$20, %xmm1
	por	%xmm2, %xmm1
	paddd	%xmm15, %xmm4
	paddd	%xmm1, %xmm4
	pshufd	$57, %xmm4, %xmm2
	pshufb	%xmm11, %xmm4
	pshufb	%xmm11, %xmm6
	pxor	%xmm4, %xmm6
	paddd	%xmm6, %xmm0
	pxor	%xmm0, %xmm1
	movdqa	%xmm1, %xmm3
	psrld	$7, %xmm3
	pslld	$25, %xmm1
	por	%xmm3, %xmm1
	pshufd	$147, %xmm0, %xmm0
	pxor	%xmm2, %xmm0
	pshufd	$78, %xmm6, %xmm2
	pxor	%xmm1, %xmm2
	movdqu	%xmm0, (%rcx)
	movdqu	%xmm2, 16(%rcx)
	movaps	160(%rsp), %xmm6
	movaps	176(%rsp), %xmm7
	movaps	192(%rsp), %xmm8
	movaps	208(%rsp), %xmm9
	movaps	224(%rsp), %xmm10
	movaps	240(%rsp), %xmm11
	movaps	256(%rsp), %xmm12
	movaps	272(%rsp), %xmm13
	movaps	288(%rsp), %xmm14
	movaps	304(%rsp), %xmm15
	addq	$328, %rsp
	retq
	.seh_endproc

	.section	.text
	.p2align	4
	.def	"keyed_blake3::hasher::Hasher::update";
	.scl	3;
	.type	32;
	.endef
"keyed_blake3::hasher::Hasher::update":
.seh_proc "keyed_blake3::hasher::Hasher::update"
	pushq	%r15
	.seh_pushreg %r15
	pushq	%r14
	.seh_pushreg %r14
	pushq	%r13
	.seh_pushreg %r13
	pushq	%r12
	.seh_pushreg %r12
	pushq	%rsi
	.seh_pushreg %rsi
	pushq	%rdi
	.seh_pushreg %rdi
	pushq	%rbp
	.seh_pushreg %rbp
	pushq	%rbx
	.seh_pushreg %rbx
	subq	$504, %rsp
	.seh_stackalloc 504
	.seh_endprologue
	testq	%r8, %r8
	je	.LBB3_102
	movq	%r8, %rbx
	movq	%rdx, %rdi
	movq	%rcx, %rsi
	movq	1856(%rcx), %r12
	cmpq	$1025, %r12
	setb	%al
	testl	$1023, %r12d
	setne	%cl
	orb	%al, %cl
	jne	.LBB3_5
	movq	%r12, %rax
	shrq	$10, %rax
	leaq	-1(%rax), %rcx
	testq	%rcx, %rax
	jne	.LBB3_11
	leaq	64(%rsi), %r14
	movups	96(%rsi), %xmm0
	movups	112(%rsi), %xmm1
	movaps	%xmm1, 480(%rsp)
	movaps	%xmm0, 464(%rsp)
	movups	64(%rsi), %xmm0
	movups	80(%rsi), %xmm1
	movaps	%xmm0, 160(%rsp)
	movaps	%xmm1, 176(%rsp)
	movups	96(%rsi), %xmm0
	movups	112(%rsi), %xmm1
	movaps	%xmm0, 208(%rsp)
	movaps	%xmm1, 224(%rsp)
	xorps	%xmm0, %xmm0
	movaps	%xmm0, 128(%rsp)
	movaps	%xmm0, 144(%rsp)
	leaq	160(%rsp), %rax
	negq	%rax
	addq	%rsp, %rax
	addq	$64, %rax
	movaps	%xmm0, 64(%rsp)
	movaps	%xmm0, 80(%rsp)
	movaps	%xmm0, 96(%rsp)
	movaps	%xmm0, 112(%rsp)
	cmpq	$31, %rax
	ja	.LBB3_6
	movaps	160(%rsp), %xmm0
	movaps	176(%rsp), %xmm1
	movaps	%xmm0, 64(%rsp)
	movaps	%xmm1, 80(%rsp)
	jmp	.LBB3_7
.LBB3_5:
	cmpq	$1, %r12
	movq	%r12, %r15
	adcq	$-1, %r15
	jmp	.LBB3_12
.LBB3_6:
	movups	(%r14), %xmm0
	movups	16(%r14), %xmm1
	movaps	%xmm1, 80(%rsp)
	movaps	%xmm0, 64(%rsp)
.LBB3_7:
	leaq	208(%rsp), %rax
	negq	%rax
	addq	%rsp, %rax
	addq	$96, %rax
	cmpq	$31, %rax
	ja	.LBB3_9
	movaps	208(%rsp), %xmm0
	movaps	224(%rsp), %xmm1
	movaps	%xmm0, 96(%rsp)
	movaps	%xmm1, 112(%rsp)
	jmp	.LBB3_10
.LBB3_9:
	leaq	96(%rsi), %rax
	leaq	96(%rsp), %rcx
	movups	(%rax), %xmm0
	movups	16(%rax), %xmm1
	movups	%xmm1, 16(%rcx)
	movups	%xmm0, (%rcx)
.LBB3_10:
	movups	(%rsi), %xmm0
	movups	16(%rsi), %xmm1
	movaps	%xmm1, 432(%rsp)
	movaps	%xmm0, 448(%rsp)
	movl	$20, 48(%rsp)
	movl	$64, 40(%rsp)
	movq	$0, 32(%rsp)
	leaq	128(%rsp), %rcx
	leaq	448(%rsp), %rdx
	leaq	432(%rsp), %r8
	leaq	64(%rsp), %r9
	callq	"keyed_blake3::compression::compress"
	movaps	128(%rsp), %xmm0
	movaps	144(%rsp), %xmm1
	movaps	%xmm1, 480(%rsp)
	movaps	%xmm0, 464(%rsp)
	movups	%xmm1, 16(%r14)
	movups	%xmm0, (%r14)
.LBB3_11:
	movq	%r12, %r15
.LBB3_12:
	movq	%r15, %rdx
	andq	$-64, %rdx
	movq	%r12, %rax
	subq	%rdx, %rax
	leaq	(%r12,%rbx), %rcx
	movq	%rcx, 1856(%rsi)
	movl	$64, %r14d
	subq	%rax, %r14
	cmpq	%r14, %rbx
	jbe	.LBB3_15
	movq	%r15, %rbp
	shrq	$6, %rbp
	movq	%r12, %r8
	subq	%rdx, %r8
	jne	.LBB3_18
	xorl	%r14d, %r14d
	movq	%rbx, %r8
	subq	%r14, %r8
	cmpq	$65, %r8
	jae	.LBB3_57
	jmp	.LBB3_77
.LBB3_15:
	leaq	(%rsi,%rax), %rcx
	addq	$1792, %rcx
	movq	%rcx, %r8
	subq	%rdi, %r8
	cmpq	%rbx, %r8
	jae	.LBB3_22
	cmpq	$4, %rbx
	jb	.LBB3_17
	addq	%rsi, %r12
	addq	%rdi, %rdx
	subq	%rdx, %r12
	addq	$1792, %r12
	cmpq	$32, %r12
	jae	.LBB3_26
.LBB3_17:
	xorl	%edx, %edx
.LBB3_37:
	movq	%rbx, %r9
	movq	%rdx, %r8
	andq	$3, %r9
	je	.LBB3_40
	movq	%rdx, %r8
	.p2align	4
.LBB3_39:
	movzbl	(%rdi,%r8), %r10d
	movb	%r10b, (%rcx,%r8)
	incq	%r8
	decq	%r9
	jne	.LBB3_39
.LBB3_40:
	subq	%rbx, %rdx
	cmpq	$-4, %rdx
	ja	.LBB3_43
	addq	%rsi, %rax
	addq	$1795, %rax
	.p2align	4
.LBB3_42:
	movzbl	(%rdi,%r8), %ecx
	movb	%cl, -3(%rax,%r8)
	movzbl	1(%rdi,%r8), %ecx
	movb	%cl, -2(%rax,%r8)
	movzbl	2(%rdi,%r8), %ecx
	movb	%cl, -1(%rax,%r8)
	movzbl	3(%rdi,%r8), %ecx
	movb	%cl, (%rax,%r8)
	addq	$4, %r8
	cmpq	%r8, %rbx
	jne	.LBB3_42
	jmp	.LBB3_43
.LBB3_18:
	leaq	(%rsi,%rax), %rcx
	addq	$1792, %rcx
	movq	%rcx, %rax
	subq	%rdi, %rax
	cmpq	%r14, %rax
	jae	.LBB3_25
	cmpq	$4, %r14
	jb	.LBB3_21
	addq	%rsi, %r12
	addq	%rdi, %rdx
	subq	%rdx, %r12
	addq	$1792, %r12
	cmpq	$32, %r12
	jae	.LBB3_28
.LBB3_21:
	xorl	%eax, %eax
	jmp	.LBB3_51
.LBB3_22:
	movq	%rdi, %rdx
	movq	%rbx, %r8
	callq	memmove
.LBB3_43:
	movq	1856(%rsi), %rdi
	cmpq	$1025, %rdi
	setb	%al
	testl	$1023, %edi
	setne	%cl
	orb	%al, %cl
	jne	.LBB3_102
	leaq	1792(%rsi), %rax
	shrq	$10, %rdi
	decq	%rdi
	movups	(%rax), %xmm0
	movups	16(%rax), %xmm1
	movups	32(%rax), %xmm2
	movups	48(%rax), %xmm3
	movaps	%xmm3, 112(%rsp)
	movaps	%xmm2, 96(%rsp)
	movaps	%xmm1, 80(%rsp)
	movaps	%xmm0, 64(%rsp)
	movups	32(%rsi), %xmm0
	movups	48(%rsi), %xmm1
	movaps	%xmm1, 400(%rsp)
	movaps	%xmm0, 416(%rsp)
	movq	%rdi, 32(%rsp)
	movl	$18, 48(%rsp)
	movl	$64, 40(%rsp)
	leaq	128(%rsp), %rbx
	leaq	416(%rsp), %rdx
	leaq	400(%rsp), %r8
	jmp	.LBB3_101
.LBB3_25:
	movq	%rdi, %rdx
	movq	%r14, %r8
	callq	memmove
	jmp	.LBB3_53
.LBB3_26:
	cmpq	$32, %rbx
	jae	.LBB3_30
	xorl	%edx, %edx
	jmp	.LBB3_34
.LBB3_28:
	cmpq	$32, %r14
	jae	.LBB3_45
	xorl	%eax, %eax
	jmp	.LBB3_49
.LBB3_30:
	movq	%rbx, %rdx
	andq	$-32, %rdx
	leaq	(%rax,%rsi), %r8
	addq	$1808, %r8
	xorl	%r9d, %r9d
	.p2align	4
.LBB3_31:
	movups	(%rdi,%r9), %xmm0
	movups	16(%rdi,%r9), %xmm1
	movups	%xmm0, -16(%r8,%r9)
	movups	%xmm1, (%r8,%r9)
	addq	$32, %r9
	cmpq	%r9, %rdx
	jne	.LBB3_31
	cmpq	%rdx, %rbx
	je	.LBB3_43
	testb	$28, %bl
	je	.LBB3_37
.LBB3_34:
	movq	%rdx, %r8
	movq	%rbx, %rdx
	andq	$-4, %rdx
	.p2align	4
.LBB3_35:
	movl	(%rdi,%r8), %r9d
	movl	%r9d, (%rcx,%r8)
	addq	$4, %r8
	cmpq	%r8, %rdx
	jne	.LBB3_35
	cmpq	%rdx, %rbx
	je	.LBB3_43
	jmp	.LBB3_37
.LBB3_45:
	movq	%r14, %rax
	andq	$-32, %rax
	leaq	(%r8,%rsi), %rdx
	addq	$1808, %rdx
	xorl	%r8d, %r8d
	.p2align	4
.LBB3_46:
	movups	(%rdi,%r8), %xmm0
	movups	16(%rdi,%r8), %xmm1
	movups	%xmm0, -16(%rdx,%r8)
	movups	%xmm1, (%rdx,%r8)
	addq	$32, %r8
	cmpq	%r8, %rax
	jne	.LBB3_46
	cmpq	%rax, %r14
	je	.LBB3_53
	testb	$28, %r14b
	je	.LBB3_51
.LBB3_49:
	movq	%rax, %rdx
	movq	%r14, %rax
	andq	$-4, %rax
	.p2align	4
.LBB3_50:
	movl	(%rdi,%rdx), %r8d
	movl	%r8d, (%rcx,%rdx)
	addq	$4, %rdx
	cmpq	%rdx, %rax
	jne	.LBB3_50
	jmp	.LBB3_52
.LBB3_77:
	cmpq	%rbx, %r14
	je	.LBB3_102
	leaq	(%rdi,%r14), %rdx
	leaq	1792(%rsi), %rbx
	movq	%rbx, %rax
	subq	%rdx, %rax
	cmpq	%r8, %rax
	jae	.LBB3_81
	cmpq	$4, %r8
	jb	.LBB3_80
	movq	%rsi, %rax
	subq	%rdx, %rax
	addq	$1792, %rax
	cmpq	$32, %rax
	jae	.LBB3_84
.LBB3_80:
	xorl	%eax, %eax
.LBB3_93:
	movq	%r8, %r9
	movq	%rax, %rcx
	andq	$3, %r9
	je	.LBB3_96
	movq	%rax, %rcx
	.p2align	4
.LBB3_95:
	movzbl	(%rdx,%rcx), %r10d
	movb	%r10b, (%rbx,%rcx)
	incq	%rcx
	decq	%r9
	jne	.LBB3_95
.LBB3_96:
	subq	%r8, %rax
	cmpq	$-4, %rax
	ja	.LBB3_99
	leaq	(%r14,%rdi), %rax
	addq	$3, %rax
	.p2align	4
.LBB3_98:
	movzbl	-3(%rax,%rcx), %edx
	movb	%dl, 1792(%rsi,%rcx)
	movzbl	-2(%rax,%rcx), %edx
	movb	%dl, 1793(%rsi,%rcx)
	movzbl	-1(%rax,%rcx), %edx
	movb	%dl, 1794(%rsi,%rcx)
	movzbl	(%rax,%rcx), %edx
	movb	%dl, 1795(%rsi,%rcx)
	addq	$4, %rcx
	cmpq	%rcx, %r8
	jne	.LBB3_98
	jmp	.LBB3_99
.LBB3_81:
	movq	%rbx, %rcx
	callq	memmove
.LBB3_99:
	movq	1856(%rsi), %rdi
	cmpq	$1025, %rdi
	setb	%al
	testl	$1023, %edi
	setne	%cl
	orb	%al, %cl
	jne	.LBB3_102
	shrq	$10, %rdi
	decq	%rdi
	movups	(%rbx), %xmm0
	movups	16(%rbx), %xmm1
	movups	32(%rbx), %xmm2
	movups	48(%rbx), %xmm3
	movaps	%xmm3, 112(%rsp)
	movaps	%xmm2, 96(%rsp)
	movaps	%xmm1, 80(%rsp)
	movaps	%xmm0, 64(%rsp)
	movups	32(%rsi), %xmm0
	movups	48(%rsi), %xmm1
	movaps	%xmm1, 240(%rsp)
	movaps	%xmm0, 256(%rsp)
	movq	%rdi, 32(%rsp)
	movl	$18, 48(%rsp)
	movl	$64, 40(%rsp)
	leaq	128(%rsp), %rbx
	leaq	256(%rsp), %rdx
	leaq	240(%rsp), %r8
.LBB3_101:
	leaq	64(%rsp), %r9
	movq	%rbx, %rcx
	callq	"keyed_blake3::compression::compress"
	leaq	64(%rsi), %rcx
	movq	$1, 32(%rsp)
	movq	%rsi, %rdx
	movq	%rdi, %r8
	movq	%rbx, %r9
	callq	"keyed_blake3::tree::add_subtree_value"
	movups	(%rsi), %xmm0
	movups	16(%rsi), %xmm1
	movups	%xmm1, 48(%rsi)
	movups	%xmm0, 32(%rsi)
.LBB3_102:
	addq	$504, %rsp
	popq	%rbx
	popq	%rbp
	popq	%rdi
	popq	%rsi
	popq	%r12
	popq	%r13
	popq	%r14
	popq	%r15
	retq
.LBB3_84:
	cmpq	$32, %r8
	jae	.LBB3_86
	xorl	%eax, %eax
	jmp	.LBB3_90
.LBB3_86:
	movl	%r8d, %eax
	andl	$96, %eax
	leaq	(%r14,%rdi), %rcx
	addq	$16, %rcx
	xorl	%r9d, %r9d
	.p2align	4
.LBB3_87:
	movups	-16(%rcx,%r9), %xmm0
	movups	(%rcx,%r9), %xmm1
	movups	%xmm0, 1792(%rsi,%r9)
	movups	%xmm1, 1808(%rsi,%r9)
	addq	$32, %r9
	cmpq	%r9, %rax
	jne	.LBB3_87
	cmpq	%rax, %r8
	je	.LBB3_99
	testb	$28, %r8b
	je	.LBB3_93
.LBB3_90:
	movq	%rax, %rcx
	movl	%r8d, %eax
	andl	$124, %eax
	.p2align	4
.LBB3_91:
	movl	(%rdx,%rcx), %r9d
	movl	%r9d, (%rbx,%rcx)
	addq	$4, %rcx
	cmpq	%rcx, %rax
	jne	.LBB3_91
	cmpq	%rax, %r8
	je	.LBB3_99
	jmp	.LBB3_93
.LBB3_51:
	movzbl	(%rdi,%rax), %edx
	movb	%dl, (%rcx,%rax)
	incq	%rax
.LBB3_52:
	cmpq	%rax, %r14
	jne	.LBB3_51
.LBB3_53:
	leaq	1792(%rsi), %rax
	shrq	$10, %r15
	movl	%ebp, %ecx
	andl	$15, %ecx
	cmpq	$15, %rcx
	jne	.LBB3_55
	movups	(%rax), %xmm0
	movups	16(%rax), %xmm1
	movups	32(%rax), %xmm2
	movups	48(%rax), %xmm3
	movaps	%xmm3, 112(%rsp)
	movaps	%xmm2, 96(%rsp)
	movaps	%xmm1, 80(%rsp)
	movaps	%xmm0, 64(%rsp)
	movups	32(%rsi), %xmm0
	movups	48(%rsi), %xmm1
	movaps	%xmm1, 336(%rsp)
	movaps	%xmm0, 352(%rsp)
	movq	%r15, 32(%rsp)
	movl	$18, 48(%rsp)
	movl	$64, 40(%rsp)
	leaq	128(%rsp), %r12
	leaq	352(%rsp), %rdx
	leaq	336(%rsp), %r8
	leaq	64(%rsp), %r9
	movq	%r12, %rcx
	callq	"keyed_blake3::compression::compress"
	leaq	64(%rsi), %rcx
	movq	$0, 32(%rsp)
	movq	%rsi, %rdx
	movq	%r15, %r8
	movq	%r12, %r9
	callq	"keyed_blake3::tree::add_subtree_value"
	movups	(%rsi), %xmm0
	movups	16(%rsi), %xmm1
	jmp	.LBB3_56
.LBB3_55:
	xorl	%edx, %edx
	cmpq	$1, %rcx
	adcl	$16, %edx
	movups	(%rax), %xmm0
	movups	16(%rax), %xmm1
	movups	32(%rax), %xmm2
	movups	48(%rax), %xmm3
	movaps	%xmm3, 112(%rsp)
	movaps	%xmm2, 96(%rsp)
	movaps	%xmm1, 80(%rsp)
	movaps	%xmm0, 64(%rsp)
	movups	32(%rsi), %xmm0
	movups	48(%rsi), %xmm1
	movaps	%xmm1, 368(%rsp)
	movaps	%xmm0, 384(%rsp)
	movl	%edx, 48(%rsp)
	movq	%r15, 32(%rsp)
	movl	$64, 40(%rsp)
	leaq	128(%rsp), %rcx
	leaq	384(%rsp), %rdx
	leaq	368(%rsp), %r8
	leaq	64(%rsp), %r9
	callq	"keyed_blake3::compression::compress"
	movups	128(%rsp), %xmm0
	movups	144(%rsp), %xmm1
.LBB3_56:
	movups	%xmm1, 48(%rsi)
	movups	%xmm0, 32(%rsi)
	incq	%rbp
	movq	%rbx, %r8
	subq	%r14, %r8
	cmpq	$65, %r8
	jb	.LBB3_77
.LBB3_57:
	movabsq	$1152921504606846975, %r15
	leaq	32(%rsi), %r13
	leaq	64(%rsi), %rax
	movq	%rax, 200(%rsp)
	jmp	.LBB3_61
	.p2align	4
.LBB3_58:
	xorl	%edx, %edx
	cmpq	$1, %rax
	adcl	$16, %edx
	movups	(%rcx), %xmm0
	movups	16(%rcx), %xmm1
	movups	32(%rcx), %xmm2
	movups	48(%rcx), %xmm3
	movaps	%xmm3, 112(%rsp)
	movaps	%xmm2, 96(%rsp)
	movaps	%xmm1, 80(%rsp)
	movaps	%xmm0, 64(%rsp)
	movups	32(%rsi), %xmm0
	movups	48(%rsi), %xmm1
	movaps	%xmm1, 304(%rsp)
	movaps	%xmm0, 320(%rsp)
	movl	%edx, 48(%rsp)
	movq	%r12, 32(%rsp)
	movl	$64, 40(%rsp)
	leaq	160(%rsp), %rcx
	leaq	320(%rsp), %rdx
	leaq	304(%rsp), %r8
	leaq	64(%rsp), %r9
	callq	"keyed_blake3::compression::compress"
	movups	160(%rsp), %xmm0
	movups	176(%rsp), %xmm1
.LBB3_59:
	movups	%xmm1, 16(%r13)
	movups	%xmm0, (%r13)
	movl	$1, %r12d
.LBB3_60:
	addq	%r12, %rbp
	shlq	$6, %r12
	addq	%r12, %r14
	movq	%rbx, %r8
	subq	%r14, %r8
	cmpq	$64, %r8
	jbe	.LBB3_77
.LBB3_61:
	leaq	(%rdi,%r14), %rcx
	movl	%ebp, %eax
	andl	$15, %eax
	cmpq	$2048, %r8
	jb	.LBB3_69
	testq	%rax, %rax
	jne	.LBB3_69
	movq	%r8, %r10
	shrq	$10, %r10
	movq	%rbp, %rdx
	shrq	$4, %rdx
	movq	%r8, %r11
	shrq	$12, %r11
	movl	$1, %r9d
	.p2align	4
.LBB3_64:
	leaq	(%r9,%r9), %rax
	cmpq	%r11, %rax
	ja	.LBB3_72
	leaq	(%rax,%r15), %r12
	testq	%rdx, %r12
	jne	.LBB3_72
	shlq	$2, %r9
	cmpq	%r11, %r9
	ja	.LBB3_73
	testq	%r9, %r9
	je	.LBB3_103
	leaq	(%r9,%r15), %r12
	testq	%rdx, %r12
	je	.LBB3_64
	jmp	.LBB3_73
	.p2align	4
.LBB3_69:
	movq	%rbp, %r12
	shrq	$4, %r12
	cmpl	$15, %eax
	jne	.LBB3_58
	movups	(%rcx), %xmm0
	movups	16(%rcx), %xmm1
	movups	32(%rcx), %xmm2
	movups	48(%rcx), %xmm3
	movaps	%xmm3, 112(%rsp)
	movaps	%xmm2, 96(%rsp)
	movaps	%xmm1, 80(%rsp)
	movaps	%xmm0, 64(%rsp)
	movups	32(%rsi), %xmm0
	movups	48(%rsi), %xmm1
	movaps	%xmm1, 272(%rsp)
	movaps	%xmm0, 288(%rsp)
	movq	%r12, 32(%rsp)
	movl	$18, 48(%rsp)
	movl	$64, 40(%rsp)
	leaq	128(%rsp), %rcx
	leaq	288(%rsp), %rdx
	leaq	272(%rsp), %r8
	leaq	64(%rsp), %r9
	callq	"keyed_blake3::compression::compress"
	movq	$0, 32(%rsp)
	movq	200(%rsp), %rcx
	movq	%rsi, %rdx
	movq	%r12, %r8
	leaq	128(%rsp), %r9
	callq	"keyed_blake3::tree::add_subtree_value"
	movups	(%rsi), %xmm0
	movups	16(%rsi), %xmm1
	jmp	.LBB3_59
	.p2align	4
.LBB3_72:
	movq	%r9, %rax
.LBB3_73:
	cmpq	$4, %r10
	movl	$4, %r9d
	cmovbq	%r10, %r9
	movq	%r9, %r12
	imulq	%rax, %r12
	shlq	$10, %r12
	cmpq	%r8, %r12
	jne	.LBB3_75
	movq	%r8, 40(%rsp)
	movq	%rcx, 32(%rsp)
	movq	$1, 48(%rsp)
	jmp	.LBB3_76
	.p2align	4
.LBB3_75:
	movq	%r12, 40(%rsp)
	movq	%rcx, 32(%rsp)
	movq	$0, 48(%rsp)
.LBB3_76:
	movq	%rsi, %rcx
	movq	%rax, %r8
	callq	"keyed_blake3::tree::Tree::absorb_subtrees::<#8b36ca032ac25711>"
	shrq	$6, %r12
	jmp	.LBB3_60
.LBB3_103:
	ud2
	.seh_endproc

	.section	.text
	.p2align	4
	.def	"keyed_blake3::tree::add_subtree_value";
	.scl	3;
	.type	32;
	.endef
"keyed_blake3::tree::add_subtree_value":
.seh_proc "keyed_blake3::tree::add_subtree_value"
	pushq	%r15
	.seh_pushreg %r15
	pushq	%r14
	.seh_pushreg %r14
	pushq	%r13
	.seh_pushreg %r13
	pushq	%r12
	.seh_pushreg %r12
	pushq	%rsi
	.seh_pushreg %rsi
	pushq	%rdi
	.seh_pushreg %rdi
	pushq	%rbx
	.seh_pushreg %rbx
	subq	$320, %rsp
	.seh_stackalloc 320
	movaps	%xmm7, 304(%rsp)
	.seh_savexmm %xmm7, 304
	movaps	%xmm6, 288(%rsp)
	.seh_savexmm %xmm6, 288
	.seh_endprologue
	movq	%r8, %rdi
	movq	%rcx, %rsi
	movq	416(%rsp), %r14
	xorps	%xmm0, %xmm0
	movaps	%xmm0, 176(%rsp)
	movaps	%xmm0, 160(%rsp)
	movups	(%r9), %xmm0
	movups	16(%r9), %xmm1
	movaps	%xmm0, 64(%rsp)
	movaps	%xmm1, 80(%rsp)
	xorl	%ebx, %ebx
	popcntq	%r8, %rbx
	cmpq	%rbx, %r14
	setb	%al
	testb	%dil, %al
	je	.LBB4_1
	leaq	64(%rsp), %rax
	negq	%rax
	addq	%rsp, %rax
	addq	$128, %rax
	movups	(%rdx), %xmm6
	movups	16(%rdx), %xmm7
	cmpq	$32, %rax
	jae	.LBB4_3
	leaq	-1(%rbx), %r15
	shll	$5, %ebx
	leaq	-32(%rsi), %r12
	.p2align	4
.LBB4_7:
	leaq	(%r12,%rbx), %rax
	leaq	96(%rsp), %rcx
	subq	%rax, %rcx
	xorps	%xmm0, %xmm0
	movaps	%xmm0, 112(%rsp)
	movaps	%xmm0, 96(%rsp)
	cmpq	$32, %rcx
	jae	.LBB4_8
	movups	(%r12,%rbx), %xmm0
	movaps	%xmm0, 96(%rsp)
	movups	16(%r12,%rbx), %xmm0
	movaps	%xmm0, 112(%rsp)
	jmp	.LBB4_10
	.p2align	4
.LBB4_8:
	movups	(%rax), %xmm0
	movups	16(%rax), %xmm1
	movaps	%xmm1, 112(%rsp)
	movaps	%xmm0, 96(%rsp)
.LBB4_10:
	movaps	64(%rsp), %xmm0
	movaps	80(%rsp), %xmm1
	movaps	%xmm0, 128(%rsp)
	movaps	%xmm1, 144(%rsp)
	movaps	%xmm7, 224(%rsp)
	movaps	%xmm6, 240(%rsp)
	movl	$20, 48(%rsp)
	movl	$64, 40(%rsp)
	movq	$0, 32(%rsp)
	leaq	192(%rsp), %rcx
	leaq	240(%rsp), %rdx
	leaq	224(%rsp), %r8
	leaq	96(%rsp), %r9
	callq	"keyed_blake3::compression::compress"
	movups	192(%rsp), %xmm0
	movups	208(%rsp), %xmm1
	movaps	%xmm1, 176(%rsp)
	movaps	%xmm0, 160(%rsp)
	movaps	%xmm0, 64(%rsp)
	movaps	%xmm1, 80(%rsp)
	addq	$-32, %rbx
	cmpq	%r15, %r14
	jae	.LBB4_15
	movq	%rdi, %rax
	shrq	%rax
	andl	$2, %edi
	decq	%r15
	testq	%rdi, %rdi
	movq	%rax, %rdi
	jne	.LBB4_7
	jmp	.LBB4_15
.LBB4_1:
	shll	$5, %ebx
.LBB4_15:
	movaps	64(%rsp), %xmm0
	movaps	80(%rsp), %xmm1
	movups	%xmm1, 16(%rsi,%rbx)
	movups	%xmm0, (%rsi,%rbx)
	movaps	288(%rsp), %xmm6
	movaps	304(%rsp), %xmm7
	addq	$320, %rsp
	popq	%rbx
	popq	%rdi
	popq	%rsi
	popq	%r12
	popq	%r13
	popq	%r14
	popq	%r15
	retq
.LBB4_3:
	leaq	128(%rsp), %r15
	leaq	-1(%rbx), %r12
	shll	$5, %ebx
	leaq	-32(%rsi), %r13
	.p2align	4
.LBB4_4:
	leaq	(%rbx,%r13), %rax
	leaq	96(%rsp), %rcx
	subq	%rax, %rcx
	xorps	%xmm0, %xmm0
	movaps	%xmm0, 112(%rsp)
	movaps	%xmm0, 96(%rsp)
	cmpq	$31, %rcx
	ja	.LBB4_12
	movups	(%r13,%rbx), %xmm0
	movaps	%xmm0, 96(%rsp)
	movups	16(%r13,%rbx), %xmm0
	movaps	%xmm0, 112(%rsp)
	jmp	.LBB4_13
	.p2align	4
.LBB4_12:
	movups	(%rax), %xmm0
	movups	16(%rax), %xmm1
	movaps	%xmm1, 112(%rsp)
	movaps	%xmm0, 96(%rsp)
.LBB4_13:
	movaps	64(%rsp), %xmm0
	movaps	80(%rsp), %xmm1
	movaps	%xmm1, 16(%r15)
	movaps	%xmm0, (%r15)
	movaps	%xmm7, 256(%rsp)
	movaps	%xmm6, 272(%rsp)
	movl	$20, 48(%rsp)
	movl	$64, 40(%rsp)
	movq	$0, 32(%rsp)
	leaq	192(%rsp), %rcx
	leaq	272(%rsp), %rdx
	leaq	256(%rsp), %r8
	leaq	96(%rsp), %r9
	callq	"keyed_blake3::compression::compress"
	movups	192(%rsp), %xmm0
	movups	208(%rsp), %xmm1
	movaps	%xmm1, 176(%rsp)
	movaps	%xmm0, 160(%rsp)
	movaps	%xmm0, 64(%rsp)
	movaps	%xmm1, 80(%rsp)
	addq	$-32, %rbx
	cmpq	%r12, %r14
	jae	.LBB4_15
	movq	%rdi, %rax
	shrq	%rax
	andl	$2, %edi
	decq	%r12
	testq	%rdi, %rdi
	movq	%rax, %rdi
	jne	.LBB4_4
	jmp	.LBB4_15
	.seh_endproc

	.section	.rdata,"dr"
	.p2align	4, 0x0
.LCPI5_0:
	.byte	2
	.byte	3
	.byte	0
	.byte	1
	.byte	6
	.byte	7
	.byte	4
	.byte	5
	.byte	10
	.byte	11
	.byte	8
	.byte	9
	.byte	14
	.byte	15
	.byte	12
	.byte	13
.LCPI5_1:
	.long	1779033703
	.long	3144134277
	.long	1013904242
	.long	2773480762
.LCPI5_2:
	.byte	1
	.byte	2
	.byte	3
	.byte	0
	.byte	5
	.byte	6
	.byte	7
	.byte	4
	.byte	9
	.byte	10
	.byte	11
	.byte	8
	.byte	13
	.byte	14
	.byte	15
	.byte	12
.LCPI5_3:
	.byte	10
	.byte	11
	.byte	8
	.byte	9
	.byte	14
	.byte	15
	.byte	12
	.byte	13
	.byte	2
	.byte	3
	.byte	0
	.byte	1
	.byte	6
	.byte	7
	.byte	4
	.byte	5
	.section	.text
	.p2align	4
	.def	"keyed_blake3::compression::two::compress_two_from";
	.scl	3;
	.type	32;
	.endef
"keyed_blake3::compression::two::compress_two_from":
.seh_proc "keyed_blake3::compression::two::compress_two_from"
	subq	$584, %rsp
	.seh_stackalloc 584
	movaps	%xmm15, 560(%rsp)
	.seh_savexmm %xmm15, 560
	movaps	%xmm14, 544(%rsp)
	.seh_savexmm %xmm14, 544
	movaps	%xmm13, 528(%rsp)
	.seh_savexmm %xmm13, 528
	movaps	%xmm12, 512(%rsp)
	.seh_savexmm %xmm12, 512
	movaps	%xmm11, 496(%rsp)
	.seh_savexmm %xmm11, 496
	movaps	%xmm10, 480(%rsp)
	.seh_savexmm %xmm10, 480
	movaps	%xmm9, 464(%rsp)
	.seh_savexmm %xmm9, 464
	movaps	%xmm8, 448(%rsp)
	.seh_savexmm %xmm8, 448
	movaps	%xmm7, 432(%rsp)
	.seh_savexmm %xmm7, 432
	movaps	%xmm6, 416(%rsp)
	.seh_savexmm %xmm6, 416
	.seh_endprologue
	movq	624(%rsp), %r10
	movdqa	(%r9), %xmm1
	movq	640(%rsp), %rax
	movq	632(%rsp), %r11
	movq	648(%rsp), %r9
	movups	(%r9), %xmm0
	movups	16(%r9), %xmm14
	movdqu	32(%r9), %xmm2
	movdqa	%xmm2, 208(%rsp)
	movdqu	48(%r9), %xmm7
	movdqa	%xmm7, 192(%rsp)
	movq	656(%rsp), %r9
	movdqu	32(%r9), %xmm4
	movdqa	%xmm4, 112(%rsp)
	movdqu	48(%r9), %xmm6
	movdqa	%xmm6, 176(%rsp)
	movaps	%xmm0, %xmm5
	movaps	%xmm0, %xmm12
	movaps	%xmm0, 128(%rsp)
	shufps	$136, %xmm14, %xmm5
	movaps	%xmm5, 144(%rsp)
	movaps	%xmm14, 80(%rsp)
	pshufd	$38, %xmm7, %xmm0
	pshufd	$224, %xmm2, %xmm2
	pblendw	$195, %xmm0, %xmm2
	movdqa	%xmm2, 32(%rsp)
	pshufd	$38, %xmm6, %xmm0
	pshufd	$224, %xmm4, %xmm15
	pblendw	$195, %xmm0, %xmm15
	movdqa	(%rdx), %xmm4
	paddd	%xmm1, %xmm4
	paddd	%xmm5, %xmm4
	movdqa	(%r11), %xmm13
	pxor	%xmm4, %xmm13
	movdqa	.LCPI5_0(%rip), %xmm10
	pshufb	%xmm10, %xmm13
	movdqa	.LCPI5_1(%rip), %xmm7
	movdqa	%xmm13, %xmm8
	paddd	%xmm7, %xmm8
	pxor	%xmm8, %xmm1
	movdqa	%xmm1, %xmm0
	psrld	$12, %xmm0
	pslld	$20, %xmm1
	por	%xmm0, %xmm1
	movups	(%r9), %xmm6
	movups	16(%r9), %xmm5
	movaps	%xmm6, %xmm3
	movaps	%xmm6, 224(%rsp)
	shufps	$136, %xmm5, %xmm3
	movaps	%xmm3, 160(%rsp)
	movaps	%xmm5, 96(%rsp)
	movdqa	(%r10), %xmm2
	movdqa	(%r8), %xmm11
	paddd	%xmm2, %xmm11
	paddd	%xmm3, %xmm11
	movdqa	(%rax), %xmm9
	pxor	%xmm11, %xmm9
	pshufb	%xmm10, %xmm9
	paddd	%xmm9, %xmm7
	pxor	%xmm7, %xmm2
	movdqa	%xmm2, %xmm0
	psrld	$12, %xmm0
	pslld	$20, %xmm2
	por	%xmm0, %xmm2
	shufps	$221, %xmm14, %xmm12
	movaps	%xmm12, (%rsp)
	paddd	%xmm12, %xmm4
	paddd	%xmm1, %xmm4
	movdqa	.LCPI5_2(%rip), %xmm12
	movdqa	%xmm4, %xmm3
	pshufb	%xmm12, %xmm3
	pshufb	%xmm12, %xmm13
	pxor	%xmm3, %xmm13
	shufps	$221, %xmm5, %xmm6
	movaps	%xmm6, 16(%rsp)
	paddd	%xmm6, %xmm11
	paddd	%xmm2, %xmm11
	movdqa	%xmm11, %xmm3
	pshufb	%xmm12, %xmm3
	pshufb	%xmm12, %xmm9
	pxor	%xmm3, %xmm9
	paddd	%xmm9, %xmm7
	pxor	%xmm7, %xmm2
	movdqa	%xmm2, %xmm3
	psrld	$7, %xmm3
	pslld	$25, %xmm2
	por	%xmm3, %xmm2
	paddd	%xmm13, %xmm8
	pxor	%xmm8, %xmm1
	movdqa	%xmm1, %xmm3
	psrld	$7, %xmm3
	pslld	$25, %xmm1
	por	%xmm3, %xmm1
	pshufd	$147, %xmm4, %xmm4
	paddd	32(%rsp), %xmm4
	pshufd	$147, %xmm11, %xmm5
	paddd	%xmm15, %xmm5
	paddd	%xmm2, %xmm5
	movdqa	%xmm5, %xmm3
	pshufb	%xmm10, %xmm3
	movdqa	.LCPI5_3(%rip), %xmm6
	pshufb	%xmm6, %xmm9
	pxor	%xmm3, %xmm9
	paddd	%xmm1, %xmm4
	movdqa	%xmm4, %xmm3
	pshufb	%xmm10, %xmm3
	pshufb	%xmm6, %xmm13
	pxor	%xmm3, %xmm13
	pshufd	$57, %xmm8, %xmm6
	paddd	%xmm13, %xmm6
	pxor	%xmm6, %xmm1
	movdqa	%xmm1, %xmm3
	psrld	$12, %xmm3
	pslld	$20, %xmm1
	por	%xmm3, %xmm1
	pshufd	$57, %xmm7, %xmm7
	paddd	%xmm9, %xmm7
	pxor	%xmm7, %xmm2
	movdqa	%xmm2, %xmm3
	psrld	$12, %xmm3
	pslld	$20, %xmm2
	por	%xmm3, %xmm2
	movdqa	192(%rsp), %xmm0
	pshufd	$103, %xmm0, %xmm8
	movdqa	208(%rsp), %xmm14
	pshufd	$244, %xmm14, %xmm3
	movdqa	%xmm3, 304(%rsp)
	pblendw	$60, %xmm3, %xmm8
	paddd	%xmm8, %xmm4
	paddd	%xmm1, %xmm4
	movdqa	%xmm4, %xmm3
	movdqa	%xmm12, %xmm10
	pshufb	%xmm12, %xmm3
	pshufb	%xmm12, %xmm13
	pxor	%xmm3, %xmm13
	movdqa	176(%rsp), %xmm15
	pshufd	$103, %xmm15, %xmm12
	movdqa	112(%rsp), %xmm11
	pshufd	$244, %xmm11, %xmm3
	movdqa	%xmm3, 288(%rsp)
	pblendw	$60, %xmm3, %xmm12
	paddd	%xmm12, %xmm5
	paddd	%xmm2, %xmm5
	movdqa	%xmm5, %xmm3
	pshufb	%xmm10, %xmm3
	pshufb	%xmm10, %xmm9
	pxor	%xmm3, %xmm9
	paddd	%xmm9, %xmm7
	pxor	%xmm7, %xmm2
	movdqa	%xmm2, %xmm3
	psrld	$7, %xmm3
	pslld	$25, %xmm2
	por	%xmm3, %xmm2
	paddd	%xmm13, %xmm6
	pxor	%xmm6, %xmm1
	movdqa	%xmm1, %xmm3
	psrld	$7, %xmm3
	pslld	$25, %xmm1
	por	%xmm3, %xmm1
	movdqa	%xmm14, %xmm10
	movdqa	%xmm14, %xmm3
	movaps	80(%rsp), %xmm14
	shufps	$172, %xmm14, %xmm3
	insertps	$112, %xmm8, %xmm3
	movaps	%xmm3, 272(%rsp)
	punpcklqdq	(%rsp), %xmm8
	pshufd	$104, %xmm8, %xmm8
	pshufd	$68, %xmm0, %xmm3
	pblendw	$207, %xmm8, %xmm3
	movdqa	%xmm3, 384(%rsp)
	movdqa	%xmm11, %xmm3
	movaps	96(%rsp), %xmm11
	shufps	$172, %xmm11, %xmm3
	insertps	$112, %xmm12, %xmm3
	movaps	%xmm3, 256(%rsp)
	punpcklqdq	16(%rsp), %xmm12
	pshufd	$104, %xmm12, %xmm8
	pshufd	$68, %xmm15, %xmm12
	movdqa	%xmm15, %xmm3
	pblendw	$207, %xmm8, %xmm12
	movdqa	%xmm12, 368(%rsp)
	pshufd	$250, 224(%rsp), %xmm12
	movdqa	%xmm12, 48(%rsp)
	movaps	%xmm11, %xmm8
	blendps	$6, %xmm12, %xmm8
	movaps	%xmm8, 64(%rsp)
	paddd	%xmm8, %xmm5
	pshufd	$57, %xmm5, %xmm5
	paddd	%xmm2, %xmm5
	movdqa	%xmm5, %xmm8
	movdqa	.LCPI5_0(%rip), %xmm11
	pshufb	%xmm11, %xmm8
	movdqa	.LCPI5_3(%rip), %xmm12
	pshufb	%xmm12, %xmm9
	pxor	%xmm8, %xmm9
	pshufd	$250, 128(%rsp), %xmm15
	movdqa	%xmm15, 400(%rsp)
	movaps	%xmm14, %xmm8
	blendps	$6, %xmm15, %xmm8
	movaps	%xmm8, 320(%rsp)
	paddd	%xmm8, %xmm4
	pshufd	$57, %xmm4, %xmm4
	paddd	%xmm1, %xmm4
	movdqa	%xmm4, %xmm8
	pshufb	%xmm11, %xmm8
	pshufb	%xmm12, %xmm13
	pxor	%xmm8, %xmm13
	pshufd	$147, %xmm6, %xmm8
	paddd	%xmm13, %xmm8
	pxor	%xmm8, %xmm1
	movdqa	%xmm1, %xmm6
	psrld	$12, %xmm6
	pslld	$20, %xmm1
	por	%xmm6, %xmm1
	pshufd	$147, %xmm7, %xmm14
	paddd	%xmm9, %xmm14
	pxor	%xmm14, %xmm2
	movdqa	%xmm2, %xmm6
	psrld	$12, %xmm6
	pslld	$20, %xmm2
	por	%xmm6, %xmm2
	movdqa	144(%rsp), %xmm6
	pblendw	$48, %xmm10, %xmm6
	shufps	$203, %xmm6, %xmm6
	movdqa	%xmm0, %xmm7
	movdqa	%xmm0, %xmm11
	punpckldq	%xmm6, %xmm11
	movdqa	%xmm11, 352(%rsp)
	insertps	$112, %xmm0, %xmm6
	movaps	%xmm6, 32(%rsp)
	paddd	%xmm6, %xmm4
	paddd	%xmm1, %xmm4
	movdqa	%xmm4, %xmm6
	movdqa	.LCPI5_2(%rip), %xmm11
	pshufb	%xmm11, %xmm6
	pshufb	%xmm11, %xmm13
	pxor	%xmm6, %xmm13
	movaps	160(%rsp), %xmm6
	movaps	112(%rsp), %xmm12
	blendps	$4, %xmm12, %xmm6
	shufps	$203, %xmm6, %xmm6
	movdqa	%xmm3, %xmm15
	punpckldq	%xmm6, %xmm3
	movdqa	%xmm3, 336(%rsp)
	insertps	$112, %xmm15, %xmm6
	movaps	%xmm6, 240(%rsp)
	paddd	%xmm6, %xmm5
	paddd	%xmm2, %xmm5
	movdqa	%xmm5, %xmm6
	pshufb	%xmm11, %xmm6
	pshufb	%xmm11, %xmm9
	pxor	%xmm6, %xmm9
	paddd	%xmm9, %xmm14
	pxor	%xmm14, %xmm2
	movdqa	%xmm2, %xmm6
	psrld	$7, %xmm6
	pslld	$25, %xmm2
	por	%xmm6, %xmm2
	paddd	%xmm13, %xmm8
	pxor	%xmm8, %xmm1
	movdqa	%xmm1, %xmm6
	psrld	$7, %xmm6
	pslld	$25, %xmm1
	por	%xmm6, %xmm1
	pshufd	$147, %xmm4, %xmm4
	paddd	384(%rsp), %xmm4
	pshufd	$147, %xmm5, %xmm11
	paddd	368(%rsp), %xmm11
	paddd	%xmm2, %xmm11
	movdqa	%xmm11, %xmm5
	movdqa	.LCPI5_0(%rip), %xmm3
	pshufb	%xmm3, %xmm5
	movdqa	.LCPI5_3(%rip), %xmm0
	pshufb	%xmm0, %xmm9
	pxor	%xmm5, %xmm9
	paddd	%xmm1, %xmm4
	movdqa	%xmm4, %xmm5
	pshufb	%xmm3, %xmm5
	pshufb	%xmm0, %xmm13
	pxor	%xmm5, %xmm13
	pshufd	$57, %xmm8, %xmm8
	paddd	%xmm13, %xmm8
	pxor	%xmm8, %xmm1
	movdqa	%xmm1, %xmm5
	psrld	$12, %xmm5
	pslld	$20, %xmm1
	por	%xmm5, %xmm1
	pshufd	$57, %xmm14, %xmm6
	paddd	%xmm9, %xmm6
	pxor	%xmm6, %xmm2
	movdqa	%xmm2, %xmm5
	psrld	$12, %xmm5
	pslld	$20, %xmm2
	por	%xmm5, %xmm2
	movdqa	%xmm10, %xmm5
	movdqa	%xmm7, %xmm14
	shufps	$172, %xmm7, %xmm5
	movaps	80(%rsp), %xmm0
	insertps	$96, %xmm0, %xmm5
	paddd	%xmm5, %xmm4
	movaps	%xmm12, %xmm5
	movaps	%xmm12, %xmm3
	shufps	$172, %xmm15, %xmm5
	movaps	96(%rsp), %xmm7
	insertps	$96, %xmm7, %xmm5
	paddd	%xmm5, %xmm11
	paddd	%xmm1, %xmm4
	movdqa	%xmm4, %xmm5
	movdqa	.LCPI5_2(%rip), %xmm12
	pshufb	%xmm12, %xmm5
	pshufb	%xmm12, %xmm13
	pxor	%xmm5, %xmm13
	paddd	%xmm2, %xmm11
	movdqa	%xmm11, %xmm5
	pshufb	%xmm12, %xmm5
	pshufb	%xmm12, %xmm9
	pxor	%xmm5, %xmm9
	paddd	%xmm9, %xmm6
	pxor	%xmm6, %xmm2
	movdqa	%xmm2, %xmm5
	psrld	$7, %xmm5
	pslld	$25, %xmm2
	por	%xmm5, %xmm2
	paddd	%xmm13, %xmm8
	pxor	%xmm8, %xmm1
	movdqa	%xmm1, %xmm5
	psrld	$7, %xmm5
	pslld	$25, %xmm1
	por	%xmm5, %xmm1
	movaps	48(%rsp), %xmm12
	unpckhpd	%xmm7, %xmm12
	movaps	%xmm3, %xmm5
	shufps	$216, %xmm15, %xmm5
	blendps	$9, %xmm12, %xmm5
	pshufd	$57, %xmm11, %xmm7
	paddd	%xmm7, %xmm5
	movaps	400(%rsp), %xmm7
	unpckhpd	%xmm0, %xmm7
	movdqa	%xmm10, %xmm11
	movdqa	%xmm14, %xmm0
	shufps	$216, %xmm14, %xmm11
	blendps	$9, %xmm7, %xmm11
	pshufd	$57, %xmm4, %xmm4
	paddd	%xmm4, %xmm11
	paddd	%xmm2, %xmm5
	movdqa	%xmm5, %xmm4
	movdqa	.LCPI5_0(%rip), %xmm14
	pshufb	%xmm14, %xmm4
	movdqa	.LCPI5_3(%rip), %xmm3
	pshufb	%xmm3, %xmm9
	pxor	%xmm4, %xmm9
	paddd	%xmm1, %xmm11
	movdqa	%xmm11, %xmm4
	pshufb	%xmm14, %xmm4
	pshufb	%xmm3, %xmm13
	pxor	%xmm4, %xmm13
	pshufd	$147, %xmm8, %xmm7
	paddd	%xmm13, %xmm7
	pxor	%xmm7, %xmm1
	movdqa	%xmm1, %xmm4
	psrld	$12, %xmm4
	pslld	$20, %xmm1
	por	%xmm4, %xmm1
	pshufd	$147, %xmm6, %xmm6
	paddd	%xmm9, %xmm6
	pxor	%xmm6, %xmm2
	movdqa	%xmm2, %xmm4
	psrld	$12, %xmm4
	pslld	$20, %xmm2
	por	%xmm4, %xmm2
	movdqa	320(%rsp), %xmm4
	movdqa	%xmm0, %xmm10
	punpckldq	%xmm0, %xmm4
	insertps	$176, %xmm0, %xmm4
	paddd	%xmm4, %xmm11
	movaps	64(%rsp), %xmm4
	movaps	%xmm15, %xmm12
	unpcklps	%xmm15, %xmm4
	insertps	$176, %xmm15, %xmm4
	paddd	%xmm4, %xmm5
	paddd	%xmm1, %xmm11
	movdqa	%xmm11, %xmm4
	movdqa	.LCPI5_2(%rip), %xmm15
	pshufb	%xmm15, %xmm4
	pshufb	%xmm15, %xmm13
	pxor	%xmm4, %xmm13
	paddd	%xmm2, %xmm5
	movdqa	%xmm5, %xmm4
	pshufb	%xmm15, %xmm4
	pshufb	%xmm15, %xmm9
	pxor	%xmm4, %xmm9
	paddd	%xmm9, %xmm6
	pxor	%xmm6, %xmm2
	movdqa	%xmm2, %xmm4
	psrld	$7, %xmm4
	pslld	$25, %xmm2
	por	%xmm4, %xmm2
	paddd	%xmm13, %xmm7
	pxor	%xmm7, %xmm1
	movdqa	%xmm1, %xmm4
	psrld	$7, %xmm4
	pslld	$25, %xmm1
	por	%xmm4, %xmm1
	pshufd	$147, %xmm11, %xmm4
	movaps	272(%rsp), %xmm0
	shufps	$120, %xmm0, %xmm0
	paddd	%xmm0, %xmm4
	pshufd	$147, %xmm5, %xmm8
	movaps	256(%rsp), %xmm0
	shufps	$120, %xmm0, %xmm0
	paddd	%xmm0, %xmm8
	paddd	%xmm2, %xmm8
	movdqa	%xmm8, %xmm3
	pshufb	%xmm14, %xmm3
	movdqa	.LCPI5_3(%rip), %xmm11
	pshufb	%xmm11, %xmm9
	pxor	%xmm3, %xmm9
	paddd	%xmm1, %xmm4
	movdqa	%xmm4, %xmm3
	pshufb	%xmm14, %xmm3
	pshufb	%xmm11, %xmm13
	pxor	%xmm3, %xmm13
	pshufd	$57, %xmm7, %xmm7
	paddd	%xmm13, %xmm7
	pxor	%xmm7, %xmm1
	movdqa	%xmm1, %xmm3
	psrld	$12, %xmm3
	pslld	$20, %xmm1
	por	%xmm3, %xmm1
	pshufd	$57, %xmm6, %xmm6
	paddd	%xmm9, %xmm6
	pxor	%xmm6, %xmm2
	movdqa	%xmm2, %xmm3
	psrld	$12, %xmm3
	pslld	$20, %xmm2
	por	%xmm3, %xmm2
	movaps	(%rsp), %xmm0
	shufps	$248, %xmm10, %xmm0
	movaps	%xmm10, %xmm14
	movaps	128(%rsp), %xmm3
	insertps	$32, %xmm3, %xmm0
	paddd	%xmm0, %xmm4
	movaps	16(%rsp), %xmm0
	shufps	$248, %xmm12, %xmm0
	movaps	224(%rsp), %xmm10
	insertps	$32, %xmm10, %xmm0
	paddd	%xmm0, %xmm8
	paddd	%xmm1, %xmm4
	movdqa	%xmm4, %xmm0
	pshufb	%xmm15, %xmm0
	pshufb	%xmm15, %xmm13
	pxor	%xmm0, %xmm13
	paddd	%xmm2, %xmm8
	movdqa	%xmm8, %xmm0
	pshufb	%xmm15, %xmm0
	pshufb	%xmm15, %xmm9
	pxor	%xmm0, %xmm9
	paddd	%xmm9, %xmm6
	pxor	%xmm6, %xmm2
	movdqa	%xmm2, %xmm0
	psrld	$7, %xmm0
	pslld	$25, %xmm2
	por	%xmm0, %xmm2
	paddd	%xmm13, %xmm7
	pxor	%xmm7, %xmm1
	movdqa	%xmm1, %xmm0
	psrld	$7, %xmm0
	pslld	$25, %xmm1
	por	%xmm0, %xmm1
	movaps	80(%rsp), %xmm0
	unpcklps	%xmm3, %xmm0
	movaps	%xmm0, 272(%rsp)
	pshufd	$131, %xmm0, %xmm5
	pblendw	$48, 304(%rsp), %xmm5
	movaps	96(%rsp), %xmm0
	unpcklps	%xmm10, %xmm0
	movaps	%xmm0, 304(%rsp)
	pshufd	$131, %xmm0, %xmm0
	pblendw	$48, 288(%rsp), %xmm0
	movaps	240(%rsp), %xmm3
	movaps	%xmm12, %xmm10
	shufps	$135, %xmm12, %xmm3
	movaps	%xmm3, 288(%rsp)
	paddd	%xmm3, %xmm8
	pshufd	$57, %xmm8, %xmm8
	paddd	%xmm2, %xmm8
	movdqa	%xmm8, %xmm3
	movdqa	.LCPI5_0(%rip), %xmm12
	pshufb	%xmm12, %xmm3
	pshufb	%xmm11, %xmm9
	pxor	%xmm3, %xmm9
	movaps	32(%rsp), %xmm3
	shufps	$135, %xmm14, %xmm3
	movaps	%xmm3, 256(%rsp)
	paddd	%xmm3, %xmm4
	pshufd	$57, %xmm4, %xmm4
	paddd	%xmm1, %xmm4
	movdqa	%xmm4, %xmm3
	pshufb	%xmm12, %xmm3
	pshufb	%xmm11, %xmm13
	pxor	%xmm3, %xmm13
	pshufd	$147, %xmm7, %xmm7
	paddd	%xmm13, %xmm7
	pxor	%xmm7, %xmm1
	movdqa	%xmm1, %xmm3
	psrld	$12, %xmm3
	pslld	$20, %xmm1
	por	%xmm3, %xmm1
	pshufd	$147, %xmm6, %xmm3
	paddd	%xmm9, %xmm3
	pxor	%xmm3, %xmm2
	movdqa	%xmm2, %xmm6
	psrld	$12, %xmm6
	pslld	$20, %xmm2
	por	%xmm6, %xmm2
	pshufd	$231, 320(%rsp), %xmm6
	movdqa	208(%rsp), %xmm15
	pblendw	$12, %xmm15, %xmm6
	pblendw	$192, %xmm14, %xmm6
	movdqa	%xmm6, 16(%rsp)
	paddd	%xmm6, %xmm4
	paddd	%xmm1, %xmm4
	movdqa	%xmm4, %xmm6
	movdqa	.LCPI5_2(%rip), %xmm14
	pshufb	%xmm14, %xmm6
	pshufb	%xmm14, %xmm13
	pxor	%xmm6, %xmm13
	pshufd	$231, 64(%rsp), %xmm11
	movdqa	112(%rsp), %xmm12
	pblendw	$12, %xmm12, %xmm11
	pblendw	$192, %xmm10, %xmm11
	movdqa	%xmm11, (%rsp)
	paddd	%xmm11, %xmm8
	paddd	%xmm2, %xmm8
	movdqa	%xmm8, %xmm6
	pshufb	%xmm14, %xmm6
	pshufb	%xmm14, %xmm9
	pxor	%xmm6, %xmm9
	paddd	%xmm9, %xmm3
	pxor	%xmm3, %xmm2
	movdqa	%xmm2, %xmm6
	psrld	$7, %xmm6
	pslld	$25, %xmm2
	por	%xmm6, %xmm2
	paddd	%xmm13, %xmm7
	pxor	%xmm7, %xmm1
	movdqa	%xmm1, %xmm6
	psrld	$7, %xmm6
	pslld	$25, %xmm1
	por	%xmm6, %xmm1
	pshufd	$147, %xmm4, %xmm4
	paddd	%xmm5, %xmm4
	pshufd	$147, %xmm8, %xmm8
	paddd	%xmm0, %xmm8
	paddd	%xmm2, %xmm8
	movdqa	%xmm8, %xmm0
	movdqa	.LCPI5_0(%rip), %xmm6
	pshufb	%xmm6, %xmm0
	movdqa	.LCPI5_3(%rip), %xmm5
	pshufb	%xmm5, %xmm9
	pxor	%xmm0, %xmm9
	paddd	%xmm1, %xmm4
	movdqa	%xmm4, %xmm0
	pshufb	%xmm6, %xmm0
	pshufb	%xmm5, %xmm13
	pxor	%xmm0, %xmm13
	pshufd	$57, %xmm7, %xmm6
	paddd	%xmm13, %xmm6
	pxor	%xmm6, %xmm1
	movdqa	%xmm1, %xmm0
	psrld	$12, %xmm0
	pslld	$20, %xmm1
	por	%xmm0, %xmm1
	pshufd	$57, %xmm3, %xmm5
	paddd	%xmm9, %xmm5
	pxor	%xmm5, %xmm2
	movdqa	%xmm2, %xmm0
	psrld	$12, %xmm0
	pslld	$20, %xmm2
	por	%xmm0, %xmm2
	movdqa	%xmm15, %xmm7
	movaps	144(%rsp), %xmm0
	shufps	$3, %xmm15, %xmm0
	blendps	$4, 128(%rsp), %xmm0
	paddd	%xmm0, %xmm4
	movdqa	%xmm12, %xmm10
	movaps	160(%rsp), %xmm0
	shufps	$3, %xmm12, %xmm0
	movaps	224(%rsp), %xmm11
	blendps	$4, %xmm11, %xmm0
	paddd	%xmm0, %xmm8
	paddd	%xmm1, %xmm4
	movdqa	%xmm4, %xmm0
	pshufb	%xmm14, %xmm0
	pshufb	%xmm14, %xmm13
	pxor	%xmm0, %xmm13
	paddd	%xmm2, %xmm8
	movdqa	%xmm8, %xmm0
	pshufb	%xmm14, %xmm0
	pshufb	%xmm14, %xmm9
	movdqa	%xmm14, %xmm15
	pxor	%xmm0, %xmm9
	paddd	%xmm9, %xmm5
	pxor	%xmm5, %xmm2
	movdqa	%xmm2, %xmm0
	psrld	$7, %xmm0
	pslld	$25, %xmm2
	por	%xmm0, %xmm2
	paddd	%xmm13, %xmm6
	pxor	%xmm6, %xmm1
	movdqa	%xmm1, %xmm0
	psrld	$7, %xmm0
	pslld	$25, %xmm1
	por	%xmm0, %xmm1
	pshufd	$250, %xmm7, %xmm0
	movdqa	%xmm7, %xmm14
	movdqa	352(%rsp), %xmm3
	punpckhdq	%xmm0, %xmm3
	pshufd	$250, %xmm12, %xmm0
	movdqa	336(%rsp), %xmm12
	punpckhdq	%xmm0, %xmm12
	pshufd	$0, %xmm10, %xmm7
	pblendw	$63, %xmm12, %xmm7
	pshufd	$0, %xmm14, %xmm12
	pblendw	$63, %xmm3, %xmm12
	pshufd	$57, %xmm8, %xmm0
	movdqa	176(%rsp), %xmm3
	pblendw	$12, %xmm10, %xmm3
	pshufd	$180, %xmm3, %xmm8
	paddd	%xmm0, %xmm8
	pshufd	$57, %xmm4, %xmm0
	movdqa	192(%rsp), %xmm3
	pblendw	$12, %xmm14, %xmm3
	pshufd	$180, %xmm3, %xmm4
	paddd	%xmm0, %xmm4
	paddd	%xmm2, %xmm8
	movdqa	%xmm8, %xmm0
	movdqa	.LCPI5_0(%rip), %xmm14
	pshufb	%xmm14, %xmm0
	movdqa	.LCPI5_3(%rip), %xmm3
	pshufb	%xmm3, %xmm9
	pxor	%xmm0, %xmm9
	paddd	%xmm1, %xmm4
	movdqa	%xmm4, %xmm0
	pshufb	%xmm14, %xmm0
	pshufb	%xmm3, %xmm13
	pxor	%xmm0, %xmm13
	pshufd	$147, %xmm6, %xmm10
	paddd	%xmm13, %xmm10
	pxor	%xmm10, %xmm1
	movdqa	%xmm1, %xmm0
	psrld	$12, %xmm0
	pslld	$20, %xmm1
	por	%xmm0, %xmm1
	pshufd	$147, %xmm5, %xmm6
	paddd	%xmm9, %xmm6
	pxor	%xmm6, %xmm2
	movdqa	%xmm2, %xmm0
	psrld	$12, %xmm0
	pslld	$20, %xmm2
	por	%xmm0, %xmm2
	paddd	%xmm12, %xmm4
	paddd	%xmm7, %xmm8
	paddd	%xmm1, %xmm4
	movdqa	%xmm4, %xmm0
	pshufb	%xmm15, %xmm0
	pshufb	%xmm15, %xmm13
	pxor	%xmm0, %xmm13
	paddd	%xmm2, %xmm8
	movdqa	%xmm8, %xmm0
	pshufb	%xmm15, %xmm0
	pshufb	%xmm15, %xmm9
	pxor	%xmm0, %xmm9
	paddd	%xmm9, %xmm6
	pxor	%xmm6, %xmm2
	movdqa	%xmm2, %xmm0
	psrld	$7, %xmm0
	pslld	$25, %xmm2
	por	%xmm0, %xmm2
	paddd	%xmm13, %xmm10
	pxor	%xmm10, %xmm1
	movdqa	%xmm1, %xmm0
	psrld	$7, %xmm0
	pslld	$25, %xmm1
	por	%xmm0, %xmm1
	pshufd	$147, %xmm8, %xmm5
	movaps	96(%rsp), %xmm7
	movaps	%xmm7, %xmm0
	blendps	$1, %xmm11, %xmm0
	movaps	%xmm11, %xmm15
	pshufd	$30, %xmm0, %xmm0
	movdqa	%xmm0, 160(%rsp)
	paddd	%xmm0, %xmm5
	paddd	%xmm2, %xmm5
	movdqa	%xmm5, 48(%rsp)
	movdqa	%xmm5, %xmm0
	movdqa	%xmm14, %xmm12
	pshufb	%xmm14, %xmm0
	movdqa	%xmm3, %xmm5
	pshufb	%xmm3, %xmm9
	pxor	%xmm0, %xmm9
	pshufd	$147, %xmm4, %xmm8
	movdqa	80(%rsp), %xmm11
	movdqa	%xmm11, %xmm0
	movdqa	128(%rsp), %xmm14
	pblendw	$3, %xmm14, %xmm0
	pshufd	$30, %xmm0, %xmm0
	paddd	%xmm0, %xmm8
	paddd	%xmm1, %xmm8
	movdqa	%xmm8, %xmm3
	pshufb	%xmm12, %xmm3
	pshufb	%xmm5, %xmm13
	pxor	%xmm3, %xmm13
	pshufd	$57, %xmm10, %xmm3
	paddd	%xmm13, %xmm3
	pxor	%xmm3, %xmm1
	movdqa	%xmm1, %xmm4
	psrld	$12, %xmm4
	pslld	$20, %xmm1
	por	%xmm4, %xmm1
	pshufd	$57, %xmm6, %xmm12
	paddd	%xmm9, %xmm12
	pxor	%xmm12, %xmm2
	movdqa	%xmm2, %xmm4
	psrld	$12, %xmm4
	pslld	$20, %xmm2
	por	%xmm4, %xmm2
	pshufd	$120, %xmm14, %xmm4
	movdqa	%xmm4, 144(%rsp)
	pblendw	$3, %xmm11, %xmm4
	paddd	%xmm4, %xmm8
	pshufd	$120, %xmm15, %xmm14
	movdqa	%xmm14, %xmm4
	pblendw	$3, %xmm7, %xmm4
	movdqa	48(%rsp), %xmm5
	paddd	%xmm4, %xmm5
	paddd	%xmm1, %xmm8
	movdqa	%xmm8, %xmm4
	movdqa	.LCPI5_2(%rip), %xmm6
	pshufb	%xmm6, %xmm4
	pshufb	%xmm6, %xmm13
	pxor	%xmm4, %xmm13
	paddd	%xmm2, %xmm5
	movdqa	%xmm5, %xmm4
	movdqa	%xmm5, %xmm7
	pshufb	%xmm6, %xmm4
	pshufb	%xmm6, %xmm9
	pxor	%xmm4, %xmm9
	paddd	%xmm9, %xmm12
	pxor	%xmm12, %xmm2
	movdqa	%xmm2, %xmm4
	psrld	$7, %xmm4
	pslld	$25, %xmm2
	por	%xmm4, %xmm2
	paddd	%xmm13, %xmm3
	pxor	%xmm3, %xmm1
	movdqa	%xmm1, %xmm4
	psrld	$7, %xmm4
	pslld	$25, %xmm1
	por	%xmm4, %xmm1
	movaps	64(%rsp), %xmm5
	movaps	%xmm5, %xmm4
	movaps	176(%rsp), %xmm6
	shufps	$235, %xmm6, %xmm4
	insertps	$112, %xmm5, %xmm4
	movaps	%xmm4, 48(%rsp)
	unpcklpd	288(%rsp), %xmm5
	movaps	320(%rsp), %xmm4
	movaps	%xmm4, %xmm10
	movaps	192(%rsp), %xmm15
	shufps	$235, %xmm15, %xmm10
	insertps	$112, %xmm4, %xmm10
	movaps	%xmm10, 64(%rsp)
	unpcklpd	256(%rsp), %xmm4
	blendps	$8, %xmm0, %xmm4
	blendps	$8, 160(%rsp), %xmm5
	pshufd	$78, 112(%rsp), %xmm0
	pshufd	$229, (%rsp), %xmm10
	pblendw	$195, %xmm10, %xmm0
	pshufd	$57, %xmm7, %xmm7
	paddd	%xmm7, %xmm0
	pshufd	$78, 208(%rsp), %xmm10
	pshufd	$229, 16(%rsp), %xmm7
	pblendw	$195, %xmm7, %xmm10
	pshufd	$57, %xmm8, %xmm7
	paddd	%xmm7, %xmm10
	paddd	%xmm2, %xmm0
	movdqa	%xmm0, %xmm7
	movdqa	.LCPI5_0(%rip), %xmm8
	pshufb	%xmm8, %xmm7
	movdqa	.LCPI5_3(%rip), %xmm11
	pshufb	%xmm11, %xmm9
	pxor	%xmm7, %xmm9
	paddd	%xmm1, %xmm10
	movdqa	%xmm10, %xmm7
	pshufb	%xmm8, %xmm7
	pshufb	%xmm11, %xmm13
	pxor	%xmm7, %xmm13
	pshufd	$147, %xmm3, %xmm3
	paddd	%xmm13, %xmm3
	pxor	%xmm3, %xmm1
	movdqa	%xmm1, %xmm7
	psrld	$12, %xmm7
	pslld	$20, %xmm1
	por	%xmm7, %xmm1
	pshufd	$147, %xmm12, %xmm12
	paddd	%xmm9, %xmm12
	pxor	%xmm12, %xmm2
	movdqa	%xmm2, %xmm7
	psrld	$12, %xmm7
	pslld	$20, %xmm2
	por	%xmm7, %xmm2
	pshufd	$130, %xmm15, %xmm8
	movdqa	80(%rsp), %xmm11
	pblendw	$12, %xmm11, %xmm8
	movdqa	144(%rsp), %xmm7
	pblendw	$63, %xmm8, %xmm7
	paddd	%xmm7, %xmm10
	pshufd	$130, %xmm6, %xmm7
	movdqa	96(%rsp), %xmm6
	pblendw	$12, %xmm6, %xmm7
	pblendw	$63, %xmm7, %xmm14
	paddd	%xmm14, %xmm0
	paddd	%xmm1, %xmm10
	movdqa	%xmm10, %xmm14
	movdqa	.LCPI5_2(%rip), %xmm15
	pshufb	%xmm15, %xmm14
	pshufb	%xmm15, %xmm13
	pxor	%xmm14, %xmm13
	paddd	%xmm2, %xmm0
	movdqa	%xmm0, %xmm14
	pshufb	%xmm15, %xmm14
	pshufb	%xmm15, %xmm9
	pxor	%xmm14, %xmm9
	paddd	%xmm9, %xmm12
	pxor	%xmm12, %xmm2
	movdqa	%xmm2, %xmm14
	psrld	$7, %xmm14
	pslld	$25, %xmm2
	por	%xmm14, %xmm2
	paddd	%xmm13, %xmm3
	pxor	%xmm3, %xmm1
	movdqa	%xmm1, %xmm14
	psrld	$7, %xmm14
	pslld	$25, %xmm1
	por	%xmm14, %xmm1
	pshufd	$147, %xmm10, %xmm15
	pshufd	$120, %xmm4, %xmm4
	paddd	%xmm4, %xmm15
	pshufd	$147, %xmm0, %xmm14
	pshufd	$120, %xmm5, %xmm0
	paddd	%xmm0, %xmm14
	paddd	%xmm2, %xmm14
	movdqa	%xmm14, %xmm0
	movdqa	.LCPI5_0(%rip), %xmm5
	pshufb	%xmm5, %xmm0
	movdqa	.LCPI5_3(%rip), %xmm4
	pshufb	%xmm4, %xmm9
	pxor	%xmm0, %xmm9
	paddd	%xmm1, %xmm15
	movdqa	%xmm15, %xmm0
	pshufb	%xmm5, %xmm0
	pshufb	%xmm4, %xmm13
	pxor	%xmm0, %xmm13
	pshufd	$57, %xmm3, %xmm0
	paddd	%xmm13, %xmm0
	pxor	%xmm0, %xmm1
	movdqa	%xmm1, %xmm3
	psrld	$12, %xmm3
	pslld	$20, %xmm1
	por	%xmm3, %xmm1
	pshufd	$57, %xmm12, %xmm10
	paddd	%xmm9, %xmm10
	pxor	%xmm10, %xmm2
	movdqa	%xmm2, %xmm3
	psrld	$12, %xmm3
	pslld	$20, %xmm2
	por	%xmm3, %xmm2
	movdqa	128(%rsp), %xmm5
	movdqa	16(%rsp), %xmm4
	pblendw	$3, %xmm5, %xmm4
	pblendw	$48, %xmm11, %xmm4
	movdqa	%xmm4, 16(%rsp)
	punpckhdq	%xmm5, %xmm11
	pshufd	$14, %xmm11, %xmm3
	movdqa	208(%rsp), %xmm12
	pblendw	$48, %xmm12, %xmm3
	paddd	%xmm3, %xmm15
	movdqa	224(%rsp), %xmm11
	movdqa	(%rsp), %xmm4
	pblendw	$3, %xmm11, %xmm4
	movdqa	%xmm6, %xmm3
	pblendw	$48, %xmm6, %xmm4
	movdqa	%xmm4, (%rsp)
	punpckhdq	%xmm11, %xmm3
	pshufd	$14, %xmm3, %xmm3
	movdqa	112(%rsp), %xmm6
	pblendw	$48, %xmm6, %xmm3
	paddd	%xmm3, %xmm14
	paddd	%xmm1, %xmm15
	movdqa	%xmm15, %xmm3
	movdqa	.LCPI5_2(%rip), %xmm4
	pshufb	%xmm4, %xmm3
	pshufb	%xmm4, %xmm13
	pxor	%xmm3, %xmm13
	paddd	%xmm2, %xmm14
	movdqa	%xmm14, %xmm3
	pshufb	%xmm4, %xmm3
	pshufb	%xmm4, %xmm9
	pxor	%xmm3, %xmm9
	paddd	%xmm9, %xmm10
	pxor	%xmm10, %xmm2
	movdqa	%xmm2, %xmm3
	psrld	$7, %xmm3
	pslld	$25, %xmm2
	por	%xmm3, %xmm2
	paddd	%xmm13, %xmm0
	pxor	%xmm0, %xmm1
	movdqa	%xmm1, %xmm3
	psrld	$7, %xmm3
	pslld	$25, %xmm1
	por	%xmm3, %xmm1
	movaps	240(%rsp), %xmm3
	shufps	$7, 304(%rsp), %xmm3
	insertps	$32, 176(%rsp), %xmm3
	movaps	%xmm3, 240(%rsp)
	movaps	32(%rsp), %xmm3
	shufps	$7, 272(%rsp), %xmm3
	insertps	$32, 192(%rsp), %xmm3
	movaps	%xmm3, 32(%rsp)
	shufps	$84, %xmm5, %xmm8
	pshufd	$39, %xmm12, %xmm12
	pblendw	$60, %xmm8, %xmm12
	pshufd	$57, %xmm15, %xmm3
	paddd	%xmm3, %xmm12
	shufps	$84, %xmm11, %xmm7
	pshufd	$39, %xmm6, %xmm8
	pblendw	$60, %xmm7, %xmm8
	pshufd	$57, %xmm14, %xmm3
	paddd	%xmm3, %xmm8
	paddd	%xmm2, %xmm8
	movdqa	%xmm8, %xmm3
	movdqa	.LCPI5_0(%rip), %xmm14
	pshufb	%xmm14, %xmm3
	movdqa	.LCPI5_3(%rip), %xmm6
	pshufb	%xmm6, %xmm9
	pxor	%xmm3, %xmm9
	paddd	%xmm1, %xmm12
	movdqa	%xmm12, %xmm3
	pshufb	%xmm14, %xmm3
	pshufb	%xmm6, %xmm13
	pxor	%xmm3, %xmm13
	pshufd	$147, %xmm0, %xmm3
	paddd	%xmm13, %xmm3
	pxor	%xmm3, %xmm1
	movdqa	%xmm1, %xmm0
	psrld	$12, %xmm0
	pslld	$20, %xmm1
	por	%xmm0, %xmm1
	pshufd	$147, %xmm10, %xmm10
	paddd	%xmm9, %xmm10
	pxor	%xmm10, %xmm2
	movdqa	%xmm2, %xmm0
	psrld	$12, %xmm0
	pslld	$20, %xmm2
	por	%xmm0, %xmm2
	pshufd	$147, 16(%rsp), %xmm0
	paddd	%xmm0, %xmm12
	pshufd	$147, (%rsp), %xmm0
	paddd	%xmm0, %xmm8
	paddd	%xmm2, %xmm8
	paddd	%xmm1, %xmm12
	movdqa	%xmm12, %xmm0
	pshufb	%xmm4, %xmm0
	pshufb	%xmm4, %xmm13
	pxor	%xmm0, %xmm13
	movdqa	%xmm8, %xmm0
	pshufb	%xmm4, %xmm0
	pshufb	%xmm4, %xmm9
	movdqa	%xmm4, %xmm11
	pxor	%xmm0, %xmm9
	paddd	%xmm9, %xmm10
	paddd	%xmm13, %xmm3
	pxor	%xmm3, %xmm1
	pxor	%xmm10, %xmm2
	movdqa	%xmm2, %xmm0
	psrld	$7, %xmm0
	pslld	$25, %xmm2
	por	%xmm0, %xmm2
	movdqa	%xmm1, %xmm0
	psrld	$7, %xmm0
	pslld	$25, %xmm1
	por	%xmm0, %xmm1
	pshufd	$147, %xmm12, %xmm5
	movaps	64(%rsp), %xmm0
	shufps	$120, %xmm0, %xmm0
	paddd	%xmm0, %xmm5
	pshufd	$147, %xmm8, %xmm4
	movaps	48(%rsp), %xmm0
	shufps	$120, %xmm0, %xmm0
	paddd	%xmm0, %xmm4
	paddd	%xmm1, %xmm5
	paddd	%xmm2, %xmm4
	movdqa	%xmm4, %xmm0
	pshufb	%xmm14, %xmm0
	pshufb	%xmm6, %xmm9
	pxor	%xmm0, %xmm9
	movdqa	%xmm5, %xmm7
	pshufb	%xmm14, %xmm7
	pshufb	%xmm6, %xmm13
	pshufd	$57, %xmm10, %xmm0
	pshufd	$57, %xmm3, %xmm6
	pxor	%xmm7, %xmm13
	paddd	%xmm13, %xmm6
	paddd	%xmm9, %xmm0
	pxor	%xmm0, %xmm2
	pxor	%xmm6, %xmm1
	movdqa	%xmm1, %xmm3
	psrld	$12, %xmm3
	pslld	$20, %xmm1
	por	%xmm3, %xmm1
	movdqa	%xmm2, %xmm3
	psrld	$12, %xmm3
	pslld	$20, %xmm2
	por	%xmm3, %xmm2
	paddd	32(%rsp), %xmm5
	paddd	240(%rsp), %xmm4
	paddd	%xmm2, %xmm4
	paddd	%xmm1, %xmm5
	movdqa	%xmm5, %xmm3
	pshufb	%xmm11, %xmm3
	pshufb	%xmm11, %xmm13
	pxor	%xmm3, %xmm13
	movdqa	%xmm4, %xmm3
	pshufb	%xmm11, %xmm3
	pshufb	%xmm11, %xmm9
	pxor	%xmm3, %xmm9
	paddd	%xmm9, %xmm0
	paddd	%xmm13, %xmm6
	pxor	%xmm6, %xmm1
	pxor	%xmm0, %xmm2
	movdqa	%xmm2, %xmm3
	psrld	$7, %xmm3
	pslld	$25, %xmm2
	por	%xmm3, %xmm2
	movdqa	%xmm1, %xmm3
	psrld	$7, %xmm3
	pslld	$25, %xmm1
	por	%xmm3, %xmm1
	pshufd	$57, %xmm4, %xmm3
	pshufd	$147, %xmm0, %xmm0
	pxor	%xmm3, %xmm0
	pshufd	$57, %xmm5, %xmm3
	pshufd	$147, %xmm6, %xmm4
	pxor	%xmm3, %xmm4
	pshufd	$78, %xmm9, %xmm3
	pxor	%xmm2, %xmm3
	pshufd	$78, %xmm13, %xmm2
	pxor	%xmm1, %xmm2
	movdqu	%xmm0, 16(%rcx)
	movdqu	%xmm4, (%rcx)
	movdqu	%xmm3, 48(%rcx)
	movdqu	%xmm2, 32(%rcx)
	movaps	416(%rsp), %xmm6
	movaps	432(%rsp), %xmm7
	movaps	448(%rsp), %xmm8
	movaps	464(%rsp), %xmm9
	movaps	480(%rsp), %xmm10
	movaps	496(%rsp), %xmm11
	movaps	512(%rsp), %xmm12
	movaps	528(%rsp), %xmm13
	movaps	544(%rsp), %xmm14
	movaps	560(%rsp), %xmm15
	addq	$584, %rsp
	retq
	.seh_endproc

	.section	.rdata,"dr"
	.p2align	4, 0x0
.LCPI6_0:
	.zero	4
	.zero	4
	.long	64
	.long	18
.LCPI6_1:
	.long	0
	.long	0
	.long	64
	.long	20
	.section	.text
	.p2align	4
	.def	"keyed_blake3::tree::Tree::absorb_subtrees::<#8b36ca032ac25711>";
	.scl	3;
	.type	32;
	.endef
"keyed_blake3::tree::Tree::absorb_subtrees::<#8b36ca032ac25711>":
.seh_proc "keyed_blake3::tree::Tree::absorb_subtrees::<#8b36ca032ac25711>"
	pushq	%r15
	.seh_pushreg %r15
	pushq	%r14
	.seh_pushreg %r14
	pushq	%r13
	.seh_pushreg %r13
	pushq	%r12
	.seh_pushreg %r12
	pushq	%rsi
	.seh_pushreg %rsi
	pushq	%rdi
	.seh_pushreg %rdi
	pushq	%rbp
	.seh_pushreg %rbp
	pushq	%rbx
	.seh_pushreg %rbx
	subq	$1336, %rsp
	.seh_stackalloc 1336
	movaps	%xmm11, 1312(%rsp)
	.seh_savexmm %xmm11, 1312
	movaps	%xmm10, 1296(%rsp)
	.seh_savexmm %xmm10, 1296
	movaps	%xmm9, 1280(%rsp)
	.seh_savexmm %xmm9, 1280
	movaps	%xmm8, 1264(%rsp)
	.seh_savexmm %xmm8, 1264
	movdqa	%xmm7, 1248(%rsp)
	.seh_savexmm %xmm7, 1248
	movdqa	%xmm6, 1232(%rsp)
	.seh_savexmm %xmm6, 1232
	.seh_endprologue
	movq	%r9, 184(%rsp)
	movq	%r8, %rbx
	movq	%rdx, %r14
	movq	%rcx, %rsi
	movq	1448(%rsp), %rax
	movq	1440(%rsp), %r15
	xorps	%xmm0, %xmm0
	movaps	%xmm0, 304(%rsp)
	movaps	%xmm0, 288(%rsp)
	movaps	%xmm0, 272(%rsp)
	movaps	%xmm0, 256(%rsp)
	movaps	%xmm0, 240(%rsp)
	movaps	%xmm0, 224(%rsp)
	movaps	%xmm0, 208(%rsp)
	movaps	%xmm0, 192(%rsp)
	movaps	%xmm0, 656(%rsp)
	movaps	%xmm0, 672(%rsp)
	movaps	%xmm0, 336(%rsp)
	movaps	%xmm0, 352(%rsp)
	movaps	%xmm0, 368(%rsp)
	movaps	%xmm0, 384(%rsp)
	movaps	%xmm0, 400(%rsp)
	movaps	%xmm0, 416(%rsp)
	movaps	%xmm0, 432(%rsp)
	movaps	%xmm0, 448(%rsp)
	cmpq	$2048, %rax
	movq	%rcx, 328(%rsp)
	jne	.LBB6_4
	movups	(%rsi), %xmm1
	movups	16(%rsi), %xmm0
	leaq	1(%r14), %rsi
	movq	%r14, %xmm6
	movl	$64, %eax
	movdqa	%xmm6, %xmm8
	pinsrd	$2, %eax, %xmm8
	movq	%rsi, %xmm7
	movdqa	%xmm7, %xmm9
	pinsrd	$2, %eax, %xmm9
	leaq	1024(%r15), %rdi
	xorl	%r12d, %r12d
	movaps	%xmm1, %xmm2
	movaps	%xmm0, %xmm3
	.p2align	4
.LBB6_2:
	cmpq	$1, %r12
	movl	$0, %eax
	adcl	$16, %eax
	movups	-1024(%rdi,%r12), %xmm4
	movups	-1008(%rdi,%r12), %xmm5
	movups	-992(%rdi,%r12), %xmm10
	movups	-976(%rdi,%r12), %xmm11
	movaps	%xmm4, 576(%rsp)
	movaps	%xmm5, 592(%rsp)
	movaps	%xmm10, 608(%rsp)
	movaps	%xmm11, 624(%rsp)
	movq	%r14, 640(%rsp)
	movl	$64, 648(%rsp)
	movl	%eax, 652(%rsp)
	movups	(%rdi,%r12), %xmm4
	movups	16(%rdi,%r12), %xmm5
	movups	32(%rdi,%r12), %xmm10
	movups	48(%rdi,%r12), %xmm11
	movaps	%xmm4, 80(%rsp)
	movaps	%xmm5, 96(%rsp)
	movaps	%xmm10, 112(%rsp)
	movaps	%xmm11, 128(%rsp)
	movq	%rsi, 144(%rsp)
	movl	$64, 152(%rsp)
	movdqa	%xmm8, %xmm4
	pinsrd	$3, %eax, %xmm4
	movl	%eax, 156(%rsp)
	movdqa	%xmm9, %xmm5
	pinsrd	$3, %eax, %xmm5
	movaps	%xmm1, 1200(%rsp)
	movaps	%xmm2, 1216(%rsp)
	movaps	%xmm3, 1184(%rsp)
	movaps	%xmm0, 1168(%rsp)
	movdqa	%xmm4, 1152(%rsp)
	leaq	1152(%rsp), %rax
	movq	%rax, 40(%rsp)
	movdqa	%xmm5, 1136(%rsp)
	leaq	1136(%rsp), %rax
	movq	%rax, 48(%rsp)
	leaq	576(%rsp), %r13
	movq	%r13, 56(%rsp)
	leaq	80(%rsp), %rbp
	movq	%rbp, 64(%rsp)
	leaq	1168(%rsp), %rax
	movq	%rax, 32(%rsp)
	leaq	688(%rsp), %rcx
	leaq	1216(%rsp), %rdx
	leaq	1200(%rsp), %r8
	leaq	1184(%rsp), %r9
	callq	"keyed_blake3::compression::two::compress_two_from"
	movups	688(%rsp), %xmm2
	movups	704(%rsp), %xmm1
	movups	720(%rsp), %xmm3
	movups	736(%rsp), %xmm0
	addq	$64, %r12
	cmpq	$960, %r12
	jne	.LBB6_2
	movups	960(%r15), %xmm4
	movups	976(%r15), %xmm5
	movups	992(%r15), %xmm8
	movups	1008(%r15), %xmm9
	movaps	%xmm4, 576(%rsp)
	movaps	%xmm5, 592(%rsp)
	movaps	%xmm8, 608(%rsp)
	movaps	%xmm9, 624(%rsp)
	movq	%r14, 640(%rsp)
	movabsq	$77309411392, %rax
	movq	%rax, 648(%rsp)
	movups	1984(%r15), %xmm4
	movups	2000(%r15), %xmm5
	movups	2016(%r15), %xmm8
	movups	2032(%r15), %xmm9
	movaps	%xmm4, 80(%rsp)
	movaps	%xmm5, 96(%rsp)
	movaps	%xmm8, 112(%rsp)
	movaps	%xmm9, 128(%rsp)
	movq	%rsi, 144(%rsp)
	movq	%rax, 152(%rsp)
	movdqa	.LCPI6_0(%rip), %xmm4
	pblendw	$240, %xmm4, %xmm6
	pblendw	$240, %xmm4, %xmm7
	movaps	%xmm1, 1104(%rsp)
	movaps	%xmm2, 1120(%rsp)
	movaps	%xmm3, 1088(%rsp)
	movaps	%xmm0, 1072(%rsp)
	movdqa	%xmm6, 1056(%rsp)
	leaq	1056(%rsp), %rax
	movq	%rax, 40(%rsp)
	movdqa	%xmm7, 1040(%rsp)
	leaq	1040(%rsp), %rax
	movq	%rax, 48(%rsp)
	movq	%r13, 56(%rsp)
	movq	%rbp, 64(%rsp)
	leaq	1072(%rsp), %rax
	movq	%rax, 32(%rsp)
	leaq	688(%rsp), %rcx
	leaq	1120(%rsp), %rdx
	leaq	1104(%rsp), %r8
	leaq	1088(%rsp), %r9
	callq	"keyed_blake3::compression::two::compress_two_from"
	movdqu	688(%rsp), %xmm0
	movdqu	704(%rsp), %xmm1
	movdqu	720(%rsp), %xmm2
	movdqu	736(%rsp), %xmm3
	movdqa	%xmm0, %xmm4
	punpckldq	%xmm1, %xmm4
	movq	%xmm4, 336(%rsp)
	movq	$0, 344(%rsp)
	pshufd	$85, %xmm0, %xmm4
	pblendw	$12, %xmm1, %xmm4
	movq	%xmm4, 352(%rsp)
	movq	$0, 360(%rsp)
	punpckhdq	%xmm1, %xmm0
	movq	%xmm0, 368(%rsp)
	movq	$0, 376(%rsp)
	pextrq	$1, %xmm0, 384(%rsp)
	movq	$0, 392(%rsp)
	movdqa	%xmm2, %xmm0
	punpckldq	%xmm3, %xmm0
	movq	%xmm0, 400(%rsp)
	movq	$0, 408(%rsp)
	pshufd	$85, %xmm2, %xmm0
	pblendw	$12, %xmm3, %xmm0
	movq	%xmm0, 416(%rsp)
	movq	$0, 424(%rsp)
	punpckhdq	%xmm3, %xmm2
	movq	%xmm2, 432(%rsp)
	movq	$0, 440(%rsp)
	pextrq	$1, %xmm2, 448(%rsp)
	movq	$0, 456(%rsp)
	movq	432(%rsp), %rax
	movq	%rax, 880(%rsp)
	movq	440(%rsp), %rax
	movq	%rax, 888(%rsp)
	movq	416(%rsp), %rax
	movq	%rax, 864(%rsp)
	movq	424(%rsp), %rax
	movq	%rax, 872(%rsp)
	movaps	400(%rsp), %xmm0
	movaps	%xmm0, 848(%rsp)
	movaps	384(%rsp), %xmm0
	movaps	%xmm0, 832(%rsp)
	movaps	368(%rsp), %xmm0
	movaps	%xmm0, 816(%rsp)
	movaps	352(%rsp), %xmm0
	movaps	%xmm0, 800(%rsp)
	movaps	336(%rsp), %xmm0
	movaps	%xmm0, 784(%rsp)
	movaps	448(%rsp), %xmm0
	movaps	%xmm0, 896(%rsp)
	movq	328(%rsp), %rsi
	jmp	.LBB6_8
.LBB6_4:
	cmpq	$4096, %rax
	ja	.LBB6_6
	shrq	$10, %rax
	xorl	%ecx, %ecx
	decq	%rax
	setne	%cl
	cmpq	$2, %rax
	movl	$2, %edx
	cmovbq	%rax, %rdx
	movl	$3, %r8d
	cmovbeq	%rax, %r8
	movq	$0, 576(%rsp)
	movq	%rcx, 584(%rsp)
	movq	%rdx, 592(%rsp)
	movq	%r8, 600(%rsp)
	movq	%r14, 32(%rsp)
	leaq	336(%rsp), %rcx
	leaq	576(%rsp), %r9
	movq	%rsi, %rdx
	movq	%r15, %r8
	callq	"keyed_blake3::chunks::chunk_values::<#8b36ca032ac25711>"
	jmp	.LBB6_7
.LBB6_6:
	shrq	$12, %rax
	movq	%r14, 40(%rsp)
	movq	%rax, 32(%rsp)
	leaq	336(%rsp), %rcx
	movq	%rsi, %rdx
	movq	%r15, %r8
	xorl	%r9d, %r9d
	callq	"keyed_blake3::subtrees::neighbour_values::<#8b36ca032ac25711>"
.LBB6_7:
	movaps	448(%rsp), %xmm0
	movaps	%xmm0, 896(%rsp)
	movaps	432(%rsp), %xmm0
	movaps	%xmm0, 880(%rsp)
	movaps	416(%rsp), %xmm0
	movaps	%xmm0, 864(%rsp)
	movaps	400(%rsp), %xmm0
	movaps	%xmm0, 848(%rsp)
	movaps	336(%rsp), %xmm0
	movdqa	352(%rsp), %xmm1
	movdqa	368(%rsp), %xmm2
	movdqa	384(%rsp), %xmm3
	movdqa	%xmm3, 832(%rsp)
	movdqa	%xmm2, 816(%rsp)
	movdqa	%xmm1, 800(%rsp)
	movaps	%xmm0, 784(%rsp)
.LBB6_8:
	movaps	784(%rsp), %xmm0
	movaps	800(%rsp), %xmm1
	movaps	816(%rsp), %xmm2
	movaps	832(%rsp), %xmm3
	movaps	%xmm0, 192(%rsp)
	movaps	%xmm1, 208(%rsp)
	movaps	%xmm2, 224(%rsp)
	movaps	%xmm3, 240(%rsp)
	movaps	848(%rsp), %xmm0
	movaps	%xmm0, 256(%rsp)
	movaps	864(%rsp), %xmm0
	movaps	%xmm0, 272(%rsp)
	movaps	880(%rsp), %xmm0
	movaps	%xmm0, 288(%rsp)
	movaps	896(%rsp), %xmm0
	movaps	%xmm0, 304(%rsp)
	testq	%rbx, %rbx
	je	.LBB6_33
	movq	%r14, %rax
	orq	%rbx, %rax
	shrq	$32, %rax
	je	.LBB6_27
	movq	%r14, %rax
	xorl	%edx, %edx
	divq	%rbx
	movq	%rax, 160(%rsp)
	movq	184(%rsp), %r15
	cmpq	$3, %r15
	jae	.LBB6_11
	jmp	.LBB6_29
.LBB6_27:
	movl	%r14d, %eax
	xorl	%edx, %edx
	divl	%ebx
	movq	%rax, 160(%rsp)
	movq	184(%rsp), %r15
	cmpq	$3, %r15
	jb	.LBB6_29
.LBB6_11:
	movq	160(%rsp), %rax
	orl	%r15d, %eax
	andl	$1, %eax
	jne	.LBB6_29
	leaq	480(%rsp), %rax
	negq	%rax
	addq	%rsp, %rax
	addq	$80, %rax
	movq	%rax, 936(%rsp)
	leaq	752(%rsp), %rax
	negq	%rax
	addq	%rsp, %rax
	addq	$112, %rax
	movq	%rax, 928(%rsp)
	leaq	544(%rsp), %rax
	negq	%rax
	addq	%rsp, %rax
	addq	$80, %rax
	movq	%rax, 920(%rsp)
	leaq	512(%rsp), %rax
	negq	%rax
	addq	%rsp, %rax
	addq	$112, %rax
	movq	%rax, 912(%rsp)
	movl	192(%rsp), %edx
	movl	196(%rsp), %r14d
	movl	208(%rsp), %ecx
	movl	224(%rsp), %eax
	movl	%eax, 176(%rsp)
	movl	240(%rsp), %eax
	movl	%eax, 180(%rsp)
	movl	256(%rsp), %eax
	movl	272(%rsp), %edi
	movl	288(%rsp), %r8d
	movl	%r8d, 168(%rsp)
	movl	304(%rsp), %r8d
	movl	%r8d, 76(%rsp)
	movl	212(%rsp), %r8d
	movl	228(%rsp), %r11d
	movl	244(%rsp), %r10d
	movl	260(%rsp), %r9d
	movl	276(%rsp), %r12d
	movl	292(%rsp), %ebp
	movl	308(%rsp), %esi
	movl	%esi, 172(%rsp)
	.p2align	4
.LBB6_13:
	xorps	%xmm0, %xmm0
	movaps	%xmm0, 336(%rsp)
	movaps	%xmm0, 352(%rsp)
	movaps	%xmm0, 368(%rsp)
	movaps	%xmm0, 384(%rsp)
	movaps	%xmm0, 400(%rsp)
	movaps	%xmm0, 576(%rsp)
	movaps	%xmm0, 592(%rsp)
	movaps	%xmm0, 608(%rsp)
	movaps	%xmm0, 624(%rsp)
	movaps	%xmm0, 640(%rsp)
	movaps	%xmm0, 688(%rsp)
	movaps	%xmm0, 704(%rsp)
	movaps	%xmm0, 720(%rsp)
	movaps	%xmm0, 736(%rsp)
	movaps	%xmm0, 544(%rsp)
	movaps	%xmm0, 560(%rsp)
	movaps	%xmm0, 528(%rsp)
	movaps	%xmm0, 512(%rsp)
	movl	%edx, %esi
	movl	%edx, 480(%rsp)
	movl	%ecx, %r13d
	movl	%ecx, 484(%rsp)
	movl	176(%rsp), %edx
	movl	%edx, 488(%rsp)
	movl	180(%rsp), %ecx
	movl	%ecx, 492(%rsp)
	movl	%eax, %ebx
	movl	%eax, 496(%rsp)
	movl	%edi, %r15d
	movl	%edi, 500(%rsp)
	movl	168(%rsp), %edi
	movl	%edi, 504(%rsp)
	movl	76(%rsp), %eax
	movl	%eax, 508(%rsp)
	movl	%r14d, 752(%rsp)
	movl	%r8d, 756(%rsp)
	movl	%r11d, 760(%rsp)
	movl	%r10d, 764(%rsp)
	movl	%r9d, 768(%rsp)
	movl	%r12d, 772(%rsp)
	movl	%ebp, 476(%rsp)
	movl	%ebp, 776(%rsp)
	movl	172(%rsp), %ebp
	movl	%ebp, 780(%rsp)
	movaps	%xmm0, 128(%rsp)
	movaps	%xmm0, 112(%rsp)
	movaps	%xmm0, 96(%rsp)
	movaps	%xmm0, 80(%rsp)
	cmpq	$31, 936(%rsp)
	ja	.LBB6_16
	movl	%esi, 80(%rsp)
	movl	%r13d, 84(%rsp)
	movl	%edx, 88(%rsp)
	movl	%ecx, 92(%rsp)
	movl	%ebx, 96(%rsp)
	movl	%r15d, 100(%rsp)
	movl	%edi, 104(%rsp)
	movl	%eax, 108(%rsp)
	movq	184(%rsp), %rax
	cmpq	$31, 928(%rsp)
	movq	%rax, 184(%rsp)
	jbe	.LBB6_17
.LBB6_15:
	movups	752(%rsp), %xmm0
	movups	768(%rsp), %xmm1
	leaq	112(%rsp), %rax
	movups	%xmm1, 16(%rax)
	movups	%xmm0, (%rax)
	jmp	.LBB6_18
	.p2align	4
.LBB6_16:
	movq	480(%rsp), %rax
	movl	488(%rsp), %ecx
	movl	492(%rsp), %edx
	movq	496(%rsp), %rsi
	movq	%rsi, 96(%rsp)
	movl	504(%rsp), %esi
	movl	%esi, 104(%rsp)
	movl	508(%rsp), %esi
	movl	%esi, 108(%rsp)
	movq	%rax, 80(%rsp)
	movl	%ecx, 88(%rsp)
	movl	%edx, 92(%rsp)
	movq	184(%rsp), %rax
	cmpq	$31, 928(%rsp)
	movq	%rax, 184(%rsp)
	ja	.LBB6_15
.LBB6_17:
	movl	%r14d, 112(%rsp)
	movl	%r8d, 116(%rsp)
	movl	%r11d, 120(%rsp)
	movl	%r10d, 124(%rsp)
	movl	%r9d, 128(%rsp)
	movl	%r12d, 132(%rsp)
	movl	476(%rsp), %eax
	movl	%eax, 136(%rsp)
	movl	%ebp, 140(%rsp)
.LBB6_18:
	movaps	80(%rsp), %xmm0
	movaps	96(%rsp), %xmm1
	movaps	112(%rsp), %xmm2
	movaps	128(%rsp), %xmm3
	movaps	%xmm3, 736(%rsp)
	movaps	%xmm2, 720(%rsp)
	movaps	%xmm1, 704(%rsp)
	movaps	%xmm0, 688(%rsp)
	movaps	%xmm0, 336(%rsp)
	movaps	%xmm1, 352(%rsp)
	movaps	%xmm2, 368(%rsp)
	movaps	%xmm3, 384(%rsp)
	movq	$0, 400(%rsp)
	movabsq	$85899345984, %rax
	movq	%rax, 408(%rsp)
	movl	200(%rsp), %esi
	movl	216(%rsp), %edi
	movl	232(%rsp), %ebp
	movl	248(%rsp), %r14d
	movl	264(%rsp), %r15d
	movl	280(%rsp), %r12d
	movl	296(%rsp), %r13d
	movl	312(%rsp), %eax
	movl	%esi, 544(%rsp)
	movl	%edi, 548(%rsp)
	movl	%ebp, 552(%rsp)
	movl	%r14d, 556(%rsp)
	movl	%r15d, 560(%rsp)
	movl	%r12d, 564(%rsp)
	movl	%r13d, 568(%rsp)
	movl	%eax, 572(%rsp)
	movl	204(%rsp), %ecx
	movl	220(%rsp), %edx
	movl	236(%rsp), %r8d
	movl	252(%rsp), %r9d
	movl	268(%rsp), %r10d
	movl	284(%rsp), %r11d
	movl	%ecx, 76(%rsp)
	movl	%ecx, 512(%rsp)
	movl	%edx, 516(%rsp)
	movl	%r8d, 520(%rsp)
	movl	%r9d, 524(%rsp)
	movl	%r10d, 528(%rsp)
	movl	%r11d, 532(%rsp)
	movl	300(%rsp), %ebx
	movl	%ebx, 536(%rsp)
	movl	316(%rsp), %ecx
	movl	%ecx, 540(%rsp)
	xorps	%xmm0, %xmm0
	movaps	%xmm0, 128(%rsp)
	movaps	%xmm0, 112(%rsp)
	movaps	%xmm0, 96(%rsp)
	movaps	%xmm0, 80(%rsp)
	cmpq	$31, 920(%rsp)
	ja	.LBB6_21
	movl	%esi, 80(%rsp)
	movl	%edi, 84(%rsp)
	movl	%ebp, 88(%rsp)
	movl	%r14d, 92(%rsp)
	movl	%r15d, 96(%rsp)
	movl	%r12d, 100(%rsp)
	movl	%r13d, 104(%rsp)
	movl	%eax, 108(%rsp)
	movq	328(%rsp), %rax
	cmpq	$31, 912(%rsp)
	jbe	.LBB6_22
.LBB6_20:
	movaps	512(%rsp), %xmm0
	movaps	528(%rsp), %xmm1
	leaq	112(%rsp), %rcx
	movups	%xmm1, 16(%rcx)
	movups	%xmm0, (%rcx)
	jmp	.LBB6_23
	.p2align	4
.LBB6_21:
	movaps	544(%rsp), %xmm0
	movaps	560(%rsp), %xmm1
	movaps	%xmm1, 96(%rsp)
	movaps	%xmm0, 80(%rsp)
	movq	328(%rsp), %rax
	cmpq	$31, 912(%rsp)
	ja	.LBB6_20
.LBB6_22:
	movl	76(%rsp), %esi
	movl	%esi, 112(%rsp)
	movl	%edx, 116(%rsp)
	movl	%r8d, 120(%rsp)
	movl	%r9d, 124(%rsp)
	movl	%r10d, 128(%rsp)
	movl	%r11d, 132(%rsp)
	movl	%ebx, 136(%rsp)
	movl	%ecx, 140(%rsp)
.LBB6_23:
	movaps	80(%rsp), %xmm0
	movaps	96(%rsp), %xmm1
	movaps	112(%rsp), %xmm2
	movaps	128(%rsp), %xmm3
	movaps	%xmm3, 736(%rsp)
	movaps	%xmm2, 720(%rsp)
	movaps	%xmm1, 704(%rsp)
	movaps	%xmm0, 688(%rsp)
	movaps	%xmm0, 576(%rsp)
	movaps	%xmm1, 592(%rsp)
	movaps	%xmm2, 608(%rsp)
	movaps	%xmm3, 624(%rsp)
	movq	$0, 640(%rsp)
	movabsq	$85899345984, %rcx
	movq	%rcx, 648(%rsp)
	movups	(%rax), %xmm0
	movups	16(%rax), %xmm1
	movaps	%xmm0, 1008(%rsp)
	movaps	%xmm0, 1024(%rsp)
	movaps	%xmm1, 992(%rsp)
	movaps	%xmm1, 976(%rsp)
	movaps	.LCPI6_1(%rip), %xmm0
	movaps	%xmm0, 960(%rsp)
	leaq	960(%rsp), %rax
	movq	%rax, 40(%rsp)
	movaps	%xmm0, 944(%rsp)
	leaq	944(%rsp), %rax
	movq	%rax, 48(%rsp)
	leaq	336(%rsp), %rax
	movq	%rax, 56(%rsp)
	leaq	576(%rsp), %rax
	movq	%rax, 64(%rsp)
	leaq	976(%rsp), %rax
	movq	%rax, 32(%rsp)
	leaq	80(%rsp), %rcx
	leaq	1024(%rsp), %rdx
	leaq	1008(%rsp), %r8
	leaq	992(%rsp), %r9
	callq	"keyed_blake3::compression::two::compress_two_from"
	movl	80(%rsp), %edx
	movl	84(%rsp), %ecx
	movl	88(%rsp), %eax
	movl	%eax, 176(%rsp)
	movl	92(%rsp), %eax
	movl	%eax, 180(%rsp)
	movl	96(%rsp), %r14d
	movl	100(%rsp), %r8d
	movl	104(%rsp), %r11d
	movl	108(%rsp), %r10d
	movl	112(%rsp), %eax
	movl	116(%rsp), %edi
	movl	120(%rsp), %r9d
	movl	%r9d, 168(%rsp)
	movl	124(%rsp), %r9d
	movl	%r9d, 76(%rsp)
	movl	128(%rsp), %r9d
	movq	$0, 200(%rsp)
	movq	$0, 216(%rsp)
	movq	$0, 232(%rsp)
	movq	$0, 248(%rsp)
	movq	$0, 264(%rsp)
	movq	$0, 280(%rsp)
	movq	$0, 296(%rsp)
	movq	$0, 312(%rsp)
	movq	160(%rsp), %r13
	shrq	%r13
	movq	184(%rsp), %rbx
	movq	%rbx, %r15
	shrq	%r15
	movl	132(%rsp), %r12d
	movl	136(%rsp), %ebp
	movl	140(%rsp), %esi
	movl	%esi, 172(%rsp)
	cmpq	$5, %rbx
	jb	.LBB6_26
	andl	$2, %ebx
	jne	.LBB6_26
	movq	%r15, 184(%rsp)
	movl	%r14d, %ebx
	movq	160(%rsp), %r14
	andl	$2, %r14d
	movq	%r13, 160(%rsp)
	movl	%ebx, %r14d
	je	.LBB6_13
.LBB6_26:
	movl	%edx, 192(%rsp)
	movl	%r14d, 196(%rsp)
	movl	%ecx, 208(%rsp)
	movl	%r8d, 212(%rsp)
	movl	176(%rsp), %ecx
	movl	%ecx, 224(%rsp)
	movl	%r11d, 228(%rsp)
	movl	180(%rsp), %ecx
	movl	%ecx, 240(%rsp)
	movl	%r10d, 244(%rsp)
	movl	%eax, 256(%rsp)
	movl	%r9d, 260(%rsp)
	movl	%edi, 272(%rsp)
	movl	%r12d, 276(%rsp)
	movl	168(%rsp), %eax
	movl	%eax, 288(%rsp)
	movl	%ebp, 292(%rsp)
	movl	76(%rsp), %eax
	movl	%eax, 304(%rsp)
	movl	172(%rsp), %eax
	movl	%eax, 308(%rsp)
	movq	328(%rsp), %rsi
	movq	1456(%rsp), %r14
	movq	%r15, %rbx
	decq	%rbx
	jne	.LBB6_30
	jmp	.LBB6_32
.LBB6_29:
	movq	160(%rsp), %r13
	movq	1456(%rsp), %r14
	movq	%r15, %rbx
	decq	%rbx
	je	.LBB6_32
.LBB6_30:
	leaq	64(%rsi), %rdi
	xorl	%r12d, %r12d
	.p2align	4
.LBB6_31:
	movl	192(%rsp,%r12,4), %eax
	movl	208(%rsp,%r12,4), %ecx
	movl	224(%rsp,%r12,4), %edx
	movl	240(%rsp,%r12,4), %r8d
	movl	256(%rsp,%r12,4), %r9d
	movl	272(%rsp,%r12,4), %r10d
	movl	288(%rsp,%r12,4), %r11d
	movl	304(%rsp,%r12,4), %ebp
	movl	%eax, 336(%rsp)
	movl	%ecx, 340(%rsp)
	movl	%edx, 344(%rsp)
	movl	%r8d, 348(%rsp)
	movl	%r9d, 352(%rsp)
	movl	%r10d, 356(%rsp)
	movl	%r11d, 360(%rsp)
	movl	%ebp, 364(%rsp)
	leaq	(%r13,%r12), %r8
	movq	$0, 32(%rsp)
	leaq	336(%rsp), %r9
	movq	%rdi, %rcx
	movq	%rsi, %rdx
	callq	"keyed_blake3::tree::add_subtree_value"
	incq	%r12
	cmpq	%r12, %rbx
	jne	.LBB6_31
.LBB6_32:
	movl	188(%rsp,%r15,4), %eax
	movl	204(%rsp,%r15,4), %ecx
	movl	220(%rsp,%r15,4), %edx
	movl	236(%rsp,%r15,4), %r8d
	movl	252(%rsp,%r15,4), %r9d
	movl	268(%rsp,%r15,4), %r10d
	movl	284(%rsp,%r15,4), %r11d
	movl	300(%rsp,%r15,4), %edi
	movl	%eax, 656(%rsp)
	movl	%ecx, 660(%rsp)
	movl	%edx, 664(%rsp)
	movl	%r8d, 668(%rsp)
	movl	%r9d, 672(%rsp)
	movl	%r10d, 676(%rsp)
	movl	%r11d, 680(%rsp)
	movl	%edi, 684(%rsp)
	addq	%rbx, %r13
	leaq	64(%rsi), %rcx
	movq	%r14, 32(%rsp)
	leaq	656(%rsp), %r9
	movq	%rsi, %rdx
	movq	%r13, %r8
	callq	"keyed_blake3::tree::add_subtree_value"
	movaps	1232(%rsp), %xmm6
	movaps	1248(%rsp), %xmm7
	movaps	1264(%rsp), %xmm8
	movaps	1280(%rsp), %xmm9
	movaps	1296(%rsp), %xmm10
	movaps	1312(%rsp), %xmm11
	addq	$1336, %rsp
	popq	%rbx
	popq	%rbp
	popq	%rdi
	popq	%rsi
	popq	%r12
	popq	%r13
	popq	%r14
	popq	%r15
	retq
.LBB6_33:
	ud2
	.seh_endproc

	.section	.rdata,"dr"
	.p2align	4, 0x0
.LCPI7_0:
	.byte	2
	.byte	3
	.byte	0
	.byte	1
	.byte	6
	.byte	7
	.byte	4
	.byte	5
	.byte	10
	.byte	11
	.byte	8
	.byte	9
	.byte	14
	.byte	15
	.byte	12
	.byte	13
.LCPI7_1:
	.long	4194304
	.long	4194304
	.long	4194304
	.long	4194304
.LCPI7_2:
	.long	1779033703
	.long	1779033703
	.long	1779033703
	.long	1779033703
.LCPI7_3:
	.long	3144134277
	.long	3144134277
	.long	3144134277
	.long	3144134277
.LCPI7_4:
	.long	1013904242
	.long	1013904242
	.long	1013904242
	.long	1013904242
.LCPI7_5:
	.long	2773480762
	.long	2773480762
	.long	2773480762
	.long	2773480762
.LCPI7_6:
	.byte	1
	.byte	2
	.byte	3
	.byte	0
	.byte	5
	.byte	6
	.byte	7
	.byte	4
	.byte	9
	.byte	10
	.byte	11
	.byte	8
	.byte	13
	.byte	14
	.byte	15
	.byte	12
	.section	.text
	.p2align	4
	.def	"keyed_blake3::chunks::chunk_values::<#8b36ca032ac25711>";
	.scl	3;
	.type	32;
	.endef
"keyed_blake3::chunks::chunk_values::<#8b36ca032ac25711>":
.seh_proc "keyed_blake3::chunks::chunk_values::<#8b36ca032ac25711>"
	pushq	%rsi
	.seh_pushreg %rsi
	subq	$496, %rsp
	.seh_stackalloc 496
	movdqa	%xmm15, 480(%rsp)
	.seh_savexmm %xmm15, 480
	movdqa	%xmm14, 464(%rsp)
	.seh_savexmm %xmm14, 464
	movdqa	%xmm13, 448(%rsp)
	.seh_savexmm %xmm13, 448
	movdqa	%xmm12, 432(%rsp)
	.seh_savexmm %xmm12, 432
	movdqa	%xmm11, 416(%rsp)
	.seh_savexmm %xmm11, 416
	movdqa	%xmm10, 400(%rsp)
	.seh_savexmm %xmm10, 400
	movaps	%xmm9, 384(%rsp)
	.seh_savexmm %xmm9, 384
	movaps	%xmm8, 368(%rsp)
	.seh_savexmm %xmm8, 368
	movaps	%xmm7, 352(%rsp)
	.seh_savexmm %xmm7, 352
	movaps	%xmm6, 336(%rsp)
	.seh_savexmm %xmm6, 336
	.seh_endprologue
	movdqu	(%r9), %xmm2
	movdqu	16(%r9), %xmm0
	movq	544(%rsp), %xmm1
	pshufd	$68, %xmm1, %xmm1
	paddq	%xmm1, %xmm0
	paddq	%xmm1, %xmm2
	movdqa	%xmm2, %xmm1
	shufps	$221, %xmm0, %xmm1
	movaps	%xmm1, 304(%rsp)
	shufps	$136, %xmm0, %xmm2
	movaps	%xmm2, 320(%rsp)
	movd	(%rdx), %xmm0
	pshufd	$0, %xmm0, %xmm7
	movd	4(%rdx), %xmm0
	pshufd	$0, %xmm0, %xmm8
	movd	8(%rdx), %xmm0
	pshufd	$0, %xmm0, %xmm9
	movd	12(%rdx), %xmm0
	pshufd	$0, %xmm0, %xmm6
	movd	16(%rdx), %xmm0
	pshufd	$0, %xmm0, %xmm2
	movd	20(%rdx), %xmm0
	pshufd	$0, %xmm0, %xmm3
	movd	24(%rdx), %xmm0
	pshufd	$0, %xmm0, %xmm4
	movd	28(%rdx), %xmm0
	pshufd	$0, %xmm0, %xmm5
	movq	(%r9), %rax
	movq	8(%r9), %rdx
	shlq	$10, %rax
	shlq	$10, %rdx
	movq	16(%r9), %r10
	shlq	$10, %r10
	movq	24(%r9), %r11
	shlq	$10, %r11
	addq	%r8, %rax
	addq	$48, %rax
	addq	%r8, %rdx
	addq	$48, %rdx
	leaq	(%r10,%r8), %r9
	addq	$48, %r9
	addq	%r11, %r8
	addq	$48, %r8
	xorl	%r10d, %r10d
	.p2align	4
.LBB7_1:
	movdqu	-48(%rax,%r10), %xmm0
	movups	-32(%rax,%r10), %xmm1
	movaps	%xmm1, 48(%rsp)
	movups	-16(%rax,%r10), %xmm1
	movaps	%xmm1, 32(%rsp)
	movdqu	-48(%r9,%r10), %xmm11
	movups	-32(%r9,%r10), %xmm1
	movaps	%xmm1, 16(%rsp)
	movups	-16(%r9,%r10), %xmm1
	movaps	%xmm1, (%rsp)
	movdqa	%xmm0, %xmm1
	punpckhdq	%xmm11, %xmm0
	movdqu	-48(%rdx,%r10), %xmm13
	movdqu	-32(%rdx,%r10), %xmm10
	movups	-16(%rdx,%r10), %xmm14
	punpckldq	%xmm11, %xmm1
	movdqu	-48(%r8,%r10), %xmm11
	movdqu	-32(%r8,%r10), %xmm12
	movdqa	%xmm13, %xmm15
	punpckldq	%xmm11, %xmm15
	punpckhdq	%xmm11, %xmm13
	movdqa	%xmm1, %xmm11
	punpckhdq	%xmm15, %xmm1
	movdqa	%xmm1, 96(%rsp)
	punpckldq	%xmm15, %xmm11
	movdqa	%xmm11, %xmm15
	movdqa	%xmm11, 240(%rsp)
	movdqa	%xmm0, %xmm1
	punpckldq	%xmm13, %xmm1
	movdqa	%xmm1, 128(%rsp)
	punpckhdq	%xmm13, %xmm0
	movdqa	%xmm0, 64(%rsp)
	movdqa	48(%rsp), %xmm0
	movdqa	%xmm0, %xmm1
	movdqa	16(%rsp), %xmm11
	punpckldq	%xmm11, %xmm1
	punpckhdq	%xmm11, %xmm0
	movdqa	%xmm10, %xmm11
	punpckldq	%xmm12, %xmm11
	punpckhdq	%xmm12, %xmm10
	movdqa	%xmm1, %xmm12
	punpckhdq	%xmm11, %xmm1
	movdqa	%xmm1, 160(%rsp)
	punpckldq	%xmm11, %xmm12
	movdqa	%xmm12, 272(%rsp)
	movdqa	%xmm0, %xmm1
	punpckldq	%xmm10, %xmm1
	movdqa	%xmm1, %xmm13
	movdqa	%xmm1, 256(%rsp)
	punpckhdq	%xmm10, %xmm0
	movdqa	%xmm0, 48(%rsp)
	movaps	32(%rsp), %xmm11
	movaps	%xmm11, %xmm0
	movaps	(%rsp), %xmm1
	unpcklps	%xmm1, %xmm0
	unpckhps	%xmm1, %xmm11
	movups	-16(%r8,%r10), %xmm1
	movaps	%xmm14, %xmm10
	unpcklps	%xmm1, %xmm10
	unpckhps	%xmm1, %xmm14
	movaps	%xmm11, %xmm1
	unpcklps	%xmm14, %xmm1
	movaps	%xmm1, 224(%rsp)
	unpckhps	%xmm14, %xmm11
	movaps	%xmm11, 32(%rsp)
	movaps	%xmm0, %xmm1
	unpckhps	%xmm10, %xmm0
	movaps	%xmm0, 112(%rsp)
	unpcklps	%xmm10, %xmm1
	movaps	%xmm1, 144(%rsp)
	movups	(%rax,%r10), %xmm14
	prefetcht0	128(%rax,%r10)
	movups	(%r9,%r10), %xmm0
	prefetcht0	128(%r9,%r10)
	movaps	%xmm14, %xmm11
	unpcklps	%xmm0, %xmm11
	unpckhps	%xmm0, %xmm14
	movups	(%rdx,%r10), %xmm0
	prefetcht0	128(%rdx,%r10)
	movups	(%r8,%r10), %xmm1
	prefetcht0	128(%r8,%r10)
	movaps	%xmm0, %xmm10
	unpcklps	%xmm1, %xmm10
	unpckhps	%xmm1, %xmm0
	movaps	%xmm14, %xmm1
	unpcklps	%xmm0, %xmm1
	movaps	%xmm1, 176(%rsp)
	unpckhps	%xmm0, %xmm14
	movaps	%xmm14, 80(%rsp)
	movaps	%xmm11, %xmm0
	unpckhps	%xmm10, %xmm11
	movaps	%xmm11, 192(%rsp)
	unpcklps	%xmm10, %xmm0
	movaps	%xmm0, 208(%rsp)
	cmpq	$1, %r10
	movl	$0, %esi
	adcl	$16, %esi
	cmpq	$960, %r10
	movl	$18, %r11d
	cmovnel	%esi, %r11d
	paddd	%xmm4, %xmm9
	paddd	%xmm12, %xmm9
	movdqa	%xmm9, %xmm0
	psrld	$16, %xmm0
	movdqa	%xmm9, %xmm10
	pslld	$16, %xmm10
	pxor	.LCPI7_1(%rip), %xmm10
	por	%xmm0, %xmm10
	paddd	%xmm5, %xmm6
	movd	%r11d, %xmm0
	pshufd	$0, %xmm0, %xmm11
	paddd	%xmm13, %xmm6
	pxor	%xmm6, %xmm11
	movdqa	%xmm6, %xmm0
	psrld	$16, %xmm0
	pslld	$16, %xmm11
	pblendw	$85, %xmm0, %xmm11
	paddd	%xmm2, %xmm7
	paddd	%xmm15, %xmm7
	movdqa	%xmm7, %xmm12
	pxor	320(%rsp), %xmm12
	movdqa	.LCPI7_0(%rip), %xmm1
	pshufb	%xmm1, %xmm12
	movdqa	.LCPI7_2(%rip), %xmm13
	paddd	%xmm12, %xmm13
	pxor	%xmm13, %xmm2
	movdqa	%xmm2, %xmm0
	psrld	$12, %xmm0
	pslld	$20, %xmm2
	por	%xmm0, %xmm2
	paddd	%xmm3, %xmm8
	paddd	128(%rsp), %xmm8
	movdqa	%xmm8, %xmm14
	pxor	304(%rsp), %xmm14
	pshufb	%xmm1, %xmm14
	movdqa	.LCPI7_3(%rip), %xmm0
	paddd	%xmm14, %xmm0
	movdqa	%xmm0, 16(%rsp)
	pxor	%xmm0, %xmm3
	movdqa	%xmm3, %xmm0
	psrld	$12, %xmm0
	pslld	$20, %xmm3
	por	%xmm0, %xmm3
	movdqa	.LCPI7_5(%rip), %xmm0
	paddd	%xmm11, %xmm0
	movdqa	%xmm0, (%rsp)
	pxor	%xmm0, %xmm5
	movdqa	%xmm5, %xmm0
	psrld	$12, %xmm0
	pslld	$20, %xmm5
	por	%xmm0, %xmm5
	paddd	96(%rsp), %xmm7
	paddd	%xmm2, %xmm7
	movdqa	.LCPI7_6(%rip), %xmm1
	pshufb	%xmm1, %xmm12
	movdqa	%xmm7, %xmm0
	pshufb	%xmm1, %xmm0
	pxor	%xmm0, %xmm12
	paddd	64(%rsp), %xmm8
	paddd	%xmm3, %xmm8
	movdqa	%xmm8, %xmm0
	pshufb	%xmm1, %xmm0
	pshufb	%xmm1, %xmm14
	pxor	%xmm0, %xmm14
	paddd	48(%rsp), %xmm6
	paddd	%xmm5, %xmm6
	pshufb	%xmm1, %xmm11
	movdqa	%xmm6, %xmm0
	pshufb	%xmm1, %xmm0
	pxor	%xmm0, %xmm11
	movdqa	.LCPI7_4(%rip), %xmm15
	paddd	%xmm10, %xmm15
	pxor	%xmm15, %xmm4
	movdqa	%xmm4, %xmm0
	psrld	$12, %xmm0
	pslld	$20, %xmm4
	por	%xmm0, %xmm4
	movdqa	16(%rsp), %xmm0
	paddd	%xmm14, %xmm0
	movdqa	%xmm0, 16(%rsp)
	pxor	%xmm0, %xmm3
	movdqa	%xmm3, %xmm0
	psrld	$7, %xmm0
	pslld	$25, %xmm3
	por	%xmm0, %xmm3
	paddd	%xmm12, %xmm13
	pxor	%xmm13, %xmm2
	movdqa	%xmm2, %xmm0
	psrld	$7, %xmm0
	pslld	$25, %xmm2
	por	%xmm0, %xmm2
	movdqa	(%rsp), %xmm0
	paddd	%xmm11, %xmm0
	movdqa	%xmm0, (%rsp)
	pxor	%xmm0, %xmm5
	movdqa	%xmm5, %xmm0
	psrld	$7, %xmm0
	pslld	$25, %xmm5
	por	%xmm0, %xmm5
	paddd	160(%rsp), %xmm9
	paddd	%xmm4, %xmm9
	pxor	%xmm9, %xmm10
	pshufb	%xmm1, %xmm10
	paddd	%xmm10, %xmm15
	pxor	%xmm15, %xmm4
	movdqa	%xmm4, %xmm0
	psrld	$7, %xmm0
	pslld	$25, %xmm4
	por	%xmm0, %xmm4
	paddd	176(%rsp), %xmm6
	paddd	%xmm2, %xmm6
	movdqa	%xmm6, %xmm0
	movdqa	.LCPI7_0(%rip), %xmm1
	pshufb	%xmm1, %xmm0
	pshufb	%xmm1, %xmm10
	pxor	%xmm0, %xmm10
	movdqa	16(%rsp), %xmm0
	paddd	%xmm10, %xmm0
	movdqa	%xmm0, 16(%rsp)
	pxor	%xmm0, %xmm2
	movdqa	%xmm2, %xmm0
	psrld	$12, %xmm0
	pslld	$20, %xmm2
	por	%xmm0, %xmm2
	paddd	144(%rsp), %xmm7
	paddd	%xmm3, %xmm7
	pxor	%xmm7, %xmm11
	pshufb	%xmm1, %xmm11
	paddd	%xmm11, %xmm15
	pxor	%xmm15, %xmm3
	movdqa	%xmm3, %xmm0
	psrld	$12, %xmm0
	pslld	$20, %xmm3
	por	%xmm0, %xmm3
	paddd	224(%rsp), %xmm8
	paddd	%xmm4, %xmm8
	pxor	%xmm8, %xmm12
	pshufb	%xmm1, %xmm12
	movdqa	(%rsp), %xmm0
	paddd	%xmm12, %xmm0
	movdqa	%xmm0, (%rsp)
	pxor	%xmm0, %xmm4
	movdqa	%xmm4, %xmm0
	psrld	$12, %xmm0
	pslld	$20, %xmm4
	por	%xmm0, %xmm4
	paddd	208(%rsp), %xmm9
	paddd	%xmm5, %xmm9
	pxor	%xmm9, %xmm14
	pshufb	%xmm1, %xmm14
	paddd	%xmm14, %xmm13
	pxor	%xmm13, %xmm5
	movdqa	%xmm5, %xmm0
	psrld	$12, %xmm0
	pslld	$20, %xmm5
	por	%xmm0, %xmm5
	paddd	80(%rsp), %xmm6
	paddd	%xmm2, %xmm6
	movdqa	%xmm6, %xmm0
	movdqa	.LCPI7_6(%rip), %xmm1
	pshufb	%xmm1, %xmm0
	pshufb	%xmm1, %xmm10
	pxor	%xmm0, %xmm10
	paddd	112(%rsp), %xmm7
	paddd	%xmm3, %xmm7
	movdqa	%xmm7, %xmm0
	pshufb	%xmm1, %xmm0
	pshufb	%xmm1, %xmm11
	pxor	%xmm0, %xmm11
	paddd	32(%rsp), %xmm8
	paddd	%xmm4, %xmm8
	movdqa	%xmm8, %xmm0
	pshufb	%xmm1, %xmm0
	pshufb	%xmm1, %xmm12
	pxor	%xmm0, %xmm12
	paddd	192(%rsp), %xmm9
	paddd	%xmm5, %xmm9
	movdqa	%xmm9, %xmm0
	pshufb	%xmm1, %xmm0
	pshufb	%xmm1, %xmm14
	pxor	%xmm0, %xmm14
	movdqa	16(%rsp), %xmm0
	paddd	%xmm10, %xmm0
	movdqa	%xmm0, 16(%rsp)
	pxor	%xmm0, %xmm2
	movdqa	%xmm2, %xmm0
	psrld	$7, %xmm0
	pslld	$25, %xmm2
	por	%xmm0, %xmm2
	paddd	%xmm11, %xmm15
	pxor	%xmm15, %xmm3
	movdqa	%xmm3, %xmm0
	psrld	$7, %xmm0
	pslld	$25, %xmm3
	por	%xmm0, %xmm3
	movdqa	(%rsp), %xmm0
	paddd	%xmm12, %xmm0
	movdqa	%xmm0, (%rsp)
	pxor	%xmm0, %xmm4
	movdqa	%xmm4, %xmm0
	psrld	$7, %xmm0
	pslld	$25, %xmm4
	por	%xmm0, %xmm4
	paddd	%xmm14, %xmm13
	pxor	%xmm13, %xmm5
	movdqa	%xmm5, %xmm0
	psrld	$7, %xmm0
	pslld	$25, %xmm5
	por	%xmm0, %xmm5
	paddd	128(%rsp), %xmm7
	paddd	%xmm2, %xmm7
	pxor	%xmm7, %xmm12
	movdqa	.LCPI7_0(%rip), %xmm1
	pshufb	%xmm1, %xmm12
	paddd	%xmm12, %xmm13
	pxor	%xmm13, %xmm2
	movdqa	%xmm2, %xmm0
	psrld	$12, %xmm0
	pslld	$20, %xmm2
	por	%xmm0, %xmm2
	paddd	64(%rsp), %xmm8
	paddd	%xmm3, %xmm8
	pxor	%xmm8, %xmm14
	pshufb	%xmm1, %xmm14
	movdqa	16(%rsp), %xmm0
	paddd	%xmm14, %xmm0
	movdqa	%xmm0, 16(%rsp)
	pxor	%xmm0, %xmm3
	movdqa	%xmm3, %xmm0
	psrld	$12, %xmm0
	pslld	$20, %xmm3
	por	%xmm0, %xmm3
	paddd	48(%rsp), %xmm9
	paddd	%xmm4, %xmm9
	pxor	%xmm9, %xmm10
	pshufb	%xmm1, %xmm10
	paddd	%xmm10, %xmm15
	pxor	%xmm15, %xmm4
	movdqa	%xmm4, %xmm0
	psrld	$12, %xmm0
	pslld	$20, %xmm4
	por	%xmm0, %xmm4
	paddd	272(%rsp), %xmm6
	paddd	%xmm5, %xmm6
	pxor	%xmm6, %xmm11
	pshufb	%xmm1, %xmm11
	movdqa	(%rsp), %xmm0
	paddd	%xmm11, %xmm0
	movdqa	%xmm0, (%rsp)
	pxor	%xmm0, %xmm5
	movdqa	%xmm5, %xmm0
	psrld	$12, %xmm0
	pslld	$20, %xmm5
	por	%xmm0, %xmm5
	paddd	256(%rsp), %xmm7
	paddd	%xmm2, %xmm7
	movdqa	%xmm7, %xmm0
	movdqa	.LCPI7_6(%rip), %xmm1
	pshufb	%xmm1, %xmm0
	pshufb	%xmm1, %xmm12
	pxor	%xmm0, %xmm12
	paddd	224(%rsp), %xmm8
	paddd	%xmm3, %xmm8
	movdqa	%xmm8, %xmm0
	pshufb	%xmm1, %xmm0
	pshufb	%xmm1, %xmm14
	pxor	%xmm0, %xmm14
	paddd	240(%rsp), %xmm9
	paddd	%xmm4, %xmm9
	movdqa	%xmm9, %xmm0
	pshufb	%xmm1, %xmm0
	pshufb	%xmm1, %xmm10
	pxor	%xmm0, %xmm10
	paddd	192(%rsp), %xmm6
	paddd	%xmm5, %xmm6
	movdqa	%xmm6, %xmm0
	pshufb	%xmm1, %xmm0
	pshufb	%xmm1, %xmm11
	pxor	%xmm0, %xmm11
	paddd	%xmm12, %xmm13
	pxor	%xmm13, %xmm2
	movdqa	%xmm2, %xmm0
	psrld	$7, %xmm0
	pslld	$25, %xmm2
	por	%xmm0, %xmm2
	movdqa	16(%rsp), %xmm0
	paddd	%xmm14, %xmm0
	movdqa	%xmm0, 16(%rsp)
	pxor	%xmm0, %xmm3
	movdqa	%xmm3, %xmm0
	psrld	$7, %xmm0
	pslld	$25, %xmm3
	por	%xmm0, %xmm3
	paddd	%xmm10, %xmm15
	pxor	%xmm15, %xmm4
	movdqa	%xmm4, %xmm0
	psrld	$7, %xmm0
	pslld	$25, %xmm4
	por	%xmm0, %xmm4
	movdqa	(%rsp), %xmm0
	paddd	%xmm11, %xmm0
	movdqa	%xmm0, (%rsp)
	pxor	%xmm0, %xmm5
	movdqa	%xmm5, %xmm0
	psrld	$7, %xmm0
	pslld	$25, %xmm5
	por	%xmm0, %xmm5
	paddd	80(%rsp), %xmm6
	paddd	%xmm2, %xmm6
	pxor	%xmm6, %xmm10
	movdqa	.LCPI7_0(%rip), %xmm1
	pshufb	%xmm1, %xmm10
	movdqa	16(%rsp), %xmm0
	paddd	%xmm10, %xmm0
	movdqa	%xmm0, 16(%rsp)
	pxor	%xmm0, %xmm2
	movdqa	%xmm2, %xmm0
	psrld	$12, %xmm0
	pslld	$20, %xmm2
	por	%xmm0, %xmm2
	paddd	96(%rsp), %xmm7
	paddd	%xmm3, %xmm7
	pxor	%xmm7, %xmm11
	pshufb	%xmm1, %xmm11
	paddd	%xmm11, %xmm15
	pxor	%xmm15, %xmm3
	movdqa	%xmm3, %xmm0
	psrld	$12, %xmm0
	pslld	$20, %xmm3
	por	%xmm0, %xmm3
	paddd	208(%rsp), %xmm8
	paddd	%xmm4, %xmm8
	pxor	%xmm8, %xmm12
	pshufb	%xmm1, %xmm12
	movdqa	(%rsp), %xmm0
	paddd	%xmm12, %xmm0
	movdqa	%xmm0, (%rsp)
	pxor	%xmm0, %xmm4
	movdqa	%xmm4, %xmm0
	psrld	$12, %xmm0
	pslld	$20, %xmm4
	por	%xmm0, %xmm4
	paddd	112(%rsp), %xmm9
	paddd	%xmm5, %xmm9
	pxor	%xmm9, %xmm14
	pshufb	%xmm1, %xmm14
	paddd	%xmm14, %xmm13
	pxor	%xmm13, %xmm5
	movdqa	%xmm5, %xmm0
	psrld	$12, %xmm0
	pslld	$20, %xmm5
	por	%xmm0, %xmm5
	paddd	144(%rsp), %xmm6
	paddd	%xmm2, %xmm6
	movdqa	%xmm6, %xmm0
	movdqa	.LCPI7_6(%rip), %xmm1
	pshufb	%xmm1, %xmm0
	pshufb	%xmm1, %xmm10
	pxor	%xmm0, %xmm10
	paddd	32(%rsp), %xmm7
	paddd	%xmm3, %xmm7
	movdqa	%xmm7, %xmm0
	pshufb	%xmm1, %xmm0
	pshufb	%xmm1, %xmm11
	pxor	%xmm0, %xmm11
	paddd	160(%rsp), %xmm8
	paddd	%xmm4, %xmm8
	movdqa	%xmm8, %xmm0
	pshufb	%xmm1, %xmm0
	pshufb	%xmm1, %xmm12
	pxor	%xmm0, %xmm12
	paddd	176(%rsp), %xmm9
	paddd	%xmm5, %xmm9
	movdqa	%xmm9, %xmm0
	pshufb	%xmm1, %xmm0
	pshufb	%xmm1, %xmm14
	pxor	%xmm0, %xmm14
	movdqa	16(%rsp), %xmm0
	paddd	%xmm10, %xmm0
	movdqa	%xmm0, 16(%rsp)
	pxor	%xmm0, %xmm2
	movdqa	%xmm2, %xmm0
	psrld	$7, %xmm0
	pslld	$25, %xmm2
	por	%xmm0, %xmm2
	paddd	%xmm11, %xmm15
	pxor	%xmm15, %xmm3
	movdqa	%xmm3, %xmm0
	psrld	$7, %xmm0
	pslld	$25, %xmm3
	por	%xmm0, %xmm3
	movdqa	(%rsp), %xmm0
	paddd	%xmm12, %xmm0
	movdqa	%xmm0, (%rsp)
	pxor	%xmm0, %xmm4
	movdqa	%xmm4, %xmm0
	psrld	$7, %xmm0
	pslld	$25, %xmm4
	por	%xmm0, %xmm4
	paddd	%xmm14, %xmm13
	pxor	%xmm13, %xmm5
	movdqa	%xmm5, %xmm0
	psrld	$7, %xmm0
	pslld	$25, %xmm5
	por	%xmm0, %xmm5
	paddd	64(%rsp), %xmm7
	paddd	%xmm2, %xmm7
	pxor	%xmm7, %xmm12
	movdqa	.LCPI7_0(%rip), %xmm1
	pshufb	%xmm1, %xmm12
	paddd	%xmm12, %xmm13
	pxor	%xmm13, %xmm2
	movdqa	%xmm2, %xmm0
	psrld	$12, %xmm0
	pslld	$20, %xmm2
	por	%xmm0, %xmm2
	paddd	224(%rsp), %xmm8
	paddd	%xmm3, %xmm8
	pxor	%xmm8, %xmm14
	pshufb	%xmm1, %xmm14
	movdqa	16(%rsp), %xmm0
	paddd	%xmm14, %xmm0
	movdqa	%xmm0, 16(%rsp)
	pxor	%xmm0, %xmm3
	movdqa	%xmm3, %xmm0
	psrld	$12, %xmm0
	pslld	$20, %xmm3
	por	%xmm0, %xmm3
	paddd	192(%rsp), %xmm9
	paddd	%xmm4, %xmm9
	pxor	%xmm9, %xmm10
	pshufb	%xmm1, %xmm10
	paddd	%xmm10, %xmm15
	pxor	%xmm15, %xmm4
	movdqa	%xmm4, %xmm0
	psrld	$12, %xmm0
	pslld	$20, %xmm4
	por	%xmm0, %xmm4
	paddd	48(%rsp), %xmm6
	paddd	%xmm5, %xmm6
	pxor	%xmm6, %xmm11
	pshufb	%xmm1, %xmm11
	movdqa	(%rsp), %xmm0
	paddd	%xmm11, %xmm0
	movdqa	%xmm0, (%rsp)
	pxor	%xmm0, %xmm5
	movdqa	%xmm5, %xmm0
	psrld	$12, %xmm0
	pslld	$20, %xmm5
	por	%xmm0, %xmm5
	paddd	272(%rsp), %xmm7
	paddd	%xmm2, %xmm7
	movdqa	%xmm7, %xmm0
	movdqa	.LCPI7_6(%rip), %xmm1
	pshufb	%xmm1, %xmm0
	pshufb	%xmm1, %xmm12
	pxor	%xmm0, %xmm12
	paddd	208(%rsp), %xmm8
	paddd	%xmm3, %xmm8
	movdqa	%xmm8, %xmm0
	pshufb	%xmm1, %xmm0
	pshufb	%xmm1, %xmm14
	pxor	%xmm0, %xmm14
	paddd	128(%rsp), %xmm9
	paddd	%xmm4, %xmm9
	movdqa	%xmm9, %xmm0
	pshufb	%xmm1, %xmm0
	pshufb	%xmm1, %xmm10
	pxor	%xmm0, %xmm10
	paddd	176(%rsp), %xmm6
	paddd	%xmm5, %xmm6
	movdqa	%xmm6, %xmm0
	pshufb	%xmm1, %xmm0
	pshufb	%xmm1, %xmm11
	pxor	%xmm0, %xmm11
	paddd	%xmm12, %xmm13
	pxor	%xmm13, %xmm2
	movdqa	%xmm2, %xmm0
	psrld	$7, %xmm0
	pslld	$25, %xmm2
	por	%xmm0, %xmm2
	movdqa	16(%rsp), %xmm0
	paddd	%xmm14, %xmm0
	movdqa	%xmm0, 16(%rsp)
	pxor	%xmm0, %xmm3
	movdqa	%xmm3, %xmm0
	psrld	$7, %xmm0
	pslld	$25, %xmm3
	por	%xmm0, %xmm3
	paddd	%xmm10, %xmm15
	pxor	%xmm15, %xmm4
	movdqa	%xmm4, %xmm0
	psrld	$7, %xmm0
	pslld	$25, %xmm4
	por	%xmm0, %xmm4
	movdqa	(%rsp), %xmm0
	paddd	%xmm11, %xmm0
	movdqa	%xmm0, (%rsp)
	pxor	%xmm0, %xmm5
	movdqa	%xmm5, %xmm0
	psrld	$7, %xmm0
	pslld	$25, %xmm5
	por	%xmm0, %xmm5
	paddd	144(%rsp), %xmm6
	paddd	%xmm2, %xmm6
	pxor	%xmm6, %xmm10
	movdqa	.LCPI7_0(%rip), %xmm1
	pshufb	%xmm1, %xmm10
	movdqa	16(%rsp), %xmm0
	paddd	%xmm10, %xmm0
	movdqa	%xmm0, 16(%rsp)
	pxor	%xmm0, %xmm2
	movdqa	%xmm2, %xmm0
	psrld	$12, %xmm0
	pslld	$20, %xmm2
	por	%xmm0, %xmm2
	paddd	256(%rsp), %xmm7
	paddd	%xmm3, %xmm7
	pxor	%xmm7, %xmm11
	pshufb	%xmm1, %xmm11
	paddd	%xmm11, %xmm15
	pxor	%xmm15, %xmm3
	movdqa	%xmm3, %xmm0
	psrld	$12, %xmm0
	pslld	$20, %xmm3
	por	%xmm0, %xmm3
	paddd	112(%rsp), %xmm8
	paddd	%xmm4, %xmm8
	pxor	%xmm8, %xmm12
	pshufb	%xmm1, %xmm12
	movdqa	(%rsp), %xmm0
	paddd	%xmm12, %xmm0
	movdqa	%xmm0, (%rsp)
	pxor	%xmm0, %xmm4
	movdqa	%xmm4, %xmm0
	psrld	$12, %xmm0
	pslld	$20, %xmm4
	por	%xmm0, %xmm4
	paddd	32(%rsp), %xmm9
	paddd	%xmm5, %xmm9
	pxor	%xmm9, %xmm14
	pshufb	%xmm1, %xmm14
	paddd	%xmm14, %xmm13
	pxor	%xmm13, %xmm5
	movdqa	%xmm5, %xmm0
	psrld	$12, %xmm0
	pslld	$20, %xmm5
	por	%xmm0, %xmm5
	paddd	96(%rsp), %xmm6
	paddd	%xmm2, %xmm6
	movdqa	%xmm6, %xmm0
	movdqa	.LCPI7_6(%rip), %xmm1
	pshufb	%xmm1, %xmm0
	pshufb	%xmm1, %xmm10
	pxor	%xmm0, %xmm10
	paddd	160(%rsp), %xmm7
	paddd	%xmm3, %xmm7
	movdqa	%xmm7, %xmm0
	pshufb	%xmm1, %xmm0
	pshufb	%xmm1, %xmm11
	pxor	%xmm0, %xmm11
	paddd	240(%rsp), %xmm8
	paddd	%xmm4, %xmm8
	movdqa	%xmm8, %xmm0
	pshufb	%xmm1, %xmm0
	pshufb	%xmm1, %xmm12
	pxor	%xmm0, %xmm12
	paddd	80(%rsp), %xmm9
	paddd	%xmm5, %xmm9
	movdqa	%xmm9, %xmm0
	pshufb	%xmm1, %xmm0
	pshufb	%xmm1, %xmm14
	pxor	%xmm0, %xmm14
	movdqa	16(%rsp), %xmm0
	paddd	%xmm10, %xmm0
	movdqa	%xmm0, 16(%rsp)
	pxor	%xmm0, %xmm2
	movdqa	%xmm2, %xmm0
	psrld	$7, %xmm0
	pslld	$25, %xmm2
	por	%xmm0, %xmm2
	paddd	%xmm11, %xmm15
	pxor	%xmm15, %xmm3
	movdqa	%xmm3, %xmm0
	psrld	$7, %xmm0
	pslld	$25, %xmm3
	por	%xmm0, %xmm3
	movdqa	(%rsp), %xmm0
	paddd	%xmm12, %xmm0
	movdqa	%xmm0, (%rsp)
	pxor	%xmm0, %xmm4
	movdqa	%xmm4, %xmm0
	psrld	$7, %xmm0
	pslld	$25, %xmm4
	por	%xmm0, %xmm4
	paddd	%xmm14, %xmm13
	pxor	%xmm13, %xmm5
	movdqa	%xmm5, %xmm0
	psrld	$7, %xmm0
	pslld	$25, %xmm5
	por	%xmm0, %xmm5
	paddd	224(%rsp), %xmm7
	paddd	%xmm2, %xmm7
	pxor	%xmm7, %xmm12
	movdqa	.LCPI7_0(%rip), %xmm1
	pshufb	%xmm1, %xmm12
	paddd	%xmm12, %xmm13
	pxor	%xmm13, %xmm2
	movdqa	%xmm2, %xmm0
	psrld	$12, %xmm0
	pslld	$20, %xmm2
	por	%xmm0, %xmm2
	paddd	208(%rsp), %xmm8
	paddd	%xmm3, %xmm8
	pxor	%xmm8, %xmm14
	pshufb	%xmm1, %xmm14
	movdqa	16(%rsp), %xmm0
	paddd	%xmm14, %xmm0
	movdqa	%xmm0, 16(%rsp)
	pxor	%xmm0, %xmm3
	movdqa	%xmm3, %xmm0
	psrld	$12, %xmm0
	pslld	$20, %xmm3
	por	%xmm0, %xmm3
	paddd	176(%rsp), %xmm9
	paddd	%xmm4, %xmm9
	pxor	%xmm9, %xmm10
	pshufb	%xmm1, %xmm10
	paddd	%xmm10, %xmm15
	pxor	%xmm15, %xmm4
	movdqa	%xmm4, %xmm0
	psrld	$12, %xmm0
	pslld	$20, %xmm4
	por	%xmm0, %xmm4
	paddd	192(%rsp), %xmm6
	paddd	%xmm5, %xmm6
	pxor	%xmm6, %xmm11
	pshufb	%xmm1, %xmm11
	movdqa	(%rsp), %xmm0
	paddd	%xmm11, %xmm0
	movdqa	%xmm0, (%rsp)
	pxor	%xmm0, %xmm5
	movdqa	%xmm5, %xmm0
	psrld	$12, %xmm0
	pslld	$20, %xmm5
	por	%xmm0, %xmm5
	paddd	48(%rsp), %xmm7
	paddd	%xmm2, %xmm7
	movdqa	%xmm7, %xmm0
	movdqa	.LCPI7_6(%rip), %xmm1
	pshufb	%xmm1, %xmm0
	pshufb	%xmm1, %xmm12
	pxor	%xmm0, %xmm12
	paddd	112(%rsp), %xmm8
	paddd	%xmm3, %xmm8
	movdqa	%xmm8, %xmm0
	pshufb	%xmm1, %xmm0
	pshufb	%xmm1, %xmm14
	pxor	%xmm0, %xmm14
	paddd	64(%rsp), %xmm9
	paddd	%xmm4, %xmm9
	movdqa	%xmm9, %xmm0
	pshufb	%xmm1, %xmm0
	pshufb	%xmm1, %xmm10
	pxor	%xmm0, %xmm10
	paddd	80(%rsp), %xmm6
	paddd	%xmm5, %xmm6
	movdqa	%xmm6, %xmm0
	pshufb	%xmm1, %xmm0
	pshufb	%xmm1, %xmm11
	pxor	%xmm0, %xmm11
	paddd	%xmm12, %xmm13
	pxor	%xmm13, %xmm2
	movdqa	%xmm2, %xmm0
	psrld	$7, %xmm0
	pslld	$25, %xmm2
	por	%xmm0, %xmm2
	movdqa	16(%rsp), %xmm0
	paddd	%xmm14, %xmm0
	movdqa	%xmm0, 16(%rsp)
	pxor	%xmm0, %xmm3
	movdqa	%xmm3, %xmm0
	psrld	$7, %xmm0
	pslld	$25, %xmm3
	por	%xmm0, %xmm3
	paddd	%xmm10, %xmm15
	pxor	%xmm15, %xmm4
	movdqa	%xmm4, %xmm0
	psrld	$7, %xmm0
	pslld	$25, %xmm4
	por	%xmm0, %xmm4
	movdqa	(%rsp), %xmm0
	paddd	%xmm11, %xmm0
	movdqa	%xmm0, (%rsp)
	pxor	%xmm0, %xmm5
	movdqa	%xmm5, %xmm0
	psrld	$7, %xmm0
	pslld	$25, %xmm5
	por	%xmm0, %xmm5
	paddd	96(%rsp), %xmm6
	paddd	%xmm2, %xmm6
	pxor	%xmm6, %xmm10
	movdqa	.LCPI7_0(%rip), %xmm1
	pshufb	%xmm1, %xmm10
	movdqa	16(%rsp), %xmm0
	paddd	%xmm10, %xmm0
	movdqa	%xmm0, 16(%rsp)
	pxor	%xmm0, %xmm2
	movdqa	%xmm2, %xmm0
	psrld	$12, %xmm0
	pslld	$20, %xmm2
	por	%xmm0, %xmm2
	paddd	272(%rsp), %xmm7
	paddd	%xmm3, %xmm7
	pxor	%xmm7, %xmm11
	pshufb	%xmm1, %xmm11
	paddd	%xmm11, %xmm15
	pxor	%xmm15, %xmm3
	movdqa	%xmm3, %xmm0
	psrld	$12, %xmm0
	pslld	$20, %xmm3
	por	%xmm0, %xmm3
	paddd	32(%rsp), %xmm8
	paddd	%xmm4, %xmm8
	pxor	%xmm8, %xmm12
	pshufb	%xmm1, %xmm12
	movdqa	(%rsp), %xmm0
	paddd	%xmm12, %xmm0
	movdqa	%xmm0, (%rsp)
	pxor	%xmm0, %xmm4
	movdqa	%xmm4, %xmm0
	psrld	$12, %xmm0
	pslld	$20, %xmm4
	por	%xmm0, %xmm4
	paddd	160(%rsp), %xmm9
	paddd	%xmm5, %xmm9
	pxor	%xmm9, %xmm14
	pshufb	%xmm1, %xmm14
	paddd	%xmm14, %xmm13
	pxor	%xmm13, %xmm5
	movdqa	%xmm5, %xmm0
	psrld	$12, %xmm0
	pslld	$20, %xmm5
	por	%xmm0, %xmm5
	paddd	256(%rsp), %xmm6
	paddd	%xmm2, %xmm6
	movdqa	%xmm6, %xmm0
	movdqa	.LCPI7_6(%rip), %xmm1
	pshufb	%xmm1, %xmm0
	pshufb	%xmm1, %xmm10
	pxor	%xmm0, %xmm10
	paddd	240(%rsp), %xmm7
	paddd	%xmm3, %xmm7
	movdqa	%xmm7, %xmm0
	pshufb	%xmm1, %xmm0
	pshufb	%xmm1, %xmm11
	pxor	%xmm0, %xmm11
	paddd	128(%rsp), %xmm8
	paddd	%xmm4, %xmm8
	movdqa	%xmm8, %xmm0
	pshufb	%xmm1, %xmm0
	pshufb	%xmm1, %xmm12
	pxor	%xmm0, %xmm12
	paddd	144(%rsp), %xmm9
	paddd	%xmm5, %xmm9
	movdqa	%xmm9, %xmm0
	pshufb	%xmm1, %xmm0
	pshufb	%xmm1, %xmm14
	pxor	%xmm0, %xmm14
	movdqa	16(%rsp), %xmm0
	paddd	%xmm10, %xmm0
	movdqa	%xmm0, 16(%rsp)
	pxor	%xmm0, %xmm2
	movdqa	%xmm2, %xmm0
	psrld	$7, %xmm0
	pslld	$25, %xmm2
	por	%xmm0, %xmm2
	paddd	%xmm11, %xmm15
	pxor	%xmm15, %xmm3
	movdqa	%xmm3, %xmm0
	psrld	$7, %xmm0
	pslld	$25, %xmm3
	por	%xmm0, %xmm3
	movdqa	(%rsp), %xmm0
	paddd	%xmm12, %xmm0
	movdqa	%xmm0, (%rsp)
	pxor	%xmm0, %xmm4
	movdqa	%xmm4, %xmm0
	psrld	$7, %xmm0
	pslld	$25, %xmm4
	por	%xmm0, %xmm4
	paddd	%xmm14, %xmm13
	pxor	%xmm13, %xmm5
	movdqa	%xmm5, %xmm0
	psrld	$7, %xmm0
	pslld	$25, %xmm5
	por	%xmm0, %xmm5
	paddd	208(%rsp), %xmm7
	paddd	%xmm2, %xmm7
	pxor	%xmm7, %xmm12
	movdqa	.LCPI7_0(%rip), %xmm1
	pshufb	%xmm1, %xmm12
	paddd	%xmm12, %xmm13
	pxor	%xmm13, %xmm2
	movdqa	%xmm2, %xmm0
	psrld	$12, %xmm0
	pslld	$20, %xmm2
	por	%xmm0, %xmm2
	paddd	112(%rsp), %xmm8
	paddd	%xmm3, %xmm8
	pxor	%xmm8, %xmm14
	pshufb	%xmm1, %xmm14
	movdqa	16(%rsp), %xmm0
	paddd	%xmm14, %xmm0
	movdqa	%xmm0, 16(%rsp)
	pxor	%xmm0, %xmm3
	movdqa	%xmm3, %xmm0
	psrld	$12, %xmm0
	pslld	$20, %xmm3
	por	%xmm0, %xmm3
	paddd	80(%rsp), %xmm9
	paddd	%xmm4, %xmm9
	pxor	%xmm9, %xmm10
	pshufb	%xmm1, %xmm10
	paddd	%xmm10, %xmm15
	pxor	%xmm15, %xmm4
	movdqa	%xmm4, %xmm0
	psrld	$12, %xmm0
	pslld	$20, %xmm4
	por	%xmm0, %xmm4
	paddd	176(%rsp), %xmm6
	paddd	%xmm5, %xmm6
	pxor	%xmm6, %xmm11
	pshufb	%xmm1, %xmm11
	movdqa	(%rsp), %xmm0
	paddd	%xmm11, %xmm0
	movdqa	%xmm0, (%rsp)
	pxor	%xmm0, %xmm5
	movdqa	%xmm5, %xmm0
	psrld	$12, %xmm0
	pslld	$20, %xmm5
	por	%xmm0, %xmm5
	paddd	192(%rsp), %xmm7
	paddd	%xmm2, %xmm7
	movdqa	%xmm7, %xmm0
	movdqa	.LCPI7_6(%rip), %xmm1
	pshufb	%xmm1, %xmm0
	pshufb	%xmm1, %xmm12
	pxor	%xmm0, %xmm12
	paddd	32(%rsp), %xmm8
	paddd	%xmm3, %xmm8
	movdqa	%xmm8, %xmm0
	pshufb	%xmm1, %xmm0
	pshufb	%xmm1, %xmm14
	pxor	%xmm0, %xmm14
	paddd	224(%rsp), %xmm9
	paddd	%xmm4, %xmm9
	movdqa	%xmm9, %xmm0
	pshufb	%xmm1, %xmm0
	pshufb	%xmm1, %xmm10
	pxor	%xmm0, %xmm10
	paddd	144(%rsp), %xmm6
	paddd	%xmm5, %xmm6
	movdqa	%xmm6, %xmm0
	pshufb	%xmm1, %xmm0
	pshufb	%xmm1, %xmm11
	pxor	%xmm0, %xmm11
	paddd	%xmm12, %xmm13
	pxor	%xmm13, %xmm2
	movdqa	%xmm2, %xmm0
	psrld	$7, %xmm0
	pslld	$25, %xmm2
	por	%xmm0, %xmm2
	movdqa	16(%rsp), %xmm0
	paddd	%xmm14, %xmm0
	movdqa	%xmm0, 16(%rsp)
	pxor	%xmm0, %xmm3
	movdqa	%xmm3, %xmm0
	psrld	$7, %xmm0
	pslld	$25, %xmm3
	por	%xmm0, %xmm3
	paddd	%xmm10, %xmm15
	pxor	%xmm15, %xmm4
	movdqa	%xmm4, %xmm0
	psrld	$7, %xmm0
	pslld	$25, %xmm4
	por	%xmm0, %xmm4
	movdqa	(%rsp), %xmm0
	paddd	%xmm11, %xmm0
	movdqa	%xmm0, (%rsp)
	pxor	%xmm0, %xmm5
	movdqa	%xmm5, %xmm0
	psrld	$7, %xmm0
	pslld	$25, %xmm5
	por	%xmm0, %xmm5
	paddd	256(%rsp), %xmm6
	paddd	%xmm2, %xmm6
	pxor	%xmm6, %xmm10
	movdqa	.LCPI7_0(%rip), %xmm1
	pshufb	%xmm1, %xmm10
	movdqa	16(%rsp), %xmm0
	paddd	%xmm10, %xmm0
	movdqa	%xmm0, 16(%rsp)
	pxor	%xmm0, %xmm2
	movdqa	%xmm2, %xmm0
	psrld	$12, %xmm0
	pslld	$20, %xmm2
	por	%xmm0, %xmm2
	paddd	48(%rsp), %xmm7
	paddd	%xmm3, %xmm7
	pxor	%xmm7, %xmm11
	pshufb	%xmm1, %xmm11
	paddd	%xmm11, %xmm15
	pxor	%xmm15, %xmm3
	movdqa	%xmm3, %xmm0
	psrld	$12, %xmm0
	pslld	$20, %xmm3
	por	%xmm0, %xmm3
	paddd	160(%rsp), %xmm8
	paddd	%xmm4, %xmm8
	pxor	%xmm8, %xmm12
	pshufb	%xmm1, %xmm12
	movdqa	(%rsp), %xmm0
	paddd	%xmm12, %xmm0
	movdqa	%xmm0, (%rsp)
	pxor	%xmm0, %xmm4
	movdqa	%xmm4, %xmm0
	psrld	$12, %xmm0
	pslld	$20, %xmm4
	por	%xmm0, %xmm4
	paddd	240(%rsp), %xmm9
	paddd	%xmm5, %xmm9
	pxor	%xmm9, %xmm14
	pshufb	%xmm1, %xmm14
	paddd	%xmm14, %xmm13
	pxor	%xmm13, %xmm5
	movdqa	%xmm5, %xmm0
	psrld	$12, %xmm0
	pslld	$20, %xmm5
	por	%xmm0, %xmm5
	paddd	272(%rsp), %xmm6
	paddd	%xmm2, %xmm6
	movdqa	%xmm6, %xmm0
	movdqa	.LCPI7_6(%rip), %xmm1
	pshufb	%xmm1, %xmm0
	pshufb	%xmm1, %xmm10
	pxor	%xmm0, %xmm10
	paddd	128(%rsp), %xmm7
	paddd	%xmm3, %xmm7
	movdqa	%xmm7, %xmm0
	pshufb	%xmm1, %xmm0
	pshufb	%xmm1, %xmm11
	pxor	%xmm0, %xmm11
	paddd	64(%rsp), %xmm8
	paddd	%xmm4, %xmm8
	movdqa	%xmm8, %xmm0
	pshufb	%xmm1, %xmm0
	pshufb	%xmm1, %xmm12
	pxor	%xmm0, %xmm12
	paddd	96(%rsp), %xmm9
	paddd	%xmm5, %xmm9
	movdqa	%xmm9, %xmm0
	pshufb	%xmm1, %xmm0
	pshufb	%xmm1, %xmm14
	pxor	%xmm0, %xmm14
	movdqa	16(%rsp), %xmm0
	paddd	%xmm10, %xmm0
	movdqa	%xmm0, 16(%rsp)
	pxor	%xmm0, %xmm2
	movdqa	%xmm2, %xmm0
	psrld	$7, %xmm0
	pslld	$25, %xmm2
	por	%xmm0, %xmm2
	paddd	%xmm11, %xmm15
	pxor	%xmm15, %xmm3
	movdqa	%xmm3, %xmm0
	psrld	$7, %xmm0
	pslld	$25, %xmm3
	por	%xmm0, %xmm3
	movdqa	(%rsp), %xmm0
	paddd	%xmm12, %xmm0
	movdqa	%xmm0, (%rsp)
	pxor	%xmm0, %xmm4
	movdqa	%xmm4, %xmm0
	psrld	$7, %xmm0
	pslld	$25, %xmm4
	por	%xmm0, %xmm4
	paddd	%xmm14, %xmm13
	pxor	%xmm13, %xmm5
	movdqa	%xmm5, %xmm0
	psrld	$7, %xmm0
	pslld	$25, %xmm5
	por	%xmm0, %xmm5
	paddd	112(%rsp), %xmm7
	paddd	%xmm2, %xmm7
	pxor	%xmm7, %xmm12
	movdqa	.LCPI7_0(%rip), %xmm1
	pshufb	%xmm1, %xmm12
	paddd	%xmm12, %xmm13
	pxor	%xmm13, %xmm2
	movdqa	%xmm2, %xmm0
	psrld	$12, %xmm0
	pslld	$20, %xmm2
	por	%xmm0, %xmm2
	paddd	32(%rsp), %xmm8
	paddd	%xmm3, %xmm8
	pxor	%xmm8, %xmm14
	pshufb	%xmm1, %xmm14
	movdqa	16(%rsp), %xmm0
	paddd	%xmm14, %xmm0
	movdqa	%xmm0, 16(%rsp)
	pxor	%xmm0, %xmm3
	movdqa	%xmm3, %xmm0
	psrld	$12, %xmm0
	pslld	$20, %xmm3
	por	%xmm0, %xmm3
	paddd	144(%rsp), %xmm9
	paddd	%xmm4, %xmm9
	pxor	%xmm9, %xmm10
	pshufb	%xmm1, %xmm10
	paddd	%xmm10, %xmm15
	pxor	%xmm15, %xmm4
	movdqa	%xmm4, %xmm0
	psrld	$12, %xmm0
	pslld	$20, %xmm4
	por	%xmm0, %xmm4
	paddd	80(%rsp), %xmm6
	paddd	%xmm5, %xmm6
	pxor	%xmm6, %xmm11
	pshufb	%xmm1, %xmm11
	movdqa	(%rsp), %xmm0
	paddd	%xmm11, %xmm0
	movdqa	%xmm0, (%rsp)
	pxor	%xmm0, %xmm5
	movdqa	%xmm5, %xmm0
	psrld	$12, %xmm0
	pslld	$20, %xmm5
	por	%xmm0, %xmm5
	paddd	176(%rsp), %xmm7
	paddd	%xmm2, %xmm7
	movdqa	%xmm7, %xmm0
	movdqa	.LCPI7_6(%rip), %xmm1
	pshufb	%xmm1, %xmm0
	pshufb	%xmm1, %xmm12
	pxor	%xmm0, %xmm12
	paddd	160(%rsp), %xmm8
	paddd	%xmm3, %xmm8
	movdqa	%xmm8, %xmm0
	pshufb	%xmm1, %xmm0
	pshufb	%xmm1, %xmm14
	pxor	%xmm0, %xmm14
	paddd	208(%rsp), %xmm9
	paddd	%xmm4, %xmm9
	movdqa	%xmm9, %xmm0
	pshufb	%xmm1, %xmm0
	pshufb	%xmm1, %xmm10
	pxor	%xmm0, %xmm10
	paddd	96(%rsp), %xmm6
	paddd	%xmm5, %xmm6
	movdqa	%xmm6, %xmm0
	pshufb	%xmm1, %xmm0
	pshufb	%xmm1, %xmm11
	pxor	%xmm0, %xmm11
	paddd	%xmm12, %xmm13
	pxor	%xmm13, %xmm2
	movdqa	%xmm2, %xmm0
	psrld	$7, %xmm0
	pslld	$25, %xmm2
	por	%xmm0, %xmm2
	movdqa	16(%rsp), %xmm0
	paddd	%xmm14, %xmm0
	movdqa	%xmm0, 16(%rsp)
	pxor	%xmm0, %xmm3
	movdqa	%xmm3, %xmm0
	psrld	$7, %xmm0
	pslld	$25, %xmm3
	por	%xmm0, %xmm3
	paddd	%xmm10, %xmm15
	pxor	%xmm15, %xmm4
	movdqa	%xmm4, %xmm0
	psrld	$7, %xmm0
	pslld	$25, %xmm4
	por	%xmm0, %xmm4
	movdqa	(%rsp), %xmm0
	paddd	%xmm11, %xmm0
	movdqa	%xmm0, (%rsp)
	pxor	%xmm0, %xmm5
	movdqa	%xmm5, %xmm0
	psrld	$7, %xmm0
	pslld	$25, %xmm5
	por	%xmm0, %xmm5
	paddd	192(%rsp), %xmm7
	paddd	%xmm3, %xmm7
	pxor	%xmm7, %xmm11
	movdqa	.LCPI7_0(%rip), %xmm1
	pshufb	%xmm1, %xmm11
	paddd	%xmm11, %xmm15
	pxor	%xmm15, %xmm3
	movdqa	%xmm3, %xmm0
	psrld	$12, %xmm0
	pslld	$20, %xmm3
	por	%xmm0, %xmm3
	paddd	128(%rsp), %xmm9
	paddd	%xmm5, %xmm9
	pxor	%xmm9, %xmm14
	pshufb	%xmm1, %xmm14
	paddd	%xmm14, %xmm13
	pxor	%xmm13, %xmm5
	movdqa	%xmm5, %xmm0
	psrld	$12, %xmm0
	pslld	$20, %xmm5
	por	%xmm0, %xmm5
	paddd	272(%rsp), %xmm6
	paddd	%xmm2, %xmm6
	pxor	%xmm6, %xmm10
	pshufb	%xmm1, %xmm10
	movdqa	16(%rsp), %xmm0
	paddd	%xmm10, %xmm0
	movdqa	%xmm0, 16(%rsp)
	pxor	%xmm0, %xmm2
	movdqa	%xmm2, %xmm0
	psrld	$12, %xmm0
	pslld	$20, %xmm2
	por	%xmm0, %xmm2
	paddd	64(%rsp), %xmm7
	paddd	%xmm3, %xmm7
	movdqa	%xmm7, %xmm0
	movdqa	.LCPI7_6(%rip), %xmm1
	pshufb	%xmm1, %xmm0
	pshufb	%xmm1, %xmm11
	pxor	%xmm0, %xmm11
	paddd	240(%rsp), %xmm8
	paddd	%xmm4, %xmm8
	pxor	%xmm8, %xmm12
	pshufb	.LCPI7_0(%rip), %xmm12
	movdqa	(%rsp), %xmm0
	paddd	%xmm12, %xmm0
	movdqa	%xmm0, (%rsp)
	pxor	%xmm0, %xmm4
	movdqa	%xmm4, %xmm0
	psrld	$12, %xmm0
	pslld	$20, %xmm4
	por	%xmm0, %xmm4
	paddd	256(%rsp), %xmm9
	paddd	%xmm5, %xmm9
	movdqa	%xmm9, %xmm0
	pshufb	%xmm1, %xmm0
	pshufb	%xmm1, %xmm14
	pxor	%xmm0, %xmm14
	paddd	48(%rsp), %xmm6
	paddd	%xmm2, %xmm6
	movdqa	%xmm6, %xmm0
	pshufb	%xmm1, %xmm0
	pshufb	%xmm1, %xmm10
	pxor	%xmm0, %xmm10
	paddd	%xmm11, %xmm15
	pxor	%xmm15, %xmm3
	movdqa	%xmm3, %xmm0
	psrld	$7, %xmm0
	pslld	$25, %xmm3
	por	%xmm0, %xmm3
	paddd	224(%rsp), %xmm8
	paddd	%xmm4, %xmm8
	movdqa	%xmm8, %xmm0
	pshufb	%xmm1, %xmm0
	pshufb	%xmm1, %xmm12
	pxor	%xmm0, %xmm12
	paddd	%xmm14, %xmm13
	movdqa	%xmm13, 288(%rsp)
	pxor	%xmm13, %xmm5
	movdqa	%xmm5, %xmm0
	psrld	$7, %xmm0
	pslld	$25, %xmm5
	por	%xmm0, %xmm5
	movdqa	16(%rsp), %xmm13
	paddd	%xmm10, %xmm13
	pxor	%xmm13, %xmm2
	movdqa	%xmm13, %xmm1
	movdqa	%xmm2, %xmm0
	psrld	$7, %xmm0
	pslld	$25, %xmm2
	por	%xmm0, %xmm2
	paddd	32(%rsp), %xmm7
	paddd	160(%rsp), %xmm8
	movdqa	(%rsp), %xmm0
	paddd	%xmm12, %xmm0
	movdqa	%xmm0, (%rsp)
	pxor	%xmm0, %xmm4
	movdqa	%xmm4, %xmm0
	psrld	$7, %xmm0
	pslld	$25, %xmm4
	por	%xmm0, %xmm4
	paddd	96(%rsp), %xmm9
	paddd	144(%rsp), %xmm6
	paddd	%xmm3, %xmm8
	pxor	%xmm8, %xmm14
	movdqa	.LCPI7_0(%rip), %xmm13
	pshufb	%xmm13, %xmm14
	paddd	%xmm14, %xmm1
	movdqa	%xmm1, 16(%rsp)
	pxor	%xmm1, %xmm3
	movdqa	%xmm3, %xmm0
	psrld	$12, %xmm0
	pslld	$20, %xmm3
	por	%xmm0, %xmm3
	paddd	%xmm2, %xmm7
	pxor	%xmm7, %xmm12
	pshufb	%xmm13, %xmm12
	movdqa	288(%rsp), %xmm0
	paddd	%xmm12, %xmm0
	movdqa	%xmm0, 288(%rsp)
	pxor	%xmm0, %xmm2
	movdqa	%xmm2, %xmm0
	psrld	$12, %xmm0
	pslld	$20, %xmm2
	por	%xmm0, %xmm2
	paddd	%xmm5, %xmm6
	pxor	%xmm6, %xmm11
	pshufb	%xmm13, %xmm11
	movdqa	(%rsp), %xmm0
	paddd	%xmm11, %xmm0
	movdqa	%xmm0, (%rsp)
	pxor	%xmm0, %xmm5
	movdqa	%xmm5, %xmm0
	pslld	$20, %xmm5
	psrld	$12, %xmm0
	por	%xmm0, %xmm5
	paddd	80(%rsp), %xmm7
	paddd	240(%rsp), %xmm8
	paddd	%xmm4, %xmm9
	pxor	%xmm9, %xmm10
	pshufb	%xmm13, %xmm10
	paddd	%xmm10, %xmm15
	pxor	%xmm15, %xmm4
	movdqa	%xmm4, %xmm0
	psrld	$12, %xmm0
	pslld	$20, %xmm4
	por	%xmm0, %xmm4
	paddd	112(%rsp), %xmm9
	paddd	256(%rsp), %xmm6
	paddd	%xmm3, %xmm8
	movdqa	%xmm8, %xmm0
	movdqa	.LCPI7_6(%rip), %xmm1
	pshufb	%xmm1, %xmm0
	pshufb	%xmm1, %xmm14
	pxor	%xmm0, %xmm14
	paddd	%xmm2, %xmm7
	movdqa	%xmm7, %xmm0
	pshufb	%xmm1, %xmm0
	pshufb	%xmm1, %xmm12
	pxor	%xmm0, %xmm12
	paddd	%xmm5, %xmm6
	pshufb	%xmm1, %xmm11
	movdqa	%xmm6, %xmm0
	pshufb	%xmm1, %xmm0
	pxor	%xmm0, %xmm11
	movdqa	16(%rsp), %xmm0
	paddd	%xmm14, %xmm0
	movdqa	%xmm0, 16(%rsp)
	pxor	%xmm0, %xmm3
	movdqa	%xmm3, %xmm0
	psrld	$7, %xmm0
	pslld	$25, %xmm3
	por	%xmm0, %xmm3
	paddd	%xmm4, %xmm9
	movdqa	%xmm9, %xmm0
	pshufb	%xmm1, %xmm0
	pshufb	%xmm1, %xmm10
	pxor	%xmm0, %xmm10
	movdqa	(%rsp), %xmm0
	paddd	%xmm11, %xmm0
	movdqa	%xmm0, (%rsp)
	pxor	%xmm0, %xmm5
	movdqa	%xmm5, %xmm0
	psrld	$7, %xmm0
	pslld	$25, %xmm5
	por	%xmm0, %xmm5
	movdqa	288(%rsp), %xmm13
	paddd	%xmm12, %xmm13
	pxor	%xmm13, %xmm2
	movdqa	%xmm2, %xmm0
	psrld	$7, %xmm0
	pslld	$25, %xmm2
	por	%xmm0, %xmm2
	paddd	48(%rsp), %xmm6
	paddd	176(%rsp), %xmm7
	paddd	%xmm10, %xmm15
	pxor	%xmm15, %xmm4
	movdqa	%xmm4, %xmm0
	psrld	$7, %xmm0
	pslld	$25, %xmm4
	por	%xmm0, %xmm4
	paddd	128(%rsp), %xmm8
	paddd	64(%rsp), %xmm9
	paddd	%xmm3, %xmm7
	pxor	%xmm7, %xmm11
	movdqa	.LCPI7_0(%rip), %xmm1
	pshufb	%xmm1, %xmm11
	paddd	%xmm11, %xmm15
	pxor	%xmm15, %xmm3
	movdqa	%xmm3, %xmm0
	psrld	$12, %xmm0
	pslld	$20, %xmm3
	por	%xmm0, %xmm3
	paddd	%xmm2, %xmm6
	paddd	%xmm5, %xmm9
	pxor	%xmm6, %xmm10
	pshufb	%xmm1, %xmm10
	paddd	%xmm4, %xmm8
	pxor	%xmm8, %xmm12
	pxor	%xmm9, %xmm14
	pshufb	%xmm1, %xmm14
	pshufb	%xmm1, %xmm12
	paddd	%xmm14, %xmm13
	movdqa	%xmm13, 288(%rsp)
	pxor	%xmm13, %xmm5
	movdqa	%xmm5, %xmm0
	psrld	$12, %xmm0
	pslld	$20, %xmm5
	por	%xmm0, %xmm5
	paddd	192(%rsp), %xmm6
	movdqa	16(%rsp), %xmm0
	paddd	%xmm10, %xmm0
	movdqa	%xmm0, 16(%rsp)
	movdqa	(%rsp), %xmm1
	paddd	%xmm12, %xmm1
	movdqa	%xmm1, (%rsp)
	pxor	%xmm0, %xmm2
	paddd	224(%rsp), %xmm7
	pxor	%xmm1, %xmm4
	movdqa	%xmm2, %xmm0
	psrld	$12, %xmm0
	pslld	$20, %xmm2
	por	%xmm0, %xmm2
	movdqa	%xmm4, %xmm0
	psrld	$12, %xmm0
	pslld	$20, %xmm4
	por	%xmm0, %xmm4
	paddd	208(%rsp), %xmm8
	movdqa	%xmm7, %xmm0
	paddd	%xmm3, %xmm0
	movdqa	%xmm8, %xmm1
	paddd	272(%rsp), %xmm9
	movdqa	%xmm9, %xmm13
	paddd	%xmm5, %xmm13
	paddd	%xmm4, %xmm1
	movdqa	%xmm13, %xmm7
	movdqa	.LCPI7_6(%rip), %xmm8
	pshufb	%xmm8, %xmm7
	pshufb	%xmm8, %xmm14
	pxor	%xmm7, %xmm14
	movdqa	288(%rsp), %xmm9
	paddd	%xmm14, %xmm9
	movdqa	%xmm9, %xmm7
	pxor	%xmm0, %xmm7
	pshufb	%xmm8, %xmm0
	pshufb	%xmm8, %xmm11
	pxor	%xmm0, %xmm11
	movdqa	%xmm1, %xmm0
	pshufb	%xmm8, %xmm0
	pshufb	%xmm8, %xmm12
	pxor	%xmm0, %xmm12
	movdqa	%xmm6, %xmm0
	paddd	%xmm2, %xmm0
	movdqa	(%rsp), %xmm6
	paddd	%xmm12, %xmm6
	pxor	%xmm6, %xmm4
	pxor	%xmm0, %xmm6
	pshufb	%xmm8, %xmm10
	pshufb	%xmm8, %xmm0
	pxor	%xmm9, %xmm5
	movdqa	%xmm5, %xmm8
	pslld	$25, %xmm5
	psrld	$7, %xmm8
	por	%xmm8, %xmm5
	paddd	%xmm11, %xmm15
	pxor	%xmm15, %xmm3
	pxor	%xmm0, %xmm10
	movdqa	%xmm3, %xmm0
	psrld	$7, %xmm0
	pslld	$25, %xmm3
	por	%xmm0, %xmm3
	movdqa	%xmm4, %xmm0
	psrld	$7, %xmm0
	pslld	$25, %xmm4
	por	%xmm0, %xmm4
	movdqa	16(%rsp), %xmm8
	paddd	%xmm10, %xmm8
	pxor	%xmm8, %xmm2
	pxor	%xmm1, %xmm8
	movdqa	%xmm2, %xmm0
	psrld	$7, %xmm0
	pslld	$25, %xmm2
	por	%xmm0, %xmm2
	movdqa	%xmm15, %xmm9
	pxor	%xmm13, %xmm9
	pxor	%xmm14, %xmm3
	pxor	%xmm12, %xmm2
	pxor	%xmm10, %xmm4
	pxor	%xmm11, %xmm5
	addq	$64, %r10
	cmpq	$1024, %r10
	jne	.LBB7_1
	movdqu	%xmm7, (%rcx)
	movdqu	%xmm8, 16(%rcx)
	movdqu	%xmm9, 32(%rcx)
	movdqu	%xmm6, 48(%rcx)
	movdqu	%xmm2, 64(%rcx)
	movdqu	%xmm3, 80(%rcx)
	movdqu	%xmm4, 96(%rcx)
	movdqu	%xmm5, 112(%rcx)
	movaps	336(%rsp), %xmm6
	movaps	352(%rsp), %xmm7
	movaps	368(%rsp), %xmm8
	movaps	384(%rsp), %xmm9
	movaps	400(%rsp), %xmm10
	movaps	416(%rsp), %xmm11
	movaps	432(%rsp), %xmm12
	movaps	448(%rsp), %xmm13
	movaps	464(%rsp), %xmm14
	movaps	480(%rsp), %xmm15
	addq	$496, %rsp
	popq	%rsi
	retq
	.seh_endproc

	.section	.rdata,"dr"
	.p2align	4, 0x0
.LCPI8_0:
	.long	64
	.long	64
	.long	64
	.long	64
.LCPI8_1:
	.long	20
	.long	20
	.long	20
	.long	20
.LCPI8_2:
	.byte	0
	.byte	0
	.byte	0
	.byte	0
	.byte	0
	.byte	0
	.byte	0
	.byte	0
	.byte	1
	.byte	0
	.byte	0
	.byte	0
	.byte	0
	.byte	0
	.byte	0
	.byte	0
.LCPI8_3:
	.quad	2
	.quad	3
	.section	.text
	.p2align	4
	.def	"keyed_blake3::subtrees::neighbour_values::<#8b36ca032ac25711>";
	.scl	3;
	.type	32;
	.endef
"keyed_blake3::subtrees::neighbour_values::<#8b36ca032ac25711>":
.seh_proc "keyed_blake3::subtrees::neighbour_values::<#8b36ca032ac25711>"
	pushq	%r15
	.seh_pushreg %r15
	pushq	%r14
	.seh_pushreg %r14
	pushq	%r13
	.seh_pushreg %r13
	pushq	%r12
	.seh_pushreg %r12
	pushq	%rsi
	.seh_pushreg %rsi
	pushq	%rdi
	.seh_pushreg %rdi
	pushq	%rbx
	.seh_pushreg %rbx
	subq	$928, %rsp
	.seh_stackalloc 928
	movaps	%xmm15, 912(%rsp)
	.seh_savexmm %xmm15, 912
	movaps	%xmm14, 896(%rsp)
	.seh_savexmm %xmm14, 896
	movaps	%xmm13, 880(%rsp)
	.seh_savexmm %xmm13, 880
	movaps	%xmm12, 864(%rsp)
	.seh_savexmm %xmm12, 864
	movaps	%xmm11, 848(%rsp)
	.seh_savexmm %xmm11, 848
	movaps	%xmm10, 832(%rsp)
	.seh_savexmm %xmm10, 832
	movaps	%xmm9, 816(%rsp)
	.seh_savexmm %xmm9, 816
	movaps	%xmm8, 800(%rsp)
	.seh_savexmm %xmm8, 800
	movdqa	%xmm7, 784(%rsp)
	.seh_savexmm %xmm7, 784
	movdqa	%xmm6, 768(%rsp)
	.seh_savexmm %xmm6, 768
	.seh_endprologue
	movq	%rcx, %rsi
	movq	1032(%rsp), %r12
	movq	1024(%rsp), %r13
	xorps	%xmm0, %xmm0
	movaps	%xmm0, 160(%rsp)
	movaps	%xmm0, 144(%rsp)
	movaps	%xmm0, 128(%rsp)
	movaps	%xmm0, 112(%rsp)
	movaps	%xmm0, 96(%rsp)
	movaps	%xmm0, 80(%rsp)
	movaps	%xmm0, 64(%rsp)
	movaps	%xmm0, 48(%rsp)
	cmpq	$1, %r13
	jne	.LBB8_3
	movq	%r9, %xmm0
	pshufd	$68, %xmm0, %xmm0
	movdqa	.LCPI8_2(%rip), %xmm1
	paddq	%xmm0, %xmm1
	paddq	.LCPI8_3(%rip), %xmm0
	movdqu	%xmm0, 496(%rsp)
	movdqu	%xmm1, 480(%rsp)
	movq	%r12, 32(%rsp)
	leaq	48(%rsp), %rcx
	leaq	480(%rsp), %r9
	callq	"keyed_blake3::chunks::chunk_values::<#8b36ca032ac25711>"
	jmp	.LBB8_2
.LBB8_3:
	shrq	%r13
	movq	%r12, 40(%rsp)
	movq	%r13, 32(%rsp)
	leaq	176(%rsp), %rbx
	movq	%rbx, %rcx
	movq	%rdx, %rdi
	movq	%r8, %r14
	movq	%r9, %r15
	callq	"keyed_blake3::subtrees::neighbour_values::<#8b36ca032ac25711>"
	movaps	176(%rsp), %xmm6
	movaps	192(%rsp), %xmm7
	movaps	208(%rsp), %xmm8
	movaps	224(%rsp), %xmm9
	movaps	240(%rsp), %xmm10
	movaps	256(%rsp), %xmm11
	movaps	272(%rsp), %xmm12
	movaps	288(%rsp), %xmm13
	leaq	(%r15,%r13,4), %r9
	movq	%r12, 40(%rsp)
	movq	%r13, 32(%rsp)
	movq	%rbx, %rcx
	movq	%rdi, %rdx
	movq	%r14, %r8
	callq	"keyed_blake3::subtrees::neighbour_values::<#8b36ca032ac25711>"
	movaps	176(%rsp), %xmm1
	movaps	192(%rsp), %xmm2
	movaps	208(%rsp), %xmm3
	movaps	224(%rsp), %xmm4
	movaps	240(%rsp), %xmm5
	movaps	256(%rsp), %xmm14
	movaps	272(%rsp), %xmm15
	movaps	%xmm6, %xmm0
	shufps	$136, %xmm1, %xmm6
	shufps	$221, %xmm1, %xmm0
	movaps	%xmm0, 432(%rsp)
	movaps	%xmm7, %xmm1
	shufps	$136, %xmm2, %xmm1
	shufps	$221, %xmm2, %xmm7
	movaps	%xmm8, %xmm2
	shufps	$136, %xmm3, %xmm2
	shufps	$221, %xmm3, %xmm8
	movaps	%xmm9, %xmm3
	shufps	$136, %xmm4, %xmm3
	shufps	$221, %xmm4, %xmm9
	movaps	%xmm10, %xmm4
	shufps	$136, %xmm5, %xmm4
	shufps	$221, %xmm5, %xmm10
	movaps	%xmm11, %xmm5
	shufps	$136, %xmm14, %xmm5
	shufps	$221, %xmm14, %xmm11
	movaps	%xmm12, %xmm14
	shufps	$136, %xmm15, %xmm14
	shufps	$221, %xmm15, %xmm12
	movaps	288(%rsp), %xmm15
	movaps	%xmm13, %xmm0
	shufps	$136, %xmm15, %xmm0
	shufps	$221, %xmm15, %xmm13
	movaps	%xmm6, 512(%rsp)
	movaps	%xmm1, 528(%rsp)
	movaps	%xmm2, 544(%rsp)
	movaps	%xmm3, 560(%rsp)
	movaps	%xmm4, 576(%rsp)
	movaps	%xmm5, 592(%rsp)
	movaps	%xmm14, 608(%rsp)
	movaps	%xmm0, 624(%rsp)
	movaps	432(%rsp), %xmm0
	movaps	%xmm0, 640(%rsp)
	movaps	%xmm7, 656(%rsp)
	movaps	%xmm8, 672(%rsp)
	movaps	%xmm9, 688(%rsp)
	movaps	%xmm10, 704(%rsp)
	movaps	%xmm11, 720(%rsp)
	movaps	%xmm12, 736(%rsp)
	movaps	%xmm13, 752(%rsp)
	movaps	.LCPI8_0(%rip), %xmm0
	movaps	%xmm0, 464(%rsp)
	movaps	.LCPI8_1(%rip), %xmm0
	movaps	%xmm0, 448(%rsp)
	movd	(%rdi), %xmm0
	pshufd	$0, %xmm0, %xmm0
	movd	4(%rdi), %xmm1
	movd	8(%rdi), %xmm2
	movd	12(%rdi), %xmm3
	movd	16(%rdi), %xmm4
	movd	20(%rdi), %xmm5
	movd	24(%rdi), %xmm6
	movd	28(%rdi), %xmm7
	movdqa	%xmm0, 304(%rsp)
	pshufd	$0, %xmm1, %xmm0
	movdqa	%xmm0, 320(%rsp)
	pshufd	$0, %xmm2, %xmm0
	movdqa	%xmm0, 336(%rsp)
	pshufd	$0, %xmm3, %xmm0
	movdqa	%xmm0, 352(%rsp)
	pshufd	$0, %xmm4, %xmm0
	movdqa	%xmm0, 368(%rsp)
	pshufd	$0, %xmm5, %xmm0
	movdqa	%xmm0, 384(%rsp)
	pshufd	$0, %xmm6, %xmm0
	movdqa	%xmm0, 400(%rsp)
	pshufd	$0, %xmm7, %xmm0
	movdqa	%xmm0, 416(%rsp)
	leaq	304(%rsp), %rcx
	leaq	512(%rsp), %rdx
	leaq	464(%rsp), %r8
	leaq	448(%rsp), %r9
	callq	"keyed_blake3::compression::lanes::take_in_each::<#8b36ca032ac25711>"
	movaps	304(%rsp), %xmm0
	movdqa	320(%rsp), %xmm1
	movaps	336(%rsp), %xmm2
	movaps	352(%rsp), %xmm3
	movaps	%xmm0, 48(%rsp)
	movdqa	%xmm1, 64(%rsp)
	movaps	%xmm2, 80(%rsp)
	movaps	%xmm3, 96(%rsp)
	movaps	368(%rsp), %xmm0
	movaps	%xmm0, 112(%rsp)
	movaps	384(%rsp), %xmm0
	movaps	%xmm0, 128(%rsp)
	movaps	400(%rsp), %xmm0
	movaps	%xmm0, 144(%rsp)
	movdqa	416(%rsp), %xmm0
	movdqa	%xmm0, 160(%rsp)
.LBB8_2:
	movaps	160(%rsp), %xmm0
	movups	%xmm0, 112(%rsi)
	movaps	144(%rsp), %xmm0
	movups	%xmm0, 96(%rsi)
	movaps	128(%rsp), %xmm0
	movups	%xmm0, 80(%rsi)
	movaps	112(%rsp), %xmm0
	movups	%xmm0, 64(%rsi)
	movaps	48(%rsp), %xmm0
	movaps	64(%rsp), %xmm1
	movaps	80(%rsp), %xmm2
	movaps	96(%rsp), %xmm3
	movups	%xmm3, 48(%rsi)
	movups	%xmm2, 32(%rsi)
	movups	%xmm1, 16(%rsi)
	movups	%xmm0, (%rsi)
	movaps	768(%rsp), %xmm6
	movaps	784(%rsp), %xmm7
	movaps	800(%rsp), %xmm8
	movaps	816(%rsp), %xmm9
	movaps	832(%rsp), %xmm10
	movaps	848(%rsp), %xmm11
	movaps	864(%rsp), %xmm12
	movaps	880(%rsp), %xmm13
	movaps	896(%rsp), %xmm14
	movaps	912(%rsp), %xmm15
	addq	$928, %rsp
	popq	%rbx
	popq	%rdi
	popq	%rsi
	popq	%r12
	popq	%r13
	popq	%r14
	popq	%r15
	retq
	.seh_endproc

	.section	.rdata,"dr"
	.p2align	4, 0x0
.LCPI9_0:
	.byte	2
	.byte	3
	.byte	0
	.byte	1
	.byte	6
	.byte	7
	.byte	4
	.byte	5
	.byte	10
	.byte	11
	.byte	8
	.byte	9
	.byte	14
	.byte	15
	.byte	12
	.byte	13
.LCPI9_1:
	.long	1779033703
	.long	1779033703
	.long	1779033703
	.long	1779033703
.LCPI9_2:
	.long	3144134277
	.long	3144134277
	.long	3144134277
	.long	3144134277
.LCPI9_3:
	.long	1013904242
	.long	1013904242
	.long	1013904242
	.long	1013904242
.LCPI9_4:
	.long	2773480762
	.long	2773480762
	.long	2773480762
	.long	2773480762
.LCPI9_5:
	.byte	1
	.byte	2
	.byte	3
	.byte	0
	.byte	5
	.byte	6
	.byte	7
	.byte	4
	.byte	9
	.byte	10
	.byte	11
	.byte	8
	.byte	13
	.byte	14
	.byte	15
	.byte	12
	.section	.text
	.p2align	4
	.def	"keyed_blake3::compression::lanes::take_in_each::<#8b36ca032ac25711>";
	.scl	3;
	.type	32;
	.endef
"keyed_blake3::compression::lanes::take_in_each::<#8b36ca032ac25711>":
.seh_proc "keyed_blake3::compression::lanes::take_in_each::<#8b36ca032ac25711>"
	subq	$456, %rsp
	.seh_stackalloc 456
	movaps	%xmm15, 432(%rsp)
	.seh_savexmm %xmm15, 432
	movaps	%xmm14, 416(%rsp)
	.seh_savexmm %xmm14, 416
	movaps	%xmm13, 400(%rsp)
	.seh_savexmm %xmm13, 400
	movaps	%xmm12, 384(%rsp)
	.seh_savexmm %xmm12, 384
	movaps	%xmm11, 368(%rsp)
	.seh_savexmm %xmm11, 368
	movaps	%xmm10, 352(%rsp)
	.seh_savexmm %xmm10, 352
	movaps	%xmm9, 336(%rsp)
	.seh_savexmm %xmm9, 336
	movaps	%xmm8, 320(%rsp)
	.seh_savexmm %xmm8, 320
	movaps	%xmm7, 304(%rsp)
	.seh_savexmm %xmm7, 304
	movaps	%xmm6, 288(%rsp)
	.seh_savexmm %xmm6, 288
	.seh_endprologue
	movdqu	(%rcx), %xmm6
	movdqu	16(%rcx), %xmm8
	movdqu	32(%rcx), %xmm5
	movdqu	64(%rcx), %xmm3
	movdqu	80(%rcx), %xmm4
	movdqu	96(%rcx), %xmm2
	movdqu	(%r8), %xmm10
	movdqu	64(%rdx), %xmm0
	movdqa	%xmm0, 272(%rsp)
	paddd	%xmm3, %xmm6
	movdqu	(%rdx), %xmm7
	movdqa	%xmm7, 240(%rsp)
	movdqu	32(%rdx), %xmm1
	movdqa	%xmm1, 256(%rsp)
	paddd	%xmm7, %xmm6
	paddd	%xmm4, %xmm8
	paddd	%xmm1, %xmm8
	paddd	%xmm2, %xmm5
	paddd	%xmm0, %xmm5
	movdqa	.LCPI9_0(%rip), %xmm0
	movdqa	%xmm6, %xmm7
	pshufb	%xmm0, %xmm7
	movdqa	%xmm8, %xmm9
	pshufb	%xmm0, %xmm9
	pxor	%xmm5, %xmm10
	pshufb	%xmm0, %xmm10
	movdqa	.LCPI9_1(%rip), %xmm13
	paddd	%xmm7, %xmm13
	movdqa	.LCPI9_2(%rip), %xmm0
	paddd	%xmm9, %xmm0
	movdqa	%xmm0, 16(%rsp)
	pxor	%xmm13, %xmm3
	pxor	%xmm0, %xmm4
	movdqa	%xmm3, %xmm11
	psrld	$12, %xmm11
	pslld	$20, %xmm3
	por	%xmm11, %xmm3
	movdqa	%xmm4, %xmm11
	psrld	$12, %xmm11
	pslld	$20, %xmm4
	por	%xmm11, %xmm4
	movdqa	.LCPI9_3(%rip), %xmm0
	paddd	%xmm10, %xmm0
	movdqa	%xmm0, 32(%rsp)
	pxor	%xmm0, %xmm2
	movdqa	%xmm2, %xmm12
	psrld	$12, %xmm12
	pslld	$20, %xmm2
	por	%xmm12, %xmm2
	movdqu	48(%rcx), %xmm15
	movdqu	112(%rcx), %xmm1
	paddd	%xmm1, %xmm15
	movdqu	96(%rdx), %xmm12
	movdqa	%xmm12, 192(%rsp)
	paddd	%xmm12, %xmm15
	movdqu	(%r9), %xmm14
	pxor	%xmm15, %xmm14
	pshufb	.LCPI9_0(%rip), %xmm14
	movdqa	.LCPI9_4(%rip), %xmm11
	paddd	%xmm14, %xmm11
	pxor	%xmm11, %xmm1
	movdqa	%xmm1, %xmm12
	psrld	$12, %xmm12
	pslld	$20, %xmm1
	por	%xmm12, %xmm1
	movdqu	16(%rdx), %xmm12
	movdqa	%xmm12, 128(%rsp)
	paddd	%xmm12, %xmm6
	paddd	%xmm3, %xmm6
	movdqa	.LCPI9_5(%rip), %xmm0
	movdqa	%xmm6, %xmm12
	pshufb	%xmm0, %xmm12
	pshufb	%xmm0, %xmm7
	pxor	%xmm12, %xmm7
	movdqu	48(%rdx), %xmm12
	movdqa	%xmm12, 224(%rsp)
	paddd	%xmm12, %xmm8
	paddd	%xmm4, %xmm8
	movdqa	%xmm8, %xmm12
	pshufb	%xmm0, %xmm12
	pshufb	%xmm0, %xmm9
	pxor	%xmm12, %xmm9
	movdqu	80(%rdx), %xmm12
	movdqa	%xmm12, 112(%rsp)
	paddd	%xmm12, %xmm5
	paddd	%xmm2, %xmm5
	movdqa	%xmm5, %xmm12
	pshufb	%xmm0, %xmm12
	pshufb	%xmm0, %xmm10
	pxor	%xmm12, %xmm10
	movdqu	112(%rdx), %xmm12
	movdqa	%xmm12, 208(%rsp)
	paddd	%xmm12, %xmm15
	paddd	%xmm1, %xmm15
	movdqa	%xmm15, %xmm12
	pshufb	%xmm0, %xmm12
	pshufb	%xmm0, %xmm14
	pxor	%xmm12, %xmm14
	paddd	%xmm7, %xmm13
	movdqa	%xmm13, (%rsp)
	pxor	%xmm13, %xmm3
	movdqa	%xmm3, %xmm12
	psrld	$7, %xmm12
	pslld	$25, %xmm3
	por	%xmm12, %xmm3
	movdqa	16(%rsp), %xmm0
	paddd	%xmm9, %xmm0
	movdqa	%xmm0, 16(%rsp)
	pxor	%xmm0, %xmm4
	movdqa	%xmm4, %xmm12
	psrld	$7, %xmm12
	pslld	$25, %xmm4
	por	%xmm12, %xmm4
	movdqa	32(%rsp), %xmm13
	paddd	%xmm10, %xmm13
	pxor	%xmm13, %xmm2
	movdqa	%xmm2, %xmm12
	psrld	$7, %xmm12
	pslld	$25, %xmm2
	por	%xmm12, %xmm2
	paddd	%xmm14, %xmm11
	pxor	%xmm11, %xmm1
	movdqa	%xmm1, %xmm12
	psrld	$7, %xmm12
	pslld	$25, %xmm1
	por	%xmm12, %xmm1
	movdqu	224(%rdx), %xmm12
	movdqa	%xmm12, 160(%rsp)
	paddd	%xmm12, %xmm15
	paddd	%xmm3, %xmm15
	pxor	%xmm15, %xmm10
	movdqa	.LCPI9_0(%rip), %xmm0
	pshufb	%xmm0, %xmm10
	movdqa	16(%rsp), %xmm12
	paddd	%xmm10, %xmm12
	movdqa	%xmm12, 16(%rsp)
	pxor	%xmm12, %xmm3
	movdqa	%xmm3, %xmm12
	psrld	$12, %xmm12
	pslld	$20, %xmm3
	por	%xmm12, %xmm3
	movdqu	128(%rdx), %xmm12
	movdqa	%xmm12, 48(%rsp)
	paddd	%xmm12, %xmm6
	paddd	%xmm4, %xmm6
	pxor	%xmm6, %xmm14
	pshufb	%xmm0, %xmm14
	paddd	%xmm14, %xmm13
	pxor	%xmm13, %xmm4
	movdqa	%xmm4, %xmm12
	psrld	$12, %xmm12
	pslld	$20, %xmm4
	por	%xmm12, %xmm4
	movdqu	160(%rdx), %xmm12
	movdqa	%xmm12, 32(%rsp)
	paddd	%xmm12, %xmm8
	paddd	%xmm2, %xmm8
	pxor	%xmm8, %xmm7
	pshufb	%xmm0, %xmm7
	paddd	%xmm7, %xmm11
	pxor	%xmm11, %xmm2
	movdqa	%xmm2, %xmm12
	psrld	$12, %xmm12
	pslld	$20, %xmm2
	por	%xmm12, %xmm2
	movdqu	192(%rdx), %xmm12
	movdqa	%xmm12, 176(%rsp)
	paddd	%xmm12, %xmm5
	paddd	%xmm1, %xmm5
	pxor	%xmm5, %xmm9
	pshufb	%xmm0, %xmm9
	movdqa	(%rsp), %xmm0
	paddd	%xmm9, %xmm0
	movdqa	%xmm0, (%rsp)
	pxor	%xmm0, %xmm1
	movdqa	%xmm1, %xmm12
	psrld	$12, %xmm12
	pslld	$20, %xmm1
	por	%xmm12, %xmm1
	movdqu	240(%rdx), %xmm0
	movdqa	%xmm0, 80(%rsp)
	paddd	%xmm0, %xmm15
	paddd	%xmm3, %xmm15
	movdqa	%xmm15, %xmm12
	movdqa	.LCPI9_5(%rip), %xmm0
	pshufb	%xmm0, %xmm12
	pshufb	%xmm0, %xmm10
	pxor	%xmm12, %xmm10
	movdqu	144(%rdx), %xmm12
	movdqa	%xmm12, 96(%rsp)
	paddd	%xmm12, %xmm6
	paddd	%xmm4, %xmm6
	movdqa	%xmm6, %xmm12
	pshufb	%xmm0, %xmm12
	pshufb	%xmm0, %xmm14
	pxor	%xmm12, %xmm14
	movdqu	176(%rdx), %xmm12
	movdqa	%xmm12, 64(%rsp)
	paddd	%xmm12, %xmm8
	paddd	%xmm2, %xmm8
	movdqa	%xmm8, %xmm12
	pshufb	%xmm0, %xmm12
	pshufb	%xmm0, %xmm7
	pxor	%xmm12, %xmm7
	movdqu	208(%rdx), %xmm12
	movdqa	%xmm12, 144(%rsp)
	paddd	%xmm12, %xmm5
	paddd	%xmm1, %xmm5
	movdqa	%xmm5, %xmm12
	pshufb	%xmm0, %xmm12
	pshufb	%xmm0, %xmm9
	pxor	%xmm12, %xmm9
	movdqa	16(%rsp), %xmm0
	paddd	%xmm10, %xmm0
	movdqa	%xmm0, 16(%rsp)
	pxor	%xmm0, %xmm3
	movdqa	%xmm3, %xmm12
	psrld	$7, %xmm12
	pslld	$25, %xmm3
	por	%xmm12, %xmm3
	paddd	%xmm14, %xmm13
	pxor	%xmm13, %xmm4
	movdqa	%xmm4, %xmm12
	psrld	$7, %xmm12
	pslld	$25, %xmm4
	por	%xmm12, %xmm4
	paddd	%xmm7, %xmm11
	pxor	%xmm11, %xmm2
	movdqa	%xmm2, %xmm12
	psrld	$7, %xmm12
	pslld	$25, %xmm2
	por	%xmm12, %xmm2
	movdqa	(%rsp), %xmm0
	paddd	%xmm9, %xmm0
	movdqa	%xmm0, (%rsp)
	pxor	%xmm0, %xmm1
	movdqa	%xmm1, %xmm12
	psrld	$7, %xmm12
	pslld	$25, %xmm1
	por	%xmm12, %xmm1
	paddd	256(%rsp), %xmm6
	paddd	%xmm3, %xmm6
	pxor	%xmm6, %xmm7
	movdqa	.LCPI9_0(%rip), %xmm0
	pshufb	%xmm0, %xmm7
	movdqa	(%rsp), %xmm12
	paddd	%xmm7, %xmm12
	movdqa	%xmm12, (%rsp)
	pxor	%xmm12, %xmm3
	movdqa	%xmm3, %xmm12
	psrld	$12, %xmm12
	pslld	$20, %xmm3
	por	%xmm12, %xmm3
	paddd	224(%rsp), %xmm8
	paddd	%xmm4, %xmm8
	pxor	%xmm8, %xmm9
	pshufb	%xmm0, %xmm9
	movdqa	16(%rsp), %xmm12
	paddd	%xmm9, %xmm12
	movdqa	%xmm12, 16(%rsp)
	pxor	%xmm12, %xmm4
	movdqa	%xmm4, %xmm12
	psrld	$12, %xmm12
	pslld	$20, %xmm4
	por	%xmm12, %xmm4
	paddd	208(%rsp), %xmm5
	paddd	%xmm2, %xmm5
	pxor	%xmm5, %xmm10
	pshufb	%xmm0, %xmm10
	paddd	%xmm10, %xmm13
	pxor	%xmm13, %xmm2
	movdqa	%xmm2, %xmm12
	psrld	$12, %xmm12
	pslld	$20, %xmm2
	por	%xmm12, %xmm2
	paddd	272(%rsp), %xmm15
	paddd	%xmm1, %xmm15
	pxor	%xmm15, %xmm14
	pshufb	%xmm0, %xmm14
	paddd	%xmm14, %xmm11
	pxor	%xmm11, %xmm1
	movdqa	%xmm1, %xmm12
	psrld	$12, %xmm12
	pslld	$20, %xmm1
	por	%xmm12, %xmm1
	paddd	192(%rsp), %xmm6
	paddd	%xmm3, %xmm6
	movdqa	%xmm6, %xmm12
	movdqa	.LCPI9_5(%rip), %xmm0
	pshufb	%xmm0, %xmm12
	pshufb	%xmm0, %xmm7
	pxor	%xmm12, %xmm7
	paddd	32(%rsp), %xmm8
	paddd	%xmm4, %xmm8
	movdqa	%xmm8, %xmm12
	pshufb	%xmm0, %xmm12
	pshufb	%xmm0, %xmm9
	pxor	%xmm12, %xmm9
	paddd	240(%rsp), %xmm5
	paddd	%xmm2, %xmm5
	movdqa	%xmm5, %xmm12
	pshufb	%xmm0, %xmm12
	pshufb	%xmm0, %xmm10
	pxor	%xmm12, %xmm10
	paddd	144(%rsp), %xmm15
	paddd	%xmm1, %xmm15
	movdqa	%xmm15, %xmm12
	pshufb	%xmm0, %xmm12
	pshufb	%xmm0, %xmm14
	pxor	%xmm12, %xmm14
	movdqa	(%rsp), %xmm0
	paddd	%xmm7, %xmm0
	movdqa	%xmm0, (%rsp)
	pxor	%xmm0, %xmm3
	movdqa	%xmm3, %xmm12
	psrld	$7, %xmm12
	pslld	$25, %xmm3
	por	%xmm12, %xmm3
	movdqa	16(%rsp), %xmm0
	paddd	%xmm9, %xmm0
	movdqa	%xmm0, 16(%rsp)
	pxor	%xmm0, %xmm4
	movdqa	%xmm4, %xmm12
	psrld	$7, %xmm12
	pslld	$25, %xmm4
	por	%xmm12, %xmm4
	paddd	%xmm10, %xmm13
	pxor	%xmm13, %xmm2
	movdqa	%xmm2, %xmm12
	psrld	$7, %xmm12
	pslld	$25, %xmm2
	por	%xmm12, %xmm2
	paddd	%xmm14, %xmm11
	pxor	%xmm11, %xmm1
	movdqa	%xmm1, %xmm12
	psrld	$7, %xmm12
	pslld	$25, %xmm1
	por	%xmm12, %xmm1
	paddd	80(%rsp), %xmm15
	paddd	%xmm3, %xmm15
	pxor	%xmm15, %xmm10
	movdqa	.LCPI9_0(%rip), %xmm0
	pshufb	%xmm0, %xmm10
	movdqa	16(%rsp), %xmm12
	paddd	%xmm10, %xmm12
	movdqa	%xmm12, 16(%rsp)
	pxor	%xmm12, %xmm3
	movdqa	%xmm3, %xmm12
	psrld	$12, %xmm12
	pslld	$20, %xmm3
	por	%xmm12, %xmm3
	paddd	128(%rsp), %xmm6
	paddd	%xmm4, %xmm6
	pxor	%xmm6, %xmm14
	pshufb	%xmm0, %xmm14
	paddd	%xmm14, %xmm13
	pxor	%xmm13, %xmm4
	movdqa	%xmm4, %xmm12
	psrld	$12, %xmm12
	pslld	$20, %xmm4
	por	%xmm12, %xmm4
	paddd	176(%rsp), %xmm8
	paddd	%xmm2, %xmm8
	pxor	%xmm8, %xmm7
	pshufb	%xmm0, %xmm7
	paddd	%xmm7, %xmm11
	pxor	%xmm11, %xmm2
	movdqa	%xmm2, %xmm12
	psrld	$12, %xmm12
	pslld	$20, %xmm2
	por	%xmm12, %xmm2
	paddd	96(%rsp), %xmm5
	paddd	%xmm1, %xmm5
	pxor	%xmm5, %xmm9
	pshufb	%xmm0, %xmm9
	movdqa	(%rsp), %xmm0
	paddd	%xmm9, %xmm0
	movdqa	%xmm0, (%rsp)
	pxor	%xmm0, %xmm1
	movdqa	%xmm1, %xmm12
	psrld	$12, %xmm12
	pslld	$20, %xmm1
	por	%xmm12, %xmm1
	paddd	48(%rsp), %xmm15
	paddd	%xmm3, %xmm15
	movdqa	%xmm15, %xmm12
	movdqa	.LCPI9_5(%rip), %xmm0
	pshufb	%xmm0, %xmm12
	pshufb	%xmm0, %xmm10
	pxor	%xmm12, %xmm10
	paddd	64(%rsp), %xmm6
	paddd	%xmm4, %xmm6
	movdqa	%xmm6, %xmm12
	pshufb	%xmm0, %xmm12
	pshufb	%xmm0, %xmm14
	pxor	%xmm12, %xmm14
	paddd	112(%rsp), %xmm8
	paddd	%xmm2, %xmm8
	movdqa	%xmm8, %xmm12
	pshufb	%xmm0, %xmm12
	pshufb	%xmm0, %xmm7
	pxor	%xmm12, %xmm7
	paddd	160(%rsp), %xmm5
	paddd	%xmm1, %xmm5
	movdqa	%xmm5, %xmm12
	pshufb	%xmm0, %xmm12
	pshufb	%xmm0, %xmm9
	pxor	%xmm12, %xmm9
	movdqa	16(%rsp), %xmm0
	paddd	%xmm10, %xmm0
	movdqa	%xmm0, 16(%rsp)
	pxor	%xmm0, %xmm3
	movdqa	%xmm3, %xmm12
	psrld	$7, %xmm12
	pslld	$25, %xmm3
	por	%xmm12, %xmm3
	paddd	%xmm14, %xmm13
	pxor	%xmm13, %xmm4
	movdqa	%xmm4, %xmm12
	psrld	$7, %xmm12
	pslld	$25, %xmm4
	por	%xmm12, %xmm4
	paddd	%xmm7, %xmm11
	pxor	%xmm11, %xmm2
	movdqa	%xmm2, %xmm12
	psrld	$7, %xmm12
	pslld	$25, %xmm2
	por	%xmm12, %xmm2
	movdqa	(%rsp), %xmm0
	paddd	%xmm9, %xmm0
	movdqa	%xmm0, (%rsp)
	pxor	%xmm0, %xmm1
	movdqa	%xmm1, %xmm12
	psrld	$7, %xmm12
	pslld	$25, %xmm1
	por	%xmm12, %xmm1
	paddd	224(%rsp), %xmm6
	paddd	%xmm3, %xmm6
	pxor	%xmm6, %xmm7
	movdqa	.LCPI9_0(%rip), %xmm0
	pshufb	%xmm0, %xmm7
	movdqa	(%rsp), %xmm12
	paddd	%xmm7, %xmm12
	movdqa	%xmm12, (%rsp)
	pxor	%xmm12, %xmm3
	movdqa	%xmm3, %xmm12
	psrld	$12, %xmm12
	pslld	$20, %xmm3
	por	%xmm12, %xmm3
	paddd	32(%rsp), %xmm8
	paddd	%xmm4, %xmm8
	pxor	%xmm8, %xmm9
	pshufb	%xmm0, %xmm9
	movdqa	16(%rsp), %xmm12
	paddd	%xmm9, %xmm12
	movdqa	%xmm12, 16(%rsp)
	pxor	%xmm12, %xmm4
	movdqa	%xmm4, %xmm12
	psrld	$12, %xmm12
	pslld	$20, %xmm4
	por	%xmm12, %xmm4
	paddd	144(%rsp), %xmm5
	paddd	%xmm2, %xmm5
	pxor	%xmm5, %xmm10
	pshufb	%xmm0, %xmm10
	paddd	%xmm10, %xmm13
	pxor	%xmm13, %xmm2
	movdqa	%xmm2, %xmm12
	psrld	$12, %xmm12
	pslld	$20, %xmm2
	por	%xmm12, %xmm2
	paddd	208(%rsp), %xmm15
	paddd	%xmm1, %xmm15
	pxor	%xmm15, %xmm14
	pshufb	%xmm0, %xmm14
	paddd	%xmm14, %xmm11
	pxor	%xmm11, %xmm1
	movdqa	%xmm1, %xmm12
	psrld	$12, %xmm12
	pslld	$20, %xmm1
	por	%xmm12, %xmm1
	paddd	272(%rsp), %xmm6
	paddd	%xmm3, %xmm6
	movdqa	%xmm6, %xmm12
	movdqa	.LCPI9_5(%rip), %xmm0
	pshufb	%xmm0, %xmm12
	pshufb	%xmm0, %xmm7
	pxor	%xmm12, %xmm7
	paddd	176(%rsp), %xmm8
	paddd	%xmm4, %xmm8
	movdqa	%xmm8, %xmm12
	pshufb	%xmm0, %xmm12
	pshufb	%xmm0, %xmm9
	pxor	%xmm12, %xmm9
	paddd	256(%rsp), %xmm5
	paddd	%xmm2, %xmm5
	movdqa	%xmm5, %xmm12
	pshufb	%xmm0, %xmm12
	pshufb	%xmm0, %xmm10
	pxor	%xmm12, %xmm10
	paddd	160(%rsp), %xmm15
	paddd	%xmm1, %xmm15
	movdqa	%xmm15, %xmm12
	pshufb	%xmm0, %xmm12
	pshufb	%xmm0, %xmm14
	pxor	%xmm12, %xmm14
	movdqa	(%rsp), %xmm0
	paddd	%xmm7, %xmm0
	movdqa	%xmm0, (%rsp)
	pxor	%xmm0, %xmm3
	movdqa	%xmm3, %xmm12
	psrld	$7, %xmm12
	pslld	$25, %xmm3
	por	%xmm12, %xmm3
	movdqa	16(%rsp), %xmm0
	paddd	%xmm9, %xmm0
	movdqa	%xmm0, 16(%rsp)
	pxor	%xmm0, %xmm4
	movdqa	%xmm4, %xmm12
	psrld	$7, %xmm12
	pslld	$25, %xmm4
	por	%xmm12, %xmm4
	paddd	%xmm10, %xmm13
	pxor	%xmm13, %xmm2
	movdqa	%xmm2, %xmm12
	psrld	$7, %xmm12
	pslld	$25, %xmm2
	por	%xmm12, %xmm2
	paddd	%xmm14, %xmm11
	pxor	%xmm11, %xmm1
	movdqa	%xmm1, %xmm12
	psrld	$7, %xmm12
	pslld	$25, %xmm1
	por	%xmm12, %xmm1
	paddd	48(%rsp), %xmm15
	paddd	%xmm3, %xmm15
	pxor	%xmm15, %xmm10
	movdqa	.LCPI9_0(%rip), %xmm0
	pshufb	%xmm0, %xmm10
	movdqa	16(%rsp), %xmm12
	paddd	%xmm10, %xmm12
	movdqa	%xmm12, 16(%rsp)
	pxor	%xmm12, %xmm3
	movdqa	%xmm3, %xmm12
	psrld	$12, %xmm12
	pslld	$20, %xmm3
	por	%xmm12, %xmm3
	paddd	192(%rsp), %xmm6
	paddd	%xmm4, %xmm6
	pxor	%xmm6, %xmm14
	pshufb	%xmm0, %xmm14
	paddd	%xmm14, %xmm13
	pxor	%xmm13, %xmm4
	movdqa	%xmm4, %xmm12
	psrld	$12, %xmm12
	pslld	$20, %xmm4
	por	%xmm12, %xmm4
	paddd	96(%rsp), %xmm8
	paddd	%xmm2, %xmm8
	pxor	%xmm8, %xmm7
	pshufb	%xmm0, %xmm7
	paddd	%xmm7, %xmm11
	pxor	%xmm11, %xmm2
	movdqa	%xmm2, %xmm12
	psrld	$12, %xmm12
	pslld	$20, %xmm2
	por	%xmm12, %xmm2
	paddd	64(%rsp), %xmm5
	paddd	%xmm1, %xmm5
	pxor	%xmm5, %xmm9
	pshufb	%xmm0, %xmm9
	movdqa	(%rsp), %xmm0
	paddd	%xmm9, %xmm0
	movdqa	%xmm0, (%rsp)
	pxor	%xmm0, %xmm1
	movdqa	%xmm1, %xmm12
	psrld	$12, %xmm12
	pslld	$20, %xmm1
	por	%xmm12, %xmm1
	paddd	128(%rsp), %xmm15
	paddd	%xmm3, %xmm15
	movdqa	%xmm15, %xmm12
	movdqa	.LCPI9_5(%rip), %xmm0
	pshufb	%xmm0, %xmm12
	pshufb	%xmm0, %xmm10
	pxor	%xmm12, %xmm10
	paddd	112(%rsp), %xmm6
	paddd	%xmm4, %xmm6
	movdqa	%xmm6, %xmm12
	pshufb	%xmm0, %xmm12
	pshufb	%xmm0, %xmm14
	pxor	%xmm12, %xmm14
	paddd	240(%rsp), %xmm8
	paddd	%xmm2, %xmm8
	movdqa	%xmm8, %xmm12
	pshufb	%xmm0, %xmm12
	pshufb	%xmm0, %xmm7
	pxor	%xmm12, %xmm7
	paddd	80(%rsp), %xmm5
	paddd	%xmm1, %xmm5
	movdqa	%xmm5, %xmm12
	pshufb	%xmm0, %xmm12
	pshufb	%xmm0, %xmm9
	pxor	%xmm12, %xmm9
	movdqa	16(%rsp), %xmm0
	paddd	%xmm10, %xmm0
	movdqa	%xmm0, 16(%rsp)
	pxor	%xmm0, %xmm3
	movdqa	%xmm3, %xmm12
	psrld	$7, %xmm12
	pslld	$25, %xmm3
	por	%xmm12, %xmm3
	paddd	%xmm14, %xmm13
	pxor	%xmm13, %xmm4
	movdqa	%xmm4, %xmm12
	psrld	$7, %xmm12
	pslld	$25, %xmm4
	por	%xmm12, %xmm4
	paddd	%xmm7, %xmm11
	pxor	%xmm11, %xmm2
	movdqa	%xmm2, %xmm12
	psrld	$7, %xmm12
	pslld	$25, %xmm2
	por	%xmm12, %xmm2
	movdqa	(%rsp), %xmm0
	paddd	%xmm9, %xmm0
	movdqa	%xmm0, (%rsp)
	pxor	%xmm0, %xmm1
	movdqa	%xmm1, %xmm12
	psrld	$7, %xmm12
	pslld	$25, %xmm1
	por	%xmm12, %xmm1
	paddd	32(%rsp), %xmm6
	paddd	%xmm3, %xmm6
	pxor	%xmm6, %xmm7
	movdqa	.LCPI9_0(%rip), %xmm0
	pshufb	%xmm0, %xmm7
	movdqa	(%rsp), %xmm12
	paddd	%xmm7, %xmm12
	movdqa	%xmm12, (%rsp)
	pxor	%xmm12, %xmm3
	movdqa	%xmm3, %xmm12
	psrld	$12, %xmm12
	pslld	$20, %xmm3
	por	%xmm12, %xmm3
	paddd	176(%rsp), %xmm8
	paddd	%xmm4, %xmm8
	pxor	%xmm8, %xmm9
	pshufb	%xmm0, %xmm9
	movdqa	16(%rsp), %xmm12
	paddd	%xmm9, %xmm12
	movdqa	%xmm12, 16(%rsp)
	pxor	%xmm12, %xmm4
	movdqa	%xmm4, %xmm12
	psrld	$12, %xmm12
	pslld	$20, %xmm4
	por	%xmm12, %xmm4
	paddd	160(%rsp), %xmm5
	paddd	%xmm2, %xmm5
	pxor	%xmm5, %xmm10
	pshufb	%xmm0, %xmm10
	paddd	%xmm10, %xmm13
	pxor	%xmm13, %xmm2
	movdqa	%xmm2, %xmm12
	psrld	$12, %xmm12
	pslld	$20, %xmm2
	por	%xmm12, %xmm2
	paddd	144(%rsp), %xmm15
	paddd	%xmm1, %xmm15
	pxor	%xmm15, %xmm14
	pshufb	%xmm0, %xmm14
	paddd	%xmm14, %xmm11
	pxor	%xmm11, %xmm1
	movdqa	%xmm1, %xmm12
	psrld	$12, %xmm12
	pslld	$20, %xmm1
	por	%xmm12, %xmm1
	paddd	208(%rsp), %xmm6
	paddd	%xmm3, %xmm6
	movdqa	%xmm6, %xmm12
	movdqa	.LCPI9_5(%rip), %xmm0
	pshufb	%xmm0, %xmm12
	pshufb	%xmm0, %xmm7
	pxor	%xmm12, %xmm7
	paddd	96(%rsp), %xmm8
	paddd	%xmm4, %xmm8
	movdqa	%xmm8, %xmm12
	pshufb	%xmm0, %xmm12
	pshufb	%xmm0, %xmm9
	pxor	%xmm12, %xmm9
	paddd	224(%rsp), %xmm5
	paddd	%xmm2, %xmm5
	movdqa	%xmm5, %xmm12
	pshufb	%xmm0, %xmm12
	pshufb	%xmm0, %xmm10
	pxor	%xmm12, %xmm10
	paddd	80(%rsp), %xmm15
	paddd	%xmm1, %xmm15
	movdqa	%xmm15, %xmm12
	pshufb	%xmm0, %xmm12
	pshufb	%xmm0, %xmm14
	pxor	%xmm12, %xmm14
	movdqa	(%rsp), %xmm0
	paddd	%xmm7, %xmm0
	movdqa	%xmm0, (%rsp)
	pxor	%xmm0, %xmm3
	movdqa	%xmm3, %xmm12
	psrld	$7, %xmm12
	pslld	$25, %xmm3
	por	%xmm12, %xmm3
	movdqa	16(%rsp), %xmm0
	paddd	%xmm9, %xmm0
	movdqa	%xmm0, 16(%rsp)
	pxor	%xmm0, %xmm4
	movdqa	%xmm4, %xmm12
	psrld	$7, %xmm12
	pslld	$25, %xmm4
	por	%xmm12, %xmm4
	paddd	%xmm10, %xmm13
	pxor	%xmm13, %xmm2
	movdqa	%xmm2, %xmm12
	psrld	$7, %xmm12
	pslld	$25, %xmm2
	por	%xmm12, %xmm2
	paddd	%xmm14, %xmm11
	pxor	%xmm11, %xmm1
	movdqa	%xmm1, %xmm12
	psrld	$7, %xmm12
	pslld	$25, %xmm1
	por	%xmm12, %xmm1
	paddd	128(%rsp), %xmm15
	paddd	%xmm3, %xmm15
	pxor	%xmm15, %xmm10
	movdqa	.LCPI9_0(%rip), %xmm0
	pshufb	%xmm0, %xmm10
	movdqa	16(%rsp), %xmm12
	paddd	%xmm10, %xmm12
	movdqa	%xmm12, 16(%rsp)
	pxor	%xmm12, %xmm3
	movdqa	%xmm3, %xmm12
	psrld	$12, %xmm12
	pslld	$20, %xmm3
	por	%xmm12, %xmm3
	paddd	272(%rsp), %xmm6
	paddd	%xmm4, %xmm6
	pxor	%xmm6, %xmm14
	pshufb	%xmm0, %xmm14
	paddd	%xmm14, %xmm13
	pxor	%xmm13, %xmm4
	movdqa	%xmm4, %xmm12
	psrld	$12, %xmm12
	pslld	$20, %xmm4
	por	%xmm12, %xmm4
	paddd	64(%rsp), %xmm8
	paddd	%xmm2, %xmm8
	pxor	%xmm8, %xmm7
	pshufb	%xmm0, %xmm7
	paddd	%xmm7, %xmm11
	pxor	%xmm11, %xmm2
	movdqa	%xmm2, %xmm12
	psrld	$12, %xmm12
	pslld	$20, %xmm2
	por	%xmm12, %xmm2
	paddd	112(%rsp), %xmm5
	paddd	%xmm1, %xmm5
	pxor	%xmm5, %xmm9
	pshufb	%xmm0, %xmm9
	movdqa	(%rsp), %xmm0
	paddd	%xmm9, %xmm0
	movdqa	%xmm0, (%rsp)
	pxor	%xmm0, %xmm1
	movdqa	%xmm1, %xmm12
	psrld	$12, %xmm12
	pslld	$20, %xmm1
	por	%xmm12, %xmm1
	paddd	192(%rsp), %xmm15
	paddd	%xmm3, %xmm15
	movdqa	%xmm15, %xmm12
	movdqa	.LCPI9_5(%rip), %xmm0
	pshufb	%xmm0, %xmm12
	pshufb	%xmm0, %xmm10
	pxor	%xmm12, %xmm10
	paddd	240(%rsp), %xmm6
	paddd	%xmm4, %xmm6
	movdqa	%xmm6, %xmm12
	pshufb	%xmm0, %xmm12
	pshufb	%xmm0, %xmm14
	pxor	%xmm12, %xmm14
	paddd	256(%rsp), %xmm8
	paddd	%xmm2, %xmm8
	movdqa	%xmm8, %xmm12
	pshufb	%xmm0, %xmm12
	pshufb	%xmm0, %xmm7
	pxor	%xmm12, %xmm7
	paddd	48(%rsp), %xmm5
	paddd	%xmm1, %xmm5
	movdqa	%xmm5, %xmm12
	pshufb	%xmm0, %xmm12
	pshufb	%xmm0, %xmm9
	pxor	%xmm12, %xmm9
	movdqa	16(%rsp), %xmm0
	paddd	%xmm10, %xmm0
	movdqa	%xmm0, 16(%rsp)
	pxor	%xmm0, %xmm3
	movdqa	%xmm3, %xmm12
	psrld	$7, %xmm12
	pslld	$25, %xmm3
	por	%xmm12, %xmm3
	paddd	%xmm14, %xmm13
	pxor	%xmm13, %xmm4
	movdqa	%xmm4, %xmm12
	psrld	$7, %xmm12
	pslld	$25, %xmm4
	por	%xmm12, %xmm4
	paddd	%xmm7, %xmm11
	pxor	%xmm11, %xmm2
	movdqa	%xmm2, %xmm12
	psrld	$7, %xmm12
	pslld	$25, %xmm2
	por	%xmm12, %xmm2
	movdqa	(%rsp), %xmm0
	paddd	%xmm9, %xmm0
	movdqa	%xmm0, (%rsp)
	pxor	%xmm0, %xmm1
	movdqa	%xmm1, %xmm12
	psrld	$7, %xmm12
	pslld	$25, %xmm1
	por	%xmm12, %xmm1
	paddd	176(%rsp), %xmm6
	paddd	%xmm3, %xmm6
	pxor	%xmm6, %xmm7
	movdqa	.LCPI9_0(%rip), %xmm0
	pshufb	%xmm0, %xmm7
	movdqa	(%rsp), %xmm12
	paddd	%xmm7, %xmm12
	movdqa	%xmm12, (%rsp)
	pxor	%xmm12, %xmm3
	movdqa	%xmm3, %xmm12
	psrld	$12, %xmm12
	pslld	$20, %xmm3
	por	%xmm12, %xmm3
	paddd	96(%rsp), %xmm8
	paddd	%xmm4, %xmm8
	pxor	%xmm8, %xmm9
	pshufb	%xmm0, %xmm9
	movdqa	16(%rsp), %xmm12
	paddd	%xmm9, %xmm12
	movdqa	%xmm12, 16(%rsp)
	pxor	%xmm12, %xmm4
	movdqa	%xmm4, %xmm12
	psrld	$12, %xmm12
	pslld	$20, %xmm4
	por	%xmm12, %xmm4
	paddd	80(%rsp), %xmm5
	paddd	%xmm2, %xmm5
	pxor	%xmm5, %xmm10
	pshufb	%xmm0, %xmm10
	paddd	%xmm10, %xmm13
	pxor	%xmm13, %xmm2
	movdqa	%xmm2, %xmm12
	psrld	$12, %xmm12
	pslld	$20, %xmm2
	por	%xmm12, %xmm2
	paddd	160(%rsp), %xmm15
	paddd	%xmm1, %xmm15
	pxor	%xmm15, %xmm14
	pshufb	%xmm0, %xmm14
	paddd	%xmm14, %xmm11
	pxor	%xmm11, %xmm1
	movdqa	%xmm1, %xmm12
	psrld	$12, %xmm12
	pslld	$20, %xmm1
	por	%xmm12, %xmm1
	paddd	144(%rsp), %xmm6
	paddd	%xmm3, %xmm6
	movdqa	%xmm6, %xmm12
	movdqa	.LCPI9_5(%rip), %xmm0
	pshufb	%xmm0, %xmm12
	pshufb	%xmm0, %xmm7
	pxor	%xmm12, %xmm7
	paddd	64(%rsp), %xmm8
	paddd	%xmm4, %xmm8
	movdqa	%xmm8, %xmm12
	pshufb	%xmm0, %xmm12
	pshufb	%xmm0, %xmm9
	pxor	%xmm12, %xmm9
	paddd	32(%rsp), %xmm5
	paddd	%xmm2, %xmm5
	movdqa	%xmm5, %xmm12
	pshufb	%xmm0, %xmm12
	pshufb	%xmm0, %xmm10
	pxor	%xmm12, %xmm10
	paddd	48(%rsp), %xmm15
	paddd	%xmm1, %xmm15
	movdqa	%xmm15, %xmm12
	pshufb	%xmm0, %xmm12
	pshufb	%xmm0, %xmm14
	pxor	%xmm12, %xmm14
	movdqa	(%rsp), %xmm0
	paddd	%xmm7, %xmm0
	movdqa	%xmm0, (%rsp)
	pxor	%xmm0, %xmm3
	movdqa	%xmm3, %xmm12
	psrld	$7, %xmm12
	pslld	$25, %xmm3
	por	%xmm12, %xmm3
	movdqa	16(%rsp), %xmm0
	paddd	%xmm9, %xmm0
	movdqa	%xmm0, 16(%rsp)
	pxor	%xmm0, %xmm4
	movdqa	%xmm4, %xmm12
	psrld	$7, %xmm12
	pslld	$25, %xmm4
	por	%xmm12, %xmm4
	paddd	%xmm10, %xmm13
	pxor	%xmm13, %xmm2
	movdqa	%xmm2, %xmm12
	psrld	$7, %xmm12
	pslld	$25, %xmm2
	por	%xmm12, %xmm2
	paddd	%xmm14, %xmm11
	pxor	%xmm11, %xmm1
	movdqa	%xmm1, %xmm12
	psrld	$7, %xmm12
	pslld	$25, %xmm1
	por	%xmm12, %xmm1
	paddd	192(%rsp), %xmm15
	paddd	%xmm3, %xmm15
	pxor	%xmm15, %xmm10
	movdqa	.LCPI9_0(%rip), %xmm0
	pshufb	%xmm0, %xmm10
	movdqa	16(%rsp), %xmm12
	paddd	%xmm10, %xmm12
	movdqa	%xmm12, 16(%rsp)
	pxor	%xmm12, %xmm3
	movdqa	%xmm3, %xmm12
	psrld	$12, %xmm12
	pslld	$20, %xmm3
	por	%xmm12, %xmm3
	paddd	208(%rsp), %xmm6
	paddd	%xmm4, %xmm6
	pxor	%xmm6, %xmm14
	pshufb	%xmm0, %xmm14
	paddd	%xmm14, %xmm13
	pxor	%xmm13, %xmm4
	movdqa	%xmm4, %xmm12
	psrld	$12, %xmm12
	pslld	$20, %xmm4
	por	%xmm12, %xmm4
	paddd	112(%rsp), %xmm8
	paddd	%xmm2, %xmm8
	pxor	%xmm8, %xmm7
	pshufb	%xmm0, %xmm7
	paddd	%xmm7, %xmm11
	pxor	%xmm11, %xmm2
	movdqa	%xmm2, %xmm12
	psrld	$12, %xmm12
	pslld	$20, %xmm2
	por	%xmm12, %xmm2
	paddd	240(%rsp), %xmm5
	paddd	%xmm1, %xmm5
	pxor	%xmm5, %xmm9
	pshufb	%xmm0, %xmm9
	movdqa	(%rsp), %xmm0
	paddd	%xmm9, %xmm0
	movdqa	%xmm0, (%rsp)
	pxor	%xmm0, %xmm1
	movdqa	%xmm1, %xmm12
	psrld	$12, %xmm12
	pslld	$20, %xmm1
	por	%xmm12, %xmm1
	paddd	272(%rsp), %xmm15
	paddd	%xmm3, %xmm15
	movdqa	%xmm15, %xmm12
	movdqa	.LCPI9_5(%rip), %xmm0
	pshufb	%xmm0, %xmm12
	pshufb	%xmm0, %xmm10
	pxor	%xmm12, %xmm10
	paddd	256(%rsp), %xmm6
	paddd	%xmm4, %xmm6
	movdqa	%xmm6, %xmm12
	pshufb	%xmm0, %xmm12
	pshufb	%xmm0, %xmm14
	pxor	%xmm12, %xmm14
	paddd	224(%rsp), %xmm8
	paddd	%xmm2, %xmm8
	movdqa	%xmm8, %xmm12
	pshufb	%xmm0, %xmm12
	pshufb	%xmm0, %xmm7
	pxor	%xmm12, %xmm7
	paddd	128(%rsp), %xmm5
	paddd	%xmm1, %xmm5
	movdqa	%xmm5, %xmm12
	pshufb	%xmm0, %xmm12
	pshufb	%xmm0, %xmm9
	pxor	%xmm12, %xmm9
	movdqa	16(%rsp), %xmm0
	paddd	%xmm10, %xmm0
	movdqa	%xmm0, 16(%rsp)
	pxor	%xmm0, %xmm3
	movdqa	%xmm3, %xmm12
	psrld	$7, %xmm12
	pslld	$25, %xmm3
	por	%xmm12, %xmm3
	paddd	%xmm14, %xmm13
	pxor	%xmm13, %xmm4
	movdqa	%xmm4, %xmm12
	psrld	$7, %xmm12
	pslld	$25, %xmm4
	por	%xmm12, %xmm4
	paddd	%xmm7, %xmm11
	pxor	%xmm11, %xmm2
	movdqa	%xmm2, %xmm12
	psrld	$7, %xmm12
	pslld	$25, %xmm2
	por	%xmm12, %xmm2
	movdqa	(%rsp), %xmm0
	paddd	%xmm9, %xmm0
	movdqa	%xmm0, (%rsp)
	pxor	%xmm0, %xmm1
	movdqa	%xmm1, %xmm12
	psrld	$7, %xmm12
	pslld	$25, %xmm1
	por	%xmm12, %xmm1
	paddd	96(%rsp), %xmm6
	paddd	%xmm3, %xmm6
	pxor	%xmm6, %xmm7
	movdqa	.LCPI9_0(%rip), %xmm0
	pshufb	%xmm0, %xmm7
	movdqa	(%rsp), %xmm12
	paddd	%xmm7, %xmm12
	movdqa	%xmm12, (%rsp)
	pxor	%xmm12, %xmm3
	movdqa	%xmm3, %xmm12
	psrld	$12, %xmm12
	pslld	$20, %xmm3
	por	%xmm12, %xmm3
	paddd	64(%rsp), %xmm8
	paddd	%xmm4, %xmm8
	pxor	%xmm8, %xmm9
	pshufb	%xmm0, %xmm9
	movdqa	16(%rsp), %xmm0
	paddd	%xmm9, %xmm0
	movdqa	%xmm0, 16(%rsp)
	pxor	%xmm0, %xmm4
	movdqa	%xmm4, %xmm12
	psrld	$12, %xmm12
	pslld	$20, %xmm4
	por	%xmm12, %xmm4
	paddd	48(%rsp), %xmm5
	paddd	%xmm2, %xmm5
	pxor	%xmm5, %xmm10
	movdqa	.LCPI9_0(%rip), %xmm0
	pshufb	%xmm0, %xmm10
	paddd	%xmm10, %xmm13
	pxor	%xmm13, %xmm2
	movdqa	%xmm2, %xmm12
	psrld	$12, %xmm12
	pslld	$20, %xmm2
	por	%xmm12, %xmm2
	paddd	80(%rsp), %xmm15
	paddd	%xmm1, %xmm15
	pxor	%xmm15, %xmm14
	pshufb	%xmm0, %xmm14
	paddd	%xmm14, %xmm11
	pxor	%xmm11, %xmm1
	movdqa	%xmm1, %xmm12
	psrld	$12, %xmm12
	pslld	$20, %xmm1
	por	%xmm12, %xmm1
	paddd	160(%rsp), %xmm6
	paddd	%xmm3, %xmm6
	movdqa	%xmm6, %xmm12
	movdqa	.LCPI9_5(%rip), %xmm0
	pshufb	%xmm0, %xmm12
	pshufb	%xmm0, %xmm7
	pxor	%xmm12, %xmm7
	paddd	112(%rsp), %xmm8
	paddd	%xmm4, %xmm8
	movdqa	%xmm8, %xmm12
	pshufb	%xmm0, %xmm12
	pshufb	%xmm0, %xmm9
	pxor	%xmm12, %xmm9
	paddd	176(%rsp), %xmm5
	paddd	%xmm2, %xmm5
	movdqa	%xmm5, %xmm12
	pshufb	%xmm0, %xmm12
	pshufb	%xmm0, %xmm10
	pxor	%xmm12, %xmm10
	paddd	128(%rsp), %xmm15
	paddd	%xmm1, %xmm15
	movdqa	%xmm15, %xmm12
	pshufb	%xmm0, %xmm12
	pshufb	%xmm0, %xmm14
	pxor	%xmm12, %xmm14
	movdqa	(%rsp), %xmm0
	paddd	%xmm7, %xmm0
	movdqa	%xmm0, (%rsp)
	pxor	%xmm0, %xmm3
	movdqa	%xmm3, %xmm12
	psrld	$7, %xmm12
	pslld	$25, %xmm3
	por	%xmm12, %xmm3
	movdqa	16(%rsp), %xmm0
	paddd	%xmm9, %xmm0
	movdqa	%xmm0, 16(%rsp)
	pxor	%xmm0, %xmm4
	movdqa	%xmm4, %xmm12
	psrld	$7, %xmm12
	pslld	$25, %xmm4
	por	%xmm12, %xmm4
	paddd	%xmm10, %xmm13
	pxor	%xmm13, %xmm2
	movdqa	%xmm2, %xmm12
	psrld	$7, %xmm12
	pslld	$25, %xmm2
	por	%xmm12, %xmm2
	paddd	%xmm14, %xmm11
	pxor	%xmm11, %xmm1
	movdqa	%xmm1, %xmm12
	psrld	$7, %xmm12
	pslld	$25, %xmm1
	por	%xmm12, %xmm1
	paddd	272(%rsp), %xmm15
	paddd	%xmm3, %xmm15
	pxor	%xmm15, %xmm10
	movdqa	.LCPI9_0(%rip), %xmm0
	pshufb	%xmm0, %xmm10
	movdqa	16(%rsp), %xmm12
	paddd	%xmm10, %xmm12
	movdqa	%xmm12, 16(%rsp)
	pxor	%xmm12, %xmm3
	movdqa	%xmm3, %xmm12
	psrld	$12, %xmm12
	pslld	$20, %xmm3
	por	%xmm12, %xmm3
	paddd	144(%rsp), %xmm6
	paddd	%xmm4, %xmm6
	pxor	%xmm6, %xmm14
	pshufb	%xmm0, %xmm14
	paddd	%xmm14, %xmm13
	pxor	%xmm13, %xmm4
	movdqa	%xmm4, %xmm12
	psrld	$12, %xmm12
	pslld	$20, %xmm4
	por	%xmm12, %xmm4
	paddd	240(%rsp), %xmm8
	paddd	%xmm2, %xmm8
	pxor	%xmm8, %xmm7
	pshufb	%xmm0, %xmm7
	paddd	%xmm7, %xmm11
	pxor	%xmm11, %xmm2
	movdqa	%xmm2, %xmm12
	psrld	$12, %xmm12
	pslld	$20, %xmm2
	por	%xmm12, %xmm2
	paddd	256(%rsp), %xmm5
	paddd	%xmm1, %xmm5
	pxor	%xmm5, %xmm9
	pshufb	%xmm0, %xmm9
	movdqa	(%rsp), %xmm0
	paddd	%xmm9, %xmm0
	movdqa	%xmm0, (%rsp)
	pxor	%xmm0, %xmm1
	movdqa	%xmm1, %xmm12
	psrld	$12, %xmm12
	pslld	$20, %xmm1
	por	%xmm12, %xmm1
	paddd	208(%rsp), %xmm15
	paddd	%xmm3, %xmm15
	movdqa	%xmm15, %xmm12
	movdqa	.LCPI9_5(%rip), %xmm0
	pshufb	%xmm0, %xmm12
	pshufb	%xmm0, %xmm10
	pxor	%xmm12, %xmm10
	paddd	224(%rsp), %xmm6
	paddd	%xmm4, %xmm6
	movdqa	%xmm6, %xmm12
	pshufb	%xmm0, %xmm12
	pshufb	%xmm0, %xmm14
	pxor	%xmm12, %xmm14
	paddd	32(%rsp), %xmm8
	paddd	%xmm2, %xmm8
	movdqa	%xmm8, %xmm12
	pshufb	%xmm0, %xmm12
	pshufb	%xmm0, %xmm7
	pxor	%xmm12, %xmm7
	paddd	192(%rsp), %xmm5
	paddd	%xmm1, %xmm5
	movdqa	%xmm5, %xmm12
	pshufb	%xmm0, %xmm12
	pshufb	%xmm0, %xmm9
	pxor	%xmm12, %xmm9
	movdqa	16(%rsp), %xmm0
	paddd	%xmm10, %xmm0
	movdqa	%xmm0, 16(%rsp)
	pxor	%xmm0, %xmm3
	movdqa	%xmm3, %xmm12
	psrld	$7, %xmm12
	pslld	$25, %xmm3
	por	%xmm12, %xmm3
	paddd	%xmm14, %xmm13
	pxor	%xmm13, %xmm4
	movdqa	%xmm4, %xmm12
	psrld	$7, %xmm12
	pslld	$25, %xmm4
	por	%xmm12, %xmm4
	paddd	%xmm7, %xmm11
	pxor	%xmm11, %xmm2
	movdqa	%xmm2, %xmm12
	psrld	$7, %xmm12
	pslld	$25, %xmm2
	por	%xmm12, %xmm2
	movdqa	(%rsp), %xmm0
	paddd	%xmm9, %xmm0
	movdqa	%xmm0, (%rsp)
	pxor	%xmm0, %xmm1
	movdqa	%xmm1, %xmm12
	psrld	$7, %xmm12
	pslld	$25, %xmm1
	por	%xmm12, %xmm1
	paddd	64(%rsp), %xmm6
	paddd	112(%rsp), %xmm8
	paddd	128(%rsp), %xmm5
	paddd	48(%rsp), %xmm15
	paddd	%xmm3, %xmm6
	pxor	%xmm6, %xmm7
	movdqa	.LCPI9_0(%rip), %xmm0
	pshufb	%xmm0, %xmm7
	movdqa	(%rsp), %xmm12
	paddd	%xmm7, %xmm12
	movdqa	%xmm12, (%rsp)
	pxor	%xmm12, %xmm3
	movdqa	%xmm3, %xmm12
	psrld	$12, %xmm12
	pslld	$20, %xmm3
	por	%xmm12, %xmm3
	paddd	%xmm4, %xmm8
	pxor	%xmm8, %xmm9
	pshufb	%xmm0, %xmm9
	movdqa	16(%rsp), %xmm12
	paddd	%xmm9, %xmm12
	movdqa	%xmm12, 16(%rsp)
	pxor	%xmm12, %xmm4
	movdqa	%xmm4, %xmm12
	psrld	$12, %xmm12
	pslld	$20, %xmm4
	por	%xmm12, %xmm4
	paddd	%xmm2, %xmm5
	pxor	%xmm5, %xmm10
	pshufb	%xmm0, %xmm10
	paddd	%xmm10, %xmm13
	pxor	%xmm13, %xmm2
	movdqa	%xmm2, %xmm12
	psrld	$12, %xmm12
	pslld	$20, %xmm2
	por	%xmm12, %xmm2
	paddd	%xmm1, %xmm15
	pxor	%xmm15, %xmm14
	pshufb	%xmm0, %xmm14
	paddd	%xmm14, %xmm11
	pxor	%xmm11, %xmm1
	movdqa	%xmm1, %xmm12
	psrld	$12, %xmm12
	pslld	$20, %xmm1
	por	%xmm12, %xmm1
	paddd	80(%rsp), %xmm6
	paddd	240(%rsp), %xmm8
	paddd	96(%rsp), %xmm5
	paddd	192(%rsp), %xmm15
	paddd	%xmm3, %xmm6
	movdqa	%xmm6, %xmm12
	movdqa	.LCPI9_5(%rip), %xmm0
	pshufb	%xmm0, %xmm12
	pshufb	%xmm0, %xmm7
	pxor	%xmm12, %xmm7
	paddd	%xmm4, %xmm8
	movdqa	%xmm8, %xmm12
	pshufb	%xmm0, %xmm12
	pshufb	%xmm0, %xmm9
	pxor	%xmm12, %xmm9
	paddd	%xmm2, %xmm5
	movdqa	%xmm5, %xmm12
	pshufb	%xmm0, %xmm12
	pshufb	%xmm0, %xmm10
	pxor	%xmm12, %xmm10
	paddd	%xmm1, %xmm15
	movdqa	%xmm15, %xmm12
	pshufb	%xmm0, %xmm12
	pshufb	%xmm0, %xmm14
	pxor	%xmm12, %xmm14
	movdqa	(%rsp), %xmm0
	paddd	%xmm7, %xmm0
	movdqa	%xmm0, (%rsp)
	pxor	%xmm0, %xmm3
	movdqa	%xmm3, %xmm12
	psrld	$7, %xmm12
	pslld	$25, %xmm3
	por	%xmm12, %xmm3
	movdqa	16(%rsp), %xmm0
	paddd	%xmm9, %xmm0
	pxor	%xmm0, %xmm4
	movdqa	%xmm4, %xmm12
	psrld	$7, %xmm12
	pslld	$25, %xmm4
	por	%xmm12, %xmm4
	paddd	%xmm10, %xmm13
	pxor	%xmm13, %xmm2
	movdqa	%xmm2, %xmm12
	psrld	$7, %xmm12
	pslld	$25, %xmm2
	por	%xmm12, %xmm2
	paddd	%xmm14, %xmm11
	pxor	%xmm11, %xmm1
	movdqa	%xmm1, %xmm12
	psrld	$7, %xmm12
	pslld	$25, %xmm1
	por	%xmm12, %xmm1
	paddd	208(%rsp), %xmm15
	paddd	160(%rsp), %xmm6
	paddd	256(%rsp), %xmm8
	paddd	224(%rsp), %xmm5
	paddd	%xmm3, %xmm15
	paddd	%xmm4, %xmm6
	paddd	%xmm2, %xmm8
	paddd	%xmm1, %xmm5
	pxor	%xmm15, %xmm10
	movdqa	.LCPI9_0(%rip), %xmm12
	pshufb	%xmm12, %xmm10
	pxor	%xmm6, %xmm14
	pshufb	%xmm12, %xmm14
	pxor	%xmm8, %xmm7
	pshufb	%xmm12, %xmm7
	pxor	%xmm5, %xmm9
	pshufb	%xmm12, %xmm9
	paddd	%xmm10, %xmm0
	movdqa	%xmm0, 16(%rsp)
	pxor	%xmm0, %xmm3
	movdqa	%xmm3, %xmm12
	psrld	$12, %xmm12
	pslld	$20, %xmm3
	por	%xmm12, %xmm3
	paddd	%xmm14, %xmm13
	pxor	%xmm13, %xmm4
	movdqa	%xmm4, %xmm12
	psrld	$12, %xmm12
	pslld	$20, %xmm4
	por	%xmm12, %xmm4
	movdqa	%xmm11, %xmm0
	paddd	%xmm7, %xmm0
	pxor	%xmm0, %xmm2
	movdqa	%xmm2, %xmm12
	psrld	$12, %xmm12
	pslld	$20, %xmm2
	por	%xmm12, %xmm2
	movdqa	(%rsp), %xmm11
	paddd	%xmm9, %xmm11
	movdqa	%xmm11, (%rsp)
	pxor	%xmm11, %xmm1
	movdqa	%xmm1, %xmm12
	psrld	$12, %xmm12
	pslld	$20, %xmm1
	por	%xmm12, %xmm1
	paddd	144(%rsp), %xmm15
	paddd	32(%rsp), %xmm6
	paddd	176(%rsp), %xmm8
	paddd	272(%rsp), %xmm5
	paddd	%xmm2, %xmm8
	movdqa	%xmm8, %xmm12
	movdqa	.LCPI9_5(%rip), %xmm11
	pshufb	%xmm11, %xmm12
	pshufb	%xmm11, %xmm7
	pxor	%xmm12, %xmm7
	paddd	%xmm3, %xmm15
	paddd	%xmm7, %xmm0
	pxor	%xmm0, %xmm2
	pxor	%xmm15, %xmm0
	pshufb	%xmm11, %xmm15
	pshufb	%xmm11, %xmm10
	pxor	%xmm15, %xmm10
	paddd	%xmm1, %xmm5
	movdqa	%xmm5, %xmm12
	pshufb	%xmm11, %xmm12
	pshufb	%xmm11, %xmm9
	pxor	%xmm12, %xmm9
	paddd	%xmm4, %xmm6
	movdqa	(%rsp), %xmm12
	paddd	%xmm9, %xmm12
	pxor	%xmm12, %xmm1
	pxor	%xmm6, %xmm12
	pshufb	%xmm11, %xmm6
	pshufb	%xmm11, %xmm14
	pxor	%xmm6, %xmm14
	movdqa	16(%rsp), %xmm6
	paddd	%xmm10, %xmm6
	paddd	%xmm14, %xmm13
	pxor	%xmm6, %xmm3
	movdqa	%xmm6, %xmm11
	pxor	%xmm13, %xmm4
	movdqa	%xmm3, %xmm6
	psrld	$7, %xmm6
	pslld	$25, %xmm3
	por	%xmm6, %xmm3
	movdqa	%xmm4, %xmm6
	psrld	$7, %xmm6
	pslld	$25, %xmm4
	por	%xmm6, %xmm4
	movdqa	%xmm2, %xmm6
	psrld	$7, %xmm6
	pslld	$25, %xmm2
	por	%xmm6, %xmm2
	movdqa	%xmm1, %xmm6
	psrld	$7, %xmm6
	pslld	$25, %xmm1
	por	%xmm6, %xmm1
	pxor	%xmm8, %xmm11
	pxor	%xmm5, %xmm13
	pxor	%xmm7, %xmm3
	pxor	%xmm9, %xmm4
	pxor	%xmm10, %xmm2
	pxor	%xmm14, %xmm1
	movdqu	%xmm12, (%rcx)
	movdqu	%xmm11, 16(%rcx)
	movdqu	%xmm13, 32(%rcx)
	movdqu	%xmm0, 48(%rcx)
	movdqu	%xmm3, 64(%rcx)
	movdqu	%xmm4, 80(%rcx)
	movdqu	%xmm2, 96(%rcx)
	movdqu	%xmm1, 112(%rcx)
	movaps	288(%rsp), %xmm6
	movaps	304(%rsp), %xmm7
	movaps	320(%rsp), %xmm8
	movaps	336(%rsp), %xmm9
	movaps	352(%rsp), %xmm10
	movaps	368(%rsp), %xmm11
	movaps	384(%rsp), %xmm12
	movaps	400(%rsp), %xmm13
	movaps	416(%rsp), %xmm14
	movaps	432(%rsp), %xmm15
	addq	$456, %rsp
	retq
	.seh_endproc

	.section	.text
	.p2align	4
	.def	"keyed_blake3::hasher::Hasher::finalize";
	.scl	3;
	.type	32;
	.endef
"keyed_blake3::hasher::Hasher::finalize":
.seh_proc "keyed_blake3::hasher::Hasher::finalize"
	pushq	%r15
	.seh_pushreg %r15
	pushq	%r14
	.seh_pushreg %r14
	pushq	%rsi
	.seh_pushreg %rsi
	pushq	%rdi
	.seh_pushreg %rdi
	pushq	%rbp
	.seh_pushreg %rbp
	pushq	%rbx
	.seh_pushreg %rbx
	subq	$392, %rsp
	.seh_stackalloc 392
	movaps	%xmm7, 368(%rsp)
	.seh_savexmm %xmm7, 368
	movaps	%xmm6, 352(%rsp)
	.seh_savexmm %xmm6, 352
	.seh_endprologue
	movq	%rdx, %rdi
	movq	%rcx, %rsi
	movq	1856(%rdx), %rbx
	cmpq	$1025, %rbx
	setb	%al
	testl	$1023, %ebx
	setne	%cl
	orb	%al, %cl
	jne	.LBB10_2
	shrq	$10, %rbx
	xorl	%eax, %eax
	popcntq	%rbx, %rax
	cmpl	$3, %eax
	movl	$2, %ebx
	cmovael	%eax, %ebx
	decq	%rbx
	movq	%rbx, %rax
	shlq	$5, %rax
	movups	64(%rdi,%rax), %xmm0
	movups	80(%rdi,%rax), %xmm1
	movaps	%xmm1, 80(%rsp)
	movaps	%xmm0, 64(%rsp)
	testq	%rbx, %rbx
	jne	.LBB10_7
	jmp	.LBB10_18
.LBB10_2:
	cmpq	$1, %rbx
	movq	%rbx, %rax
	adcq	$-1, %rax
	movq	%rax, %r15
	shrq	$10, %r15
	movq	%rax, %rcx
	andq	$-64, %rcx
	subq	%rcx, %rbx
	leaq	1792(%rdi), %rdx
	xorl	%ecx, %ecx
	testq	%r15, %r15
	sete	%cl
	xorps	%xmm0, %xmm0
	movaps	%xmm0, 96(%rsp)
	movaps	%xmm0, 112(%rsp)
	xorl	%r8d, %r8d
	testl	$960, %eax
	sete	%r8b
	leal	(%r8,%rcx,8), %ebp
	addl	$18, %ebp
	cmpq	$64, %rbx
	jne	.LBB10_4
	movups	(%rdx), %xmm0
	movups	16(%rdx), %xmm1
	movups	32(%rdx), %xmm2
	movups	48(%rdx), %xmm3
	movaps	%xmm3, 176(%rsp)
	movaps	%xmm2, 160(%rsp)
	movaps	%xmm1, 144(%rsp)
	movaps	%xmm0, 128(%rsp)
	movups	32(%rdi), %xmm0
	movups	48(%rdi), %xmm1
	movaps	%xmm1, 288(%rsp)
	movaps	%xmm0, 304(%rsp)
	movl	%ebp, 48(%rsp)
	movq	%r15, 32(%rsp)
	movl	$64, 40(%rsp)
	leaq	96(%rsp), %rcx
	leaq	304(%rsp), %rdx
	leaq	288(%rsp), %r8
	leaq	128(%rsp), %r9
	callq	"keyed_blake3::compression::compress"
	movaps	96(%rsp), %xmm0
	movaps	112(%rsp), %xmm1
	movaps	%xmm0, 192(%rsp)
	movaps	%xmm1, 208(%rsp)
	jmp	.LBB10_5
.LBB10_4:
	movaps	%xmm0, 176(%rsp)
	movaps	%xmm0, 160(%rsp)
	movaps	%xmm0, 144(%rsp)
	movaps	%xmm0, 128(%rsp)
	leaq	128(%rsp), %r14
	movq	%r14, %rcx
	movq	%rbx, %r8
	callq	memcpy
	movups	32(%rdi), %xmm0
	movups	48(%rdi), %xmm1
	movaps	%xmm1, 320(%rsp)
	movaps	%xmm0, 336(%rsp)
	movl	%ebp, 48(%rsp)
	movl	%ebx, 40(%rsp)
	movq	%r15, 32(%rsp)
	leaq	96(%rsp), %rcx
	leaq	336(%rsp), %rdx
	leaq	320(%rsp), %r8
	movq	%r14, %r9
	callq	"keyed_blake3::compression::compress"
	movaps	96(%rsp), %xmm0
	movaps	112(%rsp), %xmm1
	movaps	%xmm1, 208(%rsp)
	movaps	%xmm0, 192(%rsp)
.LBB10_5:
	xorl	%ebx, %ebx
	popcntq	%r15, %rbx
	movaps	192(%rsp), %xmm0
	movaps	208(%rsp), %xmm1
	movaps	%xmm0, 64(%rsp)
	movaps	%xmm1, 80(%rsp)
	testq	%rbx, %rbx
	je	.LBB10_18
.LBB10_7:
	leaq	64(%rsp), %rax
	negq	%rax
	addq	%rsp, %rax
	addq	$160, %rax
	movups	(%rdi), %xmm6
	movups	16(%rdi), %xmm7
	cmpq	$32, %rax
	jae	.LBB10_8
	shlq	$5, %rbx
	addq	$32, %rdi
	jmp	.LBB10_12
	.p2align	4
.LBB10_14:
	movups	(%rdi,%rbx), %xmm0
	movaps	%xmm0, 128(%rsp)
	movups	16(%rdi,%rbx), %xmm0
	movaps	%xmm0, 144(%rsp)
.LBB10_15:
	xorl	%eax, %eax
	cmpq	$32, %rbx
	sete	%al
	movaps	64(%rsp), %xmm0
	movaps	80(%rsp), %xmm1
	movaps	%xmm0, 160(%rsp)
	movaps	%xmm1, 176(%rsp)
	leal	20(,%rax,8), %eax
	movaps	%xmm7, 224(%rsp)
	movaps	%xmm6, 240(%rsp)
	movl	%eax, 48(%rsp)
	movl	$64, 40(%rsp)
	movq	$0, 32(%rsp)
	leaq	96(%rsp), %rcx
	leaq	240(%rsp), %rdx
	leaq	224(%rsp), %r8
	leaq	128(%rsp), %r9
	callq	"keyed_blake3::compression::compress"
	movups	96(%rsp), %xmm0
	movups	112(%rsp), %xmm1
	movaps	%xmm1, 208(%rsp)
	movaps	%xmm0, 192(%rsp)
	movaps	%xmm0, 64(%rsp)
	movaps	%xmm1, 80(%rsp)
	addq	$-32, %rbx
	je	.LBB10_18
.LBB10_12:
	leaq	(%rdi,%rbx), %rax
	leaq	128(%rsp), %rcx
	subq	%rax, %rcx
	cmpq	$32, %rcx
	jb	.LBB10_14
	movups	(%rax), %xmm0
	movups	16(%rax), %xmm1
	movaps	%xmm1, 144(%rsp)
	movaps	%xmm0, 128(%rsp)
	jmp	.LBB10_15
.LBB10_8:
	leaq	160(%rsp), %r14
	shlq	$5, %rbx
	addq	$32, %rdi
	jmp	.LBB10_9
	.p2align	4
.LBB10_16:
	movups	(%rax), %xmm0
	movups	16(%rax), %xmm1
	movaps	%xmm1, 144(%rsp)
	movaps	%xmm0, 128(%rsp)
.LBB10_17:
	xorl	%eax, %eax
	cmpq	$32, %rbx
	sete	%al
	movaps	64(%rsp), %xmm0
	movaps	80(%rsp), %xmm1
	movaps	%xmm1, 16(%r14)
	movaps	%xmm0, (%r14)
	leal	20(,%rax,8), %eax
	movaps	%xmm7, 256(%rsp)
	movaps	%xmm6, 272(%rsp)
	movl	%eax, 48(%rsp)
	movl	$64, 40(%rsp)
	movq	$0, 32(%rsp)
	leaq	96(%rsp), %rcx
	leaq	272(%rsp), %rdx
	leaq	256(%rsp), %r8
	leaq	128(%rsp), %r9
	callq	"keyed_blake3::compression::compress"
	movups	96(%rsp), %xmm0
	movups	112(%rsp), %xmm1
	movaps	%xmm1, 208(%rsp)
	movaps	%xmm0, 192(%rsp)
	movaps	%xmm0, 64(%rsp)
	movaps	%xmm1, 80(%rsp)
	addq	$-32, %rbx
	je	.LBB10_18
.LBB10_9:
	leaq	(%rdi,%rbx), %rax
	leaq	128(%rsp), %rcx
	subq	%rax, %rcx
	cmpq	$31, %rcx
	ja	.LBB10_16
	movups	(%rdi,%rbx), %xmm0
	movaps	%xmm0, 128(%rsp)
	movups	16(%rdi,%rbx), %xmm0
	movaps	%xmm0, 144(%rsp)
	jmp	.LBB10_17
.LBB10_18:
	movaps	64(%rsp), %xmm0
	movups	%xmm0, (%rsi)
	movaps	80(%rsp), %xmm0
	movups	%xmm0, 16(%rsi)
	movaps	352(%rsp), %xmm6
	movaps	368(%rsp), %xmm7
	addq	$392, %rsp
	popq	%rbx
	popq	%rbp
	popq	%rdi
	popq	%rsi
	popq	%r14
	popq	%r15
	retq
	.seh_endproc

	.section	.text
	.p2align	4
	.def	"xet_roots::groups::parent_hashes";
	.scl	3;
	.type	32;
	.endef
"xet_roots::groups::parent_hashes":
.seh_proc "xet_roots::groups::parent_hashes"
	pushq	%r15
	.seh_pushreg %r15
	pushq	%r14
	.seh_pushreg %r14
	pushq	%r13
	.seh_pushreg %r13
	pushq	%r12
	.seh_pushreg %r12
	pushq	%rsi
	.seh_pushreg %rsi
	pushq	%rdi
	.seh_pushreg %rdi
	pushq	%rbp
	.seh_pushreg %rbp
	pushq	%rbx
	.seh_pushreg %rbx
	movl	$20696, %eax
	callq	yurewha_stack_probe
	subq	%rax, %rsp
	.seh_stackalloc 20696
	movaps	%xmm6, 20672(%rsp)
	.seh_savexmm %xmm6, 20672
	.seh_endprologue
	movq	%r8, %rbx
	movq	%rdx, %rdi
	movq	%rcx, 184(%rsp)
	xorl	%r14d, %r14d
	leaq	960(%rsp), %rcx
	movl	$640, %r8d
	xorl	%edx, %edx
	callq	memset
	xorps	%xmm6, %xmm6
	movaps	%xmm6, 96(%rsp)
	movaps	%xmm6, 112(%rsp)
	movaps	%xmm6, 128(%rsp)
	movaps	%xmm6, 144(%rsp)
	movaps	%xmm6, 160(%rsp)
	testq	%rbx, %rbx
	je	.LBB15_1
	cmpq	$1, %rbx
	jne	.LBB15_4
	xorl	%eax, %eax
	jmp	.LBB15_7
.LBB15_1:
	movq	$0, 64(%rsp)
	movq	$0, 56(%rsp)
	movq	$0, 48(%rsp)
	movq	$0, 80(%rsp)
	movq	$0, 72(%rsp)
	xorl	%r12d, %r12d
	xorl	%r13d, %r13d
	xorl	%ebp, %ebp
	xorl	%esi, %esi
	jmp	.LBB15_9
.LBB15_4:
	movq	%rbx, %rcx
	andq	$-2, %rcx
	leaq	24(%rdi), %rdx
	xorl	%eax, %eax
	.p2align	4
.LBB15_5:
	movq	-16(%rdx), %r8
	movq	96(%rsp,%r8,8), %r9
	movq	%r8, %r10
	shlq	$6, %r10
	addq	%rsp, %r10
	addq	$960, %r10
	movb	%al, (%r9,%r10)
	incq	%r9
	movq	%r9, 96(%rsp,%r8,8)
	movq	(%rdx), %r8
	movq	96(%rsp,%r8,8), %r9
	movq	%r8, %r10
	shlq	$6, %r10
	addq	%rsp, %r10
	addq	$960, %r10
	leal	1(%rax), %r11d
	movb	%r11b, (%r9,%r10)
	incq	%r9
	movq	%r9, 96(%rsp,%r8,8)
	addq	$2, %rax
	addq	$32, %rdx
	cmpq	%rcx, %rax
	jne	.LBB15_5
	testb	$1, %bl
	je	.LBB15_8
.LBB15_7:
	movq	%rax, %rcx
	shlq	$4, %rcx
	movq	8(%rdi,%rcx), %rcx
	movq	96(%rsp,%rcx,8), %rdx
	movq	%rcx, %r8
	shlq	$6, %r8
	addq	%rsp, %r8
	addq	$960, %r8
	movb	%al, (%rdx,%r8)
	incq	%rdx
	movq	%rdx, 96(%rsp,%rcx,8)
.LBB15_8:
	movq	96(%rsp), %rsi
	movq	104(%rsp), %rbp
	movq	112(%rsp), %r13
	movq	120(%rsp), %r12
	movq	128(%rsp), %rax
	movq	%rax, 72(%rsp)
	movq	136(%rsp), %rax
	movq	%rax, 80(%rsp)
	movq	144(%rsp), %rax
	movq	%rax, 48(%rsp)
	movq	152(%rsp), %rax
	movq	%rax, 56(%rsp)
	movq	160(%rsp), %rax
	movq	%rax, 64(%rsp)
	movq	168(%rsp), %r14
.LBB15_9:
	movq	%r14, 88(%rsp)
	leaq	1600(%rsp), %rbx
	leaq	960(%rsp), %rdx
	movl	$640, %r8d
	movq	%rbx, %rcx
	callq	memcpy
	leaq	320(%rsp), %rcx
	movl	$640, %r8d
	movq	%rbx, %rdx
	callq	memcpy
	xorl	%r14d, %r14d
	leaq	18624(%rsp), %rbx
	movl	$2048, %r8d
	movq	%rbx, %rcx
	xorl	%edx, %edx
	callq	memset
	leaq	2240(%rsp), %rcx
	movl	$16384, %r8d
	xorl	%edx, %edx
	callq	memset
	movaps	%xmm6, 192(%rsp)
	movaps	%xmm6, 208(%rsp)
	movaps	%xmm6, 224(%rsp)
	movaps	%xmm6, 240(%rsp)
	movaps	%xmm6, 256(%rsp)
	movaps	%xmm6, 272(%rsp)
	movaps	%xmm6, 288(%rsp)
	movaps	%xmm6, 304(%rsp)
	testq	%rsi, %rsi
	je	.LBB15_14
	xorl	%r14d, %r14d
	xorl	%r15d, %r15d
	jmp	.LBB15_11
	.p2align	4
.LBB15_13:
	incq	%r15
	cmpq	%r15, %rsi
	je	.LBB15_14
.LBB15_11:
	movzbl	320(%rsp,%r15), %eax
	movq	%rax, 192(%rsp,%r14,8)
	incq	%r14
	cmpq	$16, %r14
	jne	.LBB15_13
	movq	%rbx, 32(%rsp)
	leaq	192(%rsp), %rdx
	leaq	2240(%rsp), %r9
	movl	$16, %r8d
	movq	%rdi, %rcx
	callq	"xet_roots::groups::hash_at"
	xorl	%r14d, %r14d
	jmp	.LBB15_13
.LBB15_14:
	testq	%rbp, %rbp
	je	.LBB15_15
	xorl	%esi, %esi
	movq	88(%rsp), %r15
	jmp	.LBB15_17
	.p2align	4
.LBB15_19:
	incq	%rsi
	cmpq	%rsi, %rbp
	je	.LBB15_20
.LBB15_17:
	movzbl	384(%rsp,%rsi), %eax
	movq	%rax, 192(%rsp,%r14,8)
	incq	%r14
	cmpq	$16, %r14
	jne	.LBB15_19
	movq	%rbx, 32(%rsp)
	leaq	192(%rsp), %rdx
	leaq	2240(%rsp), %r9
	movl	$16, %r8d
	movq	%rdi, %rcx
	callq	"xet_roots::groups::hash_at"
	xorl	%r14d, %r14d
	jmp	.LBB15_19
.LBB15_15:
	movq	88(%rsp), %r15
.LBB15_20:
	testq	%r13, %r13
	je	.LBB15_21
	xorl	%esi, %esi
	movq	48(%rsp), %rbp
	jmp	.LBB15_23
	.p2align	4
.LBB15_25:
	incq	%rsi
	cmpq	%rsi, %r13
	je	.LBB15_26
.LBB15_23:
	movzbl	448(%rsp,%rsi), %eax
	movq	%rax, 192(%rsp,%r14,8)
	incq	%r14
	cmpq	$16, %r14
	jne	.LBB15_25
	movq	%rbx, 32(%rsp)
	leaq	192(%rsp), %rdx
	leaq	2240(%rsp), %r9
	movl	$16, %r8d
	movq	%rdi, %rcx
	callq	"xet_roots::groups::hash_at"
	xorl	%r14d, %r14d
	jmp	.LBB15_25
.LBB15_21:
	movq	48(%rsp), %rbp
.LBB15_26:
	testq	%r12, %r12
	je	.LBB15_27
	xorl	%esi, %esi
	movq	56(%rsp), %r13
	jmp	.LBB15_29
	.p2align	4
.LBB15_31:
	incq	%rsi
	cmpq	%rsi, %r12
	je	.LBB15_32
.LBB15_29:
	movzbl	512(%rsp,%rsi), %eax
	movq	%rax, 192(%rsp,%r14,8)
	incq	%r14
	cmpq	$16, %r14
	jne	.LBB15_31
	movq	%rbx, 32(%rsp)
	leaq	192(%rsp), %rdx
	leaq	2240(%rsp), %r9
	movl	$16, %r8d
	movq	%rdi, %rcx
	callq	"xet_roots::groups::hash_at"
	xorl	%r14d, %r14d
	jmp	.LBB15_31
.LBB15_27:
	movq	56(%rsp), %r13
.LBB15_32:
	cmpq	$0, 72(%rsp)
	je	.LBB15_33
	xorl	%esi, %esi
	movq	64(%rsp), %r12
	jmp	.LBB15_35
	.p2align	4
.LBB15_37:
	incq	%rsi
	cmpq	%rsi, 72(%rsp)
	je	.LBB15_38
.LBB15_35:
	movzbl	576(%rsp,%rsi), %eax
	movq	%rax, 192(%rsp,%r14,8)
	incq	%r14
	cmpq	$16, %r14
	jne	.LBB15_37
	movq	%rbx, 32(%rsp)
	leaq	192(%rsp), %rdx
	leaq	2240(%rsp), %r9
	movl	$16, %r8d
	movq	%rdi, %rcx
	callq	"xet_roots::groups::hash_at"
	xorl	%r14d, %r14d
	jmp	.LBB15_37
.LBB15_33:
	movq	64(%rsp), %r12
.LBB15_38:
	cmpq	$0, 80(%rsp)
	je	.LBB15_43
	xorl	%esi, %esi
	jmp	.LBB15_40
	.p2align	4
.LBB15_42:
	incq	%rsi
	cmpq	%rsi, 80(%rsp)
	je	.LBB15_43
.LBB15_40:
	movzbl	640(%rsp,%rsi), %eax
	movq	%rax, 192(%rsp,%r14,8)
	incq	%r14
	cmpq	$16, %r14
	jne	.LBB15_42
	movq	%rbx, 32(%rsp)
	leaq	192(%rsp), %rdx
	leaq	2240(%rsp), %r9
	movl	$16, %r8d
	movq	%rdi, %rcx
	callq	"xet_roots::groups::hash_at"
	xorl	%r14d, %r14d
	jmp	.LBB15_42
.LBB15_43:
	testq	%rbp, %rbp
	je	.LBB15_48
	xorl	%esi, %esi
	jmp	.LBB15_45
	.p2align	4
.LBB15_47:
	incq	%rsi
	cmpq	%rsi, %rbp
	je	.LBB15_48
.LBB15_45:
	movzbl	704(%rsp,%rsi), %eax
	movq	%rax, 192(%rsp,%r14,8)
	incq	%r14
	cmpq	$16, %r14
	jne	.LBB15_47
	movq	%rbx, 32(%rsp)
	leaq	192(%rsp), %rdx
	leaq	2240(%rsp), %r9
	movl	$16, %r8d
	movq	%rdi, %rcx
	callq	"xet_roots::groups::hash_at"
	xorl	%r14d, %r14d
	jmp	.LBB15_47
.LBB15_48:
	testq	%r13, %r13
	je	.LBB15_53
	xorl	%esi, %esi
	jmp	.LBB15_50
	.p2align	4
.LBB15_52:
	incq	%rsi
	cmpq	%rsi, %r13
	je	.LBB15_53
.LBB15_50:
	movzbl	768(%rsp,%rsi), %eax
	movq	%rax, 192(%rsp,%r14,8)
	incq	%r14
	cmpq	$16, %r14
	jne	.LBB15_52
	movq	%rbx, 32(%rsp)
	leaq	192(%rsp), %rdx
	leaq	2240(%rsp), %r9
	movl	$16, %r8d
	movq	%rdi, %rcx
	callq	"xet_roots::groups::hash_at"
	xorl	%r14d, %r14d
	jmp	.LBB15_52
.LBB15_53:
	testq	%r12, %r12
	je	.LBB15_58
	xorl	%esi, %esi
	jmp	.LBB15_55
	.p2align	4
.LBB15_57:
	incq	%rsi
	cmpq	%rsi, %r12
	je	.LBB15_58
.LBB15_55:
	movzbl	832(%rsp,%rsi), %eax
	movq	%rax, 192(%rsp,%r14,8)
	incq	%r14
	cmpq	$16, %r14
	jne	.LBB15_57
	movq	%rbx, 32(%rsp)
	leaq	192(%rsp), %rdx
	leaq	2240(%rsp), %r9
	movl	$16, %r8d
	movq	%rdi, %rcx
	callq	"xet_roots::groups::hash_at"
	xorl	%r14d, %r14d
	jmp	.LBB15_57
.LBB15_58:
	testq	%r15, %r15
	je	.LBB15_63
	xorl	%esi, %esi
	jmp	.LBB15_60
	.p2align	4
.LBB15_62:
	incq	%rsi
	cmpq	%rsi, %r15
	je	.LBB15_63
.LBB15_60:
	movzbl	896(%rsp,%rsi), %eax
	movq	%rax, 192(%rsp,%r14,8)
	incq	%r14
	cmpq	$16, %r14
	jne	.LBB15_62
	movq	%rbx, 32(%rsp)
	leaq	192(%rsp), %rdx
	leaq	2240(%rsp), %r9
	movl	$16, %r8d
	movq	%rdi, %rcx
	callq	"xet_roots::groups::hash_at"
	xorl	%r14d, %r14d
	jmp	.LBB15_62
.LBB15_63:
	movq	%rbx, 32(%rsp)
	leaq	192(%rsp), %rdx
	leaq	2240(%rsp), %r9
	movq	%rdi, %rcx
	movq	%r14, %r8
	callq	"xet_roots::groups::hash_at"
	movl	$2048, %r8d
	movq	184(%rsp), %rcx
	movq	%rbx, %rdx
	callq	memcpy
	movaps	20672(%rsp), %xmm6
	addq	$20696, %rsp
	popq	%rbx
	popq	%rbp
	popq	%rdi
	popq	%rsi
	popq	%r12
	popq	%r13
	popq	%r14
	popq	%r15
	retq
	.seh_endproc

	.section	.rdata,"dr"
	.p2align	4, 0x0
.LCPI16_0:
	.quad	-9223372036854775808
	.quad	-9223372036854775808
.LCPI16_1:
	.quad	-9223372036854775807
	.quad	-9223372036854775807
.LCPI16_2:
	.quad	4294967232
	.quad	4294967232
.LCPI16_3:
	.long	3351608833
	.long	3351608833
	.long	3351608833
	.long	3351608833
.LCPI16_4:
	.long	2519287717
	.long	2519287717
	.long	2519287717
	.long	2519287717
.LCPI16_5:
	.long	1717998845
	.long	1717998845
	.long	1717998845
	.long	1717998845
.LCPI16_6:
	.long	3858926260
	.long	3858926260
	.long	3858926260
	.long	3858926260
.LCPI16_7:
	.long	1867767133
	.long	1867767133
	.long	1867767133
	.long	1867767133
.LCPI16_8:
	.long	3530409783
	.long	3530409783
	.long	3530409783
	.long	3530409783
.LCPI16_9:
	.long	3864159224
	.long	3864159224
	.long	3864159224
	.long	3864159224
.LCPI16_10:
	.long	1064391498
	.long	1064391498
	.long	1064391498
	.long	1064391498
.LCPI16_11:
	.long	64
	.long	64
	.long	64
	.long	64
	.section	.text
	.p2align	4
	.def	"xet_roots::groups::hash_at";
	.scl	3;
	.type	32;
	.endef
"xet_roots::groups::hash_at":
.seh_proc "xet_roots::groups::hash_at"
	pushq	%r15
	.seh_pushreg %r15
	pushq	%r14
	.seh_pushreg %r14
	pushq	%r13
	.seh_pushreg %r13
	pushq	%r12
	.seh_pushreg %r12
	pushq	%rsi
	.seh_pushreg %rsi
	pushq	%rdi
	.seh_pushreg %rdi
	pushq	%rbp
	.seh_pushreg %rbp
	pushq	%rbx
	.seh_pushreg %rbx
	movl	$3128, %eax
	callq	yurewha_stack_probe
	subq	%rax, %rsp
	.seh_stackalloc 3128
	movaps	%xmm15, 3104(%rsp)
	.seh_savexmm %xmm15, 3104
	movaps	%xmm14, 3088(%rsp)
	.seh_savexmm %xmm14, 3088
	movaps	%xmm13, 3072(%rsp)
	.seh_savexmm %xmm13, 3072
	movaps	%xmm12, 3056(%rsp)
	.seh_savexmm %xmm12, 3056
	movaps	%xmm11, 3040(%rsp)
	.seh_savexmm %xmm11, 3040
	movaps	%xmm10, 3024(%rsp)
	.seh_savexmm %xmm10, 3024
	movaps	%xmm9, 3008(%rsp)
	.seh_savexmm %xmm9, 3008
	movdqa	%xmm8, 2992(%rsp)
	.seh_savexmm %xmm8, 2992
	movdqa	%xmm7, 2976(%rsp)
	.seh_savexmm %xmm7, 2976
	movapd	%xmm6, 2960(%rsp)
	.seh_savexmm %xmm6, 2960
	.seh_endprologue
	pxor	%xmm0, %xmm0
	movdqa	%xmm0, 384(%rsp)
	movdqa	%xmm0, 368(%rsp)
	movdqa	%xmm0, 352(%rsp)
	movdqa	%xmm0, 336(%rsp)
	movdqa	%xmm0, 320(%rsp)
	movdqa	%xmm0, 304(%rsp)
	movdqa	%xmm0, 288(%rsp)
	movdqa	%xmm0, 272(%rsp)
	testq	%r8, %r8
	je	.LBB16_34
	movq	%r9, %rbx
	movq	%r8, %rdi
	movq	%rdx, %rsi
	movq	%rcx, %r14
	xorl	%r12d, %r12d
	movq	%r9, %r15
	.p2align	4
.LBB16_2:
	movq	(%rsi,%r12,8), %rax
	shlq	$4, %rax
	movq	(%r14,%rax), %rdx
	movq	8(%r14,%rax), %r8
	movq	%r15, %rcx
	callq	"xet_roots::groups::write_text"
	movq	%rax, 272(%rsp,%r12,8)
	incq	%r12
	addq	$1024, %r15
	cmpq	%r12, %rdi
	jne	.LBB16_2
	xorl	%r15d, %r15d
	leaq	1424(%rsp), %rcx
	movl	$512, %r8d
	xorl	%edx, %edx
	callq	memset
	movq	%rdi, %rbp
	decq	%rbp
	movq	%rbp, 56(%rsp)
	je	.LBB16_7
	movq	%rdi, %r12
	andq	$-2, %r12
	xorl	%r15d, %r15d
	movq	%rbx, %r13
	.p2align	4
.LBB16_5:
	movq	272(%rsp,%r15,8), %rax
	leaq	64(%rax), %r8
	cmpq	$1024, %r8
	movl	$1024, %r14d
	cmovaeq	%r14, %r8
	leaq	(%rax,%r13), %rcx
	subq	%rax, %r8
	xorl	%edx, %edx
	callq	memset
	movq	280(%rsp,%r15,8), %rax
	leaq	64(%rax), %rcx
	cmpq	$1024, %rcx
	cmovbq	%rcx, %r14
	leaq	(%rax,%r13), %rcx
	addq	$1024, %rcx
	subq	%rax, %r14
	xorl	%edx, %edx
	movq	%r14, %r8
	callq	memset
	addq	$2, %r15
	addq	$2048, %r13
	cmpq	%r15, %r12
	jne	.LBB16_5
	testb	$1, %dil
	je	.LBB16_8
.LBB16_7:
	movq	%r15, %rcx
	shlq	$10, %rcx
	addq	%rbx, %rcx
	movq	272(%rsp,%r15,8), %rax
	leaq	64(%rax), %rdx
	cmpq	$1024, %rdx
	movl	$1024, %r8d
	cmovbq	%rdx, %r8
	addq	%rax, %rcx
	subq	%rax, %r8
	xorl	%edx, %edx
	callq	memset
.LBB16_8:
	xorl	%ebp, %ebp
	jmp	.LBB16_9
	.p2align	4
.LBB16_21:
	leaq	1(%rbp), %r14
	movq	%r14, %r9
	shlq	$10, %r9
	addq	%rbx, %r9
	movq	280(%rsp,%rbp,8), %rcx
	movq	%rcx, 32(%rsp)
	leaq	176(%rsp), %rcx
	movq	%r8, %rdx
	movq	%rax, %r8
	callq	"keyed_blake3::keyed_hash_two"
	movq	%rbp, %rax
	shlq	$5, %rax
	movaps	176(%rsp), %xmm0
	movaps	192(%rsp), %xmm1
	movups	%xmm1, 1440(%rsp,%rax)
	movups	%xmm0, 1424(%rsp,%rax)
	shlq	$5, %r14
	leaq	208(%rsp), %rax
	movdqu	(%rax), %xmm0
	movups	16(%rax), %xmm1
	movdqu	%xmm0, 1424(%rsp,%r14)
	movups	%xmm1, 1440(%rsp,%r14)
	addq	$2, %rbp
.LBB16_22:
	cmpq	%rdi, %rbp
	jae	.LBB16_23
.LBB16_9:
	pxor	%xmm0, %xmm0
	movdqa	%xmm0, 96(%rsp)
	movdqa	%xmm0, 112(%rsp)
	movdqa	%xmm0, 176(%rsp)
	movdqa	%xmm0, 192(%rsp)
	movdqa	%xmm0, 208(%rsp)
	movdqa	%xmm0, 224(%rsp)
	movq	%rdi, %rcx
	subq	%rbp, %rcx
	cmpq	$3, %rcx
	jb	.LBB16_19
	movdqa	%xmm0, 1024(%rsp)
	movdqa	%xmm0, 1008(%rsp)
	movdqa	%xmm0, 992(%rsp)
	movdqa	%xmm0, 976(%rsp)
	movdqa	%xmm0, 960(%rsp)
	movdqa	%xmm0, 944(%rsp)
	movdqa	%xmm0, 928(%rsp)
	movl	$4, %r13d
	cmovbeq	%rcx, %r13
	movdqa	%xmm0, 912(%rsp)
	leaq	272(%rsp,%rbp,8), %rax
	movdqa	%xmm0, 400(%rsp)
	movdqa	%xmm0, 64(%rsp)
	jne	.LBB16_35
	xorl	%r12d, %r12d
	xorl	%ecx, %ecx
	jmp	.LBB16_12
	.p2align	4
.LBB16_19:
	movq	%rbp, %r8
	shlq	$10, %r8
	addq	%rbx, %r8
	movq	272(%rsp,%rbp,8), %rax
	cmpq	$1, %rcx
	jne	.LBB16_21
	leaq	static.7(%rip), %rdx
	leaq	96(%rsp), %rcx
	movq	%rax, %r9
	callq	"keyed_blake3::keyed_hash"
	movq	%rbp, %rax
	shlq	$5, %rax
	movdqa	96(%rsp), %xmm0
	movaps	112(%rsp), %xmm1
	movups	%xmm1, 1440(%rsp,%rax)
	movdqu	%xmm0, 1424(%rsp,%rax)
	incq	%rbp
	jmp	.LBB16_22
	.p2align	4
.LBB16_35:
	movl	%r13d, %ecx
	andl	$4, %ecx
	movdqu	(%rax), %xmm0
	movdqu	16(%rax), %xmm2
	pcmpeqd	%xmm3, %xmm3
	movdqa	%xmm0, %xmm4
	paddq	%xmm3, %xmm4
	movdqa	.LCPI16_0(%rip), %xmm1
	movdqa	%xmm0, %xmm5
	pxor	%xmm1, %xmm5
	movdqa	.LCPI16_1(%rip), %xmm6
	pcmpgtq	%xmm6, %xmm5
	pand	%xmm4, %xmm5
	paddq	%xmm2, %xmm3
	movdqa	%xmm2, %xmm4
	pxor	%xmm1, %xmm4
	pcmpgtq	%xmm6, %xmm4
	pand	%xmm3, %xmm4
	movdqa	%xmm5, %xmm6
	psrlq	$6, %xmm6
	movdqa	%xmm4, %xmm3
	psrlq	$6, %xmm3
	pshufd	$232, %xmm6, %xmm7
	pshufd	$232, %xmm3, %xmm8
	punpcklqdq	%xmm8, %xmm7
	movdqa	%xmm7, 400(%rsp)
	movdqa	.LCPI16_2(%rip), %xmm7
	pand	%xmm7, %xmm5
	pand	%xmm7, %xmm4
	psubq	%xmm5, %xmm0
	psubq	%xmm4, %xmm2
	pshufd	$232, %xmm0, %xmm0
	pshufd	$232, %xmm2, %xmm2
	punpcklqdq	%xmm2, %xmm0
	movdqa	%xmm0, 64(%rsp)
	movdqa	%xmm6, %xmm0
	pcmpgtq	%xmm3, %xmm0
	blendvpd	%xmm0, %xmm6, %xmm3
	pshufd	$238, %xmm3, %xmm2
	movdqa	%xmm3, %xmm0
	por	%xmm1, %xmm0
	por	%xmm2, %xmm1
	pcmpgtq	%xmm1, %xmm0
	blendvpd	%xmm0, %xmm3, %xmm2
	movq	%xmm2, %r12
	jmp	.LBB16_13
	.p2align	4
.LBB16_12:
	movq	%r12, %rdx
	movq	(%rax,%rcx,8), %r8
	cmpq	$1, %r8
	movq	%r8, %r9
	adcq	$-1, %r9
	movq	%r9, %r12
	shrq	$6, %r12
	movl	%r12d, 400(%rsp,%rcx,4)
	andl	$-64, %r9d
	subl	%r9d, %r8d
	cmpq	%rdx, %r12
	cmovbeq	%rdx, %r12
	movl	%r8d, 64(%rsp,%rcx,4)
	incq	%rcx
.LBB16_13:
	cmpq	%rcx, %r13
	jne	.LBB16_12
	movaps	400(%rsp), %xmm0
	movaps	%xmm0, 160(%rsp)
	movaps	64(%rsp), %xmm8
	movq	%rbp, %r14
	shlq	$10, %r14
	addq	%rbx, %r14
	leaq	-1(%r13), %rax
	movq	$0, 128(%rsp)
	movq	$1, 136(%rsp)
	movq	$2, 144(%rsp)
	movq	%rax, 152(%rsp)
	xorps	%xmm0, %xmm0
	movaps	%xmm0, 64(%rsp)
	movaps	%xmm0, 80(%rsp)
	movaps	.LCPI16_3(%rip), %xmm9
	movaps	%xmm9, 400(%rsp)
	movaps	.LCPI16_4(%rip), %xmm10
	movaps	%xmm10, 416(%rsp)
	movaps	.LCPI16_5(%rip), %xmm11
	movaps	%xmm11, 432(%rsp)
	movaps	.LCPI16_6(%rip), %xmm12
	movaps	%xmm12, 448(%rsp)
	movaps	.LCPI16_7(%rip), %xmm13
	movaps	%xmm13, 464(%rsp)
	movaps	.LCPI16_8(%rip), %xmm14
	movaps	%xmm14, 480(%rsp)
	movaps	.LCPI16_9(%rip), %xmm15
	movaps	%xmm15, 496(%rsp)
	movaps	.LCPI16_10(%rip), %xmm7
	movaps	%xmm7, 512(%rsp)
	incq	%r12
	xorl	%r15d, %r15d
	.p2align	4
.LBB16_15:
	xorl	%eax, %eax
	testl	%r15d, %r15d
	sete	%al
	leal	16(%rax), %ecx
	orl	$26, %eax
	movd	%r15d, %xmm0
	pshufd	$0, %xmm0, %xmm6
	pcmpeqd	160(%rsp), %xmm6
	movaps	.LCPI16_11(%rip), %xmm1
	movdqa	%xmm6, %xmm0
	blendvps	%xmm0, %xmm8, %xmm1
	movd	%eax, %xmm0
	pshufd	$0, %xmm0, %xmm2
	movd	%ecx, %xmm0
	pshufd	$0, %xmm0, %xmm3
	movdqa	%xmm6, %xmm0
	blendvps	%xmm0, %xmm2, %xmm3
	movaps	%xmm1, 256(%rsp)
	movaps	%xmm3, 240(%rsp)
	leaq	240(%rsp), %rax
	movq	%rax, 48(%rsp)
	leaq	256(%rsp), %rax
	movq	%rax, 40(%rsp)
	leaq	64(%rsp), %rax
	movq	%rax, 32(%rsp)
	leaq	400(%rsp), %rcx
	leaq	128(%rsp), %r8
	movq	%r14, %rdx
	movq	%r15, %r9
	callq	"keyed_blake3::chunks::take_block::<#8b36ca032ac25711>"
	movdqa	%xmm6, %xmm0
	blendvps	%xmm0, 400(%rsp), %xmm9
	blendvps	%xmm0, 416(%rsp), %xmm10
	blendvps	%xmm0, 432(%rsp), %xmm11
	blendvps	%xmm0, 448(%rsp), %xmm12
	blendvps	%xmm0, 464(%rsp), %xmm13
	blendvps	%xmm0, 480(%rsp), %xmm14
	blendvps	%xmm0, 496(%rsp), %xmm15
	blendvps	%xmm0, 512(%rsp), %xmm7
	incq	%r15
	cmpq	%r15, %r12
	jne	.LBB16_15
	movaps	%xmm9, 912(%rsp)
	movaps	%xmm10, 928(%rsp)
	movaps	%xmm11, 944(%rsp)
	movaps	%xmm12, 960(%rsp)
	movaps	%xmm13, 976(%rsp)
	movaps	%xmm14, 992(%rsp)
	movaps	%xmm15, 1008(%rsp)
	movaps	%xmm7, 1024(%rsp)
	movq	%rbp, %rax
	shlq	$5, %rax
	leaq	1452(%rsp), %rcx
	addq	%rcx, %rax
	xorl	%ecx, %ecx
	.p2align	4
.LBB16_17:
	movl	912(%rsp,%rcx,4), %edx
	movl	928(%rsp,%rcx,4), %r8d
	movl	944(%rsp,%rcx,4), %r9d
	movl	960(%rsp,%rcx,4), %r10d
	movl	976(%rsp,%rcx,4), %r11d
	movl	992(%rsp,%rcx,4), %r14d
	movl	1008(%rsp,%rcx,4), %r15d
	movl	1024(%rsp,%rcx,4), %r12d
	movl	%edx, -28(%rax)
	movl	%r8d, -24(%rax)
	movl	%r9d, -20(%rax)
	movl	%r10d, -16(%rax)
	movl	%r11d, -12(%rax)
	movl	%r14d, -8(%rax)
	movl	%r15d, -4(%rax)
	movl	%r12d, (%rax)
	incq	%rcx
	addq	$32, %rax
	cmpq	%rcx, %r13
	jne	.LBB16_17
	addq	%r13, %rbp
	jmp	.LBB16_22
.LBB16_23:
	leaq	912(%rsp), %rbx
	leaq	1424(%rsp), %rdx
	movl	$512, %r8d
	movq	%rbx, %rcx
	callq	memcpy
	leaq	1424(%rsp), %rcx
	movl	$512, %r8d
	movq	%rbx, %rdx
	callq	memcpy
	xorl	%ebx, %ebx
	leaq	400(%rsp), %rcx
	movl	$512, %r8d
	xorl	%edx, %edx
	callq	memset
	movq	56(%rsp), %r14
	testq	%r14, %r14
	je	.LBB16_27
	movq	%rdi, %rax
	andq	$-2, %rax
	movl	$48, %ecx
	xorl	%ebx, %ebx
	.p2align	4
.LBB16_25:
	movdqu	1376(%rsp,%rcx), %xmm0
	movups	1392(%rsp,%rcx), %xmm1
	movups	1408(%rsp,%rcx), %xmm2
	movups	1424(%rsp,%rcx), %xmm3
	movdqu	%xmm0, 352(%rsp,%rcx)
	movups	%xmm1, 368(%rsp,%rcx)
	movups	%xmm2, 384(%rsp,%rcx)
	movups	%xmm3, 400(%rsp,%rcx)
	addq	$2, %rbx
	addq	$64, %rcx
	cmpq	%rbx, %rax
	jne	.LBB16_25
	testb	$1, %dil
	je	.LBB16_28
.LBB16_27:
	shlq	$5, %rbx
	movdqu	1424(%rsp,%rbx), %xmm0
	movups	1440(%rsp,%rbx), %xmm1
	movdqu	%xmm0, 400(%rsp,%rbx)
	movups	%xmm1, 416(%rsp,%rbx)
.LBB16_28:
	leaq	2448(%rsp), %rbx
	leaq	400(%rsp), %rdx
	movl	$512, %r8d
	movq	%rbx, %rcx
	callq	memcpy
	leaq	1936(%rsp), %rcx
	movl	$512, %r8d
	movq	%rbx, %rdx
	callq	memcpy
	testq	%r14, %r14
	je	.LBB16_29
	movq	%rdi, %rcx
	andq	$-2, %rcx
	leaq	1968(%rsp), %rdx
	xorl	%eax, %eax
	movq	3232(%rsp), %r9
	.p2align	4
.LBB16_31:
	movq	(%rsi,%rax,8), %r8
	shlq	$5, %r8
	movups	-32(%rdx), %xmm0
	movups	-16(%rdx), %xmm1
	movups	%xmm1, 16(%r9,%r8)
	movups	%xmm0, (%r9,%r8)
	movq	8(%rsi,%rax,8), %r8
	shlq	$5, %r8
	movdqu	(%rdx), %xmm0
	movups	16(%rdx), %xmm1
	movups	%xmm1, 16(%r9,%r8)
	movdqu	%xmm0, (%r9,%r8)
	addq	$2, %rax
	addq	$64, %rdx
	cmpq	%rax, %rcx
	jne	.LBB16_31
	testb	$1, %dil
	jne	.LBB16_33
	jmp	.LBB16_34
.LBB16_29:
	xorl	%eax, %eax
	movq	3232(%rsp), %r9
.LBB16_33:
	movq	(%rsi,%rax,8), %rcx
	shlq	$5, %rax
	shlq	$5, %rcx
	movdqu	1936(%rsp,%rax), %xmm0
	movups	1952(%rsp,%rax), %xmm1
	movups	%xmm1, 16(%r9,%rcx)
	movdqu	%xmm0, (%r9,%rcx)
.LBB16_34:
	movaps	2960(%rsp), %xmm6
	movaps	2976(%rsp), %xmm7
	movaps	2992(%rsp), %xmm8
	movaps	3008(%rsp), %xmm9
	movaps	3024(%rsp), %xmm10
	movaps	3040(%rsp), %xmm11
	movaps	3056(%rsp), %xmm12
	movaps	3072(%rsp), %xmm13
	movaps	3088(%rsp), %xmm14
	movaps	3104(%rsp), %xmm15
	addq	$3128, %rsp
	popq	%rbx
	popq	%rbp
	popq	%rdi
	popq	%rsi
	popq	%r12
	popq	%r13
	popq	%r14
	popq	%r15
	retq
	.seh_endproc

	.section	.rdata,"dr"
	.p2align	4, 0x0
.LCPI17_0:
	.byte	7
	.byte	6
	.byte	5
	.byte	4
	.byte	3
	.byte	2
	.byte	1
	.byte	0
	.byte	15
	.byte	14
	.byte	13
	.byte	12
	.byte	11
	.byte	10
	.byte	9
	.byte	8
.LCPI17_1:
	.zero	16,15
.LCPI17_2:
	.byte	160
	.byte	160
	.byte	160
	.byte	160
	.byte	160
	.byte	160
	.byte	160
	.byte	160
	.zero	1
	.zero	1
	.zero	1
	.zero	1
	.zero	1
	.zero	1
	.zero	1
	.zero	1
.LCPI17_3:
	.byte	48
	.byte	48
	.byte	48
	.byte	48
	.byte	48
	.byte	48
	.byte	48
	.byte	48
	.zero	1
	.zero	1
	.zero	1
	.zero	1
	.zero	1
	.zero	1
	.zero	1
	.zero	1
.LCPI17_4:
	.byte	87
	.byte	87
	.byte	87
	.byte	87
	.byte	87
	.byte	87
	.byte	87
	.byte	87
	.zero	1
	.zero	1
	.zero	1
	.zero	1
	.zero	1
	.zero	1
	.zero	1
	.zero	1
.LCPI17_5:
	.byte	15
	.byte	15
	.byte	15
	.byte	15
	.byte	15
	.byte	15
	.byte	15
	.byte	15
	.zero	1
	.zero	1
	.zero	1
	.zero	1
	.zero	1
	.zero	1
	.zero	1
	.zero	1
.LCPI17_6:
	.byte	10
	.byte	10
	.byte	10
	.byte	10
	.byte	10
	.byte	10
	.byte	10
	.byte	10
	.zero	1
	.zero	1
	.zero	1
	.zero	1
	.zero	1
	.zero	1
	.zero	1
	.zero	1
	.section	.text
	.p2align	4
	.def	"xet_roots::groups::write_text";
	.scl	3;
	.type	32;
	.endef
"xet_roots::groups::write_text":
.seh_proc "xet_roots::groups::write_text"
	pushq	%r15
	.seh_pushreg %r15
	pushq	%r14
	.seh_pushreg %r14
	pushq	%rsi
	.seh_pushreg %rsi
	pushq	%rdi
	.seh_pushreg %rdi
	pushq	%rbp
	.seh_pushreg %rbp
	pushq	%rbx
	.seh_pushreg %rbx
	subq	$184, %rsp
	.seh_stackalloc 184
	movdqa	%xmm12, 160(%rsp)
	.seh_savexmm %xmm12, 160
	movdqa	%xmm11, 144(%rsp)
	.seh_savexmm %xmm11, 144
	movdqa	%xmm10, 128(%rsp)
	.seh_savexmm %xmm10, 128
	movdqa	%xmm9, 112(%rsp)
	.seh_savexmm %xmm9, 112
	movdqa	%xmm8, 96(%rsp)
	.seh_savexmm %xmm8, 96
	movdqa	%xmm7, 80(%rsp)
	.seh_savexmm %xmm7, 80
	movdqa	%xmm6, 64(%rsp)
	.seh_savexmm %xmm6, 64
	.seh_endprologue
	testq	%r8, %r8
	je	.LBB17_1
	movq	%r8, %rsi
	movq	%rdx, %rdi
	movq	%rcx, %rbx
	xorl	%r9d, %r9d
	xorl	%r15d, %r15d
	jmp	.LBB17_3
.LBB17_19:
	movzwl	%r8w, %ecx
	movzwl	(%rax,%rcx,2), %eax
	movw	%ax, 29(%rsp,%r10)
	addq	$-3, %r10
.LBB17_20:
	movl	$20, %r8d
	subq	%r10, %r8
	leaq	(%r8,%r9), %r14
	addq	%rbx, %r9
	leaq	(%rsp,%r10), %rdx
	addq	$32, %rdx
	movq	%r9, %rcx
	callq	memcpy
.LBB17_21:
	movb	$10, (%rbx,%r14)
	incq	%r14
	incq	%r15
	movq	%r14, %r9
	cmpq	%rsi, %r15
	je	.LBB17_22
.LBB17_3:
	leaq	(%r15,%r15,4), %rax
	movq	32(%rdi,%rax,8), %rdx
	movdqu	(%rdi,%rax,8), %xmm9
	movdqu	16(%rdi,%rax,8), %xmm6
	movdqa	.LCPI17_0(%rip), %xmm0
	pshufb	%xmm0, %xmm6
	pshufb	%xmm0, %xmm9
	movdqa	%xmm9, %xmm2
	psrlw	$4, %xmm2
	movdqa	.LCPI17_1(%rip), %xmm7
	pand	%xmm7, %xmm2
	movdqa	.LCPI17_2(%rip), %xmm1
	movdqa	%xmm9, %xmm0
	pmaxub	%xmm1, %xmm0
	pcmpeqb	%xmm9, %xmm0
	movdqa	.LCPI17_3(%rip), %xmm4
	movdqa	%xmm2, %xmm3
	por	%xmm4, %xmm3
	movdqa	.LCPI17_4(%rip), %xmm5
	paddb	%xmm5, %xmm2
	pblendvb	%xmm0, %xmm2, %xmm3
	movdqa	.LCPI17_5(%rip), %xmm8
	pshufd	$238, %xmm9, %xmm10
	pand	%xmm8, %xmm9
	movdqa	.LCPI17_6(%rip), %xmm2
	movdqa	%xmm2, %xmm0
	pcmpgtb	%xmm9, %xmm0
	movdqa	%xmm9, %xmm11
	por	%xmm4, %xmm11
	paddb	%xmm5, %xmm9
	pblendvb	%xmm0, %xmm11, %xmm9
	punpcklbw	%xmm9, %xmm3
	movdqa	%xmm10, %xmm11
	psrlw	$4, %xmm11
	pand	%xmm7, %xmm11
	movdqa	%xmm10, %xmm0
	pmaxub	%xmm1, %xmm0
	pcmpeqb	%xmm10, %xmm0
	movdqa	%xmm11, %xmm9
	por	%xmm4, %xmm9
	paddb	%xmm5, %xmm11
	pblendvb	%xmm0, %xmm11, %xmm9
	pand	%xmm8, %xmm10
	movdqa	%xmm2, %xmm0
	pcmpgtb	%xmm10, %xmm0
	movdqa	%xmm10, %xmm11
	por	%xmm4, %xmm11
	paddb	%xmm5, %xmm10
	pblendvb	%xmm0, %xmm11, %xmm10
	movdqa	%xmm6, %xmm12
	psrlw	$4, %xmm12
	pand	%xmm7, %xmm12
	movdqa	%xmm6, %xmm0
	pmaxub	%xmm1, %xmm0
	pcmpeqb	%xmm6, %xmm0
	movdqa	%xmm12, %xmm11
	por	%xmm4, %xmm11
	paddb	%xmm5, %xmm12
	pblendvb	%xmm0, %xmm12, %xmm11
	punpcklbw	%xmm10, %xmm9
	pshufd	$238, %xmm6, %xmm10
	pand	%xmm8, %xmm6
	movdqa	%xmm2, %xmm0
	pcmpgtb	%xmm6, %xmm0
	movdqa	%xmm6, %xmm12
	por	%xmm4, %xmm12
	paddb	%xmm5, %xmm6
	pblendvb	%xmm0, %xmm12, %xmm6
	punpcklbw	%xmm6, %xmm11
	movdqa	%xmm10, %xmm6
	psrlw	$4, %xmm6
	pand	%xmm7, %xmm6
	pmaxub	%xmm10, %xmm1
	pcmpeqb	%xmm10, %xmm1
	movdqa	%xmm6, %xmm7
	por	%xmm4, %xmm7
	paddb	%xmm5, %xmm6
	movdqa	%xmm1, %xmm0
	pblendvb	%xmm0, %xmm6, %xmm7
	pand	%xmm8, %xmm10
	pcmpgtb	%xmm10, %xmm2
	por	%xmm10, %xmm4
	paddb	%xmm5, %xmm10
	movdqa	%xmm2, %xmm0
	pblendvb	%xmm0, %xmm4, %xmm10
	punpcklbw	%xmm10, %xmm7
	movdqu	%xmm3, (%rbx,%r9)
	movdqu	%xmm9, 16(%rbx,%r9)
	movdqu	%xmm11, 32(%rbx,%r9)
	movdqu	%xmm7, 48(%rbx,%r9)
	leaq	(%rbx,%r9), %rax
	addq	$64, %rax
	leaq	static.3(%rip), %rcx
	movq	%rax, %r8
	subq	%rcx, %r8
	cmpq	$2, %r8
	ja	.LBB17_5
	leaq	(%rbx,%r9), %rax
	movw	$14880, 64(%rax)
	movb	$32, 66(%rax)
	cmpq	$99999999, %rdx
	jbe	.LBB17_7
.LBB17_11:
	addq	$67, %r9
	pxor	%xmm0, %xmm0
	movdqa	%xmm0, 32(%rsp)
	movl	$0, 48(%rsp)
	movl	$19, %r10d
	.p2align	4
.LBB17_12:
	movq	%rdx, %rcx
	movabsq	$3777893186295716171, %rdx
	movq	%rcx, %rax
	mulq	%rdx
	shrq	$11, %rdx
	imull	$10000, %edx, %eax
	movl	%ecx, %r8d
	subl	%eax, %r8d
	imull	$5243, %r8d, %r11d
	shrl	$19, %r11d
	imull	$100, %r11d, %eax
	subl	%eax, %r8d
	movzwl	%r8w, %r8d
	leaq	static.6(%rip), %rax
	movzwl	(%rax,%r8,2), %r8d
	movw	%r8w, 31(%rsp,%r10)
	movzwl	(%rax,%r11,2), %r8d
	movw	%r8w, 29(%rsp,%r10)
	addq	$-4, %r10
	cmpq	$99999999, %rcx
	ja	.LBB17_12
	cmpq	$999999, %rcx
	ja	.LBB17_17
	cmpq	$99999, %rcx
	ja	.LBB17_16
	orb	$48, %dl
	movb	%dl, 32(%rsp,%r10)
	jmp	.LBB17_20
	.p2align	4
.LBB17_5:
	movb	$32, 2(%rax)
	movw	$14880, (%rax)
	cmpq	$99999999, %rdx
	ja	.LBB17_11
.LBB17_7:
	xorl	%eax, %eax
	cmpq	$9999, %rdx
	ja	.LBB17_9
	cmpq	$1000, %rdx
	adcq	$4, %rax
	cmpq	$100, %rdx
	movl	$6, %ecx
	cmovaeq	%rax, %rcx
	cmpq	$10, %rdx
	movl	$7, %eax
	jmp	.LBB17_10
	.p2align	4
.LBB17_17:
	movl	%edx, %r8d
	shrl	$2, %r8d
	movzwl	%r8w, %r8d
	imull	$5243, %r8d, %r8d
	shrl	$17, %r8d
	imull	$100, %r8d, %r11d
	subl	%r11d, %edx
	movzwl	%dx, %edx
	movzwl	(%rax,%rdx,2), %edx
	movw	%dx, 31(%rsp,%r10)
	cmpq	$9999999, %rcx
	ja	.LBB17_19
	orb	$48, %r8b
	movb	%r8b, 30(%rsp,%r10)
	addq	$-2, %r10
	jmp	.LBB17_20
	.p2align	4
.LBB17_9:
	cmpq	$10000000, %rdx
	setb	%al
	cmpq	$1000000, %rdx
	movl	$2, %ecx
	cmovaeq	%rax, %rcx
	cmpq	$100000, %rdx
	movl	$3, %eax
.LBB17_10:
	cmovaeq	%rcx, %rax
	movl	$3518437209, %ecx
	imulq	%rdx, %rcx
	shrq	$45, %rcx
	movzwl	%cx, %r8d
	shrl	$2, %r8d
	imull	$5243, %r8d, %r8d
	shrl	$17, %r8d
	leaq	static.6(%rip), %r10
	movzwl	(%r10,%r8,2), %r11d
	imull	$100, %r8d, %r8d
	imull	$10000, %ecx, %ebp
	subl	%r8d, %ecx
	movzwl	%cx, %ecx
	movzwl	(%r10,%rcx,2), %ecx
	shll	$16, %ecx
	orq	%r11, %rcx
	subl	%ebp, %edx
	imull	$5243, %edx, %r8d
	shrl	$19, %r8d
	movzwl	(%r10,%r8,2), %r11d
	imull	$100, %r8d, %r8d
	subl	%r8d, %edx
	movzwl	%dx, %edx
	movzwl	(%r10,%rdx,2), %edx
	shlq	$48, %rdx
	shlq	$32, %r11
	orq	%rcx, %r11
	orq	%rdx, %r11
	leal	(,%rax,8), %ecx
	shrq	%cl, %r11
	movq	%r11, 67(%rbx,%r9)
	subq	%rax, %r9
	addq	$75, %r9
	movq	%r9, %r14
	jmp	.LBB17_21
.LBB17_16:
	movzwl	(%rax,%rdx,2), %eax
	movw	%ax, 31(%rsp,%r10)
	decq	%r10
	jmp	.LBB17_20
.LBB17_1:
	xorl	%r14d, %r14d
.LBB17_22:
	movq	%r14, %rax
	movaps	64(%rsp), %xmm6
	movaps	80(%rsp), %xmm7
	movaps	96(%rsp), %xmm8
	movaps	112(%rsp), %xmm9
	movaps	128(%rsp), %xmm10
	movaps	144(%rsp), %xmm11
	movaps	160(%rsp), %xmm12
	addq	$184, %rsp
	popq	%rbx
	popq	%rbp
	popq	%rdi
	popq	%rsi
	popq	%r14
	popq	%r15
	retq
	.seh_endproc

	.section	.rdata,"dr"
	.p2align	4, 0x0
.LCPI18_0:
	.byte	2
	.byte	3
	.byte	0
	.byte	1
	.byte	6
	.byte	7
	.byte	4
	.byte	5
	.byte	10
	.byte	11
	.byte	8
	.byte	9
	.byte	14
	.byte	15
	.byte	12
	.byte	13
.LCPI18_1:
	.long	1779033703
	.long	1779033703
	.long	1779033703
	.long	1779033703
.LCPI18_2:
	.long	3144134277
	.long	3144134277
	.long	3144134277
	.long	3144134277
.LCPI18_3:
	.long	1013904242
	.long	1013904242
	.long	1013904242
	.long	1013904242
.LCPI18_4:
	.long	2773480762
	.long	2773480762
	.long	2773480762
	.long	2773480762
.LCPI18_5:
	.byte	1
	.byte	2
	.byte	3
	.byte	0
	.byte	5
	.byte	6
	.byte	7
	.byte	4
	.byte	9
	.byte	10
	.byte	11
	.byte	8
	.byte	13
	.byte	14
	.byte	15
	.byte	12
	.section	.text
	.p2align	4
	.def	"keyed_blake3::chunks::take_block::<#8b36ca032ac25711>";
	.scl	3;
	.type	32;
	.endef
"keyed_blake3::chunks::take_block::<#8b36ca032ac25711>":
.seh_proc "keyed_blake3::chunks::take_block::<#8b36ca032ac25711>"
	subq	$456, %rsp
	.seh_stackalloc 456
	movaps	%xmm15, 432(%rsp)
	.seh_savexmm %xmm15, 432
	movaps	%xmm14, 416(%rsp)
	.seh_savexmm %xmm14, 416
	movaps	%xmm13, 400(%rsp)
	.seh_savexmm %xmm13, 400
	movaps	%xmm12, 384(%rsp)
	.seh_savexmm %xmm12, 384
	movaps	%xmm11, 368(%rsp)
	.seh_savexmm %xmm11, 368
	movaps	%xmm10, 352(%rsp)
	.seh_savexmm %xmm10, 352
	movaps	%xmm9, 336(%rsp)
	.seh_savexmm %xmm9, 336
	movaps	%xmm8, 320(%rsp)
	.seh_savexmm %xmm8, 320
	movaps	%xmm7, 304(%rsp)
	.seh_savexmm %xmm7, 304
	movaps	%xmm6, 288(%rsp)
	.seh_savexmm %xmm6, 288
	.seh_endprologue
	shlq	$6, %r9
	addq	%rdx, %r9
	movq	(%r8), %rdx
	movq	8(%r8), %r10
	shlq	$10, %rdx
	shlq	$10, %r10
	movq	16(%r8), %r11
	shlq	$10, %r11
	movq	24(%r8), %rax
	shlq	$10, %rax
	movdqu	(%rdx,%r9), %xmm11
	prefetcht0	128(%rdx,%r9)
	movdqu	16(%rdx,%r9), %xmm12
	movups	32(%rdx,%r9), %xmm14
	movups	48(%rdx,%r9), %xmm0
	movaps	%xmm0, 48(%rsp)
	movdqu	(%r11,%r9), %xmm0
	prefetcht0	128(%r11,%r9)
	movdqu	16(%r11,%r9), %xmm6
	movups	32(%r11,%r9), %xmm3
	movups	48(%r11,%r9), %xmm1
	movdqa	%xmm11, %xmm2
	punpckldq	%xmm0, %xmm2
	movdqa	%xmm2, %xmm13
	punpckhdq	%xmm0, %xmm11
	movdqu	(%r10,%r9), %xmm7
	prefetcht0	128(%r10,%r9)
	movdqu	16(%r10,%r9), %xmm5
	movups	32(%r10,%r9), %xmm2
	movups	48(%r10,%r9), %xmm0
	movdqu	(%rax,%r9), %xmm8
	prefetcht0	128(%rax,%r9)
	movdqu	16(%rax,%r9), %xmm9
	movups	32(%rax,%r9), %xmm4
	movdqa	%xmm7, %xmm10
	punpckldq	%xmm8, %xmm10
	punpckhdq	%xmm8, %xmm7
	movdqa	%xmm13, %xmm8
	punpckldq	%xmm10, %xmm8
	movdqa	%xmm8, %xmm15
	movdqa	%xmm8, 240(%rsp)
	punpckhdq	%xmm10, %xmm13
	movdqa	%xmm13, 32(%rsp)
	movdqa	%xmm11, %xmm8
	punpckldq	%xmm7, %xmm8
	movdqa	%xmm8, %xmm13
	movdqa	%xmm8, 256(%rsp)
	punpckhdq	%xmm7, %xmm11
	movdqa	%xmm11, 160(%rsp)
	movdqa	%xmm12, %xmm8
	punpckldq	%xmm6, %xmm8
	punpckhdq	%xmm6, %xmm12
	movdqa	%xmm5, %xmm6
	punpckldq	%xmm9, %xmm6
	punpckhdq	%xmm9, %xmm5
	movdqa	%xmm8, %xmm7
	punpckldq	%xmm6, %xmm7
	movdqa	%xmm7, %xmm11
	movdqa	%xmm7, 272(%rsp)
	punpckhdq	%xmm6, %xmm8
	movdqa	%xmm8, 128(%rsp)
	movdqa	%xmm12, %xmm6
	punpckldq	%xmm5, %xmm6
	movdqa	%xmm6, 224(%rsp)
	punpckhdq	%xmm5, %xmm12
	movdqa	%xmm12, 80(%rsp)
	movaps	%xmm14, %xmm5
	unpcklps	%xmm3, %xmm5
	unpckhps	%xmm3, %xmm14
	movaps	%xmm2, %xmm3
	unpcklps	%xmm4, %xmm3
	unpckhps	%xmm4, %xmm2
	movaps	%xmm5, %xmm4
	unpcklps	%xmm3, %xmm4
	movaps	%xmm4, 112(%rsp)
	unpckhps	%xmm3, %xmm5
	movaps	%xmm5, 144(%rsp)
	movaps	%xmm14, %xmm3
	unpcklps	%xmm2, %xmm3
	movaps	%xmm3, 208(%rsp)
	unpckhps	%xmm2, %xmm14
	movaps	%xmm14, 96(%rsp)
	movaps	48(%rsp), %xmm14
	movaps	%xmm14, %xmm3
	unpcklps	%xmm1, %xmm3
	unpckhps	%xmm1, %xmm14
	movups	48(%rax,%r9), %xmm1
	movaps	%xmm0, %xmm2
	unpcklps	%xmm1, %xmm2
	unpckhps	%xmm1, %xmm0
	movaps	%xmm3, %xmm1
	unpcklps	%xmm2, %xmm1
	movaps	%xmm1, 192(%rsp)
	unpckhps	%xmm2, %xmm3
	movaps	%xmm3, 176(%rsp)
	movaps	%xmm14, %xmm1
	unpcklps	%xmm0, %xmm1
	movaps	%xmm1, 64(%rsp)
	unpckhps	%xmm0, %xmm14
	movaps	%xmm14, 48(%rsp)
	movq	496(%rsp), %rax
	movdqu	(%rcx), %xmm5
	movdqu	64(%rcx), %xmm3
	paddd	%xmm3, %xmm5
	paddd	%xmm15, %xmm5
	movdqu	(%rax), %xmm15
	pxor	%xmm5, %xmm15
	movdqa	.LCPI18_0(%rip), %xmm14
	pshufb	%xmm14, %xmm15
	movdqa	.LCPI18_1(%rip), %xmm10
	paddd	%xmm15, %xmm10
	pxor	%xmm10, %xmm3
	movdqa	%xmm3, %xmm1
	psrld	$12, %xmm1
	pslld	$20, %xmm3
	por	%xmm1, %xmm3
	movdqu	16(%rcx), %xmm8
	movdqu	80(%rcx), %xmm4
	paddd	%xmm4, %xmm8
	paddd	%xmm13, %xmm8
	movdqu	16(%rax), %xmm7
	pxor	%xmm8, %xmm7
	pshufb	%xmm14, %xmm7
	movdqa	.LCPI18_2(%rip), %xmm0
	paddd	%xmm7, %xmm0
	movdqa	%xmm0, (%rsp)
	pxor	%xmm0, %xmm4
	movdqa	%xmm4, %xmm1
	psrld	$12, %xmm1
	pslld	$20, %xmm4
	por	%xmm1, %xmm4
	movq	504(%rsp), %rax
	movdqu	32(%rcx), %xmm12
	movdqu	96(%rcx), %xmm9
	paddd	%xmm9, %xmm12
	paddd	%xmm11, %xmm12
	movdqu	(%rax), %xmm11
	pxor	%xmm12, %xmm11
	pshufb	%xmm14, %xmm11
	movdqa	.LCPI18_3(%rip), %xmm0
	paddd	%xmm11, %xmm0
	movdqa	%xmm0, 16(%rsp)
	pxor	%xmm0, %xmm9
	movdqa	%xmm9, %xmm1
	psrld	$12, %xmm1
	pslld	$20, %xmm9
	por	%xmm1, %xmm9
	movq	512(%rsp), %rax
	movdqu	48(%rcx), %xmm1
	movdqu	112(%rcx), %xmm2
	paddd	%xmm2, %xmm1
	paddd	%xmm6, %xmm1
	movdqu	(%rax), %xmm6
	pxor	%xmm1, %xmm6
	pshufb	%xmm14, %xmm6
	movdqa	.LCPI18_4(%rip), %xmm13
	paddd	%xmm6, %xmm13
	pxor	%xmm13, %xmm2
	movdqa	%xmm13, %xmm14
	movdqa	%xmm2, %xmm13
	psrld	$12, %xmm13
	pslld	$20, %xmm2
	por	%xmm13, %xmm2
	paddd	32(%rsp), %xmm5
	paddd	%xmm3, %xmm5
	movdqa	.LCPI18_5(%rip), %xmm0
	movdqa	%xmm5, %xmm13
	pshufb	%xmm0, %xmm13
	pshufb	%xmm0, %xmm15
	pxor	%xmm13, %xmm15
	paddd	160(%rsp), %xmm8
	paddd	%xmm4, %xmm8
	movdqa	%xmm8, %xmm13
	pshufb	%xmm0, %xmm13
	pshufb	%xmm0, %xmm7
	pxor	%xmm13, %xmm7
	paddd	128(%rsp), %xmm12
	paddd	%xmm9, %xmm12
	movdqa	%xmm12, %xmm13
	pshufb	%xmm0, %xmm13
	pshufb	%xmm0, %xmm11
	pxor	%xmm13, %xmm11
	paddd	80(%rsp), %xmm1
	paddd	%xmm2, %xmm1
	movdqa	%xmm1, %xmm13
	pshufb	%xmm0, %xmm13
	pshufb	%xmm0, %xmm6
	pxor	%xmm13, %xmm6
	paddd	%xmm15, %xmm10
	pxor	%xmm10, %xmm3
	movdqa	%xmm3, %xmm13
	psrld	$7, %xmm13
	pslld	$25, %xmm3
	por	%xmm13, %xmm3
	movdqa	(%rsp), %xmm0
	paddd	%xmm7, %xmm0
	movdqa	%xmm0, (%rsp)
	pxor	%xmm0, %xmm4
	movdqa	%xmm4, %xmm13
	psrld	$7, %xmm13
	pslld	$25, %xmm4
	por	%xmm13, %xmm4
	movdqa	16(%rsp), %xmm0
	paddd	%xmm11, %xmm0
	movdqa	%xmm0, 16(%rsp)
	pxor	%xmm0, %xmm9
	movdqa	%xmm9, %xmm13
	psrld	$7, %xmm13
	pslld	$25, %xmm9
	por	%xmm13, %xmm9
	paddd	%xmm6, %xmm14
	pxor	%xmm14, %xmm2
	movdqa	%xmm2, %xmm13
	psrld	$7, %xmm13
	pslld	$25, %xmm2
	por	%xmm13, %xmm2
	paddd	64(%rsp), %xmm1
	paddd	%xmm3, %xmm1
	pxor	%xmm1, %xmm11
	movdqa	.LCPI18_0(%rip), %xmm0
	pshufb	%xmm0, %xmm11
	movdqa	(%rsp), %xmm13
	paddd	%xmm11, %xmm13
	movdqa	%xmm13, (%rsp)
	pxor	%xmm13, %xmm3
	movdqa	%xmm3, %xmm13
	psrld	$12, %xmm13
	pslld	$20, %xmm3
	por	%xmm13, %xmm3
	paddd	112(%rsp), %xmm5
	paddd	%xmm4, %xmm5
	pxor	%xmm5, %xmm6
	pshufb	%xmm0, %xmm6
	movdqa	16(%rsp), %xmm13
	paddd	%xmm6, %xmm13
	movdqa	%xmm13, 16(%rsp)
	pxor	%xmm13, %xmm4
	movdqa	%xmm4, %xmm13
	psrld	$12, %xmm13
	pslld	$20, %xmm4
	por	%xmm13, %xmm4
	paddd	208(%rsp), %xmm8
	paddd	%xmm9, %xmm8
	pxor	%xmm8, %xmm15
	pshufb	%xmm0, %xmm15
	paddd	%xmm15, %xmm14
	pxor	%xmm14, %xmm9
	movdqa	%xmm9, %xmm13
	psrld	$12, %xmm13
	pslld	$20, %xmm9
	por	%xmm13, %xmm9
	paddd	192(%rsp), %xmm12
	paddd	%xmm2, %xmm12
	pxor	%xmm12, %xmm7
	pshufb	%xmm0, %xmm7
	paddd	%xmm7, %xmm10
	pxor	%xmm10, %xmm2
	movdqa	%xmm2, %xmm13
	psrld	$12, %xmm13
	pslld	$20, %xmm2
	por	%xmm13, %xmm2
	paddd	48(%rsp), %xmm1
	paddd	%xmm3, %xmm1
	movdqa	%xmm1, %xmm13
	movdqa	.LCPI18_5(%rip), %xmm0
	pshufb	%xmm0, %xmm13
	pshufb	%xmm0, %xmm11
	pxor	%xmm13, %xmm11
	paddd	144(%rsp), %xmm5
	paddd	%xmm4, %xmm5
	movdqa	%xmm5, %xmm13
	pshufb	%xmm0, %xmm13
	pshufb	%xmm0, %xmm6
	pxor	%xmm13, %xmm6
	paddd	96(%rsp), %xmm8
	paddd	%xmm9, %xmm8
	movdqa	%xmm8, %xmm13
	pshufb	%xmm0, %xmm13
	pshufb	%xmm0, %xmm15
	pxor	%xmm13, %xmm15
	paddd	176(%rsp), %xmm12
	paddd	%xmm2, %xmm12
	movdqa	%xmm12, %xmm13
	pshufb	%xmm0, %xmm13
	pshufb	%xmm0, %xmm7
	pxor	%xmm13, %xmm7
	movdqa	(%rsp), %xmm0
	paddd	%xmm11, %xmm0
	movdqa	%xmm0, (%rsp)
	pxor	%xmm0, %xmm3
	movdqa	%xmm3, %xmm13
	psrld	$7, %xmm13
	pslld	$25, %xmm3
	por	%xmm13, %xmm3
	movdqa	16(%rsp), %xmm0
	paddd	%xmm6, %xmm0
	movdqa	%xmm0, 16(%rsp)
	pxor	%xmm0, %xmm4
	movdqa	%xmm4, %xmm13
	psrld	$7, %xmm13
	pslld	$25, %xmm4
	por	%xmm13, %xmm4
	paddd	%xmm15, %xmm14
	pxor	%xmm14, %xmm9
	movdqa	%xmm9, %xmm13
	psrld	$7, %xmm13
	pslld	$25, %xmm9
	por	%xmm13, %xmm9
	paddd	%xmm7, %xmm10
	pxor	%xmm10, %xmm2
	movdqa	%xmm2, %xmm13
	psrld	$7, %xmm13
	pslld	$25, %xmm2
	por	%xmm13, %xmm2
	paddd	256(%rsp), %xmm5
	paddd	%xmm3, %xmm5
	pxor	%xmm5, %xmm15
	movdqa	.LCPI18_0(%rip), %xmm0
	pshufb	%xmm0, %xmm15
	paddd	%xmm15, %xmm10
	pxor	%xmm10, %xmm3
	movdqa	%xmm3, %xmm13
	psrld	$12, %xmm13
	pslld	$20, %xmm3
	por	%xmm13, %xmm3
	paddd	160(%rsp), %xmm8
	paddd	%xmm4, %xmm8
	pxor	%xmm8, %xmm7
	pshufb	%xmm0, %xmm7
	movdqa	(%rsp), %xmm13
	paddd	%xmm7, %xmm13
	movdqa	%xmm13, (%rsp)
	pxor	%xmm13, %xmm4
	movdqa	%xmm4, %xmm13
	psrld	$12, %xmm13
	pslld	$20, %xmm4
	por	%xmm13, %xmm4
	paddd	80(%rsp), %xmm12
	paddd	%xmm9, %xmm12
	pxor	%xmm12, %xmm11
	pshufb	%xmm0, %xmm11
	movdqa	16(%rsp), %xmm13
	paddd	%xmm11, %xmm13
	movdqa	%xmm13, 16(%rsp)
	pxor	%xmm13, %xmm9
	movdqa	%xmm9, %xmm13
	psrld	$12, %xmm13
	pslld	$20, %xmm9
	por	%xmm13, %xmm9
	paddd	272(%rsp), %xmm1
	paddd	%xmm2, %xmm1
	pxor	%xmm1, %xmm6
	pshufb	%xmm0, %xmm6
	paddd	%xmm6, %xmm14
	pxor	%xmm14, %xmm2
	movdqa	%xmm2, %xmm13
	psrld	$12, %xmm13
	pslld	$20, %xmm2
	por	%xmm13, %xmm2
	paddd	224(%rsp), %xmm5
	paddd	%xmm3, %xmm5
	movdqa	%xmm5, %xmm13
	movdqa	.LCPI18_5(%rip), %xmm0
	pshufb	%xmm0, %xmm13
	pshufb	%xmm0, %xmm15
	pxor	%xmm13, %xmm15
	paddd	208(%rsp), %xmm8
	paddd	%xmm4, %xmm8
	movdqa	%xmm8, %xmm13
	pshufb	%xmm0, %xmm13
	pshufb	%xmm0, %xmm7
	pxor	%xmm13, %xmm7
	paddd	240(%rsp), %xmm12
	paddd	%xmm9, %xmm12
	movdqa	%xmm12, %xmm13
	pshufb	%xmm0, %xmm13
	pshufb	%xmm0, %xmm11
	pxor	%xmm13, %xmm11
	paddd	176(%rsp), %xmm1
	paddd	%xmm2, %xmm1
	movdqa	%xmm1, %xmm13
	pshufb	%xmm0, %xmm13
	pshufb	%xmm0, %xmm6
	pxor	%xmm13, %xmm6
	paddd	%xmm15, %xmm10
	pxor	%xmm10, %xmm3
	movdqa	%xmm3, %xmm13
	psrld	$7, %xmm13
	pslld	$25, %xmm3
	por	%xmm13, %xmm3
	movdqa	(%rsp), %xmm0
	paddd	%xmm7, %xmm0
	movdqa	%xmm0, (%rsp)
	pxor	%xmm0, %xmm4
	movdqa	%xmm4, %xmm13
	psrld	$7, %xmm13
	pslld	$25, %xmm4
	por	%xmm13, %xmm4
	movdqa	16(%rsp), %xmm0
	paddd	%xmm11, %xmm0
	movdqa	%xmm0, 16(%rsp)
	pxor	%xmm0, %xmm9
	movdqa	%xmm9, %xmm13
	psrld	$7, %xmm13
	pslld	$25, %xmm9
	por	%xmm13, %xmm9
	paddd	%xmm6, %xmm14
	pxor	%xmm14, %xmm2
	movdqa	%xmm2, %xmm13
	psrld	$7, %xmm13
	pslld	$25, %xmm2
	por	%xmm13, %xmm2
	paddd	48(%rsp), %xmm1
	paddd	%xmm3, %xmm1
	pxor	%xmm1, %xmm11
	movdqa	.LCPI18_0(%rip), %xmm0
	pshufb	%xmm0, %xmm11
	movdqa	(%rsp), %xmm13
	paddd	%xmm11, %xmm13
	movdqa	%xmm13, (%rsp)
	pxor	%xmm13, %xmm3
	movdqa	%xmm3, %xmm13
	psrld	$12, %xmm13
	pslld	$20, %xmm3
	por	%xmm13, %xmm3
	paddd	32(%rsp), %xmm5
	paddd	%xmm4, %xmm5
	pxor	%xmm5, %xmm6
	pshufb	%xmm0, %xmm6
	movdqa	16(%rsp), %xmm13
	paddd	%xmm6, %xmm13
	movdqa	%xmm13, 16(%rsp)
	pxor	%xmm13, %xmm4
	movdqa	%xmm4, %xmm13
	psrld	$12, %xmm13
	pslld	$20, %xmm4
	por	%xmm13, %xmm4
	paddd	192(%rsp), %xmm8
	paddd	%xmm9, %xmm8
	pxor	%xmm8, %xmm15
	pshufb	%xmm0, %xmm15
	paddd	%xmm15, %xmm14
	pxor	%xmm14, %xmm9
	movdqa	%xmm9, %xmm13
	psrld	$12, %xmm13
	pslld	$20, %xmm9
	por	%xmm13, %xmm9
	paddd	144(%rsp), %xmm12
	paddd	%xmm2, %xmm12
	pxor	%xmm12, %xmm7
	pshufb	%xmm0, %xmm7
	paddd	%xmm7, %xmm10
	pxor	%xmm10, %xmm2
	movdqa	%xmm2, %xmm13
	psrld	$12, %xmm13
	pslld	$20, %xmm2
	por	%xmm13, %xmm2
	paddd	112(%rsp), %xmm1
	paddd	%xmm3, %xmm1
	movdqa	%xmm1, %xmm13
	movdqa	.LCPI18_5(%rip), %xmm0
	pshufb	%xmm0, %xmm13
	pshufb	%xmm0, %xmm11
	pxor	%xmm13, %xmm11
	paddd	96(%rsp), %xmm5
	paddd	%xmm4, %xmm5
	movdqa	%xmm5, %xmm13
	pshufb	%xmm0, %xmm13
	pshufb	%xmm0, %xmm6
	pxor	%xmm13, %xmm6
	paddd	128(%rsp), %xmm8
	paddd	%xmm9, %xmm8
	movdqa	%xmm8, %xmm13
	pshufb	%xmm0, %xmm13
	pshufb	%xmm0, %xmm15
	pxor	%xmm13, %xmm15
	movdqa	64(%rsp), %xmm13
	paddd	%xmm13, %xmm12
	paddd	%xmm2, %xmm12
	movdqa	%xmm12, %xmm13
	pshufb	%xmm0, %xmm13
	pshufb	%xmm0, %xmm7
	pxor	%xmm13, %xmm7
	movdqa	(%rsp), %xmm0
	paddd	%xmm11, %xmm0
	movdqa	%xmm0, (%rsp)
	pxor	%xmm0, %xmm3
	movdqa	%xmm3, %xmm13
	psrld	$7, %xmm13
	pslld	$25, %xmm3
	por	%xmm13, %xmm3
	movdqa	16(%rsp), %xmm0
	paddd	%xmm6, %xmm0
	movdqa	%xmm0, 16(%rsp)
	pxor	%xmm0, %xmm4
	movdqa	%xmm4, %xmm13
	psrld	$7, %xmm13
	pslld	$25, %xmm4
	por	%xmm13, %xmm4
	paddd	%xmm15, %xmm14
	pxor	%xmm14, %xmm9
	movdqa	%xmm9, %xmm13
	psrld	$7, %xmm13
	pslld	$25, %xmm9
	por	%xmm13, %xmm9
	paddd	%xmm7, %xmm10
	pxor	%xmm10, %xmm2
	movdqa	%xmm2, %xmm13
	psrld	$7, %xmm13
	pslld	$25, %xmm2
	por	%xmm13, %xmm2
	paddd	160(%rsp), %xmm5
	paddd	%xmm3, %xmm5
	pxor	%xmm5, %xmm15
	movdqa	.LCPI18_0(%rip), %xmm0
	pshufb	%xmm0, %xmm15
	paddd	%xmm15, %xmm10
	pxor	%xmm10, %xmm3
	movdqa	%xmm3, %xmm13
	psrld	$12, %xmm13
	pslld	$20, %xmm3
	por	%xmm13, %xmm3
	paddd	208(%rsp), %xmm8
	paddd	%xmm4, %xmm8
	pxor	%xmm8, %xmm7
	pshufb	%xmm0, %xmm7
	movdqa	(%rsp), %xmm0
	paddd	%xmm7, %xmm0
	movdqa	%xmm0, (%rsp)
	pxor	%xmm0, %xmm4
	movdqa	%xmm4, %xmm13
	psrld	$12, %xmm13
	pslld	$20, %xmm4
	por	%xmm13, %xmm4
	paddd	176(%rsp), %xmm12
	paddd	%xmm9, %xmm12
	pxor	%xmm12, %xmm11
	movdqa	.LCPI18_0(%rip), %xmm0
	pshufb	%xmm0, %xmm11
	movdqa	16(%rsp), %xmm13
	paddd	%xmm11, %xmm13
	movdqa	%xmm13, 16(%rsp)
	pxor	%xmm13, %xmm9
	movdqa	%xmm9, %xmm13
	psrld	$12, %xmm13
	pslld	$20, %xmm9
	por	%xmm13, %xmm9
	paddd	80(%rsp), %xmm1
	paddd	%xmm2, %xmm1
	pxor	%xmm1, %xmm6
	pshufb	%xmm0, %xmm6
	paddd	%xmm6, %xmm14
	pxor	%xmm14, %xmm2
	movdqa	%xmm2, %xmm13
	psrld	$12, %xmm13
	pslld	$20, %xmm2
	por	%xmm13, %xmm2
	paddd	272(%rsp), %xmm5
	paddd	%xmm3, %xmm5
	movdqa	%xmm5, %xmm13
	movdqa	.LCPI18_5(%rip), %xmm0
	pshufb	%xmm0, %xmm13
	pshufb	%xmm0, %xmm15
	pxor	%xmm13, %xmm15
	paddd	192(%rsp), %xmm8
	paddd	%xmm4, %xmm8
	movdqa	%xmm8, %xmm13
	pshufb	%xmm0, %xmm13
	pshufb	%xmm0, %xmm7
	pxor	%xmm13, %xmm7
	paddd	256(%rsp), %xmm12
	paddd	%xmm9, %xmm12
	movdqa	%xmm12, %xmm13
	pshufb	%xmm0, %xmm13
	pshufb	%xmm0, %xmm11
	pxor	%xmm13, %xmm11
	paddd	64(%rsp), %xmm1
	paddd	%xmm2, %xmm1
	movdqa	%xmm1, %xmm13
	pshufb	%xmm0, %xmm13
	pshufb	%xmm0, %xmm6
	pxor	%xmm13, %xmm6
	paddd	%xmm15, %xmm10
	pxor	%xmm10, %xmm3
	movdqa	%xmm3, %xmm13
	psrld	$7, %xmm13
	pslld	$25, %xmm3
	por	%xmm13, %xmm3
	movdqa	(%rsp), %xmm0
	paddd	%xmm7, %xmm0
	movdqa	%xmm0, (%rsp)
	pxor	%xmm0, %xmm4
	movdqa	%xmm4, %xmm13
	psrld	$7, %xmm13
	pslld	$25, %xmm4
	por	%xmm13, %xmm4
	movdqa	16(%rsp), %xmm0
	paddd	%xmm11, %xmm0
	movdqa	%xmm0, 16(%rsp)
	pxor	%xmm0, %xmm9
	movdqa	%xmm9, %xmm13
	psrld	$7, %xmm13
	pslld	$25, %xmm9
	por	%xmm13, %xmm9
	paddd	%xmm6, %xmm14
	pxor	%xmm14, %xmm2
	movdqa	%xmm2, %xmm13
	psrld	$7, %xmm13
	pslld	$25, %xmm2
	por	%xmm13, %xmm2
	paddd	112(%rsp), %xmm1
	paddd	%xmm3, %xmm1
	pxor	%xmm1, %xmm11
	movdqa	.LCPI18_0(%rip), %xmm0
	pshufb	%xmm0, %xmm11
	movdqa	(%rsp), %xmm13
	paddd	%xmm11, %xmm13
	movdqa	%xmm13, (%rsp)
	pxor	%xmm13, %xmm3
	movdqa	%xmm3, %xmm13
	psrld	$12, %xmm13
	pslld	$20, %xmm3
	por	%xmm13, %xmm3
	paddd	224(%rsp), %xmm5
	paddd	%xmm4, %xmm5
	pxor	%xmm5, %xmm6
	pshufb	%xmm0, %xmm6
	movdqa	16(%rsp), %xmm13
	paddd	%xmm6, %xmm13
	movdqa	%xmm13, 16(%rsp)
	pxor	%xmm13, %xmm4
	movdqa	%xmm4, %xmm13
	psrld	$12, %xmm13
	pslld	$20, %xmm4
	por	%xmm13, %xmm4
	paddd	144(%rsp), %xmm8
	paddd	%xmm9, %xmm8
	pxor	%xmm8, %xmm15
	pshufb	%xmm0, %xmm15
	paddd	%xmm15, %xmm14
	pxor	%xmm14, %xmm9
	movdqa	%xmm9, %xmm13
	psrld	$12, %xmm13
	pslld	$20, %xmm9
	por	%xmm13, %xmm9
	paddd	96(%rsp), %xmm12
	paddd	%xmm2, %xmm12
	pxor	%xmm12, %xmm7
	pshufb	%xmm0, %xmm7
	paddd	%xmm7, %xmm10
	pxor	%xmm10, %xmm2
	movdqa	%xmm2, %xmm13
	psrld	$12, %xmm13
	pslld	$20, %xmm2
	por	%xmm13, %xmm2
	paddd	32(%rsp), %xmm1
	paddd	%xmm3, %xmm1
	movdqa	%xmm1, %xmm13
	movdqa	.LCPI18_5(%rip), %xmm0
	pshufb	%xmm0, %xmm13
	pshufb	%xmm0, %xmm11
	pxor	%xmm13, %xmm11
	paddd	128(%rsp), %xmm5
	paddd	%xmm4, %xmm5
	movdqa	%xmm5, %xmm13
	pshufb	%xmm0, %xmm13
	pshufb	%xmm0, %xmm6
	pxor	%xmm13, %xmm6
	paddd	240(%rsp), %xmm8
	paddd	%xmm9, %xmm8
	movdqa	%xmm8, %xmm13
	pshufb	%xmm0, %xmm13
	pshufb	%xmm0, %xmm15
	pxor	%xmm13, %xmm15
	paddd	48(%rsp), %xmm12
	paddd	%xmm2, %xmm12
	movdqa	%xmm12, %xmm13
	pshufb	%xmm0, %xmm13
	pshufb	%xmm0, %xmm7
	pxor	%xmm13, %xmm7
	movdqa	(%rsp), %xmm0
	paddd	%xmm11, %xmm0
	movdqa	%xmm0, (%rsp)
	pxor	%xmm0, %xmm3
	movdqa	%xmm3, %xmm13
	psrld	$7, %xmm13
	pslld	$25, %xmm3
	por	%xmm13, %xmm3
	movdqa	16(%rsp), %xmm0
	paddd	%xmm6, %xmm0
	movdqa	%xmm0, 16(%rsp)
	pxor	%xmm0, %xmm4
	movdqa	%xmm4, %xmm13
	psrld	$7, %xmm13
	pslld	$25, %xmm4
	por	%xmm13, %xmm4
	paddd	%xmm15, %xmm14
	pxor	%xmm14, %xmm9
	movdqa	%xmm9, %xmm13
	psrld	$7, %xmm13
	pslld	$25, %xmm9
	por	%xmm13, %xmm9
	paddd	%xmm7, %xmm10
	pxor	%xmm10, %xmm2
	movdqa	%xmm2, %xmm13
	psrld	$7, %xmm13
	pslld	$25, %xmm2
	por	%xmm13, %xmm2
	paddd	208(%rsp), %xmm5
	paddd	%xmm3, %xmm5
	pxor	%xmm5, %xmm15
	movdqa	.LCPI18_0(%rip), %xmm0
	pshufb	%xmm0, %xmm15
	paddd	%xmm15, %xmm10
	pxor	%xmm10, %xmm3
	movdqa	%xmm3, %xmm13
	psrld	$12, %xmm13
	pslld	$20, %xmm3
	por	%xmm13, %xmm3
	paddd	192(%rsp), %xmm8
	paddd	%xmm4, %xmm8
	pxor	%xmm8, %xmm7
	pshufb	%xmm0, %xmm7
	movdqa	(%rsp), %xmm0
	paddd	%xmm7, %xmm0
	movdqa	%xmm0, (%rsp)
	pxor	%xmm0, %xmm4
	movdqa	%xmm4, %xmm13
	psrld	$12, %xmm13
	pslld	$20, %xmm4
	por	%xmm13, %xmm4
	paddd	64(%rsp), %xmm12
	paddd	%xmm9, %xmm12
	pxor	%xmm12, %xmm11
	movdqa	.LCPI18_0(%rip), %xmm0
	pshufb	%xmm0, %xmm11
	movdqa	16(%rsp), %xmm13
	paddd	%xmm11, %xmm13
	movdqa	%xmm13, 16(%rsp)
	pxor	%xmm13, %xmm9
	movdqa	%xmm9, %xmm13
	psrld	$12, %xmm13
	pslld	$20, %xmm9
	por	%xmm13, %xmm9
	paddd	176(%rsp), %xmm1
	paddd	%xmm2, %xmm1
	pxor	%xmm1, %xmm6
	pshufb	%xmm0, %xmm6
	paddd	%xmm6, %xmm14
	pxor	%xmm14, %xmm2
	movdqa	%xmm2, %xmm13
	psrld	$12, %xmm13
	pslld	$20, %xmm2
	por	%xmm13, %xmm2
	paddd	80(%rsp), %xmm5
	paddd	%xmm3, %xmm5
	movdqa	%xmm5, %xmm13
	movdqa	.LCPI18_5(%rip), %xmm0
	pshufb	%xmm0, %xmm13
	pshufb	%xmm0, %xmm15
	pxor	%xmm13, %xmm15
	paddd	144(%rsp), %xmm8
	paddd	%xmm4, %xmm8
	movdqa	%xmm8, %xmm13
	pshufb	%xmm0, %xmm13
	pshufb	%xmm0, %xmm7
	pxor	%xmm13, %xmm7
	paddd	160(%rsp), %xmm12
	paddd	%xmm9, %xmm12
	movdqa	%xmm12, %xmm13
	pshufb	%xmm0, %xmm13
	pshufb	%xmm0, %xmm11
	pxor	%xmm13, %xmm11
	paddd	48(%rsp), %xmm1
	paddd	%xmm2, %xmm1
	movdqa	%xmm1, %xmm13
	pshufb	%xmm0, %xmm13
	pshufb	%xmm0, %xmm6
	pxor	%xmm13, %xmm6
	paddd	%xmm15, %xmm10
	pxor	%xmm10, %xmm3
	movdqa	%xmm3, %xmm13
	psrld	$7, %xmm13
	pslld	$25, %xmm3
	por	%xmm13, %xmm3
	movdqa	(%rsp), %xmm0
	paddd	%xmm7, %xmm0
	movdqa	%xmm0, (%rsp)
	pxor	%xmm0, %xmm4
	movdqa	%xmm4, %xmm13
	psrld	$7, %xmm13
	pslld	$25, %xmm4
	por	%xmm13, %xmm4
	movdqa	16(%rsp), %xmm0
	paddd	%xmm11, %xmm0
	movdqa	%xmm0, 16(%rsp)
	pxor	%xmm0, %xmm9
	movdqa	%xmm9, %xmm13
	psrld	$7, %xmm13
	pslld	$25, %xmm9
	por	%xmm13, %xmm9
	paddd	%xmm6, %xmm14
	pxor	%xmm14, %xmm2
	movdqa	%xmm2, %xmm13
	psrld	$7, %xmm13
	pslld	$25, %xmm2
	por	%xmm13, %xmm2
	paddd	32(%rsp), %xmm1
	paddd	%xmm3, %xmm1
	pxor	%xmm1, %xmm11
	movdqa	.LCPI18_0(%rip), %xmm0
	pshufb	%xmm0, %xmm11
	movdqa	(%rsp), %xmm13
	paddd	%xmm11, %xmm13
	movdqa	%xmm13, (%rsp)
	pxor	%xmm13, %xmm3
	movdqa	%xmm3, %xmm13
	psrld	$12, %xmm13
	pslld	$20, %xmm3
	por	%xmm13, %xmm3
	paddd	272(%rsp), %xmm5
	paddd	%xmm4, %xmm5
	pxor	%xmm5, %xmm6
	pshufb	%xmm0, %xmm6
	movdqa	16(%rsp), %xmm13
	paddd	%xmm6, %xmm13
	movdqa	%xmm13, 16(%rsp)
	pxor	%xmm13, %xmm4
	movdqa	%xmm4, %xmm13
	psrld	$12, %xmm13
	pslld	$20, %xmm4
	por	%xmm13, %xmm4
	paddd	96(%rsp), %xmm8
	paddd	%xmm9, %xmm8
	pxor	%xmm8, %xmm15
	pshufb	%xmm0, %xmm15
	paddd	%xmm15, %xmm14
	pxor	%xmm14, %xmm9
	movdqa	%xmm9, %xmm13
	psrld	$12, %xmm13
	pslld	$20, %xmm9
	por	%xmm13, %xmm9
	paddd	128(%rsp), %xmm12
	paddd	%xmm2, %xmm12
	pxor	%xmm12, %xmm7
	pshufb	%xmm0, %xmm7
	paddd	%xmm7, %xmm10
	pxor	%xmm10, %xmm2
	movdqa	%xmm2, %xmm13
	psrld	$12, %xmm13
	pslld	$20, %xmm2
	por	%xmm13, %xmm2
	paddd	224(%rsp), %xmm1
	paddd	%xmm3, %xmm1
	movdqa	%xmm1, %xmm13
	movdqa	.LCPI18_5(%rip), %xmm0
	pshufb	%xmm0, %xmm13
	pshufb	%xmm0, %xmm11
	pxor	%xmm13, %xmm11
	paddd	240(%rsp), %xmm5
	paddd	%xmm4, %xmm5
	movdqa	%xmm5, %xmm13
	pshufb	%xmm0, %xmm13
	pshufb	%xmm0, %xmm6
	pxor	%xmm13, %xmm6
	paddd	256(%rsp), %xmm8
	paddd	%xmm9, %xmm8
	movdqa	%xmm8, %xmm13
	pshufb	%xmm0, %xmm13
	pshufb	%xmm0, %xmm15
	pxor	%xmm13, %xmm15
	paddd	112(%rsp), %xmm12
	paddd	%xmm2, %xmm12
	movdqa	%xmm12, %xmm13
	pshufb	%xmm0, %xmm13
	pshufb	%xmm0, %xmm7
	pxor	%xmm13, %xmm7
	movdqa	(%rsp), %xmm0
	paddd	%xmm11, %xmm0
	movdqa	%xmm0, (%rsp)
	pxor	%xmm0, %xmm3
	movdqa	%xmm3, %xmm13
	psrld	$7, %xmm13
	pslld	$25, %xmm3
	por	%xmm13, %xmm3
	movdqa	16(%rsp), %xmm0
	paddd	%xmm6, %xmm0
	movdqa	%xmm0, 16(%rsp)
	pxor	%xmm0, %xmm4
	movdqa	%xmm4, %xmm13
	psrld	$7, %xmm13
	pslld	$25, %xmm4
	por	%xmm13, %xmm4
	paddd	%xmm15, %xmm14
	pxor	%xmm14, %xmm9
	movdqa	%xmm9, %xmm13
	psrld	$7, %xmm13
	pslld	$25, %xmm9
	por	%xmm13, %xmm9
	paddd	%xmm7, %xmm10
	pxor	%xmm10, %xmm2
	movdqa	%xmm2, %xmm13
	psrld	$7, %xmm13
	pslld	$25, %xmm2
	por	%xmm13, %xmm2
	paddd	192(%rsp), %xmm5
	paddd	%xmm3, %xmm5
	pxor	%xmm5, %xmm15
	movdqa	.LCPI18_0(%rip), %xmm0
	pshufb	%xmm0, %xmm15
	paddd	%xmm15, %xmm10
	pxor	%xmm10, %xmm3
	movdqa	%xmm3, %xmm13
	psrld	$12, %xmm13
	pslld	$20, %xmm3
	por	%xmm13, %xmm3
	paddd	144(%rsp), %xmm8
	paddd	%xmm4, %xmm8
	pxor	%xmm8, %xmm7
	pshufb	%xmm0, %xmm7
	movdqa	(%rsp), %xmm0
	paddd	%xmm7, %xmm0
	movdqa	%xmm0, (%rsp)
	pxor	%xmm0, %xmm4
	movdqa	%xmm4, %xmm13
	psrld	$12, %xmm13
	pslld	$20, %xmm4
	por	%xmm13, %xmm4
	paddd	48(%rsp), %xmm12
	paddd	%xmm9, %xmm12
	pxor	%xmm12, %xmm11
	movdqa	.LCPI18_0(%rip), %xmm0
	pshufb	%xmm0, %xmm11
	movdqa	16(%rsp), %xmm13
	paddd	%xmm11, %xmm13
	movdqa	%xmm13, 16(%rsp)
	pxor	%xmm13, %xmm9
	movdqa	%xmm9, %xmm13
	psrld	$12, %xmm13
	pslld	$20, %xmm9
	por	%xmm13, %xmm9
	paddd	64(%rsp), %xmm1
	paddd	%xmm2, %xmm1
	pxor	%xmm1, %xmm6
	pshufb	%xmm0, %xmm6
	paddd	%xmm6, %xmm14
	pxor	%xmm14, %xmm2
	movdqa	%xmm2, %xmm13
	psrld	$12, %xmm13
	pslld	$20, %xmm2
	por	%xmm13, %xmm2
	paddd	176(%rsp), %xmm5
	paddd	%xmm3, %xmm5
	movdqa	%xmm5, %xmm13
	movdqa	.LCPI18_5(%rip), %xmm0
	pshufb	%xmm0, %xmm13
	pshufb	%xmm0, %xmm15
	pxor	%xmm13, %xmm15
	paddd	96(%rsp), %xmm8
	paddd	%xmm4, %xmm8
	movdqa	%xmm8, %xmm13
	pshufb	%xmm0, %xmm13
	pshufb	%xmm0, %xmm7
	pxor	%xmm13, %xmm7
	paddd	208(%rsp), %xmm12
	paddd	%xmm9, %xmm12
	movdqa	%xmm12, %xmm13
	pshufb	%xmm0, %xmm13
	pshufb	%xmm0, %xmm11
	pxor	%xmm13, %xmm11
	paddd	112(%rsp), %xmm1
	paddd	%xmm2, %xmm1
	movdqa	%xmm1, %xmm13
	pshufb	%xmm0, %xmm13
	pshufb	%xmm0, %xmm6
	pxor	%xmm13, %xmm6
	paddd	%xmm15, %xmm10
	pxor	%xmm10, %xmm3
	movdqa	%xmm3, %xmm13
	psrld	$7, %xmm13
	pslld	$25, %xmm3
	por	%xmm13, %xmm3
	movdqa	(%rsp), %xmm0
	paddd	%xmm7, %xmm0
	movdqa	%xmm0, (%rsp)
	pxor	%xmm0, %xmm4
	movdqa	%xmm4, %xmm13
	psrld	$7, %xmm13
	pslld	$25, %xmm4
	por	%xmm13, %xmm4
	movdqa	16(%rsp), %xmm0
	paddd	%xmm11, %xmm0
	movdqa	%xmm0, 16(%rsp)
	pxor	%xmm0, %xmm9
	movdqa	%xmm9, %xmm13
	psrld	$7, %xmm13
	pslld	$25, %xmm9
	por	%xmm13, %xmm9
	paddd	%xmm6, %xmm14
	pxor	%xmm14, %xmm2
	movdqa	%xmm2, %xmm13
	psrld	$7, %xmm13
	pslld	$25, %xmm2
	por	%xmm13, %xmm2
	paddd	224(%rsp), %xmm1
	paddd	%xmm3, %xmm1
	pxor	%xmm1, %xmm11
	movdqa	.LCPI18_0(%rip), %xmm0
	pshufb	%xmm0, %xmm11
	movdqa	(%rsp), %xmm13
	paddd	%xmm11, %xmm13
	movdqa	%xmm13, (%rsp)
	pxor	%xmm13, %xmm3
	movdqa	%xmm3, %xmm13
	psrld	$12, %xmm13
	pslld	$20, %xmm3
	por	%xmm13, %xmm3
	paddd	80(%rsp), %xmm5
	paddd	%xmm4, %xmm5
	pxor	%xmm5, %xmm6
	pshufb	%xmm0, %xmm6
	movdqa	16(%rsp), %xmm13
	paddd	%xmm6, %xmm13
	movdqa	%xmm13, 16(%rsp)
	pxor	%xmm13, %xmm4
	movdqa	%xmm4, %xmm13
	psrld	$12, %xmm13
	pslld	$20, %xmm4
	por	%xmm13, %xmm4
	paddd	128(%rsp), %xmm8
	paddd	%xmm9, %xmm8
	pxor	%xmm8, %xmm15
	pshufb	%xmm0, %xmm15
	paddd	%xmm15, %xmm14
	pxor	%xmm14, %xmm9
	movdqa	%xmm9, %xmm13
	psrld	$12, %xmm13
	pslld	$20, %xmm9
	por	%xmm13, %xmm9
	paddd	240(%rsp), %xmm12
	paddd	%xmm2, %xmm12
	pxor	%xmm12, %xmm7
	pshufb	%xmm0, %xmm7
	paddd	%xmm7, %xmm10
	pxor	%xmm10, %xmm2
	movdqa	%xmm2, %xmm13
	psrld	$12, %xmm13
	pslld	$20, %xmm2
	por	%xmm13, %xmm2
	paddd	272(%rsp), %xmm1
	paddd	%xmm3, %xmm1
	movdqa	%xmm1, %xmm13
	movdqa	.LCPI18_5(%rip), %xmm0
	pshufb	%xmm0, %xmm13
	pshufb	%xmm0, %xmm11
	pxor	%xmm13, %xmm11
	paddd	256(%rsp), %xmm5
	paddd	%xmm4, %xmm5
	movdqa	%xmm5, %xmm13
	pshufb	%xmm0, %xmm13
	pshufb	%xmm0, %xmm6
	pxor	%xmm13, %xmm6
	paddd	160(%rsp), %xmm8
	paddd	%xmm9, %xmm8
	movdqa	%xmm8, %xmm13
	pshufb	%xmm0, %xmm13
	pshufb	%xmm0, %xmm15
	pxor	%xmm13, %xmm15
	paddd	32(%rsp), %xmm12
	paddd	%xmm2, %xmm12
	movdqa	%xmm12, %xmm13
	pshufb	%xmm0, %xmm13
	pshufb	%xmm0, %xmm7
	pxor	%xmm13, %xmm7
	movdqa	(%rsp), %xmm0
	paddd	%xmm11, %xmm0
	movdqa	%xmm0, (%rsp)
	pxor	%xmm0, %xmm3
	movdqa	%xmm3, %xmm13
	psrld	$7, %xmm13
	pslld	$25, %xmm3
	por	%xmm13, %xmm3
	movdqa	16(%rsp), %xmm0
	paddd	%xmm6, %xmm0
	movdqa	%xmm0, 16(%rsp)
	pxor	%xmm0, %xmm4
	movdqa	%xmm4, %xmm13
	psrld	$7, %xmm13
	pslld	$25, %xmm4
	por	%xmm13, %xmm4
	paddd	%xmm15, %xmm14
	pxor	%xmm14, %xmm9
	movdqa	%xmm9, %xmm13
	psrld	$7, %xmm13
	pslld	$25, %xmm9
	por	%xmm13, %xmm9
	paddd	%xmm7, %xmm10
	pxor	%xmm10, %xmm2
	movdqa	%xmm2, %xmm13
	psrld	$7, %xmm13
	pslld	$25, %xmm2
	por	%xmm13, %xmm2
	paddd	144(%rsp), %xmm5
	paddd	%xmm3, %xmm5
	pxor	%xmm5, %xmm15
	movdqa	.LCPI18_0(%rip), %xmm0
	pshufb	%xmm0, %xmm15
	paddd	%xmm15, %xmm10
	pxor	%xmm10, %xmm3
	movdqa	%xmm3, %xmm13
	psrld	$12, %xmm13
	pslld	$20, %xmm3
	por	%xmm13, %xmm3
	paddd	96(%rsp), %xmm8
	paddd	%xmm4, %xmm8
	pxor	%xmm8, %xmm7
	pshufb	%xmm0, %xmm7
	movdqa	(%rsp), %xmm0
	paddd	%xmm7, %xmm0
	movdqa	%xmm0, (%rsp)
	pxor	%xmm0, %xmm4
	movdqa	%xmm4, %xmm13
	psrld	$12, %xmm13
	pslld	$20, %xmm4
	por	%xmm13, %xmm4
	paddd	112(%rsp), %xmm12
	paddd	%xmm9, %xmm12
	pxor	%xmm12, %xmm11
	movdqa	.LCPI18_0(%rip), %xmm0
	pshufb	%xmm0, %xmm11
	movdqa	16(%rsp), %xmm13
	paddd	%xmm11, %xmm13
	movdqa	%xmm13, 16(%rsp)
	pxor	%xmm13, %xmm9
	movdqa	%xmm9, %xmm13
	psrld	$12, %xmm13
	pslld	$20, %xmm9
	por	%xmm13, %xmm9
	paddd	48(%rsp), %xmm1
	paddd	%xmm2, %xmm1
	pxor	%xmm1, %xmm6
	pshufb	%xmm0, %xmm6
	paddd	%xmm6, %xmm14
	pxor	%xmm14, %xmm2
	movdqa	%xmm2, %xmm13
	psrld	$12, %xmm13
	pslld	$20, %xmm2
	por	%xmm13, %xmm2
	paddd	64(%rsp), %xmm5
	paddd	%xmm3, %xmm5
	movdqa	%xmm5, %xmm13
	movdqa	.LCPI18_5(%rip), %xmm0
	pshufb	%xmm0, %xmm13
	pshufb	%xmm0, %xmm15
	pxor	%xmm13, %xmm15
	paddd	128(%rsp), %xmm8
	paddd	%xmm4, %xmm8
	movdqa	%xmm8, %xmm13
	pshufb	%xmm0, %xmm13
	pshufb	%xmm0, %xmm7
	pxor	%xmm13, %xmm7
	paddd	192(%rsp), %xmm12
	paddd	%xmm9, %xmm12
	movdqa	%xmm12, %xmm13
	pshufb	%xmm0, %xmm13
	pshufb	%xmm0, %xmm11
	pxor	%xmm13, %xmm11
	paddd	32(%rsp), %xmm1
	paddd	%xmm2, %xmm1
	movdqa	%xmm1, %xmm13
	pshufb	%xmm0, %xmm13
	pshufb	%xmm0, %xmm6
	pxor	%xmm13, %xmm6
	paddd	%xmm15, %xmm10
	pxor	%xmm10, %xmm3
	movdqa	%xmm3, %xmm13
	psrld	$7, %xmm13
	pslld	$25, %xmm3
	por	%xmm13, %xmm3
	movdqa	(%rsp), %xmm0
	paddd	%xmm7, %xmm0
	movdqa	%xmm0, (%rsp)
	pxor	%xmm0, %xmm4
	movdqa	%xmm4, %xmm13
	psrld	$7, %xmm13
	pslld	$25, %xmm4
	por	%xmm13, %xmm4
	movdqa	16(%rsp), %xmm0
	paddd	%xmm11, %xmm0
	movdqa	%xmm0, 16(%rsp)
	pxor	%xmm0, %xmm9
	movdqa	%xmm9, %xmm13
	psrld	$7, %xmm13
	pslld	$25, %xmm9
	por	%xmm13, %xmm9
	paddd	%xmm6, %xmm14
	pxor	%xmm14, %xmm2
	movdqa	%xmm2, %xmm13
	psrld	$7, %xmm13
	pslld	$25, %xmm2
	por	%xmm13, %xmm2
	paddd	272(%rsp), %xmm1
	paddd	%xmm3, %xmm1
	pxor	%xmm1, %xmm11
	movdqa	.LCPI18_0(%rip), %xmm0
	pshufb	%xmm0, %xmm11
	movdqa	(%rsp), %xmm13
	paddd	%xmm11, %xmm13
	movdqa	%xmm13, (%rsp)
	pxor	%xmm13, %xmm3
	movdqa	%xmm3, %xmm13
	psrld	$12, %xmm13
	pslld	$20, %xmm3
	por	%xmm13, %xmm3
	paddd	176(%rsp), %xmm5
	paddd	%xmm4, %xmm5
	pxor	%xmm5, %xmm6
	pshufb	%xmm0, %xmm6
	movdqa	16(%rsp), %xmm13
	paddd	%xmm6, %xmm13
	movdqa	%xmm13, 16(%rsp)
	pxor	%xmm13, %xmm4
	movdqa	%xmm4, %xmm13
	psrld	$12, %xmm13
	pslld	$20, %xmm4
	por	%xmm13, %xmm4
	paddd	240(%rsp), %xmm8
	paddd	%xmm9, %xmm8
	pxor	%xmm8, %xmm15
	pshufb	%xmm0, %xmm15
	paddd	%xmm15, %xmm14
	pxor	%xmm14, %xmm9
	movdqa	%xmm9, %xmm13
	psrld	$12, %xmm13
	pslld	$20, %xmm9
	por	%xmm13, %xmm9
	paddd	256(%rsp), %xmm12
	paddd	%xmm2, %xmm12
	pxor	%xmm12, %xmm7
	pshufb	%xmm0, %xmm7
	paddd	%xmm7, %xmm10
	pxor	%xmm10, %xmm2
	movdqa	%xmm2, %xmm13
	psrld	$12, %xmm13
	pslld	$20, %xmm2
	por	%xmm13, %xmm2
	paddd	80(%rsp), %xmm1
	paddd	%xmm3, %xmm1
	movdqa	%xmm1, %xmm13
	movdqa	.LCPI18_5(%rip), %xmm0
	pshufb	%xmm0, %xmm13
	pshufb	%xmm0, %xmm11
	pxor	%xmm13, %xmm11
	paddd	160(%rsp), %xmm5
	paddd	%xmm4, %xmm5
	movdqa	%xmm5, %xmm13
	pshufb	%xmm0, %xmm13
	pshufb	%xmm0, %xmm6
	pxor	%xmm13, %xmm6
	paddd	208(%rsp), %xmm8
	paddd	%xmm9, %xmm8
	movdqa	%xmm8, %xmm13
	pshufb	%xmm0, %xmm13
	pshufb	%xmm0, %xmm15
	pxor	%xmm13, %xmm15
	paddd	224(%rsp), %xmm12
	paddd	%xmm2, %xmm12
	movdqa	%xmm12, %xmm13
	pshufb	%xmm0, %xmm13
	pshufb	%xmm0, %xmm7
	pxor	%xmm13, %xmm7
	movdqa	(%rsp), %xmm0
	paddd	%xmm11, %xmm0
	movdqa	%xmm0, (%rsp)
	pxor	%xmm0, %xmm3
	movdqa	%xmm3, %xmm13
	psrld	$7, %xmm13
	pslld	$25, %xmm3
	por	%xmm13, %xmm3
	movdqa	16(%rsp), %xmm0
	paddd	%xmm6, %xmm0
	movdqa	%xmm0, 16(%rsp)
	pxor	%xmm0, %xmm4
	movdqa	%xmm4, %xmm13
	psrld	$7, %xmm13
	pslld	$25, %xmm4
	por	%xmm13, %xmm4
	paddd	%xmm15, %xmm14
	pxor	%xmm14, %xmm9
	movdqa	%xmm9, %xmm13
	psrld	$7, %xmm13
	pslld	$25, %xmm9
	por	%xmm13, %xmm9
	movdqa	%xmm10, %xmm0
	paddd	%xmm7, %xmm0
	pxor	%xmm0, %xmm2
	movdqa	%xmm2, %xmm13
	psrld	$7, %xmm13
	pslld	$25, %xmm2
	por	%xmm13, %xmm2
	paddd	96(%rsp), %xmm5
	paddd	128(%rsp), %xmm8
	paddd	32(%rsp), %xmm12
	paddd	112(%rsp), %xmm1
	paddd	%xmm3, %xmm5
	pxor	%xmm5, %xmm15
	movdqa	.LCPI18_0(%rip), %xmm10
	pshufb	%xmm10, %xmm15
	paddd	%xmm15, %xmm0
	movdqa	%xmm0, 32(%rsp)
	pxor	%xmm0, %xmm3
	movdqa	%xmm3, %xmm13
	psrld	$12, %xmm13
	pslld	$20, %xmm3
	por	%xmm13, %xmm3
	paddd	%xmm4, %xmm8
	pxor	%xmm8, %xmm7
	pshufb	%xmm10, %xmm7
	movdqa	(%rsp), %xmm0
	paddd	%xmm7, %xmm0
	movdqa	%xmm0, (%rsp)
	pxor	%xmm0, %xmm4
	movdqa	%xmm4, %xmm13
	psrld	$12, %xmm13
	pslld	$20, %xmm4
	por	%xmm13, %xmm4
	paddd	%xmm9, %xmm12
	pxor	%xmm12, %xmm11
	pshufb	%xmm10, %xmm11
	movdqa	16(%rsp), %xmm0
	paddd	%xmm11, %xmm0
	movdqa	%xmm0, 16(%rsp)
	pxor	%xmm0, %xmm9
	movdqa	%xmm9, %xmm13
	psrld	$12, %xmm13
	pslld	$20, %xmm9
	por	%xmm13, %xmm9
	paddd	%xmm2, %xmm1
	pxor	%xmm1, %xmm6
	pshufb	%xmm10, %xmm6
	paddd	%xmm6, %xmm14
	pxor	%xmm14, %xmm2
	movdqa	%xmm2, %xmm13
	psrld	$12, %xmm13
	pslld	$20, %xmm2
	por	%xmm13, %xmm2
	paddd	48(%rsp), %xmm5
	paddd	240(%rsp), %xmm8
	paddd	144(%rsp), %xmm12
	paddd	224(%rsp), %xmm1
	paddd	%xmm3, %xmm5
	movdqa	%xmm5, %xmm13
	movdqa	.LCPI18_5(%rip), %xmm0
	pshufb	%xmm0, %xmm13
	pshufb	%xmm0, %xmm15
	pxor	%xmm13, %xmm15
	paddd	%xmm4, %xmm8
	movdqa	%xmm8, %xmm13
	pshufb	%xmm0, %xmm13
	pshufb	%xmm0, %xmm7
	pxor	%xmm13, %xmm7
	paddd	%xmm9, %xmm12
	movdqa	%xmm12, %xmm13
	pshufb	%xmm0, %xmm13
	pshufb	%xmm0, %xmm11
	pxor	%xmm13, %xmm11
	paddd	%xmm2, %xmm1
	movdqa	%xmm1, %xmm13
	pshufb	%xmm0, %xmm13
	pshufb	%xmm0, %xmm6
	pxor	%xmm13, %xmm6
	movdqa	32(%rsp), %xmm0
	paddd	%xmm15, %xmm0
	movdqa	%xmm0, 32(%rsp)
	pxor	%xmm0, %xmm3
	movdqa	%xmm3, %xmm13
	psrld	$7, %xmm13
	pslld	$25, %xmm3
	por	%xmm13, %xmm3
	movdqa	(%rsp), %xmm0
	paddd	%xmm7, %xmm0
	movdqa	%xmm0, (%rsp)
	pxor	%xmm0, %xmm4
	movdqa	%xmm4, %xmm13
	psrld	$7, %xmm13
	pslld	$25, %xmm4
	por	%xmm13, %xmm4
	movdqa	16(%rsp), %xmm0
	paddd	%xmm11, %xmm0
	movdqa	%xmm0, 16(%rsp)
	pxor	%xmm0, %xmm9
	movdqa	%xmm9, %xmm13
	psrld	$7, %xmm13
	pslld	$25, %xmm9
	por	%xmm13, %xmm9
	movdqa	%xmm14, %xmm0
	paddd	%xmm6, %xmm0
	pxor	%xmm0, %xmm2
	movdqa	%xmm2, %xmm13
	psrld	$7, %xmm13
	pslld	$25, %xmm2
	por	%xmm13, %xmm2
	paddd	80(%rsp), %xmm1
	paddd	64(%rsp), %xmm5
	paddd	256(%rsp), %xmm8
	paddd	160(%rsp), %xmm12
	paddd	%xmm3, %xmm1
	paddd	%xmm4, %xmm5
	paddd	%xmm9, %xmm8
	paddd	%xmm2, %xmm12
	pxor	%xmm1, %xmm11
	movdqa	.LCPI18_0(%rip), %xmm10
	pshufb	%xmm10, %xmm11
	pxor	%xmm5, %xmm6
	pshufb	%xmm10, %xmm6
	pxor	%xmm8, %xmm15
	pshufb	%xmm10, %xmm15
	pxor	%xmm12, %xmm7
	pshufb	%xmm10, %xmm7
	movdqa	(%rsp), %xmm10
	paddd	%xmm11, %xmm10
	movdqa	%xmm10, (%rsp)
	pxor	%xmm10, %xmm3
	movdqa	%xmm3, %xmm13
	psrld	$12, %xmm13
	pslld	$20, %xmm3
	por	%xmm13, %xmm3
	movdqa	16(%rsp), %xmm14
	paddd	%xmm6, %xmm14
	pxor	%xmm14, %xmm4
	movdqa	%xmm4, %xmm13
	psrld	$12, %xmm13
	pslld	$20, %xmm4
	por	%xmm13, %xmm4
	paddd	%xmm15, %xmm0
	pxor	%xmm0, %xmm9
	movdqa	%xmm9, %xmm13
	psrld	$12, %xmm13
	pslld	$20, %xmm9
	por	%xmm13, %xmm9
	movdqa	32(%rsp), %xmm10
	paddd	%xmm7, %xmm10
	movdqa	%xmm10, 32(%rsp)
	pxor	%xmm10, %xmm2
	movdqa	%xmm2, %xmm13
	psrld	$12, %xmm13
	pslld	$20, %xmm2
	por	%xmm13, %xmm2
	paddd	176(%rsp), %xmm1
	paddd	208(%rsp), %xmm5
	paddd	192(%rsp), %xmm8
	paddd	272(%rsp), %xmm12
	paddd	%xmm9, %xmm8
	movdqa	%xmm8, %xmm13
	movdqa	.LCPI18_5(%rip), %xmm10
	pshufb	%xmm10, %xmm13
	pshufb	%xmm10, %xmm15
	pxor	%xmm13, %xmm15
	paddd	%xmm3, %xmm1
	paddd	%xmm15, %xmm0
	pxor	%xmm0, %xmm9
	pxor	%xmm1, %xmm0
	pshufb	%xmm10, %xmm1
	pshufb	%xmm10, %xmm11
	pxor	%xmm1, %xmm11
	paddd	%xmm2, %xmm12
	movdqa	%xmm12, %xmm1
	pshufb	%xmm10, %xmm1
	pshufb	%xmm10, %xmm7
	pxor	%xmm1, %xmm7
	paddd	%xmm4, %xmm5
	movdqa	32(%rsp), %xmm13
	paddd	%xmm7, %xmm13
	pxor	%xmm13, %xmm2
	pxor	%xmm5, %xmm13
	pshufb	%xmm10, %xmm5
	pshufb	%xmm10, %xmm6
	pxor	%xmm5, %xmm6
	movdqa	(%rsp), %xmm1
	paddd	%xmm11, %xmm1
	paddd	%xmm6, %xmm14
	pxor	%xmm1, %xmm3
	movdqa	%xmm1, %xmm5
	pxor	%xmm14, %xmm4
	movdqa	%xmm3, %xmm1
	psrld	$7, %xmm1
	pslld	$25, %xmm3
	por	%xmm1, %xmm3
	movdqa	%xmm4, %xmm1
	psrld	$7, %xmm1
	pslld	$25, %xmm4
	por	%xmm1, %xmm4
	movdqa	%xmm9, %xmm1
	psrld	$7, %xmm1
	pslld	$25, %xmm9
	por	%xmm1, %xmm9
	movdqa	%xmm2, %xmm1
	psrld	$7, %xmm1
	pslld	$25, %xmm2
	por	%xmm1, %xmm2
	pxor	%xmm8, %xmm5
	pxor	%xmm12, %xmm14
	pxor	%xmm15, %xmm3
	pxor	%xmm7, %xmm4
	pxor	%xmm11, %xmm9
	pxor	%xmm6, %xmm2
	movdqu	%xmm13, (%rcx)
	movdqu	%xmm5, 16(%rcx)
	movdqu	%xmm14, 32(%rcx)
	movdqu	%xmm0, 48(%rcx)
	movdqu	%xmm3, 64(%rcx)
	movdqu	%xmm4, 80(%rcx)
	movdqu	%xmm9, 96(%rcx)
	movdqu	%xmm2, 112(%rcx)
	movaps	288(%rsp), %xmm6
	movaps	304(%rsp), %xmm7
	movaps	320(%rsp), %xmm8
	movaps	336(%rsp), %xmm9
	movaps	352(%rsp), %xmm10
	movaps	368(%rsp), %xmm11
	movaps	384(%rsp), %xmm12
	movaps	400(%rsp), %xmm13
	movaps	416(%rsp), %xmm14
	movaps	432(%rsp), %xmm15
	addq	$456, %rsp
	retq
	.seh_endproc

	.section	.rdata,"dr"
	.p2align	4, 0x0
.LCPI19_0:
	.long	3351608833
	.long	2519287717
	.long	1717998845
	.long	3858926260
.LCPI19_1:
	.long	1867767133
	.long	3530409783
	.long	3864159224
	.long	1064391498
	.section	.text
	.p2align	4
	.def	"keyed_blake3::keyed_hash_two";
	.scl	3;
	.type	32;
	.endef
"keyed_blake3::keyed_hash_two":
.seh_proc "keyed_blake3::keyed_hash_two"
	pushq	%r15
	.seh_pushreg %r15
	pushq	%r14
	.seh_pushreg %r14
	pushq	%r13
	.seh_pushreg %r13
	pushq	%r12
	.seh_pushreg %r12
	pushq	%rsi
	.seh_pushreg %rsi
	pushq	%rdi
	.seh_pushreg %rdi
	pushq	%rbp
	.seh_pushreg %rbp
	pushq	%rbx
	.seh_pushreg %rbx
	subq	$1032, %rsp
	.seh_stackalloc 1032
	movaps	%xmm9, 1008(%rsp)
	.seh_savexmm %xmm9, 1008
	movaps	%xmm8, 992(%rsp)
	.seh_savexmm %xmm8, 992
	movaps	%xmm7, 976(%rsp)
	.seh_savexmm %xmm7, 976
	movaps	%xmm6, 960(%rsp)
	.seh_savexmm %xmm6, 960
	.seh_endprologue
	movq	%r9, %rbp
	movq	%r8, %r14
	movq	%rdx, %r13
	movq	%rcx, %rsi
	movq	1136(%rsp), %rbx
	xorps	%xmm0, %xmm0
	movaps	%xmm0, 560(%rsp)
	movaps	%xmm0, 544(%rsp)
	movaps	%xmm0, 512(%rsp)
	movaps	%xmm0, 528(%rsp)
	cmpq	$1025, %r8
	setae	%al
	cmpq	$1025, %rbx
	setae	%cl
	orb	%al, %cl
	je	.LBB19_2
	leaq	static.7(%rip), %r12
	leaq	544(%rsp), %rcx
	movq	%r12, %rdx
	movq	%r13, %r8
	movq	%r14, %r9
	callq	"keyed_blake3::keyed_hash"
	leaq	512(%rsp), %rcx
	movq	%r12, %rdx
	movq	%rbp, %r8
	movq	%rbx, %r9
	callq	"keyed_blake3::keyed_hash"
	movaps	544(%rsp), %xmm0
	movups	%xmm0, (%rsi)
	movaps	560(%rsp), %xmm0
	movups	%xmm0, 16(%rsi)
	movaps	512(%rsp), %xmm0
	movups	%xmm0, 32(%rsi)
	movdqa	528(%rsp), %xmm0
	movdqu	%xmm0, 48(%rsi)
	jmp	.LBB19_48
.LBB19_2:
	cmpq	$1, %r14
	movq	%r14, %rdx
	adcq	$-1, %rdx
	movq	%rdx, %rcx
	shrq	$6, %rcx
	cmpq	$1, %rbx
	movq	%rbx, %rax
	adcq	$-1, %rax
	movq	%rax, %r15
	shrq	$6, %r15
	cmpq	%rcx, %r15
	movq	%rcx, %r12
	cmovbq	%r15, %r12
	movq	%rcx, 488(%rsp)
	testq	%rcx, %rcx
	movq	%rsi, 360(%rsp)
	movq	%rax, 504(%rsp)
	movq	%rdx, 496(%rsp)
	je	.LBB19_3
	movups	(%r13), %xmm0
	movups	16(%r13), %xmm1
	movups	32(%r13), %xmm2
	movups	48(%r13), %xmm3
	movaps	%xmm3, 192(%rsp)
	movaps	%xmm2, 176(%rsp)
	movaps	%xmm1, 160(%rsp)
	movaps	%xmm0, 144(%rsp)
	movl	$17, %esi
	movl	$64, %edi
	jmp	.LBB19_8
.LBB19_3:
	cmpq	$64, %r14
	jne	.LBB19_4
	movups	(%r13), %xmm0
	movups	16(%r13), %xmm1
	movups	32(%r13), %xmm2
	movups	48(%r13), %xmm3
	movaps	%xmm3, 256(%rsp)
	movaps	%xmm2, 240(%rsp)
	movaps	%xmm1, 224(%rsp)
	movaps	%xmm0, 208(%rsp)
	jmp	.LBB19_6
.LBB19_4:
	movaps	%xmm0, 128(%rsp)
	movaps	%xmm0, 112(%rsp)
	movaps	%xmm0, 96(%rsp)
	movaps	%xmm0, 80(%rsp)
	leaq	80(%rsp), %rcx
	movq	%r13, %rdx
	movq	%r14, %r8
	callq	memcpy
	movaps	80(%rsp), %xmm0
	movaps	96(%rsp), %xmm1
	movaps	112(%rsp), %xmm2
	movaps	128(%rsp), %xmm3
	movaps	%xmm0, 208(%rsp)
	movaps	%xmm1, 224(%rsp)
	movaps	%xmm2, 240(%rsp)
	movaps	%xmm3, 256(%rsp)
.LBB19_6:
	movaps	208(%rsp), %xmm0
	movaps	224(%rsp), %xmm1
	movaps	240(%rsp), %xmm2
	movaps	256(%rsp), %xmm3
	movaps	%xmm0, 144(%rsp)
	movaps	%xmm1, 160(%rsp)
	movaps	%xmm2, 176(%rsp)
	movaps	%xmm3, 192(%rsp)
	movl	$27, %esi
	movl	%r14d, %edi
.LBB19_8:
	movaps	144(%rsp), %xmm0
	movaps	160(%rsp), %xmm1
	movaps	176(%rsp), %xmm2
	movaps	192(%rsp), %xmm3
	movaps	%xmm0, 272(%rsp)
	movaps	%xmm1, 288(%rsp)
	movaps	%xmm2, 304(%rsp)
	movaps	%xmm3, 320(%rsp)
	movq	$0, 336(%rsp)
	movl	%edi, 344(%rsp)
	movl	%esi, 348(%rsp)
	testq	%r15, %r15
	je	.LBB19_9
	movups	(%rbp), %xmm0
	movups	16(%rbp), %xmm1
	movups	32(%rbp), %xmm2
	movups	48(%rbp), %xmm3
	movaps	%xmm3, 192(%rsp)
	movaps	%xmm2, 176(%rsp)
	movaps	%xmm1, 160(%rsp)
	movaps	%xmm0, 144(%rsp)
	movl	$17, %eax
	movl	$64, %ecx
	jmp	.LBB19_14
.LBB19_9:
	cmpq	$64, %rbx
	jne	.LBB19_10
	movups	(%rbp), %xmm0
	movups	16(%rbp), %xmm1
	movups	32(%rbp), %xmm2
	movups	48(%rbp), %xmm3
	movaps	%xmm3, 256(%rsp)
	movaps	%xmm2, 240(%rsp)
	movaps	%xmm1, 224(%rsp)
	movaps	%xmm0, 208(%rsp)
	jmp	.LBB19_12
.LBB19_10:
	xorps	%xmm0, %xmm0
	movaps	%xmm0, 128(%rsp)
	movaps	%xmm0, 112(%rsp)
	movaps	%xmm0, 96(%rsp)
	movaps	%xmm0, 80(%rsp)
	leaq	80(%rsp), %rcx
	movq	%rbp, %rdx
	movq	%rbx, %r8
	callq	memcpy
	movaps	80(%rsp), %xmm0
	movaps	96(%rsp), %xmm1
	movaps	112(%rsp), %xmm2
	movaps	128(%rsp), %xmm3
	movaps	%xmm0, 208(%rsp)
	movaps	%xmm1, 224(%rsp)
	movaps	%xmm2, 240(%rsp)
	movaps	%xmm3, 256(%rsp)
.LBB19_12:
	movaps	208(%rsp), %xmm0
	movaps	224(%rsp), %xmm1
	movaps	240(%rsp), %xmm2
	movaps	256(%rsp), %xmm3
	movaps	%xmm0, 144(%rsp)
	movaps	%xmm1, 160(%rsp)
	movaps	%xmm2, 176(%rsp)
	movaps	%xmm3, 192(%rsp)
	movl	$27, %eax
	movl	%ebx, %ecx
.LBB19_14:
	movq	%r15, 376(%rsp)
	movaps	144(%rsp), %xmm0
	movaps	160(%rsp), %xmm1
	movaps	176(%rsp), %xmm2
	movaps	192(%rsp), %xmm3
	movaps	%xmm0, 384(%rsp)
	movaps	%xmm1, 400(%rsp)
	movaps	%xmm2, 416(%rsp)
	movaps	%xmm3, 432(%rsp)
	movq	$0, 448(%rsp)
	movl	%ecx, 456(%rsp)
	movl	%eax, 460(%rsp)
	movd	%esi, %xmm0
	movd	%edi, %xmm1
	punpckldq	%xmm0, %xmm1
	pslldq	$8, %xmm1
	movd	%eax, %xmm0
	movd	%ecx, %xmm2
	punpckldq	%xmm0, %xmm2
	pslldq	$8, %xmm2
	movaps	.LCPI19_0(%rip), %xmm0
	movaps	%xmm0, 928(%rsp)
	movaps	%xmm0, 944(%rsp)
	movdqa	.LCPI19_1(%rip), %xmm0
	movdqa	%xmm0, 912(%rsp)
	movdqa	%xmm0, 896(%rsp)
	movdqa	%xmm1, 880(%rsp)
	leaq	880(%rsp), %rax
	movq	%rax, 40(%rsp)
	movdqa	%xmm2, 864(%rsp)
	leaq	864(%rsp), %rax
	movq	%rax, 48(%rsp)
	leaq	272(%rsp), %rax
	movq	%rax, 56(%rsp)
	leaq	384(%rsp), %rax
	movq	%rax, 64(%rsp)
	leaq	896(%rsp), %rax
	movq	%rax, 32(%rsp)
	leaq	80(%rsp), %rcx
	leaq	944(%rsp), %rdx
	leaq	928(%rsp), %r8
	leaq	912(%rsp), %r9
	callq	"keyed_blake3::compression::two::compress_two_from"
	movups	80(%rsp), %xmm8
	movups	96(%rsp), %xmm9
	movups	112(%rsp), %xmm7
	movups	128(%rsp), %xmm6
	testq	%r12, %r12
	movq	%rbp, 480(%rsp)
	movq	%r12, 368(%rsp)
	movq	%r13, 472(%rsp)
	je	.LBB19_29
	movq	%r12, %r15
	negq	%r15
	addq	$64, %r13
	addq	$64, %rbp
	movl	$1, %r12d
	xorl	%esi, %esi
	jmp	.LBB19_16
	.p2align	4
.LBB19_23:
	movups	(%rbp), %xmm0
	movups	16(%rbp), %xmm1
	movups	32(%rbp), %xmm2
	movups	48(%rbp), %xmm3
	movaps	%xmm3, 192(%rsp)
	movaps	%xmm2, 176(%rsp)
	movaps	%xmm1, 160(%rsp)
	movaps	%xmm0, 144(%rsp)
	movl	$16, %ecx
	movl	$64, %eax
.LBB19_28:
	movaps	144(%rsp), %xmm0
	movaps	160(%rsp), %xmm1
	movaps	176(%rsp), %xmm2
	movaps	192(%rsp), %xmm3
	movaps	%xmm0, 384(%rsp)
	movaps	%xmm1, 400(%rsp)
	movaps	%xmm2, 416(%rsp)
	movaps	%xmm3, 432(%rsp)
	movq	$0, 448(%rsp)
	movl	%eax, 456(%rsp)
	movl	%ecx, 460(%rsp)
	movd	%edi, %xmm0
	movd	%ebx, %xmm1
	punpckldq	%xmm0, %xmm1
	pslldq	$8, %xmm1
	movd	%ecx, %xmm0
	movd	%eax, %xmm2
	punpckldq	%xmm0, %xmm2
	pslldq	$8, %xmm2
	movaps	%xmm9, 832(%rsp)
	movaps	%xmm8, 848(%rsp)
	movaps	%xmm7, 816(%rsp)
	movaps	%xmm6, 800(%rsp)
	movdqa	%xmm1, 784(%rsp)
	leaq	784(%rsp), %rax
	movq	%rax, 40(%rsp)
	movdqa	%xmm2, 768(%rsp)
	leaq	768(%rsp), %rax
	movq	%rax, 48(%rsp)
	leaq	272(%rsp), %rax
	movq	%rax, 56(%rsp)
	leaq	384(%rsp), %rax
	movq	%rax, 64(%rsp)
	leaq	800(%rsp), %rax
	movq	%rax, 32(%rsp)
	leaq	80(%rsp), %rcx
	leaq	848(%rsp), %rdx
	leaq	832(%rsp), %r8
	leaq	816(%rsp), %r9
	callq	"keyed_blake3::compression::two::compress_two_from"
	movups	80(%rsp), %xmm8
	movups	96(%rsp), %xmm9
	movups	112(%rsp), %xmm7
	movups	128(%rsp), %xmm6
	leaq	(%r15,%r12), %rax
	incq	%rax
	incq	%r12
	addq	$-64, %rsi
	addq	$64, %r13
	addq	$64, %rbp
	cmpq	$1, %rax
	je	.LBB19_29
.LBB19_16:
	cmpq	488(%rsp), %r12
	jae	.LBB19_18
	movups	(%r13), %xmm0
	movups	16(%r13), %xmm1
	movups	32(%r13), %xmm2
	movups	48(%r13), %xmm3
	movaps	%xmm3, 192(%rsp)
	movaps	%xmm2, 176(%rsp)
	movaps	%xmm1, 160(%rsp)
	movaps	%xmm0, 144(%rsp)
	movl	$16, %edi
	movl	$64, %ebx
	jmp	.LBB19_22
	.p2align	4
.LBB19_18:
	leaq	(%r14,%rsi), %rax
	cmpq	$128, %rax
	je	.LBB19_19
	leaq	(%r14,%rsi), %r8
	addq	$-64, %r8
	pxor	%xmm0, %xmm0
	movdqa	%xmm0, 128(%rsp)
	movdqa	%xmm0, 112(%rsp)
	movdqa	%xmm0, 96(%rsp)
	movdqa	%xmm0, 80(%rsp)
	leaq	80(%rsp), %rax
	subq	%r13, %rax
	cmpq	%r8, %rax
	leaq	80(%rsp), %rcx
	movq	%r13, %rdx
	callq	memcpy
	movaps	80(%rsp), %xmm0
	movaps	96(%rsp), %xmm1
	movaps	112(%rsp), %xmm2
	movaps	128(%rsp), %xmm3
	jmp	.LBB19_21
.LBB19_19:
	movups	(%r13), %xmm0
	movups	16(%r13), %xmm1
	movups	32(%r13), %xmm2
	movups	48(%r13), %xmm3
.LBB19_21:
	movaps	%xmm3, 256(%rsp)
	movaps	%xmm2, 240(%rsp)
	movaps	%xmm1, 224(%rsp)
	movaps	%xmm0, 208(%rsp)
	leal	(%r14,%rsi), %ebx
	addl	$-64, %ebx
	movaps	208(%rsp), %xmm0
	movaps	224(%rsp), %xmm1
	movaps	240(%rsp), %xmm2
	movaps	256(%rsp), %xmm3
	movaps	%xmm0, 144(%rsp)
	movaps	%xmm1, 160(%rsp)
	movaps	%xmm2, 176(%rsp)
	movaps	%xmm3, 192(%rsp)
	movl	$26, %edi
.LBB19_22:
	movaps	144(%rsp), %xmm0
	movaps	160(%rsp), %xmm1
	movaps	176(%rsp), %xmm2
	movaps	192(%rsp), %xmm3
	movaps	%xmm0, 272(%rsp)
	movaps	%xmm1, 288(%rsp)
	movaps	%xmm2, 304(%rsp)
	movaps	%xmm3, 320(%rsp)
	movq	$0, 336(%rsp)
	movl	%ebx, 344(%rsp)
	movl	%edi, 348(%rsp)
	cmpq	376(%rsp), %r12
	jb	.LBB19_23
	movq	1136(%rsp), %rcx
	leaq	(%rcx,%rsi), %rax
	cmpq	$128, %rax
	je	.LBB19_25
	leaq	(%rcx,%rsi), %r8
	addq	$-64, %r8
	xorps	%xmm0, %xmm0
	movaps	%xmm0, 128(%rsp)
	movaps	%xmm0, 112(%rsp)
	movaps	%xmm0, 96(%rsp)
	movaps	%xmm0, 80(%rsp)
	leaq	80(%rsp), %rax
	subq	%rbp, %rax
	cmpq	%r8, %rax
	leaq	80(%rsp), %rcx
	movq	%rbp, %rdx
	callq	memcpy
	movaps	80(%rsp), %xmm0
	movaps	96(%rsp), %xmm1
	movaps	112(%rsp), %xmm2
	movaps	128(%rsp), %xmm3
	jmp	.LBB19_27
.LBB19_25:
	movups	(%rbp), %xmm0
	movups	16(%rbp), %xmm1
	movups	32(%rbp), %xmm2
	movups	48(%rbp), %xmm3
.LBB19_27:
	movaps	%xmm3, 256(%rsp)
	movaps	%xmm2, 240(%rsp)
	movaps	%xmm1, 224(%rsp)
	movaps	%xmm0, 208(%rsp)
	movq	1136(%rsp), %rax
	leal	-64(%rax,%rsi), %eax
	movaps	208(%rsp), %xmm0
	movaps	224(%rsp), %xmm1
	movaps	240(%rsp), %xmm2
	movaps	256(%rsp), %xmm3
	movaps	%xmm0, 144(%rsp)
	movaps	%xmm1, 160(%rsp)
	movaps	%xmm2, 176(%rsp)
	movaps	%xmm3, 192(%rsp)
	movl	$26, %ecx
	jmp	.LBB19_28
.LBB19_29:
	movq	368(%rsp), %rax
	leaq	1(%rax), %rsi
	movq	376(%rsp), %r12
	movq	488(%rsp), %rbp
	cmpq	%rbp, %r12
	jae	.LBB19_30
	cmpq	%rbp, %rsi
	movq	1136(%rsp), %r15
	movq	480(%rsp), %r13
	jae	.LBB19_34
	movq	368(%rsp), %rax
	movq	%rax, %rdi
	notq	%rdi
	addq	%rbp, %rdi
	shlq	$6, %rax
	movq	472(%rsp), %rcx
	leaq	(%rax,%rcx), %rbx
	addq	$64, %rbx
	.p2align	4
.LBB19_33:
	movdqu	(%rbx), %xmm0
	movdqu	16(%rbx), %xmm1
	movdqu	32(%rbx), %xmm2
	movups	48(%rbx), %xmm3
	movaps	%xmm3, 320(%rsp)
	movdqa	%xmm2, 304(%rsp)
	movdqa	%xmm1, 288(%rsp)
	movdqa	%xmm0, 272(%rsp)
	movaps	%xmm7, 736(%rsp)
	movaps	%xmm8, 752(%rsp)
	movl	$16, 48(%rsp)
	movl	$64, 40(%rsp)
	movq	$0, 32(%rsp)
	leaq	384(%rsp), %rcx
	leaq	752(%rsp), %rdx
	leaq	736(%rsp), %r8
	leaq	272(%rsp), %r9
	callq	"keyed_blake3::compression::compress"
	movaps	384(%rsp), %xmm8
	movaps	400(%rsp), %xmm7
	addq	$64, %rbx
	decq	%rdi
	jne	.LBB19_33
.LBB19_34:
	movq	496(%rsp), %rax
	andl	$1984, %eax
	movq	472(%rsp), %rdx
	addq	%rax, %rdx
	subq	%rax, %r14
	pxor	%xmm0, %xmm0
	movdqa	%xmm0, 384(%rsp)
	movdqa	%xmm0, 400(%rsp)
	cmpq	$64, %r14
	jne	.LBB19_36
	movdqu	(%rdx), %xmm0
	movdqu	16(%rdx), %xmm1
	movdqu	32(%rdx), %xmm2
	movups	48(%rdx), %xmm3
	movaps	%xmm3, 320(%rsp)
	movdqa	%xmm2, 304(%rsp)
	movdqa	%xmm1, 288(%rsp)
	movdqa	%xmm0, 272(%rsp)
	movaps	%xmm7, 672(%rsp)
	movaps	%xmm8, 688(%rsp)
	movl	$26, 48(%rsp)
	movl	$64, 40(%rsp)
	movq	$0, 32(%rsp)
	leaq	384(%rsp), %rcx
	leaq	688(%rsp), %rdx
	leaq	672(%rsp), %r8
	leaq	272(%rsp), %r9
	jmp	.LBB19_37
.LBB19_30:
	movq	1136(%rsp), %r15
	movq	480(%rsp), %r13
	cmpq	%r12, %rbp
	jb	.LBB19_40
.LBB19_39:
	movq	360(%rsp), %rax
	jmp	.LBB19_47
.LBB19_36:
	movdqa	%xmm0, 320(%rsp)
	movdqa	%xmm0, 304(%rsp)
	movdqa	%xmm0, 288(%rsp)
	movdqa	%xmm0, 272(%rsp)
	leaq	272(%rsp), %r12
	movq	%r12, %rcx
	movq	%r14, %r8
	callq	memcpy
	movaps	%xmm7, 704(%rsp)
	movaps	%xmm8, 720(%rsp)
	movl	%r14d, 40(%rsp)
	movl	$26, 48(%rsp)
	movq	$0, 32(%rsp)
	leaq	384(%rsp), %rcx
	leaq	720(%rsp), %rdx
	leaq	704(%rsp), %r8
	movq	%r12, %r9
	movq	376(%rsp), %r12
.LBB19_37:
	callq	"keyed_blake3::compression::compress"
	movaps	400(%rsp), %xmm7
	movaps	384(%rsp), %xmm8
	cmpq	%r12, %rbp
	jae	.LBB19_39
.LBB19_40:
	cmpq	%r12, %rsi
	jae	.LBB19_43
	movq	368(%rsp), %rax
	movq	%rax, %rsi
	notq	%rsi
	addq	%r12, %rsi
	shlq	$6, %rax
	leaq	(%rax,%r13), %rdi
	addq	$64, %rdi
	.p2align	4
.LBB19_42:
	movdqu	(%rdi), %xmm0
	movdqu	16(%rdi), %xmm1
	movdqu	32(%rdi), %xmm2
	movups	48(%rdi), %xmm3
	movaps	%xmm3, 320(%rsp)
	movdqa	%xmm2, 304(%rsp)
	movdqa	%xmm1, 288(%rsp)
	movdqa	%xmm0, 272(%rsp)
	movaps	%xmm6, 640(%rsp)
	movaps	%xmm9, 656(%rsp)
	movl	$16, 48(%rsp)
	movl	$64, 40(%rsp)
	movq	$0, 32(%rsp)
	leaq	384(%rsp), %rcx
	leaq	656(%rsp), %rdx
	leaq	640(%rsp), %r8
	leaq	272(%rsp), %r9
	callq	"keyed_blake3::compression::compress"
	movaps	384(%rsp), %xmm9
	movaps	400(%rsp), %xmm6
	addq	$64, %rdi
	decq	%rsi
	jne	.LBB19_42
.LBB19_43:
	movq	504(%rsp), %rax
	andl	$1984, %eax
	addq	%rax, %r13
	subq	%rax, %r15
	pxor	%xmm0, %xmm0
	movdqa	%xmm0, 384(%rsp)
	movdqa	%xmm0, 400(%rsp)
	cmpq	$64, %r15
	jne	.LBB19_45
	movdqu	(%r13), %xmm0
	movdqu	16(%r13), %xmm1
	movdqu	32(%r13), %xmm2
	movups	48(%r13), %xmm3
	movaps	%xmm3, 320(%rsp)
	movdqa	%xmm2, 304(%rsp)
	movdqa	%xmm1, 288(%rsp)
	movdqa	%xmm0, 272(%rsp)
	movaps	%xmm6, 576(%rsp)
	movaps	%xmm9, 592(%rsp)
	movl	$26, 48(%rsp)
	movl	$64, 40(%rsp)
	movq	$0, 32(%rsp)
	leaq	384(%rsp), %rcx
	leaq	592(%rsp), %rdx
	leaq	576(%rsp), %r8
	leaq	272(%rsp), %r9
	jmp	.LBB19_46
.LBB19_45:
	movdqa	%xmm0, 320(%rsp)
	movdqa	%xmm0, 304(%rsp)
	movdqa	%xmm0, 288(%rsp)
	movdqa	%xmm0, 272(%rsp)
	leaq	272(%rsp), %r14
	movq	%r14, %rcx
	movq	%r13, %rdx
	movq	%r15, %r8
	callq	memcpy
	movaps	%xmm6, 608(%rsp)
	movaps	%xmm9, 624(%rsp)
	movl	%r15d, 40(%rsp)
	movl	$26, 48(%rsp)
	movq	$0, 32(%rsp)
	leaq	384(%rsp), %rcx
	leaq	624(%rsp), %rdx
	leaq	608(%rsp), %r8
	movq	%r14, %r9
.LBB19_46:
	callq	"keyed_blake3::compression::compress"
	movaps	400(%rsp), %xmm6
	movq	360(%rsp), %rax
	movaps	384(%rsp), %xmm9
.LBB19_47:
	movups	%xmm8, (%rax)
	movups	%xmm7, 16(%rax)
	movups	%xmm9, 32(%rax)
	movups	%xmm6, 48(%rax)
.LBB19_48:
	movaps	960(%rsp), %xmm6
	movaps	976(%rsp), %xmm7
	movaps	992(%rsp), %xmm8
	movaps	1008(%rsp), %xmm9
	addq	$1032, %rsp
	popq	%rbx
	popq	%rbp
	popq	%rdi
	popq	%rsi
	popq	%r12
	popq	%r13
	popq	%r14
	popq	%r15
	retq
	.seh_endproc

	.section	.text
	.p2align	4
	.def	"xet_roots::groups::two_parent_hashes";
	.scl	3;
	.type	32;
	.endef
"xet_roots::groups::two_parent_hashes":
.seh_proc "xet_roots::groups::two_parent_hashes"
	pushq	%r15
	.seh_pushreg %r15
	pushq	%r14
	.seh_pushreg %r14
	pushq	%r12
	.seh_pushreg %r12
	pushq	%rsi
	.seh_pushreg %rsi
	pushq	%rdi
	.seh_pushreg %rdi
	pushq	%rbx
	.seh_pushreg %rbx
	subq	$1704, %rsp
	.seh_stackalloc 1704
	.seh_endprologue
	movq	%r9, %rbx
	movq	%r8, %r15
	movq	%rdx, %r12
	movq	%rcx, %rsi
	movq	1792(%rsp), %r14
	leaq	912(%rsp), %rdi
	movl	$792, %r8d
	movq	%rdi, %rcx
	xorl	%edx, %edx
	callq	memset
	movq	%rdi, %rcx
	movq	%r12, %rdx
	movq	%r15, %r8
	callq	"xet_roots::groups::write_text"
	movq	%rax, %r15
	leaq	120(%rsp), %r12
	movl	$792, %r8d
	movq	%r12, %rcx
	xorl	%edx, %edx
	callq	memset
	movq	%r12, %rcx
	movq	%rbx, %rdx
	movq	%r14, %r8
	callq	"xet_roots::groups::write_text"
	xorps	%xmm0, %xmm0
	movaps	%xmm0, 96(%rsp)
	movaps	%xmm0, 80(%rsp)
	movaps	%xmm0, 64(%rsp)
	movaps	%xmm0, 48(%rsp)
	movq	%rax, 32(%rsp)
	leaq	48(%rsp), %rcx
	movq	%rdi, %rdx
	movq	%r15, %r8
	movq	%r12, %r9
	callq	"keyed_blake3::keyed_hash_two"
	movaps	48(%rsp), %xmm0
	movaps	64(%rsp), %xmm1
	movaps	80(%rsp), %xmm2
	movaps	96(%rsp), %xmm3
	movups	%xmm0, (%rsi)
	movups	%xmm1, 16(%rsi)
	movups	%xmm2, 32(%rsi)
	movups	%xmm3, 48(%rsi)
	addq	$1704, %rsp
	popq	%rbx
	popq	%rdi
	popq	%rsi
	popq	%r12
	popq	%r14
	popq	%r15
	retq
	.seh_endproc

	.section	.rdata,"dr"
static.3:
	.ascii	" : "

	.section	.rdata,"dr"
	.p2align	1, 0x0
static.6:
	.ascii	"00010203040506070809101112131415161718192021222324252627282930313233343536373839404142434445464748495051525354555657585960616263646566676869707172737475767778798081828384858687888990919293949596979899"

	.section	.rdata,"dr"
static.7:
	.ascii	"\001~\305\307\245G)\226\375\224ff\264\212\002\346]\335So7\307m\322\370cR\346JSq?"

	.section	.rdata,"dr"
	.p2align	3, 0x0
	.globl	yurewha_x86_64_v2_kernels
yurewha_x86_64_v2_kernels:
	.quad	"keyed_blake3::keyed_hash"
	.quad	"keyed_blake3::compression::compress"
	.quad	"keyed_blake3::hasher::Hasher::update"
	.quad	"keyed_blake3::hasher::Hasher::finalize"
	.quad	"xet_roots::groups::two_parent_hashes"
	.quad	"xet_roots::groups::parent_hashes"
	.quad	"xet_roots::groups::write_text"

