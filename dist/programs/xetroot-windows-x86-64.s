/* Yurewha 1.1.0 for windows-x86-64: the proved program xetroot, as the toolchain compiles it. Made by dist/make, not by hand.
   The sum of its sources: 9185823a781027cd98182078e1d539d530be4d65c5a122c359852dba8528b11c */
	.section	.text
	.p2align	4
	.def	"std_alloc::vec::Vec::grow_amortized::<#bc82ad78765e08fe>";
	.scl	3;
	.type	32;
	.endef
"std_alloc::vec::Vec::grow_amortized::<#bc82ad78765e08fe>":
.seh_proc "std_alloc::vec::Vec::grow_amortized::<#bc82ad78765e08fe>"
	pushq	%rsi
	.seh_pushreg %rsi
	pushq	%rdi
	.seh_pushreg %rdi
	subq	$40, %rsp
	.seh_stackalloc 40
	.seh_endprologue
	movq	%rdx, %rax
	movq	8(%rcx), %rdx
	addq	%rdx, %rax
	jb	.LBB0_6
	cmpq	$9, %rax
	movl	$8, %esi
	cmovaeq	%rax, %rsi
	movq	16(%rcx), %r8
	movq	%r8, %r9
	shrq	$62, %r9
	leaq	(%r8,%r8), %rax
	cmpq	%rax, %rsi
	cmovaq	%rsi, %rax
	testq	%r9, %r9
	cmoveq	%rax, %rsi
	testq	%rsi, %rsi
	js	.LBB0_6
	testq	%r8, %r8
	je	.LBB0_5
	movq	%rcx, %rdi
	movq	(%rcx), %rcx
	movl	$1, %r9d
	movq	%rsi, %r8
	callq	in_registers_of_rattle_realloc
	testb	$1, %al
	je	.LBB0_6
.LBB0_4:
	movq	%rdx, (%rdi)
	movq	%rsi, 16(%rdi)
	movb	$1, %al
	addq	$40, %rsp
	popq	%rdi
	popq	%rsi
	retq
.LBB0_5:
	movq	%rcx, %rdi
	movl	$1, %edx
	movq	%rax, %rcx
	callq	in_registers_of_rattle_alloc
	testb	$1, %al
	jne	.LBB0_4
.LBB0_6:
	xorl	%eax, %eax
	addq	$40, %rsp
	popq	%rdi
	popq	%rsi
	retq
	.seh_endproc

	.section	.text
	.p2align	4
	.def	"core::str::utf8::from_utf8";
	.scl	3;
	.type	32;
	.endef
"core::str::utf8::from_utf8":
.seh_proc "core::str::utf8::from_utf8"
	pushq	%r15
	.seh_pushreg %r15
	pushq	%r14
	.seh_pushreg %r14
	pushq	%rsi
	.seh_pushreg %rsi
	pushq	%rdi
	.seh_pushreg %rdi
	pushq	%rbp
	.seh_pushreg %rbp
	pushq	%rbx
	.seh_pushreg %rbx
	subq	$56, %rsp
	.seh_stackalloc 56
	.seh_endprologue
	movq	%r8, %rbx
	movq	%rdx, %rdi
	movq	%rcx, %rsi
	testq	%r8, %r8
	je	.LBB1_57
	movabsq	$-9187201950435737472, %r14
	leaq	-8(%rbx), %r15
	xorl	%ecx, %ecx
	jmp	.LBB1_5
.LBB1_25:
	movl	$1, %r9d
.LBB1_3:
	addq	%rcx, %r9
.LBB1_4:
	movq	%r9, %rcx
	cmpq	%rbx, %r9
	jae	.LBB1_57
.LBB1_5:
	movzbl	(%rdi,%rcx), %r8d
	testb	%r8b, %r8b
	sets	%dl
	movq	%rbx, %rax
	subq	%rcx, %rax
	cmpq	$2, %rax
	setb	%r9b
	orb	%dl, %r9b
	jne	.LBB1_2
	cmpb	$0, 1(%rdi,%rcx)
	js	.LBB1_25
	movq	%rdi, 40(%rsp)
	movq	%rbx, 48(%rsp)
	cmpq	$7, %rax
	ja	.LBB1_26
	cmpb	$0, (%rdi,%rcx)
	js	.LBB1_36
	leaq	1(%rcx), %r9
	cmpq	%rbx, %r9
	je	.LBB1_57
	cmpb	$0, (%rdi,%r9)
	js	.LBB1_4
	leaq	2(%rcx), %r9
	cmpq	%rbx, %r9
	je	.LBB1_57
	cmpb	$0, (%rdi,%r9)
	js	.LBB1_4
	leaq	3(%rcx), %r9
	cmpq	%rbx, %r9
	je	.LBB1_57
	cmpb	$0, (%rdi,%r9)
	js	.LBB1_4
	leaq	4(%rcx), %r9
	cmpq	%rbx, %r9
	je	.LBB1_57
	cmpb	$0, (%rdi,%r9)
	js	.LBB1_4
	leaq	5(%rcx), %r9
	cmpq	%rbx, %r9
	je	.LBB1_57
	cmpb	$0, (%rdi,%r9)
	js	.LBB1_4
	addq	$6, %rcx
	cmpq	%rbx, %rcx
	je	.LBB1_57
	cmpb	$0, (%rdi,%rcx)
	movq	%rcx, %r9
	js	.LBB1_4
	jmp	.LBB1_57
	.p2align	4
.LBB1_2:
	movl	$1, %r9d
	testb	%r8b, %r8b
	jns	.LBB1_3
	movl	$257, %edx
	cmpb	$-62, %r8b
	jb	.LBB1_66
	cmpb	$-33, %r8b
	ja	.LBB1_29
	cmpq	$2, %rax
	jb	.LBB1_58
	movzbl	1(%rdi,%rcx), %r10d
	movl	$2, %r9d
	cmpb	$-65, %r10b
	jle	.LBB1_3
	jmp	.LBB1_60
.LBB1_26:
	movq	(%rdi,%rcx), %rax
	andq	%r14, %rax
	je	.LBB1_37
	rep		bsfq	%rax, %rax
	shrl	$3, %eax
	addq	%rcx, %rax
	addq	$8, %rcx
	movq	%rax, %r9
	cmpq	%rcx, %rax
	jb	.LBB1_4
	movq	%rbx, %rcx
	subq	%rax, %rcx
	cmpq	$32, %rcx
	jae	.LBB1_38
	jmp	.LBB1_40
.LBB1_29:
	cmpb	$-17, %r8b
	ja	.LBB1_48
	cmpq	$3, %rax
	jb	.LBB1_55
	movzbl	1(%rdi,%rcx), %r10d
	cmpb	$-65, %r10b
	jg	.LBB1_60
	cmpb	$-65, 2(%rdi,%rcx)
	jg	.LBB1_60
	movzbl	%r10b, %r9d
	movl	%r8d, %r11d
	shll	$6, %r11d
	addl	%r9d, %r11d
	addl	$-14464, %r11d
	cmpl	$32, %r11d
	jb	.LBB1_60
	xorl	%r10d, %r10d
	cmpl	$896, %r11d
	setae	%bpl
	movl	$3, %r9d
	cmpl	$864, %r11d
	jb	.LBB1_3
	movb	%bpl, %r10b
	leaq	(%r10,%r10,2), %r9
	testq	%r9, %r9
	jne	.LBB1_3
	jmp	.LBB1_54
.LBB1_36:
	movq	%rcx, %r9
	jmp	.LBB1_4
.LBB1_37:
	addq	$8, %rcx
	movq	%rcx, %rax
	movq	%rbx, %rcx
	subq	%rax, %rcx
	cmpq	$32, %rcx
	jb	.LBB1_40
	.p2align	4
.LBB1_38:
	movdqu	(%rdi,%rax), %xmm0
	movdqu	16(%rdi,%rax), %xmm1
	por	%xmm0, %xmm1
	pshufd	$238, %xmm1, %xmm0
	por	%xmm1, %xmm0
	movq	%xmm0, %rcx
	testq	%r14, %rcx
	jne	.LBB1_40
	addq	$32, %rax
	leaq	40(%rsp), %rcx
	movq	%rax, %rdx
	movq	%rbx, %r8
	callq	"core::slice::words::skip_far::<#52f9edcae2f82f51>"
	movq	%rbx, %rcx
	subq	%rax, %rcx
	cmpq	$31, %rcx
	ja	.LBB1_38
.LBB1_40:
	movq	%rbx, %rcx
	subq	%rax, %rcx
	jmp	.LBB1_43
	.p2align	4
.LBB1_41:
	rep		bsfq	%rdx, %r9
	shrl	$3, %r9d
	addq	%rax, %r9
	addq	$8, %rax
	addq	$-8, %rcx
	cmpq	%rax, %r9
	jb	.LBB1_4
.LBB1_43:
	cmpq	$9, %rcx
	jb	.LBB1_46
	movq	(%rdi,%rax), %rdx
	andq	%r14, %rdx
	jne	.LBB1_41
	leaq	8(%rax), %r9
	addq	$8, %rax
	addq	$-8, %rcx
	cmpq	%rax, %r9
	jae	.LBB1_43
	jmp	.LBB1_4
.LBB1_46:
	movq	(%rdi,%r15), %rax
	andq	%r14, %rax
	je	.LBB1_57
	rep		bsfq	%rax, %r9
	shrl	$3, %r9d
	addq	%r15, %r9
	jmp	.LBB1_4
.LBB1_48:
	cmpq	$4, %rax
	jb	.LBB1_54
	movzbl	1(%rdi,%rcx), %r9d
	cmpb	$-65, %r9b
	jg	.LBB1_54
	cmpb	$-65, 2(%rdi,%rcx)
	jg	.LBB1_54
	cmpb	$-65, 3(%rdi,%rcx)
	jg	.LBB1_54
	movl	%r8d, %r10d
	shll	$6, %r10d
	leal	(%r10,%r9), %r11d
	addl	$-15488, %r11d
	xorl	%r9d, %r9d
	cmpl	$272, %r11d
	setb	%r10b
	cmpl	$16, %r11d
	jb	.LBB1_54
	movb	%r10b, %r9b
	shll	$2, %r9d
	testq	%r9, %r9
	jne	.LBB1_3
.LBB1_54:
	cmpb	$-12, %r8b
	ja	.LBB1_66
.LBB1_55:
	cmpq	$2, %rax
	jb	.LBB1_58
	movzbl	1(%rdi,%rcx), %r10d
.LBB1_60:
	cmpl	$240, %r8d
	sete	%r9b
	shlb	$4, %r9b
	orb	$-128, %r9b
	cmpl	$224, %r8d
	movzbl	%r9b, %r9d
	movl	$160, %r11d
	cmovnel	%r9d, %r11d
	cmpl	$244, %r8d
	movl	$143, %r9d
	movl	$191, %ebx
	cmovel	%r9d, %ebx
	cmpl	$237, %r8d
	movl	$159, %r8d
	cmovnel	%ebx, %r8d
	cmpb	%r10b, %r11b
	ja	.LBB1_66
	cmpb	%r8b, %r10b
	ja	.LBB1_66
	cmpq	$2, %rax
	jne	.LBB1_64
.LBB1_58:
	xorl	%edx, %edx
.LBB1_66:
	movq	$1, (%rsi)
	movq	%rcx, 8(%rsi)
	movq	%rdx, 16(%rsi)
	jmp	.LBB1_67
.LBB1_57:
	movq	$0, (%rsi)
	movq	%rdi, 8(%rsi)
	movq	%rbx, 16(%rsi)
.LBB1_67:
	addq	$56, %rsp
	popq	%rbx
	popq	%rbp
	popq	%rdi
	popq	%rsi
	popq	%r14
	popq	%r15
	retq
.LBB1_64:
	movl	$513, %edx
	cmpb	$-65, 2(%rdi,%rcx)
	jg	.LBB1_66
	xorl	%r8d, %r8d
	cmpq	$4, %rax
	movl	$769, %edx
	cmovbq	%r8, %rdx
	jmp	.LBB1_66
	.seh_endproc

	.section	.text
	.p2align	4
	.def	"core::slice::words::skip_far::<#52f9edcae2f82f51>";
	.scl	3;
	.type	32;
	.endef
"core::slice::words::skip_far::<#52f9edcae2f82f51>":
	movq	%rdx, %rax
	subq	%rdx, %r8
	cmpq	$64, %r8
	jb	.LBB2_4
	movq	(%rcx), %rcx
	.p2align	4
.LBB2_2:
	movdqu	(%rcx,%rax), %xmm0
	movdqu	16(%rcx,%rax), %xmm1
	movdqu	32(%rcx,%rax), %xmm2
	por	%xmm0, %xmm2
	movdqu	48(%rcx,%rax), %xmm0
	por	%xmm1, %xmm0
	por	%xmm2, %xmm0
	pshufd	$238, %xmm0, %xmm1
	por	%xmm0, %xmm1
	movq	%xmm1, %rdx
	movabsq	$-9187201950435737472, %r9
	testq	%r9, %rdx
	jne	.LBB2_4
	addq	$64, %rax
	addq	$-64, %r8
	cmpq	$63, %r8
	ja	.LBB2_2
.LBB2_4:
	retq

	.section	.text
	.p2align	4
	.def	"std_alloc::vec::deque::VecDeque::drop::<#f88921834ea0b950>";
	.scl	3;
	.type	32;
	.endef
"std_alloc::vec::deque::VecDeque::drop::<#f88921834ea0b950>":
.seh_proc "std_alloc::vec::deque::VecDeque::drop::<#f88921834ea0b950>"
	pushq	%r15
	.seh_pushreg %r15
	pushq	%r14
	.seh_pushreg %r14
	pushq	%rsi
	.seh_pushreg %rsi
	pushq	%rdi
	.seh_pushreg %rdi
	pushq	%rbx
	.seh_pushreg %rbx
	subq	$32, %rsp
	.seh_stackalloc 32
	.seh_endprologue
	movq	(%rcx), %rsi
	movq	8(%rcx), %r14
	movq	16(%rcx), %rdi
	testq	%r14, %r14
	je	.LBB3_11
	movq	32(%rcx), %rbx
	movq	24(%rcx), %rax
	subq	%rbx, %r14
	leaq	(%rax,%r14), %rcx
	cmpq	%rcx, %rax
	jae	.LBB3_6
	leaq	(%rax,%rax,2), %rax
	leaq	(%rsi,%rax,8), %r15
	addq	$16, %r15
	jmp	.LBB3_3
	.p2align	4
.LBB3_5:
	addq	$24, %r15
	decq	%r14
	je	.LBB3_6
.LBB3_3:
	cmpq	$0, (%r15)
	je	.LBB3_5
	movq	-16(%r15), %rcx
	callq	yurewha_heap_dealloc
	jmp	.LBB3_5
.LBB3_6:
	testq	%rbx, %rbx
	je	.LBB3_11
	leaq	16(%rsi), %r14
	jmp	.LBB3_8
	.p2align	4
.LBB3_10:
	addq	$24, %r14
	decq	%rbx
	je	.LBB3_11
.LBB3_8:
	cmpq	$0, (%r14)
	je	.LBB3_10
	movq	-16(%r14), %rcx
	callq	yurewha_heap_dealloc
	jmp	.LBB3_10
.LBB3_11:
	testq	%rdi, %rdi
	je	.LBB3_12
	movq	%rsi, %rcx
	addq	$32, %rsp
	popq	%rbx
	popq	%rdi
	popq	%rsi
	popq	%r14
	popq	%r15
	jmp	yurewha_heap_dealloc
.LBB3_12:
	addq	$32, %rsp
	popq	%rbx
	popq	%rdi
	popq	%rsi
	popq	%r14
	popq	%r15
	retq
	.seh_endproc

	.section	.text
	.p2align	4
	.def	"std_io::io::error::last_error";
	.scl	3;
	.type	32;
	.endef
"std_io::io::error::last_error":
.seh_proc "std_io::io::error::last_error"
	pushq	%rsi
	.seh_pushreg %rsi
	subq	$32, %rsp
	.seh_stackalloc 32
	.seh_endprologue
	movq	%rcx, %rsi
	callq	yurewha_run_errno
	movl	%eax, %ecx
	movb	$41, %dl
	testl	%eax, %eax
	js	.LBB4_40
	decl	%eax
	cmpl	$121, %eax
	ja	.LBB4_40
	leaq	.LJTI4_0(%rip), %r8
	movslq	(%r8,%rax,4), %rax
	addq	%r8, %rax
	jmpq	*%rax
.LBB4_3:
	movb	$1, %dl
	jmp	.LBB4_40
.LBB4_24:
	movb	$36, %dl
	jmp	.LBB4_40
.LBB4_36:
	movb	$4, %dl
	jmp	.LBB4_40
.LBB4_33:
	movb	$7, %dl
	jmp	.LBB4_40
.LBB4_39:
	movb	$26, %dl
	jmp	.LBB4_40
.LBB4_37:
	movb	$39, %dl
	jmp	.LBB4_40
.LBB4_28:
	movb	$9, %dl
	jmp	.LBB4_40
.LBB4_27:
	movb	$8, %dl
	jmp	.LBB4_40
.LBB4_22:
	movb	$30, %dl
	jmp	.LBB4_40
.LBB4_18:
	movb	$25, %dl
	jmp	.LBB4_40
.LBB4_20:
	movb	$32, %dl
	jmp	.LBB4_40
.LBB4_23:
	movb	$33, %dl
	jmp	.LBB4_40
.LBB4_34:
	movb	$22, %dl
	jmp	.LBB4_40
.LBB4_11:
	movb	$31, %dl
	jmp	.LBB4_40
.LBB4_15:
	movb	$29, %dl
	jmp	.LBB4_40
.LBB4_26:
	movb	$18, %dl
	jmp	.LBB4_40
.LBB4_29:
	movb	$10, %dl
	jmp	.LBB4_40
.LBB4_9:
	movb	$28, %dl
	jmp	.LBB4_40
.LBB4_12:
	movb	$14, %dl
	jmp	.LBB4_40
.LBB4_10:
	movb	$12, %dl
	jmp	.LBB4_40
.LBB4_30:
	movb	$5, %dl
	jmp	.LBB4_40
.LBB4_32:
	movb	$3, %dl
	jmp	.LBB4_40
.LBB4_4:
	xorl	%edx, %edx
	jmp	.LBB4_40
.LBB4_7:
	movb	$13, %dl
	jmp	.LBB4_40
.LBB4_8:
	movb	$38, %dl
	jmp	.LBB4_40
.LBB4_21:
	movb	$11, %dl
	jmp	.LBB4_40
.LBB4_5:
	movb	$35, %dl
	jmp	.LBB4_40
.LBB4_6:
	movb	$34, %dl
	jmp	.LBB4_40
.LBB4_14:
	movb	$20, %dl
	jmp	.LBB4_40
.LBB4_13:
	movb	$15, %dl
	jmp	.LBB4_40
.LBB4_38:
	movb	$19, %dl
	jmp	.LBB4_40
.LBB4_25:
	movb	$16, %dl
	jmp	.LBB4_40
.LBB4_31:
	movb	$6, %dl
	jmp	.LBB4_40
.LBB4_16:
	movb	$27, %dl
	jmp	.LBB4_40
.LBB4_17:
	movb	$24, %dl
	jmp	.LBB4_40
.LBB4_35:
	movb	$2, %dl
	jmp	.LBB4_40
.LBB4_19:
	movb	$17, %dl
.LBB4_40:
	movb	$0, (%rsi)
	movb	%dl, 1(%rsi)
	movw	$0, 2(%rsi)
	movl	%ecx, 4(%rsi)
	xorps	%xmm0, %xmm0
	movups	%xmm0, 8(%rsi)
	movups	%xmm0, 24(%rsi)
	movups	%xmm0, 40(%rsi)
	movups	%xmm0, 56(%rsi)
	movups	%xmm0, 72(%rsi)
	addq	$32, %rsp
	popq	%rsi
	retq
	.seh_endproc

	.section	.rdata,"dr"
	.p2align	2, 0x0
.LJTI4_0:
	.long	.LBB4_3-.LJTI4_0
	.long	.LBB4_4-.LJTI4_0
	.long	.LBB4_40-.LJTI4_0
	.long	.LBB4_5-.LJTI4_0
	.long	.LBB4_40-.LJTI4_0
	.long	.LBB4_40-.LJTI4_0
	.long	.LBB4_6-.LJTI4_0
	.long	.LBB4_40-.LJTI4_0
	.long	.LBB4_40-.LJTI4_0
	.long	.LBB4_40-.LJTI4_0
	.long	.LBB4_7-.LJTI4_0
	.long	.LBB4_8-.LJTI4_0
	.long	.LBB4_3-.LJTI4_0
	.long	.LBB4_40-.LJTI4_0
	.long	.LBB4_40-.LJTI4_0
	.long	.LBB4_9-.LJTI4_0
	.long	.LBB4_10-.LJTI4_0
	.long	.LBB4_11-.LJTI4_0
	.long	.LBB4_40-.LJTI4_0
	.long	.LBB4_12-.LJTI4_0
	.long	.LBB4_13-.LJTI4_0
	.long	.LBB4_14-.LJTI4_0
	.long	.LBB4_40-.LJTI4_0
	.long	.LBB4_40-.LJTI4_0
	.long	.LBB4_40-.LJTI4_0
	.long	.LBB4_15-.LJTI4_0
	.long	.LBB4_16-.LJTI4_0
	.long	.LBB4_17-.LJTI4_0
	.long	.LBB4_18-.LJTI4_0
	.long	.LBB4_19-.LJTI4_0
	.long	.LBB4_20-.LJTI4_0
	.long	.LBB4_21-.LJTI4_0
	.long	.LBB4_40-.LJTI4_0
	.long	.LBB4_40-.LJTI4_0
	.long	.LBB4_22-.LJTI4_0
	.long	.LBB4_23-.LJTI4_0
	.long	.LBB4_40-.LJTI4_0
	.long	.LBB4_24-.LJTI4_0
	.long	.LBB4_25-.LJTI4_0
	.long	.LBB4_26-.LJTI4_0
	.long	.LBB4_40-.LJTI4_0
	.long	.LBB4_40-.LJTI4_0
	.long	.LBB4_40-.LJTI4_0
	.long	.LBB4_40-.LJTI4_0
	.long	.LBB4_40-.LJTI4_0
	.long	.LBB4_40-.LJTI4_0
	.long	.LBB4_40-.LJTI4_0
	.long	.LBB4_40-.LJTI4_0
	.long	.LBB4_40-.LJTI4_0
	.long	.LBB4_40-.LJTI4_0
	.long	.LBB4_40-.LJTI4_0
	.long	.LBB4_40-.LJTI4_0
	.long	.LBB4_40-.LJTI4_0
	.long	.LBB4_40-.LJTI4_0
	.long	.LBB4_40-.LJTI4_0
	.long	.LBB4_40-.LJTI4_0
	.long	.LBB4_40-.LJTI4_0
	.long	.LBB4_40-.LJTI4_0
	.long	.LBB4_40-.LJTI4_0
	.long	.LBB4_40-.LJTI4_0
	.long	.LBB4_40-.LJTI4_0
	.long	.LBB4_40-.LJTI4_0
	.long	.LBB4_40-.LJTI4_0
	.long	.LBB4_40-.LJTI4_0
	.long	.LBB4_40-.LJTI4_0
	.long	.LBB4_40-.LJTI4_0
	.long	.LBB4_40-.LJTI4_0
	.long	.LBB4_40-.LJTI4_0
	.long	.LBB4_40-.LJTI4_0
	.long	.LBB4_40-.LJTI4_0
	.long	.LBB4_40-.LJTI4_0
	.long	.LBB4_40-.LJTI4_0
	.long	.LBB4_40-.LJTI4_0
	.long	.LBB4_40-.LJTI4_0
	.long	.LBB4_40-.LJTI4_0
	.long	.LBB4_40-.LJTI4_0
	.long	.LBB4_40-.LJTI4_0
	.long	.LBB4_40-.LJTI4_0
	.long	.LBB4_40-.LJTI4_0
	.long	.LBB4_40-.LJTI4_0
	.long	.LBB4_40-.LJTI4_0
	.long	.LBB4_40-.LJTI4_0
	.long	.LBB4_40-.LJTI4_0
	.long	.LBB4_40-.LJTI4_0
	.long	.LBB4_40-.LJTI4_0
	.long	.LBB4_40-.LJTI4_0
	.long	.LBB4_40-.LJTI4_0
	.long	.LBB4_40-.LJTI4_0
	.long	.LBB4_40-.LJTI4_0
	.long	.LBB4_40-.LJTI4_0
	.long	.LBB4_40-.LJTI4_0
	.long	.LBB4_40-.LJTI4_0
	.long	.LBB4_40-.LJTI4_0
	.long	.LBB4_40-.LJTI4_0
	.long	.LBB4_24-.LJTI4_0
	.long	.LBB4_40-.LJTI4_0
	.long	.LBB4_40-.LJTI4_0
	.long	.LBB4_27-.LJTI4_0
	.long	.LBB4_28-.LJTI4_0
	.long	.LBB4_29-.LJTI4_0
	.long	.LBB4_30-.LJTI4_0
	.long	.LBB4_40-.LJTI4_0
	.long	.LBB4_31-.LJTI4_0
	.long	.LBB4_32-.LJTI4_0
	.long	.LBB4_40-.LJTI4_0
	.long	.LBB4_40-.LJTI4_0
	.long	.LBB4_33-.LJTI4_0
	.long	.LBB4_40-.LJTI4_0
	.long	.LBB4_40-.LJTI4_0
	.long	.LBB4_34-.LJTI4_0
	.long	.LBB4_35-.LJTI4_0
	.long	.LBB4_40-.LJTI4_0
	.long	.LBB4_36-.LJTI4_0
	.long	.LBB4_40-.LJTI4_0
	.long	.LBB4_37-.LJTI4_0
	.long	.LBB4_38-.LJTI4_0
	.long	.LBB4_40-.LJTI4_0
	.long	.LBB4_40-.LJTI4_0
	.long	.LBB4_40-.LJTI4_0
	.long	.LBB4_40-.LJTI4_0
	.long	.LBB4_40-.LJTI4_0
	.long	.LBB4_39-.LJTI4_0

	.section	.rdata,"dr"
	.p2align	4, 0x0
.LCPI5_0:
	.zero	16,208
.LCPI5_1:
	.zero	16,9
.LCPI5_2:
	.zero	16,223
.LCPI5_3:
	.zero	16,191
.LCPI5_4:
	.zero	16,5
.LCPI5_5:
	.zero	16,1
.LCPI5_6:
	.zero	16,3
.LCPI5_7:
	.zero	16,240
.LCPI5_8:
	.zero	16,15
	.section	.text
	.p2align	4
	.def	"pair_text::said_lines::SaidLinesTakeLines::end_line::<#a10fcec3e4a5dd02>";
	.scl	3;
	.type	32;
	.endef
"pair_text::said_lines::SaidLinesTakeLines::end_line::<#a10fcec3e4a5dd02>":
.seh_proc "pair_text::said_lines::SaidLinesTakeLines::end_line::<#a10fcec3e4a5dd02>"
	pushq	%r15
	.seh_pushreg %r15
	pushq	%r14
	.seh_pushreg %r14
	pushq	%r13
	.seh_pushreg %r13
	pushq	%r12
	.seh_pushreg %r12
	pushq	%rsi
	.seh_pushreg %rsi
	pushq	%rdi
	.seh_pushreg %rdi
	pushq	%rbp
	.seh_pushreg %rbp
	pushq	%rbx
	.seh_pushreg %rbx
	subq	$248, %rsp
	.seh_stackalloc 248
	movdqa	%xmm11, 224(%rsp)
	.seh_savexmm %xmm11, 224
	movdqa	%xmm10, 208(%rsp)
	.seh_savexmm %xmm10, 208
	movdqa	%xmm9, 192(%rsp)
	.seh_savexmm %xmm9, 192
	movdqa	%xmm8, 176(%rsp)
	.seh_savexmm %xmm8, 176
	movdqa	%xmm7, 160(%rsp)
	.seh_savexmm %xmm7, 160
	movdqa	%xmm6, 144(%rsp)
	.seh_savexmm %xmm6, 144
	.seh_endprologue
	movq	%rdx, %rdi
	movq	%rcx, %rsi
	pxor	%xmm0, %xmm0
	movdqa	%xmm0, 128(%rsp)
	movdqa	%xmm0, 112(%rsp)
	leaq	96(%rdx), %r12
	cmpb	$0, 88(%rdx)
	je	.LBB5_4
	leaq	112(%rsp), %rcx
	movq	%r12, %rdx
	callq	yurewha_stub_of_finalize
	movq	112(%rsp), %rax
	movq	120(%rsp), %rcx
	movq	128(%rsp), %r13
	movq	136(%rsp), %rbp
	movq	1952(%rdi), %r14
	movq	64(%rdi), %rbx
	movq	%rbx, %r15
	incq	%r15
	jne	.LBB5_21
.LBB5_2:
	xorl	%eax, %eax
.LBB5_3:
	xorl	%ecx, %ecx
	jmp	.LBB5_55
.LBB5_4:
	movq	184(%rdi), %rdx
	testq	%rdx, %rdx
	je	.LBB5_47
	cmpq	$2, %rdx
	jne	.LBB5_8
	movzbl	(%r12), %eax
	cmpl	$45, %eax
	je	.LBB5_46
	cmpl	$64, %eax
	je	.LBB5_9
	jmp	.LBB5_47
.LBB5_8:
	cmpb	$64, (%r12)
	jne	.LBB5_13
.LBB5_9:
	decq	%rdx
	leaq	97(%rdi), %rcx
	callq	"pair_text::line::parse_decimal"
	cmpb	$1, %al
	jne	.LBB5_47
	cmpq	64(%rdi), %rdx
	je	.LBB5_62
	movq	%rdx, %rbx
	movq	%rdi, %rcx
	callq	"xetroot_text::placed_pairs::PlacedPairs::end_range::<#ca9445b3ca2ffbf0>"
	testb	%al, %al
	jne	.LBB5_58
	movq	%rbx, 56(%rdi)
	movq	%rbx, 64(%rdi)
	jmp	.LBB5_62
.LBB5_13:
	cmpq	$64, %rdx
	jb	.LBB5_47
	movdqa	.LCPI5_0(%rip), %xmm3
	movdqu	96(%rdi), %xmm6
	movdqu	112(%rdi), %xmm9
	movdqu	128(%rdi), %xmm2
	movdqu	144(%rdi), %xmm0
	movdqa	%xmm6, %xmm4
	paddb	%xmm3, %xmm4
	movdqa	%xmm9, %xmm5
	paddb	%xmm3, %xmm5
	movdqa	.LCPI5_1(%rip), %xmm1
	movdqa	%xmm4, %xmm10
	pminub	%xmm1, %xmm10
	pcmpeqb	%xmm4, %xmm10
	movdqa	%xmm5, %xmm11
	pminub	%xmm1, %xmm11
	pcmpeqb	%xmm5, %xmm11
	movdqa	.LCPI5_2(%rip), %xmm7
	pand	%xmm7, %xmm6
	pand	%xmm7, %xmm9
	movdqa	.LCPI5_3(%rip), %xmm8
	paddb	%xmm8, %xmm6
	paddb	%xmm8, %xmm9
	movdqa	.LCPI5_4(%rip), %xmm5
	movdqa	%xmm6, %xmm4
	pminub	%xmm5, %xmm4
	pcmpeqb	%xmm6, %xmm4
	por	%xmm10, %xmm4
	movdqa	%xmm9, %xmm6
	pminub	%xmm5, %xmm6
	pcmpeqb	%xmm9, %xmm6
	por	%xmm11, %xmm6
	movdqa	.LCPI5_5(%rip), %xmm9
	pand	%xmm9, %xmm4
	pand	%xmm9, %xmm6
	movdqa	%xmm2, %xmm9
	paddb	%xmm3, %xmm9
	paddb	%xmm0, %xmm3
	movdqa	%xmm9, %xmm10
	pminub	%xmm1, %xmm10
	pcmpeqb	%xmm9, %xmm10
	pminub	%xmm3, %xmm1
	pcmpeqb	%xmm3, %xmm1
	pand	%xmm7, %xmm2
	pand	%xmm7, %xmm0
	paddb	%xmm8, %xmm2
	paddb	%xmm8, %xmm0
	movdqa	%xmm2, %xmm3
	pminub	%xmm5, %xmm3
	pcmpeqb	%xmm2, %xmm3
	por	%xmm10, %xmm3
	psubb	%xmm3, %xmm4
	pminub	%xmm0, %xmm5
	pcmpeqb	%xmm0, %xmm5
	por	%xmm1, %xmm5
	psubb	%xmm5, %xmm6
	paddb	%xmm4, %xmm6
	pshufd	$238, %xmm6, %xmm1
	paddb	%xmm6, %xmm1
	pxor	%xmm0, %xmm0
	psadbw	%xmm0, %xmm1
	movd	%xmm1, %eax
	cmpb	$64, %al
	jne	.LBB5_47
	movdqa	%xmm0, 64(%rsp)
	movdqa	%xmm0, 48(%rsp)
	xorl	%eax, %eax
	.p2align	4
.LBB5_16:
	movzbl	126(%rdi,%rax,2), %ecx
	movd	%ecx, %xmm0
	movzbl	124(%rdi,%rax,2), %ecx
	movd	%ecx, %xmm1
	punpcklbw	%xmm0, %xmm1
	movzbl	122(%rdi,%rax,2), %ecx
	movd	%ecx, %xmm0
	movzbl	120(%rdi,%rax,2), %ecx
	movd	%ecx, %xmm2
	punpcklbw	%xmm0, %xmm2
	punpcklwd	%xmm1, %xmm2
	movzbl	118(%rdi,%rax,2), %ecx
	movd	%ecx, %xmm0
	movzbl	116(%rdi,%rax,2), %ecx
	movd	%ecx, %xmm1
	punpcklbw	%xmm0, %xmm1
	movzbl	114(%rdi,%rax,2), %ecx
	movd	%ecx, %xmm3
	movzbl	112(%rdi,%rax,2), %ecx
	movd	%ecx, %xmm0
	punpcklbw	%xmm3, %xmm0
	punpcklwd	%xmm1, %xmm0
	punpckldq	%xmm2, %xmm0
	movzbl	110(%rdi,%rax,2), %ecx
	movd	%ecx, %xmm1
	movzbl	108(%rdi,%rax,2), %ecx
	movd	%ecx, %xmm2
	punpcklbw	%xmm1, %xmm2
	movzbl	106(%rdi,%rax,2), %ecx
	movd	%ecx, %xmm1
	movzbl	104(%rdi,%rax,2), %ecx
	movd	%ecx, %xmm3
	punpcklbw	%xmm1, %xmm3
	punpcklwd	%xmm2, %xmm3
	movzbl	102(%rdi,%rax,2), %ecx
	movd	%ecx, %xmm1
	movzbl	100(%rdi,%rax,2), %ecx
	movd	%ecx, %xmm2
	punpcklbw	%xmm1, %xmm2
	movzbl	98(%rdi,%rax,2), %ecx
	movd	%ecx, %xmm1
	movzbl	96(%rdi,%rax,2), %ecx
	movd	%ecx, %xmm4
	punpcklbw	%xmm1, %xmm4
	punpcklwd	%xmm2, %xmm4
	punpckldq	%xmm3, %xmm4
	punpcklqdq	%xmm0, %xmm4
	movdqa	%xmm4, %xmm2
	psrlw	$6, %xmm2
	movdqa	.LCPI5_6(%rip), %xmm1
	pand	%xmm1, %xmm2
	movdqa	%xmm2, %xmm0
	psllw	$3, %xmm0
	por	%xmm2, %xmm0
	paddb	%xmm4, %xmm0
	psllw	$4, %xmm0
	pand	.LCPI5_7(%rip), %xmm0
	movzbl	127(%rdi,%rax,2), %ecx
	movd	%ecx, %xmm2
	movzbl	125(%rdi,%rax,2), %ecx
	movd	%ecx, %xmm3
	punpcklbw	%xmm2, %xmm3
	movzbl	123(%rdi,%rax,2), %ecx
	movd	%ecx, %xmm2
	movzbl	121(%rdi,%rax,2), %ecx
	movd	%ecx, %xmm4
	punpcklbw	%xmm2, %xmm4
	punpcklwd	%xmm3, %xmm4
	movzbl	119(%rdi,%rax,2), %ecx
	movd	%ecx, %xmm2
	movzbl	117(%rdi,%rax,2), %ecx
	movd	%ecx, %xmm3
	punpcklbw	%xmm2, %xmm3
	movzbl	115(%rdi,%rax,2), %ecx
	movd	%ecx, %xmm5
	movzbl	113(%rdi,%rax,2), %ecx
	movd	%ecx, %xmm2
	punpcklbw	%xmm5, %xmm2
	punpcklwd	%xmm3, %xmm2
	punpckldq	%xmm4, %xmm2
	movzbl	111(%rdi,%rax,2), %ecx
	movd	%ecx, %xmm3
	movzbl	109(%rdi,%rax,2), %ecx
	movd	%ecx, %xmm4
	punpcklbw	%xmm3, %xmm4
	movzbl	107(%rdi,%rax,2), %ecx
	movd	%ecx, %xmm3
	movzbl	105(%rdi,%rax,2), %ecx
	movd	%ecx, %xmm5
	punpcklbw	%xmm3, %xmm5
	punpcklwd	%xmm4, %xmm5
	movzbl	103(%rdi,%rax,2), %ecx
	movd	%ecx, %xmm3
	movzbl	101(%rdi,%rax,2), %ecx
	movd	%ecx, %xmm4
	punpcklbw	%xmm3, %xmm4
	movzbl	99(%rdi,%rax,2), %ecx
	movd	%ecx, %xmm3
	movzbl	97(%rdi,%rax,2), %ecx
	movd	%ecx, %xmm6
	punpcklbw	%xmm3, %xmm6
	punpcklwd	%xmm4, %xmm6
	punpckldq	%xmm5, %xmm6
	punpcklqdq	%xmm2, %xmm6
	movdqa	.LCPI5_8(%rip), %xmm2
	pand	%xmm6, %xmm2
	psrlw	$6, %xmm6
	pand	%xmm1, %xmm6
	movdqa	%xmm6, %xmm1
	psllw	$3, %xmm1
	por	%xmm6, %xmm1
	paddb	%xmm2, %xmm1
	paddb	%xmm0, %xmm1
	movdqu	%xmm1, 48(%rsp,%rax)
	addq	$16, %rax
	cmpq	$32, %rax
	jne	.LBB5_16
	cmpq	$64, %rdx
	je	.LBB5_47
	cmpb	$32, 160(%rdi)
	jne	.LBB5_47
	movq	48(%rsp), %rbx
	movq	56(%rsp), %r15
	movq	64(%rsp), %r13
	movq	72(%rsp), %rbp
	addq	$-65, %rdx
	leaq	161(%rdi), %rcx
	callq	"pair_text::line::parse_decimal"
	cmpb	$1, %al
	jne	.LBB5_47
	movq	%rdx, %r14
	bswapq	%rbx
	bswapq	%r15
	bswapq	%r13
	bswapq	%rbp
	movq	%rbx, %rax
	movq	%r15, %rcx
	movq	64(%rdi), %rbx
	movq	%rbx, %r15
	incq	%r15
	je	.LBB5_2
.LBB5_21:
	cmpb	$1, (%rdi)
	movq	%rax, 104(%rsp)
	movq	%rcx, 96(%rsp)
	jne	.LBB5_53
	movq	8(%rdi), %rax
	movzwl	(%rax), %edx
	testq	%rdx, %rdx
	je	.LBB5_29
	xorl	%ecx, %ecx
	.p2align	4
.LBB5_24:
	cmpq	8(%rax,%rcx,8), %rbx
	jb	.LBB5_27
	incq	%rcx
	cmpq	%rcx, %rdx
	jne	.LBB5_24
	movq	%rdx, %rcx
.LBB5_27:
	cmpw	$0, 2(%rax)
	jne	.LBB5_31
	testq	%rcx, %rcx
	jne	.LBB5_40
	jmp	.LBB5_48
.LBB5_29:
	cmpw	$0, 2(%rax)
	je	.LBB5_48
	xorl	%ecx, %ecx
.LBB5_31:
	leaq	8(%rdi), %r9
	xorl	%edx, %edx
	movq	%rcx, %r10
	movq	%r9, %r11
	jmp	.LBB5_33
	.p2align	4
.LBB5_32:
	shlq	$4, %rdx
	addq	%r10, %rdx
	xorl	%r10d, %r10d
	cmpw	$0, 2(%rax)
	je	.LBB5_43
.LBB5_33:
	movq	%r11, %r8
	leaq	(%rax,%r10,8), %r11
	addq	$848, %r11
	movq	848(%rax,%r10,8), %rax
	movzwl	(%rax), %r12d
	testq	%r12, %r12
	je	.LBB5_32
	xorl	%ecx, %ecx
	.p2align	4
.LBB5_35:
	cmpq	8(%rax,%rcx,8), %rbx
	jb	.LBB5_38
	incq	%rcx
	cmpq	%rcx, %r12
	jne	.LBB5_35
	movq	%r12, %rcx
.LBB5_38:
	shlq	$4, %rdx
	addq	%r10, %rdx
	cmpw	$0, 2(%rax)
	movq	%rcx, %r10
	jne	.LBB5_33
	testq	%rcx, %rcx
	je	.LBB5_43
.LBB5_40:
	leaq	(%rcx,%rcx,2), %rcx
	shlq	$4, %rcx
	addq	%rcx, %rax
	addq	$80, %rax
	leaq	96(%rdi), %r12
	jmp	.LBB5_41
.LBB5_43:
	pxor	%xmm0, %xmm0
	movdqa	%xmm0, 80(%rsp)
	movdqa	%xmm0, 64(%rsp)
	movdqa	%xmm0, 48(%rsp)
	movq	$-1, 32(%rsp)
	leaq	48(%rsp), %rcx
	callq	"std_collections::btree::iter::Cursor::retreat::<#4f04a9971a4b2638>"
	movzbl	48(%rsp), %eax
	cmpb	$1, 72(%rsp)
	jne	.LBB5_49
	testb	$1, %al
	leaq	96(%rdi), %r12
	jne	.LBB5_45
	movq	88(%rsp), %rax
	movl	80(%rsp), %ecx
	movq	(%rax), %rax
	andl	$15, %ecx
	movq	848(%rax,%rcx,8), %rax
	movzwl	(%rax), %ecx
	testq	%rcx, %rcx
	je	.LBB5_53
	leaq	(%rcx,%rcx,2), %rcx
	shll	$4, %ecx
	addq	%rcx, %rax
	addq	$80, %rax
	jmp	.LBB5_41
.LBB5_46:
	cmpb	$45, 97(%rdi)
	je	.LBB5_62
.LBB5_47:
	movw	$1, (%rsi)
	jmp	.LBB5_68
.LBB5_48:
	leaq	96(%rdi), %r12
	jmp	.LBB5_53
.LBB5_49:
	testb	$1, %al
	leaq	96(%rdi), %r12
	je	.LBB5_53
.LBB5_45:
	movq	64(%rsp), %rax
.LBB5_41:
	cmpq	(%rax), %rbx
	jae	.LBB5_53
	movb	$1, %cl
	xorl	%eax, %eax
	jmp	.LBB5_55
.LBB5_53:
	movq	80(%rdi), %rbx
	addq	%r14, %rbx
	jae	.LBB5_56
	xorl	%eax, %eax
	movb	$2, %cl
.LBB5_55:
	movb	$1, (%rsi)
	movb	%al, 1(%rsi)
	movb	%cl, 2(%rsi)
	jmp	.LBB5_69
.LBB5_56:
	movq	40(%rdi), %rax
	cmpq	$4096, %rax
	jb	.LBB5_60
	movq	%rdi, %rcx
	callq	"xetroot_text::placed_pairs::PlacedPairs::end_range::<#ca9445b3ca2ffbf0>"
	testb	%al, %al
	je	.LBB5_59
.LBB5_58:
	movb	$1, %al
	jmp	.LBB5_3
.LBB5_59:
	movq	40(%rdi), %rax
.LBB5_60:
	cmpq	%rax, 48(%rdi)
	je	.LBB5_70
.LBB5_61:
	movq	32(%rdi), %rcx
	leaq	(%rax,%rax,4), %rdx
	movq	104(%rsp), %r8
	movq	%r8, (%rcx,%rdx,8)
	movq	96(%rsp), %r8
	movq	%r8, 8(%rcx,%rdx,8)
	movq	%r13, 16(%rcx,%rdx,8)
	movq	%rbp, 24(%rcx,%rdx,8)
	movq	%r14, 32(%rcx,%rdx,8)
	incq	%rax
	movq	%rax, 40(%rdi)
	movq	%r15, 64(%rdi)
	movq	72(%rdi), %rax
	incq	%rax
	movq	$-1, %rcx
	cmovneq	%rax, %rcx
	movq	%rcx, 72(%rdi)
	movq	%rbx, 80(%rdi)
.LBB5_62:
	leaq	88(%rdi), %rcx
	cmpb	$0, (%rcx)
	je	.LBB5_65
	movl	$1872, %r8d
	xorl	%edx, %edx
	callq	memset
	jmp	.LBB5_67
.LBB5_65:
	movq	184(%rdi), %r8
	testq	%r8, %r8
	je	.LBB5_67
	movq	%r12, %rcx
	xorl	%edx, %edx
	callq	memset
	movq	$0, 184(%rdi)
.LBB5_67:
	movw	$0, (%rsi)
.LBB5_68:
	movb	$0, 2(%rsi)
.LBB5_69:
	movaps	144(%rsp), %xmm6
	movaps	160(%rsp), %xmm7
	movaps	176(%rsp), %xmm8
	movaps	192(%rsp), %xmm9
	movaps	208(%rsp), %xmm10
	movaps	224(%rsp), %xmm11
	addq	$248, %rsp
	popq	%rbx
	popq	%rbp
	popq	%rdi
	popq	%rsi
	popq	%r12
	popq	%r13
	popq	%r14
	popq	%r15
	retq
.LBB5_70:
	leaq	32(%rdi), %rcx
	movl	$1, %edx
	callq	"std_alloc::vec::Vec::grow_amortized::<#1ed62de40e111fb4>"
	testb	%al, %al
	je	.LBB5_58
	movq	40(%rdi), %rax
	jmp	.LBB5_61
	.seh_endproc

	.section	.text
	.p2align	4
	.def	"core::cmp::slices::groups_equal::<i8,31'core::cmp::numbers::U8PartialEq{}>";
	.scl	3;
	.type	32;
	.endef
"core::cmp::slices::groups_equal::<i8,31'core::cmp::numbers::U8PartialEq{}>":
	cmpq	$8, %rdx
	ja	.LBB6_2
	movd	-4(%rcx,%rdx), %xmm0
	movd	(%rcx), %xmm1
	punpckldq	%xmm0, %xmm1
	movd	-4(%r8,%rdx), %xmm0
	movd	(%r8), %xmm2
	punpckldq	%xmm0, %xmm2
	movq	%xmm1, %rax
	movq	%xmm2, %rcx
	cmpq	%rcx, %rax
	jmp	.LBB6_17
.LBB6_2:
	cmpq	$32, %rdx
	ja	.LBB6_4
	leaq	-8(%rdx), %rax
	cmpq	$8, %rax
	movl	$8, %r9d
	cmovbq	%rax, %r9
	cmpq	$16, %rax
	movl	$16, %r10d
	cmovbq	%rax, %r10
	movq	(%rcx,%r9), %xmm0
	movq	(%rcx), %xmm1
	punpcklqdq	%xmm0, %xmm1
	movq	(%rcx,%r10), %xmm0
	movq	-8(%rcx,%rdx), %xmm2
	punpcklqdq	%xmm2, %xmm0
	movq	(%r8,%r9), %xmm2
	movq	(%r8), %xmm3
	punpcklqdq	%xmm2, %xmm3
	pcmpeqb	%xmm1, %xmm3
	movq	(%r8,%r10), %xmm1
	movq	-8(%r8,%rdx), %xmm2
	punpcklqdq	%xmm2, %xmm1
	pcmpeqb	%xmm0, %xmm1
	pand	%xmm3, %xmm1
	pmovmskb	%xmm1, %eax
	jmp	.LBB6_16
.LBB6_4:
	cmpq	$65, %rdx
	jae	.LBB6_5
	movdqu	(%rcx), %xmm0
	movdqu	16(%rcx), %xmm1
	movdqu	(%r8), %xmm2
	pcmpeqb	%xmm0, %xmm2
	movdqu	16(%r8), %xmm0
	pcmpeqb	%xmm1, %xmm0
	movdqu	-32(%rcx,%rdx), %xmm1
	movdqu	-16(%rcx,%rdx), %xmm3
	movdqu	-32(%r8,%rdx), %xmm4
	pcmpeqb	%xmm1, %xmm4
	pand	%xmm2, %xmm4
	movdqu	-16(%r8,%rdx), %xmm1
	pcmpeqb	%xmm3, %xmm1
	pand	%xmm0, %xmm1
	pand	%xmm4, %xmm1
	pmovmskb	%xmm1, %eax
	jmp	.LBB6_16
.LBB6_5:
	xorl	%eax, %eax
	movq	%rdx, %r9
	.p2align	4
.LBB6_6:
	movdqu	(%rcx,%rax), %xmm0
	movdqu	16(%rcx,%rax), %xmm1
	movdqu	32(%rcx,%rax), %xmm2
	movdqu	48(%rcx,%rax), %xmm3
	movdqu	(%r8,%rax), %xmm4
	pcmpeqb	%xmm0, %xmm4
	movdqu	16(%r8,%rax), %xmm0
	pcmpeqb	%xmm1, %xmm0
	movdqu	32(%r8,%rax), %xmm1
	pcmpeqb	%xmm2, %xmm1
	pand	%xmm4, %xmm1
	movdqu	48(%r8,%rax), %xmm2
	pcmpeqb	%xmm3, %xmm2
	pand	%xmm0, %xmm2
	pand	%xmm1, %xmm2
	pmovmskb	%xmm2, %r10d
	cmpl	$65535, %r10d
	jne	.LBB6_8
	addq	$64, %rax
	addq	$-64, %r9
	cmpq	$63, %r9
	ja	.LBB6_6
.LBB6_8:
	cmpq	$32, %r9
	jb	.LBB6_15
	movq	%rdx, %r9
	subq	%rax, %r9
	.p2align	4
.LBB6_10:
	movdqu	(%rcx,%rax), %xmm0
	movdqu	16(%rcx,%rax), %xmm1
	movdqu	(%r8,%rax), %xmm2
	pcmpeqb	%xmm0, %xmm2
	movdqu	16(%r8,%rax), %xmm0
	pcmpeqb	%xmm1, %xmm0
	pand	%xmm2, %xmm0
	pmovmskb	%xmm0, %r10d
	xorl	$65535, %r10d
	jne	.LBB6_14
	addq	$32, %rax
	addq	$-32, %r9
	cmpq	$32, %r9
	jae	.LBB6_10
	jmp	.LBB6_15
.LBB6_14:
	movb	$1, %al
	cmpq	$31, %r9
	ja	.LBB6_18
.LBB6_15:
	movdqu	-32(%rcx,%rdx), %xmm0
	movdqu	-16(%rcx,%rdx), %xmm1
	movdqu	-32(%r8,%rdx), %xmm2
	pcmpeqb	%xmm0, %xmm2
	movdqu	-16(%r8,%rdx), %xmm0
	pcmpeqb	%xmm1, %xmm0
	pand	%xmm2, %xmm0
	pmovmskb	%xmm0, %eax
.LBB6_16:
	xorl	$65535, %eax
.LBB6_17:
	setne	%al
.LBB6_18:
	xorb	$1, %al
	retq

	.section	.text
	.p2align	4
	.def	"pair_text::line::parse_decimal";
	.scl	3;
	.type	32;
	.endef
"pair_text::line::parse_decimal":
.seh_proc "pair_text::line::parse_decimal"
	pushq	%rsi
	.seh_pushreg %rsi
	pushq	%rdi
	.seh_pushreg %rdi
	pushq	%rbp
	.seh_pushreg %rbp
	pushq	%rbx
	.seh_pushreg %rbx
	subq	$104, %rsp
	.seh_stackalloc 104
	.seh_endprologue
	movq	%rdx, %rsi
	movq	%rcx, %rdi
	xorps	%xmm0, %xmm0
	movaps	%xmm0, 80(%rsp)
	movq	$0, 96(%rsp)
	leaq	80(%rsp), %rcx
	movq	%rdi, %rdx
	movq	%rsi, %r8
	callq	"core::str::utf8::from_utf8"
	cmpb	$0, 80(%rsp)
	je	.LBB7_2
.LBB7_1:
	xorl	%edx, %edx
	xorl	%eax, %eax
.LBB7_38:
	addq	$104, %rsp
	popq	%rbx
	popq	%rbp
	popq	%rdi
	popq	%rsi
	retq
.LBB7_2:
	movq	96(%rsp), %rcx
	testq	%rcx, %rcx
	je	.LBB7_1
	movq	88(%rsp), %r8
	cmpb	$43, (%r8)
	jne	.LBB7_4
	cmpq	$1, %rcx
	je	.LBB7_1
	movl	$1, %r9d
	movabsq	$1844674407370955162, %r10
	xorl	%ebx, %ebx
	.p2align	4
.LBB7_11:
	xorl	%edx, %edx
	movl	$0, %eax
	cmpq	%r10, %rbx
	jae	.LBB7_38
	movzbl	(%r8,%r9), %r11d
	leal	-48(%r11), %ebp
	cmpb	$9, %bpl
	ja	.LBB7_38
	addq	%rbx, %rbx
	leaq	(%rbx,%rbx,4), %rax
	andl	$15, %r11d
	movq	%r11, %rbx
	addq	%rax, %rbx
	jb	.LBB7_1
	incq	%r9
	cmpq	%r9, %rcx
	jne	.LBB7_11
	jmp	.LBB7_15
.LBB7_4:
	movabsq	$1844674407370955162, %r9
	xorl	%ebx, %ebx
	xorl	%r10d, %r10d
	.p2align	4
.LBB7_5:
	xorl	%edx, %edx
	movl	$0, %eax
	cmpq	%r9, %rbx
	jae	.LBB7_38
	movzbl	(%r8,%r10), %r11d
	leal	-48(%r11), %ebp
	cmpb	$9, %bpl
	ja	.LBB7_38
	addq	%rbx, %rbx
	leaq	(%rbx,%rbx,4), %rax
	andl	$15, %r11d
	movq	%r11, %rbx
	addq	%rax, %rbx
	jb	.LBB7_1
	incq	%r10
	cmpq	%r10, %rcx
	jne	.LBB7_5
.LBB7_15:
	xorps	%xmm0, %xmm0
	movaps	%xmm0, 48(%rsp)
	movaps	%xmm0, 32(%rsp)
	movq	$0, 64(%rsp)
	movl	$40, %r8d
	movq	%rbx, %rdx
	cmpq	$10000, %rbx
	jb	.LBB7_18
	movq	%rbx, %rcx
	.p2align	4
.LBB7_17:
	movabsq	$3777893186295716171, %rdx
	movq	%rcx, %rax
	mulq	%rdx
	shrq	$11, %rdx
	imull	$10000, %edx, %eax
	movl	%ecx, %r9d
	subl	%eax, %r9d
	imull	$5243, %r9d, %eax
	shrl	$19, %eax
	imull	$100, %eax, %r10d
	subl	%r10d, %r9d
	movzwl	%r9w, %r9d
	leaq	static.15(%rip), %r10
	movzwl	(%r10,%r9,2), %r9d
	movw	%r9w, 30(%rsp,%r8)
	movzwl	(%r10,%rax,2), %eax
	movw	%ax, 28(%rsp,%r8)
	addq	$-4, %r8
	cmpq	$99999999, %rcx
	movq	%rdx, %rcx
	ja	.LBB7_17
.LBB7_18:
	cmpq	$99, %rdx
	ja	.LBB7_22
	cmpq	$9, %rdx
	ja	.LBB7_21
	orb	$48, %dl
	movb	%dl, 31(%rsp,%r8)
	decq	%r8
	jmp	.LBB7_25
.LBB7_22:
	movl	%edx, %eax
	shrl	$2, %eax
	movzwl	%ax, %eax
	imull	$5243, %eax, %eax
	shrl	$17, %eax
	imull	$100, %eax, %ecx
	movl	%edx, %r9d
	subl	%ecx, %r9d
	movzwl	%r9w, %r9d
	leaq	static.15(%rip), %rcx
	movzwl	(%rcx,%r9,2), %r9d
	movw	%r9w, 30(%rsp,%r8)
	cmpq	$999, %rdx
	ja	.LBB7_24
	orb	$48, %al
	movb	%al, 29(%rsp,%r8)
	addq	$-3, %r8
	movl	%eax, %edx
	jmp	.LBB7_25
.LBB7_21:
	leaq	static.15(%rip), %rax
	movzbl	1(%rax,%rdx,2), %ecx
	movzbl	(%rax,%rdx,2), %eax
	movb	%al, 30(%rsp,%r8)
	movb	%cl, 31(%rsp,%r8)
	addq	$-2, %r8
	movl	%eax, %edx
	jmp	.LBB7_25
.LBB7_24:
	movzwl	%ax, %eax
	movzbl	(%rcx,%rax,2), %edx
	movzbl	1(%rcx,%rax,2), %eax
	movb	%dl, 28(%rsp,%r8)
	movb	%al, 29(%rsp,%r8)
	addq	$-4, %r8
.LBB7_25:
	movl	$40, %eax
	subq	%r8, %rax
	cmpq	%rsi, %rax
	jne	.LBB7_1
	leaq	(%rsp,%r8), %rcx
	addq	$32, %rcx
	cmpq	$4, %rsi
	jae	.LBB7_27
	cmpq	$40, %r8
	je	.LBB7_37
	xorl	%eax, %eax
.LBB7_34:
	movzbl	(%rcx,%rax), %edx
	cmpb	(%rdi,%rax), %dl
	jne	.LBB7_36
	incq	%rax
	cmpq	%rax, %rsi
	jne	.LBB7_34
	jmp	.LBB7_37
.LBB7_27:
	movq	%rdx, %r8
	xorl	%edx, %edx
	movl	$0, %eax
	cmpb	(%rdi), %r8b
	jne	.LBB7_38
	movzbl	1(%rdi), %r8d
	cmpb	%r8b, 1(%rcx)
	jne	.LBB7_38
	movzbl	2(%rdi), %r8d
	cmpb	%r8b, 2(%rcx)
	jne	.LBB7_38
	movzbl	3(%rdi), %r8d
	cmpb	%r8b, 3(%rcx)
	jne	.LBB7_38
	movq	%rsi, %rdx
	movq	%rdi, %r8
	callq	"core::cmp::slices::groups_equal::<i8,31'core::cmp::numbers::U8PartialEq{}>"
	testb	%al, %al
	je	.LBB7_1
	jmp	.LBB7_37
.LBB7_36:
	cmpq	%rsi, %rax
	jb	.LBB7_1
.LBB7_37:
	movb	$1, %al
	movq	%rbx, %rdx
	jmp	.LBB7_38
	.seh_endproc

	.section	.text
	.p2align	4
	.def	"xetroot_text::placed_pairs::PlacedPairs::end_range::<#ca9445b3ca2ffbf0>";
	.scl	3;
	.type	32;
	.endef
"xetroot_text::placed_pairs::PlacedPairs::end_range::<#ca9445b3ca2ffbf0>":
.seh_proc "xetroot_text::placed_pairs::PlacedPairs::end_range::<#ca9445b3ca2ffbf0>"
	pushq	%r15
	.seh_pushreg %r15
	pushq	%r14
	.seh_pushreg %r14
	pushq	%r13
	.seh_pushreg %r13
	pushq	%r12
	.seh_pushreg %r12
	pushq	%rsi
	.seh_pushreg %rsi
	pushq	%rdi
	.seh_pushreg %rdi
	pushq	%rbp
	.seh_pushreg %rbp
	pushq	%rbx
	.seh_pushreg %rbx
	subq	$584, %rsp
	.seh_stackalloc 584
	movaps	%xmm6, 560(%rsp)
	.seh_savexmm %xmm6, 560
	.seh_endprologue
	movq	40(%rcx), %rbx
	testq	%rbx, %rbx
	je	.LBB11_181
	movq	%rcx, %rsi
	movq	32(%rcx), %r8
	movq	56(%rcx), %r14
	movq	80(%rcx), %rdi
	xorps	%xmm0, %xmm0
	movaps	%xmm0, 448(%rsp)
	movaps	%xmm0, 432(%rsp)
	movaps	%xmm0, 416(%rsp)
	movb	$0, 32(%rsp)
	leaq	416(%rsp), %rcx
	xorl	%edx, %edx
	movq	%rbx, %r9
	callq	"xet_merkle::merkle_hash_subtree::subtree::as_range::MerkleHashSubtreeChunkRange::from_chunks::<#d96a70c1b70ca186>"
	cmpb	$0, 416(%rsp)
	je	.LBB11_5
	movzbl	417(%rsp), %r13d
.LBB11_3:
	movb	$1, %al
	cmpb	$2, %r13b
	je	.LBB11_182
.LBB11_4:
	ud2
.LBB11_5:
	movq	424(%rsp), %rax
	movq	%rax, 264(%rsp)
	movq	432(%rsp), %r12
	movq	440(%rsp), %rbp
	movaps	448(%rsp), %xmm0
	movaps	%xmm0, 464(%rsp)
	cmpb	$1, (%rsi)
	movq	%rdi, 256(%rsp)
	jne	.LBB11_13
	movq	8(%rsi), %rax
	movzwl	(%rax), %edx
	testq	%rdx, %rdx
	je	.LBB11_14
	xorl	%ecx, %ecx
	.p2align	4
.LBB11_8:
	cmpq	8(%rax,%rcx,8), %r14
	jb	.LBB11_11
	incq	%rcx
	cmpq	%rcx, %rdx
	jne	.LBB11_8
	movq	%rdx, %rcx
.LBB11_11:
	cmpw	$0, 2(%rax)
	jne	.LBB11_16
	testq	%rcx, %rcx
	jne	.LBB11_25
	jmp	.LBB11_13
.LBB11_14:
	cmpw	$0, 2(%rax)
	je	.LBB11_13
	xorl	%ecx, %ecx
.LBB11_16:
	leaq	8(%rsi), %r9
	xorl	%edx, %edx
	movq	%rcx, %r10
	movq	%r9, %r11
	jmp	.LBB11_18
	.p2align	4
.LBB11_17:
	shlq	$4, %rdx
	addq	%r10, %rdx
	xorl	%r10d, %r10d
	cmpw	$0, 2(%rax)
	je	.LBB11_26
.LBB11_18:
	movq	%r11, %r8
	leaq	(%rax,%r10,8), %r11
	addq	$848, %r11
	movq	848(%rax,%r10,8), %rax
	movzwl	(%rax), %r15d
	testq	%r15, %r15
	je	.LBB11_17
	xorl	%ecx, %ecx
	.p2align	4
.LBB11_20:
	cmpq	8(%rax,%rcx,8), %r14
	jb	.LBB11_23
	incq	%rcx
	cmpq	%rcx, %r15
	jne	.LBB11_20
	movq	%r15, %rcx
.LBB11_23:
	shlq	$4, %rdx
	addq	%r10, %rdx
	cmpw	$0, 2(%rax)
	movq	%rcx, %r10
	jne	.LBB11_18
	testq	%rcx, %rcx
	je	.LBB11_26
.LBB11_25:
	leaq	(%rax,%rcx,8), %rdx
	leaq	(%rcx,%rcx,2), %rcx
	shlq	$4, %rcx
	addq	%rcx, %rax
	addq	$80, %rax
	jmp	.LBB11_32
.LBB11_26:
	xorps	%xmm0, %xmm0
	movaps	%xmm0, 112(%rsp)
	movaps	%xmm0, 96(%rsp)
	movaps	%xmm0, 80(%rsp)
	movq	$-1, 32(%rsp)
	leaq	80(%rsp), %rcx
	callq	"std_collections::btree::iter::Cursor::retreat::<#4f04a9971a4b2638>"
	movzbl	80(%rsp), %eax
	cmpb	$1, 104(%rsp)
	jne	.LBB11_30
	testb	$1, %al
	jne	.LBB11_31
	movq	120(%rsp), %rax
	movl	112(%rsp), %ecx
	movq	(%rax), %rax
	andl	$15, %ecx
	movq	848(%rax,%rcx,8), %rcx
	movzwl	(%rcx), %eax
	testq	%rax, %rax
	je	.LBB11_13
	leaq	(%rcx,%rax,8), %rdx
	subq	$-128, %rcx
	leaq	(%rax,%rax,2), %rax
	addq	$-3, %rax
	shlq	$4, %rax
	addq	%rcx, %rax
	jmp	.LBB11_32
.LBB11_30:
	testb	$1, %al
	je	.LBB11_13
.LBB11_31:
	movq	88(%rsp), %rdx
	movq	96(%rsp), %rax
.LBB11_32:
	cmpq	%r14, (%rax)
	jne	.LBB11_13
	movq	(%rdx), %r15
	movb	$1, %al
	movq	%rax, 64(%rsp)
	addq	%r14, %rbx
	movzbl	(%rsi), %eax
	cmpb	$1, %al
	jne	.LBB11_87
	jmp	.LBB11_34
.LBB11_13:
	movq	$0, 64(%rsp)
	xorl	%r15d, %r15d
	addq	%r14, %rbx
	movzbl	(%rsi), %eax
	cmpb	$1, %al
	jne	.LBB11_87
.LBB11_34:
	leaq	8(%rsi), %r13
	movq	%r13, %rcx
	movq	(%rcx), %rcx
	movzwl	(%rcx), %r9d
	testq	%r9, %r9
	jne	.LBB11_35
.LBB11_39:
	xorl	%edx, %edx
.LBB11_40:
	cmpw	$0, 2(%rcx)
	je	.LBB11_87
	addq	%rdx, %rcx
	addq	$848, %rcx
	movq	(%rcx), %rcx
	movzwl	(%rcx), %r9d
	testq	%r9, %r9
	je	.LBB11_39
.LBB11_35:
	leaq	152(%rcx), %r8
	leal	(,%r9,8), %r10d
	xorl	%edx, %edx
	.p2align	4
.LBB11_36:
	movq	8(%rcx,%rdx), %r11
	cmpq	%r11, %rbx
	setae	%dil
	addb	%dil, %dil
	cmpq	%r11, %rbx
	movzbl	%dil, %edi
	movl	$1, %r11d
	cmovnel	%edi, %r11d
	cmpb	$2, %r11b
	jne	.LBB11_42
	addq	$48, %r8
	addq	$8, %rdx
	cmpq	%rdx, %r10
	jne	.LBB11_36
	shll	$3, %r9d
	movq	%r9, %rdx
	jmp	.LBB11_40
	.p2align	4
.LBB11_42:
	movzbl	%r11b, %r9d
	testl	%r9d, %r9d
	je	.LBB11_40
	movq	(%r8), %rdx
	testq	%rdx, %rdx
	je	.LBB11_64
	movq	-8(%r8), %r8
	addq	$40, %r8
	xorl	%ecx, %ecx
	.p2align	4
.LBB11_45:
	movq	%rcx, %r9
	movq	-32(%r8), %rcx
	subq	-16(%r8), %rcx
	addq	%r9, %rcx
	jb	.LBB11_4
	addq	(%r8), %rcx
	jb	.LBB11_4
	addq	$56, %r8
	decq	%rdx
	jne	.LBB11_45
	cmpb	$0, 64(%rsp)
	movq	%r12, 72(%rsp)
	je	.LBB11_65
.LBB11_49:
	movq	%r13, %rdx
	movq	(%rdx), %rdx
	movzwl	(%rdx), %r10d
	testq	%r10, %r10
	jne	.LBB11_50
.LBB11_54:
	xorl	%r8d, %r8d
.LBB11_55:
	cmpw	$0, 2(%rdx)
	je	.LBB11_87
	addq	%r8, %rdx
	addq	$848, %rdx
	movq	(%rdx), %rdx
	movzwl	(%rdx), %r10d
	testq	%r10, %r10
	je	.LBB11_54
.LBB11_50:
	leaq	152(%rdx), %r9
	leal	(,%r10,8), %r11d
	xorl	%r8d, %r8d
	.p2align	4
.LBB11_51:
	movq	8(%rdx,%r8), %rdi
	cmpq	%rdi, %r15
	setae	%r12b
	addb	%r12b, %r12b
	cmpq	%rdi, %r15
	movzbl	%r12b, %r12d
	movl	$1, %edi
	cmovnel	%r12d, %edi
	cmpb	$2, %dil
	jne	.LBB11_57
	addq	$48, %r9
	addq	$8, %r8
	cmpq	%r8, %r11
	jne	.LBB11_51
	shll	$3, %r10d
	movq	%r10, %r8
	movq	72(%rsp), %r12
	jmp	.LBB11_55
.LBB11_57:
	movzbl	%dil, %r10d
	testl	%r10d, %r10d
	movq	72(%rsp), %r12
	je	.LBB11_55
	movq	(%r9), %rdx
	testq	%rdx, %rdx
	je	.LBB11_80
	movq	-8(%r9), %r8
	addq	$40, %r8
	xorl	%r9d, %r9d
	.p2align	4
.LBB11_60:
	movq	%r9, %r10
	movq	-32(%r8), %r9
	subq	-16(%r8), %r9
	addq	%r10, %r9
	jb	.LBB11_4
	addq	(%r8), %r9
	jb	.LBB11_4
	addq	$56, %r8
	decq	%rdx
	jne	.LBB11_60
	cmpq	%rcx, %r9
	jb	.LBB11_81
	jmp	.LBB11_87
.LBB11_64:
	xorl	%ecx, %ecx
	cmpb	$0, 64(%rsp)
	movq	%r12, 72(%rsp)
	jne	.LBB11_49
.LBB11_65:
	testq	%rbp, %rbp
	je	.LBB11_71
	leaq	40(%r12), %r8
	xorl	%edx, %edx
	movq	%rbp, %r9
	.p2align	4
.LBB11_67:
	movq	%rdx, %r10
	movq	-32(%r8), %rdx
	subq	-16(%r8), %rdx
	addq	%r10, %rdx
	jb	.LBB11_4
	addq	(%r8), %rdx
	jb	.LBB11_4
	addq	$56, %r8
	decq	%r9
	jne	.LBB11_67
	cmpq	%rcx, %rdx
	jb	.LBB11_72
	jmp	.LBB11_87
.LBB11_71:
	xorl	%edx, %edx
	cmpq	%rcx, %rdx
	jae	.LBB11_87
.LBB11_72:
	movq	%r13, %rcx
	movq	(%rcx), %rcx
	movzwl	(%rcx), %r8d
	testq	%r8, %r8
	jne	.LBB11_73
.LBB11_77:
	xorl	%edx, %edx
.LBB11_78:
	cmpw	$0, 2(%rcx)
	je	.LBB11_81
	addq	%rdx, %rcx
	addq	$848, %rcx
	movq	(%rcx), %rcx
	movzwl	(%rcx), %r8d
	testq	%r8, %r8
	je	.LBB11_77
.LBB11_73:
	leal	(,%r8,8), %r9d
	xorl	%edx, %edx
	.p2align	4
.LBB11_74:
	movq	8(%rcx,%rdx), %r10
	cmpq	%r10, %r14
	setae	%r11b
	addb	%r11b, %r11b
	cmpq	%r10, %r14
	movzbl	%r11b, %r11d
	movl	$1, %r10d
	cmovnel	%r11d, %r10d
	cmpb	$2, %r10b
	jne	.LBB11_86
	addq	$8, %rdx
	cmpq	%rdx, %r9
	jne	.LBB11_74
	shll	$3, %r8d
	movq	%r8, %rdx
	jmp	.LBB11_78
.LBB11_86:
	movzbl	%r10b, %r8d
	testl	%r8d, %r8d
	je	.LBB11_78
	jmp	.LBB11_87
.LBB11_80:
	xorl	%r9d, %r9d
	cmpq	%rcx, %r9
	jae	.LBB11_87
.LBB11_81:
	xorps	%xmm0, %xmm0
	movaps	%xmm0, 368(%rsp)
	movaps	%xmm0, 384(%rsp)
	movups	%xmm0, 397(%rsp)
	movw	$0, 56(%rsp)
	movb	$0, 58(%rsp)
	movaps	%xmm0, 480(%rsp)
	movaps	%xmm0, 496(%rsp)
	movq	$0, 512(%rsp)
	movq	264(%rsp), %rax
	movq	%rax, 328(%rsp)
	movq	%r12, 336(%rsp)
	movq	%rbp, 344(%rsp)
	movaps	464(%rsp), %xmm1
	movups	%xmm1, 352(%rsp)
	cmpb	$0, 64(%rsp)
	je	.LBB11_106
	movaps	%xmm0, 112(%rsp)
	movaps	%xmm0, 96(%rsp)
	movaps	%xmm0, 80(%rsp)
	movb	$0, 32(%rsp)
	leaq	80(%rsp), %rcx
	leaq	48(%rsp), %r8
	xorl	%edx, %edx
	xorl	%r9d, %r9d
	callq	"xet_merkle::merkle_hash_subtree::subtree::as_range::MerkleHashSubtreeChunkRange::from_chunks::<#d96a70c1b70ca186>"
	cmpb	$0, 80(%rsp)
	je	.LBB11_184
	movzbl	81(%rsp), %r13d
	movq	352(%rsp), %rdi
	testq	%rbp, %rbp
	jne	.LBB11_241
	jmp	.LBB11_84
.LBB11_87:
	xorps	%xmm0, %xmm0
	movaps	%xmm0, 80(%rsp)
	movaps	%xmm0, 96(%rsp)
	movaps	%xmm0, 112(%rsp)
	movaps	%xmm0, 128(%rsp)
	movaps	%xmm0, 192(%rsp)
	movaps	%xmm0, 208(%rsp)
	movaps	%xmm0, 224(%rsp)
	movq	$0, 240(%rsp)
	movq	264(%rsp), %rcx
	movq	%rcx, 272(%rsp)
	movq	%r12, 280(%rsp)
	movq	%rbp, 288(%rsp)
	movaps	464(%rsp), %xmm0
	movups	%xmm0, 296(%rsp)
	movq	%rbx, %rdi
	cmpb	$1, %al
	jne	.LBB11_115
	leaq	8(%rsi), %rax
	movq	(%rax), %rax
	movzwl	(%rax), %edx
	testq	%rdx, %rdx
	jne	.LBB11_89
.LBB11_93:
	xorl	%ecx, %ecx
.LBB11_94:
	cmpw	$0, 2(%rax)
	je	.LBB11_114
	addq	%rcx, %rax
	addq	$848, %rax
	movq	(%rax), %rax
	movzwl	(%rax), %edx
	testq	%rdx, %rdx
	je	.LBB11_93
.LBB11_89:
	leaq	136(%rax), %rdi
	leal	(,%rdx,8), %r8d
	xorl	%ecx, %ecx
	.p2align	4
.LBB11_90:
	movq	8(%rax,%rcx), %r9
	cmpq	%r9, %rbx
	setae	%r10b
	addb	%r10b, %r10b
	cmpq	%r9, %rbx
	movzbl	%r10b, %r10d
	movl	$1, %r9d
	cmovnel	%r10d, %r9d
	cmpb	$2, %r9b
	jne	.LBB11_96
	addq	$48, %rdi
	addq	$8, %rcx
	cmpq	%rcx, %r8
	jne	.LBB11_90
	shll	$3, %edx
	movq	%rdx, %rcx
	jmp	.LBB11_94
.LBB11_96:
	movzbl	%r9b, %edx
	testl	%edx, %edx
	je	.LBB11_94
	xorps	%xmm0, %xmm0
	movaps	%xmm0, 384(%rsp)
	movaps	%xmm0, 368(%rsp)
	xorl	%ebp, %ebp
	leaq	368(%rsp), %rcx
	leaq	272(%rsp), %rdx
	movq	%rdi, %r8
	xorl	%r9d, %r9d
	callq	"xet_merkle::merkle_hash_subtree::subtree::MerkleHashSubtree::merge_with::<#3cf6a99334775a21>"
	cmpb	$0, 368(%rsp)
	movzbl	369(%rsp), %r13d
	cmovel	%ebp, %r13d
	je	.LBB11_105
	movq	280(%rsp), %rsi
	movq	288(%rsp), %r14
	movq	296(%rsp), %rbx
	testq	%r14, %r14
	je	.LBB11_134
	leaq	48(%rsi), %r15
	jmp	.LBB11_101
	.p2align	4
.LBB11_100:
	addq	$56, %r15
	decq	%r14
	je	.LBB11_134
.LBB11_101:
	movq	-16(%r15), %rdi
	movq	(%r15), %r12
	cmpq	$0, -32(%r15)
	je	.LBB11_103
	movq	-48(%r15), %rcx
	callq	yurewha_heap_dealloc
.LBB11_103:
	testq	%r12, %r12
	je	.LBB11_100
	movq	%rdi, %rcx
	callq	yurewha_heap_dealloc
	jmp	.LBB11_100
.LBB11_105:
	movq	-8(%rdi), %rdi
	jmp	.LBB11_115
.LBB11_106:
	movups	352(%rsp), %xmm6
	movq	352(%rsp), %r15
	movaps	%xmm0, 144(%rsp)
	movaps	%xmm0, 160(%rsp)
	movaps	%xmm0, 176(%rsp)
	movaps	%xmm0, 80(%rsp)
	movaps	%xmm0, 96(%rsp)
	movaps	%xmm0, 112(%rsp)
	movaps	%xmm0, 128(%rsp)
	movw	$0, 60(%rsp)
	movb	$0, 62(%rsp)
	movaps	%xmm0, 192(%rsp)
	movaps	%xmm0, 208(%rsp)
	movaps	%xmm0, 224(%rsp)
	movq	$0, 240(%rsp)
	movb	$0, 32(%rsp)
	leaq	144(%rsp), %rcx
	leaq	48(%rsp), %r8
	xorl	%edx, %edx
	xorl	%r9d, %r9d
	callq	"xet_merkle::merkle_hash_subtree::subtree::as_range::MerkleHashSubtreeChunkRange::from_chunks::<#d96a70c1b70ca186>"
	cmpb	$0, 144(%rsp)
	je	.LBB11_193
	movzbl	145(%rsp), %r13d
	testq	%rbp, %rbp
	je	.LBB11_183
	leaq	48(%r12), %rdi
	jmp	.LBB11_110
.LBB11_109:
	addq	$56, %rdi
	decq	%rbp
	je	.LBB11_183
.LBB11_110:
	movq	-16(%rdi), %rsi
	movq	(%rdi), %rbx
	cmpq	$0, -32(%rdi)
	je	.LBB11_112
	movq	-48(%rdi), %rcx
	callq	yurewha_heap_dealloc
.LBB11_112:
	testq	%rbx, %rbx
	je	.LBB11_109
	movq	%rsi, %rcx
	callq	yurewha_heap_dealloc
	jmp	.LBB11_109
.LBB11_114:
	movq	%rbx, %rdi
.LBB11_115:
	movq	304(%rsp), %rax
	movq	%rax, 184(%rsp)
	movq	272(%rsp), %rax
	movq	280(%rsp), %rcx
	movq	288(%rsp), %rdx
	movq	%rdx, 168(%rsp)
	movq	296(%rsp), %rdx
	movq	%rdx, 176(%rsp)
	movq	%rax, 152(%rsp)
	movq	%rcx, 160(%rsp)
	movq	%rdi, 144(%rsp)
	cmpb	$0, 64(%rsp)
	je	.LBB11_125
	cmpb	$1, (%rsi)
	jne	.LBB11_157
	leaq	152(%rsp), %r8
	leaq	8(%rsi), %rax
	movq	8(%rsi), %r13
	movzwl	2(%r13), %ecx
	movl	$15, %edx
	subq	%rcx, %rdx
	xorl	%r10d, %r10d
	movq	%r13, %r14
.LBB11_118:
	movq	%r13, %r11
	movzwl	(%r13), %r13d
	xorl	%r9d, %r9d
	testq	%r13, %r13
	je	.LBB11_123
	.p2align	4
.LBB11_119:
	movq	8(%r11,%r9,8), %r12
	cmpq	%r12, %r15
	setae	%bpl
	addb	%bpl, %bpl
	cmpq	%r12, %r15
	movzbl	%bpl, %r12d
	movl	$1, %ebp
	cmovnel	%r12d, %ebp
	cmpb	$2, %bpl
	jne	.LBB11_122
	incq	%r9
	cmpq	%r9, %r13
	jne	.LBB11_119
	movq	%r13, %r9
	jmp	.LBB11_123
.LBB11_122:
	movzbl	%bpl, %ebp
	testl	%ebp, %ebp
	jne	.LBB11_137
.LBB11_123:
	cmpw	$0, 2(%r11)
	je	.LBB11_157
	incq	%rdx
	movq	848(%r11,%r9,8), %r13
	movq	%r9, %r10
	movq	%r11, %r14
	jmp	.LBB11_118
.LBB11_125:
	leaq	80(%rsp), %rcx
	leaq	144(%rsp), %r9
	movq	%rsi, %rdx
	movq	%r14, %r8
	callq	"std_collections::btree_map::BTreeMap::insert::<#09be7a39fcfa9307>"
	cmpb	$0, 80(%rsp)
	je	.LBB11_146
	movq	112(%rsp), %rsi
	movq	120(%rsp), %r14
	movq	128(%rsp), %rbx
	testq	%r14, %r14
	je	.LBB11_133
	leaq	48(%rsi), %r15
	jmp	.LBB11_129
	.p2align	4
.LBB11_128:
	addq	$56, %r15
	decq	%r14
	je	.LBB11_133
.LBB11_129:
	movq	-16(%r15), %rdi
	movq	(%r15), %r12
	cmpq	$0, -32(%r15)
	je	.LBB11_131
	movq	-48(%r15), %rcx
	callq	yurewha_heap_dealloc
.LBB11_131:
	testq	%r12, %r12
	je	.LBB11_128
	movq	%rdi, %rcx
	callq	yurewha_heap_dealloc
	jmp	.LBB11_128
.LBB11_133:
	movb	$2, %r13b
.LBB11_134:
	testq	%rbx, %rbx
	je	.LBB11_3
	movq	%rsi, %rcx
.LBB11_136:
	callq	yurewha_heap_dealloc
	jmp	.LBB11_3
.LBB11_137:
	andl	$15, %r9d
	addq	%rdx, %rcx
	cmpq	$15, %rcx
	leaq	848(%r14,%r10,8), %rcx
	cmoveq	%rax, %rcx
	movq	(%rcx), %r14
	movzwl	(%r14), %eax
	cmpq	%rax, %r9
	jae	.LBB11_4
	leaq	(%r9,%r9,2), %r15
	shll	$4, %r15d
	leaq	(%r14,%r15), %rdx
	addq	$136, %rdx
	xorps	%xmm0, %xmm0
	movaps	%xmm0, 288(%rsp)
	movaps	%xmm0, 272(%rsp)
	xorl	%ebp, %ebp
	leaq	272(%rsp), %rcx
	xorl	%r9d, %r9d
	callq	"xet_merkle::merkle_hash_subtree::subtree::MerkleHashSubtree::merge_with::<#3cf6a99334775a21>"
	cmpb	$0, 272(%rsp)
	movzbl	273(%rsp), %r13d
	cmovel	%ebp, %r13d
	je	.LBB11_156
	movq	160(%rsp), %rsi
	movq	168(%rsp), %r14
	movq	176(%rsp), %rbx
	testq	%r14, %r14
	je	.LBB11_134
	leaq	48(%rsi), %r15
	jmp	.LBB11_142
	.p2align	4
.LBB11_141:
	addq	$56, %r15
	decq	%r14
	je	.LBB11_134
.LBB11_142:
	movq	-16(%r15), %rdi
	movq	(%r15), %r12
	cmpq	$0, -32(%r15)
	je	.LBB11_144
	movq	-48(%r15), %rcx
	callq	yurewha_heap_dealloc
.LBB11_144:
	testq	%r12, %r12
	je	.LBB11_141
	movq	%rdi, %rcx
	callq	yurewha_heap_dealloc
	jmp	.LBB11_141
.LBB11_146:
	cmpb	$1, 88(%rsp)
	jne	.LBB11_157
	movq	112(%rsp), %rdi
	movq	120(%rsp), %r13
	movq	128(%rsp), %r12
	testq	%r13, %r13
	je	.LBB11_154
	leaq	48(%rdi), %rbp
	jmp	.LBB11_150
	.p2align	4
.LBB11_149:
	addq	$56, %rbp
	decq	%r13
	je	.LBB11_154
.LBB11_150:
	movq	-16(%rbp), %r14
	movq	(%rbp), %r15
	cmpq	$0, -32(%rbp)
	je	.LBB11_152
	movq	-48(%rbp), %rcx
	callq	yurewha_heap_dealloc
.LBB11_152:
	testq	%r15, %r15
	je	.LBB11_149
	movq	%r14, %rcx
	callq	yurewha_heap_dealloc
	jmp	.LBB11_149
.LBB11_154:
	testq	%r12, %r12
	je	.LBB11_157
	movq	%rdi, %rcx
	callq	yurewha_heap_dealloc
	jmp	.LBB11_157
.LBB11_156:
	leaq	(%r14,%r15), %rax
	addq	$128, %rax
	movq	%rdi, (%rax)
.LBB11_157:
	leaq	192(%rsp), %rcx
	movq	%rsi, %rdx
	movq	%rbx, %r8
	callq	"std_collections::btree_map::BTreeMap::remove::<#0b8f5120abf1300c>"
	cmpb	$1, 192(%rsp)
	jne	.LBB11_167
	movq	216(%rsp), %rdi
	movq	224(%rsp), %r15
	movq	232(%rsp), %r14
	testq	%r15, %r15
	je	.LBB11_165
	leaq	48(%rdi), %r13
	jmp	.LBB11_161
	.p2align	4
.LBB11_160:
	addq	$56, %r13
	decq	%r15
	je	.LBB11_165
.LBB11_161:
	movq	-16(%r13), %rbx
	movq	(%r13), %rbp
	cmpq	$0, -32(%r13)
	je	.LBB11_163
	movq	-48(%r13), %rcx
	callq	yurewha_heap_dealloc
.LBB11_163:
	testq	%rbp, %rbp
	je	.LBB11_160
	movq	%rbx, %rcx
	callq	yurewha_heap_dealloc
	jmp	.LBB11_160
.LBB11_165:
	testq	%r14, %r14
	je	.LBB11_167
	movq	%rdi, %rcx
	callq	yurewha_heap_dealloc
.LBB11_167:
	cmpb	$0, 64(%rsp)
	je	.LBB11_177
	movq	160(%rsp), %rdi
	movq	168(%rsp), %r15
	movq	176(%rsp), %r14
	testq	%r15, %r15
	je	.LBB11_175
	leaq	48(%rdi), %r12
	jmp	.LBB11_171
	.p2align	4
.LBB11_170:
	addq	$56, %r12
	decq	%r15
	je	.LBB11_175
.LBB11_171:
	movq	-16(%r12), %rbx
	movq	(%r12), %r13
	cmpq	$0, -32(%r12)
	je	.LBB11_173
	movq	-48(%r12), %rcx
	callq	yurewha_heap_dealloc
.LBB11_173:
	testq	%r13, %r13
	je	.LBB11_170
	movq	%rbx, %rcx
	callq	yurewha_heap_dealloc
	jmp	.LBB11_170
.LBB11_175:
	testq	%r14, %r14
	je	.LBB11_177
	movq	%rdi, %rcx
	callq	yurewha_heap_dealloc
.LBB11_177:
	movq	256(%rsp), %r12
.LBB11_178:
	movq	%r12, 24(%rsi)
	cmpq	$0, 40(%rsi)
	je	.LBB11_180
	movq	$0, 40(%rsi)
.LBB11_180:
	movq	64(%rsi), %rax
	movq	%rax, 56(%rsi)
.LBB11_181:
	xorl	%eax, %eax
.LBB11_182:
	movaps	560(%rsp), %xmm6
	addq	$584, %rsp
	popq	%rbx
	popq	%rbp
	popq	%rdi
	popq	%rsi
	popq	%r12
	popq	%r13
	popq	%r14
	popq	%r15
	retq
.LBB11_183:
	testq	%r15, %r15
	jne	.LBB11_85
	jmp	.LBB11_3
.LBB11_184:
	movq	120(%rsp), %rax
	movq	%rax, 224(%rsp)
	movups	88(%rsp), %xmm0
	movups	104(%rsp), %xmm1
	movaps	%xmm1, 208(%rsp)
	movaps	%xmm0, 192(%rsp)
	cmpb	$1, (%rsi)
	jne	.LBB11_221
	movq	(%r13), %rax
	movzwl	(%rax), %edx
	testq	%rdx, %rdx
	je	.LBB11_190
.LBB11_186:
	leaq	136(%rax), %r8
	leal	(,%rdx,8), %r9d
	xorl	%ecx, %ecx
.LBB11_187:
	movq	8(%rax,%rcx), %r10
	cmpq	%r10, %r15
	setae	%r11b
	addb	%r11b, %r11b
	cmpq	%r10, %r15
	movzbl	%r11b, %r11d
	movl	$1, %r10d
	cmovnel	%r11d, %r10d
	cmpb	$2, %r10b
	jne	.LBB11_212
	addq	$48, %r8
	addq	$8, %rcx
	cmpq	%rcx, %r9
	jne	.LBB11_187
	shll	$3, %edx
	movq	%rdx, %rcx
	jmp	.LBB11_191
.LBB11_212:
	movzbl	%r10b, %edx
	testl	%edx, %edx
	je	.LBB11_191
	jmp	.LBB11_213
.LBB11_190:
	xorl	%ecx, %ecx
.LBB11_191:
	cmpw	$0, 2(%rax)
	je	.LBB11_221
	leaq	(%rax,%rcx), %r13
	addq	$848, %r13
	movq	(%r13), %rax
	movzwl	(%rax), %edx
	testq	%rdx, %rdx
	jne	.LBB11_186
	jmp	.LBB11_190
.LBB11_193:
	movq	%rbx, 272(%rsp)
	movups	152(%rsp), %xmm0
	movups	168(%rsp), %xmm1
	movups	%xmm0, 280(%rsp)
	movups	%xmm1, 296(%rsp)
	movq	184(%rsp), %rax
	movq	%rax, 312(%rsp)
	leaq	80(%rsp), %rcx
	leaq	272(%rsp), %r9
	movq	%rsi, %rdx
	movq	%r14, %r8
	callq	"std_collections::btree_map::BTreeMap::insert::<#09be7a39fcfa9307>"
	cmpb	$0, 80(%rsp)
	je	.LBB11_231
	movq	112(%rsp), %rsi
	movq	120(%rsp), %r14
	movq	128(%rsp), %rdi
	testq	%r14, %r14
	je	.LBB11_201
	leaq	48(%rsi), %r12
	jmp	.LBB11_197
.LBB11_196:
	addq	$56, %r12
	decq	%r14
	je	.LBB11_201
.LBB11_197:
	movq	-16(%r12), %rbx
	movq	(%r12), %r13
	cmpq	$0, -32(%r12)
	je	.LBB11_199
	movq	-48(%r12), %rcx
	callq	yurewha_heap_dealloc
.LBB11_199:
	testq	%r13, %r13
	je	.LBB11_196
	movq	%rbx, %rcx
	callq	yurewha_heap_dealloc
	jmp	.LBB11_196
.LBB11_201:
	testq	%rdi, %rdi
	je	.LBB11_203
	movq	%rsi, %rcx
	callq	yurewha_heap_dealloc
.LBB11_203:
	testq	%rbp, %rbp
	movq	72(%rsp), %r14
	je	.LBB11_210
	leaq	48(%r14), %rdi
	jmp	.LBB11_206
.LBB11_205:
	addq	$56, %rdi
	decq	%rbp
	je	.LBB11_210
.LBB11_206:
	movq	-16(%rdi), %rsi
	movq	(%rdi), %rbx
	cmpq	$0, -32(%rdi)
	je	.LBB11_208
	movq	-48(%rdi), %rcx
	callq	yurewha_heap_dealloc
.LBB11_208:
	testq	%rbx, %rbx
	je	.LBB11_205
	movq	%rsi, %rcx
	callq	yurewha_heap_dealloc
	jmp	.LBB11_205
.LBB11_210:
	movb	$2, %r13b
	testq	%r15, %r15
	je	.LBB11_3
	movq	%r14, %rcx
	jmp	.LBB11_136
.LBB11_213:
	xorps	%xmm0, %xmm0
	movaps	%xmm0, 160(%rsp)
	movaps	%xmm0, 144(%rsp)
	xorl	%edi, %edi
	leaq	144(%rsp), %rcx
	leaq	192(%rsp), %rdx
	xorl	%r9d, %r9d
	callq	"xet_merkle::merkle_hash_subtree::subtree::MerkleHashSubtree::merge_with::<#3cf6a99334775a21>"
	cmpb	$0, 144(%rsp)
	movzbl	145(%rsp), %r13d
	cmovel	%edi, %r13d
	je	.LBB11_221
	movq	200(%rsp), %rsi
	movq	208(%rsp), %r14
	movq	216(%rsp), %rdi
	testq	%r14, %r14
	je	.LBB11_229
	leaq	48(%rsi), %r15
	jmp	.LBB11_217
.LBB11_216:
	addq	$56, %r15
	decq	%r14
	je	.LBB11_229
.LBB11_217:
	movq	-16(%r15), %rbx
	movq	(%r15), %r12
	cmpq	$0, -32(%r15)
	je	.LBB11_219
	movq	-48(%r15), %rcx
	callq	yurewha_heap_dealloc
.LBB11_219:
	testq	%r12, %r12
	je	.LBB11_216
	movq	%rbx, %rcx
	callq	yurewha_heap_dealloc
	jmp	.LBB11_216
.LBB11_221:
	xorps	%xmm0, %xmm0
	movaps	%xmm0, 160(%rsp)
	movaps	%xmm0, 144(%rsp)
	xorl	%edi, %edi
	leaq	144(%rsp), %rcx
	leaq	192(%rsp), %rdx
	leaq	328(%rsp), %r8
	xorl	%r9d, %r9d
	callq	"xet_merkle::merkle_hash_subtree::subtree::MerkleHashSubtree::merge_with::<#3cf6a99334775a21>"
	cmpb	$0, 144(%rsp)
	movzbl	145(%rsp), %r13d
	cmovel	%edi, %r13d
	je	.LBB11_247
	movq	200(%rsp), %rsi
	movq	208(%rsp), %r14
	movq	216(%rsp), %rdi
	testq	%r14, %r14
	je	.LBB11_229
	leaq	48(%rsi), %r15
	jmp	.LBB11_225
.LBB11_224:
	addq	$56, %r15
	decq	%r14
	je	.LBB11_229
.LBB11_225:
	movq	-16(%r15), %rbx
	movq	(%r15), %r12
	cmpq	$0, -32(%r15)
	je	.LBB11_227
	movq	-48(%r15), %rcx
	callq	yurewha_heap_dealloc
.LBB11_227:
	testq	%r12, %r12
	je	.LBB11_224
	movq	%rbx, %rcx
	callq	yurewha_heap_dealloc
	jmp	.LBB11_224
.LBB11_229:
	testq	%rdi, %rdi
	je	.LBB11_230
	movq	%rsi, %rcx
	callq	yurewha_heap_dealloc
	movq	72(%rsp), %r12
	movq	352(%rsp), %rdi
	testq	%rbp, %rbp
	jne	.LBB11_241
	jmp	.LBB11_84
.LBB11_231:
	cmpb	$1, 88(%rsp)
	jne	.LBB11_257
	movq	112(%rsp), %rax
	movq	%rax, 64(%rsp)
	movq	120(%rsp), %r13
	movq	128(%rsp), %rax
	movq	%rax, 320(%rsp)
	testq	%r13, %r13
	je	.LBB11_255
	movq	64(%rsp), %rax
	leaq	48(%rax), %r15
	jmp	.LBB11_235
.LBB11_234:
	addq	$56, %r15
	decq	%r13
	je	.LBB11_255
.LBB11_235:
	movq	-16(%r15), %r12
	movq	(%r15), %rdi
	cmpq	$0, -32(%r15)
	je	.LBB11_237
	movq	-48(%r15), %rcx
	callq	yurewha_heap_dealloc
.LBB11_237:
	testq	%rdi, %rdi
	je	.LBB11_234
	movq	%r12, %rcx
	callq	yurewha_heap_dealloc
	jmp	.LBB11_234
.LBB11_230:
	movq	72(%rsp), %r12
	movq	352(%rsp), %rdi
	testq	%rbp, %rbp
	je	.LBB11_84
.LBB11_241:
	leaq	48(%r12), %rbx
	jmp	.LBB11_243
	.p2align	4
.LBB11_242:
	addq	$56, %rbx
	decq	%rbp
	je	.LBB11_84
.LBB11_243:
	movq	-16(%rbx), %rsi
	movq	(%rbx), %r14
	cmpq	$0, -32(%rbx)
	je	.LBB11_245
	movq	-48(%rbx), %rcx
	callq	yurewha_heap_dealloc
.LBB11_245:
	testq	%r14, %r14
	je	.LBB11_242
	movq	%rsi, %rcx
	callq	yurewha_heap_dealloc
	jmp	.LBB11_242
.LBB11_247:
	movq	224(%rsp), %rax
	movq	%rax, 405(%rsp)
	movaps	192(%rsp), %xmm0
	movaps	208(%rsp), %xmm1
	movups	%xmm1, 389(%rsp)
	movups	%xmm0, 373(%rsp)
	movaps	%xmm0, 480(%rsp)
	movaps	%xmm1, 496(%rsp)
	movq	%rax, 512(%rsp)
	movq	%rbx, 32(%rsp)
	leaq	56(%rsp), %rcx
	leaq	480(%rsp), %r9
	movq	%rsi, %rdx
	movq	%r15, %r8
	callq	"upload_session::runs::Runs::put_before_next::<#ca9445b3ca2ffbf0>"
	cmpb	$0, 56(%rsp)
	je	.LBB11_266
	movzbl	57(%rsp), %r13d
	movq	352(%rsp), %rdi
	testq	%rbp, %rbp
	je	.LBB11_84
	leaq	48(%r12), %rbx
	jmp	.LBB11_251
.LBB11_250:
	addq	$56, %rbx
	decq	%rbp
	je	.LBB11_84
.LBB11_251:
	movq	-16(%rbx), %rsi
	movq	(%rbx), %r14
	cmpq	$0, -32(%rbx)
	je	.LBB11_253
	movq	-48(%rbx), %rcx
	callq	yurewha_heap_dealloc
.LBB11_253:
	testq	%r14, %r14
	je	.LBB11_250
	movq	%rsi, %rcx
	callq	yurewha_heap_dealloc
	jmp	.LBB11_250
.LBB11_84:
	testq	%rdi, %rdi
	je	.LBB11_3
.LBB11_85:
	movq	%r12, %rcx
	jmp	.LBB11_136
.LBB11_255:
	cmpq	$0, 320(%rsp)
	movq	72(%rsp), %r12
	je	.LBB11_257
	movq	64(%rsp), %rcx
	callq	yurewha_heap_dealloc
.LBB11_257:
	movq	264(%rsp), %rax
	movq	%rax, 520(%rsp)
	movq	%r12, 528(%rsp)
	movq	%rbp, 536(%rsp)
	movups	%xmm6, 544(%rsp)
	movq	%rbx, 32(%rsp)
	leaq	60(%rsp), %rcx
	leaq	520(%rsp), %r9
	movq	%rsi, %rdx
	movq	%r14, %r8
	callq	"upload_session::runs::Runs::put_before_next::<#ca9445b3ca2ffbf0>"
	cmpb	$0, 60(%rsp)
	je	.LBB11_177
	movzbl	61(%rsp), %r13d
	leaq	192(%rsp), %rcx
	movq	%rsi, %rdx
	movq	%r14, %r8
	callq	"std_collections::btree_map::BTreeMap::remove::<#0b8f5120abf1300c>"
	cmpb	$1, 192(%rsp)
	jne	.LBB11_3
	movq	216(%rsp), %rsi
	movq	224(%rsp), %r14
	movq	232(%rsp), %rbx
	testq	%r14, %r14
	je	.LBB11_134
	leaq	48(%rsi), %r15
	jmp	.LBB11_262
.LBB11_261:
	addq	$56, %r15
	decq	%r14
	je	.LBB11_134
.LBB11_262:
	movq	-16(%r15), %rdi
	movq	(%r15), %r12
	cmpq	$0, -32(%r15)
	je	.LBB11_264
	movq	-48(%r15), %rcx
	callq	yurewha_heap_dealloc
.LBB11_264:
	testq	%r12, %r12
	je	.LBB11_261
	movq	%rdi, %rcx
	callq	yurewha_heap_dealloc
	jmp	.LBB11_261
.LBB11_266:
	movq	352(%rsp), %rdi
	testq	%rbp, %rbp
	movq	256(%rsp), %r12
	je	.LBB11_273
	movq	72(%rsp), %rax
	leaq	48(%rax), %r14
	jmp	.LBB11_269
.LBB11_268:
	addq	$56, %r14
	decq	%rbp
	je	.LBB11_273
.LBB11_269:
	movq	-16(%r14), %rbx
	movq	(%r14), %r15
	cmpq	$0, -32(%r14)
	je	.LBB11_271
	movq	-48(%r14), %rcx
	callq	yurewha_heap_dealloc
.LBB11_271:
	testq	%r15, %r15
	je	.LBB11_268
	movq	%rbx, %rcx
	callq	yurewha_heap_dealloc
	jmp	.LBB11_268
.LBB11_273:
	testq	%rdi, %rdi
	je	.LBB11_178
	movq	72(%rsp), %rcx
	callq	yurewha_heap_dealloc
	jmp	.LBB11_178
	.seh_endproc

	.section	.text
	.p2align	4
	.def	"xet_merkle::merkle_hash_subtree::subtree::as_range::MerkleHashSubtreeChunkRange::from_chunks::<#d96a70c1b70ca186>";
	.scl	3;
	.type	32;
	.endef
"xet_merkle::merkle_hash_subtree::subtree::as_range::MerkleHashSubtreeChunkRange::from_chunks::<#d96a70c1b70ca186>":
.seh_proc "xet_merkle::merkle_hash_subtree::subtree::as_range::MerkleHashSubtreeChunkRange::from_chunks::<#d96a70c1b70ca186>"
	pushq	%r15
	.seh_pushreg %r15
	pushq	%r14
	.seh_pushreg %r14
	pushq	%r13
	.seh_pushreg %r13
	pushq	%r12
	.seh_pushreg %r12
	pushq	%rsi
	.seh_pushreg %rsi
	pushq	%rdi
	.seh_pushreg %rdi
	pushq	%rbp
	.seh_pushreg %rbp
	pushq	%rbx
	.seh_pushreg %rbx
	subq	$760, %rsp
	.seh_stackalloc 760
	movaps	%xmm6, 736(%rsp)
	.seh_savexmm %xmm6, 736
	.seh_endprologue
	movq	%r9, %r14
	movq	%r8, %r15
	movl	%edx, %edi
	movq	%rcx, %rsi
	movw	$0, 116(%rsp)
	movl	$0, 112(%rsp)
	movw	$0, 60(%rsp)
	movl	$0, 56(%rsp)
	testq	%r9, %r9
	je	.LBB12_1
	leaq	32(%r15), %rax
	xorl	%ebp, %ebp
	movq	%r14, %rcx
	.p2align	4
.LBB12_3:
	addq	(%rax), %rbp
	jb	.LBB12_4
	addq	$40, %rax
	decq	%rcx
	jne	.LBB12_3
	jmp	.LBB12_6
.LBB12_1:
	xorl	%ebp, %ebp
.LBB12_6:
	movl	$56, %ecx
	movl	$8, %edx
	callq	in_registers_of_rattle_alloc
	testb	$1, %al
	je	.LBB12_48
	movq	%rdx, %rbx
	movzbl	864(%rsp), %r12d
	andl	$1, %eax
	movq	%rax, 72(%rsp)
	xorps	%xmm0, %xmm0
	movaps	%xmm0, 480(%rsp)
	movaps	%xmm0, 384(%rsp)
	movaps	%xmm0, 400(%rsp)
	movaps	%xmm0, 416(%rsp)
	movq	$0, 432(%rsp)
	movaps	%xmm0, 528(%rsp)
	movaps	%xmm0, 544(%rsp)
	movaps	%xmm0, 352(%rsp)
	movaps	%xmm0, 368(%rsp)
	movaps	%xmm0, 224(%rsp)
	movq	$0, 240(%rsp)
	movaps	%xmm0, 592(%rsp)
	movaps	%xmm0, 576(%rsp)
	movaps	%xmm0, 560(%rsp)
	movq	$0, 608(%rsp)
	movaps	%xmm0, 336(%rsp)
	movaps	%xmm0, 320(%rsp)
	movaps	%xmm0, 512(%rsp)
	movaps	%xmm0, 496(%rsp)
	movaps	%xmm0, 304(%rsp)
	movaps	%xmm0, 288(%rsp)
	movups	%xmm0, 655(%rsp)
	movaps	%xmm0, 640(%rsp)
	movaps	%xmm0, 272(%rsp)
	movaps	%xmm0, 256(%rsp)
	movaps	%xmm0, 192(%rsp)
	movq	$0, 208(%rsp)
	movaps	%xmm0, 448(%rsp)
	movq	$0, 464(%rsp)
	movb	%r12b, 32(%rsp)
	leaq	384(%rsp), %rcx
	movq	%r15, %rdx
	movq	%r14, %r8
	movl	%edi, %r9d
	callq	"subtree_levels::split::find_split::<#30d82ebffd2e63ea>"
	cmpb	$0, 384(%rsp)
	je	.LBB12_8
	movq	392(%rsp), %rdx
	movq	400(%rsp), %r8
	movq	408(%rsp), %r14
	movq	416(%rsp), %r15
	movq	424(%rsp), %r12
	movq	432(%rsp), %r13
	leaq	320(%rsp), %rcx
	callq	"xet_roots::as_node::read_nodes::<#a0ff80199b3a144e>"
	cmpb	$0, 320(%rsp)
	jne	.LBB12_18
	movq	%r15, 104(%rsp)
	movq	328(%rsp), %r15
	movq	344(%rsp), %rax
	movq	%rax, 64(%rsp)
	movaps	336(%rsp), %xmm6
	leaq	496(%rsp), %rcx
	movq	%r12, %rdx
	movq	%r13, %r8
	callq	"xet_roots::as_node::read_nodes::<#a0ff80199b3a144e>"
	cmpb	$0, 496(%rsp)
	je	.LBB12_13
	cmpq	$0, 64(%rsp)
	je	.LBB12_18
	movq	%r15, %rcx
	callq	yurewha_heap_dealloc
	jmp	.LBB12_18
.LBB12_4:
	xorl	%edi, %edi
	movb	$1, %al
	movb	$1, %cl
	jmp	.LBB12_80
.LBB12_8:
	leaq	528(%rsp), %rcx
	movq	%r15, %rdx
	movq	%r14, %r8
	callq	"xet_roots::as_node::read_nodes::<#a0ff80199b3a144e>"
	cmpb	$0, 528(%rsp)
	je	.LBB12_9
.LBB12_18:
	movq	%rbx, %rcx
.LBB12_47:
	callq	yurewha_heap_dealloc
.LBB12_48:
	movl	$0, 56(%rsp)
	movw	$0, 60(%rsp)
.LBB12_79:
	movb	$2, %cl
	movb	$1, %al
	xorl	%edi, %edi
.LBB12_80:
	xorl	%r12d, %r12d
	xorl	%ebx, %ebx
	xorl	%r14d, %r14d
	xorl	%r15d, %r15d
	xorl	%ebp, %ebp
.LBB12_85:
	movzwl	60(%rsp), %edx
	movw	%dx, 116(%rsp)
	movl	56(%rsp), %edx
	movl	%edx, 112(%rsp)
	movb	%al, (%rsi)
	movb	%cl, 1(%rsi)
	movb	$0, 2(%rsi)
	movb	%dil, 8(%rsi)
	movb	%r12b, 9(%rsi)
	movl	112(%rsp), %eax
	movl	%eax, 10(%rsi)
	movzwl	116(%rsp), %eax
	movw	%ax, 14(%rsi)
	movq	%rbx, 16(%rsi)
	movq	%r14, 24(%rsi)
	movq	%r15, 32(%rsi)
	movq	%rbp, 40(%rsi)
	movaps	736(%rsp), %xmm6
	addq	$760, %rsp
	popq	%rbx
	popq	%rbp
	popq	%rdi
	popq	%rsi
	popq	%r12
	popq	%r13
	popq	%r14
	popq	%r15
	retq
.LBB12_9:
	movq	%rbx, 224(%rsp)
	movq	$0, 232(%rsp)
	movq	72(%rsp), %rax
	movq	%rax, 240(%rsp)
	xorps	%xmm0, %xmm0
	movups	%xmm0, 600(%rsp)
	movups	536(%rsp), %xmm0
	movaps	%xmm0, 560(%rsp)
	movq	552(%rsp), %rax
	movq	%rax, 576(%rsp)
	movq	$0, 584(%rsp)
	leaq	48(%rsp), %rax
	movq	%rax, 592(%rsp)
	leaq	352(%rsp), %rcx
	leaq	224(%rsp), %rdx
	leaq	560(%rsp), %r8
	callq	"subtree_levels::levels::pushed::<#024afdc31600bcbd>"
	cmpb	$0, 352(%rsp)
	jne	.LBB12_48
	movq	360(%rsp), %rbx
	movq	368(%rsp), %r14
	movq	376(%rsp), %r15
	testq	%r14, %r14
	je	.LBB12_84
.LBB12_68:
	leaq	40(%rbx), %rax
	xorl	%ecx, %ecx
	movq	%r14, %rdx
.LBB12_69:
	movq	%rcx, %r8
	movq	-32(%rax), %rcx
	subq	-16(%rax), %rcx
	addq	%r8, %rcx
	jb	.LBB12_70
	addq	(%rax), %rcx
	jb	.LBB12_70
	addq	$56, %rax
	decq	%rdx
	jne	.LBB12_69
.LBB12_84:
	movw	$0, 60(%rsp)
	movl	$0, 56(%rsp)
	xorl	%eax, %eax
	xorl	%ecx, %ecx
	jmp	.LBB12_85
.LBB12_13:
	movq	%rbx, 616(%rsp)
	movq	$0, 624(%rsp)
	movq	72(%rsp), %rax
	movq	%rax, 632(%rsp)
	movups	504(%rsp), %xmm0
	movups	%xmm0, 712(%rsp)
	movq	520(%rsp), %rax
	movq	%rax, 728(%rsp)
	movq	%r15, 680(%rsp)
	movups	%xmm6, 688(%rsp)
	movq	$0, 704(%rsp)
	leaq	288(%rsp), %rcx
	leaq	616(%rsp), %rdx
	leaq	680(%rsp), %r8
	callq	"subtree_levels::levels::pushed::<#024afdc31600bcbd>"
	cmpb	$0, 288(%rsp)
	jne	.LBB12_48
	movq	296(%rsp), %r15
	movq	304(%rsp), %r13
	movq	312(%rsp), %r12
	xorps	%xmm0, %xmm0
	movaps	%xmm0, 80(%rsp)
	movq	$0, 96(%rsp)
	movabsq	$-6148914691236517205, %rcx
	movq	104(%rsp), %rax
	mulq	%rcx
	shrq	%rdx
	movabsq	$6148914691236517205, %rcx
	xorl	%ebx, %ebx
	cmpq	%rcx, %rax
	seta	%bl
	addq	%rdx, %rbx
	je	.LBB12_15
	movabsq	$230584300921369395, %rax
	cmpq	%rax, %rbx
	ja	.LBB12_38
	leaq	(,%rbx,8), %rax
	leaq	(%rax,%rax,4), %rcx
	movl	$8, %edx
	callq	in_registers_of_rattle_alloc
	testb	$1, %al
	je	.LBB12_38
	movq	%r12, 64(%rsp)
	jmp	.LBB12_22
.LBB12_70:
	leaq	48(%rbx), %r12
	jmp	.LBB12_71
	.p2align	4
.LBB12_75:
	addq	$56, %r12
	decq	%r14
	je	.LBB12_76
.LBB12_71:
	movq	-16(%r12), %rdi
	movq	(%r12), %r13
	cmpq	$0, -32(%r12)
	je	.LBB12_73
	movq	-48(%r12), %rcx
	callq	yurewha_heap_dealloc
.LBB12_73:
	testq	%r13, %r13
	je	.LBB12_75
	movq	%rdi, %rcx
	callq	yurewha_heap_dealloc
	jmp	.LBB12_75
.LBB12_76:
	testq	%r15, %r15
	je	.LBB12_78
	movq	%rbx, %rcx
	callq	yurewha_heap_dealloc
.LBB12_78:
	movw	$0, 60(%rsp)
	movl	$0, 56(%rsp)
	jmp	.LBB12_79
.LBB12_15:
	movq	%r12, 64(%rsp)
	leaq	48(%rsp), %rdx
.LBB12_22:
	movq	%r15, 72(%rsp)
	movq	%rdx, 120(%rsp)
	movq	$0, 128(%rsp)
	movq	%rbx, 136(%rsp)
	movq	104(%rsp), %rax
	cmpq	$576, %rax
	movl	$576, %r12d
	cmovbq	%rax, %r12
	testq	%rax, %rax
	je	.LBB12_23
	movq	%rdx, 248(%rsp)
	leaq	(,%r12,8), %rax
	leaq	(%rax,%rax,4), %rcx
	movl	$8, %edx
	callq	in_registers_of_rattle_alloc
	testb	$1, %al
	je	.LBB12_36
	movq	%rdx, %r15
	movq	%rdx, 80(%rsp)
	movq	%r12, 96(%rsp)
	cmpq	$577, 104(%rsp)
	jb	.LBB12_56
	movzbl	864(%rsp), %r12d
.LBB12_27:
	movq	$0, 88(%rsp)
	xorl	%r8d, %r8d
	xorl	%ebx, %ebx
	jmp	.LBB12_28
.LBB12_30:
	movq	80(%rsp), %r15
	movq	88(%rsp), %r8
	.p2align	4
.LBB12_31:
	leaq	(%r8,%r8,4), %rax
	movq	176(%rsp), %rcx
	movq	%rcx, 32(%r15,%rax,8)
	movaps	144(%rsp), %xmm0
	movaps	160(%rsp), %xmm1
	movups	%xmm1, 16(%r15,%rax,8)
	movups	%xmm0, (%r15,%rax,8)
	incq	%r8
	movq	%r8, 88(%rsp)
	addq	$40, %rbx
	cmpq	$23040, %rbx
	je	.LBB12_32
.LBB12_28:
	movq	32(%r14,%rbx), %rax
	movq	%rax, 176(%rsp)
	movups	(%r14,%rbx), %xmm0
	movups	16(%r14,%rbx), %xmm1
	movaps	%xmm1, 160(%rsp)
	movaps	%xmm0, 144(%rsp)
	cmpq	%r8, 96(%rsp)
	jne	.LBB12_31
	leaq	80(%rsp), %rcx
	movl	$1, %edx
	callq	"std_alloc::vec::Vec::grow_amortized::<#1ed62de40e111fb4>"
	testb	%al, %al
	jne	.LBB12_30
	jmp	.LBB12_49
.LBB12_32:
	leaq	120(%rsp), %rcx
	leaq	480(%rsp), %r9
	movq	%r15, %rdx
	callq	"xet_roots::aggregated_hashes::push_first_parents::<#135fa06c802d8a86>"
	testb	%al, %al
	jne	.LBB12_54
	leaq	(%rdx,%rdx,4), %rax
	leaq	(%r14,%rax,8), %r14
	movq	104(%rsp), %rax
	subq	%rdx, %rax
	movq	%rax, 104(%rsp)
	cmpq	$576, %rax
	ja	.LBB12_27
	movq	$0, 88(%rsp)
	cmpq	$0, 104(%rsp)
	jne	.LBB12_57
	xorl	%r8d, %r8d
	jmp	.LBB12_62
.LBB12_23:
	leaq	48(%rsp), %rax
	movq	%rax, 80(%rsp)
	movq	%r12, 96(%rsp)
	xorl	%r8d, %r8d
	movzbl	864(%rsp), %r12d
.LBB12_62:
	movq	80(%rsp), %r15
	leaq	120(%rsp), %rcx
	leaq	480(%rsp), %r14
	movq	%r15, %rdx
	movq	%r14, %r9
	callq	"xet_roots::aggregated_hashes::push_parents::<#135fa06c802d8a86>"
	movq	96(%rsp), %rcx
	testb	%al, %al
	je	.LBB12_63
	testq	%rcx, %rcx
	je	.LBB12_52
.LBB12_55:
	movq	%r15, %rcx
	jmp	.LBB12_51
.LBB12_36:
	testq	%rbx, %rbx
	movq	72(%rsp), %r15
	movq	64(%rsp), %r12
	movq	248(%rsp), %rcx
	jne	.LBB12_37
	jmp	.LBB12_38
.LBB12_63:
	testq	%rcx, %rcx
	je	.LBB12_65
	movq	%r15, %rcx
	callq	yurewha_heap_dealloc
.LBB12_65:
	movq	136(%rsp), %rax
	movq	%rax, 663(%rsp)
	movups	120(%rsp), %xmm0
	movups	%xmm0, 647(%rsp)
	movq	72(%rsp), %rcx
	movq	%rcx, 192(%rsp)
	movq	%r13, 200(%rsp)
	movq	64(%rsp), %rcx
	movq	%rcx, 208(%rsp)
	movaps	%xmm0, 448(%rsp)
	movq	%rax, 464(%rsp)
	movq	%r14, 40(%rsp)
	movb	%r12b, 32(%rsp)
	leaq	256(%rsp), %rcx
	leaq	192(%rsp), %rdx
	leaq	448(%rsp), %r8
	movl	%edi, %r9d
	callq	"subtree_levels::collapse::collapse::<#a9d92fd6c0d16019>"
	cmpb	$0, 256(%rsp)
	jne	.LBB12_48
	movq	264(%rsp), %rbx
	movq	272(%rsp), %r14
	movq	280(%rsp), %r15
	testq	%r14, %r14
	jne	.LBB12_68
	jmp	.LBB12_84
.LBB12_56:
	movq	$0, 88(%rsp)
	movzbl	864(%rsp), %r12d
.LBB12_57:
	xorl	%r8d, %r8d
	jmp	.LBB12_58
.LBB12_61:
	leaq	(%r8,%r8,4), %rax
	movq	176(%rsp), %rcx
	movq	%rcx, 32(%r15,%rax,8)
	movaps	144(%rsp), %xmm0
	movaps	160(%rsp), %xmm1
	movups	%xmm1, 16(%r15,%rax,8)
	movups	%xmm0, (%r15,%rax,8)
	incq	%r8
	movq	%r8, 88(%rsp)
	addq	$40, %r14
	decq	104(%rsp)
	je	.LBB12_62
.LBB12_58:
	movq	32(%r14), %rax
	movq	%rax, 176(%rsp)
	movups	(%r14), %xmm0
	movups	16(%r14), %xmm1
	movaps	%xmm1, 160(%rsp)
	movaps	%xmm0, 144(%rsp)
	cmpq	%r8, 96(%rsp)
	jne	.LBB12_61
	leaq	80(%rsp), %rcx
	movl	$1, %edx
	callq	"std_alloc::vec::Vec::grow_amortized::<#1ed62de40e111fb4>"
	testb	%al, %al
	je	.LBB12_49
	movq	80(%rsp), %r15
	movq	88(%rsp), %r8
	jmp	.LBB12_61
.LBB12_49:
	cmpq	$0, 96(%rsp)
	je	.LBB12_52
	movq	80(%rsp), %rcx
.LBB12_51:
	callq	yurewha_heap_dealloc
.LBB12_52:
	cmpq	$0, 136(%rsp)
	movq	72(%rsp), %r15
	movq	64(%rsp), %r12
	je	.LBB12_38
	movq	120(%rsp), %rcx
.LBB12_37:
	callq	yurewha_heap_dealloc
.LBB12_38:
	testq	%r13, %r13
	je	.LBB12_45
	leaq	48(%r15), %rbx
	jmp	.LBB12_40
.LBB12_44:
	addq	$56, %rbx
	decq	%r13
	je	.LBB12_45
.LBB12_40:
	movq	-16(%rbx), %rdi
	movq	(%rbx), %r14
	cmpq	$0, -32(%rbx)
	je	.LBB12_42
	movq	-48(%rbx), %rcx
	callq	yurewha_heap_dealloc
.LBB12_42:
	testq	%r14, %r14
	je	.LBB12_44
	movq	%rdi, %rcx
	callq	yurewha_heap_dealloc
	jmp	.LBB12_44
.LBB12_45:
	testq	%r12, %r12
	je	.LBB12_48
	movq	%r15, %rcx
	jmp	.LBB12_47
.LBB12_54:
	cmpq	$0, 96(%rsp)
	jne	.LBB12_55
	jmp	.LBB12_52
	.seh_endproc

	.section	.text
	.p2align	4
	.def	"subtree_levels::split::find_split::<#30d82ebffd2e63ea>";
	.scl	3;
	.type	32;
	.endef
"subtree_levels::split::find_split::<#30d82ebffd2e63ea>":
.seh_proc "subtree_levels::split::find_split::<#30d82ebffd2e63ea>"
	pushq	%r15
	.seh_pushreg %r15
	pushq	%r14
	.seh_pushreg %r14
	pushq	%r13
	.seh_pushreg %r13
	pushq	%r12
	.seh_pushreg %r12
	pushq	%rsi
	.seh_pushreg %rsi
	pushq	%rdi
	.seh_pushreg %rdi
	pushq	%rbp
	.seh_pushreg %rbp
	pushq	%rbx
	.seh_pushreg %rbx
	subq	$24, %rsp
	.seh_stackalloc 24
	.seh_endprologue
	cmpq	$1, %r8
	ja	.LBB13_3
.LBB13_1:
	xorps	%xmm0, %xmm0
	movups	%xmm0, 32(%rcx)
	movups	%xmm0, 16(%rcx)
	movups	%xmm0, (%rcx)
	movq	$0, 48(%rcx)
	jmp	.LBB13_2
.LBB13_3:
	testb	$1, %r9b
	je	.LBB13_5
	xorl	%eax, %eax
	jmp	.LBB13_9
.LBB13_5:
	movq	%r8, %r9
	negq	%r9
	leaq	24(%rdx), %r10
	xorl	%eax, %eax
	xorl	%r11d, %r11d
	xorl	%edi, %edi
	xorl	%esi, %esi
	jmp	.LBB13_6
	.p2align	4
.LBB13_20:
	incq	%rax
.LBB13_21:
	decq	%r11
	addq	$40, %r10
	cmpq	%r11, %r9
	je	.LBB13_1
.LBB13_6:
	testb	$3, (%r10)
	jne	.LBB13_20
	leaq	-2(%rax), %rbx
	cmpq	$5, %rbx
	setb	%bpl
	andb	%bpl, %dil
	cmpb	$1, %dil
	je	.LBB13_8
	cmpq	$5, %rbx
	setb	%al
	movl	%esi, %edi
	andb	%al, %dil
	movb	$1, %sil
	xorl	%eax, %eax
	jmp	.LBB13_21
.LBB13_8:
	addq	%r11, %rax
	negq	%rax
.LBB13_9:
	leaq	(,%rax,8), %r9
	leaq	(%r9,%r9,4), %rsi
	leaq	(%rdx,%rsi), %r10
	movq	%r8, %r9
	subq	%rax, %r9
	testb	$1, 128(%rsp)
	movq	%r9, %r11
	jne	.LBB13_38
	cmpq	$64, %r9
	jae	.LBB13_11
.LBB13_27:
	testq	%r9, %r9
	je	.LBB13_1
	leaq	(%rsi,%rdx), %r8
	addq	$24, %r8
	xorl	%esi, %esi
	xorl	%r11d, %r11d
	xorl	%edi, %edi
	xorl	%ebx, %ebx
	xorl	%r14d, %r14d
	xorl	%r15d, %r15d
	jmp	.LBB13_29
	.p2align	4
.LBB13_35:
	incq	%rbx
	movl	%r15d, %ebp
.LBB13_36:
	incq	%rdi
	addq	$40, %r8
	movl	%ebp, %r15d
	cmpq	%rdi, %r9
	je	.LBB13_37
.LBB13_29:
	testb	$3, (%r8)
	jne	.LBB13_35
	testb	$1, %r14b
	je	.LBB13_32
	leaq	-2(%rbx), %r14
	movq	%rdi, %r12
	subq	%rbx, %r12
	cmpq	$5, %r14
	movzbl	%sil, %ebp
	movl	$1, %esi
	cmovael	%ebp, %esi
	cmovbq	%r12, %r11
.LBB13_32:
	movb	$1, %bpl
	testb	$1, %r15b
	je	.LBB13_33
	addq	$-2, %rbx
	cmpq	$5, %rbx
	setb	%r14b
	xorl	%ebx, %ebx
	jmp	.LBB13_36
.LBB13_33:
	xorl	%r14d, %r14d
	xorl	%ebx, %ebx
	jmp	.LBB13_36
.LBB13_37:
	cmpb	$1, %sil
	jne	.LBB13_1
.LBB13_38:
	leaq	(%r11,%r11,4), %r8
	leaq	(%r10,%r8,8), %r8
	subq	%r11, %r9
	movq	$1, (%rcx)
	movq	%rdx, 8(%rcx)
	movq	%rax, 16(%rcx)
	movq	%r10, 24(%rcx)
	movq	%r11, 32(%rcx)
	movq	%r8, 40(%rcx)
	movq	%r9, 48(%rcx)
.LBB13_2:
	addq	$24, %rsp
	popq	%rbx
	popq	%rbp
	popq	%rdi
	popq	%rsi
	popq	%r12
	popq	%r13
	popq	%r14
	popq	%r15
	retq
.LBB13_11:
	leaq	(%r8,%r8,4), %r8
	leaq	(%rdx,%r8,8), %r13
	addq	$24, %r13
	movl	$64, %r8d
.LBB13_12:
	movq	%r9, %r11
	subq	%r8, %r11
	leaq	(,%r8,8), %rdi
	leaq	(%rdi,%rdi,4), %rdi
	movq	%r13, %r15
	subq	%rdi, %r15
	.p2align	4
.LBB13_13:
	testq	%r11, %r11
	je	.LBB13_27
	movq	%r11, %rdi
	movq	%r8, %rbx
	movq	%r15, %r14
	decq	%r11
	incq	%r8
	addq	$-40, %r15
	leaq	(%rdi,%rdi,4), %r12
	testb	$3, -16(%r10,%r12,8)
	jne	.LBB13_13
	movq	%r9, %r8
	subq	%rdi, %r8
	je	.LBB13_26
	movq	%r8, (%rsp)
	movq	%r13, 8(%rsp)
	movq	%rsi, 16(%rsp)
	xorl	%r12d, %r12d
	xorl	%r11d, %r11d
	xorl	%r13d, %r13d
	xorl	%ebp, %ebp
	xorl	%r8d, %r8d
	jmp	.LBB13_17
	.p2align	4
.LBB13_18:
	leaq	-2(%rbp), %r15
	cmpq	$5, %r15
	setb	%r15b
	movq	%r13, %rsi
	subq	%rbp, %rsi
	movzbl	%r12b, %ebp
	testb	%r15b, %r8b
	movl	$1, %r12d
	cmovel	%ebp, %r12d
	cmovneq	%rsi, %r11
	xorl	%ebp, %ebp
	movl	%r15d, %r8d
	incq	%r13
	addq	$40, %r14
	decq	%rbx
	je	.LBB13_24
.LBB13_17:
	testb	$3, (%r14)
	je	.LBB13_18
	incq	%rbp
	incq	%r13
	addq	$40, %r14
	decq	%rbx
	jne	.LBB13_17
.LBB13_24:
	cmpb	$1, %r12b
	movq	16(%rsp), %rsi
	movq	8(%rsp), %r13
	movq	(%rsp), %r8
	je	.LBB13_25
.LBB13_26:
	leaq	(%r8,%r8), %r11
	testq	%r8, %r8
	movq	$-1, %r8
	cmovnsq	%r11, %r8
	cmpq	%r8, %r9
	jae	.LBB13_12
	jmp	.LBB13_27
.LBB13_25:
	addq	%rdi, %r11
	jmp	.LBB13_38
	.seh_endproc

	.section	.text
	.p2align	4
	.def	"xet_roots::as_node::read_nodes::<#a0ff80199b3a144e>";
	.scl	3;
	.type	32;
	.endef
"xet_roots::as_node::read_nodes::<#a0ff80199b3a144e>":
.seh_proc "xet_roots::as_node::read_nodes::<#a0ff80199b3a144e>"
	pushq	%rsi
	.seh_pushreg %rsi
	pushq	%rdi
	.seh_pushreg %rdi
	pushq	%rbx
	.seh_pushreg %rbx
	subq	$128, %rsp
	.seh_stackalloc 128
	.seh_endprologue
	movq	%rcx, %rsi
	xorps	%xmm0, %xmm0
	movaps	%xmm0, 48(%rsp)
	movq	$0, 64(%rsp)
	testq	%r8, %r8
	je	.LBB14_1
	movq	%r8, %rdi
	movabsq	$230584300921369395, %rax
	cmpq	%rax, %r8
	ja	.LBB14_10
	movq	%rdx, %rbx
	leaq	(,%rdi,8), %rax
	leaq	(%rax,%rax,4), %rcx
	movl	$8, %edx
	callq	in_registers_of_rattle_alloc
	testb	$1, %al
	je	.LBB14_10
	movq	%rdx, 48(%rsp)
	movq	$0, 56(%rsp)
	movq	%rdi, 64(%rsp)
	xorl	%eax, %eax
	jmp	.LBB14_5
	.p2align	4
.LBB14_8:
	leaq	(%rax,%rax,4), %rcx
	movq	112(%rsp), %r8
	movq	%r8, 32(%rdx,%rcx,8)
	movaps	80(%rsp), %xmm0
	movaps	96(%rsp), %xmm1
	movups	%xmm1, 16(%rdx,%rcx,8)
	movups	%xmm0, (%rdx,%rcx,8)
	incq	%rax
	movq	%rax, 56(%rsp)
	addq	$40, %rbx
	decq	%rdi
	je	.LBB14_9
.LBB14_5:
	movq	32(%rbx), %rcx
	movq	%rcx, 112(%rsp)
	movups	(%rbx), %xmm0
	movups	16(%rbx), %xmm1
	movaps	%xmm1, 96(%rsp)
	movaps	%xmm0, 80(%rsp)
	cmpq	%rax, 64(%rsp)
	jne	.LBB14_8
	leaq	48(%rsp), %rcx
	movl	$1, %edx
	callq	"std_alloc::vec::Vec::grow_amortized::<#1ed62de40e111fb4>"
	testb	%al, %al
	je	.LBB14_12
	movq	48(%rsp), %rdx
	movq	56(%rsp), %rax
	jmp	.LBB14_8
.LBB14_1:
	leaq	40(%rsp), %rax
	movq	%rax, 48(%rsp)
	movups	%xmm0, 56(%rsp)
.LBB14_9:
	movb	$0, (%rsi)
	movq	48(%rsp), %rax
	movq	%rax, 8(%rsi)
	movq	56(%rsp), %rax
	movq	%rax, 16(%rsi)
	movq	64(%rsp), %rax
	movq	%rax, 24(%rsi)
	jmp	.LBB14_11
.LBB14_12:
	cmpq	$0, 64(%rsp)
	je	.LBB14_10
	movq	48(%rsp), %rcx
	callq	yurewha_heap_dealloc
.LBB14_10:
	movb	$1, (%rsi)
	xorps	%xmm0, %xmm0
	movups	%xmm0, 8(%rsi)
	movq	$0, 24(%rsi)
.LBB14_11:
	addq	$128, %rsp
	popq	%rbx
	popq	%rdi
	popq	%rsi
	retq
	.seh_endproc

	.section	.text
	.p2align	4
	.def	"std_alloc::vec::Vec::grow_amortized::<#1ed62de40e111fb4>";
	.scl	3;
	.type	32;
	.endef
"std_alloc::vec::Vec::grow_amortized::<#1ed62de40e111fb4>":
.seh_proc "std_alloc::vec::Vec::grow_amortized::<#1ed62de40e111fb4>"
	pushq	%rsi
	.seh_pushreg %rsi
	pushq	%rdi
	.seh_pushreg %rdi
	subq	$40, %rsp
	.seh_stackalloc 40
	.seh_endprologue
	movq	8(%rcx), %rax
	addq	%rax, %rdx
	jb	.LBB15_6
	movq	16(%rcx), %r8
	cmpq	$5, %rdx
	movl	$4, %esi
	cmovaeq	%rdx, %rsi
	movq	%r8, %r9
	shrq	$62, %r9
	leaq	(%r8,%r8), %rdx
	cmpq	%rdx, %rsi
	cmovaq	%rsi, %rdx
	testq	%r9, %r9
	cmoveq	%rdx, %rsi
	movabsq	$230584300921369395, %r9
	cmpq	%r9, %rsi
	ja	.LBB15_6
	testq	%r8, %r8
	je	.LBB15_5
	movq	%rcx, %rdi
	movq	(%rcx), %rcx
	shlq	$3, %rax
	leaq	(%rax,%rax,4), %rdx
	leaq	(,%rsi,8), %rax
	leaq	(%rax,%rax,4), %r8
	movl	$8, %r9d
	callq	in_registers_of_rattle_realloc
	testb	$1, %al
	je	.LBB15_6
.LBB15_4:
	movq	%rdx, (%rdi)
	movq	%rsi, 16(%rdi)
	movb	$1, %al
	addq	$40, %rsp
	popq	%rdi
	popq	%rsi
	retq
.LBB15_5:
	movq	%rcx, %rdi
	shlq	$3, %rdx
	leaq	(%rdx,%rdx,4), %rcx
	movl	$8, %edx
	callq	in_registers_of_rattle_alloc
	testb	$1, %al
	jne	.LBB15_4
.LBB15_6:
	xorl	%eax, %eax
	addq	$40, %rsp
	popq	%rdi
	popq	%rsi
	retq
	.seh_endproc

	.section	.text
	.p2align	4
	.def	"subtree_levels::levels::pushed::<#024afdc31600bcbd>";
	.scl	3;
	.type	32;
	.endef
"subtree_levels::levels::pushed::<#024afdc31600bcbd>":
.seh_proc "subtree_levels::levels::pushed::<#024afdc31600bcbd>"
	pushq	%r15
	.seh_pushreg %r15
	pushq	%r14
	.seh_pushreg %r14
	pushq	%r13
	.seh_pushreg %r13
	pushq	%r12
	.seh_pushreg %r12
	pushq	%rsi
	.seh_pushreg %rsi
	pushq	%rdi
	.seh_pushreg %rdi
	pushq	%rbx
	.seh_pushreg %rbx
	subq	$96, %rsp
	.seh_stackalloc 96
	movaps	%xmm7, 80(%rsp)
	.seh_savexmm %xmm7, 80
	movaps	%xmm6, 64(%rsp)
	.seh_savexmm %xmm6, 64
	.seh_endprologue
	movq	%rcx, %rsi
	movq	(%r8), %rbx
	movq	16(%r8), %r12
	movups	8(%r8), %xmm6
	movq	24(%r8), %r14
	movq	32(%r8), %rdi
	movq	48(%r8), %r15
	movups	40(%r8), %xmm7
	movups	(%rdx), %xmm0
	movaps	%xmm0, 32(%rsp)
	movq	16(%rdx), %rcx
	movq	%rcx, 48(%rsp)
	movq	40(%rsp), %rax
	cmpq	%rax, %rcx
	je	.LBB16_1
.LBB16_3:
	movq	32(%rsp), %rcx
	imulq	$56, %rax, %rdx
	movq	%rbx, (%rcx,%rdx)
	movups	%xmm6, 8(%rcx,%rdx)
	movq	%r14, 24(%rcx,%rdx)
	movq	%rdi, 32(%rcx,%rdx)
	movups	%xmm7, 40(%rcx,%rdx)
	incq	%rax
	movq	%rax, 40(%rsp)
	movb	$0, (%rsi)
	movq	32(%rsp), %rax
	movq	%rax, 8(%rsi)
	movq	40(%rsp), %rax
	movq	%rax, 16(%rsi)
	movq	48(%rsp), %rax
	movq	%rax, 24(%rsi)
.LBB16_18:
	movaps	64(%rsp), %xmm6
	movaps	80(%rsp), %xmm7
	addq	$96, %rsp
	popq	%rbx
	popq	%rdi
	popq	%rsi
	popq	%r12
	popq	%r13
	popq	%r14
	popq	%r15
	retq
.LBB16_1:
	leaq	32(%rsp), %rcx
	movl	$1, %edx
	callq	"std_alloc::vec::Vec::grow_amortized::<#62557648214f1014>"
	testb	%al, %al
	je	.LBB16_4
	movq	40(%rsp), %rax
	jmp	.LBB16_3
.LBB16_4:
	testq	%r12, %r12
	je	.LBB16_6
	movq	%rbx, %rcx
	callq	yurewha_heap_dealloc
.LBB16_6:
	testq	%r15, %r15
	je	.LBB16_8
	movq	%rdi, %rcx
	callq	yurewha_heap_dealloc
.LBB16_8:
	movq	32(%rsp), %rdi
	movq	40(%rsp), %r15
	movq	48(%rsp), %r14
	testq	%r15, %r15
	je	.LBB16_15
	leaq	48(%rdi), %r12
	jmp	.LBB16_10
	.p2align	4
.LBB16_14:
	addq	$56, %r12
	decq	%r15
	je	.LBB16_15
.LBB16_10:
	movq	-16(%r12), %rbx
	movq	(%r12), %r13
	cmpq	$0, -32(%r12)
	je	.LBB16_12
	movq	-48(%r12), %rcx
	callq	yurewha_heap_dealloc
.LBB16_12:
	testq	%r13, %r13
	je	.LBB16_14
	movq	%rbx, %rcx
	callq	yurewha_heap_dealloc
	jmp	.LBB16_14
.LBB16_15:
	testq	%r14, %r14
	je	.LBB16_17
	movq	%rdi, %rcx
	callq	yurewha_heap_dealloc
.LBB16_17:
	movb	$1, (%rsi)
	xorps	%xmm0, %xmm0
	movups	%xmm0, 8(%rsi)
	movq	$0, 24(%rsi)
	jmp	.LBB16_18
	.seh_endproc

	.section	.text
	.p2align	4
	.def	"std_alloc::vec::Vec::grow_amortized::<#62557648214f1014>";
	.scl	3;
	.type	32;
	.endef
"std_alloc::vec::Vec::grow_amortized::<#62557648214f1014>":
.seh_proc "std_alloc::vec::Vec::grow_amortized::<#62557648214f1014>"
	pushq	%rsi
	.seh_pushreg %rsi
	pushq	%rdi
	.seh_pushreg %rdi
	subq	$40, %rsp
	.seh_stackalloc 40
	.seh_endprologue
	movq	8(%rcx), %rax
	addq	%rax, %rdx
	jb	.LBB17_6
	movq	16(%rcx), %r8
	cmpq	$5, %rdx
	movl	$4, %esi
	cmovaeq	%rdx, %rsi
	movq	%r8, %r9
	shrq	$62, %r9
	leaq	(%r8,%r8), %rdx
	cmpq	%rdx, %rsi
	cmovaq	%rsi, %rdx
	testq	%r9, %r9
	cmoveq	%rdx, %rsi
	movabsq	$164703072086692425, %r9
	cmpq	%r9, %rsi
	ja	.LBB17_6
	testq	%r8, %r8
	je	.LBB17_5
	movq	%rcx, %rdi
	movq	(%rcx), %rcx
	imulq	$56, %rax, %rdx
	imulq	$56, %rsi, %r8
	movl	$8, %r9d
	callq	in_registers_of_rattle_realloc
	testb	$1, %al
	je	.LBB17_6
.LBB17_4:
	movq	%rdx, (%rdi)
	movq	%rsi, 16(%rdi)
	movb	$1, %al
	addq	$40, %rsp
	popq	%rdi
	popq	%rsi
	retq
.LBB17_5:
	movq	%rcx, %rdi
	imulq	$56, %rdx, %rcx
	movl	$8, %edx
	callq	in_registers_of_rattle_alloc
	testb	$1, %al
	jne	.LBB17_4
.LBB17_6:
	xorl	%eax, %eax
	addq	$40, %rsp
	popq	%rdi
	popq	%rsi
	retq
	.seh_endproc

	.section	.text
	.p2align	4
	.def	"xet_roots::aggregated_hashes::push_first_parents::<#135fa06c802d8a86>";
	.scl	3;
	.type	32;
	.endef
"xet_roots::aggregated_hashes::push_first_parents::<#135fa06c802d8a86>":
.seh_proc "xet_roots::aggregated_hashes::push_first_parents::<#135fa06c802d8a86>"
	pushq	%r15
	.seh_pushreg %r15
	pushq	%r14
	.seh_pushreg %r14
	pushq	%r13
	.seh_pushreg %r13
	pushq	%r12
	.seh_pushreg %r12
	pushq	%rsi
	.seh_pushreg %rsi
	pushq	%rdi
	.seh_pushreg %rdi
	pushq	%rbx
	.seh_pushreg %rbx
	movl	$14896, %eax
	callq	yurewha_stack_probe
	subq	%rax, %rsp
	.seh_stackalloc 14896
	.seh_endprologue
	movq	%r9, %rbx
	movq	%r8, %r14
	movq	%rdx, %r15
	movq	%rcx, %rdi
	xorl	%esi, %esi
	leaq	1072(%rsp), %rcx
	movl	$2560, %r8d
	xorl	%edx, %edx
	callq	memset
	leaq	10288(%rsp), %rcx
	movl	$2560, %r8d
	xorl	%edx, %edx
	callq	memset
	leaq	736(%rsp), %rcx
	movl	$336, %r8d
	xorl	%edx, %edx
	callq	memset
	leaq	6192(%rsp), %rcx
	movl	$2048, %r8d
	xorl	%edx, %edx
	callq	memset
	leaq	3632(%rsp), %rcx
	movl	$2560, %r8d
	xorl	%edx, %edx
	callq	memset
	leaq	8240(%rsp), %rcx
	movl	$2048, %r8d
	xorl	%edx, %edx
	callq	memset
	leaq	40(%rsp), %rax
	movq	%rax, 48(%rsp)
	movq	$0, 56(%rsp)
	movq	%rax, 64(%rsp)
	movq	$0, 72(%rsp)
	movq	%rax, 80(%rsp)
	movq	$0, 88(%rsp)
	movq	%rax, 96(%rsp)
	movq	$0, 104(%rsp)
	movq	%rax, 112(%rsp)
	movq	$0, 120(%rsp)
	movq	%rax, 128(%rsp)
	movq	$0, 136(%rsp)
	movq	%rax, 144(%rsp)
	movq	$0, 152(%rsp)
	movq	%rax, 160(%rsp)
	movq	$0, 168(%rsp)
	movq	%rax, 176(%rsp)
	movq	$0, 184(%rsp)
	movq	%rax, 192(%rsp)
	movq	$0, 200(%rsp)
	movq	%rax, 208(%rsp)
	movq	$0, 216(%rsp)
	movq	%rax, 224(%rsp)
	movq	$0, 232(%rsp)
	movq	%rax, 240(%rsp)
	movq	$0, 248(%rsp)
	movq	%rax, 256(%rsp)
	movq	$0, 264(%rsp)
	movq	%rax, 272(%rsp)
	movq	$0, 280(%rsp)
	movq	%rax, 288(%rsp)
	movq	$0, 296(%rsp)
	movq	%rax, 304(%rsp)
	movq	$0, 312(%rsp)
	movq	%rax, 320(%rsp)
	movq	$0, 328(%rsp)
	movq	%rax, 336(%rsp)
	movq	$0, 344(%rsp)
	movq	%rax, 352(%rsp)
	movq	$0, 360(%rsp)
	movq	%rax, 368(%rsp)
	movq	$0, 376(%rsp)
	movq	%rax, 384(%rsp)
	movq	$0, 392(%rsp)
	movq	%rax, 400(%rsp)
	movq	$0, 408(%rsp)
	movq	%rax, 416(%rsp)
	movq	$0, 424(%rsp)
	movq	%rax, 432(%rsp)
	movq	$0, 440(%rsp)
	movq	%rax, 448(%rsp)
	movq	$0, 456(%rsp)
	movq	%rax, 464(%rsp)
	movq	$0, 472(%rsp)
	movq	%rax, 480(%rsp)
	movq	$0, 488(%rsp)
	movq	%rax, 496(%rsp)
	movq	$0, 504(%rsp)
	movq	%rax, 512(%rsp)
	movq	$0, 520(%rsp)
	movq	%rax, 528(%rsp)
	movq	$0, 536(%rsp)
	movq	%rax, 544(%rsp)
	movq	$0, 552(%rsp)
	movq	%rax, 560(%rsp)
	movq	$0, 568(%rsp)
	movq	%rax, 576(%rsp)
	movq	$0, 584(%rsp)
	movq	%rax, 592(%rsp)
	movq	$0, 600(%rsp)
	movq	%rax, 608(%rsp)
	movq	$0, 616(%rsp)
	movq	%rax, 624(%rsp)
	movq	$0, 632(%rsp)
	movq	%rax, 640(%rsp)
	movq	$0, 648(%rsp)
	movq	%rax, 656(%rsp)
	movq	$0, 664(%rsp)
	movq	%rax, 672(%rsp)
	movq	$0, 680(%rsp)
	movq	%rax, 688(%rsp)
	movq	$0, 696(%rsp)
	movq	%rax, 704(%rsp)
	movq	$0, 712(%rsp)
	movq	%rax, 720(%rsp)
	movq	$0, 728(%rsp)
	movq	%rax, 736(%rsp)
	movq	$0, 744(%rsp)
	movq	%rax, 752(%rsp)
	movq	$0, 760(%rsp)
	movq	%rax, 768(%rsp)
	movq	$0, 776(%rsp)
	movq	%rax, 784(%rsp)
	movq	$0, 792(%rsp)
	movq	%rax, 800(%rsp)
	movq	$0, 808(%rsp)
	movq	%rax, 816(%rsp)
	movq	$0, 824(%rsp)
	movq	%rax, 832(%rsp)
	movq	$0, 840(%rsp)
	movq	%rax, 848(%rsp)
	movq	$0, 856(%rsp)
	movq	%rax, 864(%rsp)
	movq	$0, 872(%rsp)
	movq	%rax, 880(%rsp)
	movq	$0, 888(%rsp)
	movq	%rax, 896(%rsp)
	movq	$0, 904(%rsp)
	movq	%rax, 912(%rsp)
	movq	$0, 920(%rsp)
	movq	%rax, 928(%rsp)
	movq	$0, 936(%rsp)
	movq	%rax, 944(%rsp)
	movq	$0, 952(%rsp)
	movq	%rax, 960(%rsp)
	movq	$0, 968(%rsp)
	movq	%rax, 976(%rsp)
	movq	$0, 984(%rsp)
	movq	%rax, 992(%rsp)
	movq	$0, 1000(%rsp)
	movq	%rax, 1008(%rsp)
	movq	$0, 1016(%rsp)
	movq	%rax, 1024(%rsp)
	movq	$0, 1032(%rsp)
	movq	%rax, 1040(%rsp)
	movq	$0, 1048(%rsp)
	movq	%rax, 1056(%rsp)
	movq	$0, 1064(%rsp)
	testq	%r14, %r14
	je	.LBB18_1
	leaq	56(%rsp), %rax
	xorl	%ecx, %ecx
	xorl	%esi, %esi
	.p2align	4
.LBB18_3:
	cmpq	$9, %r14
	movl	$9, %edx
	cmovbq	%r14, %rdx
	cmpq	$3, %r14
	jb	.LBB18_23
	testb	$3, 104(%r15)
	je	.LBB18_5
	cmpq	$3, %r14
	je	.LBB18_23
	testb	$3, 144(%r15)
	je	.LBB18_8
	cmpq	$4, %r14
	je	.LBB18_23
	testb	$3, 184(%r15)
	je	.LBB18_11
	cmpq	$5, %r14
	je	.LBB18_23
	testb	$3, 224(%r15)
	je	.LBB18_14
	cmpq	$6, %r14
	je	.LBB18_23
	testb	$3, 264(%r15)
	je	.LBB18_17
	cmpq	$7, %r14
	je	.LBB18_23
	testb	$3, 304(%r15)
	je	.LBB18_20
	cmpq	$8, %r14
	je	.LBB18_23
	testb	$3, 344(%r15)
	movl	$9, %r8d
	cmoveq	%r8, %rdx
	jmp	.LBB18_23
.LBB18_5:
	movl	$3, %edx
	jmp	.LBB18_23
.LBB18_8:
	movl	$4, %edx
	jmp	.LBB18_23
.LBB18_11:
	movl	$5, %edx
	jmp	.LBB18_23
.LBB18_14:
	movl	$6, %edx
	jmp	.LBB18_23
.LBB18_17:
	movl	$7, %edx
	jmp	.LBB18_23
.LBB18_20:
	movl	$8, %edx
	.p2align	4
.LBB18_23:
	movq	%r15, -8(%rax)
	movq	%rdx, (%rax)
	leaq	1(%rcx), %r12
	addq	%rdx, %rsi
	cmpq	$62, %rcx
	ja	.LBB18_25
	leaq	(%rdx,%rdx,4), %rcx
	leaq	(%r15,%rcx,8), %r15
	subq	%rdx, %r14
	addq	$16, %rax
	movq	%r12, %rcx
	testq	%r14, %r14
	jne	.LBB18_3
	jmp	.LBB18_25
.LBB18_1:
	xorl	%r12d, %r12d
.LBB18_25:
	leaq	12848(%rsp), %r14
	movl	$2048, %r8d
	movq	%r14, %rcx
	xorl	%edx, %edx
	callq	memset
	addq	%r12, (%rbx)
	adcq	$0, 8(%rbx)
	leaq	48(%rsp), %rdx
	movq	%r14, %rcx
	movq	%r12, %r8
	callq	yurewha_stub_of_parent_hashes
	leaq	8240(%rsp), %rbx
	movl	$2048, %r8d
	movq	%rbx, %rcx
	movq	%r14, %rdx
	callq	memcpy
	leaq	6192(%rsp), %rcx
	movl	$2048, %r8d
	movq	%rbx, %rdx
	callq	memcpy
	leaq	3632(%rsp), %rcx
	movl	$2560, %r8d
	xorl	%edx, %edx
	callq	memset
	testq	%r12, %r12
	je	.LBB18_37
	xorl	%eax, %eax
	jmp	.LBB18_27
	.p2align	4
.LBB18_28:
	xorl	%ecx, %ecx
.LBB18_36:
	movq	%rax, %rdx
	shlq	$5, %rdx
	addq	%rsp, %rdx
	addq	$6192, %rdx
	leaq	(%rax,%rax,4), %r8
	movups	(%rdx), %xmm0
	movups	16(%rdx), %xmm1
	movups	%xmm1, 3648(%rsp,%r8,8)
	movups	%xmm0, 3632(%rsp,%r8,8)
	movq	%rcx, 3664(%rsp,%r8,8)
	incq	%rax
	cmpq	%r12, %rax
	je	.LBB18_37
.LBB18_27:
	movq	%rax, %rcx
	shlq	$4, %rcx
	movq	56(%rsp,%rcx), %r9
	testq	%r9, %r9
	je	.LBB18_28
	movq	48(%rsp,%rcx), %rdx
	movl	%r9d, %r8d
	andl	$7, %r8d
	cmpq	$8, %r9
	jae	.LBB18_31
	xorl	%ecx, %ecx
	jmp	.LBB18_34
	.p2align	4
.LBB18_31:
	andq	$-8, %r9
	xorl	%ecx, %ecx
	.p2align	4
.LBB18_32:
	addq	32(%rdx), %rcx
	addq	72(%rdx), %rcx
	addq	112(%rdx), %rcx
	addq	152(%rdx), %rcx
	addq	192(%rdx), %rcx
	addq	232(%rdx), %rcx
	addq	272(%rdx), %rcx
	addq	312(%rdx), %rcx
	addq	$320, %rdx
	addq	$-8, %r9
	jne	.LBB18_32
	testq	%r8, %r8
	je	.LBB18_36
.LBB18_34:
	shll	$3, %r8d
	leaq	(%r8,%r8,4), %r8
	xorl	%r9d, %r9d
	.p2align	4
.LBB18_35:
	addq	32(%rdx,%r9), %rcx
	addq	$40, %r9
	cmpq	%r9, %r8
	jne	.LBB18_35
	jmp	.LBB18_36
.LBB18_37:
	leaq	10288(%rsp), %r14
	leaq	3632(%rsp), %rdx
	movl	$2560, %r8d
	movq	%r14, %rcx
	callq	memcpy
	leaq	1072(%rsp), %rbx
	movl	$2560, %r8d
	movq	%rbx, %rcx
	movq	%r14, %rdx
	callq	memcpy
	movq	8(%rdi), %rax
	movq	16(%rdi), %r14
	movq	%r14, %rcx
	subq	%rax, %rcx
	cmpq	%rcx, %r12
	ja	.LBB18_38
.LBB18_41:
	leaq	(%rax,%r12), %r15
	movq	(%rdi), %r13
	shlq	$3, %rax
	leaq	(%rax,%rax,4), %rax
	leaq	(%rax,%r13), %rcx
	leaq	(,%r12,8), %rdx
	leaq	(%rdx,%rdx,4), %r8
	movq	%rcx, %rdx
	subq	%rbx, %rdx
	cmpq	%r8, %rdx
	jae	.LBB18_45
	testq	%r12, %r12
	je	.LBB18_51
	movl	%r12d, %edx
	andl	$3, %edx
	cmpq	$4, %r12
	jae	.LBB18_46
	xorl	%r8d, %r8d
	jmp	.LBB18_49
.LBB18_45:
	leaq	1072(%rsp), %rdx
	callq	memcpy
	jmp	.LBB18_51
.LBB18_46:
	andq	$-4, %r12
	movl	$120, %r9d
	xorl	%r8d, %r8d
	.p2align	4
.LBB18_47:
	movq	984(%rsp,%r9), %r10
	movq	%r10, -88(%rcx,%r9)
	movups	952(%rsp,%r9), %xmm0
	movups	968(%rsp,%r9), %xmm1
	movups	%xmm1, -104(%rcx,%r9)
	movups	%xmm0, -120(%rcx,%r9)
	movq	1024(%rsp,%r9), %r10
	movq	%r10, -48(%rcx,%r9)
	movups	992(%rsp,%r9), %xmm0
	movups	1008(%rsp,%r9), %xmm1
	movups	%xmm1, -64(%rcx,%r9)
	movups	%xmm0, -80(%rcx,%r9)
	movq	1064(%rsp,%r9), %r10
	movq	%r10, -8(%rcx,%r9)
	movups	1032(%rsp,%r9), %xmm0
	movups	1048(%rsp,%r9), %xmm1
	movups	%xmm1, -24(%rcx,%r9)
	movups	%xmm0, -40(%rcx,%r9)
	movups	1072(%rsp,%r9), %xmm0
	movups	1088(%rsp,%r9), %xmm1
	movups	%xmm0, (%rcx,%r9)
	movups	%xmm1, 16(%rcx,%r9)
	movq	1104(%rsp,%r9), %r10
	movq	%r10, 32(%rcx,%r9)
	addq	$4, %r8
	addq	$160, %r9
	cmpq	%r8, %r12
	jne	.LBB18_47
	testq	%rdx, %rdx
	je	.LBB18_51
.LBB18_49:
	shlq	$3, %r8
	leaq	(%r8,%r8,4), %r8
	leaq	(%rsp,%r8), %rcx
	addq	$1072, %rcx
	addq	%r8, %rax
	addq	%r13, %rax
	shll	$3, %edx
	leaq	(%rdx,%rdx,4), %rdx
	xorl	%r8d, %r8d
	.p2align	4
.LBB18_50:
	movq	32(%rcx,%r8), %r9
	movq	%r9, 32(%rax,%r8)
	movups	(%rcx,%r8), %xmm0
	movups	16(%rcx,%r8), %xmm1
	movups	%xmm1, 16(%rax,%r8)
	movups	%xmm0, (%rax,%r8)
	addq	$40, %r8
	cmpq	%r8, %rdx
	jne	.LBB18_50
.LBB18_51:
	movq	%r13, (%rdi)
	movq	%r15, 8(%rdi)
	movq	%r14, 16(%rdi)
	xorl	%eax, %eax
.LBB18_52:
	movq	%rsi, %rdx
	addq	$14896, %rsp
	popq	%rbx
	popq	%rdi
	popq	%rsi
	popq	%r12
	popq	%r13
	popq	%r14
	popq	%r15
	retq
.LBB18_38:
	movq	%rdi, %rcx
	movq	%r12, %rdx
	callq	"std_alloc::vec::Vec::grow_amortized::<#1ed62de40e111fb4>"
	testb	%al, %al
	je	.LBB18_39
	movq	8(%rdi), %rax
	movq	16(%rdi), %r14
	jmp	.LBB18_41
.LBB18_39:
	movb	$1, %al
	xorl	%esi, %esi
	jmp	.LBB18_52
	.seh_endproc

	.section	.text
	.p2align	4
	.def	"xet_roots::aggregated_hashes::push_parents::<#135fa06c802d8a86>";
	.scl	3;
	.type	32;
	.endef
"xet_roots::aggregated_hashes::push_parents::<#135fa06c802d8a86>":
.seh_proc "xet_roots::aggregated_hashes::push_parents::<#135fa06c802d8a86>"
	pushq	%r15
	.seh_pushreg %r15
	pushq	%r14
	.seh_pushreg %r14
	pushq	%r13
	.seh_pushreg %r13
	pushq	%r12
	.seh_pushreg %r12
	pushq	%rsi
	.seh_pushreg %rsi
	pushq	%rdi
	.seh_pushreg %rdi
	pushq	%rbp
	.seh_pushreg %rbp
	pushq	%rbx
	.seh_pushreg %rbx
	subq	$984, %rsp
	.seh_stackalloc 984
	movaps	%xmm7, 960(%rsp)
	.seh_savexmm %xmm7, 960
	movaps	%xmm6, 944(%rsp)
	.seh_savexmm %xmm6, 944
	.seh_endprologue
	movq	%r9, %rdi
	movq	%r8, %r14
	movq	%rdx, %rbx
	movq	%rcx, %rsi
	xorps	%xmm0, %xmm0
	movaps	%xmm0, 96(%rsp)
	movaps	%xmm0, 80(%rsp)
	movaps	%xmm0, 64(%rsp)
	movaps	%xmm0, 48(%rsp)
	cmpq	$144, %r8
	jb	.LBB32_3
	.p2align	4
.LBB32_1:
	movq	%rsi, %rcx
	movq	%rbx, %rdx
	movq	%r14, %r8
	movq	%rdi, %r9
	callq	"xet_roots::aggregated_hashes::push_first_parents::<#135fa06c802d8a86>"
	testb	%al, %al
	jne	.LBB32_51
	leaq	(%rdx,%rdx,4), %rax
	leaq	(%rbx,%rax,8), %rbx
	subq	%rdx, %r14
	cmpq	$143, %r14
	ja	.LBB32_1
.LBB32_3:
	testq	%r14, %r14
	je	.LBB32_60
	.p2align	4
.LBB32_4:
	cmpq	$9, %r14
	movl	$9, %r15d
	cmovbq	%r14, %r15
	cmpq	$3, %r14
	jb	.LBB32_24
	testb	$3, 104(%rbx)
	je	.LBB32_18
	cmpq	$3, %r14
	je	.LBB32_24
	testb	$3, 144(%rbx)
	je	.LBB32_19
	cmpq	$4, %r14
	je	.LBB32_24
	testb	$3, 184(%rbx)
	je	.LBB32_20
	cmpq	$5, %r14
	je	.LBB32_24
	testb	$3, 224(%rbx)
	je	.LBB32_21
	cmpq	$6, %r14
	je	.LBB32_24
	testb	$3, 264(%rbx)
	je	.LBB32_22
	cmpq	$7, %r14
	je	.LBB32_24
	testb	$3, 304(%rbx)
	je	.LBB32_23
	cmpq	$8, %r14
	je	.LBB32_24
	testb	$3, 344(%rbx)
	movl	$9, %eax
	cmoveq	%rax, %r15
	jmp	.LBB32_24
.LBB32_18:
	movl	$3, %r15d
	jmp	.LBB32_24
.LBB32_19:
	movl	$4, %r15d
	jmp	.LBB32_24
.LBB32_20:
	movl	$5, %r15d
	jmp	.LBB32_24
.LBB32_21:
	movl	$6, %r15d
	jmp	.LBB32_24
.LBB32_22:
	movl	$7, %r15d
	jmp	.LBB32_24
.LBB32_23:
	movl	$8, %r15d
	.p2align	4
.LBB32_24:
	movq	%r14, %r13
	subq	%r15, %r13
	je	.LBB32_52
	leaq	(,%r15,8), %rax
	leaq	(%rax,%rax,4), %r14
	cmpq	$9, %r13
	movl	$9, %ebp
	cmovbq	%r13, %rbp
	cmpq	$3, %r13
	jb	.LBB32_30
	movl	$2, %eax
	subq	%rbp, %rax
	leaq	(%rbx,%r14), %rdx
	addq	$104, %rdx
	movl	$3, %ecx
	.p2align	4
.LBB32_27:
	testb	$3, (%rdx)
	je	.LBB32_29
	leaq	(%rax,%rcx), %r8
	incq	%r8
	incq	%rcx
	addq	$40, %rdx
	cmpq	$3, %r8
	jne	.LBB32_27
	jmp	.LBB32_30
	.p2align	4
.LBB32_29:
	movq	%rcx, %rbp
.LBB32_30:
	addq	%rbx, %r14
	addq	$2, (%rdi)
	adcq	$0, 8(%rdi)
	movq	%rbp, 32(%rsp)
	leaq	152(%rsp), %rcx
	movq	%rbx, %rdx
	movq	%r15, %r8
	movq	%r14, %r9
	callq	yurewha_stub_of_two_parent_hashes
	movups	152(%rsp), %xmm0
	movups	168(%rsp), %xmm1
	movups	184(%rsp), %xmm2
	movups	200(%rsp), %xmm3
	movaps	%xmm3, 96(%rsp)
	movaps	%xmm2, 80(%rsp)
	movaps	%xmm1, 64(%rsp)
	movaps	%xmm0, 48(%rsp)
	leaq	-1(%r15), %rcx
	movl	%r15d, %eax
	andl	$7, %eax
	cmpq	$7, %rcx
	jae	.LBB32_32
	xorl	%r12d, %r12d
	jmp	.LBB32_35
	.p2align	4
.LBB32_32:
	andq	$-8, %r15
	xorl	%r12d, %r12d
	.p2align	4
.LBB32_33:
	addq	32(%rbx), %r12
	addq	72(%rbx), %r12
	addq	112(%rbx), %r12
	addq	152(%rbx), %r12
	addq	192(%rbx), %r12
	addq	232(%rbx), %r12
	addq	272(%rbx), %r12
	addq	312(%rbx), %r12
	addq	$320, %rbx
	addq	$-8, %r15
	jne	.LBB32_33
	testq	%rax, %rax
	je	.LBB32_37
.LBB32_35:
	shll	$3, %eax
	leaq	(%rax,%rax,4), %rax
	xorl	%ecx, %ecx
	.p2align	4
.LBB32_36:
	addq	32(%rbx,%rcx), %r12
	addq	$40, %rcx
	cmpq	%rcx, %rax
	jne	.LBB32_36
.LBB32_37:
	movq	8(%rsi), %rax
	cmpq	%rax, 16(%rsi)
	je	.LBB32_47
.LBB32_38:
	movq	(%rsi), %rcx
	leaq	(%rax,%rax,4), %rdx
	movaps	48(%rsp), %xmm0
	movaps	64(%rsp), %xmm1
	movups	%xmm1, 16(%rcx,%rdx,8)
	movups	%xmm0, (%rcx,%rdx,8)
	movq	%r12, 32(%rcx,%rdx,8)
	incq	%rax
	movq	%rax, 8(%rsi)
	leaq	-1(%rbp), %rcx
	movl	%ebp, %edx
	andl	$7, %edx
	cmpq	$7, %rcx
	jae	.LBB32_40
	xorl	%r15d, %r15d
	movq	%r14, %rcx
	jmp	.LBB32_43
	.p2align	4
.LBB32_40:
	movq	%rbp, %r8
	andq	$-8, %r8
	xorl	%r15d, %r15d
	movq	%r14, %rcx
	.p2align	4
.LBB32_41:
	addq	32(%rcx), %r15
	addq	72(%rcx), %r15
	addq	112(%rcx), %r15
	addq	152(%rcx), %r15
	addq	192(%rcx), %r15
	addq	232(%rcx), %r15
	addq	272(%rcx), %r15
	addq	312(%rcx), %r15
	addq	$320, %rcx
	addq	$-8, %r8
	jne	.LBB32_41
	testq	%rdx, %rdx
	je	.LBB32_45
.LBB32_43:
	shll	$3, %edx
	leaq	(%rdx,%rdx,4), %rdx
	xorl	%r8d, %r8d
	.p2align	4
.LBB32_44:
	addq	32(%rcx,%r8), %r15
	addq	$40, %r8
	cmpq	%r8, %rdx
	jne	.LBB32_44
.LBB32_45:
	cmpq	%rax, 16(%rsi)
	je	.LBB32_49
.LBB32_46:
	leaq	(,%rbp,4), %rcx
	addq	%rbp, %rcx
	leaq	(%r14,%rcx,8), %rbx
	subq	%rbp, %r13
	movq	(%rsi), %rcx
	leaq	(%rax,%rax,4), %rdx
	leaq	80(%rsp), %r8
	movups	(%r8), %xmm0
	movups	16(%r8), %xmm1
	movups	%xmm1, 16(%rcx,%rdx,8)
	movups	%xmm0, (%rcx,%rdx,8)
	movq	%r15, 32(%rcx,%rdx,8)
	incq	%rax
	movq	%rax, 8(%rsi)
	movq	%r13, %r14
	testq	%r13, %r13
	jne	.LBB32_4
	jmp	.LBB32_60
.LBB32_47:
	movl	$1, %edx
	movq	%rsi, %rcx
	callq	"std_alloc::vec::Vec::grow_amortized::<#1ed62de40e111fb4>"
	testb	%al, %al
	je	.LBB32_51
	movq	8(%rsi), %rax
	jmp	.LBB32_38
.LBB32_49:
	movl	$1, %edx
	movq	%rsi, %rcx
	callq	"std_alloc::vec::Vec::grow_amortized::<#1ed62de40e111fb4>"
	testb	%al, %al
	je	.LBB32_51
	movq	8(%rsi), %rax
	jmp	.LBB32_46
.LBB32_51:
	movb	$1, %al
	jmp	.LBB32_61
.LBB32_52:
	addq	$1, (%rdi)
	adcq	$0, 8(%rdi)
	xorl	%r15d, %r15d
	leaq	152(%rsp), %rdi
	movl	$792, %r8d
	movq	%rdi, %rcx
	xorl	%edx, %edx
	callq	memset
	movq	%rdi, %rcx
	movq	%rbx, %rdx
	movq	%r14, %r8
	callq	yurewha_stub_of_write_text
	xorps	%xmm0, %xmm0
	movaps	%xmm0, 128(%rsp)
	movaps	%xmm0, 112(%rsp)
	leaq	static.16(%rip), %rdx
	leaq	112(%rsp), %rcx
	movq	%rdi, %r8
	movq	%rax, %r9
	callq	yurewha_stub_of_keyed_hash
	movl	%r14d, %eax
	andl	$7, %eax
	cmpq	$8, %r14
	jb	.LBB32_56
	andq	$-8, %r14
	xorl	%r15d, %r15d
	.p2align	4
.LBB32_54:
	addq	32(%rbx), %r15
	addq	72(%rbx), %r15
	addq	112(%rbx), %r15
	addq	152(%rbx), %r15
	addq	192(%rbx), %r15
	addq	232(%rbx), %r15
	addq	272(%rbx), %r15
	addq	312(%rbx), %r15
	addq	$320, %rbx
	addq	$-8, %r14
	jne	.LBB32_54
	testq	%rax, %rax
	je	.LBB32_58
.LBB32_56:
	shll	$3, %eax
	leaq	(%rax,%rax,4), %rax
	xorl	%ecx, %ecx
	.p2align	4
.LBB32_57:
	addq	32(%rbx,%rcx), %r15
	addq	$40, %rcx
	cmpq	%rcx, %rax
	jne	.LBB32_57
.LBB32_58:
	movaps	112(%rsp), %xmm6
	movaps	128(%rsp), %xmm7
	movq	8(%rsi), %rax
	cmpq	%rax, 16(%rsi)
	je	.LBB32_62
.LBB32_59:
	movq	(%rsi), %rcx
	leaq	(%rax,%rax,4), %rdx
	movups	%xmm6, (%rcx,%rdx,8)
	movups	%xmm7, 16(%rcx,%rdx,8)
	movq	%r15, 32(%rcx,%rdx,8)
	incq	%rax
	movq	%rax, 8(%rsi)
.LBB32_60:
	xorl	%eax, %eax
.LBB32_61:
	movaps	944(%rsp), %xmm6
	movaps	960(%rsp), %xmm7
	addq	$984, %rsp
	popq	%rbx
	popq	%rbp
	popq	%rdi
	popq	%rsi
	popq	%r12
	popq	%r13
	popq	%r14
	popq	%r15
	retq
.LBB32_62:
	movl	$1, %edx
	movq	%rsi, %rcx
	callq	"std_alloc::vec::Vec::grow_amortized::<#1ed62de40e111fb4>"
	movl	%eax, %ecx
	movb	$1, %al
	testb	%cl, %cl
	je	.LBB32_61
	movq	8(%rsi), %rax
	jmp	.LBB32_59
	.seh_endproc

	.section	.text
	.p2align	4
	.def	"subtree_levels::collapse::collapse::<#a9d92fd6c0d16019>";
	.scl	3;
	.type	32;
	.endef
"subtree_levels::collapse::collapse::<#a9d92fd6c0d16019>":
.seh_proc "subtree_levels::collapse::collapse::<#a9d92fd6c0d16019>"
	pushq	%r15
	.seh_pushreg %r15
	pushq	%r14
	.seh_pushreg %r14
	pushq	%r13
	.seh_pushreg %r13
	pushq	%r12
	.seh_pushreg %r12
	pushq	%rsi
	.seh_pushreg %rsi
	pushq	%rdi
	.seh_pushreg %rdi
	pushq	%rbp
	.seh_pushreg %rbp
	pushq	%rbx
	.seh_pushreg %rbx
	subq	$424, %rsp
	.seh_stackalloc 424
	movaps	%xmm6, 400(%rsp)
	.seh_savexmm %xmm6, 400
	.seh_endprologue
	movq	%rcx, 48(%rsp)
	movzbl	528(%rsp), %eax
	movq	(%rdx), %rbx
	movq	8(%rdx), %rbp
	movq	16(%rdx), %r13
	movq	(%r8), %rdi
	movq	8(%r8), %r14
	movq	16(%r8), %r12
	xorps	%xmm6, %xmm6
	movaps	%xmm6, 144(%rsp)
	movaps	%xmm6, 128(%rsp)
	movaps	%xmm6, 112(%rsp)
	movq	$0, 160(%rsp)
	movaps	%xmm6, 208(%rsp)
	movaps	%xmm6, 224(%rsp)
	movb	%al, 32(%rsp)
	leaq	112(%rsp), %rcx
	movq	%rdi, %rdx
	movq	%r14, %r8
	movb	%r9b, 47(%rsp)
	callq	"subtree_levels::split::find_split::<#30d82ebffd2e63ea>"
	cmpb	$1, 112(%rsp)
	je	.LBB34_2
	movq	%rdi, %r15
	movq	%r12, %rsi
.LBB34_55:
	movq	%rbx, 240(%rsp)
	movq	%rbp, 248(%rsp)
	movq	%r13, 256(%rsp)
	movups	%xmm6, 384(%rsp)
	movq	%r15, 344(%rsp)
	movq	%r14, 352(%rsp)
	movq	%rsi, 360(%rsp)
	movq	$0, 368(%rsp)
	leaq	40(%rsp), %rax
	movq	%rax, 376(%rsp)
	leaq	208(%rsp), %rcx
	leaq	240(%rsp), %rdx
	leaq	344(%rsp), %r8
	callq	"subtree_levels::levels::pushed::<#024afdc31600bcbd>"
	movq	48(%rsp), %rcx
	leaq	8(%rcx), %rax
	cmpb	$0, 208(%rsp)
	je	.LBB34_56
	movb	$1, (%rcx)
	xorps	%xmm0, %xmm0
	movups	%xmm0, (%rax)
	movq	$0, 16(%rax)
	jmp	.LBB34_58
	.p2align	4
.LBB34_54:
	movzbl	528(%rsp), %eax
	movb	%al, 32(%rsp)
	leaq	112(%rsp), %rcx
	movq	%r15, %rdx
	movq	%r14, %r8
	movzbl	47(%rsp), %r9d
	callq	"subtree_levels::split::find_split::<#30d82ebffd2e63ea>"
	cmpb	$1, 112(%rsp)
	movq	%rsi, %r12
	movq	%r15, %rdi
	jne	.LBB34_55
.LBB34_2:
	movq	%r13, 72(%rsp)
	movq	%r12, 64(%rsp)
	movq	%rbx, 80(%rsp)
	movq	%rdi, 56(%rsp)
	movq	120(%rsp), %rsi
	movq	128(%rsp), %rbx
	movq	136(%rsp), %rax
	movq	%rax, 168(%rsp)
	movq	144(%rsp), %r12
	movq	152(%rsp), %rdi
	movq	160(%rsp), %r15
	xorps	%xmm0, %xmm0
	movaps	%xmm0, 176(%rsp)
	movaps	%xmm0, 192(%rsp)
	leaq	40(%rsp), %r14
	movq	%r14, %r13
	testq	%rbx, %rbx
	je	.LBB34_12
	movabsq	$230584300921369396, %rax
	cmpq	%rax, %rbx
	jae	.LBB34_27
	leaq	(,%rbx,8), %rax
	leaq	(%rax,%rax,4), %rcx
	movl	$8, %edx
	callq	in_registers_of_rattle_alloc
	testb	$1, %al
	je	.LBB34_27
	movq	%rdx, %r13
	movl	%ebx, %eax
	andl	$3, %eax
	cmpq	$4, %rbx
	jae	.LBB34_7
	xorl	%ecx, %ecx
	jmp	.LBB34_10
	.p2align	4
.LBB34_7:
	movq	%rbx, %rdx
	movabsq	$288230376151711740, %rcx
	andq	%rcx, %rdx
	movl	$152, %r8d
	xorl	%ecx, %ecx
	.p2align	4
.LBB34_8:
	movq	-120(%rsi,%r8), %r9
	movups	-152(%rsi,%r8), %xmm0
	movups	-136(%rsi,%r8), %xmm1
	movups	%xmm1, -136(%r13,%r8)
	movups	%xmm0, -152(%r13,%r8)
	movq	%r9, -120(%r13,%r8)
	movq	-80(%rsi,%r8), %r9
	movups	-112(%rsi,%r8), %xmm0
	movups	-96(%rsi,%r8), %xmm1
	movups	%xmm1, -96(%r13,%r8)
	movups	%xmm0, -112(%r13,%r8)
	movq	%r9, -80(%r13,%r8)
	movq	-40(%rsi,%r8), %r9
	movups	-72(%rsi,%r8), %xmm0
	movups	-56(%rsi,%r8), %xmm1
	movups	%xmm1, -56(%r13,%r8)
	movups	%xmm0, -72(%r13,%r8)
	movq	%r9, -40(%r13,%r8)
	movq	(%rsi,%r8), %r9
	movups	-32(%rsi,%r8), %xmm0
	movups	-16(%rsi,%r8), %xmm1
	movups	%xmm1, -16(%r13,%r8)
	movups	%xmm0, -32(%r13,%r8)
	movq	%r9, (%r13,%r8)
	addq	$4, %rcx
	addq	$160, %r8
	cmpq	%rcx, %rdx
	jne	.LBB34_8
	testq	%rax, %rax
	je	.LBB34_12
.LBB34_10:
	shlq	$3, %rcx
	leaq	(%rcx,%rcx,4), %rdx
	leaq	(%rdx,%r13), %rcx
	addq	$32, %rcx
	addq	%rsi, %rdx
	addq	$32, %rdx
	shll	$3, %eax
	leaq	(%rax,%rax,4), %rax
	xorl	%r8d, %r8d
	.p2align	4
.LBB34_11:
	movq	(%rdx,%r8), %r9
	movups	-32(%rdx,%r8), %xmm0
	movups	-16(%rdx,%r8), %xmm1
	movups	%xmm1, -16(%rcx,%r8)
	movups	%xmm0, -32(%rcx,%r8)
	movq	%r9, (%rcx,%r8)
	addq	$40, %r8
	cmpq	%r8, %rax
	jne	.LBB34_11
.LBB34_12:
	testq	%r15, %r15
	je	.LBB34_22
	movabsq	$230584300921369396, %rax
	cmpq	%rax, %r15
	jae	.LBB34_25
	leaq	(,%r15,8), %rax
	leaq	(%rax,%rax,4), %rcx
	movl	$8, %edx
	callq	in_registers_of_rattle_alloc
	testb	$1, %al
	je	.LBB34_25
	movq	%rdx, %r14
	movl	%r15d, %eax
	andl	$3, %eax
	cmpq	$4, %r15
	jae	.LBB34_17
	xorl	%ecx, %ecx
	jmp	.LBB34_20
	.p2align	4
.LBB34_17:
	movq	%r15, %rdx
	movabsq	$288230376151711740, %rcx
	andq	%rcx, %rdx
	movl	$152, %r8d
	xorl	%ecx, %ecx
	.p2align	4
.LBB34_18:
	movq	-120(%rdi,%r8), %r9
	movups	-152(%rdi,%r8), %xmm0
	movups	-136(%rdi,%r8), %xmm1
	movups	%xmm1, -136(%r14,%r8)
	movups	%xmm0, -152(%r14,%r8)
	movq	%r9, -120(%r14,%r8)
	movq	-80(%rdi,%r8), %r9
	movups	-112(%rdi,%r8), %xmm0
	movups	-96(%rdi,%r8), %xmm1
	movups	%xmm1, -96(%r14,%r8)
	movups	%xmm0, -112(%r14,%r8)
	movq	%r9, -80(%r14,%r8)
	movq	-40(%rdi,%r8), %r9
	movups	-72(%rdi,%r8), %xmm0
	movups	-56(%rdi,%r8), %xmm1
	movups	%xmm1, -56(%r14,%r8)
	movups	%xmm0, -72(%r14,%r8)
	movq	%r9, -40(%r14,%r8)
	movq	(%rdi,%r8), %r9
	movups	-32(%rdi,%r8), %xmm0
	movups	-16(%rdi,%r8), %xmm1
	movups	%xmm1, -16(%r14,%r8)
	movups	%xmm0, -32(%r14,%r8)
	movq	%r9, (%r14,%r8)
	addq	$4, %rcx
	addq	$160, %r8
	cmpq	%rcx, %rdx
	jne	.LBB34_18
	testq	%rax, %rax
	je	.LBB34_22
.LBB34_20:
	shlq	$3, %rcx
	leaq	(%rcx,%rcx,4), %rdx
	leaq	(%r14,%rdx), %rcx
	addq	$32, %rcx
	addq	%rdi, %rdx
	addq	$32, %rdx
	shll	$3, %eax
	leaq	(%rax,%rax,4), %rax
	xorl	%r8d, %r8d
	.p2align	4
.LBB34_21:
	movq	(%rdx,%r8), %r9
	movups	-32(%rdx,%r8), %xmm0
	movups	-16(%rdx,%r8), %xmm1
	movups	%xmm1, -16(%rcx,%r8)
	movups	%xmm0, -32(%rcx,%r8)
	movq	%r9, (%rcx,%r8)
	addq	$40, %r8
	cmpq	%r8, %rax
	jne	.LBB34_21
.LBB34_22:
	movq	80(%rsp), %rax
	movq	%rax, 264(%rsp)
	movq	%rbp, 272(%rsp)
	movq	72(%rsp), %rax
	movq	%rax, 280(%rsp)
	movq	%r13, 288(%rsp)
	movq	%rbx, 296(%rsp)
	movq	%rbx, 304(%rsp)
	movq	$0, 312(%rsp)
	movq	%r14, 320(%rsp)
	movq	%r15, 328(%rsp)
	movq	%r15, 336(%rsp)
	leaq	176(%rsp), %rcx
	leaq	264(%rsp), %rdx
	leaq	288(%rsp), %r8
	callq	"subtree_levels::levels::pushed::<#024afdc31600bcbd>"
	cmpb	$0, 176(%rsp)
	jne	.LBB34_36
	movq	184(%rsp), %rbx
	movq	192(%rsp), %rbp
	movq	200(%rsp), %r13
	movabsq	$-6148914691236517205, %rcx
	movq	%r12, %rax
	mulq	%rcx
	shrq	%rdx
	movabsq	$6148914691236517205, %rcx
	xorl	%esi, %esi
	cmpq	%rcx, %rax
	seta	%sil
	addq	%rdx, %rsi
	je	.LBB34_24
	movabsq	$230584300921369396, %rax
	cmpq	%rax, %rsi
	jae	.LBB34_44
	leaq	(,%rsi,8), %rax
	leaq	(%rax,%rax,4), %rcx
	movl	$8, %edx
	callq	in_registers_of_rattle_alloc
	testb	$1, %al
	jne	.LBB34_41
	jmp	.LBB34_44
	.p2align	4
.LBB34_24:
	leaq	40(%rsp), %rdx
.LBB34_41:
	movq	%rdx, 88(%rsp)
	movq	$0, 96(%rsp)
	movq	%rsi, 104(%rsp)
	leaq	88(%rsp), %rcx
	movq	168(%rsp), %rdx
	movq	%r12, %r8
	movq	536(%rsp), %r9
	callq	"xet_roots::aggregated_hashes::push_parents::<#135fa06c802d8a86>"
	testb	%al, %al
	jne	.LBB34_42
	movq	88(%rsp), %r15
	movq	96(%rsp), %r14
	movq	104(%rsp), %rsi
	cmpq	$0, 64(%rsp)
	movq	56(%rsp), %rcx
	je	.LBB34_54
	callq	yurewha_heap_dealloc
	jmp	.LBB34_54
.LBB34_56:
	movb	$0, (%rcx)
	movq	232(%rsp), %rcx
	movq	%rcx, 16(%rax)
	movups	216(%rsp), %xmm0
	movups	%xmm0, (%rax)
	jmp	.LBB34_58
.LBB34_25:
	testq	%rbx, %rbx
	je	.LBB34_27
	movq	%r13, %rcx
	callq	yurewha_heap_dealloc
.LBB34_27:
	testq	%rbp, %rbp
	movq	80(%rsp), %rbx
	movq	72(%rsp), %r15
	je	.LBB34_34
	leaq	48(%rbx), %rsi
	jmp	.LBB34_29
	.p2align	4
.LBB34_33:
	addq	$56, %rsi
	decq	%rbp
	je	.LBB34_34
.LBB34_29:
	movq	-16(%rsi), %r14
	movq	(%rsi), %rdi
	cmpq	$0, -32(%rsi)
	je	.LBB34_31
	movq	-48(%rsi), %rcx
	callq	yurewha_heap_dealloc
.LBB34_31:
	testq	%rdi, %rdi
	je	.LBB34_33
	movq	%r14, %rcx
	callq	yurewha_heap_dealloc
	jmp	.LBB34_33
.LBB34_34:
	testq	%r15, %r15
	je	.LBB34_36
.LBB34_35:
	movq	%rbx, %rcx
	callq	yurewha_heap_dealloc
.LBB34_36:
	cmpq	$0, 64(%rsp)
	je	.LBB34_38
	movq	56(%rsp), %rcx
	callq	yurewha_heap_dealloc
.LBB34_38:
	movq	48(%rsp), %rax
	movb	$1, (%rax)
	xorps	%xmm0, %xmm0
	movups	%xmm0, 8(%rax)
	movq	$0, 24(%rax)
.LBB34_58:
	movaps	400(%rsp), %xmm6
	addq	$424, %rsp
	popq	%rbx
	popq	%rbp
	popq	%rdi
	popq	%rsi
	popq	%r12
	popq	%r13
	popq	%r14
	popq	%r15
	retq
.LBB34_42:
	cmpq	$0, 104(%rsp)
	je	.LBB34_44
	movq	88(%rsp), %rcx
	callq	yurewha_heap_dealloc
.LBB34_44:
	testq	%rbp, %rbp
	je	.LBB34_51
	leaq	48(%rbx), %rsi
	jmp	.LBB34_46
	.p2align	4
.LBB34_50:
	addq	$56, %rsi
	decq	%rbp
	je	.LBB34_51
.LBB34_46:
	movq	-16(%rsi), %r14
	movq	(%rsi), %rdi
	cmpq	$0, -32(%rsi)
	je	.LBB34_48
	movq	-48(%rsi), %rcx
	callq	yurewha_heap_dealloc
.LBB34_48:
	testq	%rdi, %rdi
	je	.LBB34_50
	movq	%r14, %rcx
	callq	yurewha_heap_dealloc
	jmp	.LBB34_50
.LBB34_51:
	testq	%r13, %r13
	jne	.LBB34_35
	jmp	.LBB34_36
	.seh_endproc

	.section	.text
	.p2align	4
	.def	"std_collections::btree::iter::Cursor::retreat::<#4f04a9971a4b2638>";
	.scl	3;
	.type	32;
	.endef
"std_collections::btree::iter::Cursor::retreat::<#4f04a9971a4b2638>":
.seh_proc "std_collections::btree::iter::Cursor::retreat::<#4f04a9971a4b2638>"
	pushq	%r14
	.seh_pushreg %r14
	pushq	%rsi
	.seh_pushreg %rsi
	pushq	%rdi
	.seh_pushreg %rdi
	pushq	%rbp
	.seh_pushreg %rbp
	pushq	%rbx
	.seh_pushreg %rbx
	.seh_endprologue
	cmpq	$-1, %rdx
	je	.LBB35_1
	movq	%rdx, %rax
	andq	$15, %rax
	je	.LBB35_11
	movq	(%r8), %r9
	leaq	(%r9,%rax,8), %r10
	leaq	(%rax,%rax,2), %rax
	shll	$4, %eax
	leaq	(%rax,%r9), %r11
	addq	$80, %r11
	decq	%rdx
	movl	$1, %esi
	movq	%rdx, %rax
	cmpq	80(%rsp), %rax
	je	.LBB35_10
	jmp	.LBB35_25
.LBB35_1:
	movq	(%r9), %r8
	movzwl	(%r8), %eax
	cmpw	$1, 2(%r8)
	jne	.LBB35_3
	xorl	%edx, %edx
	jmp	.LBB35_6
.LBB35_11:
	movq	(%r9), %r11
	movzwl	2(%r11), %eax
	cmpw	$1, %ax
	je	.LBB35_23
	movl	%eax, %ebp
	movq	%rcx, %rsi
	xorl	%r10d, %r10d
	xorl	%eax, %eax
	xorl	%r8d, %r8d
	xorl	%edi, %edi
	xorl	%ebx, %ebx
	movl	%ebp, %ecx
	jmp	.LBB35_13
	.p2align	4
.LBB35_15:
	shlq	$4, %rbx
	orq	%r14, %rbx
	leaq	(%r11,%r14,8), %r9
	addq	$848, %r9
	movq	848(%r11,%r14,8), %r11
	movzwl	2(%r11), %ecx
	cmpw	$1, %cx
	je	.LBB35_16
.LBB35_13:
	shll	$2, %ecx
	addb	$-4, %cl
	movq	%rdx, %r14
	shrq	%cl, %r14
	andq	$15, %r14
	je	.LBB35_15
	leaq	-1(%r14), %r10
	movb	$1, %dil
	movq	%r9, %r8
	movq	%rbx, %rax
	jmp	.LBB35_15
.LBB35_3:
	xorl	%edx, %edx
	.p2align	4
.LBB35_4:
	movq	%rax, %r9
	movq	%r8, %r10
	shlq	$4, %rdx
	addq	%rax, %rdx
	movq	848(%r8,%rax,8), %r8
	movzwl	(%r8), %eax
	cmpw	$1, 2(%r8)
	jne	.LBB35_4
	addq	$848, %r10
	shlq	$3, %r9
	addq	%r10, %r9
	shlq	$4, %rdx
.LBB35_6:
	addq	%rdx, %rax
	xorl	%esi, %esi
	xorl	%r10d, %r10d
	xorl	%r11d, %r11d
	movq	%r9, %r8
	cmpq	80(%rsp), %rax
	jne	.LBB35_25
.LBB35_10:
	movq	%rsi, (%rcx)
	movq	%r10, 8(%rcx)
	movq	%r11, 16(%rcx)
	xorps	%xmm0, %xmm0
	movups	%xmm0, 24(%rcx)
	movq	$0, 40(%rcx)
	jmp	.LBB35_24
.LBB35_16:
	testb	%dil, %dil
	movq	%rsi, %rcx
	je	.LBB35_23
	movq	(%r8), %rdx
	leaq	(%r10,%r10,2), %r9
	shlq	$4, %r9
	cmpw	$1, 2(%rdx)
	jne	.LBB35_19
	movq	%r10, %rsi
	jmp	.LBB35_22
.LBB35_23:
	xorps	%xmm0, %xmm0
	movups	%xmm0, 32(%rcx)
	movups	%xmm0, 16(%rcx)
	movups	%xmm0, (%rcx)
	jmp	.LBB35_24
.LBB35_19:
	movq	%rdx, %rdi
	movq	%r10, %rsi
	.p2align	4
.LBB35_20:
	movq	%rsi, %r8
	movq	%rdi, %r11
	shlq	$4, %rax
	addq	%rsi, %rax
	movq	848(%rdi,%rsi,8), %rdi
	movzwl	(%rdi), %esi
	cmpw	$1, 2(%rdi)
	jne	.LBB35_20
	addq	$848, %r11
	shlq	$3, %r8
	addq	%r11, %r8
.LBB35_22:
	leaq	(%rdx,%r10,8), %r10
	addq	$8, %r10
	leaq	(%rdx,%r9), %r11
	addq	$128, %r11
	shlq	$4, %rax
	addq	%rsi, %rax
	movl	$1, %esi
	cmpq	80(%rsp), %rax
	je	.LBB35_10
.LBB35_25:
	movq	%rsi, (%rcx)
	movq	%r10, 8(%rcx)
	movq	%r11, 16(%rcx)
	movq	$1, 24(%rcx)
	movq	%rax, 32(%rcx)
	movq	%r8, 40(%rcx)
.LBB35_24:
	popq	%rbx
	popq	%rbp
	popq	%rdi
	popq	%rsi
	popq	%r14
	retq
	.seh_endproc

	.section	.text
	.p2align	4
	.def	"xet_merkle::merkle_hash_subtree::subtree::MerkleHashSubtree::merge_with::<#3cf6a99334775a21>";
	.scl	3;
	.type	32;
	.endef
"xet_merkle::merkle_hash_subtree::subtree::MerkleHashSubtree::merge_with::<#3cf6a99334775a21>":
.seh_proc "xet_merkle::merkle_hash_subtree::subtree::MerkleHashSubtree::merge_with::<#3cf6a99334775a21>"
	pushq	%r15
	.seh_pushreg %r15
	pushq	%r14
	.seh_pushreg %r14
	pushq	%r13
	.seh_pushreg %r13
	pushq	%r12
	.seh_pushreg %r12
	pushq	%rsi
	.seh_pushreg %rsi
	pushq	%rdi
	.seh_pushreg %rdi
	pushq	%rbp
	.seh_pushreg %rbp
	pushq	%rbx
	.seh_pushreg %rbx
	subq	$1192, %rsp
	.seh_stackalloc 1192
	movaps	%xmm6, 1168(%rsp)
	.seh_savexmm %xmm6, 1168
	.seh_endprologue
	movl	%r9d, %r15d
	movq	%r8, %rdi
	movq	%rdx, %rbx
	movq	%rcx, %rsi
	xorps	%xmm0, %xmm0
	movaps	%xmm0, 480(%rsp)
	movaps	%xmm0, 128(%rsp)
	movq	$0, 144(%rsp)
	leaq	128(%rsp), %rcx
	testb	$1, %r9b
	je	.LBB36_3
	movq	%rdi, %rdx
	movq	%rbx, %r8
	callq	"xet_merkle::merkle_hash_subtree::subtree::merging::whole_of::<#024afdc31600bcbd>"
	cmpb	$0, 128(%rsp)
	je	.LBB36_4
.LBB36_2:
	movzbl	129(%rsp), %eax
	movzbl	130(%rsp), %ecx
	movb	$1, (%rsi)
	movb	%al, 1(%rsi)
	movb	%cl, 2(%rsi)
	jmp	.LBB36_273
.LBB36_3:
	movq	%rbx, %rdx
	movq	%rdi, %r8
	callq	"xet_merkle::merkle_hash_subtree::subtree::merging::whole_of::<#024afdc31600bcbd>"
	cmpb	$0, 128(%rsp)
	jne	.LBB36_2
.LBB36_4:
	movq	136(%rsp), %rcx
	movq	144(%rsp), %rax
	movq	%rax, 776(%rsp)
	movl	%ecx, %eax
	shrl	$8, %eax
	movl	%eax, 100(%rsp)
	leaq	8(%rbx), %rax
	movq	%rax, 80(%rsp)
	movq	8(%rdi), %rax
	movq	16(%rdi), %r12
	movq	8(%rbx), %rdi
	movq	16(%rbx), %rbp
	testb	$1, %r15b
	movq	%rbp, %r14
	cmovneq	%r12, %r14
	xorps	%xmm0, %xmm0
	movq	%rax, %r13
	cmovneq	%rdi, %r13
	movq	%rax, 320(%rsp)
	cmovneq	%rax, %rdi
	cmoveq	%r12, %rbp
	movups	%xmm0, 152(%rsp)
	movl	$0, 186(%rsp)
	movw	$0, 190(%rsp)
	leaq	48(%rsp), %rax
	movq	%rax, 496(%rsp)
	movups	%xmm0, 504(%rsp)
	movq	%rdi, 128(%rsp)
	movq	%r14, 136(%rsp)
	movq	%rax, 104(%rsp)
	movq	%rax, 144(%rsp)
	movq	%r13, 168(%rsp)
	movq	%rbp, 176(%rsp)
	movq	%rcx, 224(%rsp)
	movw	%cx, 184(%rsp)
	leaq	128(%rsp), %rcx
	movl	%r15d, %edx
	callq	"subtree_levels::in_sight::InSight::only_extends::<#024afdc31600bcbd>"
	testb	%al, %al
	movq	%rsi, 232(%rsp)
	movq	%rbx, 304(%rsp)
	movb	%r15b, 55(%rsp)
	movq	%r12, 312(%rsp)
	je	.LBB36_10
	leaq	48(%rsp), %r15
	movb	$1, %dil
	xorl	%ebp, %ebp
	xorl	%ebx, %ebx
	xorl	%r13d, %r13d
	movq	%r15, 56(%rsp)
	movq	320(%rsp), %rcx
.LBB36_6:
	testb	$1, 55(%rsp)
	je	.LBB36_37
	leaq	48(%rsp), %rdx
	testq	%r12, %r12
	movq	%r15, 112(%rsp)
	movq	%rbp, 64(%rsp)
	je	.LBB36_60
	cmpq	$1, %r12
	jne	.LBB36_61
	movq	8(%rcx), %r12
	movq	24(%rcx), %rax
	leaq	(%rax,%rax,4), %r15
	shlq	$3, %r15
	addq	(%rcx), %r15
	subq	%rax, %r12
	movq	%r12, %rbp
	addq	%rbx, %rbp
	jne	.LBB36_62
	jmp	.LBB36_64
.LBB36_10:
	movq	%r13, 112(%rsp)
	leaq	16(%rbx), %rax
	movq	%rax, 408(%rsp)
	xorl	%r13d, %r13d
	jmp	.LBB36_12
	.p2align	4
.LBB36_11:
	movb	%dil, %r15b
	subq	%r15, %rbp
	movq	112(%rsp), %rdx
	addq	%r13, %rdx
	movb	%r12b, %r14b
	movq	56(%rsp), %rax
	subq	%r14, %rax
	movq	%rax, %r14
	movq	64(%rsp), %rdi
	addq	%rbx, %rdi
	leaq	359(%rsp), %r8
	movq	16(%r8), %rax
	leaq	186(%rsp), %rcx
	movq	%rax, -26(%rcx)
	movups	(%r8), %xmm0
	movups	%xmm0, -42(%rcx)
	movq	%rdi, 128(%rsp)
	movq	%r14, 136(%rsp)
	movq	%rdx, 112(%rsp)
	movq	%rdx, 168(%rsp)
	movq	%rbp, 176(%rsp)
	movw	$0, 4(%rcx)
	movl	$0, (%rcx)
	leaq	128(%rsp), %rcx
	movzbl	55(%rsp), %r15d
	movl	%r15d, %edx
	callq	"subtree_levels::in_sight::InSight::only_extends::<#024afdc31600bcbd>"
	testb	%al, %al
	movq	72(%rsp), %r13
	jne	.LBB36_78
.LBB36_12:
	testb	$1, %r15b
	movq	%r14, %rsi
	cmovneq	%rbp, %rsi
	movq	144(%rsp), %r12
	cmpq	$2, %rsi
	jb	.LBB36_71
	xorps	%xmm0, %xmm0
	movaps	%xmm0, 416(%rsp)
	movaps	%xmm0, 432(%rsp)
	movaps	%xmm0, 448(%rsp)
	movaps	%xmm0, 240(%rsp)
	movaps	%xmm0, 256(%rsp)
	movaps	%xmm0, 352(%rsp)
	movups	%xmm0, 367(%rsp)
	movq	160(%rsp), %rbx
	leaq	240(%rsp), %rcx
	leaq	128(%rsp), %rdx
	callq	"subtree_levels::in_sight::InSight::nodes::<#d96a70c1b70ca186>"
	cmpb	$0, 240(%rsp)
	jne	.LBB36_50
	movq	%r14, 56(%rsp)
	movq	%rdi, 64(%rsp)
	movq	248(%rsp), %rdi
	movq	256(%rsp), %r9
	movq	264(%rsp), %rax
	movq	%rax, 88(%rsp)
	leaq	416(%rsp), %r14
	leaq	128(%rsp), %rdx
	movq	%r14, %rcx
	movq	%rdi, %r8
	callq	"subtree_levels::in_sight::InSight::split::<#024afdc31600bcbd>"
	leaq	424(%rsp), %rcx
	leaq	448(%rsp), %rax
	leaq	456(%rsp), %rdx
	testb	$1, %r15b
	cmovneq	%rcx, %rdx
	movq	(%rdx), %r15
	cmovneq	%r14, %rax
	testq	%r15, %r15
	movq	%rdi, 120(%rsp)
	je	.LBB36_19
	movabsq	$230584300921369396, %rcx
	cmpq	%rcx, %r15
	jae	.LBB36_47
	movq	(%rax), %r14
	leaq	(,%r15,8), %rax
	leaq	(%rax,%rax,4), %rcx
	movl	$8, %edx
	callq	in_registers_of_rattle_alloc
	testb	$1, %al
	je	.LBB36_47
	movl	%r15d, %eax
	andl	$3, %eax
	cmpq	$4, %r15
	jae	.LBB36_20
	xorl	%ecx, %ecx
	jmp	.LBB36_23
	.p2align	4
.LBB36_19:
	leaq	48(%rsp), %rdx
	jmp	.LBB36_25
	.p2align	4
.LBB36_20:
	movabsq	$288230376151711740, %r8
	andq	%r15, %r8
	movl	$152, %r9d
	xorl	%ecx, %ecx
	.p2align	4
.LBB36_21:
	movq	-120(%r14,%r9), %r10
	movups	-152(%r14,%r9), %xmm0
	movups	-136(%r14,%r9), %xmm1
	movups	%xmm1, -136(%rdx,%r9)
	movups	%xmm0, -152(%rdx,%r9)
	movq	%r10, -120(%rdx,%r9)
	movq	-80(%r14,%r9), %r10
	movups	-112(%r14,%r9), %xmm0
	movups	-96(%r14,%r9), %xmm1
	movups	%xmm1, -96(%rdx,%r9)
	movups	%xmm0, -112(%rdx,%r9)
	movq	%r10, -80(%rdx,%r9)
	movq	-40(%r14,%r9), %r10
	movups	-72(%r14,%r9), %xmm0
	movups	-56(%r14,%r9), %xmm1
	movups	%xmm1, -56(%rdx,%r9)
	movups	%xmm0, -72(%rdx,%r9)
	movq	%r10, -40(%rdx,%r9)
	movq	(%r14,%r9), %r10
	movups	-32(%r14,%r9), %xmm0
	movups	-16(%r14,%r9), %xmm1
	movups	%xmm1, -16(%rdx,%r9)
	movups	%xmm0, -32(%rdx,%r9)
	movq	%r10, (%rdx,%r9)
	addq	$4, %rcx
	addq	$160, %r9
	cmpq	%rcx, %r8
	jne	.LBB36_21
	testq	%rax, %rax
	je	.LBB36_25
.LBB36_23:
	shlq	$3, %rcx
	leaq	(%rcx,%rcx,4), %r8
	leaq	(%rdx,%r8), %rcx
	addq	$32, %rcx
	addq	%r14, %r8
	addq	$32, %r8
	shll	$3, %eax
	leaq	(%rax,%rax,4), %rax
	xorl	%r9d, %r9d
	.p2align	4
.LBB36_24:
	movq	(%r8,%r9), %r10
	movups	-32(%r8,%r9), %xmm0
	movups	-16(%r8,%r9), %xmm1
	movups	%xmm1, -16(%rcx,%r9)
	movups	%xmm0, -32(%rcx,%r9)
	movq	%r10, (%rcx,%r9)
	addq	$40, %r9
	cmpq	%r9, %rax
	jne	.LBB36_24
.LBB36_25:
	cmpq	%r13, 512(%rsp)
	je	.LBB36_35
.LBB36_26:
	movq	%rbx, %rdi
	leaq	(,%r13,2), %rax
	addq	%r13, %rax
	movq	104(%rsp), %rcx
	movq	%rdx, (%rcx,%rax,8)
	movq	%r15, 8(%rcx,%rax,8)
	movq	%r15, 16(%rcx,%rax,8)
	incq	%r13
	movq	%r13, 504(%rsp)
	movq	432(%rsp), %r14
	movq	440(%rsp), %r15
	movabsq	$-6148914691236517205, %rcx
	movq	%r15, %rax
	mulq	%rcx
	shrq	%rdx
	movabsq	$6148914691236517205, %rcx
	xorl	%ebx, %ebx
	cmpq	%rcx, %rax
	seta	%bl
	addq	%rdx, %rbx
	je	.LBB36_29
	movabsq	$230584300921369396, %rax
	cmpq	%rax, %rbx
	jae	.LBB36_75
	leaq	(,%rbx,8), %rax
	leaq	(%rax,%rax,4), %rcx
	movl	$8, %edx
	callq	in_registers_of_rattle_alloc
	testb	$1, %al
	jne	.LBB36_30
	jmp	.LBB36_75
	.p2align	4
.LBB36_29:
	leaq	48(%rsp), %rdx
.LBB36_30:
	movq	%rdx, 544(%rsp)
	movq	$0, 552(%rsp)
	movq	%rbx, 560(%rsp)
	leaq	544(%rsp), %rcx
	leaq	480(%rsp), %r9
	movq	%r14, %rdx
	movq	%r15, %r8
	callq	"xet_roots::aggregated_hashes::push_parents::<#135fa06c802d8a86>"
	testb	%al, %al
	jne	.LBB36_73
	movq	%r13, 72(%rsp)
	movq	560(%rsp), %rax
	leaq	359(%rsp), %rcx
	movq	%rax, 16(%rcx)
	movups	544(%rsp), %xmm0
	movups	%xmm0, (%rcx)
	testq	%rdi, %rdi
	je	.LBB36_33
	movq	%r12, %rcx
	callq	yurewha_heap_dealloc
.LBB36_33:
	xorl	%r15d, %r15d
	testq	%rbp, %rbp
	setne	%dil
	movl	$56, %ebx
	movl	$56, %r13d
	cmoveq	%rbp, %r13
	xorl	%r14d, %r14d
	movq	56(%rsp), %rax
	testq	%rax, %rax
	setne	%r12b
	cmoveq	%rax, %rbx
	cmpq	$0, 88(%rsp)
	je	.LBB36_11
	movq	120(%rsp), %rcx
	callq	yurewha_heap_dealloc
	jmp	.LBB36_11
.LBB36_35:
	movq	%rdx, %rdi
	leaq	496(%rsp), %rcx
	callq	"std_alloc::vec::Vec::grow_amortized::<#383813664ff73b2b>"
	testb	%al, %al
	je	.LBB36_237
	movq	496(%rsp), %rax
	movq	%rax, 104(%rsp)
	movq	504(%rsp), %r13
	movq	%rdi, %rdx
	jmp	.LBB36_26
.LBB36_37:
	cmpq	%r13, 312(%rsp)
	jbe	.LBB36_44
	movq	8(%rcx), %r9
	movq	24(%rcx), %rax
	leaq	(%rax,%rax,4), %r8
	shlq	$3, %r8
	addq	(%rcx), %r8
	subq	%rax, %r9
	movq	56(%rsp), %r12
	testq	%rbx, %rbx
	je	.LBB36_45
.LBB36_39:
	movq	%r12, 128(%rsp)
	movq	%rbx, 136(%rsp)
	movq	%rbp, 144(%rsp)
	movq	%rbp, %rax
	subq	%rbx, %rax
	cmpq	%rax, %r9
	ja	.LBB36_188
.LBB36_40:
	movq	%r12, %rax
	movq	%r15, %r12
	leaq	(%rbx,%r9), %r15
	shlq	$3, %rbx
	leaq	(%rbx,%rbx,4), %rdx
	movq	%rax, %r14
	leaq	(%rax,%rdx), %rcx
	leaq	(,%r9,8), %rax
	leaq	(%rax,%rax,4), %rax
	movq	%rcx, %r10
	subq	%r8, %r10
	cmpq	%rax, %r10
	jae	.LBB36_70
	testq	%r9, %r9
	movq	80(%rsp), %rbx
	je	.LBB36_106
	movl	%r9d, %eax
	andl	$7, %eax
	cmpq	$8, %r9
	jae	.LBB36_101
	xorl	%r10d, %r10d
	jmp	.LBB36_104
.LBB36_44:
	leaq	48(%rsp), %r8
	xorl	%r9d, %r9d
	movq	56(%rsp), %r12
	testq	%rbx, %rbx
	jne	.LBB36_39
.LBB36_45:
	movq	80(%rsp), %rbx
	movq	%rbx, %rcx
	movq	%r13, %rdx
	callq	"subtree_levels::in_place::extend_inner::<#024afdc31600bcbd>"
	movl	%eax, %r14d
	testq	%rbp, %rbp
	je	.LBB36_153
	movq	%r12, %rcx
	callq	yurewha_heap_dealloc
	testb	%r14b, %r14b
	jne	.LBB36_154
	jmp	.LBB36_219
.LBB36_47:
	cmpq	$0, 88(%rsp)
	je	.LBB36_50
	movq	%rdi, %rcx
.LBB36_49:
	callq	yurewha_heap_dealloc
.LBB36_50:
	testq	%rbx, %rbx
	je	.LBB36_52
.LBB36_51:
	movq	%r12, %rcx
	callq	yurewha_heap_dealloc
.LBB36_52:
	movq	496(%rsp), %rdi
	movq	504(%rsp), %rbx
	movq	512(%rsp), %rsi
	testq	%rbx, %rbx
	je	.LBB36_57
	leaq	16(%rdi), %r14
	jmp	.LBB36_55
	.p2align	4
.LBB36_54:
	addq	$24, %r14
	decq	%rbx
	je	.LBB36_57
.LBB36_55:
	cmpq	$0, (%r14)
	je	.LBB36_54
	movq	-16(%r14), %rcx
	callq	yurewha_heap_dealloc
	jmp	.LBB36_54
.LBB36_57:
	testq	%rsi, %rsi
	je	.LBB36_59
	movq	%rdi, %rcx
	callq	yurewha_heap_dealloc
.LBB36_59:
	movq	232(%rsp), %rsi
	jmp	.LBB36_272
.LBB36_60:
	movq	%rdx, %r15
	movq	%r12, %rbp
	addq	%rbx, %rbp
	jne	.LBB36_62
	jmp	.LBB36_64
.LBB36_61:
	movq	32(%rcx), %r15
	movq	40(%rcx), %r12
	movq	%r12, %rbp
	addq	%rbx, %rbp
	je	.LBB36_64
.LBB36_62:
	movb	$1, %r14b
	movabsq	$230584300921369396, %rax
	cmpq	%rax, %rbp
	jae	.LBB36_150
	leaq	(,%rbp,8), %rax
	leaq	(%rax,%rax,4), %rcx
	movl	$8, %edx
	callq	in_registers_of_rattle_alloc
	testb	$1, %al
	je	.LBB36_150
.LBB36_64:
	movq	%rdx, 352(%rsp)
	movq	$0, 360(%rsp)
	movq	%rbp, 368(%rsp)
	cmpq	%rbp, %r12
	ja	.LBB36_190
	xorl	%eax, %eax
.LBB36_66:
	leaq	(%rax,%r12), %r14
	shlq	$3, %rax
	leaq	(%rax,%rax,4), %rax
	leaq	(%rdx,%rax), %rcx
	leaq	(,%r12,8), %r8
	leaq	(%r8,%r8,4), %r8
	movq	%rcx, %r9
	subq	%r15, %r9
	cmpq	%r8, %r9
	jae	.LBB36_72
	testq	%r12, %r12
	je	.LBB36_116
	movl	%r12d, %r8d
	andl	$7, %r8d
	cmpq	$8, %r12
	jae	.LBB36_111
	xorl	%r9d, %r9d
	jmp	.LBB36_114
.LBB36_70:
	movq	%r8, %rdx
	movq	%rax, %r8
	callq	memmove
	movq	80(%rsp), %rbx
	jmp	.LBB36_106
.LBB36_71:
	movq	%r12, 56(%rsp)
	jmp	.LBB36_79
.LBB36_72:
	movq	%r15, %rdx
	callq	memmove
	jmp	.LBB36_116
.LBB36_73:
	cmpq	$0, 560(%rsp)
	je	.LBB36_75
	movq	544(%rsp), %rcx
	callq	yurewha_heap_dealloc
.LBB36_75:
	cmpq	$0, 88(%rsp)
	je	.LBB36_77
	movq	120(%rsp), %rcx
	callq	yurewha_heap_dealloc
.LBB36_77:
	testq	%rdi, %rdi
	jne	.LBB36_51
	jmp	.LBB36_52
.LBB36_78:
	movq	144(%rsp), %rax
	movq	%rax, 56(%rsp)
.LBB36_79:
	movq	512(%rsp), %rdx
	testq	%rdx, %rdx
	sete	%dil
	movq	312(%rsp), %r12
	cmpq	%r13, %r12
	movq	%r13, %rax
	cmovbq	%r12, %rax
	movq	496(%rsp), %r15
	imulq	$56, %rax, %rcx
	movq	320(%rsp), %r8
	addq	%rcx, %r8
	movq	%r8, %rcx
	subq	%rax, %r12
	movq	152(%rsp), %rbx
	movq	160(%rsp), %rbp
	cmpq	$1, %rsi
	ja	.LBB36_6
	movq	%rdx, 64(%rsp)
	movb	%dil, 88(%rsp)
	movq	%r15, 112(%rsp)
	movq	408(%rsp), %rax
	movq	(%rax), %rax
	cmpq	%r13, %rax
	movq	%r13, 72(%rsp)
	cmovbq	%rax, %r13
	imulq	$56, %r13, %rdi
	movq	80(%rsp), %rdx
	addq	(%rdx), %rdi
	subq	%r13, %rax
	testb	$1, 55(%rsp)
	movq	%rdi, %rsi
	cmovneq	%rcx, %rsi
	movq	%rax, %r15
	cmovneq	%r12, %r15
	cmoveq	%rcx, %rdi
	movq	%r12, %r13
	cmovneq	%rax, %r13
	xorps	%xmm6, %xmm6
	movaps	%xmm6, 784(%rsp)
	movaps	%xmm6, 800(%rsp)
	movaps	%xmm6, 544(%rsp)
	movaps	%xmm6, 560(%rsp)
	movaps	%xmm6, 576(%rsp)
	movq	$0, 592(%rsp)
	movaps	%xmm6, 656(%rsp)
	movq	$0, 672(%rsp)
	movaps	%xmm6, 496(%rsp)
	movaps	%xmm6, 512(%rsp)
	movaps	%xmm6, 528(%rsp)
	movq	%rsi, 128(%rsp)
	movq	%r15, 136(%rsp)
	movq	56(%rsp), %rcx
	movq	%rcx, 144(%rsp)
	movq	%rbx, 152(%rsp)
	movq	%rbp, 160(%rsp)
	movq	%rdi, 168(%rsp)
	movq	%r13, 176(%rsp)
	movq	224(%rsp), %rcx
	movw	%cx, 184(%rsp)
	movw	$0, 190(%rsp)
	movl	$0, 186(%rsp)
	orq	%r12, %rax
	leaq	48(%rsp), %r14
	cmpq	$2, %rax
	jae	.LBB36_82
	xorl	%r12d, %r12d
	movq	$0, 56(%rsp)
	jmp	.LBB36_92
.LBB36_82:
	movq	$0, 56(%rsp)
	xorl	%r12d, %r12d
.LBB36_83:
	leaq	784(%rsp), %rcx
	leaq	128(%rsp), %rdx
	callq	"subtree_levels::in_sight::InSight::nodes::<#d96a70c1b70ca186>"
	cmpb	$0, 784(%rsp)
	jne	.LBB36_174
	movq	792(%rsp), %rbx
	movq	800(%rsp), %r9
	movq	808(%rsp), %rbp
	movq	%r14, 656(%rsp)
	movq	%r12, 664(%rsp)
	movq	56(%rsp), %rax
	movq	%rax, 672(%rsp)
	leaq	496(%rsp), %r14
	leaq	128(%rsp), %rdx
	movq	%r14, %rcx
	movq	%rbx, %r8
	callq	"subtree_levels::in_sight::InSight::split::<#024afdc31600bcbd>"
	leaq	544(%rsp), %rcx
	leaq	656(%rsp), %rdx
	leaq	480(%rsp), %r9
	movq	%r14, %r8
	callq	"subtree_levels::collapse::collapse_middle::<#4baefd862f873d89>"
	cmpb	$0, 544(%rsp)
	jne	.LBB36_185
	movq	552(%rsp), %r14
	movq	560(%rsp), %r12
	movq	568(%rsp), %rax
	movq	%rax, 56(%rsp)
	cmpq	$0, 160(%rsp)
	je	.LBB36_87
	movq	144(%rsp), %rcx
	callq	yurewha_heap_dealloc
.LBB36_87:
	xorl	%eax, %eax
	testq	%r13, %r13
	setne	%al
	movl	$56, %ecx
	movl	$56, %edx
	cmoveq	%r13, %rdx
	subq	%rax, %r13
	addq	%rdx, %rdi
	xorl	%eax, %eax
	testq	%r15, %r15
	setne	%al
	cmoveq	%r15, %rcx
	subq	%rax, %r15
	addq	%rcx, %rsi
	movq	%rsi, 128(%rsp)
	movq	%r15, 136(%rsp)
	leaq	576(%rsp), %rdx
	movq	16(%rdx), %rax
	leaq	186(%rsp), %rcx
	movq	%rax, -26(%rcx)
	movups	(%rdx), %xmm0
	movups	%xmm0, -42(%rcx)
	movq	%rdi, 168(%rsp)
	movq	%r13, 176(%rsp)
	movw	$0, 4(%rcx)
	movl	$0, (%rcx)
	testq	%rbp, %rbp
	je	.LBB36_89
	movq	%rbx, %rcx
	callq	yurewha_heap_dealloc
.LBB36_89:
	cmpq	$1, %r15
	ja	.LBB36_83
	cmpq	$1, %r13
	ja	.LBB36_83
	movq	152(%rsp), %rbx
.LBB36_92:
	movaps	%xmm6, 816(%rsp)
	movaps	%xmm6, 832(%rsp)
	movaps	%xmm6, 688(%rsp)
	movq	$0, 704(%rsp)
	movaps	%xmm6, 1104(%rsp)
	movaps	%xmm6, 1120(%rsp)
	testq	%rbx, %rbx
	je	.LBB36_161
.LBB36_93:
	movq	%r14, %r13
	movq	%r14, 688(%rsp)
	movq	%r12, 696(%rsp)
	movq	56(%rsp), %r14
	movq	%r14, 704(%rsp)
	leaq	1104(%rsp), %rcx
	leaq	128(%rsp), %rdx
	callq	"subtree_levels::in_sight::InSight::nodes::<#d96a70c1b70ca186>"
	cmpb	$0, 1104(%rsp)
	je	.LBB36_165
	testq	%r12, %r12
	movq	72(%rsp), %r15
	je	.LBB36_109
	leaq	48(%r13), %rsi
	jmp	.LBB36_97
.LBB36_96:
	addq	$56, %rsi
	decq	%r12
	je	.LBB36_109
.LBB36_97:
	movq	-16(%rsi), %rbx
	movq	(%rsi), %rdi
	cmpq	$0, -32(%rsi)
	je	.LBB36_99
	movq	-48(%rsi), %rcx
	callq	yurewha_heap_dealloc
.LBB36_99:
	testq	%rdi, %rdi
	je	.LBB36_96
	movq	%rbx, %rcx
	callq	yurewha_heap_dealloc
	jmp	.LBB36_96
.LBB36_101:
	movq	%rbp, 64(%rsp)
	movl	%edi, %ebp
	andq	$-8, %r9
	movl	$280, %r11d
	xorl	%r10d, %r10d
	.p2align	4
.LBB36_102:
	movups	-280(%r8,%r11), %xmm0
	movups	-264(%r8,%r11), %xmm1
	movq	-248(%r8,%r11), %rsi
	movq	%rsi, -248(%rcx,%r11)
	movups	%xmm1, -264(%rcx,%r11)
	movups	%xmm0, -280(%rcx,%r11)
	movups	-240(%r8,%r11), %xmm0
	movups	-224(%r8,%r11), %xmm1
	movq	-208(%r8,%r11), %rsi
	movq	%rsi, -208(%rcx,%r11)
	movups	%xmm1, -224(%rcx,%r11)
	movups	%xmm0, -240(%rcx,%r11)
	movups	-200(%r8,%r11), %xmm0
	movups	-184(%r8,%r11), %xmm1
	movq	-168(%r8,%r11), %rsi
	movq	%rsi, -168(%rcx,%r11)
	movups	%xmm1, -184(%rcx,%r11)
	movups	%xmm0, -200(%rcx,%r11)
	movups	-160(%r8,%r11), %xmm0
	movups	-144(%r8,%r11), %xmm1
	movq	-128(%r8,%r11), %rsi
	movq	%rsi, -128(%rcx,%r11)
	movups	%xmm1, -144(%rcx,%r11)
	movups	%xmm0, -160(%rcx,%r11)
	movups	-120(%r8,%r11), %xmm0
	movups	-104(%r8,%r11), %xmm1
	movq	-88(%r8,%r11), %rsi
	movq	%rsi, -88(%rcx,%r11)
	movups	%xmm1, -104(%rcx,%r11)
	movups	%xmm0, -120(%rcx,%r11)
	movups	-80(%r8,%r11), %xmm0
	movups	-64(%r8,%r11), %xmm1
	movq	-48(%r8,%r11), %rsi
	movq	%rsi, -48(%rcx,%r11)
	movups	%xmm1, -64(%rcx,%r11)
	movups	%xmm0, -80(%rcx,%r11)
	movups	-40(%r8,%r11), %xmm0
	movups	-24(%r8,%r11), %xmm1
	movq	-8(%r8,%r11), %rsi
	movq	%rsi, -8(%rcx,%r11)
	movups	%xmm1, -24(%rcx,%r11)
	movups	%xmm0, -40(%rcx,%r11)
	movups	(%r8,%r11), %xmm0
	movups	16(%r8,%r11), %xmm1
	movq	32(%r8,%r11), %rsi
	movq	%rsi, 32(%rcx,%r11)
	movups	%xmm1, 16(%rcx,%r11)
	movups	%xmm0, (%rcx,%r11)
	addq	$8, %r10
	addq	$320, %r11
	cmpq	%r10, %r9
	jne	.LBB36_102
	testq	%rax, %rax
	movl	%ebp, %edi
	movq	64(%rsp), %rbp
	je	.LBB36_106
.LBB36_104:
	shlq	$3, %r10
	leaq	(%r10,%r10,4), %rcx
	addq	%rcx, %r8
	addq	%r14, %rcx
	addq	%rdx, %rcx
	shll	$3, %eax
	leaq	(%rax,%rax,4), %rax
	xorl	%edx, %edx
	.p2align	4
.LBB36_105:
	movups	(%r8,%rdx), %xmm0
	movups	16(%r8,%rdx), %xmm1
	movq	32(%r8,%rdx), %r9
	movq	%r9, 32(%rcx,%rdx)
	movups	%xmm1, 16(%rcx,%rdx)
	movups	%xmm0, (%rcx,%rdx)
	addq	$40, %rdx
	cmpq	%rdx, %rax
	jne	.LBB36_105
.LBB36_106:
	movq	%rbx, %rcx
	movq	%r13, %rdx
	movq	%r14, %rsi
	movq	%r14, %r8
	movq	%r15, %r9
	callq	"subtree_levels::in_place::extend_inner::<#024afdc31600bcbd>"
	movl	%eax, %r14d
	testq	%rbp, %rbp
	je	.LBB36_108
	movq	%rsi, %rcx
	callq	yurewha_heap_dealloc
.LBB36_108:
	movq	%r12, %r15
	testb	%r14b, %r14b
	jne	.LBB36_154
.LBB36_219:
	movb	%dil, 88(%rsp)
	testq	%r13, %r13
	je	.LBB36_325
.LBB36_220:
	testb	$1, 55(%rsp)
	je	.LBB36_225
	imulq	$56, %r13, %rsi
	addq	$-56, %rsi
	leaq	(,%r13,2), %rax
	addq	%r13, %rax
	leaq	(%r15,%rax,8), %rdi
	addq	$-24, %rdi
	jmp	.LBB36_223
	.p2align	4
.LBB36_222:
	decq	%r13
	addq	$-56, %rsi
	addq	$-24, %rdi
	testq	%r13, %r13
	je	.LBB36_325
.LBB36_223:
	movq	(%rbx), %rax
	movq	(%rax,%rsi), %rcx
	movq	16(%rdi), %rdx
	movups	(%rdi), %xmm0
	movups	%xmm0, (%rax,%rsi)
	cmpq	$0, 16(%rax,%rsi)
	movq	%rdx, 16(%rax,%rsi)
	movq	$0, 24(%rax,%rsi)
	je	.LBB36_222
	callq	yurewha_heap_dealloc
	jmp	.LBB36_222
.LBB36_225:
	imulq	$56, %r13, %rsi
	addq	$-24, %rsi
	leaq	(,%r13,2), %rax
	addq	%r13, %rax
	leaq	(%r15,%rax,8), %rdi
	addq	$-24, %rdi
	jmp	.LBB36_227
	.p2align	4
.LBB36_226:
	decq	%r13
	addq	$-56, %rsi
	addq	$-24, %rdi
	testq	%r13, %r13
	je	.LBB36_325
.LBB36_227:
	movq	(%rbx), %rax
	movq	(%rax,%rsi), %rcx
	movq	16(%rdi), %rdx
	movups	(%rdi), %xmm0
	movups	%xmm0, (%rax,%rsi)
	cmpq	$0, 16(%rax,%rsi)
	movq	%rdx, 16(%rax,%rsi)
	je	.LBB36_226
	callq	yurewha_heap_dealloc
	jmp	.LBB36_226
.LBB36_109:
	testq	%r14, %r14
	movq	64(%rsp), %rdi
	je	.LBB36_262
	movq	%r13, %rcx
	callq	yurewha_heap_dealloc
	jmp	.LBB36_262
.LBB36_111:
	andq	$-8, %r12
	movl	$280, %r10d
	xorl	%r9d, %r9d
	.p2align	4
.LBB36_112:
	movups	-280(%r15,%r10), %xmm0
	movups	-264(%r15,%r10), %xmm1
	movq	-248(%r15,%r10), %r11
	movq	%r11, -248(%rcx,%r10)
	movups	%xmm1, -264(%rcx,%r10)
	movups	%xmm0, -280(%rcx,%r10)
	movups	-240(%r15,%r10), %xmm0
	movups	-224(%r15,%r10), %xmm1
	movq	-208(%r15,%r10), %r11
	movq	%r11, -208(%rcx,%r10)
	movups	%xmm1, -224(%rcx,%r10)
	movups	%xmm0, -240(%rcx,%r10)
	movups	-200(%r15,%r10), %xmm0
	movups	-184(%r15,%r10), %xmm1
	movq	-168(%r15,%r10), %r11
	movq	%r11, -168(%rcx,%r10)
	movups	%xmm1, -184(%rcx,%r10)
	movups	%xmm0, -200(%rcx,%r10)
	movups	-160(%r15,%r10), %xmm0
	movups	-144(%r15,%r10), %xmm1
	movq	-128(%r15,%r10), %r11
	movq	%r11, -128(%rcx,%r10)
	movups	%xmm1, -144(%rcx,%r10)
	movups	%xmm0, -160(%rcx,%r10)
	movups	-120(%r15,%r10), %xmm0
	movups	-104(%r15,%r10), %xmm1
	movq	-88(%r15,%r10), %r11
	movq	%r11, -88(%rcx,%r10)
	movups	%xmm1, -104(%rcx,%r10)
	movups	%xmm0, -120(%rcx,%r10)
	movups	-80(%r15,%r10), %xmm0
	movups	-64(%r15,%r10), %xmm1
	movq	-48(%r15,%r10), %r11
	movq	%r11, -48(%rcx,%r10)
	movups	%xmm1, -64(%rcx,%r10)
	movups	%xmm0, -80(%rcx,%r10)
	movups	-40(%r15,%r10), %xmm0
	movups	-24(%r15,%r10), %xmm1
	movq	-8(%r15,%r10), %r11
	movq	%r11, -8(%rcx,%r10)
	movups	%xmm1, -24(%rcx,%r10)
	movups	%xmm0, -40(%rcx,%r10)
	movups	(%r15,%r10), %xmm0
	movups	16(%r15,%r10), %xmm1
	movq	32(%r15,%r10), %r11
	movq	%r11, 32(%rcx,%r10)
	movups	%xmm1, 16(%rcx,%r10)
	movups	%xmm0, (%rcx,%r10)
	addq	$8, %r9
	addq	$320, %r10
	cmpq	%r9, %r12
	jne	.LBB36_112
	testq	%r8, %r8
	je	.LBB36_116
.LBB36_114:
	shlq	$3, %r9
	leaq	(%r9,%r9,4), %rcx
	addq	%rcx, %r15
	addq	%rcx, %rax
	addq	%rax, %rdx
	shll	$3, %r8d
	leaq	(%r8,%r8,4), %rax
	xorl	%ecx, %ecx
	.p2align	4
.LBB36_115:
	movups	(%r15,%rcx), %xmm0
	movups	16(%r15,%rcx), %xmm1
	movq	32(%r15,%rcx), %r8
	movq	%r8, 32(%rdx,%rcx)
	movups	%xmm1, 16(%rdx,%rcx)
	movups	%xmm0, (%rdx,%rcx)
	addq	$40, %rcx
	cmpq	%rcx, %rax
	jne	.LBB36_115
.LBB36_116:
	movq	%r14, 360(%rsp)
	movq	%rbp, 368(%rsp)
	movq	%rbp, %rax
	subq	%r14, %rax
	cmpq	%rax, %rbx
	movq	56(%rsp), %r12
	ja	.LBB36_192
.LBB36_117:
	leaq	(%r14,%rbx), %r15
	movq	352(%rsp), %rcx
	leaq	(,%r14,8), %rax
	leaq	(%rax,%rax,4), %rax
	movq	%rcx, 120(%rsp)
	addq	%rax, %rcx
	leaq	(,%rbx,8), %rdx
	leaq	(%rdx,%rdx,4), %r8
	movq	%rcx, %rdx
	subq	%r12, %rdx
	cmpq	%r8, %rdx
	jae	.LBB36_121
	testq	%rbx, %rbx
	je	.LBB36_127
	movl	%ebx, %edx
	andl	$7, %edx
	cmpq	$8, %rbx
	jae	.LBB36_122
	xorl	%r8d, %r8d
	jmp	.LBB36_125
.LBB36_121:
	movq	%r12, %rdx
	callq	memmove
	jmp	.LBB36_127
.LBB36_122:
	movq	%rbx, %r9
	andq	$-8, %r9
	movl	$280, %r10d
	xorl	%r8d, %r8d
	.p2align	4
.LBB36_123:
	movups	-280(%r12,%r10), %xmm0
	movups	-264(%r12,%r10), %xmm1
	movq	-248(%r12,%r10), %r11
	movq	%r11, -248(%rcx,%r10)
	movups	%xmm1, -264(%rcx,%r10)
	movups	%xmm0, -280(%rcx,%r10)
	movups	-240(%r12,%r10), %xmm0
	movups	-224(%r12,%r10), %xmm1
	movq	-208(%r12,%r10), %r11
	movq	%r11, -208(%rcx,%r10)
	movups	%xmm1, -224(%rcx,%r10)
	movups	%xmm0, -240(%rcx,%r10)
	movups	-200(%r12,%r10), %xmm0
	movups	-184(%r12,%r10), %xmm1
	movq	-168(%r12,%r10), %r11
	movq	%r11, -168(%rcx,%r10)
	movups	%xmm1, -184(%rcx,%r10)
	movups	%xmm0, -200(%rcx,%r10)
	movups	-160(%r12,%r10), %xmm0
	movups	-144(%r12,%r10), %xmm1
	movq	-128(%r12,%r10), %r11
	movq	%r11, -128(%rcx,%r10)
	movups	%xmm1, -144(%rcx,%r10)
	movups	%xmm0, -160(%rcx,%r10)
	movups	-120(%r12,%r10), %xmm0
	movups	-104(%r12,%r10), %xmm1
	movq	-88(%r12,%r10), %r11
	movq	%r11, -88(%rcx,%r10)
	movups	%xmm1, -104(%rcx,%r10)
	movups	%xmm0, -120(%rcx,%r10)
	movups	-80(%r12,%r10), %xmm0
	movups	-64(%r12,%r10), %xmm1
	movq	-48(%r12,%r10), %r11
	movq	%r11, -48(%rcx,%r10)
	movups	%xmm1, -64(%rcx,%r10)
	movups	%xmm0, -80(%rcx,%r10)
	movups	-40(%r12,%r10), %xmm0
	movups	-24(%r12,%r10), %xmm1
	movq	-8(%r12,%r10), %r11
	movq	%r11, -8(%rcx,%r10)
	movups	%xmm1, -24(%rcx,%r10)
	movups	%xmm0, -40(%rcx,%r10)
	movups	(%r12,%r10), %xmm0
	movups	16(%r12,%r10), %xmm1
	movq	32(%r12,%r10), %r11
	movq	%r11, 32(%rcx,%r10)
	movups	%xmm1, 16(%rcx,%r10)
	movups	%xmm0, (%rcx,%r10)
	addq	$8, %r8
	addq	$320, %r10
	cmpq	%r8, %r9
	jne	.LBB36_123
	testq	%rdx, %rdx
	je	.LBB36_127
.LBB36_125:
	shlq	$3, %r8
	leaq	(%r8,%r8,4), %r8
	leaq	(%r12,%r8), %rcx
	addq	%r8, %rax
	addq	120(%rsp), %rax
	shll	$3, %edx
	leaq	(%rdx,%rdx,4), %rdx
	xorl	%r8d, %r8d
	.p2align	4
.LBB36_126:
	movups	(%rcx,%r8), %xmm0
	movups	16(%rcx,%r8), %xmm1
	movq	32(%rcx,%r8), %r9
	movq	%r9, 32(%rax,%r8)
	movups	%xmm1, 16(%rax,%r8)
	movups	%xmm0, (%rax,%r8)
	addq	$40, %r8
	cmpq	%r8, %rdx
	jne	.LBB36_126
.LBB36_127:
	movq	%rbp, 368(%rsp)
	movq	80(%rsp), %rax
	movq	(%rax), %rax
	movq	%r13, 72(%rsp)
	imulq	$56, %r13, %rcx
	leaq	(%rax,%rcx), %rsi
	xorps	%xmm0, %xmm0
	movups	%xmm0, 431(%rsp)
	movaps	%xmm0, 416(%rsp)
	movq	24(%rax,%rcx), %r13
	cmpq	%r15, %r13
	jae	.LBB36_137
	movb	%dil, 88(%rsp)
	movq	8(%rsi), %rdi
	movq	%rdi, %r12
	subq	%r13, %r12
	movq	%r12, %rax
	notq	%rax
	cmpq	%rax, %r15
	ja	.LBB36_134
	leaq	(%r12,%r15), %r11
	cmpq	%rax, %r11
	ja	.LBB36_133
	movq	(%rsi), %rbp
	movq	%r11, %r10
	addq	%r12, %r10
	je	.LBB36_196
	movabsq	$230584300921369396, %rax
	cmpq	%rax, %r10
	jae	.LBB36_133
	leaq	(,%r10,8), %rax
	leaq	(%rax,%rax,4), %rcx
	movl	$8, %edx
	movq	%r10, 104(%rsp)
	callq	in_registers_of_rattle_alloc
	movq	104(%rsp), %r10
	leaq	(%r12,%r15), %r11
	testb	$1, %al
	jne	.LBB36_197
.LBB36_133:
	movq	368(%rsp), %rbp
.LBB36_134:
	movb	$1, %r14b
	testq	%rbp, %rbp
	je	.LBB36_136
	movq	352(%rsp), %rcx
	callq	yurewha_heap_dealloc
.LBB36_136:
	movq	72(%rsp), %r13
	movzbl	88(%rsp), %edi
	jmp	.LBB36_150
.LBB36_137:
	movq	%r13, %r8
	testq	%r15, %r15
	je	.LBB36_147
.LBB36_138:
	leaq	(%r14,%rbx), %rcx
	decq	%rcx
	movq	%r15, %rax
	andq	$3, %rax
	je	.LBB36_142
	movq	%r8, %rbx
	leaq	(,%r8,8), %rdx
	leaq	(%rdx,%rdx,4), %r8
	leaq	(%r15,%r15,4), %rdx
	movq	120(%rsp), %r9
	leaq	(%r9,%rdx,8), %r9
	addq	$-40, %r9
	xorl	%edx, %edx
	.p2align	4
.LBB36_140:
	movq	(%rsi), %r10
	movups	(%r9), %xmm0
	movups	16(%r9), %xmm1
	movq	32(%r9), %r11
	movq	%r11, -8(%r8,%r10)
	movups	%xmm1, -24(%r8,%r10)
	movups	%xmm0, -40(%r8,%r10)
	incq	%rdx
	addq	$-40, %r8
	addq	$-40, %r9
	cmpq	%rdx, %rax
	jne	.LBB36_140
	movq	%rbx, %r8
	subq	%rdx, %r8
	movq	%r15, %rax
	subq	%rdx, %rax
	jmp	.LBB36_143
.LBB36_142:
	movq	%r15, %rax
.LBB36_143:
	cmpq	$3, %rcx
	jb	.LBB36_146
	shlq	$3, %r8
	leaq	(%r8,%r8,4), %rdx
	leaq	(%rax,%rax,4), %rcx
	movq	120(%rsp), %r8
	leaq	(%r8,%rcx,8), %rcx
	addq	$-160, %rcx
	.p2align	4
.LBB36_145:
	movq	(%rsi), %r8
	movups	120(%rcx), %xmm0
	movups	136(%rcx), %xmm1
	movq	152(%rcx), %r9
	movq	%r9, -8(%r8,%rdx)
	movups	%xmm1, -24(%r8,%rdx)
	movups	%xmm0, -40(%r8,%rdx)
	movq	(%rsi), %r8
	movups	80(%rcx), %xmm0
	movups	96(%rcx), %xmm1
	movq	112(%rcx), %r9
	movq	%r9, -48(%r8,%rdx)
	movups	%xmm1, -64(%r8,%rdx)
	movups	%xmm0, -80(%r8,%rdx)
	movq	(%rsi), %r8
	movups	40(%rcx), %xmm0
	movups	56(%rcx), %xmm1
	movq	72(%rcx), %r9
	movq	%r9, -88(%r8,%rdx)
	movups	%xmm1, -104(%r8,%rdx)
	movups	%xmm0, -120(%r8,%rdx)
	movq	(%rsi), %r8
	movups	(%rcx), %xmm0
	movups	16(%rcx), %xmm1
	movq	32(%rcx), %r9
	movq	%r9, -128(%rdx,%r8)
	movups	%xmm1, -144(%rdx,%r8)
	movups	%xmm0, -160(%rdx,%r8)
	addq	$-160, %rdx
	addq	$-160, %rcx
	addq	$-4, %rax
	jne	.LBB36_145
.LBB36_146:
	movq	24(%rsi), %r13
	movq	368(%rsp), %rbp
.LBB36_147:
	subq	%r15, %r13
	movq	%r13, 24(%rsi)
	testq	%rbp, %rbp
	je	.LBB36_149
	movq	352(%rsp), %rcx
	callq	yurewha_heap_dealloc
.LBB36_149:
	xorl	%r14d, %r14d
	movq	72(%rsp), %r13
.LBB36_150:
	cmpq	$0, 64(%rsp)
	je	.LBB36_152
	movq	56(%rsp), %rcx
	callq	yurewha_heap_dealloc
.LBB36_152:
	movq	112(%rsp), %r15
	movq	80(%rsp), %rbx
.LBB36_153:
	testb	%r14b, %r14b
	je	.LBB36_219
.LBB36_154:
	testq	%r13, %r13
	je	.LBB36_159
	leaq	16(%r15), %rsi
	jmp	.LBB36_157
	.p2align	4
.LBB36_156:
	addq	$24, %rsi
	decq	%r13
	je	.LBB36_159
.LBB36_157:
	cmpq	$0, (%rsi)
	je	.LBB36_156
	movq	-16(%rsi), %rcx
	callq	yurewha_heap_dealloc
	jmp	.LBB36_156
.LBB36_159:
	testb	%dil, %dil
	movq	232(%rsp), %rsi
	jne	.LBB36_272
	movq	%r15, %rcx
	jmp	.LBB36_271
.LBB36_161:
	testq	%r13, %r13
	je	.LBB36_163
	movq	8(%rdi), %rax
	cmpq	24(%rdi), %rax
	jne	.LBB36_93
.LBB36_163:
	cmpq	$1, %r15
	jne	.LBB36_206
	movq	8(%rsi), %rbx
	movq	24(%rsi), %rax
	leaq	(%rax,%rax,4), %rdi
	shlq	$3, %rdi
	addq	(%rsi), %rdi
	subq	%rax, %rbx
	jmp	.LBB36_207
.LBB36_165:
	leaq	1112(%rsp), %r8
	leaq	480(%rsp), %rax
	movq	%rax, 40(%rsp)
	movl	100(%rsp), %eax
	movb	%al, 32(%rsp)
	leaq	816(%rsp), %rcx
	leaq	688(%rsp), %rdx
	movq	224(%rsp), %r9
	callq	"subtree_levels::collapse::collapse::<#4baefd862f873d89>"
	cmpb	$0, 816(%rsp)
	movq	72(%rsp), %r15
	movq	64(%rsp), %rdi
	jne	.LBB36_262
	movq	824(%rsp), %r13
	movq	832(%rsp), %rbx
	movq	840(%rsp), %r12
.LBB36_167:
	cmpq	$0, 160(%rsp)
	je	.LBB36_169
	movq	144(%rsp), %rcx
	callq	yurewha_heap_dealloc
.LBB36_169:
	movq	304(%rsp), %rax
	movq	16(%rax), %rsi
	movq	24(%rax), %r14
	movq	%r14, %rax
	subq	%rsi, %rax
	cmpq	%rax, %rbx
	ja	.LBB36_330
	movq	%rsi, %rdx
	movq	%rsi, %rcx
	testq	%rbx, %rbx
	je	.LBB36_296
.LBB36_171:
	movq	80(%rsp), %rax
	movq	(%rax), %rax
	imulq	$56, %rdx, %rdx
	leaq	(%rax,%rdx), %rcx
	imulq	$56, %rbx, %r8
	movq	%rcx, %r9
	subq	%r13, %r9
	cmpq	%r8, %r9
	jae	.LBB36_275
	leaq	-1(%rbx), %r9
	movl	%ebx, %r8d
	andl	$7, %r8d
	cmpq	$7, %r9
	jae	.LBB36_290
	xorl	%r9d, %r9d
	jmp	.LBB36_293
.LBB36_174:
	cmpq	$0, 160(%rsp)
	movq	72(%rsp), %r15
	je	.LBB36_176
	movq	144(%rsp), %rcx
	callq	yurewha_heap_dealloc
.LBB36_176:
	testq	%r12, %r12
	movq	%r14, %r13
	movq	56(%rsp), %r14
	je	.LBB36_183
	leaq	48(%r13), %rsi
	jmp	.LBB36_179
.LBB36_178:
	addq	$56, %rsi
	decq	%r12
	je	.LBB36_183
.LBB36_179:
	movq	-16(%rsi), %rbx
	movq	(%rsi), %rdi
	cmpq	$0, -32(%rsi)
	je	.LBB36_181
	movq	-48(%rsi), %rcx
	callq	yurewha_heap_dealloc
.LBB36_181:
	testq	%rdi, %rdi
	je	.LBB36_178
	movq	%rbx, %rcx
	callq	yurewha_heap_dealloc
	jmp	.LBB36_178
.LBB36_183:
	testq	%r14, %r14
	movq	64(%rsp), %rdi
	je	.LBB36_265
	movq	%r13, %rcx
	jmp	.LBB36_264
.LBB36_185:
	testq	%rbp, %rbp
	je	.LBB36_187
	movq	%rbx, %rcx
	callq	yurewha_heap_dealloc
.LBB36_187:
	cmpq	$0, 160(%rsp)
	movq	72(%rsp), %r15
	movq	64(%rsp), %rdi
	jne	.LBB36_263
	jmp	.LBB36_265
.LBB36_188:
	movl	%edi, %ebp
	movq	%r8, %rsi
	leaq	128(%rsp), %rcx
	movq	%r9, %rdi
	movq	%r9, %rdx
	callq	"std_alloc::vec::Vec::grow_amortized::<#1ed62de40e111fb4>"
	testb	%al, %al
	je	.LBB36_216
	movq	128(%rsp), %r12
	movq	136(%rsp), %rbx
	movq	144(%rsp), %rax
	movq	%rsi, %r8
	movq	%rdi, %r9
	movl	%ebp, %edi
	movq	%rax, %rbp
	jmp	.LBB36_40
.LBB36_190:
	leaq	352(%rsp), %rcx
	movq	%r12, %rdx
	callq	"std_alloc::vec::Vec::grow_amortized::<#1ed62de40e111fb4>"
	testb	%al, %al
	je	.LBB36_194
	movq	352(%rsp), %rdx
	movq	360(%rsp), %rax
	movq	368(%rsp), %rbp
	jmp	.LBB36_66
.LBB36_192:
	leaq	352(%rsp), %rcx
	movq	%rbx, %rdx
	callq	"std_alloc::vec::Vec::grow_amortized::<#1ed62de40e111fb4>"
	testb	%al, %al
	je	.LBB36_194
	movq	360(%rsp), %r14
	movq	368(%rsp), %rbp
	jmp	.LBB36_117
.LBB36_194:
	movb	$1, %r14b
	cmpq	$0, 368(%rsp)
	je	.LBB36_150
	movq	352(%rsp), %rcx
	callq	yurewha_heap_dealloc
	jmp	.LBB36_150
.LBB36_196:
	leaq	48(%rsp), %rdx
.LBB36_197:
	movq	%rdx, 240(%rsp)
	movq	$0, 248(%rsp)
	movq	%r10, 256(%rsp)
	testq	%r11, %r11
	je	.LBB36_241
	xorps	%xmm0, %xmm0
	movaps	%xmm0, 144(%rsp)
	movaps	%xmm0, 128(%rsp)
	cmpq	%r10, %r11
	ja	.LBB36_332
	xorl	%eax, %eax
	leaq	(%rax,%r11), %rcx
	cmpq	%rcx, %rax
	jae	.LBB36_205
.LBB36_200:
	leaq	(%r14,%rbx), %r8
	addq	%rdi, %r8
	movq	%rax, %r9
	testb	$1, %r11b
	je	.LBB36_202
	leaq	(%rax,%rax,4), %r9
	movaps	128(%rsp), %xmm0
	movaps	144(%rsp), %xmm1
	movups	%xmm1, 16(%rdx,%r9,8)
	movups	%xmm0, (%rdx,%r9,8)
	movq	$0, 32(%rdx,%r9,8)
	leaq	1(%rax), %r9
.LBB36_202:
	movq	%r9, 104(%rsp)
	leaq	1(%r13), %r9
	cmpq	%r9, %r8
	je	.LBB36_205
	movq	104(%rsp), %r9
	leaq	(%r9,%r9,4), %r8
	leaq	(%rdx,%r8,8), %rdx
	addq	$72, %rdx
	addq	%r14, %rax
	addq	%rbx, %rax
	addq	%rdi, %rax
	subq	%r9, %rax
	subq	%r13, %rax
.LBB36_204:
	movaps	128(%rsp), %xmm0
	movaps	144(%rsp), %xmm1
	movups	%xmm1, -56(%rdx)
	movups	%xmm0, -72(%rdx)
	movq	$0, -40(%rdx)
	movaps	128(%rsp), %xmm0
	movaps	144(%rsp), %xmm1
	movups	%xmm0, -32(%rdx)
	movups	%xmm1, -16(%rdx)
	movq	$0, (%rdx)
	addq	$80, %rdx
	addq	$-2, %rax
	jne	.LBB36_204
.LBB36_205:
	movq	%rcx, 248(%rsp)
	movq	%r10, 256(%rsp)
	jmp	.LBB36_242
.LBB36_206:
	leaq	48(%rsp), %rdi
	xorl	%ebx, %ebx
.LBB36_207:
	movq	224(%rsp), %r9
	movl	100(%rsp), %eax
	xorps	%xmm0, %xmm0
	movaps	%xmm0, 416(%rsp)
	movaps	%xmm0, 432(%rsp)
	movaps	%xmm0, 448(%rsp)
	movq	$0, 464(%rsp)
	movaps	%xmm0, 1040(%rsp)
	movaps	%xmm0, 1056(%rsp)
	movaps	%xmm0, 944(%rsp)
	movaps	%xmm0, 960(%rsp)
	movaps	%xmm0, 752(%rsp)
	movq	$0, 768(%rsp)
	movaps	%xmm0, 272(%rsp)
	movaps	%xmm0, 256(%rsp)
	movaps	%xmm0, 240(%rsp)
	movq	$0, 288(%rsp)
	movaps	%xmm0, 928(%rsp)
	movaps	%xmm0, 912(%rsp)
	movaps	%xmm0, 1024(%rsp)
	movaps	%xmm0, 1008(%rsp)
	movaps	%xmm0, 896(%rsp)
	movaps	%xmm0, 880(%rsp)
	movups	%xmm0, 1151(%rsp)
	movaps	%xmm0, 1136(%rsp)
	movaps	%xmm0, 864(%rsp)
	movaps	%xmm0, 848(%rsp)
	movaps	%xmm0, 720(%rsp)
	movq	$0, 736(%rsp)
	movaps	%xmm0, 976(%rsp)
	movq	$0, 992(%rsp)
	movb	%al, 32(%rsp)
	leaq	416(%rsp), %rcx
	movq	%rdi, %rdx
	movq	%rbx, %r8
	callq	"subtree_levels::split::find_split::<#30d82ebffd2e63ea>"
	cmpb	$0, 416(%rsp)
	movq	%r14, %r15
	je	.LBB36_229
	movq	424(%rsp), %rdx
	movq	432(%rsp), %r8
	movq	440(%rsp), %rdi
	movq	448(%rsp), %rbp
	movq	456(%rsp), %rbx
	movq	464(%rsp), %rsi
	leaq	912(%rsp), %rcx
	callq	"xet_roots::as_node::read_nodes::<#a0ff80199b3a144e>"
	cmpb	$0, 912(%rsp)
	je	.LBB36_248
	testq	%r12, %r12
	movq	56(%rsp), %r14
	je	.LBB36_258
	leaq	48(%r15), %rsi
	jmp	.LBB36_212
.LBB36_211:
	addq	$56, %rsi
	decq	%r12
	je	.LBB36_258
.LBB36_212:
	movq	-16(%rsi), %rbx
	movq	(%rsi), %rdi
	cmpq	$0, -32(%rsi)
	je	.LBB36_214
	movq	-48(%rsi), %rcx
	callq	yurewha_heap_dealloc
.LBB36_214:
	testq	%rdi, %rdi
	je	.LBB36_211
	movq	%rbx, %rcx
	callq	yurewha_heap_dealloc
	jmp	.LBB36_211
.LBB36_216:
	movb	$1, %r14b
	cmpq	$0, 144(%rsp)
	je	.LBB36_218
	movq	128(%rsp), %rcx
	callq	yurewha_heap_dealloc
.LBB36_218:
	movq	80(%rsp), %rbx
	movl	%ebp, %edi
	testb	%r14b, %r14b
	jne	.LBB36_154
	jmp	.LBB36_219
.LBB36_229:
	leaq	1040(%rsp), %rcx
	movq	%rdi, %rdx
	movq	%rbx, %r8
	callq	"xet_roots::as_node::read_nodes::<#a0ff80199b3a144e>"
	cmpb	$0, 1040(%rsp)
	je	.LBB36_276
	testq	%r12, %r12
	movq	56(%rsp), %r14
	je	.LBB36_258
	leaq	48(%r15), %rsi
	jmp	.LBB36_233
.LBB36_232:
	addq	$56, %rsi
	decq	%r12
	je	.LBB36_258
.LBB36_233:
	movq	-16(%rsi), %rbx
	movq	(%rsi), %rdi
	cmpq	$0, -32(%rsi)
	je	.LBB36_235
	movq	-48(%rsi), %rcx
	callq	yurewha_heap_dealloc
.LBB36_235:
	testq	%rdi, %rdi
	je	.LBB36_232
	movq	%rbx, %rcx
	callq	yurewha_heap_dealloc
	jmp	.LBB36_232
.LBB36_237:
	testq	%r15, %r15
	je	.LBB36_239
	movq	%rdi, %rcx
	callq	yurewha_heap_dealloc
.LBB36_239:
	cmpq	$0, 88(%rsp)
	movq	120(%rsp), %rcx
	jne	.LBB36_49
	jmp	.LBB36_50
.LBB36_241:
	xorl	%ecx, %ecx
.LBB36_242:
	movq	%r11, 320(%rsp)
	movq	%r10, %rax
	subq	%rcx, %rax
	cmpq	%rax, %r12
	ja	.LBB36_328
.LBB36_243:
	movq	%r10, 104(%rsp)
	leaq	(,%r13,8), %rax
	leaq	(%rax,%rax,4), %r9
	leaq	(%r9,%rbp), %rdx
	leaq	(%rcx,%r12), %rax
	movq	%rax, 312(%rsp)
	movq	240(%rsp), %rax
	shlq	$3, %rcx
	leaq	(%rcx,%rcx,4), %r10
	leaq	(%rax,%r10), %rcx
	leaq	(,%r12,8), %r8
	leaq	(%r8,%r8,4), %r8
	movq	%rcx, %r11
	subq	%rdx, %r11
	cmpq	%r8, %r11
	jae	.LBB36_247
	cmpq	%r13, %rdi
	je	.LBB36_288
	movl	%r12d, %r8d
	andl	$7, %r8d
	subq	%rdi, %r13
	cmpq	$-8, %r13
	jbe	.LBB36_283
	xorl	%r11d, %r11d
	jmp	.LBB36_286
.LBB36_247:
	callq	memmove
	jmp	.LBB36_288
.LBB36_248:
	movq	920(%rsp), %r15
	movq	936(%rsp), %r13
	movaps	928(%rsp), %xmm6
	leaq	1008(%rsp), %rcx
	movq	%rbx, %rdx
	movq	%rsi, %r8
	callq	"xet_roots::as_node::read_nodes::<#a0ff80199b3a144e>"
	cmpb	$0, 1008(%rsp)
	je	.LBB36_278
	testq	%r13, %r13
	je	.LBB36_251
	movq	%r15, %rcx
	callq	yurewha_heap_dealloc
.LBB36_251:
	testq	%r12, %r12
	movq	%r14, %r15
	movq	56(%rsp), %r14
	je	.LBB36_258
	leaq	48(%r15), %rsi
	jmp	.LBB36_254
.LBB36_253:
	addq	$56, %rsi
	decq	%r12
	je	.LBB36_258
.LBB36_254:
	movq	-16(%rsi), %rbx
	movq	(%rsi), %rdi
	cmpq	$0, -32(%rsi)
	je	.LBB36_256
	movq	-48(%rsi), %rcx
	callq	yurewha_heap_dealloc
.LBB36_256:
	testq	%rdi, %rdi
	je	.LBB36_253
	movq	%rbx, %rcx
	callq	yurewha_heap_dealloc
	jmp	.LBB36_253
.LBB36_258:
	testq	%r14, %r14
	je	.LBB36_261
	movq	%r15, %rcx
.LBB36_260:
	callq	yurewha_heap_dealloc
.LBB36_261:
	movq	72(%rsp), %r15
	movq	64(%rsp), %rdi
.LBB36_262:
	cmpq	$0, 160(%rsp)
	je	.LBB36_265
.LBB36_263:
	movq	144(%rsp), %rcx
.LBB36_264:
	callq	yurewha_heap_dealloc
.LBB36_265:
	testq	%r15, %r15
	je	.LBB36_270
	movq	112(%rsp), %rax
	leaq	16(%rax), %rsi
	jmp	.LBB36_268
	.p2align	4
.LBB36_267:
	addq	$24, %rsi
	decq	%r15
	je	.LBB36_270
.LBB36_268:
	cmpq	$0, (%rsi)
	je	.LBB36_267
	movq	-16(%rsi), %rcx
	callq	yurewha_heap_dealloc
	jmp	.LBB36_267
.LBB36_270:
	testq	%rdi, %rdi
	movq	232(%rsp), %rsi
	movq	112(%rsp), %rcx
	je	.LBB36_272
.LBB36_271:
	callq	yurewha_heap_dealloc
.LBB36_272:
	movw	$513, (%rsi)
	movb	$0, 2(%rsi)
.LBB36_273:
	xorps	%xmm0, %xmm0
	movups	%xmm0, 16(%rsi)
.LBB36_274:
	movaps	1168(%rsp), %xmm6
	addq	$1192, %rsp
	popq	%rbx
	popq	%rbp
	popq	%rdi
	popq	%rsi
	popq	%r12
	popq	%r13
	popq	%r14
	popq	%r15
	retq
.LBB36_275:
	movq	%r13, %rdx
	callq	memmove
	jmp	.LBB36_295
.LBB36_276:
	movq	%r15, 752(%rsp)
	movq	%r12, 760(%rsp)
	movq	56(%rsp), %rax
	movq	%rax, 768(%rsp)
	xorps	%xmm0, %xmm0
	movups	%xmm0, 280(%rsp)
	movups	1048(%rsp), %xmm0
	movaps	%xmm0, 240(%rsp)
	movq	1064(%rsp), %rax
	movq	%rax, 256(%rsp)
	movq	$0, 264(%rsp)
	leaq	48(%rsp), %rax
	movq	%rax, 272(%rsp)
	leaq	944(%rsp), %rcx
	leaq	752(%rsp), %rdx
	leaq	240(%rsp), %r8
	callq	"subtree_levels::levels::pushed::<#024afdc31600bcbd>"
	cmpb	$0, 944(%rsp)
	jne	.LBB36_261
	movq	952(%rsp), %r13
	movq	960(%rsp), %rbx
	movq	968(%rsp), %r12
	jmp	.LBB36_167
.LBB36_278:
	movq	%r14, 1080(%rsp)
	movq	%r12, 1088(%rsp)
	movq	56(%rsp), %rax
	movq	%rax, 1096(%rsp)
	movups	1016(%rsp), %xmm0
	movups	%xmm0, 384(%rsp)
	movq	1032(%rsp), %rax
	movq	%rax, 400(%rsp)
	movq	%r15, 352(%rsp)
	movups	%xmm6, 360(%rsp)
	movq	$0, 376(%rsp)
	leaq	880(%rsp), %rcx
	leaq	1080(%rsp), %rdx
	leaq	352(%rsp), %r8
	callq	"subtree_levels::levels::pushed::<#024afdc31600bcbd>"
	cmpb	$0, 880(%rsp)
	jne	.LBB36_261
	movq	888(%rsp), %r13
	movq	%rbp, %rax
	movq	896(%rsp), %rbp
	movq	904(%rsp), %r15
	xorps	%xmm0, %xmm0
	movaps	%xmm0, 192(%rsp)
	movq	$0, 208(%rsp)
	movabsq	$-6148914691236517205, %rcx
	movq	%rax, %rsi
	mulq	%rcx
	shrq	%rdx
	movabsq	$6148914691236517205, %rcx
	xorl	%ebx, %ebx
	cmpq	%rcx, %rax
	seta	%bl
	addq	%rdx, %rbx
	je	.LBB36_351
	movabsq	$230584300921369396, %rax
	cmpq	%rax, %rbx
	jae	.LBB36_389
	leaq	(,%rbx,8), %rax
	leaq	(%rax,%rax,4), %rcx
	movl	$8, %edx
	callq	in_registers_of_rattle_alloc
	testb	$1, %al
	je	.LBB36_389
	movq	%rdx, %r14
	movq	%r15, 56(%rsp)
	jmp	.LBB36_352
.LBB36_283:
	andq	$-8, %r12
	movl	$280, %edi
	xorl	%r11d, %r11d
.LBB36_284:
	movups	-280(%rdx,%rdi), %xmm0
	movups	-264(%rdx,%rdi), %xmm1
	movq	-248(%rdx,%rdi), %r13
	movq	%r13, -248(%rcx,%rdi)
	movups	%xmm1, -264(%rcx,%rdi)
	movups	%xmm0, -280(%rcx,%rdi)
	movups	-240(%rdx,%rdi), %xmm0
	movups	-224(%rdx,%rdi), %xmm1
	movq	-208(%rdx,%rdi), %r13
	movq	%r13, -208(%rcx,%rdi)
	movups	%xmm1, -224(%rcx,%rdi)
	movups	%xmm0, -240(%rcx,%rdi)
	movups	-200(%rdx,%rdi), %xmm0
	movups	-184(%rdx,%rdi), %xmm1
	movq	-168(%rdx,%rdi), %r13
	movq	%r13, -168(%rcx,%rdi)
	movups	%xmm1, -184(%rcx,%rdi)
	movups	%xmm0, -200(%rcx,%rdi)
	movups	-160(%rdx,%rdi), %xmm0
	movups	-144(%rdx,%rdi), %xmm1
	movq	-128(%rdx,%rdi), %r13
	movq	%r13, -128(%rcx,%rdi)
	movups	%xmm1, -144(%rcx,%rdi)
	movups	%xmm0, -160(%rcx,%rdi)
	movups	-120(%rdx,%rdi), %xmm0
	movups	-104(%rdx,%rdi), %xmm1
	movq	-88(%rdx,%rdi), %r13
	movq	%r13, -88(%rcx,%rdi)
	movups	%xmm1, -104(%rcx,%rdi)
	movups	%xmm0, -120(%rcx,%rdi)
	movups	-80(%rdx,%rdi), %xmm0
	movups	-64(%rdx,%rdi), %xmm1
	movq	-48(%rdx,%rdi), %r13
	movq	%r13, -48(%rcx,%rdi)
	movups	%xmm1, -64(%rcx,%rdi)
	movups	%xmm0, -80(%rcx,%rdi)
	movups	-40(%rdx,%rdi), %xmm0
	movups	-24(%rdx,%rdi), %xmm1
	movq	-8(%rdx,%rdi), %r13
	movq	%r13, -8(%rcx,%rdi)
	movups	%xmm1, -24(%rcx,%rdi)
	movups	%xmm0, -40(%rcx,%rdi)
	movups	(%rdx,%rdi), %xmm0
	movups	16(%rdx,%rdi), %xmm1
	movq	32(%rdx,%rdi), %r13
	movq	%r13, 32(%rcx,%rdi)
	movups	%xmm1, 16(%rcx,%rdi)
	movups	%xmm0, (%rcx,%rdi)
	addq	$8, %r11
	addq	$320, %rdi
	cmpq	%r11, %r12
	jne	.LBB36_284
	testq	%r8, %r8
	je	.LBB36_288
.LBB36_286:
	shlq	$3, %r11
	leaq	(%r11,%r11,4), %rcx
	addq	%rcx, %r9
	addq	%r9, %rbp
	addq	%rcx, %r10
	addq	%r10, %rax
	shll	$3, %r8d
	leaq	(%r8,%r8,4), %rcx
	xorl	%edx, %edx
.LBB36_287:
	movups	(%rbp,%rdx), %xmm0
	movups	16(%rbp,%rdx), %xmm1
	movq	32(%rbp,%rdx), %r8
	movq	%r8, 32(%rax,%rdx)
	movups	%xmm1, 16(%rax,%rdx)
	movups	%xmm0, (%rax,%rdx)
	addq	$40, %rdx
	cmpq	%rdx, %rcx
	jne	.LBB36_287
.LBB36_288:
	movq	312(%rsp), %rax
	movq	%rax, 248(%rsp)
	movq	104(%rsp), %rax
	movq	%rax, 439(%rsp)
	movups	240(%rsp), %xmm0
	movups	%xmm0, 423(%rsp)
	movq	(%rsi), %rcx
	movups	%xmm0, (%rsi)
	cmpq	$0, 16(%rsi)
	movq	%rax, 16(%rsi)
	movq	320(%rsp), %r8
	movq	%r8, 24(%rsi)
	movzbl	88(%rsp), %edi
	je	.LBB36_138
	callq	yurewha_heap_dealloc
	movq	24(%rsi), %r8
	jmp	.LBB36_138
.LBB36_290:
	movq	%rbx, %r10
	andq	$-8, %r10
	movl	$392, %r11d
	xorl	%r9d, %r9d
.LBB36_291:
	movups	-392(%r13,%r11), %xmm0
	movups	-376(%r13,%r11), %xmm1
	movups	-360(%r13,%r11), %xmm2
	movq	-344(%r13,%r11), %rdi
	movq	%rdi, -344(%rcx,%r11)
	movups	%xmm2, -360(%rcx,%r11)
	movups	%xmm1, -376(%rcx,%r11)
	movups	%xmm0, -392(%rcx,%r11)
	movups	-336(%r13,%r11), %xmm0
	movups	-320(%r13,%r11), %xmm1
	movups	-304(%r13,%r11), %xmm2
	movq	-288(%r13,%r11), %rdi
	movq	%rdi, -288(%rcx,%r11)
	movups	%xmm2, -304(%rcx,%r11)
	movups	%xmm1, -320(%rcx,%r11)
	movups	%xmm0, -336(%rcx,%r11)
	movups	-280(%r13,%r11), %xmm0
	movups	-264(%r13,%r11), %xmm1
	movups	-248(%r13,%r11), %xmm2
	movq	-232(%r13,%r11), %rdi
	movq	%rdi, -232(%rcx,%r11)
	movups	%xmm2, -248(%rcx,%r11)
	movups	%xmm1, -264(%rcx,%r11)
	movups	%xmm0, -280(%rcx,%r11)
	movups	-224(%r13,%r11), %xmm0
	movups	-208(%r13,%r11), %xmm1
	movups	-192(%r13,%r11), %xmm2
	movq	-176(%r13,%r11), %rdi
	movq	%rdi, -176(%rcx,%r11)
	movups	%xmm2, -192(%rcx,%r11)
	movups	%xmm1, -208(%rcx,%r11)
	movups	%xmm0, -224(%rcx,%r11)
	movups	-168(%r13,%r11), %xmm0
	movups	-152(%r13,%r11), %xmm1
	movups	-136(%r13,%r11), %xmm2
	movq	-120(%r13,%r11), %rdi
	movq	%rdi, -120(%rcx,%r11)
	movups	%xmm2, -136(%rcx,%r11)
	movups	%xmm1, -152(%rcx,%r11)
	movups	%xmm0, -168(%rcx,%r11)
	movups	-112(%r13,%r11), %xmm0
	movups	-96(%r13,%r11), %xmm1
	movups	-80(%r13,%r11), %xmm2
	movq	-64(%r13,%r11), %rdi
	movq	%rdi, -64(%rcx,%r11)
	movups	%xmm2, -80(%rcx,%r11)
	movups	%xmm1, -96(%rcx,%r11)
	movups	%xmm0, -112(%rcx,%r11)
	movups	-56(%r13,%r11), %xmm0
	movups	-40(%r13,%r11), %xmm1
	movups	-24(%r13,%r11), %xmm2
	movq	-8(%r13,%r11), %rdi
	movq	%rdi, -8(%rcx,%r11)
	movups	%xmm2, -24(%rcx,%r11)
	movups	%xmm1, -40(%rcx,%r11)
	movups	%xmm0, -56(%rcx,%r11)
	movups	(%r13,%r11), %xmm0
	movups	16(%r13,%r11), %xmm1
	movups	32(%r13,%r11), %xmm2
	movq	48(%r13,%r11), %rdi
	movq	%rdi, 48(%rcx,%r11)
	movups	%xmm2, 32(%rcx,%r11)
	movups	%xmm1, 16(%rcx,%r11)
	movups	%xmm0, (%rcx,%r11)
	addq	$8, %r9
	addq	$448, %r11
	cmpq	%r9, %r10
	jne	.LBB36_291
	testq	%r8, %r8
	je	.LBB36_295
.LBB36_293:
	imulq	$56, %r9, %r9
	leaq	(%r9,%r13), %rcx
	addq	%r9, %rdx
	addq	%rdx, %rax
	imulq	$56, %r8, %rdx
	xorl	%r8d, %r8d
.LBB36_294:
	movups	(%rcx,%r8), %xmm0
	movups	16(%rcx,%r8), %xmm1
	movups	32(%rcx,%r8), %xmm2
	movq	48(%rcx,%r8), %r9
	movq	%r9, 48(%rax,%r8)
	movups	%xmm2, 32(%rax,%r8)
	movups	%xmm1, 16(%rax,%r8)
	movups	%xmm0, (%rax,%r8)
	addq	$56, %r8
	cmpq	%r8, %rdx
	jne	.LBB36_294
.LBB36_295:
	movq	304(%rsp), %rax
	addq	16(%rax), %rbx
	movq	24(%rax), %r14
	movq	%rbx, %rcx
.LBB36_296:
	leaq	-1(%rsi), %rax
	movq	80(%rsp), %rdx
	movq	(%rdx), %r15
	imulq	$56, %rax, %rdx
	leaq	-1(%rcx), %r10
	movq	%rcx, %rax
	subq	%rsi, %rax
	movq	%rsi, %r8
	xorps	%xmm0, %xmm0
	movq	408(%rsp), %r9
	movups	%xmm0, (%r9)
	movq	(%r15,%rdx), %rbp
	movq	16(%r15,%rdx), %r9
	movq	32(%r15,%rdx), %rdi
	movq	48(%r15,%rdx), %rbx
	subq	$1, %r8
	movq	%r9, 56(%rsp)
	jae	.LBB36_300
	testq	%rcx, %rcx
	je	.LBB36_318
	movl	%ecx, %r8d
	andl	$3, %r8d
	cmpq	$4, %rcx
	jae	.LBB36_310
	xorl	%r9d, %r9d
	jmp	.LBB36_313
.LBB36_300:
	cmpq	$37, %rax
	jb	.LBB36_316
	movq	%r10, 64(%rsp)
	movl	$1, %r8d
	subq	%rsi, %r8
	leaq	1960(%r15), %r9
	jmp	.LBB36_304
.LBB36_302:
	movq	104(%r9,%rdx), %r11
	movq	%r11, 48(%r9,%rdx)
	movups	56(%r9,%rdx), %xmm0
	movups	72(%r9,%rdx), %xmm1
	movups	88(%r9,%rdx), %xmm2
	movups	%xmm2, 32(%r9,%rdx)
	movups	%xmm1, 16(%r9,%rdx)
	movups	%xmm0, (%r9,%rdx)
	movups	%xmm0, -56(%r9,%rdx)
	movups	%xmm1, -40(%r9,%rdx)
	movups	%xmm2, -24(%r9,%rdx)
	movq	%r11, -8(%r9,%rdx)
	movups	%xmm0, -112(%r9,%rdx)
	movups	%xmm1, -96(%r9,%rdx)
	movups	%xmm2, -80(%r9,%rdx)
	movq	%r11, -64(%r9,%rdx)
	movups	%xmm0, -168(%r9,%rdx)
	movups	%xmm1, -152(%r9,%rdx)
	movups	%xmm2, -136(%r9,%rdx)
	movq	%r11, -120(%r9,%rdx)
	movq	104(%r9,%rdx), %r11
	movq	%r11, -176(%r9,%rdx)
	movups	56(%r9,%rdx), %xmm0
	movups	72(%r9,%rdx), %xmm1
	movups	88(%r9,%rdx), %xmm2
	movups	%xmm2, -192(%r9,%rdx)
	movups	%xmm1, -208(%r9,%rdx)
	movups	%xmm0, -224(%r9,%rdx)
	movq	%r11, -232(%r9,%rdx)
	movups	%xmm2, -248(%r9,%rdx)
	movups	%xmm1, -264(%r9,%rdx)
	movups	%xmm0, -280(%r9,%rdx)
	movq	%r11, -288(%r9,%rdx)
	movups	%xmm2, -304(%r9,%rdx)
	movups	%xmm1, -320(%r9,%rdx)
	movups	%xmm0, -336(%r9,%rdx)
	movups	%xmm0, -392(%r9,%rdx)
	movups	%xmm1, -376(%r9,%rdx)
	movups	%xmm2, -360(%r9,%rdx)
	movq	%r11, -344(%r9,%rdx)
	movq	104(%r9,%rdx), %r11
	movq	%r11, -400(%r9,%rdx)
	movups	56(%r9,%rdx), %xmm0
	movups	72(%r9,%rdx), %xmm1
	movups	88(%r9,%rdx), %xmm2
	movups	%xmm2, -416(%r9,%rdx)
	movups	%xmm1, -432(%r9,%rdx)
	movups	%xmm0, -448(%r9,%rdx)
	movq	%r11, -456(%r9,%rdx)
	movups	%xmm2, -472(%r9,%rdx)
	movups	%xmm1, -488(%r9,%rdx)
	movups	%xmm0, -504(%r9,%rdx)
	movups	%xmm2, -528(%r9,%rdx)
	movq	%r11, -512(%r9,%rdx)
	movups	%xmm1, -544(%r9,%rdx)
	movups	%xmm0, -560(%r9,%rdx)
	movups	%xmm0, -616(%r9,%rdx)
	movups	%xmm1, -600(%r9,%rdx)
	movups	%xmm2, -584(%r9,%rdx)
	movq	%r11, -568(%r9,%rdx)
	movq	104(%r9,%rdx), %r11
	movq	%r11, -624(%r9,%rdx)
	movups	56(%r9,%rdx), %xmm0
	movups	72(%r9,%rdx), %xmm1
	movups	88(%r9,%rdx), %xmm2
	movups	%xmm2, -640(%r9,%rdx)
	movups	%xmm1, -656(%r9,%rdx)
	movups	%xmm0, -672(%r9,%rdx)
	movq	%r11, -680(%r9,%rdx)
	movups	%xmm2, -696(%r9,%rdx)
	movups	%xmm1, -712(%r9,%rdx)
	movups	%xmm0, -728(%r9,%rdx)
	movups	%xmm1, -768(%r9,%rdx)
	movq	%r11, -736(%r9,%rdx)
	movups	%xmm2, -752(%r9,%rdx)
	movups	%xmm0, -784(%r9,%rdx)
	movups	%xmm0, -840(%r9,%rdx)
	movups	%xmm1, -824(%r9,%rdx)
	movups	%xmm2, -808(%r9,%rdx)
	movq	%r11, -792(%r9,%rdx)
	movq	104(%r9,%rdx), %r11
	movq	%r11, -848(%r9,%rdx)
	movups	56(%r9,%rdx), %xmm0
	movups	72(%r9,%rdx), %xmm1
	movups	88(%r9,%rdx), %xmm2
	movups	%xmm2, -864(%r9,%rdx)
	movups	%xmm1, -880(%r9,%rdx)
	movups	%xmm0, -896(%r9,%rdx)
	movq	%r11, -904(%r9,%rdx)
	movups	%xmm2, -920(%r9,%rdx)
	movups	%xmm1, -936(%r9,%rdx)
	movups	%xmm0, -952(%r9,%rdx)
	movq	%r11, -960(%r9,%rdx)
	movups	%xmm2, -976(%r9,%rdx)
	movups	%xmm1, -992(%r9,%rdx)
	movups	%xmm0, -1008(%r9,%rdx)
	movq	%r11, -1016(%r9,%rdx)
	movups	%xmm2, -1032(%r9,%rdx)
	movups	%xmm1, -1048(%r9,%rdx)
	movups	%xmm0, -1064(%r9,%rdx)
	movq	104(%r9,%rdx), %r11
	movq	%r11, -1072(%r9,%rdx)
	movups	56(%r9,%rdx), %xmm0
	movups	72(%r9,%rdx), %xmm1
	movups	88(%r9,%rdx), %xmm2
	movups	%xmm2, -1088(%r9,%rdx)
	movups	%xmm1, -1104(%r9,%rdx)
	movups	%xmm0, -1120(%r9,%rdx)
	movq	104(%r9,%rdx), %r11
	movq	%r11, -1128(%r9,%rdx)
	movups	56(%r9,%rdx), %xmm0
	movups	72(%r9,%rdx), %xmm1
	movups	88(%r9,%rdx), %xmm2
	movups	%xmm2, -1144(%r9,%rdx)
	movups	%xmm1, -1160(%r9,%rdx)
	movups	%xmm0, -1176(%r9,%rdx)
	movq	104(%r9,%rdx), %r11
	movq	%r11, -1184(%r9,%rdx)
	movups	56(%r9,%rdx), %xmm0
	movups	72(%r9,%rdx), %xmm1
	movups	88(%r9,%rdx), %xmm2
	movups	%xmm2, -1200(%r9,%rdx)
	movups	%xmm1, -1216(%r9,%rdx)
	movups	%xmm0, -1232(%r9,%rdx)
	movq	104(%r9,%rdx), %r11
	movq	%r11, -1240(%r9,%rdx)
	movups	56(%r9,%rdx), %xmm0
	movups	72(%r9,%rdx), %xmm1
	movups	88(%r9,%rdx), %xmm2
	movups	%xmm2, -1256(%r9,%rdx)
	movups	%xmm1, -1272(%r9,%rdx)
	movups	%xmm0, -1288(%r9,%rdx)
	movq	104(%r9,%rdx), %r11
	movq	%r11, -1296(%r9,%rdx)
	movups	56(%r9,%rdx), %xmm0
	movups	72(%r9,%rdx), %xmm1
	movups	88(%r9,%rdx), %xmm2
	movups	%xmm2, -1312(%r9,%rdx)
	movups	%xmm1, -1328(%r9,%rdx)
	movups	%xmm0, -1344(%r9,%rdx)
	movq	104(%r9,%rdx), %r11
	movq	%r11, -1352(%r9,%rdx)
	movups	56(%r9,%rdx), %xmm0
	movups	72(%r9,%rdx), %xmm1
	movups	88(%r9,%rdx), %xmm2
	movups	%xmm2, -1368(%r9,%rdx)
	movups	%xmm1, -1384(%r9,%rdx)
	movups	%xmm0, -1400(%r9,%rdx)
	movq	104(%r9,%rdx), %r11
	movq	%r11, -1408(%r9,%rdx)
	movups	56(%r9,%rdx), %xmm0
	movups	72(%r9,%rdx), %xmm1
	movups	88(%r9,%rdx), %xmm2
	movups	%xmm2, -1424(%r9,%rdx)
	movups	%xmm1, -1440(%r9,%rdx)
	movups	%xmm0, -1456(%r9,%rdx)
	movq	104(%r9,%rdx), %r11
	movq	%r11, -1464(%r9,%rdx)
	movups	56(%r9,%rdx), %xmm0
	movups	72(%r9,%rdx), %xmm1
	movups	88(%r9,%rdx), %xmm2
	movups	%xmm2, -1480(%r9,%rdx)
	movups	%xmm1, -1496(%r9,%rdx)
	movups	%xmm0, -1512(%r9,%rdx)
	movq	104(%r9,%rdx), %r11
	movq	%r11, -1520(%r9,%rdx)
	movups	56(%r9,%rdx), %xmm0
	movups	72(%r9,%rdx), %xmm1
	movups	88(%r9,%rdx), %xmm2
	movups	%xmm2, -1536(%r9,%rdx)
	movups	%xmm1, -1552(%r9,%rdx)
	movups	%xmm0, -1568(%r9,%rdx)
	movq	104(%r9,%rdx), %r11
	movq	%r11, -1576(%r9,%rdx)
	movups	56(%r9,%rdx), %xmm0
	movups	72(%r9,%rdx), %xmm1
	movups	88(%r9,%rdx), %xmm2
	movups	%xmm2, -1592(%r9,%rdx)
	movups	%xmm1, -1608(%r9,%rdx)
	movups	%xmm0, -1624(%r9,%rdx)
	movq	104(%r9,%rdx), %r11
	movq	%r11, -1632(%r9,%rdx)
	movups	56(%r9,%rdx), %xmm0
	movups	72(%r9,%rdx), %xmm1
	movups	88(%r9,%rdx), %xmm2
	movups	%xmm2, -1648(%r9,%rdx)
	movups	%xmm1, -1664(%r9,%rdx)
	movups	%xmm0, -1680(%r9,%rdx)
	movq	104(%r9,%rdx), %r11
	movq	%r11, -1688(%r9,%rdx)
	movups	56(%r9,%rdx), %xmm0
	movups	72(%r9,%rdx), %xmm1
	movups	88(%r9,%rdx), %xmm2
	movups	%xmm2, -1704(%r9,%rdx)
	movups	%xmm1, -1720(%r9,%rdx)
	movups	%xmm0, -1736(%r9,%rdx)
	movq	104(%r9,%rdx), %r11
	movq	%r11, -1744(%r9,%rdx)
	movups	56(%r9,%rdx), %xmm0
	movups	72(%r9,%rdx), %xmm1
	movups	88(%r9,%rdx), %xmm2
	movups	%xmm2, -1760(%r9,%rdx)
	movups	%xmm1, -1776(%r9,%rdx)
	movups	%xmm0, -1792(%r9,%rdx)
	movq	104(%r9,%rdx), %r11
	movq	%r11, -1800(%r9,%rdx)
	movups	56(%r9,%rdx), %xmm0
	movups	72(%r9,%rdx), %xmm1
	movups	88(%r9,%rdx), %xmm2
	movups	%xmm2, -1816(%r9,%rdx)
	movups	%xmm1, -1832(%r9,%rdx)
	movups	%xmm0, -1848(%r9,%rdx)
	movq	104(%r9,%rdx), %r11
	movq	%r11, 104(%r10)
	movups	56(%r9,%rdx), %xmm0
	movups	72(%r9,%rdx), %xmm1
	movups	88(%r9,%rdx), %xmm2
	movups	%xmm2, 88(%r10)
	movups	%xmm1, 72(%r10)
	movups	%xmm0, 56(%r10)
	movq	104(%r9,%rdx), %r11
	movq	%r11, 48(%r10)
	movups	56(%r9,%rdx), %xmm0
	movups	72(%r9,%rdx), %xmm1
	movups	88(%r9,%rdx), %xmm2
	movups	%xmm2, 32(%r10)
	movups	%xmm1, 16(%r10)
	movups	%xmm0, (%r10)
.LBB36_303:
	addq	$-36, %rax
	addq	$-36, %r8
	addq	$2016, %rdx
	cmpq	$36, %rax
	jbe	.LBB36_306
.LBB36_304:
	leaq	(%r9,%rdx), %r10
	addq	$-1960, %r10
	cmpq	$1, %r8
	je	.LBB36_302
	movq	104(%r10), %r11
	movq	%r11, 48(%r10)
	movups	56(%r10), %xmm0
	movups	72(%r10), %xmm1
	movups	88(%r10), %xmm2
	movups	%xmm2, 32(%r10)
	movups	%xmm1, 16(%r10)
	movups	%xmm0, (%r10)
	movq	-1800(%r9,%rdx), %r11
	movq	%r11, 104(%r10)
	movups	-1848(%r9,%rdx), %xmm0
	movups	-1832(%r9,%rdx), %xmm1
	movups	-1816(%r9,%rdx), %xmm2
	movups	%xmm2, 88(%r10)
	movups	%xmm1, 72(%r10)
	movups	%xmm0, 56(%r10)
	movq	-1744(%r9,%rdx), %r10
	movq	%r10, -1800(%r9,%rdx)
	movups	-1792(%r9,%rdx), %xmm0
	movups	-1776(%r9,%rdx), %xmm1
	movups	-1760(%r9,%rdx), %xmm2
	movups	%xmm2, -1816(%r9,%rdx)
	movups	%xmm1, -1832(%r9,%rdx)
	movups	%xmm0, -1848(%r9,%rdx)
	movups	-1736(%r9,%rdx), %xmm0
	movups	%xmm0, -1792(%r9,%rdx)
	movq	-1688(%r9,%rdx), %r10
	movq	%r10, -1744(%r9,%rdx)
	movups	-1704(%r9,%rdx), %xmm0
	movups	%xmm0, -1760(%r9,%rdx)
	movups	-1720(%r9,%rdx), %xmm0
	movups	%xmm0, -1776(%r9,%rdx)
	movq	-1632(%r9,%rdx), %r10
	movq	%r10, -1688(%r9,%rdx)
	movups	-1680(%r9,%rdx), %xmm0
	movups	-1664(%r9,%rdx), %xmm1
	movups	-1648(%r9,%rdx), %xmm2
	movups	%xmm2, -1704(%r9,%rdx)
	movups	%xmm1, -1720(%r9,%rdx)
	movups	%xmm0, -1736(%r9,%rdx)
	movq	-1576(%r9,%rdx), %r10
	movq	%r10, -1632(%r9,%rdx)
	movups	-1624(%r9,%rdx), %xmm0
	movups	-1608(%r9,%rdx), %xmm1
	movups	-1592(%r9,%rdx), %xmm2
	movups	%xmm2, -1648(%r9,%rdx)
	movups	%xmm1, -1664(%r9,%rdx)
	movups	%xmm0, -1680(%r9,%rdx)
	movq	-1520(%r9,%rdx), %r10
	movq	%r10, -1576(%r9,%rdx)
	movups	-1568(%r9,%rdx), %xmm0
	movups	-1552(%r9,%rdx), %xmm1
	movups	-1536(%r9,%rdx), %xmm2
	movups	%xmm2, -1592(%r9,%rdx)
	movups	%xmm1, -1608(%r9,%rdx)
	movups	%xmm0, -1624(%r9,%rdx)
	movq	-1464(%r9,%rdx), %r10
	movq	%r10, -1520(%r9,%rdx)
	movups	-1512(%r9,%rdx), %xmm0
	movups	-1496(%r9,%rdx), %xmm1
	movups	-1480(%r9,%rdx), %xmm2
	movups	%xmm2, -1536(%r9,%rdx)
	movups	%xmm1, -1552(%r9,%rdx)
	movups	%xmm0, -1568(%r9,%rdx)
	movq	-1408(%r9,%rdx), %r10
	movq	%r10, -1464(%r9,%rdx)
	movups	-1456(%r9,%rdx), %xmm0
	movups	-1440(%r9,%rdx), %xmm1
	movups	-1424(%r9,%rdx), %xmm2
	movups	%xmm2, -1480(%r9,%rdx)
	movups	%xmm1, -1496(%r9,%rdx)
	movups	%xmm0, -1512(%r9,%rdx)
	movq	-1352(%r9,%rdx), %r10
	movq	%r10, -1408(%r9,%rdx)
	movups	-1400(%r9,%rdx), %xmm0
	movups	-1384(%r9,%rdx), %xmm1
	movups	-1368(%r9,%rdx), %xmm2
	movups	%xmm2, -1424(%r9,%rdx)
	movups	%xmm1, -1440(%r9,%rdx)
	movups	%xmm0, -1456(%r9,%rdx)
	movq	-1296(%r9,%rdx), %r10
	movq	%r10, -1352(%r9,%rdx)
	movups	-1344(%r9,%rdx), %xmm0
	movups	-1328(%r9,%rdx), %xmm1
	movups	-1312(%r9,%rdx), %xmm2
	movups	%xmm2, -1368(%r9,%rdx)
	movups	%xmm1, -1384(%r9,%rdx)
	movups	%xmm0, -1400(%r9,%rdx)
	movq	-1240(%r9,%rdx), %r10
	movq	%r10, -1296(%r9,%rdx)
	movups	-1288(%r9,%rdx), %xmm0
	movups	-1272(%r9,%rdx), %xmm1
	movups	-1256(%r9,%rdx), %xmm2
	movups	%xmm2, -1312(%r9,%rdx)
	movups	%xmm1, -1328(%r9,%rdx)
	movups	%xmm0, -1344(%r9,%rdx)
	movq	-1184(%r9,%rdx), %r10
	movq	%r10, -1240(%r9,%rdx)
	movups	-1232(%r9,%rdx), %xmm0
	movups	-1216(%r9,%rdx), %xmm1
	movups	-1200(%r9,%rdx), %xmm2
	movups	%xmm2, -1256(%r9,%rdx)
	movups	%xmm1, -1272(%r9,%rdx)
	movups	%xmm0, -1288(%r9,%rdx)
	movq	-1128(%r9,%rdx), %r10
	movq	%r10, -1184(%r9,%rdx)
	movups	-1176(%r9,%rdx), %xmm0
	movups	-1160(%r9,%rdx), %xmm1
	movups	-1144(%r9,%rdx), %xmm2
	movups	%xmm2, -1200(%r9,%rdx)
	movups	%xmm1, -1216(%r9,%rdx)
	movups	%xmm0, -1232(%r9,%rdx)
	movq	-1072(%r9,%rdx), %r10
	movq	%r10, -1128(%r9,%rdx)
	movups	-1120(%r9,%rdx), %xmm0
	movups	-1104(%r9,%rdx), %xmm1
	movups	-1088(%r9,%rdx), %xmm2
	movups	%xmm2, -1144(%r9,%rdx)
	movups	%xmm1, -1160(%r9,%rdx)
	movups	%xmm0, -1176(%r9,%rdx)
	movq	-1016(%r9,%rdx), %r10
	movq	%r10, -1072(%r9,%rdx)
	movups	-1064(%r9,%rdx), %xmm0
	movups	-1048(%r9,%rdx), %xmm1
	movups	-1032(%r9,%rdx), %xmm2
	movups	%xmm2, -1088(%r9,%rdx)
	movups	%xmm1, -1104(%r9,%rdx)
	movups	%xmm0, -1120(%r9,%rdx)
	movq	-960(%r9,%rdx), %r10
	movq	%r10, -1016(%r9,%rdx)
	movups	-1008(%r9,%rdx), %xmm0
	movups	-992(%r9,%rdx), %xmm1
	movups	-976(%r9,%rdx), %xmm2
	movups	%xmm2, -1032(%r9,%rdx)
	movups	%xmm1, -1048(%r9,%rdx)
	movups	%xmm0, -1064(%r9,%rdx)
	movq	-904(%r9,%rdx), %r10
	movq	%r10, -960(%r9,%rdx)
	movups	-952(%r9,%rdx), %xmm0
	movups	-936(%r9,%rdx), %xmm1
	movups	-920(%r9,%rdx), %xmm2
	movups	%xmm2, -976(%r9,%rdx)
	movups	%xmm1, -992(%r9,%rdx)
	movups	%xmm0, -1008(%r9,%rdx)
	movq	-848(%r9,%rdx), %r10
	movq	%r10, -904(%r9,%rdx)
	movups	-896(%r9,%rdx), %xmm0
	movups	-880(%r9,%rdx), %xmm1
	movups	-864(%r9,%rdx), %xmm2
	movups	%xmm2, -920(%r9,%rdx)
	movups	%xmm1, -936(%r9,%rdx)
	movups	%xmm0, -952(%r9,%rdx)
	movq	-792(%r9,%rdx), %r10
	movq	%r10, -848(%r9,%rdx)
	movups	-840(%r9,%rdx), %xmm0
	movups	-824(%r9,%rdx), %xmm1
	movups	-808(%r9,%rdx), %xmm2
	movups	%xmm2, -864(%r9,%rdx)
	movups	%xmm1, -880(%r9,%rdx)
	movups	%xmm0, -896(%r9,%rdx)
	movq	-736(%r9,%rdx), %r10
	movq	%r10, -792(%r9,%rdx)
	movups	-784(%r9,%rdx), %xmm0
	movups	-768(%r9,%rdx), %xmm1
	movups	-752(%r9,%rdx), %xmm2
	movups	%xmm2, -808(%r9,%rdx)
	movups	%xmm1, -824(%r9,%rdx)
	movups	%xmm0, -840(%r9,%rdx)
	movq	-680(%r9,%rdx), %r10
	movq	%r10, -736(%r9,%rdx)
	movups	-728(%r9,%rdx), %xmm0
	movups	-712(%r9,%rdx), %xmm1
	movups	-696(%r9,%rdx), %xmm2
	movups	%xmm2, -752(%r9,%rdx)
	movups	%xmm1, -768(%r9,%rdx)
	movups	%xmm0, -784(%r9,%rdx)
	movq	-624(%r9,%rdx), %r10
	movq	%r10, -680(%r9,%rdx)
	movups	-672(%r9,%rdx), %xmm0
	movups	-656(%r9,%rdx), %xmm1
	movups	-640(%r9,%rdx), %xmm2
	movups	%xmm2, -696(%r9,%rdx)
	movups	%xmm1, -712(%r9,%rdx)
	movups	%xmm0, -728(%r9,%rdx)
	movq	-568(%r9,%rdx), %r10
	movq	%r10, -624(%r9,%rdx)
	movups	-616(%r9,%rdx), %xmm0
	movups	-600(%r9,%rdx), %xmm1
	movups	-584(%r9,%rdx), %xmm2
	movups	%xmm2, -640(%r9,%rdx)
	movups	%xmm1, -656(%r9,%rdx)
	movups	%xmm0, -672(%r9,%rdx)
	movq	-512(%r9,%rdx), %r10
	movq	%r10, -568(%r9,%rdx)
	movups	-560(%r9,%rdx), %xmm0
	movups	-544(%r9,%rdx), %xmm1
	movups	-528(%r9,%rdx), %xmm2
	movups	%xmm2, -584(%r9,%rdx)
	movups	%xmm1, -600(%r9,%rdx)
	movups	%xmm0, -616(%r9,%rdx)
	movq	-456(%r9,%rdx), %r10
	movq	%r10, -512(%r9,%rdx)
	movups	-504(%r9,%rdx), %xmm0
	movups	-488(%r9,%rdx), %xmm1
	movups	-472(%r9,%rdx), %xmm2
	movups	%xmm2, -528(%r9,%rdx)
	movups	%xmm1, -544(%r9,%rdx)
	movups	%xmm0, -560(%r9,%rdx)
	movq	-400(%r9,%rdx), %r10
	movq	%r10, -456(%r9,%rdx)
	movups	-448(%r9,%rdx), %xmm0
	movups	-432(%r9,%rdx), %xmm1
	movups	-416(%r9,%rdx), %xmm2
	movups	%xmm2, -472(%r9,%rdx)
	movups	%xmm1, -488(%r9,%rdx)
	movups	%xmm0, -504(%r9,%rdx)
	movq	-344(%r9,%rdx), %r10
	movq	%r10, -400(%r9,%rdx)
	movups	-392(%r9,%rdx), %xmm0
	movups	-376(%r9,%rdx), %xmm1
	movups	-360(%r9,%rdx), %xmm2
	movups	%xmm2, -416(%r9,%rdx)
	movups	%xmm1, -432(%r9,%rdx)
	movups	%xmm0, -448(%r9,%rdx)
	movq	-288(%r9,%rdx), %r10
	movq	%r10, -344(%r9,%rdx)
	movups	-336(%r9,%rdx), %xmm0
	movups	-320(%r9,%rdx), %xmm1
	movups	-304(%r9,%rdx), %xmm2
	movups	%xmm2, -360(%r9,%rdx)
	movups	%xmm1, -376(%r9,%rdx)
	movups	%xmm0, -392(%r9,%rdx)
	movq	-232(%r9,%rdx), %r10
	movq	%r10, -288(%r9,%rdx)
	movups	-280(%r9,%rdx), %xmm0
	movups	-264(%r9,%rdx), %xmm1
	movups	-248(%r9,%rdx), %xmm2
	movups	%xmm2, -304(%r9,%rdx)
	movups	%xmm1, -320(%r9,%rdx)
	movups	%xmm0, -336(%r9,%rdx)
	movq	-176(%r9,%rdx), %r10
	movq	%r10, -232(%r9,%rdx)
	movups	-224(%r9,%rdx), %xmm0
	movups	-208(%r9,%rdx), %xmm1
	movups	-192(%r9,%rdx), %xmm2
	movups	%xmm2, -248(%r9,%rdx)
	movups	%xmm1, -264(%r9,%rdx)
	movups	%xmm0, -280(%r9,%rdx)
	movq	-120(%r9,%rdx), %r10
	movq	%r10, -176(%r9,%rdx)
	movups	-168(%r9,%rdx), %xmm0
	movups	-152(%r9,%rdx), %xmm1
	movups	-136(%r9,%rdx), %xmm2
	movups	%xmm2, -192(%r9,%rdx)
	movups	%xmm1, -208(%r9,%rdx)
	movups	%xmm0, -224(%r9,%rdx)
	movq	-64(%r9,%rdx), %r10
	movq	%r10, -120(%r9,%rdx)
	movups	-112(%r9,%rdx), %xmm0
	movups	-96(%r9,%rdx), %xmm1
	movups	-80(%r9,%rdx), %xmm2
	movups	%xmm2, -136(%r9,%rdx)
	movups	%xmm1, -152(%r9,%rdx)
	movups	%xmm0, -168(%r9,%rdx)
	movq	-8(%r9,%rdx), %r10
	movq	%r10, -64(%r9,%rdx)
	movups	-56(%r9,%rdx), %xmm0
	movups	-40(%r9,%rdx), %xmm1
	movups	-24(%r9,%rdx), %xmm2
	movups	%xmm2, -80(%r9,%rdx)
	movups	%xmm1, -96(%r9,%rdx)
	movups	%xmm0, -112(%r9,%rdx)
	movq	48(%r9,%rdx), %r10
	movq	%r10, -8(%r9,%rdx)
	movups	(%r9,%rdx), %xmm0
	movups	16(%r9,%rdx), %xmm1
	movups	32(%r9,%rdx), %xmm2
	movups	%xmm2, -24(%r9,%rdx)
	movups	%xmm1, -40(%r9,%rdx)
	movups	%xmm0, -56(%r9,%rdx)
	movq	104(%r9,%rdx), %r10
	movq	%r10, 48(%r9,%rdx)
	movups	56(%r9,%rdx), %xmm0
	movups	72(%r9,%rdx), %xmm1
	movups	88(%r9,%rdx), %xmm2
	movups	%xmm2, 32(%r9,%rdx)
	movups	%xmm1, 16(%r9,%rdx)
	movups	%xmm0, (%r9,%rdx)
	jmp	.LBB36_303
.LBB36_306:
	cmpq	$1, %r8
	jne	.LBB36_315
	testq	%rcx, %rcx
	leaq	-1(%rcx), %r10
	je	.LBB36_318
	imulq	$56, %rcx, %rcx
	addq	%r15, %rcx
	addq	$-56, %rcx
.LBB36_309:
	movq	48(%rcx), %rdx
	movq	%rdx, -8(%rcx)
	movups	(%rcx), %xmm0
	movups	16(%rcx), %xmm1
	movups	32(%rcx), %xmm2
	movups	%xmm2, -24(%rcx)
	movups	%xmm1, -40(%rcx)
	movups	%xmm0, -56(%rcx)
	addq	$-56, %rcx
	decq	%rax
	jne	.LBB36_309
	jmp	.LBB36_318
.LBB36_310:
	movq	%rbp, 104(%rsp)
	movq	%rbx, 120(%rsp)
	movq	%rdi, 64(%rsp)
	movq	%r12, %rbx
	addq	%r15, %rdx
	imulq	$-56, %rsi, %r10
	imulq	$56, %rcx, %r9
	leaq	(%r9,%r15), %r11
	addq	$-112, %r11
	movq	%rcx, %rdi
	andq	$-4, %rdi
	subq	%rsi, %rdi
	xorl	%r9d, %r9d
.LBB36_311:
	movups	56(%r11,%r10), %xmm0
	movups	72(%r11,%r10), %xmm1
	movups	88(%r11,%r10), %xmm2
	movq	104(%r11,%r10), %rbp
	movq	%rbp, 48(%r11)
	movups	%xmm2, 32(%r11)
	movups	%xmm1, 16(%r11)
	movups	%xmm0, (%r11)
	movabsq	$2305843009213693950, %rbp
	xorq	%r9, %rbp
	addq	%rax, %rbp
	imulq	$56, %rbp, %rbp
	movups	(%r15,%rbp), %xmm0
	movups	16(%r15,%rbp), %xmm1
	movups	32(%r15,%rbp), %xmm2
	movq	48(%r15,%rbp), %r12
	movq	%r12, 48(%rdx,%rbp)
	movups	%xmm2, 32(%rdx,%rbp)
	movups	%xmm1, 16(%rdx,%rbp)
	movups	%xmm0, (%rdx,%rbp)
	movabsq	$2305843009213693949, %r12
	xorq	%r9, %r12
	addq	%rax, %r12
	imulq	$56, %r12, %r12
	movups	(%r15,%r12), %xmm0
	movups	16(%r15,%r12), %xmm1
	movups	32(%r15,%r12), %xmm2
	movq	48(%r15,%r12), %rbp
	movq	%rbp, 48(%rdx,%r12)
	movups	%xmm2, 32(%rdx,%r12)
	movups	%xmm1, 16(%rdx,%r12)
	movups	%xmm0, (%rdx,%r12)
	movabsq	$2305843009213693948, %r12
	xorq	%r9, %r12
	addq	%rax, %r12
	imulq	$56, %r12, %r12
	movups	(%r15,%r12), %xmm0
	movups	16(%r15,%r12), %xmm1
	movups	32(%r15,%r12), %xmm2
	movq	48(%r15,%r12), %rbp
	movq	%rbp, 48(%rdx,%r12)
	movups	%xmm2, 32(%rdx,%r12)
	movups	%xmm1, 16(%rdx,%r12)
	movups	%xmm0, (%rdx,%r12)
	addq	$4, %r9
	addq	$-224, %r11
	cmpq	%r9, %rdi
	jne	.LBB36_311
	testq	%r8, %r8
	movq	%rbx, %r12
	movq	64(%rsp), %rdi
	movq	120(%rsp), %rbx
	movq	104(%rsp), %rbp
	leaq	-1(%rcx), %r10
	je	.LBB36_318
.LBB36_313:
	imulq	$56, %rcx, %rcx
	addq	%r9, %rsi
	imulq	$56, %rsi, %rax
	movq	%rcx, %rdx
	subq	%rax, %rdx
	leaq	(%r15,%rdx), %rax
	addq	$-56, %rax
	imulq	$56, %r9, %rdx
	subq	%rdx, %rcx
	addq	%r15, %rcx
	addq	$-112, %rcx
	imulq	$56, %r8, %rdx
	xorl	%r8d, %r8d
.LBB36_314:
	movups	(%rax,%r8), %xmm0
	movups	16(%rax,%r8), %xmm1
	movups	32(%rax,%r8), %xmm2
	movq	48(%rax,%r8), %r9
	movq	%r9, 48(%rcx,%r8)
	movups	%xmm2, 32(%rcx,%r8)
	movups	%xmm1, 16(%rcx,%r8)
	movups	%xmm0, (%rcx,%r8)
	addq	$-56, %r8
	movq	%rdx, %r9
	addq	%r8, %r9
	jne	.LBB36_314
	jmp	.LBB36_318
.LBB36_315:
	negq	%r8
	movq	64(%rsp), %r10
.LBB36_316:
	cmpq	%r8, %r10
	je	.LBB36_318
	leaq	(%r15,%rdx), %rcx
	addq	%r15, %rdx
	addq	$56, %rdx
	imulq	$56, %rax, %r8
	movq	%r10, %rsi
	callq	memmove
	movq	%rsi, %r10
.LBB36_318:
	movq	304(%rsp), %rax
	movq	%r15, 8(%rax)
	movq	%r10, 16(%rax)
	movq	%r14, 24(%rax)
	cmpq	$0, 56(%rsp)
	je	.LBB36_320
	movq	%rbp, %rcx
	callq	yurewha_heap_dealloc
.LBB36_320:
	testq	%rbx, %rbx
	movq	112(%rsp), %r15
	movq	80(%rsp), %rbx
	je	.LBB36_322
	movq	%rdi, %rcx
	callq	yurewha_heap_dealloc
.LBB36_322:
	testq	%r12, %r12
	je	.LBB36_324
	movq	%r13, %rcx
	callq	yurewha_heap_dealloc
.LBB36_324:
	movq	72(%rsp), %r13
	testq	%r13, %r13
	jne	.LBB36_220
.LBB36_325:
	cmpb	$0, 88(%rsp)
	jne	.LBB36_327
	movq	%r15, %rcx
	callq	yurewha_heap_dealloc
.LBB36_327:
	movq	224(%rsp), %rcx
	andb	$1, %cl
	movq	304(%rsp), %rax
	movb	%cl, (%rax)
	movl	100(%rsp), %ecx
	andb	$1, %cl
	movb	%cl, 1(%rax)
	movq	776(%rsp), %rcx
	movq	%rcx, 32(%rax)
	movq	232(%rsp), %rax
	movw	$0, (%rax)
	movb	$0, 2(%rax)
	movaps	480(%rsp), %xmm0
	movups	%xmm0, 16(%rax)
	jmp	.LBB36_274
.LBB36_328:
	leaq	240(%rsp), %rcx
	movq	%r12, %rdx
	callq	"std_alloc::vec::Vec::grow_amortized::<#1ed62de40e111fb4>"
	testb	%al, %al
	je	.LBB36_334
	movq	248(%rsp), %rcx
	movq	256(%rsp), %r10
	jmp	.LBB36_243
.LBB36_330:
	movq	80(%rsp), %rcx
	movq	%rbx, %rdx
	callq	"std_alloc::vec::Vec::grow_amortized::<#62557648214f1014>"
	testb	%al, %al
	je	.LBB36_336
	movq	408(%rsp), %rax
	movq	(%rax), %rdx
	jmp	.LBB36_171
.LBB36_332:
	leaq	240(%rsp), %rcx
	movq	%r11, %rdx
	callq	"std_alloc::vec::Vec::grow_amortized::<#1ed62de40e111fb4>"
	testb	%al, %al
	je	.LBB36_334
	movq	240(%rsp), %rdx
	movq	248(%rsp), %rax
	movq	256(%rsp), %r10
	leaq	(%r12,%r15), %r11
	leaq	(%rax,%r11), %rcx
	cmpq	%rcx, %rax
	jb	.LBB36_200
	jmp	.LBB36_205
.LBB36_334:
	cmpq	$0, 256(%rsp)
	je	.LBB36_133
	movq	240(%rsp), %rcx
	callq	yurewha_heap_dealloc
	jmp	.LBB36_133
.LBB36_336:
	leaq	48(%r13), %rsi
	jmp	.LBB36_338
.LBB36_337:
	addq	$56, %rsi
	decq	%rbx
	je	.LBB36_342
.LBB36_338:
	movq	-16(%rsi), %r14
	movq	(%rsi), %rdi
	cmpq	$0, -32(%rsi)
	je	.LBB36_340
	movq	-48(%rsi), %rcx
	callq	yurewha_heap_dealloc
.LBB36_340:
	testq	%rdi, %rdi
	je	.LBB36_337
	movq	%r14, %rcx
	callq	yurewha_heap_dealloc
	jmp	.LBB36_337
.LBB36_342:
	testq	%r12, %r12
	je	.LBB36_344
	movq	%r13, %rcx
	callq	yurewha_heap_dealloc
.LBB36_344:
	movq	72(%rsp), %rdi
	testq	%rdi, %rdi
	movq	112(%rsp), %rbx
	je	.LBB36_349
	leaq	16(%rbx), %rsi
	jmp	.LBB36_347
.LBB36_346:
	addq	$24, %rsi
	decq	%rdi
	je	.LBB36_349
.LBB36_347:
	cmpq	$0, (%rsi)
	je	.LBB36_346
	movq	-16(%rsi), %rcx
	callq	yurewha_heap_dealloc
	jmp	.LBB36_346
.LBB36_349:
	cmpq	$0, 64(%rsp)
	movq	232(%rsp), %rsi
	je	.LBB36_272
	movq	%rbx, %rcx
	jmp	.LBB36_271
.LBB36_351:
	movq	%r15, 56(%rsp)
	leaq	48(%rsp), %r14
.LBB36_352:
	movq	%r14, 328(%rsp)
	movq	$0, 336(%rsp)
	movq	%rbx, 344(%rsp)
	cmpq	$576, %rsi
	movl	$576, %r15d
	cmovbq	%rsi, %r15
	testq	%rsi, %rsi
	je	.LBB36_364
	leaq	(,%r15,8), %rax
	leaq	(%rax,%rax,4), %rcx
	movl	$8, %edx
	callq	in_registers_of_rattle_alloc
	testb	$1, %al
	je	.LBB36_369
	movq	%rdx, %r12
	movq	%rdx, 192(%rsp)
	movq	%r15, 208(%rsp)
	cmpq	$577, %rsi
	jb	.LBB36_375
.LBB36_355:
	movq	$0, 200(%rsp)
	xorl	%r8d, %r8d
	xorl	%ebx, %ebx
	jmp	.LBB36_357
.LBB36_356:
	leaq	(%r8,%r8,4), %rax
	movq	640(%rsp), %rcx
	movq	%rcx, 32(%r12,%rax,8)
	movaps	608(%rsp), %xmm0
	movaps	624(%rsp), %xmm1
	movups	%xmm1, 16(%r12,%rax,8)
	movups	%xmm0, (%r12,%rax,8)
	incq	%r8
	movq	%r8, 200(%rsp)
	addq	$40, %rbx
	cmpq	$23040, %rbx
	je	.LBB36_360
.LBB36_357:
	movq	32(%rdi,%rbx), %rax
	movq	%rax, 640(%rsp)
	movups	(%rdi,%rbx), %xmm0
	movups	16(%rdi,%rbx), %xmm1
	movaps	%xmm1, 624(%rsp)
	movaps	%xmm0, 608(%rsp)
	cmpq	%r8, 208(%rsp)
	jne	.LBB36_356
	leaq	192(%rsp), %rcx
	movl	$1, %edx
	callq	"std_alloc::vec::Vec::grow_amortized::<#1ed62de40e111fb4>"
	testb	%al, %al
	je	.LBB36_381
	movq	192(%rsp), %r12
	movq	200(%rsp), %r8
	jmp	.LBB36_356
.LBB36_360:
	leaq	328(%rsp), %rcx
	leaq	480(%rsp), %r9
	movq	%r12, %rdx
	callq	"xet_roots::aggregated_hashes::push_first_parents::<#135fa06c802d8a86>"
	testb	%al, %al
	jne	.LBB36_383
	leaq	(%rdx,%rdx,4), %rax
	leaq	(%rdi,%rax,8), %rdi
	movq	%rsi, %rax
	subq	%rdx, %rax
	movq	%rax, %rsi
	cmpq	$576, %rax
	ja	.LBB36_355
	movq	$0, 200(%rsp)
	testq	%rsi, %rsi
	jne	.LBB36_376
	jmp	.LBB36_365
.LBB36_364:
	leaq	48(%rsp), %rax
	movq	%rax, 192(%rsp)
	movq	%r15, 208(%rsp)
.LBB36_365:
	xorl	%r8d, %r8d
.LBB36_366:
	movq	192(%rsp), %r14
	leaq	328(%rsp), %rcx
	leaq	480(%rsp), %rbx
	movq	%r14, %rdx
	movq	%rbx, %r9
	callq	"xet_roots::aggregated_hashes::push_parents::<#135fa06c802d8a86>"
	movq	208(%rsp), %rcx
	testb	%al, %al
	je	.LBB36_371
	testq	%rcx, %rcx
	je	.LBB36_386
	movq	%r14, %rcx
	jmp	.LBB36_385
.LBB36_369:
	testq	%rbx, %rbx
	movq	56(%rsp), %r15
	je	.LBB36_389
	movq	%r14, %rcx
	jmp	.LBB36_388
.LBB36_371:
	testq	%rcx, %rcx
	je	.LBB36_373
	movq	%r14, %rcx
	callq	yurewha_heap_dealloc
.LBB36_373:
	movq	344(%rsp), %rax
	movq	%rax, 1159(%rsp)
	movups	328(%rsp), %xmm0
	movups	%xmm0, 1143(%rsp)
	movq	%r13, 720(%rsp)
	movq	%rbp, 728(%rsp)
	movq	56(%rsp), %rcx
	movq	%rcx, 736(%rsp)
	movaps	%xmm0, 976(%rsp)
	movq	%rax, 992(%rsp)
	movq	%rbx, 40(%rsp)
	movl	100(%rsp), %eax
	movb	%al, 32(%rsp)
	leaq	848(%rsp), %rcx
	leaq	720(%rsp), %rdx
	leaq	976(%rsp), %r8
	movq	224(%rsp), %r9
	callq	"subtree_levels::collapse::collapse::<#4baefd862f873d89>"
	cmpb	$0, 848(%rsp)
	jne	.LBB36_261
	movq	856(%rsp), %r13
	movq	864(%rsp), %rbx
	movq	872(%rsp), %r12
	jmp	.LBB36_167
.LBB36_375:
	movq	$0, 200(%rsp)
.LBB36_376:
	xorl	%r8d, %r8d
	jmp	.LBB36_379
.LBB36_377:
	movq	192(%rsp), %r12
	movq	200(%rsp), %r8
.LBB36_378:
	leaq	(%r8,%r8,4), %rax
	movq	640(%rsp), %rcx
	movq	%rcx, 32(%r12,%rax,8)
	movaps	608(%rsp), %xmm0
	movaps	624(%rsp), %xmm1
	movups	%xmm1, 16(%r12,%rax,8)
	movups	%xmm0, (%r12,%rax,8)
	incq	%r8
	movq	%r8, 200(%rsp)
	addq	$40, %rdi
	decq	%rsi
	je	.LBB36_366
.LBB36_379:
	movq	32(%rdi), %rax
	movq	%rax, 640(%rsp)
	movups	(%rdi), %xmm0
	movups	16(%rdi), %xmm1
	movaps	%xmm1, 624(%rsp)
	movaps	%xmm0, 608(%rsp)
	cmpq	%r8, 208(%rsp)
	jne	.LBB36_378
	leaq	192(%rsp), %rcx
	movl	$1, %edx
	callq	"std_alloc::vec::Vec::grow_amortized::<#1ed62de40e111fb4>"
	testb	%al, %al
	jne	.LBB36_377
.LBB36_381:
	cmpq	$0, 208(%rsp)
	je	.LBB36_386
	movq	192(%rsp), %rcx
	jmp	.LBB36_385
.LBB36_383:
	cmpq	$0, 208(%rsp)
	je	.LBB36_386
	movq	%r12, %rcx
.LBB36_385:
	callq	yurewha_heap_dealloc
.LBB36_386:
	cmpq	$0, 344(%rsp)
	movq	56(%rsp), %r15
	je	.LBB36_389
	movq	328(%rsp), %rcx
.LBB36_388:
	callq	yurewha_heap_dealloc
.LBB36_389:
	testq	%rbp, %rbp
	je	.LBB36_396
	leaq	48(%r13), %rdi
	jmp	.LBB36_392
.LBB36_391:
	addq	$56, %rdi
	decq	%rbp
	je	.LBB36_396
.LBB36_392:
	movq	-16(%rdi), %rbx
	movq	(%rdi), %r14
	cmpq	$0, -32(%rdi)
	je	.LBB36_394
	movq	-48(%rdi), %rcx
	callq	yurewha_heap_dealloc
.LBB36_394:
	testq	%r14, %r14
	je	.LBB36_391
	movq	%rbx, %rcx
	callq	yurewha_heap_dealloc
	jmp	.LBB36_391
.LBB36_396:
	testq	%r15, %r15
	je	.LBB36_261
	movq	%r13, %rcx
	jmp	.LBB36_260
	.seh_endproc

	.section	.text
	.p2align	4
	.def	"xet_merkle::merkle_hash_subtree::subtree::merging::whole_of::<#024afdc31600bcbd>";
	.scl	3;
	.type	32;
	.endef
"xet_merkle::merkle_hash_subtree::subtree::merging::whole_of::<#024afdc31600bcbd>":
.seh_proc "xet_merkle::merkle_hash_subtree::subtree::merging::whole_of::<#024afdc31600bcbd>"
	pushq	%rsi
	.seh_pushreg %rsi
	pushq	%rdi
	.seh_pushreg %rdi
	.seh_endprologue
	cmpb	$0, 1(%rdx)
	jne	.LBB37_2
	cmpb	$1, (%r8)
	jne	.LBB37_5
.LBB37_2:
	movw	$1, (%rcx)
.LBB37_3:
	movb	$0, 2(%rcx)
	xorps	%xmm0, %xmm0
	movups	%xmm0, 8(%rcx)
	popq	%rdi
	popq	%rsi
	retq
.LBB37_5:
	movq	32(%r8), %r9
	xorl	%eax, %eax
	addq	32(%rdx), %r9
	cmovaeq	%r9, %rax
	jae	.LBB37_7
	movw	$257, (%rcx)
	jmp	.LBB37_3
.LBB37_7:
	movzbl	(%rdx), %r10d
	movzbl	1(%r8), %r9d
	movq	16(%rdx), %r11
	testq	%r11, %r11
	je	.LBB37_13
	movq	8(%rdx), %rsi
	addq	$40, %rsi
	xorl	%edx, %edx
	.p2align	4
.LBB37_9:
	movq	%rdx, %rdi
	movq	-32(%rsi), %rdx
	subq	-16(%rsi), %rdx
	addq	%rdi, %rdx
	jb	.LBB37_21
	addq	(%rsi), %rdx
	jb	.LBB37_21
	addq	$56, %rsi
	decq	%r11
	jne	.LBB37_9
	movq	16(%r8), %r11
	testq	%r11, %r11
	jne	.LBB37_14
	jmp	.LBB37_20
.LBB37_13:
	xorl	%edx, %edx
	movq	16(%r8), %r11
	testq	%r11, %r11
	je	.LBB37_20
.LBB37_14:
	movq	8(%r8), %r8
	addq	$40, %r8
	xorl	%esi, %esi
	.p2align	4
.LBB37_15:
	movq	%rsi, %rdi
	movq	-32(%r8), %rsi
	subq	-16(%r8), %rsi
	addq	%rdi, %rsi
	jb	.LBB37_21
	addq	(%r8), %rsi
	jb	.LBB37_21
	addq	$56, %r8
	decq	%r11
	jne	.LBB37_15
	addq	%rdx, %rsi
	jae	.LBB37_20
	movw	$513, (%rcx)
	jmp	.LBB37_3
.LBB37_20:
	shll	$8, %r9d
	orq	%r10, %r9
	movw	$0, (%rcx)
	movb	$0, 2(%rcx)
	movq	%r9, 8(%rcx)
	movq	%rax, 16(%rcx)
	popq	%rdi
	popq	%rsi
	retq
.LBB37_21:
	ud2
	.seh_endproc

	.section	.text
	.p2align	4
	.def	"subtree_levels::in_sight::InSight::nodes::<#d96a70c1b70ca186>";
	.scl	3;
	.type	32;
	.endef
"subtree_levels::in_sight::InSight::nodes::<#d96a70c1b70ca186>":
.seh_proc "subtree_levels::in_sight::InSight::nodes::<#d96a70c1b70ca186>"
	pushq	%r15
	.seh_pushreg %r15
	pushq	%r14
	.seh_pushreg %r14
	pushq	%r13
	.seh_pushreg %r13
	pushq	%r12
	.seh_pushreg %r12
	pushq	%rsi
	.seh_pushreg %rsi
	pushq	%rdi
	.seh_pushreg %rdi
	pushq	%rbp
	.seh_pushreg %rbp
	pushq	%rbx
	.seh_pushreg %rbx
	subq	$72, %rsp
	.seh_stackalloc 72
	.seh_endprologue
	movq	%rdx, %r14
	movq	%rcx, %rsi
	movq	8(%rdx), %r12
	leaq	64(%rsp), %rdx
	testq	%r12, %r12
	je	.LBB38_1
	movq	(%r14), %rax
	cmpq	$1, %r12
	jne	.LBB38_4
	movq	8(%rax), %r12
	movq	24(%rax), %rcx
	leaq	(%rcx,%rcx,4), %r15
	shlq	$3, %r15
	addq	(%rax), %r15
	subq	%rcx, %r12
	cmpq	$0, 48(%r14)
	jne	.LBB38_7
	jmp	.LBB38_6
.LBB38_1:
	movq	%rdx, %r15
	cmpq	$0, 48(%r14)
	je	.LBB38_6
.LBB38_7:
	movq	40(%r14), %rax
	movq	8(%rax), %rbx
	movq	24(%rax), %rcx
	leaq	(%rcx,%rcx,4), %rdi
	shlq	$3, %rdi
	addq	(%rax), %rdi
	subq	%rcx, %rbx
	leaq	(%rbx,%r12), %r13
	addq	24(%r14), %r13
	jne	.LBB38_9
	jmp	.LBB38_11
.LBB38_4:
	movq	32(%rax), %r15
	movq	40(%rax), %r12
	cmpq	$0, 48(%r14)
	jne	.LBB38_7
.LBB38_6:
	xorl	%ebx, %ebx
	movq	%rdx, %rdi
	leaq	(%rbx,%r12), %r13
	addq	24(%r14), %r13
	je	.LBB38_11
.LBB38_9:
	movabsq	$230584300921369395, %rax
	cmpq	%rax, %r13
	ja	.LBB38_55
	leaq	(,%r13,8), %rax
	leaq	(%rax,%rax,4), %rcx
	movl	$8, %edx
	callq	in_registers_of_rattle_alloc
	testb	$1, %al
	je	.LBB38_55
.LBB38_11:
	movq	%rdx, 40(%rsp)
	movq	$0, 48(%rsp)
	movq	%r13, 56(%rsp)
	cmpq	%r13, %r12
	ja	.LBB38_13
	xorl	%eax, %eax
.LBB38_15:
	leaq	(%rax,%r12), %rbp
	shlq	$3, %rax
	leaq	(%rax,%rax,4), %rax
	leaq	(%rdx,%rax), %rcx
	leaq	(,%r12,8), %r8
	leaq	(%r8,%r8,4), %r8
	movq	%rcx, %r9
	subq	%r15, %r9
	cmpq	%r8, %r9
	jae	.LBB38_19
	testq	%r12, %r12
	je	.LBB38_25
	movl	%r12d, %r8d
	andl	$7, %r8d
	cmpq	$8, %r12
	jae	.LBB38_20
	xorl	%r9d, %r9d
	jmp	.LBB38_23
.LBB38_19:
	movq	%r15, %rdx
	callq	memmove
	jmp	.LBB38_25
.LBB38_20:
	andq	$-8, %r12
	movl	$280, %r10d
	xorl	%r9d, %r9d
	.p2align	4
.LBB38_21:
	movups	-280(%r15,%r10), %xmm0
	movups	-264(%r15,%r10), %xmm1
	movq	-248(%r15,%r10), %r11
	movq	%r11, -248(%rcx,%r10)
	movups	%xmm1, -264(%rcx,%r10)
	movups	%xmm0, -280(%rcx,%r10)
	movups	-240(%r15,%r10), %xmm0
	movups	-224(%r15,%r10), %xmm1
	movq	-208(%r15,%r10), %r11
	movq	%r11, -208(%rcx,%r10)
	movups	%xmm1, -224(%rcx,%r10)
	movups	%xmm0, -240(%rcx,%r10)
	movups	-200(%r15,%r10), %xmm0
	movups	-184(%r15,%r10), %xmm1
	movq	-168(%r15,%r10), %r11
	movq	%r11, -168(%rcx,%r10)
	movups	%xmm1, -184(%rcx,%r10)
	movups	%xmm0, -200(%rcx,%r10)
	movups	-160(%r15,%r10), %xmm0
	movups	-144(%r15,%r10), %xmm1
	movq	-128(%r15,%r10), %r11
	movq	%r11, -128(%rcx,%r10)
	movups	%xmm1, -144(%rcx,%r10)
	movups	%xmm0, -160(%rcx,%r10)
	movups	-120(%r15,%r10), %xmm0
	movups	-104(%r15,%r10), %xmm1
	movq	-88(%r15,%r10), %r11
	movq	%r11, -88(%rcx,%r10)
	movups	%xmm1, -104(%rcx,%r10)
	movups	%xmm0, -120(%rcx,%r10)
	movups	-80(%r15,%r10), %xmm0
	movups	-64(%r15,%r10), %xmm1
	movq	-48(%r15,%r10), %r11
	movq	%r11, -48(%rcx,%r10)
	movups	%xmm1, -64(%rcx,%r10)
	movups	%xmm0, -80(%rcx,%r10)
	movups	-40(%r15,%r10), %xmm0
	movups	-24(%r15,%r10), %xmm1
	movq	-8(%r15,%r10), %r11
	movq	%r11, -8(%rcx,%r10)
	movups	%xmm1, -24(%rcx,%r10)
	movups	%xmm0, -40(%rcx,%r10)
	movups	(%r15,%r10), %xmm0
	movups	16(%r15,%r10), %xmm1
	movq	32(%r15,%r10), %r11
	movq	%r11, 32(%rcx,%r10)
	movups	%xmm1, 16(%rcx,%r10)
	movups	%xmm0, (%rcx,%r10)
	addq	$8, %r9
	addq	$320, %r10
	cmpq	%r9, %r12
	jne	.LBB38_21
	testq	%r8, %r8
	je	.LBB38_25
.LBB38_23:
	shlq	$3, %r9
	leaq	(%r9,%r9,4), %rcx
	addq	%rcx, %r15
	addq	%rcx, %rax
	addq	%rax, %rdx
	shll	$3, %r8d
	leaq	(%r8,%r8,4), %rax
	xorl	%ecx, %ecx
	.p2align	4
.LBB38_24:
	movups	(%r15,%rcx), %xmm0
	movups	16(%r15,%rcx), %xmm1
	movq	32(%r15,%rcx), %r8
	movq	%r8, 32(%rdx,%rcx)
	movups	%xmm1, 16(%rdx,%rcx)
	movups	%xmm0, (%rdx,%rcx)
	addq	$40, %rcx
	cmpq	%rcx, %rax
	jne	.LBB38_24
.LBB38_25:
	movq	%rbp, 48(%rsp)
	movq	%r13, 56(%rsp)
	movq	16(%r14), %rdx
	movq	24(%r14), %r14
	movq	%r13, %rax
	subq	%rbp, %rax
	cmpq	%rax, %r14
	ja	.LBB38_26
.LBB38_28:
	leaq	(%r14,%rbp), %r12
	movq	40(%rsp), %r15
	shlq	$3, %rbp
	leaq	(,%rbp,4), %rax
	addq	%rbp, %rax
	leaq	(%r15,%rax), %rcx
	leaq	(,%r14,8), %r8
	leaq	(%r8,%r8,4), %r8
	movq	%rcx, %r9
	subq	%rdx, %r9
	cmpq	%r8, %r9
	jae	.LBB38_32
	testq	%r14, %r14
	je	.LBB38_33
	movl	%r14d, %r8d
	andl	$7, %r8d
	cmpq	$8, %r14
	jae	.LBB38_40
	xorl	%r9d, %r9d
	jmp	.LBB38_43
.LBB38_32:
	callq	memmove
	jmp	.LBB38_33
.LBB38_40:
	andq	$-8, %r14
	movl	$280, %r10d
	xorl	%r9d, %r9d
	.p2align	4
.LBB38_41:
	movups	-280(%rdx,%r10), %xmm0
	movups	-264(%rdx,%r10), %xmm1
	movq	-248(%rdx,%r10), %r11
	movq	%r11, -248(%rcx,%r10)
	movups	%xmm1, -264(%rcx,%r10)
	movups	%xmm0, -280(%rcx,%r10)
	movups	-240(%rdx,%r10), %xmm0
	movups	-224(%rdx,%r10), %xmm1
	movq	-208(%rdx,%r10), %r11
	movq	%r11, -208(%rcx,%r10)
	movups	%xmm1, -224(%rcx,%r10)
	movups	%xmm0, -240(%rcx,%r10)
	movups	-200(%rdx,%r10), %xmm0
	movups	-184(%rdx,%r10), %xmm1
	movq	-168(%rdx,%r10), %r11
	movq	%r11, -168(%rcx,%r10)
	movups	%xmm1, -184(%rcx,%r10)
	movups	%xmm0, -200(%rcx,%r10)
	movups	-160(%rdx,%r10), %xmm0
	movups	-144(%rdx,%r10), %xmm1
	movq	-128(%rdx,%r10), %r11
	movq	%r11, -128(%rcx,%r10)
	movups	%xmm1, -144(%rcx,%r10)
	movups	%xmm0, -160(%rcx,%r10)
	movups	-120(%rdx,%r10), %xmm0
	movups	-104(%rdx,%r10), %xmm1
	movq	-88(%rdx,%r10), %r11
	movq	%r11, -88(%rcx,%r10)
	movups	%xmm1, -104(%rcx,%r10)
	movups	%xmm0, -120(%rcx,%r10)
	movups	-80(%rdx,%r10), %xmm0
	movups	-64(%rdx,%r10), %xmm1
	movq	-48(%rdx,%r10), %r11
	movq	%r11, -48(%rcx,%r10)
	movups	%xmm1, -64(%rcx,%r10)
	movups	%xmm0, -80(%rcx,%r10)
	movups	-40(%rdx,%r10), %xmm0
	movups	-24(%rdx,%r10), %xmm1
	movq	-8(%rdx,%r10), %r11
	movq	%r11, -8(%rcx,%r10)
	movups	%xmm1, -24(%rcx,%r10)
	movups	%xmm0, -40(%rcx,%r10)
	movups	(%rdx,%r10), %xmm0
	movups	16(%rdx,%r10), %xmm1
	movq	32(%rdx,%r10), %r11
	movq	%r11, 32(%rcx,%r10)
	movups	%xmm1, 16(%rcx,%r10)
	movups	%xmm0, (%rcx,%r10)
	addq	$8, %r9
	addq	$320, %r10
	cmpq	%r9, %r14
	jne	.LBB38_41
	testq	%r8, %r8
	je	.LBB38_33
.LBB38_43:
	shlq	$3, %r9
	leaq	(%r9,%r9,4), %rcx
	addq	%rcx, %rdx
	addq	%rcx, %rax
	addq	%r15, %rax
	shll	$3, %r8d
	leaq	(%r8,%r8,4), %rcx
	xorl	%r8d, %r8d
	.p2align	4
.LBB38_44:
	movups	(%rdx,%r8), %xmm0
	movups	16(%rdx,%r8), %xmm1
	movq	32(%rdx,%r8), %r9
	movq	%r9, 32(%rax,%r8)
	movups	%xmm1, 16(%rax,%r8)
	movups	%xmm0, (%rax,%r8)
	addq	$40, %r8
	cmpq	%r8, %rcx
	jne	.LBB38_44
.LBB38_33:
	movq	%r12, 48(%rsp)
	movq	%r13, 56(%rsp)
	movq	%r13, %rax
	subq	%r12, %rax
	cmpq	%rax, %rbx
	ja	.LBB38_34
.LBB38_36:
	leaq	(%r12,%rbx), %r14
	shlq	$3, %r12
	leaq	(%r12,%r12,4), %rcx
	addq	%r15, %rcx
	leaq	(,%rbx,8), %rax
	leaq	(%rax,%rax,4), %r8
	movq	%rcx, %rax
	subq	%rdi, %rax
	cmpq	%r8, %rax
	jae	.LBB38_45
	testq	%rbx, %rbx
	je	.LBB38_46
	movl	%ebx, %eax
	andl	$7, %eax
	cmpq	$8, %rbx
	jae	.LBB38_48
	xorl	%edx, %edx
	jmp	.LBB38_51
.LBB38_45:
	movq	%rdi, %rdx
	callq	memmove
	jmp	.LBB38_46
.LBB38_48:
	andq	$-8, %rbx
	movl	$280, %r8d
	xorl	%edx, %edx
	.p2align	4
.LBB38_49:
	movups	-280(%rdi,%r8), %xmm0
	movups	-264(%rdi,%r8), %xmm1
	movq	-248(%rdi,%r8), %r9
	movq	%r9, -248(%rcx,%r8)
	movups	%xmm1, -264(%rcx,%r8)
	movups	%xmm0, -280(%rcx,%r8)
	movups	-240(%rdi,%r8), %xmm0
	movups	-224(%rdi,%r8), %xmm1
	movq	-208(%rdi,%r8), %r9
	movq	%r9, -208(%rcx,%r8)
	movups	%xmm1, -224(%rcx,%r8)
	movups	%xmm0, -240(%rcx,%r8)
	movups	-200(%rdi,%r8), %xmm0
	movups	-184(%rdi,%r8), %xmm1
	movq	-168(%rdi,%r8), %r9
	movq	%r9, -168(%rcx,%r8)
	movups	%xmm1, -184(%rcx,%r8)
	movups	%xmm0, -200(%rcx,%r8)
	movups	-160(%rdi,%r8), %xmm0
	movups	-144(%rdi,%r8), %xmm1
	movq	-128(%rdi,%r8), %r9
	movq	%r9, -128(%rcx,%r8)
	movups	%xmm1, -144(%rcx,%r8)
	movups	%xmm0, -160(%rcx,%r8)
	movups	-120(%rdi,%r8), %xmm0
	movups	-104(%rdi,%r8), %xmm1
	movq	-88(%rdi,%r8), %r9
	movq	%r9, -88(%rcx,%r8)
	movups	%xmm1, -104(%rcx,%r8)
	movups	%xmm0, -120(%rcx,%r8)
	movups	-80(%rdi,%r8), %xmm0
	movups	-64(%rdi,%r8), %xmm1
	movq	-48(%rdi,%r8), %r9
	movq	%r9, -48(%rcx,%r8)
	movups	%xmm1, -64(%rcx,%r8)
	movups	%xmm0, -80(%rcx,%r8)
	movups	-40(%rdi,%r8), %xmm0
	movups	-24(%rdi,%r8), %xmm1
	movq	-8(%rdi,%r8), %r9
	movq	%r9, -8(%rcx,%r8)
	movups	%xmm1, -24(%rcx,%r8)
	movups	%xmm0, -40(%rcx,%r8)
	movups	(%rdi,%r8), %xmm0
	movups	16(%rdi,%r8), %xmm1
	movq	32(%rdi,%r8), %r9
	movq	%r9, 32(%rcx,%r8)
	movups	%xmm1, 16(%rcx,%r8)
	movups	%xmm0, (%rcx,%r8)
	addq	$8, %rdx
	addq	$320, %r8
	cmpq	%rdx, %rbx
	jne	.LBB38_49
	testq	%rax, %rax
	je	.LBB38_46
.LBB38_51:
	shlq	$3, %rdx
	leaq	(%rdx,%rdx,4), %rdx
	addq	%rdx, %rdi
	addq	%rdx, %rcx
	shll	$3, %eax
	leaq	(%rax,%rax,4), %rax
	xorl	%edx, %edx
	.p2align	4
.LBB38_52:
	movups	(%rdi,%rdx), %xmm0
	movups	16(%rdi,%rdx), %xmm1
	movq	32(%rdi,%rdx), %r8
	movq	%r8, 32(%rcx,%rdx)
	movups	%xmm1, 16(%rcx,%rdx)
	movups	%xmm0, (%rcx,%rdx)
	addq	$40, %rdx
	cmpq	%rdx, %rax
	jne	.LBB38_52
.LBB38_46:
	movq	%r14, 48(%rsp)
	movq	%r13, 56(%rsp)
	movb	$0, (%rsi)
	movq	40(%rsp), %rax
	movq	%rax, 8(%rsi)
	movq	48(%rsp), %rax
	movq	%rax, 16(%rsi)
	movq	56(%rsp), %rax
	movq	%rax, 24(%rsi)
	jmp	.LBB38_47
.LBB38_13:
	leaq	40(%rsp), %rcx
	movq	%r12, %rdx
	callq	"std_alloc::vec::Vec::grow_amortized::<#1ed62de40e111fb4>"
	testb	%al, %al
	je	.LBB38_53
	movq	40(%rsp), %rdx
	movq	48(%rsp), %rax
	movq	56(%rsp), %r13
	jmp	.LBB38_15
.LBB38_26:
	movq	%rdx, %r15
	leaq	40(%rsp), %rcx
	movq	%r14, %rdx
	callq	"std_alloc::vec::Vec::grow_amortized::<#1ed62de40e111fb4>"
	testb	%al, %al
	je	.LBB38_53
	movq	48(%rsp), %rbp
	movq	56(%rsp), %r13
	movq	%r15, %rdx
	jmp	.LBB38_28
.LBB38_34:
	leaq	40(%rsp), %rcx
	movq	%rbx, %rdx
	callq	"std_alloc::vec::Vec::grow_amortized::<#1ed62de40e111fb4>"
	testb	%al, %al
	je	.LBB38_53
	movq	40(%rsp), %r15
	movq	48(%rsp), %r12
	movq	56(%rsp), %r13
	jmp	.LBB38_36
.LBB38_53:
	cmpq	$0, 56(%rsp)
	je	.LBB38_55
	movq	40(%rsp), %rcx
	callq	yurewha_heap_dealloc
.LBB38_55:
	movb	$1, (%rsi)
	xorps	%xmm0, %xmm0
	movups	%xmm0, 8(%rsi)
	movq	$0, 24(%rsi)
.LBB38_47:
	addq	$72, %rsp
	popq	%rbx
	popq	%rbp
	popq	%rdi
	popq	%rsi
	popq	%r12
	popq	%r13
	popq	%r14
	popq	%r15
	retq
	.seh_endproc

	.section	.text
	.p2align	4
	.def	"subtree_levels::in_sight::InSight::split::<#024afdc31600bcbd>";
	.scl	3;
	.type	32;
	.endef
"subtree_levels::in_sight::InSight::split::<#024afdc31600bcbd>":
.seh_proc "subtree_levels::in_sight::InSight::split::<#024afdc31600bcbd>"
	pushq	%r14
	.seh_pushreg %r14
	pushq	%rsi
	.seh_pushreg %rsi
	pushq	%rdi
	.seh_pushreg %rdi
	pushq	%rbp
	.seh_pushreg %rbp
	pushq	%rbx
	.seh_pushreg %rbx
	pushq	%rax
	.seh_stackalloc 8
	.seh_endprologue
	cmpq	$1, 8(%rdx)
	ja	.LBB39_14
	xorl	%eax, %eax
	testq	%r9, %r9
	je	.LBB39_11
	cmpb	$0, 56(%rdx)
	jne	.LBB39_11
	leaq	24(%r8), %r10
	xorl	%eax, %eax
	xorl	%r11d, %r11d
	xorl	%edi, %edi
	xorl	%esi, %esi
	jmp	.LBB39_4
	.p2align	4
.LBB39_8:
	incq	%rax
.LBB39_9:
	decq	%r11
	addq	$40, %r10
	movq	%r9, %rbx
	addq	%r11, %rbx
	je	.LBB39_10
.LBB39_4:
	testb	$3, (%r10)
	jne	.LBB39_8
	leaq	-2(%rax), %rbx
	cmpq	$5, %rbx
	setb	%bpl
	andb	%bpl, %dil
	cmpb	$1, %dil
	je	.LBB39_6
	cmpq	$5, %rbx
	setb	%al
	movl	%esi, %edi
	andb	%al, %dil
	movb	$1, %sil
	xorl	%eax, %eax
	jmp	.LBB39_9
.LBB39_14:
	cmpq	$1, 48(%rdx)
	ja	.LBB39_25
	cmpb	$0, 57(%rdx)
	movq	%r9, %rdi
	jne	.LBB39_24
	testq	%r9, %r9
	je	.LBB39_17
	leaq	24(%r8), %rax
	xorl	%r11d, %r11d
	xorl	%esi, %esi
	xorl	%r10d, %r10d
	xorl	%edi, %edi
	xorl	%ebx, %ebx
	jmp	.LBB39_19
	.p2align	4
.LBB39_21:
	incq	%rdi
	incq	%r11
	addq	$40, %rax
	cmpq	%r11, %r9
	je	.LBB39_23
.LBB39_19:
	testb	$3, (%rax)
	jne	.LBB39_21
	leaq	-2(%rdi), %r14
	cmpq	$5, %r14
	setb	%bpl
	movq	%r11, %r14
	subq	%rdi, %r14
	andb	%bpl, %bl
	orb	%bl, %sil
	testb	%bl, %bl
	cmovneq	%r14, %r10
	xorl	%edi, %edi
	movl	%ebp, %ebx
	incq	%r11
	addq	$40, %rax
	cmpq	%r11, %r9
	jne	.LBB39_19
.LBB39_23:
	xorl	%edi, %edi
	testb	$1, %sil
	cmovneq	%r10, %rdi
	jmp	.LBB39_24
.LBB39_25:
	movq	(%rdx), %r10
	movq	40(%rdx), %rdx
	movq	8(%r10), %rax
	movq	24(%r10), %rsi
	movq	%r8, %r11
	leaq	(%rsi,%rsi,4), %r8
	shlq	$3, %r8
	addq	(%r10), %r8
	subq	%rsi, %rax
	jmp	.LBB39_26
.LBB39_10:
	movq	%r9, %rax
	jmp	.LBB39_11
.LBB39_6:
	addq	%r11, %rax
	negq	%rax
.LBB39_11:
	leaq	(%rax,%rax,4), %r10
	leaq	(%r8,%r10,8), %r11
	subq	%rax, %r9
	cmpq	$0, 48(%rdx)
	je	.LBB39_12
	movq	40(%rdx), %rdx
.LBB39_26:
	movq	32(%rdx), %r10
	movq	40(%rdx), %rsi
	jmp	.LBB39_27
.LBB39_12:
	movq	%rsp, %r10
	xorl	%esi, %esi
	jmp	.LBB39_27
.LBB39_17:
	xorl	%edi, %edi
.LBB39_24:
	leaq	(%rdi,%rdi,4), %rax
	leaq	(%r8,%rax,8), %r10
	movq	%r9, %rsi
	subq	%rdi, %rsi
	movq	(%rdx), %rax
	movq	24(%rax), %rdx
	movq	%r8, %r11
	leaq	(%rdx,%rdx,4), %r8
	shlq	$3, %r8
	addq	(%rax), %r8
	movq	8(%rax), %rax
	subq	%rdx, %rax
	movq	%rdi, %r9
.LBB39_27:
	movq	%r8, (%rcx)
	movq	%rax, 8(%rcx)
	movq	%r11, 16(%rcx)
	movq	%r9, 24(%rcx)
	movq	%r10, 32(%rcx)
	movq	%rsi, 40(%rcx)
	addq	$8, %rsp
	popq	%rbx
	popq	%rbp
	popq	%rdi
	popq	%rsi
	popq	%r14
	retq
	.seh_endproc

	.section	.text
	.p2align	4
	.def	"std_alloc::vec::Vec::grow_amortized::<#383813664ff73b2b>";
	.scl	3;
	.type	32;
	.endef
"std_alloc::vec::Vec::grow_amortized::<#383813664ff73b2b>":
.seh_proc "std_alloc::vec::Vec::grow_amortized::<#383813664ff73b2b>"
	pushq	%rsi
	.seh_pushreg %rsi
	pushq	%rdi
	.seh_pushreg %rdi
	subq	$40, %rsp
	.seh_stackalloc 40
	.seh_endprologue
	movq	8(%rcx), %rax
	cmpq	$-1, %rax
	je	.LBB40_6
	movq	16(%rcx), %rdx
	cmpq	$4, %rax
	movl	$3, %esi
	cmovaeq	%rax, %rsi
	incq	%rsi
	movq	%rdx, %r9
	shrq	$62, %r9
	leaq	(%rdx,%rdx), %r8
	cmpq	%r8, %rsi
	cmovaq	%rsi, %r8
	testq	%r9, %r9
	cmoveq	%r8, %rsi
	movabsq	$384307168202282325, %r9
	cmpq	%r9, %rsi
	ja	.LBB40_6
	testq	%rdx, %rdx
	je	.LBB40_5
	movq	%rcx, %rdi
	movq	(%rcx), %rcx
	shlq	$3, %rax
	leaq	(%rax,%rax,2), %rdx
	leaq	(,%rsi,8), %rax
	leaq	(%rax,%rax,2), %r8
	movl	$8, %r9d
	callq	in_registers_of_rattle_realloc
	testb	$1, %al
	je	.LBB40_6
.LBB40_4:
	movq	%rdx, (%rdi)
	movq	%rsi, 16(%rdi)
	movb	$1, %al
	addq	$40, %rsp
	popq	%rdi
	popq	%rsi
	retq
.LBB40_5:
	movq	%rcx, %rdi
	shlq	$3, %r8
	leaq	(%r8,%r8,2), %rcx
	movl	$8, %edx
	callq	in_registers_of_rattle_alloc
	testb	$1, %al
	jne	.LBB40_4
.LBB40_6:
	xorl	%eax, %eax
	addq	$40, %rsp
	popq	%rdi
	popq	%rsi
	retq
	.seh_endproc

	.section	.text
	.p2align	4
	.def	"subtree_levels::in_sight::InSight::only_extends::<#024afdc31600bcbd>";
	.scl	3;
	.type	32;
	.endef
"subtree_levels::in_sight::InSight::only_extends::<#024afdc31600bcbd>":
.seh_proc "subtree_levels::in_sight::InSight::only_extends::<#024afdc31600bcbd>"
	pushq	%r15
	.seh_pushreg %r15
	pushq	%r14
	.seh_pushreg %r14
	pushq	%r12
	.seh_pushreg %r12
	pushq	%rsi
	.seh_pushreg %rsi
	pushq	%rdi
	.seh_pushreg %rdi
	pushq	%rbp
	.seh_pushreg %rbp
	pushq	%rbx
	.seh_pushreg %rbx
	pushq	%rax
	.seh_stackalloc 8
	.seh_endprologue
	testb	$1, %dl
	je	.LBB41_3
	cmpb	$0, 56(%rcx)
	jne	.LBB41_93
	movq	8(%rcx), %rax
	cmpq	$1, %rax
	ja	.LBB41_93
	movq	%rsp, %rdx
	jne	.LBB41_15
	movq	(%rcx), %rax
	movq	8(%rax), %rbx
	movq	24(%rax), %r8
	leaq	(%r8,%r8,4), %r14
	shlq	$3, %r14
	addq	(%rax), %r14
	subq	%r8, %rbx
	movq	24(%rcx), %r10
	cmpq	$0, 48(%rcx)
	je	.LBB41_16
.LBB41_8:
	movq	40(%rcx), %rax
	movq	8(%rax), %r9
	movq	24(%rax), %r8
	leaq	(%r8,%r8,4), %rdx
	shlq	$3, %rdx
	addq	(%rax), %rdx
	subq	%r8, %r9
	movb	$1, %al
	movq	%r10, %r8
	orq	%rbx, %r8
	jne	.LBB41_17
	jmp	.LBB41_94
.LBB41_3:
	cmpb	$0, 57(%rcx)
	jne	.LBB41_93
	movq	48(%rcx), %rax
	cmpq	$1, %rax
	ja	.LBB41_93
	movq	8(%rcx), %r10
	movq	%rsp, %rdx
	testq	%r10, %r10
	je	.LBB41_28
	movq	(%rcx), %r8
	cmpq	$1, %r10
	jne	.LBB41_30
	movq	8(%r8), %r10
	movq	24(%r8), %r9
	leaq	(%r9,%r9,4), %r11
	shlq	$3, %r11
	addq	(%r8), %r11
	subq	%r9, %r10
	movq	24(%rcx), %r9
	testq	%rax, %rax
	je	.LBB41_31
.LBB41_29:
	movq	40(%rcx), %rax
	movq	8(%rax), %r8
	movq	24(%rax), %rsi
	leaq	(%rsi,%rsi,4), %rdx
	shlq	$3, %rdx
	addq	(%rax), %rdx
	subq	%rsi, %r8
	movq	16(%rcx), %rcx
	testq	%r9, %r9
	jne	.LBB41_32
	jmp	.LBB41_35
.LBB41_15:
	xorl	%ebx, %ebx
	movq	%rdx, %r14
	movq	24(%rcx), %r10
	cmpq	$0, 48(%rcx)
	jne	.LBB41_8
.LBB41_16:
	xorl	%r9d, %r9d
	movb	$1, %al
	movq	%r10, %r8
	orq	%rbx, %r8
	je	.LBB41_94
.LBB41_17:
	movq	16(%rcx), %rdi
	cmpq	$14, %r9
	movl	$14, %esi
	cmovbq	%r9, %rsi
	testq	%rbx, %rbx
	je	.LBB41_51
	addq	$24, %r14
	movb	$1, %bpl
	xorl	%ecx, %ecx
	xorl	%r11d, %r11d
	xorl	%r8d, %r8d
	jmp	.LBB41_20
	.p2align	4
.LBB41_19:
	addq	$-2, %r8
	cmpq	$5, %r8
	setb	%r8b
	movl	%ecx, %r11d
	andb	%r8b, %r11b
	movb	$1, %cl
	xorl	%r8d, %r8d
	addq	$40, %r14
	decq	%rbx
	je	.LBB41_26
.LBB41_20:
	movq	(%r14), %r15
	testb	$1, %bpl
	je	.LBB41_24
	movl	%r15d, %r12d
	andl	$3, %r12d
	jne	.LBB41_24
	movb	$1, %bpl
	cmpb	$1, %r11b
	jne	.LBB41_19
	leaq	-7(%r8), %r11
	cmpq	$-5, %r11
	setb	%bpl
	jmp	.LBB41_19
	.p2align	4
.LBB41_24:
	testb	$3, %r15b
	je	.LBB41_19
	incq	%r8
	addq	$40, %r14
	decq	%rbx
	jne	.LBB41_20
.LBB41_26:
	testb	$1, %bpl
	jne	.LBB41_52
	jmp	.LBB41_93
.LBB41_28:
	movq	%rdx, %r11
	movq	24(%rcx), %r9
	testq	%rax, %rax
	jne	.LBB41_29
.LBB41_31:
	xorl	%r8d, %r8d
	movq	16(%rcx), %rcx
	testq	%r9, %r9
	je	.LBB41_35
.LBB41_32:
	leaq	24(%rcx), %rax
	movq	%r9, %rsi
	.p2align	4
.LBB41_33:
	testb	$3, (%rax)
	je	.LBB41_39
	addq	$40, %rax
	decq	%rsi
	jne	.LBB41_33
.LBB41_35:
	movb	$1, %al
	testq	%r8, %r8
	je	.LBB41_94
	leaq	24(%rdx), %rsi
	movq	%r8, %rdi
	.p2align	4
.LBB41_37:
	testb	$3, (%rsi)
	je	.LBB41_39
	addq	$40, %rsi
	decq	%rdi
	jne	.LBB41_37
	jmp	.LBB41_94
.LBB41_39:
	xorl	%edi, %edi
	movq	%r10, %rax
	subq	$14, %rax
	cmovbq	%rdi, %rax
	leaq	(%r10,%r10,4), %rsi
	subq	%rax, %r10
	leaq	(%r11,%rsi,8), %rbx
	addq	$24, %rbx
	xorl	%r11d, %r11d
	.p2align	4
.LBB41_40:
	movq	%rdi, %rax
	movq	%rbx, %rsi
	cmpq	%rdi, %r10
	je	.LBB41_42
	leaq	-40(%rsi), %rbx
	testb	$3, -40(%rsi)
	sete	%dil
	movl	%edi, %ebp
	andb	%r11b, %bpl
	orb	%dil, %r11b
	leaq	1(%rax), %rdi
	cmpb	$1, %bpl
	jne	.LBB41_40
.LBB41_42:
	testq	%rax, %rax
	je	.LBB41_71
	movb	$1, %bl
	xorl	%r11d, %r11d
	xorl	%r10d, %r10d
	jmp	.LBB41_45
	.p2align	4
.LBB41_44:
	addq	$-2, %r10
	cmpq	$5, %r10
	setb	%r11b
	xorl	%r10d, %r10d
	addq	$40, %rsi
	decq	%rax
	je	.LBB41_72
.LBB41_45:
	movq	(%rsi), %rdi
	testb	$1, %bl
	je	.LBB41_49
	movl	%edi, %ebp
	andl	$3, %ebp
	jne	.LBB41_49
	movb	$1, %bl
	cmpb	$1, %r11b
	jne	.LBB41_44
	leaq	-7(%r10), %r11
	cmpq	$-5, %r11
	setb	%bl
	jmp	.LBB41_44
	.p2align	4
.LBB41_49:
	testb	$3, %dil
	je	.LBB41_44
	incq	%r10
	addq	$40, %rsi
	decq	%rax
	jne	.LBB41_45
	jmp	.LBB41_72
.LBB41_30:
	movq	32(%r8), %r11
	movq	40(%r8), %r10
	movq	24(%rcx), %r9
	testq	%rax, %rax
	jne	.LBB41_29
	jmp	.LBB41_31
.LBB41_51:
	xorl	%r8d, %r8d
	xorl	%r11d, %r11d
	xorl	%ecx, %ecx
.LBB41_52:
	testq	%r10, %r10
	je	.LBB41_62
	addq	$24, %rdi
	movb	$1, %bl
	jmp	.LBB41_55
	.p2align	4
.LBB41_54:
	addq	$-2, %r8
	cmpq	$5, %r8
	setb	%r8b
	movl	%ecx, %r11d
	andb	%r8b, %r11b
	movb	$1, %cl
	xorl	%r8d, %r8d
	addq	$40, %rdi
	decq	%r10
	je	.LBB41_61
.LBB41_55:
	movq	(%rdi), %r14
	testb	$1, %bl
	je	.LBB41_59
	movl	%r14d, %ebp
	andl	$3, %ebp
	jne	.LBB41_59
	movb	$1, %bl
	cmpb	$1, %r11b
	jne	.LBB41_54
	leaq	-7(%r8), %r11
	cmpq	$-5, %r11
	setb	%bl
	jmp	.LBB41_54
	.p2align	4
.LBB41_59:
	testb	$3, %r14b
	je	.LBB41_54
	incq	%r8
	addq	$40, %rdi
	decq	%r10
	jne	.LBB41_55
.LBB41_61:
	testb	$1, %bl
	je	.LBB41_93
.LBB41_62:
	testq	%r9, %r9
	je	.LBB41_94
	shlq	$3, %rsi
	leaq	(%rsi,%rsi,4), %r9
	movb	$1, %al
	xorl	%r10d, %r10d
	jmp	.LBB41_65
	.p2align	4
.LBB41_64:
	addq	$-2, %r8
	cmpq	$5, %r8
	setb	%r8b
	movl	%ecx, %r11d
	andb	%r8b, %r11b
	movb	$1, %cl
	xorl	%r8d, %r8d
	addq	$40, %r10
	cmpq	%r10, %r9
	je	.LBB41_94
.LBB41_65:
	movq	24(%rdx,%r10), %rsi
	testb	$1, %al
	je	.LBB41_69
	movl	%esi, %edi
	andl	$3, %edi
	jne	.LBB41_69
	movb	$1, %al
	cmpb	$1, %r11b
	jne	.LBB41_64
	leaq	-7(%r8), %rax
	cmpq	$-5, %rax
	setb	%al
	jmp	.LBB41_64
	.p2align	4
.LBB41_69:
	testb	$3, %sil
	je	.LBB41_64
	incq	%r8
	addq	$40, %r10
	cmpq	%r10, %r9
	jne	.LBB41_65
	jmp	.LBB41_94
.LBB41_71:
	xorl	%r11d, %r11d
	xorl	%r10d, %r10d
.LBB41_72:
	testq	%r9, %r9
	je	.LBB41_82
	addq	$24, %rcx
	movb	$1, %al
	jmp	.LBB41_75
	.p2align	4
.LBB41_74:
	addq	$-2, %r10
	cmpq	$5, %r10
	setb	%r11b
	xorl	%r10d, %r10d
	addq	$40, %rcx
	decq	%r9
	je	.LBB41_81
.LBB41_75:
	movq	(%rcx), %rsi
	testb	$1, %al
	je	.LBB41_79
	movl	%esi, %edi
	andl	$3, %edi
	jne	.LBB41_79
	movb	$1, %al
	cmpb	$1, %r11b
	jne	.LBB41_74
	leaq	-7(%r10), %rax
	cmpq	$-5, %rax
	setb	%al
	jmp	.LBB41_74
	.p2align	4
.LBB41_79:
	testb	$3, %sil
	je	.LBB41_74
	incq	%r10
	addq	$40, %rcx
	decq	%r9
	jne	.LBB41_75
.LBB41_81:
	testb	$1, %al
	je	.LBB41_93
.LBB41_82:
	testq	%r8, %r8
	je	.LBB41_92
	addq	$24, %rdx
	movb	$1, %al
	jmp	.LBB41_85
.LBB41_93:
	xorl	%eax, %eax
.LBB41_94:
	andb	$1, %al
	addq	$8, %rsp
	popq	%rbx
	popq	%rbp
	popq	%rdi
	popq	%rsi
	popq	%r12
	popq	%r14
	popq	%r15
	retq
	.p2align	4
.LBB41_84:
	addq	$-2, %r10
	cmpq	$5, %r10
	setb	%r11b
	xorl	%r10d, %r10d
	addq	$40, %rdx
	decq	%r8
	je	.LBB41_94
.LBB41_85:
	movq	(%rdx), %rcx
	testb	$1, %al
	je	.LBB41_89
	movl	%ecx, %r9d
	andl	$3, %r9d
	jne	.LBB41_89
	movb	$1, %al
	cmpb	$1, %r11b
	jne	.LBB41_84
	leaq	-7(%r10), %rax
	cmpq	$-5, %rax
	setb	%al
	jmp	.LBB41_84
	.p2align	4
.LBB41_89:
	testb	$3, %cl
	je	.LBB41_84
	incq	%r10
	addq	$40, %rdx
	decq	%r8
	jne	.LBB41_85
	jmp	.LBB41_94
.LBB41_92:
	movb	$1, %al
	jmp	.LBB41_94
	.seh_endproc

	.section	.text
	.p2align	4
	.def	"subtree_levels::in_place::extend_inner::<#024afdc31600bcbd>";
	.scl	3;
	.type	32;
	.endef
"subtree_levels::in_place::extend_inner::<#024afdc31600bcbd>":
.seh_proc "subtree_levels::in_place::extend_inner::<#024afdc31600bcbd>"
	pushq	%r15
	.seh_pushreg %r15
	pushq	%r14
	.seh_pushreg %r14
	pushq	%rsi
	.seh_pushreg %rsi
	pushq	%rdi
	.seh_pushreg %rdi
	pushq	%rbx
	.seh_pushreg %rbx
	subq	$32, %rsp
	.seh_stackalloc 32
	.seh_endprologue
	imulq	$56, %rdx, %rsi
	incq	%rdx
	addq	(%rcx), %rsi
	cmpq	8(%rcx), %rdx
	jne	.LBB42_15
	movq	8(%rsi), %rax
	movq	16(%rsi), %rdi
	movq	%rdi, %rcx
	subq	%rax, %rcx
	cmpq	%rcx, %r9
	ja	.LBB42_2
.LBB42_4:
	leaq	8(%rsi), %rcx
	leaq	(%rax,%r9), %rbx
	movq	(%rsi), %r14
	xorps	%xmm0, %xmm0
	movups	%xmm0, (%rcx)
	shlq	$3, %rax
	leaq	(%rax,%rax,4), %rdx
	leaq	(%r14,%rdx), %rcx
	leaq	(,%r9,8), %rax
	leaq	(%rax,%rax,4), %rax
	movq	%rcx, %r10
	subq	%r8, %r10
	cmpq	%rax, %r10
	jae	.LBB42_8
	testq	%r9, %r9
	je	.LBB42_14
	movl	%r9d, %eax
	andl	$7, %eax
	cmpq	$8, %r9
	jae	.LBB42_9
	xorl	%r10d, %r10d
	jmp	.LBB42_12
.LBB42_15:
	movq	40(%rsi), %rax
	movq	48(%rsi), %rdi
	movq	%rdi, %rcx
	subq	%rax, %rcx
	cmpq	%rcx, %r9
	ja	.LBB42_16
.LBB42_18:
	leaq	40(%rsi), %rcx
	leaq	(%rax,%r9), %rbx
	movq	32(%rsi), %r14
	xorps	%xmm0, %xmm0
	movups	%xmm0, (%rcx)
	shlq	$3, %rax
	leaq	(%rax,%rax,4), %rdx
	leaq	(%r14,%rdx), %rcx
	leaq	(,%r9,8), %rax
	leaq	(%rax,%rax,4), %rax
	movq	%rcx, %r10
	subq	%r8, %r10
	cmpq	%rax, %r10
	jae	.LBB42_22
	testq	%r9, %r9
	je	.LBB42_28
	movl	%r9d, %eax
	andl	$7, %eax
	cmpq	$8, %r9
	jae	.LBB42_23
	xorl	%r10d, %r10d
	jmp	.LBB42_26
.LBB42_8:
	movq	%r8, %rdx
	movq	%rax, %r8
	callq	memmove
	jmp	.LBB42_14
.LBB42_22:
	movq	%r8, %rdx
	movq	%rax, %r8
	callq	memmove
	jmp	.LBB42_28
.LBB42_9:
	andq	$-8, %r9
	movl	$280, %r11d
	xorl	%r10d, %r10d
	.p2align	4
.LBB42_10:
	movups	-280(%r8,%r11), %xmm0
	movups	-264(%r8,%r11), %xmm1
	movq	-248(%r8,%r11), %r15
	movq	%r15, -248(%rcx,%r11)
	movups	%xmm1, -264(%rcx,%r11)
	movups	%xmm0, -280(%rcx,%r11)
	movups	-240(%r8,%r11), %xmm0
	movups	-224(%r8,%r11), %xmm1
	movq	-208(%r8,%r11), %r15
	movq	%r15, -208(%rcx,%r11)
	movups	%xmm1, -224(%rcx,%r11)
	movups	%xmm0, -240(%rcx,%r11)
	movups	-200(%r8,%r11), %xmm0
	movups	-184(%r8,%r11), %xmm1
	movq	-168(%r8,%r11), %r15
	movq	%r15, -168(%rcx,%r11)
	movups	%xmm1, -184(%rcx,%r11)
	movups	%xmm0, -200(%rcx,%r11)
	movups	-160(%r8,%r11), %xmm0
	movups	-144(%r8,%r11), %xmm1
	movq	-128(%r8,%r11), %r15
	movq	%r15, -128(%rcx,%r11)
	movups	%xmm1, -144(%rcx,%r11)
	movups	%xmm0, -160(%rcx,%r11)
	movups	-120(%r8,%r11), %xmm0
	movups	-104(%r8,%r11), %xmm1
	movq	-88(%r8,%r11), %r15
	movq	%r15, -88(%rcx,%r11)
	movups	%xmm1, -104(%rcx,%r11)
	movups	%xmm0, -120(%rcx,%r11)
	movups	-80(%r8,%r11), %xmm0
	movups	-64(%r8,%r11), %xmm1
	movq	-48(%r8,%r11), %r15
	movq	%r15, -48(%rcx,%r11)
	movups	%xmm1, -64(%rcx,%r11)
	movups	%xmm0, -80(%rcx,%r11)
	movups	-40(%r8,%r11), %xmm0
	movups	-24(%r8,%r11), %xmm1
	movq	-8(%r8,%r11), %r15
	movq	%r15, -8(%rcx,%r11)
	movups	%xmm1, -24(%rcx,%r11)
	movups	%xmm0, -40(%rcx,%r11)
	movups	(%r8,%r11), %xmm0
	movups	16(%r8,%r11), %xmm1
	movq	32(%r8,%r11), %r15
	movq	%r15, 32(%rcx,%r11)
	movups	%xmm1, 16(%rcx,%r11)
	movups	%xmm0, (%rcx,%r11)
	addq	$8, %r10
	addq	$320, %r11
	cmpq	%r10, %r9
	jne	.LBB42_10
	testq	%rax, %rax
	je	.LBB42_14
.LBB42_12:
	shlq	$3, %r10
	leaq	(%r10,%r10,4), %rcx
	addq	%rcx, %r8
	addq	%r14, %rcx
	addq	%rdx, %rcx
	shll	$3, %eax
	leaq	(%rax,%rax,4), %rax
	xorl	%edx, %edx
	.p2align	4
.LBB42_13:
	movups	(%r8,%rdx), %xmm0
	movups	16(%r8,%rdx), %xmm1
	movq	32(%r8,%rdx), %r9
	movq	%r9, 32(%rcx,%rdx)
	movups	%xmm1, 16(%rcx,%rdx)
	movups	%xmm0, (%rcx,%rdx)
	addq	$40, %rdx
	cmpq	%rdx, %rax
	jne	.LBB42_13
.LBB42_14:
	movq	%r14, (%rsi)
	movq	%rbx, 8(%rsi)
	movq	%rdi, 16(%rsi)
	jmp	.LBB42_29
.LBB42_23:
	andq	$-8, %r9
	movl	$280, %r11d
	xorl	%r10d, %r10d
	.p2align	4
.LBB42_24:
	movups	-280(%r8,%r11), %xmm0
	movups	-264(%r8,%r11), %xmm1
	movq	-248(%r8,%r11), %r15
	movq	%r15, -248(%rcx,%r11)
	movups	%xmm1, -264(%rcx,%r11)
	movups	%xmm0, -280(%rcx,%r11)
	movups	-240(%r8,%r11), %xmm0
	movups	-224(%r8,%r11), %xmm1
	movq	-208(%r8,%r11), %r15
	movq	%r15, -208(%rcx,%r11)
	movups	%xmm1, -224(%rcx,%r11)
	movups	%xmm0, -240(%rcx,%r11)
	movups	-200(%r8,%r11), %xmm0
	movups	-184(%r8,%r11), %xmm1
	movq	-168(%r8,%r11), %r15
	movq	%r15, -168(%rcx,%r11)
	movups	%xmm1, -184(%rcx,%r11)
	movups	%xmm0, -200(%rcx,%r11)
	movups	-160(%r8,%r11), %xmm0
	movups	-144(%r8,%r11), %xmm1
	movq	-128(%r8,%r11), %r15
	movq	%r15, -128(%rcx,%r11)
	movups	%xmm1, -144(%rcx,%r11)
	movups	%xmm0, -160(%rcx,%r11)
	movups	-120(%r8,%r11), %xmm0
	movups	-104(%r8,%r11), %xmm1
	movq	-88(%r8,%r11), %r15
	movq	%r15, -88(%rcx,%r11)
	movups	%xmm1, -104(%rcx,%r11)
	movups	%xmm0, -120(%rcx,%r11)
	movups	-80(%r8,%r11), %xmm0
	movups	-64(%r8,%r11), %xmm1
	movq	-48(%r8,%r11), %r15
	movq	%r15, -48(%rcx,%r11)
	movups	%xmm1, -64(%rcx,%r11)
	movups	%xmm0, -80(%rcx,%r11)
	movups	-40(%r8,%r11), %xmm0
	movups	-24(%r8,%r11), %xmm1
	movq	-8(%r8,%r11), %r15
	movq	%r15, -8(%rcx,%r11)
	movups	%xmm1, -24(%rcx,%r11)
	movups	%xmm0, -40(%rcx,%r11)
	movups	(%r8,%r11), %xmm0
	movups	16(%r8,%r11), %xmm1
	movq	32(%r8,%r11), %r15
	movq	%r15, 32(%rcx,%r11)
	movups	%xmm1, 16(%rcx,%r11)
	movups	%xmm0, (%rcx,%r11)
	addq	$8, %r10
	addq	$320, %r11
	cmpq	%r10, %r9
	jne	.LBB42_24
	testq	%rax, %rax
	je	.LBB42_28
.LBB42_26:
	shlq	$3, %r10
	leaq	(%r10,%r10,4), %rcx
	addq	%rcx, %r8
	addq	%r14, %rcx
	addq	%rdx, %rcx
	shll	$3, %eax
	leaq	(%rax,%rax,4), %rax
	xorl	%edx, %edx
	.p2align	4
.LBB42_27:
	movups	(%r8,%rdx), %xmm0
	movups	16(%r8,%rdx), %xmm1
	movq	32(%r8,%rdx), %r9
	movq	%r9, 32(%rcx,%rdx)
	movups	%xmm1, 16(%rcx,%rdx)
	movups	%xmm0, (%rcx,%rdx)
	addq	$40, %rdx
	cmpq	%rdx, %rax
	jne	.LBB42_27
.LBB42_28:
	movq	%r14, 32(%rsi)
	movq	%rbx, 40(%rsi)
	movq	%rdi, 48(%rsi)
.LBB42_29:
	xorl	%eax, %eax
.LBB42_30:
	addq	$32, %rsp
	popq	%rbx
	popq	%rdi
	popq	%rsi
	popq	%r14
	popq	%r15
	retq
.LBB42_2:
	movq	%r8, %rbx
	movq	%rsi, %rcx
	movq	%r9, %r14
	movq	%r9, %rdx
	callq	"std_alloc::vec::Vec::grow_amortized::<#1ed62de40e111fb4>"
	movl	%eax, %ecx
	movb	$1, %al
	testb	%cl, %cl
	je	.LBB42_30
	movq	8(%rsi), %rax
	movq	16(%rsi), %rdi
	movq	%rbx, %r8
	movq	%r14, %r9
	jmp	.LBB42_4
.LBB42_16:
	movq	%r8, %rbx
	leaq	32(%rsi), %rcx
	movq	%r9, %r14
	movq	%r9, %rdx
	callq	"std_alloc::vec::Vec::grow_amortized::<#1ed62de40e111fb4>"
	movl	%eax, %ecx
	movb	$1, %al
	testb	%cl, %cl
	je	.LBB42_30
	movq	40(%rsi), %rax
	movq	48(%rsi), %rdi
	movq	%rbx, %r8
	movq	%r14, %r9
	jmp	.LBB42_18
	.seh_endproc

	.section	.text
	.p2align	4
	.def	"subtree_levels::collapse::collapse_middle::<#4baefd862f873d89>";
	.scl	3;
	.type	32;
	.endef
"subtree_levels::collapse::collapse_middle::<#4baefd862f873d89>":
.seh_proc "subtree_levels::collapse::collapse_middle::<#4baefd862f873d89>"
	pushq	%r15
	.seh_pushreg %r15
	pushq	%r14
	.seh_pushreg %r14
	pushq	%r13
	.seh_pushreg %r13
	pushq	%r12
	.seh_pushreg %r12
	pushq	%rsi
	.seh_pushreg %rsi
	pushq	%rdi
	.seh_pushreg %rdi
	pushq	%rbp
	.seh_pushreg %rbp
	pushq	%rbx
	.seh_pushreg %rbx
	subq	$264, %rsp
	.seh_stackalloc 264
	.seh_endprologue
	movq	%r9, 96(%rsp)
	movq	%rcx, %rsi
	movabsq	$230584300921369396, %r10
	movq	(%rdx), %rax
	movq	%rax, 56(%rsp)
	movq	8(%rdx), %rbx
	movq	16(%rdx), %rax
	movq	%rax, 48(%rsp)
	movq	(%r8), %r15
	movq	8(%r8), %rdi
	movq	16(%r8), %rax
	movq	%rax, 88(%rsp)
	movq	24(%r8), %rax
	movq	%rax, 104(%rsp)
	movq	32(%r8), %rbp
	movq	40(%r8), %r14
	xorps	%xmm0, %xmm0
	movaps	%xmm0, 128(%rsp)
	movaps	%xmm0, 112(%rsp)
	movaps	%xmm0, 144(%rsp)
	movups	%xmm0, 159(%rsp)
	leaq	40(%rsp), %r13
	movq	%r13, %r12
	testq	%rdi, %rdi
	je	.LBB43_10
	cmpq	%r10, %rdi
	jae	.LBB43_25
	leaq	(,%rdi,8), %rax
	leaq	(%rax,%rax,4), %rcx
	movl	$8, %edx
	movq	%r10, %r12
	callq	in_registers_of_rattle_alloc
	testb	$1, %al
	je	.LBB43_25
	movq	%r12, %r10
	movq	%rdx, %r12
	movl	%edi, %eax
	andl	$3, %eax
	cmpq	$4, %rdi
	jae	.LBB43_5
	xorl	%ecx, %ecx
	jmp	.LBB43_8
.LBB43_5:
	movabsq	$288230376151711740, %rdx
	andq	%rdi, %rdx
	movl	$152, %r8d
	xorl	%ecx, %ecx
	.p2align	4
.LBB43_6:
	movq	-120(%r15,%r8), %r9
	movups	-152(%r15,%r8), %xmm0
	movups	-136(%r15,%r8), %xmm1
	movups	%xmm1, -136(%r12,%r8)
	movups	%xmm0, -152(%r12,%r8)
	movq	%r9, -120(%r12,%r8)
	movq	-80(%r15,%r8), %r9
	movups	-112(%r15,%r8), %xmm0
	movups	-96(%r15,%r8), %xmm1
	movups	%xmm1, -96(%r12,%r8)
	movups	%xmm0, -112(%r12,%r8)
	movq	%r9, -80(%r12,%r8)
	movq	-40(%r15,%r8), %r9
	movups	-72(%r15,%r8), %xmm0
	movups	-56(%r15,%r8), %xmm1
	movups	%xmm1, -56(%r12,%r8)
	movups	%xmm0, -72(%r12,%r8)
	movq	%r9, -40(%r12,%r8)
	movq	(%r15,%r8), %r9
	movups	-32(%r15,%r8), %xmm0
	movups	-16(%r15,%r8), %xmm1
	movups	%xmm1, -16(%r12,%r8)
	movups	%xmm0, -32(%r12,%r8)
	movq	%r9, (%r12,%r8)
	addq	$4, %rcx
	addq	$160, %r8
	cmpq	%rcx, %rdx
	jne	.LBB43_6
	testq	%rax, %rax
	je	.LBB43_10
.LBB43_8:
	leaq	(%rcx,%rcx,4), %rdx
	leaq	(%r12,%rdx,8), %rcx
	addq	$32, %rcx
	leaq	(%r15,%rdx,8), %rdx
	addq	$32, %rdx
	shll	$3, %eax
	leaq	(%rax,%rax,4), %rax
	xorl	%r8d, %r8d
	.p2align	4
.LBB43_9:
	movq	(%rdx,%r8), %r9
	movups	-32(%rdx,%r8), %xmm0
	movups	-16(%rdx,%r8), %xmm1
	movups	%xmm1, -16(%rcx,%r8)
	movups	%xmm0, -32(%rcx,%r8)
	movq	%r9, (%rcx,%r8)
	addq	$40, %r8
	cmpq	%r8, %rax
	jne	.LBB43_9
.LBB43_10:
	testq	%r14, %r14
	je	.LBB43_20
	cmpq	%r10, %r14
	jae	.LBB43_23
	leaq	(,%r14,8), %rax
	leaq	(%rax,%rax,4), %rcx
	movl	$8, %edx
	movq	%r10, %r15
	callq	in_registers_of_rattle_alloc
	testb	$1, %al
	je	.LBB43_23
	movq	%r15, %r10
	movq	%rdx, %r13
	movl	%r14d, %eax
	andl	$3, %eax
	cmpq	$4, %r14
	jae	.LBB43_15
	xorl	%ecx, %ecx
	jmp	.LBB43_18
.LBB43_23:
	testq	%rdi, %rdi
	je	.LBB43_25
	movq	%r12, %rcx
	callq	yurewha_heap_dealloc
.LBB43_25:
	testq	%rbx, %rbx
	movq	56(%rsp), %r12
	je	.LBB43_32
	leaq	48(%r12), %r14
	jmp	.LBB43_27
	.p2align	4
.LBB43_31:
	addq	$56, %r14
	decq	%rbx
	je	.LBB43_32
.LBB43_27:
	movq	-16(%r14), %rdi
	movq	(%r14), %r15
	cmpq	$0, -32(%r14)
	je	.LBB43_29
	movq	-48(%r14), %rcx
	callq	yurewha_heap_dealloc
.LBB43_29:
	testq	%r15, %r15
	je	.LBB43_31
	movq	%rdi, %rcx
	callq	yurewha_heap_dealloc
	jmp	.LBB43_31
.LBB43_32:
	cmpq	$0, 48(%rsp)
	je	.LBB43_35
	movq	%r12, %rcx
.LBB43_34:
	callq	yurewha_heap_dealloc
	jmp	.LBB43_35
.LBB43_15:
	movabsq	$288230376151711740, %rdx
	andq	%r14, %rdx
	movl	$152, %r8d
	xorl	%ecx, %ecx
	.p2align	4
.LBB43_16:
	movq	-120(%rbp,%r8), %r9
	movups	-152(%rbp,%r8), %xmm0
	movups	-136(%rbp,%r8), %xmm1
	movups	%xmm1, -136(%r13,%r8)
	movups	%xmm0, -152(%r13,%r8)
	movq	%r9, -120(%r13,%r8)
	movq	-80(%rbp,%r8), %r9
	movups	-112(%rbp,%r8), %xmm0
	movups	-96(%rbp,%r8), %xmm1
	movups	%xmm1, -96(%r13,%r8)
	movups	%xmm0, -112(%r13,%r8)
	movq	%r9, -80(%r13,%r8)
	movq	-40(%rbp,%r8), %r9
	movups	-72(%rbp,%r8), %xmm0
	movups	-56(%rbp,%r8), %xmm1
	movups	%xmm1, -56(%r13,%r8)
	movups	%xmm0, -72(%r13,%r8)
	movq	%r9, -40(%r13,%r8)
	movq	(%rbp,%r8), %r9
	movups	-32(%rbp,%r8), %xmm0
	movups	-16(%rbp,%r8), %xmm1
	movups	%xmm1, -16(%r13,%r8)
	movups	%xmm0, -32(%r13,%r8)
	movq	%r9, (%r13,%r8)
	addq	$4, %rcx
	addq	$160, %r8
	cmpq	%rcx, %rdx
	jne	.LBB43_16
	testq	%rax, %rax
	je	.LBB43_20
.LBB43_18:
	leaq	(%rcx,%rcx,4), %rdx
	leaq	32(,%rdx,8), %rcx
	addq	%r13, %rcx
	leaq	32(,%rdx,8), %rdx
	addq	%rbp, %rdx
	shll	$3, %eax
	leaq	(%rax,%rax,4), %rax
	xorl	%r8d, %r8d
	.p2align	4
.LBB43_19:
	movq	(%rdx,%r8), %r9
	movups	-32(%rdx,%r8), %xmm0
	movups	-16(%rdx,%r8), %xmm1
	movups	%xmm1, -16(%rcx,%r8)
	movups	%xmm0, -32(%rcx,%r8)
	movq	%r9, (%rcx,%r8)
	addq	$40, %r8
	cmpq	%r8, %rax
	jne	.LBB43_19
.LBB43_20:
	movq	%r10, %rbp
	movq	56(%rsp), %rax
	movq	%rax, 184(%rsp)
	movq	%rbx, 192(%rsp)
	movq	48(%rsp), %rax
	movq	%rax, 200(%rsp)
	movq	%r12, 208(%rsp)
	movq	%rdi, 216(%rsp)
	movq	%rdi, 224(%rsp)
	movq	$0, 232(%rsp)
	movq	%r13, 240(%rsp)
	movq	%r14, 248(%rsp)
	movq	%r14, 256(%rsp)
	leaq	112(%rsp), %rcx
	leaq	184(%rsp), %rdx
	leaq	208(%rsp), %r8
	callq	"subtree_levels::levels::pushed::<#024afdc31600bcbd>"
	cmpb	$0, 112(%rsp)
	je	.LBB43_21
.LBB43_35:
	movb	$1, (%rsi)
	xorps	%xmm0, %xmm0
	movups	%xmm0, 8(%rsi)
	movups	%xmm0, 24(%rsi)
	movups	%xmm0, 40(%rsi)
.LBB43_36:
	addq	$264, %rsp
	popq	%rbx
	popq	%rbp
	popq	%rdi
	popq	%rsi
	popq	%r12
	popq	%r13
	popq	%r14
	popq	%r15
	retq
.LBB43_21:
	movq	120(%rsp), %r15
	movq	128(%rsp), %r14
	movq	136(%rsp), %rbx
	movabsq	$-6148914691236517205, %rcx
	movq	104(%rsp), %r12
	movq	%r12, %rax
	mulq	%rcx
	shrq	%rdx
	movabsq	$6148914691236517205, %rcx
	xorl	%edi, %edi
	cmpq	%rcx, %rax
	seta	%dil
	addq	%rdx, %rdi
	je	.LBB43_22
	cmpq	%rbp, %rdi
	jae	.LBB43_42
	leaq	(,%rdi,8), %rax
	leaq	(%rax,%rax,4), %rcx
	movl	$8, %edx
	callq	in_registers_of_rattle_alloc
	testb	$1, %al
	jne	.LBB43_39
	jmp	.LBB43_42
.LBB43_22:
	leaq	40(%rsp), %rdx
.LBB43_39:
	movq	%rdx, 64(%rsp)
	movq	$0, 72(%rsp)
	movq	%rdi, 80(%rsp)
	leaq	64(%rsp), %rcx
	movq	88(%rsp), %rdx
	movq	%r12, %r8
	movq	96(%rsp), %r9
	callq	"xet_roots::aggregated_hashes::push_parents::<#135fa06c802d8a86>"
	testb	%al, %al
	je	.LBB43_51
	cmpq	$0, 80(%rsp)
	je	.LBB43_42
	movq	64(%rsp), %rcx
	callq	yurewha_heap_dealloc
.LBB43_42:
	testq	%r14, %r14
	je	.LBB43_49
	leaq	48(%r15), %r12
	jmp	.LBB43_44
	.p2align	4
.LBB43_48:
	addq	$56, %r12
	decq	%r14
	je	.LBB43_49
.LBB43_44:
	movq	-16(%r12), %rdi
	movq	(%r12), %r13
	cmpq	$0, -32(%r12)
	je	.LBB43_46
	movq	-48(%r12), %rcx
	callq	yurewha_heap_dealloc
.LBB43_46:
	testq	%r13, %r13
	je	.LBB43_48
	movq	%rdi, %rcx
	callq	yurewha_heap_dealloc
	jmp	.LBB43_48
.LBB43_49:
	testq	%rbx, %rbx
	je	.LBB43_35
	movq	%r15, %rcx
	jmp	.LBB43_34
.LBB43_51:
	movq	80(%rsp), %rax
	movq	%rax, 167(%rsp)
	movups	64(%rsp), %xmm0
	movups	%xmm0, 151(%rsp)
	movb	$0, (%rsi)
	movq	%r15, 8(%rsi)
	movq	%r14, 16(%rsi)
	movq	%rbx, 24(%rsi)
	movups	151(%rsp), %xmm0
	movups	%xmm0, 32(%rsi)
	movq	167(%rsp), %rax
	movq	%rax, 48(%rsi)
	jmp	.LBB43_36
	.seh_endproc

	.section	.text
	.p2align	4
	.def	"subtree_levels::collapse::collapse::<#4baefd862f873d89>";
	.scl	3;
	.type	32;
	.endef
"subtree_levels::collapse::collapse::<#4baefd862f873d89>":
.seh_proc "subtree_levels::collapse::collapse::<#4baefd862f873d89>"
	pushq	%r15
	.seh_pushreg %r15
	pushq	%r14
	.seh_pushreg %r14
	pushq	%r13
	.seh_pushreg %r13
	pushq	%r12
	.seh_pushreg %r12
	pushq	%rsi
	.seh_pushreg %rsi
	pushq	%rdi
	.seh_pushreg %rdi
	pushq	%rbp
	.seh_pushreg %rbp
	pushq	%rbx
	.seh_pushreg %rbx
	subq	$328, %rsp
	.seh_stackalloc 328
	movaps	%xmm6, 304(%rsp)
	.seh_savexmm %xmm6, 304
	.seh_endprologue
	movl	%r9d, %ebx
	movq	%rcx, 56(%rsp)
	movzbl	432(%rsp), %ecx
	movq	(%r8), %rdi
	movq	8(%r8), %r14
	movq	16(%r8), %rsi
	xorps	%xmm6, %xmm6
	movaps	%xmm6, 224(%rsp)
	movaps	%xmm6, 208(%rsp)
	movaps	%xmm6, 192(%rsp)
	movq	$0, 240(%rsp)
	movaps	%xmm6, 128(%rsp)
	movaps	%xmm6, 144(%rsp)
	movaps	%xmm6, 160(%rsp)
	movq	$0, 176(%rsp)
	movaps	%xmm6, 96(%rsp)
	movaps	%xmm6, 112(%rsp)
	movups	(%rdx), %xmm0
	movaps	%xmm0, 64(%rsp)
	movq	16(%rdx), %rax
	movq	%rax, 80(%rsp)
	movb	%cl, 32(%rsp)
	leaq	192(%rsp), %rcx
	movq	%rdi, %rdx
	movq	%r14, %r8
	callq	"subtree_levels::split::find_split::<#30d82ebffd2e63ea>"
	cmpb	$1, 192(%rsp)
	jne	.LBB44_1
	leaq	200(%rsp), %r12
	leaq	136(%rsp), %rbp
	jmp	.LBB44_3
	.p2align	4
.LBB44_6:
	movzbl	432(%rsp), %eax
	movb	%al, 32(%rsp)
	leaq	192(%rsp), %rcx
	movq	%r13, %rdx
	movq	%r14, %r8
	movl	%ebx, %r9d
	callq	"subtree_levels::split::find_split::<#30d82ebffd2e63ea>"
	cmpb	$1, 192(%rsp)
	movq	%r15, %rsi
	movq	%r13, %rdi
	jne	.LBB44_7
.LBB44_3:
	leaq	128(%rsp), %rcx
	leaq	64(%rsp), %rdx
	movq	%r12, %r8
	movq	440(%rsp), %r9
	callq	"subtree_levels::collapse::collapse_middle::<#4baefd862f873d89>"
	cmpb	$0, 128(%rsp)
	jne	.LBB44_9
	movq	160(%rsp), %r13
	movq	168(%rsp), %r14
	movq	176(%rsp), %r15
	movups	(%rbp), %xmm0
	movaps	%xmm0, 64(%rsp)
	movq	16(%rbp), %rax
	movq	%rax, 80(%rsp)
	testq	%rsi, %rsi
	je	.LBB44_6
	movq	%rdi, %rcx
	callq	yurewha_heap_dealloc
	jmp	.LBB44_6
.LBB44_1:
	movq	%rdi, %r13
	movq	%rsi, %r15
.LBB44_7:
	movups	%xmm6, 288(%rsp)
	movq	%r13, 248(%rsp)
	movq	%r14, 256(%rsp)
	movq	%r15, 264(%rsp)
	movq	$0, 272(%rsp)
	leaq	48(%rsp), %rax
	movq	%rax, 280(%rsp)
	leaq	96(%rsp), %rcx
	leaq	64(%rsp), %rdx
	leaq	248(%rsp), %r8
	callq	"subtree_levels::levels::pushed::<#024afdc31600bcbd>"
	movq	56(%rsp), %rcx
	leaq	8(%rcx), %rax
	cmpb	$0, 96(%rsp)
	je	.LBB44_8
	movb	$1, (%rcx)
	xorps	%xmm0, %xmm0
	movups	%xmm0, (%rax)
	movq	$0, 16(%rax)
	jmp	.LBB44_13
.LBB44_8:
	movb	$0, (%rcx)
	movq	120(%rsp), %rcx
	movq	%rcx, 16(%rax)
	movups	104(%rsp), %xmm0
	movups	%xmm0, (%rax)
	jmp	.LBB44_13
.LBB44_9:
	testq	%rsi, %rsi
	je	.LBB44_11
	movq	%rdi, %rcx
	callq	yurewha_heap_dealloc
.LBB44_11:
	movq	56(%rsp), %rax
	movb	$1, (%rax)
	xorps	%xmm0, %xmm0
	movups	%xmm0, 8(%rax)
	movq	$0, 24(%rax)
.LBB44_13:
	movaps	304(%rsp), %xmm6
	addq	$328, %rsp
	popq	%rbx
	popq	%rbp
	popq	%rdi
	popq	%rsi
	popq	%r12
	popq	%r13
	popq	%r14
	popq	%r15
	retq
	.seh_endproc

	.section	.text
	.p2align	4
	.def	"upload_session::runs::Runs::put_before_next::<#ca9445b3ca2ffbf0>";
	.scl	3;
	.type	32;
	.endef
"upload_session::runs::Runs::put_before_next::<#ca9445b3ca2ffbf0>":
.seh_proc "upload_session::runs::Runs::put_before_next::<#ca9445b3ca2ffbf0>"
	pushq	%r15
	.seh_pushreg %r15
	pushq	%r14
	.seh_pushreg %r14
	pushq	%r13
	.seh_pushreg %r13
	pushq	%r12
	.seh_pushreg %r12
	pushq	%rsi
	.seh_pushreg %rsi
	pushq	%rdi
	.seh_pushreg %rdi
	pushq	%rbp
	.seh_pushreg %rbp
	pushq	%rbx
	.seh_pushreg %rbx
	subq	$200, %rsp
	.seh_stackalloc 200
	.seh_endprologue
	movq	%r8, %r14
	movq	%rdx, %rbx
	movq	%rcx, 48(%rsp)
	movq	304(%rsp), %r15
	movq	(%r9), %rax
	movq	8(%r9), %r13
	movq	16(%r9), %rbp
	movups	24(%r9), %xmm0
	movq	24(%r9), %rcx
	movq	%rcx, 40(%rsp)
	xorps	%xmm1, %xmm1
	movaps	%xmm1, 96(%rsp)
	movaps	%xmm1, 80(%rsp)
	movaps	%xmm1, 64(%rsp)
	movq	$0, 112(%rsp)
	movb	$1, %r12b
	cmpb	$1, (%rdx)
	jne	.LBB45_23
	movq	%r13, 32(%rsp)
	movq	8(%rbx), %rdi
	movzwl	2(%rdi), %edx
	movl	$15, %r8d
	subq	%rdx, %r8
	xorl	%r10d, %r10d
	movq	%rdi, %r13
.LBB45_2:
	movq	%rdi, %r11
	movzwl	(%rdi), %edi
	xorl	%r9d, %r9d
	testq	%rdi, %rdi
	je	.LBB45_9
	.p2align	4
.LBB45_3:
	movq	8(%r11,%r9,8), %rsi
	cmpq	%rsi, %r15
	setae	%cl
	addb	%cl, %cl
	cmpq	%rsi, %r15
	movzbl	%cl, %ecx
	movl	$1, %esi
	cmovnel	%ecx, %esi
	cmpb	$2, %sil
	jne	.LBB45_4
	incq	%r9
	cmpq	%r9, %rdi
	jne	.LBB45_3
	movq	%rdi, %r9
	jmp	.LBB45_9
	.p2align	4
.LBB45_4:
	movzbl	%sil, %ecx
	testl	%ecx, %ecx
	jne	.LBB45_5
.LBB45_9:
	cmpw	$0, 2(%r11)
	je	.LBB45_10
	incq	%r8
	movq	848(%r11,%r9,8), %rdi
	movq	%r9, %r10
	movq	%r11, %r13
	jmp	.LBB45_2
.LBB45_5:
	andl	$15, %r9d
	addq	%r8, %rdx
	cmpq	$15, %rdx
	leaq	848(%r13,%r10,8), %rcx
	leaq	8(%rbx), %rdx
	cmoveq	%rdx, %rcx
	movq	(%rcx), %rcx
	movzwl	(%rcx), %edx
	cmpq	%rdx, %r9
	jae	.LBB45_6
	leaq	(%r9,%r9,2), %rdx
	shll	$4, %edx
	addq	%rcx, %rdx
	addq	$136, %rdx
	xorps	%xmm1, %xmm1
	movaps	%xmm1, 144(%rsp)
	movaps	%xmm1, 128(%rsp)
	movq	%rax, 160(%rsp)
	movq	32(%rsp), %r12
	movq	%r12, 168(%rsp)
	movq	%rbp, 176(%rsp)
	movups	%xmm0, 184(%rsp)
	leaq	128(%rsp), %rcx
	leaq	160(%rsp), %r8
	movb	$1, %r9b
	callq	"xet_merkle::merkle_hash_subtree::subtree::MerkleHashSubtree::merge_with::<#3cf6a99334775a21>"
	cmpb	$0, 128(%rsp)
	je	.LBB45_13
	movzbl	129(%rsp), %r14d
	movzbl	130(%rsp), %r15d
	testq	%rbp, %rbp
	je	.LBB45_46
	leaq	48(%r12), %rdi
	jmp	.LBB45_41
	.p2align	4
.LBB45_45:
	addq	$56, %rdi
	decq	%rbp
	je	.LBB45_46
.LBB45_41:
	movq	-16(%rdi), %rbx
	movq	(%rdi), %rsi
	cmpq	$0, -32(%rdi)
	je	.LBB45_43
	movq	-48(%rdi), %rcx
	callq	yurewha_heap_dealloc
.LBB45_43:
	testq	%rsi, %rsi
	je	.LBB45_45
	movq	%rbx, %rcx
	callq	yurewha_heap_dealloc
	jmp	.LBB45_45
.LBB45_46:
	cmpq	$0, 40(%rsp)
	je	.LBB45_48
	movq	%r12, %rcx
	callq	yurewha_heap_dealloc
.LBB45_48:
	movq	48(%rsp), %rax
	movb	$1, (%rax)
	movb	%r14b, 1(%rax)
	movb	%r15b, 2(%rax)
	jmp	.LBB45_49
.LBB45_13:
	testq	%rbp, %rbp
	je	.LBB45_20
	movq	32(%rsp), %rax
	leaq	48(%rax), %rdi
	movq	%rbp, %r13
	jmp	.LBB45_15
	.p2align	4
.LBB45_19:
	addq	$56, %rdi
	decq	%r13
	je	.LBB45_20
.LBB45_15:
	movq	-16(%rdi), %r12
	movq	(%rdi), %rsi
	cmpq	$0, -32(%rdi)
	je	.LBB45_17
	movq	-48(%rdi), %rcx
	callq	yurewha_heap_dealloc
.LBB45_17:
	testq	%rsi, %rsi
	je	.LBB45_19
	movq	%r12, %rcx
	callq	yurewha_heap_dealloc
	jmp	.LBB45_19
.LBB45_20:
	cmpq	$0, 40(%rsp)
	movq	32(%rsp), %r13
	je	.LBB45_22
	movq	%r13, %rcx
	callq	yurewha_heap_dealloc
.LBB45_22:
	xorl	%r12d, %r12d
	jmp	.LBB45_23
.LBB45_10:
	movq	32(%rsp), %r13
.LBB45_23:
	leaq	64(%rsp), %rcx
	movq	%rbx, %rdx
	movq	%r15, %r8
	callq	"std_collections::btree_map::BTreeMap::remove::<#0b8f5120abf1300c>"
	cmpb	$1, 64(%rsp)
	jne	.LBB45_64
	movq	%r13, 32(%rsp)
	movq	88(%rsp), %r15
	movq	96(%rsp), %r13
	movq	104(%rsp), %rax
	movq	%rax, 56(%rsp)
	cmpb	$1, (%rbx)
	jne	.LBB45_54
	movups	72(%rsp), %xmm1
	movups	104(%rsp), %xmm0
	movq	8(%rbx), %r11
	addq	$8, %rbx
	movzwl	2(%r11), %eax
	movl	$15, %ecx
	subq	%rax, %rcx
	xorl	%r8d, %r8d
	movq	%r11, %r10
.LBB45_26:
	movq	%r11, %r9
	movzwl	(%r11), %r11d
	xorl	%edx, %edx
	testq	%r11, %r11
	je	.LBB45_52
	.p2align	4
.LBB45_27:
	movq	8(%r9,%rdx,8), %rsi
	cmpq	%rsi, %r14
	setae	%dil
	addb	%dil, %dil
	cmpq	%rsi, %r14
	movzbl	%dil, %edi
	movl	$1, %esi
	cmovnel	%edi, %esi
	cmpb	$2, %sil
	jne	.LBB45_28
	incq	%rdx
	cmpq	%rdx, %r11
	jne	.LBB45_27
	movq	%r11, %rdx
	jmp	.LBB45_52
	.p2align	4
.LBB45_28:
	movzbl	%sil, %r11d
	testl	%r11d, %r11d
	jne	.LBB45_29
.LBB45_52:
	cmpw	$0, 2(%r9)
	je	.LBB45_54
	incq	%rcx
	movq	848(%r9,%rdx,8), %r11
	movq	%rdx, %r8
	movq	%r9, %r10
	jmp	.LBB45_26
.LBB45_54:
	testq	%r13, %r13
	je	.LBB45_61
	leaq	48(%r15), %rdi
	jmp	.LBB45_56
	.p2align	4
.LBB45_60:
	addq	$56, %rdi
	decq	%r13
	je	.LBB45_61
.LBB45_56:
	movq	-16(%rdi), %rbx
	movq	(%rdi), %rsi
	cmpq	$0, -32(%rdi)
	je	.LBB45_58
	movq	-48(%rdi), %rcx
	callq	yurewha_heap_dealloc
.LBB45_58:
	testq	%rsi, %rsi
	je	.LBB45_60
	movq	%rbx, %rcx
	callq	yurewha_heap_dealloc
	jmp	.LBB45_60
.LBB45_61:
	cmpq	$0, 56(%rsp)
	movq	32(%rsp), %r13
	je	.LBB45_64
	movq	%r15, %rcx
	jmp	.LBB45_63
.LBB45_29:
	andl	$15, %edx
	addq	%rcx, %rax
	cmpq	$15, %rax
	leaq	848(%r10,%r8,8), %rax
	cmoveq	%rbx, %rax
	movq	(%rax), %rax
	movzwl	(%rax), %ecx
	cmpq	%rcx, %rdx
	jae	.LBB45_6
	movq	%r15, %r9
	leaq	(%rdx,%rdx,2), %rcx
	shll	$4, %ecx
	movq	144(%rax,%rcx), %rbx
	movq	152(%rax,%rcx), %rdi
	movq	160(%rax,%rcx), %r15
	movups	%xmm1, 128(%rax,%rcx)
	movq	%r9, 144(%rax,%rcx)
	movq	%r13, 152(%rax,%rcx)
	movups	%xmm0, 160(%rax,%rcx)
	testq	%rdi, %rdi
	je	.LBB45_37
	leaq	48(%rbx), %r13
	jmp	.LBB45_32
	.p2align	4
.LBB45_36:
	addq	$56, %r13
	decq	%rdi
	je	.LBB45_37
.LBB45_32:
	movq	-16(%r13), %r14
	movq	(%r13), %rsi
	cmpq	$0, -32(%r13)
	je	.LBB45_34
	movq	-48(%r13), %rcx
	callq	yurewha_heap_dealloc
.LBB45_34:
	testq	%rsi, %rsi
	je	.LBB45_36
	movq	%r14, %rcx
	callq	yurewha_heap_dealloc
	jmp	.LBB45_36
.LBB45_37:
	testq	%r15, %r15
	movq	32(%rsp), %r13
	je	.LBB45_64
	movq	%rbx, %rcx
.LBB45_63:
	callq	yurewha_heap_dealloc
.LBB45_64:
	testb	%r12b, %r12b
	je	.LBB45_74
	testq	%rbp, %rbp
	je	.LBB45_72
	leaq	48(%r13), %rdi
	jmp	.LBB45_67
	.p2align	4
.LBB45_71:
	addq	$56, %rdi
	decq	%rbp
	je	.LBB45_72
.LBB45_67:
	movq	-16(%rdi), %rbx
	movq	(%rdi), %rsi
	cmpq	$0, -32(%rdi)
	je	.LBB45_69
	movq	-48(%rdi), %rcx
	callq	yurewha_heap_dealloc
.LBB45_69:
	testq	%rsi, %rsi
	je	.LBB45_71
	movq	%rbx, %rcx
	callq	yurewha_heap_dealloc
	jmp	.LBB45_71
.LBB45_72:
	cmpq	$0, 40(%rsp)
	je	.LBB45_74
	movq	%r13, %rcx
	callq	yurewha_heap_dealloc
.LBB45_74:
	movq	48(%rsp), %rax
	movw	$0, (%rax)
	movb	$0, 2(%rax)
.LBB45_49:
	addq	$200, %rsp
	popq	%rbx
	popq	%rbp
	popq	%rdi
	popq	%rsi
	popq	%r12
	popq	%r13
	popq	%r14
	popq	%r15
	retq
.LBB45_6:
	ud2
	.seh_endproc

	.section	.text
	.p2align	4
	.def	"std_collections::btree_map::BTreeMap::remove::<#0b8f5120abf1300c>";
	.scl	3;
	.type	32;
	.endef
"std_collections::btree_map::BTreeMap::remove::<#0b8f5120abf1300c>":
.seh_proc "std_collections::btree_map::BTreeMap::remove::<#0b8f5120abf1300c>"
	pushq	%r15
	.seh_pushreg %r15
	pushq	%r14
	.seh_pushreg %r14
	pushq	%r13
	.seh_pushreg %r13
	pushq	%r12
	.seh_pushreg %r12
	pushq	%rsi
	.seh_pushreg %rsi
	pushq	%rdi
	.seh_pushreg %rdi
	pushq	%rbp
	.seh_pushreg %rbp
	pushq	%rbx
	.seh_pushreg %rbx
	subq	$360, %rsp
	.seh_stackalloc 360
	.seh_endprologue
	movq	%rcx, 56(%rsp)
	xorps	%xmm0, %xmm0
	movaps	%xmm0, 240(%rsp)
	movaps	%xmm0, 224(%rsp)
	movaps	%xmm0, 208(%rsp)
	movaps	%xmm0, 288(%rsp)
	movaps	%xmm0, 272(%rsp)
	movaps	%xmm0, 256(%rsp)
	cmpb	$1, (%rdx)
	jne	.LBB46_33
	leaq	8(%rdx), %rax
	movq	%rax, 152(%rsp)
	movq	8(%rdx), %r13
	movzwl	2(%r13), %r9d
	movl	$15, %eax
	subq	%r9, %rax
	movb	$1, %bpl
	xorl	%r11d, %r11d
	xorl	%r15d, %r15d
	movq	%r13, %r12
	movq	%rax, %r10
	xorl	%ecx, %ecx
.LBB46_2:
	movq	%r13, %r14
	movzwl	(%r13), %r13d
	xorl	%ebx, %ebx
	testq	%r13, %r13
	je	.LBB46_17
	.p2align	4
.LBB46_3:
	movq	8(%r14,%rbx,8), %rdi
	cmpq	%rdi, %r8
	setae	%sil
	addb	%sil, %sil
	cmpq	%rdi, %r8
	movzbl	%sil, %esi
	movl	$1, %edi
	cmovnel	%esi, %edi
	cmpb	$2, %dil
	jne	.LBB46_4
	incq	%rbx
	cmpq	%rbx, %r13
	jne	.LBB46_3
	movq	%r13, %rbx
	jmp	.LBB46_17
	.p2align	4
.LBB46_4:
	movzbl	%dil, %esi
	testl	%esi, %esi
	jne	.LBB46_5
.LBB46_17:
	cmpw	$0, 2(%r14)
	je	.LBB46_33
	incq	%r10
	shlq	$4, %rcx
	addq	%rbx, %rcx
	movq	848(%r14,%rbx,8), %r13
	incq	%r11
	incb	%bpl
	movq	%rbx, %r15
	movq	%r14, %r12
	jmp	.LBB46_2
.LBB46_33:
	movq	56(%rsp), %rax
	movups	%xmm0, 32(%rax)
	movups	%xmm0, 16(%rax)
	movups	%xmm0, (%rax)
	movq	$0, 48(%rax)
	jmp	.LBB46_34
.LBB46_5:
	shlq	$4, %rcx
	addq	%rbx, %rcx
	incq	%r10
	xorps	%xmm0, %xmm0
	movaps	%xmm0, 336(%rsp)
	movaps	%xmm0, 320(%rsp)
	movaps	%xmm0, 304(%rsp)
	decq	16(%rdx)
	cmpq	$16, %r10
	jne	.LBB46_6
	testq	%r9, %r9
	leaq	848(%r12,%r15,8), %r14
	movq	152(%rsp), %r15
	cmoveq	%r15, %r14
	movq	(%r14), %rdx
	movzwl	(%rdx), %r8d
	cmpq	$8, %r8
	jb	.LBB46_21
	andl	$15, %ebx
	leaq	1(%r8), %rax
	xorl	%ecx, %ecx
	xorl	%r9d, %r9d
	cmpw	$0, 2(%rdx)
	cmovneq	%rax, %rcx
	setne	%r9b
	shll	$4, %r9d
	leaq	848(%rdx), %rax
	leaq	128(%rdx), %r10
	leaq	8(%rdx), %r11
	movq	%r11, 64(%rsp)
	movq	%r8, 72(%rsp)
	movq	$15, 80(%rsp)
	leaq	88(%rsp), %rdi
	movq	%r10, 88(%rsp)
	movq	%r8, 96(%rsp)
	movq	$15, 104(%rsp)
	movq	%rax, 112(%rsp)
	movq	%rcx, 120(%rsp)
	movq	%r9, 128(%rsp)
	movq	%rdx, 136(%rsp)
	movaps	%xmm0, 160(%rsp)
	movaps	%xmm0, 176(%rsp)
	movaps	%xmm0, 192(%rsp)
	leaq	64(%rsp), %rcx
	movq	%rbx, %rdx
	callq	"std_alloc::vec::Vec::remove::<#0c35fd3905773d29>"
	leaq	160(%rsp), %rcx
	movq	%rdi, %rdx
	movq	%rbx, %r8
	callq	"std_alloc::vec::Vec::remove::<#7f26edd6ea879dba>"
	movzwl	72(%rsp), %eax
	movq	136(%rsp), %rcx
	movw	%ax, (%rcx)
	movq	%rcx, (%r14)
	movaps	160(%rsp), %xmm0
	movaps	176(%rsp), %xmm1
	movaps	192(%rsp), %xmm2
	movaps	%xmm2, 96(%rsp)
	movaps	%xmm1, 80(%rsp)
	movaps	%xmm0, 64(%rsp)
	movq	56(%rsp), %rdi
	jmp	.LBB46_32
.LBB46_6:
	movaps	%xmm0, 32(%rsp)
	movq	%r10, %r9
	subq	%rax, %r9
	movq	56(%rsp), %rdi
	movq	152(%rsp), %rbx
	jbe	.LBB46_12
	movl	%r11d, %edx
	notl	%edx
	testb	$3, %dl
	je	.LBB46_10
	movzbl	%bpl, %edx
	andl	$3, %edx
	.p2align	4
.LBB46_9:
	movl	%ecx, %r8d
	andb	$15, %r8b
	movb	%r8b, 31(%rsp,%r10)
	decq	%r10
	shrq	$4, %rcx
	decq	%rdx
	jne	.LBB46_9
.LBB46_10:
	cmpq	$3, %r11
	jb	.LBB46_12
	.p2align	4
.LBB46_11:
	movl	%ecx, %edx
	andb	$15, %dl
	movb	%dl, 31(%rsp,%r10)
	movl	%ecx, %edx
	shrb	$4, %dl
	movb	%dl, 30(%rsp,%r10)
	movl	%ecx, %edx
	shrl	$8, %edx
	andb	$15, %dl
	movb	%dl, 29(%rsp,%r10)
	movl	%ecx, %edx
	shrl	$12, %edx
	andb	$15, %dl
	movb	%dl, 28(%rsp,%r10)
	addq	$-4, %r10
	shrq	$16, %rcx
	cmpq	%r10, %rax
	jb	.LBB46_11
.LBB46_12:
	leaq	(%rsp,%rax), %r8
	addq	$32, %r8
	leaq	64(%rsp), %rcx
	movq	%rbx, %rdx
	callq	"std_collections::btree::node::Node::take_at::<#1aacfcd96822f18e>"
	movq	(%rbx), %rcx
	cmpw	$0, (%rcx)
	jne	.LBB46_31
	cmpw	$0, 2(%rcx)
	je	.LBB46_31
	movq	848(%rcx), %rsi
	callq	yurewha_heap_dealloc
	movq	%rsi, (%rbx)
	jmp	.LBB46_31
.LBB46_21:
	movaps	%xmm0, 32(%rsp)
	cmpl	$15, %eax
	movq	56(%rsp), %rdi
	ja	.LBB46_28
	leaq	1(%r9), %r8
	movl	%r8d, %edx
	andl	$3, %edx
	movl	$16, %r10d
	cmpw	$3, %r9w
	jb	.LBB46_26
	andl	$-4, %r8d
	.p2align	4
.LBB46_24:
	movl	%ecx, %r11d
	andb	$15, %r11b
	movb	%r11b, 31(%rsp,%r10)
	movl	%ecx, %r11d
	shrb	$4, %r11b
	movb	%r11b, 30(%rsp,%r10)
	movl	%ecx, %r11d
	shrl	$8, %r11d
	andb	$15, %r11b
	movb	%r11b, 29(%rsp,%r10)
	movl	%ecx, %r11d
	shrl	$12, %r11d
	andb	$15, %r11b
	movb	%r11b, 28(%rsp,%r10)
	leaq	(%r8,%r10), %r11
	addq	$-4, %r11
	addq	$-4, %r10
	shrq	$16, %rcx
	cmpq	$16, %r11
	jne	.LBB46_24
	testq	%rdx, %rdx
	je	.LBB46_28
.LBB46_26:
	leaq	32(%rsp), %r8
	addq	%r10, %r8
	decq	%r8
	negq	%rdx
	xorl	%r10d, %r10d
	.p2align	4
.LBB46_27:
	movl	%ecx, %r11d
	andb	$15, %r11b
	movb	%r11b, (%r8,%r10)
	shrq	$4, %rcx
	decq	%r10
	cmpq	%r10, %rdx
	jne	.LBB46_27
.LBB46_28:
	leaq	(%rsp,%rax), %r8
	addq	$32, %r8
	incq	%r9
	leaq	64(%rsp), %rcx
	movq	%r15, %rdx
	callq	"std_collections::btree::node::Node::take_at::<#1aacfcd96822f18e>"
	movq	(%r15), %rcx
	cmpw	$0, (%rcx)
	jne	.LBB46_31
	cmpw	$0, 2(%rcx)
	je	.LBB46_31
	movq	848(%rcx), %rsi
	callq	yurewha_heap_dealloc
	movq	%rsi, (%r15)
.LBB46_31:
	movups	72(%rsp), %xmm0
	movups	88(%rsp), %xmm1
	movups	104(%rsp), %xmm2
	movaps	%xmm2, 192(%rsp)
	movaps	%xmm1, 176(%rsp)
	movaps	%xmm0, 160(%rsp)
	movaps	%xmm0, 64(%rsp)
	movaps	%xmm1, 80(%rsp)
	movaps	%xmm2, 96(%rsp)
.LBB46_32:
	movaps	64(%rsp), %xmm0
	movaps	80(%rsp), %xmm1
	movaps	96(%rsp), %xmm2
	movaps	%xmm1, 272(%rsp)
	movaps	%xmm2, 240(%rsp)
	movaps	%xmm0, 208(%rsp)
	movaps	%xmm1, 224(%rsp)
	movq	$1, (%rdi)
	movaps	208(%rsp), %xmm0
	movaps	224(%rsp), %xmm1
	movaps	240(%rsp), %xmm2
	movups	%xmm0, 8(%rdi)
	movups	%xmm1, 24(%rdi)
	movups	%xmm2, 40(%rdi)
.LBB46_34:
	addq	$360, %rsp
	popq	%rbx
	popq	%rbp
	popq	%rdi
	popq	%rsi
	popq	%r12
	popq	%r13
	popq	%r14
	popq	%r15
	retq
	.seh_endproc

	.section	.text
	.p2align	4
	.def	"std_alloc::vec::Vec::remove::<#0c35fd3905773d29>";
	.scl	3;
	.type	32;
	.endef
"std_alloc::vec::Vec::remove::<#0c35fd3905773d29>":
.seh_proc "std_alloc::vec::Vec::remove::<#0c35fd3905773d29>"
	pushq	%r15
	.seh_pushreg %r15
	pushq	%r14
	.seh_pushreg %r14
	pushq	%r12
	.seh_pushreg %r12
	pushq	%rsi
	.seh_pushreg %rsi
	pushq	%rdi
	.seh_pushreg %rdi
	pushq	%rbx
	.seh_pushreg %rbx
	.seh_endprologue
	movq	(%rcx), %r8
	movq	8(%rcx), %rsi
	movq	16(%rcx), %r9
	xorps	%xmm0, %xmm0
	movups	%xmm0, 8(%rcx)
	leaq	(,%rdx,8), %rdi
	movq	(%r8,%rdx,8), %rax
	leaq	-1(%rsi), %r10
	movq	%r10, %r11
	subq	%rdx, %r11
	cmpq	$-1, %rdx
	je	.LBB47_9
	cmpq	$257, %r11
	jb	.LBB47_17
	leaq	(%r8,%rdx,8), %rbx
	leaq	(%r8,%rdi), %r14
	addq	$2048, %r14
	leaq	(%r8,%rdi), %r15
	addq	$56, %r15
	xorl	%r12d, %r12d
	jmp	.LBB47_4
	.p2align	4
.LBB47_3:
	leaq	256(%rdi), %rdx
	movq	%r10, %r11
	subq	%rdx, %r11
	incq	%r12
	addq	$2048, %r15
	addq	$2048, %rbx
	cmpq	$256, %r11
	jbe	.LBB47_18
.LBB47_4:
	movq	%rdx, %rdi
	cmpq	$-1, %rdx
	je	.LBB47_7
	xorl	%edx, %edx
	.p2align	4
.LBB47_6:
	movups	-48(%r15,%rdx,8), %xmm0
	movups	-32(%r15,%rdx,8), %xmm1
	movups	-16(%r15,%rdx,8), %xmm2
	movups	(%r15,%rdx,8), %xmm3
	movups	%xmm0, -56(%r15,%rdx,8)
	movups	%xmm1, -40(%r15,%rdx,8)
	movups	%xmm2, -24(%r15,%rdx,8)
	movups	%xmm3, -8(%r15,%rdx,8)
	addq	$8, %rdx
	cmpq	$256, %rdx
	jne	.LBB47_6
	jmp	.LBB47_3
	.p2align	4
.LBB47_7:
	movq	%r12, %rdx
	shlq	$11, %rdx
	movq	(%r14,%rdx), %rdx
	movl	$2048, %r11d
	.p2align	4
.LBB47_8:
	movq	%rdx, -8(%rbx,%r11)
	movq	%rdx, -16(%rbx,%r11)
	movq	%rdx, -24(%rbx,%r11)
	movq	%rdx, -32(%rbx,%r11)
	addq	$-32, %r11
	jne	.LBB47_8
	jmp	.LBB47_3
.LBB47_9:
	testq	%rsi, %rsi
	je	.LBB47_36
	xorl	%ebx, %ebx
	cmpq	$6, %r11
	jb	.LBB47_15
	leaq	(,%rdx,8), %r14
	negq	%r14
	cmpq	$32, %r14
	jb	.LBB47_15
	movq	%r11, %rbx
	andq	$-4, %rbx
	movq	%rbx, %r14
	negq	%r14
	leaq	-24(,%rsi,8), %r15
	subq	%rdi, %r15
	addq	%r8, %r15
	leaq	(%r8,%rsi,8), %rdi
	addq	$-24, %rdi
	xorl	%r12d, %r12d
	.p2align	4
.LBB47_13:
	movups	-16(%r15,%r12,8), %xmm0
	movups	(%r15,%r12,8), %xmm1
	movups	%xmm1, (%rdi,%r12,8)
	movups	%xmm0, -16(%rdi,%r12,8)
	addq	$-4, %r12
	cmpq	%r12, %r14
	jne	.LBB47_13
	cmpq	%rbx, %r11
	je	.LBB47_36
.LBB47_15:
	leaq	(%rbx,%rdx), %r11
	addq	%rbx, %rdx
	incq	%rdx
	shlq	$3, %r11
	negq	%r11
	addq	%r8, %r11
	addq	$-16, %r11
	shlq	$3, %rbx
	negq	%rbx
	leaq	(%r8,%rbx), %rdi
	addq	$-16, %rdi
	.p2align	4
.LBB47_16:
	movq	(%r11,%rsi,8), %rbx
	movq	%rbx, (%rdi,%rsi,8)
	decq	%rsi
	cmpq	%rsi, %rdx
	jne	.LBB47_16
	jmp	.LBB47_36
.LBB47_17:
	leaq	(%r8,%rdi), %rsi
	cmpq	%rdx, %r10
	jne	.LBB47_20
	jmp	.LBB47_36
.LBB47_18:
	cmpq	$-1, %rdx
	je	.LBB47_24
	leaq	(,%rdx,8), %rdi
	leaq	(%r8,%rdx,8), %rsi
	cmpq	%rdx, %r10
	je	.LBB47_36
.LBB47_20:
	cmpq	$8, %r11
	jb	.LBB47_21
	leaq	(%rdi,%r8), %rdx
	subq	%rsi, %rdx
	addq	$-8, %rdx
	cmpq	$32, %rdx
	jae	.LBB47_27
.LBB47_21:
	xorl	%edx, %edx
.LBB47_30:
	movq	%r11, %r14
	movq	%rdx, %rbx
	andq	$3, %r14
	je	.LBB47_33
	leaq	(%r8,%rdi), %r15
	movq	%rdx, %rbx
	.p2align	4
.LBB47_32:
	movq	8(%rsi,%rbx,8), %r12
	movq	%r12, (%r15,%rbx,8)
	incq	%rbx
	decq	%r14
	jne	.LBB47_32
.LBB47_33:
	subq	%r11, %rdx
	cmpq	$-4, %rdx
	ja	.LBB47_36
	leaq	(%rdi,%r8), %rdx
	addq	$24, %rdx
	.p2align	4
.LBB47_35:
	movq	8(%rsi,%rbx,8), %rdi
	movq	%rdi, -24(%rdx,%rbx,8)
	movq	16(%rsi,%rbx,8), %rdi
	movq	%rdi, -16(%rdx,%rbx,8)
	movq	24(%rsi,%rbx,8), %rdi
	movq	%rdi, -8(%rdx,%rbx,8)
	movq	32(%rsi,%rbx,8), %rdi
	movq	%rdi, (%rdx,%rbx,8)
	addq	$4, %rbx
	cmpq	%rbx, %r11
	jne	.LBB47_35
	jmp	.LBB47_36
.LBB47_24:
	testq	%rsi, %rsi
	je	.LBB47_36
	movq	-8(%r8,%rsi,8), %rdx
	addq	$-257, %rsi
	.p2align	4
.LBB47_26:
	movq	%rdx, 2040(%r8,%rsi,8)
	decq	%rsi
	cmpq	%rsi, %rdi
	jne	.LBB47_26
	jmp	.LBB47_36
.LBB47_27:
	movl	%r11d, %edx
	andl	$508, %edx
	leaq	(%rdi,%r8), %rbx
	addq	$16, %rbx
	xorl	%r14d, %r14d
	.p2align	4
.LBB47_28:
	movups	8(%rsi,%r14,8), %xmm0
	movups	24(%rsi,%r14,8), %xmm1
	movups	%xmm0, -16(%rbx,%r14,8)
	movups	%xmm1, (%rbx,%r14,8)
	addq	$4, %r14
	cmpq	%r14, %rdx
	jne	.LBB47_28
	cmpq	%rdx, %r11
	jne	.LBB47_30
.LBB47_36:
	movq	%r8, (%rcx)
	movq	%r10, 8(%rcx)
	movq	%r9, 16(%rcx)
	popq	%rbx
	popq	%rdi
	popq	%rsi
	popq	%r12
	popq	%r14
	popq	%r15
	retq
	.seh_endproc

	.section	.text
	.p2align	4
	.def	"std_alloc::vec::Vec::remove::<#7f26edd6ea879dba>";
	.scl	3;
	.type	32;
	.endef
"std_alloc::vec::Vec::remove::<#7f26edd6ea879dba>":
.seh_proc "std_alloc::vec::Vec::remove::<#7f26edd6ea879dba>"
	pushq	%r15
	.seh_pushreg %r15
	pushq	%r14
	.seh_pushreg %r14
	pushq	%r13
	.seh_pushreg %r13
	pushq	%r12
	.seh_pushreg %r12
	pushq	%rsi
	.seh_pushreg %rsi
	pushq	%rdi
	.seh_pushreg %rdi
	pushq	%rbp
	.seh_pushreg %rbp
	pushq	%rbx
	.seh_pushreg %rbx
	subq	$56, %rsp
	.seh_stackalloc 56
	.seh_endprologue
	movq	(%rdx), %rax
	movq	8(%rdx), %rdi
	movq	16(%rdx), %r9
	xorps	%xmm0, %xmm0
	movups	%xmm0, 8(%rdx)
	movq	%r8, %r14
	shlq	$4, %r14
	leaq	(%r14,%r14,2), %r11
	movups	(%rax,%r11), %xmm0
	movups	16(%rax,%r11), %xmm1
	movups	32(%rax,%r11), %xmm2
	movaps	%xmm2, 32(%rsp)
	movaps	%xmm1, 16(%rsp)
	movaps	%xmm0, (%rsp)
	leaq	-1(%rdi), %r10
	movq	%r10, %rsi
	subq	%r8, %rsi
	cmpq	$-1, %r8
	je	.LBB48_20
	cmpq	$43, %rsi
	jb	.LBB48_9
	leaq	1(%r8), %r14
	leaq	2016(%rax), %r15
	xorl	%ebx, %ebx
	jmp	.LBB48_3
	.p2align	4
.LBB48_5:
	movups	(%r15,%r11), %xmm0
	movups	16(%r15,%r11), %xmm1
	movups	32(%r15,%r11), %xmm2
	movups	%xmm2, -16(%r15,%r11)
	movups	%xmm1, -32(%r15,%r11)
	movups	%xmm0, -48(%r15,%r11)
	movups	%xmm0, -96(%r15,%r11)
	movups	%xmm1, -80(%r15,%r11)
	movups	%xmm2, -64(%r15,%r11)
	movups	%xmm0, -144(%r15,%r11)
	movups	%xmm1, -128(%r15,%r11)
	movups	%xmm2, -112(%r15,%r11)
	movups	%xmm2, -160(%r15,%r11)
	movups	%xmm1, -176(%r15,%r11)
	movups	%xmm0, -192(%r15,%r11)
	movups	%xmm0, -240(%r15,%r11)
	movups	%xmm1, -224(%r15,%r11)
	movups	%xmm2, -208(%r15,%r11)
	movups	(%r15,%r11), %xmm0
	movups	16(%r15,%r11), %xmm1
	movups	32(%r15,%r11), %xmm2
	movups	%xmm2, -256(%r15,%r11)
	movups	%xmm1, -272(%r15,%r11)
	movups	%xmm0, -288(%r15,%r11)
	movups	%xmm2, -304(%r15,%r11)
	movups	%xmm1, -320(%r15,%r11)
	movups	%xmm0, -336(%r15,%r11)
	movups	%xmm2, -352(%r15,%r11)
	movups	%xmm1, -368(%r15,%r11)
	movups	%xmm0, -384(%r15,%r11)
	movups	%xmm2, -400(%r15,%r11)
	movups	%xmm1, -416(%r15,%r11)
	movups	%xmm0, -432(%r15,%r11)
	movups	%xmm0, -480(%r15,%r11)
	movups	%xmm1, -464(%r15,%r11)
	movups	%xmm2, -448(%r15,%r11)
	movups	(%r15,%r11), %xmm0
	movups	16(%r15,%r11), %xmm1
	movups	32(%r15,%r11), %xmm2
	movups	%xmm2, -496(%r15,%r11)
	movups	%xmm1, -512(%r15,%r11)
	movups	%xmm0, -528(%r15,%r11)
	movups	(%r15,%r11), %xmm0
	movups	16(%r15,%r11), %xmm1
	movups	32(%r15,%r11), %xmm2
	movups	%xmm2, -544(%r15,%r11)
	movups	%xmm1, -560(%r15,%r11)
	movups	%xmm0, -576(%r15,%r11)
	movups	(%r15,%r11), %xmm0
	movups	16(%r15,%r11), %xmm1
	movups	32(%r15,%r11), %xmm2
	movups	%xmm2, -592(%r15,%r11)
	movups	%xmm1, -608(%r15,%r11)
	movups	%xmm0, -624(%r15,%r11)
	movups	(%r15,%r11), %xmm0
	movups	16(%r15,%r11), %xmm1
	movups	32(%r15,%r11), %xmm2
	movups	%xmm2, -640(%r15,%r11)
	movups	%xmm1, -656(%r15,%r11)
	movups	%xmm0, -672(%r15,%r11)
	movups	(%r15,%r11), %xmm0
	movups	16(%r15,%r11), %xmm1
	movups	32(%r15,%r11), %xmm2
	movups	%xmm2, -688(%r15,%r11)
	movups	%xmm1, -704(%r15,%r11)
	movups	%xmm0, -720(%r15,%r11)
	movups	(%r15,%r11), %xmm0
	movups	16(%r15,%r11), %xmm1
	movups	32(%r15,%r11), %xmm2
	movups	%xmm2, -736(%r15,%r11)
	movups	%xmm1, -752(%r15,%r11)
	movups	%xmm0, -768(%r15,%r11)
	movups	(%r15,%r11), %xmm0
	movups	16(%r15,%r11), %xmm1
	movups	32(%r15,%r11), %xmm2
	movups	%xmm2, -784(%r15,%r11)
	movups	%xmm1, -800(%r15,%r11)
	movups	%xmm0, -816(%r15,%r11)
	movups	(%r15,%r11), %xmm0
	movups	16(%r15,%r11), %xmm1
	movups	32(%r15,%r11), %xmm2
	movups	%xmm2, -832(%r15,%r11)
	movups	%xmm1, -848(%r15,%r11)
	movups	%xmm0, -864(%r15,%r11)
	movups	(%r15,%r11), %xmm0
	movups	16(%r15,%r11), %xmm1
	movups	32(%r15,%r11), %xmm2
	movups	%xmm2, -880(%r15,%r11)
	movups	%xmm1, -896(%r15,%r11)
	movups	%xmm0, -912(%r15,%r11)
	movups	(%r15,%r11), %xmm0
	movups	16(%r15,%r11), %xmm1
	movups	32(%r15,%r11), %xmm2
	movups	%xmm2, -928(%r15,%r11)
	movups	%xmm1, -944(%r15,%r11)
	movups	%xmm0, -960(%r15,%r11)
	movups	(%r15,%r11), %xmm0
	movups	16(%r15,%r11), %xmm1
	movups	32(%r15,%r11), %xmm2
	movups	%xmm2, -976(%r15,%r11)
	movups	%xmm1, -992(%r15,%r11)
	movups	%xmm0, -1008(%r15,%r11)
	movups	(%r15,%r11), %xmm0
	movups	16(%r15,%r11), %xmm1
	movups	32(%r15,%r11), %xmm2
	movups	%xmm2, -1024(%r15,%r11)
	movups	%xmm1, -1040(%r15,%r11)
	movups	%xmm0, -1056(%r15,%r11)
	movups	(%r15,%r11), %xmm0
	movups	16(%r15,%r11), %xmm1
	movups	32(%r15,%r11), %xmm2
	movups	%xmm2, -1072(%r15,%r11)
	movups	%xmm1, -1088(%r15,%r11)
	movups	%xmm0, -1104(%r15,%r11)
	movups	(%r15,%r11), %xmm0
	movups	16(%r15,%r11), %xmm1
	movups	32(%r15,%r11), %xmm2
	movups	%xmm2, -1120(%r15,%r11)
	movups	%xmm1, -1136(%r15,%r11)
	movups	%xmm0, -1152(%r15,%r11)
	movups	(%r15,%r11), %xmm0
	movups	16(%r15,%r11), %xmm1
	movups	32(%r15,%r11), %xmm2
	movups	%xmm2, -1168(%r15,%r11)
	movups	%xmm1, -1184(%r15,%r11)
	movups	%xmm0, -1200(%r15,%r11)
	movups	(%r15,%r11), %xmm0
	movups	16(%r15,%r11), %xmm1
	movups	32(%r15,%r11), %xmm2
	movups	%xmm2, -1216(%r15,%r11)
	movups	%xmm1, -1232(%r15,%r11)
	movups	%xmm0, -1248(%r15,%r11)
	movups	(%r15,%r11), %xmm0
	movups	16(%r15,%r11), %xmm1
	movups	32(%r15,%r11), %xmm2
	movups	%xmm2, -1264(%r15,%r11)
	movups	%xmm1, -1280(%r15,%r11)
	movups	%xmm0, -1296(%r15,%r11)
	movups	(%r15,%r11), %xmm0
	movups	16(%r15,%r11), %xmm1
	movups	32(%r15,%r11), %xmm2
	movups	%xmm2, -1312(%r15,%r11)
	movups	%xmm1, -1328(%r15,%r11)
	movups	%xmm0, -1344(%r15,%r11)
	movups	(%r15,%r11), %xmm0
	movups	16(%r15,%r11), %xmm1
	movups	32(%r15,%r11), %xmm2
	movups	%xmm2, -1360(%r15,%r11)
	movups	%xmm1, -1376(%r15,%r11)
	movups	%xmm0, -1392(%r15,%r11)
	movups	(%r15,%r11), %xmm0
	movups	16(%r15,%r11), %xmm1
	movups	32(%r15,%r11), %xmm2
	movups	%xmm2, -1408(%r15,%r11)
	movups	%xmm1, -1424(%r15,%r11)
	movups	%xmm0, -1440(%r15,%r11)
	movups	(%r15,%r11), %xmm0
	movups	16(%r15,%r11), %xmm1
	movups	32(%r15,%r11), %xmm2
	movups	%xmm2, -1456(%r15,%r11)
	movups	%xmm1, -1472(%r15,%r11)
	movups	%xmm0, -1488(%r15,%r11)
	movups	(%r15,%r11), %xmm0
	movups	16(%r15,%r11), %xmm1
	movups	32(%r15,%r11), %xmm2
	movups	%xmm2, -1504(%r15,%r11)
	movups	%xmm1, -1520(%r15,%r11)
	movups	%xmm0, -1536(%r15,%r11)
	movups	(%r15,%r11), %xmm0
	movups	16(%r15,%r11), %xmm1
	movups	32(%r15,%r11), %xmm2
	movups	%xmm2, -1552(%r15,%r11)
	movups	%xmm1, -1568(%r15,%r11)
	movups	%xmm0, -1584(%r15,%r11)
	movups	(%r15,%r11), %xmm0
	movups	16(%r15,%r11), %xmm1
	movups	32(%r15,%r11), %xmm2
	movups	%xmm2, -1600(%r15,%r11)
	movups	%xmm1, -1616(%r15,%r11)
	movups	%xmm0, -1632(%r15,%r11)
	movups	(%r15,%r11), %xmm0
	movups	16(%r15,%r11), %xmm1
	movups	32(%r15,%r11), %xmm2
	movups	%xmm2, -1648(%r15,%r11)
	movups	%xmm1, -1664(%r15,%r11)
	movups	%xmm0, -1680(%r15,%r11)
	movups	(%r15,%r11), %xmm0
	movups	16(%r15,%r11), %xmm1
	movups	32(%r15,%r11), %xmm2
	movups	%xmm2, -1696(%r15,%r11)
	movups	%xmm1, -1712(%r15,%r11)
	movups	%xmm0, -1728(%r15,%r11)
	movups	(%r15,%r11), %xmm0
	movups	16(%r15,%r11), %xmm1
	movups	32(%r15,%r11), %xmm2
	movups	%xmm2, -1744(%r15,%r11)
	movups	%xmm1, -1760(%r15,%r11)
	movups	%xmm0, -1776(%r15,%r11)
	movups	(%r15,%r11), %xmm0
	movups	16(%r15,%r11), %xmm1
	movups	32(%r15,%r11), %xmm2
	movups	%xmm2, -1792(%r15,%r11)
	movups	%xmm1, -1808(%r15,%r11)
	movups	%xmm0, -1824(%r15,%r11)
	movups	(%r15,%r11), %xmm0
	movups	16(%r15,%r11), %xmm1
	movups	32(%r15,%r11), %xmm2
	movups	%xmm2, -1840(%r15,%r11)
	movups	%xmm1, -1856(%r15,%r11)
	movups	%xmm0, -1872(%r15,%r11)
	movups	(%r15,%r11), %xmm0
	movups	16(%r15,%r11), %xmm1
	movups	32(%r15,%r11), %xmm2
	movups	%xmm2, -1888(%r15,%r11)
	movups	%xmm1, -1904(%r15,%r11)
	movups	%xmm0, -1920(%r15,%r11)
	movups	(%r15,%r11), %xmm0
	movups	16(%r15,%r11), %xmm1
	movups	32(%r15,%r11), %xmm2
	movups	%xmm2, 80(%r12)
	movups	%xmm1, 64(%r12)
	movups	%xmm0, 48(%r12)
	movups	(%r15,%r11), %xmm0
	movups	16(%r15,%r11), %xmm1
	movups	32(%r15,%r11), %xmm2
	movups	%xmm2, 32(%r12)
	movups	%xmm1, 16(%r12)
	movups	%xmm0, (%r12)
.LBB48_6:
	addq	$2016, %r11
	leaq	(%rsi,%rbx), %r12
	addq	$-42, %r12
	addq	$-42, %rbx
	cmpq	$42, %r12
	jbe	.LBB48_7
.LBB48_3:
	leaq	(%r15,%r11), %r12
	addq	$-2016, %r12
	cmpq	%rbx, %r14
	je	.LBB48_5
	movups	48(%r12), %xmm0
	movups	64(%r12), %xmm1
	movups	80(%r12), %xmm2
	movups	%xmm2, 32(%r12)
	movups	%xmm1, 16(%r12)
	movups	%xmm0, (%r12)
	movups	-1920(%r15,%r11), %xmm0
	movups	-1904(%r15,%r11), %xmm1
	movups	-1888(%r15,%r11), %xmm2
	movups	%xmm2, 80(%r12)
	movups	%xmm1, 64(%r12)
	movups	%xmm0, 48(%r12)
	movups	-1872(%r15,%r11), %xmm0
	movups	-1856(%r15,%r11), %xmm1
	movups	-1840(%r15,%r11), %xmm2
	movups	-1824(%r15,%r11), %xmm3
	movups	%xmm2, -1888(%r15,%r11)
	movups	%xmm1, -1904(%r15,%r11)
	movups	%xmm0, -1920(%r15,%r11)
	movups	-1792(%r15,%r11), %xmm0
	movups	%xmm0, -1840(%r15,%r11)
	movups	-1808(%r15,%r11), %xmm0
	movups	%xmm0, -1856(%r15,%r11)
	movups	%xmm3, -1872(%r15,%r11)
	movups	-1776(%r15,%r11), %xmm0
	movups	-1760(%r15,%r11), %xmm1
	movups	-1744(%r15,%r11), %xmm2
	movups	%xmm0, -1824(%r15,%r11)
	movups	%xmm2, -1792(%r15,%r11)
	movups	%xmm1, -1808(%r15,%r11)
	movups	-1728(%r15,%r11), %xmm0
	movups	-1712(%r15,%r11), %xmm1
	movups	-1696(%r15,%r11), %xmm2
	movups	%xmm2, -1744(%r15,%r11)
	movups	%xmm1, -1760(%r15,%r11)
	movups	%xmm0, -1776(%r15,%r11)
	movups	-1680(%r15,%r11), %xmm0
	movups	-1664(%r15,%r11), %xmm1
	movups	-1648(%r15,%r11), %xmm2
	movups	%xmm2, -1696(%r15,%r11)
	movups	%xmm1, -1712(%r15,%r11)
	movups	%xmm0, -1728(%r15,%r11)
	movups	-1632(%r15,%r11), %xmm0
	movups	-1616(%r15,%r11), %xmm1
	movups	-1600(%r15,%r11), %xmm2
	movups	%xmm2, -1648(%r15,%r11)
	movups	%xmm1, -1664(%r15,%r11)
	movups	%xmm0, -1680(%r15,%r11)
	movups	-1584(%r15,%r11), %xmm0
	movups	-1568(%r15,%r11), %xmm1
	movups	-1552(%r15,%r11), %xmm2
	movups	%xmm2, -1600(%r15,%r11)
	movups	%xmm1, -1616(%r15,%r11)
	movups	%xmm0, -1632(%r15,%r11)
	movups	-1536(%r15,%r11), %xmm0
	movups	-1520(%r15,%r11), %xmm1
	movups	-1504(%r15,%r11), %xmm2
	movups	%xmm2, -1552(%r15,%r11)
	movups	%xmm1, -1568(%r15,%r11)
	movups	%xmm0, -1584(%r15,%r11)
	movups	-1488(%r15,%r11), %xmm0
	movups	-1472(%r15,%r11), %xmm1
	movups	-1456(%r15,%r11), %xmm2
	movups	%xmm2, -1504(%r15,%r11)
	movups	%xmm1, -1520(%r15,%r11)
	movups	%xmm0, -1536(%r15,%r11)
	movups	-1440(%r15,%r11), %xmm0
	movups	-1424(%r15,%r11), %xmm1
	movups	-1408(%r15,%r11), %xmm2
	movups	%xmm2, -1456(%r15,%r11)
	movups	%xmm1, -1472(%r15,%r11)
	movups	%xmm0, -1488(%r15,%r11)
	movups	-1392(%r15,%r11), %xmm0
	movups	-1376(%r15,%r11), %xmm1
	movups	-1360(%r15,%r11), %xmm2
	movups	%xmm2, -1408(%r15,%r11)
	movups	%xmm1, -1424(%r15,%r11)
	movups	%xmm0, -1440(%r15,%r11)
	movups	-1344(%r15,%r11), %xmm0
	movups	-1328(%r15,%r11), %xmm1
	movups	-1312(%r15,%r11), %xmm2
	movups	%xmm2, -1360(%r15,%r11)
	movups	%xmm1, -1376(%r15,%r11)
	movups	%xmm0, -1392(%r15,%r11)
	movups	-1296(%r15,%r11), %xmm0
	movups	-1280(%r15,%r11), %xmm1
	movups	-1264(%r15,%r11), %xmm2
	movups	%xmm2, -1312(%r15,%r11)
	movups	%xmm1, -1328(%r15,%r11)
	movups	%xmm0, -1344(%r15,%r11)
	movups	-1248(%r15,%r11), %xmm0
	movups	-1232(%r15,%r11), %xmm1
	movups	-1216(%r15,%r11), %xmm2
	movups	%xmm2, -1264(%r15,%r11)
	movups	%xmm1, -1280(%r15,%r11)
	movups	%xmm0, -1296(%r15,%r11)
	movups	-1200(%r15,%r11), %xmm0
	movups	-1184(%r15,%r11), %xmm1
	movups	-1168(%r15,%r11), %xmm2
	movups	%xmm2, -1216(%r15,%r11)
	movups	%xmm1, -1232(%r15,%r11)
	movups	%xmm0, -1248(%r15,%r11)
	movups	-1152(%r15,%r11), %xmm0
	movups	-1136(%r15,%r11), %xmm1
	movups	-1120(%r15,%r11), %xmm2
	movups	%xmm2, -1168(%r15,%r11)
	movups	%xmm1, -1184(%r15,%r11)
	movups	%xmm0, -1200(%r15,%r11)
	movups	-1104(%r15,%r11), %xmm0
	movups	-1088(%r15,%r11), %xmm1
	movups	-1072(%r15,%r11), %xmm2
	movups	%xmm2, -1120(%r15,%r11)
	movups	%xmm1, -1136(%r15,%r11)
	movups	%xmm0, -1152(%r15,%r11)
	movups	-1056(%r15,%r11), %xmm0
	movups	-1040(%r15,%r11), %xmm1
	movups	-1024(%r15,%r11), %xmm2
	movups	%xmm2, -1072(%r15,%r11)
	movups	%xmm1, -1088(%r15,%r11)
	movups	%xmm0, -1104(%r15,%r11)
	movups	-1008(%r15,%r11), %xmm0
	movups	-992(%r15,%r11), %xmm1
	movups	-976(%r15,%r11), %xmm2
	movups	%xmm2, -1024(%r15,%r11)
	movups	%xmm1, -1040(%r15,%r11)
	movups	%xmm0, -1056(%r15,%r11)
	movups	-960(%r15,%r11), %xmm0
	movups	-944(%r15,%r11), %xmm1
	movups	-928(%r15,%r11), %xmm2
	movups	%xmm2, -976(%r15,%r11)
	movups	%xmm1, -992(%r15,%r11)
	movups	%xmm0, -1008(%r15,%r11)
	movups	-912(%r15,%r11), %xmm0
	movups	-896(%r15,%r11), %xmm1
	movups	-880(%r15,%r11), %xmm2
	movups	%xmm2, -928(%r15,%r11)
	movups	%xmm1, -944(%r15,%r11)
	movups	%xmm0, -960(%r15,%r11)
	movups	-864(%r15,%r11), %xmm0
	movups	-848(%r15,%r11), %xmm1
	movups	-832(%r15,%r11), %xmm2
	movups	%xmm2, -880(%r15,%r11)
	movups	%xmm1, -896(%r15,%r11)
	movups	%xmm0, -912(%r15,%r11)
	movups	-816(%r15,%r11), %xmm0
	movups	-800(%r15,%r11), %xmm1
	movups	-784(%r15,%r11), %xmm2
	movups	%xmm2, -832(%r15,%r11)
	movups	%xmm1, -848(%r15,%r11)
	movups	%xmm0, -864(%r15,%r11)
	movups	-768(%r15,%r11), %xmm0
	movups	-752(%r15,%r11), %xmm1
	movups	-736(%r15,%r11), %xmm2
	movups	%xmm2, -784(%r15,%r11)
	movups	%xmm1, -800(%r15,%r11)
	movups	%xmm0, -816(%r15,%r11)
	movups	-720(%r15,%r11), %xmm0
	movups	-704(%r15,%r11), %xmm1
	movups	-688(%r15,%r11), %xmm2
	movups	%xmm2, -736(%r15,%r11)
	movups	%xmm1, -752(%r15,%r11)
	movups	%xmm0, -768(%r15,%r11)
	movups	-672(%r15,%r11), %xmm0
	movups	-656(%r15,%r11), %xmm1
	movups	-640(%r15,%r11), %xmm2
	movups	%xmm2, -688(%r15,%r11)
	movups	%xmm1, -704(%r15,%r11)
	movups	%xmm0, -720(%r15,%r11)
	movups	-624(%r15,%r11), %xmm0
	movups	-608(%r15,%r11), %xmm1
	movups	-592(%r15,%r11), %xmm2
	movups	%xmm2, -640(%r15,%r11)
	movups	%xmm1, -656(%r15,%r11)
	movups	%xmm0, -672(%r15,%r11)
	movups	-576(%r15,%r11), %xmm0
	movups	-560(%r15,%r11), %xmm1
	movups	-544(%r15,%r11), %xmm2
	movups	%xmm2, -592(%r15,%r11)
	movups	%xmm1, -608(%r15,%r11)
	movups	%xmm0, -624(%r15,%r11)
	movups	-528(%r15,%r11), %xmm0
	movups	-512(%r15,%r11), %xmm1
	movups	-496(%r15,%r11), %xmm2
	movups	%xmm2, -544(%r15,%r11)
	movups	%xmm1, -560(%r15,%r11)
	movups	%xmm0, -576(%r15,%r11)
	movups	-480(%r15,%r11), %xmm0
	movups	-464(%r15,%r11), %xmm1
	movups	-448(%r15,%r11), %xmm2
	movups	%xmm2, -496(%r15,%r11)
	movups	%xmm1, -512(%r15,%r11)
	movups	%xmm0, -528(%r15,%r11)
	movups	-432(%r15,%r11), %xmm0
	movups	-416(%r15,%r11), %xmm1
	movups	-400(%r15,%r11), %xmm2
	movups	%xmm2, -448(%r15,%r11)
	movups	%xmm1, -464(%r15,%r11)
	movups	%xmm0, -480(%r15,%r11)
	movups	-384(%r15,%r11), %xmm0
	movups	-368(%r15,%r11), %xmm1
	movups	-352(%r15,%r11), %xmm2
	movups	%xmm2, -400(%r15,%r11)
	movups	%xmm1, -416(%r15,%r11)
	movups	%xmm0, -432(%r15,%r11)
	movups	-336(%r15,%r11), %xmm0
	movups	-320(%r15,%r11), %xmm1
	movups	-304(%r15,%r11), %xmm2
	movups	%xmm2, -352(%r15,%r11)
	movups	%xmm1, -368(%r15,%r11)
	movups	%xmm0, -384(%r15,%r11)
	movups	-288(%r15,%r11), %xmm0
	movups	-272(%r15,%r11), %xmm1
	movups	-256(%r15,%r11), %xmm2
	movups	%xmm2, -304(%r15,%r11)
	movups	%xmm1, -320(%r15,%r11)
	movups	%xmm0, -336(%r15,%r11)
	movups	-240(%r15,%r11), %xmm0
	movups	-224(%r15,%r11), %xmm1
	movups	-208(%r15,%r11), %xmm2
	movups	%xmm2, -256(%r15,%r11)
	movups	%xmm1, -272(%r15,%r11)
	movups	%xmm0, -288(%r15,%r11)
	movups	-192(%r15,%r11), %xmm0
	movups	-176(%r15,%r11), %xmm1
	movups	-160(%r15,%r11), %xmm2
	movups	%xmm2, -208(%r15,%r11)
	movups	%xmm1, -224(%r15,%r11)
	movups	%xmm0, -240(%r15,%r11)
	movups	-144(%r15,%r11), %xmm0
	movups	-128(%r15,%r11), %xmm1
	movups	-112(%r15,%r11), %xmm2
	movups	%xmm2, -160(%r15,%r11)
	movups	%xmm1, -176(%r15,%r11)
	movups	%xmm0, -192(%r15,%r11)
	movups	-96(%r15,%r11), %xmm0
	movups	-80(%r15,%r11), %xmm1
	movups	-64(%r15,%r11), %xmm2
	movups	%xmm2, -112(%r15,%r11)
	movups	%xmm1, -128(%r15,%r11)
	movups	%xmm0, -144(%r15,%r11)
	movups	-48(%r15,%r11), %xmm0
	movups	-32(%r15,%r11), %xmm1
	movups	-16(%r15,%r11), %xmm2
	movups	%xmm2, -64(%r15,%r11)
	movups	%xmm1, -80(%r15,%r11)
	movups	%xmm0, -96(%r15,%r11)
	movups	(%r15,%r11), %xmm0
	movups	16(%r15,%r11), %xmm1
	movups	32(%r15,%r11), %xmm2
	movups	%xmm2, -16(%r15,%r11)
	movups	%xmm1, -32(%r15,%r11)
	movups	%xmm0, -48(%r15,%r11)
	jmp	.LBB48_6
.LBB48_20:
	testq	%rdi, %rdi
	je	.LBB48_28
	movq	%rdi, %r15
	subq	%r8, %r15
	addq	$-2, %r15
	movl	%esi, %ebx
	andl	$3, %ebx
	cmpq	$3, %r15
	jae	.LBB48_23
	xorl	%r14d, %r14d
	jmp	.LBB48_26
.LBB48_7:
	subq	%rbx, %r8
	cmpq	%rbx, %r14
	jne	.LBB48_8
	testq	%rdi, %rdi
	je	.LBB48_28
	addq	$-42, %r8
	leaq	(%rdi,%rdi,2), %r11
	addq	$-43, %rdi
	shlq	$4, %r11
	addq	%rax, %r11
	addq	$-48, %r11
	.p2align	4
.LBB48_19:
	movups	(%r11), %xmm0
	movups	16(%r11), %xmm1
	movups	32(%r11), %xmm2
	movups	%xmm2, -16(%r11)
	movups	%xmm1, -32(%r11)
	movups	%xmm0, -48(%r11)
	addq	$-48, %r11
	decq	%rdi
	cmpq	%rdi, %r8
	jne	.LBB48_19
	jmp	.LBB48_28
.LBB48_8:
	addq	%rbx, %rsi
.LBB48_9:
	cmpq	%r8, %r10
	je	.LBB48_28
	leaq	-1(%rsi), %rdi
	movl	%esi, %r8d
	andl	$3, %r8d
	cmpq	$3, %rdi
	jae	.LBB48_12
	xorl	%edi, %edi
	jmp	.LBB48_15
.LBB48_23:
	addq	%rax, %r11
	movq	%rsi, %r15
	andq	$-4, %r15
	leaq	(%r14,%r14,2), %r12
	negq	%r12
	leaq	(%rdi,%rdi,2), %r14
	shlq	$4, %r14
	leaq	(%r14,%rax), %r13
	addq	$-96, %r13
	xorl	%r14d, %r14d
	.p2align	4
.LBB48_24:
	movups	(%r13,%r12), %xmm0
	movups	16(%r13,%r12), %xmm1
	movups	32(%r13,%r12), %xmm2
	movups	%xmm2, 32(%r13)
	movups	%xmm1, 16(%r13)
	movups	%xmm0, (%r13)
	movabsq	$1152921504606846974, %rbp
	xorq	%r14, %rbp
	addq	%rsi, %rbp
	shlq	$4, %rbp
	leaq	(%rbp,%rbp,2), %rbp
	movups	(%rax,%rbp), %xmm0
	movups	16(%rax,%rbp), %xmm1
	movups	32(%rax,%rbp), %xmm2
	movups	%xmm2, 32(%r11,%rbp)
	movups	%xmm1, 16(%r11,%rbp)
	movups	%xmm0, (%r11,%rbp)
	movabsq	$1152921504606846973, %rbp
	xorq	%r14, %rbp
	addq	%rsi, %rbp
	shlq	$4, %rbp
	leaq	(%rbp,%rbp,2), %rbp
	movups	(%rax,%rbp), %xmm0
	movups	16(%rax,%rbp), %xmm1
	movups	32(%rax,%rbp), %xmm2
	movups	%xmm2, 32(%r11,%rbp)
	movups	%xmm1, 16(%r11,%rbp)
	movups	%xmm0, (%r11,%rbp)
	movabsq	$1152921504606846972, %rbp
	xorq	%r14, %rbp
	addq	%rsi, %rbp
	shlq	$4, %rbp
	leaq	(%rbp,%rbp,2), %rbp
	movups	(%rax,%rbp), %xmm0
	movups	16(%rax,%rbp), %xmm1
	movups	32(%rax,%rbp), %xmm2
	movups	%xmm2, 32(%r11,%rbp)
	movups	%xmm1, 16(%r11,%rbp)
	movups	%xmm0, (%r11,%rbp)
	addq	$4, %r14
	addq	$-192, %r13
	cmpq	%r14, %r15
	jne	.LBB48_24
	testq	%rbx, %rbx
	je	.LBB48_28
.LBB48_26:
	leaq	(%rdi,%rdi,2), %r11
	shlq	$4, %r11
	addq	$-96, %r11
	addq	%r14, %r8
	shlq	$4, %r8
	leaq	(%r8,%r8,2), %rsi
	movq	%r11, %r8
	subq	%rsi, %r8
	addq	%rax, %r8
	shlq	$4, %r14
	leaq	(%r14,%r14,2), %rsi
	subq	%rsi, %r11
	addq	%rax, %r11
	shll	$4, %ebx
	leaq	(%rbx,%rbx,2), %rsi
	xorl	%edi, %edi
	.p2align	4
.LBB48_27:
	movups	(%r8,%rdi), %xmm0
	movups	16(%r8,%rdi), %xmm1
	movups	32(%r8,%rdi), %xmm2
	movups	%xmm2, 32(%r11,%rdi)
	movups	%xmm1, 16(%r11,%rdi)
	movups	%xmm0, (%r11,%rdi)
	addq	$-48, %rdi
	movq	%rsi, %rbx
	addq	%rdi, %rbx
	jne	.LBB48_27
	jmp	.LBB48_28
.LBB48_12:
	andl	$60, %esi
	leaq	(%rax,%r11), %rbx
	xorl	%edi, %edi
	.p2align	4
.LBB48_13:
	movups	48(%rbx), %xmm0
	movups	64(%rbx), %xmm1
	movups	80(%rbx), %xmm2
	movups	96(%rbx), %xmm3
	movups	%xmm2, 32(%rbx)
	movups	%xmm1, 16(%rbx)
	movups	%xmm0, (%rbx)
	movups	%xmm3, 48(%rbx)
	movups	112(%rbx), %xmm0
	movups	%xmm0, 64(%rbx)
	movups	128(%rbx), %xmm0
	movups	%xmm0, 80(%rbx)
	movups	144(%rbx), %xmm0
	movups	%xmm0, 96(%rbx)
	movups	160(%rbx), %xmm0
	movups	%xmm0, 112(%rbx)
	movups	176(%rbx), %xmm0
	movups	%xmm0, 128(%rbx)
	movups	192(%rbx), %xmm0
	movups	208(%rbx), %xmm1
	movups	224(%rbx), %xmm2
	movups	%xmm2, 176(%rbx)
	movups	%xmm1, 160(%rbx)
	movups	%xmm0, 144(%rbx)
	addq	$192, %rbx
	addq	$4, %rdi
	cmpq	%rdi, %rsi
	jne	.LBB48_13
	testq	%r8, %r8
	je	.LBB48_28
.LBB48_15:
	leaq	(%rdi,%rdi,2), %rsi
	shlq	$4, %rsi
	addq	%rsi, %r11
	addq	%rax, %r11
	shll	$4, %r8d
	leaq	(%r8,%r8,2), %r8
	xorl	%esi, %esi
	.p2align	4
.LBB48_16:
	movups	48(%r11,%rsi), %xmm0
	movups	64(%r11,%rsi), %xmm1
	movups	80(%r11,%rsi), %xmm2
	movups	%xmm2, 32(%r11,%rsi)
	movups	%xmm1, 16(%r11,%rsi)
	movups	%xmm0, (%r11,%rsi)
	addq	$48, %rsi
	cmpq	%rsi, %r8
	jne	.LBB48_16
.LBB48_28:
	movq	%rax, (%rdx)
	movq	%r10, 8(%rdx)
	movq	%r9, 16(%rdx)
	movaps	(%rsp), %xmm0
	movaps	16(%rsp), %xmm1
	movaps	32(%rsp), %xmm2
	movups	%xmm2, 32(%rcx)
	movups	%xmm1, 16(%rcx)
	movups	%xmm0, (%rcx)
	addq	$56, %rsp
	popq	%rbx
	popq	%rbp
	popq	%rdi
	popq	%rsi
	popq	%r12
	popq	%r13
	popq	%r14
	popq	%r15
	retq
	.seh_endproc

	.section	.text
	.p2align	4
	.def	"std_collections::btree::node::Node::take_at::<#1aacfcd96822f18e>";
	.scl	3;
	.type	32;
	.endef
"std_collections::btree::node::Node::take_at::<#1aacfcd96822f18e>":
.seh_proc "std_collections::btree::node::Node::take_at::<#1aacfcd96822f18e>"
	pushq	%r15
	.seh_pushreg %r15
	pushq	%r14
	.seh_pushreg %r14
	pushq	%rsi
	.seh_pushreg %rsi
	pushq	%rdi
	.seh_pushreg %rdi
	pushq	%rbx
	.seh_pushreg %rbx
	subq	$272, %rsp
	.seh_stackalloc 272
	.seh_endprologue
	movq	%rdx, %rdi
	movq	%rcx, %rsi
	movzbl	(%r8), %ebx
	movq	(%rdx), %rax
	cmpq	$1, %r9
	jne	.LBB49_11
	cmpw	$0, 2(%rax)
	je	.LBB49_2
	leal	(,%rbx,8), %r15d
	leaq	(%rax,%r15), %rdx
	addq	$848, %rdx
	leaq	136(%rsp), %rcx
	callq	"std_collections::btree::node::Node::pop_last::<#1aacfcd96822f18e>"
	movq	136(%rsp), %rax
	movq	(%rdi), %rcx
	movq	8(%rcx,%r15), %r14
	movq	%rax, 8(%rcx,%r15)
	leaq	(%rbx,%rbx,2), %rax
	shll	$4, %eax
	movups	128(%rcx,%rax), %xmm0
	movups	144(%rcx,%rax), %xmm1
	movups	160(%rcx,%rax), %xmm2
	movaps	%xmm2, 64(%rsp)
	movaps	%xmm1, 48(%rsp)
	movaps	%xmm0, 32(%rsp)
	movups	144(%rsp), %xmm0
	movups	160(%rsp), %xmm1
	movups	176(%rsp), %xmm2
	movups	%xmm0, 128(%rcx,%rax)
	movups	%xmm1, 144(%rcx,%rax)
	movups	%xmm2, 160(%rcx,%rax)
	movq	%rcx, (%rdi)
	movq	848(%rcx,%r15), %rax
	cmpw	$6, (%rax)
	ja	.LBB49_8
	testq	%rbx, %rbx
	je	.LBB49_5
	decq	%rbx
	movq	%rdi, %rcx
	movq	%rbx, %rdx
	jmp	.LBB49_7
.LBB49_11:
	leal	(,%rbx,8), %r14d
	leaq	(%rax,%r14), %rdx
	addq	$848, %rdx
	incq	%r8
	decq	%r9
	leaq	216(%rsp), %rcx
	callq	"std_collections::btree::node::Node::take_at::<#1aacfcd96822f18e>"
	movq	(%rdi), %rax
	movq	848(%rax,%r14), %rax
	cmpw	$6, (%rax)
	ja	.LBB49_16
	testq	%rbx, %rbx
	je	.LBB49_13
	decq	%rbx
	movq	%rdi, %rcx
	movq	%rbx, %rdx
	jmp	.LBB49_15
.LBB49_2:
	movzwl	(%rax), %ecx
	leaq	848(%rax), %rdx
	leaq	128(%rax), %r8
	leaq	8(%rax), %r9
	movq	%r9, 136(%rsp)
	movq	%rcx, 144(%rsp)
	movq	$15, 152(%rsp)
	leaq	160(%rsp), %r14
	movq	%r8, 160(%rsp)
	movq	%rcx, 168(%rsp)
	movq	$15, 176(%rsp)
	movq	%rdx, 184(%rsp)
	xorps	%xmm0, %xmm0
	movups	%xmm0, 192(%rsp)
	movq	%rax, 208(%rsp)
	movaps	%xmm0, 32(%rsp)
	movaps	%xmm0, 48(%rsp)
	movaps	%xmm0, 64(%rsp)
	leaq	136(%rsp), %rcx
	movq	%rbx, %rdx
	callq	"std_alloc::vec::Vec::remove::<#0c35fd3905773d29>"
	movq	%rax, %r15
	leaq	32(%rsp), %rcx
	movq	%r14, %rdx
	movq	%rbx, %r8
	callq	"std_alloc::vec::Vec::remove::<#7f26edd6ea879dba>"
	movzwl	144(%rsp), %eax
	movq	208(%rsp), %rcx
	movw	%ax, (%rcx)
	movq	%rcx, (%rdi)
	movaps	32(%rsp), %xmm0
	movaps	48(%rsp), %xmm1
	movaps	64(%rsp), %xmm2
	movaps	%xmm2, 112(%rsp)
	movaps	%xmm1, 96(%rsp)
	movaps	%xmm0, 80(%rsp)
	movq	%r15, (%rsi)
	jmp	.LBB49_9
.LBB49_13:
	movq	%rdi, %rcx
	xorl	%edx, %edx
.LBB49_15:
	callq	"std_collections::btree::node::Node::balance::<#1aacfcd96822f18e>"
.LBB49_16:
	movq	216(%rsp), %rax
	movq	%rax, (%rsi)
	movups	224(%rsp), %xmm0
	movups	240(%rsp), %xmm1
	movups	256(%rsp), %xmm2
	jmp	.LBB49_10
.LBB49_5:
	movq	%rdi, %rcx
	xorl	%edx, %edx
.LBB49_7:
	callq	"std_collections::btree::node::Node::balance::<#1aacfcd96822f18e>"
.LBB49_8:
	movaps	32(%rsp), %xmm0
	movaps	48(%rsp), %xmm1
	movaps	64(%rsp), %xmm2
	movaps	%xmm2, 112(%rsp)
	movaps	%xmm1, 96(%rsp)
	movaps	%xmm0, 80(%rsp)
	movq	%r14, (%rsi)
.LBB49_9:
	movaps	80(%rsp), %xmm0
	movaps	96(%rsp), %xmm1
	movaps	112(%rsp), %xmm2
.LBB49_10:
	movups	%xmm0, 8(%rsi)
	movups	%xmm1, 24(%rsi)
	movups	%xmm2, 40(%rsi)
	addq	$272, %rsp
	popq	%rbx
	popq	%rdi
	popq	%rsi
	popq	%r14
	popq	%r15
	retq
	.seh_endproc

	.section	.text
	.p2align	4
	.def	"std_collections::btree::node::Node::pop_last::<#1aacfcd96822f18e>";
	.scl	3;
	.type	32;
	.endef
"std_collections::btree::node::Node::pop_last::<#1aacfcd96822f18e>":
.seh_proc "std_collections::btree::node::Node::pop_last::<#1aacfcd96822f18e>"
	pushq	%r15
	.seh_pushreg %r15
	pushq	%r14
	.seh_pushreg %r14
	pushq	%rsi
	.seh_pushreg %rsi
	pushq	%rdi
	.seh_pushreg %rdi
	pushq	%rbx
	.seh_pushreg %rbx
	subq	$272, %rsp
	.seh_stackalloc 272
	.seh_endprologue
	movq	%rdx, %rdi
	movq	%rcx, %rsi
	movq	(%rdx), %rax
	movzwl	(%rax), %ebx
	cmpw	$0, 2(%rax)
	je	.LBB50_1
	leal	(,%rbx,8), %r14d
	leaq	(%rax,%r14), %rdx
	addq	$848, %rdx
	leaq	216(%rsp), %rcx
	callq	"std_collections::btree::node::Node::pop_last::<#1aacfcd96822f18e>"
	movq	(%rdi), %rax
	movq	848(%rax,%r14), %rax
	cmpw	$6, (%rax)
	ja	.LBB50_7
	testq	%rbx, %rbx
	je	.LBB50_4
	decq	%rbx
	movq	%rdi, %rcx
	movq	%rbx, %rdx
	jmp	.LBB50_6
.LBB50_1:
	leaq	-1(%rbx), %r14
	leaq	848(%rax), %rcx
	leaq	128(%rax), %rdx
	leaq	8(%rax), %r8
	movq	%r8, 32(%rsp)
	movq	%rbx, 40(%rsp)
	movq	$15, 48(%rsp)
	leaq	56(%rsp), %r15
	movq	%rdx, 56(%rsp)
	movq	%rbx, 64(%rsp)
	movq	$15, 72(%rsp)
	movq	%rcx, 80(%rsp)
	xorps	%xmm0, %xmm0
	movups	%xmm0, 88(%rsp)
	movq	%rax, 104(%rsp)
	movaps	%xmm0, 112(%rsp)
	movaps	%xmm0, 128(%rsp)
	movaps	%xmm0, 144(%rsp)
	leaq	32(%rsp), %rcx
	movq	%r14, %rdx
	callq	"std_alloc::vec::Vec::remove::<#0c35fd3905773d29>"
	movq	%rax, %rbx
	leaq	112(%rsp), %rcx
	movq	%r15, %rdx
	movq	%r14, %r8
	callq	"std_alloc::vec::Vec::remove::<#7f26edd6ea879dba>"
	movzwl	40(%rsp), %eax
	movq	104(%rsp), %rcx
	movw	%ax, (%rcx)
	movq	%rcx, (%rdi)
	movaps	112(%rsp), %xmm0
	movaps	128(%rsp), %xmm1
	movaps	144(%rsp), %xmm2
	movaps	%xmm2, 192(%rsp)
	movaps	%xmm1, 176(%rsp)
	movaps	%xmm0, 160(%rsp)
	movq	%rbx, (%rsi)
	movaps	160(%rsp), %xmm0
	movaps	176(%rsp), %xmm1
	movaps	192(%rsp), %xmm2
	jmp	.LBB50_8
.LBB50_4:
	movq	%rdi, %rcx
	xorl	%edx, %edx
.LBB50_6:
	callq	"std_collections::btree::node::Node::balance::<#1aacfcd96822f18e>"
.LBB50_7:
	movq	216(%rsp), %rax
	movq	%rax, (%rsi)
	movups	224(%rsp), %xmm0
	movups	240(%rsp), %xmm1
	movups	256(%rsp), %xmm2
.LBB50_8:
	movups	%xmm0, 8(%rsi)
	movups	%xmm1, 24(%rsi)
	movups	%xmm2, 40(%rsi)
	addq	$272, %rsp
	popq	%rbx
	popq	%rdi
	popq	%rsi
	popq	%r14
	popq	%r15
	retq
	.seh_endproc

	.section	.text
	.p2align	4
	.def	"std_collections::btree::node::Node::balance::<#1aacfcd96822f18e>";
	.scl	3;
	.type	32;
	.endef
"std_collections::btree::node::Node::balance::<#1aacfcd96822f18e>":
.seh_proc "std_collections::btree::node::Node::balance::<#1aacfcd96822f18e>"
	pushq	%r15
	.seh_pushreg %r15
	pushq	%r14
	.seh_pushreg %r14
	pushq	%r13
	.seh_pushreg %r13
	pushq	%r12
	.seh_pushreg %r12
	pushq	%rsi
	.seh_pushreg %rsi
	pushq	%rdi
	.seh_pushreg %rdi
	pushq	%rbp
	.seh_pushreg %rbp
	pushq	%rbx
	.seh_pushreg %rbx
	subq	$328, %rsp
	.seh_stackalloc 328
	.seh_endprologue
	movq	%rdx, %rdi
	movq	%rcx, %rbp
	movq	(%rcx), %r15
	movzwl	(%r15), %esi
	movq	848(%r15,%rdx,8), %rcx
	movq	856(%r15,%rdx,8), %rax
	movzwl	(%rcx), %r8d
	movzwl	(%rax), %edx
	leal	(%rdx,%r8), %r9d
	cmpl	$15, %r9d
	jae	.LBB51_11
	movq	%rbp, 152(%rsp)
	movzwl	%si, %eax
	leaq	848(%r15), %rcx
	leaq	1(%rax), %rdx
	xorl	%r8d, %r8d
	xorl	%r9d, %r9d
	cmpw	$0, 2(%r15)
	cmovneq	%rdx, %r8
	setne	%r9b
	shll	$4, %r9d
	leaq	128(%r15), %rdx
	leaq	8(%r15), %r10
	movq	%r10, 64(%rsp)
	movq	%rax, 72(%rsp)
	movq	$15, 80(%rsp)
	leaq	88(%rsp), %rbx
	movq	%rdx, 88(%rsp)
	movq	%rax, 96(%rsp)
	movq	$15, 104(%rsp)
	leaq	112(%rsp), %r14
	movq	%rcx, 112(%rsp)
	movq	%r8, 120(%rsp)
	movq	%r9, 128(%rsp)
	movq	%r15, 136(%rsp)
	xorps	%xmm0, %xmm0
	movaps	%xmm0, 160(%rsp)
	movaps	%xmm0, 176(%rsp)
	movaps	%xmm0, 192(%rsp)
	leaq	64(%rsp), %rcx
	movq	%rdi, %rdx
	callq	"std_alloc::vec::Vec::remove::<#0c35fd3905773d29>"
	movq	%rax, %r12
	leaq	160(%rsp), %rcx
	movq	%rbx, %rdx
	movq	%rdi, %r8
	callq	"std_alloc::vec::Vec::remove::<#7f26edd6ea879dba>"
	leaq	1(%rdi), %rdx
	movq	%r14, %rcx
	callq	"std_alloc::vec::Vec::remove::<#bb3624bd71ef2d03>"
	movq	%rax, %rbx
	movq	112(%rsp), %rax
	movq	%rax, 144(%rsp)
	movq	(%rax,%rdi,8), %rbp
	movzwl	2(%rbp), %eax
	movw	%ax, 48(%rsp)
	movzwl	(%rbp), %eax
	leaq	1(%rax), %rsi
	leaq	128(%rbp), %r15
	movzwl	(%rbx), %r14d
	movzwl	2(%rbx), %ecx
	movw	%cx, 62(%rsp)
	leaq	8(%rbx), %rdx
	movq	%r12, 8(%rbp,%rax,8)
	movq	%rax, 40(%rsp)
	leaq	(%rax,%rax,2), %r8
	movl	%r8d, %eax
	shll	$4, %eax
	movaps	160(%rsp), %xmm0
	movaps	176(%rsp), %xmm1
	movaps	192(%rsp), %xmm2
	movups	%xmm0, 128(%rbp,%rax)
	movups	%xmm1, 144(%rbp,%rax)
	movups	%xmm2, 160(%rbp,%rax)
	leal	(,%rsi,8), %eax
	movq	%rax, 264(%rsp)
	leaq	(%rax,%rbp), %rcx
	addq	$8, %rcx
	movl	%r14d, %r13d
	shll	$3, %r13d
	movq	%rcx, %rax
	subq	%rdx, %rax
	leaq	128(%rbx), %r11
	cmpq	%r13, %rax
	movq	%r8, 256(%rsp)
	jae	.LBB51_21
	cmpw	$10, %r14w
	jb	.LBB51_4
	movq	40(%rsp), %rax
	leal	(,%rax,8), %r9d
	leaq	(%r9,%rbp), %rax
	subq	%rbx, %rax
	addq	$8, %rax
	cmpq	$32, %rax
	jae	.LBB51_48
.LBB51_4:
	movq	%rdi, %r12
	xorl	%eax, %eax
.LBB51_5:
	movq	%r14, %r9
	movq	%rax, %r8
	andq	$3, %r9
	je	.LBB51_8
	movq	%rax, %r8
	.p2align	4
.LBB51_7:
	movq	(%rdx,%r8,8), %r10
	movq	%r10, (%rcx,%r8,8)
	incq	%r8
	decq	%r9
	jne	.LBB51_7
.LBB51_8:
	subl	%r14d, %eax
	cmpl	$-4, %eax
	ja	.LBB51_22
	movq	40(%rsp), %rax
	leaq	40(,%rax,8), %rax
	addq	%rbp, %rax
	.p2align	4
.LBB51_10:
	movq	8(%rbx,%r8,8), %rcx
	movq	%rcx, -24(%rax,%r8,8)
	movq	16(%rbx,%r8,8), %rcx
	movq	%rcx, -16(%rax,%r8,8)
	movq	24(%rbx,%r8,8), %rcx
	movq	%rcx, -8(%rax,%r8,8)
	movq	32(%rbx,%r8,8), %rcx
	movq	%rcx, (%rax,%r8,8)
	addq	$4, %r8
	cmpq	%r8, %r14
	jne	.LBB51_10
	jmp	.LBB51_22
.LBB51_11:
	cmpw	%dx, %r8w
	jae	.LBB51_25
	xorps	%xmm0, %xmm0
	movaps	%xmm0, 208(%rsp)
	movaps	%xmm0, 224(%rsp)
	movaps	%xmm0, 240(%rsp)
	movaps	%xmm0, 272(%rsp)
	movaps	%xmm0, 288(%rsp)
	movaps	%xmm0, 304(%rsp)
	movzwl	2(%rax), %r13d
	leaq	1(%rdx), %r8
	xorl	%r9d, %r9d
	xorl	%r10d, %r10d
	testw	%r13w, %r13w
	setne	%r10b
	cmoveq	%r9, %r8
	shll	$4, %r10d
	leaq	848(%rax), %r11
	leaq	128(%rax), %rbx
	leaq	8(%rax), %rcx
	movq	%rbx, 88(%rsp)
	movq	%rdx, 96(%rsp)
	movq	$15, 104(%rsp)
	movq	%r11, 112(%rsp)
	movq	%r8, 120(%rsp)
	movq	%r10, 128(%rsp)
	movq	%rax, 136(%rsp)
	movaps	%xmm0, 160(%rsp)
	movaps	%xmm0, 176(%rsp)
	movaps	%xmm0, 192(%rsp)
	movq	8(%rax), %rbx
	leaq	-1(%rdx), %r8
	movq	%rcx, %r11
	movq	%r8, %r10
	movl	$0, %r14d
	cmpl	$258, %edx
	jb	.LBB51_18
	leaq	64(%rax), %rdx
	xorl	%r14d, %r14d
	.p2align	4
.LBB51_14:
	xorl	%r9d, %r9d
	.p2align	4
.LBB51_15:
	movups	-48(%rdx,%r9,8), %xmm0
	movups	-32(%rdx,%r9,8), %xmm1
	movups	-16(%rdx,%r9,8), %xmm2
	movups	(%rdx,%r9,8), %xmm3
	movups	%xmm0, -56(%rdx,%r9,8)
	movups	%xmm1, -40(%rdx,%r9,8)
	movups	%xmm2, -24(%rdx,%r9,8)
	movups	%xmm3, -8(%rdx,%r9,8)
	addq	$8, %r9
	cmpq	$256, %r9
	jne	.LBB51_15
	addq	$256, %r14
	movq	%r8, %r10
	subq	%r14, %r10
	addq	$2048, %rdx
	cmpq	$256, %r10
	ja	.LBB51_14
	leaq	(,%r14,8), %r9
	leaq	(%rcx,%r14,8), %r11
.LBB51_18:
	leaq	88(%rsp), %rdx
	cmpq	%r14, %r8
	je	.LBB51_64
	cmpq	$6, %r10
	jb	.LBB51_20
	leaq	(%r9,%rax), %r14
	subq	%r11, %r14
	cmpq	$32, %r14
	jae	.LBB51_55
.LBB51_20:
	xorl	%r14d, %r14d
.LBB51_58:
	movq	%rbx, 40(%rsp)
	movw	%r13w, 48(%rsp)
	movl	%esi, %edx
	movq	%rbp, %rsi
	movq	%r10, %r13
	movq	%r14, %r12
	andq	$3, %r13
	je	.LBB51_61
	leaq	(%rcx,%r9), %rbp
	movq	%r14, %r12
	.p2align	4
.LBB51_60:
	movq	8(%r11,%r12,8), %rbx
	movq	%rbx, (%rbp,%r12,8)
	incq	%r12
	decq	%r13
	jne	.LBB51_60
.LBB51_61:
	subq	%r10, %r14
	cmpq	$-4, %r14
	movq	%rsi, %rbp
	movl	%edx, %esi
	movzwl	48(%rsp), %r13d
	movq	40(%rsp), %rbx
	leaq	88(%rsp), %rdx
	ja	.LBB51_64
	addq	%r9, %rax
	addq	$32, %rax
	.p2align	4
.LBB51_63:
	movq	8(%r11,%r12,8), %r9
	movq	%r9, -24(%rax,%r12,8)
	movq	16(%r11,%r12,8), %r9
	movq	%r9, -16(%rax,%r12,8)
	movq	24(%r11,%r12,8), %r9
	movq	%r9, -8(%rax,%r12,8)
	movq	32(%r11,%r12,8), %r9
	movq	%r9, (%rax,%r12,8)
	addq	$4, %r12
	cmpq	%r12, %r10
	jne	.LBB51_63
	jmp	.LBB51_64
.LBB51_21:
	movq	%rdi, %r12
	movq	%r13, %r8
	movq	%r11, %rdi
	callq	memmove
	movq	%rdi, %r11
.LBB51_22:
	leaq	(%rsi,%rsi,2), %rax
	shll	$4, %eax
	addq	%rax, %r15
	movl	%r14d, %eax
	shll	$4, %eax
	leaq	(%rax,%rax,2), %r8
	movq	%r15, %rax
	subq	%r11, %rax
	cmpq	%r8, %rax
	jae	.LBB51_27
	movl	%r14d, %eax
	andl	$7, %eax
	leal	-1(%r14), %ecx
	cmpw	$7, %cx
	jae	.LBB51_28
	xorl	%ecx, %ecx
	movq	256(%rsp), %r10
	jmp	.LBB51_31
.LBB51_25:
	leaq	128(%r15), %rax
	movzwl	2(%rcx), %r12d
	leaq	-1(%r8), %r9
	movq	(%rcx,%r8,8), %rdx
	testw	%r12w, %r12w
	movq	%rbp, 152(%rsp)
	movw	%si, 144(%rsp)
	je	.LBB51_39
	movq	848(%rcx,%r8,8), %r8
	movq	%r8, 48(%rsp)
	jmp	.LBB51_40
.LBB51_27:
	movq	%r15, %rcx
	movq	%r11, %rdx
	callq	memmove
	jmp	.LBB51_33
.LBB51_28:
	movl	%r14d, %edx
	andl	$-8, %edx
	movq	256(%rsp), %r10
	movl	%r10d, %r8d
	shll	$4, %r8d
	addq	%rbp, %r8
	movl	$464, %r9d
	xorl	%ecx, %ecx
	.p2align	4
.LBB51_29:
	movups	-336(%rbx,%r9), %xmm0
	movups	-320(%rbx,%r9), %xmm1
	movups	-304(%rbx,%r9), %xmm2
	movups	%xmm2, -256(%r8,%r9)
	movups	%xmm1, -272(%r8,%r9)
	movups	%xmm0, -288(%r8,%r9)
	movups	-288(%rbx,%r9), %xmm0
	movups	-272(%rbx,%r9), %xmm1
	movups	-256(%rbx,%r9), %xmm2
	movups	%xmm2, -208(%r8,%r9)
	movups	%xmm1, -224(%r8,%r9)
	movups	%xmm0, -240(%r8,%r9)
	movups	-240(%rbx,%r9), %xmm0
	movups	-224(%rbx,%r9), %xmm1
	movups	-208(%rbx,%r9), %xmm2
	movups	%xmm2, -160(%r8,%r9)
	movups	%xmm1, -176(%r8,%r9)
	movups	%xmm0, -192(%r8,%r9)
	movups	-192(%rbx,%r9), %xmm0
	movups	-176(%rbx,%r9), %xmm1
	movups	-160(%rbx,%r9), %xmm2
	movups	%xmm2, -112(%r8,%r9)
	movups	%xmm1, -128(%r8,%r9)
	movups	%xmm0, -144(%r8,%r9)
	movups	-144(%rbx,%r9), %xmm0
	movups	-128(%rbx,%r9), %xmm1
	movups	-112(%rbx,%r9), %xmm2
	movups	%xmm2, -64(%r8,%r9)
	movups	%xmm1, -80(%r8,%r9)
	movups	%xmm0, -96(%r8,%r9)
	movups	-96(%rbx,%r9), %xmm0
	movups	-80(%rbx,%r9), %xmm1
	movups	-64(%rbx,%r9), %xmm2
	movups	%xmm2, -16(%r8,%r9)
	movups	%xmm1, -32(%r8,%r9)
	movups	%xmm0, -48(%r8,%r9)
	movups	-48(%rbx,%r9), %xmm0
	movups	-32(%rbx,%r9), %xmm1
	movups	-16(%rbx,%r9), %xmm2
	movups	%xmm2, 32(%r8,%r9)
	movups	%xmm1, 16(%r8,%r9)
	movups	%xmm0, (%r8,%r9)
	movups	(%rbx,%r9), %xmm0
	movups	16(%rbx,%r9), %xmm1
	movups	32(%rbx,%r9), %xmm2
	movups	%xmm2, 80(%r8,%r9)
	movups	%xmm1, 64(%r8,%r9)
	movups	%xmm0, 48(%r8,%r9)
	addq	$8, %rcx
	addq	$384, %r9
	cmpq	%rcx, %rdx
	jne	.LBB51_29
	testq	%rax, %rax
	je	.LBB51_33
.LBB51_31:
	shlq	$4, %rcx
	leaq	(%rcx,%rcx,2), %rdx
	leaq	(%rbx,%rdx), %rcx
	addq	$128, %rcx
	shll	$4, %r10d
	addq	%rdx, %r10
	leaq	(%r10,%rbp), %rdx
	addq	$176, %rdx
	shll	$4, %eax
	leaq	(%rax,%rax,2), %rax
	xorl	%r8d, %r8d
	.p2align	4
.LBB51_32:
	movups	(%rcx,%r8), %xmm0
	movups	16(%rcx,%r8), %xmm1
	movups	32(%rcx,%r8), %xmm2
	movups	%xmm2, 32(%rdx,%r8)
	movups	%xmm1, 16(%rdx,%r8)
	movups	%xmm0, (%rdx,%r8)
	addq	$48, %r8
	cmpq	%r8, %rax
	jne	.LBB51_32
.LBB51_33:
	cmpw	$0, 48(%rsp)
	je	.LBB51_91
	leaq	848(%rbp), %rcx
	addq	264(%rsp), %rcx
	addq	$8, %r13
	xorl	%r8d, %r8d
	movzwl	62(%rsp), %r9d
	testw	%r9w, %r9w
	cmovneq	%r13, %r8
	leaq	848(%rbx), %rdx
	movq	%rcx, %rax
	subq	%rdx, %rax
	cmpq	%r8, %rax
	jae	.LBB51_38
	testw	%r9w, %r9w
	je	.LBB51_91
	cmpw	$9, %r14w
	jb	.LBB51_37
	movq	40(%rsp), %rax
	leal	(,%rax,8), %r9d
	leaq	(%r9,%rbp), %rax
	subq	%rbx, %rax
	addq	$8, %rax
	cmpq	$32, %rax
	jae	.LBB51_82
.LBB51_37:
	xorl	%eax, %eax
.LBB51_85:
	movq	%r14, %r8
	subq	%rax, %r8
	movl	%r14d, %r9d
	notl	%r9d
	testb	$3, %r9b
	je	.LBB51_88
	leal	1(%r14), %r9d
	andl	$3, %r9d
	.p2align	4
.LBB51_87:
	movq	(%rdx,%rax,8), %r10
	movq	%r10, (%rcx,%rax,8)
	incq	%rax
	decq	%r9
	jne	.LBB51_87
.LBB51_88:
	cmpl	$3, %r8d
	jb	.LBB51_91
	movq	40(%rsp), %rcx
	shlq	$3, %rcx
	leaq	(%rcx,%rax,8), %rcx
	addq	%rbp, %rcx
	addq	$880, %rcx
	leaq	(%rbx,%rax,8), %rdx
	addq	$872, %rdx
	movq	%r14, %r8
	subq	%rax, %r8
	movq	$-1, %rax
	.p2align	4
.LBB51_90:
	movq	-16(%rdx,%rax,8), %r9
	movq	%r9, -16(%rcx,%rax,8)
	movq	-8(%rdx,%rax,8), %r9
	movq	%r9, -8(%rcx,%rax,8)
	movq	(%rdx,%rax,8), %r9
	movq	%r9, (%rcx,%rax,8)
	movq	8(%rdx,%rax,8), %r9
	movq	%r9, 8(%rcx,%rax,8)
	addq	$4, %rax
	cmpq	%rax, %r8
	jne	.LBB51_90
	jmp	.LBB51_91
.LBB51_38:
	callq	memmove
.LBB51_91:
	movq	%rbx, %rcx
	callq	yurewha_heap_dealloc
	addl	%r14d, %esi
	movw	%si, (%rbp)
	movq	144(%rsp), %rax
	movq	%rbp, (%rax,%r12,8)
	movzwl	72(%rsp), %eax
	movq	136(%rsp), %rcx
	movw	%ax, (%rcx)
	movq	152(%rsp), %rax
	movq	%rcx, (%rax)
	jmp	.LBB51_100
.LBB51_39:
	movq	$0, 48(%rsp)
.LBB51_40:
	leaq	(%r9,%r9,2), %r8
	shlq	$4, %r8
	movw	%r9w, (%rcx)
	movups	128(%rcx,%r8), %xmm0
	movups	144(%rcx,%r8), %xmm1
	movups	160(%rcx,%r8), %xmm2
	movaps	%xmm2, 192(%rsp)
	movaps	%xmm1, 176(%rsp)
	movaps	%xmm0, 160(%rsp)
	movq	%rcx, 848(%r15,%rdi,8)
	movq	8(%r15,%rdi,8), %rbp
	movq	%rdx, 8(%r15,%rdi,8)
	leaq	(%rdi,%rdi,2), %rcx
	shlq	$4, %rcx
	movups	(%rax,%rcx), %xmm0
	movups	16(%rax,%rcx), %xmm1
	movups	32(%rax,%rcx), %xmm2
	movaps	%xmm2, 240(%rsp)
	movaps	%xmm1, 224(%rsp)
	movaps	%xmm0, 208(%rsp)
	movaps	160(%rsp), %xmm0
	movaps	176(%rsp), %xmm1
	movaps	192(%rsp), %xmm2
	movups	%xmm2, 32(%rax,%rcx)
	movups	%xmm1, 16(%rax,%rcx)
	movups	%xmm0, (%rax,%rcx)
	movq	856(%r15,%rdi,8), %r13
	movzwl	(%r13), %esi
	leaq	128(%r13), %rbx
	leaq	8(%r13), %rcx
	movzwl	2(%r13), %r14d
	testq	%rsi, %rsi
	je	.LBB51_42
	leaq	16(%r13), %rcx
	leal	(,%rsi,8), %r8d
	leaq	8(%r13), %rdx
	callq	memmove
	movaps	208(%rsp), %xmm0
	movaps	224(%rsp), %xmm1
	movaps	240(%rsp), %xmm2
	movaps	%xmm2, 96(%rsp)
	movaps	%xmm1, 80(%rsp)
	movaps	%xmm0, 64(%rsp)
	leaq	176(%r13), %rcx
	movl	%esi, %eax
	shll	$4, %eax
	leaq	(%rax,%rax,2), %r8
	movq	%rbx, %rdx
	callq	memmove
	leaq	8(%r13), %rcx
	jmp	.LBB51_43
.LBB51_42:
	movaps	208(%rsp), %xmm0
	movaps	224(%rsp), %xmm1
	movaps	240(%rsp), %xmm2
	movaps	%xmm2, 96(%rsp)
	movaps	%xmm1, 80(%rsp)
	movaps	%xmm0, 64(%rsp)
.LBB51_43:
	incq	%rsi
	movq	%rbp, (%rcx)
	movaps	64(%rsp), %xmm0
	movaps	80(%rsp), %xmm1
	movaps	96(%rsp), %xmm2
	movups	%xmm2, 32(%rbx)
	movups	%xmm1, 16(%rbx)
	movups	%xmm0, (%rbx)
	testw	%r12w, %r12w
	movq	152(%rsp), %r12
	je	.LBB51_47
	leaq	848(%r13), %rbx
	testw	%r14w, %r14w
	je	.LBB51_46
	leaq	856(%r13), %rcx
	leal	(,%rsi,8), %r8d
	movq	%rbx, %rdx
	callq	memmove
.LBB51_46:
	movq	48(%rsp), %rax
	movq	%rax, (%rbx)
.LBB51_47:
	movw	%si, (%r13)
	movq	%r13, 856(%r15,%rdi,8)
	movzwl	144(%rsp), %eax
	movw	%ax, (%r15)
	movq	%r15, (%r12)
	jmp	.LBB51_100
.LBB51_48:
	movl	%r14d, %eax
	andl	$-4, %eax
	leal	(,%r14,8), %r8d
	andl	$-32, %r8d
	addq	%rbp, %r9
	addq	$32, %r9
	xorl	%r10d, %r10d
	.p2align	4
.LBB51_49:
	movups	8(%rbx,%r10), %xmm0
	movups	24(%rbx,%r10), %xmm1
	movups	%xmm0, -16(%r9,%r10)
	movups	%xmm1, (%r9,%r10)
	addq	$32, %r10
	cmpq	%r10, %r8
	jne	.LBB51_49
	movq	%rdi, %r12
	cmpl	%r14d, %eax
	jne	.LBB51_5
	jmp	.LBB51_22
.LBB51_55:
	movl	%r13d, %edx
	movq	%r10, %r14
	andq	$-4, %r14
	leaq	(%r9,%rax), %r12
	addq	$24, %r12
	xorl	%r13d, %r13d
	.p2align	4
.LBB51_56:
	movups	8(%r11,%r13,8), %xmm0
	movups	24(%r11,%r13,8), %xmm1
	movups	%xmm0, -16(%r12,%r13,8)
	movups	%xmm1, (%r12,%r13,8)
	addq	$4, %r13
	cmpq	%r13, %r14
	jne	.LBB51_56
	cmpq	%r14, %r10
	movl	%edx, %r13d
	leaq	88(%rsp), %rdx
	jne	.LBB51_58
.LBB51_64:
	leaq	128(%r15), %r12
	movq	%rcx, 64(%rsp)
	movq	%r8, 72(%rsp)
	movq	$15, 80(%rsp)
	xorl	%r14d, %r14d
	leaq	160(%rsp), %rcx
	xorl	%r8d, %r8d
	callq	"std_alloc::vec::Vec::remove::<#7f26edd6ea879dba>"
	testw	%r13w, %r13w
	je	.LBB51_97
	movq	112(%rsp), %rax
	movq	120(%rsp), %r9
	movq	(%rax), %r14
	decq	%r9
	cmpq	$257, %r9
	jb	.LBB51_71
	leaq	56(%rax), %rdx
	xorl	%r10d, %r10d
	.p2align	4
.LBB51_67:
	xorl	%ecx, %ecx
	.p2align	4
.LBB51_68:
	movups	-48(%rdx,%rcx,8), %xmm0
	movups	-32(%rdx,%rcx,8), %xmm1
	movups	-16(%rdx,%rcx,8), %xmm2
	movups	(%rdx,%rcx,8), %xmm3
	movups	%xmm0, -56(%rdx,%rcx,8)
	movups	%xmm1, -40(%rdx,%rcx,8)
	movups	%xmm2, -24(%rdx,%rcx,8)
	movups	%xmm3, -8(%rdx,%rcx,8)
	addq	$8, %rcx
	cmpq	$256, %rcx
	jne	.LBB51_68
	addq	$256, %r10
	movq	%r9, %rcx
	subq	%r10, %rcx
	addq	$2048, %rdx
	cmpq	$256, %rcx
	ja	.LBB51_67
	leaq	(,%r10,8), %r8
	leaq	(%rax,%r10,8), %rdx
	cmpq	%r10, %r9
	jne	.LBB51_72
	jmp	.LBB51_97
.LBB51_71:
	xorl	%r8d, %r8d
	movq	%rax, %rdx
	movq	%r9, %rcx
	xorl	%r10d, %r10d
	cmpq	%r10, %r9
	je	.LBB51_97
.LBB51_72:
	movq	%r14, 40(%rsp)
	movw	%r13w, 48(%rsp)
	leaq	(%rax,%r8), %r9
	cmpq	$8, %rcx
	jb	.LBB51_74
	movq	%r9, %r10
	subq	%rdx, %r10
	addq	$-8, %r10
	cmpq	$32, %r10
	jae	.LBB51_92
.LBB51_74:
	xorl	%r10d, %r10d
.LBB51_75:
	movq	%rbx, %r14
	movq	%rcx, %r13
	movq	%r10, %r11
	andq	$3, %r13
	je	.LBB51_78
	movq	%r10, %r11
	.p2align	4
.LBB51_77:
	movq	8(%rdx,%r11,8), %rbx
	movq	%rbx, (%r9,%r11,8)
	incq	%r11
	decq	%r13
	jne	.LBB51_77
.LBB51_78:
	subq	%rcx, %r10
	cmpq	$-4, %r10
	jbe	.LBB51_80
	movzwl	48(%rsp), %r13d
	movq	%r14, %rbx
	jmp	.LBB51_96
.LBB51_80:
	addq	%r8, %rax
	addq	$24, %rax
	movzwl	48(%rsp), %r13d
	movq	%r14, %rbx
	.p2align	4
.LBB51_81:
	movq	8(%rdx,%r11,8), %r8
	movq	%r8, -24(%rax,%r11,8)
	movq	16(%rdx,%r11,8), %r8
	movq	%r8, -16(%rax,%r11,8)
	movq	24(%rdx,%r11,8), %r8
	movq	%r8, -8(%rax,%r11,8)
	movq	32(%rdx,%r11,8), %r8
	movq	%r8, (%rax,%r11,8)
	addq	$4, %r11
	cmpq	%r11, %rcx
	jne	.LBB51_81
	jmp	.LBB51_96
.LBB51_82:
	leaq	1(%r14), %r8
	movl	%r8d, %eax
	andl	$-4, %eax
	leal	(,%r8,8), %r10d
	andl	$-32, %r10d
	addq	%rbp, %r9
	addq	$872, %r9
	xorl	%r11d, %r11d
	.p2align	4
.LBB51_83:
	movups	848(%rbx,%r11), %xmm0
	movups	864(%rbx,%r11), %xmm1
	movups	%xmm0, -16(%r9,%r11)
	movups	%xmm1, (%r9,%r11)
	addq	$32, %r11
	cmpq	%r11, %r10
	jne	.LBB51_83
	cmpl	%eax, %r8d
	je	.LBB51_91
	jmp	.LBB51_85
.LBB51_92:
	movl	%ecx, %r10d
	andl	$508, %r10d
	leaq	(%r8,%rax), %r11
	addq	$16, %r11
	xorl	%r13d, %r13d
	.p2align	4
.LBB51_93:
	movups	8(%rdx,%r13,8), %xmm0
	movups	24(%rdx,%r13,8), %xmm1
	movups	%xmm0, -16(%r11,%r13,8)
	movups	%xmm1, (%r11,%r13,8)
	addq	$4, %r13
	cmpq	%r13, %r10
	jne	.LBB51_93
	cmpq	%r10, %rcx
	jne	.LBB51_75
	movzwl	48(%rsp), %r13d
.LBB51_96:
	movq	40(%rsp), %r14
.LBB51_97:
	movzwl	72(%rsp), %eax
	movq	136(%rsp), %rcx
	movw	%ax, (%rcx)
	movq	%rcx, 856(%r15,%rdi,8)
	movaps	160(%rsp), %xmm0
	movaps	176(%rsp), %xmm1
	movaps	192(%rsp), %xmm2
	movaps	%xmm2, 240(%rsp)
	movaps	%xmm1, 224(%rsp)
	movaps	%xmm0, 208(%rsp)
	movq	8(%r15,%rdi,8), %r8
	movq	%rbx, 8(%r15,%rdi,8)
	leaq	(%rdi,%rdi,2), %rax
	shlq	$4, %rax
	movups	(%r12,%rax), %xmm0
	movups	16(%r12,%rax), %xmm1
	movups	32(%r12,%rax), %xmm2
	movaps	%xmm2, 304(%rsp)
	movaps	%xmm1, 288(%rsp)
	movaps	%xmm0, 272(%rsp)
	movaps	208(%rsp), %xmm0
	movaps	224(%rsp), %xmm1
	movaps	240(%rsp), %xmm2
	movups	%xmm0, (%r12,%rax)
	movups	%xmm1, 16(%r12,%rax)
	movups	%xmm2, 32(%r12,%rax)
	movq	848(%r15,%rdi,8), %rax
	movzwl	(%rax), %r9d
	leaq	1(%r9), %rcx
	movzwl	2(%rax), %edx
	movq	%r8, 8(%rax,%r9,8)
	leaq	(%r9,%r9,2), %r8
	shll	$4, %r8d
	movaps	272(%rsp), %xmm0
	movaps	288(%rsp), %xmm1
	movaps	304(%rsp), %xmm2
	movups	%xmm2, 160(%rax,%r8)
	movups	%xmm1, 144(%rax,%r8)
	movups	%xmm0, 128(%rax,%r8)
	testw	%r13w, %r13w
	je	.LBB51_99
	leal	(,%rcx,8), %r8d
	xorl	%r9d, %r9d
	testw	%dx, %dx
	cmovneq	%r8, %r9
	movq	%r14, 848(%rax,%r9)
.LBB51_99:
	movw	%cx, (%rax)
	movq	%rax, 848(%r15,%rdi,8)
	movw	%si, (%r15)
	movq	%r15, (%rbp)
.LBB51_100:
	addq	$328, %rsp
	popq	%rbx
	popq	%rbp
	popq	%rdi
	popq	%rsi
	popq	%r12
	popq	%r13
	popq	%r14
	popq	%r15
	retq
	.seh_endproc

	.section	.text
	.p2align	4
	.def	"std_alloc::vec::Vec::remove::<#bb3624bd71ef2d03>";
	.scl	3;
	.type	32;
	.endef
"std_alloc::vec::Vec::remove::<#bb3624bd71ef2d03>":
.seh_proc "std_alloc::vec::Vec::remove::<#bb3624bd71ef2d03>"
	pushq	%r15
	.seh_pushreg %r15
	pushq	%r14
	.seh_pushreg %r14
	pushq	%r12
	.seh_pushreg %r12
	pushq	%rsi
	.seh_pushreg %rsi
	pushq	%rdi
	.seh_pushreg %rdi
	pushq	%rbx
	.seh_pushreg %rbx
	.seh_endprologue
	movq	(%rcx), %r8
	movq	8(%rcx), %rsi
	movq	16(%rcx), %r9
	xorps	%xmm0, %xmm0
	movups	%xmm0, 8(%rcx)
	leaq	(,%rdx,8), %rdi
	movq	(%r8,%rdx,8), %rax
	leaq	-1(%rsi), %r10
	movq	%r10, %r11
	subq	%rdx, %r11
	cmpq	$-1, %rdx
	je	.LBB52_9
	cmpq	$257, %r11
	jb	.LBB52_17
	leaq	(%r8,%rdx,8), %rbx
	leaq	(%r8,%rdi), %r14
	addq	$2048, %r14
	leaq	(%r8,%rdi), %r15
	addq	$56, %r15
	xorl	%r12d, %r12d
	jmp	.LBB52_4
	.p2align	4
.LBB52_3:
	leaq	256(%rdi), %rdx
	movq	%r10, %r11
	subq	%rdx, %r11
	incq	%r12
	addq	$2048, %r15
	addq	$2048, %rbx
	cmpq	$256, %r11
	jbe	.LBB52_18
.LBB52_4:
	movq	%rdx, %rdi
	cmpq	$-1, %rdx
	je	.LBB52_7
	xorl	%edx, %edx
	.p2align	4
.LBB52_6:
	movups	-48(%r15,%rdx,8), %xmm0
	movups	-32(%r15,%rdx,8), %xmm1
	movups	-16(%r15,%rdx,8), %xmm2
	movups	(%r15,%rdx,8), %xmm3
	movups	%xmm0, -56(%r15,%rdx,8)
	movups	%xmm1, -40(%r15,%rdx,8)
	movups	%xmm2, -24(%r15,%rdx,8)
	movups	%xmm3, -8(%r15,%rdx,8)
	addq	$8, %rdx
	cmpq	$256, %rdx
	jne	.LBB52_6
	jmp	.LBB52_3
	.p2align	4
.LBB52_7:
	movq	%r12, %rdx
	shlq	$11, %rdx
	movq	(%r14,%rdx), %rdx
	movl	$2048, %r11d
	.p2align	4
.LBB52_8:
	movq	%rdx, -8(%rbx,%r11)
	movq	%rdx, -16(%rbx,%r11)
	movq	%rdx, -24(%rbx,%r11)
	movq	%rdx, -32(%rbx,%r11)
	addq	$-32, %r11
	jne	.LBB52_8
	jmp	.LBB52_3
.LBB52_9:
	testq	%rsi, %rsi
	je	.LBB52_36
	xorl	%ebx, %ebx
	cmpq	$6, %r11
	jb	.LBB52_15
	leaq	(,%rdx,8), %r14
	negq	%r14
	cmpq	$32, %r14
	jb	.LBB52_15
	movq	%r11, %rbx
	andq	$-4, %rbx
	movq	%rbx, %r14
	negq	%r14
	leaq	-24(,%rsi,8), %r15
	subq	%rdi, %r15
	addq	%r8, %r15
	leaq	(%r8,%rsi,8), %rdi
	addq	$-24, %rdi
	xorl	%r12d, %r12d
	.p2align	4
.LBB52_13:
	movups	-16(%r15,%r12,8), %xmm0
	movups	(%r15,%r12,8), %xmm1
	movups	%xmm1, (%rdi,%r12,8)
	movups	%xmm0, -16(%rdi,%r12,8)
	addq	$-4, %r12
	cmpq	%r12, %r14
	jne	.LBB52_13
	cmpq	%rbx, %r11
	je	.LBB52_36
.LBB52_15:
	leaq	(%rbx,%rdx), %r11
	addq	%rbx, %rdx
	incq	%rdx
	shlq	$3, %r11
	negq	%r11
	addq	%r8, %r11
	addq	$-16, %r11
	shlq	$3, %rbx
	negq	%rbx
	leaq	(%r8,%rbx), %rdi
	addq	$-16, %rdi
	.p2align	4
.LBB52_16:
	movq	(%r11,%rsi,8), %rbx
	movq	%rbx, (%rdi,%rsi,8)
	decq	%rsi
	cmpq	%rsi, %rdx
	jne	.LBB52_16
	jmp	.LBB52_36
.LBB52_17:
	leaq	(%r8,%rdi), %rsi
	cmpq	%rdx, %r10
	jne	.LBB52_20
	jmp	.LBB52_36
.LBB52_18:
	cmpq	$-1, %rdx
	je	.LBB52_24
	leaq	(,%rdx,8), %rdi
	leaq	(%r8,%rdx,8), %rsi
	cmpq	%rdx, %r10
	je	.LBB52_36
.LBB52_20:
	cmpq	$8, %r11
	jb	.LBB52_21
	leaq	(%rdi,%r8), %rdx
	subq	%rsi, %rdx
	addq	$-8, %rdx
	cmpq	$32, %rdx
	jae	.LBB52_27
.LBB52_21:
	xorl	%edx, %edx
.LBB52_30:
	movq	%r11, %r14
	movq	%rdx, %rbx
	andq	$3, %r14
	je	.LBB52_33
	leaq	(%r8,%rdi), %r15
	movq	%rdx, %rbx
	.p2align	4
.LBB52_32:
	movq	8(%rsi,%rbx,8), %r12
	movq	%r12, (%r15,%rbx,8)
	incq	%rbx
	decq	%r14
	jne	.LBB52_32
.LBB52_33:
	subq	%r11, %rdx
	cmpq	$-4, %rdx
	ja	.LBB52_36
	leaq	(%rdi,%r8), %rdx
	addq	$24, %rdx
	.p2align	4
.LBB52_35:
	movq	8(%rsi,%rbx,8), %rdi
	movq	%rdi, -24(%rdx,%rbx,8)
	movq	16(%rsi,%rbx,8), %rdi
	movq	%rdi, -16(%rdx,%rbx,8)
	movq	24(%rsi,%rbx,8), %rdi
	movq	%rdi, -8(%rdx,%rbx,8)
	movq	32(%rsi,%rbx,8), %rdi
	movq	%rdi, (%rdx,%rbx,8)
	addq	$4, %rbx
	cmpq	%rbx, %r11
	jne	.LBB52_35
	jmp	.LBB52_36
.LBB52_24:
	testq	%rsi, %rsi
	je	.LBB52_36
	movq	-8(%r8,%rsi,8), %rdx
	addq	$-257, %rsi
	.p2align	4
.LBB52_26:
	movq	%rdx, 2040(%r8,%rsi,8)
	decq	%rsi
	cmpq	%rsi, %rdi
	jne	.LBB52_26
	jmp	.LBB52_36
.LBB52_27:
	movl	%r11d, %edx
	andl	$508, %edx
	leaq	(%rdi,%r8), %rbx
	addq	$16, %rbx
	xorl	%r14d, %r14d
	.p2align	4
.LBB52_28:
	movups	8(%rsi,%r14,8), %xmm0
	movups	24(%rsi,%r14,8), %xmm1
	movups	%xmm0, -16(%rbx,%r14,8)
	movups	%xmm1, (%rbx,%r14,8)
	addq	$4, %r14
	cmpq	%r14, %rdx
	jne	.LBB52_28
	cmpq	%rdx, %r11
	jne	.LBB52_30
.LBB52_36:
	movq	%r8, (%rcx)
	movq	%r10, 8(%rcx)
	movq	%r9, 16(%rcx)
	popq	%rbx
	popq	%rdi
	popq	%rsi
	popq	%r12
	popq	%r14
	popq	%r15
	retq
	.seh_endproc

	.section	.rdata,"dr"
	.p2align	4, 0x0
.LCPI53_0:
	.long	1
	.long	0
	.long	0
	.long	0
	.section	.text
	.p2align	4
	.def	"std_alloc::vec::lodged::Vec+T+Lodged::insert_reserved::<#667d5c0342a2aeff>";
	.scl	3;
	.type	32;
	.endef
"std_alloc::vec::lodged::Vec+T+Lodged::insert_reserved::<#667d5c0342a2aeff>":
.seh_proc "std_alloc::vec::lodged::Vec+T+Lodged::insert_reserved::<#667d5c0342a2aeff>"
	pushq	%rsi
	.seh_pushreg %rsi
	pushq	%rdi
	.seh_pushreg %rdi
	pushq	%rbx
	.seh_pushreg %rbx
	subq	$48, %rsp
	.seh_stackalloc 48
	.seh_endprologue
	movups	(%r8), %xmm0
	movups	16(%r8), %xmm1
	movups	32(%r8), %xmm2
	movaps	%xmm2, 32(%rsp)
	movaps	%xmm1, 16(%rsp)
	movaps	%xmm0, (%rsp)
	movq	(%rcx), %rax
	movq	8(%rcx), %r9
	movdqu	8(%rcx), %xmm0
	xorps	%xmm1, %xmm1
	movups	%xmm1, 8(%rcx)
	cmpq	$-1, %rdx
	je	.LBB53_1
	cmpq	%rdx, %r9
	je	.LBB53_26
	movq	%r9, %r8
	subq	%rdx, %r8
	leaq	(%rdx,%rdx,2), %r10
	shlq	$4, %r10
	leaq	(%rax,%r10), %r11
	addq	%rax, %r10
	addq	$48, %r10
	leaq	1(%rdx), %rsi
	cmpq	%rsi, %r9
	jne	.LBB53_22
	xorl	%r9d, %r9d
	jmp	.LBB53_25
.LBB53_1:
	leaq	1(%r9), %r8
	movq	%r8, %r11
	cmpq	$43, %r8
	jb	.LBB53_8
	leaq	-48(%rax), %r11
	xorl	%r10d, %r10d
	jmp	.LBB53_3
	.p2align	4
.LBB53_5:
	movups	(%r11), %xmm1
	movups	16(%r11), %xmm2
	movups	32(%r11), %xmm3
	movups	%xmm3, 32(%rsi)
	movups	%xmm2, 16(%rsi)
	movups	%xmm1, (%rsi)
	movups	(%r11), %xmm1
	movups	16(%r11), %xmm2
	movups	32(%r11), %xmm3
	movups	%xmm1, 96(%r11)
	movups	%xmm2, 112(%r11)
	movups	%xmm3, 128(%r11)
	movups	%xmm1, 144(%r11)
	movups	%xmm2, 160(%r11)
	movups	%xmm3, 176(%r11)
	movups	%xmm1, 192(%r11)
	movups	%xmm2, 208(%r11)
	movups	%xmm3, 224(%r11)
	movups	%xmm3, 272(%r11)
	movups	%xmm2, 256(%r11)
	movups	%xmm1, 240(%r11)
	movups	(%r11), %xmm1
	movups	16(%r11), %xmm2
	movups	32(%r11), %xmm3
	movups	%xmm3, 320(%r11)
	movups	%xmm2, 304(%r11)
	movups	%xmm1, 288(%r11)
	movups	%xmm3, 368(%r11)
	movups	%xmm2, 352(%r11)
	movups	%xmm1, 336(%r11)
	movups	%xmm3, 416(%r11)
	movups	%xmm2, 400(%r11)
	movups	%xmm1, 384(%r11)
	movups	%xmm3, 464(%r11)
	movups	%xmm2, 448(%r11)
	movups	%xmm1, 432(%r11)
	movups	%xmm1, 480(%r11)
	movups	%xmm2, 496(%r11)
	movups	%xmm3, 512(%r11)
	movups	(%r11), %xmm1
	movups	16(%r11), %xmm2
	movups	32(%r11), %xmm3
	movups	%xmm3, 560(%r11)
	movups	%xmm2, 544(%r11)
	movups	%xmm1, 528(%r11)
	movups	(%r11), %xmm1
	movups	16(%r11), %xmm2
	movups	32(%r11), %xmm3
	movups	%xmm3, 608(%r11)
	movups	%xmm2, 592(%r11)
	movups	%xmm1, 576(%r11)
	movups	(%r11), %xmm1
	movups	16(%r11), %xmm2
	movups	32(%r11), %xmm3
	movups	%xmm3, 656(%r11)
	movups	%xmm2, 640(%r11)
	movups	%xmm1, 624(%r11)
	movups	(%r11), %xmm1
	movups	16(%r11), %xmm2
	movups	32(%r11), %xmm3
	movups	%xmm3, 704(%r11)
	movups	%xmm2, 688(%r11)
	movups	%xmm1, 672(%r11)
	movups	(%r11), %xmm1
	movups	16(%r11), %xmm2
	movups	32(%r11), %xmm3
	movups	%xmm3, 752(%r11)
	movups	%xmm2, 736(%r11)
	movups	%xmm1, 720(%r11)
	movups	(%r11), %xmm1
	movups	16(%r11), %xmm2
	movups	32(%r11), %xmm3
	movups	%xmm3, 800(%r11)
	movups	%xmm2, 784(%r11)
	movups	%xmm1, 768(%r11)
	movups	(%r11), %xmm1
	movups	16(%r11), %xmm2
	movups	32(%r11), %xmm3
	movups	%xmm3, 848(%r11)
	movups	%xmm2, 832(%r11)
	movups	%xmm1, 816(%r11)
	movups	(%r11), %xmm1
	movups	16(%r11), %xmm2
	movups	32(%r11), %xmm3
	movups	%xmm3, 896(%r11)
	movups	%xmm2, 880(%r11)
	movups	%xmm1, 864(%r11)
	movups	(%r11), %xmm1
	movups	16(%r11), %xmm2
	movups	32(%r11), %xmm3
	movups	%xmm3, 944(%r11)
	movups	%xmm2, 928(%r11)
	movups	%xmm1, 912(%r11)
	movups	(%r11), %xmm1
	movups	16(%r11), %xmm2
	movups	32(%r11), %xmm3
	movups	%xmm3, 992(%r11)
	movups	%xmm2, 976(%r11)
	movups	%xmm1, 960(%r11)
	movups	(%r11), %xmm1
	movups	16(%r11), %xmm2
	movups	32(%r11), %xmm3
	movups	%xmm3, 1040(%r11)
	movups	%xmm2, 1024(%r11)
	movups	%xmm1, 1008(%r11)
	movups	(%r11), %xmm1
	movups	16(%r11), %xmm2
	movups	32(%r11), %xmm3
	movups	%xmm3, 1088(%r11)
	movups	%xmm2, 1072(%r11)
	movups	%xmm1, 1056(%r11)
	movups	(%r11), %xmm1
	movups	16(%r11), %xmm2
	movups	32(%r11), %xmm3
	movups	%xmm3, 1136(%r11)
	movups	%xmm2, 1120(%r11)
	movups	%xmm1, 1104(%r11)
	movups	(%r11), %xmm1
	movups	16(%r11), %xmm2
	movups	32(%r11), %xmm3
	movups	%xmm3, 1184(%r11)
	movups	%xmm2, 1168(%r11)
	movups	%xmm1, 1152(%r11)
	movups	(%r11), %xmm1
	movups	16(%r11), %xmm2
	movups	32(%r11), %xmm3
	movups	%xmm3, 1232(%r11)
	movups	%xmm2, 1216(%r11)
	movups	%xmm1, 1200(%r11)
	movups	(%r11), %xmm1
	movups	16(%r11), %xmm2
	movups	32(%r11), %xmm3
	movups	%xmm3, 1280(%r11)
	movups	%xmm2, 1264(%r11)
	movups	%xmm1, 1248(%r11)
	movups	(%r11), %xmm1
	movups	16(%r11), %xmm2
	movups	32(%r11), %xmm3
	movups	%xmm3, 1328(%r11)
	movups	%xmm2, 1312(%r11)
	movups	%xmm1, 1296(%r11)
	movups	(%r11), %xmm1
	movups	16(%r11), %xmm2
	movups	32(%r11), %xmm3
	movups	%xmm3, 1376(%r11)
	movups	%xmm2, 1360(%r11)
	movups	%xmm1, 1344(%r11)
	movups	(%r11), %xmm1
	movups	16(%r11), %xmm2
	movups	32(%r11), %xmm3
	movups	%xmm3, 1424(%r11)
	movups	%xmm2, 1408(%r11)
	movups	%xmm1, 1392(%r11)
	movups	(%r11), %xmm1
	movups	16(%r11), %xmm2
	movups	32(%r11), %xmm3
	movups	%xmm3, 1472(%r11)
	movups	%xmm2, 1456(%r11)
	movups	%xmm1, 1440(%r11)
	movups	(%r11), %xmm1
	movups	16(%r11), %xmm2
	movups	32(%r11), %xmm3
	movups	%xmm3, 1520(%r11)
	movups	%xmm2, 1504(%r11)
	movups	%xmm1, 1488(%r11)
	movups	(%r11), %xmm1
	movups	16(%r11), %xmm2
	movups	32(%r11), %xmm3
	movups	%xmm3, 1568(%r11)
	movups	%xmm2, 1552(%r11)
	movups	%xmm1, 1536(%r11)
	movups	(%r11), %xmm1
	movups	16(%r11), %xmm2
	movups	32(%r11), %xmm3
	movups	%xmm3, 1616(%r11)
	movups	%xmm2, 1600(%r11)
	movups	%xmm1, 1584(%r11)
	movups	(%r11), %xmm1
	movups	16(%r11), %xmm2
	movups	32(%r11), %xmm3
	movups	%xmm3, 1664(%r11)
	movups	%xmm2, 1648(%r11)
	movups	%xmm1, 1632(%r11)
	movups	(%r11), %xmm1
	movups	16(%r11), %xmm2
	movups	32(%r11), %xmm3
	movups	%xmm3, 1712(%r11)
	movups	%xmm2, 1696(%r11)
	movups	%xmm1, 1680(%r11)
	movups	(%r11), %xmm1
	movups	16(%r11), %xmm2
	movups	32(%r11), %xmm3
	movups	%xmm3, 1760(%r11)
	movups	%xmm2, 1744(%r11)
	movups	%xmm1, 1728(%r11)
	movups	(%r11), %xmm1
	movups	16(%r11), %xmm2
	movups	32(%r11), %xmm3
	movups	%xmm3, 1808(%r11)
	movups	%xmm2, 1792(%r11)
	movups	%xmm1, 1776(%r11)
	movups	(%r11), %xmm1
	movups	16(%r11), %xmm2
	movups	32(%r11), %xmm3
	movups	%xmm3, 1856(%r11)
	movups	%xmm2, 1840(%r11)
	movups	%xmm1, 1824(%r11)
	movups	(%r11), %xmm1
	movups	16(%r11), %xmm2
	movups	32(%r11), %xmm3
	movups	%xmm3, 1904(%r11)
	movups	%xmm2, 1888(%r11)
	movups	%xmm1, 1872(%r11)
	movups	(%r11), %xmm1
	movups	16(%r11), %xmm2
	movups	32(%r11), %xmm3
	movups	%xmm3, 1952(%r11)
	movups	%xmm2, 1936(%r11)
	movups	%xmm1, 1920(%r11)
	movups	(%r11), %xmm1
	movups	16(%r11), %xmm2
	movups	32(%r11), %xmm3
	movups	%xmm3, 2000(%r11)
	movups	%xmm2, 1984(%r11)
	movups	%xmm1, 1968(%r11)
	movups	(%r11), %xmm1
	movups	16(%r11), %xmm2
	movups	32(%r11), %xmm3
	movups	%xmm3, 2048(%r11)
	movups	%xmm2, 2032(%r11)
	movups	%xmm1, 2016(%r11)
.LBB53_6:
	leaq	(%r8,%r10), %rsi
	addq	$-42, %rsi
	addq	$-42, %r10
	addq	$2016, %r11
	cmpq	$42, %rsi
	jbe	.LBB53_7
.LBB53_3:
	leaq	48(%r11), %rsi
	testq	%r10, %r10
	je	.LBB53_5
	movups	2000(%r11), %xmm1
	movups	%xmm1, 2048(%r11)
	movups	1984(%r11), %xmm1
	movups	%xmm1, 2032(%r11)
	movups	1968(%r11), %xmm1
	movups	%xmm1, 2016(%r11)
	movups	1872(%r11), %xmm1
	movups	1888(%r11), %xmm2
	movups	1904(%r11), %xmm3
	movups	1920(%r11), %xmm4
	movups	%xmm4, 1968(%r11)
	movups	1936(%r11), %xmm4
	movups	%xmm4, 1984(%r11)
	movups	1952(%r11), %xmm4
	movups	%xmm4, 2000(%r11)
	movups	%xmm1, 1920(%r11)
	movups	%xmm2, 1936(%r11)
	movups	%xmm3, 1952(%r11)
	movups	1824(%r11), %xmm1
	movups	1840(%r11), %xmm2
	movups	1856(%r11), %xmm3
	movups	%xmm3, 1904(%r11)
	movups	%xmm2, 1888(%r11)
	movups	%xmm1, 1872(%r11)
	movups	1776(%r11), %xmm1
	movups	1792(%r11), %xmm2
	movups	1808(%r11), %xmm3
	movups	%xmm3, 1856(%r11)
	movups	%xmm2, 1840(%r11)
	movups	%xmm1, 1824(%r11)
	movups	1728(%r11), %xmm1
	movups	1744(%r11), %xmm2
	movups	1760(%r11), %xmm3
	movups	%xmm3, 1808(%r11)
	movups	%xmm2, 1792(%r11)
	movups	%xmm1, 1776(%r11)
	movups	1680(%r11), %xmm1
	movups	1696(%r11), %xmm2
	movups	1712(%r11), %xmm3
	movups	%xmm3, 1760(%r11)
	movups	%xmm2, 1744(%r11)
	movups	%xmm1, 1728(%r11)
	movups	1632(%r11), %xmm1
	movups	1648(%r11), %xmm2
	movups	1664(%r11), %xmm3
	movups	%xmm3, 1712(%r11)
	movups	%xmm2, 1696(%r11)
	movups	%xmm1, 1680(%r11)
	movups	1584(%r11), %xmm1
	movups	1600(%r11), %xmm2
	movups	1616(%r11), %xmm3
	movups	%xmm3, 1664(%r11)
	movups	%xmm2, 1648(%r11)
	movups	%xmm1, 1632(%r11)
	movups	1536(%r11), %xmm1
	movups	1552(%r11), %xmm2
	movups	1568(%r11), %xmm3
	movups	%xmm3, 1616(%r11)
	movups	%xmm2, 1600(%r11)
	movups	%xmm1, 1584(%r11)
	movups	1488(%r11), %xmm1
	movups	1504(%r11), %xmm2
	movups	1520(%r11), %xmm3
	movups	%xmm3, 1568(%r11)
	movups	%xmm2, 1552(%r11)
	movups	%xmm1, 1536(%r11)
	movups	1440(%r11), %xmm1
	movups	1456(%r11), %xmm2
	movups	1472(%r11), %xmm3
	movups	%xmm3, 1520(%r11)
	movups	%xmm2, 1504(%r11)
	movups	%xmm1, 1488(%r11)
	movups	1392(%r11), %xmm1
	movups	1408(%r11), %xmm2
	movups	1424(%r11), %xmm3
	movups	%xmm3, 1472(%r11)
	movups	%xmm2, 1456(%r11)
	movups	%xmm1, 1440(%r11)
	movups	1344(%r11), %xmm1
	movups	1360(%r11), %xmm2
	movups	1376(%r11), %xmm3
	movups	%xmm3, 1424(%r11)
	movups	%xmm2, 1408(%r11)
	movups	%xmm1, 1392(%r11)
	movups	1296(%r11), %xmm1
	movups	1312(%r11), %xmm2
	movups	1328(%r11), %xmm3
	movups	%xmm3, 1376(%r11)
	movups	%xmm2, 1360(%r11)
	movups	%xmm1, 1344(%r11)
	movups	1248(%r11), %xmm1
	movups	1264(%r11), %xmm2
	movups	1280(%r11), %xmm3
	movups	%xmm3, 1328(%r11)
	movups	%xmm2, 1312(%r11)
	movups	%xmm1, 1296(%r11)
	movups	1200(%r11), %xmm1
	movups	1216(%r11), %xmm2
	movups	1232(%r11), %xmm3
	movups	%xmm3, 1280(%r11)
	movups	%xmm2, 1264(%r11)
	movups	%xmm1, 1248(%r11)
	movups	1152(%r11), %xmm1
	movups	1168(%r11), %xmm2
	movups	1184(%r11), %xmm3
	movups	%xmm3, 1232(%r11)
	movups	%xmm2, 1216(%r11)
	movups	%xmm1, 1200(%r11)
	movups	1104(%r11), %xmm1
	movups	1120(%r11), %xmm2
	movups	1136(%r11), %xmm3
	movups	%xmm3, 1184(%r11)
	movups	%xmm2, 1168(%r11)
	movups	%xmm1, 1152(%r11)
	movups	1056(%r11), %xmm1
	movups	1072(%r11), %xmm2
	movups	1088(%r11), %xmm3
	movups	%xmm3, 1136(%r11)
	movups	%xmm2, 1120(%r11)
	movups	%xmm1, 1104(%r11)
	movups	1008(%r11), %xmm1
	movups	1024(%r11), %xmm2
	movups	1040(%r11), %xmm3
	movups	%xmm3, 1088(%r11)
	movups	%xmm2, 1072(%r11)
	movups	%xmm1, 1056(%r11)
	movups	960(%r11), %xmm1
	movups	976(%r11), %xmm2
	movups	992(%r11), %xmm3
	movups	%xmm3, 1040(%r11)
	movups	%xmm2, 1024(%r11)
	movups	%xmm1, 1008(%r11)
	movups	912(%r11), %xmm1
	movups	928(%r11), %xmm2
	movups	944(%r11), %xmm3
	movups	%xmm3, 992(%r11)
	movups	%xmm2, 976(%r11)
	movups	%xmm1, 960(%r11)
	movups	864(%r11), %xmm1
	movups	880(%r11), %xmm2
	movups	896(%r11), %xmm3
	movups	%xmm3, 944(%r11)
	movups	%xmm2, 928(%r11)
	movups	%xmm1, 912(%r11)
	movups	816(%r11), %xmm1
	movups	832(%r11), %xmm2
	movups	848(%r11), %xmm3
	movups	%xmm3, 896(%r11)
	movups	%xmm2, 880(%r11)
	movups	%xmm1, 864(%r11)
	movups	768(%r11), %xmm1
	movups	784(%r11), %xmm2
	movups	800(%r11), %xmm3
	movups	%xmm3, 848(%r11)
	movups	%xmm2, 832(%r11)
	movups	%xmm1, 816(%r11)
	movups	720(%r11), %xmm1
	movups	736(%r11), %xmm2
	movups	752(%r11), %xmm3
	movups	%xmm3, 800(%r11)
	movups	%xmm2, 784(%r11)
	movups	%xmm1, 768(%r11)
	movups	672(%r11), %xmm1
	movups	688(%r11), %xmm2
	movups	704(%r11), %xmm3
	movups	%xmm3, 752(%r11)
	movups	%xmm2, 736(%r11)
	movups	%xmm1, 720(%r11)
	movups	624(%r11), %xmm1
	movups	640(%r11), %xmm2
	movups	656(%r11), %xmm3
	movups	%xmm3, 704(%r11)
	movups	%xmm2, 688(%r11)
	movups	%xmm1, 672(%r11)
	movups	576(%r11), %xmm1
	movups	592(%r11), %xmm2
	movups	608(%r11), %xmm3
	movups	%xmm3, 656(%r11)
	movups	%xmm2, 640(%r11)
	movups	%xmm1, 624(%r11)
	movups	528(%r11), %xmm1
	movups	544(%r11), %xmm2
	movups	560(%r11), %xmm3
	movups	%xmm3, 608(%r11)
	movups	%xmm2, 592(%r11)
	movups	%xmm1, 576(%r11)
	movups	480(%r11), %xmm1
	movups	496(%r11), %xmm2
	movups	512(%r11), %xmm3
	movups	%xmm3, 560(%r11)
	movups	%xmm2, 544(%r11)
	movups	%xmm1, 528(%r11)
	movups	432(%r11), %xmm1
	movups	448(%r11), %xmm2
	movups	464(%r11), %xmm3
	movups	%xmm3, 512(%r11)
	movups	%xmm2, 496(%r11)
	movups	%xmm1, 480(%r11)
	movups	384(%r11), %xmm1
	movups	400(%r11), %xmm2
	movups	416(%r11), %xmm3
	movups	%xmm3, 464(%r11)
	movups	%xmm2, 448(%r11)
	movups	%xmm1, 432(%r11)
	movups	336(%r11), %xmm1
	movups	352(%r11), %xmm2
	movups	368(%r11), %xmm3
	movups	%xmm3, 416(%r11)
	movups	%xmm2, 400(%r11)
	movups	%xmm1, 384(%r11)
	movups	288(%r11), %xmm1
	movups	304(%r11), %xmm2
	movups	320(%r11), %xmm3
	movups	%xmm3, 368(%r11)
	movups	%xmm2, 352(%r11)
	movups	%xmm1, 336(%r11)
	movups	240(%r11), %xmm1
	movups	256(%r11), %xmm2
	movups	272(%r11), %xmm3
	movups	%xmm3, 320(%r11)
	movups	%xmm2, 304(%r11)
	movups	%xmm1, 288(%r11)
	movups	192(%r11), %xmm1
	movups	208(%r11), %xmm2
	movups	224(%r11), %xmm3
	movups	%xmm3, 272(%r11)
	movups	%xmm2, 256(%r11)
	movups	%xmm1, 240(%r11)
	movups	144(%r11), %xmm1
	movups	160(%r11), %xmm2
	movups	176(%r11), %xmm3
	movups	%xmm3, 224(%r11)
	movups	%xmm2, 208(%r11)
	movups	%xmm1, 192(%r11)
	movups	96(%r11), %xmm1
	movups	112(%r11), %xmm2
	movups	128(%r11), %xmm3
	movups	%xmm3, 176(%r11)
	movups	%xmm2, 160(%r11)
	movups	%xmm1, 144(%r11)
	movups	(%rsi), %xmm1
	movups	16(%rsi), %xmm2
	movups	32(%rsi), %xmm3
	movups	%xmm3, 128(%r11)
	movups	%xmm2, 112(%r11)
	movups	%xmm1, 96(%r11)
	movups	(%r11), %xmm1
	movups	16(%r11), %xmm2
	movups	32(%r11), %xmm3
	movups	%xmm1, (%rsi)
	movups	%xmm2, 16(%rsi)
	movups	%xmm3, 32(%rsi)
	jmp	.LBB53_6
.LBB53_7:
	leaq	(%r8,%r10), %r11
	testq	%r10, %r10
	je	.LBB53_8
	testq	%r11, %r11
	je	.LBB53_26
	addq	%r10, %r8
	leaq	(%r9,%r9,2), %r9
	shlq	$4, %r9
	addq	%rax, %r9
	.p2align	4
.LBB53_18:
	movups	-48(%r9), %xmm1
	movups	-32(%r9), %xmm2
	movups	-16(%r9), %xmm3
	movups	%xmm3, 32(%r9)
	movups	%xmm2, 16(%r9)
	movups	%xmm1, (%r9)
	addq	$-48, %r9
	decq	%r8
	jne	.LBB53_18
	jmp	.LBB53_26
.LBB53_8:
	testq	%r8, %r8
	je	.LBB53_26
	leaq	-1(%r11), %r9
	movl	%r11d, %r8d
	andl	$3, %r8d
	cmpq	$3, %r9
	jae	.LBB53_11
	xorl	%r9d, %r9d
	jmp	.LBB53_14
.LBB53_22:
	movq	%r8, %rsi
	andq	$-2, %rsi
	leaq	(%r9,%r9,2), %rdi
	shlq	$4, %rdi
	addq	%rax, %rdi
	xorl	%r9d, %r9d
	.p2align	4
.LBB53_23:
	movups	-48(%rdi), %xmm1
	movups	-32(%rdi), %xmm2
	movups	-16(%rdi), %xmm3
	movups	%xmm3, 32(%rdi)
	movups	%xmm2, 16(%rdi)
	movups	%xmm1, (%rdi)
	movabsq	$1152921504606846974, %rbx
	xorq	%r9, %rbx
	addq	%r8, %rbx
	shlq	$4, %rbx
	leaq	(%rbx,%rbx,2), %rbx
	movups	(%r11,%rbx), %xmm1
	movups	16(%r11,%rbx), %xmm2
	movups	32(%r11,%rbx), %xmm3
	movups	%xmm3, 32(%r10,%rbx)
	movups	%xmm2, 16(%r10,%rbx)
	movups	%xmm1, (%r10,%rbx)
	addq	$2, %r9
	addq	$-96, %rdi
	cmpq	%r9, %rsi
	jne	.LBB53_23
	testb	$1, %r8b
	je	.LBB53_26
.LBB53_25:
	notq	%r9
	addq	%r9, %r8
	shlq	$4, %r8
	leaq	(%r8,%r8,2), %r8
	movups	(%r11,%r8), %xmm1
	movups	16(%r11,%r8), %xmm2
	movups	32(%r11,%r8), %xmm3
	movups	%xmm3, 32(%r10,%r8)
	movups	%xmm2, 16(%r10,%r8)
	movups	%xmm1, (%r10,%r8)
	jmp	.LBB53_26
.LBB53_11:
	andl	$60, %r11d
	xorl	%r9d, %r9d
	movq	%rax, %r10
	.p2align	4
.LBB53_12:
	movups	-48(%r10), %xmm1
	movups	-32(%r10), %xmm2
	movups	-16(%r10), %xmm3
	movups	%xmm3, 32(%r10)
	movups	%xmm2, 16(%r10)
	movups	%xmm1, (%r10)
	movups	%xmm1, 48(%r10)
	movups	%xmm2, 64(%r10)
	movups	%xmm3, 80(%r10)
	movups	%xmm1, 96(%r10)
	movups	%xmm2, 112(%r10)
	movups	%xmm3, 128(%r10)
	movups	%xmm1, 144(%r10)
	movups	%xmm3, 176(%r10)
	movups	%xmm2, 160(%r10)
	addq	$4, %r9
	addq	$192, %r10
	cmpq	%r9, %r11
	jne	.LBB53_12
	testq	%r8, %r8
	je	.LBB53_26
.LBB53_14:
	leaq	(%r9,%r9,2), %r9
	shlq	$4, %r9
	addq	%rax, %r9
	shll	$4, %r8d
	leaq	(%r8,%r8,2), %r8
	xorl	%r10d, %r10d
	.p2align	4
.LBB53_15:
	movups	-48(%r9,%r10), %xmm1
	movups	-32(%r9,%r10), %xmm2
	movups	-16(%r9,%r10), %xmm3
	movups	%xmm3, 32(%r9,%r10)
	movups	%xmm2, 16(%r9,%r10)
	movups	%xmm1, (%r9,%r10)
	addq	$48, %r10
	cmpq	%r10, %r8
	jne	.LBB53_15
.LBB53_26:
	leaq	(%rdx,%rdx,2), %rdx
	shlq	$4, %rdx
	movaps	(%rsp), %xmm1
	movaps	16(%rsp), %xmm2
	movaps	32(%rsp), %xmm3
	movups	%xmm3, 32(%rax,%rdx)
	movups	%xmm2, 16(%rax,%rdx)
	movups	%xmm1, (%rax,%rdx)
	movq	%rax, (%rcx)
	paddq	.LCPI53_0(%rip), %xmm0
	movdqu	%xmm0, 8(%rcx)
	addq	$48, %rsp
	popq	%rbx
	popq	%rdi
	popq	%rsi
	retq
	.seh_endproc

	.section	.text
	.p2align	4
	.def	"xetroot::xet_merkle++merkle_hash_subtree++subtree++MerkleHashSubtree+Destruct::drop::<#024afdc31600bcbd>";
	.scl	3;
	.type	32;
	.endef
"xetroot::xet_merkle++merkle_hash_subtree++subtree++MerkleHashSubtree+Destruct::drop::<#024afdc31600bcbd>":
.seh_proc "xetroot::xet_merkle++merkle_hash_subtree++subtree++MerkleHashSubtree+Destruct::drop::<#024afdc31600bcbd>"
	pushq	%r15
	.seh_pushreg %r15
	pushq	%r14
	.seh_pushreg %r14
	pushq	%r12
	.seh_pushreg %r12
	pushq	%rsi
	.seh_pushreg %rsi
	pushq	%rdi
	.seh_pushreg %rdi
	pushq	%rbx
	.seh_pushreg %rbx
	subq	$40, %rsp
	.seh_stackalloc 40
	.seh_endprologue
	movq	8(%rcx), %rsi
	movq	16(%rcx), %r14
	movq	24(%rcx), %rbx
	testq	%r14, %r14
	je	.LBB54_7
	leaq	48(%rsi), %r15
	jmp	.LBB54_2
	.p2align	4
.LBB54_6:
	addq	$56, %r15
	decq	%r14
	je	.LBB54_7
.LBB54_2:
	movq	-16(%r15), %rdi
	movq	(%r15), %r12
	cmpq	$0, -32(%r15)
	je	.LBB54_4
	movq	-48(%r15), %rcx
	callq	yurewha_heap_dealloc
.LBB54_4:
	testq	%r12, %r12
	je	.LBB54_6
	movq	%rdi, %rcx
	callq	yurewha_heap_dealloc
	jmp	.LBB54_6
.LBB54_7:
	testq	%rbx, %rbx
	je	.LBB54_8
	movq	%rsi, %rcx
	addq	$40, %rsp
	popq	%rbx
	popq	%rdi
	popq	%rsi
	popq	%r12
	popq	%r14
	popq	%r15
	jmp	yurewha_heap_dealloc
.LBB54_8:
	addq	$40, %rsp
	popq	%rbx
	popq	%rdi
	popq	%rsi
	popq	%r12
	popq	%r14
	popq	%r15
	retq
	.seh_endproc

	.section	.text
	.p2align	4
	.def	"std_collections::btree_map::BTreeMap::insert::<#09be7a39fcfa9307>";
	.scl	3;
	.type	32;
	.endef
"std_collections::btree_map::BTreeMap::insert::<#09be7a39fcfa9307>":
.seh_proc "std_collections::btree_map::BTreeMap::insert::<#09be7a39fcfa9307>"
	pushq	%r15
	.seh_pushreg %r15
	pushq	%r14
	.seh_pushreg %r14
	pushq	%r13
	.seh_pushreg %r13
	pushq	%r12
	.seh_pushreg %r12
	pushq	%rsi
	.seh_pushreg %rsi
	pushq	%rdi
	.seh_pushreg %rdi
	pushq	%rbp
	.seh_pushreg %rbp
	pushq	%rbx
	.seh_pushreg %rbx
	subq	$744, %rsp
	.seh_stackalloc 744
	.seh_endprologue
	movq	%r8, %rdi
	movq	%rdx, %r8
	movq	%rcx, %r11
	movups	(%r9), %xmm0
	movups	16(%r9), %xmm1
	movups	32(%r9), %xmm2
	movaps	%xmm2, 240(%rsp)
	movaps	%xmm1, 224(%rsp)
	movaps	%xmm0, 208(%rsp)
	xorps	%xmm0, %xmm0
	movaps	%xmm0, 432(%rsp)
	movaps	%xmm0, 448(%rsp)
	movaps	%xmm0, 464(%rsp)
	movaps	%xmm0, 384(%rsp)
	movaps	%xmm0, 400(%rsp)
	movaps	%xmm0, 416(%rsp)
	movaps	%xmm0, 624(%rsp)
	movaps	%xmm0, 640(%rsp)
	movaps	%xmm0, 656(%rsp)
	cmpb	$1, (%rdx)
	jne	.LBB55_2
	movq	8(%r8), %rdx
	jmp	.LBB55_4
.LBB55_2:
	movq	%r8, %rbx
	movl	$848, %ecx
	movl	$8, %edx
	movq	%r11, %rsi
	callq	in_registers_of_rattle_alloc
	movq	%rsi, %r11
	testb	$1, %al
	je	.LBB55_15
	movl	$0, (%rdx)
	movq	%rbx, %r8
	movzbl	(%rbx), %eax
	movq	$1, (%rbx)
	movq	%rdx, 8(%rbx)
	cmpb	$1, %al
	je	.LBB55_108
.LBB55_4:
	movq	%r8, 72(%rsp)
	leaq	8(%r8), %rax
	movq	%rax, 40(%rsp)
	movzwl	2(%rdx), %r13d
	movl	$15, %ebx
	subq	%r13, %rbx
	movl	%r13d, %esi
	negb	%sil
	xorl	%r12d, %r12d
	movq	%rdx, %r8
	xorl	%r15d, %r15d
	movq	%rdx, 48(%rsp)
	movq	%rbx, %rbp
	xorl	%r14d, %r14d
.LBB55_5:
	movq	%r8, %rcx
	movzwl	(%r8), %r8d
	xorl	%eax, %eax
	testq	%r8, %r8
	je	.LBB55_10
	.p2align	4
.LBB55_6:
	movq	8(%rcx,%rax,8), %r9
	cmpq	%r9, %rdi
	setae	%r10b
	addb	%r10b, %r10b
	cmpq	%r9, %rdi
	movzbl	%r10b, %r10d
	movl	$1, %r9d
	cmovnel	%r10d, %r9d
	cmpb	$2, %r9b
	jne	.LBB55_9
	incq	%rax
	cmpq	%rax, %r8
	jne	.LBB55_6
	movq	%r8, %rax
	jmp	.LBB55_10
	.p2align	4
.LBB55_9:
	movzbl	%r9b, %r8d
	testl	%r8d, %r8d
	jne	.LBB55_12
.LBB55_10:
	shlq	$4, %r14
	addq	%rax, %r14
	incq	%rbp
	cmpw	$0, 2(%rcx)
	je	.LBB55_14
	movq	848(%rcx,%rax,8), %r8
	incq	%r12
	incb	%sil
	movq	%rax, %r15
	movq	%rcx, 48(%rsp)
	jmp	.LBB55_5
.LBB55_12:
	andl	$15, %eax
	addq	%rbp, %r13
	cmpq	$15, %r13
	movq	48(%rsp), %rcx
	leaq	848(%rcx,%r15,8), %rcx
	cmoveq	40(%rsp), %rcx
	movq	(%rcx), %rcx
	movzwl	(%rcx), %edx
	cmpq	%rdx, %rax
	jae	.LBB55_108
	leaq	(%rax,%rax,2), %rax
	shll	$4, %eax
	movups	128(%rcx,%rax), %xmm0
	movups	144(%rcx,%rax), %xmm1
	movups	160(%rcx,%rax), %xmm2
	movaps	%xmm2, 464(%rsp)
	movaps	%xmm1, 448(%rsp)
	movaps	%xmm0, 432(%rsp)
	movaps	208(%rsp), %xmm0
	movaps	224(%rsp), %xmm1
	movaps	240(%rsp), %xmm2
	movups	%xmm0, 128(%rcx,%rax)
	movups	%xmm1, 144(%rcx,%rax)
	movups	%xmm2, 160(%rcx,%rax)
	movq	$0, (%r11)
	movq	$1, 8(%r11)
	movaps	432(%rsp), %xmm0
	movaps	448(%rsp), %xmm1
	movaps	464(%rsp), %xmm2
	jmp	.LBB55_16
.LBB55_14:
	movabsq	$9223372036854775806, %rax
	movq	72(%rsp), %rcx
	cmpq	%rax, 16(%rcx)
	jbe	.LBB55_18
.LBB55_15:
	movq	$1, (%r11)
	movq	%rdi, 8(%r11)
	movaps	208(%rsp), %xmm0
	movaps	224(%rsp), %xmm1
	movaps	240(%rsp), %xmm2
.LBB55_16:
	movups	%xmm0, 16(%r11)
	movups	%xmm1, 32(%r11)
	movups	%xmm2, 48(%r11)
.LBB55_17:
	addq	$744, %rsp
	popq	%rbx
	popq	%rbp
	popq	%rdi
	popq	%rsi
	popq	%r12
	popq	%r13
	popq	%r14
	popq	%r15
	retq
.LBB55_18:
	movq	%rbp, %rax
	subq	%rbx, %rax
	cmpq	$1, %rax
	movq	48(%rsp), %rax
	leaq	848(%rax,%r15,8), %rax
	cmoveq	40(%rsp), %rax
	movq	(%rax), %rax
	cmpw	$14, (%rax)
	ja	.LBB55_20
	movaps	208(%rsp), %xmm0
	movaps	224(%rsp), %xmm1
	movaps	240(%rsp), %xmm2
	movaps	%xmm2, 416(%rsp)
	movaps	%xmm1, 400(%rsp)
	movaps	%xmm0, 384(%rsp)
	jmp	.LBB55_101
.LBB55_20:
	cmpw	$15, (%rdx)
	movq	%rbx, %r9
	jae	.LBB55_25
	xorps	%xmm0, %xmm0
	movaps	%xmm0, 80(%rsp)
	cmpq	%r9, %rbp
	jbe	.LBB55_31
.LBB55_22:
	movl	%ebp, %eax
	subl	%r9d, %eax
	addq	%rbx, %r12
	subq	%r9, %r12
	testb	$3, %al
	je	.LBB55_28
	subb	%r9b, %sil
	movzbl	%sil, %ecx
	andl	$3, %ecx
	movq	%rbp, %rax
.LBB55_24:
	movl	%r14d, %r8d
	andb	$15, %r8b
	movb	%r8b, 79(%rsp,%rax)
	decq	%rax
	shrq	$4, %r14
	decq	%rcx
	jne	.LBB55_24
	jmp	.LBB55_29
.LBB55_25:
	cmpw	$10, %r13w
	ja	.LBB55_15
	movl	$976, %ecx
	movl	$8, %edx
	movq	%r11, 64(%rsp)
	callq	in_registers_of_rattle_alloc
	movq	64(%rsp), %r11
	testb	$1, %al
	je	.LBB55_15
	leal	1(%r13), %eax
	movw	%ax, 2(%rdx)
	movq	40(%rsp), %rcx
	movq	(%rcx), %rax
	movq	%rax, 848(%rdx)
	movw	$0, (%rdx)
	movq	%rdx, (%rcx)
	movl	$14, %r9d
	subq	%r13, %r9
	xorps	%xmm0, %xmm0
	movaps	%xmm0, 80(%rsp)
	cmpq	%r9, %rbp
	ja	.LBB55_22
	jmp	.LBB55_31
.LBB55_28:
	movq	%rbp, %rax
.LBB55_29:
	cmpq	$3, %r12
	jb	.LBB55_31
.LBB55_30:
	movl	%r14d, %ecx
	andb	$15, %cl
	movb	%cl, 79(%rsp,%rax)
	movl	%r14d, %ecx
	shrb	$4, %cl
	movb	%cl, 78(%rsp,%rax)
	movl	%r14d, %ecx
	shrl	$8, %ecx
	andb	$15, %cl
	movb	%cl, 77(%rsp,%rax)
	movl	%r14d, %ecx
	shrl	$12, %ecx
	andb	$15, %cl
	movb	%cl, 76(%rsp,%rax)
	addq	$-4, %rax
	shrq	$16, %r14
	cmpq	%rax, %r9
	jb	.LBB55_30
.LBB55_31:
	movaps	80(%rsp), %xmm0
	movaps	%xmm0, 672(%rsp)
	leaq	(%rsp,%r9), %r12
	addq	$672, %r12
	movl	$16, %ebx
	subq	%r9, %rbx
	cmpq	$2, %rbx
	jb	.LBB55_90
	movq	%rbx, %rcx
	movq	%r12, 264(%rsp)
	movq	40(%rsp), %rdx
	movq	%r11, 64(%rsp)
	movq	%r9, 168(%rsp)
	movq	%rbx, 160(%rsp)
	jmp	.LBB55_36
.LBB55_33:
	incl	%r15d
	movb	%r15b, (%r12)
	addb	$-8, %al
	movb	%al, 1(%r12)
.LBB55_34:
	movq	64(%rsp), %r11
	movq	168(%rsp), %r9
	movq	160(%rsp), %rbx
	movq	176(%rsp), %rcx
.LBB55_35:
	movzbl	%r15b, %r15d
	leaq	(%r10,%r15,8), %rdx
	addq	$848, %rdx
	incq	%r12
	cmpq	$2, %rcx
	leaq	-1(%rcx), %rcx
	jbe	.LBB55_89
.LBB55_36:
	movzbl	(%r12), %r15d
	movq	(%rdx), %r10
	leal	(,%r15,8), %r8d
	movq	848(%r10,%r8), %rax
	cmpw	$15, (%rax)
	jb	.LBB55_35
	movq	%r8, 200(%rsp)
	movq	%rdx, 48(%rsp)
	movq	%rcx, 176(%rsp)
	movzwl	2(%r10), %esi
	decq	%rsi
	movq	%r15, 296(%rsp)
	je	.LBB55_39
	movl	$976, %ecx
	jmp	.LBB55_40
.LBB55_39:
	movl	$848, %ecx
.LBB55_40:
	movl	$8, %edx
	callq	in_registers_of_rattle_alloc
	testb	$1, %al
	je	.LBB55_104
	movq	%rdx, %r13
	movw	%si, 2(%rdx)
	leaq	8(%rdx), %rcx
	leaq	128(%rdx), %r14
	movq	48(%rsp), %rax
	movq	(%rax), %rdx
	xorps	%xmm0, %xmm0
	movaps	%xmm0, 560(%rsp)
	movaps	%xmm0, 544(%rsp)
	movaps	%xmm0, 528(%rsp)
	movzwl	(%rdx), %esi
	leaq	1(%rsi), %r11
	xorl	%eax, %eax
	xorl	%r8d, %r8d
	cmpw	$0, 2(%rdx)
	setne	%r8b
	movq	%r11, %r9
	cmoveq	%rax, %r9
	shll	$4, %r8d
	leaq	848(%rdx), %rbx
	leaq	128(%rdx), %r10
	leaq	8(%rdx), %r15
	movq	%r15, 192(%rsp)
	movq	%r15, 304(%rsp)
	movq	%rsi, 312(%rsp)
	movq	$15, 320(%rsp)
	movq	%r10, 328(%rsp)
	movq	%rsi, 280(%rsp)
	movq	%rsi, 336(%rsp)
	movq	$15, 344(%rsp)
	movq	%rbx, 272(%rsp)
	movq	%rbx, 352(%rsp)
	movq	%r9, 360(%rsp)
	movq	%r8, 368(%rsp)
	movq	%rdx, 376(%rsp)
	movaps	%xmm0, 512(%rsp)
	movaps	%xmm0, 496(%rsp)
	movaps	%xmm0, 480(%rsp)
	movq	200(%rsp), %r8
	movq	848(%rdx,%r8), %r15
	movaps	%xmm0, 720(%rsp)
	movaps	%xmm0, 704(%rsp)
	movaps	%xmm0, 688(%rsp)
	movzwl	2(%r15), %r10d
	movzwl	(%r15), %esi
	leaq	1(%rsi), %rdx
	xorl	%r8d, %r8d
	testw	%r10w, %r10w
	cmoveq	%rax, %rdx
	setne	%r8b
	shll	$4, %r8d
	leaq	848(%r15), %rax
	leaq	128(%r15), %r9
	movq	%r9, 104(%rsp)
	movq	$15, 120(%rsp)
	movq	%rax, 128(%rsp)
	movq	%rdx, 136(%rsp)
	movq	%r8, 144(%rsp)
	movq	%r15, 152(%rsp)
	leaq	-8(%rsi), %r9
	leaq	72(%r15), %rdx
	leaq	-64(,%rsi,8), %r8
	movq	%rcx, %rax
	subq	%rdx, %rax
	cmpq	%r8, %rax
	movq	%r11, 288(%rsp)
	movq	%r9, 184(%rsp)
	movw	%r10w, 62(%rsp)
	jae	.LBB55_44
	cmpl	$8, %esi
	jne	.LBB55_50
	leaq	512(%r15), %rdx
	movq	%r9, %rax
	shlq	$4, %rax
	leaq	(%rax,%rax,2), %r8
	movq	%r14, %rax
	subq	%rdx, %rax
	cmpq	%r8, %rax
	jb	.LBB55_59
	jmp	.LBB55_49
.LBB55_44:
	movq	%r9, %rbx
	callq	memmove
	movq	%rbx, %r9
.LBB55_45:
	leaq	512(%r15), %rdx
	movq	%r9, %rax
	shlq	$4, %rax
	leaq	(%rax,%rax,2), %r8
	movq	%r14, %rax
	subq	%rdx, %rax
	cmpq	%r8, %rax
	jae	.LBB55_49
	cmpl	$8, %esi
	je	.LBB55_59
	movl	%esi, %eax
	andl	$7, %eax
	addl	$-9, %esi
	cmpw	$7, %si
	jae	.LBB55_54
	xorl	%ecx, %ecx
	jmp	.LBB55_57
.LBB55_49:
	movq	%r14, %rcx
	callq	memmove
	jmp	.LBB55_59
.LBB55_50:
	cmpl	$4, %r9d
	jb	.LBB55_51
	movq	%r13, %rax
	subq	%r15, %rax
	addq	$-64, %rax
	cmpq	$32, %rax
	jae	.LBB55_73
.LBB55_51:
	xorl	%eax, %eax
.LBB55_76:
	movq	%r9, %r11
	movq	%rsi, %r9
	movq	%rax, %r8
	andq	$3, %r9
	je	.LBB55_79
	movq	%rax, %r8
	.p2align	4
.LBB55_78:
	movq	(%rdx,%r8,8), %r10
	movq	%r10, (%rcx,%r8,8)
	incq	%r8
	decq	%r9
	jne	.LBB55_78
.LBB55_79:
	negq	%rax
	addq	%rsi, %rax
	addq	$-9, %rax
	cmpl	$3, %eax
	movq	%r11, %r9
	jb	.LBB55_45
	.p2align	4
.LBB55_80:
	movq	72(%r15,%r8,8), %rax
	movq	%rax, 8(%r13,%r8,8)
	movq	80(%r15,%r8,8), %rax
	movq	%rax, 16(%r13,%r8,8)
	movq	88(%r15,%r8,8), %rax
	movq	%rax, 24(%r13,%r8,8)
	movq	96(%r15,%r8,8), %rax
	movq	%rax, 32(%r13,%r8,8)
	addq	$4, %r8
	cmpq	%r8, %r9
	jne	.LBB55_80
	jmp	.LBB55_45
.LBB55_54:
	movq	184(%rsp), %r8
	andq	$-8, %r8
	xorl	%ecx, %ecx
	xorl	%r9d, %r9d
.LBB55_55:
	movups	(%rdx,%r9), %xmm0
	movups	16(%rdx,%r9), %xmm1
	movups	32(%rdx,%r9), %xmm2
	movups	%xmm2, 32(%r14,%r9)
	movups	%xmm1, 16(%r14,%r9)
	movups	%xmm0, (%r14,%r9)
	movups	48(%rdx,%r9), %xmm0
	movups	64(%rdx,%r9), %xmm1
	movups	80(%rdx,%r9), %xmm2
	movups	%xmm2, 80(%r14,%r9)
	movups	%xmm1, 64(%r14,%r9)
	movups	%xmm0, 48(%r14,%r9)
	movups	96(%rdx,%r9), %xmm0
	movups	112(%rdx,%r9), %xmm1
	movups	128(%rdx,%r9), %xmm2
	movups	%xmm2, 128(%r14,%r9)
	movups	%xmm1, 112(%r14,%r9)
	movups	%xmm0, 96(%r14,%r9)
	movups	144(%rdx,%r9), %xmm0
	movups	160(%rdx,%r9), %xmm1
	movups	176(%rdx,%r9), %xmm2
	movups	%xmm2, 176(%r14,%r9)
	movups	%xmm1, 160(%r14,%r9)
	movups	%xmm0, 144(%r14,%r9)
	movups	192(%rdx,%r9), %xmm0
	movups	208(%rdx,%r9), %xmm1
	movups	224(%rdx,%r9), %xmm2
	movups	%xmm2, 224(%r14,%r9)
	movups	%xmm1, 208(%r14,%r9)
	movups	%xmm0, 192(%r14,%r9)
	movups	240(%rdx,%r9), %xmm0
	movups	256(%rdx,%r9), %xmm1
	movups	272(%rdx,%r9), %xmm2
	movups	%xmm2, 272(%r14,%r9)
	movups	%xmm1, 256(%r14,%r9)
	movups	%xmm0, 240(%r14,%r9)
	movups	288(%rdx,%r9), %xmm0
	movups	304(%rdx,%r9), %xmm1
	movups	320(%rdx,%r9), %xmm2
	movups	%xmm2, 320(%r14,%r9)
	movups	%xmm1, 304(%r14,%r9)
	movups	%xmm0, 288(%r14,%r9)
	movups	336(%rdx,%r9), %xmm0
	movups	352(%rdx,%r9), %xmm1
	movups	368(%rdx,%r9), %xmm2
	movups	%xmm2, 368(%r14,%r9)
	movups	%xmm1, 352(%r14,%r9)
	movups	%xmm0, 336(%r14,%r9)
	addq	$8, %rcx
	addq	$384, %r9
	cmpq	%rcx, %r8
	jne	.LBB55_55
	testq	%rax, %rax
	je	.LBB55_59
.LBB55_57:
	shlq	$4, %rcx
	leaq	(%rcx,%rcx,2), %rdx
	leaq	(%r15,%rdx), %rcx
	addq	$512, %rcx
	addq	%r13, %rdx
	addq	$128, %rdx
	shll	$4, %eax
	leaq	(%rax,%rax,2), %rax
	xorl	%r8d, %r8d
	.p2align	4
.LBB55_58:
	movups	(%rcx,%r8), %xmm0
	movups	16(%rcx,%r8), %xmm1
	movups	32(%rcx,%r8), %xmm2
	movups	%xmm2, 32(%rdx,%r8)
	movups	%xmm1, 16(%rdx,%r8)
	movups	%xmm0, (%rdx,%r8)
	addq	$48, %r8
	cmpq	%r8, %rax
	jne	.LBB55_58
.LBB55_59:
	movq	$8, 112(%rsp)
	xorps	%xmm0, %xmm0
	movaps	%xmm0, 576(%rsp)
	movaps	%xmm0, 592(%rsp)
	movaps	%xmm0, 608(%rsp)
	movq	64(%r15), %rbx
	addq	$8, %r15
	movq	%r15, 80(%rsp)
	movq	$7, 88(%rsp)
	movq	$15, 96(%rsp)
	leaq	576(%rsp), %rcx
	movl	$7, %r8d
	leaq	104(%rsp), %rdx
	callq	"std_alloc::vec::Vec::remove::<#7f26edd6ea879dba>"
	cmpw	$0, 62(%rsp)
	movq	296(%rsp), %r15
	movq	192(%rsp), %rsi
	je	.LBB55_65
	leaq	848(%r13), %rcx
	movq	128(%rsp), %rax
	movq	136(%rsp), %r9
	leaq	64(%rax), %rdx
	leaq	-64(,%r9,8), %r8
	movq	%rcx, %r10
	subq	%rdx, %r10
	cmpq	%r8, %r10
	jae	.LBB55_64
	cmpq	$8, %r9
	je	.LBB55_65
	leaq	-8(%r9), %r8
	cmpq	$4, %r8
	jb	.LBB55_63
	movq	%r13, %r10
	subq	%rax, %r10
	addq	$784, %r10
	cmpq	$32, %r10
	jae	.LBB55_81
.LBB55_63:
	xorl	%r10d, %r10d
.LBB55_84:
	movq	%r9, %rsi
	movq	%r10, %r11
	andq	$3, %rsi
	je	.LBB55_87
	movq	%r10, %r11
.LBB55_86:
	movq	(%rdx,%r11,8), %r14
	movq	%r14, (%rcx,%r11,8)
	incq	%r11
	decq	%rsi
	jne	.LBB55_86
.LBB55_87:
	subq	%r10, %r9
	addq	$-9, %r9
	cmpq	$3, %r9
	movq	192(%rsp), %rsi
	jb	.LBB55_65
.LBB55_88:
	movq	64(%rax,%r11,8), %rcx
	movq	%rcx, 848(%r13,%r11,8)
	movq	72(%rax,%r11,8), %rcx
	movq	%rcx, 856(%r13,%r11,8)
	movq	80(%rax,%r11,8), %rcx
	movq	%rcx, 864(%r13,%r11,8)
	movq	88(%rax,%r11,8), %rcx
	movq	%rcx, 872(%r13,%r11,8)
	addq	$4, %r11
	cmpq	%r11, %r8
	jne	.LBB55_88
	jmp	.LBB55_65
.LBB55_64:
	callq	memmove
.LBB55_65:
	movzwl	88(%rsp), %eax
	movq	152(%rsp), %rcx
	movw	%ax, (%rcx)
	movq	184(%rsp), %rax
	movw	%ax, (%r13)
	movaps	576(%rsp), %xmm0
	movaps	592(%rsp), %xmm1
	movaps	608(%rsp), %xmm2
	movaps	%xmm0, 480(%rsp)
	movaps	%xmm1, 496(%rsp)
	movaps	%xmm2, 512(%rsp)
	movq	272(%rsp), %rax
	movq	%rcx, (%rax,%r15,8)
	movaps	480(%rsp), %xmm0
	movaps	496(%rsp), %xmm1
	movaps	512(%rsp), %xmm2
	movaps	%xmm2, 560(%rsp)
	movaps	%xmm1, 544(%rsp)
	movaps	%xmm0, 528(%rsp)
	movq	280(%rsp), %r8
	cmpl	%r15d, %r8d
	je	.LBB55_67
	movq	200(%rsp), %rax
	leaq	(%rsi,%rax), %rdx
	leaq	(%rsi,%rax), %rcx
	addq	$8, %rcx
	subq	%r15, %r8
	shlq	$3, %r8
	callq	memmove
.LBB55_67:
	movq	%rbx, (%rsi,%r15,8)
	movq	%rsi, 304(%rsp)
	movq	288(%rsp), %rax
	movq	%rax, 312(%rsp)
	movq	$15, 320(%rsp)
	leaq	528(%rsp), %r8
	leaq	328(%rsp), %rcx
	movq	%r15, %rdx
	callq	"std_alloc::vec::lodged::Vec+T+Lodged::insert_reserved::<#667d5c0342a2aeff>"
	movq	%r15, %rax
	incq	%rax
	movq	352(%rsp), %rsi
	movq	360(%rsp), %r8
	leal	(,%rax,8), %ebx
	subq	%rax, %r8
	je	.LBB55_69
	leaq	(%rsi,%rbx), %rdx
	leaq	(%rsi,%rbx), %rcx
	addq	$8, %rcx
	shlq	$3, %r8
	callq	memmove
.LBB55_69:
	movq	%r13, (%rsi,%rbx)
	movzwl	312(%rsp), %eax
	movq	376(%rsp), %r10
	movw	%ax, (%r10)
	movq	48(%rsp), %rax
	movq	%r10, (%rax)
	movzbl	1(%r12), %eax
	cmpb	$7, %al
	ja	.LBB55_33
	movzbl	(%r12), %r15d
	jmp	.LBB55_34
.LBB55_73:
	movq	%r9, %rax
	andq	$-4, %rax
	xorl	%r8d, %r8d
.LBB55_74:
	movups	72(%r15,%r8,8), %xmm0
	movups	88(%r15,%r8,8), %xmm1
	movups	%xmm0, 8(%r13,%r8,8)
	movups	%xmm1, 24(%r13,%r8,8)
	addq	$4, %r8
	cmpq	%r8, %rax
	jne	.LBB55_74
	cmpl	%eax, %r9d
	je	.LBB55_45
	jmp	.LBB55_76
.LBB55_81:
	movq	%r8, %r10
	andq	$-4, %r10
	xorl	%r11d, %r11d
.LBB55_82:
	movups	64(%rax,%r11,8), %xmm0
	movups	80(%rax,%r11,8), %xmm1
	movups	%xmm0, 848(%r13,%r11,8)
	movups	%xmm1, 864(%r13,%r11,8)
	addq	$4, %r11
	cmpq	%r11, %r10
	jne	.LBB55_82
	cmpq	%r10, %r8
	je	.LBB55_65
	jmp	.LBB55_84
.LBB55_89:
	movq	%r10, 48(%rsp)
	movq	40(%rsp), %rax
	movq	(%rax), %rdx
	movq	264(%rsp), %r12
.LBB55_90:
	cmpw	$0, (%rdx)
	je	.LBB55_105
	movl	%ebx, %ecx
	andl	$7, %ecx
	leal	-9(%r9), %eax
	cmpl	$7, %eax
	jae	.LBB55_93
	xorl	%eax, %eax
	movq	72(%rsp), %r8
	jmp	.LBB55_96
.LBB55_93:
	andq	$-8, %rbx
	xorl	%eax, %eax
	movq	72(%rsp), %r8
.LBB55_94:
	addq	$8, %rax
	cmpq	%rax, %rbx
	jne	.LBB55_94
	testq	%rcx, %rcx
	je	.LBB55_107
.LBB55_96:
	negq	%rcx
	xorl	%edx, %edx
.LBB55_97:
	decq	%rdx
	cmpq	%rdx, %rcx
	jne	.LBB55_97
	notq	%rdx
	addq	%rdx, %rax
.LBB55_99:
	movzbl	(%r12,%rax), %r14d
	cmpb	$1, (%r8)
	movaps	208(%rsp), %xmm0
	movaps	224(%rsp), %xmm1
	movaps	240(%rsp), %xmm2
	movaps	%xmm2, 416(%rsp)
	movaps	%xmm1, 400(%rsp)
	movaps	%xmm0, 384(%rsp)
	jne	.LBB55_108
	movq	%r9, %rbx
.LBB55_101:
	movq	%r11, %r13
	subq	%rbx, %rbp
	cmpq	$1, %rbp
	movq	48(%rsp), %rax
	leaq	848(%rax,%r15,8), %rsi
	cmoveq	40(%rsp), %rsi
	andl	$15, %r14d
	movq	(%rsi), %rbx
	movzwl	(%rbx), %r8d
	leaq	1(%r8), %r12
	xorl	%eax, %eax
	xorl	%ecx, %ecx
	cmpw	$0, 2(%rbx)
	setne	%cl
	cmovneq	%r12, %rax
	shll	$4, %ecx
	leaq	848(%rbx), %rdx
	leaq	128(%rbx), %r9
	leaq	104(%rsp), %r15
	movq	%r9, 104(%rsp)
	movq	%r8, 112(%rsp)
	movq	$15, 120(%rsp)
	movq	%rdx, 128(%rsp)
	movq	%rax, 136(%rsp)
	movq	%rcx, 144(%rsp)
	movq	%rbx, 152(%rsp)
	addq	$8, %rbx
	subq	%r14, %r8
	je	.LBB55_103
	leal	(,%r14,8), %eax
	leaq	(%rbx,%rax), %rdx
	leaq	(%rbx,%rax), %rcx
	addq	$8, %rcx
	shlq	$3, %r8
	callq	memmove
.LBB55_103:
	movq	%rdi, (%rbx,%r14,8)
	movq	%rbx, 80(%rsp)
	movq	%r12, 88(%rsp)
	movq	$15, 96(%rsp)
	leaq	384(%rsp), %r8
	movq	%r15, %rcx
	movq	%r14, %rdx
	callq	"std_alloc::vec::lodged::Vec+T+Lodged::insert_reserved::<#667d5c0342a2aeff>"
	movzwl	88(%rsp), %eax
	movq	152(%rsp), %rcx
	movw	%ax, (%rcx)
	movq	%rcx, (%rsi)
	movq	72(%rsp), %rax
	incq	16(%rax)
	xorps	%xmm0, %xmm0
	movups	%xmm0, (%r13)
	movaps	624(%rsp), %xmm0
	movaps	640(%rsp), %xmm1
	movaps	656(%rsp), %xmm2
	movups	%xmm0, 16(%r13)
	movups	%xmm1, 32(%r13)
	movups	%xmm2, 48(%r13)
	jmp	.LBB55_17
.LBB55_104:
	movq	40(%rsp), %rax
	movq	(%rax), %rdx
	cmpw	$0, (%rdx)
	movq	64(%rsp), %r11
	jne	.LBB55_15
.LBB55_105:
	cmpw	$0, 2(%rdx)
	je	.LBB55_15
	movq	848(%rdx), %rsi
	movq	%rdx, %rcx
	movq	%r11, %rbx
	callq	yurewha_heap_dealloc
	movq	%rbx, %r11
	movq	40(%rsp), %rax
	movq	%rsi, (%rax)
	jmp	.LBB55_15
.LBB55_107:
	decq	%rax
	jmp	.LBB55_99
.LBB55_108:
	ud2
	.seh_endproc

	.section	.rdata,"dr"
	.p2align	4, 0x0
.LCPI56_0:
	.zero	16,10
	.section	.text
	.p2align	4
	.def	"line_io::reading::Reading::take_within::<#42ff4d2293d53660>";
	.scl	3;
	.type	32;
	.endef
"line_io::reading::Reading::take_within::<#42ff4d2293d53660>":
.seh_proc "line_io::reading::Reading::take_within::<#42ff4d2293d53660>"
	pushq	%r15
	.seh_pushreg %r15
	pushq	%r14
	.seh_pushreg %r14
	pushq	%rsi
	.seh_pushreg %rsi
	pushq	%rdi
	.seh_pushreg %rdi
	pushq	%rbx
	.seh_pushreg %rbx
	subq	$208, %rsp
	.seh_stackalloc 208
	movdqa	%xmm11, 192(%rsp)
	.seh_savexmm %xmm11, 192
	movdqa	%xmm10, 176(%rsp)
	.seh_savexmm %xmm10, 176
	movdqa	%xmm9, 160(%rsp)
	.seh_savexmm %xmm9, 160
	movdqa	%xmm8, 144(%rsp)
	.seh_savexmm %xmm8, 144
	movdqa	%xmm7, 128(%rsp)
	.seh_savexmm %xmm7, 128
	movdqa	%xmm6, 112(%rsp)
	.seh_savexmm %xmm6, 112
	.seh_endprologue
	movq	%r9, %rbx
	movq	%r8, %r14
	movq	%rdx, %rdi
	movq	%rcx, %rsi
	pxor	%xmm0, %xmm0
	movdqa	%xmm0, 96(%rsp)
	movdqa	%xmm0, 80(%rsp)
	movdqa	%xmm0, 48(%rsp)
	movdqa	%xmm0, 64(%rsp)
	cmpq	$32, %rbx
	jae	.LBB56_2
.LBB56_3:
	testq	%rbx, %rbx
	je	.LBB56_7
	xorl	%r15d, %r15d
	.p2align	4
.LBB56_5:
	cmpb	$10, (%r14,%r15)
	je	.LBB56_43
	incq	%r15
	cmpq	%r15, %rbx
	jne	.LBB56_5
	jmp	.LBB56_7
	.p2align	4
.LBB56_2:
	leaq	-64(%rbx), %rax
	xorl	%edx, %edx
.LBB56_9:
	movq	%rbx, %rcx
	subq	%rdx, %rcx
	cmpq	$191, %rcx
	jbe	.LBB56_10
	movdqa	.LCPI56_0(%rip), %xmm0
	movdqu	(%r14,%rdx), %xmm1
	movdqu	16(%r14,%rdx), %xmm2
	movdqu	32(%r14,%rdx), %xmm3
	movdqu	48(%r14,%rdx), %xmm4
	pcmpeqb	%xmm0, %xmm4
	pcmpeqb	%xmm0, %xmm3
	pcmpeqb	%xmm0, %xmm1
	pmovmskb	%xmm1, %ecx
	pcmpeqb	%xmm0, %xmm2
	pmovmskb	%xmm2, %r8d
	shll	$16, %r8d
	orl	%ecx, %r8d
	pmovmskb	%xmm3, %ecx
	shlq	$32, %rcx
	orq	%r8, %rcx
	pmovmskb	%xmm4, %r9d
	shlq	$48, %r9
	leaq	64(%rdx), %r8
	orq	%rcx, %r9
	jne	.LBB56_41
	movq	%rbx, %rcx
	subq	%r8, %rcx
	cmpq	$128, %rcx
	jb	.LBB56_19
	subq	$-128, %rdx
	movq	%rdx, %r8
	.p2align	4
.LBB56_16:
	movdqu	-64(%r14,%r8), %xmm8
	movdqu	-48(%r14,%r8), %xmm7
	movdqu	-32(%r14,%r8), %xmm6
	movdqu	-16(%r14,%r8), %xmm3
	pcmpeqb	%xmm0, %xmm7
	pcmpeqb	%xmm0, %xmm8
	pcmpeqb	%xmm0, %xmm6
	pcmpeqb	%xmm0, %xmm3
	movdqu	(%r14,%r8), %xmm5
	movdqu	16(%r14,%r8), %xmm4
	pcmpeqb	%xmm0, %xmm4
	pcmpeqb	%xmm0, %xmm5
	movdqu	32(%r14,%r8), %xmm2
	movdqu	48(%r14,%r8), %xmm1
	pcmpeqb	%xmm0, %xmm1
	pcmpeqb	%xmm0, %xmm2
	movdqa	%xmm5, %xmm9
	por	%xmm2, %xmm9
	movdqa	%xmm4, %xmm10
	por	%xmm1, %xmm10
	movdqa	%xmm8, %xmm11
	por	%xmm6, %xmm11
	por	%xmm9, %xmm11
	movdqa	%xmm7, %xmm9
	por	%xmm3, %xmm9
	por	%xmm10, %xmm9
	por	%xmm11, %xmm9
	pmovmskb	%xmm9, %edx
	testl	%edx, %edx
	jne	.LBB56_24
	subq	$-128, %r8
	addq	$-128, %rcx
	cmpq	$127, %rcx
	ja	.LBB56_16
	addq	$-64, %r8
.LBB56_19:
	movq	%r8, %rdx
	cmpq	$32, %rcx
	jb	.LBB56_23
	movq	%rbx, %rcx
	subq	%rdx, %rcx
	.p2align	4
.LBB56_21:
	movdqu	(%r14,%rdx), %xmm1
	movdqu	16(%r14,%rdx), %xmm2
	pcmpeqb	%xmm0, %xmm1
	pmovmskb	%xmm1, %r9d
	pcmpeqb	%xmm0, %xmm2
	pmovmskb	%xmm2, %r8d
	shll	$16, %r8d
	orl	%r9d, %r8d
	jne	.LBB56_40
	addq	$-32, %rcx
	addq	$32, %rdx
	cmpq	$31, %rcx
	ja	.LBB56_21
.LBB56_23:
	movdqu	-32(%r14,%rbx), %xmm1
	movdqu	-16(%r14,%rbx), %xmm2
	pcmpeqb	%xmm0, %xmm1
	pmovmskb	%xmm1, %ecx
	pcmpeqb	%xmm0, %xmm2
	pmovmskb	%xmm2, %r9d
	jmp	.LBB56_34
	.p2align	4
.LBB56_10:
	cmpq	$64, %rcx
	jb	.LBB56_29
	.p2align	4
.LBB56_11:
	movdqu	(%r14,%rdx), %xmm4
	movdqu	16(%r14,%rdx), %xmm3
	movdqu	32(%r14,%rdx), %xmm2
	movdqu	48(%r14,%rdx), %xmm1
	movdqa	.LCPI56_0(%rip), %xmm0
	movdqa	%xmm3, %xmm5
	pcmpeqb	%xmm0, %xmm5
	movdqa	%xmm4, %xmm6
	pcmpeqb	%xmm0, %xmm6
	movdqa	%xmm1, %xmm7
	pcmpeqb	%xmm0, %xmm7
	por	%xmm5, %xmm7
	movdqa	%xmm2, %xmm5
	pcmpeqb	%xmm0, %xmm5
	por	%xmm6, %xmm5
	por	%xmm7, %xmm5
	pmovmskb	%xmm5, %r8d
	testl	%r8d, %r8d
	jne	.LBB56_35
	addq	$64, %rdx
	addq	$-64, %rcx
	cmpq	$63, %rcx
	ja	.LBB56_11
	jmp	.LBB56_29
.LBB56_35:
	cmpq	$64, %rcx
	jb	.LBB56_29
.LBB56_36:
	pcmpeqb	%xmm0, %xmm1
	pcmpeqb	%xmm0, %xmm2
	pcmpeqb	%xmm0, %xmm4
	pmovmskb	%xmm4, %ecx
	pcmpeqb	%xmm0, %xmm3
	pmovmskb	%xmm3, %r8d
	shll	$16, %r8d
	orl	%ecx, %r8d
	pmovmskb	%xmm2, %ecx
	shlq	$32, %rcx
	orq	%r8, %rcx
	pmovmskb	%xmm1, %r9d
	shlq	$48, %r9
	orq	%rcx, %r9
	jne	.LBB56_50
	movq	%rax, %rcx
	subq	%rdx, %rcx
	.p2align	4
.LBB56_38:
	cmpq	$64, %rcx
	jb	.LBB56_28
	movdqu	64(%r14,%rdx), %xmm4
	movdqu	80(%r14,%rdx), %xmm3
	movdqu	96(%r14,%rdx), %xmm2
	movdqu	112(%r14,%rdx), %xmm1
	movdqa	%xmm3, %xmm5
	pcmpeqb	%xmm0, %xmm5
	movdqa	%xmm4, %xmm6
	pcmpeqb	%xmm0, %xmm6
	movdqa	%xmm1, %xmm7
	pcmpeqb	%xmm0, %xmm7
	por	%xmm5, %xmm7
	movdqa	%xmm2, %xmm5
	pcmpeqb	%xmm0, %xmm5
	por	%xmm6, %xmm5
	por	%xmm7, %xmm5
	pmovmskb	%xmm5, %r8d
	addq	$-64, %rcx
	addq	$64, %rdx
	testl	%r8d, %r8d
	je	.LBB56_38
	jmp	.LBB56_36
.LBB56_28:
	addq	$64, %rdx
	.p2align	4
.LBB56_29:
	cmpq	$32, %rcx
	jb	.LBB56_33
	movq	%rbx, %rcx
	subq	%rdx, %rcx
	.p2align	4
.LBB56_31:
	movdqu	(%r14,%rdx), %xmm0
	movdqu	16(%r14,%rdx), %xmm1
	movdqa	.LCPI56_0(%rip), %xmm2
	pcmpeqb	%xmm2, %xmm0
	pmovmskb	%xmm0, %r9d
	pcmpeqb	%xmm2, %xmm1
	pmovmskb	%xmm1, %r8d
	shll	$16, %r8d
	orl	%r9d, %r8d
	jne	.LBB56_40
	addq	$-32, %rcx
	addq	$32, %rdx
	cmpq	$31, %rcx
	ja	.LBB56_31
.LBB56_33:
	movdqu	-32(%r14,%rbx), %xmm0
	movdqu	-16(%r14,%rbx), %xmm1
	movdqa	.LCPI56_0(%rip), %xmm2
	pcmpeqb	%xmm2, %xmm0
	pmovmskb	%xmm0, %ecx
	pcmpeqb	%xmm2, %xmm1
	pmovmskb	%xmm1, %r9d
.LBB56_34:
	shll	$16, %r9d
	orl	%ecx, %r9d
	movl	%edx, %ecx
	subl	%ebx, %ecx
	addb	$32, %cl
	shrq	%cl, %r9
	movq	%rdx, %r8
	movq	%rbx, %rcx
.LBB56_27:
	movq	%r8, %rdx
	movq	%rcx, %r8
	testq	%r9, %r9
	jne	.LBB56_41
	jmp	.LBB56_8
.LBB56_40:
	movl	%r8d, %r9d
	leaq	32(%rdx), %r8
	.p2align	4
.LBB56_41:
	rep		bsfq	%r9, %rcx
	leaq	(%rcx,%rdx), %r15
	cmpb	$10, (%r14,%r15)
	je	.LBB56_43
	movq	$-2, %r10
	rolq	%cl, %r10
	andq	%r10, %r9
	jne	.LBB56_41
.LBB56_8:
	movq	%r8, %rdx
	cmpq	%rbx, %r8
	jb	.LBB56_9
	jmp	.LBB56_7
.LBB56_24:
	pmovmskb	%xmm8, %ecx
	pmovmskb	%xmm7, %edx
	shll	$16, %edx
	orl	%ecx, %edx
	pmovmskb	%xmm6, %ecx
	shlq	$32, %rcx
	orq	%rdx, %rcx
	pmovmskb	%xmm3, %r9d
	shlq	$48, %r9
	orq	%rcx, %r9
	je	.LBB56_26
	leaq	-64(%r8), %rdx
	jmp	.LBB56_41
.LBB56_26:
	leaq	64(%r8), %rcx
	pmovmskb	%xmm5, %edx
	pmovmskb	%xmm4, %r9d
	shll	$16, %r9d
	orl	%edx, %r9d
	pmovmskb	%xmm2, %edx
	shlq	$32, %rdx
	orq	%r9, %rdx
	pmovmskb	%xmm1, %r9d
	shlq	$48, %r9
	orq	%rdx, %r9
	jmp	.LBB56_27
.LBB56_50:
	leaq	64(%rdx), %r8
	jmp	.LBB56_41
	.p2align	4
.LBB56_43:
	leaq	48(%rsp), %rcx
	movq	%rdi, %rdx
	movq	%r14, %r8
	movq	%r15, %r9
	callq	"line_io::reading::Reading::extend_line::<#42ff4d2293d53660>"
	cmpb	$0, 48(%rsp)
	jne	.LBB56_46
	movb	$0, 46(%rsp)
	movw	$0, 44(%rsp)
	leaq	44(%rsp), %rcx
	movq	%rdi, %rdx
	callq	"pair_text::said_lines::SaidLinesTakeLines::end_line::<#a10fcec3e4a5dd02>"
	cmpb	$1, 44(%rsp)
	je	.LBB56_49
	addq	%r15, %r14
	incq	%r14
	incq	%r15
	subq	%r15, %rbx
	movb	$0, 1976(%rdi)
	movq	1960(%rdi), %rax
	movq	1968(%rdi), %rcx
	incq	%rax
	movq	$-1, %rdx
	cmoveq	%rdx, %rax
	movq	%rax, 1960(%rdi)
	incq	%rcx
	cmoveq	%rdx, %rcx
	movq	%rcx, 1968(%rdi)
	cmpq	$32, %rbx
	jae	.LBB56_2
	jmp	.LBB56_3
.LBB56_7:
	leaq	80(%rsp), %rcx
	movq	%rdi, %rdx
	movq	%r14, %r8
	movq	%rbx, %r9
	callq	"line_io::reading::Reading::extend_line::<#42ff4d2293d53660>"
	movzbl	80(%rsp), %eax
	movb	%al, (%rsi)
	movzbl	88(%rsp), %eax
	movq	%rax, 8(%rsi)
	movq	96(%rsp), %rax
	movq	%rax, 16(%rsi)
	movzbl	104(%rsp), %eax
.LBB56_47:
	movb	%al, 24(%rsi)
.LBB56_48:
	movaps	112(%rsp), %xmm6
	movaps	128(%rsp), %xmm7
	movaps	144(%rsp), %xmm8
	movaps	160(%rsp), %xmm9
	movaps	176(%rsp), %xmm10
	movaps	192(%rsp), %xmm11
	addq	$208, %rsp
	popq	%rbx
	popq	%rdi
	popq	%rsi
	popq	%r14
	popq	%r15
	retq
.LBB56_46:
	movzbl	72(%rsp), %eax
	movq	64(%rsp), %rcx
	movzbl	56(%rsp), %edx
	movb	$1, (%rsi)
	movq	%rdx, 8(%rsi)
	movq	%rcx, 16(%rsi)
	jmp	.LBB56_47
.LBB56_49:
	movzbl	45(%rsp), %eax
	xorl	%ecx, %ecx
	testq	%rax, %rax
	movq	1968(%rdi), %rdx
	cmovneq	%rcx, %rdx
	movzbl	46(%rsp), %r8d
	cmovnel	%ecx, %r8d
	movb	$1, (%rsi)
	movq	%rax, 8(%rsi)
	movq	%rdx, 16(%rsi)
	movb	%r8b, 24(%rsi)
	jmp	.LBB56_48
	.seh_endproc

	.section	.text
	.p2align	4
	.def	"line_io::reading::Reading::extend_line::<#42ff4d2293d53660>";
	.scl	3;
	.type	32;
	.endef
"line_io::reading::Reading::extend_line::<#42ff4d2293d53660>":
.seh_proc "line_io::reading::Reading::extend_line::<#42ff4d2293d53660>"
	pushq	%r15
	.seh_pushreg %r15
	pushq	%r14
	.seh_pushreg %r14
	pushq	%r12
	.seh_pushreg %r12
	pushq	%rsi
	.seh_pushreg %rsi
	pushq	%rdi
	.seh_pushreg %rdi
	pushq	%rbx
	.seh_pushreg %rbx
	movl	$3752, %eax
	callq	yurewha_stack_probe
	subq	%rax, %rsp
	.seh_stackalloc 3752
	.seh_endprologue
	testq	%r9, %r9
	je	.LBB57_32
	cmpb	$0, 88(%rdx)
	je	.LBB57_4
	movq	1952(%rdx), %rax
	addq	%r9, %rax
	jb	.LBB57_8
	leaq	96(%rdx), %rax
	movq	%rcx, %rsi
	movq	%rax, %rcx
	movq	%rdx, %rdi
	movq	%r8, %rdx
	movq	%r9, %r8
	movq	%r9, %rbx
	callq	yurewha_stub_of_update
	movq	%rbx, %r9
	movq	%rdi, %rdx
	movq	%rsi, %rcx
	jmp	.LBB57_31
.LBB57_4:
	movq	184(%rdx), %rsi
	testq	%rsi, %rsi
	jne	.LBB57_7
	cmpb	$43, (%r8)
	jne	.LBB57_7
	leaq	-1(%r9), %rsi
	incq	%r8
	leaq	96(%rsp), %rax
	movq	%r8, %rdi
	movl	$1792, %r8d
	movq	%rcx, %r14
	movq	%rax, %rcx
	movq	%rdx, %r15
	xorl	%edx, %edx
	movq	%r9, %r12
	callq	memset
	movups	static.19(%rip), %xmm0
	movaps	%xmm0, 64(%rsp)
	movups	static.19+16(%rip), %xmm1
	movaps	%xmm1, 80(%rsp)
	movaps	%xmm0, 32(%rsp)
	movaps	%xmm1, 48(%rsp)
	leaq	1888(%rsp), %rbx
	leaq	32(%rsp), %rdx
	movl	$1856, %r8d
	movq	%rbx, %rcx
	callq	memcpy
	movq	$0, 3744(%rsp)
	movq	%rbx, %rcx
	movq	%rdi, %rdx
	movq	%rsi, %r8
	callq	yurewha_stub_of_update
	movq	3744(%rsp), %rsi
	movq	$1, 88(%r15)
	leaq	96(%r15), %rcx
	movl	$1856, %r8d
	movq	%rbx, %rdx
	callq	memcpy
	movq	%r12, %r9
	movq	%r15, %rdx
	movq	%r14, %rcx
	movq	%rsi, 1952(%r15)
	jmp	.LBB57_31
.LBB57_7:
	movl	$85, %eax
	subq	%rsi, %rax
	cmpq	%r9, %rax
	jae	.LBB57_9
.LBB57_8:
	movq	1968(%rdx), %rax
	movb	$1, (%rcx)
	movq	$0, 8(%rcx)
	movq	%rax, 16(%rcx)
	jmp	.LBB57_33
.LBB57_9:
	leaq	(%rdx,%rsi), %rax
	addq	$96, %rax
	movq	%rax, %r10
	subq	%r8, %r10
	cmpq	%r9, %r10
	jae	.LBB57_12
	cmpq	$4, %r9
	jb	.LBB57_11
	leaq	(%rsi,%rdx), %r10
	subq	%r8, %r10
	addq	$96, %r10
	cmpq	$32, %r10
	jae	.LBB57_15
.LBB57_11:
	xorl	%r10d, %r10d
.LBB57_24:
	movq	%r9, %rdi
	movq	%r10, %r11
	andq	$3, %rdi
	je	.LBB57_27
	movq	%r10, %r11
	.p2align	4
.LBB57_26:
	movzbl	(%r8,%r11), %ebx
	movb	%bl, (%rax,%r11)
	incq	%r11
	decq	%rdi
	jne	.LBB57_26
.LBB57_27:
	subq	%r9, %r10
	cmpq	$-4, %r10
	ja	.LBB57_30
	leaq	(%rsi,%rdx), %rax
	addq	$99, %rax
	.p2align	4
.LBB57_29:
	movzbl	(%r8,%r11), %r10d
	movb	%r10b, -3(%rax,%r11)
	movzbl	1(%r8,%r11), %r10d
	movb	%r10b, -2(%rax,%r11)
	movzbl	2(%r8,%r11), %r10d
	movb	%r10b, -1(%rax,%r11)
	movzbl	3(%r8,%r11), %r10d
	movb	%r10b, (%rax,%r11)
	addq	$4, %r11
	cmpq	%r11, %r9
	jne	.LBB57_29
	jmp	.LBB57_30
.LBB57_12:
	movq	%rcx, %rdi
	movq	%rax, %rcx
	movq	%rdx, %rbx
	movq	%r8, %rdx
	movq	%r9, %r8
	movq	%r9, %r14
	callq	memmove
	movq	%r14, %r9
	movq	%rbx, %rdx
	movq	%rdi, %rcx
.LBB57_30:
	addq	%r9, %rsi
	movq	%rsi, 184(%rdx)
.LBB57_31:
	movb	$1, 1976(%rdx)
	addq	1960(%rdx), %r9
	movq	$-1, %rax
	cmovaeq	%r9, %rax
	movq	%rax, 1960(%rdx)
.LBB57_32:
	movb	$0, (%rcx)
	xorps	%xmm0, %xmm0
	movups	%xmm0, 8(%rcx)
.LBB57_33:
	movb	$0, 24(%rcx)
	addq	$3752, %rsp
	popq	%rbx
	popq	%rdi
	popq	%rsi
	popq	%r12
	popq	%r14
	popq	%r15
	retq
.LBB57_15:
	cmpq	$32, %r9
	jae	.LBB57_17
	xorl	%r10d, %r10d
	jmp	.LBB57_21
.LBB57_17:
	movq	%r9, %r10
	andq	$-32, %r10
	leaq	(%rsi,%rdx), %r11
	addq	$112, %r11
	xorl	%edi, %edi
.LBB57_18:
	movups	(%r8,%rdi), %xmm0
	movups	16(%r8,%rdi), %xmm1
	movups	%xmm0, -16(%r11,%rdi)
	movups	%xmm1, (%r11,%rdi)
	addq	$32, %rdi
	cmpq	%rdi, %r10
	jne	.LBB57_18
	cmpq	%r10, %r9
	je	.LBB57_30
	testb	$28, %r9b
	je	.LBB57_24
.LBB57_21:
	movq	%r10, %r11
	movq	%r9, %r10
	andq	$-4, %r10
	.p2align	4
.LBB57_22:
	movl	(%r8,%r11), %edi
	movl	%edi, (%rax,%r11)
	addq	$4, %r11
	cmpq	%r11, %r10
	jne	.LBB57_22
	cmpq	%r10, %r9
	je	.LBB57_30
	jmp	.LBB57_24
	.seh_endproc

	.section	.text
	.p2align	4
	.def	"std_collections::btree::node::Node::destroy::<#e27c17be7fe85c1a>";
	.scl	3;
	.type	32;
	.endef
"std_collections::btree::node::Node::destroy::<#e27c17be7fe85c1a>":
.seh_proc "std_collections::btree::node::Node::destroy::<#e27c17be7fe85c1a>"
	pushq	%r15
	.seh_pushreg %r15
	pushq	%r14
	.seh_pushreg %r14
	pushq	%r13
	.seh_pushreg %r13
	pushq	%r12
	.seh_pushreg %r12
	pushq	%rsi
	.seh_pushreg %rsi
	pushq	%rdi
	.seh_pushreg %rdi
	pushq	%rbp
	.seh_pushreg %rbp
	pushq	%rbx
	.seh_pushreg %rbx
	subq	$168, %rsp
	.seh_stackalloc 168
	.seh_endprologue
	movq	%rcx, %r11
	movzwl	(%rcx), %r15d
	movzwl	2(%rcx), %edx
	xorl	%r8d, %r8d
	testw	%dx, %dx
	setne	%r8b
	leaq	1(%r15), %r9
	shll	$4, %r8d
	leaq	848(%rcx), %rax
	leaq	128(%rcx), %rdi
	addq	$8, %rcx
	xorl	%r10d, %r10d
	testw	%dx, %dx
	cmovneq	%r9, %r10
	movq	%rcx, 80(%rsp)
	movq	%r15, 88(%rsp)
	movq	$15, 96(%rsp)
	movq	%rdi, 104(%rsp)
	movq	%r15, 112(%rsp)
	movq	$15, 120(%rsp)
	movq	%rax, 128(%rsp)
	movq	%r10, 136(%rsp)
	movq	%r8, 144(%rsp)
	movq	%r11, 152(%rsp)
	je	.LBB58_60
	leaq	136(%rsp), %r14
	testq	%r15, %r15
	je	.LBB58_54
	leaq	104(%rsp), %rsi
	jmp	.LBB58_4
	.p2align	4
.LBB58_3:
	movq	88(%rsp), %r15
	testq	%r15, %r15
	je	.LBB58_53
.LBB58_4:
	movq	128(%rsp), %rdx
	movq	136(%rsp), %rax
	movq	(%rdx), %rcx
	decq	%rax
	cmpq	$257, %rax
	jb	.LBB58_10
	leaq	56(%rdx), %r9
	xorl	%r11d, %r11d
	.p2align	4
.LBB58_6:
	xorl	%r8d, %r8d
	.p2align	4
.LBB58_7:
	movups	-48(%r9,%r8,8), %xmm0
	movups	-32(%r9,%r8,8), %xmm1
	movups	-16(%r9,%r8,8), %xmm2
	movups	(%r9,%r8,8), %xmm3
	movups	%xmm0, -56(%r9,%r8,8)
	movups	%xmm1, -40(%r9,%r8,8)
	movups	%xmm2, -24(%r9,%r8,8)
	movups	%xmm3, -8(%r9,%r8,8)
	addq	$8, %r8
	cmpq	$256, %r8
	jne	.LBB58_7
	addq	$256, %r11
	movq	%rax, %r8
	subq	%r11, %r8
	addq	$2048, %r9
	cmpq	$256, %r8
	ja	.LBB58_6
	leaq	(,%r11,8), %r10
	leaq	(%rdx,%r11,8), %r9
	cmpq	%r11, %rax
	jne	.LBB58_11
	jmp	.LBB58_24
	.p2align	4
.LBB58_10:
	xorl	%r10d, %r10d
	movq	%rdx, %r9
	movq	%rax, %r8
	xorl	%r11d, %r11d
	cmpq	%r11, %rax
	je	.LBB58_24
.LBB58_11:
	leaq	(%rdx,%r10), %r11
	cmpq	$4, %r8
	jb	.LBB58_12
	movq	%r11, %rdi
	subq	%r9, %rdi
	addq	$-8, %rdi
	cmpq	$32, %rdi
	jae	.LBB58_15
.LBB58_12:
	xorl	%edi, %edi
.LBB58_18:
	movq	%r8, %r12
	movq	%rdi, %rbx
	andq	$3, %r12
	je	.LBB58_21
	movq	%rdi, %rbx
	.p2align	4
.LBB58_20:
	movq	8(%r9,%rbx,8), %r13
	movq	%r13, (%r11,%rbx,8)
	incq	%rbx
	decq	%r12
	jne	.LBB58_20
.LBB58_21:
	subq	%r8, %rdi
	cmpq	$-4, %rdi
	ja	.LBB58_24
	addq	%r10, %rdx
	addq	$24, %rdx
	.p2align	4
.LBB58_23:
	movq	8(%r9,%rbx,8), %r10
	movq	%r10, -24(%rdx,%rbx,8)
	movq	16(%r9,%rbx,8), %r10
	movq	%r10, -16(%rdx,%rbx,8)
	movq	24(%r9,%rbx,8), %r10
	movq	%r10, -8(%rdx,%rbx,8)
	movq	32(%r9,%rbx,8), %r10
	movq	%r10, (%rdx,%rbx,8)
	addq	$4, %rbx
	cmpq	%rbx, %r8
	jne	.LBB58_23
	jmp	.LBB58_24
.LBB58_15:
	movl	%r8d, %edi
	andl	$508, %edi
	leaq	(%rdx,%r10), %rbx
	addq	$16, %rbx
	xorl	%r12d, %r12d
	.p2align	4
.LBB58_16:
	movups	8(%r9,%r12,8), %xmm0
	movups	24(%r9,%r12,8), %xmm1
	movups	%xmm0, -16(%rbx,%r12,8)
	movups	%xmm1, (%rbx,%r12,8)
	addq	$4, %r12
	cmpq	%r12, %rdi
	jne	.LBB58_16
	cmpq	%rdi, %r8
	jne	.LBB58_18
	.p2align	4
.LBB58_24:
	movq	144(%rsp), %rdx
	movq	%rax, 136(%rsp)
	movq	%rdx, 144(%rsp)
	callq	"std_collections::btree::node::Node::destroy::<#e27c17be7fe85c1a>"
	xorps	%xmm0, %xmm0
	movaps	%xmm0, 64(%rsp)
	movaps	%xmm0, 48(%rsp)
	movaps	%xmm0, 32(%rsp)
	movq	80(%rsp), %rcx
	movq	96(%rsp), %rax
	decq	%r15
	cmpq	$257, %r15
	jb	.LBB58_30
	leaq	56(%rcx), %r8
	xorl	%r10d, %r10d
	.p2align	4
.LBB58_26:
	xorl	%edx, %edx
	.p2align	4
.LBB58_27:
	movups	-48(%r8,%rdx,8), %xmm0
	movups	-32(%r8,%rdx,8), %xmm1
	movups	-16(%r8,%rdx,8), %xmm2
	movups	(%r8,%rdx,8), %xmm3
	movups	%xmm0, -56(%r8,%rdx,8)
	movups	%xmm1, -40(%r8,%rdx,8)
	movups	%xmm2, -24(%r8,%rdx,8)
	movups	%xmm3, -8(%r8,%rdx,8)
	addq	$8, %rdx
	cmpq	$256, %rdx
	jne	.LBB58_27
	addq	$256, %r10
	movq	%r15, %rdx
	subq	%r10, %rdx
	addq	$2048, %r8
	cmpq	$256, %rdx
	ja	.LBB58_26
	leaq	(,%r10,8), %r9
	leaq	(%rcx,%r10,8), %r8
	cmpq	%r10, %r15
	jne	.LBB58_31
	jmp	.LBB58_44
	.p2align	4
.LBB58_30:
	xorl	%r9d, %r9d
	movq	%rcx, %r8
	movq	%r15, %rdx
	xorl	%r10d, %r10d
	cmpq	%r10, %r15
	je	.LBB58_44
.LBB58_31:
	leaq	(%rcx,%r9), %r10
	cmpq	$4, %rdx
	jb	.LBB58_32
	movq	%r10, %r11
	subq	%r8, %r11
	addq	$-8, %r11
	cmpq	$32, %r11
	jae	.LBB58_35
.LBB58_32:
	xorl	%r11d, %r11d
.LBB58_38:
	movq	%rdx, %rbx
	movq	%r11, %rdi
	andq	$3, %rbx
	je	.LBB58_41
	movq	%r11, %rdi
	.p2align	4
.LBB58_40:
	movq	8(%r8,%rdi,8), %r12
	movq	%r12, (%r10,%rdi,8)
	incq	%rdi
	decq	%rbx
	jne	.LBB58_40
.LBB58_41:
	subq	%rdx, %r11
	cmpq	$-4, %r11
	ja	.LBB58_44
	addq	%r9, %rcx
	addq	$24, %rcx
	.p2align	4
.LBB58_43:
	movq	8(%r8,%rdi,8), %r9
	movq	%r9, -24(%rcx,%rdi,8)
	movq	16(%r8,%rdi,8), %r9
	movq	%r9, -16(%rcx,%rdi,8)
	movq	24(%r8,%rdi,8), %r9
	movq	%r9, -8(%rcx,%rdi,8)
	movq	32(%r8,%rdi,8), %r9
	movq	%r9, (%rcx,%rdi,8)
	addq	$4, %rdi
	cmpq	%rdi, %rdx
	jne	.LBB58_43
	jmp	.LBB58_44
.LBB58_35:
	movl	%edx, %r11d
	andl	$508, %r11d
	leaq	(%rcx,%r9), %rdi
	addq	$16, %rdi
	xorl	%ebx, %ebx
	.p2align	4
.LBB58_36:
	movups	8(%r8,%rbx,8), %xmm0
	movups	24(%r8,%rbx,8), %xmm1
	movups	%xmm0, -16(%rdi,%rbx,8)
	movups	%xmm1, (%rdi,%rbx,8)
	addq	$4, %rbx
	cmpq	%rbx, %r11
	jne	.LBB58_36
	cmpq	%r11, %rdx
	jne	.LBB58_38
	.p2align	4
.LBB58_44:
	movq	%r15, 88(%rsp)
	movq	%rax, 96(%rsp)
	leaq	32(%rsp), %rcx
	movq	%rsi, %rdx
	xorl	%r8d, %r8d
	callq	"std_alloc::vec::Vec::remove::<#7f26edd6ea879dba>"
	movq	48(%rsp), %rdi
	movq	56(%rsp), %r12
	movq	64(%rsp), %r15
	testq	%r12, %r12
	je	.LBB58_51
	leaq	48(%rdi), %r13
	jmp	.LBB58_47
	.p2align	4
.LBB58_46:
	addq	$56, %r13
	decq	%r12
	je	.LBB58_51
.LBB58_47:
	movq	-16(%r13), %rbx
	movq	(%r13), %rbp
	cmpq	$0, -32(%r13)
	je	.LBB58_49
	movq	-48(%r13), %rcx
	callq	yurewha_heap_dealloc
.LBB58_49:
	testq	%rbp, %rbp
	je	.LBB58_46
	movq	%rbx, %rcx
	callq	yurewha_heap_dealloc
	jmp	.LBB58_46
	.p2align	4
.LBB58_51:
	testq	%r15, %r15
	je	.LBB58_3
	movq	%rdi, %rcx
	callq	yurewha_heap_dealloc
	jmp	.LBB58_3
.LBB58_53:
	movq	128(%rsp), %rax
	movq	136(%rsp), %r15
	decq	%r15
.LBB58_54:
	xorps	%xmm0, %xmm0
	movups	%xmm0, (%r14)
	movq	(%rax), %rcx
	cmpq	$257, %r15
	jb	.LBB58_62
	leaq	56(%rax), %r8
	xorl	%r10d, %r10d
	.p2align	4
.LBB58_56:
	xorl	%edx, %edx
	.p2align	4
.LBB58_57:
	movups	-48(%r8,%rdx,8), %xmm0
	movups	-32(%r8,%rdx,8), %xmm1
	movups	-16(%r8,%rdx,8), %xmm2
	movups	(%r8,%rdx,8), %xmm3
	movups	%xmm0, -56(%r8,%rdx,8)
	movups	%xmm1, -40(%r8,%rdx,8)
	movups	%xmm2, -24(%r8,%rdx,8)
	movups	%xmm3, -8(%r8,%rdx,8)
	addq	$8, %rdx
	cmpq	$256, %rdx
	jne	.LBB58_57
	addq	$256, %r10
	movq	%r15, %rdx
	subq	%r10, %rdx
	addq	$2048, %r8
	cmpq	$256, %rdx
	ja	.LBB58_56
	leaq	(,%r10,8), %r9
	leaq	(%rax,%r10,8), %r8
	cmpq	%r10, %r15
	jne	.LBB58_63
	jmp	.LBB58_82
.LBB58_60:
	cmpw	$15, %r15w
	movq	%r11, 160(%rsp)
	jbe	.LBB58_65
	movl	%r15d, %ebx
	shrl	%ebx
	movq	%r15, %rsi
	subq	%rbx, %rsi
	leaq	(%rcx,%rsi,8), %rdx
	movq	%rbx, %r8
	callq	"core::slice::edits::mirror::<i64>"
	leaq	(%rsi,%rsi,2), %rdx
	shlq	$4, %rdx
	addq	%rdi, %rdx
	movq	%rdi, %rcx
	movq	%rbx, %r8
	callq	"core::slice::edits::mirror::<#667d5c0342a2aeff>"
	jmp	.LBB58_117
.LBB58_62:
	xorl	%r9d, %r9d
	movq	%rax, %r8
	movq	%r15, %rdx
	xorl	%r10d, %r10d
	cmpq	%r10, %r15
	je	.LBB58_82
.LBB58_63:
	leaq	(%rax,%r9), %r10
	cmpq	$8, %rdx
	jb	.LBB58_64
	movq	%r10, %r11
	subq	%r8, %r11
	addq	$-8, %r11
	cmpq	$32, %r11
	jae	.LBB58_73
.LBB58_64:
	xorl	%r11d, %r11d
.LBB58_76:
	movq	%rdx, %rdi
	movq	%r11, %rsi
	andq	$3, %rdi
	je	.LBB58_79
	movq	%r11, %rsi
	.p2align	4
.LBB58_78:
	movq	8(%r8,%rsi,8), %rbx
	movq	%rbx, (%r10,%rsi,8)
	incq	%rsi
	decq	%rdi
	jne	.LBB58_78
.LBB58_79:
	subq	%rdx, %r11
	cmpq	$-4, %r11
	ja	.LBB58_82
	addq	%r9, %rax
	addq	$24, %rax
	.p2align	4
.LBB58_81:
	movq	8(%r8,%rsi,8), %r9
	movq	%r9, -24(%rax,%rsi,8)
	movq	16(%r8,%rsi,8), %r9
	movq	%r9, -16(%rax,%rsi,8)
	movq	24(%r8,%rsi,8), %r9
	movq	%r9, -8(%rax,%rsi,8)
	movq	32(%r8,%rsi,8), %r9
	movq	%r9, (%rax,%rsi,8)
	addq	$4, %rsi
	cmpq	%rsi, %rdx
	jne	.LBB58_81
	jmp	.LBB58_82
.LBB58_65:
	cmpw	$2, %r15w
	jb	.LBB58_116
	leaq	-2(%r15), %rdx
	movq	%rdx, %rax
	shrq	%rax
	cmpq	$1, %r15
	je	.LBB58_68
	movq	(%rcx), %r8
	movq	-8(%rcx,%r15,8), %r9
	movq	%r9, (%rcx)
	movq	%r8, -8(%rcx,%r15,8)
.LBB58_68:
	testq	%rax, %rax
	je	.LBB58_110
	cmpq	$1, %rdx
	jbe	.LBB58_83
	movq	16(%r11), %rcx
	movq	-8(%r11,%r15,8), %rdx
	movq	%rdx, 16(%r11)
	movq	%rcx, -8(%r11,%r15,8)
	jmp	.LBB58_85
.LBB58_73:
	movl	%edx, %r11d
	andl	$508, %r11d
	leaq	(%r9,%rax), %rsi
	addq	$16, %rsi
	xorl	%edi, %edi
	.p2align	4
.LBB58_74:
	movups	8(%r8,%rdi,8), %xmm0
	movups	24(%r8,%rdi,8), %xmm1
	movups	%xmm0, -16(%rsi,%rdi,8)
	movups	%xmm1, (%rsi,%rdi,8)
	addq	$4, %rdi
	cmpq	%rdi, %r11
	jne	.LBB58_74
	cmpq	%r11, %rdx
	jne	.LBB58_76
.LBB58_82:
	callq	"std_collections::btree::node::Node::destroy::<#e27c17be7fe85c1a>"
	movq	152(%rsp), %rcx
	jmp	.LBB58_127
.LBB58_83:
	testq	%rdx, %rdx
	jne	.LBB58_85
	movq	8(%r11), %rcx
	movq	16(%r11), %rdx
	movq	%rdx, 8(%r11)
	movq	%rcx, 16(%r11)
.LBB58_85:
	cmpq	$1, %rax
	je	.LBB58_110
	leaq	-3(%r15), %rcx
	cmpq	$2, %rcx
	jbe	.LBB58_88
	movq	24(%r11), %rcx
	movq	-16(%r11,%r15,8), %rdx
	movq	%rdx, 24(%r11)
	movq	%rcx, -16(%r11,%r15,8)
	jmp	.LBB58_90
.LBB58_88:
	cmpl	$2, %ecx
	je	.LBB58_90
	movq	-16(%r11,%r15,8), %rcx
	movq	24(%r11), %rdx
	movq	%rdx, -16(%r11,%r15,8)
	movq	%rcx, 24(%r11)
.LBB58_90:
	cmpq	$2, %rax
	je	.LBB58_110
	leaq	-4(%r15), %rcx
	cmpq	$3, %rcx
	jbe	.LBB58_93
	movq	32(%r11), %rcx
	movq	-24(%r11,%r15,8), %rdx
	movq	%rdx, 32(%r11)
	movq	%rcx, -24(%r11,%r15,8)
	jmp	.LBB58_95
.LBB58_93:
	cmpl	$3, %ecx
	je	.LBB58_95
	movq	-24(%r11,%r15,8), %rcx
	movq	32(%r11), %rdx
	movq	%rdx, -24(%r11,%r15,8)
	movq	%rcx, 32(%r11)
.LBB58_95:
	cmpq	$3, %rax
	je	.LBB58_110
	leaq	-5(%r15), %rcx
	cmpq	$4, %rcx
	jbe	.LBB58_98
	movq	40(%r11), %rcx
	movq	-32(%r11,%r15,8), %rdx
	movq	%rdx, 40(%r11)
	movq	%rcx, -32(%r11,%r15,8)
	jmp	.LBB58_100
.LBB58_98:
	cmpl	$4, %ecx
	je	.LBB58_100
	movq	-32(%r11,%r15,8), %rcx
	movq	40(%r11), %rdx
	movq	%rdx, -32(%r11,%r15,8)
	movq	%rcx, 40(%r11)
.LBB58_100:
	cmpq	$4, %rax
	je	.LBB58_110
	leaq	-6(%r15), %rcx
	cmpq	$5, %rcx
	jbe	.LBB58_103
	movq	48(%r11), %rcx
	movq	-40(%r11,%r15,8), %rdx
	movq	%rdx, 48(%r11)
	movq	%rcx, -40(%r11,%r15,8)
	jmp	.LBB58_105
.LBB58_103:
	cmpl	$5, %ecx
	je	.LBB58_105
	movq	-40(%r11,%r15,8), %rcx
	movq	48(%r11), %rdx
	movq	%rdx, -40(%r11,%r15,8)
	movq	%rcx, 48(%r11)
.LBB58_105:
	cmpq	$5, %rax
	je	.LBB58_110
	leaq	-7(%r15), %rcx
	cmpq	$6, %rcx
	jbe	.LBB58_108
	movq	56(%r11), %rcx
	movq	-48(%r11,%r15,8), %rdx
	movq	%rdx, 56(%r11)
	movq	%rcx, -48(%r11,%r15,8)
	jmp	.LBB58_110
.LBB58_108:
	cmpl	$6, %ecx
	je	.LBB58_110
	movq	-48(%r11,%r15,8), %rcx
	movq	56(%r11), %rdx
	movq	%rdx, -48(%r11,%r15,8)
	movq	%rcx, 56(%r11)
.LBB58_110:
	incq	%rax
	leaq	(%r15,%r15,2), %rcx
	shll	$4, %ecx
	addq	%r11, %rcx
	addq	$80, %rcx
	leaq	-1(%r15), %rdx
	xorl	%r8d, %r8d
	movq	%rdi, %r9
	jmp	.LBB58_113
	.p2align	4
.LBB58_111:
	movups	(%r9), %xmm0
	movups	16(%r9), %xmm1
	movups	32(%r9), %xmm2
	movaps	%xmm2, 64(%rsp)
	movaps	%xmm1, 48(%rsp)
	movaps	%xmm0, 32(%rsp)
	movups	(%rcx), %xmm0
	movups	16(%rcx), %xmm1
	movups	32(%rcx), %xmm2
	movups	%xmm0, (%r9)
	movups	%xmm1, 16(%r9)
	movups	%xmm2, 32(%r9)
	movaps	32(%rsp), %xmm0
	movaps	48(%rsp), %xmm1
	movaps	64(%rsp), %xmm2
	movups	%xmm2, 32(%rcx)
	movups	%xmm1, 16(%rcx)
	movups	%xmm0, (%rcx)
.LBB58_112:
	incq	%r8
	addq	$48, %r9
	addq	$-48, %rcx
	decq	%rdx
	cmpq	%r8, %rax
	je	.LBB58_116
.LBB58_113:
	cmpq	%rdx, %r8
	jb	.LBB58_111
	jbe	.LBB58_112
	movups	(%rcx), %xmm0
	movups	16(%rcx), %xmm1
	movups	32(%rcx), %xmm2
	movaps	%xmm2, 64(%rsp)
	movaps	%xmm1, 48(%rsp)
	movaps	%xmm0, 32(%rsp)
	movups	(%r9), %xmm0
	movups	16(%r9), %xmm1
	movups	32(%r9), %xmm2
	movups	%xmm0, (%rcx)
	movups	%xmm1, 16(%rcx)
	movups	%xmm2, 32(%rcx)
	movaps	32(%rsp), %xmm0
	movaps	48(%rsp), %xmm1
	movaps	64(%rsp), %xmm2
	movups	%xmm2, 32(%r9)
	movups	%xmm1, 16(%r9)
	movups	%xmm0, (%r9)
	jmp	.LBB58_112
.LBB58_116:
	testq	%r15, %r15
	je	.LBB58_126
.LBB58_117:
	decq	%r15
	leaq	(%r15,%r15,2), %rax
	shlq	$4, %rax
	movq	16(%rdi,%rax), %rbx
	movq	24(%rdi,%rax), %r13
	movq	32(%rdi,%rax), %r12
	testq	%r13, %r13
	je	.LBB58_124
	leaq	48(%rbx), %rbp
	jmp	.LBB58_120
	.p2align	4
.LBB58_119:
	addq	$56, %rbp
	decq	%r13
	je	.LBB58_124
.LBB58_120:
	movq	-16(%rbp), %r14
	movq	(%rbp), %rsi
	cmpq	$0, -32(%rbp)
	je	.LBB58_122
	movq	-48(%rbp), %rcx
	callq	yurewha_heap_dealloc
.LBB58_122:
	testq	%rsi, %rsi
	je	.LBB58_119
	movq	%r14, %rcx
	callq	yurewha_heap_dealloc
	jmp	.LBB58_119
.LBB58_124:
	testq	%r12, %r12
	je	.LBB58_116
	movq	%rbx, %rcx
	callq	yurewha_heap_dealloc
	jmp	.LBB58_116
.LBB58_126:
	movq	160(%rsp), %rcx
.LBB58_127:
	addq	$168, %rsp
	popq	%rbx
	popq	%rbp
	popq	%rdi
	popq	%rsi
	popq	%r12
	popq	%r13
	popq	%r14
	popq	%r15
	jmp	yurewha_heap_dealloc
	.seh_endproc

	.section	.text
	.p2align	4
	.def	"core::slice::edits::mirror::<i64>";
	.scl	3;
	.type	32;
	.endef
"core::slice::edits::mirror::<i64>":
.seh_proc "core::slice::edits::mirror::<i64>"
	pushq	%rsi
	.seh_pushreg %rsi
	.seh_endprologue
	leaq	(%rcx,%r8,8), %rax
	leaq	(%rdx,%r8,8), %r9
	cmpq	%r9, %rcx
	setb	%r9b
	cmpq	%rax, %rdx
	setb	%al
	testb	%al, %r9b
	je	.LBB59_2
	xorl	%eax, %eax
	jmp	.LBB59_5
.LBB59_2:
	movabsq	$9223372036854775806, %rax
	andq	%r8, %rax
	movq	%r8, %r9
	andq	$-2, %r9
	negq	%r9
	leaq	(%rdx,%r8,8), %r10
	addq	$-16, %r10
	xorl	%r11d, %r11d
	movq	%rcx, %rsi
	.p2align	4
.LBB59_3:
	movdqu	(%rsi), %xmm0
	movdqu	(%r10,%r11,8), %xmm1
	pshufd	$78, %xmm1, %xmm1
	movdqu	%xmm1, (%rsi)
	pshufd	$78, %xmm0, %xmm0
	movdqu	%xmm0, (%r10,%r11,8)
	addq	$-2, %r11
	addq	$16, %rsi
	cmpq	%r11, %r9
	jne	.LBB59_3
	cmpq	%rax, %r8
	je	.LBB59_10
.LBB59_5:
	movq	%rax, %r9
	orq	$1, %r9
	testb	$1, %r8b
	je	.LBB59_7
	movq	%rax, %r10
	notq	%r10
	addq	%r8, %r10
	movq	(%rcx,%rax,8), %r11
	movq	(%rdx,%r10,8), %rsi
	movq	%rsi, (%rcx,%rax,8)
	movq	%r11, (%rdx,%r10,8)
	movq	%r9, %rax
.LBB59_7:
	cmpq	%r9, %r8
	je	.LBB59_10
	subq	%rax, %r8
	leaq	(%rcx,%rax,8), %rax
	addq	$8, %rax
	.p2align	4
.LBB59_9:
	movq	-8(%rax), %rcx
	movq	-8(%rdx,%r8,8), %r9
	movq	%r9, -8(%rax)
	movq	%rcx, -8(%rdx,%r8,8)
	movq	(%rax), %rcx
	movq	-16(%rdx,%r8,8), %r9
	movq	%r9, (%rax)
	movq	%rcx, -16(%rdx,%r8,8)
	addq	$16, %rax
	addq	$-2, %r8
	jne	.LBB59_9
.LBB59_10:
	popq	%rsi
	retq
	.seh_endproc

	.section	.text
	.p2align	4
	.def	"core::slice::edits::mirror::<#667d5c0342a2aeff>";
	.scl	3;
	.type	32;
	.endef
"core::slice::edits::mirror::<#667d5c0342a2aeff>":
.seh_proc "core::slice::edits::mirror::<#667d5c0342a2aeff>"
	subq	$56, %rsp
	.seh_stackalloc 56
	.seh_endprologue
	leaq	(%r8,%r8,2), %rax
	shlq	$4, %rax
	addq	%rdx, %rax
	addq	$-48, %rax
	.p2align	4
.LBB60_1:
	movups	(%rcx), %xmm0
	movups	16(%rcx), %xmm1
	movups	32(%rcx), %xmm2
	movaps	%xmm2, 32(%rsp)
	movaps	%xmm1, 16(%rsp)
	movaps	%xmm0, (%rsp)
	movups	(%rax), %xmm0
	movups	16(%rax), %xmm1
	movups	32(%rax), %xmm2
	movups	%xmm0, (%rcx)
	movups	%xmm1, 16(%rcx)
	movups	%xmm2, 32(%rcx)
	movaps	(%rsp), %xmm0
	movaps	16(%rsp), %xmm1
	movaps	32(%rsp), %xmm2
	movups	%xmm2, 32(%rax)
	movups	%xmm1, 16(%rax)
	movups	%xmm0, (%rax)
	addq	$48, %rcx
	addq	$-48, %rax
	decq	%r8
	jne	.LBB60_1
	addq	$56, %rsp
	retq
	.seh_endproc

	.section	.rdata,"dr"
	.p2align	4, 0x0
.LCPI61_0:
	.byte	0
	.byte	1
	.byte	2
	.byte	3
	.byte	4
	.byte	5
	.byte	6
	.byte	7
	.byte	8
	.byte	9
	.byte	10
	.byte	11
	.byte	12
	.byte	13
	.byte	14
	.byte	15
.LCPI61_1:
	.byte	16
	.byte	17
	.byte	18
	.byte	19
	.byte	20
	.byte	21
	.byte	22
	.byte	23
	.byte	24
	.byte	25
	.byte	26
	.byte	27
	.byte	28
	.byte	29
	.byte	30
	.byte	31
	.section	.text
	.p2align	4
	.def	"line_io::devices::write_all::<#df9e9f1468b30f79>";
	.scl	3;
	.type	32;
	.endef
"line_io::devices::write_all::<#df9e9f1468b30f79>":
.seh_proc "line_io::devices::write_all::<#df9e9f1468b30f79>"
	pushq	%rsi
	.seh_pushreg %rsi
	pushq	%rdi
	.seh_pushreg %rdi
	pushq	%rbx
	.seh_pushreg %rbx
	subq	$128, %rsp
	.seh_stackalloc 128
	.seh_endprologue
	testq	%rdx, %rdx
	je	.LBB61_9
	movq	%rdx, %rsi
	movq	%rcx, %rdi
.LBB61_2:
	movl	$16, %ebx
	.p2align	4
.LBB61_3:
	movl	$1, %ecx
	movq	%rdi, %rdx
	movq	%rsi, %r8
	callq	yurewha_run_write
	testq	%rax, %rax
	jns	.LBB61_7
	leaq	32(%rsp), %rcx
	callq	"std_io::io::error::last_error"
	movq	32(%rsp), %rax
	shrq	$8, %rax
	movaps	.LCPI61_0(%rip), %xmm0
	movaps	%xmm0, 32(%rsp)
	movaps	.LCPI61_1(%rip), %xmm0
	movaps	%xmm0, 48(%rsp)
	movabsq	$2820983053732684064, %rcx
	movq	%rcx, 64(%rsp)
	movb	$40, 72(%rsp)
	cmpb	$41, %al
	jae	.LBB61_10
	andl	$63, %eax
	subl	$1, %ebx
	setb	%cl
	cmpb	$35, 32(%rsp,%rax)
	movb	$1, %al
	jne	.LBB61_11
	testb	%cl, %cl
	je	.LBB61_3
	jmp	.LBB61_11
	.p2align	4
.LBB61_7:
	je	.LBB61_10
	cmpq	%rsi, %rax
	cmovaeq	%rsi, %rax
	addq	%rax, %rdi
	movq	%rax, %rcx
	xorl	%eax, %eax
	subq	%rcx, %rsi
	jne	.LBB61_2
	jmp	.LBB61_11
.LBB61_9:
	xorl	%eax, %eax
	jmp	.LBB61_11
.LBB61_10:
	movb	$1, %al
.LBB61_11:
	addq	$128, %rsp
	popq	%rbx
	popq	%rdi
	popq	%rsi
	retq
	.seh_endproc

	.section	.rdata,"dr"
	.p2align	4, 0x0
.LCPI62_0:
	.byte	0
	.byte	1
	.byte	2
	.byte	3
	.byte	4
	.byte	5
	.byte	6
	.byte	7
	.byte	8
	.byte	9
	.byte	10
	.byte	11
	.byte	12
	.byte	13
	.byte	14
	.byte	15
.LCPI62_1:
	.byte	16
	.byte	17
	.byte	18
	.byte	19
	.byte	20
	.byte	21
	.byte	22
	.byte	23
	.byte	24
	.byte	25
	.byte	26
	.byte	27
	.byte	28
	.byte	29
	.byte	30
	.byte	31
	.section	.text
	.p2align	4
	.def	"line_io::request::PiecesWrite::write_str::<#03326aa510967ad1>";
	.scl	3;
	.type	32;
	.endef
"line_io::request::PiecesWrite::write_str::<#03326aa510967ad1>":
.seh_proc "line_io::request::PiecesWrite::write_str::<#03326aa510967ad1>"
	pushq	%rsi
	.seh_pushreg %rsi
	pushq	%rdi
	.seh_pushreg %rdi
	pushq	%rbx
	.seh_pushreg %rbx
	subq	$128, %rsp
	.seh_stackalloc 128
	.seh_endprologue
	testq	%rdx, %rdx
	je	.LBB62_9
	movq	%rdx, %rsi
	movq	%rcx, %rdi
.LBB62_2:
	movl	$16, %ebx
	.p2align	4
.LBB62_3:
	movl	$2, %ecx
	movq	%rdi, %rdx
	movq	%rsi, %r8
	callq	yurewha_run_write
	testq	%rax, %rax
	jns	.LBB62_7
	leaq	32(%rsp), %rcx
	callq	"std_io::io::error::last_error"
	movq	32(%rsp), %rax
	shrq	$8, %rax
	movaps	.LCPI62_0(%rip), %xmm0
	movaps	%xmm0, 32(%rsp)
	movaps	.LCPI62_1(%rip), %xmm0
	movaps	%xmm0, 48(%rsp)
	movabsq	$2820983053732684064, %rcx
	movq	%rcx, 64(%rsp)
	movb	$40, 72(%rsp)
	cmpb	$41, %al
	jae	.LBB62_10
	andl	$63, %eax
	subl	$1, %ebx
	setb	%cl
	cmpb	$35, 32(%rsp,%rax)
	movb	$1, %al
	jne	.LBB62_11
	testb	%cl, %cl
	je	.LBB62_3
	jmp	.LBB62_11
	.p2align	4
.LBB62_7:
	je	.LBB62_10
	cmpq	%rsi, %rax
	cmovaeq	%rsi, %rax
	addq	%rax, %rdi
	movq	%rax, %rcx
	xorl	%eax, %eax
	subq	%rcx, %rsi
	jne	.LBB62_2
	jmp	.LBB62_11
.LBB62_9:
	xorl	%eax, %eax
	jmp	.LBB62_11
.LBB62_10:
	movb	$1, %al
.LBB62_11:
	addq	$128, %rsp
	popq	%rbx
	popq	%rdi
	popq	%rsi
	retq
	.seh_endproc

	.section	.text
	.p2align	4
	.def	"xetroot_text::program::report::<#03326aa510967ad1>";
	.scl	3;
	.type	32;
	.endef
"xetroot_text::program::report::<#03326aa510967ad1>":
.seh_proc "xetroot_text::program::report::<#03326aa510967ad1>"
	pushq	%r15
	.seh_pushreg %r15
	pushq	%r14
	.seh_pushreg %r14
	pushq	%rsi
	.seh_pushreg %rsi
	pushq	%rdi
	.seh_pushreg %rdi
	pushq	%rbp
	.seh_pushreg %rbp
	pushq	%rbx
	.seh_pushreg %rbx
	subq	$184, %rsp
	.seh_stackalloc 184
	.seh_endprologue
	cmpb	$0, (%rcx)
	je	.LBB63_1
	movzbl	8(%rcx), %r14d
	movq	16(%rcx), %rdi
	xorps	%xmm0, %xmm0
	movaps	%xmm0, 160(%rsp)
	movaps	%xmm0, 144(%rsp)
	movaps	%xmm0, 128(%rsp)
	movaps	%xmm0, 112(%rsp)
	movaps	%xmm0, 96(%rsp)
	movaps	%xmm0, 80(%rsp)
	movaps	%xmm0, 64(%rsp)
	leal	1(%r14), %esi
	leaq	static.24(%rip), %rax
	negq	%rax
	addq	%rsp, %rax
	addq	$64, %rax
	movl	$92, %ecx
	btl	%r14d, %ecx
	jae	.LBB63_7
	cmpq	$14, %rax
	ja	.LBB63_5
	movabsq	$4212114075950540152, %rax
	movq	%rax, 64(%rsp)
	movl	$1969317408, 72(%rsp)
	movw	$29804, 76(%rsp)
	movb	$32, 78(%rsp)
	jmp	.LBB63_6
.LBB63_1:
	xorl	%esi, %esi
	jmp	.LBB63_38
.LBB63_7:
	cmpq	$14, %rax
	ja	.LBB63_9
	movabsq	$4212114075950540152, %rax
	movq	%rax, 64(%rsp)
	movl	$1969317408, 72(%rsp)
	movw	$29804, 76(%rsp)
	movb	$32, 78(%rsp)
	jmp	.LBB63_10
.LBB63_5:
	movabsq	$2338613357913186362, %rax
	movq	%rax, 71(%rsp)
	movabsq	$4212114075950540152, %rax
	movq	%rax, 64(%rsp)
.LBB63_6:
	movl	%esi, %eax
	orb	$48, %al
	movb	%al, 79(%rsp)
	movl	$16, %edx
.LBB63_21:
	movb	$10, 64(%rsp,%rdx)
	incq	%rdx
	movq	%rdx, 168(%rsp)
	leaq	64(%rsp), %rcx
.LBB63_37:
	callq	"line_io::request::PiecesWrite::write_str::<#03326aa510967ad1>"
.LBB63_38:
	movl	%esi, %eax
	addq	$184, %rsp
	popq	%rbx
	popq	%rbp
	popq	%rdi
	popq	%rsi
	popq	%r14
	popq	%r15
	retq
.LBB63_9:
	movabsq	$2338613357913186362, %rax
	movq	%rax, 71(%rsp)
	movabsq	$4212114075950540152, %rax
	movq	%rax, 64(%rsp)
.LBB63_10:
	movl	%esi, %ebp
	orb	$48, %bpl
	movb	%bpl, 79(%rsp)
	leaq	static.25(%rip), %rax
	negq	%rax
	addq	%rsp, %rax
	addq	$80, %rax
	cmpq	$8, %rax
	ja	.LBB63_12
	movabsq	$7308895158390776096, %rax
	movq	%rax, 80(%rsp)
	movb	$32, 88(%rsp)
	jmp	.LBB63_13
.LBB63_12:
	leaq	80(%rsp), %rax
	movabsq	$7308895158390776096, %rcx
	movq	%rcx, (%rax)
	movb	$32, 8(%rax)
.LBB63_13:
	movq	$25, 168(%rsp)
	movaps	%xmm0, 32(%rsp)
	movq	$0, 48(%rsp)
	movl	$24, %r15d
	movabsq	$2951479051793528259, %rbx
	movq	%rdi, %rdx
	cmpq	$100, %rdi
	jb	.LBB63_16
	movq	%rdi, %rcx
	.p2align	4
.LBB63_15:
	movq	%rcx, %rax
	shrq	$2, %rax
	mulq	%rbx
	shrq	$2, %rdx
	imull	$100, %edx, %eax
	movl	%ecx, %r8d
	subl	%eax, %r8d
	movzbl	%r8b, %eax
	imull	$205, %eax, %r8d
	shrl	$11, %r8d
	leal	(%r8,%r8), %r9d
	leal	(%r9,%r9,4), %r9d
	subb	%r9b, %al
	orb	$48, %al
	movb	%al, 31(%rsp,%r15)
	orb	$48, %r8b
	movb	%r8b, 30(%rsp,%r15)
	addq	$-2, %r15
	cmpq	$9999, %rcx
	movq	%rdx, %rcx
	ja	.LBB63_15
.LBB63_16:
	cmpq	$10, %rdx
	jb	.LBB63_18
	movzbl	%dl, %eax
	imull	$205, %eax, %eax
	shrl	$11, %eax
	leal	(%rax,%rax), %ecx
	leal	(%rcx,%rcx,4), %ecx
	subb	%cl, %dl
	orb	$48, %dl
	movb	%dl, 31(%rsp,%r15)
	orb	$48, %al
	movb	%al, 30(%rsp,%r15)
	addq	$-2, %r15
	movl	$24, %r8d
	subq	%r15, %r8
	cmpq	$75, %r8
	jbe	.LBB63_20
	jmp	.LBB63_22
.LBB63_18:
	orb	$48, %dl
	movb	%dl, 31(%rsp,%r15)
	decq	%r15
	movl	$24, %r8d
	subq	%r15, %r8
	cmpq	$75, %r8
	ja	.LBB63_22
.LBB63_20:
	leaq	(%rsp,%r15), %rdx
	addq	$32, %rdx
	leaq	89(%rsp), %rcx
	callq	memcpy
	movl	$49, %edx
	subq	%r15, %rdx
	movq	%rdx, 168(%rsp)
	cmpq	$-51, %r15
	jne	.LBB63_21
.LBB63_22:
	leaq	static.24(%rip), %rcx
	movl	$15, %edx
	callq	"line_io::request::PiecesWrite::write_str::<#03326aa510967ad1>"
	addb	$-2, %r14b
	cmpb	$2, %r14b
	ja	.LBB63_25
	testb	%al, %al
	jne	.LBB63_38
	leaq	55(%rsp), %rcx
	xorps	%xmm0, %xmm0
	movaps	%xmm0, 32(%rsp)
	movq	$0, 46(%rsp)
	movb	%bpl, 55(%rsp)
	movb	$45, 54(%rsp)
	movl	$1, %edx
	callq	"line_io::request::PiecesWrite::write_str::<#03326aa510967ad1>"
	testb	%al, %al
	jne	.LBB63_38
.LBB63_36:
	leaq	static.14(%rip), %rcx
	movl	$1, %edx
	jmp	.LBB63_37
.LBB63_25:
	testb	%al, %al
	jne	.LBB63_38
	leaq	55(%rsp), %rcx
	xorps	%xmm0, %xmm0
	movaps	%xmm0, 32(%rsp)
	movq	$0, 46(%rsp)
	movb	%bpl, 55(%rsp)
	movb	$45, 54(%rsp)
	movl	$1, %edx
	callq	"line_io::request::PiecesWrite::write_str::<#03326aa510967ad1>"
	testb	%al, %al
	jne	.LBB63_38
	leaq	static.25(%rip), %rcx
	movl	$9, %edx
	callq	"line_io::request::PiecesWrite::write_str::<#03326aa510967ad1>"
	testb	%al, %al
	jne	.LBB63_38
	xorps	%xmm0, %xmm0
	movaps	%xmm0, 32(%rsp)
	movq	$0, 48(%rsp)
	movl	$24, %r8d
	cmpq	$100, %rdi
	jb	.LBB63_29
.LBB63_30:
	movq	%rdi, %rax
	shrq	$2, %rax
	mulq	%rbx
	shrq	$2, %rdx
	imull	$100, %edx, %eax
	movl	%edi, %ecx
	subl	%eax, %ecx
	movzbl	%cl, %eax
	imull	$205, %eax, %ecx
	shrl	$11, %ecx
	leal	(%rcx,%rcx), %r9d
	leal	(%r9,%r9,4), %r9d
	subb	%r9b, %al
	orb	$48, %al
	movb	%al, 31(%rsp,%r8)
	orb	$48, %cl
	movb	%cl, 30(%rsp,%r8)
	addq	$-2, %r8
	cmpq	$9999, %rdi
	movq	%rdx, %rdi
	ja	.LBB63_30
	jmp	.LBB63_31
.LBB63_29:
	movq	%rdi, %rdx
.LBB63_31:
	cmpq	$10, %rdx
	jb	.LBB63_33
	movzbl	%dl, %eax
	imull	$205, %eax, %eax
	shrl	$11, %eax
	leal	(%rax,%rax), %ecx
	leal	(%rcx,%rcx,4), %ecx
	subb	%cl, %dl
	orb	$48, %dl
	movb	%dl, 31(%rsp,%r8)
	orb	$48, %al
	movb	%al, 30(%rsp,%r8)
	addq	$-2, %r8
	jmp	.LBB63_34
.LBB63_33:
	orb	$48, %dl
	movb	%dl, 31(%rsp,%r8)
	decq	%r8
.LBB63_34:
	leaq	(%rsp,%r8), %rcx
	addq	$32, %rcx
	movb	$45, 31(%rsp,%r8)
	movl	$24, %edx
	subq	%r8, %rdx
	callq	"line_io::request::PiecesWrite::write_str::<#03326aa510967ad1>"
	testb	%al, %al
	jne	.LBB63_38
	jmp	.LBB63_36
	.seh_endproc

	.section	.rdata,"dr"
	.p2align	4, 0x0
.LCPI64_0:
	.byte	0
	.byte	1
	.byte	2
	.byte	3
	.byte	4
	.byte	5
	.byte	6
	.byte	7
	.byte	8
	.byte	9
	.byte	10
	.byte	11
	.byte	12
	.byte	13
	.byte	14
	.byte	15
.LCPI64_1:
	.byte	16
	.byte	17
	.byte	18
	.byte	19
	.byte	20
	.byte	21
	.byte	22
	.byte	23
	.byte	24
	.byte	25
	.byte	26
	.byte	27
	.byte	28
	.byte	29
	.byte	30
	.byte	31
.LCPI64_2:
	.byte	160
	.byte	160
	.byte	160
	.byte	160
	.byte	160
	.byte	160
	.byte	160
	.byte	160
	.zero	1
	.zero	1
	.zero	1
	.zero	1
	.zero	1
	.zero	1
	.zero	1
	.zero	1
.LCPI64_3:
	.zero	16,15
.LCPI64_4:
	.byte	48
	.byte	48
	.byte	48
	.byte	48
	.byte	48
	.byte	48
	.byte	48
	.byte	48
	.zero	1
	.zero	1
	.zero	1
	.zero	1
	.zero	1
	.zero	1
	.zero	1
	.zero	1
.LCPI64_5:
	.byte	87
	.byte	87
	.byte	87
	.byte	87
	.byte	87
	.byte	87
	.byte	87
	.byte	87
	.zero	1
	.zero	1
	.zero	1
	.zero	1
	.zero	1
	.zero	1
	.zero	1
	.zero	1
.LCPI64_6:
	.byte	15
	.byte	15
	.byte	15
	.byte	15
	.byte	15
	.byte	15
	.byte	15
	.byte	15
	.zero	1
	.zero	1
	.zero	1
	.zero	1
	.zero	1
	.zero	1
	.zero	1
	.zero	1
.LCPI64_7:
	.byte	10
	.byte	10
	.byte	10
	.byte	10
	.byte	10
	.byte	10
	.byte	10
	.byte	10
	.zero	1
	.zero	1
	.zero	1
	.zero	1
	.zero	1
	.zero	1
	.zero	1
	.zero	1
	.section	.text
	.globl	yurewha_program
	.p2align	4
	.def	yurewha_program;
	.scl	2;
	.type	32;
	.endef
yurewha_program:
.seh_proc yurewha_program
	pushq	%r15
	.seh_pushreg %r15
	pushq	%r14
	.seh_pushreg %r14
	pushq	%r13
	.seh_pushreg %r13
	pushq	%r12
	.seh_pushreg %r12
	pushq	%rsi
	.seh_pushreg %rsi
	pushq	%rdi
	.seh_pushreg %rdi
	pushq	%rbp
	.seh_pushreg %rbp
	pushq	%rbx
	.seh_pushreg %rbx
	movl	$70280, %eax
	callq	yurewha_stack_probe
	subq	%rax, %rsp
	.seh_stackalloc 70280
	movdqa	%xmm15, 70256(%rsp)
	.seh_savexmm %xmm15, 70256
	movdqa	%xmm14, 70240(%rsp)
	.seh_savexmm %xmm14, 70240
	movdqa	%xmm13, 70224(%rsp)
	.seh_savexmm %xmm13, 70224
	movdqa	%xmm12, 70208(%rsp)
	.seh_savexmm %xmm12, 70208
	movdqa	%xmm11, 70192(%rsp)
	.seh_savexmm %xmm11, 70192
	movdqa	%xmm10, 70176(%rsp)
	.seh_savexmm %xmm10, 70176
	movdqa	%xmm9, 70160(%rsp)
	.seh_savexmm %xmm9, 70160
	movdqa	%xmm8, 70144(%rsp)
	.seh_savexmm %xmm8, 70144
	movdqa	%xmm7, 70128(%rsp)
	.seh_savexmm %xmm7, 70128
	movdqa	%xmm6, 70112(%rsp)
	.seh_savexmm %xmm6, 70112
	.seh_endprologue
	movl	$1, %edx
	movl	$13, %ecx
	callq	yurewha_run_signal
	leaq	56(%rsp), %rax
	movq	%rax, 104(%rsp)
	movq	%rax, 608(%rsp)
	pxor	%xmm0, %xmm0
	movdqu	%xmm0, 616(%rsp)
	leaq	4584(%rsp), %r13
	xorl	%ebp, %ebp
	xorl	%esi, %esi
.LBB64_1:
	movl	$256, %r14d
	movl	$64, %edi
	jmp	.LBB64_3
	.p2align	4
.LBB64_2:
	movq	%r14, %rax
	addq	%r14, %rax
	movq	$-1, %r14
	cmovaeq	%rax, %r14
	decl	%edi
	je	.LBB64_24
.LBB64_3:
	leaq	56(%rsp), %rbx
	movq	%rbx, 4576(%rsp)
	pxor	%xmm0, %xmm0
	movdqu	%xmm0, (%r13)
	testq	%r14, %r14
	jne	.LBB64_10
	xorl	%r15d, %r15d
.LBB64_5:
	movq	%rsi, %rcx
	movq	%rbx, %rdx
	movq	%r15, %r8
	callq	yurewha_run_argument
	movq	%rax, %r12
	movl	$22, %eax
	cmpq	$-1, %r12
	je	.LBB64_7
	movl	$36, %eax
.LBB64_7:
	xorl	%ecx, %ecx
	testq	%r12, %r12
	cmovsl	%eax, %ecx
	callq	yurewha_run_set_errno
	callq	yurewha_run_errno
	cmpl	$36, %eax
	jne	.LBB64_13
	cmpq	$0, 4592(%rsp)
	je	.LBB64_2
	movq	%rbx, %rcx
	callq	yurewha_heap_dealloc
	jmp	.LBB64_2
.LBB64_10:
	leaq	4576(%rsp), %rcx
	movq	%r14, %rdx
	callq	"std_alloc::vec::Vec::grow_amortized::<#bc82ad78765e08fe>"
	testb	%al, %al
	je	.LBB64_22
	movq	4576(%rsp), %rbx
	movq	4584(%rsp), %rcx
	leaq	(%rcx,%r14), %r15
	cmpq	%r15, %rcx
	jae	.LBB64_5
	addq	%rbx, %rcx
	xorl	%edx, %edx
	movq	%r14, %r8
	callq	memset
	jmp	.LBB64_5
	.p2align	4
.LBB64_13:
	testl	%eax, %eax
	jne	.LBB64_19
	cmpq	%r15, %r12
	cmovbq	%r12, %r15
	xorl	%r14d, %r14d
	testq	%r12, %r12
	cmovgq	%r15, %r14
	movq	4592(%rsp), %rdi
	pxor	%xmm0, %xmm0
	movdqa	%xmm0, 4576(%rsp)
	movq	$0, 4592(%rsp)
	leaq	4576(%rsp), %rcx
	movq	%rbx, %rdx
	movq	%r14, %r8
	callq	"core::str::utf8::from_utf8"
	cmpb	$1, 4576(%rsp)
	je	.LBB64_108
	cmpq	%rbp, 624(%rsp)
	je	.LBB64_17
.LBB64_16:
	leaq	(,%rbp,2), %rax
	addq	%rbp, %rax
	movq	104(%rsp), %rcx
	movq	%rbx, (%rcx,%rax,8)
	movq	%r14, 8(%rcx,%rax,8)
	movq	%rdi, 16(%rcx,%rax,8)
	incq	%rbp
	movq	%rbp, 616(%rsp)
	incq	%rsi
	cmpq	$-1, %rsi
	jne	.LBB64_1
	jmp	.LBB64_21
.LBB64_17:
	leaq	608(%rsp), %rcx
	callq	"std_alloc::vec::Vec::grow_amortized::<#383813664ff73b2b>"
	testb	%al, %al
	je	.LBB64_167
	movq	608(%rsp), %rax
	movq	%rax, 104(%rsp)
	movq	616(%rsp), %rbp
	jmp	.LBB64_16
.LBB64_19:
	cmpq	$0, 4592(%rsp)
	je	.LBB64_21
	movq	%rbx, %rcx
	callq	yurewha_heap_dealloc
.LBB64_21:
	movq	608(%rsp), %rsi
	movq	624(%rsp), %r14
	movb	$1, %r15b
	jmp	.LBB64_33
.LBB64_22:
	cmpq	$0, 4592(%rsp)
	je	.LBB64_24
	movq	4576(%rsp), %rcx
	callq	yurewha_heap_dealloc
.LBB64_24:
	movq	624(%rsp), %rdi
	testq	%rbp, %rbp
	je	.LBB64_29
	movq	104(%rsp), %rax
	leaq	16(%rax), %rsi
	jmp	.LBB64_27
	.p2align	4
.LBB64_26:
	addq	$24, %rsi
	decq	%rbp
	je	.LBB64_29
.LBB64_27:
	cmpq	$0, (%rsi)
	je	.LBB64_26
	movq	-16(%rsi), %rcx
	callq	yurewha_heap_dealloc
	jmp	.LBB64_26
.LBB64_29:
	movl	$9729, %esi
	testq	%rdi, %rdi
	je	.LBB64_32
	movq	104(%rsp), %rcx
.LBB64_31:
	callq	yurewha_heap_dealloc
.LBB64_32:
	xorl	%r15d, %r15d
	xorl	%ebp, %ebp
	xorl	%r14d, %r14d
.LBB64_33:
	pxor	%xmm0, %xmm0
	movdqa	%xmm0, 208(%rsp)
	movq	$0, 224(%rsp)
	movdqa	%xmm0, 304(%rsp)
	movq	$0, 320(%rsp)
	movdqa	%xmm0, 272(%rsp)
	movq	$0, 288(%rsp)
	movdqa	%xmm0, 240(%rsp)
	movq	$0, 256(%rsp)
	movabsq	$2820983053732684064, %rdi
	testb	%r15b, %r15b
	je	.LBB64_53
	testq	%rbp, %rbp
	je	.LBB64_38
	movq	(%rsi), %rcx
	movq	16(%rsi), %rbx
	cmpq	$1, %rbp
	jne	.LBB64_67
	testq	%rbx, %rbx
	je	.LBB64_38
	callq	yurewha_heap_dealloc
.LBB64_38:
	testq	%r14, %r14
	je	.LBB64_40
	movq	%rsi, %rcx
	callq	yurewha_heap_dealloc
.LBB64_40:
	pxor	%xmm6, %xmm6
	movdqu	%xmm6, 2664(%rsp)
	movdqu	%xmm6, 2648(%rsp)
	movdqu	%xmm6, 2632(%rsp)
	movdqa	%xmm6, 2592(%rsp)
	movdqa	%xmm6, 2608(%rsp)
	leaq	2688(%rsp), %rcx
	xorl	%ebx, %ebx
	movl	$1864, %r8d
	xorl	%edx, %edx
	callq	memset
	movdqa	%xmm6, 416(%rsp)
	movdqa	%xmm6, 432(%rsp)
	movdqa	%xmm6, 448(%rsp)
	movdqa	%xmm6, 464(%rsp)
	movdqa	%xmm6, 480(%rsp)
	movdqa	%xmm6, 496(%rsp)
	movdqa	%xmm6, 512(%rsp)
	movdqa	%xmm6, 528(%rsp)
	movdqa	%xmm6, 544(%rsp)
	movq	$0, 560(%rsp)
	movdqa	%xmm6, 336(%rsp)
	movdqa	%xmm6, 352(%rsp)
	movdqa	%xmm6, 368(%rsp)
	movdqa	%xmm6, 384(%rsp)
	movq	$0, 399(%rsp)
	movq	$0, 192(%rsp)
	movl	$0, 199(%rsp)
	movw	$0, 100(%rsp)
	movl	$0, 96(%rsp)
	leaq	56(%rsp), %rax
	movq	%rax, 2624(%rsp)
	movq	$0, 2680(%rsp)
	movq	$0, 4552(%rsp)
	movq	$1, 4560(%rsp)
	movq	$0, 4568(%rsp)
	leaq	4576(%rsp), %rcx
	movl	$65536, %r8d
	xorl	%edx, %edx
	callq	memset
	.p2align	4
.LBB64_41:
	leaq	4576(%rsp), %rdx
	movl	$65536, %esi
	movl	$65536, %r8d
	xorl	%ecx, %ecx
	callq	yurewha_run_read
	testq	%rax, %rax
	js	.LBB64_45
	cmpq	$65536, %rax
	cmovbq	%rax, %rsi
	testq	%rax, %rax
	je	.LBB64_70
	pxor	%xmm0, %xmm0
	movdqa	%xmm0, 608(%rsp)
	movdqa	%xmm0, 624(%rsp)
	movdqa	%xmm0, 64(%rsp)
	movdqa	%xmm0, 80(%rsp)
	xorl	%ebx, %ebx
	movabsq	$1099511627776, %rax
	subq	4552(%rsp), %rax
	movl	$0, %r9d
	cmovaeq	%rax, %r9
	cmpq	%r9, %rsi
	ja	.LBB64_74
	leaq	608(%rsp), %rcx
	leaq	2592(%rsp), %rdx
	leaq	4576(%rsp), %r8
	movq	%rsi, %r9
	callq	"line_io::reading::Reading::take_within::<#42ff4d2293d53660>"
	cmpb	$0, 608(%rsp)
	je	.LBB64_41
	jmp	.LBB64_75
	.p2align	4
.LBB64_45:
	leaq	608(%rsp), %rcx
	callq	"std_io::io::error::last_error"
	movq	608(%rsp), %rax
	shrq	$8, %rax
	movaps	.LCPI64_0(%rip), %xmm0
	movaps	%xmm0, 608(%rsp)
	movdqa	.LCPI64_1(%rip), %xmm0
	movdqa	%xmm0, 624(%rsp)
	movq	%rdi, 640(%rsp)
	movb	$40, 648(%rsp)
	cmpb	$41, %al
	jae	.LBB64_48
	andl	$63, %eax
	cmpb	$35, 608(%rsp,%rax)
	jne	.LBB64_48
	incl	%ebx
	cmpl	$17, %ebx
	jne	.LBB64_41
.LBB64_48:
	movq	2624(%rsp), %rsi
	movq	2640(%rsp), %rdi
	cmpb	$1, 2592(%rsp)
	jne	.LBB64_50
	movq	2600(%rsp), %rcx
	callq	"std_collections::btree::node::Node::destroy::<#e27c17be7fe85c1a>"
.LBB64_50:
	movb	$2, %bl
	testq	%rdi, %rdi
	je	.LBB64_52
	movq	%rsi, %rcx
	callq	yurewha_heap_dealloc
.LBB64_52:
	xorl	%edi, %edi
	xorl	%r14d, %r14d
	xorl	%esi, %esi
	cmpb	$2, %sil
	jne	.LBB64_81
.LBB64_193:
	movl	$4, %eax
	jmp	.LBB64_194
.LBB64_53:
	shrq	$8, %rsi
	movaps	.LCPI64_0(%rip), %xmm0
	movaps	%xmm0, 4576(%rsp)
	movdqa	.LCPI64_1(%rip), %xmm0
	movdqa	%xmm0, 4592(%rsp)
	movq	%rdi, 4608(%rsp)
	movb	$40, 4616(%rsp)
	cmpb	$41, %sil
	jae	.LBB64_56
	andl	$63, %esi
	xorl	%edi, %edi
	cmpb	$38, 4576(%rsp,%rsi)
	movl	$0, %r12d
	movl	$0, %esi
	movl	$0, %ebp
	movl	$0, %r14d
	movl	$0, %r13d
	jne	.LBB64_57
	movb	$1, 240(%rsp)
	movq	$2, 248(%rsp)
	movq	$0, 256(%rsp)
	leaq	240(%rsp), %rcx
	jmp	.LBB64_197
.LBB64_56:
	xorl	%edi, %edi
	xorl	%r12d, %r12d
	xorl	%esi, %esi
	xorl	%ebp, %ebp
	xorl	%r14d, %r14d
	xorl	%r13d, %r13d
.LBB64_57:
	pxor	%xmm0, %xmm0
	movdqu	%xmm0, 4626(%rsp)
	movdqu	%xmm0, 4658(%rsp)
	movdqu	%xmm0, 4642(%rsp)
	movq	$0, 4672(%rsp)
	movups	static.3(%rip), %xmm0
	movaps	%xmm0, 4576(%rsp)
	movups	static.3+16(%rip), %xmm0
	movaps	%xmm0, 4592(%rsp)
	movdqu	static.3+32(%rip), %xmm0
	movdqa	%xmm0, 4608(%rsp)
	movw	$28271, 4624(%rsp)
	movb	$10, 4626(%rsp)
	movq	$51, 4680(%rsp)
	leaq	4576(%rsp), %rcx
	movl	$51, %edx
	callq	"line_io::request::PiecesWrite::write_str::<#03326aa510967ad1>"
	movb	$64, %bl
	testb	%r15b, %r15b
	je	.LBB64_198
	testq	%r12, %r12
	je	.LBB64_60
	movq	%rdi, %rcx
	callq	yurewha_heap_dealloc
.LBB64_60:
	testq	%rbp, %rbp
	je	.LBB64_65
	leaq	(,%r13,2), %rax
	addq	%r13, %rax
	leaq	(%rsi,%rax,8), %rdi
	addq	$16, %rdi
	jmp	.LBB64_63
	.p2align	4
.LBB64_62:
	addq	$24, %rdi
	decq	%rbp
	je	.LBB64_65
.LBB64_63:
	cmpq	$0, (%rdi)
	je	.LBB64_62
	movq	-16(%rdi), %rcx
	callq	yurewha_heap_dealloc
	jmp	.LBB64_62
.LBB64_65:
	testq	%r14, %r14
	je	.LBB64_198
	movq	%rsi, %rcx
	callq	yurewha_heap_dealloc
	jmp	.LBB64_198
.LBB64_67:
	movq	24(%rsi), %rdi
	movq	40(%rsi), %r12
	addq	$-2, %rbp
	je	.LBB64_87
	movl	$2, %r13d
	testq	%rbx, %rbx
	je	.LBB64_57
	callq	yurewha_heap_dealloc
	jmp	.LBB64_57
.LBB64_70:
	movb	$0, 66(%rsp)
	movw	$0, 64(%rsp)
	leaq	608(%rsp), %rcx
	leaq	2592(%rsp), %rdx
	movl	$1984, %r8d
	callq	memcpy
	cmpb	$0, 2584(%rsp)
	je	.LBB64_91
	leaq	64(%rsp), %rcx
	leaq	608(%rsp), %rdx
	callq	"pair_text::said_lines::SaidLinesTakeLines::end_line::<#a10fcec3e4a5dd02>"
	cmpb	$1, 64(%rsp)
	jne	.LBB64_96
	movzbl	65(%rsp), %ebx
	xorl	%eax, %eax
	testb	%bl, %bl
	movq	2576(%rsp), %rdi
	cmovneq	%rax, %rdi
	movzbl	66(%rsp), %r14d
	cmovnel	%eax, %r14d
	movq	640(%rsp), %rsi
	movq	656(%rsp), %r15
	cmpb	$1, 608(%rsp)
	jne	.LBB64_78
	movq	616(%rsp), %rcx
	jmp	.LBB64_77
.LBB64_74:
	leaq	64(%rsp), %rcx
	leaq	2592(%rsp), %rdx
	leaq	4576(%rsp), %r8
	callq	"line_io::reading::Reading::take_within::<#42ff4d2293d53660>"
	xorl	%r14d, %r14d
	cmpb	$0, 64(%rsp)
	leaq	80(%rsp), %rax
	leaq	4560(%rsp), %rcx
	movl	72(%rsp), %ebx
	cmovel	%r14d, %ebx
	cmovneq	%rax, %rcx
	movq	(%rcx), %rdi
	cmovnel	88(%rsp), %r14d
	movq	2624(%rsp), %rsi
	movq	2640(%rsp), %r15
	cmpb	$1, 2592(%rsp)
	jne	.LBB64_78
	jmp	.LBB64_76
.LBB64_75:
	movzbl	616(%rsp), %ebx
	movq	624(%rsp), %rdi
	movzbl	632(%rsp), %r14d
	movq	2624(%rsp), %rsi
	movq	2640(%rsp), %r15
	cmpb	$1, 2592(%rsp)
	jne	.LBB64_78
.LBB64_76:
	movq	2600(%rsp), %rcx
.LBB64_77:
	callq	"std_collections::btree::node::Node::destroy::<#e27c17be7fe85c1a>"
.LBB64_78:
	testq	%r15, %r15
	je	.LBB64_80
	movq	%rsi, %rcx
	callq	yurewha_heap_dealloc
.LBB64_80:
	xorl	%esi, %esi
	cmpb	$2, %sil
	je	.LBB64_193
.LBB64_81:
	movzbl	%sil, %eax
	cmpl	$1, %eax
	jne	.LBB64_84
	testl	$256, %esi
	jne	.LBB64_86
	movl	$6, %eax
	jmp	.LBB64_194
.LBB64_84:
	cmpb	$2, %bl
	je	.LBB64_92
	movzbl	%bl, %eax
	cmpl	$1, %eax
	jne	.LBB64_93
.LBB64_86:
	movl	$2, %eax
	jmp	.LBB64_194
.LBB64_87:
	movq	32(%rsi), %rax
	cmpq	$9, %rax
	je	.LBB64_125
	cmpq	$6, %rax
	je	.LBB64_117
	cmpq	$2, %rax
	jne	.LBB64_132
	movzbl	(%rdi), %eax
	movzbl	1(%rdi), %edx
	shll	$16, %eax
	movl	%edx, %r8d
	shll	$8, %r8d
	orl	%eax, %r8d
	orl	%edx, %r8d
	cmpl	$2975848, %r8d
	je	.LBB64_118
	jmp	.LBB64_132
.LBB64_91:
	movaps	608(%rsp), %xmm0
	movzbl	624(%rsp), %eax
	movups	2609(%rsp), %xmm1
	movups	2625(%rsp), %xmm2
	movups	2641(%rsp), %xmm3
	movups	2657(%rsp), %xmm4
	movaps	%xmm1, 112(%rsp)
	movaps	%xmm2, 128(%rsp)
	movaps	%xmm3, 144(%rsp)
	movaps	%xmm4, 160(%rsp)
	movq	2672(%rsp), %rcx
	jmp	.LBB64_97
.LBB64_92:
	movl	$3, %eax
.LBB64_194:
	xorl	%edi, %edi
.LBB64_195:
	movb	$1, 208(%rsp)
	movq	%rax, 216(%rsp)
	movq	%rdi, 224(%rsp)
.LBB64_196:
	leaq	208(%rsp), %rcx
.LBB64_197:
	callq	"xetroot_text::program::report::<#03326aa510967ad1>"
	movl	%eax, %ebx
.LBB64_198:
	movzbl	%bl, %eax
	movaps	70112(%rsp), %xmm6
	movaps	70128(%rsp), %xmm7
	movaps	70144(%rsp), %xmm8
	movaps	70160(%rsp), %xmm9
	movaps	70176(%rsp), %xmm10
	movaps	70192(%rsp), %xmm11
	movaps	70208(%rsp), %xmm12
	movaps	70224(%rsp), %xmm13
	movaps	70240(%rsp), %xmm14
	movaps	70256(%rsp), %xmm15
	addq	$70280, %rsp
	popq	%rbx
	popq	%rbp
	popq	%rdi
	popq	%rsi
	popq	%r12
	popq	%r13
	popq	%r14
	popq	%r15
	retq
.LBB64_93:
	movzbl	%r14b, %eax
	testb	%al, %al
	je	.LBB64_195
	cmpl	$2, %eax
	jne	.LBB64_135
	movl	$1, %eax
	jmp	.LBB64_195
.LBB64_96:
	movaps	608(%rsp), %xmm0
	movzbl	624(%rsp), %eax
	movups	625(%rsp), %xmm1
	movaps	%xmm1, 112(%rsp)
	movups	641(%rsp), %xmm1
	movaps	%xmm1, 128(%rsp)
	movups	657(%rsp), %xmm1
	movaps	%xmm1, 144(%rsp)
	movups	673(%rsp), %xmm1
	movaps	%xmm1, 160(%rsp)
	movq	688(%rsp), %rcx
.LBB64_97:
	movq	%rcx, 175(%rsp)
	movaps	112(%rsp), %xmm1
	movaps	128(%rsp), %xmm2
	movaps	144(%rsp), %xmm3
	movdqa	160(%rsp), %xmm4
	movaps	%xmm1, 336(%rsp)
	movaps	%xmm2, 352(%rsp)
	movaps	%xmm3, 368(%rsp)
	movdqa	%xmm4, 384(%rsp)
	movq	175(%rsp), %rcx
	movq	%rcx, 399(%rsp)
	movl	$0, 184(%rsp)
	movb	$0, 188(%rsp)
	movl	$0, 232(%rsp)
	movw	$0, 236(%rsp)
	movaps	%xmm0, 4576(%rsp)
	movb	%al, 4592(%rsp)
	movdqa	336(%rsp), %xmm0
	movdqa	352(%rsp), %xmm1
	movdqa	368(%rsp), %xmm2
	movdqa	384(%rsp), %xmm3
	movdqu	%xmm0, 4593(%rsp)
	movdqu	%xmm1, 4609(%rsp)
	movdqu	%xmm2, 4625(%rsp)
	movdqu	%xmm3, 4641(%rsp)
	movq	399(%rsp), %rax
	movq	%rax, 4656(%rsp)
	leaq	4576(%rsp), %rcx
	callq	"xetroot_text::placed_pairs::PlacedPairs::end_range::<#ca9445b3ca2ffbf0>"
	testb	%al, %al
	jne	.LBB64_187
	movq	4648(%rsp), %rax
	cmpb	$1, 4576(%rsp)
	jne	.LBB64_107
	movq	4584(%rsp), %rcx
	cmpw	$0, (%rcx)
	je	.LBB64_136
	.p2align	4
.LBB64_100:
	movq	(%r13), %rsi
	leaq	848(%rsi), %r13
	cmpw	$0, 2(%rsi)
	jne	.LBB64_100
	cmpq	$0, 8(%rsi)
	jne	.LBB64_137
	cmpq	%rax, 128(%rsi)
	jne	.LBB64_137
	cmpq	$1, 4592(%rsp)
	ja	.LBB64_137
	cmpb	$0, 136(%rsi)
	jne	.LBB64_214
	cmpb	$0, 137(%rsi)
	jne	.LBB64_214
	addq	$136, %rsi
	movb	$1, %r13b
	jmp	.LBB64_140
.LBB64_107:
	testq	%rax, %rax
	jne	.LBB64_138
	jmp	.LBB64_139
.LBB64_108:
	testq	%rdi, %rdi
	je	.LBB64_110
	movq	%rbx, %rcx
	callq	yurewha_heap_dealloc
.LBB64_110:
	movq	608(%rsp), %rdi
	movq	624(%rsp), %rbx
	testq	%rbp, %rbp
	je	.LBB64_115
	leaq	16(%rdi), %rsi
	jmp	.LBB64_113
	.p2align	4
.LBB64_112:
	addq	$24, %rsi
	decq	%rbp
	je	.LBB64_115
.LBB64_113:
	cmpq	$0, (%rsi)
	je	.LBB64_112
	movq	-16(%rsi), %rcx
	callq	yurewha_heap_dealloc
	jmp	.LBB64_112
.LBB64_115:
	movl	$5377, %esi
	testq	%rbx, %rbx
	je	.LBB64_32
.LBB64_116:
	movq	%rdi, %rcx
	jmp	.LBB64_31
.LBB64_117:
	movl	(%rdi), %eax
	movl	2(%rdi), %edx
	shlq	$32, %rdx
	orq	%rax, %rdx
	movabsq	$8100961328785009965, %rax
	cmpq	%rax, %rdx
	jne	.LBB64_132
.LBB64_118:
	testq	%r12, %r12
	je	.LBB64_120
	movq	%rcx, %r15
	movq	%rdi, %rcx
	callq	yurewha_heap_dealloc
	movq	%r15, %rcx
.LBB64_120:
	testq	%rbx, %rbx
	je	.LBB64_122
	callq	yurewha_heap_dealloc
.LBB64_122:
	testq	%r14, %r14
	je	.LBB64_124
	movq	%rsi, %rcx
	callq	yurewha_heap_dealloc
.LBB64_124:
	leaq	static.1(%rip), %rcx
	movl	$754, %edx
	callq	"line_io::devices::write_all::<#df9e9f1468b30f79>"
	leal	(,%rax,4), %ecx
	movzbl	%cl, %ecx
	movb	%al, 304(%rsp)
	movq	%rcx, 312(%rsp)
	movq	$0, 320(%rsp)
	leaq	304(%rsp), %rcx
	jmp	.LBB64_197
.LBB64_125:
	movabsq	$8028074745930329389, %rax
	cmpq	%rax, (%rdi)
	jne	.LBB64_132
	movabsq	$7957695011148363309, %rax
	cmpq	%rax, 1(%rdi)
	jne	.LBB64_132
	testq	%r12, %r12
	je	.LBB64_129
	movq	%rcx, %r15
	movq	%rdi, %rcx
	callq	yurewha_heap_dealloc
	movq	%r15, %rcx
.LBB64_129:
	testq	%rbx, %rbx
	je	.LBB64_131
	callq	yurewha_heap_dealloc
.LBB64_131:
	movq	%rsi, 608(%rsp)
	movq	$0, 616(%rsp)
	movq	%r14, 624(%rsp)
	movq	$2, 632(%rsp)
	movq	$0, 640(%rsp)
	leaq	608(%rsp), %rcx
	callq	"std_alloc::vec::deque::VecDeque::drop::<#f88921834ea0b950>"
	leaq	static.2(%rip), %rcx
	movl	$52, %edx
	callq	"line_io::devices::write_all::<#df9e9f1468b30f79>"
	leal	(,%rax,4), %ecx
	movzbl	%cl, %ecx
	movb	%al, 272(%rsp)
	movq	%rcx, 280(%rsp)
	movq	$0, 288(%rsp)
	leaq	272(%rsp), %rcx
	jmp	.LBB64_197
.LBB64_132:
	testq	%rbx, %rbx
	je	.LBB64_134
	callq	yurewha_heap_dealloc
.LBB64_134:
	movl	$2, %r13d
	xorl	%ebp, %ebp
	jmp	.LBB64_57
.LBB64_135:
	movl	$5, %eax
	jmp	.LBB64_195
.LBB64_136:
	testq	%rax, %rax
	je	.LBB64_139
.LBB64_137:
	callq	"std_collections::btree::node::Node::destroy::<#e27c17be7fe85c1a>"
.LBB64_138:
	movl	$1, %esi
	jmp	.LBB64_190
.LBB64_139:
	xorl	%r13d, %r13d
	xorl	%esi, %esi
.LBB64_140:
	pxor	%xmm0, %xmm0
	movdqa	%xmm0, 608(%rsp)
	movdqa	%xmm0, 624(%rsp)
	movdqa	%xmm0, 640(%rsp)
	movdqa	%xmm0, 2592(%rsp)
	movdqa	%xmm0, 2608(%rsp)
	movdqa	%xmm0, 2624(%rsp)
	movb	$0, 32(%rsp)
	leaq	608(%rsp), %rcx
	leaq	56(%rsp), %r8
	movb	$1, %dl
	xorl	%r9d, %r9d
	callq	"xet_merkle::merkle_hash_subtree::subtree::as_range::MerkleHashSubtreeChunkRange::from_chunks::<#d96a70c1b70ca186>"
	cmpb	$0, 608(%rsp)
	je	.LBB64_142
	movzbl	609(%rsp), %ebx
	jmp	.LBB64_186
.LBB64_142:
	movq	648(%rsp), %rax
	movq	%rax, 144(%rsp)
	movdqu	616(%rsp), %xmm0
	movdqu	632(%rsp), %xmm1
	movdqa	%xmm1, 128(%rsp)
	movdqa	%xmm0, 112(%rsp)
	testb	%r13b, %r13b
	je	.LBB64_151
	pxor	%xmm0, %xmm0
	movdqa	%xmm0, 80(%rsp)
	movdqa	%xmm0, 64(%rsp)
	xorl	%edi, %edi
	leaq	64(%rsp), %rcx
	leaq	112(%rsp), %rdx
	movq	%rsi, %r8
	xorl	%r9d, %r9d
	callq	"xet_merkle::merkle_hash_subtree::subtree::MerkleHashSubtree::merge_with::<#3cf6a99334775a21>"
	cmpb	$0, 64(%rsp)
	movzbl	65(%rsp), %ebx
	cmovel	%edi, %ebx
	je	.LBB64_151
	movq	120(%rsp), %rsi
	movq	128(%rsp), %r15
	movq	136(%rsp), %r14
	testq	%r15, %r15
	je	.LBB64_184
	leaq	48(%rsi), %r12
	jmp	.LBB64_147
.LBB64_146:
	addq	$56, %r12
	decq	%r15
	je	.LBB64_184
.LBB64_147:
	movq	-16(%r12), %rdi
	movq	(%r12), %r13
	cmpq	$0, -32(%r12)
	je	.LBB64_149
	movq	-48(%r12), %rcx
	callq	yurewha_heap_dealloc
.LBB64_149:
	testq	%r13, %r13
	je	.LBB64_146
	movq	%rdi, %rcx
	callq	yurewha_heap_dealloc
	jmp	.LBB64_146
.LBB64_151:
	movb	$1, 32(%rsp)
	xorl	%esi, %esi
	leaq	2592(%rsp), %rcx
	leaq	56(%rsp), %r8
	xorl	%edx, %edx
	xorl	%r9d, %r9d
	callq	"xet_merkle::merkle_hash_subtree::subtree::as_range::MerkleHashSubtreeChunkRange::from_chunks::<#d96a70c1b70ca186>"
	cmpb	$0, 2592(%rsp)
	je	.LBB64_159
	movzbl	2593(%rsp), %ebx
	movq	120(%rsp), %rsi
	movq	128(%rsp), %r15
	movq	136(%rsp), %r14
	testq	%r15, %r15
	je	.LBB64_184
	leaq	48(%rsi), %r12
	jmp	.LBB64_155
.LBB64_154:
	addq	$56, %r12
	decq	%r15
	je	.LBB64_184
.LBB64_155:
	movq	-16(%r12), %rdi
	movq	(%r12), %r13
	cmpq	$0, -32(%r12)
	je	.LBB64_157
	movq	-48(%r12), %rcx
	callq	yurewha_heap_dealloc
.LBB64_157:
	testq	%r13, %r13
	je	.LBB64_154
	movq	%rdi, %rcx
	callq	yurewha_heap_dealloc
	jmp	.LBB64_154
.LBB64_159:
	leaq	2600(%rsp), %r15
	movq	2608(%rsp), %rdi
	movq	2616(%rsp), %r12
	movq	2624(%rsp), %r14
	pxor	%xmm0, %xmm0
	movdqa	%xmm0, 80(%rsp)
	movdqa	%xmm0, 64(%rsp)
	leaq	64(%rsp), %rcx
	leaq	112(%rsp), %rdx
	movq	%r15, %r8
	xorl	%r9d, %r9d
	callq	"xet_merkle::merkle_hash_subtree::subtree::MerkleHashSubtree::merge_with::<#3cf6a99334775a21>"
	cmpb	$0, 64(%rsp)
	movzbl	65(%rsp), %ebx
	cmovel	%esi, %ebx
	je	.LBB64_199
	testq	%r12, %r12
	je	.LBB64_175
	leaq	48(%rdi), %r15
	jmp	.LBB64_163
.LBB64_162:
	addq	$56, %r15
	decq	%r12
	je	.LBB64_175
.LBB64_163:
	movq	-16(%r15), %rsi
	movq	(%r15), %r13
	cmpq	$0, -32(%r15)
	je	.LBB64_165
	movq	-48(%r15), %rcx
	callq	yurewha_heap_dealloc
.LBB64_165:
	testq	%r13, %r13
	je	.LBB64_162
	movq	%rsi, %rcx
	callq	yurewha_heap_dealloc
	jmp	.LBB64_162
.LBB64_167:
	testq	%rdi, %rdi
	je	.LBB64_169
	movq	%rbx, %rcx
	callq	yurewha_heap_dealloc
.LBB64_169:
	movq	608(%rsp), %rdi
	movq	616(%rsp), %rsi
	movq	624(%rsp), %rbx
	testq	%rsi, %rsi
	je	.LBB64_174
	leaq	16(%rdi), %r14
	jmp	.LBB64_172
.LBB64_171:
	addq	$24, %r14
	decq	%rsi
	je	.LBB64_174
.LBB64_172:
	cmpq	$0, (%r14)
	je	.LBB64_171
	movq	-16(%r14), %rcx
	callq	yurewha_heap_dealloc
	jmp	.LBB64_171
.LBB64_174:
	movl	$9729, %esi
	testq	%rbx, %rbx
	jne	.LBB64_116
	jmp	.LBB64_32
.LBB64_175:
	testq	%r14, %r14
	je	.LBB64_177
	movq	%rdi, %rcx
	callq	yurewha_heap_dealloc
.LBB64_177:
	movq	120(%rsp), %rsi
	movq	128(%rsp), %r15
	movq	136(%rsp), %r14
	testq	%r15, %r15
	je	.LBB64_184
	leaq	48(%rsi), %r12
	jmp	.LBB64_180
.LBB64_179:
	addq	$56, %r12
	decq	%r15
	je	.LBB64_184
.LBB64_180:
	movq	-16(%r12), %rdi
	movq	(%r12), %r13
	cmpq	$0, -32(%r12)
	je	.LBB64_182
	movq	-48(%r12), %rcx
	callq	yurewha_heap_dealloc
.LBB64_182:
	testq	%r13, %r13
	je	.LBB64_179
	movq	%rdi, %rcx
	callq	yurewha_heap_dealloc
	jmp	.LBB64_179
.LBB64_184:
	testq	%r14, %r14
	je	.LBB64_186
	movq	%rsi, %rcx
	callq	yurewha_heap_dealloc
.LBB64_186:
	cmpb	$2, %bl
	jne	.LBB64_214
.LBB64_187:
	cmpb	$1, 4576(%rsp)
	jne	.LBB64_189
	movq	4584(%rsp), %rcx
	callq	"std_collections::btree::node::Node::destroy::<#e27c17be7fe85c1a>"
.LBB64_189:
	movl	$257, %esi
.LBB64_190:
	cmpq	$0, 4624(%rsp)
	je	.LBB64_192
	movq	4608(%rsp), %rcx
	callq	yurewha_heap_dealloc
.LBB64_192:
	xorl	%r14d, %r14d
	xorl	%edi, %edi
	xorl	%ebx, %ebx
	cmpb	$2, %sil
	jne	.LBB64_81
	jmp	.LBB64_193
.LBB64_199:
	cmpb	$1, 112(%rsp)
	jne	.LBB64_214
	cmpb	$0, 113(%rsp)
	je	.LBB64_214
	movq	128(%rsp), %rax
	testq	%rax, %rax
	je	.LBB64_214
	movq	120(%rsp), %rcx
	imulq	$56, %rax, %rax
	movq	-32(%rcx,%rax), %rdx
	cmpq	%rdx, -48(%rcx,%rax)
	jne	.LBB64_204
	xorl	%r14d, %r14d
	xorl	%r12d, %r12d
	xorl	%ebp, %ebp
	xorl	%esi, %esi
	jmp	.LBB64_205
.LBB64_204:
	movq	-56(%rcx,%rax), %rax
	leaq	(%rdx,%rdx,4), %rcx
	movq	(%rax,%rcx,8), %r14
	movq	8(%rax,%rcx,8), %r12
	movq	16(%rax,%rcx,8), %rbp
	movq	24(%rax,%rcx,8), %rsi
.LBB64_205:
	movq	%r15, %rcx
	callq	"xetroot::xet_merkle++merkle_hash_subtree++subtree++MerkleHashSubtree+Destruct::drop::<#024afdc31600bcbd>"
	leaq	112(%rsp), %rcx
	callq	"xetroot::xet_merkle++merkle_hash_subtree++subtree++MerkleHashSubtree+Destruct::drop::<#024afdc31600bcbd>"
	movq	%r14, %r15
	movq	%r12, %rbx
	movq	%rbp, %rdi
	movq	%rsi, %rax
	testb	%r13b, %r13b
	je	.LBB64_206
	pxor	%xmm0, %xmm0
	movdqu	%xmm0, 656(%rsp)
	movdqu	%xmm0, 640(%rsp)
	movq	%r14, 608(%rsp)
	movq	%r12, 616(%rsp)
	movq	%rbp, 624(%rsp)
	movq	%rsi, 632(%rsp)
	movdqa	%xmm0, 576(%rsp)
	movdqa	%xmm0, 592(%rsp)
	movl	$27, 48(%rsp)
	movl	$32, 40(%rsp)
	movq	$0, 32(%rsp)
	leaq	2592(%rsp), %rcx
	leaq	592(%rsp), %rdx
	leaq	576(%rsp), %r8
	leaq	608(%rsp), %r9
	callq	yurewha_stub_of_compress
	movq	2592(%rsp), %r15
	movq	2600(%rsp), %rbx
	movq	2608(%rsp), %rdi
	movq	2616(%rsp), %rax
	cmpb	$1, 4576(%rsp)
	je	.LBB64_212
.LBB64_207:
	cmpq	$0, 4624(%rsp)
	je	.LBB64_209
.LBB64_208:
	movq	4608(%rsp), %rcx
	movq	%rax, %r13
	callq	yurewha_heap_dealloc
	movq	%r13, %rax
.LBB64_209:
	bswapq	%rax
	bswapq	%rdi
	bswapq	%rbx
	bswapq	%r15
	bswapq	%rsi
	movq	%rsi, %xmm5
	movdqa	.LCPI64_2(%rip), %xmm0
	movdqa	%xmm5, %xmm1
	pmaxub	%xmm0, %xmm1
	pcmpeqb	%xmm5, %xmm1
	movdqa	%xmm5, %xmm4
	psrlw	$4, %xmm4
	movdqa	.LCPI64_3(%rip), %xmm7
	pand	%xmm7, %xmm4
	movdqa	.LCPI64_4(%rip), %xmm2
	movdqa	%xmm4, %xmm6
	por	%xmm2, %xmm6
	movdqa	.LCPI64_5(%rip), %xmm3
	paddb	%xmm3, %xmm4
	pand	%xmm1, %xmm4
	pandn	%xmm6, %xmm1
	por	%xmm4, %xmm1
	movdqa	.LCPI64_6(%rip), %xmm6
	pand	%xmm6, %xmm5
	movdqa	.LCPI64_7(%rip), %xmm4
	movdqa	%xmm4, %xmm8
	pcmpgtb	%xmm5, %xmm8
	movdqa	%xmm5, %xmm9
	por	%xmm2, %xmm9
	paddb	%xmm3, %xmm5
	pand	%xmm8, %xmm9
	pandn	%xmm5, %xmm8
	por	%xmm9, %xmm8
	punpcklbw	%xmm8, %xmm1
	bswapq	%rbp
	movq	%rbp, %xmm8
	movdqa	%xmm8, %xmm5
	pmaxub	%xmm0, %xmm5
	pcmpeqb	%xmm8, %xmm5
	movdqa	%xmm8, %xmm9
	psrlw	$4, %xmm9
	pand	%xmm7, %xmm9
	movdqa	%xmm9, %xmm10
	por	%xmm2, %xmm10
	paddb	%xmm3, %xmm9
	pand	%xmm5, %xmm9
	pandn	%xmm10, %xmm5
	por	%xmm9, %xmm5
	pand	%xmm6, %xmm8
	movdqa	%xmm4, %xmm9
	pcmpgtb	%xmm8, %xmm9
	movdqa	%xmm8, %xmm10
	por	%xmm2, %xmm10
	paddb	%xmm3, %xmm8
	pand	%xmm9, %xmm10
	pandn	%xmm8, %xmm9
	por	%xmm10, %xmm9
	punpcklbw	%xmm9, %xmm5
	bswapq	%r12
	movq	%r12, %xmm9
	movdqa	%xmm9, %xmm8
	pmaxub	%xmm0, %xmm8
	pcmpeqb	%xmm9, %xmm8
	movdqa	%xmm9, %xmm10
	psrlw	$4, %xmm10
	pand	%xmm7, %xmm10
	movdqa	%xmm10, %xmm11
	por	%xmm2, %xmm11
	paddb	%xmm3, %xmm10
	pand	%xmm8, %xmm10
	pandn	%xmm11, %xmm8
	por	%xmm10, %xmm8
	pand	%xmm6, %xmm9
	movdqa	%xmm4, %xmm10
	pcmpgtb	%xmm9, %xmm10
	movdqa	%xmm9, %xmm11
	por	%xmm2, %xmm11
	paddb	%xmm3, %xmm9
	pand	%xmm10, %xmm11
	pandn	%xmm9, %xmm10
	por	%xmm11, %xmm10
	bswapq	%r14
	punpcklbw	%xmm10, %xmm8
	movq	%r14, %xmm10
	movdqa	%xmm10, %xmm9
	pmaxub	%xmm0, %xmm9
	pcmpeqb	%xmm10, %xmm9
	movdqa	%xmm10, %xmm11
	psrlw	$4, %xmm11
	pand	%xmm7, %xmm11
	movdqa	%xmm11, %xmm12
	por	%xmm2, %xmm12
	paddb	%xmm3, %xmm11
	pand	%xmm9, %xmm11
	pandn	%xmm12, %xmm9
	por	%xmm11, %xmm9
	pand	%xmm6, %xmm10
	movdqa	%xmm4, %xmm11
	pcmpgtb	%xmm10, %xmm11
	movdqa	%xmm10, %xmm12
	por	%xmm2, %xmm12
	paddb	%xmm3, %xmm10
	pand	%xmm11, %xmm12
	pandn	%xmm10, %xmm11
	por	%xmm12, %xmm11
	punpcklbw	%xmm11, %xmm9
	movq	%r15, %xmm11
	movdqa	%xmm11, %xmm12
	psrlw	$4, %xmm12
	pand	%xmm7, %xmm12
	movdqa	%xmm11, %xmm10
	pmaxub	%xmm0, %xmm10
	pcmpeqb	%xmm11, %xmm10
	movdqa	%xmm12, %xmm13
	por	%xmm2, %xmm13
	paddb	%xmm3, %xmm12
	pand	%xmm10, %xmm12
	pandn	%xmm13, %xmm10
	por	%xmm12, %xmm10
	pand	%xmm6, %xmm11
	movdqa	%xmm4, %xmm12
	pcmpgtb	%xmm11, %xmm12
	movdqa	%xmm11, %xmm13
	por	%xmm2, %xmm13
	paddb	%xmm3, %xmm11
	pand	%xmm12, %xmm13
	pandn	%xmm11, %xmm12
	por	%xmm13, %xmm12
	punpcklbw	%xmm12, %xmm10
	movq	%rbx, %xmm12
	movdqa	%xmm12, %xmm13
	psrlw	$4, %xmm13
	pand	%xmm7, %xmm13
	movdqa	%xmm12, %xmm11
	pmaxub	%xmm0, %xmm11
	pcmpeqb	%xmm12, %xmm11
	movdqa	%xmm13, %xmm14
	por	%xmm2, %xmm14
	paddb	%xmm3, %xmm13
	pand	%xmm11, %xmm13
	pandn	%xmm14, %xmm11
	por	%xmm13, %xmm11
	pand	%xmm6, %xmm12
	movdqa	%xmm4, %xmm13
	pcmpgtb	%xmm12, %xmm13
	movdqa	%xmm12, %xmm14
	por	%xmm2, %xmm14
	paddb	%xmm3, %xmm12
	pand	%xmm13, %xmm14
	pandn	%xmm12, %xmm13
	por	%xmm14, %xmm13
	punpcklbw	%xmm13, %xmm11
	movq	%rdi, %xmm13
	movdqa	%xmm13, %xmm14
	psrlw	$4, %xmm14
	pand	%xmm7, %xmm14
	movdqa	%xmm13, %xmm12
	pmaxub	%xmm0, %xmm12
	pcmpeqb	%xmm13, %xmm12
	movdqa	%xmm14, %xmm15
	por	%xmm2, %xmm15
	paddb	%xmm3, %xmm14
	pand	%xmm12, %xmm14
	pandn	%xmm15, %xmm12
	por	%xmm14, %xmm12
	pand	%xmm6, %xmm13
	movdqa	%xmm4, %xmm14
	pcmpgtb	%xmm13, %xmm14
	movdqa	%xmm13, %xmm15
	por	%xmm2, %xmm15
	paddb	%xmm3, %xmm13
	pand	%xmm14, %xmm15
	pandn	%xmm13, %xmm14
	por	%xmm15, %xmm14
	punpcklbw	%xmm14, %xmm12
	movq	%rax, %xmm13
	movdqa	%xmm13, %xmm14
	psrlw	$4, %xmm14
	pand	%xmm7, %xmm14
	pmaxub	%xmm13, %xmm0
	pcmpeqb	%xmm13, %xmm0
	movdqa	%xmm14, %xmm7
	por	%xmm2, %xmm7
	paddb	%xmm3, %xmm14
	pand	%xmm0, %xmm14
	pandn	%xmm7, %xmm0
	por	%xmm14, %xmm0
	pand	%xmm6, %xmm13
	pcmpgtb	%xmm13, %xmm4
	por	%xmm13, %xmm2
	paddb	%xmm3, %xmm13
	pand	%xmm4, %xmm2
	pandn	%xmm13, %xmm4
	por	%xmm2, %xmm4
	punpcklbw	%xmm4, %xmm0
	movl	$1651666808, 198(%rsp)
	movb	$32, 202(%rsp)
	movl	$1818846730, 96(%rsp)
	movw	$8293, 100(%rsp)
	movl	$1651666808, 416(%rsp)
	movb	$32, 420(%rsp)
	movdqu	%xmm9, 421(%rsp)
	movdqu	%xmm8, 437(%rsp)
	movdqu	%xmm5, 453(%rsp)
	movdqu	%xmm1, 469(%rsp)
	movl	$1818846730, 485(%rsp)
	movw	$8293, 489(%rsp)
	movdqu	%xmm10, 491(%rsp)
	movdqu	%xmm11, 507(%rsp)
	movdqu	%xmm12, 523(%rsp)
	movdqu	%xmm0, 539(%rsp)
	movb	$10, 555(%rsp)
	movl	$0, 556(%rsp)
	movq	$140, 560(%rsp)
	leaq	416(%rsp), %rcx
	movl	$140, %edx
	callq	"line_io::devices::write_all::<#df9e9f1468b30f79>"
	testb	%al, %al
	je	.LBB64_213
	addb	%al, %al
	movzbl	%al, %esi
	jmp	.LBB64_192
.LBB64_206:
	cmpb	$1, 4576(%rsp)
	jne	.LBB64_207
.LBB64_212:
	movq	4584(%rsp), %rcx
	movq	%rax, %r13
	callq	"std_collections::btree::node::Node::destroy::<#e27c17be7fe85c1a>"
	movq	%r13, %rax
	cmpq	$0, 4624(%rsp)
	jne	.LBB64_208
	jmp	.LBB64_209
.LBB64_213:
	movb	$0, 208(%rsp)
	pxor	%xmm0, %xmm0
	movdqu	%xmm0, 216(%rsp)
	jmp	.LBB64_196
.LBB64_214:
	ud2
	.seh_endproc

	.section	.text
	.p2align	4
	.def	in_registers_of_rattle_alloc;
	.scl	3;
	.type	32;
	.endef
in_registers_of_rattle_alloc:
.seh_proc in_registers_of_rattle_alloc
	subq	$56, %rsp
	.seh_stackalloc 56
	.seh_endprologue
	movq	%rdx, %r8
	movq	%rcx, %rdx
	leaq	40(%rsp), %rcx
	callq	yurewha_heap_alloc
	movq	40(%rsp), %rax
	movq	48(%rsp), %rdx
	addq	$56, %rsp
	retq
	.seh_endproc

	.section	.text
	.p2align	4
	.def	in_registers_of_rattle_realloc;
	.scl	3;
	.type	32;
	.endef
in_registers_of_rattle_realloc:
.seh_proc in_registers_of_rattle_realloc
	subq	$56, %rsp
	.seh_stackalloc 56
	.seh_endprologue
	movq	%r8, %rax
	movq	%rdx, %r8
	movq	%rcx, %rdx
	movq	%r9, 32(%rsp)
	leaq	40(%rsp), %rcx
	movq	%rax, %r9
	callq	yurewha_heap_realloc
	movq	40(%rsp), %rax
	movq	48(%rsp), %rdx
	addq	$56, %rsp
	retq
	.seh_endproc

	.section	.rdata,"dr"
static.1:
	.ascii	"Usage: xetroot\n\nThe root and the file hash of the pairs and chunks in the lines of standard input,\nas `xorb <hex>` and `file <hex>` on standard output. A line is\n\n  <64 hex digits> <size>    a pair\n  +<bytes>                  a chunk, whose pair is its hash and its size\n  @<position>               the position of the next pair\n  --                        the end of a range, which changes nothing\n\nA fault goes to standard error with its number, which is the exit status: 1 a bad\nline, 2 sizes that pass 2^64 - 1, 3 out of memory, 4 a failed read, 5 a failed write,\n6 a position that is taken, 7 a gap. The status is 64 after a wrong argument.\n\n  -h, --help    prints this text\n  --version     prints the versions of xetroot and of xet-core-structures\n"

	.section	.rdata,"dr"
static.2:
	.ascii	"xetroot 1.1.0 (hashes of xet-core-structures 1.5.2)\n"

	.section	.rdata,"dr"
static.3:
	.ascii	"xetroot: expected no argument, --help or --version"

	.section	.rdata,"dr"
static.14:
	.byte	10

	.section	.rdata,"dr"
	.p2align	1, 0x0
static.15:
	.ascii	"00010203040506070809101112131415161718192021222324252627282930313233343536373839404142434445464748495051525354555657585960616263646566676869707172737475767778798081828384858687888990919293949596979899"

	.section	.rdata,"dr"
static.16:
	.ascii	"\001~\305\307\245G)\226\375\224ff\264\212\002\346]\335So7\307m\322\370cR\346JSq?"

	.section	.rdata,"dr"
static.19:
	.ascii	"f\227\365w[\225P\33615\313\254\245\227\030\034\235\344!\020\233\353+X\264\320\260K\223\255\362)"

	.section	.rdata,"dr"
static.24:
	.ascii	"xetroot: fault "

	.section	.rdata,"dr"
static.25:
	.ascii	" at line "

	.section	.text
	.p2align	4
yurewha_stub_of_keyed_hash:
	movq	yurewha_kernels(%rip), %r11
	jmpq	*0(%r11)

	.section	.text
	.p2align	4
yurewha_stub_of_compress:
	movq	yurewha_kernels(%rip), %r11
	jmpq	*8(%r11)

	.section	.text
	.p2align	4
yurewha_stub_of_update:
	movq	yurewha_kernels(%rip), %r11
	jmpq	*16(%r11)

	.section	.text
	.p2align	4
yurewha_stub_of_finalize:
	movq	yurewha_kernels(%rip), %r11
	jmpq	*24(%r11)

	.section	.text
	.p2align	4
yurewha_stub_of_two_parent_hashes:
	movq	yurewha_kernels(%rip), %r11
	jmpq	*32(%r11)

	.section	.text
	.p2align	4
yurewha_stub_of_parent_hashes:
	movq	yurewha_kernels(%rip), %r11
	jmpq	*40(%r11)

	.section	.text
	.p2align	4
yurewha_stub_of_write_text:
	movq	yurewha_kernels(%rip), %r11
	jmpq	*48(%r11)

