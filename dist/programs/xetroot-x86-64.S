/* Yurewha 1.1.0 for x86-64: the proved program xetroot, as the toolchain compiles it. Made by dist/make, not by hand.
   The sum of its sources: 9185823a781027cd98182078e1d539d530be4d65c5a122c359852dba8528b11c */
#include "../assembly.h"
#ifdef __x86_64__
CODE(".text.unlikely.std_alloc::vec::Vec::grow_amortized::<#bc82ad78765e08fe>")
	.p2align	4
	TYPE("std_alloc::vec::Vec::grow_amortized::<#bc82ad78765e08fe>", function)
"std_alloc::vec::Vec::grow_amortized::<#bc82ad78765e08fe>":
	.cfi_startproc
	movq	%rsi, %rax
	movq	8(%rdi), %rsi
	addq	%rsi, %rax
	jae	L(0_2)
	xorl	%eax, %eax
	retq
L(0_2):
	pushq	%r14
	.cfi_def_cfa_offset 16
	pushq	%rbx
	.cfi_def_cfa_offset 24
	pushq	%rax
	.cfi_def_cfa_offset 32
	.cfi_offset %rbx, -24
	.cfi_offset %r14, -16
	cmpq	$9, %rax
	movl	$8, %ebx
	cmovaeq	%rax, %rbx
	movq	16(%rdi), %rcx
	movq	%rcx, %rdx
	shrq	$62, %rdx
	leaq	(%rcx,%rcx), %rax
	cmpq	%rax, %rbx
	cmovaq	%rbx, %rax
	testq	%rdx, %rdx
	cmoveq	%rax, %rbx
	testq	%rbx, %rbx
	js	L(0_6)
	testq	%rcx, %rcx
	je	L(0_8)
	movq	%rdi, %r14
	movq	(%rdi), %rdi
	movl	$1, %ecx
	movq	%rbx, %rdx
	callq	PLT(yurewha_heap_realloc)
	testb	$1, %al
	je	L(0_6)
L(0_9):
	movq	%rdx, (%r14)
	movq	%rbx, 16(%r14)
	movb	$1, %al
	addq	$8, %rsp
	.cfi_def_cfa_offset 24
	popq	%rbx
	.cfi_def_cfa_offset 16
	popq	%r14
	.cfi_def_cfa_offset 8
	.cfi_restore %rbx
	.cfi_restore %r14
	retq
L(0_8):
	.cfi_def_cfa_offset 32
	.cfi_offset %rbx, -24
	.cfi_offset %r14, -16
	movq	%rdi, %r14
	movl	$1, %esi
	movq	%rax, %rdi
	callq	PLT(yurewha_heap_alloc)
	testb	$1, %al
	jne	L(0_9)
L(0_6):
	xorl	%eax, %eax
	addq	$8, %rsp
	.cfi_def_cfa_offset 24
	popq	%rbx
	.cfi_def_cfa_offset 16
	popq	%r14
	.cfi_def_cfa_offset 8
	.cfi_restore %rbx
	.cfi_restore %r14
	retq
	SIZE("std_alloc::vec::Vec::grow_amortized::<#bc82ad78765e08fe>")
	.cfi_endproc

CODE(".text.core::str::utf8::from_utf8")
	.p2align	4
	TYPE("core::str::utf8::from_utf8", function)
"core::str::utf8::from_utf8":
	.cfi_startproc
	pushq	%r15
	.cfi_def_cfa_offset 16
	pushq	%r14
	.cfi_def_cfa_offset 24
	pushq	%r13
	.cfi_def_cfa_offset 32
	pushq	%r12
	.cfi_def_cfa_offset 40
	pushq	%rbx
	.cfi_def_cfa_offset 48
	subq	$16, %rsp
	.cfi_def_cfa_offset 64
	.cfi_offset %rbx, -48
	.cfi_offset %r12, -40
	.cfi_offset %r13, -32
	.cfi_offset %r14, -24
	.cfi_offset %r15, -16
	movq	%rdx, %r15
	movq	%rsi, %r14
	movq	%rdi, %rbx
	testq	%rdx, %rdx
	je	L(1_57)
	movabsq	$-9187201950435737472, %r12
	leaq	-8(%r15), %r13
	xorl	%ecx, %ecx
	jmp	L(1_5)
L(1_25):
	movl	$1, %edi
L(1_3):
	addq	%rcx, %rdi
L(1_4):
	movq	%rdi, %rcx
	cmpq	%r15, %rdi
	jae	L(1_57)
L(1_5):
	movzbl	(%r14,%rcx), %esi
	testb	%sil, %sil
	sets	%dl
	movq	%r15, %rax
	subq	%rcx, %rax
	cmpq	$2, %rax
	setb	%dil
	orb	%dl, %dil
	jne	L(1_2)
	cmpb	$0, 1(%r14,%rcx)
	js	L(1_25)
	movq	%r14, (%rsp)
	movq	%r15, 8(%rsp)
	cmpq	$7, %rax
	ja	L(1_26)
	cmpb	$0, (%r14,%rcx)
	js	L(1_36)
	leaq	1(%rcx), %rdi
	cmpq	%r15, %rdi
	je	L(1_57)
	cmpb	$0, (%r14,%rdi)
	js	L(1_4)
	leaq	2(%rcx), %rdi
	cmpq	%r15, %rdi
	je	L(1_57)
	cmpb	$0, (%r14,%rdi)
	js	L(1_4)
	leaq	3(%rcx), %rdi
	cmpq	%r15, %rdi
	je	L(1_57)
	cmpb	$0, (%r14,%rdi)
	js	L(1_4)
	leaq	4(%rcx), %rdi
	cmpq	%r15, %rdi
	je	L(1_57)
	cmpb	$0, (%r14,%rdi)
	js	L(1_4)
	leaq	5(%rcx), %rdi
	cmpq	%r15, %rdi
	je	L(1_57)
	cmpb	$0, (%r14,%rdi)
	js	L(1_4)
	addq	$6, %rcx
	cmpq	%r15, %rcx
	je	L(1_57)
	cmpb	$0, (%r14,%rcx)
	movq	%rcx, %rdi
	js	L(1_4)
	jmp	L(1_57)
	.p2align	4
L(1_2):
	movl	$1, %edi
	testb	%sil, %sil
	jns	L(1_3)
	movl	$257, %edx
	cmpb	$-62, %sil
	jb	L(1_66)
	cmpb	$-33, %sil
	ja	L(1_29)
	cmpq	$2, %rax
	jb	L(1_58)
	movzbl	1(%r14,%rcx), %r8d
	movl	$2, %edi
	cmpb	$-65, %r8b
	jle	L(1_3)
	jmp	L(1_60)
L(1_26):
	movq	(%r14,%rcx), %rax
	andq	%r12, %rax
	je	L(1_37)
	rep		bsfq	%rax, %rax
	shrl	$3, %eax
	addq	%rcx, %rax
	addq	$8, %rcx
	movq	%rax, %rdi
	cmpq	%rcx, %rax
	jb	L(1_4)
	movq	%r15, %rcx
	subq	%rax, %rcx
	cmpq	$32, %rcx
	jae	L(1_38)
	jmp	L(1_40)
L(1_29):
	cmpb	$-17, %sil
	ja	L(1_48)
	cmpq	$3, %rax
	jb	L(1_55)
	movzbl	1(%r14,%rcx), %r8d
	cmpb	$-65, %r8b
	jg	L(1_60)
	cmpb	$-65, 2(%r14,%rcx)
	jg	L(1_60)
	movzbl	%r8b, %edi
	movl	%esi, %r9d
	shll	$6, %r9d
	addl	%edi, %r9d
	addl	$-14464, %r9d
	cmpl	$32, %r9d
	jb	L(1_60)
	xorl	%r8d, %r8d
	cmpl	$896, %r9d
	setae	%r10b
	movl	$3, %edi
	cmpl	$864, %r9d
	jb	L(1_3)
	movb	%r10b, %r8b
	leaq	(%r8,%r8,2), %rdi
	testq	%rdi, %rdi
	jne	L(1_3)
	jmp	L(1_54)
L(1_36):
	movq	%rcx, %rdi
	jmp	L(1_4)
L(1_37):
	addq	$8, %rcx
	movq	%rcx, %rax
	movq	%r15, %rcx
	subq	%rax, %rcx
	cmpq	$32, %rcx
	jb	L(1_40)
	.p2align	4
L(1_38):
	movdqu	(%r14,%rax), %xmm0
	movdqu	16(%r14,%rax), %xmm1
	por	%xmm0, %xmm1
	pshufd	$238, %xmm1, %xmm0
	por	%xmm1, %xmm0
	movq	%xmm0, %rcx
	testq	%r12, %rcx
	jne	L(1_40)
	addq	$32, %rax
	movq	%rsp, %rdi
	movq	%rax, %rsi
	movq	%r15, %rdx
	callq	"core::slice::words::skip_far::<#52f9edcae2f82f51>"
	movq	%r15, %rcx
	subq	%rax, %rcx
	cmpq	$31, %rcx
	ja	L(1_38)
L(1_40):
	movq	%r15, %rcx
	subq	%rax, %rcx
	jmp	L(1_43)
	.p2align	4
L(1_41):
	rep		bsfq	%rdx, %rdi
	shrl	$3, %edi
	addq	%rax, %rdi
	addq	$8, %rax
	addq	$-8, %rcx
	cmpq	%rax, %rdi
	jb	L(1_4)
L(1_43):
	cmpq	$9, %rcx
	jb	L(1_46)
	movq	(%r14,%rax), %rdx
	andq	%r12, %rdx
	jne	L(1_41)
	leaq	8(%rax), %rdi
	addq	$8, %rax
	addq	$-8, %rcx
	cmpq	%rax, %rdi
	jae	L(1_43)
	jmp	L(1_4)
L(1_46):
	movq	(%r14,%r13), %rax
	andq	%r12, %rax
	je	L(1_57)
	rep		bsfq	%rax, %rdi
	shrl	$3, %edi
	addq	%r13, %rdi
	jmp	L(1_4)
L(1_48):
	cmpq	$4, %rax
	jb	L(1_54)
	movzbl	1(%r14,%rcx), %edi
	cmpb	$-65, %dil
	jg	L(1_54)
	cmpb	$-65, 2(%r14,%rcx)
	jg	L(1_54)
	cmpb	$-65, 3(%r14,%rcx)
	jg	L(1_54)
	movl	%esi, %r8d
	shll	$6, %r8d
	leal	(%r8,%rdi), %r9d
	addl	$-15488, %r9d
	xorl	%edi, %edi
	cmpl	$272, %r9d
	setb	%r8b
	cmpl	$16, %r9d
	jb	L(1_54)
	movb	%r8b, %dil
	shll	$2, %edi
	testq	%rdi, %rdi
	jne	L(1_3)
L(1_54):
	cmpb	$-12, %sil
	ja	L(1_66)
L(1_55):
	cmpq	$2, %rax
	jb	L(1_58)
	movzbl	1(%r14,%rcx), %r8d
L(1_60):
	cmpl	$240, %esi
	sete	%dil
	shlb	$4, %dil
	orb	$-128, %dil
	cmpl	$224, %esi
	movzbl	%dil, %edi
	movl	$160, %r9d
	cmovnel	%edi, %r9d
	cmpl	$244, %esi
	movl	$143, %edi
	movl	$191, %r10d
	cmovel	%edi, %r10d
	cmpl	$237, %esi
	movl	$159, %esi
	cmovnel	%r10d, %esi
	cmpb	%r8b, %r9b
	ja	L(1_66)
	cmpb	%sil, %r8b
	ja	L(1_66)
	cmpq	$2, %rax
	jne	L(1_64)
L(1_58):
	xorl	%edx, %edx
L(1_66):
	movq	$1, (%rbx)
	movq	%rcx, 8(%rbx)
	movq	%rdx, 16(%rbx)
	jmp	L(1_67)
L(1_57):
	movq	$0, (%rbx)
	movq	%r14, 8(%rbx)
	movq	%r15, 16(%rbx)
L(1_67):
	addq	$16, %rsp
	.cfi_def_cfa_offset 48
	popq	%rbx
	.cfi_def_cfa_offset 40
	popq	%r12
	.cfi_def_cfa_offset 32
	popq	%r13
	.cfi_def_cfa_offset 24
	popq	%r14
	.cfi_def_cfa_offset 16
	popq	%r15
	.cfi_def_cfa_offset 8
	retq
L(1_64):
	.cfi_def_cfa_offset 64
	movl	$513, %edx
	cmpb	$-65, 2(%r14,%rcx)
	jg	L(1_66)
	xorl	%esi, %esi
	cmpq	$4, %rax
	movl	$769, %edx
	cmovbq	%rsi, %rdx
	jmp	L(1_66)
	SIZE("core::str::utf8::from_utf8")
	.cfi_endproc

CODE(".text.core::slice::words::skip_far::<#52f9edcae2f82f51>")
	.p2align	4
	TYPE("core::slice::words::skip_far::<#52f9edcae2f82f51>", function)
"core::slice::words::skip_far::<#52f9edcae2f82f51>":
	.cfi_startproc
	movq	%rsi, %rax
	subq	%rsi, %rdx
	cmpq	$64, %rdx
	jb	L(2_4)
	movq	(%rdi), %rcx
	.p2align	4
L(2_2):
	movdqu	(%rcx,%rax), %xmm0
	movdqu	16(%rcx,%rax), %xmm1
	movdqu	32(%rcx,%rax), %xmm2
	por	%xmm0, %xmm2
	movdqu	48(%rcx,%rax), %xmm0
	por	%xmm1, %xmm0
	por	%xmm2, %xmm0
	pshufd	$238, %xmm0, %xmm1
	por	%xmm0, %xmm1
	movq	%xmm1, %rsi
	movabsq	$-9187201950435737472, %rdi
	testq	%rdi, %rsi
	jne	L(2_4)
	addq	$64, %rax
	addq	$-64, %rdx
	cmpq	$63, %rdx
	ja	L(2_2)
L(2_4):
	retq
	SIZE("core::slice::words::skip_far::<#52f9edcae2f82f51>")
	.cfi_endproc

CODE(".text.std_alloc::vec::deque::VecDeque::drop::<#f88921834ea0b950>")
	.p2align	4
	TYPE("std_alloc::vec::deque::VecDeque::drop::<#f88921834ea0b950>", function)
"std_alloc::vec::deque::VecDeque::drop::<#f88921834ea0b950>":
	.cfi_startproc
	pushq	%r15
	.cfi_def_cfa_offset 16
	pushq	%r14
	.cfi_def_cfa_offset 24
	pushq	%r13
	.cfi_def_cfa_offset 32
	pushq	%r12
	.cfi_def_cfa_offset 40
	pushq	%rbx
	.cfi_def_cfa_offset 48
	.cfi_offset %rbx, -48
	.cfi_offset %r12, -40
	.cfi_offset %r13, -32
	.cfi_offset %r14, -24
	.cfi_offset %r15, -16
	movq	(%rdi), %rbx
	movq	8(%rdi), %r12
	movq	16(%rdi), %r14
	testq	%r12, %r12
	je	L(3_11)
	movq	32(%rdi), %r15
	movq	24(%rdi), %rax
	subq	%r15, %r12
	leaq	(%rax,%r12), %rcx
	cmpq	%rcx, %rax
	jae	L(3_6)
	leaq	(%rax,%rax,2), %rax
	leaq	(%rbx,%rax,8), %r13
	addq	$16, %r13
	jmp	L(3_3)
	.p2align	4
L(3_5):
	addq	$24, %r13
	decq	%r12
	je	L(3_6)
L(3_3):
	cmpq	$0, (%r13)
	je	L(3_5)
	movq	-16(%r13), %rdi
	callq	PLT(yurewha_heap_dealloc)
	jmp	L(3_5)
L(3_6):
	testq	%r15, %r15
	je	L(3_11)
	leaq	16(%rbx), %r12
	jmp	L(3_8)
	.p2align	4
L(3_10):
	addq	$24, %r12
	decq	%r15
	je	L(3_11)
L(3_8):
	cmpq	$0, (%r12)
	je	L(3_10)
	movq	-16(%r12), %rdi
	callq	PLT(yurewha_heap_dealloc)
	jmp	L(3_10)
L(3_11):
	testq	%r14, %r14
	je	L(3_12)
	movq	%rbx, %rdi
	popq	%rbx
	.cfi_def_cfa_offset 40
	popq	%r12
	.cfi_def_cfa_offset 32
	popq	%r13
	.cfi_def_cfa_offset 24
	popq	%r14
	.cfi_def_cfa_offset 16
	popq	%r15
	.cfi_def_cfa_offset 8
	jmp	PLT(yurewha_heap_dealloc)
L(3_12):
	.cfi_def_cfa_offset 48
	popq	%rbx
	.cfi_def_cfa_offset 40
	popq	%r12
	.cfi_def_cfa_offset 32
	popq	%r13
	.cfi_def_cfa_offset 24
	popq	%r14
	.cfi_def_cfa_offset 16
	popq	%r15
	.cfi_def_cfa_offset 8
	retq
	SIZE("std_alloc::vec::deque::VecDeque::drop::<#f88921834ea0b950>")
	.cfi_endproc

CODE(".text.std_io::io::error::last_error")
	.p2align	4
	TYPE("std_io::io::error::last_error", function)
"std_io::io::error::last_error":
	.cfi_startproc
	pushq	%rbx
	.cfi_def_cfa_offset 16
	.cfi_offset %rbx, -16
	movq	%rdi, %rbx
	callq	PLT(yurewha_run_errno)
	movl	%eax, %ecx
	movb	$41, %dl
	testl	%eax, %eax
	js	L(4_40)
	decl	%eax
	cmpl	$121, %eax
	ja	L(4_40)
	leaq	D(JTI4_0)(%rip), %rsi
	movslq	(%rsi,%rax,4), %rax
	addq	%rsi, %rax
	notrack jmpq	*%rax
L(4_3):
	movb	$1, %dl
	jmp	L(4_40)
L(4_24):
	movb	$36, %dl
	jmp	L(4_40)
L(4_36):
	movb	$4, %dl
	jmp	L(4_40)
L(4_33):
	movb	$7, %dl
	jmp	L(4_40)
L(4_39):
	movb	$26, %dl
	jmp	L(4_40)
L(4_37):
	movb	$39, %dl
	jmp	L(4_40)
L(4_28):
	movb	$9, %dl
	jmp	L(4_40)
L(4_27):
	movb	$8, %dl
	jmp	L(4_40)
L(4_22):
	movb	$30, %dl
	jmp	L(4_40)
L(4_18):
	movb	$25, %dl
	jmp	L(4_40)
L(4_20):
	movb	$32, %dl
	jmp	L(4_40)
L(4_23):
	movb	$33, %dl
	jmp	L(4_40)
L(4_34):
	movb	$22, %dl
	jmp	L(4_40)
L(4_11):
	movb	$31, %dl
	jmp	L(4_40)
L(4_15):
	movb	$29, %dl
	jmp	L(4_40)
L(4_26):
	movb	$18, %dl
	jmp	L(4_40)
L(4_29):
	movb	$10, %dl
	jmp	L(4_40)
L(4_9):
	movb	$28, %dl
	jmp	L(4_40)
L(4_12):
	movb	$14, %dl
	jmp	L(4_40)
L(4_10):
	movb	$12, %dl
	jmp	L(4_40)
L(4_30):
	movb	$5, %dl
	jmp	L(4_40)
L(4_32):
	movb	$3, %dl
	jmp	L(4_40)
L(4_4):
	xorl	%edx, %edx
	jmp	L(4_40)
L(4_7):
	movb	$13, %dl
	jmp	L(4_40)
L(4_8):
	movb	$38, %dl
	jmp	L(4_40)
L(4_21):
	movb	$11, %dl
	jmp	L(4_40)
L(4_5):
	movb	$35, %dl
	jmp	L(4_40)
L(4_6):
	movb	$34, %dl
	jmp	L(4_40)
L(4_14):
	movb	$20, %dl
	jmp	L(4_40)
L(4_13):
	movb	$15, %dl
	jmp	L(4_40)
L(4_38):
	movb	$19, %dl
	jmp	L(4_40)
L(4_25):
	movb	$16, %dl
	jmp	L(4_40)
L(4_31):
	movb	$6, %dl
	jmp	L(4_40)
L(4_16):
	movb	$27, %dl
	jmp	L(4_40)
L(4_17):
	movb	$24, %dl
	jmp	L(4_40)
L(4_35):
	movb	$2, %dl
	jmp	L(4_40)
L(4_19):
	movb	$17, %dl
L(4_40):
	movb	$0, (%rbx)
	movb	%dl, 1(%rbx)
	movw	$0, 2(%rbx)
	movl	%ecx, 4(%rbx)
	xorps	%xmm0, %xmm0
	movups	%xmm0, 8(%rbx)
	movups	%xmm0, 24(%rbx)
	movups	%xmm0, 40(%rbx)
	movups	%xmm0, 56(%rbx)
	movups	%xmm0, 72(%rbx)
	popq	%rbx
	.cfi_def_cfa_offset 8
	retq
	SIZE("std_io::io::error::last_error")
	.cfi_endproc
CONSTANTS(".rodata.std_io::io::error::last_error")
	.p2align	2, 0x0
D(JTI4_0):
	.long	L(4_3)-D(JTI4_0)
	.long	L(4_4)-D(JTI4_0)
	.long	L(4_40)-D(JTI4_0)
	.long	L(4_5)-D(JTI4_0)
	.long	L(4_40)-D(JTI4_0)
	.long	L(4_40)-D(JTI4_0)
	.long	L(4_6)-D(JTI4_0)
	.long	L(4_40)-D(JTI4_0)
	.long	L(4_40)-D(JTI4_0)
	.long	L(4_40)-D(JTI4_0)
	.long	L(4_7)-D(JTI4_0)
	.long	L(4_8)-D(JTI4_0)
	.long	L(4_3)-D(JTI4_0)
	.long	L(4_40)-D(JTI4_0)
	.long	L(4_40)-D(JTI4_0)
	.long	L(4_9)-D(JTI4_0)
	.long	L(4_10)-D(JTI4_0)
	.long	L(4_11)-D(JTI4_0)
	.long	L(4_40)-D(JTI4_0)
	.long	L(4_12)-D(JTI4_0)
	.long	L(4_13)-D(JTI4_0)
	.long	L(4_14)-D(JTI4_0)
	.long	L(4_40)-D(JTI4_0)
	.long	L(4_40)-D(JTI4_0)
	.long	L(4_40)-D(JTI4_0)
	.long	L(4_15)-D(JTI4_0)
	.long	L(4_16)-D(JTI4_0)
	.long	L(4_17)-D(JTI4_0)
	.long	L(4_18)-D(JTI4_0)
	.long	L(4_19)-D(JTI4_0)
	.long	L(4_20)-D(JTI4_0)
	.long	L(4_21)-D(JTI4_0)
	.long	L(4_40)-D(JTI4_0)
	.long	L(4_40)-D(JTI4_0)
	.long	L(4_22)-D(JTI4_0)
	.long	L(4_23)-D(JTI4_0)
	.long	L(4_40)-D(JTI4_0)
	.long	L(4_24)-D(JTI4_0)
	.long	L(4_25)-D(JTI4_0)
	.long	L(4_26)-D(JTI4_0)
	.long	L(4_40)-D(JTI4_0)
	.long	L(4_40)-D(JTI4_0)
	.long	L(4_40)-D(JTI4_0)
	.long	L(4_40)-D(JTI4_0)
	.long	L(4_40)-D(JTI4_0)
	.long	L(4_40)-D(JTI4_0)
	.long	L(4_40)-D(JTI4_0)
	.long	L(4_40)-D(JTI4_0)
	.long	L(4_40)-D(JTI4_0)
	.long	L(4_40)-D(JTI4_0)
	.long	L(4_40)-D(JTI4_0)
	.long	L(4_40)-D(JTI4_0)
	.long	L(4_40)-D(JTI4_0)
	.long	L(4_40)-D(JTI4_0)
	.long	L(4_40)-D(JTI4_0)
	.long	L(4_40)-D(JTI4_0)
	.long	L(4_40)-D(JTI4_0)
	.long	L(4_40)-D(JTI4_0)
	.long	L(4_40)-D(JTI4_0)
	.long	L(4_40)-D(JTI4_0)
	.long	L(4_40)-D(JTI4_0)
	.long	L(4_40)-D(JTI4_0)
	.long	L(4_40)-D(JTI4_0)
	.long	L(4_40)-D(JTI4_0)
	.long	L(4_40)-D(JTI4_0)
	.long	L(4_40)-D(JTI4_0)
	.long	L(4_40)-D(JTI4_0)
	.long	L(4_40)-D(JTI4_0)
	.long	L(4_40)-D(JTI4_0)
	.long	L(4_40)-D(JTI4_0)
	.long	L(4_40)-D(JTI4_0)
	.long	L(4_40)-D(JTI4_0)
	.long	L(4_40)-D(JTI4_0)
	.long	L(4_40)-D(JTI4_0)
	.long	L(4_40)-D(JTI4_0)
	.long	L(4_40)-D(JTI4_0)
	.long	L(4_40)-D(JTI4_0)
	.long	L(4_40)-D(JTI4_0)
	.long	L(4_40)-D(JTI4_0)
	.long	L(4_40)-D(JTI4_0)
	.long	L(4_40)-D(JTI4_0)
	.long	L(4_40)-D(JTI4_0)
	.long	L(4_40)-D(JTI4_0)
	.long	L(4_40)-D(JTI4_0)
	.long	L(4_40)-D(JTI4_0)
	.long	L(4_40)-D(JTI4_0)
	.long	L(4_40)-D(JTI4_0)
	.long	L(4_40)-D(JTI4_0)
	.long	L(4_40)-D(JTI4_0)
	.long	L(4_40)-D(JTI4_0)
	.long	L(4_40)-D(JTI4_0)
	.long	L(4_40)-D(JTI4_0)
	.long	L(4_40)-D(JTI4_0)
	.long	L(4_40)-D(JTI4_0)
	.long	L(4_24)-D(JTI4_0)
	.long	L(4_40)-D(JTI4_0)
	.long	L(4_40)-D(JTI4_0)
	.long	L(4_27)-D(JTI4_0)
	.long	L(4_28)-D(JTI4_0)
	.long	L(4_29)-D(JTI4_0)
	.long	L(4_30)-D(JTI4_0)
	.long	L(4_40)-D(JTI4_0)
	.long	L(4_31)-D(JTI4_0)
	.long	L(4_32)-D(JTI4_0)
	.long	L(4_40)-D(JTI4_0)
	.long	L(4_40)-D(JTI4_0)
	.long	L(4_33)-D(JTI4_0)
	.long	L(4_40)-D(JTI4_0)
	.long	L(4_40)-D(JTI4_0)
	.long	L(4_34)-D(JTI4_0)
	.long	L(4_35)-D(JTI4_0)
	.long	L(4_40)-D(JTI4_0)
	.long	L(4_36)-D(JTI4_0)
	.long	L(4_40)-D(JTI4_0)
	.long	L(4_37)-D(JTI4_0)
	.long	L(4_38)-D(JTI4_0)
	.long	L(4_40)-D(JTI4_0)
	.long	L(4_40)-D(JTI4_0)
	.long	L(4_40)-D(JTI4_0)
	.long	L(4_40)-D(JTI4_0)
	.long	L(4_40)-D(JTI4_0)
	.long	L(4_39)-D(JTI4_0)

SIZED(16, 4)
	.p2align	4, 0x0
D(CPI5_0):
	.zero	16,208
D(CPI5_1):
	.zero	16,9
D(CPI5_2):
	.zero	16,223
D(CPI5_3):
	.zero	16,191
D(CPI5_4):
	.zero	16,5
D(CPI5_5):
	.zero	16,1
D(CPI5_6):
	.zero	16,3
D(CPI5_7):
	.zero	16,240
D(CPI5_8):
	.zero	16,15
CODE(".text.pair_text::said_lines::SaidLinesTakeLines::end_line::<#a10fcec3e4a5dd02>")
	.p2align	4
	TYPE("pair_text::said_lines::SaidLinesTakeLines::end_line::<#a10fcec3e4a5dd02>", function)
"pair_text::said_lines::SaidLinesTakeLines::end_line::<#a10fcec3e4a5dd02>":
	.cfi_startproc
	pushq	%rbp
	.cfi_def_cfa_offset 16
	pushq	%r15
	.cfi_def_cfa_offset 24
	pushq	%r14
	.cfi_def_cfa_offset 32
	pushq	%r13
	.cfi_def_cfa_offset 40
	pushq	%r12
	.cfi_def_cfa_offset 48
	pushq	%rbx
	.cfi_def_cfa_offset 56
	subq	$120, %rsp
	.cfi_def_cfa_offset 176
	.cfi_offset %rbx, -56
	.cfi_offset %r12, -48
	.cfi_offset %r13, -40
	.cfi_offset %r14, -32
	.cfi_offset %r15, -24
	.cfi_offset %rbp, -16
	movq	%rsi, %r14
	movq	%rdi, %rbx
	pxor	%xmm0, %xmm0
	movdqa	%xmm0, 96(%rsp)
	movdqa	%xmm0, 80(%rsp)
	leaq	96(%rsi), %r12
	cmpb	$0, 88(%rsi)
	je	L(5_4)
	leaq	80(%rsp), %rdi
	movq	%r12, %rsi
	callq	C(yurewha_stub_of_finalize)
	movq	80(%rsp), %r11
	movq	88(%rsp), %r13
	movq	96(%rsp), %rax
	movq	104(%rsp), %rcx
	movq	1952(%r14), %r12
	movq	64(%r14), %rbp
	movq	%rbp, %r15
	incq	%r15
	jne	L(5_21)
L(5_2):
	xorl	%eax, %eax
L(5_3):
	xorl	%ecx, %ecx
	jmp	L(5_55)
L(5_4):
	movq	184(%r14), %rsi
	testq	%rsi, %rsi
	je	L(5_48)
	cmpq	$2, %rsi
	jne	L(5_8)
	movzbl	(%r12), %eax
	cmpl	$45, %eax
	je	L(5_47)
	cmpl	$64, %eax
	je	L(5_9)
	jmp	L(5_48)
L(5_8):
	cmpb	$64, (%r12)
	jne	L(5_13)
L(5_9):
	decq	%rsi
	leaq	97(%r14), %rdi
	callq	"pair_text::line::parse_decimal"
	cmpb	$1, %al
	jne	L(5_48)
	cmpq	64(%r14), %rdx
	je	L(5_62)
	movq	%rdx, %r15
	movq	%r14, %rdi
	callq	"xetroot_text::placed_pairs::PlacedPairs::end_range::<#ca9445b3ca2ffbf0>"
	testb	%al, %al
	jne	L(5_58)
	movq	%r15, 56(%r14)
	movq	%r15, 64(%r14)
	jmp	L(5_62)
L(5_13):
	cmpq	$64, %rsi
	jb	L(5_48)
	movdqa	D(CPI5_0)(%rip), %xmm3
	movdqu	96(%r14), %xmm6
	movdqu	112(%r14), %xmm9
	movdqu	128(%r14), %xmm2
	movdqu	144(%r14), %xmm0
	movdqa	%xmm6, %xmm4
	paddb	%xmm3, %xmm4
	movdqa	%xmm9, %xmm5
	paddb	%xmm3, %xmm5
	movdqa	D(CPI5_1)(%rip), %xmm1
	movdqa	%xmm4, %xmm10
	pminub	%xmm1, %xmm10
	pcmpeqb	%xmm4, %xmm10
	movdqa	%xmm5, %xmm11
	pminub	%xmm1, %xmm11
	pcmpeqb	%xmm5, %xmm11
	movdqa	D(CPI5_2)(%rip), %xmm7
	pand	%xmm7, %xmm6
	pand	%xmm7, %xmm9
	movdqa	D(CPI5_3)(%rip), %xmm8
	paddb	%xmm8, %xmm6
	paddb	%xmm8, %xmm9
	movdqa	D(CPI5_4)(%rip), %xmm5
	movdqa	%xmm6, %xmm4
	pminub	%xmm5, %xmm4
	pcmpeqb	%xmm6, %xmm4
	por	%xmm10, %xmm4
	movdqa	%xmm9, %xmm6
	pminub	%xmm5, %xmm6
	pcmpeqb	%xmm9, %xmm6
	por	%xmm11, %xmm6
	movdqa	D(CPI5_5)(%rip), %xmm9
	pand	%xmm9, %xmm4
	pand	%xmm9, %xmm6
	movdqa	%xmm2, %xmm9
	paddb	%xmm3, %xmm9
	paddb	%xmm0, %xmm3
	movdqa	%xmm9, %xmm10
	pminub	%xmm1, %xmm10
	pcmpeqb	%xmm9, %xmm10
	pminub	%xmm3, %xmm1
	pcmpeqb	%xmm3, %xmm1
	pand	%xmm7, %xmm2
	pand	%xmm7, %xmm0
	paddb	%xmm8, %xmm2
	paddb	%xmm8, %xmm0
	movdqa	%xmm2, %xmm3
	pminub	%xmm5, %xmm3
	pcmpeqb	%xmm2, %xmm3
	por	%xmm10, %xmm3
	psubb	%xmm3, %xmm4
	pminub	%xmm0, %xmm5
	pcmpeqb	%xmm0, %xmm5
	por	%xmm1, %xmm5
	psubb	%xmm5, %xmm6
	paddb	%xmm4, %xmm6
	pshufd	$238, %xmm6, %xmm1
	paddb	%xmm6, %xmm1
	pxor	%xmm0, %xmm0
	psadbw	%xmm0, %xmm1
	movd	%xmm1, %eax
	cmpb	$64, %al
	jne	L(5_48)
	movdqa	%xmm0, 32(%rsp)
	movdqa	%xmm0, 16(%rsp)
	xorl	%eax, %eax
	.p2align	4
L(5_16):
	movzbl	126(%r14,%rax,2), %ecx
	movd	%ecx, %xmm0
	movzbl	124(%r14,%rax,2), %ecx
	movd	%ecx, %xmm1
	punpcklbw	%xmm0, %xmm1
	movzbl	122(%r14,%rax,2), %ecx
	movd	%ecx, %xmm0
	movzbl	120(%r14,%rax,2), %ecx
	movd	%ecx, %xmm2
	punpcklbw	%xmm0, %xmm2
	punpcklwd	%xmm1, %xmm2
	movzbl	118(%r14,%rax,2), %ecx
	movd	%ecx, %xmm0
	movzbl	116(%r14,%rax,2), %ecx
	movd	%ecx, %xmm1
	punpcklbw	%xmm0, %xmm1
	movzbl	114(%r14,%rax,2), %ecx
	movd	%ecx, %xmm3
	movzbl	112(%r14,%rax,2), %ecx
	movd	%ecx, %xmm0
	punpcklbw	%xmm3, %xmm0
	punpcklwd	%xmm1, %xmm0
	punpckldq	%xmm2, %xmm0
	movzbl	110(%r14,%rax,2), %ecx
	movd	%ecx, %xmm1
	movzbl	108(%r14,%rax,2), %ecx
	movd	%ecx, %xmm2
	punpcklbw	%xmm1, %xmm2
	movzbl	106(%r14,%rax,2), %ecx
	movd	%ecx, %xmm1
	movzbl	104(%r14,%rax,2), %ecx
	movd	%ecx, %xmm3
	punpcklbw	%xmm1, %xmm3
	punpcklwd	%xmm2, %xmm3
	movzbl	102(%r14,%rax,2), %ecx
	movd	%ecx, %xmm1
	movzbl	100(%r14,%rax,2), %ecx
	movd	%ecx, %xmm2
	punpcklbw	%xmm1, %xmm2
	movzbl	98(%r14,%rax,2), %ecx
	movd	%ecx, %xmm1
	movzbl	96(%r14,%rax,2), %ecx
	movd	%ecx, %xmm4
	punpcklbw	%xmm1, %xmm4
	punpcklwd	%xmm2, %xmm4
	punpckldq	%xmm3, %xmm4
	punpcklqdq	%xmm0, %xmm4
	movdqa	%xmm4, %xmm2
	psrlw	$6, %xmm2
	movdqa	D(CPI5_6)(%rip), %xmm1
	pand	%xmm1, %xmm2
	movdqa	%xmm2, %xmm0
	psllw	$3, %xmm0
	por	%xmm2, %xmm0
	paddb	%xmm4, %xmm0
	psllw	$4, %xmm0
	pand	D(CPI5_7)(%rip), %xmm0
	movzbl	127(%r14,%rax,2), %ecx
	movd	%ecx, %xmm2
	movzbl	125(%r14,%rax,2), %ecx
	movd	%ecx, %xmm3
	punpcklbw	%xmm2, %xmm3
	movzbl	123(%r14,%rax,2), %ecx
	movd	%ecx, %xmm2
	movzbl	121(%r14,%rax,2), %ecx
	movd	%ecx, %xmm4
	punpcklbw	%xmm2, %xmm4
	punpcklwd	%xmm3, %xmm4
	movzbl	119(%r14,%rax,2), %ecx
	movd	%ecx, %xmm2
	movzbl	117(%r14,%rax,2), %ecx
	movd	%ecx, %xmm3
	punpcklbw	%xmm2, %xmm3
	movzbl	115(%r14,%rax,2), %ecx
	movd	%ecx, %xmm5
	movzbl	113(%r14,%rax,2), %ecx
	movd	%ecx, %xmm2
	punpcklbw	%xmm5, %xmm2
	punpcklwd	%xmm3, %xmm2
	punpckldq	%xmm4, %xmm2
	movzbl	111(%r14,%rax,2), %ecx
	movd	%ecx, %xmm3
	movzbl	109(%r14,%rax,2), %ecx
	movd	%ecx, %xmm4
	punpcklbw	%xmm3, %xmm4
	movzbl	107(%r14,%rax,2), %ecx
	movd	%ecx, %xmm3
	movzbl	105(%r14,%rax,2), %ecx
	movd	%ecx, %xmm5
	punpcklbw	%xmm3, %xmm5
	punpcklwd	%xmm4, %xmm5
	movzbl	103(%r14,%rax,2), %ecx
	movd	%ecx, %xmm3
	movzbl	101(%r14,%rax,2), %ecx
	movd	%ecx, %xmm4
	punpcklbw	%xmm3, %xmm4
	movzbl	99(%r14,%rax,2), %ecx
	movd	%ecx, %xmm3
	movzbl	97(%r14,%rax,2), %ecx
	movd	%ecx, %xmm6
	punpcklbw	%xmm3, %xmm6
	punpcklwd	%xmm4, %xmm6
	punpckldq	%xmm5, %xmm6
	punpcklqdq	%xmm2, %xmm6
	movdqa	D(CPI5_8)(%rip), %xmm2
	pand	%xmm6, %xmm2
	psrlw	$6, %xmm6
	pand	%xmm1, %xmm6
	movdqa	%xmm6, %xmm1
	psllw	$3, %xmm1
	por	%xmm6, %xmm1
	paddb	%xmm2, %xmm1
	paddb	%xmm0, %xmm1
	movdqu	%xmm1, 16(%rsp,%rax)
	addq	$16, %rax
	cmpq	$32, %rax
	jne	L(5_16)
	cmpq	$64, %rsi
	je	L(5_48)
	cmpb	$32, 160(%r14)
	jne	L(5_48)
	movq	16(%rsp), %rax
	movq	%rax, 8(%rsp)
	movq	24(%rsp), %r13
	movq	32(%rsp), %rbp
	movq	40(%rsp), %r15
	addq	$-65, %rsi
	leaq	161(%r14), %rdi
	callq	"pair_text::line::parse_decimal"
	cmpb	$1, %al
	jne	L(5_48)
	movq	%rdx, %r12
	movq	8(%rsp), %r11
	bswapq	%r11
	bswapq	%r13
	bswapq	%rbp
	bswapq	%r15
	movq	%rbp, %rax
	movq	%r15, %rcx
	movq	64(%r14), %rbp
	movq	%rbp, %r15
	incq	%r15
	je	L(5_2)
L(5_21):
	movq	%rcx, 72(%rsp)
	movq	%rax, 8(%rsp)
	cmpb	$1, (%r14)
	jne	L(5_53)
	movq	8(%r14), %rax
	movzwl	(%rax), %ecx
	testq	%rcx, %rcx
	je	L(5_29)
	xorl	%edi, %edi
	.p2align	4
L(5_24):
	cmpq	8(%rax,%rdi,8), %rbp
	jb	L(5_27)
	incq	%rdi
	cmpq	%rdi, %rcx
	jne	L(5_24)
	movq	%rcx, %rdi
L(5_27):
	cmpw	$0, 2(%rax)
	jne	L(5_31)
	testq	%rdi, %rdi
	jne	L(5_40)
	jmp	L(5_53)
L(5_29):
	cmpw	$0, 2(%rax)
	je	L(5_53)
	xorl	%edi, %edi
L(5_31):
	leaq	8(%r14), %rcx
	xorl	%esi, %esi
	movq	%rdi, %r8
	movq	%rcx, %r9
	jmp	L(5_33)
	.p2align	4
L(5_32):
	shlq	$4, %rsi
	addq	%r8, %rsi
	xorl	%r8d, %r8d
	cmpw	$0, 2(%rax)
	je	L(5_44)
L(5_33):
	movq	%r9, %rdx
	leaq	(%rax,%r8,8), %r9
	addq	$848, %r9
	movq	848(%rax,%r8,8), %rax
	movzwl	(%rax), %r10d
	testq	%r10, %r10
	je	L(5_32)
	xorl	%edi, %edi
	.p2align	4
L(5_35):
	cmpq	8(%rax,%rdi,8), %rbp
	jb	L(5_38)
	incq	%rdi
	cmpq	%rdi, %r10
	jne	L(5_35)
	movq	%r10, %rdi
L(5_38):
	shlq	$4, %rsi
	addq	%r8, %rsi
	cmpw	$0, 2(%rax)
	movq	%rdi, %r8
	jne	L(5_33)
	testq	%rdi, %rdi
	je	L(5_44)
L(5_40):
	leaq	(%rdi,%rdi,2), %rcx
	shlq	$4, %rcx
L(5_41):
	addq	%rcx, %rax
	addq	$80, %rax
L(5_42):
	cmpq	(%rax), %rbp
	jae	L(5_53)
	movb	$1, %cl
	xorl	%eax, %eax
	jmp	L(5_55)
L(5_44):
	movq	%r13, (%rsp)
	movq	%r11, %r13
	pxor	%xmm0, %xmm0
	movdqa	%xmm0, 48(%rsp)
	movdqa	%xmm0, 32(%rsp)
	movdqa	%xmm0, 16(%rsp)
	leaq	16(%rsp), %rdi
	movq	$-1, %r8
	callq	"std_collections::btree::iter::Cursor::retreat::<#4f04a9971a4b2638>"
	movzbl	16(%rsp), %eax
	cmpb	$1, 40(%rsp)
	jne	L(5_49)
	testb	$1, %al
	movq	%r13, %r11
	je	L(5_51)
	movq	32(%rsp), %rax
	movq	(%rsp), %r13
	jmp	L(5_42)
L(5_47):
	cmpb	$45, 97(%r14)
	je	L(5_62)
L(5_48):
	movw	$1, (%rbx)
	jmp	L(5_68)
L(5_49):
	testb	$1, %al
	movq	%r13, %r11
	movq	(%rsp), %r13
	je	L(5_53)
	movq	32(%rsp), %rax
	jmp	L(5_42)
L(5_51):
	movq	56(%rsp), %rax
	movl	48(%rsp), %ecx
	movq	(%rax), %rax
	andl	$15, %ecx
	movq	848(%rax,%rcx,8), %rax
	movzwl	(%rax), %ecx
	testq	%rcx, %rcx
	movq	(%rsp), %r13
	je	L(5_53)
	leaq	(%rcx,%rcx,2), %rcx
	shll	$4, %ecx
	jmp	L(5_41)
L(5_53):
	movq	80(%r14), %rbp
	addq	%r12, %rbp
	jae	L(5_56)
	xorl	%eax, %eax
	movb	$2, %cl
L(5_55):
	movb	$1, (%rbx)
	movb	%al, 1(%rbx)
	movb	%cl, 2(%rbx)
	jmp	L(5_69)
L(5_56):
	movq	40(%r14), %rax
	cmpq	$4096, %rax
	jb	L(5_60)
	movq	%r13, (%rsp)
	movq	%r11, %r13
	movq	%r14, %rdi
	callq	"xetroot_text::placed_pairs::PlacedPairs::end_range::<#ca9445b3ca2ffbf0>"
	testb	%al, %al
	je	L(5_59)
L(5_58):
	movb	$1, %al
	jmp	L(5_3)
L(5_59):
	movq	40(%r14), %rax
	movq	%r13, %r11
	movq	(%rsp), %r13
L(5_60):
	cmpq	%rax, 48(%r14)
	je	L(5_70)
L(5_61):
	movq	32(%r14), %rcx
	leaq	(%rax,%rax,4), %rdx
	movq	%r11, (%rcx,%rdx,8)
	movq	%r13, 8(%rcx,%rdx,8)
	movq	8(%rsp), %rsi
	movq	%rsi, 16(%rcx,%rdx,8)
	movq	72(%rsp), %rsi
	movq	%rsi, 24(%rcx,%rdx,8)
	movq	%r12, 32(%rcx,%rdx,8)
	incq	%rax
	movq	%rax, 40(%r14)
	movq	%r15, 64(%r14)
	movq	72(%r14), %rax
	incq	%rax
	movq	$-1, %rcx
	cmovneq	%rax, %rcx
	movq	%rcx, 72(%r14)
	movq	%rbp, 80(%r14)
	leaq	96(%r14), %r12
L(5_62):
	leaq	88(%r14), %rdi
	cmpb	$0, (%rdi)
	je	L(5_65)
	movl	$1872, %edx
	xorl	%esi, %esi
	callq	PLT(memset)
	jmp	L(5_67)
L(5_65):
	movq	184(%r14), %rdx
	testq	%rdx, %rdx
	je	L(5_67)
	movq	%r12, %rdi
	xorl	%esi, %esi
	callq	PLT(memset)
	movq	$0, 184(%r14)
L(5_67):
	movw	$0, (%rbx)
L(5_68):
	movb	$0, 2(%rbx)
L(5_69):
	addq	$120, %rsp
	.cfi_def_cfa_offset 56
	popq	%rbx
	.cfi_def_cfa_offset 48
	popq	%r12
	.cfi_def_cfa_offset 40
	popq	%r13
	.cfi_def_cfa_offset 32
	popq	%r14
	.cfi_def_cfa_offset 24
	popq	%r15
	.cfi_def_cfa_offset 16
	popq	%rbp
	.cfi_def_cfa_offset 8
	retq
L(5_70):
	.cfi_def_cfa_offset 176
	movq	%r13, (%rsp)
	movq	%r11, %r13
	leaq	32(%r14), %rdi
	movl	$1, %esi
	callq	"std_alloc::vec::Vec::grow_amortized::<#1ed62de40e111fb4>"
	testb	%al, %al
	je	L(5_58)
	movq	40(%r14), %rax
	movq	%r13, %r11
	movq	(%rsp), %r13
	jmp	L(5_61)
	SIZE("pair_text::said_lines::SaidLinesTakeLines::end_line::<#a10fcec3e4a5dd02>")
	.cfi_endproc

CODE(".text.core::cmp::slices::groups_equal::<i8,31'core::cmp::numbers::U8PartialEq{}>")
	.p2align	4
	TYPE("core::cmp::slices::groups_equal::<i8,31'core::cmp::numbers::U8PartialEq{}>", function)
"core::cmp::slices::groups_equal::<i8,31'core::cmp::numbers::U8PartialEq{}>":
	.cfi_startproc
	cmpq	$8, %rsi
	ja	L(6_2)
	movd	-4(%rdi,%rsi), %xmm0
	movd	(%rdi), %xmm1
	punpckldq	%xmm0, %xmm1
	movd	-4(%rdx,%rsi), %xmm0
	movd	(%rdx), %xmm2
	punpckldq	%xmm0, %xmm2
	movq	%xmm1, %rax
	movq	%xmm2, %rcx
	cmpq	%rcx, %rax
	jmp	L(6_17)
L(6_2):
	cmpq	$32, %rsi
	ja	L(6_4)
	leaq	-8(%rsi), %rax
	cmpq	$8, %rax
	movl	$8, %ecx
	cmovbq	%rax, %rcx
	cmpq	$16, %rax
	movl	$16, %r8d
	cmovbq	%rax, %r8
	movq	(%rdi,%rcx), %xmm0
	movq	(%rdi), %xmm1
	punpcklqdq	%xmm0, %xmm1
	movq	(%rdi,%r8), %xmm0
	movq	-8(%rdi,%rsi), %xmm2
	punpcklqdq	%xmm2, %xmm0
	movq	(%rdx,%rcx), %xmm2
	movq	(%rdx), %xmm3
	punpcklqdq	%xmm2, %xmm3
	pcmpeqb	%xmm1, %xmm3
	movq	(%rdx,%r8), %xmm1
	movq	-8(%rdx,%rsi), %xmm2
	punpcklqdq	%xmm2, %xmm1
	pcmpeqb	%xmm0, %xmm1
	pand	%xmm3, %xmm1
	pmovmskb	%xmm1, %eax
	jmp	L(6_16)
L(6_4):
	cmpq	$65, %rsi
	jae	L(6_5)
	movdqu	(%rdi), %xmm0
	movdqu	16(%rdi), %xmm1
	movdqu	(%rdx), %xmm2
	pcmpeqb	%xmm0, %xmm2
	movdqu	16(%rdx), %xmm0
	pcmpeqb	%xmm1, %xmm0
	movdqu	-32(%rdi,%rsi), %xmm1
	movdqu	-16(%rdi,%rsi), %xmm3
	movdqu	-32(%rdx,%rsi), %xmm4
	pcmpeqb	%xmm1, %xmm4
	pand	%xmm2, %xmm4
	movdqu	-16(%rdx,%rsi), %xmm1
	pcmpeqb	%xmm3, %xmm1
	pand	%xmm0, %xmm1
	pand	%xmm4, %xmm1
	pmovmskb	%xmm1, %eax
	jmp	L(6_16)
L(6_5):
	xorl	%eax, %eax
	movq	%rsi, %rcx
	.p2align	4
L(6_6):
	movdqu	(%rdi,%rax), %xmm0
	movdqu	16(%rdi,%rax), %xmm1
	movdqu	32(%rdi,%rax), %xmm2
	movdqu	48(%rdi,%rax), %xmm3
	movdqu	(%rdx,%rax), %xmm4
	pcmpeqb	%xmm0, %xmm4
	movdqu	16(%rdx,%rax), %xmm0
	pcmpeqb	%xmm1, %xmm0
	movdqu	32(%rdx,%rax), %xmm1
	pcmpeqb	%xmm2, %xmm1
	pand	%xmm4, %xmm1
	movdqu	48(%rdx,%rax), %xmm2
	pcmpeqb	%xmm3, %xmm2
	pand	%xmm0, %xmm2
	pand	%xmm1, %xmm2
	pmovmskb	%xmm2, %r8d
	cmpl	$65535, %r8d
	jne	L(6_8)
	addq	$64, %rax
	addq	$-64, %rcx
	cmpq	$63, %rcx
	ja	L(6_6)
L(6_8):
	cmpq	$32, %rcx
	jb	L(6_15)
	movq	%rsi, %rcx
	subq	%rax, %rcx
	.p2align	4
L(6_10):
	movdqu	(%rdi,%rax), %xmm0
	movdqu	16(%rdi,%rax), %xmm1
	movdqu	(%rdx,%rax), %xmm2
	pcmpeqb	%xmm0, %xmm2
	movdqu	16(%rdx,%rax), %xmm0
	pcmpeqb	%xmm1, %xmm0
	pand	%xmm2, %xmm0
	pmovmskb	%xmm0, %r8d
	xorl	$65535, %r8d
	jne	L(6_14)
	addq	$32, %rax
	addq	$-32, %rcx
	cmpq	$32, %rcx
	jae	L(6_10)
	jmp	L(6_15)
L(6_14):
	movb	$1, %al
	cmpq	$31, %rcx
	ja	L(6_18)
L(6_15):
	movdqu	-32(%rdi,%rsi), %xmm0
	movdqu	-16(%rdi,%rsi), %xmm1
	movdqu	-32(%rdx,%rsi), %xmm2
	pcmpeqb	%xmm0, %xmm2
	movdqu	-16(%rdx,%rsi), %xmm0
	pcmpeqb	%xmm1, %xmm0
	pand	%xmm2, %xmm0
	pmovmskb	%xmm0, %eax
L(6_16):
	xorl	$65535, %eax
L(6_17):
	setne	%al
L(6_18):
	xorb	$1, %al
	retq
	SIZE("core::cmp::slices::groups_equal::<i8,31'core::cmp::numbers::U8PartialEq{}>")
	.cfi_endproc

CODE(".text.pair_text::line::parse_decimal")
	.p2align	4
	TYPE("pair_text::line::parse_decimal", function)
"pair_text::line::parse_decimal":
	.cfi_startproc
	pushq	%r15
	.cfi_def_cfa_offset 16
	pushq	%r14
	.cfi_def_cfa_offset 24
	pushq	%rbx
	.cfi_def_cfa_offset 32
	subq	$80, %rsp
	.cfi_def_cfa_offset 112
	.cfi_offset %rbx, -32
	.cfi_offset %r14, -24
	.cfi_offset %r15, -16
	movq	%rsi, %rbx
	movq	%rdi, %r14
	xorps	%xmm0, %xmm0
	movaps	%xmm0, 48(%rsp)
	movq	$0, 64(%rsp)
	leaq	48(%rsp), %rdi
	movq	%r14, %rsi
	movq	%rbx, %rdx
	callq	"core::str::utf8::from_utf8"
	cmpb	$0, 48(%rsp)
	je	L(7_2)
L(7_1):
	xorl	%edx, %edx
	xorl	%eax, %eax
L(7_38):
	addq	$80, %rsp
	.cfi_def_cfa_offset 32
	popq	%rbx
	.cfi_def_cfa_offset 24
	popq	%r14
	.cfi_def_cfa_offset 16
	popq	%r15
	.cfi_def_cfa_offset 8
	retq
L(7_2):
	.cfi_def_cfa_offset 112
	movq	64(%rsp), %rcx
	testq	%rcx, %rcx
	je	L(7_1)
	movq	56(%rsp), %rsi
	cmpb	$43, (%rsi)
	jne	L(7_4)
	cmpq	$1, %rcx
	je	L(7_1)
	movl	$1, %edi
	movabsq	$1844674407370955162, %r8
	xorl	%r15d, %r15d
	.p2align	4
L(7_11):
	xorl	%edx, %edx
	movl	$0, %eax
	cmpq	%r8, %r15
	jae	L(7_38)
	movzbl	(%rsi,%rdi), %r9d
	leal	-48(%r9), %r10d
	cmpb	$9, %r10b
	ja	L(7_38)
	addq	%r15, %r15
	leaq	(%r15,%r15,4), %rax
	andl	$15, %r9d
	movq	%r9, %r15
	addq	%rax, %r15
	jb	L(7_1)
	incq	%rdi
	cmpq	%rdi, %rcx
	jne	L(7_11)
	jmp	L(7_15)
L(7_4):
	movabsq	$1844674407370955162, %rdi
	xorl	%r15d, %r15d
	xorl	%r8d, %r8d
	.p2align	4
L(7_5):
	xorl	%edx, %edx
	movl	$0, %eax
	cmpq	%rdi, %r15
	jae	L(7_38)
	movzbl	(%rsi,%r8), %r9d
	leal	-48(%r9), %r10d
	cmpb	$9, %r10b
	ja	L(7_38)
	addq	%r15, %r15
	leaq	(%r15,%r15,4), %rax
	andl	$15, %r9d
	movq	%r9, %r15
	addq	%rax, %r15
	jb	L(7_1)
	incq	%r8
	cmpq	%r8, %rcx
	jne	L(7_5)
L(7_15):
	xorps	%xmm0, %xmm0
	movaps	%xmm0, 16(%rsp)
	movaps	%xmm0, (%rsp)
	movq	$0, 32(%rsp)
	movl	$40, %esi
	movq	%r15, %rdx
	cmpq	$10000, %r15
	jb	L(7_18)
	movq	%r15, %rcx
	.p2align	4
L(7_17):
	movabsq	$3777893186295716171, %rdx
	movq	%rcx, %rax
	mulq	%rdx
	shrq	$11, %rdx
	imull	$10000, %edx, %eax
	movl	%ecx, %edi
	subl	%eax, %edi
	imull	$5243, %edi, %eax
	shrl	$19, %eax
	imull	$100, %eax, %r8d
	subl	%r8d, %edi
	movzwl	%di, %edi
	leaq	D(static.15)(%rip), %r8
	movzwl	(%r8,%rdi,2), %edi
	movw	%di, -2(%rsp,%rsi)
	movzwl	(%r8,%rax,2), %eax
	movw	%ax, -4(%rsp,%rsi)
	addq	$-4, %rsi
	cmpq	$99999999, %rcx
	movq	%rdx, %rcx
	ja	L(7_17)
L(7_18):
	cmpq	$99, %rdx
	ja	L(7_22)
	cmpq	$9, %rdx
	ja	L(7_21)
	orb	$48, %dl
	movb	%dl, -1(%rsp,%rsi)
	decq	%rsi
	jmp	L(7_25)
L(7_22):
	movl	%edx, %eax
	shrl	$2, %eax
	movzwl	%ax, %eax
	imull	$5243, %eax, %eax
	shrl	$17, %eax
	imull	$100, %eax, %ecx
	movl	%edx, %edi
	subl	%ecx, %edi
	movzwl	%di, %edi
	leaq	D(static.15)(%rip), %rcx
	movzwl	(%rcx,%rdi,2), %edi
	movw	%di, -2(%rsp,%rsi)
	cmpq	$999, %rdx
	ja	L(7_24)
	orb	$48, %al
	movb	%al, -3(%rsp,%rsi)
	addq	$-3, %rsi
	movl	%eax, %edx
	jmp	L(7_25)
L(7_21):
	leaq	D(static.15)(%rip), %rax
	movzbl	1(%rax,%rdx,2), %ecx
	movzbl	(%rax,%rdx,2), %eax
	movb	%al, -2(%rsp,%rsi)
	movb	%cl, -1(%rsp,%rsi)
	addq	$-2, %rsi
	movl	%eax, %edx
	jmp	L(7_25)
L(7_24):
	movzwl	%ax, %eax
	movzbl	(%rcx,%rax,2), %edx
	movzbl	1(%rcx,%rax,2), %eax
	movb	%dl, -4(%rsp,%rsi)
	movb	%al, -3(%rsp,%rsi)
	addq	$-4, %rsi
L(7_25):
	movl	$40, %eax
	subq	%rsi, %rax
	cmpq	%rbx, %rax
	jne	L(7_1)
	leaq	(%rsp,%rsi), %rdi
	cmpq	$4, %rbx
	jae	L(7_27)
	cmpq	$40, %rsi
	je	L(7_37)
	xorl	%eax, %eax
L(7_34):
	movzbl	(%rdi,%rax), %ecx
	cmpb	(%r14,%rax), %cl
	jne	L(7_36)
	incq	%rax
	cmpq	%rax, %rbx
	jne	L(7_34)
	jmp	L(7_37)
L(7_27):
	movq	%rdx, %rcx
	xorl	%edx, %edx
	movl	$0, %eax
	cmpb	(%r14), %cl
	jne	L(7_38)
	movzbl	1(%r14), %ecx
	cmpb	%cl, 1(%rdi)
	jne	L(7_38)
	movzbl	2(%r14), %ecx
	cmpb	%cl, 2(%rdi)
	jne	L(7_38)
	movzbl	3(%r14), %ecx
	cmpb	%cl, 3(%rdi)
	jne	L(7_38)
	movq	%rbx, %rsi
	movq	%r14, %rdx
	callq	"core::cmp::slices::groups_equal::<i8,31'core::cmp::numbers::U8PartialEq{}>"
	testb	%al, %al
	je	L(7_1)
	jmp	L(7_37)
L(7_36):
	cmpq	%rbx, %rax
	jb	L(7_1)
L(7_37):
	movb	$1, %al
	movq	%r15, %rdx
	jmp	L(7_38)
	SIZE("pair_text::line::parse_decimal")
	.cfi_endproc

CODE(".text.xetroot_text::placed_pairs::PlacedPairs::end_range::<#ca9445b3ca2ffbf0>")
	.p2align	4
	TYPE("xetroot_text::placed_pairs::PlacedPairs::end_range::<#ca9445b3ca2ffbf0>", function)
"xetroot_text::placed_pairs::PlacedPairs::end_range::<#ca9445b3ca2ffbf0>":
	.cfi_startproc
	pushq	%rbp
	.cfi_def_cfa_offset 16
	pushq	%r15
	.cfi_def_cfa_offset 24
	pushq	%r14
	.cfi_def_cfa_offset 32
	pushq	%r13
	.cfi_def_cfa_offset 40
	pushq	%r12
	.cfi_def_cfa_offset 48
	pushq	%rbx
	.cfi_def_cfa_offset 56
	subq	$568, %rsp
	.cfi_def_cfa_offset 624
	.cfi_offset %rbx, -56
	.cfi_offset %r12, -48
	.cfi_offset %r13, -40
	.cfi_offset %r14, -32
	.cfi_offset %r15, -24
	.cfi_offset %rbp, -16
	movq	40(%rdi), %r15
	testq	%r15, %r15
	je	L(11_141)
	movq	%rdi, %rbx
	movq	32(%rdi), %rdx
	movq	56(%rdi), %r12
	movq	80(%rdi), %r14
	xorps	%xmm0, %xmm0
	movaps	%xmm0, 448(%rsp)
	movaps	%xmm0, 432(%rsp)
	movaps	%xmm0, 416(%rsp)
	leaq	416(%rsp), %rdi
	xorl	%esi, %esi
	movq	%r15, %rcx
	xorl	%r8d, %r8d
	callq	"xet_merkle::merkle_hash_subtree::subtree::as_range::MerkleHashSubtreeChunkRange::from_chunks::<#d96a70c1b70ca186>"
	cmpb	$0, 416(%rsp)
	je	L(11_2)
	movzbl	417(%rsp), %ebp
L(11_275):
	movb	$1, %al
	cmpb	$2, %bpl
	je	L(11_142)
L(11_276):
	ud2
L(11_2):
	movq	%r14, 40(%rsp)
	movq	424(%rsp), %rbp
	movq	432(%rsp), %rax
	movq	%rax, 16(%rsp)
	movq	440(%rsp), %r14
	movaps	448(%rsp), %xmm0
	movaps	%xmm0, 464(%rsp)
	cmpb	$1, (%rbx)
	jne	L(11_29)
	movq	8(%rbx), %rax
	movzwl	(%rax), %ecx
	testq	%rcx, %rcx
	je	L(11_10)
	xorl	%edi, %edi
	.p2align	4
L(11_5):
	cmpq	8(%rax,%rdi,8), %r12
	jb	L(11_8)
	incq	%rdi
	cmpq	%rdi, %rcx
	jne	L(11_5)
	movq	%rcx, %rdi
L(11_8):
	cmpw	$0, 2(%rax)
	jne	L(11_12)
	testq	%rdi, %rdi
	jne	L(11_20)
	jmp	L(11_29)
L(11_10):
	cmpw	$0, 2(%rax)
	je	L(11_29)
	xorl	%edi, %edi
L(11_12):
	leaq	8(%rbx), %rcx
	xorl	%esi, %esi
	movq	%rdi, %r8
	movq	%rcx, %r9
	jmp	L(11_13)
	.p2align	4
L(11_21):
	shlq	$4, %rsi
	addq	%r8, %rsi
	xorl	%r8d, %r8d
	cmpw	$0, 2(%rax)
	je	L(11_22)
L(11_13):
	movq	%r9, %rdx
	leaq	(%rax,%r8,8), %r9
	addq	$848, %r9
	movq	848(%rax,%r8,8), %rax
	movzwl	(%rax), %r10d
	testq	%r10, %r10
	je	L(11_21)
	xorl	%edi, %edi
	.p2align	4
L(11_15):
	cmpq	8(%rax,%rdi,8), %r12
	jb	L(11_18)
	incq	%rdi
	cmpq	%rdi, %r10
	jne	L(11_15)
	movq	%r10, %rdi
L(11_18):
	shlq	$4, %rsi
	addq	%r8, %rsi
	cmpw	$0, 2(%rax)
	movq	%rdi, %r8
	jne	L(11_13)
	testq	%rdi, %rdi
	je	L(11_22)
L(11_20):
	leaq	(%rax,%rdi,8), %rcx
	leaq	(%rdi,%rdi,2), %rdx
	shlq	$4, %rdx
	addq	%rdx, %rax
	addq	$80, %rax
	jmp	L(11_28)
L(11_22):
	xorps	%xmm0, %xmm0
	movaps	%xmm0, 80(%rsp)
	movaps	%xmm0, 64(%rsp)
	movaps	%xmm0, 48(%rsp)
	leaq	48(%rsp), %rdi
	movq	$-1, %r8
	callq	"std_collections::btree::iter::Cursor::retreat::<#4f04a9971a4b2638>"
	movzbl	48(%rsp), %eax
	cmpb	$1, 72(%rsp)
	jne	L(11_25)
	testb	$1, %al
	jne	L(11_24)
	movq	88(%rsp), %rax
	movl	80(%rsp), %ecx
	movq	(%rax), %rax
	andl	$15, %ecx
	movq	848(%rax,%rcx,8), %rdx
	movzwl	(%rdx), %eax
	testq	%rax, %rax
	je	L(11_29)
	leaq	(%rdx,%rax,8), %rcx
	subq	$-128, %rdx
	leaq	(%rax,%rax,2), %rax
	addq	$-3, %rax
	shlq	$4, %rax
	addq	%rdx, %rax
	jmp	L(11_28)
L(11_25):
	testb	$1, %al
	je	L(11_29)
L(11_24):
	movq	56(%rsp), %rcx
	movq	64(%rsp), %rax
L(11_28):
	cmpq	%r12, (%rax)
	jne	L(11_29)
	movq	(%rcx), %r13
	movb	$1, %al
	movq	%rax, 8(%rsp)
	addq	%r12, %r15
	movzbl	(%rbx), %eax
	cmpb	$1, %al
	je	L(11_32)
	jmp	L(11_85)
L(11_29):
	movq	$0, 8(%rsp)
	xorl	%r13d, %r13d
	addq	%r12, %r15
	movzbl	(%rbx), %eax
	cmpb	$1, %al
	jne	L(11_85)
L(11_32):
	leaq	8(%rbx), %rcx
	movq	(%rcx), %rcx
	movzwl	(%rcx), %edi
	testq	%rdi, %rdi
	je	L(11_34)
L(11_35):
	leaq	152(%rcx), %rsi
	leal	(,%rdi,8), %r8d
	xorl	%edx, %edx
	.p2align	4
L(11_36):
	movq	8(%rcx,%rdx), %r9
	cmpq	%r9, %r15
	setae	%r10b
	addb	%r10b, %r10b
	cmpq	%r9, %r15
	movzbl	%r10b, %r10d
	movl	$1, %r9d
	cmovnel	%r10d, %r9d
	cmpb	$2, %r9b
	jne	L(11_37)
	addq	$48, %rsi
	addq	$8, %rdx
	cmpq	%rdx, %r8
	jne	L(11_36)
	shll	$3, %edi
	movq	%rdi, %rdx
	jmp	L(11_42)
	.p2align	4
L(11_37):
	movzbl	%r9b, %edi
	testl	%edi, %edi
	jne	L(11_38)
	jmp	L(11_42)
L(11_34):
	xorl	%edx, %edx
L(11_42):
	cmpw	$0, 2(%rcx)
	je	L(11_85)
	addq	%rdx, %rcx
	addq	$848, %rcx
	movq	(%rcx), %rcx
	movzwl	(%rcx), %edi
	testq	%rdi, %rdi
	jne	L(11_35)
	jmp	L(11_34)
L(11_38):
	movq	(%rsi), %rdx
	testq	%rdx, %rdx
	je	L(11_39)
	movq	-8(%rsi), %rsi
	addq	$40, %rsi
	xorl	%ecx, %ecx
	.p2align	4
L(11_45):
	movq	%rcx, %rdi
	movq	-32(%rsi), %rcx
	subq	-16(%rsi), %rcx
	addq	%rdi, %rcx
	jb	L(11_276)
	addq	(%rsi), %rcx
	jb	L(11_276)
	addq	$56, %rsi
	decq	%rdx
	jne	L(11_45)
	cmpb	$0, 8(%rsp)
	je	L(11_72)
L(11_49):
	leaq	8(%rbx), %rdx
	movq	(%rdx), %rdx
	movzwl	(%rdx), %r8d
	testq	%r8, %r8
	je	L(11_51)
L(11_52):
	leaq	152(%rdx), %rdi
	leal	(,%r8,8), %r9d
	xorl	%esi, %esi
	.p2align	4
L(11_53):
	movq	8(%rdx,%rsi), %r10
	cmpq	%r10, %r13
	setae	%r11b
	addb	%r11b, %r11b
	cmpq	%r10, %r13
	movzbl	%r11b, %r11d
	movl	$1, %r10d
	cmovnel	%r11d, %r10d
	cmpb	$2, %r10b
	jne	L(11_54)
	addq	$48, %rdi
	addq	$8, %rsi
	cmpq	%rsi, %r9
	jne	L(11_53)
	shll	$3, %r8d
	movq	%r8, %rsi
	jmp	L(11_59)
L(11_54):
	movzbl	%r10b, %r8d
	testl	%r8d, %r8d
	jne	L(11_55)
	jmp	L(11_59)
L(11_51):
	xorl	%esi, %esi
L(11_59):
	cmpw	$0, 2(%rdx)
	je	L(11_85)
	addq	%rsi, %rdx
	addq	$848, %rdx
	movq	(%rdx), %rdx
	movzwl	(%rdx), %r8d
	testq	%r8, %r8
	jne	L(11_52)
	jmp	L(11_51)
L(11_55):
	movq	(%rdi), %rdx
	testq	%rdx, %rdx
	je	L(11_56)
	movq	-8(%rdi), %rsi
	addq	$40, %rsi
	xorl	%edi, %edi
	.p2align	4
L(11_62):
	movq	%rdi, %r8
	movq	-32(%rsi), %rdi
	subq	-16(%rsi), %rdi
	addq	%r8, %rdi
	jb	L(11_276)
	addq	(%rsi), %rdi
	jb	L(11_276)
	addq	$56, %rsi
	decq	%rdx
	jne	L(11_62)
	cmpq	%rcx, %rdi
	jb	L(11_66)
	jmp	L(11_85)
L(11_39):
	xorl	%ecx, %ecx
	cmpb	$0, 8(%rsp)
	jne	L(11_49)
L(11_72):
	testq	%r14, %r14
	je	L(11_73)
	movq	16(%rsp), %rdx
	leaq	40(%rdx), %rsi
	xorl	%edx, %edx
	movq	%r14, %rdi
	.p2align	4
L(11_75):
	movq	%rdx, %r8
	movq	-32(%rsi), %rdx
	subq	-16(%rsi), %rdx
	addq	%r8, %rdx
	jb	L(11_276)
	addq	(%rsi), %rdx
	jb	L(11_276)
	addq	$56, %rsi
	decq	%rdi
	jne	L(11_75)
	cmpq	%rcx, %rdx
	jb	L(11_79)
	jmp	L(11_85)
L(11_73):
	xorl	%edx, %edx
	cmpq	%rcx, %rdx
	jae	L(11_85)
L(11_79):
	leaq	8(%rbx), %rcx
	movq	(%rcx), %rcx
	movzwl	(%rcx), %esi
	testq	%rsi, %rsi
	je	L(11_81)
L(11_82):
	leal	(,%rsi,8), %edi
	xorl	%edx, %edx
	.p2align	4
L(11_83):
	movq	8(%rcx,%rdx), %r8
	cmpq	%r8, %r12
	setae	%r9b
	addb	%r9b, %r9b
	cmpq	%r8, %r12
	movzbl	%r9b, %r9d
	movl	$1, %r8d
	cmovnel	%r9d, %r8d
	cmpb	$2, %r8b
	jne	L(11_84)
	addq	$8, %rdx
	cmpq	%rdx, %rdi
	jne	L(11_83)
	shll	$3, %esi
	movq	%rsi, %rdx
	jmp	L(11_91)
L(11_84):
	movzbl	%r8b, %esi
	testl	%esi, %esi
	jne	L(11_85)
	jmp	L(11_91)
L(11_81):
	xorl	%edx, %edx
L(11_91):
	cmpw	$0, 2(%rcx)
	je	L(11_66)
	addq	%rdx, %rcx
	addq	$848, %rcx
	movq	(%rcx), %rcx
	movzwl	(%rcx), %esi
	testq	%rsi, %rsi
	jne	L(11_82)
	jmp	L(11_81)
L(11_56):
	xorl	%edi, %edi
	cmpq	%rcx, %rdi
	jae	L(11_85)
L(11_66):
	xorps	%xmm0, %xmm0
	movaps	%xmm0, 368(%rsp)
	movaps	%xmm0, 384(%rsp)
	movups	%xmm0, 397(%rsp)
	movw	$0, 32(%rsp)
	movb	$0, 34(%rsp)
	movaps	%xmm0, 480(%rsp)
	movaps	%xmm0, 496(%rsp)
	movq	$0, 512(%rsp)
	movq	%rbp, 328(%rsp)
	movq	16(%rsp), %rax
	movq	%rax, 336(%rsp)
	movq	%r14, 344(%rsp)
	movaps	464(%rsp), %xmm1
	movups	%xmm1, 352(%rsp)
	cmpb	$0, 8(%rsp)
	je	L(11_151)
	movaps	%xmm0, 80(%rsp)
	movaps	%xmm0, 64(%rsp)
	movaps	%xmm0, 48(%rsp)
	leaq	48(%rsp), %rdi
	leaq	24(%rsp), %rdx
	xorl	%esi, %esi
	xorl	%ecx, %ecx
	xorl	%r8d, %r8d
	callq	"xet_merkle::merkle_hash_subtree::subtree::as_range::MerkleHashSubtreeChunkRange::from_chunks::<#d96a70c1b70ca186>"
	cmpb	$0, 48(%rsp)
	je	L(11_68)
	movzbl	49(%rsp), %ebp
	jmp	L(11_119)
L(11_85):
	xorps	%xmm0, %xmm0
	movaps	%xmm0, 48(%rsp)
	movaps	%xmm0, 64(%rsp)
	movaps	%xmm0, 80(%rsp)
	movaps	%xmm0, 96(%rsp)
	movaps	%xmm0, 160(%rsp)
	movaps	%xmm0, 176(%rsp)
	movaps	%xmm0, 192(%rsp)
	movq	$0, 208(%rsp)
	movq	%rbp, 224(%rsp)
	movq	16(%rsp), %rcx
	movq	%rcx, 232(%rsp)
	movq	%r14, 240(%rsp)
	movaps	464(%rsp), %xmm0
	movups	%xmm0, 248(%rsp)
	movq	%r15, %r14
	cmpb	$1, %al
	jne	L(11_204)
	leaq	8(%rbx), %rax
	movq	(%rax), %rax
	movzwl	(%rax), %edx
	testq	%rdx, %rdx
	je	L(11_88)
L(11_199):
	leaq	136(%rax), %r14
	leal	(,%rdx,8), %esi
	xorl	%ecx, %ecx
	.p2align	4
L(11_200):
	movq	8(%rax,%rcx), %rdi
	cmpq	%rdi, %r15
	setae	%r8b
	addb	%r8b, %r8b
	cmpq	%rdi, %r15
	movzbl	%r8b, %r8d
	movl	$1, %edi
	cmovnel	%r8d, %edi
	cmpb	$2, %dil
	jne	L(11_201)
	addq	$48, %r14
	addq	$8, %rcx
	cmpq	%rcx, %rsi
	jne	L(11_200)
	shll	$3, %edx
	movq	%rdx, %rcx
	jmp	L(11_215)
L(11_201):
	movzbl	%dil, %edx
	testl	%edx, %edx
	jne	L(11_202)
	jmp	L(11_215)
L(11_88):
	xorl	%ecx, %ecx
L(11_215):
	cmpw	$0, 2(%rax)
	je	L(11_216)
	addq	%rcx, %rax
	addq	$848, %rax
	movq	(%rax), %rax
	movzwl	(%rax), %edx
	testq	%rdx, %rdx
	jne	L(11_199)
	jmp	L(11_88)
L(11_202):
	xorps	%xmm0, %xmm0
	movaps	%xmm0, 384(%rsp)
	movaps	%xmm0, 368(%rsp)
	leaq	368(%rsp), %rdi
	leaq	224(%rsp), %rsi
	xorl	%ebp, %ebp
	movq	%r14, %rdx
	xorl	%ecx, %ecx
	callq	"xet_merkle::merkle_hash_subtree::subtree::MerkleHashSubtree::merge_with::<#3cf6a99334775a21>"
	cmpb	$0, 368(%rsp)
	movzbl	369(%rsp), %eax
	cmovel	%ebp, %eax
	je	L(11_203)
	movl	%eax, %ebp
	movq	232(%rsp), %rbx
	movq	240(%rsp), %r12
	movq	248(%rsp), %rax
	movq	%rax, 8(%rsp)
	testq	%r12, %r12
	je	L(11_172)
	leaq	48(%rbx), %r13
	jmp	L(11_220)
	.p2align	4
L(11_224):
	addq	$56, %r13
	decq	%r12
	je	L(11_172)
L(11_220):
	movq	-16(%r13), %r14
	movq	(%r13), %r15
	cmpq	$0, -32(%r13)
	je	L(11_222)
	movq	-48(%r13), %rdi
	callq	PLT(yurewha_heap_dealloc)
L(11_222):
	testq	%r15, %r15
	je	L(11_224)
	movq	%r14, %rdi
	callq	PLT(yurewha_heap_dealloc)
	jmp	L(11_224)
L(11_203):
	movq	-8(%r14), %r14
	jmp	L(11_204)
L(11_151):
	movq	%rbp, 8(%rsp)
	movups	352(%rsp), %xmm1
	movaps	%xmm1, 272(%rsp)
	movq	352(%rsp), %r13
	movaps	%xmm0, 112(%rsp)
	movaps	%xmm0, 128(%rsp)
	movaps	%xmm0, 144(%rsp)
	movaps	%xmm0, 48(%rsp)
	movaps	%xmm0, 64(%rsp)
	movaps	%xmm0, 80(%rsp)
	movaps	%xmm0, 96(%rsp)
	movw	$0, 36(%rsp)
	movb	$0, 38(%rsp)
	movaps	%xmm0, 160(%rsp)
	movaps	%xmm0, 176(%rsp)
	movaps	%xmm0, 192(%rsp)
	movq	$0, 208(%rsp)
	leaq	112(%rsp), %rdi
	leaq	24(%rsp), %rdx
	xorl	%esi, %esi
	xorl	%ecx, %ecx
	xorl	%r8d, %r8d
	callq	"xet_merkle::merkle_hash_subtree::subtree::as_range::MerkleHashSubtreeChunkRange::from_chunks::<#d96a70c1b70ca186>"
	cmpb	$0, 112(%rsp)
	je	L(11_152)
	movzbl	113(%rsp), %ebp
	testq	%r14, %r14
	je	L(11_181)
	movq	16(%rsp), %rax
	leaq	48(%rax), %r15
	jmp	L(11_176)
L(11_180):
	addq	$56, %r15
	decq	%r14
	je	L(11_181)
L(11_176):
	movq	-16(%r15), %rbx
	movq	(%r15), %r12
	cmpq	$0, -32(%r15)
	je	L(11_178)
	movq	-48(%r15), %rdi
	callq	PLT(yurewha_heap_dealloc)
L(11_178):
	testq	%r12, %r12
	je	L(11_180)
	movq	%rbx, %rdi
	callq	PLT(yurewha_heap_dealloc)
	jmp	L(11_180)
L(11_216):
	movq	%r15, %r14
L(11_204):
	movq	256(%rsp), %rax
	movq	%rax, 152(%rsp)
	movq	224(%rsp), %rax
	movq	232(%rsp), %rcx
	movq	240(%rsp), %rdx
	movq	%rdx, 136(%rsp)
	movq	248(%rsp), %rdx
	movq	%rdx, 144(%rsp)
	movq	%rax, 120(%rsp)
	movq	%rcx, 128(%rsp)
	movq	%r14, 112(%rsp)
	cmpb	$0, 8(%rsp)
	je	L(11_236)
	cmpb	$1, (%rbx)
	jne	L(11_247)
	leaq	120(%rsp), %rdx
	leaq	8(%rbx), %rax
	movq	8(%rbx), %r11
	movzwl	2(%r11), %ecx
	movl	$15, %esi
	subq	%rcx, %rsi
	xorl	%r8d, %r8d
	movq	%r11, %r10
L(11_207):
	movq	%r11, %r9
	movzwl	(%r11), %r11d
	xorl	%edi, %edi
	testq	%r11, %r11
	je	L(11_227)
	.p2align	4
L(11_208):
	movq	8(%r9,%rdi,8), %r12
	cmpq	%r12, %r13
	setae	%bpl
	addb	%bpl, %bpl
	cmpq	%r12, %r13
	movzbl	%bpl, %r12d
	movl	$1, %ebp
	cmovnel	%r12d, %ebp
	cmpb	$2, %bpl
	jne	L(11_209)
	incq	%rdi
	cmpq	%rdi, %r11
	jne	L(11_208)
	movq	%r11, %rdi
	jmp	L(11_227)
L(11_209):
	movzbl	%bpl, %r11d
	testl	%r11d, %r11d
	jne	L(11_210)
L(11_227):
	cmpw	$0, 2(%r9)
	je	L(11_247)
	incq	%rsi
	movq	848(%r9,%rdi,8), %r11
	movq	%rdi, %r8
	movq	%r9, %r10
	jmp	L(11_207)
L(11_236):
	leaq	48(%rsp), %rdi
	leaq	112(%rsp), %rcx
	movq	%rbx, %rsi
	movq	%r12, %rdx
	callq	"std_collections::btree_map::BTreeMap::insert::<#09be7a39fcfa9307>"
	cmpb	$0, 48(%rsp)
	je	L(11_237)
	movq	80(%rsp), %rbx
	movq	88(%rsp), %r12
	movq	96(%rsp), %r15
	testq	%r12, %r12
	je	L(11_274)
	leaq	48(%rbx), %r13
	jmp	L(11_269)
	.p2align	4
L(11_273):
	addq	$56, %r13
	decq	%r12
	je	L(11_274)
L(11_269):
	movq	-16(%r13), %r14
	movq	(%r13), %rbp
	cmpq	$0, -32(%r13)
	je	L(11_271)
	movq	-48(%r13), %rdi
	callq	PLT(yurewha_heap_dealloc)
L(11_271):
	testq	%rbp, %rbp
	je	L(11_273)
	movq	%r14, %rdi
	callq	PLT(yurewha_heap_dealloc)
	jmp	L(11_273)
L(11_274):
	movb	$2, %bpl
	testq	%r15, %r15
	jne	L(11_173)
	jmp	L(11_275)
L(11_210):
	andl	$15, %edi
	addq	%rsi, %rcx
	cmpq	$15, %rcx
	leaq	848(%r10,%r8,8), %rcx
	cmoveq	%rax, %rcx
	movq	(%rcx), %r12
	movzwl	(%r12), %eax
	cmpq	%rax, %rdi
	jae	L(11_276)
	leaq	(%rdi,%rdi,2), %r13
	shll	$4, %r13d
	leaq	(%r12,%r13), %rsi
	addq	$136, %rsi
	xorps	%xmm0, %xmm0
	movaps	%xmm0, 240(%rsp)
	movaps	%xmm0, 224(%rsp)
	leaq	224(%rsp), %rdi
	xorl	%ebp, %ebp
	xorl	%ecx, %ecx
	callq	"xet_merkle::merkle_hash_subtree::subtree::MerkleHashSubtree::merge_with::<#3cf6a99334775a21>"
	cmpb	$0, 224(%rsp)
	movzbl	225(%rsp), %eax
	cmovel	%ebp, %eax
	je	L(11_212)
	movl	%eax, %ebp
	movq	128(%rsp), %rbx
	movq	136(%rsp), %r12
	movq	144(%rsp), %rax
	movq	%rax, 8(%rsp)
	testq	%r12, %r12
	je	L(11_172)
	leaq	48(%rbx), %r13
	jmp	L(11_231)
	.p2align	4
L(11_235):
	addq	$56, %r13
	decq	%r12
	je	L(11_172)
L(11_231):
	movq	-16(%r13), %r14
	movq	(%r13), %r15
	cmpq	$0, -32(%r13)
	je	L(11_233)
	movq	-48(%r13), %rdi
	callq	PLT(yurewha_heap_dealloc)
L(11_233):
	testq	%r15, %r15
	je	L(11_235)
	movq	%r14, %rdi
	callq	PLT(yurewha_heap_dealloc)
	jmp	L(11_235)
L(11_237):
	cmpb	$1, 56(%rsp)
	jne	L(11_247)
	movq	80(%rsp), %rax
	movq	%rax, 16(%rsp)
	movq	88(%rsp), %rbp
	movq	96(%rsp), %rax
	movq	%rax, 272(%rsp)
	testq	%rbp, %rbp
	je	L(11_245)
	movq	16(%rsp), %rax
	leaq	48(%rax), %r13
	jmp	L(11_240)
	.p2align	4
L(11_244):
	addq	$56, %r13
	decq	%rbp
	je	L(11_245)
L(11_240):
	movq	-16(%r13), %r12
	movq	(%r13), %r14
	cmpq	$0, -32(%r13)
	je	L(11_242)
	movq	-48(%r13), %rdi
	callq	PLT(yurewha_heap_dealloc)
L(11_242):
	testq	%r14, %r14
	je	L(11_244)
	movq	%r12, %rdi
	callq	PLT(yurewha_heap_dealloc)
	jmp	L(11_244)
L(11_245):
	cmpq	$0, 272(%rsp)
	je	L(11_247)
	movq	16(%rsp), %rdi
	callq	PLT(yurewha_heap_dealloc)
	jmp	L(11_247)
L(11_212):
	leaq	(%r12,%r13), %rax
	addq	$128, %rax
	movq	%r14, (%rax)
L(11_247):
	leaq	160(%rsp), %rdi
	movq	%rbx, %rsi
	movq	%r15, %rdx
	callq	"std_collections::btree_map::BTreeMap::remove::<#0b8f5120abf1300c>"
	cmpb	$1, 160(%rsp)
	jne	L(11_257)
	movq	184(%rsp), %r14
	movq	192(%rsp), %r13
	movq	200(%rsp), %rax
	movq	%rax, 16(%rsp)
	testq	%r13, %r13
	je	L(11_255)
	leaq	48(%r14), %rbp
	jmp	L(11_250)
	.p2align	4
L(11_254):
	addq	$56, %rbp
	decq	%r13
	je	L(11_255)
L(11_250):
	movq	-16(%rbp), %r15
	movq	(%rbp), %r12
	cmpq	$0, -32(%rbp)
	je	L(11_252)
	movq	-48(%rbp), %rdi
	callq	PLT(yurewha_heap_dealloc)
L(11_252):
	testq	%r12, %r12
	je	L(11_254)
	movq	%r15, %rdi
	callq	PLT(yurewha_heap_dealloc)
	jmp	L(11_254)
L(11_255):
	cmpq	$0, 16(%rsp)
	je	L(11_257)
	movq	%r14, %rdi
	callq	PLT(yurewha_heap_dealloc)
L(11_257):
	cmpb	$0, 8(%rsp)
	je	L(11_138)
	movq	128(%rsp), %r14
	movq	136(%rsp), %r13
	movq	144(%rsp), %rax
	movq	%rax, 8(%rsp)
	testq	%r13, %r13
	je	L(11_265)
	leaq	48(%r14), %rbp
	jmp	L(11_260)
	.p2align	4
L(11_264):
	addq	$56, %rbp
	decq	%r13
	je	L(11_265)
L(11_260):
	movq	-16(%rbp), %r15
	movq	(%rbp), %r12
	cmpq	$0, -32(%rbp)
	je	L(11_262)
	movq	-48(%rbp), %rdi
	callq	PLT(yurewha_heap_dealloc)
L(11_262):
	testq	%r12, %r12
	je	L(11_264)
	movq	%r15, %rdi
	callq	PLT(yurewha_heap_dealloc)
	jmp	L(11_264)
L(11_265):
	cmpq	$0, 8(%rsp)
	je	L(11_138)
	movq	%r14, %rdi
L(11_137):
	callq	PLT(yurewha_heap_dealloc)
L(11_138):
	movq	40(%rsp), %rax
	movq	%rax, 24(%rbx)
	cmpq	$0, 40(%rbx)
	je	L(11_140)
	movq	$0, 40(%rbx)
L(11_140):
	movq	64(%rbx), %rax
	movq	%rax, 56(%rbx)
L(11_141):
	xorl	%eax, %eax
L(11_142):
	addq	$568, %rsp
	.cfi_def_cfa_offset 56
	popq	%rbx
	.cfi_def_cfa_offset 48
	popq	%r12
	.cfi_def_cfa_offset 40
	popq	%r13
	.cfi_def_cfa_offset 32
	popq	%r14
	.cfi_def_cfa_offset 24
	popq	%r15
	.cfi_def_cfa_offset 16
	popq	%rbp
	.cfi_def_cfa_offset 8
	retq
L(11_68):
	.cfi_def_cfa_offset 624
	movq	88(%rsp), %rax
	movq	%rax, 192(%rsp)
	movups	56(%rsp), %xmm0
	movups	72(%rsp), %xmm1
	movaps	%xmm1, 176(%rsp)
	movaps	%xmm0, 160(%rsp)
	cmpb	$1, (%rbx)
	jne	L(11_110)
	leaq	8(%rbx), %rax
	movq	(%rax), %rax
	movzwl	(%rax), %esi
	testq	%rsi, %rsi
	je	L(11_71)
L(11_93):
	leaq	136(%rax), %rdx
	leal	(,%rsi,8), %edi
	xorl	%ecx, %ecx
L(11_94):
	movq	8(%rax,%rcx), %r8
	cmpq	%r8, %r13
	setae	%r9b
	addb	%r9b, %r9b
	cmpq	%r8, %r13
	movzbl	%r9b, %r9d
	movl	$1, %r8d
	cmovnel	%r9d, %r8d
	cmpb	$2, %r8b
	jne	L(11_95)
	addq	$48, %rdx
	addq	$8, %rcx
	cmpq	%rcx, %rdi
	jne	L(11_94)
	shll	$3, %esi
	movq	%rsi, %rcx
	jmp	L(11_108)
L(11_95):
	movzbl	%r8b, %esi
	testl	%esi, %esi
	jne	L(11_96)
	jmp	L(11_108)
L(11_71):
	xorl	%ecx, %ecx
L(11_108):
	cmpw	$0, 2(%rax)
	je	L(11_110)
	addq	%rcx, %rax
	addq	$848, %rax
	movq	(%rax), %rax
	movzwl	(%rax), %esi
	testq	%rsi, %rsi
	jne	L(11_93)
	jmp	L(11_71)
L(11_152):
	movq	%r15, 224(%rsp)
	movups	120(%rsp), %xmm0
	movups	136(%rsp), %xmm1
	movups	%xmm0, 232(%rsp)
	movups	%xmm1, 248(%rsp)
	movq	152(%rsp), %rax
	movq	%rax, 264(%rsp)
	leaq	48(%rsp), %rdi
	leaq	224(%rsp), %rcx
	movq	%rbx, %rsi
	movq	%r12, %rdx
	callq	"std_collections::btree_map::BTreeMap::insert::<#09be7a39fcfa9307>"
	cmpb	$0, 48(%rsp)
	je	L(11_153)
	movq	80(%rsp), %rax
	movq	%rax, 8(%rsp)
	movq	88(%rsp), %rbp
	movq	96(%rsp), %rax
	movq	%rax, 40(%rsp)
	testq	%rbp, %rbp
	je	L(11_189)
	movq	8(%rsp), %rax
	leaq	48(%rax), %r12
	jmp	L(11_184)
L(11_188):
	addq	$56, %r12
	decq	%rbp
	je	L(11_189)
L(11_184):
	movq	-16(%r12), %r15
	movq	(%r12), %rbx
	cmpq	$0, -32(%r12)
	je	L(11_186)
	movq	-48(%r12), %rdi
	callq	PLT(yurewha_heap_dealloc)
L(11_186):
	testq	%rbx, %rbx
	je	L(11_188)
	movq	%r15, %rdi
	callq	PLT(yurewha_heap_dealloc)
	jmp	L(11_188)
L(11_189):
	cmpq	$0, 40(%rsp)
	je	L(11_191)
	movq	8(%rsp), %rdi
	callq	PLT(yurewha_heap_dealloc)
L(11_191):
	testq	%r14, %r14
	je	L(11_198)
	movq	16(%rsp), %rax
	leaq	48(%rax), %r15
	jmp	L(11_193)
L(11_197):
	addq	$56, %r15
	decq	%r14
	je	L(11_198)
L(11_193):
	movq	-16(%r15), %rbx
	movq	(%r15), %r12
	cmpq	$0, -32(%r15)
	je	L(11_195)
	movq	-48(%r15), %rdi
	callq	PLT(yurewha_heap_dealloc)
L(11_195):
	testq	%r12, %r12
	je	L(11_197)
	movq	%rbx, %rdi
	callq	PLT(yurewha_heap_dealloc)
	jmp	L(11_197)
L(11_198):
	movb	$2, %bpl
L(11_181):
	testq	%r13, %r13
	jne	L(11_127)
	jmp	L(11_275)
L(11_96):
	xorps	%xmm0, %xmm0
	movaps	%xmm0, 128(%rsp)
	movaps	%xmm0, 112(%rsp)
	leaq	112(%rsp), %rdi
	leaq	160(%rsp), %rsi
	xorl	%r12d, %r12d
	xorl	%ecx, %ecx
	callq	"xet_merkle::merkle_hash_subtree::subtree::MerkleHashSubtree::merge_with::<#3cf6a99334775a21>"
	cmpb	$0, 112(%rsp)
	movzbl	113(%rsp), %ebp
	cmovel	%r12d, %ebp
	je	L(11_110)
	movq	168(%rsp), %rax
	movq	%rax, 8(%rsp)
	movq	176(%rsp), %r13
	movq	184(%rsp), %rax
	movq	%rax, 40(%rsp)
	testq	%r13, %r13
	je	L(11_104)
	movq	8(%rsp), %rax
	leaq	48(%rax), %r12
	jmp	L(11_99)
L(11_103):
	addq	$56, %r12
	decq	%r13
	je	L(11_104)
L(11_99):
	movq	-16(%r12), %r15
	movq	(%r12), %rbx
	cmpq	$0, -32(%r12)
	je	L(11_101)
	movq	-48(%r12), %rdi
	callq	PLT(yurewha_heap_dealloc)
L(11_101):
	testq	%rbx, %rbx
	je	L(11_103)
	movq	%r15, %rdi
	callq	PLT(yurewha_heap_dealloc)
	jmp	L(11_103)
L(11_110):
	xorps	%xmm0, %xmm0
	movaps	%xmm0, 128(%rsp)
	movaps	%xmm0, 112(%rsp)
	leaq	112(%rsp), %rdi
	leaq	160(%rsp), %rsi
	leaq	328(%rsp), %rdx
	xorl	%r12d, %r12d
	xorl	%ecx, %ecx
	callq	"xet_merkle::merkle_hash_subtree::subtree::MerkleHashSubtree::merge_with::<#3cf6a99334775a21>"
	cmpb	$0, 112(%rsp)
	movzbl	113(%rsp), %ebp
	cmovel	%r12d, %ebp
	je	L(11_143)
	movq	168(%rsp), %rax
	movq	%rax, 8(%rsp)
	movq	176(%rsp), %r13
	movq	184(%rsp), %rax
	movq	%rax, 40(%rsp)
	testq	%r13, %r13
	je	L(11_104)
	movq	8(%rsp), %rax
	leaq	48(%rax), %r12
	jmp	L(11_113)
L(11_117):
	addq	$56, %r12
	decq	%r13
	je	L(11_104)
L(11_113):
	movq	-16(%r12), %r15
	movq	(%r12), %rbx
	cmpq	$0, -32(%r12)
	je	L(11_115)
	movq	-48(%r12), %rdi
	callq	PLT(yurewha_heap_dealloc)
L(11_115):
	testq	%rbx, %rbx
	je	L(11_117)
	movq	%r15, %rdi
	callq	PLT(yurewha_heap_dealloc)
	jmp	L(11_117)
L(11_104):
	cmpq	$0, 40(%rsp)
	je	L(11_119)
	movq	8(%rsp), %rdi
	callq	PLT(yurewha_heap_dealloc)
L(11_119):
	movq	352(%rsp), %r15
	testq	%r14, %r14
	je	L(11_126)
	movq	16(%rsp), %rax
	leaq	48(%rax), %r12
	jmp	L(11_121)
	.p2align	4
L(11_125):
	addq	$56, %r12
	decq	%r14
	je	L(11_126)
L(11_121):
	movq	-16(%r12), %rbx
	movq	(%r12), %r13
	cmpq	$0, -32(%r12)
	je	L(11_123)
	movq	-48(%r12), %rdi
	callq	PLT(yurewha_heap_dealloc)
L(11_123):
	testq	%r13, %r13
	je	L(11_125)
	movq	%rbx, %rdi
	callq	PLT(yurewha_heap_dealloc)
	jmp	L(11_125)
L(11_153):
	cmpb	$1, 56(%rsp)
	movq	8(%rsp), %rax
	movaps	272(%rsp), %xmm0
	jne	L(11_163)
	movq	80(%rsp), %rcx
	movq	%rcx, 296(%rsp)
	movq	88(%rsp), %r13
	movq	96(%rsp), %rcx
	movq	%rcx, 304(%rsp)
	testq	%r13, %r13
	je	L(11_161)
	movq	296(%rsp), %rcx
	leaq	48(%rcx), %rbp
	jmp	L(11_156)
L(11_160):
	addq	$56, %rbp
	decq	%r13
	je	L(11_161)
L(11_156):
	movq	-16(%rbp), %rdi
	movq	(%rbp), %rcx
	cmpq	$0, -32(%rbp)
	je	L(11_158)
	movq	%rdi, 320(%rsp)
	movq	-48(%rbp), %rdi
	movq	%rcx, 312(%rsp)
	callq	PLT(yurewha_heap_dealloc)
	movq	312(%rsp), %rcx
	movq	320(%rsp), %rdi
	movaps	272(%rsp), %xmm0
	movq	8(%rsp), %rax
L(11_158):
	testq	%rcx, %rcx
	je	L(11_160)
	callq	PLT(yurewha_heap_dealloc)
	movaps	272(%rsp), %xmm0
	movq	8(%rsp), %rax
	jmp	L(11_160)
L(11_143):
	movq	192(%rsp), %rax
	movq	%rax, 405(%rsp)
	movaps	160(%rsp), %xmm0
	movaps	176(%rsp), %xmm1
	movups	%xmm1, 389(%rsp)
	movups	%xmm0, 373(%rsp)
	movaps	%xmm0, 480(%rsp)
	movaps	%xmm1, 496(%rsp)
	movq	%rax, 512(%rsp)
	leaq	32(%rsp), %rdi
	leaq	480(%rsp), %rcx
	movq	%rbx, %rsi
	movq	%r13, %rdx
	movq	%r15, %r8
	callq	"upload_session::runs::Runs::put_before_next::<#ca9445b3ca2ffbf0>"
	cmpb	$0, 32(%rsp)
	je	L(11_128)
	movzbl	33(%rsp), %ebp
	movq	352(%rsp), %r15
	testq	%r14, %r14
	je	L(11_126)
	movq	16(%rsp), %rax
	leaq	48(%rax), %r12
	jmp	L(11_146)
L(11_150):
	addq	$56, %r12
	decq	%r14
	je	L(11_126)
L(11_146):
	movq	-16(%r12), %rbx
	movq	(%r12), %r13
	cmpq	$0, -32(%r12)
	je	L(11_148)
	movq	-48(%r12), %rdi
	callq	PLT(yurewha_heap_dealloc)
L(11_148):
	testq	%r13, %r13
	je	L(11_150)
	movq	%rbx, %rdi
	callq	PLT(yurewha_heap_dealloc)
	jmp	L(11_150)
L(11_126):
	testq	%r15, %r15
	je	L(11_275)
L(11_127):
	movq	16(%rsp), %rdi
	callq	PLT(yurewha_heap_dealloc)
	jmp	L(11_275)
L(11_161):
	cmpq	$0, 304(%rsp)
	je	L(11_163)
	movq	296(%rsp), %rdi
	callq	PLT(yurewha_heap_dealloc)
	movaps	272(%rsp), %xmm0
	movq	8(%rsp), %rax
L(11_163):
	movq	%rax, 528(%rsp)
	movq	16(%rsp), %rax
	movq	%rax, 536(%rsp)
	movq	%r14, 544(%rsp)
	movups	%xmm0, 552(%rsp)
	leaq	36(%rsp), %rdi
	leaq	528(%rsp), %rcx
	movq	%rbx, %rsi
	movq	%r12, %rdx
	movq	%r15, %r8
	callq	"upload_session::runs::Runs::put_before_next::<#ca9445b3ca2ffbf0>"
	cmpb	$0, 36(%rsp)
	je	L(11_138)
	movzbl	37(%rsp), %ebp
	leaq	160(%rsp), %rdi
	movq	%rbx, %rsi
	movq	%r12, %rdx
	callq	"std_collections::btree_map::BTreeMap::remove::<#0b8f5120abf1300c>"
	cmpb	$1, 160(%rsp)
	jne	L(11_275)
	movq	184(%rsp), %rbx
	movq	192(%rsp), %r12
	movq	200(%rsp), %rax
	movq	%rax, 8(%rsp)
	testq	%r12, %r12
	je	L(11_172)
	leaq	48(%rbx), %r13
	jmp	L(11_167)
L(11_171):
	addq	$56, %r13
	decq	%r12
	je	L(11_172)
L(11_167):
	movq	-16(%r13), %r14
	movq	(%r13), %r15
	cmpq	$0, -32(%r13)
	je	L(11_169)
	movq	-48(%r13), %rdi
	callq	PLT(yurewha_heap_dealloc)
L(11_169):
	testq	%r15, %r15
	je	L(11_171)
	movq	%r14, %rdi
	callq	PLT(yurewha_heap_dealloc)
	jmp	L(11_171)
L(11_172):
	cmpq	$0, 8(%rsp)
	je	L(11_275)
L(11_173):
	movq	%rbx, %rdi
	callq	PLT(yurewha_heap_dealloc)
	jmp	L(11_275)
L(11_128):
	movq	352(%rsp), %r12
	testq	%r14, %r14
	je	L(11_135)
	movq	16(%rsp), %rax
	leaq	48(%rax), %r13
	jmp	L(11_130)
L(11_134):
	addq	$56, %r13
	decq	%r14
	je	L(11_135)
L(11_130):
	movq	-16(%r13), %r15
	movq	(%r13), %rbp
	cmpq	$0, -32(%r13)
	je	L(11_132)
	movq	-48(%r13), %rdi
	callq	PLT(yurewha_heap_dealloc)
L(11_132):
	testq	%rbp, %rbp
	je	L(11_134)
	movq	%r15, %rdi
	callq	PLT(yurewha_heap_dealloc)
	jmp	L(11_134)
L(11_135):
	testq	%r12, %r12
	je	L(11_138)
	movq	16(%rsp), %rdi
	jmp	L(11_137)
	SIZE("xetroot_text::placed_pairs::PlacedPairs::end_range::<#ca9445b3ca2ffbf0>")
	.cfi_endproc

CODE(".text.xet_merkle::merkle_hash_subtree::subtree::as_range::MerkleHashSubtreeChunkRange::from_chunks::<#d96a70c1b70ca186>")
	.p2align	4
	TYPE("xet_merkle::merkle_hash_subtree::subtree::as_range::MerkleHashSubtreeChunkRange::from_chunks::<#d96a70c1b70ca186>", function)
"xet_merkle::merkle_hash_subtree::subtree::as_range::MerkleHashSubtreeChunkRange::from_chunks::<#d96a70c1b70ca186>":
	.cfi_startproc
	pushq	%rbp
	.cfi_def_cfa_offset 16
	pushq	%r15
	.cfi_def_cfa_offset 24
	pushq	%r14
	.cfi_def_cfa_offset 32
	pushq	%r13
	.cfi_def_cfa_offset 40
	pushq	%r12
	.cfi_def_cfa_offset 48
	pushq	%rbx
	.cfi_def_cfa_offset 56
	subq	$728, %rsp
	.cfi_def_cfa_offset 784
	.cfi_offset %rbx, -56
	.cfi_offset %r12, -48
	.cfi_offset %r13, -40
	.cfi_offset %r14, -32
	.cfi_offset %r15, -24
	.cfi_offset %rbp, -16
	movq	%rcx, %r13
	movq	%rdx, %rbp
	movq	%rdi, %rbx
	movw	$0, 44(%rsp)
	movl	$0, 40(%rsp)
	movw	$0, 12(%rsp)
	movl	$0, 8(%rsp)
	testq	%rcx, %rcx
	je	L(12_4)
	leaq	32(%rbp), %rax
	xorl	%r15d, %r15d
	movq	%r13, %rcx
	.p2align	4
L(12_2):
	addq	(%rax), %r15
	jb	L(12_11)
	addq	$40, %rax
	decq	%rcx
	jne	L(12_2)
	jmp	L(12_5)
L(12_4):
	xorl	%r15d, %r15d
L(12_5):
	movq	%r8, 72(%rsp)
	movq	%rsi, 120(%rsp)
	movl	$56, %edi
	movl	$8, %esi
	callq	PLT(yurewha_heap_alloc)
	movq	%rax, %r14
	testb	$1, %r14b
	je	L(12_15)
	movq	%rdx, %r12
	andl	$1, %r14d
	xorps	%xmm0, %xmm0
	movaps	%xmm0, 192(%rsp)
	movaps	%xmm0, 400(%rsp)
	movaps	%xmm0, 416(%rsp)
	movaps	%xmm0, 432(%rsp)
	movq	$0, 448(%rsp)
	movaps	%xmm0, 528(%rsp)
	movaps	%xmm0, 544(%rsp)
	movaps	%xmm0, 368(%rsp)
	movaps	%xmm0, 384(%rsp)
	movaps	%xmm0, 240(%rsp)
	movq	$0, 256(%rsp)
	movaps	%xmm0, 592(%rsp)
	movaps	%xmm0, 576(%rsp)
	movaps	%xmm0, 560(%rsp)
	movq	$0, 608(%rsp)
	movaps	%xmm0, 352(%rsp)
	movaps	%xmm0, 336(%rsp)
	movaps	%xmm0, 512(%rsp)
	movaps	%xmm0, 496(%rsp)
	movaps	%xmm0, 320(%rsp)
	movaps	%xmm0, 304(%rsp)
	movups	%xmm0, 655(%rsp)
	movaps	%xmm0, 640(%rsp)
	movaps	%xmm0, 288(%rsp)
	movaps	%xmm0, 272(%rsp)
	movaps	%xmm0, 208(%rsp)
	movq	$0, 224(%rsp)
	movaps	%xmm0, 464(%rsp)
	movq	$0, 480(%rsp)
	movzbl	120(%rsp), %ecx
	movzbl	72(%rsp), %r8d
	leaq	400(%rsp), %rdi
	movq	%rbp, %rsi
	movq	%r13, %rdx
	movl	%ecx, 108(%rsp)
	movl	%r8d, 104(%rsp)
	callq	"subtree_levels::split::find_split::<#30d82ebffd2e63ea>"
	cmpb	$0, 400(%rsp)
	je	L(12_12)
	movq	408(%rsp), %rsi
	movq	416(%rsp), %rdx
	movq	424(%rsp), %r13
	movq	432(%rsp), %rbp
	movq	440(%rsp), %rax
	movq	%rax, 48(%rsp)
	movq	448(%rsp), %rax
	movq	%rax, 64(%rsp)
	leaq	336(%rsp), %rdi
	callq	"xet_roots::as_node::read_nodes::<#a0ff80199b3a144e>"
	cmpb	$0, 336(%rsp)
	jne	L(12_13)
	movq	%rbp, 56(%rsp)
	movq	%r13, 112(%rsp)
	movq	344(%rsp), %r13
	movq	360(%rsp), %rbp
	movaps	352(%rsp), %xmm0
	movaps	%xmm0, 176(%rsp)
	leaq	496(%rsp), %rdi
	movq	48(%rsp), %rsi
	movq	64(%rsp), %rdx
	callq	"xet_roots::as_node::read_nodes::<#a0ff80199b3a144e>"
	cmpb	$0, 496(%rsp)
	je	L(12_26)
	testq	%rbp, %rbp
	je	L(12_13)
	movq	%r13, %rdi
	callq	PLT(yurewha_heap_dealloc)
	jmp	L(12_13)
L(12_11):
	xorl	%esi, %esi
	movb	$1, %al
	movb	$1, %cl
	jmp	L(12_17)
L(12_12):
	leaq	528(%rsp), %rdi
	movq	%rbp, %rsi
	movq	%r13, %rdx
	callq	"xet_roots::as_node::read_nodes::<#a0ff80199b3a144e>"
	cmpb	$0, 528(%rsp)
	je	L(12_19)
L(12_13):
	movq	%r12, %rdi
L(12_14):
	callq	PLT(yurewha_heap_dealloc)
L(12_15):
	movl	$0, 8(%rsp)
	movw	$0, 12(%rsp)
L(12_16):
	movb	$2, %cl
	movb	$1, %al
	xorl	%esi, %esi
L(12_17):
	xorl	%edi, %edi
	xorl	%r12d, %r12d
	xorl	%r13d, %r13d
	xorl	%ebp, %ebp
	xorl	%r15d, %r15d
L(12_18):
	movzwl	12(%rsp), %edx
	movw	%dx, 44(%rsp)
	movl	8(%rsp), %edx
	movl	%edx, 40(%rsp)
	movb	%al, (%rbx)
	movb	%cl, 1(%rbx)
	movb	$0, 2(%rbx)
	movb	%sil, 8(%rbx)
	movb	%dil, 9(%rbx)
	movl	40(%rsp), %eax
	movl	%eax, 10(%rbx)
	movzwl	44(%rsp), %eax
	movw	%ax, 14(%rbx)
	movq	%r12, 16(%rbx)
	movq	%r13, 24(%rbx)
	movq	%rbp, 32(%rbx)
	movq	%r15, 40(%rbx)
	addq	$728, %rsp
	.cfi_def_cfa_offset 56
	popq	%rbx
	.cfi_def_cfa_offset 48
	popq	%r12
	.cfi_def_cfa_offset 40
	popq	%r13
	.cfi_def_cfa_offset 32
	popq	%r14
	.cfi_def_cfa_offset 24
	popq	%r15
	.cfi_def_cfa_offset 16
	popq	%rbp
	.cfi_def_cfa_offset 8
	retq
L(12_19):
	.cfi_def_cfa_offset 784
	movq	%r12, 240(%rsp)
	movq	$0, 248(%rsp)
	movq	%r14, 256(%rsp)
	xorps	%xmm0, %xmm0
	movups	%xmm0, 600(%rsp)
	movups	536(%rsp), %xmm0
	movaps	%xmm0, 560(%rsp)
	movq	552(%rsp), %rax
	movq	%rax, 576(%rsp)
	movq	$0, 584(%rsp)
	movq	%rsp, %rax
	movq	%rax, 592(%rsp)
	leaq	368(%rsp), %rdi
	leaq	240(%rsp), %rsi
	leaq	560(%rsp), %rdx
	callq	"subtree_levels::levels::pushed::<#024afdc31600bcbd>"
	cmpb	$0, 368(%rsp)
	jne	L(12_15)
	movq	376(%rsp), %r12
	movq	384(%rsp), %r13
	movq	392(%rsp), %rbp
	testq	%r13, %r13
	movq	72(%rsp), %rdi
	je	L(12_25)
L(12_21):
	leaq	40(%r12), %rax
	xorl	%ecx, %ecx
	movq	%r13, %rdx
L(12_22):
	movq	%rcx, %rsi
	movq	-32(%rax), %rcx
	subq	-16(%rax), %rcx
	addq	%rsi, %rcx
	jb	L(12_30)
	addq	(%rax), %rcx
	jb	L(12_30)
	addq	$56, %rax
	decq	%rdx
	jne	L(12_22)
L(12_25):
	movw	$0, 12(%rsp)
	movl	$0, 8(%rsp)
	xorl	%eax, %eax
	xorl	%ecx, %ecx
	movq	120(%rsp), %rsi
	jmp	L(12_18)
L(12_26):
	movq	%r12, 616(%rsp)
	movq	$0, 624(%rsp)
	movq	%r14, 632(%rsp)
	movups	504(%rsp), %xmm0
	movups	%xmm0, 704(%rsp)
	movq	520(%rsp), %rax
	movq	%rax, 720(%rsp)
	movq	%r13, 672(%rsp)
	movaps	176(%rsp), %xmm0
	movups	%xmm0, 680(%rsp)
	movq	$0, 696(%rsp)
	leaq	304(%rsp), %rdi
	leaq	616(%rsp), %rsi
	leaq	672(%rsp), %rdx
	callq	"subtree_levels::levels::pushed::<#024afdc31600bcbd>"
	cmpb	$0, 304(%rsp)
	jne	L(12_15)
	movq	312(%rsp), %rax
	movq	%rax, 48(%rsp)
	movq	320(%rsp), %rbp
	movq	328(%rsp), %rax
	movq	%rax, 64(%rsp)
	xorps	%xmm0, %xmm0
	movaps	%xmm0, 16(%rsp)
	movq	$0, 32(%rsp)
	movabsq	$-6148914691236517205, %rcx
	movq	56(%rsp), %r14
	movq	%r14, %rax
	mulq	%rcx
	shrq	%rdx
	movabsq	$6148914691236517205, %rcx
	xorl	%r13d, %r13d
	cmpq	%rcx, %rax
	seta	%r13b
	addq	%rdx, %r13
	je	L(12_39)
	movabsq	$230584300921369395, %rax
	cmpq	%rax, %r13
	ja	L(12_77)
	leaq	(,%r13,8), %rax
	leaq	(%rax,%rax,4), %rdi
	movl	$8, %esi
	callq	PLT(yurewha_heap_alloc)
	testb	$1, %al
	jne	L(12_40)
	jmp	L(12_77)
L(12_30):
	leaq	48(%r12), %r15
	jmp	L(12_32)
	.p2align	4
L(12_31):
	addq	$56, %r15
	decq	%r13
	je	L(12_36)
L(12_32):
	movq	-16(%r15), %rdi
	movq	(%r15), %r14
	cmpq	$0, -32(%r15)
	je	L(12_34)
	movq	%rdi, 72(%rsp)
	movq	-48(%r15), %rdi
	callq	PLT(yurewha_heap_dealloc)
	movq	72(%rsp), %rdi
L(12_34):
	testq	%r14, %r14
	je	L(12_31)
	callq	PLT(yurewha_heap_dealloc)
	jmp	L(12_31)
L(12_36):
	testq	%rbp, %rbp
	je	L(12_38)
	movq	%r12, %rdi
	callq	PLT(yurewha_heap_dealloc)
L(12_38):
	movw	$0, 12(%rsp)
	movl	$0, 8(%rsp)
	jmp	L(12_16)
L(12_39):
	movq	%rsp, %rdx
L(12_40):
	movq	%rdx, 80(%rsp)
	movq	$0, 88(%rsp)
	movq	%r13, 96(%rsp)
	cmpq	$576, %r14
	movq	%r14, %rax
	movl	$576, %r14d
	cmovbq	%rax, %r14
	testq	%rax, %rax
	je	L(12_53)
	movq	%rdx, 176(%rsp)
	leaq	(,%r14,8), %rax
	leaq	(%rax,%rax,4), %rdi
	movl	$8, %esi
	callq	PLT(yurewha_heap_alloc)
	testb	$1, %al
	je	L(12_58)
	movq	%rdx, %r12
	movq	%rdx, 16(%rsp)
	movq	%r14, 32(%rsp)
	movq	56(%rsp), %r14
	cmpq	$577, %r14
	jb	L(12_63)
	movq	112(%rsp), %r13
L(12_44):
	movq	%r14, 56(%rsp)
	movq	$0, 24(%rsp)
	xorl	%edx, %edx
	xorl	%r14d, %r14d
	jmp	L(12_47)
L(12_45):
	movq	16(%rsp), %r12
	movq	24(%rsp), %rdx
	.p2align	4
L(12_46):
	leaq	(%rdx,%rdx,4), %rax
	movq	160(%rsp), %rcx
	movq	%rcx, 32(%r12,%rax,8)
	movaps	128(%rsp), %xmm0
	movaps	144(%rsp), %xmm1
	movups	%xmm1, 16(%r12,%rax,8)
	movups	%xmm0, (%r12,%rax,8)
	incq	%rdx
	movq	%rdx, 24(%rsp)
	addq	$40, %r14
	cmpq	$23040, %r14
	je	L(12_49)
L(12_47):
	movq	32(%r13,%r14), %rax
	movq	%rax, 160(%rsp)
	movups	(%r13,%r14), %xmm0
	movups	16(%r13,%r14), %xmm1
	movaps	%xmm1, 144(%rsp)
	movaps	%xmm0, 128(%rsp)
	cmpq	%rdx, 32(%rsp)
	jne	L(12_46)
	leaq	16(%rsp), %rdi
	movl	$1, %esi
	callq	"std_alloc::vec::Vec::grow_amortized::<#1ed62de40e111fb4>"
	testb	%al, %al
	jne	L(12_45)
	jmp	L(12_69)
L(12_49):
	leaq	80(%rsp), %rdi
	leaq	192(%rsp), %rcx
	movq	%r12, %rsi
	callq	"xet_roots::aggregated_hashes::push_first_parents::<#135fa06c802d8a86>"
	testb	%al, %al
	jne	L(12_71)
	leaq	(%rdx,%rdx,4), %rax
	leaq	(%r13,%rax,8), %r13
	movq	56(%rsp), %r14
	subq	%rdx, %r14
	cmpq	$576, %r14
	ja	L(12_44)
	movq	$0, 24(%rsp)
	testq	%r14, %r14
	jne	L(12_64)
	jmp	L(12_54)
L(12_53):
	movq	%rsp, %rax
	movq	%rax, 16(%rsp)
	movq	%r14, 32(%rsp)
L(12_54):
	xorl	%edx, %edx
L(12_55):
	movq	16(%rsp), %r14
	leaq	80(%rsp), %rdi
	leaq	192(%rsp), %rcx
	movq	%r14, %rsi
	callq	"xet_roots::aggregated_hashes::push_parents::<#135fa06c802d8a86>"
	movq	32(%rsp), %rcx
	testb	%al, %al
	je	L(12_59)
	testq	%rcx, %rcx
	je	L(12_74)
	movq	%r14, %rdi
	jmp	L(12_73)
L(12_58):
	testq	%r13, %r13
	movq	176(%rsp), %rdi
	jne	L(12_76)
	jmp	L(12_77)
L(12_59):
	testq	%rcx, %rcx
	je	L(12_61)
	movq	%r14, %rdi
	callq	PLT(yurewha_heap_dealloc)
L(12_61):
	movq	96(%rsp), %rax
	movq	%rax, 663(%rsp)
	movups	80(%rsp), %xmm0
	movups	%xmm0, 647(%rsp)
	movq	48(%rsp), %rcx
	movq	%rcx, 208(%rsp)
	movq	%rbp, 216(%rsp)
	movq	64(%rsp), %rcx
	movq	%rcx, 224(%rsp)
	movaps	%xmm0, 464(%rsp)
	movq	%rax, 480(%rsp)
	leaq	272(%rsp), %rdi
	leaq	208(%rsp), %rsi
	leaq	464(%rsp), %rdx
	leaq	192(%rsp), %r9
	movl	108(%rsp), %ecx
	movl	104(%rsp), %r8d
	callq	"subtree_levels::collapse::collapse::<#a9d92fd6c0d16019>"
	cmpb	$0, 272(%rsp)
	jne	L(12_15)
	movq	280(%rsp), %r12
	movq	288(%rsp), %r13
	movq	296(%rsp), %rbp
	testq	%r13, %r13
	movq	72(%rsp), %rdi
	jne	L(12_21)
	jmp	L(12_25)
L(12_63):
	movq	$0, 24(%rsp)
	movq	112(%rsp), %r13
L(12_64):
	xorl	%edx, %edx
	jmp	L(12_66)
L(12_65):
	leaq	(%rdx,%rdx,4), %rax
	movq	160(%rsp), %rcx
	movq	%rcx, 32(%r12,%rax,8)
	movaps	128(%rsp), %xmm0
	movaps	144(%rsp), %xmm1
	movups	%xmm1, 16(%r12,%rax,8)
	movups	%xmm0, (%r12,%rax,8)
	incq	%rdx
	movq	%rdx, 24(%rsp)
	addq	$40, %r13
	decq	%r14
	je	L(12_55)
L(12_66):
	movq	32(%r13), %rax
	movq	%rax, 160(%rsp)
	movups	(%r13), %xmm0
	movups	16(%r13), %xmm1
	movaps	%xmm1, 144(%rsp)
	movaps	%xmm0, 128(%rsp)
	cmpq	%rdx, 32(%rsp)
	jne	L(12_65)
	leaq	16(%rsp), %rdi
	movl	$1, %esi
	callq	"std_alloc::vec::Vec::grow_amortized::<#1ed62de40e111fb4>"
	testb	%al, %al
	je	L(12_69)
	movq	16(%rsp), %r12
	movq	24(%rsp), %rdx
	jmp	L(12_65)
L(12_69):
	cmpq	$0, 32(%rsp)
	je	L(12_74)
	movq	16(%rsp), %rdi
	jmp	L(12_73)
L(12_71):
	cmpq	$0, 32(%rsp)
	je	L(12_74)
	movq	%r12, %rdi
L(12_73):
	callq	PLT(yurewha_heap_dealloc)
L(12_74):
	cmpq	$0, 96(%rsp)
	je	L(12_77)
	movq	80(%rsp), %rdi
L(12_76):
	callq	PLT(yurewha_heap_dealloc)
L(12_77):
	testq	%rbp, %rbp
	je	L(12_84)
	movq	48(%rsp), %rax
	leaq	48(%rax), %r15
	jmp	L(12_80)
L(12_79):
	addq	$56, %r15
	decq	%rbp
	je	L(12_84)
L(12_80):
	movq	-16(%r15), %r14
	movq	(%r15), %r12
	cmpq	$0, -32(%r15)
	je	L(12_82)
	movq	-48(%r15), %rdi
	callq	PLT(yurewha_heap_dealloc)
L(12_82):
	testq	%r12, %r12
	je	L(12_79)
	movq	%r14, %rdi
	callq	PLT(yurewha_heap_dealloc)
	jmp	L(12_79)
L(12_84):
	cmpq	$0, 64(%rsp)
	je	L(12_15)
	movq	48(%rsp), %rdi
	jmp	L(12_14)
	SIZE("xet_merkle::merkle_hash_subtree::subtree::as_range::MerkleHashSubtreeChunkRange::from_chunks::<#d96a70c1b70ca186>")
	.cfi_endproc

CODE(".text.subtree_levels::split::find_split::<#30d82ebffd2e63ea>")
	.p2align	4
	TYPE("subtree_levels::split::find_split::<#30d82ebffd2e63ea>", function)
"subtree_levels::split::find_split::<#30d82ebffd2e63ea>":
	.cfi_startproc
	pushq	%rbp
	.cfi_def_cfa_offset 16
	pushq	%r15
	.cfi_def_cfa_offset 24
	pushq	%r14
	.cfi_def_cfa_offset 32
	pushq	%r13
	.cfi_def_cfa_offset 40
	pushq	%r12
	.cfi_def_cfa_offset 48
	pushq	%rbx
	.cfi_def_cfa_offset 56
	.cfi_offset %rbx, -56
	.cfi_offset %r12, -48
	.cfi_offset %r13, -40
	.cfi_offset %r14, -32
	.cfi_offset %r15, -24
	.cfi_offset %rbp, -16
	cmpq	$1, %rdx
	ja	L(13_3)
L(13_1):
	xorps	%xmm0, %xmm0
	movups	%xmm0, 32(%rdi)
	movups	%xmm0, 16(%rdi)
	movups	%xmm0, (%rdi)
	movq	$0, 48(%rdi)
	jmp	L(13_2)
L(13_3):
	testb	$1, %cl
	je	L(13_5)
	xorl	%eax, %eax
	jmp	L(13_9)
L(13_5):
	movq	%rdx, %rcx
	negq	%rcx
	leaq	24(%rsi), %r9
	xorl	%eax, %eax
	xorl	%r10d, %r10d
	xorl	%ebx, %ebx
	xorl	%r11d, %r11d
	jmp	L(13_6)
	.p2align	4
L(13_20):
	incq	%rax
L(13_21):
	decq	%r10
	addq	$40, %r9
	cmpq	%r10, %rcx
	je	L(13_1)
L(13_6):
	testb	$3, (%r9)
	jne	L(13_20)
	leaq	-2(%rax), %r14
	cmpq	$5, %r14
	setb	%bpl
	andb	%bpl, %bl
	cmpb	$1, %bl
	je	L(13_8)
	cmpq	$5, %r14
	setb	%al
	movl	%r11d, %ebx
	andb	%al, %bl
	movb	$1, %r11b
	xorl	%eax, %eax
	jmp	L(13_21)
L(13_8):
	addq	%r10, %rax
	negq	%rax
L(13_9):
	leaq	(,%rax,8), %rcx
	leaq	(%rcx,%rcx,4), %r11
	leaq	(%rsi,%r11), %r9
	movq	%rdx, %rcx
	subq	%rax, %rcx
	movq	%rcx, %r10
	testb	$1, %r8b
	jne	L(13_38)
	cmpq	$64, %rcx
	jae	L(13_11)
L(13_27):
	testq	%rcx, %rcx
	je	L(13_1)
	leaq	(%r11,%rsi), %rdx
	addq	$24, %rdx
	xorl	%r8d, %r8d
	xorl	%r10d, %r10d
	xorl	%r11d, %r11d
	xorl	%ebx, %ebx
	xorl	%r14d, %r14d
	xorl	%r15d, %r15d
	jmp	L(13_29)
	.p2align	4
L(13_35):
	incq	%rbx
	movl	%r15d, %ebp
L(13_36):
	incq	%r11
	addq	$40, %rdx
	movl	%ebp, %r15d
	cmpq	%r11, %rcx
	je	L(13_37)
L(13_29):
	testb	$3, (%rdx)
	jne	L(13_35)
	testb	$1, %r14b
	je	L(13_32)
	leaq	-2(%rbx), %r14
	movq	%r11, %r12
	subq	%rbx, %r12
	cmpq	$5, %r14
	movzbl	%r8b, %ebp
	movl	$1, %r8d
	cmovael	%ebp, %r8d
	cmovbq	%r12, %r10
L(13_32):
	movb	$1, %bpl
	testb	$1, %r15b
	je	L(13_33)
	addq	$-2, %rbx
	cmpq	$5, %rbx
	setb	%r14b
	xorl	%ebx, %ebx
	jmp	L(13_36)
L(13_33):
	xorl	%r14d, %r14d
	xorl	%ebx, %ebx
	jmp	L(13_36)
L(13_37):
	cmpb	$1, %r8b
	jne	L(13_1)
L(13_38):
	leaq	(%r10,%r10,4), %rdx
	leaq	(%r9,%rdx,8), %rdx
	subq	%r10, %rcx
	movq	$1, (%rdi)
	movq	%rsi, 8(%rdi)
	movq	%rax, 16(%rdi)
	movq	%r9, 24(%rdi)
	movq	%r10, 32(%rdi)
	movq	%rdx, 40(%rdi)
	movq	%rcx, 48(%rdi)
L(13_2):
	popq	%rbx
	.cfi_def_cfa_offset 48
	popq	%r12
	.cfi_def_cfa_offset 40
	popq	%r13
	.cfi_def_cfa_offset 32
	popq	%r14
	.cfi_def_cfa_offset 24
	popq	%r15
	.cfi_def_cfa_offset 16
	popq	%rbp
	.cfi_def_cfa_offset 8
	retq
L(13_11):
	.cfi_def_cfa_offset 56
	leaq	(%rdx,%rdx,4), %rdx
	leaq	(%rsi,%rdx,8), %r13
	addq	$24, %r13
	movl	$64, %edx
L(13_12):
	movq	%rcx, %r10
	subq	%rdx, %r10
	leaq	(,%rdx,8), %r8
	leaq	(%r8,%r8,4), %r8
	movq	%r13, %r15
	subq	%r8, %r15
	.p2align	4
L(13_13):
	testq	%r10, %r10
	je	L(13_27)
	movq	%r10, %r8
	movq	%rdx, %rbx
	movq	%r15, %r14
	decq	%r10
	incq	%rdx
	addq	$-40, %r15
	leaq	(%r8,%r8,4), %r12
	testb	$3, -16(%r9,%r12,8)
	jne	L(13_13)
	movq	%rcx, %rdx
	subq	%r8, %rdx
	je	L(13_26)
	movq	%rdx, -24(%rsp)
	movq	%r13, -16(%rsp)
	movq	%r11, -8(%rsp)
	xorl	%r12d, %r12d
	xorl	%r10d, %r10d
	xorl	%r13d, %r13d
	xorl	%ebp, %ebp
	xorl	%edx, %edx
	jmp	L(13_17)
	.p2align	4
L(13_18):
	leaq	-2(%rbp), %r15
	cmpq	$5, %r15
	setb	%r15b
	movq	%r13, %r11
	subq	%rbp, %r11
	movzbl	%r12b, %ebp
	testb	%r15b, %dl
	movl	$1, %r12d
	cmovel	%ebp, %r12d
	cmovneq	%r11, %r10
	xorl	%ebp, %ebp
	movl	%r15d, %edx
	incq	%r13
	addq	$40, %r14
	decq	%rbx
	je	L(13_24)
L(13_17):
	testb	$3, (%r14)
	je	L(13_18)
	incq	%rbp
	incq	%r13
	addq	$40, %r14
	decq	%rbx
	jne	L(13_17)
L(13_24):
	cmpb	$1, %r12b
	movq	-8(%rsp), %r11
	movq	-16(%rsp), %r13
	movq	-24(%rsp), %rdx
	je	L(13_25)
L(13_26):
	leaq	(%rdx,%rdx), %r8
	testq	%rdx, %rdx
	movq	$-1, %rdx
	cmovnsq	%r8, %rdx
	cmpq	%rdx, %rcx
	jae	L(13_12)
	jmp	L(13_27)
L(13_25):
	addq	%r8, %r10
	jmp	L(13_38)
	SIZE("subtree_levels::split::find_split::<#30d82ebffd2e63ea>")
	.cfi_endproc

CODE(".text.xet_roots::as_node::read_nodes::<#a0ff80199b3a144e>")
	.p2align	4
	TYPE("xet_roots::as_node::read_nodes::<#a0ff80199b3a144e>", function)
"xet_roots::as_node::read_nodes::<#a0ff80199b3a144e>":
	.cfi_startproc
	pushq	%r15
	.cfi_def_cfa_offset 16
	pushq	%r14
	.cfi_def_cfa_offset 24
	pushq	%rbx
	.cfi_def_cfa_offset 32
	subq	$96, %rsp
	.cfi_def_cfa_offset 128
	.cfi_offset %rbx, -32
	.cfi_offset %r14, -24
	.cfi_offset %r15, -16
	movq	%rdi, %rbx
	xorps	%xmm0, %xmm0
	movaps	%xmm0, 16(%rsp)
	movq	$0, 32(%rsp)
	testq	%rdx, %rdx
	je	L(14_1)
	movq	%rdx, %r14
	movabsq	$230584300921369395, %rax
	cmpq	%rax, %rdx
	ja	L(14_10)
	movq	%rsi, %r15
	leaq	(,%r14,8), %rax
	leaq	(%rax,%rax,4), %rdi
	movl	$8, %esi
	callq	PLT(yurewha_heap_alloc)
	testb	$1, %al
	je	L(14_10)
	movq	%rdx, 16(%rsp)
	movq	$0, 24(%rsp)
	movq	%r14, 32(%rsp)
	xorl	%eax, %eax
	jmp	L(14_5)
	.p2align	4
L(14_8):
	leaq	(%rax,%rax,4), %rcx
	movq	80(%rsp), %rsi
	movq	%rsi, 32(%rdx,%rcx,8)
	movaps	48(%rsp), %xmm0
	movaps	64(%rsp), %xmm1
	movups	%xmm1, 16(%rdx,%rcx,8)
	movups	%xmm0, (%rdx,%rcx,8)
	incq	%rax
	movq	%rax, 24(%rsp)
	addq	$40, %r15
	decq	%r14
	je	L(14_9)
L(14_5):
	movq	32(%r15), %rcx
	movq	%rcx, 80(%rsp)
	movups	(%r15), %xmm0
	movups	16(%r15), %xmm1
	movaps	%xmm1, 64(%rsp)
	movaps	%xmm0, 48(%rsp)
	cmpq	%rax, 32(%rsp)
	jne	L(14_8)
	leaq	16(%rsp), %rdi
	movl	$1, %esi
	callq	"std_alloc::vec::Vec::grow_amortized::<#1ed62de40e111fb4>"
	testb	%al, %al
	je	L(14_12)
	movq	16(%rsp), %rdx
	movq	24(%rsp), %rax
	jmp	L(14_8)
L(14_1):
	leaq	8(%rsp), %rax
	movq	%rax, 16(%rsp)
	movups	%xmm0, 24(%rsp)
L(14_9):
	movb	$0, (%rbx)
	movq	16(%rsp), %rax
	movq	%rax, 8(%rbx)
	movq	24(%rsp), %rax
	movq	%rax, 16(%rbx)
	movq	32(%rsp), %rax
	movq	%rax, 24(%rbx)
	jmp	L(14_11)
L(14_12):
	cmpq	$0, 32(%rsp)
	je	L(14_10)
	movq	16(%rsp), %rdi
	callq	PLT(yurewha_heap_dealloc)
L(14_10):
	movb	$1, (%rbx)
	xorps	%xmm0, %xmm0
	movups	%xmm0, 8(%rbx)
	movq	$0, 24(%rbx)
L(14_11):
	addq	$96, %rsp
	.cfi_def_cfa_offset 32
	popq	%rbx
	.cfi_def_cfa_offset 24
	popq	%r14
	.cfi_def_cfa_offset 16
	popq	%r15
	.cfi_def_cfa_offset 8
	retq
	SIZE("xet_roots::as_node::read_nodes::<#a0ff80199b3a144e>")
	.cfi_endproc

CODE(".text.unlikely.std_alloc::vec::Vec::grow_amortized::<#1ed62de40e111fb4>")
	.p2align	4
	TYPE("std_alloc::vec::Vec::grow_amortized::<#1ed62de40e111fb4>", function)
"std_alloc::vec::Vec::grow_amortized::<#1ed62de40e111fb4>":
	.cfi_startproc
	movq	8(%rdi), %rax
	addq	%rax, %rsi
	jae	L(15_2)
	xorl	%eax, %eax
	retq
L(15_2):
	pushq	%r14
	.cfi_def_cfa_offset 16
	pushq	%rbx
	.cfi_def_cfa_offset 24
	pushq	%rax
	.cfi_def_cfa_offset 32
	.cfi_offset %rbx, -24
	.cfi_offset %r14, -16
	movq	16(%rdi), %rcx
	cmpq	$5, %rsi
	movl	$4, %ebx
	cmovaeq	%rsi, %rbx
	movq	%rcx, %rsi
	shrq	$62, %rsi
	leaq	(%rcx,%rcx), %rdx
	cmpq	%rdx, %rbx
	cmovaq	%rbx, %rdx
	testq	%rsi, %rsi
	cmoveq	%rdx, %rbx
	movabsq	$230584300921369395, %rsi
	cmpq	%rsi, %rbx
	ja	L(15_6)
	testq	%rcx, %rcx
	je	L(15_8)
	movq	%rdi, %r14
	movq	(%rdi), %rdi
	shlq	$3, %rax
	leaq	(%rax,%rax,4), %rsi
	leaq	(,%rbx,8), %rax
	leaq	(%rax,%rax,4), %rdx
	movl	$8, %ecx
	callq	PLT(yurewha_heap_realloc)
	testb	$1, %al
	je	L(15_6)
L(15_9):
	movq	%rdx, (%r14)
	movq	%rbx, 16(%r14)
	movb	$1, %al
	addq	$8, %rsp
	.cfi_def_cfa_offset 24
	popq	%rbx
	.cfi_def_cfa_offset 16
	popq	%r14
	.cfi_def_cfa_offset 8
	.cfi_restore %rbx
	.cfi_restore %r14
	retq
L(15_8):
	.cfi_def_cfa_offset 32
	.cfi_offset %rbx, -24
	.cfi_offset %r14, -16
	movq	%rdi, %r14
	shlq	$3, %rdx
	leaq	(%rdx,%rdx,4), %rdi
	movl	$8, %esi
	callq	PLT(yurewha_heap_alloc)
	testb	$1, %al
	jne	L(15_9)
L(15_6):
	xorl	%eax, %eax
	addq	$8, %rsp
	.cfi_def_cfa_offset 24
	popq	%rbx
	.cfi_def_cfa_offset 16
	popq	%r14
	.cfi_def_cfa_offset 8
	.cfi_restore %rbx
	.cfi_restore %r14
	retq
	SIZE("std_alloc::vec::Vec::grow_amortized::<#1ed62de40e111fb4>")
	.cfi_endproc

CODE(".text.subtree_levels::levels::pushed::<#024afdc31600bcbd>")
	.p2align	4
	TYPE("subtree_levels::levels::pushed::<#024afdc31600bcbd>", function)
"subtree_levels::levels::pushed::<#024afdc31600bcbd>":
	.cfi_startproc
	pushq	%rbp
	.cfi_def_cfa_offset 16
	pushq	%r15
	.cfi_def_cfa_offset 24
	pushq	%r14
	.cfi_def_cfa_offset 32
	pushq	%r13
	.cfi_def_cfa_offset 40
	pushq	%r12
	.cfi_def_cfa_offset 48
	pushq	%rbx
	.cfi_def_cfa_offset 56
	subq	$72, %rsp
	.cfi_def_cfa_offset 128
	.cfi_offset %rbx, -56
	.cfi_offset %r12, -48
	.cfi_offset %r13, -40
	.cfi_offset %r14, -32
	.cfi_offset %r15, -24
	.cfi_offset %rbp, -16
	movq	%rdi, %rbx
	movq	(%rdx), %r15
	movq	16(%rdx), %rbp
	movups	8(%rdx), %xmm1
	movq	24(%rdx), %r12
	movq	32(%rdx), %r14
	movq	48(%rdx), %r13
	movups	40(%rdx), %xmm2
	movups	(%rsi), %xmm0
	movaps	%xmm0, (%rsp)
	movq	16(%rsi), %rcx
	movq	%rcx, 16(%rsp)
	movq	8(%rsp), %rax
	cmpq	%rax, %rcx
	je	L(16_1)
L(16_3):
	movq	(%rsp), %rcx
	imulq	$56, %rax, %rdx
	movq	%r15, (%rcx,%rdx)
	movups	%xmm1, 8(%rcx,%rdx)
	movq	%r12, 24(%rcx,%rdx)
	movq	%r14, 32(%rcx,%rdx)
	movups	%xmm2, 40(%rcx,%rdx)
	incq	%rax
	movq	%rax, 8(%rsp)
	movb	$0, (%rbx)
	movq	(%rsp), %rax
	movq	%rax, 8(%rbx)
	movq	8(%rsp), %rax
	movq	%rax, 16(%rbx)
	movq	16(%rsp), %rax
	movq	%rax, 24(%rbx)
L(16_18):
	addq	$72, %rsp
	.cfi_def_cfa_offset 56
	popq	%rbx
	.cfi_def_cfa_offset 48
	popq	%r12
	.cfi_def_cfa_offset 40
	popq	%r13
	.cfi_def_cfa_offset 32
	popq	%r14
	.cfi_def_cfa_offset 24
	popq	%r15
	.cfi_def_cfa_offset 16
	popq	%rbp
	.cfi_def_cfa_offset 8
	retq
L(16_1):
	.cfi_def_cfa_offset 128
	movaps	%xmm2, 48(%rsp)
	movaps	%xmm1, 32(%rsp)
	movq	%rsp, %rdi
	movl	$1, %esi
	callq	"std_alloc::vec::Vec::grow_amortized::<#62557648214f1014>"
	testb	%al, %al
	je	L(16_4)
	movq	8(%rsp), %rax
	movaps	32(%rsp), %xmm1
	movaps	48(%rsp), %xmm2
	jmp	L(16_3)
L(16_4):
	testq	%rbp, %rbp
	je	L(16_6)
	movq	%r15, %rdi
	callq	PLT(yurewha_heap_dealloc)
L(16_6):
	testq	%r13, %r13
	je	L(16_8)
	movq	%r14, %rdi
	callq	PLT(yurewha_heap_dealloc)
L(16_8):
	movq	(%rsp), %r14
	movq	8(%rsp), %r13
	movq	16(%rsp), %rax
	movq	%rax, 32(%rsp)
	testq	%r13, %r13
	je	L(16_15)
	leaq	48(%r14), %rbp
	jmp	L(16_10)
	.p2align	4
L(16_14):
	addq	$56, %rbp
	decq	%r13
	je	L(16_15)
L(16_10):
	movq	-16(%rbp), %r15
	movq	(%rbp), %r12
	cmpq	$0, -32(%rbp)
	je	L(16_12)
	movq	-48(%rbp), %rdi
	callq	PLT(yurewha_heap_dealloc)
L(16_12):
	testq	%r12, %r12
	je	L(16_14)
	movq	%r15, %rdi
	callq	PLT(yurewha_heap_dealloc)
	jmp	L(16_14)
L(16_15):
	cmpq	$0, 32(%rsp)
	je	L(16_17)
	movq	%r14, %rdi
	callq	PLT(yurewha_heap_dealloc)
L(16_17):
	movb	$1, (%rbx)
	xorps	%xmm0, %xmm0
	movups	%xmm0, 8(%rbx)
	movq	$0, 24(%rbx)
	jmp	L(16_18)
	SIZE("subtree_levels::levels::pushed::<#024afdc31600bcbd>")
	.cfi_endproc

CODE(".text.unlikely.std_alloc::vec::Vec::grow_amortized::<#62557648214f1014>")
	.p2align	4
	TYPE("std_alloc::vec::Vec::grow_amortized::<#62557648214f1014>", function)
"std_alloc::vec::Vec::grow_amortized::<#62557648214f1014>":
	.cfi_startproc
	movq	8(%rdi), %rax
	addq	%rax, %rsi
	jae	L(17_2)
	xorl	%eax, %eax
	retq
L(17_2):
	pushq	%r14
	.cfi_def_cfa_offset 16
	pushq	%rbx
	.cfi_def_cfa_offset 24
	pushq	%rax
	.cfi_def_cfa_offset 32
	.cfi_offset %rbx, -24
	.cfi_offset %r14, -16
	movq	16(%rdi), %rcx
	cmpq	$5, %rsi
	movl	$4, %ebx
	cmovaeq	%rsi, %rbx
	movq	%rcx, %rsi
	shrq	$62, %rsi
	leaq	(%rcx,%rcx), %rdx
	cmpq	%rdx, %rbx
	cmovaq	%rbx, %rdx
	testq	%rsi, %rsi
	cmoveq	%rdx, %rbx
	movabsq	$164703072086692425, %rsi
	cmpq	%rsi, %rbx
	ja	L(17_6)
	testq	%rcx, %rcx
	je	L(17_8)
	movq	%rdi, %r14
	movq	(%rdi), %rdi
	imulq	$56, %rax, %rsi
	imulq	$56, %rbx, %rdx
	movl	$8, %ecx
	callq	PLT(yurewha_heap_realloc)
	testb	$1, %al
	je	L(17_6)
L(17_9):
	movq	%rdx, (%r14)
	movq	%rbx, 16(%r14)
	movb	$1, %al
	addq	$8, %rsp
	.cfi_def_cfa_offset 24
	popq	%rbx
	.cfi_def_cfa_offset 16
	popq	%r14
	.cfi_def_cfa_offset 8
	.cfi_restore %rbx
	.cfi_restore %r14
	retq
L(17_8):
	.cfi_def_cfa_offset 32
	.cfi_offset %rbx, -24
	.cfi_offset %r14, -16
	movq	%rdi, %r14
	imulq	$56, %rdx, %rdi
	movl	$8, %esi
	callq	PLT(yurewha_heap_alloc)
	testb	$1, %al
	jne	L(17_9)
L(17_6):
	xorl	%eax, %eax
	addq	$8, %rsp
	.cfi_def_cfa_offset 24
	popq	%rbx
	.cfi_def_cfa_offset 16
	popq	%r14
	.cfi_def_cfa_offset 8
	.cfi_restore %rbx
	.cfi_restore %r14
	retq
	SIZE("std_alloc::vec::Vec::grow_amortized::<#62557648214f1014>")
	.cfi_endproc

CODE(".text.xet_roots::aggregated_hashes::push_first_parents::<#135fa06c802d8a86>")
	.p2align	4
	TYPE("xet_roots::aggregated_hashes::push_first_parents::<#135fa06c802d8a86>", function)
"xet_roots::aggregated_hashes::push_first_parents::<#135fa06c802d8a86>":
	.cfi_startproc
	pushq	%rbp
	.cfi_def_cfa_offset 16
	pushq	%r15
	.cfi_def_cfa_offset 24
	pushq	%r14
	.cfi_def_cfa_offset 32
	pushq	%r13
	.cfi_def_cfa_offset 40
	pushq	%r12
	.cfi_def_cfa_offset 48
	pushq	%rbx
	.cfi_def_cfa_offset 56
	subq	$3072, %rsp
	.cfi_adjust_cfa_offset 3072
	movq	$0, (%rsp)
	subq	$3072, %rsp
	.cfi_adjust_cfa_offset 3072
	movq	$0, (%rsp)
	subq	$3072, %rsp
	.cfi_adjust_cfa_offset 3072
	movq	$0, (%rsp)
	subq	$3072, %rsp
	.cfi_adjust_cfa_offset 3072
	movq	$0, (%rsp)
	subq	$2568, %rsp
	.cfi_def_cfa_offset 14912
	.cfi_offset %rbx, -56
	.cfi_offset %r12, -48
	.cfi_offset %r13, -40
	.cfi_offset %r14, -32
	.cfi_offset %r15, -24
	.cfi_offset %rbp, -16
	movq	%rcx, %r15
	movq	%rdx, %r12
	movq	%rsi, %r13
	movq	%rdi, %r14
	leaq	1032(%rsp), %rdi
	xorl	%ebx, %ebx
	movl	$2560, %edx
	xorl	%esi, %esi
	callq	PLT(memset)
	leaq	10248(%rsp), %rdi
	movl	$2560, %edx
	xorl	%esi, %esi
	callq	PLT(memset)
	leaq	696(%rsp), %rdi
	movl	$336, %edx
	xorl	%esi, %esi
	callq	PLT(memset)
	leaq	6152(%rsp), %rdi
	movl	$2048, %edx
	xorl	%esi, %esi
	callq	PLT(memset)
	leaq	3592(%rsp), %rdi
	movl	$2560, %edx
	xorl	%esi, %esi
	callq	PLT(memset)
	leaq	8200(%rsp), %rdi
	movl	$2048, %edx
	xorl	%esi, %esi
	callq	PLT(memset)
	movq	%rsp, %rax
	movq	%rax, 8(%rsp)
	movq	$0, 16(%rsp)
	movq	%rax, 24(%rsp)
	movq	$0, 32(%rsp)
	movq	%rax, 40(%rsp)
	movq	$0, 48(%rsp)
	movq	%rax, 56(%rsp)
	movq	$0, 64(%rsp)
	movq	%rax, 72(%rsp)
	movq	$0, 80(%rsp)
	movq	%rax, 88(%rsp)
	movq	$0, 96(%rsp)
	movq	%rax, 104(%rsp)
	movq	$0, 112(%rsp)
	movq	%rax, 120(%rsp)
	movq	$0, 128(%rsp)
	movq	%rax, 136(%rsp)
	movq	$0, 144(%rsp)
	movq	%rax, 152(%rsp)
	movq	$0, 160(%rsp)
	movq	%rax, 168(%rsp)
	movq	$0, 176(%rsp)
	movq	%rax, 184(%rsp)
	movq	$0, 192(%rsp)
	movq	%rax, 200(%rsp)
	movq	$0, 208(%rsp)
	movq	%rax, 216(%rsp)
	movq	$0, 224(%rsp)
	movq	%rax, 232(%rsp)
	movq	$0, 240(%rsp)
	movq	%rax, 248(%rsp)
	movq	$0, 256(%rsp)
	movq	%rax, 264(%rsp)
	movq	$0, 272(%rsp)
	movq	%rax, 280(%rsp)
	movq	$0, 288(%rsp)
	movq	%rax, 296(%rsp)
	movq	$0, 304(%rsp)
	movq	%rax, 312(%rsp)
	movq	$0, 320(%rsp)
	movq	%rax, 328(%rsp)
	movq	$0, 336(%rsp)
	movq	%rax, 344(%rsp)
	movq	$0, 352(%rsp)
	movq	%rax, 360(%rsp)
	movq	$0, 368(%rsp)
	movq	%rax, 376(%rsp)
	movq	$0, 384(%rsp)
	movq	%rax, 392(%rsp)
	movq	$0, 400(%rsp)
	movq	%rax, 408(%rsp)
	movq	$0, 416(%rsp)
	movq	%rax, 424(%rsp)
	movq	$0, 432(%rsp)
	movq	%rax, 440(%rsp)
	movq	$0, 448(%rsp)
	movq	%rax, 456(%rsp)
	movq	$0, 464(%rsp)
	movq	%rax, 472(%rsp)
	movq	$0, 480(%rsp)
	movq	%rax, 488(%rsp)
	movq	$0, 496(%rsp)
	movq	%rax, 504(%rsp)
	movq	$0, 512(%rsp)
	movq	%rax, 520(%rsp)
	movq	$0, 528(%rsp)
	movq	%rax, 536(%rsp)
	movq	$0, 544(%rsp)
	movq	%rax, 552(%rsp)
	movq	$0, 560(%rsp)
	movq	%rax, 568(%rsp)
	movq	$0, 576(%rsp)
	movq	%rax, 584(%rsp)
	movq	$0, 592(%rsp)
	movq	%rax, 600(%rsp)
	movq	$0, 608(%rsp)
	movq	%rax, 616(%rsp)
	movq	$0, 624(%rsp)
	movq	%rax, 632(%rsp)
	movq	$0, 640(%rsp)
	movq	%rax, 648(%rsp)
	movq	$0, 656(%rsp)
	movq	%rax, 664(%rsp)
	movq	$0, 672(%rsp)
	movq	%rax, 680(%rsp)
	movq	$0, 688(%rsp)
	movq	%rax, 696(%rsp)
	movq	$0, 704(%rsp)
	movq	%rax, 712(%rsp)
	movq	$0, 720(%rsp)
	movq	%rax, 728(%rsp)
	movq	$0, 736(%rsp)
	movq	%rax, 744(%rsp)
	movq	$0, 752(%rsp)
	movq	%rax, 760(%rsp)
	movq	$0, 768(%rsp)
	movq	%rax, 776(%rsp)
	movq	$0, 784(%rsp)
	movq	%rax, 792(%rsp)
	movq	$0, 800(%rsp)
	movq	%rax, 808(%rsp)
	movq	$0, 816(%rsp)
	movq	%rax, 824(%rsp)
	movq	$0, 832(%rsp)
	movq	%rax, 840(%rsp)
	movq	$0, 848(%rsp)
	movq	%rax, 856(%rsp)
	movq	$0, 864(%rsp)
	movq	%rax, 872(%rsp)
	movq	$0, 880(%rsp)
	movq	%rax, 888(%rsp)
	movq	$0, 896(%rsp)
	movq	%rax, 904(%rsp)
	movq	$0, 912(%rsp)
	movq	%rax, 920(%rsp)
	movq	$0, 928(%rsp)
	movq	%rax, 936(%rsp)
	movq	$0, 944(%rsp)
	movq	%rax, 952(%rsp)
	movq	$0, 960(%rsp)
	movq	%rax, 968(%rsp)
	movq	$0, 976(%rsp)
	movq	%rax, 984(%rsp)
	movq	$0, 992(%rsp)
	movq	%rax, 1000(%rsp)
	movq	$0, 1008(%rsp)
	movq	%rax, 1016(%rsp)
	movq	$0, 1024(%rsp)
	testq	%r12, %r12
	je	L(18_1)
	leaq	16(%rsp), %rax
	xorl	%ecx, %ecx
	xorl	%ebx, %ebx
	.p2align	4
L(18_3):
	cmpq	$9, %r12
	movl	$9, %edx
	cmovbq	%r12, %rdx
	cmpq	$3, %r12
	jb	L(18_23)
	testb	$3, 104(%r13)
	je	L(18_5)
	cmpq	$3, %r12
	je	L(18_23)
	testb	$3, 144(%r13)
	je	L(18_8)
	cmpq	$4, %r12
	je	L(18_23)
	testb	$3, 184(%r13)
	je	L(18_11)
	cmpq	$5, %r12
	je	L(18_23)
	testb	$3, 224(%r13)
	je	L(18_14)
	cmpq	$6, %r12
	je	L(18_23)
	testb	$3, 264(%r13)
	je	L(18_17)
	cmpq	$7, %r12
	je	L(18_23)
	testb	$3, 304(%r13)
	je	L(18_20)
	cmpq	$8, %r12
	je	L(18_23)
	testb	$3, 344(%r13)
	movl	$9, %esi
	cmoveq	%rsi, %rdx
	jmp	L(18_23)
L(18_5):
	movl	$3, %edx
	jmp	L(18_23)
L(18_8):
	movl	$4, %edx
	jmp	L(18_23)
L(18_11):
	movl	$5, %edx
	jmp	L(18_23)
L(18_14):
	movl	$6, %edx
	jmp	L(18_23)
L(18_17):
	movl	$7, %edx
	jmp	L(18_23)
L(18_20):
	movl	$8, %edx
	.p2align	4
L(18_23):
	movq	%r13, -8(%rax)
	movq	%rdx, (%rax)
	leaq	1(%rcx), %rbp
	addq	%rdx, %rbx
	cmpq	$62, %rcx
	ja	L(18_25)
	leaq	(%rdx,%rdx,4), %rcx
	leaq	(%r13,%rcx,8), %r13
	subq	%rdx, %r12
	addq	$16, %rax
	movq	%rbp, %rcx
	testq	%r12, %r12
	jne	L(18_3)
	jmp	L(18_25)
L(18_1):
	xorl	%ebp, %ebp
L(18_25):
	leaq	12808(%rsp), %r12
	movl	$2048, %edx
	movq	%r12, %rdi
	xorl	%esi, %esi
	callq	PLT(memset)
	addq	%rbp, (%r15)
	adcq	$0, 8(%r15)
	leaq	8(%rsp), %rsi
	movq	%r12, %rdi
	movq	%rbp, %rdx
	callq	C(yurewha_stub_of_parent_hashes)
	leaq	8200(%rsp), %r15
	movl	$2048, %edx
	movq	%r15, %rdi
	movq	%r12, %rsi
	callq	PLT(memcpy)
	leaq	6152(%rsp), %rdi
	movl	$2048, %edx
	movq	%r15, %rsi
	callq	PLT(memcpy)
	leaq	3592(%rsp), %rdi
	movl	$2560, %edx
	xorl	%esi, %esi
	callq	PLT(memset)
	testq	%rbp, %rbp
	je	L(18_37)
	xorl	%eax, %eax
	jmp	L(18_27)
	.p2align	4
L(18_28):
	xorl	%ecx, %ecx
L(18_36):
	movq	%rax, %rdx
	shlq	$5, %rdx
	addq	%rsp, %rdx
	addq	$6152, %rdx
	leaq	(%rax,%rax,4), %rsi
	movups	(%rdx), %xmm0
	movups	16(%rdx), %xmm1
	movups	%xmm1, 3608(%rsp,%rsi,8)
	movups	%xmm0, 3592(%rsp,%rsi,8)
	movq	%rcx, 3624(%rsp,%rsi,8)
	incq	%rax
	cmpq	%rbp, %rax
	je	L(18_37)
L(18_27):
	movq	%rax, %rcx
	shlq	$4, %rcx
	movq	16(%rsp,%rcx), %rdi
	testq	%rdi, %rdi
	je	L(18_28)
	movq	8(%rsp,%rcx), %rdx
	movl	%edi, %esi
	andl	$7, %esi
	cmpq	$8, %rdi
	jae	L(18_31)
	xorl	%ecx, %ecx
	jmp	L(18_34)
	.p2align	4
L(18_31):
	andq	$-8, %rdi
	xorl	%ecx, %ecx
	.p2align	4
L(18_32):
	addq	32(%rdx), %rcx
	addq	72(%rdx), %rcx
	addq	112(%rdx), %rcx
	addq	152(%rdx), %rcx
	addq	192(%rdx), %rcx
	addq	232(%rdx), %rcx
	addq	272(%rdx), %rcx
	addq	312(%rdx), %rcx
	addq	$320, %rdx
	addq	$-8, %rdi
	jne	L(18_32)
	testq	%rsi, %rsi
	je	L(18_36)
L(18_34):
	shll	$3, %esi
	leaq	(%rsi,%rsi,4), %rsi
	xorl	%edi, %edi
	.p2align	4
L(18_35):
	addq	32(%rdx,%rdi), %rcx
	addq	$40, %rdi
	cmpq	%rdi, %rsi
	jne	L(18_35)
	jmp	L(18_36)
L(18_37):
	leaq	10248(%rsp), %r12
	leaq	3592(%rsp), %rsi
	movl	$2560, %edx
	movq	%r12, %rdi
	callq	PLT(memcpy)
	leaq	1032(%rsp), %r15
	movl	$2560, %edx
	movq	%r15, %rdi
	movq	%r12, %rsi
	callq	PLT(memcpy)
	movq	8(%r14), %rax
	movq	16(%r14), %r12
	movq	%r12, %rcx
	subq	%rax, %rcx
	cmpq	%rcx, %rbp
	ja	L(18_38)
L(18_41):
	leaq	(%rax,%rbp), %r9
	movq	%r14, %r13
	movq	(%r14), %r14
	shlq	$3, %rax
	leaq	(%rax,%rax,4), %rax
	leaq	(%r14,%rax), %rdi
	leaq	(,%rbp,8), %rcx
	leaq	(%rcx,%rcx,4), %rdx
	movq	%rdi, %rcx
	subq	%r15, %rcx
	cmpq	%rdx, %rcx
	jae	L(18_45)
	testq	%rbp, %rbp
	je	L(18_51)
	movl	%ebp, %ecx
	andl	$3, %ecx
	cmpq	$4, %rbp
	jae	L(18_46)
	xorl	%edx, %edx
	jmp	L(18_49)
L(18_45):
	leaq	1032(%rsp), %rsi
	movq	%r9, %r15
	callq	PLT(memcpy)
	movq	%r15, %r9
	jmp	L(18_51)
L(18_46):
	andq	$-4, %rbp
	movl	$120, %esi
	xorl	%edx, %edx
	.p2align	4
L(18_47):
	movq	944(%rsp,%rsi), %r8
	movq	%r8, -88(%rdi,%rsi)
	movups	912(%rsp,%rsi), %xmm0
	movups	928(%rsp,%rsi), %xmm1
	movups	%xmm1, -104(%rdi,%rsi)
	movups	%xmm0, -120(%rdi,%rsi)
	movq	984(%rsp,%rsi), %r8
	movq	%r8, -48(%rdi,%rsi)
	movups	952(%rsp,%rsi), %xmm0
	movups	968(%rsp,%rsi), %xmm1
	movups	%xmm1, -64(%rdi,%rsi)
	movups	%xmm0, -80(%rdi,%rsi)
	movq	1024(%rsp,%rsi), %r8
	movq	%r8, -8(%rdi,%rsi)
	movups	992(%rsp,%rsi), %xmm0
	movups	1008(%rsp,%rsi), %xmm1
	movups	%xmm1, -24(%rdi,%rsi)
	movups	%xmm0, -40(%rdi,%rsi)
	movups	1032(%rsp,%rsi), %xmm0
	movups	1048(%rsp,%rsi), %xmm1
	movups	%xmm0, (%rdi,%rsi)
	movups	%xmm1, 16(%rdi,%rsi)
	movq	1064(%rsp,%rsi), %r8
	movq	%r8, 32(%rdi,%rsi)
	addq	$4, %rdx
	addq	$160, %rsi
	cmpq	%rdx, %rbp
	jne	L(18_47)
	testq	%rcx, %rcx
	je	L(18_51)
L(18_49):
	shlq	$3, %rdx
	leaq	(%rdx,%rdx,4), %rsi
	leaq	(%rsp,%rsi), %rdx
	addq	$1032, %rdx
	addq	%rsi, %rax
	addq	%r14, %rax
	shll	$3, %ecx
	leaq	(%rcx,%rcx,4), %rcx
	xorl	%esi, %esi
	.p2align	4
L(18_50):
	movq	32(%rdx,%rsi), %rdi
	movq	%rdi, 32(%rax,%rsi)
	movups	(%rdx,%rsi), %xmm0
	movups	16(%rdx,%rsi), %xmm1
	movups	%xmm1, 16(%rax,%rsi)
	movups	%xmm0, (%rax,%rsi)
	addq	$40, %rsi
	cmpq	%rsi, %rcx
	jne	L(18_50)
L(18_51):
	movq	%r14, (%r13)
	movq	%r9, 8(%r13)
	movq	%r12, 16(%r13)
	xorl	%eax, %eax
L(18_52):
	movq	%rbx, %rdx
	addq	$14856, %rsp
	.cfi_def_cfa_offset 56
	popq	%rbx
	.cfi_def_cfa_offset 48
	popq	%r12
	.cfi_def_cfa_offset 40
	popq	%r13
	.cfi_def_cfa_offset 32
	popq	%r14
	.cfi_def_cfa_offset 24
	popq	%r15
	.cfi_def_cfa_offset 16
	popq	%rbp
	.cfi_def_cfa_offset 8
	retq
L(18_38):
	.cfi_def_cfa_offset 14912
	movq	%r14, %rdi
	movq	%rbp, %rsi
	callq	"std_alloc::vec::Vec::grow_amortized::<#1ed62de40e111fb4>"
	testb	%al, %al
	je	L(18_39)
	movq	8(%r14), %rax
	movq	16(%r14), %r12
	jmp	L(18_41)
L(18_39):
	movb	$1, %al
	xorl	%ebx, %ebx
	jmp	L(18_52)
	SIZE("xet_roots::aggregated_hashes::push_first_parents::<#135fa06c802d8a86>")
	.cfi_endproc

CODE(".text.xet_roots::aggregated_hashes::push_parents::<#135fa06c802d8a86>")
	.p2align	4
	TYPE("xet_roots::aggregated_hashes::push_parents::<#135fa06c802d8a86>", function)
"xet_roots::aggregated_hashes::push_parents::<#135fa06c802d8a86>":
	.cfi_startproc
	pushq	%rbp
	.cfi_def_cfa_offset 16
	pushq	%r15
	.cfi_def_cfa_offset 24
	pushq	%r14
	.cfi_def_cfa_offset 32
	pushq	%r13
	.cfi_def_cfa_offset 40
	pushq	%r12
	.cfi_def_cfa_offset 48
	pushq	%rbx
	.cfi_def_cfa_offset 56
	subq	$920, %rsp
	.cfi_def_cfa_offset 976
	.cfi_offset %rbx, -56
	.cfi_offset %r12, -48
	.cfi_offset %r13, -40
	.cfi_offset %r14, -32
	.cfi_offset %r15, -24
	.cfi_offset %rbp, -16
	movq	%rcx, %rbx
	movq	%rdx, %r12
	movq	%rsi, %r15
	xorps	%xmm0, %xmm0
	movaps	%xmm0, 80(%rsp)
	movaps	%xmm0, 64(%rsp)
	movaps	%xmm0, 48(%rsp)
	movaps	%xmm0, 32(%rsp)
	cmpq	$144, %rdx
	movq	%rdi, (%rsp)
	jb	L(32_3)
	.p2align	4
L(32_1):
	movq	%r15, %rsi
	movq	%r12, %rdx
	movq	%rbx, %rcx
	callq	"xet_roots::aggregated_hashes::push_first_parents::<#135fa06c802d8a86>"
	testb	%al, %al
	jne	L(32_52)
	leaq	(%rdx,%rdx,4), %rax
	leaq	(%r15,%rax,8), %r15
	subq	%rdx, %r12
	cmpq	$143, %r12
	movq	(%rsp), %rdi
	ja	L(32_1)
L(32_3):
	testq	%r12, %r12
	je	L(32_62)
	movq	%rbx, 16(%rsp)
	.p2align	4
L(32_5):
	cmpq	$9, %r12
	movl	$9, %ebp
	cmovbq	%r12, %rbp
	cmpq	$3, %r12
	jb	L(32_25)
	testb	$3, 104(%r15)
	je	L(32_19)
	cmpq	$3, %r12
	je	L(32_25)
	testb	$3, 144(%r15)
	je	L(32_20)
	cmpq	$4, %r12
	je	L(32_25)
	testb	$3, 184(%r15)
	je	L(32_21)
	cmpq	$5, %r12
	je	L(32_25)
	testb	$3, 224(%r15)
	je	L(32_22)
	cmpq	$6, %r12
	je	L(32_25)
	testb	$3, 264(%r15)
	je	L(32_23)
	cmpq	$7, %r12
	je	L(32_25)
	testb	$3, 304(%r15)
	je	L(32_24)
	cmpq	$8, %r12
	je	L(32_25)
	testb	$3, 344(%r15)
	movl	$9, %eax
	cmoveq	%rax, %rbp
	jmp	L(32_25)
L(32_19):
	movl	$3, %ebp
	jmp	L(32_25)
L(32_20):
	movl	$4, %ebp
	jmp	L(32_25)
L(32_21):
	movl	$5, %ebp
	jmp	L(32_25)
L(32_22):
	movl	$6, %ebp
	jmp	L(32_25)
L(32_23):
	movl	$7, %ebp
	jmp	L(32_25)
L(32_24):
	movl	$8, %ebp
	.p2align	4
L(32_25):
	movq	%r12, %r14
	subq	%rbp, %r14
	je	L(32_53)
	leaq	(,%rbp,8), %rax
	leaq	(%rax,%rax,4), %r12
	cmpq	$9, %r14
	movl	$9, %r13d
	cmovbq	%r14, %r13
	cmpq	$3, %r14
	jb	L(32_31)
	movl	$2, %eax
	subq	%r13, %rax
	leaq	(%r15,%r12), %rdx
	addq	$104, %rdx
	movl	$3, %ecx
	.p2align	4
L(32_28):
	testb	$3, (%rdx)
	je	L(32_30)
	leaq	(%rax,%rcx), %rsi
	incq	%rsi
	incq	%rcx
	addq	$40, %rdx
	cmpq	$3, %rsi
	jne	L(32_28)
	jmp	L(32_31)
	.p2align	4
L(32_30):
	movq	%rcx, %r13
L(32_31):
	addq	%r15, %r12
	movq	16(%rsp), %rax
	addq	$2, (%rax)
	adcq	$0, 8(%rax)
	leaq	128(%rsp), %rdi
	movq	%r15, %rsi
	movq	%rbp, %rdx
	movq	%r12, %rcx
	movq	%r13, %r8
	callq	C(yurewha_stub_of_two_parent_hashes)
	movups	128(%rsp), %xmm0
	movups	144(%rsp), %xmm1
	movups	160(%rsp), %xmm2
	movups	176(%rsp), %xmm3
	movaps	%xmm3, 80(%rsp)
	movaps	%xmm2, 64(%rsp)
	movaps	%xmm1, 48(%rsp)
	movaps	%xmm0, 32(%rsp)
	leaq	-1(%rbp), %rcx
	movl	%ebp, %eax
	andl	$7, %eax
	cmpq	$7, %rcx
	jae	L(32_33)
	xorl	%ebx, %ebx
	movq	(%rsp), %rdi
	jmp	L(32_36)
	.p2align	4
L(32_33):
	andq	$-8, %rbp
	xorl	%ebx, %ebx
	movq	(%rsp), %rdi
	.p2align	4
L(32_34):
	addq	32(%r15), %rbx
	addq	72(%r15), %rbx
	addq	112(%r15), %rbx
	addq	152(%r15), %rbx
	addq	192(%r15), %rbx
	addq	232(%r15), %rbx
	addq	272(%r15), %rbx
	addq	312(%r15), %rbx
	addq	$320, %r15
	addq	$-8, %rbp
	jne	L(32_34)
	testq	%rax, %rax
	je	L(32_38)
L(32_36):
	shll	$3, %eax
	leaq	(%rax,%rax,4), %rax
	xorl	%ecx, %ecx
	.p2align	4
L(32_37):
	addq	32(%r15,%rcx), %rbx
	addq	$40, %rcx
	cmpq	%rcx, %rax
	jne	L(32_37)
L(32_38):
	movq	8(%rdi), %rax
	cmpq	%rax, 16(%rdi)
	je	L(32_48)
L(32_39):
	movq	(%rdi), %rcx
	leaq	(%rax,%rax,4), %rdx
	movaps	32(%rsp), %xmm0
	movaps	48(%rsp), %xmm1
	movups	%xmm1, 16(%rcx,%rdx,8)
	movups	%xmm0, (%rcx,%rdx,8)
	movq	%rbx, 32(%rcx,%rdx,8)
	incq	%rax
	movq	%rax, 8(%rdi)
	leaq	-1(%r13), %rcx
	movl	%r13d, %edx
	andl	$7, %edx
	cmpq	$7, %rcx
	jae	L(32_41)
	xorl	%ebp, %ebp
	movq	%r12, %rcx
	jmp	L(32_44)
	.p2align	4
L(32_41):
	movq	%r13, %rsi
	andq	$-8, %rsi
	xorl	%ebp, %ebp
	movq	%r12, %rcx
	.p2align	4
L(32_42):
	addq	32(%rcx), %rbp
	addq	72(%rcx), %rbp
	addq	112(%rcx), %rbp
	addq	152(%rcx), %rbp
	addq	192(%rcx), %rbp
	addq	232(%rcx), %rbp
	addq	272(%rcx), %rbp
	addq	312(%rcx), %rbp
	addq	$320, %rcx
	addq	$-8, %rsi
	jne	L(32_42)
	testq	%rdx, %rdx
	je	L(32_46)
L(32_44):
	shll	$3, %edx
	leaq	(%rdx,%rdx,4), %rdx
	xorl	%esi, %esi
	.p2align	4
L(32_45):
	addq	32(%rcx,%rsi), %rbp
	addq	$40, %rsi
	cmpq	%rsi, %rdx
	jne	L(32_45)
L(32_46):
	cmpq	%rax, 16(%rdi)
	je	L(32_50)
L(32_47):
	leaq	(,%r13,4), %rcx
	addq	%r13, %rcx
	leaq	(%r12,%rcx,8), %r15
	subq	%r13, %r14
	movq	(%rdi), %rcx
	leaq	(%rax,%rax,4), %rdx
	leaq	64(%rsp), %rsi
	movups	(%rsi), %xmm0
	movups	16(%rsi), %xmm1
	movups	%xmm1, 16(%rcx,%rdx,8)
	movups	%xmm0, (%rcx,%rdx,8)
	movq	%rbp, 32(%rcx,%rdx,8)
	incq	%rax
	movq	%rax, 8(%rdi)
	movq	%r14, %r12
	testq	%r14, %r14
	jne	L(32_5)
	jmp	L(32_62)
L(32_48):
	movl	$1, %esi
	movq	%rdi, %r15
	callq	"std_alloc::vec::Vec::grow_amortized::<#1ed62de40e111fb4>"
	testb	%al, %al
	je	L(32_52)
	movq	8(%r15), %rax
	movq	%r15, %rdi
	jmp	L(32_39)
L(32_50):
	movl	$1, %esi
	movq	%rdi, %rbx
	callq	"std_alloc::vec::Vec::grow_amortized::<#1ed62de40e111fb4>"
	testb	%al, %al
	je	L(32_52)
	movq	8(%rbx), %rax
	movq	%rbx, %rdi
	jmp	L(32_47)
L(32_52):
	movb	$1, %al
	jmp	L(32_63)
L(32_53):
	movq	16(%rsp), %rax
	addq	$1, (%rax)
	adcq	$0, 8(%rax)
	leaq	128(%rsp), %r14
	xorl	%r13d, %r13d
	movl	$792, %edx
	movq	%r14, %rdi
	xorl	%esi, %esi
	callq	PLT(memset)
	movq	%r14, %rdi
	movq	%r15, %rsi
	movq	%r12, %rdx
	callq	C(yurewha_stub_of_write_text)
	xorps	%xmm0, %xmm0
	movaps	%xmm0, 112(%rsp)
	movaps	%xmm0, 96(%rsp)
	leaq	D(static.16)(%rip), %rsi
	leaq	96(%rsp), %rdi
	movq	%r14, %rdx
	movq	%rax, %rcx
	callq	C(yurewha_stub_of_keyed_hash)
	movl	%r12d, %eax
	andl	$7, %eax
	cmpq	$8, %r12
	jae	L(32_55)
	movq	(%rsp), %rbx
	jmp	L(32_58)
L(32_55):
	andq	$-8, %r12
	xorl	%r13d, %r13d
	movq	(%rsp), %rbx
	.p2align	4
L(32_56):
	addq	32(%r15), %r13
	addq	72(%r15), %r13
	addq	112(%r15), %r13
	addq	152(%r15), %r13
	addq	192(%r15), %r13
	addq	232(%r15), %r13
	addq	272(%r15), %r13
	addq	312(%r15), %r13
	addq	$320, %r15
	addq	$-8, %r12
	jne	L(32_56)
	testq	%rax, %rax
	je	L(32_60)
L(32_58):
	shll	$3, %eax
	leaq	(%rax,%rax,4), %rax
	xorl	%ecx, %ecx
	.p2align	4
L(32_59):
	addq	32(%r15,%rcx), %r13
	addq	$40, %rcx
	cmpq	%rcx, %rax
	jne	L(32_59)
L(32_60):
	movaps	96(%rsp), %xmm0
	movaps	112(%rsp), %xmm1
	movq	8(%rbx), %rax
	cmpq	%rax, 16(%rbx)
	je	L(32_64)
L(32_61):
	movq	(%rbx), %rcx
	leaq	(%rax,%rax,4), %rdx
	movups	%xmm0, (%rcx,%rdx,8)
	movups	%xmm1, 16(%rcx,%rdx,8)
	movq	%r13, 32(%rcx,%rdx,8)
	incq	%rax
	movq	%rax, 8(%rbx)
L(32_62):
	xorl	%eax, %eax
L(32_63):
	addq	$920, %rsp
	.cfi_def_cfa_offset 56
	popq	%rbx
	.cfi_def_cfa_offset 48
	popq	%r12
	.cfi_def_cfa_offset 40
	popq	%r13
	.cfi_def_cfa_offset 32
	popq	%r14
	.cfi_def_cfa_offset 24
	popq	%r15
	.cfi_def_cfa_offset 16
	popq	%rbp
	.cfi_def_cfa_offset 8
	retq
L(32_64):
	.cfi_def_cfa_offset 976
	movaps	%xmm1, 16(%rsp)
	movaps	%xmm0, (%rsp)
	movl	$1, %esi
	movq	%rbx, %rdi
	callq	"std_alloc::vec::Vec::grow_amortized::<#1ed62de40e111fb4>"
	movl	%eax, %ecx
	movb	$1, %al
	testb	%cl, %cl
	je	L(32_63)
	movq	8(%rbx), %rax
	movaps	(%rsp), %xmm0
	movaps	16(%rsp), %xmm1
	jmp	L(32_61)
	SIZE("xet_roots::aggregated_hashes::push_parents::<#135fa06c802d8a86>")
	.cfi_endproc

CODE(".text.subtree_levels::collapse::collapse::<#a9d92fd6c0d16019>")
	.p2align	4
	TYPE("subtree_levels::collapse::collapse::<#a9d92fd6c0d16019>", function)
"subtree_levels::collapse::collapse::<#a9d92fd6c0d16019>":
	.cfi_startproc
	pushq	%rbp
	.cfi_def_cfa_offset 16
	pushq	%r15
	.cfi_def_cfa_offset 24
	pushq	%r14
	.cfi_def_cfa_offset 32
	pushq	%r13
	.cfi_def_cfa_offset 40
	pushq	%r12
	.cfi_def_cfa_offset 48
	pushq	%rbx
	.cfi_def_cfa_offset 56
	subq	$408, %rsp
	.cfi_def_cfa_offset 464
	.cfi_offset %rbx, -56
	.cfi_offset %r12, -48
	.cfi_offset %r13, -40
	.cfi_offset %r14, -32
	.cfi_offset %r15, -24
	.cfi_offset %rbp, -16
	movq	%r9, 160(%rsp)
	movq	%rdi, 40(%rsp)
	movq	(%rsi), %rbp
	movq	8(%rsi), %r14
	movq	16(%rsi), %rax
	movq	%rax, 16(%rsp)
	movq	(%rdx), %r13
	movq	8(%rdx), %rbx
	movq	16(%rdx), %r15
	xorps	%xmm0, %xmm0
	movaps	%xmm0, 128(%rsp)
	movaps	%xmm0, 112(%rsp)
	movaps	%xmm0, 96(%rsp)
	movq	$0, 144(%rsp)
	movaps	%xmm0, 208(%rsp)
	movaps	%xmm0, 224(%rsp)
	leaq	96(%rsp), %rdi
	movq	%r13, %rsi
	movq	%rbx, %rdx
	movl	%ecx, 32(%rsp)
	movl	%r8d, 36(%rsp)
	callq	"subtree_levels::split::find_split::<#30d82ebffd2e63ea>"
	cmpb	$1, 96(%rsp)
	jne	L(34_1)
	movq	%r15, 24(%rsp)
	jmp	L(34_3)
	.p2align	4
L(34_54):
	movzbl	32(%rsp), %ecx
	movzbl	36(%rsp), %r8d
	leaq	96(%rsp), %rdi
	movq	%r12, %rsi
	movq	%rbx, %rdx
	callq	"subtree_levels::split::find_split::<#30d82ebffd2e63ea>"
	cmpb	$1, 96(%rsp)
	movq	%r15, 24(%rsp)
	movq	%r12, %r13
	jne	L(34_55)
L(34_3):
	movq	%rbp, 48(%rsp)
	movq	%r13, 56(%rsp)
	movq	104(%rsp), %r15
	movq	112(%rsp), %rbx
	movq	120(%rsp), %rax
	movq	%rax, 168(%rsp)
	movq	128(%rsp), %rax
	movq	%rax, 64(%rsp)
	movq	136(%rsp), %r12
	movq	144(%rsp), %r8
	xorps	%xmm0, %xmm0
	movaps	%xmm0, 176(%rsp)
	movaps	%xmm0, 192(%rsp)
	leaq	8(%rsp), %r13
	movq	%r13, %rbp
	testq	%rbx, %rbx
	je	L(34_13)
	movabsq	$230584300921369396, %rax
	cmpq	%rax, %rbx
	jae	L(34_28)
	leaq	(,%rbx,8), %rax
	leaq	(%rax,%rax,4), %rdi
	movl	$8, %esi
	movq	%r8, %rbp
	callq	PLT(yurewha_heap_alloc)
	testb	$1, %al
	je	L(34_28)
	movq	%rbp, %r8
	movq	%rdx, %rbp
	movl	%ebx, %eax
	andl	$3, %eax
	cmpq	$4, %rbx
	jae	L(34_8)
	xorl	%ecx, %ecx
	jmp	L(34_11)
	.p2align	4
L(34_8):
	movq	%rbx, %rdx
	movabsq	$288230376151711740, %rcx
	andq	%rcx, %rdx
	movl	$152, %esi
	xorl	%ecx, %ecx
	.p2align	4
L(34_9):
	movq	-120(%r15,%rsi), %rdi
	movups	-152(%r15,%rsi), %xmm0
	movups	-136(%r15,%rsi), %xmm1
	movups	%xmm1, -136(%rbp,%rsi)
	movups	%xmm0, -152(%rbp,%rsi)
	movq	%rdi, -120(%rbp,%rsi)
	movq	-80(%r15,%rsi), %rdi
	movups	-112(%r15,%rsi), %xmm0
	movups	-96(%r15,%rsi), %xmm1
	movups	%xmm1, -96(%rbp,%rsi)
	movups	%xmm0, -112(%rbp,%rsi)
	movq	%rdi, -80(%rbp,%rsi)
	movq	-40(%r15,%rsi), %rdi
	movups	-72(%r15,%rsi), %xmm0
	movups	-56(%r15,%rsi), %xmm1
	movups	%xmm1, -56(%rbp,%rsi)
	movups	%xmm0, -72(%rbp,%rsi)
	movq	%rdi, -40(%rbp,%rsi)
	movq	(%r15,%rsi), %rdi
	movups	-32(%r15,%rsi), %xmm0
	movups	-16(%r15,%rsi), %xmm1
	movups	%xmm1, -16(%rbp,%rsi)
	movups	%xmm0, -32(%rbp,%rsi)
	movq	%rdi, (%rbp,%rsi)
	addq	$4, %rcx
	addq	$160, %rsi
	cmpq	%rcx, %rdx
	jne	L(34_9)
	testq	%rax, %rax
	je	L(34_13)
L(34_11):
	shlq	$3, %rcx
	leaq	(%rcx,%rcx,4), %rdx
	leaq	(%rdx,%rbp), %rcx
	addq	$32, %rcx
	addq	%r15, %rdx
	addq	$32, %rdx
	shll	$3, %eax
	leaq	(%rax,%rax,4), %rax
	xorl	%esi, %esi
	.p2align	4
L(34_12):
	movq	(%rdx,%rsi), %rdi
	movups	-32(%rdx,%rsi), %xmm0
	movups	-16(%rdx,%rsi), %xmm1
	movups	%xmm1, -16(%rcx,%rsi)
	movups	%xmm0, -32(%rcx,%rsi)
	movq	%rdi, (%rcx,%rsi)
	addq	$40, %rsi
	cmpq	%rsi, %rax
	jne	L(34_12)
L(34_13):
	testq	%r8, %r8
	movq	24(%rsp), %r15
	je	L(34_23)
	movabsq	$230584300921369396, %rax
	cmpq	%rax, %r8
	jae	L(34_26)
	leaq	(,%r8,8), %rax
	leaq	(%rax,%rax,4), %rdi
	movl	$8, %esi
	movq	%r8, %r13
	callq	PLT(yurewha_heap_alloc)
	testb	$1, %al
	je	L(34_26)
	movq	%r13, %r8
	movq	%rdx, %r13
	movl	%r8d, %eax
	andl	$3, %eax
	cmpq	$4, %r8
	jae	L(34_18)
	xorl	%ecx, %ecx
	jmp	L(34_21)
	.p2align	4
L(34_18):
	movq	%r8, %rdx
	movabsq	$288230376151711740, %rcx
	andq	%rcx, %rdx
	movl	$152, %esi
	xorl	%ecx, %ecx
	.p2align	4
L(34_19):
	movq	-120(%r12,%rsi), %rdi
	movups	-152(%r12,%rsi), %xmm0
	movups	-136(%r12,%rsi), %xmm1
	movups	%xmm1, -136(%r13,%rsi)
	movups	%xmm0, -152(%r13,%rsi)
	movq	%rdi, -120(%r13,%rsi)
	movq	-80(%r12,%rsi), %rdi
	movups	-112(%r12,%rsi), %xmm0
	movups	-96(%r12,%rsi), %xmm1
	movups	%xmm1, -96(%r13,%rsi)
	movups	%xmm0, -112(%r13,%rsi)
	movq	%rdi, -80(%r13,%rsi)
	movq	-40(%r12,%rsi), %rdi
	movups	-72(%r12,%rsi), %xmm0
	movups	-56(%r12,%rsi), %xmm1
	movups	%xmm1, -56(%r13,%rsi)
	movups	%xmm0, -72(%r13,%rsi)
	movq	%rdi, -40(%r13,%rsi)
	movq	(%r12,%rsi), %rdi
	movups	-32(%r12,%rsi), %xmm0
	movups	-16(%r12,%rsi), %xmm1
	movups	%xmm1, -16(%r13,%rsi)
	movups	%xmm0, -32(%r13,%rsi)
	movq	%rdi, (%r13,%rsi)
	addq	$4, %rcx
	addq	$160, %rsi
	cmpq	%rcx, %rdx
	jne	L(34_19)
	testq	%rax, %rax
	je	L(34_23)
L(34_21):
	shlq	$3, %rcx
	leaq	(%rcx,%rcx,4), %rdx
	leaq	(%rdx,%r13), %rcx
	addq	$32, %rcx
	addq	%r12, %rdx
	addq	$32, %rdx
	shll	$3, %eax
	leaq	(%rax,%rax,4), %rax
	xorl	%esi, %esi
	.p2align	4
L(34_22):
	movq	(%rdx,%rsi), %rdi
	movups	-32(%rdx,%rsi), %xmm0
	movups	-16(%rdx,%rsi), %xmm1
	movups	%xmm1, -16(%rcx,%rsi)
	movups	%xmm0, -32(%rcx,%rsi)
	movq	%rdi, (%rcx,%rsi)
	addq	$40, %rsi
	cmpq	%rsi, %rax
	jne	L(34_22)
L(34_23):
	movq	48(%rsp), %rax
	movq	%rax, 272(%rsp)
	movq	%r14, 280(%rsp)
	movq	16(%rsp), %rax
	movq	%rax, 288(%rsp)
	movq	%rbp, 296(%rsp)
	movq	%rbx, 304(%rsp)
	movq	%rbx, 312(%rsp)
	movq	$0, 320(%rsp)
	movq	%r13, 328(%rsp)
	movq	%r8, 336(%rsp)
	movq	%r8, 344(%rsp)
	leaq	176(%rsp), %rdi
	leaq	272(%rsp), %rsi
	leaq	296(%rsp), %rdx
	callq	"subtree_levels::levels::pushed::<#024afdc31600bcbd>"
	cmpb	$0, 176(%rsp)
	movq	56(%rsp), %r13
	jne	L(34_37)
	movq	184(%rsp), %rbp
	movq	192(%rsp), %r14
	movq	200(%rsp), %r12
	movabsq	$-6148914691236517205, %rcx
	movq	64(%rsp), %rax
	mulq	%rcx
	shrq	%rdx
	movabsq	$6148914691236517205, %rcx
	xorl	%ebx, %ebx
	cmpq	%rcx, %rax
	seta	%bl
	addq	%rdx, %rbx
	movq	%r12, 16(%rsp)
	je	L(34_25)
	movabsq	$230584300921369396, %rax
	cmpq	%rax, %rbx
	jae	L(34_45)
	leaq	(,%rbx,8), %rax
	leaq	(%rax,%rax,4), %rdi
	movl	$8, %esi
	callq	PLT(yurewha_heap_alloc)
	testb	$1, %al
	jne	L(34_42)
	jmp	L(34_45)
	.p2align	4
L(34_25):
	leaq	8(%rsp), %rdx
L(34_42):
	movq	%rdx, 72(%rsp)
	movq	$0, 80(%rsp)
	movq	%rbx, 88(%rsp)
	leaq	72(%rsp), %rdi
	movq	168(%rsp), %rsi
	movq	64(%rsp), %rdx
	movq	160(%rsp), %rcx
	callq	"xet_roots::aggregated_hashes::push_parents::<#135fa06c802d8a86>"
	testb	%al, %al
	jne	L(34_43)
	movq	72(%rsp), %r12
	movq	80(%rsp), %rbx
	movq	%r15, %rax
	movq	88(%rsp), %r15
	testq	%rax, %rax
	je	L(34_54)
	movq	%r13, %rdi
	callq	PLT(yurewha_heap_dealloc)
	jmp	L(34_54)
L(34_1):
	movq	%r13, %r12
L(34_55):
	movq	%rbp, 248(%rsp)
	movq	%r14, 256(%rsp)
	movq	16(%rsp), %rax
	movq	%rax, 264(%rsp)
	xorps	%xmm0, %xmm0
	movups	%xmm0, 392(%rsp)
	movq	%r12, 352(%rsp)
	movq	%rbx, 360(%rsp)
	movq	%r15, 368(%rsp)
	movq	$0, 376(%rsp)
	leaq	8(%rsp), %rax
	movq	%rax, 384(%rsp)
	leaq	208(%rsp), %rdi
	leaq	248(%rsp), %rsi
	leaq	352(%rsp), %rdx
	callq	"subtree_levels::levels::pushed::<#024afdc31600bcbd>"
	movq	40(%rsp), %rcx
	leaq	8(%rcx), %rax
	cmpb	$0, 208(%rsp)
	je	L(34_56)
	movb	$1, (%rcx)
	xorps	%xmm0, %xmm0
	movups	%xmm0, (%rax)
	movq	$0, 16(%rax)
	jmp	L(34_58)
L(34_56):
	movb	$0, (%rcx)
	movq	232(%rsp), %rcx
	movq	%rcx, 16(%rax)
	movups	216(%rsp), %xmm0
	movups	%xmm0, (%rax)
	jmp	L(34_58)
L(34_26):
	testq	%rbx, %rbx
	je	L(34_28)
	movq	%rbp, %rdi
	callq	PLT(yurewha_heap_dealloc)
L(34_28):
	testq	%r14, %r14
	movq	56(%rsp), %r13
	movq	48(%rsp), %rbp
	je	L(34_35)
	leaq	48(%rbp), %r15
	jmp	L(34_30)
	.p2align	4
L(34_34):
	addq	$56, %r15
	decq	%r14
	je	L(34_35)
L(34_30):
	movq	-16(%r15), %rbx
	movq	(%r15), %r12
	cmpq	$0, -32(%r15)
	je	L(34_32)
	movq	-48(%r15), %rdi
	callq	PLT(yurewha_heap_dealloc)
L(34_32):
	testq	%r12, %r12
	je	L(34_34)
	movq	%rbx, %rdi
	callq	PLT(yurewha_heap_dealloc)
	jmp	L(34_34)
L(34_43):
	cmpq	$0, 88(%rsp)
	je	L(34_45)
	movq	72(%rsp), %rdi
	callq	PLT(yurewha_heap_dealloc)
L(34_45):
	testq	%r14, %r14
	je	L(34_35)
	leaq	48(%rbp), %r15
	jmp	L(34_47)
	.p2align	4
L(34_51):
	addq	$56, %r15
	decq	%r14
	je	L(34_35)
L(34_47):
	movq	-16(%r15), %rbx
	movq	(%r15), %r12
	cmpq	$0, -32(%r15)
	je	L(34_49)
	movq	-48(%r15), %rdi
	callq	PLT(yurewha_heap_dealloc)
L(34_49):
	testq	%r12, %r12
	je	L(34_51)
	movq	%rbx, %rdi
	callq	PLT(yurewha_heap_dealloc)
	jmp	L(34_51)
L(34_35):
	cmpq	$0, 16(%rsp)
	movq	24(%rsp), %r15
	je	L(34_37)
	movq	%rbp, %rdi
	callq	PLT(yurewha_heap_dealloc)
L(34_37):
	testq	%r15, %r15
	je	L(34_39)
	movq	%r13, %rdi
	callq	PLT(yurewha_heap_dealloc)
L(34_39):
	movq	40(%rsp), %rax
	movb	$1, (%rax)
	xorps	%xmm0, %xmm0
	movups	%xmm0, 8(%rax)
	movq	$0, 24(%rax)
L(34_58):
	addq	$408, %rsp
	.cfi_def_cfa_offset 56
	popq	%rbx
	.cfi_def_cfa_offset 48
	popq	%r12
	.cfi_def_cfa_offset 40
	popq	%r13
	.cfi_def_cfa_offset 32
	popq	%r14
	.cfi_def_cfa_offset 24
	popq	%r15
	.cfi_def_cfa_offset 16
	popq	%rbp
	.cfi_def_cfa_offset 8
	retq
	SIZE("subtree_levels::collapse::collapse::<#a9d92fd6c0d16019>")
	.cfi_endproc

CODE(".text.std_collections::btree::iter::Cursor::retreat::<#4f04a9971a4b2638>")
	.p2align	4
	TYPE("std_collections::btree::iter::Cursor::retreat::<#4f04a9971a4b2638>", function)
"std_collections::btree::iter::Cursor::retreat::<#4f04a9971a4b2638>":
	.cfi_startproc
	pushq	%r15
	.cfi_def_cfa_offset 16
	pushq	%r14
	.cfi_def_cfa_offset 24
	pushq	%rbx
	.cfi_def_cfa_offset 32
	.cfi_offset %rbx, -32
	.cfi_offset %r14, -24
	.cfi_offset %r15, -16
	movq	%rcx, %rax
	cmpq	$-1, %rsi
	je	L(35_1)
	movq	%rsi, %r9
	andq	$15, %r9
	je	L(35_11)
	movq	(%rdx), %rax
	leaq	(%rax,%r9,8), %rcx
	leaq	(%r9,%r9,2), %r9
	shll	$4, %r9d
	leaq	(%r9,%rax), %r10
	addq	$80, %r10
	decq	%rsi
	movl	$1, %r11d
	movq	%rsi, %r9
	cmpq	%r8, %r9
	je	L(35_10)
	jmp	L(35_25)
L(35_1):
	movq	(%rax), %rdx
	movzwl	(%rdx), %r9d
	cmpw	$1, 2(%rdx)
	jne	L(35_3)
	xorl	%ecx, %ecx
	jmp	L(35_6)
L(35_11):
	movq	(%rax), %r11
	movzwl	2(%r11), %ecx
	cmpw	$1, %cx
	je	L(35_23)
	xorl	%r10d, %r10d
	xorl	%r9d, %r9d
	xorl	%edx, %edx
	xorl	%ebx, %ebx
	xorl	%r14d, %r14d
	jmp	L(35_13)
	.p2align	4
L(35_15):
	shlq	$4, %r14
	orq	%r15, %r14
	leaq	(%r11,%r15,8), %rax
	addq	$848, %rax
	movq	848(%r11,%r15,8), %r11
	movzwl	2(%r11), %ecx
	cmpw	$1, %cx
	je	L(35_16)
L(35_13):
	shll	$2, %ecx
	addb	$-4, %cl
	movq	%rsi, %r15
	shrq	%cl, %r15
	andq	$15, %r15
	je	L(35_15)
	leaq	-1(%r15), %r10
	movb	$1, %bl
	movq	%rax, %rdx
	movq	%r14, %r9
	jmp	L(35_15)
L(35_3):
	xorl	%ecx, %ecx
	.p2align	4
L(35_4):
	movq	%r9, %rax
	movq	%rdx, %rsi
	shlq	$4, %rcx
	addq	%r9, %rcx
	movq	848(%rdx,%r9,8), %rdx
	movzwl	(%rdx), %r9d
	cmpw	$1, 2(%rdx)
	jne	L(35_4)
	addq	$848, %rsi
	shlq	$3, %rax
	addq	%rsi, %rax
	shlq	$4, %rcx
L(35_6):
	addq	%rcx, %r9
	xorl	%r11d, %r11d
	xorl	%ecx, %ecx
	xorl	%r10d, %r10d
	movq	%rax, %rdx
	cmpq	%r8, %r9
	jne	L(35_25)
L(35_10):
	movq	%r11, (%rdi)
	movq	%rcx, 8(%rdi)
	movq	%r10, 16(%rdi)
	xorps	%xmm0, %xmm0
	movups	%xmm0, 24(%rdi)
	movq	$0, 40(%rdi)
	popq	%rbx
	.cfi_def_cfa_offset 24
	popq	%r14
	.cfi_def_cfa_offset 16
	popq	%r15
	.cfi_def_cfa_offset 8
	retq
L(35_16):
	.cfi_def_cfa_offset 32
	testb	%bl, %bl
	je	L(35_23)
	movq	(%rdx), %rax
	leaq	(%r10,%r10,2), %rsi
	shlq	$4, %rsi
	cmpw	$1, 2(%rax)
	jne	L(35_19)
	movq	%r10, %r11
	jmp	L(35_22)
L(35_23):
	xorps	%xmm0, %xmm0
	movups	%xmm0, 32(%rdi)
	movups	%xmm0, 16(%rdi)
	movups	%xmm0, (%rdi)
	popq	%rbx
	.cfi_def_cfa_offset 24
	popq	%r14
	.cfi_def_cfa_offset 16
	popq	%r15
	.cfi_def_cfa_offset 8
	retq
L(35_19):
	.cfi_def_cfa_offset 32
	movq	%rax, %rbx
	movq	%r10, %r11
	.p2align	4
L(35_20):
	movq	%r11, %rdx
	movq	%rbx, %rcx
	shlq	$4, %r9
	addq	%r11, %r9
	movq	848(%rbx,%r11,8), %rbx
	movzwl	(%rbx), %r11d
	cmpw	$1, 2(%rbx)
	jne	L(35_20)
	addq	$848, %rcx
	shlq	$3, %rdx
	addq	%rcx, %rdx
L(35_22):
	leaq	(%rax,%r10,8), %rcx
	addq	$8, %rcx
	leaq	(%rax,%rsi), %r10
	addq	$128, %r10
	shlq	$4, %r9
	addq	%r11, %r9
	movl	$1, %r11d
	cmpq	%r8, %r9
	je	L(35_10)
L(35_25):
	movq	%r11, (%rdi)
	movq	%rcx, 8(%rdi)
	movq	%r10, 16(%rdi)
	movq	$1, 24(%rdi)
	movq	%r9, 32(%rdi)
	movq	%rdx, 40(%rdi)
	popq	%rbx
	.cfi_def_cfa_offset 24
	popq	%r14
	.cfi_def_cfa_offset 16
	popq	%r15
	.cfi_def_cfa_offset 8
	retq
	SIZE("std_collections::btree::iter::Cursor::retreat::<#4f04a9971a4b2638>")
	.cfi_endproc

CODE(".text.xet_merkle::merkle_hash_subtree::subtree::MerkleHashSubtree::merge_with::<#3cf6a99334775a21>")
	.p2align	4
	TYPE("xet_merkle::merkle_hash_subtree::subtree::MerkleHashSubtree::merge_with::<#3cf6a99334775a21>", function)
"xet_merkle::merkle_hash_subtree::subtree::MerkleHashSubtree::merge_with::<#3cf6a99334775a21>":
	.cfi_startproc
	pushq	%rbp
	.cfi_def_cfa_offset 16
	pushq	%r15
	.cfi_def_cfa_offset 24
	pushq	%r14
	.cfi_def_cfa_offset 32
	pushq	%r13
	.cfi_def_cfa_offset 40
	pushq	%r12
	.cfi_def_cfa_offset 48
	pushq	%rbx
	.cfi_def_cfa_offset 56
	subq	$1192, %rsp
	.cfi_def_cfa_offset 1248
	.cfi_offset %rbx, -56
	.cfi_offset %r12, -48
	.cfi_offset %r13, -40
	.cfi_offset %r14, -32
	.cfi_offset %r15, -24
	.cfi_offset %rbp, -16
	movl	%ecx, %r15d
	movq	%rdx, %rbx
	movq	%rsi, %r14
	movq	%rdi, %rbp
	xorps	%xmm0, %xmm0
	movaps	%xmm0, 400(%rsp)
	movaps	%xmm0, 96(%rsp)
	movq	$0, 112(%rsp)
	leaq	96(%rsp), %rdi
	testb	$1, %r15b
	je	L(36_3)
	movq	%rbx, %rsi
	movq	%r14, %rdx
	callq	"xet_merkle::merkle_hash_subtree::subtree::merging::whole_of::<#024afdc31600bcbd>"
	cmpb	$0, 96(%rsp)
	je	L(36_4)
L(36_2):
	movzbl	97(%rsp), %eax
	movzbl	98(%rsp), %ecx
	movb	$1, (%rbp)
	movb	%al, 1(%rbp)
	movb	%cl, 2(%rbp)
	xorps	%xmm0, %xmm0
	jmp	L(36_323)
L(36_3):
	movq	%r14, %rsi
	movq	%rbx, %rdx
	callq	"xet_merkle::merkle_hash_subtree::subtree::merging::whole_of::<#024afdc31600bcbd>"
	cmpb	$0, 96(%rsp)
	jne	L(36_2)
L(36_4):
	movq	104(%rsp), %rcx
	movq	112(%rsp), %rax
	movq	%rax, 792(%rsp)
	movl	%ecx, %eax
	shrl	$8, %eax
	movl	%eax, 196(%rsp)
	movq	8(%rbx), %rax
	movq	16(%rbx), %r12
	movq	8(%r14), %rbx
	movq	16(%r14), %rdx
	testb	$1, %r15b
	movq	%rdx, %r13
	cmovneq	%r12, %r13
	xorps	%xmm0, %xmm0
	movq	%rax, %rsi
	cmovneq	%rbx, %rsi
	movq	%rax, 504(%rsp)
	cmovneq	%rax, %rbx
	cmoveq	%r12, %rdx
	movups	%xmm0, 120(%rsp)
	movl	$0, 154(%rsp)
	movw	$0, 158(%rsp)
	leaq	8(%rsp), %rax
	movq	%rax, 512(%rsp)
	movups	%xmm0, 520(%rsp)
	movq	%rbx, 96(%rsp)
	movq	%r13, 104(%rsp)
	movq	%rax, 64(%rsp)
	movq	%rax, 112(%rsp)
	movq	%rsi, 48(%rsp)
	movq	%rsi, 136(%rsp)
	movq	%rbp, 40(%rsp)
	movq	%rdx, %rbp
	movq	%rdx, 144(%rsp)
	movq	%rcx, 304(%rsp)
	movw	%cx, 152(%rsp)
	movzbl	%r15b, %esi
	leaq	96(%rsp), %rdi
	movl	%esi, 72(%rsp)
	callq	"subtree_levels::in_sight::InSight::only_extends::<#024afdc31600bcbd>"
	leaq	8(%r14), %r11
	testb	%al, %al
	movq	%r11, 232(%rsp)
	movl	%r15d, 92(%rsp)
	movq	%r14, 296(%rsp)
	movq	%r12, 496(%rsp)
	je	L(36_10)
	leaq	8(%rsp), %r15
	movb	$1, 200(%rsp)
	xorl	%ebx, %ebx
	movq	%r12, %r14
	xorl	%r10d, %r10d
	xorl	%r12d, %r12d
	movq	%r15, 16(%rsp)
	movq	504(%rsp), %rcx
	movq	40(%rsp), %rbp
L(36_6):
	testb	$1, 92(%rsp)
	je	L(36_37)
	leaq	8(%rsp), %rdx
	testq	%r14, %r14
	movq	%r15, 56(%rsp)
	movq	%rbx, 48(%rsp)
	je	L(36_46)
	cmpq	$1, %r14
	jne	L(36_47)
	movq	8(%rcx), %r14
	movq	24(%rcx), %rax
	leaq	(%rax,%rax,4), %rbx
	shlq	$3, %rbx
	addq	(%rcx), %rbx
	subq	%rax, %r14
	movq	%r14, %r15
	addq	%r10, %r15
	jne	L(36_48)
	jmp	L(36_51)
L(36_10):
	leaq	16(%r14), %rax
	movq	%rax, 416(%rsp)
	xorl	%r12d, %r12d
	jmp	L(36_12)
	.p2align	4
L(36_11):
	movb	%r12b, %bpl
	subq	%rbp, %rdx
	movq	48(%rsp), %rsi
	addq	%r14, %rsi
	movb	%r15b, %r13b
	movq	16(%rsp), %rax
	subq	%r13, %rax
	movq	%rax, %r13
	movq	24(%rsp), %rax
	addq	%rbx, %rax
	movq	%rax, %rbx
	leaq	343(%rsp), %rdi
	movq	16(%rdi), %rax
	leaq	154(%rsp), %rcx
	movq	%rax, -26(%rcx)
	movups	(%rdi), %xmm0
	movups	%xmm0, -42(%rcx)
	movq	%rbx, 96(%rsp)
	movq	%r13, 104(%rsp)
	movq	%rsi, 48(%rsp)
	movq	%rsi, 136(%rsp)
	movq	%rdx, 144(%rsp)
	movw	$0, 4(%rcx)
	movl	$0, (%rcx)
	leaq	96(%rsp), %rdi
	movl	72(%rsp), %esi
	movq	%rdx, %rbp
	callq	"subtree_levels::in_sight::InSight::only_extends::<#024afdc31600bcbd>"
	testb	%al, %al
	movq	80(%rsp), %r12
	movq	232(%rsp), %r11
	movl	92(%rsp), %r15d
	jne	L(36_75)
L(36_12):
	testb	$1, %r15b
	movq	%r13, %rsi
	cmovneq	%rbp, %rsi
	movq	112(%rsp), %r14
	cmpq	$2, %rsi
	jb	L(36_58)
	movq	%rsi, 424(%rsp)
	movq	%rbp, 200(%rsp)
	xorps	%xmm0, %xmm0
	movaps	%xmm0, 432(%rsp)
	movaps	%xmm0, 448(%rsp)
	movaps	%xmm0, 464(%rsp)
	movaps	%xmm0, 240(%rsp)
	movaps	%xmm0, 256(%rsp)
	movaps	%xmm0, 336(%rsp)
	movups	%xmm0, 351(%rsp)
	movq	128(%rsp), %rbp
	leaq	240(%rsp), %rdi
	leaq	96(%rsp), %rsi
	callq	"subtree_levels::in_sight::InSight::nodes::<#d96a70c1b70ca186>"
	cmpb	$0, 240(%rsp)
	jne	L(36_59)
	movq	%rbp, 32(%rsp)
	movq	%rbx, 24(%rsp)
	movq	248(%rsp), %rdx
	movq	256(%rsp), %rcx
	movq	264(%rsp), %rax
	movq	%rax, 56(%rsp)
	leaq	432(%rsp), %rbx
	leaq	96(%rsp), %rsi
	movq	%rbx, %rdi
	movq	%rdx, 208(%rsp)
	callq	"subtree_levels::in_sight::InSight::split::<#024afdc31600bcbd>"
	leaq	440(%rsp), %rcx
	leaq	464(%rsp), %rax
	leaq	472(%rsp), %rdx
	testb	$1, %r15b
	cmovneq	%rcx, %rdx
	movq	(%rdx), %rbp
	cmovneq	%rbx, %rax
	testq	%rbp, %rbp
	je	L(36_19)
	movabsq	$230584300921369396, %rcx
	cmpq	%rcx, %rbp
	jae	L(36_63)
	movq	(%rax), %rbx
	leaq	(,%rbp,8), %rax
	leaq	(%rax,%rax,4), %rdi
	movl	$8, %esi
	callq	PLT(yurewha_heap_alloc)
	testb	$1, %al
	je	L(36_63)
	movl	%ebp, %eax
	andl	$3, %eax
	cmpq	$4, %rbp
	jae	L(36_20)
	xorl	%ecx, %ecx
	jmp	L(36_23)
	.p2align	4
L(36_19):
	leaq	8(%rsp), %rdx
	jmp	L(36_25)
	.p2align	4
L(36_20):
	movabsq	$288230376151711740, %rsi
	andq	%rbp, %rsi
	movl	$152, %edi
	xorl	%ecx, %ecx
	.p2align	4
L(36_21):
	movq	-120(%rbx,%rdi), %r8
	movups	-152(%rbx,%rdi), %xmm0
	movups	-136(%rbx,%rdi), %xmm1
	movups	%xmm1, -136(%rdx,%rdi)
	movups	%xmm0, -152(%rdx,%rdi)
	movq	%r8, -120(%rdx,%rdi)
	movq	-80(%rbx,%rdi), %r8
	movups	-112(%rbx,%rdi), %xmm0
	movups	-96(%rbx,%rdi), %xmm1
	movups	%xmm1, -96(%rdx,%rdi)
	movups	%xmm0, -112(%rdx,%rdi)
	movq	%r8, -80(%rdx,%rdi)
	movq	-40(%rbx,%rdi), %r8
	movups	-72(%rbx,%rdi), %xmm0
	movups	-56(%rbx,%rdi), %xmm1
	movups	%xmm1, -56(%rdx,%rdi)
	movups	%xmm0, -72(%rdx,%rdi)
	movq	%r8, -40(%rdx,%rdi)
	movq	(%rbx,%rdi), %r8
	movups	-32(%rbx,%rdi), %xmm0
	movups	-16(%rbx,%rdi), %xmm1
	movups	%xmm1, -16(%rdx,%rdi)
	movups	%xmm0, -32(%rdx,%rdi)
	movq	%r8, (%rdx,%rdi)
	addq	$4, %rcx
	addq	$160, %rdi
	cmpq	%rcx, %rsi
	jne	L(36_21)
	testq	%rax, %rax
	je	L(36_25)
L(36_23):
	shlq	$3, %rcx
	leaq	(%rcx,%rcx,4), %rsi
	leaq	(%rdx,%rsi), %rcx
	addq	$32, %rcx
	addq	%rbx, %rsi
	addq	$32, %rsi
	shll	$3, %eax
	leaq	(%rax,%rax,4), %rax
	xorl	%edi, %edi
	.p2align	4
L(36_24):
	movq	(%rsi,%rdi), %r8
	movups	-32(%rsi,%rdi), %xmm0
	movups	-16(%rsi,%rdi), %xmm1
	movups	%xmm1, -16(%rcx,%rdi)
	movups	%xmm0, -32(%rcx,%rdi)
	movq	%r8, (%rcx,%rdi)
	addq	$40, %rdi
	cmpq	%rdi, %rax
	jne	L(36_24)
L(36_25):
	cmpq	%r12, 528(%rsp)
	je	L(36_35)
L(36_26):
	movq	%r13, 16(%rsp)
	leaq	(%r12,%r12,2), %rax
	movq	64(%rsp), %rcx
	movq	%rdx, (%rcx,%rax,8)
	movq	%rbp, 8(%rcx,%rax,8)
	movq	%rbp, 16(%rcx,%rax,8)
	incq	%r12
	movq	%r12, 520(%rsp)
	movq	448(%rsp), %rbx
	movq	456(%rsp), %rbp
	movabsq	$-6148914691236517205, %rcx
	movq	%rbp, %rax
	mulq	%rcx
	shrq	%rdx
	movabsq	$6148914691236517205, %rcx
	xorl	%r13d, %r13d
	cmpq	%rcx, %rax
	seta	%r13b
	addq	%rdx, %r13
	je	L(36_29)
	movabsq	$230584300921369396, %rax
	cmpq	%rax, %r13
	jae	L(36_63)
	leaq	(,%r13,8), %rax
	leaq	(%rax,%rax,4), %rdi
	movl	$8, %esi
	callq	PLT(yurewha_heap_alloc)
	testb	$1, %al
	jne	L(36_30)
	jmp	L(36_63)
	.p2align	4
L(36_29):
	leaq	8(%rsp), %rdx
L(36_30):
	movq	%rdx, 560(%rsp)
	movq	$0, 568(%rsp)
	movq	%r13, 576(%rsp)
	leaq	560(%rsp), %rdi
	leaq	400(%rsp), %rcx
	movq	%rbx, %rsi
	movq	%rbp, %rdx
	callq	"xet_roots::aggregated_hashes::push_parents::<#135fa06c802d8a86>"
	testb	%al, %al
	jne	L(36_61)
	movq	%r12, 80(%rsp)
	movq	576(%rsp), %rax
	leaq	343(%rsp), %rcx
	movq	%rax, 16(%rcx)
	movups	560(%rsp), %xmm0
	movups	%xmm0, (%rcx)
	cmpq	$0, 32(%rsp)
	je	L(36_33)
	movq	%r14, %rdi
	callq	PLT(yurewha_heap_dealloc)
L(36_33):
	xorl	%ebp, %ebp
	movq	200(%rsp), %rdx
	testq	%rdx, %rdx
	setne	%r12b
	movl	$56, %ebx
	movl	$56, %r14d
	cmoveq	%rdx, %r14
	xorl	%r13d, %r13d
	movq	16(%rsp), %rax
	testq	%rax, %rax
	setne	%r15b
	cmoveq	%rax, %rbx
	cmpq	$0, 56(%rsp)
	je	L(36_11)
	movq	208(%rsp), %rdi
	callq	PLT(yurewha_heap_dealloc)
	movq	200(%rsp), %rdx
	jmp	L(36_11)
L(36_35):
	movq	%rdx, %rbx
	leaq	512(%rsp), %rdi
	callq	"std_alloc::vec::Vec::grow_amortized::<#383813664ff73b2b>"
	testb	%al, %al
	je	L(36_233)
	movq	512(%rsp), %rax
	movq	%rax, 64(%rsp)
	movq	520(%rsp), %r12
	movq	%rbx, %rdx
	jmp	L(36_26)
L(36_37):
	cmpq	%r12, 496(%rsp)
	jbe	L(36_44)
	movq	%rcx, %rsi
	movq	8(%rcx), %rcx
	movq	24(%rsi), %rax
	leaq	(%rax,%rax,4), %rdx
	shlq	$3, %rdx
	addq	(%rsi), %rdx
	subq	%rax, %rcx
	movq	16(%rsp), %r14
	testq	%r10, %r10
	je	L(36_45)
L(36_39):
	movq	%r14, 96(%rsp)
	movq	%r10, 104(%rsp)
	movq	%rbx, 112(%rsp)
	movq	%rbx, 48(%rsp)
	movq	%rbx, %rax
	subq	%r10, %rax
	cmpq	%rax, %rcx
	ja	L(36_195)
L(36_40):
	leaq	(%r10,%rcx), %rbx
	shlq	$3, %r10
	leaq	(%r10,%r10,4), %rsi
	leaq	(%r14,%rsi), %rdi
	leaq	(,%rcx,8), %rax
	leaq	(%rax,%rax,4), %rax
	movq	%rdi, %r8
	subq	%rdx, %r8
	cmpq	%rax, %r8
	jae	L(36_57)
	testq	%rcx, %rcx
	je	L(36_103)
	movl	%ecx, %eax
	andl	$7, %eax
	cmpq	$8, %rcx
	jae	L(36_98)
	xorl	%r8d, %r8d
	jmp	L(36_101)
L(36_44):
	leaq	8(%rsp), %rdx
	xorl	%ecx, %ecx
	movq	16(%rsp), %r14
	testq	%r10, %r10
	jne	L(36_39)
L(36_45):
	movq	%r11, %rdi
	movq	%r12, %rsi
	callq	"subtree_levels::in_place::extend_inner::<#024afdc31600bcbd>"
	movl	%eax, %r13d
	testq	%rbx, %rbx
	jne	L(36_104)
	jmp	L(36_149)
L(36_46):
	movq	%rdx, %rbx
	movq	%r14, %r15
	addq	%r10, %r15
	jne	L(36_48)
	jmp	L(36_51)
L(36_47):
	movq	32(%rcx), %rbx
	movq	40(%rcx), %r14
	movq	%r14, %r15
	addq	%r10, %r15
	je	L(36_51)
L(36_48):
	movb	$1, %r13b
	movabsq	$230584300921369396, %rax
	cmpq	%rax, %r15
	jae	L(36_146)
	movq	%r10, 24(%rsp)
	leaq	(,%r15,8), %rax
	leaq	(%rax,%rax,4), %rdi
	movl	$8, %esi
	callq	PLT(yurewha_heap_alloc)
	testb	$1, %al
	je	L(36_146)
	movq	24(%rsp), %r10
L(36_51):
	movq	%rdx, 336(%rsp)
	movq	$0, 344(%rsp)
	movq	%r15, 352(%rsp)
	cmpq	%r15, %r14
	ja	L(36_197)
	xorl	%eax, %eax
L(36_53):
	leaq	(%rax,%r14), %r13
	shlq	$3, %rax
	leaq	(%rax,%rax,4), %rcx
	leaq	(%rdx,%rcx), %rdi
	leaq	(,%r14,8), %rax
	leaq	(%rax,%rax,4), %rax
	movq	%rdi, %rsi
	subq	%rbx, %rsi
	cmpq	%rax, %rsi
	jae	L(36_60)
	testq	%r14, %r14
	je	L(36_112)
	movl	%r14d, %eax
	andl	$7, %eax
	cmpq	$8, %r14
	jae	L(36_107)
	xorl	%esi, %esi
	jmp	L(36_110)
L(36_57):
	movq	%rdx, %rsi
	movq	%rax, %rdx
	movq	%r11, %r13
	callq	PLT(memmove)
	movq	%r13, %r11
	jmp	L(36_103)
L(36_58):
	movq	%r14, 16(%rsp)
	jmp	L(36_76)
L(36_59):
	testq	%rbp, %rbp
	jmp	L(36_66)
L(36_60):
	movq	%rbx, %rsi
	movq	%rax, %rdx
	movq	%r10, %rbx
	callq	PLT(memmove)
	movq	%rbx, %r10
	jmp	L(36_112)
L(36_61):
	cmpq	$0, 576(%rsp)
	je	L(36_63)
	movq	560(%rsp), %rdi
	callq	PLT(yurewha_heap_dealloc)
L(36_63):
	cmpq	$0, 56(%rsp)
	je	L(36_65)
	movq	208(%rsp), %rdi
	callq	PLT(yurewha_heap_dealloc)
L(36_65):
	cmpq	$0, 32(%rsp)
L(36_66):
	movq	40(%rsp), %rbp
	je	L(36_68)
L(36_67):
	movq	%r14, %rdi
	callq	PLT(yurewha_heap_dealloc)
L(36_68):
	movq	512(%rsp), %rbx
	movq	520(%rsp), %r15
	movq	528(%rsp), %r14
	testq	%r15, %r15
	je	L(36_73)
	leaq	16(%rbx), %r12
	jmp	L(36_71)
	.p2align	4
L(36_70):
	addq	$24, %r12
	decq	%r15
	je	L(36_73)
L(36_71):
	cmpq	$0, (%r12)
	je	L(36_70)
	movq	-16(%r12), %rdi
	callq	PLT(yurewha_heap_dealloc)
	jmp	L(36_70)
L(36_73):
	testq	%r14, %r14
	je	L(36_164)
	movq	%rbx, %rdi
	jmp	L(36_163)
L(36_75):
	movq	112(%rsp), %rax
	movq	%rax, 16(%rsp)
	movq	424(%rsp), %rsi
L(36_76):
	movq	528(%rsp), %rax
	movq	%rax, 24(%rsp)
	testq	%rax, %rax
	sete	200(%rsp)
	movq	496(%rsp), %r14
	cmpq	%r12, %r14
	movq	%r12, %rax
	cmovbq	%r14, %rax
	movq	512(%rsp), %r15
	imulq	$56, %rax, %rcx
	movq	504(%rsp), %rdx
	addq	%rcx, %rdx
	movq	%rdx, %rcx
	subq	%rax, %r14
	movq	120(%rsp), %r10
	movq	128(%rsp), %rbx
	cmpq	$1, %rsi
	movq	40(%rsp), %rbp
	ja	L(36_6)
	movq	%r15, 56(%rsp)
	movq	416(%rsp), %rax
	movq	(%rax), %rax
	cmpq	%r12, %rax
	movq	%r12, 80(%rsp)
	movq	%rcx, %rdx
	cmovbq	%rax, %r12
	imulq	$56, %r12, %rsi
	addq	(%r11), %rsi
	subq	%r12, %rax
	testb	$1, 92(%rsp)
	movq	%rsi, %rcx
	cmovneq	%rdx, %rcx
	movq	%rax, %rbp
	cmovneq	%r14, %rbp
	cmoveq	%rdx, %rsi
	movq	%r14, %r12
	cmovneq	%rax, %r12
	xorps	%xmm0, %xmm0
	movaps	%xmm0, 800(%rsp)
	movaps	%xmm0, 816(%rsp)
	movaps	%xmm0, 560(%rsp)
	movaps	%xmm0, 576(%rsp)
	movaps	%xmm0, 592(%rsp)
	movq	$0, 608(%rsp)
	movaps	%xmm0, 672(%rsp)
	movq	$0, 688(%rsp)
	movaps	%xmm0, 512(%rsp)
	movaps	%xmm0, 528(%rsp)
	movaps	%xmm0, 544(%rsp)
	movq	%rcx, 32(%rsp)
	movq	%rcx, 96(%rsp)
	movq	%rbp, 104(%rsp)
	movq	16(%rsp), %rcx
	movq	%rcx, 112(%rsp)
	movq	%r10, 120(%rsp)
	movq	%rbx, 128(%rsp)
	movq	%rsi, 48(%rsp)
	movq	%rsi, 136(%rsp)
	movq	%r12, 144(%rsp)
	movq	304(%rsp), %rcx
	movw	%cx, 152(%rsp)
	movw	$0, 158(%rsp)
	movl	$0, 154(%rsp)
	orq	%r14, %rax
	cmpq	$2, %rax
	jae	L(36_79)
	leaq	8(%rsp), %rax
	movq	%rax, 16(%rsp)
	xorl	%r13d, %r13d
	xorl	%r15d, %r15d
	jmp	L(36_89)
L(36_79):
	leaq	8(%rsp), %rax
	movq	%rax, 16(%rsp)
	xorl	%r15d, %r15d
	xorl	%r13d, %r13d
L(36_80):
	leaq	800(%rsp), %rdi
	leaq	96(%rsp), %rsi
	callq	"subtree_levels::in_sight::InSight::nodes::<#d96a70c1b70ca186>"
	cmpb	$0, 800(%rsp)
	jne	L(36_181)
	movq	808(%rsp), %rbx
	movq	816(%rsp), %rcx
	movq	824(%rsp), %r14
	movq	16(%rsp), %rax
	movq	%rax, 672(%rsp)
	movq	%r13, 680(%rsp)
	movq	%r15, 688(%rsp)
	leaq	512(%rsp), %r15
	leaq	96(%rsp), %rsi
	movq	%r15, %rdi
	movq	%rbx, %rdx
	callq	"subtree_levels::in_sight::InSight::split::<#024afdc31600bcbd>"
	leaq	560(%rsp), %rdi
	leaq	672(%rsp), %rsi
	leaq	400(%rsp), %rcx
	movq	%r15, %rdx
	callq	"subtree_levels::collapse::collapse_middle::<#4baefd862f873d89>"
	cmpb	$0, 560(%rsp)
	jne	L(36_192)
	movq	568(%rsp), %rax
	movq	%rax, 16(%rsp)
	movq	576(%rsp), %r13
	movq	584(%rsp), %r15
	cmpq	$0, 128(%rsp)
	je	L(36_84)
	movq	112(%rsp), %rdi
	callq	PLT(yurewha_heap_dealloc)
L(36_84):
	xorl	%eax, %eax
	testq	%r12, %r12
	setne	%al
	movl	$56, %ecx
	movl	$56, %edx
	cmoveq	%r12, %rdx
	subq	%rax, %r12
	movq	48(%rsp), %rsi
	addq	%rdx, %rsi
	xorl	%eax, %eax
	testq	%rbp, %rbp
	setne	%al
	cmoveq	%rbp, %rcx
	subq	%rax, %rbp
	movq	32(%rsp), %rax
	addq	%rcx, %rax
	movq	%rax, 32(%rsp)
	movq	%rax, 96(%rsp)
	movq	%rbp, 104(%rsp)
	leaq	592(%rsp), %rdx
	movq	16(%rdx), %rax
	leaq	154(%rsp), %rcx
	movq	%rax, -26(%rcx)
	movups	(%rdx), %xmm0
	movups	%xmm0, -42(%rcx)
	movq	%rsi, 48(%rsp)
	movq	%rsi, 136(%rsp)
	movq	%r12, 144(%rsp)
	movw	$0, 4(%rcx)
	movl	$0, (%rcx)
	testq	%r14, %r14
	je	L(36_86)
	movq	%rbx, %rdi
	callq	PLT(yurewha_heap_dealloc)
L(36_86):
	cmpq	$1, %rbp
	ja	L(36_80)
	cmpq	$1, %r12
	ja	L(36_80)
	movq	120(%rsp), %r10
	xorps	%xmm0, %xmm0
L(36_89):
	movaps	%xmm0, 832(%rsp)
	movaps	%xmm0, 848(%rsp)
	movaps	%xmm0, 704(%rsp)
	movq	$0, 720(%rsp)
	movaps	%xmm0, 1120(%rsp)
	movaps	%xmm0, 1136(%rsp)
	testq	%r10, %r10
	je	L(36_169)
L(36_90):
	movq	16(%rsp), %rax
	movq	%rax, 704(%rsp)
	movq	%r13, 712(%rsp)
	movq	%r15, 720(%rsp)
	leaq	1120(%rsp), %rdi
	leaq	96(%rsp), %rsi
	callq	"subtree_levels::in_sight::InSight::nodes::<#d96a70c1b70ca186>"
	cmpb	$0, 1120(%rsp)
	je	L(36_173)
	testq	%r13, %r13
	movq	40(%rsp), %rbp
	je	L(36_105)
	movq	16(%rsp), %rax
	leaq	48(%rax), %r14
	jmp	L(36_94)
L(36_93):
	addq	$56, %r14
	decq	%r13
	je	L(36_105)
L(36_94):
	movq	-16(%r14), %rbx
	movq	(%r14), %r12
	cmpq	$0, -32(%r14)
	je	L(36_96)
	movq	-48(%r14), %rdi
	callq	PLT(yurewha_heap_dealloc)
L(36_96):
	testq	%r12, %r12
	je	L(36_93)
	movq	%rbx, %rdi
	callq	PLT(yurewha_heap_dealloc)
	jmp	L(36_93)
L(36_98):
	andq	$-8, %rcx
	movl	$280, %r9d
	xorl	%r8d, %r8d
	.p2align	4
L(36_99):
	movups	-280(%rdx,%r9), %xmm0
	movups	-264(%rdx,%r9), %xmm1
	movq	-248(%rdx,%r9), %r10
	movq	%r10, -248(%rdi,%r9)
	movups	%xmm1, -264(%rdi,%r9)
	movups	%xmm0, -280(%rdi,%r9)
	movups	-240(%rdx,%r9), %xmm0
	movups	-224(%rdx,%r9), %xmm1
	movq	-208(%rdx,%r9), %r10
	movq	%r10, -208(%rdi,%r9)
	movups	%xmm1, -224(%rdi,%r9)
	movups	%xmm0, -240(%rdi,%r9)
	movups	-200(%rdx,%r9), %xmm0
	movups	-184(%rdx,%r9), %xmm1
	movq	-168(%rdx,%r9), %r10
	movq	%r10, -168(%rdi,%r9)
	movups	%xmm1, -184(%rdi,%r9)
	movups	%xmm0, -200(%rdi,%r9)
	movups	-160(%rdx,%r9), %xmm0
	movups	-144(%rdx,%r9), %xmm1
	movq	-128(%rdx,%r9), %r10
	movq	%r10, -128(%rdi,%r9)
	movups	%xmm1, -144(%rdi,%r9)
	movups	%xmm0, -160(%rdi,%r9)
	movups	-120(%rdx,%r9), %xmm0
	movups	-104(%rdx,%r9), %xmm1
	movq	-88(%rdx,%r9), %r10
	movq	%r10, -88(%rdi,%r9)
	movups	%xmm1, -104(%rdi,%r9)
	movups	%xmm0, -120(%rdi,%r9)
	movups	-80(%rdx,%r9), %xmm0
	movups	-64(%rdx,%r9), %xmm1
	movq	-48(%rdx,%r9), %r10
	movq	%r10, -48(%rdi,%r9)
	movups	%xmm1, -64(%rdi,%r9)
	movups	%xmm0, -80(%rdi,%r9)
	movups	-40(%rdx,%r9), %xmm0
	movups	-24(%rdx,%r9), %xmm1
	movq	-8(%rdx,%r9), %r10
	movq	%r10, -8(%rdi,%r9)
	movups	%xmm1, -24(%rdi,%r9)
	movups	%xmm0, -40(%rdi,%r9)
	movups	(%rdx,%r9), %xmm0
	movups	16(%rdx,%r9), %xmm1
	movq	32(%rdx,%r9), %r10
	movq	%r10, 32(%rdi,%r9)
	movups	%xmm1, 16(%rdi,%r9)
	movups	%xmm0, (%rdi,%r9)
	addq	$8, %r8
	addq	$320, %r9
	cmpq	%r8, %rcx
	jne	L(36_99)
	testq	%rax, %rax
	je	L(36_103)
L(36_101):
	shlq	$3, %r8
	leaq	(%r8,%r8,4), %rcx
	addq	%rcx, %rdx
	addq	%r14, %rcx
	addq	%rsi, %rcx
	shll	$3, %eax
	leaq	(%rax,%rax,4), %rax
	xorl	%esi, %esi
	.p2align	4
L(36_102):
	movups	(%rdx,%rsi), %xmm0
	movups	16(%rdx,%rsi), %xmm1
	movq	32(%rdx,%rsi), %rdi
	movq	%rdi, 32(%rcx,%rsi)
	movups	%xmm1, 16(%rcx,%rsi)
	movups	%xmm0, (%rcx,%rsi)
	addq	$40, %rsi
	cmpq	%rsi, %rax
	jne	L(36_102)
L(36_103):
	movq	%r11, %rdi
	movq	%r12, %rsi
	movq	%r14, %rdx
	movq	%rbx, %rcx
	callq	"subtree_levels::in_place::extend_inner::<#024afdc31600bcbd>"
	movl	%eax, %r13d
	cmpq	$0, 48(%rsp)
	je	L(36_149)
L(36_104):
	movq	%r14, %rdi
	callq	PLT(yurewha_heap_dealloc)
	jmp	L(36_149)
L(36_105):
	testq	%r15, %r15
	je	L(36_259)
	movq	16(%rsp), %rdi
	callq	PLT(yurewha_heap_dealloc)
	jmp	L(36_259)
L(36_107):
	andq	$-8, %r14
	movl	$280, %r8d
	xorl	%esi, %esi
	.p2align	4
L(36_108):
	movups	-280(%rbx,%r8), %xmm0
	movups	-264(%rbx,%r8), %xmm1
	movq	-248(%rbx,%r8), %r9
	movq	%r9, -248(%rdi,%r8)
	movups	%xmm1, -264(%rdi,%r8)
	movups	%xmm0, -280(%rdi,%r8)
	movups	-240(%rbx,%r8), %xmm0
	movups	-224(%rbx,%r8), %xmm1
	movq	-208(%rbx,%r8), %r9
	movq	%r9, -208(%rdi,%r8)
	movups	%xmm1, -224(%rdi,%r8)
	movups	%xmm0, -240(%rdi,%r8)
	movups	-200(%rbx,%r8), %xmm0
	movups	-184(%rbx,%r8), %xmm1
	movq	-168(%rbx,%r8), %r9
	movq	%r9, -168(%rdi,%r8)
	movups	%xmm1, -184(%rdi,%r8)
	movups	%xmm0, -200(%rdi,%r8)
	movups	-160(%rbx,%r8), %xmm0
	movups	-144(%rbx,%r8), %xmm1
	movq	-128(%rbx,%r8), %r9
	movq	%r9, -128(%rdi,%r8)
	movups	%xmm1, -144(%rdi,%r8)
	movups	%xmm0, -160(%rdi,%r8)
	movups	-120(%rbx,%r8), %xmm0
	movups	-104(%rbx,%r8), %xmm1
	movq	-88(%rbx,%r8), %r9
	movq	%r9, -88(%rdi,%r8)
	movups	%xmm1, -104(%rdi,%r8)
	movups	%xmm0, -120(%rdi,%r8)
	movups	-80(%rbx,%r8), %xmm0
	movups	-64(%rbx,%r8), %xmm1
	movq	-48(%rbx,%r8), %r9
	movq	%r9, -48(%rdi,%r8)
	movups	%xmm1, -64(%rdi,%r8)
	movups	%xmm0, -80(%rdi,%r8)
	movups	-40(%rbx,%r8), %xmm0
	movups	-24(%rbx,%r8), %xmm1
	movq	-8(%rbx,%r8), %r9
	movq	%r9, -8(%rdi,%r8)
	movups	%xmm1, -24(%rdi,%r8)
	movups	%xmm0, -40(%rdi,%r8)
	movups	(%rbx,%r8), %xmm0
	movups	16(%rbx,%r8), %xmm1
	movq	32(%rbx,%r8), %r9
	movq	%r9, 32(%rdi,%r8)
	movups	%xmm1, 16(%rdi,%r8)
	movups	%xmm0, (%rdi,%r8)
	addq	$8, %rsi
	addq	$320, %r8
	cmpq	%rsi, %r14
	jne	L(36_108)
	testq	%rax, %rax
	je	L(36_112)
L(36_110):
	shlq	$3, %rsi
	leaq	(%rsi,%rsi,4), %rsi
	addq	%rsi, %rbx
	addq	%rsi, %rcx
	addq	%rcx, %rdx
	shll	$3, %eax
	leaq	(%rax,%rax,4), %rax
	xorl	%ecx, %ecx
	.p2align	4
L(36_111):
	movups	(%rbx,%rcx), %xmm0
	movups	16(%rbx,%rcx), %xmm1
	movq	32(%rbx,%rcx), %rsi
	movq	%rsi, 32(%rdx,%rcx)
	movups	%xmm1, 16(%rdx,%rcx)
	movups	%xmm0, (%rdx,%rcx)
	addq	$40, %rcx
	cmpq	%rcx, %rax
	jne	L(36_111)
L(36_112):
	movq	%r13, 344(%rsp)
	movq	%r15, 352(%rsp)
	movq	%r15, %rax
	subq	%r13, %rax
	cmpq	%rax, %r10
	movq	16(%rsp), %rbx
	ja	L(36_199)
L(36_113):
	leaq	(%r10,%r13), %r11
	movq	336(%rsp), %rcx
	leaq	(,%r13,8), %rax
	leaq	(%rax,%rax,4), %rax
	movq	%rcx, 32(%rsp)
	leaq	(%rcx,%rax), %rdi
	leaq	(,%r10,8), %rcx
	leaq	(%rcx,%rcx,4), %rdx
	movq	%rdi, %rcx
	subq	%rbx, %rcx
	cmpq	%rdx, %rcx
	jae	L(36_117)
	testq	%r10, %r10
	je	L(36_123)
	movl	%r10d, %ecx
	andl	$7, %ecx
	cmpq	$8, %r10
	jae	L(36_118)
	xorl	%edx, %edx
	jmp	L(36_121)
L(36_117):
	movq	%rbx, %rsi
	movq	%r10, %rbx
	movq	%r11, %r14
	callq	PLT(memmove)
	movq	%r14, %r11
	movq	%rbx, %r10
	jmp	L(36_123)
L(36_118):
	movq	%r10, %rsi
	andq	$-8, %rsi
	movl	$280, %r8d
	xorl	%edx, %edx
	.p2align	4
L(36_119):
	movups	-280(%rbx,%r8), %xmm0
	movups	-264(%rbx,%r8), %xmm1
	movq	-248(%rbx,%r8), %r9
	movq	%r9, -248(%rdi,%r8)
	movups	%xmm1, -264(%rdi,%r8)
	movups	%xmm0, -280(%rdi,%r8)
	movups	-240(%rbx,%r8), %xmm0
	movups	-224(%rbx,%r8), %xmm1
	movq	-208(%rbx,%r8), %r9
	movq	%r9, -208(%rdi,%r8)
	movups	%xmm1, -224(%rdi,%r8)
	movups	%xmm0, -240(%rdi,%r8)
	movups	-200(%rbx,%r8), %xmm0
	movups	-184(%rbx,%r8), %xmm1
	movq	-168(%rbx,%r8), %r9
	movq	%r9, -168(%rdi,%r8)
	movups	%xmm1, -184(%rdi,%r8)
	movups	%xmm0, -200(%rdi,%r8)
	movups	-160(%rbx,%r8), %xmm0
	movups	-144(%rbx,%r8), %xmm1
	movq	-128(%rbx,%r8), %r9
	movq	%r9, -128(%rdi,%r8)
	movups	%xmm1, -144(%rdi,%r8)
	movups	%xmm0, -160(%rdi,%r8)
	movups	-120(%rbx,%r8), %xmm0
	movups	-104(%rbx,%r8), %xmm1
	movq	-88(%rbx,%r8), %r9
	movq	%r9, -88(%rdi,%r8)
	movups	%xmm1, -104(%rdi,%r8)
	movups	%xmm0, -120(%rdi,%r8)
	movups	-80(%rbx,%r8), %xmm0
	movups	-64(%rbx,%r8), %xmm1
	movq	-48(%rbx,%r8), %r9
	movq	%r9, -48(%rdi,%r8)
	movups	%xmm1, -64(%rdi,%r8)
	movups	%xmm0, -80(%rdi,%r8)
	movups	-40(%rbx,%r8), %xmm0
	movups	-24(%rbx,%r8), %xmm1
	movq	-8(%rbx,%r8), %r9
	movq	%r9, -8(%rdi,%r8)
	movups	%xmm1, -24(%rdi,%r8)
	movups	%xmm0, -40(%rdi,%r8)
	movups	(%rbx,%r8), %xmm0
	movups	16(%rbx,%r8), %xmm1
	movq	32(%rbx,%r8), %r9
	movq	%r9, 32(%rdi,%r8)
	movups	%xmm1, 16(%rdi,%r8)
	movups	%xmm0, (%rdi,%r8)
	addq	$8, %rdx
	addq	$320, %r8
	cmpq	%rdx, %rsi
	jne	L(36_119)
	testq	%rcx, %rcx
	je	L(36_123)
L(36_121):
	shlq	$3, %rdx
	leaq	(%rdx,%rdx,4), %rsi
	leaq	(%rbx,%rsi), %rdx
	addq	%rsi, %rax
	addq	32(%rsp), %rax
	shll	$3, %ecx
	leaq	(%rcx,%rcx,4), %rcx
	xorl	%esi, %esi
	.p2align	4
L(36_122):
	movups	(%rdx,%rsi), %xmm0
	movups	16(%rdx,%rsi), %xmm1
	movq	32(%rdx,%rsi), %rdi
	movq	%rdi, 32(%rax,%rsi)
	movups	%xmm1, 16(%rax,%rsi)
	movups	%xmm0, (%rax,%rsi)
	addq	$40, %rsi
	cmpq	%rsi, %rcx
	jne	L(36_122)
L(36_123):
	movq	%r15, 352(%rsp)
	movq	232(%rsp), %rax
	movq	(%rax), %rax
	imulq	$56, %r12, %rcx
	leaq	(%rax,%rcx), %rbx
	xorps	%xmm0, %xmm0
	movups	%xmm0, 447(%rsp)
	movaps	%xmm0, 432(%rsp)
	movq	24(%rax,%rcx), %r14
	cmpq	%r11, %r14
	jae	L(36_133)
	movq	%r12, 80(%rsp)
	movq	8(%rbx), %rbp
	movq	%rbp, %r12
	subq	%r14, %r12
	movq	%r12, %rax
	notq	%rax
	cmpq	%rax, %r11
	ja	L(36_130)
	leaq	(%r12,%r11), %r9
	cmpq	%rax, %r9
	ja	L(36_129)
	movq	(%rbx), %r15
	movq	%r9, %r8
	addq	%r12, %r8
	je	L(36_203)
	movabsq	$230584300921369396, %rax
	cmpq	%rax, %r8
	jae	L(36_129)
	leaq	(,%r8,8), %rax
	leaq	(%rax,%rax,4), %rdi
	movl	$8, %esi
	movq	%r10, 24(%rsp)
	movq	%r11, 72(%rsp)
	movq	%r9, 208(%rsp)
	movq	%r8, 64(%rsp)
	callq	PLT(yurewha_heap_alloc)
	movq	64(%rsp), %r8
	movq	208(%rsp), %r9
	movq	72(%rsp), %r11
	movq	24(%rsp), %r10
	testb	$1, %al
	jne	L(36_204)
L(36_129):
	movq	352(%rsp), %r15
L(36_130):
	movb	$1, %r13b
	testq	%r15, %r15
	je	L(36_132)
	movq	336(%rsp), %rdi
	callq	PLT(yurewha_heap_dealloc)
L(36_132):
	movq	40(%rsp), %rbp
	movq	80(%rsp), %r12
	jmp	L(36_146)
L(36_133):
	movq	%r14, %rsi
	testq	%r11, %r11
	je	L(36_143)
L(36_134):
	leaq	(%r10,%r13), %rcx
	decq	%rcx
	movq	%r11, %rax
	andq	$3, %rax
	je	L(36_138)
	movq	%rsi, %r10
	leaq	(,%rsi,8), %rdx
	leaq	(%rdx,%rdx,4), %rsi
	leaq	(%r11,%r11,4), %rdx
	movq	32(%rsp), %rdi
	leaq	(%rdi,%rdx,8), %rdi
	addq	$-40, %rdi
	xorl	%edx, %edx
	.p2align	4
L(36_136):
	movq	(%rbx), %r8
	movups	(%rdi), %xmm0
	movups	16(%rdi), %xmm1
	movq	32(%rdi), %r9
	movq	%r9, -8(%rsi,%r8)
	movups	%xmm1, -24(%rsi,%r8)
	movups	%xmm0, -40(%rsi,%r8)
	incq	%rdx
	addq	$-40, %rsi
	addq	$-40, %rdi
	cmpq	%rdx, %rax
	jne	L(36_136)
	movq	%r10, %rsi
	subq	%rdx, %rsi
	movq	%r11, %rax
	subq	%rdx, %rax
	jmp	L(36_139)
L(36_138):
	movq	%r11, %rax
L(36_139):
	cmpq	$3, %rcx
	jb	L(36_142)
	shlq	$3, %rsi
	leaq	(%rsi,%rsi,4), %rdx
	leaq	(%rax,%rax,4), %rcx
	movq	32(%rsp), %rsi
	leaq	(%rsi,%rcx,8), %rcx
	addq	$-160, %rcx
	.p2align	4
L(36_141):
	movq	(%rbx), %rsi
	movups	120(%rcx), %xmm0
	movups	136(%rcx), %xmm1
	movq	152(%rcx), %rdi
	movq	%rdi, -8(%rsi,%rdx)
	movups	%xmm1, -24(%rsi,%rdx)
	movups	%xmm0, -40(%rsi,%rdx)
	movq	(%rbx), %rsi
	movups	80(%rcx), %xmm0
	movups	96(%rcx), %xmm1
	movq	112(%rcx), %rdi
	movq	%rdi, -48(%rsi,%rdx)
	movups	%xmm1, -64(%rsi,%rdx)
	movups	%xmm0, -80(%rsi,%rdx)
	movq	(%rbx), %rsi
	movups	40(%rcx), %xmm0
	movups	56(%rcx), %xmm1
	movq	72(%rcx), %rdi
	movq	%rdi, -88(%rsi,%rdx)
	movups	%xmm1, -104(%rsi,%rdx)
	movups	%xmm0, -120(%rsi,%rdx)
	movq	(%rbx), %rsi
	movups	(%rcx), %xmm0
	movups	16(%rcx), %xmm1
	movq	32(%rcx), %rdi
	movq	%rdi, -128(%rdx,%rsi)
	movups	%xmm1, -144(%rdx,%rsi)
	movups	%xmm0, -160(%rdx,%rsi)
	addq	$-160, %rdx
	addq	$-160, %rcx
	addq	$-4, %rax
	jne	L(36_141)
L(36_142):
	movq	24(%rbx), %r14
	movq	352(%rsp), %r15
L(36_143):
	subq	%r11, %r14
	movq	%r14, 24(%rbx)
	testq	%r15, %r15
	je	L(36_145)
	movq	336(%rsp), %rdi
	callq	PLT(yurewha_heap_dealloc)
L(36_145):
	xorl	%r13d, %r13d
L(36_146):
	cmpq	$0, 48(%rsp)
	je	L(36_148)
	movq	16(%rsp), %rdi
	callq	PLT(yurewha_heap_dealloc)
L(36_148):
	movq	56(%rsp), %r15
L(36_149):
	testb	%r13b, %r13b
	je	L(36_155)
	testq	%r12, %r12
	je	L(36_161)
	leaq	16(%r15), %rbx
	jmp	L(36_153)
	.p2align	4
L(36_152):
	addq	$24, %rbx
	decq	%r12
	je	L(36_161)
L(36_153):
	cmpq	$0, (%rbx)
	je	L(36_152)
	movq	-16(%rbx), %rdi
	callq	PLT(yurewha_heap_dealloc)
	jmp	L(36_152)
L(36_155):
	movq	232(%rsp), %r13
	testq	%r12, %r12
	je	L(36_320)
L(36_156):
	testb	$1, 92(%rsp)
	je	L(36_165)
	imulq	$56, %r12, %rbx
	addq	$-56, %rbx
	leaq	(%r12,%r12,2), %rax
	leaq	(%r15,%rax,8), %r14
	addq	$-24, %r14
	jmp	L(36_159)
	.p2align	4
L(36_158):
	decq	%r12
	addq	$-56, %rbx
	addq	$-24, %r14
	testq	%r12, %r12
	je	L(36_320)
L(36_159):
	movq	(%r13), %rax
	movq	(%rax,%rbx), %rdi
	movq	16(%r14), %rcx
	movups	(%r14), %xmm0
	movups	%xmm0, (%rax,%rbx)
	cmpq	$0, 16(%rax,%rbx)
	movq	%rcx, 16(%rax,%rbx)
	movq	$0, 24(%rax,%rbx)
	je	L(36_158)
	callq	PLT(yurewha_heap_dealloc)
	jmp	L(36_158)
L(36_161):
	cmpb	$0, 200(%rsp)
	jne	L(36_164)
	jmp	L(36_162)
L(36_165):
	imulq	$56, %r12, %rbx
	addq	$-24, %rbx
	leaq	(%r12,%r12,2), %rax
	leaq	(%r15,%rax,8), %r14
	addq	$-24, %r14
	jmp	L(36_167)
	.p2align	4
L(36_166):
	decq	%r12
	addq	$-56, %rbx
	addq	$-24, %r14
	testq	%r12, %r12
	je	L(36_320)
L(36_167):
	movq	(%r13), %rax
	movq	(%rax,%rbx), %rdi
	movq	16(%r14), %rcx
	movups	(%r14), %xmm0
	movups	%xmm0, (%rax,%rbx)
	cmpq	$0, 16(%rax,%rbx)
	movq	%rcx, 16(%rax,%rbx)
	je	L(36_166)
	callq	PLT(yurewha_heap_dealloc)
	jmp	L(36_166)
L(36_169):
	testq	%r12, %r12
	je	L(36_171)
	movq	48(%rsp), %rcx
	movq	8(%rcx), %rax
	cmpq	24(%rcx), %rax
	jne	L(36_90)
L(36_171):
	cmpq	$1, %rbp
	jne	L(36_213)
	movq	32(%rsp), %rcx
	movq	8(%rcx), %rbx
	movq	24(%rcx), %rax
	leaq	(%rax,%rax,4), %r12
	shlq	$3, %r12
	addq	(%rcx), %r12
	subq	%rax, %rbx
	jmp	L(36_214)
L(36_173):
	leaq	1128(%rsp), %rdx
	movzbl	304(%rsp), %ecx
	movzbl	196(%rsp), %r8d
	leaq	832(%rsp), %rdi
	leaq	704(%rsp), %rsi
	leaq	400(%rsp), %r9
	callq	"subtree_levels::collapse::collapse::<#4baefd862f873d89>"
	cmpb	$0, 832(%rsp)
	movq	40(%rsp), %rbp
	jne	L(36_259)
	movq	840(%rsp), %r15
	movq	848(%rsp), %r12
	movq	856(%rsp), %rax
	movq	%rax, 16(%rsp)
	cmpq	$0, 128(%rsp)
	movq	232(%rsp), %r13
	je	L(36_176)
L(36_175):
	movq	112(%rsp), %rdi
	callq	PLT(yurewha_heap_dealloc)
L(36_176):
	movq	296(%rsp), %rax
	movq	16(%rax), %r14
	movq	24(%rax), %rbx
	movq	%rbx, %rax
	subq	%r14, %rax
	cmpq	%rax, %r12
	ja	L(36_326)
	movq	%r14, %rdx
	movq	%r14, %rcx
	testq	%r12, %r12
	je	L(36_291)
L(36_178):
	movq	(%r13), %rax
	imulq	$56, %rdx, %rcx
	leaq	(%rax,%rcx), %rdi
	imulq	$56, %r12, %rdx
	movq	%rdi, %rsi
	subq	%r15, %rsi
	cmpq	%rdx, %rsi
	jae	L(36_269)
	leaq	-1(%r12), %rsi
	movl	%r12d, %edx
	andl	$7, %edx
	cmpq	$7, %rsi
	jae	L(36_285)
	xorl	%esi, %esi
	jmp	L(36_288)
L(36_181):
	cmpq	$0, 128(%rsp)
	movq	40(%rsp), %rbp
	je	L(36_183)
	movq	112(%rsp), %rdi
	callq	PLT(yurewha_heap_dealloc)
L(36_183):
	testq	%r13, %r13
	je	L(36_190)
	movq	16(%rsp), %rax
	leaq	48(%rax), %r14
	jmp	L(36_186)
L(36_185):
	addq	$56, %r14
	decq	%r13
	je	L(36_190)
L(36_186):
	movq	-16(%r14), %rbx
	movq	(%r14), %r12
	cmpq	$0, -32(%r14)
	je	L(36_188)
	movq	-48(%r14), %rdi
	callq	PLT(yurewha_heap_dealloc)
L(36_188):
	testq	%r12, %r12
	je	L(36_185)
	movq	%rbx, %rdi
	callq	PLT(yurewha_heap_dealloc)
	jmp	L(36_185)
L(36_190):
	testq	%r15, %r15
	movq	80(%rsp), %r14
	movq	56(%rsp), %r15
	movq	24(%rsp), %r12
	je	L(36_263)
	movq	16(%rsp), %rdi
	jmp	L(36_262)
L(36_192):
	testq	%r14, %r14
	je	L(36_194)
	movq	%rbx, %rdi
	callq	PLT(yurewha_heap_dealloc)
L(36_194):
	cmpq	$0, 128(%rsp)
	movq	40(%rsp), %rbp
	jmp	L(36_260)
L(36_195):
	movq	%r11, %r13
	movq	%rdx, %rbx
	leaq	96(%rsp), %rdi
	movq	%rcx, %r14
	movq	%rcx, %rsi
	callq	"std_alloc::vec::Vec::grow_amortized::<#1ed62de40e111fb4>"
	testb	%al, %al
	je	L(36_223)
	movq	96(%rsp), %rax
	movq	104(%rsp), %r10
	movq	112(%rsp), %rcx
	movq	%rcx, 48(%rsp)
	movq	%rbx, %rdx
	movq	%r14, %rcx
	movq	%rax, %r14
	movq	%r13, %r11
	jmp	L(36_40)
L(36_197):
	movq	%r10, %r13
	leaq	336(%rsp), %rdi
	movq	%r14, %rsi
	callq	"std_alloc::vec::Vec::grow_amortized::<#1ed62de40e111fb4>"
	testb	%al, %al
	je	L(36_201)
	movq	336(%rsp), %rdx
	movq	344(%rsp), %rax
	movq	352(%rsp), %r15
	movq	%r13, %r10
	jmp	L(36_53)
L(36_199):
	leaq	336(%rsp), %rdi
	movq	%r10, %r14
	movq	%r10, %rsi
	callq	"std_alloc::vec::Vec::grow_amortized::<#1ed62de40e111fb4>"
	testb	%al, %al
	je	L(36_201)
	movq	344(%rsp), %r13
	movq	352(%rsp), %r15
	movq	%r14, %r10
	jmp	L(36_113)
L(36_201):
	movb	$1, %r13b
	cmpq	$0, 352(%rsp)
	je	L(36_146)
	movq	336(%rsp), %rdi
	callq	PLT(yurewha_heap_dealloc)
	jmp	L(36_146)
L(36_203):
	leaq	8(%rsp), %rdx
L(36_204):
	movq	%rdx, 240(%rsp)
	movq	$0, 248(%rsp)
	movq	%r8, 256(%rsp)
	testq	%r9, %r9
	movq	%r9, 208(%rsp)
	je	L(36_238)
	xorps	%xmm0, %xmm0
	movaps	%xmm0, 112(%rsp)
	movaps	%xmm0, 96(%rsp)
	cmpq	%r8, %r9
	ja	L(36_328)
	xorl	%eax, %eax
	leaq	(%rax,%r9), %rdi
	cmpq	%rdi, %rax
	jae	L(36_212)
L(36_207):
	leaq	(%r10,%r13), %rcx
	addq	%rbp, %rcx
	movq	%rax, %rsi
	testb	$1, %r9b
	je	L(36_209)
	leaq	(%rax,%rax,4), %rsi
	movaps	96(%rsp), %xmm0
	movaps	112(%rsp), %xmm1
	movups	%xmm1, 16(%rdx,%rsi,8)
	movups	%xmm0, (%rdx,%rsi,8)
	movq	$0, 32(%rdx,%rsi,8)
	leaq	1(%rax), %rsi
L(36_209):
	movq	%rsi, 24(%rsp)
	leaq	1(%r14), %rsi
	cmpq	%rsi, %rcx
	je	L(36_212)
	movq	24(%rsp), %rsi
	leaq	(%rsi,%rsi,4), %rcx
	leaq	(%rdx,%rcx,8), %rcx
	addq	$72, %rcx
	addq	%r13, %rax
	addq	%r10, %rax
	addq	%rbp, %rax
	subq	%rsi, %rax
	subq	%r14, %rax
L(36_211):
	movaps	96(%rsp), %xmm0
	movaps	112(%rsp), %xmm1
	movups	%xmm1, -56(%rcx)
	movups	%xmm0, -72(%rcx)
	movq	$0, -40(%rcx)
	movaps	96(%rsp), %xmm0
	movaps	112(%rsp), %xmm1
	movups	%xmm0, -32(%rcx)
	movups	%xmm1, -16(%rcx)
	movq	$0, (%rcx)
	addq	$80, %rcx
	addq	$-2, %rax
	jne	L(36_211)
L(36_212):
	movq	%rdi, 248(%rsp)
	movq	%r8, 256(%rsp)
	jmp	L(36_239)
L(36_213):
	leaq	8(%rsp), %r12
	xorl	%ebx, %ebx
L(36_214):
	movaps	%xmm0, 432(%rsp)
	movaps	%xmm0, 448(%rsp)
	movaps	%xmm0, 464(%rsp)
	movq	$0, 480(%rsp)
	movaps	%xmm0, 1056(%rsp)
	movaps	%xmm0, 1072(%rsp)
	movaps	%xmm0, 960(%rsp)
	movaps	%xmm0, 976(%rsp)
	movaps	%xmm0, 768(%rsp)
	movq	$0, 784(%rsp)
	movaps	%xmm0, 272(%rsp)
	movaps	%xmm0, 256(%rsp)
	movaps	%xmm0, 240(%rsp)
	movq	$0, 288(%rsp)
	movaps	%xmm0, 944(%rsp)
	movaps	%xmm0, 928(%rsp)
	movaps	%xmm0, 1040(%rsp)
	movaps	%xmm0, 1024(%rsp)
	movaps	%xmm0, 912(%rsp)
	movaps	%xmm0, 896(%rsp)
	movups	%xmm0, 1167(%rsp)
	movaps	%xmm0, 1152(%rsp)
	movaps	%xmm0, 880(%rsp)
	movaps	%xmm0, 864(%rsp)
	movaps	%xmm0, 736(%rsp)
	movq	$0, 752(%rsp)
	movaps	%xmm0, 992(%rsp)
	movq	$0, 1008(%rsp)
	movzbl	304(%rsp), %r14d
	movzbl	196(%rsp), %ebp
	leaq	432(%rsp), %rdi
	movq	%r12, %rsi
	movq	%rbx, %rdx
	movl	%r14d, %ecx
	movl	%ebp, %r8d
	callq	"subtree_levels::split::find_split::<#30d82ebffd2e63ea>"
	cmpb	$0, 432(%rsp)
	je	L(36_225)
	movl	%ebp, 32(%rsp)
	movq	440(%rsp), %rsi
	movq	448(%rsp), %rdx
	movq	456(%rsp), %rbx
	movq	464(%rsp), %rbp
	movq	472(%rsp), %r12
	movq	480(%rsp), %rax
	movq	%rax, 48(%rsp)
	leaq	928(%rsp), %rdi
	callq	"xet_roots::as_node::read_nodes::<#a0ff80199b3a144e>"
	cmpb	$0, 928(%rsp)
	je	L(36_245)
	testq	%r13, %r13
	je	L(36_255)
	movq	16(%rsp), %rax
	leaq	48(%rax), %r14
	jmp	L(36_219)
L(36_218):
	addq	$56, %r14
	decq	%r13
	je	L(36_255)
L(36_219):
	movq	-16(%r14), %rbx
	movq	(%r14), %r12
	cmpq	$0, -32(%r14)
	je	L(36_221)
	movq	-48(%r14), %rdi
	callq	PLT(yurewha_heap_dealloc)
L(36_221):
	testq	%r12, %r12
	je	L(36_218)
	movq	%rbx, %rdi
	callq	PLT(yurewha_heap_dealloc)
	jmp	L(36_218)
L(36_223):
	movb	$1, %r13b
	cmpq	$0, 112(%rsp)
	je	L(36_149)
	movq	96(%rsp), %rdi
	callq	PLT(yurewha_heap_dealloc)
	jmp	L(36_149)
L(36_225):
	leaq	1056(%rsp), %rdi
	movq	%r12, %rsi
	movq	%rbx, %rdx
	callq	"xet_roots::as_node::read_nodes::<#a0ff80199b3a144e>"
	cmpb	$0, 1056(%rsp)
	je	L(36_270)
	testq	%r13, %r13
	je	L(36_255)
	movq	16(%rsp), %rax
	leaq	48(%rax), %r14
	jmp	L(36_229)
L(36_228):
	addq	$56, %r14
	decq	%r13
	je	L(36_255)
L(36_229):
	movq	-16(%r14), %rbx
	movq	(%r14), %r12
	cmpq	$0, -32(%r14)
	je	L(36_231)
	movq	-48(%r14), %rdi
	callq	PLT(yurewha_heap_dealloc)
L(36_231):
	testq	%r12, %r12
	je	L(36_228)
	movq	%rbx, %rdi
	callq	PLT(yurewha_heap_dealloc)
	jmp	L(36_228)
L(36_233):
	testq	%rbp, %rbp
	je	L(36_235)
	movq	%rbx, %rdi
	callq	PLT(yurewha_heap_dealloc)
L(36_235):
	cmpq	$0, 56(%rsp)
	movq	40(%rsp), %rbp
	je	L(36_237)
	movq	208(%rsp), %rdi
	callq	PLT(yurewha_heap_dealloc)
L(36_237):
	cmpq	$0, 32(%rsp)
	jne	L(36_67)
	jmp	L(36_68)
L(36_238):
	xorl	%edi, %edi
L(36_239):
	movq	%r8, %rax
	subq	%rdi, %rax
	cmpq	%rax, %r12
	ja	L(36_324)
L(36_240):
	movq	%r8, 64(%rsp)
	leaq	(,%r14,8), %rax
	leaq	(%rax,%rax,4), %rcx
	leaq	(%r15,%rcx), %rsi
	leaq	(%rdi,%r12), %rax
	movq	%rax, 24(%rsp)
	movq	240(%rsp), %rax
	shlq	$3, %rdi
	leaq	(%rdi,%rdi,4), %r8
	leaq	(%rax,%r8), %rdi
	leaq	(,%r12,8), %rdx
	leaq	(%rdx,%rdx,4), %rdx
	movq	%rdi, %r9
	subq	%rsi, %r9
	cmpq	%rdx, %r9
	jae	L(36_244)
	cmpq	%r14, %rbp
	je	L(36_283)
	movl	%r12d, %edx
	andl	$7, %edx
	subq	%rbp, %r14
	cmpq	$-8, %r14
	jbe	L(36_278)
	xorl	%r9d, %r9d
	jmp	L(36_281)
L(36_244):
	movq	%r10, %r14
	movq	%r11, %r15
	callq	PLT(memmove)
	movq	%r15, %r11
	movq	%r14, %r10
	jmp	L(36_283)
L(36_245):
	movq	%rbx, 72(%rsp)
	movq	%rbp, 64(%rsp)
	movl	%r14d, 424(%rsp)
	movq	936(%rsp), %rbx
	movq	952(%rsp), %r14
	movaps	944(%rsp), %xmm0
	movaps	%xmm0, 208(%rsp)
	leaq	1024(%rsp), %rdi
	movq	%r12, %rsi
	movq	48(%rsp), %rdx
	callq	"xet_roots::as_node::read_nodes::<#a0ff80199b3a144e>"
	cmpb	$0, 1024(%rsp)
	je	L(36_273)
	testq	%r14, %r14
	je	L(36_248)
	movq	%rbx, %rdi
	callq	PLT(yurewha_heap_dealloc)
L(36_248):
	testq	%r13, %r13
	je	L(36_255)
	movq	16(%rsp), %rax
	leaq	48(%rax), %r14
	jmp	L(36_251)
L(36_250):
	addq	$56, %r14
	decq	%r13
	je	L(36_255)
L(36_251):
	movq	-16(%r14), %rbx
	movq	(%r14), %r12
	cmpq	$0, -32(%r14)
	je	L(36_253)
	movq	-48(%r14), %rdi
	callq	PLT(yurewha_heap_dealloc)
L(36_253):
	testq	%r12, %r12
	je	L(36_250)
	movq	%rbx, %rdi
	callq	PLT(yurewha_heap_dealloc)
	jmp	L(36_250)
L(36_255):
	testq	%r15, %r15
	je	L(36_258)
	movq	16(%rsp), %rdi
L(36_257):
	callq	PLT(yurewha_heap_dealloc)
L(36_258):
	movq	40(%rsp), %rbp
L(36_259):
	cmpq	$0, 128(%rsp)
L(36_260):
	movq	80(%rsp), %r14
	movq	56(%rsp), %r15
	movq	24(%rsp), %r12
	je	L(36_263)
	movq	112(%rsp), %rdi
L(36_262):
	callq	PLT(yurewha_heap_dealloc)
L(36_263):
	testq	%r14, %r14
	je	L(36_268)
	leaq	16(%r15), %rbx
	jmp	L(36_266)
	.p2align	4
L(36_265):
	addq	$24, %rbx
	decq	%r14
	je	L(36_268)
L(36_266):
	cmpq	$0, (%rbx)
	je	L(36_265)
	movq	-16(%rbx), %rdi
	callq	PLT(yurewha_heap_dealloc)
	jmp	L(36_265)
L(36_268):
	testq	%r12, %r12
	je	L(36_164)
L(36_162):
	movq	%r15, %rdi
L(36_163):
	callq	PLT(yurewha_heap_dealloc)
L(36_164):
	movw	$513, (%rbp)
	movb	$0, 2(%rbp)
	xorps	%xmm0, %xmm0
	jmp	L(36_323)
L(36_269):
	movq	%r15, %rsi
	callq	PLT(memmove)
	jmp	L(36_290)
L(36_270):
	movq	16(%rsp), %rax
	movq	%rax, 768(%rsp)
	movq	%r13, 776(%rsp)
	movq	%r15, 784(%rsp)
	xorps	%xmm0, %xmm0
	movups	%xmm0, 280(%rsp)
	movups	1064(%rsp), %xmm0
	movaps	%xmm0, 240(%rsp)
	movq	1080(%rsp), %rax
	movq	%rax, 256(%rsp)
	movq	$0, 264(%rsp)
	leaq	8(%rsp), %rax
	movq	%rax, 272(%rsp)
	leaq	960(%rsp), %rdi
	leaq	768(%rsp), %rsi
	leaq	240(%rsp), %rdx
	callq	"subtree_levels::levels::pushed::<#024afdc31600bcbd>"
	cmpb	$0, 960(%rsp)
	jne	L(36_258)
	movq	968(%rsp), %r15
	movq	976(%rsp), %r12
	movq	984(%rsp), %rax
L(36_272):
	movq	%rax, 16(%rsp)
	movq	40(%rsp), %rbp
	cmpq	$0, 128(%rsp)
	movq	232(%rsp), %r13
	jne	L(36_175)
	jmp	L(36_176)
L(36_273):
	movq	16(%rsp), %rax
	movq	%rax, 1096(%rsp)
	movq	%r13, 1104(%rsp)
	movq	%r15, 1112(%rsp)
	movups	1032(%rsp), %xmm0
	movups	%xmm0, 368(%rsp)
	movq	1048(%rsp), %rax
	movq	%rax, 384(%rsp)
	movq	%rbx, 336(%rsp)
	movaps	208(%rsp), %xmm0
	movups	%xmm0, 344(%rsp)
	movq	$0, 360(%rsp)
	leaq	896(%rsp), %rdi
	leaq	1096(%rsp), %rsi
	leaq	336(%rsp), %rdx
	callq	"subtree_levels::levels::pushed::<#024afdc31600bcbd>"
	cmpb	$0, 896(%rsp)
	jne	L(36_258)
	movq	904(%rsp), %rax
	movq	%rax, 16(%rsp)
	movq	912(%rsp), %r14
	movq	920(%rsp), %rsi
	xorps	%xmm0, %xmm0
	movaps	%xmm0, 160(%rsp)
	movq	$0, 176(%rsp)
	movabsq	$-6148914691236517205, %rcx
	movq	64(%rsp), %rbx
	movq	%rbx, %rax
	mulq	%rcx
	shrq	%rdx
	movabsq	$6148914691236517205, %rcx
	xorl	%r13d, %r13d
	cmpq	%rcx, %rax
	seta	%r13b
	addq	%rdx, %r13
	movq	%rsi, 48(%rsp)
	je	L(36_346)
	movabsq	$230584300921369396, %rax
	cmpq	%rax, %r13
	jae	L(36_383)
	leaq	(,%r13,8), %rax
	leaq	(%rax,%rax,4), %rdi
	movl	$8, %esi
	callq	PLT(yurewha_heap_alloc)
	testb	$1, %al
	je	L(36_383)
	movq	%rdx, %r12
	jmp	L(36_347)
L(36_278):
	movq	%r11, %rbp
	movq	%r10, %r14
	andq	$-8, %r12
	movl	$280, %r10d
	xorl	%r9d, %r9d
L(36_279):
	movups	-280(%rsi,%r10), %xmm0
	movups	-264(%rsi,%r10), %xmm1
	movq	-248(%rsi,%r10), %r11
	movq	%r11, -248(%rdi,%r10)
	movups	%xmm1, -264(%rdi,%r10)
	movups	%xmm0, -280(%rdi,%r10)
	movups	-240(%rsi,%r10), %xmm0
	movups	-224(%rsi,%r10), %xmm1
	movq	-208(%rsi,%r10), %r11
	movq	%r11, -208(%rdi,%r10)
	movups	%xmm1, -224(%rdi,%r10)
	movups	%xmm0, -240(%rdi,%r10)
	movups	-200(%rsi,%r10), %xmm0
	movups	-184(%rsi,%r10), %xmm1
	movq	-168(%rsi,%r10), %r11
	movq	%r11, -168(%rdi,%r10)
	movups	%xmm1, -184(%rdi,%r10)
	movups	%xmm0, -200(%rdi,%r10)
	movups	-160(%rsi,%r10), %xmm0
	movups	-144(%rsi,%r10), %xmm1
	movq	-128(%rsi,%r10), %r11
	movq	%r11, -128(%rdi,%r10)
	movups	%xmm1, -144(%rdi,%r10)
	movups	%xmm0, -160(%rdi,%r10)
	movups	-120(%rsi,%r10), %xmm0
	movups	-104(%rsi,%r10), %xmm1
	movq	-88(%rsi,%r10), %r11
	movq	%r11, -88(%rdi,%r10)
	movups	%xmm1, -104(%rdi,%r10)
	movups	%xmm0, -120(%rdi,%r10)
	movups	-80(%rsi,%r10), %xmm0
	movups	-64(%rsi,%r10), %xmm1
	movq	-48(%rsi,%r10), %r11
	movq	%r11, -48(%rdi,%r10)
	movups	%xmm1, -64(%rdi,%r10)
	movups	%xmm0, -80(%rdi,%r10)
	movups	-40(%rsi,%r10), %xmm0
	movups	-24(%rsi,%r10), %xmm1
	movq	-8(%rsi,%r10), %r11
	movq	%r11, -8(%rdi,%r10)
	movups	%xmm1, -24(%rdi,%r10)
	movups	%xmm0, -40(%rdi,%r10)
	movups	(%rsi,%r10), %xmm0
	movups	16(%rsi,%r10), %xmm1
	movq	32(%rsi,%r10), %r11
	movq	%r11, 32(%rdi,%r10)
	movups	%xmm1, 16(%rdi,%r10)
	movups	%xmm0, (%rdi,%r10)
	addq	$8, %r9
	addq	$320, %r10
	cmpq	%r9, %r12
	jne	L(36_279)
	testq	%rdx, %rdx
	movq	%r14, %r10
	movq	%rbp, %r11
	je	L(36_283)
L(36_281):
	shlq	$3, %r9
	leaq	(%r9,%r9,4), %rsi
	addq	%rsi, %rcx
	addq	%rcx, %r15
	addq	%rsi, %r8
	addq	%r8, %rax
	shll	$3, %edx
	leaq	(%rdx,%rdx,4), %rcx
	xorl	%edx, %edx
L(36_282):
	movups	(%r15,%rdx), %xmm0
	movups	16(%r15,%rdx), %xmm1
	movq	32(%r15,%rdx), %rsi
	movq	%rsi, 32(%rax,%rdx)
	movups	%xmm1, 16(%rax,%rdx)
	movups	%xmm0, (%rax,%rdx)
	addq	$40, %rdx
	cmpq	%rdx, %rcx
	jne	L(36_282)
L(36_283):
	movq	24(%rsp), %rax
	movq	%rax, 248(%rsp)
	movq	64(%rsp), %rax
	movq	%rax, 455(%rsp)
	movups	240(%rsp), %xmm0
	movups	%xmm0, 439(%rsp)
	movq	(%rbx), %rdi
	movups	%xmm0, (%rbx)
	cmpq	$0, 16(%rbx)
	movq	%rax, 16(%rbx)
	movq	208(%rsp), %rsi
	movq	%rsi, 24(%rbx)
	movq	40(%rsp), %rbp
	movq	80(%rsp), %r12
	je	L(36_134)
	movq	%r10, %r14
	movq	%r11, %r15
	callq	PLT(yurewha_heap_dealloc)
	movq	%r15, %r11
	movq	%r14, %r10
	movq	24(%rbx), %rsi
	jmp	L(36_134)
L(36_285):
	movq	%r12, %r8
	andq	$-8, %r8
	movl	$392, %r9d
	xorl	%esi, %esi
L(36_286):
	movups	-392(%r15,%r9), %xmm0
	movups	-376(%r15,%r9), %xmm1
	movups	-360(%r15,%r9), %xmm2
	movq	-344(%r15,%r9), %r10
	movq	%r10, -344(%rdi,%r9)
	movups	%xmm2, -360(%rdi,%r9)
	movups	%xmm1, -376(%rdi,%r9)
	movups	%xmm0, -392(%rdi,%r9)
	movups	-336(%r15,%r9), %xmm0
	movups	-320(%r15,%r9), %xmm1
	movups	-304(%r15,%r9), %xmm2
	movq	-288(%r15,%r9), %r10
	movq	%r10, -288(%rdi,%r9)
	movups	%xmm2, -304(%rdi,%r9)
	movups	%xmm1, -320(%rdi,%r9)
	movups	%xmm0, -336(%rdi,%r9)
	movups	-280(%r15,%r9), %xmm0
	movups	-264(%r15,%r9), %xmm1
	movups	-248(%r15,%r9), %xmm2
	movq	-232(%r15,%r9), %r10
	movq	%r10, -232(%rdi,%r9)
	movups	%xmm2, -248(%rdi,%r9)
	movups	%xmm1, -264(%rdi,%r9)
	movups	%xmm0, -280(%rdi,%r9)
	movups	-224(%r15,%r9), %xmm0
	movups	-208(%r15,%r9), %xmm1
	movups	-192(%r15,%r9), %xmm2
	movq	-176(%r15,%r9), %r10
	movq	%r10, -176(%rdi,%r9)
	movups	%xmm2, -192(%rdi,%r9)
	movups	%xmm1, -208(%rdi,%r9)
	movups	%xmm0, -224(%rdi,%r9)
	movups	-168(%r15,%r9), %xmm0
	movups	-152(%r15,%r9), %xmm1
	movups	-136(%r15,%r9), %xmm2
	movq	-120(%r15,%r9), %r10
	movq	%r10, -120(%rdi,%r9)
	movups	%xmm2, -136(%rdi,%r9)
	movups	%xmm1, -152(%rdi,%r9)
	movups	%xmm0, -168(%rdi,%r9)
	movups	-112(%r15,%r9), %xmm0
	movups	-96(%r15,%r9), %xmm1
	movups	-80(%r15,%r9), %xmm2
	movq	-64(%r15,%r9), %r10
	movq	%r10, -64(%rdi,%r9)
	movups	%xmm2, -80(%rdi,%r9)
	movups	%xmm1, -96(%rdi,%r9)
	movups	%xmm0, -112(%rdi,%r9)
	movups	-56(%r15,%r9), %xmm0
	movups	-40(%r15,%r9), %xmm1
	movups	-24(%r15,%r9), %xmm2
	movq	-8(%r15,%r9), %r10
	movq	%r10, -8(%rdi,%r9)
	movups	%xmm2, -24(%rdi,%r9)
	movups	%xmm1, -40(%rdi,%r9)
	movups	%xmm0, -56(%rdi,%r9)
	movups	(%r15,%r9), %xmm0
	movups	16(%r15,%r9), %xmm1
	movups	32(%r15,%r9), %xmm2
	movq	48(%r15,%r9), %r10
	movq	%r10, 48(%rdi,%r9)
	movups	%xmm2, 32(%rdi,%r9)
	movups	%xmm1, 16(%rdi,%r9)
	movups	%xmm0, (%rdi,%r9)
	addq	$8, %rsi
	addq	$448, %r9
	cmpq	%rsi, %r8
	jne	L(36_286)
	testq	%rdx, %rdx
	je	L(36_290)
L(36_288):
	imulq	$56, %rsi, %rdi
	leaq	(%r15,%rdi), %rsi
	addq	%rdi, %rcx
	addq	%rcx, %rax
	imulq	$56, %rdx, %rcx
	xorl	%edx, %edx
L(36_289):
	movups	(%rsi,%rdx), %xmm0
	movups	16(%rsi,%rdx), %xmm1
	movups	32(%rsi,%rdx), %xmm2
	movq	48(%rsi,%rdx), %rdi
	movq	%rdi, 48(%rax,%rdx)
	movups	%xmm2, 32(%rax,%rdx)
	movups	%xmm1, 16(%rax,%rdx)
	movups	%xmm0, (%rax,%rdx)
	addq	$56, %rdx
	cmpq	%rdx, %rcx
	jne	L(36_289)
L(36_290):
	movq	296(%rsp), %rax
	addq	16(%rax), %r12
	movq	24(%rax), %rbx
	movq	%r12, %rcx
L(36_291):
	leaq	-1(%r14), %rax
	movq	(%r13), %r12
	imulq	$56, %rax, %rdx
	leaq	-1(%rcx), %r11
	movq	%rcx, %rax
	subq	%r14, %rax
	movq	%r14, %rsi
	xorps	%xmm0, %xmm0
	movq	416(%rsp), %rdi
	movups	%xmm0, (%rdi)
	movq	(%r12,%rdx), %r8
	movq	16(%r12,%rdx), %r13
	movq	32(%r12,%rdx), %rdi
	movq	48(%r12,%rdx), %r10
	subq	$1, %rsi
	movq	%rdi, 48(%rsp)
	jae	L(36_295)
	testq	%rcx, %rcx
	je	L(36_313)
	movl	%ecx, %esi
	andl	$3, %esi
	cmpq	$4, %rcx
	jae	L(36_305)
	xorl	%edi, %edi
	jmp	L(36_308)
L(36_295):
	cmpq	$37, %rax
	jb	L(36_311)
	movq	%r8, 32(%rsp)
	movl	$1, %esi
	subq	%r14, %rsi
	leaq	1960(%r12), %rdi
	jmp	L(36_299)
L(36_297):
	movq	104(%rdi,%rdx), %r9
	movq	%r9, 48(%rdi,%rdx)
	movups	56(%rdi,%rdx), %xmm0
	movups	72(%rdi,%rdx), %xmm1
	movups	88(%rdi,%rdx), %xmm2
	movups	%xmm2, 32(%rdi,%rdx)
	movups	%xmm1, 16(%rdi,%rdx)
	movups	%xmm0, (%rdi,%rdx)
	movups	%xmm0, -56(%rdi,%rdx)
	movups	%xmm1, -40(%rdi,%rdx)
	movups	%xmm2, -24(%rdi,%rdx)
	movq	%r9, -8(%rdi,%rdx)
	movups	%xmm0, -112(%rdi,%rdx)
	movups	%xmm1, -96(%rdi,%rdx)
	movups	%xmm2, -80(%rdi,%rdx)
	movq	%r9, -64(%rdi,%rdx)
	movups	%xmm0, -168(%rdi,%rdx)
	movups	%xmm1, -152(%rdi,%rdx)
	movups	%xmm2, -136(%rdi,%rdx)
	movq	%r9, -120(%rdi,%rdx)
	movq	104(%rdi,%rdx), %r9
	movq	%r9, -176(%rdi,%rdx)
	movups	56(%rdi,%rdx), %xmm0
	movups	72(%rdi,%rdx), %xmm1
	movups	88(%rdi,%rdx), %xmm2
	movups	%xmm2, -192(%rdi,%rdx)
	movups	%xmm1, -208(%rdi,%rdx)
	movups	%xmm0, -224(%rdi,%rdx)
	movq	%r9, -232(%rdi,%rdx)
	movups	%xmm2, -248(%rdi,%rdx)
	movups	%xmm1, -264(%rdi,%rdx)
	movups	%xmm0, -280(%rdi,%rdx)
	movq	%r9, -288(%rdi,%rdx)
	movups	%xmm2, -304(%rdi,%rdx)
	movups	%xmm1, -320(%rdi,%rdx)
	movups	%xmm0, -336(%rdi,%rdx)
	movups	%xmm0, -392(%rdi,%rdx)
	movups	%xmm1, -376(%rdi,%rdx)
	movups	%xmm2, -360(%rdi,%rdx)
	movq	%r9, -344(%rdi,%rdx)
	movq	104(%rdi,%rdx), %r9
	movq	%r9, -400(%rdi,%rdx)
	movups	56(%rdi,%rdx), %xmm0
	movups	72(%rdi,%rdx), %xmm1
	movups	88(%rdi,%rdx), %xmm2
	movups	%xmm2, -416(%rdi,%rdx)
	movups	%xmm1, -432(%rdi,%rdx)
	movups	%xmm0, -448(%rdi,%rdx)
	movq	%r9, -456(%rdi,%rdx)
	movups	%xmm2, -472(%rdi,%rdx)
	movups	%xmm1, -488(%rdi,%rdx)
	movups	%xmm0, -504(%rdi,%rdx)
	movups	%xmm2, -528(%rdi,%rdx)
	movq	%r9, -512(%rdi,%rdx)
	movups	%xmm1, -544(%rdi,%rdx)
	movups	%xmm0, -560(%rdi,%rdx)
	movups	%xmm0, -616(%rdi,%rdx)
	movups	%xmm1, -600(%rdi,%rdx)
	movups	%xmm2, -584(%rdi,%rdx)
	movq	%r9, -568(%rdi,%rdx)
	movq	104(%rdi,%rdx), %r9
	movq	%r9, -624(%rdi,%rdx)
	movups	56(%rdi,%rdx), %xmm0
	movups	72(%rdi,%rdx), %xmm1
	movups	88(%rdi,%rdx), %xmm2
	movups	%xmm2, -640(%rdi,%rdx)
	movups	%xmm1, -656(%rdi,%rdx)
	movups	%xmm0, -672(%rdi,%rdx)
	movq	%r9, -680(%rdi,%rdx)
	movups	%xmm2, -696(%rdi,%rdx)
	movups	%xmm1, -712(%rdi,%rdx)
	movups	%xmm0, -728(%rdi,%rdx)
	movups	%xmm1, -768(%rdi,%rdx)
	movq	%r9, -736(%rdi,%rdx)
	movups	%xmm2, -752(%rdi,%rdx)
	movups	%xmm0, -784(%rdi,%rdx)
	movups	%xmm0, -840(%rdi,%rdx)
	movups	%xmm1, -824(%rdi,%rdx)
	movups	%xmm2, -808(%rdi,%rdx)
	movq	%r9, -792(%rdi,%rdx)
	movq	104(%rdi,%rdx), %r9
	movq	%r9, -848(%rdi,%rdx)
	movups	56(%rdi,%rdx), %xmm0
	movups	72(%rdi,%rdx), %xmm1
	movups	88(%rdi,%rdx), %xmm2
	movups	%xmm2, -864(%rdi,%rdx)
	movups	%xmm1, -880(%rdi,%rdx)
	movups	%xmm0, -896(%rdi,%rdx)
	movq	%r9, -904(%rdi,%rdx)
	movups	%xmm2, -920(%rdi,%rdx)
	movups	%xmm1, -936(%rdi,%rdx)
	movups	%xmm0, -952(%rdi,%rdx)
	movq	%r9, -960(%rdi,%rdx)
	movups	%xmm2, -976(%rdi,%rdx)
	movups	%xmm1, -992(%rdi,%rdx)
	movups	%xmm0, -1008(%rdi,%rdx)
	movq	%r9, -1016(%rdi,%rdx)
	movups	%xmm2, -1032(%rdi,%rdx)
	movups	%xmm1, -1048(%rdi,%rdx)
	movups	%xmm0, -1064(%rdi,%rdx)
	movq	104(%rdi,%rdx), %r9
	movq	%r9, -1072(%rdi,%rdx)
	movups	56(%rdi,%rdx), %xmm0
	movups	72(%rdi,%rdx), %xmm1
	movups	88(%rdi,%rdx), %xmm2
	movups	%xmm2, -1088(%rdi,%rdx)
	movups	%xmm1, -1104(%rdi,%rdx)
	movups	%xmm0, -1120(%rdi,%rdx)
	movq	104(%rdi,%rdx), %r9
	movq	%r9, -1128(%rdi,%rdx)
	movups	56(%rdi,%rdx), %xmm0
	movups	72(%rdi,%rdx), %xmm1
	movups	88(%rdi,%rdx), %xmm2
	movups	%xmm2, -1144(%rdi,%rdx)
	movups	%xmm1, -1160(%rdi,%rdx)
	movups	%xmm0, -1176(%rdi,%rdx)
	movq	104(%rdi,%rdx), %r9
	movq	%r9, -1184(%rdi,%rdx)
	movups	56(%rdi,%rdx), %xmm0
	movups	72(%rdi,%rdx), %xmm1
	movups	88(%rdi,%rdx), %xmm2
	movups	%xmm2, -1200(%rdi,%rdx)
	movups	%xmm1, -1216(%rdi,%rdx)
	movups	%xmm0, -1232(%rdi,%rdx)
	movq	104(%rdi,%rdx), %r9
	movq	%r9, -1240(%rdi,%rdx)
	movups	56(%rdi,%rdx), %xmm0
	movups	72(%rdi,%rdx), %xmm1
	movups	88(%rdi,%rdx), %xmm2
	movups	%xmm2, -1256(%rdi,%rdx)
	movups	%xmm1, -1272(%rdi,%rdx)
	movups	%xmm0, -1288(%rdi,%rdx)
	movq	104(%rdi,%rdx), %r9
	movq	%r9, -1296(%rdi,%rdx)
	movups	56(%rdi,%rdx), %xmm0
	movups	72(%rdi,%rdx), %xmm1
	movups	88(%rdi,%rdx), %xmm2
	movups	%xmm2, -1312(%rdi,%rdx)
	movups	%xmm1, -1328(%rdi,%rdx)
	movups	%xmm0, -1344(%rdi,%rdx)
	movq	104(%rdi,%rdx), %r9
	movq	%r9, -1352(%rdi,%rdx)
	movups	56(%rdi,%rdx), %xmm0
	movups	72(%rdi,%rdx), %xmm1
	movups	88(%rdi,%rdx), %xmm2
	movups	%xmm2, -1368(%rdi,%rdx)
	movups	%xmm1, -1384(%rdi,%rdx)
	movups	%xmm0, -1400(%rdi,%rdx)
	movq	104(%rdi,%rdx), %r9
	movq	%r9, -1408(%rdi,%rdx)
	movups	56(%rdi,%rdx), %xmm0
	movups	72(%rdi,%rdx), %xmm1
	movups	88(%rdi,%rdx), %xmm2
	movups	%xmm2, -1424(%rdi,%rdx)
	movups	%xmm1, -1440(%rdi,%rdx)
	movups	%xmm0, -1456(%rdi,%rdx)
	movq	104(%rdi,%rdx), %r9
	movq	%r9, -1464(%rdi,%rdx)
	movups	56(%rdi,%rdx), %xmm0
	movups	72(%rdi,%rdx), %xmm1
	movups	88(%rdi,%rdx), %xmm2
	movups	%xmm2, -1480(%rdi,%rdx)
	movups	%xmm1, -1496(%rdi,%rdx)
	movups	%xmm0, -1512(%rdi,%rdx)
	movq	104(%rdi,%rdx), %r9
	movq	%r9, -1520(%rdi,%rdx)
	movups	56(%rdi,%rdx), %xmm0
	movups	72(%rdi,%rdx), %xmm1
	movups	88(%rdi,%rdx), %xmm2
	movups	%xmm2, -1536(%rdi,%rdx)
	movups	%xmm1, -1552(%rdi,%rdx)
	movups	%xmm0, -1568(%rdi,%rdx)
	movq	104(%rdi,%rdx), %r9
	movq	%r9, -1576(%rdi,%rdx)
	movups	56(%rdi,%rdx), %xmm0
	movups	72(%rdi,%rdx), %xmm1
	movups	88(%rdi,%rdx), %xmm2
	movups	%xmm2, -1592(%rdi,%rdx)
	movups	%xmm1, -1608(%rdi,%rdx)
	movups	%xmm0, -1624(%rdi,%rdx)
	movq	104(%rdi,%rdx), %r9
	movq	%r9, -1632(%rdi,%rdx)
	movups	56(%rdi,%rdx), %xmm0
	movups	72(%rdi,%rdx), %xmm1
	movups	88(%rdi,%rdx), %xmm2
	movups	%xmm2, -1648(%rdi,%rdx)
	movups	%xmm1, -1664(%rdi,%rdx)
	movups	%xmm0, -1680(%rdi,%rdx)
	movq	104(%rdi,%rdx), %r9
	movq	%r9, -1688(%rdi,%rdx)
	movups	56(%rdi,%rdx), %xmm0
	movups	72(%rdi,%rdx), %xmm1
	movups	88(%rdi,%rdx), %xmm2
	movups	%xmm2, -1704(%rdi,%rdx)
	movups	%xmm1, -1720(%rdi,%rdx)
	movups	%xmm0, -1736(%rdi,%rdx)
	movq	104(%rdi,%rdx), %r9
	movq	%r9, -1744(%rdi,%rdx)
	movups	56(%rdi,%rdx), %xmm0
	movups	72(%rdi,%rdx), %xmm1
	movups	88(%rdi,%rdx), %xmm2
	movups	%xmm2, -1760(%rdi,%rdx)
	movups	%xmm1, -1776(%rdi,%rdx)
	movups	%xmm0, -1792(%rdi,%rdx)
	movq	104(%rdi,%rdx), %r9
	movq	%r9, -1800(%rdi,%rdx)
	movups	56(%rdi,%rdx), %xmm0
	movups	72(%rdi,%rdx), %xmm1
	movups	88(%rdi,%rdx), %xmm2
	movups	%xmm2, -1816(%rdi,%rdx)
	movups	%xmm1, -1832(%rdi,%rdx)
	movups	%xmm0, -1848(%rdi,%rdx)
	movq	104(%rdi,%rdx), %r9
	movq	%r9, 104(%r8)
	movups	56(%rdi,%rdx), %xmm0
	movups	72(%rdi,%rdx), %xmm1
	movups	88(%rdi,%rdx), %xmm2
	movups	%xmm2, 88(%r8)
	movups	%xmm1, 72(%r8)
	movups	%xmm0, 56(%r8)
	movq	104(%rdi,%rdx), %r9
	movq	%r9, 48(%r8)
	movups	56(%rdi,%rdx), %xmm0
	movups	72(%rdi,%rdx), %xmm1
	movups	88(%rdi,%rdx), %xmm2
	movups	%xmm2, 32(%r8)
	movups	%xmm1, 16(%r8)
	movups	%xmm0, (%r8)
L(36_298):
	addq	$-36, %rax
	addq	$-36, %rsi
	addq	$2016, %rdx
	cmpq	$36, %rax
	jbe	L(36_301)
L(36_299):
	leaq	(%rdi,%rdx), %r8
	addq	$-1960, %r8
	cmpq	$1, %rsi
	je	L(36_297)
	movq	104(%r8), %r9
	movq	%r9, 48(%r8)
	movups	56(%r8), %xmm0
	movups	72(%r8), %xmm1
	movups	88(%r8), %xmm2
	movups	%xmm2, 32(%r8)
	movups	%xmm1, 16(%r8)
	movups	%xmm0, (%r8)
	movq	-1800(%rdi,%rdx), %r9
	movq	%r9, 104(%r8)
	movups	-1848(%rdi,%rdx), %xmm0
	movups	-1832(%rdi,%rdx), %xmm1
	movups	-1816(%rdi,%rdx), %xmm2
	movups	%xmm2, 88(%r8)
	movups	%xmm1, 72(%r8)
	movups	%xmm0, 56(%r8)
	movq	-1744(%rdi,%rdx), %r8
	movq	%r8, -1800(%rdi,%rdx)
	movups	-1792(%rdi,%rdx), %xmm0
	movups	-1776(%rdi,%rdx), %xmm1
	movups	-1760(%rdi,%rdx), %xmm2
	movups	%xmm2, -1816(%rdi,%rdx)
	movups	%xmm1, -1832(%rdi,%rdx)
	movups	%xmm0, -1848(%rdi,%rdx)
	movups	-1736(%rdi,%rdx), %xmm0
	movups	%xmm0, -1792(%rdi,%rdx)
	movq	-1688(%rdi,%rdx), %r8
	movq	%r8, -1744(%rdi,%rdx)
	movups	-1704(%rdi,%rdx), %xmm0
	movups	%xmm0, -1760(%rdi,%rdx)
	movups	-1720(%rdi,%rdx), %xmm0
	movups	%xmm0, -1776(%rdi,%rdx)
	movq	-1632(%rdi,%rdx), %r8
	movq	%r8, -1688(%rdi,%rdx)
	movups	-1680(%rdi,%rdx), %xmm0
	movups	-1664(%rdi,%rdx), %xmm1
	movups	-1648(%rdi,%rdx), %xmm2
	movups	%xmm2, -1704(%rdi,%rdx)
	movups	%xmm1, -1720(%rdi,%rdx)
	movups	%xmm0, -1736(%rdi,%rdx)
	movq	-1576(%rdi,%rdx), %r8
	movq	%r8, -1632(%rdi,%rdx)
	movups	-1624(%rdi,%rdx), %xmm0
	movups	-1608(%rdi,%rdx), %xmm1
	movups	-1592(%rdi,%rdx), %xmm2
	movups	%xmm2, -1648(%rdi,%rdx)
	movups	%xmm1, -1664(%rdi,%rdx)
	movups	%xmm0, -1680(%rdi,%rdx)
	movq	-1520(%rdi,%rdx), %r8
	movq	%r8, -1576(%rdi,%rdx)
	movups	-1568(%rdi,%rdx), %xmm0
	movups	-1552(%rdi,%rdx), %xmm1
	movups	-1536(%rdi,%rdx), %xmm2
	movups	%xmm2, -1592(%rdi,%rdx)
	movups	%xmm1, -1608(%rdi,%rdx)
	movups	%xmm0, -1624(%rdi,%rdx)
	movq	-1464(%rdi,%rdx), %r8
	movq	%r8, -1520(%rdi,%rdx)
	movups	-1512(%rdi,%rdx), %xmm0
	movups	-1496(%rdi,%rdx), %xmm1
	movups	-1480(%rdi,%rdx), %xmm2
	movups	%xmm2, -1536(%rdi,%rdx)
	movups	%xmm1, -1552(%rdi,%rdx)
	movups	%xmm0, -1568(%rdi,%rdx)
	movq	-1408(%rdi,%rdx), %r8
	movq	%r8, -1464(%rdi,%rdx)
	movups	-1456(%rdi,%rdx), %xmm0
	movups	-1440(%rdi,%rdx), %xmm1
	movups	-1424(%rdi,%rdx), %xmm2
	movups	%xmm2, -1480(%rdi,%rdx)
	movups	%xmm1, -1496(%rdi,%rdx)
	movups	%xmm0, -1512(%rdi,%rdx)
	movq	-1352(%rdi,%rdx), %r8
	movq	%r8, -1408(%rdi,%rdx)
	movups	-1400(%rdi,%rdx), %xmm0
	movups	-1384(%rdi,%rdx), %xmm1
	movups	-1368(%rdi,%rdx), %xmm2
	movups	%xmm2, -1424(%rdi,%rdx)
	movups	%xmm1, -1440(%rdi,%rdx)
	movups	%xmm0, -1456(%rdi,%rdx)
	movq	-1296(%rdi,%rdx), %r8
	movq	%r8, -1352(%rdi,%rdx)
	movups	-1344(%rdi,%rdx), %xmm0
	movups	-1328(%rdi,%rdx), %xmm1
	movups	-1312(%rdi,%rdx), %xmm2
	movups	%xmm2, -1368(%rdi,%rdx)
	movups	%xmm1, -1384(%rdi,%rdx)
	movups	%xmm0, -1400(%rdi,%rdx)
	movq	-1240(%rdi,%rdx), %r8
	movq	%r8, -1296(%rdi,%rdx)
	movups	-1288(%rdi,%rdx), %xmm0
	movups	-1272(%rdi,%rdx), %xmm1
	movups	-1256(%rdi,%rdx), %xmm2
	movups	%xmm2, -1312(%rdi,%rdx)
	movups	%xmm1, -1328(%rdi,%rdx)
	movups	%xmm0, -1344(%rdi,%rdx)
	movq	-1184(%rdi,%rdx), %r8
	movq	%r8, -1240(%rdi,%rdx)
	movups	-1232(%rdi,%rdx), %xmm0
	movups	-1216(%rdi,%rdx), %xmm1
	movups	-1200(%rdi,%rdx), %xmm2
	movups	%xmm2, -1256(%rdi,%rdx)
	movups	%xmm1, -1272(%rdi,%rdx)
	movups	%xmm0, -1288(%rdi,%rdx)
	movq	-1128(%rdi,%rdx), %r8
	movq	%r8, -1184(%rdi,%rdx)
	movups	-1176(%rdi,%rdx), %xmm0
	movups	-1160(%rdi,%rdx), %xmm1
	movups	-1144(%rdi,%rdx), %xmm2
	movups	%xmm2, -1200(%rdi,%rdx)
	movups	%xmm1, -1216(%rdi,%rdx)
	movups	%xmm0, -1232(%rdi,%rdx)
	movq	-1072(%rdi,%rdx), %r8
	movq	%r8, -1128(%rdi,%rdx)
	movups	-1120(%rdi,%rdx), %xmm0
	movups	-1104(%rdi,%rdx), %xmm1
	movups	-1088(%rdi,%rdx), %xmm2
	movups	%xmm2, -1144(%rdi,%rdx)
	movups	%xmm1, -1160(%rdi,%rdx)
	movups	%xmm0, -1176(%rdi,%rdx)
	movq	-1016(%rdi,%rdx), %r8
	movq	%r8, -1072(%rdi,%rdx)
	movups	-1064(%rdi,%rdx), %xmm0
	movups	-1048(%rdi,%rdx), %xmm1
	movups	-1032(%rdi,%rdx), %xmm2
	movups	%xmm2, -1088(%rdi,%rdx)
	movups	%xmm1, -1104(%rdi,%rdx)
	movups	%xmm0, -1120(%rdi,%rdx)
	movq	-960(%rdi,%rdx), %r8
	movq	%r8, -1016(%rdi,%rdx)
	movups	-1008(%rdi,%rdx), %xmm0
	movups	-992(%rdi,%rdx), %xmm1
	movups	-976(%rdi,%rdx), %xmm2
	movups	%xmm2, -1032(%rdi,%rdx)
	movups	%xmm1, -1048(%rdi,%rdx)
	movups	%xmm0, -1064(%rdi,%rdx)
	movq	-904(%rdi,%rdx), %r8
	movq	%r8, -960(%rdi,%rdx)
	movups	-952(%rdi,%rdx), %xmm0
	movups	-936(%rdi,%rdx), %xmm1
	movups	-920(%rdi,%rdx), %xmm2
	movups	%xmm2, -976(%rdi,%rdx)
	movups	%xmm1, -992(%rdi,%rdx)
	movups	%xmm0, -1008(%rdi,%rdx)
	movq	-848(%rdi,%rdx), %r8
	movq	%r8, -904(%rdi,%rdx)
	movups	-896(%rdi,%rdx), %xmm0
	movups	-880(%rdi,%rdx), %xmm1
	movups	-864(%rdi,%rdx), %xmm2
	movups	%xmm2, -920(%rdi,%rdx)
	movups	%xmm1, -936(%rdi,%rdx)
	movups	%xmm0, -952(%rdi,%rdx)
	movq	-792(%rdi,%rdx), %r8
	movq	%r8, -848(%rdi,%rdx)
	movups	-840(%rdi,%rdx), %xmm0
	movups	-824(%rdi,%rdx), %xmm1
	movups	-808(%rdi,%rdx), %xmm2
	movups	%xmm2, -864(%rdi,%rdx)
	movups	%xmm1, -880(%rdi,%rdx)
	movups	%xmm0, -896(%rdi,%rdx)
	movq	-736(%rdi,%rdx), %r8
	movq	%r8, -792(%rdi,%rdx)
	movups	-784(%rdi,%rdx), %xmm0
	movups	-768(%rdi,%rdx), %xmm1
	movups	-752(%rdi,%rdx), %xmm2
	movups	%xmm2, -808(%rdi,%rdx)
	movups	%xmm1, -824(%rdi,%rdx)
	movups	%xmm0, -840(%rdi,%rdx)
	movq	-680(%rdi,%rdx), %r8
	movq	%r8, -736(%rdi,%rdx)
	movups	-728(%rdi,%rdx), %xmm0
	movups	-712(%rdi,%rdx), %xmm1
	movups	-696(%rdi,%rdx), %xmm2
	movups	%xmm2, -752(%rdi,%rdx)
	movups	%xmm1, -768(%rdi,%rdx)
	movups	%xmm0, -784(%rdi,%rdx)
	movq	-624(%rdi,%rdx), %r8
	movq	%r8, -680(%rdi,%rdx)
	movups	-672(%rdi,%rdx), %xmm0
	movups	-656(%rdi,%rdx), %xmm1
	movups	-640(%rdi,%rdx), %xmm2
	movups	%xmm2, -696(%rdi,%rdx)
	movups	%xmm1, -712(%rdi,%rdx)
	movups	%xmm0, -728(%rdi,%rdx)
	movq	-568(%rdi,%rdx), %r8
	movq	%r8, -624(%rdi,%rdx)
	movups	-616(%rdi,%rdx), %xmm0
	movups	-600(%rdi,%rdx), %xmm1
	movups	-584(%rdi,%rdx), %xmm2
	movups	%xmm2, -640(%rdi,%rdx)
	movups	%xmm1, -656(%rdi,%rdx)
	movups	%xmm0, -672(%rdi,%rdx)
	movq	-512(%rdi,%rdx), %r8
	movq	%r8, -568(%rdi,%rdx)
	movups	-560(%rdi,%rdx), %xmm0
	movups	-544(%rdi,%rdx), %xmm1
	movups	-528(%rdi,%rdx), %xmm2
	movups	%xmm2, -584(%rdi,%rdx)
	movups	%xmm1, -600(%rdi,%rdx)
	movups	%xmm0, -616(%rdi,%rdx)
	movq	-456(%rdi,%rdx), %r8
	movq	%r8, -512(%rdi,%rdx)
	movups	-504(%rdi,%rdx), %xmm0
	movups	-488(%rdi,%rdx), %xmm1
	movups	-472(%rdi,%rdx), %xmm2
	movups	%xmm2, -528(%rdi,%rdx)
	movups	%xmm1, -544(%rdi,%rdx)
	movups	%xmm0, -560(%rdi,%rdx)
	movq	-400(%rdi,%rdx), %r8
	movq	%r8, -456(%rdi,%rdx)
	movups	-448(%rdi,%rdx), %xmm0
	movups	-432(%rdi,%rdx), %xmm1
	movups	-416(%rdi,%rdx), %xmm2
	movups	%xmm2, -472(%rdi,%rdx)
	movups	%xmm1, -488(%rdi,%rdx)
	movups	%xmm0, -504(%rdi,%rdx)
	movq	-344(%rdi,%rdx), %r8
	movq	%r8, -400(%rdi,%rdx)
	movups	-392(%rdi,%rdx), %xmm0
	movups	-376(%rdi,%rdx), %xmm1
	movups	-360(%rdi,%rdx), %xmm2
	movups	%xmm2, -416(%rdi,%rdx)
	movups	%xmm1, -432(%rdi,%rdx)
	movups	%xmm0, -448(%rdi,%rdx)
	movq	-288(%rdi,%rdx), %r8
	movq	%r8, -344(%rdi,%rdx)
	movups	-336(%rdi,%rdx), %xmm0
	movups	-320(%rdi,%rdx), %xmm1
	movups	-304(%rdi,%rdx), %xmm2
	movups	%xmm2, -360(%rdi,%rdx)
	movups	%xmm1, -376(%rdi,%rdx)
	movups	%xmm0, -392(%rdi,%rdx)
	movq	-232(%rdi,%rdx), %r8
	movq	%r8, -288(%rdi,%rdx)
	movups	-280(%rdi,%rdx), %xmm0
	movups	-264(%rdi,%rdx), %xmm1
	movups	-248(%rdi,%rdx), %xmm2
	movups	%xmm2, -304(%rdi,%rdx)
	movups	%xmm1, -320(%rdi,%rdx)
	movups	%xmm0, -336(%rdi,%rdx)
	movq	-176(%rdi,%rdx), %r8
	movq	%r8, -232(%rdi,%rdx)
	movups	-224(%rdi,%rdx), %xmm0
	movups	-208(%rdi,%rdx), %xmm1
	movups	-192(%rdi,%rdx), %xmm2
	movups	%xmm2, -248(%rdi,%rdx)
	movups	%xmm1, -264(%rdi,%rdx)
	movups	%xmm0, -280(%rdi,%rdx)
	movq	-120(%rdi,%rdx), %r8
	movq	%r8, -176(%rdi,%rdx)
	movups	-168(%rdi,%rdx), %xmm0
	movups	-152(%rdi,%rdx), %xmm1
	movups	-136(%rdi,%rdx), %xmm2
	movups	%xmm2, -192(%rdi,%rdx)
	movups	%xmm1, -208(%rdi,%rdx)
	movups	%xmm0, -224(%rdi,%rdx)
	movq	-64(%rdi,%rdx), %r8
	movq	%r8, -120(%rdi,%rdx)
	movups	-112(%rdi,%rdx), %xmm0
	movups	-96(%rdi,%rdx), %xmm1
	movups	-80(%rdi,%rdx), %xmm2
	movups	%xmm2, -136(%rdi,%rdx)
	movups	%xmm1, -152(%rdi,%rdx)
	movups	%xmm0, -168(%rdi,%rdx)
	movq	-8(%rdi,%rdx), %r8
	movq	%r8, -64(%rdi,%rdx)
	movups	-56(%rdi,%rdx), %xmm0
	movups	-40(%rdi,%rdx), %xmm1
	movups	-24(%rdi,%rdx), %xmm2
	movups	%xmm2, -80(%rdi,%rdx)
	movups	%xmm1, -96(%rdi,%rdx)
	movups	%xmm0, -112(%rdi,%rdx)
	movq	48(%rdi,%rdx), %r8
	movq	%r8, -8(%rdi,%rdx)
	movups	(%rdi,%rdx), %xmm0
	movups	16(%rdi,%rdx), %xmm1
	movups	32(%rdi,%rdx), %xmm2
	movups	%xmm2, -24(%rdi,%rdx)
	movups	%xmm1, -40(%rdi,%rdx)
	movups	%xmm0, -56(%rdi,%rdx)
	movq	104(%rdi,%rdx), %r8
	movq	%r8, 48(%rdi,%rdx)
	movups	56(%rdi,%rdx), %xmm0
	movups	72(%rdi,%rdx), %xmm1
	movups	88(%rdi,%rdx), %xmm2
	movups	%xmm2, 32(%rdi,%rdx)
	movups	%xmm1, 16(%rdi,%rdx)
	movups	%xmm0, (%rdi,%rdx)
	jmp	L(36_298)
L(36_301):
	cmpq	$1, %rsi
	jne	L(36_310)
	testq	%rcx, %rcx
	movq	32(%rsp), %r8
	je	L(36_313)
	imulq	$56, %rcx, %rcx
	addq	%r12, %rcx
	addq	$-56, %rcx
L(36_304):
	movq	48(%rcx), %rdx
	movq	%rdx, -8(%rcx)
	movups	(%rcx), %xmm0
	movups	16(%rcx), %xmm1
	movups	32(%rcx), %xmm2
	movups	%xmm2, -24(%rcx)
	movups	%xmm1, -40(%rcx)
	movups	%xmm0, -56(%rcx)
	addq	$-56, %rcx
	decq	%rax
	jne	L(36_304)
	jmp	L(36_313)
L(36_305):
	movq	%r13, 24(%rsp)
	movq	%r8, 32(%rsp)
	movq	%r10, %r13
	addq	%r12, %rdx
	imulq	$-56, %r14, %r8
	imulq	$56, %rcx, %rdi
	leaq	(%rdi,%r12), %r9
	addq	$-112, %r9
	movq	%rcx, %r10
	andq	$-4, %r10
	subq	%r14, %r10
	xorl	%edi, %edi
L(36_306):
	movups	56(%r9,%r8), %xmm0
	movups	72(%r9,%r8), %xmm1
	movups	88(%r9,%r8), %xmm2
	movq	104(%r9,%r8), %r11
	movq	%r11, 48(%r9)
	movups	%xmm2, 32(%r9)
	movups	%xmm1, 16(%r9)
	movups	%xmm0, (%r9)
	movabsq	$2305843009213693950, %r11
	xorq	%rdi, %r11
	addq	%rax, %r11
	imulq	$56, %r11, %r11
	movups	(%r12,%r11), %xmm0
	movups	16(%r12,%r11), %xmm1
	movups	32(%r12,%r11), %xmm2
	movq	48(%r12,%r11), %rbp
	movq	%rbp, 48(%rdx,%r11)
	movups	%xmm2, 32(%rdx,%r11)
	movups	%xmm1, 16(%rdx,%r11)
	movups	%xmm0, (%rdx,%r11)
	movabsq	$2305843009213693949, %r11
	xorq	%rdi, %r11
	addq	%rax, %r11
	imulq	$56, %r11, %r11
	movups	(%r12,%r11), %xmm0
	movups	16(%r12,%r11), %xmm1
	movups	32(%r12,%r11), %xmm2
	movq	48(%r12,%r11), %rbp
	movq	%rbp, 48(%rdx,%r11)
	movups	%xmm2, 32(%rdx,%r11)
	movups	%xmm1, 16(%rdx,%r11)
	movups	%xmm0, (%rdx,%r11)
	movabsq	$2305843009213693948, %r11
	xorq	%rdi, %r11
	addq	%rax, %r11
	imulq	$56, %r11, %r11
	movups	(%r12,%r11), %xmm0
	movups	16(%r12,%r11), %xmm1
	movups	32(%r12,%r11), %xmm2
	movq	48(%r12,%r11), %rbp
	movq	%rbp, 48(%rdx,%r11)
	movups	%xmm2, 32(%rdx,%r11)
	movups	%xmm1, 16(%rdx,%r11)
	movups	%xmm0, (%rdx,%r11)
	addq	$4, %rdi
	addq	$-224, %r9
	cmpq	%rdi, %r10
	jne	L(36_306)
	testq	%rsi, %rsi
	movq	40(%rsp), %rbp
	movq	%r13, %r10
	movq	32(%rsp), %r8
	leaq	-1(%rcx), %r11
	movq	24(%rsp), %r13
	je	L(36_313)
L(36_308):
	imulq	$56, %rcx, %rcx
	addq	%rdi, %r14
	imulq	$56, %r14, %rax
	movq	%rcx, %rdx
	subq	%rax, %rdx
	leaq	(%r12,%rdx), %rax
	addq	$-56, %rax
	imulq	$56, %rdi, %rdx
	subq	%rdx, %rcx
	addq	%r12, %rcx
	addq	$-112, %rcx
	imulq	$56, %rsi, %rdx
	xorl	%esi, %esi
L(36_309):
	movups	(%rax,%rsi), %xmm0
	movups	16(%rax,%rsi), %xmm1
	movups	32(%rax,%rsi), %xmm2
	movq	48(%rax,%rsi), %rdi
	movq	%rdi, 48(%rcx,%rsi)
	movups	%xmm2, 32(%rcx,%rsi)
	movups	%xmm1, 16(%rcx,%rsi)
	movups	%xmm0, (%rcx,%rsi)
	addq	$-56, %rsi
	movq	%rdx, %rdi
	addq	%rsi, %rdi
	jne	L(36_309)
	jmp	L(36_313)
L(36_310):
	negq	%rsi
	movq	32(%rsp), %r8
L(36_311):
	cmpq	%rsi, %r11
	je	L(36_313)
	leaq	(%r12,%rdx), %rdi
	leaq	(%r12,%rdx), %rsi
	addq	$56, %rsi
	imulq	$56, %rax, %rdx
	movq	%r10, %r14
	movq	%rbx, 32(%rsp)
	movq	%r13, 24(%rsp)
	movq	%r11, %r13
	movq	%r8, %rbx
	callq	PLT(memmove)
	movq	%rbx, %r8
	movq	%r13, %r11
	movq	24(%rsp), %r13
	movq	32(%rsp), %rbx
	movq	%r14, %r10
L(36_313):
	movq	296(%rsp), %rax
	movq	%r12, 8(%rax)
	movq	%r11, 16(%rax)
	movq	%rbx, 24(%rax)
	testq	%r13, %r13
	je	L(36_315)
	movq	%r8, %rdi
	movq	%r10, %rbx
	callq	PLT(yurewha_heap_dealloc)
	movq	%rbx, %r10
L(36_315):
	testq	%r10, %r10
	movq	80(%rsp), %r12
	movq	232(%rsp), %r13
	je	L(36_317)
	movq	48(%rsp), %rdi
	callq	PLT(yurewha_heap_dealloc)
L(36_317):
	cmpq	$0, 16(%rsp)
	je	L(36_319)
	movq	%r15, %rdi
	callq	PLT(yurewha_heap_dealloc)
L(36_319):
	movq	56(%rsp), %r15
	testq	%r12, %r12
	jne	L(36_156)
L(36_320):
	cmpb	$0, 200(%rsp)
	jne	L(36_322)
	movq	%r15, %rdi
	callq	PLT(yurewha_heap_dealloc)
L(36_322):
	movq	304(%rsp), %rcx
	andb	$1, %cl
	movq	296(%rsp), %rax
	movb	%cl, (%rax)
	movl	196(%rsp), %ecx
	andb	$1, %cl
	movb	%cl, 1(%rax)
	movq	792(%rsp), %rcx
	movq	%rcx, 32(%rax)
	movw	$0, (%rbp)
	movb	$0, 2(%rbp)
	movaps	400(%rsp), %xmm0
L(36_323):
	movups	%xmm0, 16(%rbp)
	addq	$1192, %rsp
	.cfi_def_cfa_offset 56
	popq	%rbx
	.cfi_def_cfa_offset 48
	popq	%r12
	.cfi_def_cfa_offset 40
	popq	%r13
	.cfi_def_cfa_offset 32
	popq	%r14
	.cfi_def_cfa_offset 24
	popq	%r15
	.cfi_def_cfa_offset 16
	popq	%rbp
	.cfi_def_cfa_offset 8
	retq
L(36_324):
	.cfi_def_cfa_offset 1248
	movq	%r11, 72(%rsp)
	movq	%r10, 24(%rsp)
	leaq	240(%rsp), %rdi
	movq	%r12, %rsi
	callq	"std_alloc::vec::Vec::grow_amortized::<#1ed62de40e111fb4>"
	testb	%al, %al
	je	L(36_330)
	movq	248(%rsp), %rdi
	movq	256(%rsp), %r8
	movq	24(%rsp), %r10
	movq	72(%rsp), %r11
	jmp	L(36_240)
L(36_326):
	movq	%r13, %rdi
	movq	%r12, %rsi
	callq	"std_alloc::vec::Vec::grow_amortized::<#62557648214f1014>"
	testb	%al, %al
	je	L(36_332)
	movq	416(%rsp), %rax
	movq	(%rax), %rdx
	jmp	L(36_178)
L(36_328):
	movq	%r11, 72(%rsp)
	movq	%r10, 24(%rsp)
	leaq	240(%rsp), %rdi
	movq	%r9, %rsi
	callq	"std_alloc::vec::Vec::grow_amortized::<#1ed62de40e111fb4>"
	testb	%al, %al
	je	L(36_330)
	movq	240(%rsp), %rdx
	movq	248(%rsp), %rax
	movq	256(%rsp), %r8
	movq	24(%rsp), %r10
	movq	72(%rsp), %r11
	movq	208(%rsp), %r9
	leaq	(%rax,%r9), %rdi
	cmpq	%rdi, %rax
	jb	L(36_207)
	jmp	L(36_212)
L(36_330):
	cmpq	$0, 256(%rsp)
	je	L(36_129)
	movq	240(%rsp), %rdi
	callq	PLT(yurewha_heap_dealloc)
	jmp	L(36_129)
L(36_332):
	leaq	48(%r15), %r14
	jmp	L(36_334)
L(36_333):
	addq	$56, %r14
	decq	%r12
	je	L(36_338)
L(36_334):
	movq	-16(%r14), %rbx
	movq	(%r14), %r13
	cmpq	$0, -32(%r14)
	je	L(36_336)
	movq	-48(%r14), %rdi
	callq	PLT(yurewha_heap_dealloc)
L(36_336):
	testq	%r13, %r13
	je	L(36_333)
	movq	%rbx, %rdi
	callq	PLT(yurewha_heap_dealloc)
	jmp	L(36_333)
L(36_338):
	cmpq	$0, 16(%rsp)
	je	L(36_340)
	movq	%r15, %rdi
	callq	PLT(yurewha_heap_dealloc)
L(36_340):
	movq	80(%rsp), %r14
	testq	%r14, %r14
	movq	56(%rsp), %r15
	je	L(36_345)
	leaq	16(%r15), %rbx
	jmp	L(36_343)
L(36_342):
	addq	$24, %rbx
	decq	%r14
	je	L(36_345)
L(36_343):
	cmpq	$0, (%rbx)
	je	L(36_342)
	movq	-16(%rbx), %rdi
	callq	PLT(yurewha_heap_dealloc)
	jmp	L(36_342)
L(36_345):
	cmpq	$0, 24(%rsp)
	movq	40(%rsp), %rbp
	jne	L(36_162)
	jmp	L(36_164)
L(36_346):
	leaq	8(%rsp), %r12
L(36_347):
	movq	%r12, 312(%rsp)
	movq	$0, 320(%rsp)
	movq	%r13, 328(%rsp)
	cmpq	$576, %rbx
	movl	$576, %r15d
	cmovbq	%rbx, %r15
	testq	%rbx, %rbx
	je	L(36_360)
	leaq	(,%r15,8), %rax
	leaq	(%rax,%rax,4), %rdi
	movl	$8, %esi
	callq	PLT(yurewha_heap_alloc)
	testb	$1, %al
	je	L(36_365)
	movq	%rdx, %rbx
	movq	%rdx, 160(%rsp)
	movq	%r15, 176(%rsp)
	cmpq	$577, 64(%rsp)
	jb	L(36_371)
	movq	72(%rsp), %r15
L(36_351):
	movq	$0, 168(%rsp)
	xorl	%edx, %edx
	xorl	%r12d, %r12d
	jmp	L(36_353)
L(36_352):
	leaq	(%rdx,%rdx,4), %rax
	movq	656(%rsp), %rcx
	movq	%rcx, 32(%rbx,%rax,8)
	movaps	624(%rsp), %xmm0
	movaps	640(%rsp), %xmm1
	movups	%xmm1, 16(%rbx,%rax,8)
	movups	%xmm0, (%rbx,%rax,8)
	incq	%rdx
	movq	%rdx, 168(%rsp)
	addq	$40, %r12
	cmpq	$23040, %r12
	je	L(36_356)
L(36_353):
	movq	32(%r15,%r12), %rax
	movq	%rax, 656(%rsp)
	movups	(%r15,%r12), %xmm0
	movups	16(%r15,%r12), %xmm1
	movaps	%xmm1, 640(%rsp)
	movaps	%xmm0, 624(%rsp)
	cmpq	%rdx, 176(%rsp)
	jne	L(36_352)
	leaq	160(%rsp), %rdi
	movl	$1, %esi
	callq	"std_alloc::vec::Vec::grow_amortized::<#1ed62de40e111fb4>"
	testb	%al, %al
	je	L(36_377)
	movq	160(%rsp), %rbx
	movq	168(%rsp), %rdx
	jmp	L(36_352)
L(36_356):
	leaq	312(%rsp), %rdi
	leaq	400(%rsp), %rcx
	movq	%rbx, %rsi
	callq	"xet_roots::aggregated_hashes::push_first_parents::<#135fa06c802d8a86>"
	testb	%al, %al
	jne	L(36_392)
	leaq	(%rdx,%rdx,4), %rax
	leaq	(%r15,%rax,8), %r15
	movq	64(%rsp), %rax
	subq	%rdx, %rax
	movq	%rax, 64(%rsp)
	cmpq	$576, %rax
	ja	L(36_351)
	movq	%r15, 72(%rsp)
	movq	$0, 168(%rsp)
	cmpq	$0, 64(%rsp)
	jne	L(36_372)
	jmp	L(36_361)
L(36_360):
	leaq	8(%rsp), %rax
	movq	%rax, 160(%rsp)
	movq	%r15, 176(%rsp)
L(36_361):
	xorl	%edx, %edx
L(36_362):
	movq	160(%rsp), %rbx
	leaq	312(%rsp), %rdi
	leaq	400(%rsp), %rcx
	movq	%rbx, %rsi
	callq	"xet_roots::aggregated_hashes::push_parents::<#135fa06c802d8a86>"
	movq	176(%rsp), %rcx
	testb	%al, %al
	je	L(36_367)
	testq	%rcx, %rcx
	je	L(36_380)
L(36_364):
	movq	%rbx, %rdi
	jmp	L(36_379)
L(36_365):
	testq	%r13, %r13
	je	L(36_383)
	movq	%r12, %rdi
	jmp	L(36_382)
L(36_367):
	testq	%rcx, %rcx
	je	L(36_369)
	movq	%rbx, %rdi
	callq	PLT(yurewha_heap_dealloc)
L(36_369):
	movq	328(%rsp), %rax
	movq	%rax, 1175(%rsp)
	movups	312(%rsp), %xmm0
	movups	%xmm0, 1159(%rsp)
	movq	16(%rsp), %rcx
	movq	%rcx, 736(%rsp)
	movq	%r14, 744(%rsp)
	movq	48(%rsp), %rcx
	movq	%rcx, 752(%rsp)
	movaps	%xmm0, 992(%rsp)
	movq	%rax, 1008(%rsp)
	leaq	864(%rsp), %rdi
	leaq	736(%rsp), %rsi
	leaq	992(%rsp), %rdx
	leaq	400(%rsp), %r9
	movl	424(%rsp), %ecx
	movl	32(%rsp), %r8d
	callq	"subtree_levels::collapse::collapse::<#4baefd862f873d89>"
	cmpb	$0, 864(%rsp)
	jne	L(36_258)
	movq	872(%rsp), %r15
	movq	880(%rsp), %r12
	movq	888(%rsp), %rax
	jmp	L(36_272)
L(36_371):
	movq	$0, 168(%rsp)
L(36_372):
	xorl	%edx, %edx
	movq	64(%rsp), %rsi
	movq	72(%rsp), %rdi
	jmp	L(36_375)
L(36_373):
	movq	160(%rsp), %rbx
	movq	168(%rsp), %rdx
	movq	%r15, %rsi
	movq	%r12, %rdi
L(36_374):
	leaq	(%rdx,%rdx,4), %rax
	movq	656(%rsp), %rcx
	movq	%rcx, 32(%rbx,%rax,8)
	movaps	624(%rsp), %xmm0
	movaps	640(%rsp), %xmm1
	movups	%xmm1, 16(%rbx,%rax,8)
	movups	%xmm0, (%rbx,%rax,8)
	incq	%rdx
	movq	%rdx, 168(%rsp)
	addq	$40, %rdi
	decq	%rsi
	je	L(36_362)
L(36_375):
	movq	32(%rdi), %rax
	movq	%rax, 656(%rsp)
	movups	(%rdi), %xmm0
	movups	16(%rdi), %xmm1
	movaps	%xmm1, 640(%rsp)
	movaps	%xmm0, 624(%rsp)
	cmpq	%rdx, 176(%rsp)
	jne	L(36_374)
	movq	%rdi, %r12
	movq	%rsi, %r15
	leaq	160(%rsp), %rdi
	movl	$1, %esi
	callq	"std_alloc::vec::Vec::grow_amortized::<#1ed62de40e111fb4>"
	testb	%al, %al
	jne	L(36_373)
L(36_377):
	cmpq	$0, 176(%rsp)
	je	L(36_380)
	movq	160(%rsp), %rdi
L(36_379):
	callq	PLT(yurewha_heap_dealloc)
L(36_380):
	cmpq	$0, 328(%rsp)
	je	L(36_383)
	movq	312(%rsp), %rdi
L(36_382):
	callq	PLT(yurewha_heap_dealloc)
L(36_383):
	testq	%r14, %r14
	movq	16(%rsp), %r13
	je	L(36_390)
	leaq	48(%r13), %r12
	jmp	L(36_386)
L(36_385):
	addq	$56, %r12
	decq	%r14
	je	L(36_390)
L(36_386):
	movq	-16(%r12), %rbx
	movq	(%r12), %r15
	cmpq	$0, -32(%r12)
	je	L(36_388)
	movq	-48(%r12), %rdi
	callq	PLT(yurewha_heap_dealloc)
L(36_388):
	testq	%r15, %r15
	je	L(36_385)
	movq	%rbx, %rdi
	callq	PLT(yurewha_heap_dealloc)
	jmp	L(36_385)
L(36_390):
	cmpq	$0, 48(%rsp)
	je	L(36_258)
	movq	%r13, %rdi
	jmp	L(36_257)
L(36_392):
	cmpq	$0, 176(%rsp)
	jne	L(36_364)
	jmp	L(36_380)
	SIZE("xet_merkle::merkle_hash_subtree::subtree::MerkleHashSubtree::merge_with::<#3cf6a99334775a21>")
	.cfi_endproc

CODE(".text.xet_merkle::merkle_hash_subtree::subtree::merging::whole_of::<#024afdc31600bcbd>")
	.p2align	4
	TYPE("xet_merkle::merkle_hash_subtree::subtree::merging::whole_of::<#024afdc31600bcbd>", function)
"xet_merkle::merkle_hash_subtree::subtree::merging::whole_of::<#024afdc31600bcbd>":
	.cfi_startproc
	cmpb	$0, 1(%rsi)
	jne	L(37_2)
	cmpb	$1, (%rdx)
	jne	L(37_4)
L(37_2):
	movw	$1, (%rdi)
	movb	$0, 2(%rdi)
	xorps	%xmm0, %xmm0
	movups	%xmm0, 8(%rdi)
	retq
L(37_4):
	movq	32(%rdx), %rcx
	xorl	%eax, %eax
	addq	32(%rsi), %rcx
	cmovaeq	%rcx, %rax
	jae	L(37_5)
	movw	$257, (%rdi)
	movb	$0, 2(%rdi)
	xorps	%xmm0, %xmm0
	movups	%xmm0, 8(%rdi)
	retq
L(37_5):
	movzbl	(%rsi), %r8d
	movzbl	1(%rdx), %ecx
	movq	16(%rsi), %r9
	testq	%r9, %r9
	je	L(37_6)
	movq	8(%rsi), %r10
	addq	$40, %r10
	xorl	%esi, %esi
	.p2align	4
L(37_8):
	movq	%rsi, %r11
	movq	-32(%r10), %rsi
	subq	-16(%r10), %rsi
	addq	%r11, %rsi
	jb	L(37_18)
	addq	(%r10), %rsi
	jb	L(37_18)
	addq	$56, %r10
	decq	%r9
	jne	L(37_8)
	movq	16(%rdx), %r9
	testq	%r9, %r9
	jne	L(37_12)
	jmp	L(37_20)
L(37_6):
	xorl	%esi, %esi
	movq	16(%rdx), %r9
	testq	%r9, %r9
	je	L(37_20)
L(37_12):
	movq	8(%rdx), %rdx
	addq	$40, %rdx
	xorl	%r10d, %r10d
	.p2align	4
L(37_13):
	movq	%r10, %r11
	movq	-32(%rdx), %r10
	subq	-16(%rdx), %r10
	addq	%r11, %r10
	jb	L(37_18)
	addq	(%rdx), %r10
	jb	L(37_18)
	addq	$56, %rdx
	decq	%r9
	jne	L(37_13)
	addq	%rsi, %r10
	jae	L(37_20)
	movw	$513, (%rdi)
	movb	$0, 2(%rdi)
	xorps	%xmm0, %xmm0
	movups	%xmm0, 8(%rdi)
	retq
L(37_20):
	shll	$8, %ecx
	orq	%r8, %rcx
	movw	$0, (%rdi)
	movb	$0, 2(%rdi)
	movq	%rcx, 8(%rdi)
	movq	%rax, 16(%rdi)
	retq
L(37_18):
	ud2
	SIZE("xet_merkle::merkle_hash_subtree::subtree::merging::whole_of::<#024afdc31600bcbd>")
	.cfi_endproc

CODE(".text.subtree_levels::in_sight::InSight::nodes::<#d96a70c1b70ca186>")
	.p2align	4
	TYPE("subtree_levels::in_sight::InSight::nodes::<#d96a70c1b70ca186>", function)
"subtree_levels::in_sight::InSight::nodes::<#d96a70c1b70ca186>":
	.cfi_startproc
	pushq	%rbp
	.cfi_def_cfa_offset 16
	pushq	%r15
	.cfi_def_cfa_offset 24
	pushq	%r14
	.cfi_def_cfa_offset 32
	pushq	%r13
	.cfi_def_cfa_offset 40
	pushq	%r12
	.cfi_def_cfa_offset 48
	pushq	%rbx
	.cfi_def_cfa_offset 56
	subq	$40, %rsp
	.cfi_def_cfa_offset 96
	.cfi_offset %rbx, -56
	.cfi_offset %r12, -48
	.cfi_offset %r13, -40
	.cfi_offset %r14, -32
	.cfi_offset %r15, -24
	.cfi_offset %rbp, -16
	movq	%rsi, %r12
	movq	8(%rsi), %rbp
	leaq	24(%rsp), %rdx
	testq	%rbp, %rbp
	je	L(38_1)
	movq	(%r12), %rax
	cmpq	$1, %rbp
	jne	L(38_4)
	movq	8(%rax), %rbp
	movq	24(%rax), %rcx
	leaq	(%rcx,%rcx,4), %r13
	shlq	$3, %r13
	addq	(%rax), %r13
	subq	%rcx, %rbp
	cmpq	$0, 48(%r12)
	jne	L(38_7)
	jmp	L(38_6)
L(38_1):
	movq	%rdx, %r13
	cmpq	$0, 48(%r12)
	je	L(38_6)
L(38_7):
	movq	40(%r12), %rax
	movq	8(%rax), %r15
	movq	24(%rax), %rcx
	leaq	(%rcx,%rcx,4), %r14
	shlq	$3, %r14
	addq	(%rax), %r14
	subq	%rcx, %r15
	leaq	(%r15,%rbp), %r10
	addq	24(%r12), %r10
	jne	L(38_9)
	jmp	L(38_12)
L(38_4):
	movq	32(%rax), %r13
	movq	40(%rax), %rbp
	cmpq	$0, 48(%r12)
	jne	L(38_7)
L(38_6):
	xorl	%r15d, %r15d
	movq	%rdx, %r14
	leaq	(%r15,%rbp), %r10
	addq	24(%r12), %r10
	je	L(38_12)
L(38_9):
	movabsq	$230584300921369395, %rax
	cmpq	%rax, %r10
	ja	L(38_57)
	leaq	(,%r10,8), %rax
	movq	%rdi, 32(%rsp)
	leaq	(%rax,%rax,4), %rdi
	movl	$8, %esi
	movq	%r15, %rbx
	movq	%r10, %r15
	callq	PLT(yurewha_heap_alloc)
	movq	32(%rsp), %rdi
	testb	$1, %al
	je	L(38_57)
	movq	%r15, %r10
	movq	%rbx, %r15
L(38_12):
	movq	%rdx, (%rsp)
	movq	$0, 8(%rsp)
	movq	%r10, 16(%rsp)
	cmpq	%r10, %rbp
	movq	%rdi, 32(%rsp)
	ja	L(38_14)
	xorl	%eax, %eax
L(38_16):
	leaq	(%rax,%rbp), %rbx
	shlq	$3, %rax
	leaq	(%rax,%rax,4), %rcx
	leaq	(%rdx,%rcx), %rdi
	leaq	(,%rbp,8), %rax
	leaq	(%rax,%rax,4), %rax
	movq	%rdi, %rsi
	subq	%r13, %rsi
	cmpq	%rax, %rsi
	jae	L(38_20)
	testq	%rbp, %rbp
	je	L(38_26)
	movl	%ebp, %eax
	andl	$7, %eax
	cmpq	$8, %rbp
	jae	L(38_21)
	xorl	%esi, %esi
	jmp	L(38_24)
L(38_57):
	movb	$1, (%rdi)
	xorps	%xmm0, %xmm0
	movups	%xmm0, 8(%rdi)
	movq	$0, 24(%rdi)
	jmp	L(38_49)
L(38_20):
	movq	%r13, %rsi
	movq	%rax, %rdx
	movq	%r10, %r13
	callq	PLT(memmove)
	movq	%r13, %r10
	jmp	L(38_26)
L(38_21):
	andq	$-8, %rbp
	movl	$280, %r8d
	xorl	%esi, %esi
	.p2align	4
L(38_22):
	movups	-280(%r13,%r8), %xmm0
	movups	-264(%r13,%r8), %xmm1
	movq	-248(%r13,%r8), %r9
	movq	%r9, -248(%rdi,%r8)
	movups	%xmm1, -264(%rdi,%r8)
	movups	%xmm0, -280(%rdi,%r8)
	movups	-240(%r13,%r8), %xmm0
	movups	-224(%r13,%r8), %xmm1
	movq	-208(%r13,%r8), %r9
	movq	%r9, -208(%rdi,%r8)
	movups	%xmm1, -224(%rdi,%r8)
	movups	%xmm0, -240(%rdi,%r8)
	movups	-200(%r13,%r8), %xmm0
	movups	-184(%r13,%r8), %xmm1
	movq	-168(%r13,%r8), %r9
	movq	%r9, -168(%rdi,%r8)
	movups	%xmm1, -184(%rdi,%r8)
	movups	%xmm0, -200(%rdi,%r8)
	movups	-160(%r13,%r8), %xmm0
	movups	-144(%r13,%r8), %xmm1
	movq	-128(%r13,%r8), %r9
	movq	%r9, -128(%rdi,%r8)
	movups	%xmm1, -144(%rdi,%r8)
	movups	%xmm0, -160(%rdi,%r8)
	movups	-120(%r13,%r8), %xmm0
	movups	-104(%r13,%r8), %xmm1
	movq	-88(%r13,%r8), %r9
	movq	%r9, -88(%rdi,%r8)
	movups	%xmm1, -104(%rdi,%r8)
	movups	%xmm0, -120(%rdi,%r8)
	movups	-80(%r13,%r8), %xmm0
	movups	-64(%r13,%r8), %xmm1
	movq	-48(%r13,%r8), %r9
	movq	%r9, -48(%rdi,%r8)
	movups	%xmm1, -64(%rdi,%r8)
	movups	%xmm0, -80(%rdi,%r8)
	movups	-40(%r13,%r8), %xmm0
	movups	-24(%r13,%r8), %xmm1
	movq	-8(%r13,%r8), %r9
	movq	%r9, -8(%rdi,%r8)
	movups	%xmm1, -24(%rdi,%r8)
	movups	%xmm0, -40(%rdi,%r8)
	movups	(%r13,%r8), %xmm0
	movups	16(%r13,%r8), %xmm1
	movq	32(%r13,%r8), %r9
	movq	%r9, 32(%rdi,%r8)
	movups	%xmm1, 16(%rdi,%r8)
	movups	%xmm0, (%rdi,%r8)
	addq	$8, %rsi
	addq	$320, %r8
	cmpq	%rsi, %rbp
	jne	L(38_22)
	testq	%rax, %rax
	je	L(38_26)
L(38_24):
	shlq	$3, %rsi
	leaq	(%rsi,%rsi,4), %rsi
	addq	%rsi, %r13
	addq	%rsi, %rcx
	addq	%rcx, %rdx
	shll	$3, %eax
	leaq	(%rax,%rax,4), %rax
	xorl	%ecx, %ecx
	.p2align	4
L(38_25):
	movups	(%r13,%rcx), %xmm0
	movups	16(%r13,%rcx), %xmm1
	movq	32(%r13,%rcx), %rsi
	movq	%rsi, 32(%rdx,%rcx)
	movups	%xmm1, 16(%rdx,%rcx)
	movups	%xmm0, (%rdx,%rcx)
	addq	$40, %rcx
	cmpq	%rcx, %rax
	jne	L(38_25)
L(38_26):
	movq	%rbx, 8(%rsp)
	movq	%r10, 16(%rsp)
	movq	16(%r12), %rsi
	movq	24(%r12), %r12
	movq	%r10, %rax
	subq	%rbx, %rax
	cmpq	%rax, %r12
	ja	L(38_27)
L(38_29):
	leaq	(%rbx,%r12), %rbp
	movq	(%rsp), %r13
	shlq	$3, %rbx
	leaq	(%rbx,%rbx,4), %rax
	leaq	(%rax,%r13), %rdi
	leaq	(,%r12,8), %rcx
	leaq	(%rcx,%rcx,4), %rdx
	movq	%rdi, %rcx
	subq	%rsi, %rcx
	cmpq	%rdx, %rcx
	jae	L(38_33)
	testq	%r12, %r12
	je	L(38_34)
	movl	%r12d, %ecx
	andl	$7, %ecx
	cmpq	$8, %r12
	jae	L(38_41)
	xorl	%edx, %edx
	jmp	L(38_44)
L(38_33):
	movq	%r10, %rbx
	callq	PLT(memmove)
	movq	%rbx, %r10
	jmp	L(38_34)
L(38_41):
	andq	$-8, %r12
	movl	$280, %r8d
	xorl	%edx, %edx
	.p2align	4
L(38_42):
	movups	-280(%rsi,%r8), %xmm0
	movups	-264(%rsi,%r8), %xmm1
	movq	-248(%rsi,%r8), %r9
	movq	%r9, -248(%rdi,%r8)
	movups	%xmm1, -264(%rdi,%r8)
	movups	%xmm0, -280(%rdi,%r8)
	movups	-240(%rsi,%r8), %xmm0
	movups	-224(%rsi,%r8), %xmm1
	movq	-208(%rsi,%r8), %r9
	movq	%r9, -208(%rdi,%r8)
	movups	%xmm1, -224(%rdi,%r8)
	movups	%xmm0, -240(%rdi,%r8)
	movups	-200(%rsi,%r8), %xmm0
	movups	-184(%rsi,%r8), %xmm1
	movq	-168(%rsi,%r8), %r9
	movq	%r9, -168(%rdi,%r8)
	movups	%xmm1, -184(%rdi,%r8)
	movups	%xmm0, -200(%rdi,%r8)
	movups	-160(%rsi,%r8), %xmm0
	movups	-144(%rsi,%r8), %xmm1
	movq	-128(%rsi,%r8), %r9
	movq	%r9, -128(%rdi,%r8)
	movups	%xmm1, -144(%rdi,%r8)
	movups	%xmm0, -160(%rdi,%r8)
	movups	-120(%rsi,%r8), %xmm0
	movups	-104(%rsi,%r8), %xmm1
	movq	-88(%rsi,%r8), %r9
	movq	%r9, -88(%rdi,%r8)
	movups	%xmm1, -104(%rdi,%r8)
	movups	%xmm0, -120(%rdi,%r8)
	movups	-80(%rsi,%r8), %xmm0
	movups	-64(%rsi,%r8), %xmm1
	movq	-48(%rsi,%r8), %r9
	movq	%r9, -48(%rdi,%r8)
	movups	%xmm1, -64(%rdi,%r8)
	movups	%xmm0, -80(%rdi,%r8)
	movups	-40(%rsi,%r8), %xmm0
	movups	-24(%rsi,%r8), %xmm1
	movq	-8(%rsi,%r8), %r9
	movq	%r9, -8(%rdi,%r8)
	movups	%xmm1, -24(%rdi,%r8)
	movups	%xmm0, -40(%rdi,%r8)
	movups	(%rsi,%r8), %xmm0
	movups	16(%rsi,%r8), %xmm1
	movq	32(%rsi,%r8), %r9
	movq	%r9, 32(%rdi,%r8)
	movups	%xmm1, 16(%rdi,%r8)
	movups	%xmm0, (%rdi,%r8)
	addq	$8, %rdx
	addq	$320, %r8
	cmpq	%rdx, %r12
	jne	L(38_42)
	testq	%rcx, %rcx
	je	L(38_34)
L(38_44):
	shlq	$3, %rdx
	leaq	(%rdx,%rdx,4), %rdx
	addq	%rdx, %rsi
	addq	%rdx, %rax
	addq	%r13, %rax
	shll	$3, %ecx
	leaq	(%rcx,%rcx,4), %rcx
	xorl	%edx, %edx
	.p2align	4
L(38_45):
	movups	(%rsi,%rdx), %xmm0
	movups	16(%rsi,%rdx), %xmm1
	movq	32(%rsi,%rdx), %rdi
	movq	%rdi, 32(%rax,%rdx)
	movups	%xmm1, 16(%rax,%rdx)
	movups	%xmm0, (%rax,%rdx)
	addq	$40, %rdx
	cmpq	%rdx, %rcx
	jne	L(38_45)
L(38_34):
	movq	%rbp, 8(%rsp)
	movq	%r10, 16(%rsp)
	movq	%r10, %rax
	subq	%rbp, %rax
	cmpq	%rax, %r15
	ja	L(38_35)
L(38_37):
	leaq	(%r15,%rbp), %rbx
	shlq	$3, %rbp
	leaq	(,%rbp,4), %rdi
	addq	%rbp, %rdi
	addq	%r13, %rdi
	leaq	(,%r15,8), %rax
	leaq	(%rax,%rax,4), %rdx
	movq	%rdi, %rax
	subq	%r14, %rax
	cmpq	%rdx, %rax
	jae	L(38_50)
	testq	%r15, %r15
	je	L(38_51)
	movl	%r15d, %eax
	andl	$7, %eax
	cmpq	$8, %r15
	jae	L(38_52)
	xorl	%ecx, %ecx
	jmp	L(38_55)
L(38_50):
	movq	%r14, %rsi
	movq	%r10, %r14
	callq	PLT(memmove)
	movq	%r14, %r10
	jmp	L(38_51)
L(38_52):
	andq	$-8, %r15
	movl	$280, %edx
	xorl	%ecx, %ecx
	.p2align	4
L(38_53):
	movups	-280(%r14,%rdx), %xmm0
	movups	-264(%r14,%rdx), %xmm1
	movq	-248(%r14,%rdx), %rsi
	movq	%rsi, -248(%rdi,%rdx)
	movups	%xmm1, -264(%rdi,%rdx)
	movups	%xmm0, -280(%rdi,%rdx)
	movups	-240(%r14,%rdx), %xmm0
	movups	-224(%r14,%rdx), %xmm1
	movq	-208(%r14,%rdx), %rsi
	movq	%rsi, -208(%rdi,%rdx)
	movups	%xmm1, -224(%rdi,%rdx)
	movups	%xmm0, -240(%rdi,%rdx)
	movups	-200(%r14,%rdx), %xmm0
	movups	-184(%r14,%rdx), %xmm1
	movq	-168(%r14,%rdx), %rsi
	movq	%rsi, -168(%rdi,%rdx)
	movups	%xmm1, -184(%rdi,%rdx)
	movups	%xmm0, -200(%rdi,%rdx)
	movups	-160(%r14,%rdx), %xmm0
	movups	-144(%r14,%rdx), %xmm1
	movq	-128(%r14,%rdx), %rsi
	movq	%rsi, -128(%rdi,%rdx)
	movups	%xmm1, -144(%rdi,%rdx)
	movups	%xmm0, -160(%rdi,%rdx)
	movups	-120(%r14,%rdx), %xmm0
	movups	-104(%r14,%rdx), %xmm1
	movq	-88(%r14,%rdx), %rsi
	movq	%rsi, -88(%rdi,%rdx)
	movups	%xmm1, -104(%rdi,%rdx)
	movups	%xmm0, -120(%rdi,%rdx)
	movups	-80(%r14,%rdx), %xmm0
	movups	-64(%r14,%rdx), %xmm1
	movq	-48(%r14,%rdx), %rsi
	movq	%rsi, -48(%rdi,%rdx)
	movups	%xmm1, -64(%rdi,%rdx)
	movups	%xmm0, -80(%rdi,%rdx)
	movups	-40(%r14,%rdx), %xmm0
	movups	-24(%r14,%rdx), %xmm1
	movq	-8(%r14,%rdx), %rsi
	movq	%rsi, -8(%rdi,%rdx)
	movups	%xmm1, -24(%rdi,%rdx)
	movups	%xmm0, -40(%rdi,%rdx)
	movups	(%r14,%rdx), %xmm0
	movups	16(%r14,%rdx), %xmm1
	movq	32(%r14,%rdx), %rsi
	movq	%rsi, 32(%rdi,%rdx)
	movups	%xmm1, 16(%rdi,%rdx)
	movups	%xmm0, (%rdi,%rdx)
	addq	$8, %rcx
	addq	$320, %rdx
	cmpq	%rcx, %r15
	jne	L(38_53)
	testq	%rax, %rax
	je	L(38_51)
L(38_55):
	shlq	$3, %rcx
	leaq	(%rcx,%rcx,4), %rcx
	addq	%rcx, %r14
	addq	%rcx, %rdi
	shll	$3, %eax
	leaq	(%rax,%rax,4), %rax
	xorl	%ecx, %ecx
	.p2align	4
L(38_56):
	movups	(%r14,%rcx), %xmm0
	movups	16(%r14,%rcx), %xmm1
	movq	32(%r14,%rcx), %rdx
	movq	%rdx, 32(%rdi,%rcx)
	movups	%xmm1, 16(%rdi,%rcx)
	movups	%xmm0, (%rdi,%rcx)
	addq	$40, %rcx
	cmpq	%rcx, %rax
	jne	L(38_56)
L(38_51):
	movq	%rbx, 8(%rsp)
	movq	%r10, 16(%rsp)
	movq	32(%rsp), %rcx
	movb	$0, (%rcx)
	movq	(%rsp), %rax
	movq	%rax, 8(%rcx)
	movq	8(%rsp), %rax
	movq	%rax, 16(%rcx)
	movq	16(%rsp), %rax
	movq	%rax, 24(%rcx)
L(38_49):
	addq	$40, %rsp
	.cfi_def_cfa_offset 56
	popq	%rbx
	.cfi_def_cfa_offset 48
	popq	%r12
	.cfi_def_cfa_offset 40
	popq	%r13
	.cfi_def_cfa_offset 32
	popq	%r14
	.cfi_def_cfa_offset 24
	popq	%r15
	.cfi_def_cfa_offset 16
	popq	%rbp
	.cfi_def_cfa_offset 8
	retq
L(38_14):
	.cfi_def_cfa_offset 96
	movq	%rsp, %rdi
	movq	%rbp, %rsi
	callq	"std_alloc::vec::Vec::grow_amortized::<#1ed62de40e111fb4>"
	testb	%al, %al
	je	L(38_46)
	movq	(%rsp), %rdx
	movq	8(%rsp), %rax
	movq	16(%rsp), %r10
	jmp	L(38_16)
L(38_27):
	movq	%rsi, %r13
	movq	%rsp, %rdi
	movq	%r12, %rsi
	callq	"std_alloc::vec::Vec::grow_amortized::<#1ed62de40e111fb4>"
	testb	%al, %al
	je	L(38_46)
	movq	8(%rsp), %rbx
	movq	16(%rsp), %r10
	movq	%r13, %rsi
	jmp	L(38_29)
L(38_35):
	movq	%rsp, %rdi
	movq	%r15, %rsi
	callq	"std_alloc::vec::Vec::grow_amortized::<#1ed62de40e111fb4>"
	testb	%al, %al
	je	L(38_46)
	movq	(%rsp), %r13
	movq	8(%rsp), %rbp
	movq	16(%rsp), %r10
	jmp	L(38_37)
L(38_46):
	cmpq	$0, 16(%rsp)
	je	L(38_48)
	movq	(%rsp), %rdi
	callq	PLT(yurewha_heap_dealloc)
L(38_48):
	movq	32(%rsp), %rax
	movb	$1, (%rax)
	xorps	%xmm0, %xmm0
	movups	%xmm0, 8(%rax)
	movq	$0, 24(%rax)
	jmp	L(38_49)
	SIZE("subtree_levels::in_sight::InSight::nodes::<#d96a70c1b70ca186>")
	.cfi_endproc

CODE(".text.subtree_levels::in_sight::InSight::split::<#024afdc31600bcbd>")
	.p2align	4
	TYPE("subtree_levels::in_sight::InSight::split::<#024afdc31600bcbd>", function)
"subtree_levels::in_sight::InSight::split::<#024afdc31600bcbd>":
	.cfi_startproc
	pushq	%rbp
	.cfi_def_cfa_offset 16
	pushq	%r14
	.cfi_def_cfa_offset 24
	pushq	%rbx
	.cfi_def_cfa_offset 32
	.cfi_offset %rbx, -32
	.cfi_offset %r14, -24
	.cfi_offset %rbp, -16
	cmpq	$1, 8(%rsi)
	ja	L(39_14)
	xorl	%eax, %eax
	testq	%rcx, %rcx
	je	L(39_11)
	cmpb	$0, 56(%rsi)
	jne	L(39_11)
	leaq	24(%rdx), %r8
	xorl	%eax, %eax
	xorl	%r9d, %r9d
	xorl	%r11d, %r11d
	xorl	%r10d, %r10d
	jmp	L(39_4)
	.p2align	4
L(39_8):
	incq	%rax
L(39_9):
	decq	%r9
	addq	$40, %r8
	movq	%rcx, %rbx
	addq	%r9, %rbx
	je	L(39_10)
L(39_4):
	testb	$3, (%r8)
	jne	L(39_8)
	leaq	-2(%rax), %rbx
	cmpq	$5, %rbx
	setb	%bpl
	andb	%bpl, %r11b
	cmpb	$1, %r11b
	je	L(39_6)
	cmpq	$5, %rbx
	setb	%al
	movl	%r10d, %r11d
	andb	%al, %r11b
	movb	$1, %r10b
	xorl	%eax, %eax
	jmp	L(39_9)
L(39_14):
	cmpq	$1, 48(%rsi)
	ja	L(39_25)
	cmpb	$0, 57(%rsi)
	movq	%rcx, %r11
	jne	L(39_24)
	testq	%rcx, %rcx
	je	L(39_17)
	leaq	24(%rdx), %rax
	xorl	%r9d, %r9d
	xorl	%r10d, %r10d
	xorl	%r8d, %r8d
	xorl	%r11d, %r11d
	xorl	%ebx, %ebx
	jmp	L(39_19)
	.p2align	4
L(39_21):
	incq	%r11
	incq	%r9
	addq	$40, %rax
	cmpq	%r9, %rcx
	je	L(39_23)
L(39_19):
	testb	$3, (%rax)
	jne	L(39_21)
	leaq	-2(%r11), %r14
	cmpq	$5, %r14
	setb	%bpl
	movq	%r9, %r14
	subq	%r11, %r14
	andb	%bpl, %bl
	orb	%bl, %r10b
	testb	%bl, %bl
	cmovneq	%r14, %r8
	xorl	%r11d, %r11d
	movl	%ebp, %ebx
	incq	%r9
	addq	$40, %rax
	cmpq	%r9, %rcx
	jne	L(39_19)
L(39_23):
	xorl	%r11d, %r11d
	testb	$1, %r10b
	cmovneq	%r8, %r11
	jmp	L(39_24)
L(39_25):
	movq	(%rsi), %r8
	movq	40(%rsi), %rsi
	movq	8(%r8), %rax
	movq	24(%r8), %r10
	movq	%rdx, %r9
	leaq	(%r10,%r10,4), %rdx
	shlq	$3, %rdx
	addq	(%r8), %rdx
	subq	%r10, %rax
	jmp	L(39_26)
L(39_10):
	movq	%rcx, %rax
	jmp	L(39_11)
L(39_6):
	addq	%r9, %rax
	negq	%rax
L(39_11):
	leaq	(%rax,%rax,4), %r8
	leaq	(%rdx,%r8,8), %r9
	subq	%rax, %rcx
	cmpq	$0, 48(%rsi)
	je	L(39_12)
	movq	40(%rsi), %rsi
L(39_26):
	movq	32(%rsi), %r8
	movq	40(%rsi), %r10
	jmp	L(39_27)
L(39_12):
	leaq	-8(%rsp), %r8
	xorl	%r10d, %r10d
	jmp	L(39_27)
L(39_17):
	xorl	%r11d, %r11d
L(39_24):
	leaq	(%r11,%r11,4), %rax
	leaq	(%rdx,%rax,8), %r8
	movq	%rcx, %r10
	subq	%r11, %r10
	movq	(%rsi), %rax
	movq	24(%rax), %rcx
	movq	%rdx, %r9
	leaq	(%rcx,%rcx,4), %rdx
	shlq	$3, %rdx
	addq	(%rax), %rdx
	movq	8(%rax), %rax
	subq	%rcx, %rax
	movq	%r11, %rcx
L(39_27):
	movq	%rdx, (%rdi)
	movq	%rax, 8(%rdi)
	movq	%r9, 16(%rdi)
	movq	%rcx, 24(%rdi)
	movq	%r8, 32(%rdi)
	movq	%r10, 40(%rdi)
	popq	%rbx
	.cfi_def_cfa_offset 24
	popq	%r14
	.cfi_def_cfa_offset 16
	popq	%rbp
	.cfi_def_cfa_offset 8
	retq
	SIZE("subtree_levels::in_sight::InSight::split::<#024afdc31600bcbd>")
	.cfi_endproc

CODE(".text.unlikely.std_alloc::vec::Vec::grow_amortized::<#383813664ff73b2b>")
	.p2align	4
	TYPE("std_alloc::vec::Vec::grow_amortized::<#383813664ff73b2b>", function)
"std_alloc::vec::Vec::grow_amortized::<#383813664ff73b2b>":
	.cfi_startproc
	movq	8(%rdi), %rax
	cmpq	$-1, %rax
	je	L(40_5)
	pushq	%r14
	.cfi_def_cfa_offset 16
	pushq	%rbx
	.cfi_def_cfa_offset 24
	pushq	%rax
	.cfi_def_cfa_offset 32
	.cfi_offset %rbx, -24
	.cfi_offset %r14, -16
	movq	16(%rdi), %rcx
	cmpq	$4, %rax
	movl	$3, %ebx
	cmovaeq	%rax, %rbx
	incq	%rbx
	movq	%rcx, %rsi
	shrq	$62, %rsi
	leaq	(%rcx,%rcx), %rdx
	cmpq	%rdx, %rbx
	cmovaq	%rbx, %rdx
	testq	%rsi, %rsi
	cmoveq	%rdx, %rbx
	movabsq	$384307168202282325, %rsi
	cmpq	%rsi, %rbx
	ja	L(40_6)
	testq	%rcx, %rcx
	je	L(40_8)
	movq	%rdi, %r14
	movq	(%rdi), %rdi
	shlq	$3, %rax
	leaq	(%rax,%rax,2), %rsi
	leaq	(,%rbx,8), %rax
	leaq	(%rax,%rax,2), %rdx
	movl	$8, %ecx
	callq	PLT(yurewha_heap_realloc)
	testb	$1, %al
	je	L(40_6)
L(40_9):
	movq	%rdx, (%r14)
	movq	%rbx, 16(%r14)
	movb	$1, %al
	addq	$8, %rsp
	.cfi_def_cfa_offset 24
	popq	%rbx
	.cfi_def_cfa_offset 16
	popq	%r14
	.cfi_def_cfa_offset 8
	.cfi_restore %rbx
	.cfi_restore %r14
	retq
L(40_5):
	xorl	%eax, %eax
	retq
L(40_8):
	.cfi_def_cfa_offset 32
	.cfi_offset %rbx, -24
	.cfi_offset %r14, -16
	movq	%rdi, %r14
	shlq	$3, %rdx
	leaq	(%rdx,%rdx,2), %rdi
	movl	$8, %esi
	callq	PLT(yurewha_heap_alloc)
	testb	$1, %al
	jne	L(40_9)
L(40_6):
	xorl	%eax, %eax
	addq	$8, %rsp
	.cfi_def_cfa_offset 24
	popq	%rbx
	.cfi_def_cfa_offset 16
	popq	%r14
	.cfi_def_cfa_offset 8
	.cfi_restore %rbx
	.cfi_restore %r14
	retq
	SIZE("std_alloc::vec::Vec::grow_amortized::<#383813664ff73b2b>")
	.cfi_endproc

CODE(".text.subtree_levels::in_sight::InSight::only_extends::<#024afdc31600bcbd>")
	.p2align	4
	TYPE("subtree_levels::in_sight::InSight::only_extends::<#024afdc31600bcbd>", function)
"subtree_levels::in_sight::InSight::only_extends::<#024afdc31600bcbd>":
	.cfi_startproc
	pushq	%rbp
	.cfi_def_cfa_offset 16
	pushq	%r15
	.cfi_def_cfa_offset 24
	pushq	%r14
	.cfi_def_cfa_offset 32
	pushq	%r12
	.cfi_def_cfa_offset 40
	pushq	%rbx
	.cfi_def_cfa_offset 48
	.cfi_offset %rbx, -48
	.cfi_offset %r12, -40
	.cfi_offset %r14, -32
	.cfi_offset %r15, -24
	.cfi_offset %rbp, -16
	testb	$1, %sil
	je	L(41_3)
	cmpb	$0, 56(%rdi)
	jne	L(41_93)
	movq	8(%rdi), %rax
	cmpq	$1, %rax
	ja	L(41_93)
	leaq	-8(%rsp), %rcx
	jne	L(41_15)
	movq	(%rdi), %rax
	movq	8(%rax), %rbx
	movq	24(%rax), %rdx
	leaq	(%rdx,%rdx,4), %r14
	shlq	$3, %r14
	addq	(%rax), %r14
	subq	%rdx, %rbx
	movq	24(%rdi), %r9
	cmpq	$0, 48(%rdi)
	je	L(41_16)
L(41_8):
	movq	40(%rdi), %rax
	movq	8(%rax), %r8
	movq	24(%rax), %rdx
	leaq	(%rdx,%rdx,4), %rcx
	shlq	$3, %rcx
	addq	(%rax), %rcx
	subq	%rdx, %r8
	movb	$1, %al
	movq	%r9, %rdx
	orq	%rbx, %rdx
	jne	L(41_17)
	jmp	L(41_94)
L(41_3):
	cmpb	$0, 57(%rdi)
	jne	L(41_93)
	movq	48(%rdi), %rax
	cmpq	$1, %rax
	ja	L(41_93)
	movq	8(%rdi), %r8
	leaq	-8(%rsp), %rcx
	testq	%r8, %r8
	je	L(41_28)
	movq	(%rdi), %rdx
	cmpq	$1, %r8
	jne	L(41_30)
	movq	8(%rdx), %r8
	movq	24(%rdx), %rsi
	leaq	(%rsi,%rsi,4), %r9
	shlq	$3, %r9
	addq	(%rdx), %r9
	subq	%rsi, %r8
	movq	24(%rdi), %rsi
	testq	%rax, %rax
	je	L(41_31)
L(41_29):
	movq	40(%rdi), %rax
	movq	8(%rax), %rdx
	movq	24(%rax), %r10
	leaq	(%r10,%r10,4), %rcx
	shlq	$3, %rcx
	addq	(%rax), %rcx
	subq	%r10, %rdx
	movq	16(%rdi), %rdi
	testq	%rsi, %rsi
	jne	L(41_32)
	jmp	L(41_35)
L(41_15):
	xorl	%ebx, %ebx
	movq	%rcx, %r14
	movq	24(%rdi), %r9
	cmpq	$0, 48(%rdi)
	jne	L(41_8)
L(41_16):
	xorl	%r8d, %r8d
	movb	$1, %al
	movq	%r9, %rdx
	orq	%rbx, %rdx
	je	L(41_94)
L(41_17):
	movq	16(%rdi), %r11
	cmpq	$14, %r8
	movl	$14, %r10d
	cmovbq	%r8, %r10
	testq	%rbx, %rbx
	je	L(41_51)
	addq	$24, %r14
	movb	$1, %bpl
	xorl	%edx, %edx
	xorl	%edi, %edi
	xorl	%esi, %esi
	jmp	L(41_20)
	.p2align	4
L(41_19):
	addq	$-2, %rsi
	cmpq	$5, %rsi
	setb	%sil
	movl	%edx, %edi
	andb	%sil, %dil
	movb	$1, %dl
	xorl	%esi, %esi
	addq	$40, %r14
	decq	%rbx
	je	L(41_26)
L(41_20):
	movq	(%r14), %r15
	testb	$1, %bpl
	je	L(41_24)
	movl	%r15d, %r12d
	andl	$3, %r12d
	jne	L(41_24)
	movb	$1, %bpl
	cmpb	$1, %dil
	jne	L(41_19)
	leaq	-7(%rsi), %rdi
	cmpq	$-5, %rdi
	setb	%bpl
	jmp	L(41_19)
	.p2align	4
L(41_24):
	testb	$3, %r15b
	je	L(41_19)
	incq	%rsi
	addq	$40, %r14
	decq	%rbx
	jne	L(41_20)
L(41_26):
	testb	$1, %bpl
	jne	L(41_52)
	jmp	L(41_93)
L(41_28):
	movq	%rcx, %r9
	movq	24(%rdi), %rsi
	testq	%rax, %rax
	jne	L(41_29)
L(41_31):
	xorl	%edx, %edx
	movq	16(%rdi), %rdi
	testq	%rsi, %rsi
	je	L(41_35)
L(41_32):
	leaq	24(%rdi), %rax
	movq	%rsi, %r10
	.p2align	4
L(41_33):
	testb	$3, (%rax)
	je	L(41_39)
	addq	$40, %rax
	decq	%r10
	jne	L(41_33)
L(41_35):
	movb	$1, %al
	testq	%rdx, %rdx
	je	L(41_94)
	leaq	24(%rcx), %r10
	movq	%rdx, %r11
	.p2align	4
L(41_37):
	testb	$3, (%r10)
	je	L(41_39)
	addq	$40, %r10
	decq	%r11
	jne	L(41_37)
	jmp	L(41_94)
L(41_39):
	xorl	%r11d, %r11d
	movq	%r8, %rax
	subq	$14, %rax
	cmovbq	%r11, %rax
	leaq	(%r8,%r8,4), %r10
	subq	%rax, %r8
	leaq	(%r9,%r10,8), %rbx
	addq	$24, %rbx
	xorl	%r9d, %r9d
	.p2align	4
L(41_40):
	movq	%r11, %rax
	movq	%rbx, %r10
	cmpq	%r11, %r8
	je	L(41_42)
	leaq	-40(%r10), %rbx
	testb	$3, -40(%r10)
	sete	%r11b
	movl	%r11d, %ebp
	andb	%r9b, %bpl
	orb	%r11b, %r9b
	leaq	1(%rax), %r11
	cmpb	$1, %bpl
	jne	L(41_40)
L(41_42):
	testq	%rax, %rax
	je	L(41_71)
	movb	$1, %r11b
	xorl	%r9d, %r9d
	xorl	%r8d, %r8d
	jmp	L(41_45)
	.p2align	4
L(41_44):
	addq	$-2, %r8
	cmpq	$5, %r8
	setb	%r9b
	xorl	%r8d, %r8d
	addq	$40, %r10
	decq	%rax
	je	L(41_72)
L(41_45):
	movq	(%r10), %rbx
	testb	$1, %r11b
	je	L(41_49)
	movl	%ebx, %ebp
	andl	$3, %ebp
	jne	L(41_49)
	movb	$1, %r11b
	cmpb	$1, %r9b
	jne	L(41_44)
	leaq	-7(%r8), %r9
	cmpq	$-5, %r9
	setb	%r11b
	jmp	L(41_44)
	.p2align	4
L(41_49):
	testb	$3, %bl
	je	L(41_44)
	incq	%r8
	addq	$40, %r10
	decq	%rax
	jne	L(41_45)
	jmp	L(41_72)
L(41_30):
	movq	32(%rdx), %r9
	movq	40(%rdx), %r8
	movq	24(%rdi), %rsi
	testq	%rax, %rax
	jne	L(41_29)
	jmp	L(41_31)
L(41_51):
	xorl	%esi, %esi
	xorl	%edi, %edi
	xorl	%edx, %edx
L(41_52):
	testq	%r9, %r9
	je	L(41_62)
	addq	$24, %r11
	movb	$1, %bl
	jmp	L(41_55)
	.p2align	4
L(41_54):
	addq	$-2, %rsi
	cmpq	$5, %rsi
	setb	%sil
	movl	%edx, %edi
	andb	%sil, %dil
	movb	$1, %dl
	xorl	%esi, %esi
	addq	$40, %r11
	decq	%r9
	je	L(41_61)
L(41_55):
	movq	(%r11), %r14
	testb	$1, %bl
	je	L(41_59)
	movl	%r14d, %ebp
	andl	$3, %ebp
	jne	L(41_59)
	movb	$1, %bl
	cmpb	$1, %dil
	jne	L(41_54)
	leaq	-7(%rsi), %rdi
	cmpq	$-5, %rdi
	setb	%bl
	jmp	L(41_54)
	.p2align	4
L(41_59):
	testb	$3, %r14b
	je	L(41_54)
	incq	%rsi
	addq	$40, %r11
	decq	%r9
	jne	L(41_55)
L(41_61):
	testb	$1, %bl
	je	L(41_93)
L(41_62):
	testq	%r8, %r8
	je	L(41_94)
	shlq	$3, %r10
	leaq	(%r10,%r10,4), %r8
	movb	$1, %al
	xorl	%r9d, %r9d
	jmp	L(41_65)
	.p2align	4
L(41_64):
	addq	$-2, %rsi
	cmpq	$5, %rsi
	setb	%sil
	movl	%edx, %edi
	andb	%sil, %dil
	movb	$1, %dl
	xorl	%esi, %esi
	addq	$40, %r9
	cmpq	%r9, %r8
	je	L(41_94)
L(41_65):
	movq	24(%rcx,%r9), %r10
	testb	$1, %al
	je	L(41_69)
	movl	%r10d, %r11d
	andl	$3, %r11d
	jne	L(41_69)
	movb	$1, %al
	cmpb	$1, %dil
	jne	L(41_64)
	leaq	-7(%rsi), %rax
	cmpq	$-5, %rax
	setb	%al
	jmp	L(41_64)
	.p2align	4
L(41_69):
	testb	$3, %r10b
	je	L(41_64)
	incq	%rsi
	addq	$40, %r9
	cmpq	%r9, %r8
	jne	L(41_65)
	jmp	L(41_94)
L(41_71):
	xorl	%r9d, %r9d
	xorl	%r8d, %r8d
L(41_72):
	testq	%rsi, %rsi
	je	L(41_82)
	addq	$24, %rdi
	movb	$1, %al
	jmp	L(41_75)
	.p2align	4
L(41_74):
	addq	$-2, %r8
	cmpq	$5, %r8
	setb	%r9b
	xorl	%r8d, %r8d
	addq	$40, %rdi
	decq	%rsi
	je	L(41_81)
L(41_75):
	movq	(%rdi), %r10
	testb	$1, %al
	je	L(41_79)
	movl	%r10d, %r11d
	andl	$3, %r11d
	jne	L(41_79)
	movb	$1, %al
	cmpb	$1, %r9b
	jne	L(41_74)
	leaq	-7(%r8), %rax
	cmpq	$-5, %rax
	setb	%al
	jmp	L(41_74)
	.p2align	4
L(41_79):
	testb	$3, %r10b
	je	L(41_74)
	incq	%r8
	addq	$40, %rdi
	decq	%rsi
	jne	L(41_75)
L(41_81):
	testb	$1, %al
	je	L(41_93)
L(41_82):
	testq	%rdx, %rdx
	je	L(41_92)
	addq	$24, %rcx
	movb	$1, %al
	jmp	L(41_85)
L(41_93):
	xorl	%eax, %eax
L(41_94):
	andb	$1, %al
	popq	%rbx
	.cfi_def_cfa_offset 40
	popq	%r12
	.cfi_def_cfa_offset 32
	popq	%r14
	.cfi_def_cfa_offset 24
	popq	%r15
	.cfi_def_cfa_offset 16
	popq	%rbp
	.cfi_def_cfa_offset 8
	retq
	.p2align	4
L(41_84):
	.cfi_def_cfa_offset 48
	addq	$-2, %r8
	cmpq	$5, %r8
	setb	%r9b
	xorl	%r8d, %r8d
	addq	$40, %rcx
	decq	%rdx
	je	L(41_94)
L(41_85):
	movq	(%rcx), %rsi
	testb	$1, %al
	je	L(41_89)
	movl	%esi, %edi
	andl	$3, %edi
	jne	L(41_89)
	movb	$1, %al
	cmpb	$1, %r9b
	jne	L(41_84)
	leaq	-7(%r8), %rax
	cmpq	$-5, %rax
	setb	%al
	jmp	L(41_84)
	.p2align	4
L(41_89):
	testb	$3, %sil
	je	L(41_84)
	incq	%r8
	addq	$40, %rcx
	decq	%rdx
	jne	L(41_85)
	jmp	L(41_94)
L(41_92):
	movb	$1, %al
	jmp	L(41_94)
	SIZE("subtree_levels::in_sight::InSight::only_extends::<#024afdc31600bcbd>")
	.cfi_endproc

CODE(".text.subtree_levels::in_place::extend_inner::<#024afdc31600bcbd>")
	.p2align	4
	TYPE("subtree_levels::in_place::extend_inner::<#024afdc31600bcbd>", function)
"subtree_levels::in_place::extend_inner::<#024afdc31600bcbd>":
	.cfi_startproc
	pushq	%r15
	.cfi_def_cfa_offset 16
	pushq	%r14
	.cfi_def_cfa_offset 24
	pushq	%r12
	.cfi_def_cfa_offset 32
	pushq	%rbx
	.cfi_def_cfa_offset 40
	pushq	%rax
	.cfi_def_cfa_offset 48
	.cfi_offset %rbx, -40
	.cfi_offset %r12, -32
	.cfi_offset %r14, -24
	.cfi_offset %r15, -16
	imulq	$56, %rsi, %rbx
	incq	%rsi
	addq	(%rdi), %rbx
	cmpq	8(%rdi), %rsi
	jne	L(42_15)
	movq	8(%rbx), %rax
	movq	16(%rbx), %r14
	movq	%r14, %rsi
	subq	%rax, %rsi
	cmpq	%rsi, %rcx
	ja	L(42_2)
L(42_4):
	leaq	8(%rbx), %rsi
	leaq	(%rax,%rcx), %r15
	movq	(%rbx), %r12
	xorps	%xmm0, %xmm0
	movups	%xmm0, (%rsi)
	shlq	$3, %rax
	leaq	(%rax,%rax,4), %rsi
	leaq	(%r12,%rsi), %rdi
	leaq	(,%rcx,8), %rax
	leaq	(%rax,%rax,4), %rax
	movq	%rdi, %r8
	subq	%rdx, %r8
	cmpq	%rax, %r8
	jae	L(42_8)
	testq	%rcx, %rcx
	je	L(42_14)
	movl	%ecx, %eax
	andl	$7, %eax
	cmpq	$8, %rcx
	jae	L(42_9)
	xorl	%r8d, %r8d
	jmp	L(42_12)
L(42_15):
	movq	40(%rbx), %rax
	movq	48(%rbx), %r14
	movq	%r14, %rsi
	subq	%rax, %rsi
	cmpq	%rsi, %rcx
	ja	L(42_16)
L(42_18):
	leaq	40(%rbx), %rsi
	leaq	(%rax,%rcx), %r15
	movq	32(%rbx), %r12
	xorps	%xmm0, %xmm0
	movups	%xmm0, (%rsi)
	shlq	$3, %rax
	leaq	(%rax,%rax,4), %rsi
	leaq	(%r12,%rsi), %rdi
	leaq	(,%rcx,8), %rax
	leaq	(%rax,%rax,4), %rax
	movq	%rdi, %r8
	subq	%rdx, %r8
	cmpq	%rax, %r8
	jae	L(42_22)
	testq	%rcx, %rcx
	je	L(42_28)
	movl	%ecx, %eax
	andl	$7, %eax
	cmpq	$8, %rcx
	jae	L(42_23)
	xorl	%r8d, %r8d
	jmp	L(42_26)
L(42_8):
	movq	%rdx, %rsi
	movq	%rax, %rdx
	callq	PLT(memmove)
	jmp	L(42_14)
L(42_22):
	movq	%rdx, %rsi
	movq	%rax, %rdx
	callq	PLT(memmove)
	jmp	L(42_28)
L(42_9):
	andq	$-8, %rcx
	movl	$280, %r9d
	xorl	%r8d, %r8d
	.p2align	4
L(42_10):
	movups	-280(%rdx,%r9), %xmm0
	movups	-264(%rdx,%r9), %xmm1
	movq	-248(%rdx,%r9), %r10
	movq	%r10, -248(%rdi,%r9)
	movups	%xmm1, -264(%rdi,%r9)
	movups	%xmm0, -280(%rdi,%r9)
	movups	-240(%rdx,%r9), %xmm0
	movups	-224(%rdx,%r9), %xmm1
	movq	-208(%rdx,%r9), %r10
	movq	%r10, -208(%rdi,%r9)
	movups	%xmm1, -224(%rdi,%r9)
	movups	%xmm0, -240(%rdi,%r9)
	movups	-200(%rdx,%r9), %xmm0
	movups	-184(%rdx,%r9), %xmm1
	movq	-168(%rdx,%r9), %r10
	movq	%r10, -168(%rdi,%r9)
	movups	%xmm1, -184(%rdi,%r9)
	movups	%xmm0, -200(%rdi,%r9)
	movups	-160(%rdx,%r9), %xmm0
	movups	-144(%rdx,%r9), %xmm1
	movq	-128(%rdx,%r9), %r10
	movq	%r10, -128(%rdi,%r9)
	movups	%xmm1, -144(%rdi,%r9)
	movups	%xmm0, -160(%rdi,%r9)
	movups	-120(%rdx,%r9), %xmm0
	movups	-104(%rdx,%r9), %xmm1
	movq	-88(%rdx,%r9), %r10
	movq	%r10, -88(%rdi,%r9)
	movups	%xmm1, -104(%rdi,%r9)
	movups	%xmm0, -120(%rdi,%r9)
	movups	-80(%rdx,%r9), %xmm0
	movups	-64(%rdx,%r9), %xmm1
	movq	-48(%rdx,%r9), %r10
	movq	%r10, -48(%rdi,%r9)
	movups	%xmm1, -64(%rdi,%r9)
	movups	%xmm0, -80(%rdi,%r9)
	movups	-40(%rdx,%r9), %xmm0
	movups	-24(%rdx,%r9), %xmm1
	movq	-8(%rdx,%r9), %r10
	movq	%r10, -8(%rdi,%r9)
	movups	%xmm1, -24(%rdi,%r9)
	movups	%xmm0, -40(%rdi,%r9)
	movups	(%rdx,%r9), %xmm0
	movups	16(%rdx,%r9), %xmm1
	movq	32(%rdx,%r9), %r10
	movq	%r10, 32(%rdi,%r9)
	movups	%xmm1, 16(%rdi,%r9)
	movups	%xmm0, (%rdi,%r9)
	addq	$8, %r8
	addq	$320, %r9
	cmpq	%r8, %rcx
	jne	L(42_10)
	testq	%rax, %rax
	je	L(42_14)
L(42_12):
	shlq	$3, %r8
	leaq	(%r8,%r8,4), %rcx
	addq	%rcx, %rdx
	addq	%r12, %rcx
	addq	%rsi, %rcx
	shll	$3, %eax
	leaq	(%rax,%rax,4), %rax
	xorl	%esi, %esi
	.p2align	4
L(42_13):
	movups	(%rdx,%rsi), %xmm0
	movups	16(%rdx,%rsi), %xmm1
	movq	32(%rdx,%rsi), %rdi
	movq	%rdi, 32(%rcx,%rsi)
	movups	%xmm1, 16(%rcx,%rsi)
	movups	%xmm0, (%rcx,%rsi)
	addq	$40, %rsi
	cmpq	%rsi, %rax
	jne	L(42_13)
L(42_14):
	movq	%r12, (%rbx)
	movq	%r15, 8(%rbx)
	movq	%r14, 16(%rbx)
	jmp	L(42_29)
L(42_23):
	andq	$-8, %rcx
	movl	$280, %r9d
	xorl	%r8d, %r8d
	.p2align	4
L(42_24):
	movups	-280(%rdx,%r9), %xmm0
	movups	-264(%rdx,%r9), %xmm1
	movq	-248(%rdx,%r9), %r10
	movq	%r10, -248(%rdi,%r9)
	movups	%xmm1, -264(%rdi,%r9)
	movups	%xmm0, -280(%rdi,%r9)
	movups	-240(%rdx,%r9), %xmm0
	movups	-224(%rdx,%r9), %xmm1
	movq	-208(%rdx,%r9), %r10
	movq	%r10, -208(%rdi,%r9)
	movups	%xmm1, -224(%rdi,%r9)
	movups	%xmm0, -240(%rdi,%r9)
	movups	-200(%rdx,%r9), %xmm0
	movups	-184(%rdx,%r9), %xmm1
	movq	-168(%rdx,%r9), %r10
	movq	%r10, -168(%rdi,%r9)
	movups	%xmm1, -184(%rdi,%r9)
	movups	%xmm0, -200(%rdi,%r9)
	movups	-160(%rdx,%r9), %xmm0
	movups	-144(%rdx,%r9), %xmm1
	movq	-128(%rdx,%r9), %r10
	movq	%r10, -128(%rdi,%r9)
	movups	%xmm1, -144(%rdi,%r9)
	movups	%xmm0, -160(%rdi,%r9)
	movups	-120(%rdx,%r9), %xmm0
	movups	-104(%rdx,%r9), %xmm1
	movq	-88(%rdx,%r9), %r10
	movq	%r10, -88(%rdi,%r9)
	movups	%xmm1, -104(%rdi,%r9)
	movups	%xmm0, -120(%rdi,%r9)
	movups	-80(%rdx,%r9), %xmm0
	movups	-64(%rdx,%r9), %xmm1
	movq	-48(%rdx,%r9), %r10
	movq	%r10, -48(%rdi,%r9)
	movups	%xmm1, -64(%rdi,%r9)
	movups	%xmm0, -80(%rdi,%r9)
	movups	-40(%rdx,%r9), %xmm0
	movups	-24(%rdx,%r9), %xmm1
	movq	-8(%rdx,%r9), %r10
	movq	%r10, -8(%rdi,%r9)
	movups	%xmm1, -24(%rdi,%r9)
	movups	%xmm0, -40(%rdi,%r9)
	movups	(%rdx,%r9), %xmm0
	movups	16(%rdx,%r9), %xmm1
	movq	32(%rdx,%r9), %r10
	movq	%r10, 32(%rdi,%r9)
	movups	%xmm1, 16(%rdi,%r9)
	movups	%xmm0, (%rdi,%r9)
	addq	$8, %r8
	addq	$320, %r9
	cmpq	%r8, %rcx
	jne	L(42_24)
	testq	%rax, %rax
	je	L(42_28)
L(42_26):
	shlq	$3, %r8
	leaq	(%r8,%r8,4), %rcx
	addq	%rcx, %rdx
	addq	%r12, %rcx
	addq	%rsi, %rcx
	shll	$3, %eax
	leaq	(%rax,%rax,4), %rax
	xorl	%esi, %esi
	.p2align	4
L(42_27):
	movups	(%rdx,%rsi), %xmm0
	movups	16(%rdx,%rsi), %xmm1
	movq	32(%rdx,%rsi), %rdi
	movq	%rdi, 32(%rcx,%rsi)
	movups	%xmm1, 16(%rcx,%rsi)
	movups	%xmm0, (%rcx,%rsi)
	addq	$40, %rsi
	cmpq	%rsi, %rax
	jne	L(42_27)
L(42_28):
	movq	%r12, 32(%rbx)
	movq	%r15, 40(%rbx)
	movq	%r14, 48(%rbx)
L(42_29):
	xorl	%eax, %eax
L(42_30):
	addq	$8, %rsp
	.cfi_def_cfa_offset 40
	popq	%rbx
	.cfi_def_cfa_offset 32
	popq	%r12
	.cfi_def_cfa_offset 24
	popq	%r14
	.cfi_def_cfa_offset 16
	popq	%r15
	.cfi_def_cfa_offset 8
	retq
L(42_2):
	.cfi_def_cfa_offset 48
	movq	%rdx, %r15
	movq	%rbx, %rdi
	movq	%rcx, %r12
	movq	%rcx, %rsi
	callq	"std_alloc::vec::Vec::grow_amortized::<#1ed62de40e111fb4>"
	movl	%eax, %ecx
	movb	$1, %al
	testb	%cl, %cl
	je	L(42_30)
	movq	8(%rbx), %rax
	movq	16(%rbx), %r14
	movq	%r15, %rdx
	movq	%r12, %rcx
	jmp	L(42_4)
L(42_16):
	movq	%rdx, %r15
	leaq	32(%rbx), %rdi
	movq	%rcx, %r12
	movq	%rcx, %rsi
	callq	"std_alloc::vec::Vec::grow_amortized::<#1ed62de40e111fb4>"
	movl	%eax, %ecx
	movb	$1, %al
	testb	%cl, %cl
	je	L(42_30)
	movq	40(%rbx), %rax
	movq	48(%rbx), %r14
	movq	%r15, %rdx
	movq	%r12, %rcx
	jmp	L(42_18)
	SIZE("subtree_levels::in_place::extend_inner::<#024afdc31600bcbd>")
	.cfi_endproc

CODE(".text.subtree_levels::collapse::collapse_middle::<#4baefd862f873d89>")
	.p2align	4
	TYPE("subtree_levels::collapse::collapse_middle::<#4baefd862f873d89>", function)
"subtree_levels::collapse::collapse_middle::<#4baefd862f873d89>":
	.cfi_startproc
	pushq	%rbp
	.cfi_def_cfa_offset 16
	pushq	%r15
	.cfi_def_cfa_offset 24
	pushq	%r14
	.cfi_def_cfa_offset 32
	pushq	%r13
	.cfi_def_cfa_offset 40
	pushq	%r12
	.cfi_def_cfa_offset 48
	pushq	%rbx
	.cfi_def_cfa_offset 56
	subq	$232, %rsp
	.cfi_def_cfa_offset 288
	.cfi_offset %rbx, -56
	.cfi_offset %r12, -48
	.cfi_offset %r13, -40
	.cfi_offset %r14, -32
	.cfi_offset %r15, -24
	.cfi_offset %rbp, -16
	movq	%rcx, 64(%rsp)
	movq	%rdi, 8(%rsp)
	movabsq	$230584300921369396, %r8
	movq	(%rsi), %rax
	movq	%rax, 24(%rsp)
	movq	8(%rsi), %r12
	movq	16(%rsi), %rax
	movq	%rax, 16(%rsp)
	movq	(%rdx), %r13
	movq	8(%rdx), %r15
	movq	16(%rdx), %rax
	movq	%rax, 56(%rsp)
	movq	24(%rdx), %rax
	movq	%rax, 72(%rsp)
	movq	32(%rdx), %rbx
	movq	40(%rdx), %r9
	xorps	%xmm0, %xmm0
	movaps	%xmm0, 96(%rsp)
	movaps	%xmm0, 80(%rsp)
	movaps	%xmm0, 112(%rsp)
	movups	%xmm0, 127(%rsp)
	movq	%rsp, %r14
	movq	%r14, %rbp
	testq	%r15, %r15
	je	L(43_10)
	cmpq	%r8, %r15
	jae	L(43_25)
	leaq	(,%r15,8), %rax
	leaq	(%rax,%rax,4), %rdi
	movl	$8, %esi
	movq	%r9, %rbp
	callq	PLT(yurewha_heap_alloc)
	movabsq	$230584300921369396, %r8
	testb	$1, %al
	je	L(43_25)
	movq	%rbp, %r9
	movq	%rdx, %rbp
	movl	%r15d, %eax
	andl	$3, %eax
	cmpq	$4, %r15
	jae	L(43_5)
	xorl	%ecx, %ecx
	jmp	L(43_8)
L(43_5):
	movabsq	$288230376151711740, %rdx
	andq	%r15, %rdx
	movl	$152, %esi
	xorl	%ecx, %ecx
	.p2align	4
L(43_6):
	movq	-120(%r13,%rsi), %rdi
	movups	-152(%r13,%rsi), %xmm0
	movups	-136(%r13,%rsi), %xmm1
	movups	%xmm1, -136(%rbp,%rsi)
	movups	%xmm0, -152(%rbp,%rsi)
	movq	%rdi, -120(%rbp,%rsi)
	movq	-80(%r13,%rsi), %rdi
	movups	-112(%r13,%rsi), %xmm0
	movups	-96(%r13,%rsi), %xmm1
	movups	%xmm1, -96(%rbp,%rsi)
	movups	%xmm0, -112(%rbp,%rsi)
	movq	%rdi, -80(%rbp,%rsi)
	movq	-40(%r13,%rsi), %rdi
	movups	-72(%r13,%rsi), %xmm0
	movups	-56(%r13,%rsi), %xmm1
	movups	%xmm1, -56(%rbp,%rsi)
	movups	%xmm0, -72(%rbp,%rsi)
	movq	%rdi, -40(%rbp,%rsi)
	movq	(%r13,%rsi), %rdi
	movups	-32(%r13,%rsi), %xmm0
	movups	-16(%r13,%rsi), %xmm1
	movups	%xmm1, -16(%rbp,%rsi)
	movups	%xmm0, -32(%rbp,%rsi)
	movq	%rdi, (%rbp,%rsi)
	addq	$4, %rcx
	addq	$160, %rsi
	cmpq	%rcx, %rdx
	jne	L(43_6)
	testq	%rax, %rax
	je	L(43_10)
L(43_8):
	leaq	(%rcx,%rcx,4), %rdx
	leaq	32(,%rdx,8), %rcx
	addq	%rbp, %rcx
	leaq	32(,%rdx,8), %rdx
	addq	%r13, %rdx
	shll	$3, %eax
	leaq	(%rax,%rax,4), %rax
	xorl	%esi, %esi
	.p2align	4
L(43_9):
	movq	(%rdx,%rsi), %rdi
	movups	-32(%rdx,%rsi), %xmm0
	movups	-16(%rdx,%rsi), %xmm1
	movups	%xmm1, -16(%rcx,%rsi)
	movups	%xmm0, -32(%rcx,%rsi)
	movq	%rdi, (%rcx,%rsi)
	addq	$40, %rsi
	cmpq	%rsi, %rax
	jne	L(43_9)
L(43_10):
	testq	%r9, %r9
	je	L(43_20)
	cmpq	%r8, %r9
	jae	L(43_23)
	leaq	(,%r9,8), %rax
	leaq	(%rax,%rax,4), %rdi
	movl	$8, %esi
	movq	%r8, %r14
	movq	%r9, %r13
	callq	PLT(yurewha_heap_alloc)
	testb	$1, %al
	je	L(43_23)
	movq	%r13, %r9
	movq	%r14, %r8
	movq	%rdx, %r14
	movl	%r9d, %eax
	andl	$3, %eax
	cmpq	$4, %r13
	jae	L(43_15)
	xorl	%ecx, %ecx
	jmp	L(43_18)
L(43_23):
	testq	%r15, %r15
	je	L(43_25)
	movq	%rbp, %rdi
	callq	PLT(yurewha_heap_dealloc)
L(43_25):
	testq	%r12, %r12
	movq	24(%rsp), %r13
	je	L(43_32)
	leaq	48(%r13), %rbx
	jmp	L(43_27)
	.p2align	4
L(43_31):
	addq	$56, %rbx
	decq	%r12
	je	L(43_32)
L(43_27):
	movq	-16(%rbx), %r14
	movq	(%rbx), %r15
	cmpq	$0, -32(%rbx)
	je	L(43_29)
	movq	-48(%rbx), %rdi
	callq	PLT(yurewha_heap_dealloc)
L(43_29):
	testq	%r15, %r15
	je	L(43_31)
	movq	%r14, %rdi
	callq	PLT(yurewha_heap_dealloc)
	jmp	L(43_31)
L(43_32):
	cmpq	$0, 16(%rsp)
	je	L(43_35)
	movq	%r13, %rdi
L(43_34):
	callq	PLT(yurewha_heap_dealloc)
	jmp	L(43_35)
L(43_15):
	movabsq	$288230376151711740, %rdx
	andq	%r9, %rdx
	movl	$152, %esi
	xorl	%ecx, %ecx
	.p2align	4
L(43_16):
	movq	-120(%rbx,%rsi), %rdi
	movups	-152(%rbx,%rsi), %xmm0
	movups	-136(%rbx,%rsi), %xmm1
	movups	%xmm1, -136(%r14,%rsi)
	movups	%xmm0, -152(%r14,%rsi)
	movq	%rdi, -120(%r14,%rsi)
	movq	-80(%rbx,%rsi), %rdi
	movups	-112(%rbx,%rsi), %xmm0
	movups	-96(%rbx,%rsi), %xmm1
	movups	%xmm1, -96(%r14,%rsi)
	movups	%xmm0, -112(%r14,%rsi)
	movq	%rdi, -80(%r14,%rsi)
	movq	-40(%rbx,%rsi), %rdi
	movups	-72(%rbx,%rsi), %xmm0
	movups	-56(%rbx,%rsi), %xmm1
	movups	%xmm1, -56(%r14,%rsi)
	movups	%xmm0, -72(%r14,%rsi)
	movq	%rdi, -40(%r14,%rsi)
	movq	(%rbx,%rsi), %rdi
	movups	-32(%rbx,%rsi), %xmm0
	movups	-16(%rbx,%rsi), %xmm1
	movups	%xmm1, -16(%r14,%rsi)
	movups	%xmm0, -32(%r14,%rsi)
	movq	%rdi, (%r14,%rsi)
	addq	$4, %rcx
	addq	$160, %rsi
	cmpq	%rcx, %rdx
	jne	L(43_16)
	testq	%rax, %rax
	je	L(43_20)
L(43_18):
	leaq	(%rcx,%rcx,4), %rdx
	leaq	(%r14,%rdx,8), %rcx
	addq	$32, %rcx
	leaq	(%rbx,%rdx,8), %rdx
	addq	$32, %rdx
	shll	$3, %eax
	leaq	(%rax,%rax,4), %rax
	xorl	%esi, %esi
	.p2align	4
L(43_19):
	movq	(%rdx,%rsi), %rdi
	movups	-32(%rdx,%rsi), %xmm0
	movups	-16(%rdx,%rsi), %xmm1
	movups	%xmm1, -16(%rcx,%rsi)
	movups	%xmm0, -32(%rcx,%rsi)
	movq	%rdi, (%rcx,%rsi)
	addq	$40, %rsi
	cmpq	%rsi, %rax
	jne	L(43_19)
L(43_20):
	movq	%r8, %rbx
	movq	24(%rsp), %rax
	movq	%rax, 152(%rsp)
	movq	%r12, 160(%rsp)
	movq	16(%rsp), %rax
	movq	%rax, 168(%rsp)
	movq	%rbp, 176(%rsp)
	movq	%r15, 184(%rsp)
	movq	%r15, 192(%rsp)
	movq	$0, 200(%rsp)
	movq	%r14, 208(%rsp)
	movq	%r9, 216(%rsp)
	movq	%r9, 224(%rsp)
	leaq	80(%rsp), %rdi
	leaq	152(%rsp), %rsi
	leaq	176(%rsp), %rdx
	callq	"subtree_levels::levels::pushed::<#024afdc31600bcbd>"
	cmpb	$0, 80(%rsp)
	je	L(43_21)
L(43_35):
	movq	8(%rsp), %rax
	movb	$1, (%rax)
	xorps	%xmm0, %xmm0
	movups	%xmm0, 8(%rax)
	movups	%xmm0, 24(%rax)
	movups	%xmm0, 40(%rax)
L(43_36):
	addq	$232, %rsp
	.cfi_def_cfa_offset 56
	popq	%rbx
	.cfi_def_cfa_offset 48
	popq	%r12
	.cfi_def_cfa_offset 40
	popq	%r13
	.cfi_def_cfa_offset 32
	popq	%r14
	.cfi_def_cfa_offset 24
	popq	%r15
	.cfi_def_cfa_offset 16
	popq	%rbp
	.cfi_def_cfa_offset 8
	retq
L(43_21):
	.cfi_def_cfa_offset 288
	movq	88(%rsp), %r14
	movq	96(%rsp), %r12
	movq	104(%rsp), %rbp
	movabsq	$-6148914691236517205, %rcx
	movq	72(%rsp), %r13
	movq	%r13, %rax
	mulq	%rcx
	shrq	%rdx
	movabsq	$6148914691236517205, %rcx
	xorl	%r15d, %r15d
	cmpq	%rcx, %rax
	seta	%r15b
	addq	%rdx, %r15
	je	L(43_22)
	cmpq	%rbx, %r15
	jae	L(43_42)
	leaq	(,%r15,8), %rax
	leaq	(%rax,%rax,4), %rdi
	movl	$8, %esi
	callq	PLT(yurewha_heap_alloc)
	testb	$1, %al
	jne	L(43_39)
	jmp	L(43_42)
L(43_22):
	movq	%rsp, %rdx
L(43_39):
	movq	%rdx, 32(%rsp)
	movq	$0, 40(%rsp)
	movq	%r15, 48(%rsp)
	leaq	32(%rsp), %rdi
	movq	56(%rsp), %rsi
	movq	%r13, %rdx
	movq	64(%rsp), %rcx
	callq	"xet_roots::aggregated_hashes::push_parents::<#135fa06c802d8a86>"
	testb	%al, %al
	je	L(43_51)
	cmpq	$0, 48(%rsp)
	je	L(43_42)
	movq	32(%rsp), %rdi
	callq	PLT(yurewha_heap_dealloc)
L(43_42):
	movq	%rbp, %rbx
	testq	%r12, %r12
	je	L(43_49)
	leaq	48(%r14), %r13
	jmp	L(43_44)
	.p2align	4
L(43_48):
	addq	$56, %r13
	decq	%r12
	je	L(43_49)
L(43_44):
	movq	-16(%r13), %r15
	movq	(%r13), %rbp
	cmpq	$0, -32(%r13)
	je	L(43_46)
	movq	-48(%r13), %rdi
	callq	PLT(yurewha_heap_dealloc)
L(43_46):
	testq	%rbp, %rbp
	je	L(43_48)
	movq	%r15, %rdi
	callq	PLT(yurewha_heap_dealloc)
	jmp	L(43_48)
L(43_49):
	testq	%rbx, %rbx
	je	L(43_35)
	movq	%r14, %rdi
	jmp	L(43_34)
L(43_51):
	movq	48(%rsp), %rax
	movq	%rax, 135(%rsp)
	movups	32(%rsp), %xmm0
	movups	%xmm0, 119(%rsp)
	movq	8(%rsp), %rcx
	movb	$0, (%rcx)
	movq	%r14, 8(%rcx)
	movq	%r12, 16(%rcx)
	movq	%rbp, 24(%rcx)
	movups	119(%rsp), %xmm0
	movups	%xmm0, 32(%rcx)
	movq	135(%rsp), %rax
	movq	%rax, 48(%rcx)
	jmp	L(43_36)
	SIZE("subtree_levels::collapse::collapse_middle::<#4baefd862f873d89>")
	.cfi_endproc

CODE(".text.subtree_levels::collapse::collapse::<#4baefd862f873d89>")
	.p2align	4
	TYPE("subtree_levels::collapse::collapse::<#4baefd862f873d89>", function)
"subtree_levels::collapse::collapse::<#4baefd862f873d89>":
	.cfi_startproc
	pushq	%rbp
	.cfi_def_cfa_offset 16
	pushq	%r15
	.cfi_def_cfa_offset 24
	pushq	%r14
	.cfi_def_cfa_offset 32
	pushq	%r13
	.cfi_def_cfa_offset 40
	pushq	%r12
	.cfi_def_cfa_offset 48
	pushq	%rbx
	.cfi_def_cfa_offset 56
	subq	$280, %rsp
	.cfi_def_cfa_offset 336
	.cfi_offset %rbx, -56
	.cfi_offset %r12, -48
	.cfi_offset %r13, -40
	.cfi_offset %r14, -32
	.cfi_offset %r15, -24
	.cfi_offset %rbp, -16
	movq	%r9, 56(%rsp)
	movq	%rdi, 24(%rsp)
	movq	(%rdx), %rbx
	movq	8(%rdx), %r13
	movq	16(%rdx), %r14
	xorps	%xmm0, %xmm0
	movaps	%xmm0, 192(%rsp)
	movaps	%xmm0, 176(%rsp)
	movaps	%xmm0, 160(%rsp)
	movq	$0, 208(%rsp)
	movaps	%xmm0, 96(%rsp)
	movaps	%xmm0, 112(%rsp)
	movaps	%xmm0, 128(%rsp)
	movq	$0, 144(%rsp)
	movaps	%xmm0, 64(%rsp)
	movaps	%xmm0, 80(%rsp)
	movups	(%rsi), %xmm0
	movaps	%xmm0, 32(%rsp)
	movq	16(%rsi), %rax
	movq	%rax, 48(%rsp)
	leaq	160(%rsp), %rdi
	movq	%rbx, %rsi
	movq	%r13, %rdx
	movl	%ecx, 16(%rsp)
	movl	%r8d, 20(%rsp)
	callq	"subtree_levels::split::find_split::<#30d82ebffd2e63ea>"
	cmpb	$1, 160(%rsp)
	jne	L(44_1)
	leaq	104(%rsp), %rbp
	jmp	L(44_3)
	.p2align	4
L(44_6):
	movzbl	16(%rsp), %ecx
	movzbl	20(%rsp), %r8d
	leaq	160(%rsp), %rdi
	movq	%r12, %rsi
	movq	%r13, %rdx
	callq	"subtree_levels::split::find_split::<#30d82ebffd2e63ea>"
	cmpb	$1, 160(%rsp)
	movq	%r15, %r14
	movq	%r12, %rbx
	jne	L(44_7)
L(44_3):
	leaq	96(%rsp), %rdi
	leaq	32(%rsp), %rsi
	leaq	168(%rsp), %rdx
	movq	56(%rsp), %rcx
	callq	"subtree_levels::collapse::collapse_middle::<#4baefd862f873d89>"
	cmpb	$0, 96(%rsp)
	jne	L(44_9)
	movq	128(%rsp), %r12
	movq	136(%rsp), %r13
	movq	144(%rsp), %r15
	movups	(%rbp), %xmm0
	movaps	%xmm0, 32(%rsp)
	movq	16(%rbp), %rax
	movq	%rax, 48(%rsp)
	testq	%r14, %r14
	je	L(44_6)
	movq	%rbx, %rdi
	callq	PLT(yurewha_heap_dealloc)
	jmp	L(44_6)
L(44_1):
	movq	%rbx, %r12
	movq	%r14, %r15
L(44_7):
	xorps	%xmm0, %xmm0
	movups	%xmm0, 264(%rsp)
	movq	%r12, 224(%rsp)
	movq	%r13, 232(%rsp)
	movq	%r15, 240(%rsp)
	movq	$0, 248(%rsp)
	leaq	8(%rsp), %rax
	movq	%rax, 256(%rsp)
	leaq	64(%rsp), %rdi
	leaq	32(%rsp), %rsi
	leaq	224(%rsp), %rdx
	callq	"subtree_levels::levels::pushed::<#024afdc31600bcbd>"
	movq	24(%rsp), %rcx
	leaq	8(%rcx), %rax
	cmpb	$0, 64(%rsp)
	je	L(44_8)
	movb	$1, (%rcx)
	xorps	%xmm0, %xmm0
	movups	%xmm0, (%rax)
	movq	$0, 16(%rax)
	jmp	L(44_13)
L(44_8):
	movb	$0, (%rcx)
	movq	88(%rsp), %rcx
	movq	%rcx, 16(%rax)
	movups	72(%rsp), %xmm0
	movups	%xmm0, (%rax)
	jmp	L(44_13)
L(44_9):
	testq	%r14, %r14
	je	L(44_11)
	movq	%rbx, %rdi
	callq	PLT(yurewha_heap_dealloc)
L(44_11):
	movq	24(%rsp), %rax
	movb	$1, (%rax)
	xorps	%xmm0, %xmm0
	movups	%xmm0, 8(%rax)
	movq	$0, 24(%rax)
L(44_13):
	addq	$280, %rsp
	.cfi_def_cfa_offset 56
	popq	%rbx
	.cfi_def_cfa_offset 48
	popq	%r12
	.cfi_def_cfa_offset 40
	popq	%r13
	.cfi_def_cfa_offset 32
	popq	%r14
	.cfi_def_cfa_offset 24
	popq	%r15
	.cfi_def_cfa_offset 16
	popq	%rbp
	.cfi_def_cfa_offset 8
	retq
	SIZE("subtree_levels::collapse::collapse::<#4baefd862f873d89>")
	.cfi_endproc

CODE(".text.upload_session::runs::Runs::put_before_next::<#ca9445b3ca2ffbf0>")
	.p2align	4
	TYPE("upload_session::runs::Runs::put_before_next::<#ca9445b3ca2ffbf0>", function)
"upload_session::runs::Runs::put_before_next::<#ca9445b3ca2ffbf0>":
	.cfi_startproc
	pushq	%rbp
	.cfi_def_cfa_offset 16
	pushq	%r15
	.cfi_def_cfa_offset 24
	pushq	%r14
	.cfi_def_cfa_offset 32
	pushq	%r13
	.cfi_def_cfa_offset 40
	pushq	%r12
	.cfi_def_cfa_offset 48
	pushq	%rbx
	.cfi_def_cfa_offset 56
	subq	$184, %rsp
	.cfi_def_cfa_offset 240
	.cfi_offset %rbx, -56
	.cfi_offset %r12, -48
	.cfi_offset %r13, -40
	.cfi_offset %r14, -32
	.cfi_offset %r15, -24
	.cfi_offset %rbp, -16
	movq	%r8, %r13
	movq	%rdx, %rbx
	movq	%rsi, %r15
	movq	%rdi, 32(%rsp)
	movq	(%rcx), %rax
	movq	8(%rcx), %rdx
	movq	%rdx, 8(%rsp)
	movq	16(%rcx), %r12
	movups	24(%rcx), %xmm0
	movq	24(%rcx), %rcx
	movq	%rcx, 24(%rsp)
	xorps	%xmm1, %xmm1
	movaps	%xmm1, 80(%rsp)
	movaps	%xmm1, 64(%rsp)
	movaps	%xmm1, 48(%rsp)
	movq	$0, 96(%rsp)
	cmpb	$1, (%rsi)
	jne	L(45_1)
	leaq	8(%r15), %rcx
	movq	8(%r15), %r11
	movzwl	2(%r11), %edx
	movl	$15, %esi
	subq	%rdx, %rsi
	xorl	%r8d, %r8d
	movq	%r11, %r10
	movq	%rbx, (%rsp)
L(45_3):
	movq	%r11, %r9
	movzwl	(%r11), %r11d
	xorl	%edi, %edi
	testq	%r11, %r11
	je	L(45_11)
	.p2align	4
L(45_4):
	movq	8(%r9,%rdi,8), %rbx
	cmpq	%rbx, %r13
	setae	%r14b
	addb	%r14b, %r14b
	cmpq	%rbx, %r13
	movzbl	%r14b, %r14d
	movl	$1, %ebx
	cmovnel	%r14d, %ebx
	cmpb	$2, %bl
	jne	L(45_5)
	incq	%rdi
	cmpq	%rdi, %r11
	jne	L(45_4)
	movq	%r11, %rdi
	jmp	L(45_10)
	.p2align	4
L(45_5):
	movzbl	%bl, %r11d
	testl	%r11d, %r11d
	jne	L(45_6)
L(45_10):
	movq	(%rsp), %rbx
L(45_11):
	cmpw	$0, 2(%r9)
	je	L(45_1)
	incq	%rsi
	movq	848(%r9,%rdi,8), %r11
	movq	%rdi, %r8
	movq	%r9, %r10
	jmp	L(45_3)
L(45_1):
	movb	$1, %al
	movl	%eax, 20(%rsp)
	jmp	L(45_24)
L(45_6):
	andl	$15, %edi
	addq	%rsi, %rdx
	cmpq	$15, %rdx
	leaq	848(%r10,%r8,8), %rdx
	cmoveq	%rcx, %rdx
	movq	(%rdx), %rcx
	movzwl	(%rcx), %edx
	cmpq	%rdx, %rdi
	jae	L(45_7)
	leaq	(%rdi,%rdi,2), %rdx
	shll	$4, %edx
	leaq	(%rcx,%rdx), %rsi
	addq	$136, %rsi
	xorps	%xmm1, %xmm1
	movaps	%xmm1, 128(%rsp)
	movaps	%xmm1, 112(%rsp)
	movq	%rax, 144(%rsp)
	movq	8(%rsp), %rax
	movq	%rax, 152(%rsp)
	movq	%r12, 160(%rsp)
	movups	%xmm0, 168(%rsp)
	leaq	112(%rsp), %rdi
	leaq	144(%rsp), %rdx
	movl	$1, %ecx
	callq	"xet_merkle::merkle_hash_subtree::subtree::MerkleHashSubtree::merge_with::<#3cf6a99334775a21>"
	cmpb	$0, 112(%rsp)
	je	L(45_14)
	movzbl	113(%rsp), %ebp
	movzbl	114(%rsp), %r14d
	testq	%r12, %r12
	je	L(45_45)
	movq	8(%rsp), %rax
	leaq	48(%rax), %rbx
	jmp	L(45_40)
	.p2align	4
L(45_44):
	addq	$56, %rbx
	decq	%r12
	je	L(45_45)
L(45_40):
	movq	-16(%rbx), %r15
	movq	(%rbx), %r13
	cmpq	$0, -32(%rbx)
	je	L(45_42)
	movq	-48(%rbx), %rdi
	callq	PLT(yurewha_heap_dealloc)
L(45_42):
	testq	%r13, %r13
	je	L(45_44)
	movq	%r15, %rdi
	callq	PLT(yurewha_heap_dealloc)
	jmp	L(45_44)
L(45_45):
	cmpq	$0, 24(%rsp)
	je	L(45_47)
	movq	8(%rsp), %rdi
	callq	PLT(yurewha_heap_dealloc)
L(45_47):
	movq	32(%rsp), %rax
	movb	$1, (%rax)
	movb	%bpl, 1(%rax)
	movb	%r14b, 2(%rax)
	jmp	L(45_48)
L(45_14):
	movq	%r15, 40(%rsp)
	testq	%r12, %r12
	je	L(45_21)
	movq	8(%rsp), %rax
	leaq	48(%rax), %rbx
	movq	%r12, %r14
	jmp	L(45_16)
	.p2align	4
L(45_20):
	addq	$56, %rbx
	decq	%r14
	je	L(45_21)
L(45_16):
	movq	-16(%rbx), %rbp
	movq	(%rbx), %r15
	cmpq	$0, -32(%rbx)
	je	L(45_18)
	movq	-48(%rbx), %rdi
	callq	PLT(yurewha_heap_dealloc)
L(45_18):
	testq	%r15, %r15
	je	L(45_20)
	movq	%rbp, %rdi
	callq	PLT(yurewha_heap_dealloc)
	jmp	L(45_20)
L(45_21):
	cmpq	$0, 24(%rsp)
	je	L(45_23)
	movq	8(%rsp), %rdi
	callq	PLT(yurewha_heap_dealloc)
L(45_23):
	movl	$0, 20(%rsp)
	movq	40(%rsp), %r15
	movq	(%rsp), %rbx
L(45_24):
	leaq	48(%rsp), %rdi
	movq	%r15, %rsi
	movq	%r13, %rdx
	callq	"std_collections::btree_map::BTreeMap::remove::<#0b8f5120abf1300c>"
	cmpb	$1, 48(%rsp)
	jne	L(45_62)
	movq	72(%rsp), %rbp
	movq	80(%rsp), %r13
	movq	88(%rsp), %r14
	cmpb	$1, (%r15)
	jne	L(45_53)
	movups	56(%rsp), %xmm1
	movups	88(%rsp), %xmm0
	movq	8(%r15), %r9
	addq	$8, %r15
	movzwl	2(%r9), %eax
	movl	$15, %ecx
	subq	%rax, %rcx
	xorl	%esi, %esi
	movq	%r9, %r8
L(45_27):
	movq	%r9, %rdi
	movzwl	(%r9), %r9d
	xorl	%edx, %edx
	testq	%r9, %r9
	je	L(45_51)
	.p2align	4
L(45_28):
	movq	8(%rdi,%rdx,8), %r10
	cmpq	%r10, %rbx
	setae	%r11b
	addb	%r11b, %r11b
	cmpq	%r10, %rbx
	movzbl	%r11b, %r11d
	movl	$1, %r10d
	cmovnel	%r11d, %r10d
	cmpb	$2, %r10b
	jne	L(45_29)
	incq	%rdx
	cmpq	%rdx, %r9
	jne	L(45_28)
	movq	%r9, %rdx
	jmp	L(45_51)
	.p2align	4
L(45_29):
	movzbl	%r10b, %r9d
	testl	%r9d, %r9d
	jne	L(45_30)
L(45_51):
	cmpw	$0, 2(%rdi)
	je	L(45_53)
	incq	%rcx
	movq	848(%rdi,%rdx,8), %r9
	movq	%rdx, %rsi
	movq	%rdi, %r8
	jmp	L(45_27)
L(45_53):
	movq	%r14, (%rsp)
	testq	%r13, %r13
	je	L(45_60)
	leaq	48(%rbp), %rbx
	jmp	L(45_55)
	.p2align	4
L(45_59):
	addq	$56, %rbx
	decq	%r13
	je	L(45_60)
L(45_55):
	movq	-16(%rbx), %r15
	movq	(%rbx), %r14
	cmpq	$0, -32(%rbx)
	je	L(45_57)
	movq	-48(%rbx), %rdi
	callq	PLT(yurewha_heap_dealloc)
L(45_57):
	testq	%r14, %r14
	je	L(45_59)
	movq	%r15, %rdi
	callq	PLT(yurewha_heap_dealloc)
	jmp	L(45_59)
L(45_30):
	andl	$15, %edx
	addq	%rcx, %rax
	cmpq	$15, %rax
	leaq	848(%r8,%rsi,8), %rax
	cmoveq	%r15, %rax
	movq	(%rax), %rax
	movzwl	(%rax), %ecx
	cmpq	%rcx, %rdx
	jae	L(45_7)
	leaq	(%rdx,%rdx,2), %rcx
	shll	$4, %ecx
	movq	144(%rax,%rcx), %rdx
	movq	152(%rax,%rcx), %r15
	movq	160(%rax,%rcx), %rsi
	movq	%rsi, (%rsp)
	movups	%xmm1, 128(%rax,%rcx)
	movq	%rbp, 144(%rax,%rcx)
	movq	%rdx, %rbp
	movq	%r13, 152(%rax,%rcx)
	movups	%xmm0, 160(%rax,%rcx)
	testq	%r15, %r15
	je	L(45_60)
	leaq	48(%rbp), %rbx
	jmp	L(45_33)
	.p2align	4
L(45_37):
	addq	$56, %rbx
	decq	%r15
	je	L(45_60)
L(45_33):
	movq	-16(%rbx), %r14
	movq	(%rbx), %r13
	cmpq	$0, -32(%rbx)
	je	L(45_35)
	movq	-48(%rbx), %rdi
	callq	PLT(yurewha_heap_dealloc)
L(45_35):
	testq	%r13, %r13
	je	L(45_37)
	movq	%r14, %rdi
	callq	PLT(yurewha_heap_dealloc)
	jmp	L(45_37)
L(45_60):
	cmpq	$0, (%rsp)
	je	L(45_62)
	movq	%rbp, %rdi
	callq	PLT(yurewha_heap_dealloc)
L(45_62):
	cmpb	$0, 20(%rsp)
	je	L(45_72)
	testq	%r12, %r12
	je	L(45_70)
	movq	8(%rsp), %rax
	leaq	48(%rax), %rbx
	jmp	L(45_65)
	.p2align	4
L(45_69):
	addq	$56, %rbx
	decq	%r12
	je	L(45_70)
L(45_65):
	movq	-16(%rbx), %r15
	movq	(%rbx), %r14
	cmpq	$0, -32(%rbx)
	je	L(45_67)
	movq	-48(%rbx), %rdi
	callq	PLT(yurewha_heap_dealloc)
L(45_67):
	testq	%r14, %r14
	je	L(45_69)
	movq	%r15, %rdi
	callq	PLT(yurewha_heap_dealloc)
	jmp	L(45_69)
L(45_70):
	cmpq	$0, 24(%rsp)
	je	L(45_72)
	movq	8(%rsp), %rdi
	callq	PLT(yurewha_heap_dealloc)
L(45_72):
	movq	32(%rsp), %rax
	movw	$0, (%rax)
	movb	$0, 2(%rax)
L(45_48):
	addq	$184, %rsp
	.cfi_def_cfa_offset 56
	popq	%rbx
	.cfi_def_cfa_offset 48
	popq	%r12
	.cfi_def_cfa_offset 40
	popq	%r13
	.cfi_def_cfa_offset 32
	popq	%r14
	.cfi_def_cfa_offset 24
	popq	%r15
	.cfi_def_cfa_offset 16
	popq	%rbp
	.cfi_def_cfa_offset 8
	retq
L(45_7):
	.cfi_def_cfa_offset 240
	ud2
	SIZE("upload_session::runs::Runs::put_before_next::<#ca9445b3ca2ffbf0>")
	.cfi_endproc

CODE(".text.std_collections::btree_map::BTreeMap::remove::<#0b8f5120abf1300c>")
	.p2align	4
	TYPE("std_collections::btree_map::BTreeMap::remove::<#0b8f5120abf1300c>", function)
"std_collections::btree_map::BTreeMap::remove::<#0b8f5120abf1300c>":
	.cfi_startproc
	pushq	%rbp
	.cfi_def_cfa_offset 16
	pushq	%r15
	.cfi_def_cfa_offset 24
	pushq	%r14
	.cfi_def_cfa_offset 32
	pushq	%r13
	.cfi_def_cfa_offset 40
	pushq	%r12
	.cfi_def_cfa_offset 48
	pushq	%rbx
	.cfi_def_cfa_offset 56
	subq	$328, %rsp
	.cfi_def_cfa_offset 384
	.cfi_offset %rbx, -56
	.cfi_offset %r12, -48
	.cfi_offset %r13, -40
	.cfi_offset %r14, -32
	.cfi_offset %r15, -24
	.cfi_offset %rbp, -16
	movq	%rdi, 24(%rsp)
	xorps	%xmm0, %xmm0
	movaps	%xmm0, 208(%rsp)
	movaps	%xmm0, 192(%rsp)
	movaps	%xmm0, 176(%rsp)
	movaps	%xmm0, 256(%rsp)
	movaps	%xmm0, 240(%rsp)
	movaps	%xmm0, 224(%rsp)
	cmpb	$1, (%rsi)
	jne	L(46_33)
	leaq	8(%rsi), %rax
	movq	%rax, 120(%rsp)
	movq	8(%rsi), %rbp
	movzwl	2(%rbp), %ecx
	movl	$15, %eax
	subq	%rcx, %rax
	movb	$1, %r10b
	xorl	%r9d, %r9d
	xorl	%r12d, %r12d
	movq	%rbp, %r13
	movq	%rax, %r8
	xorl	%edi, %edi
L(46_2):
	movq	%rbp, %r11
	movzwl	(%rbp), %ebp
	xorl	%r15d, %r15d
	testq	%rbp, %rbp
	je	L(46_17)
	.p2align	4
L(46_3):
	movq	8(%r11,%r15,8), %r14
	cmpq	%r14, %rdx
	setae	%bl
	addb	%bl, %bl
	cmpq	%r14, %rdx
	movzbl	%bl, %ebx
	movl	$1, %r14d
	cmovnel	%ebx, %r14d
	cmpb	$2, %r14b
	jne	L(46_4)
	incq	%r15
	cmpq	%r15, %rbp
	jne	L(46_3)
	movq	%rbp, %r15
	jmp	L(46_17)
	.p2align	4
L(46_4):
	movzbl	%r14b, %ebx
	testl	%ebx, %ebx
	jne	L(46_5)
L(46_17):
	cmpw	$0, 2(%r11)
	je	L(46_33)
	incq	%r8
	shlq	$4, %rdi
	addq	%r15, %rdi
	movq	848(%r11,%r15,8), %rbp
	incq	%r9
	incb	%r10b
	movq	%r15, %r12
	movq	%r11, %r13
	jmp	L(46_2)
L(46_33):
	movq	24(%rsp), %rax
	movups	%xmm0, 32(%rax)
	movups	%xmm0, 16(%rax)
	movups	%xmm0, (%rax)
	movq	$0, 48(%rax)
	jmp	L(46_34)
L(46_5):
	shlq	$4, %rdi
	addq	%r15, %rdi
	incq	%r8
	xorps	%xmm0, %xmm0
	movaps	%xmm0, 304(%rsp)
	movaps	%xmm0, 288(%rsp)
	movaps	%xmm0, 272(%rsp)
	decq	16(%rsi)
	cmpq	$16, %r8
	jne	L(46_6)
	testq	%rcx, %rcx
	leaq	848(%r13,%r12,8), %r12
	movq	120(%rsp), %r13
	cmoveq	%r13, %r12
	movq	(%r12), %rdx
	movzwl	(%rdx), %esi
	cmpq	$8, %rsi
	jb	L(46_21)
	andl	$15, %r15d
	leaq	1(%rsi), %rax
	xorl	%ecx, %ecx
	xorl	%edi, %edi
	cmpw	$0, 2(%rdx)
	cmovneq	%rax, %rcx
	setne	%dil
	shll	$4, %edi
	leaq	848(%rdx), %rax
	leaq	128(%rdx), %r8
	leaq	8(%rdx), %r9
	movq	%r9, 32(%rsp)
	movq	%rsi, 40(%rsp)
	movq	$15, 48(%rsp)
	leaq	56(%rsp), %r14
	movq	%r8, 56(%rsp)
	movq	%rsi, 64(%rsp)
	movq	$15, 72(%rsp)
	movq	%rax, 80(%rsp)
	movq	%rcx, 88(%rsp)
	movq	%rdi, 96(%rsp)
	movq	%rdx, 104(%rsp)
	movaps	%xmm0, 128(%rsp)
	movaps	%xmm0, 144(%rsp)
	movaps	%xmm0, 160(%rsp)
	leaq	32(%rsp), %rdi
	movq	%r15, %rsi
	callq	"std_alloc::vec::Vec::remove::<#0c35fd3905773d29>"
	leaq	128(%rsp), %rdi
	movq	%r14, %rsi
	movq	%r15, %rdx
	callq	"std_alloc::vec::Vec::remove::<#7f26edd6ea879dba>"
	movzwl	40(%rsp), %eax
	movq	104(%rsp), %rcx
	movw	%ax, (%rcx)
	movq	%rcx, (%r12)
	movaps	128(%rsp), %xmm0
	movaps	144(%rsp), %xmm1
	movaps	160(%rsp), %xmm2
	movaps	%xmm2, 64(%rsp)
	movaps	%xmm1, 48(%rsp)
	movaps	%xmm0, 32(%rsp)
	movq	24(%rsp), %r14
	jmp	L(46_32)
L(46_6):
	movaps	%xmm0, (%rsp)
	movq	%r8, %rcx
	subq	%rax, %rcx
	movq	24(%rsp), %r14
	movq	120(%rsp), %r15
	jbe	L(46_12)
	movl	%r9d, %edx
	notl	%edx
	testb	$3, %dl
	je	L(46_10)
	movzbl	%r10b, %edx
	andl	$3, %edx
	.p2align	4
L(46_9):
	movl	%edi, %esi
	andb	$15, %sil
	movb	%sil, -1(%rsp,%r8)
	decq	%r8
	shrq	$4, %rdi
	decq	%rdx
	jne	L(46_9)
L(46_10):
	cmpq	$3, %r9
	jb	L(46_12)
	.p2align	4
L(46_11):
	movl	%edi, %edx
	andb	$15, %dl
	movb	%dl, -1(%rsp,%r8)
	movl	%edi, %edx
	shrb	$4, %dl
	movb	%dl, -2(%rsp,%r8)
	movl	%edi, %edx
	shrl	$8, %edx
	andb	$15, %dl
	movb	%dl, -3(%rsp,%r8)
	movl	%edi, %edx
	shrl	$12, %edx
	andb	$15, %dl
	movb	%dl, -4(%rsp,%r8)
	addq	$-4, %r8
	shrq	$16, %rdi
	cmpq	%r8, %rax
	jb	L(46_11)
L(46_12):
	leaq	(%rsp,%rax), %rdx
	leaq	32(%rsp), %rdi
	movq	%r15, %rsi
	callq	"std_collections::btree::node::Node::take_at::<#1aacfcd96822f18e>"
	movq	(%r15), %rdi
	cmpw	$0, (%rdi)
	jne	L(46_31)
	cmpw	$0, 2(%rdi)
	je	L(46_31)
	movq	848(%rdi), %rbx
	callq	PLT(yurewha_heap_dealloc)
	movq	%rbx, (%r15)
	jmp	L(46_31)
L(46_21):
	movaps	%xmm0, (%rsp)
	cmpl	$15, %eax
	movq	24(%rsp), %r14
	ja	L(46_28)
	leaq	1(%rcx), %rsi
	movl	%esi, %edx
	andl	$3, %edx
	movl	$16, %r8d
	cmpw	$3, %cx
	jb	L(46_26)
	andl	$-4, %esi
	.p2align	4
L(46_24):
	movl	%edi, %r9d
	andb	$15, %r9b
	movb	%r9b, -1(%rsp,%r8)
	movl	%edi, %r9d
	shrb	$4, %r9b
	movb	%r9b, -2(%rsp,%r8)
	movl	%edi, %r9d
	shrl	$8, %r9d
	andb	$15, %r9b
	movb	%r9b, -3(%rsp,%r8)
	movl	%edi, %r9d
	shrl	$12, %r9d
	andb	$15, %r9b
	movb	%r9b, -4(%rsp,%r8)
	leaq	(%rsi,%r8), %r9
	addq	$-4, %r9
	addq	$-4, %r8
	shrq	$16, %rdi
	cmpq	$16, %r9
	jne	L(46_24)
	testq	%rdx, %rdx
	je	L(46_28)
L(46_26):
	movq	%rsp, %rsi
	addq	%r8, %rsi
	decq	%rsi
	negq	%rdx
	xorl	%r8d, %r8d
	.p2align	4
L(46_27):
	movl	%edi, %r9d
	andb	$15, %r9b
	movb	%r9b, (%rsi,%r8)
	shrq	$4, %rdi
	decq	%r8
	cmpq	%r8, %rdx
	jne	L(46_27)
L(46_28):
	leaq	(%rsp,%rax), %rdx
	incq	%rcx
	leaq	32(%rsp), %rdi
	movq	%r13, %rsi
	callq	"std_collections::btree::node::Node::take_at::<#1aacfcd96822f18e>"
	movq	(%r13), %rdi
	cmpw	$0, (%rdi)
	jne	L(46_31)
	cmpw	$0, 2(%rdi)
	je	L(46_31)
	movq	848(%rdi), %rbx
	callq	PLT(yurewha_heap_dealloc)
	movq	%rbx, (%r13)
L(46_31):
	movups	40(%rsp), %xmm0
	movups	56(%rsp), %xmm1
	movups	72(%rsp), %xmm2
	movaps	%xmm2, 160(%rsp)
	movaps	%xmm1, 144(%rsp)
	movaps	%xmm0, 128(%rsp)
	movaps	%xmm0, 32(%rsp)
	movaps	%xmm1, 48(%rsp)
	movaps	%xmm2, 64(%rsp)
L(46_32):
	movaps	32(%rsp), %xmm0
	movaps	48(%rsp), %xmm1
	movaps	64(%rsp), %xmm2
	movaps	%xmm1, 240(%rsp)
	movaps	%xmm2, 208(%rsp)
	movaps	%xmm0, 176(%rsp)
	movaps	%xmm1, 192(%rsp)
	movq	$1, (%r14)
	movaps	176(%rsp), %xmm0
	movaps	192(%rsp), %xmm1
	movaps	208(%rsp), %xmm2
	movups	%xmm0, 8(%r14)
	movups	%xmm1, 24(%r14)
	movups	%xmm2, 40(%r14)
L(46_34):
	addq	$328, %rsp
	.cfi_def_cfa_offset 56
	popq	%rbx
	.cfi_def_cfa_offset 48
	popq	%r12
	.cfi_def_cfa_offset 40
	popq	%r13
	.cfi_def_cfa_offset 32
	popq	%r14
	.cfi_def_cfa_offset 24
	popq	%r15
	.cfi_def_cfa_offset 16
	popq	%rbp
	.cfi_def_cfa_offset 8
	retq
	SIZE("std_collections::btree_map::BTreeMap::remove::<#0b8f5120abf1300c>")
	.cfi_endproc

CODE(".text.std_alloc::vec::Vec::remove::<#0c35fd3905773d29>")
	.p2align	4
	TYPE("std_alloc::vec::Vec::remove::<#0c35fd3905773d29>", function)
"std_alloc::vec::Vec::remove::<#0c35fd3905773d29>":
	.cfi_startproc
	pushq	%r15
	.cfi_def_cfa_offset 16
	pushq	%r14
	.cfi_def_cfa_offset 24
	pushq	%r12
	.cfi_def_cfa_offset 32
	pushq	%rbx
	.cfi_def_cfa_offset 40
	.cfi_offset %rbx, -40
	.cfi_offset %r12, -32
	.cfi_offset %r14, -24
	.cfi_offset %r15, -16
	movq	(%rdi), %rcx
	movq	8(%rdi), %r10
	movq	16(%rdi), %rdx
	xorps	%xmm0, %xmm0
	movups	%xmm0, 8(%rdi)
	leaq	(,%rsi,8), %r11
	movq	(%rcx,%rsi,8), %rax
	leaq	-1(%r10), %r8
	movq	%r8, %r9
	subq	%rsi, %r9
	cmpq	$-1, %rsi
	je	L(47_9)
	cmpq	$257, %r9
	jb	L(47_17)
	leaq	(%rcx,%rsi,8), %rbx
	leaq	(%rcx,%r11), %r14
	addq	$2048, %r14
	leaq	(%rcx,%r11), %r15
	addq	$56, %r15
	xorl	%r12d, %r12d
	jmp	L(47_4)
	.p2align	4
L(47_3):
	leaq	256(%r11), %rsi
	movq	%r8, %r9
	subq	%rsi, %r9
	incq	%r12
	addq	$2048, %r15
	addq	$2048, %rbx
	cmpq	$256, %r9
	jbe	L(47_18)
L(47_4):
	movq	%rsi, %r11
	cmpq	$-1, %rsi
	je	L(47_7)
	xorl	%esi, %esi
	.p2align	4
L(47_6):
	movups	-48(%r15,%rsi,8), %xmm0
	movups	-32(%r15,%rsi,8), %xmm1
	movups	-16(%r15,%rsi,8), %xmm2
	movups	(%r15,%rsi,8), %xmm3
	movups	%xmm0, -56(%r15,%rsi,8)
	movups	%xmm1, -40(%r15,%rsi,8)
	movups	%xmm2, -24(%r15,%rsi,8)
	movups	%xmm3, -8(%r15,%rsi,8)
	addq	$8, %rsi
	cmpq	$256, %rsi
	jne	L(47_6)
	jmp	L(47_3)
	.p2align	4
L(47_7):
	movq	%r12, %rsi
	shlq	$11, %rsi
	movq	(%r14,%rsi), %rsi
	movl	$2048, %r9d
	.p2align	4
L(47_8):
	movq	%rsi, -8(%rbx,%r9)
	movq	%rsi, -16(%rbx,%r9)
	movq	%rsi, -24(%rbx,%r9)
	movq	%rsi, -32(%rbx,%r9)
	addq	$-32, %r9
	jne	L(47_8)
	jmp	L(47_3)
L(47_9):
	testq	%r10, %r10
	je	L(47_36)
	xorl	%ebx, %ebx
	cmpq	$6, %r9
	jb	L(47_15)
	leaq	(,%rsi,8), %r14
	negq	%r14
	cmpq	$32, %r14
	jb	L(47_15)
	movq	%r9, %rbx
	andq	$-4, %rbx
	movq	%rbx, %r14
	negq	%r14
	leaq	-24(,%r10,8), %r15
	subq	%r11, %r15
	addq	%rcx, %r15
	leaq	(%rcx,%r10,8), %r11
	addq	$-24, %r11
	xorl	%r12d, %r12d
	.p2align	4
L(47_13):
	movups	-16(%r15,%r12,8), %xmm0
	movups	(%r15,%r12,8), %xmm1
	movups	%xmm1, (%r11,%r12,8)
	movups	%xmm0, -16(%r11,%r12,8)
	addq	$-4, %r12
	cmpq	%r12, %r14
	jne	L(47_13)
	cmpq	%rbx, %r9
	je	L(47_36)
L(47_15):
	leaq	(%rbx,%rsi), %r9
	addq	%rbx, %rsi
	incq	%rsi
	shlq	$3, %r9
	negq	%r9
	addq	%rcx, %r9
	addq	$-16, %r9
	shlq	$3, %rbx
	negq	%rbx
	leaq	(%rcx,%rbx), %r11
	addq	$-16, %r11
	.p2align	4
L(47_16):
	movq	(%r9,%r10,8), %rbx
	movq	%rbx, (%r11,%r10,8)
	decq	%r10
	cmpq	%r10, %rsi
	jne	L(47_16)
	jmp	L(47_36)
L(47_17):
	leaq	(%rcx,%r11), %r10
	cmpq	%rsi, %r8
	jne	L(47_20)
	jmp	L(47_36)
L(47_18):
	cmpq	$-1, %rsi
	je	L(47_24)
	leaq	(,%rsi,8), %r11
	leaq	(%rcx,%rsi,8), %r10
	cmpq	%rsi, %r8
	je	L(47_36)
L(47_20):
	cmpq	$8, %r9
	jb	L(47_21)
	leaq	(%r11,%rcx), %rsi
	subq	%r10, %rsi
	addq	$-8, %rsi
	cmpq	$32, %rsi
	jae	L(47_27)
L(47_21):
	xorl	%esi, %esi
L(47_30):
	movq	%r9, %r14
	movq	%rsi, %rbx
	andq	$3, %r14
	je	L(47_33)
	leaq	(%rcx,%r11), %r15
	movq	%rsi, %rbx
	.p2align	4
L(47_32):
	movq	8(%r10,%rbx,8), %r12
	movq	%r12, (%r15,%rbx,8)
	incq	%rbx
	decq	%r14
	jne	L(47_32)
L(47_33):
	subq	%r9, %rsi
	cmpq	$-4, %rsi
	ja	L(47_36)
	leaq	(%r11,%rcx), %rsi
	addq	$24, %rsi
	.p2align	4
L(47_35):
	movq	8(%r10,%rbx,8), %r11
	movq	%r11, -24(%rsi,%rbx,8)
	movq	16(%r10,%rbx,8), %r11
	movq	%r11, -16(%rsi,%rbx,8)
	movq	24(%r10,%rbx,8), %r11
	movq	%r11, -8(%rsi,%rbx,8)
	movq	32(%r10,%rbx,8), %r11
	movq	%r11, (%rsi,%rbx,8)
	addq	$4, %rbx
	cmpq	%rbx, %r9
	jne	L(47_35)
	jmp	L(47_36)
L(47_24):
	testq	%r10, %r10
	je	L(47_36)
	movq	-8(%rcx,%r10,8), %rsi
	addq	$-257, %r10
	.p2align	4
L(47_26):
	movq	%rsi, 2040(%rcx,%r10,8)
	decq	%r10
	cmpq	%r10, %r11
	jne	L(47_26)
	jmp	L(47_36)
L(47_27):
	movl	%r9d, %esi
	andl	$508, %esi
	leaq	(%r11,%rcx), %rbx
	addq	$16, %rbx
	xorl	%r14d, %r14d
	.p2align	4
L(47_28):
	movups	8(%r10,%r14,8), %xmm0
	movups	24(%r10,%r14,8), %xmm1
	movups	%xmm0, -16(%rbx,%r14,8)
	movups	%xmm1, (%rbx,%r14,8)
	addq	$4, %r14
	cmpq	%r14, %rsi
	jne	L(47_28)
	cmpq	%rsi, %r9
	jne	L(47_30)
L(47_36):
	movq	%rcx, (%rdi)
	movq	%r8, 8(%rdi)
	movq	%rdx, 16(%rdi)
	popq	%rbx
	.cfi_def_cfa_offset 32
	popq	%r12
	.cfi_def_cfa_offset 24
	popq	%r14
	.cfi_def_cfa_offset 16
	popq	%r15
	.cfi_def_cfa_offset 8
	retq
	SIZE("std_alloc::vec::Vec::remove::<#0c35fd3905773d29>")
	.cfi_endproc

CODE(".text.std_alloc::vec::Vec::remove::<#7f26edd6ea879dba>")
	.p2align	4
	TYPE("std_alloc::vec::Vec::remove::<#7f26edd6ea879dba>", function)
"std_alloc::vec::Vec::remove::<#7f26edd6ea879dba>":
	.cfi_startproc
	pushq	%rbp
	.cfi_def_cfa_offset 16
	pushq	%r15
	.cfi_def_cfa_offset 24
	pushq	%r14
	.cfi_def_cfa_offset 32
	pushq	%r13
	.cfi_def_cfa_offset 40
	pushq	%r12
	.cfi_def_cfa_offset 48
	pushq	%rbx
	.cfi_def_cfa_offset 56
	.cfi_offset %rbx, -56
	.cfi_offset %r12, -48
	.cfi_offset %r13, -40
	.cfi_offset %r14, -32
	.cfi_offset %r15, -24
	.cfi_offset %rbp, -16
	movq	(%rsi), %rax
	movq	8(%rsi), %r11
	movq	16(%rsi), %rcx
	xorps	%xmm0, %xmm0
	movups	%xmm0, 8(%rsi)
	movq	%rdx, %r14
	shlq	$4, %r14
	leaq	(%r14,%r14,2), %r9
	movups	(%rax,%r9), %xmm0
	movups	16(%rax,%r9), %xmm1
	movups	32(%rax,%r9), %xmm2
	movaps	%xmm2, -24(%rsp)
	movaps	%xmm1, -40(%rsp)
	movaps	%xmm0, -56(%rsp)
	leaq	-1(%r11), %r8
	movq	%r8, %r10
	subq	%rdx, %r10
	cmpq	$-1, %rdx
	je	L(48_20)
	cmpq	$43, %r10
	jb	L(48_9)
	leaq	1(%rdx), %r14
	leaq	2016(%rax), %r15
	xorl	%ebx, %ebx
	jmp	L(48_3)
	.p2align	4
L(48_5):
	movups	(%r15,%r9), %xmm0
	movups	16(%r15,%r9), %xmm1
	movups	32(%r15,%r9), %xmm2
	movups	%xmm2, -16(%r15,%r9)
	movups	%xmm1, -32(%r15,%r9)
	movups	%xmm0, -48(%r15,%r9)
	movups	%xmm0, -96(%r15,%r9)
	movups	%xmm1, -80(%r15,%r9)
	movups	%xmm2, -64(%r15,%r9)
	movups	%xmm0, -144(%r15,%r9)
	movups	%xmm1, -128(%r15,%r9)
	movups	%xmm2, -112(%r15,%r9)
	movups	%xmm2, -160(%r15,%r9)
	movups	%xmm1, -176(%r15,%r9)
	movups	%xmm0, -192(%r15,%r9)
	movups	%xmm0, -240(%r15,%r9)
	movups	%xmm1, -224(%r15,%r9)
	movups	%xmm2, -208(%r15,%r9)
	movups	(%r15,%r9), %xmm0
	movups	16(%r15,%r9), %xmm1
	movups	32(%r15,%r9), %xmm2
	movups	%xmm2, -256(%r15,%r9)
	movups	%xmm1, -272(%r15,%r9)
	movups	%xmm0, -288(%r15,%r9)
	movups	%xmm2, -304(%r15,%r9)
	movups	%xmm1, -320(%r15,%r9)
	movups	%xmm0, -336(%r15,%r9)
	movups	%xmm2, -352(%r15,%r9)
	movups	%xmm1, -368(%r15,%r9)
	movups	%xmm0, -384(%r15,%r9)
	movups	%xmm2, -400(%r15,%r9)
	movups	%xmm1, -416(%r15,%r9)
	movups	%xmm0, -432(%r15,%r9)
	movups	%xmm0, -480(%r15,%r9)
	movups	%xmm1, -464(%r15,%r9)
	movups	%xmm2, -448(%r15,%r9)
	movups	(%r15,%r9), %xmm0
	movups	16(%r15,%r9), %xmm1
	movups	32(%r15,%r9), %xmm2
	movups	%xmm2, -496(%r15,%r9)
	movups	%xmm1, -512(%r15,%r9)
	movups	%xmm0, -528(%r15,%r9)
	movups	(%r15,%r9), %xmm0
	movups	16(%r15,%r9), %xmm1
	movups	32(%r15,%r9), %xmm2
	movups	%xmm2, -544(%r15,%r9)
	movups	%xmm1, -560(%r15,%r9)
	movups	%xmm0, -576(%r15,%r9)
	movups	(%r15,%r9), %xmm0
	movups	16(%r15,%r9), %xmm1
	movups	32(%r15,%r9), %xmm2
	movups	%xmm2, -592(%r15,%r9)
	movups	%xmm1, -608(%r15,%r9)
	movups	%xmm0, -624(%r15,%r9)
	movups	(%r15,%r9), %xmm0
	movups	16(%r15,%r9), %xmm1
	movups	32(%r15,%r9), %xmm2
	movups	%xmm2, -640(%r15,%r9)
	movups	%xmm1, -656(%r15,%r9)
	movups	%xmm0, -672(%r15,%r9)
	movups	(%r15,%r9), %xmm0
	movups	16(%r15,%r9), %xmm1
	movups	32(%r15,%r9), %xmm2
	movups	%xmm2, -688(%r15,%r9)
	movups	%xmm1, -704(%r15,%r9)
	movups	%xmm0, -720(%r15,%r9)
	movups	(%r15,%r9), %xmm0
	movups	16(%r15,%r9), %xmm1
	movups	32(%r15,%r9), %xmm2
	movups	%xmm2, -736(%r15,%r9)
	movups	%xmm1, -752(%r15,%r9)
	movups	%xmm0, -768(%r15,%r9)
	movups	(%r15,%r9), %xmm0
	movups	16(%r15,%r9), %xmm1
	movups	32(%r15,%r9), %xmm2
	movups	%xmm2, -784(%r15,%r9)
	movups	%xmm1, -800(%r15,%r9)
	movups	%xmm0, -816(%r15,%r9)
	movups	(%r15,%r9), %xmm0
	movups	16(%r15,%r9), %xmm1
	movups	32(%r15,%r9), %xmm2
	movups	%xmm2, -832(%r15,%r9)
	movups	%xmm1, -848(%r15,%r9)
	movups	%xmm0, -864(%r15,%r9)
	movups	(%r15,%r9), %xmm0
	movups	16(%r15,%r9), %xmm1
	movups	32(%r15,%r9), %xmm2
	movups	%xmm2, -880(%r15,%r9)
	movups	%xmm1, -896(%r15,%r9)
	movups	%xmm0, -912(%r15,%r9)
	movups	(%r15,%r9), %xmm0
	movups	16(%r15,%r9), %xmm1
	movups	32(%r15,%r9), %xmm2
	movups	%xmm2, -928(%r15,%r9)
	movups	%xmm1, -944(%r15,%r9)
	movups	%xmm0, -960(%r15,%r9)
	movups	(%r15,%r9), %xmm0
	movups	16(%r15,%r9), %xmm1
	movups	32(%r15,%r9), %xmm2
	movups	%xmm2, -976(%r15,%r9)
	movups	%xmm1, -992(%r15,%r9)
	movups	%xmm0, -1008(%r15,%r9)
	movups	(%r15,%r9), %xmm0
	movups	16(%r15,%r9), %xmm1
	movups	32(%r15,%r9), %xmm2
	movups	%xmm2, -1024(%r15,%r9)
	movups	%xmm1, -1040(%r15,%r9)
	movups	%xmm0, -1056(%r15,%r9)
	movups	(%r15,%r9), %xmm0
	movups	16(%r15,%r9), %xmm1
	movups	32(%r15,%r9), %xmm2
	movups	%xmm2, -1072(%r15,%r9)
	movups	%xmm1, -1088(%r15,%r9)
	movups	%xmm0, -1104(%r15,%r9)
	movups	(%r15,%r9), %xmm0
	movups	16(%r15,%r9), %xmm1
	movups	32(%r15,%r9), %xmm2
	movups	%xmm2, -1120(%r15,%r9)
	movups	%xmm1, -1136(%r15,%r9)
	movups	%xmm0, -1152(%r15,%r9)
	movups	(%r15,%r9), %xmm0
	movups	16(%r15,%r9), %xmm1
	movups	32(%r15,%r9), %xmm2
	movups	%xmm2, -1168(%r15,%r9)
	movups	%xmm1, -1184(%r15,%r9)
	movups	%xmm0, -1200(%r15,%r9)
	movups	(%r15,%r9), %xmm0
	movups	16(%r15,%r9), %xmm1
	movups	32(%r15,%r9), %xmm2
	movups	%xmm2, -1216(%r15,%r9)
	movups	%xmm1, -1232(%r15,%r9)
	movups	%xmm0, -1248(%r15,%r9)
	movups	(%r15,%r9), %xmm0
	movups	16(%r15,%r9), %xmm1
	movups	32(%r15,%r9), %xmm2
	movups	%xmm2, -1264(%r15,%r9)
	movups	%xmm1, -1280(%r15,%r9)
	movups	%xmm0, -1296(%r15,%r9)
	movups	(%r15,%r9), %xmm0
	movups	16(%r15,%r9), %xmm1
	movups	32(%r15,%r9), %xmm2
	movups	%xmm2, -1312(%r15,%r9)
	movups	%xmm1, -1328(%r15,%r9)
	movups	%xmm0, -1344(%r15,%r9)
	movups	(%r15,%r9), %xmm0
	movups	16(%r15,%r9), %xmm1
	movups	32(%r15,%r9), %xmm2
	movups	%xmm2, -1360(%r15,%r9)
	movups	%xmm1, -1376(%r15,%r9)
	movups	%xmm0, -1392(%r15,%r9)
	movups	(%r15,%r9), %xmm0
	movups	16(%r15,%r9), %xmm1
	movups	32(%r15,%r9), %xmm2
	movups	%xmm2, -1408(%r15,%r9)
	movups	%xmm1, -1424(%r15,%r9)
	movups	%xmm0, -1440(%r15,%r9)
	movups	(%r15,%r9), %xmm0
	movups	16(%r15,%r9), %xmm1
	movups	32(%r15,%r9), %xmm2
	movups	%xmm2, -1456(%r15,%r9)
	movups	%xmm1, -1472(%r15,%r9)
	movups	%xmm0, -1488(%r15,%r9)
	movups	(%r15,%r9), %xmm0
	movups	16(%r15,%r9), %xmm1
	movups	32(%r15,%r9), %xmm2
	movups	%xmm2, -1504(%r15,%r9)
	movups	%xmm1, -1520(%r15,%r9)
	movups	%xmm0, -1536(%r15,%r9)
	movups	(%r15,%r9), %xmm0
	movups	16(%r15,%r9), %xmm1
	movups	32(%r15,%r9), %xmm2
	movups	%xmm2, -1552(%r15,%r9)
	movups	%xmm1, -1568(%r15,%r9)
	movups	%xmm0, -1584(%r15,%r9)
	movups	(%r15,%r9), %xmm0
	movups	16(%r15,%r9), %xmm1
	movups	32(%r15,%r9), %xmm2
	movups	%xmm2, -1600(%r15,%r9)
	movups	%xmm1, -1616(%r15,%r9)
	movups	%xmm0, -1632(%r15,%r9)
	movups	(%r15,%r9), %xmm0
	movups	16(%r15,%r9), %xmm1
	movups	32(%r15,%r9), %xmm2
	movups	%xmm2, -1648(%r15,%r9)
	movups	%xmm1, -1664(%r15,%r9)
	movups	%xmm0, -1680(%r15,%r9)
	movups	(%r15,%r9), %xmm0
	movups	16(%r15,%r9), %xmm1
	movups	32(%r15,%r9), %xmm2
	movups	%xmm2, -1696(%r15,%r9)
	movups	%xmm1, -1712(%r15,%r9)
	movups	%xmm0, -1728(%r15,%r9)
	movups	(%r15,%r9), %xmm0
	movups	16(%r15,%r9), %xmm1
	movups	32(%r15,%r9), %xmm2
	movups	%xmm2, -1744(%r15,%r9)
	movups	%xmm1, -1760(%r15,%r9)
	movups	%xmm0, -1776(%r15,%r9)
	movups	(%r15,%r9), %xmm0
	movups	16(%r15,%r9), %xmm1
	movups	32(%r15,%r9), %xmm2
	movups	%xmm2, -1792(%r15,%r9)
	movups	%xmm1, -1808(%r15,%r9)
	movups	%xmm0, -1824(%r15,%r9)
	movups	(%r15,%r9), %xmm0
	movups	16(%r15,%r9), %xmm1
	movups	32(%r15,%r9), %xmm2
	movups	%xmm2, -1840(%r15,%r9)
	movups	%xmm1, -1856(%r15,%r9)
	movups	%xmm0, -1872(%r15,%r9)
	movups	(%r15,%r9), %xmm0
	movups	16(%r15,%r9), %xmm1
	movups	32(%r15,%r9), %xmm2
	movups	%xmm2, -1888(%r15,%r9)
	movups	%xmm1, -1904(%r15,%r9)
	movups	%xmm0, -1920(%r15,%r9)
	movups	(%r15,%r9), %xmm0
	movups	16(%r15,%r9), %xmm1
	movups	32(%r15,%r9), %xmm2
	movups	%xmm2, 80(%r12)
	movups	%xmm1, 64(%r12)
	movups	%xmm0, 48(%r12)
	movups	(%r15,%r9), %xmm0
	movups	16(%r15,%r9), %xmm1
	movups	32(%r15,%r9), %xmm2
	movups	%xmm2, 32(%r12)
	movups	%xmm1, 16(%r12)
	movups	%xmm0, (%r12)
L(48_6):
	addq	$2016, %r9
	leaq	(%r10,%rbx), %r12
	addq	$-42, %r12
	addq	$-42, %rbx
	cmpq	$42, %r12
	jbe	L(48_7)
L(48_3):
	leaq	(%r15,%r9), %r12
	addq	$-2016, %r12
	cmpq	%rbx, %r14
	je	L(48_5)
	movups	48(%r12), %xmm0
	movups	64(%r12), %xmm1
	movups	80(%r12), %xmm2
	movups	%xmm2, 32(%r12)
	movups	%xmm1, 16(%r12)
	movups	%xmm0, (%r12)
	movups	-1920(%r15,%r9), %xmm0
	movups	-1904(%r15,%r9), %xmm1
	movups	-1888(%r15,%r9), %xmm2
	movups	%xmm2, 80(%r12)
	movups	%xmm1, 64(%r12)
	movups	%xmm0, 48(%r12)
	movups	-1872(%r15,%r9), %xmm0
	movups	-1856(%r15,%r9), %xmm1
	movups	-1840(%r15,%r9), %xmm2
	movups	-1824(%r15,%r9), %xmm3
	movups	%xmm2, -1888(%r15,%r9)
	movups	%xmm1, -1904(%r15,%r9)
	movups	%xmm0, -1920(%r15,%r9)
	movups	-1792(%r15,%r9), %xmm0
	movups	%xmm0, -1840(%r15,%r9)
	movups	-1808(%r15,%r9), %xmm0
	movups	%xmm0, -1856(%r15,%r9)
	movups	%xmm3, -1872(%r15,%r9)
	movups	-1776(%r15,%r9), %xmm0
	movups	-1760(%r15,%r9), %xmm1
	movups	-1744(%r15,%r9), %xmm2
	movups	%xmm0, -1824(%r15,%r9)
	movups	%xmm2, -1792(%r15,%r9)
	movups	%xmm1, -1808(%r15,%r9)
	movups	-1728(%r15,%r9), %xmm0
	movups	-1712(%r15,%r9), %xmm1
	movups	-1696(%r15,%r9), %xmm2
	movups	%xmm2, -1744(%r15,%r9)
	movups	%xmm1, -1760(%r15,%r9)
	movups	%xmm0, -1776(%r15,%r9)
	movups	-1680(%r15,%r9), %xmm0
	movups	-1664(%r15,%r9), %xmm1
	movups	-1648(%r15,%r9), %xmm2
	movups	%xmm2, -1696(%r15,%r9)
	movups	%xmm1, -1712(%r15,%r9)
	movups	%xmm0, -1728(%r15,%r9)
	movups	-1632(%r15,%r9), %xmm0
	movups	-1616(%r15,%r9), %xmm1
	movups	-1600(%r15,%r9), %xmm2
	movups	%xmm2, -1648(%r15,%r9)
	movups	%xmm1, -1664(%r15,%r9)
	movups	%xmm0, -1680(%r15,%r9)
	movups	-1584(%r15,%r9), %xmm0
	movups	-1568(%r15,%r9), %xmm1
	movups	-1552(%r15,%r9), %xmm2
	movups	%xmm2, -1600(%r15,%r9)
	movups	%xmm1, -1616(%r15,%r9)
	movups	%xmm0, -1632(%r15,%r9)
	movups	-1536(%r15,%r9), %xmm0
	movups	-1520(%r15,%r9), %xmm1
	movups	-1504(%r15,%r9), %xmm2
	movups	%xmm2, -1552(%r15,%r9)
	movups	%xmm1, -1568(%r15,%r9)
	movups	%xmm0, -1584(%r15,%r9)
	movups	-1488(%r15,%r9), %xmm0
	movups	-1472(%r15,%r9), %xmm1
	movups	-1456(%r15,%r9), %xmm2
	movups	%xmm2, -1504(%r15,%r9)
	movups	%xmm1, -1520(%r15,%r9)
	movups	%xmm0, -1536(%r15,%r9)
	movups	-1440(%r15,%r9), %xmm0
	movups	-1424(%r15,%r9), %xmm1
	movups	-1408(%r15,%r9), %xmm2
	movups	%xmm2, -1456(%r15,%r9)
	movups	%xmm1, -1472(%r15,%r9)
	movups	%xmm0, -1488(%r15,%r9)
	movups	-1392(%r15,%r9), %xmm0
	movups	-1376(%r15,%r9), %xmm1
	movups	-1360(%r15,%r9), %xmm2
	movups	%xmm2, -1408(%r15,%r9)
	movups	%xmm1, -1424(%r15,%r9)
	movups	%xmm0, -1440(%r15,%r9)
	movups	-1344(%r15,%r9), %xmm0
	movups	-1328(%r15,%r9), %xmm1
	movups	-1312(%r15,%r9), %xmm2
	movups	%xmm2, -1360(%r15,%r9)
	movups	%xmm1, -1376(%r15,%r9)
	movups	%xmm0, -1392(%r15,%r9)
	movups	-1296(%r15,%r9), %xmm0
	movups	-1280(%r15,%r9), %xmm1
	movups	-1264(%r15,%r9), %xmm2
	movups	%xmm2, -1312(%r15,%r9)
	movups	%xmm1, -1328(%r15,%r9)
	movups	%xmm0, -1344(%r15,%r9)
	movups	-1248(%r15,%r9), %xmm0
	movups	-1232(%r15,%r9), %xmm1
	movups	-1216(%r15,%r9), %xmm2
	movups	%xmm2, -1264(%r15,%r9)
	movups	%xmm1, -1280(%r15,%r9)
	movups	%xmm0, -1296(%r15,%r9)
	movups	-1200(%r15,%r9), %xmm0
	movups	-1184(%r15,%r9), %xmm1
	movups	-1168(%r15,%r9), %xmm2
	movups	%xmm2, -1216(%r15,%r9)
	movups	%xmm1, -1232(%r15,%r9)
	movups	%xmm0, -1248(%r15,%r9)
	movups	-1152(%r15,%r9), %xmm0
	movups	-1136(%r15,%r9), %xmm1
	movups	-1120(%r15,%r9), %xmm2
	movups	%xmm2, -1168(%r15,%r9)
	movups	%xmm1, -1184(%r15,%r9)
	movups	%xmm0, -1200(%r15,%r9)
	movups	-1104(%r15,%r9), %xmm0
	movups	-1088(%r15,%r9), %xmm1
	movups	-1072(%r15,%r9), %xmm2
	movups	%xmm2, -1120(%r15,%r9)
	movups	%xmm1, -1136(%r15,%r9)
	movups	%xmm0, -1152(%r15,%r9)
	movups	-1056(%r15,%r9), %xmm0
	movups	-1040(%r15,%r9), %xmm1
	movups	-1024(%r15,%r9), %xmm2
	movups	%xmm2, -1072(%r15,%r9)
	movups	%xmm1, -1088(%r15,%r9)
	movups	%xmm0, -1104(%r15,%r9)
	movups	-1008(%r15,%r9), %xmm0
	movups	-992(%r15,%r9), %xmm1
	movups	-976(%r15,%r9), %xmm2
	movups	%xmm2, -1024(%r15,%r9)
	movups	%xmm1, -1040(%r15,%r9)
	movups	%xmm0, -1056(%r15,%r9)
	movups	-960(%r15,%r9), %xmm0
	movups	-944(%r15,%r9), %xmm1
	movups	-928(%r15,%r9), %xmm2
	movups	%xmm2, -976(%r15,%r9)
	movups	%xmm1, -992(%r15,%r9)
	movups	%xmm0, -1008(%r15,%r9)
	movups	-912(%r15,%r9), %xmm0
	movups	-896(%r15,%r9), %xmm1
	movups	-880(%r15,%r9), %xmm2
	movups	%xmm2, -928(%r15,%r9)
	movups	%xmm1, -944(%r15,%r9)
	movups	%xmm0, -960(%r15,%r9)
	movups	-864(%r15,%r9), %xmm0
	movups	-848(%r15,%r9), %xmm1
	movups	-832(%r15,%r9), %xmm2
	movups	%xmm2, -880(%r15,%r9)
	movups	%xmm1, -896(%r15,%r9)
	movups	%xmm0, -912(%r15,%r9)
	movups	-816(%r15,%r9), %xmm0
	movups	-800(%r15,%r9), %xmm1
	movups	-784(%r15,%r9), %xmm2
	movups	%xmm2, -832(%r15,%r9)
	movups	%xmm1, -848(%r15,%r9)
	movups	%xmm0, -864(%r15,%r9)
	movups	-768(%r15,%r9), %xmm0
	movups	-752(%r15,%r9), %xmm1
	movups	-736(%r15,%r9), %xmm2
	movups	%xmm2, -784(%r15,%r9)
	movups	%xmm1, -800(%r15,%r9)
	movups	%xmm0, -816(%r15,%r9)
	movups	-720(%r15,%r9), %xmm0
	movups	-704(%r15,%r9), %xmm1
	movups	-688(%r15,%r9), %xmm2
	movups	%xmm2, -736(%r15,%r9)
	movups	%xmm1, -752(%r15,%r9)
	movups	%xmm0, -768(%r15,%r9)
	movups	-672(%r15,%r9), %xmm0
	movups	-656(%r15,%r9), %xmm1
	movups	-640(%r15,%r9), %xmm2
	movups	%xmm2, -688(%r15,%r9)
	movups	%xmm1, -704(%r15,%r9)
	movups	%xmm0, -720(%r15,%r9)
	movups	-624(%r15,%r9), %xmm0
	movups	-608(%r15,%r9), %xmm1
	movups	-592(%r15,%r9), %xmm2
	movups	%xmm2, -640(%r15,%r9)
	movups	%xmm1, -656(%r15,%r9)
	movups	%xmm0, -672(%r15,%r9)
	movups	-576(%r15,%r9), %xmm0
	movups	-560(%r15,%r9), %xmm1
	movups	-544(%r15,%r9), %xmm2
	movups	%xmm2, -592(%r15,%r9)
	movups	%xmm1, -608(%r15,%r9)
	movups	%xmm0, -624(%r15,%r9)
	movups	-528(%r15,%r9), %xmm0
	movups	-512(%r15,%r9), %xmm1
	movups	-496(%r15,%r9), %xmm2
	movups	%xmm2, -544(%r15,%r9)
	movups	%xmm1, -560(%r15,%r9)
	movups	%xmm0, -576(%r15,%r9)
	movups	-480(%r15,%r9), %xmm0
	movups	-464(%r15,%r9), %xmm1
	movups	-448(%r15,%r9), %xmm2
	movups	%xmm2, -496(%r15,%r9)
	movups	%xmm1, -512(%r15,%r9)
	movups	%xmm0, -528(%r15,%r9)
	movups	-432(%r15,%r9), %xmm0
	movups	-416(%r15,%r9), %xmm1
	movups	-400(%r15,%r9), %xmm2
	movups	%xmm2, -448(%r15,%r9)
	movups	%xmm1, -464(%r15,%r9)
	movups	%xmm0, -480(%r15,%r9)
	movups	-384(%r15,%r9), %xmm0
	movups	-368(%r15,%r9), %xmm1
	movups	-352(%r15,%r9), %xmm2
	movups	%xmm2, -400(%r15,%r9)
	movups	%xmm1, -416(%r15,%r9)
	movups	%xmm0, -432(%r15,%r9)
	movups	-336(%r15,%r9), %xmm0
	movups	-320(%r15,%r9), %xmm1
	movups	-304(%r15,%r9), %xmm2
	movups	%xmm2, -352(%r15,%r9)
	movups	%xmm1, -368(%r15,%r9)
	movups	%xmm0, -384(%r15,%r9)
	movups	-288(%r15,%r9), %xmm0
	movups	-272(%r15,%r9), %xmm1
	movups	-256(%r15,%r9), %xmm2
	movups	%xmm2, -304(%r15,%r9)
	movups	%xmm1, -320(%r15,%r9)
	movups	%xmm0, -336(%r15,%r9)
	movups	-240(%r15,%r9), %xmm0
	movups	-224(%r15,%r9), %xmm1
	movups	-208(%r15,%r9), %xmm2
	movups	%xmm2, -256(%r15,%r9)
	movups	%xmm1, -272(%r15,%r9)
	movups	%xmm0, -288(%r15,%r9)
	movups	-192(%r15,%r9), %xmm0
	movups	-176(%r15,%r9), %xmm1
	movups	-160(%r15,%r9), %xmm2
	movups	%xmm2, -208(%r15,%r9)
	movups	%xmm1, -224(%r15,%r9)
	movups	%xmm0, -240(%r15,%r9)
	movups	-144(%r15,%r9), %xmm0
	movups	-128(%r15,%r9), %xmm1
	movups	-112(%r15,%r9), %xmm2
	movups	%xmm2, -160(%r15,%r9)
	movups	%xmm1, -176(%r15,%r9)
	movups	%xmm0, -192(%r15,%r9)
	movups	-96(%r15,%r9), %xmm0
	movups	-80(%r15,%r9), %xmm1
	movups	-64(%r15,%r9), %xmm2
	movups	%xmm2, -112(%r15,%r9)
	movups	%xmm1, -128(%r15,%r9)
	movups	%xmm0, -144(%r15,%r9)
	movups	-48(%r15,%r9), %xmm0
	movups	-32(%r15,%r9), %xmm1
	movups	-16(%r15,%r9), %xmm2
	movups	%xmm2, -64(%r15,%r9)
	movups	%xmm1, -80(%r15,%r9)
	movups	%xmm0, -96(%r15,%r9)
	movups	(%r15,%r9), %xmm0
	movups	16(%r15,%r9), %xmm1
	movups	32(%r15,%r9), %xmm2
	movups	%xmm2, -16(%r15,%r9)
	movups	%xmm1, -32(%r15,%r9)
	movups	%xmm0, -48(%r15,%r9)
	jmp	L(48_6)
L(48_20):
	testq	%r11, %r11
	je	L(48_28)
	movq	%r11, %r15
	subq	%rdx, %r15
	addq	$-2, %r15
	movl	%r10d, %ebx
	andl	$3, %ebx
	cmpq	$3, %r15
	jae	L(48_23)
	xorl	%r14d, %r14d
	jmp	L(48_26)
L(48_7):
	subq	%rbx, %rdx
	cmpq	%rbx, %r14
	jne	L(48_8)
	testq	%r11, %r11
	je	L(48_28)
	addq	$-42, %rdx
	leaq	(%r11,%r11,2), %r9
	addq	$-43, %r11
	shlq	$4, %r9
	addq	%rax, %r9
	addq	$-48, %r9
	.p2align	4
L(48_19):
	movups	(%r9), %xmm0
	movups	16(%r9), %xmm1
	movups	32(%r9), %xmm2
	movups	%xmm2, -16(%r9)
	movups	%xmm1, -32(%r9)
	movups	%xmm0, -48(%r9)
	addq	$-48, %r9
	decq	%r11
	cmpq	%r11, %rdx
	jne	L(48_19)
	jmp	L(48_28)
L(48_8):
	addq	%rbx, %r10
L(48_9):
	cmpq	%rdx, %r8
	je	L(48_28)
	leaq	-1(%r10), %r11
	movl	%r10d, %edx
	andl	$3, %edx
	cmpq	$3, %r11
	jae	L(48_12)
	xorl	%r11d, %r11d
	jmp	L(48_15)
L(48_23):
	addq	%rax, %r9
	movq	%r10, %r15
	andq	$-4, %r15
	leaq	(%r14,%r14,2), %r12
	negq	%r12
	leaq	(%r11,%r11,2), %r14
	shlq	$4, %r14
	leaq	(%r14,%rax), %r13
	addq	$-96, %r13
	xorl	%r14d, %r14d
	.p2align	4
L(48_24):
	movups	(%r13,%r12), %xmm0
	movups	16(%r13,%r12), %xmm1
	movups	32(%r13,%r12), %xmm2
	movups	%xmm2, 32(%r13)
	movups	%xmm1, 16(%r13)
	movups	%xmm0, (%r13)
	movabsq	$1152921504606846974, %rbp
	xorq	%r14, %rbp
	addq	%r10, %rbp
	shlq	$4, %rbp
	leaq	(%rbp,%rbp,2), %rbp
	movups	(%rax,%rbp), %xmm0
	movups	16(%rax,%rbp), %xmm1
	movups	32(%rax,%rbp), %xmm2
	movups	%xmm2, 32(%r9,%rbp)
	movups	%xmm1, 16(%r9,%rbp)
	movups	%xmm0, (%r9,%rbp)
	movabsq	$1152921504606846973, %rbp
	xorq	%r14, %rbp
	addq	%r10, %rbp
	shlq	$4, %rbp
	leaq	(%rbp,%rbp,2), %rbp
	movups	(%rax,%rbp), %xmm0
	movups	16(%rax,%rbp), %xmm1
	movups	32(%rax,%rbp), %xmm2
	movups	%xmm2, 32(%r9,%rbp)
	movups	%xmm1, 16(%r9,%rbp)
	movups	%xmm0, (%r9,%rbp)
	movabsq	$1152921504606846972, %rbp
	xorq	%r14, %rbp
	addq	%r10, %rbp
	shlq	$4, %rbp
	leaq	(%rbp,%rbp,2), %rbp
	movups	(%rax,%rbp), %xmm0
	movups	16(%rax,%rbp), %xmm1
	movups	32(%rax,%rbp), %xmm2
	movups	%xmm2, 32(%r9,%rbp)
	movups	%xmm1, 16(%r9,%rbp)
	movups	%xmm0, (%r9,%rbp)
	addq	$4, %r14
	addq	$-192, %r13
	cmpq	%r14, %r15
	jne	L(48_24)
	testq	%rbx, %rbx
	je	L(48_28)
L(48_26):
	leaq	(%r11,%r11,2), %r9
	shlq	$4, %r9
	addq	$-96, %r9
	addq	%r14, %rdx
	shlq	$4, %rdx
	leaq	(%rdx,%rdx,2), %r10
	movq	%r9, %rdx
	subq	%r10, %rdx
	addq	%rax, %rdx
	shlq	$4, %r14
	leaq	(%r14,%r14,2), %r10
	subq	%r10, %r9
	addq	%rax, %r9
	shll	$4, %ebx
	leaq	(%rbx,%rbx,2), %r10
	xorl	%r11d, %r11d
	.p2align	4
L(48_27):
	movups	(%rdx,%r11), %xmm0
	movups	16(%rdx,%r11), %xmm1
	movups	32(%rdx,%r11), %xmm2
	movups	%xmm2, 32(%r9,%r11)
	movups	%xmm1, 16(%r9,%r11)
	movups	%xmm0, (%r9,%r11)
	addq	$-48, %r11
	movq	%r10, %rbx
	addq	%r11, %rbx
	jne	L(48_27)
	jmp	L(48_28)
L(48_12):
	andl	$60, %r10d
	leaq	(%rax,%r9), %rbx
	xorl	%r11d, %r11d
	.p2align	4
L(48_13):
	movups	48(%rbx), %xmm0
	movups	64(%rbx), %xmm1
	movups	80(%rbx), %xmm2
	movups	96(%rbx), %xmm3
	movups	%xmm2, 32(%rbx)
	movups	%xmm1, 16(%rbx)
	movups	%xmm0, (%rbx)
	movups	%xmm3, 48(%rbx)
	movups	112(%rbx), %xmm0
	movups	%xmm0, 64(%rbx)
	movups	128(%rbx), %xmm0
	movups	%xmm0, 80(%rbx)
	movups	144(%rbx), %xmm0
	movups	%xmm0, 96(%rbx)
	movups	160(%rbx), %xmm0
	movups	%xmm0, 112(%rbx)
	movups	176(%rbx), %xmm0
	movups	%xmm0, 128(%rbx)
	movups	192(%rbx), %xmm0
	movups	208(%rbx), %xmm1
	movups	224(%rbx), %xmm2
	movups	%xmm2, 176(%rbx)
	movups	%xmm1, 160(%rbx)
	movups	%xmm0, 144(%rbx)
	addq	$192, %rbx
	addq	$4, %r11
	cmpq	%r11, %r10
	jne	L(48_13)
	testq	%rdx, %rdx
	je	L(48_28)
L(48_15):
	leaq	(%r11,%r11,2), %r10
	shlq	$4, %r10
	addq	%r10, %r9
	addq	%rax, %r9
	shll	$4, %edx
	leaq	(%rdx,%rdx,2), %rdx
	xorl	%r10d, %r10d
	.p2align	4
L(48_16):
	movups	48(%r9,%r10), %xmm0
	movups	64(%r9,%r10), %xmm1
	movups	80(%r9,%r10), %xmm2
	movups	%xmm2, 32(%r9,%r10)
	movups	%xmm1, 16(%r9,%r10)
	movups	%xmm0, (%r9,%r10)
	addq	$48, %r10
	cmpq	%r10, %rdx
	jne	L(48_16)
L(48_28):
	movq	%rax, (%rsi)
	movq	%r8, 8(%rsi)
	movq	%rcx, 16(%rsi)
	movaps	-56(%rsp), %xmm0
	movaps	-40(%rsp), %xmm1
	movaps	-24(%rsp), %xmm2
	movups	%xmm2, 32(%rdi)
	movups	%xmm1, 16(%rdi)
	movups	%xmm0, (%rdi)
	popq	%rbx
	.cfi_def_cfa_offset 48
	popq	%r12
	.cfi_def_cfa_offset 40
	popq	%r13
	.cfi_def_cfa_offset 32
	popq	%r14
	.cfi_def_cfa_offset 24
	popq	%r15
	.cfi_def_cfa_offset 16
	popq	%rbp
	.cfi_def_cfa_offset 8
	retq
	SIZE("std_alloc::vec::Vec::remove::<#7f26edd6ea879dba>")
	.cfi_endproc

CODE(".text.std_collections::btree::node::Node::take_at::<#1aacfcd96822f18e>")
	.p2align	4
	TYPE("std_collections::btree::node::Node::take_at::<#1aacfcd96822f18e>", function)
"std_collections::btree::node::Node::take_at::<#1aacfcd96822f18e>":
	.cfi_startproc
	pushq	%r15
	.cfi_def_cfa_offset 16
	pushq	%r14
	.cfi_def_cfa_offset 24
	pushq	%r13
	.cfi_def_cfa_offset 32
	pushq	%r12
	.cfi_def_cfa_offset 40
	pushq	%rbx
	.cfi_def_cfa_offset 48
	subq	$240, %rsp
	.cfi_def_cfa_offset 288
	.cfi_offset %rbx, -48
	.cfi_offset %r12, -40
	.cfi_offset %r13, -32
	.cfi_offset %r14, -24
	.cfi_offset %r15, -16
	movq	%rsi, %r14
	movq	%rdi, %rbx
	movzbl	(%rdx), %r15d
	movq	(%rsi), %rax
	cmpq	$1, %rcx
	jne	L(49_11)
	cmpw	$0, 2(%rax)
	je	L(49_2)
	leal	(,%r15,8), %r13d
	leaq	(%rax,%r13), %rsi
	addq	$848, %rsi
	leaq	104(%rsp), %rdi
	callq	"std_collections::btree::node::Node::pop_last::<#1aacfcd96822f18e>"
	movq	104(%rsp), %rax
	movq	(%r14), %rcx
	movq	8(%rcx,%r13), %r12
	movq	%rax, 8(%rcx,%r13)
	leaq	(%r15,%r15,2), %rax
	shll	$4, %eax
	movups	128(%rcx,%rax), %xmm0
	movups	144(%rcx,%rax), %xmm1
	movups	160(%rcx,%rax), %xmm2
	movaps	%xmm2, 32(%rsp)
	movaps	%xmm1, 16(%rsp)
	movaps	%xmm0, (%rsp)
	movups	112(%rsp), %xmm0
	movups	128(%rsp), %xmm1
	movups	144(%rsp), %xmm2
	movups	%xmm0, 128(%rcx,%rax)
	movups	%xmm1, 144(%rcx,%rax)
	movups	%xmm2, 160(%rcx,%rax)
	movq	%rcx, (%r14)
	movq	848(%rcx,%r13), %rax
	cmpw	$6, (%rax)
	ja	L(49_8)
	testq	%r15, %r15
	je	L(49_5)
	decq	%r15
	movq	%r14, %rdi
	movq	%r15, %rsi
	jmp	L(49_7)
L(49_11):
	leal	(,%r15,8), %r12d
	leaq	(%rax,%r12), %rsi
	addq	$848, %rsi
	incq	%rdx
	decq	%rcx
	leaq	184(%rsp), %rdi
	callq	"std_collections::btree::node::Node::take_at::<#1aacfcd96822f18e>"
	movq	(%r14), %rax
	movq	848(%rax,%r12), %rax
	cmpw	$6, (%rax)
	ja	L(49_16)
	testq	%r15, %r15
	je	L(49_13)
	decq	%r15
	movq	%r14, %rdi
	movq	%r15, %rsi
	jmp	L(49_15)
L(49_2):
	movzwl	(%rax), %ecx
	leaq	848(%rax), %rdx
	leaq	128(%rax), %rsi
	leaq	8(%rax), %rdi
	movq	%rdi, 104(%rsp)
	movq	%rcx, 112(%rsp)
	movq	$15, 120(%rsp)
	leaq	128(%rsp), %r12
	movq	%rsi, 128(%rsp)
	movq	%rcx, 136(%rsp)
	movq	$15, 144(%rsp)
	movq	%rdx, 152(%rsp)
	xorps	%xmm0, %xmm0
	movups	%xmm0, 160(%rsp)
	movq	%rax, 176(%rsp)
	movaps	%xmm0, (%rsp)
	movaps	%xmm0, 16(%rsp)
	movaps	%xmm0, 32(%rsp)
	leaq	104(%rsp), %rdi
	movq	%r15, %rsi
	callq	"std_alloc::vec::Vec::remove::<#0c35fd3905773d29>"
	movq	%rax, %r13
	movq	%rsp, %rdi
	movq	%r12, %rsi
	movq	%r15, %rdx
	callq	"std_alloc::vec::Vec::remove::<#7f26edd6ea879dba>"
	movzwl	112(%rsp), %eax
	movq	176(%rsp), %rcx
	movw	%ax, (%rcx)
	movq	%rcx, (%r14)
	movaps	(%rsp), %xmm0
	movaps	16(%rsp), %xmm1
	movaps	32(%rsp), %xmm2
	movaps	%xmm2, 80(%rsp)
	movaps	%xmm1, 64(%rsp)
	movaps	%xmm0, 48(%rsp)
	movq	%r13, (%rbx)
	jmp	L(49_9)
L(49_13):
	movq	%r14, %rdi
	xorl	%esi, %esi
L(49_15):
	callq	"std_collections::btree::node::Node::balance::<#1aacfcd96822f18e>"
L(49_16):
	movq	184(%rsp), %rax
	movq	%rax, (%rbx)
	movups	192(%rsp), %xmm0
	movups	208(%rsp), %xmm1
	movups	224(%rsp), %xmm2
	jmp	L(49_10)
L(49_5):
	movq	%r14, %rdi
	xorl	%esi, %esi
L(49_7):
	callq	"std_collections::btree::node::Node::balance::<#1aacfcd96822f18e>"
L(49_8):
	movaps	(%rsp), %xmm0
	movaps	16(%rsp), %xmm1
	movaps	32(%rsp), %xmm2
	movaps	%xmm2, 80(%rsp)
	movaps	%xmm1, 64(%rsp)
	movaps	%xmm0, 48(%rsp)
	movq	%r12, (%rbx)
L(49_9):
	movaps	48(%rsp), %xmm0
	movaps	64(%rsp), %xmm1
	movaps	80(%rsp), %xmm2
L(49_10):
	movups	%xmm0, 8(%rbx)
	movups	%xmm1, 24(%rbx)
	movups	%xmm2, 40(%rbx)
	addq	$240, %rsp
	.cfi_def_cfa_offset 48
	popq	%rbx
	.cfi_def_cfa_offset 40
	popq	%r12
	.cfi_def_cfa_offset 32
	popq	%r13
	.cfi_def_cfa_offset 24
	popq	%r14
	.cfi_def_cfa_offset 16
	popq	%r15
	.cfi_def_cfa_offset 8
	retq
	SIZE("std_collections::btree::node::Node::take_at::<#1aacfcd96822f18e>")
	.cfi_endproc

CODE(".text.std_collections::btree::node::Node::pop_last::<#1aacfcd96822f18e>")
	.p2align	4
	TYPE("std_collections::btree::node::Node::pop_last::<#1aacfcd96822f18e>", function)
"std_collections::btree::node::Node::pop_last::<#1aacfcd96822f18e>":
	.cfi_startproc
	pushq	%r15
	.cfi_def_cfa_offset 16
	pushq	%r14
	.cfi_def_cfa_offset 24
	pushq	%r13
	.cfi_def_cfa_offset 32
	pushq	%r12
	.cfi_def_cfa_offset 40
	pushq	%rbx
	.cfi_def_cfa_offset 48
	subq	$240, %rsp
	.cfi_def_cfa_offset 288
	.cfi_offset %rbx, -48
	.cfi_offset %r12, -40
	.cfi_offset %r13, -32
	.cfi_offset %r14, -24
	.cfi_offset %r15, -16
	movq	%rsi, %r14
	movq	%rdi, %rbx
	movq	(%rsi), %rax
	movzwl	(%rax), %r15d
	cmpw	$0, 2(%rax)
	je	L(50_1)
	leal	(,%r15,8), %r12d
	leaq	(%rax,%r12), %rsi
	addq	$848, %rsi
	leaq	184(%rsp), %rdi
	callq	"std_collections::btree::node::Node::pop_last::<#1aacfcd96822f18e>"
	movq	(%r14), %rax
	movq	848(%rax,%r12), %rax
	cmpw	$6, (%rax)
	ja	L(50_7)
	testq	%r15, %r15
	je	L(50_4)
	decq	%r15
	movq	%r14, %rdi
	movq	%r15, %rsi
	jmp	L(50_6)
L(50_1):
	leaq	-1(%r15), %r12
	leaq	848(%rax), %rcx
	leaq	128(%rax), %rdx
	leaq	8(%rax), %rsi
	movq	%rsi, (%rsp)
	movq	%r15, 8(%rsp)
	movq	$15, 16(%rsp)
	leaq	24(%rsp), %r13
	movq	%rdx, 24(%rsp)
	movq	%r15, 32(%rsp)
	movq	$15, 40(%rsp)
	movq	%rcx, 48(%rsp)
	xorps	%xmm0, %xmm0
	movups	%xmm0, 56(%rsp)
	movq	%rax, 72(%rsp)
	movaps	%xmm0, 80(%rsp)
	movaps	%xmm0, 96(%rsp)
	movaps	%xmm0, 112(%rsp)
	movq	%rsp, %rdi
	movq	%r12, %rsi
	callq	"std_alloc::vec::Vec::remove::<#0c35fd3905773d29>"
	movq	%rax, %r15
	leaq	80(%rsp), %rdi
	movq	%r13, %rsi
	movq	%r12, %rdx
	callq	"std_alloc::vec::Vec::remove::<#7f26edd6ea879dba>"
	movzwl	8(%rsp), %eax
	movq	72(%rsp), %rcx
	movw	%ax, (%rcx)
	movq	%rcx, (%r14)
	movaps	80(%rsp), %xmm0
	movaps	96(%rsp), %xmm1
	movaps	112(%rsp), %xmm2
	movaps	%xmm2, 160(%rsp)
	movaps	%xmm1, 144(%rsp)
	movaps	%xmm0, 128(%rsp)
	movq	%r15, (%rbx)
	movaps	128(%rsp), %xmm0
	movaps	144(%rsp), %xmm1
	movaps	160(%rsp), %xmm2
	jmp	L(50_8)
L(50_4):
	movq	%r14, %rdi
	xorl	%esi, %esi
L(50_6):
	callq	"std_collections::btree::node::Node::balance::<#1aacfcd96822f18e>"
L(50_7):
	movq	184(%rsp), %rax
	movq	%rax, (%rbx)
	movups	192(%rsp), %xmm0
	movups	208(%rsp), %xmm1
	movups	224(%rsp), %xmm2
L(50_8):
	movups	%xmm0, 8(%rbx)
	movups	%xmm1, 24(%rbx)
	movups	%xmm2, 40(%rbx)
	addq	$240, %rsp
	.cfi_def_cfa_offset 48
	popq	%rbx
	.cfi_def_cfa_offset 40
	popq	%r12
	.cfi_def_cfa_offset 32
	popq	%r13
	.cfi_def_cfa_offset 24
	popq	%r14
	.cfi_def_cfa_offset 16
	popq	%r15
	.cfi_def_cfa_offset 8
	retq
	SIZE("std_collections::btree::node::Node::pop_last::<#1aacfcd96822f18e>")
	.cfi_endproc

CODE(".text.std_collections::btree::node::Node::balance::<#1aacfcd96822f18e>")
	.p2align	4
	TYPE("std_collections::btree::node::Node::balance::<#1aacfcd96822f18e>", function)
"std_collections::btree::node::Node::balance::<#1aacfcd96822f18e>":
	.cfi_startproc
	pushq	%rbp
	.cfi_def_cfa_offset 16
	pushq	%r15
	.cfi_def_cfa_offset 24
	pushq	%r14
	.cfi_def_cfa_offset 32
	pushq	%r13
	.cfi_def_cfa_offset 40
	pushq	%r12
	.cfi_def_cfa_offset 48
	pushq	%rbx
	.cfi_def_cfa_offset 56
	subq	$328, %rsp
	.cfi_def_cfa_offset 384
	.cfi_offset %rbx, -56
	.cfi_offset %r12, -48
	.cfi_offset %r13, -40
	.cfi_offset %r14, -32
	.cfi_offset %r15, -24
	.cfi_offset %rbp, -16
	movq	%rsi, %rbx
	movq	%rdi, %rbp
	movq	(%rdi), %r13
	movzwl	(%r13), %r15d
	movq	848(%r13,%rsi,8), %rcx
	movq	856(%r13,%rsi,8), %rax
	movzwl	(%rcx), %edx
	movzwl	(%rax), %esi
	leal	(%rsi,%rdx), %edi
	cmpl	$15, %edi
	movq	%rbx, 24(%rsp)
	jae	L(51_4)
	movq	%rbp, 136(%rsp)
	movzwl	%r15w, %eax
	leaq	848(%r13), %rcx
	leaq	1(%rax), %rdx
	xorl	%esi, %esi
	xorl	%edi, %edi
	cmpw	$0, 2(%r13)
	cmovneq	%rdx, %rsi
	setne	%dil
	shll	$4, %edi
	leaq	128(%r13), %rdx
	leaq	8(%r13), %r8
	movq	%r8, 32(%rsp)
	movq	%rax, 40(%rsp)
	movq	$15, 48(%rsp)
	leaq	56(%rsp), %r15
	movq	%rdx, 56(%rsp)
	movq	%rax, 64(%rsp)
	movq	$15, 72(%rsp)
	leaq	80(%rsp), %r12
	movq	%rcx, 80(%rsp)
	movq	%rsi, 88(%rsp)
	movq	%rdi, 96(%rsp)
	movq	%r13, 104(%rsp)
	xorps	%xmm0, %xmm0
	movaps	%xmm0, 144(%rsp)
	movaps	%xmm0, 160(%rsp)
	movaps	%xmm0, 176(%rsp)
	leaq	32(%rsp), %rdi
	movq	%rbx, %rsi
	callq	"std_alloc::vec::Vec::remove::<#0c35fd3905773d29>"
	movq	%rax, %rbp
	leaq	144(%rsp), %rdi
	movq	%r15, %rsi
	movq	%rbx, %rdx
	callq	"std_alloc::vec::Vec::remove::<#7f26edd6ea879dba>"
	leaq	1(%rbx), %rsi
	movq	%r12, %rdi
	callq	"std_alloc::vec::Vec::remove::<#bb3624bd71ef2d03>"
	movq	%rax, %r15
	movq	80(%rsp), %rax
	movq	%rax, 128(%rsp)
	movq	(%rax,%rbx,8), %rbx
	movzwl	2(%rbx), %eax
	movw	%ax, 120(%rsp)
	movzwl	(%rbx), %r14d
	leaq	1(%r14), %rcx
	leaq	128(%rbx), %r13
	movzwl	(%r15), %r12d
	movzwl	2(%r15), %eax
	movw	%ax, 14(%rsp)
	leaq	8(%r15), %rsi
	movq	%rbp, 8(%rbx,%r14,8)
	leaq	(%r14,%r14,2), %r8
	movl	%r8d, %eax
	shll	$4, %eax
	movaps	144(%rsp), %xmm0
	movaps	160(%rsp), %xmm1
	movaps	176(%rsp), %xmm2
	movups	%xmm0, 128(%rbx,%rax)
	movups	%xmm1, 144(%rbx,%rax)
	movups	%xmm2, 160(%rbx,%rax)
	movq	%rcx, 16(%rsp)
	leal	(,%rcx,8), %eax
	movq	%rax, 264(%rsp)
	leaq	(%rbx,%rax), %rdi
	addq	$8, %rdi
	movl	%r12d, %edx
	shll	$3, %edx
	movq	%rdi, %rax
	subq	%rsi, %rax
	leaq	128(%r15), %rbp
	cmpq	%rdx, %rax
	movq	%r8, 248(%rsp)
	movq	%rdx, 256(%rsp)
	jae	L(51_14)
	cmpw	$10, %r12w
	jb	L(51_3)
	leal	(,%r14,8), %edx
	leaq	(%rdx,%rbx), %rax
	subq	%r15, %rax
	addq	$8, %rax
	cmpq	$32, %rax
	jae	L(51_30)
L(51_3):
	xorl	%eax, %eax
L(51_33):
	movq	%r12, %rdx
	movq	%rax, %rcx
	andq	$3, %rdx
	je	L(51_36)
	movq	%rax, %rcx
	.p2align	4
L(51_35):
	movq	(%rsi,%rcx,8), %r8
	movq	%r8, (%rdi,%rcx,8)
	incq	%rcx
	decq	%rdx
	jne	L(51_35)
L(51_36):
	subl	%r12d, %eax
	cmpl	$-4, %eax
	ja	L(51_39)
	leaq	(%rbx,%r14,8), %rax
	addq	$40, %rax
	.p2align	4
L(51_38):
	movq	8(%r15,%rcx,8), %rdx
	movq	%rdx, -24(%rax,%rcx,8)
	movq	16(%r15,%rcx,8), %rdx
	movq	%rdx, -16(%rax,%rcx,8)
	movq	24(%r15,%rcx,8), %rdx
	movq	%rdx, -8(%rax,%rcx,8)
	movq	32(%r15,%rcx,8), %rdx
	movq	%rdx, (%rax,%rcx,8)
	addq	$4, %rcx
	cmpq	%rcx, %r12
	jne	L(51_38)
	jmp	L(51_39)
L(51_4):
	cmpw	%si, %dx
	jae	L(51_15)
	xorps	%xmm0, %xmm0
	movaps	%xmm0, 192(%rsp)
	movaps	%xmm0, 208(%rsp)
	movaps	%xmm0, 224(%rsp)
	movaps	%xmm0, 272(%rsp)
	movaps	%xmm0, 288(%rsp)
	movaps	%xmm0, 304(%rsp)
	movzwl	2(%rax), %ebx
	leaq	1(%rsi), %rdx
	xorl	%edi, %edi
	xorl	%r8d, %r8d
	testw	%bx, %bx
	setne	%r8b
	cmoveq	%rdi, %rdx
	shll	$4, %r8d
	leaq	848(%rax), %r9
	leaq	128(%rax), %r10
	leaq	8(%rax), %rcx
	movq	%r10, 56(%rsp)
	movq	%rsi, 64(%rsp)
	movq	$15, 72(%rsp)
	movq	%r9, 80(%rsp)
	movq	%rdx, 88(%rsp)
	movq	%r8, 96(%rsp)
	movq	%rax, 104(%rsp)
	movaps	%xmm0, 144(%rsp)
	movaps	%xmm0, 160(%rsp)
	movaps	%xmm0, 176(%rsp)
	movq	8(%rax), %rdx
	movq	%rdx, 16(%rsp)
	leaq	-1(%rsi), %rdx
	movq	%rcx, %r9
	movq	%rdx, %r8
	movl	$0, %r10d
	cmpl	$258, %esi
	jb	L(51_11)
	leaq	64(%rax), %rsi
	xorl	%r10d, %r10d
	.p2align	4
L(51_7):
	xorl	%edi, %edi
	.p2align	4
L(51_8):
	movups	-48(%rsi,%rdi,8), %xmm0
	movups	-32(%rsi,%rdi,8), %xmm1
	movups	-16(%rsi,%rdi,8), %xmm2
	movups	(%rsi,%rdi,8), %xmm3
	movups	%xmm0, -56(%rsi,%rdi,8)
	movups	%xmm1, -40(%rsi,%rdi,8)
	movups	%xmm2, -24(%rsi,%rdi,8)
	movups	%xmm3, -8(%rsi,%rdi,8)
	addq	$8, %rdi
	cmpq	$256, %rdi
	jne	L(51_8)
	addq	$256, %r10
	movq	%rdx, %r8
	subq	%r10, %r8
	addq	$2048, %rsi
	cmpq	$256, %r8
	ja	L(51_7)
	leaq	(,%r10,8), %rdi
	leaq	(%rcx,%r10,8), %r9
L(51_11):
	leaq	56(%rsp), %rsi
	cmpq	%r10, %rdx
	je	L(51_65)
	cmpq	$6, %r8
	jb	L(51_13)
	leaq	(%rdi,%rax), %r10
	subq	%r9, %r10
	cmpq	$32, %r10
	jae	L(51_56)
L(51_13):
	xorl	%r10d, %r10d
L(51_59):
	movl	%ebx, %esi
	movl	%r15d, %ebx
	movq	%rbp, %r15
	movq	%r8, %r14
	movq	%r10, %r11
	andq	$3, %r14
	je	L(51_62)
	leaq	(%rcx,%rdi), %r12
	movq	%r10, %r11
	.p2align	4
L(51_61):
	movq	8(%r9,%r11,8), %rbp
	movq	%rbp, (%r12,%r11,8)
	incq	%r11
	decq	%r14
	jne	L(51_61)
L(51_62):
	subq	%r8, %r10
	cmpq	$-4, %r10
	movq	%r15, %rbp
	movl	%ebx, %r15d
	movl	%esi, %ebx
	leaq	56(%rsp), %rsi
	ja	L(51_65)
	addq	%rdi, %rax
	addq	$32, %rax
	.p2align	4
L(51_64):
	movq	8(%r9,%r11,8), %rdi
	movq	%rdi, -24(%rax,%r11,8)
	movq	16(%r9,%r11,8), %rdi
	movq	%rdi, -16(%rax,%r11,8)
	movq	24(%r9,%r11,8), %rdi
	movq	%rdi, -8(%rax,%r11,8)
	movq	32(%r9,%r11,8), %rdi
	movq	%rdi, (%rax,%r11,8)
	addq	$4, %r11
	cmpq	%r11, %r8
	jne	L(51_64)
	jmp	L(51_65)
L(51_14):
	callq	PLT(memmove)
L(51_39):
	leaq	1(%r14), %rax
	leaq	(%rax,%rax,2), %rax
	shll	$4, %eax
	addq	%rax, %r13
	movl	%r12d, %eax
	shll	$4, %eax
	leaq	(%rax,%rax,2), %rdx
	movq	%r13, %rax
	subq	%rbp, %rax
	cmpq	%rdx, %rax
	jae	L(51_42)
	movl	%r12d, %eax
	andl	$7, %eax
	leal	-1(%r12), %ecx
	cmpw	$7, %cx
	jae	L(51_43)
	xorl	%ecx, %ecx
	movq	248(%rsp), %r8
	jmp	L(51_46)
L(51_15):
	leaq	128(%r13), %rax
	movzwl	2(%rcx), %r14d
	leaq	-1(%rdx), %rdi
	movq	(%rcx,%rdx,8), %rsi
	testw	%r14w, %r14w
	movq	%rbp, 136(%rsp)
	movw	%r15w, 128(%rsp)
	je	L(51_19)
	movq	848(%rcx,%rdx,8), %rdx
	movq	%rdx, 16(%rsp)
	jmp	L(51_20)
L(51_42):
	movq	%r13, %rdi
	movq	%rbp, %rsi
	callq	PLT(memmove)
	jmp	L(51_48)
L(51_43):
	movl	%r12d, %edx
	andl	$-8, %edx
	movq	248(%rsp), %r8
	movl	%r8d, %esi
	shll	$4, %esi
	addq	%rbx, %rsi
	movl	$464, %edi
	xorl	%ecx, %ecx
	.p2align	4
L(51_44):
	movups	-336(%r15,%rdi), %xmm0
	movups	-320(%r15,%rdi), %xmm1
	movups	-304(%r15,%rdi), %xmm2
	movups	%xmm2, -256(%rsi,%rdi)
	movups	%xmm1, -272(%rsi,%rdi)
	movups	%xmm0, -288(%rsi,%rdi)
	movups	-288(%r15,%rdi), %xmm0
	movups	-272(%r15,%rdi), %xmm1
	movups	-256(%r15,%rdi), %xmm2
	movups	%xmm2, -208(%rsi,%rdi)
	movups	%xmm1, -224(%rsi,%rdi)
	movups	%xmm0, -240(%rsi,%rdi)
	movups	-240(%r15,%rdi), %xmm0
	movups	-224(%r15,%rdi), %xmm1
	movups	-208(%r15,%rdi), %xmm2
	movups	%xmm2, -160(%rsi,%rdi)
	movups	%xmm1, -176(%rsi,%rdi)
	movups	%xmm0, -192(%rsi,%rdi)
	movups	-192(%r15,%rdi), %xmm0
	movups	-176(%r15,%rdi), %xmm1
	movups	-160(%r15,%rdi), %xmm2
	movups	%xmm2, -112(%rsi,%rdi)
	movups	%xmm1, -128(%rsi,%rdi)
	movups	%xmm0, -144(%rsi,%rdi)
	movups	-144(%r15,%rdi), %xmm0
	movups	-128(%r15,%rdi), %xmm1
	movups	-112(%r15,%rdi), %xmm2
	movups	%xmm2, -64(%rsi,%rdi)
	movups	%xmm1, -80(%rsi,%rdi)
	movups	%xmm0, -96(%rsi,%rdi)
	movups	-96(%r15,%rdi), %xmm0
	movups	-80(%r15,%rdi), %xmm1
	movups	-64(%r15,%rdi), %xmm2
	movups	%xmm2, -16(%rsi,%rdi)
	movups	%xmm1, -32(%rsi,%rdi)
	movups	%xmm0, -48(%rsi,%rdi)
	movups	-48(%r15,%rdi), %xmm0
	movups	-32(%r15,%rdi), %xmm1
	movups	-16(%r15,%rdi), %xmm2
	movups	%xmm2, 32(%rsi,%rdi)
	movups	%xmm1, 16(%rsi,%rdi)
	movups	%xmm0, (%rsi,%rdi)
	movups	(%r15,%rdi), %xmm0
	movups	16(%r15,%rdi), %xmm1
	movups	32(%r15,%rdi), %xmm2
	movups	%xmm2, 80(%rsi,%rdi)
	movups	%xmm1, 64(%rsi,%rdi)
	movups	%xmm0, 48(%rsi,%rdi)
	addq	$8, %rcx
	addq	$384, %rdi
	cmpq	%rcx, %rdx
	jne	L(51_44)
	testq	%rax, %rax
	je	L(51_48)
L(51_46):
	shlq	$4, %rcx
	leaq	(%rcx,%rcx,2), %rdx
	leaq	(%r15,%rdx), %rcx
	addq	$128, %rcx
	shll	$4, %r8d
	addq	%rdx, %r8
	leaq	(%rbx,%r8), %rdx
	addq	$176, %rdx
	shll	$4, %eax
	leaq	(%rax,%rax,2), %rax
	xorl	%esi, %esi
	.p2align	4
L(51_47):
	movups	(%rcx,%rsi), %xmm0
	movups	16(%rcx,%rsi), %xmm1
	movups	32(%rcx,%rsi), %xmm2
	movups	%xmm2, 32(%rdx,%rsi)
	movups	%xmm1, 16(%rdx,%rsi)
	movups	%xmm0, (%rdx,%rsi)
	addq	$48, %rsi
	cmpq	%rsi, %rax
	jne	L(51_47)
L(51_48):
	cmpw	$0, 120(%rsp)
	je	L(51_86)
	leaq	848(%rbx), %rdi
	addq	264(%rsp), %rdi
	movq	256(%rsp), %rax
	addq	$8, %rax
	xorl	%edx, %edx
	movzwl	14(%rsp), %ecx
	testw	%cx, %cx
	cmovneq	%rax, %rdx
	leaq	848(%r15), %rsi
	movq	%rdi, %rax
	subq	%rsi, %rax
	cmpq	%rdx, %rax
	jae	L(51_53)
	testw	%cx, %cx
	je	L(51_86)
	cmpw	$9, %r12w
	jb	L(51_52)
	leal	(,%r14,8), %edx
	leaq	(%rdx,%rbx), %rax
	subq	%r15, %rax
	addq	$8, %rax
	cmpq	$32, %rax
	jae	L(51_77)
L(51_52):
	xorl	%eax, %eax
L(51_80):
	movq	%r12, %rcx
	subq	%rax, %rcx
	movl	%r12d, %edx
	notl	%edx
	testb	$3, %dl
	je	L(51_83)
	leal	1(%r12), %edx
	andl	$3, %edx
	.p2align	4
L(51_82):
	movq	(%rsi,%rax,8), %r8
	movq	%r8, (%rdi,%rax,8)
	incq	%rax
	decq	%rdx
	jne	L(51_82)
L(51_83):
	cmpl	$3, %ecx
	jb	L(51_86)
	shlq	$3, %r14
	leaq	(%r14,%rax,8), %rcx
	addq	%rbx, %rcx
	addq	$880, %rcx
	leaq	(%r15,%rax,8), %rdx
	addq	$872, %rdx
	movq	%r12, %rsi
	subq	%rax, %rsi
	movq	$-1, %rax
	.p2align	4
L(51_85):
	movq	-16(%rdx,%rax,8), %rdi
	movq	%rdi, -16(%rcx,%rax,8)
	movq	-8(%rdx,%rax,8), %rdi
	movq	%rdi, -8(%rcx,%rax,8)
	movq	(%rdx,%rax,8), %rdi
	movq	%rdi, (%rcx,%rax,8)
	movq	8(%rdx,%rax,8), %rdi
	movq	%rdi, 8(%rcx,%rax,8)
	addq	$4, %rax
	cmpq	%rax, %rsi
	jne	L(51_85)
	jmp	L(51_86)
L(51_53):
	callq	PLT(memmove)
L(51_86):
	movq	%r15, %rdi
	callq	PLT(yurewha_heap_dealloc)
	movq	16(%rsp), %rax
	addl	%r12d, %eax
	movw	%ax, (%rbx)
	movq	24(%rsp), %rax
	movq	128(%rsp), %rcx
	movq	%rbx, (%rcx,%rax,8)
	movzwl	40(%rsp), %eax
	movq	104(%rsp), %rcx
	movw	%ax, (%rcx)
	movq	136(%rsp), %rax
	movq	%rcx, (%rax)
	jmp	L(51_99)
L(51_19):
	movq	$0, 16(%rsp)
L(51_20):
	leaq	(%rdi,%rdi,2), %rdx
	shlq	$4, %rdx
	movw	%di, (%rcx)
	movups	128(%rcx,%rdx), %xmm0
	movups	144(%rcx,%rdx), %xmm1
	movups	160(%rcx,%rdx), %xmm2
	movaps	%xmm2, 176(%rsp)
	movaps	%xmm1, 160(%rsp)
	movaps	%xmm0, 144(%rsp)
	movq	%rcx, 848(%r13,%rbx,8)
	movq	8(%r13,%rbx,8), %rdx
	movq	%rsi, 8(%r13,%rbx,8)
	leaq	(%rbx,%rbx,2), %rcx
	shlq	$4, %rcx
	movups	(%rax,%rcx), %xmm0
	movups	16(%rax,%rcx), %xmm1
	movups	32(%rax,%rcx), %xmm2
	movaps	%xmm2, 224(%rsp)
	movaps	%xmm1, 208(%rsp)
	movaps	%xmm0, 192(%rsp)
	movaps	144(%rsp), %xmm0
	movaps	160(%rsp), %xmm1
	movaps	176(%rsp), %xmm2
	movups	%xmm2, 32(%rax,%rcx)
	movups	%xmm1, 16(%rax,%rcx)
	movups	%xmm0, (%rax,%rcx)
	movq	856(%r13,%rbx,8), %rbx
	movzwl	(%rbx), %ebp
	leaq	128(%rbx), %r15
	leaq	8(%rbx), %rcx
	movzwl	2(%rbx), %r12d
	testq	%rbp, %rbp
	je	L(51_22)
	leaq	16(%rbx), %rdi
	movq	%rdx, 120(%rsp)
	leal	(,%rbp,8), %edx
	leaq	8(%rbx), %rsi
	callq	PLT(memmove)
	movaps	192(%rsp), %xmm0
	movaps	208(%rsp), %xmm1
	movaps	224(%rsp), %xmm2
	movaps	%xmm2, 64(%rsp)
	movaps	%xmm1, 48(%rsp)
	movaps	%xmm0, 32(%rsp)
	leaq	176(%rbx), %rdi
	movl	%ebp, %eax
	shll	$4, %eax
	leaq	(%rax,%rax,2), %rdx
	movq	%r15, %rsi
	callq	PLT(memmove)
	leaq	8(%rbx), %rcx
	movq	120(%rsp), %rdx
	jmp	L(51_23)
L(51_22):
	movaps	192(%rsp), %xmm0
	movaps	208(%rsp), %xmm1
	movaps	224(%rsp), %xmm2
	movaps	%xmm2, 64(%rsp)
	movaps	%xmm1, 48(%rsp)
	movaps	%xmm0, 32(%rsp)
L(51_23):
	incq	%rbp
	movq	%rdx, (%rcx)
	movaps	32(%rsp), %xmm0
	movaps	48(%rsp), %xmm1
	movaps	64(%rsp), %xmm2
	movups	%xmm2, 32(%r15)
	movups	%xmm1, 16(%r15)
	movups	%xmm0, (%r15)
	testw	%r14w, %r14w
	je	L(51_27)
	leaq	848(%rbx), %r15
	testw	%r12w, %r12w
	je	L(51_26)
	leaq	856(%rbx), %rdi
	leal	(,%rbp,8), %edx
	movq	%r15, %rsi
	callq	PLT(memmove)
L(51_26):
	movq	16(%rsp), %rax
	movq	%rax, (%r15)
L(51_27):
	movw	%bp, (%rbx)
	movq	24(%rsp), %rax
	movq	%rbx, 856(%r13,%rax,8)
	movzwl	128(%rsp), %eax
	movw	%ax, (%r13)
	movq	136(%rsp), %rax
	movq	%r13, (%rax)
	jmp	L(51_99)
L(51_30):
	movl	%r12d, %eax
	andl	$-4, %eax
	leal	(,%r12,8), %ecx
	andl	$-32, %ecx
	addq	%rbx, %rdx
	addq	$32, %rdx
	xorl	%r8d, %r8d
	.p2align	4
L(51_31):
	movups	8(%r15,%r8), %xmm0
	movups	24(%r15,%r8), %xmm1
	movups	%xmm0, -16(%rdx,%r8)
	movups	%xmm1, (%rdx,%r8)
	addq	$32, %r8
	cmpq	%r8, %rcx
	jne	L(51_31)
	cmpl	%r12d, %eax
	je	L(51_39)
	jmp	L(51_33)
L(51_56):
	movq	%r8, %r10
	andq	$-4, %r10
	leaq	(%rdi,%rax), %r11
	addq	$24, %r11
	xorl	%r14d, %r14d
	.p2align	4
L(51_57):
	movups	8(%r9,%r14,8), %xmm0
	movups	24(%r9,%r14,8), %xmm1
	movups	%xmm0, -16(%r11,%r14,8)
	movups	%xmm1, (%r11,%r14,8)
	addq	$4, %r14
	cmpq	%r14, %r10
	jne	L(51_57)
	cmpq	%r10, %r8
	jne	L(51_59)
L(51_65):
	leaq	128(%r13), %r12
	movq	%rcx, 32(%rsp)
	movq	%rdx, 40(%rsp)
	movq	$15, 48(%rsp)
	xorl	%r14d, %r14d
	leaq	144(%rsp), %rdi
	xorl	%edx, %edx
	callq	"std_alloc::vec::Vec::remove::<#7f26edd6ea879dba>"
	testw	%bx, %bx
	je	L(51_96)
	movq	80(%rsp), %rax
	movq	88(%rsp), %rdi
	movq	(%rax), %r14
	decq	%rdi
	cmpq	$257, %rdi
	jb	L(51_72)
	leaq	56(%rax), %rdx
	xorl	%r8d, %r8d
	.p2align	4
L(51_68):
	xorl	%ecx, %ecx
	.p2align	4
L(51_69):
	movups	-48(%rdx,%rcx,8), %xmm0
	movups	-32(%rdx,%rcx,8), %xmm1
	movups	-16(%rdx,%rcx,8), %xmm2
	movups	(%rdx,%rcx,8), %xmm3
	movups	%xmm0, -56(%rdx,%rcx,8)
	movups	%xmm1, -40(%rdx,%rcx,8)
	movups	%xmm2, -24(%rdx,%rcx,8)
	movups	%xmm3, -8(%rdx,%rcx,8)
	addq	$8, %rcx
	cmpq	$256, %rcx
	jne	L(51_69)
	addq	$256, %r8
	movq	%rdi, %rcx
	subq	%r8, %rcx
	addq	$2048, %rdx
	cmpq	$256, %rcx
	ja	L(51_68)
	leaq	(,%r8,8), %rsi
	leaq	(%rax,%r8,8), %rdx
	cmpq	%r8, %rdi
	jne	L(51_73)
	jmp	L(51_96)
L(51_72):
	xorl	%esi, %esi
	movq	%rax, %rdx
	movq	%rdi, %rcx
	xorl	%r8d, %r8d
	cmpq	%r8, %rdi
	je	L(51_96)
L(51_73):
	leaq	(%rax,%rsi), %rdi
	cmpq	$8, %rcx
	jb	L(51_74)
	movq	%rdi, %r8
	subq	%rdx, %r8
	addq	$-8, %r8
	cmpq	$32, %r8
	jae	L(51_87)
L(51_74):
	xorl	%r8d, %r8d
L(51_90):
	movq	%rcx, %r10
	movq	%r8, %r9
	andq	$3, %r10
	je	L(51_93)
	movq	%r8, %r9
	.p2align	4
L(51_92):
	movq	8(%rdx,%r9,8), %r11
	movq	%r11, (%rdi,%r9,8)
	incq	%r9
	decq	%r10
	jne	L(51_92)
L(51_93):
	subq	%rcx, %r8
	cmpq	$-4, %r8
	ja	L(51_96)
	addq	%rsi, %rax
	addq	$24, %rax
	.p2align	4
L(51_95):
	movq	8(%rdx,%r9,8), %rsi
	movq	%rsi, -24(%rax,%r9,8)
	movq	16(%rdx,%r9,8), %rsi
	movq	%rsi, -16(%rax,%r9,8)
	movq	24(%rdx,%r9,8), %rsi
	movq	%rsi, -8(%rax,%r9,8)
	movq	32(%rdx,%r9,8), %rsi
	movq	%rsi, (%rax,%r9,8)
	addq	$4, %r9
	cmpq	%r9, %rcx
	jne	L(51_95)
	jmp	L(51_96)
L(51_77):
	leaq	1(%r12), %rcx
	movl	%ecx, %eax
	andl	$-4, %eax
	leal	(,%rcx,8), %r8d
	andl	$-32, %r8d
	addq	%rbx, %rdx
	addq	$872, %rdx
	xorl	%r9d, %r9d
	.p2align	4
L(51_78):
	movups	848(%r15,%r9), %xmm0
	movups	864(%r15,%r9), %xmm1
	movups	%xmm0, -16(%rdx,%r9)
	movups	%xmm1, (%rdx,%r9)
	addq	$32, %r9
	cmpq	%r9, %r8
	jne	L(51_78)
	cmpl	%eax, %ecx
	je	L(51_86)
	jmp	L(51_80)
L(51_87):
	movl	%ecx, %r8d
	andl	$508, %r8d
	leaq	(%rsi,%rax), %r9
	addq	$16, %r9
	xorl	%r10d, %r10d
	.p2align	4
L(51_88):
	movups	8(%rdx,%r10,8), %xmm0
	movups	24(%rdx,%r10,8), %xmm1
	movups	%xmm0, -16(%r9,%r10,8)
	movups	%xmm1, (%r9,%r10,8)
	addq	$4, %r10
	cmpq	%r10, %r8
	jne	L(51_88)
	cmpq	%r8, %rcx
	jne	L(51_90)
L(51_96):
	movzwl	40(%rsp), %eax
	movq	104(%rsp), %rcx
	movw	%ax, (%rcx)
	movq	24(%rsp), %rdx
	movq	%rcx, 856(%r13,%rdx,8)
	movaps	144(%rsp), %xmm0
	movaps	160(%rsp), %xmm1
	movaps	176(%rsp), %xmm2
	movaps	%xmm2, 224(%rsp)
	movaps	%xmm1, 208(%rsp)
	movaps	%xmm0, 192(%rsp)
	movq	8(%r13,%rdx,8), %rsi
	movq	16(%rsp), %rax
	movq	%rax, 8(%r13,%rdx,8)
	leaq	(%rdx,%rdx,2), %rax
	shlq	$4, %rax
	movups	(%r12,%rax), %xmm0
	movups	16(%r12,%rax), %xmm1
	movups	32(%r12,%rax), %xmm2
	movaps	%xmm2, 304(%rsp)
	movaps	%xmm1, 288(%rsp)
	movaps	%xmm0, 272(%rsp)
	movaps	192(%rsp), %xmm0
	movaps	208(%rsp), %xmm1
	movaps	224(%rsp), %xmm2
	movups	%xmm0, (%r12,%rax)
	movups	%xmm1, 16(%r12,%rax)
	movups	%xmm2, 32(%r12,%rax)
	movq	848(%r13,%rdx,8), %rax
	movzwl	(%rax), %edi
	leaq	1(%rdi), %rcx
	movzwl	2(%rax), %edx
	movq	%rsi, 8(%rax,%rdi,8)
	leaq	(%rdi,%rdi,2), %rsi
	shll	$4, %esi
	movaps	272(%rsp), %xmm0
	movaps	288(%rsp), %xmm1
	movaps	304(%rsp), %xmm2
	movups	%xmm2, 160(%rax,%rsi)
	movups	%xmm1, 144(%rax,%rsi)
	movups	%xmm0, 128(%rax,%rsi)
	testw	%bx, %bx
	je	L(51_98)
	leal	(,%rcx,8), %esi
	xorl	%edi, %edi
	testw	%dx, %dx
	cmovneq	%rsi, %rdi
	movq	%r14, 848(%rax,%rdi)
L(51_98):
	movw	%cx, (%rax)
	movq	24(%rsp), %rcx
	movq	%rax, 848(%r13,%rcx,8)
	movw	%r15w, (%r13)
	movq	%r13, (%rbp)
L(51_99):
	addq	$328, %rsp
	.cfi_def_cfa_offset 56
	popq	%rbx
	.cfi_def_cfa_offset 48
	popq	%r12
	.cfi_def_cfa_offset 40
	popq	%r13
	.cfi_def_cfa_offset 32
	popq	%r14
	.cfi_def_cfa_offset 24
	popq	%r15
	.cfi_def_cfa_offset 16
	popq	%rbp
	.cfi_def_cfa_offset 8
	retq
	SIZE("std_collections::btree::node::Node::balance::<#1aacfcd96822f18e>")
	.cfi_endproc

CODE(".text.std_alloc::vec::Vec::remove::<#bb3624bd71ef2d03>")
	.p2align	4
	TYPE("std_alloc::vec::Vec::remove::<#bb3624bd71ef2d03>", function)
"std_alloc::vec::Vec::remove::<#bb3624bd71ef2d03>":
	.cfi_startproc
	pushq	%r15
	.cfi_def_cfa_offset 16
	pushq	%r14
	.cfi_def_cfa_offset 24
	pushq	%r12
	.cfi_def_cfa_offset 32
	pushq	%rbx
	.cfi_def_cfa_offset 40
	.cfi_offset %rbx, -40
	.cfi_offset %r12, -32
	.cfi_offset %r14, -24
	.cfi_offset %r15, -16
	movq	(%rdi), %rcx
	movq	8(%rdi), %r10
	movq	16(%rdi), %rdx
	xorps	%xmm0, %xmm0
	movups	%xmm0, 8(%rdi)
	leaq	(,%rsi,8), %r11
	movq	(%rcx,%rsi,8), %rax
	leaq	-1(%r10), %r8
	movq	%r8, %r9
	subq	%rsi, %r9
	cmpq	$-1, %rsi
	je	L(52_9)
	cmpq	$257, %r9
	jb	L(52_17)
	leaq	(%rcx,%rsi,8), %rbx
	leaq	(%rcx,%r11), %r14
	addq	$2048, %r14
	leaq	(%rcx,%r11), %r15
	addq	$56, %r15
	xorl	%r12d, %r12d
	jmp	L(52_4)
	.p2align	4
L(52_3):
	leaq	256(%r11), %rsi
	movq	%r8, %r9
	subq	%rsi, %r9
	incq	%r12
	addq	$2048, %r15
	addq	$2048, %rbx
	cmpq	$256, %r9
	jbe	L(52_18)
L(52_4):
	movq	%rsi, %r11
	cmpq	$-1, %rsi
	je	L(52_7)
	xorl	%esi, %esi
	.p2align	4
L(52_6):
	movups	-48(%r15,%rsi,8), %xmm0
	movups	-32(%r15,%rsi,8), %xmm1
	movups	-16(%r15,%rsi,8), %xmm2
	movups	(%r15,%rsi,8), %xmm3
	movups	%xmm0, -56(%r15,%rsi,8)
	movups	%xmm1, -40(%r15,%rsi,8)
	movups	%xmm2, -24(%r15,%rsi,8)
	movups	%xmm3, -8(%r15,%rsi,8)
	addq	$8, %rsi
	cmpq	$256, %rsi
	jne	L(52_6)
	jmp	L(52_3)
	.p2align	4
L(52_7):
	movq	%r12, %rsi
	shlq	$11, %rsi
	movq	(%r14,%rsi), %rsi
	movl	$2048, %r9d
	.p2align	4
L(52_8):
	movq	%rsi, -8(%rbx,%r9)
	movq	%rsi, -16(%rbx,%r9)
	movq	%rsi, -24(%rbx,%r9)
	movq	%rsi, -32(%rbx,%r9)
	addq	$-32, %r9
	jne	L(52_8)
	jmp	L(52_3)
L(52_9):
	testq	%r10, %r10
	je	L(52_36)
	xorl	%ebx, %ebx
	cmpq	$6, %r9
	jb	L(52_15)
	leaq	(,%rsi,8), %r14
	negq	%r14
	cmpq	$32, %r14
	jb	L(52_15)
	movq	%r9, %rbx
	andq	$-4, %rbx
	movq	%rbx, %r14
	negq	%r14
	leaq	-24(,%r10,8), %r15
	subq	%r11, %r15
	addq	%rcx, %r15
	leaq	(%rcx,%r10,8), %r11
	addq	$-24, %r11
	xorl	%r12d, %r12d
	.p2align	4
L(52_13):
	movups	-16(%r15,%r12,8), %xmm0
	movups	(%r15,%r12,8), %xmm1
	movups	%xmm1, (%r11,%r12,8)
	movups	%xmm0, -16(%r11,%r12,8)
	addq	$-4, %r12
	cmpq	%r12, %r14
	jne	L(52_13)
	cmpq	%rbx, %r9
	je	L(52_36)
L(52_15):
	leaq	(%rbx,%rsi), %r9
	addq	%rbx, %rsi
	incq	%rsi
	shlq	$3, %r9
	negq	%r9
	addq	%rcx, %r9
	addq	$-16, %r9
	shlq	$3, %rbx
	negq	%rbx
	leaq	(%rcx,%rbx), %r11
	addq	$-16, %r11
	.p2align	4
L(52_16):
	movq	(%r9,%r10,8), %rbx
	movq	%rbx, (%r11,%r10,8)
	decq	%r10
	cmpq	%r10, %rsi
	jne	L(52_16)
	jmp	L(52_36)
L(52_17):
	leaq	(%rcx,%r11), %r10
	cmpq	%rsi, %r8
	jne	L(52_20)
	jmp	L(52_36)
L(52_18):
	cmpq	$-1, %rsi
	je	L(52_24)
	leaq	(,%rsi,8), %r11
	leaq	(%rcx,%rsi,8), %r10
	cmpq	%rsi, %r8
	je	L(52_36)
L(52_20):
	cmpq	$8, %r9
	jb	L(52_21)
	leaq	(%r11,%rcx), %rsi
	subq	%r10, %rsi
	addq	$-8, %rsi
	cmpq	$32, %rsi
	jae	L(52_27)
L(52_21):
	xorl	%esi, %esi
L(52_30):
	movq	%r9, %r14
	movq	%rsi, %rbx
	andq	$3, %r14
	je	L(52_33)
	leaq	(%rcx,%r11), %r15
	movq	%rsi, %rbx
	.p2align	4
L(52_32):
	movq	8(%r10,%rbx,8), %r12
	movq	%r12, (%r15,%rbx,8)
	incq	%rbx
	decq	%r14
	jne	L(52_32)
L(52_33):
	subq	%r9, %rsi
	cmpq	$-4, %rsi
	ja	L(52_36)
	leaq	(%r11,%rcx), %rsi
	addq	$24, %rsi
	.p2align	4
L(52_35):
	movq	8(%r10,%rbx,8), %r11
	movq	%r11, -24(%rsi,%rbx,8)
	movq	16(%r10,%rbx,8), %r11
	movq	%r11, -16(%rsi,%rbx,8)
	movq	24(%r10,%rbx,8), %r11
	movq	%r11, -8(%rsi,%rbx,8)
	movq	32(%r10,%rbx,8), %r11
	movq	%r11, (%rsi,%rbx,8)
	addq	$4, %rbx
	cmpq	%rbx, %r9
	jne	L(52_35)
	jmp	L(52_36)
L(52_24):
	testq	%r10, %r10
	je	L(52_36)
	movq	-8(%rcx,%r10,8), %rsi
	addq	$-257, %r10
	.p2align	4
L(52_26):
	movq	%rsi, 2040(%rcx,%r10,8)
	decq	%r10
	cmpq	%r10, %r11
	jne	L(52_26)
	jmp	L(52_36)
L(52_27):
	movl	%r9d, %esi
	andl	$508, %esi
	leaq	(%r11,%rcx), %rbx
	addq	$16, %rbx
	xorl	%r14d, %r14d
	.p2align	4
L(52_28):
	movups	8(%r10,%r14,8), %xmm0
	movups	24(%r10,%r14,8), %xmm1
	movups	%xmm0, -16(%rbx,%r14,8)
	movups	%xmm1, (%rbx,%r14,8)
	addq	$4, %r14
	cmpq	%r14, %rsi
	jne	L(52_28)
	cmpq	%rsi, %r9
	jne	L(52_30)
L(52_36):
	movq	%rcx, (%rdi)
	movq	%r8, 8(%rdi)
	movq	%rdx, 16(%rdi)
	popq	%rbx
	.cfi_def_cfa_offset 32
	popq	%r12
	.cfi_def_cfa_offset 24
	popq	%r14
	.cfi_def_cfa_offset 16
	popq	%r15
	.cfi_def_cfa_offset 8
	retq
	SIZE("std_alloc::vec::Vec::remove::<#bb3624bd71ef2d03>")
	.cfi_endproc

SIZED(16, 4)
	.p2align	4, 0x0
D(CPI53_0):
	.long	1
	.long	0
	.long	0
	.long	0
CODE(".text.std_alloc::vec::lodged::Vec+T+Lodged::insert_reserved::<#667d5c0342a2aeff>")
	.p2align	4
	TYPE("std_alloc::vec::lodged::Vec+T+Lodged::insert_reserved::<#667d5c0342a2aeff>", function)
"std_alloc::vec::lodged::Vec+T+Lodged::insert_reserved::<#667d5c0342a2aeff>":
	.cfi_startproc
	pushq	%rbx
	.cfi_def_cfa_offset 16
	.cfi_offset %rbx, -16
	movups	(%rdx), %xmm0
	movups	16(%rdx), %xmm1
	movups	32(%rdx), %xmm2
	movaps	%xmm2, -16(%rsp)
	movaps	%xmm1, -32(%rsp)
	movaps	%xmm0, -48(%rsp)
	movq	(%rdi), %rax
	movq	8(%rdi), %rdx
	movdqu	8(%rdi), %xmm0
	xorps	%xmm1, %xmm1
	movups	%xmm1, 8(%rdi)
	cmpq	$-1, %rsi
	je	L(53_1)
	cmpq	%rsi, %rdx
	je	L(53_26)
	movq	%rdx, %rcx
	subq	%rsi, %rcx
	leaq	(%rsi,%rsi,2), %r8
	shlq	$4, %r8
	leaq	(%rax,%r8), %r9
	addq	%rax, %r8
	addq	$48, %r8
	leaq	1(%rsi), %r10
	cmpq	%r10, %rdx
	jne	L(53_22)
	xorl	%edx, %edx
	jmp	L(53_25)
L(53_1):
	leaq	1(%rdx), %rcx
	movq	%rcx, %r9
	cmpq	$43, %rcx
	jb	L(53_8)
	leaq	-48(%rax), %r9
	xorl	%r8d, %r8d
	jmp	L(53_3)
	.p2align	4
L(53_5):
	movups	(%r9), %xmm1
	movups	16(%r9), %xmm2
	movups	32(%r9), %xmm3
	movups	%xmm3, 32(%r10)
	movups	%xmm2, 16(%r10)
	movups	%xmm1, (%r10)
	movups	(%r9), %xmm1
	movups	16(%r9), %xmm2
	movups	32(%r9), %xmm3
	movups	%xmm1, 96(%r9)
	movups	%xmm2, 112(%r9)
	movups	%xmm3, 128(%r9)
	movups	%xmm1, 144(%r9)
	movups	%xmm2, 160(%r9)
	movups	%xmm3, 176(%r9)
	movups	%xmm1, 192(%r9)
	movups	%xmm2, 208(%r9)
	movups	%xmm3, 224(%r9)
	movups	%xmm3, 272(%r9)
	movups	%xmm2, 256(%r9)
	movups	%xmm1, 240(%r9)
	movups	(%r9), %xmm1
	movups	16(%r9), %xmm2
	movups	32(%r9), %xmm3
	movups	%xmm3, 320(%r9)
	movups	%xmm2, 304(%r9)
	movups	%xmm1, 288(%r9)
	movups	%xmm3, 368(%r9)
	movups	%xmm2, 352(%r9)
	movups	%xmm1, 336(%r9)
	movups	%xmm3, 416(%r9)
	movups	%xmm2, 400(%r9)
	movups	%xmm1, 384(%r9)
	movups	%xmm3, 464(%r9)
	movups	%xmm2, 448(%r9)
	movups	%xmm1, 432(%r9)
	movups	%xmm1, 480(%r9)
	movups	%xmm2, 496(%r9)
	movups	%xmm3, 512(%r9)
	movups	(%r9), %xmm1
	movups	16(%r9), %xmm2
	movups	32(%r9), %xmm3
	movups	%xmm3, 560(%r9)
	movups	%xmm2, 544(%r9)
	movups	%xmm1, 528(%r9)
	movups	(%r9), %xmm1
	movups	16(%r9), %xmm2
	movups	32(%r9), %xmm3
	movups	%xmm3, 608(%r9)
	movups	%xmm2, 592(%r9)
	movups	%xmm1, 576(%r9)
	movups	(%r9), %xmm1
	movups	16(%r9), %xmm2
	movups	32(%r9), %xmm3
	movups	%xmm3, 656(%r9)
	movups	%xmm2, 640(%r9)
	movups	%xmm1, 624(%r9)
	movups	(%r9), %xmm1
	movups	16(%r9), %xmm2
	movups	32(%r9), %xmm3
	movups	%xmm3, 704(%r9)
	movups	%xmm2, 688(%r9)
	movups	%xmm1, 672(%r9)
	movups	(%r9), %xmm1
	movups	16(%r9), %xmm2
	movups	32(%r9), %xmm3
	movups	%xmm3, 752(%r9)
	movups	%xmm2, 736(%r9)
	movups	%xmm1, 720(%r9)
	movups	(%r9), %xmm1
	movups	16(%r9), %xmm2
	movups	32(%r9), %xmm3
	movups	%xmm3, 800(%r9)
	movups	%xmm2, 784(%r9)
	movups	%xmm1, 768(%r9)
	movups	(%r9), %xmm1
	movups	16(%r9), %xmm2
	movups	32(%r9), %xmm3
	movups	%xmm3, 848(%r9)
	movups	%xmm2, 832(%r9)
	movups	%xmm1, 816(%r9)
	movups	(%r9), %xmm1
	movups	16(%r9), %xmm2
	movups	32(%r9), %xmm3
	movups	%xmm3, 896(%r9)
	movups	%xmm2, 880(%r9)
	movups	%xmm1, 864(%r9)
	movups	(%r9), %xmm1
	movups	16(%r9), %xmm2
	movups	32(%r9), %xmm3
	movups	%xmm3, 944(%r9)
	movups	%xmm2, 928(%r9)
	movups	%xmm1, 912(%r9)
	movups	(%r9), %xmm1
	movups	16(%r9), %xmm2
	movups	32(%r9), %xmm3
	movups	%xmm3, 992(%r9)
	movups	%xmm2, 976(%r9)
	movups	%xmm1, 960(%r9)
	movups	(%r9), %xmm1
	movups	16(%r9), %xmm2
	movups	32(%r9), %xmm3
	movups	%xmm3, 1040(%r9)
	movups	%xmm2, 1024(%r9)
	movups	%xmm1, 1008(%r9)
	movups	(%r9), %xmm1
	movups	16(%r9), %xmm2
	movups	32(%r9), %xmm3
	movups	%xmm3, 1088(%r9)
	movups	%xmm2, 1072(%r9)
	movups	%xmm1, 1056(%r9)
	movups	(%r9), %xmm1
	movups	16(%r9), %xmm2
	movups	32(%r9), %xmm3
	movups	%xmm3, 1136(%r9)
	movups	%xmm2, 1120(%r9)
	movups	%xmm1, 1104(%r9)
	movups	(%r9), %xmm1
	movups	16(%r9), %xmm2
	movups	32(%r9), %xmm3
	movups	%xmm3, 1184(%r9)
	movups	%xmm2, 1168(%r9)
	movups	%xmm1, 1152(%r9)
	movups	(%r9), %xmm1
	movups	16(%r9), %xmm2
	movups	32(%r9), %xmm3
	movups	%xmm3, 1232(%r9)
	movups	%xmm2, 1216(%r9)
	movups	%xmm1, 1200(%r9)
	movups	(%r9), %xmm1
	movups	16(%r9), %xmm2
	movups	32(%r9), %xmm3
	movups	%xmm3, 1280(%r9)
	movups	%xmm2, 1264(%r9)
	movups	%xmm1, 1248(%r9)
	movups	(%r9), %xmm1
	movups	16(%r9), %xmm2
	movups	32(%r9), %xmm3
	movups	%xmm3, 1328(%r9)
	movups	%xmm2, 1312(%r9)
	movups	%xmm1, 1296(%r9)
	movups	(%r9), %xmm1
	movups	16(%r9), %xmm2
	movups	32(%r9), %xmm3
	movups	%xmm3, 1376(%r9)
	movups	%xmm2, 1360(%r9)
	movups	%xmm1, 1344(%r9)
	movups	(%r9), %xmm1
	movups	16(%r9), %xmm2
	movups	32(%r9), %xmm3
	movups	%xmm3, 1424(%r9)
	movups	%xmm2, 1408(%r9)
	movups	%xmm1, 1392(%r9)
	movups	(%r9), %xmm1
	movups	16(%r9), %xmm2
	movups	32(%r9), %xmm3
	movups	%xmm3, 1472(%r9)
	movups	%xmm2, 1456(%r9)
	movups	%xmm1, 1440(%r9)
	movups	(%r9), %xmm1
	movups	16(%r9), %xmm2
	movups	32(%r9), %xmm3
	movups	%xmm3, 1520(%r9)
	movups	%xmm2, 1504(%r9)
	movups	%xmm1, 1488(%r9)
	movups	(%r9), %xmm1
	movups	16(%r9), %xmm2
	movups	32(%r9), %xmm3
	movups	%xmm3, 1568(%r9)
	movups	%xmm2, 1552(%r9)
	movups	%xmm1, 1536(%r9)
	movups	(%r9), %xmm1
	movups	16(%r9), %xmm2
	movups	32(%r9), %xmm3
	movups	%xmm3, 1616(%r9)
	movups	%xmm2, 1600(%r9)
	movups	%xmm1, 1584(%r9)
	movups	(%r9), %xmm1
	movups	16(%r9), %xmm2
	movups	32(%r9), %xmm3
	movups	%xmm3, 1664(%r9)
	movups	%xmm2, 1648(%r9)
	movups	%xmm1, 1632(%r9)
	movups	(%r9), %xmm1
	movups	16(%r9), %xmm2
	movups	32(%r9), %xmm3
	movups	%xmm3, 1712(%r9)
	movups	%xmm2, 1696(%r9)
	movups	%xmm1, 1680(%r9)
	movups	(%r9), %xmm1
	movups	16(%r9), %xmm2
	movups	32(%r9), %xmm3
	movups	%xmm3, 1760(%r9)
	movups	%xmm2, 1744(%r9)
	movups	%xmm1, 1728(%r9)
	movups	(%r9), %xmm1
	movups	16(%r9), %xmm2
	movups	32(%r9), %xmm3
	movups	%xmm3, 1808(%r9)
	movups	%xmm2, 1792(%r9)
	movups	%xmm1, 1776(%r9)
	movups	(%r9), %xmm1
	movups	16(%r9), %xmm2
	movups	32(%r9), %xmm3
	movups	%xmm3, 1856(%r9)
	movups	%xmm2, 1840(%r9)
	movups	%xmm1, 1824(%r9)
	movups	(%r9), %xmm1
	movups	16(%r9), %xmm2
	movups	32(%r9), %xmm3
	movups	%xmm3, 1904(%r9)
	movups	%xmm2, 1888(%r9)
	movups	%xmm1, 1872(%r9)
	movups	(%r9), %xmm1
	movups	16(%r9), %xmm2
	movups	32(%r9), %xmm3
	movups	%xmm3, 1952(%r9)
	movups	%xmm2, 1936(%r9)
	movups	%xmm1, 1920(%r9)
	movups	(%r9), %xmm1
	movups	16(%r9), %xmm2
	movups	32(%r9), %xmm3
	movups	%xmm3, 2000(%r9)
	movups	%xmm2, 1984(%r9)
	movups	%xmm1, 1968(%r9)
	movups	(%r9), %xmm1
	movups	16(%r9), %xmm2
	movups	32(%r9), %xmm3
	movups	%xmm3, 2048(%r9)
	movups	%xmm2, 2032(%r9)
	movups	%xmm1, 2016(%r9)
L(53_6):
	leaq	(%rcx,%r8), %r10
	addq	$-42, %r10
	addq	$-42, %r8
	addq	$2016, %r9
	cmpq	$42, %r10
	jbe	L(53_7)
L(53_3):
	leaq	48(%r9), %r10
	testq	%r8, %r8
	je	L(53_5)
	movups	2000(%r9), %xmm1
	movups	%xmm1, 2048(%r9)
	movups	1984(%r9), %xmm1
	movups	%xmm1, 2032(%r9)
	movups	1968(%r9), %xmm1
	movups	%xmm1, 2016(%r9)
	movups	1872(%r9), %xmm1
	movups	1888(%r9), %xmm2
	movups	1904(%r9), %xmm3
	movups	1920(%r9), %xmm4
	movups	%xmm4, 1968(%r9)
	movups	1936(%r9), %xmm4
	movups	%xmm4, 1984(%r9)
	movups	1952(%r9), %xmm4
	movups	%xmm4, 2000(%r9)
	movups	%xmm1, 1920(%r9)
	movups	%xmm2, 1936(%r9)
	movups	%xmm3, 1952(%r9)
	movups	1824(%r9), %xmm1
	movups	1840(%r9), %xmm2
	movups	1856(%r9), %xmm3
	movups	%xmm3, 1904(%r9)
	movups	%xmm2, 1888(%r9)
	movups	%xmm1, 1872(%r9)
	movups	1776(%r9), %xmm1
	movups	1792(%r9), %xmm2
	movups	1808(%r9), %xmm3
	movups	%xmm3, 1856(%r9)
	movups	%xmm2, 1840(%r9)
	movups	%xmm1, 1824(%r9)
	movups	1728(%r9), %xmm1
	movups	1744(%r9), %xmm2
	movups	1760(%r9), %xmm3
	movups	%xmm3, 1808(%r9)
	movups	%xmm2, 1792(%r9)
	movups	%xmm1, 1776(%r9)
	movups	1680(%r9), %xmm1
	movups	1696(%r9), %xmm2
	movups	1712(%r9), %xmm3
	movups	%xmm3, 1760(%r9)
	movups	%xmm2, 1744(%r9)
	movups	%xmm1, 1728(%r9)
	movups	1632(%r9), %xmm1
	movups	1648(%r9), %xmm2
	movups	1664(%r9), %xmm3
	movups	%xmm3, 1712(%r9)
	movups	%xmm2, 1696(%r9)
	movups	%xmm1, 1680(%r9)
	movups	1584(%r9), %xmm1
	movups	1600(%r9), %xmm2
	movups	1616(%r9), %xmm3
	movups	%xmm3, 1664(%r9)
	movups	%xmm2, 1648(%r9)
	movups	%xmm1, 1632(%r9)
	movups	1536(%r9), %xmm1
	movups	1552(%r9), %xmm2
	movups	1568(%r9), %xmm3
	movups	%xmm3, 1616(%r9)
	movups	%xmm2, 1600(%r9)
	movups	%xmm1, 1584(%r9)
	movups	1488(%r9), %xmm1
	movups	1504(%r9), %xmm2
	movups	1520(%r9), %xmm3
	movups	%xmm3, 1568(%r9)
	movups	%xmm2, 1552(%r9)
	movups	%xmm1, 1536(%r9)
	movups	1440(%r9), %xmm1
	movups	1456(%r9), %xmm2
	movups	1472(%r9), %xmm3
	movups	%xmm3, 1520(%r9)
	movups	%xmm2, 1504(%r9)
	movups	%xmm1, 1488(%r9)
	movups	1392(%r9), %xmm1
	movups	1408(%r9), %xmm2
	movups	1424(%r9), %xmm3
	movups	%xmm3, 1472(%r9)
	movups	%xmm2, 1456(%r9)
	movups	%xmm1, 1440(%r9)
	movups	1344(%r9), %xmm1
	movups	1360(%r9), %xmm2
	movups	1376(%r9), %xmm3
	movups	%xmm3, 1424(%r9)
	movups	%xmm2, 1408(%r9)
	movups	%xmm1, 1392(%r9)
	movups	1296(%r9), %xmm1
	movups	1312(%r9), %xmm2
	movups	1328(%r9), %xmm3
	movups	%xmm3, 1376(%r9)
	movups	%xmm2, 1360(%r9)
	movups	%xmm1, 1344(%r9)
	movups	1248(%r9), %xmm1
	movups	1264(%r9), %xmm2
	movups	1280(%r9), %xmm3
	movups	%xmm3, 1328(%r9)
	movups	%xmm2, 1312(%r9)
	movups	%xmm1, 1296(%r9)
	movups	1200(%r9), %xmm1
	movups	1216(%r9), %xmm2
	movups	1232(%r9), %xmm3
	movups	%xmm3, 1280(%r9)
	movups	%xmm2, 1264(%r9)
	movups	%xmm1, 1248(%r9)
	movups	1152(%r9), %xmm1
	movups	1168(%r9), %xmm2
	movups	1184(%r9), %xmm3
	movups	%xmm3, 1232(%r9)
	movups	%xmm2, 1216(%r9)
	movups	%xmm1, 1200(%r9)
	movups	1104(%r9), %xmm1
	movups	1120(%r9), %xmm2
	movups	1136(%r9), %xmm3
	movups	%xmm3, 1184(%r9)
	movups	%xmm2, 1168(%r9)
	movups	%xmm1, 1152(%r9)
	movups	1056(%r9), %xmm1
	movups	1072(%r9), %xmm2
	movups	1088(%r9), %xmm3
	movups	%xmm3, 1136(%r9)
	movups	%xmm2, 1120(%r9)
	movups	%xmm1, 1104(%r9)
	movups	1008(%r9), %xmm1
	movups	1024(%r9), %xmm2
	movups	1040(%r9), %xmm3
	movups	%xmm3, 1088(%r9)
	movups	%xmm2, 1072(%r9)
	movups	%xmm1, 1056(%r9)
	movups	960(%r9), %xmm1
	movups	976(%r9), %xmm2
	movups	992(%r9), %xmm3
	movups	%xmm3, 1040(%r9)
	movups	%xmm2, 1024(%r9)
	movups	%xmm1, 1008(%r9)
	movups	912(%r9), %xmm1
	movups	928(%r9), %xmm2
	movups	944(%r9), %xmm3
	movups	%xmm3, 992(%r9)
	movups	%xmm2, 976(%r9)
	movups	%xmm1, 960(%r9)
	movups	864(%r9), %xmm1
	movups	880(%r9), %xmm2
	movups	896(%r9), %xmm3
	movups	%xmm3, 944(%r9)
	movups	%xmm2, 928(%r9)
	movups	%xmm1, 912(%r9)
	movups	816(%r9), %xmm1
	movups	832(%r9), %xmm2
	movups	848(%r9), %xmm3
	movups	%xmm3, 896(%r9)
	movups	%xmm2, 880(%r9)
	movups	%xmm1, 864(%r9)
	movups	768(%r9), %xmm1
	movups	784(%r9), %xmm2
	movups	800(%r9), %xmm3
	movups	%xmm3, 848(%r9)
	movups	%xmm2, 832(%r9)
	movups	%xmm1, 816(%r9)
	movups	720(%r9), %xmm1
	movups	736(%r9), %xmm2
	movups	752(%r9), %xmm3
	movups	%xmm3, 800(%r9)
	movups	%xmm2, 784(%r9)
	movups	%xmm1, 768(%r9)
	movups	672(%r9), %xmm1
	movups	688(%r9), %xmm2
	movups	704(%r9), %xmm3
	movups	%xmm3, 752(%r9)
	movups	%xmm2, 736(%r9)
	movups	%xmm1, 720(%r9)
	movups	624(%r9), %xmm1
	movups	640(%r9), %xmm2
	movups	656(%r9), %xmm3
	movups	%xmm3, 704(%r9)
	movups	%xmm2, 688(%r9)
	movups	%xmm1, 672(%r9)
	movups	576(%r9), %xmm1
	movups	592(%r9), %xmm2
	movups	608(%r9), %xmm3
	movups	%xmm3, 656(%r9)
	movups	%xmm2, 640(%r9)
	movups	%xmm1, 624(%r9)
	movups	528(%r9), %xmm1
	movups	544(%r9), %xmm2
	movups	560(%r9), %xmm3
	movups	%xmm3, 608(%r9)
	movups	%xmm2, 592(%r9)
	movups	%xmm1, 576(%r9)
	movups	480(%r9), %xmm1
	movups	496(%r9), %xmm2
	movups	512(%r9), %xmm3
	movups	%xmm3, 560(%r9)
	movups	%xmm2, 544(%r9)
	movups	%xmm1, 528(%r9)
	movups	432(%r9), %xmm1
	movups	448(%r9), %xmm2
	movups	464(%r9), %xmm3
	movups	%xmm3, 512(%r9)
	movups	%xmm2, 496(%r9)
	movups	%xmm1, 480(%r9)
	movups	384(%r9), %xmm1
	movups	400(%r9), %xmm2
	movups	416(%r9), %xmm3
	movups	%xmm3, 464(%r9)
	movups	%xmm2, 448(%r9)
	movups	%xmm1, 432(%r9)
	movups	336(%r9), %xmm1
	movups	352(%r9), %xmm2
	movups	368(%r9), %xmm3
	movups	%xmm3, 416(%r9)
	movups	%xmm2, 400(%r9)
	movups	%xmm1, 384(%r9)
	movups	288(%r9), %xmm1
	movups	304(%r9), %xmm2
	movups	320(%r9), %xmm3
	movups	%xmm3, 368(%r9)
	movups	%xmm2, 352(%r9)
	movups	%xmm1, 336(%r9)
	movups	240(%r9), %xmm1
	movups	256(%r9), %xmm2
	movups	272(%r9), %xmm3
	movups	%xmm3, 320(%r9)
	movups	%xmm2, 304(%r9)
	movups	%xmm1, 288(%r9)
	movups	192(%r9), %xmm1
	movups	208(%r9), %xmm2
	movups	224(%r9), %xmm3
	movups	%xmm3, 272(%r9)
	movups	%xmm2, 256(%r9)
	movups	%xmm1, 240(%r9)
	movups	144(%r9), %xmm1
	movups	160(%r9), %xmm2
	movups	176(%r9), %xmm3
	movups	%xmm3, 224(%r9)
	movups	%xmm2, 208(%r9)
	movups	%xmm1, 192(%r9)
	movups	96(%r9), %xmm1
	movups	112(%r9), %xmm2
	movups	128(%r9), %xmm3
	movups	%xmm3, 176(%r9)
	movups	%xmm2, 160(%r9)
	movups	%xmm1, 144(%r9)
	movups	(%r10), %xmm1
	movups	16(%r10), %xmm2
	movups	32(%r10), %xmm3
	movups	%xmm3, 128(%r9)
	movups	%xmm2, 112(%r9)
	movups	%xmm1, 96(%r9)
	movups	(%r9), %xmm1
	movups	16(%r9), %xmm2
	movups	32(%r9), %xmm3
	movups	%xmm1, (%r10)
	movups	%xmm2, 16(%r10)
	movups	%xmm3, 32(%r10)
	jmp	L(53_6)
L(53_7):
	leaq	(%rcx,%r8), %r9
	testq	%r8, %r8
	je	L(53_8)
	testq	%r9, %r9
	je	L(53_26)
	addq	%r8, %rcx
	leaq	(%rdx,%rdx,2), %rdx
	shlq	$4, %rdx
	addq	%rax, %rdx
	.p2align	4
L(53_18):
	movups	-48(%rdx), %xmm1
	movups	-32(%rdx), %xmm2
	movups	-16(%rdx), %xmm3
	movups	%xmm3, 32(%rdx)
	movups	%xmm2, 16(%rdx)
	movups	%xmm1, (%rdx)
	addq	$-48, %rdx
	decq	%rcx
	jne	L(53_18)
	jmp	L(53_26)
L(53_8):
	testq	%rcx, %rcx
	je	L(53_26)
	leaq	-1(%r9), %rdx
	movl	%r9d, %ecx
	andl	$3, %ecx
	cmpq	$3, %rdx
	jae	L(53_11)
	xorl	%edx, %edx
	jmp	L(53_14)
L(53_22):
	movq	%rcx, %r10
	andq	$-2, %r10
	leaq	(%rdx,%rdx,2), %r11
	shlq	$4, %r11
	addq	%rax, %r11
	xorl	%edx, %edx
	.p2align	4
L(53_23):
	movups	-48(%r11), %xmm1
	movups	-32(%r11), %xmm2
	movups	-16(%r11), %xmm3
	movups	%xmm3, 32(%r11)
	movups	%xmm2, 16(%r11)
	movups	%xmm1, (%r11)
	movabsq	$1152921504606846974, %rbx
	xorq	%rdx, %rbx
	addq	%rcx, %rbx
	shlq	$4, %rbx
	leaq	(%rbx,%rbx,2), %rbx
	movups	(%r9,%rbx), %xmm1
	movups	16(%r9,%rbx), %xmm2
	movups	32(%r9,%rbx), %xmm3
	movups	%xmm3, 32(%r8,%rbx)
	movups	%xmm2, 16(%r8,%rbx)
	movups	%xmm1, (%r8,%rbx)
	addq	$2, %rdx
	addq	$-96, %r11
	cmpq	%rdx, %r10
	jne	L(53_23)
	testb	$1, %cl
	je	L(53_26)
L(53_25):
	notq	%rdx
	addq	%rdx, %rcx
	shlq	$4, %rcx
	leaq	(%rcx,%rcx,2), %rcx
	movups	(%r9,%rcx), %xmm1
	movups	16(%r9,%rcx), %xmm2
	movups	32(%r9,%rcx), %xmm3
	movups	%xmm3, 32(%r8,%rcx)
	movups	%xmm2, 16(%r8,%rcx)
	movups	%xmm1, (%r8,%rcx)
	jmp	L(53_26)
L(53_11):
	andl	$60, %r9d
	xorl	%edx, %edx
	movq	%rax, %r8
	.p2align	4
L(53_12):
	movups	-48(%r8), %xmm1
	movups	-32(%r8), %xmm2
	movups	-16(%r8), %xmm3
	movups	%xmm3, 32(%r8)
	movups	%xmm2, 16(%r8)
	movups	%xmm1, (%r8)
	movups	%xmm1, 48(%r8)
	movups	%xmm2, 64(%r8)
	movups	%xmm3, 80(%r8)
	movups	%xmm1, 96(%r8)
	movups	%xmm2, 112(%r8)
	movups	%xmm3, 128(%r8)
	movups	%xmm1, 144(%r8)
	movups	%xmm3, 176(%r8)
	movups	%xmm2, 160(%r8)
	addq	$4, %rdx
	addq	$192, %r8
	cmpq	%rdx, %r9
	jne	L(53_12)
	testq	%rcx, %rcx
	je	L(53_26)
L(53_14):
	leaq	(%rdx,%rdx,2), %rdx
	shlq	$4, %rdx
	addq	%rax, %rdx
	shll	$4, %ecx
	leaq	(%rcx,%rcx,2), %rcx
	xorl	%r8d, %r8d
	.p2align	4
L(53_15):
	movups	-48(%rdx,%r8), %xmm1
	movups	-32(%rdx,%r8), %xmm2
	movups	-16(%rdx,%r8), %xmm3
	movups	%xmm3, 32(%rdx,%r8)
	movups	%xmm2, 16(%rdx,%r8)
	movups	%xmm1, (%rdx,%r8)
	addq	$48, %r8
	cmpq	%r8, %rcx
	jne	L(53_15)
L(53_26):
	leaq	(%rsi,%rsi,2), %rcx
	shlq	$4, %rcx
	movaps	-48(%rsp), %xmm1
	movaps	-32(%rsp), %xmm2
	movaps	-16(%rsp), %xmm3
	movups	%xmm3, 32(%rax,%rcx)
	movups	%xmm2, 16(%rax,%rcx)
	movups	%xmm1, (%rax,%rcx)
	movq	%rax, (%rdi)
	paddq	D(CPI53_0)(%rip), %xmm0
	movdqu	%xmm0, 8(%rdi)
	popq	%rbx
	.cfi_def_cfa_offset 8
	retq
	SIZE("std_alloc::vec::lodged::Vec+T+Lodged::insert_reserved::<#667d5c0342a2aeff>")
	.cfi_endproc

CODE(".text.xetroot::xet_merkle++merkle_hash_subtree++subtree++MerkleHashSubtree+Destruct::drop::<#024afdc31600bcbd>")
	.p2align	4
	TYPE("xetroot::xet_merkle++merkle_hash_subtree++subtree++MerkleHashSubtree+Destruct::drop::<#024afdc31600bcbd>", function)
"xetroot::xet_merkle++merkle_hash_subtree++subtree++MerkleHashSubtree+Destruct::drop::<#024afdc31600bcbd>":
	.cfi_startproc
	pushq	%rbp
	.cfi_def_cfa_offset 16
	pushq	%r15
	.cfi_def_cfa_offset 24
	pushq	%r14
	.cfi_def_cfa_offset 32
	pushq	%r13
	.cfi_def_cfa_offset 40
	pushq	%r12
	.cfi_def_cfa_offset 48
	pushq	%rbx
	.cfi_def_cfa_offset 56
	pushq	%rax
	.cfi_def_cfa_offset 64
	.cfi_offset %rbx, -56
	.cfi_offset %r12, -48
	.cfi_offset %r13, -40
	.cfi_offset %r14, -32
	.cfi_offset %r15, -24
	.cfi_offset %rbp, -16
	movq	8(%rdi), %rbx
	movq	16(%rdi), %r12
	movq	24(%rdi), %r15
	testq	%r12, %r12
	je	L(54_7)
	leaq	48(%rbx), %r13
	jmp	L(54_2)
	.p2align	4
L(54_6):
	addq	$56, %r13
	decq	%r12
	je	L(54_7)
L(54_2):
	movq	-16(%r13), %r14
	movq	(%r13), %rbp
	cmpq	$0, -32(%r13)
	je	L(54_4)
	movq	-48(%r13), %rdi
	callq	PLT(yurewha_heap_dealloc)
L(54_4):
	testq	%rbp, %rbp
	je	L(54_6)
	movq	%r14, %rdi
	callq	PLT(yurewha_heap_dealloc)
	jmp	L(54_6)
L(54_7):
	testq	%r15, %r15
	je	L(54_8)
	movq	%rbx, %rdi
	addq	$8, %rsp
	.cfi_def_cfa_offset 56
	popq	%rbx
	.cfi_def_cfa_offset 48
	popq	%r12
	.cfi_def_cfa_offset 40
	popq	%r13
	.cfi_def_cfa_offset 32
	popq	%r14
	.cfi_def_cfa_offset 24
	popq	%r15
	.cfi_def_cfa_offset 16
	popq	%rbp
	.cfi_def_cfa_offset 8
	jmp	PLT(yurewha_heap_dealloc)
L(54_8):
	.cfi_def_cfa_offset 64
	addq	$8, %rsp
	.cfi_def_cfa_offset 56
	popq	%rbx
	.cfi_def_cfa_offset 48
	popq	%r12
	.cfi_def_cfa_offset 40
	popq	%r13
	.cfi_def_cfa_offset 32
	popq	%r14
	.cfi_def_cfa_offset 24
	popq	%r15
	.cfi_def_cfa_offset 16
	popq	%rbp
	.cfi_def_cfa_offset 8
	retq
	SIZE("xetroot::xet_merkle++merkle_hash_subtree++subtree++MerkleHashSubtree+Destruct::drop::<#024afdc31600bcbd>")
	.cfi_endproc

CODE(".text.std_collections::btree_map::BTreeMap::insert::<#09be7a39fcfa9307>")
	.p2align	4
	TYPE("std_collections::btree_map::BTreeMap::insert::<#09be7a39fcfa9307>", function)
"std_collections::btree_map::BTreeMap::insert::<#09be7a39fcfa9307>":
	.cfi_startproc
	pushq	%rbp
	.cfi_def_cfa_offset 16
	pushq	%r15
	.cfi_def_cfa_offset 24
	pushq	%r14
	.cfi_def_cfa_offset 32
	pushq	%r13
	.cfi_def_cfa_offset 40
	pushq	%r12
	.cfi_def_cfa_offset 48
	pushq	%rbx
	.cfi_def_cfa_offset 56
	subq	$712, %rsp
	.cfi_def_cfa_offset 768
	.cfi_offset %rbx, -56
	.cfi_offset %r12, -48
	.cfi_offset %r13, -40
	.cfi_offset %r14, -32
	.cfi_offset %r15, -24
	.cfi_offset %rbp, -16
	movq	%rdx, %r14
	movq	%rdi, %r9
	movups	(%rcx), %xmm0
	movups	16(%rcx), %xmm1
	movups	32(%rcx), %xmm2
	movaps	%xmm2, 208(%rsp)
	movaps	%xmm1, 192(%rsp)
	movaps	%xmm0, 176(%rsp)
	xorps	%xmm0, %xmm0
	movaps	%xmm0, 400(%rsp)
	movaps	%xmm0, 416(%rsp)
	movaps	%xmm0, 432(%rsp)
	movaps	%xmm0, 352(%rsp)
	movaps	%xmm0, 368(%rsp)
	movaps	%xmm0, 384(%rsp)
	movaps	%xmm0, 592(%rsp)
	movaps	%xmm0, 608(%rsp)
	movaps	%xmm0, 624(%rsp)
	cmpb	$1, (%rsi)
	jne	L(55_2)
	movq	8(%rsi), %rdx
	jmp	L(55_4)
L(55_2):
	movq	%rsi, %r15
	movl	$848, %edi
	movl	$8, %esi
	movq	%r9, %rbx
	callq	PLT(yurewha_heap_alloc)
	movq	%rbx, %r9
	testb	$1, %al
	je	L(55_16)
	movl	$0, (%rdx)
	movq	%r15, %rsi
	movzbl	(%r15), %eax
	movq	$1, (%r15)
	movq	%rdx, 8(%r15)
	cmpb	$1, %al
	je	L(55_109)
L(55_4):
	leaq	8(%rsi), %rax
	movq	%rax, 16(%rsp)
	movzwl	2(%rdx), %r13d
	movl	$15, %r8d
	subq	%r13, %r8
	movl	%r13d, %r15d
	negb	%r15b
	xorl	%ebx, %ebx
	movq	%rdx, %rdi
	xorl	%ebp, %ebp
	movq	%rdx, 8(%rsp)
	movq	%r8, 32(%rsp)
	xorl	%r12d, %r12d
	movq	%rdi, %rcx
	movzwl	(%rdi), %r10d
	testq	%r10, %r10
	jne	L(55_5)
L(55_10):
	xorl	%eax, %eax
L(55_11):
	shlq	$4, %r12
	addq	%rax, %r12
	incq	%r8
	cmpw	$0, 2(%rcx)
	je	L(55_15)
	movq	848(%rcx,%rax,8), %rdi
	incq	%rbx
	incb	%r15b
	movq	%rax, %rbp
	movq	%rcx, 8(%rsp)
	movq	%rdi, %rcx
	movzwl	(%rdi), %r10d
	testq	%r10, %r10
	je	L(55_10)
L(55_5):
	movq	%r8, %r11
	xorl	%eax, %eax
	.p2align	4
L(55_6):
	movq	8(%rcx,%rax,8), %rdi
	cmpq	%rdi, %r14
	setae	%r8b
	addb	%r8b, %r8b
	cmpq	%rdi, %r14
	movzbl	%r8b, %r8d
	movl	$1, %edi
	cmovnel	%r8d, %edi
	cmpb	$2, %dil
	jne	L(55_9)
	incq	%rax
	cmpq	%rax, %r10
	jne	L(55_6)
	movq	%r10, %rax
	movq	%r11, %r8
	jmp	L(55_11)
	.p2align	4
L(55_9):
	movzbl	%dil, %edi
	testl	%edi, %edi
	movq	%r11, %r8
	je	L(55_11)
	andl	$15, %eax
	addq	%r8, %r13
	cmpq	$15, %r13
	movq	8(%rsp), %rcx
	leaq	848(%rcx,%rbp,8), %rcx
	cmoveq	16(%rsp), %rcx
	movq	(%rcx), %rcx
	movzwl	(%rcx), %edx
	cmpq	%rdx, %rax
	jae	L(55_109)
	leaq	(%rax,%rax,2), %rax
	shll	$4, %eax
	movups	128(%rcx,%rax), %xmm0
	movups	144(%rcx,%rax), %xmm1
	movups	160(%rcx,%rax), %xmm2
	movaps	%xmm2, 432(%rsp)
	movaps	%xmm1, 416(%rsp)
	movaps	%xmm0, 400(%rsp)
	movaps	176(%rsp), %xmm0
	movaps	192(%rsp), %xmm1
	movaps	208(%rsp), %xmm2
	movups	%xmm0, 128(%rcx,%rax)
	movups	%xmm1, 144(%rcx,%rax)
	movups	%xmm2, 160(%rcx,%rax)
	movq	$0, (%r9)
	movq	$1, 8(%r9)
	movaps	400(%rsp), %xmm0
	movaps	416(%rsp), %xmm1
	movaps	432(%rsp), %xmm2
	jmp	L(55_17)
L(55_15):
	movabsq	$9223372036854775806, %rax
	movq	%rsi, 40(%rsp)
	cmpq	%rax, 16(%rsi)
	jbe	L(55_19)
L(55_16):
	movq	$1, (%r9)
	movq	%r14, 8(%r9)
	movaps	176(%rsp), %xmm0
	movaps	192(%rsp), %xmm1
	movaps	208(%rsp), %xmm2
L(55_17):
	movups	%xmm0, 16(%r9)
	movups	%xmm1, 32(%r9)
	movups	%xmm2, 48(%r9)
L(55_18):
	addq	$712, %rsp
	.cfi_def_cfa_offset 56
	popq	%rbx
	.cfi_def_cfa_offset 48
	popq	%r12
	.cfi_def_cfa_offset 40
	popq	%r13
	.cfi_def_cfa_offset 32
	popq	%r14
	.cfi_def_cfa_offset 24
	popq	%r15
	.cfi_def_cfa_offset 16
	popq	%rbp
	.cfi_def_cfa_offset 8
	retq
L(55_19):
	.cfi_def_cfa_offset 768
	movq	%r8, %rax
	movq	32(%rsp), %rcx
	subq	%rcx, %rax
	cmpq	$1, %rax
	movq	8(%rsp), %rax
	movq	%rbp, %rsi
	leaq	848(%rax,%rbp,8), %rax
	movq	16(%rsp), %r11
	cmoveq	%r11, %rax
	movq	(%rax), %rax
	cmpw	$14, (%rax)
	movq	%r9, 24(%rsp)
	ja	L(55_21)
	movaps	176(%rsp), %xmm0
	movaps	192(%rsp), %xmm1
	movaps	208(%rsp), %xmm2
	movaps	%xmm2, 384(%rsp)
	movaps	%xmm1, 368(%rsp)
	movaps	%xmm0, 352(%rsp)
	jmp	L(55_102)
L(55_21):
	cmpw	$15, (%rdx)
	movq	%rcx, %rdi
	movq	%r8, 128(%rsp)
	jae	L(55_26)
	xorps	%xmm0, %xmm0
	movaps	%xmm0, 48(%rsp)
	cmpq	%rdi, %r8
	jbe	L(55_32)
L(55_23):
	movl	%r8d, %eax
	subl	%edi, %eax
	addq	%rcx, %rbx
	subq	%rdi, %rbx
	testb	$3, %al
	je	L(55_29)
	subb	%dil, %r15b
	movzbl	%r15b, %ecx
	andl	$3, %ecx
	movq	%r8, %rax
L(55_25):
	movl	%r12d, %esi
	andb	$15, %sil
	movb	%sil, 47(%rsp,%rax)
	decq	%rax
	shrq	$4, %r12
	decq	%rcx
	jne	L(55_25)
	jmp	L(55_30)
L(55_26):
	cmpw	$10, %r13w
	ja	L(55_16)
	movl	$976, %edi
	movl	$8, %esi
	callq	PLT(yurewha_heap_alloc)
	movq	32(%rsp), %rcx
	movq	16(%rsp), %r11
	movq	24(%rsp), %r9
	testb	$1, %al
	je	L(55_16)
	movq	%rbp, %rsi
	leal	1(%r13), %eax
	movw	%ax, 2(%rdx)
	movq	(%r11), %rax
	movq	%rax, 848(%rdx)
	movw	$0, (%rdx)
	movq	%rdx, (%r11)
	movl	$14, %edi
	subq	%r13, %rdi
	movq	128(%rsp), %r8
	xorps	%xmm0, %xmm0
	movaps	%xmm0, 48(%rsp)
	cmpq	%rdi, %r8
	ja	L(55_23)
	jmp	L(55_32)
L(55_29):
	movq	%r8, %rax
L(55_30):
	cmpq	$3, %rbx
	movq	%rbp, %rsi
	jb	L(55_32)
L(55_31):
	movl	%r12d, %ecx
	andb	$15, %cl
	movb	%cl, 47(%rsp,%rax)
	movl	%r12d, %ecx
	shrb	$4, %cl
	movb	%cl, 46(%rsp,%rax)
	movl	%r12d, %ecx
	shrl	$8, %ecx
	andb	$15, %cl
	movb	%cl, 45(%rsp,%rax)
	movl	%r12d, %ecx
	shrl	$12, %ecx
	andb	$15, %cl
	movb	%cl, 44(%rsp,%rax)
	addq	$-4, %rax
	shrq	$16, %r12
	cmpq	%rax, %rdi
	jb	L(55_31)
L(55_32):
	movaps	48(%rsp), %xmm0
	movaps	%xmm0, 640(%rsp)
	leaq	(%rsp,%rdi), %r8
	addq	$640, %r8
	movl	$16, %r10d
	subq	%rdi, %r10
	cmpq	$2, %r10
	movq	%r11, %r12
	jb	L(55_91)
	movq	%r10, %r15
	movq	%r8, 224(%rsp)
	movq	%r8, %r13
	movq	%r12, %rdx
	movq	%r10, 136(%rsp)
	movq	%rdi, 144(%rsp)
	jmp	L(55_37)
L(55_34):
	movq	8(%rsp), %rcx
	incl	%ecx
	movb	%cl, (%r13)
	addb	$-8, %al
	movb	%al, 1(%r13)
L(55_35):
	movq	24(%rsp), %r9
	movq	16(%rsp), %r11
	movq	144(%rsp), %rdi
	movq	136(%rsp), %r10
	movq	152(%rsp), %r15
L(55_36):
	movzbl	%cl, %esi
	leaq	(%r8,%rsi,8), %rdx
	addq	$848, %rdx
	incq	%r13
	cmpq	$2, %r15
	leaq	-1(%r15), %r15
	jbe	L(55_90)
L(55_37):
	movzbl	(%r13), %ecx
	movq	(%rdx), %r8
	leal	(,%rcx,8), %esi
	movq	848(%r8,%rsi), %rax
	cmpw	$15, (%rax)
	jb	L(55_36)
	movq	%rsi, 168(%rsp)
	movq	%rdx, 32(%rsp)
	movq	%rcx, 8(%rsp)
	movzwl	2(%r8), %ebx
	decq	%rbx
	movq	%r15, 152(%rsp)
	movq	%r13, 264(%rsp)
	je	L(55_40)
	movl	$976, %edi
	jmp	L(55_41)
L(55_40):
	movl	$848, %edi
L(55_41):
	movl	$8, %esi
	callq	PLT(yurewha_heap_alloc)
	testb	$1, %al
	je	L(55_105)
	movq	%rdx, %r12
	movw	%bx, 2(%rdx)
	leaq	8(%rdx), %rdi
	leaq	128(%rdx), %r13
	movq	32(%rsp), %rax
	movq	(%rax), %rcx
	xorps	%xmm0, %xmm0
	movaps	%xmm0, 528(%rsp)
	movaps	%xmm0, 512(%rsp)
	movaps	%xmm0, 496(%rsp)
	movzwl	(%rcx), %r10d
	leaq	1(%r10), %r9
	xorl	%eax, %eax
	xorl	%edx, %edx
	cmpw	$0, 2(%rcx)
	setne	%dl
	movq	%r9, %rsi
	cmoveq	%rax, %rsi
	shll	$4, %edx
	leaq	848(%rcx), %rbx
	leaq	128(%rcx), %r8
	leaq	8(%rcx), %r11
	movq	%r11, 240(%rsp)
	movq	%r11, 272(%rsp)
	movq	%r10, 280(%rsp)
	movq	$15, 288(%rsp)
	movq	%r8, 296(%rsp)
	movq	%r10, 248(%rsp)
	movq	%r10, 304(%rsp)
	movq	$15, 312(%rsp)
	movq	%rbx, 232(%rsp)
	movq	%rbx, 320(%rsp)
	movq	%rsi, 328(%rsp)
	movq	%rdx, 336(%rsp)
	movq	%rcx, 344(%rsp)
	movaps	%xmm0, 480(%rsp)
	movaps	%xmm0, 464(%rsp)
	movaps	%xmm0, 448(%rsp)
	movq	168(%rsp), %rdx
	movq	848(%rcx,%rdx), %r15
	movaps	%xmm0, 688(%rsp)
	movaps	%xmm0, 672(%rsp)
	movaps	%xmm0, 656(%rsp)
	movzwl	2(%r15), %ebp
	movzwl	(%r15), %ebx
	leaq	1(%rbx), %rcx
	xorl	%edx, %edx
	testw	%bp, %bp
	cmoveq	%rax, %rcx
	setne	%dl
	shll	$4, %edx
	leaq	848(%r15), %rax
	leaq	128(%r15), %rsi
	movq	%rsi, 72(%rsp)
	movq	$15, 88(%rsp)
	movq	%rax, 96(%rsp)
	movq	%rcx, 104(%rsp)
	movq	%rdx, 112(%rsp)
	movq	%r15, 120(%rsp)
	leaq	-8(%rbx), %r8
	leaq	72(%r15), %rsi
	leaq	-64(,%rbx,8), %rdx
	movq	%rdi, %rax
	subq	%rsi, %rax
	cmpq	%rdx, %rax
	movq	%r9, 256(%rsp)
	movq	%r8, 160(%rsp)
	jae	L(55_45)
	cmpl	$8, %ebx
	jne	L(55_51)
	leaq	512(%r15), %rsi
	movq	%r8, %rax
	shlq	$4, %rax
	leaq	(%rax,%rax,2), %rdx
	movq	%r13, %rax
	subq	%rsi, %rax
	cmpq	%rdx, %rax
	jb	L(55_60)
	jmp	L(55_50)
L(55_45):
	callq	PLT(memmove)
	leaq	-8(%rbx), %r8
L(55_46):
	leaq	512(%r15), %rsi
	movq	%r8, %rax
	shlq	$4, %rax
	leaq	(%rax,%rax,2), %rdx
	movq	%r13, %rax
	subq	%rsi, %rax
	cmpq	%rdx, %rax
	jae	L(55_50)
	cmpl	$8, %ebx
	je	L(55_60)
	movl	%ebx, %eax
	andl	$7, %eax
	addl	$-9, %ebx
	cmpw	$7, %bx
	jae	L(55_55)
	xorl	%ecx, %ecx
	jmp	L(55_58)
L(55_50):
	movq	%r13, %rdi
	callq	PLT(memmove)
	jmp	L(55_60)
L(55_51):
	cmpl	$4, %r8d
	jb	L(55_52)
	movq	%r12, %rax
	subq	%r15, %rax
	addq	$-64, %rax
	cmpq	$32, %rax
	jae	L(55_74)
L(55_52):
	xorl	%eax, %eax
L(55_77):
	movq	%r8, %r9
	movq	%rbx, %rdx
	movq	%rax, %rcx
	andq	$3, %rdx
	je	L(55_80)
	movq	%rax, %rcx
	.p2align	4
L(55_79):
	movq	(%rsi,%rcx,8), %r8
	movq	%r8, (%rdi,%rcx,8)
	incq	%rcx
	decq	%rdx
	jne	L(55_79)
L(55_80):
	negq	%rax
	addq	%rbx, %rax
	addq	$-9, %rax
	cmpl	$3, %eax
	movq	%r9, %r8
	jb	L(55_46)
	.p2align	4
L(55_81):
	movq	72(%r15,%rcx,8), %rax
	movq	%rax, 8(%r12,%rcx,8)
	movq	80(%r15,%rcx,8), %rax
	movq	%rax, 16(%r12,%rcx,8)
	movq	88(%r15,%rcx,8), %rax
	movq	%rax, 24(%r12,%rcx,8)
	movq	96(%r15,%rcx,8), %rax
	movq	%rax, 32(%r12,%rcx,8)
	addq	$4, %rcx
	cmpq	%rcx, %r8
	jne	L(55_81)
	jmp	L(55_46)
L(55_55):
	movq	160(%rsp), %rdx
	andq	$-8, %rdx
	xorl	%ecx, %ecx
	xorl	%edi, %edi
L(55_56):
	movups	(%rsi,%rdi), %xmm0
	movups	16(%rsi,%rdi), %xmm1
	movups	32(%rsi,%rdi), %xmm2
	movups	%xmm2, 32(%r13,%rdi)
	movups	%xmm1, 16(%r13,%rdi)
	movups	%xmm0, (%r13,%rdi)
	movups	48(%rsi,%rdi), %xmm0
	movups	64(%rsi,%rdi), %xmm1
	movups	80(%rsi,%rdi), %xmm2
	movups	%xmm2, 80(%r13,%rdi)
	movups	%xmm1, 64(%r13,%rdi)
	movups	%xmm0, 48(%r13,%rdi)
	movups	96(%rsi,%rdi), %xmm0
	movups	112(%rsi,%rdi), %xmm1
	movups	128(%rsi,%rdi), %xmm2
	movups	%xmm2, 128(%r13,%rdi)
	movups	%xmm1, 112(%r13,%rdi)
	movups	%xmm0, 96(%r13,%rdi)
	movups	144(%rsi,%rdi), %xmm0
	movups	160(%rsi,%rdi), %xmm1
	movups	176(%rsi,%rdi), %xmm2
	movups	%xmm2, 176(%r13,%rdi)
	movups	%xmm1, 160(%r13,%rdi)
	movups	%xmm0, 144(%r13,%rdi)
	movups	192(%rsi,%rdi), %xmm0
	movups	208(%rsi,%rdi), %xmm1
	movups	224(%rsi,%rdi), %xmm2
	movups	%xmm2, 224(%r13,%rdi)
	movups	%xmm1, 208(%r13,%rdi)
	movups	%xmm0, 192(%r13,%rdi)
	movups	240(%rsi,%rdi), %xmm0
	movups	256(%rsi,%rdi), %xmm1
	movups	272(%rsi,%rdi), %xmm2
	movups	%xmm2, 272(%r13,%rdi)
	movups	%xmm1, 256(%r13,%rdi)
	movups	%xmm0, 240(%r13,%rdi)
	movups	288(%rsi,%rdi), %xmm0
	movups	304(%rsi,%rdi), %xmm1
	movups	320(%rsi,%rdi), %xmm2
	movups	%xmm2, 320(%r13,%rdi)
	movups	%xmm1, 304(%r13,%rdi)
	movups	%xmm0, 288(%r13,%rdi)
	movups	336(%rsi,%rdi), %xmm0
	movups	352(%rsi,%rdi), %xmm1
	movups	368(%rsi,%rdi), %xmm2
	movups	%xmm2, 368(%r13,%rdi)
	movups	%xmm1, 352(%r13,%rdi)
	movups	%xmm0, 336(%r13,%rdi)
	addq	$8, %rcx
	addq	$384, %rdi
	cmpq	%rcx, %rdx
	jne	L(55_56)
	testq	%rax, %rax
	je	L(55_60)
L(55_58):
	shlq	$4, %rcx
	leaq	(%rcx,%rcx,2), %rdx
	leaq	(%r15,%rdx), %rcx
	addq	$512, %rcx
	addq	%r12, %rdx
	addq	$128, %rdx
	shll	$4, %eax
	leaq	(%rax,%rax,2), %rax
	xorl	%esi, %esi
	.p2align	4
L(55_59):
	movups	(%rcx,%rsi), %xmm0
	movups	16(%rcx,%rsi), %xmm1
	movups	32(%rcx,%rsi), %xmm2
	movups	%xmm2, 32(%rdx,%rsi)
	movups	%xmm1, 16(%rdx,%rsi)
	movups	%xmm0, (%rdx,%rsi)
	addq	$48, %rsi
	cmpq	%rsi, %rax
	jne	L(55_59)
L(55_60):
	movq	$8, 80(%rsp)
	xorps	%xmm0, %xmm0
	movaps	%xmm0, 544(%rsp)
	movaps	%xmm0, 560(%rsp)
	movaps	%xmm0, 576(%rsp)
	movq	64(%r15), %rbx
	addq	$8, %r15
	movq	%r15, 48(%rsp)
	movq	$7, 56(%rsp)
	movq	$15, 64(%rsp)
	leaq	544(%rsp), %rdi
	movl	$7, %edx
	leaq	72(%rsp), %rsi
	callq	"std_alloc::vec::Vec::remove::<#7f26edd6ea879dba>"
	testw	%bp, %bp
	movq	264(%rsp), %r13
	movq	240(%rsp), %r15
	je	L(55_66)
	leaq	848(%r12), %rdi
	movq	96(%rsp), %rax
	movq	104(%rsp), %r8
	leaq	64(%rax), %rsi
	leaq	-64(,%r8,8), %rdx
	movq	%rdi, %rcx
	subq	%rsi, %rcx
	cmpq	%rdx, %rcx
	jae	L(55_65)
	cmpq	$8, %r8
	je	L(55_66)
	leaq	-8(%r8), %rcx
	cmpq	$4, %rcx
	jb	L(55_64)
	movq	%r12, %rdx
	subq	%rax, %rdx
	addq	$784, %rdx
	cmpq	$32, %rdx
	jae	L(55_82)
L(55_64):
	xorl	%edx, %edx
L(55_85):
	movq	%r8, %r10
	movq	%rdx, %r9
	andq	$3, %r10
	je	L(55_88)
	movq	%rdx, %r9
L(55_87):
	movq	(%rsi,%r9,8), %r11
	movq	%r11, (%rdi,%r9,8)
	incq	%r9
	decq	%r10
	jne	L(55_87)
L(55_88):
	subq	%rdx, %r8
	addq	$-9, %r8
	cmpq	$3, %r8
	jb	L(55_66)
L(55_89):
	movq	64(%rax,%r9,8), %rdx
	movq	%rdx, 848(%r12,%r9,8)
	movq	72(%rax,%r9,8), %rdx
	movq	%rdx, 856(%r12,%r9,8)
	movq	80(%rax,%r9,8), %rdx
	movq	%rdx, 864(%r12,%r9,8)
	movq	88(%rax,%r9,8), %rdx
	movq	%rdx, 872(%r12,%r9,8)
	addq	$4, %r9
	cmpq	%r9, %rcx
	jne	L(55_89)
	jmp	L(55_66)
L(55_65):
	callq	PLT(memmove)
L(55_66):
	movzwl	56(%rsp), %eax
	movq	120(%rsp), %rcx
	movw	%ax, (%rcx)
	movq	160(%rsp), %rax
	movw	%ax, (%r12)
	movaps	544(%rsp), %xmm0
	movaps	560(%rsp), %xmm1
	movaps	576(%rsp), %xmm2
	movaps	%xmm0, 448(%rsp)
	movaps	%xmm1, 464(%rsp)
	movaps	%xmm2, 480(%rsp)
	movq	8(%rsp), %rax
	movq	232(%rsp), %rdx
	movq	%rcx, (%rdx,%rax,8)
	movaps	448(%rsp), %xmm0
	movaps	464(%rsp), %xmm1
	movaps	480(%rsp), %xmm2
	movaps	%xmm2, 528(%rsp)
	movaps	%xmm1, 512(%rsp)
	movaps	%xmm0, 496(%rsp)
	movq	248(%rsp), %rdx
	cmpl	%eax, %edx
	je	L(55_68)
	movq	168(%rsp), %rcx
	leaq	(%r15,%rcx), %rsi
	leaq	(%r15,%rcx), %rdi
	addq	$8, %rdi
	subq	%rax, %rdx
	shlq	$3, %rdx
	callq	PLT(memmove)
	movq	8(%rsp), %rax
L(55_68):
	movq	%rbx, (%r15,%rax,8)
	movq	%r15, 272(%rsp)
	movq	256(%rsp), %rcx
	movq	%rcx, 280(%rsp)
	movq	$15, 288(%rsp)
	movq	%rax, %rbx
	leaq	496(%rsp), %rdx
	leaq	296(%rsp), %rdi
	movq	%rax, %rsi
	callq	"std_alloc::vec::lodged::Vec+T+Lodged::insert_reserved::<#667d5c0342a2aeff>"
	movq	%rbx, %rax
	incq	%rax
	movq	320(%rsp), %rbx
	movq	328(%rsp), %rdx
	leal	(,%rax,8), %r15d
	subq	%rax, %rdx
	je	L(55_70)
	leaq	(%rbx,%r15), %rsi
	leaq	(%rbx,%r15), %rdi
	addq	$8, %rdi
	shlq	$3, %rdx
	callq	PLT(memmove)
L(55_70):
	movq	%r12, (%rbx,%r15)
	movzwl	280(%rsp), %eax
	movq	344(%rsp), %r8
	movw	%ax, (%r8)
	movq	32(%rsp), %rax
	movq	%r8, (%rax)
	movzbl	1(%r13), %eax
	cmpb	$7, %al
	ja	L(55_34)
	movzbl	(%r13), %ecx
	jmp	L(55_35)
L(55_74):
	movq	%r8, %rax
	andq	$-4, %rax
	xorl	%ecx, %ecx
L(55_75):
	movups	72(%r15,%rcx,8), %xmm0
	movups	88(%r15,%rcx,8), %xmm1
	movups	%xmm0, 8(%r12,%rcx,8)
	movups	%xmm1, 24(%r12,%rcx,8)
	addq	$4, %rcx
	cmpq	%rcx, %rax
	jne	L(55_75)
	cmpl	%eax, %r8d
	je	L(55_46)
	jmp	L(55_77)
L(55_82):
	movq	%rcx, %rdx
	andq	$-4, %rdx
	xorl	%r9d, %r9d
L(55_83):
	movups	64(%rax,%r9,8), %xmm0
	movups	80(%rax,%r9,8), %xmm1
	movups	%xmm0, 848(%r12,%r9,8)
	movups	%xmm1, 864(%r12,%r9,8)
	addq	$4, %r9
	cmpq	%r9, %rdx
	jne	L(55_83)
	cmpq	%rdx, %rcx
	je	L(55_66)
	jmp	L(55_85)
L(55_90):
	movq	%r8, 8(%rsp)
	movq	%r11, %r12
	movq	(%r11), %rdx
	movq	224(%rsp), %r8
L(55_91):
	cmpw	$0, (%rdx)
	je	L(55_106)
	movq	%r12, %r11
	movq	%rsi, %rbx
	movl	%r10d, %ecx
	andl	$7, %ecx
	leal	-9(%rdi), %eax
	cmpl	$7, %eax
	jae	L(55_94)
	xorl	%eax, %eax
	movq	40(%rsp), %rsi
	jmp	L(55_97)
L(55_94):
	andq	$-8, %r10
	xorl	%eax, %eax
	movq	40(%rsp), %rsi
L(55_95):
	addq	$8, %rax
	cmpq	%rax, %r10
	jne	L(55_95)
	testq	%rcx, %rcx
	je	L(55_108)
L(55_97):
	negq	%rcx
	xorl	%edx, %edx
L(55_98):
	decq	%rdx
	cmpq	%rdx, %rcx
	jne	L(55_98)
	notq	%rdx
	addq	%rdx, %rax
L(55_100):
	movzbl	(%r8,%rax), %r12d
	cmpb	$1, (%rsi)
	movaps	176(%rsp), %xmm0
	movaps	192(%rsp), %xmm1
	movaps	208(%rsp), %xmm2
	movaps	%xmm2, 384(%rsp)
	movaps	%xmm1, 368(%rsp)
	movaps	%xmm0, 352(%rsp)
	jne	L(55_109)
	movq	%rdi, %rcx
	movq	%rbx, %rsi
	movq	128(%rsp), %r8
L(55_102):
	subq	%rcx, %r8
	cmpq	$1, %r8
	movq	8(%rsp), %rax
	leaq	848(%rax,%rsi,8), %rbx
	cmoveq	%r11, %rbx
	andl	$15, %r12d
	movq	(%rbx), %r15
	movzwl	(%r15), %edx
	leaq	1(%rdx), %rbp
	xorl	%eax, %eax
	xorl	%ecx, %ecx
	cmpw	$0, 2(%r15)
	setne	%cl
	cmovneq	%rbp, %rax
	shll	$4, %ecx
	leaq	848(%r15), %rsi
	leaq	128(%r15), %rdi
	leaq	72(%rsp), %r13
	movq	%rdi, 72(%rsp)
	movq	%rdx, 80(%rsp)
	movq	$15, 88(%rsp)
	movq	%rsi, 96(%rsp)
	movq	%rax, 104(%rsp)
	movq	%rcx, 112(%rsp)
	movq	%r15, 120(%rsp)
	addq	$8, %r15
	subq	%r12, %rdx
	je	L(55_104)
	leal	(,%r12,8), %eax
	leaq	(%r15,%rax), %rsi
	leaq	(%r15,%rax), %rdi
	addq	$8, %rdi
	shlq	$3, %rdx
	callq	PLT(memmove)
L(55_104):
	movq	%r14, (%r15,%r12,8)
	movq	%r15, 48(%rsp)
	movq	%rbp, 56(%rsp)
	movq	$15, 64(%rsp)
	leaq	352(%rsp), %rdx
	movq	%r13, %rdi
	movq	%r12, %rsi
	callq	"std_alloc::vec::lodged::Vec+T+Lodged::insert_reserved::<#667d5c0342a2aeff>"
	movzwl	56(%rsp), %eax
	movq	120(%rsp), %rcx
	movw	%ax, (%rcx)
	movq	%rcx, (%rbx)
	movq	40(%rsp), %rax
	incq	16(%rax)
	xorps	%xmm0, %xmm0
	movq	24(%rsp), %r13
	movups	%xmm0, (%r13)
	movaps	592(%rsp), %xmm0
	movaps	608(%rsp), %xmm1
	movaps	624(%rsp), %xmm2
	movups	%xmm0, 16(%r13)
	movups	%xmm1, 32(%r13)
	movups	%xmm2, 48(%r13)
	jmp	L(55_18)
L(55_105):
	movq	16(%rsp), %r12
	movq	(%r12), %rdx
	cmpw	$0, (%rdx)
	movq	24(%rsp), %r9
	jne	L(55_16)
L(55_106):
	cmpw	$0, 2(%rdx)
	je	L(55_16)
	movq	848(%rdx), %rbx
	movq	%rdx, %rdi
	movq	%r9, %r15
	callq	PLT(yurewha_heap_dealloc)
	movq	%r15, %r9
	movq	%rbx, (%r12)
	jmp	L(55_16)
L(55_108):
	decq	%rax
	jmp	L(55_100)
L(55_109):
	ud2
	SIZE("std_collections::btree_map::BTreeMap::insert::<#09be7a39fcfa9307>")
	.cfi_endproc

SIZED(16, 4)
	.p2align	4, 0x0
D(CPI56_0):
	.zero	16,10
CODE(".text.line_io::reading::Reading::take_within::<#42ff4d2293d53660>")
	.p2align	4
	TYPE("line_io::reading::Reading::take_within::<#42ff4d2293d53660>", function)
"line_io::reading::Reading::take_within::<#42ff4d2293d53660>":
	.cfi_startproc
	pushq	%r15
	.cfi_def_cfa_offset 16
	pushq	%r14
	.cfi_def_cfa_offset 24
	pushq	%r13
	.cfi_def_cfa_offset 32
	pushq	%r12
	.cfi_def_cfa_offset 40
	pushq	%rbx
	.cfi_def_cfa_offset 48
	subq	$80, %rsp
	.cfi_def_cfa_offset 128
	.cfi_offset %rbx, -48
	.cfi_offset %r12, -40
	.cfi_offset %r13, -32
	.cfi_offset %r14, -24
	.cfi_offset %r15, -16
	movq	%rcx, %r15
	movq	%rdx, %r12
	movq	%rsi, %r14
	movq	%rdi, %rbx
	pxor	%xmm0, %xmm0
	movdqa	%xmm0, 64(%rsp)
	movdqa	%xmm0, 48(%rsp)
	movdqa	%xmm0, 16(%rsp)
	movdqa	%xmm0, 32(%rsp)
	cmpq	$32, %r15
	jae	L(56_2)
L(56_3):
	testq	%r15, %r15
	je	L(56_7)
	xorl	%r13d, %r13d
	.p2align	4
L(56_5):
	cmpb	$10, (%r12,%r13)
	je	L(56_43)
	incq	%r13
	cmpq	%r13, %r15
	jne	L(56_5)
	jmp	L(56_7)
	.p2align	4
L(56_2):
	leaq	-64(%r15), %rax
	xorl	%edx, %edx
L(56_9):
	movq	%r15, %rcx
	subq	%rdx, %rcx
	cmpq	$191, %rcx
	jbe	L(56_10)
	movdqa	D(CPI56_0)(%rip), %xmm0
	movdqu	(%r12,%rdx), %xmm1
	movdqu	16(%r12,%rdx), %xmm2
	movdqu	32(%r12,%rdx), %xmm3
	movdqu	48(%r12,%rdx), %xmm4
	pcmpeqb	%xmm0, %xmm4
	pcmpeqb	%xmm0, %xmm3
	pcmpeqb	%xmm0, %xmm1
	pmovmskb	%xmm1, %ecx
	pcmpeqb	%xmm0, %xmm2
	pmovmskb	%xmm2, %esi
	shll	$16, %esi
	orl	%ecx, %esi
	pmovmskb	%xmm3, %ecx
	shlq	$32, %rcx
	orq	%rsi, %rcx
	pmovmskb	%xmm4, %edi
	shlq	$48, %rdi
	leaq	64(%rdx), %rsi
	orq	%rcx, %rdi
	jne	L(56_41)
	movq	%r15, %rcx
	subq	%rsi, %rcx
	cmpq	$128, %rcx
	jb	L(56_19)
	subq	$-128, %rdx
	movq	%rdx, %rsi
	.p2align	4
L(56_16):
	movdqu	-64(%r12,%rsi), %xmm8
	movdqu	-48(%r12,%rsi), %xmm7
	movdqu	-32(%r12,%rsi), %xmm6
	movdqu	-16(%r12,%rsi), %xmm3
	pcmpeqb	%xmm0, %xmm7
	pcmpeqb	%xmm0, %xmm8
	pcmpeqb	%xmm0, %xmm6
	pcmpeqb	%xmm0, %xmm3
	movdqu	(%r12,%rsi), %xmm5
	movdqu	16(%r12,%rsi), %xmm4
	pcmpeqb	%xmm0, %xmm4
	pcmpeqb	%xmm0, %xmm5
	movdqu	32(%r12,%rsi), %xmm2
	movdqu	48(%r12,%rsi), %xmm1
	pcmpeqb	%xmm0, %xmm1
	pcmpeqb	%xmm0, %xmm2
	movdqa	%xmm5, %xmm9
	por	%xmm2, %xmm9
	movdqa	%xmm4, %xmm10
	por	%xmm1, %xmm10
	movdqa	%xmm8, %xmm11
	por	%xmm6, %xmm11
	por	%xmm9, %xmm11
	movdqa	%xmm7, %xmm9
	por	%xmm3, %xmm9
	por	%xmm10, %xmm9
	por	%xmm11, %xmm9
	pmovmskb	%xmm9, %edx
	testl	%edx, %edx
	jne	L(56_24)
	subq	$-128, %rsi
	addq	$-128, %rcx
	cmpq	$127, %rcx
	ja	L(56_16)
	addq	$-64, %rsi
L(56_19):
	movq	%rsi, %rdx
	cmpq	$32, %rcx
	jb	L(56_23)
	movq	%r15, %rcx
	subq	%rdx, %rcx
	.p2align	4
L(56_21):
	movdqu	(%r12,%rdx), %xmm1
	movdqu	16(%r12,%rdx), %xmm2
	pcmpeqb	%xmm0, %xmm1
	pmovmskb	%xmm1, %edi
	pcmpeqb	%xmm0, %xmm2
	pmovmskb	%xmm2, %esi
	shll	$16, %esi
	orl	%edi, %esi
	jne	L(56_40)
	addq	$-32, %rcx
	addq	$32, %rdx
	cmpq	$31, %rcx
	ja	L(56_21)
L(56_23):
	movdqu	-32(%r12,%r15), %xmm1
	movdqu	-16(%r12,%r15), %xmm2
	pcmpeqb	%xmm0, %xmm1
	pmovmskb	%xmm1, %ecx
	pcmpeqb	%xmm0, %xmm2
	pmovmskb	%xmm2, %edi
	jmp	L(56_34)
	.p2align	4
L(56_10):
	cmpq	$64, %rcx
	jb	L(56_29)
	.p2align	4
L(56_11):
	movdqu	(%r12,%rdx), %xmm4
	movdqu	16(%r12,%rdx), %xmm3
	movdqu	32(%r12,%rdx), %xmm2
	movdqu	48(%r12,%rdx), %xmm1
	movdqa	D(CPI56_0)(%rip), %xmm0
	movdqa	%xmm3, %xmm5
	pcmpeqb	%xmm0, %xmm5
	movdqa	%xmm4, %xmm6
	pcmpeqb	%xmm0, %xmm6
	movdqa	%xmm1, %xmm7
	pcmpeqb	%xmm0, %xmm7
	por	%xmm5, %xmm7
	movdqa	%xmm2, %xmm5
	pcmpeqb	%xmm0, %xmm5
	por	%xmm6, %xmm5
	por	%xmm7, %xmm5
	pmovmskb	%xmm5, %esi
	testl	%esi, %esi
	jne	L(56_35)
	addq	$64, %rdx
	addq	$-64, %rcx
	cmpq	$63, %rcx
	ja	L(56_11)
	jmp	L(56_29)
L(56_35):
	cmpq	$64, %rcx
	jb	L(56_29)
L(56_36):
	pcmpeqb	%xmm0, %xmm1
	pcmpeqb	%xmm0, %xmm2
	pcmpeqb	%xmm0, %xmm4
	pmovmskb	%xmm4, %ecx
	pcmpeqb	%xmm0, %xmm3
	pmovmskb	%xmm3, %esi
	shll	$16, %esi
	orl	%ecx, %esi
	pmovmskb	%xmm2, %ecx
	shlq	$32, %rcx
	orq	%rsi, %rcx
	pmovmskb	%xmm1, %edi
	shlq	$48, %rdi
	orq	%rcx, %rdi
	jne	L(56_50)
	movq	%rax, %rcx
	subq	%rdx, %rcx
	.p2align	4
L(56_38):
	cmpq	$64, %rcx
	jb	L(56_28)
	movdqu	64(%r12,%rdx), %xmm4
	movdqu	80(%r12,%rdx), %xmm3
	movdqu	96(%r12,%rdx), %xmm2
	movdqu	112(%r12,%rdx), %xmm1
	movdqa	%xmm3, %xmm5
	pcmpeqb	%xmm0, %xmm5
	movdqa	%xmm4, %xmm6
	pcmpeqb	%xmm0, %xmm6
	movdqa	%xmm1, %xmm7
	pcmpeqb	%xmm0, %xmm7
	por	%xmm5, %xmm7
	movdqa	%xmm2, %xmm5
	pcmpeqb	%xmm0, %xmm5
	por	%xmm6, %xmm5
	por	%xmm7, %xmm5
	pmovmskb	%xmm5, %esi
	addq	$-64, %rcx
	addq	$64, %rdx
	testl	%esi, %esi
	je	L(56_38)
	jmp	L(56_36)
L(56_28):
	addq	$64, %rdx
	.p2align	4
L(56_29):
	cmpq	$32, %rcx
	jb	L(56_33)
	movq	%r15, %rcx
	subq	%rdx, %rcx
	.p2align	4
L(56_31):
	movdqu	(%r12,%rdx), %xmm0
	movdqu	16(%r12,%rdx), %xmm1
	movdqa	D(CPI56_0)(%rip), %xmm2
	pcmpeqb	%xmm2, %xmm0
	pmovmskb	%xmm0, %edi
	pcmpeqb	%xmm2, %xmm1
	pmovmskb	%xmm1, %esi
	shll	$16, %esi
	orl	%edi, %esi
	jne	L(56_40)
	addq	$-32, %rcx
	addq	$32, %rdx
	cmpq	$31, %rcx
	ja	L(56_31)
L(56_33):
	movdqu	-32(%r12,%r15), %xmm0
	movdqu	-16(%r12,%r15), %xmm1
	movdqa	D(CPI56_0)(%rip), %xmm2
	pcmpeqb	%xmm2, %xmm0
	pmovmskb	%xmm0, %ecx
	pcmpeqb	%xmm2, %xmm1
	pmovmskb	%xmm1, %edi
L(56_34):
	shll	$16, %edi
	orl	%ecx, %edi
	movl	%edx, %ecx
	subl	%r15d, %ecx
	addb	$32, %cl
	shrq	%cl, %rdi
	movq	%rdx, %rsi
	movq	%r15, %rcx
L(56_27):
	movq	%rsi, %rdx
	movq	%rcx, %rsi
	testq	%rdi, %rdi
	jne	L(56_41)
	jmp	L(56_8)
L(56_40):
	movl	%esi, %edi
	leaq	32(%rdx), %rsi
	.p2align	4
L(56_41):
	rep		bsfq	%rdi, %rcx
	leaq	(%rcx,%rdx), %r13
	cmpb	$10, (%r12,%r13)
	je	L(56_43)
	movq	$-2, %r8
	rolq	%cl, %r8
	andq	%r8, %rdi
	jne	L(56_41)
L(56_8):
	movq	%rsi, %rdx
	cmpq	%r15, %rsi
	jb	L(56_9)
	jmp	L(56_7)
L(56_24):
	pmovmskb	%xmm8, %ecx
	pmovmskb	%xmm7, %edx
	shll	$16, %edx
	orl	%ecx, %edx
	pmovmskb	%xmm6, %ecx
	shlq	$32, %rcx
	orq	%rdx, %rcx
	pmovmskb	%xmm3, %edi
	shlq	$48, %rdi
	orq	%rcx, %rdi
	je	L(56_26)
	leaq	-64(%rsi), %rdx
	jmp	L(56_41)
L(56_26):
	leaq	64(%rsi), %rcx
	pmovmskb	%xmm5, %edx
	pmovmskb	%xmm4, %edi
	shll	$16, %edi
	orl	%edx, %edi
	pmovmskb	%xmm2, %edx
	shlq	$32, %rdx
	orq	%rdi, %rdx
	pmovmskb	%xmm1, %edi
	shlq	$48, %rdi
	orq	%rdx, %rdi
	jmp	L(56_27)
L(56_50):
	leaq	64(%rdx), %rsi
	jmp	L(56_41)
	.p2align	4
L(56_43):
	leaq	16(%rsp), %rdi
	movq	%r14, %rsi
	movq	%r12, %rdx
	movq	%r13, %rcx
	callq	"line_io::reading::Reading::extend_line::<#42ff4d2293d53660>"
	cmpb	$0, 16(%rsp)
	jne	L(56_46)
	movb	$0, 14(%rsp)
	movw	$0, 12(%rsp)
	leaq	12(%rsp), %rdi
	movq	%r14, %rsi
	callq	"pair_text::said_lines::SaidLinesTakeLines::end_line::<#a10fcec3e4a5dd02>"
	cmpb	$1, 12(%rsp)
	je	L(56_49)
	addq	%r13, %r12
	incq	%r12
	incq	%r13
	subq	%r13, %r15
	movb	$0, 1976(%r14)
	movq	1960(%r14), %rax
	movq	1968(%r14), %rcx
	incq	%rax
	movq	$-1, %rdx
	cmoveq	%rdx, %rax
	movq	%rax, 1960(%r14)
	incq	%rcx
	cmoveq	%rdx, %rcx
	movq	%rcx, 1968(%r14)
	cmpq	$32, %r15
	jae	L(56_2)
	jmp	L(56_3)
L(56_7):
	leaq	48(%rsp), %rdi
	movq	%r14, %rsi
	movq	%r12, %rdx
	movq	%r15, %rcx
	callq	"line_io::reading::Reading::extend_line::<#42ff4d2293d53660>"
	movzbl	48(%rsp), %eax
	movb	%al, (%rbx)
	movzbl	56(%rsp), %eax
	movq	%rax, 8(%rbx)
	movq	64(%rsp), %rax
	movq	%rax, 16(%rbx)
	movzbl	72(%rsp), %eax
L(56_47):
	movb	%al, 24(%rbx)
L(56_48):
	addq	$80, %rsp
	.cfi_def_cfa_offset 48
	popq	%rbx
	.cfi_def_cfa_offset 40
	popq	%r12
	.cfi_def_cfa_offset 32
	popq	%r13
	.cfi_def_cfa_offset 24
	popq	%r14
	.cfi_def_cfa_offset 16
	popq	%r15
	.cfi_def_cfa_offset 8
	retq
L(56_46):
	.cfi_def_cfa_offset 128
	movzbl	40(%rsp), %eax
	movq	32(%rsp), %rcx
	movzbl	24(%rsp), %edx
	movb	$1, (%rbx)
	movq	%rdx, 8(%rbx)
	movq	%rcx, 16(%rbx)
	jmp	L(56_47)
L(56_49):
	movzbl	13(%rsp), %eax
	xorl	%ecx, %ecx
	testq	%rax, %rax
	movq	1968(%r14), %rdx
	cmovneq	%rcx, %rdx
	movzbl	14(%rsp), %esi
	cmovnel	%ecx, %esi
	movb	$1, (%rbx)
	movq	%rax, 8(%rbx)
	movq	%rdx, 16(%rbx)
	movb	%sil, 24(%rbx)
	jmp	L(56_48)
	SIZE("line_io::reading::Reading::take_within::<#42ff4d2293d53660>")
	.cfi_endproc

CODE(".text.line_io::reading::Reading::extend_line::<#42ff4d2293d53660>")
	.p2align	4
	TYPE("line_io::reading::Reading::extend_line::<#42ff4d2293d53660>", function)
"line_io::reading::Reading::extend_line::<#42ff4d2293d53660>":
	.cfi_startproc
	testq	%rcx, %rcx
	je	L(57_4)
	pushq	%rbp
	.cfi_def_cfa_offset 16
	pushq	%r15
	.cfi_def_cfa_offset 24
	pushq	%r14
	.cfi_def_cfa_offset 32
	pushq	%r13
	.cfi_def_cfa_offset 40
	pushq	%r12
	.cfi_def_cfa_offset 48
	pushq	%rbx
	.cfi_def_cfa_offset 56
	subq	$3072, %rsp
	.cfi_adjust_cfa_offset 3072
	movq	$0, (%rsp)
	subq	$648, %rsp
	.cfi_def_cfa_offset 3776
	.cfi_offset %rbx, -56
	.cfi_offset %r12, -48
	.cfi_offset %r13, -40
	.cfi_offset %r14, -32
	.cfi_offset %r15, -24
	.cfi_offset %rbp, -16
	cmpb	$0, 88(%rsi)
	je	L(57_5)
	movq	1952(%rsi), %rax
	addq	%rcx, %rax
	jb	L(57_9)
	leaq	96(%rsi), %rax
	movq	%rdi, %rbx
	movq	%rax, %rdi
	movq	%rsi, %r14
	movq	%rdx, %rsi
	movq	%rcx, %rdx
	movq	%rcx, %r15
	callq	C(yurewha_stub_of_update)
	movq	%r15, %rcx
	movq	%r14, %rsi
	movq	%rbx, %rdi
	jmp	L(57_32)
L(57_4):
	.cfi_def_cfa_offset 8
	.cfi_restore %rbx
	.cfi_restore %rbp
	.cfi_restore %r12
	.cfi_restore %r13
	.cfi_restore %r14
	.cfi_restore %r15
	movb	$0, (%rdi)
	xorps	%xmm0, %xmm0
	movups	%xmm0, 8(%rdi)
	movb	$0, 24(%rdi)
	retq
L(57_5):
	.cfi_def_cfa_offset 3776
	.cfi_offset %rbx, -56
	.cfi_offset %rbp, -16
	.cfi_offset %r12, -48
	.cfi_offset %r13, -40
	.cfi_offset %r14, -32
	.cfi_offset %r15, -24
	movq	184(%rsi), %rbx
	testq	%rbx, %rbx
	jne	L(57_8)
	cmpb	$43, (%rdx)
	jne	L(57_8)
	leaq	-1(%rcx), %rbx
	incq	%rdx
	leaq	64(%rsp), %rax
	movq	%rdx, %r14
	movl	$1792, %edx
	movq	%rdi, %r12
	movq	%rax, %rdi
	movq	%rsi, %r13
	xorl	%esi, %esi
	movq	%rcx, %rbp
	callq	PLT(memset)
	movups	D(static.19)(%rip), %xmm0
	movaps	%xmm0, 32(%rsp)
	movups	D(static.19)+16(%rip), %xmm1
	movaps	%xmm1, 48(%rsp)
	movaps	%xmm0, (%rsp)
	movaps	%xmm1, 16(%rsp)
	leaq	1856(%rsp), %r15
	movq	%rsp, %rsi
	movl	$1856, %edx
	movq	%r15, %rdi
	callq	PLT(memcpy)
	movq	$0, 3712(%rsp)
	movq	%r15, %rdi
	movq	%r14, %rsi
	movq	%rbx, %rdx
	callq	C(yurewha_stub_of_update)
	movq	3712(%rsp), %rbx
	movq	$1, 88(%r13)
	leaq	96(%r13), %rdi
	movl	$1856, %edx
	movq	%r15, %rsi
	callq	PLT(memcpy)
	movq	%rbp, %rcx
	movq	%r13, %rsi
	movq	%r12, %rdi
	movq	%rbx, 1952(%r13)
	jmp	L(57_32)
L(57_8):
	movl	$85, %eax
	subq	%rbx, %rax
	cmpq	%rcx, %rax
	jae	L(57_10)
L(57_9):
	movq	1968(%rsi), %rax
	movb	$1, (%rdi)
	movq	$0, 8(%rdi)
	movq	%rax, 16(%rdi)
	jmp	L(57_33)
L(57_10):
	leaq	(%rsi,%rbx), %rax
	addq	$96, %rax
	movq	%rax, %r8
	subq	%rdx, %r8
	cmpq	%rcx, %r8
	jae	L(57_13)
	cmpq	$4, %rcx
	jb	L(57_12)
	leaq	(%rbx,%rsi), %r8
	subq	%rdx, %r8
	addq	$96, %r8
	cmpq	$32, %r8
	jae	L(57_16)
L(57_12):
	xorl	%r8d, %r8d
L(57_25):
	movq	%rcx, %r10
	movq	%r8, %r9
	andq	$3, %r10
	je	L(57_28)
	movq	%r8, %r9
	.p2align	4
L(57_27):
	movzbl	(%rdx,%r9), %r11d
	movb	%r11b, (%rax,%r9)
	incq	%r9
	decq	%r10
	jne	L(57_27)
L(57_28):
	subq	%rcx, %r8
	cmpq	$-4, %r8
	ja	L(57_31)
	leaq	(%rbx,%rsi), %rax
	addq	$99, %rax
	.p2align	4
L(57_30):
	movzbl	(%rdx,%r9), %r8d
	movb	%r8b, -3(%rax,%r9)
	movzbl	1(%rdx,%r9), %r8d
	movb	%r8b, -2(%rax,%r9)
	movzbl	2(%rdx,%r9), %r8d
	movb	%r8b, -1(%rax,%r9)
	movzbl	3(%rdx,%r9), %r8d
	movb	%r8b, (%rax,%r9)
	addq	$4, %r9
	cmpq	%r9, %rcx
	jne	L(57_30)
	jmp	L(57_31)
L(57_13):
	movq	%rdi, %r14
	movq	%rax, %rdi
	movq	%rsi, %r15
	movq	%rdx, %rsi
	movq	%rcx, %rdx
	movq	%rcx, %r12
	callq	PLT(memmove)
	movq	%r12, %rcx
	movq	%r15, %rsi
	movq	%r14, %rdi
L(57_31):
	addq	%rcx, %rbx
	movq	%rbx, 184(%rsi)
L(57_32):
	movb	$1, 1976(%rsi)
	addq	1960(%rsi), %rcx
	movq	$-1, %rax
	cmovaeq	%rcx, %rax
	movq	%rax, 1960(%rsi)
	movb	$0, (%rdi)
	xorps	%xmm0, %xmm0
	movups	%xmm0, 8(%rdi)
L(57_33):
	movb	$0, 24(%rdi)
	addq	$3720, %rsp
	.cfi_def_cfa_offset 56
	popq	%rbx
	.cfi_def_cfa_offset 48
	popq	%r12
	.cfi_def_cfa_offset 40
	popq	%r13
	.cfi_def_cfa_offset 32
	popq	%r14
	.cfi_def_cfa_offset 24
	popq	%r15
	.cfi_def_cfa_offset 16
	popq	%rbp
	.cfi_def_cfa_offset 8
	retq
L(57_16):
	.cfi_def_cfa_offset 3776
	cmpq	$32, %rcx
	jae	L(57_18)
	xorl	%r8d, %r8d
	jmp	L(57_22)
L(57_18):
	movq	%rcx, %r8
	andq	$-32, %r8
	leaq	(%rbx,%rsi), %r9
	addq	$112, %r9
	xorl	%r10d, %r10d
L(57_19):
	movups	(%rdx,%r10), %xmm0
	movups	16(%rdx,%r10), %xmm1
	movups	%xmm0, -16(%r9,%r10)
	movups	%xmm1, (%r9,%r10)
	addq	$32, %r10
	cmpq	%r10, %r8
	jne	L(57_19)
	cmpq	%r8, %rcx
	je	L(57_31)
	testb	$28, %cl
	je	L(57_25)
L(57_22):
	movq	%r8, %r9
	movq	%rcx, %r8
	andq	$-4, %r8
	.p2align	4
L(57_23):
	movl	(%rdx,%r9), %r10d
	movl	%r10d, (%rax,%r9)
	addq	$4, %r9
	cmpq	%r9, %r8
	jne	L(57_23)
	cmpq	%r8, %rcx
	je	L(57_31)
	jmp	L(57_25)
	SIZE("line_io::reading::Reading::extend_line::<#42ff4d2293d53660>")
	.cfi_endproc

CODE(".text.std_collections::btree::node::Node::destroy::<#e27c17be7fe85c1a>")
	.p2align	4
	TYPE("std_collections::btree::node::Node::destroy::<#e27c17be7fe85c1a>", function)
"std_collections::btree::node::Node::destroy::<#e27c17be7fe85c1a>":
	.cfi_startproc
	pushq	%rbp
	.cfi_def_cfa_offset 16
	pushq	%r15
	.cfi_def_cfa_offset 24
	pushq	%r14
	.cfi_def_cfa_offset 32
	pushq	%r13
	.cfi_def_cfa_offset 40
	pushq	%r12
	.cfi_def_cfa_offset 48
	pushq	%rbx
	.cfi_def_cfa_offset 56
	subq	$152, %rsp
	.cfi_def_cfa_offset 208
	.cfi_offset %rbx, -56
	.cfi_offset %r12, -48
	.cfi_offset %r13, -40
	.cfi_offset %r14, -32
	.cfi_offset %r15, -24
	.cfi_offset %rbp, -16
	movq	%rdi, %r9
	movzwl	(%rdi), %r13d
	movzwl	2(%rdi), %ecx
	xorl	%edx, %edx
	testw	%cx, %cx
	setne	%dl
	leaq	1(%r13), %rsi
	shll	$4, %edx
	leaq	848(%rdi), %rax
	leaq	128(%rdi), %r14
	addq	$8, %rdi
	xorl	%r8d, %r8d
	testw	%cx, %cx
	cmovneq	%rsi, %r8
	movq	%rdi, 48(%rsp)
	movq	%r13, 56(%rsp)
	movq	$15, 64(%rsp)
	movq	%r14, 72(%rsp)
	movq	%r13, 80(%rsp)
	movq	$15, 88(%rsp)
	movq	%rax, 96(%rsp)
	movq	%r8, 104(%rsp)
	movq	%rdx, 112(%rsp)
	movq	%r9, 120(%rsp)
	je	L(58_59)
	testq	%r13, %r13
	jne	L(58_3)
	jmp	L(58_53)
	.p2align	4
L(58_2):
	movq	56(%rsp), %r13
	testq	%r13, %r13
	je	L(58_52)
L(58_3):
	movq	96(%rsp), %rcx
	movq	104(%rsp), %rax
	movq	(%rcx), %rdi
	decq	%rax
	cmpq	$257, %rax
	jb	L(58_9)
	leaq	56(%rcx), %rsi
	xorl	%r9d, %r9d
	.p2align	4
L(58_5):
	xorl	%edx, %edx
	.p2align	4
L(58_6):
	movups	-48(%rsi,%rdx,8), %xmm0
	movups	-32(%rsi,%rdx,8), %xmm1
	movups	-16(%rsi,%rdx,8), %xmm2
	movups	(%rsi,%rdx,8), %xmm3
	movups	%xmm0, -56(%rsi,%rdx,8)
	movups	%xmm1, -40(%rsi,%rdx,8)
	movups	%xmm2, -24(%rsi,%rdx,8)
	movups	%xmm3, -8(%rsi,%rdx,8)
	addq	$8, %rdx
	cmpq	$256, %rdx
	jne	L(58_6)
	addq	$256, %r9
	movq	%rax, %rdx
	subq	%r9, %rdx
	addq	$2048, %rsi
	cmpq	$256, %rdx
	ja	L(58_5)
	leaq	(,%r9,8), %r8
	leaq	(%rcx,%r9,8), %rsi
	cmpq	%r9, %rax
	jne	L(58_10)
	jmp	L(58_23)
	.p2align	4
L(58_9):
	xorl	%r8d, %r8d
	movq	%rcx, %rsi
	movq	%rax, %rdx
	xorl	%r9d, %r9d
	cmpq	%r9, %rax
	je	L(58_23)
L(58_10):
	leaq	(%rcx,%r8), %r9
	cmpq	$4, %rdx
	jb	L(58_11)
	movq	%r9, %r10
	subq	%rsi, %r10
	addq	$-8, %r10
	cmpq	$32, %r10
	jae	L(58_14)
L(58_11):
	xorl	%r10d, %r10d
L(58_17):
	movq	%rdx, %r14
	movq	%r10, %r11
	andq	$3, %r14
	je	L(58_20)
	movq	%r10, %r11
	.p2align	4
L(58_19):
	movq	8(%rsi,%r11,8), %rbx
	movq	%rbx, (%r9,%r11,8)
	incq	%r11
	decq	%r14
	jne	L(58_19)
L(58_20):
	subq	%rdx, %r10
	cmpq	$-4, %r10
	ja	L(58_23)
	addq	%r8, %rcx
	addq	$24, %rcx
	.p2align	4
L(58_22):
	movq	8(%rsi,%r11,8), %r8
	movq	%r8, -24(%rcx,%r11,8)
	movq	16(%rsi,%r11,8), %r8
	movq	%r8, -16(%rcx,%r11,8)
	movq	24(%rsi,%r11,8), %r8
	movq	%r8, -8(%rcx,%r11,8)
	movq	32(%rsi,%r11,8), %r8
	movq	%r8, (%rcx,%r11,8)
	addq	$4, %r11
	cmpq	%r11, %rdx
	jne	L(58_22)
	jmp	L(58_23)
L(58_14):
	movl	%edx, %r10d
	andl	$508, %r10d
	leaq	(%rcx,%r8), %r11
	addq	$16, %r11
	xorl	%r14d, %r14d
	.p2align	4
L(58_15):
	movups	8(%rsi,%r14,8), %xmm0
	movups	24(%rsi,%r14,8), %xmm1
	movups	%xmm0, -16(%r11,%r14,8)
	movups	%xmm1, (%r11,%r14,8)
	addq	$4, %r14
	cmpq	%r14, %r10
	jne	L(58_15)
	cmpq	%r10, %rdx
	jne	L(58_17)
	.p2align	4
L(58_23):
	movq	112(%rsp), %rcx
	movq	%rax, 104(%rsp)
	movq	%rcx, 112(%rsp)
	callq	"std_collections::btree::node::Node::destroy::<#e27c17be7fe85c1a>"
	xorps	%xmm0, %xmm0
	movaps	%xmm0, 32(%rsp)
	movaps	%xmm0, 16(%rsp)
	movaps	%xmm0, (%rsp)
	movq	48(%rsp), %rcx
	movq	64(%rsp), %rax
	decq	%r13
	cmpq	$257, %r13
	jb	L(58_29)
	leaq	56(%rcx), %rsi
	xorl	%r8d, %r8d
	.p2align	4
L(58_25):
	xorl	%edx, %edx
	.p2align	4
L(58_26):
	movups	-48(%rsi,%rdx,8), %xmm0
	movups	-32(%rsi,%rdx,8), %xmm1
	movups	-16(%rsi,%rdx,8), %xmm2
	movups	(%rsi,%rdx,8), %xmm3
	movups	%xmm0, -56(%rsi,%rdx,8)
	movups	%xmm1, -40(%rsi,%rdx,8)
	movups	%xmm2, -24(%rsi,%rdx,8)
	movups	%xmm3, -8(%rsi,%rdx,8)
	addq	$8, %rdx
	cmpq	$256, %rdx
	jne	L(58_26)
	addq	$256, %r8
	movq	%r13, %rdx
	subq	%r8, %rdx
	addq	$2048, %rsi
	cmpq	$256, %rdx
	ja	L(58_25)
	leaq	(,%r8,8), %rdi
	leaq	(%rcx,%r8,8), %rsi
	cmpq	%r8, %r13
	jne	L(58_30)
	jmp	L(58_43)
	.p2align	4
L(58_29):
	xorl	%edi, %edi
	movq	%rcx, %rsi
	movq	%r13, %rdx
	xorl	%r8d, %r8d
	cmpq	%r8, %r13
	je	L(58_43)
L(58_30):
	leaq	(%rcx,%rdi), %r8
	cmpq	$4, %rdx
	jb	L(58_31)
	movq	%r8, %r9
	subq	%rsi, %r9
	addq	$-8, %r9
	cmpq	$32, %r9
	jae	L(58_34)
L(58_31):
	xorl	%r9d, %r9d
L(58_37):
	movq	%rdx, %r11
	movq	%r9, %r10
	andq	$3, %r11
	je	L(58_40)
	movq	%r9, %r10
	.p2align	4
L(58_39):
	movq	8(%rsi,%r10,8), %rbx
	movq	%rbx, (%r8,%r10,8)
	incq	%r10
	decq	%r11
	jne	L(58_39)
L(58_40):
	subq	%rdx, %r9
	cmpq	$-4, %r9
	ja	L(58_43)
	addq	%rdi, %rcx
	addq	$24, %rcx
	.p2align	4
L(58_42):
	movq	8(%rsi,%r10,8), %rdi
	movq	%rdi, -24(%rcx,%r10,8)
	movq	16(%rsi,%r10,8), %rdi
	movq	%rdi, -16(%rcx,%r10,8)
	movq	24(%rsi,%r10,8), %rdi
	movq	%rdi, -8(%rcx,%r10,8)
	movq	32(%rsi,%r10,8), %rdi
	movq	%rdi, (%rcx,%r10,8)
	addq	$4, %r10
	cmpq	%r10, %rdx
	jne	L(58_42)
	jmp	L(58_43)
L(58_34):
	movl	%edx, %r9d
	andl	$508, %r9d
	leaq	(%rcx,%rdi), %r10
	addq	$16, %r10
	xorl	%r11d, %r11d
	.p2align	4
L(58_35):
	movups	8(%rsi,%r11,8), %xmm0
	movups	24(%rsi,%r11,8), %xmm1
	movups	%xmm0, -16(%r10,%r11,8)
	movups	%xmm1, (%r10,%r11,8)
	addq	$4, %r11
	cmpq	%r11, %r9
	jne	L(58_35)
	cmpq	%r9, %rdx
	jne	L(58_37)
	.p2align	4
L(58_43):
	movq	%r13, 56(%rsp)
	movq	%rax, 64(%rsp)
	movq	%rsp, %rdi
	leaq	72(%rsp), %rsi
	xorl	%edx, %edx
	callq	"std_alloc::vec::Vec::remove::<#7f26edd6ea879dba>"
	movq	16(%rsp), %r14
	movq	24(%rsp), %rbp
	movq	32(%rsp), %r13
	testq	%rbp, %rbp
	je	L(58_50)
	leaq	48(%r14), %r12
	jmp	L(58_46)
	.p2align	4
L(58_45):
	addq	$56, %r12
	decq	%rbp
	je	L(58_50)
L(58_46):
	movq	-16(%r12), %r15
	movq	(%r12), %rbx
	cmpq	$0, -32(%r12)
	je	L(58_48)
	movq	-48(%r12), %rdi
	callq	PLT(yurewha_heap_dealloc)
L(58_48):
	testq	%rbx, %rbx
	je	L(58_45)
	movq	%r15, %rdi
	callq	PLT(yurewha_heap_dealloc)
	jmp	L(58_45)
	.p2align	4
L(58_50):
	testq	%r13, %r13
	je	L(58_2)
	movq	%r14, %rdi
	callq	PLT(yurewha_heap_dealloc)
	jmp	L(58_2)
L(58_52):
	movq	96(%rsp), %rax
	movq	104(%rsp), %r13
	decq	%r13
L(58_53):
	xorps	%xmm0, %xmm0
	leaq	104(%rsp), %rcx
	movups	%xmm0, (%rcx)
	movq	(%rax), %rdi
	cmpq	$257, %r13
	jb	L(58_61)
	leaq	56(%rax), %rdx
	xorl	%r8d, %r8d
	.p2align	4
L(58_55):
	xorl	%ecx, %ecx
	.p2align	4
L(58_56):
	movups	-48(%rdx,%rcx,8), %xmm0
	movups	-32(%rdx,%rcx,8), %xmm1
	movups	-16(%rdx,%rcx,8), %xmm2
	movups	(%rdx,%rcx,8), %xmm3
	movups	%xmm0, -56(%rdx,%rcx,8)
	movups	%xmm1, -40(%rdx,%rcx,8)
	movups	%xmm2, -24(%rdx,%rcx,8)
	movups	%xmm3, -8(%rdx,%rcx,8)
	addq	$8, %rcx
	cmpq	$256, %rcx
	jne	L(58_56)
	addq	$256, %r8
	movq	%r13, %rcx
	subq	%r8, %rcx
	addq	$2048, %rdx
	cmpq	$256, %rcx
	ja	L(58_55)
	leaq	(,%r8,8), %rsi
	leaq	(%rax,%r8,8), %rdx
	cmpq	%r8, %r13
	jne	L(58_62)
	jmp	L(58_81)
L(58_59):
	cmpw	$15, %r13w
	movq	%r9, 128(%rsp)
	jbe	L(58_64)
	movl	%r13d, %r15d
	shrl	%r15d
	movq	%r13, %rbx
	subq	%r15, %rbx
	leaq	(%rdi,%rbx,8), %rsi
	movq	%r15, %rdx
	callq	"core::slice::edits::mirror::<i64>"
	leaq	(%rbx,%rbx,2), %rsi
	shlq	$4, %rsi
	addq	%r14, %rsi
	movq	%r14, %rdi
	movq	%r15, %rdx
	callq	"core::slice::edits::mirror::<#667d5c0342a2aeff>"
	jmp	L(58_116)
L(58_61):
	xorl	%esi, %esi
	movq	%rax, %rdx
	movq	%r13, %rcx
	xorl	%r8d, %r8d
	cmpq	%r8, %r13
	je	L(58_81)
L(58_62):
	leaq	(%rax,%rsi), %r8
	cmpq	$8, %rcx
	jb	L(58_63)
	movq	%r8, %r9
	subq	%rdx, %r9
	addq	$-8, %r9
	cmpq	$32, %r9
	jae	L(58_72)
L(58_63):
	xorl	%r9d, %r9d
L(58_75):
	movq	%rcx, %r11
	movq	%r9, %r10
	andq	$3, %r11
	je	L(58_78)
	movq	%r9, %r10
	.p2align	4
L(58_77):
	movq	8(%rdx,%r10,8), %rbx
	movq	%rbx, (%r8,%r10,8)
	incq	%r10
	decq	%r11
	jne	L(58_77)
L(58_78):
	subq	%rcx, %r9
	cmpq	$-4, %r9
	ja	L(58_81)
	addq	%rsi, %rax
	addq	$24, %rax
	.p2align	4
L(58_80):
	movq	8(%rdx,%r10,8), %rsi
	movq	%rsi, -24(%rax,%r10,8)
	movq	16(%rdx,%r10,8), %rsi
	movq	%rsi, -16(%rax,%r10,8)
	movq	24(%rdx,%r10,8), %rsi
	movq	%rsi, -8(%rax,%r10,8)
	movq	32(%rdx,%r10,8), %rsi
	movq	%rsi, (%rax,%r10,8)
	addq	$4, %r10
	cmpq	%r10, %rcx
	jne	L(58_80)
	jmp	L(58_81)
L(58_64):
	cmpw	$2, %r13w
	jb	L(58_115)
	leaq	-2(%r13), %rcx
	movq	%rcx, %rax
	shrq	%rax
	cmpq	$1, %r13
	je	L(58_67)
	movq	(%rdi), %rdx
	movq	-8(%rdi,%r13,8), %rsi
	movq	%rsi, (%rdi)
	movq	%rdx, -8(%rdi,%r13,8)
L(58_67):
	testq	%rax, %rax
	je	L(58_109)
	cmpq	$1, %rcx
	jbe	L(58_82)
	movq	16(%r9), %rcx
	movq	-8(%r9,%r13,8), %rdx
	movq	%rdx, 16(%r9)
	movq	%rcx, -8(%r9,%r13,8)
	jmp	L(58_84)
L(58_72):
	movl	%ecx, %r9d
	andl	$508, %r9d
	leaq	(%rsi,%rax), %r10
	addq	$16, %r10
	xorl	%r11d, %r11d
	.p2align	4
L(58_73):
	movups	8(%rdx,%r11,8), %xmm0
	movups	24(%rdx,%r11,8), %xmm1
	movups	%xmm0, -16(%r10,%r11,8)
	movups	%xmm1, (%r10,%r11,8)
	addq	$4, %r11
	cmpq	%r11, %r9
	jne	L(58_73)
	cmpq	%r9, %rcx
	jne	L(58_75)
L(58_81):
	callq	"std_collections::btree::node::Node::destroy::<#e27c17be7fe85c1a>"
	movq	120(%rsp), %rdi
	jmp	L(58_128)
L(58_82):
	testq	%rcx, %rcx
	jne	L(58_84)
	movq	8(%r9), %rcx
	movq	16(%r9), %rdx
	movq	%rdx, 8(%r9)
	movq	%rcx, 16(%r9)
L(58_84):
	cmpq	$1, %rax
	je	L(58_109)
	leaq	-3(%r13), %rcx
	cmpq	$2, %rcx
	jbe	L(58_87)
	movq	24(%r9), %rcx
	movq	-16(%r9,%r13,8), %rdx
	movq	%rdx, 24(%r9)
	movq	%rcx, -16(%r9,%r13,8)
	jmp	L(58_89)
L(58_87):
	cmpl	$2, %ecx
	je	L(58_89)
	movq	-16(%r9,%r13,8), %rcx
	movq	24(%r9), %rdx
	movq	%rdx, -16(%r9,%r13,8)
	movq	%rcx, 24(%r9)
L(58_89):
	cmpq	$2, %rax
	je	L(58_109)
	leaq	-4(%r13), %rcx
	cmpq	$3, %rcx
	jbe	L(58_92)
	movq	32(%r9), %rcx
	movq	-24(%r9,%r13,8), %rdx
	movq	%rdx, 32(%r9)
	movq	%rcx, -24(%r9,%r13,8)
	jmp	L(58_94)
L(58_92):
	cmpl	$3, %ecx
	je	L(58_94)
	movq	-24(%r9,%r13,8), %rcx
	movq	32(%r9), %rdx
	movq	%rdx, -24(%r9,%r13,8)
	movq	%rcx, 32(%r9)
L(58_94):
	cmpq	$3, %rax
	je	L(58_109)
	leaq	-5(%r13), %rcx
	cmpq	$4, %rcx
	jbe	L(58_97)
	movq	40(%r9), %rcx
	movq	-32(%r9,%r13,8), %rdx
	movq	%rdx, 40(%r9)
	movq	%rcx, -32(%r9,%r13,8)
	jmp	L(58_99)
L(58_97):
	cmpl	$4, %ecx
	je	L(58_99)
	movq	-32(%r9,%r13,8), %rcx
	movq	40(%r9), %rdx
	movq	%rdx, -32(%r9,%r13,8)
	movq	%rcx, 40(%r9)
L(58_99):
	cmpq	$4, %rax
	je	L(58_109)
	leaq	-6(%r13), %rcx
	cmpq	$5, %rcx
	jbe	L(58_102)
	movq	48(%r9), %rcx
	movq	-40(%r9,%r13,8), %rdx
	movq	%rdx, 48(%r9)
	movq	%rcx, -40(%r9,%r13,8)
	jmp	L(58_104)
L(58_102):
	cmpl	$5, %ecx
	je	L(58_104)
	movq	-40(%r9,%r13,8), %rcx
	movq	48(%r9), %rdx
	movq	%rdx, -40(%r9,%r13,8)
	movq	%rcx, 48(%r9)
L(58_104):
	cmpq	$5, %rax
	je	L(58_109)
	leaq	-7(%r13), %rcx
	cmpq	$6, %rcx
	jbe	L(58_107)
	movq	56(%r9), %rcx
	movq	-48(%r9,%r13,8), %rdx
	movq	%rdx, 56(%r9)
	movq	%rcx, -48(%r9,%r13,8)
	jmp	L(58_109)
L(58_107):
	cmpl	$6, %ecx
	je	L(58_109)
	movq	-48(%r9,%r13,8), %rcx
	movq	56(%r9), %rdx
	movq	%rdx, -48(%r9,%r13,8)
	movq	%rcx, 56(%r9)
L(58_109):
	incq	%rax
	leaq	(,%r13,2), %rcx
	addq	%r13, %rcx
	shll	$4, %ecx
	addq	%r9, %rcx
	addq	$80, %rcx
	leaq	-1(%r13), %rdx
	xorl	%esi, %esi
	movq	%r14, %rdi
	jmp	L(58_112)
	.p2align	4
L(58_110):
	movups	(%rdi), %xmm0
	movups	16(%rdi), %xmm1
	movups	32(%rdi), %xmm2
	movaps	%xmm2, 32(%rsp)
	movaps	%xmm1, 16(%rsp)
	movaps	%xmm0, (%rsp)
	movups	(%rcx), %xmm0
	movups	16(%rcx), %xmm1
	movups	32(%rcx), %xmm2
	movups	%xmm0, (%rdi)
	movups	%xmm1, 16(%rdi)
	movups	%xmm2, 32(%rdi)
	movaps	(%rsp), %xmm0
	movaps	16(%rsp), %xmm1
	movaps	32(%rsp), %xmm2
	movups	%xmm2, 32(%rcx)
	movups	%xmm1, 16(%rcx)
	movups	%xmm0, (%rcx)
L(58_111):
	incq	%rsi
	addq	$48, %rdi
	addq	$-48, %rcx
	decq	%rdx
	cmpq	%rsi, %rax
	je	L(58_115)
L(58_112):
	cmpq	%rdx, %rsi
	jb	L(58_110)
	jbe	L(58_111)
	movups	(%rcx), %xmm0
	movups	16(%rcx), %xmm1
	movups	32(%rcx), %xmm2
	movaps	%xmm2, 32(%rsp)
	movaps	%xmm1, 16(%rsp)
	movaps	%xmm0, (%rsp)
	movups	(%rdi), %xmm0
	movups	16(%rdi), %xmm1
	movups	32(%rdi), %xmm2
	movups	%xmm0, (%rcx)
	movups	%xmm1, 16(%rcx)
	movups	%xmm2, 32(%rcx)
	movaps	(%rsp), %xmm0
	movaps	16(%rsp), %xmm1
	movaps	32(%rsp), %xmm2
	movups	%xmm2, 32(%rdi)
	movups	%xmm1, 16(%rdi)
	movups	%xmm0, (%rdi)
	jmp	L(58_111)
L(58_115):
	testq	%r13, %r13
	je	L(58_127)
L(58_116):
	movq	%r14, 136(%rsp)
	jmp	L(58_118)
	.p2align	4
L(58_117):
	testq	%r13, %r13
	movq	136(%rsp), %r14
	je	L(58_127)
L(58_118):
	decq	%r13
	leaq	(,%r13,2), %rax
	addq	%r13, %rax
	shlq	$4, %rax
	movq	16(%r14,%rax), %r15
	movq	24(%r14,%rax), %rbx
	movq	32(%r14,%rax), %rax
	movq	%rax, 144(%rsp)
	testq	%rbx, %rbx
	je	L(58_125)
	leaq	48(%r15), %r14
	jmp	L(58_121)
	.p2align	4
L(58_120):
	addq	$56, %r14
	decq	%rbx
	je	L(58_125)
L(58_121):
	movq	-16(%r14), %r12
	movq	(%r14), %rbp
	cmpq	$0, -32(%r14)
	je	L(58_123)
	movq	-48(%r14), %rdi
	callq	PLT(yurewha_heap_dealloc)
L(58_123):
	testq	%rbp, %rbp
	je	L(58_120)
	movq	%r12, %rdi
	callq	PLT(yurewha_heap_dealloc)
	jmp	L(58_120)
	.p2align	4
L(58_125):
	cmpq	$0, 144(%rsp)
	je	L(58_117)
	movq	%r15, %rdi
	callq	PLT(yurewha_heap_dealloc)
	jmp	L(58_117)
L(58_127):
	movq	128(%rsp), %rdi
L(58_128):
	addq	$152, %rsp
	.cfi_def_cfa_offset 56
	popq	%rbx
	.cfi_def_cfa_offset 48
	popq	%r12
	.cfi_def_cfa_offset 40
	popq	%r13
	.cfi_def_cfa_offset 32
	popq	%r14
	.cfi_def_cfa_offset 24
	popq	%r15
	.cfi_def_cfa_offset 16
	popq	%rbp
	.cfi_def_cfa_offset 8
	jmp	PLT(yurewha_heap_dealloc)
	SIZE("std_collections::btree::node::Node::destroy::<#e27c17be7fe85c1a>")
	.cfi_endproc

CODE(".text.core::slice::edits::mirror::<i64>")
	.p2align	4
	TYPE("core::slice::edits::mirror::<i64>", function)
"core::slice::edits::mirror::<i64>":
	.cfi_startproc
	leaq	(%rdi,%rdx,8), %rax
	leaq	(%rsi,%rdx,8), %rcx
	cmpq	%rcx, %rdi
	setb	%cl
	cmpq	%rax, %rsi
	setb	%al
	testb	%al, %cl
	je	L(59_2)
	xorl	%eax, %eax
	jmp	L(59_5)
L(59_2):
	movabsq	$9223372036854775806, %rax
	andq	%rdx, %rax
	movq	%rdx, %rcx
	andq	$-2, %rcx
	negq	%rcx
	leaq	(%rsi,%rdx,8), %r8
	addq	$-16, %r8
	xorl	%r9d, %r9d
	movq	%rdi, %r10
	.p2align	4
L(59_3):
	movdqu	(%r10), %xmm0
	movdqu	(%r8,%r9,8), %xmm1
	pshufd	$78, %xmm1, %xmm1
	movdqu	%xmm1, (%r10)
	pshufd	$78, %xmm0, %xmm0
	movdqu	%xmm0, (%r8,%r9,8)
	addq	$-2, %r9
	addq	$16, %r10
	cmpq	%r9, %rcx
	jne	L(59_3)
	cmpq	%rax, %rdx
	je	L(59_10)
L(59_5):
	movq	%rax, %rcx
	orq	$1, %rcx
	testb	$1, %dl
	je	L(59_7)
	movq	%rax, %r8
	notq	%r8
	addq	%rdx, %r8
	movq	(%rdi,%rax,8), %r9
	movq	(%rsi,%r8,8), %r10
	movq	%r10, (%rdi,%rax,8)
	movq	%r9, (%rsi,%r8,8)
	movq	%rcx, %rax
L(59_7):
	cmpq	%rcx, %rdx
	je	L(59_10)
	subq	%rax, %rdx
	leaq	(%rdi,%rax,8), %rax
	addq	$8, %rax
	.p2align	4
L(59_9):
	movq	-8(%rax), %rcx
	movq	-8(%rsi,%rdx,8), %rdi
	movq	%rdi, -8(%rax)
	movq	%rcx, -8(%rsi,%rdx,8)
	movq	(%rax), %rcx
	movq	-16(%rsi,%rdx,8), %rdi
	movq	%rdi, (%rax)
	movq	%rcx, -16(%rsi,%rdx,8)
	addq	$16, %rax
	addq	$-2, %rdx
	jne	L(59_9)
L(59_10):
	retq
	SIZE("core::slice::edits::mirror::<i64>")
	.cfi_endproc

CODE(".text.core::slice::edits::mirror::<#667d5c0342a2aeff>")
	.p2align	4
	TYPE("core::slice::edits::mirror::<#667d5c0342a2aeff>", function)
"core::slice::edits::mirror::<#667d5c0342a2aeff>":
	.cfi_startproc
	leaq	(%rdx,%rdx,2), %rax
	shlq	$4, %rax
	addq	%rsi, %rax
	addq	$-48, %rax
	.p2align	4
L(60_1):
	movups	(%rdi), %xmm0
	movups	16(%rdi), %xmm1
	movups	32(%rdi), %xmm2
	movaps	%xmm2, -24(%rsp)
	movaps	%xmm1, -40(%rsp)
	movaps	%xmm0, -56(%rsp)
	movups	(%rax), %xmm0
	movups	16(%rax), %xmm1
	movups	32(%rax), %xmm2
	movups	%xmm0, (%rdi)
	movups	%xmm1, 16(%rdi)
	movups	%xmm2, 32(%rdi)
	movaps	-56(%rsp), %xmm0
	movaps	-40(%rsp), %xmm1
	movaps	-24(%rsp), %xmm2
	movups	%xmm2, 32(%rax)
	movups	%xmm1, 16(%rax)
	movups	%xmm0, (%rax)
	addq	$48, %rdi
	addq	$-48, %rax
	decq	%rdx
	jne	L(60_1)
	retq
	SIZE("core::slice::edits::mirror::<#667d5c0342a2aeff>")
	.cfi_endproc

SIZED(16, 4)
	.p2align	4, 0x0
D(CPI61_0):
	.byte	0
	.byte	1
	.byte	2
	.byte	3
	.byte	4
	.byte	5
	.byte	6
	.byte	7
	.byte	8
	.byte	9
	.byte	10
	.byte	11
	.byte	12
	.byte	13
	.byte	14
	.byte	15
D(CPI61_1):
	.byte	16
	.byte	17
	.byte	18
	.byte	19
	.byte	20
	.byte	21
	.byte	22
	.byte	23
	.byte	24
	.byte	25
	.byte	26
	.byte	27
	.byte	28
	.byte	29
	.byte	30
	.byte	31
CODE(".text.line_io::devices::write_all::<#df9e9f1468b30f79>")
	.p2align	4
	TYPE("line_io::devices::write_all::<#df9e9f1468b30f79>", function)
"line_io::devices::write_all::<#df9e9f1468b30f79>":
	.cfi_startproc
	testq	%rsi, %rsi
	je	L(61_9)
	pushq	%rbp
	.cfi_def_cfa_offset 16
	pushq	%r14
	.cfi_def_cfa_offset 24
	pushq	%rbx
	.cfi_def_cfa_offset 32
	subq	$96, %rsp
	.cfi_def_cfa_offset 128
	.cfi_offset %rbx, -32
	.cfi_offset %r14, -24
	.cfi_offset %rbp, -16
	movq	%rsi, %rbx
	movq	%rdi, %r14
L(61_2):
	movl	$16, %ebp
	.p2align	4
L(61_3):
	movl	$1, %edi
	movq	%r14, %rsi
	movq	%rbx, %rdx
	callq	PLT(write)
	testq	%rax, %rax
	jns	L(61_7)
	movq	%rsp, %rdi
	callq	"std_io::io::error::last_error"
	movq	(%rsp), %rax
	shrq	$8, %rax
	movaps	D(CPI61_0)(%rip), %xmm0
	movaps	%xmm0, (%rsp)
	movaps	D(CPI61_1)(%rip), %xmm0
	movaps	%xmm0, 16(%rsp)
	movabsq	$2820983053732684064, %rcx
	movq	%rcx, 32(%rsp)
	movb	$40, 40(%rsp)
	cmpb	$41, %al
	jae	L(61_10)
	andl	$63, %eax
	subl	$1, %ebp
	setb	%cl
	cmpb	$35, (%rsp,%rax)
	movb	$1, %al
	jne	L(61_11)
	testb	%cl, %cl
	je	L(61_3)
	jmp	L(61_11)
	.p2align	4
L(61_7):
	je	L(61_10)
	cmpq	%rbx, %rax
	cmovaeq	%rbx, %rax
	addq	%rax, %r14
	movq	%rax, %rcx
	xorl	%eax, %eax
	subq	%rcx, %rbx
	jne	L(61_2)
	jmp	L(61_11)
L(61_9):
	.cfi_def_cfa_offset 8
	.cfi_restore %rbx
	.cfi_restore %rbp
	.cfi_restore %r14
	xorl	%eax, %eax
	retq
L(61_10):
	.cfi_def_cfa_offset 128
	.cfi_offset %rbx, -32
	.cfi_offset %rbp, -16
	.cfi_offset %r14, -24
	movb	$1, %al
L(61_11):
	addq	$96, %rsp
	.cfi_def_cfa_offset 32
	popq	%rbx
	.cfi_def_cfa_offset 24
	popq	%r14
	.cfi_def_cfa_offset 16
	popq	%rbp
	.cfi_def_cfa_offset 8
	.cfi_restore %rbx
	.cfi_restore %r14
	.cfi_restore %rbp
	retq
	SIZE("line_io::devices::write_all::<#df9e9f1468b30f79>")
	.cfi_endproc

SIZED(16, 4)
	.p2align	4, 0x0
D(CPI62_0):
	.byte	0
	.byte	1
	.byte	2
	.byte	3
	.byte	4
	.byte	5
	.byte	6
	.byte	7
	.byte	8
	.byte	9
	.byte	10
	.byte	11
	.byte	12
	.byte	13
	.byte	14
	.byte	15
D(CPI62_1):
	.byte	16
	.byte	17
	.byte	18
	.byte	19
	.byte	20
	.byte	21
	.byte	22
	.byte	23
	.byte	24
	.byte	25
	.byte	26
	.byte	27
	.byte	28
	.byte	29
	.byte	30
	.byte	31
CODE(".text.line_io::request::PiecesWrite::write_str::<#03326aa510967ad1>")
	.p2align	4
	TYPE("line_io::request::PiecesWrite::write_str::<#03326aa510967ad1>", function)
"line_io::request::PiecesWrite::write_str::<#03326aa510967ad1>":
	.cfi_startproc
	testq	%rsi, %rsi
	je	L(62_9)
	pushq	%rbp
	.cfi_def_cfa_offset 16
	pushq	%r14
	.cfi_def_cfa_offset 24
	pushq	%rbx
	.cfi_def_cfa_offset 32
	subq	$96, %rsp
	.cfi_def_cfa_offset 128
	.cfi_offset %rbx, -32
	.cfi_offset %r14, -24
	.cfi_offset %rbp, -16
	movq	%rsi, %rbx
	movq	%rdi, %r14
L(62_2):
	movl	$16, %ebp
	.p2align	4
L(62_3):
	movl	$2, %edi
	movq	%r14, %rsi
	movq	%rbx, %rdx
	callq	PLT(write)
	testq	%rax, %rax
	jns	L(62_7)
	movq	%rsp, %rdi
	callq	"std_io::io::error::last_error"
	movq	(%rsp), %rax
	shrq	$8, %rax
	movaps	D(CPI62_0)(%rip), %xmm0
	movaps	%xmm0, (%rsp)
	movaps	D(CPI62_1)(%rip), %xmm0
	movaps	%xmm0, 16(%rsp)
	movabsq	$2820983053732684064, %rcx
	movq	%rcx, 32(%rsp)
	movb	$40, 40(%rsp)
	cmpb	$41, %al
	jae	L(62_10)
	andl	$63, %eax
	subl	$1, %ebp
	setb	%cl
	cmpb	$35, (%rsp,%rax)
	movb	$1, %al
	jne	L(62_11)
	testb	%cl, %cl
	je	L(62_3)
	jmp	L(62_11)
	.p2align	4
L(62_7):
	je	L(62_10)
	cmpq	%rbx, %rax
	cmovaeq	%rbx, %rax
	addq	%rax, %r14
	movq	%rax, %rcx
	xorl	%eax, %eax
	subq	%rcx, %rbx
	jne	L(62_2)
	jmp	L(62_11)
L(62_9):
	.cfi_def_cfa_offset 8
	.cfi_restore %rbx
	.cfi_restore %rbp
	.cfi_restore %r14
	xorl	%eax, %eax
	retq
L(62_10):
	.cfi_def_cfa_offset 128
	.cfi_offset %rbx, -32
	.cfi_offset %rbp, -16
	.cfi_offset %r14, -24
	movb	$1, %al
L(62_11):
	addq	$96, %rsp
	.cfi_def_cfa_offset 32
	popq	%rbx
	.cfi_def_cfa_offset 24
	popq	%r14
	.cfi_def_cfa_offset 16
	popq	%rbp
	.cfi_def_cfa_offset 8
	.cfi_restore %rbx
	.cfi_restore %r14
	.cfi_restore %rbp
	retq
	SIZE("line_io::request::PiecesWrite::write_str::<#03326aa510967ad1>")
	.cfi_endproc

CODE(".text.xetroot_text::program::report::<#03326aa510967ad1>")
	.p2align	4
	TYPE("xetroot_text::program::report::<#03326aa510967ad1>", function)
"xetroot_text::program::report::<#03326aa510967ad1>":
	.cfi_startproc
	pushq	%rbp
	.cfi_def_cfa_offset 16
	pushq	%r15
	.cfi_def_cfa_offset 24
	pushq	%r14
	.cfi_def_cfa_offset 32
	pushq	%r13
	.cfi_def_cfa_offset 40
	pushq	%r12
	.cfi_def_cfa_offset 48
	pushq	%rbx
	.cfi_def_cfa_offset 56
	subq	$152, %rsp
	.cfi_def_cfa_offset 208
	.cfi_offset %rbx, -56
	.cfi_offset %r12, -48
	.cfi_offset %r13, -40
	.cfi_offset %r14, -32
	.cfi_offset %r15, -24
	.cfi_offset %rbp, -16
	cmpb	$0, (%rdi)
	je	L(63_1)
	movzbl	8(%rdi), %r12d
	movq	16(%rdi), %r14
	xorps	%xmm0, %xmm0
	movaps	%xmm0, 128(%rsp)
	movaps	%xmm0, 112(%rsp)
	movaps	%xmm0, 96(%rsp)
	movaps	%xmm0, 80(%rsp)
	movaps	%xmm0, 64(%rsp)
	movaps	%xmm0, 48(%rsp)
	movaps	%xmm0, 32(%rsp)
	leal	1(%r12), %ebx
	leaq	D(static.24)(%rip), %rax
	negq	%rax
	addq	%rsp, %rax
	addq	$32, %rax
	movl	$92, %ecx
	btl	%r12d, %ecx
	jae	L(63_7)
	cmpq	$14, %rax
	ja	L(63_5)
	movabsq	$4212114075950540152, %rax
	movq	%rax, 32(%rsp)
	movl	$1969317408, 40(%rsp)
	movw	$29804, 44(%rsp)
	movb	$32, 46(%rsp)
	jmp	L(63_6)
L(63_1):
	xorl	%ebx, %ebx
	jmp	L(63_38)
L(63_7):
	cmpq	$14, %rax
	ja	L(63_9)
	movabsq	$4212114075950540152, %rax
	movq	%rax, 32(%rsp)
	movl	$1969317408, 40(%rsp)
	movw	$29804, 44(%rsp)
	movb	$32, 46(%rsp)
	jmp	L(63_10)
L(63_5):
	movabsq	$2338613357913186362, %rax
	movq	%rax, 39(%rsp)
	movabsq	$4212114075950540152, %rax
	movq	%rax, 32(%rsp)
L(63_6):
	movl	%ebx, %eax
	orb	$48, %al
	movb	%al, 47(%rsp)
	movl	$16, %esi
L(63_21):
	movb	$10, 32(%rsp,%rsi)
	incq	%rsi
	movq	%rsi, 136(%rsp)
	leaq	32(%rsp), %rdi
L(63_37):
	callq	"line_io::request::PiecesWrite::write_str::<#03326aa510967ad1>"
L(63_38):
	movl	%ebx, %eax
	addq	$152, %rsp
	.cfi_def_cfa_offset 56
	popq	%rbx
	.cfi_def_cfa_offset 48
	popq	%r12
	.cfi_def_cfa_offset 40
	popq	%r13
	.cfi_def_cfa_offset 32
	popq	%r14
	.cfi_def_cfa_offset 24
	popq	%r15
	.cfi_def_cfa_offset 16
	popq	%rbp
	.cfi_def_cfa_offset 8
	retq
L(63_9):
	.cfi_def_cfa_offset 208
	movabsq	$2338613357913186362, %rax
	movq	%rax, 39(%rsp)
	movabsq	$4212114075950540152, %rax
	movq	%rax, 32(%rsp)
L(63_10):
	movl	%ebx, %ebp
	orb	$48, %bpl
	movb	%bpl, 47(%rsp)
	leaq	D(static.25)(%rip), %rax
	negq	%rax
	addq	%rsp, %rax
	addq	$48, %rax
	cmpq	$8, %rax
	ja	L(63_12)
	movabsq	$7308895158390776096, %rax
	movq	%rax, 48(%rsp)
	movb	$32, 56(%rsp)
	jmp	L(63_13)
L(63_12):
	leaq	48(%rsp), %rax
	movabsq	$7308895158390776096, %rcx
	movq	%rcx, (%rax)
	movb	$32, 8(%rax)
L(63_13):
	movq	$25, 136(%rsp)
	movaps	%xmm0, (%rsp)
	movq	$0, 16(%rsp)
	movl	$24, %r13d
	movabsq	$2951479051793528259, %r15
	movq	%r14, %rdx
	cmpq	$100, %r14
	jb	L(63_16)
	movq	%r14, %rcx
	.p2align	4
L(63_15):
	movq	%rcx, %rax
	shrq	$2, %rax
	mulq	%r15
	shrq	$2, %rdx
	imull	$100, %edx, %eax
	movl	%ecx, %esi
	subl	%eax, %esi
	movzbl	%sil, %eax
	imull	$205, %eax, %esi
	shrl	$11, %esi
	leal	(%rsi,%rsi), %edi
	leal	(%rdi,%rdi,4), %edi
	subb	%dil, %al
	orb	$48, %al
	movb	%al, -1(%rsp,%r13)
	orb	$48, %sil
	movb	%sil, -2(%rsp,%r13)
	addq	$-2, %r13
	cmpq	$9999, %rcx
	movq	%rdx, %rcx
	ja	L(63_15)
L(63_16):
	cmpq	$10, %rdx
	jb	L(63_18)
	movzbl	%dl, %eax
	imull	$205, %eax, %eax
	shrl	$11, %eax
	leal	(%rax,%rax), %ecx
	leal	(%rcx,%rcx,4), %ecx
	subb	%cl, %dl
	orb	$48, %dl
	movb	%dl, -1(%rsp,%r13)
	orb	$48, %al
	movb	%al, -2(%rsp,%r13)
	addq	$-2, %r13
	movl	$24, %edx
	subq	%r13, %rdx
	cmpq	$75, %rdx
	jbe	L(63_20)
	jmp	L(63_22)
L(63_18):
	orb	$48, %dl
	movb	%dl, -1(%rsp,%r13)
	decq	%r13
	movl	$24, %edx
	subq	%r13, %rdx
	cmpq	$75, %rdx
	ja	L(63_22)
L(63_20):
	leaq	(%rsp,%r13), %rsi
	leaq	57(%rsp), %rdi
	callq	PLT(memcpy)
	movl	$49, %esi
	subq	%r13, %rsi
	movq	%rsi, 136(%rsp)
	cmpq	$-51, %r13
	jne	L(63_21)
L(63_22):
	leaq	D(static.24)(%rip), %rdi
	movl	$15, %esi
	callq	"line_io::request::PiecesWrite::write_str::<#03326aa510967ad1>"
	addb	$-2, %r12b
	cmpb	$2, %r12b
	ja	L(63_25)
	testb	%al, %al
	jne	L(63_38)
	leaq	23(%rsp), %rdi
	xorps	%xmm0, %xmm0
	movaps	%xmm0, (%rsp)
	movq	$0, 14(%rsp)
	movb	%bpl, 23(%rsp)
	movb	$45, 22(%rsp)
	movl	$1, %esi
	callq	"line_io::request::PiecesWrite::write_str::<#03326aa510967ad1>"
	testb	%al, %al
	jne	L(63_38)
L(63_36):
	leaq	D(static.14)(%rip), %rdi
	movl	$1, %esi
	jmp	L(63_37)
L(63_25):
	testb	%al, %al
	jne	L(63_38)
	leaq	23(%rsp), %rdi
	xorps	%xmm0, %xmm0
	movaps	%xmm0, (%rsp)
	movq	$0, 14(%rsp)
	movb	%bpl, 23(%rsp)
	movb	$45, 22(%rsp)
	movl	$1, %esi
	callq	"line_io::request::PiecesWrite::write_str::<#03326aa510967ad1>"
	testb	%al, %al
	jne	L(63_38)
	leaq	D(static.25)(%rip), %rdi
	movl	$9, %esi
	callq	"line_io::request::PiecesWrite::write_str::<#03326aa510967ad1>"
	testb	%al, %al
	jne	L(63_38)
	xorps	%xmm0, %xmm0
	movaps	%xmm0, (%rsp)
	movq	$0, 16(%rsp)
	movl	$24, %ecx
	cmpq	$100, %r14
	jb	L(63_29)
L(63_30):
	movq	%r14, %rax
	shrq	$2, %rax
	mulq	%r15
	shrq	$2, %rdx
	imull	$100, %edx, %eax
	movl	%r14d, %esi
	subl	%eax, %esi
	movzbl	%sil, %eax
	imull	$205, %eax, %esi
	shrl	$11, %esi
	leal	(%rsi,%rsi), %edi
	leal	(%rdi,%rdi,4), %edi
	subb	%dil, %al
	orb	$48, %al
	movb	%al, -1(%rsp,%rcx)
	orb	$48, %sil
	movb	%sil, -2(%rsp,%rcx)
	addq	$-2, %rcx
	cmpq	$9999, %r14
	movq	%rdx, %r14
	ja	L(63_30)
	jmp	L(63_31)
L(63_29):
	movq	%r14, %rdx
L(63_31):
	cmpq	$10, %rdx
	jb	L(63_33)
	movzbl	%dl, %eax
	imull	$205, %eax, %eax
	shrl	$11, %eax
	leal	(%rax,%rax), %esi
	leal	(%rsi,%rsi,4), %esi
	subb	%sil, %dl
	orb	$48, %dl
	movb	%dl, -1(%rsp,%rcx)
	orb	$48, %al
	movb	%al, -2(%rsp,%rcx)
	addq	$-2, %rcx
	jmp	L(63_34)
L(63_33):
	orb	$48, %dl
	movb	%dl, -1(%rsp,%rcx)
	decq	%rcx
L(63_34):
	leaq	(%rsp,%rcx), %rdi
	movb	$45, -1(%rsp,%rcx)
	movl	$24, %esi
	subq	%rcx, %rsi
	callq	"line_io::request::PiecesWrite::write_str::<#03326aa510967ad1>"
	testb	%al, %al
	jne	L(63_38)
	jmp	L(63_36)
	SIZE("xetroot_text::program::report::<#03326aa510967ad1>")
	.cfi_endproc

SIZED(16, 4)
	.p2align	4, 0x0
D(CPI64_0):
	.byte	0
	.byte	1
	.byte	2
	.byte	3
	.byte	4
	.byte	5
	.byte	6
	.byte	7
	.byte	8
	.byte	9
	.byte	10
	.byte	11
	.byte	12
	.byte	13
	.byte	14
	.byte	15
D(CPI64_1):
	.byte	16
	.byte	17
	.byte	18
	.byte	19
	.byte	20
	.byte	21
	.byte	22
	.byte	23
	.byte	24
	.byte	25
	.byte	26
	.byte	27
	.byte	28
	.byte	29
	.byte	30
	.byte	31
D(CPI64_2):
	.byte	160
	.byte	160
	.byte	160
	.byte	160
	.byte	160
	.byte	160
	.byte	160
	.byte	160
	.zero	1
	.zero	1
	.zero	1
	.zero	1
	.zero	1
	.zero	1
	.zero	1
	.zero	1
D(CPI64_3):
	.zero	16,15
D(CPI64_4):
	.byte	48
	.byte	48
	.byte	48
	.byte	48
	.byte	48
	.byte	48
	.byte	48
	.byte	48
	.zero	1
	.zero	1
	.zero	1
	.zero	1
	.zero	1
	.zero	1
	.zero	1
	.zero	1
D(CPI64_5):
	.byte	87
	.byte	87
	.byte	87
	.byte	87
	.byte	87
	.byte	87
	.byte	87
	.byte	87
	.zero	1
	.zero	1
	.zero	1
	.zero	1
	.zero	1
	.zero	1
	.zero	1
	.zero	1
D(CPI64_6):
	.byte	15
	.byte	15
	.byte	15
	.byte	15
	.byte	15
	.byte	15
	.byte	15
	.byte	15
	.zero	1
	.zero	1
	.zero	1
	.zero	1
	.zero	1
	.zero	1
	.zero	1
	.zero	1
D(CPI64_7):
	.byte	10
	.byte	10
	.byte	10
	.byte	10
	.byte	10
	.byte	10
	.byte	10
	.byte	10
	.zero	1
	.zero	1
	.zero	1
	.zero	1
	.zero	1
	.zero	1
	.zero	1
	.zero	1
CODE(.text.main)
	.globl	C(yurewha_program)
	.p2align	4
	TYPE(C(yurewha_program), function)
C(yurewha_program):
	.cfi_startproc
	endbr64
	pushq	%rbp
	.cfi_def_cfa_offset 16
	pushq	%r15
	.cfi_def_cfa_offset 24
	pushq	%r14
	.cfi_def_cfa_offset 32
	pushq	%r13
	.cfi_def_cfa_offset 40
	pushq	%r12
	.cfi_def_cfa_offset 48
	pushq	%rbx
	.cfi_def_cfa_offset 56
	movq	%rsp, %r11
	subq	$67584, %r11
	.cfi_def_cfa_register %r11
	.cfi_adjust_cfa_offset 67584
L(64_1):
	subq	$3072, %rsp
	movq	$0, (%rsp)
	cmpq	%r11, %rsp
	jne	L(64_1)
	subq	$2472, %rsp
	.cfi_def_cfa_register %rsp
	.cfi_def_cfa_offset 70112
	.cfi_offset %rbx, -56
	.cfi_offset %r12, -48
	.cfi_offset %r13, -40
	.cfi_offset %r14, -32
	.cfi_offset %r15, -24
	.cfi_offset %rbp, -16
	movl	$1, %esi
	movl	$13, %edi
	callq	PLT(yurewha_run_signal)
	leaq	8(%rsp), %rax
	movq	%rax, 24(%rsp)
	movq	%rax, 544(%rsp)
	pxor	%xmm0, %xmm0
	movdqu	%xmm0, 552(%rsp)
	leaq	4520(%rsp), %rbp
	xorl	%r14d, %r14d
	movq	$0, 16(%rsp)
L(64_3):
	movl	$256, %r12d
	movl	$64, %ebx
	jmp	L(64_5)
	.p2align	4
L(64_4):
	movq	%r12, %rax
	addq	%r12, %rax
	movq	$-1, %r12
	cmovaeq	%rax, %r12
	decl	%ebx
	leaq	4520(%rsp), %rbp
	je	L(64_27)
L(64_5):
	leaq	8(%rsp), %r15
	movq	%r15, 4512(%rsp)
	pxor	%xmm0, %xmm0
	movdqu	%xmm0, (%rbp)
	testq	%r12, %r12
	jne	L(64_12)
	xorl	%r13d, %r13d
L(64_7):
	movq	16(%rsp), %rdi
	movq	%r15, %rsi
	movq	%r13, %rdx
	callq	PLT(yurewha_run_argument)
	movq	%rax, %rbp
	movl	$22, %eax
	cmpq	$-1, %rbp
	je	L(64_9)
	movl	$36, %eax
L(64_9):
	xorl	%edi, %edi
	testq	%rbp, %rbp
	cmovsl	%eax, %edi
	callq	PLT(yurewha_run_set_errno)
	callq	PLT(yurewha_run_errno)
	cmpl	$36, %eax
	jne	L(64_15)
	cmpq	$0, 4528(%rsp)
	je	L(64_4)
	movq	%r15, %rdi
	callq	PLT(yurewha_heap_dealloc)
	jmp	L(64_4)
L(64_12):
	leaq	4512(%rsp), %rdi
	movq	%r12, %rsi
	callq	"std_alloc::vec::Vec::grow_amortized::<#bc82ad78765e08fe>"
	testb	%al, %al
	je	L(64_25)
	movq	4512(%rsp), %r15
	movq	4520(%rsp), %rdi
	leaq	(%rdi,%r12), %r13
	cmpq	%r13, %rdi
	jae	L(64_7)
	addq	%r15, %rdi
	xorl	%esi, %esi
	movq	%r12, %rdx
	callq	PLT(memset)
	jmp	L(64_7)
	.p2align	4
L(64_15):
	testl	%eax, %eax
	jne	L(64_21)
	cmpq	%r13, %rbp
	cmovbq	%rbp, %r13
	xorl	%r12d, %r12d
	testq	%rbp, %rbp
	cmovgq	%r13, %r12
	movq	4528(%rsp), %rbx
	pxor	%xmm0, %xmm0
	movdqa	%xmm0, 4512(%rsp)
	movq	$0, 4528(%rsp)
	leaq	4512(%rsp), %rdi
	movq	%r15, %rsi
	movq	%r12, %rdx
	callq	"core::str::utf8::from_utf8"
	cmpb	$1, 4512(%rsp)
	je	L(64_112)
	cmpq	%r14, 560(%rsp)
	leaq	4520(%rsp), %rbp
	je	L(64_19)
L(64_18):
	leaq	(%r14,%r14,2), %rax
	movq	24(%rsp), %rcx
	movq	%r15, (%rcx,%rax,8)
	movq	%r12, 8(%rcx,%rax,8)
	movq	%rbx, 16(%rcx,%rax,8)
	incq	%r14
	movq	%r14, 552(%rsp)
	movq	16(%rsp), %rcx
	incq	%rcx
	movq	%rcx, 16(%rsp)
	cmpq	$-1, %rcx
	jne	L(64_3)
	jmp	L(64_24)
L(64_19):
	leaq	544(%rsp), %rdi
	callq	"std_alloc::vec::Vec::grow_amortized::<#383813664ff73b2b>"
	testb	%al, %al
	je	L(64_171)
	movq	544(%rsp), %rax
	movq	%rax, 24(%rsp)
	movq	552(%rsp), %r14
	jmp	L(64_18)
L(64_21):
	cmpq	$0, 4528(%rsp)
	je	L(64_23)
	movq	%r15, %rdi
	callq	PLT(yurewha_heap_dealloc)
L(64_23):
	leaq	4520(%rsp), %rbp
L(64_24):
	movq	544(%rsp), %rbx
	movq	560(%rsp), %r12
	movb	$1, %r13b
	jmp	L(64_36)
L(64_25):
	cmpq	$0, 4528(%rsp)
	je	L(64_27)
	movq	4512(%rsp), %rdi
	callq	PLT(yurewha_heap_dealloc)
L(64_27):
	movq	560(%rsp), %r15
	testq	%r14, %r14
	je	L(64_32)
	movq	24(%rsp), %rax
	leaq	16(%rax), %rbx
	jmp	L(64_30)
	.p2align	4
L(64_29):
	addq	$24, %rbx
	decq	%r14
	je	L(64_32)
L(64_30):
	cmpq	$0, (%rbx)
	je	L(64_29)
	movq	-16(%rbx), %rdi
	callq	PLT(yurewha_heap_dealloc)
	jmp	L(64_29)
L(64_32):
	movl	$9729, %ebx
	testq	%r15, %r15
	je	L(64_35)
	movq	24(%rsp), %rdi
L(64_34):
	callq	PLT(yurewha_heap_dealloc)
L(64_35):
	xorl	%r13d, %r13d
	xorl	%r14d, %r14d
	xorl	%r12d, %r12d
L(64_36):
	pxor	%xmm0, %xmm0
	movdqa	%xmm0, 176(%rsp)
	movq	$0, 192(%rsp)
	movdqa	%xmm0, 272(%rsp)
	movq	$0, 288(%rsp)
	movdqa	%xmm0, 240(%rsp)
	movq	$0, 256(%rsp)
	movdqa	%xmm0, 208(%rsp)
	movq	$0, 224(%rsp)
	movabsq	$2820983053732684064, %r15
	testb	%r13b, %r13b
	je	L(64_56)
	testq	%r14, %r14
	je	L(64_41)
	movq	(%rbx), %rdi
	movq	16(%rbx), %rbp
	cmpq	$1, %r14
	jne	L(64_71)
	testq	%rbp, %rbp
	leaq	4520(%rsp), %rbp
	je	L(64_41)
	callq	PLT(yurewha_heap_dealloc)
L(64_41):
	testq	%r12, %r12
	je	L(64_43)
	movq	%rbx, %rdi
	callq	PLT(yurewha_heap_dealloc)
L(64_43):
	pxor	%xmm0, %xmm0
	movdqu	%xmm0, 2600(%rsp)
	movdqu	%xmm0, 2584(%rsp)
	movdqu	%xmm0, 2568(%rsp)
	movdqa	%xmm0, 2528(%rsp)
	movdqa	%xmm0, 2544(%rsp)
	leaq	2624(%rsp), %rdi
	xorl	%r14d, %r14d
	movl	$1864, %edx
	xorl	%esi, %esi
	callq	PLT(memset)
	pxor	%xmm0, %xmm0
	movdqa	%xmm0, 384(%rsp)
	movdqa	%xmm0, 400(%rsp)
	movdqa	%xmm0, 416(%rsp)
	movdqa	%xmm0, 432(%rsp)
	movdqa	%xmm0, 448(%rsp)
	movdqa	%xmm0, 464(%rsp)
	movdqa	%xmm0, 480(%rsp)
	movdqa	%xmm0, 496(%rsp)
	movdqa	%xmm0, 512(%rsp)
	movq	$0, 528(%rsp)
	movdqa	%xmm0, 304(%rsp)
	movdqa	%xmm0, 320(%rsp)
	movdqa	%xmm0, 336(%rsp)
	movdqa	%xmm0, 352(%rsp)
	movq	$0, 367(%rsp)
	movq	$0, 160(%rsp)
	movl	$0, 167(%rsp)
	movw	$0, 76(%rsp)
	movl	$0, 72(%rsp)
	leaq	8(%rsp), %rax
	movq	%rax, 2560(%rsp)
	movq	$0, 2616(%rsp)
	movq	$0, 4488(%rsp)
	movq	$1, 4496(%rsp)
	movq	$0, 4504(%rsp)
	leaq	4512(%rsp), %rdi
	movl	$65536, %edx
	xorl	%esi, %esi
	callq	PLT(memset)
	.p2align	4
L(64_44):
	leaq	4512(%rsp), %rsi
	movl	$65536, %ebx
	movl	$65536, %edx
	xorl	%edi, %edi
	callq	PLT(read)
	testq	%rax, %rax
	js	L(64_48)
	cmpq	$65536, %rax
	cmovbq	%rax, %rbx
	testq	%rax, %rax
	je	L(64_74)
	pxor	%xmm0, %xmm0
	movdqa	%xmm0, 544(%rsp)
	movdqa	%xmm0, 560(%rsp)
	movdqa	%xmm0, 32(%rsp)
	movdqa	%xmm0, 48(%rsp)
	xorl	%r14d, %r14d
	movabsq	$1099511627776, %rax
	subq	4488(%rsp), %rax
	movl	$0, %ecx
	cmovaeq	%rax, %rcx
	cmpq	%rcx, %rbx
	ja	L(64_78)
	leaq	544(%rsp), %rdi
	leaq	2528(%rsp), %rsi
	leaq	4512(%rsp), %rdx
	movq	%rbx, %rcx
	callq	"line_io::reading::Reading::take_within::<#42ff4d2293d53660>"
	cmpb	$0, 544(%rsp)
	je	L(64_44)
	jmp	L(64_79)
	.p2align	4
L(64_48):
	leaq	544(%rsp), %rdi
	callq	"std_io::io::error::last_error"
	movq	544(%rsp), %rax
	shrq	$8, %rax
	movaps	D(CPI64_0)(%rip), %xmm0
	movaps	%xmm0, 544(%rsp)
	movdqa	D(CPI64_1)(%rip), %xmm0
	movdqa	%xmm0, 560(%rsp)
	movq	%r15, 576(%rsp)
	movb	$40, 584(%rsp)
	cmpb	$41, %al
	jae	L(64_51)
	andl	$63, %eax
	cmpb	$35, 544(%rsp,%rax)
	jne	L(64_51)
	incl	%r14d
	cmpl	$17, %r14d
	jne	L(64_44)
L(64_51):
	movq	2560(%rsp), %rbx
	movq	2576(%rsp), %r14
	cmpb	$1, 2528(%rsp)
	jne	L(64_53)
	movq	2536(%rsp), %rdi
	callq	"std_collections::btree::node::Node::destroy::<#e27c17be7fe85c1a>"
L(64_53):
	movb	$2, %r15b
	testq	%r14, %r14
	je	L(64_55)
	movq	%rbx, %rdi
	callq	PLT(yurewha_heap_dealloc)
L(64_55):
	xorl	%r14d, %r14d
	xorl	%r12d, %r12d
	xorl	%ebx, %ebx
	cmpb	$2, %bl
	jne	L(64_85)
L(64_197):
	movl	$4, %eax
	jmp	L(64_198)
L(64_56):
	shrq	$8, %rbx
	movaps	D(CPI64_0)(%rip), %xmm0
	movaps	%xmm0, 4512(%rsp)
	movdqa	D(CPI64_1)(%rip), %xmm0
	movdqa	%xmm0, 4528(%rsp)
	movq	%r15, 4544(%rsp)
	movb	$40, 4552(%rsp)
	cmpb	$41, %bl
	jae	L(64_59)
	andl	$63, %ebx
	xorl	%r15d, %r15d
	cmpb	$38, 4512(%rsp,%rbx)
	movl	$0, %r8d
	movl	$0, %ebx
	movl	$0, %r14d
	movl	$0, %eax
	movq	%rax, 16(%rsp)
	movl	$0, %eax
	jne	L(64_60)
	movb	$1, 208(%rsp)
	movq	$2, 216(%rsp)
	movq	$0, 224(%rsp)
	leaq	208(%rsp), %rdi
	jmp	L(64_201)
L(64_59):
	xorl	%r15d, %r15d
	xorl	%r8d, %r8d
	xorl	%ebx, %ebx
	xorl	%r14d, %r14d
	movq	$0, 16(%rsp)
	xorl	%eax, %eax
L(64_60):
	movq	%r15, 24(%rsp)
	movq	%rax, %r15
	movq	%r8, %r12
L(64_61):
	pxor	%xmm0, %xmm0
	movdqu	%xmm0, 4562(%rsp)
	movdqu	%xmm0, 4594(%rsp)
	movdqu	%xmm0, 4578(%rsp)
	movq	$0, 4608(%rsp)
	movups	D(static.3)(%rip), %xmm0
	movaps	%xmm0, 4512(%rsp)
	movups	D(static.3)+16(%rip), %xmm0
	movaps	%xmm0, 4528(%rsp)
	movdqu	D(static.3)+32(%rip), %xmm0
	movdqa	%xmm0, 4544(%rsp)
	movw	$28271, 4560(%rsp)
	movb	$10, 4562(%rsp)
	movq	$51, 4616(%rsp)
	leaq	4512(%rsp), %rdi
	movl	$51, %esi
	callq	"line_io::request::PiecesWrite::write_str::<#03326aa510967ad1>"
	movb	$64, %bpl
	testb	%r13b, %r13b
	je	L(64_202)
	testq	%r12, %r12
	je	L(64_64)
	movq	24(%rsp), %rdi
	callq	PLT(yurewha_heap_dealloc)
L(64_64):
	testq	%r14, %r14
	movq	16(%rsp), %r12
	je	L(64_69)
	leaq	(%r15,%r15,2), %rax
	leaq	(%rbx,%rax,8), %r15
	addq	$16, %r15
	jmp	L(64_67)
	.p2align	4
L(64_66):
	addq	$24, %r15
	decq	%r14
	je	L(64_69)
L(64_67):
	cmpq	$0, (%r15)
	je	L(64_66)
	movq	-16(%r15), %rdi
	callq	PLT(yurewha_heap_dealloc)
	jmp	L(64_66)
L(64_69):
	testq	%r12, %r12
	je	L(64_202)
	movq	%rbx, %rdi
	callq	PLT(yurewha_heap_dealloc)
	jmp	L(64_202)
L(64_71):
	movq	24(%rbx), %r15
	movq	40(%rbx), %r8
	addq	$-2, %r14
	je	L(64_91)
	movq	%r12, 16(%rsp)
	movl	$2, %eax
	testq	%rbp, %rbp
	je	L(64_60)
	movq	%r8, %r12
	callq	PLT(yurewha_heap_dealloc)
	movl	$2, %eax
	movq	%r12, %r8
	jmp	L(64_60)
L(64_74):
	movb	$0, 34(%rsp)
	movw	$0, 32(%rsp)
	leaq	544(%rsp), %rdi
	leaq	2528(%rsp), %rsi
	movl	$1984, %edx
	callq	PLT(memcpy)
	cmpb	$0, 2520(%rsp)
	je	L(64_95)
	leaq	32(%rsp), %rdi
	leaq	544(%rsp), %rsi
	callq	"pair_text::said_lines::SaidLinesTakeLines::end_line::<#a10fcec3e4a5dd02>"
	cmpb	$1, 32(%rsp)
	jne	L(64_100)
	movzbl	33(%rsp), %r15d
	xorl	%eax, %eax
	testb	%r15b, %r15b
	movq	2512(%rsp), %r14
	cmovneq	%rax, %r14
	movzbl	34(%rsp), %r12d
	cmovnel	%eax, %r12d
	movq	576(%rsp), %rbx
	movq	592(%rsp), %r13
	cmpb	$1, 544(%rsp)
	jne	L(64_82)
	movq	552(%rsp), %rdi
	jmp	L(64_81)
L(64_78):
	leaq	32(%rsp), %rdi
	leaq	2528(%rsp), %rsi
	leaq	4512(%rsp), %rdx
	callq	"line_io::reading::Reading::take_within::<#42ff4d2293d53660>"
	xorl	%r12d, %r12d
	cmpb	$0, 32(%rsp)
	leaq	48(%rsp), %rax
	leaq	4496(%rsp), %rcx
	movl	40(%rsp), %r15d
	cmovel	%r12d, %r15d
	cmovneq	%rax, %rcx
	movq	(%rcx), %r14
	cmovnel	56(%rsp), %r12d
	movq	2560(%rsp), %rbx
	movq	2576(%rsp), %r13
	cmpb	$1, 2528(%rsp)
	jne	L(64_82)
	jmp	L(64_80)
L(64_79):
	movzbl	552(%rsp), %r15d
	movq	560(%rsp), %r14
	movzbl	568(%rsp), %r12d
	movq	2560(%rsp), %rbx
	movq	2576(%rsp), %r13
	cmpb	$1, 2528(%rsp)
	jne	L(64_82)
L(64_80):
	movq	2536(%rsp), %rdi
L(64_81):
	callq	"std_collections::btree::node::Node::destroy::<#e27c17be7fe85c1a>"
L(64_82):
	testq	%r13, %r13
	je	L(64_84)
	movq	%rbx, %rdi
	callq	PLT(yurewha_heap_dealloc)
L(64_84):
	xorl	%ebx, %ebx
	cmpb	$2, %bl
	je	L(64_197)
L(64_85):
	movzbl	%bl, %eax
	cmpl	$1, %eax
	jne	L(64_88)
	testl	$256, %ebx
	jne	L(64_90)
	movl	$6, %eax
	jmp	L(64_198)
L(64_88):
	cmpb	$2, %r15b
	je	L(64_96)
	movzbl	%r15b, %eax
	cmpl	$1, %eax
	jne	L(64_97)
L(64_90):
	movl	$2, %eax
	jmp	L(64_198)
L(64_91):
	movq	32(%rbx), %rax
	cmpq	$9, %rax
	je	L(64_129)
	cmpq	$6, %rax
	je	L(64_121)
	cmpq	$2, %rax
	jne	L(64_136)
	movzbl	(%r15), %eax
	movzbl	1(%r15), %ecx
	shll	$16, %eax
	movl	%ecx, %edx
	shll	$8, %edx
	orl	%eax, %edx
	orl	%ecx, %edx
	cmpl	$2975848, %edx
	je	L(64_122)
	jmp	L(64_136)
L(64_95):
	movaps	544(%rsp), %xmm0
	movzbl	560(%rsp), %eax
	movups	2545(%rsp), %xmm1
	movups	2561(%rsp), %xmm2
	movups	2577(%rsp), %xmm3
	movups	2593(%rsp), %xmm4
	movaps	%xmm1, 80(%rsp)
	movaps	%xmm2, 96(%rsp)
	movaps	%xmm3, 112(%rsp)
	movaps	%xmm4, 128(%rsp)
	movq	2608(%rsp), %rcx
	jmp	L(64_101)
L(64_96):
	movl	$3, %eax
L(64_198):
	xorl	%r14d, %r14d
L(64_199):
	movb	$1, 176(%rsp)
	movq	%rax, 184(%rsp)
	movq	%r14, 192(%rsp)
L(64_200):
	leaq	176(%rsp), %rdi
L(64_201):
	callq	"xetroot_text::program::report::<#03326aa510967ad1>"
	movl	%eax, %ebp
L(64_202):
	movzbl	%bpl, %eax
	addq	$70056, %rsp
	.cfi_def_cfa_offset 56
	popq	%rbx
	.cfi_def_cfa_offset 48
	popq	%r12
	.cfi_def_cfa_offset 40
	popq	%r13
	.cfi_def_cfa_offset 32
	popq	%r14
	.cfi_def_cfa_offset 24
	popq	%r15
	.cfi_def_cfa_offset 16
	popq	%rbp
	.cfi_def_cfa_offset 8
	retq
L(64_97):
	.cfi_def_cfa_offset 70112
	movzbl	%r12b, %eax
	testb	%al, %al
	je	L(64_199)
	cmpl	$2, %eax
	jne	L(64_139)
	movl	$1, %eax
	jmp	L(64_199)
L(64_100):
	movaps	544(%rsp), %xmm0
	movzbl	560(%rsp), %eax
	movups	561(%rsp), %xmm1
	movaps	%xmm1, 80(%rsp)
	movups	577(%rsp), %xmm1
	movaps	%xmm1, 96(%rsp)
	movups	593(%rsp), %xmm1
	movaps	%xmm1, 112(%rsp)
	movups	609(%rsp), %xmm1
	movaps	%xmm1, 128(%rsp)
	movq	624(%rsp), %rcx
L(64_101):
	movq	%rcx, 143(%rsp)
	movaps	80(%rsp), %xmm1
	movaps	96(%rsp), %xmm2
	movaps	112(%rsp), %xmm3
	movdqa	128(%rsp), %xmm4
	movaps	%xmm1, 304(%rsp)
	movaps	%xmm2, 320(%rsp)
	movaps	%xmm3, 336(%rsp)
	movdqa	%xmm4, 352(%rsp)
	movq	143(%rsp), %rcx
	movq	%rcx, 367(%rsp)
	movl	$0, 152(%rsp)
	movb	$0, 156(%rsp)
	movl	$0, 200(%rsp)
	movw	$0, 204(%rsp)
	movaps	%xmm0, 4512(%rsp)
	movb	%al, 4528(%rsp)
	movdqa	304(%rsp), %xmm0
	movdqa	320(%rsp), %xmm1
	movdqa	336(%rsp), %xmm2
	movdqa	352(%rsp), %xmm3
	movdqu	%xmm0, 4529(%rsp)
	movdqu	%xmm1, 4545(%rsp)
	movdqu	%xmm2, 4561(%rsp)
	movdqu	%xmm3, 4577(%rsp)
	movq	367(%rsp), %rax
	movq	%rax, 4592(%rsp)
	leaq	4512(%rsp), %rdi
	callq	"xetroot_text::placed_pairs::PlacedPairs::end_range::<#ca9445b3ca2ffbf0>"
	testb	%al, %al
	jne	L(64_191)
	movq	4584(%rsp), %rax
	cmpb	$1, 4512(%rsp)
	jne	L(64_111)
	movq	4520(%rsp), %rdi
	cmpw	$0, (%rdi)
	je	L(64_140)
	.p2align	4
L(64_104):
	movq	(%rbp), %rbx
	leaq	848(%rbx), %rbp
	cmpw	$0, 2(%rbx)
	jne	L(64_104)
	cmpq	$0, 8(%rbx)
	jne	L(64_141)
	cmpq	%rax, 128(%rbx)
	jne	L(64_141)
	cmpq	$1, 4528(%rsp)
	ja	L(64_141)
	cmpb	$0, 136(%rbx)
	jne	L(64_218)
	cmpb	$0, 137(%rbx)
	jne	L(64_218)
	addq	$136, %rbx
	movb	$1, %r15b
	jmp	L(64_144)
L(64_111):
	testq	%rax, %rax
	jne	L(64_142)
	jmp	L(64_143)
L(64_112):
	testq	%rbx, %rbx
	leaq	4520(%rsp), %rbp
	je	L(64_114)
	movq	%r15, %rdi
	callq	PLT(yurewha_heap_dealloc)
L(64_114):
	movq	544(%rsp), %r15
	movq	560(%rsp), %r12
	testq	%r14, %r14
	je	L(64_119)
	leaq	16(%r15), %rbx
	jmp	L(64_117)
	.p2align	4
L(64_116):
	addq	$24, %rbx
	decq	%r14
	je	L(64_119)
L(64_117):
	cmpq	$0, (%rbx)
	je	L(64_116)
	movq	-16(%rbx), %rdi
	callq	PLT(yurewha_heap_dealloc)
	jmp	L(64_116)
L(64_119):
	movl	$5377, %ebx
	testq	%r12, %r12
	je	L(64_35)
L(64_120):
	movq	%r15, %rdi
	jmp	L(64_34)
L(64_121):
	movl	(%r15), %eax
	movl	2(%r15), %ecx
	shlq	$32, %rcx
	orq	%rax, %rcx
	movabsq	$8100961328785009965, %rax
	cmpq	%rax, %rcx
	jne	L(64_136)
L(64_122):
	testq	%r8, %r8
	je	L(64_124)
	movq	%rdi, %r14
	movq	%r15, %rdi
	callq	PLT(yurewha_heap_dealloc)
	movq	%r14, %rdi
L(64_124):
	testq	%rbp, %rbp
	je	L(64_126)
	callq	PLT(yurewha_heap_dealloc)
L(64_126):
	testq	%r12, %r12
	je	L(64_128)
	movq	%rbx, %rdi
	callq	PLT(yurewha_heap_dealloc)
L(64_128):
	leaq	D(static.1)(%rip), %rdi
	movl	$754, %esi
	callq	"line_io::devices::write_all::<#df9e9f1468b30f79>"
	leal	(,%rax,4), %ecx
	movzbl	%cl, %ecx
	movb	%al, 272(%rsp)
	movq	%rcx, 280(%rsp)
	movq	$0, 288(%rsp)
	leaq	272(%rsp), %rdi
	jmp	L(64_201)
L(64_129):
	movabsq	$8028074745930329389, %rax
	cmpq	%rax, (%r15)
	jne	L(64_136)
	movabsq	$7957695011148363309, %rax
	cmpq	%rax, 1(%r15)
	jne	L(64_136)
	testq	%r8, %r8
	je	L(64_133)
	movq	%rdi, %r14
	movq	%r15, %rdi
	callq	PLT(yurewha_heap_dealloc)
	movq	%r14, %rdi
L(64_133):
	testq	%rbp, %rbp
	je	L(64_135)
	callq	PLT(yurewha_heap_dealloc)
L(64_135):
	movq	%rbx, 544(%rsp)
	movq	$0, 552(%rsp)
	movq	%r12, 560(%rsp)
	movq	$2, 568(%rsp)
	movq	$0, 576(%rsp)
	leaq	544(%rsp), %rdi
	callq	"std_alloc::vec::deque::VecDeque::drop::<#f88921834ea0b950>"
	leaq	D(static.2)(%rip), %rdi
	movl	$52, %esi
	callq	"line_io::devices::write_all::<#df9e9f1468b30f79>"
	leal	(,%rax,4), %ecx
	movzbl	%cl, %ecx
	movb	%al, 240(%rsp)
	movq	%rcx, 248(%rsp)
	movq	$0, 256(%rsp)
	leaq	240(%rsp), %rdi
	jmp	L(64_201)
L(64_136):
	movq	%r12, 16(%rsp)
	movq	%r8, %r12
	movq	%r15, 24(%rsp)
	testq	%rbp, %rbp
	je	L(64_138)
	callq	PLT(yurewha_heap_dealloc)
L(64_138):
	movl	$2, %r15d
	xorl	%r14d, %r14d
	jmp	L(64_61)
L(64_139):
	movl	$5, %eax
	jmp	L(64_199)
L(64_140):
	testq	%rax, %rax
	je	L(64_143)
L(64_141):
	callq	"std_collections::btree::node::Node::destroy::<#e27c17be7fe85c1a>"
L(64_142):
	movl	$1, %ebx
	jmp	L(64_194)
L(64_143):
	xorl	%r15d, %r15d
	xorl	%ebx, %ebx
L(64_144):
	pxor	%xmm0, %xmm0
	movdqa	%xmm0, 544(%rsp)
	movdqa	%xmm0, 560(%rsp)
	movdqa	%xmm0, 576(%rsp)
	movdqa	%xmm0, 2528(%rsp)
	movdqa	%xmm0, 2544(%rsp)
	movdqa	%xmm0, 2560(%rsp)
	leaq	544(%rsp), %rdi
	leaq	8(%rsp), %rdx
	movl	$1, %esi
	xorl	%ecx, %ecx
	xorl	%r8d, %r8d
	callq	"xet_merkle::merkle_hash_subtree::subtree::as_range::MerkleHashSubtreeChunkRange::from_chunks::<#d96a70c1b70ca186>"
	cmpb	$0, 544(%rsp)
	je	L(64_146)
	movzbl	545(%rsp), %ebp
	jmp	L(64_190)
L(64_146):
	movq	584(%rsp), %rax
	movq	%rax, 112(%rsp)
	movdqu	552(%rsp), %xmm0
	movdqu	568(%rsp), %xmm1
	movdqa	%xmm1, 96(%rsp)
	movdqa	%xmm0, 80(%rsp)
	testb	%r15b, %r15b
	je	L(64_155)
	pxor	%xmm0, %xmm0
	movdqa	%xmm0, 48(%rsp)
	movdqa	%xmm0, 32(%rsp)
	leaq	32(%rsp), %rdi
	leaq	80(%rsp), %rsi
	xorl	%r14d, %r14d
	movq	%rbx, %rdx
	xorl	%ecx, %ecx
	callq	"xet_merkle::merkle_hash_subtree::subtree::MerkleHashSubtree::merge_with::<#3cf6a99334775a21>"
	cmpb	$0, 32(%rsp)
	movzbl	33(%rsp), %ebp
	cmovel	%r14d, %ebp
	je	L(64_155)
	movq	88(%rsp), %rbx
	movq	96(%rsp), %r12
	movq	104(%rsp), %rax
	movq	%rax, 16(%rsp)
	testq	%r12, %r12
	je	L(64_188)
	leaq	48(%rbx), %r13
	jmp	L(64_151)
L(64_150):
	addq	$56, %r13
	decq	%r12
	je	L(64_188)
L(64_151):
	movq	-16(%r13), %r14
	movq	(%r13), %r15
	cmpq	$0, -32(%r13)
	je	L(64_153)
	movq	-48(%r13), %rdi
	callq	PLT(yurewha_heap_dealloc)
L(64_153):
	testq	%r15, %r15
	je	L(64_150)
	movq	%r14, %rdi
	callq	PLT(yurewha_heap_dealloc)
	jmp	L(64_150)
L(64_155):
	xorl	%ebx, %ebx
	leaq	2528(%rsp), %rdi
	leaq	8(%rsp), %rdx
	xorl	%esi, %esi
	xorl	%ecx, %ecx
	movl	$1, %r8d
	callq	"xet_merkle::merkle_hash_subtree::subtree::as_range::MerkleHashSubtreeChunkRange::from_chunks::<#d96a70c1b70ca186>"
	cmpb	$0, 2528(%rsp)
	je	L(64_163)
	movzbl	2529(%rsp), %ebp
	movq	88(%rsp), %rbx
	movq	96(%rsp), %r12
	movq	104(%rsp), %rax
	movq	%rax, 16(%rsp)
	testq	%r12, %r12
	je	L(64_188)
	leaq	48(%rbx), %r13
	jmp	L(64_159)
L(64_158):
	addq	$56, %r13
	decq	%r12
	je	L(64_188)
L(64_159):
	movq	-16(%r13), %r14
	movq	(%r13), %r15
	cmpq	$0, -32(%r13)
	je	L(64_161)
	movq	-48(%r13), %rdi
	callq	PLT(yurewha_heap_dealloc)
L(64_161):
	testq	%r15, %r15
	je	L(64_158)
	movq	%r14, %rdi
	callq	PLT(yurewha_heap_dealloc)
	jmp	L(64_158)
L(64_163):
	leaq	2536(%rsp), %r12
	movq	2544(%rsp), %r14
	movq	2552(%rsp), %r13
	movq	2560(%rsp), %rax
	movq	%rax, 16(%rsp)
	pxor	%xmm0, %xmm0
	movdqa	%xmm0, 48(%rsp)
	movdqa	%xmm0, 32(%rsp)
	leaq	32(%rsp), %rdi
	leaq	80(%rsp), %rsi
	movq	%r12, %rdx
	xorl	%ecx, %ecx
	callq	"xet_merkle::merkle_hash_subtree::subtree::MerkleHashSubtree::merge_with::<#3cf6a99334775a21>"
	cmpb	$0, 32(%rsp)
	movzbl	33(%rsp), %ebp
	cmovel	%ebx, %ebp
	je	L(64_203)
	testq	%r13, %r13
	je	L(64_179)
	leaq	48(%r14), %r15
	jmp	L(64_167)
L(64_166):
	addq	$56, %r15
	decq	%r13
	je	L(64_179)
L(64_167):
	movq	-16(%r15), %rbx
	movq	(%r15), %r12
	cmpq	$0, -32(%r15)
	je	L(64_169)
	movq	-48(%r15), %rdi
	callq	PLT(yurewha_heap_dealloc)
L(64_169):
	testq	%r12, %r12
	je	L(64_166)
	movq	%rbx, %rdi
	callq	PLT(yurewha_heap_dealloc)
	jmp	L(64_166)
L(64_171):
	testq	%rbx, %rbx
	je	L(64_173)
	movq	%r15, %rdi
	callq	PLT(yurewha_heap_dealloc)
L(64_173):
	movq	544(%rsp), %r15
	movq	552(%rsp), %rbx
	movq	560(%rsp), %r14
	testq	%rbx, %rbx
	je	L(64_178)
	leaq	16(%r15), %r12
	jmp	L(64_176)
L(64_175):
	addq	$24, %r12
	decq	%rbx
	je	L(64_178)
L(64_176):
	cmpq	$0, (%r12)
	je	L(64_175)
	movq	-16(%r12), %rdi
	callq	PLT(yurewha_heap_dealloc)
	jmp	L(64_175)
L(64_178):
	movl	$9729, %ebx
	testq	%r14, %r14
	jne	L(64_120)
	jmp	L(64_35)
L(64_179):
	cmpq	$0, 16(%rsp)
	je	L(64_181)
	movq	%r14, %rdi
	callq	PLT(yurewha_heap_dealloc)
L(64_181):
	movq	88(%rsp), %rbx
	movq	96(%rsp), %r12
	movq	104(%rsp), %rax
	movq	%rax, 16(%rsp)
	testq	%r12, %r12
	je	L(64_188)
	leaq	48(%rbx), %r13
	jmp	L(64_184)
L(64_183):
	addq	$56, %r13
	decq	%r12
	je	L(64_188)
L(64_184):
	movq	-16(%r13), %r14
	movq	(%r13), %r15
	cmpq	$0, -32(%r13)
	je	L(64_186)
	movq	-48(%r13), %rdi
	callq	PLT(yurewha_heap_dealloc)
L(64_186):
	testq	%r15, %r15
	je	L(64_183)
	movq	%r14, %rdi
	callq	PLT(yurewha_heap_dealloc)
	jmp	L(64_183)
L(64_188):
	cmpq	$0, 16(%rsp)
	je	L(64_190)
	movq	%rbx, %rdi
	callq	PLT(yurewha_heap_dealloc)
L(64_190):
	cmpb	$2, %bpl
	jne	L(64_218)
L(64_191):
	cmpb	$1, 4512(%rsp)
	jne	L(64_193)
	movq	4520(%rsp), %rdi
	callq	"std_collections::btree::node::Node::destroy::<#e27c17be7fe85c1a>"
L(64_193):
	movl	$257, %ebx
L(64_194):
	cmpq	$0, 4560(%rsp)
	je	L(64_196)
	movq	4544(%rsp), %rdi
	callq	PLT(yurewha_heap_dealloc)
L(64_196):
	xorl	%r12d, %r12d
	xorl	%r14d, %r14d
	xorl	%r15d, %r15d
	cmpb	$2, %bl
	jne	L(64_85)
	jmp	L(64_197)
L(64_203):
	cmpb	$1, 80(%rsp)
	jne	L(64_218)
	cmpb	$0, 81(%rsp)
	je	L(64_218)
	movq	96(%rsp), %rax
	testq	%rax, %rax
	je	L(64_218)
	movq	%r12, %rdi
	movq	88(%rsp), %rcx
	imulq	$56, %rax, %rax
	movq	-32(%rcx,%rax), %rdx
	cmpq	%rdx, -48(%rcx,%rax)
	jne	L(64_208)
	xorl	%ebx, %ebx
	xorl	%r14d, %r14d
	xorl	%r13d, %r13d
	xorl	%r12d, %r12d
	jmp	L(64_209)
L(64_208):
	movq	-56(%rcx,%rax), %rax
	leaq	(%rdx,%rdx,4), %rcx
	movq	(%rax,%rcx,8), %rbx
	movq	8(%rax,%rcx,8), %r14
	movq	16(%rax,%rcx,8), %r13
	movq	24(%rax,%rcx,8), %r12
L(64_209):
	callq	"xetroot::xet_merkle++merkle_hash_subtree++subtree++MerkleHashSubtree+Destruct::drop::<#024afdc31600bcbd>"
	leaq	80(%rsp), %rdi
	callq	"xetroot::xet_merkle++merkle_hash_subtree++subtree++MerkleHashSubtree+Destruct::drop::<#024afdc31600bcbd>"
	movq	%rbx, %rsi
	movq	%r14, %rdx
	movq	%r13, %rcx
	movq	%r12, %rax
	testb	%r15b, %r15b
	je	L(64_210)
	pxor	%xmm0, %xmm0
	movdqu	%xmm0, 592(%rsp)
	movdqu	%xmm0, 576(%rsp)
	movq	%rbx, 544(%rsp)
	movq	%r14, 552(%rsp)
	movq	%r13, 560(%rsp)
	movq	%r12, 568(%rsp)
	leaq	2528(%rsp), %rdi
	leaq	544(%rsp), %rsi
	pxor	%xmm1, %xmm1
	xorl	%edx, %edx
	movl	$32, %ecx
	movl	$27, %r8d
	callq	C(yurewha_stub_of_compress)
	movq	2528(%rsp), %rsi
	movq	2536(%rsp), %rdx
	movq	2544(%rsp), %rcx
	movq	2552(%rsp), %rax
	cmpb	$1, 4512(%rsp)
	movq	%rbx, 16(%rsp)
	movq	%r12, 24(%rsp)
	je	L(64_216)
L(64_211):
	cmpq	$0, 4560(%rsp)
	je	L(64_213)
L(64_212):
	movq	4544(%rsp), %rdi
	movq	%rax, %r15
	movq	%rcx, %rbx
	movq	%rdx, %r12
	movq	%r13, %rbp
	movq	%r14, %r13
	movq	%rsi, %r14
	callq	PLT(yurewha_heap_dealloc)
	movq	%r14, %rsi
	movq	%r13, %r14
	movq	%rbp, %r13
	movq	%r12, %rdx
	movq	24(%rsp), %r12
	movq	%rbx, %rcx
	movq	16(%rsp), %rbx
	movq	%r15, %rax
L(64_213):
	bswapq	%rax
	bswapq	%rcx
	bswapq	%rdx
	bswapq	%rsi
	bswapq	%r12
	movq	%r12, %xmm5
	movdqa	D(CPI64_2)(%rip), %xmm0
	movdqa	%xmm5, %xmm1
	pmaxub	%xmm0, %xmm1
	pcmpeqb	%xmm5, %xmm1
	movdqa	%xmm5, %xmm4
	psrlw	$4, %xmm4
	movdqa	D(CPI64_3)(%rip), %xmm7
	pand	%xmm7, %xmm4
	movdqa	D(CPI64_4)(%rip), %xmm2
	movdqa	%xmm4, %xmm6
	por	%xmm2, %xmm6
	movdqa	D(CPI64_5)(%rip), %xmm3
	paddb	%xmm3, %xmm4
	pand	%xmm1, %xmm4
	pandn	%xmm6, %xmm1
	por	%xmm4, %xmm1
	movdqa	D(CPI64_6)(%rip), %xmm6
	pand	%xmm6, %xmm5
	movdqa	D(CPI64_7)(%rip), %xmm4
	movdqa	%xmm4, %xmm8
	pcmpgtb	%xmm5, %xmm8
	movdqa	%xmm5, %xmm9
	por	%xmm2, %xmm9
	paddb	%xmm3, %xmm5
	pand	%xmm8, %xmm9
	pandn	%xmm5, %xmm8
	por	%xmm9, %xmm8
	punpcklbw	%xmm8, %xmm1
	bswapq	%r13
	movq	%r13, %xmm8
	movdqa	%xmm8, %xmm5
	pmaxub	%xmm0, %xmm5
	pcmpeqb	%xmm8, %xmm5
	movdqa	%xmm8, %xmm9
	psrlw	$4, %xmm9
	pand	%xmm7, %xmm9
	movdqa	%xmm9, %xmm10
	por	%xmm2, %xmm10
	paddb	%xmm3, %xmm9
	pand	%xmm5, %xmm9
	pandn	%xmm10, %xmm5
	por	%xmm9, %xmm5
	pand	%xmm6, %xmm8
	movdqa	%xmm4, %xmm9
	pcmpgtb	%xmm8, %xmm9
	movdqa	%xmm8, %xmm10
	por	%xmm2, %xmm10
	paddb	%xmm3, %xmm8
	pand	%xmm9, %xmm10
	pandn	%xmm8, %xmm9
	por	%xmm10, %xmm9
	punpcklbw	%xmm9, %xmm5
	bswapq	%r14
	movq	%r14, %xmm9
	movdqa	%xmm9, %xmm8
	pmaxub	%xmm0, %xmm8
	pcmpeqb	%xmm9, %xmm8
	movdqa	%xmm9, %xmm10
	psrlw	$4, %xmm10
	pand	%xmm7, %xmm10
	movdqa	%xmm10, %xmm11
	por	%xmm2, %xmm11
	paddb	%xmm3, %xmm10
	pand	%xmm8, %xmm10
	pandn	%xmm11, %xmm8
	por	%xmm10, %xmm8
	pand	%xmm6, %xmm9
	movdqa	%xmm4, %xmm10
	pcmpgtb	%xmm9, %xmm10
	movdqa	%xmm9, %xmm11
	por	%xmm2, %xmm11
	paddb	%xmm3, %xmm9
	pand	%xmm10, %xmm11
	pandn	%xmm9, %xmm10
	por	%xmm11, %xmm10
	bswapq	%rbx
	punpcklbw	%xmm10, %xmm8
	movq	%rbx, %xmm10
	movdqa	%xmm10, %xmm9
	pmaxub	%xmm0, %xmm9
	pcmpeqb	%xmm10, %xmm9
	movdqa	%xmm10, %xmm11
	psrlw	$4, %xmm11
	pand	%xmm7, %xmm11
	movdqa	%xmm11, %xmm12
	por	%xmm2, %xmm12
	paddb	%xmm3, %xmm11
	pand	%xmm9, %xmm11
	pandn	%xmm12, %xmm9
	por	%xmm11, %xmm9
	pand	%xmm6, %xmm10
	movdqa	%xmm4, %xmm11
	pcmpgtb	%xmm10, %xmm11
	movdqa	%xmm10, %xmm12
	por	%xmm2, %xmm12
	paddb	%xmm3, %xmm10
	pand	%xmm11, %xmm12
	pandn	%xmm10, %xmm11
	por	%xmm12, %xmm11
	punpcklbw	%xmm11, %xmm9
	movq	%rsi, %xmm11
	movdqa	%xmm11, %xmm12
	psrlw	$4, %xmm12
	pand	%xmm7, %xmm12
	movdqa	%xmm11, %xmm10
	pmaxub	%xmm0, %xmm10
	pcmpeqb	%xmm11, %xmm10
	movdqa	%xmm12, %xmm13
	por	%xmm2, %xmm13
	paddb	%xmm3, %xmm12
	pand	%xmm10, %xmm12
	pandn	%xmm13, %xmm10
	por	%xmm12, %xmm10
	pand	%xmm6, %xmm11
	movdqa	%xmm4, %xmm12
	pcmpgtb	%xmm11, %xmm12
	movdqa	%xmm11, %xmm13
	por	%xmm2, %xmm13
	paddb	%xmm3, %xmm11
	pand	%xmm12, %xmm13
	pandn	%xmm11, %xmm12
	por	%xmm13, %xmm12
	punpcklbw	%xmm12, %xmm10
	movq	%rdx, %xmm12
	movdqa	%xmm12, %xmm13
	psrlw	$4, %xmm13
	pand	%xmm7, %xmm13
	movdqa	%xmm12, %xmm11
	pmaxub	%xmm0, %xmm11
	pcmpeqb	%xmm12, %xmm11
	movdqa	%xmm13, %xmm14
	por	%xmm2, %xmm14
	paddb	%xmm3, %xmm13
	pand	%xmm11, %xmm13
	pandn	%xmm14, %xmm11
	por	%xmm13, %xmm11
	pand	%xmm6, %xmm12
	movdqa	%xmm4, %xmm13
	pcmpgtb	%xmm12, %xmm13
	movdqa	%xmm12, %xmm14
	por	%xmm2, %xmm14
	paddb	%xmm3, %xmm12
	pand	%xmm13, %xmm14
	pandn	%xmm12, %xmm13
	por	%xmm14, %xmm13
	punpcklbw	%xmm13, %xmm11
	movq	%rcx, %xmm13
	movdqa	%xmm13, %xmm14
	psrlw	$4, %xmm14
	pand	%xmm7, %xmm14
	movdqa	%xmm13, %xmm12
	pmaxub	%xmm0, %xmm12
	pcmpeqb	%xmm13, %xmm12
	movdqa	%xmm14, %xmm15
	por	%xmm2, %xmm15
	paddb	%xmm3, %xmm14
	pand	%xmm12, %xmm14
	pandn	%xmm15, %xmm12
	por	%xmm14, %xmm12
	pand	%xmm6, %xmm13
	movdqa	%xmm4, %xmm14
	pcmpgtb	%xmm13, %xmm14
	movdqa	%xmm13, %xmm15
	por	%xmm2, %xmm15
	paddb	%xmm3, %xmm13
	pand	%xmm14, %xmm15
	pandn	%xmm13, %xmm14
	por	%xmm15, %xmm14
	punpcklbw	%xmm14, %xmm12
	movq	%rax, %xmm13
	movdqa	%xmm13, %xmm14
	psrlw	$4, %xmm14
	pand	%xmm7, %xmm14
	pmaxub	%xmm13, %xmm0
	pcmpeqb	%xmm13, %xmm0
	movdqa	%xmm14, %xmm7
	por	%xmm2, %xmm7
	paddb	%xmm3, %xmm14
	pand	%xmm0, %xmm14
	pandn	%xmm7, %xmm0
	por	%xmm14, %xmm0
	pand	%xmm6, %xmm13
	pcmpgtb	%xmm13, %xmm4
	por	%xmm13, %xmm2
	paddb	%xmm3, %xmm13
	pand	%xmm4, %xmm2
	pandn	%xmm13, %xmm4
	por	%xmm2, %xmm4
	punpcklbw	%xmm4, %xmm0
	movl	$1651666808, 166(%rsp)
	movb	$32, 170(%rsp)
	movl	$1818846730, 72(%rsp)
	movw	$8293, 76(%rsp)
	movl	$1651666808, 384(%rsp)
	movb	$32, 388(%rsp)
	movdqu	%xmm9, 389(%rsp)
	movdqu	%xmm8, 405(%rsp)
	movdqu	%xmm5, 421(%rsp)
	movdqu	%xmm1, 437(%rsp)
	movl	$1818846730, 453(%rsp)
	movw	$8293, 457(%rsp)
	movdqu	%xmm10, 459(%rsp)
	movdqu	%xmm11, 475(%rsp)
	movdqu	%xmm12, 491(%rsp)
	movdqu	%xmm0, 507(%rsp)
	movb	$10, 523(%rsp)
	movl	$0, 524(%rsp)
	movq	$140, 528(%rsp)
	leaq	384(%rsp), %rdi
	movl	$140, %esi
	callq	"line_io::devices::write_all::<#df9e9f1468b30f79>"
	testb	%al, %al
	je	L(64_217)
	addb	%al, %al
	movzbl	%al, %ebx
	jmp	L(64_196)
L(64_210):
	cmpb	$1, 4512(%rsp)
	movq	%rbx, 16(%rsp)
	movq	%r12, 24(%rsp)
	jne	L(64_211)
L(64_216):
	movq	4520(%rsp), %rdi
	movq	%rax, %r15
	movq	%rcx, %rbx
	movq	%rdx, %r12
	movq	%r14, %rbp
	movq	%rsi, %r14
	callq	"std_collections::btree::node::Node::destroy::<#e27c17be7fe85c1a>"
	movq	%r14, %rsi
	movq	%rbp, %r14
	movq	%r12, %rdx
	movq	24(%rsp), %r12
	movq	%rbx, %rcx
	movq	16(%rsp), %rbx
	movq	%r15, %rax
	cmpq	$0, 4560(%rsp)
	jne	L(64_212)
	jmp	L(64_213)
L(64_217):
	movb	$0, 176(%rsp)
	pxor	%xmm0, %xmm0
	movdqu	%xmm0, 184(%rsp)
	jmp	L(64_200)
L(64_218):
	ud2
	SIZE(C(yurewha_program))
	.cfi_endproc

	TYPE(D(static.1), object)
CONSTANTS(.rodata..Lstatic.1)
D(static.1):
	.ascii	"Usage: xetroot\n\nThe root and the file hash of the pairs and chunks in the lines of standard input,\nas `xorb <hex>` and `file <hex>` on standard output. A line is\n\n  <64 hex digits> <size>    a pair\n  +<bytes>                  a chunk, whose pair is its hash and its size\n  @<position>               the position of the next pair\n  --                        the end of a range, which changes nothing\n\nA fault goes to standard error with its number, which is the exit status: 1 a bad\nline, 2 sizes that pass 2^64 - 1, 3 out of memory, 4 a failed read, 5 a failed write,\n6 a position that is taken, 7 a gap. The status is 64 after a wrong argument.\n\n  -h, --help    prints this text\n  --version     prints the versions of xetroot and of xet-core-structures\n"
	SIZE(D(static.1))

	TYPE(D(static.2), object)
CONSTANTS(.rodata..Lstatic.2)
D(static.2):
	.ascii	"xetroot 1.1.0 (hashes of xet-core-structures 1.5.2)\n"
	SIZE(D(static.2))

	TYPE(D(static.3), object)
CONSTANTS(.rodata..Lstatic.3)
D(static.3):
	.ascii	"xetroot: expected no argument, --help or --version"
	SIZE(D(static.3))

	TYPE(D(static.14), object)
CONSTANTS(.rodata..Lstatic.14)
D(static.14):
	.byte	10
	SIZE(D(static.14))

	TYPE(D(static.15), object)
CONSTANTS(.rodata..Lstatic.15)
	.p2align	1, 0x0
D(static.15):
	.ascii	"00010203040506070809101112131415161718192021222324252627282930313233343536373839404142434445464748495051525354555657585960616263646566676869707172737475767778798081828384858687888990919293949596979899"
	SIZE(D(static.15))

	TYPE(D(static.16), object)
SIZED(32, 5)
D(static.16):
	.ascii	"\001~\305\307\245G)\226\375\224ff\264\212\002\346]\335So7\307m\322\370cR\346JSq?"
	SIZE(D(static.16))

	TYPE(D(static.19), object)
D(static.19):
	.ascii	"f\227\365w[\225P\33615\313\254\245\227\030\034\235\344!\020\233\353+X\264\320\260K\223\255\362)"
	SIZE(D(static.19))

	TYPE(D(static.24), object)
CONSTANTS(.rodata..Lstatic.24)
D(static.24):
	.ascii	"xetroot: fault "
	SIZE(D(static.24))

	TYPE(D(static.25), object)
CONSTANTS(.rodata..Lstatic.25)
D(static.25):
	.ascii	" at line "
	SIZE(D(static.25))

CODE(.text.yurewha_stub_of_keyed_hash)
	.p2align	4
	TYPE(C(yurewha_stub_of_keyed_hash), function)
C(yurewha_stub_of_keyed_hash):
	.cfi_startproc
	movq	C(yurewha_kernels)(%rip), %r11
	jmpq	*0(%r11)
	.cfi_endproc
	SIZE(C(yurewha_stub_of_keyed_hash))

CODE(.text.yurewha_stub_of_compress)
	.p2align	4
	TYPE(C(yurewha_stub_of_compress), function)
C(yurewha_stub_of_compress):
	.cfi_startproc
	movq	C(yurewha_kernels)(%rip), %r11
	jmpq	*8(%r11)
	.cfi_endproc
	SIZE(C(yurewha_stub_of_compress))

CODE(.text.yurewha_stub_of_update)
	.p2align	4
	TYPE(C(yurewha_stub_of_update), function)
C(yurewha_stub_of_update):
	.cfi_startproc
	movq	C(yurewha_kernels)(%rip), %r11
	jmpq	*16(%r11)
	.cfi_endproc
	SIZE(C(yurewha_stub_of_update))

CODE(.text.yurewha_stub_of_finalize)
	.p2align	4
	TYPE(C(yurewha_stub_of_finalize), function)
C(yurewha_stub_of_finalize):
	.cfi_startproc
	movq	C(yurewha_kernels)(%rip), %r11
	jmpq	*24(%r11)
	.cfi_endproc
	SIZE(C(yurewha_stub_of_finalize))

CODE(.text.yurewha_stub_of_two_parent_hashes)
	.p2align	4
	TYPE(C(yurewha_stub_of_two_parent_hashes), function)
C(yurewha_stub_of_two_parent_hashes):
	.cfi_startproc
	movq	C(yurewha_kernels)(%rip), %r11
	jmpq	*32(%r11)
	.cfi_endproc
	SIZE(C(yurewha_stub_of_two_parent_hashes))

CODE(.text.yurewha_stub_of_parent_hashes)
	.p2align	4
	TYPE(C(yurewha_stub_of_parent_hashes), function)
C(yurewha_stub_of_parent_hashes):
	.cfi_startproc
	movq	C(yurewha_kernels)(%rip), %r11
	jmpq	*40(%r11)
	.cfi_endproc
	SIZE(C(yurewha_stub_of_parent_hashes))

CODE(.text.yurewha_stub_of_write_text)
	.p2align	4
	TYPE(C(yurewha_stub_of_write_text), function)
C(yurewha_stub_of_write_text):
	.cfi_startproc
	movq	C(yurewha_kernels)(%rip), %r11
	jmpq	*48(%r11)
	.cfi_endproc
	SIZE(C(yurewha_stub_of_write_text))

NO_STACK
#else
NO_STACK
#endif
END
