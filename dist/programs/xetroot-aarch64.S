/* Yurewha 1.1.0 for aarch64: the proved program xetroot, as the toolchain compiles it. Made by dist/make, not by hand.
   The sum of its sources: 9185823a781027cd98182078e1d539d530be4d65c5a122c359852dba8528b11c */
#include "../assembly.h"
#ifdef __aarch64__
CODE(".text.unlikely.std_alloc::vec::Vec::grow_amortized::<#bc82ad78765e08fe>")
	.p2align	2
	TYPE("std_alloc::vec::Vec::grow_amortized::<#bc82ad78765e08fe>", function)
"std_alloc::vec::Vec::grow_amortized::<#bc82ad78765e08fe>":
	.cfi_startproc
	hint	#25
	.cfi_escape 0x2d
	ldr	x8, [x0, #8]
	cmn	x8, x1
	b.lo	L(0_2)
	mov	w0, wzr
	hint	#29
	.cfi_escape 0x2d
	ret
L(0_2):
	.cfi_escape 0x2d
	stp	x29, x30, [sp, #-32]!
	.cfi_def_cfa sp, 32
	.cfi_offset x29, -32
	.cfi_offset x30, -24
	ldr	x10, [x0, #16]
	add	x9, x8, x1
	mov	w11, #8
	cmp	x9, #8
	stp	x20, x19, [sp, #16]
	.cfi_offset x19, -8
	.cfi_offset x20, -16
	mov	x29, sp
	.cfi_def_cfa x29, 32
	lsl	x12, x10, #1
	csel	x11, x9, x11, hi
	lsr	x13, x10, #62
	cmp	x11, x12
	csel	x9, x11, x12, hi
	cmp	x13, #0
	csel	x19, x9, x11, eq
	tbnz	x19, #63, L(0_7)
	cbz	x10, L(0_6)
	mov	x20, x0
	ldr	x0, [x0]
	mov	x1, x8
	mov	x2, x19
	mov	w3, #1
	bl	C(yurewha_heap_realloc)
	tbz	w0, #0, L(0_7)
L(0_5):
	mov	w0, #1
	str	x1, [x20]
	str	x19, [x20, #16]
	ldp	x20, x19, [sp, #16]
	.cfi_remember_state
	.cfi_restore x19
	.cfi_restore x20
	ldp	x29, x30, [sp], #32
	.cfi_def_cfa sp, 0
	.cfi_restore x29
	.cfi_restore x30
	hint	#29
	.cfi_escape 0x2d
	ret
L(0_6):
	.cfi_restore_state
	mov	x20, x0
	mov	x0, x9
	mov	w1, #1
	bl	C(yurewha_heap_alloc)
	tbnz	w0, #0, L(0_5)
L(0_7):
	mov	w0, wzr
	ldp	x20, x19, [sp, #16]
	.cfi_remember_state
	.cfi_restore x19
	.cfi_restore x20
	ldp	x29, x30, [sp], #32
	.cfi_def_cfa sp, 0
	.cfi_restore x29
	.cfi_restore x30
	hint	#29
	.cfi_escape 0x2d
	ret
	SIZE("std_alloc::vec::Vec::grow_amortized::<#bc82ad78765e08fe>")
	.cfi_endproc

CODE(".text.core::str::utf8::from_utf8")
	.p2align	2
	TYPE("core::str::utf8::from_utf8", function)
"core::str::utf8::from_utf8":
	.cfi_startproc
	hint	#25
	.cfi_escape 0x2d
	sub	sp, sp, #64
	.cfi_def_cfa sp, 64
	stp	x22, x21, [sp, #32]
	.cfi_offset x21, -24
	.cfi_offset x22, -32
	mov	x21, x1
	stp	x20, x19, [sp, #48]
	.cfi_offset x19, -8
	.cfi_offset x20, -16
	mov	x20, x2
	mov	x19, x0
	stp	x29, x30, [sp, #16]
	.cfi_offset x29, -48
	.cfi_offset x30, -40
	add	x29, sp, #16
	.cfi_def_cfa x29, 48
	cbz	x2, L(1_51)
	mov	x9, xzr
	sub	x22, x20, #8
	b	L(1_6)
L(1_2):
	and	w11, w11, #0xff
	tbnz	w11, #7, L(1_23)
L(1_3):
	mov	w12, #1
L(1_4):
	add	x8, x12, x9
L(1_5):
	cmp	x8, x20
	mov	x9, x8
	b.hs	L(1_51)
L(1_6):
	add	x8, x21, x9
	sub	x10, x20, x9
	ldrsb	w11, [x8]
	cmp	x10, #2
	b.lo	L(1_2)
	tbnz	w11, #31, L(1_2)
	ldrsb	w11, [x8, #1]
	tbnz	w11, #31, L(1_3)
	cmp	x10, #7
	stp	x21, x20, [sp]
	b.hi	L(1_28)
	ldrsb	w8, [x21, x9]
	tbnz	w8, #31, L(1_43)
	add	x8, x9, #1
	cmp	x8, x20
	b.eq	L(1_51)
	ldrsb	w10, [x21, x8]
	tbnz	w10, #31, L(1_5)
	add	x8, x9, #2
	cmp	x8, x20
	b.eq	L(1_51)
	ldrsb	w10, [x21, x8]
	tbnz	w10, #31, L(1_5)
	add	x8, x9, #3
	cmp	x8, x20
	b.eq	L(1_51)
	ldrsb	w10, [x21, x8]
	tbnz	w10, #31, L(1_5)
	add	x8, x9, #4
	cmp	x8, x20
	b.eq	L(1_51)
	ldrsb	w10, [x21, x8]
	tbnz	w10, #31, L(1_5)
	add	x8, x9, #5
	cmp	x8, x20
	b.eq	L(1_51)
	ldrsb	w10, [x21, x8]
	tbnz	w10, #31, L(1_5)
	add	x8, x9, #6
	cmp	x8, x20
	b.eq	L(1_51)
	ldrsb	w9, [x21, x8]
	tbnz	w9, #31, L(1_5)
	b	L(1_51)
L(1_23):
	cmp	w11, #194
	b.lo	L(1_59)
	cmp	w11, #223
	b.hi	L(1_36)
	cmp	x10, #2
	b.lo	L(1_58)
	ldrsb	w12, [x8, #1]
	cmn	w12, #65
	b.gt	L(1_55)
	mov	w12, #2
	b	L(1_4)
L(1_28):
	ldr	x8, [x8]
	mov	w10, #8
	ands	x8, x8, #0x8080808080808080
	rbit	x8, x8
	clz	x8, x8
	lsr	x8, x8, #3
	csel	x8, x10, x8, eq
	add	x8, x8, x9
	add	x9, x9, #8
	cmp	x8, x9
	b.lo	L(1_5)
	sub	x9, x20, x8
	cmp	x9, #32
	b.lo	L(1_32)
L(1_30):
	add	x9, x21, x8
	ldp	q1, q0, [x9]
	orr	v0.16b, v1.16b, v0.16b
	ext	v1.16b, v0.16b, v0.16b, #8
	orr	v0.8b, v0.8b, v1.8b
	fmov	x9, d0
	tst	x9, #0x8080808080808080
	b.ne	L(1_32)
	mov	x0, sp
	add	x1, x8, #32
	mov	x2, x20
	bl	"core::slice::words::skip_far::<#52f9edcae2f82f51>"
	sub	x9, x20, x0
	mov	x8, x0
	cmp	x9, #31
	b.hi	L(1_30)
L(1_32):
	sub	x9, x20, x8
L(1_33):
	cmp	x9, #9
	b.lo	L(1_50)
	ldr	x10, [x21, x8]
	mov	w11, #8
	sub	x9, x9, #8
	ands	x10, x10, #0x8080808080808080
	rbit	x10, x10
	clz	x10, x10
	lsr	x10, x10, #3
	csel	x10, x11, x10, eq
	add	x11, x10, x8
	add	x8, x8, #8
	cmp	x11, x8
	b.hs	L(1_33)
	add	x8, x10, x8
	sub	x8, x8, #8
	b	L(1_5)
L(1_36):
	cmp	w11, #239
	b.hi	L(1_44)
	cmp	x10, #3
	b.lo	L(1_53)
	ldrsb	w12, [x8, #1]
	cmn	w12, #65
	b.gt	L(1_55)
	ldrsb	w13, [x8, #2]
	cmn	w13, #65
	b.gt	L(1_55)
	and	w13, w12, #0xff
	mov	w14, #-14464
	add	w13, w13, w11, lsl #6
	add	w13, w13, w14
	cmp	w13, #32
	b.lo	L(1_55)
	cmp	w13, #896
	mov	w12, #3
	csel	x14, xzr, x12, lo
	cmp	w13, #864
	b.lo	L(1_4)
	mov	x12, x14
	b	L(1_49)
L(1_43):
	mov	x8, x9
	b	L(1_5)
L(1_44):
	cmp	x10, #4
	b.lo	L(1_52)
	ldrsb	w12, [x8, #1]
	cmn	w12, #65
	b.gt	L(1_52)
	ldrsb	w13, [x8, #2]
	cmn	w13, #65
	b.gt	L(1_52)
	ldrsb	w13, [x8, #3]
	cmn	w13, #65
	b.gt	L(1_52)
	and	w12, w12, #0xff
	mov	w13, #-15488
	add	w12, w12, w11, lsl #6
	add	w13, w12, w13
	mov	w12, #4
	cmp	w13, #272
	csel	x12, x12, xzr, lo
	cmp	w13, #16
	b.lo	L(1_52)
L(1_49):
	cbnz	x12, L(1_4)
	b	L(1_52)
L(1_50):
	ldr	x8, [x21, x22]
	mov	w9, #8
	ands	x8, x8, #0x8080808080808080
	rbit	x8, x8
	clz	x8, x8
	lsr	x8, x8, #3
	csel	x8, x9, x8, eq
	add	x8, x8, x22
	b	L(1_5)
L(1_51):
	stp	xzr, x21, [x19]
	str	x20, [x19, #16]
	ldp	x20, x19, [sp, #48]
	.cfi_remember_state
	.cfi_restore x19
	.cfi_restore x20
	ldp	x22, x21, [sp, #32]
	.cfi_restore x21
	.cfi_restore x22
	ldp	x29, x30, [sp, #16]
	.cfi_def_cfa sp, 64
	.cfi_restore x29
	.cfi_restore x30
	add	sp, sp, #64
	.cfi_def_cfa sp, 0
	hint	#29
	.cfi_escape 0x2d
	ret
L(1_52):
	.cfi_restore_state
	cmp	w11, #244
	b.hi	L(1_59)
L(1_53):
	cmp	x10, #2
	b.lo	L(1_58)
	ldrb	w12, [x8, #1]
L(1_55):
	cmp	w11, #240
	mov	w13, #-128
	mov	w14, #-112
	mov	w15, #-96
	csel	w13, w14, w13, eq
	cmp	w11, #224
	mov	w14, #-65
	csel	w13, w15, w13, eq
	mov	w15, #-113
	cmp	w11, #244
	and	w16, w13, #0xf0
	csel	w13, w15, w14, eq
	cmp	w11, #237
	mov	w11, #-97
	csel	w13, w11, w13, eq
	cmp	w16, w12, uxtb
	mov	w11, #257
	b.hi	L(1_60)
	and	w12, w12, #0xff
	cmp	w12, w13, uxtb
	b.hi	L(1_60)
	cmp	x10, #2
	b.ne	L(1_61)
L(1_58):
	mov	x11, xzr
	b	L(1_60)
L(1_59):
	mov	w11, #257
L(1_60):
	mov	w8, #1
	str	x11, [x19, #16]
	stp	x8, x9, [x19]
	ldp	x20, x19, [sp, #48]
	.cfi_remember_state
	.cfi_restore x19
	.cfi_restore x20
	ldp	x22, x21, [sp, #32]
	.cfi_restore x21
	.cfi_restore x22
	ldp	x29, x30, [sp, #16]
	.cfi_def_cfa sp, 64
	.cfi_restore x29
	.cfi_restore x30
	add	sp, sp, #64
	.cfi_def_cfa sp, 0
	hint	#29
	.cfi_escape 0x2d
	ret
L(1_61):
	.cfi_restore_state
	ldrsb	w8, [x8, #2]
	cmn	w8, #65
	b.gt	L(1_63)
	cmp	x10, #3
	mov	w8, #769
	csel	x11, x8, xzr, hi
	b	L(1_60)
L(1_63):
	mov	w11, #513
	b	L(1_60)
	SIZE("core::str::utf8::from_utf8")
	.cfi_endproc

CODE(".text.core::slice::words::skip_far::<#52f9edcae2f82f51>")
	.p2align	2
	TYPE("core::slice::words::skip_far::<#52f9edcae2f82f51>", function)
"core::slice::words::skip_far::<#52f9edcae2f82f51>":
	.cfi_startproc
	sub	x8, x2, x1
	cmp	x8, #64
	b.lo	L(2_4)
	ldr	x9, [x0]
L(2_2):
	add	x10, x9, x1
	ldp	q0, q1, [x10, #32]
	ldp	q2, q3, [x10]
	orr	v1.16b, v3.16b, v1.16b
	orr	v0.16b, v2.16b, v0.16b
	orr	v0.16b, v0.16b, v1.16b
	ext	v1.16b, v0.16b, v0.16b, #8
	orr	v0.8b, v0.8b, v1.8b
	fmov	x10, d0
	tst	x10, #0x8080808080808080
	b.ne	L(2_4)
	sub	x8, x8, #64
	add	x1, x1, #64
	cmp	x8, #63
	b.hi	L(2_2)
L(2_4):
	mov	x0, x1
	ret
	SIZE("core::slice::words::skip_far::<#52f9edcae2f82f51>")
	.cfi_endproc

CODE(".text.std_alloc::vec::deque::VecDeque::drop::<#f88921834ea0b950>")
	.p2align	2
	TYPE("std_alloc::vec::deque::VecDeque::drop::<#f88921834ea0b950>", function)
"std_alloc::vec::deque::VecDeque::drop::<#f88921834ea0b950>":
	.cfi_startproc
	hint	#25
	.cfi_escape 0x2d
	stp	x29, x30, [sp, #-64]!
	.cfi_def_cfa sp, 64
	.cfi_offset x29, -64
	.cfi_offset x30, -56
	stp	x20, x19, [sp, #48]
	.cfi_offset x19, -8
	.cfi_offset x20, -16
	ldp	x19, x9, [x0]
	ldr	x20, [x0, #16]
	mov	x29, sp
	.cfi_def_cfa x29, 64
	str	x23, [sp, #16]
	.cfi_offset x23, -48
	stp	x22, x21, [sp, #32]
	.cfi_offset x21, -24
	.cfi_offset x22, -32
	cbz	x9, L(3_11)
	ldp	x8, x21, [x0, #24]
	sub	x22, x9, x21
	add	x9, x8, x22
	cmp	x8, x9
	b.hs	L(3_6)
	mov	w9, #24
	madd	x8, x8, x9, x19
	add	x23, x8, #16
	b	L(3_4)
L(3_3):
	subs	x22, x22, #1
	add	x23, x23, #24
	b.eq	L(3_6)
L(3_4):
	ldr	x8, [x23]
	cbz	x8, L(3_3)
	ldur	x0, [x23, #-16]
	bl	C(yurewha_heap_dealloc)
	b	L(3_3)
L(3_6):
	cbz	x21, L(3_11)
	add	x22, x19, #16
	b	L(3_9)
L(3_8):
	subs	x21, x21, #1
	add	x22, x22, #24
	b.eq	L(3_11)
L(3_9):
	ldr	x8, [x22]
	cbz	x8, L(3_8)
	ldur	x0, [x22, #-16]
	bl	C(yurewha_heap_dealloc)
	b	L(3_8)
L(3_11):
	cbz	x20, L(3_13)
	mov	x0, x19
	ldp	x20, x19, [sp, #48]
	.cfi_remember_state
	.cfi_restore x19
	.cfi_restore x20
	ldp	x22, x21, [sp, #32]
	.cfi_restore x21
	.cfi_restore x22
	ldr	x23, [sp, #16]
	.cfi_restore x23
	ldp	x29, x30, [sp], #64
	.cfi_def_cfa sp, 0
	.cfi_restore x29
	.cfi_restore x30
	hint	#29
	.cfi_escape 0x2d
	b	C(yurewha_heap_dealloc)
L(3_13):
	.cfi_restore_state
	ldp	x20, x19, [sp, #48]
	.cfi_remember_state
	.cfi_restore x19
	.cfi_restore x20
	ldr	x23, [sp, #16]
	.cfi_restore x23
	ldp	x22, x21, [sp, #32]
	.cfi_restore x21
	.cfi_restore x22
	ldp	x29, x30, [sp], #64
	.cfi_def_cfa sp, 0
	.cfi_restore x29
	.cfi_restore x30
	hint	#29
	.cfi_escape 0x2d
	ret
	SIZE("std_alloc::vec::deque::VecDeque::drop::<#f88921834ea0b950>")
	.cfi_endproc

CODE(".text.std_io::io::error::last_error")
	.p2align	2
	TYPE("std_io::io::error::last_error", function)
"std_io::io::error::last_error":
	.cfi_startproc
	hint	#25
	.cfi_escape 0x2d
	stp	x29, x30, [sp, #-32]!
	.cfi_def_cfa sp, 32
	.cfi_offset x29, -32
	.cfi_offset x30, -24
	str	x19, [sp, #16]
	.cfi_offset x19, -16
	mov	x29, sp
	.cfi_def_cfa x29, 32
	mov	x19, x0
	bl	C(yurewha_run_errno)
	tbnz	w0, #31, L(4_4)
	sub	w8, w0, #1
	cmp	w8, #121
	b.hi	L(4_4)
	adrp	x9, PAGE(D(JTI4_0))
	add	x9, x9, LOW(D(JTI4_0))
	adr	x10, L(4_3)
	ldrb	w11, [x9, x8]
	add	x10, x10, x11, lsl #2
	mov	w8, #1
	br	x10
L(4_3):
	hint	#36
	mov	w8, #36
	b	L(4_5)
L(4_4):
	hint	#36
	mov	w8, #41
L(4_5):
	hint	#36
	movi	v0.2d, #0000000000000000
	strb	wzr, [x19]
	strb	w8, [x19, #1]
	strh	wzr, [x19, #2]
	str	w0, [x19, #4]
	stur	q0, [x19, #8]
	stur	q0, [x19, #24]
	stur	q0, [x19, #40]
	stur	q0, [x19, #56]
	stur	q0, [x19, #72]
	ldr	x19, [sp, #16]
	.cfi_remember_state
	.cfi_restore x19
	ldp	x29, x30, [sp], #32
	.cfi_def_cfa sp, 0
	.cfi_restore x29
	.cfi_restore x30
	hint	#29
	.cfi_escape 0x2d
	ret
L(4_6):
	.cfi_restore_state
	hint	#36
	mov	w8, #4
	b	L(4_5)
L(4_7):
	hint	#36
	mov	w8, #7
	b	L(4_5)
L(4_8):
	hint	#36
	mov	w8, #26
	b	L(4_5)
L(4_9):
	hint	#36
	mov	w8, #39
	b	L(4_5)
L(4_10):
	hint	#36
	mov	w8, #9
	b	L(4_5)
L(4_11):
	hint	#36
	mov	w8, #8
	b	L(4_5)
L(4_12):
	hint	#36
	mov	w8, #30
	b	L(4_5)
L(4_13):
	hint	#36
	mov	w8, #25
	b	L(4_5)
L(4_14):
	hint	#36
	mov	w8, #32
	b	L(4_5)
L(4_15):
	hint	#36
	mov	w8, #33
	b	L(4_5)
L(4_16):
	hint	#36
	mov	w8, #22
	b	L(4_5)
L(4_17):
	hint	#36
	mov	w8, #31
	b	L(4_5)
L(4_18):
	hint	#36
	mov	w8, #29
	b	L(4_5)
L(4_19):
	hint	#36
	mov	w8, #18
	b	L(4_5)
L(4_20):
	hint	#36
	mov	w8, #10
	b	L(4_5)
L(4_21):
	hint	#36
	mov	w8, #28
	b	L(4_5)
L(4_22):
	hint	#36
	mov	w8, #14
	b	L(4_5)
L(4_23):
	hint	#36
	mov	w8, #12
	b	L(4_5)
L(4_24):
	hint	#36
	mov	w8, #5
	b	L(4_5)
L(4_25):
	hint	#36
	mov	w8, #3
	b	L(4_5)
L(4_26):
	hint	#36
	mov	w8, wzr
	b	L(4_5)
L(4_27):
	hint	#36
	mov	w8, #13
	b	L(4_5)
L(4_28):
	hint	#36
	mov	w8, #38
	b	L(4_5)
L(4_29):
	hint	#36
	mov	w8, #11
	b	L(4_5)
L(4_30):
	hint	#36
	mov	w8, #35
	b	L(4_5)
L(4_31):
	hint	#36
	mov	w8, #34
	b	L(4_5)
L(4_32):
	hint	#36
	mov	w8, #20
	b	L(4_5)
L(4_33):
	hint	#36
	mov	w8, #15
	b	L(4_5)
L(4_34):
	hint	#36
	mov	w8, #19
	b	L(4_5)
L(4_35):
	hint	#36
	mov	w8, #16
	b	L(4_5)
L(4_36):
	hint	#36
	mov	w8, #6
	b	L(4_5)
L(4_37):
	hint	#36
	mov	w8, #27
	b	L(4_5)
L(4_38):
	hint	#36
	mov	w8, #24
	b	L(4_5)
L(4_39):
	hint	#36
	mov	w8, #2
	b	L(4_5)
L(4_40):
	hint	#36
	mov	w8, #17
	b	L(4_5)
	SIZE("std_io::io::error::last_error")
	.cfi_endproc
CONSTANTS(".rodata.std_io::io::error::last_error")
D(JTI4_0):
	.byte	(L(4_5)-L(4_3))>>2
	.byte	(L(4_26)-L(4_3))>>2
	.byte	(L(4_4)-L(4_3))>>2
	.byte	(L(4_30)-L(4_3))>>2
	.byte	(L(4_4)-L(4_3))>>2
	.byte	(L(4_4)-L(4_3))>>2
	.byte	(L(4_31)-L(4_3))>>2
	.byte	(L(4_4)-L(4_3))>>2
	.byte	(L(4_4)-L(4_3))>>2
	.byte	(L(4_4)-L(4_3))>>2
	.byte	(L(4_27)-L(4_3))>>2
	.byte	(L(4_28)-L(4_3))>>2
	.byte	(L(4_5)-L(4_3))>>2
	.byte	(L(4_4)-L(4_3))>>2
	.byte	(L(4_4)-L(4_3))>>2
	.byte	(L(4_21)-L(4_3))>>2
	.byte	(L(4_23)-L(4_3))>>2
	.byte	(L(4_17)-L(4_3))>>2
	.byte	(L(4_4)-L(4_3))>>2
	.byte	(L(4_22)-L(4_3))>>2
	.byte	(L(4_33)-L(4_3))>>2
	.byte	(L(4_32)-L(4_3))>>2
	.byte	(L(4_4)-L(4_3))>>2
	.byte	(L(4_4)-L(4_3))>>2
	.byte	(L(4_4)-L(4_3))>>2
	.byte	(L(4_18)-L(4_3))>>2
	.byte	(L(4_37)-L(4_3))>>2
	.byte	(L(4_38)-L(4_3))>>2
	.byte	(L(4_13)-L(4_3))>>2
	.byte	(L(4_40)-L(4_3))>>2
	.byte	(L(4_14)-L(4_3))>>2
	.byte	(L(4_29)-L(4_3))>>2
	.byte	(L(4_4)-L(4_3))>>2
	.byte	(L(4_4)-L(4_3))>>2
	.byte	(L(4_12)-L(4_3))>>2
	.byte	(L(4_15)-L(4_3))>>2
	.byte	(L(4_4)-L(4_3))>>2
	.byte	(L(4_3)-L(4_3))>>2
	.byte	(L(4_35)-L(4_3))>>2
	.byte	(L(4_19)-L(4_3))>>2
	.byte	(L(4_4)-L(4_3))>>2
	.byte	(L(4_4)-L(4_3))>>2
	.byte	(L(4_4)-L(4_3))>>2
	.byte	(L(4_4)-L(4_3))>>2
	.byte	(L(4_4)-L(4_3))>>2
	.byte	(L(4_4)-L(4_3))>>2
	.byte	(L(4_4)-L(4_3))>>2
	.byte	(L(4_4)-L(4_3))>>2
	.byte	(L(4_4)-L(4_3))>>2
	.byte	(L(4_4)-L(4_3))>>2
	.byte	(L(4_4)-L(4_3))>>2
	.byte	(L(4_4)-L(4_3))>>2
	.byte	(L(4_4)-L(4_3))>>2
	.byte	(L(4_4)-L(4_3))>>2
	.byte	(L(4_4)-L(4_3))>>2
	.byte	(L(4_4)-L(4_3))>>2
	.byte	(L(4_4)-L(4_3))>>2
	.byte	(L(4_4)-L(4_3))>>2
	.byte	(L(4_4)-L(4_3))>>2
	.byte	(L(4_4)-L(4_3))>>2
	.byte	(L(4_4)-L(4_3))>>2
	.byte	(L(4_4)-L(4_3))>>2
	.byte	(L(4_4)-L(4_3))>>2
	.byte	(L(4_4)-L(4_3))>>2
	.byte	(L(4_4)-L(4_3))>>2
	.byte	(L(4_4)-L(4_3))>>2
	.byte	(L(4_4)-L(4_3))>>2
	.byte	(L(4_4)-L(4_3))>>2
	.byte	(L(4_4)-L(4_3))>>2
	.byte	(L(4_4)-L(4_3))>>2
	.byte	(L(4_4)-L(4_3))>>2
	.byte	(L(4_4)-L(4_3))>>2
	.byte	(L(4_4)-L(4_3))>>2
	.byte	(L(4_4)-L(4_3))>>2
	.byte	(L(4_4)-L(4_3))>>2
	.byte	(L(4_4)-L(4_3))>>2
	.byte	(L(4_4)-L(4_3))>>2
	.byte	(L(4_4)-L(4_3))>>2
	.byte	(L(4_4)-L(4_3))>>2
	.byte	(L(4_4)-L(4_3))>>2
	.byte	(L(4_4)-L(4_3))>>2
	.byte	(L(4_4)-L(4_3))>>2
	.byte	(L(4_4)-L(4_3))>>2
	.byte	(L(4_4)-L(4_3))>>2
	.byte	(L(4_4)-L(4_3))>>2
	.byte	(L(4_4)-L(4_3))>>2
	.byte	(L(4_4)-L(4_3))>>2
	.byte	(L(4_4)-L(4_3))>>2
	.byte	(L(4_4)-L(4_3))>>2
	.byte	(L(4_4)-L(4_3))>>2
	.byte	(L(4_4)-L(4_3))>>2
	.byte	(L(4_4)-L(4_3))>>2
	.byte	(L(4_4)-L(4_3))>>2
	.byte	(L(4_4)-L(4_3))>>2
	.byte	(L(4_3)-L(4_3))>>2
	.byte	(L(4_4)-L(4_3))>>2
	.byte	(L(4_4)-L(4_3))>>2
	.byte	(L(4_11)-L(4_3))>>2
	.byte	(L(4_10)-L(4_3))>>2
	.byte	(L(4_20)-L(4_3))>>2
	.byte	(L(4_24)-L(4_3))>>2
	.byte	(L(4_4)-L(4_3))>>2
	.byte	(L(4_36)-L(4_3))>>2
	.byte	(L(4_25)-L(4_3))>>2
	.byte	(L(4_4)-L(4_3))>>2
	.byte	(L(4_4)-L(4_3))>>2
	.byte	(L(4_7)-L(4_3))>>2
	.byte	(L(4_4)-L(4_3))>>2
	.byte	(L(4_4)-L(4_3))>>2
	.byte	(L(4_16)-L(4_3))>>2
	.byte	(L(4_39)-L(4_3))>>2
	.byte	(L(4_4)-L(4_3))>>2
	.byte	(L(4_6)-L(4_3))>>2
	.byte	(L(4_4)-L(4_3))>>2
	.byte	(L(4_9)-L(4_3))>>2
	.byte	(L(4_34)-L(4_3))>>2
	.byte	(L(4_4)-L(4_3))>>2
	.byte	(L(4_4)-L(4_3))>>2
	.byte	(L(4_4)-L(4_3))>>2
	.byte	(L(4_4)-L(4_3))>>2
	.byte	(L(4_4)-L(4_3))>>2
	.byte	(L(4_8)-L(4_3))>>2

CODE(".text.pair_text::said_lines::SaidLinesTakeLines::end_line::<#a10fcec3e4a5dd02>")
	.p2align	2
	TYPE("pair_text::said_lines::SaidLinesTakeLines::end_line::<#a10fcec3e4a5dd02>", function)
"pair_text::said_lines::SaidLinesTakeLines::end_line::<#a10fcec3e4a5dd02>":
	.cfi_startproc
	hint	#25
	.cfi_escape 0x2d
	sub	sp, sp, #208
	.cfi_def_cfa sp, 208
	movi	v0.2d, #0000000000000000
	stp	x22, x21, [sp, #176]
	.cfi_offset x21, -24
	.cfi_offset x22, -32
	mov	x22, x1
	ldrb	w8, [x22, #88]!
	stp	x29, x30, [sp, #112]
	.cfi_offset x29, -96
	.cfi_offset x30, -88
	stp	x20, x19, [sp, #192]
	.cfi_offset x19, -8
	.cfi_offset x20, -16
	add	x29, sp, #112
	.cfi_def_cfa x29, 96
	mov	x20, x1
	mov	x19, x0
	add	x21, x22, #8
	str	x28, [sp, #128]
	.cfi_offset x28, -80
	stp	x26, x25, [sp, #144]
	.cfi_offset x25, -56
	.cfi_offset x26, -64
	stp	x24, x23, [sp, #160]
	.cfi_offset x23, -40
	.cfi_offset x24, -48
	stp	q0, q0, [x29, #-48]
	cbz	w8, L(5_3)
	sub	x0, x29, #48
	add	x1, x22, #8
	bl	"keyed_blake3::hasher::Hasher::finalize"
	ldp	q0, q1, [x29, #-48]
	ldr	x23, [x20, #1952]
	ldr	x25, [x20, #64]
	adds	x24, x25, #1
	b.lo	L(5_18)
L(5_2):
	mov	w26, wzr
	mov	w8, wzr
	b	L(5_52)
L(5_3):
	ldr	x8, [x20, #184]
	cbz	x8, L(5_43)
	cmp	x8, #2
	b.ne	L(5_7)
	ldrb	w9, [x21]
	cmp	w9, #45
	b.eq	L(5_42)
	cmp	w9, #64
	b.eq	L(5_8)
	b	L(5_43)
L(5_7):
	ldrb	w9, [x21]
	cmp	w9, #64
	b.ne	L(5_12)
L(5_8):
	sub	x1, x8, #1
	add	x0, x20, #97
	bl	"pair_text::line::parse_decimal"
	tbz	w0, #0, L(5_43)
	ldr	x8, [x20, #64]
	cmp	x1, x8
	b.eq	L(5_56)
	mov	x0, x20
	mov	x23, x1
	bl	"xetroot_text::placed_pairs::PlacedPairs::end_range::<#ca9445b3ca2ffbf0>"
	and	w8, w0, #0xff
	tbnz	w8, #0, L(5_51)
	stp	x23, x23, [x20, #56]
	b	L(5_56)
L(5_12):
	cmp	x8, #64
	b.lo	L(5_43)
	movi	v0.16b, #223
	ldp	q1, q2, [x20, #96]
	movi	v3.16b, #208
	movi	v4.16b, #191
	movi	v6.16b, #10
	ldp	q17, q18, [x20, #128]
	movi	v16.16b, #6
	and	v5.16b, v1.16b, v0.16b
	and	v7.16b, v2.16b, v0.16b
	add	v1.16b, v1.16b, v3.16b
	add	v2.16b, v2.16b, v3.16b
	and	v19.16b, v17.16b, v0.16b
	and	v0.16b, v18.16b, v0.16b
	add	v17.16b, v17.16b, v3.16b
	add	v3.16b, v18.16b, v3.16b
	add	v5.16b, v5.16b, v4.16b
	add	v7.16b, v7.16b, v4.16b
	cmhi	v1.16b, v6.16b, v1.16b
	cmhi	v2.16b, v6.16b, v2.16b
	add	v18.16b, v19.16b, v4.16b
	add	v0.16b, v0.16b, v4.16b
	cmhi	v17.16b, v6.16b, v17.16b
	cmhi	v3.16b, v6.16b, v3.16b
	cmhi	v5.16b, v16.16b, v5.16b
	cmhi	v4.16b, v16.16b, v7.16b
	movi	v7.16b, #1
	cmhi	v0.16b, v16.16b, v0.16b
	orr	v1.16b, v1.16b, v5.16b
	cmhi	v5.16b, v16.16b, v18.16b
	orr	v2.16b, v2.16b, v4.16b
	orr	v0.16b, v3.16b, v0.16b
	and	v1.16b, v1.16b, v7.16b
	and	v2.16b, v2.16b, v7.16b
	orr	v4.16b, v17.16b, v5.16b
	sub	v1.16b, v1.16b, v4.16b
	sub	v0.16b, v2.16b, v0.16b
	add	v0.16b, v0.16b, v1.16b
	addv	b0, v0.16b
	fmov	w9, s0
	cmp	w9, #64
	b.ne	L(5_43)
	cmp	x8, #64
	b.eq	L(5_43)
	ldrb	w9, [x20, #160]
	cmp	w9, #32
	b.ne	L(5_43)
	ld2	{ v0.16b, v1.16b }, [x21]
	add	x9, x20, #128
	add	x10, sp, #32
	sub	x1, x8, #65
	add	x0, x20, #161
	st1	{ v0.2d, v1.2d }, [x10]
	ld2	{ v0.16b, v1.16b }, [x9]
	mov	x9, sp
	st1	{ v0.2d, v1.2d }, [x9]
	bl	"pair_text::line::parse_decimal"
	tbz	w0, #0, L(5_43)
	add	x8, sp, #32
	movi	v0.16b, #9
	movi	v3.16b, #15
	ld1	{ v5.2d, v6.2d }, [x8]
	mov	x8, sp
	mov	x23, x1
	ld1	{ v16.2d, v17.2d }, [x8]
	ushr	v1.16b, v5.16b, #6
	ushr	v2.16b, v16.16b, #6
	mla	v5.16b, v1.16b, v0.16b
	and	v1.16b, v6.16b, v3.16b
	mla	v16.16b, v2.16b, v0.16b
	and	v2.16b, v17.16b, v3.16b
	ushr	v3.16b, v6.16b, #6
	ushr	v4.16b, v17.16b, #6
	mla	v1.16b, v3.16b, v0.16b
	mla	v2.16b, v4.16b, v0.16b
	shl	v0.16b, v5.16b, #4
	shl	v3.16b, v16.16b, #4
	add	v0.16b, v1.16b, v0.16b
	add	v1.16b, v2.16b, v3.16b
	rev64	v0.16b, v0.16b
	rev64	v1.16b, v1.16b
	ldr	x25, [x20, #64]
	adds	x24, x25, #1
	b.hs	L(5_2)
L(5_18):
	ldrb	w8, [x20]
	cmp	w8, #1
	b.ne	L(5_47)
	mov	x3, x20
	ldr	x8, [x3, #8]!
	ldrh	w10, [x8]
	cbz	x10, L(5_26)
	mov	x9, xzr
L(5_21):
	add	x11, x8, x9, lsl #3
	ldr	x11, [x11, #8]
	cmp	x25, x11
	b.lo	L(5_24)
	add	x9, x9, #1
	cmp	x10, x9
	b.ne	L(5_21)
	mov	x9, x10
L(5_24):
	ldrh	w10, [x8, #2]
	cbnz	w10, L(5_28)
	cbnz	x9, L(5_37)
	b	L(5_47)
L(5_26):
	ldrh	w9, [x8, #2]
	cbz	w9, L(5_47)
	mov	x9, xzr
L(5_28):
	mov	x1, xzr
	mov	x10, x3
	b	L(5_30)
L(5_29):
	ldrh	w11, [x8, #2]
	mov	x9, xzr
	cbz	w11, L(5_38)
L(5_30):
	add	x12, x8, x9, lsl #3
	add	x1, x9, x1, lsl #4
	mov	x2, x10
	ldr	x8, [x12, #848]
	add	x10, x12, #848
	ldrh	w11, [x8]
	cbz	x11, L(5_29)
	mov	x9, xzr
L(5_32):
	add	x12, x8, x9, lsl #3
	ldr	x12, [x12, #8]
	cmp	x25, x12
	b.lo	L(5_35)
	add	x9, x9, #1
	cmp	x11, x9
	b.ne	L(5_32)
	mov	x9, x11
L(5_35):
	ldrh	w11, [x8, #2]
	cbnz	w11, L(5_30)
	cbz	x9, L(5_38)
L(5_37):
	mov	w10, #48
	madd	x8, x9, x10, x8
	add	x8, x8, #80
	ldr	x8, [x8]
	cmp	x25, x8
	b.hs	L(5_47)
	b	L(5_46)
L(5_38):
	str	q0, [sp, #32]
	movi	v0.2d, #0000000000000000
	sub	x0, x29, #48
	mov	x4, #-1
	str	q1, [sp]
	stp	q0, q0, [x29, #-32]
	stur	q0, [x29, #-48]
	bl	"std_collections::btree::iter::Cursor::retreat::<#4f04a9971a4b2638>"
	ldurb	w9, [x29, #-24]
	ldurb	w8, [x29, #-48]
	cmp	w9, #1
	b.ne	L(5_44)
	ldr	q0, [sp, #32]
	ldr	q1, [sp]
	cmp	w8, #1
	b.eq	L(5_45)
	ldp	x9, x8, [x29, #-16]
	ldr	x8, [x8]
	ubfiz	x9, x9, #3, #4
	add	x8, x8, x9
	ldr	x8, [x8, #848]
	ldrh	w9, [x8]
	cbz	w9, L(5_47)
	mov	w10, #48
	umaddl	x8, w9, w10, x8
	add	x8, x8, #80
	ldr	x8, [x8]
	cmp	x25, x8
	b.hs	L(5_47)
	b	L(5_46)
L(5_42):
	ldrb	w8, [x20, #97]
	cmp	w8, #45
	b.eq	L(5_56)
L(5_43):
	mov	w8, #1
	strh	w8, [x19]
	b	L(5_61)
L(5_44):
	ldr	q0, [sp, #32]
	ldr	q1, [sp]
	cmp	w8, #1
	b.ne	L(5_47)
L(5_45):
	ldur	x8, [x29, #-32]
	ldr	x8, [x8]
	cmp	x25, x8
	b.hs	L(5_47)
L(5_46):
	mov	w26, wzr
	mov	w8, #1
	b	L(5_52)
L(5_47):
	ldr	x8, [x20, #80]
	adds	x25, x23, x8
	b.lo	L(5_49)
	mov	w26, wzr
	mov	w8, #2
	b	L(5_52)
L(5_49):
	ldr	x8, [x20, #40]
	cmp	x8, #1, lsl #12
	b.lo	L(5_54)
	mov	x0, x20
	str	q1, [sp]
	str	q0, [sp, #32]
	bl	"xetroot_text::placed_pairs::PlacedPairs::end_range::<#ca9445b3ca2ffbf0>"
	and	w8, w0, #0xff
	tbz	w8, #0, L(5_53)
L(5_51):
	mov	w8, wzr
	mov	w26, #1
L(5_52):
	mov	w9, #1
	strb	w26, [x19, #1]
	strb	w9, [x19]
	strb	w8, [x19, #2]
	b	L(5_62)
L(5_53):
	ldr	x8, [x20, #40]
	ldr	q0, [sp, #32]
	ldr	q1, [sp]
L(5_54):
	ldr	x9, [x20, #48]
	cmp	x9, x8
	b.eq	L(5_63)
L(5_55):
	mov	w9, #40
	ldr	x10, [x20, #32]
	madd	x9, x8, x9, x10
	add	x8, x8, #1
	stp	q0, q1, [x9]
	str	x23, [x9, #32]
	ldr	x9, [x20, #72]
	str	x8, [x20, #40]
	str	x25, [x20, #80]
	adds	x8, x9, #1
	csinv	x8, x8, xzr, lo
	stp	x24, x8, [x20, #64]
L(5_56):
	ldrb	w8, [x22]
	cbz	w8, L(5_58)
	mov	x0, x22
	mov	w1, wzr
	mov	w2, #1872
	bl	C(memset)
	b	L(5_60)
L(5_58):
	ldr	x2, [x20, #184]
	cbz	x2, L(5_60)
	mov	x0, x21
	mov	w1, wzr
	bl	C(memset)
	str	xzr, [x20, #184]
L(5_60):
	strh	wzr, [x19]
L(5_61):
	strb	wzr, [x19, #2]
L(5_62):
	ldp	x20, x19, [sp, #192]
	.cfi_remember_state
	.cfi_restore x19
	.cfi_restore x20
	ldr	x28, [sp, #128]
	.cfi_restore x28
	ldp	x22, x21, [sp, #176]
	.cfi_restore x21
	.cfi_restore x22
	ldp	x24, x23, [sp, #160]
	.cfi_restore x23
	.cfi_restore x24
	ldp	x26, x25, [sp, #144]
	.cfi_restore x25
	.cfi_restore x26
	ldp	x29, x30, [sp, #112]
	.cfi_def_cfa sp, 208
	.cfi_restore x29
	.cfi_restore x30
	add	sp, sp, #208
	.cfi_def_cfa sp, 0
	hint	#29
	.cfi_escape 0x2d
	ret
L(5_63):
	.cfi_restore_state
	add	x0, x20, #32
	mov	w1, #1
	str	q1, [sp]
	str	q0, [sp, #32]
	mov	w26, #1
	bl	"std_alloc::vec::Vec::grow_amortized::<#1ed62de40e111fb4>"
	cbz	w0, L(5_65)
	ldr	x8, [x20, #40]
	ldr	q0, [sp, #32]
	ldr	q1, [sp]
	b	L(5_55)
L(5_65):
	mov	w8, wzr
	b	L(5_52)
	SIZE("pair_text::said_lines::SaidLinesTakeLines::end_line::<#a10fcec3e4a5dd02>")
	.cfi_endproc

SIZED(16, 4)
	.p2align	4, 0x0
D(CPI6_0):
	.byte	1
	.byte	2
	.byte	4
	.byte	8
	.byte	16
	.byte	32
	.byte	64
	.byte	128
	.byte	1
	.byte	2
	.byte	4
	.byte	8
	.byte	16
	.byte	32
	.byte	64
	.byte	128
CODE(".text.core::cmp::slices::groups_equal::<i8,31'core::cmp::numbers::U8PartialEq{}>")
	.p2align	2
	TYPE("core::cmp::slices::groups_equal::<i8,31'core::cmp::numbers::U8PartialEq{}>", function)
"core::cmp::slices::groups_equal::<i8,31'core::cmp::numbers::U8PartialEq{}>":
	.cfi_startproc
	subs	x9, x1, #8
	b.hi	L(6_2)
	sub	x8, x1, #4
	ldr	s0, [x0]
	ldr	s1, [x2]
	add	x9, x0, x8
	add	x8, x2, x8
	ld1	{ v0.s }[1], [x9]
	ld1	{ v1.s }[1], [x8]
	fmov	x8, d0
	fmov	x9, d1
	cmp	x8, x9
	cset	w8, ne
	eor	w0, w8, #0x1
	ret
L(6_2):
	subs	x8, x1, #32
	b.hi	L(6_4)
	cmp	x9, #8
	mov	w8, #8
	mov	w10, #16
	csel	x8, x9, x8, lo
	cmp	x9, #16
	ldr	d0, [x0]
	ldr	d1, [x2]
	ldr	d2, [x0, x8]
	ldr	d3, [x2, x8]
	csel	x8, x9, x10, lo
	ldr	d5, [x2, x9]
	ldr	d4, [x0, x8]
	mov	v0.d[1], v2.d[0]
	mov	v1.d[1], v3.d[0]
	ldr	d2, [x2, x8]
	ldr	d3, [x0, x9]
	mov	v4.d[1], v3.d[0]
	mov	v2.d[1], v5.d[0]
	cmeq	v0.16b, v0.16b, v1.16b
	cmeq	v1.16b, v4.16b, v2.16b
	b	L(6_17)
L(6_4):
	cmp	x1, #65
	b.hs	L(6_6)
	ldp	q1, q0, [x0]
	add	x9, x2, x8
	ldp	q3, q2, [x2]
	add	x8, x0, x8
	ldp	q4, q5, [x9]
	cmeq	v1.16b, v1.16b, v3.16b
	cmeq	v0.16b, v0.16b, v2.16b
	ldp	q2, q3, [x8]
	mvn	v1.16b, v1.16b
	mvn	v0.16b, v0.16b
	cmeq	v2.16b, v2.16b, v4.16b
	cmeq	v3.16b, v3.16b, v5.16b
	orn	v0.16b, v0.16b, v3.16b
	orn	v1.16b, v1.16b, v2.16b
	orr	v0.16b, v1.16b, v0.16b
	umaxv	b0, v0.16b
	fmov	w8, s0
	and	w8, w8, #0x1
	eor	w0, w8, #0x1
	ret
L(6_6):
	and	x9, x1, #0xffffffffffffffc0
	add	x10, x0, #32
	add	x12, x2, #32
	mov	w11, #32
	mov	x13, x1
L(6_7):
	ldp	q0, q3, [x12, #-32]
	ldp	q1, q2, [x10, #-32]
	ldp	q4, q5, [x12], #64
	cmeq	v0.16b, v1.16b, v0.16b
	cmeq	v1.16b, v2.16b, v3.16b
	ldp	q2, q3, [x10], #64
	mvn	v0.16b, v0.16b
	mvn	v1.16b, v1.16b
	cmeq	v2.16b, v2.16b, v4.16b
	cmeq	v3.16b, v3.16b, v5.16b
	orn	v0.16b, v0.16b, v2.16b
	orn	v1.16b, v1.16b, v3.16b
	orr	v0.16b, v1.16b, v0.16b
	umaxv	b0, v0.16b
	fmov	w14, s0
	tbnz	w14, #0, L(6_10)
	sub	x13, x13, #64
	add	x11, x11, #64
	cmp	x13, #64
	b.hs	L(6_7)
	sub	x10, x1, x9
	cmp	x10, #32
	b.hs	L(6_11)
	b	L(6_16)
L(6_10):
	sub	x9, x11, #32
	sub	x10, x1, x9
	cmp	x10, #32
	b.lo	L(6_16)
L(6_11):
	add	x11, x0, x9
	add	x9, x2, x9
L(6_12):
	ldp	q0, q1, [x11], #32
	ldp	q2, q3, [x9], #32
	adrp	x12, PAGE(D(CPI6_0))
	cmeq	v1.16b, v1.16b, v3.16b
	cmeq	v0.16b, v0.16b, v2.16b
	ldr	q2, [x12, LOW(D(CPI6_0))]
	bic	v1.16b, v2.16b, v1.16b
	bic	v0.16b, v2.16b, v0.16b
	ext	v2.16b, v1.16b, v1.16b, #8
	ext	v3.16b, v0.16b, v0.16b, #8
	zip1	v1.16b, v1.16b, v2.16b
	zip1	v0.16b, v0.16b, v3.16b
	addv	h1, v1.8h
	addv	h0, v0.8h
	fmov	w12, s1
	fmov	w13, s0
	orr	w12, w13, w12
	tst	w12, #0xffff
	b.ne	L(6_14)
	sub	x10, x10, #32
	cmp	x10, #32
	b.hs	L(6_12)
	b	L(6_16)
L(6_14):
	cmp	x10, #31
	b.ls	L(6_16)
	mov	w8, #1
	eor	w0, w8, #0x1
	ret
L(6_16):
	add	x9, x0, x8
	add	x8, x2, x8
	ldp	q0, q3, [x8]
	ldp	q1, q2, [x9]
	cmeq	v0.16b, v1.16b, v0.16b
	cmeq	v1.16b, v2.16b, v3.16b
L(6_17):
	mvn	v0.16b, v0.16b
	orn	v0.16b, v0.16b, v1.16b
	umaxv	b0, v0.16b
	fmov	w8, s0
	and	w8, w8, #0x1
	eor	w0, w8, #0x1
	ret
	SIZE("core::cmp::slices::groups_equal::<i8,31'core::cmp::numbers::U8PartialEq{}>")
	.cfi_endproc

CODE(".text.pair_text::line::parse_decimal")
	.p2align	2
	TYPE("pair_text::line::parse_decimal", function)
"pair_text::line::parse_decimal":
	.cfi_startproc
	hint	#25
	.cfi_escape 0x2d
	sub	sp, sp, #112
	.cfi_def_cfa sp, 112
	stp	x29, x30, [sp, #64]
	.cfi_offset x29, -48
	.cfi_offset x30, -40
	add	x29, sp, #64
	.cfi_def_cfa x29, 48
	stp	x20, x19, [sp, #96]
	.cfi_offset x19, -8
	.cfi_offset x20, -16
	mov	x19, x1
	mov	x20, x0
	sub	x0, x29, #24
	mov	x1, x20
	mov	x2, x19
	str	x21, [sp, #80]
	.cfi_offset x21, -32
	stp	xzr, xzr, [x29, #-24]
	stur	xzr, [x29, #-8]
	bl	"core::str::utf8::from_utf8"
	ldurb	w8, [x29, #-24]
	cbz	w8, L(7_3)
L(7_1):
	mov	x1, xzr
	mov	w0, wzr
L(7_2):
	ldp	x20, x19, [sp, #96]
	.cfi_remember_state
	.cfi_restore x19
	.cfi_restore x20
	ldr	x21, [sp, #80]
	.cfi_restore x21
	ldp	x29, x30, [sp, #64]
	.cfi_def_cfa sp, 112
	.cfi_restore x29
	.cfi_restore x30
	add	sp, sp, #112
	.cfi_def_cfa sp, 0
	hint	#29
	.cfi_escape 0x2d
	ret
L(7_3):
	.cfi_restore_state
	ldur	x9, [x29, #-8]
	cbz	x9, L(7_1)
	ldur	x8, [x29, #-16]
	ldrb	w10, [x8]
	cmp	w10, #43
	b.ne	L(7_11)
	subs	x9, x9, #1
	b.eq	L(7_1)
	mov	x10, #-7378697629483820647
	mov	x21, xzr
	add	x8, x8, #1
	eor	x10, x10, #0x8000000000000003
L(7_7):
	mov	w0, wzr
	cmp	x21, x10
	mov	x1, xzr
	b.hs	L(7_2)
	ldrb	w11, [x8], #1
	sub	w12, w11, #48
	cmp	w12, #9
	b.hi	L(7_2)
	add	x12, x21, x21, lsl #2
	and	x11, x11, #0xf
	lsl	x12, x12, #1
	cmn	x11, x12
	b.hs	L(7_1)
	subs	x9, x9, #1
	add	x21, x12, x11
	b.ne	L(7_7)
	b	L(7_16)
L(7_11):
	mov	x10, #-7378697629483820647
	mov	x21, xzr
	eor	x10, x10, #0x8000000000000003
L(7_12):
	mov	w0, wzr
	cmp	x21, x10
	mov	x1, xzr
	b.hs	L(7_2)
	ldrb	w11, [x8], #1
	sub	w12, w11, #48
	cmp	w12, #9
	b.hi	L(7_2)
	add	x12, x21, x21, lsl #2
	and	x11, x11, #0xf
	lsl	x12, x12, #1
	cmn	x11, x12
	b.hs	L(7_1)
	subs	x9, x9, #1
	add	x21, x12, x11
	b.ne	L(7_12)
L(7_16):
	movi	v0.2d, #0000000000000000
	lsr	x8, x21, #4
	str	xzr, [sp, #32]
	cmp	x8, #625
	adrp	x8, PAGE(D(static.15))
	add	x8, x8, LOW(D(static.15))
	stp	q0, q0, [sp]
	b.lo	L(7_22)
	mov	x10, xzr
	mov	x9, x21
L(7_18):
	mov	x11, x9
	mov	x9, #22859
	mov	w12, #10000
	movk	x9, #14470, lsl #16
	mov	w14, #5243
	mov	w15, #57599
	movk	x9, #50646, lsl #32
	movk	w15, #1525, lsl #16
	movk	x9, #13421, lsl #48
	cmp	x11, x15
	umulh	x9, x11, x9
	lsr	x9, x9, #11
	msub	w12, w9, w12, w11
	ubfx	w13, w12, #2, #14
	mul	w13, w13, w14
	mov	w14, #100
	lsr	w13, w13, #17
	msub	w12, w13, w14, w12
	mov	x14, sp
	ldrh	w13, [x8, w13, uxtw #1]
	add	x14, x14, x10
	sub	x10, x10, #4
	strh	w13, [x14, #36]
	and	x12, x12, #0xffff
	ldrh	w12, [x8, x12, lsl #1]
	strh	w12, [x14, #38]
	b.hi	L(7_18)
	add	x10, x10, #40
	cmp	x9, #99
	b.ls	L(7_23)
L(7_20):
	ubfx	w11, w9, #2, #14
	mov	w12, #5243
	cmp	x9, #999
	mul	w11, w11, w12
	lsr	w12, w11, #17
	mov	w11, #100
	msub	w11, w12, w11, w9
	and	x11, x11, #0xffff
	ldrh	w13, [x8, x11, lsl #1]
	mov	x11, sp
	add	x14, x11, x10
	sturh	w13, [x14, #-2]
	b.hi	L(7_25)
	orr	w8, w12, #0x30
	sub	x10, x10, #3
	and	w9, w8, #0xff
	strb	w8, [x11, x10]
	b	L(7_28)
L(7_22):
	mov	w10, #40
	mov	x9, x21
	cmp	x21, #99
	b.hi	L(7_20)
L(7_23):
	cmp	x9, #9
	b.hi	L(7_26)
	sub	x10, x10, #1
	mov	x8, sp
	orr	w9, w9, #0x30
	strb	w9, [x8, x10]
	b	L(7_28)
L(7_25):
	add	x8, x8, w12, uxtw #1
	sub	x10, x10, #4
	b	L(7_27)
L(7_26):
	add	x8, x8, x9, lsl #1
	sub	x10, x10, #2
	mov	x11, sp
L(7_27):
	ldrb	w9, [x8]
	ldrb	w8, [x8, #1]
	add	x11, x11, x10
	strb	w9, [x11]
	strb	w8, [x11, #1]
L(7_28):
	mov	w8, #40
	sub	x8, x8, x10
	cmp	x8, x19
	b.ne	L(7_41)
	mov	x8, sp
	cmp	x19, #4
	add	x8, x8, x10
	b.hs	L(7_34)
	cmp	x10, #40
	b.eq	L(7_42)
	mov	x9, xzr
L(7_32):
	ldrb	w10, [x8, x9]
	ldrb	w11, [x20, x9]
	cmp	w10, w11
	b.ne	L(7_40)
	add	x9, x9, #1
	cmp	x19, x9
	b.ne	L(7_32)
	b	L(7_42)
L(7_34):
	ldrb	w10, [x20]
	mov	x1, xzr
	mov	w0, wzr
	cmp	w9, w10
	b.ne	L(7_2)
	ldrb	w9, [x8, #1]
	ldrb	w10, [x20, #1]
	cmp	w9, w10
	b.ne	L(7_2)
	ldrb	w9, [x8, #2]
	ldrb	w10, [x20, #2]
	cmp	w9, w10
	b.ne	L(7_2)
	ldrb	w9, [x8, #3]
	ldrb	w10, [x20, #3]
	cmp	w9, w10
	b.ne	L(7_2)
	mov	x0, x8
	mov	x1, x19
	mov	x2, x20
	bl	"core::cmp::slices::groups_equal::<i8,31'core::cmp::numbers::U8PartialEq{}>"
	cbnz	w0, L(7_42)
	mov	x1, xzr
	ldp	x20, x19, [sp, #96]
	.cfi_remember_state
	.cfi_restore x19
	.cfi_restore x20
	ldr	x21, [sp, #80]
	.cfi_restore x21
	ldp	x29, x30, [sp, #64]
	.cfi_def_cfa sp, 112
	.cfi_restore x29
	.cfi_restore x30
	add	sp, sp, #112
	.cfi_def_cfa sp, 0
	hint	#29
	.cfi_escape 0x2d
	ret
L(7_40):
	.cfi_restore_state
	cmp	x9, x19
	b.hs	L(7_42)
L(7_41):
	mov	w0, wzr
	mov	x1, xzr
	ldp	x20, x19, [sp, #96]
	.cfi_remember_state
	.cfi_restore x19
	.cfi_restore x20
	ldr	x21, [sp, #80]
	.cfi_restore x21
	ldp	x29, x30, [sp, #64]
	.cfi_def_cfa sp, 112
	.cfi_restore x29
	.cfi_restore x30
	add	sp, sp, #112
	.cfi_def_cfa sp, 0
	hint	#29
	.cfi_escape 0x2d
	ret
L(7_42):
	.cfi_restore_state
	mov	w0, #1
	mov	x1, x21
	ldp	x20, x19, [sp, #96]
	.cfi_remember_state
	.cfi_restore x19
	.cfi_restore x20
	ldr	x21, [sp, #80]
	.cfi_restore x21
	ldp	x29, x30, [sp, #64]
	.cfi_def_cfa sp, 112
	.cfi_restore x29
	.cfi_restore x30
	add	sp, sp, #112
	.cfi_def_cfa sp, 0
	hint	#29
	.cfi_escape 0x2d
	ret
	SIZE("pair_text::line::parse_decimal")
	.cfi_endproc

CODE(".text.keyed_blake3::hasher::Hasher::finalize")
	.p2align	2
	TYPE("keyed_blake3::hasher::Hasher::finalize", function)
"keyed_blake3::hasher::Hasher::finalize":
	.cfi_startproc
	hint	#25
	.cfi_escape 0x2d
	sub	sp, sp, #240
	.cfi_def_cfa sp, 240
	ldr	x8, [x1, #1856]
	stp	x20, x19, [sp, #224]
	.cfi_offset x19, -8
	.cfi_offset x20, -16
	mov	x20, x1
	mov	x19, x0
	stp	x29, x30, [sp, #176]
	.cfi_offset x29, -64
	.cfi_offset x30, -56
	add	x29, sp, #176
	.cfi_def_cfa x29, 64
	cmp	x8, #1025
	stp	x24, x23, [sp, #192]
	.cfi_offset x23, -40
	.cfi_offset x24, -48
	stp	x22, x21, [sp, #208]
	.cfi_offset x21, -24
	.cfi_offset x22, -32
	b.lo	L(8_3)
	and	x9, x8, #0x3ff
	cbnz	x9, L(8_3)
	lsr	x8, x8, #10
	mov	w9, #2
	fmov	d0, x8
	cnt	v0.8b, v0.8b
	addv	b0, v0.8b
	fmov	w8, s0
	cmp	w8, #2
	csel	w8, w8, w9, hi
	sub	x22, x8, #1
	add	x8, x20, x22, lsl #5
	ldp	q0, q1, [x8, #64]
	stp	q0, q1, [sp, #80]
	b	L(8_7)
L(8_3):
	cmp	x8, #0
	mov	w10, #8
	mov	w24, #18
	cset	w9, ne
	sub	x9, x8, x9
	lsr	x21, x9, #10
	and	x11, x9, #0xffffffffffffffc0
	sub	x22, x8, x11
	fmov	d0, x21
	cmp	x21, #0
	csel	w8, w10, wzr, eq
	tst	x9, #0x3c0
	cinc	w23, w8, eq
	cmp	x22, #64
	add	x8, x20, #1792
	cnt	v1.8b, v0.8b
	movi	v0.2d, #0000000000000000
	addv	b1, v1.8b
	stp	q0, q0, [x29, #-32]
	str	q1, [sp]
	b.ne	L(8_5)
	ldp	q0, q1, [x8]
	sub	x0, x29, #32
	ldp	q2, q3, [x8, #32]
	add	x1, sp, #80
	orr	w4, w23, w24
	mov	x2, x21
	mov	w3, #64
	stp	q0, q1, [sp, #80]
	ldp	q0, q1, [x20, #32]
	stp	q2, q3, [sp, #112]
	b	L(8_6)
L(8_5):
	add	x0, sp, #80
	add	x1, x20, #1792
	mov	x2, x22
	stp	q0, q0, [sp, #80]
	stp	q0, q0, [sp, #112]
	bl	C(memcpy)
	ldp	q0, q1, [x20, #32]
	sub	x0, x29, #32
	add	x1, sp, #80
	orr	w4, w23, w24
	mov	x2, x21
	mov	w3, w22
L(8_6):
	bl	"keyed_blake3::compression::compress"
	ldp	q0, q1, [x29, #-32]
	stp	q0, q1, [sp, #48]
	ldp	q0, q1, [sp, #48]
	stp	q0, q1, [sp, #16]
	stp	q0, q1, [sp, #80]
	ldr	q0, [sp]
	fmov	x22, d0
	cbz	x21, L(8_9)
L(8_7):
	add	x8, x20, x22, lsl #5
	add	x21, x8, #32
L(8_8):
	subs	x22, x22, #1
	mov	w8, #8
	sub	x0, x29, #32
	csel	w4, w8, wzr, eq
	add	x3, sp, #80
	mov	x1, x20
	mov	x2, x21
	bl	"keyed_blake3::tree::parent_value"
	ldp	q0, q1, [x29, #-32]
	sub	x21, x21, #32
	stp	q0, q1, [sp, #80]
	cbnz	x22, L(8_8)
L(8_9):
	ldp	q0, q1, [sp, #80]
	ldp	x22, x21, [sp, #208]
	.cfi_remember_state
	.cfi_restore x21
	.cfi_restore x22
	ldp	x24, x23, [sp, #192]
	.cfi_restore x23
	.cfi_restore x24
	stp	q0, q1, [x19]
	ldp	x20, x19, [sp, #224]
	.cfi_restore x19
	.cfi_restore x20
	ldp	x29, x30, [sp, #176]
	.cfi_def_cfa sp, 240
	.cfi_restore x29
	.cfi_restore x30
	add	sp, sp, #240
	.cfi_def_cfa sp, 0
	hint	#29
	.cfi_escape 0x2d
	ret
	SIZE("keyed_blake3::hasher::Hasher::finalize")
	.cfi_endproc

SIZED(16, 4)
	.p2align	4, 0x0
D(CPI9_0):
	.word	1779033703
	.word	3144134277
	.word	1013904242
	.word	2773480762
CODE(".text.keyed_blake3::compression::compress")
	.p2align	2
	TYPE("keyed_blake3::compression::compress", function)
"keyed_blake3::compression::compress":
	.cfi_startproc
	fmov	d2, x2
	ldp	q16, q7, [x1]
	add	v0.4s, v1.4s, v0.4s
	adrp	x8, PAGE(D(CPI9_0))
	ldr	q3, [x8, LOW(D(CPI9_0))]
	mov	v2.s[2], w3
	uzp1	v4.4s, v16.4s, v7.4s
	mov	v2.s[3], w4
	add	v0.4s, v0.4s, v4.4s
	ext	v4.16b, v4.16b, v4.16b, #4
	eor	v2.16b, v0.16b, v2.16b
	rev32	v2.8h, v2.8h
	add	v6.4s, v2.4s, v3.4s
	eor	v3.16b, v6.16b, v1.16b
	uzp2	v1.4s, v16.4s, v7.4s
	shl	v17.4s, v3.4s, #20
	add	v0.4s, v0.4s, v1.4s
	usra	v17.4s, v3.4s, #12
	ldp	q5, q3, [x1, #32]
	add	v0.4s, v0.4s, v17.4s
	eor	v2.16b, v0.16b, v2.16b
	ext	v0.16b, v0.16b, v0.16b, #12
	shl	v18.4s, v2.4s, #24
	usra	v18.4s, v2.4s, #8
	add	v2.4s, v18.4s, v6.4s
	uzp1	v6.4s, v5.4s, v3.4s
	ext	v18.16b, v18.16b, v18.16b, #8
	eor	v19.16b, v2.16b, v17.16b
	ext	v2.16b, v2.16b, v2.16b, #4
	ext	v17.16b, v6.16b, v6.16b, #12
	shl	v6.4s, v19.4s, #25
	add	v0.4s, v0.4s, v17.4s
	usra	v6.4s, v19.4s, #7
	add	v0.4s, v0.4s, v6.4s
	eor	v18.16b, v0.16b, v18.16b
	rev32	v18.8h, v18.8h
	add	v19.4s, v18.4s, v2.4s
	uzp2	v2.4s, v5.4s, v3.4s
	eor	v20.16b, v19.16b, v6.16b
	ext	v6.16b, v2.16b, v2.16b, #12
	mov	v2.16b, v7.16b
	shl	v21.4s, v20.4s, #20
	mov	v2.s[1], v16.s[2]
	add	v0.4s, v0.4s, v6.4s
	usra	v21.4s, v20.4s, #12
	mov	v2.s[2], v16.s[3]
	add	v0.4s, v0.4s, v21.4s
	eor	v18.16b, v0.16b, v18.16b
	add	v0.4s, v0.4s, v2.4s
	shl	v20.4s, v18.4s, #24
	ext	v0.16b, v0.16b, v0.16b, #4
	usra	v20.4s, v18.4s, #8
	add	v18.4s, v20.4s, v19.4s
	eor	v16.16b, v18.16b, v21.16b
	shl	v19.4s, v16.4s, #25
	usra	v19.4s, v16.4s, #7
	ext	v16.16b, v20.16b, v20.16b, #8
	add	v20.4s, v19.4s, v0.4s
	eor	v0.16b, v20.16b, v16.16b
	ext	v16.16b, v18.16b, v18.16b, #12
	rev32	v18.8h, v0.8h
	zip2	v0.4s, v4.4s, v17.4s
	add	v4.4s, v18.4s, v16.4s
	mov	v16.16b, v0.16b
	eor	v19.16b, v4.16b, v19.16b
	mov	v16.s[3], v6.s[3]
	mov	v6.s[2], v1.s[0]
	shl	v21.4s, v19.4s, #20
	usra	v21.4s, v19.4s, #12
	add	v19.4s, v20.4s, v16.4s
	add	v19.4s, v19.4s, v21.4s
	eor	v18.16b, v19.16b, v18.16b
	shl	v22.4s, v18.4s, #24
	usra	v22.4s, v18.4s, #8
	ext	v18.16b, v17.16b, v6.16b, #12
	add	v4.4s, v22.4s, v4.4s
	uzp1	v20.4s, v6.4s, v18.4s
	ext	v18.16b, v19.16b, v19.16b, #12
	eor	v21.16b, v4.16b, v21.16b
	add	v18.4s, v18.4s, v20.4s
	shl	v19.4s, v21.4s, #25
	usra	v19.4s, v21.4s, #7
	ext	v21.16b, v22.16b, v22.16b, #8
	mov	v22.16b, v5.16b
	mov	v22.s[1], v5.s[3]
	add	v18.4s, v18.4s, v19.4s
	eor	v23.16b, v18.16b, v21.16b
	mov	v21.16b, v22.16b
	mov	v21.s[2], v3.s[2]
	ext	v3.16b, v4.16b, v4.16b, #4
	rev32	v4.8h, v23.8h
	trn1	v23.4s, v1.4s, v21.4s
	add	v3.4s, v4.4s, v3.4s
	mov	v21.s[2], v0.s[0]
	eor	v19.16b, v3.16b, v19.16b
	mov	v24.16b, v23.16b
	ext	v20.16b, v20.16b, v21.16b, #12
	mov	v24.d[0], v22.d[0]
	shl	v22.4s, v19.4s, #20
	uzp1	v20.4s, v21.4s, v20.4s
	usra	v22.4s, v19.4s, #12
	ext	v19.16b, v2.16b, v0.16b, #4
	add	v18.4s, v18.4s, v24.4s
	add	v18.4s, v18.4s, v22.4s
	zip1	v24.4s, v19.4s, v19.4s
	eor	v4.16b, v18.16b, v4.16b
	shl	v25.4s, v4.4s, #24
	usra	v25.4s, v4.4s, #8
	uzp1	v4.4s, v19.4s, v24.4s
	add	v19.4s, v25.4s, v3.4s
	uzp2	v3.4s, v4.4s, v16.4s
	eor	v4.16b, v19.16b, v22.16b
	add	v18.4s, v18.4s, v3.4s
	shl	v22.4s, v4.4s, #25
	ext	v18.16b, v18.16b, v18.16b, #4
	usra	v22.4s, v4.4s, #7
	ext	v4.16b, v25.16b, v25.16b, #8
	ext	v25.16b, v19.16b, v19.16b, #12
	add	v24.4s, v22.4s, v18.4s
	eor	v18.16b, v24.16b, v4.16b
	zip1	v4.4s, v2.4s, v2.4s
	rev32	v26.8h, v18.8h
	mov	v19.16b, v4.16b
	mov	v19.s[1], v17.s[3]
	add	v17.4s, v26.4s, v25.4s
	eor	v22.16b, v17.16b, v22.16b
	mov	v18.16b, v19.16b
	mov	v18.s[3], v23.s[3]
	shl	v23.4s, v22.4s, #20
	usra	v23.4s, v22.4s, #12
	add	v22.4s, v24.4s, v18.4s
	add	v22.4s, v22.4s, v23.4s
	eor	v24.16b, v22.16b, v26.16b
	ext	v21.16b, v22.16b, v22.16b, #12
	shl	v25.4s, v24.4s, #24
	add	v21.4s, v21.4s, v20.4s
	usra	v25.4s, v24.4s, #8
	add	v17.4s, v25.4s, v17.4s
	eor	v23.16b, v17.16b, v23.16b
	shl	v22.4s, v23.4s, #25
	usra	v22.4s, v23.4s, #7
	ext	v23.16b, v25.16b, v25.16b, #8
	add	v24.4s, v21.4s, v22.4s
	trn1	v21.4s, v6.4s, v1.4s
	eor	v23.16b, v24.16b, v23.16b
	ext	v21.16b, v21.16b, v6.16b, #8
	ext	v6.16b, v17.16b, v17.16b, #4
	rev32	v17.8h, v23.8h
	trn1	v23.4s, v0.4s, v21.4s
	add	v6.4s, v17.4s, v6.4s
	mov	v25.16b, v23.16b
	eor	v22.16b, v6.16b, v22.16b
	mov	v25.d[0], v21.d[0]
	mov	v21.s[2], v4.s[0]
	shl	v26.4s, v22.4s, #20
	usra	v26.4s, v22.4s, #12
	add	v22.4s, v24.4s, v25.4s
	ext	v24.16b, v3.16b, v0.16b, #4
	ext	v20.16b, v20.16b, v21.16b, #12
	add	v22.4s, v22.4s, v26.4s
	zip1	v25.4s, v24.4s, v24.4s
	uzp1	v20.4s, v21.4s, v20.4s
	eor	v17.16b, v22.16b, v17.16b
	shl	v27.4s, v17.4s, #24
	usra	v27.4s, v17.4s, #8
	uzp1	v17.4s, v24.4s, v25.4s
	add	v24.4s, v27.4s, v6.4s
	uzp2	v6.4s, v17.4s, v18.4s
	eor	v17.16b, v24.16b, v26.16b
	ext	v24.16b, v24.16b, v24.16b, #12
	add	v22.4s, v22.4s, v6.4s
	shl	v25.4s, v17.4s, #25
	ext	v22.16b, v22.16b, v22.16b, #4
	usra	v25.4s, v17.4s, #7
	ext	v17.16b, v27.16b, v27.16b, #8
	add	v22.4s, v25.4s, v22.4s
	eor	v26.16b, v22.16b, v17.16b
	mov	v17.16b, v2.16b
	rev32	v26.8h, v26.8h
	mov	v17.s[0], v7.s[3]
	add	v7.4s, v26.4s, v24.4s
	mov	v17.s[1], v5.s[1]
	eor	v24.16b, v7.16b, v25.16b
	mov	v17.s[3], v23.s[3]
	shl	v23.4s, v24.4s, #20
	add	v22.4s, v22.4s, v17.4s
	usra	v23.4s, v24.4s, #12
	add	v22.4s, v22.4s, v23.4s
	eor	v24.16b, v22.16b, v26.16b
	ext	v21.16b, v22.16b, v22.16b, #12
	shl	v25.4s, v24.4s, #24
	add	v21.4s, v21.4s, v20.4s
	usra	v25.4s, v24.4s, #8
	uzp1	v24.4s, v0.4s, v5.4s
	uzp2	v5.4s, v16.4s, v5.4s
	add	v7.4s, v25.4s, v7.4s
	trn1	v19.4s, v19.4s, v24.4s
	uzp2	v16.4s, v5.4s, v16.4s
	eor	v23.16b, v7.16b, v23.16b
	ext	v7.16b, v7.16b, v7.16b, #4
	shl	v22.4s, v23.4s, #25
	usra	v22.4s, v23.4s, #7
	ext	v23.16b, v25.16b, v25.16b, #8
	mov	v25.16b, v19.16b
	add	v21.4s, v21.4s, v22.4s
	mov	v25.d[0], v24.d[0]
	eor	v23.16b, v21.16b, v23.16b
	add	v21.4s, v21.4s, v25.4s
	rev32	v23.8h, v23.8h
	add	v7.4s, v23.4s, v7.4s
	eor	v22.16b, v7.16b, v22.16b
	shl	v24.4s, v22.4s, #20
	usra	v24.4s, v22.4s, #12
	ext	v22.16b, v6.16b, v0.16b, #4
	add	v21.4s, v21.4s, v24.4s
	zip1	v25.4s, v22.4s, v22.4s
	eor	v23.16b, v21.16b, v23.16b
	uzp1	v22.4s, v22.4s, v25.4s
	uzp1	v25.4s, v0.4s, v3.4s
	shl	v26.4s, v23.4s, #24
	usra	v26.4s, v23.4s, #8
	ext	v20.16b, v20.16b, v25.16b, #12
	add	v23.4s, v26.4s, v7.4s
	uzp2	v7.4s, v22.4s, v17.4s
	ext	v17.16b, v17.16b, v17.16b, #12
	eor	v22.16b, v23.16b, v24.16b
	ext	v23.16b, v23.16b, v23.16b, #12
	add	v21.4s, v21.4s, v7.4s
	mov	v17.s[1], v0.s[2]
	shl	v24.4s, v22.4s, #25
	ext	v21.16b, v21.16b, v21.16b, #4
	usra	v24.4s, v22.4s, #7
	ext	v22.16b, v26.16b, v26.16b, #8
	add	v21.4s, v24.4s, v21.4s
	eor	v22.16b, v21.16b, v22.16b
	rev32	v22.8h, v22.8h
	add	v5.4s, v22.4s, v23.4s
	eor	v23.16b, v5.16b, v24.16b
	mov	v24.16b, v16.16b
	mov	v24.s[3], v19.s[3]
	shl	v19.4s, v23.4s, #20
	usra	v19.4s, v23.4s, #12
	add	v21.4s, v21.4s, v24.4s
	add	v21.4s, v21.4s, v19.4s
	eor	v22.16b, v21.16b, v22.16b
	shl	v23.4s, v22.4s, #24
	usra	v23.4s, v22.4s, #8
	add	v5.4s, v23.4s, v5.4s
	eor	v22.16b, v5.16b, v19.16b
	uzp1	v19.4s, v25.4s, v20.4s
	ext	v20.16b, v21.16b, v21.16b, #12
	ext	v5.16b, v5.16b, v5.16b, #4
	shl	v21.4s, v22.4s, #25
	add	v20.4s, v20.4s, v19.4s
	usra	v21.4s, v22.4s, #7
	ext	v22.16b, v23.16b, v23.16b, #8
	mov	v23.16b, v2.16b
	mov	v2.s[2], v6.s[0]
	add	v20.4s, v20.4s, v21.4s
	mov	v23.s[3], v1.s[0]
	ext	v19.16b, v19.16b, v2.16b, #12
	eor	v22.16b, v20.16b, v22.16b
	add	v20.4s, v20.4s, v23.4s
	rev32	v22.8h, v22.8h
	add	v5.4s, v22.4s, v5.4s
	eor	v21.16b, v5.16b, v21.16b
	shl	v25.4s, v21.4s, #20
	usra	v25.4s, v21.4s, #12
	add	v21.4s, v20.4s, v25.4s
	ext	v20.16b, v7.16b, v0.16b, #4
	eor	v22.16b, v21.16b, v22.16b
	zip1	v23.4s, v20.4s, v20.4s
	shl	v26.4s, v22.4s, #24
	uzp1	v20.4s, v20.4s, v23.4s
	usra	v26.4s, v22.4s, #8
	add	v5.4s, v26.4s, v5.4s
	uzp2	v20.4s, v20.4s, v24.4s
	eor	v22.16b, v5.16b, v25.16b
	ext	v24.16b, v5.16b, v5.16b, #12
	ext	v5.16b, v18.16b, v18.16b, #12
	add	v21.4s, v21.4s, v20.4s
	ext	v20.16b, v20.16b, v0.16b, #4
	shl	v23.4s, v22.4s, #25
	ext	v21.16b, v21.16b, v21.16b, #4
	mov	v5.s[1], v1.s[2]
	usra	v23.4s, v22.4s, #7
	ext	v22.16b, v26.16b, v26.16b, #8
	mov	v18.16b, v5.16b
	add	v21.4s, v23.4s, v21.4s
	mov	v18.s[3], v1.s[0]
	eor	v22.16b, v21.16b, v22.16b
	rev32	v22.8h, v22.8h
	add	v21.4s, v21.4s, v18.4s
	add	v24.4s, v22.4s, v24.4s
	eor	v23.16b, v24.16b, v23.16b
	shl	v1.4s, v23.4s, #20
	usra	v1.4s, v23.4s, #12
	add	v21.4s, v21.4s, v1.4s
	eor	v22.16b, v21.16b, v22.16b
	shl	v23.4s, v22.4s, #24
	usra	v23.4s, v22.4s, #8
	add	v22.4s, v23.4s, v24.4s
	eor	v24.16b, v22.16b, v1.16b
	uzp1	v1.4s, v2.4s, v19.4s
	ext	v2.16b, v21.16b, v21.16b, #12
	ext	v21.16b, v23.16b, v23.16b, #8
	mov	v23.16b, v3.16b
	ext	v22.16b, v22.16b, v22.16b, #4
	shl	v19.4s, v24.4s, #25
	add	v2.4s, v2.4s, v1.4s
	mov	v23.s[2], v0.s[0]
	usra	v19.4s, v24.4s, #7
	trn1	v16.4s, v16.4s, v23.4s
	add	v2.4s, v2.4s, v19.4s
	eor	v21.16b, v2.16b, v21.16b
	mov	v23.16b, v16.16b
	mov	v17.s[3], v16.s[3]
	rev32	v21.8h, v21.8h
	mov	v23.d[0], v3.d[0]
	mov	v3.s[2], v7.s[0]
	add	v22.4s, v21.4s, v22.4s
	add	v2.4s, v2.4s, v23.4s
	ext	v1.16b, v1.16b, v3.16b, #12
	eor	v19.16b, v22.16b, v19.16b
	uzp1	v1.4s, v3.4s, v1.4s
	shl	v24.4s, v19.4s, #20
	usra	v24.4s, v19.4s, #12
	add	v2.4s, v2.4s, v24.4s
	eor	v19.16b, v2.16b, v21.16b
	ext	v2.16b, v2.16b, v2.16b, #4
	shl	v21.4s, v19.4s, #24
	usra	v21.4s, v19.4s, #8
	ext	v19.16b, v20.16b, v20.16b, #8
	add	v20.4s, v21.4s, v22.4s
	uzp2	v18.4s, v19.4s, v18.4s
	eor	v22.16b, v20.16b, v24.16b
	ext	v20.16b, v20.16b, v20.16b, #12
	ext	v18.16b, v18.16b, v19.16b, #4
	shl	v19.4s, v22.4s, #25
	usra	v19.4s, v22.4s, #7
	add	v2.4s, v2.4s, v18.4s
	ext	v18.16b, v21.16b, v21.16b, #8
	add	v2.4s, v19.4s, v2.4s
	eor	v18.16b, v2.16b, v18.16b
	rev32	v18.8h, v18.8h
	add	v20.4s, v18.4s, v20.4s
	eor	v0.16b, v20.16b, v19.16b
	shl	v16.4s, v0.4s, #20
	usra	v16.4s, v0.4s, #12
	add	v0.4s, v2.4s, v17.4s
	add	v0.4s, v0.4s, v16.4s
	eor	v2.16b, v0.16b, v18.16b
	ext	v0.16b, v0.16b, v0.16b, #12
	shl	v17.4s, v2.4s, #24
	add	v0.4s, v0.4s, v1.4s
	usra	v17.4s, v2.4s, #8
	add	v2.4s, v17.4s, v20.4s
	ext	v1.16b, v17.16b, v17.16b, #8
	eor	v7.16b, v2.16b, v16.16b
	ext	v2.16b, v2.16b, v2.16b, #4
	shl	v3.4s, v7.4s, #25
	usra	v3.4s, v7.4s, #7
	mov	v7.16b, v6.16b
	add	v0.4s, v0.4s, v3.4s
	mov	v7.s[2], v4.s[0]
	eor	v1.16b, v0.16b, v1.16b
	trn1	v4.4s, v5.4s, v7.4s
	rev32	v1.8h, v1.8h
	mov	v4.d[0], v6.d[0]
	add	v2.4s, v1.4s, v2.4s
	add	v0.4s, v0.4s, v4.4s
	eor	v3.16b, v2.16b, v3.16b
	shl	v5.4s, v3.4s, #20
	usra	v5.4s, v3.4s, #12
	add	v0.4s, v0.4s, v5.4s
	eor	v1.16b, v0.16b, v1.16b
	ext	v0.16b, v0.16b, v0.16b, #4
	shl	v3.4s, v1.4s, #24
	usra	v3.4s, v1.4s, #8
	add	v1.4s, v3.4s, v2.4s
	ext	v3.16b, v3.16b, v3.16b, #8
	eor	v2.16b, v1.16b, v5.16b
	ext	v1.16b, v1.16b, v1.16b, #12
	shl	v4.4s, v2.4s, #25
	eor	v0.16b, v1.16b, v0.16b
	usra	v4.4s, v2.4s, #7
	eor	v1.16b, v4.16b, v3.16b
	stp	q0, q1, [x0]
	ret
	SIZE("keyed_blake3::compression::compress")
	.cfi_endproc

CODE(".text.keyed_blake3::tree::parent_value")
	.p2align	2
	TYPE("keyed_blake3::tree::parent_value", function)
"keyed_blake3::tree::parent_value":
	.cfi_startproc
	hint	#25
	.cfi_escape 0x2d
	sub	sp, sp, #128
	.cfi_def_cfa sp, 128
	movi	v0.2d, #0000000000000000
	mov	x8, sp
	stp	x29, x30, [sp, #96]
	.cfi_offset x29, -32
	.cfi_offset x30, -24
	sub	x8, x8, x2
	add	x29, sp, #96
	.cfi_def_cfa x29, 32
	str	x19, [sp, #112]
	.cfi_offset x19, -16
	cmp	x8, #31
	mov	x8, sp
	mov	x19, x0
	add	x8, x8, #32
	stp	q0, q0, [x29, #-32]
	sub	x9, x8, x3
	stp	q0, q0, [sp]
	cmp	x9, #31
	stp	q0, q0, [sp, #32]
	ldp	q0, q1, [x2]
	stp	q0, q1, [sp]
	b.hi	L(10_2)
	ldp	q0, q1, [x3]
	stp	q0, q1, [sp, #32]
	b	L(10_3)
L(10_2):
	ldp	q0, q1, [x3]
	stp	q0, q1, [x8]
L(10_3):
	ldp	q0, q1, [x1]
	sub	x0, x29, #32
	mov	x1, sp
	add	w4, w4, #20
	mov	x2, xzr
	mov	w3, #64
	bl	"keyed_blake3::compression::compress"
	ldp	q0, q1, [x29, #-32]
	ldp	x29, x30, [sp, #96]
	.cfi_remember_state
	.cfi_def_cfa sp, 128
	.cfi_restore x29
	.cfi_restore x30
	stp	q0, q1, [x19]
	ldr	x19, [sp, #112]
	.cfi_restore x19
	add	sp, sp, #128
	.cfi_def_cfa sp, 0
	hint	#29
	.cfi_escape 0x2d
	ret
	SIZE("keyed_blake3::tree::parent_value")
	.cfi_endproc

CODE(".text.xetroot_text::placed_pairs::PlacedPairs::end_range::<#ca9445b3ca2ffbf0>")
	.p2align	2
	TYPE("xetroot_text::placed_pairs::PlacedPairs::end_range::<#ca9445b3ca2ffbf0>", function)
"xetroot_text::placed_pairs::PlacedPairs::end_range::<#ca9445b3ca2ffbf0>":
	.cfi_startproc
	hint	#25
	.cfi_escape 0x2d
	stp	x29, x30, [sp, #-96]!
	.cfi_def_cfa sp, 96
	.cfi_offset x29, -96
	.cfi_offset x30, -88
	stp	x28, x27, [sp, #16]
	.cfi_offset x27, -72
	.cfi_offset x28, -80
	mov	x29, sp
	.cfi_def_cfa x29, 96
	stp	x26, x25, [sp, #32]
	.cfi_offset x25, -56
	.cfi_offset x26, -64
	stp	x24, x23, [sp, #48]
	.cfi_offset x23, -40
	.cfi_offset x24, -48
	stp	x22, x21, [sp, #64]
	.cfi_offset x21, -24
	.cfi_offset x22, -32
	stp	x20, x19, [sp, #80]
	.cfi_offset x19, -8
	.cfi_offset x20, -16
	sub	sp, sp, #560
	ldr	x21, [x0, #40]
	cbz	x21, L(11_5)
	movi	v0.2d, #0000000000000000
	ldr	x2, [x0, #32]
	mov	x19, x0
	ldr	x22, [x0, #56]
	ldr	x25, [x0, #80]
	add	x0, sp, #48
	mov	w1, wzr
	mov	x3, x21
	mov	w4, wzr
	stp	q0, q0, [sp, #64]
	str	q0, [sp, #48]
	bl	"xet_merkle::merkle_hash_subtree::subtree::as_range::MerkleHashSubtreeChunkRange::from_chunks::<#d96a70c1b70ca186>"
	ldrb	w8, [sp, #48]
	cbz	w8, L(11_7)
	ldrb	w27, [sp, #49]
L(11_3):
	and	w8, w27, #0xff
	cmp	w8, #2
	b.ne	L(11_276)
	mov	w0, #1
	b	L(11_6)
L(11_5):
	mov	w0, wzr
L(11_6):
	add	sp, sp, #560
	ldp	x20, x19, [sp, #80]
	.cfi_remember_state
	.cfi_restore x19
	.cfi_restore x20
	ldp	x22, x21, [sp, #64]
	.cfi_restore x21
	.cfi_restore x22
	ldp	x24, x23, [sp, #48]
	.cfi_restore x23
	.cfi_restore x24
	ldp	x26, x25, [sp, #32]
	.cfi_restore x25
	.cfi_restore x26
	ldp	x28, x27, [sp, #16]
	.cfi_restore x27
	.cfi_restore x28
	ldp	x29, x30, [sp], #96
	.cfi_def_cfa sp, 0
	.cfi_restore x29
	.cfi_restore x30
	hint	#29
	.cfi_escape 0x2d
	ret
L(11_7):
	.cfi_restore_state
	ldrb	w8, [x19]
	ldp	x27, x9, [sp, #56]
	ldr	q0, [sp, #80]
	add	x21, x22, x21
	ldr	x26, [sp, #72]
	cmp	w8, #1
	str	x9, [sp, #40]
	str	q0, [sp, #96]
	b.ne	L(11_35)
	mov	x3, x19
	ldr	x8, [x3, #8]!
	ldrh	w10, [x8]
	cbz	x10, L(11_15)
	mov	x9, xzr
L(11_10):
	add	x11, x8, x9, lsl #3
	ldr	x11, [x11, #8]
	cmp	x22, x11
	b.lo	L(11_13)
	add	x9, x9, #1
	cmp	x10, x9
	b.ne	L(11_10)
	mov	x9, x10
L(11_13):
	ldrh	w10, [x8, #2]
	cbnz	w10, L(11_17)
	cbnz	x9, L(11_26)
	b	L(11_35)
L(11_15):
	ldrh	w9, [x8, #2]
	cbz	w9, L(11_35)
	mov	x9, xzr
L(11_17):
	mov	x1, xzr
	mov	x10, x3
	b	L(11_19)
L(11_18):
	ldrh	w11, [x8, #2]
	mov	x9, xzr
	cbz	w11, L(11_27)
L(11_19):
	add	x12, x8, x9, lsl #3
	add	x1, x9, x1, lsl #4
	mov	x2, x10
	ldr	x8, [x12, #848]
	add	x10, x12, #848
	ldrh	w11, [x8]
	cbz	x11, L(11_18)
	mov	x9, xzr
L(11_21):
	add	x12, x8, x9, lsl #3
	ldr	x12, [x12, #8]
	cmp	x22, x12
	b.lo	L(11_24)
	add	x9, x9, #1
	cmp	x11, x9
	b.ne	L(11_21)
	mov	x9, x11
L(11_24):
	ldrh	w11, [x8, #2]
	cbnz	w11, L(11_19)
	cbz	x9, L(11_27)
L(11_26):
	mov	w10, #48
	madd	x10, x9, x10, x8
	add	x8, x8, x9, lsl #3
	add	x9, x10, #80
	b	L(11_33)
L(11_27):
	movi	v0.2d, #0000000000000000
	sub	x0, x29, #144
	mov	x4, #-1
	stp	q0, q0, [x29, #-128]
	stur	q0, [x29, #-144]
	bl	"std_collections::btree::iter::Cursor::retreat::<#4f04a9971a4b2638>"
	ldurb	w9, [x29, #-120]
	ldurb	w8, [x29, #-144]
	cmp	w9, #1
	b.ne	L(11_31)
	cmp	w8, #1
	b.eq	L(11_32)
	ldp	x9, x8, [x29, #-112]
	ldr	x8, [x8]
	ubfiz	x9, x9, #3, #4
	add	x8, x8, x9
	ldr	x9, [x8, #848]
	mov	x8, x9
	ldrh	w10, [x8], #128
	cbz	w10, L(11_35)
	sub	x10, x10, #1
	mov	w11, #48
	add	x12, x9, x10, lsl #3
	smaddl	x9, w10, w11, x8
	add	x8, x12, #8
	b	L(11_33)
L(11_31):
	cmp	w8, #1
	b.ne	L(11_35)
L(11_32):
	ldp	x8, x9, [x29, #-136]
L(11_33):
	ldr	x9, [x9]
	cmp	x9, x22
	b.ne	L(11_35)
	ldr	x23, [x8]
	mov	w24, #1
	ldrb	w8, [x19]
	sub	x28, x29, #144
	add	x20, sp, #160
	cmp	w8, #1
	b.ne	L(11_85)
	b	L(11_36)
L(11_35):
	mov	w24, wzr
	mov	x23, xzr
	ldrb	w8, [x19]
	sub	x28, x29, #144
	add	x20, sp, #160
	cmp	w8, #1
	b.ne	L(11_85)
L(11_36):
	add	x9, x19, #8
	ldr	x9, [x9]
	mov	x12, x9
	ldrh	w11, [x12], #8
	cbnz	x11, L(11_40)
L(11_37):
	mov	x10, xzr
L(11_38):
	ldrh	w11, [x9, #2]
	cbz	w11, L(11_85)
	add	x9, x9, x10
	add	x9, x9, #848
	ldr	x9, [x9]
	mov	x12, x9
	ldrh	w11, [x12], #8
	cbz	x11, L(11_37)
L(11_40):
	lsl	x13, x11, #3
	mov	x10, xzr
	add	x11, x9, #152
L(11_41):
	ldr	x14, [x12, x10]
	cmp	x21, x14
	mov	w14, #2
	csel	w14, wzr, w14, lo
	csinc	w14, w14, wzr, ne
	cmp	w14, #2
	b.ne	L(11_44)
	add	x10, x10, #8
	add	x11, x11, #48
	cmp	x13, x10
	b.ne	L(11_41)
	mov	x10, x13
	b	L(11_38)
L(11_44):
	cbz	w14, L(11_38)
	ldr	x10, [x11]
	cbz	x10, L(11_66)
	ldur	x11, [x11, #-8]
	mov	x9, xzr
	add	x11, x11, #40
L(11_47):
	ldur	x12, [x11, #-32]
	ldur	x13, [x11, #-16]
	sub	x13, x12, x13
	cmn	x13, x9
	b.hs	L(11_276)
	ldr	x12, [x11], #56
	add	x9, x13, x9
	cmn	x12, x9
	b.hs	L(11_276)
	subs	x10, x10, #1
	add	x9, x12, x9
	b.ne	L(11_47)
	cbz	w24, L(11_67)
L(11_51):
	add	x10, x19, #8
	ldr	x10, [x10]
	mov	x13, x10
	ldrh	w12, [x13], #8
	cbnz	x12, L(11_55)
L(11_52):
	mov	x11, xzr
L(11_53):
	ldrh	w12, [x10, #2]
	cbz	w12, L(11_85)
	add	x10, x10, x11
	add	x10, x10, #848
	ldr	x10, [x10]
	mov	x13, x10
	ldrh	w12, [x13], #8
	cbz	x12, L(11_52)
L(11_55):
	lsl	x14, x12, #3
	mov	x11, xzr
	add	x12, x10, #152
L(11_56):
	ldr	x15, [x13, x11]
	cmp	x23, x15
	mov	w15, #2
	csel	w15, wzr, w15, lo
	csinc	w15, w15, wzr, ne
	cmp	w15, #2
	b.ne	L(11_59)
	add	x11, x11, #8
	add	x12, x12, #48
	cmp	x14, x11
	b.ne	L(11_56)
	mov	x11, x14
	b	L(11_53)
L(11_59):
	cbz	w15, L(11_53)
	ldr	x10, [x12]
	cbz	x10, L(11_81)
	ldur	x11, [x12, #-8]
	mov	x13, xzr
	add	x11, x11, #40
L(11_62):
	ldur	x12, [x11, #-32]
	ldur	x14, [x11, #-16]
	sub	x14, x12, x14
	cmn	x14, x13
	b.hs	L(11_276)
	ldr	x12, [x11], #56
	add	x13, x14, x13
	cmn	x12, x13
	b.hs	L(11_276)
	subs	x10, x10, #1
	add	x13, x12, x13
	b.ne	L(11_62)
	cmp	x13, x9
	b.lo	L(11_82)
	b	L(11_85)
L(11_66):
	mov	x9, xzr
	cbnz	w24, L(11_51)
L(11_67):
	mov	x11, xzr
	cbz	x26, L(11_72)
	ldr	x10, [sp, #40]
	mov	x12, x26
	add	x10, x10, #40
L(11_69):
	ldur	x13, [x10, #-32]
	ldur	x14, [x10, #-16]
	sub	x14, x13, x14
	cmn	x14, x11
	b.hs	L(11_276)
	ldr	x13, [x10], #56
	add	x11, x14, x11
	cmn	x13, x11
	b.hs	L(11_276)
	subs	x12, x12, #1
	add	x11, x13, x11
	b.ne	L(11_69)
L(11_72):
	cmp	x11, x9
	b.hs	L(11_85)
	add	x9, x19, #8
	ldr	x9, [x9]
	mov	x11, x9
	ldrh	w10, [x11], #8
	cbnz	x10, L(11_76)
L(11_74):
	ldrh	w11, [x9, #2]
	cbz	w11, L(11_82)
	add	x9, x9, x10
	add	x9, x9, #848
	ldr	x9, [x9]
	mov	x11, x9
	ldrh	w10, [x11], #8
	cbz	x10, L(11_74)
L(11_76):
	lsl	x12, x10, #3
	mov	x10, xzr
L(11_77):
	ldr	x13, [x11, x10]
	cmp	x22, x13
	mov	w13, #2
	csel	w13, wzr, w13, lo
	csinc	w13, w13, wzr, ne
	cmp	w13, #2
	b.ne	L(11_80)
	add	x10, x10, #8
	cmp	x12, x10
	b.ne	L(11_77)
	mov	x10, x12
	b	L(11_74)
L(11_80):
	cbnz	w13, L(11_85)
	b	L(11_74)
L(11_81):
	cmp	xzr, x9
	b.hs	L(11_85)
L(11_82):
	movi	v0.2d, #0000000000000000
	ldr	x8, [sp, #40]
	ldr	q1, [sp, #96]
	strh	wzr, [sp, #156]
	strb	wzr, [sp, #158]
	str	xzr, [sp, #144]
	stp	q0, q0, [sp, #112]
	stp	q0, q0, [sp, #160]
	stur	q0, [x20, #29]
	stp	x27, x8, [sp, #216]
	str	x26, [sp, #232]
	stur	q1, [x20, #80]
	cbz	w24, L(11_104)
	sub	x0, x29, #144
	sub	x2, x29, #24
	mov	w1, wzr
	mov	x3, xzr
	mov	w4, wzr
	stp	q0, q0, [x29, #-128]
	stur	q0, [x29, #-144]
	bl	"xet_merkle::merkle_hash_subtree::subtree::as_range::MerkleHashSubtreeChunkRange::from_chunks::<#d96a70c1b70ca186>"
	ldurb	w8, [x29, #-144]
	cbz	w8, L(11_182)
	ldurb	w27, [x29, #-143]
	b	L(11_218)
L(11_85):
	movi	v0.2d, #0000000000000000
	ldr	x9, [sp, #40]
	stur	x26, [x29, #-240]
	cmp	w8, #1
	mov	x26, x21
	stur	xzr, [x29, #-160]
	stp	x27, x9, [x29, #-256]
	stp	q0, q0, [x29, #-208]
	stp	q0, q0, [x29, #-144]
	stp	q0, q0, [x29, #-112]
	stur	q0, [x29, #-176]
	ldr	q0, [sp, #96]
	stur	q0, [x20, #168]
	b.ne	L(11_113)
	add	x8, x19, #8
	ldr	x8, [x8]
	mov	x10, x8
	ldrh	w11, [x10], #8
	cbnz	x11, L(11_90)
L(11_87):
	mov	x9, xzr
L(11_88):
	ldrh	w10, [x8, #2]
	cbz	w10, L(11_112)
	add	x8, x8, x9
	add	x8, x8, #848
	ldr	x8, [x8]
	mov	x10, x8
	ldrh	w11, [x10], #8
	cbz	x11, L(11_87)
L(11_90):
	lsl	x11, x11, #3
	mov	x9, xzr
	add	x20, x8, #136
L(11_91):
	ldr	x12, [x10, x9]
	cmp	x21, x12
	mov	w12, #2
	csel	w12, wzr, w12, lo
	csinc	w12, w12, wzr, ne
	cmp	w12, #2
	b.ne	L(11_94)
	add	x9, x9, #8
	add	x20, x20, #48
	cmp	x11, x9
	b.ne	L(11_91)
	mov	x9, x11
	b	L(11_88)
L(11_94):
	cbz	w12, L(11_88)
	movi	v0.2d, #0000000000000000
	add	x0, sp, #160
	sub	x1, x29, #256
	mov	x2, x20
	mov	w3, wzr
	stp	q0, q0, [sp, #160]
	bl	"xet_merkle::merkle_hash_subtree::subtree::MerkleHashSubtree::merge_with::<#3cf6a99334775a21>"
	ldrb	w8, [sp, #160]
	ldrb	w9, [sp, #161]
	cmp	w8, #0
	csel	w27, wzr, w9, eq
	cbz	w8, L(11_103)
	ldp	x19, x21, [x29, #-248]
	ldur	x22, [x29, #-232]
	cbz	x21, L(11_265)
	add	x23, x19, #32
	b	L(11_99)
L(11_98):
	subs	x21, x21, #1
	add	x23, x23, #56
	b.eq	L(11_265)
L(11_99):
	ldur	x8, [x23, #-16]
	ldr	x20, [x23]
	ldr	x24, [x23, #16]
	cbz	x8, L(11_101)
	ldur	x0, [x23, #-32]
	bl	C(yurewha_heap_dealloc)
L(11_101):
	cbz	x24, L(11_98)
	mov	x0, x20
	bl	C(yurewha_heap_dealloc)
	b	L(11_98)
L(11_103):
	ldur	x26, [x20, #-8]
	b	L(11_113)
L(11_104):
	ldp	x23, x24, [sp, #240]
	sub	x0, x29, #80
	sub	x2, x29, #24
	mov	w1, wzr
	mov	x3, xzr
	mov	w4, wzr
	stp	q0, q0, [x29, #-208]
	stp	q0, q0, [x29, #-144]
	stp	q0, q0, [x29, #-112]
	stp	q0, q0, [x29, #-80]
	stur	q0, [x29, #-48]
	strh	wzr, [sp, #300]
	strb	wzr, [sp, #302]
	stur	q0, [x29, #-176]
	stur	xzr, [x29, #-160]
	bl	"xet_merkle::merkle_hash_subtree::subtree::as_range::MerkleHashSubtreeChunkRange::from_chunks::<#d96a70c1b70ca186>"
	ldurb	w8, [x29, #-80]
	cbz	w8, L(11_200)
	ldurb	w27, [x29, #-79]
	cbz	x26, L(11_181)
	ldr	x8, [sp, #40]
	add	x20, x8, #32
	b	L(11_108)
L(11_107):
	subs	x26, x26, #1
	add	x20, x20, #56
	b.eq	L(11_181)
L(11_108):
	ldur	x8, [x20, #-16]
	ldr	x19, [x20]
	ldr	x21, [x20, #16]
	cbz	x8, L(11_110)
	ldur	x0, [x20, #-32]
	bl	C(yurewha_heap_dealloc)
L(11_110):
	cbz	x21, L(11_107)
	mov	x0, x19
	bl	C(yurewha_heap_dealloc)
	b	L(11_107)
L(11_112):
	mov	x26, x21
L(11_113):
	ldp	q0, q1, [x29, #-256]
	ldur	x8, [x29, #-224]
	stur	x26, [x29, #-80]
	stur	x8, [x29, #-40]
	stur	q0, [x28, #72]
	stur	q1, [x28, #88]
	tbz	w24, #0, L(11_133)
	ldrb	w8, [x19]
	cmp	w8, #1
	b.ne	L(11_157)
	mov	x9, x19
	mov	w11, #15
	mov	x12, xzr
	ldr	x16, [x9, #8]!
	sub	x8, x29, #80
	ldrh	w10, [x16, #2]
	mov	x15, x16
	sub	x11, x11, x10
	mov	x17, x16
	mov	x13, x16
	ldrh	w16, [x17], #8
	cbnz	x16, L(11_119)
L(11_116):
	mov	x14, xzr
L(11_117):
	ldrh	w12, [x13, #2]
	cbz	w12, L(11_157)
	add	x12, x13, x14, lsl #3
	add	x11, x11, #1
	mov	x15, x13
	ldr	x16, [x12, #848]
	mov	x12, x14
	mov	x17, x16
	mov	x13, x16
	ldrh	w16, [x17], #8
	cbz	x16, L(11_116)
L(11_119):
	mov	x14, xzr
L(11_120):
	ldr	x0, [x17, x14, lsl #3]
	cmp	x23, x0
	mov	w0, #2
	csel	w0, wzr, w0, lo
	csinc	w0, w0, wzr, ne
	cmp	w0, #2
	b.ne	L(11_123)
	add	x14, x14, #1
	cmp	x16, x14
	b.ne	L(11_120)
	mov	x14, x16
	b	L(11_117)
L(11_123):
	cbz	w0, L(11_117)
	add	x12, x15, x12, lsl #3
	add	x10, x10, x11
	cmp	x10, #15
	and	x10, x14, #0xf
	add	x11, x12, #848
	csel	x9, x9, x11, eq
	ldr	x9, [x9]
	ldrh	w11, [x9]
	cmp	x10, x11
	b.hs	L(11_276)
	mov	w11, #48
	movi	v0.2d, #0000000000000000
	sub	x0, x29, #256
	umaddl	x20, w10, w11, x9
	add	x2, x8, #8
	mov	w3, wzr
	add	x1, x20, #136
	stp	q0, q0, [x29, #-256]
	bl	"xet_merkle::merkle_hash_subtree::subtree::MerkleHashSubtree::merge_with::<#3cf6a99334775a21>"
	ldurb	w8, [x29, #-256]
	ldurb	w9, [x29, #-255]
	cmp	w8, #0
	csel	w27, wzr, w9, eq
	cbz	w8, L(11_156)
	ldp	x19, x22, [x29, #-64]
	ldur	x21, [x29, #-48]
	cbz	x22, L(11_153)
	add	x23, x19, #32
	b	L(11_129)
L(11_128):
	subs	x22, x22, #1
	add	x23, x23, #56
	b.eq	L(11_153)
L(11_129):
	ldur	x8, [x23, #-16]
	ldr	x20, [x23]
	ldr	x24, [x23, #16]
	cbz	x8, L(11_131)
	ldur	x0, [x23, #-32]
	bl	C(yurewha_heap_dealloc)
L(11_131):
	cbz	x24, L(11_128)
	mov	x0, x20
	bl	C(yurewha_heap_dealloc)
	b	L(11_128)
L(11_133):
	sub	x0, x29, #144
	sub	x3, x29, #80
	mov	x1, x19
	mov	x2, x22
	bl	"std_collections::btree_map::BTreeMap::insert::<#09be7a39fcfa9307>"
	ldurb	w8, [x29, #-144]
	cbz	w8, L(11_145)
	ldp	x19, x21, [x29, #-112]
	ldur	x22, [x29, #-96]
	cbz	x21, L(11_141)
	add	x23, x19, #32
	b	L(11_137)
L(11_136):
	subs	x21, x21, #1
	add	x23, x23, #56
	b.eq	L(11_141)
L(11_137):
	ldur	x8, [x23, #-16]
	ldr	x20, [x23]
	ldr	x24, [x23, #16]
	cbz	x8, L(11_139)
	ldur	x0, [x23, #-32]
	bl	C(yurewha_heap_dealloc)
L(11_139):
	cbz	x24, L(11_136)
	mov	x0, x20
	bl	C(yurewha_heap_dealloc)
	b	L(11_136)
L(11_141):
	cbz	x22, L(11_144)
	mov	x0, x19
L(11_143):
	bl	C(yurewha_heap_dealloc)
L(11_144):
	mov	w27, #2
	b	L(11_3)
L(11_145):
	ldurb	w8, [x29, #-136]
	cmp	x8, #1
	b.ne	L(11_157)
	ldp	x20, x23, [x29, #-112]
	ldur	x26, [x29, #-96]
	cbz	x23, L(11_154)
	add	x27, x20, #32
	b	L(11_149)
L(11_148):
	subs	x23, x23, #1
	add	x27, x27, #56
	b.eq	L(11_154)
L(11_149):
	ldur	x8, [x27, #-16]
	ldr	x22, [x27]
	ldr	x28, [x27, #16]
	cbz	x8, L(11_151)
	ldur	x0, [x27, #-32]
	bl	C(yurewha_heap_dealloc)
L(11_151):
	cbz	x28, L(11_148)
	mov	x0, x22
	bl	C(yurewha_heap_dealloc)
	b	L(11_148)
L(11_153):
	cbnz	x21, L(11_266)
	b	L(11_3)
L(11_154):
	cbz	x26, L(11_157)
	mov	x0, x20
	bl	C(yurewha_heap_dealloc)
	b	L(11_157)
L(11_156):
	stur	x26, [x20, #128]
L(11_157):
	sub	x0, x29, #208
	mov	x1, x19
	mov	x2, x21
	bl	"std_collections::btree_map::BTreeMap::remove::<#0b8f5120abf1300c>"
	ldurb	w8, [x29, #-208]
	cmp	w8, #1
	b.ne	L(11_167)
	ldp	x20, x22, [x29, #-184]
	ldur	x23, [x29, #-168]
	cbz	x22, L(11_165)
	add	x26, x20, #32
	b	L(11_161)
L(11_160):
	subs	x22, x22, #1
	add	x26, x26, #56
	b.eq	L(11_165)
L(11_161):
	ldur	x8, [x26, #-16]
	ldr	x21, [x26]
	ldr	x27, [x26, #16]
	cbz	x8, L(11_163)
	ldur	x0, [x26, #-32]
	bl	C(yurewha_heap_dealloc)
L(11_163):
	cbz	x27, L(11_160)
	mov	x0, x21
	bl	C(yurewha_heap_dealloc)
	b	L(11_160)
L(11_165):
	cbz	x23, L(11_167)
	mov	x0, x20
	bl	C(yurewha_heap_dealloc)
L(11_167):
	cbz	w24, L(11_178)
	ldp	x20, x22, [x29, #-64]
	ldur	x23, [x29, #-48]
	cbz	x22, L(11_175)
	add	x24, x20, #32
	b	L(11_171)
L(11_170):
	subs	x22, x22, #1
	add	x24, x24, #56
	b.eq	L(11_175)
L(11_171):
	ldur	x8, [x24, #-16]
	ldr	x21, [x24]
	ldr	x26, [x24, #16]
	cbz	x8, L(11_173)
	ldur	x0, [x24, #-32]
	bl	C(yurewha_heap_dealloc)
L(11_173):
	cbz	x26, L(11_170)
	mov	x0, x21
	bl	C(yurewha_heap_dealloc)
	b	L(11_170)
L(11_175):
	cbz	x23, L(11_178)
	mov	x0, x20
L(11_177):
	bl	C(yurewha_heap_dealloc)
L(11_178):
	ldr	x8, [x19, #40]
	str	x25, [x19, #24]
	cbz	x8, L(11_180)
	str	xzr, [x19, #40]
L(11_180):
	ldr	x8, [x19, #64]
	mov	w0, wzr
	str	x8, [x19, #56]
	b	L(11_6)
L(11_181):
	cbnz	x23, L(11_253)
	b	L(11_3)
L(11_182):
	ldrb	w8, [x19]
	ldur	q0, [x28, #8]
	ldur	q1, [x28, #24]
	ldur	x9, [x29, #-104]
	cmp	w8, #1
	stp	q0, q1, [x29, #-208]
	stur	x9, [x29, #-176]
	b.ne	L(11_208)
	add	x8, x19, #8
	ldr	x8, [x8]
	mov	x10, x8
	ldrh	w11, [x10], #8
	cbnz	x11, L(11_187)
L(11_184):
	mov	x9, xzr
L(11_185):
	ldrh	w10, [x8, #2]
	cbz	w10, L(11_208)
	add	x8, x8, x9
	add	x8, x8, #848
	ldr	x8, [x8]
	mov	x10, x8
	ldrh	w11, [x10], #8
	cbz	x11, L(11_184)
L(11_187):
	lsl	x11, x11, #3
	mov	x9, xzr
	add	x2, x8, #136
L(11_188):
	ldr	x12, [x10, x9]
	cmp	x23, x12
	mov	w12, #2
	csel	w12, wzr, w12, lo
	csinc	w12, w12, wzr, ne
	cmp	w12, #2
	b.ne	L(11_191)
	add	x9, x9, #8
	add	x2, x2, #48
	cmp	x11, x9
	b.ne	L(11_188)
	mov	x9, x11
	b	L(11_185)
L(11_191):
	cbz	w12, L(11_185)
	movi	v0.2d, #0000000000000000
	sub	x0, x29, #80
	sub	x1, x29, #208
	mov	w3, wzr
	stp	q0, q0, [x29, #-80]
	bl	"xet_merkle::merkle_hash_subtree::subtree::MerkleHashSubtree::merge_with::<#3cf6a99334775a21>"
	ldurb	w8, [x29, #-80]
	ldurb	w9, [x29, #-79]
	cmp	w8, #0
	csel	w27, wzr, w9, eq
	cbz	w8, L(11_208)
	ldp	x19, x22, [x29, #-200]
	ldur	x20, [x29, #-184]
	cbz	x22, L(11_216)
	add	x23, x19, #32
	b	L(11_196)
L(11_195):
	subs	x22, x22, #1
	add	x23, x23, #56
	b.eq	L(11_216)
L(11_196):
	ldur	x8, [x23, #-16]
	ldr	x21, [x23]
	ldr	x24, [x23, #16]
	cbz	x8, L(11_198)
	ldur	x0, [x23, #-32]
	bl	C(yurewha_heap_dealloc)
L(11_198):
	cbz	x24, L(11_195)
	mov	x0, x21
	bl	C(yurewha_heap_dealloc)
	b	L(11_195)
L(11_200):
	ldur	q0, [x28, #72]
	ldur	q1, [x28, #88]
	sub	x0, x29, #144
	ldur	x8, [x29, #-40]
	sub	x3, x29, #256
	mov	x1, x19
	mov	x2, x22
	stur	q0, [x20, #152]
	stur	q1, [x20, #168]
	stur	x21, [x29, #-256]
	stur	x8, [x29, #-216]
	bl	"std_collections::btree_map::BTreeMap::insert::<#09be7a39fcfa9307>"
	ldurb	w8, [x29, #-144]
	cbz	w8, L(11_236)
	ldp	x19, x20, [x29, #-112]
	mov	x25, x23
	ldur	x22, [x29, #-96]
	cbz	x20, L(11_225)
	add	x23, x19, #32
	b	L(11_204)
L(11_203):
	subs	x20, x20, #1
	add	x23, x23, #56
	b.eq	L(11_225)
L(11_204):
	ldur	x8, [x23, #-16]
	ldr	x21, [x23]
	ldr	x24, [x23, #16]
	cbz	x8, L(11_206)
	ldur	x0, [x23, #-32]
	bl	C(yurewha_heap_dealloc)
L(11_206):
	cbz	x24, L(11_203)
	mov	x0, x21
	bl	C(yurewha_heap_dealloc)
	b	L(11_203)
L(11_208):
	movi	v0.2d, #0000000000000000
	sub	x0, x29, #80
	sub	x1, x29, #208
	add	x2, sp, #216
	mov	w3, wzr
	stp	q0, q0, [x29, #-80]
	bl	"xet_merkle::merkle_hash_subtree::subtree::MerkleHashSubtree::merge_with::<#3cf6a99334775a21>"
	ldurb	w8, [x29, #-80]
	ldurb	w9, [x29, #-79]
	cmp	w8, #0
	csel	w27, wzr, w9, eq
	cbz	w8, L(11_244)
	ldp	x19, x22, [x29, #-200]
	ldur	x20, [x29, #-184]
	cbz	x22, L(11_216)
	add	x23, x19, #32
	b	L(11_212)
L(11_211):
	subs	x22, x22, #1
	add	x23, x23, #56
	b.eq	L(11_216)
L(11_212):
	ldur	x8, [x23, #-16]
	ldr	x21, [x23]
	ldr	x24, [x23, #16]
	cbz	x8, L(11_214)
	ldur	x0, [x23, #-32]
	bl	C(yurewha_heap_dealloc)
L(11_214):
	cbz	x24, L(11_211)
	mov	x0, x21
	bl	C(yurewha_heap_dealloc)
	b	L(11_211)
L(11_216):
	cbz	x20, L(11_218)
	mov	x0, x19
	bl	C(yurewha_heap_dealloc)
L(11_218):
	ldr	x20, [sp, #240]
	cbz	x26, L(11_252)
	ldr	x8, [sp, #40]
	add	x21, x8, #32
	b	L(11_221)
L(11_220):
	subs	x26, x26, #1
	add	x21, x21, #56
	b.eq	L(11_252)
L(11_221):
	ldur	x8, [x21, #-16]
	ldr	x19, [x21]
	ldr	x22, [x21, #16]
	cbz	x8, L(11_223)
	ldur	x0, [x21, #-32]
	bl	C(yurewha_heap_dealloc)
L(11_223):
	cbz	x22, L(11_220)
	mov	x0, x19
	bl	C(yurewha_heap_dealloc)
	b	L(11_220)
L(11_225):
	cbz	x22, L(11_227)
	mov	x0, x19
	bl	C(yurewha_heap_dealloc)
L(11_227):
	cbz	x26, L(11_234)
	ldr	x8, [sp, #40]
	add	x20, x8, #32
	b	L(11_230)
L(11_229):
	subs	x26, x26, #1
	add	x20, x20, #56
	b.eq	L(11_234)
L(11_230):
	ldur	x8, [x20, #-16]
	ldr	x19, [x20]
	ldr	x21, [x20, #16]
	cbz	x8, L(11_232)
	ldur	x0, [x20, #-32]
	bl	C(yurewha_heap_dealloc)
L(11_232):
	cbz	x21, L(11_229)
	mov	x0, x19
	bl	C(yurewha_heap_dealloc)
	b	L(11_229)
L(11_234):
	cbz	x25, L(11_144)
	ldr	x0, [sp, #40]
	b	L(11_143)
L(11_236):
	ldurb	w8, [x29, #-136]
	cmp	x8, #1
	b.ne	L(11_256)
	ldp	x8, x28, [x29, #-112]
	stp	x24, x23, [sp, #16]
	str	x8, [sp, #32]
	ldur	x8, [x29, #-96]
	str	x8, [sp, #8]
	cbz	x28, L(11_254)
	ldr	x8, [sp, #32]
	add	x20, x8, #32
	b	L(11_240)
L(11_239):
	subs	x28, x28, #1
	add	x20, x20, #56
	b.eq	L(11_254)
L(11_240):
	ldur	x8, [x20, #-16]
	ldr	x24, [x20]
	ldr	x23, [x20, #16]
	cbz	x8, L(11_242)
	ldur	x0, [x20, #-32]
	bl	C(yurewha_heap_dealloc)
L(11_242):
	cbz	x23, L(11_239)
	mov	x0, x24
	bl	C(yurewha_heap_dealloc)
	b	L(11_239)
L(11_244):
	ldp	q0, q1, [x29, #-208]
	add	x0, sp, #156
	ldur	x8, [x29, #-176]
	add	x3, sp, #112
	mov	x1, x19
	mov	x2, x23
	mov	x4, x21
	stur	q0, [sp, #165]
	stur	q1, [x20, #21]
	stur	x8, [x20, #37]
	stp	q0, q1, [sp, #112]
	str	x8, [sp, #144]
	bl	"upload_session::runs::Runs::put_before_next::<#ca9445b3ca2ffbf0>"
	ldrb	w8, [sp, #156]
	cbz	w8, L(11_267)
	ldrb	w27, [sp, #157]
	ldr	x20, [sp, #240]
	cbz	x26, L(11_252)
	ldr	x8, [sp, #40]
	add	x21, x8, #32
	b	L(11_248)
L(11_247):
	subs	x26, x26, #1
	add	x21, x21, #56
	b.eq	L(11_252)
L(11_248):
	ldur	x8, [x21, #-16]
	ldr	x19, [x21]
	ldr	x22, [x21, #16]
	cbz	x8, L(11_250)
	ldur	x0, [x21, #-32]
	bl	C(yurewha_heap_dealloc)
L(11_250):
	cbz	x22, L(11_247)
	mov	x0, x19
	bl	C(yurewha_heap_dealloc)
	b	L(11_247)
L(11_252):
	cbz	x20, L(11_3)
L(11_253):
	ldr	x0, [sp, #40]
	bl	C(yurewha_heap_dealloc)
	b	L(11_3)
L(11_254):
	ldp	x24, x23, [sp, #16]
	ldr	x8, [sp, #8]
	cbz	x8, L(11_256)
	ldr	x0, [sp, #32]
	bl	C(yurewha_heap_dealloc)
L(11_256):
	ldr	x8, [sp, #40]
	add	x0, sp, #300
	add	x3, sp, #256
	mov	x1, x19
	mov	x2, x22
	mov	x4, x21
	stp	x27, x8, [sp, #256]
	stp	x26, x23, [sp, #272]
	str	x24, [sp, #288]
	bl	"upload_session::runs::Runs::put_before_next::<#ca9445b3ca2ffbf0>"
	ldrb	w8, [sp, #300]
	cbz	w8, L(11_178)
	ldrb	w27, [sp, #301]
	sub	x0, x29, #208
	mov	x1, x19
	mov	x2, x22
	bl	"std_collections::btree_map::BTreeMap::remove::<#0b8f5120abf1300c>"
	ldurb	w8, [x29, #-208]
	cmp	w8, #1
	b.ne	L(11_3)
	ldp	x19, x21, [x29, #-184]
	ldur	x22, [x29, #-168]
	cbz	x21, L(11_265)
	add	x23, x19, #32
	b	L(11_261)
L(11_260):
	subs	x21, x21, #1
	add	x23, x23, #56
	b.eq	L(11_265)
L(11_261):
	ldur	x8, [x23, #-16]
	ldr	x20, [x23]
	ldr	x24, [x23, #16]
	cbz	x8, L(11_263)
	ldur	x0, [x23, #-32]
	bl	C(yurewha_heap_dealloc)
L(11_263):
	cbz	x24, L(11_260)
	mov	x0, x20
	bl	C(yurewha_heap_dealloc)
	b	L(11_260)
L(11_265):
	cbz	x22, L(11_3)
L(11_266):
	mov	x0, x19
	bl	C(yurewha_heap_dealloc)
	b	L(11_3)
L(11_267):
	ldr	x20, [sp, #240]
	cbz	x26, L(11_274)
	ldr	x8, [sp, #40]
	add	x22, x8, #32
	b	L(11_270)
L(11_269):
	subs	x26, x26, #1
	add	x22, x22, #56
	b.eq	L(11_274)
L(11_270):
	ldur	x8, [x22, #-16]
	ldr	x21, [x22]
	ldr	x23, [x22, #16]
	cbz	x8, L(11_272)
	ldur	x0, [x22, #-32]
	bl	C(yurewha_heap_dealloc)
L(11_272):
	cbz	x23, L(11_269)
	mov	x0, x21
	bl	C(yurewha_heap_dealloc)
	b	L(11_269)
L(11_274):
	cbz	x20, L(11_178)
	ldr	x0, [sp, #40]
	b	L(11_177)
L(11_276):
	brk	#0x1
	SIZE("xetroot_text::placed_pairs::PlacedPairs::end_range::<#ca9445b3ca2ffbf0>")
	.cfi_endproc

CODE(".text.xet_merkle::merkle_hash_subtree::subtree::as_range::MerkleHashSubtreeChunkRange::from_chunks::<#d96a70c1b70ca186>")
	.p2align	2
	TYPE("xet_merkle::merkle_hash_subtree::subtree::as_range::MerkleHashSubtreeChunkRange::from_chunks::<#d96a70c1b70ca186>", function)
"xet_merkle::merkle_hash_subtree::subtree::as_range::MerkleHashSubtreeChunkRange::from_chunks::<#d96a70c1b70ca186>":
	.cfi_startproc
	hint	#25
	.cfi_escape 0x2d
	stp	x29, x30, [sp, #-96]!
	.cfi_def_cfa sp, 96
	.cfi_offset x29, -96
	.cfi_offset x30, -88
	stp	x28, x27, [sp, #16]
	.cfi_offset x27, -72
	.cfi_offset x28, -80
	mov	x29, sp
	.cfi_def_cfa x29, 96
	stp	x26, x25, [sp, #32]
	.cfi_offset x25, -56
	.cfi_offset x26, -64
	stp	x24, x23, [sp, #48]
	.cfi_offset x23, -40
	.cfi_offset x24, -48
	stp	x22, x21, [sp, #64]
	.cfi_offset x21, -24
	.cfi_offset x22, -32
	stp	x20, x19, [sp, #80]
	.cfi_offset x19, -8
	.cfi_offset x20, -16
	sub	sp, sp, #672
	mov	w20, w4
	mov	x22, x3
	mov	x24, x2
	mov	w21, w1
	mov	x19, x0
	mov	x26, xzr
	strh	wzr, [sp, #36]
	str	wzr, [sp, #32]
	strh	wzr, [sp, #44]
	str	wzr, [sp, #40]
	cbz	x3, L(12_4)
	add	x8, x24, #32
	mov	x9, x22
L(12_2):
	ldr	x10, [x8], #40
	cmn	x10, x26
	b.hs	L(12_10)
	subs	x9, x9, #1
	add	x26, x10, x26
	b.ne	L(12_2)
L(12_4):
	mov	w0, #56
	mov	w1, #8
	bl	C(yurewha_heap_alloc)
	tbz	w0, #0, L(12_14)
	movi	v0.2d, #0000000000000000
	mov	x23, x1
	add	x8, sp, #144
	and	x28, x0, #0x1
	sub	x0, x29, #176
	mov	x1, x24
	mov	x2, x22
	mov	w3, w21
	mov	w4, w20
	stp	xzr, xzr, [sp, #48]
	sub	x25, x29, #208
	stp	q0, q0, [x29, #-240]
	stp	q0, q0, [x29, #-208]
	stp	q0, q0, [x29, #-176]
	stur	q0, [x29, #-144]
	stur	xzr, [x29, #-128]
	stp	xzr, xzr, [sp, #408]
	str	xzr, [sp, #424]
	str	xzr, [sp, #400]
	stp	q0, q0, [sp, #272]
	stp	q0, q0, [sp, #304]
	stp	q0, q0, [sp, #336]
	str	q0, [sp, #256]
	stp	xzr, xzr, [sp, #144]
	stur	xzr, [x8, #23]
	stp	q0, q0, [sp, #112]
	stp	q0, q0, [sp, #368]
	str	xzr, [sp, #160]
	stp	xzr, xzr, [sp, #88]
	str	xzr, [sp, #104]
	stp	xzr, xzr, [sp, #64]
	str	xzr, [sp, #80]
	bl	"subtree_levels::split::find_split::<#30d82ebffd2e63ea>"
	ldurb	w8, [x29, #-176]
	cbz	w8, L(12_11)
	ldp	x1, x2, [x29, #-168]
	add	x0, sp, #320
	ldp	x22, x27, [x29, #-152]
	ldp	x24, x25, [x29, #-136]
	bl	"xet_roots::as_node::read_nodes::<#a0ff80199b3a144e>"
	ldrb	w8, [sp, #320]
	cbnz	w8, L(12_12)
	str	x22, [sp, #8]
	ldp	x22, x8, [sp, #328]
	add	x0, sp, #288
	mov	x1, x24
	mov	x2, x25
	stp	x8, x27, [sp, #16]
	ldr	x27, [sp, #344]
	bl	"xet_roots::as_node::read_nodes::<#a0ff80199b3a144e>"
	ldrb	w8, [sp, #288]
	cbz	w8, L(12_24)
	cbz	x27, L(12_12)
	mov	x0, x22
	bl	C(yurewha_heap_dealloc)
	b	L(12_12)
L(12_10):
	mov	w21, wzr
	mov	w20, wzr
	mov	x22, xzr
	mov	x23, xzr
	mov	x24, xzr
	mov	x26, xzr
	mov	w9, #1
	mov	w8, #1
	b	L(12_16)
L(12_11):
	sub	x0, x29, #208
	mov	x1, x24
	mov	x2, x22
	bl	"xet_roots::as_node::read_nodes::<#a0ff80199b3a144e>"
	ldurb	w8, [x29, #-208]
	cbz	w8, L(12_17)
L(12_12):
	mov	x0, x23
L(12_13):
	bl	C(yurewha_heap_dealloc)
L(12_14):
	mov	w21, wzr
	mov	w20, wzr
	mov	x22, xzr
	mov	x23, xzr
	mov	x24, xzr
	mov	x26, xzr
	str	wzr, [sp, #40]
	strh	wzr, [sp, #44]
L(12_15):
	mov	w8, #2
	mov	w9, #1
L(12_16):
	ldr	w10, [sp, #40]
	ldrh	w11, [sp, #44]
	strb	w9, [x19]
	strb	w8, [x19, #1]
	str	w10, [sp, #32]
	strh	w11, [sp, #36]
	strb	wzr, [x19, #2]
	strb	w21, [x19, #8]
	strb	w20, [x19, #9]
	stur	w10, [x19, #10]
	strh	w11, [x19, #14]
	stp	x22, x23, [x19, #16]
	stp	x24, x26, [x19, #32]
	add	sp, sp, #672
	ldp	x20, x19, [sp, #80]
	.cfi_remember_state
	.cfi_restore x19
	.cfi_restore x20
	ldp	x22, x21, [sp, #64]
	.cfi_restore x21
	.cfi_restore x22
	ldp	x24, x23, [sp, #48]
	.cfi_restore x23
	.cfi_restore x24
	ldp	x26, x25, [sp, #32]
	.cfi_restore x25
	.cfi_restore x26
	ldp	x28, x27, [sp, #16]
	.cfi_restore x27
	.cfi_restore x28
	ldp	x29, x30, [sp], #96
	.cfi_def_cfa sp, 0
	.cfi_restore x29
	.cfi_restore x30
	hint	#29
	.cfi_escape 0x2d
	ret
L(12_17):
	.cfi_restore_state
	ldur	x8, [x29, #-184]
	ldur	q0, [x25, #8]
	sub	x0, x29, #240
	add	x1, sp, #408
	add	x2, sp, #352
	stp	x23, xzr, [sp, #408]
	stp	x8, xzr, [sp, #368]
	sub	x8, x29, #24
	str	x28, [sp, #424]
	stp	xzr, xzr, [sp, #392]
	str	q0, [sp, #352]
	str	x8, [sp, #384]
	bl	"subtree_levels::levels::pushed::<#024afdc31600bcbd>"
	ldurb	w8, [x29, #-240]
	cbnz	w8, L(12_14)
	ldp	x22, x23, [x29, #-232]
	ldur	x24, [x29, #-216]
	cbz	x23, L(12_23)
L(12_19):
	mov	x10, xzr
	add	x8, x22, #40
	mov	x9, x23
L(12_20):
	ldur	x11, [x8, #-32]
	ldur	x12, [x8, #-16]
	sub	x12, x11, x12
	cmn	x12, x10
	b.hs	L(12_29)
	ldr	x11, [x8], #56
	add	x10, x12, x10
	cmn	x11, x10
	b.hs	L(12_29)
	subs	x9, x9, #1
	add	x10, x11, x10
	b.ne	L(12_20)
L(12_23):
	mov	w9, wzr
	mov	w8, wzr
	strh	wzr, [sp, #44]
	str	wzr, [sp, #40]
	b	L(12_16)
L(12_24):
	add	x8, sp, #144
	add	x0, sp, #256
	add	x1, sp, #232
	ldur	q0, [x8, #152]
	ldr	x8, [sp, #312]
	add	x2, sp, #176
	stp	x23, xzr, [sp, #232]
	str	x8, [sp, #224]
	ldr	x8, [sp, #16]
	str	x28, [sp, #248]
	str	q0, [sp, #208]
	stp	x22, x8, [sp, #176]
	stp	x27, xzr, [sp, #192]
	bl	"subtree_levels::levels::pushed::<#024afdc31600bcbd>"
	ldrb	w8, [sp, #256]
	cbnz	w8, L(12_14)
	mov	x8, #-6148914691236517206
	ldr	x10, [sp, #24]
	ldr	x23, [sp, #280]
	movk	x8, #43691
	ldp	x27, x25, [sp, #264]
	umulh	x8, x10, x8
	stp	xzr, xzr, [x29, #-112]
	stur	xzr, [x29, #-96]
	lsr	x8, x8, #1
	add	x9, x8, x8, lsl #1
	cmp	x10, x9
	cinc	x28, x8, ne
	cbz	x28, L(12_38)
	mov	x8, #3689348814741910323
	movk	x8, #819, lsl #48
	cmp	x28, x8
	b.hi	L(12_74)
	add	x8, x28, x28, lsl #2
	mov	w1, #8
	lsl	x0, x8, #3
	bl	C(yurewha_heap_alloc)
	tbz	w0, #0, L(12_74)
	mov	x24, x1
	b	L(12_39)
L(12_29):
	add	x21, x22, #32
	b	L(12_31)
L(12_30):
	subs	x23, x23, #1
	add	x21, x21, #56
	b.eq	L(12_35)
L(12_31):
	ldur	x8, [x21, #-16]
	ldr	x20, [x21]
	ldr	x25, [x21, #16]
	cbz	x8, L(12_33)
	ldur	x0, [x21, #-32]
	bl	C(yurewha_heap_dealloc)
L(12_33):
	cbz	x25, L(12_30)
	mov	x0, x20
	bl	C(yurewha_heap_dealloc)
	b	L(12_30)
L(12_35):
	cbz	x24, L(12_37)
	mov	x0, x22
	bl	C(yurewha_heap_dealloc)
L(12_37):
	mov	w21, wzr
	mov	w20, wzr
	mov	x22, xzr
	mov	x23, xzr
	mov	x24, xzr
	mov	x26, xzr
	strh	wzr, [sp, #44]
	str	wzr, [sp, #40]
	b	L(12_15)
L(12_38):
	sub	x24, x29, #24
L(12_39):
	ldr	x9, [sp, #24]
	mov	w8, #576
	str	x23, [sp, #16]
	stp	x24, xzr, [x29, #-88]
	cmp	x9, #576
	stur	x28, [x29, #-72]
	csel	x22, x9, x8, lo
	cbz	x9, L(12_52)
	add	x8, x22, x22, lsl #2
	mov	w1, #8
	lsl	x0, x8, #3
	bl	C(yurewha_heap_alloc)
	tbz	w0, #0, L(12_56)
	ldr	x8, [sp, #24]
	mov	x23, x1
	stur	x1, [x29, #-112]
	stur	x22, [x29, #-96]
	cmp	x8, #577
	b.lo	L(12_62)
	ldr	x22, [sp, #8]
L(12_43):
	mov	x2, xzr
	mov	w24, #576
	mov	x28, x22
	stur	xzr, [x29, #-104]
	b	L(12_46)
L(12_44):
	ldp	x23, x2, [x29, #-112]
L(12_45):
	mov	w8, #40
	ldp	q0, q1, [x29, #-64]
	madd	x8, x2, x8, x23
	ldur	x9, [x29, #-32]
	subs	x24, x24, #1
	add	x2, x2, #1
	add	x28, x28, #40
	stp	q0, q1, [x8]
	str	x9, [x8, #32]
	stur	x2, [x29, #-104]
	b.eq	L(12_48)
L(12_46):
	ldp	q0, q1, [x28]
	ldur	x8, [x29, #-96]
	ldr	x9, [x28, #32]
	cmp	x8, x2
	stp	q0, q1, [x29, #-64]
	stur	x9, [x29, #-32]
	b.ne	L(12_45)
	sub	x0, x29, #112
	mov	w1, #1
	bl	"std_alloc::vec::Vec::grow_amortized::<#1ed62de40e111fb4>"
	cbnz	w0, L(12_44)
	b	L(12_68)
L(12_48):
	sub	x0, x29, #88
	add	x3, sp, #48
	mov	x1, x23
	bl	"xet_roots::aggregated_hashes::push_first_parents::<#135fa06c802d8a86>"
	tst	w0, #0xff
	b.ne	L(12_83)
	mov	w8, #40
	madd	x22, x1, x8, x22
	ldr	x8, [sp, #24]
	sub	x8, x8, x1
	cmp	x8, #576
	str	x8, [sp, #24]
	b.hi	L(12_43)
	ldr	x8, [sp, #24]
	stur	xzr, [x29, #-104]
	cbnz	x8, L(12_63)
	mov	x2, xzr
	b	L(12_53)
L(12_52):
	sub	x8, x29, #24
	mov	x2, xzr
	stur	x22, [x29, #-96]
	stur	x8, [x29, #-112]
L(12_53):
	ldur	x23, [x29, #-112]
	sub	x0, x29, #88
	add	x3, sp, #48
	mov	x1, x23
	bl	"xet_roots::aggregated_hashes::push_parents::<#135fa06c802d8a86>"
	ldur	x8, [x29, #-96]
	and	w9, w0, #0xff
	tbz	w9, #0, L(12_58)
	cbz	x8, L(12_71)
L(12_55):
	mov	x0, x23
	b	L(12_70)
L(12_56):
	ldr	x23, [sp, #16]
	cbz	x28, L(12_74)
	mov	x0, x24
	b	L(12_73)
L(12_58):
	cbz	x8, L(12_60)
	mov	x0, x23
	bl	C(yurewha_heap_dealloc)
L(12_60):
	sub	x8, x29, #208
	add	x9, sp, #144
	add	x0, sp, #112
	ldur	q0, [x8, #120]
	ldur	x8, [x29, #-72]
	add	x1, sp, #88
	add	x2, sp, #64
	add	x5, sp, #48
	mov	w3, w21
	stur	x8, [x9, #23]
	ldr	x9, [sp, #16]
	mov	w4, w20
	stur	q0, [sp, #151]
	stp	x27, x25, [sp, #88]
	str	x9, [sp, #104]
	str	q0, [sp, #64]
	str	x8, [sp, #80]
	bl	"subtree_levels::collapse::collapse::<#a9d92fd6c0d16019>"
	ldrb	w8, [sp, #112]
	cbnz	w8, L(12_14)
	ldp	x22, x23, [sp, #120]
	ldr	x24, [sp, #136]
	cbnz	x23, L(12_19)
	b	L(12_23)
L(12_62):
	ldr	x22, [sp, #8]
	stur	xzr, [x29, #-104]
L(12_63):
	mov	x2, xzr
	b	L(12_65)
L(12_64):
	mov	w8, #40
	ldur	x9, [x29, #-32]
	add	x22, x22, #40
	madd	x8, x2, x8, x23
	ldp	q0, q1, [x29, #-64]
	add	x2, x2, #1
	str	x9, [x8, #32]
	ldr	x9, [sp, #24]
	stp	q0, q1, [x8]
	subs	x9, x9, #1
	stur	x2, [x29, #-104]
	str	x9, [sp, #24]
	b.eq	L(12_53)
L(12_65):
	ldur	x9, [x29, #-96]
	ldp	q1, q0, [x22]
	ldr	x8, [x22, #32]
	cmp	x9, x2
	stur	x8, [x29, #-32]
	stp	q1, q0, [x29, #-64]
	b.ne	L(12_64)
	sub	x0, x29, #112
	mov	w1, #1
	bl	"std_alloc::vec::Vec::grow_amortized::<#1ed62de40e111fb4>"
	cbz	w0, L(12_68)
	ldp	x23, x2, [x29, #-112]
	b	L(12_64)
L(12_68):
	ldur	x8, [x29, #-96]
	cbz	x8, L(12_71)
	ldur	x0, [x29, #-112]
L(12_70):
	bl	C(yurewha_heap_dealloc)
L(12_71):
	ldur	x8, [x29, #-72]
	ldr	x23, [sp, #16]
	cbz	x8, L(12_74)
	ldur	x0, [x29, #-88]
L(12_73):
	bl	C(yurewha_heap_dealloc)
L(12_74):
	cbz	x25, L(12_81)
	add	x21, x27, #32
	b	L(12_77)
L(12_76):
	subs	x25, x25, #1
	add	x21, x21, #56
	b.eq	L(12_81)
L(12_77):
	ldur	x8, [x21, #-16]
	ldr	x20, [x21]
	ldr	x22, [x21, #16]
	cbz	x8, L(12_79)
	ldur	x0, [x21, #-32]
	bl	C(yurewha_heap_dealloc)
L(12_79):
	cbz	x22, L(12_76)
	mov	x0, x20
	bl	C(yurewha_heap_dealloc)
	b	L(12_76)
L(12_81):
	cbz	x23, L(12_14)
	mov	x0, x27
	b	L(12_13)
L(12_83):
	ldur	x8, [x29, #-96]
	cbnz	x8, L(12_55)
	b	L(12_71)
	SIZE("xet_merkle::merkle_hash_subtree::subtree::as_range::MerkleHashSubtreeChunkRange::from_chunks::<#d96a70c1b70ca186>")
	.cfi_endproc

CODE(".text.subtree_levels::split::find_split::<#30d82ebffd2e63ea>")
	.p2align	2
	TYPE("subtree_levels::split::find_split::<#30d82ebffd2e63ea>", function)
"subtree_levels::split::find_split::<#30d82ebffd2e63ea>":
	.cfi_startproc
	stp	x20, x19, [sp, #-16]!
	.cfi_def_cfa sp, 16
	.cfi_offset x19, -8
	.cfi_offset x20, -16
	cmp	x2, #1
	b.hi	L(13_2)
L(13_1):
	movi	v0.2d, #0000000000000000
	str	xzr, [x0, #48]
	stp	q0, q0, [x0, #16]
	str	q0, [x0]
	ldp	x20, x19, [sp], #16
	.cfi_remember_state
	.cfi_def_cfa sp, 0
	.cfi_restore x19
	.cfi_restore x20
	ret
L(13_2):
	.cfi_restore_state
	mov	x8, xzr
	tbnz	w3, #0, L(13_9)
	mov	x9, xzr
	mov	w13, wzr
	mov	w11, wzr
	neg	x10, x2
	add	x12, x1, #24
	b	L(13_5)
L(13_4):
	add	x9, x9, #1
	sub	x8, x8, #1
	cmp	x10, x8
	b.eq	L(13_1)
L(13_5):
	ldrb	w14, [x12], #40
	tst	w14, #0x3
	b.ne	L(13_4)
	sub	x14, x9, #2
	cmp	x14, #5
	cset	w15, lo
	and	w13, w13, w15
	cmp	w13, #1
	b.eq	L(13_8)
	cmp	x14, #5
	mov	x9, xzr
	cset	w13, lo
	and	w13, w11, w13
	mov	w11, #1
	sub	x8, x8, #1
	cmp	x10, x8
	b.ne	L(13_5)
	b	L(13_1)
L(13_8):
	add	x8, x9, x8
	neg	x8, x8
L(13_9):
	add	x9, x8, x8, lsl #2
	lsl	x11, x9, #3
	sub	x9, x2, x8
	add	x10, x1, x11
	tbz	w4, #0, L(13_11)
	mov	x12, x9
	b	L(13_16)
L(13_11):
	cmp	x9, #64
	b.hs	L(13_17)
L(13_12):
	cbz	x9, L(13_1)
	add	x11, x11, x1
	mov	w13, wzr
	mov	x12, xzr
	mov	x14, xzr
	mov	x15, xzr
	mov	w16, wzr
	mov	w17, wzr
	add	x11, x11, #24
L(13_14):
	sub	x2, x15, #2
	ldrb	w3, [x11], #40
	cmp	x2, #5
	sub	x2, x14, x15
	add	x14, x14, #1
	cset	w4, lo
	ands	w5, w16, w4
	and	w4, w17, w4
	orr	w5, w5, w13
	csel	x2, x2, x12, ne
	tst	w3, #0x3
	csel	w13, w13, w5, ne
	csel	x12, x12, x2, ne
	csinc	w17, w17, wzr, ne
	csel	w16, w16, w4, ne
	csinc	x15, xzr, x15, eq
	cmp	x9, x14
	b.ne	L(13_14)
	tbz	w13, #0, L(13_1)
L(13_16):
	mov	w11, #40
	stp	x8, x10, [x0, #16]
	sub	x9, x9, x12
	madd	x8, x12, x11, x10
	mov	w11, #1
	str	x9, [x0, #48]
	stp	x11, x1, [x0]
	stp	x12, x8, [x0, #32]
	ldp	x20, x19, [sp], #16
	.cfi_remember_state
	.cfi_def_cfa sp, 0
	.cfi_restore x19
	.cfi_restore x20
	ret
L(13_17):
	.cfi_restore_state
	mov	w12, #40
	mov	w16, #64
	madd	x12, x2, x12, x1
	add	x12, x12, #24
L(13_18):
	mov	x13, #-40
	sub	x2, x9, x16
	madd	x17, x16, x13, x12
L(13_19):
	cbz	x2, L(13_12)
	mov	x14, x16
	mov	w16, #40
	mov	x13, x2
	madd	x16, x2, x16, x10
	mov	x15, x17
	sub	x2, x2, #1
	sub	x17, x17, #40
	ldurb	w16, [x16, #-16]
	tst	w16, #0x3
	add	x16, x14, #1
	b.ne	L(13_19)
	subs	x16, x9, x13
	b.eq	L(13_25)
	mov	w2, wzr
	mov	x17, xzr
	mov	x3, xzr
	mov	x4, xzr
	mov	w5, wzr
L(13_23):
	sub	x6, x4, #2
	sub	x19, x3, x4
	add	x3, x3, #1
	cmp	x6, #5
	ldrb	w6, [x15], #40
	cset	w7, lo
	tst	w5, w7
	csinc	w20, w2, wzr, eq
	csel	x19, x19, x17, ne
	tst	w6, #0x3
	csel	w2, w2, w20, ne
	csel	x17, x17, x19, ne
	csel	w5, w5, w7, ne
	csinc	x4, xzr, x4, eq
	subs	x14, x14, #1
	b.ne	L(13_23)
	and	w14, w2, #0xff
	cmp	w14, #1
	b.eq	L(13_26)
L(13_25):
	lsl	x13, x16, #1
	cmn	x16, #1
	csinv	x16, x13, xzr, gt
	cmp	x9, x16
	b.hs	L(13_18)
	b	L(13_12)
L(13_26):
	add	x12, x17, x13
	b	L(13_16)
	SIZE("subtree_levels::split::find_split::<#30d82ebffd2e63ea>")
	.cfi_endproc

CODE(".text.xet_roots::as_node::read_nodes::<#a0ff80199b3a144e>")
	.p2align	2
	TYPE("xet_roots::as_node::read_nodes::<#a0ff80199b3a144e>", function)
"xet_roots::as_node::read_nodes::<#a0ff80199b3a144e>":
	.cfi_startproc
	hint	#25
	.cfi_escape 0x2d
	sub	sp, sp, #128
	.cfi_def_cfa sp, 128
	stp	x20, x19, [sp, #112]
	.cfi_offset x19, -8
	.cfi_offset x20, -16
	mov	x19, x0
	stp	x29, x30, [sp, #80]
	.cfi_offset x29, -48
	.cfi_offset x30, -40
	add	x29, sp, #80
	.cfi_def_cfa x29, 48
	str	x21, [sp, #96]
	.cfi_offset x21, -32
	stp	xzr, xzr, [sp, #8]
	str	xzr, [sp, #24]
	cbz	x2, L(14_8)
	mov	x8, #3689348814741910323
	mov	x20, x2
	movk	x8, #819, lsl #48
	cmp	x2, x8
	b.hi	L(14_12)
	add	x8, x20, x20, lsl #2
	mov	x21, x1
	mov	w1, #8
	lsl	x0, x8, #3
	bl	C(yurewha_heap_alloc)
	tbz	w0, #0, L(14_12)
	mov	x8, xzr
	stp	x1, xzr, [sp, #8]
	str	x20, [sp, #24]
	b	L(14_5)
L(14_4):
	mov	w9, #40
	ldp	q0, q1, [sp, #32]
	madd	x9, x8, x9, x1
	ldr	x10, [sp, #64]
	subs	x20, x20, #1
	add	x8, x8, #1
	add	x21, x21, #40
	stp	q0, q1, [x9]
	str	x10, [x9, #32]
	str	x8, [sp, #16]
	b.eq	L(14_9)
L(14_5):
	ldp	q0, q1, [x21]
	ldr	x9, [sp, #24]
	ldr	x10, [x21, #32]
	cmp	x9, x8
	stp	q0, q1, [sp, #32]
	str	x10, [sp, #64]
	b.ne	L(14_4)
	add	x0, sp, #8
	mov	w1, #1
	bl	"std_alloc::vec::Vec::grow_amortized::<#1ed62de40e111fb4>"
	cbz	w0, L(14_10)
	ldp	x1, x8, [sp, #8]
	b	L(14_4)
L(14_8):
	add	x8, x29, #24
	stp	xzr, xzr, [sp, #16]
	str	x8, [sp, #8]
L(14_9):
	ldur	q0, [sp, #8]
	ldr	x8, [sp, #24]
	strb	wzr, [x19]
	stur	q0, [x19, #8]
	str	x8, [x19, #24]
	ldp	x20, x19, [sp, #112]
	.cfi_remember_state
	.cfi_restore x19
	.cfi_restore x20
	ldr	x21, [sp, #96]
	.cfi_restore x21
	ldp	x29, x30, [sp, #80]
	.cfi_def_cfa sp, 128
	.cfi_restore x29
	.cfi_restore x30
	add	sp, sp, #128
	.cfi_def_cfa sp, 0
	hint	#29
	.cfi_escape 0x2d
	ret
L(14_10):
	.cfi_restore_state
	ldr	x8, [sp, #24]
	cbz	x8, L(14_12)
	ldr	x0, [sp, #8]
	bl	C(yurewha_heap_dealloc)
L(14_12):
	mov	w8, #1
	stp	xzr, xzr, [x19, #16]
	strb	w8, [x19]
	str	xzr, [x19, #8]
	ldp	x20, x19, [sp, #112]
	.cfi_remember_state
	.cfi_restore x19
	.cfi_restore x20
	ldr	x21, [sp, #96]
	.cfi_restore x21
	ldp	x29, x30, [sp, #80]
	.cfi_def_cfa sp, 128
	.cfi_restore x29
	.cfi_restore x30
	add	sp, sp, #128
	.cfi_def_cfa sp, 0
	hint	#29
	.cfi_escape 0x2d
	ret
	SIZE("xet_roots::as_node::read_nodes::<#a0ff80199b3a144e>")
	.cfi_endproc

CODE(".text.unlikely.std_alloc::vec::Vec::grow_amortized::<#1ed62de40e111fb4>")
	.p2align	2
	TYPE("std_alloc::vec::Vec::grow_amortized::<#1ed62de40e111fb4>", function)
"std_alloc::vec::Vec::grow_amortized::<#1ed62de40e111fb4>":
	.cfi_startproc
	hint	#25
	.cfi_escape 0x2d
	ldr	x8, [x0, #8]
	cmn	x8, x1
	b.lo	L(15_2)
	mov	w0, wzr
	hint	#29
	.cfi_escape 0x2d
	ret
L(15_2):
	.cfi_escape 0x2d
	stp	x29, x30, [sp, #-32]!
	.cfi_def_cfa sp, 32
	.cfi_offset x29, -32
	.cfi_offset x30, -24
	ldr	x9, [x0, #16]
	add	x10, x8, x1
	mov	w11, #4
	cmp	x10, #4
	stp	x20, x19, [sp, #16]
	.cfi_offset x19, -8
	.cfi_offset x20, -16
	mov	x29, sp
	.cfi_def_cfa x29, 32
	lsl	x12, x9, #1
	csel	x11, x10, x11, hi
	lsr	x13, x9, #62
	cmp	x11, x12
	csel	x10, x11, x12, hi
	cmp	x13, #0
	csel	x19, x10, x11, eq
	mov	x11, #3689348814741910323
	movk	x11, #819, lsl #48
	cmp	x19, x11
	b.hi	L(15_7)
	cbz	x9, L(15_6)
	add	x8, x8, x8, lsl #2
	add	x9, x19, x19, lsl #2
	mov	x20, x0
	ldr	x0, [x0]
	mov	w3, #8
	lsl	x1, x8, #3
	lsl	x2, x9, #3
	bl	C(yurewha_heap_realloc)
	tbz	w0, #0, L(15_7)
L(15_5):
	mov	w0, #1
	str	x1, [x20]
	str	x19, [x20, #16]
	ldp	x20, x19, [sp, #16]
	.cfi_remember_state
	.cfi_restore x19
	.cfi_restore x20
	ldp	x29, x30, [sp], #32
	.cfi_def_cfa sp, 0
	.cfi_restore x29
	.cfi_restore x30
	hint	#29
	.cfi_escape 0x2d
	ret
L(15_6):
	.cfi_restore_state
	add	x8, x10, x10, lsl #2
	mov	x20, x0
	mov	w1, #8
	lsl	x0, x8, #3
	bl	C(yurewha_heap_alloc)
	tbnz	w0, #0, L(15_5)
L(15_7):
	mov	w0, wzr
	ldp	x20, x19, [sp, #16]
	.cfi_remember_state
	.cfi_restore x19
	.cfi_restore x20
	ldp	x29, x30, [sp], #32
	.cfi_def_cfa sp, 0
	.cfi_restore x29
	.cfi_restore x30
	hint	#29
	.cfi_escape 0x2d
	ret
	SIZE("std_alloc::vec::Vec::grow_amortized::<#1ed62de40e111fb4>")
	.cfi_endproc

CODE(".text.subtree_levels::levels::pushed::<#024afdc31600bcbd>")
	.p2align	2
	TYPE("subtree_levels::levels::pushed::<#024afdc31600bcbd>", function)
"subtree_levels::levels::pushed::<#024afdc31600bcbd>":
	.cfi_startproc
	hint	#25
	.cfi_escape 0x2d
	sub	sp, sp, #112
	.cfi_def_cfa sp, 112
	ldr	q0, [x1]
	stp	x26, x25, [sp, #48]
	.cfi_offset x25, -56
	.cfi_offset x26, -64
	ldr	x9, [x1, #16]
	stp	x24, x23, [sp, #64]
	.cfi_offset x23, -40
	.cfi_offset x24, -48
	ldp	x24, x25, [x2, #16]
	str	q0, [sp]
	stp	x22, x21, [sp, #80]
	.cfi_offset x21, -24
	.cfi_offset x22, -32
	ldr	x8, [sp, #8]
	ldr	x22, [x2, #48]
	stp	x20, x19, [sp, #96]
	.cfi_offset x19, -8
	.cfi_offset x20, -16
	mov	x19, x0
	ldp	x21, x23, [x2]
	cmp	x9, x8
	ldp	x20, x26, [x2, #32]
	stp	x29, x30, [sp, #32]
	.cfi_offset x29, -80
	.cfi_offset x30, -72
	add	x29, sp, #32
	.cfi_def_cfa x29, 80
	str	x9, [sp, #16]
	b.eq	L(16_3)
L(16_1):
	mov	w9, #56
	ldr	x10, [sp]
	madd	x9, x8, x9, x10
	add	x8, x8, #1
	str	x8, [sp, #8]
	ldr	x8, [sp, #16]
	ldr	q0, [sp]
	stp	x21, x23, [x9]
	stp	x24, x25, [x9, #16]
	stp	x20, x26, [x9, #32]
	str	x22, [x9, #48]
	strb	wzr, [x19]
	str	x8, [x19, #24]
	stur	q0, [x19, #8]
L(16_2):
	ldp	x20, x19, [sp, #96]
	.cfi_remember_state
	.cfi_restore x19
	.cfi_restore x20
	ldp	x22, x21, [sp, #80]
	.cfi_restore x21
	.cfi_restore x22
	ldp	x24, x23, [sp, #64]
	.cfi_restore x23
	.cfi_restore x24
	ldp	x26, x25, [sp, #48]
	.cfi_restore x25
	.cfi_restore x26
	ldp	x29, x30, [sp, #32]
	.cfi_def_cfa sp, 112
	.cfi_restore x29
	.cfi_restore x30
	add	sp, sp, #112
	.cfi_def_cfa sp, 0
	hint	#29
	.cfi_escape 0x2d
	ret
L(16_3):
	.cfi_restore_state
	mov	x0, sp
	mov	w1, #1
	bl	"std_alloc::vec::Vec::grow_amortized::<#62557648214f1014>"
	cbz	w0, L(16_5)
	ldr	x8, [sp, #8]
	b	L(16_1)
L(16_5):
	cbz	x24, L(16_7)
	mov	x0, x21
	bl	C(yurewha_heap_dealloc)
L(16_7):
	cbz	x22, L(16_9)
	mov	x0, x20
	bl	C(yurewha_heap_dealloc)
L(16_9):
	ldp	x20, x22, [sp]
	ldr	x23, [sp, #16]
	cbz	x22, L(16_16)
	add	x24, x20, #32
	b	L(16_12)
L(16_11):
	subs	x22, x22, #1
	add	x24, x24, #56
	b.eq	L(16_16)
L(16_12):
	ldur	x8, [x24, #-16]
	ldr	x21, [x24]
	ldr	x25, [x24, #16]
	cbz	x8, L(16_14)
	ldur	x0, [x24, #-32]
	bl	C(yurewha_heap_dealloc)
L(16_14):
	cbz	x25, L(16_11)
	mov	x0, x21
	bl	C(yurewha_heap_dealloc)
	b	L(16_11)
L(16_16):
	cbz	x23, L(16_18)
	mov	x0, x20
	bl	C(yurewha_heap_dealloc)
L(16_18):
	mov	w8, #1
	stp	xzr, xzr, [x19, #16]
	strb	w8, [x19]
	str	xzr, [x19, #8]
	b	L(16_2)
	SIZE("subtree_levels::levels::pushed::<#024afdc31600bcbd>")
	.cfi_endproc

CODE(".text.unlikely.std_alloc::vec::Vec::grow_amortized::<#62557648214f1014>")
	.p2align	2
	TYPE("std_alloc::vec::Vec::grow_amortized::<#62557648214f1014>", function)
"std_alloc::vec::Vec::grow_amortized::<#62557648214f1014>":
	.cfi_startproc
	hint	#25
	.cfi_escape 0x2d
	ldr	x8, [x0, #8]
	cmn	x8, x1
	b.lo	L(17_2)
	mov	w0, wzr
	hint	#29
	.cfi_escape 0x2d
	ret
L(17_2):
	.cfi_escape 0x2d
	stp	x29, x30, [sp, #-32]!
	.cfi_def_cfa sp, 32
	.cfi_offset x29, -32
	.cfi_offset x30, -24
	ldr	x9, [x0, #16]
	add	x10, x8, x1
	mov	w11, #4
	cmp	x10, #4
	stp	x20, x19, [sp, #16]
	.cfi_offset x19, -8
	.cfi_offset x20, -16
	mov	x29, sp
	.cfi_def_cfa x29, 32
	lsl	x12, x9, #1
	csel	x11, x10, x11, hi
	lsr	x13, x9, #62
	cmp	x11, x12
	csel	x10, x11, x12, hi
	cmp	x13, #0
	csel	x19, x10, x11, eq
	mov	x11, #37449
	movk	x11, #18724, lsl #16
	movk	x11, #9362, lsl #32
	movk	x11, #585, lsl #48
	cmp	x19, x11
	b.hi	L(17_7)
	cbz	x9, L(17_6)
	lsl	x9, x8, #6
	lsl	x10, x19, #6
	mov	x20, x0
	ldr	x0, [x0]
	mov	w3, #8
	sub	x1, x9, x8, lsl #3
	sub	x2, x10, x19, lsl #3
	bl	C(yurewha_heap_realloc)
	tbz	w0, #0, L(17_7)
L(17_5):
	mov	w0, #1
	str	x1, [x20]
	str	x19, [x20, #16]
	ldp	x20, x19, [sp, #16]
	.cfi_remember_state
	.cfi_restore x19
	.cfi_restore x20
	ldp	x29, x30, [sp], #32
	.cfi_def_cfa sp, 0
	.cfi_restore x29
	.cfi_restore x30
	hint	#29
	.cfi_escape 0x2d
	ret
L(17_6):
	.cfi_restore_state
	lsl	x8, x10, #6
	mov	x20, x0
	mov	w1, #8
	sub	x0, x8, x10, lsl #3
	bl	C(yurewha_heap_alloc)
	tbnz	w0, #0, L(17_5)
L(17_7):
	mov	w0, wzr
	ldp	x20, x19, [sp, #16]
	.cfi_remember_state
	.cfi_restore x19
	.cfi_restore x20
	ldp	x29, x30, [sp], #32
	.cfi_def_cfa sp, 0
	.cfi_restore x29
	.cfi_restore x30
	hint	#29
	.cfi_escape 0x2d
	ret
	SIZE("std_alloc::vec::Vec::grow_amortized::<#62557648214f1014>")
	.cfi_endproc

CODE(".text.xet_roots::aggregated_hashes::push_first_parents::<#135fa06c802d8a86>")
	.p2align	2
	TYPE("xet_roots::aggregated_hashes::push_first_parents::<#135fa06c802d8a86>", function)
"xet_roots::aggregated_hashes::push_first_parents::<#135fa06c802d8a86>":
	.cfi_startproc
	hint	#25
	.cfi_escape 0x2d
	stp	x29, x30, [sp, #-80]!
	.cfi_def_cfa sp, 80
	.cfi_offset x29, -80
	.cfi_offset x30, -72
	str	x28, [sp, #16]
	.cfi_offset x28, -64
	mov	x29, sp
	.cfi_def_cfa x29, 80
	stp	x24, x23, [sp, #32]
	.cfi_offset x23, -40
	.cfi_offset x24, -48
	stp	x22, x21, [sp, #48]
	.cfi_offset x21, -24
	.cfi_offset x22, -32
	stp	x20, x19, [sp, #64]
	.cfi_offset x19, -8
	.cfi_offset x20, -16
	sub	sp, sp, #3072
	str	xzr, [sp]
	sub	sp, sp, #3072
	str	xzr, [sp]
	sub	sp, sp, #3072
	str	xzr, [sp]
	sub	sp, sp, #3072
	str	xzr, [sp]
	sub	sp, sp, #2560
	mov	x22, x2
	mov	x23, x1
	mov	x19, x0
	add	x0, sp, #2560
	mov	w1, wzr
	mov	w2, #2560
	str	xzr, [sp]
	mov	x21, x3
	bl	C(memset)
	mov	x0, sp
	mov	w1, wzr
	mov	w2, #2560
	bl	C(memset)
	movi	v0.2d, #0000000000000000
	add	x0, sp, #2, lsl #12
	mov	w1, wzr
	add	x0, x0, #1536
	mov	w2, #2048
	str	q0, [sp, #12464]
	str	q0, [sp, #12480]
	str	q0, [sp, #12496]
	str	q0, [sp, #12512]
	str	q0, [sp, #12528]
	str	q0, [sp, #12544]
	str	q0, [sp, #12560]
	str	q0, [sp, #12576]
	str	q0, [sp, #12592]
	str	q0, [sp, #12608]
	str	q0, [sp, #12624]
	str	q0, [sp, #12640]
	str	q0, [sp, #12656]
	str	q0, [sp, #12672]
	str	q0, [sp, #12688]
	str	q0, [sp, #12704]
	str	q0, [sp, #12720]
	str	q0, [sp, #12736]
	str	q0, [sp, #12752]
	str	q0, [sp, #12768]
	str	q0, [sp, #12784]
	bl	C(memset)
	add	x0, sp, #1, lsl #12
	mov	w1, wzr
	mov	w2, #2560
	add	x0, x0, #3072
	bl	C(memset)
	add	x0, sp, #1, lsl #12
	mov	w1, wzr
	mov	w2, #2048
	add	x0, x0, #1024
	bl	C(memset)
	add	x8, x29, #24
	str	xzr, [sp, #11784]
	str	x8, [sp, #11776]
	str	x8, [sp, #11792]
	str	xzr, [sp, #11800]
	str	x8, [sp, #11808]
	str	xzr, [sp, #11816]
	str	x8, [sp, #11824]
	str	xzr, [sp, #11832]
	str	x8, [sp, #11840]
	str	xzr, [sp, #11848]
	str	x8, [sp, #11856]
	str	xzr, [sp, #11864]
	str	x8, [sp, #11872]
	str	xzr, [sp, #11880]
	str	x8, [sp, #11888]
	str	xzr, [sp, #11896]
	str	x8, [sp, #11904]
	str	xzr, [sp, #11912]
	str	x8, [sp, #11920]
	str	xzr, [sp, #11928]
	str	x8, [sp, #11936]
	str	xzr, [sp, #11944]
	str	x8, [sp, #11952]
	str	xzr, [sp, #11960]
	str	x8, [sp, #11968]
	str	xzr, [sp, #11976]
	str	x8, [sp, #11984]
	str	xzr, [sp, #11992]
	str	x8, [sp, #12000]
	str	xzr, [sp, #12008]
	str	x8, [sp, #12016]
	str	xzr, [sp, #12024]
	str	x8, [sp, #12032]
	str	xzr, [sp, #12040]
	str	x8, [sp, #12048]
	str	xzr, [sp, #12056]
	str	x8, [sp, #12064]
	str	xzr, [sp, #12072]
	str	x8, [sp, #12080]
	str	xzr, [sp, #12088]
	str	x8, [sp, #12096]
	str	xzr, [sp, #12104]
	str	x8, [sp, #12112]
	str	xzr, [sp, #12120]
	str	x8, [sp, #12128]
	str	xzr, [sp, #12136]
	str	x8, [sp, #12144]
	str	xzr, [sp, #12152]
	str	x8, [sp, #12160]
	str	xzr, [sp, #12168]
	str	x8, [sp, #12176]
	str	xzr, [sp, #12184]
	str	x8, [sp, #12192]
	str	xzr, [sp, #12200]
	str	x8, [sp, #12208]
	str	xzr, [sp, #12216]
	str	x8, [sp, #12224]
	str	xzr, [sp, #12232]
	str	x8, [sp, #12240]
	str	xzr, [sp, #12248]
	str	x8, [sp, #12256]
	str	xzr, [sp, #12264]
	str	x8, [sp, #12272]
	str	xzr, [sp, #12280]
	str	x8, [sp, #12288]
	str	xzr, [sp, #12296]
	str	x8, [sp, #12304]
	str	xzr, [sp, #12312]
	str	x8, [sp, #12320]
	str	xzr, [sp, #12328]
	str	x8, [sp, #12336]
	str	xzr, [sp, #12344]
	str	x8, [sp, #12352]
	str	xzr, [sp, #12360]
	str	x8, [sp, #12368]
	str	xzr, [sp, #12376]
	str	x8, [sp, #12384]
	str	xzr, [sp, #12392]
	str	x8, [sp, #12400]
	str	xzr, [sp, #12408]
	str	x8, [sp, #12416]
	str	xzr, [sp, #12424]
	str	x8, [sp, #12432]
	str	xzr, [sp, #12440]
	str	x8, [sp, #12448]
	str	xzr, [sp, #12456]
	str	x8, [sp, #12464]
	str	xzr, [sp, #12472]
	str	x8, [sp, #12480]
	str	xzr, [sp, #12488]
	str	x8, [sp, #12496]
	str	xzr, [sp, #12504]
	str	x8, [sp, #12512]
	str	xzr, [sp, #12520]
	str	x8, [sp, #12528]
	str	xzr, [sp, #12536]
	str	x8, [sp, #12544]
	str	xzr, [sp, #12552]
	str	x8, [sp, #12560]
	str	xzr, [sp, #12568]
	str	x8, [sp, #12576]
	str	xzr, [sp, #12584]
	str	x8, [sp, #12592]
	str	xzr, [sp, #12600]
	str	x8, [sp, #12608]
	str	xzr, [sp, #12616]
	str	x8, [sp, #12624]
	str	xzr, [sp, #12632]
	str	x8, [sp, #12640]
	str	xzr, [sp, #12648]
	str	x8, [sp, #12656]
	str	xzr, [sp, #12664]
	str	x8, [sp, #12672]
	str	xzr, [sp, #12680]
	str	x8, [sp, #12688]
	str	xzr, [sp, #12696]
	str	x8, [sp, #12704]
	str	xzr, [sp, #12712]
	str	x8, [sp, #12720]
	str	xzr, [sp, #12728]
	str	x8, [sp, #12736]
	str	xzr, [sp, #12744]
	str	x8, [sp, #12752]
	str	xzr, [sp, #12760]
	str	x8, [sp, #12768]
	str	xzr, [sp, #12776]
	str	x8, [sp, #12784]
	str	xzr, [sp, #12792]
	cbz	x22, L(18_25)
	add	x8, sp, #2, lsl #12
	mov	x9, xzr
	mov	x20, xzr
	add	x8, x8, #3584
	add	x8, x8, #8
L(18_2):
	cmp	x22, #9
	mov	w10, #9
	csel	x10, x22, x10, lo
	cmp	x22, #3
	b.lo	L(18_22)
	ldrb	w11, [x23, #104]
	tst	w11, #0x3
	b.eq	L(18_17)
	cmp	x22, #3
	b.eq	L(18_22)
	ldrb	w11, [x23, #144]
	tst	w11, #0x3
	b.eq	L(18_18)
	cmp	x22, #4
	b.eq	L(18_22)
	ldrb	w11, [x23, #184]
	tst	w11, #0x3
	b.eq	L(18_19)
	cmp	x22, #5
	b.eq	L(18_22)
	ldrb	w11, [x23, #224]
	tst	w11, #0x3
	b.eq	L(18_20)
	cmp	x22, #6
	b.eq	L(18_22)
	ldrb	w11, [x23, #264]
	tst	w11, #0x3
	b.eq	L(18_21)
	cmp	x22, #7
	b.eq	L(18_22)
	ldrb	w11, [x23, #304]
	tst	w11, #0x3
	b.eq	L(18_24)
	cmp	x22, #8
	b.eq	L(18_22)
	ldrb	w11, [x23, #344]
	tst	w11, #0x3
	b.ne	L(18_22)
	mov	w10, #9
	cmp	x9, #62
	add	x24, x9, #1
	add	x20, x10, x20
	stp	x23, x10, [x8, #-8]
	b.ls	L(18_23)
	b	L(18_26)
L(18_17):
	mov	w10, #3
	cmp	x9, #62
	add	x24, x9, #1
	add	x20, x10, x20
	stp	x23, x10, [x8, #-8]
	b.ls	L(18_23)
	b	L(18_26)
L(18_18):
	mov	w10, #4
	cmp	x9, #62
	add	x24, x9, #1
	add	x20, x10, x20
	stp	x23, x10, [x8, #-8]
	b.ls	L(18_23)
	b	L(18_26)
L(18_19):
	mov	w10, #5
	cmp	x9, #62
	add	x24, x9, #1
	add	x20, x10, x20
	stp	x23, x10, [x8, #-8]
	b.ls	L(18_23)
	b	L(18_26)
L(18_20):
	mov	w10, #6
	cmp	x9, #62
	add	x24, x9, #1
	add	x20, x10, x20
	stp	x23, x10, [x8, #-8]
	b.ls	L(18_23)
	b	L(18_26)
L(18_21):
	mov	w10, #7
L(18_22):
	cmp	x9, #62
	add	x24, x9, #1
	add	x20, x10, x20
	stp	x23, x10, [x8, #-8]
	b.hi	L(18_26)
L(18_23):
	mov	w9, #40
	sub	x22, x22, x10
	add	x8, x8, #16
	madd	x23, x10, x9, x23
	mov	x9, x24
	cbnz	x22, L(18_2)
	b	L(18_26)
L(18_24):
	mov	w10, #8
	cmp	x9, #62
	add	x24, x9, #1
	add	x20, x10, x20
	stp	x23, x10, [x8, #-8]
	b.ls	L(18_23)
	b	L(18_26)
L(18_25):
	mov	x20, xzr
	mov	x24, xzr
L(18_26):
	add	x0, sp, #3, lsl #12
	mov	w1, wzr
	mov	w2, #2048
	add	x0, x0, #512
	bl	C(memset)
	ldp	x8, x9, [x21]
	add	x0, sp, #3, lsl #12
	add	x1, sp, #2, lsl #12
	add	x0, x0, #512
	mov	x2, x24
	add	x1, x1, #3584
	adds	x8, x8, x24
	cinc	x9, x9, hs
	stp	x8, x9, [x21]
	bl	"xet_roots::groups::parent_hashes"
	add	x0, sp, #1, lsl #12
	add	x1, sp, #3, lsl #12
	mov	w2, #2048
	add	x0, x0, #1024
	add	x1, x1, #512
	bl	C(memcpy)
	add	x0, sp, #2, lsl #12
	add	x1, sp, #1, lsl #12
	mov	w2, #2048
	add	x0, x0, #1536
	add	x1, x1, #1024
	bl	C(memcpy)
	add	x0, sp, #1, lsl #12
	mov	w1, wzr
	mov	w2, #2560
	add	x0, x0, #3072
	bl	C(memset)
	cbz	x24, L(18_38)
	mov	x8, xzr
	b	L(18_30)
L(18_28):
	mov	x10, xzr
L(18_29):
	add	x11, sp, #2, lsl #12
	mov	w9, #40
	add	x12, sp, #1, lsl #12
	add	x11, x11, #1536
	add	x12, x12, #3072
	madd	x9, x8, x9, x12
	add	x11, x11, x8, lsl #5
	add	x8, x8, #1
	cmp	x8, x24
	ldp	q0, q1, [x11]
	str	x10, [x9, #32]
	stp	q0, q1, [x9]
	b.eq	L(18_38)
L(18_30):
	add	x9, sp, #2, lsl #12
	add	x9, x9, #3584
	add	x9, x9, x8, lsl #4
	ldr	x11, [x9, #8]
	cbz	x11, L(18_28)
	ldr	x15, [x9]
	cmp	x11, #1
	b.ne	L(18_33)
	mov	x10, xzr
	mov	x9, x11
	mov	x12, x15
	b	L(18_36)
L(18_33):
	and	x14, x11, #0xfffffffffffffffe
	mov	w9, #40
	mov	x10, xzr
	madd	x12, x14, x9, x15
	mov	x13, xzr
	and	x9, x11, #0x1
	add	x15, x15, #72
	and	x16, x11, #0xfffffffffffffffe
L(18_34):
	ldur	x17, [x15, #-40]
	ldr	x0, [x15], #80
	subs	x16, x16, #2
	add	x10, x17, x10
	add	x13, x0, x13
	b.ne	L(18_34)
	cmp	x11, x14
	add	x10, x13, x10
	b.eq	L(18_29)
L(18_36):
	add	x11, x12, #32
L(18_37):
	ldr	x12, [x11], #40
	subs	x9, x9, #1
	add	x10, x12, x10
	b.ne	L(18_37)
	b	L(18_29)
L(18_38):
	add	x1, sp, #1, lsl #12
	mov	x0, sp
	mov	w2, #2560
	add	x1, x1, #3072
	bl	C(memcpy)
	add	x0, sp, #2560
	mov	x1, sp
	mov	w2, #2560
	add	x23, sp, #2560
	bl	C(memcpy)
	ldp	x8, x21, [x19, #8]
	sub	x9, x21, x8
	cmp	x24, x9
	b.hi	L(18_46)
L(18_39):
	mov	w9, #40
	ldr	x22, [x19]
	madd	x0, x8, x9, x22
	add	x9, x24, x24, lsl #2
	lsl	x2, x9, #3
	sub	x9, x0, x23
	add	x23, x8, x24
	cmp	x9, x2
	b.hs	L(18_43)
	cbz	x24, L(18_44)
	add	x8, sp, #2560
L(18_42):
	ldp	q0, q1, [x8]
	subs	x24, x24, #1
	ldr	x9, [x8, #32]
	add	x8, x8, #40
	stp	q0, q1, [x0]
	str	x9, [x0, #32]
	add	x0, x0, #40
	b.ne	L(18_42)
	b	L(18_44)
L(18_43):
	add	x1, sp, #2560
	bl	C(memcpy)
L(18_44):
	mov	w0, wzr
	stp	x22, x23, [x19]
	str	x21, [x19, #16]
L(18_45):
	mov	x1, x20
	add	sp, sp, #3, lsl #12
	add	sp, sp, #2560
	ldp	x20, x19, [sp, #64]
	.cfi_remember_state
	.cfi_restore x19
	.cfi_restore x20
	ldr	x28, [sp, #16]
	.cfi_restore x28
	ldp	x22, x21, [sp, #48]
	.cfi_restore x21
	.cfi_restore x22
	ldp	x24, x23, [sp, #32]
	.cfi_restore x23
	.cfi_restore x24
	ldp	x29, x30, [sp], #80
	.cfi_def_cfa sp, 0
	.cfi_restore x29
	.cfi_restore x30
	hint	#29
	.cfi_escape 0x2d
	ret
L(18_46):
	.cfi_restore_state
	mov	x0, x19
	mov	x1, x24
	bl	"std_alloc::vec::Vec::grow_amortized::<#1ed62de40e111fb4>"
	cbz	w0, L(18_48)
	ldp	x8, x21, [x19, #8]
	b	L(18_39)
L(18_48):
	mov	x20, xzr
	mov	w0, #1
	b	L(18_45)
	SIZE("xet_roots::aggregated_hashes::push_first_parents::<#135fa06c802d8a86>")
	.cfi_endproc

CODE(".text.xet_roots::groups::parent_hashes")
	.p2align	2
	TYPE("xet_roots::groups::parent_hashes", function)
"xet_roots::groups::parent_hashes":
	.cfi_startproc
	hint	#25
	.cfi_escape 0x2d
	stp	x29, x30, [sp, #-96]!
	.cfi_def_cfa sp, 96
	.cfi_offset x29, -96
	.cfi_offset x30, -88
	sub	x9, sp, #4, lsl #12
	stp	x28, x27, [sp, #16]
	.cfi_offset x27, -72
	.cfi_offset x28, -80
	mov	x29, sp
	.cfi_def_cfa x29, 96
	sub	x9, x9, #2048
	stp	x26, x25, [sp, #32]
	.cfi_offset x25, -56
	.cfi_offset x26, -64
	stp	x24, x23, [sp, #48]
	.cfi_offset x23, -40
	.cfi_offset x24, -48
	stp	x22, x21, [sp, #64]
	.cfi_offset x21, -24
	.cfi_offset x22, -32
	stp	x20, x19, [sp, #80]
L(19_1):
	.cfi_offset x19, -8
	.cfi_offset x20, -16
	sub	sp, sp, #3072
	cmp	sp, x9
	str	xzr, [sp]
	b.ne	L(19_1)
	sub	sp, sp, #2176
	str	xzr, [sp]
	mov	x21, x2
	mov	x19, x1
	str	x0, [sp, #16]
	add	x0, sp, #4, lsl #12
	mov	w1, wzr
	add	x0, x0, #3576
	mov	w2, #640
	bl	C(memset)
	movi	v0.2d, #0000000000000000
	str	x19, [sp, #24]
	str	q0, [sp, #19872]
	str	q0, [sp, #19888]
	str	q0, [sp, #19904]
	str	q0, [sp, #19920]
	str	q0, [sp, #19936]
	cbz	x21, L(19_6)
	mov	x8, xzr
	add	x9, x19, #8
L(19_4):
	ldr	x10, [x9], #16
	add	x11, sp, #4, lsl #12
	add	x12, sp, #4, lsl #12
	add	x11, x11, #3488
	add	x12, x12, #3576
	ldr	x13, [x11, x10, lsl #3]
	add	x12, x12, x10, lsl #6
	strb	w8, [x12, x13]
	add	x8, x8, #1
	add	x12, x13, #1
	cmp	x21, x8
	str	x12, [x11, x10, lsl #3]
	b.ne	L(19_4)
	ldr	x20, [sp, #19872]
	ldr	x19, [sp, #19880]
	ldr	x28, [sp, #19888]
	ldr	x27, [sp, #19896]
	ldr	x26, [sp, #19904]
	ldr	x25, [sp, #19912]
	ldr	x24, [sp, #19920]
	ldr	x23, [sp, #19928]
	ldr	x22, [sp, #19936]
	ldr	x8, [sp, #19944]
	str	x8, [sp, #8]
	b	L(19_7)
L(19_6):
	str	xzr, [sp, #8]
	mov	x22, xzr
	mov	x23, xzr
	mov	x24, xzr
	mov	x25, xzr
	mov	x26, xzr
	mov	x27, xzr
	mov	x28, xzr
	mov	x19, xzr
	mov	x20, xzr
L(19_7):
	add	x1, sp, #4, lsl #12
	add	x0, sp, #32
	mov	w2, #640
	add	x1, x1, #3576
	bl	C(memcpy)
	add	x0, sp, #4, lsl #12
	add	x1, sp, #32
	mov	w2, #640
	add	x0, x0, #2848
	bl	C(memcpy)
	add	x0, sp, #4, lsl #12
	mov	w1, wzr
	mov	w2, #2048
	add	x0, x0, #800
	bl	C(memset)
	add	x0, sp, #800
	mov	w1, wzr
	mov	w2, #16384
	bl	C(memset)
	movi	v0.2d, #0000000000000000
	mov	x2, xzr
	stp	q0, q0, [sp, #672]
	stp	q0, q0, [sp, #704]
	stp	q0, q0, [sp, #736]
	stp	q0, q0, [sp, #768]
	cbz	x20, L(19_12)
	add	x21, sp, #4, lsl #12
	add	x21, x21, #2848
	b	L(19_10)
L(19_9):
	subs	x20, x20, #1
	b.eq	L(19_12)
L(19_10):
	ldrb	w8, [x21], #1
	add	x9, sp, #672
	str	x8, [x9, x2, lsl #3]
	add	x2, x2, #1
	cmp	x2, #16
	b.ne	L(19_9)
	add	x4, sp, #4, lsl #12
	ldr	x0, [sp, #24]
	add	x1, sp, #672
	add	x3, sp, #800
	add	x4, x4, #800
	bl	"xet_roots::groups::hash_at"
	mov	x2, xzr
	b	L(19_9)
L(19_12):
	cbz	x19, L(19_17)
	add	x8, sp, #4, lsl #12
	ldr	x21, [sp, #24]
	add	x8, x8, #2848
	add	x20, x8, #64
	b	L(19_15)
L(19_14):
	subs	x19, x19, #1
	b.eq	L(19_18)
L(19_15):
	ldrb	w8, [x20], #1
	add	x9, sp, #672
	str	x8, [x9, x2, lsl #3]
	add	x2, x2, #1
	cmp	x2, #16
	b.ne	L(19_14)
	add	x4, sp, #4, lsl #12
	add	x1, sp, #672
	add	x3, sp, #800
	add	x4, x4, #800
	mov	x0, x21
	bl	"xet_roots::groups::hash_at"
	mov	x2, xzr
	b	L(19_14)
L(19_17):
	ldr	x21, [sp, #24]
L(19_18):
	cbz	x28, L(19_23)
	add	x8, sp, #4, lsl #12
	ldr	x20, [sp, #8]
	add	x8, x8, #2848
	add	x19, x8, #128
	b	L(19_21)
L(19_20):
	subs	x28, x28, #1
	b.eq	L(19_24)
L(19_21):
	ldrb	w8, [x19], #1
	add	x9, sp, #672
	str	x8, [x9, x2, lsl #3]
	add	x2, x2, #1
	cmp	x2, #16
	b.ne	L(19_20)
	add	x4, sp, #4, lsl #12
	add	x1, sp, #672
	add	x3, sp, #800
	add	x4, x4, #800
	mov	x0, x21
	bl	"xet_roots::groups::hash_at"
	mov	x2, xzr
	b	L(19_20)
L(19_23):
	ldr	x20, [sp, #8]
L(19_24):
	cbz	x27, L(19_29)
	add	x8, sp, #4, lsl #12
	add	x8, x8, #2848
	add	x19, x8, #192
	b	L(19_27)
L(19_26):
	subs	x27, x27, #1
	b.eq	L(19_29)
L(19_27):
	ldrb	w8, [x19], #1
	add	x9, sp, #672
	str	x8, [x9, x2, lsl #3]
	add	x2, x2, #1
	cmp	x2, #16
	b.ne	L(19_26)
	add	x4, sp, #4, lsl #12
	add	x1, sp, #672
	add	x3, sp, #800
	add	x4, x4, #800
	mov	x0, x21
	bl	"xet_roots::groups::hash_at"
	mov	x2, xzr
	b	L(19_26)
L(19_29):
	cbz	x26, L(19_34)
	add	x8, sp, #4, lsl #12
	add	x8, x8, #2848
	add	x19, x8, #256
	b	L(19_32)
L(19_31):
	subs	x26, x26, #1
	b.eq	L(19_34)
L(19_32):
	ldrb	w8, [x19], #1
	add	x9, sp, #672
	str	x8, [x9, x2, lsl #3]
	add	x2, x2, #1
	cmp	x2, #16
	b.ne	L(19_31)
	add	x4, sp, #4, lsl #12
	add	x1, sp, #672
	add	x3, sp, #800
	add	x4, x4, #800
	mov	x0, x21
	bl	"xet_roots::groups::hash_at"
	mov	x2, xzr
	b	L(19_31)
L(19_34):
	cbz	x25, L(19_39)
	add	x8, sp, #4, lsl #12
	add	x8, x8, #2848
	add	x19, x8, #320
	b	L(19_37)
L(19_36):
	subs	x25, x25, #1
	b.eq	L(19_39)
L(19_37):
	ldrb	w8, [x19], #1
	add	x9, sp, #672
	str	x8, [x9, x2, lsl #3]
	add	x2, x2, #1
	cmp	x2, #16
	b.ne	L(19_36)
	add	x4, sp, #4, lsl #12
	add	x1, sp, #672
	add	x3, sp, #800
	add	x4, x4, #800
	mov	x0, x21
	bl	"xet_roots::groups::hash_at"
	mov	x2, xzr
	b	L(19_36)
L(19_39):
	cbz	x24, L(19_44)
	add	x8, sp, #4, lsl #12
	add	x8, x8, #2848
	add	x19, x8, #384
	b	L(19_42)
L(19_41):
	subs	x24, x24, #1
	b.eq	L(19_44)
L(19_42):
	ldrb	w8, [x19], #1
	add	x9, sp, #672
	str	x8, [x9, x2, lsl #3]
	add	x2, x2, #1
	cmp	x2, #16
	b.ne	L(19_41)
	add	x4, sp, #4, lsl #12
	add	x1, sp, #672
	add	x3, sp, #800
	add	x4, x4, #800
	mov	x0, x21
	bl	"xet_roots::groups::hash_at"
	mov	x2, xzr
	b	L(19_41)
L(19_44):
	cbz	x23, L(19_49)
	add	x8, sp, #4, lsl #12
	add	x8, x8, #2848
	add	x19, x8, #448
	b	L(19_47)
L(19_46):
	subs	x23, x23, #1
	b.eq	L(19_49)
L(19_47):
	ldrb	w8, [x19], #1
	add	x9, sp, #672
	str	x8, [x9, x2, lsl #3]
	add	x2, x2, #1
	cmp	x2, #16
	b.ne	L(19_46)
	add	x4, sp, #4, lsl #12
	add	x1, sp, #672
	add	x3, sp, #800
	add	x4, x4, #800
	mov	x0, x21
	bl	"xet_roots::groups::hash_at"
	mov	x2, xzr
	b	L(19_46)
L(19_49):
	cbz	x22, L(19_54)
	add	x8, sp, #4, lsl #12
	add	x8, x8, #2848
	add	x19, x8, #512
	b	L(19_52)
L(19_51):
	subs	x22, x22, #1
	b.eq	L(19_54)
L(19_52):
	ldrb	w8, [x19], #1
	add	x9, sp, #672
	str	x8, [x9, x2, lsl #3]
	add	x2, x2, #1
	cmp	x2, #16
	b.ne	L(19_51)
	add	x4, sp, #4, lsl #12
	add	x1, sp, #672
	add	x3, sp, #800
	add	x4, x4, #800
	mov	x0, x21
	bl	"xet_roots::groups::hash_at"
	mov	x2, xzr
	b	L(19_51)
L(19_54):
	cbz	x20, L(19_59)
	add	x8, sp, #4, lsl #12
	add	x8, x8, #2848
	add	x19, x8, #576
	b	L(19_57)
L(19_56):
	subs	x20, x20, #1
	b.eq	L(19_59)
L(19_57):
	ldrb	w8, [x19], #1
	add	x9, sp, #672
	str	x8, [x9, x2, lsl #3]
	add	x2, x2, #1
	cmp	x2, #16
	b.ne	L(19_56)
	add	x4, sp, #4, lsl #12
	add	x1, sp, #672
	add	x3, sp, #800
	add	x4, x4, #800
	mov	x0, x21
	bl	"xet_roots::groups::hash_at"
	mov	x2, xzr
	b	L(19_56)
L(19_59):
	add	x4, sp, #4, lsl #12
	add	x1, sp, #672
	add	x3, sp, #800
	add	x4, x4, #800
	mov	x0, x21
	bl	"xet_roots::groups::hash_at"
	add	x1, sp, #4, lsl #12
	ldr	x0, [sp, #16]
	mov	w2, #2048
	add	x1, x1, #800
	bl	C(memcpy)
	add	sp, sp, #5, lsl #12
	add	sp, sp, #128
	ldp	x20, x19, [sp, #80]
	.cfi_remember_state
	.cfi_restore x19
	.cfi_restore x20
	ldp	x22, x21, [sp, #64]
	.cfi_restore x21
	.cfi_restore x22
	ldp	x24, x23, [sp, #48]
	.cfi_restore x23
	.cfi_restore x24
	ldp	x26, x25, [sp, #32]
	.cfi_restore x25
	.cfi_restore x26
	ldp	x28, x27, [sp, #16]
	.cfi_restore x27
	.cfi_restore x28
	ldp	x29, x30, [sp], #96
	.cfi_def_cfa sp, 0
	.cfi_restore x29
	.cfi_restore x30
	hint	#29
	.cfi_escape 0x2d
	ret
	SIZE("xet_roots::groups::parent_hashes")
	.cfi_endproc

SIZED(16, 4)
	.p2align	4, 0x0
D(CPI20_0):
	.xword	0
	.xword	1
CODE(".text.xet_roots::groups::hash_at")
	.p2align	2
	TYPE("xet_roots::groups::hash_at", function)
"xet_roots::groups::hash_at":
	.cfi_startproc
	hint	#25
	.cfi_escape 0x2d
	stp	x29, x30, [sp, #-96]!
	.cfi_def_cfa sp, 96
	.cfi_offset x29, -96
	.cfi_offset x30, -88
	stp	x28, x27, [sp, #16]
	.cfi_offset x27, -72
	.cfi_offset x28, -80
	mov	x29, sp
	.cfi_def_cfa x29, 96
	stp	x26, x25, [sp, #32]
	.cfi_offset x25, -56
	.cfi_offset x26, -64
	stp	x24, x23, [sp, #48]
	.cfi_offset x23, -40
	.cfi_offset x24, -48
	stp	x22, x21, [sp, #64]
	.cfi_offset x21, -24
	.cfi_offset x22, -32
	stp	x20, x19, [sp, #80]
	.cfi_offset x19, -8
	.cfi_offset x20, -16
	sub	sp, sp, #3072
	str	xzr, [sp], #-16
	movi	v0.2d, #0000000000000000
	str	q0, [sp, #1328]
	str	q0, [sp, #1312]
	str	q0, [sp, #1296]
	str	q0, [sp, #1280]
	str	q0, [sp, #1264]
	str	q0, [sp, #1248]
	str	q0, [sp, #1232]
	str	q0, [sp, #1216]
	cbz	x2, L(20_27)
	mov	x19, x4
	mov	x22, x3
	mov	x20, x2
	mov	x21, x1
	mov	x23, x0
	mov	x25, xzr
	mov	x24, x3
L(20_2):
	ldr	x8, [x21, x25, lsl #3]
	mov	x0, x24
	add	x8, x23, x8, lsl #4
	ldp	x1, x2, [x8]
	bl	"xet_roots::groups::write_text"
	add	x8, sp, #1216
	add	x24, x24, #1024
	str	x0, [x8, x25, lsl #3]
	add	x25, x25, #1
	cmp	x20, x25
	b.ne	L(20_2)
	movi	v0.2d, #0000000000000000
	mov	x23, xzr
	mov	x24, x22
	str	q0, [sp, #2864]
	str	q0, [sp, #2848]
	str	q0, [sp, #2832]
	str	q0, [sp, #2816]
	str	q0, [sp, #2800]
	str	q0, [sp, #2784]
	str	q0, [sp, #2768]
	str	q0, [sp, #2752]
	str	q0, [sp, #2736]
	str	q0, [sp, #2720]
	str	q0, [sp, #2704]
	str	q0, [sp, #2688]
	str	q0, [sp, #2672]
	str	q0, [sp, #2656]
	str	q0, [sp, #2640]
	str	q0, [sp, #2624]
	str	q0, [sp, #2608]
	str	q0, [sp, #2592]
	str	q0, [sp, #2576]
	str	q0, [sp, #2560]
	str	q0, [sp, #2544]
	str	q0, [sp, #2528]
	str	q0, [sp, #2512]
	str	q0, [sp, #2496]
	str	q0, [sp, #2480]
	str	q0, [sp, #2464]
	str	q0, [sp, #2448]
	str	q0, [sp, #2432]
	str	q0, [sp, #2416]
	str	q0, [sp, #2400]
	str	q0, [sp, #2384]
	str	q0, [sp, #2368]
L(20_4):
	add	x8, sp, #1216
	mov	w10, #1024
	mov	w1, wzr
	ldr	x8, [x8, x23, lsl #3]
	add	x9, x8, #64
	add	x0, x24, x8
	cmp	x9, #1024
	csel	x9, x9, x10, lo
	sub	x2, x9, x8
	bl	C(memset)
	add	x23, x23, #1
	add	x24, x24, #1024
	cmp	x20, x23
	b.ne	L(20_4)
	add	x8, sp, #1344
	add	x9, sp, #2368
	mov	x25, xzr
	add	x27, x8, #64
	add	x8, x9, #16
	str	x8, [sp, #8]
	b	L(20_8)
L(20_6):
	add	x24, x25, #1
	sub	x0, x29, #208
	mov	x1, x23
	add	x3, x22, x24, lsl #10
	ldr	x4, [x10, x24, lsl #3]
	mov	x2, x8
	bl	"keyed_blake3::keyed_hash_two"
	add	x8, sp, #2368
	ldp	q0, q1, [x29, #-208]
	add	x9, x8, x25, lsl #5
	sub	x10, x29, #208
	add	x8, x8, x24, lsl #5
	add	x25, x25, #2
	stp	q0, q1, [x9]
	ldp	q0, q2, [x10, #32]
	stp	q0, q2, [x8]
L(20_7):
	cmp	x25, x20
	b.hs	L(20_18)
L(20_8):
	movi	v0.2d, #0000000000000000
	sub	x9, x20, x25
	add	x23, x22, x25, lsl #10
	cmp	x9, #3
	stp	q0, q0, [x29, #-208]
	stp	q0, q0, [x29, #-176]
	stp	q0, q0, [x29, #-144]
	b.lo	L(20_16)
	add	x8, sp, #1216
	cmp	x9, #4
	mov	w13, #4
	add	x12, x8, x25, lsl #3
	mov	x11, xzr
	mov	x10, xzr
	csel	x26, x9, x13, lo
	str	q0, [sp, #1456]
	str	q0, [sp, #1440]
	str	q0, [sp, #1424]
	str	q0, [sp, #1408]
	str	q0, [sp, #1392]
	str	q0, [sp, #1376]
	str	q0, [sp, #1360]
	str	q0, [sp, #1344]
	str	xzr, [sp, #1864]
	str	xzr, [sp, #1856]
	stp	xzr, xzr, [x29, #-48]
L(20_10):
	ldr	x9, [x12, x10, lsl #3]
	mov	x8, x11
	add	x14, sp, #1856
	cmp	x9, #0
	cset	w13, ne
	sub	x11, x9, x13
	lsr	x13, x11, #6
	and	w11, w11, #0xffffffc0
	str	w13, [x14, x10, lsl #2]
	sub	x14, x29, #48
	sub	w11, w9, w11
	str	w11, [x14, x10, lsl #2]
	cmp	x13, x8
	add	x10, x10, #1
	csel	x11, x13, x8, hi
	cmp	x26, x10
	b.ne	L(20_10)
	adrp	x10, PAGE(D(CPI20_0))
	mov	w11, #2
	cmp	x9, #0
	ldr	q1, [x10, LOW(D(CPI20_0))]
	sub	x10, x26, #1
	movi	v0.2d, #0000000000000000
	stp	x11, x10, [x29, #-96]
	mov	w10, #32257
	mov	x24, xzr
	movk	w10, #51141, lsl #16
	stur	q1, [x29, #-112]
	ldur	q1, [x29, #-48]
	dup	v6.4s, w10
	mov	w10, #18341
	movk	w10, #38441, lsl #16
	stp	q0, q0, [x29, #-48]
	dup	v7.4s, w10
	mov	w10, #38141
	str	q1, [sp, #32]
	movk	w10, #26214, lsl #16
	ldr	q1, [sp, #1856]
	str	q6, [sp, #1856]
	dup	v2.4s, w10
	mov	w10, #35508
	movk	w10, #58882, lsl #16
	str	q1, [sp, #16]
	dup	v3.4s, w10
	mov	w10, #56669
	str	q7, [sp, #1872]
	movk	w10, #28499, lsl #16
	str	q2, [sp, #1888]
	dup	v4.4s, w10
	mov	w10, #50999
	movk	w10, #53869, lsl #16
	str	q3, [sp, #1904]
	dup	v5.4s, w10
	cset	w10, ne
	sub	x9, x9, x10
	mov	w10, #25592
	str	q4, [sp, #1920]
	movk	w10, #58962, lsl #16
	lsr	x9, x9, #6
	dup	v16.4s, w10
	mov	w10, #21322
	str	q5, [sp, #1936]
	movk	w10, #16241, lsl #16
	cmp	x8, x9
	dup	v0.4s, w10
	csel	x8, x8, x9, hi
	add	x28, x8, #1
	str	q16, [sp, #1952]
	str	q0, [sp, #1968]
L(20_12):
	stp	q16, q0, [sp, #64]
	dup	v0.4s, w24
	cmp	w24, #0
	stp	q3, q2, [sp, #160]
	ldp	q2, q3, [sp, #16]
	mov	w8, #16
	mov	w9, #26
	movi	v1.4s, #64
	cinc	w8, w8, eq
	cinc	w9, w9, eq
	stp	q5, q4, [sp, #128]
	cmeq	v4.4s, v2.4s, v0.4s
	dup	v0.4s, w9
	dup	v2.4s, w8
	add	x0, sp, #1856
	sub	x2, x29, #112
	sub	x4, x29, #48
	sub	x5, x29, #64
	sub	x6, x29, #80
	mov	x1, x23
	bit	v1.16b, v3.16b, v4.16b
	bif	v0.16b, v2.16b, v4.16b
	mov	x3, x24
	stp	q7, q6, [sp, #96]
	str	q4, [sp, #48]
	stp	q0, q1, [x29, #-80]
	bl	"keyed_blake3::chunks::take_block::<#8b36ca032ac25711>"
	ldr	q2, [sp, #1888]
	ldr	q17, [sp, #48]
	add	x24, x24, #1
	ldr	q16, [sp, #176]
	ldr	q3, [sp, #1904]
	cmp	x28, x24
	ldr	q4, [sp, #1920]
	ldr	q5, [sp, #1936]
	ldr	q0, [sp, #1856]
	bit	v16.16b, v2.16b, v17.16b
	ldp	q7, q6, [sp, #96]
	ldr	q1, [sp, #1872]
	bit	v6.16b, v0.16b, v17.16b
	ldr	q0, [sp, #1952]
	bit	v7.16b, v1.16b, v17.16b
	str	q16, [sp, #176]
	ldr	q1, [sp, #1968]
	ldp	q16, q2, [sp, #160]
	bit	v16.16b, v3.16b, v17.16b
	str	q16, [sp, #160]
	ldp	q16, q3, [sp, #144]
	bit	v16.16b, v4.16b, v17.16b
	str	q16, [sp, #144]
	ldp	q16, q4, [sp, #128]
	bit	v16.16b, v5.16b, v17.16b
	str	q16, [sp, #128]
	ldr	q16, [sp, #64]
	ldr	q5, [sp, #128]
	bit	v16.16b, v0.16b, v17.16b
	ldr	q0, [sp, #80]
	bit	v0.16b, v1.16b, v17.16b
	b.ne	L(20_12)
	ldr	x8, [sp, #8]
	mov	x9, x27
	mov	x10, x26
	str	q6, [sp, #1344]
	add	x8, x8, x25, lsl #5
	str	q7, [sp, #1360]
	str	q2, [sp, #1376]
	str	q3, [sp, #1392]
	str	q4, [sp, #1408]
	str	q5, [sp, #1424]
	str	q16, [sp, #1440]
	str	q0, [sp, #1456]
L(20_14):
	ldur	w11, [x9, #-64]
	ldur	w12, [x9, #-48]
	subs	x10, x10, #1
	ldur	w13, [x9, #-32]
	stp	w11, w12, [x8, #-16]
	ldur	w11, [x9, #-16]
	ldr	w12, [x9]
	stp	w13, w11, [x8, #-8]
	ldr	w13, [x9, #16]
	ldr	w11, [x9, #32]
	stp	w12, w13, [x8]
	ldr	w12, [x9, #48]
	add	x9, x9, #4
	stp	w11, w12, [x8, #8]
	add	x8, x8, #32
	b.ne	L(20_14)
	add	x25, x26, x25
	b	L(20_7)
L(20_16):
	add	x10, sp, #1216
	cmp	x9, #1
	ldr	x8, [x10, x25, lsl #3]
	b.ne	L(20_6)
	adrp	x1, PAGE(D(static.16))
	add	x1, x1, LOW(D(static.16))
	sub	x0, x29, #144
	mov	x2, x23
	mov	x3, x8
	bl	"keyed_blake3::keyed_hash"
	add	x8, sp, #2368
	ldp	q0, q1, [x29, #-144]
	add	x8, x8, x25, lsl #5
	add	x25, x25, #1
	stp	q0, q1, [x8]
	b	L(20_7)
L(20_18):
	add	x0, sp, #1344
	add	x1, sp, #2368
	mov	w2, #512
	bl	C(memcpy)
	add	x0, sp, #2368
	add	x1, sp, #1344
	mov	w2, #512
	add	x22, sp, #2368
	bl	C(memcpy)
	movi	v0.2d, #0000000000000000
	cmp	x20, #1
	str	q0, [sp, #1856]
	str	q0, [sp, #1872]
	str	q0, [sp, #1888]
	str	q0, [sp, #1904]
	str	q0, [sp, #1920]
	str	q0, [sp, #1936]
	str	q0, [sp, #1952]
	str	q0, [sp, #1968]
	str	q0, [sp, #1984]
	str	q0, [sp, #2000]
	str	q0, [sp, #2016]
	str	q0, [sp, #2032]
	str	q0, [sp, #2048]
	str	q0, [sp, #2064]
	str	q0, [sp, #2080]
	str	q0, [sp, #2096]
	str	q0, [sp, #2112]
	str	q0, [sp, #2128]
	str	q0, [sp, #2144]
	str	q0, [sp, #2160]
	str	q0, [sp, #2176]
	str	q0, [sp, #2192]
	str	q0, [sp, #2208]
	str	q0, [sp, #2224]
	str	q0, [sp, #2240]
	str	q0, [sp, #2256]
	str	q0, [sp, #2272]
	str	q0, [sp, #2288]
	str	q0, [sp, #2304]
	str	q0, [sp, #2320]
	str	q0, [sp, #2336]
	str	q0, [sp, #2352]
	b.ne	L(20_20)
	mov	x8, xzr
	b	L(20_23)
L(20_20):
	and	x8, x20, #0xfffffffffffffffe
	add	x9, sp, #1856
	add	x10, sp, #2368
	and	x11, x20, #0xfffffffffffffffe
L(20_21):
	ldp	q1, q0, [x10, #32]
	subs	x11, x11, #2
	stp	q1, q0, [x9, #32]
	ldp	q2, q0, [x10], #64
	stp	q2, q0, [x9], #64
	b.ne	L(20_21)
	cmp	x20, x8
	b.eq	L(20_25)
L(20_23):
	mov	w9, #16
	orr	x10, x9, x8, lsl #5
	add	x9, sp, #1856
	sub	x8, x20, x8
	add	x9, x9, x10
	add	x10, x22, x10
L(20_24):
	ldp	q0, q1, [x10, #-16]
	subs	x8, x8, #1
	add	x10, x10, #32
	stp	q0, q1, [x9, #-16]
	add	x9, x9, #32
	b.ne	L(20_24)
L(20_25):
	add	x0, sp, #192
	add	x1, sp, #1856
	mov	w2, #512
	bl	C(memcpy)
	add	x0, sp, #704
	add	x1, sp, #192
	mov	w2, #512
	add	x22, sp, #704
	bl	C(memcpy)
L(20_26):
	ldr	x8, [x21], #8
	subs	x20, x20, #1
	ldp	q0, q1, [x22], #32
	add	x8, x19, x8, lsl #5
	stp	q0, q1, [x8]
	b.ne	L(20_26)
L(20_27):
	add	sp, sp, #3088
	ldp	x20, x19, [sp, #80]
	.cfi_remember_state
	.cfi_restore x19
	.cfi_restore x20
	ldp	x22, x21, [sp, #64]
	.cfi_restore x21
	.cfi_restore x22
	ldp	x24, x23, [sp, #48]
	.cfi_restore x23
	.cfi_restore x24
	ldp	x26, x25, [sp, #32]
	.cfi_restore x25
	.cfi_restore x26
	ldp	x28, x27, [sp, #16]
	.cfi_restore x27
	.cfi_restore x28
	ldp	x29, x30, [sp], #96
	.cfi_def_cfa sp, 0
	.cfi_restore x29
	.cfi_restore x30
	hint	#29
	.cfi_escape 0x2d
	ret
	SIZE("xet_roots::groups::hash_at")
	.cfi_endproc

CODE(".text.xet_roots::groups::write_text")
	.p2align	2
	TYPE("xet_roots::groups::write_text", function)
"xet_roots::groups::write_text":
	.cfi_startproc
	hint	#25
	.cfi_escape 0x2d
	cbz	x2, L(21_20)
	sub	sp, sp, #128
	.cfi_def_cfa sp, 128
	stp	x26, x25, [sp, #64]
	.cfi_offset x25, -56
	.cfi_offset x26, -64
	mov	w25, #16960
	mov	w26, #34464
	stp	x24, x23, [sp, #80]
	.cfi_offset x23, -40
	.cfi_offset x24, -48
	mov	w23, #57599
	mov	w24, #38528
	stp	x22, x21, [sp, #96]
	.cfi_offset x21, -24
	.cfi_offset x22, -32
	mov	x21, x0
	mov	x0, xzr
	stp	x20, x19, [sp, #112]
	.cfi_offset x19, -8
	.cfi_offset x20, -16
	mov	x19, x2
	mov	x20, x1
	mov	x22, xzr
	movk	w23, #1525, lsl #16
	movk	w24, #152, lsl #16
	movk	w25, #15, lsl #16
	movk	w26, #1, lsl #16
	stp	x29, x30, [sp, #32]
	.cfi_offset x29, -96
	.cfi_offset x30, -88
	str	x27, [sp, #48]
	.cfi_offset x27, -80
	add	x29, sp, #32
	.cfi_def_cfa x29, 96
	b	L(21_4)
L(21_2):
	ldrh	w9, [x9, w13, uxtw #1]
	sub	x11, x11, #3
	sturh	w9, [x10, #-3]
L(21_3):
	mov	w9, #20
	add	x0, x21, x8
	sub	x2, x9, x11
	add	x9, sp, #8
	add	x1, x9, x11
	add	x27, x2, x8
	bl	C(memcpy)
	add	x22, x22, #1
	add	x0, x27, #1
	mov	w8, #10
	cmp	x22, x19
	strb	w8, [x21, x27]
	b.eq	L(21_19)
L(21_4):
	mov	w8, #40
	movi	v1.16b, #15
	movi	v3.16b, #160
	madd	x9, x22, x8, x20
	movi	v4.16b, #48
	movi	v5.16b, #87
	movi	v16.16b, #10
	movi	v6.16b, #48
	add	x8, x21, x0
	movi	v18.16b, #48
	movi	v19.16b, #87
	adrp	x12, PAGE(D(static.13))
	add	x12, x12, LOW(D(static.13))
	movi	v7.16b, #87
	add	x11, x21, x0
	ldp	q0, q2, [x9]
	ldr	x10, [x9, #32]
	add	x9, x8, #64
	sub	x12, x9, x12
	rev64	v0.16b, v0.16b
	rev64	v2.16b, v2.16b
	cmp	x12, #2
	and	v17.16b, v0.16b, v1.16b
	cmhi	v20.16b, v3.16b, v0.16b
	usra	v4.16b, v0.16b, #4
	usra	v5.16b, v0.16b, #4
	and	v1.16b, v2.16b, v1.16b
	cmhi	v3.16b, v3.16b, v2.16b
	usra	v18.16b, v2.16b, #4
	usra	v19.16b, v2.16b, #4
	cmhi	v0.16b, v16.16b, v17.16b
	orr	v21.16b, v17.16b, v6.16b
	add	v17.16b, v17.16b, v7.16b
	bif	v4.16b, v5.16b, v20.16b
	orr	v2.16b, v1.16b, v6.16b
	mov	v6.16b, v3.16b
	mov	v5.16b, v0.16b
	cmhi	v0.16b, v16.16b, v1.16b
	add	v1.16b, v1.16b, v7.16b
	bsl	v6.16b, v18.16b, v19.16b
	mov	v7.16b, v0.16b
	bsl	v5.16b, v21.16b, v17.16b
	bsl	v7.16b, v2.16b, v1.16b
	st2	{ v4.16b, v5.16b }, [x11], #32
	st2	{ v6.16b, v7.16b }, [x11]
	b.hi	L(21_11)
	mov	w9, #14880
	mov	w11, #32
	strh	w9, [x8, #64]
	strb	w11, [x8, #66]
	add	x8, x23, #1
	adrp	x9, PAGE(D(static.15))
	add	x9, x9, LOW(D(static.15))
	cmp	x10, x8
	add	x8, x0, #67
	b.lo	L(21_12)
L(21_6):
	mov	w11, #19
	stp	xzr, xzr, [sp, #8]
	str	wzr, [sp, #24]
L(21_7):
	mov	x12, x10
	mov	x10, #22859
	mov	w13, #10000
	movk	x10, #14470, lsl #16
	mov	w15, #5243
	cmp	x12, x23
	movk	x10, #50646, lsl #32
	movk	x10, #13421, lsl #48
	umulh	x10, x12, x10
	lsr	x10, x10, #11
	msub	w13, w10, w13, w12
	ubfx	w14, w13, #2, #14
	mul	w14, w14, w15
	mov	w15, #100
	lsr	w14, w14, #17
	msub	w13, w14, w15, w13
	add	x15, sp, #8
	ldrh	w14, [x9, w14, uxtw #1]
	add	x15, x15, x11
	sub	x11, x11, #4
	sturh	w14, [x15, #-3]
	and	x13, x13, #0xffff
	ldrh	w13, [x9, x13, lsl #1]
	sturh	w13, [x15, #-1]
	b.hi	L(21_7)
	cmp	x12, x25
	b.hs	L(21_14)
	cmp	x12, x26
	b.hs	L(21_18)
	add	x9, sp, #8
	orr	w10, w10, #0x30
	strb	w10, [x9, x11]
	b	L(21_3)
L(21_11):
	mov	w8, #32
	mov	w11, #14880
	strb	w8, [x9, #2]
	strh	w11, [x9]
	add	x8, x23, #1
	adrp	x9, PAGE(D(static.15))
	add	x9, x9, LOW(D(static.15))
	cmp	x10, x8
	add	x8, x0, #67
	b.hs	L(21_6)
L(21_12):
	lsr	x11, x10, #4
	cmp	x11, #624
	b.hi	L(21_16)
	cmp	x10, #1000
	mov	w11, #4
	mov	w12, #6
	cinc	x11, x11, lo
	cmp	x10, #100
	csel	x11, x12, x11, lo
	cmp	x10, #10
	mov	w12, #7
	b	L(21_17)
L(21_14):
	ubfx	w13, w10, #2, #14
	mov	w14, #5243
	cmp	x12, x24
	mul	w13, w13, w14
	mov	w14, #100
	lsr	w13, w13, #17
	msub	w10, w13, w14, w10
	and	x10, x10, #0xffff
	ldrh	w14, [x9, x10, lsl #1]
	add	x10, sp, #8
	add	x10, x10, x11
	sturh	w14, [x10, #-1]
	b.hs	L(21_2)
	orr	w9, w13, #0x30
	sub	x11, x11, #2
	sturb	w9, [x10, #-2]
	b	L(21_3)
L(21_16):
	cmp	x10, x24
	mov	w12, #2
	cset	w11, lo
	cmp	x10, x25
	csel	x11, x12, x11, lo
	cmp	x10, x26
	mov	w12, #3
L(21_17):
	csel	x11, x12, x11, lo
	mov	w12, #5977
	mov	w14, #10000
	movk	w12, #53687, lsl #16
	mov	w15, #5243
	mov	w16, #100
	mul	x12, x10, x12
	lsr	x12, x12, #45
	ubfx	w13, w12, #2, #14
	msub	w10, w12, w14, w10
	mul	w13, w13, w15
	ubfx	w14, w10, #2, #14
	lsr	w13, w13, #17
	mul	w14, w14, w15
	msub	w12, w13, w16, w12
	ldrh	w13, [x9, w13, uxtw #1]
	lsr	w14, w14, #17
	and	x12, x12, #0xffff
	msub	w10, w14, w16, w10
	ldrh	w14, [x9, w14, uxtw #1]
	ldrh	w12, [x9, x12, lsl #1]
	orr	x12, x13, x12, lsl #16
	and	x10, x10, #0xffff
	ldrh	w9, [x9, x10, lsl #1]
	orr	x10, x12, x14, lsl #32
	orr	x9, x10, x9, lsl #48
	lsl	x10, x11, #3
	lsr	x9, x9, x10
	sub	x10, x0, x11
	str	x9, [x21, x8]
	add	x27, x10, #75
	add	x22, x22, #1
	add	x0, x27, #1
	mov	w8, #10
	cmp	x22, x19
	strb	w8, [x21, x27]
	b.ne	L(21_4)
	b	L(21_19)
L(21_18):
	ldrh	w9, [x9, x10, lsl #1]
	add	x10, sp, #8
	add	x10, x10, x11
	sub	x11, x11, #1
	sturh	w9, [x10, #-1]
	b	L(21_3)
L(21_19):
	ldp	x20, x19, [sp, #112]
	.cfi_remember_state
	.cfi_restore x19
	.cfi_restore x20
	ldr	x27, [sp, #48]
	.cfi_restore x27
	ldp	x22, x21, [sp, #96]
	.cfi_restore x21
	.cfi_restore x22
	ldp	x24, x23, [sp, #80]
	.cfi_restore x23
	.cfi_restore x24
	ldp	x26, x25, [sp, #64]
	.cfi_restore x25
	.cfi_restore x26
	ldp	x29, x30, [sp, #32]
	.cfi_def_cfa sp, 128
	.cfi_restore x29
	.cfi_restore x30
	add	sp, sp, #128
	.cfi_def_cfa sp, 0
	hint	#29
	.cfi_escape 0x2d
	ret
L(21_20):
	.cfi_escape 0x2d
	mov	x0, xzr
	hint	#29
	.cfi_escape 0x2d
	ret
	SIZE("xet_roots::groups::write_text")
	.cfi_endproc

SIZED(16, 4)
	.p2align	4, 0x0
D(CPI22_0):
	.byte	1
	.byte	2
	.byte	3
	.byte	0
	.byte	5
	.byte	6
	.byte	7
	.byte	4
	.byte	9
	.byte	10
	.byte	11
	.byte	8
	.byte	13
	.byte	14
	.byte	15
	.byte	12
CODE(".text.keyed_blake3::chunks::take_block::<#8b36ca032ac25711>")
	.p2align	2
	TYPE("keyed_blake3::chunks::take_block::<#8b36ca032ac25711>", function)
"keyed_blake3::chunks::take_block::<#8b36ca032ac25711>":
	.cfi_startproc
	sub	sp, sp, #336
	.cfi_def_cfa sp, 336
	ldp	x11, x8, [x2, #8]
	add	x12, x1, x3, lsl #6
	ldr	x9, [x2]
	ldr	x13, [x2, #24]
	mov	w14, #44677
	ldp	q18, q23, [x0, #64]
	movk	w14, #47975, lsl #16
	lsl	x10, x9, #10
	lsl	x9, x8, #10
	lsl	x11, x11, #10
	lsl	x8, x13, #10
	add	x13, x12, #16
	stp	d9, d8, [sp, #304]
	.cfi_offset d8, -24
	.cfi_offset d9, -32
	ldr	q0, [x12, x10]
	ldr	q1, [x12, x9]
	ldr	q3, [x12, x11]
	ldr	q5, [x12, x8]
	ldp	q21, q26, [x0, #32]
	zip1	v2.4s, v0.4s, v1.4s
	zip2	v4.4s, v0.4s, v1.4s
	ldr	q0, [x13, x10]
	zip1	v16.4s, v3.4s, v5.4s
	ldr	q1, [x13, x9]
	zip2	v20.4s, v3.4s, v5.4s
	ldr	q3, [x13, x11]
	ldr	q5, [x13, x8]
	ldr	q30, [x5]
	zip1	v6.4s, v0.4s, v1.4s
	zip2	v7.4s, v0.4s, v1.4s
	mov	w13, #58983
	zip1	v17.4s, v3.4s, v5.4s
	zip2	v19.4s, v3.4s, v5.4s
	movk	w13, #27145, lsl #16
	ldp	q0, q5, [x0]
	zip1	v3.4s, v2.4s, v16.4s
	zip1	v1.4s, v4.4s, v20.4s
	ldp	q24, q28, [x0, #96]
	stp	d11, d10, [sp, #288]
	.cfi_offset d10, -40
	.cfi_offset d11, -48
	add	v22.4s, v0.4s, v18.4s
	add	v25.4s, v5.4s, v23.4s
	zip1	v0.4s, v6.4s, v17.4s
	zip1	v5.4s, v7.4s, v19.4s
	add	v21.4s, v21.4s, v24.4s
	stp	d13, d12, [sp, #272]
	.cfi_offset d12, -56
	.cfi_offset d13, -64
	stp	q1, q3, [sp, #112]
	add	v29.4s, v22.4s, v3.4s
	add	v25.4s, v25.4s, v1.4s
	add	v22.4s, v26.4s, v28.4s
	ldp	q26, q27, [x4]
	add	v31.4s, v21.4s, v0.4s
	str	q0, [sp, #176]
	zip2	v0.4s, v4.4s, v20.4s
	zip2	v3.4s, v2.4s, v16.4s
	add	v8.4s, v22.4s, v5.4s
	zip2	v4.4s, v6.4s, v17.4s
	zip2	v1.4s, v7.4s, v19.4s
	eor	v22.16b, v27.16b, v25.16b
	eor	v21.16b, v26.16b, v29.16b
	ldr	q26, [x6]
	eor	v27.16b, v30.16b, v31.16b
	stp	d15, d14, [sp, #256]
	.cfi_offset d14, -72
	.cfi_offset d15, -80
	eor	v26.16b, v26.16b, v8.16b
	add	v17.4s, v25.4s, v0.4s
	add	v7.4s, v29.4s, v3.4s
	rev32	v9.8h, v22.8h
	rev32	v30.8h, v21.8h
	dup	v22.4s, w14
	dup	v21.4s, w13
	mov	w13, #62322
	rev32	v10.8h, v27.8h
	movk	w13, #15470, lsl #16
	mov	w14, #62778
	rev32	v12.8h, v26.8h
	dup	v11.4s, w13
	movk	w14, #42319, lsl #16
	adrp	x13, PAGE(D(CPI22_0))
	add	v27.4s, v9.4s, v22.4s
	add	v26.4s, v30.4s, v21.4s
	dup	v13.4s, w14
	stp	q4, q1, [sp, #144]
	add	v22.4s, v10.4s, v11.4s
	stp	q3, q0, [sp, #224]
	eor	v23.16b, v27.16b, v23.16b
	eor	v11.16b, v26.16b, v18.16b
	add	v21.4s, v12.4s, v13.4s
	str	q5, [sp, #208]
	eor	v2.16b, v22.16b, v24.16b
	str	x30, [sp, #320]
	shl	v24.4s, v23.4s, #20
	shl	v16.4s, v11.4s, #20
	eor	v28.16b, v21.16b, v28.16b
	shl	v29.4s, v2.4s, #20
	usra	v24.4s, v23.4s, #12
	usra	v16.4s, v11.4s, #12
	shl	v13.4s, v28.4s, #20
	add	v23.4s, v31.4s, v4.4s
	add	v31.4s, v8.4s, v1.4s
	ldr	q4, [x13, LOW(D(CPI22_0))]
	usra	v29.4s, v2.4s, #12
	add	x13, x12, #32
	add	x12, x12, #48
	add	v20.4s, v17.4s, v24.4s
	add	v25.4s, v7.4s, v16.4s
	usra	v13.4s, v28.4s, #12
	ldr	q0, [x13, x8]
	ldr	q11, [x12, x10]
	ldr	q14, [x12, x9]
	add	v23.4s, v23.4s, v29.4s
	ldr	q15, [x12, x8]
	eor	v17.16b, v20.16b, v9.16b
	eor	v7.16b, v25.16b, v30.16b
	add	v31.4s, v31.4s, v13.4s
	zip2	v18.4s, v11.4s, v14.4s
	zip1	v14.4s, v11.4s, v14.4s
	eor	v30.16b, v23.16b, v10.16b
	ldr	q10, [x13, x9]
	tbl	v28.16b, { v17.16b }, v4.16b
	tbl	v9.16b, { v7.16b }, v4.16b
	eor	v8.16b, v31.16b, v12.16b
	ldr	q7, [x13, x10]
	ldr	q17, [x13, x11]
	ldr	q12, [x12, x11]
	tbl	v30.16b, { v30.16b }, v4.16b
	tbl	v8.16b, { v8.16b }, v4.16b
	zip2	v5.4s, v12.4s, v15.4s
	zip2	v6.4s, v17.4s, v0.4s
	add	v27.4s, v27.4s, v28.4s
	add	v19.4s, v26.4s, v9.4s
	zip1	v26.4s, v7.4s, v10.4s
	zip2	v10.4s, v7.4s, v10.4s
	zip1	v7.4s, v17.4s, v0.4s
	zip1	v15.4s, v12.4s, v15.4s
	add	v22.4s, v22.4s, v30.4s
	eor	v24.16b, v27.16b, v24.16b
	eor	v16.16b, v19.16b, v16.16b
	add	v17.4s, v21.4s, v8.4s
	zip1	v12.4s, v18.4s, v5.4s
	zip1	v21.4s, v26.4s, v7.4s
	eor	v29.16b, v22.16b, v29.16b
	zip1	v11.4s, v10.4s, v6.4s
	shl	v1.4s, v24.4s, #25
	shl	v2.4s, v16.4s, #25
	eor	v3.16b, v17.16b, v13.16b
	zip1	v13.4s, v14.4s, v15.4s
	shl	v0.4s, v29.4s, #25
	stp	q12, q11, [sp, #80]
	usra	v1.4s, v24.4s, #7
	add	v24.4s, v25.4s, v21.4s
	usra	v2.4s, v16.4s, #7
	add	v16.4s, v31.4s, v12.4s
	shl	v31.4s, v3.4s, #25
	add	v20.4s, v20.4s, v11.4s
	usra	v0.4s, v29.4s, #7
	str	q21, [sp, #192]
	zip2	v21.4s, v26.4s, v7.4s
	add	v25.4s, v24.4s, v1.4s
	zip2	v12.4s, v10.4s, v6.4s
	add	v16.4s, v16.4s, v2.4s
	usra	v31.4s, v3.4s, #7
	add	v3.4s, v23.4s, v13.4s
	add	v20.4s, v20.4s, v0.4s
	str	q13, [sp, #32]
	eor	v24.16b, v25.16b, v8.16b
	eor	v23.16b, v16.16b, v30.16b
	add	v3.4s, v3.4s, v31.4s
	str	q12, [sp]
	eor	v29.16b, v20.16b, v9.16b
	rev32	v8.8h, v24.8h
	ldr	q24, [sp, #208]
	rev32	v30.8h, v23.8h
	eor	v28.16b, v3.16b, v28.16b
	ldr	q23, [sp, #240]
	rev32	v29.8h, v29.8h
	add	v9.4s, v8.4s, v22.4s
	rev32	v28.8h, v28.8h
	zip2	v22.4s, v18.4s, v5.4s
	add	v27.4s, v30.4s, v27.4s
	add	v17.4s, v29.4s, v17.4s
	eor	v1.16b, v9.16b, v1.16b
	eor	v2.16b, v27.16b, v2.16b
	add	v19.4s, v28.4s, v19.4s
	mov	v10.16b, v22.16b
	eor	v5.16b, v17.16b, v0.16b
	zip2	v0.4s, v14.4s, v15.4s
	shl	v6.4s, v1.4s, #20
	stp	q21, q22, [sp, #48]
	shl	v18.4s, v2.4s, #20
	eor	v7.16b, v19.16b, v31.16b
	shl	v26.4s, v5.4s, #20
	usra	v6.4s, v1.4s, #12
	add	v1.4s, v25.4s, v21.4s
	add	v3.4s, v3.4s, v0.4s
	usra	v18.4s, v2.4s, #12
	add	v2.4s, v16.4s, v22.4s
	shl	v16.4s, v7.4s, #20
	usra	v26.4s, v5.4s, #12
	add	v5.4s, v20.4s, v12.4s
	ldp	q14, q22, [sp, #112]
	add	v1.4s, v1.4s, v6.4s
	add	v2.4s, v2.4s, v18.4s
	usra	v16.4s, v7.4s, #12
	add	v5.4s, v5.4s, v26.4s
	eor	v20.16b, v1.16b, v8.16b
	add	v1.4s, v1.4s, v14.4s
	eor	v7.16b, v2.16b, v30.16b
	add	v3.4s, v3.4s, v16.4s
	eor	v25.16b, v5.16b, v29.16b
	add	v5.4s, v5.4s, v23.4s
	tbl	v20.16b, { v20.16b }, v4.16b
	tbl	v7.16b, { v7.16b }, v4.16b
	eor	v28.16b, v3.16b, v28.16b
	tbl	v25.16b, { v25.16b }, v4.16b
	add	v29.4s, v9.4s, v20.4s
	tbl	v28.16b, { v28.16b }, v4.16b
	add	v27.4s, v27.4s, v7.4s
	ldp	q15, q9, [sp, #160]
	add	v17.4s, v17.4s, v25.4s
	eor	v6.16b, v29.16b, v6.16b
	eor	v18.16b, v27.16b, v18.16b
	add	v19.4s, v19.4s, v28.4s
	add	v3.4s, v3.4s, v15.4s
	eor	v26.16b, v17.16b, v26.16b
	add	v2.4s, v2.4s, v9.4s
	shl	v31.4s, v6.4s, #25
	shl	v30.4s, v18.4s, #25
	eor	v16.16b, v19.16b, v16.16b
	shl	v8.4s, v26.4s, #25
	usra	v31.4s, v6.4s, #7
	usra	v30.4s, v18.4s, #7
	shl	v18.4s, v16.4s, #25
	usra	v8.4s, v26.4s, #7
	add	v5.4s, v5.4s, v31.4s
	add	v1.4s, v1.4s, v30.4s
	usra	v18.4s, v16.4s, #7
	add	v3.4s, v3.4s, v8.4s
	eor	v16.16b, v5.16b, v28.16b
	add	v5.4s, v5.4s, v11.4s
	eor	v6.16b, v1.16b, v25.16b
	add	v2.4s, v2.4s, v18.4s
	add	v1.4s, v1.4s, v24.4s
	eor	v7.16b, v3.16b, v7.16b
	add	v3.4s, v3.4s, v22.4s
	mov	v22.16b, v12.16b
	rev32	v16.8h, v16.8h
	rev32	v6.8h, v6.8h
	eor	v20.16b, v2.16b, v20.16b
	add	v2.4s, v2.4s, v0.4s
	rev32	v7.8h, v7.8h
	add	v25.4s, v16.4s, v27.4s
	rev32	v20.8h, v20.8h
	add	v19.4s, v6.4s, v19.4s
	add	v26.4s, v7.4s, v29.4s
	eor	v28.16b, v25.16b, v31.16b
	eor	v27.16b, v19.16b, v30.16b
	add	v17.4s, v20.4s, v17.4s
	eor	v29.16b, v26.16b, v8.16b
	shl	v31.4s, v28.4s, #20
	shl	v30.4s, v27.4s, #20
	eor	v18.16b, v17.16b, v18.16b
	shl	v8.4s, v29.4s, #20
	usra	v31.4s, v28.4s, #12
	usra	v30.4s, v27.4s, #12
	shl	v27.4s, v18.4s, #20
	usra	v8.4s, v29.4s, #12
	add	v5.4s, v5.4s, v31.4s
	add	v1.4s, v1.4s, v30.4s
	usra	v27.4s, v18.4s, #12
	add	v3.4s, v3.4s, v8.4s
	eor	v16.16b, v5.16b, v16.16b
	add	v5.4s, v5.4s, v13.4s
	eor	v6.16b, v1.16b, v6.16b
	add	v2.4s, v2.4s, v27.4s
	eor	v7.16b, v3.16b, v7.16b
	add	v3.4s, v3.4s, v21.4s
	ldr	q21, [sp, #144]
	tbl	v16.16b, { v16.16b }, v4.16b
	tbl	v6.16b, { v6.16b }, v4.16b
	eor	v18.16b, v2.16b, v20.16b
	add	v2.4s, v2.4s, v10.4s
	tbl	v7.16b, { v7.16b }, v4.16b
	ldr	q10, [sp, #192]
	add	v20.4s, v25.4s, v16.4s
	tbl	v18.16b, { v18.16b }, v4.16b
	add	v19.4s, v19.4s, v6.4s
	add	v25.4s, v26.4s, v7.4s
	eor	v28.16b, v20.16b, v31.16b
	eor	v26.16b, v19.16b, v30.16b
	add	v17.4s, v17.4s, v18.4s
	eor	v29.16b, v25.16b, v8.16b
	shl	v31.4s, v28.4s, #25
	shl	v30.4s, v26.4s, #25
	eor	v27.16b, v17.16b, v27.16b
	shl	v8.4s, v29.4s, #25
	usra	v31.4s, v28.4s, #7
	ldr	q28, [sp, #224]
	usra	v30.4s, v26.4s, #7
	shl	v26.4s, v27.4s, #25
	add	v1.4s, v1.4s, v28.4s
	usra	v8.4s, v29.4s, #7
	add	v2.4s, v2.4s, v30.4s
	usra	v26.4s, v27.4s, #7
	add	v1.4s, v1.4s, v31.4s
	add	v5.4s, v5.4s, v8.4s
	eor	v7.16b, v2.16b, v7.16b
	add	v3.4s, v3.4s, v26.4s
	add	v2.4s, v2.4s, v10.4s
	eor	v18.16b, v1.16b, v18.16b
	eor	v6.16b, v5.16b, v6.16b
	add	v1.4s, v1.4s, v12.4s
	ldr	q12, [sp, #80]
	add	v5.4s, v5.4s, v21.4s
	rev32	v7.8h, v7.8h
	eor	v16.16b, v3.16b, v16.16b
	rev32	v18.8h, v18.8h
	rev32	v6.8h, v6.8h
	add	v3.4s, v3.4s, v12.4s
	rev32	v16.8h, v16.8h
	add	v20.4s, v7.4s, v20.4s
	add	v25.4s, v18.4s, v25.4s
	add	v17.4s, v6.4s, v17.4s
	eor	v27.16b, v20.16b, v30.16b
	add	v19.4s, v16.4s, v19.4s
	eor	v28.16b, v25.16b, v31.16b
	eor	v29.16b, v17.16b, v8.16b
	shl	v30.4s, v27.4s, #20
	eor	v26.16b, v19.16b, v26.16b
	shl	v31.4s, v28.4s, #20
	shl	v8.4s, v29.4s, #20
	usra	v30.4s, v27.4s, #12
	shl	v27.4s, v26.4s, #20
	usra	v31.4s, v28.4s, #12
	usra	v8.4s, v29.4s, #12
	add	v2.4s, v2.4s, v30.4s
	usra	v27.4s, v26.4s, #12
	add	v1.4s, v1.4s, v31.4s
	add	v5.4s, v5.4s, v8.4s
	eor	v7.16b, v2.16b, v7.16b
	add	v3.4s, v3.4s, v27.4s
	add	v2.4s, v2.4s, v15.4s
	eor	v18.16b, v1.16b, v18.16b
	eor	v6.16b, v5.16b, v6.16b
	add	v1.4s, v1.4s, v23.4s
	add	v5.4s, v5.4s, v11.4s
	mov	v23.16b, v0.16b
	tbl	v7.16b, { v7.16b }, v4.16b
	eor	v16.16b, v3.16b, v16.16b
	add	v3.4s, v3.4s, v0.4s
	tbl	v18.16b, { v18.16b }, v4.16b
	tbl	v6.16b, { v6.16b }, v4.16b
	ldr	q0, [sp, #224]
	str	q23, [sp, #16]
	tbl	v16.16b, { v16.16b }, v4.16b
	add	v20.4s, v20.4s, v7.4s
	add	v25.4s, v25.4s, v18.4s
	add	v17.4s, v17.4s, v6.4s
	eor	v26.16b, v20.16b, v30.16b
	add	v19.4s, v19.4s, v16.4s
	eor	v28.16b, v25.16b, v31.16b
	eor	v29.16b, v17.16b, v8.16b
	shl	v30.4s, v26.4s, #25
	eor	v27.16b, v19.16b, v27.16b
	shl	v31.4s, v28.4s, #25
	shl	v8.4s, v29.4s, #25
	usra	v30.4s, v26.4s, #7
	shl	v26.4s, v27.4s, #25
	usra	v31.4s, v28.4s, #7
	usra	v8.4s, v29.4s, #7
	add	v1.4s, v1.4s, v30.4s
	usra	v26.4s, v27.4s, #7
	add	v5.4s, v5.4s, v31.4s
	add	v3.4s, v3.4s, v8.4s
	eor	v6.16b, v1.16b, v6.16b
	add	v2.4s, v2.4s, v26.4s
	add	v1.4s, v1.4s, v9.4s
	eor	v16.16b, v5.16b, v16.16b
	eor	v7.16b, v3.16b, v7.16b
	add	v5.4s, v5.4s, v13.4s
	add	v3.4s, v3.4s, v14.4s
	ldr	q9, [sp, #48]
	ldr	q14, [sp, #128]
	rev32	v6.8h, v6.8h
	eor	v18.16b, v2.16b, v18.16b
	add	v2.4s, v2.4s, v12.4s
	rev32	v16.8h, v16.8h
	rev32	v7.8h, v7.8h
	rev32	v18.8h, v18.8h
	add	v19.4s, v6.4s, v19.4s
	add	v20.4s, v16.4s, v20.4s
	add	v25.4s, v7.4s, v25.4s
	eor	v27.16b, v19.16b, v30.16b
	add	v17.4s, v18.4s, v17.4s
	eor	v28.16b, v20.16b, v31.16b
	eor	v29.16b, v25.16b, v8.16b
	shl	v30.4s, v27.4s, #20
	eor	v26.16b, v17.16b, v26.16b
	shl	v31.4s, v28.4s, #20
	shl	v8.4s, v29.4s, #20
	usra	v30.4s, v27.4s, #12
	shl	v27.4s, v26.4s, #20
	usra	v31.4s, v28.4s, #12
	usra	v8.4s, v29.4s, #12
	add	v1.4s, v1.4s, v30.4s
	usra	v27.4s, v26.4s, #12
	add	v5.4s, v5.4s, v31.4s
	add	v3.4s, v3.4s, v8.4s
	eor	v6.16b, v1.16b, v6.16b
	add	v2.4s, v2.4s, v27.4s
	add	v1.4s, v1.4s, v24.4s
	eor	v16.16b, v5.16b, v16.16b
	eor	v7.16b, v3.16b, v7.16b
	add	v5.4s, v5.4s, v9.4s
	add	v3.4s, v3.4s, v22.4s
	mov	v22.16b, v9.16b
	mov	v24.16b, v23.16b
	tbl	v6.16b, { v6.16b }, v4.16b
	eor	v18.16b, v2.16b, v18.16b
	add	v2.4s, v2.4s, v10.4s
	tbl	v16.16b, { v16.16b }, v4.16b
	tbl	v7.16b, { v7.16b }, v4.16b
	mov	v10.16b, v21.16b
	tbl	v18.16b, { v18.16b }, v4.16b
	add	v19.4s, v19.4s, v6.4s
	add	v20.4s, v20.4s, v16.4s
	add	v25.4s, v25.4s, v7.4s
	eor	v26.16b, v19.16b, v30.16b
	add	v17.4s, v17.4s, v18.4s
	eor	v28.16b, v20.16b, v31.16b
	eor	v29.16b, v25.16b, v8.16b
	shl	v30.4s, v26.4s, #25
	eor	v27.16b, v17.16b, v27.16b
	shl	v31.4s, v28.4s, #25
	shl	v8.4s, v29.4s, #25
	usra	v30.4s, v26.4s, #7
	shl	v26.4s, v27.4s, #25
	usra	v31.4s, v28.4s, #7
	usra	v8.4s, v29.4s, #7
	add	v2.4s, v2.4s, v30.4s
	usra	v26.4s, v27.4s, #7
	add	v1.4s, v1.4s, v31.4s
	add	v5.4s, v5.4s, v8.4s
	eor	v7.16b, v2.16b, v7.16b
	add	v3.4s, v3.4s, v26.4s
	add	v2.4s, v2.4s, v0.4s
	eor	v18.16b, v1.16b, v18.16b
	eor	v6.16b, v5.16b, v6.16b
	add	v1.4s, v1.4s, v21.4s
	ldr	q21, [sp, #64]
	add	v5.4s, v5.4s, v14.4s
	rev32	v7.8h, v7.8h
	eor	v16.16b, v3.16b, v16.16b
	rev32	v18.8h, v18.8h
	rev32	v6.8h, v6.8h
	add	v3.4s, v3.4s, v21.4s
	rev32	v16.8h, v16.8h
	add	v20.4s, v7.4s, v20.4s
	add	v25.4s, v18.4s, v25.4s
	add	v17.4s, v6.4s, v17.4s
	eor	v27.16b, v20.16b, v30.16b
	add	v19.4s, v16.4s, v19.4s
	eor	v28.16b, v25.16b, v31.16b
	eor	v29.16b, v17.16b, v8.16b
	shl	v30.4s, v27.4s, #20
	eor	v26.16b, v19.16b, v26.16b
	shl	v31.4s, v28.4s, #20
	shl	v8.4s, v29.4s, #20
	usra	v30.4s, v27.4s, #12
	shl	v27.4s, v26.4s, #20
	usra	v31.4s, v28.4s, #12
	usra	v8.4s, v29.4s, #12
	add	v2.4s, v2.4s, v30.4s
	usra	v27.4s, v26.4s, #12
	add	v1.4s, v1.4s, v31.4s
	add	v5.4s, v5.4s, v8.4s
	eor	v7.16b, v2.16b, v7.16b
	add	v3.4s, v3.4s, v27.4s
	add	v2.4s, v2.4s, v23.4s
	eor	v18.16b, v1.16b, v18.16b
	eor	v6.16b, v5.16b, v6.16b
	add	v1.4s, v1.4s, v11.4s
	add	v5.4s, v5.4s, v13.4s
	ldr	q11, [sp]
	mov	v23.16b, v21.16b
	tbl	v7.16b, { v7.16b }, v4.16b
	eor	v16.16b, v3.16b, v16.16b
	add	v3.4s, v3.4s, v12.4s
	tbl	v18.16b, { v18.16b }, v4.16b
	tbl	v6.16b, { v6.16b }, v4.16b
	tbl	v16.16b, { v16.16b }, v4.16b
	add	v20.4s, v20.4s, v7.4s
	add	v25.4s, v25.4s, v18.4s
	add	v17.4s, v17.4s, v6.4s
	eor	v26.16b, v20.16b, v30.16b
	add	v19.4s, v19.4s, v16.4s
	eor	v28.16b, v25.16b, v31.16b
	eor	v29.16b, v17.16b, v8.16b
	shl	v30.4s, v26.4s, #25
	eor	v27.16b, v19.16b, v27.16b
	shl	v31.4s, v28.4s, #25
	shl	v8.4s, v29.4s, #25
	usra	v30.4s, v26.4s, #7
	shl	v26.4s, v27.4s, #25
	usra	v31.4s, v28.4s, #7
	usra	v8.4s, v29.4s, #7
	add	v1.4s, v1.4s, v30.4s
	usra	v26.4s, v27.4s, #7
	add	v5.4s, v5.4s, v31.4s
	add	v3.4s, v3.4s, v8.4s
	eor	v6.16b, v1.16b, v6.16b
	add	v2.4s, v2.4s, v26.4s
	add	v1.4s, v1.4s, v15.4s
	eor	v16.16b, v5.16b, v16.16b
	eor	v7.16b, v3.16b, v7.16b
	add	v5.4s, v5.4s, v9.4s
	ldr	q9, [sp, #176]
	rev32	v6.8h, v6.8h
	eor	v18.16b, v2.16b, v18.16b
	add	v2.4s, v2.4s, v21.4s
	rev32	v16.8h, v16.8h
	rev32	v7.8h, v7.8h
	ldp	q21, q15, [sp, #192]
	rev32	v18.8h, v18.8h
	add	v19.4s, v6.4s, v19.4s
	add	v20.4s, v16.4s, v20.4s
	add	v25.4s, v7.4s, v25.4s
	eor	v27.16b, v19.16b, v30.16b
	add	v17.4s, v18.4s, v17.4s
	eor	v28.16b, v20.16b, v31.16b
	eor	v29.16b, v25.16b, v8.16b
	shl	v30.4s, v27.4s, #20
	eor	v26.16b, v17.16b, v26.16b
	shl	v31.4s, v28.4s, #20
	shl	v8.4s, v29.4s, #20
	usra	v30.4s, v27.4s, #12
	shl	v27.4s, v26.4s, #20
	usra	v31.4s, v28.4s, #12
	ldr	q28, [sp, #240]
	usra	v8.4s, v29.4s, #12
	add	v3.4s, v3.4s, v28.4s
	add	v1.4s, v1.4s, v30.4s
	usra	v27.4s, v26.4s, #12
	add	v5.4s, v5.4s, v31.4s
	add	v3.4s, v3.4s, v8.4s
	eor	v6.16b, v1.16b, v6.16b
	add	v2.4s, v2.4s, v27.4s
	eor	v16.16b, v5.16b, v16.16b
	add	v5.4s, v5.4s, v11.4s
	add	v1.4s, v1.4s, v9.4s
	eor	v7.16b, v3.16b, v7.16b
	tbl	v6.16b, { v6.16b }, v4.16b
	eor	v18.16b, v2.16b, v18.16b
	tbl	v16.16b, { v16.16b }, v4.16b
	add	v2.4s, v2.4s, v0.4s
	add	v3.4s, v3.4s, v10.4s
	ldr	q10, [sp, #112]
	tbl	v7.16b, { v7.16b }, v4.16b
	tbl	v18.16b, { v18.16b }, v4.16b
	add	v19.4s, v19.4s, v6.4s
	add	v20.4s, v20.4s, v16.4s
	add	v25.4s, v25.4s, v7.4s
	eor	v26.16b, v19.16b, v30.16b
	add	v17.4s, v17.4s, v18.4s
	eor	v28.16b, v20.16b, v31.16b
	eor	v29.16b, v25.16b, v8.16b
	shl	v30.4s, v26.4s, #25
	eor	v27.16b, v17.16b, v27.16b
	shl	v31.4s, v28.4s, #25
	shl	v8.4s, v29.4s, #25
	usra	v30.4s, v26.4s, #7
	shl	v26.4s, v27.4s, #25
	usra	v31.4s, v28.4s, #7
	usra	v8.4s, v29.4s, #7
	add	v2.4s, v2.4s, v30.4s
	usra	v26.4s, v27.4s, #7
	add	v1.4s, v1.4s, v31.4s
	add	v5.4s, v5.4s, v8.4s
	eor	v7.16b, v2.16b, v7.16b
	add	v3.4s, v3.4s, v26.4s
	eor	v18.16b, v1.16b, v18.16b
	add	v2.4s, v2.4s, v15.4s
	add	v1.4s, v1.4s, v14.4s
	eor	v6.16b, v5.16b, v6.16b
	rev32	v7.8h, v7.8h
	eor	v16.16b, v3.16b, v16.16b
	rev32	v18.8h, v18.8h
	add	v5.4s, v5.4s, v10.4s
	add	v3.4s, v3.4s, v21.4s
	rev32	v6.8h, v6.8h
	rev32	v16.8h, v16.8h
	add	v20.4s, v7.4s, v20.4s
	add	v25.4s, v18.4s, v25.4s
	add	v17.4s, v6.4s, v17.4s
	eor	v27.16b, v20.16b, v30.16b
	add	v19.4s, v16.4s, v19.4s
	eor	v28.16b, v25.16b, v31.16b
	eor	v29.16b, v17.16b, v8.16b
	shl	v30.4s, v27.4s, #20
	eor	v26.16b, v19.16b, v26.16b
	shl	v31.4s, v28.4s, #20
	shl	v8.4s, v29.4s, #20
	usra	v30.4s, v27.4s, #12
	shl	v27.4s, v26.4s, #20
	usra	v31.4s, v28.4s, #12
	usra	v8.4s, v29.4s, #12
	add	v2.4s, v2.4s, v30.4s
	usra	v27.4s, v26.4s, #12
	add	v1.4s, v1.4s, v31.4s
	add	v5.4s, v5.4s, v8.4s
	eor	v7.16b, v2.16b, v7.16b
	add	v3.4s, v3.4s, v27.4s
	eor	v18.16b, v1.16b, v18.16b
	add	v1.4s, v1.4s, v13.4s
	add	v2.4s, v2.4s, v12.4s
	eor	v6.16b, v5.16b, v6.16b
	tbl	v7.16b, { v7.16b }, v4.16b
	eor	v16.16b, v3.16b, v16.16b
	tbl	v18.16b, { v18.16b }, v4.16b
	add	v3.4s, v3.4s, v23.4s
	add	v5.4s, v5.4s, v22.4s
	ldr	q23, [sp, #96]
	tbl	v6.16b, { v6.16b }, v4.16b
	tbl	v16.16b, { v16.16b }, v4.16b
	add	v20.4s, v20.4s, v7.4s
	add	v25.4s, v25.4s, v18.4s
	add	v17.4s, v17.4s, v6.4s
	eor	v26.16b, v20.16b, v30.16b
	add	v19.4s, v19.4s, v16.4s
	eor	v28.16b, v25.16b, v31.16b
	eor	v29.16b, v17.16b, v8.16b
	shl	v30.4s, v26.4s, #25
	eor	v27.16b, v19.16b, v27.16b
	shl	v31.4s, v28.4s, #25
	shl	v8.4s, v29.4s, #25
	usra	v30.4s, v26.4s, #7
	shl	v26.4s, v27.4s, #25
	usra	v31.4s, v28.4s, #7
	usra	v8.4s, v29.4s, #7
	add	v1.4s, v1.4s, v30.4s
	usra	v26.4s, v27.4s, #7
	add	v5.4s, v5.4s, v31.4s
	add	v3.4s, v3.4s, v8.4s
	eor	v6.16b, v1.16b, v6.16b
	add	v2.4s, v2.4s, v26.4s
	eor	v16.16b, v5.16b, v16.16b
	add	v1.4s, v1.4s, v24.4s
	add	v5.4s, v5.4s, v11.4s
	ldp	q0, q24, [sp, #224]
	eor	v7.16b, v3.16b, v7.16b
	rev32	v6.8h, v6.8h
	eor	v18.16b, v2.16b, v18.16b
	rev32	v16.8h, v16.8h
	add	v3.4s, v3.4s, v23.4s
	add	v2.4s, v2.4s, v21.4s
	ldr	q23, [sp, #160]
	rev32	v7.8h, v7.8h
	rev32	v18.8h, v18.8h
	add	v19.4s, v6.4s, v19.4s
	add	v20.4s, v16.4s, v20.4s
	add	v25.4s, v7.4s, v25.4s
	eor	v27.16b, v19.16b, v30.16b
	add	v17.4s, v18.4s, v17.4s
	eor	v28.16b, v20.16b, v31.16b
	eor	v29.16b, v25.16b, v8.16b
	shl	v30.4s, v27.4s, #20
	eor	v26.16b, v17.16b, v26.16b
	shl	v31.4s, v28.4s, #20
	shl	v8.4s, v29.4s, #20
	usra	v30.4s, v27.4s, #12
	shl	v27.4s, v26.4s, #20
	usra	v31.4s, v28.4s, #12
	usra	v8.4s, v29.4s, #12
	add	v1.4s, v1.4s, v30.4s
	usra	v27.4s, v26.4s, #12
	add	v5.4s, v5.4s, v31.4s
	add	v3.4s, v3.4s, v8.4s
	eor	v6.16b, v1.16b, v6.16b
	add	v2.4s, v2.4s, v27.4s
	eor	v16.16b, v5.16b, v16.16b
	add	v1.4s, v1.4s, v23.4s
	ldr	q23, [sp, #144]
	eor	v7.16b, v3.16b, v7.16b
	tbl	v6.16b, { v6.16b }, v4.16b
	eor	v18.16b, v2.16b, v18.16b
	tbl	v16.16b, { v16.16b }, v4.16b
	add	v2.4s, v2.4s, v15.4s
	add	v5.4s, v5.4s, v23.4s
	add	v3.4s, v3.4s, v14.4s
	mov	v15.16b, v14.16b
	mov	v14.16b, v11.16b
	tbl	v7.16b, { v7.16b }, v4.16b
	tbl	v18.16b, { v18.16b }, v4.16b
	add	v19.4s, v19.4s, v6.4s
	add	v20.4s, v20.4s, v16.4s
	add	v25.4s, v25.4s, v7.4s
	eor	v26.16b, v19.16b, v30.16b
	add	v17.4s, v17.4s, v18.4s
	eor	v28.16b, v20.16b, v31.16b
	eor	v29.16b, v25.16b, v8.16b
	shl	v30.4s, v26.4s, #25
	eor	v27.16b, v17.16b, v27.16b
	shl	v31.4s, v28.4s, #25
	shl	v8.4s, v29.4s, #25
	usra	v30.4s, v26.4s, #7
	shl	v26.4s, v27.4s, #25
	usra	v31.4s, v28.4s, #7
	usra	v8.4s, v29.4s, #7
	add	v2.4s, v2.4s, v30.4s
	usra	v26.4s, v27.4s, #7
	add	v1.4s, v1.4s, v31.4s
	add	v5.4s, v5.4s, v8.4s
	eor	v7.16b, v2.16b, v7.16b
	add	v3.4s, v3.4s, v26.4s
	eor	v18.16b, v1.16b, v18.16b
	add	v2.4s, v2.4s, v9.4s
	add	v1.4s, v1.4s, v10.4s
	eor	v6.16b, v5.16b, v6.16b
	rev32	v7.8h, v7.8h
	eor	v16.16b, v3.16b, v16.16b
	rev32	v18.8h, v18.8h
	add	v5.4s, v5.4s, v24.4s
	add	v3.4s, v3.4s, v0.4s
	rev32	v6.8h, v6.8h
	rev32	v16.8h, v16.8h
	add	v20.4s, v7.4s, v20.4s
	add	v25.4s, v18.4s, v25.4s
	add	v17.4s, v6.4s, v17.4s
	eor	v27.16b, v20.16b, v30.16b
	add	v19.4s, v16.4s, v19.4s
	eor	v28.16b, v25.16b, v31.16b
	eor	v29.16b, v17.16b, v8.16b
	shl	v30.4s, v27.4s, #20
	eor	v26.16b, v19.16b, v26.16b
	shl	v31.4s, v28.4s, #20
	shl	v8.4s, v29.4s, #20
	usra	v30.4s, v27.4s, #12
	shl	v27.4s, v26.4s, #20
	usra	v31.4s, v28.4s, #12
	usra	v8.4s, v29.4s, #12
	add	v2.4s, v2.4s, v30.4s
	usra	v27.4s, v26.4s, #12
	add	v1.4s, v1.4s, v31.4s
	add	v5.4s, v5.4s, v8.4s
	eor	v7.16b, v2.16b, v7.16b
	add	v3.4s, v3.4s, v27.4s
	eor	v18.16b, v1.16b, v18.16b
	add	v1.4s, v1.4s, v22.4s
	ldr	q22, [sp, #64]
	eor	v6.16b, v5.16b, v6.16b
	tbl	v7.16b, { v7.16b }, v4.16b
	eor	v16.16b, v3.16b, v16.16b
	tbl	v18.16b, { v18.16b }, v4.16b
	add	v3.4s, v3.4s, v21.4s
	add	v5.4s, v5.4s, v11.4s
	add	v2.4s, v2.4s, v22.4s
	ldr	q11, [sp, #16]
	mov	v21.16b, v0.16b
	tbl	v6.16b, { v6.16b }, v4.16b
	tbl	v16.16b, { v16.16b }, v4.16b
	add	v20.4s, v20.4s, v7.4s
	add	v25.4s, v25.4s, v18.4s
	add	v17.4s, v17.4s, v6.4s
	eor	v26.16b, v20.16b, v30.16b
	add	v19.4s, v19.4s, v16.4s
	eor	v28.16b, v25.16b, v31.16b
	eor	v29.16b, v17.16b, v8.16b
	shl	v30.4s, v26.4s, #25
	eor	v27.16b, v19.16b, v27.16b
	shl	v31.4s, v28.4s, #25
	shl	v8.4s, v29.4s, #25
	usra	v30.4s, v26.4s, #7
	shl	v26.4s, v27.4s, #25
	usra	v31.4s, v28.4s, #7
	usra	v8.4s, v29.4s, #7
	add	v1.4s, v1.4s, v30.4s
	usra	v26.4s, v27.4s, #7
	add	v5.4s, v5.4s, v31.4s
	add	v3.4s, v3.4s, v8.4s
	eor	v6.16b, v1.16b, v6.16b
	add	v2.4s, v2.4s, v26.4s
	eor	v16.16b, v5.16b, v16.16b
	add	v1.4s, v1.4s, v12.4s
	add	v5.4s, v5.4s, v23.4s
	mov	v12.16b, v24.16b
	eor	v7.16b, v3.16b, v7.16b
	rev32	v6.8h, v6.8h
	eor	v18.16b, v2.16b, v18.16b
	rev32	v16.8h, v16.8h
	add	v3.4s, v3.4s, v13.4s
	add	v2.4s, v2.4s, v0.4s
	mov	v13.16b, v10.16b
	ldr	q0, [sp, #208]
	rev32	v7.8h, v7.8h
	rev32	v18.8h, v18.8h
	add	v19.4s, v6.4s, v19.4s
	add	v20.4s, v16.4s, v20.4s
	add	v25.4s, v7.4s, v25.4s
	eor	v27.16b, v19.16b, v30.16b
	add	v17.4s, v18.4s, v17.4s
	eor	v28.16b, v20.16b, v31.16b
	eor	v29.16b, v25.16b, v8.16b
	shl	v30.4s, v27.4s, #20
	eor	v26.16b, v17.16b, v26.16b
	shl	v31.4s, v28.4s, #20
	shl	v8.4s, v29.4s, #20
	usra	v30.4s, v27.4s, #12
	shl	v27.4s, v26.4s, #20
	usra	v31.4s, v28.4s, #12
	usra	v8.4s, v29.4s, #12
	add	v1.4s, v1.4s, v30.4s
	usra	v27.4s, v26.4s, #12
	add	v5.4s, v5.4s, v31.4s
	add	v3.4s, v3.4s, v8.4s
	eor	v6.16b, v1.16b, v6.16b
	add	v2.4s, v2.4s, v27.4s
	eor	v16.16b, v5.16b, v16.16b
	add	v5.4s, v5.4s, v15.4s
	add	v1.4s, v1.4s, v11.4s
	eor	v7.16b, v3.16b, v7.16b
	tbl	v6.16b, { v6.16b }, v4.16b
	eor	v18.16b, v2.16b, v18.16b
	tbl	v16.16b, { v16.16b }, v4.16b
	add	v2.4s, v2.4s, v9.4s
	add	v3.4s, v3.4s, v10.4s
	ldr	q9, [sp, #160]
	ldr	q10, [sp, #96]
	tbl	v7.16b, { v7.16b }, v4.16b
	tbl	v18.16b, { v18.16b }, v4.16b
	add	v19.4s, v19.4s, v6.4s
	add	v20.4s, v20.4s, v16.4s
	add	v25.4s, v25.4s, v7.4s
	eor	v26.16b, v19.16b, v30.16b
	add	v17.4s, v17.4s, v18.4s
	eor	v28.16b, v20.16b, v31.16b
	eor	v29.16b, v25.16b, v8.16b
	shl	v30.4s, v26.4s, #25
	eor	v27.16b, v17.16b, v27.16b
	shl	v31.4s, v28.4s, #25
	shl	v8.4s, v29.4s, #25
	usra	v30.4s, v26.4s, #7
	shl	v26.4s, v27.4s, #25
	usra	v31.4s, v28.4s, #7
	usra	v8.4s, v29.4s, #7
	add	v2.4s, v2.4s, v30.4s
	usra	v26.4s, v27.4s, #7
	add	v1.4s, v1.4s, v31.4s
	add	v5.4s, v5.4s, v8.4s
	eor	v7.16b, v2.16b, v7.16b
	add	v3.4s, v3.4s, v26.4s
	eor	v18.16b, v1.16b, v18.16b
	add	v2.4s, v2.4s, v9.4s
	add	v1.4s, v1.4s, v24.4s
	eor	v6.16b, v5.16b, v6.16b
	rev32	v7.8h, v7.8h
	eor	v16.16b, v3.16b, v16.16b
	rev32	v18.8h, v18.8h
	add	v5.4s, v5.4s, v10.4s
	add	v3.4s, v3.4s, v0.4s
	rev32	v6.8h, v6.8h
	rev32	v16.8h, v16.8h
	add	v20.4s, v7.4s, v20.4s
	add	v25.4s, v18.4s, v25.4s
	add	v17.4s, v6.4s, v17.4s
	eor	v27.16b, v20.16b, v30.16b
	add	v19.4s, v16.4s, v19.4s
	eor	v28.16b, v25.16b, v31.16b
	eor	v29.16b, v17.16b, v8.16b
	shl	v30.4s, v27.4s, #20
	eor	v26.16b, v19.16b, v26.16b
	shl	v31.4s, v28.4s, #20
	shl	v8.4s, v29.4s, #20
	usra	v30.4s, v27.4s, #12
	shl	v27.4s, v26.4s, #20
	usra	v31.4s, v28.4s, #12
	usra	v8.4s, v29.4s, #12
	add	v2.4s, v2.4s, v30.4s
	usra	v27.4s, v26.4s, #12
	add	v1.4s, v1.4s, v31.4s
	add	v5.4s, v5.4s, v8.4s
	eor	v7.16b, v2.16b, v7.16b
	add	v3.4s, v3.4s, v27.4s
	eor	v18.16b, v1.16b, v18.16b
	add	v1.4s, v1.4s, v14.4s
	eor	v6.16b, v5.16b, v6.16b
	tbl	v7.16b, { v7.16b }, v4.16b
	eor	v16.16b, v3.16b, v16.16b
	tbl	v18.16b, { v18.16b }, v4.16b
	add	v3.4s, v3.4s, v21.4s
	ldr	q21, [sp, #192]
	add	v5.4s, v5.4s, v23.4s
	tbl	v6.16b, { v6.16b }, v4.16b
	tbl	v16.16b, { v16.16b }, v4.16b
	add	v2.4s, v2.4s, v21.4s
	add	v20.4s, v20.4s, v7.4s
	add	v25.4s, v25.4s, v18.4s
	add	v17.4s, v17.4s, v6.4s
	eor	v26.16b, v20.16b, v30.16b
	add	v19.4s, v19.4s, v16.4s
	eor	v28.16b, v25.16b, v31.16b
	eor	v29.16b, v17.16b, v8.16b
	shl	v30.4s, v26.4s, #25
	eor	v27.16b, v19.16b, v27.16b
	shl	v31.4s, v28.4s, #25
	shl	v8.4s, v29.4s, #25
	usra	v30.4s, v26.4s, #7
	shl	v24.4s, v27.4s, #25
	usra	v31.4s, v28.4s, #7
	usra	v8.4s, v29.4s, #7
	add	v1.4s, v1.4s, v30.4s
	usra	v24.4s, v27.4s, #7
	add	v5.4s, v5.4s, v31.4s
	add	v3.4s, v3.4s, v8.4s
	eor	v6.16b, v1.16b, v6.16b
	add	v2.4s, v2.4s, v24.4s
	eor	v16.16b, v5.16b, v16.16b
	add	v1.4s, v1.4s, v22.4s
	ldr	q22, [sp, #48]
	add	v5.4s, v5.4s, v15.4s
	ldp	d15, d14, [sp, #256]
	.cfi_remember_state
	.cfi_restore d14
	.cfi_restore d15
	eor	v7.16b, v3.16b, v7.16b
	rev32	v6.8h, v6.8h
	eor	v18.16b, v2.16b, v18.16b
	rev32	v16.8h, v16.8h
	add	v3.4s, v3.4s, v22.4s
	add	v2.4s, v2.4s, v0.4s
	ldr	q0, [sp, #80]
	rev32	v7.8h, v7.8h
	rev32	v18.8h, v18.8h
	add	v19.4s, v6.4s, v19.4s
	add	v20.4s, v16.4s, v20.4s
	add	v21.4s, v7.4s, v25.4s
	eor	v25.16b, v19.16b, v30.16b
	add	v17.4s, v18.4s, v17.4s
	eor	v26.16b, v20.16b, v31.16b
	shl	v28.4s, v25.4s, #20
	eor	v27.16b, v21.16b, v8.16b
	eor	v24.16b, v17.16b, v24.16b
	shl	v29.4s, v26.4s, #20
	usra	v28.4s, v25.4s, #12
	shl	v30.4s, v27.4s, #20
	shl	v23.4s, v24.4s, #20
	usra	v29.4s, v26.4s, #12
	add	v1.4s, v1.4s, v28.4s
	usra	v30.4s, v27.4s, #12
	usra	v23.4s, v24.4s, #12
	add	v5.4s, v5.4s, v29.4s
	eor	v6.16b, v1.16b, v6.16b
	add	v3.4s, v3.4s, v30.4s
	add	v2.4s, v2.4s, v23.4s
	eor	v16.16b, v5.16b, v16.16b
	add	v1.4s, v1.4s, v0.4s
	add	v5.4s, v5.4s, v13.4s
	tbl	v6.16b, { v6.16b }, v4.16b
	eor	v7.16b, v3.16b, v7.16b
	eor	v18.16b, v2.16b, v18.16b
	tbl	v16.16b, { v16.16b }, v4.16b
	add	v2.4s, v2.4s, v9.4s
	add	v3.4s, v3.4s, v12.4s
	ldp	d9, d8, [sp, #304]
	.cfi_restore d8
	.cfi_restore d9
	tbl	v7.16b, { v7.16b }, v4.16b
	tbl	v18.16b, { v18.16b }, v4.16b
	add	v19.4s, v19.4s, v6.4s
	ldp	d13, d12, [sp, #272]
	.cfi_restore d12
	.cfi_restore d13
	add	v20.4s, v20.4s, v16.4s
	eor	v22.16b, v19.16b, v28.16b
	add	v21.4s, v21.4s, v7.4s
	add	v17.4s, v17.4s, v18.4s
	eor	v24.16b, v20.16b, v29.16b
	shl	v26.4s, v22.4s, #25
	eor	v25.16b, v21.16b, v30.16b
	eor	v23.16b, v17.16b, v23.16b
	shl	v27.4s, v24.4s, #25
	usra	v26.4s, v22.4s, #7
	shl	v28.4s, v25.4s, #25
	shl	v22.4s, v23.4s, #25
	usra	v27.4s, v24.4s, #7
	add	v2.4s, v2.4s, v26.4s
	usra	v28.4s, v25.4s, #7
	usra	v22.4s, v23.4s, #7
	add	v1.4s, v1.4s, v27.4s
	eor	v7.16b, v2.16b, v7.16b
	add	v5.4s, v5.4s, v28.4s
	add	v3.4s, v3.4s, v22.4s
	eor	v18.16b, v1.16b, v18.16b
	add	v0.4s, v2.4s, v11.4s
	add	v1.4s, v1.4s, v10.4s
	ldp	d11, d10, [sp, #288]
	.cfi_restore d10
	.cfi_restore d11
	rev32	v7.8h, v7.8h
	eor	v6.16b, v5.16b, v6.16b
	eor	v16.16b, v3.16b, v16.16b
	rev32	v18.8h, v18.8h
	rev32	v6.8h, v6.8h
	rev32	v16.8h, v16.8h
	add	v20.4s, v7.4s, v20.4s
	add	v21.4s, v18.4s, v21.4s
	eor	v23.16b, v20.16b, v26.16b
	add	v17.4s, v6.4s, v17.4s
	add	v19.4s, v16.4s, v19.4s
	eor	v24.16b, v21.16b, v27.16b
	shl	v26.4s, v23.4s, #20
	eor	v25.16b, v17.16b, v28.16b
	eor	v22.16b, v19.16b, v22.16b
	shl	v27.4s, v24.4s, #20
	usra	v26.4s, v23.4s, #12
	ldr	q23, [sp, #32]
	shl	v28.4s, v25.4s, #20
	shl	v2.4s, v22.4s, #20
	usra	v27.4s, v24.4s, #12
	add	v5.4s, v5.4s, v23.4s
	ldr	q23, [sp, #176]
	usra	v28.4s, v25.4s, #12
	add	v0.4s, v0.4s, v26.4s
	add	v3.4s, v3.4s, v23.4s
	usra	v2.4s, v22.4s, #12
	add	v1.4s, v1.4s, v27.4s
	add	v5.4s, v5.4s, v28.4s
	eor	v7.16b, v0.16b, v7.16b
	add	v3.4s, v3.4s, v2.4s
	eor	v18.16b, v1.16b, v18.16b
	eor	v6.16b, v5.16b, v6.16b
	tbl	v7.16b, { v7.16b }, v4.16b
	eor	v16.16b, v3.16b, v16.16b
	tbl	v18.16b, { v18.16b }, v4.16b
	tbl	v6.16b, { v6.16b }, v4.16b
	tbl	v4.16b, { v16.16b }, v4.16b
	add	v16.4s, v20.4s, v7.4s
	add	v20.4s, v21.4s, v18.4s
	add	v17.4s, v17.4s, v6.4s
	eor	v21.16b, v16.16b, v26.16b
	eor	v5.16b, v16.16b, v5.16b
	add	v19.4s, v19.4s, v4.4s
	eor	v22.16b, v20.16b, v27.16b
	eor	v3.16b, v20.16b, v3.16b
	eor	v23.16b, v17.16b, v28.16b
	shl	v24.4s, v21.4s, #25
	eor	v0.16b, v17.16b, v0.16b
	eor	v2.16b, v19.16b, v2.16b
	shl	v25.4s, v22.4s, #25
	eor	v1.16b, v19.16b, v1.16b
	shl	v19.4s, v23.4s, #25
	usra	v24.4s, v21.4s, #7
	stp	q3, q0, [x0, #32]
	shl	v16.4s, v2.4s, #25
	usra	v25.4s, v22.4s, #7
	stp	q1, q5, [x0]
	usra	v19.4s, v23.4s, #7
	eor	v1.16b, v24.16b, v6.16b
	usra	v16.4s, v2.4s, #7
	eor	v2.16b, v25.16b, v4.16b
	eor	v0.16b, v19.16b, v7.16b
	eor	v3.16b, v16.16b, v18.16b
	stp	q1, q2, [x0, #64]
	stp	q0, q3, [x0, #96]
	add	sp, sp, #336
	.cfi_def_cfa sp, 0
	ret
	SIZE("keyed_blake3::chunks::take_block::<#8b36ca032ac25711>")
	.cfi_endproc

CODE(".text.keyed_blake3::keyed_hash")
	.p2align	2
	TYPE("keyed_blake3::keyed_hash", function)
"keyed_blake3::keyed_hash":
	.cfi_startproc
	hint	#25
	.cfi_escape 0x2d
	stp	x29, x30, [sp, #-80]!
	.cfi_def_cfa sp, 80
	.cfi_offset x29, -80
	.cfi_offset x30, -72
	stp	x28, x25, [sp, #16]
	.cfi_offset x25, -56
	.cfi_offset x28, -64
	mov	x29, sp
	.cfi_def_cfa x29, 80
	stp	x24, x23, [sp, #32]
	.cfi_offset x23, -40
	.cfi_offset x24, -48
	stp	x22, x21, [sp, #48]
	.cfi_offset x21, -24
	.cfi_offset x22, -32
	stp	x20, x19, [sp, #64]
	.cfi_offset x19, -8
	.cfi_offset x20, -16
	sub	sp, sp, #2032
	movi	v0.2d, #0000000000000000
	mov	x21, x3
	mov	x20, x2
	mov	x22, x1
	mov	x19, x0
	cmp	x3, #1025
	str	xzr, [sp]
	stp	q0, q0, [x29, #-128]
	b.hs	L(23_5)
	cmp	x21, #0
	ldp	q0, q1, [x22]
	cset	w8, ne
	sub	x23, x21, x8
	lsr	x24, x23, #6
	cbz	x24, L(23_6)
	mov	x22, xzr
	mov	x25, x20
L(23_3):
	ldp	q2, q3, [x25]
	cmp	x22, #0
	mov	w8, #16
	sub	x0, x29, #96
	sub	x1, x29, #64
	cinc	w4, w8, eq
	mov	x2, xzr
	mov	w3, #64
	stp	q2, q3, [x29, #-64]
	ldp	q4, q2, [x25, #32]
	stp	q4, q2, [x29, #-32]
	bl	"keyed_blake3::compression::compress"
	ldp	q0, q1, [x29, #-96]
	add	x22, x22, #1
	cmp	x24, x22
	add	x25, x25, #64
	b.ne	L(23_3)
	mov	w22, #26
	b	L(23_7)
L(23_5):
	add	x8, sp, #32
	mov	w1, wzr
	mov	w2, #1800
	add	x0, x8, #64
	bl	C(memset)
	ldp	q0, q1, [x22]
	add	x0, sp, #32
	mov	x1, x20
	mov	x2, x21
	stp	q0, q1, [sp, #32]
	stp	q0, q1, [sp, #64]
	bl	"keyed_blake3::hasher::Hasher::update"
	sub	x0, x29, #128
	add	x1, sp, #32
	bl	"keyed_blake3::hasher::Hasher::finalize"
	b	L(23_11)
L(23_6):
	mov	w22, #27
L(23_7):
	movi	v2.2d, #0000000000000000
	and	x8, x23, #0x7c0
	sub	x23, x29, #128
	sub	x21, x21, x8
	add	x1, x20, x8
	cmp	x21, #64
	stp	q2, q2, [x29, #-96]
	b.ne	L(23_9)
	ldp	q2, q3, [x1]
	sub	x0, x29, #96
	mov	x2, xzr
	mov	w3, #64
	stp	q2, q3, [x29, #-64]
	ldp	q4, q2, [x1, #32]
	sub	x1, x29, #64
	stp	q4, q2, [x29, #-32]
	b	L(23_10)
L(23_9):
	sub	x0, x29, #64
	mov	x2, x21
	stp	q2, q2, [x29, #-64]
	stp	q2, q2, [x29, #-32]
	stp	q0, q1, [sp]
	bl	C(memcpy)
	ldp	q0, q1, [sp]
	sub	x0, x29, #96
	sub	x1, x29, #64
	mov	x2, xzr
	mov	w3, w21
L(23_10):
	mov	w4, w22
	bl	"keyed_blake3::compression::compress"
	ldur	q0, [x23, #36]
	ldur	d1, [x23, #52]
	ldur	w8, [x29, #-68]
	ldur	w9, [x29, #-96]
	stur	q0, [x23, #4]
	stur	d1, [x23, #20]
	stur	w9, [x29, #-128]
	stur	w8, [x29, #-100]
L(23_11):
	ldp	q0, q1, [x29, #-128]
	stp	q0, q1, [x19]
	add	sp, sp, #2032
	ldp	x20, x19, [sp, #64]
	.cfi_remember_state
	.cfi_restore x19
	.cfi_restore x20
	ldp	x22, x21, [sp, #48]
	.cfi_restore x21
	.cfi_restore x22
	ldp	x24, x23, [sp, #32]
	.cfi_restore x23
	.cfi_restore x24
	ldp	x28, x25, [sp, #16]
	.cfi_restore x25
	.cfi_restore x28
	ldp	x29, x30, [sp], #80
	.cfi_def_cfa sp, 0
	.cfi_restore x29
	.cfi_restore x30
	hint	#29
	.cfi_escape 0x2d
	ret
	SIZE("keyed_blake3::keyed_hash")
	.cfi_endproc

CODE(".text.keyed_blake3::hasher::Hasher::update")
	.p2align	2
	TYPE("keyed_blake3::hasher::Hasher::update", function)
"keyed_blake3::hasher::Hasher::update":
	.cfi_startproc
	hint	#25
	.cfi_escape 0x2d
	sub	sp, sp, #288
	.cfi_def_cfa sp, 288
	stp	x29, x30, [sp, #192]
	.cfi_offset x29, -96
	.cfi_offset x30, -88
	add	x29, sp, #192
	.cfi_def_cfa x29, 96
	str	x28, [sp, #208]
	.cfi_offset x28, -80
	stp	x26, x25, [sp, #224]
	.cfi_offset x25, -56
	.cfi_offset x26, -64
	stp	x24, x23, [sp, #240]
	.cfi_offset x23, -40
	.cfi_offset x24, -48
	stp	x22, x21, [sp, #256]
	.cfi_offset x21, -24
	.cfi_offset x22, -32
	stp	x20, x19, [sp, #272]
	.cfi_offset x19, -8
	.cfi_offset x20, -16
	cbz	x2, L(24_62)
	ldr	x23, [x0, #1856]
	mov	x21, x2
	mov	x20, x1
	mov	x19, x0
	cmp	x23, #1025
	b.lo	L(24_6)
	and	x8, x23, #0x3ff
	cbnz	x8, L(24_6)
	lsr	x8, x23, #10
	sub	x9, x8, #1
	tst	x8, x9
	b.ne	L(24_12)
	ldp	q0, q1, [x19, #64]
	add	x8, sp, #64
	sub	x9, x29, #64
	sub	x8, x9, x8
	stp	q0, q1, [sp, #64]
	movi	v1.2d, #0000000000000000
	cmp	x8, #31
	ldp	q0, q2, [x19, #96]
	stp	q0, q2, [sp]
	stp	q0, q2, [sp, #32]
	stp	q1, q1, [sp, #96]
	stp	q1, q1, [x29, #-64]
	stp	q1, q1, [x29, #-32]
	b.hi	L(24_7)
	ldp	q0, q1, [sp, #64]
	b	L(24_8)
L(24_6):
	cmp	x23, #0
	cset	w8, ne
	sub	x26, x23, x8
	b	L(24_13)
L(24_7):
	ldp	q0, q1, [x19, #64]
L(24_8):
	sub	x8, x29, #64
	add	x9, sp, #32
	stp	q0, q1, [x29, #-64]
	add	x8, x8, #32
	sub	x9, x8, x9
	cmp	x9, #31
	b.hi	L(24_10)
	ldp	q0, q1, [sp, #32]
	stp	q0, q1, [x29, #-32]
	b	L(24_11)
L(24_10):
	ldp	q0, q1, [x19, #96]
	stp	q0, q1, [x8]
L(24_11):
	ldp	q0, q1, [x19]
	add	x0, sp, #96
	sub	x1, x29, #64
	mov	x2, xzr
	mov	w3, #64
	mov	w4, #20
	bl	"keyed_blake3::compression::compress"
	ldp	q0, q1, [sp, #96]
	stp	q0, q1, [sp]
	stp	q0, q1, [x19, #64]
L(24_12):
	mov	x26, x23
L(24_13):
	and	x8, x26, #0xffffffffffffffc0
	mov	w9, #64
	sub	x10, x23, x8
	sub	x22, x9, x10
	add	x9, x23, x21
	cmp	x21, x22
	str	x9, [x19, #1856]
	b.ls	L(24_16)
	lsr	x24, x26, #6
	subs	x11, x23, x8
	b.ne	L(24_22)
	mov	x22, xzr
	sub	x5, x21, xzr
	cmp	x5, #65
	b.hs	L(24_38)
	b	L(24_50)
L(24_16):
	add	x22, x19, #1792
	add	x0, x22, x10
	sub	x9, x0, x20
	cmp	x9, x21
	b.hs	L(24_28)
	cmp	x21, #8
	b.lo	L(24_19)
	add	x9, x23, x19
	sub	x9, x9, x20
	sub	x9, x9, x8
	add	x9, x9, #1792
	cmp	x9, #32
	b.hs	L(24_63)
L(24_19):
	mov	x9, xzr
L(24_20):
	add	x10, x9, x23
	sub	x8, x10, x8
	add	x10, x8, x19
	sub	x8, x21, x9
	add	x9, x20, x9
	add	x10, x10, #1792
L(24_21):
	ldrb	w11, [x9], #1
	subs	x8, x8, #1
	strb	w11, [x10], #1
	b.ne	L(24_21)
	b	L(24_29)
L(24_22):
	add	x25, x19, #1792
	add	x0, x25, x10
	sub	x9, x0, x20
	cmp	x9, x22
	b.hs	L(24_32)
	cmp	x22, #8
	b.lo	L(24_25)
	add	x9, x23, x19
	sub	x9, x9, x20
	sub	x9, x9, x8
	add	x9, x9, #1792
	cmp	x9, #32
	b.hs	L(24_65)
L(24_25):
	mov	x9, xzr
L(24_26):
	add	x10, x9, x23
	add	x9, x20, x9
	sub	x8, x10, x8
L(24_27):
	ldrb	w10, [x9], #1
	strb	w10, [x25, x8]
	add	x8, x8, #1
	cmp	x8, #64
	b.ne	L(24_27)
	b	L(24_33)
L(24_28):
	mov	x1, x20
	mov	x2, x21
	bl	C(memmove)
L(24_29):
	ldr	x8, [x19, #1856]
	cmp	x8, #1025
	b.lo	L(24_62)
	and	x9, x8, #0x3ff
	cbnz	x9, L(24_62)
	ldp	q0, q1, [x22]
	lsr	x8, x8, #10
	ldp	q2, q3, [x22, #32]
	b	L(24_61)
L(24_32):
	mov	x1, x20
	mov	x2, x22
	bl	C(memmove)
L(24_33):
	ubfx	x8, x26, #6, #4
	lsr	x23, x26, #10
	cmp	x8, #15
	b.ne	L(24_35)
	ldp	q0, q1, [x25]
	add	x0, sp, #96
	ldp	q2, q3, [x25, #32]
	sub	x1, x29, #64
	mov	x2, x23
	mov	w3, #64
	mov	w4, #18
	stp	q0, q1, [x29, #-64]
	ldp	q0, q1, [x19, #32]
	stp	q2, q3, [x29, #-32]
	bl	"keyed_blake3::compression::compress"
	add	x0, x19, #64
	add	x3, sp, #96
	mov	x1, x19
	mov	x2, x23
	mov	x4, xzr
	bl	"keyed_blake3::tree::add_subtree_value"
	ldp	q0, q1, [x19]
	add	x24, x24, #1
	stp	q0, q1, [x19, #32]
	sub	x5, x21, x22
	cmp	x5, #65
	b.hs	L(24_38)
	b	L(24_50)
L(24_35):
	ldp	q0, q1, [x25]
	cmp	x8, #0
	ldp	q2, q3, [x25, #32]
	mov	w8, #16
	cinc	w4, w8, eq
	add	x0, sp, #96
	sub	x1, x29, #64
	stp	q0, q1, [x29, #-64]
	ldp	q0, q1, [x19, #32]
	mov	x2, x23
	mov	w3, #64
	stp	q2, q3, [x29, #-32]
	bl	"keyed_blake3::compression::compress"
	ldp	q0, q1, [sp, #96]
	add	x24, x24, #1
	stp	q0, q1, [x19, #32]
	sub	x5, x21, x22
	cmp	x5, #65
	b.hs	L(24_38)
	b	L(24_50)
L(24_36):
	ldp	q0, q1, [x9]
	cmp	x10, #0
	ldp	q2, q3, [x9, #32]
	mov	w10, #16
	cinc	w4, w10, eq
	add	x0, sp, #96
	sub	x1, x29, #64
	stp	q0, q1, [x29, #-64]
	ldp	q0, q1, [x19, #32]
	mov	x2, x8
	mov	w3, #64
	stp	q2, q3, [x29, #-32]
	bl	"keyed_blake3::compression::compress"
	ldp	q0, q1, [sp, #96]
L(24_37):
	stp	q0, q1, [x19, #32]
	mov	w8, #1
	add	x22, x22, x8, lsl #6
	add	x24, x8, x24
	sub	x5, x21, x22
	cmp	x5, #64
	b.ls	L(24_50)
L(24_38):
	lsr	x8, x24, #4
	cmp	x5, #2048
	add	x9, x20, x22
	and	x10, x24, #0xf
	b.lo	L(24_46)
	cbnz	x10, L(24_46)
	lsr	x9, x5, #10
	lsr	x10, x5, #12
	mov	w11, #1
L(24_41):
	mov	x2, x11
	lsl	x11, x11, #1
	cmp	x11, x10
	b.hi	L(24_44)
	cbz	x11, L(24_90)
	sub	x12, x11, #1
	tst	x12, x8
	b.eq	L(24_41)
L(24_44):
	cmp	x9, #4
	mov	w10, #4
	add	x4, x20, x22
	csel	x3, x9, x10, lo
	mov	x0, x19
	mov	x1, x8
	mul	x9, x3, x2
	lsl	x23, x9, #10
	cmp	x23, x5
	b.ne	L(24_48)
	mov	w6, #1
	b	L(24_49)
L(24_46):
	cmp	x10, #15
	b.ne	L(24_36)
	ldp	q0, q1, [x9]
	add	x0, sp, #96
	ldp	q2, q3, [x9, #32]
	sub	x1, x29, #64
	mov	x2, x8
	mov	w3, #64
	mov	w4, #18
	stp	q0, q1, [x29, #-64]
	ldp	q0, q1, [x19, #32]
	stp	q2, q3, [x29, #-32]
	mov	x23, x8
	bl	"keyed_blake3::compression::compress"
	add	x0, x19, #64
	add	x3, sp, #96
	mov	x1, x19
	mov	x2, x23
	mov	x4, xzr
	bl	"keyed_blake3::tree::add_subtree_value"
	ldp	q0, q1, [x19]
	b	L(24_37)
L(24_48):
	mov	x5, x23
	mov	x6, xzr
L(24_49):
	bl	"keyed_blake3::tree::Tree::absorb_subtrees::<#8b36ca032ac25711>"
	lsr	x8, x23, #6
	add	x22, x22, x8, lsl #6
	add	x24, x8, x24
	sub	x5, x21, x22
	cmp	x5, #64
	b.hi	L(24_38)
L(24_50):
	cmp	x22, x21
	b.eq	L(24_62)
	add	x1, x20, x22
	add	x21, x19, #1792
	sub	x8, x21, x1
	cmp	x8, x5
	b.hs	L(24_57)
	cmp	x5, #8
	b.lo	L(24_54)
	sub	x8, x19, x20
	sub	x8, x8, x22
	add	x8, x8, #1792
	cmp	x8, #32
	b.hs	L(24_74)
L(24_54):
	mov	x8, xzr
L(24_55):
	add	x9, x8, x22
	add	x10, x8, x19
	sub	x8, x5, x8
	add	x9, x20, x9
	add	x10, x10, #1792
L(24_56):
	ldrb	w11, [x9], #1
	subs	x8, x8, #1
	strb	w11, [x10], #1
	b.ne	L(24_56)
	b	L(24_58)
L(24_57):
	add	x0, x19, #1792
	mov	x2, x5
	bl	C(memmove)
L(24_58):
	ldr	x8, [x19, #1856]
	cmp	x8, #1025
	b.lo	L(24_62)
	and	x9, x8, #0x3ff
	cbnz	x9, L(24_62)
	ldp	q0, q1, [x21]
	lsr	x8, x8, #10
	ldp	q2, q3, [x21, #32]
L(24_61):
	stur	q0, [x29, #-64]
	stp	q1, q2, [x29, #-48]
	ldp	q0, q1, [x19, #32]
	sub	x20, x8, #1
	add	x0, sp, #96
	sub	x1, x29, #64
	mov	x2, x20
	mov	w3, #64
	mov	w4, #18
	stur	q3, [x29, #-16]
	bl	"keyed_blake3::compression::compress"
	add	x0, x19, #64
	add	x3, sp, #96
	mov	x1, x19
	mov	x2, x20
	mov	w4, #1
	bl	"keyed_blake3::tree::add_subtree_value"
	ldp	q0, q1, [x19]
	stp	q0, q1, [x19, #32]
L(24_62):
	ldp	x20, x19, [sp, #272]
	.cfi_remember_state
	.cfi_restore x19
	.cfi_restore x20
	ldr	x28, [sp, #208]
	.cfi_restore x28
	ldp	x22, x21, [sp, #256]
	.cfi_restore x21
	.cfi_restore x22
	ldp	x24, x23, [sp, #240]
	.cfi_restore x23
	.cfi_restore x24
	ldp	x26, x25, [sp, #224]
	.cfi_restore x25
	.cfi_restore x26
	ldp	x29, x30, [sp, #192]
	.cfi_def_cfa sp, 288
	.cfi_restore x29
	.cfi_restore x30
	add	sp, sp, #288
	.cfi_def_cfa sp, 0
	hint	#29
	.cfi_escape 0x2d
	ret
L(24_63):
	.cfi_restore_state
	cmp	x21, #32
	b.hs	L(24_67)
	mov	x9, xzr
	b	L(24_71)
L(24_65):
	cmp	x22, #32
	b.hs	L(24_76)
	mov	x9, xzr
	b	L(24_80)
L(24_67):
	add	x12, x10, x19
	and	x11, x21, #0x18
	and	x9, x21, #0xffffffffffffffe0
	add	x10, x20, #16
	add	x12, x12, #1808
	and	x13, x21, #0xffffffffffffffe0
L(24_68):
	ldp	q0, q1, [x10, #-16]
	subs	x13, x13, #32
	add	x10, x10, #32
	stp	q0, q1, [x12, #-16]
	add	x12, x12, #32
	b.ne	L(24_68)
	cmp	x21, x9
	b.eq	L(24_29)
	cbz	x11, L(24_20)
L(24_71):
	mov	x11, x9
	and	x9, x21, #0xfffffffffffffff8
	add	x10, x11, x23
	sub	x10, x10, x8
	add	x12, x10, x19
	sub	x10, x11, x9
	add	x11, x20, x11
	add	x12, x12, #1792
L(24_72):
	ldr	d0, [x11], #8
	adds	x10, x10, #8
	str	d0, [x12], #8
	b.ne	L(24_72)
	cmp	x21, x9
	b.eq	L(24_29)
	b	L(24_20)
L(24_74):
	cmp	x5, #32
	b.hs	L(24_83)
	mov	x8, xzr
	b	L(24_87)
L(24_76):
	add	x11, x11, x19
	and	x10, x22, #0x18
	and	x9, x22, #0xffffffffffffffe0
	add	x11, x11, #1808
	add	x12, x20, #16
	and	x13, x22, #0xffffffffffffffe0
L(24_77):
	ldp	q0, q1, [x12, #-16]
	subs	x13, x13, #32
	add	x12, x12, #32
	stp	q0, q1, [x11, #-16]
	add	x11, x11, #32
	b.ne	L(24_77)
	cmp	x22, x9
	b.eq	L(24_33)
	cbz	x10, L(24_26)
L(24_80):
	mov	x11, x9
	and	x9, x22, #0xfffffffffffffff8
	add	x10, x11, x23
	sub	x10, x10, x8
	add	x12, x10, x19
	sub	x10, x11, x9
	add	x11, x20, x11
	add	x12, x12, #1792
L(24_81):
	ldr	d0, [x11], #8
	adds	x10, x10, #8
	str	d0, [x12], #8
	b.ne	L(24_81)
	cmp	x22, x9
	b.eq	L(24_33)
	b	L(24_26)
L(24_83):
	add	x10, x22, x20
	and	x9, x5, #0x18
	and	x8, x5, #0x60
	add	x10, x10, #16
	add	x11, x19, #1808
	and	x12, x5, #0x60
L(24_84):
	ldp	q0, q1, [x10, #-16]
	subs	x12, x12, #32
	add	x10, x10, #32
	stp	q0, q1, [x11, #-16]
	add	x11, x11, #32
	b.ne	L(24_84)
	cmp	x5, x8
	b.eq	L(24_58)
	cbz	x9, L(24_55)
L(24_87):
	mov	x9, x8
	and	x8, x5, #0x78
	add	x10, x22, x9
	add	x11, x9, x19
	sub	x9, x9, x8
	add	x10, x20, x10
	add	x11, x11, #1792
L(24_88):
	ldr	d0, [x10], #8
	adds	x9, x9, #8
	str	d0, [x11], #8
	b.ne	L(24_88)
	cmp	x5, x8
	b.eq	L(24_58)
	b	L(24_55)
L(24_90):
	brk	#0x1
	SIZE("keyed_blake3::hasher::Hasher::update")
	.cfi_endproc

CODE(".text.keyed_blake3::tree::add_subtree_value")
	.p2align	2
	TYPE("keyed_blake3::tree::add_subtree_value", function)
"keyed_blake3::tree::add_subtree_value":
	.cfi_startproc
	hint	#25
	.cfi_escape 0x2d
	sub	sp, sp, #256
	.cfi_def_cfa sp, 256
	fmov	d0, x2
	movi	v1.2d, #0000000000000000
	and	x9, x2, #0x1
	stp	x20, x19, [sp, #240]
	.cfi_offset x19, -8
	.cfi_offset x20, -16
	mov	x19, x0
	stp	x29, x30, [sp, #192]
	.cfi_offset x29, -64
	.cfi_offset x30, -56
	add	x29, sp, #192
	.cfi_def_cfa x29, 64
	cnt	v0.8b, v0.8b
	stp	x24, x23, [sp, #208]
	.cfi_offset x23, -40
	.cfi_offset x24, -48
	stp	q1, q1, [sp, #32]
	stp	x22, x21, [sp, #224]
	.cfi_offset x21, -24
	.cfi_offset x22, -32
	addv	b0, v0.8b
	fmov	x8, d0
	ldp	q0, q1, [x3]
	cmp	x4, x8
	stp	q0, q1, [sp, #64]
	ccmp	x9, #0, #4, lo
	b.ne	L(25_3)
	lsl	x21, x8, #5
L(25_2):
	ldp	q0, q1, [sp, #64]
	add	x8, x19, x21
	ldp	x20, x19, [sp, #240]
	.cfi_remember_state
	.cfi_restore x19
	.cfi_restore x20
	ldp	x22, x21, [sp, #224]
	.cfi_restore x21
	.cfi_restore x22
	ldp	x24, x23, [sp, #208]
	.cfi_restore x23
	.cfi_restore x24
	stp	q0, q1, [x8]
	ldp	x29, x30, [sp, #192]
	.cfi_def_cfa sp, 256
	.cfi_restore x29
	.cfi_restore x30
	add	sp, sp, #256
	.cfi_def_cfa sp, 0
	hint	#29
	.cfi_escape 0x2d
	ret
L(25_3):
	.cfi_restore_state
	add	x9, sp, #96
	ldr	q0, [x1]
	lsl	x21, x8, #5
	add	x22, x9, #32
	add	x9, sp, #64
	mov	x20, x4
	sub	x9, x22, x9
	str	q0, [sp, #16]
	ldr	q0, [x1, #16]
	cmp	x9, #32
	str	q0, [sp]
	b.hs	L(25_10)
	sub	x22, x8, #1
L(25_5):
	movi	v0.2d, #0000000000000000
	add	x8, x19, x21
	add	x10, sp, #96
	sub	x9, x8, #32
	mov	x23, x2
	sub	x10, x10, x9
	cmp	x10, #32
	stp	q0, q0, [sp, #96]
	b.hs	L(25_7)
	ldr	q0, [x9]
	ldur	q1, [x8, #-16]
	b	L(25_8)
L(25_7):
	ldp	q0, q1, [x9]
L(25_8):
	stp	q0, q1, [sp, #96]
	ldp	q0, q1, [sp, #64]
	sub	x0, x29, #32
	add	x1, sp, #96
	mov	x2, xzr
	mov	w3, #64
	mov	w4, #20
	stp	q0, q1, [sp, #128]
	ldp	q1, q0, [sp]
	bl	"keyed_blake3::compression::compress"
	ldp	q1, q0, [x29, #-32]
	cmp	x20, x22
	sub	x21, x21, #32
	stp	q1, q0, [sp, #32]
	stp	q1, q0, [sp, #64]
	b.hs	L(25_2)
	lsr	x2, x23, #1
	sub	x22, x22, #1
	tbnz	w23, #1, L(25_5)
	b	L(25_2)
L(25_10):
	sub	x23, x8, #1
L(25_11):
	movi	v0.2d, #0000000000000000
	add	x8, x19, x21
	add	x10, sp, #96
	sub	x9, x8, #32
	mov	x24, x2
	sub	x10, x10, x9
	cmp	x10, #31
	stp	q0, q0, [sp, #96]
	b.hi	L(25_13)
	ldr	q0, [x9]
	ldur	q1, [x8, #-16]
	b	L(25_14)
L(25_13):
	ldp	q0, q1, [x9]
L(25_14):
	stp	q0, q1, [sp, #96]
	ldp	q0, q1, [sp, #64]
	sub	x0, x29, #32
	add	x1, sp, #96
	mov	x2, xzr
	mov	w3, #64
	mov	w4, #20
	stp	q0, q1, [x22]
	ldp	q1, q0, [sp]
	bl	"keyed_blake3::compression::compress"
	ldp	q1, q0, [x29, #-32]
	cmp	x20, x23
	sub	x21, x21, #32
	stp	q1, q0, [sp, #32]
	stp	q1, q0, [sp, #64]
	b.hs	L(25_2)
	lsr	x2, x24, #1
	sub	x23, x23, #1
	tbnz	w24, #1, L(25_11)
	b	L(25_2)
	SIZE("keyed_blake3::tree::add_subtree_value")
	.cfi_endproc

SIZED(16, 4)
	.p2align	4, 0x0
D(CPI26_0):
	.word	1779033703
	.word	3144134277
	.word	1013904242
	.word	2773480762
CODE(".text.keyed_blake3::compression::two::compress_two_from")
	.p2align	2
	TYPE("keyed_blake3::compression::two::compress_two_from", function)
"keyed_blake3::compression::two::compress_two_from":
	.cfi_startproc
	sub	sp, sp, #240
	.cfi_def_cfa sp, 240
	ldp	q16, q20, [x2]
	add	v1.4s, v3.4s, v1.4s
	stp	d13, d12, [sp, #192]
	.cfi_offset d12, -40
	.cfi_offset d13, -48
	ldp	q12, q21, [x1]
	add	v0.4s, v2.4s, v0.4s
	adrp	x8, PAGE(D(CPI26_0))
	stp	d9, d8, [sp, #224]
	.cfi_offset d8, -8
	.cfi_offset d9, -16
	uzp1	v23.4s, v16.4s, v20.4s
	ldr	q18, [x8, LOW(D(CPI26_0))]
	uzp2	v27.4s, v16.4s, v20.4s
	uzp1	v22.4s, v12.4s, v21.4s
	uzp2	v26.4s, v12.4s, v21.4s
	stp	d11, d10, [sp, #208]
	.cfi_offset d10, -24
	.cfi_offset d11, -32
	ldp	q17, q7, [x2, #32]
	str	q12, [sp, #32]
	stp	d15, d14, [sp, #176]
	.cfi_offset d14, -56
	.cfi_offset d15, -64
	add	v1.4s, v1.4s, v23.4s
	add	v0.4s, v0.4s, v22.4s
	eor	v5.16b, v1.16b, v5.16b
	add	v1.4s, v1.4s, v27.4s
	eor	v4.16b, v0.16b, v4.16b
	add	v0.4s, v0.4s, v26.4s
	rev32	v5.8h, v5.8h
	rev32	v4.8h, v4.8h
	add	v19.4s, v5.4s, v18.4s
	add	v18.4s, v4.4s, v18.4s
	eor	v3.16b, v19.16b, v3.16b
	eor	v2.16b, v18.16b, v2.16b
	shl	v24.4s, v3.4s, #20
	shl	v25.4s, v2.4s, #20
	usra	v24.4s, v3.4s, #12
	usra	v25.4s, v2.4s, #12
	uzp1	v2.4s, v17.4s, v7.4s
	add	v3.4s, v1.4s, v24.4s
	add	v28.4s, v0.4s, v25.4s
	ext	v2.16b, v2.16b, v2.16b, #12
	eor	v0.16b, v3.16b, v5.16b
	ext	v30.16b, v3.16b, v3.16b, #12
	eor	v1.16b, v28.16b, v4.16b
	ext	v28.16b, v28.16b, v28.16b, #12
	shl	v4.4s, v0.4s, #24
	shl	v5.4s, v1.4s, #24
	add	v30.4s, v30.4s, v2.4s
	usra	v4.4s, v0.4s, #8
	usra	v5.4s, v1.4s, #8
	ldp	q1, q6, [x1, #32]
	add	v19.4s, v4.4s, v19.4s
	ext	v4.16b, v4.16b, v4.16b, #8
	add	v18.4s, v5.4s, v18.4s
	uzp1	v29.4s, v1.4s, v6.4s
	ext	v5.16b, v5.16b, v5.16b, #8
	stp	q17, q1, [sp]
	eor	v24.16b, v19.16b, v24.16b
	ext	v19.16b, v19.16b, v19.16b, #4
	stp	q7, q6, [sp, #80]
	eor	v25.16b, v18.16b, v25.16b
	ext	v18.16b, v18.16b, v18.16b, #4
	ext	v3.16b, v29.16b, v29.16b, #12
	shl	v29.4s, v24.4s, #25
	shl	v31.4s, v25.4s, #25
	usra	v29.4s, v24.4s, #7
	add	v24.4s, v28.4s, v3.4s
	usra	v31.4s, v25.4s, #7
	add	v25.4s, v30.4s, v29.4s
	add	v24.4s, v24.4s, v31.4s
	eor	v4.16b, v25.16b, v4.16b
	eor	v5.16b, v24.16b, v5.16b
	rev32	v4.8h, v4.8h
	rev32	v5.8h, v5.8h
	add	v30.4s, v4.4s, v19.4s
	uzp2	v19.4s, v17.4s, v7.4s
	mov	v17.s[1], v17.s[3]
	add	v8.4s, v5.4s, v18.4s
	uzp2	v18.4s, v1.4s, v6.4s
	eor	v28.16b, v30.16b, v29.16b
	eor	v29.16b, v8.16b, v31.16b
	ext	v19.16b, v19.16b, v19.16b, #12
	ext	v18.16b, v18.16b, v18.16b, #12
	shl	v31.4s, v28.4s, #20
	shl	v9.4s, v29.4s, #20
	add	v25.4s, v25.4s, v19.4s
	mov	v14.16b, v19.16b
	usra	v31.4s, v28.4s, #12
	add	v24.4s, v24.4s, v18.4s
	mov	v15.16b, v18.16b
	usra	v9.4s, v29.4s, #12
	mov	v14.s[2], v27.s[0]
	add	v29.4s, v25.4s, v31.4s
	mov	v15.s[2], v26.s[0]
	add	v28.4s, v24.4s, v9.4s
	eor	v10.16b, v29.16b, v4.16b
	mov	v4.16b, v20.16b
	eor	v11.16b, v28.16b, v5.16b
	mov	v5.16b, v21.16b
	shl	v25.4s, v10.4s, #24
	mov	v4.s[1], v16.s[2]
	shl	v24.4s, v11.4s, #24
	mov	v5.s[1], v12.s[2]
	usra	v25.4s, v10.4s, #8
	usra	v24.4s, v11.4s, #8
	mov	v4.s[2], v16.s[3]
	mov	v5.s[2], v12.s[3]
	add	v30.4s, v25.4s, v30.4s
	ext	v25.16b, v25.16b, v25.16b, #8
	add	v8.4s, v24.4s, v8.4s
	ext	v24.16b, v24.16b, v24.16b, #8
	add	v29.4s, v29.4s, v4.4s
	eor	v31.16b, v30.16b, v31.16b
	add	v28.4s, v28.4s, v5.4s
	ext	v30.16b, v30.16b, v30.16b, #12
	eor	v9.16b, v8.16b, v9.16b
	ext	v8.16b, v8.16b, v8.16b, #12
	ext	v29.16b, v29.16b, v29.16b, #4
	shl	v10.4s, v31.4s, #25
	ext	v28.16b, v28.16b, v28.16b, #4
	shl	v11.4s, v9.4s, #25
	usra	v10.4s, v31.4s, #7
	ext	v31.16b, v23.16b, v23.16b, #4
	usra	v11.4s, v9.4s, #7
	add	v29.4s, v10.4s, v29.4s
	add	v28.4s, v11.4s, v28.4s
	eor	v25.16b, v29.16b, v25.16b
	eor	v24.16b, v28.16b, v24.16b
	rev32	v9.8h, v25.8h
	ext	v25.16b, v22.16b, v22.16b, #4
	rev32	v12.8h, v24.8h
	zip2	v24.4s, v31.4s, v2.4s
	add	v30.4s, v9.4s, v30.4s
	zip2	v25.4s, v25.4s, v3.4s
	add	v8.4s, v12.4s, v8.4s
	eor	v31.16b, v30.16b, v10.16b
	stp	q25, q24, [sp, #112]
	eor	v10.16b, v8.16b, v11.16b
	mov	v24.s[3], v19.s[3]
	mov	v25.s[3], v18.s[3]
	shl	v11.4s, v31.4s, #20
	shl	v13.4s, v10.4s, #20
	add	v29.4s, v29.4s, v24.4s
	usra	v11.4s, v31.4s, #12
	add	v28.4s, v28.4s, v25.4s
	stp	q24, q25, [sp, #48]
	usra	v13.4s, v10.4s, #12
	add	v29.4s, v29.4s, v11.4s
	add	v28.4s, v28.4s, v13.4s
	eor	v31.16b, v29.16b, v9.16b
	eor	v9.16b, v28.16b, v12.16b
	shl	v10.4s, v31.4s, #24
	shl	v12.4s, v9.4s, #24
	usra	v10.4s, v31.4s, #8
	uzp1	v31.4s, v14.4s, v7.4s
	usra	v12.4s, v9.4s, #8
	add	v0.4s, v10.4s, v30.4s
	uzp1	v30.4s, v15.4s, v6.4s
	add	v14.4s, v12.4s, v8.4s
	mov	v31.s[3], v19.s[1]
	ext	v19.16b, v29.16b, v29.16b, #12
	eor	v8.16b, v0.16b, v11.16b
	ext	v0.16b, v0.16b, v0.16b, #4
	eor	v9.16b, v14.16b, v13.16b
	mov	v30.s[3], v18.s[1]
	ext	v18.16b, v28.16b, v28.16b, #12
	add	v19.4s, v19.4s, v31.4s
	mov	v13.16b, v17.16b
	mov	v17.s[2], v20.s[2]
	shl	v28.4s, v8.4s, #25
	shl	v29.4s, v9.4s, #25
	add	v18.4s, v18.4s, v30.4s
	mov	v13.s[2], v20.s[1]
	usra	v28.4s, v8.4s, #7
	ext	v8.16b, v10.16b, v10.16b, #8
	usra	v29.4s, v9.4s, #7
	ext	v9.16b, v12.16b, v12.16b, #8
	ext	v12.16b, v14.16b, v14.16b, #4
	add	v19.4s, v19.4s, v28.4s
	mov	v13.s[3], v7.s[2]
	add	v18.4s, v18.4s, v29.4s
	eor	v10.16b, v19.16b, v8.16b
	mov	v8.16b, v1.16b
	eor	v11.16b, v18.16b, v9.16b
	add	v19.4s, v19.4s, v13.4s
	ext	v9.16b, v7.16b, v7.16b, #12
	mov	v8.s[1], v1.s[3]
	rev32	v10.8h, v10.8h
	rev32	v11.8h, v11.8h
	mov	v14.16b, v8.16b
	add	v1.4s, v10.4s, v0.4s
	mov	v8.s[2], v21.s[2]
	add	v12.4s, v11.4s, v12.4s
	mov	v14.s[2], v21.s[1]
	eor	v28.16b, v1.16b, v28.16b
	eor	v29.16b, v12.16b, v29.16b
	shl	v15.4s, v28.4s, #20
	mov	v14.s[3], v6.s[2]
	shl	v0.4s, v29.4s, #20
	usra	v15.4s, v28.4s, #12
	usra	v0.4s, v29.4s, #12
	add	v18.4s, v18.4s, v14.4s
	add	v29.4s, v19.4s, v15.4s
	add	v28.4s, v18.4s, v0.4s
	eor	v18.16b, v29.16b, v10.16b
	rev64	v10.4s, v4.4s
	eor	v19.16b, v28.16b, v11.16b
	rev64	v11.4s, v5.4s
	shl	v13.4s, v18.4s, #24
	shl	v14.4s, v19.4s, #24
	usra	v13.4s, v18.4s, #8
	uzp2	v18.4s, v4.4s, v10.4s
	uzp2	v10.4s, v5.4s, v11.4s
	usra	v14.4s, v19.4s, #8
	mov	v19.16b, v16.16b
	add	v1.4s, v13.4s, v1.4s
	uzp2	v3.4s, v18.4s, v24.4s
	uzp2	v2.4s, v10.4s, v25.4s
	mov	v18.16b, v21.16b
	add	v11.4s, v14.4s, v12.4s
	eor	v10.16b, v1.16b, v15.16b
	ext	v1.16b, v1.16b, v1.16b, #12
	eor	v0.16b, v11.16b, v0.16b
	add	v29.4s, v29.4s, v3.4s
	add	v28.4s, v28.4s, v2.4s
	shl	v12.4s, v10.4s, #25
	stp	q3, q2, [sp, #144]
	shl	v15.4s, v0.4s, #25
	ext	v29.16b, v29.16b, v29.16b, #4
	ext	v28.16b, v28.16b, v28.16b, #4
	usra	v12.4s, v10.4s, #7
	ext	v10.16b, v14.16b, v14.16b, #8
	usra	v15.4s, v0.4s, #7
	ext	v0.16b, v13.16b, v13.16b, #8
	add	v13.4s, v12.4s, v29.4s
	ext	v29.16b, v11.16b, v11.16b, #12
	add	v14.4s, v15.4s, v28.4s
	eor	v0.16b, v13.16b, v0.16b
	eor	v28.16b, v14.16b, v10.16b
	rev32	v2.8h, v0.8h
	rev32	v10.8h, v28.8h
	zip1	v28.4s, v5.4s, v6.4s
	add	v3.4s, v2.4s, v1.4s
	add	v11.4s, v10.4s, v29.4s
	zip1	v29.4s, v4.4s, v7.4s
	mov	v28.s[3], v6.s[2]
	eor	v12.16b, v3.16b, v12.16b
	eor	v15.16b, v11.16b, v15.16b
	mov	v29.s[3], v7.s[2]
	shl	v1.4s, v12.4s, #20
	mov	v7.16b, v20.16b
	shl	v0.4s, v15.4s, #20
	usra	v1.4s, v12.4s, #12
	add	v12.4s, v13.4s, v29.4s
	add	v13.4s, v14.4s, v28.4s
	usra	v0.4s, v15.4s, #12
	add	v12.4s, v12.4s, v1.4s
	add	v13.4s, v13.4s, v0.4s
	eor	v2.16b, v12.16b, v2.16b
	eor	v10.16b, v13.16b, v10.16b
	shl	v14.4s, v2.4s, #24
	shl	v15.4s, v10.4s, #24
	usra	v14.4s, v2.4s, #8
	usra	v15.4s, v10.4s, #8
	add	v2.4s, v14.4s, v3.4s
	ext	v3.16b, v31.16b, v17.16b, #12
	ext	v31.16b, v30.16b, v8.16b, #12
	add	v10.4s, v15.4s, v11.4s
	eor	v1.16b, v2.16b, v1.16b
	ext	v2.16b, v2.16b, v2.16b, #4
	eor	v0.16b, v10.16b, v0.16b
	uzp1	v31.4s, v8.4s, v31.4s
	ext	v8.16b, v13.16b, v13.16b, #12
	uzp1	v30.4s, v17.4s, v3.4s
	ext	v3.16b, v12.16b, v12.16b, #12
	ext	v13.16b, v6.16b, v6.16b, #12
	shl	v11.4s, v1.4s, #25
	ldr	q17, [sp, #32]
	shl	v12.4s, v0.4s, #25
	usra	v11.4s, v1.4s, #7
	add	v1.4s, v3.4s, v30.4s
	ext	v3.16b, v14.16b, v14.16b, #8
	usra	v12.4s, v0.4s, #7
	add	v0.4s, v8.4s, v31.4s
	ext	v8.16b, v15.16b, v15.16b, #8
	add	v1.4s, v1.4s, v11.4s
	add	v0.4s, v0.4s, v12.4s
	eor	v3.16b, v1.16b, v3.16b
	eor	v14.16b, v0.16b, v8.16b
	uzp1	v8.4s, v27.4s, v9.4s
	uzp1	v9.4s, v26.4s, v13.4s
	ext	v26.16b, v10.16b, v10.16b, #4
	rev32	v3.8h, v3.8h
	rev32	v27.8h, v14.8h
	mov	v10.16b, v8.16b
	add	v2.4s, v3.4s, v2.4s
	add	v13.4s, v27.4s, v26.4s
	mov	v26.16b, v9.16b
	mov	v10.s[2], v16.s[0]
	eor	v11.16b, v2.16b, v11.16b
	mov	v26.s[2], v17.s[0]
	eor	v12.16b, v13.16b, v12.16b
	mov	v10.s[3], v8.s[2]
	shl	v14.4s, v11.4s, #20
	shl	v15.4s, v12.4s, #20
	mov	v26.s[3], v9.s[2]
	add	v1.4s, v1.4s, v10.4s
	usra	v14.4s, v11.4s, #12
	usra	v15.4s, v12.4s, #12
	add	v0.4s, v0.4s, v26.4s
	add	v11.4s, v1.4s, v14.4s
	add	v10.4s, v0.4s, v15.4s
	eor	v0.16b, v11.16b, v3.16b
	eor	v1.16b, v10.16b, v27.16b
	shl	v27.4s, v0.4s, #24
	shl	v26.4s, v1.4s, #24
	usra	v27.4s, v0.4s, #8
	ext	v0.16b, v24.16b, v24.16b, #8
	usra	v26.4s, v1.4s, #8
	ext	v1.16b, v25.16b, v25.16b, #8
	add	v2.4s, v27.4s, v2.4s
	uzp2	v0.4s, v0.4s, v29.4s
	ext	v27.16b, v27.16b, v27.16b, #8
	add	v3.4s, v26.4s, v13.4s
	eor	v12.16b, v2.16b, v14.16b
	ext	v26.16b, v26.16b, v26.16b, #8
	uzp2	v1.4s, v1.4s, v28.4s
	ext	v2.16b, v2.16b, v2.16b, #12
	add	v0.4s, v11.4s, v0.4s
	eor	v13.16b, v3.16b, v15.16b
	ext	v3.16b, v3.16b, v3.16b, #12
	add	v1.4s, v10.4s, v1.4s
	shl	v10.4s, v12.4s, #25
	ext	v0.16b, v0.16b, v0.16b, #4
	shl	v11.4s, v13.4s, #25
	usra	v10.4s, v12.4s, #7
	ext	v1.16b, v1.16b, v1.16b, #4
	usra	v11.4s, v13.4s, #7
	add	v0.4s, v10.4s, v0.4s
	add	v1.4s, v11.4s, v1.4s
	eor	v27.16b, v0.16b, v27.16b
	eor	v12.16b, v1.16b, v26.16b
	mov	v26.16b, v4.16b
	rev32	v13.8h, v27.8h
	mov	v27.16b, v5.16b
	mov	v26.s[0], v20.s[3]
	rev32	v12.8h, v12.8h
	ldp	q20, q6, [sp]
	mov	v27.s[0], v21.s[3]
	add	v2.4s, v13.4s, v2.4s
	mov	v26.s[1], v20.s[1]
	add	v3.4s, v12.4s, v3.4s
	mov	v27.s[1], v6.s[1]
	eor	v10.16b, v2.16b, v10.16b
	eor	v11.16b, v3.16b, v11.16b
	mov	v26.s[3], v8.s[2]
	shl	v8.4s, v10.4s, #20
	mov	v27.s[3], v9.s[2]
	shl	v9.4s, v11.4s, #20
	usra	v8.4s, v10.4s, #12
	add	v0.4s, v0.4s, v26.4s
	usra	v9.4s, v11.4s, #12
	add	v1.4s, v1.4s, v27.4s
	add	v0.4s, v0.4s, v8.4s
	add	v1.4s, v1.4s, v9.4s
	eor	v10.16b, v0.16b, v13.16b
	zip1	v13.4s, v17.4s, v21.4s
	ext	v0.16b, v0.16b, v0.16b, #12
	eor	v11.16b, v1.16b, v12.16b
	zip1	v12.4s, v16.4s, v7.4s
	ext	v1.16b, v1.16b, v1.16b, #12
	shl	v14.4s, v10.4s, #24
	shl	v15.4s, v11.4s, #24
	usra	v14.4s, v10.4s, #8
	ext	v10.16b, v12.16b, v7.16b, #8
	trn1	v12.4s, v23.4s, v20.4s
	usra	v15.4s, v11.4s, #8
	ext	v11.16b, v13.16b, v21.16b, #8
	trn1	v13.4s, v22.4s, v6.4s
	add	v2.4s, v14.4s, v2.4s
	uzp2	v21.4s, v24.4s, v20.4s
	uzp2	v20.4s, v25.4s, v6.4s
	ext	v30.16b, v30.16b, v10.16b, #12
	ldr	q6, [sp, #128]
	add	v3.4s, v15.4s, v3.4s
	eor	v8.16b, v2.16b, v8.16b
	ext	v31.16b, v31.16b, v11.16b, #12
	ext	v2.16b, v2.16b, v2.16b, #4
	uzp1	v30.4s, v10.4s, v30.4s
	eor	v9.16b, v3.16b, v9.16b
	ext	v3.16b, v3.16b, v3.16b, #4
	shl	v10.4s, v8.4s, #25
	uzp1	v31.4s, v11.4s, v31.4s
	shl	v11.4s, v9.4s, #25
	usra	v10.4s, v8.4s, #7
	add	v0.4s, v0.4s, v30.4s
	ext	v8.16b, v14.16b, v14.16b, #8
	usra	v11.4s, v9.4s, #7
	add	v1.4s, v1.4s, v31.4s
	ext	v9.16b, v15.16b, v15.16b, #8
	add	v0.4s, v0.4s, v10.4s
	add	v1.4s, v1.4s, v11.4s
	eor	v8.16b, v0.16b, v8.16b
	eor	v9.16b, v1.16b, v9.16b
	rev32	v14.8h, v8.8h
	ext	v8.16b, v23.16b, v12.16b, #12
	rev32	v23.8h, v9.8h
	ext	v9.16b, v22.16b, v13.16b, #12
	add	v2.4s, v14.4s, v2.4s
	trn1	v22.4s, v16.4s, v8.4s
	ext	v16.16b, v29.16b, v29.16b, #8
	add	v3.4s, v23.4s, v3.4s
	trn1	v12.4s, v17.4s, v9.4s
	eor	v10.16b, v2.16b, v10.16b
	mov	v22.d[0], v8.d[0]
	eor	v11.16b, v3.16b, v11.16b
	shl	v13.4s, v10.4s, #20
	mov	v12.d[0], v9.d[0]
	shl	v15.4s, v11.4s, #20
	add	v0.4s, v0.4s, v22.4s
	usra	v13.4s, v10.4s, #12
	add	v1.4s, v1.4s, v12.4s
	usra	v15.4s, v11.4s, #12
	add	v0.4s, v0.4s, v13.4s
	add	v1.4s, v1.4s, v15.4s
	eor	v22.16b, v0.16b, v14.16b
	eor	v23.16b, v1.16b, v23.16b
	shl	v10.4s, v22.4s, #24
	shl	v11.4s, v23.4s, #24
	usra	v10.4s, v22.4s, #8
	mov	v22.16b, v18.16b
	usra	v11.4s, v23.4s, #8
	ext	v23.16b, v28.16b, v28.16b, #8
	uzp2	v28.4s, v16.4s, v26.4s
	add	v2.4s, v10.4s, v2.4s
	add	v3.4s, v11.4s, v3.4s
	eor	v12.16b, v2.16b, v13.16b
	uzp2	v29.4s, v23.4s, v27.4s
	add	v0.4s, v0.4s, v28.4s
	ext	v28.16b, v10.16b, v10.16b, #8
	ext	v2.16b, v2.16b, v2.16b, #12
	trn2	v23.4s, v23.4s, v22.4s
	eor	v13.16b, v3.16b, v15.16b
	ext	v3.16b, v3.16b, v3.16b, #12
	shl	v14.4s, v12.4s, #25
	ext	v0.16b, v0.16b, v0.16b, #4
	add	v1.4s, v1.4s, v29.4s
	ext	v29.16b, v11.16b, v11.16b, #8
	shl	v15.4s, v13.4s, #25
	usra	v14.4s, v12.4s, #7
	ext	v1.16b, v1.16b, v1.16b, #4
	usra	v15.4s, v13.4s, #7
	add	v0.4s, v14.4s, v0.4s
	add	v1.4s, v15.4s, v1.4s
	eor	v28.16b, v0.16b, v28.16b
	eor	v29.16b, v1.16b, v29.16b
	rev32	v10.8h, v28.8h
	uzp2	v28.4s, v21.4s, v24.4s
	uzp1	v24.4s, v6.4s, v6.4s
	ldr	q6, [sp, #112]
	rev32	v11.8h, v29.8h
	uzp2	v29.4s, v20.4s, v25.4s
	uzp1	v25.4s, v6.4s, v6.4s
	add	v2.4s, v10.4s, v2.4s
	mov	v21.16b, v28.16b
	mov	v24.s[2], v7.s[3]
	add	v3.4s, v11.4s, v3.4s
	mov	v20.16b, v29.16b
	eor	v12.16b, v2.16b, v14.16b
	mov	v21.s[3], v8.s[2]
	mov	v25.s[2], v18.s[3]
	ext	v30.16b, v30.16b, v24.16b, #12
	mov	v18.16b, v19.16b
	mov	v14.16b, v4.16b
	eor	v13.16b, v3.16b, v15.16b
	mov	v20.s[3], v9.s[2]
	shl	v8.4s, v12.4s, #20
	ldp	q6, q15, [sp, #80]
	add	v0.4s, v0.4s, v21.4s
	ext	v31.16b, v31.16b, v25.16b, #12
	shl	v9.4s, v13.4s, #20
	uzp1	v24.4s, v24.4s, v30.4s
	usra	v8.4s, v12.4s, #12
	add	v1.4s, v1.4s, v20.4s
	mov	v14.s[2], v6.s[1]
	usra	v9.4s, v13.4s, #12
	uzp1	v25.4s, v25.4s, v31.4s
	add	v0.4s, v0.4s, v8.4s
	add	v1.4s, v1.4s, v9.4s
	eor	v10.16b, v0.16b, v10.16b
	ext	v0.16b, v0.16b, v0.16b, #12
	eor	v11.16b, v1.16b, v11.16b
	ext	v1.16b, v1.16b, v1.16b, #12
	shl	v12.4s, v10.4s, #24
	add	v0.4s, v0.4s, v24.4s
	ext	v24.16b, v24.16b, v14.16b, #12
	shl	v13.4s, v11.4s, #24
	usra	v12.4s, v10.4s, #8
	add	v1.4s, v1.4s, v25.4s
	ext	v10.16b, v19.16b, v7.16b, #4
	mov	v19.16b, v17.16b
	usra	v13.4s, v11.4s, #8
	ext	v11.16b, v17.16b, v22.16b, #4
	uzp1	v24.4s, v14.4s, v24.4s
	add	v2.4s, v12.4s, v2.4s
	uzp2	v10.4s, v10.4s, v18.4s
	add	v3.4s, v13.4s, v3.4s
	eor	v8.16b, v2.16b, v8.16b
	ext	v2.16b, v2.16b, v2.16b, #4
	uzp2	v11.4s, v11.4s, v17.4s
	eor	v9.16b, v3.16b, v9.16b
	ext	v3.16b, v3.16b, v3.16b, #4
	rev64	v10.4s, v10.4s
	shl	v30.4s, v8.4s, #25
	rev64	v11.4s, v11.4s
	shl	v31.4s, v9.4s, #25
	usra	v30.4s, v8.4s, #7
	ext	v8.16b, v12.16b, v12.16b, #8
	usra	v31.4s, v9.4s, #7
	ext	v9.16b, v13.16b, v13.16b, #8
	add	v0.4s, v0.4s, v30.4s
	add	v1.4s, v1.4s, v31.4s
	eor	v8.16b, v0.16b, v8.16b
	add	v0.4s, v0.4s, v10.4s
	eor	v9.16b, v1.16b, v9.16b
	add	v1.4s, v1.4s, v11.4s
	rev32	v8.8h, v8.8h
	rev32	v9.8h, v9.8h
	add	v2.4s, v8.4s, v2.4s
	add	v3.4s, v9.4s, v3.4s
	eor	v30.16b, v2.16b, v30.16b
	eor	v31.16b, v3.16b, v31.16b
	shl	v12.4s, v30.4s, #20
	shl	v13.4s, v31.4s, #20
	usra	v12.4s, v30.4s, #12
	usra	v13.4s, v31.4s, #12
	add	v0.4s, v0.4s, v12.4s
	add	v1.4s, v1.4s, v13.4s
	eor	v30.16b, v0.16b, v8.16b
	eor	v31.16b, v1.16b, v9.16b
	shl	v8.4s, v30.4s, #24
	shl	v9.4s, v31.4s, #24
	usra	v8.4s, v30.4s, #8
	ext	v30.16b, v26.16b, v26.16b, #8
	usra	v9.4s, v31.4s, #8
	ext	v31.16b, v27.16b, v27.16b, #8
	add	v2.4s, v8.4s, v2.4s
	uzp2	v30.4s, v30.4s, v21.4s
	add	v3.4s, v9.4s, v3.4s
	eor	v10.16b, v2.16b, v12.16b
	uzp2	v31.4s, v31.4s, v20.4s
	ext	v2.16b, v2.16b, v2.16b, #12
	add	v0.4s, v0.4s, v30.4s
	eor	v11.16b, v3.16b, v13.16b
	ext	v3.16b, v3.16b, v3.16b, #12
	shl	v30.4s, v10.4s, #25
	add	v1.4s, v1.4s, v31.4s
	ext	v31.16b, v8.16b, v8.16b, #8
	ext	v8.16b, v9.16b, v9.16b, #8
	ext	v0.16b, v0.16b, v0.16b, #4
	shl	v12.4s, v11.4s, #25
	usra	v30.4s, v10.4s, #7
	ext	v1.16b, v1.16b, v1.16b, #4
	usra	v12.4s, v11.4s, #7
	add	v0.4s, v30.4s, v0.4s
	add	v1.4s, v12.4s, v1.4s
	eor	v31.16b, v0.16b, v31.16b
	eor	v8.16b, v1.16b, v8.16b
	rev32	v9.8h, v31.8h
	trn2	v31.4s, v16.4s, v7.4s
	ext	v16.16b, v27.16b, v19.16b, #4
	rev32	v8.8h, v8.8h
	add	v2.4s, v9.4s, v2.4s
	str	q31, [sp, #128]
	mov	v31.s[3], v18.s[1]
	ext	v16.16b, v16.16b, v16.16b, #8
	add	v3.4s, v8.4s, v3.4s
	eor	v10.16b, v2.16b, v30.16b
	mov	v30.16b, v23.16b
	add	v0.4s, v0.4s, v31.4s
	eor	v11.16b, v3.16b, v12.16b
	mov	v16.s[3], v22.s[2]
	shl	v12.4s, v10.4s, #20
	mov	v30.s[3], v17.s[1]
	ext	v17.16b, v26.16b, v18.16b, #4
	ldr	q18, [sp, #144]
	shl	v13.4s, v11.4s, #20
	usra	v12.4s, v10.4s, #12
	mov	v18.s[2], v6.s[2]
	ldr	q6, [sp, #160]
	add	v1.4s, v1.4s, v30.4s
	ext	v17.16b, v17.16b, v17.16b, #8
	usra	v13.4s, v11.4s, #12
	mov	v6.s[2], v15.s[2]
	add	v0.4s, v0.4s, v12.4s
	add	v1.4s, v1.4s, v13.4s
	mov	v17.s[3], v7.s[2]
	eor	v9.16b, v0.16b, v9.16b
	ext	v0.16b, v0.16b, v0.16b, #12
	eor	v8.16b, v1.16b, v8.16b
	ext	v1.16b, v1.16b, v1.16b, #12
	shl	v10.4s, v9.4s, #24
	add	v0.4s, v0.4s, v24.4s
	shl	v11.4s, v8.4s, #24
	usra	v10.4s, v9.4s, #8
	mov	v9.16b, v5.16b
	usra	v11.4s, v8.4s, #8
	mov	v9.s[2], v15.s[1]
	add	v2.4s, v10.4s, v2.4s
	add	v3.4s, v11.4s, v3.4s
	eor	v8.16b, v2.16b, v12.16b
	ext	v2.16b, v2.16b, v2.16b, #4
	ext	v25.16b, v25.16b, v9.16b, #12
	eor	v12.16b, v3.16b, v13.16b
	ext	v3.16b, v3.16b, v3.16b, #4
	uzp1	v25.4s, v9.4s, v25.4s
	shl	v9.4s, v8.4s, #25
	shl	v13.4s, v12.4s, #25
	usra	v9.4s, v8.4s, #7
	usra	v13.4s, v12.4s, #7
	ext	v8.16b, v10.16b, v10.16b, #8
	add	v1.4s, v1.4s, v25.4s
	ext	v10.16b, v11.16b, v11.16b, #8
	zip2	v11.4s, v4.4s, v7.4s
	zip2	v12.4s, v5.4s, v22.4s
	add	v0.4s, v0.4s, v9.4s
	add	v1.4s, v1.4s, v13.4s
	ext	v11.16b, v4.16b, v11.16b, #12
	eor	v8.16b, v0.16b, v8.16b
	eor	v10.16b, v1.16b, v10.16b
	rev32	v8.8h, v8.8h
	rev32	v14.8h, v10.8h
	ext	v10.16b, v5.16b, v12.16b, #12
	add	v4.4s, v8.4s, v2.4s
	trn1	v2.4s, v28.4s, v11.4s
	add	v5.4s, v14.4s, v3.4s
	trn1	v3.4s, v29.4s, v10.4s
	eor	v9.16b, v4.16b, v9.16b
	eor	v12.16b, v5.16b, v13.16b
	mov	v2.d[0], v11.d[0]
	mov	v3.d[0], v10.d[0]
	shl	v28.4s, v9.4s, #20
	shl	v29.4s, v12.4s, #20
	add	v0.4s, v0.4s, v2.4s
	uzp2	v2.4s, v21.4s, v31.4s
	usra	v28.4s, v9.4s, #12
	add	v1.4s, v1.4s, v3.4s
	usra	v29.4s, v12.4s, #12
	ldp	d13, d12, [sp, #192]
	.cfi_remember_state
	.cfi_restore d12
	.cfi_restore d13
	add	v11.4s, v0.4s, v28.4s
	ext	v3.16b, v2.16b, v2.16b, #12
	add	v10.4s, v1.4s, v29.4s
	eor	v0.16b, v11.16b, v8.16b
	eor	v1.16b, v10.16b, v14.16b
	uzp1	v2.4s, v2.4s, v3.4s
	ext	v3.16b, v11.16b, v11.16b, #4
	ldp	d15, d14, [sp, #176]
	.cfi_restore d14
	.cfi_restore d15
	shl	v9.4s, v0.4s, #24
	shl	v8.4s, v1.4s, #24
	add	v2.4s, v3.4s, v2.4s
	usra	v9.4s, v0.4s, #8
	uzp2	v0.4s, v20.4s, v30.4s
	usra	v8.4s, v1.4s, #8
	add	v1.4s, v9.4s, v4.4s
	ext	v3.16b, v9.16b, v9.16b, #8
	add	v4.4s, v8.4s, v5.4s
	ext	v5.16b, v0.16b, v0.16b, #12
	eor	v20.16b, v1.16b, v28.16b
	ext	v1.16b, v1.16b, v1.16b, #12
	eor	v21.16b, v4.16b, v29.16b
	ext	v4.16b, v4.16b, v4.16b, #12
	uzp1	v0.4s, v0.4s, v5.4s
	ext	v5.16b, v10.16b, v10.16b, #4
	shl	v28.4s, v20.4s, #25
	ldp	d11, d10, [sp, #208]
	.cfi_restore d10
	.cfi_restore d11
	shl	v29.4s, v21.4s, #25
	usra	v28.4s, v20.4s, #7
	add	v0.4s, v5.4s, v0.4s
	ext	v5.16b, v8.16b, v8.16b, #8
	usra	v29.4s, v21.4s, #7
	ldp	d9, d8, [sp, #224]
	.cfi_restore d8
	.cfi_restore d9
	add	v2.4s, v28.4s, v2.4s
	add	v0.4s, v29.4s, v0.4s
	eor	v3.16b, v2.16b, v3.16b
	add	v2.4s, v2.4s, v17.4s
	eor	v5.16b, v0.16b, v5.16b
	add	v0.4s, v0.4s, v16.4s
	rev32	v3.8h, v3.8h
	rev32	v5.8h, v5.8h
	add	v1.4s, v3.4s, v1.4s
	add	v4.4s, v5.4s, v4.4s
	eor	v20.16b, v1.16b, v28.16b
	eor	v21.16b, v4.16b, v29.16b
	shl	v26.4s, v20.4s, #20
	shl	v27.4s, v21.4s, #20
	usra	v26.4s, v20.4s, #12
	usra	v27.4s, v21.4s, #12
	add	v2.4s, v2.4s, v26.4s
	add	v0.4s, v0.4s, v27.4s
	eor	v3.16b, v2.16b, v3.16b
	ext	v2.16b, v2.16b, v2.16b, #12
	eor	v5.16b, v0.16b, v5.16b
	ext	v0.16b, v0.16b, v0.16b, #12
	shl	v16.4s, v3.4s, #24
	shl	v17.4s, v5.4s, #24
	usra	v16.4s, v3.4s, #8
	ext	v3.16b, v24.16b, v18.16b, #12
	usra	v17.4s, v5.4s, #8
	ext	v5.16b, v25.16b, v6.16b, #12
	add	v1.4s, v16.4s, v1.4s
	add	v4.4s, v17.4s, v4.4s
	uzp1	v3.4s, v18.4s, v3.4s
	uzp1	v5.4s, v6.4s, v5.4s
	ldr	q6, [sp, #48]
	eor	v20.16b, v1.16b, v26.16b
	ext	v1.16b, v1.16b, v1.16b, #4
	eor	v21.16b, v4.16b, v27.16b
	ext	v4.16b, v4.16b, v4.16b, #4
	add	v2.4s, v2.4s, v3.4s
	ext	v3.16b, v16.16b, v16.16b, #8
	ext	v16.16b, v6.16b, v6.16b, #12
	shl	v18.4s, v20.4s, #25
	add	v0.4s, v0.4s, v5.4s
	ext	v5.16b, v17.16b, v17.16b, #8
	shl	v19.4s, v21.4s, #25
	ldr	q6, [sp, #64]
	usra	v18.4s, v20.4s, #7
	ext	v17.16b, v6.16b, v6.16b, #12
	uzp1	v7.4s, v16.4s, v7.4s
	usra	v19.4s, v21.4s, #7
	ldr	q16, [sp, #128]
	add	v2.4s, v2.4s, v18.4s
	add	v0.4s, v0.4s, v19.4s
	uzp1	v6.4s, v17.4s, v22.4s
	trn1	v16.4s, v16.4s, v7.4s
	eor	v3.16b, v2.16b, v3.16b
	eor	v5.16b, v0.16b, v5.16b
	trn1	v17.4s, v23.4s, v6.4s
	mov	v16.d[0], v7.d[0]
	rev32	v3.8h, v3.8h
	rev32	v5.8h, v5.8h
	mov	v17.d[0], v6.d[0]
	add	v2.4s, v2.4s, v16.4s
	add	v1.4s, v3.4s, v1.4s
	add	v4.4s, v5.4s, v4.4s
	eor	v18.16b, v1.16b, v18.16b
	add	v0.4s, v0.4s, v17.4s
	eor	v19.16b, v4.16b, v19.16b
	shl	v6.4s, v18.4s, #20
	shl	v7.4s, v19.4s, #20
	usra	v6.4s, v18.4s, #12
	usra	v7.4s, v19.4s, #12
	add	v2.4s, v2.4s, v6.4s
	add	v0.4s, v0.4s, v7.4s
	eor	v3.16b, v2.16b, v3.16b
	ext	v2.16b, v2.16b, v2.16b, #4
	eor	v5.16b, v0.16b, v5.16b
	ext	v0.16b, v0.16b, v0.16b, #4
	shl	v16.4s, v3.4s, #24
	shl	v17.4s, v5.4s, #24
	usra	v16.4s, v3.4s, #8
	usra	v17.4s, v5.4s, #8
	add	v1.4s, v16.4s, v1.4s
	ext	v16.16b, v16.16b, v16.16b, #8
	add	v3.4s, v17.4s, v4.4s
	eor	v4.16b, v1.16b, v6.16b
	ext	v1.16b, v1.16b, v1.16b, #12
	eor	v5.16b, v3.16b, v7.16b
	ext	v3.16b, v3.16b, v3.16b, #12
	shl	v6.4s, v4.4s, #25
	shl	v7.4s, v5.4s, #25
	eor	v1.16b, v1.16b, v2.16b
	eor	v0.16b, v3.16b, v0.16b
	usra	v6.4s, v4.4s, #7
	ext	v4.16b, v17.16b, v17.16b, #8
	usra	v7.4s, v5.4s, #7
	stp	q0, q1, [x0]
	eor	v2.16b, v6.16b, v16.16b
	eor	v3.16b, v7.16b, v4.16b
	stp	q3, q2, [x0, #32]
	add	sp, sp, #240
	.cfi_def_cfa sp, 0
	ret
	SIZE("keyed_blake3::compression::two::compress_two_from")
	.cfi_endproc

SIZED(16, 4)
	.p2align	4, 0x0
D(CPI27_0):
	.xword	2
	.xword	3
D(CPI27_2):
	.zero	4
	.zero	4
	.word	64
	.word	18
D(CPI27_4):
	.word	0
	.word	0
	.word	64
	.word	20
SIZED(8, 3)
	.p2align	3, 0x0
D(CPI27_1):
	.word	64
	.word	18
D(CPI27_3):
	.word	64
	.word	20
CODE(".text.keyed_blake3::tree::Tree::absorb_subtrees::<#8b36ca032ac25711>")
	.p2align	2
	TYPE("keyed_blake3::tree::Tree::absorb_subtrees::<#8b36ca032ac25711>", function)
"keyed_blake3::tree::Tree::absorb_subtrees::<#8b36ca032ac25711>":
	.cfi_startproc
	hint	#25
	.cfi_escape 0x2d
	stp	x29, x30, [sp, #-96]!
	.cfi_def_cfa sp, 96
	.cfi_offset x29, -96
	.cfi_offset x30, -88
	stp	x28, x27, [sp, #16]
	.cfi_offset x27, -72
	.cfi_offset x28, -80
	mov	x29, sp
	.cfi_def_cfa x29, 96
	stp	x26, x25, [sp, #32]
	.cfi_offset x25, -56
	.cfi_offset x26, -64
	stp	x24, x23, [sp, #48]
	.cfi_offset x23, -40
	.cfi_offset x24, -48
	stp	x22, x21, [sp, #64]
	.cfi_offset x21, -24
	.cfi_offset x22, -32
	stp	x20, x19, [sp, #80]
	.cfi_offset x19, -8
	.cfi_offset x20, -16
	sub	sp, sp, #864
	movi	v0.2d, #0000000000000000
	mov	x19, x4
	mov	x21, x3
	mov	x22, x2
	mov	x23, x1
	mov	x20, x0
	cmp	x5, #2048
	str	x6, [sp, #40]
	stp	q0, q0, [sp, #208]
	stp	q0, q0, [sp, #240]
	stp	q0, q0, [sp, #272]
	stp	q0, q0, [sp, #304]
	stp	q0, q0, [sp, #336]
	stp	q0, q0, [sp, #368]
	stp	q0, q0, [sp, #400]
	stp	q0, q0, [sp, #432]
	stp	q0, q0, [sp, #464]
	b.ne	L(27_4)
	add	x26, x23, #1
	fmov	d0, x23
	mov	w27, #64
	fmov	d1, x26
	sub	x8, x29, #160
	mov	w28, #15
	add	x8, x8, #32
	mov	x24, x19
	str	x8, [sp, #32]
	stp	q1, q0, [sp]
	mov	v0.s[2], w27
	mov	v1.s[2], w27
	stp	q1, q0, [sp, #48]
	ldp	q0, q2, [x20]
	mov	v1.16b, v0.16b
	mov	v3.16b, v2.16b
L(27_2):
	ldp	q4, q5, [x24]
	cmp	x28, #15
	mov	w8, #16
	sub	x0, x29, #160
	sub	x1, x29, #96
	cinc	w8, w8, eq
	add	x2, sp, #496
	stur	x23, [x29, #-32]
	stp	q4, q5, [x29, #-96]
	ldp	q4, q6, [x24, #32]
	ldr	q5, [x24, #1040]
	stp	w27, w8, [x29, #-24]
	sub	x25, x29, #160
	str	x26, [sp, #560]
	stp	q4, q6, [x29, #-64]
	ldr	q4, [x24, #1024]
	ldr	q6, [x24, #1056]
	str	w27, [sp, #568]
	stp	q4, q5, [sp, #496]
	ldr	q4, [x24, #1072]
	str	w8, [sp, #572]
	stp	q6, q4, [sp, #528]
	ldp	q5, q4, [sp, #48]
	mov	v4.s[3], w8
	mov	v5.s[3], w8
	bl	"keyed_blake3::compression::two::compress_two_from"
	ldp	q0, q1, [x29, #-160]
	subs	x28, x28, #1
	ldp	q2, q3, [x29, #-128]
	add	x24, x24, #64
	b.ne	L(27_2)
	ldp	q4, q5, [x19, #960]
	adrp	x8, PAGE(D(CPI27_1))
	ldr	d16, [x8, LOW(D(CPI27_1))]
	adrp	x8, PAGE(D(CPI27_2))
	add	x8, x8, LOW(D(CPI27_2))
	ldr	x8, [x8, #8]
	ldr	q7, [x19, #2016]
	sub	x0, x29, #160
	stp	q4, q5, [x29, #-96]
	ldp	q4, q6, [x19, #992]
	ldr	q5, [x19, #1984]
	sub	x1, x29, #96
	add	x2, sp, #496
	stur	x23, [x29, #-32]
	stp	q4, q6, [x29, #-64]
	ldr	q6, [x19, #2000]
	stur	d16, [x29, #-24]
	stp	q5, q6, [sp, #496]
	ldp	q5, q4, [sp]
	ldr	q6, [x19, #2032]
	str	x26, [sp, #560]
	str	d16, [sp, #568]
	mov	v4.d[1], x8
	mov	v5.d[1], x8
	stp	q7, q6, [sp, #528]
	bl	"keyed_blake3::compression::two::compress_two_from"
	ld4	{ v0.2s, v1.2s, v2.2s, v3.2s }, [x25]
	ldp	x8, x24, [sp, #32]
	str	xzr, [sp, #408]
	str	xzr, [sp, #424]
	str	xzr, [sp, #472]
	ld4	{ v4.2s, v5.2s, v6.2s, v7.2s }, [x8]
	str	xzr, [sp, #488]
	str	xzr, [sp, #440]
	str	xzr, [sp, #456]
	str	d2, [sp, #400]
	str	d3, [sp, #416]
	str	d0, [sp, #368]
	str	d1, [sp, #384]
	ldp	q1, q0, [sp, #400]
	str	d6, [sp, #464]
	str	d7, [sp, #480]
	stp	q1, q0, [sp, #112]
	ldp	q0, q2, [sp, #464]
	str	d4, [sp, #432]
	str	d5, [sp, #448]
	stp	q0, q2, [sp, #176]
	ldp	q0, q1, [sp, #432]
	str	xzr, [sp, #376]
	str	xzr, [sp, #392]
	stp	q0, q1, [sp, #144]
	ldp	q2, q0, [sp, #368]
	stp	q2, q0, [sp, #80]
	b	L(27_8)
L(27_4):
	mov	x24, x6
	cmp	x5, #1, lsl #12
	b.hi	L(27_6)
	lsr	x8, x5, #10
	add	x0, sp, #368
	sub	x3, x29, #96
	mov	x1, x20
	mov	x2, x19
	mov	x4, x23
	subs	x8, x8, #1
	dup	v0.2d, x8
	adrp	x8, PAGE(D(CPI27_0))
	ldr	q1, [x8, LOW(D(CPI27_0))]
	cset	w8, ne
	stp	xzr, x8, [x29, #-96]
	cmhi	v2.2d, v1.2d, v0.2d
	bif	v0.16b, v1.16b, v2.16b
	stur	q0, [x29, #-80]
	bl	"keyed_blake3::chunks::chunk_values::<#8b36ca032ac25711>"
	b	L(27_7)
L(27_6):
	lsr	x4, x5, #12
	add	x0, sp, #368
	mov	x1, x20
	mov	x2, x19
	mov	x3, xzr
	mov	x5, x23
	bl	"keyed_blake3::subtrees::neighbour_values::<#8b36ca032ac25711>"
L(27_7):
	ldp	q0, q1, [sp, #432]
	stp	q0, q1, [sp, #144]
	ldp	q0, q2, [sp, #464]
	stp	q0, q2, [sp, #176]
	ldp	q1, q0, [sp, #368]
	stp	q1, q0, [sp, #80]
	ldp	q2, q0, [sp, #400]
	stp	q2, q0, [sp, #112]
L(27_8):
	ldp	q0, q1, [sp, #144]
	stp	q0, q1, [sp, #304]
	ldp	q0, q2, [sp, #176]
	stp	q0, q2, [sp, #336]
	ldp	q1, q0, [sp, #80]
	stp	q1, q0, [sp, #240]
	ldp	q2, q0, [sp, #112]
	stp	q2, q0, [sp, #272]
	cbz	x22, L(27_30)
	udiv	x27, x23, x22
	cmp	x21, #3
	b.lo	L(27_26)
	orr	w8, w27, w21
	tbnz	w8, #0, L(27_26)
	sub	x10, x29, #192
	add	x6, sp, #496
	ldr	w11, [sp, #256]
	ldp	w8, w9, [sp, #240]
	sub	x22, x6, x10
	add	x23, x6, #32
	ldr	w10, [sp, #260]
	sub	x7, x29, #224
	ldr	w13, [sp, #272]
	ldr	w12, [sp, #276]
	sub	x19, x29, #256
	ldr	w15, [sp, #288]
	ldr	w14, [sp, #292]
	add	x26, sp, #576
	ldr	w2, [sp, #304]
	ldr	w16, [sp, #308]
	ldr	w3, [sp, #320]
	ldr	w17, [sp, #324]
	ldr	w4, [sp, #336]
	ldr	w0, [sp, #340]
	ldr	w5, [sp, #352]
	ldr	w1, [sp, #356]
	sub	x24, x6, x19
	sub	x25, x23, x7
	sub	x26, x23, x26
L(27_12):
	movi	v0.2d, #0000000000000000
	cmp	x22, #31
	mov	x28, x27
	stp	w8, w11, [x29, #-192]
	stp	w13, w15, [x29, #-184]
	stp	w2, w3, [x29, #-176]
	stp	q0, q0, [sp, #368]
	stp	q0, q0, [sp, #400]
	str	q0, [sp, #432]
	stur	q0, [x29, #-32]
	stp	q0, q0, [x29, #-256]
	stp	q0, q0, [x29, #-160]
	stp	q0, q0, [x29, #-128]
	stp	q0, q0, [x29, #-96]
	stp	q0, q0, [x29, #-64]
	stp	q0, q0, [sp, #576]
	stp	w4, w5, [x29, #-168]
	stp	w9, w10, [x29, #-224]
	stp	w12, w14, [x29, #-216]
	stp	w16, w17, [x29, #-208]
	stp	w0, w1, [x29, #-200]
	stp	q0, q0, [sp, #496]
	stp	q0, q0, [sp, #528]
	b.hi	L(27_15)
	str	w8, [sp, #496]
	str	w11, [sp, #500]
	str	w13, [sp, #504]
	str	w15, [sp, #508]
	str	w2, [sp, #512]
	str	w3, [sp, #516]
	str	w4, [sp, #520]
	str	w5, [sp, #524]
	cmp	x25, #31
	b.ls	L(27_16)
L(27_14):
	ldp	q0, q1, [x29, #-224]
	stp	q0, q1, [x23]
	b	L(27_17)
L(27_15):
	ldp	q0, q1, [x29, #-192]
	stp	q0, q1, [sp, #496]
	cmp	x25, #31
	b.hi	L(27_14)
L(27_16):
	str	w9, [sp, #528]
	str	w10, [sp, #532]
	str	w12, [sp, #536]
	str	w14, [sp, #540]
	str	w16, [sp, #544]
	str	w17, [sp, #548]
	str	w0, [sp, #552]
	str	w1, [sp, #556]
L(27_17):
	ldp	q0, q1, [sp, #496]
	adrp	x8, PAGE(D(CPI27_3))
	ldp	q2, q3, [sp, #528]
	cmp	x24, #31
	ldr	w17, [sp, #264]
	ldr	w0, [sp, #280]
	ldr	w9, [sp, #268]
	stp	q0, q1, [x29, #-160]
	ldr	w1, [sp, #296]
	ldr	w2, [sp, #312]
	stp	q0, q1, [sp, #368]
	movi	v0.2d, #0000000000000000
	ldr	d1, [x8, LOW(D(CPI27_3))]
	ldr	w10, [sp, #284]
	ldr	w11, [sp, #300]
	ldr	w3, [sp, #328]
	ldr	w4, [sp, #344]
	ldr	w12, [sp, #316]
	ldr	w13, [sp, #332]
	ldr	w5, [sp, #360]
	ldr	w15, [sp, #348]
	ldr	w16, [sp, #364]
	stp	q2, q3, [x29, #-128]
	stp	q2, q3, [sp, #400]
	str	xzr, [sp, #432]
	str	d1, [sp, #440]
	ldp	w14, w8, [sp, #248]
	stp	w0, w1, [x29, #-248]
	stp	w2, w3, [x29, #-240]
	stp	w14, w17, [x29, #-256]
	stp	w4, w5, [x29, #-232]
	str	w8, [sp, #576]
	str	w9, [sp, #580]
	str	w10, [sp, #584]
	str	w11, [sp, #588]
	str	w12, [sp, #592]
	str	w13, [sp, #596]
	str	w15, [sp, #600]
	str	w16, [sp, #604]
	stp	q0, q0, [sp, #496]
	stp	q0, q0, [sp, #528]
	b.hi	L(27_20)
	str	w14, [sp, #496]
	str	w17, [sp, #500]
	str	w0, [sp, #504]
	str	w1, [sp, #508]
	str	w2, [sp, #512]
	str	w3, [sp, #516]
	str	w4, [sp, #520]
	str	w5, [sp, #524]
	cmp	x26, #31
	b.ls	L(27_21)
L(27_19):
	ldp	q0, q2, [sp, #576]
	stp	q0, q2, [x23]
	b	L(27_22)
L(27_20):
	ldp	q0, q2, [x29, #-256]
	stp	q0, q2, [sp, #496]
	cmp	x26, #31
	b.hi	L(27_19)
L(27_21):
	str	w8, [sp, #528]
	str	w9, [sp, #532]
	str	w10, [sp, #536]
	str	w11, [sp, #540]
	str	w12, [sp, #544]
	str	w13, [sp, #548]
	str	w15, [sp, #552]
	str	w16, [sp, #556]
L(27_22):
	ldp	q0, q2, [sp, #496]
	adrp	x8, PAGE(D(CPI27_4))
	ldp	q3, q4, [sp, #528]
	add	x0, sp, #496
	stur	d1, [x29, #-24]
	add	x1, sp, #368
	sub	x2, x29, #96
	stp	q0, q2, [x29, #-160]
	stp	q3, q4, [x29, #-128]
	stp	q0, q2, [x29, #-96]
	ldp	q0, q2, [x20]
	stp	q3, q4, [x29, #-64]
	ldr	q4, [x8, LOW(D(CPI27_4))]
	stur	xzr, [x29, #-32]
	mov	v1.16b, v0.16b
	mov	v3.16b, v2.16b
	mov	v5.16b, v4.16b
	bl	"keyed_blake3::compression::two::compress_two_from"
	ldr	w8, [sp, #496]
	ldr	w11, [sp, #500]
	lsr	x27, x28, #1
	ldr	w13, [sp, #504]
	ldr	w15, [sp, #508]
	lsr	x6, x21, #1
	ldr	w9, [sp, #512]
	ldr	w10, [sp, #516]
	cmp	x21, #5
	ldr	w12, [sp, #520]
	ldr	w14, [sp, #524]
	ldr	w2, [sp, #528]
	ldr	w3, [sp, #532]
	ldr	w4, [sp, #536]
	ldr	w5, [sp, #540]
	ldr	w16, [sp, #544]
	ldr	w17, [sp, #548]
	ldr	w0, [sp, #552]
	ldr	w1, [sp, #556]
	str	xzr, [sp, #248]
	str	xzr, [sp, #264]
	str	xzr, [sp, #280]
	str	xzr, [sp, #296]
	str	xzr, [sp, #312]
	str	xzr, [sp, #328]
	str	xzr, [sp, #344]
	str	xzr, [sp, #360]
	b.lo	L(27_25)
	tbnz	w21, #1, L(27_25)
	mov	x21, x6
	tbz	w28, #1, L(27_12)
L(27_25):
	ldr	x24, [sp, #40]
	stp	w8, w9, [sp, #240]
	str	w11, [sp, #256]
	str	w10, [sp, #260]
	str	w13, [sp, #272]
	str	w12, [sp, #276]
	str	w15, [sp, #288]
	str	w14, [sp, #292]
	str	w2, [sp, #304]
	str	w16, [sp, #308]
	str	w3, [sp, #320]
	str	w17, [sp, #324]
	str	w4, [sp, #336]
	str	w0, [sp, #340]
	str	w5, [sp, #352]
	str	w1, [sp, #356]
	subs	x19, x6, #1
	b.ne	L(27_27)
	b	L(27_29)
L(27_26):
	subs	x19, x21, #1
	b.eq	L(27_29)
L(27_27):
	add	x8, sp, #240
	mov	x21, x27
	mov	x23, x19
	add	x22, x8, #64
L(27_28):
	ldur	w8, [x22, #-64]
	ldur	w9, [x22, #-48]
	add	x0, x20, #64
	ldur	w10, [x22, #-32]
	add	x3, sp, #368
	mov	x1, x20
	str	w8, [sp, #368]
	ldur	w8, [x22, #-16]
	mov	x2, x21
	str	w9, [sp, #372]
	ldr	w9, [x22]
	mov	x4, xzr
	str	w10, [sp, #376]
	ldr	w10, [x22, #16]
	str	w8, [sp, #380]
	ldr	w8, [x22, #32]
	str	w9, [sp, #384]
	ldr	w9, [x22, #48]
	str	w10, [sp, #388]
	str	w8, [sp, #392]
	str	w9, [sp, #396]
	bl	"keyed_blake3::tree::add_subtree_value"
	subs	x23, x23, #1
	add	x21, x21, #1
	add	x22, x22, #4
	b.ne	L(27_28)
L(27_29):
	add	x8, sp, #240
	add	x0, x20, #64
	add	x2, x27, x19
	add	x8, x8, x19, lsl #2
	add	x3, sp, #208
	mov	x1, x20
	mov	x4, x24
	ldr	w9, [x8]
	ldr	w10, [x8, #16]
	ldr	w11, [x8, #32]
	stp	w9, w10, [sp, #208]
	ldr	w9, [x8, #48]
	ldr	w10, [x8, #64]
	stp	w11, w9, [sp, #216]
	ldr	w11, [x8, #80]
	ldr	w9, [x8, #96]
	ldr	w8, [x8, #112]
	stp	w10, w11, [sp, #224]
	stp	w9, w8, [sp, #232]
	bl	"keyed_blake3::tree::add_subtree_value"
	add	sp, sp, #864
	ldp	x20, x19, [sp, #80]
	.cfi_remember_state
	.cfi_restore x19
	.cfi_restore x20
	ldp	x22, x21, [sp, #64]
	.cfi_restore x21
	.cfi_restore x22
	ldp	x24, x23, [sp, #48]
	.cfi_restore x23
	.cfi_restore x24
	ldp	x26, x25, [sp, #32]
	.cfi_restore x25
	.cfi_restore x26
	ldp	x28, x27, [sp, #16]
	.cfi_restore x27
	.cfi_restore x28
	ldp	x29, x30, [sp], #96
	.cfi_def_cfa sp, 0
	.cfi_restore x29
	.cfi_restore x30
	hint	#29
	.cfi_escape 0x2d
	ret
L(27_30):
	.cfi_restore_state
	brk	#0x1
	SIZE("keyed_blake3::tree::Tree::absorb_subtrees::<#8b36ca032ac25711>")
	.cfi_endproc

SIZED(16, 4)
	.p2align	4, 0x0
D(CPI28_0):
	.byte	1
	.byte	2
	.byte	3
	.byte	0
	.byte	5
	.byte	6
	.byte	7
	.byte	4
	.byte	9
	.byte	10
	.byte	11
	.byte	8
	.byte	13
	.byte	14
	.byte	15
	.byte	12
CODE(".text.keyed_blake3::chunks::chunk_values::<#8b36ca032ac25711>")
	.p2align	2
	TYPE("keyed_blake3::chunks::chunk_values::<#8b36ca032ac25711>", function)
"keyed_blake3::chunks::chunk_values::<#8b36ca032ac25711>":
	.cfi_startproc
	hint	#25
	.cfi_escape 0x2d
	sub	sp, sp, #368
	.cfi_def_cfa sp, 368
	dup	v1.2d, x4
	ldp	q3, q5, [x3]
	stp	d15, d14, [sp, #288]
	.cfi_offset d14, -72
	.cfi_offset d15, -80
	add	x9, x1, #8
	add	x10, x1, #12
	stp	d13, d12, [sp, #304]
	.cfi_offset d12, -56
	.cfi_offset d13, -64
	add	x11, x1, #16
	add	x12, x1, #20
	addhn	v0.2s, v3.2d, v1.2d
	stp	d11, d10, [sp, #320]
	.cfi_offset d10, -40
	.cfi_offset d11, -48
	add	v17.2d, v5.2d, v1.2d
	stp	d9, d8, [sp, #336]
	.cfi_offset d8, -24
	.cfi_offset d9, -32
	add	v3.2d, v3.2d, v1.2d
	add	x13, x1, #24
	str	x30, [sp, #352]
	.cfi_offset x30, -16
	add	x14, x1, #28
	mov	x8, xzr
	ld1r	{ v19.4s }, [x1], #4
	ld1r	{ v2.4s }, [x9]
	addhn2	v0.4s, v5.2d, v1.2d
	ld1r	{ v7.4s }, [x10]
	ld1r	{ v4.4s }, [x11]
	ld1r	{ v6.4s }, [x12]
	ldp	x9, x10, [x3]
	ldp	x11, x12, [x3, #16]
	ld1r	{ v18.4s }, [x1]
	ld1r	{ v16.4s }, [x13]
	str	q0, [sp, #16]
	uzp1	v0.4s, v3.4s, v17.4s
	ld1r	{ v17.4s }, [x14]
	add	x9, x2, x9, lsl #10
	add	x10, x2, x10, lsl #10
	add	x11, x2, x11, lsl #10
	add	x12, x2, x12, lsl #10
	add	x9, x9, #48
	add	x10, x10, #48
	add	x11, x11, #48
	add	x12, x12, #48
	str	q0, [sp]
L(28_1):
	add	x15, x9, x8
	add	x14, x11, x8
	add	x16, x10, x8
	ldp	q3, q25, [x15, #-48]
	add	x13, x12, x8
	ldp	q20, q28, [x14, #-48]
	add	v19.4s, v19.4s, v4.4s
	ldp	q23, q29, [x13, #-48]
	add	v18.4s, v18.4s, v6.4s
	cmp	x8, #0
	mov	w17, #16
	mov	w1, #18
	zip1	v21.4s, v3.4s, v20.4s
	zip2	v22.4s, v3.4s, v20.4s
	zip1	v20.4s, v25.4s, v28.4s
	ldp	q5, q3, [x16, #-48]
	cinc	w17, w17, eq
	cmp	x8, #960
	add	x8, x8, #64
	csel	w17, w1, w17, eq
	mov	w1, #44677
	cmp	x8, #1024
	zip1	v26.4s, v5.4s, v23.4s
	zip2	v27.4s, v5.4s, v23.4s
	zip1	v24.4s, v3.4s, v29.4s
	zip2	v23.4s, v25.4s, v28.4s
	zip2	v25.4s, v3.4s, v29.4s
	add	v28.4s, v2.4s, v16.4s
	add	v29.4s, v7.4s, v17.4s
	movk	w1, #47975, lsl #16
	dup	v11.4s, w1
	zip1	v3.4s, v21.4s, v26.4s
	zip1	v0.4s, v20.4s, v24.4s
	zip1	v1.4s, v22.4s, v27.4s
	zip1	v2.4s, v23.4s, v25.4s
	add	v30.4s, v19.4s, v3.4s
	add	v8.4s, v28.4s, v0.4s
	add	v31.4s, v18.4s, v1.4s
	stp	q0, q2, [sp, #176]
	ldr	q0, [sp]
	movi	v18.4s, #64
	dup	v19.4s, w17
	add	v29.4s, v29.4s, v2.4s
	mov	w17, #58983
	eor	v28.16b, v30.16b, v0.16b
	ldr	q0, [sp, #16]
	movk	w17, #27145, lsl #16
	zip2	v2.4s, v21.4s, v26.4s
	stp	q1, q3, [sp, #224]
	zip2	v3.4s, v20.4s, v24.4s
	eor	v9.16b, v31.16b, v0.16b
	eor	v18.16b, v8.16b, v18.16b
	eor	v19.16b, v29.16b, v19.16b
	rev32	v10.8h, v28.8h
	dup	v28.4s, w17
	mov	w17, #62322
	movk	w17, #15470, lsl #16
	zip2	v0.4s, v22.4s, v27.4s
	zip2	v1.4s, v23.4s, v25.4s
	rev32	v9.8h, v9.8h
	rev32	v12.8h, v18.8h
	dup	v18.4s, w17
	mov	w17, #62778
	rev32	v13.8h, v19.8h
	add	v20.4s, v30.4s, v2.4s
	movk	w17, #42319, lsl #16
	add	v15.4s, v10.4s, v28.4s
	stp	q3, q2, [sp, #256]
	dup	v14.4s, w17
	add	v23.4s, v31.4s, v0.4s
	add	v29.4s, v29.4s, v1.4s
	add	v11.4s, v9.4s, v11.4s
	add	v19.4s, v12.4s, v18.4s
	adrp	x17, PAGE(D(CPI28_0))
	eor	v4.16b, v15.16b, v4.16b
	ldr	q21, [x17, LOW(D(CPI28_0))]
	str	q0, [sp, #208]
	add	v18.4s, v13.4s, v14.4s
	str	q1, [sp, #160]
	eor	v14.16b, v11.16b, v6.16b
	eor	v26.16b, v19.16b, v16.16b
	eor	v27.16b, v18.16b, v17.16b
	shl	v17.4s, v4.4s, #20
	shl	v28.4s, v14.4s, #20
	shl	v30.4s, v26.4s, #20
	shl	v31.4s, v27.4s, #20
	usra	v17.4s, v4.4s, #12
	add	v4.4s, v8.4s, v3.4s
	usra	v28.4s, v14.4s, #12
	usra	v30.4s, v26.4s, #12
	usra	v31.4s, v27.4s, #12
	add	v25.4s, v20.4s, v17.4s
	add	v20.4s, v23.4s, v28.4s
	add	v24.4s, v4.4s, v30.4s
	add	v8.4s, v29.4s, v31.4s
	eor	v23.16b, v25.16b, v10.16b
	eor	v26.16b, v20.16b, v9.16b
	eor	v27.16b, v24.16b, v12.16b
	eor	v9.16b, v8.16b, v13.16b
	tbl	v10.16b, { v23.16b }, v21.16b
	tbl	v29.16b, { v26.16b }, v21.16b
	ldp	q23, q12, [x15, #-16]
	ldp	q13, q14, [x16, #-16]
	tbl	v7.16b, { v27.16b }, v21.16b
	ldp	q27, q1, [x14, #-16]
	tbl	v9.16b, { v9.16b }, v21.16b
	ldp	q0, q26, [x13, #-16]
	add	v15.4s, v15.4s, v10.4s
	add	v16.4s, v11.4s, v29.4s
	zip2	v11.4s, v12.4s, v1.4s
	zip1	v2.4s, v23.4s, v27.4s
	zip2	v27.4s, v23.4s, v27.4s
	zip2	v22.4s, v14.4s, v26.4s
	zip1	v23.4s, v13.4s, v0.4s
	add	v19.4s, v19.4s, v7.4s
	add	v18.4s, v18.4s, v9.4s
	eor	v17.16b, v15.16b, v17.16b
	zip2	v13.4s, v13.4s, v0.4s
	zip1	v12.4s, v12.4s, v1.4s
	zip1	v14.4s, v14.4s, v26.4s
	eor	v26.16b, v16.16b, v28.16b
	eor	v30.16b, v19.16b, v30.16b
	mov	v28.16b, v2.16b
	zip1	v3.4s, v11.4s, v22.4s
	eor	v6.16b, v18.16b, v31.16b
	zip1	v5.4s, v2.4s, v23.4s
	shl	v2.4s, v17.4s, #25
	zip1	v31.4s, v27.4s, v13.4s
	shl	v1.4s, v26.4s, #25
	zip1	v4.4s, v12.4s, v14.4s
	shl	v0.4s, v30.4s, #25
	zip2	v12.4s, v12.4s, v14.4s
	ldr	q14, [sp, #192]
	usra	v2.4s, v17.4s, #7
	add	v17.4s, v8.4s, v3.4s
	shl	v8.4s, v6.4s, #25
	stp	q5, q3, [sp, #128]
	usra	v1.4s, v26.4s, #7
	add	v25.4s, v25.4s, v5.4s
	usra	v0.4s, v30.4s, #7
	add	v20.4s, v20.4s, v31.4s
	add	v3.4s, v24.4s, v4.4s
	usra	v8.4s, v6.4s, #7
	add	v17.4s, v17.4s, v2.4s
	str	q31, [sp, #64]
	add	v30.4s, v25.4s, v1.4s
	str	q12, [sp, #32]
	add	v20.4s, v20.4s, v0.4s
	add	v3.4s, v3.4s, v8.4s
	eor	v5.16b, v17.16b, v7.16b
	eor	v24.16b, v30.16b, v9.16b
	eor	v25.16b, v20.16b, v10.16b
	eor	v26.16b, v3.16b, v29.16b
	rev32	v5.8h, v5.8h
	add	v3.4s, v3.4s, v12.4s
	rev32	v29.8h, v24.8h
	zip2	v24.4s, v11.4s, v22.4s
	ldr	q22, [sp, #240]
	rev32	v9.8h, v25.8h
	rev32	v10.8h, v26.8h
	zip2	v26.4s, v28.4s, v23.4s
	zip2	v28.4s, v27.4s, v13.4s
	add	v6.4s, v5.4s, v16.4s
	ldp	q25, q13, [sp, #160]
	add	v19.4s, v29.4s, v19.4s
	add	v18.4s, v9.4s, v18.4s
	add	v15.4s, v10.4s, v15.4s
	eor	v2.16b, v6.16b, v2.16b
	stp	q26, q24, [sp, #96]
	eor	v1.16b, v19.16b, v1.16b
	str	q28, [sp, #80]
	eor	v7.16b, v18.16b, v0.16b
	eor	v16.16b, v15.16b, v8.16b
	shl	v23.4s, v2.4s, #20
	shl	v27.4s, v1.4s, #20
	shl	v8.4s, v7.4s, #20
	usra	v23.4s, v2.4s, #12
	add	v2.4s, v17.4s, v24.4s
	shl	v17.4s, v16.4s, #20
	usra	v27.4s, v1.4s, #12
	add	v1.4s, v30.4s, v26.4s
	usra	v8.4s, v7.4s, #12
	add	v7.4s, v20.4s, v28.4s
	usra	v17.4s, v16.4s, #12
	add	v2.4s, v2.4s, v23.4s
	add	v1.4s, v1.4s, v27.4s
	add	v7.4s, v7.4s, v8.4s
	add	v3.4s, v3.4s, v17.4s
	eor	v5.16b, v2.16b, v5.16b
	add	v2.4s, v2.4s, v13.4s
	eor	v16.16b, v1.16b, v29.16b
	eor	v20.16b, v7.16b, v9.16b
	eor	v29.16b, v3.16b, v10.16b
	tbl	v5.16b, { v5.16b }, v21.16b
	add	v3.4s, v3.4s, v25.4s
	tbl	v16.16b, { v16.16b }, v21.16b
	tbl	v20.16b, { v20.16b }, v21.16b
	tbl	v29.16b, { v29.16b }, v21.16b
	add	v6.4s, v6.4s, v5.4s
	add	v19.4s, v19.4s, v16.4s
	add	v18.4s, v18.4s, v20.4s
	add	v30.4s, v15.4s, v29.4s
	eor	v23.16b, v6.16b, v23.16b
	eor	v27.16b, v19.16b, v27.16b
	ldp	q0, q15, [sp, #208]
	eor	v8.16b, v18.16b, v8.16b
	eor	v17.16b, v30.16b, v17.16b
	shl	v9.4s, v23.4s, #25
	shl	v10.4s, v27.4s, #25
	add	v1.4s, v1.4s, v15.4s
	add	v7.4s, v7.4s, v0.4s
	shl	v11.4s, v8.4s, #25
	usra	v9.4s, v23.4s, #7
	shl	v23.4s, v17.4s, #25
	usra	v10.4s, v27.4s, #7
	usra	v11.4s, v8.4s, #7
	usra	v23.4s, v17.4s, #7
	add	v1.4s, v1.4s, v9.4s
	add	v7.4s, v7.4s, v10.4s
	add	v3.4s, v3.4s, v11.4s
	add	v2.4s, v2.4s, v23.4s
	eor	v17.16b, v1.16b, v20.16b
	add	v1.4s, v1.4s, v14.4s
	eor	v20.16b, v7.16b, v29.16b
	add	v7.4s, v7.4s, v31.4s
	eor	v5.16b, v3.16b, v5.16b
	add	v3.4s, v3.4s, v22.4s
	ldr	q22, [sp, #272]
	eor	v16.16b, v2.16b, v16.16b
	rev32	v17.8h, v17.8h
	add	v2.4s, v2.4s, v12.4s
	rev32	v20.8h, v20.8h
	rev32	v5.8h, v5.8h
	rev32	v16.8h, v16.8h
	add	v27.4s, v30.4s, v17.4s
	add	v6.4s, v20.4s, v6.4s
	add	v19.4s, v5.4s, v19.4s
	add	v18.4s, v16.4s, v18.4s
	eor	v29.16b, v27.16b, v9.16b
	eor	v30.16b, v6.16b, v10.16b
	eor	v8.16b, v19.16b, v11.16b
	eor	v23.16b, v18.16b, v23.16b
	shl	v9.4s, v29.4s, #20
	shl	v10.4s, v30.4s, #20
	shl	v11.4s, v8.4s, #20
	usra	v9.4s, v29.4s, #12
	shl	v29.4s, v23.4s, #20
	usra	v10.4s, v30.4s, #12
	usra	v11.4s, v8.4s, #12
	usra	v29.4s, v23.4s, #12
	add	v1.4s, v1.4s, v9.4s
	add	v7.4s, v7.4s, v10.4s
	add	v3.4s, v3.4s, v11.4s
	add	v2.4s, v2.4s, v29.4s
	eor	v17.16b, v1.16b, v17.16b
	add	v1.4s, v1.4s, v22.4s
	eor	v20.16b, v7.16b, v20.16b
	add	v7.4s, v7.4s, v4.4s
	ldr	q22, [sp, #128]
	eor	v5.16b, v3.16b, v5.16b
	add	v3.4s, v3.4s, v26.4s
	mov	v26.16b, v28.16b
	eor	v16.16b, v2.16b, v16.16b
	tbl	v17.16b, { v17.16b }, v21.16b
	add	v2.4s, v2.4s, v24.4s
	tbl	v20.16b, { v20.16b }, v21.16b
	ldr	q24, [sp, #256]
	tbl	v5.16b, { v5.16b }, v21.16b
	tbl	v16.16b, { v16.16b }, v21.16b
	add	v23.4s, v27.4s, v17.4s
	add	v6.4s, v6.4s, v20.4s
	add	v19.4s, v19.4s, v5.4s
	add	v18.4s, v18.4s, v16.4s
	eor	v27.16b, v23.16b, v9.16b
	eor	v30.16b, v6.16b, v10.16b
	eor	v8.16b, v19.16b, v11.16b
	eor	v29.16b, v18.16b, v29.16b
	shl	v9.4s, v27.4s, #25
	shl	v10.4s, v30.4s, #25
	shl	v11.4s, v8.4s, #25
	usra	v9.4s, v27.4s, #7
	shl	v27.4s, v29.4s, #25
	usra	v10.4s, v30.4s, #7
	usra	v11.4s, v8.4s, #7
	usra	v27.4s, v29.4s, #7
	add	v2.4s, v2.4s, v9.4s
	add	v1.4s, v1.4s, v10.4s
	add	v7.4s, v7.4s, v11.4s
	add	v3.4s, v3.4s, v27.4s
	eor	v5.16b, v2.16b, v5.16b
	add	v2.4s, v2.4s, v22.4s
	eor	v16.16b, v1.16b, v16.16b
	add	v1.4s, v1.4s, v28.4s
	ldr	q28, [sp, #144]
	eor	v17.16b, v7.16b, v17.16b
	add	v7.4s, v7.4s, v24.4s
	ldr	q24, [sp, #80]
	eor	v20.16b, v3.16b, v20.16b
	rev32	v5.8h, v5.8h
	add	v3.4s, v3.4s, v28.4s
	rev32	v16.8h, v16.8h
	rev32	v17.8h, v17.8h
	rev32	v20.8h, v20.8h
	add	v6.4s, v5.4s, v6.4s
	add	v19.4s, v16.4s, v19.4s
	add	v18.4s, v17.4s, v18.4s
	add	v23.4s, v20.4s, v23.4s
	eor	v29.16b, v6.16b, v9.16b
	eor	v30.16b, v19.16b, v10.16b
	eor	v8.16b, v18.16b, v11.16b
	eor	v27.16b, v23.16b, v27.16b
	shl	v9.4s, v29.4s, #20
	shl	v10.4s, v30.4s, #20
	shl	v11.4s, v8.4s, #20
	usra	v9.4s, v29.4s, #12
	shl	v29.4s, v27.4s, #20
	usra	v10.4s, v30.4s, #12
	usra	v11.4s, v8.4s, #12
	usra	v29.4s, v27.4s, #12
	add	v2.4s, v2.4s, v9.4s
	add	v1.4s, v1.4s, v10.4s
	add	v7.4s, v7.4s, v11.4s
	add	v3.4s, v3.4s, v29.4s
	eor	v5.16b, v2.16b, v5.16b
	add	v2.4s, v2.4s, v25.4s
	eor	v16.16b, v1.16b, v16.16b
	add	v1.4s, v1.4s, v0.4s
	ldr	q25, [sp, #112]
	eor	v17.16b, v7.16b, v17.16b
	add	v7.4s, v7.4s, v31.4s
	ldr	q0, [sp, #208]
	eor	v20.16b, v3.16b, v20.16b
	tbl	v5.16b, { v5.16b }, v21.16b
	add	v3.4s, v3.4s, v12.4s
	tbl	v16.16b, { v16.16b }, v21.16b
	tbl	v17.16b, { v17.16b }, v21.16b
	tbl	v20.16b, { v20.16b }, v21.16b
	add	v6.4s, v6.4s, v5.4s
	add	v19.4s, v19.4s, v16.4s
	add	v18.4s, v18.4s, v17.4s
	add	v23.4s, v23.4s, v20.4s
	eor	v27.16b, v6.16b, v9.16b
	eor	v30.16b, v19.16b, v10.16b
	eor	v8.16b, v18.16b, v11.16b
	eor	v29.16b, v23.16b, v29.16b
	shl	v9.4s, v27.4s, #25
	shl	v10.4s, v30.4s, #25
	shl	v11.4s, v8.4s, #25
	usra	v9.4s, v27.4s, #7
	shl	v27.4s, v29.4s, #25
	usra	v10.4s, v30.4s, #7
	usra	v11.4s, v8.4s, #7
	usra	v27.4s, v29.4s, #7
	add	v1.4s, v1.4s, v9.4s
	add	v7.4s, v7.4s, v10.4s
	add	v3.4s, v3.4s, v11.4s
	add	v2.4s, v2.4s, v27.4s
	eor	v17.16b, v1.16b, v17.16b
	add	v1.4s, v1.4s, v13.4s
	eor	v20.16b, v7.16b, v20.16b
	add	v7.4s, v7.4s, v4.4s
	mov	v13.16b, v4.16b
	eor	v5.16b, v3.16b, v5.16b
	add	v3.4s, v3.4s, v15.4s
	mov	v15.16b, v28.16b
	eor	v16.16b, v2.16b, v16.16b
	rev32	v17.8h, v17.8h
	add	v2.4s, v2.4s, v28.4s
	rev32	v20.8h, v20.8h
	mov	v28.16b, v13.16b
	str	q13, [sp, #48]
	rev32	v5.8h, v5.8h
	rev32	v16.8h, v16.8h
	add	v23.4s, v23.4s, v17.4s
	add	v6.4s, v20.4s, v6.4s
	add	v19.4s, v5.4s, v19.4s
	add	v18.4s, v16.4s, v18.4s
	eor	v29.16b, v23.16b, v9.16b
	eor	v30.16b, v6.16b, v10.16b
	eor	v8.16b, v19.16b, v11.16b
	eor	v27.16b, v18.16b, v27.16b
	shl	v9.4s, v29.4s, #20
	shl	v10.4s, v30.4s, #20
	shl	v11.4s, v8.4s, #20
	usra	v9.4s, v29.4s, #12
	shl	v29.4s, v27.4s, #20
	usra	v10.4s, v30.4s, #12
	usra	v11.4s, v8.4s, #12
	usra	v29.4s, v27.4s, #12
	add	v1.4s, v1.4s, v9.4s
	add	v7.4s, v7.4s, v10.4s
	add	v3.4s, v3.4s, v11.4s
	add	v2.4s, v2.4s, v29.4s
	eor	v17.16b, v1.16b, v17.16b
	add	v1.4s, v1.4s, v14.4s
	eor	v20.16b, v7.16b, v20.16b
	ldr	q14, [sp, #96]
	eor	v5.16b, v3.16b, v5.16b
	add	v3.4s, v3.4s, v26.4s
	ldr	q26, [sp, #240]
	eor	v16.16b, v2.16b, v16.16b
	tbl	v17.16b, { v17.16b }, v21.16b
	add	v2.4s, v2.4s, v22.4s
	tbl	v20.16b, { v20.16b }, v21.16b
	add	v7.4s, v7.4s, v14.4s
	tbl	v5.16b, { v5.16b }, v21.16b
	ldp	q22, q4, [sp, #256]
	tbl	v16.16b, { v16.16b }, v21.16b
	add	v23.4s, v23.4s, v17.4s
	add	v6.4s, v6.4s, v20.4s
	add	v19.4s, v19.4s, v5.4s
	add	v18.4s, v18.4s, v16.4s
	eor	v27.16b, v23.16b, v9.16b
	eor	v30.16b, v6.16b, v10.16b
	eor	v8.16b, v19.16b, v11.16b
	eor	v29.16b, v18.16b, v29.16b
	shl	v9.4s, v27.4s, #25
	shl	v10.4s, v30.4s, #25
	shl	v11.4s, v8.4s, #25
	usra	v9.4s, v27.4s, #7
	shl	v27.4s, v29.4s, #25
	usra	v10.4s, v30.4s, #7
	usra	v11.4s, v8.4s, #7
	usra	v27.4s, v29.4s, #7
	add	v2.4s, v2.4s, v9.4s
	add	v1.4s, v1.4s, v10.4s
	add	v7.4s, v7.4s, v11.4s
	add	v3.4s, v3.4s, v27.4s
	eor	v5.16b, v2.16b, v5.16b
	add	v2.4s, v2.4s, v4.4s
	eor	v16.16b, v1.16b, v16.16b
	add	v1.4s, v1.4s, v22.4s
	eor	v17.16b, v7.16b, v17.16b
	add	v7.4s, v7.4s, v26.4s
	ldr	q26, [sp, #160]
	eor	v20.16b, v3.16b, v20.16b
	rev32	v5.8h, v5.8h
	add	v3.4s, v3.4s, v25.4s
	rev32	v16.8h, v16.8h
	rev32	v17.8h, v17.8h
	rev32	v20.8h, v20.8h
	add	v6.4s, v5.4s, v6.4s
	add	v19.4s, v16.4s, v19.4s
	add	v18.4s, v17.4s, v18.4s
	add	v23.4s, v20.4s, v23.4s
	eor	v29.16b, v6.16b, v9.16b
	eor	v30.16b, v19.16b, v10.16b
	eor	v8.16b, v18.16b, v11.16b
	eor	v27.16b, v23.16b, v27.16b
	shl	v9.4s, v29.4s, #20
	shl	v10.4s, v30.4s, #20
	shl	v11.4s, v8.4s, #20
	usra	v9.4s, v29.4s, #12
	shl	v29.4s, v27.4s, #20
	usra	v10.4s, v30.4s, #12
	usra	v11.4s, v8.4s, #12
	usra	v29.4s, v27.4s, #12
	add	v2.4s, v2.4s, v9.4s
	add	v1.4s, v1.4s, v10.4s
	add	v7.4s, v7.4s, v11.4s
	add	v3.4s, v3.4s, v29.4s
	eor	v5.16b, v2.16b, v5.16b
	add	v2.4s, v2.4s, v12.4s
	eor	v16.16b, v1.16b, v16.16b
	add	v1.4s, v1.4s, v31.4s
	eor	v17.16b, v7.16b, v17.16b
	add	v7.4s, v7.4s, v13.4s
	ldr	q13, [sp, #176]
	eor	v20.16b, v3.16b, v20.16b
	tbl	v5.16b, { v5.16b }, v21.16b
	add	v3.4s, v3.4s, v15.4s
	tbl	v16.16b, { v16.16b }, v21.16b
	tbl	v17.16b, { v17.16b }, v21.16b
	tbl	v20.16b, { v20.16b }, v21.16b
	add	v6.4s, v6.4s, v5.4s
	add	v19.4s, v19.4s, v16.4s
	add	v18.4s, v18.4s, v17.4s
	add	v23.4s, v23.4s, v20.4s
	eor	v27.16b, v6.16b, v9.16b
	eor	v30.16b, v19.16b, v10.16b
	eor	v8.16b, v18.16b, v11.16b
	eor	v29.16b, v23.16b, v29.16b
	shl	v9.4s, v27.4s, #25
	shl	v10.4s, v30.4s, #25
	shl	v11.4s, v8.4s, #25
	usra	v9.4s, v27.4s, #7
	shl	v27.4s, v29.4s, #25
	usra	v10.4s, v30.4s, #7
	usra	v11.4s, v8.4s, #7
	usra	v27.4s, v29.4s, #7
	add	v1.4s, v1.4s, v9.4s
	add	v7.4s, v7.4s, v10.4s
	add	v3.4s, v3.4s, v11.4s
	add	v2.4s, v2.4s, v27.4s
	eor	v17.16b, v1.16b, v17.16b
	add	v1.4s, v1.4s, v26.4s
	eor	v20.16b, v7.16b, v20.16b
	add	v7.4s, v7.4s, v14.4s
	eor	v5.16b, v3.16b, v5.16b
	add	v3.4s, v3.4s, v0.4s
	ldr	q0, [sp, #192]
	eor	v16.16b, v2.16b, v16.16b
	rev32	v17.8h, v17.8h
	add	v2.4s, v2.4s, v25.4s
	rev32	v20.8h, v20.8h
	rev32	v5.8h, v5.8h
	rev32	v16.8h, v16.8h
	add	v23.4s, v23.4s, v17.4s
	add	v6.4s, v20.4s, v6.4s
	add	v19.4s, v5.4s, v19.4s
	add	v18.4s, v16.4s, v18.4s
	eor	v29.16b, v23.16b, v9.16b
	eor	v30.16b, v6.16b, v10.16b
	eor	v8.16b, v19.16b, v11.16b
	eor	v27.16b, v18.16b, v27.16b
	shl	v9.4s, v29.4s, #20
	shl	v10.4s, v30.4s, #20
	shl	v11.4s, v8.4s, #20
	usra	v9.4s, v29.4s, #12
	shl	v29.4s, v27.4s, #20
	usra	v10.4s, v30.4s, #12
	usra	v11.4s, v8.4s, #12
	usra	v29.4s, v27.4s, #12
	add	v1.4s, v1.4s, v9.4s
	add	v7.4s, v7.4s, v10.4s
	add	v3.4s, v3.4s, v11.4s
	add	v2.4s, v2.4s, v29.4s
	eor	v17.16b, v1.16b, v17.16b
	add	v1.4s, v1.4s, v13.4s
	eor	v20.16b, v7.16b, v20.16b
	add	v7.4s, v7.4s, v24.4s
	eor	v5.16b, v3.16b, v5.16b
	add	v3.4s, v3.4s, v22.4s
	ldr	q22, [sp, #128]
	eor	v16.16b, v2.16b, v16.16b
	tbl	v17.16b, { v17.16b }, v21.16b
	add	v2.4s, v2.4s, v4.4s
	tbl	v20.16b, { v20.16b }, v21.16b
	ldp	q4, q31, [sp, #224]
	tbl	v5.16b, { v5.16b }, v21.16b
	tbl	v16.16b, { v16.16b }, v21.16b
	add	v23.4s, v23.4s, v17.4s
	add	v6.4s, v6.4s, v20.4s
	add	v19.4s, v19.4s, v5.4s
	add	v18.4s, v18.4s, v16.4s
	eor	v27.16b, v23.16b, v9.16b
	eor	v30.16b, v6.16b, v10.16b
	eor	v8.16b, v19.16b, v11.16b
	eor	v29.16b, v18.16b, v29.16b
	shl	v9.4s, v27.4s, #25
	shl	v10.4s, v30.4s, #25
	shl	v11.4s, v8.4s, #25
	usra	v9.4s, v27.4s, #7
	shl	v27.4s, v29.4s, #25
	usra	v10.4s, v30.4s, #7
	usra	v11.4s, v8.4s, #7
	usra	v27.4s, v29.4s, #7
	add	v2.4s, v2.4s, v9.4s
	add	v1.4s, v1.4s, v10.4s
	add	v7.4s, v7.4s, v11.4s
	add	v3.4s, v3.4s, v27.4s
	eor	v5.16b, v2.16b, v5.16b
	add	v2.4s, v2.4s, v0.4s
	eor	v16.16b, v1.16b, v16.16b
	add	v1.4s, v1.4s, v31.4s
	eor	v17.16b, v7.16b, v17.16b
	add	v7.4s, v7.4s, v4.4s
	eor	v20.16b, v3.16b, v20.16b
	rev32	v5.8h, v5.8h
	add	v3.4s, v3.4s, v22.4s
	rev32	v16.8h, v16.8h
	rev32	v17.8h, v17.8h
	rev32	v20.8h, v20.8h
	add	v6.4s, v5.4s, v6.4s
	add	v19.4s, v16.4s, v19.4s
	add	v18.4s, v17.4s, v18.4s
	add	v23.4s, v20.4s, v23.4s
	eor	v29.16b, v6.16b, v9.16b
	eor	v30.16b, v19.16b, v10.16b
	eor	v8.16b, v18.16b, v11.16b
	eor	v27.16b, v23.16b, v27.16b
	shl	v9.4s, v29.4s, #20
	shl	v10.4s, v30.4s, #20
	shl	v11.4s, v8.4s, #20
	usra	v9.4s, v29.4s, #12
	shl	v29.4s, v27.4s, #20
	usra	v10.4s, v30.4s, #12
	usra	v11.4s, v8.4s, #12
	usra	v29.4s, v27.4s, #12
	add	v2.4s, v2.4s, v9.4s
	add	v1.4s, v1.4s, v10.4s
	add	v7.4s, v7.4s, v11.4s
	add	v3.4s, v3.4s, v29.4s
	eor	v5.16b, v2.16b, v5.16b
	add	v2.4s, v2.4s, v15.4s
	eor	v16.16b, v1.16b, v16.16b
	add	v1.4s, v1.4s, v28.4s
	mov	v28.16b, v4.16b
	eor	v17.16b, v7.16b, v17.16b
	add	v7.4s, v7.4s, v14.4s
	eor	v20.16b, v3.16b, v20.16b
	tbl	v5.16b, { v5.16b }, v21.16b
	add	v3.4s, v3.4s, v25.4s
	tbl	v16.16b, { v16.16b }, v21.16b
	mov	v25.16b, v24.16b
	tbl	v17.16b, { v17.16b }, v21.16b
	tbl	v20.16b, { v20.16b }, v21.16b
	add	v6.4s, v6.4s, v5.4s
	add	v19.4s, v19.4s, v16.4s
	add	v18.4s, v18.4s, v17.4s
	add	v23.4s, v23.4s, v20.4s
	eor	v27.16b, v6.16b, v9.16b
	eor	v30.16b, v19.16b, v10.16b
	eor	v8.16b, v18.16b, v11.16b
	eor	v29.16b, v23.16b, v29.16b
	shl	v9.4s, v27.4s, #25
	shl	v10.4s, v30.4s, #25
	shl	v11.4s, v8.4s, #25
	usra	v9.4s, v27.4s, #7
	shl	v27.4s, v29.4s, #25
	usra	v10.4s, v30.4s, #7
	usra	v11.4s, v8.4s, #7
	usra	v27.4s, v29.4s, #7
	add	v1.4s, v1.4s, v9.4s
	add	v7.4s, v7.4s, v10.4s
	add	v3.4s, v3.4s, v11.4s
	add	v2.4s, v2.4s, v27.4s
	eor	v17.16b, v1.16b, v17.16b
	add	v1.4s, v1.4s, v12.4s
	eor	v20.16b, v7.16b, v20.16b
	add	v7.4s, v7.4s, v24.4s
	ldr	q24, [sp, #64]
	eor	v5.16b, v3.16b, v5.16b
	eor	v16.16b, v2.16b, v16.16b
	rev32	v17.8h, v17.8h
	add	v3.4s, v3.4s, v24.4s
	rev32	v20.8h, v20.8h
	add	v2.4s, v2.4s, v22.4s
	rev32	v5.8h, v5.8h
	rev32	v16.8h, v16.8h
	add	v23.4s, v23.4s, v17.4s
	add	v6.4s, v20.4s, v6.4s
	add	v19.4s, v5.4s, v19.4s
	add	v18.4s, v16.4s, v18.4s
	eor	v29.16b, v23.16b, v9.16b
	eor	v30.16b, v6.16b, v10.16b
	eor	v8.16b, v19.16b, v11.16b
	eor	v27.16b, v18.16b, v27.16b
	shl	v9.4s, v29.4s, #20
	shl	v10.4s, v30.4s, #20
	shl	v11.4s, v8.4s, #20
	usra	v9.4s, v29.4s, #12
	shl	v29.4s, v27.4s, #20
	usra	v10.4s, v30.4s, #12
	usra	v11.4s, v8.4s, #12
	usra	v29.4s, v27.4s, #12
	add	v1.4s, v1.4s, v9.4s
	add	v7.4s, v7.4s, v10.4s
	add	v3.4s, v3.4s, v11.4s
	add	v2.4s, v2.4s, v29.4s
	eor	v17.16b, v1.16b, v17.16b
	add	v1.4s, v1.4s, v26.4s
	eor	v20.16b, v7.16b, v20.16b
	ldr	q26, [sp, #256]
	eor	v5.16b, v3.16b, v5.16b
	add	v3.4s, v3.4s, v31.4s
	eor	v16.16b, v2.16b, v16.16b
	tbl	v17.16b, { v17.16b }, v21.16b
	add	v2.4s, v2.4s, v0.4s
	tbl	v20.16b, { v20.16b }, v21.16b
	add	v7.4s, v7.4s, v26.4s
	mov	v0.16b, v31.16b
	tbl	v5.16b, { v5.16b }, v21.16b
	mov	v31.16b, v13.16b
	tbl	v16.16b, { v16.16b }, v21.16b
	add	v23.4s, v23.4s, v17.4s
	add	v6.4s, v6.4s, v20.4s
	add	v19.4s, v19.4s, v5.4s
	add	v18.4s, v18.4s, v16.4s
	eor	v27.16b, v23.16b, v9.16b
	eor	v30.16b, v6.16b, v10.16b
	eor	v8.16b, v19.16b, v11.16b
	eor	v29.16b, v18.16b, v29.16b
	shl	v9.4s, v27.4s, #25
	shl	v10.4s, v30.4s, #25
	shl	v11.4s, v8.4s, #25
	usra	v9.4s, v27.4s, #7
	shl	v27.4s, v29.4s, #25
	usra	v10.4s, v30.4s, #7
	usra	v11.4s, v8.4s, #7
	usra	v27.4s, v29.4s, #7
	add	v2.4s, v2.4s, v9.4s
	add	v1.4s, v1.4s, v10.4s
	add	v7.4s, v7.4s, v11.4s
	add	v3.4s, v3.4s, v27.4s
	eor	v5.16b, v2.16b, v5.16b
	add	v2.4s, v2.4s, v13.4s
	eor	v16.16b, v1.16b, v16.16b
	add	v1.4s, v1.4s, v4.4s
	ldr	q13, [sp, #208]
	eor	v17.16b, v7.16b, v17.16b
	ldr	q4, [sp, #272]
	eor	v20.16b, v3.16b, v20.16b
	rev32	v5.8h, v5.8h
	add	v7.4s, v7.4s, v13.4s
	rev32	v16.8h, v16.8h
	add	v3.4s, v3.4s, v4.4s
	rev32	v17.8h, v17.8h
	rev32	v20.8h, v20.8h
	add	v6.4s, v5.4s, v6.4s
	add	v19.4s, v16.4s, v19.4s
	add	v18.4s, v17.4s, v18.4s
	add	v23.4s, v20.4s, v23.4s
	eor	v29.16b, v6.16b, v9.16b
	eor	v30.16b, v19.16b, v10.16b
	eor	v8.16b, v18.16b, v11.16b
	eor	v27.16b, v23.16b, v27.16b
	shl	v9.4s, v29.4s, #20
	shl	v10.4s, v30.4s, #20
	shl	v11.4s, v8.4s, #20
	usra	v9.4s, v29.4s, #12
	shl	v29.4s, v27.4s, #20
	usra	v10.4s, v30.4s, #12
	usra	v11.4s, v8.4s, #12
	usra	v29.4s, v27.4s, #12
	add	v2.4s, v2.4s, v9.4s
	add	v1.4s, v1.4s, v10.4s
	add	v7.4s, v7.4s, v11.4s
	add	v3.4s, v3.4s, v29.4s
	eor	v5.16b, v2.16b, v5.16b
	eor	v16.16b, v1.16b, v16.16b
	add	v1.4s, v1.4s, v14.4s
	ldr	q14, [sp, #48]
	eor	v17.16b, v7.16b, v17.16b
	add	v7.4s, v7.4s, v25.4s
	ldr	q25, [sp, #112]
	eor	v20.16b, v3.16b, v20.16b
	tbl	v5.16b, { v5.16b }, v21.16b
	add	v3.4s, v3.4s, v22.4s
	tbl	v16.16b, { v16.16b }, v21.16b
	add	v2.4s, v2.4s, v25.4s
	tbl	v17.16b, { v17.16b }, v21.16b
	tbl	v20.16b, { v20.16b }, v21.16b
	add	v6.4s, v6.4s, v5.4s
	add	v19.4s, v19.4s, v16.4s
	add	v18.4s, v18.4s, v17.4s
	add	v23.4s, v23.4s, v20.4s
	eor	v27.16b, v6.16b, v9.16b
	eor	v30.16b, v19.16b, v10.16b
	eor	v8.16b, v18.16b, v11.16b
	eor	v29.16b, v23.16b, v29.16b
	shl	v9.4s, v27.4s, #25
	shl	v10.4s, v30.4s, #25
	shl	v11.4s, v8.4s, #25
	usra	v9.4s, v27.4s, #7
	shl	v27.4s, v29.4s, #25
	usra	v10.4s, v30.4s, #7
	usra	v11.4s, v8.4s, #7
	usra	v27.4s, v29.4s, #7
	add	v1.4s, v1.4s, v9.4s
	add	v7.4s, v7.4s, v10.4s
	add	v3.4s, v3.4s, v11.4s
	add	v2.4s, v2.4s, v27.4s
	eor	v17.16b, v1.16b, v17.16b
	add	v1.4s, v1.4s, v15.4s
	eor	v20.16b, v7.16b, v20.16b
	add	v7.4s, v7.4s, v26.4s
	ldr	q15, [sp, #80]
	eor	v5.16b, v3.16b, v5.16b
	add	v3.4s, v3.4s, v14.4s
	eor	v16.16b, v2.16b, v16.16b
	rev32	v17.8h, v17.8h
	add	v2.4s, v2.4s, v4.4s
	rev32	v20.8h, v20.8h
	rev32	v5.8h, v5.8h
	rev32	v16.8h, v16.8h
	add	v23.4s, v23.4s, v17.4s
	add	v6.4s, v20.4s, v6.4s
	add	v19.4s, v5.4s, v19.4s
	add	v18.4s, v16.4s, v18.4s
	eor	v29.16b, v23.16b, v9.16b
	eor	v30.16b, v6.16b, v10.16b
	eor	v8.16b, v19.16b, v11.16b
	eor	v27.16b, v18.16b, v27.16b
	shl	v9.4s, v29.4s, #20
	shl	v10.4s, v30.4s, #20
	shl	v11.4s, v8.4s, #20
	usra	v9.4s, v29.4s, #12
	shl	v29.4s, v27.4s, #20
	usra	v10.4s, v30.4s, #12
	usra	v11.4s, v8.4s, #12
	usra	v29.4s, v27.4s, #12
	add	v1.4s, v1.4s, v9.4s
	add	v7.4s, v7.4s, v10.4s
	add	v3.4s, v3.4s, v11.4s
	add	v2.4s, v2.4s, v29.4s
	eor	v17.16b, v1.16b, v17.16b
	add	v1.4s, v1.4s, v12.4s
	eor	v20.16b, v7.16b, v20.16b
	add	v7.4s, v7.4s, v0.4s
	eor	v5.16b, v3.16b, v5.16b
	add	v3.4s, v3.4s, v28.4s
	ldr	q28, [sp, #160]
	eor	v16.16b, v2.16b, v16.16b
	tbl	v17.16b, { v17.16b }, v21.16b
	add	v2.4s, v2.4s, v31.4s
	tbl	v20.16b, { v20.16b }, v21.16b
	mov	v31.16b, v13.16b
	tbl	v5.16b, { v5.16b }, v21.16b
	tbl	v16.16b, { v16.16b }, v21.16b
	add	v23.4s, v23.4s, v17.4s
	add	v6.4s, v6.4s, v20.4s
	add	v19.4s, v19.4s, v5.4s
	add	v18.4s, v18.4s, v16.4s
	eor	v27.16b, v23.16b, v9.16b
	eor	v30.16b, v6.16b, v10.16b
	eor	v8.16b, v19.16b, v11.16b
	eor	v29.16b, v18.16b, v29.16b
	shl	v9.4s, v27.4s, #25
	shl	v10.4s, v30.4s, #25
	shl	v11.4s, v8.4s, #25
	usra	v9.4s, v27.4s, #7
	shl	v27.4s, v29.4s, #25
	usra	v10.4s, v30.4s, #7
	usra	v11.4s, v8.4s, #7
	usra	v27.4s, v29.4s, #7
	add	v2.4s, v2.4s, v9.4s
	add	v1.4s, v1.4s, v10.4s
	add	v7.4s, v7.4s, v11.4s
	add	v3.4s, v3.4s, v27.4s
	eor	v5.16b, v2.16b, v5.16b
	add	v2.4s, v2.4s, v28.4s
	eor	v16.16b, v1.16b, v16.16b
	add	v1.4s, v1.4s, v13.4s
	mov	v13.16b, v24.16b
	eor	v17.16b, v7.16b, v17.16b
	add	v7.4s, v7.4s, v24.4s
	ldr	q24, [sp, #192]
	eor	v20.16b, v3.16b, v20.16b
	rev32	v5.8h, v5.8h
	rev32	v16.8h, v16.8h
	add	v3.4s, v3.4s, v24.4s
	rev32	v17.8h, v17.8h
	rev32	v20.8h, v20.8h
	add	v6.4s, v5.4s, v6.4s
	add	v19.4s, v16.4s, v19.4s
	add	v18.4s, v17.4s, v18.4s
	add	v23.4s, v20.4s, v23.4s
	eor	v29.16b, v6.16b, v9.16b
	eor	v30.16b, v19.16b, v10.16b
	eor	v8.16b, v18.16b, v11.16b
	eor	v27.16b, v23.16b, v27.16b
	shl	v9.4s, v29.4s, #20
	shl	v10.4s, v30.4s, #20
	shl	v11.4s, v8.4s, #20
	shl	v12.4s, v27.4s, #20
	usra	v9.4s, v29.4s, #12
	usra	v10.4s, v30.4s, #12
	usra	v11.4s, v8.4s, #12
	usra	v12.4s, v27.4s, #12
	add	v2.4s, v2.4s, v9.4s
	add	v1.4s, v1.4s, v10.4s
	add	v7.4s, v7.4s, v11.4s
	add	v3.4s, v3.4s, v12.4s
	eor	v5.16b, v2.16b, v5.16b
	add	v2.4s, v2.4s, v22.4s
	eor	v16.16b, v1.16b, v16.16b
	add	v1.4s, v1.4s, v15.4s
	eor	v17.16b, v7.16b, v17.16b
	add	v7.4s, v7.4s, v26.4s
	eor	v20.16b, v3.16b, v20.16b
	tbl	v5.16b, { v5.16b }, v21.16b
	add	v3.4s, v3.4s, v4.4s
	tbl	v16.16b, { v16.16b }, v21.16b
	tbl	v17.16b, { v17.16b }, v21.16b
	tbl	v20.16b, { v20.16b }, v21.16b
	add	v6.4s, v6.4s, v5.4s
	add	v19.4s, v19.4s, v16.4s
	add	v18.4s, v18.4s, v17.4s
	add	v23.4s, v23.4s, v20.4s
	eor	v27.16b, v6.16b, v9.16b
	eor	v29.16b, v19.16b, v10.16b
	eor	v30.16b, v18.16b, v11.16b
	eor	v8.16b, v23.16b, v12.16b
	shl	v9.4s, v27.4s, #25
	shl	v10.4s, v29.4s, #25
	shl	v11.4s, v30.4s, #25
	shl	v12.4s, v8.4s, #25
	usra	v9.4s, v27.4s, #7
	usra	v10.4s, v29.4s, #7
	usra	v11.4s, v30.4s, #7
	usra	v12.4s, v8.4s, #7
	add	v1.4s, v1.4s, v9.4s
	add	v7.4s, v7.4s, v10.4s
	add	v3.4s, v3.4s, v11.4s
	add	v2.4s, v2.4s, v12.4s
	eor	v17.16b, v1.16b, v17.16b
	add	v1.4s, v1.4s, v25.4s
	eor	v20.16b, v7.16b, v20.16b
	add	v7.4s, v7.4s, v0.4s
	ldr	q0, [sp, #96]
	eor	v5.16b, v3.16b, v5.16b
	eor	v16.16b, v2.16b, v16.16b
	rev32	v17.8h, v17.8h
	add	v3.4s, v3.4s, v0.4s
	rev32	v20.8h, v20.8h
	add	v2.4s, v2.4s, v24.4s
	rev32	v5.8h, v5.8h
	rev32	v16.8h, v16.8h
	add	v4.4s, v23.4s, v17.4s
	add	v6.4s, v20.4s, v6.4s
	add	v19.4s, v5.4s, v19.4s
	add	v18.4s, v16.4s, v18.4s
	eor	v22.16b, v4.16b, v9.16b
	eor	v23.16b, v6.16b, v10.16b
	eor	v26.16b, v19.16b, v11.16b
	eor	v27.16b, v18.16b, v12.16b
	shl	v29.4s, v22.4s, #20
	shl	v30.4s, v23.4s, #20
	shl	v8.4s, v26.4s, #20
	shl	v9.4s, v27.4s, #20
	usra	v29.4s, v22.4s, #12
	usra	v30.4s, v23.4s, #12
	usra	v8.4s, v26.4s, #12
	usra	v9.4s, v27.4s, #12
	add	v1.4s, v1.4s, v29.4s
	add	v7.4s, v7.4s, v30.4s
	add	v3.4s, v3.4s, v8.4s
	add	v2.4s, v2.4s, v9.4s
	eor	v17.16b, v1.16b, v17.16b
	eor	v20.16b, v7.16b, v20.16b
	eor	v5.16b, v3.16b, v5.16b
	add	v3.4s, v3.4s, v31.4s
	eor	v16.16b, v2.16b, v16.16b
	tbl	v17.16b, { v17.16b }, v21.16b
	add	v2.4s, v2.4s, v28.4s
	tbl	v20.16b, { v20.16b }, v21.16b
	tbl	v5.16b, { v5.16b }, v21.16b
	tbl	v16.16b, { v16.16b }, v21.16b
	add	v0.4s, v4.4s, v17.4s
	ldr	q4, [sp, #144]
	add	v6.4s, v6.4s, v20.4s
	add	v19.4s, v19.4s, v5.4s
	add	v1.4s, v1.4s, v4.4s
	ldr	q4, [sp, #224]
	add	v18.4s, v18.4s, v16.4s
	eor	v22.16b, v0.16b, v29.16b
	eor	v23.16b, v6.16b, v30.16b
	add	v7.4s, v7.4s, v4.4s
	ldr	q4, [sp, #176]
	eor	v24.16b, v19.16b, v8.16b
	eor	v25.16b, v18.16b, v9.16b
	shl	v26.4s, v22.4s, #25
	shl	v27.4s, v23.4s, #25
	shl	v29.4s, v24.4s, #25
	shl	v30.4s, v25.4s, #25
	usra	v26.4s, v22.4s, #7
	usra	v27.4s, v23.4s, #7
	usra	v29.4s, v24.4s, #7
	usra	v30.4s, v25.4s, #7
	add	v2.4s, v2.4s, v26.4s
	add	v1.4s, v1.4s, v27.4s
	add	v7.4s, v7.4s, v29.4s
	add	v3.4s, v3.4s, v30.4s
	eor	v5.16b, v2.16b, v5.16b
	eor	v16.16b, v1.16b, v16.16b
	add	v1.4s, v1.4s, v13.4s
	eor	v17.16b, v7.16b, v17.16b
	eor	v20.16b, v3.16b, v20.16b
	rev32	v5.8h, v5.8h
	add	v3.4s, v3.4s, v4.4s
	rev32	v16.8h, v16.8h
	rev32	v17.8h, v17.8h
	rev32	v20.8h, v20.8h
	add	v6.4s, v5.4s, v6.4s
	add	v19.4s, v16.4s, v19.4s
	add	v18.4s, v17.4s, v18.4s
	add	v8.4s, v20.4s, v0.4s
	eor	v22.16b, v6.16b, v26.16b
	ldr	q0, [sp, #32]
	eor	v23.16b, v19.16b, v27.16b
	eor	v24.16b, v18.16b, v29.16b
	add	v0.4s, v2.4s, v0.4s
	add	v2.4s, v7.4s, v14.4s
	eor	v25.16b, v8.16b, v30.16b
	shl	v26.4s, v22.4s, #20
	shl	v27.4s, v23.4s, #20
	shl	v28.4s, v24.4s, #20
	shl	v29.4s, v25.4s, #20
	usra	v26.4s, v22.4s, #12
	usra	v27.4s, v23.4s, #12
	usra	v28.4s, v24.4s, #12
	usra	v29.4s, v25.4s, #12
	add	v0.4s, v0.4s, v26.4s
	add	v1.4s, v1.4s, v27.4s
	add	v2.4s, v2.4s, v28.4s
	add	v3.4s, v3.4s, v29.4s
	eor	v5.16b, v0.16b, v5.16b
	eor	v7.16b, v1.16b, v16.16b
	eor	v16.16b, v2.16b, v17.16b
	eor	v17.16b, v3.16b, v20.16b
	tbl	v5.16b, { v5.16b }, v21.16b
	tbl	v20.16b, { v7.16b }, v21.16b
	tbl	v16.16b, { v16.16b }, v21.16b
	tbl	v17.16b, { v17.16b }, v21.16b
	add	v4.4s, v6.4s, v5.4s
	add	v6.4s, v19.4s, v20.4s
	add	v7.4s, v18.4s, v16.4s
	add	v18.4s, v8.4s, v17.4s
	eor	v19.16b, v4.16b, v26.16b
	eor	v21.16b, v6.16b, v27.16b
	eor	v22.16b, v7.16b, v28.16b
	eor	v7.16b, v7.16b, v0.16b
	eor	v23.16b, v18.16b, v29.16b
	shl	v24.4s, v19.4s, #25
	shl	v25.4s, v21.4s, #25
	shl	v26.4s, v22.4s, #25
	shl	v27.4s, v23.4s, #25
	usra	v24.4s, v19.4s, #7
	eor	v19.16b, v18.16b, v1.16b
	usra	v25.4s, v21.4s, #7
	eor	v18.16b, v4.16b, v2.16b
	eor	v2.16b, v6.16b, v3.16b
	usra	v26.4s, v22.4s, #7
	usra	v27.4s, v23.4s, #7
	eor	v4.16b, v24.16b, v16.16b
	eor	v6.16b, v25.16b, v17.16b
	eor	v16.16b, v26.16b, v5.16b
	eor	v17.16b, v27.16b, v20.16b
	b.ne	L(28_1)
	ldp	d9, d8, [sp, #336]
	.cfi_remember_state
	.cfi_restore d8
	.cfi_restore d9
	ldr	x30, [sp, #352]
	.cfi_restore x30
	ldp	d11, d10, [sp, #320]
	.cfi_restore d10
	.cfi_restore d11
	stp	q19, q18, [x0]
	stp	q2, q7, [x0, #32]
	ldp	d13, d12, [sp, #304]
	.cfi_restore d12
	.cfi_restore d13
	stp	q4, q6, [x0, #64]
	ldp	d15, d14, [sp, #288]
	.cfi_restore d14
	.cfi_restore d15
	stp	q16, q17, [x0, #96]
	add	sp, sp, #368
	.cfi_def_cfa sp, 0
	hint	#29
	.cfi_escape 0x2d
	ret
	SIZE("keyed_blake3::chunks::chunk_values::<#8b36ca032ac25711>")
	.cfi_endproc

SIZED(16, 4)
	.p2align	4, 0x0
D(CPI29_0):
	.xword	1
	.xword	2
CODE(".text.keyed_blake3::subtrees::neighbour_values::<#8b36ca032ac25711>")
	.p2align	2
	TYPE("keyed_blake3::subtrees::neighbour_values::<#8b36ca032ac25711>", function)
"keyed_blake3::subtrees::neighbour_values::<#8b36ca032ac25711>":
	.cfi_startproc
	hint	#25
	.cfi_escape 0x2d
	stp	x29, x30, [sp, #-80]!
	.cfi_def_cfa sp, 80
	.cfi_offset x29, -80
	.cfi_offset x30, -72
	str	x28, [sp, #16]
	.cfi_offset x28, -64
	mov	x29, sp
	.cfi_def_cfa x29, 80
	stp	x24, x23, [sp, #32]
	.cfi_offset x23, -40
	.cfi_offset x24, -48
	stp	x22, x21, [sp, #48]
	.cfi_offset x21, -24
	.cfi_offset x22, -32
	stp	x20, x19, [sp, #64]
	.cfi_offset x19, -8
	.cfi_offset x20, -16
	sub	sp, sp, #832
	movi	v0.2d, #0000000000000000
	mov	x19, x0
	cmp	x4, #1
	stp	q0, q0, [sp, #288]
	stp	q0, q0, [sp, #320]
	stp	q0, q0, [sp, #352]
	stp	q0, q0, [sp, #384]
	b.ne	L(29_2)
	dup	v0.2d, x3
	adrp	x8, PAGE(D(CPI29_0))
	str	x3, [sp, #256]
	ldr	q1, [x8, LOW(D(CPI29_0))]
	add	x8, x3, #3
	add	x9, sp, #9
	add	x0, sp, #288
	add	x3, sp, #256
	mov	x4, x5
	add	v0.2d, v0.2d, v1.2d
	str	x8, [sp, #280]
	stur	q0, [x9, #255]
	bl	"keyed_blake3::chunks::chunk_values::<#8b36ca032ac25711>"
	ldp	q0, q1, [sp, #352]
	stp	q0, q1, [x19, #64]
	ldp	q0, q2, [sp, #384]
	ldr	q1, [sp, #288]
	stp	q0, q2, [x19, #96]
	b	L(29_3)
L(29_2):
	lsr	x21, x4, #1
	add	x0, sp, #128
	mov	x20, x1
	mov	x22, x2
	mov	x23, x3
	mov	x24, x5
	mov	x4, x21
	bl	"keyed_blake3::subtrees::neighbour_values::<#8b36ca032ac25711>"
	ldr	q0, [sp, #128]
	add	x3, x23, x21, lsl #2
	add	x0, sp, #128
	mov	x1, x20
	mov	x2, x22
	mov	x4, x21
	str	q0, [sp]
	ldr	q0, [sp, #144]
	mov	x5, x24
	str	q0, [sp, #16]
	ldr	q0, [sp, #160]
	str	q0, [sp, #32]
	ldr	q0, [sp, #176]
	str	q0, [sp, #48]
	ldr	q0, [sp, #192]
	str	q0, [sp, #64]
	ldr	q0, [sp, #208]
	str	q0, [sp, #112]
	ldr	q0, [sp, #224]
	str	q0, [sp, #80]
	ldr	q0, [sp, #240]
	str	q0, [sp, #96]
	bl	"keyed_blake3::subtrees::neighbour_values::<#8b36ca032ac25711>"
	ldp	q0, q1, [sp, #128]
	mov	x8, x20
	ldp	q27, q26, [sp]
	sub	x0, x29, #160
	ldp	q3, q4, [sp, #160]
	add	x1, sp, #416
	ldp	q25, q23, [sp, #32]
	sub	x2, x29, #16
	uzp1	v2.4s, v27.4s, v0.4s
	uzp1	v5.4s, v26.4s, v1.4s
	uzp2	v0.4s, v27.4s, v0.4s
	ldp	q22, q24, [sp, #64]
	uzp2	v1.4s, v26.4s, v1.4s
	uzp1	v6.4s, v25.4s, v3.4s
	uzp1	v17.4s, v23.4s, v4.4s
	ldp	q7, q16, [sp, #192]
	uzp2	v3.4s, v25.4s, v3.4s
	stp	q2, q5, [sp, #416]
	ldp	q2, q19, [sp, #224]
	uzp2	v4.4s, v23.4s, v4.4s
	stp	q0, q1, [sp, #544]
	sub	x3, x29, #32
	stp	q6, q17, [sp, #448]
	ldp	q17, q21, [sp, #96]
	uzp2	v0.4s, v21.4s, v16.4s
	uzp1	v5.4s, v24.4s, v2.4s
	uzp1	v18.4s, v22.4s, v7.4s
	uzp1	v20.4s, v21.4s, v16.4s
	uzp1	v6.4s, v17.4s, v19.4s
	uzp2	v1.4s, v24.4s, v2.4s
	uzp2	v2.4s, v17.4s, v19.4s
	stp	q3, q4, [sp, #576]
	movi	v3.4s, #64
	stp	q18, q20, [sp, #480]
	stp	q5, q6, [sp, #512]
	uzp2	v5.4s, v22.4s, v7.4s
	stp	q1, q2, [sp, #640]
	stp	q5, q0, [sp, #608]
	movi	v0.4s, #20
	stp	q0, q3, [x29, #-32]
	ld1r	{ v0.4s }, [x8], #4
	ld1r	{ v1.4s }, [x8]
	add	x8, x20, #8
	ld1r	{ v2.4s }, [x8]
	add	x8, x20, #12
	ld1r	{ v3.4s }, [x8]
	add	x8, x20, #16
	stp	q0, q1, [x29, #-160]
	ld1r	{ v0.4s }, [x8]
	add	x8, x20, #20
	ld1r	{ v1.4s }, [x8]
	add	x8, x20, #24
	stp	q2, q3, [x29, #-128]
	ld1r	{ v2.4s }, [x8]
	add	x8, x20, #28
	ld1r	{ v3.4s }, [x8]
	stp	q0, q1, [x29, #-96]
	stp	q2, q3, [x29, #-64]
	bl	"keyed_blake3::compression::lanes::take_in_each::<#8b36ca032ac25711>"
	ldp	q0, q1, [x29, #-96]
	stp	q0, q1, [sp, #352]
	ldp	q0, q2, [x29, #-64]
	stp	q0, q2, [sp, #384]
	ldp	q1, q0, [x29, #-160]
	stp	q1, q0, [sp, #288]
	ldp	q2, q0, [x29, #-128]
	stp	q2, q0, [sp, #320]
	ldp	q1, q0, [sp, #352]
	stp	q1, q0, [x19, #64]
	ldp	q2, q0, [sp, #384]
	ldr	q1, [sp, #288]
	stp	q2, q0, [x19, #96]
L(29_3):
	ldp	q0, q2, [sp, #304]
	stp	q1, q0, [x19]
	ldr	q0, [sp, #336]
	stp	q2, q0, [x19, #32]
	add	sp, sp, #832
	ldp	x20, x19, [sp, #64]
	.cfi_remember_state
	.cfi_restore x19
	.cfi_restore x20
	ldr	x28, [sp, #16]
	.cfi_restore x28
	ldp	x22, x21, [sp, #48]
	.cfi_restore x21
	.cfi_restore x22
	ldp	x24, x23, [sp, #32]
	.cfi_restore x23
	.cfi_restore x24
	ldp	x29, x30, [sp], #80
	.cfi_def_cfa sp, 0
	.cfi_restore x29
	.cfi_restore x30
	hint	#29
	.cfi_escape 0x2d
	ret
	SIZE("keyed_blake3::subtrees::neighbour_values::<#8b36ca032ac25711>")
	.cfi_endproc

SIZED(16, 4)
	.p2align	4, 0x0
D(CPI30_0):
	.byte	1
	.byte	2
	.byte	3
	.byte	0
	.byte	5
	.byte	6
	.byte	7
	.byte	4
	.byte	9
	.byte	10
	.byte	11
	.byte	8
	.byte	13
	.byte	14
	.byte	15
	.byte	12
CODE(".text.keyed_blake3::compression::lanes::take_in_each::<#8b36ca032ac25711>")
	.p2align	2
	TYPE("keyed_blake3::compression::lanes::take_in_each::<#8b36ca032ac25711>", function)
"keyed_blake3::compression::lanes::take_in_each::<#8b36ca032ac25711>":
	.cfi_startproc
	sub	sp, sp, #320
	.cfi_def_cfa sp, 320
	ldp	q2, q7, [x0, #96]
	mov	w8, #58983
	ldp	q0, q5, [x0, #32]
	movk	w8, #27145, lsl #16
	ldp	q1, q4, [x0]
	dup	v27.4s, w8
	ldp	q16, q17, [x0, #64]
	mov	w8, #44677
	add	v6.4s, v2.4s, v0.4s
	ldp	q0, q19, [x1, #64]
	add	v22.4s, v7.4s, v5.4s
	ldp	q25, q3, [x1, #96]
	add	v21.4s, v16.4s, v1.4s
	add	v23.4s, v17.4s, v4.4s
	ldr	q20, [x2]
	str	q0, [sp, #192]
	add	v24.4s, v6.4s, v0.4s
	movk	w8, #47975, lsl #16
	ldp	q18, q4, [x1]
	add	v22.4s, v22.4s, v25.4s
	ldp	q5, q0, [x1, #32]
	mov	v6.16b, v25.16b
	eor	v20.16b, v24.16b, v20.16b
	str	q25, [sp, #64]
	ldr	q25, [x3]
	add	v21.4s, v21.4s, v18.4s
	dup	v29.4s, w8
	mov	w8, #62322
	add	v23.4s, v23.4s, v5.4s
	eor	v25.16b, v22.16b, v25.16b
	movk	w8, #15470, lsl #16
	rev32	v30.8h, v20.8h
	dup	v20.4s, w8
	mov	w8, #62778
	rev32	v26.8h, v21.8h
	movk	w8, #42319, lsl #16
	stp	d11, d10, [sp, #272]
	.cfi_offset d10, -40
	.cfi_offset d11, -48
	rev32	v28.8h, v23.8h
	rev32	v31.8h, v25.8h
	stp	d9, d8, [sp, #288]
	.cfi_offset d8, -24
	.cfi_offset d9, -32
	dup	v25.4s, w8
	stp	d13, d12, [sp, #256]
	.cfi_offset d12, -56
	.cfi_offset d13, -64
	adrp	x8, PAGE(D(CPI30_0))
	add	v11.4s, v30.4s, v20.4s
	stp	d15, d14, [sp, #240]
	.cfi_offset d14, -72
	.cfi_offset d15, -80
	add	v20.4s, v4.4s, v21.4s
	add	v8.4s, v26.4s, v27.4s
	add	v21.4s, v0.4s, v23.4s
	str	q4, [sp, #112]
	add	v29.4s, v28.4s, v29.4s
	add	v12.4s, v31.4s, v25.4s
	ldr	q4, [x8, LOW(D(CPI30_0))]
	eor	v2.16b, v11.16b, v2.16b
	str	q3, [sp, #16]
	eor	v16.16b, v8.16b, v16.16b
	str	q0, [sp, #208]
	eor	v17.16b, v29.16b, v17.16b
	eor	v7.16b, v12.16b, v7.16b
	stp	q18, q19, [sp, #144]
	shl	v15.4s, v2.4s, #20
	str	q5, [sp, #48]
	shl	v13.4s, v16.4s, #20
	str	x30, [sp, #304]
	shl	v14.4s, v17.4s, #20
	usra	v15.4s, v2.4s, #12
	add	v2.4s, v3.4s, v22.4s
	usra	v13.4s, v16.4s, #12
	shl	v16.4s, v7.4s, #20
	usra	v14.4s, v17.4s, #12
	add	v17.4s, v19.4s, v24.4s
	usra	v16.4s, v7.4s, #12
	add	v24.4s, v20.4s, v13.4s
	add	v20.4s, v21.4s, v14.4s
	add	v25.4s, v17.4s, v15.4s
	add	v22.4s, v2.4s, v16.4s
	eor	v7.16b, v24.16b, v26.16b
	eor	v17.16b, v20.16b, v28.16b
	eor	v21.16b, v25.16b, v30.16b
	tbl	v27.16b, { v7.16b }, v4.16b
	eor	v7.16b, v22.16b, v31.16b
	tbl	v28.16b, { v17.16b }, v4.16b
	tbl	v9.16b, { v21.16b }, v4.16b
	ldp	q3, q21, [x1, #224]
	tbl	v10.16b, { v7.16b }, v4.16b
	ldp	q7, q17, [x1, #128]
	add	v26.4s, v8.4s, v27.4s
	add	v29.4s, v29.4s, v28.4s
	add	v30.4s, v11.4s, v9.4s
	str	q3, [sp, #176]
	stp	q21, q7, [sp, #80]
	add	v31.4s, v12.4s, v10.4s
	eor	v23.16b, v26.16b, v13.16b
	str	q17, [sp, #32]
	eor	v14.16b, v29.16b, v14.16b
	eor	v15.16b, v30.16b, v15.16b
	eor	v0.16b, v31.16b, v16.16b
	shl	v8.4s, v23.4s, #25
	shl	v11.4s, v14.4s, #25
	shl	v12.4s, v15.4s, #25
	ldp	q16, q19, [x1, #160]
	usra	v8.4s, v23.4s, #7
	shl	v13.4s, v0.4s, #25
	ldr	q23, [sp, #112]
	usra	v11.4s, v14.4s, #7
	add	v14.4s, v22.4s, v3.4s
	usra	v12.4s, v15.4s, #7
	add	v15.4s, v7.4s, v24.4s
	ldp	q1, q7, [x1, #192]
	usra	v13.4s, v0.4s, #7
	add	v0.4s, v16.4s, v20.4s
	mov	v20.16b, v17.16b
	add	v14.4s, v14.4s, v8.4s
	ldr	q22, [sp, #16]
	str	q16, [sp]
	add	v25.4s, v1.4s, v25.4s
	add	v15.4s, v15.4s, v11.4s
	mov	v24.16b, v1.16b
	add	v3.4s, v0.4s, v12.4s
	eor	v9.16b, v14.16b, v9.16b
	add	v25.4s, v25.4s, v13.4s
	eor	v10.16b, v15.16b, v10.16b
	str	q24, [sp, #128]
	eor	v27.16b, v3.16b, v27.16b
	add	v3.4s, v3.4s, v19.4s
	rev32	v9.8h, v9.8h
	eor	v28.16b, v25.16b, v28.16b
	rev32	v10.8h, v10.8h
	add	v25.4s, v25.4s, v7.4s
	rev32	v27.8h, v27.8h
	rev32	v28.8h, v28.8h
	add	v29.4s, v9.4s, v29.4s
	add	v30.4s, v10.4s, v30.4s
	add	v31.4s, v27.4s, v31.4s
	eor	v8.16b, v29.16b, v8.16b
	add	v26.4s, v28.4s, v26.4s
	eor	v11.16b, v30.16b, v11.16b
	eor	v12.16b, v31.16b, v12.16b
	shl	v0.4s, v8.4s, #20
	eor	v13.16b, v26.16b, v13.16b
	shl	v1.4s, v11.4s, #20
	shl	v2.4s, v12.4s, #20
	usra	v0.4s, v8.4s, #12
	add	v8.4s, v14.4s, v21.4s
	shl	v14.4s, v13.4s, #20
	usra	v1.4s, v11.4s, #12
	add	v11.4s, v15.4s, v17.4s
	usra	v2.4s, v12.4s, #12
	mov	v17.16b, v7.16b
	add	v8.4s, v8.4s, v0.4s
	usra	v14.4s, v13.4s, #12
	add	v11.4s, v11.4s, v1.4s
	add	v3.4s, v3.4s, v2.4s
	str	q17, [sp, #224]
	eor	v9.16b, v8.16b, v9.16b
	add	v25.4s, v25.4s, v14.4s
	eor	v10.16b, v11.16b, v10.16b
	eor	v27.16b, v3.16b, v27.16b
	tbl	v9.16b, { v9.16b }, v4.16b
	eor	v28.16b, v25.16b, v28.16b
	tbl	v10.16b, { v10.16b }, v4.16b
	tbl	v27.16b, { v27.16b }, v4.16b
	tbl	v28.16b, { v28.16b }, v4.16b
	add	v29.4s, v29.4s, v9.4s
	add	v30.4s, v30.4s, v10.4s
	add	v31.4s, v31.4s, v27.4s
	eor	v0.16b, v29.16b, v0.16b
	add	v26.4s, v26.4s, v28.4s
	eor	v1.16b, v30.16b, v1.16b
	eor	v2.16b, v31.16b, v2.16b
	shl	v13.4s, v0.4s, #25
	eor	v12.16b, v26.16b, v14.16b
	shl	v14.4s, v1.4s, #25
	shl	v15.4s, v2.4s, #25
	usra	v13.4s, v0.4s, #7
	add	v0.4s, v11.4s, v5.4s
	shl	v11.4s, v12.4s, #25
	ldp	q5, q7, [sp, #192]
	usra	v14.4s, v1.4s, #7
	usra	v15.4s, v2.4s, #7
	add	v2.4s, v25.4s, v22.4s
	add	v0.4s, v0.4s, v13.4s
	add	v1.4s, v3.4s, v7.4s
	usra	v11.4s, v12.4s, #7
	add	v3.4s, v8.4s, v5.4s
	add	v2.4s, v2.4s, v15.4s
	eor	v25.16b, v0.16b, v27.16b
	add	v0.4s, v0.4s, v6.4s
	add	v1.4s, v1.4s, v14.4s
	add	v3.4s, v3.4s, v11.4s
	rev32	v25.8h, v25.8h
	eor	v27.16b, v1.16b, v28.16b
	eor	v28.16b, v2.16b, v9.16b
	eor	v8.16b, v3.16b, v10.16b
	add	v1.4s, v1.4s, v16.4s
	add	v2.4s, v2.4s, v18.4s
	add	v3.4s, v3.4s, v17.4s
	mov	v18.16b, v17.16b
	ldr	q17, [sp, #96]
	rev32	v27.8h, v27.8h
	rev32	v28.8h, v28.8h
	rev32	v8.8h, v8.8h
	add	v26.4s, v25.4s, v26.4s
	add	v29.4s, v27.4s, v29.4s
	add	v30.4s, v28.4s, v30.4s
	add	v31.4s, v8.4s, v31.4s
	eor	v9.16b, v26.16b, v13.16b
	eor	v10.16b, v29.16b, v14.16b
	eor	v12.16b, v30.16b, v15.16b
	eor	v11.16b, v31.16b, v11.16b
	shl	v13.4s, v9.4s, #20
	shl	v14.4s, v10.4s, #20
	shl	v15.4s, v12.4s, #20
	usra	v13.4s, v9.4s, #12
	shl	v9.4s, v11.4s, #20
	usra	v14.4s, v10.4s, #12
	usra	v15.4s, v12.4s, #12
	usra	v9.4s, v11.4s, #12
	add	v0.4s, v0.4s, v13.4s
	add	v1.4s, v1.4s, v14.4s
	add	v2.4s, v2.4s, v15.4s
	add	v3.4s, v3.4s, v9.4s
	eor	v25.16b, v0.16b, v25.16b
	add	v0.4s, v0.4s, v23.4s
	eor	v27.16b, v1.16b, v27.16b
	eor	v28.16b, v2.16b, v28.16b
	add	v1.4s, v1.4s, v24.4s
	tbl	v25.16b, { v25.16b }, v4.16b
	eor	v8.16b, v3.16b, v8.16b
	add	v3.4s, v3.4s, v21.4s
	add	v2.4s, v2.4s, v20.4s
	ldp	q21, q6, [sp, #160]
	tbl	v27.16b, { v27.16b }, v4.16b
	tbl	v28.16b, { v28.16b }, v4.16b
	mov	v20.16b, v16.16b
	tbl	v8.16b, { v8.16b }, v4.16b
	add	v26.4s, v26.4s, v25.4s
	add	v29.4s, v29.4s, v27.4s
	add	v30.4s, v30.4s, v28.4s
	add	v31.4s, v31.4s, v8.4s
	eor	v10.16b, v26.16b, v13.16b
	eor	v11.16b, v29.16b, v14.16b
	eor	v12.16b, v30.16b, v15.16b
	eor	v9.16b, v31.16b, v9.16b
	shl	v13.4s, v10.4s, #25
	shl	v14.4s, v11.4s, #25
	shl	v15.4s, v12.4s, #25
	usra	v13.4s, v10.4s, #7
	shl	v10.4s, v9.4s, #25
	usra	v14.4s, v11.4s, #7
	usra	v15.4s, v12.4s, #7
	usra	v10.4s, v9.4s, #7
	add	v3.4s, v3.4s, v13.4s
	add	v0.4s, v0.4s, v14.4s
	add	v1.4s, v1.4s, v15.4s
	add	v2.4s, v2.4s, v10.4s
	eor	v28.16b, v3.16b, v28.16b
	add	v3.4s, v3.4s, v17.4s
	eor	v8.16b, v0.16b, v8.16b
	eor	v25.16b, v1.16b, v25.16b
	add	v0.4s, v0.4s, v19.4s
	rev32	v28.8h, v28.8h
	eor	v27.16b, v2.16b, v27.16b
	add	v1.4s, v1.4s, v21.4s
	add	v2.4s, v2.4s, v6.4s
	rev32	v8.8h, v8.8h
	rev32	v25.8h, v25.8h
	rev32	v27.8h, v27.8h
	add	v29.4s, v28.4s, v29.4s
	add	v30.4s, v8.4s, v30.4s
	add	v31.4s, v25.4s, v31.4s
	add	v26.4s, v27.4s, v26.4s
	eor	v9.16b, v29.16b, v13.16b
	eor	v11.16b, v30.16b, v14.16b
	eor	v12.16b, v31.16b, v15.16b
	eor	v10.16b, v26.16b, v10.16b
	shl	v13.4s, v9.4s, #20
	shl	v14.4s, v11.4s, #20
	shl	v15.4s, v12.4s, #20
	usra	v13.4s, v9.4s, #12
	shl	v9.4s, v10.4s, #20
	usra	v14.4s, v11.4s, #12
	usra	v15.4s, v12.4s, #12
	usra	v9.4s, v10.4s, #12
	add	v3.4s, v3.4s, v13.4s
	add	v0.4s, v0.4s, v14.4s
	add	v1.4s, v1.4s, v15.4s
	add	v2.4s, v2.4s, v9.4s
	eor	v28.16b, v3.16b, v28.16b
	add	v3.4s, v3.4s, v22.4s
	eor	v8.16b, v0.16b, v8.16b
	eor	v25.16b, v1.16b, v25.16b
	add	v0.4s, v0.4s, v7.4s
	tbl	v28.16b, { v28.16b }, v4.16b
	eor	v27.16b, v2.16b, v27.16b
	add	v1.4s, v1.4s, v16.4s
	add	v2.4s, v2.4s, v18.4s
	mov	v18.16b, v22.16b
	tbl	v8.16b, { v8.16b }, v4.16b
	tbl	v25.16b, { v25.16b }, v4.16b
	ldp	q22, q16, [sp, #32]
	tbl	v27.16b, { v27.16b }, v4.16b
	ldr	q7, [sp, #224]
	add	v29.4s, v29.4s, v28.4s
	add	v30.4s, v30.4s, v8.4s
	add	v31.4s, v31.4s, v25.4s
	add	v26.4s, v26.4s, v27.4s
	eor	v10.16b, v29.16b, v13.16b
	eor	v11.16b, v30.16b, v14.16b
	eor	v12.16b, v31.16b, v15.16b
	eor	v9.16b, v26.16b, v9.16b
	shl	v13.4s, v10.4s, #25
	shl	v14.4s, v11.4s, #25
	shl	v15.4s, v12.4s, #25
	usra	v13.4s, v10.4s, #7
	shl	v10.4s, v9.4s, #25
	usra	v14.4s, v11.4s, #7
	usra	v15.4s, v12.4s, #7
	usra	v10.4s, v9.4s, #7
	add	v0.4s, v0.4s, v13.4s
	add	v1.4s, v1.4s, v14.4s
	add	v2.4s, v2.4s, v15.4s
	add	v3.4s, v3.4s, v10.4s
	eor	v25.16b, v0.16b, v25.16b
	add	v0.4s, v0.4s, v5.4s
	ldr	q5, [sp, #80]
	eor	v27.16b, v1.16b, v27.16b
	eor	v28.16b, v2.16b, v28.16b
	add	v1.4s, v1.4s, v24.4s
	rev32	v25.8h, v25.8h
	eor	v8.16b, v3.16b, v8.16b
	add	v2.4s, v2.4s, v16.4s
	add	v3.4s, v3.4s, v6.4s
	rev32	v27.8h, v27.8h
	rev32	v28.8h, v28.8h
	rev32	v8.8h, v8.8h
	add	v26.4s, v25.4s, v26.4s
	add	v29.4s, v27.4s, v29.4s
	add	v30.4s, v28.4s, v30.4s
	add	v31.4s, v8.4s, v31.4s
	eor	v9.16b, v26.16b, v13.16b
	eor	v11.16b, v29.16b, v14.16b
	eor	v12.16b, v30.16b, v15.16b
	eor	v10.16b, v31.16b, v10.16b
	shl	v13.4s, v9.4s, #20
	shl	v14.4s, v11.4s, #20
	shl	v15.4s, v12.4s, #20
	usra	v13.4s, v9.4s, #12
	shl	v9.4s, v10.4s, #20
	usra	v14.4s, v11.4s, #12
	usra	v15.4s, v12.4s, #12
	usra	v9.4s, v10.4s, #12
	add	v0.4s, v0.4s, v13.4s
	add	v1.4s, v1.4s, v14.4s
	add	v2.4s, v2.4s, v15.4s
	add	v3.4s, v3.4s, v9.4s
	eor	v25.16b, v0.16b, v25.16b
	eor	v27.16b, v1.16b, v27.16b
	eor	v28.16b, v2.16b, v28.16b
	add	v1.4s, v1.4s, v22.4s
	tbl	v25.16b, { v25.16b }, v4.16b
	eor	v8.16b, v3.16b, v8.16b
	add	v3.4s, v3.4s, v17.4s
	ldr	q17, [sp, #64]
	add	v2.4s, v2.4s, v19.4s
	tbl	v27.16b, { v27.16b }, v4.16b
	tbl	v28.16b, { v28.16b }, v4.16b
	tbl	v8.16b, { v8.16b }, v4.16b
	add	v0.4s, v0.4s, v17.4s
	add	v26.4s, v26.4s, v25.4s
	add	v29.4s, v29.4s, v27.4s
	add	v30.4s, v30.4s, v28.4s
	add	v31.4s, v31.4s, v8.4s
	eor	v10.16b, v26.16b, v13.16b
	eor	v11.16b, v29.16b, v14.16b
	eor	v12.16b, v30.16b, v15.16b
	eor	v9.16b, v31.16b, v9.16b
	shl	v13.4s, v10.4s, #25
	shl	v14.4s, v11.4s, #25
	shl	v15.4s, v12.4s, #25
	usra	v13.4s, v10.4s, #7
	shl	v10.4s, v9.4s, #25
	usra	v14.4s, v11.4s, #7
	usra	v15.4s, v12.4s, #7
	usra	v10.4s, v9.4s, #7
	add	v3.4s, v3.4s, v13.4s
	add	v0.4s, v0.4s, v14.4s
	add	v1.4s, v1.4s, v15.4s
	add	v2.4s, v2.4s, v10.4s
	eor	v28.16b, v3.16b, v28.16b
	add	v3.4s, v3.4s, v23.4s
	eor	v8.16b, v0.16b, v8.16b
	eor	v25.16b, v1.16b, v25.16b
	add	v0.4s, v0.4s, v21.4s
	rev32	v28.8h, v28.8h
	eor	v27.16b, v2.16b, v27.16b
	ldr	q21, [sp, #144]
	add	v2.4s, v2.4s, v5.4s
	rev32	v8.8h, v8.8h
	rev32	v25.8h, v25.8h
	add	v1.4s, v1.4s, v21.4s
	rev32	v27.8h, v27.8h
	add	v29.4s, v28.4s, v29.4s
	add	v30.4s, v8.4s, v30.4s
	add	v31.4s, v25.4s, v31.4s
	add	v26.4s, v27.4s, v26.4s
	eor	v9.16b, v29.16b, v13.16b
	eor	v11.16b, v30.16b, v14.16b
	eor	v12.16b, v31.16b, v15.16b
	eor	v10.16b, v26.16b, v10.16b
	shl	v13.4s, v9.4s, #20
	shl	v14.4s, v11.4s, #20
	shl	v15.4s, v12.4s, #20
	usra	v13.4s, v9.4s, #12
	shl	v9.4s, v10.4s, #20
	usra	v14.4s, v11.4s, #12
	usra	v15.4s, v12.4s, #12
	usra	v9.4s, v10.4s, #12
	add	v3.4s, v3.4s, v13.4s
	add	v0.4s, v0.4s, v14.4s
	add	v1.4s, v1.4s, v15.4s
	add	v2.4s, v2.4s, v9.4s
	eor	v28.16b, v3.16b, v28.16b
	add	v3.4s, v3.4s, v7.4s
	eor	v8.16b, v0.16b, v8.16b
	eor	v25.16b, v1.16b, v25.16b
	add	v0.4s, v0.4s, v20.4s
	tbl	v28.16b, { v28.16b }, v4.16b
	eor	v27.16b, v2.16b, v27.16b
	add	v1.4s, v1.4s, v24.4s
	add	v2.4s, v2.4s, v6.4s
	ldp	q20, q6, [sp, #192]
	tbl	v8.16b, { v8.16b }, v4.16b
	tbl	v25.16b, { v25.16b }, v4.16b
	ldr	q24, [sp, #176]
	tbl	v27.16b, { v27.16b }, v4.16b
	add	v29.4s, v29.4s, v28.4s
	add	v30.4s, v30.4s, v8.4s
	add	v31.4s, v31.4s, v25.4s
	add	v26.4s, v26.4s, v27.4s
	eor	v10.16b, v29.16b, v13.16b
	eor	v11.16b, v30.16b, v14.16b
	eor	v12.16b, v31.16b, v15.16b
	eor	v9.16b, v26.16b, v9.16b
	shl	v13.4s, v10.4s, #25
	shl	v14.4s, v11.4s, #25
	shl	v15.4s, v12.4s, #25
	usra	v13.4s, v10.4s, #7
	shl	v10.4s, v9.4s, #25
	usra	v14.4s, v11.4s, #7
	usra	v15.4s, v12.4s, #7
	usra	v10.4s, v9.4s, #7
	add	v0.4s, v0.4s, v13.4s
	add	v1.4s, v1.4s, v14.4s
	add	v2.4s, v2.4s, v15.4s
	add	v3.4s, v3.4s, v10.4s
	eor	v25.16b, v0.16b, v25.16b
	add	v0.4s, v0.4s, v18.4s
	mov	v18.16b, v21.16b
	eor	v27.16b, v1.16b, v27.16b
	eor	v28.16b, v2.16b, v28.16b
	add	v1.4s, v1.4s, v22.4s
	rev32	v25.8h, v25.8h
	eor	v8.16b, v3.16b, v8.16b
	add	v2.4s, v2.4s, v6.4s
	add	v3.4s, v3.4s, v5.4s
	mov	v6.16b, v17.16b
	rev32	v27.8h, v27.8h
	rev32	v28.8h, v28.8h
	rev32	v8.8h, v8.8h
	add	v26.4s, v25.4s, v26.4s
	add	v29.4s, v27.4s, v29.4s
	add	v30.4s, v28.4s, v30.4s
	add	v31.4s, v8.4s, v31.4s
	eor	v9.16b, v26.16b, v13.16b
	eor	v11.16b, v29.16b, v14.16b
	eor	v12.16b, v30.16b, v15.16b
	eor	v10.16b, v31.16b, v10.16b
	shl	v13.4s, v9.4s, #20
	shl	v14.4s, v11.4s, #20
	shl	v15.4s, v12.4s, #20
	usra	v13.4s, v9.4s, #12
	shl	v9.4s, v10.4s, #20
	usra	v14.4s, v11.4s, #12
	usra	v15.4s, v12.4s, #12
	usra	v9.4s, v10.4s, #12
	add	v0.4s, v0.4s, v13.4s
	add	v1.4s, v1.4s, v14.4s
	add	v2.4s, v2.4s, v15.4s
	add	v3.4s, v3.4s, v9.4s
	eor	v25.16b, v0.16b, v25.16b
	add	v0.4s, v0.4s, v20.4s
	eor	v27.16b, v1.16b, v27.16b
	eor	v28.16b, v2.16b, v28.16b
	add	v1.4s, v1.4s, v19.4s
	tbl	v25.16b, { v25.16b }, v4.16b
	eor	v8.16b, v3.16b, v8.16b
	add	v3.4s, v3.4s, v23.4s
	mov	v23.16b, v19.16b
	ldr	q19, [sp, #160]
	tbl	v27.16b, { v27.16b }, v4.16b
	tbl	v28.16b, { v28.16b }, v4.16b
	tbl	v8.16b, { v8.16b }, v4.16b
	add	v2.4s, v2.4s, v19.4s
	add	v26.4s, v26.4s, v25.4s
	add	v29.4s, v29.4s, v27.4s
	add	v30.4s, v30.4s, v28.4s
	add	v31.4s, v31.4s, v8.4s
	eor	v10.16b, v26.16b, v13.16b
	eor	v11.16b, v29.16b, v14.16b
	eor	v12.16b, v30.16b, v15.16b
	eor	v9.16b, v31.16b, v9.16b
	shl	v13.4s, v10.4s, #25
	shl	v14.4s, v11.4s, #25
	shl	v15.4s, v12.4s, #25
	usra	v13.4s, v10.4s, #7
	shl	v10.4s, v9.4s, #25
	usra	v14.4s, v11.4s, #7
	usra	v15.4s, v12.4s, #7
	usra	v10.4s, v9.4s, #7
	add	v3.4s, v3.4s, v13.4s
	add	v0.4s, v0.4s, v14.4s
	add	v1.4s, v1.4s, v15.4s
	add	v2.4s, v2.4s, v10.4s
	eor	v28.16b, v3.16b, v28.16b
	add	v3.4s, v3.4s, v17.4s
	ldr	q17, [sp, #96]
	eor	v8.16b, v0.16b, v8.16b
	eor	v25.16b, v1.16b, v25.16b
	add	v0.4s, v0.4s, v21.4s
	rev32	v28.8h, v28.8h
	eor	v27.16b, v2.16b, v27.16b
	add	v1.4s, v1.4s, v16.4s
	add	v2.4s, v2.4s, v17.4s
	ldr	q21, [sp, #128]
	rev32	v8.8h, v8.8h
	rev32	v25.8h, v25.8h
	rev32	v27.8h, v27.8h
	add	v29.4s, v28.4s, v29.4s
	add	v30.4s, v8.4s, v30.4s
	add	v31.4s, v25.4s, v31.4s
	add	v26.4s, v27.4s, v26.4s
	eor	v9.16b, v29.16b, v13.16b
	eor	v11.16b, v30.16b, v14.16b
	eor	v12.16b, v31.16b, v15.16b
	eor	v10.16b, v26.16b, v10.16b
	shl	v13.4s, v9.4s, #20
	shl	v14.4s, v11.4s, #20
	shl	v15.4s, v12.4s, #20
	usra	v13.4s, v9.4s, #12
	shl	v9.4s, v10.4s, #20
	usra	v14.4s, v11.4s, #12
	usra	v15.4s, v12.4s, #12
	usra	v9.4s, v10.4s, #12
	add	v3.4s, v3.4s, v13.4s
	add	v0.4s, v0.4s, v14.4s
	add	v1.4s, v1.4s, v15.4s
	add	v2.4s, v2.4s, v9.4s
	eor	v28.16b, v3.16b, v28.16b
	add	v3.4s, v3.4s, v24.4s
	eor	v8.16b, v0.16b, v8.16b
	eor	v25.16b, v1.16b, v25.16b
	add	v0.4s, v0.4s, v21.4s
	tbl	v28.16b, { v28.16b }, v4.16b
	eor	v27.16b, v2.16b, v27.16b
	add	v1.4s, v1.4s, v22.4s
	add	v2.4s, v2.4s, v5.4s
	ldr	q5, [sp, #16]
	tbl	v8.16b, { v8.16b }, v4.16b
	tbl	v25.16b, { v25.16b }, v4.16b
	tbl	v27.16b, { v27.16b }, v4.16b
	add	v29.4s, v29.4s, v28.4s
	add	v30.4s, v30.4s, v8.4s
	add	v31.4s, v31.4s, v25.4s
	add	v26.4s, v26.4s, v27.4s
	eor	v10.16b, v29.16b, v13.16b
	eor	v11.16b, v30.16b, v14.16b
	eor	v12.16b, v31.16b, v15.16b
	eor	v9.16b, v26.16b, v9.16b
	shl	v13.4s, v10.4s, #25
	shl	v14.4s, v11.4s, #25
	shl	v15.4s, v12.4s, #25
	usra	v13.4s, v10.4s, #7
	shl	v10.4s, v9.4s, #25
	usra	v14.4s, v11.4s, #7
	usra	v15.4s, v12.4s, #7
	usra	v10.4s, v9.4s, #7
	add	v0.4s, v0.4s, v13.4s
	add	v1.4s, v1.4s, v14.4s
	add	v2.4s, v2.4s, v15.4s
	add	v3.4s, v3.4s, v10.4s
	eor	v25.16b, v0.16b, v25.16b
	add	v0.4s, v0.4s, v7.4s
	ldr	q7, [sp]
	eor	v27.16b, v1.16b, v27.16b
	eor	v28.16b, v2.16b, v28.16b
	add	v1.4s, v1.4s, v23.4s
	rev32	v25.8h, v25.8h
	eor	v8.16b, v3.16b, v8.16b
	add	v2.4s, v2.4s, v7.4s
	add	v3.4s, v3.4s, v17.4s
	rev32	v27.8h, v27.8h
	rev32	v28.8h, v28.8h
	rev32	v8.8h, v8.8h
	add	v26.4s, v25.4s, v26.4s
	add	v29.4s, v27.4s, v29.4s
	add	v30.4s, v28.4s, v30.4s
	add	v31.4s, v8.4s, v31.4s
	eor	v9.16b, v26.16b, v13.16b
	eor	v11.16b, v29.16b, v14.16b
	eor	v12.16b, v30.16b, v15.16b
	eor	v10.16b, v31.16b, v10.16b
	shl	v13.4s, v9.4s, #20
	shl	v14.4s, v11.4s, #20
	shl	v15.4s, v12.4s, #20
	usra	v13.4s, v9.4s, #12
	shl	v9.4s, v10.4s, #20
	usra	v14.4s, v11.4s, #12
	usra	v15.4s, v12.4s, #12
	usra	v9.4s, v10.4s, #12
	add	v0.4s, v0.4s, v13.4s
	add	v1.4s, v1.4s, v14.4s
	add	v2.4s, v2.4s, v15.4s
	add	v3.4s, v3.4s, v9.4s
	eor	v25.16b, v0.16b, v25.16b
	add	v0.4s, v0.4s, v5.4s
	eor	v27.16b, v1.16b, v27.16b
	eor	v28.16b, v2.16b, v28.16b
	add	v1.4s, v1.4s, v19.4s
	tbl	v25.16b, { v25.16b }, v4.16b
	eor	v8.16b, v3.16b, v8.16b
	add	v3.4s, v3.4s, v6.4s
	add	v2.4s, v2.4s, v18.4s
	mov	v6.16b, v20.16b
	ldr	q18, [sp, #112]
	tbl	v27.16b, { v27.16b }, v4.16b
	tbl	v28.16b, { v28.16b }, v4.16b
	tbl	v8.16b, { v8.16b }, v4.16b
	add	v26.4s, v26.4s, v25.4s
	add	v29.4s, v29.4s, v27.4s
	add	v30.4s, v30.4s, v28.4s
	add	v31.4s, v31.4s, v8.4s
	eor	v10.16b, v26.16b, v13.16b
	eor	v11.16b, v29.16b, v14.16b
	eor	v12.16b, v30.16b, v15.16b
	eor	v9.16b, v31.16b, v9.16b
	shl	v13.4s, v10.4s, #25
	shl	v14.4s, v11.4s, #25
	shl	v15.4s, v12.4s, #25
	usra	v13.4s, v10.4s, #7
	shl	v10.4s, v9.4s, #25
	usra	v14.4s, v11.4s, #7
	usra	v15.4s, v12.4s, #7
	usra	v10.4s, v9.4s, #7
	add	v3.4s, v3.4s, v13.4s
	add	v0.4s, v0.4s, v14.4s
	add	v1.4s, v1.4s, v15.4s
	add	v2.4s, v2.4s, v10.4s
	eor	v28.16b, v3.16b, v28.16b
	add	v3.4s, v3.4s, v20.4s
	ldr	q20, [sp, #208]
	eor	v8.16b, v0.16b, v8.16b
	eor	v25.16b, v1.16b, v25.16b
	add	v0.4s, v0.4s, v16.4s
	rev32	v28.8h, v28.8h
	eor	v27.16b, v2.16b, v27.16b
	add	v1.4s, v1.4s, v20.4s
	add	v2.4s, v2.4s, v18.4s
	rev32	v8.8h, v8.8h
	rev32	v25.8h, v25.8h
	rev32	v27.8h, v27.8h
	add	v29.4s, v28.4s, v29.4s
	add	v30.4s, v8.4s, v30.4s
	add	v31.4s, v25.4s, v31.4s
	add	v26.4s, v27.4s, v26.4s
	eor	v9.16b, v29.16b, v13.16b
	eor	v11.16b, v30.16b, v14.16b
	eor	v12.16b, v31.16b, v15.16b
	eor	v10.16b, v26.16b, v10.16b
	shl	v13.4s, v9.4s, #20
	shl	v14.4s, v11.4s, #20
	shl	v15.4s, v12.4s, #20
	usra	v13.4s, v9.4s, #12
	shl	v9.4s, v10.4s, #20
	usra	v14.4s, v11.4s, #12
	usra	v15.4s, v12.4s, #12
	usra	v9.4s, v10.4s, #12
	add	v3.4s, v3.4s, v13.4s
	add	v0.4s, v0.4s, v14.4s
	add	v1.4s, v1.4s, v15.4s
	add	v2.4s, v2.4s, v9.4s
	eor	v28.16b, v3.16b, v28.16b
	eor	v8.16b, v0.16b, v8.16b
	eor	v25.16b, v1.16b, v25.16b
	add	v0.4s, v0.4s, v22.4s
	tbl	v28.16b, { v28.16b }, v4.16b
	eor	v27.16b, v2.16b, v27.16b
	add	v2.4s, v2.4s, v17.4s
	mov	v22.16b, v17.16b
	ldr	q17, [sp, #80]
	add	v1.4s, v1.4s, v23.4s
	tbl	v8.16b, { v8.16b }, v4.16b
	tbl	v25.16b, { v25.16b }, v4.16b
	tbl	v27.16b, { v27.16b }, v4.16b
	add	v3.4s, v3.4s, v17.4s
	add	v29.4s, v29.4s, v28.4s
	add	v30.4s, v30.4s, v8.4s
	add	v31.4s, v31.4s, v25.4s
	add	v26.4s, v26.4s, v27.4s
	eor	v10.16b, v29.16b, v13.16b
	eor	v11.16b, v30.16b, v14.16b
	eor	v12.16b, v31.16b, v15.16b
	eor	v9.16b, v26.16b, v9.16b
	shl	v13.4s, v10.4s, #25
	shl	v14.4s, v11.4s, #25
	shl	v15.4s, v12.4s, #25
	usra	v13.4s, v10.4s, #7
	shl	v10.4s, v9.4s, #25
	usra	v14.4s, v11.4s, #7
	usra	v15.4s, v12.4s, #7
	usra	v10.4s, v9.4s, #7
	add	v0.4s, v0.4s, v13.4s
	add	v1.4s, v1.4s, v14.4s
	add	v2.4s, v2.4s, v15.4s
	add	v3.4s, v3.4s, v10.4s
	eor	v25.16b, v0.16b, v25.16b
	add	v0.4s, v0.4s, v24.4s
	eor	v27.16b, v1.16b, v27.16b
	eor	v28.16b, v2.16b, v28.16b
	add	v1.4s, v1.4s, v19.4s
	rev32	v25.8h, v25.8h
	eor	v8.16b, v3.16b, v8.16b
	add	v2.4s, v2.4s, v21.4s
	add	v3.4s, v3.4s, v18.4s
	rev32	v27.8h, v27.8h
	rev32	v28.8h, v28.8h
	rev32	v8.8h, v8.8h
	add	v26.4s, v25.4s, v26.4s
	add	v29.4s, v27.4s, v29.4s
	add	v30.4s, v28.4s, v30.4s
	add	v31.4s, v8.4s, v31.4s
	eor	v9.16b, v26.16b, v13.16b
	eor	v11.16b, v29.16b, v14.16b
	eor	v12.16b, v30.16b, v15.16b
	eor	v10.16b, v31.16b, v10.16b
	shl	v13.4s, v9.4s, #20
	shl	v14.4s, v11.4s, #20
	shl	v15.4s, v12.4s, #20
	usra	v13.4s, v9.4s, #12
	shl	v9.4s, v10.4s, #20
	usra	v14.4s, v11.4s, #12
	usra	v15.4s, v12.4s, #12
	usra	v9.4s, v10.4s, #12
	add	v0.4s, v0.4s, v13.4s
	add	v1.4s, v1.4s, v14.4s
	add	v2.4s, v2.4s, v15.4s
	add	v3.4s, v3.4s, v9.4s
	eor	v25.16b, v0.16b, v25.16b
	eor	v27.16b, v1.16b, v27.16b
	eor	v28.16b, v2.16b, v28.16b
	add	v2.4s, v2.4s, v16.4s
	tbl	v25.16b, { v25.16b }, v4.16b
	eor	v8.16b, v3.16b, v8.16b
	add	v3.4s, v3.4s, v6.4s
	ldr	q6, [sp, #224]
	mov	v16.16b, v5.16b
	tbl	v27.16b, { v27.16b }, v4.16b
	tbl	v28.16b, { v28.16b }, v4.16b
	tbl	v8.16b, { v8.16b }, v4.16b
	add	v0.4s, v0.4s, v6.4s
	ldr	q6, [sp, #144]
	add	v26.4s, v26.4s, v25.4s
	add	v1.4s, v1.4s, v6.4s
	add	v29.4s, v29.4s, v27.4s
	add	v30.4s, v30.4s, v28.4s
	add	v31.4s, v31.4s, v8.4s
	eor	v10.16b, v26.16b, v13.16b
	eor	v11.16b, v29.16b, v14.16b
	eor	v12.16b, v30.16b, v15.16b
	eor	v9.16b, v31.16b, v9.16b
	shl	v13.4s, v10.4s, #25
	shl	v14.4s, v11.4s, #25
	shl	v15.4s, v12.4s, #25
	usra	v13.4s, v10.4s, #7
	shl	v10.4s, v9.4s, #25
	usra	v14.4s, v11.4s, #7
	usra	v15.4s, v12.4s, #7
	usra	v10.4s, v9.4s, #7
	add	v3.4s, v3.4s, v13.4s
	add	v0.4s, v0.4s, v14.4s
	add	v1.4s, v1.4s, v15.4s
	add	v2.4s, v2.4s, v10.4s
	eor	v28.16b, v3.16b, v28.16b
	add	v3.4s, v3.4s, v5.4s
	ldr	q5, [sp, #64]
	eor	v8.16b, v0.16b, v8.16b
	eor	v25.16b, v1.16b, v25.16b
	add	v0.4s, v0.4s, v20.4s
	rev32	v28.8h, v28.8h
	eor	v27.16b, v2.16b, v27.16b
	add	v1.4s, v1.4s, v7.4s
	add	v2.4s, v2.4s, v5.4s
	rev32	v8.8h, v8.8h
	rev32	v25.8h, v25.8h
	rev32	v27.8h, v27.8h
	add	v29.4s, v28.4s, v29.4s
	add	v30.4s, v8.4s, v30.4s
	add	v31.4s, v25.4s, v31.4s
	add	v26.4s, v27.4s, v26.4s
	eor	v9.16b, v29.16b, v13.16b
	eor	v11.16b, v30.16b, v14.16b
	eor	v12.16b, v31.16b, v15.16b
	eor	v10.16b, v26.16b, v10.16b
	shl	v13.4s, v9.4s, #20
	shl	v14.4s, v11.4s, #20
	shl	v15.4s, v12.4s, #20
	usra	v13.4s, v9.4s, #12
	shl	v9.4s, v10.4s, #20
	usra	v14.4s, v11.4s, #12
	usra	v15.4s, v12.4s, #12
	usra	v9.4s, v10.4s, #12
	add	v3.4s, v3.4s, v13.4s
	add	v0.4s, v0.4s, v14.4s
	add	v1.4s, v1.4s, v15.4s
	add	v2.4s, v2.4s, v9.4s
	eor	v28.16b, v3.16b, v28.16b
	add	v3.4s, v3.4s, v22.4s
	eor	v8.16b, v0.16b, v8.16b
	eor	v25.16b, v1.16b, v25.16b
	add	v0.4s, v0.4s, v23.4s
	eor	v27.16b, v2.16b, v27.16b
	tbl	v28.16b, { v28.16b }, v4.16b
	add	v1.4s, v1.4s, v19.4s
	add	v2.4s, v2.4s, v18.4s
	tbl	v8.16b, { v8.16b }, v4.16b
	tbl	v25.16b, { v25.16b }, v4.16b
	tbl	v27.16b, { v27.16b }, v4.16b
	add	v29.4s, v29.4s, v28.4s
	add	v30.4s, v30.4s, v8.4s
	add	v31.4s, v31.4s, v25.4s
	add	v26.4s, v26.4s, v27.4s
	eor	v10.16b, v29.16b, v13.16b
	eor	v11.16b, v30.16b, v14.16b
	eor	v12.16b, v31.16b, v15.16b
	eor	v9.16b, v26.16b, v9.16b
	shl	v13.4s, v10.4s, #25
	shl	v14.4s, v11.4s, #25
	shl	v15.4s, v12.4s, #25
	shl	v24.4s, v9.4s, #25
	usra	v13.4s, v10.4s, #7
	usra	v14.4s, v11.4s, #7
	usra	v15.4s, v12.4s, #7
	usra	v24.4s, v9.4s, #7
	add	v0.4s, v0.4s, v13.4s
	add	v1.4s, v1.4s, v14.4s
	add	v2.4s, v2.4s, v15.4s
	add	v3.4s, v3.4s, v24.4s
	eor	v18.16b, v0.16b, v25.16b
	add	v0.4s, v0.4s, v17.4s
	eor	v19.16b, v1.16b, v27.16b
	eor	v21.16b, v2.16b, v28.16b
	add	v1.4s, v1.4s, v6.4s
	eor	v25.16b, v3.16b, v8.16b
	rev32	v18.8h, v18.8h
	ldr	q6, [sp, #32]
	add	v3.4s, v3.4s, v5.4s
	rev32	v19.8h, v19.8h
	rev32	v21.8h, v21.8h
	add	v2.4s, v2.4s, v6.4s
	rev32	v25.8h, v25.8h
	add	v26.4s, v18.4s, v26.4s
	add	v27.4s, v19.4s, v29.4s
	add	v28.4s, v21.4s, v30.4s
	add	v29.4s, v25.4s, v31.4s
	eor	v30.16b, v26.16b, v13.16b
	ldp	d13, d12, [sp, #256]
	.cfi_remember_state
	.cfi_restore d12
	.cfi_restore d13
	eor	v31.16b, v27.16b, v14.16b
	eor	v8.16b, v28.16b, v15.16b
	eor	v24.16b, v29.16b, v24.16b
	shl	v9.4s, v30.4s, #20
	ldp	d15, d14, [sp, #240]
	.cfi_restore d14
	.cfi_restore d15
	shl	v10.4s, v31.4s, #20
	shl	v11.4s, v8.4s, #20
	shl	v23.4s, v24.4s, #20
	usra	v9.4s, v30.4s, #12
	usra	v10.4s, v31.4s, #12
	usra	v11.4s, v8.4s, #12
	usra	v23.4s, v24.4s, #12
	add	v0.4s, v0.4s, v9.4s
	add	v1.4s, v1.4s, v10.4s
	add	v2.4s, v2.4s, v11.4s
	add	v3.4s, v3.4s, v23.4s
	eor	v5.16b, v0.16b, v18.16b
	eor	v18.16b, v1.16b, v19.16b
	eor	v19.16b, v2.16b, v21.16b
	add	v2.4s, v2.4s, v20.4s
	eor	v21.16b, v3.16b, v25.16b
	tbl	v5.16b, { v5.16b }, v4.16b
	add	v3.4s, v3.4s, v16.4s
	ldr	q16, [sp, #176]
	tbl	v18.16b, { v18.16b }, v4.16b
	tbl	v19.16b, { v19.16b }, v4.16b
	tbl	v21.16b, { v21.16b }, v4.16b
	add	v0.4s, v0.4s, v16.4s
	ldr	q16, [sp, #48]
	add	v22.4s, v26.4s, v5.4s
	add	v1.4s, v1.4s, v16.4s
	ldr	q16, [sp, #224]
	add	v24.4s, v27.4s, v18.4s
	add	v25.4s, v28.4s, v19.4s
	add	v26.4s, v29.4s, v21.4s
	eor	v27.16b, v22.16b, v9.16b
	eor	v28.16b, v24.16b, v10.16b
	eor	v29.16b, v25.16b, v11.16b
	eor	v23.16b, v26.16b, v23.16b
	shl	v30.4s, v27.4s, #25
	ldp	d11, d10, [sp, #272]
	.cfi_restore d10
	.cfi_restore d11
	shl	v31.4s, v28.4s, #25
	shl	v8.4s, v29.4s, #25
	shl	v6.4s, v23.4s, #25
	usra	v30.4s, v27.4s, #7
	usra	v31.4s, v28.4s, #7
	usra	v8.4s, v29.4s, #7
	usra	v6.4s, v23.4s, #7
	add	v3.4s, v3.4s, v30.4s
	add	v0.4s, v0.4s, v31.4s
	add	v1.4s, v1.4s, v8.4s
	add	v2.4s, v2.4s, v6.4s
	eor	v17.16b, v3.16b, v19.16b
	add	v3.4s, v3.4s, v16.4s
	eor	v19.16b, v0.16b, v21.16b
	eor	v5.16b, v1.16b, v5.16b
	add	v0.4s, v0.4s, v7.4s
	eor	v18.16b, v2.16b, v18.16b
	rev32	v17.8h, v17.8h
	ldr	q7, [sp, #128]
	rev32	v19.8h, v19.8h
	rev32	v5.8h, v5.8h
	add	v1.4s, v1.4s, v7.4s
	rev32	v18.8h, v18.8h
	ldr	q7, [sp, #192]
	add	v21.4s, v17.4s, v24.4s
	add	v2.4s, v2.4s, v7.4s
	add	v23.4s, v19.4s, v25.4s
	add	v24.4s, v5.4s, v26.4s
	add	v22.4s, v18.4s, v22.4s
	eor	v25.16b, v21.16b, v30.16b
	eor	v26.16b, v23.16b, v31.16b
	eor	v27.16b, v24.16b, v8.16b
	eor	v6.16b, v22.16b, v6.16b
	shl	v28.4s, v25.4s, #20
	ldp	d9, d8, [sp, #288]
	.cfi_restore d8
	.cfi_restore d9
	shl	v29.4s, v26.4s, #20
	shl	v30.4s, v27.4s, #20
	shl	v20.4s, v6.4s, #20
	usra	v28.4s, v25.4s, #12
	usra	v29.4s, v26.4s, #12
	usra	v30.4s, v27.4s, #12
	usra	v20.4s, v6.4s, #12
	add	v3.4s, v3.4s, v28.4s
	add	v0.4s, v0.4s, v29.4s
	add	v1.4s, v1.4s, v30.4s
	add	v2.4s, v2.4s, v20.4s
	eor	v6.16b, v3.16b, v17.16b
	eor	v7.16b, v0.16b, v19.16b
	eor	v5.16b, v1.16b, v5.16b
	eor	v16.16b, v2.16b, v18.16b
	tbl	v6.16b, { v6.16b }, v4.16b
	tbl	v7.16b, { v7.16b }, v4.16b
	tbl	v5.16b, { v5.16b }, v4.16b
	tbl	v4.16b, { v16.16b }, v4.16b
	add	v16.4s, v21.4s, v6.4s
	add	v17.4s, v23.4s, v7.4s
	add	v18.4s, v24.4s, v5.4s
	add	v19.4s, v22.4s, v4.4s
	eor	v21.16b, v16.16b, v28.16b
	eor	v1.16b, v16.16b, v1.16b
	eor	v22.16b, v17.16b, v29.16b
	eor	v23.16b, v18.16b, v30.16b
	eor	v2.16b, v17.16b, v2.16b
	eor	v20.16b, v19.16b, v20.16b
	shl	v24.4s, v21.4s, #25
	eor	v0.16b, v19.16b, v0.16b
	eor	v3.16b, v18.16b, v3.16b
	shl	v25.4s, v22.4s, #25
	shl	v19.4s, v23.4s, #25
	shl	v16.4s, v20.4s, #25
	usra	v24.4s, v21.4s, #7
	stp	q0, q1, [x0]
	stp	q2, q3, [x0, #32]
	usra	v25.4s, v22.4s, #7
	usra	v19.4s, v23.4s, #7
	usra	v16.4s, v20.4s, #7
	eor	v0.16b, v24.16b, v5.16b
	eor	v1.16b, v25.16b, v4.16b
	eor	v2.16b, v19.16b, v6.16b
	eor	v3.16b, v16.16b, v7.16b
	stp	q0, q1, [x0, #64]
	stp	q2, q3, [x0, #96]
	add	sp, sp, #320
	.cfi_def_cfa sp, 0
	ret
	SIZE("keyed_blake3::compression::lanes::take_in_each::<#8b36ca032ac25711>")
	.cfi_endproc

SIZED(16, 4)
	.p2align	4, 0x0
D(CPI31_0):
	.word	64
	.word	17
	.zero	4
	.zero	4
D(CPI31_2):
	.word	3351608833
	.word	2519287717
	.word	1717998845
	.word	3858926260
D(CPI31_3):
	.word	1867767133
	.word	3530409783
	.word	3864159224
	.word	1064391498
D(CPI31_4):
	.word	64
	.word	16
	.zero	4
	.zero	4
SIZED(8, 3)
	.p2align	3, 0x0
D(CPI31_1):
	.word	64
	.word	17
D(CPI31_5):
	.word	64
	.word	16
CODE(".text.keyed_blake3::keyed_hash_two")
	.p2align	2
	TYPE("keyed_blake3::keyed_hash_two", function)
"keyed_blake3::keyed_hash_two":
	.cfi_startproc
	hint	#25
	.cfi_escape 0x2d
	stp	x29, x30, [sp, #-96]!
	.cfi_def_cfa sp, 96
	.cfi_offset x29, -96
	.cfi_offset x30, -88
	stp	x28, x27, [sp, #16]
	.cfi_offset x27, -72
	.cfi_offset x28, -80
	mov	x29, sp
	.cfi_def_cfa x29, 96
	stp	x26, x25, [sp, #32]
	.cfi_offset x25, -56
	.cfi_offset x26, -64
	stp	x24, x23, [sp, #48]
	.cfi_offset x23, -40
	.cfi_offset x24, -48
	stp	x22, x21, [sp, #64]
	.cfi_offset x21, -24
	.cfi_offset x22, -32
	stp	x20, x19, [sp, #80]
	.cfi_offset x19, -8
	.cfi_offset x20, -16
	sub	sp, sp, #560
	movi	v0.2d, #0000000000000000
	mov	x21, x4
	mov	x20, x3
	mov	x23, x2
	mov	x22, x1
	mov	x19, x0
	cmp	x2, #1024
	stp	q0, q0, [sp, #128]
	stp	q0, q0, [sp, #160]
	b.hi	L(31_4)
	cmp	x21, #1024
	b.hi	L(31_4)
	cmp	x23, #0
	cset	w8, ne
	cmp	x21, #0
	cset	w9, ne
	sub	x10, x23, x8
	sub	x8, x21, x9
	lsr	x26, x10, #6
	lsr	x27, x8, #6
	stp	x10, x8, [sp, #8]
	cmp	x27, x26
	csel	x24, x27, x26, lo
	cbz	x26, L(31_5)
	ldp	q0, q1, [x22]
	adrp	x8, PAGE(D(CPI31_0))
	ldr	q6, [x8, LOW(D(CPI31_0))]
	mov	w8, #17
	mov	w9, #64
	stp	q0, q1, [sp, #192]
	ldp	q0, q2, [x22, #32]
	stp	q0, q2, [sp, #224]
	b	L(31_9)
L(31_4):
	adrp	x24, PAGE(D(static.16))
	add	x24, x24, LOW(D(static.16))
	add	x0, sp, #160
	mov	x1, x24
	mov	x2, x22
	mov	x3, x23
	bl	"keyed_blake3::keyed_hash"
	add	x0, sp, #128
	mov	x1, x24
	mov	x2, x20
	mov	x3, x21
	bl	"keyed_blake3::keyed_hash"
	ldp	q0, q1, [sp, #160]
	stp	q0, q1, [x19]
	ldp	q0, q2, [sp, #128]
	stp	q0, q2, [x19, #32]
	b	L(31_49)
L(31_5):
	cmp	x23, #64
	b.ne	L(31_7)
	ldp	q0, q1, [x22]
	stur	q0, [x29, #-144]
	ldp	q0, q2, [x22, #32]
	b	L(31_8)
L(31_7):
	sub	x0, x29, #80
	mov	x1, x22
	mov	x2, x23
	stp	q0, q0, [x29, #-80]
	stp	q0, q0, [x29, #-48]
	bl	C(memcpy)
	ldp	q0, q1, [x29, #-80]
	stur	q0, [x29, #-144]
	ldp	q0, q2, [x29, #-48]
L(31_8):
	stp	q1, q0, [x29, #-128]
	movi	v6.4s, #27
	mov	w8, #27
	ldp	q0, q1, [x29, #-144]
	stur	q2, [x29, #-96]
	mov	w9, w23
	stp	q0, q1, [sp, #192]
	ldp	q2, q0, [x29, #-112]
	mov	v6.s[0], w23
	stp	q2, q0, [sp, #224]
L(31_9):
	ldp	q0, q1, [sp, #192]
	stur	xzr, [x29, #-160]
	stp	w9, w8, [x29, #-152]
	stp	q0, q1, [x29, #-224]
	ldp	q0, q2, [sp, #224]
	stp	q0, q2, [x29, #-192]
	cbz	x27, L(31_11)
	ldp	q0, q1, [x20]
	adrp	x8, PAGE(D(CPI31_1))
	ldp	q2, q3, [x20, #32]
	stp	q0, q1, [sp, #192]
	ldr	d0, [x8, LOW(D(CPI31_1))]
	stp	q2, q3, [sp, #224]
	b	L(31_15)
L(31_11):
	cmp	x21, #64
	b.ne	L(31_13)
	ldp	q0, q1, [x20]
	stur	q0, [x29, #-144]
	ldp	q0, q2, [x20, #32]
	b	L(31_14)
L(31_13):
	movi	v0.2d, #0000000000000000
	sub	x0, x29, #80
	mov	x1, x20
	mov	x2, x21
	str	q6, [sp, #112]
	stp	q0, q0, [x29, #-80]
	stp	q0, q0, [x29, #-48]
	bl	C(memcpy)
	ldp	q0, q1, [x29, #-80]
	ldr	q6, [sp, #112]
	stur	q0, [x29, #-144]
	ldp	q0, q2, [x29, #-48]
L(31_14):
	stp	q1, q0, [x29, #-128]
	movi	v0.2s, #27
	stur	q2, [x29, #-96]
	ldp	q1, q2, [x29, #-144]
	stp	q1, q2, [sp, #192]
	ldp	q3, q1, [x29, #-112]
	mov	v0.s[0], w21
	stp	q3, q1, [sp, #224]
L(31_15):
	movi	v5.2d, #0000000000000000
	ldp	q1, q2, [sp, #192]
	movi	v4.2d, #0000000000000000
	adrp	x8, PAGE(D(CPI31_2))
	adrp	x9, PAGE(D(CPI31_3))
	str	d0, [sp, #328]
	sub	x0, x29, #80
	sub	x1, x29, #224
	stp	q1, q2, [sp, #256]
	ldp	q3, q1, [sp, #224]
	mov	v5.d[1], v0.d[0]
	ldr	q0, [x8, LOW(D(CPI31_2))]
	ldr	q2, [x9, LOW(D(CPI31_3))]
	mov	v4.d[1], v6.d[0]
	add	x2, sp, #256
	str	x19, [sp, #40]
	stp	q3, q1, [sp, #288]
	mov	v1.16b, v0.16b
	mov	v3.16b, v2.16b
	str	xzr, [sp, #320]
	bl	"keyed_blake3::compression::two::compress_two_from"
	ldp	q17, q7, [x29, #-80]
	stp	x24, x20, [sp, #24]
	ldp	q16, q3, [x29, #-48]
	cbz	x24, L(31_32)
	mov	x19, x24
	mov	x28, xzr
	add	x24, x22, #64
	add	x25, x20, #64
	mov	w20, #1
	b	L(31_19)
L(31_17):
	ldp	q0, q1, [x25]
	adrp	x8, PAGE(D(CPI31_5))
	ldp	q2, q4, [x25, #32]
	stp	q0, q1, [sp, #192]
	ldr	d0, [x8, LOW(D(CPI31_5))]
	stp	q2, q4, [sp, #224]
L(31_18):
	ldp	q1, q2, [sp, #192]
	movi	v4.2d, #0000000000000000
	movi	v5.2d, #0000000000000000
	str	d0, [sp, #328]
	sub	x0, x29, #80
	sub	x1, x29, #224
	add	x2, sp, #256
	str	xzr, [sp, #320]
	stp	q1, q2, [sp, #256]
	ldp	q6, q1, [sp, #224]
	mov	v4.d[1], v18.d[0]
	mov	v2.16b, v16.16b
	mov	v5.d[1], v0.d[0]
	mov	v0.16b, v17.16b
	stp	q6, q1, [sp, #288]
	mov	v1.16b, v7.16b
	bl	"keyed_blake3::compression::two::compress_two_from"
	ldp	q17, q7, [x29, #-80]
	add	x20, x20, #1
	ldp	q16, q3, [x29, #-48]
	sub	x19, x19, #1
	sub	x28, x28, #64
	add	x24, x24, #64
	add	x25, x25, #64
	cbz	x19, L(31_32)
L(31_19):
	cmp	x20, x26
	b.hs	L(31_21)
	ldp	q0, q1, [x24]
	adrp	x8, PAGE(D(CPI31_4))
	ldr	q18, [x8, LOW(D(CPI31_4))]
	mov	w9, #16
	mov	w8, #64
	stp	q0, q1, [sp, #192]
	ldp	q0, q2, [x24, #32]
	stp	q0, q2, [sp, #224]
	b	L(31_25)
L(31_21):
	add	x8, x23, x28
	cmp	x8, #128
	b.eq	L(31_23)
	movi	v0.2d, #0000000000000000
	sub	x9, x29, #80
	sub	x2, x8, #64
	sub	x8, x9, x24
	sub	x0, x29, #80
	mov	x1, x24
	stp	q17, q16, [sp, #64]
	cmp	x8, x2
	stp	q7, q3, [sp, #96]
	stp	q0, q0, [x29, #-80]
	stp	q0, q0, [x29, #-48]
	bl	C(memcpy)
	ldp	q0, q1, [x29, #-80]
	ldp	q7, q3, [sp, #96]
	ldp	q17, q16, [sp, #64]
	stp	q0, q1, [x29, #-144]
	ldp	q0, q2, [x29, #-48]
	b	L(31_24)
L(31_23):
	ldp	q0, q1, [x24]
	stp	q0, q1, [x29, #-144]
	ldp	q0, q2, [x24, #32]
L(31_24):
	stp	q0, q2, [x29, #-112]
	movi	v18.4s, #26
	add	w8, w23, w28
	mov	w9, #26
	ldp	q0, q1, [x29, #-144]
	sub	w8, w8, #64
	mov	v18.s[0], w8
	stp	q0, q1, [sp, #192]
	ldp	q2, q0, [x29, #-112]
	stp	q2, q0, [sp, #224]
L(31_25):
	ldp	q0, q1, [sp, #192]
	cmp	x20, x27
	stur	xzr, [x29, #-160]
	stp	w8, w9, [x29, #-152]
	stp	q0, q1, [x29, #-224]
	ldp	q0, q2, [sp, #224]
	stp	q0, q2, [x29, #-192]
	b.lo	L(31_17)
	add	x8, x21, x28
	cmp	x8, #128
	b.eq	L(31_30)
	movi	v0.2d, #0000000000000000
	sub	x9, x29, #80
	sub	x2, x8, #64
	sub	x8, x9, x25
	stp	q18, q17, [sp, #48]
	cmp	x8, x2
	stp	q16, q7, [sp, #80]
	str	q3, [sp, #112]
	stp	q0, q0, [x29, #-80]
	stp	q0, q0, [x29, #-48]
	b.hs	L(31_29)
	add	x8, x21, x28
	sub	x2, x8, #64
L(31_29):
	sub	x0, x29, #80
	mov	x1, x25
	bl	C(memcpy)
	ldp	q0, q1, [x29, #-80]
	ldr	q18, [sp, #48]
	ldp	q7, q3, [sp, #96]
	ldp	q17, q16, [sp, #64]
	stp	q0, q1, [x29, #-144]
	ldp	q0, q2, [x29, #-48]
	b	L(31_31)
L(31_30):
	ldp	q0, q1, [x25]
	stp	q0, q1, [x29, #-144]
	ldp	q0, q2, [x25, #32]
L(31_31):
	stp	q0, q2, [x29, #-112]
	movi	v0.2s, #26
	add	w8, w21, w28
	ldp	q1, q2, [x29, #-144]
	sub	w8, w8, #64
	mov	v0.s[0], w8
	stp	q1, q2, [sp, #192]
	ldp	q4, q1, [x29, #-112]
	stp	q4, q1, [sp, #224]
	b	L(31_18)
L(31_32):
	ldr	x28, [sp, #24]
	cmp	x27, x26
	add	x19, x28, #1
	b.hs	L(31_38)
	ldr	x25, [sp, #32]
	cmp	x19, x26
	stp	q7, q3, [sp, #96]
	b.hs	L(31_36)
	add	x8, x22, x28, lsl #6
	mvn	x9, x28
	add	x20, x9, x26
	add	x24, x8, #64
L(31_35):
	ldp	q0, q1, [x24]
	add	x0, sp, #256
	sub	x1, x29, #224
	mov	x2, xzr
	mov	w3, #64
	mov	w4, #16
	stp	q0, q1, [x29, #-224]
	ldp	q0, q2, [x24, #32]
	mov	v1.16b, v16.16b
	stp	q0, q2, [x29, #-192]
	mov	v0.16b, v17.16b
	bl	"keyed_blake3::compression::compress"
	ldp	q17, q16, [sp, #256]
	subs	x20, x20, #1
	add	x24, x24, #64
	b.ne	L(31_35)
L(31_36):
	ldr	x8, [sp, #8]
	movi	v0.2d, #0000000000000000
	and	x8, x8, #0x7c0
	sub	x23, x23, x8
	add	x1, x22, x8
	cmp	x23, #64
	stp	q0, q0, [sp, #256]
	b.ne	L(31_44)
	ldp	q0, q1, [x1]
	add	x0, sp, #256
	mov	x2, xzr
	mov	w3, #64
	stp	q0, q1, [x29, #-224]
	ldp	q0, q2, [x1, #32]
	sub	x1, x29, #224
	mov	v1.16b, v16.16b
	stp	q0, q2, [x29, #-192]
	mov	v0.16b, v17.16b
	mov	w4, #26
	bl	"keyed_blake3::compression::compress"
	ldp	q17, q16, [sp, #256]
	ldp	q7, q3, [sp, #96]
	cmp	x26, x27
	b.hs	L(31_45)
	b	L(31_39)
L(31_38):
	ldr	x25, [sp, #32]
	cmp	x26, x27
	b.hs	L(31_45)
L(31_39):
	cmp	x19, x27
	stp	q17, q16, [sp, #64]
	b.hs	L(31_42)
	add	x8, x25, x28, lsl #6
	mvn	x9, x28
	add	x19, x9, x27
	add	x20, x8, #64
L(31_41):
	ldp	q0, q1, [x20]
	add	x0, sp, #256
	sub	x1, x29, #224
	mov	x2, xzr
	mov	w3, #64
	mov	w4, #16
	stp	q0, q1, [x29, #-224]
	ldp	q0, q2, [x20, #32]
	mov	v1.16b, v3.16b
	stp	q0, q2, [x29, #-192]
	mov	v0.16b, v7.16b
	bl	"keyed_blake3::compression::compress"
	ldp	q7, q3, [sp, #256]
	subs	x19, x19, #1
	add	x20, x20, #64
	b.ne	L(31_41)
L(31_42):
	ldr	x8, [sp, #16]
	movi	v0.2d, #0000000000000000
	and	x8, x8, #0x7c0
	sub	x21, x21, x8
	add	x1, x25, x8
	cmp	x21, #64
	stp	q0, q0, [sp, #256]
	b.ne	L(31_46)
	ldp	q0, q1, [x1]
	add	x0, sp, #256
	mov	x2, xzr
	mov	w3, #64
	stp	q0, q1, [x29, #-224]
	ldp	q0, q2, [x1, #32]
	sub	x1, x29, #224
	mov	v1.16b, v3.16b
	stp	q0, q2, [x29, #-192]
	mov	v0.16b, v7.16b
	b	L(31_47)
L(31_44):
	sub	x0, x29, #224
	mov	x2, x23
	stp	q0, q0, [x29, #-224]
	stp	q0, q0, [x29, #-192]
	stp	q17, q16, [sp, #64]
	bl	C(memcpy)
	ldp	q0, q1, [sp, #64]
	add	x0, sp, #256
	sub	x1, x29, #224
	mov	x2, xzr
	mov	w3, w23
	mov	w4, #26
	bl	"keyed_blake3::compression::compress"
	ldp	q17, q16, [sp, #256]
	ldp	q7, q3, [sp, #96]
	cmp	x26, x27
	b.lo	L(31_39)
L(31_45):
	ldr	x8, [sp, #40]
	b	L(31_48)
L(31_46):
	sub	x0, x29, #224
	mov	x2, x21
	stp	q0, q0, [x29, #-224]
	stp	q0, q0, [x29, #-192]
	stp	q7, q3, [sp, #96]
	bl	C(memcpy)
	ldp	q0, q1, [sp, #96]
	add	x0, sp, #256
	sub	x1, x29, #224
	mov	x2, xzr
	mov	w3, w21
L(31_47):
	mov	w4, #26
	bl	"keyed_blake3::compression::compress"
	ldp	q7, q3, [sp, #256]
	ldr	x8, [sp, #40]
	ldp	q17, q16, [sp, #64]
L(31_48):
	stp	q17, q16, [x8]
	stp	q7, q3, [x8, #32]
L(31_49):
	add	sp, sp, #560
	ldp	x20, x19, [sp, #80]
	.cfi_remember_state
	.cfi_restore x19
	.cfi_restore x20
	ldp	x22, x21, [sp, #64]
	.cfi_restore x21
	.cfi_restore x22
	ldp	x24, x23, [sp, #48]
	.cfi_restore x23
	.cfi_restore x24
	ldp	x26, x25, [sp, #32]
	.cfi_restore x25
	.cfi_restore x26
	ldp	x28, x27, [sp, #16]
	.cfi_restore x27
	.cfi_restore x28
	ldp	x29, x30, [sp], #96
	.cfi_def_cfa sp, 0
	.cfi_restore x29
	.cfi_restore x30
	hint	#29
	.cfi_escape 0x2d
	ret
	SIZE("keyed_blake3::keyed_hash_two")
	.cfi_endproc

CODE(".text.xet_roots::aggregated_hashes::push_parents::<#135fa06c802d8a86>")
	.p2align	2
	TYPE("xet_roots::aggregated_hashes::push_parents::<#135fa06c802d8a86>", function)
"xet_roots::aggregated_hashes::push_parents::<#135fa06c802d8a86>":
	.cfi_startproc
	hint	#25
	.cfi_escape 0x2d
	stp	x29, x30, [sp, #-96]!
	.cfi_def_cfa sp, 96
	.cfi_offset x29, -96
	.cfi_offset x30, -88
	stp	x28, x27, [sp, #16]
	.cfi_offset x27, -72
	.cfi_offset x28, -80
	mov	x29, sp
	.cfi_def_cfa x29, 96
	stp	x26, x25, [sp, #32]
	.cfi_offset x25, -56
	.cfi_offset x26, -64
	stp	x24, x23, [sp, #48]
	.cfi_offset x23, -40
	.cfi_offset x24, -48
	stp	x22, x21, [sp, #64]
	.cfi_offset x21, -24
	.cfi_offset x22, -32
	stp	x20, x19, [sp, #80]
	.cfi_offset x19, -8
	.cfi_offset x20, -16
	sub	sp, sp, #944
	movi	v0.2d, #0000000000000000
	mov	x20, x3
	mov	x22, x2
	mov	x21, x1
	mov	x19, x0
	cmp	x2, #144
	stp	q0, q0, [sp, #32]
	stp	q0, q0, [sp, #64]
	b.lo	L(32_3)
L(32_1):
	mov	x0, x19
	mov	x1, x21
	mov	x2, x22
	mov	x3, x20
	bl	"xet_roots::aggregated_hashes::push_first_parents::<#135fa06c802d8a86>"
	tst	w0, #0xff
	b.ne	L(32_56)
	mov	w8, #40
	sub	x22, x22, x1
	madd	x21, x1, x8, x21
	cmp	x22, #143
	b.hi	L(32_1)
L(32_3):
	cbz	x22, L(32_55)
	add	x24, sp, #32
L(32_5):
	cmp	x22, #9
	mov	w8, #9
	csel	x23, x22, x8, lo
	cmp	x22, #3
	b.lo	L(32_25)
	ldrb	w8, [x21, #104]
	tst	w8, #0x3
	b.eq	L(32_19)
	cmp	x22, #3
	b.eq	L(32_25)
	ldrb	w8, [x21, #144]
	tst	w8, #0x3
	b.eq	L(32_20)
	cmp	x22, #4
	b.eq	L(32_25)
	ldrb	w8, [x21, #184]
	tst	w8, #0x3
	b.eq	L(32_21)
	cmp	x22, #5
	b.eq	L(32_25)
	ldrb	w8, [x21, #224]
	tst	w8, #0x3
	b.eq	L(32_22)
	cmp	x22, #6
	b.eq	L(32_25)
	ldrb	w8, [x21, #264]
	tst	w8, #0x3
	b.eq	L(32_23)
	cmp	x22, #7
	b.eq	L(32_25)
	ldrb	w8, [x21, #304]
	tst	w8, #0x3
	b.eq	L(32_24)
	cmp	x22, #8
	b.eq	L(32_25)
	ldrb	w8, [x21, #344]
	tst	w8, #0x3
	mov	w8, #9
	csel	x23, x8, x23, eq
	b	L(32_25)
L(32_19):
	mov	w23, #3
	b	L(32_25)
L(32_20):
	mov	w23, #4
	b	L(32_25)
L(32_21):
	mov	w23, #5
	b	L(32_25)
L(32_22):
	mov	w23, #6
	b	L(32_25)
L(32_23):
	mov	w23, #7
	b	L(32_25)
L(32_24):
	mov	w23, #8
L(32_25):
	subs	x25, x22, x23
	b.eq	L(32_57)
	add	x8, x23, x23, lsl #2
	cmp	x25, #9
	mov	w9, #9
	csel	x22, x25, x9, lo
	cmp	x25, #3
	lsl	x27, x8, #3
	b.lo	L(32_31)
	mov	w8, #2
	add	x9, x21, x27
	sub	x8, x8, x22
	add	x10, x9, #104
	mov	w9, #3
L(32_28):
	ldrb	w11, [x10], #40
	tst	w11, #0x3
	b.eq	L(32_30)
	add	x9, x9, #1
	add	x11, x8, x9
	cmp	x11, #3
	b.ne	L(32_28)
	b	L(32_31)
L(32_30):
	mov	x22, x9
L(32_31):
	ldp	x8, x9, [x20]
	add	x0, sp, #104
	add	x3, x21, x27
	mov	x1, x21
	mov	x2, x23
	mov	x4, x22
	add	x26, x21, x27
	adds	x8, x8, #2
	cinc	x9, x9, hs
	stp	x8, x9, [x20]
	bl	"xet_roots::groups::two_parent_hashes"
	ldur	q0, [sp, #104]
	ldur	q1, [sp, #120]
	cmp	x23, #2
	ldur	q2, [sp, #152]
	stp	q0, q1, [sp, #32]
	ldur	q0, [sp, #136]
	stp	q0, q2, [sp, #64]
	b.hs	L(32_33)
	mov	x28, xzr
	mov	x8, x21
	b	L(32_39)
L(32_33):
	and	x8, x23, #0xfffffffffffffffe
	ldr	x9, [x21, #32]
	ldr	x10, [x21, #72]
	cmp	x8, #2
	b.eq	L(32_37)
	ldr	x11, [x21, #112]
	ldr	x12, [x21, #152]
	cmp	x8, #4
	add	x9, x11, x9
	add	x10, x12, x10
	b.eq	L(32_37)
	ldr	x11, [x21, #192]
	ldr	x12, [x21, #232]
	cmp	x8, #6
	add	x9, x11, x9
	add	x10, x12, x10
	b.eq	L(32_37)
	ldr	x11, [x21, #272]
	ldr	x12, [x21, #312]
	add	x9, x11, x9
	add	x10, x12, x10
L(32_37):
	cmp	x23, x8
	add	x28, x10, x9
	b.eq	L(32_41)
	mov	w9, #40
	and	x23, x23, #0x1
	madd	x8, x8, x9, x21
L(32_39):
	add	x8, x8, #32
L(32_40):
	ldr	x9, [x8], #40
	subs	x23, x23, #1
	add	x28, x9, x28
	b.ne	L(32_40)
L(32_41):
	ldp	x8, x9, [x19, #8]
	cmp	x9, x8
	b.eq	L(32_51)
L(32_42):
	mov	w9, #40
	ldr	x10, [x19]
	cmp	x22, #2
	madd	x9, x8, x9, x10
	ldp	q0, q1, [sp, #32]
	add	x8, x8, #1
	stp	q0, q1, [x9]
	str	x28, [x9, #32]
	str	x8, [x19, #8]
	b.hs	L(32_44)
	mov	x23, xzr
	mov	x9, x22
	mov	x10, x26
	b	L(32_47)
L(32_44):
	and	x13, x22, #0xfffffffffffffffe
	mov	w9, #40
	add	x14, x21, x27
	madd	x10, x13, x9, x26
	mov	x11, xzr
	mov	x12, xzr
	and	x9, x22, #0x1
	add	x14, x14, #72
	and	x15, x22, #0xfffffffffffffffe
L(32_45):
	ldur	x16, [x14, #-40]
	ldr	x17, [x14], #80
	subs	x15, x15, #2
	add	x11, x16, x11
	add	x12, x17, x12
	b.ne	L(32_45)
	cmp	x22, x13
	add	x23, x12, x11
	b.eq	L(32_49)
L(32_47):
	add	x10, x10, #32
L(32_48):
	ldr	x11, [x10], #40
	subs	x9, x9, #1
	add	x23, x11, x23
	b.ne	L(32_48)
L(32_49):
	ldr	x9, [x19, #16]
	cmp	x9, x8
	b.eq	L(32_53)
L(32_50):
	mov	w9, #40
	ldr	x10, [x19]
	madd	x9, x8, x9, x10
	mov	w10, #40
	add	x8, x8, #1
	ldp	q0, q1, [x24, #32]
	madd	x21, x22, x10, x26
	sub	x22, x25, x22
	stp	q0, q1, [x9]
	str	x23, [x9, #32]
	str	x8, [x19, #8]
	cbnz	x22, L(32_5)
	b	L(32_55)
L(32_51):
	mov	x0, x19
	mov	w1, #1
	mov	w23, #1
	bl	"std_alloc::vec::Vec::grow_amortized::<#1ed62de40e111fb4>"
	cbz	w0, L(32_69)
	ldr	x8, [x19, #8]
	b	L(32_42)
L(32_53):
	mov	x0, x19
	mov	w1, #1
	mov	w21, #1
	bl	"std_alloc::vec::Vec::grow_amortized::<#1ed62de40e111fb4>"
	cbz	w0, L(32_70)
	ldr	x8, [x19, #8]
	b	L(32_50)
L(32_55):
	mov	w0, wzr
	b	L(32_66)
L(32_56):
	mov	w0, #1
	b	L(32_66)
L(32_57):
	ldp	x8, x9, [x20]
	add	x0, sp, #104
	mov	w1, wzr
	mov	w2, #792
	adds	x8, x8, #1
	cinc	x9, x9, hs
	stp	x8, x9, [x20]
	bl	C(memset)
	add	x0, sp, #104
	mov	x1, x21
	mov	x2, x22
	bl	"xet_roots::groups::write_text"
	movi	v0.2d, #0000000000000000
	mov	x3, x0
	adrp	x1, PAGE(D(static.16))
	add	x1, x1, LOW(D(static.16))
	sub	x0, x29, #48
	add	x2, sp, #104
	stp	q0, q0, [x29, #-48]
	bl	"keyed_blake3::keyed_hash"
	cmp	x22, #2
	b.hs	L(32_59)
	mov	x20, xzr
	mov	x8, x22
	mov	x9, x21
	b	L(32_62)
L(32_59):
	and	x12, x22, #0xfffffffffffffffe
	mov	w8, #40
	mov	x10, xzr
	madd	x9, x12, x8, x21
	mov	x11, xzr
	and	x8, x22, #0x1
	add	x13, x21, #72
	and	x14, x22, #0xfffffffffffffffe
L(32_60):
	ldur	x15, [x13, #-40]
	ldr	x16, [x13], #80
	subs	x14, x14, #2
	add	x10, x15, x10
	add	x11, x16, x11
	b.ne	L(32_60)
	cmp	x22, x12
	add	x20, x11, x10
	b.eq	L(32_64)
L(32_62):
	add	x9, x9, #32
L(32_63):
	ldr	x10, [x9], #40
	subs	x8, x8, #1
	add	x20, x10, x20
	b.ne	L(32_63)
L(32_64):
	ldp	x8, x9, [x19, #8]
	ldp	q0, q1, [x29, #-48]
	cmp	x9, x8
	b.eq	L(32_67)
L(32_65):
	mov	w9, #40
	ldr	x10, [x19]
	mov	w0, wzr
	madd	x9, x8, x9, x10
	add	x8, x8, #1
	stp	q0, q1, [x9]
	str	x20, [x9, #32]
	str	x8, [x19, #8]
L(32_66):
	add	sp, sp, #944
	ldp	x20, x19, [sp, #80]
	.cfi_remember_state
	.cfi_restore x19
	.cfi_restore x20
	ldp	x22, x21, [sp, #64]
	.cfi_restore x21
	.cfi_restore x22
	ldp	x24, x23, [sp, #48]
	.cfi_restore x23
	.cfi_restore x24
	ldp	x26, x25, [sp, #32]
	.cfi_restore x25
	.cfi_restore x26
	ldp	x28, x27, [sp, #16]
	.cfi_restore x27
	.cfi_restore x28
	ldp	x29, x30, [sp], #96
	.cfi_def_cfa sp, 0
	.cfi_restore x29
	.cfi_restore x30
	hint	#29
	.cfi_escape 0x2d
	ret
L(32_67):
	.cfi_restore_state
	mov	x0, x19
	mov	w1, #1
	stp	q1, q0, [sp]
	bl	"std_alloc::vec::Vec::grow_amortized::<#1ed62de40e111fb4>"
	mov	w8, w0
	mov	w0, #1
	cbz	w8, L(32_66)
	ldp	q1, q0, [sp]
	ldr	x8, [x19, #8]
	b	L(32_65)
L(32_69):
	mov	w0, w23
	b	L(32_66)
L(32_70):
	mov	w0, w21
	b	L(32_66)
	SIZE("xet_roots::aggregated_hashes::push_parents::<#135fa06c802d8a86>")
	.cfi_endproc

CODE(".text.xet_roots::groups::two_parent_hashes")
	.p2align	2
	TYPE("xet_roots::groups::two_parent_hashes", function)
"xet_roots::groups::two_parent_hashes":
	.cfi_startproc
	hint	#25
	.cfi_escape 0x2d
	stp	x29, x30, [sp, #-64]!
	.cfi_def_cfa sp, 64
	.cfi_offset x29, -64
	.cfi_offset x30, -56
	stp	x28, x23, [sp, #16]
	.cfi_offset x23, -40
	.cfi_offset x28, -48
	mov	x29, sp
	.cfi_def_cfa x29, 64
	stp	x22, x21, [sp, #32]
	.cfi_offset x21, -24
	.cfi_offset x22, -32
	stp	x20, x19, [sp, #48]
	.cfi_offset x19, -8
	.cfi_offset x20, -16
	sub	sp, sp, #1648
	mov	x21, x2
	mov	x22, x1
	mov	x23, x0
	add	x0, sp, #792
	mov	w1, wzr
	mov	w2, #792
	str	xzr, [sp]
	mov	x19, x4
	mov	x20, x3
	bl	C(memset)
	add	x0, sp, #792
	mov	x1, x22
	mov	x2, x21
	bl	"xet_roots::groups::write_text"
	mov	x21, x0
	mov	x0, sp
	mov	w1, wzr
	mov	w2, #792
	bl	C(memset)
	mov	x0, sp
	mov	x1, x20
	mov	x2, x19
	bl	"xet_roots::groups::write_text"
	movi	v0.2d, #0000000000000000
	mov	x4, x0
	sub	x0, x29, #64
	add	x1, sp, #792
	mov	x3, sp
	mov	x2, x21
	stp	q0, q0, [x29, #-64]
	stp	q0, q0, [x29, #-32]
	bl	"keyed_blake3::keyed_hash_two"
	ldp	q0, q1, [x29, #-64]
	stp	q0, q1, [x23]
	ldp	q0, q2, [x29, #-32]
	stp	q0, q2, [x23, #32]
	add	sp, sp, #1648
	ldp	x20, x19, [sp, #48]
	.cfi_remember_state
	.cfi_restore x19
	.cfi_restore x20
	ldp	x22, x21, [sp, #32]
	.cfi_restore x21
	.cfi_restore x22
	ldp	x28, x23, [sp, #16]
	.cfi_restore x23
	.cfi_restore x28
	ldp	x29, x30, [sp], #64
	.cfi_def_cfa sp, 0
	.cfi_restore x29
	.cfi_restore x30
	hint	#29
	.cfi_escape 0x2d
	ret
	SIZE("xet_roots::groups::two_parent_hashes")
	.cfi_endproc

CODE(".text.subtree_levels::collapse::collapse::<#a9d92fd6c0d16019>")
	.p2align	2
	TYPE("subtree_levels::collapse::collapse::<#a9d92fd6c0d16019>", function)
"subtree_levels::collapse::collapse::<#a9d92fd6c0d16019>":
	.cfi_startproc
	hint	#25
	.cfi_escape 0x2d
	sub	sp, sp, #448
	.cfi_def_cfa sp, 448
	stp	x26, x25, [sp, #384]
	.cfi_offset x25, -56
	.cfi_offset x26, -64
	movi	v0.2d, #0000000000000000
	stp	x20, x19, [sp, #432]
	.cfi_offset x19, -8
	.cfi_offset x20, -16
	ldp	x20, x25, [x2]
	stp	x22, x21, [sp, #416]
	.cfi_offset x21, -24
	.cfi_offset x22, -32
	ldp	x21, x19, [x1]
	stp	x28, x27, [sp, #368]
	.cfi_offset x27, -72
	.cfi_offset x28, -80
	mov	w22, w4
	ldr	x28, [x1, #16]
	stp	x24, x23, [sp, #400]
	.cfi_offset x23, -40
	.cfi_offset x24, -48
	mov	x1, x20
	mov	w24, w3
	stp	x0, x5, [sp]
	ldr	x23, [x2, #16]
	add	x0, sp, #128
	mov	x2, x25
	stp	x29, x30, [sp, #352]
	.cfi_offset x29, -96
	.cfi_offset x30, -88
	add	x29, sp, #352
	.cfi_def_cfa x29, 96
	str	xzr, [sp, #176]
	stp	q0, q0, [sp, #96]
	stp	q0, q0, [sp, #128]
	str	q0, [sp, #160]
	bl	"subtree_levels::split::find_split::<#30d82ebffd2e63ea>"
	ldrb	w8, [sp, #128]
	cmp	w8, #1
	b.eq	L(34_5)
	mov	x26, x20
	mov	x27, x23
L(34_2):
	sub	x8, x29, #16
	add	x0, sp, #96
	add	x1, sp, #72
	add	x2, sp, #16
	stp	x21, x19, [sp, #72]
	str	x28, [sp, #88]
	stp	xzr, xzr, [sp, #56]
	stp	x26, x25, [sp, #16]
	stp	x27, xzr, [sp, #32]
	str	x8, [sp, #48]
	bl	"subtree_levels::levels::pushed::<#024afdc31600bcbd>"
	ldrb	w8, [sp, #96]
	cbz	w8, L(34_14)
	ldr	x9, [sp]
	mov	w8, #1
	stp	xzr, xzr, [x9, #16]
	strb	w8, [x9]
	stur	xzr, [x9, #8]
	b	L(34_36)
L(34_4):
	add	x0, sp, #128
	mov	x1, x26
	mov	x2, x25
	mov	w3, w24
	mov	w4, w22
	bl	"subtree_levels::split::find_split::<#30d82ebffd2e63ea>"
	ldrb	w8, [sp, #128]
	mov	x23, x27
	mov	x20, x26
	cmp	w8, #1
	b.ne	L(34_2)
L(34_5):
	movi	v0.2d, #0000000000000000
	ldp	x1, x2, [sp, #136]
	ldp	x3, x4, [sp, #168]
	sub	x0, x29, #112
	ldp	x25, x26, [sp, #152]
	stp	q0, q0, [x29, #-144]
	stp	q0, q0, [x29, #-112]
	stp	q0, q0, [x29, #-80]
	bl	"level_nodes::levels::LevelNodes::copied::<#d96a70c1b70ca186>"
	ldurb	w8, [x29, #-112]
	cbnz	w8, L(34_15)
	sub	x8, x29, #112
	sub	x0, x29, #144
	sub	x1, x29, #168
	add	x2, x8, #8
	stp	x21, x19, [x29, #-168]
	stur	x28, [x29, #-152]
	bl	"subtree_levels::levels::pushed::<#024afdc31600bcbd>"
	ldurb	w8, [x29, #-144]
	cbnz	w8, L(34_33)
	mov	x8, #-6148914691236517206
	ldp	x21, x19, [x29, #-136]
	movk	x8, #43691
	ldur	x28, [x29, #-120]
	umulh	x8, x26, x8
	lsr	x8, x8, #1
	add	x9, x8, x8, lsl #1
	cmp	x26, x9
	cinc	x27, x8, ne
	cbz	x27, L(34_10)
	mov	x8, #3689348814741910323
	movk	x8, #819, lsl #48
	cmp	x27, x8
	b.hi	L(34_24)
	add	x8, x27, x27, lsl #2
	mov	w1, #8
	lsl	x0, x8, #3
	bl	C(yurewha_heap_alloc)
	tbnz	w0, #0, L(34_11)
	b	L(34_24)
L(34_10):
	sub	x1, x29, #16
L(34_11):
	ldr	x3, [sp, #8]
	stp	x1, xzr, [x29, #-40]
	sub	x0, x29, #40
	mov	x1, x25
	mov	x2, x26
	stur	x27, [x29, #-24]
	bl	"xet_roots::aggregated_hashes::push_parents::<#135fa06c802d8a86>"
	tst	w0, #0xff
	b.ne	L(34_22)
	ldp	x26, x25, [x29, #-40]
	ldur	x27, [x29, #-24]
	cbz	x23, L(34_4)
	mov	x0, x20
	bl	C(yurewha_heap_dealloc)
	b	L(34_4)
L(34_14):
	ldur	q0, [sp, #104]
	ldr	x9, [sp]
	ldr	x8, [sp, #120]
	strb	wzr, [x9]
	stur	q0, [x9, #8]
	stur	x8, [x9, #24]
	b	L(34_36)
L(34_15):
	cbz	x19, L(34_31)
	add	x24, x21, #32
	b	L(34_18)
L(34_17):
	subs	x19, x19, #1
	add	x24, x24, #56
	b.eq	L(34_31)
L(34_18):
	ldur	x8, [x24, #-16]
	ldr	x22, [x24]
	ldr	x25, [x24, #16]
	cbz	x8, L(34_20)
	ldur	x0, [x24, #-32]
	bl	C(yurewha_heap_dealloc)
L(34_20):
	cbz	x25, L(34_17)
	mov	x0, x22
	bl	C(yurewha_heap_dealloc)
	b	L(34_17)
L(34_22):
	ldur	x8, [x29, #-24]
	cbz	x8, L(34_24)
	ldur	x0, [x29, #-40]
	bl	C(yurewha_heap_dealloc)
L(34_24):
	cbz	x19, L(34_31)
	add	x24, x21, #32
	b	L(34_27)
L(34_26):
	subs	x19, x19, #1
	add	x24, x24, #56
	b.eq	L(34_31)
L(34_27):
	ldur	x8, [x24, #-16]
	ldr	x22, [x24]
	ldr	x25, [x24, #16]
	cbz	x8, L(34_29)
	ldur	x0, [x24, #-32]
	bl	C(yurewha_heap_dealloc)
L(34_29):
	cbz	x25, L(34_26)
	mov	x0, x22
	bl	C(yurewha_heap_dealloc)
	b	L(34_26)
L(34_31):
	cbz	x28, L(34_33)
	mov	x0, x21
	bl	C(yurewha_heap_dealloc)
L(34_33):
	cbz	x23, L(34_35)
	mov	x0, x20
	bl	C(yurewha_heap_dealloc)
L(34_35):
	ldr	x9, [sp]
	mov	w8, #1
	stp	xzr, xzr, [x9, #16]
	strb	w8, [x9]
	str	xzr, [x9, #8]
L(34_36):
	ldp	x20, x19, [sp, #432]
	.cfi_remember_state
	.cfi_restore x19
	.cfi_restore x20
	ldp	x22, x21, [sp, #416]
	.cfi_restore x21
	.cfi_restore x22
	ldp	x24, x23, [sp, #400]
	.cfi_restore x23
	.cfi_restore x24
	ldp	x26, x25, [sp, #384]
	.cfi_restore x25
	.cfi_restore x26
	ldp	x28, x27, [sp, #368]
	.cfi_restore x27
	.cfi_restore x28
	ldp	x29, x30, [sp, #352]
	.cfi_def_cfa sp, 448
	.cfi_restore x29
	.cfi_restore x30
	add	sp, sp, #448
	.cfi_def_cfa sp, 0
	hint	#29
	.cfi_escape 0x2d
	ret
	SIZE("subtree_levels::collapse::collapse::<#a9d92fd6c0d16019>")
	.cfi_endproc

CODE(".text.level_nodes::levels::LevelNodes::copied::<#d96a70c1b70ca186>")
	.p2align	2
	TYPE("level_nodes::levels::LevelNodes::copied::<#d96a70c1b70ca186>", function)
"level_nodes::levels::LevelNodes::copied::<#d96a70c1b70ca186>":
	.cfi_startproc
	hint	#25
	.cfi_escape 0x2d
	sub	sp, sp, #112
	.cfi_def_cfa sp, 112
	stp	x22, x21, [sp, #80]
	.cfi_offset x21, -24
	.cfi_offset x22, -32
	mov	x22, x3
	mov	x21, x2
	stp	x20, x19, [sp, #96]
	.cfi_offset x19, -8
	.cfi_offset x20, -16
	mov	x20, x4
	mov	x19, x0
	stp	x29, x30, [sp, #48]
	.cfi_offset x29, -64
	.cfi_offset x30, -56
	add	x29, sp, #48
	.cfi_def_cfa x29, 64
	stp	x24, x23, [sp, #64]
	.cfi_offset x23, -40
	.cfi_offset x24, -48
	cbz	x2, L(35_10)
	mov	x8, #3689348814741910323
	movk	x8, #819, lsl #48
	cmp	x21, x8
	b.hi	L(35_15)
	add	x8, x21, x21, lsl #2
	mov	x24, x1
	mov	w1, #8
	lsl	x0, x8, #3
	bl	C(yurewha_heap_alloc)
	tbz	w0, #0, L(35_15)
	mov	x23, x1
	mov	x8, x24
	mov	x9, x1
	mov	x10, x21
L(35_4):
	ldur	q0, [x8, #1]
	ldr	q1, [x8, #16]
	subs	x10, x10, #1
	ldrb	w11, [x8]
	ldr	x12, [x8, #32]
	add	x8, x8, #40
	str	q0, [sp]
	stur	q1, [sp, #15]
	ldr	q0, [sp]
	strb	w11, [x9]
	str	x12, [x9, #32]
	stur	q0, [x9, #1]
	ldur	q0, [sp, #15]
	str	q0, [x9, #16]
	add	x9, x9, #40
	b.ne	L(35_4)
	cbz	x20, L(35_11)
L(35_6):
	mov	x8, #3689348814741910323
	movk	x8, #819, lsl #48
	cmp	x20, x8
	b.hi	L(35_13)
	add	x8, x20, x20, lsl #2
	mov	w1, #8
	lsl	x0, x8, #3
	bl	C(yurewha_heap_alloc)
	tbz	w0, #0, L(35_13)
	mov	x8, x1
	mov	x9, x20
L(35_9):
	ldur	q0, [x22, #1]
	ldr	q1, [x22, #16]
	subs	x9, x9, #1
	ldrb	w10, [x22]
	ldr	x11, [x22, #32]
	add	x22, x22, #40
	str	q0, [sp]
	stur	q1, [sp, #15]
	ldr	q0, [sp]
	strb	w10, [x8]
	str	x11, [x8, #32]
	stur	q0, [x8, #1]
	ldur	q0, [sp, #15]
	str	q0, [x8, #16]
	add	x8, x8, #40
	b.ne	L(35_9)
	b	L(35_12)
L(35_10):
	sub	x23, x29, #8
	cbnz	x20, L(35_6)
L(35_11):
	sub	x1, x29, #8
L(35_12):
	strb	wzr, [x19]
	stp	x23, x21, [x19, #8]
	stp	x21, xzr, [x19, #24]
	stp	x1, x20, [x19, #40]
	str	x20, [x19, #56]
	ldp	x20, x19, [sp, #96]
	.cfi_remember_state
	.cfi_restore x19
	.cfi_restore x20
	ldp	x22, x21, [sp, #80]
	.cfi_restore x21
	.cfi_restore x22
	ldp	x24, x23, [sp, #64]
	.cfi_restore x23
	.cfi_restore x24
	ldp	x29, x30, [sp, #48]
	.cfi_def_cfa sp, 112
	.cfi_restore x29
	.cfi_restore x30
	add	sp, sp, #112
	.cfi_def_cfa sp, 0
	hint	#29
	.cfi_escape 0x2d
	ret
L(35_13):
	.cfi_restore_state
	cbz	x21, L(35_15)
	mov	x0, x23
	bl	C(yurewha_heap_dealloc)
L(35_15):
	movi	v0.2d, #0000000000000000
	mov	w8, #1
	str	xzr, [x19, #56]
	strb	w8, [x19]
	stur	q0, [x19, #8]
	stur	q0, [x19, #24]
	stur	q0, [x19, #40]
	ldp	x20, x19, [sp, #96]
	.cfi_remember_state
	.cfi_restore x19
	.cfi_restore x20
	ldp	x22, x21, [sp, #80]
	.cfi_restore x21
	.cfi_restore x22
	ldp	x24, x23, [sp, #64]
	.cfi_restore x23
	.cfi_restore x24
	ldp	x29, x30, [sp, #48]
	.cfi_def_cfa sp, 112
	.cfi_restore x29
	.cfi_restore x30
	add	sp, sp, #112
	.cfi_def_cfa sp, 0
	hint	#29
	.cfi_escape 0x2d
	ret
	SIZE("level_nodes::levels::LevelNodes::copied::<#d96a70c1b70ca186>")
	.cfi_endproc

CODE(".text.std_collections::btree::iter::Cursor::retreat::<#4f04a9971a4b2638>")
	.p2align	2
	TYPE("std_collections::btree::iter::Cursor::retreat::<#4f04a9971a4b2638>", function)
"std_collections::btree::iter::Cursor::retreat::<#4f04a9971a4b2638>":
	.cfi_startproc
	cmn	x1, #1
	b.eq	L(36_4)
	ands	x8, x1, #0xf
	b.eq	L(36_6)
	mov	w9, #48
	ldr	x10, [x2]
	umaddl	x9, w8, w9, x10
	add	x11, x10, x8, lsl #3
	sub	x8, x1, #1
	add	x10, x9, #80
	mov	w9, #1
	cmp	x8, x4
	b.ne	L(36_15)
L(36_3):
	stp	x9, x11, [x0]
	stp	x10, xzr, [x0, #16]
	stp	xzr, xzr, [x0, #32]
	ret
L(36_4):
	ldr	x9, [x3]
	ldrh	w10, [x9, #2]
	ldrh	w8, [x9]
	cmp	w10, #1
	b.ne	L(36_11)
	mov	x13, xzr
	b	L(36_14)
L(36_6):
	ldr	x10, [x3]
	ldrh	w13, [x10, #2]
	cmp	w13, #1
	b.eq	L(36_21)
	mov	x8, xzr
	mov	x9, xzr
	mov	x2, xzr
	mov	w11, wzr
	mov	x12, xzr
	b	L(36_9)
L(36_8):
	add	x15, x10, x14, lsl #3
	orr	x12, x14, x12, lsl #4
	ldr	x10, [x15, #848]
	add	x3, x15, #848
	ldrh	w13, [x10, #2]
	cmp	w13, #1
	b.eq	L(36_16)
L(36_9):
	ubfiz	x13, x13, #2, #32
	sub	x13, x13, #4
	lsr	x13, x1, x13
	ands	x14, x13, #0xf
	b.eq	L(36_8)
	sub	x8, x14, #1
	mov	w11, #1
	mov	x2, x3
	mov	x9, x12
	b	L(36_8)
L(36_11):
	mov	x10, xzr
L(36_12):
	lsl	x11, x8, #3
	add	x12, x9, #848
	add	x10, x8, x10, lsl #4
	ldr	x9, [x12, x11]
	ldrh	w13, [x9, #2]
	ldrh	w8, [x9]
	cmp	w13, #1
	b.ne	L(36_12)
	lsl	x13, x10, #4
	add	x3, x12, x11
L(36_14):
	mov	x9, xzr
	mov	x11, xzr
	mov	x10, xzr
	add	x8, x13, x8
	mov	x2, x3
	cmp	x8, x4
	b.eq	L(36_3)
L(36_15):
	stp	x9, x11, [x0]
	mov	w9, #1
	stp	x10, x9, [x0, #16]
	stp	x8, x2, [x0, #32]
	ret
L(36_16):
	cbz	w11, L(36_21)
	mov	w10, #48
	ldr	x12, [x2]
	madd	x10, x8, x10, x12
	ldrh	w11, [x12, #2]
	add	x13, x12, x8, lsl #3
	cmp	w11, #1
	add	x11, x13, #8
	add	x10, x10, #128
	b.eq	L(36_20)
L(36_18):
	lsl	x13, x8, #3
	add	x14, x12, #848
	add	x9, x8, x9, lsl #4
	ldr	x12, [x14, x13]
	ldrh	w15, [x12, #2]
	ldrh	w8, [x12]
	cmp	w15, #1
	b.ne	L(36_18)
	add	x2, x14, x13
L(36_20):
	add	x8, x8, x9, lsl #4
	mov	w9, #1
	cmp	x8, x4
	b.eq	L(36_3)
	b	L(36_15)
L(36_21):
	movi	v0.2d, #0000000000000000
	stp	q0, q0, [x0, #16]
	str	q0, [x0]
	ret
	SIZE("std_collections::btree::iter::Cursor::retreat::<#4f04a9971a4b2638>")
	.cfi_endproc

CODE(".text.xet_merkle::merkle_hash_subtree::subtree::MerkleHashSubtree::merge_with::<#3cf6a99334775a21>")
	.p2align	2
	TYPE("xet_merkle::merkle_hash_subtree::subtree::MerkleHashSubtree::merge_with::<#3cf6a99334775a21>", function)
"xet_merkle::merkle_hash_subtree::subtree::MerkleHashSubtree::merge_with::<#3cf6a99334775a21>":
	.cfi_startproc
	hint	#25
	.cfi_escape 0x2d
	stp	x29, x30, [sp, #-96]!
	.cfi_def_cfa sp, 96
	.cfi_offset x29, -96
	.cfi_offset x30, -88
	stp	x28, x27, [sp, #16]
	.cfi_offset x27, -72
	.cfi_offset x28, -80
	mov	x29, sp
	.cfi_def_cfa x29, 96
	stp	x26, x25, [sp, #32]
	.cfi_offset x25, -56
	.cfi_offset x26, -64
	stp	x24, x23, [sp, #48]
	.cfi_offset x23, -40
	.cfi_offset x24, -48
	stp	x22, x21, [sp, #64]
	.cfi_offset x21, -24
	.cfi_offset x22, -32
	stp	x20, x19, [sp, #80]
	.cfi_offset x19, -8
	.cfi_offset x20, -16
	sub	sp, sp, #1088
	mov	w24, w3
	mov	x20, x2
	mov	x23, x1
	mov	x22, x0
	add	x0, sp, #320
	str	xzr, [sp]
	stp	xzr, xzr, [sp, #128]
	stp	xzr, xzr, [sp, #320]
	str	xzr, [sp, #336]
	tbz	w3, #0, L(37_3)
	mov	x1, x20
	mov	x2, x23
	bl	"xet_merkle::merkle_hash_subtree::subtree::merging::whole_of::<#024afdc31600bcbd>"
	ldrb	w8, [sp, #320]
	cbz	w8, L(37_4)
L(37_2):
	ldrb	w8, [sp, #321]
	ldrb	w10, [sp, #322]
	mov	w9, #1
	strb	w9, [x22]
	strb	w8, [x22, #1]
	strb	w10, [x22, #2]
	b	L(37_239)
L(37_3):
	mov	x1, x23
	mov	x2, x20
	bl	"xet_merkle::merkle_hash_subtree::subtree::merging::whole_of::<#024afdc31600bcbd>"
	ldrb	w8, [sp, #320]
	cbnz	w8, L(37_2)
L(37_4):
	ldp	x12, x21, [x20, #8]
	mov	x10, x23
	ldr	x8, [x10, #8]!
	mov	x11, x10
	tst	w24, #0x1
	add	x9, sp, #320
	add	x0, sp, #320
	stp	x12, x10, [sp, #64]
	ldr	x10, [x11, #8]!
	csel	x19, x8, x12, ne
	str	x11, [sp, #24]
	csel	x25, x12, x8, ne
	ldp	x11, x8, [sp, #328]
	stur	wzr, [x9, #58]
	sub	x9, x29, #24
	csel	x27, x21, x10, ne
	csel	x26, x10, x21, ne
	mov	w1, w24
	strh	wzr, [sp, #382]
	lsr	x20, x11, #8
	stp	xzr, xzr, [sp, #344]
	stp	x9, xzr, [sp, #144]
	str	xzr, [sp, #160]
	stp	x8, x11, [sp, #48]
	stp	x25, x27, [sp, #320]
	str	x9, [sp, #336]
	stp	x19, x26, [sp, #360]
	strb	w11, [sp, #376]
	strb	w20, [sp, #377]
	bl	"subtree_levels::in_sight::InSight::only_extends::<#024afdc31600bcbd>"
	str	w24, [sp, #92]
	cbz	w0, L(37_12)
	ldp	x12, x26, [sp, #64]
	mov	x13, xzr
	mov	x28, xzr
	mov	x27, xzr
	sub	x25, x29, #24
	mov	w19, #1
	mov	x24, x21
	sub	x20, x29, #24
	ldr	w8, [sp, #92]
	str	w19, [sp, #120]
	tbz	w8, #0, L(37_90)
L(37_6):
	mov	x26, x25
	str	x23, [sp, #32]
	cbz	x24, L(37_34)
	cmp	x24, #1
	b.ne	L(37_40)
	ldp	x10, x11, [x12]
	mov	w9, #40
	ldr	x8, [x12, #24]
	madd	x25, x8, x9, x10
	sub	x24, x11, x8
	adds	x23, x24, x28
	b.eq	L(37_35)
L(37_9):
	mov	x8, #3689348814741910323
	movk	x8, #819, lsl #48
	cmp	x23, x8
	b.hi	L(37_41)
	add	x8, x23, x23, lsl #2
	mov	w1, #8
	str	x13, [sp, #112]
	lsl	x0, x8, #3
	bl	C(yurewha_heap_alloc)
	tbnz	w0, #0, L(37_36)
L(37_11):
	mov	w19, #1
	mov	x25, x26
	ldr	x23, [sp, #32]
	ldr	x26, [sp, #72]
	ldr	x13, [sp, #112]
	cbnz	x13, L(37_42)
	b	L(37_81)
L(37_12):
	stp	x23, x22, [sp, #32]
	add	x22, sp, #560
	sub	x8, x29, #24
	stp	x20, x21, [sp, #8]
	str	xzr, [sp, #120]
	str	x8, [sp, #80]
	b	L(37_14)
L(37_13):
	add	x8, sp, #224
	sub	x27, x27, x24
	ldr	w24, [sp, #92]
	ldur	q0, [x8, #7]
	ldur	x8, [x8, #23]
	add	x25, x25, x28
	add	x9, sp, #320
	add	x19, x19, x21
	sub	x26, x26, x20
	add	x0, sp, #320
	mov	w1, w24
	stp	x25, x27, [sp, #320]
	stur	q0, [x9, #16]
	stur	x8, [x9, #32]
	stp	x19, x26, [sp, #360]
	stur	wzr, [x9, #58]
	sturh	wzr, [x9, #62]
	bl	"subtree_levels::in_sight::InSight::only_extends::<#024afdc31600bcbd>"
	cbnz	w0, L(37_87)
L(37_14):
	tst	w24, #0x1
	ldr	x20, [sp, #336]
	csel	x23, x26, x27, ne
	cmp	x23, #2
	b.lo	L(37_88)
	movi	v0.2d, #0000000000000000
	str	x20, [sp, #104]
	ldr	x20, [sp, #352]
	add	x0, sp, #768
	add	x1, sp, #320
	stp	xzr, xzr, [sp, #232]
	str	xzr, [sp, #224]
	stur	xzr, [sp, #247]
	stp	q0, q0, [x29, #-176]
	stur	q0, [x29, #-144]
	stp	q0, q0, [sp, #768]
	bl	"subtree_levels::in_sight::InSight::nodes::<#d96a70c1b70ca186>"
	ldrb	w8, [sp, #768]
	cbnz	w8, L(37_53)
	ldr	x2, [sp, #776]
	ldr	x3, [sp, #784]
	sub	x0, x29, #176
	ldr	x8, [sp, #792]
	add	x1, sp, #320
	sub	x21, x29, #176
	str	x2, [sp, #96]
	str	x8, [sp, #112]
	bl	"subtree_levels::in_sight::InSight::split::<#024afdc31600bcbd>"
	orr	x8, x21, #0x8
	add	x9, x21, #40
	tst	w24, #0x1
	csel	x8, x8, x9, ne
	ldr	x24, [x8]
	add	x8, x21, #32
	csel	x8, x21, x8, ne
	cbz	x24, L(37_22)
	mov	x9, #3689348814741910323
	movk	x9, #13108
	movk	x9, #819, lsl #48
	cmp	x24, x9
	b.hs	L(37_51)
	add	x9, x24, x24, lsl #2
	ldr	x28, [x8]
	mov	w1, #8
	lsl	x0, x9, #3
	bl	C(yurewha_heap_alloc)
	tbz	w0, #0, L(37_51)
	mov	x8, x1
	mov	x9, x24
L(37_20):
	ldur	q0, [x28, #1]
	ldr	q1, [x28, #16]
	subs	x9, x9, #1
	ldrb	w10, [x28]
	ldr	x11, [x28, #32]
	add	x28, x28, #40
	str	q0, [sp, #592]
	stur	q1, [x22, #47]
	ldr	q0, [sp, #592]
	strb	w10, [x8]
	str	x11, [x8, #32]
	stur	q0, [x8, #1]
	ldur	q0, [x22, #47]
	str	q0, [x8, #16]
	add	x8, x8, #40
	b.ne	L(37_20)
	ldr	x8, [sp, #160]
	ldr	x10, [sp, #120]
	cmp	x8, x10
	b.ne	L(37_23)
	b	L(37_32)
L(37_22):
	sub	x1, x29, #24
	ldr	x8, [sp, #160]
	ldr	x10, [sp, #120]
	cmp	x8, x10
	b.eq	L(37_32)
L(37_23):
	mov	w8, #24
	ldr	x9, [sp, #80]
	madd	x8, x10, x8, x9
	add	x10, x10, #1
	str	x10, [sp, #120]
	stp	x1, x24, [x8]
	str	x24, [x8, #16]
	mov	x8, #-6148914691236517206
	ldp	x24, x28, [x29, #-160]
	movk	x8, #43691
	str	x10, [sp, #152]
	umulh	x8, x28, x8
	lsr	x8, x8, #1
	add	x9, x8, x8, lsl #1
	cmp	x28, x9
	cinc	x21, x8, ne
	cbz	x21, L(37_26)
	mov	x8, #3689348814741910323
	movk	x8, #13108
	movk	x8, #819, lsl #48
	cmp	x21, x8
	b.hs	L(37_51)
	add	x8, x21, x21, lsl #2
	mov	w1, #8
	lsl	x0, x8, #3
	bl	C(yurewha_heap_alloc)
	tbnz	w0, #0, L(37_27)
	b	L(37_51)
L(37_26):
	sub	x1, x29, #24
L(37_27):
	str	x1, [sp, #592]
	add	x0, sp, #592
	add	x3, sp, #128
	mov	x1, x24
	mov	x2, x28
	str	xzr, [sp, #600]
	str	x21, [sp, #608]
	bl	"xet_roots::aggregated_hashes::push_parents::<#135fa06c802d8a86>"
	tst	w0, #0xff
	b.ne	L(37_48)
	ldr	q0, [sp, #592]
	ldr	x8, [sp, #608]
	add	x9, sp, #224
	stur	q0, [x9, #7]
	stur	x8, [x9, #23]
	cbz	x20, L(37_30)
	ldr	x0, [sp, #104]
	bl	C(yurewha_heap_dealloc)
L(37_30):
	cmp	x26, #0
	mov	w8, #56
	cset	w20, ne
	csel	x21, x8, xzr, ne
	cmp	x27, #0
	csel	x28, x8, xzr, ne
	ldr	x8, [sp, #112]
	cset	w24, ne
	cbz	x8, L(37_13)
	ldr	x0, [sp, #96]
	bl	C(yurewha_heap_dealloc)
	b	L(37_13)
L(37_32):
	add	x0, sp, #144
	mov	x21, x1
	bl	"std_alloc::vec::Vec::grow_amortized::<#383813664ff73b2b>"
	cbz	w0, L(37_201)
	ldp	x8, x10, [sp, #144]
	mov	x1, x21
	str	x8, [sp, #80]
	b	L(37_23)
L(37_34):
	sub	x25, x29, #24
	adds	x23, x24, x28
	b.ne	L(37_9)
L(37_35):
	sub	x1, x29, #24
	str	x13, [sp, #112]
L(37_36):
	mov	x8, xzr
	cmp	x24, x23
	str	x1, [sp, #592]
	str	xzr, [sp, #600]
	str	x23, [sp, #608]
	b.hi	L(37_168)
L(37_37):
	mov	w9, #40
	add	x19, x8, x24
	str	x20, [sp, #104]
	madd	x0, x8, x9, x1
	add	x9, x24, x24, lsl #2
	lsl	x2, x9, #3
	sub	x9, x0, x25
	cmp	x9, x2
	b.hs	L(37_43)
	cbz	x24, L(37_44)
L(37_39):
	ldp	q1, q0, [x25]
	subs	x24, x24, #1
	ldr	x8, [x25, #32]
	add	x25, x25, #40
	str	x8, [x0, #32]
	stp	q1, q0, [x0]
	add	x0, x0, #40
	b.ne	L(37_39)
	b	L(37_44)
L(37_40):
	ldp	x25, x24, [x12, #32]
	adds	x23, x24, x28
	b.ne	L(37_9)
	b	L(37_35)
L(37_41):
	mov	x25, x26
	ldr	x23, [sp, #32]
	ldr	x26, [sp, #72]
	mov	w19, #1
	cbz	x13, L(37_81)
L(37_42):
	mov	x0, x20
	bl	C(yurewha_heap_dealloc)
	tbnz	w19, #0, L(37_102)
	b	L(37_82)
L(37_43):
	mov	x1, x25
	bl	C(memmove)
L(37_44):
	sub	x8, x23, x19
	mov	x25, x26
	ldr	x26, [sp, #72]
	cmp	x28, x8
	str	x19, [sp, #600]
	str	x23, [sp, #608]
	b.hi	L(37_170)
L(37_45):
	mov	w8, #40
	ldr	x24, [sp, #592]
	ldr	x20, [sp, #104]
	madd	x0, x19, x8, x24
	add	x8, x28, x28, lsl #2
	add	x21, x19, x28
	str	x22, [sp, #40]
	lsl	x2, x8, #3
	sub	x8, x0, x20
	cmp	x8, x2
	b.hs	L(37_63)
	mov	x8, x20
	cbz	x28, L(37_64)
L(37_47):
	ldp	q1, q0, [x8]
	subs	x28, x28, #1
	ldr	x9, [x8, #32]
	add	x8, x8, #40
	str	x9, [x0, #32]
	stp	q1, q0, [x0]
	add	x0, x0, #40
	b.ne	L(37_47)
	b	L(37_64)
L(37_48):
	ldr	x8, [sp, #608]
	cbz	x8, L(37_51)
	ldr	x0, [sp, #592]
L(37_50):
	bl	C(yurewha_heap_dealloc)
L(37_51):
	ldr	x8, [sp, #112]
	cbz	x8, L(37_53)
	ldr	x0, [sp, #96]
	bl	C(yurewha_heap_dealloc)
L(37_53):
	cbz	x20, L(37_55)
	ldr	x0, [sp, #104]
	bl	C(yurewha_heap_dealloc)
L(37_55):
	ldp	x20, x19, [sp, #144]
	ldr	x21, [sp, #160]
	cbz	x19, L(37_60)
	add	x22, x20, #16
	b	L(37_58)
L(37_57):
	subs	x19, x19, #1
	add	x22, x22, #24
	b.eq	L(37_60)
L(37_58):
	ldr	x8, [x22]
	cbz	x8, L(37_57)
	ldur	x0, [x22, #-16]
	bl	C(yurewha_heap_dealloc)
	b	L(37_57)
L(37_60):
	cbz	x21, L(37_62)
	mov	x0, x20
	bl	C(yurewha_heap_dealloc)
L(37_62):
	ldr	x22, [sp, #40]
	b	L(37_238)
L(37_63):
	mov	x1, x20
	bl	C(memmove)
L(37_64):
	mov	w8, #56
	ldr	x9, [x26]
	str	x23, [sp, #608]
	madd	x22, x27, x8, x9
	sub	x8, x29, #208
	stp	xzr, xzr, [x29, #-176]
	stur	xzr, [x8, #55]
	stur	xzr, [x29, #-160]
	ldr	x26, [x22, #24]
	cmp	x26, x21
	b.hs	L(37_74)
	mov	x28, x27
	ldr	x27, [x22, #8]
	str	x25, [sp, #96]
	sub	x25, x27, x26
	mvn	x8, x25
	cmp	x21, x8
	b.hi	L(37_71)
	add	x20, x25, x21
	cmp	x20, x8
	b.hi	L(37_70)
	ldr	x19, [x22]
	add	x23, x20, x25
	cbz	x23, L(37_172)
	mov	x8, #3689348814741910323
	movk	x8, #819, lsl #48
	cmp	x23, x8
	b.hi	L(37_70)
	add	x8, x23, x23, lsl #2
	mov	w1, #8
	lsl	x0, x8, #3
	bl	C(yurewha_heap_alloc)
	tbnz	w0, #0, L(37_173)
L(37_70):
	ldr	x23, [sp, #608]
	ldr	x20, [sp, #104]
L(37_71):
	cbz	x23, L(37_73)
	ldr	x0, [sp, #592]
	bl	C(yurewha_heap_dealloc)
L(37_73):
	ldp	x23, x22, [sp, #32]
	ldr	x25, [sp, #96]
	mov	w19, #1
	mov	x27, x28
	ldr	x26, [sp, #72]
	ldr	x13, [sp, #112]
	cbnz	x13, L(37_42)
	b	L(37_81)
L(37_74):
	mov	x20, x26
	cbz	x21, L(37_78)
L(37_75):
	mov	w8, #40
	mov	x10, #-40
	madd	x9, x21, x8, x24
	madd	x8, x20, x8, x10
	mov	x10, x21
	sub	x9, x9, #40
L(37_76):
	ldr	x11, [x22]
	ldp	q1, q0, [x9]
	ldr	x12, [x9, #32]
	sub	x10, x10, #1
	sub	x9, x9, #40
	add	x11, x11, x8
	sub	x8, x8, #40
	str	x12, [x11, #32]
	stp	q1, q0, [x11]
	cbnz	x10, L(37_76)
	ldr	x26, [x22, #24]
	ldr	x23, [sp, #608]
L(37_78):
	sub	x8, x26, x21
	str	x8, [x22, #24]
	cbz	x23, L(37_80)
	ldr	x0, [sp, #592]
	bl	C(yurewha_heap_dealloc)
L(37_80):
	ldp	x23, x22, [sp, #32]
	mov	w19, wzr
	ldr	x26, [sp, #72]
	ldp	x20, x13, [sp, #104]
	cbnz	x13, L(37_42)
L(37_81):
	cbnz	w19, L(37_102)
L(37_82):
	cbz	x27, L(37_113)
	mov	w8, #24
	lsl	x9, x27, #6
	madd	x8, x27, x8, x25
	sub	x19, x9, x27, lsl #3
	sub	x20, x8, #24
	b	L(37_85)
L(37_84):
	sub	x27, x27, #1
	sub	x19, x19, #56
	sub	x20, x20, #24
	cbz	x27, L(37_113)
L(37_85):
	ldr	x8, [x26]
	ldr	q0, [x20]
	ldr	x9, [x20, #16]
	add	x8, x8, x19
	ldur	x0, [x8, #-56]
	ldur	x10, [x8, #-40]
	stur	q0, [x8, #-56]
	stp	x9, xzr, [x8, #-40]
	cbz	x10, L(37_84)
	bl	C(yurewha_heap_dealloc)
	b	L(37_84)
L(37_87):
	ldr	x20, [sp, #336]
L(37_88):
	ldr	x10, [sp, #160]
	ldr	x27, [sp, #120]
	mov	w9, #56
	ldr	x21, [sp, #16]
	ldp	x12, x26, [sp, #64]
	cmp	x10, #0
	ldp	x28, x13, [sp, #344]
	cset	w19, eq
	cmp	x21, x27
	ldr	x25, [sp, #144]
	csel	x8, x21, x27, lo
	cmp	x23, #1
	madd	x12, x8, x9, x12
	sub	x24, x21, x8
	b.ls	L(37_116)
	ldp	x23, x22, [sp, #32]
	ldr	w8, [sp, #92]
	str	w19, [sp, #120]
	tbnz	w8, #0, L(37_6)
L(37_90):
	cmp	x21, x27
	b.ls	L(37_96)
	ldr	x8, [x12, #24]
	mov	w9, #40
	ldp	x10, x11, [x12]
	madd	x2, x8, x9, x10
	sub	x21, x11, x8
	cbz	x28, L(37_97)
L(37_92):
	sub	x8, x13, x28
	stp	x20, x28, [sp, #320]
	cmp	x21, x8
	str	x13, [sp, #336]
	b.hi	L(37_166)
L(37_93):
	mov	w8, #40
	mov	x24, x13
	madd	x0, x28, x8, x20
	add	x8, x21, x21, lsl #2
	lsl	x8, x8, #3
	sub	x9, x0, x2
	cmp	x9, x8
	b.hs	L(37_99)
	mov	x8, x21
	cbz	x21, L(37_100)
L(37_95):
	ldp	q1, q0, [x2]
	subs	x8, x8, #1
	ldr	x9, [x2, #32]
	add	x2, x2, #40
	str	x9, [x0, #32]
	stp	q1, q0, [x0]
	add	x0, x0, #40
	b.ne	L(37_95)
	b	L(37_100)
L(37_96):
	mov	x21, xzr
	sub	x2, x29, #24
	cbnz	x28, L(37_92)
L(37_97):
	mov	x24, x13
	mov	x0, x26
	mov	x1, x27
	mov	x3, x21
	bl	"subtree_levels::in_place::extend_inner::<#024afdc31600bcbd>"
	and	w19, w0, #0xff
	cbnz	x24, L(37_101)
L(37_98):
	tbnz	w19, #0, L(37_102)
	b	L(37_108)
L(37_99):
	mov	x1, x2
	mov	x2, x8
	bl	C(memmove)
L(37_100):
	add	x3, x28, x21
	mov	x0, x26
	mov	x1, x27
	mov	x2, x20
	bl	"subtree_levels::in_place::extend_inner::<#024afdc31600bcbd>"
	and	w19, w0, #0xff
	cbz	x24, L(37_98)
L(37_101):
	mov	x0, x20
	bl	C(yurewha_heap_dealloc)
	tbz	w19, #0, L(37_108)
L(37_102):
	cbz	x27, L(37_107)
	add	x19, x25, #16
	b	L(37_105)
L(37_104):
	subs	x27, x27, #1
	add	x19, x19, #24
	b.eq	L(37_107)
L(37_105):
	ldr	x8, [x19]
	cbz	x8, L(37_104)
	ldur	x0, [x19, #-16]
	bl	C(yurewha_heap_dealloc)
	b	L(37_104)
L(37_107):
	ldr	w8, [sp, #120]
	tbz	w8, #0, L(37_236)
	b	L(37_238)
L(37_108):
	cbz	x27, L(37_113)
	mov	w8, #24
	lsl	x9, x27, #6
	madd	x8, x27, x8, x25
	sub	x19, x9, x27, lsl #3
	sub	x20, x8, #24
	b	L(37_111)
L(37_110):
	sub	x27, x27, #1
	sub	x20, x20, #24
	sub	x19, x19, #56
	cbz	x27, L(37_113)
L(37_111):
	ldr	x8, [x26]
	ldr	q0, [x20]
	ldr	x10, [x20, #16]
	add	x8, x8, x19
	ldur	x9, [x8, #-8]
	ldur	x0, [x8, #-24]
	stur	q0, [x8, #-24]
	stur	x10, [x8, #-8]
	cbz	x9, L(37_110)
	bl	C(yurewha_heap_dealloc)
	b	L(37_110)
L(37_113):
	ldr	x26, [sp, #48]
	ldr	w8, [sp, #120]
	tbnz	w8, #0, L(37_115)
L(37_114):
	mov	x0, x25
	bl	C(yurewha_heap_dealloc)
L(37_115):
	ldr	x9, [sp, #56]
	ldr	q0, [sp, #128]
	str	x26, [x23, #32]
	and	w8, w9, #0x1
	ubfx	w9, w9, #8, #1
	strb	w8, [x23]
	strb	w9, [x23, #1]
	strh	wzr, [x22]
	strb	wzr, [x22, #2]
	str	q0, [x22, #16]
	b	L(37_240)
L(37_116):
	ldr	x8, [sp, #24]
	stp	x25, x10, [sp, #96]
	mov	w9, #56
	ldr	x11, [x26]
	movi	v0.2d, #0000000000000000
	str	xzr, [sp, #272]
	ldr	x8, [x8]
	stp	xzr, xzr, [sp, #208]
	str	xzr, [sp, #200]
	cmp	x8, x27
	strh	wzr, [sp, #382]
	csel	x10, x8, x27, lo
	stp	q0, q0, [sp, #144]
	madd	x9, x10, x9, x11
	ldr	w11, [sp, #92]
	sub	x8, x8, x10
	mov	x10, x20
	stp	q0, q0, [sp, #224]
	tst	w11, #0x1
	stp	q0, q0, [sp, #288]
	csel	x20, x24, x8, ne
	csel	x25, x8, x24, ne
	orr	x8, x8, x24
	str	q0, [sp, #256]
	csel	x19, x12, x9, ne
	csel	x23, x9, x12, ne
	ldr	x9, [sp, #56]
	cmp	x8, #2
	add	x8, sp, #320
	str	q0, [sp, #176]
	strb	w9, [sp, #376]
	ldr	x9, [sp, #8]
	stp	x19, x20, [sp, #320]
	stp	x10, x28, [sp, #336]
	stp	x13, x23, [sp, #352]
	str	x25, [sp, #368]
	strb	w9, [sp, #377]
	stur	wzr, [x8, #58]
	b.hs	L(37_118)
	mov	x24, xzr
	str	xzr, [sp, #112]
	sub	x26, x29, #24
	b	L(37_128)
L(37_118):
	mov	x24, xzr
	add	x28, sp, #320
	sub	x26, x29, #24
	str	xzr, [sp, #112]
L(37_119):
	add	x0, sp, #288
	add	x1, sp, #320
	bl	"subtree_levels::in_sight::InSight::nodes::<#d96a70c1b70ca186>"
	ldrb	w8, [sp, #288]
	cbnz	w8, L(37_152)
	ldp	x21, x3, [sp, #296]
	add	x0, sp, #144
	ldr	x8, [sp, #112]
	stp	x26, x24, [sp, #200]
	add	x1, sp, #320
	ldr	x26, [sp, #312]
	mov	x2, x21
	str	x8, [sp, #216]
	bl	"subtree_levels::in_sight::InSight::split::<#024afdc31600bcbd>"
	add	x0, sp, #224
	add	x1, sp, #200
	add	x2, sp, #144
	add	x3, sp, #128
	bl	"subtree_levels::collapse::collapse_middle::<#4baefd862f873d89>"
	ldrb	w8, [sp, #224]
	cbnz	w8, L(37_163)
	ldp	x27, x24, [sp, #232]
	ldr	x8, [sp, #352]
	ldr	x9, [sp, #248]
	str	x9, [sp, #112]
	cbz	x8, L(37_123)
	ldr	x0, [sp, #336]
	bl	C(yurewha_heap_dealloc)
L(37_123):
	cmp	x25, #0
	mov	w8, #56
	add	x11, sp, #224
	cset	w9, ne
	csel	x10, x8, xzr, ne
	cmp	x20, #0
	csel	x8, x8, xzr, ne
	ldur	q0, [x11, #32]
	add	x23, x23, x10
	add	x19, x19, x8
	cset	w8, ne
	sub	x25, x25, x9
	sub	x20, x20, x8
	ldur	x8, [x11, #48]
	stur	q0, [x28, #16]
	stp	x19, x20, [sp, #320]
	stur	x8, [x28, #32]
	stp	x23, x25, [sp, #360]
	stur	wzr, [x28, #58]
	sturh	wzr, [x28, #62]
	cbz	x26, L(37_125)
	mov	x0, x21
	bl	C(yurewha_heap_dealloc)
L(37_125):
	cmp	x20, #1
	mov	x26, x27
	b.hi	L(37_119)
	cmp	x25, #1
	b.hi	L(37_119)
	movi	v0.2d, #0000000000000000
	ldr	x28, [sp, #344]
	ldr	x27, [sp, #120]
L(37_128):
	stp	q0, q0, [sp, #384]
	stp	q0, q0, [sp, #448]
	stp	xzr, xzr, [sp, #432]
	str	xzr, [sp, #424]
	cbz	x28, L(37_139)
L(37_129):
	ldr	x23, [sp, #112]
	add	x0, sp, #384
	add	x1, sp, #320
	stp	x26, x24, [sp, #424]
	add	x19, sp, #384
	str	x23, [sp, #440]
	bl	"subtree_levels::in_sight::InSight::nodes::<#d96a70c1b70ca186>"
	ldrb	w8, [sp, #384]
	cbz	w8, L(37_143)
	ldr	x22, [sp, #40]
	ldr	x25, [sp, #96]
	cbz	x24, L(37_137)
	add	x19, x26, #32
	b	L(37_133)
L(37_132):
	subs	x24, x24, #1
	add	x19, x19, #56
	b.eq	L(37_137)
L(37_133):
	ldur	x8, [x19, #-16]
	ldr	x21, [x19]
	ldr	x20, [x19, #16]
	cbz	x8, L(37_135)
	ldur	x0, [x19, #-32]
	bl	C(yurewha_heap_dealloc)
L(37_135):
	cbz	x20, L(37_132)
	mov	x0, x21
	bl	C(yurewha_heap_dealloc)
	b	L(37_132)
L(37_137):
	cbz	x23, L(37_227)
	mov	x0, x26
	bl	C(yurewha_heap_dealloc)
	b	L(37_227)
L(37_139):
	cbz	x25, L(37_141)
	ldr	x8, [x23, #8]
	ldr	x9, [x23, #24]
	cmp	x8, x9
	b.ne	L(37_129)
L(37_141):
	cmp	x20, #1
	b.ne	L(37_179)
	ldr	x8, [x19, #24]
	mov	w9, #40
	ldp	x10, x11, [x19]
	madd	x28, x8, x9, x10
	sub	x21, x11, x8
	b	L(37_180)
L(37_143):
	add	x0, sp, #448
	add	x1, sp, #424
	orr	x2, x19, #0x8
	add	x5, sp, #128
	ldr	x3, [sp, #56]
	ldr	x4, [sp, #8]
	bl	"subtree_levels::collapse::collapse::<#4baefd862f873d89>"
	ldrb	w8, [sp, #448]
	ldr	x22, [sp, #40]
	ldr	x25, [sp, #96]
	cbnz	w8, L(37_227)
	ldp	x24, x21, [sp, #456]
	ldr	x20, [sp, #472]
L(37_145):
	ldr	x8, [sp, #352]
	ldr	x23, [sp, #32]
	cbz	x8, L(37_147)
	ldr	x0, [sp, #336]
	bl	C(yurewha_heap_dealloc)
L(37_147):
	ldp	x19, x2, [x23, #16]
	sub	x8, x2, x19
	cmp	x21, x8
	b.hi	L(37_286)
	mov	x8, x19
	cbz	x21, L(37_241)
L(37_149):
	ldr	x10, [sp, #72]
	mov	w9, #56
	ldr	x10, [x10]
	madd	x0, x8, x9, x10
	lsl	x8, x21, #6
	sub	x2, x8, x21, lsl #3
	sub	x8, x0, x24
	cmp	x8, x2
	b.hs	L(37_242)
	mov	x8, x24
	mov	x9, x21
L(37_151):
	ldp	q2, q0, [x8, #16]
	subs	x9, x9, #1
	ldr	x10, [x8, #48]
	ldr	q1, [x8], #56
	str	x10, [x0, #48]
	stp	q2, q0, [x0, #16]
	str	q1, [x0], #56
	b.ne	L(37_151)
	b	L(37_243)
L(37_152):
	ldr	x8, [sp, #352]
	ldr	x22, [sp, #40]
	ldr	x27, [sp, #120]
	ldr	x25, [sp, #96]
	cbz	x8, L(37_154)
	ldr	x0, [sp, #336]
	bl	C(yurewha_heap_dealloc)
L(37_154):
	ldr	x23, [sp, #112]
	cbz	x24, L(37_161)
	add	x19, x26, #32
	b	L(37_157)
L(37_156):
	subs	x24, x24, #1
	add	x19, x19, #56
	b.eq	L(37_161)
L(37_157):
	ldur	x8, [x19, #-16]
	ldr	x21, [x19]
	ldr	x20, [x19, #16]
	cbz	x8, L(37_159)
	ldur	x0, [x19, #-32]
	bl	C(yurewha_heap_dealloc)
L(37_159):
	cbz	x20, L(37_156)
	mov	x0, x21
	bl	C(yurewha_heap_dealloc)
	b	L(37_156)
L(37_161):
	cbz	x23, L(37_230)
	mov	x0, x26
	b	L(37_229)
L(37_163):
	cbz	x26, L(37_165)
	mov	x0, x21
	bl	C(yurewha_heap_dealloc)
L(37_165):
	ldr	x8, [sp, #352]
	ldr	x22, [sp, #40]
	ldr	x27, [sp, #120]
	ldr	x25, [sp, #96]
	cbnz	x8, L(37_228)
	b	L(37_230)
L(37_166):
	add	x0, sp, #320
	mov	x1, x21
	mov	x19, x2
	bl	"std_alloc::vec::Vec::grow_amortized::<#1ed62de40e111fb4>"
	cbz	w0, L(37_189)
	ldp	x28, x13, [sp, #328]
	mov	x2, x19
	ldr	x20, [sp, #320]
	b	L(37_93)
L(37_168):
	add	x0, sp, #592
	mov	x1, x24
	bl	"std_alloc::vec::Vec::grow_amortized::<#1ed62de40e111fb4>"
	cbz	w0, L(37_199)
	ldr	x23, [sp, #608]
	ldr	x8, [sp, #600]
	ldr	x1, [sp, #592]
	b	L(37_37)
L(37_170):
	add	x0, sp, #592
	mov	x1, x28
	bl	"std_alloc::vec::Vec::grow_amortized::<#1ed62de40e111fb4>"
	cbz	w0, L(37_203)
	ldr	x19, [sp, #600]
	ldr	x23, [sp, #608]
	b	L(37_45)
L(37_172):
	sub	x1, x29, #24
L(37_173):
	str	x1, [sp, #768]
	str	xzr, [sp, #776]
	str	x23, [sp, #784]
	cbz	x20, L(37_206)
	movi	v0.2d, #0000000000000000
	cmp	x20, x23
	stp	q0, q0, [sp, #320]
	b.hi	L(37_288)
	mov	x9, xzr
	add	x8, xzr, x20
	cmp	xzr, x8
	b.hs	L(37_178)
L(37_176):
	mov	w10, #40
	madd	x9, x9, x10, x1
	add	x10, x25, x21
	add	x9, x9, #32
L(37_177):
	ldp	q1, q0, [sp, #320]
	subs	x10, x10, #1
	stp	q1, q0, [x9, #-32]
	str	xzr, [x9], #40
	b.ne	L(37_177)
L(37_178):
	str	x8, [sp, #776]
	str	x23, [sp, #784]
	b	L(37_207)
L(37_179):
	mov	x21, xzr
	sub	x28, x29, #24
L(37_180):
	ldr	x4, [sp, #8]
	sub	x0, x29, #176
	mov	x1, x28
	mov	x2, x21
	ldr	x3, [sp, #56]
	stur	xzr, [x29, #-128]
	stp	q0, q0, [x29, #-240]
	stp	q0, q0, [x29, #-176]
	stur	q0, [x29, #-144]
	stp	q0, q0, [x29, #-208]
	str	xzr, [sp, #832]
	str	xzr, [sp, #824]
	str	xzr, [sp, #840]
	str	xzr, [sp, #816]
	stp	q0, q0, [sp, #688]
	stp	q0, q0, [sp, #720]
	stp	q0, q0, [sp, #752]
	stp	q0, q0, [sp, #784]
	str	q0, [sp, #672]
	str	xzr, [sp, #568]
	str	xzr, [sp, #560]
	stur	xzr, [x22, #23]
	str	xzr, [sp, #576]
	stp	q0, q0, [sp, #528]
	stp	xzr, xzr, [sp, #504]
	str	xzr, [sp, #520]
	stp	xzr, xzr, [sp, #480]
	str	xzr, [sp, #496]
	bl	"subtree_levels::split::find_split::<#30d82ebffd2e63ea>"
	ldurb	w8, [x29, #-176]
	ldr	x25, [sp, #96]
	cbz	w8, L(37_191)
	ldp	x1, x2, [x29, #-168]
	add	x0, sp, #736
	ldp	x20, x19, [x29, #-152]
	ldp	x21, x28, [x29, #-136]
	bl	"xet_roots::as_node::read_nodes::<#a0ff80199b3a144e>"
	ldrb	w8, [sp, #736]
	cbz	w8, L(37_214)
	ldr	x22, [sp, #112]
	cbz	x24, L(37_224)
	add	x19, x26, #32
	b	L(37_185)
L(37_184):
	subs	x24, x24, #1
	add	x19, x19, #56
	b.eq	L(37_224)
L(37_185):
	ldur	x8, [x19, #-16]
	ldr	x21, [x19]
	ldr	x20, [x19, #16]
	cbz	x8, L(37_187)
	ldur	x0, [x19, #-32]
	bl	C(yurewha_heap_dealloc)
L(37_187):
	cbz	x20, L(37_184)
	mov	x0, x21
	bl	C(yurewha_heap_dealloc)
	b	L(37_184)
L(37_189):
	ldr	x8, [sp, #336]
	cbz	x8, L(37_102)
	ldr	x0, [sp, #320]
	bl	C(yurewha_heap_dealloc)
	b	L(37_102)
L(37_191):
	sub	x0, x29, #208
	mov	x1, x28
	mov	x2, x21
	bl	"xet_roots::as_node::read_nodes::<#a0ff80199b3a144e>"
	ldurb	w8, [x29, #-208]
	cbz	w8, L(37_257)
	ldr	x22, [sp, #112]
	cbz	x24, L(37_224)
	add	x19, x26, #32
	b	L(37_195)
L(37_194):
	subs	x24, x24, #1
	add	x19, x19, #56
	b.eq	L(37_224)
L(37_195):
	ldur	x8, [x19, #-16]
	ldr	x21, [x19]
	ldr	x20, [x19, #16]
	cbz	x8, L(37_197)
	ldur	x0, [x19, #-32]
	bl	C(yurewha_heap_dealloc)
L(37_197):
	cbz	x20, L(37_194)
	mov	x0, x21
	bl	C(yurewha_heap_dealloc)
	b	L(37_194)
L(37_199):
	ldr	x8, [sp, #608]
	cbz	x8, L(37_11)
	ldr	x0, [sp, #592]
	bl	C(yurewha_heap_dealloc)
	b	L(37_11)
L(37_201):
	cbz	x24, L(37_51)
	mov	x0, x21
	b	L(37_50)
L(37_203):
	ldr	x8, [sp, #608]
	cbz	x8, L(37_205)
	ldr	x0, [sp, #592]
	bl	C(yurewha_heap_dealloc)
L(37_205):
	ldr	x23, [sp, #32]
	mov	w19, #1
	ldp	x20, x13, [sp, #104]
	cbnz	x13, L(37_42)
	b	L(37_81)
L(37_206):
	mov	x8, xzr
L(37_207):
	sub	x9, x23, x8
	cmp	x25, x9
	b.hi	L(37_284)
L(37_208):
	mov	w9, #40
	ldr	x10, [sp, #768]
	madd	x1, x26, x9, x19
	mov	w9, #40
	add	x19, x8, x25
	madd	x0, x8, x9, x10
	add	x9, x25, x25, lsl #2
	lsl	x2, x9, #3
	sub	x9, x0, x1
	cmp	x9, x2
	b.hs	L(37_211)
	cmp	x27, x26
	mov	x27, x28
	b.eq	L(37_212)
L(37_210):
	ldp	q1, q0, [x1]
	subs	x25, x25, #1
	ldr	x8, [x1, #32]
	add	x1, x1, #40
	str	x8, [x0, #32]
	stp	q1, q0, [x0]
	add	x0, x0, #40
	b.ne	L(37_210)
	b	L(37_212)
L(37_211):
	bl	C(memmove)
	mov	x27, x28
L(37_212):
	str	x19, [sp, #776]
	sub	x8, x29, #208
	ldr	x0, [x22]
	ldr	q0, [sp, #768]
	stur	x23, [x8, #55]
	ldr	x25, [sp, #96]
	stur	q0, [x8, #39]
	ldr	x8, [x22, #16]
	str	q0, [x22]
	stp	x23, x20, [x22, #16]
	cbz	x8, L(37_75)
	bl	C(yurewha_heap_dealloc)
	ldr	x20, [x22, #24]
	b	L(37_75)
L(37_214):
	str	x20, [sp, #64]
	ldr	x23, [sp, #744]
	ldr	x20, [sp, #752]
	str	x19, [sp, #80]
	add	x0, sp, #704
	mov	x1, x21
	ldr	x19, [sp, #760]
	mov	x2, x28
	bl	"xet_roots::as_node::read_nodes::<#a0ff80199b3a144e>"
	ldrb	w8, [sp, #704]
	cbz	w8, L(37_259)
	cbz	x19, L(37_217)
	mov	x0, x23
	bl	C(yurewha_heap_dealloc)
L(37_217):
	ldr	x22, [sp, #112]
	cbz	x24, L(37_224)
	add	x19, x26, #32
	b	L(37_220)
L(37_219):
	subs	x24, x24, #1
	add	x19, x19, #56
	b.eq	L(37_224)
L(37_220):
	ldur	x8, [x19, #-16]
	ldr	x21, [x19]
	ldr	x20, [x19, #16]
	cbz	x8, L(37_222)
	ldur	x0, [x19, #-32]
	bl	C(yurewha_heap_dealloc)
L(37_222):
	cbz	x20, L(37_219)
	mov	x0, x21
	bl	C(yurewha_heap_dealloc)
	b	L(37_219)
L(37_224):
	cbz	x22, L(37_226)
L(37_225):
	mov	x0, x26
	bl	C(yurewha_heap_dealloc)
L(37_226):
	ldr	x22, [sp, #40]
L(37_227):
	ldr	x8, [sp, #352]
	cbz	x8, L(37_230)
L(37_228):
	ldr	x0, [sp, #336]
L(37_229):
	bl	C(yurewha_heap_dealloc)
L(37_230):
	cbz	x27, L(37_235)
	add	x19, x25, #16
	b	L(37_233)
L(37_232):
	subs	x27, x27, #1
	add	x19, x19, #24
	b.eq	L(37_235)
L(37_233):
	ldr	x8, [x19]
	cbz	x8, L(37_232)
	ldur	x0, [x19, #-16]
	bl	C(yurewha_heap_dealloc)
	b	L(37_232)
L(37_235):
	ldr	x8, [sp, #104]
	cbz	x8, L(37_238)
L(37_236):
	mov	x0, x25
L(37_237):
	bl	C(yurewha_heap_dealloc)
L(37_238):
	mov	w8, #513
	strb	wzr, [x22, #2]
	strh	w8, [x22]
L(37_239):
	stp	xzr, xzr, [x22, #16]
L(37_240):
	add	sp, sp, #1088
	ldp	x20, x19, [sp, #80]
	.cfi_remember_state
	.cfi_restore x19
	.cfi_restore x20
	ldp	x22, x21, [sp, #64]
	.cfi_restore x21
	.cfi_restore x22
	ldp	x24, x23, [sp, #48]
	.cfi_restore x23
	.cfi_restore x24
	ldp	x26, x25, [sp, #32]
	.cfi_restore x25
	.cfi_restore x26
	ldp	x28, x27, [sp, #16]
	.cfi_restore x27
	.cfi_restore x28
	ldp	x29, x30, [sp], #96
	.cfi_def_cfa sp, 0
	.cfi_restore x29
	.cfi_restore x30
	hint	#29
	.cfi_escape 0x2d
	ret
L(37_241):
	.cfi_restore_state
	mov	x8, x19
	b	L(37_244)
L(37_242):
	mov	x1, x24
	bl	C(memmove)
L(37_243):
	ldp	x8, x2, [x23, #16]
	add	x8, x8, x21
L(37_244):
	sub	x9, x19, #1
	ldr	x11, [sp, #72]
	sub	x26, x8, #1
	lsl	x10, x9, #6
	ldr	x3, [x11]
	ldr	x11, [sp, #24]
	sub	x10, x10, x9, lsl #3
	stp	xzr, xzr, [x11]
	add	x11, x3, x10
	ldr	x12, [x11, #32]
	ldr	x0, [x11]
	ldr	x27, [x11, #16]
	ldr	x16, [x11, #48]
	str	x12, [sp, #112]
	sub	x12, x8, x19
	cbz	x19, L(37_254)
	cmp	x12, #37
	b.lo	L(37_252)
	lsl	x9, x19, #6
	mov	w10, #56
	sub	x11, x9, x19, lsl #3
	neg	x9, x19
	sub	x10, x10, x11
	add	x11, x3, x11
	b	L(37_248)
L(37_247):
	add	x13, x11, #1960
	add	x15, x11, #1848
	ldr	x14, [x11, #2008]
	ldp	q0, q1, [x13]
	ldp	q4, q2, [x13, #16]
	str	x14, [x11, #1952]
	str	x14, [x11, #1896]
	stp	q0, q1, [x15]
	str	q2, [x15, #32]
	add	x15, x11, #1736
	str	q1, [x11, #1920]
	str	q1, [x11, #1808]
	stp	q0, q1, [x15]
	ldp	q3, q1, [x13]
	str	q0, [x11, #1904]
	str	q2, [x11, #1936]
	str	q0, [x11, #1792]
	ldr	q0, [x13, #32]
	str	q2, [x11, #1824]
	str	q2, [x15, #32]
	ldr	q2, [x13]
	add	x15, x11, #1624
	str	q0, [x15, #32]
	stp	q2, q1, [x15]
	add	x15, x11, #1512
	str	x14, [x11, #1840]
	str	x14, [x11, #1784]
	ldr	x14, [x11, #2008]
	str	q0, [x11, #1712]
	str	q1, [x11, #1696]
	str	q1, [x11, #1584]
	str	q0, [x11, #1600]
	stp	q2, q1, [x15]
	str	q0, [x15, #32]
	ldp	q1, q0, [x13, #16]
	str	q2, [x11, #1680]
	ldr	x15, [x11, #2008]
	str	q2, [x11, #1568]
	ldr	q2, [x13]
	str	x14, [x11, #1728]
	str	x14, [x11, #1672]
	str	x14, [x11, #1616]
	str	x14, [x11, #1560]
	add	x14, x11, #1400
	stp	q1, q0, [x14, #16]
	str	q2, [x14]
	add	x14, x11, #1288
	str	q0, [x11, #1488]
	str	q1, [x11, #1472]
	str	q1, [x11, #1360]
	str	q0, [x11, #1376]
	stp	q2, q1, [x14]
	str	q0, [x14, #32]
	ldp	q1, q0, [x13, #16]
	str	x15, [x11, #1504]
	ldr	x14, [x11, #2008]
	str	q2, [x11, #1456]
	str	q0, [x11, #1264]
	str	q1, [x11, #1248]
	ldp	q1, q0, [x13, #16]
	str	x15, [x11, #1448]
	str	q2, [x11, #1344]
	ldr	q2, [x13]
	str	x15, [x11, #1392]
	str	x15, [x11, #1336]
	add	x15, x11, #1176
	stp	q1, q0, [x15, #16]
	ldp	q1, q0, [x13, #16]
	str	q2, [x11, #1232]
	ldr	q2, [x13]
	str	x14, [x11, #1280]
	ldr	x14, [x11, #2008]
	str	q2, [x15]
	ldr	q2, [x13]
	add	x15, x11, #1064
	str	q0, [x11, #1152]
	str	q1, [x11, #1136]
	ldp	q1, q0, [x13, #16]
	str	q2, [x11, #1120]
	ldr	q2, [x13]
	str	x14, [x11, #1224]
	ldr	x14, [x11, #2008]
	stp	q1, q0, [x15, #16]
	ldp	q1, q0, [x13, #16]
	str	q2, [x15]
	ldr	q2, [x13]
	add	x15, x11, #952
	str	x14, [x11, #1168]
	ldr	x14, [x11, #2008]
	str	q0, [x11, #1040]
	stp	q2, q1, [x11, #1008]
	ldp	q1, q0, [x13, #16]
	ldr	q2, [x13]
	str	x14, [x11, #1112]
	ldr	x14, [x11, #2008]
	str	q3, [x12]
	stp	q1, q0, [x15, #16]
	ldp	q1, q0, [x13, #16]
	str	q2, [x15]
	add	x15, x11, #840
	ldr	q2, [x13]
	str	x14, [x11, #1056]
	ldr	x14, [x11, #2008]
	stp	q1, q0, [x11, #912]
	ldp	q1, q0, [x13, #16]
	str	q2, [x11, #896]
	ldr	q2, [x13]
	str	x14, [x11, #1000]
	ldr	x14, [x11, #2008]
	stp	q1, q0, [x15, #16]
	ldp	q1, q0, [x13, #16]
	str	q2, [x15]
	add	x15, x11, #728
	ldr	q2, [x13]
	str	x14, [x11, #944]
	ldr	x14, [x11, #2008]
	stp	q1, q0, [x11, #800]
	ldp	q1, q0, [x13, #16]
	str	q2, [x11, #784]
	ldr	q2, [x13]
	str	x14, [x11, #888]
	ldr	x14, [x11, #2008]
	stp	q1, q0, [x15, #16]
	ldp	q1, q0, [x13, #16]
	str	q2, [x15]
	add	x15, x11, #616
	ldr	q2, [x13]
	str	x14, [x11, #832]
	ldr	x14, [x11, #2008]
	stp	q1, q0, [x11, #688]
	ldp	q1, q0, [x13, #16]
	str	q2, [x11, #672]
	ldr	q2, [x13]
	str	x14, [x11, #776]
	ldr	x14, [x11, #2008]
	stp	q1, q0, [x15, #16]
	ldp	q1, q0, [x13, #16]
	str	q2, [x15]
	add	x15, x11, #504
	ldr	q2, [x13]
	str	x14, [x11, #720]
	ldr	x14, [x11, #2008]
	stp	q1, q0, [x11, #576]
	ldp	q1, q0, [x13, #16]
	str	q2, [x11, #560]
	ldr	q2, [x13]
	str	x14, [x11, #664]
	ldr	x14, [x11, #2008]
	stp	q1, q0, [x15, #16]
	ldp	q1, q0, [x13, #16]
	str	q2, [x15]
	add	x15, x11, #392
	ldr	q2, [x13]
	str	x14, [x11, #608]
	ldr	x14, [x11, #2008]
	stp	q1, q0, [x11, #464]
	ldp	q1, q0, [x13, #16]
	str	q2, [x11, #448]
	ldr	q2, [x13]
	str	x14, [x11, #552]
	ldr	x14, [x11, #2008]
	stp	q1, q0, [x15, #16]
	ldp	q1, q0, [x13, #16]
	str	q2, [x15]
	add	x15, x11, #280
	ldr	q2, [x13]
	str	x14, [x11, #496]
	ldr	x14, [x11, #2008]
	stp	q1, q0, [x11, #352]
	ldp	q1, q0, [x13, #16]
	str	x14, [x11, #440]
	ldr	x14, [x11, #2008]
	str	q2, [x11, #336]
	ldr	q2, [x13]
	stp	q1, q0, [x15, #16]
	ldp	q1, q0, [x13, #16]
	str	x14, [x11, #384]
	ldr	x14, [x11, #2008]
	str	q2, [x15]
	ldr	q2, [x13]
	stp	q1, q0, [x11, #240]
	ldp	q1, q0, [x13, #16]
	str	x14, [x11, #328]
	ldr	x14, [x11, #2008]
	str	q2, [x11, #224]
	ldr	q2, [x13]
	stur	q0, [x11, #200]
	stur	q1, [x11, #184]
	ldp	q1, q0, [x13, #16]
	str	x14, [x11, #272]
	ldr	x14, [x11, #2008]
	stur	q2, [x11, #168]
	ldr	q2, [x13]
	stp	q1, q0, [x11, #128]
	ldp	q1, q0, [x13, #16]
	str	x14, [x11, #216]
	ldr	x14, [x11, #2008]
	str	q2, [x11, #112]
	stur	q0, [x11, #88]
	ldr	q0, [x13]
	str	x14, [x11, #160]
	ldr	x14, [x11, #2008]
	stur	q1, [x11, #72]
	stur	q0, [x11, #56]
	ldp	q0, q1, [x13, #16]
	str	x14, [x11, #104]
	ldr	x14, [x11, #2008]
	stp	q0, q1, [x11, #16]
	ldr	q1, [x13]
	ldr	q0, [x13, #32]
	str	x14, [x11, #48]
	ldr	x14, [x11, #2008]
	str	q1, [x11]
	str	x14, [x12, #48]
	stp	q4, q0, [x12, #16]
	sub	x9, x9, #36
	sub	x10, x10, #2016
	add	x11, x11, #2016
	add	x12, x8, x9
	cmp	x12, #36
	b.ls	L(37_250)
L(37_248):
	sub	x12, x11, #56
	cbz	x9, L(37_247)
	ldp	q0, q1, [x11]
	ldr	q2, [x11, #32]
	ldr	x13, [x11, #48]
	str	q2, [x12, #32]
	ldur	q2, [x11, #88]
	stp	q0, q1, [x12]
	ldur	q0, [x11, #56]
	ldur	q1, [x11, #72]
	str	x13, [x12, #48]
	ldr	x12, [x11, #104]
	ldr	x13, [x11, #160]
	stp	q0, q1, [x11]
	ldp	q1, q0, [x11, #128]
	str	x12, [x11, #48]
	ldr	x12, [x11, #216]
	str	q2, [x11, #32]
	ldr	q2, [x11, #112]
	stur	q0, [x11, #88]
	ldur	q0, [x11, #200]
	stur	q1, [x11, #72]
	ldur	q1, [x11, #184]
	str	x12, [x11, #160]
	ldr	x12, [x11, #272]
	stp	q1, q0, [x11, #128]
	ldp	q1, q0, [x11, #240]
	str	x12, [x11, #216]
	add	x12, x11, #280
	stur	q2, [x11, #56]
	ldur	q2, [x11, #168]
	stur	q0, [x11, #200]
	ldp	q3, q0, [x12, #16]
	str	q2, [x11, #112]
	ldr	q2, [x11, #224]
	stur	q1, [x11, #184]
	stp	q3, q0, [x11, #240]
	ldp	q1, q0, [x11, #352]
	stur	q2, [x11, #168]
	ldr	q2, [x11, #336]
	str	x13, [x11, #104]
	ldr	x13, [x11, #328]
	stp	q1, q0, [x12, #16]
	ldr	q0, [x12]
	str	q2, [x12]
	add	x12, x11, #392
	ldr	q2, [x11, #448]
	str	q0, [x11, #224]
	ldp	q3, q0, [x12, #16]
	str	x13, [x11, #272]
	ldr	x13, [x11, #384]
	stp	q3, q0, [x11, #352]
	ldp	q1, q0, [x11, #464]
	str	x13, [x11, #328]
	ldr	x13, [x11, #440]
	stp	q1, q0, [x12, #16]
	ldr	q0, [x12]
	str	q2, [x12]
	add	x12, x11, #504
	ldr	q2, [x11, #560]
	str	q0, [x11, #336]
	ldp	q3, q0, [x12, #16]
	str	x13, [x11, #384]
	ldr	x13, [x11, #496]
	stp	q3, q0, [x11, #464]
	ldp	q1, q0, [x11, #576]
	str	x13, [x11, #440]
	ldr	x13, [x11, #552]
	stp	q1, q0, [x12, #16]
	ldr	q0, [x12]
	str	q2, [x12]
	add	x12, x11, #616
	ldr	q2, [x11, #672]
	str	q0, [x11, #448]
	ldp	q3, q0, [x12, #16]
	str	x13, [x11, #496]
	ldr	x13, [x11, #608]
	stp	q3, q0, [x11, #576]
	ldp	q1, q0, [x11, #688]
	str	x13, [x11, #552]
	ldr	x13, [x11, #664]
	stp	q1, q0, [x12, #16]
	ldr	q0, [x12]
	str	q2, [x12]
	add	x12, x11, #728
	ldr	q2, [x11, #784]
	str	q0, [x11, #560]
	ldp	q3, q0, [x12, #16]
	str	x13, [x11, #608]
	ldr	x13, [x11, #720]
	stp	q3, q0, [x11, #688]
	ldp	q1, q0, [x11, #800]
	str	x13, [x11, #664]
	ldr	x13, [x11, #776]
	stp	q1, q0, [x12, #16]
	ldr	q0, [x12]
	str	q2, [x12]
	add	x12, x11, #840
	ldr	q2, [x11, #896]
	str	q0, [x11, #672]
	ldp	q3, q0, [x12, #16]
	str	x13, [x11, #720]
	ldr	x13, [x11, #832]
	stp	q3, q0, [x11, #800]
	ldp	q1, q0, [x11, #912]
	str	x13, [x11, #776]
	ldr	x13, [x11, #888]
	stp	q1, q0, [x12, #16]
	ldr	q0, [x12]
	str	q2, [x12]
	add	x12, x11, #952
	str	q0, [x11, #784]
	ldp	q3, q0, [x12, #16]
	ldp	q2, q1, [x11, #1008]
	str	x13, [x11, #832]
	ldr	x13, [x11, #944]
	stp	q3, q0, [x11, #912]
	ldr	q0, [x11, #1040]
	str	x13, [x11, #888]
	ldr	x13, [x11, #1000]
	stp	q1, q0, [x12, #16]
	ldr	q0, [x12]
	ldr	q1, [x11, #1136]
	str	q2, [x12]
	add	x12, x11, #1064
	ldr	q2, [x11, #1120]
	str	q0, [x11, #896]
	ldp	q3, q0, [x12, #16]
	str	x13, [x11, #944]
	ldr	x13, [x11, #1056]
	str	q0, [x11, #1040]
	ldr	q0, [x11, #1152]
	str	x13, [x11, #1000]
	ldr	x13, [x11, #1112]
	stp	q1, q0, [x12, #16]
	ldr	q0, [x12]
	str	q2, [x12]
	add	x12, x11, #1176
	ldr	q2, [x11, #1232]
	str	x13, [x11, #1056]
	ldr	x13, [x11, #1168]
	stp	q0, q3, [x11, #1008]
	ldp	q1, q0, [x12, #16]
	str	x13, [x11, #1112]
	ldr	x13, [x11, #1224]
	str	q0, [x11, #1152]
	ldr	q0, [x11, #1264]
	str	q1, [x11, #1136]
	ldr	q1, [x11, #1248]
	str	x13, [x11, #1168]
	ldr	x13, [x11, #1280]
	stp	q1, q0, [x12, #16]
	ldr	q0, [x12]
	str	x13, [x11, #1224]
	add	x13, x11, #1288
	str	q0, [x11, #1120]
	ldp	q1, q0, [x13, #16]
	str	q2, [x12]
	ldr	x12, [x11, #1336]
	ldr	q2, [x11, #1344]
	str	q0, [x11, #1264]
	ldr	q0, [x11, #1376]
	str	q1, [x11, #1248]
	ldr	q1, [x11, #1360]
	str	x12, [x11, #1280]
	ldr	x12, [x11, #1392]
	stp	q1, q0, [x13, #16]
	ldr	q0, [x13]
	str	x12, [x11, #1336]
	add	x12, x11, #1400
	str	q0, [x11, #1232]
	ldp	q1, q0, [x12, #16]
	str	q2, [x13]
	ldr	x13, [x11, #1448]
	ldr	q2, [x11, #1456]
	str	q0, [x11, #1376]
	ldr	q0, [x11, #1488]
	str	q1, [x11, #1360]
	ldr	q1, [x11, #1472]
	str	x13, [x11, #1392]
	ldr	x13, [x11, #1504]
	stp	q1, q0, [x12, #16]
	ldr	q0, [x12]
	str	x13, [x11, #1448]
	add	x13, x11, #1512
	str	q0, [x11, #1344]
	ldp	q1, q0, [x13, #16]
	str	q2, [x12]
	ldr	x12, [x11, #1560]
	ldr	q2, [x11, #1568]
	str	q0, [x11, #1488]
	ldr	q0, [x11, #1600]
	str	q1, [x11, #1472]
	ldr	q1, [x11, #1584]
	str	x12, [x11, #1504]
	ldr	x12, [x11, #1616]
	stp	q1, q0, [x13, #16]
	ldr	q0, [x13]
	str	x12, [x11, #1560]
	add	x12, x11, #1624
	str	q0, [x11, #1456]
	ldp	q1, q0, [x12, #16]
	str	q2, [x13]
	ldr	x13, [x11, #1672]
	ldr	q2, [x11, #1680]
	str	q0, [x11, #1600]
	ldr	q0, [x11, #1712]
	str	q1, [x11, #1584]
	ldr	q1, [x11, #1696]
	str	x13, [x11, #1616]
	ldr	x13, [x11, #1728]
	stp	q1, q0, [x12, #16]
	ldr	q0, [x12]
	str	x13, [x11, #1672]
	add	x13, x11, #1736
	str	q0, [x11, #1568]
	ldp	q1, q0, [x13, #16]
	str	q2, [x12]
	ldr	x12, [x11, #1784]
	ldr	q2, [x11, #1792]
	str	q0, [x11, #1712]
	ldr	q0, [x11, #1824]
	str	q1, [x11, #1696]
	ldr	q1, [x11, #1808]
	str	x12, [x11, #1728]
	ldr	x12, [x11, #1840]
	stp	q1, q0, [x13, #16]
	ldr	q0, [x13]
	str	x12, [x11, #1784]
	add	x12, x11, #1848
	str	q0, [x11, #1680]
	ldp	q1, q0, [x12, #16]
	str	q2, [x13]
	ldr	x13, [x11, #1896]
	ldr	q2, [x11, #1904]
	str	q0, [x11, #1824]
	ldr	q0, [x11, #1936]
	str	q1, [x11, #1808]
	ldr	q1, [x11, #1920]
	str	x13, [x11, #1840]
	ldr	x13, [x11, #1952]
	stp	q1, q0, [x12, #16]
	ldr	q0, [x12]
	str	x13, [x11, #1896]
	add	x13, x11, #1960
	str	q0, [x11, #1792]
	ldp	q1, q0, [x13, #16]
	str	q2, [x12]
	ldr	x12, [x11, #2008]
	ldr	q2, [x13]
	str	x12, [x11, #1952]
	str	q0, [x11, #1936]
	str	q1, [x11, #1920]
	str	q2, [x11, #1904]
	sub	x9, x9, #36
	sub	x10, x10, #2016
	add	x11, x11, #2016
	add	x12, x8, x9
	cmp	x12, #36
	b.hi	L(37_248)
L(37_250):
	cbz	x9, L(37_264)
	neg	x10, x10
	mvn	x9, x9
L(37_252):
	cmp	x26, x9
	b.eq	L(37_267)
	lsl	x8, x12, #6
	mov	x21, x2
	str	x24, [sp, #96]
	mov	x24, x20
	mov	x20, x0
	add	x0, x3, x10
	sub	x2, x8, x12, lsl #3
	add	x1, x0, #56
	mov	x19, x16
	mov	x28, x25
	mov	x25, x3
	bl	C(memmove)
	mov	x0, x20
	mov	x20, x24
	ldr	x24, [sp, #96]
	mov	x3, x25
	mov	x25, x28
	mov	x2, x21
	mov	x16, x19
	b	L(37_267)
L(37_254):
	cbz	x8, L(37_267)
	mov	w9, #56
	madd	x9, x8, x9, x3
	lsl	x8, x19, #3
	sub	x8, x8, x19, lsl #6
	sub	x9, x9, #56
L(37_256):
	add	x10, x9, x8
	subs	x12, x12, #1
	ldp	q2, q0, [x10, #16]
	ldr	x11, [x10, #48]
	ldr	q1, [x10]
	sub	x10, x9, #56
	stur	x11, [x9, #-8]
	stur	q0, [x9, #-24]
	stur	q2, [x9, #-40]
	stur	q1, [x9, #-56]
	mov	x9, x10
	b.ne	L(37_256)
	b	L(37_267)
L(37_257):
	ldr	x8, [sp, #112]
	sub	x0, x29, #240
	add	x1, sp, #824
	add	x2, sp, #768
	str	x26, [sp, #824]
	str	x8, [sp, #840]
	sub	x8, x29, #208
	ldur	q0, [x8, #8]
	ldur	x8, [x29, #-184]
	str	x24, [sp, #832]
	str	xzr, [sp, #816]
	str	x8, [sp, #784]
	sub	x8, x29, #24
	str	q0, [sp, #768]
	str	xzr, [sp, #792]
	str	xzr, [sp, #808]
	str	x8, [sp, #800]
	bl	"subtree_levels::levels::pushed::<#024afdc31600bcbd>"
	ldurb	w8, [x29, #-240]
	cbnz	w8, L(37_226)
	ldp	x24, x21, [x29, #-232]
	ldur	x20, [x29, #-216]
	ldr	x22, [sp, #40]
	b	L(37_145)
L(37_259):
	ldr	x8, [sp, #112]
	ldur	q0, [x22, #152]
	add	x0, sp, #672
	add	x1, sp, #648
	add	x2, sp, #592
	str	x26, [sp, #648]
	str	x8, [sp, #664]
	ldr	x8, [sp, #728]
	str	x24, [sp, #656]
	str	q0, [sp, #624]
	str	x8, [sp, #640]
	str	x23, [sp, #592]
	str	x20, [sp, #600]
	str	x19, [sp, #608]
	str	xzr, [sp, #616]
	bl	"subtree_levels::levels::pushed::<#024afdc31600bcbd>"
	ldrb	w8, [sp, #672]
	cbnz	w8, L(37_226)
	mov	x8, #-6148914691236517206
	ldr	x20, [sp, #80]
	ldr	x26, [sp, #680]
	movk	x8, #43691
	ldr	x27, [sp, #688]
	ldr	x28, [sp, #696]
	umulh	x8, x20, x8
	stp	xzr, xzr, [x29, #-112]
	stur	xzr, [x29, #-96]
	lsr	x8, x8, #1
	add	x9, x8, x8, lsl #1
	cmp	x20, x9
	cinc	x19, x8, ne
	cbz	x19, L(37_307)
	mov	x8, #3689348814741910323
	movk	x8, #13108
	movk	x8, #819, lsl #48
	cmp	x19, x8
	b.hs	L(37_343)
	add	x8, x19, x19, lsl #2
	mov	w1, #8
	lsl	x0, x8, #3
	bl	C(yurewha_heap_alloc)
	tbz	w0, #0, L(37_343)
	mov	x24, x1
	b	L(37_308)
L(37_264):
	cbz	x8, L(37_267)
	mov	w9, #56
	madd	x8, x8, x9, x3
	sub	x8, x8, #56
L(37_266):
	ldp	q0, q1, [x8]
	sub	x10, x8, #56
	ldr	q2, [x8, #32]
	ldr	x9, [x8, #48]
	subs	x12, x12, #1
	stur	q0, [x8, #-56]
	stur	q1, [x8, #-40]
	stur	q2, [x8, #-24]
	stur	x9, [x8, #-8]
	mov	x8, x10
	b.ne	L(37_266)
L(37_267):
	stp	x3, x26, [x23, #8]
	str	x2, [x23, #24]
	cbz	x27, L(37_269)
	mov	x19, x16
	bl	C(yurewha_heap_dealloc)
	mov	x16, x19
L(37_269):
	ldr	x21, [sp, #120]
	cbz	x16, L(37_271)
	ldr	x0, [sp, #112]
	bl	C(yurewha_heap_dealloc)
L(37_271):
	cbz	x20, L(37_273)
	mov	x0, x24
	bl	C(yurewha_heap_dealloc)
L(37_273):
	ldr	x24, [sp, #72]
	ldr	x26, [sp, #48]
	cbz	x21, L(37_283)
	ldr	w8, [sp, #92]
	tbz	w8, #0, L(37_279)
	mov	w8, #24
	lsl	x9, x21, #6
	madd	x8, x21, x8, x25
	sub	x19, x9, x21, lsl #3
	sub	x20, x8, #24
	b	L(37_277)
L(37_276):
	sub	x21, x21, #1
	sub	x19, x19, #56
	sub	x20, x20, #24
	cbz	x21, L(37_283)
L(37_277):
	ldr	x8, [x24]
	ldr	q0, [x20]
	ldr	x9, [x20, #16]
	add	x8, x8, x19
	ldur	x0, [x8, #-56]
	ldur	x10, [x8, #-40]
	stur	q0, [x8, #-56]
	stp	x9, xzr, [x8, #-40]
	cbz	x10, L(37_276)
	bl	C(yurewha_heap_dealloc)
	b	L(37_276)
L(37_279):
	mov	w8, #24
	lsl	x9, x21, #6
	madd	x8, x21, x8, x25
	sub	x19, x9, x21, lsl #3
	sub	x20, x8, #24
	b	L(37_281)
L(37_280):
	sub	x21, x21, #1
	sub	x20, x20, #24
	sub	x19, x19, #56
	cbz	x21, L(37_283)
L(37_281):
	ldr	x8, [x24]
	ldr	q0, [x20]
	ldr	x10, [x20, #16]
	add	x8, x8, x19
	ldur	x9, [x8, #-8]
	ldur	x0, [x8, #-24]
	stur	q0, [x8, #-24]
	stur	x10, [x8, #-8]
	cbz	x9, L(37_280)
	bl	C(yurewha_heap_dealloc)
	b	L(37_280)
L(37_283):
	ldr	x8, [sp, #104]
	cbnz	x8, L(37_114)
	b	L(37_115)
L(37_284):
	add	x0, sp, #768
	sub	x1, x27, x26
	bl	"std_alloc::vec::Vec::grow_amortized::<#1ed62de40e111fb4>"
	cbz	w0, L(37_290)
	ldr	x8, [sp, #776]
	ldr	x23, [sp, #784]
	b	L(37_208)
L(37_286):
	ldr	x0, [sp, #72]
	mov	x1, x21
	bl	"std_alloc::vec::Vec::grow_amortized::<#62557648214f1014>"
	tbz	w0, #0, L(37_292)
	ldr	x8, [sp, #24]
	ldr	x8, [x8]
	b	L(37_149)
L(37_288):
	add	x0, sp, #768
	add	x1, x25, x21
	bl	"std_alloc::vec::Vec::grow_amortized::<#1ed62de40e111fb4>"
	cbz	w0, L(37_290)
	ldr	x23, [sp, #784]
	ldr	x9, [sp, #776]
	ldr	x1, [sp, #768]
	add	x8, x9, x20
	cmp	x9, x8
	b.lo	L(37_176)
	b	L(37_178)
L(37_290):
	ldr	x8, [sp, #784]
	cbz	x8, L(37_70)
	ldr	x0, [sp, #768]
	bl	C(yurewha_heap_dealloc)
	b	L(37_70)
L(37_292):
	mov	x23, x20
	mov	x25, x24
	add	x19, x24, #32
	b	L(37_294)
L(37_293):
	subs	x21, x21, #1
	add	x19, x19, #56
	b.eq	L(37_298)
L(37_294):
	ldur	x8, [x19, #-16]
	ldr	x22, [x19]
	ldr	x20, [x19, #16]
	cbz	x8, L(37_296)
	ldur	x0, [x19, #-32]
	bl	C(yurewha_heap_dealloc)
L(37_296):
	cbz	x20, L(37_293)
	mov	x0, x22
	bl	C(yurewha_heap_dealloc)
	b	L(37_293)
L(37_298):
	cbz	x23, L(37_300)
	mov	x0, x25
	bl	C(yurewha_heap_dealloc)
L(37_300):
	ldr	x20, [sp, #120]
	ldr	x21, [sp, #96]
	cbz	x20, L(37_305)
	add	x19, x21, #16
	b	L(37_303)
L(37_302):
	subs	x20, x20, #1
	add	x19, x19, #24
	b.eq	L(37_305)
L(37_303):
	ldr	x8, [x19]
	cbz	x8, L(37_302)
	ldur	x0, [x19, #-16]
	bl	C(yurewha_heap_dealloc)
	b	L(37_302)
L(37_305):
	ldr	x22, [sp, #40]
	ldr	x8, [sp, #104]
	cbz	x8, L(37_238)
	mov	x0, x21
	b	L(37_237)
L(37_307):
	sub	x24, x29, #24
L(37_308):
	cmp	x20, #576
	mov	w8, #576
	mov	x9, x20
	csel	x20, x20, x8, lo
	stp	x24, xzr, [x29, #-88]
	stur	x19, [x29, #-72]
	cbz	x9, L(37_321)
	add	x8, x20, x20, lsl #2
	mov	w1, #8
	lsl	x0, x8, #3
	bl	C(yurewha_heap_alloc)
	tbz	w0, #0, L(37_325)
	ldr	x8, [sp, #80]
	mov	x21, x1
	stur	x1, [x29, #-112]
	stur	x20, [x29, #-96]
	cmp	x8, #577
	b.lo	L(37_331)
	ldr	x20, [sp, #64]
L(37_312):
	mov	x2, xzr
	mov	w19, #576
	mov	x23, x20
	stur	xzr, [x29, #-104]
	b	L(37_315)
L(37_313):
	ldp	x21, x2, [x29, #-112]
L(37_314):
	mov	w8, #40
	ldp	q0, q1, [x29, #-64]
	madd	x8, x2, x8, x21
	ldur	x9, [x29, #-32]
	subs	x19, x19, #1
	add	x2, x2, #1
	add	x20, x20, #40
	stp	q0, q1, [x8]
	str	x9, [x8, #32]
	stur	x2, [x29, #-104]
	b.eq	L(37_317)
L(37_315):
	ldp	q0, q1, [x20]
	ldur	x8, [x29, #-96]
	ldr	x9, [x20, #32]
	cmp	x8, x2
	stp	q0, q1, [x29, #-64]
	stur	x9, [x29, #-32]
	b.ne	L(37_314)
	sub	x0, x29, #112
	mov	w1, #1
	bl	"std_alloc::vec::Vec::grow_amortized::<#1ed62de40e111fb4>"
	cbnz	w0, L(37_313)
	b	L(37_337)
L(37_317):
	sub	x0, x29, #88
	add	x3, sp, #128
	mov	x1, x21
	bl	"xet_roots::aggregated_hashes::push_first_parents::<#135fa06c802d8a86>"
	tst	w0, #0xff
	b.ne	L(37_351)
	mov	w8, #40
	madd	x20, x1, x8, x23
	ldr	x8, [sp, #80]
	sub	x8, x8, x1
	cmp	x8, #576
	str	x8, [sp, #80]
	b.hi	L(37_312)
	ldr	x8, [sp, #80]
	str	x20, [sp, #64]
	stur	xzr, [x29, #-104]
	cbnz	x8, L(37_332)
	mov	x2, xzr
	b	L(37_322)
L(37_321):
	sub	x8, x29, #24
	mov	x2, xzr
	stur	x20, [x29, #-96]
	stur	x8, [x29, #-112]
L(37_322):
	ldur	x21, [x29, #-112]
	sub	x0, x29, #88
	add	x3, sp, #128
	mov	x1, x21
	bl	"xet_roots::aggregated_hashes::push_parents::<#135fa06c802d8a86>"
	ldur	x8, [x29, #-96]
	and	w9, w0, #0xff
	tbz	w9, #0, L(37_327)
	cbz	x8, L(37_340)
L(37_324):
	mov	x0, x21
	b	L(37_339)
L(37_325):
	ldr	x25, [sp, #96]
	cbz	x19, L(37_343)
	mov	x0, x24
	b	L(37_342)
L(37_327):
	cbz	x8, L(37_329)
	mov	x0, x21
	bl	C(yurewha_heap_dealloc)
L(37_329):
	sub	x8, x29, #208
	add	x0, sp, #528
	add	x1, sp, #504
	ldur	q0, [x8, #120]
	ldur	x8, [x29, #-72]
	add	x2, sp, #480
	add	x5, sp, #128
	ldr	x3, [sp, #56]
	ldr	x4, [sp, #8]
	stur	q0, [x22, #7]
	stur	x8, [x22, #23]
	stp	x26, x27, [sp, #504]
	str	x28, [sp, #520]
	str	q0, [sp, #480]
	str	x8, [sp, #496]
	bl	"subtree_levels::collapse::collapse::<#4baefd862f873d89>"
	ldrb	w8, [sp, #528]
	ldr	x27, [sp, #120]
	ldr	x25, [sp, #96]
	cbnz	w8, L(37_226)
	ldr	x24, [sp, #536]
	ldr	x21, [sp, #544]
	ldr	x20, [sp, #552]
	ldr	x22, [sp, #40]
	b	L(37_145)
L(37_331):
	stur	xzr, [x29, #-104]
L(37_332):
	ldr	x10, [sp, #80]
	ldr	x11, [sp, #64]
	mov	x2, xzr
	b	L(37_334)
L(37_333):
	mov	w8, #40
	ldp	q0, q1, [x29, #-64]
	madd	x8, x2, x8, x21
	ldur	x9, [x29, #-32]
	subs	x10, x10, #1
	add	x2, x2, #1
	add	x11, x11, #40
	stp	q0, q1, [x8]
	str	x9, [x8, #32]
	stur	x2, [x29, #-104]
	b.eq	L(37_322)
L(37_334):
	ldur	x9, [x29, #-96]
	ldp	q1, q0, [x11]
	ldr	x8, [x11, #32]
	cmp	x9, x2
	stur	x8, [x29, #-32]
	stp	q1, q0, [x29, #-64]
	b.ne	L(37_333)
	sub	x0, x29, #112
	mov	w1, #1
	mov	x20, x11
	mov	x19, x10
	bl	"std_alloc::vec::Vec::grow_amortized::<#1ed62de40e111fb4>"
	cbz	w0, L(37_337)
	ldp	x21, x2, [x29, #-112]
	mov	x10, x19
	mov	x11, x20
	b	L(37_333)
L(37_337):
	ldur	x8, [x29, #-96]
	cbz	x8, L(37_340)
	ldur	x0, [x29, #-112]
L(37_339):
	bl	C(yurewha_heap_dealloc)
L(37_340):
	ldur	x8, [x29, #-72]
	ldr	x25, [sp, #96]
	cbz	x8, L(37_343)
	ldur	x0, [x29, #-88]
L(37_342):
	bl	C(yurewha_heap_dealloc)
L(37_343):
	cbz	x27, L(37_350)
	add	x19, x26, #32
	b	L(37_346)
L(37_345):
	subs	x27, x27, #1
	add	x19, x19, #56
	b.eq	L(37_350)
L(37_346):
	ldur	x8, [x19, #-16]
	ldr	x21, [x19]
	ldr	x20, [x19, #16]
	cbz	x8, L(37_348)
	ldur	x0, [x19, #-32]
	bl	C(yurewha_heap_dealloc)
L(37_348):
	cbz	x20, L(37_345)
	mov	x0, x21
	bl	C(yurewha_heap_dealloc)
	b	L(37_345)
L(37_350):
	ldr	x27, [sp, #120]
	cbnz	x28, L(37_225)
	b	L(37_226)
L(37_351):
	ldur	x8, [x29, #-96]
	cbnz	x8, L(37_324)
	b	L(37_340)
	SIZE("xet_merkle::merkle_hash_subtree::subtree::MerkleHashSubtree::merge_with::<#3cf6a99334775a21>")
	.cfi_endproc

CODE(".text.xet_merkle::merkle_hash_subtree::subtree::merging::whole_of::<#024afdc31600bcbd>")
	.p2align	2
	TYPE("xet_merkle::merkle_hash_subtree::subtree::merging::whole_of::<#024afdc31600bcbd>", function)
"xet_merkle::merkle_hash_subtree::subtree::merging::whole_of::<#024afdc31600bcbd>":
	.cfi_startproc
	ldrb	w8, [x1, #1]
	tbnz	w8, #0, L(38_2)
	ldrb	w8, [x2]
	cmp	w8, #1
	b.ne	L(38_3)
L(38_2):
	mov	w8, #1
	strb	wzr, [x0, #2]
	strh	w8, [x0]
	stp	xzr, xzr, [x0, #8]
	ret
L(38_3):
	ldr	x8, [x1, #32]
	ldr	x9, [x2, #32]
	adds	x8, x9, x8
	csel	x8, xzr, x8, hs
	b.lo	L(38_5)
	mov	w8, #257
	strb	wzr, [x0, #2]
	strh	w8, [x0]
	stp	xzr, xzr, [x0, #8]
	ret
L(38_5):
	ldr	x12, [x1, #16]
	ldrb	w9, [x1]
	mov	x11, xzr
	ldrb	w10, [x2, #1]
	cbz	x12, L(38_10)
	ldr	x13, [x1, #8]
	add	x13, x13, #40
L(38_7):
	ldur	x14, [x13, #-32]
	ldur	x15, [x13, #-16]
	sub	x15, x14, x15
	cmn	x15, x11
	b.hs	L(38_18)
	ldr	x14, [x13], #56
	add	x11, x15, x11
	cmn	x14, x11
	b.hs	L(38_18)
	subs	x12, x12, #1
	add	x11, x14, x11
	b.ne	L(38_7)
L(38_10):
	ldr	x12, [x2, #16]
	cbz	x12, L(38_17)
	ldr	x13, [x2, #8]
	mov	x14, xzr
	add	x13, x13, #40
L(38_12):
	ldur	x15, [x13, #-32]
	ldur	x16, [x13, #-16]
	sub	x16, x15, x16
	cmn	x16, x14
	b.hs	L(38_18)
	ldr	x15, [x13], #56
	add	x14, x16, x14
	cmn	x15, x14
	b.hs	L(38_18)
	subs	x12, x12, #1
	add	x14, x15, x14
	b.ne	L(38_12)
	cmn	x14, x11
	b.lo	L(38_17)
	mov	w8, #513
	strb	wzr, [x0, #2]
	strh	w8, [x0]
	stp	xzr, xzr, [x0, #8]
	ret
L(38_17):
	orr	x9, x9, x10, lsl #8
	strh	wzr, [x0]
	strb	wzr, [x0, #2]
	stp	x9, x8, [x0, #8]
	ret
L(38_18):
	brk	#0x1
	SIZE("xet_merkle::merkle_hash_subtree::subtree::merging::whole_of::<#024afdc31600bcbd>")
	.cfi_endproc

CODE(".text.subtree_levels::in_sight::InSight::nodes::<#d96a70c1b70ca186>")
	.p2align	2
	TYPE("subtree_levels::in_sight::InSight::nodes::<#d96a70c1b70ca186>", function)
"subtree_levels::in_sight::InSight::nodes::<#d96a70c1b70ca186>":
	.cfi_startproc
	hint	#25
	.cfi_escape 0x2d
	sub	sp, sp, #112
	.cfi_def_cfa sp, 112
	stp	x24, x23, [sp, #64]
	.cfi_offset x23, -40
	.cfi_offset x24, -48
	ldr	x24, [x1, #8]
	stp	x22, x21, [sp, #80]
	.cfi_offset x21, -24
	.cfi_offset x22, -32
	mov	x22, x1
	stp	x20, x19, [sp, #96]
	.cfi_offset x19, -8
	.cfi_offset x20, -16
	mov	x19, x0
	stp	x29, x30, [sp, #32]
	.cfi_offset x29, -80
	.cfi_offset x30, -72
	add	x29, sp, #32
	.cfi_def_cfa x29, 80
	stp	x26, x25, [sp, #48]
	.cfi_offset x25, -56
	.cfi_offset x26, -64
	cbz	x24, L(39_3)
	ldr	x8, [x22]
	cmp	x24, #1
	b.ne	L(39_8)
	ldr	x9, [x8, #24]
	ldp	x11, x8, [x8]
	mov	w10, #40
	madd	x23, x9, x10, x11
	sub	x24, x8, x9
	ldr	x8, [x22, #48]
	cbnz	x8, L(39_4)
	b	L(39_9)
L(39_3):
	sub	x23, x29, #8
	ldr	x8, [x22, #48]
	cbz	x8, L(39_9)
L(39_4):
	ldr	x8, [x22, #40]
	mov	w10, #40
	ldr	x9, [x8, #24]
	ldp	x11, x8, [x8]
	madd	x20, x9, x10, x11
	sub	x21, x8, x9
	ldr	x8, [x22, #24]
	add	x9, x21, x24
	adds	x25, x9, x8
	b.eq	L(39_10)
L(39_5):
	mov	x8, #3689348814741910323
	movk	x8, #819, lsl #48
	cmp	x25, x8
	b.hi	L(39_7)
	add	x8, x25, x25, lsl #2
	mov	w1, #8
	lsl	x0, x8, #3
	bl	C(yurewha_heap_alloc)
	tbnz	w0, #0, L(39_11)
L(39_7):
	mov	w8, #1
	stp	xzr, xzr, [x19, #16]
	strb	w8, [x19]
	str	xzr, [x19, #8]
	b	L(39_27)
L(39_8):
	ldp	x23, x24, [x8, #32]
	ldr	x8, [x22, #48]
	cbnz	x8, L(39_4)
L(39_9):
	mov	x21, xzr
	sub	x20, x29, #8
	ldr	x8, [x22, #24]
	add	x9, xzr, x24
	adds	x25, x9, x8
	b.ne	L(39_5)
L(39_10):
	sub	x1, x29, #8
L(39_11):
	mov	x8, xzr
	cmp	x24, x25
	stp	x1, xzr, [sp]
	str	x25, [sp, #16]
	b.hi	L(39_28)
L(39_12):
	mov	w9, #40
	add	x26, x8, x24
	madd	x0, x8, x9, x1
	add	x9, x24, x24, lsl #2
	lsl	x2, x9, #3
	sub	x9, x0, x23
	cmp	x9, x2
	b.hs	L(39_15)
	cbz	x24, L(39_16)
L(39_14):
	ldp	q1, q0, [x23]
	subs	x24, x24, #1
	ldr	x8, [x23, #32]
	add	x23, x23, #40
	str	x8, [x0, #32]
	stp	q1, q0, [x0]
	add	x0, x0, #40
	b.ne	L(39_14)
	b	L(39_16)
L(39_15):
	mov	x1, x23
	bl	C(memmove)
L(39_16):
	ldp	x1, x23, [x22, #16]
	sub	x8, x25, x26
	stp	x26, x25, [sp, #8]
	cmp	x23, x8
	b.hi	L(39_30)
L(39_17):
	mov	w8, #40
	ldr	x22, [sp]
	add	x24, x26, x23
	madd	x0, x26, x8, x22
	add	x8, x23, x23, lsl #2
	lsl	x2, x8, #3
	sub	x8, x0, x1
	cmp	x8, x2
	b.hs	L(39_20)
	cbz	x23, L(39_21)
L(39_19):
	ldp	q1, q0, [x1]
	subs	x23, x23, #1
	ldr	x8, [x1, #32]
	add	x1, x1, #40
	str	x8, [x0, #32]
	stp	q1, q0, [x0]
	add	x0, x0, #40
	b.ne	L(39_19)
	b	L(39_21)
L(39_20):
	bl	C(memmove)
L(39_21):
	sub	x8, x25, x24
	stp	x24, x25, [sp, #8]
	cmp	x21, x8
	b.hi	L(39_32)
L(39_22):
	mov	w8, #40
	madd	x0, x24, x8, x22
	add	x8, x21, x21, lsl #2
	add	x22, x24, x21
	lsl	x2, x8, #3
	sub	x8, x0, x20
	cmp	x8, x2
	b.hs	L(39_25)
	cbz	x21, L(39_26)
L(39_24):
	ldp	q1, q0, [x20]
	subs	x21, x21, #1
	ldr	x8, [x20, #32]
	add	x20, x20, #40
	str	x8, [x0, #32]
	stp	q1, q0, [x0]
	add	x0, x0, #40
	b.ne	L(39_24)
	b	L(39_26)
L(39_25):
	mov	x1, x20
	bl	C(memmove)
L(39_26):
	stp	x22, x25, [sp, #8]
	ldr	q0, [sp]
	strb	wzr, [x19]
	str	x25, [x19, #24]
	stur	q0, [x19, #8]
L(39_27):
	ldp	x20, x19, [sp, #96]
	.cfi_remember_state
	.cfi_restore x19
	.cfi_restore x20
	ldp	x22, x21, [sp, #80]
	.cfi_restore x21
	.cfi_restore x22
	ldp	x24, x23, [sp, #64]
	.cfi_restore x23
	.cfi_restore x24
	ldp	x26, x25, [sp, #48]
	.cfi_restore x25
	.cfi_restore x26
	ldp	x29, x30, [sp, #32]
	.cfi_def_cfa sp, 112
	.cfi_restore x29
	.cfi_restore x30
	add	sp, sp, #112
	.cfi_def_cfa sp, 0
	hint	#29
	.cfi_escape 0x2d
	ret
L(39_28):
	.cfi_restore_state
	mov	x0, sp
	mov	x1, x24
	bl	"std_alloc::vec::Vec::grow_amortized::<#1ed62de40e111fb4>"
	cbz	w0, L(39_34)
	ldp	x8, x25, [sp, #8]
	ldr	x1, [sp]
	b	L(39_12)
L(39_30):
	mov	x22, x1
	mov	x0, sp
	mov	x1, x23
	bl	"std_alloc::vec::Vec::grow_amortized::<#1ed62de40e111fb4>"
	cbz	w0, L(39_34)
	ldp	x26, x25, [sp, #8]
	mov	x1, x22
	b	L(39_17)
L(39_32):
	mov	x0, sp
	mov	x1, x21
	bl	"std_alloc::vec::Vec::grow_amortized::<#1ed62de40e111fb4>"
	cbz	w0, L(39_34)
	ldp	x24, x25, [sp, #8]
	ldr	x22, [sp]
	b	L(39_22)
L(39_34):
	ldr	x8, [sp, #16]
	cbz	x8, L(39_7)
	ldr	x0, [sp]
	bl	C(yurewha_heap_dealloc)
	b	L(39_7)
	SIZE("subtree_levels::in_sight::InSight::nodes::<#d96a70c1b70ca186>")
	.cfi_endproc

CODE(".text.subtree_levels::in_sight::InSight::split::<#024afdc31600bcbd>")
	.p2align	2
	TYPE("subtree_levels::in_sight::InSight::split::<#024afdc31600bcbd>", function)
"subtree_levels::in_sight::InSight::split::<#024afdc31600bcbd>":
	.cfi_startproc
	sub	sp, sp, #16
	.cfi_def_cfa sp, 16
	ldr	x8, [x1, #8]
	cmp	x8, #1
	b.hi	L(40_11)
	mov	x8, xzr
	cbz	x3, L(40_9)
	ldrb	w9, [x1, #56]
	tbnz	w9, #0, L(40_9)
	mov	x8, xzr
	mov	x9, xzr
	mov	w12, wzr
	mov	w11, wzr
	add	x10, x2, #24
	b	L(40_5)
L(40_4):
	add	x9, x9, #1
	sub	x8, x8, #1
	cmn	x3, x8
	b.eq	L(40_8)
L(40_5):
	ldrb	w13, [x10], #40
	tst	w13, #0x3
	b.ne	L(40_4)
	sub	x13, x9, #2
	cmp	x13, #5
	cset	w14, lo
	and	w12, w12, w14
	cmp	w12, #1
	b.eq	L(40_18)
	cmp	x13, #5
	mov	x9, xzr
	cset	w12, lo
	and	w12, w11, w12
	mov	w11, #1
	sub	x8, x8, #1
	cmn	x3, x8
	b.ne	L(40_5)
L(40_8):
	mov	x8, x3
L(40_9):
	mov	w9, #40
	ldr	x10, [x1, #48]
	sub	x3, x3, x8
	madd	x9, x8, x9, x2
	cbz	x10, L(40_19)
L(40_10):
	ldr	x11, [x1, #40]
	ldp	x10, x11, [x11, #32]
	stp	x2, x8, [x0]
	stp	x9, x3, [x0, #16]
	stp	x10, x11, [x0, #32]
	add	sp, sp, #16
	.cfi_def_cfa sp, 0
	ret
L(40_11):
	.cfi_def_cfa sp, 16
	ldr	x8, [x1, #48]
	cmp	x8, #1
	b.hi	L(40_17)
	ldrb	w8, [x1, #57]
	mov	x12, x3
	tbnz	w8, #0, L(40_21)
	cbz	x3, L(40_20)
	mov	w9, wzr
	mov	x8, xzr
	mov	x10, xzr
	mov	x11, xzr
	mov	w12, wzr
	add	x13, x2, #24
L(40_15):
	sub	x14, x11, #2
	sub	x16, x10, x11
	add	x10, x10, #1
	cmp	x14, #5
	ldrb	w14, [x13], #40
	cset	w15, lo
	ands	w17, w12, w15
	orr	w17, w17, w9
	csel	x16, x16, x8, ne
	tst	w14, #0x3
	csel	w9, w9, w17, ne
	csel	x8, x8, x16, ne
	csel	w12, w12, w15, ne
	csinc	x11, xzr, x11, eq
	cmp	x3, x10
	b.ne	L(40_15)
	tst	w9, #0x1
	csel	x12, x8, xzr, ne
	b	L(40_21)
L(40_17):
	ldr	x8, [x1]
	mov	w9, #40
	ldr	x12, [x8, #24]
	ldp	x10, x8, [x8]
	madd	x13, x12, x9, x10
	ldr	x9, [x1, #40]
	sub	x8, x8, x12
	ldp	x10, x11, [x9, #32]
	mov	x9, x2
	stp	x13, x8, [x0]
	stp	x9, x3, [x0, #16]
	stp	x10, x11, [x0, #32]
	add	sp, sp, #16
	.cfi_def_cfa sp, 0
	ret
L(40_18):
	.cfi_def_cfa sp, 16
	add	x8, x9, x8
	neg	x8, x8
	mov	w9, #40
	ldr	x10, [x1, #48]
	sub	x3, x3, x8
	madd	x9, x8, x9, x2
	cbnz	x10, L(40_10)
L(40_19):
	add	x10, sp, #8
	stp	x2, x8, [x0]
	stp	x9, x3, [x0, #16]
	stp	x10, xzr, [x0, #32]
	add	sp, sp, #16
	.cfi_def_cfa sp, 0
	ret
L(40_20):
	.cfi_def_cfa sp, 16
	mov	x12, xzr
L(40_21):
	ldr	x8, [x1]
	mov	w9, #40
	sub	x11, x3, x12
	ldr	x13, [x8, #24]
	ldp	x10, x8, [x8]
	madd	x14, x13, x9, x10
	sub	x8, x8, x13
	madd	x10, x12, x9, x2
	mov	x9, x2
	stp	x14, x8, [x0]
	stp	x9, x12, [x0, #16]
	stp	x10, x11, [x0, #32]
	add	sp, sp, #16
	.cfi_def_cfa sp, 0
	ret
	SIZE("subtree_levels::in_sight::InSight::split::<#024afdc31600bcbd>")
	.cfi_endproc

CODE(".text.unlikely.std_alloc::vec::Vec::grow_amortized::<#383813664ff73b2b>")
	.p2align	2
	TYPE("std_alloc::vec::Vec::grow_amortized::<#383813664ff73b2b>", function)
"std_alloc::vec::Vec::grow_amortized::<#383813664ff73b2b>":
	.cfi_startproc
	hint	#25
	.cfi_escape 0x2d
	ldr	x8, [x0, #8]
	cmn	x8, #1
	b.eq	L(41_5)
	stp	x29, x30, [sp, #-32]!
	.cfi_def_cfa sp, 32
	.cfi_offset x29, -32
	.cfi_offset x30, -24
	ldr	x9, [x0, #16]
	cmp	x8, #3
	mov	w10, #3
	csel	x11, x8, x10, hi
	stp	x20, x19, [sp, #16]
	.cfi_offset x19, -8
	.cfi_offset x20, -16
	mov	x29, sp
	.cfi_def_cfa x29, 32
	lsl	x10, x9, #1
	add	x12, x11, #1
	lsr	x13, x9, #62
	cmp	x12, x10
	csinc	x10, x10, x11, ls
	cmp	x13, #0
	csinc	x19, x10, x11, eq
	mov	x11, #6148914691236517205
	movk	x11, #1365, lsl #48
	cmp	x19, x11
	b.hi	L(41_7)
	cbz	x9, L(41_6)
	add	x8, x8, x8, lsl #1
	add	x9, x19, x19, lsl #1
	mov	x20, x0
	ldr	x0, [x0]
	mov	w3, #8
	lsl	x1, x8, #3
	lsl	x2, x9, #3
	bl	C(yurewha_heap_realloc)
	tbz	w0, #0, L(41_7)
L(41_4):
	mov	w0, #1
	str	x1, [x20]
	str	x19, [x20, #16]
	ldp	x20, x19, [sp, #16]
	.cfi_remember_state
	.cfi_restore x19
	.cfi_restore x20
	ldp	x29, x30, [sp], #32
	.cfi_def_cfa sp, 0
	.cfi_restore x29
	.cfi_restore x30
	hint	#29
	.cfi_escape 0x2d
	ret
L(41_5):
	.cfi_escape 0x2d
	mov	w0, wzr
	hint	#29
	.cfi_escape 0x2d
	ret
L(41_6):
	.cfi_restore_state
	add	x8, x10, x10, lsl #1
	mov	x20, x0
	mov	w1, #8
	lsl	x0, x8, #3
	bl	C(yurewha_heap_alloc)
	tbnz	w0, #0, L(41_4)
L(41_7):
	mov	w0, wzr
	ldp	x20, x19, [sp, #16]
	.cfi_remember_state
	.cfi_restore x19
	.cfi_restore x20
	ldp	x29, x30, [sp], #32
	.cfi_def_cfa sp, 0
	.cfi_restore x29
	.cfi_restore x30
	hint	#29
	.cfi_escape 0x2d
	ret
	SIZE("std_alloc::vec::Vec::grow_amortized::<#383813664ff73b2b>")
	.cfi_endproc

CODE(".text.subtree_levels::in_sight::InSight::only_extends::<#024afdc31600bcbd>")
	.p2align	2
	TYPE("subtree_levels::in_sight::InSight::only_extends::<#024afdc31600bcbd>", function)
"subtree_levels::in_sight::InSight::only_extends::<#024afdc31600bcbd>":
	.cfi_startproc
	sub	sp, sp, #16
	.cfi_def_cfa sp, 16
	tbz	w1, #0, L(42_4)
	ldrb	w8, [x0, #56]
	tbz	w8, #0, L(42_10)
	mov	w15, wzr
L(42_3):
	and	w0, w15, #0x1
	add	sp, sp, #16
	.cfi_def_cfa sp, 0
	ret
L(42_4):
	.cfi_def_cfa sp, 16
	ldrb	w8, [x0, #57]
	tbnz	w8, #0, L(42_85)
	ldr	x8, [x0, #48]
	cmp	x8, #1
	b.hi	L(42_85)
	ldr	x11, [x0, #8]
	cbz	x11, L(42_27)
	ldr	x9, [x0]
	cmp	x11, #1
	b.ne	L(42_70)
	ldr	x10, [x9, #24]
	ldp	x12, x9, [x9]
	mov	w11, #40
	madd	x13, x10, x11, x12
	sub	x11, x9, x10
	ldr	x9, [x0, #24]
	cbz	x8, L(42_28)
L(42_9):
	ldr	x8, [x0, #40]
	mov	w10, #40
	ldr	x12, [x8, #24]
	ldp	x14, x8, [x8]
	madd	x10, x12, x10, x14
	sub	x8, x8, x12
	ldr	x12, [x0, #16]
	cbnz	x9, L(42_29)
	b	L(42_32)
L(42_10):
	ldr	x8, [x0, #8]
	cmp	x8, #1
	b.hi	L(42_85)
	cmp	x8, #1
	b.ne	L(42_14)
	ldr	x8, [x0]
	mov	w10, #40
	ldr	x9, [x8, #24]
	ldp	x11, x8, [x8]
	madd	x17, x9, x10, x11
	sub	x15, x8, x9
	ldr	x8, [x0, #48]
	ldr	x13, [x0, #24]
	cbz	x8, L(42_15)
L(42_13):
	ldr	x8, [x0, #40]
	mov	w10, #40
	ldr	x9, [x8, #24]
	ldp	x11, x8, [x8]
	madd	x11, x9, x10, x11
	sub	x12, x8, x9
	orr	x8, x13, x15
	cbnz	x8, L(42_16)
	b	L(42_94)
L(42_14):
	mov	x15, xzr
	add	x17, sp, #8
	ldr	x8, [x0, #48]
	ldr	x13, [x0, #24]
	cbnz	x8, L(42_13)
L(42_15):
	mov	x12, xzr
	add	x11, sp, #8
	orr	x8, x13, x15
	cbz	x8, L(42_94)
L(42_16):
	ldr	x16, [x0, #16]
	cmp	x12, #14
	mov	w8, #14
	csel	x8, x12, x8, lo
	cbz	x15, L(42_71)
	mov	w10, wzr
	mov	w14, wzr
	mov	x9, xzr
	add	x17, x17, #24
	mov	w0, #1
	b	L(42_20)
L(42_18):
	sub	x14, x9, #7
	cmn	x14, #5
	cset	w0, lo
L(42_19):
	sub	x14, x9, #2
	mov	x9, xzr
	cmp	x14, #5
	cset	w14, lo
	and	w14, w10, w14
	mov	w10, #1
	subs	x15, x15, #1
	b.eq	L(42_26)
L(42_20):
	ldr	x1, [x17], #40
	and	x1, x1, #0x3
	tbz	w0, #0, L(42_24)
	cbnz	x1, L(42_24)
	tbnz	w14, #0, L(42_18)
	mov	w0, #1
	b	L(42_19)
L(42_24):
	cbz	x1, L(42_19)
	add	x9, x9, #1
	subs	x15, x15, #1
	b.ne	L(42_20)
L(42_26):
	tbz	w0, #0, L(42_85)
	b	L(42_72)
L(42_27):
	add	x13, sp, #8
	ldr	x9, [x0, #24]
	cbnz	x8, L(42_9)
L(42_28):
	add	x10, sp, #8
	ldr	x12, [x0, #16]
	cbz	x9, L(42_32)
L(42_29):
	add	x14, x12, #24
	mov	x15, x9
L(42_30):
	ldrb	w16, [x14], #40
	tst	w16, #0x3
	b.eq	L(42_36)
	subs	x15, x15, #1
	b.ne	L(42_30)
L(42_32):
	cbz	x8, L(42_94)
	add	x14, x10, #24
	mov	x16, x8
L(42_34):
	ldrb	w15, [x14], #40
	tst	w15, #0x3
	b.eq	L(42_36)
	subs	x16, x16, #1
	mov	w15, #1
	b.ne	L(42_34)
	b	L(42_3)
L(42_36):
	mov	w14, #40
	mov	x17, xzr
	mov	w16, wzr
	madd	x13, x11, x14, x13
	subs	x14, x11, #14
	csel	x14, xzr, x14, lo
	sub	x11, x11, x14
	add	x13, x13, #24
L(42_37):
	mov	x14, x17
	cmp	x11, x17
	mov	x15, x13
	b.eq	L(42_39)
	mov	x13, x15
	ldrb	w17, [x13, #-40]!
	tst	w17, #0x3
	cset	w17, eq
	and	w0, w17, w16
	orr	w16, w17, w16
	add	x17, x14, #1
	cmp	w0, #1
	b.ne	L(42_37)
L(42_39):
	mov	w13, wzr
	mov	x11, xzr
	cbz	x14, L(42_49)
	mov	w16, #1
	b	L(42_43)
L(42_41):
	sub	x13, x11, #7
	cmn	x13, #5
	cset	w16, lo
L(42_42):
	sub	x13, x11, #2
	mov	x11, xzr
	cmp	x13, #5
	cset	w13, lo
	subs	x14, x14, #1
	b.eq	L(42_49)
L(42_43):
	ldr	x17, [x15], #40
	and	x17, x17, #0x3
	tbz	w16, #0, L(42_47)
	cbnz	x17, L(42_47)
	tbnz	w13, #0, L(42_41)
	mov	w16, #1
	b	L(42_42)
L(42_47):
	cbz	x17, L(42_42)
	add	x11, x11, #1
	subs	x14, x14, #1
	b.ne	L(42_43)
L(42_49):
	cbz	x9, L(42_60)
	add	x12, x12, #24
	mov	w14, #1
	b	L(42_53)
L(42_51):
	sub	x13, x11, #7
	cmn	x13, #5
	cset	w14, lo
L(42_52):
	sub	x13, x11, #2
	mov	x11, xzr
	cmp	x13, #5
	cset	w13, lo
	subs	x9, x9, #1
	b.eq	L(42_59)
L(42_53):
	ldr	x15, [x12], #40
	and	x15, x15, #0x3
	tbz	w14, #0, L(42_57)
	cbnz	x15, L(42_57)
	tbnz	w13, #0, L(42_51)
	mov	w14, #1
	b	L(42_52)
L(42_57):
	cbz	x15, L(42_52)
	add	x11, x11, #1
	subs	x9, x9, #1
	b.ne	L(42_53)
L(42_59):
	tbz	w14, #0, L(42_85)
L(42_60):
	cbz	x8, L(42_94)
	add	x9, x10, #24
	mov	w15, #1
	b	L(42_64)
L(42_62):
	sub	x10, x11, #7
	cmn	x10, #5
	cset	w15, lo
L(42_63):
	sub	x10, x11, #2
	mov	x11, xzr
	cmp	x10, #5
	cset	w13, lo
	subs	x8, x8, #1
	b.eq	L(42_3)
L(42_64):
	ldr	x10, [x9], #40
	and	x10, x10, #0x3
	tbz	w15, #0, L(42_68)
	cbnz	x10, L(42_68)
	tbnz	w13, #0, L(42_62)
	mov	w15, #1
	b	L(42_63)
L(42_68):
	cbz	x10, L(42_63)
	add	x11, x11, #1
	subs	x8, x8, #1
	b.ne	L(42_64)
	b	L(42_3)
L(42_70):
	ldp	x13, x11, [x9, #32]
	ldr	x9, [x0, #24]
	cbnz	x8, L(42_9)
	b	L(42_28)
L(42_71):
	mov	x9, xzr
	mov	w14, wzr
	mov	w10, wzr
L(42_72):
	cbz	x13, L(42_83)
	add	x15, x16, #24
	mov	w16, #1
	b	L(42_76)
L(42_74):
	sub	x14, x9, #7
	cmn	x14, #5
	cset	w16, lo
L(42_75):
	sub	x14, x9, #2
	mov	x9, xzr
	cmp	x14, #5
	cset	w14, lo
	and	w14, w10, w14
	mov	w10, #1
	subs	x13, x13, #1
	b.eq	L(42_82)
L(42_76):
	ldr	x17, [x15], #40
	and	x17, x17, #0x3
	tbz	w16, #0, L(42_80)
	cbnz	x17, L(42_80)
	tbnz	w14, #0, L(42_74)
	mov	w16, #1
	b	L(42_75)
L(42_80):
	cbz	x17, L(42_75)
	add	x9, x9, #1
	subs	x13, x13, #1
	b.ne	L(42_76)
L(42_82):
	tbz	w16, #0, L(42_85)
L(42_83):
	cbz	x12, L(42_94)
	add	x11, x11, #24
	mov	w15, #1
	b	L(42_88)
L(42_85):
	and	w0, wzr, #0x1
	add	sp, sp, #16
	.cfi_def_cfa sp, 0
	ret
L(42_86):
	.cfi_def_cfa sp, 16
	sub	x12, x9, #7
	cmn	x12, #5
	cset	w15, lo
L(42_87):
	sub	x12, x9, #2
	mov	x9, xzr
	cmp	x12, #5
	cset	w12, lo
	and	w14, w10, w12
	mov	w10, #1
	subs	x8, x8, #1
	b.eq	L(42_3)
L(42_88):
	ldr	x12, [x11], #40
	and	x12, x12, #0x3
	tbz	w15, #0, L(42_92)
	cbnz	x12, L(42_92)
	tbnz	w14, #0, L(42_86)
	mov	w15, #1
	b	L(42_87)
L(42_92):
	cbz	x12, L(42_87)
	add	x9, x9, #1
	subs	x8, x8, #1
	b.ne	L(42_88)
	b	L(42_3)
L(42_94):
	mov	w15, #1
	and	w0, w15, #0x1
	add	sp, sp, #16
	.cfi_def_cfa sp, 0
	ret
	SIZE("subtree_levels::in_sight::InSight::only_extends::<#024afdc31600bcbd>")
	.cfi_endproc

CODE(".text.subtree_levels::in_place::extend_inner::<#024afdc31600bcbd>")
	.p2align	2
	TYPE("subtree_levels::in_place::extend_inner::<#024afdc31600bcbd>", function)
"subtree_levels::in_place::extend_inner::<#024afdc31600bcbd>":
	.cfi_startproc
	hint	#25
	.cfi_escape 0x2d
	stp	x29, x30, [sp, #-64]!
	.cfi_def_cfa sp, 64
	.cfi_offset x29, -64
	.cfi_offset x30, -56
	mov	w8, #56
	stp	x20, x19, [sp, #48]
	.cfi_offset x19, -8
	.cfi_offset x20, -16
	ldr	x9, [x0]
	madd	x19, x1, x8, x9
	ldr	x8, [x0, #8]
	add	x9, x1, #1
	stp	x22, x21, [sp, #32]
	.cfi_offset x21, -24
	.cfi_offset x22, -32
	mov	x29, sp
	.cfi_def_cfa x29, 64
	cmp	x9, x8
	str	x23, [sp, #16]
	.cfi_offset x23, -48
	mov	x22, x19
	b.ne	L(43_5)
	ldp	x9, x20, [x22, #8]!
	sub	x8, x20, x9
	cmp	x3, x8
	b.hi	L(43_13)
L(43_2):
	mov	w8, #40
	ldr	x21, [x19]
	add	x23, x9, x3
	madd	x0, x9, x8, x21
	add	x8, x3, x3, lsl #2
	stp	xzr, xzr, [x22]
	lsl	x8, x8, #3
	sub	x10, x0, x2
	cmp	x10, x8
	b.hs	L(43_9)
	cbz	x3, L(43_10)
L(43_4):
	ldp	q1, q0, [x2]
	subs	x3, x3, #1
	ldr	x8, [x2, #32]
	add	x2, x2, #40
	str	x8, [x0, #32]
	stp	q1, q0, [x0]
	add	x0, x0, #40
	b.ne	L(43_4)
	b	L(43_10)
L(43_5):
	ldp	x9, x20, [x22, #40]!
	sub	x8, x20, x9
	cmp	x3, x8
	b.hi	L(43_15)
L(43_6):
	mov	w8, #40
	ldr	x21, [x19, #32]
	add	x23, x9, x3
	madd	x0, x9, x8, x21
	add	x8, x3, x3, lsl #2
	stp	xzr, xzr, [x22]
	lsl	x8, x8, #3
	sub	x10, x0, x2
	cmp	x10, x8
	b.hs	L(43_11)
	cbz	x3, L(43_12)
L(43_8):
	ldp	q1, q0, [x2]
	subs	x3, x3, #1
	ldr	x8, [x2, #32]
	add	x2, x2, #40
	str	x8, [x0, #32]
	stp	q1, q0, [x0]
	add	x0, x0, #40
	b.ne	L(43_8)
	b	L(43_12)
L(43_9):
	mov	x1, x2
	mov	x2, x8
	bl	C(memmove)
L(43_10):
	mov	w0, wzr
	stp	x21, x23, [x19]
	str	x20, [x19, #16]
	ldp	x20, x19, [sp, #48]
	.cfi_remember_state
	.cfi_restore x19
	.cfi_restore x20
	ldr	x23, [sp, #16]
	.cfi_restore x23
	ldp	x22, x21, [sp, #32]
	.cfi_restore x21
	.cfi_restore x22
	ldp	x29, x30, [sp], #64
	.cfi_def_cfa sp, 0
	.cfi_restore x29
	.cfi_restore x30
	hint	#29
	.cfi_escape 0x2d
	ret
L(43_11):
	.cfi_restore_state
	mov	x1, x2
	mov	x2, x8
	bl	C(memmove)
L(43_12):
	mov	w0, wzr
	stp	x21, x23, [x19, #32]
	str	x20, [x19, #48]
	ldp	x20, x19, [sp, #48]
	.cfi_remember_state
	.cfi_restore x19
	.cfi_restore x20
	ldr	x23, [sp, #16]
	.cfi_restore x23
	ldp	x22, x21, [sp, #32]
	.cfi_restore x21
	.cfi_restore x22
	ldp	x29, x30, [sp], #64
	.cfi_def_cfa sp, 0
	.cfi_restore x29
	.cfi_restore x30
	hint	#29
	.cfi_escape 0x2d
	ret
L(43_13):
	.cfi_restore_state
	mov	x0, x19
	mov	x1, x3
	mov	x21, x2
	mov	x23, x3
	bl	"std_alloc::vec::Vec::grow_amortized::<#1ed62de40e111fb4>"
	cbz	w0, L(43_17)
	ldp	x9, x20, [x19, #8]
	mov	x3, x23
	mov	x2, x21
	b	L(43_2)
L(43_15):
	add	x0, x19, #32
	mov	x1, x3
	mov	x21, x2
	mov	x23, x3
	bl	"std_alloc::vec::Vec::grow_amortized::<#1ed62de40e111fb4>"
	cbz	w0, L(43_17)
	ldp	x9, x20, [x19, #40]
	mov	x3, x23
	mov	x2, x21
	b	L(43_6)
L(43_17):
	mov	w0, #1
	ldp	x20, x19, [sp, #48]
	.cfi_remember_state
	.cfi_restore x19
	.cfi_restore x20
	ldr	x23, [sp, #16]
	.cfi_restore x23
	ldp	x22, x21, [sp, #32]
	.cfi_restore x21
	.cfi_restore x22
	ldp	x29, x30, [sp], #64
	.cfi_def_cfa sp, 0
	.cfi_restore x29
	.cfi_restore x30
	hint	#29
	.cfi_escape 0x2d
	ret
	SIZE("subtree_levels::in_place::extend_inner::<#024afdc31600bcbd>")
	.cfi_endproc

CODE(".text.subtree_levels::collapse::collapse_middle::<#4baefd862f873d89>")
	.p2align	2
	TYPE("subtree_levels::collapse::collapse_middle::<#4baefd862f873d89>", function)
"subtree_levels::collapse::collapse_middle::<#4baefd862f873d89>":
	.cfi_startproc
	hint	#25
	.cfi_escape 0x2d
	sub	sp, sp, #288
	.cfi_def_cfa sp, 288
	stp	x26, x25, [sp, #224]
	.cfi_offset x25, -56
	.cfi_offset x26, -64
	movi	v0.2d, #0000000000000000
	add	x26, sp, #96
	stp	x24, x23, [sp, #240]
	.cfi_offset x23, -40
	.cfi_offset x24, -48
	ldr	x24, [x1, #16]
	stp	x22, x21, [sp, #256]
	.cfi_offset x21, -24
	.cfi_offset x22, -32
	ldp	x21, x25, [x1]
	ldp	x1, x8, [x2]
	stp	x20, x19, [sp, #272]
	.cfi_offset x19, -8
	.cfi_offset x20, -16
	mov	x20, x3
	ldp	x3, x4, [x2, #32]
	ldp	x22, x23, [x2, #16]
	mov	x19, x0
	add	x0, sp, #96
	mov	x2, x8
	stp	x29, x30, [sp, #192]
	.cfi_offset x29, -96
	.cfi_offset x30, -88
	stp	x28, x27, [sp, #208]
	.cfi_offset x27, -72
	.cfi_offset x28, -80
	add	x29, sp, #192
	.cfi_def_cfa x29, 96
	add	x27, sp, #96
	str	q0, [x26, #48]
	stp	q0, q0, [sp, #64]
	stp	q0, q0, [sp, #96]
	str	q0, [sp, #128]
	stp	xzr, xzr, [sp, #8]
	str	xzr, [sp, #24]
	stur	xzr, [sp, #31]
	bl	"level_nodes::levels::LevelNodes::copied::<#d96a70c1b70ca186>"
	ldrb	w8, [sp, #96]
	cbz	w8, L(44_8)
	cbz	x25, L(44_23)
	add	x22, x21, #32
	b	L(44_4)
L(44_3):
	subs	x25, x25, #1
	add	x22, x22, #56
	b.eq	L(44_23)
L(44_4):
	ldur	x8, [x22, #-16]
	ldr	x20, [x22]
	ldr	x23, [x22, #16]
	cbz	x8, L(44_6)
	ldur	x0, [x22, #-32]
	bl	C(yurewha_heap_dealloc)
L(44_6):
	cbz	x23, L(44_3)
	mov	x0, x20
	bl	C(yurewha_heap_dealloc)
	b	L(44_3)
L(44_8):
	add	x0, sp, #64
	add	x1, sp, #40
	orr	x2, x27, #0x8
	stp	x21, x25, [sp, #40]
	str	x24, [sp, #56]
	bl	"subtree_levels::levels::pushed::<#024afdc31600bcbd>"
	ldrb	w8, [sp, #64]
	cbnz	w8, L(44_25)
	mov	x8, #-6148914691236517206
	ldp	x21, x25, [sp, #72]
	movk	x8, #43691
	ldr	x24, [sp, #88]
	umulh	x8, x23, x8
	lsr	x8, x8, #1
	add	x9, x8, x8, lsl #1
	cmp	x23, x9
	cinc	x27, x8, ne
	cbz	x27, L(44_12)
	mov	x8, #3689348814741910323
	movk	x8, #819, lsl #48
	cmp	x27, x8
	b.hi	L(44_16)
	add	x8, x27, x27, lsl #2
	mov	w1, #8
	lsl	x0, x8, #3
	bl	C(yurewha_heap_alloc)
	tbnz	w0, #0, L(44_13)
	b	L(44_16)
L(44_12):
	sub	x1, x29, #8
L(44_13):
	stp	x1, xzr, [x29, #-32]
	sub	x0, x29, #32
	mov	x1, x22
	mov	x2, x23
	mov	x3, x20
	stur	x27, [x29, #-16]
	bl	"xet_roots::aggregated_hashes::push_parents::<#135fa06c802d8a86>"
	tst	w0, #0xff
	b.eq	L(44_27)
	ldur	x8, [x29, #-16]
	cbz	x8, L(44_16)
	ldur	x0, [x29, #-32]
	bl	C(yurewha_heap_dealloc)
L(44_16):
	cbz	x25, L(44_23)
	add	x22, x21, #32
	b	L(44_19)
L(44_18):
	subs	x25, x25, #1
	add	x22, x22, #56
	b.eq	L(44_23)
L(44_19):
	ldur	x8, [x22, #-16]
	ldr	x20, [x22]
	ldr	x23, [x22, #16]
	cbz	x8, L(44_21)
	ldur	x0, [x22, #-32]
	bl	C(yurewha_heap_dealloc)
L(44_21):
	cbz	x23, L(44_18)
	mov	x0, x20
	bl	C(yurewha_heap_dealloc)
	b	L(44_18)
L(44_23):
	cbz	x24, L(44_25)
	mov	x0, x21
	bl	C(yurewha_heap_dealloc)
L(44_25):
	movi	v0.2d, #0000000000000000
	mov	w8, #1
	strb	w8, [x19]
	stur	q0, [x19, #8]
	stur	q0, [x19, #24]
	stur	q0, [x19, #40]
L(44_26):
	ldp	x20, x19, [sp, #272]
	.cfi_remember_state
	.cfi_restore x19
	.cfi_restore x20
	ldp	x22, x21, [sp, #256]
	.cfi_restore x21
	.cfi_restore x22
	ldp	x24, x23, [sp, #240]
	.cfi_restore x23
	.cfi_restore x24
	ldp	x26, x25, [sp, #224]
	.cfi_restore x25
	.cfi_restore x26
	ldp	x28, x27, [sp, #208]
	.cfi_restore x27
	.cfi_restore x28
	ldp	x29, x30, [sp, #192]
	.cfi_def_cfa sp, 288
	.cfi_restore x29
	.cfi_restore x30
	add	sp, sp, #288
	.cfi_def_cfa sp, 0
	hint	#29
	.cfi_escape 0x2d
	ret
L(44_27):
	.cfi_restore_state
	ldr	q0, [x26, #64]
	ldur	x8, [x29, #-16]
	strb	wzr, [x19]
	stp	x21, x25, [x19, #8]
	stur	q0, [sp, #15]
	stur	x8, [sp, #31]
	str	x24, [x19, #24]
	str	q0, [x19, #32]
	str	x8, [x19, #48]
	b	L(44_26)
	SIZE("subtree_levels::collapse::collapse_middle::<#4baefd862f873d89>")
	.cfi_endproc

CODE(".text.subtree_levels::collapse::collapse::<#4baefd862f873d89>")
	.p2align	2
	TYPE("subtree_levels::collapse::collapse::<#4baefd862f873d89>", function)
"subtree_levels::collapse::collapse::<#4baefd862f873d89>":
	.cfi_startproc
	hint	#25
	.cfi_escape 0x2d
	sub	sp, sp, #368
	.cfi_def_cfa sp, 368
	movi	v0.2d, #0000000000000000
	stp	x29, x30, [sp, #272]
	.cfi_offset x29, -96
	.cfi_offset x30, -88
	add	x29, sp, #272
	.cfi_def_cfa x29, 96
	stp	x24, x23, [sp, #320]
	.cfi_offset x23, -40
	.cfi_offset x24, -48
	ldp	x23, x24, [x2]
	stp	x26, x25, [sp, #304]
	.cfi_offset x25, -56
	.cfi_offset x26, -64
	sub	x26, x29, #112
	ldr	x8, [x1, #16]
	stp	x28, x27, [sp, #288]
	.cfi_offset x27, -72
	.cfi_offset x28, -80
	ldr	x28, [x2, #16]
	stp	q0, q0, [x26]
	mov	x2, x24
	str	q0, [x26, #32]
	str	q0, [sp, #128]
	stp	q0, q0, [sp, #64]
	stp	q0, q0, [sp, #96]
	ldr	q0, [x1]
	mov	x1, x23
	str	x0, [sp]
	sub	x0, x29, #112
	stp	x22, x21, [sp, #336]
	.cfi_offset x21, -24
	.cfi_offset x22, -32
	mov	w21, w4
	mov	w22, w3
	stp	x20, x19, [sp, #352]
	.cfi_offset x19, -8
	.cfi_offset x20, -16
	mov	x20, x5
	stur	xzr, [x29, #-64]
	str	xzr, [sp, #144]
	stur	x8, [x29, #-32]
	str	q0, [x26, #64]
	bl	"subtree_levels::split::find_split::<#30d82ebffd2e63ea>"
	ldurb	w8, [x29, #-112]
	cmp	w8, #1
	b.ne	L(45_6)
	add	x8, sp, #96
	orr	x19, x8, #0x8
	b	L(45_3)
L(45_2):
	sub	x0, x29, #112
	mov	x1, x25
	mov	x2, x24
	mov	w3, w22
	mov	w4, w21
	bl	"subtree_levels::split::find_split::<#30d82ebffd2e63ea>"
	ldurb	w8, [x29, #-112]
	mov	x28, x27
	mov	x23, x25
	cmp	w8, #1
	b.ne	L(45_7)
L(45_3):
	sub	x8, x29, #112
	add	x0, sp, #96
	sub	x1, x29, #48
	orr	x2, x8, #0x8
	mov	x3, x20
	bl	"subtree_levels::collapse::collapse_middle::<#4baefd862f873d89>"
	ldrb	w8, [sp, #96]
	cbnz	w8, L(45_10)
	ldp	x25, x24, [sp, #128]
	ldr	q0, [x19]
	ldr	x8, [x19, #16]
	ldr	x27, [sp, #144]
	str	q0, [x26, #64]
	stur	x8, [x29, #-32]
	cbz	x28, L(45_2)
	mov	x0, x23
	bl	C(yurewha_heap_dealloc)
	b	L(45_2)
L(45_6):
	mov	x25, x23
	mov	x27, x28
L(45_7):
	sub	x8, x29, #24
	add	x0, sp, #64
	sub	x1, x29, #48
	add	x2, sp, #8
	stp	xzr, xzr, [sp, #48]
	stp	x25, x24, [sp, #8]
	stp	x27, xzr, [sp, #24]
	str	x8, [sp, #40]
	bl	"subtree_levels::levels::pushed::<#024afdc31600bcbd>"
	ldrb	w8, [sp, #64]
	cbz	w8, L(45_9)
	ldr	x9, [sp]
	mov	w8, #1
	stp	xzr, xzr, [x9, #16]
	strb	w8, [x9]
	stur	xzr, [x9, #8]
	b	L(45_13)
L(45_9):
	ldur	q0, [sp, #72]
	ldr	x9, [sp]
	ldr	x8, [sp, #88]
	strb	wzr, [x9]
	stur	q0, [x9, #8]
	stur	x8, [x9, #24]
	b	L(45_13)
L(45_10):
	cbz	x28, L(45_12)
	mov	x0, x23
	bl	C(yurewha_heap_dealloc)
L(45_12):
	ldr	x9, [sp]
	mov	w8, #1
	stp	xzr, xzr, [x9, #16]
	strb	w8, [x9]
	str	xzr, [x9, #8]
L(45_13):
	ldp	x20, x19, [sp, #352]
	.cfi_remember_state
	.cfi_restore x19
	.cfi_restore x20
	ldp	x22, x21, [sp, #336]
	.cfi_restore x21
	.cfi_restore x22
	ldp	x24, x23, [sp, #320]
	.cfi_restore x23
	.cfi_restore x24
	ldp	x26, x25, [sp, #304]
	.cfi_restore x25
	.cfi_restore x26
	ldp	x28, x27, [sp, #288]
	.cfi_restore x27
	.cfi_restore x28
	ldp	x29, x30, [sp, #272]
	.cfi_def_cfa sp, 368
	.cfi_restore x29
	.cfi_restore x30
	add	sp, sp, #368
	.cfi_def_cfa sp, 0
	hint	#29
	.cfi_escape 0x2d
	ret
	SIZE("subtree_levels::collapse::collapse::<#4baefd862f873d89>")
	.cfi_endproc

CODE(".text.upload_session::runs::Runs::put_before_next::<#ca9445b3ca2ffbf0>")
	.p2align	2
	TYPE("upload_session::runs::Runs::put_before_next::<#ca9445b3ca2ffbf0>", function)
"upload_session::runs::Runs::put_before_next::<#ca9445b3ca2ffbf0>":
	.cfi_startproc
	hint	#25
	.cfi_escape 0x2d
	sub	sp, sp, #256
	.cfi_def_cfa sp, 256
	movi	v1.2d, #0000000000000000
	stp	x26, x25, [sp, #192]
	.cfi_offset x25, -56
	.cfi_offset x26, -64
	ldrb	w9, [x1]
	stp	x20, x19, [sp, #240]
	.cfi_offset x19, -8
	.cfi_offset x20, -16
	ldp	x8, x20, [x3]
	ldp	x25, x26, [x3, #16]
	mov	x19, x0
	ldur	q0, [x3, #24]
	cmp	w9, #1
	stp	x24, x23, [sp, #208]
	.cfi_offset x23, -40
	.cfi_offset x24, -48
	stp	x22, x21, [sp, #224]
	.cfi_offset x21, -24
	.cfi_offset x22, -32
	mov	x23, x4
	mov	x22, x2
	mov	x21, x1
	stp	x29, x30, [sp, #160]
	.cfi_offset x29, -96
	.cfi_offset x30, -88
	add	x29, sp, #160
	.cfi_def_cfa x29, 96
	stp	x28, x27, [sp, #176]
	.cfi_offset x27, -72
	.cfi_offset x28, -80
	stp	q1, q1, [sp, #16]
	str	q1, [sp, #48]
	str	xzr, [sp, #64]
	b.ne	L(46_19)
	mov	x9, x21
	mov	w11, #15
	mov	x12, xzr
	ldr	x16, [x9, #8]!
	ldrh	w10, [x16, #2]
	mov	x15, x16
	sub	x11, x11, x10
	mov	x17, x16
	mov	x13, x16
	ldrh	w16, [x17], #8
	cbnz	x16, L(46_5)
L(46_2):
	mov	x14, xzr
L(46_3):
	ldrh	w12, [x13, #2]
	cbz	w12, L(46_19)
	add	x12, x13, x14, lsl #3
	add	x11, x11, #1
	mov	x15, x13
	ldr	x16, [x12, #848]
	mov	x12, x14
	mov	x17, x16
	mov	x13, x16
	ldrh	w16, [x17], #8
	cbz	x16, L(46_2)
L(46_5):
	mov	x14, xzr
L(46_6):
	ldr	x0, [x17, x14, lsl #3]
	cmp	x23, x0
	mov	w0, #2
	csel	w0, wzr, w0, lo
	csinc	w0, w0, wzr, ne
	cmp	w0, #2
	b.ne	L(46_9)
	add	x14, x14, #1
	cmp	x16, x14
	b.ne	L(46_6)
	mov	x14, x16
	b	L(46_3)
L(46_9):
	cbz	w0, L(46_3)
	add	x12, x15, x12, lsl #3
	add	x10, x10, x11
	cmp	x10, #15
	and	x10, x14, #0xf
	add	x11, x12, #848
	csel	x9, x9, x11, eq
	ldr	x9, [x9]
	ldrh	w11, [x9]
	cmp	x10, x11
	b.hs	L(46_76)
	stp	x8, x20, [x29, #-40]
	mov	w8, #48
	movi	v1.2d, #0000000000000000
	umaddl	x8, w10, w8, x9
	add	x0, sp, #80
	sub	x2, x29, #40
	mov	w3, #1
	stur	x25, [x29, #-24]
	stur	q0, [x29, #-16]
	add	x1, x8, #136
	stp	q1, q1, [sp, #80]
	bl	"xet_merkle::merkle_hash_subtree::subtree::MerkleHashSubtree::merge_with::<#3cf6a99334775a21>"
	ldrb	w8, [sp, #80]
	cbz	w8, L(46_23)
	ldrb	w23, [sp, #81]
	ldrb	w22, [sp, #82]
	cbz	x25, L(46_20)
	add	x24, x20, #32
	b	L(46_15)
L(46_14):
	subs	x25, x25, #1
	add	x24, x24, #56
	b.eq	L(46_20)
L(46_15):
	ldur	x8, [x24, #-16]
	ldr	x21, [x24]
	ldr	x27, [x24, #16]
	cbz	x8, L(46_17)
	ldur	x0, [x24, #-32]
	bl	C(yurewha_heap_dealloc)
L(46_17):
	cbz	x27, L(46_14)
	mov	x0, x21
	bl	C(yurewha_heap_dealloc)
	b	L(46_14)
L(46_19):
	mov	w28, #1
	b	L(46_33)
L(46_20):
	cbz	x26, L(46_22)
	mov	x0, x20
	bl	C(yurewha_heap_dealloc)
L(46_22):
	mov	w8, #1
	strb	w23, [x19, #1]
	strb	w8, [x19]
	strb	w22, [x19, #2]
	b	L(46_75)
L(46_23):
	str	x26, [sp, #8]
	cbz	x25, L(46_30)
	add	x27, x20, #32
	mov	x28, x25
	b	L(46_26)
L(46_25):
	subs	x28, x28, #1
	add	x27, x27, #56
	b.eq	L(46_30)
L(46_26):
	ldur	x8, [x27, #-16]
	ldr	x24, [x27]
	ldr	x26, [x27, #16]
	cbz	x8, L(46_28)
	ldur	x0, [x27, #-32]
	bl	C(yurewha_heap_dealloc)
L(46_28):
	cbz	x26, L(46_25)
	mov	x0, x24
	bl	C(yurewha_heap_dealloc)
	b	L(46_25)
L(46_30):
	ldr	x26, [sp, #8]
	cbz	x26, L(46_32)
	mov	x0, x20
	bl	C(yurewha_heap_dealloc)
L(46_32):
	mov	w28, wzr
L(46_33):
	add	x0, sp, #16
	mov	x1, x21
	mov	x2, x23
	bl	"std_collections::btree_map::BTreeMap::remove::<#0b8f5120abf1300c>"
	ldrb	w8, [sp, #16]
	cmp	w8, #1
	b.ne	L(46_64)
	ldrb	w8, [x21]
	ldp	x24, x27, [sp, #40]
	ldr	x23, [sp, #56]
	cmp	w8, #1
	b.ne	L(46_52)
	ldr	x14, [x21, #8]!
	ldur	q1, [sp, #24]
	ldur	q0, [sp, #56]
	mov	w9, #15
	mov	x10, xzr
	ldrh	w8, [x14, #2]
	mov	x13, x14
	sub	x9, x9, x8
	mov	x15, x14
	mov	x11, x14
	ldrh	w14, [x15], #8
	cbnz	x14, L(46_39)
L(46_36):
	mov	x12, xzr
L(46_37):
	ldrh	w10, [x11, #2]
	cbz	w10, L(46_52)
	add	x10, x11, x12, lsl #3
	add	x9, x9, #1
	mov	x13, x11
	ldr	x14, [x10, #848]
	mov	x10, x12
	mov	x15, x14
	mov	x11, x14
	ldrh	w14, [x15], #8
	cbz	x14, L(46_36)
L(46_39):
	mov	x12, xzr
L(46_40):
	ldr	x16, [x15, x12, lsl #3]
	cmp	x22, x16
	mov	w16, #2
	csel	w16, wzr, w16, lo
	csinc	w16, w16, wzr, ne
	cmp	w16, #2
	b.ne	L(46_43)
	add	x12, x12, #1
	cmp	x14, x12
	b.ne	L(46_40)
	mov	x12, x14
	b	L(46_37)
L(46_43):
	cbz	w16, L(46_37)
	add	x10, x13, x10, lsl #3
	add	x8, x8, x9
	str	w28, [sp, #4]
	cmp	x8, #15
	str	x26, [sp, #8]
	add	x9, x10, #848
	csel	x8, x21, x9, eq
	and	x9, x12, #0xf
	ldr	x8, [x8]
	ldrh	w10, [x8]
	cmp	x9, x10
	b.hs	L(46_76)
	mov	w10, #48
	umaddl	x8, w9, w10, x8
	ldp	x21, x28, [x8, #144]
	ldr	x23, [x8, #160]
	str	q1, [x8, #128]
	stp	x24, x27, [x8, #144]
	str	q0, [x8, #160]
	cbz	x28, L(46_61)
	add	x27, x21, #32
	b	L(46_48)
L(46_47):
	subs	x28, x28, #1
	add	x27, x27, #56
	b.eq	L(46_61)
L(46_48):
	ldur	x8, [x27, #-16]
	ldr	x22, [x27]
	ldr	x26, [x27, #16]
	cbz	x8, L(46_50)
	ldur	x0, [x27, #-32]
	bl	C(yurewha_heap_dealloc)
L(46_50):
	cbz	x26, L(46_47)
	mov	x0, x22
	bl	C(yurewha_heap_dealloc)
	b	L(46_47)
L(46_52):
	str	x19, [sp, #8]
	mov	w19, w28
	mov	x28, x20
	mov	x20, x26
	cbz	x27, L(46_59)
	add	x22, x24, #32
	b	L(46_55)
L(46_54):
	subs	x27, x27, #1
	add	x22, x22, #56
	b.eq	L(46_59)
L(46_55):
	ldur	x8, [x22, #-16]
	ldr	x21, [x22]
	ldr	x26, [x22, #16]
	cbz	x8, L(46_57)
	ldur	x0, [x22, #-32]
	bl	C(yurewha_heap_dealloc)
L(46_57):
	cbz	x26, L(46_54)
	mov	x0, x21
	bl	C(yurewha_heap_dealloc)
	b	L(46_54)
L(46_59):
	mov	x26, x20
	mov	x20, x28
	mov	w28, w19
	ldr	x19, [sp, #8]
	cbz	x23, L(46_64)
	mov	x0, x24
	b	L(46_63)
L(46_61):
	ldr	x26, [sp, #8]
	ldr	w28, [sp, #4]
	cbz	x23, L(46_64)
	mov	x0, x21
L(46_63):
	bl	C(yurewha_heap_dealloc)
L(46_64):
	cbz	w28, L(46_74)
	cbz	x25, L(46_72)
	add	x22, x20, #32
	b	L(46_68)
L(46_67):
	subs	x25, x25, #1
	add	x22, x22, #56
	b.eq	L(46_72)
L(46_68):
	ldur	x8, [x22, #-16]
	ldr	x21, [x22]
	ldr	x23, [x22, #16]
	cbz	x8, L(46_70)
	ldur	x0, [x22, #-32]
	bl	C(yurewha_heap_dealloc)
L(46_70):
	cbz	x23, L(46_67)
	mov	x0, x21
	bl	C(yurewha_heap_dealloc)
	b	L(46_67)
L(46_72):
	cbz	x26, L(46_74)
	mov	x0, x20
	bl	C(yurewha_heap_dealloc)
L(46_74):
	strh	wzr, [x19]
	strb	wzr, [x19, #2]
L(46_75):
	ldp	x20, x19, [sp, #240]
	.cfi_remember_state
	.cfi_restore x19
	.cfi_restore x20
	ldp	x22, x21, [sp, #224]
	.cfi_restore x21
	.cfi_restore x22
	ldp	x24, x23, [sp, #208]
	.cfi_restore x23
	.cfi_restore x24
	ldp	x26, x25, [sp, #192]
	.cfi_restore x25
	.cfi_restore x26
	ldp	x28, x27, [sp, #176]
	.cfi_restore x27
	.cfi_restore x28
	ldp	x29, x30, [sp, #160]
	.cfi_def_cfa sp, 256
	.cfi_restore x29
	.cfi_restore x30
	add	sp, sp, #256
	.cfi_def_cfa sp, 0
	hint	#29
	.cfi_escape 0x2d
	ret
L(46_76):
	.cfi_restore_state
	brk	#0x1
	SIZE("upload_session::runs::Runs::put_before_next::<#ca9445b3ca2ffbf0>")
	.cfi_endproc

CODE(".text.std_collections::btree_map::BTreeMap::remove::<#0b8f5120abf1300c>")
	.p2align	2
	TYPE("std_collections::btree_map::BTreeMap::remove::<#0b8f5120abf1300c>", function)
"std_collections::btree_map::BTreeMap::remove::<#0b8f5120abf1300c>":
	.cfi_startproc
	hint	#25
	.cfi_escape 0x2d
	sub	sp, sp, #352
	.cfi_def_cfa sp, 352
	movi	v0.2d, #0000000000000000
	ldrb	w8, [x1]
	stp	x20, x19, [sp, #336]
	.cfi_offset x19, -8
	.cfi_offset x20, -16
	mov	x19, x0
	stp	x29, x30, [sp, #288]
	.cfi_offset x29, -64
	.cfi_offset x30, -56
	add	x29, sp, #288
	.cfi_def_cfa x29, 64
	cmp	w8, #1
	stp	x28, x23, [sp, #304]
	.cfi_offset x23, -40
	.cfi_offset x28, -48
	stp	x22, x21, [sp, #320]
	.cfi_offset x21, -24
	.cfi_offset x22, -32
	stp	q0, q0, [sp, #16]
	str	q0, [sp]
	stp	q0, q0, [sp, #64]
	str	q0, [sp, #48]
	b.ne	L(47_10)
	mov	x20, x1
	mov	w8, #15
	mov	x12, xzr
	ldr	x16, [x20, #8]!
	mov	x11, xzr
	add	x21, sp, #144
	ldrh	w9, [x16, #2]
	mov	x14, x16
	sub	x8, x8, x9
	neg	x10, x9
	mov	x13, x8
	mov	x17, x16
	mov	x15, x16
	ldrh	w16, [x17], #8
	cbz	x16, L(47_7)
L(47_2):
	mov	x22, xzr
L(47_3):
	ldr	x0, [x17, x22, lsl #3]
	cmp	x2, x0
	mov	w0, #2
	csel	w0, wzr, w0, lo
	csinc	w0, w0, wzr, ne
	cmp	w0, #2
	b.ne	L(47_6)
	add	x22, x22, #1
	cmp	x16, x22
	b.ne	L(47_3)
	mov	x22, x16
	b	L(47_8)
L(47_6):
	cbnz	w0, L(47_11)
	b	L(47_8)
L(47_7):
	mov	x22, xzr
L(47_8):
	ldrh	w12, [x15, #2]
	cbz	w12, L(47_10)
	add	x12, x15, x22, lsl #3
	add	x13, x13, #1
	add	x11, x22, x11, lsl #4
	add	x10, x10, #1
	mov	x14, x15
	ldr	x16, [x12, #848]
	mov	x12, x22
	mov	x17, x16
	mov	x15, x16
	ldrh	w16, [x17], #8
	cbnz	x16, L(47_2)
	b	L(47_7)
L(47_10):
	str	xzr, [x19, #48]
	stp	q0, q0, [x19, #16]
	str	q0, [x19]
	ldp	x20, x19, [sp, #336]
	.cfi_remember_state
	.cfi_restore x19
	.cfi_restore x20
	ldp	x22, x21, [sp, #320]
	.cfi_restore x21
	.cfi_restore x22
	ldp	x28, x23, [sp, #304]
	.cfi_restore x23
	.cfi_restore x28
	ldp	x29, x30, [sp, #288]
	.cfi_def_cfa sp, 352
	.cfi_restore x29
	.cfi_restore x30
	add	sp, sp, #352
	.cfi_def_cfa sp, 0
	hint	#29
	.cfi_escape 0x2d
	ret
L(47_11):
	.cfi_restore_state
	movi	v0.2d, #0000000000000000
	ldr	x15, [x1, #16]
	add	x11, x22, x11, lsl #4
	add	x13, x13, #1
	cmp	x13, #16
	sub	x15, x15, #1
	str	x15, [x1, #16]
	stp	q0, q0, [sp, #112]
	str	q0, [sp, #96]
	b.ne	L(47_14)
	add	x10, x14, x12, lsl #3
	cmp	w9, #0
	add	x10, x10, #848
	csel	x23, x20, x10, eq
	ldr	x10, [x23]
	ldrh	w12, [x10]
	cmp	x12, #8
	b.lo	L(47_18)
	add	x8, x10, #8
	ldrh	w9, [x10, #2]
	add	x11, x10, #128
	stp	x8, x12, [sp, #144]
	mov	w8, #15
	add	x0, sp, #144
	stp	x8, x11, [sp, #160]
	cmp	w9, #0
	add	x11, x10, #848
	stp	x12, x8, [sp, #176]
	mov	w8, #16
	csinc	x9, xzr, x12, eq
	csel	x8, xzr, x8, eq
	and	x1, x22, #0xf
	stp	x11, x9, [sp, #192]
	stp	x8, x10, [sp, #208]
	add	x20, sp, #144
	stp	q0, q0, [x29, #-64]
	stur	q0, [x29, #-32]
	bl	"std_alloc::vec::Vec::remove::<#0c35fd3905773d29>"
	sub	x0, x29, #64
	add	x1, x20, #24
	and	x2, x22, #0xf
	bl	"std_alloc::vec::Vec::remove::<#7f26edd6ea879dba>"
	ldr	x8, [sp, #152]
	ldr	x9, [sp, #216]
	strh	w8, [x9]
	str	x9, [x23]
	ldp	q0, q1, [x29, #-64]
	ldur	q2, [x29, #-32]
	b	L(47_25)
L(47_14):
	subs	x3, x13, x8
	stp	xzr, xzr, [x29, #-16]
	b.ls	L(47_17)
	sub	x9, x29, #16
	add	x9, x9, #15
L(47_16):
	add	x12, x10, #15
	and	w13, w11, #0xf
	lsr	x11, x11, #4
	cmp	x8, x12
	strb	w13, [x9, x10]
	sub	x10, x10, #1
	b.lo	L(47_16)
L(47_17):
	sub	x9, x29, #16
	add	x0, sp, #144
	add	x2, x9, x8
	mov	x1, x20
	bl	"std_collections::btree::node::Node::take_at::<#1aacfcd96822f18e>"
	ldr	x0, [x20]
	ldrh	w8, [x0]
	cbnz	w8, L(47_24)
	b	L(47_22)
L(47_18):
	cmp	x8, #15
	stp	xzr, xzr, [x29, #-16]
	b.hi	L(47_21)
	mov	w10, #15
L(47_20):
	and	w12, w11, #0xf
	sub	x13, x29, #16
	lsr	x11, x11, #4
	cmp	x8, x10
	strb	w12, [x13, x10]
	sub	x10, x10, #1
	b.lo	L(47_20)
L(47_21):
	sub	x10, x29, #16
	add	x0, sp, #144
	add	x3, x9, #1
	add	x2, x10, x8
	mov	x1, x20
	bl	"std_collections::btree::node::Node::take_at::<#1aacfcd96822f18e>"
	ldr	x0, [x20]
	ldrh	w8, [x0]
	cbnz	w8, L(47_24)
L(47_22):
	ldrh	w8, [x0, #2]
	cbz	w8, L(47_24)
	ldr	x22, [x0, #848]
	bl	C(yurewha_heap_dealloc)
	str	x22, [x20]
L(47_24):
	ldur	q0, [x21, #8]
	ldur	q1, [x21, #24]
	ldur	q2, [x21, #40]
	stp	q0, q1, [x29, #-64]
	stur	q2, [x29, #-32]
L(47_25):
	stp	q0, q1, [sp, #144]
	mov	w8, #1
	ldp	q1, q0, [sp, #144]
	str	q2, [sp, #176]
	str	x8, [x19]
	stp	q1, q0, [sp]
	ldr	q0, [sp, #176]
	stp	q0, q1, [sp, #32]
	ldp	q1, q0, [sp]
	ldr	q2, [sp, #32]
	stur	q1, [x19, #8]
	stur	q0, [x19, #24]
	stur	q2, [x19, #40]
	ldp	x20, x19, [sp, #336]
	.cfi_remember_state
	.cfi_restore x19
	.cfi_restore x20
	ldp	x22, x21, [sp, #320]
	.cfi_restore x21
	.cfi_restore x22
	ldp	x28, x23, [sp, #304]
	.cfi_restore x23
	.cfi_restore x28
	ldp	x29, x30, [sp, #288]
	.cfi_def_cfa sp, 352
	.cfi_restore x29
	.cfi_restore x30
	add	sp, sp, #352
	.cfi_def_cfa sp, 0
	hint	#29
	.cfi_escape 0x2d
	ret
	SIZE("std_collections::btree_map::BTreeMap::remove::<#0b8f5120abf1300c>")
	.cfi_endproc

CODE(".text.std_alloc::vec::Vec::remove::<#0c35fd3905773d29>")
	.p2align	2
	TYPE("std_alloc::vec::Vec::remove::<#0c35fd3905773d29>", function)
"std_alloc::vec::Vec::remove::<#0c35fd3905773d29>":
	.cfi_startproc
	ldp	x10, x13, [x0]
	lsl	x15, x1, #3
	ldr	x9, [x0, #16]
	stp	xzr, xzr, [x0, #8]
	mov	x8, x0
	cmn	x1, #1
	add	x12, x10, x15
	sub	x11, x13, #1
	ldr	x0, [x12]
	sub	x14, x11, x1
	b.eq	L(48_9)
	cmp	x14, #257
	b.lo	L(48_17)
	sub	x14, x13, x1
	add	x15, x15, x10
	mov	x16, xzr
	add	x17, x12, #2048
	sub	x3, x14, #257
	add	x2, x15, #16
	b	L(48_4)
L(48_3):
	add	x1, x1, #256
	add	x16, x16, #1
	sub	x3, x15, #256
	sub	x14, x11, x1
	add	x2, x2, #2048
	add	x12, x12, #2048
	cmp	x14, #256
	b.ls	L(48_15)
L(48_4):
	cmn	x1, #1
	mov	x15, x3
	b.eq	L(48_7)
	mov	w14, #256
	mov	x3, x2
L(48_6):
	ldur	q0, [x3, #-8]
	ldur	q1, [x3, #8]
	subs	x14, x14, #4
	stp	q0, q1, [x3, #-16]
	add	x3, x3, #32
	b.ne	L(48_6)
	b	L(48_3)
L(48_7):
	lsl	x14, x16, #11
	mov	w3, #2040
	ldr	x14, [x17, x14]
L(48_8):
	str	x14, [x12, x3]
	sub	x3, x3, #8
	cmn	x3, #8
	b.ne	L(48_8)
	b	L(48_3)
L(48_9):
	cbz	x13, L(48_32)
	lsl	x12, x13, #3
	cmp	x14, #4
	b.lo	L(48_29)
	neg	x16, x1, lsl #3
	cmp	x16, #32
	mov	x16, xzr
	b.lo	L(48_30)
	sub	x17, x12, #40
	and	x16, x14, #0xfffffffffffffffc
	and	x2, x14, #0xfffffffffffffffc
	sub	x15, x17, x15
	add	x17, x10, x17
	add	x15, x10, x15
L(48_13):
	ldp	q1, q0, [x15], #-32
	sub	x2, x2, #4
	stp	q1, q0, [x17], #-32
	cbnz	x2, L(48_13)
	cmp	x14, x16
	b.ne	L(48_30)
	b	L(48_32)
L(48_15):
	cmn	x1, #1
	b.eq	L(48_23)
	lsl	x15, x1, #3
	add	x12, x10, x15
L(48_17):
	cmp	x11, x1
	b.eq	L(48_32)
	cmp	x14, #6
	b.lo	L(48_20)
	add	x17, x15, x10
	sub	x13, x17, x12
	sub	x13, x13, #8
	cmp	x13, #32
	b.hs	L(48_26)
L(48_20):
	mov	x13, xzr
L(48_21):
	lsl	x16, x13, #3
	add	x15, x10, x15
	add	x17, x16, x12
	sub	x12, x14, x13
	add	x14, x15, x16
	add	x13, x17, #8
L(48_22):
	ldr	x15, [x13], #8
	subs	x12, x12, #1
	str	x15, [x14], #8
	b.ne	L(48_22)
	b	L(48_32)
L(48_23):
	cbz	x13, L(48_32)
	add	x13, x10, x13, lsl #3
	ldur	x12, [x13, #-8]
	sub	x13, x13, #16
L(48_25):
	subs	x15, x15, #1
	str	x12, [x13], #-8
	b.ne	L(48_25)
	b	L(48_32)
L(48_26):
	and	x13, x14, #0x1fc
	add	x16, x12, #24
	add	x17, x17, #16
	and	x1, x14, #0x1fc
L(48_27):
	ldp	q0, q1, [x16, #-16]
	subs	x1, x1, #4
	add	x16, x16, #32
	stp	q0, q1, [x17, #-16]
	add	x17, x17, #32
	b.ne	L(48_27)
	cmp	x14, x13
	b.eq	L(48_32)
	b	L(48_21)
L(48_29):
	mov	x16, xzr
L(48_30):
	add	x14, x16, x1
	sub	x12, x12, #16
	sub	x15, x12, x14, lsl #3
	sub	x16, x12, x16, lsl #3
	sub	x12, x14, x13
	add	x12, x12, #1
	add	x13, x10, x15
	add	x14, x10, x16
L(48_31):
	ldr	x15, [x13], #-8
	adds	x12, x12, #1
	str	x15, [x14], #-8
	b.lo	L(48_31)
L(48_32):
	stp	x10, x11, [x8]
	str	x9, [x8, #16]
	ret
	SIZE("std_alloc::vec::Vec::remove::<#0c35fd3905773d29>")
	.cfi_endproc

CODE(".text.std_alloc::vec::Vec::remove::<#7f26edd6ea879dba>")
	.p2align	2
	TYPE("std_alloc::vec::Vec::remove::<#7f26edd6ea879dba>", function)
"std_alloc::vec::Vec::remove::<#7f26edd6ea879dba>":
	.cfi_startproc
	add	x8, x2, x2, lsl #1
	ldp	x9, x11, [x1]
	lsl	x14, x8, #4
	ldr	x8, [x1, #16]
	stp	xzr, xzr, [x1, #8]
	add	x12, x9, x14
	ldp	q0, q1, [x12]
	ldr	q2, [x12, #32]
	stp	q0, q1, [sp, #-48]!
	.cfi_def_cfa sp, 48
	sub	x10, x11, #1
	cmn	x2, #1
	str	q2, [sp, #32]
	sub	x15, x10, x2
	b.eq	L(49_10)
	cmp	x15, #43
	b.lo	L(49_14)
	lsl	x13, x2, #4
	sub	x14, x13, x2, lsl #6
	neg	x13, x2
	b	L(49_4)
L(49_3):
	ldr	q0, [x12, #2016]
	ldr	q1, [x12, #2032]
	ldr	q2, [x12, #2048]
	str	q0, [x12, #1968]
	str	q1, [x12, #1984]
	str	q2, [x12, #2000]
	str	q0, [x12, #1920]
	str	q1, [x12, #1936]
	str	q2, [x12, #1952]
	str	q1, [x12, #1888]
	str	q0, [x12, #1872]
	str	q2, [x12, #1904]
	str	q2, [x12, #1856]
	str	q0, [x12, #1824]
	str	q1, [x12, #1840]
	str	q1, [x12, #1792]
	ldr	q1, [x12, #2032]
	str	q0, [x12, #1776]
	ldr	q0, [x12, #2048]
	str	q2, [x12, #1808]
	ldr	q2, [x12, #2016]
	str	q0, [x12, #1760]
	str	q1, [x12, #1744]
	str	q2, [x12, #1728]
	str	q0, [x12, #1712]
	str	q1, [x12, #1696]
	str	q2, [x12, #1680]
	str	q0, [x12, #1664]
	str	q2, [x12, #1632]
	str	q1, [x12, #1648]
	str	q1, [x12, #1600]
	str	q2, [x12, #1584]
	str	q0, [x12, #1616]
	str	q1, [x12, #1552]
	ldr	q1, [x12, #2032]
	str	q2, [x12, #1536]
	ldr	q2, [x12, #2016]
	str	q0, [x12, #1568]
	ldr	q0, [x12, #2048]
	str	q1, [x12, #1504]
	str	q0, [x12, #1520]
	str	q2, [x12, #1488]
	str	q0, [x12, #1472]
	str	q1, [x12, #1456]
	str	q2, [x12, #1440]
	str	q1, [x12, #1408]
	str	q2, [x12, #1392]
	str	q0, [x12, #1424]
	str	q1, [x12, #1360]
	str	q2, [x12, #1344]
	str	q0, [x12, #1376]
	str	q1, [x12, #1312]
	ldr	q1, [x12, #2048]
	str	q2, [x12, #1296]
	ldr	q2, [x12, #2016]
	str	q0, [x12, #1328]
	ldr	q0, [x12, #2032]
	str	q1, [x12, #1280]
	str	q0, [x12, #1264]
	str	q2, [x12, #1248]
	str	q1, [x12, #1232]
	str	q0, [x12, #1216]
	str	q2, [x12, #1200]
	str	q1, [x12, #1184]
	str	q2, [x12, #1152]
	str	q0, [x12, #1168]
	str	q1, [x12, #1136]
	str	q2, [x12, #1104]
	str	q0, [x12, #1120]
	str	q1, [x12, #1088]
	ldr	q1, [x12, #2048]
	str	q2, [x12, #1056]
	ldr	q2, [x12, #2016]
	str	q0, [x12, #1072]
	ldr	q0, [x12, #2032]
	str	q1, [x12, #1040]
	ldr	q1, [x12, #2032]
	stp	q2, q0, [x12, #1008]
	ldr	q0, [x12, #2048]
	ldr	q2, [x12, #2016]
	stp	q1, q0, [x12, #976]
	ldr	q0, [x12, #2048]
	ldr	q1, [x12, #2032]
	stp	q0, q2, [x12, #944]
	ldr	q2, [x12, #2016]
	ldr	q0, [x12, #2048]
	stp	q2, q1, [x12, #912]
	ldr	q1, [x12, #2032]
	ldr	q2, [x12, #2016]
	stp	q1, q0, [x12, #880]
	ldr	q0, [x12, #2048]
	ldr	q1, [x12, #2032]
	stp	q0, q2, [x12, #848]
	ldr	q2, [x12, #2016]
	ldr	q0, [x12, #2048]
	stp	q2, q1, [x12, #816]
	ldr	q1, [x12, #2032]
	ldr	q2, [x12, #2016]
	stp	q1, q0, [x12, #784]
	ldr	q0, [x12, #2048]
	ldr	q1, [x12, #2032]
	stp	q0, q2, [x12, #752]
	ldr	q2, [x12, #2016]
	ldr	q0, [x12, #2048]
	stp	q2, q1, [x12, #720]
	ldr	q1, [x12, #2032]
	ldr	q2, [x12, #2016]
	stp	q1, q0, [x12, #688]
	ldr	q0, [x12, #2048]
	ldr	q1, [x12, #2032]
	stp	q0, q2, [x12, #656]
	ldr	q2, [x12, #2016]
	ldr	q0, [x12, #2048]
	stp	q2, q1, [x12, #624]
	ldr	q1, [x12, #2032]
	ldr	q2, [x12, #2016]
	stp	q1, q0, [x12, #592]
	ldr	q0, [x12, #2048]
	ldr	q1, [x12, #2032]
	stp	q0, q2, [x12, #560]
	ldr	q2, [x12, #2016]
	ldr	q0, [x12, #2048]
	stp	q2, q1, [x12, #528]
	ldr	q1, [x12, #2032]
	ldr	q2, [x12, #2016]
	stp	q1, q0, [x12, #496]
	ldr	q0, [x12, #2048]
	ldr	q1, [x12, #2032]
	stp	q0, q2, [x12, #464]
	ldr	q2, [x12, #2016]
	ldr	q0, [x12, #2048]
	stp	q2, q1, [x12, #432]
	ldr	q1, [x12, #2032]
	ldr	q2, [x12, #2016]
	stp	q1, q0, [x12, #400]
	ldr	q0, [x12, #2048]
	ldr	q1, [x12, #2032]
	stp	q0, q2, [x12, #368]
	ldr	q2, [x12, #2016]
	ldr	q0, [x12, #2048]
	stp	q2, q1, [x12, #336]
	ldr	q1, [x12, #2032]
	ldr	q2, [x12, #2016]
	stp	q1, q0, [x12, #304]
	ldr	q0, [x12, #2048]
	ldr	q1, [x12, #2032]
	stp	q0, q2, [x12, #272]
	ldr	q2, [x12, #2016]
	ldr	q0, [x12, #2048]
	stp	q2, q1, [x12, #240]
	ldr	q1, [x12, #2032]
	ldr	q2, [x12, #2016]
	stp	q1, q0, [x12, #208]
	ldr	q0, [x12, #2048]
	ldr	q1, [x12, #2032]
	stp	q0, q2, [x12, #176]
	ldr	q2, [x12, #2016]
	ldr	q0, [x12, #2048]
	stp	q2, q1, [x12, #144]
	ldr	q1, [x12, #2032]
	ldr	q2, [x12, #2016]
	stp	q1, q0, [x12, #112]
	ldr	q0, [x12, #2048]
	ldr	q1, [x12, #2032]
	stp	q0, q2, [x12, #80]
	ldr	q2, [x12, #2016]
	ldr	q0, [x12, #2048]
	stp	q2, q1, [x12, #48]
	ldr	q1, [x12, #2032]
	ldr	q2, [x12, #2016]
	stp	q1, q0, [x12, #16]
	str	q2, [x12]
	sub	x13, x13, #42
	sub	x14, x14, #2016
	add	x12, x12, #2016
	add	x15, x10, x13
	cmp	x15, #42
	b.ls	L(49_6)
L(49_4):
	cmp	x13, #1
	b.eq	L(49_3)
	ldp	q0, q1, [x12, #48]
	stp	q0, q1, [x12]
	ldp	q0, q2, [x12, #80]
	stp	q0, q2, [x12, #32]
	ldp	q1, q0, [x12, #112]
	stp	q1, q0, [x12, #64]
	ldp	q2, q0, [x12, #144]
	ldp	q1, q3, [x12, #176]
	stp	q2, q0, [x12, #96]
	ldp	q2, q0, [x12, #208]
	stp	q1, q3, [x12, #128]
	stp	q2, q0, [x12, #160]
	ldp	q1, q0, [x12, #240]
	stp	q1, q0, [x12, #192]
	ldp	q2, q0, [x12, #304]
	ldp	q1, q3, [x12, #272]
	stp	q2, q0, [x12, #256]
	ldr	q2, [x12, #336]
	stp	q1, q3, [x12, #224]
	ldp	q1, q0, [x12, #352]
	str	q2, [x12, #288]
	stp	q1, q0, [x12, #304]
	ldp	q3, q1, [x12, #384]
	ldr	q0, [x12, #416]
	stp	q1, q0, [x12, #352]
	ldp	q1, q0, [x12, #432]
	str	q3, [x12, #336]
	stp	q1, q0, [x12, #384]
	ldp	q2, q0, [x12, #496]
	ldp	q1, q3, [x12, #464]
	stp	q2, q0, [x12, #448]
	ldr	q2, [x12, #528]
	stp	q1, q3, [x12, #416]
	ldp	q1, q0, [x12, #544]
	str	q2, [x12, #480]
	stp	q1, q0, [x12, #496]
	ldp	q3, q1, [x12, #576]
	ldr	q0, [x12, #608]
	stp	q1, q0, [x12, #544]
	ldp	q1, q0, [x12, #624]
	str	q3, [x12, #528]
	stp	q1, q0, [x12, #576]
	ldp	q2, q0, [x12, #688]
	ldp	q1, q3, [x12, #656]
	stp	q2, q0, [x12, #640]
	ldr	q2, [x12, #720]
	stp	q1, q3, [x12, #608]
	ldp	q1, q0, [x12, #736]
	str	q2, [x12, #672]
	stp	q1, q0, [x12, #688]
	ldp	q3, q1, [x12, #768]
	ldr	q0, [x12, #800]
	stp	q1, q0, [x12, #736]
	ldp	q1, q0, [x12, #816]
	str	q3, [x12, #720]
	stp	q1, q0, [x12, #768]
	ldp	q2, q0, [x12, #880]
	ldp	q1, q3, [x12, #848]
	stp	q2, q0, [x12, #832]
	ldr	q2, [x12, #912]
	stp	q1, q3, [x12, #800]
	ldp	q1, q0, [x12, #928]
	str	q2, [x12, #864]
	ldr	q2, [x12, #1088]
	stp	q1, q0, [x12, #880]
	ldp	q3, q1, [x12, #960]
	ldr	q0, [x12, #992]
	stp	q1, q0, [x12, #928]
	ldp	q1, q0, [x12, #1008]
	str	q3, [x12, #912]
	stp	q1, q0, [x12, #960]
	ldr	q0, [x12, #1072]
	ldr	q1, [x12, #1040]
	str	q2, [x12, #1040]
	ldr	q2, [x12, #1056]
	str	q1, [x12, #992]
	ldr	q1, [x12, #1120]
	stp	q2, q0, [x12, #1008]
	ldr	q0, [x12, #1136]
	ldr	q2, [x12, #1104]
	str	q1, [x12, #1072]
	ldr	q1, [x12, #1168]
	str	q0, [x12, #1088]
	ldr	q0, [x12, #1184]
	str	q2, [x12, #1056]
	ldr	q2, [x12, #1152]
	str	q0, [x12, #1136]
	ldr	q0, [x12, #1232]
	str	q1, [x12, #1120]
	ldr	q1, [x12, #1216]
	str	q2, [x12, #1104]
	ldr	q2, [x12, #1200]
	str	q0, [x12, #1184]
	ldr	q0, [x12, #1280]
	str	q1, [x12, #1168]
	ldr	q1, [x12, #1264]
	str	q2, [x12, #1152]
	ldr	q2, [x12, #1248]
	str	q0, [x12, #1232]
	ldr	q0, [x12, #1328]
	str	q1, [x12, #1216]
	ldr	q1, [x12, #1312]
	str	q2, [x12, #1200]
	ldr	q2, [x12, #1296]
	str	q0, [x12, #1280]
	ldr	q0, [x12, #1376]
	str	q1, [x12, #1264]
	ldr	q1, [x12, #1360]
	str	q2, [x12, #1248]
	ldr	q2, [x12, #1344]
	str	q0, [x12, #1328]
	ldr	q0, [x12, #1424]
	str	q1, [x12, #1312]
	ldr	q1, [x12, #1408]
	str	q2, [x12, #1296]
	ldr	q2, [x12, #1392]
	str	q0, [x12, #1376]
	ldr	q0, [x12, #1472]
	str	q1, [x12, #1360]
	ldr	q1, [x12, #1456]
	str	q2, [x12, #1344]
	ldr	q2, [x12, #1440]
	str	q0, [x12, #1424]
	ldr	q0, [x12, #1520]
	str	q1, [x12, #1408]
	ldr	q1, [x12, #1504]
	str	q2, [x12, #1392]
	ldr	q2, [x12, #1488]
	str	q0, [x12, #1472]
	ldr	q0, [x12, #1568]
	str	q1, [x12, #1456]
	ldr	q1, [x12, #1552]
	str	q2, [x12, #1440]
	ldr	q2, [x12, #1536]
	str	q0, [x12, #1520]
	ldr	q0, [x12, #1616]
	str	q1, [x12, #1504]
	ldr	q1, [x12, #1600]
	str	q2, [x12, #1488]
	ldr	q2, [x12, #1584]
	str	q0, [x12, #1568]
	ldr	q0, [x12, #1664]
	str	q1, [x12, #1552]
	ldr	q1, [x12, #1648]
	str	q2, [x12, #1536]
	ldr	q2, [x12, #1632]
	str	q0, [x12, #1616]
	ldr	q0, [x12, #1712]
	str	q1, [x12, #1600]
	ldr	q1, [x12, #1696]
	str	q2, [x12, #1584]
	ldr	q2, [x12, #1680]
	str	q0, [x12, #1664]
	ldr	q0, [x12, #1760]
	str	q1, [x12, #1648]
	ldr	q1, [x12, #1744]
	str	q2, [x12, #1632]
	ldr	q2, [x12, #1728]
	str	q0, [x12, #1712]
	ldr	q0, [x12, #1808]
	str	q1, [x12, #1696]
	ldr	q1, [x12, #1792]
	str	q2, [x12, #1680]
	ldr	q2, [x12, #1776]
	str	q0, [x12, #1760]
	ldr	q0, [x12, #1856]
	str	q1, [x12, #1744]
	ldr	q1, [x12, #1840]
	str	q2, [x12, #1728]
	ldr	q2, [x12, #1824]
	str	q0, [x12, #1808]
	ldr	q0, [x12, #1904]
	str	q1, [x12, #1792]
	ldr	q1, [x12, #1888]
	str	q2, [x12, #1776]
	ldr	q2, [x12, #1872]
	str	q0, [x12, #1856]
	ldr	q0, [x12, #1952]
	str	q1, [x12, #1840]
	ldr	q1, [x12, #1936]
	str	q2, [x12, #1824]
	ldr	q2, [x12, #1920]
	str	q0, [x12, #1904]
	ldr	q0, [x12, #2000]
	str	q1, [x12, #1888]
	ldr	q1, [x12, #1984]
	str	q2, [x12, #1872]
	ldr	q2, [x12, #1968]
	str	q0, [x12, #1952]
	ldr	q0, [x12, #2048]
	str	q1, [x12, #1936]
	ldr	q1, [x12, #2032]
	str	q2, [x12, #1920]
	ldr	q2, [x12, #2016]
	str	q0, [x12, #2000]
	str	q1, [x12, #1984]
	str	q2, [x12, #1968]
	sub	x13, x13, #42
	sub	x14, x14, #2016
	add	x12, x12, #2016
	add	x15, x10, x13
	cmp	x15, #42
	b.hi	L(49_4)
L(49_6):
	cmp	x13, #1
	b.ne	L(49_13)
	cbz	x11, L(49_17)
	mov	w12, #48
	madd	x11, x11, x12, x9
	sub	x11, x11, #48
L(49_9):
	ldp	q0, q1, [x11]
	sub	x12, x11, #48
	ldr	q2, [x11, #32]
	subs	x15, x15, #1
	stp	q0, q1, [x11, #-48]
	stur	q2, [x11, #-16]
	mov	x11, x12
	b.ne	L(49_9)
	b	L(49_17)
L(49_10):
	cbz	x11, L(49_17)
	mov	w12, #48
	madd	x12, x11, x12, x9
	lsl	x11, x2, #4
	sub	x11, x11, x2, lsl #6
	sub	x12, x12, #96
L(49_12):
	add	x13, x12, x11
	sub	x15, x15, #1
	ldp	q1, q0, [x13, #16]
	ldr	q2, [x13]
	stp	q1, q0, [x12, #16]
	str	q2, [x12], #-48
	cbnz	x15, L(49_12)
	b	L(49_17)
L(49_13):
	neg	x14, x14
	neg	x2, x13
L(49_14):
	cmp	x10, x2
	b.eq	L(49_17)
	add	x11, x9, x14
L(49_16):
	ldp	q0, q1, [x11, #48]
	add	x12, x11, #48
	ldr	q2, [x11, #80]
	subs	x15, x15, #1
	stp	q0, q1, [x11]
	str	q2, [x11, #32]
	mov	x11, x12
	b.ne	L(49_16)
L(49_17):
	ldp	q0, q1, [sp]
	ldr	q2, [sp, #32]
	stp	x9, x10, [x1]
	str	x8, [x1, #16]
	stp	q0, q1, [x0]
	str	q2, [x0, #32]
	add	sp, sp, #48
	.cfi_def_cfa sp, 0
	ret
	SIZE("std_alloc::vec::Vec::remove::<#7f26edd6ea879dba>")
	.cfi_endproc

CODE(".text.std_collections::btree::node::Node::take_at::<#1aacfcd96822f18e>")
	.p2align	2
	TYPE("std_collections::btree::node::Node::take_at::<#1aacfcd96822f18e>", function)
"std_collections::btree::node::Node::take_at::<#1aacfcd96822f18e>":
	.cfi_startproc
	hint	#25
	.cfi_escape 0x2d
	sub	sp, sp, #320
	.cfi_def_cfa sp, 320
	stp	x22, x21, [sp, #288]
	.cfi_offset x21, -24
	.cfi_offset x22, -32
	ldrb	w21, [x2], #1
	ldr	x8, [x1]
	stp	x20, x19, [sp, #304]
	.cfi_offset x19, -8
	.cfi_offset x20, -16
	mov	x20, x1
	subs	x3, x3, #1
	mov	x19, x0
	stp	x29, x30, [sp, #240]
	.cfi_offset x29, -80
	.cfi_offset x30, -72
	str	x28, [sp, #256]
	.cfi_offset x28, -64
	add	x29, sp, #240
	.cfi_def_cfa x29, 80
	stp	x24, x23, [sp, #272]
	.cfi_offset x23, -40
	.cfi_offset x24, -48
	b.ne	L(50_5)
	ldrh	w9, [x8, #2]
	add	x23, sp, #112
	cbz	w9, L(50_8)
	lsl	x22, x21, #3
	add	x0, sp, #112
	add	x8, x8, x22
	add	x1, x8, #848
	bl	"std_collections::btree::node::Node::pop_last::<#1aacfcd96822f18e>"
	mov	w8, #48
	ldr	x9, [x20]
	ldur	q0, [sp, #120]
	umaddl	x8, w21, w8, x9
	ldur	q1, [x23, #24]
	ldr	x10, [sp, #112]
	ldp	q2, q3, [x8, #128]
	stp	q0, q1, [x8, #128]
	ldur	q0, [x23, #40]
	ldr	q1, [x8, #160]
	str	q0, [x8, #160]
	add	x8, x9, x22
	ldr	x22, [x8, #8]
	str	x10, [x8, #8]
	str	x9, [x20]
	ldr	x8, [x8, #848]
	stp	q2, q3, [x23, #80]
	str	q1, [x23, #112]
	ldrh	w8, [x8]
	cmp	w8, #6
	b.hi	L(50_14)
	cbz	w21, L(50_12)
	sub	x1, x21, #1
	mov	x0, x20
	b	L(50_13)
L(50_5):
	lsl	x22, x21, #3
	add	x0, sp, #8
	add	x8, x8, x22
	add	x1, x8, #848
	bl	"std_collections::btree::node::Node::take_at::<#1aacfcd96822f18e>"
	ldr	x8, [x20]
	add	x8, x8, x22
	ldr	x8, [x8, #848]
	ldrh	w8, [x8]
	cmp	w8, #6
	b.hi	L(50_11)
	cbz	w21, L(50_9)
	sub	x1, x21, #1
	mov	x0, x20
	b	L(50_10)
L(50_8):
	mov	x10, x8
	movi	v0.2d, #0000000000000000
	mov	w9, #15
	ldrh	w12, [x10], #8
	add	x11, x8, #128
	add	x0, sp, #112
	mov	x1, x21
	stp	x9, x11, [sp, #128]
	stp	x10, x12, [sp, #112]
	add	x10, x8, #848
	add	x24, sp, #112
	stp	x12, x9, [sp, #144]
	stp	x10, xzr, [sp, #160]
	stp	xzr, x8, [sp, #176]
	stp	q0, q0, [x23, #80]
	str	q0, [x23, #112]
	bl	"std_alloc::vec::Vec::remove::<#0c35fd3905773d29>"
	mov	x22, x0
	sub	x0, x29, #48
	add	x1, x24, #24
	mov	x2, x21
	bl	"std_alloc::vec::Vec::remove::<#7f26edd6ea879dba>"
	ldp	q1, q0, [x23, #96]
	ldr	x8, [sp, #120]
	ldr	x9, [sp, #184]
	ldr	q2, [x23, #80]
	strh	w8, [x9]
	str	x9, [x20]
	stp	q1, q0, [sp, #80]
	str	q2, [sp, #64]
	str	x22, [x19]
	stur	q2, [x19, #8]
	stur	q1, [x19, #24]
	stur	q0, [x19, #40]
	b	L(50_16)
L(50_9):
	mov	x0, x20
	mov	x1, xzr
L(50_10):
	bl	"std_collections::btree::node::Node::balance::<#1aacfcd96822f18e>"
L(50_11):
	ldp	q0, q1, [sp, #16]
	ldr	x8, [sp, #8]
	ldur	q2, [sp, #48]
	str	x8, [x19]
	b	L(50_15)
L(50_12):
	mov	x0, x20
	mov	x1, xzr
L(50_13):
	bl	"std_collections::btree::node::Node::balance::<#1aacfcd96822f18e>"
L(50_14):
	ldp	q0, q1, [x23, #80]
	ldr	q2, [x23, #112]
	str	x22, [x19]
	str	q2, [sp, #96]
	stp	q0, q1, [sp, #64]
L(50_15):
	stur	q0, [x19, #8]
	stur	q1, [x19, #24]
	stur	q2, [x19, #40]
L(50_16):
	ldp	x20, x19, [sp, #304]
	.cfi_remember_state
	.cfi_restore x19
	.cfi_restore x20
	ldr	x28, [sp, #256]
	.cfi_restore x28
	ldp	x22, x21, [sp, #288]
	.cfi_restore x21
	.cfi_restore x22
	ldp	x24, x23, [sp, #272]
	.cfi_restore x23
	.cfi_restore x24
	ldp	x29, x30, [sp, #240]
	.cfi_def_cfa sp, 320
	.cfi_restore x29
	.cfi_restore x30
	add	sp, sp, #320
	.cfi_def_cfa sp, 0
	hint	#29
	.cfi_escape 0x2d
	ret
	SIZE("std_collections::btree::node::Node::take_at::<#1aacfcd96822f18e>")
	.cfi_endproc

CODE(".text.std_collections::btree::node::Node::pop_last::<#1aacfcd96822f18e>")
	.p2align	2
	TYPE("std_collections::btree::node::Node::pop_last::<#1aacfcd96822f18e>", function)
"std_collections::btree::node::Node::pop_last::<#1aacfcd96822f18e>":
	.cfi_startproc
	hint	#25
	.cfi_escape 0x2d
	sub	sp, sp, #320
	.cfi_def_cfa sp, 320
	ldr	x8, [x1]
	stp	x22, x21, [sp, #288]
	.cfi_offset x21, -24
	.cfi_offset x22, -32
	stp	x20, x19, [sp, #304]
	.cfi_offset x19, -8
	.cfi_offset x20, -16
	mov	x20, x1
	mov	x19, x0
	ldrh	w9, [x8, #2]
	ldrh	w21, [x8]
	stp	x29, x30, [sp, #240]
	.cfi_offset x29, -80
	.cfi_offset x30, -72
	str	x28, [sp, #256]
	.cfi_offset x28, -64
	add	x29, sp, #240
	.cfi_def_cfa x29, 80
	stp	x24, x23, [sp, #272]
	.cfi_offset x23, -40
	.cfi_offset x24, -48
	cbz	w9, L(51_4)
	lsl	x22, x21, #3
	add	x0, sp, #8
	add	x8, x8, x22
	add	x1, x8, #848
	bl	"std_collections::btree::node::Node::pop_last::<#1aacfcd96822f18e>"
	ldr	x8, [x20]
	add	x8, x8, x22
	ldr	x8, [x8, #848]
	ldrh	w8, [x8]
	cmp	w8, #6
	b.hi	L(51_7)
	cbz	w21, L(51_5)
	sub	x1, x21, #1
	mov	x0, x20
	b	L(51_6)
L(51_4):
	add	x9, x8, #8
	movi	v0.2d, #0000000000000000
	add	x10, x8, #128
	stp	x9, x21, [sp, #112]
	mov	w9, #15
	sub	x23, x29, #48
	stp	x21, x9, [sp, #144]
	sub	x21, x21, #1
	add	x0, sp, #112
	stp	x9, x10, [sp, #128]
	add	x9, x8, #848
	mov	x1, x21
	stp	xzr, xzr, [sp, #168]
	add	x24, sp, #112
	str	x9, [sp, #160]
	str	x8, [sp, #184]
	stp	q0, q0, [x23]
	str	q0, [x23, #32]
	bl	"std_alloc::vec::Vec::remove::<#0c35fd3905773d29>"
	mov	x22, x0
	sub	x0, x29, #48
	add	x1, x24, #24
	mov	x2, x21
	bl	"std_alloc::vec::Vec::remove::<#7f26edd6ea879dba>"
	ldp	q1, q0, [x23, #16]
	ldr	x8, [sp, #120]
	ldr	x9, [sp, #184]
	ldr	q2, [x23]
	strh	w8, [x9]
	str	x9, [x20]
	stp	q1, q0, [sp, #80]
	str	q2, [sp, #64]
	str	x22, [x19]
	stur	q2, [x19, #8]
	stur	q1, [x19, #24]
	stur	q0, [x19, #40]
	b	L(51_8)
L(51_5):
	mov	x0, x20
	mov	x1, xzr
L(51_6):
	bl	"std_collections::btree::node::Node::balance::<#1aacfcd96822f18e>"
L(51_7):
	ldp	q0, q1, [sp, #16]
	ldr	x8, [sp, #8]
	ldur	q2, [sp, #48]
	str	x8, [x19]
	stur	q0, [x19, #8]
	stur	q1, [x19, #24]
	stur	q2, [x19, #40]
L(51_8):
	ldp	x20, x19, [sp, #304]
	.cfi_remember_state
	.cfi_restore x19
	.cfi_restore x20
	ldr	x28, [sp, #256]
	.cfi_restore x28
	ldp	x22, x21, [sp, #288]
	.cfi_restore x21
	.cfi_restore x22
	ldp	x24, x23, [sp, #272]
	.cfi_restore x23
	.cfi_restore x24
	ldp	x29, x30, [sp, #240]
	.cfi_def_cfa sp, 320
	.cfi_restore x29
	.cfi_restore x30
	add	sp, sp, #320
	.cfi_def_cfa sp, 0
	hint	#29
	.cfi_escape 0x2d
	ret
	SIZE("std_collections::btree::node::Node::pop_last::<#1aacfcd96822f18e>")
	.cfi_endproc

CODE(".text.std_collections::btree::node::Node::balance::<#1aacfcd96822f18e>")
	.p2align	2
	TYPE("std_collections::btree::node::Node::balance::<#1aacfcd96822f18e>", function)
"std_collections::btree::node::Node::balance::<#1aacfcd96822f18e>":
	.cfi_startproc
	hint	#25
	.cfi_escape 0x2d
	sub	sp, sp, #368
	.cfi_def_cfa sp, 368
	stp	x22, x21, [sp, #336]
	.cfi_offset x21, -24
	.cfi_offset x22, -32
	ldr	x21, [x0]
	stp	x24, x23, [sp, #320]
	.cfi_offset x23, -40
	.cfi_offset x24, -48
	lsl	x24, x1, #3
	add	x10, x21, #848
	ldrh	w22, [x21]
	stp	x20, x19, [sp, #352]
	.cfi_offset x19, -8
	.cfi_offset x20, -16
	add	x23, x10, x24
	mov	x20, x1
	stp	x29, x30, [sp, #272]
	.cfi_offset x29, -96
	.cfi_offset x30, -88
	ldp	x9, x8, [x23]
	stp	x28, x27, [sp, #288]
	.cfi_offset x27, -72
	.cfi_offset x28, -80
	stp	x26, x25, [sp, #304]
	.cfi_offset x25, -56
	.cfi_offset x26, -64
	add	x29, sp, #272
	.cfi_def_cfa x29, 96
	ldrh	w14, [x9]
	ldrh	w13, [x8]
	add	x11, x13, x14
	cmp	x11, #15
	b.hs	L(52_7)
	add	x8, x21, #8
	ldrh	w9, [x21, #2]
	movi	v0.2d, #0000000000000000
	stp	x8, x22, [sp, #80]
	mov	w8, #15
	add	x11, x21, #128
	stp	x8, x11, [sp, #96]
	cmp	w9, #0
	mov	x1, x20
	stp	x22, x8, [sp, #112]
	mov	w8, #16
	csinc	x9, xzr, x22, eq
	str	x0, [sp, #24]
	csel	x8, xzr, x8, eq
	add	x0, sp, #80
	stp	x10, x9, [sp, #128]
	add	x19, sp, #80
	stp	x8, x21, [sp, #144]
	stp	q0, q0, [x29, #-64]
	stur	q0, [x29, #-32]
	bl	"std_alloc::vec::Vec::remove::<#0c35fd3905773d29>"
	mov	x22, x0
	sub	x0, x29, #64
	add	x1, x19, #24
	mov	x2, x20
	bl	"std_alloc::vec::Vec::remove::<#7f26edd6ea879dba>"
	add	x0, x19, #48
	add	x1, x20, #1
	bl	"std_alloc::vec::Vec::remove::<#bb3624bd71ef2d03>"
	ldr	x8, [sp, #128]
	ldrh	w27, [x0]
	mov	x21, x0
	ldp	q0, q1, [x29, #-64]
	add	x19, x0, #128
	ldr	x25, [x8, x20, lsl #3]
	str	x8, [sp, #16]
	mov	w8, #48
	ldrh	w10, [x0, #2]
	lsl	x20, x27, #3
	ldrh	w28, [x25]
	add	x12, x25, #128
	add	x9, x25, #8
	str	w10, [sp, #12]
	add	x10, x0, #8
	add	x26, x28, #1
	umaddl	x8, w28, w8, x12
	str	x22, [x9, x28, lsl #3]
	lsl	x23, x26, #3
	ldrh	w22, [x25, #2]
	add	x0, x9, x23
	stp	q0, q1, [x8]
	ldur	q0, [x29, #-32]
	sub	x10, x0, x10
	cmp	x10, x20
	str	q0, [x8, #32]
	b.hs	L(52_27)
	cmp	w27, #8
	b.lo	L(52_4)
	lsl	x8, x28, #3
	add	x10, x8, x25
	sub	x8, x10, x21
	add	x8, x8, #8
	cmp	x8, #32
	b.hs	L(52_63)
L(52_4):
	mov	x8, xzr
L(52_5):
	lsl	x9, x8, #3
	sub	x8, x27, x8
	add	x10, x9, x28, lsl #3
	add	x9, x9, x21
	add	x9, x9, #8
	add	x10, x10, x25
	add	x10, x10, #16
L(52_6):
	ldr	x11, [x9], #8
	subs	x8, x8, #1
	str	x11, [x10], #8
	b.ne	L(52_6)
	b	L(52_28)
L(52_7):
	cmp	w14, w13
	b.hs	L(52_32)
	ldrh	w24, [x8, #2]
	add	x9, x8, #128
	add	x10, x8, #848
	stp	x9, x13, [sp, #104]
	mov	w9, #15
	mov	w14, #16
	cmp	w24, #0
	movi	v0.2d, #0000000000000000
	stp	x9, x10, [sp, #120]
	csinc	x9, xzr, x13, eq
	csel	x10, xzr, x14, eq
	mov	x11, xzr
	stp	x9, x10, [sp, #136]
	mov	x9, x8
	sub	x10, x13, #1
	ldr	x25, [x9, #8]!
	mov	x12, xzr
	cmp	w13, #258
	mov	x14, x9
	mov	x13, x10
	stp	q0, q0, [x29, #-112]
	stur	q0, [x29, #-80]
	stp	q0, q0, [sp, #32]
	str	q0, [sp, #64]
	str	x8, [sp, #152]
	stp	q0, q0, [x29, #-64]
	stur	q0, [x29, #-32]
	b.lo	L(52_14)
	mov	x12, xzr
	add	x11, x8, #16
L(52_10):
	mov	w13, #256
	mov	x14, x11
L(52_11):
	ldp	q0, q1, [x14]
	subs	x13, x13, #4
	stur	q0, [x14, #-8]
	stur	q1, [x14, #8]
	add	x14, x14, #32
	b.ne	L(52_11)
	add	x12, x12, #256
	add	x11, x11, #2048
	sub	x13, x10, x12
	cmp	x13, #256
	b.hi	L(52_10)
	lsl	x11, x12, #3
	add	x14, x9, x11
L(52_14):
	cmp	x10, x12
	add	x12, sp, #80
	b.eq	L(52_20)
	cmp	x13, #6
	b.lo	L(52_17)
	add	x17, x11, x8
	sub	x15, x17, x14
	cmp	x15, #32
	b.hs	L(52_66)
L(52_17):
	mov	x15, xzr
L(52_18):
	lsl	x16, x15, #3
	add	x8, x11, x8
	add	x11, x16, x14
	add	x14, x8, x16
	sub	x8, x13, x15
	add	x11, x11, #8
	add	x13, x14, #8
L(52_19):
	ldr	x14, [x11], #8
	subs	x8, x8, #1
	str	x14, [x13], #8
	b.ne	L(52_19)
L(52_20):
	mov	x19, x0
	mov	w8, #15
	sub	x0, x29, #64
	add	x1, x12, #24
	mov	x2, xzr
	stp	x9, x10, [sp, #80]
	add	x27, x21, #128
	add	x26, x21, #8
	str	x8, [sp, #96]
	bl	"std_alloc::vec::Vec::remove::<#7f26edd6ea879dba>"
	cbz	w24, L(52_44)
	ldp	x9, x8, [sp, #128]
	mov	x17, x19
	sub	x13, x8, #1
	ldr	x8, [x9]
	cmp	x13, #257
	b.lo	L(52_53)
	mov	x14, xzr
	add	x11, x9, #16
L(52_23):
	mov	w10, #256
	mov	x12, x11
L(52_24):
	ldur	q0, [x12, #-8]
	ldur	q1, [x12, #8]
	subs	x10, x10, #4
	stp	q0, q1, [x12, #-16]
	add	x12, x12, #32
	b.ne	L(52_24)
	add	x14, x14, #256
	add	x11, x11, #2048
	sub	x10, x13, x14
	cmp	x10, #256
	b.hi	L(52_23)
	lsl	x11, x14, #3
	add	x12, x9, x11
	cmp	x13, x14
	b.ne	L(52_54)
	b	L(52_59)
L(52_27):
	add	x1, x21, #8
	mov	x2, x20
	bl	C(memmove)
	add	x12, x25, #128
L(52_28):
	mov	w8, #48
	umaddl	x0, w26, w8, x12
	add	x8, x27, x27, lsl #1
	lsl	x2, x8, #4
	sub	x8, x0, x19
	cmp	x8, x2
	b.hs	L(52_34)
	mov	x8, x27
L(52_30):
	ldp	q1, q0, [x19, #16]
	subs	x8, x8, #1
	ldr	q2, [x19], #48
	stp	q1, q0, [x0, #16]
	str	q2, [x0], #48
	b.ne	L(52_30)
	ldr	x19, [sp, #24]
	cbnz	w22, L(52_35)
	b	L(52_43)
L(52_32):
	sub	x11, x14, #1
	ldrh	w24, [x9, #2]
	mov	x19, x0
	add	x8, x9, x11, lsl #3
	add	x12, x21, #128
	add	x10, x21, #8
	ldr	x8, [x8, #8]
	cbz	w24, L(52_45)
	add	x13, x9, x14, lsl #3
	ldr	x13, [x13, #848]
	str	x13, [sp, #24]
	b	L(52_46)
L(52_34):
	add	x1, x21, #128
	bl	C(memmove)
	ldr	x19, [sp, #24]
	cbz	w22, L(52_43)
L(52_35):
	ldr	w10, [sp, #12]
	add	x9, x25, #848
	add	x8, x21, #848
	add	x0, x9, x23
	add	x9, x20, #8
	cmp	w10, #0
	sub	x8, x0, x8
	csel	x2, xzr, x9, eq
	cmp	x8, x2
	b.hs	L(52_42)
	cbz	w10, L(52_43)
	cmp	w27, #7
	b.lo	L(52_39)
	lsl	x8, x28, #3
	add	x11, x8, x25
	sub	x8, x11, x21
	add	x8, x8, #8
	cmp	x8, #32
	b.hs	L(52_69)
L(52_39):
	mov	x8, xzr
L(52_40):
	lsl	x9, x8, #3
	sub	x8, x27, x8
	add	x8, x8, #1
	add	x10, x9, x28, lsl #3
	add	x9, x9, x21
	add	x9, x9, #848
	add	x10, x10, x25
	add	x10, x10, #856
L(52_41):
	ldr	x11, [x9], #8
	subs	x8, x8, #1
	str	x11, [x10], #8
	b.ne	L(52_41)
	b	L(52_43)
L(52_42):
	add	x1, x21, #848
	bl	C(memmove)
L(52_43):
	mov	x0, x21
	bl	C(yurewha_heap_dealloc)
	add	w8, w27, w26
	ldr	x9, [sp, #88]
	ldr	x10, [sp, #152]
	strh	w8, [x25]
	ldr	x8, [sp, #16]
	str	x25, [x8, x24]
	strh	w9, [x10]
	str	x10, [x19]
	b	L(52_62)
L(52_44):
	mov	x8, xzr
	mov	x17, x19
	b	L(52_59)
L(52_45):
	str	xzr, [sp, #24]
L(52_46):
	mov	w13, #48
	strh	w11, [x9]
	smaddl	x14, w11, w13, x9
	ldr	x26, [x10, x20, lsl #3]
	madd	x12, x20, x13, x12
	ldp	q0, q1, [x14, #128]
	ldr	q2, [x14, #160]
	str	x9, [x23]
	str	x8, [x10, x20, lsl #3]
	ldp	q3, q4, [x12]
	stp	q0, q1, [x12]
	ldr	q5, [x12, #32]
	str	q2, [x12, #32]
	ldr	x20, [x23, #8]
	stp	q0, q1, [x29, #-64]
	stur	q2, [x29, #-32]
	ldrh	w28, [x20]
	ldrh	w27, [x20, #2]
	stp	q3, q4, [x29, #-112]
	stur	q5, [x29, #-80]
	add	x25, x28, #1
	cbz	x28, L(52_48)
	lsl	x2, x28, #3
	add	x0, x20, #16
	add	x1, x20, #8
	bl	C(memmove)
	add	x8, x28, x28, lsl #1
	ldp	q0, q1, [x29, #-112]
	ldur	q2, [x29, #-80]
	add	x0, x20, #176
	add	x1, x20, #128
	lsl	x2, x8, #4
	stp	q0, q1, [sp, #80]
	str	q2, [sp, #112]
	bl	C(memmove)
	ldp	q0, q1, [sp, #80]
	ldr	q2, [sp, #112]
	stur	x26, [x20, #8]
	stur	q2, [x20, #160]
	stp	q0, q1, [x20, #128]
	cbnz	w24, L(52_49)
	b	L(52_52)
L(52_48):
	ldp	q0, q1, [x29, #-112]
	ldur	q2, [x29, #-80]
	str	q2, [sp, #112]
	stp	q0, q1, [sp, #80]
	ldp	q0, q1, [sp, #80]
	ldr	q2, [sp, #112]
	stur	x26, [x20, #8]
	stur	q2, [x20, #160]
	stp	q0, q1, [x20, #128]
	cbz	w24, L(52_52)
L(52_49):
	add	x24, x20, #848
	cbz	w27, L(52_51)
	lsl	x2, x25, #3
	add	x0, x20, #856
	add	x1, x20, #848
	bl	C(memmove)
L(52_51):
	ldr	x8, [sp, #24]
	str	x8, [x24]
L(52_52):
	strh	w25, [x20]
	str	x20, [x23, #8]
	strh	w22, [x21]
	str	x21, [x19]
	b	L(52_62)
L(52_53):
	mov	x11, xzr
	mov	x12, x9
	mov	x10, x13
	cmp	x13, xzr
	b.eq	L(52_59)
L(52_54):
	cmp	x10, #6
	b.lo	L(52_56)
	add	x15, x11, x9
	sub	x13, x15, x12
	sub	x13, x13, #8
	cmp	x13, #32
	b.hs	L(52_72)
L(52_56):
	mov	x13, xzr
L(52_57):
	lsl	x14, x13, #3
	add	x11, x9, x11
	sub	x9, x10, x13
	add	x12, x14, x12
	add	x11, x11, x14
	add	x10, x12, #8
L(52_58):
	ldr	x12, [x10], #8
	subs	x9, x9, #1
	str	x12, [x11], #8
	b.ne	L(52_58)
L(52_59):
	ldp	q0, q1, [x29, #-64]
	mov	w11, #48
	ldr	x9, [sp, #88]
	ldr	x10, [sp, #152]
	strh	w9, [x10]
	madd	x9, x20, x11, x27
	stp	q0, q1, [x29, #-112]
	ldur	q0, [x29, #-32]
	str	x10, [x23, #8]
	ldr	x10, [x26, x20, lsl #3]
	stur	q0, [x29, #-80]
	ldp	q1, q0, [x29, #-112]
	ldur	q4, [x29, #-80]
	str	x25, [x26, x20, lsl #3]
	ldp	q2, q3, [x9]
	stp	q1, q0, [x9]
	ldr	q0, [x9, #32]
	str	q4, [x9, #32]
	ldr	x9, [x23]
	stp	q3, q0, [sp, #48]
	ldp	q1, q0, [sp, #48]
	str	q2, [sp, #32]
	ldrh	w12, [x9]
	umaddl	x13, w12, w11, x9
	add	x11, x9, x12, lsl #3
	str	x10, [x11, #8]
	ldrh	w11, [x9, #2]
	add	x10, x12, #1
	stp	q1, q0, [x13, #144]
	ldr	q0, [sp, #32]
	str	q0, [x13, #128]
	cbz	w24, L(52_61)
	lsl	x12, x10, #3
	cmp	w11, #0
	csel	x11, xzr, x12, eq
	add	x11, x9, x11
	str	x8, [x11, #848]
L(52_61):
	strh	w10, [x9]
	str	x9, [x23]
	strh	w22, [x21]
	str	x21, [x17]
L(52_62):
	ldp	x20, x19, [sp, #352]
	.cfi_remember_state
	.cfi_restore x19
	.cfi_restore x20
	ldp	x22, x21, [sp, #336]
	.cfi_restore x21
	.cfi_restore x22
	ldp	x24, x23, [sp, #320]
	.cfi_restore x23
	.cfi_restore x24
	ldp	x26, x25, [sp, #304]
	.cfi_restore x25
	.cfi_restore x26
	ldp	x28, x27, [sp, #288]
	.cfi_restore x27
	.cfi_restore x28
	ldp	x29, x30, [sp, #272]
	.cfi_def_cfa sp, 368
	.cfi_restore x29
	.cfi_restore x30
	add	sp, sp, #368
	.cfi_def_cfa sp, 0
	hint	#29
	.cfi_escape 0x2d
	ret
L(52_63):
	.cfi_restore_state
	and	x8, x27, #0xfffc
	add	x9, x21, #24
	add	x10, x10, #32
	and	x11, x27, #0xfffc
L(52_64):
	ldp	q0, q1, [x9, #-16]
	subs	x11, x11, #4
	add	x9, x9, #32
	stp	q0, q1, [x10, #-16]
	add	x10, x10, #32
	b.ne	L(52_64)
	cmp	x8, x27
	b.eq	L(52_28)
	b	L(52_5)
L(52_66):
	mov	x1, x0
	and	x15, x13, #0xfffffffffffffffc
	add	x16, x14, #24
	add	x17, x17, #24
	and	x0, x13, #0xfffffffffffffffc
L(52_67):
	ldp	q0, q1, [x16, #-16]
	subs	x0, x0, #4
	add	x16, x16, #32
	stp	q0, q1, [x17, #-16]
	add	x17, x17, #32
	b.ne	L(52_67)
	cmp	x13, x15
	mov	x0, x1
	b.eq	L(52_20)
	b	L(52_18)
L(52_69):
	add	x9, x27, #1
	add	x10, x21, #864
	add	x11, x11, #872
	and	x8, x9, #0x1fffc
	and	x12, x9, #0x1fffc
L(52_70):
	ldp	q0, q1, [x10, #-16]
	subs	x12, x12, #4
	add	x10, x10, #32
	stp	q0, q1, [x11, #-16]
	add	x11, x11, #32
	b.ne	L(52_70)
	cmp	x9, x8
	b.eq	L(52_43)
	b	L(52_40)
L(52_72):
	and	x13, x10, #0x1fc
	add	x14, x12, #24
	add	x15, x15, #16
	and	x16, x10, #0x1fc
L(52_73):
	ldp	q0, q1, [x14, #-16]
	subs	x16, x16, #4
	add	x14, x14, #32
	stp	q0, q1, [x15, #-16]
	add	x15, x15, #32
	b.ne	L(52_73)
	cmp	x10, x13
	b.eq	L(52_59)
	b	L(52_57)
	SIZE("std_collections::btree::node::Node::balance::<#1aacfcd96822f18e>")
	.cfi_endproc

CODE(".text.std_alloc::vec::Vec::remove::<#bb3624bd71ef2d03>")
	.p2align	2
	TYPE("std_alloc::vec::Vec::remove::<#bb3624bd71ef2d03>", function)
"std_alloc::vec::Vec::remove::<#bb3624bd71ef2d03>":
	.cfi_startproc
	ldp	x10, x13, [x0]
	lsl	x15, x1, #3
	ldr	x9, [x0, #16]
	stp	xzr, xzr, [x0, #8]
	mov	x8, x0
	cmn	x1, #1
	add	x12, x10, x15
	sub	x11, x13, #1
	ldr	x0, [x12]
	sub	x14, x11, x1
	b.eq	L(53_9)
	cmp	x14, #257
	b.lo	L(53_17)
	sub	x14, x13, x1
	add	x15, x15, x10
	mov	x16, xzr
	add	x17, x12, #2048
	sub	x3, x14, #257
	add	x2, x15, #16
	b	L(53_4)
L(53_3):
	add	x1, x1, #256
	add	x16, x16, #1
	sub	x3, x15, #256
	sub	x14, x11, x1
	add	x2, x2, #2048
	add	x12, x12, #2048
	cmp	x14, #256
	b.ls	L(53_15)
L(53_4):
	cmn	x1, #1
	mov	x15, x3
	b.eq	L(53_7)
	mov	w14, #256
	mov	x3, x2
L(53_6):
	ldur	q0, [x3, #-8]
	ldur	q1, [x3, #8]
	subs	x14, x14, #4
	stp	q0, q1, [x3, #-16]
	add	x3, x3, #32
	b.ne	L(53_6)
	b	L(53_3)
L(53_7):
	lsl	x14, x16, #11
	mov	w3, #2040
	ldr	x14, [x17, x14]
L(53_8):
	str	x14, [x12, x3]
	sub	x3, x3, #8
	cmn	x3, #8
	b.ne	L(53_8)
	b	L(53_3)
L(53_9):
	cbz	x13, L(53_32)
	lsl	x12, x13, #3
	cmp	x14, #4
	b.lo	L(53_29)
	neg	x16, x1, lsl #3
	cmp	x16, #32
	mov	x16, xzr
	b.lo	L(53_30)
	sub	x17, x12, #40
	and	x16, x14, #0xfffffffffffffffc
	and	x2, x14, #0xfffffffffffffffc
	sub	x15, x17, x15
	add	x17, x10, x17
	add	x15, x10, x15
L(53_13):
	ldp	q1, q0, [x15], #-32
	sub	x2, x2, #4
	stp	q1, q0, [x17], #-32
	cbnz	x2, L(53_13)
	cmp	x14, x16
	b.ne	L(53_30)
	b	L(53_32)
L(53_15):
	cmn	x1, #1
	b.eq	L(53_23)
	lsl	x15, x1, #3
	add	x12, x10, x15
L(53_17):
	cmp	x11, x1
	b.eq	L(53_32)
	cmp	x14, #6
	b.lo	L(53_20)
	add	x17, x15, x10
	sub	x13, x17, x12
	sub	x13, x13, #8
	cmp	x13, #32
	b.hs	L(53_26)
L(53_20):
	mov	x13, xzr
L(53_21):
	lsl	x16, x13, #3
	add	x15, x10, x15
	add	x17, x16, x12
	sub	x12, x14, x13
	add	x14, x15, x16
	add	x13, x17, #8
L(53_22):
	ldr	x15, [x13], #8
	subs	x12, x12, #1
	str	x15, [x14], #8
	b.ne	L(53_22)
	b	L(53_32)
L(53_23):
	cbz	x13, L(53_32)
	add	x13, x10, x13, lsl #3
	ldur	x12, [x13, #-8]
	sub	x13, x13, #16
L(53_25):
	subs	x15, x15, #1
	str	x12, [x13], #-8
	b.ne	L(53_25)
	b	L(53_32)
L(53_26):
	and	x13, x14, #0x1fc
	add	x16, x12, #24
	add	x17, x17, #16
	and	x1, x14, #0x1fc
L(53_27):
	ldp	q0, q1, [x16, #-16]
	subs	x1, x1, #4
	add	x16, x16, #32
	stp	q0, q1, [x17, #-16]
	add	x17, x17, #32
	b.ne	L(53_27)
	cmp	x14, x13
	b.eq	L(53_32)
	b	L(53_21)
L(53_29):
	mov	x16, xzr
L(53_30):
	add	x14, x16, x1
	sub	x12, x12, #16
	sub	x15, x12, x14, lsl #3
	sub	x16, x12, x16, lsl #3
	sub	x12, x14, x13
	add	x12, x12, #1
	add	x13, x10, x15
	add	x14, x10, x16
L(53_31):
	ldr	x15, [x13], #-8
	adds	x12, x12, #1
	str	x15, [x14], #-8
	b.lo	L(53_31)
L(53_32):
	stp	x10, x11, [x8]
	str	x9, [x8, #16]
	ret
	SIZE("std_alloc::vec::Vec::remove::<#bb3624bd71ef2d03>")
	.cfi_endproc

SIZED(16, 4)
	.p2align	4, 0x0
D(CPI54_0):
	.xword	1
	.xword	0
CODE(".text.std_alloc::vec::lodged::Vec+T+Lodged::insert_reserved::<#667d5c0342a2aeff>")
	.p2align	2
	TYPE("std_alloc::vec::lodged::Vec+T+Lodged::insert_reserved::<#667d5c0342a2aeff>", function)
"std_alloc::vec::lodged::Vec+T+Lodged::insert_reserved::<#667d5c0342a2aeff>":
	.cfi_startproc
	ldp	q0, q1, [x2]
	ldr	q2, [x2, #32]
	stp	q0, q1, [sp, #-48]!
	.cfi_def_cfa sp, 48
	ldp	x8, x10, [x0]
	cmn	x1, #1
	ldur	q0, [x0, #8]
	str	q2, [sp, #32]
	stp	xzr, xzr, [x0, #8]
	b.eq	L(54_4)
	cmp	x10, x1
	b.eq	L(54_16)
	mov	w9, #48
	madd	x11, x10, x9, x8
	sub	x9, x10, x1
L(54_3):
	ldp	q1, q2, [x11, #-48]
	sub	x10, x11, #48
	ldur	q3, [x11, #-16]
	subs	x9, x9, #1
	stp	q1, q2, [x11]
	str	q3, [x11, #32]
	mov	x11, x10
	b.ne	L(54_3)
	b	L(54_16)
L(54_4):
	add	x11, x10, #1
	add	x9, x10, #1
	cmp	x11, #43
	b.lo	L(54_13)
	mov	x12, xzr
	sub	x13, x8, #48
	add	x9, x10, #1
	b	L(54_7)
L(54_6):
	ldr	q2, [x13, #1984]
	ldr	q1, [x13, #1968]
	ldr	q3, [x13, #2000]
	str	q2, [x13, #2032]
	ldr	q2, [x13, #1936]
	str	q1, [x13, #2016]
	ldr	q1, [x13, #1920]
	str	q2, [x13, #1984]
	ldr	q2, [x13, #1872]
	str	q1, [x13, #1968]
	ldr	q1, [x13, #1952]
	str	q2, [x13, #1920]
	ldr	q2, [x13, #1904]
	str	q1, [x13, #2000]
	ldr	q1, [x13, #1888]
	str	q3, [x13, #2048]
	ldr	q3, [x13, #1824]
	str	q2, [x13, #1952]
	ldr	q2, [x13, #1840]
	str	q1, [x13, #1936]
	ldr	q1, [x13, #1856]
	str	q2, [x13, #1888]
	ldr	q2, [x13, #1792]
	str	q3, [x13, #1872]
	ldr	q3, [x13, #1776]
	str	q1, [x13, #1904]
	ldr	q1, [x13, #1808]
	str	q2, [x13, #1840]
	ldr	q2, [x13, #1744]
	str	q3, [x13, #1824]
	ldr	q3, [x13, #1728]
	str	q1, [x13, #1856]
	ldr	q1, [x13, #1760]
	str	q2, [x13, #1792]
	ldr	q2, [x13, #1696]
	str	q3, [x13, #1776]
	ldr	q3, [x13, #1680]
	str	q1, [x13, #1808]
	ldr	q1, [x13, #1712]
	str	q2, [x13, #1744]
	ldr	q2, [x13, #1648]
	str	q3, [x13, #1728]
	ldr	q3, [x13, #1632]
	str	q1, [x13, #1760]
	ldr	q1, [x13, #1664]
	str	q2, [x13, #1696]
	ldr	q2, [x13, #1600]
	str	q3, [x13, #1680]
	ldr	q3, [x13, #1584]
	str	q1, [x13, #1712]
	ldr	q1, [x13, #1616]
	str	q2, [x13, #1648]
	ldr	q2, [x13, #1552]
	str	q3, [x13, #1632]
	ldr	q3, [x13, #1536]
	str	q1, [x13, #1664]
	ldr	q1, [x13, #1568]
	str	q2, [x13, #1600]
	ldr	q2, [x13, #1504]
	str	q3, [x13, #1584]
	ldr	q3, [x13, #1488]
	str	q1, [x13, #1616]
	ldr	q1, [x13, #1520]
	str	q2, [x13, #1552]
	ldr	q2, [x13, #1456]
	str	q3, [x13, #1536]
	ldr	q3, [x13, #1440]
	str	q1, [x13, #1568]
	ldr	q1, [x13, #1472]
	str	q2, [x13, #1504]
	ldr	q2, [x13, #1408]
	str	q3, [x13, #1488]
	ldr	q3, [x13, #1392]
	str	q1, [x13, #1520]
	ldr	q1, [x13, #1424]
	str	q2, [x13, #1456]
	ldr	q2, [x13, #1360]
	str	q3, [x13, #1440]
	ldr	q3, [x13, #1344]
	str	q1, [x13, #1472]
	ldr	q1, [x13, #1376]
	str	q2, [x13, #1408]
	ldr	q2, [x13, #1312]
	str	q3, [x13, #1392]
	ldr	q3, [x13, #1296]
	str	q1, [x13, #1424]
	ldr	q1, [x13, #1328]
	str	q2, [x13, #1360]
	ldr	q2, [x13, #1264]
	str	q3, [x13, #1344]
	ldr	q3, [x13, #1248]
	str	q1, [x13, #1376]
	ldr	q1, [x13, #1280]
	str	q2, [x13, #1312]
	ldr	q2, [x13, #1216]
	str	q3, [x13, #1296]
	ldr	q3, [x13, #1200]
	str	q1, [x13, #1328]
	ldr	q1, [x13, #1232]
	str	q2, [x13, #1264]
	ldr	q2, [x13, #1168]
	str	q3, [x13, #1248]
	ldr	q3, [x13, #1152]
	str	q1, [x13, #1280]
	ldr	q1, [x13, #1184]
	str	q2, [x13, #1216]
	ldr	q2, [x13, #1120]
	str	q3, [x13, #1200]
	ldr	q3, [x13, #1104]
	str	q1, [x13, #1232]
	ldr	q1, [x13, #1136]
	str	q2, [x13, #1168]
	ldr	q2, [x13, #1072]
	str	q3, [x13, #1152]
	ldr	q3, [x13, #1056]
	str	q1, [x13, #1184]
	ldr	q1, [x13, #1088]
	str	q2, [x13, #1120]
	str	q3, [x13, #1104]
	ldp	q3, q2, [x13, #1008]
	str	q1, [x13, #1136]
	ldr	q1, [x13, #1040]
	str	q1, [x13, #1088]
	str	q2, [x13, #1072]
	ldp	q2, q1, [x13, #976]
	str	q3, [x13, #1056]
	str	q1, [x13, #1040]
	ldp	q1, q3, [x13, #944]
	str	q2, [x13, #1024]
	stp	q1, q3, [x13, #992]
	ldp	q3, q2, [x13, #912]
	stp	q3, q2, [x13, #960]
	ldp	q2, q1, [x13, #880]
	stp	q2, q1, [x13, #928]
	ldp	q1, q3, [x13, #848]
	stp	q1, q3, [x13, #896]
	ldp	q3, q2, [x13, #816]
	stp	q3, q2, [x13, #864]
	ldp	q2, q1, [x13, #784]
	stp	q2, q1, [x13, #832]
	ldp	q1, q3, [x13, #752]
	stp	q1, q3, [x13, #800]
	ldp	q3, q2, [x13, #720]
	stp	q3, q2, [x13, #768]
	ldp	q2, q1, [x13, #688]
	stp	q2, q1, [x13, #736]
	ldp	q1, q3, [x13, #656]
	stp	q1, q3, [x13, #704]
	ldp	q3, q2, [x13, #624]
	stp	q3, q2, [x13, #672]
	ldp	q2, q1, [x13, #592]
	stp	q2, q1, [x13, #640]
	ldp	q1, q3, [x13, #560]
	stp	q1, q3, [x13, #608]
	ldp	q3, q2, [x13, #528]
	stp	q3, q2, [x13, #576]
	ldp	q2, q1, [x13, #496]
	stp	q2, q1, [x13, #544]
	ldp	q1, q3, [x13, #464]
	stp	q1, q3, [x13, #512]
	ldp	q3, q2, [x13, #432]
	stp	q3, q2, [x13, #480]
	ldp	q2, q1, [x13, #400]
	stp	q2, q1, [x13, #448]
	ldp	q1, q3, [x13, #368]
	stp	q1, q3, [x13, #416]
	ldp	q3, q2, [x13, #336]
	stp	q3, q2, [x13, #384]
	ldp	q2, q1, [x13, #304]
	stp	q2, q1, [x13, #352]
	ldp	q1, q3, [x13, #272]
	stp	q1, q3, [x13, #320]
	ldp	q3, q2, [x13, #240]
	stp	q3, q2, [x13, #288]
	ldp	q2, q1, [x13, #208]
	stp	q2, q1, [x13, #256]
	ldp	q1, q3, [x13, #176]
	stp	q1, q3, [x13, #224]
	ldp	q3, q2, [x13, #144]
	stp	q3, q2, [x13, #192]
	ldp	q2, q1, [x13, #112]
	stp	q2, q1, [x13, #160]
	ldp	q1, q3, [x13, #80]
	stp	q1, q3, [x13, #128]
	ldp	q3, q2, [x13, #48]
	stp	q3, q2, [x13, #96]
	ldp	q2, q1, [x13, #16]
	ldr	q3, [x13]
	stp	q2, q1, [x13, #64]
	stur	q3, [x13, #48]
	sub	x9, x9, #42
	sub	x12, x12, #42
	add	x13, x13, #2016
	cmp	x9, #42
	b.ls	L(54_9)
L(54_7):
	cbnz	x12, L(54_6)
	ldp	q2, q3, [x13]
	ldr	q6, [x13, #32]
	ldp	q5, q1, [x13, #16]
	stp	q2, q3, [x13, #48]
	stp	q1, q2, [x13, #80]
	stp	q3, q1, [x13, #112]
	stp	q2, q3, [x13, #144]
	stp	q1, q2, [x13, #176]
	stp	q3, q1, [x13, #208]
	stp	q2, q3, [x13, #240]
	ldp	q4, q2, [x13]
	ldr	q3, [x13]
	str	q5, [x13, #2032]
	stp	q1, q3, [x13, #272]
	stp	q2, q6, [x13, #304]
	stp	q3, q2, [x13, #336]
	stp	q6, q3, [x13, #368]
	stp	q2, q6, [x13, #400]
	stp	q3, q2, [x13, #432]
	stp	q6, q3, [x13, #464]
	stp	q2, q6, [x13, #496]
	ldp	q2, q1, [x13]
	str	q4, [x13, #2016]
	stp	q2, q1, [x13, #528]
	ldp	q1, q3, [x13, #16]
	stp	q1, q3, [x13, #592]
	ldp	q1, q2, [x13, #16]
	ldr	q3, [x13]
	stp	q2, q3, [x13, #560]
	ldr	q2, [x13]
	stp	q2, q1, [x13, #624]
	ldp	q1, q3, [x13, #16]
	stp	q1, q3, [x13, #688]
	ldp	q1, q2, [x13, #16]
	ldr	q3, [x13]
	stp	q2, q3, [x13, #656]
	ldr	q2, [x13]
	stp	q2, q1, [x13, #720]
	ldp	q1, q3, [x13, #16]
	stp	q1, q3, [x13, #784]
	ldp	q1, q2, [x13, #16]
	ldr	q3, [x13]
	stp	q2, q3, [x13, #752]
	ldr	q2, [x13]
	stp	q2, q1, [x13, #816]
	ldp	q1, q3, [x13, #16]
	stp	q1, q3, [x13, #880]
	ldp	q1, q2, [x13, #16]
	ldr	q3, [x13]
	stp	q2, q3, [x13, #848]
	ldr	q2, [x13]
	stp	q2, q1, [x13, #912]
	ldp	q1, q3, [x13, #16]
	ldr	q2, [x13, #32]
	stp	q1, q3, [x13, #976]
	ldr	q3, [x13]
	stp	q2, q3, [x13, #944]
	ldp	q2, q1, [x13, #16]
	ldr	q3, [x13]
	str	q1, [x13, #1040]
	stp	q3, q2, [x13, #1008]
	ldp	q2, q1, [x13, #16]
	str	q1, [x13, #1088]
	ldr	q1, [x13]
	str	q2, [x13, #1072]
	str	q1, [x13, #1056]
	ldp	q1, q2, [x13, #16]
	str	q2, [x13, #1136]
	ldr	q2, [x13]
	str	q1, [x13, #1120]
	str	q2, [x13, #1104]
	ldp	q2, q1, [x13, #16]
	str	q1, [x13, #1184]
	ldr	q1, [x13]
	str	q2, [x13, #1168]
	str	q1, [x13, #1152]
	ldp	q1, q2, [x13, #16]
	str	q2, [x13, #1232]
	ldr	q2, [x13]
	str	q1, [x13, #1216]
	str	q2, [x13, #1200]
	ldp	q2, q1, [x13, #16]
	str	q1, [x13, #1280]
	ldr	q1, [x13]
	str	q2, [x13, #1264]
	str	q1, [x13, #1248]
	ldp	q1, q2, [x13, #16]
	str	q2, [x13, #1328]
	ldr	q2, [x13]
	str	q1, [x13, #1312]
	str	q2, [x13, #1296]
	ldp	q2, q1, [x13, #16]
	str	q1, [x13, #1376]
	ldr	q1, [x13]
	str	q2, [x13, #1360]
	str	q1, [x13, #1344]
	ldp	q1, q2, [x13, #16]
	str	q2, [x13, #1424]
	ldr	q2, [x13]
	str	q1, [x13, #1408]
	str	q2, [x13, #1392]
	ldp	q2, q1, [x13, #16]
	str	q1, [x13, #1472]
	ldr	q1, [x13]
	str	q2, [x13, #1456]
	str	q1, [x13, #1440]
	ldp	q1, q2, [x13, #16]
	str	q2, [x13, #1520]
	ldr	q2, [x13]
	str	q1, [x13, #1504]
	str	q2, [x13, #1488]
	ldp	q2, q1, [x13, #16]
	str	q1, [x13, #1568]
	ldr	q1, [x13]
	str	q2, [x13, #1552]
	str	q1, [x13, #1536]
	ldp	q1, q2, [x13, #16]
	str	q2, [x13, #1616]
	ldr	q2, [x13]
	str	q1, [x13, #1600]
	str	q2, [x13, #1584]
	ldp	q2, q1, [x13, #16]
	str	q1, [x13, #1664]
	ldr	q1, [x13]
	str	q2, [x13, #1648]
	str	q1, [x13, #1632]
	ldp	q1, q2, [x13, #16]
	str	q2, [x13, #1712]
	ldr	q2, [x13]
	str	q1, [x13, #1696]
	str	q2, [x13, #1680]
	ldp	q2, q1, [x13, #16]
	str	q1, [x13, #1760]
	ldr	q1, [x13]
	str	q2, [x13, #1744]
	str	q1, [x13, #1728]
	ldp	q1, q2, [x13, #16]
	str	q2, [x13, #1808]
	ldr	q2, [x13]
	str	q1, [x13, #1792]
	str	q2, [x13, #1776]
	ldp	q2, q1, [x13, #16]
	str	q1, [x13, #1856]
	ldr	q1, [x13]
	str	q2, [x13, #1840]
	str	q1, [x13, #1824]
	ldp	q1, q2, [x13, #16]
	str	q2, [x13, #1904]
	ldr	q2, [x13]
	str	q1, [x13, #1888]
	str	q2, [x13, #1872]
	ldp	q2, q1, [x13, #16]
	str	q1, [x13, #1952]
	ldr	q1, [x13]
	str	q2, [x13, #1936]
	str	q1, [x13, #1920]
	ldp	q1, q2, [x13, #16]
	str	q2, [x13, #2000]
	ldr	q2, [x13]
	str	q1, [x13, #1984]
	ldr	q1, [x13, #32]
	str	q2, [x13, #1968]
	str	q1, [x13, #2048]
	sub	x9, x9, #42
	sub	x12, x12, #42
	add	x13, x13, #2016
	cmp	x9, #42
	b.hi	L(54_7)
L(54_9):
	cbz	x12, L(54_13)
	cbz	x9, L(54_16)
	mov	w11, #48
	madd	x10, x10, x11, x8
L(54_12):
	ldp	q1, q2, [x10, #-48]
	sub	x11, x10, #48
	ldur	q3, [x10, #-16]
	subs	x9, x9, #1
	stp	q1, q2, [x10]
	str	q3, [x10, #32]
	mov	x10, x11
	b.ne	L(54_12)
	b	L(54_16)
L(54_13):
	cbz	x11, L(54_16)
	mov	x10, x8
L(54_15):
	ldp	q1, q2, [x10, #-48]
	subs	x9, x9, #1
	ldur	q3, [x10, #-16]
	stp	q1, q2, [x10]
	str	q3, [x10, #32]
	add	x10, x10, #48
	b.ne	L(54_15)
L(54_16):
	mov	w9, #48
	adrp	x10, PAGE(D(CPI54_0))
	ldr	q4, [sp, #32]
	madd	x9, x1, x9, x8
	ldr	q3, [x10, LOW(D(CPI54_0))]
	ldp	q1, q2, [sp]
	add	v0.2d, v0.2d, v3.2d
	stp	q1, q2, [x9]
	str	q4, [x9, #32]
	str	x8, [x0]
	stur	q0, [x0, #8]
	add	sp, sp, #48
	.cfi_def_cfa sp, 0
	ret
	SIZE("std_alloc::vec::lodged::Vec+T+Lodged::insert_reserved::<#667d5c0342a2aeff>")
	.cfi_endproc

CODE(".text.xetroot::xet_merkle++merkle_hash_subtree++subtree++MerkleHashSubtree+Destruct::drop::<#024afdc31600bcbd>")
	.p2align	2
	TYPE("xetroot::xet_merkle++merkle_hash_subtree++subtree++MerkleHashSubtree+Destruct::drop::<#024afdc31600bcbd>", function)
"xetroot::xet_merkle++merkle_hash_subtree++subtree++MerkleHashSubtree+Destruct::drop::<#024afdc31600bcbd>":
	.cfi_startproc
	hint	#25
	.cfi_escape 0x2d
	stp	x29, x30, [sp, #-64]!
	.cfi_def_cfa sp, 64
	.cfi_offset x29, -64
	.cfi_offset x30, -56
	stp	x22, x21, [sp, #32]
	.cfi_offset x21, -24
	.cfi_offset x22, -32
	ldr	x22, [x0, #24]
	mov	x29, sp
	.cfi_def_cfa x29, 64
	stp	x20, x19, [sp, #48]
	.cfi_offset x19, -8
	.cfi_offset x20, -16
	ldp	x19, x21, [x0, #8]
	stp	x24, x23, [sp, #16]
	.cfi_offset x23, -40
	.cfi_offset x24, -48
	cbz	x21, L(55_7)
	add	x23, x19, #32
	b	L(55_3)
L(55_2):
	subs	x21, x21, #1
	add	x23, x23, #56
	b.eq	L(55_7)
L(55_3):
	ldur	x8, [x23, #-16]
	ldr	x20, [x23]
	ldr	x24, [x23, #16]
	cbz	x8, L(55_5)
	ldur	x0, [x23, #-32]
	bl	C(yurewha_heap_dealloc)
L(55_5):
	cbz	x24, L(55_2)
	mov	x0, x20
	bl	C(yurewha_heap_dealloc)
	b	L(55_2)
L(55_7):
	cbz	x22, L(55_9)
	mov	x0, x19
	ldp	x20, x19, [sp, #48]
	.cfi_remember_state
	.cfi_restore x19
	.cfi_restore x20
	ldp	x22, x21, [sp, #32]
	.cfi_restore x21
	.cfi_restore x22
	ldp	x24, x23, [sp, #16]
	.cfi_restore x23
	.cfi_restore x24
	ldp	x29, x30, [sp], #64
	.cfi_def_cfa sp, 0
	.cfi_restore x29
	.cfi_restore x30
	hint	#29
	.cfi_escape 0x2d
	b	C(yurewha_heap_dealloc)
L(55_9):
	.cfi_restore_state
	ldp	x20, x19, [sp, #48]
	.cfi_remember_state
	.cfi_restore x19
	.cfi_restore x20
	ldp	x22, x21, [sp, #32]
	.cfi_restore x21
	.cfi_restore x22
	ldp	x24, x23, [sp, #16]
	.cfi_restore x23
	.cfi_restore x24
	ldp	x29, x30, [sp], #64
	.cfi_def_cfa sp, 0
	.cfi_restore x29
	.cfi_restore x30
	hint	#29
	.cfi_escape 0x2d
	ret
	SIZE("xetroot::xet_merkle++merkle_hash_subtree++subtree++MerkleHashSubtree+Destruct::drop::<#024afdc31600bcbd>")
	.cfi_endproc

SIZED(16, 4)
	.p2align	4, 0x0
D(CPI56_0):
	.xword	0
	.xword	1
D(CPI56_1):
	.xword	7
	.xword	15
CODE(".text.std_collections::btree_map::BTreeMap::insert::<#09be7a39fcfa9307>")
	.p2align	2
	TYPE("std_collections::btree_map::BTreeMap::insert::<#09be7a39fcfa9307>", function)
"std_collections::btree_map::BTreeMap::insert::<#09be7a39fcfa9307>":
	.cfi_startproc
	hint	#25
	.cfi_escape 0x2d
	stp	x29, x30, [sp, #-96]!
	.cfi_def_cfa sp, 96
	.cfi_offset x29, -96
	.cfi_offset x30, -88
	stp	x28, x27, [sp, #16]
	.cfi_offset x27, -72
	.cfi_offset x28, -80
	mov	x29, sp
	.cfi_def_cfa x29, 96
	stp	x26, x25, [sp, #32]
	.cfi_offset x25, -56
	.cfi_offset x26, -64
	stp	x24, x23, [sp, #48]
	.cfi_offset x23, -40
	.cfi_offset x24, -48
	stp	x22, x21, [sp, #64]
	.cfi_offset x21, -24
	.cfi_offset x22, -32
	stp	x20, x19, [sp, #80]
	.cfi_offset x19, -8
	.cfi_offset x20, -16
	sub	sp, sp, #672
	movi	v1.2d, #0000000000000000
	ldp	q0, q2, [x3]
	ldrb	w8, [x1]
	ldr	q3, [x3, #32]
	mov	x20, x2
	mov	x21, x1
	mov	x19, x0
	cmp	w8, #1
	stp	q0, q2, [sp, #240]
	str	q3, [sp, #272]
	str	q1, [sp, #224]
	stp	q1, q1, [sp, #144]
	str	q1, [sp, #176]
	stp	q1, q1, [sp, #96]
	stp	q1, q1, [sp, #192]
	str	q1, [sp, #128]
	b.ne	L(56_2)
	ldr	x1, [x21, #8]
	b	L(56_4)
L(56_2):
	mov	w0, #848
	mov	w1, #8
	bl	C(yurewha_heap_alloc)
	tbz	w0, #0, L(56_16)
	str	wzr, [x1]
	mov	w9, #1
	ldrb	w8, [x21]
	stp	x9, x1, [x21]
	cmp	w8, #1
	b.eq	L(56_92)
L(56_4):
	ldrh	w24, [x1, #2]
	mov	w8, #15
	mov	x22, xzr
	mov	x23, xzr
	add	x13, x21, #8
	mov	x10, x1
	sub	x26, x8, x24
	neg	x27, x24
	mov	x28, x1
	mov	x25, x26
	mov	x11, x10
	mov	x8, x10
	ldrh	w10, [x11], #8
	cbnz	x10, L(56_8)
L(56_5):
	mov	x9, xzr
L(56_6):
	ldrh	w10, [x8, #2]
	add	x23, x9, x23, lsl #4
	add	x25, x25, #1
	cbz	w10, L(56_15)
	add	x10, x8, x9, lsl #3
	add	x27, x27, #1
	mov	x22, x9
	mov	x28, x8
	ldr	x10, [x10, #848]
	mov	x11, x10
	mov	x8, x10
	ldrh	w10, [x11], #8
	cbz	x10, L(56_5)
L(56_8):
	mov	x9, xzr
L(56_9):
	ldr	x12, [x11, x9, lsl #3]
	cmp	x20, x12
	mov	w12, #2
	csel	w12, wzr, w12, lo
	csinc	w12, w12, wzr, ne
	cmp	w12, #2
	b.ne	L(56_12)
	add	x9, x9, #1
	cmp	x10, x9
	b.ne	L(56_9)
	mov	x9, x10
	b	L(56_6)
L(56_12):
	cbz	w12, L(56_6)
	add	x8, x28, x22, lsl #3
	add	x10, x24, x25
	and	x9, x9, #0xf
	cmp	x10, #15
	add	x8, x8, #848
	csel	x8, x13, x8, eq
	ldr	x8, [x8]
	ldrh	w10, [x8]
	cmp	x9, x10
	b.hs	L(56_92)
	mov	w10, #48
	ldp	q0, q1, [sp, #240]
	umaddl	x8, w9, w10, x8
	ldr	q2, [sp, #272]
	ldp	q3, q4, [x8, #128]
	stp	q0, q1, [x8, #128]
	ldr	q0, [x8, #160]
	str	q2, [x8, #160]
	adrp	x8, PAGE(D(CPI56_0))
	ldr	q1, [x8, LOW(D(CPI56_0))]
	stp	q3, q4, [sp, #192]
	str	q0, [sp, #224]
	stp	q1, q3, [x19]
	stp	q4, q0, [x19, #32]
	b	L(56_17)
L(56_15):
	ldr	x8, [x21, #16]
	mov	x9, #9223372036854775806
	cmp	x8, x9
	b.ls	L(56_18)
L(56_16):
	ldp	q0, q1, [sp, #240]
	mov	w8, #1
	ldr	q2, [sp, #272]
	stp	x8, x20, [x19]
	stp	q0, q1, [x19, #16]
	str	q2, [x19, #48]
L(56_17):
	add	sp, sp, #672
	ldp	x20, x19, [sp, #80]
	.cfi_remember_state
	.cfi_restore x19
	.cfi_restore x20
	ldp	x22, x21, [sp, #64]
	.cfi_restore x21
	.cfi_restore x22
	ldp	x24, x23, [sp, #48]
	.cfi_restore x23
	.cfi_restore x24
	ldp	x26, x25, [sp, #32]
	.cfi_restore x25
	.cfi_restore x26
	ldp	x28, x27, [sp, #16]
	.cfi_restore x27
	.cfi_restore x28
	ldp	x29, x30, [sp], #96
	.cfi_def_cfa sp, 0
	.cfi_restore x29
	.cfi_restore x30
	hint	#29
	.cfi_escape 0x2d
	ret
L(56_18):
	.cfi_restore_state
	add	x8, x28, x22, lsl #3
	sub	x9, x25, x26
	cmp	x9, #1
	add	x8, x8, #848
	csel	x8, x13, x8, eq
	ldr	x8, [x8]
	ldrh	w8, [x8]
	cmp	w8, #14
	b.hi	L(56_20)
	ldp	q0, q1, [sp, #240]
	ldr	q2, [sp, #272]
	str	q2, [sp, #176]
	stp	q0, q1, [sp, #144]
	b	L(56_85)
L(56_20):
	ldrh	w8, [x1]
	cmp	w8, #15
	b.hs	L(56_70)
	cmp	x26, x25
	stp	xzr, xzr, [x29, #-88]
	b.hs	L(56_24)
L(56_22):
	sub	x8, x29, #88
	add	x8, x8, #15
L(56_23):
	add	x9, x27, #15
	and	w10, w23, #0xf
	lsr	x23, x23, #4
	cmp	x26, x9
	strb	w10, [x8, x27]
	sub	x27, x27, #1
	b.lo	L(56_23)
L(56_24):
	mov	w8, #16
	ldur	q0, [x29, #-88]
	sub	x9, x8, x26
	add	x8, sp, #288
	cmp	x9, #2
	add	x27, x8, x26
	str	x9, [sp, #8]
	str	q0, [sp, #288]
	b.lo	L(56_74)
	ldr	x9, [sp, #8]
	add	x10, x21, #8
	str	x27, [sp]
	str	x26, [sp, #16]
	b	L(56_29)
L(56_26):
	add	w22, w22, #1
	sub	w8, w8, #8
	strb	w22, [x27]
	strb	w8, [x27, #1]
L(56_27):
	ldr	x9, [sp, #56]
	add	x13, x21, #8
L(56_28):
	add	x8, x28, w22, uxtb #3
	cmp	x9, #2
	sub	x9, x9, #1
	add	x27, x27, #1
	add	x10, x8, #848
	b.ls	L(56_73)
L(56_29):
	ldrb	w22, [x27]
	ldr	x28, [x10]
	lsl	x11, x22, #3
	add	x8, x28, x11
	ldr	x8, [x8, #848]
	ldrh	w8, [x8]
	cmp	w8, #15
	b.lo	L(56_28)
	ldrh	w8, [x28, #2]
	add	x24, x21, #8
	stp	x11, x10, [sp, #72]
	str	x9, [sp, #56]
	subs	x23, x8, #1
	b.eq	L(56_32)
	mov	w0, #976
	b	L(56_33)
L(56_32):
	mov	w0, #848
L(56_33):
	mov	w1, #8
	bl	C(yurewha_heap_alloc)
	tbz	w0, #0, L(56_88)
	ldr	x8, [sp, #80]
	strh	w23, [x1, #2]
	movi	v0.2d, #0000000000000000
	mov	x13, x1
	add	x23, x1, #128
	str	x1, [sp, #88]
	ldr	x8, [x8]
	ldrh	w12, [x8]
	ldrh	w11, [x8, #2]
	add	x10, x8, #8
	add	x9, x8, #8
	add	x14, x8, #848
	stp	q0, q0, [sp, #320]
	stp	x9, x12, [sp, #40]
	mov	w9, #15
	cmp	w11, #0
	stp	x10, x12, [sp, #352]
	add	x10, x8, #128
	mov	w11, #16
	stp	x9, x10, [sp, #368]
	csinc	x10, xzr, x12, eq
	stp	x12, x9, [sp, #384]
	csel	x12, xzr, x11, eq
	stp	x12, x8, [sp, #416]
	ldr	x8, [sp, #72]
	stp	x14, x10, [sp, #400]
	add	x10, x1, #8
	ldr	x28, [x14, x8]
	str	q0, [sp, #304]
	stp	q0, q0, [x29, #-224]
	ldrh	w17, [x28]
	add	x8, x28, #128
	ldrh	w16, [x28, #2]
	stur	x8, [x29, #-64]
	add	x8, x28, #848
	sub	x15, x17, #8
	stp	x9, x8, [x29, #-48]
	add	x8, x28, #72
	lsl	x2, x15, #3
	cmp	w16, #0
	sub	x8, x10, x8
	add	x24, x15, x15, lsl #1
	csinc	x12, xzr, x17, eq
	csel	x9, xzr, x11, eq
	cmp	x8, x2
	stur	q0, [x29, #-240]
	stp	q0, q0, [x29, #-176]
	stur	q0, [x29, #-192]
	stp	x12, x9, [x29, #-32]
	stur	x28, [x29, #-16]
	str	x14, [sp, #32]
	str	x15, [sp, #64]
	str	w16, [sp, #28]
	b.hs	L(56_38)
	cmp	w17, #8
	b.ne	L(56_39)
	add	x1, x28, #512
	lsl	x2, x24, #4
	ldr	x24, [sp, #48]
	sub	x8, x23, x1
	cmp	x8, x2
	b.lo	L(56_49)
	ldr	x13, [sp, #88]
	b	L(56_48)
L(56_38):
	add	x0, x13, #8
	add	x1, x28, #72
	mov	x26, x27
	mov	x27, x22
	mov	x22, x17
	bl	C(memmove)
	ldr	x13, [sp, #88]
	mov	x17, x22
	mov	x22, x27
	mov	x27, x26
	b	L(56_44)
L(56_39):
	cmp	x15, #4
	b.lo	L(56_41)
	sub	x8, x13, x28
	sub	x8, x8, #64
	cmp	x8, #32
	b.hs	L(56_64)
L(56_41):
	mov	x8, xzr
L(56_42):
	lsl	x9, x8, #3
	sub	x8, x17, x8
	sub	x8, x8, #8
	add	x10, x28, x9
	add	x11, x13, x9
	add	x9, x10, #72
	add	x10, x11, #8
L(56_43):
	ldr	x11, [x9], #8
	subs	x8, x8, #1
	str	x11, [x10], #8
	b.ne	L(56_43)
L(56_44):
	add	x1, x28, #512
	lsl	x2, x24, #4
	sub	x8, x23, x1
	cmp	x8, x2
	b.hs	L(56_47)
	ldr	x8, [sp, #64]
	ldr	x24, [sp, #48]
	cmp	w17, #8
	ldr	x26, [sp, #16]
	b.eq	L(56_49)
L(56_46):
	ldp	q1, q0, [x1, #16]
	subs	x8, x8, #1
	ldr	q2, [x1], #48
	stp	q1, q0, [x23, #16]
	str	q2, [x23], #48
	b.ne	L(56_46)
	b	L(56_49)
L(56_47):
	ldr	x24, [sp, #48]
	ldr	x26, [sp, #16]
L(56_48):
	add	x0, x13, #128
	bl	C(memmove)
L(56_49):
	movi	v0.2d, #0000000000000000
	mov	w8, #8
	add	x9, x28, #8
	stur	x8, [x29, #-56]
	adrp	x8, PAGE(D(CPI56_1))
	ldr	x28, [x28, #64]
	ldr	q1, [x8, LOW(D(CPI56_1))]
	sub	x8, x29, #88
	sub	x0, x29, #144
	add	x1, x8, #24
	mov	w2, #7
	stur	x9, [x29, #-88]
	stp	q0, q0, [x29, #-144]
	stur	q0, [x29, #-112]
	stur	q1, [x29, #-80]
	bl	"std_alloc::vec::Vec::remove::<#7f26edd6ea879dba>"
	ldr	x15, [sp, #88]
	ldr	x23, [sp, #40]
	ldr	w8, [sp, #28]
	cbz	w8, L(56_58)
	ldp	x9, x8, [x29, #-40]
	add	x11, x15, #848
	sub	x10, x8, #8
	add	x1, x9, #64
	lsl	x2, x10, #3
	sub	x11, x11, x1
	cmp	x11, x2
	b.hs	L(56_57)
	cmp	x8, #8
	b.eq	L(56_58)
	cmp	x10, #4
	b.lo	L(56_54)
	sub	x11, x15, x9
	add	x11, x11, #784
	cmp	x11, #32
	b.hs	L(56_67)
L(56_54):
	mov	x11, xzr
L(56_55):
	lsl	x10, x11, #3
	sub	x8, x8, x11
	sub	x8, x8, #8
	add	x9, x9, x10
	add	x10, x15, x10
	add	x9, x9, #64
	add	x10, x10, #848
L(56_56):
	ldr	x11, [x9], #8
	subs	x8, x8, #1
	str	x11, [x10], #8
	b.ne	L(56_56)
	b	L(56_58)
L(56_57):
	add	x0, x15, #848
	bl	C(memmove)
	ldr	x15, [sp, #88]
L(56_58):
	ldur	x8, [x29, #-80]
	ldur	x9, [x29, #-16]
	ldur	q2, [x29, #-144]
	ldp	q1, q0, [x29, #-128]
	strh	w8, [x9]
	ldr	x8, [sp, #64]
	stur	q2, [x29, #-240]
	strh	w8, [x15]
	ldr	x8, [sp, #32]
	stp	q1, q0, [x29, #-224]
	str	x9, [x8, x22, lsl #3]
	subs	x8, x24, x22
	stp	q1, q0, [sp, #320]
	str	q2, [sp, #304]
	b.eq	L(56_60)
	lsl	x2, x8, #3
	ldr	x8, [sp, #72]
	add	x1, x23, x8
	add	x0, x1, #8
	bl	C(memmove)
L(56_60):
	add	x8, x24, #1
	add	x2, sp, #304
	mov	x1, x22
	stp	x23, x8, [sp, #352]
	mov	w8, #15
	str	x8, [sp, #368]
	add	x8, sp, #352
	add	x0, x8, #24
	str	x28, [x23, x22, lsl #3]
	bl	"std_alloc::vec::lodged::Vec+T+Lodged::insert_reserved::<#667d5c0342a2aeff>"
	ldp	x23, x8, [sp, #400]
	add	x9, x22, #1
	lsl	x24, x9, #3
	subs	x8, x8, x9
	b.eq	L(56_62)
	lsl	x2, x8, #3
	add	x8, x23, x24
	add	x1, x23, x24
	add	x0, x8, #8
	bl	C(memmove)
L(56_62):
	ldr	x9, [sp, #360]
	ldr	x28, [sp, #424]
	ldrb	w8, [x27, #1]
	ldr	x10, [sp, #88]
	str	x10, [x23, x24]
	cmp	w8, #7
	strh	w9, [x28]
	ldr	x9, [sp, #80]
	str	x28, [x9]
	b.hi	L(56_26)
	ldrb	w22, [x27]
	b	L(56_27)
L(56_64):
	and	x8, x15, #0xfffffffffffffffc
	add	x9, x28, #88
	add	x10, x13, #24
	and	x11, x15, #0xfffffffffffffffc
L(56_65):
	ldp	q0, q1, [x9, #-16]
	subs	x11, x11, #4
	add	x9, x9, #32
	stp	q0, q1, [x10, #-16]
	add	x10, x10, #32
	b.ne	L(56_65)
	cmp	x15, x8
	b.eq	L(56_44)
	b	L(56_42)
L(56_67):
	and	x11, x10, #0xfffffffffffffffc
	add	x12, x9, #80
	add	x13, x15, #864
	and	x14, x10, #0xfffffffffffffffc
L(56_68):
	ldp	q0, q1, [x12, #-16]
	subs	x14, x14, #4
	add	x12, x12, #32
	stp	q0, q1, [x13, #-16]
	add	x13, x13, #32
	b.ne	L(56_68)
	cmp	x10, x11
	b.eq	L(56_58)
	b	L(56_55)
L(56_70):
	cmp	w24, #10
	b.hi	L(56_16)
	mov	w0, #976
	mov	w1, #8
	bl	C(yurewha_heap_alloc)
	add	x13, x21, #8
	tbz	w0, #0, L(56_16)
	add	w8, w24, #1
	mov	w9, #14
	strh	w8, [x1, #2]
	sub	x26, x9, x24
	ldr	x8, [x13]
	strh	wzr, [x1]
	str	x8, [x1, #848]
	str	x1, [x13]
	cmp	x26, x25
	stp	xzr, xzr, [x29, #-88]
	b.lo	L(56_22)
	b	L(56_24)
L(56_73):
	ldr	x1, [x13]
	ldr	x27, [sp]
	and	x22, x22, #0xff
L(56_74):
	ldrh	w8, [x1]
	cbz	w8, L(56_90)
	ldr	x8, [sp, #8]
	cmp	x8, #2
	b.hs	L(56_77)
	mov	x8, xzr
	b	L(56_81)
L(56_77):
	mov	x9, x8
	and	x8, x8, #0xfffffffffffffffe
	and	x9, x9, #0xfffffffffffffffe
L(56_78):
	subs	x9, x9, #2
	b.ne	L(56_78)
	ldr	x9, [sp, #8]
	cmp	x9, x8
	b.ne	L(56_81)
	sub	x8, x8, #1
	b	L(56_84)
L(56_81):
	mov	w9, #1
	add	x10, x8, x26
	sub	x8, x9, x8
	sub	x9, x10, #16
L(56_82):
	adds	x9, x9, #1
	sub	x8, x8, #1
	b.lo	L(56_82)
	neg	x8, x8
L(56_84):
	ldp	q0, q1, [sp, #240]
	ldrb	w9, [x21]
	ldr	q2, [sp, #272]
	ldrb	w23, [x27, x8]
	cmp	w9, #1
	stp	q0, q1, [sp, #144]
	str	q2, [sp, #176]
	b.ne	L(56_92)
L(56_85):
	add	x8, x28, x22, lsl #3
	sub	x9, x25, x26
	and	x22, x23, #0xf
	cmp	x9, #1
	sub	x25, x29, #88
	add	x8, x8, #848
	csel	x24, x13, x8, eq
	mov	w8, #15
	ldr	x9, [x24]
	ldrh	w11, [x9]
	add	x10, x9, #128
	ldrh	w12, [x9, #2]
	add	x26, x9, #8
	stur	x9, [x29, #-16]
	stp	x10, x11, [x29, #-64]
	add	x10, x9, #848
	cmp	w12, #0
	stp	x8, x10, [x29, #-48]
	mov	w8, #16
	csinc	x10, xzr, x11, eq
	csel	x12, xzr, x8, eq
	add	x23, x11, #1
	subs	x8, x11, x22
	stp	x10, x12, [x29, #-32]
	b.eq	L(56_87)
	lsl	x9, x22, #3
	lsl	x2, x8, #3
	add	x1, x26, x9
	add	x0, x1, #8
	bl	C(memmove)
L(56_87):
	mov	w8, #15
	add	x0, x25, #24
	add	x2, sp, #144
	mov	x1, x22
	str	x20, [x26, x22, lsl #3]
	stp	x26, x23, [x29, #-88]
	stur	x8, [x29, #-72]
	bl	"std_alloc::vec::lodged::Vec+T+Lodged::insert_reserved::<#667d5c0342a2aeff>"
	ldur	x8, [x29, #-80]
	ldur	x9, [x29, #-16]
	strh	w8, [x9]
	str	x9, [x24]
	ldr	x8, [x21, #16]
	ldp	q0, q1, [sp, #96]
	add	x8, x8, #1
	str	x8, [x21, #16]
	stp	q0, q1, [x19, #16]
	ldr	q0, [sp, #128]
	stp	xzr, xzr, [x19]
	str	q0, [x19, #48]
	b	L(56_17)
L(56_88):
	ldr	x1, [x24]
	ldrh	w8, [x1]
	cbnz	w8, L(56_16)
	mov	x13, x24
L(56_90):
	ldrh	w8, [x1, #2]
	cbz	w8, L(56_16)
	ldr	x21, [x1, #848]
	mov	x0, x1
	mov	x22, x13
	bl	C(yurewha_heap_dealloc)
	str	x21, [x22]
	b	L(56_16)
L(56_92):
	brk	#0x1
	SIZE("std_collections::btree_map::BTreeMap::insert::<#09be7a39fcfa9307>")
	.cfi_endproc

SIZED(16, 4)
	.p2align	4, 0x0
D(CPI57_0):
	.byte	1
	.byte	2
	.byte	4
	.byte	8
	.byte	16
	.byte	32
	.byte	64
	.byte	128
	.byte	1
	.byte	2
	.byte	4
	.byte	8
	.byte	16
	.byte	32
	.byte	64
	.byte	128
CODE(".text.line_io::reading::Reading::take_within::<#42ff4d2293d53660>")
	.p2align	2
	TYPE("line_io::reading::Reading::take_within::<#42ff4d2293d53660>", function)
"line_io::reading::Reading::take_within::<#42ff4d2293d53660>":
	.cfi_startproc
	hint	#25
	.cfi_escape 0x2d
	sub	sp, sp, #144
	.cfi_def_cfa sp, 144
	movi	v0.2d, #0000000000000000
	stp	x24, x23, [sp, #96]
	.cfi_offset x23, -40
	.cfi_offset x24, -48
	add	x24, x1, #1960
	stp	x22, x21, [sp, #112]
	.cfi_offset x21, -24
	.cfi_offset x22, -32
	mov	x21, x3
	mov	x22, x2
	stp	x20, x19, [sp, #128]
	.cfi_offset x19, -8
	.cfi_offset x20, -16
	mov	x20, x1
	mov	x19, x0
	stp	x29, x30, [sp, #80]
	.cfi_offset x29, -64
	.cfi_offset x30, -56
	add	x29, sp, #80
	.cfi_def_cfa x29, 64
	stp	q0, q0, [sp]
	stp	q0, q0, [sp, #32]
	cmp	x3, #32
	b.lo	L(57_38)
L(57_1):
	mov	x12, xzr
	add	x8, x22, x21
	sub	x9, x21, #64
	add	x10, x22, #96
	add	x11, x22, #160
L(57_2):
	sub	x14, x21, x12
	adrp	x13, PAGE(D(CPI57_0))
	cmp	x14, #191
	b.ls	L(57_9)
	movi	v0.16b, #10
	add	x14, x22, x12
	ldp	q1, q2, [x14]
	ldp	q3, q4, [x14, #32]
	add	x14, x12, #64
	cmeq	v2.16b, v2.16b, v0.16b
	cmeq	v1.16b, v1.16b, v0.16b
	cmeq	v4.16b, v4.16b, v0.16b
	cmeq	v3.16b, v3.16b, v0.16b
	ldr	q0, [x13, LOW(D(CPI57_0))]
	and	v1.16b, v1.16b, v0.16b
	and	v2.16b, v2.16b, v0.16b
	and	v3.16b, v3.16b, v0.16b
	and	v4.16b, v4.16b, v0.16b
	addp	v1.16b, v1.16b, v2.16b
	addp	v2.16b, v3.16b, v4.16b
	addp	v1.16b, v1.16b, v2.16b
	addp	v1.16b, v1.16b, v1.16b
	fmov	x15, d1
	cbnz	x15, L(57_31)
	sub	x15, x21, x14
	cmp	x15, #128
	b.lo	L(57_18)
	add	x13, x12, #192
	add	x12, x11, x12
L(57_6):
	movi	v17.16b, #10
	ldp	q6, q5, [x12, #-96]
	ldp	q16, q18, [x12, #-64]
	ldp	q2, q1, [x12, #-32]
	ldp	q3, q4, [x12], #128
	cmeq	v6.16b, v6.16b, v17.16b
	cmeq	v7.16b, v5.16b, v17.16b
	cmeq	v5.16b, v18.16b, v17.16b
	cmeq	v18.16b, v1.16b, v17.16b
	cmeq	v16.16b, v16.16b, v17.16b
	cmeq	v20.16b, v2.16b, v17.16b
	cmeq	v19.16b, v4.16b, v17.16b
	cmeq	v17.16b, v3.16b, v17.16b
	orr	v18.16b, v18.16b, v19.16b
	orr	v17.16b, v20.16b, v17.16b
	orr	v19.16b, v7.16b, v5.16b
	orr	v20.16b, v6.16b, v16.16b
	orr	v18.16b, v19.16b, v18.16b
	orr	v17.16b, v20.16b, v17.16b
	and	v18.16b, v18.16b, v0.16b
	and	v17.16b, v17.16b, v0.16b
	addp	v17.16b, v17.16b, v18.16b
	addp	v17.16b, v17.16b, v17.16b
	addp	v17.16b, v17.16b, v17.16b
	fmov	w14, s17
	cbnz	w14, L(57_34)
	sub	x15, x15, #128
	add	x13, x13, #128
	cmp	x15, #127
	b.hi	L(57_6)
	sub	x12, x13, #128
	cmp	x15, #32
	b.hs	L(57_19)
	b	L(57_22)
L(57_9):
	cmp	x14, #64
	b.lo	L(57_24)
L(57_10):
	movi	v0.16b, #10
	add	x15, x22, x12
	ldp	q1, q2, [x15]
	ldp	q4, q3, [x15, #32]
	cmeq	v5.16b, v1.16b, v0.16b
	cmeq	v6.16b, v2.16b, v0.16b
	cmeq	v7.16b, v4.16b, v0.16b
	cmeq	v0.16b, v3.16b, v0.16b
	orr	v6.16b, v6.16b, v0.16b
	orr	v5.16b, v5.16b, v7.16b
	ldr	q0, [x13, LOW(D(CPI57_0))]
	and	v5.16b, v5.16b, v0.16b
	and	v6.16b, v6.16b, v0.16b
	addp	v5.16b, v5.16b, v6.16b
	addp	v5.16b, v5.16b, v5.16b
	addp	v5.16b, v5.16b, v5.16b
	fmov	w15, s5
	cbnz	w15, L(57_12)
	sub	x14, x14, #64
	add	x12, x12, #64
	cmp	x14, #63
	b.hi	L(57_10)
	b	L(57_24)
L(57_12):
	cmp	x14, #64
	b.lo	L(57_24)
L(57_13):
	movi	v5.16b, #10
	cmeq	v1.16b, v1.16b, v5.16b
	cmeq	v2.16b, v2.16b, v5.16b
	cmeq	v3.16b, v3.16b, v5.16b
	cmeq	v4.16b, v4.16b, v5.16b
	and	v1.16b, v1.16b, v0.16b
	and	v2.16b, v2.16b, v0.16b
	and	v3.16b, v3.16b, v0.16b
	and	v4.16b, v4.16b, v0.16b
	addp	v1.16b, v1.16b, v2.16b
	addp	v2.16b, v4.16b, v3.16b
	addp	v1.16b, v1.16b, v2.16b
	addp	v1.16b, v1.16b, v1.16b
	fmov	x15, d1
	cbnz	x15, L(57_37)
	sub	x14, x9, x12
	neg	x15, x12
	add	x12, x10, x12
L(57_15):
	subs	x16, x14, #64
	b.lo	L(57_23)
	movi	v5.16b, #10
	ldp	q1, q2, [x12, #-32]
	ldp	q4, q3, [x12], #64
	sub	x15, x15, #64
	mov	x14, x16
	cmeq	v6.16b, v1.16b, v5.16b
	cmeq	v7.16b, v2.16b, v5.16b
	cmeq	v16.16b, v4.16b, v5.16b
	cmeq	v5.16b, v3.16b, v5.16b
	orr	v6.16b, v6.16b, v16.16b
	orr	v5.16b, v7.16b, v5.16b
	and	v6.16b, v6.16b, v0.16b
	and	v5.16b, v5.16b, v0.16b
	addp	v5.16b, v6.16b, v5.16b
	addp	v5.16b, v5.16b, v5.16b
	addp	v5.16b, v5.16b, v5.16b
	fmov	w17, s5
	cbz	w17, L(57_15)
	neg	x12, x15
	b	L(57_13)
L(57_18):
	mov	x12, x14
	cmp	x15, #32
	b.lo	L(57_22)
L(57_19):
	sub	x13, x21, x12
L(57_20):
	movi	v1.16b, #10
	add	x14, x22, x12
	ldp	q2, q3, [x14]
	cmeq	v3.16b, v3.16b, v1.16b
	cmeq	v1.16b, v2.16b, v1.16b
	and	v1.16b, v1.16b, v0.16b
	and	v2.16b, v3.16b, v0.16b
	addp	v1.16b, v1.16b, v2.16b
	addp	v1.16b, v1.16b, v1.16b
	addp	v1.16b, v1.16b, v1.16b
	fmov	w15, s1
	cbnz	w15, L(57_30)
	sub	x13, x13, #32
	add	x12, x12, #32
	cmp	x13, #31
	b.hi	L(57_20)
L(57_22):
	movi	v1.16b, #10
	ldp	q2, q3, [x8, #-32]
	cmeq	v3.16b, v3.16b, v1.16b
	cmeq	v1.16b, v2.16b, v1.16b
	and	v1.16b, v1.16b, v0.16b
	and	v0.16b, v3.16b, v0.16b
	addp	v0.16b, v1.16b, v0.16b
	b	L(57_29)
L(57_23):
	mov	w12, #64
	sub	x12, x12, x15
L(57_24):
	cmp	x14, #32
	b.lo	L(57_28)
	sub	x14, x21, x12
L(57_26):
	movi	v0.16b, #10
	add	x15, x22, x12
	ldp	q1, q2, [x15]
	cmeq	v2.16b, v2.16b, v0.16b
	cmeq	v0.16b, v1.16b, v0.16b
	ldr	q1, [x13, LOW(D(CPI57_0))]
	and	v0.16b, v0.16b, v1.16b
	and	v1.16b, v2.16b, v1.16b
	addp	v0.16b, v0.16b, v1.16b
	addp	v0.16b, v0.16b, v0.16b
	addp	v0.16b, v0.16b, v0.16b
	fmov	w15, s0
	cbnz	w15, L(57_30)
	sub	x14, x14, #32
	add	x12, x12, #32
	cmp	x14, #31
	b.hi	L(57_26)
L(57_28):
	movi	v0.16b, #10
	ldp	q1, q2, [x8, #-32]
	cmeq	v2.16b, v2.16b, v0.16b
	cmeq	v0.16b, v1.16b, v0.16b
	ldr	q1, [x13, LOW(D(CPI57_0))]
	and	v0.16b, v0.16b, v1.16b
	and	v1.16b, v2.16b, v1.16b
	addp	v0.16b, v0.16b, v1.16b
L(57_29):
	addp	v0.16b, v0.16b, v0.16b
	sub	x14, x12, x21
	add	x14, x14, #32
	addp	v0.16b, v0.16b, v0.16b
	fmov	w13, s0
	lsr	x15, x13, x14
	mov	x13, x21
	mov	x14, x13
	cbnz	x15, L(57_31)
	b	L(57_33)
L(57_30):
	add	x14, x12, #32
L(57_31):
	rbit	x13, x15
	clz	x13, x13
	add	x23, x13, x12
	ldrb	w16, [x22, x23]
	cmp	w16, #10
	b.eq	L(57_42)
	mov	w16, #1
	lsl	x13, x16, x13
	bics	x15, x15, x13
	b.ne	L(57_31)
L(57_33):
	cmp	x14, x21
	mov	x12, x14
	b.lo	L(57_2)
	b	L(57_45)
L(57_34):
	and	v6.16b, v6.16b, v0.16b
	and	v7.16b, v7.16b, v0.16b
	sub	x14, x13, #64
	and	v16.16b, v16.16b, v0.16b
	and	v5.16b, v5.16b, v0.16b
	addp	v6.16b, v6.16b, v7.16b
	addp	v5.16b, v16.16b, v5.16b
	addp	v5.16b, v6.16b, v5.16b
	addp	v5.16b, v5.16b, v5.16b
	fmov	x15, d5
	cbz	x15, L(57_36)
	sub	x12, x13, #128
	b	L(57_31)
L(57_36):
	movi	v5.16b, #10
	cmeq	v2.16b, v2.16b, v5.16b
	cmeq	v1.16b, v1.16b, v5.16b
	cmeq	v4.16b, v4.16b, v5.16b
	cmeq	v3.16b, v3.16b, v5.16b
	and	v2.16b, v2.16b, v0.16b
	and	v1.16b, v1.16b, v0.16b
	and	v3.16b, v3.16b, v0.16b
	and	v0.16b, v4.16b, v0.16b
	addp	v1.16b, v2.16b, v1.16b
	addp	v0.16b, v3.16b, v0.16b
	addp	v0.16b, v1.16b, v0.16b
	addp	v0.16b, v0.16b, v0.16b
	fmov	x15, d0
	mov	x12, x14
	mov	x14, x13
	cbnz	x15, L(57_31)
	b	L(57_33)
L(57_37):
	add	x14, x12, #64
	b	L(57_31)
L(57_38):
	cbz	x21, L(57_45)
	mov	x23, xzr
L(57_40):
	ldrb	w8, [x22, x23]
	cmp	w8, #10
	b.eq	L(57_42)
	add	x23, x23, #1
	cmp	x21, x23
	b.ne	L(57_40)
	b	L(57_45)
L(57_42):
	mov	x0, sp
	mov	x1, x20
	mov	x2, x22
	mov	x3, x23
	bl	"line_io::reading::Reading::extend_line::<#42ff4d2293d53660>"
	ldrb	w8, [sp]
	cbnz	w8, L(57_47)
	sub	x0, x29, #4
	mov	x1, x20
	sturb	wzr, [x29, #-2]
	sturh	wzr, [x29, #-4]
	bl	"pair_text::said_lines::SaidLinesTakeLines::end_line::<#a10fcec3e4a5dd02>"
	ldurb	w8, [x29, #-4]
	cmp	w8, #1
	b.eq	L(57_48)
	mov	w8, #1
	ldr	q1, [x24]
	strb	wzr, [x20, #1976]
	dup	v0.2d, x8
	add	x8, x23, #1
	add	x22, x22, x8
	sub	x21, x21, x8
	uqadd	v0.2d, v1.2d, v0.2d
	str	q0, [x24]
	cmp	x21, #32
	b.hs	L(57_1)
	b	L(57_38)
L(57_45):
	add	x0, sp, #32
	mov	x1, x20
	mov	x2, x22
	mov	x3, x21
	bl	"line_io::reading::Reading::extend_line::<#42ff4d2293d53660>"
	ldrb	w8, [sp, #32]
	ldrb	w9, [sp, #40]
	ldr	x10, [sp, #48]
	strb	w8, [x19]
	ldrb	w8, [sp, #56]
	stp	x9, x10, [x19, #8]
L(57_46):
	strb	w8, [x19, #24]
	ldp	x20, x19, [sp, #128]
	.cfi_remember_state
	.cfi_restore x19
	.cfi_restore x20
	ldp	x22, x21, [sp, #112]
	.cfi_restore x21
	.cfi_restore x22
	ldp	x24, x23, [sp, #96]
	.cfi_restore x23
	.cfi_restore x24
	ldp	x29, x30, [sp, #80]
	.cfi_def_cfa sp, 144
	.cfi_restore x29
	.cfi_restore x30
	add	sp, sp, #144
	.cfi_def_cfa sp, 0
	hint	#29
	.cfi_escape 0x2d
	ret
L(57_47):
	.cfi_restore_state
	mov	w9, #1
	ldrb	w8, [sp, #8]
	ldr	x10, [sp, #16]
	strb	w9, [x19]
	ldrb	w9, [sp, #24]
	stp	x8, x10, [x19, #8]
	strb	w9, [x19, #24]
	ldp	x20, x19, [sp, #128]
	.cfi_remember_state
	.cfi_restore x19
	.cfi_restore x20
	ldp	x22, x21, [sp, #112]
	.cfi_restore x21
	.cfi_restore x22
	ldp	x24, x23, [sp, #96]
	.cfi_restore x23
	.cfi_restore x24
	ldp	x29, x30, [sp, #80]
	.cfi_def_cfa sp, 144
	.cfi_restore x29
	.cfi_restore x30
	add	sp, sp, #144
	.cfi_def_cfa sp, 0
	hint	#29
	.cfi_escape 0x2d
	ret
L(57_48):
	.cfi_restore_state
	ldurb	w8, [x29, #-3]
	ldr	x9, [x20, #1968]
	mov	w10, #1
	ldurb	w11, [x29, #-2]
	strb	w10, [x19]
	cmp	x8, #0
	csel	x9, x9, xzr, eq
	stp	x8, x9, [x19, #8]
	csel	w8, w11, wzr, eq
	b	L(57_46)
	SIZE("line_io::reading::Reading::take_within::<#42ff4d2293d53660>")
	.cfi_endproc

CODE(".text.line_io::reading::Reading::extend_line::<#42ff4d2293d53660>")
	.p2align	2
	TYPE("line_io::reading::Reading::extend_line::<#42ff4d2293d53660>", function)
"line_io::reading::Reading::extend_line::<#42ff4d2293d53660>":
	.cfi_startproc
	hint	#25
	.cfi_escape 0x2d
	cbz	x3, L(58_4)
	stp	x29, x30, [sp, #-64]!
	.cfi_def_cfa sp, 64
	.cfi_offset x29, -64
	.cfi_offset x30, -56
	stp	x28, x23, [sp, #16]
	.cfi_offset x23, -40
	.cfi_offset x28, -48
	mov	x29, sp
	.cfi_def_cfa x29, 64
	stp	x22, x21, [sp, #32]
	.cfi_offset x21, -24
	.cfi_offset x22, -32
	stp	x20, x19, [sp, #48]
	.cfi_offset x19, -8
	.cfi_offset x20, -16
	sub	sp, sp, #3072
	str	xzr, [sp]
	sub	sp, sp, #656
	ldrb	w8, [x1, #88]
	cbz	w8, L(58_5)
	ldr	x8, [x1, #1952]
	cmn	x8, x3
	b.hs	L(58_9)
	mov	x19, x0
	add	x0, x1, #96
	mov	x20, x1
	mov	x1, x2
	mov	x2, x3
	mov	x21, x3
	bl	"keyed_blake3::hasher::Hasher::update"
	mov	x3, x21
	mov	x1, x20
	mov	x0, x19
	b	L(58_18)
L(58_4):
	.cfi_remember_state
	.cfi_def_cfa sp, 0
	.cfi_restore x19
	.cfi_restore x20
	.cfi_restore x21
	.cfi_restore x22
	.cfi_restore x23
	.cfi_restore x28
	.cfi_restore x29
	.cfi_restore x30
	strb	wzr, [x0]
	stp	xzr, xzr, [x0, #8]
	strb	wzr, [x0, #24]
	hint	#29
	.cfi_escape 0x2d
	ret
L(58_5):
	.cfi_restore_state
	ldr	x19, [x1, #184]
	cbnz	x19, L(58_8)
	ldrb	w8, [x2]
	cmp	w8, #43
	b.ne	L(58_8)
	add	x8, sp, #1872
	mov	x19, x0
	mov	x20, x1
	add	x0, x8, #64
	mov	w1, wzr
	mov	x23, x2
	mov	w2, #1792
	add	x22, sp, #1872
	mov	x21, x3
	bl	C(memset)
	adrp	x8, PAGE(D(static.19))
	add	x8, x8, LOW(D(static.19))
	add	x0, sp, #8
	ldp	q0, q1, [x8]
	add	x1, sp, #1872
	mov	w2, #1856
	stp	q0, q1, [x22]
	stp	q0, q1, [x22, #32]
	bl	C(memcpy)
	add	x0, sp, #8
	add	x1, x23, #1
	sub	x2, x21, #1
	str	xzr, [sp, #1864]
	bl	"keyed_blake3::hasher::Hasher::update"
	ldr	x22, [sp, #1864]
	mov	w8, #1
	add	x0, x20, #96
	add	x1, sp, #8
	mov	w2, #1856
	str	x8, [x20, #88]
	bl	C(memcpy)
	mov	x3, x21
	mov	x1, x20
	mov	x0, x19
	str	x22, [x20, #1952]
	b	L(58_18)
L(58_8):
	mov	w8, #85
	sub	x8, x8, x19
	cmp	x8, x3
	b.hs	L(58_10)
L(58_9):
	ldr	x9, [x1, #1968]
	mov	w8, #1
	strb	w8, [x0]
	stp	xzr, x9, [x0, #8]
	b	L(58_19)
L(58_10):
	add	x8, x1, x19
	add	x8, x8, #96
	sub	x9, x8, x2
	cmp	x9, x3
	b.hs	L(58_16)
	cmp	x3, #8
	b.lo	L(58_13)
	add	x8, x19, x1
	sub	x8, x8, x2
	add	x8, x8, #96
	cmp	x8, #32
	b.hs	L(58_20)
L(58_13):
	mov	x8, xzr
L(58_14):
	add	x9, x8, x19
	add	x10, x9, x1
	sub	x9, x3, x8
	add	x8, x2, x8
	add	x10, x10, #96
L(58_15):
	ldrb	w11, [x8], #1
	subs	x9, x9, #1
	strb	w11, [x10], #1
	b.ne	L(58_15)
	b	L(58_17)
L(58_16):
	mov	x20, x0
	mov	x0, x8
	mov	x21, x1
	mov	x1, x2
	mov	x2, x3
	mov	x22, x3
	bl	C(memmove)
	mov	x3, x22
	mov	x1, x21
	mov	x0, x20
L(58_17):
	add	x8, x19, x3
	str	x8, [x1, #184]
L(58_18):
	ldr	x8, [x1, #1960]
	mov	w9, #1
	strb	w9, [x1, #1976]
	adds	x8, x3, x8
	csinv	x8, x8, xzr, lo
	str	x8, [x1, #1960]
	strb	wzr, [x0]
	stp	xzr, xzr, [x0, #8]
L(58_19):
	strb	wzr, [x0, #24]
	add	sp, sp, #3728
	ldp	x20, x19, [sp, #48]
	.cfi_remember_state
	.cfi_restore x19
	.cfi_restore x20
	ldp	x22, x21, [sp, #32]
	.cfi_restore x21
	.cfi_restore x22
	ldp	x28, x23, [sp, #16]
	.cfi_restore x23
	.cfi_restore x28
	ldp	x29, x30, [sp], #64
	.cfi_def_cfa sp, 0
	.cfi_restore x29
	.cfi_restore x30
	hint	#29
	.cfi_escape 0x2d
	ret
L(58_20):
	.cfi_restore_state
	cmp	x3, #32
	b.hs	L(58_22)
	mov	x8, xzr
	b	L(58_26)
L(58_22):
	add	x11, x19, x1
	and	x9, x3, #0x18
	and	x8, x3, #0xffffffffffffffe0
	add	x10, x2, #16
	add	x11, x11, #112
	and	x12, x3, #0xffffffffffffffe0
L(58_23):
	ldp	q0, q1, [x10, #-16]
	subs	x12, x12, #32
	add	x10, x10, #32
	stp	q0, q1, [x11, #-16]
	add	x11, x11, #32
	b.ne	L(58_23)
	cmp	x3, x8
	b.eq	L(58_17)
	cbz	x9, L(58_14)
L(58_26):
	mov	x10, x8
	and	x8, x3, #0xfffffffffffffff8
	add	x9, x10, x19
	add	x11, x9, x1
	sub	x9, x10, x8
	add	x10, x2, x10
	add	x11, x11, #96
L(58_27):
	ldr	d0, [x10], #8
	adds	x9, x9, #8
	str	d0, [x11], #8
	b.ne	L(58_27)
	cmp	x3, x8
	b.eq	L(58_17)
	b	L(58_14)
	SIZE("line_io::reading::Reading::extend_line::<#42ff4d2293d53660>")
	.cfi_endproc

CODE(".text.std_collections::btree::node::Node::destroy::<#e27c17be7fe85c1a>")
	.p2align	2
	TYPE("std_collections::btree::node::Node::destroy::<#e27c17be7fe85c1a>", function)
"std_collections::btree::node::Node::destroy::<#e27c17be7fe85c1a>":
	.cfi_startproc
	hint	#25
	.cfi_escape 0x2d
	sub	sp, sp, #320
	.cfi_def_cfa sp, 320
	ldrh	w11, [x0, #2]
	stp	x22, x21, [sp, #288]
	.cfi_offset x21, -24
	.cfi_offset x22, -32
	mov	w9, #15
	ldrh	w22, [x0]
	stp	x24, x23, [sp, #272]
	.cfi_offset x23, -40
	.cfi_offset x24, -48
	add	x23, x0, #128
	cmp	w11, #0
	mov	w12, #16
	add	x10, x0, #8
	stp	x9, x23, [sp, #16]
	add	x8, x0, #848
	csel	x12, xzr, x12, eq
	stp	x22, x9, [sp, #32]
	csinc	x9, xzr, x22, eq
	stp	x29, x30, [sp, #224]
	.cfi_offset x29, -96
	.cfi_offset x30, -88
	add	x29, sp, #224
	.cfi_def_cfa x29, 96
	stp	x28, x27, [sp, #240]
	.cfi_offset x27, -72
	.cfi_offset x28, -80
	stp	x26, x25, [sp, #256]
	.cfi_offset x25, -56
	.cfi_offset x26, -64
	stp	x20, x19, [sp, #304]
	.cfi_offset x19, -8
	.cfi_offset x20, -16
	stp	x10, x22, [sp]
	stp	x8, x9, [sp, #48]
	stp	x12, x0, [sp, #64]
	cbz	w11, L(59_56)
	mov	x21, sp
	cbnz	w22, L(59_3)
	b	L(59_43)
L(59_2):
	ldr	x22, [sp, #8]
	cbz	x22, L(59_42)
L(59_3):
	ldp	x9, x8, [sp, #48]
	sub	x8, x8, #1
	ldr	x0, [x9]
	cmp	x8, #257
	b.lo	L(59_9)
	mov	x13, xzr
	add	x11, x9, #16
L(59_5):
	mov	w10, #256
	mov	x12, x11
L(59_6):
	ldur	q0, [x12, #-8]
	ldur	q1, [x12, #8]
	subs	x10, x10, #4
	stp	q0, q1, [x12, #-16]
	add	x12, x12, #32
	b.ne	L(59_6)
	add	x13, x13, #256
	add	x11, x11, #2048
	sub	x10, x8, x13
	cmp	x10, #256
	b.hi	L(59_5)
	lsl	x11, x13, #3
	add	x12, x9, x11
	cmp	x8, x13
	b.ne	L(59_10)
	b	L(59_15)
L(59_9):
	mov	x11, xzr
	mov	x12, x9
	mov	x10, x8
	cmp	x8, xzr
	b.eq	L(59_15)
L(59_10):
	cmp	x10, #4
	b.lo	L(59_12)
	add	x13, x11, x9
	sub	x13, x13, x12
	sub	x13, x13, #8
	cmp	x13, #32
	b.hs	L(59_36)
L(59_12):
	mov	x13, xzr
L(59_13):
	lsl	x14, x13, #3
	add	x11, x9, x11
	sub	x9, x10, x13
	add	x12, x12, x14
	add	x11, x11, x14
	add	x10, x12, #8
L(59_14):
	ldr	x12, [x10], #8
	subs	x9, x9, #1
	str	x12, [x11], #8
	b.ne	L(59_14)
L(59_15):
	ldr	x9, [sp, #64]
	stp	x8, x9, [sp, #56]
	bl	"std_collections::btree::node::Node::destroy::<#e27c17be7fe85c1a>"
	movi	v0.2d, #0000000000000000
	sub	x8, x22, #1
	ldr	x9, [sp]
	cmp	x8, #257
	stp	q0, q0, [sp, #96]
	str	q0, [sp, #80]
	b.lo	L(59_21)
	mov	x14, xzr
	add	x10, x9, #16
L(59_17):
	mov	w11, #256
	mov	x12, x10
L(59_18):
	ldur	q0, [x12, #-8]
	ldur	q1, [x12, #8]
	subs	x11, x11, #4
	stp	q0, q1, [x12, #-16]
	add	x12, x12, #32
	b.ne	L(59_18)
	add	x14, x14, #256
	add	x10, x10, #2048
	sub	x11, x8, x14
	cmp	x11, #256
	b.hi	L(59_17)
	lsl	x12, x14, #3
	add	x13, x9, x12
	ldr	x10, [sp, #16]
	cmp	x8, x14
	b.ne	L(59_22)
	b	L(59_27)
L(59_21):
	mov	x12, xzr
	mov	x13, x9
	mov	x11, x8
	ldr	x10, [sp, #16]
	cmp	x8, xzr
	b.eq	L(59_27)
L(59_22):
	cmp	x11, #4
	b.lo	L(59_24)
	add	x14, x12, x9
	sub	x14, x14, x13
	sub	x14, x14, #8
	cmp	x14, #32
	b.hs	L(59_39)
L(59_24):
	mov	x14, xzr
L(59_25):
	lsl	x15, x14, #3
	add	x12, x9, x12
	sub	x9, x11, x14
	add	x13, x13, x15
	add	x12, x12, x15
	add	x11, x13, #8
L(59_26):
	ldr	x13, [x11], #8
	subs	x9, x9, #1
	str	x13, [x12], #8
	b.ne	L(59_26)
L(59_27):
	add	x0, sp, #80
	add	x1, x21, #24
	mov	x2, xzr
	stp	x8, x10, [sp, #8]
	bl	"std_alloc::vec::Vec::remove::<#7f26edd6ea879dba>"
	ldp	x19, x22, [sp, #96]
	ldr	x23, [sp, #112]
	cbz	x22, L(59_34)
	add	x24, x19, #32
	b	L(59_30)
L(59_29):
	subs	x22, x22, #1
	add	x24, x24, #56
	b.eq	L(59_34)
L(59_30):
	ldur	x8, [x24, #-16]
	ldr	x20, [x24]
	ldr	x25, [x24, #16]
	cbz	x8, L(59_32)
	ldur	x0, [x24, #-32]
	bl	C(yurewha_heap_dealloc)
L(59_32):
	cbz	x25, L(59_29)
	mov	x0, x20
	bl	C(yurewha_heap_dealloc)
	b	L(59_29)
L(59_34):
	cbz	x23, L(59_2)
	mov	x0, x19
	bl	C(yurewha_heap_dealloc)
	b	L(59_2)
L(59_36):
	add	x15, x9, x11
	and	x13, x10, #0x1fc
	add	x14, x12, #24
	add	x15, x15, #16
	and	x16, x10, #0x1fc
L(59_37):
	ldp	q0, q1, [x14, #-16]
	subs	x16, x16, #4
	add	x14, x14, #32
	stp	q0, q1, [x15, #-16]
	add	x15, x15, #32
	b.ne	L(59_37)
	cmp	x10, x13
	b.eq	L(59_15)
	b	L(59_13)
L(59_39):
	add	x16, x9, x12
	and	x14, x11, #0x1fc
	add	x15, x13, #24
	add	x16, x16, #16
	and	x17, x11, #0x1fc
L(59_40):
	ldp	q0, q1, [x15, #-16]
	subs	x17, x17, #4
	add	x15, x15, #32
	stp	q0, q1, [x16, #-16]
	add	x16, x16, #32
	b.ne	L(59_40)
	cmp	x11, x14
	b.eq	L(59_27)
	b	L(59_25)
L(59_42):
	ldp	x8, x9, [sp, #48]
	sub	x22, x9, #1
L(59_43):
	ldr	x0, [x8]
	mov	x9, xzr
	mov	x12, xzr
	cmp	x22, #257
	mov	x11, x8
	mov	x10, x22
	stp	xzr, xzr, [x21, #56]
	b.lo	L(59_49)
	mov	x12, xzr
	add	x9, x8, #16
L(59_45):
	mov	w10, #256
	mov	x11, x9
L(59_46):
	ldur	q0, [x11, #-8]
	ldur	q1, [x11, #8]
	subs	x10, x10, #4
	stp	q0, q1, [x11, #-16]
	add	x11, x11, #32
	b.ne	L(59_46)
	add	x12, x12, #256
	add	x9, x9, #2048
	sub	x10, x22, x12
	cmp	x10, #256
	b.hi	L(59_45)
	lsl	x9, x12, #3
	add	x11, x8, x9
L(59_49):
	cmp	x22, x12
	b.eq	L(59_55)
	cmp	x10, #6
	b.lo	L(59_52)
	add	x14, x9, x8
	sub	x12, x14, x11
	sub	x12, x12, #8
	cmp	x12, #32
	b.hs	L(59_64)
L(59_52):
	mov	x12, xzr
L(59_53):
	lsl	x13, x12, #3
	add	x14, x8, x9
	sub	x8, x10, x12
	add	x11, x13, x11
	add	x10, x14, x13
	add	x9, x11, #8
L(59_54):
	ldr	x11, [x9], #8
	subs	x8, x8, #1
	str	x11, [x10], #8
	b.ne	L(59_54)
L(59_55):
	bl	"std_collections::btree::node::Node::destroy::<#e27c17be7fe85c1a>"
	ldr	x0, [sp, #72]
	b	L(59_102)
L(59_56):
	mov	x19, x0
	cmp	w22, #15
	add	x8, x0, #128
	b.ls	L(59_58)
	lsr	x20, x22, #1
	add	x0, x19, #8
	sub	x21, x22, x20
	mov	x2, x20
	add	x1, x10, x21, lsl #3
	bl	"core::slice::edits::mirror::<i64>"
	mov	w8, #48
	add	x0, x19, #128
	mov	x2, x20
	smaddl	x1, w21, w8, x23
	bl	"core::slice::edits::mirror::<#667d5c0342a2aeff>"
	b	L(59_104)
L(59_58):
	cmp	w22, #2
	b.lo	L(59_100)
	sub	x12, x22, #2
	subs	x9, x22, #1
	lsr	x11, x12, #1
	b.eq	L(59_61)
	ldr	x13, [x10, x9, lsl #3]
	ldr	x14, [x10]
	str	x13, [x10]
	str	x14, [x10, x9, lsl #3]
L(59_61):
	cbz	x11, L(59_94)
	cmp	x12, #1
	b.ls	L(59_67)
	ldr	x13, [x10, x12, lsl #3]
	ldr	x14, [x19, #16]
	str	x13, [x19, #16]
	str	x14, [x10, x12, lsl #3]
	b	L(59_69)
L(59_64):
	and	x12, x10, #0x1fc
	add	x13, x11, #24
	add	x14, x14, #16
	and	x15, x10, #0x1fc
L(59_65):
	ldp	q0, q1, [x13, #-16]
	subs	x15, x15, #4
	add	x13, x13, #32
	stp	q0, q1, [x14, #-16]
	add	x14, x14, #32
	b.ne	L(59_65)
	cmp	x10, x12
	b.eq	L(59_55)
	b	L(59_53)
L(59_67):
	cbnz	x12, L(59_69)
	ldp	x13, x12, [x19, #8]
	stp	x12, x13, [x19, #8]
L(59_69):
	cmp	x11, #1
	b.eq	L(59_94)
	sub	x12, x22, #3
	cmp	x12, #2
	b.ls	L(59_72)
	ldr	x13, [x10, x12, lsl #3]
	ldr	x14, [x19, #24]
	str	x13, [x19, #24]
	str	x14, [x10, x12, lsl #3]
	b	L(59_74)
L(59_72):
	b.eq	L(59_74)
	ldr	x13, [x10, x12, lsl #3]
	ldr	x14, [x19, #24]
	str	x14, [x10, x12, lsl #3]
	str	x13, [x19, #24]
L(59_74):
	cmp	x11, #2
	b.eq	L(59_94)
	sub	x12, x22, #4
	cmp	x12, #3
	b.ls	L(59_77)
	ldr	x13, [x10, x12, lsl #3]
	ldr	x14, [x19, #32]
	str	x13, [x19, #32]
	str	x14, [x10, x12, lsl #3]
	b	L(59_79)
L(59_77):
	b.eq	L(59_79)
	ldr	x13, [x10, x12, lsl #3]
	ldr	x14, [x19, #32]
	str	x14, [x10, x12, lsl #3]
	str	x13, [x19, #32]
L(59_79):
	cmp	x11, #3
	b.eq	L(59_94)
	sub	x12, x22, #5
	cmp	x12, #4
	b.ls	L(59_82)
	ldr	x13, [x10, x12, lsl #3]
	ldr	x14, [x19, #40]
	str	x13, [x19, #40]
	str	x14, [x10, x12, lsl #3]
	b	L(59_84)
L(59_82):
	b.eq	L(59_84)
	ldr	x13, [x10, x12, lsl #3]
	ldr	x14, [x19, #40]
	str	x14, [x10, x12, lsl #3]
	str	x13, [x19, #40]
L(59_84):
	cmp	x11, #4
	b.eq	L(59_94)
	sub	x12, x22, #6
	cmp	x12, #5
	b.ls	L(59_87)
	ldr	x13, [x10, x12, lsl #3]
	ldr	x14, [x19, #48]
	str	x13, [x19, #48]
	str	x14, [x10, x12, lsl #3]
	b	L(59_89)
L(59_87):
	b.eq	L(59_89)
	ldr	x13, [x10, x12, lsl #3]
	ldr	x14, [x19, #48]
	str	x14, [x10, x12, lsl #3]
	str	x13, [x19, #48]
L(59_89):
	cmp	x11, #5
	b.eq	L(59_94)
	sub	x12, x22, #7
	cmp	x12, #6
	b.ls	L(59_92)
	ldr	x13, [x10, x12, lsl #3]
	ldr	x14, [x19, #56]
	str	x13, [x19, #56]
	str	x14, [x10, x12, lsl #3]
	b	L(59_94)
L(59_92):
	b.eq	L(59_94)
	ldr	x13, [x10, x12, lsl #3]
	ldr	x14, [x19, #56]
	str	x14, [x10, x12, lsl #3]
	str	x13, [x19, #56]
L(59_94):
	mov	w12, #48
	mov	x10, xzr
	add	x11, x11, #1
	umaddl	x12, w22, w12, x19
	add	x12, x12, #80
	b	L(59_97)
L(59_95):
	ldp	q0, q1, [x12]
	ldr	q4, [x12, #32]
	ldp	q2, q3, [x8]
	stp	q0, q1, [x8]
	ldr	q0, [x8, #32]
	str	q4, [x8, #32]
	stp	q3, q0, [x12, #16]
	str	q2, [x12]
L(59_96):
	add	x10, x10, #1
	add	x8, x8, #48
	sub	x12, x12, #48
	cmp	x11, x10
	sub	x9, x9, #1
	b.eq	L(59_100)
L(59_97):
	cmp	x10, x9
	b.lo	L(59_95)
	cmp	x9, x10
	b.hs	L(59_96)
	ldp	q0, q1, [x8]
	ldr	q4, [x8, #32]
	ldp	q2, q3, [x12]
	stp	q0, q1, [x12]
	ldr	q0, [x12, #32]
	str	q4, [x12, #32]
	stp	q3, q0, [x8, #16]
	str	q2, [x8]
	b	L(59_96)
L(59_100):
	cbnz	w22, L(59_104)
L(59_101):
	mov	x0, x19
L(59_102):
	ldp	x20, x19, [sp, #304]
	.cfi_remember_state
	.cfi_restore x19
	.cfi_restore x20
	ldp	x22, x21, [sp, #288]
	.cfi_restore x21
	.cfi_restore x22
	ldp	x24, x23, [sp, #272]
	.cfi_restore x23
	.cfi_restore x24
	ldp	x26, x25, [sp, #256]
	.cfi_restore x25
	.cfi_restore x26
	ldp	x28, x27, [sp, #240]
	.cfi_restore x27
	.cfi_restore x28
	ldp	x29, x30, [sp, #224]
	.cfi_def_cfa sp, 320
	.cfi_restore x29
	.cfi_restore x30
	add	sp, sp, #320
	.cfi_def_cfa sp, 0
	hint	#29
	.cfi_escape 0x2d
	b	C(yurewha_heap_dealloc)
L(59_103):
	.cfi_restore_state
	cbz	x22, L(59_101)
L(59_104):
	sub	x22, x22, #1
	mov	w8, #48
	madd	x8, x22, x8, x23
	ldp	x20, x24, [x8, #16]
	ldr	x25, [x8, #32]
	cbz	x24, L(59_111)
	add	x26, x20, #32
	b	L(59_107)
L(59_106):
	subs	x24, x24, #1
	add	x26, x26, #56
	b.eq	L(59_111)
L(59_107):
	ldur	x8, [x26, #-16]
	ldr	x21, [x26]
	ldr	x27, [x26, #16]
	cbz	x8, L(59_109)
	ldur	x0, [x26, #-32]
	bl	C(yurewha_heap_dealloc)
L(59_109):
	cbz	x27, L(59_106)
	mov	x0, x21
	bl	C(yurewha_heap_dealloc)
	b	L(59_106)
L(59_111):
	cbz	x25, L(59_103)
	mov	x0, x20
	bl	C(yurewha_heap_dealloc)
	b	L(59_103)
	SIZE("std_collections::btree::node::Node::destroy::<#e27c17be7fe85c1a>")
	.cfi_endproc

CODE(".text.core::slice::edits::mirror::<i64>")
	.p2align	2
	TYPE("core::slice::edits::mirror::<i64>", function)
"core::slice::edits::mirror::<i64>":
	.cfi_startproc
	lsl	x8, x2, #3
	add	x9, x1, x8
	add	x8, x0, x8
	cmp	x0, x9
	ccmp	x1, x8, #2, lo
	b.lo	L(60_4)
	add	x9, x1, x2, lsl #3
	and	x8, x2, #0x7ffffffffffffffe
	mov	x10, x0
	and	x11, x2, #0x7ffffffffffffffe
	sub	x9, x9, #16
L(60_2):
	ldr	q0, [x9]
	ldr	q1, [x10]
	subs	x11, x11, #2
	ext	v0.16b, v0.16b, v0.16b, #8
	ext	v1.16b, v1.16b, v1.16b, #8
	str	q0, [x10], #16
	str	q1, [x9], #-16
	b.ne	L(60_2)
	cmp	x2, x8
	b.ne	L(60_5)
	b	L(60_7)
L(60_4):
	mov	x8, xzr
L(60_5):
	add	x9, x0, x8, lsl #3
	sub	x8, x2, x8
	sub	x10, x1, #8
L(60_6):
	ldr	x11, [x10, x8, lsl #3]
	ldr	x12, [x9]
	str	x11, [x9], #8
	str	x12, [x10, x8, lsl #3]
	subs	x8, x8, #1
	b.ne	L(60_6)
L(60_7):
	ret
	SIZE("core::slice::edits::mirror::<i64>")
	.cfi_endproc

CODE(".text.core::slice::edits::mirror::<#667d5c0342a2aeff>")
	.p2align	2
	TYPE("core::slice::edits::mirror::<#667d5c0342a2aeff>", function)
"core::slice::edits::mirror::<#667d5c0342a2aeff>":
	.cfi_startproc
	sub	sp, sp, #48
	.cfi_def_cfa sp, 48
	mov	w8, #48
	madd	x8, x2, x8, x1
	sub	x8, x8, #48
L(61_1):
	ldp	q0, q1, [x8]
	sub	x2, x2, #1
	ldp	q2, q3, [x0]
	ldr	q4, [x8, #32]
	stp	q0, q1, [x0]
	ldr	q0, [x0, #32]
	str	q4, [x0, #32]
	add	x0, x0, #48
	stp	q3, q0, [x8, #16]
	str	q2, [x8], #-48
	cbnz	x2, L(61_1)
	add	sp, sp, #48
	.cfi_def_cfa sp, 0
	ret
	SIZE("core::slice::edits::mirror::<#667d5c0342a2aeff>")
	.cfi_endproc

SIZED(16, 4)
	.p2align	4, 0x0
D(CPI62_0):
	.byte	0
	.byte	1
	.byte	2
	.byte	3
	.byte	4
	.byte	5
	.byte	6
	.byte	7
	.byte	8
	.byte	9
	.byte	10
	.byte	11
	.byte	12
	.byte	13
	.byte	14
	.byte	15
D(CPI62_1):
	.byte	16
	.byte	17
	.byte	18
	.byte	19
	.byte	20
	.byte	21
	.byte	22
	.byte	23
	.byte	24
	.byte	25
	.byte	26
	.byte	27
	.byte	28
	.byte	29
	.byte	30
	.byte	31
SIZED(8, 3)
	.p2align	3, 0x0
D(CPI62_2):
	.byte	32
	.byte	33
	.byte	34
	.byte	35
	.byte	36
	.byte	37
	.byte	38
	.byte	39
CODE(".text.line_io::devices::write_all::<#df9e9f1468b30f79>")
	.p2align	2
	TYPE("line_io::devices::write_all::<#df9e9f1468b30f79>", function)
"line_io::devices::write_all::<#df9e9f1468b30f79>":
	.cfi_startproc
	hint	#25
	.cfi_escape 0x2d
	cbz	x1, L(62_9)
	sub	sp, sp, #144
	.cfi_def_cfa sp, 144
	stp	x20, x19, [sp, #128]
	.cfi_offset x19, -8
	.cfi_offset x20, -16
	mov	x19, x1
	mov	x20, x0
	stp	x29, x30, [sp, #96]
	.cfi_offset x29, -48
	.cfi_offset x30, -40
	add	x29, sp, #96
	.cfi_def_cfa x29, 48
	stp	x22, x21, [sp, #112]
L(62_2):
	.cfi_offset x21, -24
	.cfi_offset x22, -32
	mov	w8, #16
L(62_3):
	mov	w0, #1
	mov	x1, x20
	mov	x2, x19
	mov	w21, w8
	bl	C(write)
	tbz	x0, #63, L(62_7)
	mov	x0, sp
	mov	x22, sp
	bl	"std_io::io::error::last_error"
	adrp	x9, PAGE(D(CPI62_0))
	ldr	x8, [sp]
	adrp	x10, PAGE(D(CPI62_1))
	ldr	q0, [x9, LOW(D(CPI62_0))]
	adrp	x9, PAGE(D(CPI62_2))
	ldr	q1, [x10, LOW(D(CPI62_1))]
	ldr	d2, [x9, LOW(D(CPI62_2))]
	ubfx	w9, w8, #8, #8
	mov	w10, #40
	stp	q0, q1, [sp]
	cmp	w9, #41
	str	d2, [sp, #32]
	strb	w10, [sp, #40]
	b.hs	L(62_10)
	ubfx	x8, x8, #8, #6
	mov	w0, #1
	ldrb	w8, [x22, x8]
	cmp	w8, #35
	b.ne	L(62_11)
	sub	w8, w21, #1
	cbnz	w21, L(62_3)
	b	L(62_11)
L(62_7):
	cbz	x0, L(62_12)
	mov	x8, x0
	mov	w0, wzr
	cmp	x8, x19
	csel	x8, x8, x19, lo
	subs	x19, x19, x8
	add	x20, x20, x8
	b.ne	L(62_2)
	b	L(62_11)
L(62_9):
	.cfi_remember_state
	.cfi_def_cfa sp, 0
	.cfi_restore x19
	.cfi_restore x20
	.cfi_restore x21
	.cfi_restore x22
	.cfi_restore x29
	.cfi_restore x30
	mov	w0, wzr
	hint	#29
	.cfi_escape 0x2d
	ret
L(62_10):
	.cfi_restore_state
	mov	w0, #1
L(62_11):
	ldp	x20, x19, [sp, #128]
	.cfi_remember_state
	.cfi_restore x19
	.cfi_restore x20
	ldp	x22, x21, [sp, #112]
	.cfi_restore x21
	.cfi_restore x22
	ldp	x29, x30, [sp, #96]
	.cfi_def_cfa sp, 144
	.cfi_restore x29
	.cfi_restore x30
	add	sp, sp, #144
	.cfi_def_cfa sp, 0
	hint	#29
	.cfi_escape 0x2d
	ret
L(62_12):
	.cfi_restore_state
	mov	w0, #1
	ldp	x20, x19, [sp, #128]
	.cfi_remember_state
	.cfi_restore x19
	.cfi_restore x20
	ldp	x22, x21, [sp, #112]
	.cfi_restore x21
	.cfi_restore x22
	ldp	x29, x30, [sp, #96]
	.cfi_def_cfa sp, 144
	.cfi_restore x29
	.cfi_restore x30
	add	sp, sp, #144
	.cfi_def_cfa sp, 0
	hint	#29
	.cfi_escape 0x2d
	ret
	SIZE("line_io::devices::write_all::<#df9e9f1468b30f79>")
	.cfi_endproc

SIZED(16, 4)
	.p2align	4, 0x0
D(CPI63_0):
	.byte	0
	.byte	1
	.byte	2
	.byte	3
	.byte	4
	.byte	5
	.byte	6
	.byte	7
	.byte	8
	.byte	9
	.byte	10
	.byte	11
	.byte	12
	.byte	13
	.byte	14
	.byte	15
D(CPI63_1):
	.byte	16
	.byte	17
	.byte	18
	.byte	19
	.byte	20
	.byte	21
	.byte	22
	.byte	23
	.byte	24
	.byte	25
	.byte	26
	.byte	27
	.byte	28
	.byte	29
	.byte	30
	.byte	31
SIZED(8, 3)
	.p2align	3, 0x0
D(CPI63_2):
	.byte	32
	.byte	33
	.byte	34
	.byte	35
	.byte	36
	.byte	37
	.byte	38
	.byte	39
CODE(".text.line_io::request::PiecesWrite::write_str::<#03326aa510967ad1>")
	.p2align	2
	TYPE("line_io::request::PiecesWrite::write_str::<#03326aa510967ad1>", function)
"line_io::request::PiecesWrite::write_str::<#03326aa510967ad1>":
	.cfi_startproc
	hint	#25
	.cfi_escape 0x2d
	cbz	x1, L(63_9)
	sub	sp, sp, #144
	.cfi_def_cfa sp, 144
	stp	x20, x19, [sp, #128]
	.cfi_offset x19, -8
	.cfi_offset x20, -16
	mov	x19, x1
	mov	x20, x0
	stp	x29, x30, [sp, #96]
	.cfi_offset x29, -48
	.cfi_offset x30, -40
	add	x29, sp, #96
	.cfi_def_cfa x29, 48
	stp	x22, x21, [sp, #112]
L(63_2):
	.cfi_offset x21, -24
	.cfi_offset x22, -32
	mov	w8, #16
L(63_3):
	mov	w0, #2
	mov	x1, x20
	mov	x2, x19
	mov	w21, w8
	bl	C(write)
	tbz	x0, #63, L(63_7)
	mov	x0, sp
	mov	x22, sp
	bl	"std_io::io::error::last_error"
	adrp	x9, PAGE(D(CPI63_0))
	ldr	x8, [sp]
	adrp	x10, PAGE(D(CPI63_1))
	ldr	q0, [x9, LOW(D(CPI63_0))]
	adrp	x9, PAGE(D(CPI63_2))
	ldr	q1, [x10, LOW(D(CPI63_1))]
	ldr	d2, [x9, LOW(D(CPI63_2))]
	ubfx	w9, w8, #8, #8
	mov	w10, #40
	stp	q0, q1, [sp]
	cmp	w9, #41
	str	d2, [sp, #32]
	strb	w10, [sp, #40]
	b.hs	L(63_10)
	ubfx	x8, x8, #8, #6
	mov	w0, #1
	ldrb	w8, [x22, x8]
	cmp	w8, #35
	b.ne	L(63_11)
	sub	w8, w21, #1
	cbnz	w21, L(63_3)
	b	L(63_11)
L(63_7):
	cbz	x0, L(63_12)
	mov	x8, x0
	mov	w0, wzr
	cmp	x8, x19
	csel	x8, x8, x19, lo
	subs	x19, x19, x8
	add	x20, x20, x8
	b.ne	L(63_2)
	b	L(63_11)
L(63_9):
	.cfi_remember_state
	.cfi_def_cfa sp, 0
	.cfi_restore x19
	.cfi_restore x20
	.cfi_restore x21
	.cfi_restore x22
	.cfi_restore x29
	.cfi_restore x30
	mov	w0, wzr
	hint	#29
	.cfi_escape 0x2d
	ret
L(63_10):
	.cfi_restore_state
	mov	w0, #1
L(63_11):
	ldp	x20, x19, [sp, #128]
	.cfi_remember_state
	.cfi_restore x19
	.cfi_restore x20
	ldp	x22, x21, [sp, #112]
	.cfi_restore x21
	.cfi_restore x22
	ldp	x29, x30, [sp, #96]
	.cfi_def_cfa sp, 144
	.cfi_restore x29
	.cfi_restore x30
	add	sp, sp, #144
	.cfi_def_cfa sp, 0
	hint	#29
	.cfi_escape 0x2d
	ret
L(63_12):
	.cfi_restore_state
	mov	w0, #1
	ldp	x20, x19, [sp, #128]
	.cfi_remember_state
	.cfi_restore x19
	.cfi_restore x20
	ldp	x22, x21, [sp, #112]
	.cfi_restore x21
	.cfi_restore x22
	ldp	x29, x30, [sp, #96]
	.cfi_def_cfa sp, 144
	.cfi_restore x29
	.cfi_restore x30
	add	sp, sp, #144
	.cfi_def_cfa sp, 0
	hint	#29
	.cfi_escape 0x2d
	ret
	SIZE("line_io::request::PiecesWrite::write_str::<#03326aa510967ad1>")
	.cfi_endproc

SIZED(8, 3)
	.p2align	3, 0x0
D(CPI64_0):
	.byte	120
	.byte	101
	.byte	116
	.byte	114
	.byte	111
	.byte	111
	.byte	116
	.byte	58
D(CPI64_1):
	.byte	32
	.byte	102
	.byte	97
	.byte	117
	.zero	1
	.zero	1
	.zero	1
	.zero	1
D(CPI64_2):
	.byte	32
	.byte	97
	.byte	116
	.byte	32
	.byte	108
	.byte	105
	.byte	110
	.byte	101
CODE(".text.xetroot_text::program::report::<#03326aa510967ad1>")
	.p2align	2
	TYPE("xetroot_text::program::report::<#03326aa510967ad1>", function)
"xetroot_text::program::report::<#03326aa510967ad1>":
	.cfi_startproc
	hint	#25
	.cfi_escape 0x2d
	sub	sp, sp, #224
	.cfi_def_cfa sp, 224
	ldrb	w8, [x0]
	stp	x29, x30, [sp, #144]
	.cfi_offset x29, -80
	.cfi_offset x30, -72
	add	x29, sp, #144
	.cfi_def_cfa x29, 80
	str	x25, [sp, #160]
	.cfi_offset x25, -64
	stp	x24, x23, [sp, #176]
	.cfi_offset x23, -40
	.cfi_offset x24, -48
	stp	x22, x21, [sp, #192]
	.cfi_offset x21, -24
	.cfi_offset x22, -32
	stp	x20, x19, [sp, #208]
	.cfi_offset x19, -8
	.cfi_offset x20, -16
	cbz	w8, L(64_4)
	ldrb	w23, [x0, #8]
	movi	v0.2d, #0000000000000000
	mov	w10, #1
	ldr	x20, [x0, #16]
	adrp	x8, PAGE(D(static.24))
	add	x8, x8, LOW(D(static.24))
	lsl	w10, w10, w23
	mov	x9, sp
	mov	w11, #92
	sub	x21, x29, #24
	add	w19, w23, #1
	sub	x9, x9, x8
	tst	w10, w11
	stp	q0, q0, [sp, #16]
	stp	q0, q0, [sp, #48]
	stp	q0, q0, [sp, #80]
	str	q0, [sp]
	b.eq	L(64_5)
	cmp	x9, #14
	b.hi	L(64_7)
	adrp	x8, PAGE(D(CPI64_0))
	adrp	x9, PAGE(D(CPI64_1))
	mov	w10, #29804
	ldr	d0, [x8, LOW(D(CPI64_0))]
	ldr	d1, [x9, LOW(D(CPI64_1))]
	mov	w8, #32
	strh	w10, [sp, #12]
	str	d0, [sp]
	str	s1, [sp, #8]
	strb	w8, [sp, #14]
	b	L(64_8)
L(64_4):
	mov	w19, wzr
	b	L(64_11)
L(64_5):
	cmp	x9, #14
	b.hi	L(64_12)
	adrp	x8, PAGE(D(CPI64_0))
	adrp	x9, PAGE(D(CPI64_1))
	mov	w10, #29804
	ldr	d0, [x8, LOW(D(CPI64_0))]
	ldr	d1, [x9, LOW(D(CPI64_1))]
	mov	w8, #32
	strh	w10, [sp, #12]
	str	d0, [sp]
	str	s1, [sp, #8]
	strb	w8, [sp, #14]
	b	L(64_13)
L(64_7):
	ldr	x9, [x8]
	ldur	x8, [x8, #7]
	str	x9, [sp]
	stur	x8, [sp, #7]
L(64_8):
	orr	w8, w19, #0x30
	strb	w8, [sp, #15]
	mov	w8, #16
L(64_9):
	mov	x9, sp
	add	x1, x8, #1
	mov	w10, #10
	strb	w10, [x9, x8]
	mov	x0, sp
	str	x1, [sp, #104]
L(64_10):
	bl	"line_io::request::PiecesWrite::write_str::<#03326aa510967ad1>"
L(64_11):
	mov	w0, w19
	ldp	x20, x19, [sp, #208]
	.cfi_remember_state
	.cfi_restore x19
	.cfi_restore x20
	ldp	x22, x21, [sp, #192]
	.cfi_restore x21
	.cfi_restore x22
	ldr	x25, [sp, #160]
	.cfi_restore x25
	ldp	x24, x23, [sp, #176]
	.cfi_restore x23
	.cfi_restore x24
	ldp	x29, x30, [sp, #144]
	.cfi_def_cfa sp, 224
	.cfi_restore x29
	.cfi_restore x30
	add	sp, sp, #224
	.cfi_def_cfa sp, 0
	hint	#29
	.cfi_escape 0x2d
	ret
L(64_12):
	.cfi_restore_state
	ldr	x9, [x8]
	ldur	x8, [x8, #7]
	str	x9, [sp]
	stur	x8, [sp, #7]
L(64_13):
	mov	x8, sp
	adrp	x9, PAGE(D(static.25))
	add	x9, x9, LOW(D(static.25))
	add	x8, x8, #16
	orr	w24, w19, #0x30
	sub	x10, x8, x9
	strb	w24, [sp, #15]
	cmp	x10, #8
	b.hi	L(64_15)
	adrp	x8, PAGE(D(CPI64_2))
	ldr	d0, [x8, LOW(D(CPI64_2))]
	mov	w8, #32
	strb	w8, [sp, #24]
	str	d0, [sp, #16]
	b	L(64_16)
L(64_15):
	ldr	x9, [x9]
	mov	w10, #32
	strb	w10, [x8, #8]
	str	x9, [x8]
L(64_16):
	mov	x22, #62915
	mov	w8, #25
	cmp	x20, #100
	movk	x22, #23592, lsl #16
	str	x8, [sp, #104]
	movk	x22, #49807, lsl #32
	stp	xzr, xzr, [x29, #-24]
	movk	x22, #10485, lsl #48
	stur	xzr, [x29, #-8]
	b.lo	L(64_21)
	mov	x9, xzr
	mov	x8, x20
L(64_18):
	mov	x10, x8
	lsr	x8, x8, #2
	mov	w11, #100
	mov	w12, #205
	umulh	x8, x8, x22
	lsr	x8, x8, #2
	msub	w11, w8, w11, w10
	lsr	x10, x10, #4
	cmp	x10, #624
	and	w13, w11, #0xff
	mul	w12, w13, w12
	mov	w13, #10
	lsr	w12, w12, #11
	msub	w11, w12, w13, w11
	sub	x13, x29, #24
	orr	w10, w12, #0x30
	add	x13, x13, x9
	sub	x9, x9, #2
	strb	w10, [x13, #22]
	orr	w11, w11, #0x30
	strb	w11, [x13, #23]
	b.hi	L(64_18)
	add	x9, x9, #24
	cmp	x8, #10
	b.hs	L(64_22)
L(64_20):
	sub	x25, x9, #1
	sub	x9, x29, #24
	orr	w8, w8, #0x30
	strb	w8, [x9, x25]
	mov	w8, #24
	sub	x2, x8, x25
	cmp	x2, #75
	b.ls	L(64_23)
	b	L(64_24)
L(64_21):
	mov	w9, #24
	mov	x8, x20
	cmp	x20, #10
	b.lo	L(64_20)
L(64_22):
	and	w10, w8, #0xff
	mov	w11, #205
	sub	x25, x9, #2
	mul	w10, w10, w11
	mov	w11, #10
	lsr	w10, w10, #11
	msub	w8, w10, w11, w8
	sub	x11, x29, #24
	orr	w10, w10, #0x30
	add	x11, x11, x9
	sturb	w10, [x11, #-2]
	orr	w8, w8, #0x30
	sturb	w8, [x11, #-1]
	mov	w8, #24
	sub	x2, x8, x25
	cmp	x2, #75
	b.hi	L(64_24)
L(64_23):
	sub	x8, x29, #24
	mov	x9, sp
	add	x0, x9, #25
	add	x1, x8, x25
	bl	C(memcpy)
	mov	w8, #49
	cmn	x25, #51
	sub	x8, x8, x25
	str	x8, [sp, #104]
	b.ne	L(64_9)
L(64_24):
	adrp	x0, PAGE(D(static.24))
	add	x0, x0, LOW(D(static.24))
	mov	w1, #15
	sub	x25, x29, #24
	bl	"line_io::request::PiecesWrite::write_str::<#03326aa510967ad1>"
	sub	w8, w23, #2
	cmp	w8, #2
	and	w8, w0, #0xff
	b.hi	L(64_28)
	tbnz	w8, #0, L(64_11)
	mov	w8, #45
	stp	xzr, xzr, [x29, #-24]
	add	x0, x25, #23
	stur	xzr, [x21, #14]
	mov	w1, #1
	sturb	w24, [x29, #-1]
	sturb	w8, [x29, #-2]
	bl	"line_io::request::PiecesWrite::write_str::<#03326aa510967ad1>"
	and	w8, w0, #0xff
	tbnz	w8, #0, L(64_11)
L(64_27):
	adrp	x0, PAGE(D(static.14))
	add	x0, x0, LOW(D(static.14))
	mov	w1, #1
	b	L(64_10)
L(64_28):
	tbnz	w8, #0, L(64_11)
	mov	w8, #45
	add	x0, x25, #23
	mov	w1, #1
	stp	xzr, xzr, [x29, #-24]
	stur	xzr, [x21, #14]
	sturb	w24, [x29, #-1]
	sturb	w8, [x29, #-2]
	bl	"line_io::request::PiecesWrite::write_str::<#03326aa510967ad1>"
	and	w8, w0, #0xff
	tbnz	w8, #0, L(64_11)
	adrp	x0, PAGE(D(static.25))
	add	x0, x0, LOW(D(static.25))
	mov	w1, #9
	bl	"line_io::request::PiecesWrite::write_str::<#03326aa510967ad1>"
	and	w8, w0, #0xff
	tbnz	w8, #0, L(64_11)
	cmp	x20, #100
	stp	xzr, xzr, [x29, #-24]
	stur	xzr, [x29, #-8]
	b.lo	L(64_35)
	mov	x8, xzr
L(64_33):
	lsr	x10, x20, #2
	mov	x9, x20
	mov	w11, #205
	umulh	x10, x10, x22
	lsr	x20, x10, #2
	mov	w10, #100
	msub	w10, w20, w10, w9
	lsr	x9, x9, #4
	cmp	x9, #624
	and	w12, w10, #0xff
	mul	w11, w12, w11
	mov	w12, #10
	lsr	w11, w11, #11
	msub	w10, w11, w12, w10
	sub	x12, x29, #24
	orr	w9, w11, #0x30
	add	x12, x12, x8
	sub	x8, x8, #2
	strb	w9, [x12, #22]
	orr	w10, w10, #0x30
	strb	w10, [x12, #23]
	b.hi	L(64_33)
	add	x8, x8, #24
	b	L(64_36)
L(64_35):
	mov	w8, #24
L(64_36):
	cmp	x20, #10
	b.lo	L(64_38)
	and	w9, w20, #0xff
	mov	w10, #205
	sub	x11, x29, #24
	mul	w9, w9, w10
	mov	w10, #10
	add	x11, x11, x8
	sub	x8, x8, #2
	lsr	w9, w9, #11
	msub	w10, w9, w10, w20
	orr	w9, w9, #0x30
	sturb	w9, [x11, #-2]
	orr	w10, w10, #0x30
	sturb	w10, [x11, #-1]
	b	L(64_39)
L(64_38):
	sub	x8, x8, #1
	sub	x9, x29, #24
	orr	w10, w20, #0x30
	strb	w10, [x9, x8]
L(64_39):
	sub	x9, x29, #24
	mov	w10, #24
	add	x0, x9, x8
	mov	w9, #45
	sub	x1, x10, x8
	sturb	w9, [x0, #-1]
	bl	"line_io::request::PiecesWrite::write_str::<#03326aa510967ad1>"
	and	w8, w0, #0xff
	tbnz	w8, #0, L(64_11)
	b	L(64_27)
	SIZE("xetroot_text::program::report::<#03326aa510967ad1>")
	.cfi_endproc

SIZED(16, 4)
	.p2align	4, 0x0
D(CPI65_0):
	.byte	0
	.byte	1
	.byte	2
	.byte	3
	.byte	4
	.byte	5
	.byte	6
	.byte	7
	.byte	8
	.byte	9
	.byte	10
	.byte	11
	.byte	12
	.byte	13
	.byte	14
	.byte	15
D(CPI65_1):
	.byte	16
	.byte	17
	.byte	18
	.byte	19
	.byte	20
	.byte	21
	.byte	22
	.byte	23
	.byte	24
	.byte	25
	.byte	26
	.byte	27
	.byte	28
	.byte	29
	.byte	30
	.byte	31
D(CPI65_3):
	.xword	2
	.xword	0
D(CPI65_4):
	.xword	0
	.xword	1
SIZED(8, 3)
	.p2align	3, 0x0
D(CPI65_2):
	.byte	32
	.byte	33
	.byte	34
	.byte	35
	.byte	36
	.byte	37
	.byte	38
	.byte	39
CODE(.text.main)
	.globl	C(yurewha_program)
	.p2align	2
	TYPE(C(yurewha_program), function)
C(yurewha_program):
	.cfi_startproc
	hint	#25
	.cfi_escape 0x2d
	stp	x29, x30, [sp, #-96]!
	.cfi_def_cfa sp, 96
	.cfi_offset x29, -96
	.cfi_offset x30, -88
	sub	x9, sp, #16, lsl #12
	stp	x28, x27, [sp, #16]
	.cfi_offset x27, -72
	.cfi_offset x28, -80
	mov	x29, sp
	.cfi_def_cfa x29, 96
	sub	x9, x9, #2048
	stp	x26, x25, [sp, #32]
	.cfi_offset x25, -56
	.cfi_offset x26, -64
	stp	x24, x23, [sp, #48]
	.cfi_offset x23, -40
	.cfi_offset x24, -48
	stp	x22, x21, [sp, #64]
	.cfi_offset x21, -24
	.cfi_offset x22, -32
	stp	x20, x19, [sp, #80]
L(65_1):
	.cfi_offset x19, -8
	.cfi_offset x20, -16
	sub	sp, sp, #3072
	cmp	sp, x9
	str	xzr, [sp]
	b.ne	L(65_1)
	sub	sp, sp, #2448
	add	x26, sp, #16, lsl #12
	mov	w0, #13
	mov	w1, #1
	str	xzr, [sp]
	add	x26, x26, #2352
	add	x28, sp, #368
	bl	C(yurewha_run_signal)
	mov	x25, xzr
	mov	x20, xzr
	sub	x19, x29, #24
	stp	xzr, xzr, [x26, #88]
	str	x19, [x26, #80]
L(65_3):
	mov	w27, #64
	mov	w22, #256
	b	L(65_5)
L(65_4):
	adds	x8, x22, x22
	csinv	x22, x8, xzr, lo
	subs	w27, w27, #1
	b.eq	L(65_24)
L(65_5):
	sub	x21, x29, #24
	stp	xzr, xzr, [x28, #8]
	str	x21, [sp, #368]
	cbnz	x22, L(65_10)
	mov	x23, xzr
L(65_7):
	mov	x0, x20
	mov	x1, x21
	mov	x2, x23
	bl	C(yurewha_run_argument)
	mov	w8, #36
	cmn	x0, #1
	mov	w9, #22
	csel	w8, w9, w8, eq
	mov	x24, x0
	csel	w0, wzr, w8, gt
	bl	C(yurewha_run_set_errno)
	bl	C(yurewha_run_errno)
	cmp	w0, #36
	b.ne	L(65_13)
	ldr	x8, [sp, #384]
	cbz	x8, L(65_4)
	mov	x0, x21
	bl	C(yurewha_heap_dealloc)
	b	L(65_4)
L(65_10):
	add	x0, sp, #368
	mov	x1, x22
	bl	"std_alloc::vec::Vec::grow_amortized::<#bc82ad78765e08fe>"
	cbz	w0, L(65_22)
	ldp	x21, x8, [sp, #368]
	add	x23, x8, x22
	cmp	x8, x23
	b.hs	L(65_7)
	add	x0, x21, x8
	mov	w1, wzr
	mov	x2, x22
	bl	C(memset)
	b	L(65_7)
L(65_13):
	cbnz	w0, L(65_19)
	cmp	x24, x23
	add	x0, sp, #368
	mov	x1, x21
	csel	x8, x24, x23, lo
	cmp	x24, #0
	ldr	x23, [sp, #384]
	csel	x22, x8, xzr, gt
	stp	xzr, xzr, [sp, #368]
	mov	x2, x22
	str	xzr, [sp, #384]
	bl	"core::str::utf8::from_utf8"
	ldrb	w8, [sp, #368]
	cmp	w8, #1
	b.eq	L(65_96)
	ldr	x8, [x26, #96]
	cmp	x8, x25
	b.eq	L(65_17)
L(65_16):
	mov	w8, #24
	add	x20, x20, #1
	madd	x8, x25, x8, x19
	add	x25, x25, #1
	cmn	x20, #1
	stp	x21, x22, [x8]
	str	x23, [x8, #16]
	str	x25, [x26, #88]
	b.ne	L(65_3)
	b	L(65_21)
L(65_17):
	add	x0, sp, #16, lsl #12
	add	x0, x0, #2432
	bl	"std_alloc::vec::Vec::grow_amortized::<#383813664ff73b2b>"
	cbz	w0, L(65_170)
	ldp	x19, x25, [x26, #80]
	b	L(65_16)
L(65_19):
	ldr	x8, [sp, #384]
	cbz	x8, L(65_21)
	mov	x0, x21
	bl	C(yurewha_heap_dealloc)
L(65_21):
	ldr	x19, [x26, #80]
	ldr	x21, [x26, #96]
	mov	w22, #1
	b	L(65_33)
L(65_22):
	ldr	x8, [sp, #384]
	cbz	x8, L(65_24)
	ldr	x0, [sp, #368]
	bl	C(yurewha_heap_dealloc)
L(65_24):
	ldr	x20, [x26, #96]
	cbz	x25, L(65_29)
	add	x21, x19, #16
	b	L(65_27)
L(65_26):
	subs	x25, x25, #1
	add	x21, x21, #24
	b.eq	L(65_29)
L(65_27):
	ldr	x8, [x21]
	cbz	x8, L(65_26)
	ldur	x0, [x21, #-16]
	bl	C(yurewha_heap_dealloc)
	b	L(65_26)
L(65_29):
	cbz	x20, L(65_31)
L(65_30):
	mov	x0, x19
	bl	C(yurewha_heap_dealloc)
L(65_31):
	mov	w22, wzr
	mov	x25, xzr
	mov	x21, xzr
L(65_32):
	mov	w19, #9729
L(65_33):
	adrp	x24, PAGE(D(CPI65_0))
	adrp	x23, PAGE(D(CPI65_1))
	adrp	x20, PAGE(D(CPI65_2))
	stp	xzr, xzr, [sp, #88]
	stp	xzr, xzr, [sp, #72]
	stp	xzr, xzr, [sp, #56]
	stp	xzr, xzr, [sp, #40]
	stp	xzr, xzr, [sp, #24]
	stp	xzr, xzr, [sp, #8]
	cbz	w22, L(65_53)
	cbz	x25, L(65_38)
	ldr	x0, [x19]
	ldr	x27, [x19, #16]
	cmp	x25, #1
	b.ne	L(65_57)
	cbz	x27, L(65_38)
	bl	C(yurewha_heap_dealloc)
L(65_38):
	cbz	x21, L(65_40)
	mov	x0, x19
	bl	C(yurewha_heap_dealloc)
L(65_40):
	movi	v0.2d, #0000000000000000
	add	x19, sp, #16, lsl #12
	add	x25, sp, #16, lsl #12
	add	x19, x19, #368
	add	x25, x25, #368
	mov	w1, wzr
	add	x0, x19, #96
	mov	w2, #1864
	stur	q0, [x25, #72]
	stur	q0, [x25, #56]
	stur	q0, [x25, #40]
	stp	q0, q0, [x25]
	bl	C(memset)
	movi	v0.2d, #0000000000000000
	sub	x8, x29, #24
	add	x22, sp, #128
	str	x8, [x25, #32]
	adrp	x8, PAGE(D(CPI65_4))
	add	x0, sp, #368
	mov	w1, wzr
	mov	w2, #65536
	str	xzr, [sp, #352]
	str	xzr, [sp, #112]
	stp	q0, q0, [x22, #16]
	stp	q0, q0, [x22, #80]
	stp	q0, q0, [x22, #112]
	stp	q0, q0, [x22, #144]
	stp	q0, q0, [x22, #176]
	str	q0, [x22, #208]
	str	q0, [sp, #128]
	str	q0, [x22, #48]
	ldr	q0, [x8, LOW(D(CPI65_4))]
	add	x8, x19, #1960
	stur	xzr, [x22, #63]
	stur	wzr, [sp, #119]
	strh	wzr, [sp, #108]
	str	wzr, [sp, #104]
	str	xzr, [x25, #88]
	str	q0, [x8]
	str	xzr, [x25, #1976]
	bl	C(memset)
	mov	w19, wzr
L(65_41):
	add	x1, sp, #368
	mov	w0, wzr
	mov	w2, #65536
	bl	C(read)
	tbnz	x0, #63, L(65_45)
	cmp	x0, #16, lsl #12
	mov	w8, #65536
	csel	x3, x0, x8, lo
	cbz	x0, L(65_60)
	ldr	x8, [x25, #1960]
	movi	v0.2d, #0000000000000000
	mov	x9, #1099511627776
	subs	x8, x9, x8
	csel	x8, xzr, x8, lo
	cmp	x3, x8
	stp	q0, q0, [x26, #80]
	str	q0, [x26, #2080]
	str	q0, [x26, #2096]
	b.hi	L(65_64)
	add	x0, sp, #16, lsl #12
	add	x1, sp, #16, lsl #12
	add	x2, sp, #368
	add	x0, x0, #2432
	add	x1, x1, #368
	bl	"line_io::reading::Reading::take_within::<#42ff4d2293d53660>"
	ldrb	w8, [x26, #80]
	mov	w19, wzr
	cbz	w8, L(65_41)
	b	L(65_65)
L(65_45):
	add	x0, sp, #16, lsl #12
	add	x21, sp, #16, lsl #12
	add	x0, x0, #2432
	add	x21, x21, #2432
	bl	"std_io::io::error::last_error"
	ldr	x8, [x26, #80]
	ldr	q0, [x24, LOW(D(CPI65_0))]
	mov	w10, #40
	ldr	q1, [x23, LOW(D(CPI65_1))]
	ldr	d2, [x20, LOW(D(CPI65_2))]
	strb	w10, [x26, #120]
	ubfx	w9, w8, #8, #8
	stp	q0, q1, [x26, #80]
	cmp	w9, #41
	str	d2, [x26, #112]
	b.hs	L(65_48)
	ubfx	x8, x8, #8, #6
	ldrb	w8, [x21, x8]
	cmp	w8, #35
	b.ne	L(65_48)
	add	w19, w19, #1
	cmp	w19, #17
	b.ne	L(65_41)
L(65_48):
	ldrb	w8, [x25]
	ldr	x19, [x25, #32]
	ldr	x20, [x25, #48]
	cmp	w8, #1
	b.ne	L(65_50)
	ldr	x0, [x25, #8]
	bl	"std_collections::btree::node::Node::destroy::<#e27c17be7fe85c1a>"
L(65_50):
	cbz	x20, L(65_52)
	mov	x0, x19
	bl	C(yurewha_heap_dealloc)
	mov	x20, xzr
L(65_52):
	mov	w21, wzr
	mov	w22, #2
	b	L(65_70)
L(65_53):
	ldr	q0, [x24, LOW(D(CPI65_0))]
	ldr	q1, [x23, LOW(D(CPI65_1))]
	ubfx	w8, w19, #8, #8
	ldr	d2, [x20, LOW(D(CPI65_2))]
	add	x9, sp, #128
	stp	q0, q1, [x9, #240]
	mov	w9, #40
	cmp	w8, #41
	str	d2, [sp, #400]
	strb	w9, [sp, #408]
	b.hs	L(65_56)
	ubfx	x8, x19, #8, #6
	add	x9, sp, #368
	ldrb	w8, [x9, x8]
	cmp	w8, #38
	b.ne	L(65_56)
	adrp	x8, PAGE(D(CPI65_3))
	mov	w9, #1
	add	x0, sp, #8
	ldr	q0, [x8, LOW(D(CPI65_3))]
	strb	w9, [sp, #8]
	stur	q0, [sp, #16]
	b	L(65_197)
L(65_56):
	mov	x20, xzr
	mov	x23, xzr
	mov	x19, xzr
	mov	x24, xzr
	mov	x21, xzr
	mov	x25, xzr
	b	L(65_125)
L(65_57):
	ldr	x20, [x19, #24]
	ldr	x23, [x19, #40]
	subs	x24, x25, #2
	b.eq	L(65_76)
	cbz	x27, L(65_124)
	bl	C(yurewha_heap_dealloc)
	b	L(65_124)
L(65_60):
	add	x0, sp, #16, lsl #12
	add	x1, sp, #16, lsl #12
	mov	w2, #1984
	add	x0, x0, #2432
	add	x1, x1, #368
	strb	wzr, [x26, #2082]
	strh	wzr, [x26, #2080]
	bl	C(memcpy)
	ldrb	w8, [x26, #2056]
	tbz	w8, #0, L(65_80)
	add	x1, sp, #16, lsl #12
	sub	x0, x29, #64
	add	x1, x1, #2432
	bl	"pair_text::said_lines::SaidLinesTakeLines::end_line::<#a10fcec3e4a5dd02>"
	ldrb	w8, [x26, #2080]
	cmp	w8, #1
	b.ne	L(65_83)
	ldrb	w22, [x26, #2081]
	ldrb	w8, [x26, #2082]
	ldr	x9, [x26, #2048]
	ldrb	w10, [x26, #80]
	ldr	x19, [x26, #112]
	ldr	x23, [x26, #128]
	cmp	w22, #0
	csel	x20, x9, xzr, eq
	csel	w21, w8, wzr, eq
	cmp	w10, #1
	b.ne	L(65_68)
	ldr	x0, [x26, #88]
	b	L(65_67)
L(65_64):
	add	x1, sp, #16, lsl #12
	sub	x0, x29, #64
	add	x2, sp, #368
	add	x1, x1, #368
	mov	x3, x8
	add	x20, sp, #16, lsl #12
	sub	x19, x29, #64
	add	x20, x20, #368
	bl	"line_io::reading::Reading::take_within::<#42ff4d2293d53660>"
	ldrb	w8, [x26, #2080]
	add	x9, x19, #16
	add	x10, x20, #1968
	ldrb	w11, [x26, #2088]
	cmp	w8, #0
	ldrb	w8, [x26, #2104]
	csel	x9, x10, x9, eq
	csel	w22, wzr, w11, eq
	ldr	x20, [x9]
	csel	w21, wzr, w8, eq
	ldrb	w8, [x25]
	ldr	x19, [x25, #32]
	ldr	x23, [x25, #48]
	cmp	w8, #1
	b.ne	L(65_68)
	b	L(65_66)
L(65_65):
	ldrb	w22, [x26, #88]
	ldr	x20, [x26, #96]
	ldrb	w21, [x26, #104]
	ldrb	w8, [x25]
	ldr	x19, [x25, #32]
	ldr	x23, [x25, #48]
	cmp	w8, #1
	b.ne	L(65_68)
L(65_66):
	ldr	x0, [x25, #8]
L(65_67):
	bl	"std_collections::btree::node::Node::destroy::<#e27c17be7fe85c1a>"
L(65_68):
	cbz	x23, L(65_70)
	mov	x0, x19
	bl	C(yurewha_heap_dealloc)
L(65_70):
	cmp	w22, #2
	b.eq	L(65_75)
	cmp	w22, #1
	b.eq	L(65_195)
	ands	w8, w21, #0xff
	b.eq	L(65_81)
	cmp	w8, #2
	b.ne	L(65_82)
	mov	w8, #1
	b	L(65_196)
L(65_75):
	mov	x20, xzr
	mov	w8, #3
	b	L(65_196)
L(65_76):
	ldr	x8, [x19, #32]
	cmp	x8, #9
	b.eq	L(65_114)
	cmp	x8, #6
	b.eq	L(65_106)
	cmp	x8, #2
	b.ne	L(65_121)
	ldrb	w8, [x20, #1]
	ldrb	w9, [x20]
	lsl	x10, x8, #8
	orr	x9, x10, x9, lsl #16
	orr	x8, x9, x8
	sub	x8, x8, #726, lsl #12
	cmp	x8, #2152
	b.eq	L(65_107)
	b	L(65_121)
L(65_80):
	ldur	q0, [x25, #33]
	ldur	q1, [x25, #49]
	ldur	q2, [x25, #65]
	ldr	x9, [x25, #80]
	ldrb	w8, [x26, #96]
	str	q0, [x25, #2000]
	ldr	q0, [x26, #80]
	str	q1, [x25, #2016]
	ldur	q1, [x25, #17]
	str	q2, [x25, #2032]
	stur	x9, [x26, #63]
	b	L(65_84)
L(65_81):
	and	x8, x21, #0xff
	b	L(65_196)
L(65_82):
	mov	w8, #5
	b	L(65_196)
L(65_83):
	ldur	q0, [x26, #129]
	ldur	q1, [x26, #145]
	ldr	x8, [x26, #160]
	ldur	q2, [x26, #113]
	stp	q0, q1, [x26, #32]
	ldur	q1, [x26, #97]
	ldr	q0, [x26, #80]
	stur	x8, [x26, #63]
	ldrb	w8, [x26, #96]
	str	q2, [x26, #16]
L(65_84):
	str	q1, [x26]
	ldp	q1, q2, [x26, #16]
	ldr	q3, [x26, #48]
	add	x0, sp, #368
	add	x19, sp, #368
	ldur	x9, [x26, #63]
	str	q0, [x22, #240]
	ldr	q4, [x26]
	stp	q1, q2, [x22, #16]
	ldp	q0, q1, [x22, #16]
	str	q3, [x22, #48]
	stur	x9, [x22, #63]
	str	q4, [sp, #128]
	stur	q0, [x28, #33]
	ldr	q0, [x22, #48]
	strb	w8, [sp, #384]
	stur	q0, [x28, #65]
	ldr	q0, [sp, #128]
	str	wzr, [x26, #2072]
	strb	wzr, [x26, #2076]
	str	wzr, [x26, #2064]
	strh	wzr, [x26, #2068]
	stur	q1, [x28, #49]
	str	x9, [sp, #448]
	stur	q0, [x28, #17]
	bl	"xetroot_text::placed_pairs::PlacedPairs::end_range::<#ca9445b3ca2ffbf0>"
	and	w8, w0, #0xff
	tbnz	w8, #0, L(65_191)
	ldrb	w9, [sp, #368]
	ldr	x8, [sp, #440]
	cmp	w9, #1
	b.ne	L(65_95)
	ldr	x0, [sp, #376]
	ldrh	w9, [x0]
	cbz	w9, L(65_136)
	orr	x10, x19, #0x8
L(65_88):
	ldr	x9, [x10]
	ldrh	w11, [x9, #2]
	add	x10, x9, #848
	cbnz	w11, L(65_88)
	ldr	x10, [x9, #8]
	cbnz	x10, L(65_137)
	ldr	x10, [x9, #128]
	cmp	x10, x8
	b.ne	L(65_137)
	ldr	x8, [sp, #384]
	cmp	x8, #1
	b.hi	L(65_137)
	mov	x19, x9
	ldrb	w8, [x19, #136]!
	tbnz	w8, #0, L(65_214)
	ldrb	w8, [x9, #137]
	tbnz	w8, #0, L(65_214)
	mov	w20, #1
	b	L(65_142)
L(65_95):
	cbnz	x8, L(65_138)
	b	L(65_141)
L(65_96):
	cbz	x23, L(65_98)
	mov	x0, x21
	bl	C(yurewha_heap_dealloc)
L(65_98):
	ldr	x19, [x26, #80]
	ldr	x20, [x26, #96]
	cbz	x25, L(65_103)
	add	x21, x19, #16
	b	L(65_101)
L(65_100):
	subs	x25, x25, #1
	add	x21, x21, #24
	b.eq	L(65_103)
L(65_101):
	ldr	x8, [x21]
	cbz	x8, L(65_100)
	ldur	x0, [x21, #-16]
	bl	C(yurewha_heap_dealloc)
	b	L(65_100)
L(65_103):
	cbz	x20, L(65_105)
	mov	x0, x19
	bl	C(yurewha_heap_dealloc)
L(65_105):
	mov	w22, wzr
	mov	x25, xzr
	mov	x21, xzr
	mov	w19, #5377
	b	L(65_33)
L(65_106):
	ldr	w8, [x20]
	ldur	w9, [x20, #2]
	orr	x8, x8, x9, lsl #32
	mov	x9, #11565
	movk	x9, #25960, lsl #16
	movk	x9, #25960, lsl #32
	movk	x9, #28780, lsl #48
	cmp	x8, x9
	b.ne	L(65_121)
L(65_107):
	cbz	x23, L(65_109)
	mov	x22, x0
	mov	x0, x20
	bl	C(yurewha_heap_dealloc)
	mov	x0, x22
L(65_109):
	cbz	x27, L(65_111)
	bl	C(yurewha_heap_dealloc)
L(65_111):
	cbz	x21, L(65_113)
	mov	x0, x19
	bl	C(yurewha_heap_dealloc)
L(65_113):
	adrp	x0, PAGE(D(static.1))
	add	x0, x0, LOW(D(static.1))
	mov	w1, #754
	bl	"line_io::devices::write_all::<#df9e9f1468b30f79>"
	and	w8, w0, #0xff
	add	x0, sp, #56
	lsl	w9, w8, #2
	strb	w8, [sp, #56]
	stp	x9, xzr, [sp, #64]
	b	L(65_197)
L(65_114):
	mov	x9, #11565
	ldr	x8, [x20]
	movk	x9, #25974, lsl #16
	movk	x9, #29554, lsl #32
	movk	x9, #28521, lsl #48
	cmp	x8, x9
	b.ne	L(65_121)
	mov	x9, #30253
	ldur	x8, [x20, #1]
	movk	x9, #29285, lsl #16
	movk	x9, #26995, lsl #32
	movk	x9, #28271, lsl #48
	cmp	x8, x9
	b.ne	L(65_121)
	cbz	x23, L(65_118)
	mov	x22, x0
	mov	x0, x20
	bl	C(yurewha_heap_dealloc)
	mov	x0, x22
L(65_118):
	cbz	x27, L(65_120)
	bl	C(yurewha_heap_dealloc)
L(65_120):
	adrp	x8, PAGE(D(CPI65_3))
	add	x0, sp, #16, lsl #12
	stp	x19, xzr, [x26, #80]
	ldr	q0, [x8, LOW(D(CPI65_3))]
	add	x0, x0, #2432
	str	x21, [x26, #96]
	stur	q0, [x26, #104]
	bl	"std_alloc::vec::deque::VecDeque::drop::<#f88921834ea0b950>"
	adrp	x0, PAGE(D(static.2))
	add	x0, x0, LOW(D(static.2))
	mov	w1, #52
	bl	"line_io::devices::write_all::<#df9e9f1468b30f79>"
	and	w8, w0, #0xff
	add	x0, sp, #32
	lsl	w9, w8, #2
	strb	w8, [sp, #32]
	stp	x9, xzr, [sp, #40]
	b	L(65_197)
L(65_121):
	cbz	x27, L(65_123)
	bl	C(yurewha_heap_dealloc)
L(65_123):
	mov	x24, xzr
L(65_124):
	mov	w25, #2
L(65_125):
	movi	v0.2d, #0000000000000000
	mov	w8, #51
	adrp	x9, PAGE(D(static.3))
	add	x9, x9, LOW(D(static.3))
	stp	xzr, x8, [sp, #464]
	add	x0, sp, #368
	mov	w1, #51
	stur	q0, [x28, #50]
	stur	q0, [x28, #82]
	stur	q0, [x28, #66]
	ldp	q1, q0, [x9]
	stp	q1, q0, [x28]
	ldr	q0, [x9, #32]
	mov	w9, #28271
	strh	w9, [sp, #416]
	mov	w9, #10
	str	q0, [x28, #32]
	strb	w9, [sp, #418]
	bl	"line_io::request::PiecesWrite::write_str::<#03326aa510967ad1>"
	cbz	w22, L(65_135)
	cbz	x23, L(65_128)
	mov	x0, x20
	bl	C(yurewha_heap_dealloc)
L(65_128):
	cbz	x24, L(65_133)
	mov	w8, #24
	umaddl	x8, w25, w8, x19
	add	x20, x8, #16
	b	L(65_131)
L(65_130):
	subs	x24, x24, #1
	add	x20, x20, #24
	b.eq	L(65_133)
L(65_131):
	ldr	x8, [x20]
	cbz	x8, L(65_130)
	ldur	x0, [x20, #-16]
	bl	C(yurewha_heap_dealloc)
	b	L(65_130)
L(65_133):
	cbz	x21, L(65_135)
	mov	x0, x19
	bl	C(yurewha_heap_dealloc)
L(65_135):
	mov	w0, #64
	b	L(65_198)
L(65_136):
	cbz	x8, L(65_141)
L(65_137):
	bl	"std_collections::btree::node::Node::destroy::<#e27c17be7fe85c1a>"
L(65_138):
	ldr	x8, [sp, #416]
	cbz	x8, L(65_140)
	ldr	x0, [sp, #400]
	bl	C(yurewha_heap_dealloc)
L(65_140):
	mov	x20, xzr
	mov	w8, #6
	b	L(65_196)
L(65_141):
	mov	w20, wzr
	mov	x19, xzr
L(65_142):
	movi	v0.2d, #0000000000000000
	add	x0, sp, #16, lsl #12
	sub	x2, x29, #24
	add	x0, x0, #2432
	mov	w1, #1
	mov	x3, xzr
	mov	w4, wzr
	stp	q0, q0, [x26, #80]
	str	q0, [x26, #112]
	stp	q0, q0, [x25]
	str	q0, [x25, #32]
	bl	"xet_merkle::merkle_hash_subtree::subtree::as_range::MerkleHashSubtreeChunkRange::from_chunks::<#d96a70c1b70ca186>"
	ldrb	w8, [x26, #80]
	cbz	w8, L(65_144)
	ldrb	w21, [x26, #81]
	b	L(65_190)
L(65_144):
	ldur	q0, [x26, #88]
	ldur	q1, [x26, #104]
	ldr	x8, [x26, #120]
	stp	q0, q1, [x26]
	str	x8, [x26, #32]
	tbz	w20, #0, L(65_153)
	movi	v0.2d, #0000000000000000
	add	x1, sp, #16, lsl #12
	sub	x0, x29, #64
	add	x1, x1, #2352
	mov	x2, x19
	mov	w3, wzr
	str	q0, [x26, #2096]
	str	q0, [x26, #2080]
	bl	"xet_merkle::merkle_hash_subtree::subtree::MerkleHashSubtree::merge_with::<#3cf6a99334775a21>"
	ldrb	w8, [x26, #2080]
	ldrb	w9, [x26, #2081]
	cmp	w8, #0
	csel	w21, wzr, w9, eq
	cbz	w8, L(65_153)
	ldp	x19, x23, [x26, #8]
	ldr	x22, [x26, #24]
	cbz	x23, L(65_188)
	add	x24, x19, #32
	b	L(65_149)
L(65_148):
	subs	x23, x23, #1
	add	x24, x24, #56
	b.eq	L(65_188)
L(65_149):
	ldur	x8, [x24, #-16]
	ldr	x20, [x24]
	ldr	x25, [x24, #16]
	cbz	x8, L(65_151)
	ldur	x0, [x24, #-32]
	bl	C(yurewha_heap_dealloc)
L(65_151):
	cbz	x25, L(65_148)
	mov	x0, x20
	bl	C(yurewha_heap_dealloc)
	b	L(65_148)
L(65_153):
	add	x0, sp, #16, lsl #12
	sub	x2, x29, #24
	mov	w1, wzr
	add	x0, x0, #368
	mov	x3, xzr
	mov	w4, #1
	add	x27, sp, #16, lsl #12
	add	x27, x27, #368
	bl	"xet_merkle::merkle_hash_subtree::subtree::as_range::MerkleHashSubtreeChunkRange::from_chunks::<#d96a70c1b70ca186>"
	ldrb	w8, [x25]
	cbz	w8, L(65_162)
	ldp	x19, x22, [x26, #8]
	ldrb	w21, [x25, #1]
	ldr	x23, [x26, #24]
	cbz	x22, L(65_161)
	add	x24, x19, #32
	b	L(65_157)
L(65_156):
	subs	x22, x22, #1
	add	x24, x24, #56
	b.eq	L(65_161)
L(65_157):
	ldur	x8, [x24, #-16]
	ldr	x20, [x24]
	ldr	x25, [x24, #16]
	cbz	x8, L(65_159)
	ldur	x0, [x24, #-32]
	bl	C(yurewha_heap_dealloc)
L(65_159):
	cbz	x25, L(65_156)
	mov	x0, x20
	bl	C(yurewha_heap_dealloc)
	b	L(65_156)
L(65_161):
	cbnz	x23, L(65_189)
	b	L(65_190)
L(65_162):
	movi	v0.2d, #0000000000000000
	ldp	x19, x23, [x25, #16]
	add	x1, sp, #16, lsl #12
	ldr	x22, [x25, #32]
	sub	x0, x29, #64
	add	x1, x1, #2352
	orr	x2, x27, #0x8
	mov	w3, wzr
	str	q0, [x26, #2096]
	str	q0, [x26, #2080]
	bl	"xet_merkle::merkle_hash_subtree::subtree::MerkleHashSubtree::merge_with::<#3cf6a99334775a21>"
	ldrb	w8, [x26, #2080]
	ldrb	w9, [x26, #2081]
	cmp	w8, #0
	csel	w21, wzr, w9, eq
	cbz	w8, L(65_199)
	cbz	x23, L(65_179)
	add	x24, x19, #32
	b	L(65_166)
L(65_165):
	subs	x23, x23, #1
	add	x24, x24, #56
	b.eq	L(65_179)
L(65_166):
	ldur	x8, [x24, #-16]
	ldr	x20, [x24]
	ldr	x25, [x24, #16]
	cbz	x8, L(65_168)
	ldur	x0, [x24, #-32]
	bl	C(yurewha_heap_dealloc)
L(65_168):
	cbz	x25, L(65_165)
	mov	x0, x20
	bl	C(yurewha_heap_dealloc)
	b	L(65_165)
L(65_170):
	cbz	x23, L(65_172)
	mov	x0, x21
	bl	C(yurewha_heap_dealloc)
L(65_172):
	ldp	x19, x20, [x26, #80]
	ldr	x21, [x26, #96]
	cbz	x20, L(65_177)
	add	x22, x19, #16
	b	L(65_175)
L(65_174):
	subs	x20, x20, #1
	add	x22, x22, #24
	b.eq	L(65_177)
L(65_175):
	ldr	x8, [x22]
	cbz	x8, L(65_174)
	ldur	x0, [x22, #-16]
	bl	C(yurewha_heap_dealloc)
	b	L(65_174)
L(65_177):
	cbnz	x21, L(65_30)
	mov	w22, wzr
	mov	x25, xzr
	b	L(65_32)
L(65_179):
	cbz	x22, L(65_181)
	mov	x0, x19
	bl	C(yurewha_heap_dealloc)
L(65_181):
	ldp	x19, x23, [x26, #8]
	ldr	x22, [x26, #24]
	cbz	x23, L(65_188)
	add	x24, x19, #32
	b	L(65_184)
L(65_183):
	subs	x23, x23, #1
	add	x24, x24, #56
	b.eq	L(65_188)
L(65_184):
	ldur	x8, [x24, #-16]
	ldr	x20, [x24]
	ldr	x25, [x24, #16]
	cbz	x8, L(65_186)
	ldur	x0, [x24, #-32]
	bl	C(yurewha_heap_dealloc)
L(65_186):
	cbz	x25, L(65_183)
	mov	x0, x20
	bl	C(yurewha_heap_dealloc)
	b	L(65_183)
L(65_188):
	cbz	x22, L(65_190)
L(65_189):
	mov	x0, x19
	bl	C(yurewha_heap_dealloc)
L(65_190):
	and	w8, w21, #0xff
	cmp	w8, #2
	b.ne	L(65_214)
L(65_191):
	ldrb	w8, [sp, #368]
	cmp	w8, #1
	b.ne	L(65_193)
	ldr	x0, [sp, #376]
	bl	"std_collections::btree::node::Node::destroy::<#e27c17be7fe85c1a>"
L(65_193):
	ldr	x8, [sp, #416]
	cbz	x8, L(65_195)
	ldr	x0, [sp, #400]
	bl	C(yurewha_heap_dealloc)
L(65_195):
	mov	x20, xzr
	mov	w8, #2
L(65_196):
	mov	w9, #1
	stp	x8, x20, [sp, #88]
	add	x0, sp, #80
	strb	w9, [sp, #80]
L(65_197):
	bl	"xetroot_text::program::report::<#03326aa510967ad1>"
	and	w0, w0, #0xff
L(65_198):
	add	sp, sp, #17, lsl #12
	add	sp, sp, #400
	ldp	x20, x19, [sp, #80]
	.cfi_remember_state
	.cfi_restore x19
	.cfi_restore x20
	ldp	x22, x21, [sp, #64]
	.cfi_restore x21
	.cfi_restore x22
	ldp	x24, x23, [sp, #48]
	.cfi_restore x23
	.cfi_restore x24
	ldp	x26, x25, [sp, #32]
	.cfi_restore x25
	.cfi_restore x26
	ldp	x28, x27, [sp, #16]
	.cfi_restore x27
	.cfi_restore x28
	ldp	x29, x30, [sp], #96
	.cfi_def_cfa sp, 0
	.cfi_restore x29
	.cfi_restore x30
	hint	#29
	.cfi_escape 0x2d
	ret
L(65_199):
	.cfi_restore_state
	ldrb	w8, [x26]
	tbz	w8, #0, L(65_214)
	ldrb	w8, [x26, #1]
	tbz	w8, #0, L(65_214)
	ldr	x8, [x26, #16]
	cbz	x8, L(65_214)
	mov	w9, #56
	ldr	x10, [x26, #8]
	madd	x8, x8, x9, x10
	ldur	x10, [x8, #-48]
	ldur	x9, [x8, #-32]
	cmp	x10, x9
	b.ne	L(65_204)
	mov	x22, xzr
	mov	x23, xzr
	mov	x24, xzr
	mov	x25, xzr
	b	L(65_205)
L(65_204):
	mov	w10, #40
	ldur	x8, [x8, #-56]
	madd	x8, x9, x10, x8
	ldp	x22, x23, [x8]
	ldp	x24, x25, [x8, #16]
L(65_205):
	orr	x0, x27, #0x8
	bl	"xetroot::xet_merkle++merkle_hash_subtree++subtree++MerkleHashSubtree+Destruct::drop::<#024afdc31600bcbd>"
	add	x0, sp, #16, lsl #12
	add	x0, x0, #2352
	bl	"xetroot::xet_merkle++merkle_hash_subtree++subtree++MerkleHashSubtree+Destruct::drop::<#024afdc31600bcbd>"
	mov	x27, x22
	mov	x28, x23
	mov	x19, x24
	mov	x21, x25
	cbz	w20, L(65_211)
	movi	v0.2d, #0000000000000000
	movi	v1.2d, #0000000000000000
	add	x0, sp, #16, lsl #12
	add	x1, sp, #16, lsl #12
	add	x0, x0, #368
	mov	x2, xzr
	add	x1, x1, #2432
	mov	w3, #32
	mov	w4, #27
	stp	x22, x23, [x26, #80]
	stp	q0, q0, [x26, #112]
	stp	x24, x25, [x26, #96]
	bl	"keyed_blake3::compression::compress"
	add	x8, sp, #16, lsl #12
	ldp	x27, x28, [x8, #368]!
	ldp	x19, x21, [x8, #16]
	ldrb	w8, [sp, #368]
	cmp	w8, #1
	b.eq	L(65_212)
L(65_207):
	ldr	x8, [sp, #416]
	cbz	x8, L(65_209)
L(65_208):
	ldr	x0, [sp, #400]
	bl	C(yurewha_heap_dealloc)
L(65_209):
	rev	x8, x22
	rev	x9, x23
	rev	x10, x24
	fmov	d16, x8
	movi	v3.16b, #15
	fmov	d17, x10
	rev	x8, x25
	movi	v1.16b, #160
	movi	v18.16b, #48
	movi	v19.16b, #87
	movi	v4.16b, #10
	movi	v5.16b, #48
	mov	v16.d[1], x9
	mov	v17.d[1], x8
	rev	x8, x27
	movi	v6.16b, #87
	movi	v0.16b, #48
	rev	x9, x28
	movi	v2.16b, #87
	fmov	d7, x8
	rev	x8, x19
	add	x11, sp, #208
	rev	x10, x21
	add	x0, sp, #208
	and	v20.16b, v16.16b, v3.16b
	cmhi	v21.16b, v1.16b, v16.16b
	usra	v18.16b, v16.16b, #4
	usra	v19.16b, v16.16b, #4
	and	v16.16b, v17.16b, v3.16b
	cmhi	v24.16b, v1.16b, v17.16b
	usra	v5.16b, v17.16b, #4
	usra	v6.16b, v17.16b, #4
	mov	w1, #140
	cmhi	v22.16b, v4.16b, v20.16b
	orr	v23.16b, v20.16b, v0.16b
	str	wzr, [sp, #348]
	bif	v18.16b, v19.16b, v21.16b
	add	v20.16b, v20.16b, v2.16b
	cmhi	v17.16b, v4.16b, v16.16b
	bif	v5.16b, v6.16b, v24.16b
	mov	v7.d[1], x9
	mov	w9, #5
	mov	v19.16b, v22.16b
	movi	v21.16b, #48
	movi	v22.16b, #87
	mov	v6.16b, v17.16b
	bsl	v19.16b, v23.16b, v20.16b
	orr	v20.16b, v16.16b, v0.16b
	add	v16.16b, v16.16b, v2.16b
	fmov	d23, x8
	cmhi	v17.16b, v1.16b, v7.16b
	orr	x8, x11, x9
	usra	v21.16b, v7.16b, #4
	usra	v22.16b, v7.16b, #4
	mov	w9, #32
	bsl	v6.16b, v20.16b, v16.16b
	and	v16.16b, v7.16b, v3.16b
	strb	w9, [sp, #122]
	st2	{ v18.16b, v19.16b }, [x8]
	add	x8, x11, #37
	mov	v23.d[1], x10
	movi	v18.16b, #48
	movi	v7.16b, #87
	mov	w10, #26122
	cmhi	v19.16b, v4.16b, v16.16b
	orr	v20.16b, v16.16b, v0.16b
	add	v16.16b, v16.16b, v2.16b
	movk	w10, #27753, lsl #16
	st2	{ v5.16b, v6.16b }, [x8]
	mov	v5.16b, v17.16b
	cmhi	v1.16b, v1.16b, v23.16b
	and	v3.16b, v23.16b, v3.16b
	usra	v18.16b, v23.16b, #4
	usra	v7.16b, v23.16b, #4
	add	x8, x11, #75
	bsl	v5.16b, v21.16b, v22.16b
	mov	v6.16b, v19.16b
	cmhi	v4.16b, v4.16b, v3.16b
	orr	v0.16b, v3.16b, v0.16b
	add	v2.16b, v3.16b, v2.16b
	str	w10, [sp, #104]
	mov	w10, #8293
	strh	w10, [sp, #108]
	bsl	v6.16b, v20.16b, v16.16b
	mov	v16.16b, v1.16b
	strb	w9, [sp, #212]
	ldr	w9, [sp, #104]
	bsl	v16.16b, v18.16b, v7.16b
	mov	v17.16b, v4.16b
	st2	{ v5.16b, v6.16b }, [x8]
	add	x8, x11, #107
	bsl	v17.16b, v0.16b, v2.16b
	st2	{ v16.16b, v17.16b }, [x8]
	mov	w8, #28536
	movk	w8, #25202, lsl #16
	stur	w8, [sp, #118]
	str	w8, [sp, #208]
	and	w8, w10, #0xffff
	add	x10, sp, #128
	sturh	w8, [x10, #153]
	mov	w8, #10
	strb	w8, [sp, #347]
	mov	w8, #140
	stur	w9, [x10, #149]
	str	x8, [sp, #352]
	bl	"line_io::devices::write_all::<#df9e9f1468b30f79>"
	and	w8, w0, #0xff
	tbz	w8, #0, L(65_213)
	mov	x20, xzr
	mov	w8, #4
	b	L(65_196)
L(65_211):
	ldrb	w8, [sp, #368]
	cmp	w8, #1
	b.ne	L(65_207)
L(65_212):
	ldr	x0, [sp, #376]
	bl	"std_collections::btree::node::Node::destroy::<#e27c17be7fe85c1a>"
	ldr	x8, [sp, #416]
	cbnz	x8, L(65_208)
	b	L(65_209)
L(65_213):
	strb	wzr, [sp, #80]
	add	x0, sp, #80
	stp	xzr, xzr, [sp, #88]
	b	L(65_197)
L(65_214):
	brk	#0x1
	SIZE(C(yurewha_program))
	.cfi_endproc

	TYPE(D(static.1), object)
CONSTANTS(.rodata..Lstatic.1)
D(static.1):
	.ascii	"Usage: xetroot\n\nThe root and the file hash of the pairs and chunks in the lines of standard input,\nas `xorb <hex>` and `file <hex>` on standard output. A line is\n\n  <64 hex digits> <size>    a pair\n  +<bytes>                  a chunk, whose pair is its hash and its size\n  @<position>               the position of the next pair\n  --                        the end of a range, which changes nothing\n\nA fault goes to standard error with its number, which is the exit status: 1 a bad\nline, 2 sizes that pass 2^64 - 1, 3 out of memory, 4 a failed read, 5 a failed write,\n6 a position that is taken, 7 a gap. The status is 64 after a wrong argument.\n\n  -h, --help    prints this text\n  --version     prints the versions of xetroot and of xet-core-structures\n"
	SIZE(D(static.1))

	TYPE(D(static.2), object)
CONSTANTS(.rodata..Lstatic.2)
D(static.2):
	.ascii	"xetroot 1.1.0 (hashes of xet-core-structures 1.5.2)\n"
	SIZE(D(static.2))

	TYPE(D(static.3), object)
CONSTANTS(.rodata..Lstatic.3)
D(static.3):
	.ascii	"xetroot: expected no argument, --help or --version"
	SIZE(D(static.3))

	TYPE(D(static.13), object)
CONSTANTS(.rodata..Lstatic.13)
D(static.13):
	.ascii	" : "
	SIZE(D(static.13))

	TYPE(D(static.14), object)
CONSTANTS(.rodata..Lstatic.14)
D(static.14):
	.byte	10
	SIZE(D(static.14))

	TYPE(D(static.15), object)
CONSTANTS(.rodata..Lstatic.15)
	.p2align	1, 0x0
D(static.15):
	.ascii	"00010203040506070809101112131415161718192021222324252627282930313233343536373839404142434445464748495051525354555657585960616263646566676869707172737475767778798081828384858687888990919293949596979899"
	SIZE(D(static.15))

	TYPE(D(static.16), object)
SIZED(32, 5)
D(static.16):
	.ascii	"\001~\305\307\245G)\226\375\224ff\264\212\002\346]\335So7\307m\322\370cR\346JSq?"
	SIZE(D(static.16))

	TYPE(D(static.19), object)
D(static.19):
	.ascii	"f\227\365w[\225P\33615\313\254\245\227\030\034\235\344!\020\233\353+X\264\320\260K\223\255\362)"
	SIZE(D(static.19))

	TYPE(D(static.21), object)
CONSTANTS(.rodata..Lstatic.21)
	.p2align	3, 0x0
D(static.21):
	.ascii	"xorb "
	SIZE(D(static.21))

	TYPE(D(static.22), object)
CONSTANTS(.rodata..Lstatic.22)
	.p2align	2, 0x0
D(static.22):
	.ascii	"\nfile "
	SIZE(D(static.22))

	TYPE(D(static.24), object)
CONSTANTS(.rodata..Lstatic.24)
D(static.24):
	.ascii	"xetroot: fault "
	SIZE(D(static.24))

	TYPE(D(static.25), object)
CONSTANTS(.rodata..Lstatic.25)
D(static.25):
	.ascii	" at line "
	SIZE(D(static.25))

NO_STACK
#else
NO_STACK
#endif
END
